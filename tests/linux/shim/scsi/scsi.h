/* The one type of the kernel's SCSI headers that scsi/srp.h uses. */
#ifndef SHIM_SCSI_SCSI_H
#define SHIM_SCSI_SCSI_H

#include <linux/types.h>

struct scsi_lun {
    u8 scsi_lun[8];
};

#endif
