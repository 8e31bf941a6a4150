/*
 * The header's numbers are the papers' and those of the C interface. SRP_PORT_WORDS is the library's own: each login
 * of the driver asks for it.
 */
#include "srp_target.h"

_Static_assert(SRP_TARGET_VERSION == 8, "version");

_Static_assert(SRP_REFUSED_SHORT_BUFFER == 1, "short buffer");
_Static_assert(SRP_REFUSED_SETTING == 2, "setting");
_Static_assert(SRP_REFUSED_LENGTH == 3, "length");
_Static_assert(SRP_REFUSED_OTHER_TYPE == 4, "other type");
_Static_assert(SRP_REFUSED_OUT_FORMAT == 5, "out format");
_Static_assert(SRP_REFUSED_IN_FORMAT == 6, "in format");
_Static_assert(SRP_REFUSED_OUT_COUNT == 7, "out count");
_Static_assert(SRP_REFUSED_IN_COUNT == 8, "in count");
_Static_assert(SRP_REFUSED_TABLE_LENGTH == 9, "table length");
_Static_assert(SRP_REFUSED_FIELDS == 10, "fields");
_Static_assert(SRP_REFUSED_ARGUMENT == 11, "argument");
_Static_assert(SRP_REFUSED_CLOSED == 21, "closed");
_Static_assert(SRP_REFUSED_NO_CREDIT == 22, "no credit");
_Static_assert(SRP_REFUSED_TAG_OPEN == 23, "tag open");
_Static_assert(SRP_REFUSED_TAG_NOT_OPEN == 24, "tag not open");
_Static_assert(SRP_REFUSED_CREDIT_RESPONSE == 25, "credit response");
_Static_assert(SRP_REFUSED_UNANSWERED == 26, "unanswered");
_Static_assert(SRP_REFUSED_NOT_OWED == 27, "not owed");
_Static_assert(SRP_REFUSED_WANTED == 28, "wanted");
_Static_assert(SRP_REFUSED_UNPLANNED == 29, "unplanned");
_Static_assert(SRP_REFUSED_PLANNED == 30, "planned");
_Static_assert(SRP_REFUSED_OFFSET == 31, "offset");
_Static_assert(SRP_REFUSED_UNFINISHED == 32, "unfinished");
_Static_assert(SRP_REFUSED_WAITING == 33, "waiting");

_Static_assert(SRP_STORE_BYTES == 16384, "bytes of a store");
_Static_assert(SRP_ANSWER_WORDS == 8, "words of an answer");
_Static_assert(SRP_ANSWER_BYTES == 32, "bytes of an answer");
_Static_assert(SRP_TRACE_BYTES == 81, "line");
_Static_assert(SRP_MESSAGE_BYTES == 132, "lent buffer");
_Static_assert(SRP_SENSE_BYTES == 96, "sense");
_Static_assert(SRP_TABLE_BYTES == 512, "table");
_Static_assert(SRP_RECORD_WORDS == 4, "record");
_Static_assert(SRP_LIST_WORDS == 64, "listing");
_Static_assert(SRP_MOST_BUFFERS == 16 && SRP_LONGEST_PIECE == 1048576, "N and M");
_Static_assert(SRP_SHORTEST_AGREED == 64 && SRP_LONGEST_AGREED == 1364, "X");
_Static_assert(SRP_LEAST_BOUNDARY == 512 && SRP_GREATEST_BOUNDARY == 1ull << 32, "Q");

_Static_assert(SRP_SETTING_BUFFERS == 0 && SRP_SETTING_PIECE == 1 && SRP_SETTING_LENGTH == 2, "N, M, X");
_Static_assert(SRP_SETTING_INDIRECT == 3 && SRP_SETTING_SOLICITED == 4 && SRP_SETTINGS == 5, "indirect, solicited");
_Static_assert(SRP_FORMAT_BIT_DIRECT == 2 && SRP_FORMAT_BIT_INDIRECT == 4, "formats");
_Static_assert(SRP_REJECTED_NO_REASON == 0x00010000, "rejected");
_Static_assert(SRP_REJECTED_LENGTH == 0x00010002, "rejected, length");
_Static_assert(SRP_REJECTED_TARGET == 0x00010003, "rejected, target");
_Static_assert(SRP_REJECTED_FORMATS == 0x00010004, "rejected, formats");
_Static_assert(SRP_REJECTED_CHANNELS == 0x00010005, "rejected, channels");
_Static_assert(SRP_LOGOUT_NO_REASON == 0, "logout");
_Static_assert(SRP_LOGOUT_OUT_FORMAT == 6 && SRP_LOGOUT_IN_FORMAT == 7, "logout, formats");
_Static_assert(SRP_LOGOUT_OUT_COUNT == 8 && SRP_LOGOUT_IN_COUNT == 9, "logout, counts");
_Static_assert(SRP_KIND_REFUSED == 0 && SRP_KIND_COMMAND == 1 && SRP_KIND_TASK == 2, "kinds");
_Static_assert(SRP_KIND_CREDIT_RESPONSE == 3 && SRP_KIND_LOGOUT == 4, "kinds");
_Static_assert(SRP_DIRECTION_OUT == 0 && SRP_DIRECTION_IN == 1, "directions");
_Static_assert(SRP_RDMA_READ == 1 && SRP_RDMA_WRITE == 2, "operations");
