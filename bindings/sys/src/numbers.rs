//! The numbers of include/srp_target.h, in its order; tests/rust/tests/header.rs compares them.

// The version of the interface.
pub const TARGET_VERSION: u32 = 8;

// Refusals: from the message or the caller.
pub const REFUSED_SHORT_BUFFER: u32 = 1;
pub const REFUSED_SETTING: u32 = 2;
pub const REFUSED_LENGTH: u32 = 3;
pub const REFUSED_OTHER_TYPE: u32 = 4;
pub const REFUSED_OUT_FORMAT: u32 = 5;
pub const REFUSED_IN_FORMAT: u32 = 6;
pub const REFUSED_OUT_COUNT: u32 = 7;
pub const REFUSED_IN_COUNT: u32 = 8;
pub const REFUSED_TABLE_LENGTH: u32 = 9;
pub const REFUSED_FIELDS: u32 = 10;
pub const REFUSED_ARGUMENT: u32 = 11;

// Refusals: from what went before.
pub const REFUSED_CLOSED: u32 = 21;
pub const REFUSED_NO_CREDIT: u32 = 22;
pub const REFUSED_TAG_OPEN: u32 = 23;
pub const REFUSED_TAG_NOT_OPEN: u32 = 24;
pub const REFUSED_CREDIT_RESPONSE: u32 = 25;
pub const REFUSED_UNANSWERED: u32 = 26;
pub const REFUSED_NOT_OWED: u32 = 27;
pub const REFUSED_WANTED: u32 = 28;
pub const REFUSED_UNPLANNED: u32 = 29;
pub const REFUSED_PLANNED: u32 = 30;
pub const REFUSED_OFFSET: u32 = 31;
pub const REFUSED_UNFINISHED: u32 = 32;
pub const REFUSED_WAITING: u32 = 33;

// Sizes: of a port, of the answers, of lent buffers and lists.
pub const PORT_WORDS: usize = 594;
pub const STORE_BYTES: usize = 16_384;
pub const ANSWER_WORDS: usize = 8;
pub const ANSWER_BYTES: usize = 32;
pub const TRACE_BYTES: usize = 81;
pub const MESSAGE_BYTES: usize = 132;
pub const SENSE_BYTES: usize = 96;
pub const TABLE_BYTES: usize = 512;
pub const RECORD_WORDS: usize = 4;
pub const LIST_WORDS: usize = 64;

// The settings of a login, and their ranges.
pub const SETTING_BUFFERS: usize = 0;
pub const SETTING_PIECE: usize = 1;
pub const SETTING_LENGTH: usize = 2;
pub const SETTING_INDIRECT: usize = 3;
pub const SETTING_SOLICITED: usize = 4;
pub const SETTINGS: usize = 5;
pub const MOST_BUFFERS: u32 = 16;
pub const LONGEST_PIECE: u32 = 1_048_576;
pub const SHORTEST_AGREED: u32 = 64;
pub const LONGEST_AGREED: u32 = 1364;

// The boundary of a login and of the cut, Q: 0 for none, or a power of two.
pub const LEAST_BOUNDARY: u64 = 512;
pub const GREATEST_BOUNDARY: u64 = 4_294_967_296;

// Formats of data buffer descriptors, as bits of a login's required formats.
pub const FORMAT_BIT_DIRECT: u32 = 0x0002;
pub const FORMAT_BIT_INDIRECT: u32 = 0x0004;

// Reasons of SRP_LOGIN_REJ.
pub const REJECTED_NO_REASON: u32 = 0x0001_0000;
pub const REJECTED_LENGTH: u32 = 0x0001_0002;
pub const REJECTED_TARGET: u32 = 0x0001_0003;
pub const REJECTED_FORMATS: u32 = 0x0001_0004;
pub const REJECTED_CHANNELS: u32 = 0x0001_0005;

// Reasons of SRP_T_LOGOUT when srp_target_take closes the channel.
pub const LOGOUT_NO_REASON: u32 = 0;
pub const LOGOUT_OUT_FORMAT: u32 = 6;
pub const LOGOUT_IN_FORMAT: u32 = 7;
pub const LOGOUT_OUT_COUNT: u32 = 8;
pub const LOGOUT_IN_COUNT: u32 = 9;

// What srp_target_take took: answer[1].
pub const KIND_REFUSED: u64 = 0;
pub const KIND_COMMAND: u64 = 1;
pub const KIND_TASK: u64 = 2;
pub const KIND_CREDIT_RESPONSE: u64 = 3;
pub const KIND_LOGOUT: u64 = 4;

// Directions, and the operations of their pieces.
pub const DIRECTION_OUT: u32 = 0;
pub const DIRECTION_IN: u32 = 1;
pub const RDMA_READ: u64 = 1;
pub const RDMA_WRITE: u64 = 2;
