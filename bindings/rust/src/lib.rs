//! An SRP target port, one channel: the calls of the proved library libexports.a in safe Rust, `no_std`.
//!
//! The library reads an initiator's messages, keeps the credit between both ends and cuts the initiator's buffers into
//! RDMA operations. The owner has the adapter, the device server and the memory: it hands messages to a [`Port`], posts
//! the operations and sends the messages that the port writes. Documents 01 and 02, whose numbers a [`Refusal`] has,
//! describe the calls; include/srp_target.h is the same interface in C, with what an owner has to see to.
//!
//! An SRP_CMD comes in by [`Port::take`]. Where it then waits for its tables, [`look`] names them; they are fetched while
//! further messages are taken, and [`Port::tables`] brings them, of one command before or after another. Then come
//! [`Port::plan`], [`Port::pieces`] for each move of its data, and [`Port::finish`]. With many commands open, an owner
//! may name their moves by [`Port::name_move`] instead, and [`Port::turns`] hands out the operations of all of them,
//! each move in its turn. A refusal of [`Port::take`] or [`Port::tables`] that comes with a message carries it: see
//! [`TakeRefusal`] and [`TablesRefusal`]. A [`Step`], a [`Turn`] and [`Pieces::number`] tell the operations handed out
//! for a move, each of which needs an adapter slot while it is under way; [`Settings::boundary`] is for adapters that
//! fail an operation across a multiple of a power of two. [`cut`] is the cut alone, without a port; [`trace`] writes
//! any message, of either end, as a line for a terminal; [`format_counts`] says where the values of a command's format
//! byte lead.
//!
//! A login; then a command that reads 1,300 bytes to address 1000h, handle 7, in RDMA operations of up to 512 bytes:
//!
//! ```
//! use srp_target::{Direction, Kind, Port, Settings, Step, Taken, MESSAGE_BYTES};
//!
//! let settings = Settings { buffers: 4, maximum: 512, boundary: 0, longest: 1364, indirect: true, solicited: false };
//! let own = [0xa5; 16];
//! let mut buf = [0; MESSAGE_BYTES];
//!
//! let mut login = [0; 64]; // SRP_LOGIN_REQ
//! login[15] = 1; // tag
//! login[16..20].copy_from_slice(&1364u32.to_be_bytes()); // requested length
//! login[25] = 0x06; // required formats: direct and indirect
//! login[48..64].copy_from_slice(&own);
//! let (mut port, message) = Port::login(&settings, &own, &login, &mut buf).unwrap();
//! assert_eq!(message.len(), 52);
//! assert_eq!(message[..8], [0xc0, 0, 0, 0, 0, 0, 0, 4]); // SRP_LOGIN_RSP, 4 requests
//!
//! let mut command = [0; 64]; // SRP_CMD
//! command[0] = 0x02;
//! command[5] = 0x01; // data-in: one memory descriptor
//! command[15] = 9; // tag
//! command[48..56].copy_from_slice(&0x1000u64.to_be_bytes());
//! command[56..60].copy_from_slice(&7u32.to_be_bytes());
//! command[60..64].copy_from_slice(&1300u32.to_be_bytes());
//! let Ok(Taken::Command { tag, cdb, waits, .. }) = port.take(&command, &mut buf) else { panic!() };
//! assert_eq!((tag, cdb, waits), (9, &command[32..48], false));
//!
//! port.plan(tag, 0, 1300)?;
//! let mut pieces = Vec::new();
//! for (way, required) in [(Direction::Out, 0), (Direction::In, 1300)] {
//!     for operation in port.pieces(tag, way, 0, required)? { // the owner posts it
//!         assert_eq!((operation.kind, operation.handle), (Kind::Write, 7));
//!         pieces.push((operation.address, operation.length, operation.offset));
//!     }
//! }
//! assert_eq!(pieces, [(0x1000, 512, 0), (0x1200, 512, 512), (0x1400, 276, 1024)]);
//! assert_eq!(port.step(tag, Direction::In)?, Step { operation: None, number: 3 }); // done, by 3 operations
//!
//! let message = port.finish(tag, 0x00, &[], &mut buf)?; // the owner sends it
//! let mut response = [0; 36]; // SRP_RSP: status GOOD, no residual
//! response[0] = 0xc1;
//! response[7] = 1; // limit delta
//! response[15] = 9; // tag
//! assert_eq!(message, response);
//! # Ok::<(), srp_target::Refusal>(())
//! ```
//!
//! On such a port two commands of which each has the same segment behind a table at 9000h, handle 3. Both tables are
//! fetched side by side, and the second command's comes first:
//!
//! ```
//! use srp_target::{look, Fetch, Refusal, Tables, Taken};
//! # use srp_target::{Port, Settings, MESSAGE_BYTES};
//! # let settings = Settings { buffers: 4, maximum: 512, boundary: 0, longest: 1364, indirect: true, solicited: false };
//! # let (own, mut buf, mut login) = ([0xa5; 16], [0; MESSAGE_BYTES], [0; 64]);
//! # login[16..20].copy_from_slice(&1364u32.to_be_bytes());
//! # login[25] = 0x06;
//! # login[48..64].copy_from_slice(&own);
//! # let (mut port, _) = Port::login(&settings, &own, &login, &mut buf).unwrap();
//! let segment = [0, 0, 0, 0, 0, 0, 0x10, 0, 0, 0, 0, 7, 0, 0, 5, 0x14]; // 1000h, handle 7, 1,300 bytes
//! let mut command = [0; 68]; // SRP_CMD
//! command[0] = 0x02;
//! command[5] = 0x02; // data-in: a table
//! command[48..68].copy_from_slice(&[0, 0, 0, 0, 0, 0, 0x90, 0, 0, 0, 0, 3, 0, 0, 0, 16, 0, 0, 5, 0x14]);
//! for tag in [9, 10] {
//!     command[15] = tag;
//!     let Ok(Taken::Command { waits: true, .. }) = port.take(&command, &mut buf) else { panic!() };
//!     let tables = look(&command, 1364, 0x06)?; // the owner posts an RDMA Read, and takes the next message
//!     assert_eq!(tables.data_in, Some(Fetch { address: 0x9000, handle: 3, length: 16 }));
//! }
//! for tag in [10, 9] { // as the Reads complete
//!     assert_eq!(port.plan(tag, 0, 1300), Err(Refusal::Waiting));
//!     port.tables(tag, Tables { data_in: &segment, ..Tables::NONE }, &mut buf).unwrap();
//!     port.plan(tag, 0, 1300)?;
//! }
//! # Ok::<(), srp_target::Refusal>(())
//! ```
//!
//! # Linking
//!
//! Crate srp_target_sys, beside this one and its only dependency, declares the C interface. Its build script looks for
//! libexports.a in `SRP_LIB_DIR`, by default target/staticlib of the project, where `tools/build exports` writes it.
//! The library is for x86-64; of the C library it needs memcpy, memmove, memset and memcmp at most.

#![no_std]
#![deny(unsafe_code)]
#![warn(missing_docs)]

mod answer;
mod argument;
#[allow(unsafe_code)]
mod ffi;
mod message;
mod outcome;
mod pieces;
mod port;
mod refusal;
mod stateless;
mod turns;

pub use answer::{Counters, Kind, Operation, Record, Step, Taken, Turn};
pub use argument::{Direction, Settings, Tables};
pub use message::Message;
pub use pieces::Pieces;
pub use port::Port;
pub use refusal::{LoginRefusal, NoRefusal, Refusal, TablesRefusal, TakeRefusal};
pub use stateless::{cut, format_counts, look, trace, Fetch, Fetches, FormatCounts, Piece, Way};
pub use turns::Turns;

/// The longest message that a port writes, and the shortest buffer that may be lent for one.
pub const MESSAGE_BYTES: usize = srp_target_sys::MESSAGE_BYTES;

/// The line of a message with its line feed, and the shortest buffer that may be lent for one.
pub const TRACE_BYTES: usize = srp_target_sys::TRACE_BYTES;

/// The longest sense that a response carries.
pub const SENSE_BYTES: usize = srp_target_sys::SENSE_BYTES;

/// The most commands that are open at once, and the shortest list that may be lent for a listing.
pub const MOST_BUFFERS: usize = srp_target_sys::MOST_BUFFERS as usize;
