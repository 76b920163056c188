//! GDL 90 bytes, as receivers send them to a moving map: frames, collecting from
//! a stream, the seven kinds of message, uplink payloads, weather texts.
//!
//! The work is done by `libgdl90.a`, which is proved to do what its contracts say
//! for every input; this crate gives it types. It needs nothing but the standard
//! library. Its build script makes the archive with `rt lib` in crates/gdl90_c where
//! it is not there or older than its sources; GDL90_LIB_DIR names another folder
//! that has it. The archive is for x86-64 Linux only.
//!
//! ```
//! use gdl90::Collector;
//!
//! let mut collector = Collector::new();
//! // The heartbeat of 001 §2.2.4, then the same with a bit flipped.
//! let stream = [
//!     0x7E, 0x00, 0x81, 0x41, 0xDB, 0xD0, 0x08, 0x02, 0xB3, 0x8B, 0x7E,
//!     0x7E, 0x00, 0x81, 0x41, 0xDB, 0xD0, 0x08, 0x02, 0xB3, 0x8A, 0x7E,
//! ];
//! let mut lines = Vec::new();
//! for answer in collector.answers(&stream) {
//!     match answer {
//!         Ok(received) => lines.push(received.message()?.to_string()),
//!         Err(refusal) => {
//!             let number = refusal.error.number();
//!             lines.push(format!("refused with {number}: {refusal}"));
//!         }
//!     }
//! }
//! assert_eq!(lines, [
//!     "heartbeat at 14:51:07 UTC, status 0x81 0x41, \
//!      received in the last second: 1 uplinks, 2 basic and long",
//!     "refused with 5: the check sequence differs, at byte 9",
//! ]);
//! # let second = gdl90::Recording::read(&stream);
//! # let second = second.answers().map(|a| a.map_err(|r| (r.error.number(), r.position)));
//! # assert!(second.eq([Ok(&stream[1..8]), Err((5, 9))]));
//! # Ok::<(), gdl90::Error>(())
//! ```
//!
//! - [`Collector`] takes a stream in slices and answers with messages; its
//!   [`Tally`] says how often it gave each answer. [`Recording`] has the same
//!   answers to bytes that are there as a whole.
//! - [`Message`] reads and writes a message as a typed value; [`frame`] and
//!   [`framed`] make a frame of its bytes.
//! - [`information_frames`] and [`add_information_frame`] go into an uplink's
//!   payload, and [`Text`] reads and writes the weather text of a frame.
//! - [`Error`] says why something was refused, and [`Refusal`] also where a frame
//!   broke. Nothing panics, whatever the bytes and values, if archive and crate are
//!   of one version.
//!
//! 001 is the public GDL 90 specification (560-1058-00 Rev A). RULES is the
//! library's own docs/RULES.md, every rule that it keeps; its heading 'Numbers'
//! says when each number is given.

#![warn(missing_docs)]
#![deny(unsafe_op_in_unsafe_fn)]
#![deny(unsafe_code)]

mod collecting;
mod error;
mod framing;
mod information_frames;
mod message;
#[allow(unsafe_code)]
pub mod raw;
mod recording;
mod tally;
mod text;
mod units;

pub use collecting::{Answers, Collector, Fed, Received, Refusal};
pub use error::Error;
pub use framing::{check_sequence, frame, framed, FRAME_MAX, MESSAGE_MAX};
pub use information_frames::{
    add_information_frame, information_frame, information_frames, InformationFrame,
    InformationFrames, PAYLOAD_LENGTH,
};
pub use message::{
    CallSign, Climb, GeometricAltitude, Heartbeat, HeightAboveTerrain, Initialization, Merit,
    Message, Report, Speed, TrackKind, Uplink,
};
pub use recording::{RecordedAnswers, Recording};
pub use tally::Tally;
pub use text::{Text, LONGEST_TEXT};
pub use units::{Degrees, GeometricSteps, Position, PressureSteps, TerrainFeet};
