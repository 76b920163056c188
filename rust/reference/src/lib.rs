//! Second implementation of GDL 90 framing, collecting, messages, uplink payloads,
//! texts and the frame lister, written from 001 and the rules (docs/RULES.md)
//! alone, so that the proved library has something independent to be compared with.

pub mod collecting;
pub mod fcs;
pub mod framing;
pub mod information_frames;
pub mod listing;
pub mod messages;
pub mod payloads;
pub mod recording;
pub mod samples;
pub mod state;
pub mod tally;
pub mod text;
pub mod texts;
pub mod vectors;
pub mod whole_recording;
pub mod xorshift;
