//! The C functions as they are: the structs of include/gdl90.h, and each
//! function with slices for pointers and lengths. The units of altitude are
//! [`PressureSteps`], [`GeometricSteps`] and [`TerrainFeet`] here too.
//!
//! Every function takes every input and ends. A refusal gives back zeros beside
//! its number and leaves lent memory as it was; only [`feed`] and [`feed_tallied`]
//! go on, as the room is part of their state, and say where the frame broke; the
//! second counts it too. [`read_recording`] has refused frames in its list. The rest
//! of this crate is made of these functions, and most programs need none of them.

mod values;

pub use values::{
    id, DegreesAnswer, FeedAnswer, FeedControl, FrameAnswer, Geometric, Heartbeat, Height,
    Initialization, PayloadListAnswer, PayloadNthAnswer, Read, RecordingAnswer, Report, TextAnswer,
    Uplink, WriteAnswer, BELOW, NONE, OVER, PLAIN,
};

pub use crate::tally::Tally;

use crate::units::{GeometricSteps, PressureSteps, TerrainFeet};

/// The longest message, an uplink (RULES 'Messages').
pub const MESSAGE_MAX: usize = 436;
/// Bytes that collecting keeps: the longest message and its check sequence.
pub const ROOM: usize = MESSAGE_MAX + 2;

extern "C" {
    fn gdl90_check_sequence(message: *const u8, message_len: usize) -> u16;
    fn gdl90_frame(
        message: *const u8,
        message_len: usize,
        out: *mut u8,
        out_len: usize,
    ) -> FrameAnswer;
    fn gdl90_feed(
        control: FeedControl,
        room: *mut [u8; ROOM],
        message: *mut [u8; MESSAGE_MAX],
        bytes: *const u8,
        bytes_len: usize,
    ) -> FeedAnswer;
    fn gdl90_feed_tallied(
        control: FeedControl,
        room: *mut [u8; ROOM],
        message: *mut [u8; MESSAGE_MAX],
        bytes: *const u8,
        bytes_len: usize,
        tally: *mut Tally,
    ) -> FeedAnswer;
    fn gdl90_read_recording(
        recording: *const u8,
        recording_len: usize,
        list: *mut usize,
        list_len: usize,
        messages: *mut u8,
        messages_len: usize,
    ) -> RecordingAnswer;
    fn gdl90_write_uplink(
        value: Uplink,
        payload: *const u8,
        payload_len: usize,
        out: *mut u8,
        out_len: usize,
    ) -> WriteAnswer;
    fn gdl90_payload_list(payload: *const u8, payload_len: usize) -> PayloadListAnswer;
    fn gdl90_payload_nth(payload: *const u8, payload_len: usize, n: usize) -> PayloadNthAnswer;
    fn gdl90_payload_add(
        payload: *mut u8,
        payload_len: usize,
        kind: u8,
        data: *const u8,
        data_len: usize,
    ) -> u8;
    fn gdl90_read_text(
        data: *const u8,
        data_len: usize,
        out: *mut u8,
        out_len: usize,
    ) -> TextAnswer;
    fn gdl90_write_text(
        hours: u8,
        minutes: u8,
        padding: u8,
        text: *const u8,
        text_len: usize,
        out: *mut u8,
        out_len: usize,
    ) -> WriteAnswer;
    fn gdl90_pressure_feet(altitude: PressureSteps) -> i32;
    fn gdl90_geometric_feet(altitude: GeometricSteps) -> i32;
    fn gdl90_terrain_feet(height: TerrainFeet) -> i32;
    fn gdl90_degrees(latitude: i32, longitude: i32) -> DegreesAnswer;
}

/// The frame check sequence of a message.
#[inline]
pub fn check_sequence(message: &[u8]) -> u16 {
    // SAFETY: pointer and length are those of one live slice, which is only read
    // and not kept.
    unsafe { gdl90_check_sequence(message.as_ptr(), message.len()) }
}

/// A message as a frame: 10, then 9.
#[inline]
pub fn frame(message: &[u8], out: &mut [u8]) -> FrameAnswer {
    // SAFETY: each pointer and length are those of one live slice. `out` is
    // borrowed mutably, so it does not overlap `message`; neither is kept.
    unsafe { gdl90_frame(message.as_ptr(), message.len(), out.as_mut_ptr(), out.len()) }
}

/// Takes bytes until one closes a frame or there are no more. The number is, of 1,
/// 2 and 3, the one that the bytes meet first; then 4, 5. No state is unsafe: one
/// that cannot be is taken as the fresh one (RULES 'Structs for C').
#[inline]
pub fn feed(
    control: FeedControl,
    room: &mut [u8; ROOM],
    message: &mut [u8; MESSAGE_MAX],
    bytes: &[u8],
) -> FeedAnswer {
    // SAFETY: `room` and `message` are live arrays of the lengths that the
    // function takes, `bytes` is one live slice. The two are borrowed mutably, so
    // none overlaps another; none is kept.
    unsafe { gdl90_feed(control, room, message, bytes.as_ptr(), bytes.len()) }
}

/// [`feed`], and the answer, where there is one, is counted: its count goes up by
/// one, or holds at [`u32::MAX`].
#[inline]
pub fn feed_tallied(
    control: FeedControl,
    room: &mut [u8; ROOM],
    message: &mut [u8; MESSAGE_MAX],
    bytes: &[u8],
    tally: &mut Tally,
) -> FeedAnswer {
    let (from, length) = (bytes.as_ptr(), bytes.len());
    // SAFETY: as in `feed`. `tally` is a live struct, laid out as the function has
    // it and borrowed mutably, so it overlaps none of the others; it is not kept.
    unsafe { gdl90_feed_tallied(control, room, message, from, length, tally) }
}

/// The answers to a recording that is there as a whole: 9. They are those of
/// [`feed`] from the fresh state on. Each is an entry of three numbers: its number,
/// its position (0 with a message), its message's length (0 with a refusal). The
/// messages stand one behind the other.
///
/// There are places for `list.len() / 3` entries; 9 exactly if there are more, or
/// the messages have more bytes than `messages`. Always enough are places for as
/// many entries as the recording has flags, or half as many as it has bytes,
/// whichever is less, and `recording.len()` bytes (RULES 'Recordings').
#[inline]
pub fn read_recording(
    recording: &[u8],
    list: &mut [usize],
    messages: &mut [u8],
) -> RecordingAnswer {
    let (from, length) = (recording.as_ptr(), recording.len());
    let (numbers, bytes) = (list.as_mut_ptr(), messages.as_mut_ptr());
    // SAFETY: each pointer and length are those of one live slice, of numbers for
    // the list. `list` and `messages` are borrowed mutably, so none of the three
    // overlaps another; none is kept.
    unsafe { gdl90_read_recording(from, length, numbers, list.len(), bytes, messages.len()) }
}

/// Declares C functions that read one kind of message each, and wraps them.
macro_rules! readers {
    ($($(#[$doc:meta])* $name:ident: $function:ident -> $value:ty;)*) => {
        extern "C" {
            $(fn $function(message: *const u8, message_len: usize) -> Read<$value>;)*
        }
        $(
            $(#[$doc])*
            #[inline]
            pub fn $name(message: &[u8]) -> Read<$value> {
                // SAFETY: pointer and length are those of one live slice, which
                // is only read and not kept.
                unsafe { $function(message.as_ptr(), message.len()) }
            }
        )*
    };
}

readers! {
    /// The id of the message's kind: 6, 17.
    kind: gdl90_kind -> u8;
    /// A heartbeat's numbers: 6, 7, 8.
    read_heartbeat: gdl90_read_heartbeat -> Heartbeat;
    /// An initialization's bytes: 6, 7.
    read_initialization: gdl90_read_initialization -> Initialization;
    /// An uplink's numbers: 6, 7, 8. The payload is the message from its fifth
    /// byte on.
    read_uplink: gdl90_read_uplink -> Uplink;
    /// The numbers of a height above terrain: 6, 7.
    read_height: gdl90_read_height -> Height;
    /// An ownship report's numbers: 6, 7, 8.
    read_ownship: gdl90_read_ownship -> Report;
    /// A geometric altitude's numbers: 6, 7.
    read_geometric: gdl90_read_geometric -> Geometric;
    /// A traffic report's numbers: 6, 7, 8.
    read_traffic: gdl90_read_traffic -> Report;
}

/// Declares C functions that write one kind of message each, and wraps them.
macro_rules! writers {
    ($($(#[$doc:meta])* $name:ident: $function:ident($value:ty);)*) => {
        extern "C" {
            $(fn $function(value: $value, out: *mut u8, out_len: usize) -> WriteAnswer;)*
        }
        $(
            $(#[$doc])*
            #[inline]
            pub fn $name(value: $value, out: &mut [u8]) -> WriteAnswer {
                // SAFETY: pointer and length are those of one live slice, which
                // is borrowed mutably and not kept.
                unsafe { $function(value, out.as_mut_ptr(), out.len()) }
            }
        )*
    };
}

writers! {
    /// A heartbeat's message: 8, 9.
    write_heartbeat: gdl90_write_heartbeat(Heartbeat);
    /// An initialization's message: 9.
    write_initialization: gdl90_write_initialization(Initialization);
    /// The message of a height above terrain: 8, 9.
    write_height: gdl90_write_height(Height);
    /// An ownship's message: 8, 9.
    write_ownship: gdl90_write_ownship(Report);
    /// A geometric altitude's message: 8, 9.
    write_geometric: gdl90_write_geometric(Geometric);
    /// A traffic report's message: 8, 9.
    write_traffic: gdl90_write_traffic(Report);
}

/// An uplink's message: 7 for a payload not of 432 bytes, 8, 9.
#[inline]
pub fn write_uplink(value: Uplink, payload: &[u8], out: &mut [u8]) -> WriteAnswer {
    let (from, to) = (payload.as_ptr(), out.as_mut_ptr());
    // SAFETY: each pointer and length are those of one live slice. `out` is
    // borrowed mutably, so it does not overlap `payload`; neither is kept.
    unsafe { gdl90_write_uplink(value, from, payload.len(), to, out.len()) }
}

/// How many information frames a payload has: 7, 11.
#[inline]
pub fn payload_list(payload: &[u8]) -> PayloadListAnswer {
    // SAFETY: pointer and length are those of one live slice, which is only read
    // and not kept.
    unsafe { gdl90_payload_list(payload.as_ptr(), payload.len()) }
}

/// Information frame n, numbered from 0: 7, 11, 13.
#[inline]
pub fn payload_nth(payload: &[u8], n: usize) -> PayloadNthAnswer {
    // SAFETY: as in `payload_list`.
    unsafe { gdl90_payload_nth(payload.as_ptr(), payload.len(), n) }
}

/// Adds an information frame behind the others; answers the number: 7, 11, 8, 9.
#[inline]
pub fn payload_add(payload: &mut [u8], kind: u8, data: &[u8]) -> u8 {
    let (to, from) = (payload.as_mut_ptr(), data.as_ptr());
    // SAFETY: each pointer and length are those of one live slice. `payload` is
    // borrowed mutably, so it does not overlap `data`; neither is kept.
    unsafe { gdl90_payload_add(to, payload.len(), kind, from, data.len()) }
}

/// The weather text in an information frame's data: 14, 15, 16, 9.
#[inline]
pub fn read_text(data: &[u8], out: &mut [u8]) -> TextAnswer {
    // SAFETY: each pointer and length are those of one live slice. `out` is
    // borrowed mutably, so it does not overlap `data`; neither is kept.
    unsafe { gdl90_read_text(data.as_ptr(), data.len(), out.as_mut_ptr(), out.len()) }
}

/// The data of a weather text: 8, 16, 9.
#[inline]
pub fn write_text(hours: u8, minutes: u8, padding: u8, text: &[u8], out: &mut [u8]) -> WriteAnswer {
    let (from, to) = (text.as_ptr(), out.as_mut_ptr());
    // SAFETY: each pointer and length are those of one live slice. `out` is
    // borrowed mutably, so it does not overlap `text`; neither is kept.
    unsafe { gdl90_write_text(hours, minutes, padding, from, text.len(), to, out.len()) }
}

/// Feet of a report's altitude, 25 feet a step from -1,000 feet on.
#[inline]
pub fn pressure_feet(altitude: PressureSteps) -> i32 {
    // SAFETY: a struct of one number by value; no memory is lent.
    unsafe { gdl90_pressure_feet(altitude) }
}

/// Feet of a geometric altitude, 5 feet a step.
#[inline]
pub fn geometric_feet(altitude: GeometricSteps) -> i32 {
    // SAFETY: as in `pressure_feet`.
    unsafe { gdl90_geometric_feet(altitude) }
}

/// Feet of a height above terrain.
#[inline]
pub fn terrain_feet(height: TerrainFeet) -> i32 {
    // SAFETY: as in `pressure_feet`.
    unsafe { gdl90_terrain_feet(height) }
}

/// A position in degrees: 8 for a number of steps that 24 bits do not hold.
#[inline]
pub fn degrees(latitude: i32, longitude: i32) -> DegreesAnswer {
    // SAFETY: numbers by value; no memory is lent.
    unsafe { gdl90_degrees(latitude, longitude) }
}
