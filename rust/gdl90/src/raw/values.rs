//! Values that the C functions take and give, laid out as include/gdl90.h has
//! them.

// The header says of each field what it is.
#![allow(missing_docs)]

use crate::error::{accepted, Error};
use crate::units::{GeometricSteps, PressureSteps, TerrainFeet};

/// Mark: the field is a number.
pub const PLAIN: u8 = 0;
/// Mark: there is no number.
pub const NONE: u8 = 1;
/// Mark of a speed or a figure of merit; of a climb: more than 509 steps up.
pub const OVER: u8 = 2;
/// Mark of a climb only: more than 509 steps down.
pub const BELOW: u8 = 3;

/// The first byte of a message of each kind.
pub mod id {
    /// Heartbeat.
    pub const HEARTBEAT: u8 = 0;
    /// Initialization.
    pub const INITIALIZATION: u8 = 2;
    /// Uplink.
    pub const UPLINK: u8 = 7;
    /// Height above terrain.
    pub const HEIGHT: u8 = 9;
    /// Ownship report.
    pub const OWNSHIP: u8 = 10;
    /// Geometric altitude.
    pub const GEOMETRIC: u8 = 11;
    /// Traffic report.
    pub const TRAFFIC: u8 = 20;
}

/// Answer of framing: the number, and the bytes written, 0 with a refusal.
#[repr(C)]
#[derive(Clone, Copy, Debug, PartialEq, Eq, Default)]
pub struct FrameAnswer {
    pub number: u8,
    pub length: usize,
}

/// What collecting keeps between two calls, beside the room: all zero is the
/// fresh state. A count over 438, over 878 stuffed bytes or a phase over 4 is
/// taken as the fresh state.
#[repr(C)]
#[derive(Clone, Copy, Debug, PartialEq, Eq, Default)]
pub struct FeedControl {
    pub count: usize,
    pub stuffed: usize,
    pub phase: u8,
}

/// Answer of collecting: the state to go on with, the bytes taken, and, if the
/// last of them closed a frame, the number, with 0 the message's length, and with
/// 1 to 5 the position.
#[repr(C)]
#[derive(Clone, Copy, Debug, PartialEq, Eq, Default)]
pub struct FeedAnswer {
    pub control: FeedControl,
    pub taken: usize,
    pub answered: bool,
    pub number: u8,
    pub length: usize,
    pub position: usize,
}

/// Answer of reading a recording: the number, and the entries in the list, 0 with a
/// refusal.
#[repr(C)]
#[derive(Clone, Copy, Debug, PartialEq, Eq, Default)]
pub struct RecordingAnswer {
    pub number: u8,
    pub entries: usize,
}

/// Numbers of a heartbeat.
#[repr(C)]
#[derive(Clone, Copy, Debug, PartialEq, Eq, Default)]
pub struct Heartbeat {
    pub status1: u8,
    pub status2: u8,
    pub time: u32,
    pub uplinks: u8,
    pub reserved: u8,
    pub basic_and_long: u16,
}

/// Bytes of an initialization.
#[repr(C)]
#[derive(Clone, Copy, Debug, PartialEq, Eq, Default)]
pub struct Initialization {
    pub first: u8,
    pub second: u8,
}

/// An uplink but for its payload, which is the message from its fifth byte on.
#[repr(C)]
#[derive(Clone, Copy, Debug, PartialEq, Eq, Default)]
pub struct Uplink {
    pub reception_mark: u8,
    pub reception: u32,
}

/// Numbers of a height above terrain.
#[repr(C)]
#[derive(Clone, Copy, Debug, PartialEq, Eq, Default)]
pub struct Height {
    pub height_mark: u8,
    pub height: TerrainFeet,
}

/// Numbers of an ownship's or a traffic report.
#[repr(C)]
#[derive(Clone, Copy, Debug, PartialEq, Eq, Default)]
pub struct Report {
    pub alert: u8,
    pub address_type: u8,
    pub address: u32,
    pub position_mark: u8,
    pub latitude: i32,
    pub longitude: i32,
    pub altitude_mark: u8,
    pub altitude: PressureSteps,
    pub track_kind: u8,
    pub extrapolated: bool,
    pub airborne: bool,
    pub integrity: u8,
    pub accuracy: u8,
    pub speed_mark: u8,
    pub speed: u16,
    pub climb_mark: u8,
    pub climb: i32,
    pub track: u8,
    pub emitter: u8,
    pub call_sign: [u8; 8],
    pub priority: u8,
    pub spare: u8,
}

/// Numbers of a geometric altitude.
#[repr(C)]
#[derive(Clone, Copy, Debug, PartialEq, Eq, Default)]
pub struct Geometric {
    pub altitude: GeometricSteps,
    pub warning: bool,
    pub merit_mark: u8,
    pub merit: u16,
}

/// Answer of reading: the number, and the value, all zero with a refusal.
#[repr(C)]
#[derive(Clone, Copy, Debug, PartialEq, Eq, Default)]
pub struct Read<T> {
    pub number: u8,
    pub value: T,
}

/// Answer of writing: the number, and the bytes written, 0 with a refusal.
#[repr(C)]
#[derive(Clone, Copy, Debug, PartialEq, Eq, Default)]
pub struct WriteAnswer {
    pub number: u8,
    pub length: usize,
}

/// Answer of listing: the number, how many information frames, and where in
/// the application data their list ends, 0 and 0 with a refusal.
#[repr(C)]
#[derive(Clone, Copy, Debug, PartialEq, Eq, Default)]
pub struct PayloadListAnswer {
    pub number: u8,
    pub count: usize,
    pub end: usize,
}

/// Answer to the question for one frame: the number, the frame's type and
/// reserved bits, where in the payload its data start, and how many bytes they
/// are; all 0 with a refusal.
#[repr(C)]
#[derive(Clone, Copy, Debug, PartialEq, Eq, Default)]
pub struct PayloadNthAnswer {
    pub number: u8,
    pub kind: u8,
    pub reserved: u8,
    pub start: usize,
    pub length: usize,
}

/// Answer of reading a text: the number, what the text's header carries, and the
/// bytes written, all 0 with a refusal.
#[repr(C)]
#[derive(Clone, Copy, Debug, PartialEq, Eq, Default)]
pub struct TextAnswer {
    pub number: u8,
    pub hours: u8,
    pub minutes: u8,
    pub padding: u8,
    pub length: usize,
}

/// Answer of degrees: the number, and latitude and longitude, 0 and 0 with a
/// refusal.
#[repr(C)]
#[derive(Clone, Copy, Debug, PartialEq, Default)]
pub struct DegreesAnswer {
    pub number: u8,
    pub latitude: f64,
    pub longitude: f64,
}

impl FrameAnswer {
    /// The bytes written.
    #[inline]
    pub fn result(self) -> Result<usize, Error> {
        accepted(self.number, self.length)
    }
}

impl RecordingAnswer {
    /// The entries in the list.
    #[inline]
    pub fn result(self) -> Result<usize, Error> {
        accepted(self.number, self.entries)
    }
}

impl<T> Read<T> {
    /// The value.
    #[inline]
    pub fn result(self) -> Result<T, Error> {
        accepted(self.number, self.value)
    }
}

impl WriteAnswer {
    /// The bytes written.
    #[inline]
    pub fn result(self) -> Result<usize, Error> {
        accepted(self.number, self.length)
    }
}

impl PayloadListAnswer {
    /// How many information frames.
    #[inline]
    pub fn result(self) -> Result<usize, Error> {
        accepted(self.number, self.count)
    }
}

impl TextAnswer {
    /// The bytes written.
    #[inline]
    pub fn result(self) -> Result<usize, Error> {
        accepted(self.number, self.length)
    }
}
