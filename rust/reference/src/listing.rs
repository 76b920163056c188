//! The lister's output (RULES 'Listing'): one line for each answer to a stream; and
//! a note where the stream is no recording (RULES 'Notes').

use std::io::{self, BufWriter, ErrorKind, Read, Write};

use crate::collecting::{Answer, Collector};
use crate::framing::FLAG;
use crate::messages;

/// As many bytes are listed at most.
pub const LIMIT: u64 = 4_294_967_295;

/// Bytes asked for at a time.
pub const BLOCK: usize = 1 << 16;

const HEADER: &[u8] = b"n at ans id len pos\n";

/// Room for every line: two numbers of ten digits, an answer of two, an id and a
/// length of three, a dash, and a byte behind each.
const LINE_MAX: usize = 11 + 11 + 3 + 4 + 4 + 2;

/// What ended a listing early.
#[derive(Debug)]
pub enum Failure {
    Reading(io::Error),
    Writing(io::Error),
}

/// Lists the input to its end or to the limit. The lines of what came are
/// written before more is asked for.
pub fn list(input: impl Read, output: impl Write) -> Result<(), Failure> {
    list_up_to(LIMIT, input, output)
}

fn list_up_to(limit: u64, input: impl Read, output: impl Write) -> Result<(), Failure> {
    let mut input = input.take(limit);
    let mut out = BufWriter::with_capacity(BLOCK, output);
    let mut block = vec![0; BLOCK];
    let mut lister = Lister::default();
    out.write_all(HEADER).map_err(Failure::Writing)?;
    loop {
        out.flush().map_err(Failure::Writing)?;
        match input.read(&mut block) {
            Ok(0) => break,
            Ok(length) => lister.list(&block[..length], &mut out),
            Err(error) if error.kind() == ErrorKind::Interrupted => Ok(()),
            Err(error) => return Err(Failure::Reading(error)),
        }
        .map_err(Failure::Writing)?;
    }
    let end = lister.end(&mut out).and_then(|()| out.flush());
    end.map_err(Failure::Writing)
}

/// The listing of a whole stream.
pub fn listing(stream: &[u8]) -> Vec<u8> {
    let mut out = Vec::new();
    list(stream, &mut out).expect("memory can be read and written");
    out
}

/// How packet captures begin: pcap with times in microseconds and in nanoseconds,
/// each in both orders of bytes, and pcapng.
pub const CAPTURES: [[u8; 4]; 5] = [
    [0xA1, 0xB2, 0xC3, 0xD4],
    [0xD4, 0xC3, 0xB2, 0xA1],
    [0xA1, 0xB2, 0x3C, 0x4D],
    [0x4D, 0x3C, 0xB2, 0xA1],
    [0x0A, 0x0D, 0x0D, 0x0A],
];

/// Why a stream is no recording.
#[derive(Clone, Copy, Debug, PartialEq, Eq)]
pub enum Note {
    /// It begins as a packet capture does.
    Capture,
    /// It has no byte.
    Empty,
    /// None of the bytes that are listed is a flag.
    NoFlag,
}

impl Note {
    /// How its first line begins; the words behind are not fixed.
    pub fn beginning(self) -> &'static str {
        match self {
            Self::Capture => "note: the input begins as a packet capture",
            Self::Empty => "note: the input is empty",
            Self::NoFlag => "note: the input has no flag",
        }
    }
}

/// What is said of a whole stream on standard error: the first note that holds.
pub fn note(stream: &[u8]) -> Option<Note> {
    note_up_to(LIMIT, stream)
}

fn note_up_to(limit: u64, stream: &[u8]) -> Option<Note> {
    let listed = &stream[..stream.len().min(limit as usize)];
    if CAPTURES.iter().any(|capture| stream.starts_with(capture)) {
        Some(Note::Capture)
    } else if stream.is_empty() {
        Some(Note::Empty)
    } else if !listed.contains(&FLAG) {
        Some(Note::NoFlag)
    } else {
        None
    }
}

#[derive(Default)]
struct Lister {
    collector: Collector,
    lines: u64,
    taken: u64,
    /// Bytes before the first flag, once there was one.
    lead_in: Option<u64>,
    /// Offset behind the last flag.
    opened: u64,
}

impl Lister {
    fn list(&mut self, mut bytes: &[u8], out: &mut impl Write) -> io::Result<()> {
        while !bytes.is_empty() {
            let before = self.collector.fill(bytes);
            self.taken += before as u64;
            bytes = &bytes[before..];
            if let [FLAG, behind @ ..] = bytes {
                self.taken += 1;
                self.close(out)?;
                bytes = behind;
            }
        }
        Ok(())
    }

    /// The line of what the flag closes. Nothing between two flags has none.
    fn close(&mut self, out: &mut impl Write) -> io::Result<()> {
        let answered = match self.collector.push(FLAG) {
            Answer::None => None,
            Answer::Message(message) => {
                let answer = messages::read(message).err().unwrap_or(0);
                let (id, length) = (message[0], message.len());
                Some((answer, Frame::Collected { id, length }))
            }
            Answer::Refused { number, position } => Some((number, Frame::Refused { position })),
        };
        if let Some((answer, frame)) = answered {
            self.lines += 1;
            answer_line(self.lines, self.opened, answer, frame).write(out)?;
        }
        self.lead_in.get_or_insert(self.taken - 1);
        self.opened = self.taken;
        Ok(())
    }

    /// Without a flag every byte is lead-in, and none is behind the last.
    fn end(&self, out: &mut impl Write) -> io::Result<()> {
        let (lead_in, trail) = match self.lead_in {
            Some(lead_in) => (lead_in, self.taken - self.opened),
            None => (self.taken, 0),
        };
        out.write_all(b"end ")?;
        let mut line = Line::new();
        line.put_field(trail);
        line.put_field(lead_in);
        line.write(out)
    }
}

/// What a line says of a frame behind the answer; a dash stands for the rest.
enum Frame {
    Collected { id: u8, length: usize },
    Refused { position: usize },
}

/// The fields last to first: the line is filled from its end.
fn answer_line(number: u64, at: u64, answer: u8, frame: Frame) -> Line {
    let mut line = Line::new();
    match frame {
        Frame::Collected { id, length } => {
            line.put_dash();
            line.put_field(length as u64);
            line.put_field(id.into());
        }
        Frame::Refused { position } => {
            line.put_field(position as u64);
            line.put_dash();
            line.put_dash();
        }
    }
    line.put_field(answer.into());
    line.put_field(at);
    line.put_field(number);
    line
}

/// A line that is filled from its end.
struct Line {
    bytes: [u8; LINE_MAX],
    start: usize,
}

impl Line {
    fn new() -> Self {
        Self {
            bytes: [0; LINE_MAX],
            start: LINE_MAX,
        }
    }

    fn put(&mut self, byte: u8) {
        self.start -= 1;
        self.bytes[self.start] = byte;
    }

    /// What stands behind a field: a line feed behind the last.
    fn put_gap(&mut self) {
        let gap = if self.start == LINE_MAX { b'\n' } else { b' ' };
        self.put(gap);
    }

    fn put_dash(&mut self) {
        self.put_gap();
        self.put(b'-');
    }

    /// In decimal, without zeros in front.
    fn put_field(&mut self, mut number: u64) {
        self.put_gap();
        loop {
            self.put(b'0' + (number % 10) as u8);
            number /= 10;
            if number == 0 {
                break;
            }
        }
    }

    fn write(&self, out: &mut impl Write) -> io::Result<()> {
        out.write_all(&self.bytes[self.start..])
    }
}

#[cfg(test)]
mod tests;
