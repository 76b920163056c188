//! Speed of the proved library against the reference, in one run, by the time
//! that the processor works.
//! One line for each benchmark: name, ns per message or text (collecting: per byte
//! of the stream) of each, their ratio. Collecting has a second line, against plain
//! Rust that copies what stands between two flags or escapes whole; `tallied_whole`
//! is that with a tally on both sides. `read_recording` takes the recording at once.
//! Its list and messages are enough for any recording of this length, so that plain
//! Rust goes through it once, where the proved library always measures first and so
//! goes twice. With `read_just_fits` both go through it twice.
//!
//! With the name of a stream as its argument it only collects that, 20 times, by
//! the proved library: for a profiler.

use std::hint::black_box;

use compare::clock;
use gdl90::{raw, Message, Text};
use reference::collecting::Answer;
use reference::framing::{Framed, MESSAGE_MAX};
use reference::information_frames::Frame;
use reference::messages::{
    self, put, Heartbeat, Report, HEARTBEAT_ID, LENGTHS, NOT_LISTED, PAYLOAD_LENGTH, TRAFFIC_ID,
    UPLINK_ID, WRONG_LENGTH,
};
use reference::payloads;
use reference::recording::{speed_recording, SHAPES};
use reference::samples::whole;
use reference::tally::Tally;
use reference::text;
use reference::texts::{any_codes, forecast, packed, CODES_MAX};
use reference::whole_recording::{self, Read, ENTRY_LENGTH};
use reference::xorshift::Xorshift;

const MESSAGES: usize = 64;
/// Times the whole set is gone through in one timed round: many, as asking for the
/// processor's time takes some itself.
const PASSES: usize = 128;
const ROUNDS: usize = 101;
/// Fewer for collecting: a round goes through a whole MiB.
const COLLECT_ROUNDS: usize = 41;
const WARM_UP: usize = 10;
const PROFILED_PASSES: usize = 20;
/// The longest frame: every byte escaped, and two flags (RULES 'Framing').
const ROOM: usize = 2 * MESSAGE_MAX + 6;
/// Data of the frame that is added to each payload.
const ADDED: [u8; 40] = [0xD5; 40];

fn main() {
    if let Some(wanted) = std::env::args().nth(1) {
        let stream = streams().find(|(name, _)| *name == wanted);
        let stream = stream.expect("the name of a stream").1();
        for _ in 0..PROFILED_PASSES {
            black_box(rattle_collect(black_box(&stream)));
        }
        return;
    }
    let mut random = Xorshift::new(5);
    let plain = message_set(&mut random, 0);
    let escapes = message_set(&mut random, 4);
    measure_check_sequence("check_sequence", &plain);
    measure_frame("frame", &plain);
    measure_frame("frame_escapes", &escapes);
    measure_heartbeats(&whole_set(&mut random, &[HEARTBEAT_ID]));
    measure_traffic(&whole_set(&mut random, &[TRAFFIC_ID]));
    measure_payloads(&payload_set(&mut random));
    let ids = LENGTHS.map(|(id, _)| id);
    let others: Vec<u8> = ids.into_iter().filter(|&id| id != UPLINK_ID).collect();
    measure_typed(&whole_set(&mut random, &others));
    let full = || packed(&any_codes(&mut random, CODES_MAX));
    measure_texts("text", &text_set(full));
    measure_texts("text_short", &text_set(|| forecast(&mut random)));
    for (name, stream) in streams() {
        measure_collect(name, &stream());
    }
    measure_tallied(&speed_recording());
    measure_by_value(&speed_recording());
    measure_recordings(&speed_recording());
}

type Stream = (&'static str, fn() -> Vec<u8>);

fn streams() -> impl Iterator<Item = Stream> {
    std::iter::once::<Stream>(("recording", speed_recording)).chain(SHAPES)
}

fn message_set(random: &mut Xorshift, eighths: usize) -> Vec<Vec<u8>> {
    (0..MESSAGES)
        .map(|_| random.message_with_escapes(MESSAGE_MAX, eighths))
        .collect()
}

/// Whole messages, of the kinds with these ids in turn.
fn whole_set(random: &mut Xorshift, ids: &[u8]) -> Vec<Vec<u8>> {
    let ids = ids.iter().cycle().take(MESSAGES);
    ids.map(|&id| whole(random, id)).collect()
}

/// Payloads with at least one frame, and room for another.
fn payload_set(random: &mut Xorshift) -> Vec<Vec<u8>> {
    let payloads = std::iter::repeat_with(|| payloads::whole(random));
    let good = payloads.filter(|payload| {
        let mut payload = payload.clone();
        let (count, _) = reference_list(&payload).expect("a whole payload");
        count > 0 && reference_add(&mut payload, 0, &ADDED).is_ok()
    });
    good.take(MESSAGES).collect()
}

/// Data of information frames.
fn text_set(make: impl FnMut() -> Vec<u8>) -> Vec<Vec<u8>> {
    std::iter::repeat_with(make).take(MESSAGES).collect()
}

/// Not inlined, as the proved functions are real calls too.
#[inline(never)]
fn reference_check_sequence(message: &[u8]) -> u16 {
    reference::fcs::check_sequence(message)
}

#[inline(never)]
fn reference_frame(message: &[u8], out: &mut [u8]) -> Framed {
    reference::framing::frame(message, out)
}

/// The fields behind the id: 6, then 7 (RULES 'Messages').
fn fields<const N: usize>(id: u8, message: &[u8]) -> Result<&[u8; N], u8> {
    match message {
        [first, fields @ ..] if *first == id => fields.try_into().map_err(|_| WRONG_LENGTH),
        _ => Err(NOT_LISTED),
    }
}

#[inline(never)]
fn reference_read_heartbeat(message: &[u8]) -> Result<Heartbeat, u8> {
    Heartbeat::read(fields(HEARTBEAT_ID, message)?)
}

#[inline(never)]
fn reference_read_traffic(message: &[u8]) -> Result<Report, u8> {
    Report::read(fields(TRAFFIC_ID, message)?)
}

#[inline(never)]
fn reference_write_heartbeat(heartbeat: &Heartbeat, out: &mut [u8]) -> Result<usize, u8> {
    put(HEARTBEAT_ID, &heartbeat.write()?, out)
}

#[inline(never)]
fn reference_write_traffic(report: &Report, out: &mut [u8]) -> Result<usize, u8> {
    put(TRAFFIC_ID, &report.write()?, out)
}

#[inline(never)]
fn reference_read(message: &[u8]) -> Result<messages::Message, u8> {
    messages::read(message)
}

#[inline(never)]
fn reference_write(message: &messages::Message, out: &mut [u8]) -> Result<usize, u8> {
    messages::write_into(message, out)
}

#[inline(never)]
fn reference_list(payload: &[u8]) -> Result<(usize, usize), u8> {
    reference::information_frames::count(payload)
}

#[inline(never)]
fn reference_nth(payload: &[u8], n: usize) -> Result<Frame, u8> {
    reference::information_frames::nth(payload, n)
}

#[inline(never)]
fn reference_add(payload: &mut [u8], frame_type: u8, data: &[u8]) -> Result<(), u8> {
    reference::information_frames::add(payload, frame_type, data)
}

#[inline(never)]
fn reference_read_text(data: &[u8], out: &mut [u8]) -> Result<text::Text, u8> {
    text::read(data, out)
}

/// At the time of 001 §5.2.4.
#[inline(never)]
fn reference_write_text(text: &[u8], out: &mut [u8]) -> Result<usize, u8> {
    text::write(16, 25, 0, text, out)
}

fn measure_check_sequence(name: &str, messages: &[Vec<u8>]) {
    measure(
        name,
        messages,
        |message| gdl90::check_sequence(message),
        |message| reference_check_sequence(message),
    );
}

fn measure_frame(name: &str, messages: &[Vec<u8>]) {
    let (mut proved, mut expected) = ([0; ROOM], [0; ROOM]);
    measure(
        name,
        messages,
        |message| raw::frame(message, black_box(&mut proved)),
        |message| reference_frame(message, black_box(&mut expected)),
    );
}

fn measure_heartbeats(messages: &[Vec<u8>]) {
    measure(
        "read_heartbeat",
        messages,
        |message| raw::read_heartbeat(message),
        |message| reference_read_heartbeat(message),
    );
    let both = messages.iter().map(|message| {
        let heartbeat = reference_read_heartbeat(message).expect("a whole heartbeat");
        (raw::read_heartbeat(message).value, heartbeat)
    });
    let values: Vec<(raw::Heartbeat, Heartbeat)> = both.collect();
    let (mut proved, mut expected) = ([0; ROOM], [0; ROOM]);
    measure(
        "write_heartbeat",
        &values,
        |(raw, _)| raw::write_heartbeat(*raw, black_box(&mut proved)),
        |(_, heartbeat)| reference_write_heartbeat(heartbeat, black_box(&mut expected)),
    );
}

fn measure_traffic(messages: &[Vec<u8>]) {
    measure(
        "read_traffic",
        messages,
        |message| raw::read_traffic(message),
        |message| reference_read_traffic(message),
    );
    let both = messages.iter().map(|message| {
        let report = reference_read_traffic(message).expect("a whole report");
        (raw::read_traffic(message).value, report)
    });
    let values: Vec<(raw::Report, Report)> = both.collect();
    let (mut proved, mut expected) = ([0; ROOM], [0; ROOM]);
    measure(
        "write_traffic",
        &values,
        |(raw, _)| raw::write_traffic(*raw, black_box(&mut proved)),
        |(_, report)| reference_write_traffic(report, black_box(&mut expected)),
    );
}

/// Typed values of whatever kind, the kind looked for. No uplinks: the reference
/// copies their payload.
fn measure_typed(messages: &[Vec<u8>]) {
    let messages: Vec<&[u8]> = messages.iter().map(|message| &message[..]).collect();
    measure(
        "read_typed",
        &messages,
        |message| Message::read(message),
        |message| reference_read(message),
    );
    let both = messages.iter().map(|message| {
        let value = reference_read(message).expect("a whole message");
        (Message::read(message).expect("a whole message"), value)
    });
    let values: Vec<(Message, messages::Message)> = both.collect();
    let (mut proved, mut expected) = ([0; ROOM], [0; ROOM]);
    measure(
        "write_typed",
        &values,
        |(message, _)| message.write(black_box(&mut proved)),
        |(_, message)| reference_write(message, black_box(&mut expected)),
    );
}

/// The last frame is asked for; the frame that is added goes into a copy of the
/// payload, made on both sides.
fn measure_payloads(payloads: &[Vec<u8>]) {
    measure(
        "list",
        payloads,
        |payload| raw::payload_list(payload),
        |payload| reference_list(payload),
    );
    let last = |payload: &[u8]| raw::payload_list(payload).count - 1;
    let asked: Vec<(&[u8], usize)> = payloads.iter().map(|p| (&p[..], last(p))).collect();
    measure(
        "nth_last",
        &asked,
        |(payload, n)| raw::payload_nth(payload, *n),
        |(payload, n)| reference_nth(payload, *n),
    );
    let (mut proved, mut expected) = ([0; PAYLOAD_LENGTH], [0; PAYLOAD_LENGTH]);
    measure(
        "add",
        payloads,
        |payload| {
            proved.copy_from_slice(payload);
            raw::payload_add(black_box(&mut proved), 0, &ADDED)
        },
        |payload| {
            expected.copy_from_slice(payload);
            reference_add(black_box(&mut expected), 0, &ADDED)
        },
    );
}

/// Texts of few tabs, so that they and what is written of them fit the room.
fn measure_texts(name: &str, set: &[Vec<u8>]) {
    let (mut proved, mut expected) = ([0; ROOM], [0; ROOM]);
    measure(
        &format!("read_{name}"),
        set,
        |data| raw::read_text(data, black_box(&mut proved)),
        |data| reference_read_text(data, black_box(&mut expected)),
    );
    let texts = set
        .iter()
        .map(|data| Text::read(data).expect("a whole text"));
    let texts: Vec<Text> = texts.collect();
    measure(
        &format!("write_{name}"),
        &texts,
        |text| raw::write_text(16, 25, 0, text.as_bytes(), black_box(&mut proved)),
        |text| reference_write_text(text.as_bytes(), black_box(&mut expected)),
    );
}

fn measure<T, A, B>(
    name: &str,
    items: &[T],
    mut rattle: impl FnMut(&T) -> A,
    mut rust: impl FnMut(&T) -> B,
) {
    let mut rattle = || go_through(items, &mut rattle);
    let mut rust = || go_through(items, &mut rust);
    let [rattle, rust] = medians(ROUNDS, [&mut rattle, &mut rust])
        .map(|round| round / (PASSES * items.len()) as f64);
    report(name, "ns", 1, [rattle, rust]);
}

fn go_through<T, A>(items: &[T], call: &mut impl FnMut(&T) -> A) {
    for _ in 0..PASSES {
        for item in items {
            // By reference: the answer stays where the call put it.
            let answer = call(black_box(item));
            black_box(&answer);
        }
    }
}

/// What a round of collecting works out, so that no answer goes unread.
#[derive(Debug, PartialEq, Eq, Default)]
struct Answers {
    count: usize,
    message_bytes: usize,
    /// The numbers of refusals, added.
    numbers: usize,
    /// Their positions, added.
    positions: usize,
}

impl Answers {
    fn accept(&mut self, message: &[u8]) {
        self.count += 1;
        self.message_bytes += message.len();
    }

    fn refuse(&mut self, number: u8, position: usize) {
        self.count += 1;
        self.numbers += usize::from(number);
        self.positions += position;
    }

    fn add_reference(&mut self, answer: Answer) {
        match answer {
            Answer::None => {}
            Answer::Message(message) => self.accept(message),
            Answer::Refused { number, position } => self.refuse(number, position),
        }
    }
}

/// The function for C, without a tally.
#[inline(never)]
fn rattle_collect(mut stream: &[u8]) -> Answers {
    let mut answers = Answers::default();
    let mut memory = FeedMemory([0; raw::ROOM], [0; MESSAGE_MAX]);
    let FeedMemory(room, message) = &mut memory;
    // Kept apart, as `gdl90::Collector` keeps them.
    let (mut count, mut phase, mut stuffed) = (0, 0, 0);
    while !stream.is_empty() {
        let control = raw::FeedControl {
            count,
            stuffed,
            phase,
        };
        let fed = raw::feed(control, room, message, stream);
        (count, phase, stuffed) = (fed.control.count, fed.control.phase, fed.control.stuffed);
        stream = &stream[fed.taken..];
        match (fed.answered, fed.number) {
            (false, _) => {}
            (true, 0) => answers.accept(&message[..fed.length]),
            (true, number) => answers.refuse(number, fed.position),
        }
    }
    answers
}

/// The crate for Rust, which always lends its tally.
#[inline(never)]
fn rattle_collect_tallied(mut stream: &[u8]) -> (Answers, [u32; 6]) {
    let mut answers = Answers::default();
    let mut collector = gdl90::Collector::new();
    while !stream.is_empty() {
        let fed = collector.feed(stream);
        stream = &stream[fed.taken..];
        match fed.answer {
            None => {}
            Some(Ok(message)) => answers.accept(message),
            Some(Err(refusal)) => answers.refuse(refusal.error.number(), refusal.position),
        }
    }
    (answers, collector.tally().counts)
}

/// Within one page, as `gdl90::Collector` is.
#[repr(align(1024))]
struct FeedMemory([u8; raw::ROOM], [u8; MESSAGE_MAX]);

#[inline(never)]
fn reference_collect(stream: &[u8]) -> Answers {
    let mut answers = Answers::default();
    let mut collector = reference::collecting::Collector::new();
    for &byte in stream {
        answers.add_reference(collector.push(byte));
    }
    answers
}

/// What stands between two flags or escapes is copied whole.
#[inline(never)]
fn reference_collect_whole(stream: &[u8]) -> Answers {
    let mut answers = Answers::default();
    feed_whole(stream, |answer| answers.add_reference(answer));
    answers
}

#[inline(never)]
fn reference_collect_tallied(stream: &[u8]) -> (Answers, [u32; 6]) {
    let mut answers = Answers::default();
    let mut tally = Tally::default();
    feed_whole(stream, |answer| {
        match answer {
            Answer::None => {}
            Answer::Message(_) => tally.raise(0),
            Answer::Refused { number, .. } => tally.raise(number),
        }
        answers.add_reference(answer);
    });
    (answers, tally.counts)
}

#[inline(always)]
fn feed_whole(mut stream: &[u8], mut take: impl FnMut(Answer)) {
    let mut collector = reference::collecting::Collector::new();
    while !stream.is_empty() {
        let (taken, answer) = collector.feed(stream);
        stream = &stream[taken..];
        take(answer);
    }
}

fn measure_collect(name: &str, stream: &[u8]) {
    let expected = reference_collect(stream);
    assert_eq!(rattle_collect(stream), expected, "{name}");
    assert_eq!(reference_collect_whole(stream), expected, "{name}");
    let [rattle, bytewise, whole] = medians(
        COLLECT_ROUNDS,
        [
            &mut || {
                black_box(rattle_collect(black_box(stream)));
            },
            &mut || {
                black_box(reference_collect(black_box(stream)));
            },
            &mut || {
                black_box(reference_collect_whole(black_box(stream)));
            },
        ],
    )
    .map(|round| round / stream.len() as f64);
    report(name, "ns/byte", 3, [rattle, bytewise]);
    report(&format!("{name}_whole"), "ns/byte", 3, [rattle, whole]);
}

/// With a tally on both sides; what stands between two flags or escapes is copied
/// whole.
fn measure_tallied(stream: &[u8]) {
    let expected = reference_collect_tallied(stream);
    assert_eq!(rattle_collect_tallied(stream), expected);
    let sides = medians(
        COLLECT_ROUNDS,
        [
            &mut || {
                black_box(rattle_collect_tallied(black_box(stream)));
            },
            &mut || {
                black_box(reference_collect_tallied(black_box(stream)));
            },
        ],
    )
    .map(|round| round / stream.len() as f64);
    report("tallied_whole", "ns/byte", 3, sides);
}

fn measure_by_value(stream: &[u8]) {
    let expected = reference_collect(stream).count;
    assert_eq!(compare::answers_by_value(stream), expected);
    let sides = medians(
        COLLECT_ROUNDS,
        [
            &mut || {
                black_box(compare::answers_by_value(black_box(stream)));
            },
            &mut || {
                black_box(reference_collect(black_box(stream)));
            },
        ],
    )
    .map(|round| round / stream.len() as f64);
    report("by_value", "ns/byte", 3, sides);
}

#[inline(never)]
fn reference_read_recording(stream: &[u8], list: &mut [usize], messages: &mut [u8]) -> Read {
    whole_recording::read(stream, list, messages)
}

/// List and messages are enough for every stream of this length, and then just fit.
fn measure_recordings(stream: &[u8]) {
    let size = [ENTRY_LENGTH * (stream.len() / 2), stream.len()];
    measure_read_recording("read_recording", stream, size);
    let (entries, messages) = whole_recording::collected(stream);
    let size = [ENTRY_LENGTH * entries.len(), messages.len()];
    measure_read_recording("read_just_fits", stream, size);
}

fn measure_read_recording(name: &str, stream: &[u8], [numbers, bytes]: [usize; 2]) {
    let [mut proved, mut expected] = [(); 2].map(|()| (vec![0; numbers], vec![0; bytes]));
    let answer = raw::read_recording(stream, &mut proved.0, &mut proved.1);
    let entries = Read::Entries(answer.entries);
    let read = reference_read_recording(stream, &mut expected.0, &mut expected.1);
    assert_eq!((answer.number, entries), (0, read), "{name}");
    assert_eq!(answer.entries, reference_collect(stream).count, "{name}");
    assert!(proved == expected, "{name}");
    let sides = medians(
        COLLECT_ROUNDS,
        [
            &mut || {
                let (list, messages) = black_box(&mut proved);
                black_box(raw::read_recording(black_box(stream), list, messages));
            },
            &mut || {
                let (list, messages) = black_box(&mut expected);
                black_box(reference_read_recording(black_box(stream), list, messages));
            },
        ],
    )
    .map(|round| round / stream.len() as f64);
    report(name, "ns/byte", 3, sides);
}

fn report(name: &str, unit: &str, decimals: usize, [rattle, rust]: [f64; 2]) {
    let ratio = rattle / rust;
    println!(
        "{name:<16} rattle {rattle:8.decimals$} {unit}  rust {rust:8.decimals$} {unit}  ratio {ratio:.2}"
    );
}

/// Median nanoseconds of processor time of a round of each side. The rounds are
/// interleaved, each side first in turn, so that drift hits all.
fn medians<const SIDES: usize>(rounds: usize, sides: [&mut dyn FnMut(); SIDES]) -> [f64; SIDES] {
    let mut taken = [const { Vec::new() }; SIDES];
    for round in 0..WARM_UP + rounds {
        for turn in 0..SIDES {
            let side = (round + turn) % SIDES;
            let start = clock::of_thread();
            sides[side]();
            let elapsed = (clock::of_thread() - start).as_nanos() as f64;
            if round >= WARM_UP {
                taken[side].push(elapsed);
            }
        }
    }
    taken.map(median)
}

fn median(mut values: Vec<f64>) -> f64 {
    values.sort_by(f64::total_cmp);
    values[values.len() / 2]
}
