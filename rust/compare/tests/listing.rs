//! The proved lister, run as a program, and the reference list the same, and note
//! the same where the input is no recording.

use std::collections::BTreeSet;
use std::fs::{self, File};
use std::io::{self, BufRead, BufReader, ErrorKind, Read, Write};
use std::iter;
use std::path::{Path, PathBuf};
use std::process::{Child, ChildStderr, Command, Output, Stdio};
use std::sync::mpsc::{self, Receiver};
use std::thread;
use std::time::Duration;

use reference::fcs::check_sequence;
use reference::framing::{ESCAPE, FLAG, MESSAGE_MAX};
use reference::listing::{list, listing, note, Note, BLOCK, CAPTURES, LIMIT};
use reference::messages::{LENGTHS, RETIRED_IDS};
use reference::recording::{between_flags, framed, mixed, readable_recording, tiny};
use reference::samples::{damaged, whole};
use reference::vectors::HEARTBEAT;
use reference::xorshift::Xorshift;

/// Streams of each sort.
const SEEDS: u64 = 60;

fn program() -> PathBuf {
    let program = Path::new(env!("CARGO_MANIFEST_DIR")).join("../../crates/lister/out/lister");
    assert!(
        program.is_file(),
        "{} is not there: run `rt run` in crates/lister first",
        program.display()
    );
    program
}

fn lister() -> Command {
    Command::new(program())
}

/// The stream as a file, which the program reads in whole blocks. The name is
/// the test's own.
fn proved(name: &str, stream: &[u8]) -> Vec<u8> {
    let path = Path::new(env!("CARGO_TARGET_TMPDIR")).join(format!("{name}.gdl90"));
    fs::write(&path, stream).expect("a file is written");
    let input = File::open(&path).expect("a file is read");
    let output = lister().stdin(input).output().expect("the lister runs");
    fs::remove_file(&path).expect("a file is removed");
    listed(name, output, note(stream))
}

/// What the program listed, where its status and its note are right.
fn listed(name: &str, output: Output, note: Option<Note>) -> Vec<u8> {
    assert!(output.status.success(), "{name}: {}", output.status);
    assert_noted(name, &output.stderr, note);
    output.stdout
}

/// Words are free behind what the rule fixes. A second note would begin with
/// `note:` too, so it is looked for.
fn assert_noted(name: &str, stderr: &[u8], note: Option<Note>) {
    let text = String::from_utf8_lossy(stderr);
    let mut lines = text.lines();
    let first = match (lines.next(), note) {
        (None, None) => true,
        (Some(line), Some(note)) => line.starts_with(note.beginning()) && text.ends_with('\n'),
        _ => false,
    };
    let notes = [Note::Capture, Note::Empty, Note::NoFlag].map(Note::beginning);
    let second = |line: &str| notes.iter().any(|&beginning| line.starts_with(beginning));
    let rest = lines.all(|line| line.starts_with("note:") && !second(line));
    assert!(first && rest, "{name}: {text:?} where the note is {note:?}");
}

fn assert_same(name: &str, stream: &[u8]) {
    assert_equal(name, &proved(name, stream), &listing(stream));
}

/// Whole listings are too long to be shown.
fn assert_equal(name: &str, proved: &[u8], expected: &[u8]) {
    if proved == expected {
        return;
    }
    let [proved, expected] = [proved, expected].map(String::from_utf8_lossy);
    let mut lines = proved.split('\n').zip(expected.split('\n'));
    match lines.find(|(proved, expected)| proved != expected) {
        Some((proved, expected)) => panic!("{name}: {proved:?} where it is {expected:?}"),
        None => panic!("{name}: the one listing goes on behind the other"),
    }
}

/// A message of any length with its check sequence.
fn sent(message: &[u8]) -> Vec<u8> {
    let sequence = check_sequence(message).to_le_bytes();
    between_flags(&[message, &sequence].concat())
}

fn any_mixed(random: &mut Xorshift) -> Vec<u8> {
    let bound = [200, 5_000, 4 * BLOCK][random.below(3)];
    let length = random.below(bound);
    mixed(random, length)
}

/// Messages of every kind, whole and damaged before they were framed, and retired
/// ones.
fn messages(random: &mut Xorshift) -> Vec<u8> {
    let count = random.below(400);
    let one = |_| match LENGTHS.get(random.below(LENGTHS.len() + 1)) {
        Some(&(id, _)) => {
            let make = [whole, damaged][random.below(2)];
            sent(&make(random, id))
        }
        None => sent(&retired(random)),
    };
    (0..count).flat_map(one).collect()
}

/// Of any length.
fn retired(random: &mut Xorshift) -> Vec<u8> {
    let length = 1 + random.below(MESSAGE_MAX);
    let id = RETIRED_IDS[random.below(RETIRED_IDS.len())];
    random.message_with_id(id, length)
}

fn garbage(random: &mut Xorshift) -> Vec<u8> {
    let length = random.below(2 * BLOCK);
    let eighths = random.below(5);
    random.message_with_escapes(length, eighths)
}

type Make = fn(&mut Xorshift) -> Vec<u8>;

#[test]
fn generated_streams() {
    let sorts: [(&str, Make); 4] = [
        ("mixed", any_mixed),
        ("tiny", tiny),
        ("messages", messages),
        ("garbage", garbage),
    ];
    let mut answers = [0; 18];
    for (sort, make) in sorts {
        for seed in 1..=SEEDS {
            // Seeds that differ in few bits start alike.
            let stream = make(&mut Xorshift::new(seed.wrapping_mul(0x9E37_79B9_7F4A_7C15)));
            let expected = listing(&stream);
            let name = format!("{sort} of seed {seed}");
            assert_equal(&name, &proved(&name, &stream), &expected);
            count_answers(&expected, &mut answers);
        }
    }
    for (number, &count) in answers.iter().enumerate() {
        let listed = matches!(number, 0..=8 | 17);
        assert!(if listed { count > 50 } else { count == 0 }, "{answers:?}");
    }
}

fn count_answers(listing: &[u8], answers: &mut [usize; 18]) {
    let text = String::from_utf8_lossy(listing);
    for line in text.lines().skip(1).filter(|line| !line.starts_with("end")) {
        let answer = line.split(' ').nth(2).expect("an answer");
        answers[answer.parse::<usize>().expect("a number")] += 1;
    }
}

/// A frame that is accepted, and refused ones: the byte behind an escape, an escape
/// before the flag, the 439th byte escaped and plain, too few, another sequence.
#[test]
fn known_positions() {
    let stream = [
        &sent(&HEARTBEAT)[..],
        &[0x07, ESCAPE, 0x5E, ESCAPE, 0x00, 0x07, FLAG],
        &[0x07, ESCAPE, FLAG],
        &[ESCAPE, 0x5D].repeat(MESSAGE_MAX + 3),
        &[0x07, FLAG],
        &[0x11; MESSAGE_MAX + 4],
        &[FLAG, ESCAPE, 0x5E, FLAG],
        &HEARTBEAT,
        &[0xB3, 0x8A, FLAG],
    ]
    .concat();
    let lines = [
        "n at ans id len pos",
        "1 1 0 0 7 -",
        "2 11 1 - - 5",
        "3 18 2 - - 2",
        "4 21 3 - - 878",
        "5 901 3 - - 439",
        "6 1342 4 - - 2",
        "7 1345 5 - - 9",
        "end 0 0\n",
    ];
    let output = proved("positions", &stream);
    assert_equal("positions", &output, lines.join("\n").as_bytes());
    assert_equal("positions", &output, &listing(&stream));
}

/// Every stream of up to four of the bytes that matter to collecting.
#[test]
fn short_streams() {
    let mut streams = vec![vec![]];
    let mut at = 0;
    while at < streams.len() {
        let stream: Vec<u8> = streams[at].clone();
        assert_same(&format!("short {stream:02X?}"), &stream);
        if stream.len() < 4 {
            let longer = |byte| [&stream[..], &[byte]].concat();
            streams.extend([FLAG, ESCAPE, 0x5E, 0x5D, 0x00].map(longer));
        }
        at += 1;
    }
}

/// With and without a flag in front and behind.
#[test]
fn nothing_but_escapes() {
    let lengths = (5..9).chain(435..=441).chain(874..=880);
    for length in lengths.chain(BLOCK - 2..=BLOCK + 2) {
        for flags in 0..4 {
            let front = &[FLAG][..flags % 2];
            let behind = &[FLAG][..flags / 2];
            let stream = [front, &vec![ESCAPE; length], behind].concat();
            assert_same(&format!("{length} escapes, flags {flags}"), &stream);
        }
    }
}

/// 437 to 440 unstuffed bytes, the sequence right and wrong, more and fewer of
/// them escaped, and an escape behind them.
#[test]
fn bodies_around_the_longest() {
    let mut random = Xorshift::new(50);
    let mut stream = Vec::new();
    for length in MESSAGE_MAX + 1..=MESSAGE_MAX + 4 {
        for eighths in [0, 1, 4, 8] {
            let mut frame = sent(&random.message_with_escapes(length - 2, eighths));
            stream.extend(&frame);
            let flag = frame.pop();
            for behind in [&[][..], &[ESCAPE], &[ESCAPE, 0x00], &[ESCAPE, 0x5E]] {
                stream.extend([&frame, behind].concat());
                stream.extend(flag);
            }
            // The last byte but the flag is of the sequence, escaped or not.
            *frame.last_mut().expect("a byte") ^= 0x03;
            stream.extend(frame);
            stream.extend(flag);
        }
    }
    assert_same("longest", &stream);
}

#[test]
fn flags_doubled_shared_and_missing() {
    let frame = sent(&HEARTBEAT);
    let doubled = [&[FLAG; 3], &frame[..], &[FLAG; 2], &frame].concat();
    assert_same("doubled", &doubled);
    assert_same("shared", &[&frame[..], &frame[1..], &frame[1..]].concat());
    for length in 0..frame.len() {
        assert_same("not closed", &[&frame, &frame[..length]].concat());
        assert_same("not opened", &[&frame[length..], &frame].concat());
    }
}

/// Fields are random; zeros, which are in range in every kind, for each id of
/// the list. 437 bytes are too long.
#[test]
fn every_id_in_every_length() {
    let mut random = Xorshift::new(51);
    let mut stream = Vec::new();
    for length in 1..=MESSAGE_MAX + 1 {
        for id in 0..=255 {
            stream.extend(sent(&random.message_with_id(id, length)));
        }
        for (id, _) in LENGTHS {
            let mut message = vec![0; length];
            message[0] = id;
            stream.extend(sent(&message));
        }
    }
    assert_same("ids and lengths", &stream);
}

#[test]
fn escapes_at_the_border_of_a_block() {
    let mut random = Xorshift::new(52);
    for before in 0..24 {
        let message = random.message_with_escapes(8, 6);
        for filler in [FLAG, ESCAPE, 0x00] {
            let mut stream = vec![filler; BLOCK - before];
            stream.extend(sent(&message));
            stream.resize(2 * BLOCK - before, FLAG);
            stream.extend([&[FLAG, ESCAPE][..], &sent(&message)].concat());
            assert_same(&format!("border {before} {filler}"), &stream);
        }
    }
}

#[test]
fn large_offsets() {
    let mut stream = vec![0x55; 1_000_000];
    stream.extend(readable_recording(20 << 20));
    assert_same("large", &stream);
}

fn piped(mut lister: Command) -> Child {
    lister
        .stdin(Stdio::piped())
        .stdout(Stdio::piped())
        .stderr(Stdio::piped())
        .spawn()
        .expect("the lister runs")
}

/// Runs the lister on what the writer sends through a pipe.
fn proved_through_a_pipe(
    name: &str,
    note: Option<Note>,
    send: impl FnOnce(&mut dyn Write) -> io::Result<()> + Send,
) -> Vec<u8> {
    let mut child = piped(lister());
    let mut input = child.stdin.take().expect("a pipe");
    let output = thread::scope(|scope| {
        scope.spawn(move || send(&mut input).expect("the lister reads"));
        child.wait_with_output().expect("the lister ends")
    });
    listed(name, output, note)
}

/// Long enough for the lister to have started. What is sent before that comes in
/// one piece.
const START: Duration = Duration::from_millis(5);

/// Long enough for the lister to have read what was sent.
const PAUSE: Duration = Duration::from_micros(100);

fn send_in_pieces(input: &mut dyn Write, stream: &[u8], piece: usize) -> io::Result<()> {
    thread::sleep(START);
    stream.chunks(piece).try_for_each(|piece| {
        input.write_all(piece)?;
        thread::sleep(PAUSE);
        Ok(())
    })
}

fn assert_same_in_pieces(name: &str, stream: &[u8], piece: usize) {
    let name = format!("{name}, pieces of {piece}");
    let send = |input: &mut dyn Write| send_in_pieces(input, stream, piece);
    let output = proved_through_a_pipe(&name, note(stream), send);
    assert_equal(&name, &output, &listing(stream));
}

#[test]
fn input_in_pieces() {
    for (seed, length, piece) in [(53, 2_000, 1), (54, 9_000, 7), (55, 400_000, 997)] {
        let stream = mixed(&mut Xorshift::new(seed), length);
        assert_same_in_pieces(&format!("seed {seed}"), &stream, piece);
    }
}

/// Pieces in which the first four bytes come: one by one, to all at once.
const PIECES: [usize; 4] = [1, 2, 3, 4];

/// Nothing, random bytes, few and more than a block, and frames.
#[test]
fn captures() {
    let mut random = Xorshift::new(56);
    for capture in CAPTURES {
        let length = 1 + random.below(100);
        let frames = mixed(&mut random, 200);
        for behind in [vec![], random.message(length), frames] {
            let stream = [&capture[..], &behind].concat();
            let name = format!("capture {capture:02X?} and {}", behind.len());
            assert_same(&name, &stream);
            for piece in PIECES {
                assert_same_in_pieces(&name, &stream, piece);
            }
        }
        let long = [&capture[..], &random.message(2 * BLOCK)].concat();
        assert_same(&format!("long capture {capture:02X?}"), &long);
    }
}

/// At the start of a block and of a piece, but not of the input.
#[test]
fn beginnings_of_captures_further_on() {
    for capture in CAPTURES {
        for before in [[FLAG; 4], [0x00; 4], capture] {
            let name = format!("{before:02X?} {capture:02X?}");
            let stream = [before, capture].concat();
            assert_same_in_pieces(&name, &stream, 4);
            let mut blocks = before.repeat(BLOCK / 4);
            blocks.extend(capture);
            assert_same(&name, &blocks);
        }
    }
}

/// One to four bytes of how a capture begins.
fn prefixes() -> BTreeSet<Vec<u8>> {
    let prefixes = |capture: [u8; 4]| (1..=4).map(move |length| capture[..length].to_vec());
    CAPTURES.into_iter().flat_map(prefixes).collect()
}

/// The bytes with one of them changed, in one bit or to a flag.
fn changed(bytes: &[u8]) -> Vec<Vec<u8>> {
    let one = |at: usize| {
        [bytes[at] ^ 0x01, FLAG].map(|byte| [&bytes[..at], &[byte], &bytes[at + 1..]].concat())
    };
    (0..bytes.len()).flat_map(one).collect()
}

/// Streams of 0 to 6 bytes: prefixes, changed ones and the flag, with a prefix or
/// the flag behind.
#[test]
fn nearly_captures() {
    let mut behind = prefixes();
    behind.extend([vec![], vec![FLAG]]);
    let mut front = behind.clone();
    front.extend(prefixes().iter().flat_map(|prefix| changed(prefix)));
    for front in &front {
        assert_same_in_pieces(&format!("nearly {front:02X?}"), front, 1);
        for behind in &behind {
            let stream = [&front[..], behind].concat();
            if stream.len() <= 6 {
                assert_same(&format!("nearly {stream:02X?}"), &stream);
            }
        }
    }
}

/// Far longer than the lister needs.
const PATIENCE: Duration = Duration::from_secs(10);

/// The lines of a pipe as they come: a read that waits has no time limit.
fn lines_of(pipe: ChildStderr) -> Receiver<String> {
    let (sender, receiver) = mpsc::channel();
    thread::spawn(move || {
        let mut pipe = BufReader::new(pipe);
        loop {
            let mut line = String::new();
            let length = pipe.read_line(&mut line).expect("the lister writes");
            if length == 0 || sender.send(line).is_err() {
                return;
            }
        }
    });
    receiver
}

/// A live stream may never end, so the note may not wait for it.
fn assert_noted_while_open(capture: &[u8], piece: usize) {
    let name = format!("open {capture:02X?}, pieces of {piece}");
    let mut child = piped(lister());
    let mut input = child.stdin.take().expect("a pipe");
    let lines = lines_of(child.stderr.take().expect("a pipe"));
    send_in_pieces(&mut input, capture, piece).expect("the lister reads");
    let first = lines.recv_timeout(PATIENCE);
    let first = first.unwrap_or_else(|error| panic!("{name}: no note: {error}"));
    drop(input);
    let mut output = child.wait_with_output().expect("the lister ends");
    output.stderr = iter::once(first).chain(lines).collect::<String>().into();
    let output = listed(&name, output, Some(Note::Capture));
    assert_equal(&name, &output, &listing(capture));
}

#[test]
fn captures_are_noted_before_the_input_ends() {
    for capture in CAPTURES {
        for piece in PIECES {
            assert_noted_while_open(&capture, piece);
        }
    }
}

/// Nobody reads the last line. The signal of that would end the program before its
/// word.
fn run_with_output_closed(stream: &[u8]) -> Output {
    let script = "trap '' PIPE; exec \"$0\"";
    let mut shell = Command::new("sh");
    shell.args(["-c", script]).arg(program());
    let mut child = piped(shell);
    let input = child.stdin.as_mut().expect("a pipe");
    input.write_all(stream).expect("the lister reads");
    thread::sleep(START);
    drop(child.stdout.take());
    child.wait_with_output().expect("the lister ends")
}

fn assert_failed(output: &Output, word: &str) {
    let text = String::from_utf8_lossy(&output.stderr);
    let noted = text.lines().any(|line| line.starts_with("note:"));
    assert!(text.starts_with(word) && !noted, "{text:?}");
}

/// What was not read may have had a flag, and a word about the output is enough.
#[test]
fn failures_are_not_noted() {
    let folder = File::open(env!("CARGO_TARGET_TMPDIR")).expect("a folder is opened");
    let output = lister().stdin(folder).output().expect("the lister runs");
    assert_failed(&output, "lister: cannot read standard input");
    for stream in [&[][..], &[0x07]] {
        let output = run_with_output_closed(stream);
        assert_failed(&output, "lister: cannot write to standard output");
    }
}

/// Zeros in front of frames, of which the first is closed by the last byte that
/// is listed. What is behind it does not count.
fn over_the_limit() -> impl Read {
    let [first, second] = [framed(&HEARTBEAT), framed(&[2, 0, 0])];
    let zeros = LIMIT - first.len() as u64;
    let frames = [&first[..], &[0x00], &second, &second].concat();
    io::repeat(0x00).take(zeros).chain(io::Cursor::new(frames))
}

/// To its end, or until the lister takes no more.
fn send(mut stream: impl Read, input: &mut dyn Write) -> io::Result<()> {
    let mut block = vec![0; BLOCK];
    loop {
        let length = stream.read(&mut block)?;
        match input.write_all(&block[..length]) {
            // It ended before its input did.
            Err(error) if error.kind() == ErrorKind::BrokenPipe => return Ok(()),
            Ok(()) if length == 0 => return Ok(()),
            sent => sent?,
        }
    }
}

/// Both that are ignored: `cargo test --manifest-path rust/Cargo.toml --release
/// --offline -p compare --test listing -- --ignored`
#[test]
#[ignore = "more than 4 GiB"]
fn no_byte_over_the_limit_is_listed() {
    let output = proved_through_a_pipe("limit", None, |input| send(over_the_limit(), input));
    let mut expected = Vec::new();
    list(over_the_limit(), &mut expected).expect("memory can be read and written");
    assert_equal("limit", &output, &expected);
    let lines = "n at ans id len pos\n1 4294967285 0 0 7 -\nend 4294967284 0\n";
    assert_equal("limit", &output, lines.as_bytes());
}

/// The flags behind the limit do not count for the note either.
#[test]
#[ignore = "more than 4 GiB"]
fn no_flag_up_to_the_limit() {
    let output = proved_through_a_pipe("no flag", Some(Note::NoFlag), |input| {
        let zeros = io::repeat(0x00).take(LIMIT);
        send(zeros.chain(&[FLAG; 2][..]), input)
    });
    let lines = "n at ans id len pos\nend 4294967295 0\n";
    assert_equal("no flag", &output, lines.as_bytes());
}
