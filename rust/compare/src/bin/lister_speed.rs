//! Speed, by processor time, and peak memory of the proved lister against the
//! reference's, as two programs on one recording of 64 MiB, and whether their
//! listings are the same.
//!
//! Both have to be built: `rt run` in crates/lister, and `cargo build --release` of
//! the reference's `lister` next to this program.

use std::error::Error;
use std::fs::{self, File};
use std::io::{Read, Write};
use std::path::{Path, PathBuf};
use std::process::{Child, Command, Stdio};

use compare::clock;
use reference::recording::readable_recording;

const LENGTH: usize = 64 << 20;
const ROUNDS: usize = 21;
const WARM_UP: usize = 1;

type Result<T> = std::result::Result<T, Box<dyn Error>>;

fn main() -> Result<()> {
    let crates = Path::new(env!("CARGO_MANIFEST_DIR")).join("../../crates");
    let beside = std::env::current_exe()?.with_file_name("lister");
    let programs = [crates.join("lister/out/lister"), beside];
    for program in &programs {
        if !program.is_file() {
            return Err(format!("{} is not built", program.display()).into());
        }
    }
    let recording = programs[1].with_file_name("lister_speed.gdl90");
    fs::write(&recording, readable_recording(LENGTH))?;
    let listing = same_listing(&programs, &recording)?;
    let lines = listing.iter().filter(|&&byte| byte == b'\n').count() - 2;
    println!("{LENGTH} bytes, {lines} answers, the listings are the same");
    let rounds = sorted_rounds(&programs, &recording)?;
    for (name, round) in [("median", ROUNDS / 2), ("fastest", 0)] {
        let [rattle, rust] = [rounds[0][round], rounds[1][round]];
        let ratio = rattle / rust;
        println!("{name:<8} rattle {rattle:.2} ns/byte  rust {rust:.2} ns/byte  ratio {ratio:.2}");
    }
    let peak = |program| peak_memory(program, &recording, &listing);
    let (rattle, rust) = (peak(&programs[0])?, peak(&programs[1])?);
    println!("peak resident size  rattle {rattle}  rust {rust}");
    fs::remove_file(recording)?;
    Ok(())
}

fn same_listing(programs: &[PathBuf; 2], recording: &Path) -> Result<Vec<u8>> {
    let listing = |program| -> Result<Vec<u8>> {
        let input = File::open(recording)?;
        let output = Command::new(program).stdin(input).output()?;
        Ok(output.stdout)
    };
    let (rattle, rust) = (listing(&programs[0])?, listing(&programs[1])?);
    if rattle != rust {
        return Err("the listings differ".into());
    }
    Ok(rattle)
}

/// Nanoseconds a byte, the fastest round first. The rounds are interleaved, each
/// program first in turn, so that drift hits both.
fn sorted_rounds(programs: &[PathBuf; 2], recording: &Path) -> Result<[Vec<f64>; 2]> {
    let mut taken = [const { Vec::new() }; 2];
    for round in 0..WARM_UP + ROUNDS {
        for turn in 0..2 {
            let side = (round + turn) % 2;
            let nanoseconds = time(&programs[side], recording)?;
            if round >= WARM_UP {
                taken[side].push(nanoseconds / LENGTH as f64);
            }
        }
    }
    for rounds in &mut taken {
        rounds.sort_by(f64::total_cmp);
    }
    Ok(taken)
}

/// From the start of the program to its end, its output thrown away.
fn time(program: &Path, recording: &Path) -> Result<f64> {
    let mut command = Command::new(program);
    command.stdin(File::open(recording)?).stdout(Stdio::null());
    let start = clock::of_children();
    let status = command.status()?;
    let taken = (clock::of_children() - start).as_nanos() as f64;
    if !status.success() {
        return Err(format!("{}: {status}", program.display()).into());
    }
    Ok(taken)
}

/// As Linux says it of a program that has listed all but the end, which it
/// cannot before its input is closed.
fn peak_memory(program: &Path, recording: &Path, listing: &[u8]) -> Result<String> {
    let bytes = fs::read(recording)?;
    let mut child = Command::new(program)
        .stdin(Stdio::piped())
        .stdout(Stdio::piped())
        .spawn()?;
    let mut input = child.stdin.take().expect("a pipe");
    let feeder = std::thread::spawn(move || input.write_all(&bytes).map(|()| input));
    read_all_but_the_end(&mut child, listing)?;
    let status = fs::read_to_string(format!("/proc/{}/status", child.id()))?;
    let input = feeder.join().expect("no panic")?;
    drop(input);
    child.wait()?;
    let line = status.lines().find_map(|line| line.strip_prefix("VmHWM:"));
    Ok(line.ok_or("no VmHWM")?.trim().to_string())
}

fn read_all_but_the_end(child: &mut Child, listing: &[u8]) -> Result<()> {
    let (_, lines) = listing.split_last().ok_or("no listing")?;
    let end = lines.iter().rposition(|&byte| byte == b'\n');
    let mut seen = vec![0; end.ok_or("no line")? + 1];
    let output = child.stdout.as_mut().expect("a pipe");
    output.read_exact(&mut seen)?;
    if !listing.starts_with(&seen) {
        return Err("another listing through a pipe".into());
    }
    Ok(())
}
