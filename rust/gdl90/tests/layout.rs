//! The structs of `raw`, and the units in them, lie in memory as a C compiler lays out those of
//! include/gdl90.h, which tests/layout.c prints; no struct and no function of the
//! header is left out.

mod c;

use std::any::type_name;
use std::collections::BTreeSet;
use std::mem::{align_of, offset_of, size_of};
use std::sync::OnceLock;

use c::{header, printed_by};
use gdl90::raw::*;
use gdl90::{GeometricSteps, PressureSteps, TerrainFeet};

/// What the C program prints. It is compiled once for all tests.
fn printed_by_c() -> &'static str {
    static PRINTED: OnceLock<String> = OnceLock::new();
    PRINTED.get_or_init(|| printed_by("layout"))
}

/// Size and sort of a field, as the C program has them.
fn size_and_sort<S, F>(_: fn(&S) -> &F) -> (usize, &'static str) {
    let sort = match type_name::<F>() {
        "i16" | "i32" => "signed",
        "bool" => "bool",
        "f64" => "double",
        _ => "other",
    };
    (size_of::<F>(), sort)
}

/// Lines as the C program prints them. A field's name in C is put behind its name
/// in Rust where the two differ.
macro_rules! layout {
    (@name $rust:tt $c:ident) => { stringify!($c) };
    (@name $rust:tt) => { stringify!($rust) };
    ($($name:ident: $type:ty { $($field:tt $(as $c:ident)?),* })*) => {{
        let mut lines = Vec::new();
        $(
            let name = stringify!($name);
            lines.push(format!("struct {name} {} {}", size_of::<$type>(), align_of::<$type>()));
            $(
                let field = layout!(@name $field $($c)?);
                let offset = offset_of!($type, $field);
                let (size, sort) = size_and_sort(|value: &$type| &value.$field);
                lines.push(format!("{name} {field} {offset} {size} {sort}"));
            )*
        )*
        lines
    }};
}

fn frames() -> Vec<String> {
    layout! {
        gdl90_frame_answer: FrameAnswer { number, length }
        gdl90_feed_control: FeedControl { count, stuffed, phase }
        gdl90_feed_answer: FeedAnswer { control, taken, answered, number, length, position }
        gdl90_tally: Tally { counts }
        gdl90_recording_answer: RecordingAnswer { number, entries }
    }
}

fn messages() -> Vec<String> {
    layout! {
        gdl90_heartbeat: Heartbeat { status1, status2, time, uplinks, reserved, basic_and_long }
        gdl90_initialization: Initialization { first, second }
        gdl90_uplink: Uplink { reception_mark, reception }
        gdl90_height: Height { height_mark, height }
        gdl90_report: Report {
            alert, address_type, address, position_mark, latitude, longitude, altitude_mark,
            altitude, track_kind, extrapolated, airborne, integrity, accuracy, speed_mark, speed,
            climb_mark, climb, track, emitter, call_sign, priority, spare
        }
        gdl90_geometric: Geometric { altitude, warning, merit_mark, merit }
    }
}

fn answers() -> Vec<String> {
    layout! {
        gdl90_kind_answer: Read<u8> { number, value as id }
        gdl90_heartbeat_read: Read<Heartbeat> { number, value as heartbeat }
        gdl90_initialization_read: Read<Initialization> { number, value as initialization }
        gdl90_uplink_read: Read<Uplink> { number, value as uplink }
        gdl90_height_read: Read<Height> { number, value as height }
        gdl90_report_read: Read<Report> { number, value as report }
        gdl90_geometric_read: Read<Geometric> { number, value as geometric }
        gdl90_write_answer: WriteAnswer { number, length }
    }
}

fn payloads() -> Vec<String> {
    layout! {
        gdl90_payload_list_answer: PayloadListAnswer { number, count, end }
        gdl90_payload_nth_answer: PayloadNthAnswer { number, kind, reserved, start, length }
    }
}

fn texts() -> Vec<String> {
    layout! {
        gdl90_text_answer: TextAnswer { number, hours, minutes, padding, length }
    }
}

fn units() -> Vec<String> {
    layout! {
        gdl90_pressure_steps: PressureSteps { 0 as steps }
        gdl90_geometric_steps: GeometricSteps { 0 as steps }
        gdl90_feet_above_terrain: TerrainFeet { 0 as feet }
        gdl90_degrees_answer: DegreesAnswer { number, latitude, longitude }
    }
}

#[test]
fn layouts_agree() {
    let sections = [frames, messages, answers, payloads, texts, units];
    let lines = sections.map(|section| section()).concat();
    assert_eq!(lines, printed_by_c().lines().collect::<Vec<_>>());
}

/// Structs and their fields as the header declares them, one to a line: the first
/// two words of each line that the C program should print.
fn declared(header: &str) -> Vec<String> {
    let mut lines = Vec::new();
    let mut name = None;
    for line in header.lines() {
        let line = line.trim();
        if let Some((start, _)) = line.split_once(" {") {
            name = start.strip_prefix("struct ");
            lines.extend(name.map(|name| format!("struct {name}")));
        } else if line.starts_with('}') {
            name = None;
        } else if let (Some(name), Some((declaration, _))) = (name, line.split_once(';')) {
            let field = declaration.rsplit(' ').next().expect("a name");
            let field = field.split('[').next().expect("a name");
            lines.push(format!("{name} {field}"));
        }
    }
    lines
}

/// So that no struct or field of the header goes untested.
#[test]
fn every_struct_of_the_header_is_printed() {
    let printed = printed_by_c().lines().map(|line| {
        let words: Vec<&str> = line.split(' ').take(2).collect();
        words.join(" ")
    });
    // The order does not matter, but nothing may stand twice.
    let (mut printed, mut declared) = (printed.collect::<Vec<_>>(), declared(&header()));
    printed.sort();
    declared.sort();
    assert_eq!(printed, declared);
}

/// Names in a text that start as the library's do, each with what stands behind it.
fn names(text: &str) -> impl Iterator<Item = (&str, &str)> {
    text.match_indices("gdl90_").map(|(start, _)| {
        let name = &text[start..];
        let end = name.find(|c: char| c != '_' && !c.is_ascii_alphanumeric());
        name.split_at(end.unwrap_or(name.len()))
    })
}

/// The archive does not have those that stand in the header whole.
#[test]
fn every_function_of_the_archive_is_declared() {
    let header = header();
    let lines = header
        .lines()
        .filter(|line| !line.starts_with("static inline"));
    let header = lines.collect::<Vec<_>>().join("\n");
    let functions = names(&header).filter(|(_, behind)| behind.starts_with('('));
    let functions: BTreeSet<&str> = functions.map(|(name, _)| name).collect();
    let declared = names(include_str!("../src/raw.rs")).map(|(name, _)| name);
    assert_eq!(declared.collect::<BTreeSet<&str>>(), functions);
}
