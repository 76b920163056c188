//! The library's numbers have one name and the same words in C, in Rust and in
//! what the lister says of itself, and all three have one version.

mod c;

use std::process::Command;
use std::sync::OnceLock;

use gdl90::raw::id;
use gdl90::Error;

/// What 0 is: `Ok`, and no case of `Error`.
const ACCEPTED: &str = "accepted";
/// What the lister can show.
const LISTED: [u8; 10] = [0, 1, 2, 3, 4, 5, 6, 7, 8, 17];

fn words(number: u8) -> Option<String> {
    match number {
        0 => Some(ACCEPTED.into()),
        _ => Error::from_number(number).map(|error| error.to_string()),
    }
}

/// What the C program prints. It is compiled once for all tests.
fn printed_by_c() -> &'static str {
    static PRINTED: OnceLock<String> = OnceLock::new();
    PRINTED.get_or_init(|| c::printed_by("numbers"))
}

/// What the lister prints with an option.
fn lister_says(option: &str) -> String {
    let mut lister = Command::new(c::root().join("gdl90-list"));
    let said = lister.arg(option).output().expect("gdl90-list runs");
    assert!(said.status.success(), "{option}: {}", said.status);
    String::from_utf8(said.stdout).expect("text")
}

#[test]
fn c_has_the_same_words() {
    let mut lines = printed_by_c().lines().skip(1);
    for number in 0..=255 {
        let words = words(number).unwrap_or("a number that this version does not have".into());
        assert_eq!(lines.next(), Some(&format!("{number} {words}")[..]));
    }
    assert_eq!(lines.next(), None);
}

/// `BadEscape` is `GDL90_BAD_ESCAPE`.
fn name_in_c(error: Error) -> String {
    let mut name = "GDL90".to_string();
    for letter in format!("{error:?}").chars() {
        if letter.is_uppercase() {
            name.push('_');
        }
        name.push(letter.to_ascii_uppercase());
    }
    name
}

#[test]
fn c_has_the_same_names() {
    let header = c::header();
    let (_, behind) = header
        .split_once("enum gdl90_number {\n")
        .expect("the enum");
    let (constants, _) = behind.split_once("\n};").expect("its end");
    let constants = constants.lines().map(|line| {
        let constant = line.split("/*").next().expect("a line").trim();
        constant.trim_end_matches(',').to_string()
    });
    let errors = (1..=255).filter_map(Error::from_number);
    let expected = errors.map(|error| format!("{} = {}", name_in_c(error), error.number()));
    let accepted = "GDL90_ACCEPTED = 0".to_string();
    let expected = [accepted].into_iter().chain(expected);
    assert_eq!(constants.collect::<Vec<_>>(), expected.collect::<Vec<_>>());
}

/// The numbers and words that stand in a text's lines, as `cut` finds them there.
fn explained<'a>(
    text: &'a str,
    cut: impl Fn(&'a str) -> Option<(&'a str, &'a str)>,
) -> Vec<(u8, &'a str)> {
    let rows = text.lines().filter_map(cut);
    rows.filter_map(|(number, words)| Some((number.parse().ok()?, words)))
        .collect()
}

/// The page on the sample, which says what the lister's help says.
fn page() -> String {
    std::fs::read_to_string(c::root().join("samples/README.md")).expect("the page")
}

#[test]
fn the_lister_names_the_kinds() {
    let kinds = [
        (id::HEARTBEAT, "heartbeat"),
        (id::INITIALIZATION, "initialization"),
        (id::UPLINK, "uplink"),
        (id::HEIGHT, "height above terrain"),
        (id::OWNSHIP, "ownship"),
        (id::GEOMETRIC, "geometric altitude"),
        (id::TRAFFIC, "traffic"),
    ];
    let kinds = kinds.map(|(id, kind)| format!("{id} {kind}")).join(", ");
    for text in [lister_says("--help"), page()] {
        let words: Vec<&str> = text.split_whitespace().collect();
        assert!(
            words.join(" ").contains(&format!("Ids: {kinds};")),
            "{text}"
        );
    }
}

#[test]
fn the_lister_explains_its_answers_in_these_words() {
    let said = LISTED.map(|number| (number, words(number).expect("words")));
    let expected: Vec<(u8, &str)> = said.iter().map(|(n, words)| (*n, &words[..])).collect();

    let help = lister_says("--help");
    // What to do with an answer stands further to the right.
    let answers = explained(&help, |line| {
        let row = line.trim_start().split_once("  ");
        row.filter(|(_, words)| !words.starts_with(' '))
    });
    assert_eq!(answers, expected);

    let page = page();
    let mut rows = explained(&page, |line| {
        let (number, rest) = line.strip_prefix("| ")?.split_once(" | ")?;
        Some((number, rest.split_once(" | ")?.0))
    });
    // The page has other tables too.
    rows.retain(|row| expected.contains(row));
    assert_eq!(rows, expected);
}

#[test]
fn one_version() {
    let version = env!("CARGO_PKG_VERSION");
    let printed = printed_by_c().lines().next();
    assert_eq!(printed, Some(&format!("version {version}")[..]));
    assert_eq!(lister_says("--version"), format!("gdl90-list {version}\n"));
}
