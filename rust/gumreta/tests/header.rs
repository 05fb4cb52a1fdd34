//! This crate, the archive and c/gumreta.h are of one release and have the same numbers and words.
use gumreta::{version, Refusal, Stop, CELL_WORDS, FRAME_WORDS, MAX_BYTES, REGION_WORDS, STACK_BYTES, VERSION};

fn header() -> String {
    std::fs::read_to_string("../../c/gumreta.h").expect("c/gumreta.h")
}

/// What the header defines a name as.
fn defined(name: &str) -> String {
    let header = header();
    let line = header.lines().find_map(|l| l.strip_prefix(&format!("#define {name} ")));
    line.unwrap_or_else(|| panic!("c/gumreta.h defines {name}")).trim_matches('"').to_string()
}

#[test]
fn one_release() {
    assert_eq!(version(), VERSION);
    assert_eq!(defined("GUMRETA_VERSION"), VERSION.to_string());
    assert_eq!(defined("GUMRETA_VERSION_STRING"), env!("CARGO_PKG_VERSION"));
    let parts: Vec<u64> = env!("CARGO_PKG_VERSION").split('.').map(|p| p.parse().unwrap()).collect();
    assert_eq!(VERSION, 10000 * parts[0] + 100 * parts[1] + parts[2]);
}

#[test]
fn the_same_sizes() {
    let sizes = [
        ("GUMRETA_MAX_BYTES", MAX_BYTES),
        ("GUMRETA_STACK_BYTES", STACK_BYTES),
        ("GUMRETA_CELL_WORDS", CELL_WORDS),
        ("GUMRETA_REGION_WORDS", REGION_WORDS),
        ("GUMRETA_FRAME_WORDS", FRAME_WORDS),
    ];
    for (name, size) in sizes {
        assert_eq!(defined(name), size.to_string(), "{name}");
    }
}

/// The header's number by a name, and its message for it.
fn message(name: &str) -> (u8, String) {
    let header = header();
    let behind = |start: String| {
        header.lines().find_map(|l| l.trim().strip_prefix(&start)).unwrap_or_else(|| panic!("{start}")).to_string()
    };
    let number = behind(format!("GUMRETA_{name} = "));
    let digits = number.split(|c: char| !c.is_ascii_digit()).next().unwrap();
    let words = behind(format!("case GUMRETA_{name}: return \""));
    (digits.parse().unwrap(), words.trim_end_matches("\";").to_string())
}

#[test]
fn the_same_words() {
    use {Refusal::*, Stop::*};
    for refusal in [Header, Form, Typing, Values, Regions, Annotated, Classes, Rules, Room, Unreached] {
        let (number, words) = message(&format!("{refusal:?}").to_uppercase());
        assert_eq!(refusal.to_string(), format!("refused {number}: {words}"));
    }
    for stop in [Steps, Cells, Places, Frames, Prints, Sums] {
        let (number, words) = message(&format!("{stop:?}").to_uppercase());
        assert_eq!(stop.to_string(), format!("stopped {number}: {words}"));
    }
}
