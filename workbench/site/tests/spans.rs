//! The place of every byte: the text at it says what the byte says.

use generate::{Plan, Rng};
use site::{letter, letters, Span, CALLS, EXTENDS, MARKS};

fn at(text: &str, span: Span) -> String {
    let line = text.lines().nth(span.line - 1).unwrap();
    line.chars()
        .skip(span.column - 1)
        .take(span.length)
        .collect()
}

/// The words of each byte of a body of records of so many bytes.
type Words = fn(&[u8]) -> String;

fn time(bytes: &[u8]) -> String {
    u16::from_le_bytes([bytes[0], bytes[1]]).to_string()
}

fn mode(bytes: &[u8]) -> String {
    let call = CALLS[usize::from(bytes[0] & !EXTENDS)];
    let extends = if bytes[0] & EXTENDS != 0 {
        " extending"
    } else {
        ""
    };
    format!("{call}{extends}")
}

fn phase(bytes: &[u8]) -> String {
    letter(bytes[0].into()).to_string()
}

fn set(bytes: &[u8]) -> String {
    letters(bytes[0])
}

fn mark(bytes: &[u8]) -> String {
    MARKS[usize::from(bytes[0])].to_string()
}

fn heading(_: &[u8]) -> String {
    String::new()
}

/// The fields of a record, by kind of section: the length of each and its words.
fn fields(kind: u8) -> &'static [(usize, Words)] {
    match kind {
        1 | 8 => &[(1, heading), (1, heading), (2, time)],
        2 | 6 | 7 => &[(2, time)],
        3 => &[(1, set), (1, mark)],
        5 => &[(1, phase), (1, mode)],
        9 => &[(1, phase)],
        _ => &[],
    }
}

/// The heading of a kind of section.
fn heading_of(kind: u8) -> &'static str {
    let at = match kind {
        1 | 8 => 0,
        9 => 7,
        kind => usize::from(kind) - 1,
    };
    site::HEADINGS[at]
}

fn check(text: &str) {
    let site = site::read(text).unwrap();
    let built = site.build();
    let mut head = 0;
    while head < built.bytes.len() {
        let (length, kind) = (
            usize::from(built.bytes[head]) + 256 * usize::from(built.bytes[head + 1]),
            built.bytes[head + 2],
        );
        for place in head..head + 4 {
            assert_eq!(at(text, built.spans[place]), heading_of(kind));
        }
        let mut place = head + 4;
        for (size, words) in fields(kind)
            .iter()
            .cycle()
            .take_while(|_| !fields(kind).is_empty())
        {
            if place >= head + 4 + length {
                break;
            }
            let said = words(&built.bytes[place..]);
            for byte in place..place + size {
                let found = at(text, built.spans[byte]);
                assert!(
                    said.is_empty() || found == said,
                    "byte {byte}: {found}, {said}"
                );
            }
            place += size;
        }
        head += 4 + length;
    }
    assert_eq!(at(text, built.spans[4]), "phases");
    assert_eq!(at(text, built.spans[5]), "groups");
    let row = built
        .bytes
        .len()
        .min(16 + 12 * site.phases.len() + 2 * site.groups.len() + 4);
    for (group, span) in site.groups.iter().zip(built.spans[row..].chunks(4)) {
        assert!(span
            .iter()
            .all(|one| at(text, *one).starts_with(&format!("{}:", group.name))));
    }
}

#[test]
fn the_text_at_the_place_of_a_byte_says_what_the_byte_says() {
    for case in 0..1_000 {
        let bytes = Plan::random(&mut Rng::of_case(3, case)).bytes();
        check(&site::show(&bytes).unwrap());
    }
}

/// What the README says of the grammar and the warnings has every word.
#[test]
fn the_readme_has_every_word() {
    let readme = concat!(env!("CARGO_MANIFEST_DIR"), "/../README.md");
    let readme = std::fs::read_to_string(readme).unwrap();
    let words = site::HEADINGS
        .iter()
        .chain(&MARKS)
        .chain(&CALLS)
        .chain(&site::ARROWS);
    for word in words.chain(&[
        "approach", "lane", "lanes", "metres", "length", "bearing", "speed", "grade", "not",
    ]) {
        assert!(readme.contains(&format!("`{word}`")), "{word}");
    }
    for kind in site::Kind::ALL {
        assert!(
            readme.contains(&format!("`{}`", kind.name())),
            "{}",
            kind.name()
        );
    }
}
