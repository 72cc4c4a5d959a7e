//! Texts with random edits: the reader never panics, a text that is read builds to bytes
//! that turn back into a text, and everything can be told of it.

use generate::{Plan, Rng};

const SIGNS: [&str; 14] = [
    " ",
    "\n",
    "#",
    "\"",
    "-",
    ":",
    "s",
    "9",
    "65536",
    "V1",
    "P1",
    "not",
    "é",
    "approach north",
];

/// The text with a part removed, doubled or replaced.
fn edited(rng: &mut Rng, text: &str) -> String {
    let letters: Vec<char> = text.chars().collect();
    let from = rng.below(letters.len());
    let to = (from + rng.below(4)).min(letters.len());
    let part: String = letters[from..to].iter().collect();
    let middle = match rng.below(4) {
        0 => String::new(),
        1 => part.repeat(2),
        2 => rng.pick(&SIGNS).to_string(),
        _ => format!("{part}{}", rng.pick(&SIGNS)),
    };
    let [begin, end]: [String; 2] =
        [&letters[..from], &letters[to..]].map(|part| part.iter().collect());
    begin + &middle + &end
}

#[test]
fn edited_texts_are_read_or_have_mistakes() {
    let (mut read, mut wrong) = (0, 0);
    for case in 0..4_000 {
        let mut rng = Rng::of_case(4, case);
        let mut text = site::show(&Plan::small(&mut rng, 6).bytes()).unwrap();
        for _ in 0..rng.range(1, 2) {
            text = edited(&mut rng, &text);
        }
        let lines = text.lines().count();
        match site::read(&text) {
            Ok(site) => {
                let built = site.build();
                if let Ok(shown) = site::show(&built.bytes) {
                    assert_eq!(site::read(&shown).unwrap().build().bytes, built.bytes);
                }
                site::warnings(&site, 0, &|speed, _| Some(speed.into()));
                site::json::site(&site);
                site::json::waits(&site::waits::waits(&site));
                for number in 1..30 {
                    let place = rng.below(built.bytes.len() + 2);
                    let told = site::tell(&site, &built, number, place);
                    assert!(told.span.line <= lines && !told.text.is_empty());
                }
                read += 1;
            }
            Err(mistakes) => {
                let inside = |line: usize| 1 <= line && line <= lines.max(1);
                assert!(
                    mistakes.iter().all(|one| inside(one.span.line)),
                    "{mistakes:?}"
                );
                wrong += 1;
            }
        }
    }
    assert!(read > 200 && wrong > 200, "{read} read, {wrong} wrong");
}
