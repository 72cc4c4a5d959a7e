//! Lines and lists of reasons: a line taken apart gives back the reasons that it was
//! told of, so that different reasons never read alike, and nothing else is a line.

use generate::{known_inputs, running_timed_state, Plan, Rng};
use model::packed::{number, rest, Board, Model};
use model::{why_on, Reasons, Site};
use std::collections::BTreeMap;
use willowera::{Why, LONGEST_LINE};

const SEED: u64 = 13;

/// What a line of these reasons must be taken apart into.
fn expected(reasons: &Reasons) -> Why {
    Why {
        phase: reasons.phase,
        no_other_demand: reasons.no_other_demand,
        gap: reasons.gap,
        max: reasons.steps_left,
        walks: reasons.walks,
    }
}

/// The line that reads as this.
fn line_of(why: Why) -> String {
    let reasons = Reasons {
        phase: why.phase,
        no_other_demand: why.no_other_demand,
        gap: why.gap,
        steps_left: why.max,
        walks: why.walks,
    };
    reasons.to_string()
}

fn gives_back(reasons: Reasons) {
    let line = reasons.to_string();
    assert!(line.len() <= LONGEST_LINE);
    let parsed = Why::parse(line.as_bytes());
    assert_eq!(parsed, Some(expected(&reasons)), "{line}");
}

#[test]
fn every_list_of_reasons_is_given_back() {
    let any = Reasons {
        phase: 0,
        no_other_demand: false,
        gap: 0,
        steps_left: 0,
        walks: 0,
    };
    for phase in 0..7 {
        for no_other_demand in [false, true] {
            for walks in 0..=255 {
                for (gap, steps_left) in [(0, 0), (0, 1), (1, 0), (9, 10), (100, 1500)] {
                    gives_back(Reasons {
                        phase,
                        no_other_demand,
                        gap,
                        steps_left,
                        walks,
                    });
                }
            }
        }
    }
    for gap in 0..=100 {
        for steps_left in 0..=1500 {
            gives_back(Reasons {
                gap,
                steps_left,
                ..any
            });
        }
    }
}

/// Random states in running with inputs: the personality, the state and the inputs.
fn questions(count: usize) -> impl Iterator<Item = (Vec<u8>, Vec<u8>, u64)> {
    let mut rng = Rng::new(SEED);
    (0..count).map(move |_| {
        let personality = Plan::random(&mut rng).bytes();
        let site = Site::read(&personality).unwrap();
        let state = running_timed_state(&mut rng, &personality, &site);
        let inputs = known_inputs(&mut rng, &site);
        (personality, state.to_bytes().to_vec(), inputs)
    })
}

/// The line of the library if it is linked, else of the model: it is taken apart by other code.
fn told((personality, state, inputs): &(Vec<u8>, Vec<u8>, u64)) -> Vec<u8> {
    let mut line = vec![0; LONGEST_LINE];
    let board = compare::board().map_or(&Model as &dyn Board, |(library, _)| library);
    let answer = board.why(personality, state, *inputs, &mut line);
    assert_eq!(number(answer), 0);
    line.truncate(rest(answer) as usize);
    line
}

#[test]
fn a_line_that_was_told_gives_back_its_reasons() {
    for question in questions(20_000) {
        let (personality, state, inputs) = &question;
        let site = Site::read(personality).unwrap();
        let timed = model::TimedState::from_bytes(state).unwrap();
        let reasons = why_on(&site, &timed, *inputs).unwrap().unwrap();
        assert_eq!(Why::parse(&told(&question)), Some(expected(&reasons)));
    }
}

#[test]
fn different_lists_give_different_lines() {
    let mut lines = BTreeMap::new();
    for question in questions(20_000) {
        let line = told(&question);
        let why = Why::parse(&line).expect("a line");
        let earlier = lines.insert(line, why);
        assert!(earlier.is_none_or(|earlier| earlier == why));
    }
    let mut lists: Vec<String> = lines.values().map(|why| format!("{why:?}")).collect();
    lists.sort();
    lists.dedup();
    assert_eq!(lists.len(), lines.len());
    assert!(lists.len() > 5_000, "{}", lists.len());
}

#[test]
fn only_lines_are_taken_apart() {
    let mut rng = Rng::new(SEED);
    let (mut lines, mut others) = (0, 0);
    for question in questions(3_000) {
        let line = told(&question);
        for _ in 0..30 {
            let mut text = line.clone();
            let at = rng.below(text.len());
            match rng.below(4) {
                0 => drop(text.remove(at)),
                1 => text.insert(at, rng.pick(b"0123459 ,ABHagmwx\0")),
                2 => text[at] = rng.pick(b"0123459 ,ABHagmwx\0"),
                _ => text.truncate(at),
            }
            match Why::parse(&text) {
                Some(why) => {
                    assert_eq!(line_of(why).as_bytes(), text);
                    lines += 1;
                }
                None => others += 1,
            }
        }
    }
    assert!(lines > 1_000 && others > 10_000, "{lines}, {others}");
}
