//! Verdicts: refusals and warnings with their lines, mistakes, wrong use.

mod common;

use common::{edited, root, scratch, shown, willowera};
use std::fs;

/// The first message of `check` for the example with some parts replaced: the line of the
/// text at which it is, and the message.
fn first(name: &str, edits: &[(&str, &str)]) -> (i32, String, String) {
    let path = edited(name, edits);
    let ended = willowera(&["check", "--json", shown(&path)]);
    let json = ended.json();
    let message = &json["messages"][0];
    let text = fs::read_to_string(&path).unwrap();
    let line = message["span"]["line"]
        .as_u64()
        .map_or("", |line| text.lines().nth(line as usize - 1).unwrap());
    let words: Vec<&str> = line.split_whitespace().take(2).collect();
    let said = message["text"].as_str().unwrap_or("").to_string();
    let number = message["number"]
        .as_u64()
        .map_or(String::new(), |number| format!("{number} "));
    (ended.status, words.join(" "), number + &said)
}

fn refused(name: &str, edits: &[(&str, &str)], line: &str, text: &str) {
    let (status, found, said) = first(name, edits);
    assert_eq!((status, found.as_str()), (1, line), "{said}");
    assert!(said.starts_with(text), "{said}");
}

#[test]
fn refusals_are_told_at_the_line_that_made_the_bytes() {
    let place = "approach east  lane 1 arrow left,straight   \"westbound\"";
    refused(
        "r5",
        &[("4.0 s  2.0 s     # High", "2.9 s  2.0 s     # High")],
        "A 0",
        "5 phase A: yellow is 2.9 s",
    );
    refused(
        "r6",
        &[("P1      A", "P1      AC")],
        "P1 AC",
        "6 P1 is a pedestrian group with 2 phases",
    );
    refused(
        "r8",
        &[("V3      B", "V3      A"), ("V4      B", "V4      A")],
        "B 0",
        "8 phase B is in the set of no group",
    );
    refused(
        "r9",
        &[("V6: V1 V2 V3 V4 P1", "V6: V1 V2 V4 P1")],
        "V3: V2",
        "9 V3 lists V6, but the row of V6 does not list V3",
    );
    refused(
        "r10",
        &[(
            &format!("V2      A       vehicle       {place}"),
            &format!("V2      AB      vehicle       {place}"),
        )],
        "V2: V3",
        "10 V2 and V3 conflict and are both in phase B",
    );
    refused(
        "r11",
        &[("5     C ", "5     D ")],
        "5 D",
        "11 detector 5 is of phase D; the site has phases A to C",
    );
    refused(
        "r17",
        &[("late-start ", "early-cut-off ")],
        "V5 C",
        "17 V5 has the mark `early-cut-off`",
    );
    refused(
        "r18",
        &[("approaches\n", "order\nA B B\napproaches\n")],
        "A B",
        "18 the order has phase B twice, and phase C is missing",
    );
    refused(
        "r21",
        &[
            ("2     B      non-locking", "2     B      no-call"),
            ("3     B      non-locking", "3     B      no-call"),
        ],
        "B 0",
        "21 phase B has no calling detector and no pedestrian group",
    );
}

#[test]
fn warnings_have_their_lines() {
    let accepted = first("w0", &[]);
    assert_eq!(accepted, (0, String::new(), String::new()));
    let warned = |name: &str, edits: &[(&str, &str)], line: &str, text: &str| {
        let (status, found, said) = first(name, edits);
        assert_eq!((status, found.as_str()), (0, line), "{said}");
        assert!(said.starts_with(text), "{said}");
        let path = edited(name, edits);
        assert_eq!(willowera(&["check", "--strict", shown(&path)]).status, 1);
    };
    warned(
        "w1",
        &[("wait bound  200.0 s", "wait bound  199.9 s")],
        "wait bound",
        "the text states a wait bound of 1999; the library gives 2000",
    );
    let never = [
        ("V3: V2 V5 V6", "V3: V2"),
        ("V5: V1 V2 V3", "V5: V1 V2"),
        ("V6: V1 V2 V3", "V6: V1 V2"),
    ];
    warned(
        "w2",
        &never,
        "V3: V2",
        "V3 is red in C but conflicts with no group of C: if that is meant, add `not V5 V6 P2`",
    );
    let known = [&never[..], &[("V3: V2", "V3: V2 not V5 V6 P2")]].concat();
    assert_eq!(first("w2", &known).2, "");
    warned(
        "w3",
        &[("V6      C ", "V6      - ")],
        "V6 -",
        "V6 is in no phase",
    );
    warned(
        "w4",
        &[("15 s   2.5 s", "15 s   0")],
        "2 B",
        "detector 2 extends phase B, but the gap of B is 0",
    );
    warned(
        "w5",
        &[("5.0 s   5.5 s", "5.0 s   5.6 s"), ("200.0 s", "200.2 s")],
        "P2 6",
        "second clearance of P2 is 5.6 s, longer than the 5.5 s",
    );
    warned(
        "w6",
        &[("C    2 s ", "C    0 "), ("200.0 s", "198.0 s")],
        "V5 C",
        "V5 has the mark `late-start`, but late start is 0 in C",
    );
    warned(
        "w7",
        &[("15 s   2.5 s", "4.9 s   2.5 s"), ("200.0 s", "189.9 s")],
        "B 0",
        "maximum green of B is 4.9 s, below its minimum green of 5.0 s",
    );
    let yellow = willowera::yellow(80, 0).unwrap();
    let needs = format!(
        "yellow of A is 4.0 s; V1 on west needs {} at 80 km/h",
        site::seconds(yellow)
    );
    warned(
        "w8",
        &[("west    speed 60", "west    speed 80")],
        "A 0",
        &needs,
    );
    warned(
        "w9",
        &[("late-start ", "vehicle ")],
        "C 2",
        "late start of C has no effect",
    );
}

/// A conflict that a row has twice, alone or with the group behind `not` too.
#[test]
fn groups_that_a_row_has_twice() {
    let twice = |row: &str, text: &str| {
        let path = edited("twice", &[("V4: V1 V5 V6 P1 P2", row)]);
        let ended = willowera(&["check", shown(&path)]);
        assert!(
            ended.status == 0 && ended.text().contains(text),
            "{}",
            ended.text()
        );
        // One warning is no plural.
        assert!(ended.text().ends_with("\n1 warning\n"), "{}", ended.text());
    };
    twice(
        "V4: V1 V5 V6 P1 P2 V1",
        ":20: warning: the row of V4 has V1 twice\n",
    );
    twice(
        "V4: V1 V5 V6 P1 P2 not V1",
        ":24: warning: the row of V4 has V1 as a conflict and behind `not`: it is a conflict\n",
    );
    let path = edited("two", &[("V4: V1 V5 V6 P1 P2", "V4: V1 V5 V6 P1 P2 V1 V1")]);
    assert!(willowera(&["check", shown(&path)])
        .text()
        .ends_with("\n2 warnings\n"));
}

/// A speed without a yellow time is told in a note, which is no warning.
#[test]
fn a_yellow_that_is_not_judged_is_told() {
    let path = edited("slow", &[("west    speed 60", "west    speed 30")]);
    let ended = willowera(&["check", "--strict", shown(&path)]);
    let note = "note: the yellow for west could not be judged at 30 km/h and 0 %: the library's table is for 40 to 110 km/h and -10 to 10 %\n";
    assert!(
        ended.status == 0 && ended.text().contains(note) && !ended.text().contains("warning"),
        "{}",
        ended.text()
    );
    let (_, line, _) = first("slow", &[("west    speed 60", "west    speed 30")]);
    assert_eq!(line, "west speed");
    // The table ends where the note says.
    let ends = |(low, high): (i32, i32), given: &dyn Fn(i32) -> bool| {
        assert_eq!(
            [low - 1, low, high, high + 1].map(given),
            [false, true, true, false]
        );
    };
    ends(site::YELLOW_SPEEDS, &|speed| {
        willowera::yellow(speed as u32, 0).is_ok()
    });
    ends(site::YELLOW_GRADES, &|grade| {
        willowera::yellow(60, grade).is_ok()
    });
}

#[test]
fn a_text_is_not_shown_but_told_to_be_one() {
    let site = root().join("workbench/examples/four_arms/site.txt");
    let ended = willowera(&["show", shown(&site)]);
    assert_eq!((ended.status, ended.text().as_str()), (2, ""));
    let told = "site.txt is a text already; show takes the bytes of a personality\n";
    assert!(ended.stderr.ends_with(told), "{}", ended.stderr);
}

#[test]
fn no_conflicts_at_all() {
    let path = scratch("none.txt");
    let text = fs::read_to_string(root().join("examples/two_phases/site.txt")).unwrap();
    fs::write(
        &path,
        text.replace("V1: V2", "V1:").replace("V2: V1", "V2:"),
    )
    .unwrap();
    let ended = willowera(&["check", shown(&path)]);
    assert!(
        ended.text().contains("warning: no groups conflict"),
        "{}",
        ended.text()
    );
}

#[test]
fn mistakes_are_all_told_with_line_and_column() {
    let path = edited(
        "mistakes",
        &[
            ("edition 2", "edition two"),
            ("V5      C       late-start", "V5      C       late"),
        ],
    );
    let ended = willowera(&["check", shown(&path)]);
    assert_eq!(ended.status, 1);
    let text = ended.text();
    assert!(
        text.contains(":7:9: error: found `two`, expected `1` or `2`"),
        "{text}"
    );
    assert!(
        text.contains(":23:17: error: found `late`, expected `vehicle`"),
        "{text}"
    );
    assert!(!text.contains('\x1b'), "colours are for a terminal only");
}

#[test]
fn bytes_that_no_text_has_are_refused_in_words() {
    let path = scratch("bytes.bin");
    let mut bytes = fs::read(root().join("examples/two_phases/personality.bin")).unwrap();
    bytes.push(7);
    fs::write(&path, &bytes).unwrap();
    let ended = willowera(&["check", shown(&path)]);
    assert_eq!(ended.status, 1);
    assert!(
        ended
            .text()
            .contains("refused 12 at byte 68: bytes follow the last section"),
        "{}",
        ended.text()
    );
    bytes.pop();
    bytes[60] = 4; // the phase of detector 0
    fs::write(&path, &bytes).unwrap();
    let ended = willowera(&["check", shown(&path)]);
    assert!(
        ended.status == 1
            && ended
                .text()
                .contains("refused: 11 at byte 60: detector 0 is of phase E"),
        "{}",
        ended.text()
    );
}

#[test]
fn wrong_use_and_unreadable_files_end_with_2() {
    let site = root().join("examples/two_phases");
    let site = shown(&site);
    for arguments in [
        vec![],
        vec!["unknown"],
        vec!["check"],
        vec!["check", "/nowhere/site.txt"],
        vec!["run", site, "--inputs", "/nowhere/inputs.txt"],
        vec!["run", site, "--steps", "many"],
        vec!["run", site, "--steps", "36001"],
        vec!["road", site],
        vec!["build", site, "--out", "/nowhere/personality.bin"],
        vec!["build", site, "--c", "2nd"],
    ] {
        let ended = willowera(&arguments);
        assert!(
            ended.status == 2 && !ended.stderr.is_empty(),
            "{arguments:?}: {}",
            ended.status
        );
    }
    for command in [
        "check", "build", "show", "waits", "run", "road", "watch", "retime", "report",
    ] {
        let ended = willowera(&[command, "--help"]);
        assert!(
            ended.status == 0 && ended.text().contains("Exit status"),
            "{command}"
        );
    }
}

#[test]
fn a_c_array_has_the_bytes() {
    let site = root().join("examples/two_phases");
    let ended = willowera(&["build", shown(&site), "--c", "junction"]);
    let text = ended.text();
    assert!(
        text.starts_with(
            "static const unsigned char junction[68] = {\n    0x04, 0x00, 0x01, 0x00,"
        ),
        "{text}"
    );
    let words = text
        .split(|c: char| !c.is_ascii_alphanumeric())
        .filter(|word| word.starts_with("0x"));
    let bytes: Vec<u8> = words
        .map(|word| u8::from_str_radix(&word[2..], 16).unwrap())
        .collect();
    assert_eq!(bytes, willowera(&["build", shown(&site)]).stdout);
}

#[test]
fn refused_streams_are_told_at_their_lines() {
    for command in ["road", "check"] {
        let told = |old: &str, new: &str, text: &str| {
            let path = edited(&format!("streams_{command}"), &[(old, new)]);
            let line = fs::read_to_string(&path).unwrap();
            let line = line.lines().position(|line| line.starts_with(new)).unwrap() + 1;
            let ended = willowera(&[command, shown(&path)]);
            let expected = format!(":{line}:1: refused: 22 at byte 0: {text}");
            assert!(
                ended.status == 1 && ended.text().contains(&expected),
                "{expected}: {}",
                ended.text()
            );
        };
        told(
            "detector 4 group V5",
            "detector 6 group V5",
            "there is no detector 6: the site has 6",
        );
        told(
            "detector 4 group V5",
            "detector 4 group P1",
            "P1 is not a vehicle group",
        );
        told(
            "detector 4 group V5 rate",
            "detector 4 group V5 rate 1801 #",
            "1801 vehicles per hour; at most 1800 are allowed",
        );
        let path = edited("steps", &[("steps 36000", "steps 180001")]);
        let told = willowera(&[command, shown(&path)]).text();
        assert!(told.contains("180001 steps are refused; at most 180000"));
    }
}

#[test]
fn refused_streams_of_a_road_text_are_told_at_its_lines() {
    let path = scratch("fast.txt");
    fs::write(&path, "steps 100\n\ndetector 0 group V1 rate 1801\n").unwrap();
    let site = root().join("examples/two_phases");
    let ended = willowera(&["road", shown(&site), "--streams", shown(&path)]);
    let expected = "fast.txt:3:1: refused: 22 at byte 0: 1801 vehicles per hour; at most 1800";
    assert!(
        ended.status == 1 && ended.text().contains(expected),
        "{}",
        ended.text()
    );
}

/// The lowest and highest value that the library accepts for each setting is the one that
/// messages and reports show.
#[test]
fn limits_are_those_of_the_library() {
    for edition in [1, 2] {
        let mut walks = generate::Plan::turning_arrow(Some(vec![0, 0]));
        walks.groups.push([1, 2]);
        walks.conflicts.push(0);
        walks.movements.push([60, 50, 40]);
        walks.start_red = 40;
        walks.phases = vec![[0, 20, 30, 5, 30, 20]; 2];
        let mut bytes = walks.bytes();
        bytes[2] = if edition == 2 { 8 } else { 1 };
        assert_eq!(willowera::read(&bytes), Ok(()));
        let section = |kind| {
            willowera::section(&bytes, kind).unwrap().as_ptr() as usize - bytes.as_ptr() as usize
        };
        let phase = |at: usize| section(2) + 2 * at;
        let walk = |at: usize| section(6) + 2 * at;
        let places = [
            6,
            phase(0),
            phase(1),
            phase(2),
            phase(3),
            phase(4),
            phase(5),
            walk(0),
            walk(1),
            walk(2),
            section(7),
        ];
        for (setting, place) in site::Setting::all().zip(places) {
            let accepts = |value: u16| {
                let mut tried = bytes.clone();
                tried[place..place + 2].copy_from_slice(&value.to_le_bytes());
                willowera::read(&tried).is_ok()
            };
            let accepted: Vec<u16> = (0..2_000).filter(|value| accepts(*value)).collect();
            let ends = (accepted[0], accepted[accepted.len() - 1]);
            assert_eq!(
                ends,
                setting.limits(edition),
                "{} in edition {edition}",
                setting.name()
            );
        }
    }
}

/// Ctrl-C ends `watch` with what was found.
#[test]
fn watch_ends_at_an_interrupt() {
    use std::process::{Command, Stdio};
    let site = root().join("examples/two_phases");
    let mut watch = Command::new(env!("CARGO_BIN_EXE_willowera"));
    let watch = watch.args(["watch", shown(&site), "--steps", "1000000000000"]);
    let running = watch
        .stdin(Stdio::null())
        .stdout(Stdio::piped())
        .stderr(Stdio::null())
        .spawn()
        .unwrap();
    std::thread::sleep(std::time::Duration::from_millis(500));
    let pid = running.id().to_string();
    assert!(Command::new("kill")
        .args(["-INT", &pid])
        .status()
        .unwrap()
        .success());
    let output = running.wait_with_output().unwrap();
    let text = String::from_utf8(output.stdout).unwrap();
    assert!(
        output.status.success() && text.contains("stopped by Ctrl-C"),
        "{text}"
    );
}

/// A reader that stops early is no fault.
#[test]
fn a_closed_pipe_is_no_fault() {
    let site = root().join("examples/crossings");
    let command = format!(
        "'{}' run '{}' --all | head -n 1",
        env!("CARGO_BIN_EXE_willowera"),
        shown(&site)
    );
    let mut shell = std::process::Command::new("bash");
    let output = shell
        .args(["-c", &format!("set -o pipefail; {command}")])
        .output()
        .unwrap();
    assert!(
        output.status.success(),
        "{}",
        String::from_utf8_lossy(&output.stderr)
    );
    assert!(output.stdout.starts_with(b"groups: V1"));
}
