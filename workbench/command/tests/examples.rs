//! The example sites: every command gives what the examples keep.

mod common;

use common::{edited, files, root, scratch, shown, sites, willowera};
use std::fs;

#[test]
fn every_example_is_accepted_and_has_its_stated_bound() {
    for site in sites() {
        let ended = willowera(&["check", "--json", shown(&site)]);
        let json = ended.json();
        assert_eq!(
            (ended.status, &json["accepted"]),
            (0, &true.into()),
            "{}",
            site.display()
        );
        let kinds = json["messages"]
            .as_array()
            .unwrap()
            .iter()
            .map(|one| one["kind"].to_string());
        assert!(
            kinds.clone().all(|kind| !kind.contains("stated-bound")),
            "{}",
            site.display()
        );
    }
}

#[test]
fn texts_build_to_the_stored_bytes_and_back() {
    for site in sites() {
        for path in files(&site, "personality", ".bin") {
            let stored = fs::read(&path).unwrap();
            let name = path
                .file_stem()
                .unwrap()
                .to_string_lossy()
                .replace("personality", "site");
            let text = site.join(format!("{name}.txt"));
            assert_eq!(
                willowera(&["build", shown(&text)]).stdout,
                stored,
                "{}",
                text.display()
            );
            let again = scratch("again.txt");
            let ended = willowera(&["show", shown(&path), "--out", shown(&again)]);
            assert_eq!(ended.status, 0);
            assert_eq!(
                willowera(&["build", shown(&again)]).stdout,
                stored,
                "{}",
                path.display()
            );
        }
    }
}

#[test]
fn traces_are_those_of_the_trace_program() {
    let mut traces = 0;
    for site in sites() {
        for path in files(&site, "inputs", ".txt") {
            let name = path
                .file_stem()
                .unwrap()
                .to_string_lossy()
                .replace("inputs", "trace");
            let stored = site.join(format!("{name}.txt"));
            if let Ok(stored) = fs::read_to_string(&stored) {
                let ended = willowera(&["run", shown(&site), "--inputs", shown(&path), "--trace"]);
                assert!(ended.text() == stored, "{}", path.display());
                traces += 1;
            }
        }
    }
    assert!(traces >= 14);
}

#[test]
fn roads_are_those_of_the_road_program() {
    let mut roads = 0;
    for site in sites() {
        for path in files(&site, "road", ".txt") {
            let stored = fs::read_to_string(path.with_file_name("table.txt")).unwrap();
            let json =
                willowera(&["road", "--json", shown(&site), "--streams", shown(&path)]).json();
            for (row, stream) in stored
                .lines()
                .skip(1)
                .zip(json["streams"].as_array().unwrap())
            {
                let kept: Vec<u64> = row.split(' ').map(|word| word.parse().unwrap()).collect();
                let names = ["detector", "rate", "arrived", "queued", "gone"];
                let told = names.map(|name| stream[name].as_u64().unwrap());
                assert_eq!(
                    told,
                    [kept[0], kept[2], kept[3], kept[4], kept[5]],
                    "{}",
                    path.display()
                );
                // The command looks at the road now and then, the program at every step.
                assert!(stream["longest"].as_u64().unwrap() <= kept[6]);
            }
            roads += 1;
        }
    }
    assert!(roads >= 3);
}

#[test]
fn parts_of_the_bound_add_up() {
    for site in sites() {
        let ended = willowera(&["waits", "--json", shown(&site)]);
        assert_eq!(ended.status, 0, "{}", ended.stderr);
        let json = ended.json();
        let shares = json["phases"]
            .as_array()
            .unwrap()
            .iter()
            .map(|phase| phase["share"].as_u64().unwrap());
        let sum = shares.sum::<u64>() + json["startRed"].as_u64().unwrap();
        assert_eq!(sum, json["waitBound"].as_u64().unwrap());
    }
    let order = willowera(&[
        "waits",
        "--json",
        shown(&root().join("examples/t_junction_leading")),
    ])
    .json();
    assert_eq!(order["phases"][0]["before"], "CB");
}

/// The waits that `waits` and the report show are the library's, each with parts that add
/// up to it.
#[test]
fn every_phase_and_movement_has_its_wait() {
    for site in sites() {
        let bytes = willowera(&["build", shown(&site)]).stdout;
        let told = willowera::waits(&bytes).unwrap();
        let json = willowera(&["waits", "--json", shown(&site)]).json();
        let rows = json["waits"].as_array().unwrap();
        let waits: Vec<u64> = rows
            .iter()
            .map(|row| row["wait"].as_u64().unwrap())
            .collect();
        let expected = told.phases.iter().chain(&told.movements);
        assert_eq!(
            waits,
            expected.map(|wait| u64::from(*wait)).collect::<Vec<_>>()
        );
        for row in rows {
            let parts = row["parts"].as_array().unwrap().iter();
            let terms = parts.flat_map(|part| part["terms"].as_array().unwrap());
            let sum: u64 = terms.map(|term| term["steps"].as_u64().unwrap()).sum();
            assert_eq!(row["wait"], sum, "{}: {row}", site.display());
        }
    }
    let site = root().join("examples/staggered");
    let text = willowera(&["waits", shown(&site)]).text();
    let page = willowera(&["report", shown(&site)]).text();
    for (who, wait) in [("phase A", "55.7"), ("phase C", "75.5"), ("P1", "79.2")] {
        assert!(text.contains(&format!("\n{who:<10}{wait:>7}  ")), "{text}");
        assert!(page.contains(&format!("<td>{who}</td><td class=\"n\">{wait}</td>")));
    }
}

#[test]
fn watched_runs_have_no_breach_and_stay_within_their_waits() {
    for name in ["two_phases", "crossings"] {
        let site = root().join("examples").join(name);
        let ended = willowera(&["watch", "--json", "--steps", "40000", shown(&site)]);
        assert_eq!(ended.status, 0, "{}", ended.text());
        let json = ended.json();
        let bound = json["waitBound"].as_u64().unwrap();
        let told = willowera::waits(&willowera(&["build", shown(&site)]).stdout).unwrap();
        let own = told.phases.iter().chain(&told.movements);
        let rows = json["waits"].as_array().unwrap();
        let of = |name: &str| {
            rows.iter()
                .map(|one| one[name].as_u64().unwrap())
                .collect::<Vec<_>>()
        };
        let (longest, waits) = (of("longest"), of("wait"));
        assert_eq!(waits, own.map(|wait| u64::from(*wait)).collect::<Vec<_>>());
        assert!(longest
            .iter()
            .zip(&waits)
            .all(|(seen, own)| seen < own && *own <= bound));
        assert!(longest
            .iter()
            .zip(&waits)
            .any(|(seen, own)| *seen > own / 2));
        assert_eq!(json["steps"], 40_000);
    }
}

#[test]
fn night_times_may_follow_and_another_edition_may_not() {
    let example = |name: &str| root().join("examples").join(name);
    let day = example("two_phases");
    let night = willowera(&[
        "retime",
        "--json",
        shown(&day),
        shown(&day.join("site_night.txt")),
    ]);
    assert_eq!(night.status, 0);
    assert_eq!(
        night.json()["differences"][0]["text"],
        "start red: 1.0 s becomes 2.0 s"
    );
    let other = willowera(&[
        "retime",
        "--json",
        shown(&day),
        shown(&example("edition_two")),
    ]);
    assert_eq!(
        (other.status, other.json()["number"].as_u64()),
        (1, Some(26))
    );
    assert_eq!(other.json()["differences"][0]["text"], "the edition");
    let same = willowera(&["retime", shown(&day), shown(&day)]);
    assert!(same.status == 0 && same.text().contains("nothing differs"));
}

#[test]
fn a_report_is_one_page_that_loads_nothing() {
    let site = root().join("workbench/examples/four_arms");
    let short = scratch("road.txt");
    fs::write(
        &short,
        "steps 600\ndetector 0 group V1 rate 400\ndetector 4 group V5 rate 300\n",
    )
    .unwrap();
    let ended = willowera(&["report", shown(&site), "--streams", shown(&short)]);
    let page = ended.text();
    assert_eq!(ended.status, 0, "{}", ended.stderr);
    for id in [
        "phases",
        "groups",
        "conflicts",
        "settings",
        "waits",
        "road",
        "timeline",
        "commands",
    ] {
        assert!(page.contains(&format!("<section id=\"{id}\">")), "{id}");
    }
    let links = page.replace("http://www.w3.org/2000/svg", "");
    assert!(!links.contains("http") && !links.contains("src=") && !links.contains("href="));
}

/// The report has the place of what has no name in words.
#[test]
fn a_report_tells_places_without_names() {
    let path = edited(
        "places.txt",
        &[
            (
                "lane 1 metres 39  \"eastbound\"",
                "lanes 1..2 metres 30 length 4.5",
            ),
            (
                "lane 1 arrow left,straight   \"eastbound\"",
                "lane 1 arrow left,straight",
            ),
            ("streams\nsteps 36000", "streams\nsteps 10"),
        ],
    );
    let page = willowera(&["report", shown(&path)]).text();
    for place in [
        "west, lanes 1..2, 30 m, 4.5 m long",
        "west, lane 1, left, straight",
        "westbound, right turn",
    ] {
        assert!(page.contains(&format!("<td>{place}</td>")), "{place}");
    }
}
