//! What the C header declares: the calls, and the numbers of the refusals.

const HEADER: &str = include_str!("../../../include/willowera.h");

/// The names of the calls, in the order of the header.
pub fn calls() -> Vec<&'static str> {
    let declared = |line: &'static str| {
        let (answer, rest) = line.split_once(' ')?;
        let (name, _) = rest.split_once('(')?;
        (answer.starts_with("uint") && name.starts_with("willowera_")).then_some(name)
    };
    HEADER.lines().filter_map(declared).collect()
}

/// The numbers that the part of the header about refusals defines, without 0.
pub fn refusals() -> Vec<u8> {
    let part = HEADER
        .split("/* ── ")
        .find(|part| part.starts_with("Refusals"))
        .expect("the header has a part about refusals");
    let defined = |line: &str| {
        let mut words = line.strip_prefix("#define WILLOWERA_")?.split_whitespace();
        words.nth(1)?.parse().ok()
    };
    let numbers = part.lines().filter_map(defined);
    numbers.filter(|&number| number != 0).collect()
}

#[cfg(test)]
mod tests {
    use super::*;

    #[test]
    fn the_header_declares_calls_and_refusals() {
        assert!(calls().contains(&"willowera_step"));
        assert!(calls().contains(&"willowera_version"));
        assert!(calls().contains(&"willowera_cabinet_take_out"));
        let refusals = refusals();
        assert!(refusals.contains(&1));
        assert!(refusals.contains(&26));
        // That of the trace program, and what is not refused.
        assert!(!refusals.contains(&16));
        assert!(!refusals.contains(&0));
    }
}
