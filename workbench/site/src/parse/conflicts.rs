//! The rows of conflicts: one for each group, in the order of the groups.

use super::{group_named, Reader};
use crate::site::Group;
use crate::words::{Line, Span};

/// The groups that have a bit in a row of conflicts.
const BITS: usize = 32;

impl Reader {
    pub(super) fn conflicts(&mut self, lines: &[Line], groups: &mut [Group]) {
        let mut in_order = true;
        for (at, line) in lines.iter().enumerate().take(groups.len()) {
            groups[at].row = line.span();
            if !line.words[0].is(&format!("{}:", groups[at].name)) {
                let expected = format!("the row of {}, beginning with `{0}:`", groups[at].name);
                self.mistakes.push(line.words[0].mistake(expected));
                in_order = false;
                break;
            }
            let (conflicts, apart) = self.conflict_row(line, groups);
            groups[at].conflicts = conflicts;
            groups[at].apart = apart;
        }
        if in_order {
            let missing = groups.get(lines.len());
            self.row_for_each("conflicts", lines, groups.len(), missing);
        }
    }

    /// The groups of a row, and those behind `not`.
    #[allow(clippy::type_complexity)]
    fn conflict_row(
        &mut self,
        line: &Line,
        groups: &[Group],
    ) -> (Vec<(usize, Span)>, Vec<(usize, Span)>) {
        let (mut conflicts, mut apart) = (Vec::new(), Vec::new());
        let mut not = false;
        for word in &line.words[1..] {
            if word.is("not") && !not {
                not = true;
                continue;
            }
            match group_named(groups, &word.text) {
                Some(group) if group < BITS || not => {
                    let list = if not { &mut apart } else { &mut conflicts };
                    list.push((group, word.span));
                }
                Some(_) => self.mistakes.push(word.mistake(format!(
                    "one of the first {BITS} groups: a row of conflicts has a bit for each of them"
                ))),
                None => self.mistakes.push(word.mistake("the name of a group")),
            }
        }
        (conflicts, apart)
    }
}
