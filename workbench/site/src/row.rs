//! Reading the words of one row from left to right.

use crate::words::{Line, Mistake, Span, Word};

/// A time in steps of 0.1 s, and where it is written.
#[derive(Clone, Copy, Debug, Default, PartialEq, Eq)]
pub struct Time {
    pub steps: u16,
    pub span: Span,
}

/// The words of a row that are not read yet.
pub struct Row<'a> {
    words: &'a [Word],
    at: usize,
}

impl<'a> Row<'a> {
    pub fn new(line: &'a Line) -> Row<'a> {
        Row {
            words: &line.words,
            at: 0,
        }
    }

    pub fn peek(&self) -> Option<&'a Word> {
        self.words.get(self.at)
    }

    pub fn next(&mut self) -> Option<&'a Word> {
        let word = self.words.get(self.at);
        self.at += usize::from(word.is_some());
        word
    }

    /// The next word if it is this one.
    pub fn take(&mut self, text: &str) -> bool {
        let is = self.peek().map_or(false, |word| word.is(text));
        self.at += usize::from(is);
        is
    }

    /// The place behind the last word.
    pub fn end(&self) -> Span {
        let last = self.words[self.words.len() - 1].span;
        Span {
            column: last.column + last.length,
            length: 1,
            ..last
        }
    }

    /// The next word, whatever it is.
    pub fn word(&mut self, expected: &str) -> Result<&'a Word, Mistake> {
        let end = self.end();
        self.next()
            .ok_or_else(|| Mistake::new(end, "the end of the line", expected))
    }

    /// The next word as one of a list; its place in the list.
    pub fn one_of(&mut self, choices: &[&str]) -> Result<usize, Mistake> {
        let expected = listed(choices);
        let word = self.word(&expected)?;
        let found = choices.iter().position(|choice| word.is(choice));
        found.ok_or_else(|| word.mistake(expected))
    }

    /// A whole number from 0 to a highest one.
    pub fn whole(&mut self, what: &str, highest: u64) -> Result<(u64, Span), Mistake> {
        let word = self.word(what)?;
        let expected = || format!("{what}: a whole number from 0 to {highest}");
        let number = digits(&word.text).ok_or_else(|| word.mistake(expected()))?;
        if word.quoted || number > highest {
            return Err(word.mistake(expected()));
        }
        Ok((number, word.span))
    }

    /// A whole number that may have a sign.
    pub fn signed(&mut self, what: &str) -> Result<i32, Mistake> {
        let word = self.word(what)?;
        let number = word.text.trim_start_matches('+').parse();
        number.map_err(|_| word.mistake(format!("{what}: a whole number")))
    }

    /// A decimal number that is not below 0.
    pub fn decimal(&mut self, what: &str) -> Result<f64, Mistake> {
        let word = self.word(what)?;
        let plain = word.text.chars().all(|c| c.is_ascii_digit() || c == '.');
        let number = word.text.parse().ok().filter(|_| plain);
        number.ok_or_else(|| word.mistake(format!("{what}: a number")))
    }

    /// A time: whole steps (`45`), or seconds with at most one digit behind the point
    /// (`4.5 s`, `4.5s`).
    pub fn time(&mut self, what: &str) -> Result<Time, Mistake> {
        let (steps, span) = self.steps(what)?;
        let steps = u16::try_from(steps).map_err(|_| {
            let found = format!("{steps} steps");
            Mistake::new(span, found, format!("{what}: at most 65535 steps"))
        })?;
        Ok(Time { steps, span })
    }

    /// The steps of a time, and its place.
    pub fn steps(&mut self, what: &str) -> Result<(u64, Span), Mistake> {
        let word = self.word(what)?;
        let (number, seconds) = match word.text.strip_suffix('s') {
            Some(number) => (number, true),
            None => (word.text.as_str(), false),
        };
        let follows = !seconds && self.take("s");
        let last = &self.words[self.at - 1];
        let span = word.span.to(last.span);
        let steps = match (seconds || follows, word.quoted) {
            (_, true) => None,
            (true, _) => tenths(number),
            (false, _) => digits(number),
        };
        let expected = format!("{what}: steps of 0.1 s as `45`, or seconds as `4.5 s`");
        let found = if follows {
            format!("`{} s`", word.text)
        } else {
            word.shown()
        };
        let steps = steps.ok_or_else(|| Mistake::new(span, found, expected))?;
        Ok((steps, span))
    }

    /// Nothing may follow.
    pub fn ends(&self) -> Result<(), Mistake> {
        match self.peek() {
            Some(word) => Err(word.mistake("the end of the line")),
            None => Ok(()),
        }
    }
}

/// A decimal number without a sign.
pub fn digits(text: &str) -> Option<u64> {
    let plain = !text.is_empty() && text.bytes().all(|c| c.is_ascii_digit());
    text.parse().ok().filter(|_| plain)
}

/// Seconds with at most one digit behind the point, as tenths.
fn tenths(text: &str) -> Option<u64> {
    let (whole, rest) = text.split_once('.').unwrap_or((text, "0"));
    let rest = digits(rest).filter(|_| rest.len() == 1)?;
    digits(whole)?.checked_mul(10)?.checked_add(rest)
}

/// `a`, `b` or `c`.
pub fn listed<T: AsRef<str>>(choices: &[T]) -> String {
    let quoted: Vec<String> = choices
        .iter()
        .map(|c| format!("`{}`", c.as_ref()))
        .collect();
    match quoted.split_last() {
        Some((last, [])) => last.clone(),
        Some((last, others)) => format!("{} or {last}", others.join(", ")),
        None => String::new(),
    }
}
