//! A text as lines of words, each with its place.

/// A place in a text: line and column from 1, and a length, in characters. Line 0 is
/// no place.
#[derive(Clone, Copy, Debug, Default, PartialEq, Eq)]
pub struct Span {
    pub line: usize,
    pub column: usize,
    pub length: usize,
}

impl Span {
    /// From the start of this place to the end of another one on the same line.
    pub fn to(self, last: Span) -> Span {
        if last.line != self.line {
            return self;
        }
        Span {
            length: last.column + last.length - self.column,
            ..self
        }
    }
}

/// Something in a text that cannot be read.
#[derive(Clone, Debug, PartialEq, Eq)]
pub struct Mistake {
    pub span: Span,
    pub found: String,
    pub expected: String,
}

impl Mistake {
    pub fn new(span: Span, found: impl Into<String>, expected: impl Into<String>) -> Mistake {
        Mistake {
            span,
            found: found.into(),
            expected: expected.into(),
        }
    }
}

impl std::fmt::Display for Mistake {
    fn fmt(&self, f: &mut std::fmt::Formatter<'_>) -> std::fmt::Result {
        write!(f, "found {}, expected {}", self.found, self.expected)
    }
}

/// A word of a line. A quoted word is without its quotes.
#[derive(Clone, Debug, PartialEq, Eq)]
pub struct Word {
    pub text: String,
    pub quoted: bool,
    pub span: Span,
}

impl Word {
    pub fn is(&self, text: &str) -> bool {
        !self.quoted && self.text == text
    }

    /// The word as a message shows it.
    pub fn shown(&self) -> String {
        format!("`{}`", self.text)
    }

    pub fn mistake(&self, expected: impl Into<String>) -> Mistake {
        Mistake::new(self.span, self.shown(), expected)
    }
}

/// A line that has words. Its comment is the text behind `#`, without spaces around it.
#[derive(Clone, Debug, PartialEq, Eq)]
pub struct Line {
    pub words: Vec<Word>,
    pub comment: Option<String>,
}

impl Line {
    pub fn span(&self) -> Span {
        self.words[0].span.to(self.words[self.words.len() - 1].span)
    }
}

/// The lines of a text that have words, and the number of its last line.
pub fn lines_of(text: &str, mistakes: &mut Vec<Mistake>) -> (Vec<Line>, usize) {
    let mut lines = Vec::new();
    let mut last = 1;
    for (index, raw) in text.lines().enumerate() {
        last = index + 1;
        let line = line_of(raw, last, mistakes);
        if !line.words.is_empty() {
            lines.push(line);
        }
    }
    (lines, last)
}

fn line_of(raw: &str, number: usize, mistakes: &mut Vec<Mistake>) -> Line {
    let letters: Vec<char> = raw.trim_start_matches('\u{feff}').chars().collect();
    let mut words = Vec::new();
    let mut comment = None;
    let mut at = 0;
    while at < letters.len() {
        match letters[at] {
            c if c.is_whitespace() => at += 1,
            '#' => {
                let text: String = letters[at + 1..].iter().collect();
                comment = Some(text.trim().to_string()).filter(|text| !text.is_empty());
                at = letters.len();
            }
            '"' => at = quoted(&letters, at, number, &mut words, mistakes),
            _ => at = plain(&letters, at, number, &mut words),
        }
    }
    Line { words, comment }
}

/// A word up to a space, a comment or a quotation mark; the place behind it.
fn plain(letters: &[char], from: usize, line: usize, words: &mut Vec<Word>) -> usize {
    let ends = |c: &char| c.is_whitespace() || *c == '#' || *c == '"';
    let length = letters[from..].iter().position(ends);
    let to = length.map_or(letters.len(), |length| from + length);
    words.push(Word {
        text: letters[from..to].iter().collect(),
        quoted: false,
        span: Span {
            line,
            column: from + 1,
            length: to - from,
        },
    });
    to
}

/// A word in quotation marks; the place behind it.
fn quoted(
    letters: &[char],
    from: usize,
    line: usize,
    words: &mut Vec<Word>,
    mistakes: &mut Vec<Mistake>,
) -> usize {
    let length = letters[from + 1..].iter().position(|c| *c == '"');
    let to = length.map_or(letters.len(), |length| from + 1 + length);
    let span = Span {
        line,
        column: from + 1,
        length: (to + 1).min(letters.len()) - from,
    };
    if length.is_none() {
        mistakes.push(Mistake::new(span, "a name without an end", "a second `\"`"));
    }
    words.push(Word {
        text: letters[from + 1..to].iter().collect(),
        quoted: true,
        span,
    });
    to + 1
}
