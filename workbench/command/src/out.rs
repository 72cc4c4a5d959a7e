//! What is printed: messages with their lines, in colours in a terminal only.

use site::Span;
use std::io::IsTerminal;

/// Prints a line. Nobody may be reading any more (as with `head`); that is no fault.
macro_rules! say {
    ($($words:tt)*) => {{
        use std::io::Write;
        let _ = writeln!(std::io::stdout(), $($words)*);
    }};
}

/// Why a command ends without success. What is refused is printed already.
#[derive(Debug)]
pub enum Stop {
    Refused,
    Unusable(String),
}

pub struct Out {
    pub json: bool,
    colours: bool,
}

/// What a message is.
#[derive(Clone, Copy, PartialEq, Eq)]
pub enum Severity {
    Error,
    Refusal,
    Warning,
    Note,
}

impl Severity {
    fn name(self) -> &'static str {
        ["error", "refused", "warning", "note"][self as usize]
    }

    /// The number of the colour in a terminal.
    fn colour(self) -> &'static str {
        ["31;1", "31;1", "33;1", "36"][self as usize]
    }
}

impl Out {
    pub fn new(json: bool) -> Out {
        let plain = std::env::var_os("NO_COLOR").is_some();
        Out {
            json,
            colours: std::io::stdout().is_terminal() && !plain,
        }
    }

    /// A text in a colour, in a terminal.
    pub fn paint(&self, colour: &str, text: &str) -> String {
        if self.colours {
            format!("\x1b[{colour}m{text}\x1b[0m")
        } else {
            text.to_string()
        }
    }

    pub fn good(&self, text: &str) -> String {
        self.paint("32;1", text)
    }

    /// A colour letter of a group, in its colour.
    pub fn light(&self, letter: char) -> String {
        let colour = match letter {
            'G' => "42;30",
            'Y' => "43;30",
            'F' => "31;7",
            _ => "31",
        };
        self.paint(colour, &letter.to_string())
    }

    /// A message with its line, and a mark below the place.
    pub fn message(&self, severity: Severity, path: &str, source: &str, span: Span, text: &str) {
        let place = format!("{path}:{}:{}:", span.line, span.column);
        let name = self.paint(severity.colour(), severity.name());
        say!("{place} {name}: {text}");
        let line = span
            .line
            .checked_sub(1)
            .and_then(|at| source.lines().nth(at));
        if let Some(line) = line {
            let number = format!("{:>5}", span.line);
            let before: String = line.chars().take(span.column.saturating_sub(1)).collect();
            let before: String = before
                .chars()
                .map(|c| if c == '\t' { c } else { ' ' })
                .collect();
            let mark = "^".repeat(span.length.max(1));
            say!("{number} | {line}");
            say!("      | {before}{}", self.paint(severity.colour(), &mark));
        }
    }
}

/// Writes a file, or standard output if there is no name.
pub fn write(path: Option<&String>, bytes: &[u8]) -> Result<(), Stop> {
    use std::io::Write;
    let result = match path {
        Some(path) => std::fs::write(path, bytes),
        None => match std::io::stdout().write_all(bytes) {
            Err(why) if why.kind() == std::io::ErrorKind::BrokenPipe => Ok(()),
            end => end,
        },
    };
    let name = path.map_or("standard output", |path| path);
    result.map_err(|why| Stop::Unusable(format!("cannot write {name}: {why}")))
}

/// JSON of the site library as a value.
pub fn value(json: &str) -> serde_json::Value {
    serde_json::from_str(json).expect("the site library writes JSON")
}

/// Prints a value for programs.
pub fn print_json(value: &serde_json::Value) {
    say!("{value:#}");
}
