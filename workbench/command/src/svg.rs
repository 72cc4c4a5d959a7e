//! Pictures as SVG texts.

use std::fmt::Write;

pub const FONT: &str = "font-family=\"DejaVu Sans, Verdana, sans-serif\"";

/// A picture that grows; its size is told at the end.
#[derive(Default)]
pub struct Svg {
    body: String,
}

/// A text for XML.
pub fn escaped(text: &str) -> String {
    let text = text
        .replace('&', "&amp;")
        .replace('<', "&lt;")
        .replace('>', "&gt;");
    text.replace('"', "&quot;")
}

/// The beginning of a text, with `…` if it is cut.
pub fn shortened(text: &str, most: usize) -> String {
    if text.chars().count() <= most {
        return text.to_string();
    }
    let begin: String = text.chars().take(most - 1).collect();
    format!("{}…", begin.trim_end())
}

/// Where a text stands beside its point.
#[derive(Clone, Copy)]
pub enum Anchor {
    Start,
    Middle,
}

impl Svg {
    /// Any element. Writing to a string does not fail.
    pub fn put(&mut self, element: &str) {
        let _ = writeln!(self.body, "{element}");
    }

    pub fn rect(&mut self, x: f64, y: f64, width: f64, height: f64, style: &str) {
        self.put(&format!(
            "<rect x=\"{x:.2}\" y=\"{y:.2}\" width=\"{width:.2}\" height=\"{height:.2}\" {style}/>"
        ));
    }

    pub fn line(&mut self, from: (f64, f64), to: (f64, f64), style: &str) {
        let ((x1, y1), (x2, y2)) = (from, to);
        self.put(&format!(
            "<line x1=\"{x1:.2}\" y1=\"{y1:.2}\" x2=\"{x2:.2}\" y2=\"{y2:.2}\" {style}/>"
        ));
    }

    pub fn text(&mut self, x: f64, y: f64, anchor: Anchor, style: &str, text: &str) {
        let anchor = match anchor {
            Anchor::Start => "start",
            Anchor::Middle => "middle",
        };
        let text = escaped(text);
        self.put(&format!(
            "<text x=\"{x:.2}\" y=\"{y:.2}\" text-anchor=\"{anchor}\" {style}>{text}</text>"
        ));
    }

    /// The title of a picture.
    pub fn title(&mut self, x: f64, y: f64, text: &str) {
        let style = "font-size=\"15\" font-weight=\"bold\" fill=\"#1f2933\"";
        self.text(x, y, Anchor::Start, style, text);
    }

    /// The name of a row.
    pub fn label(&mut self, x: f64, y: f64, text: &str) {
        self.text(
            x,
            y,
            Anchor::Start,
            "font-weight=\"bold\" fill=\"#323f4b\"",
            text,
        );
    }

    /// A small text.
    pub fn note(&mut self, x: f64, y: f64, text: &str) {
        self.text(
            x,
            y,
            Anchor::Start,
            "font-size=\"10\" fill=\"#52606d\"",
            text,
        );
    }

    /// A small text that matters less.
    pub fn faint(&mut self, x: f64, y: f64, text: &str) {
        self.text(
            x,
            y,
            Anchor::Start,
            "font-size=\"10\" fill=\"#7b8794\"",
            text,
        );
    }

    /// A mark of an axis.
    pub fn mark(&mut self, x: f64, y: f64, text: &str) {
        self.text(
            x,
            y,
            Anchor::Middle,
            "font-size=\"10\" fill=\"#52606d\"",
            text,
        );
    }

    /// A text in the middle of a bar.
    pub fn inside(&mut self, x: f64, y: f64, text: &str) {
        self.text(
            x,
            y,
            Anchor::Middle,
            "font-size=\"10\" fill=\"#1f2933\"",
            text,
        );
    }

    pub fn polygon(&mut self, points: &[(f64, f64)], style: &str) {
        let points: Vec<String> = points
            .iter()
            .map(|(x, y)| format!("{x:.1},{y:.1}"))
            .collect();
        self.put(&format!(
            "<polygon points=\"{}\" {style}/>",
            points.join(" ")
        ));
    }

    /// The whole picture, with a name for whoever cannot see it.
    pub fn end(self, width: f64, height: f64, title: &str) -> String {
        let title = escaped(title);
        format!(
            "<svg xmlns=\"http://www.w3.org/2000/svg\" width=\"{width:.0}\" height=\"{height:.0}\" \
             viewBox=\"0 0 {width:.0} {height:.0}\" role=\"img\" aria-label=\"{title}\" {FONT} font-size=\"11\">\n\
             <title>{title}</title>\n\
             <rect width=\"100%\" height=\"100%\" fill=\"#ffffff\"/>\n{}</svg>\n",
            self.body
        )
    }
}

/// A step in seconds between the marks of a time axis.
pub fn time_tick(seconds: f64, count: f64) -> f64 {
    let nice = [
        0.5, 1.0, 2.0, 5.0, 10.0, 20.0, 30.0, 60.0, 120.0, 300.0, 600.0, 1200.0, 3600.0,
    ];
    let found = nice.into_iter().find(|step| seconds / step <= count);
    found.unwrap_or(7200.0)
}

/// A time on an axis of so many seconds: `12.5 s`, or `3:05` on one of two minutes and
/// more.
pub fn clock(seconds: f64, length: f64) -> String {
    if length >= 120.0 {
        let whole = seconds.round() as u64;
        return format!("{}:{:02}", whole / 60, whole % 60);
    }
    if seconds.fract() == 0.0 {
        format!("{seconds:.0} s")
    } else {
        format!("{seconds:.1} s")
    }
}
