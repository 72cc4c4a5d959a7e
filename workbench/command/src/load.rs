//! Reading a site: a text, a folder with a site.txt, or the bytes of a personality.

use crate::out::{print_json, value, Out, Severity, Stop};
use serde_json::json;
use site::{Built, Mistake, Script, Site};
use std::fs;
use std::path::Path;
use willowera::Refusal;

/// A site that was read, with its text.
pub struct Loaded {
    pub path: String,
    pub text: String,
    pub site: Site,
    pub built: Built,
}

impl Loaded {
    pub fn bytes(&self) -> &[u8] {
        &self.built.bytes
    }

    /// The name of the site, or that of its file.
    pub fn name(&self) -> String {
        let path = Path::new(&self.path);
        let file = || match path.file_stem().map(|name| name.to_string_lossy()) {
            Some(name) if name == "site" => path
                .parent()
                .and_then(Path::file_name)
                .map(|name| name.to_string_lossy().into_owned()),
            other => other.map(|name| name.into_owned()),
        };
        self.site
            .name
            .clone()
            .or_else(file)
            .unwrap_or_else(|| self.path.clone())
    }
}

/// The bytes of a file, or of the site.txt in a folder, and the path.
fn bytes_of(path: &str) -> Result<(String, Vec<u8>), Stop> {
    let inside = Path::new(path).join("site.txt");
    let path = if Path::new(path).is_dir() {
        inside
    } else {
        path.into()
    };
    let shown = path.display().to_string();
    let bytes =
        fs::read(&path).map_err(|why| Stop::Unusable(format!("cannot read {shown}: {why}")))?;
    Ok((shown, bytes))
}

fn text_of(path: &str, bytes: Vec<u8>) -> Result<String, Stop> {
    let text = String::from_utf8(bytes);
    text.map_err(|_| {
        Stop::Unusable(format!(
            "{path} is neither a text (UTF-8) nor a personality"
        ))
    })
}

/// A personality has zero bytes, and a text has none.
fn is_personality(bytes: &[u8]) -> bool {
    bytes.contains(&0)
}

/// Reads a site. Its mistakes are printed.
pub fn load(out: &Out, path: &str) -> Result<Loaded, Stop> {
    let (path, bytes) = bytes_of(path)?;
    let (path, text) = if is_personality(&bytes) {
        let text = shown(out, &path, &bytes)?;
        (format!("{path} (as shown)"), text)
    } else {
        let text = text_of(&path, bytes)?;
        (path, text)
    };
    let site = site::read(&text).map_err(|mistakes| told(out, &path, &text, &mistakes))?;
    let built = site.build();
    Ok(Loaded {
        path,
        text,
        site,
        built,
    })
}

/// The bytes of a personality, for `show`.
pub fn load_bytes(path: &str) -> Result<(String, Vec<u8>), Stop> {
    let (path, bytes) = bytes_of(path)?;
    let is_text =
        !bytes.is_empty() && !is_personality(&bytes) && std::str::from_utf8(&bytes).is_ok();
    if is_text {
        let why = format!("{path} is a text already; show takes the bytes of a personality");
        return Err(Stop::Unusable(why));
    }
    Ok((path, bytes))
}

/// The text of a personality, or the refusal of bytes that have no text.
pub fn shown(out: &Out, path: &str, bytes: &[u8]) -> Result<String, Stop> {
    site::show(bytes).map_err(|not| {
        let refusal = willowera::read(bytes).err();
        let (number, place) = refusal.map_or((0, 0), |refusal| (refusal.number, refusal.place));
        let words = site::refusal::words(number);
        if out.json {
            print_json(
                &json!({"accepted": false, "path": path, "number": number, "place": place,
                               "text": words, "notShown": not.to_string()}),
            );
        } else {
            say!("{path}: refused {number} at byte {place}: {words}");
            say!("{path}: no text has these bytes: {not}");
        }
        Stop::Refused
    })
}

/// Prints the mistakes of a text.
fn told(out: &Out, path: &str, text: &str, mistakes: &[Mistake]) -> Stop {
    if out.json {
        let list: Vec<_> = mistakes
            .iter()
            .map(|one| value(&site::json::mistake(one)))
            .collect();
        print_json(&json!({"accepted": false, "path": path, "messages": list}));
    } else {
        for one in mistakes {
            out.message(Severity::Error, path, text, one.span, &one.to_string());
        }
    }
    Stop::Refused
}

/// Prints a refusal of the library with its lines.
pub fn refused(out: &Out, loaded: &Loaded, refusal: Refusal) -> Stop {
    let told = site::tell(
        &loaded.site,
        &loaded.built,
        refusal.number,
        refusal.place as usize,
    );
    if out.json {
        let message = value(&site::json::told(&told));
        print_json(&json!({"accepted": false, "path": loaded.path, "messages": [message]}));
        return Stop::Refused;
    }
    let text = format!("{} at byte {}: {}", told.number, told.place, told.text);
    out.message(
        Severity::Refusal,
        &loaded.path,
        &loaded.text,
        told.span,
        &text,
    );
    for (span, note) in &told.others {
        out.message(Severity::Note, &loaded.path, &loaded.text, *span, note);
    }
    Stop::Refused
}

/// A site that the library accepts.
pub fn accepted(out: &Out, path: &str) -> Result<Loaded, Stop> {
    let loaded = load(out, path)?;
    match willowera::read(loaded.bytes()) {
        Ok(()) => Ok(loaded),
        Err(refusal) => Err(refused(out, &loaded, refusal)),
    }
}

/// An input script for a site.
pub fn script(out: &Out, path: &str, site: &Site) -> Result<Script, Stop> {
    let (path, bytes) = bytes_of(path)?;
    let text = text_of(&path, bytes)?;
    site::read_inputs(&text, site).map_err(|mistakes| told(out, &path, &text, &mistakes))
}

/// The site with the streams of a road text in place of its own. Messages about them then
/// have the path and the lines of that text.
pub fn with_streams(out: &Out, path: Option<&String>, loaded: &Loaded) -> Result<Loaded, Stop> {
    let mut with = Loaded {
        path: loaded.path.clone(),
        text: loaded.text.clone(),
        site: loaded.site.clone(),
        built: loaded.built.clone(),
    };
    if let Some(path) = path {
        let (path, bytes) = bytes_of(path)?;
        let text = text_of(&path, bytes)?;
        let road = site::read_road(&text, &loaded.site);
        with.site.road = road.map_err(|mistakes| told(out, &path, &text, &mistakes))?;
        with.path = path;
        with.text = text;
    }
    Ok(with)
}
