//! Reading files of vectors that the Python models write.

/// What buffers hold before a call, if nothing else is said.
pub const CANARY: u8 = 0xA5;

/// Takes and runs every vector of a file. What runs one gives the number of its calls. Gives
/// both numbers, or the first vector that differs; a file without a call is an error.
pub fn run_each<'a, V>(
    file: &'a [u8],
    take: impl Fn(&mut &'a [u8]) -> Option<V>,
    run: impl Fn(V) -> Result<usize, String>,
) -> Result<Lists, String> {
    let mut rest = file;
    let mut count = Lists::default();
    while !rest.is_empty() {
        let Some(vector) = take(&mut rest) else {
            return Err(format!("vector {} is cut short", count.lists));
        };
        let calls =
            run(vector).map_err(|what| format!("vector {} differs: {what}", count.lists))?;
        count.lists += 1;
        count.calls += calls;
    }
    count.not_empty()
}

/// How many lists were run, and how many calls they have.
#[derive(Clone, Copy, Debug, Default, PartialEq, Eq)]
pub struct Lists {
    pub lists: usize,
    pub calls: usize,
}

impl Lists {
    /// The same if there is a call among them: what compared nothing shows nothing.
    fn not_empty(self) -> Result<Lists, String> {
        match self.calls {
            0 => Err("the file has no call in it: nothing was compared".to_string()),
            _ => Ok(self),
        }
    }
}

/// Runs every list of a file. What runs the next one gives the number of its calls, or
/// the call that differs and how. A file without a call is an error.
pub fn run_each_list<'a>(
    file: &'a [u8],
    run: impl Fn(&mut &'a [u8]) -> Result<usize, (usize, String)>,
) -> Result<Lists, String> {
    let mut rest = file;
    let mut count = Lists::default();
    while !rest.is_empty() {
        let calls = run(&mut rest)
            .map_err(|(call, what)| format!("list {}, call {call}: {what}", count.lists))?;
        count.lists += 1;
        count.calls += calls;
    }
    count.not_empty()
}

pub fn take_bytes<'a>(file: &mut &'a [u8], length: usize) -> Option<&'a [u8]> {
    let (bytes, rest) = file.split_at_checked(length)?;
    *file = rest;
    Some(bytes)
}

pub fn take_array<const LENGTH: usize>(file: &mut &[u8]) -> Option<[u8; LENGTH]> {
    take_bytes(file, LENGTH)?.try_into().ok()
}

pub fn take_behind_length<'a>(file: &mut &'a [u8]) -> Option<&'a [u8]> {
    let length = u16::from_le_bytes(take_array(file)?);
    take_bytes(file, length.into())
}

/// A number of one byte, and a place, a length or a count of four.
pub fn take_answer(file: &mut &[u8]) -> Option<u64> {
    let [number] = take_array(file)?;
    let rest = u32::from_le_bytes(take_array(file)?);
    Some(u64::from(rest) << 8 | u64::from(number))
}

pub fn same_answer(what: &str, expected: u64, found: u64) -> Result<(), String> {
    if expected == found {
        return Ok(());
    }
    Err(format!("{what}, expected {expected:#x}, found {found:#x}"))
}

pub fn same(what: &str, expected: &[u8], found: &[u8]) -> Result<(), String> {
    if expected == found {
        return Ok(());
    }
    Err(format!(
        "{what}, expected {expected:02x?}, found {found:02x?}"
    ))
}
