//! Site texts for a page in a browser.
//!
//! A caller writes a text or bytes into memory that `site_alloc` gives, calls a function
//! with the address and the length, and reads the answer at the address that
//! `site_answer` gives; every call answers its length in bytes. Answers are JSON, except
//! that of `site_show`. The next call overwrites the answer of the last one.
//!
//! | Call | Answer |
//! |---|---|
//! | `site_parse(text)` | `{"mistakes":[..],"site":..,"built":{"bytes":[..],"spans":[[line,column,length],..]},"speeds":[[speed,grade],..]}`; with mistakes the others are null |
//! | `site_tell(text, number, place)` | a refusal of the library in words |
//! | `site_warnings(text, bound, yellows)` | the warnings; `yellows` is a text of rows `speed grade steps`, for the pairs of `speeds` that the library accepts |
//! | `site_waits(text)` | what the wait of each phase and of each movement is made of: `[{"who":"phase A","parts":[{"what":"turn of B","terms":[{"name":"M","steps":20},..]},..]},..]` |
//! | `site_inputs(text, script)` | `{"mistakes":[..],"inputs":["0","5",..]}`: decimal numbers as texts, because they have 64 bits |
//! | `site_show(bytes)` | the text of a personality, or a line that begins with `!` and says why there is none |

use std::cell::RefCell;

thread_local! {
    static ANSWER: RefCell<Vec<u8>> = RefCell::new(Vec::new());
}

/// Memory for the arguments of a call.
#[no_mangle]
pub extern "C" fn site_alloc(length: usize) -> *mut u8 {
    let mut memory = std::mem::ManuallyDrop::new(vec![0_u8; length]);
    memory.as_mut_ptr()
}

/// Gives memory of `site_alloc` back.
///
/// # Safety
/// The address and the length are those of one call of `site_alloc`.
#[no_mangle]
pub unsafe extern "C" fn site_free(address: *mut u8, length: usize) {
    drop(Vec::from_raw_parts(address, length, length));
}

/// The address of the last answer.
#[no_mangle]
pub extern "C" fn site_answer() -> *const u8 {
    ANSWER.with(|answer| answer.borrow().as_ptr())
}

fn answer(text: String) -> usize {
    ANSWER.with(|answer| {
        *answer.borrow_mut() = text.into_bytes();
        answer.borrow().len()
    })
}

/// The bytes at an address.
///
/// # Safety
/// So many bytes are there, and nobody writes them during the call.
unsafe fn bytes<'a>(address: *const u8, length: usize) -> &'a [u8] {
    std::slice::from_raw_parts(address, length)
}

/// The text at an address; what is not UTF-8 is replaced.
unsafe fn text(address: *const u8, length: usize) -> String {
    String::from_utf8_lossy(bytes(address, length)).into_owned()
}

fn mistakes(list: &[site::Mistake]) -> (&'static str, String) {
    (
        "mistakes",
        site::json::list(list.iter().map(site::json::mistake)),
    )
}

/// # Safety
/// The text is memory of `site_alloc`.
#[no_mangle]
pub unsafe extern "C" fn site_parse(address: *const u8, length: usize) -> usize {
    let json = match site::read(&text(address, length)) {
        Ok(read) => {
            let speeds = site::speeds(&read).into_iter();
            site::json::object(&[
                mistakes(&[]),
                ("site", site::json::site(&read)),
                ("built", site::json::built(&read.build())),
                (
                    "speeds",
                    site::json::list(speeds.map(|(speed, grade)| format!("[{speed},{grade}]"))),
                ),
            ])
        }
        Err(list) => site::json::object(&[
            mistakes(&list),
            ("site", "null".to_string()),
            ("built", "null".to_string()),
            ("speeds", "null".to_string()),
        ]),
    };
    answer(json)
}

/// # Safety
/// The text is memory of `site_alloc`.
#[no_mangle]
pub unsafe extern "C" fn site_tell(
    address: *const u8,
    length: usize,
    number: u32,
    place: usize,
) -> usize {
    answer(match site::read(&text(address, length)) {
        Ok(read) => site::json::told(&site::tell(&read, &read.build(), number as u8, place)),
        Err(_) => "null".to_string(),
    })
}

/// # Safety
/// The texts are memory of `site_alloc`.
#[no_mangle]
pub unsafe extern "C" fn site_warnings(
    address: *const u8,
    length: usize,
    bound: u32,
    yellows: *const u8,
    yellows_length: usize,
) -> usize {
    let yellows = text(yellows, yellows_length);
    let yellow = |speed: u32, grade: i32| {
        let begin = format!("{speed} {grade} ");
        let row = yellows.lines().find_map(|row| row.strip_prefix(&begin))?;
        row.trim().parse().ok()
    };
    answer(match site::read(&text(address, length)) {
        Ok(read) => {
            let warnings = site::warnings(&read, bound.into(), &yellow);
            site::json::list(warnings.iter().map(site::json::warning))
        }
        Err(_) => "[]".to_string(),
    })
}

/// # Safety
/// The text is memory of `site_alloc`.
#[no_mangle]
pub unsafe extern "C" fn site_waits(address: *const u8, length: usize) -> usize {
    answer(match site::read(&text(address, length)) {
        Ok(read) => site::json::waits(&site::waits::waits(&read)),
        Err(_) => "[]".to_string(),
    })
}

/// # Safety
/// The texts are memory of `site_alloc`.
#[no_mangle]
pub unsafe extern "C" fn site_inputs(
    address: *const u8,
    length: usize,
    script: *const u8,
    script_length: usize,
) -> usize {
    let read = site::read(&text(address, length));
    let script = text(script, script_length);
    let script = read.and_then(|read| site::read_inputs(&script, &read));
    let (list, inputs) = match script {
        Ok(script) => (Vec::new(), script.inputs),
        Err(list) => (list, Vec::new()),
    };
    let inputs = inputs
        .iter()
        .map(|bits| site::json::string(&bits.to_string()));
    answer(site::json::object(&[
        mistakes(&list),
        ("inputs", site::json::list(inputs)),
    ]))
}

/// # Safety
/// The bytes are memory of `site_alloc`.
#[no_mangle]
pub unsafe extern "C" fn site_show(address: *const u8, length: usize) -> usize {
    answer(match site::show(bytes(address, length)) {
        Ok(text) => text,
        Err(not) => format!("! {not}"),
    })
}
