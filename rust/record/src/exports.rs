//! The exported calls of the library, each with the letters of its arguments. The
//! lengths are any 64 bits, so the calls take pointers and not slices.

/// A call: its name, and one letter for each argument: p is a
/// pointer, l a length, q another 64-bit number, w a 32-bit one, h a 16-bit one, i a
/// signed 32-bit one, d the bits of a double. The row of a cabinet is a pointer to its
/// first byte, and its length is the number of its records.
pub struct Export {
    pub name: &'static str,
    pub letters: &'static str,
    call: unsafe fn(&[u64]) -> u64,
}

impl Export {
    /// Makes the call. A pointer is given by its address.
    ///
    /// # Safety
    ///
    /// There is a word for each letter. The call reads and writes only bytes that
    /// belong to the caller.
    pub unsafe fn call(&self, words: &[u64]) -> u64 {
        assert_eq!(words.len(), self.letters.len(), "{}", self.name);
        // SAFETY: as the caller ensures.
        unsafe { (self.call)(words) }
    }
}

macro_rules! argument {
    (p) => { *mut u8 };
    (l) => { u64 };
    (q) => { u64 };
    (w) => { u32 };
    (h) => { u16 };
    (i) => { i32 };
    (d) => { f64 };
}

macro_rules! value {
    (p, $word:expr) => {
        $word as usize as *mut u8
    };
    (d, $word:expr) => {
        f64::from_bits($word)
    };
    ($letter:ident, $word:expr) => {
        $word as argument!($letter)
    };
}

macro_rules! exports {
    ($($name:ident($($letter:ident)*) -> $answer:ty;)*) => {
        unsafe extern "C" {
            $(fn $name($(_: argument!($letter)),*) -> $answer;)*
        }

        /// Every call.
        pub const EXPORTS: &[Export] = &[$(Export {
            name: stringify!($name),
            letters: concat!($(stringify!($letter)),*),
            call: |words| {
                let mut _words = words.iter().copied();
                let mut _next = || _words.next().expect("a word for each letter");
                // SAFETY: as the caller of `Export::call` ensures. The arguments are
                // those of the header.
                unsafe { u64::from($name($(value!($letter, _next())),*)) }
            },
        }),*];
    };
}

exports! {
    willowera_version() -> u32;
    willowera_read(p l) -> u64;
    willowera_wait_bound(p l) -> u64;
    willowera_waits(p l p l) -> u64;
    willowera_groups(p l) -> u64;
    willowera_section(p l h) -> u64;
    willowera_fresh(p l p l) -> u64;
    willowera_step(p l p l q p l) -> u64;
    willowera_retime(p l p l p l) -> u64;
    willowera_why_length(p l p l q) -> u64;
    willowera_why(p l p l q p l) -> u64;
    willowera_seal(p l p l p l) -> u64;
    willowera_resume(p l p l p l) -> u64;
    willowera_settings(w w d) -> u64;
    willowera_yellow(w i) -> u64;
    willowera_road(p l p l w p l p l) -> u64;
    willowera_cabinet_place(p l q p l q p l) -> u64;
    willowera_cabinet_step(p l q q p l) -> u64;
    willowera_cabinet_take_out(p l q p l) -> u64;
}
