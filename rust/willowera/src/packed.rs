//! The calls of the library over slices of any length, with its packed answers:
//! the low 8 bits are 0 where a call is accepted, else the number of the
//! refusal; the rest is the wait bound, the length of a line, a number of bytes or the
//! place.

use crate::Record;

mod ffi {
    use super::Record;

    // A length, a number of records, a record and a first output have 64 bits on every
    // target.
    unsafe extern "C" {
        pub fn willowera_read(personality: *const u8, personality_len: u64) -> u64;
        pub fn willowera_wait_bound(personality: *const u8, personality_len: u64) -> u64;
        pub fn willowera_waits(
            personality: *const u8,
            personality_len: u64,
            waits: *mut u8,
            waits_len: u64,
        ) -> u64;
        pub fn willowera_fresh(
            personality: *const u8,
            personality_len: u64,
            state: *mut u8,
            state_len: u64,
        ) -> u64;
        pub fn willowera_step(
            personality: *const u8,
            personality_len: u64,
            state: *mut u8,
            state_len: u64,
            inputs: u64,
            colours: *mut u8,
            colours_len: u64,
        ) -> u64;
        pub fn willowera_retime(
            personality: *const u8,
            personality_len: u64,
            state: *mut u8,
            state_len: u64,
            new_personality: *const u8,
            new_personality_len: u64,
        ) -> u64;
        pub fn willowera_section(personality: *const u8, personality_len: u64, kind: u16) -> u64;
        pub fn willowera_groups(personality: *const u8, personality_len: u64) -> u64;
        pub fn willowera_seal(
            personality: *const u8,
            personality_len: u64,
            state: *const u8,
            state_len: u64,
            sealed: *mut u8,
            sealed_len: u64,
        ) -> u64;
        pub fn willowera_resume(
            personality: *const u8,
            personality_len: u64,
            sealed: *const u8,
            sealed_len: u64,
            state: *mut u8,
            state_len: u64,
        ) -> u64;
        pub fn willowera_why_length(
            personality: *const u8,
            personality_len: u64,
            state: *const u8,
            state_len: u64,
            inputs: u64,
        ) -> u64;
        pub fn willowera_why(
            personality: *const u8,
            personality_len: u64,
            state: *const u8,
            state_len: u64,
            inputs: u64,
            line: *mut u8,
            line_len: u64,
        ) -> u64;
        pub fn willowera_road(
            personality: *const u8,
            personality_len: u64,
            streams: *const u8,
            streams_len: u64,
            steps: u32,
            state: *mut u8,
            state_len: u64,
            results: *mut u8,
            results_len: u64,
        ) -> u64;
        pub fn willowera_cabinet_place(
            row: *mut Record,
            records: u64,
            record: u64,
            personality: *const u8,
            personality_len: u64,
            first: u64,
            outputs: *mut u8,
            outputs_len: u64,
        ) -> u64;
        pub fn willowera_cabinet_step(
            row: *mut Record,
            records: u64,
            record: u64,
            inputs: u64,
            outputs: *mut u8,
            outputs_len: u64,
        ) -> u64;
        pub fn willowera_cabinet_take_out(
            row: *mut Record,
            records: u64,
            record: u64,
            outputs: *mut u8,
            outputs_len: u64,
        ) -> u64;
        pub fn willowera_settings(speed: u32, detector: u32, metres: f64) -> u64;
        pub fn willowera_yellow(speed: u32, grade: i32) -> u64;
        pub fn willowera_version() -> u32;
    }
}

/// Reads a personality.
pub fn read(personality: &[u8]) -> u64 {
    // SAFETY: the pointer and the length are those of one slice, only read.
    unsafe { ffi::willowera_read(personality.as_ptr(), personality.len() as u64) }
}

/// The wait bound of a personality.
pub fn wait_bound(personality: &[u8]) -> u64 {
    // SAFETY: the pointer and the length are those of one slice, only read.
    unsafe { ffi::willowera_wait_bound(personality.as_ptr(), personality.len() as u64) }
}

/// Writes the wait of each phase and of each movement, two bytes each, unless it is
/// refused, and answers the number of bytes.
pub fn waits(personality: &[u8], waits: &mut [u8]) -> u64 {
    // SAFETY: each pointer and length are those of one slice; the one lent for
    // writing does not overlap the personality.
    unsafe {
        ffi::willowera_waits(
            personality.as_ptr(),
            personality.len() as u64,
            waits.as_mut_ptr(),
            waits.len() as u64,
        )
    }
}

/// Writes the fresh state of a personality into a buffer of [`crate::STATE_LEN`]
/// bytes.
pub fn fresh(personality: &[u8], state: &mut [u8]) -> u64 {
    // SAFETY: each pointer and length are those of one slice; the one lent for
    // writing does not overlap the personality.
    unsafe {
        ffi::willowera_fresh(
            personality.as_ptr(),
            personality.len() as u64,
            state.as_mut_ptr(),
            state.len() as u64,
        )
    }
}

/// One step: replaces the state and writes the colours, unless it is refused.
pub fn step(personality: &[u8], state: &mut [u8], inputs: u64, colours: &mut [u8]) -> u64 {
    // SAFETY: each pointer and length are those of one slice; the two lent for
    // writing overlap neither each other nor the personality.
    unsafe {
        ffi::willowera_step(
            personality.as_ptr(),
            personality.len() as u64,
            state.as_mut_ptr(),
            state.len() as u64,
            inputs,
            colours.as_mut_ptr(),
            colours.len() as u64,
        )
    }
}

/// A retiming: the times of the new personality wait in the state, unless it is
/// refused.
pub fn retime(personality: &[u8], state: &mut [u8], new_personality: &[u8]) -> u64 {
    // SAFETY: each pointer and length are those of one slice; the one lent for
    // writing overlaps neither of the two that are only read.
    unsafe {
        ffi::willowera_retime(
            personality.as_ptr(),
            personality.len() as u64,
            state.as_mut_ptr(),
            state.len() as u64,
            new_personality.as_ptr(),
            new_personality.len() as u64,
        )
    }
}

/// Where the section of a kind is: the offset in bits 8 to 39, the length in
/// bits 40 to 63.
pub fn section(personality: &[u8], kind: u16) -> u64 {
    // SAFETY: the pointer and the length are those of one slice, only read.
    unsafe { ffi::willowera_section(personality.as_ptr(), personality.len() as u64, kind) }
}

/// The number of signal groups of a personality.
pub fn groups(personality: &[u8]) -> u64 {
    // SAFETY: the pointer and the length are those of one slice, only read.
    unsafe { ffi::willowera_groups(personality.as_ptr(), personality.len() as u64) }
}

/// Seals a state for the time without power: writes a record into a buffer of
/// [`crate::SEALED_LEN`] bytes, unless it is refused.
pub fn seal(personality: &[u8], state: &[u8], sealed: &mut [u8]) -> u64 {
    // SAFETY: each pointer and length are those of one slice; the one lent for
    // writing overlaps neither of the two that are only read.
    unsafe {
        ffi::willowera_seal(
            personality.as_ptr(),
            personality.len() as u64,
            state.as_ptr(),
            state.len() as u64,
            sealed.as_mut_ptr(),
            sealed.len() as u64,
        )
    }
}

/// Gives back the state of a sealed record: writes it, unless it is refused.
pub fn resume(personality: &[u8], sealed: &[u8], state: &mut [u8]) -> u64 {
    // SAFETY: each pointer and length are those of one slice; the one lent for
    // writing overlaps neither of the two that are only read.
    unsafe {
        ffi::willowera_resume(
            personality.as_ptr(),
            personality.len() as u64,
            sealed.as_ptr(),
            sealed.len() as u64,
            state.as_mut_ptr(),
            state.len() as u64,
        )
    }
}

/// The length of the line that says why a phase holds; 0 outside running.
pub fn why_length(personality: &[u8], state: &[u8], inputs: u64) -> u64 {
    // SAFETY: each pointer and length are those of one slice, only read.
    unsafe {
        ffi::willowera_why_length(
            personality.as_ptr(),
            personality.len() as u64,
            state.as_ptr(),
            state.len() as u64,
            inputs,
        )
    }
}

/// Writes the line that says why a phase holds, unless it is refused, and answers
/// its length.
pub fn why(personality: &[u8], state: &[u8], inputs: u64, line: &mut [u8]) -> u64 {
    // SAFETY: each pointer and length are those of one slice; the one lent for
    // writing overlaps neither of the two that are only read.
    unsafe {
        ffi::willowera_why(
            personality.as_ptr(),
            personality.len() as u64,
            state.as_ptr(),
            state.len() as u64,
            inputs,
            line.as_mut_ptr(),
            line.len() as u64,
        )
    }
}

/// A simulated road: writes the last state, and 4 bytes for each stream, unless
/// it is refused.
pub fn road(
    personality: &[u8],
    streams: &[u8],
    steps: u32,
    state: &mut [u8],
    results: &mut [u8],
) -> u64 {
    // SAFETY: each pointer and length are those of one slice; the two lent for
    // writing overlap neither each other nor the two that are only read.
    unsafe {
        ffi::willowera_road(
            personality.as_ptr(),
            personality.len() as u64,
            streams.as_ptr(),
            streams.len() as u64,
            steps,
            state.as_mut_ptr(),
            state.len() as u64,
            results.as_mut_ptr(),
            results.len() as u64,
        )
    }
}

/// Places a site in a record of a row of [`crate::RECORDS`] records, and writes its
/// outputs, unless it is refused.
pub fn cabinet_place(
    row: &mut [Record],
    record: usize,
    personality: &[u8],
    first: usize,
    outputs: &mut [u8],
) -> u64 {
    // SAFETY: each pointer and length are those of one slice, and a row has as many records
    // as the number says; the two lent for writing overlap neither each other nor the
    // personality. A record is laid out as in C, and any bytes are a record.
    unsafe {
        ffi::willowera_cabinet_place(
            row.as_mut_ptr(),
            row.len() as u64,
            record as u64,
            personality.as_ptr(),
            personality.len() as u64,
            first as u64,
            outputs.as_mut_ptr(),
            outputs.len() as u64,
        )
    }
}

/// Steps the site of a record: replaces its state and writes its outputs, unless
/// it is refused.
pub fn cabinet_step(row: &mut [Record], record: usize, inputs: u64, outputs: &mut [u8]) -> u64 {
    // SAFETY: as in a placing, without a personality.
    unsafe {
        ffi::willowera_cabinet_step(
            row.as_mut_ptr(),
            row.len() as u64,
            record as u64,
            inputs,
            outputs.as_mut_ptr(),
            outputs.len() as u64,
        )
    }
}

/// Takes the site out of a record, and writes its outputs, unless it is refused.
pub fn cabinet_take_out(row: &mut [Record], record: usize, outputs: &mut [u8]) -> u64 {
    // SAFETY: as in a placing, without a personality.
    unsafe {
        ffi::willowera_cabinet_take_out(
            row.as_mut_ptr(),
            row.len() as u64,
            record as u64,
            outputs.as_mut_ptr(),
            outputs.len() as u64,
        )
    }
}

/// The settings of a site sheet: minimum green in bits 8 to 23, the passage time
/// in bits 24 to 39.
pub fn settings(speed: u32, detector: u32, metres: f64) -> u64 {
    // SAFETY: takes numbers and touches no memory of ours.
    unsafe { ffi::willowera_settings(speed, detector, metres) }
}

/// The yellow time at a speed and a grade.
pub fn yellow(speed: u32, grade: i32) -> u64 {
    // SAFETY: takes numbers and touches no memory of ours.
    unsafe { ffi::willowera_yellow(speed, grade) }
}

/// The version of the library.
pub fn version() -> u32 {
    // SAFETY: takes nothing and touches no memory of ours.
    unsafe { ffi::willowera_version() }
}
