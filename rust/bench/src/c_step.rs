//! The step in C (`step/`), over slices of any length.

#[cfg(test)]
mod tests;

unsafe extern "C" {
    fn c_step(
        personality: *const u8,
        personality_len: u64,
        state: *mut u8,
        state_len: u64,
        inputs: u64,
        colours: *mut u8,
        colours_len: u64,
    ) -> u64;
}

/// One step: replaces the state and writes the colours, unless it is refused.
pub fn step(personality: &[u8], state: &mut [u8], inputs: u64, colours: &mut [u8]) -> u64 {
    // SAFETY: each pointer and length are those of one slice; the two lent for
    // writing overlap neither each other nor the personality.
    unsafe {
        c_step(
            personality.as_ptr(),
            personality.len() as u64,
            state.as_mut_ptr(),
            state.len() as u64,
            inputs,
            colours.as_mut_ptr(),
            colours.len() as u64,
        )
    }
}
