//! The model with some of its calls replaced, for tests. [`Board`] itself has no bodies,
//! so that the library has to give every call.

#![forbid(unsafe_code)]

use model::packed::{Board, Model};
use model::RecordBytes;

/// A variant of the model as a board.
pub struct AsBoard<T>(pub T);

/// Lists the calls of a board once, for the trait and for the board.
macro_rules! calls {
    ($($call:ident($($name:ident: $kind:ty),+);)+) => {
        /// The model, but for the calls that an implementation gives.
        pub trait Variant {
            $(fn $call(&self, $($name: $kind),+) -> u64 {
                Model.$call($($name),+)
            })+
        }

        impl<T: Variant> Board for AsBoard<T> {
            $(fn $call(&self, $($name: $kind),+) -> u64 {
                self.0.$call($($name),+)
            })+
        }
    };
}

calls! {
    read(personality: &[u8]);
    wait_bound(personality: &[u8]);
    waits(personality: &[u8], waits: &mut [u8]);
    fresh(personality: &[u8], state: &mut [u8]);
    step(personality: &[u8], state: &mut [u8], inputs: u64, colours: &mut [u8]);
    retime(personality: &[u8], state: &mut [u8], new_personality: &[u8]);
    section(personality: &[u8], kind: u16);
    groups(personality: &[u8]);
    seal(personality: &[u8], state: &[u8], sealed: &mut [u8]);
    resume(personality: &[u8], sealed: &[u8], state: &mut [u8]);
    why_length(personality: &[u8], state: &[u8], inputs: u64);
    why(personality: &[u8], state: &[u8], inputs: u64, line: &mut [u8]);
    road(personality: &[u8], streams: &[u8], steps: u32, state: &mut [u8], results: &mut [u8]);
    cabinet_place(row: &mut [RecordBytes], record: usize, personality: &[u8], first: usize, outputs: &mut [u8]);
    cabinet_step(row: &mut [RecordBytes], record: usize, inputs: u64, outputs: &mut [u8]);
    cabinet_take_out(row: &mut [RecordBytes], record: usize, outputs: &mut [u8]);
}
