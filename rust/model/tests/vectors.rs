//! The vectors of the Python reader in `vectors/`: two models, written apart from
//! each other, agree on every one.

use model::packed;
use std::path::Path;

/// One vector: the bytes, and the answer to reading them.
struct Vector<'a> {
    bytes: &'a [u8],
    answer: u64,
}

/// A length of two bytes, the personality, the number and a place of four bytes.
fn take<'a>(file: &mut &'a [u8]) -> Option<Vector<'a>> {
    let (&length, rest) = file.split_first_chunk()?;
    let (bytes, rest) = rest.split_at_checked(usize::from(u16::from_le_bytes(length)))?;
    let (&[number], rest) = rest.split_first_chunk()?;
    let (&place, rest) = rest.split_first_chunk()?;
    *file = rest;
    let place = u64::from(u32::from_le_bytes(place));
    let answer = place << 8 | u64::from(number);
    Some(Vector { bytes, answer })
}

#[test]
fn the_models_agree_on_every_vector() {
    let package = Path::new(env!("CARGO_MANIFEST_DIR"));
    let file = package.join("../../crates/run_reads/data/reads");
    let kept = std::fs::read(&file).expect("the vectors are kept with run_reads");
    let mut rest = kept.as_slice();
    let mut count = 0;
    while let Some(Vector { bytes, answer }) = take(&mut rest) {
        assert_eq!(packed::read(bytes), answer, "vector {count}: {bytes:02x?}");
        // The second count of the site section, behind its head and the first count.
        let groups = match answer {
            0 => u64::from(bytes[5]) << 8,
            refusal => refusal,
        };
        assert_eq!(packed::groups(bytes), groups, "vector {count}");
        count += 1;
    }
    assert!(rest.is_empty() && count > 1_000, "{count} vectors");
}
