//! Accepted personalities of the generator: bytes to text and back. Damaged ones: either
//! no text, or a text that builds to the same bytes.

use generate::{damaged, scrambled, Plan, Rng};
use model::packed;

const PLANS: u64 = 10_000;

fn same_bytes(bytes: &[u8]) -> bool {
    match site::show(bytes) {
        Ok(text) => {
            let site = site::read(&text).unwrap_or_else(|mistakes| panic!("{mistakes:?}\n{text}"));
            assert_eq!(site.build().bytes, bytes, "{text}");
            true
        }
        Err(_) => false,
    }
}

#[test]
fn accepted_personalities_turn_into_a_text_and_back() {
    for plan in [
        Plan::junction(),
        Plan::junction_two(),
        Plan::smallest(),
        Plan::largest(),
    ] {
        assert!(same_bytes(&plan.bytes()));
    }
    for case in 0..PLANS {
        let bytes = Plan::random(&mut Rng::of_case(1, case)).bytes();
        assert_eq!(packed::read(&bytes), 0);
        assert!(same_bytes(&bytes), "case {case}");
    }
}

#[test]
fn a_text_of_refused_bytes_builds_to_the_same_bytes() {
    let (mut texts, mut refused) = (0, 0);
    for case in 0..PLANS / 4 {
        let mut rng = Rng::of_case(2, case);
        let number = rng.pick(&[4, 5, 6, 8, 9, 10, 11, 17, 18, 21]);
        let bytes = damaged(&mut rng, number);
        refused += u64::from(packed::read(&bytes) != 0);
        texts += u64::from(same_bytes(&bytes));
        same_bytes(&scrambled(&mut rng));
    }
    assert!(
        refused > PLANS / 5 && texts > PLANS / 20,
        "{refused} refused, {texts} texts"
    );
}
