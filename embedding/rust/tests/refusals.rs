//! The refusals are those of the Rattle source; an answer slice that is too short is left as it was (c/vectors.c tries it with every call).
use musseltwig::{raw, Refusal};

#[test]
fn numbers_and_names() {
    for (name, number, place_varies) in raw::REFUSALS {
        let refusal = Refusal::of(number, 7).unwrap();
        assert_eq!(refusal.number(), number);
        assert_eq!(refusal.place(), if place_varies { 7 } else { 0 });
        assert!(format!("{refusal:?}").starts_with(name));
        assert!(refusal.to_string().starts_with(&format!("refused {number} {}: ", refusal.place())));
    }
    assert_eq!(Refusal::of(0, 0), None);
    assert_eq!(Refusal::of(raw::REFUSALS.len() as u64 + 1, 0), None);
    assert_eq!(Refusal::of(raw::BAD_LENGTH as u64, 0), None);
}

#[test]
fn short_answer_touches_nothing() {
    let mut answer = [5u64; raw::READ_NUMBER_ANSWER - 1];
    // SAFETY: the pointers are the slices' own, with their lengths.
    let returned = unsafe { raw::musseltwig_read_number([1].as_ptr(), 1, 0, answer.as_mut_ptr(), answer.len()) };
    assert_eq!((returned, answer), (raw::BAD_LENGTH, [5; 2]));
}
