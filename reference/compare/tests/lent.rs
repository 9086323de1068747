//! That the comparison sees each way to answer wrongly.

use compare::lent::{after, answers, answers_in_all, Lent, ANSWER_WORDS};

/// A call that answers 0, 7, 9 as a call must.
fn right(area: &mut [u64]) -> usize {
    if area.len() < ANSWER_WORDS {
        return ANSWER_WORDS;
    }
    area[..3].copy_from_slice(&[0, 7, 9]);
    3
}

#[test]
fn a_right_answer_passes() {
    assert!(answers(&[0, 7, 9], right));
    assert!(answers_in_all(&[0, 7, 9], right));
}

#[test]
fn another_number_is_seen() {
    assert!(!answers(&[0, 7, 8], right));
}

#[test]
fn another_length_is_seen() {
    assert!(!answers(&[0, 7], right));
    assert!(!answers(&[0, 7, 9], |area| right(area) + 1));
}

#[test]
fn a_number_behind_the_answer_is_seen() {
    let call = |area: &mut [u64]| {
        area[3] = 0;
        right(area)
    };
    assert!(!answers(&[0, 7, 9], call));
}

#[test]
fn an_answer_in_a_short_area_is_seen() {
    let call = |area: &mut [u64]| {
        if area.len() < 3 {
            return right(area);
        }
        area[..3].copy_from_slice(&[0, 7, 9]);
        3
    };
    assert!(answers(&[0, 7, 9], call));
    assert!(!answers_in_all(&[0, 7, 9], call));
    assert!(!answers_in_all(&[0, 7, 9], |area| right(area).min(3)));
}

#[test]
fn a_short_answer_area_keeps_every_area() {
    assert_eq!(after(&[0; ANSWER_WORDS], &[1], &[2]), [2]);
    assert_eq!(after(&[0; ANSWER_WORDS - 1], &[1], &[2]), [1]);
}

#[test]
fn a_part_of_an_answer_is_seen() {
    let call = |area: &mut [u64]| {
        if let Some(first) = area.first_mut() {
            *first = 0;
        }
        right(area)
    };
    assert!(answers(&[0, 7, 9], call));
    assert!(!answers_in_all(&[0, 7, 9], call));
}

#[test]
fn a_write_beside_the_area_is_seen() {
    for distance in [-1isize, 3] {
        let mut lent = Lent::new(&[1u8, 2, 3], 9);
        let area = lent.area().as_mut_ptr();
        // SAFETY: the place is one of the guards, which are of the same vector.
        unsafe { *area.offset(distance) = 0 };
        assert!(!lent.is(&[1, 2, 3], 9));
    }
    assert!(Lent::new(&[1u8, 2, 3], 9).is(&[1, 2, 3], 9));
}
