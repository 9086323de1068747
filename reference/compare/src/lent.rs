//! Areas lent to a call, with guards on both sides.

pub use citternblaze_calls::ANSWER_WORDS;

/// How many guards stand on each side of an area.
const GUARDS: usize = 4;

/// More numbers than any answer has.
const ANSWER_ROOM: usize = 16;

/// An area whose values and guards are known, so that every write is seen.
pub struct Lent<T> {
    values: Vec<T>,
}

impl<T: Copy + PartialEq> Lent<T> {
    /// An area of these values; `guard` stands before and behind it.
    pub fn new(area: &[T], guard: T) -> Lent<T> {
        let mut values = vec![guard; GUARDS];
        values.extend_from_slice(area);
        values.extend([guard; GUARDS]);
        Lent { values }
    }

    pub fn area(&mut self) -> &mut [T] {
        let end = self.values.len() - GUARDS;
        &mut self.values[GUARDS..end]
    }

    /// Whether the area and its guards are those that `new` makes of this.
    pub fn is(&self, area: &[T], guard: T) -> bool {
        self.values == Lent::new(area, guard).values
    }
}

/// The number at `place` of an answer area before a call, unlike any answer.
fn filler(place: usize) -> u64 {
    0xa5a5_0000_ffff_0000 + place as u64
}

/// An answer area of this length before a call.
fn untouched(len: usize) -> Vec<u64> {
    (0..len).map(filler).collect()
}

/// What has to stand in a lent area after a call with this answer area: what the
/// call makes of it, or, where the answer area is too short, what was there.
pub fn after<'a, T>(answer: &[u64], before: &'a [T], made: &'a [T]) -> &'a [T] {
    if answer.len() < ANSWER_WORDS {
        before
    } else {
        made
    }
}

/// Makes a call on an answer area of this length. The call must return how many
/// numbers it has to answer and put them at the front, or, where the area is too
/// short for any answer, return how long it must be; and write nothing else.
fn answers_in(len: usize, numbers: &[u64], call: &mut impl FnMut(&mut [u64]) -> usize) -> bool {
    let mut expected = untouched(len);
    let mut returned = ANSWER_WORDS;
    if len >= ANSWER_WORDS {
        returned = numbers.len();
        expected[..returned].copy_from_slice(numbers);
    }
    let guard = filler(ANSWER_ROOM);
    let mut lent = Lent::new(&untouched(len), guard);
    call(lent.area()) == returned && lent.is(&expected, guard)
}

/// Whether a call answers these numbers, in a wide area.
pub fn answers(numbers: &[u64], mut call: impl FnMut(&mut [u64]) -> usize) -> bool {
    answers_in(ANSWER_ROOM, numbers, &mut call)
}

/// Whether a call answers these numbers in an area of every length up to one
/// that is too long by one.
pub fn answers_in_all(numbers: &[u64], mut call: impl FnMut(&mut [u64]) -> usize) -> bool {
    (0..=ANSWER_WORDS + 1).all(|len| answers_in(len, numbers, &mut call))
}
