//! Numbers in exported files: 17 significant digits, which read back to the same
//! bits.

mod random;

use citternblaze::digits::significant;
use random::Random;

/// The significant digits of a number's text, zeros before them left out.
fn digits(text: &str) -> usize {
    let front = text.split('e').next().unwrap_or_default();
    let digits: String = front.chars().filter(char::is_ascii_digit).collect();
    digits.trim_start_matches('0').len()
}

#[test]
fn examples() {
    assert_eq!(significant(0.3), "0.29999999999999999");
    assert_eq!(significant(-8.0), "-8.0000000000000000");
    assert_eq!(significant(1e6), "1000000.0000000000");
    assert_eq!(significant(0.0), "0.0000000000000000");
    assert_eq!(significant(1e-7), "9.9999999999999995e-8");
}

#[test]
fn random_numbers_read_back() {
    let mut random = Random(5);
    let least = f64::from_bits(1);
    let ends = [0.0, -0.0, least, f64::MIN_POSITIVE, f64::MAX, f64::MIN];
    let others = (0..20_000).map(|_| random.number());
    for number in ends.into_iter().chain(others) {
        let text = significant(number);
        let read: f64 = text.parse().expect("a number");
        assert_eq!(read.to_bits(), number.to_bits(), "{text}");
        if number != 0.0 {
            assert_eq!(digits(&text), 17, "{text}");
        }
    }
}
