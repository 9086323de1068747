//! Numbers for files that other programs read.

/// So many significant digits tell any 64-bit float from all others.
const DIGITS: i32 = 17;

/// A number with 17 significant digits, which read back to the same bits. It has
/// an exponent only where many zeros would stand before or behind them.
pub fn significant(number: f64) -> String {
    let scientific = format!("{number:.*e}", DIGITS as usize - 1);
    let exponent = scientific.split_once('e').map(|(_, of)| of.parse::<i32>());
    match exponent {
        Some(Ok(exponent @ -5..=16)) => {
            let decimals = (DIGITS - 1 - exponent) as usize;
            format!("{number:.decimals$}")
        }
        _ => scientific,
    }
}

/// A whole number with commas between groups of three digits.
pub fn grouped(number: impl ToString) -> String {
    let digits = number.to_string();
    let mut out = String::new();
    for (at, digit) in digits.chars().enumerate() {
        if at > 0 && (digits.len() - at) % 3 == 0 {
            out.push(',');
        }
        out.push(digit);
    }
    out
}
