//! Words of an input, as they may be repeated to the user.

pub use crate::digits::grouped as thousands;

use crate::fault::shown;

/// A word in quotes: cut where it is long, and with escapes in place of characters
/// that a terminal would obey.
pub fn quoted(word: &str) -> String {
    format!("'{}'", shown(word))
}
