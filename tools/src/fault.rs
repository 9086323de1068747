//! What is wrong with an input, and where: one line for the user, and the exit
//! status that it ends with.

use std::ffi::OsStr;
use std::fmt;
use std::io::{self, Write};
use std::os::unix::ffi::OsStrExt;

/// How the program ends after a fault.
#[derive(Clone, Copy, Debug, PartialEq, Eq)]
pub enum Ending {
    /// Something is refused, or is not whole: 1.
    Refused,
    /// The program is not used as it must be, or a file cannot be read or written: 2.
    Usage,
}

impl Ending {
    pub fn status(self) -> u8 {
        match self {
            Ending::Refused => 1,
            Ending::Usage => 2,
        }
    }
}

#[derive(Clone, Debug, PartialEq, Eq)]
pub struct Fault {
    what: String,
    ending: Ending,
}

impl Fault {
    /// An input is refused.
    pub fn new(what: impl Into<String>) -> Fault {
        Fault {
            what: what.into(),
            ending: Ending::Refused,
        }
    }

    /// The command line is wrong, or a file cannot be read or written.
    pub fn usage(what: impl Into<String>) -> Fault {
        Fault {
            what: what.into(),
            ending: Ending::Usage,
        }
    }

    pub fn at_line(line: usize, what: impl fmt::Display) -> Fault {
        Fault::new(format!("line {line}: {what}"))
    }

    /// The same fault, of the input with this name.
    pub fn of(self, input: &str) -> Fault {
        Fault {
            what: format!("{input}: {}", self.what),
            ..self
        }
    }

    pub fn ending(&self) -> Ending {
        self.ending
    }
}

impl fmt::Display for Fault {
    fn fmt(&self, out: &mut fmt::Formatter<'_>) -> fmt::Result {
        out.write_str(&self.what)
    }
}

/// Tells the user what a command did beside what was asked.
pub fn note(what: impl fmt::Display) {
    // nobody may be there to read it
    let _ = writeln!(io::stderr(), "citternblaze: note: {what}");
}

/// So many characters of a bad word are shown.
const SHOWN: usize = 40;

/// A word of an input, fit for a message: what is no letter, digit or ASCII sign is
/// escaped, and a long word is cut.
pub fn shown(word: &str) -> String {
    let mut out: String = word.chars().take(SHOWN).map(escaped).collect();
    if word.chars().nth(SHOWN).is_some() {
        out.push_str("..");
    }
    out
}

fn escaped(letter: char) -> String {
    match letter {
        '\\' => "\\\\".to_string(),
        ' ' => letter.to_string(),
        _ if letter.is_ascii_graphic() || letter.is_alphanumeric() => letter.to_string(),
        _ => letter.escape_default().to_string(),
    }
}

/// The name of a file, fit for a message: bytes that are no UTF-8 are escaped, and it
/// is not cut.
pub fn file_name(name: &OsStr) -> String {
    let mut out = String::new();
    let mut rest = name.as_bytes();
    while !rest.is_empty() {
        let (good, bad) = match std::str::from_utf8(rest) {
            Ok(_) => (rest.len(), 0),
            Err(error) => (error.valid_up_to(), 1),
        };
        let (text, after) = rest.split_at(good);
        out.extend(String::from_utf8_lossy(text).chars().map(escaped));
        for byte in &after[..bad] {
            out.push_str(&format!("\\x{byte:02x}"));
        }
        rest = &after[bad..];
    }
    out
}
