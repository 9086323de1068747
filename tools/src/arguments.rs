//! The options and operands of a command line.

use std::ffi::{OsStr, OsString};
use std::os::unix::ffi::OsStrExt;

use crate::fault::{file_name, shown, Fault};

/// What the value of an option is called where it is the name of a file.
const FILE: &str = "FILE";

/// An option, with the name of its value if it takes one. A value of several words,
/// as `X Y Z`, takes so many arguments.
pub struct Flag {
    pub name: &'static str,
    pub value: Option<&'static str>,
    pub help: &'static str,
}

/// What was given: options with their values, and operands. Only the names of files
/// may be no UTF-8.
#[derive(Debug, Default)]
pub struct Arguments {
    options: Vec<(&'static str, OsString)>,
    operands: Vec<OsString>,
}

impl Arguments {
    /// Sorts the arguments of a command that knows these options. After `--` all are
    /// operands; so are a lone `-` and a negative number.
    pub fn parse(flags: &[Flag], given: &[OsString]) -> Result<Arguments, Fault> {
        let mut parsed = Arguments::default();
        let mut rest = given.iter();
        while let Some(argument) = rest.next() {
            if argument == "--" {
                parsed.operands.extend(rest.by_ref().cloned());
            } else if is_option(argument) {
                parsed.add_option(flags, argument, &mut rest)?;
            } else {
                parsed.operands.push(argument.clone());
            }
        }
        Ok(parsed)
    }

    /// Adds an option with its value, which stands behind `=` or comes next.
    fn add_option<'a>(
        &mut self,
        flags: &[Flag],
        argument: &OsStr,
        rest: &mut impl Iterator<Item = &'a OsString>,
    ) -> Result<(), Fault> {
        let bytes = argument.as_bytes();
        let (name, joined) = match bytes.iter().position(|&byte| byte == b'=') {
            Some(at) => (&bytes[..at], Some(OsStr::from_bytes(&bytes[at + 1..]))),
            None => (bytes, None),
        };
        let known = flags.iter().find(|flag| flag.name.as_bytes() == name);
        let flag = known.ok_or_else(|| {
            let name = shown(&file_name(OsStr::from_bytes(name)));
            Fault::usage(format!("no such option: {name} (see --help)"))
        })?;
        let name = flag.name;
        let value = match (flag.value, joined) {
            (None, None) => OsString::new(),
            (None, Some(_)) => return Err(Fault::usage(format!("{name} takes no value"))),
            (Some(_), Some(value)) => value.to_os_string(),
            (Some(wanted), None) => words_of_value(rest, wanted)
                .ok_or_else(|| Fault::usage(format!("{name} wants {wanted}")))?,
        };
        if flag.value != Some(FILE) && value.to_str().is_none() {
            let value = shown(&file_name(&value));
            return Err(Fault::usage(format!("{name}: '{value}' is no text")));
        }
        self.options.push((name, value));
        Ok(())
    }

    /// The input file, or none for standard input, of a command that takes no other
    /// operand.
    pub fn file(&self) -> Result<Option<&OsStr>, Fault> {
        self.file_after(0)
    }

    /// The input file behind so many other operands.
    pub fn file_after(&self, words: usize) -> Result<Option<&OsStr>, Fault> {
        match self.operands.get(words + 1) {
            None => Ok(self.operands.get(words).map(OsString::as_os_str)),
            Some(second) => Err(Fault::usage(format!(
                "one file at a time, and here is another: {}",
                shown(&file_name(second))
            ))),
        }
    }

    pub fn operands(&self) -> &[OsString] {
        &self.operands
    }

    /// The operand at a place, as a text that a message may show.
    pub fn operand(&self, at: usize) -> Option<String> {
        self.operands.get(at).map(|word| file_name(word))
    }

    /// The value given last for an option, as it was given.
    fn given(&self, name: &str) -> Option<&OsStr> {
        let mut given = self.options.iter().rev();
        given
            .find(|option| option.0 == name)
            .map(|option| option.1.as_os_str())
    }

    /// The value given last for an option that names a file.
    pub fn path(&self, name: &str) -> Option<&OsStr> {
        self.given(name)
    }

    /// The value given last for an option that names no file.
    pub fn value(&self, name: &str) -> Option<&str> {
        self.given(name).and_then(OsStr::to_str)
    }

    /// All values given for an option that names no file, in the order given.
    pub fn values(&self, name: &str) -> Vec<&str> {
        let of_name = self.options.iter().filter(|option| option.0 == name);
        of_name.filter_map(|option| option.1.to_str()).collect()
    }

    pub fn has(&self, name: &str) -> bool {
        self.given(name).is_some()
    }

    /// The value of an option that is a whole number.
    pub fn number(&self, name: &str) -> Result<Option<usize>, Fault> {
        match self.value(name) {
            None => Ok(None),
            Some(text) => match text.parse() {
                Ok(number) => Ok(Some(number)),
                Err(_) => Err(Fault::usage(format!(
                    "{name}: '{}' is no whole number",
                    shown(text)
                ))),
            },
        }
    }
}

/// Whether an argument is meant as an option.
fn is_option(argument: &OsStr) -> bool {
    match argument.as_bytes() {
        [b'-', next, ..] => !(next.is_ascii_digit() || *next == b'.'),
        _ => false,
    }
}

/// The arguments that make up a value with such a name, with spaces between: one for
/// each word where all are in capitals, and else one. Of several none is an option.
fn words_of_value<'a>(
    rest: &mut impl Iterator<Item = &'a OsString>,
    value: &str,
) -> Option<OsString> {
    let number = match value.contains(char::is_lowercase) {
        true => 1,
        false => value.split(' ').count(),
    };
    let words: Vec<&OsString> = rest.take(number).collect();
    let option = |word: &&OsString| number > 1 && word.as_bytes().starts_with(b"--");
    let whole = words.len() == number && !words.iter().any(option);
    let words = words.into_iter().map(OsString::as_os_str);
    whole.then(|| words.collect::<Vec<&OsStr>>().join(OsStr::new(" ")))
}
