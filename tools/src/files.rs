//! Input from a file or standard input; output to standard output, or to a file
//! that is written beside and then renamed, so that it is never half written.

use std::ffi::OsStr;
use std::fs::{self, File, OpenOptions};
use std::io::{self, Read, Write};
use std::path::{Path, PathBuf};
use std::process;

use crate::digits::grouped;
use crate::fault::{file_name, Fault};

/// A grid is read from so many bytes at most, as a bundle or as a text: what an
/// accepted grid can state takes a twentieth of it.
pub const GRID_BYTES: usize = 64 << 20;

/// A mesh is read from so many bytes at most: the words of 24 million triangles.
pub const MESH_BYTES: usize = 1 << 30;

/// Bytes that were read, and what to call them in a message.
pub struct Input {
    pub name: String,
    pub bytes: Vec<u8>,
}

/// An input that is open, with the bytes read so far.
pub struct Opened {
    pub input: Input,
    rest: Box<dyn Read>,
}

/// Opens a file, or standard input where none is named or its name is `-`.
pub fn open(file: Option<&OsStr>) -> Result<Opened, Fault> {
    let name = match file {
        Some(file) if file != "-" => file_name(file),
        _ => "standard input".to_string(),
    };
    let rest: Box<dyn Read> = match file {
        Some(file) if file != "-" => Box::new(File::open(file).map_err(|e| failed(e, &name))?),
        _ => Box::new(io::stdin()),
    };
    let bytes = Vec::new();
    let input = Input { name, bytes };
    Ok(Opened { input, rest })
}

fn failed(error: io::Error, name: &str) -> Fault {
    Fault::usage(error.to_string()).of(name)
}

impl Opened {
    /// Reads on until there are so many bytes, or no more.
    pub fn read_to(&mut self, most: usize) -> Result<(), Fault> {
        let more = most.saturating_sub(self.input.bytes.len()) as u64;
        let read = (&mut self.rest)
            .take(more)
            .read_to_end(&mut self.input.bytes);
        read.map_err(|error| failed(error, &self.input.name))?;
        Ok(())
    }

    /// All that is left, where it is no more than so many bytes together.
    pub fn all_within(mut self, most: usize) -> Result<Input, Fault> {
        self.read_to(most + 1)?;
        if self.input.bytes.len() > most {
            let what = format!("more than {} bytes, which is too long", grouped(most));
            return Err(Fault::new(what).of(&self.input.name));
        }
        Ok(self.input)
    }
}

/// Reads a grid from a file, or from standard input where none is named or its name
/// is `-`.
pub fn read(file: Option<&OsStr>) -> Result<Input, Fault> {
    open(file)?.all_within(GRID_BYTES)
}

/// Writes all bytes to a file, or to standard output where none is named or its
/// name is `-`.
pub fn write(file: Option<&OsStr>, bytes: &[u8]) -> Result<(), Fault> {
    match file {
        Some(file) if file != "-" => {
            let written = write_file(Path::new(file), bytes);
            written.map_err(|error| failed(error, &file_name(file)))
        }
        _ => write_standard_output(bytes).map_err(|error| failed(error, "standard output")),
    }
}

/// A reader that closes the pipe has what it wants: that is no fault.
fn write_standard_output(bytes: &[u8]) -> io::Result<()> {
    let mut out = io::stdout();
    match out.write_all(bytes).and_then(|()| out.flush()) {
        Err(error) if error.kind() == io::ErrorKind::BrokenPipe => Ok(()),
        result => result,
    }
}

/// A link is followed. What is there and no plain file, as a device or a pipe, is
/// written to and stays what it is.
fn write_file(file: &Path, bytes: &[u8]) -> io::Result<()> {
    match fs::metadata(file) {
        Ok(there) if there.is_file() => write_beside(&fs::canonicalize(file)?, bytes),
        Ok(_) => OpenOptions::new().write(true).open(file)?.write_all(bytes),
        Err(_) => write_beside(file, bytes),
    }
}

fn write_beside(file: &Path, bytes: &[u8]) -> io::Result<()> {
    let beside = name_beside(file);
    let written = write_whole(&beside, bytes).and_then(|()| fs::rename(&beside, file));
    if written.is_err() {
        // where it was not made, there is nothing to remove
        let _ = fs::remove_file(&beside);
    }
    written
}

/// A name in the same folder that no other run of the program uses.
fn name_beside(file: &Path) -> PathBuf {
    let mut name = file.file_name().unwrap_or_default().to_os_string();
    name.push(format!(".part-{}", process::id()));
    file.with_file_name(name)
}

fn write_whole(file: &Path, bytes: &[u8]) -> io::Result<()> {
    let mut out = File::create(file)?;
    out.write_all(bytes)?;
    out.sync_all()
}
