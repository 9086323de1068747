use std::env;
use std::ffi::OsString;
use std::io::{self, Write};
use std::process::ExitCode;
use std::thread;

use citternblaze::calls::STACK_BYTES;
use citternblaze::fault::Fault;

/// What the program's own functions have of the stack.
const OWN_STACK_BYTES: usize = 1_024 * 1_024;

/// Runs a command on a thread of its own, whose stack suffices for any call,
/// whatever the system gives to a program's first thread.
fn main() -> ExitCode {
    let thread = thread::Builder::new().stack_size(STACK_BYTES + OWN_STACK_BYTES);
    match thread.spawn(run).map(thread::JoinHandle::join) {
        Ok(Ok(code)) => code,
        Ok(Err(_)) => ExitCode::from(101),
        Err(error) => told(&Fault::usage(format!("no thread: {error}"))),
    }
}

fn run() -> ExitCode {
    let arguments: Vec<OsString> = env::args_os().skip(1).collect();
    match citternblaze::commands::run(&arguments) {
        Ok(()) => ExitCode::SUCCESS,
        Err(fault) => told(&fault),
    }
}

fn told(fault: &Fault) -> ExitCode {
    // a standard error that takes nothing leaves the exit status
    let _ = writeln!(io::stderr(), "citternblaze: {fault}");
    ExitCode::from(fault.ending().status())
}
