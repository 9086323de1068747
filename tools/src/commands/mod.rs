//! The subcommands, each with its options and its help.

mod book;
mod chains;
mod check;
mod check_mesh;
mod draw;
mod draw_mesh;
mod draw_section;
mod export;
mod list;
mod loops;
mod nearest;
mod pack;
mod runs;
mod scan;
mod set_count;
mod shading;
mod surfaces;
mod unpack;

use std::ffi::{OsStr, OsString};
use std::fmt::Write;

use crate::arguments::{Arguments, Flag};
use crate::fault::{file_name, shown, Fault};
use crate::files;

/// A subcommand.
pub struct Command {
    name: &'static str,
    /// What stands after the name, before the options are told.
    usage: &'static str,
    summary: &'static str,
    detail: &'static str,
    flags: &'static [Flag],
    run: fn(&Arguments) -> Result<(), Fault>,
}

const COMMANDS: &[&Command] = &[
    &pack::COMMAND,
    &unpack::COMMAND,
    &check::COMMAND,
    &list::COMMAND,
    &runs::COMMAND,
    &loops::COMMAND,
    &book::COMMAND,
    &shading::COMMAND,
    &nearest::COMMAND,
    &set_count::COMMAND,
    &surfaces::COMMAND,
    &draw::COMMAND,
    &export::COMMAND,
    &check_mesh::COMMAND,
    &chains::COMMAND,
    &scan::COMMAND,
];

/// The option that names the file to write.
const OUTPUT: Flag = Flag {
    name: "--output",
    value: Some("FILE"),
    help: "write here, and not to standard output",
};

/// Runs the subcommand that the arguments name.
pub fn run(arguments: &[OsString]) -> Result<(), Fault> {
    let (name, given) = match arguments.split_first() {
        Some((name, given)) => (name.as_os_str(), given),
        None => return Err(Fault::usage("which command? (see --help)")),
    };
    match name.to_str() {
        Some("--help" | "-h") => files::write(None, overview().as_bytes()),
        Some("--version" | "-V") => files::write(None, version().as_bytes()),
        Some("help") => run_help(given),
        _ => run_command(command_named(name)?, given),
    }
}

/// `help`, alone or with the name of a command.
fn run_help(given: &[OsString]) -> Result<(), Fault> {
    let words = match given {
        [] => overview(),
        [name] => help(command_named(name)?),
        _ => return Err(Fault::usage("help: one command at a time")),
    };
    files::write(None, words.as_bytes())
}

fn command_named(name: &OsStr) -> Result<&'static Command, Fault> {
    let known = COMMANDS.iter().find(|command| command.name == name);
    known.copied().ok_or_else(|| {
        let name = shown(&file_name(name));
        Fault::usage(format!("no such command: {name} (see --help)"))
    })
}

fn run_command(command: &Command, given: &[OsString]) -> Result<(), Fault> {
    let mut options = given.iter().take_while(|argument| *argument != "--");
    if options.any(|argument| argument == "--help" || argument == "-h") {
        return files::write(None, help(command).as_bytes());
    }
    let arguments = Arguments::parse(command.flags, given);
    (command.run)(&arguments.map_err(|fault| fault.of(command.name))?)
}

fn version() -> String {
    format!("citternblaze {}\n", env!("CARGO_PKG_VERSION"))
}

fn overview() -> String {
    let mut out = "citternblaze COMMAND [OPTION..] [FILE]\n\n\
                   Without a FILE, or with -, a command reads standard input. After -- no\n\
                   argument is an option.\n\n"
        .to_string();
    for command in COMMANDS {
        line(
            &mut out,
            format_args!("  {:<12}{}", command.name, command.summary),
        );
    }
    out.push_str(
        "\ncitternblaze COMMAND --help, or help COMMAND, tells more; --version the version.\n\
         Exit status: 0; 1 where something is refused or not whole; 2 for a wrong command\n\
         line, or a file that cannot be read or written.\n\
         docs/FORMAT.md says what grids, bundles and meshes are.\n",
    );
    out
}

fn help(command: &Command) -> String {
    let mut out = format!("citternblaze {} {}\n\n", command.name, command.usage);
    line(
        &mut out,
        format_args!("{}.\n\n{}\n", command.summary, command.detail),
    );
    for flag in command.flags {
        let option = match flag.value {
            Some(value) => format!("{} {value}", flag.name),
            None => flag.name.to_string(),
        };
        let help = flag.help.replace('\n', "\n                        ");
        line(&mut out, format_args!("  {option:<22}{help}"));
    }
    line(&mut out, format_args!("  {:<22}print this", "--help"));
    out
}

fn line(out: &mut String, text: std::fmt::Arguments<'_>) {
    writeln!(out, "{text}").expect("a string takes any text");
}

/// Writes what a command made.
fn write_output(arguments: &Arguments, bytes: &[u8]) -> Result<(), Fault> {
    files::write(arguments.path(OUTPUT.name), bytes)
}
