//! The command `pozqaben`: the public calls, and wirings as pictures and as files of other tools, from a shell.

mod command;

use command::{told, Command, Failure, ALL};
use std::ffi::OsString;
use std::process::ExitCode;

/// The exit code for what is refused.
const REFUSED: u8 = 1;
/// The exit code for words that are not taken, and for a file or a stream that cannot be read or written.
const MISUSED: u8 = 2;

const TICKETS: &str = "\
TICKET is a file, or standard input where none is named or - is. Its first byte that is no blank tells what it holds:
  a digit    the ticket's bytes, each as two hexadecimal digits, with blanks and line ends between bytes or not;
  a letter   (or #) the flat ticket as text: row, channel, box or two-layer, the length, and the width of a box or the
             trunk layers of a row or channel; then a name for each place of north, south, west and east, as far as the
             kind has these sides, and . for a place without a pin. Names that are all numbers from 1 to 180 are the
             nets' numbers; others are numbered in order of appearance. # begins a comment, which the line's end ends:

                 channel 4 1
                 clk a . b     # north
                 a clk b .     # south

  else       the ticket's bytes.
WIRING is a file as lay and squeeze write it: a line such as 'wiring length 4 width 2 layers 3 first vertical', and then
the points, a byte each.
-o names the file that is written, instead of standard output.

Exit codes: 0 accepted; 1 refused, with the refusal's number, place and meaning on standard error, and line and column of
a text; 2 bad usage, or a file that cannot be read or written.
";

fn usage() -> String {
    let command = |command: &Command| format!("  {:<11} {}\n", command.name, command.does);
    let commands: String = ALL.iter().map(command).collect();
    format!("usage: pozqaben COMMAND [WORDS]\n       pozqaben COMMAND --help\n       pozqaben --version\n\n{commands}\n{TICKETS}")
}

fn help(command: &Command) -> String {
    let notes = if command.notes.is_empty() { String::new() } else { format!("{}\n", command.notes) };
    format!("usage: pozqaben {} {}\n\n{} - {}\n{notes}\n{TICKETS}", command.name, command.takes, command.name, command.does)
}

fn is_help(word: &OsString) -> bool {
    word == "--help" || word == "-h"
}

fn run(words: &[OsString]) -> Result<(), Failure> {
    let Some((name, words)) = words.split_first() else {
        return Err(Failure::Misused("there is no command".to_string()));
    };
    if is_help(name) || name == "help" {
        return command::shown(&usage());
    }
    if name == "--version" {
        return command::shown(concat!("pozqaben ", env!("CARGO_PKG_VERSION"), "\n"));
    }
    let Some(command) = ALL.iter().find(|command| name == command.name) else {
        return Err(Failure::Misused(format!("there is no command {}", name.display())));
    };
    if words.iter().take_while(|word| *word != "--").any(is_help) {
        return command::shown(&help(command));
    }
    command.run(words)
}

fn main() -> ExitCode {
    let words: Vec<OsString> = std::env::args_os().skip(1).collect();
    match run(&words) {
        Ok(()) => ExitCode::SUCCESS,
        Err(Failure::Refused(why)) => {
            told(why);
            ExitCode::from(REFUSED)
        }
        Err(Failure::Misused(why)) => {
            told(format_args!("{why}; pozqaben --help and pozqaben COMMAND --help say what there is"));
            ExitCode::from(MISUSED)
        }
        Err(Failure::Unusable(why)) => {
            told(why);
            ExitCode::from(MISUSED)
        }
    }
}
