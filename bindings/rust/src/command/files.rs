//! Files and the standard streams, and how a command ends that does not do its work.

use pozqaben::{NoTicket, NoWiring, Refusal, SearchError, Ticket, Wiring};
use std::ffi::OsStr;
use std::fmt::Display;
use std::fs::File;
use std::io::{self, Read, Write};

/// Why a command has not done its work.
pub enum Failure {
    /// What it read is turned down.
    Refused(String),
    /// Its words are none that it takes.
    Misused(String),
    /// A file or a stream cannot be read or written.
    Unusable(String),
}

impl From<NoTicket> for Failure {
    fn from(why: NoTicket) -> Self {
        Failure::Refused(why.to_string())
    }
}

impl From<NoWiring> for Failure {
    fn from(why: NoWiring) -> Self {
        Failure::Refused(format!("no wiring: {why}"))
    }
}

impl From<Refusal> for Failure {
    fn from(refusal: Refusal) -> Self {
        Failure::Refused(refusal.to_string())
    }
}

impl From<SearchError> for Failure {
    fn from(why: SearchError) -> Self {
        Failure::Refused(why.to_string())
    }
}

impl Failure {
    /// A refusal of a wiring of the ticket; a net in pieces is told by its name too.
    pub fn of_wiring(ticket: &Ticket, refusal: Refusal) -> Self {
        let net = u8::try_from(refusal.place).ok().filter(|_| refusal.number == Refusal::NET_IN_PIECES);
        match net.map(|net| ticket.name(net)).filter(|name| *name != refusal.place.to_string()) {
            Some(name) => Failure::Refused(format!("{refusal}; net {} is {name:?}", refusal.place)),
            None => refusal.into(),
        }
    }

    fn unusable(name: impl Display, error: io::Error) -> Self {
        Failure::Unusable(format!("{name}: {error}"))
    }
}

/// Longer than any file of a ticket or a wiring: one of the largest wiring has 3.6 MB.
const LONGEST_FILE: u64 = 1 << 24;

/// The file that is named; none is by `-`, which stands for a standard stream.
pub fn named(name: Option<&OsStr>) -> Option<&OsStr> {
    name.filter(|name| *name != "-")
}

/// The bytes of the file that is named, or of standard input.
fn input(name: Option<&OsStr>) -> Result<Vec<u8>, Failure> {
    let shown = named(name).map_or("standard input".to_string(), |name| name.display().to_string());
    let opened: io::Result<Box<dyn Read>> = match named(name) {
        Some(name) => File::open(name).map(|file| Box::new(file) as Box<dyn Read>),
        None => Ok(Box::new(io::stdin())),
    };
    let mut bytes = Vec::new();
    let read = opened.and_then(|from| from.take(LONGEST_FILE + 1).read_to_end(&mut bytes));
    read.map_err(|error| Failure::unusable(&shown, error))?;
    if bytes.len() as u64 > LONGEST_FILE {
        return Err(Failure::Refused(format!("{shown} is longer than any ticket or wiring")));
    }
    Ok(bytes)
}

pub fn ticket(name: Option<&OsStr>) -> Result<Ticket, Failure> {
    Ok(Ticket::from_file(&input(name)?)?)
}

pub fn flat_ticket(name: Option<&OsStr>) -> Result<Ticket, Failure> {
    Ok(Ticket::from_flat_file(&input(name)?)?)
}

pub fn wiring(name: Option<&OsStr>) -> Result<Wiring, Failure> {
    Ok(Wiring::from_file(&input(name)?)?)
}

/// Writes the file that is named, or standard output. That stream may hold bytes back until the program ends, where nobody would see
/// that they cannot be written.
pub fn output(name: Option<&OsStr>, bytes: &[u8]) -> Result<(), Failure> {
    let Some(name) = named(name) else {
        let mut out = io::stdout();
        return out.write_all(bytes).and_then(|()| out.flush()).map_err(|error| Failure::unusable("standard output", error));
    };
    std::fs::write(name, bytes).map_err(|error| Failure::unusable(name.display(), error))
}

/// A line on standard error; that it cannot be written there is no reason to stop.
pub fn told(line: impl Display) {
    let _ = writeln!(io::stderr(), "{line}");
}
