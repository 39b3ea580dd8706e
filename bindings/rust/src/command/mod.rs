//! The commands, each with its words and what it does.

mod files;
mod progress;
mod words;

use files::{flat_ticket, named, output, ticket, wiring};
pub use files::{told, Failure};
use pozqaben::{edge_floor, flatten, hardest_box, lay, squeeze, survey, Effort, Layout, Ticket, Wiring};
use progress::Shown;
use std::ffi::{OsStr, OsString};
use words::{Words, BUDGET, FORM, LEF, OUTPUT, SEED, TICKET};

pub struct Command {
    pub name: &'static str,
    /// What it does, in a line.
    pub does: &'static str,
    /// The words that it takes.
    pub takes: &'static str,
    /// What they mean, where `takes` leaves it open.
    pub notes: &'static str,
    options: &'static [&'static str],
    /// The least and the most plain words.
    plain: (usize, usize),
    run: fn(&Words) -> Result<(), Failure>,
}

impl Command {
    pub fn run(&self, words: &[OsString]) -> Result<(), Failure> {
        (self.run)(&Words::of(words, self.options, self.plain)?)
    }
}

pub const ALL: &[Command] = &[
    Command {
        name: "survey",
        does: "the figures of a ticket, as a line",
        takes: "[TICKET] [-o FILE]",
        notes: "Lengths, nets, pins, what columns and tracks must pass, the tracks or layers that lay uses, and a box's floor: no\n\
                legal wiring of it has fewer layers.",
        options: &[OUTPUT],
        plain: (0, 1),
        run: |words| written(words, format!("{}\n", survey(ticket(words.plain(0))?.bytes())?)),
    },
    Command {
        name: "edge-floor",
        does: "the two floors of a box, as a line",
        takes: "[TICKET] [-o FILE]",
        notes: "No legal wiring of the box has fewer layers than either. The edge floor counts the pins at the ends of the grid too,\n\
                and is never below the floor. Both are 0 for other kinds.",
        options: &[OUTPUT],
        plain: (0, 1),
        run: |words| {
            let floors = edge_floor(ticket(words.plain(0))?.bytes())?;
            written(words, format!("floor {} edge floor {}\n", floors.floor, floors.edge_floor))
        },
    },
    Command {
        name: "lay",
        does: "lays a ticket and writes the wiring's file",
        takes: "[TICKET] [-o WIRING]",
        notes: "",
        options: &[OUTPUT],
        plain: (0, 1),
        run: |words| {
            let wiring = Wiring::from(lay(ticket(words.plain(0))?.bytes())?);
            written(words, wiring.to_file())
        },
    },
    Command {
        name: "check",
        does: "whether a wiring is legal for a ticket, whoever drew it",
        takes: "TICKET WIRING [-o FILE]",
        notes: "One of the two may be -, standard input. A wiring is accepted exactly where it is legal.",
        options: &[OUTPUT],
        plain: (2, 2),
        run: checked,
    },
    Command {
        name: "view",
        does: "a layer of a wiring as text, track 1 at the bottom",
        takes: "LAYER [WIRING] [--ticket TICKET] [-o FILE]",
        notes: "LAYER counts from 1. With the ticket the nets are shown by their names. The wiring need not be legal.",
        options: &[OUTPUT, TICKET],
        plain: (1, 2),
        run: viewed,
    },
    Command {
        name: "draw",
        does: "a picture of the wiring that is laid, or of a file's, in SVG",
        takes: "[TICKET [WIRING]] [-o PICTURE]",
        notes: "Each layer is a panel. A wiring that is not legal is refused.",
        options: &[OUTPUT],
        plain: (0, 2),
        run: |words| with_layout(words, |layout| written(words, layout.svg())),
    },
    Command {
        name: "gds",
        does: "the wiring that is laid, or a file's, as GDSII",
        takes: "[TICKET [WIRING]] [-o FILE]",
        notes: "Point (i, j) is at (i, j) µm, and the pins are one step outside. Metal l is on layer l/0, vias between l and l + 1 are\n\
                on l/1, pins on 256/0, their nets' names on 256/10. A pin joins all metals that it overlaps: an extraction needs 256/0.\n\
                A wiring that is not legal is refused.",
        options: &[OUTPUT],
        plain: (0, 2),
        run: |words| with_layout(words, |layout| written(words, layout.gds())),
    },
    Command {
        name: "def",
        does: "the wiring that is laid, or a file's, as DEF, and its layers as LEF",
        takes: "[TICKET [WIRING]] [-o FILE] [--lef FILE]",
        notes: "Both are version 5.8. Readers of DEF need the LEF. A wiring that is not legal is refused.",
        options: &[OUTPUT, LEF],
        plain: (0, 2),
        run: |words| {
            with_layout(words, |layout| {
                words.option(LEF).map_or(Ok(()), |name| output(Some(name), layout.lef().as_bytes()))?;
                written(words, layout.def())
            })
        },
    },
    Command {
        name: "flatten",
        does: "the flat ticket of a ticket, as text",
        takes: "[TICKET] [--as text|bytes|hex] [-o FILE]",
        notes: "",
        options: &[OUTPUT, FORM],
        plain: (0, 1),
        run: |words| {
            let form = Form::of(words, Form::Text)?;
            let ticket = ticket(words.plain(0))?;
            form.write(words, &ticket, &flatten(ticket.bytes())?)
        },
    },
    Command {
        name: "unflatten",
        does: "the ticket of a flat ticket, as its bytes",
        takes: "[FLAT] [--as bytes|hex|text] [-o FILE]",
        notes: "FLAT is the flat ticket's bytes, these as hexadecimal digits, or its text.",
        options: &[OUTPUT, FORM],
        plain: (0, 1),
        run: |words| {
            let form = Form::of(words, Form::Bytes)?;
            let ticket = flat_ticket(words.plain(0))?;
            form.write(words, &ticket, ticket.bytes())
        },
    },
    Command {
        name: "hardest",
        does: "a box of a length and a width whose floor no box of that shape exceeds",
        takes: "LENGTH WIDTH [--as bytes|hex|text] [-o FILE]",
        notes: "",
        options: &[OUTPUT, FORM],
        plain: (2, 2),
        run: |words| {
            let form = Form::of(words, Form::Bytes)?;
            let ticket = Ticket::new(hardest_box(words.number(0)?, words.number(1)?)?)?;
            form.write(words, &ticket, ticket.bytes())
        },
    },
    Command {
        name: "squeeze",
        does: "searches for a wiring of a box on fewer layers than lay uses",
        takes: "[TICKET] [-o WIRING] [--budget NETS] [--seed NUMBER]",
        notes: "Progress goes to standard error, the best wiring to the file, and a line of what is known to standard output. Each\n\
                search routes at most NETS nets (20000), a net counting each time; NUMBER (1) is the seed of its random numbers.",
        options: &[OUTPUT, BUDGET, SEED],
        plain: (0, 1),
        run: squeezed,
    },
];

/// Text on standard output.
pub fn shown(text: &str) -> Result<(), Failure> {
    output(None, text.as_bytes())
}

/// Ends with these bytes in the file that is named, or on standard output.
fn written(words: &Words, bytes: impl AsRef<[u8]>) -> Result<(), Failure> {
    output(words.option(OUTPUT), bytes.as_ref())
}

/// The forms in which a ticket is written.
enum Form {
    Bytes,
    Hexadecimal,
    Text,
}

/// How many bytes a line of hexadecimal digits has.
const BYTES_OF_LINE: usize = 32;

impl Form {
    fn of(words: &Words, otherwise: Form) -> Result<Form, Failure> {
        let Some(word) = words.option(FORM) else { return Ok(otherwise) };
        match word.to_str() {
            Some("bytes") => Ok(Form::Bytes),
            Some("hex") => Ok(Form::Hexadecimal),
            Some("text") => Ok(Form::Text),
            _ => Err(Failure::Misused(format!("{FORM} is none of bytes, hex and text"))),
        }
    }

    /// Writes these bytes of a ticket, as they are or as digits, or its text.
    fn write(&self, words: &Words, ticket: &Ticket, bytes: &[u8]) -> Result<(), Failure> {
        let line = |line: &[u8]| line.iter().map(|byte| format!("{byte:02x}")).collect::<Vec<_>>().join(" ") + "\n";
        match self {
            Form::Bytes => written(words, bytes),
            Form::Hexadecimal => written(words, bytes.chunks(BYTES_OF_LINE).map(line).collect::<String>()),
            Form::Text => written(words, ticket.to_text()),
        }
    }
}

/// Of two files one at most can be standard input.
fn one_standard_input(files: [Option<&OsStr>; 2]) -> Result<(), Failure> {
    match files.map(named) {
        [None, None] => Err(Failure::Misused("only one of two files can be standard input".to_string())),
        _ => Ok(()),
    }
}

/// The ticket, with the wiring that is named or else the one that is laid.
fn with_layout(words: &Words, then: impl FnOnce(&Layout) -> Result<(), Failure>) -> Result<(), Failure> {
    let Some(file) = words.plain(1) else {
        return then(&Layout::laid(&ticket(words.plain(0))?)?);
    };
    one_standard_input([words.plain(0), Some(file)])?;
    let ticket = ticket(words.plain(0))?;
    then(&Layout::of(&ticket, wiring(Some(file))?).map_err(|refusal| Failure::of_wiring(&ticket, refusal))?)
}

fn checked(words: &Words) -> Result<(), Failure> {
    with_layout(words, |layout| written(words, format!("accepted: {}\n", layout.summary())))
}

fn viewed(words: &Words) -> Result<(), Failure> {
    let (layer, names) = (words.number(0)?, words.option(TICKET));
    if names.is_some() {
        one_standard_input([words.plain(1), names])?;
    }
    let names = names.map(|name| ticket(Some(name))).transpose()?;
    let wiring = wiring(words.plain(1))?;
    let cell = |net: &u8| match &names {
        _ if *net == 0 => ".".to_string(),
        Some(ticket) => ticket.name(*net),
        None => net.to_string(),
    };
    let cells: Vec<String> = wiring.layer(layer)?.iter().map(cell).collect();
    let width = cells.iter().map(String::len).max().unwrap_or(0);
    let track = |cells: &[String]| cells.iter().map(|cell| format!("{cell:>width$}")).collect::<Vec<_>>().join(" ") + "\n";
    written(words, cells.chunks(wiring.n).rev().map(track).collect::<String>())
}

/// The file holds the laid wiring while the search goes on: so a file that cannot be written is found at once, and one that an
/// interrupted search leaves is a legal wiring.
fn squeezed(words: &Words) -> Result<(), Failure> {
    let usual = Effort::default();
    let effort = Effort { budget: words.number_of(BUDGET, usual.budget)?, seed: words.number_of(SEED, usual.seed)? };
    let ticket = ticket(words.plain(0))?;
    let laid = Wiring::from(lay(ticket.bytes())?);
    let file = named(words.option(OUTPUT));
    file.map_or(Ok(()), |name| output(Some(name), &laid.to_file()))?;
    let mut shown = Shown::new();
    let squeezed = squeeze(ticket.bytes(), effort, &mut |p| shown.show(p))?;
    shown.give_up();
    let wiring = squeezed.wiring.to_file();
    if file.is_none() && words.option(OUTPUT).is_some() {
        told(&squeezed);
        return output(None, &wiring);
    }
    file.map_or(Ok(()), |name| output(Some(name), &wiring))?;
    output(None, format!("{squeezed}\n").as_bytes())
}
