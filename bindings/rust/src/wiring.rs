//! A wiring with its sizes, and as a file.

use crate::{check, layer_view, Laid, Refusal};
use std::fmt;

/// A wiring, legal or not.
#[derive(Clone, Debug, PartialEq, Eq)]
pub struct Wiring {
    pub n: usize,
    pub w: usize,
    pub k: usize,
    /// Whether layer 1 is horizontal.
    pub first: bool,
    /// The net or 0 at point (i, j, l), counted from 1, at ((l - 1) * w + (j - 1)) * n + i - 1.
    pub points: Vec<u8>,
}

impl From<(Laid, Vec<u8>)> for Wiring {
    fn from((laid, points): (Laid, Vec<u8>)) -> Self {
        let Laid { n, w, k, first, .. } = laid;
        Wiring { n, w, k, first, points }
    }
}

impl Wiring {
    /// Whether it is legal for the ticket. `check` does not know n, but takes the ticket's; only if it is the same a wiring that it
    /// accepts has a layer of that length.
    pub fn check(&self, ticket: &[u8]) -> Result<(), Refusal> {
        check(ticket, self.w, self.k, self.first, &self.points)?;
        self.layer(1).map(|_| ())
    }

    /// A layer, counted from 1.
    pub fn layer(&self, layer: usize) -> Result<&[u8], Refusal> {
        layer_view(&self.points, self.n, self.w, self.k, layer)
    }

    /// The first line of its file.
    fn header(&self) -> String {
        let direction = if self.first { HORIZONTAL } else { VERTICAL };
        format!("wiring length {} width {} layers {} first {direction}\n", self.n, self.w, self.k)
    }

    /// The file: a line with the sizes and the first layer's direction, and then the points, a byte each.
    pub fn to_file(&self) -> Vec<u8> {
        [self.header().as_bytes(), &self.points].concat()
    }

    /// The wiring of a file. Whether it is legal is `check`'s to say.
    pub fn from_file(file: &[u8]) -> Result<Wiring, NoWiring> {
        let end = file.iter().position(|byte| *byte == b'\n').ok_or(NoWiring::Header)?;
        let (line, points) = (&file[..end], &file[end + 1..]);
        let words: Vec<&str> = std::str::from_utf8(line).map_err(|_| NoWiring::Header)?.split(' ').collect();
        let ["wiring", "length", n, "width", w, "layers", k, "first", direction] = words[..] else {
            return Err(NoWiring::Header);
        };
        let number = |word: &str| word.parse::<usize>().map_err(|_| NoWiring::Header);
        let wiring = Wiring { n: number(n)?, w: number(w)?, k: number(k)?, first: direction == HORIZONTAL, points: points.to_vec() };
        if wiring.header().as_bytes() != &file[..end + 1] {
            return Err(NoWiring::Header);
        }
        let size = wiring.n.checked_mul(wiring.w).and_then(|size| size.checked_mul(wiring.k));
        if size != Some(points.len()) {
            return Err(NoWiring::Length { points: points.len() });
        }
        Ok(wiring)
    }
}

const HORIZONTAL: &str = "horizontal";
const VERTICAL: &str = "vertical";

/// Why a file is none of a wiring.
#[derive(Clone, Copy, Debug, PartialEq, Eq)]
pub enum NoWiring {
    Header,
    /// It has so many points, and its first line says another number.
    Length {
        points: usize,
    },
}

impl fmt::Display for NoWiring {
    fn fmt(&self, f: &mut fmt::Formatter) -> fmt::Result {
        match self {
            NoWiring::Header => write!(f, "the file does not begin with a line like 'wiring length 40 width 12 layers 9 first horizontal'"),
            NoWiring::Length { points } => write!(f, "the file has {points} points, which is not length times width times layers"),
        }
    }
}

impl std::error::Error for NoWiring {}
