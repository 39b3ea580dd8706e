//! A good ticket with its nets' names, and its files: the bytes, hexadecimal digits, or text.

use crate::pins::{places, FLAT_HEADER};
use crate::{flatten, read, unflatten, Kind, Reading, Refusal, LARGEST_NET, LONGEST_FLAT};
use std::fmt;

/// A ticket that `read` accepts, with its nets' names.
#[derive(Clone, Debug, PartialEq, Eq)]
pub struct Ticket {
    bytes: Vec<u8>,
    reading: Reading,
    flat: Vec<u8>,
    /// Of the nets 1, 2, ..; none where every net's name is its number.
    names: Vec<String>,
}

/// The forms of a file, told apart by its first byte that is no blank and no line end.
enum Form {
    /// It is a digit.
    Hexadecimal,
    /// It is printed otherwise, or there is none.
    Text,
    /// It is not printed, as the kind of a ticket is not; or the file is empty.
    Bytes,
}

impl Form {
    fn of(file: &[u8]) -> Form {
        match file.iter().find(|byte| !is_blank(byte)) {
            Some(byte) if byte.is_ascii_digit() => Form::Hexadecimal,
            Some(byte) if byte.is_ascii_graphic() => Form::Text,
            None if !file.is_empty() => Form::Text,
            _ => Form::Bytes,
        }
    }
}

impl Ticket {
    /// The ticket of these bytes; its nets' names are their numbers.
    pub fn new(bytes: Vec<u8>) -> Result<Ticket, Refusal> {
        Ticket::with_names(bytes, vec![])
    }

    fn with_names(bytes: Vec<u8>, names: Vec<String>) -> Result<Ticket, Refusal> {
        Ok(Ticket { reading: read(&bytes)?, flat: flatten(&bytes)?, bytes, names })
    }

    /// The ticket of a file: the ticket's bytes, these as hexadecimal digits, or the flat ticket as text.
    pub fn from_file(file: &[u8]) -> Result<Ticket, NoTicket> {
        Ok(match Form::of(file) {
            Form::Bytes => Ticket::new(file.to_vec())?,
            Form::Hexadecimal => Ticket::new(bytes_of_digits(file)?)?,
            Form::Text => Text::of(file).ticket()?,
        })
    }

    /// The ticket of a flat ticket's file: its bytes, these as hexadecimal digits, or text.
    pub fn from_flat_file(file: &[u8]) -> Result<Ticket, NoTicket> {
        Ok(match Form::of(file) {
            Form::Bytes => Ticket::new(unflatten(file)?)?,
            Form::Hexadecimal => Ticket::new(unflatten(&bytes_of_digits(file)?)?)?,
            Form::Text => Text::of(file).ticket()?,
        })
    }

    pub fn bytes(&self) -> &[u8] {
        &self.bytes
    }

    /// The net's name, which is its number where the file gave it none.
    pub fn name(&self, net: u8) -> String {
        let given = (net as usize).checked_sub(1).and_then(|index| self.names.get(index));
        given.cloned().unwrap_or_else(|| net.to_string())
    }

    /// The flat ticket as text, which `from_file` reads as the same ticket: a line of kind and shape, and one for each side.
    pub fn to_text(&self) -> String {
        let Reading { kind, n, byte2, .. } = self.reading;
        let mut text = match kind {
            Kind::TwoLayer => format!("{} {n}\n", kind.name()),
            Kind::Row | Kind::Channel | Kind::Box => format!("{} {n} {byte2}\n", kind.name()),
        };
        let name = |net: &u8| if *net == 0 { EMPTY.to_string() } else { self.name(*net) };
        let mut names = self.flat[FLAT_HEADER..].iter().map(name);
        for places in places(kind, n, byte2).into_iter().filter(|places| *places > 0) {
            text += &(names.by_ref().take(places).collect::<Vec<_>>().join(" ") + "\n");
        }
        text
    }
}

/// A place without a pin.
const EMPTY: &str = ".";
/// The most characters of a net's name.
const LONGEST_NAME: usize = 32;
/// What a net's name may have beside letters and digits; it begins with a letter, a digit or `_`.
const MARKS: &str = "_$.:/[]<>-";

fn is_name(word: &[u8]) -> bool {
    let is_part = |byte: &u8| byte.is_ascii_alphanumeric() || MARKS.as_bytes().contains(byte);
    word.len() <= LONGEST_NAME && word.iter().all(is_part) && word.first().is_some_and(|b| b.is_ascii_alphanumeric() || *b == b'_')
}

fn is_blank(byte: &u8) -> bool {
    byte.is_ascii_whitespace()
}

/// A word of a text, on which line, counted from 1, and what stands before it there.
#[derive(Clone, Copy)]
struct Word<'a> {
    word: &'a [u8],
    line: usize,
    before: &'a [u8],
}

impl Word<'_> {
    fn position(&self) -> Position {
        let word = String::from_utf8_lossy(self.word);
        Position { line: self.line, column: column_after(self.before), word: word.chars().take(LONGEST_NAME + 1).collect() }
    }

    /// The number, or 0, which is none of a shape's.
    fn number(&self) -> u8 {
        let digits = std::str::from_utf8(self.word).ok().filter(|word| word.bytes().all(|b| b.is_ascii_digit()));
        digits.and_then(|digits| digits.parse().ok()).unwrap_or(0)
    }

    fn kind(&self) -> u8 {
        let kind = Kind::ALL.into_iter().find(|kind| kind.name().as_bytes() == self.word);
        kind.map_or(0, Kind::byte)
    }

    fn is_empty_place(&self) -> bool {
        self.word == EMPTY.as_bytes() || self.word == b"0"
    }

    /// The net whose number it is.
    fn net(&self) -> Option<u8> {
        Some(self.number()).filter(|net| (1..=LARGEST_NET).contains(net) && self.word == net.to_string().as_bytes())
    }
}

/// The words of a line; one that begins with `#` ends it.
fn words_of_line(line: usize, bytes: &[u8]) -> impl Iterator<Item = Word<'_>> {
    let mut start = 0;
    let words = bytes.split(is_blank).map(move |word| {
        let before = &bytes[..start];
        start += word.len() + 1;
        Word { word, line, before }
    });
    words.filter(|word| !word.word.is_empty()).take_while(|word| word.word[0] != b'#')
}

fn column_after(bytes: &[u8]) -> usize {
    String::from_utf8_lossy(bytes).chars().count() + 1
}

fn lines(file: &[u8]) -> impl Iterator<Item = (usize, &[u8])> {
    file.split(|byte| *byte == b'\n').enumerate().map(|(index, bytes)| (index + 1, bytes))
}

fn words(file: &[u8]) -> impl Iterator<Item = Word<'_>> {
    lines(file).flat_map(|(line, bytes)| words_of_line(line, bytes))
}

fn bytes_of_digits(file: &[u8]) -> Result<Vec<u8>, NoTicket> {
    let mut bytes = Vec::new();
    for word in words(file) {
        let digits = word.word.iter().map(|byte| (*byte as char).to_digit(16)).collect::<Option<Vec<u32>>>();
        let Some(digits) = digits.filter(|digits| digits.len() % 2 == 0) else {
            return Err(NoTicket::Hexadecimal(word.position()));
        };
        bytes.extend(digits.chunks(2).map(|pair| (pair[0] * 16 + pair[1]) as u8));
    }
    Ok(bytes)
}

/// A flat ticket as text: the words that stand for its bytes. A word that stands for none has a byte that `unflatten` refuses.
struct Text<'a> {
    flat: Vec<u8>,
    words: Vec<Word<'a>>,
    /// Where the text ends.
    end: Position,
    names: Vec<String>,
}

impl<'a> Text<'a> {
    fn of(file: &'a [u8]) -> Self {
        // One word more than a flat ticket may have is refused; what follows it is not looked at.
        let mut words: Vec<Word> = words(file).take(LONGEST_FLAT + 1).collect();
        let lacks_byte2 = matches!(words[..], [kind, n, ..] if kind.word == Kind::TwoLayer.name().as_bytes()
            && words.get(2).is_none_or(|next| next.line != n.line));
        if lacks_byte2 {
            words.insert(2, Word { word: b"1", ..words[1] });
        }
        let places = words.get(FLAT_HEADER..).unwrap_or(&[]);
        let (nets, names) = numbered(places);
        let header = words.iter().zip([Word::kind, Word::number, Word::number]);
        let flat = header.map(|(word, byte)| byte(word)).chain(nets).collect();
        let (line, bytes) = lines(file).last().unwrap_or((1, &[]));
        Text { flat, words, end: Position { line, column: column_after(bytes), word: String::new() }, names }
    }

    fn ticket(self) -> Result<Ticket, NoTicket> {
        match unflatten(&self.flat) {
            Ok(bytes) => Ok(Ticket::with_names(bytes, self.names)?),
            Err(refusal) => Err(NoTicket::Text { refusal, at: self.position(refusal) }),
        }
    }

    /// The word at fault.
    fn position(&self, refusal: Refusal) -> Position {
        let index = match refusal.number {
            Refusal::LONE_NET => (FLAT_HEADER..self.flat.len()).find(|index| self.flat[*index] as usize == refusal.place),
            _ => Some(refusal.place),
        };
        index.and_then(|index| self.words.get(index)).map_or(self.end.clone(), Word::position)
    }
}

/// A net's number, or 0, for each word, and the names in the order of their numbers. Where all names are numbers of nets these are
/// their own and there are no names; otherwise names are numbered in order of appearance. What is no name has a byte that is no net's.
fn numbered(places: &[Word]) -> (Vec<u8>, Vec<String>) {
    let has_name = |word: &&Word| !word.is_empty_place() && is_name(word.word);
    let are_numbers = places.iter().filter(has_name).all(|word| word.net().is_some());
    let mut names: Vec<String> = Vec::new();
    let nets = places.iter().map(|word| match std::str::from_utf8(word.word) {
        _ if word.is_empty_place() => 0,
        Ok(name) if is_name(name.as_bytes()) => match word.net() {
            Some(net) if are_numbers => net,
            _ => number_of(name, &mut names),
        },
        _ => u8::MAX,
    });
    (nets.collect(), names)
}

/// The name's number. A new name has the next one; after the largest that a net may have, one more, which is refused.
fn number_of(name: &str, names: &mut Vec<String>) -> u8 {
    let index = names.iter().position(|known| known == name).unwrap_or(names.len());
    if index == names.len() && index < LARGEST_NET as usize {
        names.push(name.to_string());
    }
    index as u8 + 1
}

/// A word of a file, cut to a few characters; it is empty where the file ends.
#[derive(Clone, Debug, PartialEq, Eq)]
pub struct Position {
    /// Counted from 1, as the column.
    pub line: usize,
    pub column: usize,
    pub word: String,
}

impl fmt::Display for Position {
    fn fmt(&self, f: &mut fmt::Formatter) -> fmt::Result {
        write!(f, "line {}, column {}", self.line, self.column)
    }
}

/// Why a file is none of a good ticket.
#[derive(Clone, Debug, PartialEq, Eq)]
pub enum NoTicket {
    /// Of bytes: the refusal of `read`, or of `unflatten` for a flat ticket's.
    Refused(Refusal),
    /// Of text: the refusal of `unflatten`, and the word at fault.
    Text { refusal: Refusal, at: Position },
    /// A word that is no pairs of hexadecimal digits.
    Hexadecimal(Position),
}

impl From<Refusal> for NoTicket {
    fn from(refusal: Refusal) -> Self {
        NoTicket::Refused(refusal)
    }
}

/// What a text's word should be, where the refusal's own words do not say it.
fn advice(refusal: Refusal, word: &str) -> String {
    match refusal.number {
        _ if word.is_empty() => "the text ends here".to_string(),
        Refusal::NO_KIND => format!("{word:?} is none of {}", Kind::ALL.map(Kind::name).join(", ")),
        Refusal::NO_NET if is_name(word.as_bytes()) => format!("{word:?} is the name of one net more than {LARGEST_NET}"),
        Refusal::NO_NET => {
            format!("{word:?} is no net's name: at most {LONGEST_NAME} letters, digits and {MARKS}, a letter, a digit or _ first")
        }
        _ => format!("{word:?}"),
    }
}

impl fmt::Display for NoTicket {
    fn fmt(&self, f: &mut fmt::Formatter) -> fmt::Result {
        match self {
            NoTicket::Refused(refusal) => refusal.fmt(f),
            NoTicket::Text { refusal, at } => write!(f, "{refusal}; {at}: {}", advice(*refusal, &at.word)),
            NoTicket::Hexadecimal(at) => write!(f, "no ticket: {at}: {:?} is no pairs of hexadecimal digits", at.word),
        }
    }
}

impl std::error::Error for NoTicket {}
