//! A strict reader of LEF, of what layers and a site need; and the tokens that LEF and DEF are read by.

use crate::shapes::Place;
use std::collections::BTreeSet;

/// The words of a text, which blanks and line ends part.
pub struct Tokens<'a> {
    words: Vec<&'a str>,
    /// The next one.
    at: usize,
}

impl<'a> Tokens<'a> {
    pub fn of(text: &'a str) -> Self {
        Tokens { words: text.split_ascii_whitespace().collect(), at: 0 }
    }

    pub fn fault<T>(&self, what: &str) -> Result<T, String> {
        let before = &self.words[self.at.saturating_sub(4)..self.at];
        Err(format!("after word {} of {}, {before:?}: {what}", self.at, self.words.len()))
    }

    pub fn peek(&self) -> Option<&'a str> {
        self.words.get(self.at).copied()
    }

    pub fn word(&mut self) -> Result<&'a str, String> {
        match self.peek() {
            Some(word) => {
                self.at += 1;
                Ok(word)
            }
            None => self.fault("the text ends too soon"),
        }
    }

    /// The words that must be next.
    pub fn expect(&mut self, words: &str) -> Result<(), String> {
        for expected in words.split(' ') {
            let word = self.word()?;
            if word != expected {
                return self.fault(&format!("{expected} should be the last of these"));
            }
        }
        Ok(())
    }

    /// Whether this word is next, which it then takes.
    pub fn takes(&mut self, word: &str) -> bool {
        let is_next = self.peek() == Some(word);
        self.at += usize::from(is_next);
        is_next
    }

    pub fn end(&self) -> Result<(), String> {
        self.peek().map_or(Ok(()), |word| self.fault(&format!("{word} follows the end")))
    }

    pub fn name(&mut self) -> Result<String, String> {
        let word = self.word()?;
        if ["-", "+", "(", ")", ";"].contains(&word) || word.contains('"') {
            return self.fault("no name");
        }
        Ok(word.to_string())
    }

    pub fn integer(&mut self) -> Result<i32, String> {
        let word = self.word()?;
        match word.parse::<i32>() {
            Ok(number) if number.to_string() == word => Ok(number),
            _ => self.fault("no integer"),
        }
    }

    pub fn count(&mut self) -> Result<usize, String> {
        usize::try_from(self.integer()?).or_else(|_| self.fault("no count"))
    }

    /// A decimal number of micrometres, in nanometres.
    fn micrometres(&mut self) -> Result<i32, String> {
        const DECIMALS: usize = 3;
        let word = self.word()?;
        let (whole, decimals) = word.split_once('.').unwrap_or((word, "0"));
        let is_number = |digits: &str| !digits.is_empty() && digits.bytes().all(|byte| byte.is_ascii_digit());
        if !is_number(whole) || !is_number(decimals) || decimals.len() > DECIMALS {
            return self.fault("no number of whole nanometres");
        }
        let nanometres = format!("{whole}{decimals:0<DECIMALS$}").parse();
        nanometres.or_else(|_| self.fault("a number too large"))
    }

    /// What this keyword says.
    fn length(&mut self, keyword: &str) -> Result<i32, String> {
        self.expect(keyword)?;
        let length = self.micrometres()?;
        self.expect(";")?;
        if length == 0 {
            return self.fault("a length of nothing");
        }
        Ok(length)
    }

    pub fn place(&mut self) -> Result<Place, String> {
        self.expect("(")?;
        let place = (self.integer()?, self.integer()?);
        self.expect(")")?;
        Ok(place)
    }
}

/// Refuses a name that comes twice.
pub fn distinct<'a>(names: impl IntoIterator<Item = &'a String>) -> Result<(), String> {
    let mut known = BTreeSet::new();
    match names.into_iter().find(|name| !known.insert(*name)) {
        Some(name) => Err(format!("{name} comes twice")),
        None => Ok(()),
    }
}

/// In nanometres, as the cut.
#[derive(Debug, PartialEq, Eq)]
pub struct Metal {
    pub name: String,
    pub is_horizontal: bool,
    pub pitch: i32,
    pub width: i32,
    pub spacing: i32,
}

#[derive(Debug, PartialEq, Eq)]
pub struct Cut {
    pub name: String,
    pub width: i32,
    pub spacing: i32,
}

pub struct Site {
    pub name: String,
    /// To the east, and to the north.
    pub size: Place,
}

/// The layers from the bottom on: a cut layer between a metal and the next one.
pub struct Technology {
    pub grid: i32,
    pub metals: Vec<Metal>,
    pub cuts: Vec<Cut>,
    pub site: Site,
}

fn metal(tokens: &mut Tokens) -> Result<Metal, String> {
    tokens.expect("LAYER")?;
    let name = tokens.name()?;
    tokens.expect("TYPE ROUTING ; DIRECTION")?;
    let is_horizontal = match tokens.word()? {
        "HORIZONTAL" => true,
        "VERTICAL" => false,
        _ => return tokens.fault("no direction"),
    };
    tokens.expect(";")?;
    let (pitch, width, spacing) = (tokens.length("PITCH")?, tokens.length("WIDTH")?, tokens.length("SPACING")?);
    tokens.expect(&format!("END {name}"))?;
    Ok(Metal { name, is_horizontal, pitch, width, spacing })
}

fn cut(tokens: &mut Tokens) -> Result<Cut, String> {
    tokens.expect("LAYER")?;
    let name = tokens.name()?;
    tokens.expect("TYPE CUT ;")?;
    let (width, spacing) = (tokens.length("WIDTH")?, tokens.length("SPACING")?);
    tokens.expect(&format!("END {name}"))?;
    Ok(Cut { name, width, spacing })
}

fn site(tokens: &mut Tokens) -> Result<Site, String> {
    tokens.expect("SITE")?;
    let name = tokens.name()?;
    tokens.expect("CLASS CORE ; SIZE")?;
    let width = tokens.micrometres()?;
    let height = tokens.length("BY")?;
    tokens.expect(&format!("END {name}"))?;
    Ok(Site { name, size: (width, height) })
}

pub fn read(text: &str) -> Result<Technology, String> {
    let tokens = &mut Tokens::of(text);
    tokens.expect("VERSION 5.8 ; DIVIDERCHAR \"/\" ; BUSBITCHARS \"[]\" ; UNITS DATABASE MICRONS 1000 ; END UNITS")?;
    let grid = tokens.length("MANUFACTURINGGRID")?;
    let (mut metals, mut cuts) = (vec![metal(tokens)?], vec![]);
    while tokens.peek() == Some("LAYER") {
        cuts.push(cut(tokens)?);
        metals.push(metal(tokens)?);
    }
    let site = site(tokens)?;
    tokens.expect("END LIBRARY")?;
    tokens.end()?;
    distinct(metals.iter().map(|metal| &metal.name).chain(cuts.iter().map(|cut| &cut.name)))?;
    Ok(Technology { grid, metals, cuts, site })
}
