//! The words after a command's name: names of files and numbers, and options, each with a value.

use super::Failure;
use std::ffi::{OsStr, OsString};
use std::str::FromStr;

pub const OUTPUT: &str = "-o";
pub const FORM: &str = "--as";
pub const LEF: &str = "--lef";
pub const TICKET: &str = "--ticket";
pub const BUDGET: &str = "--budget";
pub const SEED: &str = "--seed";

pub struct Words {
    plain: Vec<OsString>,
    options: Vec<(&'static str, OsString)>,
}

/// The option that a word begins, and the value that it has after `=`.
fn option<'a>(word: &'a str, options: &[&'static str]) -> Result<(&'static str, Option<&'a str>), Failure> {
    let (name, value) = match word.split_once('=') {
        Some((name, value)) => (name, Some(value)),
        None => (word, None),
    };
    let name = if name == "--output" { OUTPUT } else { name };
    let known = options.iter().find(|option| **option == name);
    known.map(|option| (*option, value)).ok_or_else(|| Failure::Misused(format!("there is no option {word}")))
}

impl Words {
    /// The words, where these are the options, and at least and at most so many are plain words. After `--` all are.
    pub fn of(words: &[OsString], options: &[&'static str], (least, most): (usize, usize)) -> Result<Self, Failure> {
        let mut out = Words { plain: vec![], options: vec![] };
        let mut words = words.iter();
        while let Some(word) = words.next() {
            match word.to_str() {
                Some("--") => out.plain.extend(words.by_ref().cloned()),
                Some(text) if text.len() > 1 && text.starts_with('-') => {
                    let (name, value) = option(text, options)?;
                    let value = value.map(OsString::from).or_else(|| words.next().cloned());
                    out.add(name, value.ok_or_else(|| Failure::Misused(format!("{name} has no value")))?)?;
                }
                _ => out.plain.push(word.clone()),
            }
        }
        if !(least..=most).contains(&out.plain.len()) {
            let few = if out.plain.len() < least { "few" } else { "many" };
            return Err(Failure::Misused(format!("there are too {few} words")));
        }
        Ok(out)
    }

    fn add(&mut self, name: &'static str, value: OsString) -> Result<(), Failure> {
        if self.option(name).is_some() {
            return Err(Failure::Misused(format!("{name} is there twice")));
        }
        self.options.push((name, value));
        Ok(())
    }

    pub fn plain(&self, index: usize) -> Option<&OsStr> {
        self.plain.get(index).map(OsString::as_os_str)
    }

    pub fn option(&self, name: &str) -> Option<&OsStr> {
        self.options.iter().find(|(known, _)| *known == name).map(|(_, value)| value.as_os_str())
    }

    /// The number that a plain word is.
    pub fn number(&self, index: usize) -> Result<usize, Failure> {
        parsed(self.plain(index).unwrap_or_default())
    }

    /// The number that an option has, or another one where it is not there.
    pub fn number_of<T: FromStr>(&self, name: &str, otherwise: T) -> Result<T, Failure> {
        self.option(name).map_or(Ok(otherwise), parsed)
    }
}

fn parsed<T: FromStr>(word: &OsStr) -> Result<T, Failure> {
    let number = word.to_str().and_then(|word| word.parse().ok());
    number.ok_or_else(|| Failure::Misused(format!("{} is no number that can be used here", word.display())))
}
