//! The options of `wipe` that the runs use, and why a run has no report.
use crate::moment;
use crate::registers::{digit, hexadecimal};
use record::call::{ARRAY, BLOCKS};

#[derive(Default)]
pub struct Options<'a> {
    pub events: bool,
    pub map: bool,
    pub go_on: bool,
    pub at: Option<u128>,
    /// The first and the last address that are judged, in whole pages.
    pub judged: Option<(u16, u16)>,
    pub image: Option<&'a str>,
    pub restore: Option<&'a str>,
    pub snapshot: Option<&'a str>,
    pub picture: Option<&'a str>,
    pub history: &'a str,
}

#[derive(Debug, PartialEq, Eq)]
pub enum Trouble<'a> {
    NoBlock(&'a str),
    NoAddress(&'a str),
    /// Of a stretch of the flash.
    OneEnd,
    NoOption(&'a str),
    SecondHistory(&'a str),
    NoHistory,
    NotOpened(&'a str),
    NotWritten(&'a str),
    /// And how many bytes it has.
    NoImage(&'a str, usize),
}

fn address(text: &str) -> Result<u16, Trouble<'_>> {
    let address = hexadecimal(text, 4).filter(|address| usize::from(*address) < ARRAY);
    address.ok_or(Trouble::NoAddress(text))
}

/// The first and the last address of a block.
fn block(text: &str) -> Result<(u16, u16), Trouble<'_>> {
    let number = digit(text, BLOCKS.len() as u8).ok_or(Trouble::NoBlock(text))?;
    let (_, first, end) = BLOCKS[usize::from(number)];
    Ok((first, end - 1))
}

impl<'a> Options<'a> {
    /// No run leaves out what an option wants, nor has an `--at` that is no time: that would be the list's mistake.
    pub fn of(run: &'a str) -> Result<Self, Trouble<'a>> {
        let mut options = Self::default();
        let mut words = run.split_whitespace();
        let (mut from, mut to) = (None, None);
        while let Some(word) = words.next() {
            let mut argument = || words.next().expect(run);
            match word {
                "--events" => options.events = true,
                "--map" => options.map = true,
                "--go-on" => options.go_on = true,
                "--at" => options.at = Some(moment::read(argument()).expect(run)),
                "--from" => from = Some(address(argument())?),
                "--to" => to = Some(address(argument())?),
                "--block" => {
                    let (first, last) = block(argument())?;
                    (from, to) = (Some(first), Some(last));
                }
                "--image" => options.image = Some(argument()),
                "--restore" => options.restore = Some(argument()),
                "--snapshot" => options.snapshot = Some(argument()),
                "--picture" => options.picture = Some(argument()),
                _ if word.starts_with("--") => return Err(Trouble::NoOption(word)),
                _ if !options.history.is_empty() => return Err(Trouble::SecondHistory(word)),
                _ => options.history = word,
            }
        }
        if from.is_some() != to.is_some() {
            return Err(Trouble::OneEnd);
        }
        if options.history.is_empty() {
            return Err(Trouble::NoHistory);
        }
        options.judged = from.zip(to).map(|(from, to)| (from & !127, to | 127));
        Ok(options)
    }
}
