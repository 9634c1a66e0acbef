//! Everything that is printed, in words. A sentence ends its line.
use crate::mistake::{Mistake, Reason};
use crate::moment;
use crate::options::Trouble;
use record::call::ARRAY;
use record::snapshot::FULL;

pub const PAGES: usize = 384;

pub fn command(run: &str) -> String {
    format!("{}\n", format!("$ wipe {run}").trim_end())
}

pub fn byte_becomes(at: u128, address: u16, value: u8) -> String {
    format!("at {}: byte {address:04X} becomes {value:02X}\n", moment::written(at))
}

pub fn pulse_ends(at: u128, first: u16, last: u16, completed: bool) -> String {
    let how = if completed { "completed" } else { "interrupted" };
    format!("at {}: the pulse over {first:04X} to {last:04X} is {how}\n", moment::written(at))
}

pub fn byte_read(line: usize, address: u16, value: u16) -> String {
    format!("line {line}: the read of {address:04X} gives {value:02X}\n")
}

pub fn word_read(line: usize, address: u16, value: u16) -> String {
    format!("line {line}: the word at {address:04X} is {value:04X}\n")
}

pub fn byte_seen(line: usize, address: u16, value: u8, blank: bool) -> String {
    let page = if blank { "blank" } else { "legible" };
    format!("line {line}: {address:04X} reads {value:02X}, its page is {page}\n")
}

pub fn charge_seen(line: usize, address: u16, bit: u8, charge: u64) -> String {
    format!("line {line}: the cell at {address:04X} bit {bit} holds {charge} of {FULL}\n")
}

pub fn pages_seen(line: usize, legible: usize) -> String {
    match legible {
        0 => format!("line {line}: every page is blank\n"),
        _ => format!("line {line}: {legible} of {PAGES} pages are legible\n"),
    }
}

/// What is wrong with a word, `@`.
fn wrong(reason: Reason) -> &'static str {
    match reason {
        Reason::TooLong => "the line is longer than 1,000 bytes",
        Reason::NoTime => {
            "@ is no time: write seconds (12 or 12.000050), SECONDS:FRACTION, or + and a length"
        }
        Reason::TooManyDecimals => {
            "@ has more than six decimals; for a finer time write SECONDS:FRACTION"
        }
        Reason::TooLarge => "@ has a number over 18446744073709551615",
        Reason::NoTimeBefore => "@ counts from the line before, and no line before has a time",
        Reason::PastTheLastInstant => "@ leads past the last time that there is",
        Reason::NoCall | Reason::UnknownCall => {
            "@ is no call: write, data, read, word, protect, reset, power-off, environment or look"
        }
        Reason::MoreWords => "@ is a word too many",
        Reason::NoRegister => {
            "@ is no register: FLMCR1, FLMCR2, FLPWCR, EBR1, FENR or four hexadecimal digits"
        }
        Reason::NoValue => {
            "@ is neither two hexadecimal digits nor bits of this register joined by +"
        }
        Reason::BitTwice => "@ names a bit twice",
        Reason::NoAddress => "@ is no address: four hexadecimal digits",
        Reason::PastTheEnd => "address @ is past the end of the flash",
        Reason::WordPastTheEnd => "a word at @ reaches past the end of the flash",
        Reason::NoByte => "@ is no byte: two hexadecimal digits",
        Reason::NoMode => "@ is no mode: active, subactive, sleep, subsleep, watch or standby",
        Reason::NoModule => "@ is neither module nor no-module",
        Reason::NoOscillator => "@ is neither oscillator nor no-oscillator",
        Reason::NoBitNumber => "@ is no bit: 0 to 7",
    }
}

/// What is missing, where the line ends too early.
fn missing(reason: Reason) -> &'static str {
    match reason {
        Reason::TooLong => wrong(reason),
        Reason::NoCall => {
            "after the time a call is missing: \
             write, data, read, word, protect, reset, power-off, environment or look"
        }
        Reason::NoRegister => {
            "a register is missing: FLMCR1, FLMCR2, FLPWCR, EBR1, FENR or four hexadecimal digits"
        }
        Reason::NoValue => "a value is missing: two hexadecimal digits, or bits joined by +",
        Reason::NoAddress => "an address is missing: four hexadecimal digits",
        Reason::NoByte => "a byte is missing: two hexadecimal digits",
        Reason::NoMode => "a mode is missing: active, subactive, sleep, subsleep, watch or standby",
        Reason::NoModule => "a word is missing: module or no-module",
        Reason::NoOscillator => "a word is missing: oscillator or no-oscillator",
        _ => unreachable!("a line without these words is no mistake"),
    }
}

pub fn mistaken(line: usize, mistake: &Mistake, goes_on: bool) -> String {
    let sentence = match mistake.word.as_str() {
        "" => missing(mistake.reason).to_string(),
        word => wrong(mistake.reason).replace('@', word),
    };
    let end = if goes_on { "; the line is left out" } else { "" };
    format!("line {line}, column {}: {sentence}{end}\n", mistake.column)
}

/// Why a run has no report.
pub fn trouble(trouble: &Trouble) -> String {
    let words = match trouble {
        Trouble::NoBlock(word) => format!("{word} is not a block: 0 to 5"),
        Trouble::NoAddress(word) => {
            format!("{word} is no address: four hexadecimal digits below C000")
        }
        Trouble::OneEnd => "--from and --to want each other".to_string(),
        Trouble::NoOption(word) => format!("there is no option {word} (see wipe --help)"),
        Trouble::SecondHistory(word) => format!("more than one history is named: {word}"),
        Trouble::NoHistory => "no history is named (see wipe --help)".to_string(),
        Trouble::NotOpened(name) => format!("{name} could not be opened"),
        Trouble::NotWritten(name) => format!("{name} could not be written"),
        Trouble::NoImage(name, bytes) => format!("{name} has {bytes} bytes; an image has {ARRAY}"),
    };
    format!("wipe: {words}\n")
}

/// Document 01's words for the two refusals of a time.
fn refusal(number: u8) -> &'static str {
    match number {
        5 => "whole seconds 2^64-1",
        6 => "before the last settling",
        _ => unreachable!("times have no other refusal"),
    }
}

pub fn call_refused(line: usize, number: u8) -> String {
    format!("line {line}: the call is refused, {number}: {}\n", refusal(number))
}

pub fn look_refused(line: usize, number: u8) -> String {
    format!("line {line}: the look is refused, {number}: {}\n", refusal(number))
}

pub fn report_refused(number: u8) -> String {
    format!("wipe: the flash can't be looked at then, refused by {number}: {}\n", refusal(number))
}

pub fn calls_made(calls: usize) -> String {
    format!("calls made: {calls}\n")
}

pub fn calls_refused(calls: usize) -> String {
    format!("calls refused: {calls}\n")
}

pub fn lines_left_out(lines: usize) -> String {
    format!("lines left out: {lines}\n")
}

pub fn block_pulses(block: usize, completed: usize, interrupted: usize) -> String {
    format!("block {block}: pulses completed {completed}, interrupted {interrupted}\n")
}

pub fn block_pages(block: usize, first: u16, last: u16, blank: usize, legible: usize) -> String {
    format!("block {block}, {first:04X} to {last:04X}: {blank} pages blank, {legible} legible\n")
}

pub fn legible_page(page: u16) -> String {
    format!("legible: page {page:04X}\n")
}

pub fn map_heading() -> String {
    "map: . blank, + reads FF with charge left, # legible\n".to_string()
}

pub fn map_row(page: u16, signs: &str) -> String {
    format!("{page:04X} {signs}\n")
}

/// What the map shows of a page.
pub fn map_sign(blank: bool, charged: bool) -> char {
    match (blank, charged) {
        (true, false) => '.',
        (true, true) => '+',
        (false, _) => '#',
    }
}

pub fn only_judged(first: u16, last: u16) -> String {
    format!("only {first:04X} to {last:04X} is judged\n")
}

pub fn verdict(legible: usize) -> String {
    match legible {
        0 => "verdict: blank\n".to_string(),
        _ => format!("verdict: legible, {legible} pages\n"),
    }
}

/// What is told of a picture's file, which begins with 15 bytes of its own.
pub fn picture(name: &str, pixels: &[u8]) -> String {
    let bytes = 15 + pixels.len();
    let bright = pixels.iter().filter(|pixel| **pixel != 0).count();
    let sum: u64 = pixels.iter().map(|pixel| u64::from(*pixel)).sum();
    format!("{name}: {bytes} bytes, {bright} pixels not black, sum {sum}\n")
}
