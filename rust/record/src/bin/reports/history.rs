//! A history's lines, read by `docs/HISTORY-FORMAT.md`: the reader of the proved program has no part in it. A line is judged from left to
//! right, and its first mistake is the one that counts.
use crate::mistake::{Mistake, Reason};
use crate::moment;
use crate::registers::{byte, digit, hexadecimal, register, value};
use record::call::Call;

const LONGEST: usize = 1_000;
const LAST: u16 = 0xbfff;
/// In the order of document 01's numbers.
const MODES: [&str; 6] = ["ACTIVE", "SUBACTIVE", "SLEEP", "SUBSLEEP", "WATCH", "STANDBY"];

#[derive(Clone, Copy, Debug, PartialEq, Eq)]
pub enum What {
    Call(Call),
    LookAll,
    LookByte(u16),
    LookCell(u16, u8),
}

#[derive(Clone, Copy, Debug, PartialEq, Eq)]
pub struct Line {
    pub at: u128,
    pub what: What,
}

/// Bytes that are no UTF-8 are replaced, which no example needs.
struct Word {
    column: usize,
    written: String,
}

/// The words of a line, without its comment.
struct Words {
    /// From the last to the first.
    left: Vec<Word>,
    end: usize,
}

impl Words {
    fn of(line: &[u8]) -> Self {
        let end = line.iter().position(|byte| *byte == b'#').unwrap_or(line.len());
        let mut left = Vec::new();
        let mut column = 1;
        for word in line[..end].split(|byte| matches!(byte, b' ' | b'\t' | b'\r')) {
            if !word.is_empty() {
                left.push(Word { column, written: String::from_utf8_lossy(word).into_owned() });
            }
            column += word.len() + 1;
        }
        left.reverse();
        Self { left, end }
    }

    /// What the next word says, judged in capitals, for case never matters.
    fn judged<T>(
        &mut self,
        wanted: Reason,
        read: impl FnOnce(&str) -> Result<T, Reason>,
    ) -> Result<T, Mistake> {
        let Some(Word { column, written }) = self.left.pop() else {
            return Err(Mistake { column: self.end + 1, word: String::new(), reason: wanted });
        };
        let said = read(&written.to_ascii_uppercase());
        said.map_err(|reason| Mistake { column, word: written, reason })
    }

    /// The next word, where only one thing can be wrong with it.
    fn get<T>(&mut self, wanted: Reason, read: fn(&str) -> Option<T>) -> Result<T, Mistake> {
        self.judged(wanted, |text| read(text).ok_or(wanted))
    }

    /// An address of the flash, at most this one.
    fn address(&mut self, last: u16, past: Reason) -> Result<u16, Mistake> {
        self.judged(Reason::NoAddress, |text| match hexadecimal(text, 4) {
            None => Err(Reason::NoAddress),
            Some(address) if address > last => Err(past),
            Some(address) => Ok(address),
        })
    }

    fn byte_address(&mut self) -> Result<u16, Mistake> {
        self.address(LAST, Reason::PastTheEnd)
    }

    fn word_address(&mut self) -> Result<u16, Mistake> {
        self.address(LAST - 1, Reason::WordPastTheEnd)
    }

    fn register_write(&mut self) -> Result<Call, Mistake> {
        let address = self.get(Reason::NoRegister, register)?;
        let value = self.judged(Reason::NoValue, |text| value(address, text))?;
        Ok(Call::WriteRegister(address, value))
    }

    fn data_write(&mut self) -> Result<Call, Mistake> {
        Ok(Call::Write8(self.byte_address()?, self.get(Reason::NoByte, byte)?))
    }

    fn environment(&mut self) -> Result<Call, Mistake> {
        let mode = |text: &str| MODES.iter().position(|mode| *mode == text);
        let number = self.get(Reason::NoMode, mode)? as u8;
        let module = self.get(Reason::NoModule, |text| flag(text, "MODULE"))?;
        let oscillator = self.get(Reason::NoOscillator, |text| flag(text, "OSCILLATOR"))?;
        Ok(Call::Environment(number, module, oscillator))
    }

    fn look(&mut self) -> Result<What, Mistake> {
        if self.left.is_empty() {
            return Ok(What::LookAll);
        }
        let address = self.byte_address()?;
        if self.left.is_empty() {
            return Ok(What::LookByte(address));
        }
        let bit = self.get(Reason::NoBitNumber, |text| digit(text, 8))?;
        Ok(What::LookCell(address, bit))
    }

    /// Nothing may follow.
    fn end(&mut self) -> Result<(), Mistake> {
        if self.left.is_empty() {
            return Ok(());
        }
        self.judged(Reason::MoreWords, |_| Err(Reason::MoreWords))
    }
}

/// What reads the words after the name of a call.
type Rest = fn(&mut Words) -> Result<What, Mistake>;

fn rest(name: &str) -> Result<Rest, Reason> {
    Ok(match name {
        "WRITE" => |words| words.register_write().map(What::Call),
        "DATA" => |words| words.data_write().map(What::Call),
        "READ" => |words| Ok(What::Call(Call::Read8(words.byte_address()?))),
        "WORD" => |words| Ok(What::Call(Call::Read16(words.word_address()?))),
        "PROTECT" => |_| Ok(What::Call(Call::Protect)),
        "RESET" => |_| Ok(What::Call(Call::Reset)),
        "POWER-OFF" => |_| Ok(What::Call(Call::PowerOff)),
        "ENVIRONMENT" => |words| words.environment().map(What::Call),
        "LOOK" => Words::look,
        _ => return Err(Reason::UnknownCall),
    })
}

/// Whether it is there, or `NO-` it.
fn flag(text: &str, name: &str) -> Option<bool> {
    match text.strip_prefix("NO-") {
        Some(rest) => (rest == name).then_some(false),
        None => (text == name).then_some(true),
    }
}

/// The lines of a file: a last one without a line feed counts, and none begins after the last line feed.
pub fn lines(file: &[u8]) -> impl Iterator<Item = &[u8]> {
    let all = file.split_inclusive(|byte| *byte == b'\n');
    all.map(|line| line.strip_suffix(b"\n").unwrap_or(line))
}

/// What lines leave to the next one: the time from which a `+` counts.
#[derive(Default)]
pub struct Reader {
    before: Option<u128>,
}

impl Reader {
    fn time(&self, text: &str) -> Result<u128, Reason> {
        let Some(wait) = text.strip_prefix('+') else {
            return moment::read(text);
        };
        let before = self.before.ok_or(Reason::NoTimeBefore)?;
        before.checked_add(moment::read(wait)?).ok_or(Reason::PastTheLastInstant)
    }

    /// What a line says, or nothing if it is empty. Its time is kept even if the rest is none of the format.
    pub fn line(&mut self, line: &[u8]) -> Result<Option<Line>, Mistake> {
        if line.len() > LONGEST {
            return Err(Mistake { column: 1, word: String::new(), reason: Reason::TooLong });
        }
        let mut words = Words::of(line);
        if words.left.is_empty() {
            return Ok(None);
        }
        let at = words.judged(Reason::NoTime, |text| self.time(text))?;
        self.before = Some(at);
        let rest = words.judged(Reason::NoCall, rest)?;
        let what = rest(&mut words)?;
        words.end()?;
        Ok(Some(Line { at, what }))
    }
}
