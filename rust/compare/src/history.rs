//! A history: how a chip begins, and what is done to it, as text that can be replayed.
use doqtarbu::{Call, EVENT_WORDS};
use std::fmt;

/// How a chip begins. Random contents come from their seed, so that a line of text tells all.
#[derive(Clone, Copy, Debug, PartialEq, Eq)]
pub enum Start {
    /// Every byte of the firmware this one.
    Fill(u8),
    /// Random firmware.
    Random(u64),
    /// A random accepted snapshot.
    Restored(u64),
}

/// One thing that is done, at an instant in raw units.
#[derive(Clone, Debug, PartialEq, Eq)]
pub struct Step {
    pub at: u128,
    pub what: What,
}

#[derive(Clone, Debug, PartialEq, Eq)]
pub enum What {
    /// A call, lent so many event words.
    Call(Call, usize),
    /// Every look: at this address, this bit.
    Look(u16, u8),
    /// The chip's own snapshot is read back, with some bytes set to others, and then cut by so many
    /// bytes, or lengthened where the number is below 0.
    Restore(Vec<(usize, u8)>, i64),
}

#[derive(Clone, Debug, PartialEq, Eq)]
pub struct History {
    pub start: Start,
    pub steps: Vec<Step>,
}

impl fmt::Display for History {
    fn fmt(&self, f: &mut fmt::Formatter<'_>) -> fmt::Result {
        match self.start {
            Start::Fill(byte) => writeln!(f, "start fill {byte:02X}")?,
            Start::Random(seed) => writeln!(f, "start random {seed}")?,
            Start::Restored(seed) => writeln!(f, "start restored {seed}")?,
        }
        self.steps.iter().try_for_each(|step| writeln!(f, "{step}"))
    }
}

impl fmt::Display for Step {
    fn fmt(&self, f: &mut fmt::Formatter<'_>) -> fmt::Result {
        write!(f, "{}:{} ", self.at >> 64, self.at as u64)?;
        match &self.what {
            What::Call(call, room) => {
                match call {
                    Call::WriteRegister { address, value } => {
                        write!(f, "write-register {address:04X} {value:02X}")
                    }
                    Call::Write8 { address, value } => {
                        write!(f, "write8 {address:04X} {value:02X}")
                    }
                    Call::Read8 { address } => write!(f, "read8 {address:04X}"),
                    Call::Read16 { address } => write!(f, "read16 {address:04X}"),
                    Call::Protect => write!(f, "protect"),
                    Call::Reset => write!(f, "reset"),
                    Call::PowerOff => write!(f, "power-off"),
                    Call::Environment { mode, module, oscillator } => {
                        write!(f, "environment {mode} {} {}", *module as u8, *oscillator as u8)
                    }
                }?;
                if *room == EVENT_WORDS {
                    return Ok(());
                }
                write!(f, " room {room}")
            }
            What::Look(address, bit) => write!(f, "look {address:04X} {bit}"),
            What::Restore(changes, cut) => {
                write!(f, "restore {cut}")?;
                changes.iter().try_for_each(|(at, byte)| write!(f, " {at}={byte:02X}"))
            }
        }
    }
}

impl History {
    /// Reads what `Display` writes. The error names the line.
    pub fn parse(text: &str) -> Result<History, String> {
        let lines = text.lines().enumerate().map(|(i, line)| (i + 1, line.trim()));
        let mut lines = lines.filter(|(_, line)| !line.is_empty() && !line.starts_with('#'));
        let (n, first) = lines.next().ok_or("the file has no line")?;
        let words: Vec<&str> = first.split_whitespace().collect();
        let start = match words[..] {
            ["start", "fill", byte] => u8::from_str_radix(byte, 16).ok().map(Start::Fill),
            ["start", "random", seed] => seed.parse().ok().map(Start::Random),
            ["start", "restored", seed] => seed.parse().ok().map(Start::Restored),
            _ => None,
        };
        let wrong = |n, line| format!("line {n}: not understood: {line}");
        let start = start.ok_or_else(|| wrong(n, first))?;
        let steps: Result<_, String> =
            lines.map(|(n, line)| step(line).ok_or_else(|| wrong(n, line))).collect();
        Ok(History { start, steps: steps? })
    }
}

fn step(line: &str) -> Option<Step> {
    let hex16 = |text: &str| u16::from_str_radix(text, 16).ok();
    let hex8 = |text: &str| u8::from_str_radix(text, 16).ok();
    let flag = |text| match text {
        "0" => Some(false),
        "1" => Some(true),
        _ => None,
    };
    let mut words: Vec<&str> = line.split_whitespace().collect();
    let (seconds, fraction) = words.first()?.split_once(':')?;
    let at =
        u128::from(seconds.parse::<u64>().ok()?) << 64 | u128::from(fraction.parse::<u64>().ok()?);
    let mut room = EVENT_WORDS;
    if let [.., "room", n] = words[..] {
        room = n.parse().ok()?;
        words.truncate(words.len() - 2);
    }
    let call = match words[1..] {
        ["write-register", a, v] => Call::WriteRegister { address: hex16(a)?, value: hex8(v)? },
        ["write8", a, v] => Call::Write8 { address: hex16(a)?, value: hex8(v)? },
        ["read8", a] => Call::Read8 { address: hex16(a)? },
        ["read16", a] => Call::Read16 { address: hex16(a)? },
        ["protect"] => Call::Protect,
        ["reset"] => Call::Reset,
        ["power-off"] => Call::PowerOff,
        ["environment", mode, module, oscillator] => Call::Environment {
            mode: mode.parse().ok()?,
            module: flag(module)?,
            oscillator: flag(oscillator)?,
        },
        ["look", a, bit] => {
            return Some(Step { at, what: What::Look(hex16(a)?, bit.parse().ok()?) })
        }
        ["restore", cut, ..] => {
            let change = |word: &&str| {
                let (place, byte) = word.split_once('=')?;
                Some((place.parse().ok()?, hex8(byte)?))
            };
            let changes: Option<Vec<_>> = words[3..].iter().map(change).collect();
            return Some(Step { at, what: What::Restore(changes?, cut.parse().ok()?) });
        }
        _ => return None,
    };
    Some(Step { at, what: What::Call(call, room) })
}

#[cfg(test)]
mod tests {
    use super::*;

    #[test]
    fn text_reads_back() {
        let calls = [
            Call::WriteRegister { address: 0xf020, value: 0x51 },
            Call::Write8 { address: 0x80, value: 0 },
            Call::Read8 { address: 0xbfff },
            Call::Read16 { address: 0xbffe },
            Call::Protect,
            Call::Reset,
            Call::PowerOff,
            Call::Environment { mode: 6, module: true, oscillator: false },
        ];
        let step = |what| Step { at: 5 << 64 | 7, what };
        let mut steps: Vec<Step> =
            calls.iter().map(|call| step(What::Call(*call, EVENT_WORDS))).collect();
        steps.push(step(What::Call(Call::Reset, 128)));
        steps.push(step(What::Look(0xc000, 8)));
        steps.push(step(What::Restore(vec![(49_156, 0x40), (1, 2)], -3)));
        for start in [Start::Fill(0xfe), Start::Random(3), Start::Restored(u64::MAX)] {
            let history = History { start, steps: steps.clone() };
            assert_eq!(History::parse(&history.to_string()), Ok(history));
        }
        assert!(History::parse("start fill FF\n0:0 read8 G000").unwrap_err().contains("line 2"));
    }
}
