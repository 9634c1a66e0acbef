//! Hexadecimal numbers, and the names that stand for them: registers and their bits. Texts are in capitals.
use crate::mistake::Reason;

struct Register {
    name: &'static str,
    address: u16,
    bits: &'static [(&'static str, u8)],
}

const REGISTERS: [Register; 5] = [
    Register {
        name: "FLMCR1",
        address: 0xf020,
        bits: &[
            ("SWE", 0x40),
            ("ESU", 0x20),
            ("PSU", 0x10),
            ("EV", 0x08),
            ("PV", 0x04),
            ("E", 0x02),
            ("P", 0x01),
        ],
    },
    Register { name: "FLMCR2", address: 0xf021, bits: &[("FLER", 0x80)] },
    Register { name: "FLPWCR", address: 0xf022, bits: &[("PDWND", 0x80)] },
    Register {
        name: "EBR1",
        address: 0xf023,
        bits: &[
            ("EB0", 0x01),
            ("EB1", 0x02),
            ("EB2", 0x04),
            ("EB3", 0x08),
            ("EB4", 0x10),
            ("EB5", 0x20),
        ],
    },
    Register { name: "FENR", address: 0xf02b, bits: &[("FLSHE", 0x80)] },
];

/// So many hexadecimal digits and nothing else.
pub fn hexadecimal(text: &str, digits: usize) -> Option<u16> {
    let all = text.len() == digits && text.bytes().all(|byte| byte.is_ascii_hexdigit());
    all.then(|| u16::from_str_radix(text, 16).ok())?
}

pub fn byte(text: &str) -> Option<u8> {
    hexadecimal(text, 2).map(|value| value as u8)
}

/// The address of a register: its name's, or any.
pub fn register(text: &str) -> Option<u16> {
    let named = REGISTERS.iter().find(|register| register.name == text);
    named.map(|register| register.address).or_else(|| hexadecimal(text, 4))
}

/// One decimal digit below the count.
pub fn digit(text: &str, count: u8) -> Option<u8> {
    match text.as_bytes() {
        [byte] => byte.checked_sub(b'0').filter(|digit| *digit < count),
        _ => None,
    }
}

/// Two digits, or names of the register's bits, none twice: the first name that is none of them, or stands there again, decides.
pub fn value(address: u16, text: &str) -> Result<u8, Reason> {
    if let Some(value) = byte(text) {
        return Ok(value);
    }
    let register = REGISTERS.iter().find(|register| register.address == address);
    let bits = register.map_or(&[][..], |register| register.bits);
    text.split('+').try_fold(0, |value, name| {
        let named = bits.iter().find(|(bit, _)| *bit == name);
        match named.ok_or(Reason::NoValue)?.1 {
            bit if value & bit != 0 => Err(Reason::BitTwice),
            bit => Ok(value | bit),
        }
    })
}
