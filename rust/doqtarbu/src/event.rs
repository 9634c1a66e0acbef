/// What a call did to the cells, in the order in which it happened.
#[derive(Clone, Copy, Debug, PartialEq, Eq)]
pub enum Event {
    /// A byte of the array changed to this value.
    Byte {
        /// Where it stands.
        address: u16,
        /// What it reads now.
        value: u8,
    },
    /// A pulse ended as the manual wants it: P or E was dropped, and its setup bit kept.
    Completed {
        /// The first address of the pulse's range.
        address: u16,
        /// The bytes of the range.
        length: u16,
    },
    /// A pulse ended in any other way.
    Interrupted {
        /// The first address of the pulse's range.
        address: u16,
        /// The bytes of the range.
        length: u16,
    },
}

impl Event {
    /// The event of a word, or `None` if no event is written so.
    pub fn from_word(word: u64) -> Option<Self> {
        let (address, low) = ((word >> 16) as u16, word as u16);
        match word >> 32 {
            1 if low < 0x100 => Some(Event::Byte { address, value: low as u8 }),
            2 => Some(Event::Completed { address, length: low }),
            3 => Some(Event::Interrupted { address, length: low }),
            _ => None,
        }
    }

    /// The word that the library gives for it.
    pub fn word(self) -> u64 {
        let (kind, address, low) = match self {
            Event::Byte { address, value } => (1, address, u16::from(value)),
            Event::Completed { address, length } => (2, address, length),
            Event::Interrupted { address, length } => (3, address, length),
        };
        kind << 32 | u64::from(address) << 16 | u64::from(low)
    }
}

#[cfg(test)]
mod tests {
    use super::Event;

    #[test]
    fn words() {
        let end = Event::Completed { address: 0x80, length: 0x80 };
        assert_eq!(end.word(), 2 << 32 | 0x80_0080);
        for event in [
            end,
            Event::Byte { address: 0xbfff, value: 0xfe },
            Event::Interrupted { address: 0x1000, length: 0x7000 },
        ] {
            assert_eq!(Event::from_word(event.word()), Some(event));
        }
        for word in [0, 1 << 32 | 0x100, 4 << 32, 1 << 63 | 1 << 32] {
            assert_eq!(Event::from_word(word), None);
        }
    }
}
