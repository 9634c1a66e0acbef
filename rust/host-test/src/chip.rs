//! The memory that one chip lends to the library, marked beforehand, and one way to ask for each function.
pub use doqtarbu::ARRAY_BYTES;
use doqtarbu::{record_len, Call, Instant, Lent, CELLS, EVENT_WORDS};
use std::ops::{Deref, DerefMut};

/// What memory and outputs hold beforehand, so that a word that had to stay shows if it did not.
pub const MARK: u64 = 0xa5a5_a5a5_a5a5_a5a5;
pub const MARK_BYTE: u8 = 0xa5;

#[derive(Clone, PartialEq)]
pub struct Chip(Lent);

/// The ledger's calls, then the looks; `Image` has the number of output bytes.
#[derive(Clone, Copy, Debug, PartialEq)]
pub enum Ask {
    WriteRegister(u16, u8),
    Write8(u16, u8),
    Read8(u16),
    Read16(u16),
    Protect,
    Reset,
    PowerOff,
    Environment(u8, bool, bool),
    Register(u16),
    Normal,
    Validate,
    Peek(u16),
    CellCharge(u16, u8),
    BlankPage(u16),
    Image(usize),
}

/// What came back: the refusal or 0, the number of event words (0 for a look, which has none), and
/// the output. A refusal has no output, unless the library wrote one all the same.
#[derive(Clone, Copy, Debug, PartialEq)]
pub struct Reply {
    pub refusal: u32,
    pub count: u64,
    pub value: Option<u64>,
}

impl Deref for Chip {
    type Target = Lent;
    fn deref(&self) -> &Lent {
        &self.0
    }
}

impl DerefMut for Chip {
    fn deref_mut(&mut self) -> &mut Lent {
        &mut self.0
    }
}

impl Chip {
    /// Memory of the right lengths that holds no state yet.
    pub fn unmade() -> Self {
        Chip(Lent {
            record: vec![MARK_BYTE; record_len()],
            array: vec![MARK_BYTE; ARRAY_BYTES],
            charges: vec![MARK; CELLS],
            events: vec![MARK; EVENT_WORDS],
        })
    }

    /// A fresh array of the firmware, or the refusal.
    pub fn new(firmware: &[u8]) -> Result<Self, u32> {
        let mut chip = Chip::unmade();
        match chip.renew(firmware) {
            0 => Ok(chip),
            refusal => Err(refusal),
        }
    }

    /// Asks at an instant in raw units of 2^-64 s; `Register` takes no time and leaves it aside.
    pub fn ask(&mut self, ask: Ask, at: u128) -> Reply {
        let when = Instant(at);
        let mut n = MARK;
        let (mut byte, mut word, mut charge) = (MARK_BYTE, MARK as u16, MARK);
        if let Some(call) = ask.call() {
            let refusal = self.0.call(call, when, &mut word, &mut n);
            let (value, mark) = match ask {
                Ask::Read16(_) => (word, MARK as u16),
                _ => (word & 0xff, MARK_BYTE.into()),
            };
            let given = ask.has_output() && (refusal == 0 || value != mark);
            return Reply { refusal, count: n, value: given.then_some(value.into()) };
        }
        let refusal = match ask {
            Ask::Register(a) => self.register(a, &mut byte),
            Ask::Normal => self.normal(when, &mut byte),
            Ask::Validate => self.validate(when, &mut byte),
            Ask::Peek(a) => self.peek(a, when, &mut byte),
            Ask::CellCharge(a, bit) => self.cell_charge(a, bit, when, &mut charge),
            Ask::BlankPage(a) => self.blank_page(a, when, &mut byte),
            Ask::Image(room) => {
                let mut out = vec![MARK_BYTE; room];
                let refusal = self.image(&mut out, at);
                byte = out.into_iter().find(|b| *b != MARK_BYTE).unwrap_or(MARK_BYTE);
                refusal
            }
            _ => unreachable!("a call of the ledger"),
        };
        let (value, mark) = match ask {
            Ask::CellCharge(..) => (charge, MARK),
            _ => (u64::from(byte), u64::from(MARK_BYTE)),
        };
        let given = refusal == 0 || value != mark;
        Reply { refusal, count: 0, value: given.then_some(value) }
    }

    pub fn image(&self, out: &mut [u8], at: u128) -> u32 {
        self.0.image(Instant(at), out)
    }

    /// The refusal or 0, and the length where the library gave one.
    pub fn write_snapshot(&self, out: &mut [u8]) -> (u32, Option<u64>) {
        let mut length = MARK;
        let refusal = self.0.write_snapshot(out, &mut length);
        (refusal, (length != MARK).then_some(length))
    }

    pub fn read_snapshot(&mut self, bytes: &[u8], at: u128) -> u32 {
        self.0.read_snapshot(bytes, Instant(at))
    }
}

impl Ask {
    /// The call of the ledger, if it is one.
    fn call(self) -> Option<Call> {
        Some(match self {
            Ask::WriteRegister(address, value) => Call::WriteRegister { address, value },
            Ask::Write8(address, value) => Call::Write8 { address, value },
            Ask::Read8(address) => Call::Read8 { address },
            Ask::Read16(address) => Call::Read16 { address },
            Ask::Protect => Call::Protect,
            Ask::Reset => Call::Reset,
            Ask::PowerOff => Call::PowerOff,
            Ask::Environment(mode, module, oscillator) => {
                Call::Environment { mode, module, oscillator }
            }
            _ => return None,
        })
    }

    pub fn is_look(self) -> bool {
        self.call().is_none()
    }

    fn has_output(self) -> bool {
        self.is_look() || matches!(self, Ask::Read8(_) | Ask::Read16(_))
    }
}
