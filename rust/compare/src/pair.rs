//! The port and the original, given the same steps. After each step everything that can be seen is compared.
use crate::forge;
use crate::history::{Start, Step, What};
use crate::rng::Rng;
use crate::view::View;
#[cfg(feature = "wrong")]
use crate::wrong::Wrong;
use doqtarbu::{Call, Instant, Lent, ARRAY_BYTES, CELLS, EVENT_WORDS, FULL, SNAPSHOT_BYTES};
use original::{event_word, refusal_number, Event, Mode, Original};

/// What the charge store holds in slots not in use.
const UNUSED: u64 = 0xa5a5_a5a5_a5a5_a5a5;
/// What outputs and event words hold before a call, so that a write that should not be shows.
const MARK: u64 = 0x5a5a_5a5a_5a5a_5a5a;
/// The registers, and addresses beside them that read 0.
const READ: [u16; 8] = [0xf020, 0xf021, 0xf022, 0xf023, 0xf02b, 0xf024, 0xf01f, 0x0000];

/// What a step came to.
#[derive(Clone, Debug, PartialEq, Eq)]
pub enum Came {
    Answered { value: Option<u16>, words: Vec<u64> },
    Refused(u32),
    Looked,
    Restored,
}

pub struct Pair {
    port: Lent,
    original: Original,
    /// The state before the next step.
    pub view: View,
    /// The snapshots of both, and room for what is lent.
    shot: Vec<u8>,
    port_shot: Vec<u8>,
    port_image: Vec<u8>,
    shadow: Lent,
    events: Vec<Event>,
    #[cfg(feature = "wrong")]
    pub wrong: Option<Wrong>,
}

/// A difference, in words.
pub type Differs = String;

fn same<T: PartialEq + std::fmt::Debug>(what: &str, port: T, original: T) -> Result<(), Differs> {
    if port == original {
        return Ok(());
    }
    Err(format!("{what}: port {port:02X?}, original {original:02X?}"))
}

/// Names the first place where two strings of bytes differ.
fn same_bytes(what: &str, port: &[u8], original: &[u8]) -> Result<(), Differs> {
    if port == original {
        return Ok(());
    }
    let pairs = port.iter().zip(original);
    match pairs.enumerate().find(|(_, (a, b))| a != b) {
        Some((i, (a, b))) => Err(format!("{what}, byte {i}: port {a:02X}, original {b:02X}")),
        None => same(&format!("{what}, length"), port.len(), original.len()),
    }
}

impl Default for Pair {
    fn default() -> Self {
        Pair::new()
    }
}

impl Pair {
    /// A pair to be started; its memory is used again by every history.
    pub fn new() -> Pair {
        let mut port = Lent::zeroed();
        port.charges.fill(UNUSED);
        Pair {
            shadow: port.clone(),
            port,
            original: Original::new(&[0; ARRAY_BYTES]).expect("firmware of the right length"),
            view: View::default(),
            shot: Vec::with_capacity(SNAPSHOT_BYTES),
            port_shot: vec![0; SNAPSHOT_BYTES],
            port_image: vec![0; ARRAY_BYTES],
            events: Vec::with_capacity(EVENT_WORDS),
            #[cfg(feature = "wrong")]
            wrong: None,
        }
    }

    /// Begins a history; gives the instant from which it is accepted.
    pub fn start(&mut self, start: Start) -> Result<u128, Differs> {
        // A call opens at most the 224 pages of block 4, also one that differed and so was not looked at.
        let used = (1024 * (self.view.pages + 224)).min(CELLS);
        self.port.charges[..used].fill(UNUSED);
        self.port.events.clear();
        self.port.events.resize(EVENT_WORDS, MARK);
        let mut at = 0;
        match start {
            Start::Fill(byte) => self.renew(&[byte; ARRAY_BYTES])?,
            Start::Random(seed) => {
                let mut rng = Rng::new(seed);
                let firmware: Vec<u8> = (0..ARRAY_BYTES).map(|_| rng.byte()).collect();
                self.renew(&firmware)?;
            }
            Start::Restored(seed) => {
                let snapshot;
                (snapshot, at) = forge::snapshot(seed);
                self.restore(&snapshot, at)?;
            }
        }
        self.compare(at)?;
        Ok(at)
    }

    fn renew(&mut self, firmware: &[u8]) -> Result<(), Differs> {
        same("new", self.port.renew(firmware), 0)?;
        self.original =
            Original::new(firmware).map_err(|e| format!("the original's new: {e:?}"))?;
        Ok(())
    }

    /// Both read a snapshot. Where the original refuses it, the port has to, by the same number; but the original reads a
    /// charge page whole before it judges it, so of a page that is bad and then ends it says 9, where document 01 says 10.
    fn restore(&mut self, bytes: &[u8], at: u128) -> Result<u32, Differs> {
        let read = Original::read_snapshot(bytes);
        let want = match &read {
            _ if at >> 64 == u128::from(u64::MAX) => 5,
            Err(error) => u32::from(refusal_number(error)),
            Ok(state) if state.validate(at).is_err() => 12,
            Ok(_) => 0,
        };
        if want != 0 {
            self.shadow.clone_from(&self.port);
        }
        let got = self.port.read_snapshot(bytes, Instant(at));
        if (got, want) != (10, 9) {
            same("number of a snapshot's refusal", got, want)?;
        }
        match read {
            Ok(state) if want == 0 => self.original = state,
            _ => self.unchanged()?,
        }
        Ok(got)
    }

    fn unchanged(&self) -> Result<(), Differs> {
        match self.port == self.shadow {
            true => Ok(()),
            false => Err("a refused call changed lent memory".into()),
        }
    }

    /// Makes one step on both.
    pub fn step(&mut self, step: &Step) -> Result<Came, Differs> {
        let at = step.at;
        let came = match &step.what {
            What::Call(call, room) => self.call(*call, at, *room)?,
            What::Look(address, bit) => self.look(*address, *bit, at)?,
            What::Restore(changes, cut) => {
                let mut bytes = self.shot.clone();
                for (place, byte) in changes {
                    let n = bytes.len();
                    bytes[place % n] = *byte;
                }
                let length = bytes.len() as i64 - cut;
                bytes.resize(length.max(0) as usize, 0);
                match self.restore(&bytes, at)? {
                    0 => Came::Restored,
                    number => Came::Refused(number),
                }
            }
        };
        if !matches!(came, Came::Refused(_) | Came::Looked) {
            self.compare(at)?;
        }
        Ok(came)
    }

    fn call(&mut self, call: Call, at: u128, room: usize) -> Result<Came, Differs> {
        let want = self.view.refusal(call, at, room);
        self.port.events.resize(room, MARK);
        if want != 0 {
            self.shadow.clone_from(&self.port);
        }
        let (mut value, mut count) = (MARK as u16, MARK);
        let number = self.port_call(call, at, &mut value, &mut count);
        same("refusal", number, want)?;
        if want != 0 {
            same("count of a refused call", count, 0)?;
            same("value of a refused call", value, MARK as u16)?;
            self.unchanged()?;
            return Ok(Came::Refused(want));
        }
        self.events.clear();
        let read = self.original_call(call, at).map_err(|e| format!("the original errs: {e:?}"))?;
        // Calls that read nothing leave the value as it was, a byte read its high half.
        let (left, read) = match call {
            Call::Read8 { .. } => (MARK as u16 & 0xff00 | read, Some(read)),
            Call::Read16 { .. } => (read, Some(read)),
            _ => (MARK as u16, None),
        };
        same("value", value, left)?;
        if let Some(event) = self.events.iter().find(|event| event.time().raw() != at) {
            return Err(format!("an event of the original at another time: {event:?}"));
        }
        let words: Vec<u64> = self.events.iter().map(event_word).collect();
        same("number of event words", count, words.len() as u64)?;
        let (given, rest) = self.port.events.split_at(words.len());
        if let Some(i) = (0..words.len()).find(|i| given[*i] != words[*i]) {
            same(&format!("event word {i}"), given[i], words[i])?;
        }
        if rest.iter().any(|word| *word != MARK) {
            return Err("an event word past the count changed".into());
        }
        self.port.events[..words.len()].fill(MARK);
        Ok(Came::Answered { value: read, words })
    }

    #[cfg(not(feature = "wrong"))]
    fn port_call(&mut self, call: Call, at: u128, value: &mut u16, count: &mut u64) -> u32 {
        self.port.call(call, Instant(at), value, count)
    }

    #[cfg(feature = "wrong")]
    fn port_call(&mut self, call: Call, at: u128, value: &mut u16, count: &mut u64) -> u32 {
        match self.wrong {
            None => self.port.call(call, Instant(at), value, count),
            Some(wrong) => wrong.call(&mut self.port, &self.view, call, at, value, count),
        }
    }

    fn original_call(&mut self, call: Call, at: u128) -> Result<u16, original::Error> {
        let (chip, out) = (&mut self.original, &mut self.events);
        match call {
            Call::WriteRegister { address, value } => {
                chip.write_register(address, value, at, out)?
            }
            Call::Write8 { address, value } => chip.write8(address, value, at, out)?,
            Call::Read8 { address } => return chip.read8(address, at, out).map(u16::from),
            Call::Read16 { address } => return chip.read16(address, at, out),
            Call::Protect => chip.protect(at, out)?,
            Call::Reset => chip.reset(at, out),
            Call::PowerOff => chip.power_off(at, out),
            Call::Environment { mode, module, oscillator } => {
                let mode = Mode::from_number(mode).expect("modes over 5 are refused");
                chip.environment(mode, module, oscillator, at, out)?;
            }
        }
        Ok(0)
    }

    /// Compares registers, normal, validate, image and the snapshot, and so every charge.
    fn compare(&mut self, at: u128) -> Result<(), Differs> {
        for address in READ {
            let mut value = MARK as u8;
            same("register's refusal", self.port.register(address, &mut value), 0)?;
            same(&format!("register {address:04X}"), value, self.original.register(address))?;
        }
        self.original.write_snapshot(&mut self.shot);
        let length = self.port_snapshot()?;
        same_bytes("snapshot", &self.port_shot[..length], &self.shot)?;
        self.view = View::of(&self.shot);
        self.tests(at)?;
        self.image(at)
    }

    fn port_snapshot(&mut self) -> Result<usize, Differs> {
        let mut length = MARK;
        same("snapshot's refusal", self.port.write_snapshot(&mut self.port_shot, &mut length), 0)?;
        #[cfg(feature = "wrong")]
        if let Some(wrong) = self.wrong {
            wrong.snapshot(&mut self.port_shot[..length as usize]);
        }
        Ok(length as usize)
    }

    /// Compares `normal` and `validate`.
    fn tests(&mut self, at: u128) -> Result<(), Differs> {
        let late = self.view.untimely(at);
        let mut normal = MARK as u8;
        same("normal's refusal", self.port.normal(Instant(at), &mut normal), late)?;
        let want = if late == 0 { self.original.normal(at).into() } else { MARK as u8 };
        same("normal", normal, want)?;
        let late = if late == 6 { 0 } else { late };
        let mut valid = MARK as u8;
        same("validate's refusal", self.port.validate(Instant(at), &mut valid), late)?;
        let want = if late == 0 { self.original.validate(at).is_ok().into() } else { MARK as u8 };
        same("validate", valid, want)
    }

    fn image(&mut self, at: u128) -> Result<(), Differs> {
        let late = self.view.untimely(at);
        let held = (late != 0).then(|| self.port_image.clone());
        same("image's refusal", self.port.image(Instant(at), &mut self.port_image), late)?;
        if let Some(held) = held {
            return same_bytes("output of a refused image", &self.port_image, &held);
        }
        let image = self.original.image(at);
        same_bytes("image", &self.port_image, &image[..])
    }

    /// Every look at an instant. The original has no look at a charge: it is taken from a copy that is reset then,
    /// which settles it. Nothing lent may change.
    fn look(&mut self, address: u16, bit: u8, at: u128) -> Result<Came, Differs> {
        self.shadow.clone_from(&self.port);
        self.tests(at)?;
        self.image(at)?;
        let late = self.view.untimely(at);
        let past = if address >= 0xc000 { 4 } else { late };
        let (mut value, mut blank, mut charge) = (MARK as u8, MARK as u8, MARK);
        let when = Instant(at);
        same("peek's refusal", self.port.peek(address, when, &mut value), past)?;
        same("blank page's refusal", self.port.blank_page(address, when, &mut blank), past)?;
        let far = if bit > 7 { 4 } else { past };
        same("cell's refusal", self.port.cell_charge(address, bit, when, &mut charge), far)?;
        let (mut values, mut cell) = ((MARK as u8, MARK as u8), MARK);
        if past == 0 {
            let start = usize::from(address) / 128 * 128;
            let page = &self.original.image(at)[start..start + 128];
            let all = u8::from(page.iter().all(|byte| *byte == 0xff));
            values = (self.original.peek(address, at), all);
        }
        if far == 0 {
            cell = self.original_charge(address, bit, at);
        }
        same("peek and blank page", (value, blank), values)?;
        same("cell's charge", charge, cell)?;
        self.unchanged()?;
        Ok(if far == 0 { Came::Looked } else { Came::Refused(far) })
    }

    fn original_charge(&self, address: u16, bit: u8, at: u128) -> u64 {
        let mut copy = self.original.clone();
        copy.reset(at, &mut ());
        let mut shot = Vec::new();
        copy.write_snapshot(&mut shot);
        let (page, cell) = (address & !127, 8 * (usize::from(address) % 128) + usize::from(bit));
        let pages = View::of(&shot).pages;
        let span = ARRAY_BYTES + 4..ARRAY_BYTES + 4 + pages * crate::view::PAGE_SPAN;
        for opened in shot[span].chunks(crate::view::PAGE_SPAN) {
            if opened[..2] == page.to_le_bytes() {
                let at = 2 + 8 * cell;
                return u64::from_le_bytes(opened[at..at + 8].try_into().expect("8 bytes"));
            }
        }
        match shot[usize::from(address)] >> bit & 1 {
            1 => 0,
            _ => FULL,
        }
    }

    /// Ends a history: slots not in use have kept their numbers.
    pub fn end(&self) -> Result<(), Differs> {
        match self.port.charges[1024 * self.view.pages..].iter().all(|q| *q == UNUSED) {
            true => Ok(()),
            false => Err("a slot that is not in use lost its numbers".into()),
        }
    }
}
