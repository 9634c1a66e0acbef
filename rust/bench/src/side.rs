//! The two sides behind one set of functions, so that a line of the table is written once and does the same to both.
use doqtarbu::{register, Flash, Instant, Refusal, ARRAY_BYTES, EVENT_WORDS, PAGE_BYTES};
use original::{event_word, Event, Original, Output};
use std::{hint::black_box, ops::ControlFlow};

/// What the lines ask of a chip. Instants are in raw units. Nothing here is refused: a refusal is a fault of this
/// program, and stops it.
pub trait Side {
    fn renew(&mut self, firmware: &[u8]);
    fn write_register(&mut self, address: u16, value: u8, at: u128);
    fn write8(&mut self, address: u16, value: u8, at: u128);
    fn read8(&mut self, address: u16, at: u128) -> u8;
    /// Register writes, three numbers each as `replay` has them.
    fn replay(&mut self, writes: &[u64]);
    fn peek(&self, address: u16, at: u128) -> u8;
    /// The charge of a cell; the original has no such look, and answers by the one that is nearest.
    fn cell_charge(&self, address: u16, bit: u8, at: u128) -> u64;
    fn blank_page(&self, address: u16, at: u128) -> bool;
    /// The image, worked out and left where [`Side::last_image`] finds it.
    fn image(&mut self, at: u128);
    fn last_image(&self) -> &[u8];
    /// The snapshot, into memory that is used again.
    fn write_snapshot(&mut self);
    fn last_snapshot(&self) -> &[u8];
    /// Before a reading: lets go of what the reading would replace, so that this is not timed.
    fn let_go(&mut self);
    fn read_snapshot(&mut self, bytes: &[u8], at: u128);
    /// The event words of the last call.
    fn words(&self) -> &[u64];
}

pub struct Port {
    flash: Flash,
    image: Vec<u8>,
    snapshot: Vec<u8>,
    length: usize,
}

fn answered<T>(answer: Result<T, Refusal>) -> T {
    answer.expect("every call of a line is accepted")
}

impl Port {
    pub fn new() -> Self {
        Port {
            flash: answered(Flash::new(&[0xff; ARRAY_BYTES])),
            image: vec![0; ARRAY_BYTES],
            snapshot: vec![0; doqtarbu::SNAPSHOT_BYTES],
            length: 0,
        }
    }
}

impl Side for Port {
    fn renew(&mut self, firmware: &[u8]) {
        answered(self.flash.renew(firmware));
    }

    fn write_register(&mut self, address: u16, value: u8, at: u128) {
        answered(self.flash.write_register(address, value, Instant(at)));
    }

    fn write8(&mut self, address: u16, value: u8, at: u128) {
        answered(self.flash.write8(address, value, Instant(at)));
    }

    fn read8(&mut self, address: u16, at: u128) -> u8 {
        answered(self.flash.read8(address, Instant(at)))
    }

    fn replay(&mut self, writes: &[u64]) {
        let calls = writes.len() / 3;
        let replayed = replay::replay(self.flash.lent_mut(), writes, 0, calls);
        assert_eq!(
            (replayed.done, replayed.number),
            (calls, 0),
            "every write of a line is accepted"
        );
    }

    fn peek(&self, address: u16, at: u128) -> u8 {
        answered(self.flash.peek(address, Instant(at)))
    }

    fn cell_charge(&self, address: u16, bit: u8, at: u128) -> u64 {
        answered(self.flash.cell_charge(address, bit, Instant(at)))
    }

    fn blank_page(&self, address: u16, at: u128) -> bool {
        answered(self.flash.blank_page(address, Instant(at)))
    }

    fn image(&mut self, at: u128) {
        answered(self.flash.image_into(Instant(at), &mut self.image));
    }

    fn last_image(&self) -> &[u8] {
        &self.image
    }

    fn write_snapshot(&mut self) {
        self.length = answered(self.flash.snapshot_into(&mut self.snapshot));
    }

    fn last_snapshot(&self) -> &[u8] {
        &self.snapshot[..self.length]
    }

    fn let_go(&mut self) {}

    fn read_snapshot(&mut self, bytes: &[u8], at: u128) {
        answered(self.flash.read_snapshot(bytes, Instant(at)));
    }

    fn words(&self) -> &[u64] {
        self.flash.event_words()
    }
}

/// The original's events as words, in memory that is used again: as much is kept of them as the port keeps.
struct Words(Vec<u64>);

impl Output for Words {
    #[inline]
    fn event(&mut self, event: Event) -> ControlFlow<()> {
        self.0.push(event_word(&event));
        ControlFlow::Continue(())
    }
}

pub struct Old {
    /// `None` only between two chips: the first has to give its memory back before the second asks for it.
    flash: Option<Original>,
    words: Words,
    image: Box<[u8; ARRAY_BYTES]>,
    snapshot: Vec<u8>,
}

const TAKEN: &str = "the original takes every call of a line";
const THERE: &str = "a chip is there outside of a renewal";

impl Old {
    pub fn new() -> Self {
        Old {
            flash: Some(Original::new(&[0xff; ARRAY_BYTES]).expect(TAKEN)),
            words: Words(Vec::with_capacity(EVENT_WORDS)),
            image: Box::new([0; ARRAY_BYTES]),
            snapshot: Vec::with_capacity(doqtarbu::SNAPSHOT_BYTES),
        }
    }

    fn flash(&self) -> &Original {
        self.flash.as_ref().expect(THERE)
    }

    fn parts(&mut self) -> (&mut Original, &mut Words) {
        self.words.0.clear();
        (self.flash.as_mut().expect(THERE), &mut self.words)
    }

    /// The charge that a settling then leaves in a copy, out of the copy's snapshot. It is not timed.
    pub fn charge_by_snapshot(&self, address: u16, bit: u8, at: u128) -> Option<u64> {
        let mut copy = self.flash().clone();
        copy.write_register(register::FLMCR2, 0, at, &mut ()).expect(TAKEN);
        let mut bytes = Vec::new();
        copy.write_snapshot(&mut bytes);
        let (page, cell) =
            (address - address % PAGE_BYTES as u16, usize::from(address) % PAGE_BYTES * 8);
        let pages = &bytes[ARRAY_BYTES + 4..];
        let count = u32::from_le_bytes(bytes[ARRAY_BYTES..][..4].try_into().ok()?);
        let page =
            pages.chunks(8_194).take(count as usize).find(|p| p[..2] == page.to_le_bytes())?;
        let place = 2 + 8 * (cell + usize::from(bit));
        Some(u64::from_le_bytes(page[place..][..8].try_into().ok()?))
    }
}

impl Side for Old {
    fn renew(&mut self, firmware: &[u8]) {
        self.let_go();
        self.flash = Some(Original::new(firmware).expect(TAKEN));
    }

    fn write_register(&mut self, address: u16, value: u8, at: u128) {
        let (flash, words) = self.parts();
        flash.write_register(address, value, at, words).expect(TAKEN);
    }

    fn write8(&mut self, address: u16, value: u8, at: u128) {
        let (flash, words) = self.parts();
        flash.write8(address, value, at, words).expect(TAKEN);
    }

    fn read8(&mut self, address: u16, at: u128) -> u8 {
        let (flash, words) = self.parts();
        flash.read8(address, at, words).expect(TAKEN)
    }

    fn replay(&mut self, writes: &[u64]) {
        let (flash, words) = self.parts();
        for write in writes.chunks_exact(3) {
            let at = u128::from(write[1]) << 64 | u128::from(write[2]);
            flash.write_register((write[0] >> 8) as u16, write[0] as u8, at, words).expect(TAKEN);
        }
    }

    fn peek(&self, address: u16, at: u128) -> u8 {
        self.flash().peek(address, at)
    }

    fn cell_charge(&self, address: u16, _bit: u8, at: u128) -> u64 {
        u64::from(self.peek(address, at))
    }

    fn blank_page(&self, address: u16, at: u128) -> bool {
        let start = usize::from(address) / PAGE_BYTES * PAGE_BYTES;
        self.flash().image(at)[start..][..PAGE_BYTES].iter().all(|byte| *byte == 0xff)
    }

    fn image(&mut self, at: u128) {
        self.image = black_box(self.flash().image(at));
    }

    fn last_image(&self) -> &[u8] {
        &self.image[..]
    }

    fn write_snapshot(&mut self) {
        let flash = self.flash.as_ref().expect(THERE);
        flash.write_snapshot(&mut self.snapshot);
    }

    fn last_snapshot(&self) -> &[u8] {
        &self.snapshot
    }

    fn let_go(&mut self) {
        self.words.0.clear();
        self.flash = None;
    }

    fn read_snapshot(&mut self, bytes: &[u8], at: u128) {
        let flash = Original::read_snapshot(bytes).expect(TAKEN);
        flash.validate(at).expect(TAKEN);
        self.flash = Some(flash);
    }

    fn words(&self) -> &[u64] {
        &self.words.0
    }
}
