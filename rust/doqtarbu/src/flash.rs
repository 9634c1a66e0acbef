use crate::{Call, Event, Instant, Lent, Mode, Refusal, ARRAY_BYTES, EVENT_WORDS, SNAPSHOT_BYTES};

/// A chip: the memory that the library is lent, which nobody else writes. So a record is never refused,
/// and there are always event words enough, unless [`Flash::limit_events`] says otherwise.
///
/// Every method that takes an instant refuses whole seconds 2^64-1 and, but for [`Flash::validate`] and
/// the reading of snapshots, an instant before the last settling.
#[derive(Clone, Debug)]
pub struct Flash {
    lent: Lent,
    /// The event words of the last call.
    count: usize,
}

impl Flash {
    /// A fresh chip with this firmware.
    pub fn new(firmware: &[u8]) -> Result<Self, Refusal> {
        let mut lent = Lent::zeroed();
        Refusal::check(lent.renew(firmware))?;
        Ok(Flash { lent, count: 0 })
    }

    /// The chip that a snapshot holds.
    pub fn restore(snapshot: &[u8], at: Instant) -> Result<Self, Refusal> {
        let mut lent = Lent::zeroed();
        Refusal::check(lent.read_snapshot(snapshot, at))?;
        Ok(Flash { lent, count: 0 })
    }

    /// Any call of the ledger; gives what was read, or 0 where the call reads nothing.
    pub fn call(&mut self, call: Call, at: Instant) -> Result<u16, Refusal> {
        let (mut value, mut count) = (0, 0);
        let number = self.lent.call(call, at, &mut value, &mut count);
        self.count = count as usize;
        Refusal::check(number).map(|()| value)
    }

    /// The event words of the last call, none if it was refused.
    pub fn event_words(&self) -> &[u64] {
        &self.lent.events[..self.count]
    }

    /// The events of the last call.
    pub fn events(&self) -> impl Iterator<Item = Event> + '_ {
        let word = |word: &u64| Event::from_word(*word).expect("the library's words are events");
        self.event_words().iter().map(word)
    }

    /// Leaves room for so many event words from now on, at most [`EVENT_WORDS`]. What the last call gave is forgotten.
    pub fn limit_events(&mut self, words: usize) {
        self.count = 0;
        self.lent.events.resize(words.min(EVENT_WORDS), 0);
    }

    /// Writes a register.
    pub fn write_register(&mut self, address: u16, value: u8, at: Instant) -> Result<(), Refusal> {
        self.call(Call::WriteRegister { address, value }, at).map(drop)
    }

    /// Writes a byte to the array: it is latched, or starts a verify sense.
    pub fn write8(&mut self, address: u16, value: u8, at: Instant) -> Result<(), Refusal> {
        self.call(Call::Write8 { address, value }, at).map(drop)
    }

    /// Reads a byte.
    pub fn read8(&mut self, address: u16, at: Instant) -> Result<u8, Refusal> {
        self.call(Call::Read8 { address }, at).map(|value| value as u8)
    }

    /// Reads a word, high byte first.
    pub fn read16(&mut self, address: u16, at: Instant) -> Result<u16, Refusal> {
        self.call(Call::Read16 { address }, at)
    }

    /// Trips error protection.
    pub fn protect(&mut self, at: Instant) -> Result<(), Refusal> {
        self.call(Call::Protect, at).map(drop)
    }

    /// Resets the controller.
    pub fn reset(&mut self, at: Instant) -> Result<(), Refusal> {
        self.call(Call::Reset, at).map(drop)
    }

    /// Takes the supply away.
    pub fn power_off(&mut self, at: Instant) -> Result<(), Refusal> {
        self.call(Call::PowerOff, at).map(drop)
    }

    /// Sets the controller's mode, its module clock and its oscillator.
    pub fn environment(
        &mut self,
        mode: Mode,
        module: bool,
        oscillator: bool,
        at: Instant,
    ) -> Result<(), Refusal> {
        self.call(Call::Environment { mode: mode as u8, module, oscillator }, at).map(drop)
    }

    /// What a register reads.
    pub fn register(&self, address: u16) -> Result<u8, Refusal> {
        let mut value = 0;
        Refusal::check(self.lent.register(address, &mut value)).map(|()| value)
    }

    /// Whether a read would be served from the stored array.
    pub fn normal(&self, at: Instant) -> Result<bool, Refusal> {
        let mut normal = 0;
        Refusal::check(self.lent.normal(at, &mut normal)).map(|()| normal != 0)
    }

    /// Whether a snapshot of this state would be taken at that instant.
    pub fn validate(&self, at: Instant) -> Result<bool, Refusal> {
        let mut valid = 0;
        Refusal::check(self.lent.validate(at, &mut valid)).map(|()| valid != 0)
    }

    /// The byte that the cells hold.
    pub fn peek(&self, address: u16, at: Instant) -> Result<u8, Refusal> {
        let mut value = 0;
        Refusal::check(self.lent.peek(address, at, &mut value)).map(|()| value)
    }

    /// The charge of one cell, 0 to [`FULL`](crate::FULL).
    pub fn cell_charge(&self, address: u16, bit: u8, at: Instant) -> Result<u64, Refusal> {
        let mut charge = 0;
        Refusal::check(self.lent.cell_charge(address, bit, at, &mut charge)).map(|()| charge)
    }

    /// Whether all bytes of the address's page read FF.
    pub fn blank_page(&self, address: u16, at: Instant) -> Result<bool, Refusal> {
        let mut blank = 0;
        Refusal::check(self.lent.blank_page(address, at, &mut blank)).map(|()| blank != 0)
    }

    /// All bytes that the cells hold.
    pub fn image(&self, at: Instant) -> Result<Vec<u8>, Refusal> {
        let mut out = vec![0; ARRAY_BYTES];
        self.image_into(at, &mut out).map(|()| out)
    }

    /// All bytes that the cells hold, into a buffer of at least [`ARRAY_BYTES`].
    pub fn image_into(&self, at: Instant, out: &mut [u8]) -> Result<(), Refusal> {
        Refusal::check(self.lent.image(at, out))
    }

    /// The state as a snapshot, which [`Flash::restore`] takes.
    pub fn snapshot(&self) -> Result<Vec<u8>, Refusal> {
        let mut out = vec![0; SNAPSHOT_BYTES];
        let length = self.snapshot_into(&mut out)?;
        out.truncate(length);
        Ok(out)
    }

    /// The state as a snapshot, into a buffer; [`SNAPSHOT_BYTES`] are always enough. Gives its length.
    pub fn snapshot_into(&self, out: &mut [u8]) -> Result<usize, Refusal> {
        let mut length = 0;
        Refusal::check(self.lent.write_snapshot(out, &mut length)).map(|()| length as usize)
    }

    /// Becomes the chip that a snapshot holds; if it is refused, stays what it was.
    pub fn read_snapshot(&mut self, snapshot: &[u8], at: Instant) -> Result<(), Refusal> {
        self.count = 0;
        Refusal::check(self.lent.read_snapshot(snapshot, at))
    }

    /// Becomes a fresh chip with this firmware; if it is refused, stays what it was.
    pub fn renew(&mut self, firmware: &[u8]) -> Result<(), Refusal> {
        self.count = 0;
        Refusal::check(self.lent.renew(firmware))
    }

    /// The stored array, as normal reads are served from it.
    pub fn array(&self) -> &[u8] {
        &self.lent.array
    }

    /// The memory that is lent.
    pub fn lent(&self) -> &Lent {
        &self.lent
    }

    /// The same for another archive of the library to work on. The event words of the last call are forgotten. What the library did
    /// not write there is not checked: the next call may refuse it.
    pub fn lent_mut(&mut self) -> &mut Lent {
        self.count = 0;
        &mut self.lent
    }
}
