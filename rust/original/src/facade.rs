use crate::{
    mcu::{control::Mode, flash::Flash, FLASH_SIZE},
    Error, Event, NvDomain, Output, Time,
};
use std::io;

/// The original's flash. Each method is the original's of that name and nothing else; it panics where that does, as at
/// an address past the end. Instants are in raw units of 2^-64 s.
#[derive(Clone)]
pub struct Original {
    flash: Flash,
}

impl Original {
    #[inline]
    pub fn new(firmware: &[u8]) -> Result<Self, Error> {
        Flash::new(firmware).map(|flash| Self { flash })
    }

    #[inline]
    pub fn register(&self, a: u16) -> u8 {
        self.flash.register(a)
    }

    #[inline]
    pub fn write_register(
        &mut self,
        a: u16,
        value: u8,
        now: u128,
        out: &mut dyn Output,
    ) -> Result<(), Error> {
        self.flash.write_register(a, value, Time::from_raw(now), out)
    }

    #[inline]
    pub fn write8(
        &mut self,
        a: u16,
        value: u8,
        now: u128,
        out: &mut dyn Output,
    ) -> Result<(), Error> {
        self.flash.write8(a, value, Time::from_raw(now), out)
    }

    #[inline]
    pub fn read8(&mut self, a: u16, now: u128, out: &mut dyn Output) -> Result<u8, Error> {
        self.flash.read8(a, Time::from_raw(now), out)
    }

    #[inline]
    pub fn read16(&mut self, a: u16, now: u128, out: &mut dyn Output) -> Result<u16, Error> {
        self.flash.read16(a, Time::from_raw(now), out)
    }

    #[inline]
    pub fn protect(&mut self, now: u128, out: &mut dyn Output) -> Result<(), Error> {
        self.flash.protect(Time::from_raw(now), out)
    }

    #[inline]
    pub fn reset(&mut self, now: u128, out: &mut dyn Output) {
        self.flash.reset(Time::from_raw(now), out);
    }

    #[inline]
    pub fn power_off(&mut self, now: u128, out: &mut dyn Output) {
        self.flash.power_off(Time::from_raw(now), out);
    }

    #[inline]
    pub fn environment(
        &mut self,
        mode: Mode,
        module: bool,
        oscillator: bool,
        now: u128,
        out: &mut dyn Output,
    ) -> Result<(), Error> {
        self.flash.environment(mode, module, oscillator, Time::from_raw(now), out)
    }

    #[inline]
    pub fn image(&self, now: u128) -> Box<[u8; FLASH_SIZE]> {
        self.flash.image(Time::from_raw(now))
    }

    #[inline]
    pub fn peek(&self, a: u16, now: u128) -> u8 {
        self.flash.peek(a, Time::from_raw(now))
    }

    #[inline]
    pub fn normal(&self, now: u128) -> bool {
        self.flash.normal(Time::from_raw(now))
    }

    #[inline]
    pub fn validate(&self, now: u128) -> Result<(), Error> {
        self.flash.validate(Time::from_raw(now))
    }

    /// The snapshot, in place of what `out` held; its memory is used again.
    #[inline]
    pub fn write_snapshot(&self, out: &mut Vec<u8>) {
        out.clear();
        borsh::to_writer(out, &self.flash).expect("a vector takes every byte");
    }

    /// The flash whose snapshot these bytes are, all of them. It is not validated: the caller does that, with a time.
    /// [`refusal_number`] tells the errors apart.
    #[inline]
    pub fn read_snapshot(bytes: &[u8]) -> Result<Self, io::Error> {
        borsh::from_slice(bytes).map(|flash| Self { flash })
    }
}

/// The number that document 01 gives to what [`Original::read_snapshot`] refused: 9 ended early, 10 a value that no
/// state has, 11 bytes left over. The array is read by the original itself, whose error at its end is another one.
pub fn refusal_number(error: &io::Error) -> u8 {
    if error.kind() == io::ErrorKind::UnexpectedEof {
        return 9;
    }
    match error.to_string().as_str() {
        borsh::UNEXPECTED_LENGTH_OF_INPUT => 9,
        borsh::NOT_ALL_BYTES_READ => 11,
        _ => 10,
    }
}

/// The event as document 01's word; its time is `event.time().raw()`.
///
/// # Panics
/// At an event that is none of the internal flash.
#[inline]
pub fn event_word(event: &Event) -> u64 {
    let (kind, domain, address, last) = match *event {
        Event::NvByte { domain, address, value, .. } => (1, domain, address, u16::from(value)),
        Event::NvCommit { domain, address, length, .. } => (2, domain, address, length),
        Event::NvInterrupted { domain, address, length, .. } => (3, domain, address, length),
        other => panic!("the flash gives no such event: {other:?}"),
    };
    assert_eq!(domain, NvDomain::InternalFlash, "the flash gives no event of another store");
    kind << 32 | u64::from(address) << 16 | u64::from(last)
}
