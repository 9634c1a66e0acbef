//! The snapshot as document 01 and the Borsh specification describe it, read field by field. It is
//! written from these two alone, so that what the library says can be held against it.

pub const FULL: u64 = 12_912_720_851_596_686_100;
pub const ARRAY: usize = 49_152;

/// What a field may hold: anything, a byte up to a number, the count of charge pages, the address of
/// a charge page, a charge.
#[derive(Clone, Copy, Debug, PartialEq)]
pub enum Kind {
    Any,
    Most(u8),
    Count,
    Address,
    Charge,
}

#[derive(Clone, Copy, Debug)]
pub struct Field {
    pub name: &'static str,
    pub kind: Kind,
    pub start: usize,
    pub end: usize,
}

/// The fields that are good, up to the first that is not, and their values: numbers, or the place of
/// an array.
#[derive(Default)]
pub struct Walk {
    pub fields: Vec<Field>,
    pub pages: Vec<u16>,
    pub pending: Option<(u16, u128)>,
}

impl Walk {
    fn field(
        &mut self,
        bytes: &[u8],
        name: &'static str,
        width: usize,
        kind: Kind,
    ) -> Result<u128, u32> {
        let start = self.fields.last().map_or(0, |field| field.end);
        let end = start + width;
        let Some(raw) = bytes.get(start..end) else { return Err(9) };
        let low = raw.iter().take(16).rev().fold(0, |n, byte| n << 8 | u128::from(*byte));
        let good = match kind {
            Kind::Any => true,
            Kind::Most(most) => low <= u128::from(most),
            Kind::Count => low <= 384,
            Kind::Charge => low <= u128::from(FULL),
            Kind::Address => {
                low % 128 == 0 && low < ARRAY as u128 && !self.pages.contains(&(low as u16))
            }
        };
        if !good {
            return Err(10);
        }
        self.fields.push(Field { name, kind, start, end });
        Ok(low)
    }

    fn all(&mut self, bytes: &[u8]) -> Result<(), u32> {
        self.field(bytes, "bytes", ARRAY, Kind::Any)?;
        for _ in 0..self.field(bytes, "charges", 4, Kind::Count)? {
            let address = self.field(bytes, "page address", 2, Kind::Address)?;
            for _ in 0..1024 {
                self.field(bytes, "charge", 8, Kind::Charge)?;
            }
            self.pages.push(address as u16);
        }
        self.field(bytes, "control", 1, Kind::Any)?;
        self.field(bytes, "error", 1, Kind::Most(1))?;
        self.field(bytes, "erase", 1, Kind::Any)?;
        self.field(bytes, "enabled", 1, Kind::Most(1))?;
        self.field(bytes, "power_down_disabled", 1, Kind::Most(1))?;
        self.field(bytes, "latch", 128, Kind::Any)?;
        self.field(bytes, "page", 2, Kind::Any)?;
        self.field(bytes, "supply", 1, Kind::Most(2))?;
        self.field(bytes, "oscillator", 1, Kind::Most(1))?;
        self.field(bytes, "mode", 1, Kind::Most(5))?;
        self.field(bytes, "module", 1, Kind::Most(1))?;
        for name in [
            "ready",
            "swe_ready",
            "program_ready",
            "erase_ready",
            "recovery",
            "pulse_since",
            "verify_ready",
        ] {
            self.field(bytes, name, 16, Kind::Any)?;
        }
        if self.field(bytes, "verify_pending", 1, Kind::Most(1))? == 1 {
            let address = self.field(bytes, "pending address", 2, Kind::Any)? as u16;
            let ready = self.field(bytes, "pending instant", 16, Kind::Any)?;
            self.pending = Some((address, ready));
        }
        self.field(bytes, "sensed", 4, Kind::Any)?;
        Ok(())
    }

    /// The value of a field that stands once.
    pub fn value(&self, bytes: &[u8], name: &str) -> u128 {
        let field = self.fields.iter().find(|field| field.name == name).expect("a field's name");
        bytes[field.start..field.end].iter().rev().fold(0, |n, byte| n << 8 | u128::from(*byte))
    }
}

/// Reads as far as the fields are good: 0, 9 or 10.
pub fn walk(bytes: &[u8]) -> (Walk, u32) {
    let mut walk = Walk::default();
    let number = walk.all(bytes).err().unwrap_or(0);
    (walk, number)
}

/// Whether `validate` says yes to what a good snapshot holds.
fn valid(walk: &Walk, bytes: &[u8], at: u128) -> bool {
    let inside = |address: u128, step: u128| address % step == 0 && address < ARRAY as u128;
    walk.value(bytes, "control") < 0x80
        && walk.value(bytes, "erase") < 64
        && inside(walk.value(bytes, "page"), 128)
        && walk.pending.is_none_or(|(address, _)| inside(u128::from(address), 4))
        && walk.value(bytes, "pulse_since") <= at
}

/// The number by which reading these bytes at a time is refused, or 0.
pub fn judge(bytes: &[u8], at: u128) -> u32 {
    if at >> 64 == u128::from(u64::MAX) {
        return 5;
    }
    let (walk, number) = walk(bytes);
    let end = walk.fields.last().map_or(0, |field| field.end);
    match number {
        0 if end < bytes.len() => 11,
        0 if !valid(&walk, bytes, at) => 12,
        number => number,
    }
}
