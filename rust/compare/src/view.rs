//! What a snapshot says of the state, and which calls document 01 refuses in it. Written from document 01: the
//! original refuses nothing of this, so it can't be asked.
use doqtarbu::register::{E, EBR1, ESU, EV, FENR, P, PSU, PV, SWE};
use doqtarbu::{Call, ARRAY_BYTES};

/// The bytes of the fields behind array and charge pages, without a pending sense.
const FIELDS: usize = 256;
pub const PAGE_SPAN: usize = 8_194;

/// The fields of a snapshot.
#[derive(Clone, Debug, Default)]
pub struct View {
    /// Opened pages, and where the fields behind them begin.
    pub pages: usize,
    pub fields: usize,
    pub control: u8,
    pub error: bool,
    pub erase: u8,
    pub enabled: bool,
    pub power_down_disabled: bool,
    pub page: u16,
    pub supply: u8,
    pub oscillator: bool,
    pub mode: u8,
    pub module: bool,
    pub ready: u128,
    pub swe_ready: u128,
    pub program_ready: u128,
    pub erase_ready: u128,
    pub recovery: u128,
    pub pulse_since: u128,
    pub verify_ready: u128,
    pub pending: Option<(u16, u128)>,
    pub sensed: [u8; 4],
}

/// An open pulse: its range and the instant from which it charges.
#[derive(Clone, Copy, Debug, PartialEq, Eq)]
pub struct Pulse {
    pub program: bool,
    pub start: usize,
    pub length: usize,
    pub ready: u128,
}

/// Where each field stands behind the pages.
pub mod offset {
    pub const CONTROL: usize = 0;
    pub const ERROR: usize = 1;
    pub const ERASE: usize = 2;
    pub const ENABLED: usize = 3;
    pub const LATCH: usize = 5;
    pub const PAGE: usize = 133;
    pub const SUPPLY: usize = 135;
    pub const READY: usize = 139;
    pub const PROGRAM_READY: usize = READY + 32;
    pub const ERASE_READY: usize = READY + 48;
    pub const RECOVERY: usize = READY + 64;
    pub const PULSE_SINCE: usize = READY + 80;
    pub const VERIFY_READY: usize = READY + 96;
    pub const PENDING: usize = READY + 112;
}

fn u16_at(bytes: &[u8], at: usize) -> u16 {
    u16::from_le_bytes([bytes[at], bytes[at + 1]])
}

fn u128_at(bytes: &[u8], at: usize) -> u128 {
    u128::from_le_bytes(bytes[at..at + 16].try_into().expect("16 bytes"))
}

impl View {
    /// Reads a snapshot that was accepted or written.
    pub fn of(snapshot: &[u8]) -> View {
        let count = &snapshot[ARRAY_BYTES..ARRAY_BYTES + 4];
        let pages = u32::from_le_bytes(count.try_into().expect("4 bytes")) as usize;
        let fields = ARRAY_BYTES + 4 + pages * PAGE_SPAN;
        let b = &snapshot[fields..];
        let time = |k: usize| u128_at(b, offset::READY + 16 * k);
        let pending = (b[offset::PENDING] == 1)
            .then(|| (u16_at(b, offset::PENDING + 1), u128_at(b, offset::PENDING + 3)));
        assert_eq!(b.len(), FIELDS + if pending.is_some() { 18 } else { 0 });
        View {
            pages,
            fields,
            control: b[offset::CONTROL],
            error: b[offset::ERROR] != 0,
            erase: b[offset::ERASE],
            enabled: b[offset::ENABLED] != 0,
            power_down_disabled: b[4] != 0,
            page: u16_at(b, offset::PAGE),
            supply: b[offset::SUPPLY],
            oscillator: b[136] != 0,
            mode: b[137],
            module: b[138] != 0,
            ready: time(0),
            swe_ready: time(1),
            program_ready: time(2),
            erase_ready: time(3),
            recovery: time(4),
            pulse_since: time(5),
            verify_ready: time(6),
            pending,
            sensed: b[b.len() - 4..].try_into().expect("4 bytes"),
        }
    }

    pub fn pulse(&self) -> Option<Pulse> {
        let on = !self.error && self.oscillator && self.supply == 0 && self.control & SWE != 0;
        let low = self.control & 15;
        let (program, (start, length), own) = if low == P && self.control & PSU != 0 {
            (true, (usize::from(self.page), 128), self.program_ready)
        } else if low == E && self.control & ESU != 0 {
            (false, block(self.erase), self.erase_ready)
        } else {
            return None;
        };
        let ready = own.max(self.swe_ready).max(self.ready).max(self.recovery);
        on.then_some(Pulse { program, start, length, ready })
    }

    pub fn normal(&self, at: u128) -> bool {
        self.control & 0x3f == 0 && self.supply != 2 && at >= self.ready && at >= self.recovery
    }

    pub fn verifying(&self) -> bool {
        matches!(self.control & 15, PV | EV)
    }

    /// The supply of a mode in this state.
    pub fn supply_in(&self, mode: u8, module: bool) -> u8 {
        match mode {
            _ if !module => 2,
            3..=5 => 2,
            1 if !self.power_down_disabled => 1,
            _ => 0,
        }
    }

    /// Whether the call settles in this state.
    pub fn settles(&self, call: Call, at: u128) -> bool {
        match call {
            Call::WriteRegister { address, .. } => address != FENR && self.enabled,
            Call::Write8 { .. } | Call::Reset | Call::PowerOff => true,
            Call::Read8 { .. } | Call::Read16 { .. } => !self.normal(at),
            Call::Protect => self.pulse().is_some(),
            Call::Environment { mode, module, oscillator } => {
                let supply = self.supply_in(mode, module);
                (supply, oscillator, mode, module)
                    != (self.supply, self.oscillator, self.mode, self.module)
            }
        }
    }

    /// The event words that a call which settles wants.
    pub fn words(&self) -> usize {
        match self.pulse() {
            Some(pulse) if pulse.length > 0 => pulse.length + 1,
            _ => 0,
        }
    }

    /// The number of the first line of document 01's table that refuses the call, or 0.
    pub fn refusal(&self, call: Call, at: u128, room: usize) -> u32 {
        let misplaced = match call {
            Call::Write8 { address, .. } | Call::Read8 { address } => address >= 0xc000,
            Call::Read16 { address } => address >= 0xbfff,
            Call::Environment { mode, .. } => mode > 5,
            _ => false,
        };
        if misplaced {
            return 4;
        }
        match self.untimely(at) {
            0 if self.settles(call, at) && room < self.words() => 7,
            number => number,
        }
    }

    /// The refusal that a time has by itself.
    pub fn untimely(&self, at: u128) -> u32 {
        match at {
            _ if at >> 64 == u128::from(u64::MAX) => 5,
            _ if at < self.pulse_since => 6,
            _ => 0,
        }
    }

    /// Whether a write changes the block that is being erased.
    pub fn retargets(&self, call: Call) -> bool {
        let Some(Pulse { program: false, .. }) = self.pulse() else { return false };
        matches!(call, Call::WriteRegister { address: EBR1, value }
            if block(value) != block(self.erase) && self.enabled && value.count_ones() <= 1)
    }
}

/// The range that the erase register selects: its first address and its length.
pub fn block(erase: u8) -> (usize, usize) {
    match erase {
        1 => (0, 0x400),
        2 => (0x400, 0x400),
        4 => (0x800, 0x400),
        8 => (0xc00, 0x400),
        16 => (0x1000, 0x7000),
        32 => (0x8000, 0x4000),
        _ => (0, 0),
    }
}
