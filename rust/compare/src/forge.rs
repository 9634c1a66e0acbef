//! Random accepted snapshots, by the format of document 01 and the Borsh specification: states that few
//! histories reach, with charges at the limits of sensing and times at the edges.
use crate::rng::Rng;
use doqtarbu::{ARRAY_BYTES, FULL, PAGES};

/// The last instant of the last second that is not refused.
pub const LAST: u128 = (u64::MAX as u128) << 64 | u64::MAX as u128;
pub const LATEST: u128 = LAST - (1 << 64);

pub fn class(cell: usize) -> u128 {
    (((13 * cell) ^ (cell / 16)) % 16) as u128
}

/// The three limits of a cell: normally, under program verify, under erase verify.
pub fn limits(cell: usize) -> [u64; 3] {
    let (full, c) = (u128::from(FULL), class(cell));
    [full * (16 + c) / 62, full * (16 + c) / 31, full * c / 256].map(|limit| limit as u64)
}

fn charge(rng: &mut Rng, cell: usize) -> u64 {
    let limit = rng.pick(&limits(cell));
    match rng.below(8) {
        0 => 0,
        1 => FULL,
        2 => limit.saturating_sub(1),
        3 => limit,
        4 => (limit + 1).min(FULL),
        5 => rng.below(1000),
        _ => rng.word() % (FULL + 1),
    }
}

/// An instant around `at`, or anywhere.
fn instant(rng: &mut Rng, at: u128) -> u128 {
    let near = rng.spread(80);
    match rng.below(8) {
        0 => 0,
        1 => rng.spread(128),
        2 => LAST,
        3 | 4 => at.saturating_add(near),
        _ => at.saturating_sub(near),
    }
}

/// The bytes of a snapshot that is accepted from the instant that comes with it.
pub fn snapshot(seed: u64) -> (Vec<u8>, u128) {
    let mut rng = Rng::new(seed ^ 0x5eed);
    let rng = &mut rng;
    let at = match rng.below(4) {
        0 => rng.spread(100),
        1 => LATEST - rng.spread(90),
        _ => rng.spread(70),
    };
    let mut out = Vec::new();
    let fill = rng.byte();
    let plain = rng.one_in(3);
    out.extend((0..ARRAY_BYTES).map(|_| if plain { fill } else { rng.byte() }));
    let count = match rng.below(40) {
        0 => PAGES,
        1 => rng.below(PAGES as u64 + 1) as usize,
        2..=9 => 0,
        _ => rng.below(6) as usize,
    };
    let mut pages: Vec<usize> = (0..PAGES).collect();
    for i in 0..count {
        let other = i + rng.below((PAGES - i) as u64) as usize;
        pages.swap(i, other);
    }
    out.extend((count as u32).to_le_bytes());
    for page in &pages[..count] {
        out.extend((128 * *page as u16).to_le_bytes());
        for cell in 0..1024 {
            out.extend(charge(rng, 1024 * page + cell).to_le_bytes());
        }
    }
    fields(rng, at, pages[0], &mut out);
    (out, at)
}

fn fields(rng: &mut Rng, at: u128, first: usize, out: &mut Vec<u8>) {
    // Controls that mean something more often than not, with SWE mostly.
    let low = rng.pick(&[0, 0x11, 0x11, 0x22, 0x22, 4, 8, 0x10, 0x20, 0x33]);
    let swe = if rng.one_in(5) { 0 } else { 0x40 };
    let control = if rng.one_in(4) { rng.byte() & 0x7f } else { swe | low };
    let erase = if rng.one_in(4) { rng.byte() & 0x3f } else { 1 << rng.below(6) };
    let rarely = |rng: &mut Rng| u8::from(rng.one_in(6));
    let mostly = |rng: &mut Rng| u8::from(!rng.one_in(6));
    out.extend([control, rarely(rng), erase, mostly(rng), rarely(rng)]);
    let latch = rng.pick(&[0xff, 0x00, 0x55]);
    out.extend((0..128).map(|_| if rng.one_in(4) { rng.byte() } else { latch }));
    // Often the latched page is an opened one.
    let page = if rng.one_in(2) { first } else { rng.below(PAGES as u64) as usize };
    out.extend((128 * page as u16).to_le_bytes());
    let supply = if rng.one_in(4) { rng.below(3) as u8 } else { 0 };
    let mode = if rng.one_in(3) { rng.below(6) as u8 } else { 0 };
    out.extend([supply, mostly(rng), mode, mostly(rng)]);
    for field in 0..7 {
        let time = match field {
            5 => at - rng.spread(80).min(at),
            _ => instant(rng, at),
        };
        out.extend(time.to_le_bytes());
    }
    if rng.one_in(3) {
        out.push(1);
        out.extend((4 * rng.below(ARRAY_BYTES as u64 / 4) as u16).to_le_bytes());
        out.extend(instant(rng, at).to_le_bytes());
    } else {
        out.push(0);
    }
    out.extend((0..4).map(|_| rng.byte()));
}
