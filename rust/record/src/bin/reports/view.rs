//! What the image shows of pages, and a settled snapshot of cells.
use record::call::{ARRAY, BLOCKS};
use record::snapshot;

pub const PAGE: usize = 128;

/// Which block an address is in.
pub fn block(address: u16) -> usize {
    BLOCKS.iter().position(|(_, _, end)| address < *end).expect("an address of the flash")
}

/// Whether each page of the image has FF throughout.
pub fn blank_pages(image: &[u8]) -> Vec<bool> {
    image.chunks(PAGE).map(|page| page.iter().all(|byte| *byte == 0xff)).collect()
}

/// Of a cell of the whole array.
fn charge(settled: &[u8], cell: usize) -> u64 {
    snapshot::charge(settled, (cell / 8) as u16, (cell % 8) as u8)
}

/// Whether any cell of a page holds charge.
pub fn charged(settled: &[u8], page: usize) -> bool {
    let mut cells = (page * PAGE * 8)..((page + 1) * PAGE * 8);
    cells.any(|cell| charge(settled, cell) != 0)
}

/// How bright each cell is in a picture: 255 if it is full.
pub fn pixels(settled: &[u8]) -> Vec<u8> {
    let full = u128::from(snapshot::FULL);
    let pixel = |cell| (u128::from(charge(settled, cell)) * 255 / full) as u8;
    (0..ARRAY * 8).map(pixel).collect()
}
