//! A wipe that the supply broke off: which pages can still be read?
//!
//!     cargo run --offline -p doqtarbu --example broken_wipe
use doqtarbu::register::{E, EBR1, ESU, FENR, FLMCR1, SWE};
use doqtarbu::{Event, Flash, Instant, Refusal, PAGES, PAGE_BYTES};

fn main() -> Result<(), Refusal> {
    // A box whose block 0 holds secrets and whose other blocks are blank.
    let mut firmware = vec![0xff; doqtarbu::ARRAY_BYTES];
    firmware[..0x400].fill(0x00);
    let mut flash = Flash::new(&firmware)?;

    let ms = |n: u64| Instant::from_micros(1_000 * n);
    flash.write_register(FENR, 0x80, ms(0))?;
    flash.write_register(FLMCR1, SWE, ms(0))?;
    flash.write_register(EBR1, 1, ms(1))?;
    flash.write_register(FLMCR1, SWE | ESU, ms(1))?;
    flash.write_register(FLMCR1, SWE | ESU | E, ms(2))?;
    // A full erase takes 100 ms; the supply is lost after 50.
    flash.power_off(ms(52))?;
    let changed = flash.events().filter(|event| matches!(event, Event::Byte { .. })).count();
    println!("bytes changed by the broken pulse: {changed}");

    let mut legible = 0;
    for page in 0..PAGES {
        let address = (page * PAGE_BYTES) as u16;
        if !flash.blank_page(address, ms(52))? {
            println!("legible: page {address:04X}");
            legible += 1;
        }
    }
    println!("verdict: {legible} pages legible");
    Ok(())
}
