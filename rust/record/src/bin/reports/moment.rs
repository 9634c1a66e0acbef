//! Times in raw units of 2^-64 s, as a history writes them and as the report prints them.
use crate::mistake::Reason;

/// So many microseconds, below a second, in raw units.
fn units(micros: u128) -> u64 {
    ((micros << 64) / 1_000_000) as u64
}

/// Decimal digits and nothing else, below 2^64: the first byte that does not fit decides.
fn number(text: &str) -> Result<u64, Reason> {
    if text.is_empty() {
        return Err(Reason::NoTime);
    }
    text.bytes().try_fold(0, |number: u64, byte| {
        if !byte.is_ascii_digit() {
            return Err(Reason::NoTime);
        }
        let digit = u64::from(byte - b'0');
        let longer = number.checked_mul(10).and_then(|tens| tens.checked_add(digit));
        longer.ok_or(Reason::TooLarge)
    })
}

/// One to six digits, in raw units.
fn decimals(text: &str) -> Result<u64, Reason> {
    if text.len() > 6 {
        return Err(Reason::TooManyDecimals);
    }
    number(text)?;
    Ok(units(number(&format!("{text:0<6}"))?.into()))
}

/// `12`, `12.000050` or `12:922337203685477`, judged from left to right.
pub fn read(text: &str) -> Result<u128, Reason> {
    let (seconds, fraction) = if let Some((seconds, units)) = text.split_once(':') {
        (number(seconds)?, number(units)?)
    } else if let Some((seconds, rest)) = text.split_once('.') {
        (number(seconds)?, decimals(rest)?)
    } else {
        (number(text)?, 0)
    };
    Ok(u128::from(seconds) << 64 | u128::from(fraction))
}

/// In seconds and microseconds; where that is not exact, in units too.
pub fn written(at: u128) -> String {
    let (seconds, fraction) = (at >> 64, at as u64);
    // The least number of microseconds that has as many units or more: no other one can have exactly as many.
    let micros = (u128::from(fraction) * 1_000_000).div_ceil(1 << 64);
    match fraction {
        0 => format!("{seconds}"),
        _ if micros < 1_000_000 && units(micros) == fraction => format!("{seconds}.{micros:06}"),
        _ => {
            // A microsecond is 18446744073709 units: the one in which the time lies.
            let within = (fraction / 18_446_744_073_709).min(999_999);
            format!("{seconds}.{within:06} ({seconds}:{fraction})")
        }
    }
}
