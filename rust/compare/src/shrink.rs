//! Makes a history that shows a difference as short as it gets.
use crate::history::{History, Start};
use crate::pair::{Differs, Pair};

/// Runs a history on both; the error has the number of steps made before the difference.
pub fn run(pair: &mut Pair, history: &History) -> Result<(), (usize, Differs)> {
    pair.start(history.start).map_err(|differs| (0, differs))?;
    for (i, step) in history.steps.iter().enumerate() {
        pair.step(step).map_err(|differs| (i + 1, differs))?;
    }
    pair.end().map_err(|differs| (history.steps.len(), differs))
}

/// Drops steps, halves first and then ever fewer at a time, and plainer beginnings, while a difference stays.
/// Gives the shortest history found, and the difference that it shows.
pub fn shrink(pair: &mut Pair, history: History) -> (History, Differs) {
    let Err((made, mut differs)) = run(pair, &history) else {
        return (history, "the difference does not show again".into());
    };
    let mut best = history;
    best.steps.truncate(made);
    let mut try_shorter = |best: &mut History, shorter: History| {
        let Err((made, shown)) = run(pair, &shorter) else { return false };
        *best = shorter;
        best.steps.truncate(made);
        differs = shown;
        true
    };
    for start in [Start::Fill(0xff), Start::Fill(0x00)] {
        if best.start != start {
            let plainer = History { start, steps: best.steps.clone() };
            if try_shorter(&mut best, plainer) {
                break;
            }
        }
    }
    let mut chunk = best.steps.len().max(1);
    while chunk > 0 {
        let mut dropped = false;
        let mut from = 0;
        while from < best.steps.len() {
            let mut shorter = best.clone();
            shorter.steps.drain(from..(from + chunk).min(best.steps.len()));
            if try_shorter(&mut best, shorter) {
                dropped = true;
            } else {
                from += chunk;
            }
        }
        if !(dropped && chunk == 1) {
            chunk /= 2;
        }
    }
    (best, differs)
}
