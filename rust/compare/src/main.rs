//! Runs the port beside the original; `compare --help` says how.
#![forbid(unsafe_code)]

use compare::generate::Generator;
use compare::history::History;
use compare::pair::{Came, Differs, Pair};
use compare::reach::Reach;
use compare::shrink;
use doqtarbu::Event;
use std::process::ExitCode;
use std::sync::atomic::{AtomicBool, AtomicU64, Ordering};
use std::sync::Mutex;
use std::time::Instant;

const HELP: &str = "\
compare: gives the port and the original the same histories of calls and compares all that can be seen

  compare [--calls N] [--seed S] [--jobs J]   random histories until N calls are made (default 2000000, seed 1)
  compare --replay FILE                       one history, as a difference prints it
  compare --wrong NAME | all [--seed S]       a wrong version of the port has to be caught (built with --features wrong);
                                              of one alone the shortest history is printed
  compare --wrong NAME --replay FILE          that history on the wrong version

After each call: answer, value, event words, registers, image, charges, normal, validate and snapshot bytes; after a refusal,
that nothing changed. Prints how often each situation was reached. Exits 0 if nothing differs and every situation was
reached, 1 if something differs, 2 on bad usage, 3 if a situation was never reached.";

struct Options {
    calls: u64,
    seed: u64,
    jobs: u64,
    replay: Option<String>,
    wrong: Option<String>,
}

fn options() -> Result<Option<Options>, String> {
    let jobs = std::thread::available_parallelism().map_or(1, |n| n.get() as u64);
    let mut out = Options { calls: 2_000_000, seed: 1, jobs, replay: None, wrong: None };
    let mut words = std::env::args().skip(1);
    while let Some(word) = words.next() {
        if word == "--help" || word == "-h" {
            return Ok(None);
        }
        let value = words.next().ok_or_else(|| format!("{word} wants a value, or is not known"))?;
        let number = || value.parse::<u64>().map_err(|_| format!("{word}: {value} is no number"));
        match word.as_str() {
            "--calls" => out.calls = number()?,
            "--seed" => out.seed = number()?,
            "--jobs" => out.jobs = number()?.max(1),
            "--replay" => out.replay = Some(value),
            "--wrong" => out.wrong = Some(value),
            _ => return Err(format!("{word} is not known")),
        }
    }
    Ok(Some(out))
}

fn main() -> ExitCode {
    let options = match options() {
        Ok(Some(options)) => options,
        Ok(None) => {
            println!("{HELP}");
            return ExitCode::SUCCESS;
        }
        Err(why) => {
            eprintln!("compare: {why}\n\n{HELP}");
            return ExitCode::from(2);
        }
    };
    match (&options.replay, &options.wrong) {
        (Some(file), name) => replay(file, name.as_deref()),
        (None, Some(name)) => wrong(name, options.seed),
        (None, None) => compare(&options),
    }
}

/// A history, and how it differs.
type Found = (History, Differs);

/// Runs the history of one seed and counts what it reached.
fn one(pair: &mut Pair, seed: u64, reach: &mut Reach) -> Result<(), Found> {
    let mut generator = Generator::new(seed);
    let mut history = History { start: generator.start(), steps: Vec::new() };
    match pair.start(history.start) {
        Ok(at) => generator.started(at),
        Err(differs) => return Err((history, differs)),
    }
    reach.start(history.start, &pair.view);
    while let Some(step) = generator.next(&pair.view) {
        let before = pair.view.clone();
        history.steps.push(step.clone());
        match pair.step(&step) {
            Ok(came) => reach.step(&before, &step, &came, &pair.view),
            Err(differs) => return Err((history, differs)),
        }
    }
    pair.end().map_err(|differs| (history, differs))
}

/// The seed of history `i`: neighbouring runs share none.
fn seed_of(seed: u64, i: u64) -> u64 {
    seed.wrapping_mul(0x1_0000_0001).wrapping_add(i)
}

fn compare(options: &Options) -> ExitCode {
    let began = Instant::now();
    let (next, calls, stop) = (AtomicU64::new(0), AtomicU64::new(0), AtomicBool::new(false));
    let (total, found) = (Mutex::new(Reach::default()), Mutex::new(None));
    std::thread::scope(|scope| {
        for _ in 0..options.jobs {
            scope.spawn(|| {
                let (mut pair, mut reach) = (Pair::new(), Reach::default());
                while !stop.load(Ordering::Relaxed) && calls.load(Ordering::Relaxed) < options.calls
                {
                    let i = next.fetch_add(1, Ordering::Relaxed);
                    let before = reach.calls;
                    if let Err(differs) = one(&mut pair, seed_of(options.seed, i), &mut reach) {
                        stop.store(true, Ordering::Relaxed);
                        *found.lock().expect("no thread panics") = Some(differs);
                    }
                    calls.fetch_add(reach.calls - before, Ordering::Relaxed);
                }
                total.lock().expect("no thread panics").add(&reach);
            });
        }
    });
    if let Some((history, differs)) = found.into_inner().expect("no thread panics") {
        show(&mut Pair::new(), history, &differs);
        return ExitCode::from(1);
    }
    let reach = total.into_inner().expect("no thread panics");
    print!("{}", reach.table());
    let missing = reach.missing();
    println!(
        "{} calls compared in {} histories ({} steps with looks and snapshots), seed {}, {} s: no difference",
        reach.calls,
        next.into_inner(),
        reach.steps,
        options.seed,
        began.elapsed().as_secs()
    );
    for text in &missing {
        println!("never reached: {text}");
    }
    ExitCode::from(if missing.is_empty() { 0 } else { 3 })
}

/// Prints a difference as the shortest history that shows it.
fn show(pair: &mut Pair, history: History, differs: &str) {
    println!("differs: {differs}");
    let long = history.steps.len();
    let (short, differs) = shrink::shrink(pair, history);
    println!(
        "# {} steps, from {long}; save as a file and run: compare --replay FILE",
        short.steps.len()
    );
    println!("# {differs}");
    print!("{short}");
}

fn replay(file: &str, wrong: Option<&str>) -> ExitCode {
    let text = match std::fs::read_to_string(file) {
        Ok(text) => text,
        Err(why) => {
            eprintln!("compare: {file}: {why}");
            return ExitCode::from(2);
        }
    };
    let history = match History::parse(&text) {
        Ok(history) => history,
        Err(why) => {
            eprintln!("compare: {file}: {why}");
            return ExitCode::from(2);
        }
    };
    let mut pair = Pair::new();
    if wrong.is_some_and(|name| !spoil(&mut pair, name)) {
        return ExitCode::from(2);
    }
    if let Err(differs) = pair.start(history.start) {
        println!("at the start: {differs}");
        return ExitCode::from(1);
    }
    for step in &history.steps {
        match pair.step(step) {
            Ok(came) => println!("{step}\n    {}", words(&came)),
            Err(differs) => {
                println!("{step}\n    differs: {differs}");
                return ExitCode::from(1);
            }
        }
    }
    println!("{} steps: no difference", history.steps.len());
    ExitCode::SUCCESS
}

/// The events of a call that a replay shows.
const SHOWN: usize = 8;

fn words(came: &Came) -> String {
    match came {
        Came::Answered { value, words } => {
            let read = value.map_or(String::new(), |value| format!(" {value:02X}"));
            let events = words.iter().take(SHOWN).filter_map(|word| Event::from_word(*word));
            let events: String = events.map(|event| format!("\n    {event:02X?}")).collect();
            let more = words.len().saturating_sub(SHOWN);
            let more = if more > 0 { format!("\n    and {more} more") } else { String::new() };
            format!("answered{read}{events}{more}")
        }
        Came::Refused(number) => format!("refused by {number}"),
        Came::Looked => "looks agree".into(),
        Came::Restored => "read back".into(),
    }
}

#[cfg(not(feature = "wrong"))]
fn wrong(_: &str, _: u64) -> ExitCode {
    eprintln!("compare: built without the wrong versions: cargo run --features wrong ..");
    ExitCode::from(2)
}

#[cfg(not(feature = "wrong"))]
fn spoil(_: &mut Pair, name: &str) -> bool {
    wrong(name, 0);
    false
}

/// The wrong versions of a name, or none, which is then said.
#[cfg(feature = "wrong")]
fn chosen(name: &str) -> Vec<compare::wrong::Wrong> {
    use compare::wrong::Wrong;
    let all = Wrong::ALL.iter().copied();
    let chosen: Vec<Wrong> = all.filter(|w| name == "all" || name == w.word()).collect();
    if chosen.is_empty() {
        let all: Vec<_> = Wrong::ALL.iter().map(|w| w.word()).collect();
        eprintln!("compare: no wrong version {name}; there are: all {}", all.join(" "));
    }
    chosen
}

/// Puts a wrong version in the port's place.
#[cfg(feature = "wrong")]
fn spoil(pair: &mut Pair, name: &str) -> bool {
    pair.wrong = chosen(name).first().copied();
    pair.wrong.is_some()
}

/// Gives a wrong version up to a minute to be caught.
#[cfg(feature = "wrong")]
fn wrong(name: &str, seed: u64) -> ExitCode {
    let chosen = chosen(name);
    if chosen.is_empty() {
        return ExitCode::from(2);
    }
    let alone = chosen.len() == 1;
    let mut missed = 0;
    for wrong in chosen {
        let (mut pair, mut reach) = (Pair::new(), Reach::default());
        pair.wrong = Some(wrong);
        let began = Instant::now();
        let mut caught = None;
        for i in 0.. {
            if caught.is_some() || began.elapsed().as_secs() >= 60 {
                break;
            }
            caught = one(&mut pair, seed_of(seed, i), &mut reach).err();
        }
        let seconds = began.elapsed().as_secs_f64();
        println!("{}: {}", wrong.word(), wrong.text());
        match caught {
            Some((history, differs)) => {
                println!("  caught in {seconds:.2} s, after {} calls: {differs}", reach.calls);
                let (short, differs) = shrink::shrink(&mut pair, history);
                println!("  shortest history: {} steps", short.steps.len());
                if alone {
                    print!("# {differs}\n{short}");
                }
            }
            None => {
                missed += 1;
                println!("  NOT CAUGHT in {seconds:.0} s, {} calls", reach.calls);
            }
        }
    }
    println!("{missed} not caught");
    ExitCode::from(u8::from(missed > 0))
}
