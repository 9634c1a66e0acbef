//! The lines, in the order of the table.
use crate::{
    line::{Goal, Line, Operation},
    state::{Firmware, State},
};

/// One light call, at most.
const LIGHT: Goal = Goal::Nanos(1_000.0);
/// Calls by value, the record read and written once.
const REPLAY: Goal = Goal::Ratio(1.0);
const BLOCK: Goal = Goal::Ratio(0.5);
const PAGE: Goal = Goal::Ratio(0.7);
const ONE_BYTE: Goal = Goal::Ratio(0.01);
const IMAGE: Goal = Goal::Ratio(0.5);
const SNAPSHOT: Goal = Goal::Ratio(0.5);

/// The block that is looked at under an erase: the largest.
const LARGEST: usize = 4;
/// The pages that snapshots have.
const SNAPSHOT_PAGES: [usize; 6] = [0, 1, 8, 128, 224, 384];
/// Blocks of each size, and the pages of each.
const BLOCKS: [(usize, usize); 3] = [(0, 8), (5, 128), (4, 224)];

pub const OPENED: &str = "settle, opened";
pub const FIRST: &str = "settle, first";
pub const WRITE: &str = "snapshot write";
pub const READ: &str = "snapshot read";

fn line(name: impl Into<String>, state: State, operation: Operation, goal: Goal) -> Line {
    Line { name: name.into(), state, operation, goal, growth: None }
}

fn count(pages: usize) -> String {
    format!("{pages} page{}", if pages == 1 { "" } else { "s" })
}

fn light() -> Vec<Line> {
    let replay = line(
        "replay of a million register writes without pulse",
        State::Idle(0),
        Operation::Replay,
        REPLAY,
    );
    [0, 384]
        .into_iter()
        .flat_map(|pages| {
            let light = |name: &str, operation| {
                let name = format!("{name}, {} opened", count(pages));
                line(name, State::Idle(pages), operation, LIGHT)
            };
            [
                light("register write without pulse", Operation::WriteRegister),
                light("data write without pulse", Operation::Latch),
                light("byte read, served", Operation::Read8),
            ]
        })
        .chain([replay])
        .collect()
}

fn settles() -> Vec<Line> {
    use Operation::{Settle, SettleFirst};
    let page = State::Program(Firmware::Mixed);
    let blank = State::Program(Firmware::All(0xff));
    let mut lines = vec![
        Line {
            growth: Some((OPENED, 1)),
            ..line("settle a program page, opened", page, Settle, PAGE)
        },
        Line {
            growth: Some((FIRST, 1)),
            ..line("settle a program page, first", blank, SettleFirst, PAGE)
        },
    ];
    for (block, pages) in BLOCKS {
        let name = |when| format!("settle an erase of block {block} ({pages} pages), {when}");
        let state = |firmware| State::Erase(firmware, block);
        lines.push(Line {
            growth: Some((OPENED, pages)),
            ..line(name("opened"), state(Firmware::Mixed), Settle, BLOCK)
        });
        lines.push(Line {
            growth: Some((FIRST, pages)),
            ..line(name("first"), state(Firmware::All(0)), SettleFirst, BLOCK)
        });
    }
    lines
}

fn looks() -> Vec<Line> {
    use Operation::{BlankPage, CellCharge, Image, Peek};
    let erase = State::Erase(Firmware::Mixed, LARGEST);
    vec![
        line("peek under an erase of block 4", erase, Peek, ONE_BYTE),
        line("cell charge under an erase of block 4 (original: peek)", erase, CellCharge, ONE_BYTE),
        line(
            "blank page under an erase of block 4 (original: image)",
            erase,
            BlankPage,
            Goal::None,
        ),
        line("image under an erase of block 4", erase, Image, IMAGE),
        line("image without pulse, 384 pages opened", State::Idle(384), Image, Goal::None),
    ]
}

fn snapshots() -> Vec<Line> {
    use Operation::{ReadSnapshot, WriteSnapshot};
    [(WRITE, WriteSnapshot), (READ, ReadSnapshot)]
        .into_iter()
        .flat_map(|(family, operation)| {
            SNAPSHOT_PAGES.map(|pages| Line {
                growth: Some((family, pages)),
                ..line(
                    format!("{family}, {}", count(pages)),
                    State::Idle(pages),
                    operation,
                    SNAPSHOT,
                )
            })
        })
        .collect()
}

pub fn all() -> Vec<Line> {
    [light(), settles(), looks(), snapshots()].into_iter().flatten().collect()
}
