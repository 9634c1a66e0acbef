//! The runs of `wipe`, and the files that they read and leave to one another.
use crate::options::{Options, Trouble};
use crate::{report, sentences};
use original::Original;
use record::{call::ARRAY, snapshot};
use std::collections::{BTreeMap, BTreeSet};
use std::path::{Path, PathBuf};
use std::{fs, io};

/// What stands behind `wipe` in each run.
pub const RUNS: [&str; 29] = [
    "fresh.history",
    "--events programmed.history",
    "--map programmed.history",
    "wiped.history",
    "--events broken-off.history",
    "--events retargeted.history",
    "--map charged.history",
    "mistake.history",
    "--go-on mistake.history",
    "--block 1 programmed.history",
    "--from 0080 --to 00FF programmed.history",
    "--at 0.001 programmed.history",
    "--go-on backwards.history",
    "--go-on mistakes.history",
    "--events absolute.history",
    "--snapshot box.snapshot programmed.history",
    "--restore box.snapshot later.history",
    "--image box.image image.history",
    "--picture box.pgm programmed.history",
    "--snapshot other.snapshot --picture nowhere/box.pgm wiped.history",
    "--restore other.snapshot wiped.history",
    "--image wiped.history fresh.history",
    "nowhere.history",
    "--block 6 fresh.history",
    "--from 0400 fresh.history",
    "--from C000 --to 00FF fresh.history",
    "--maps fresh.history",
    "fresh.history wiped.history",
    "",
];

const IMAGE: &str = "box.image";

/// An empty flash but for a password at 8000.
fn image() -> Vec<u8> {
    let mut bytes = vec![0xff; ARRAY];
    bytes[0x8000..0x8010].copy_from_slice(b"MASTER PASSWORD!");
    bytes
}

/// The examples.
pub struct Folder {
    path: PathBuf,
    /// Those that no run has read.
    pub unread: BTreeSet<String>,
    snapshots: BTreeMap<String, Vec<u8>>,
}

impl Folder {
    /// An image is put into it if it has none.
    pub fn open(path: PathBuf) -> io::Result<Self> {
        if !path.join(IMAGE).exists() {
            fs::write(path.join(IMAGE), image())?;
        }
        let name = |entry: fs::DirEntry| entry.file_name().to_string_lossy().into_owned();
        let unread = fs::read_dir(&path)?.map(|entry| entry.map(name)).collect::<Result<_, _>>()?;
        Ok(Self { path, unread, snapshots: BTreeMap::new() })
    }

    fn read<'a>(&mut self, name: &'a str) -> Result<Vec<u8>, Trouble<'a>> {
        self.unread.remove(name);
        fs::read(self.path.join(name)).map_err(|_| Trouble::NotOpened(name))
    }

    fn has_folder_of(&self, name: &str) -> bool {
        self.path.join(name).parent().is_some_and(Path::is_dir)
    }

    /// What a run begins with.
    fn chip<'a>(&mut self, options: &Options<'a>) -> Result<Original, Trouble<'a>> {
        if let Some(name) = options.restore {
            let bytes = self.snapshots.get(name).ok_or(Trouble::NotOpened(name))?;
            return Ok(Original::read_snapshot(bytes).expect("what the original wrote"));
        }
        let Some(name) = options.image else {
            return Ok(report::fresh());
        };
        let bytes = self.read(name)?;
        Original::new(&bytes).map_err(|_| Trouble::NoImage(name, bytes.len()))
    }

    fn outcome<'a>(&mut self, run: &'a str) -> Result<String, Trouble<'a>> {
        let options = Options::of(run)?;
        let chip = self.chip(&options)?;
        let history = self.read(options.history)?;
        let outcome = report::run(&options, chip, &history);
        // None of two files is written if one can't be, and then nothing is reported. The histories of such runs say nothing before.
        if let Some(name) = options.picture.filter(|name| !self.has_folder_of(name)) {
            return Err(Trouble::NotWritten(name));
        }
        if let Some(name) = options.snapshot {
            self.snapshots.insert(name.to_string(), snapshot::of(&outcome.chip));
        }
        Ok(outcome.printed)
    }

    /// All that a run prints, with its command before it and an empty line after it.
    pub fn run(&mut self, run: &str) -> String {
        let printed = self.outcome(run).unwrap_or_else(|trouble| sentences::trouble(&trouble));
        sentences::command(run) + &printed + "\n"
    }
}
