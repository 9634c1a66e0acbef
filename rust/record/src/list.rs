//! The list: rows, one after the other, each with what the original answered. The replay has one buffer: each row with an answer writes its
//! snapshot to the buffer's beginning, firmware is made there, and C and K change what the next S reads.
use crate::call::{Call, Firmware, History};
use crate::coverage::Coverage;
use crate::crc::crc32;
use crate::row::{Row, ROW};
use crate::snapshot;
use original::{event_word, refusal_number, Error, Event, Original};

const REGISTERS: [u16; 5] = [0xf020, 0xf021, 0xf022, 0xf023, 0xf02b];
const NAME: usize = 62;

/// A group: its name, its rows, and those of them that have an answer.
pub struct Group {
    pub name: String,
    pub rows: usize,
    pub answers: usize,
}

/// The whole list, and what it is made of.
pub struct Recorded {
    pub bytes: Vec<u8>,
    pub sum: u32,
    pub groups: Vec<Group>,
    pub coverage: Coverage,
}

pub struct List {
    bytes: Vec<u8>,
    groups: Vec<Group>,
    coverage: Coverage,
    chip: Original,
    /// As the replay has it: what the next restoring reads.
    buffer: Vec<u8>,
    length: usize,
    /// The time of the next row.
    pub now: u128,
}

impl List {
    pub fn new() -> Self {
        let chip = Original::new(&[0xff; crate::call::ARRAY]).expect("firmware of its length");
        Self {
            bytes: Vec::new(),
            groups: Vec::new(),
            coverage: Coverage::default(),
            chip,
            buffer: vec![0; snapshot::LONGEST],
            length: 0,
            now: 0,
        }
    }

    fn push(&mut self, row: Row) {
        self.bytes.extend(row.0);
        self.coverage.row(row.0[0]);
        if let Some(group) = self.groups.last_mut() {
            group.rows += 1;
        }
    }

    /// The last row, with the number of rows and the sum of all bytes before the sum.
    pub fn finish(mut self) -> Recorded {
        let rows = self.bytes.len() / ROW + 1;
        self.bytes.extend(Row::new(b'Z').size(rows).0);
        let end = self.bytes.len() - 4;
        let sum = crc32(&self.bytes[..end]);
        self.bytes[end..].copy_from_slice(&sum.to_le_bytes());
        Recorded { bytes: self.bytes, sum, groups: self.groups, coverage: self.coverage }
    }

    pub fn group(&mut self, name: &str) {
        assert!(name.len() <= NAME, "a name has room for {NAME} bytes: {name}");
        self.groups.push(Group { name: name.to_string(), rows: 0, answers: 0 });
        let row = Row::new(b'G').value(name.len() as u8).put(2, name.as_bytes());
        self.push(row);
    }

    /// Ends a row with what the chip is left in, at the row's time: registers, `normal`, `validate`, image, snapshot.
    fn left(&mut self, row: Row) {
        let chip = &self.chip;
        let flags = [u8::from(chip.normal(self.now)), u8::from(chip.validate(self.now).is_ok())];
        let snapshot = snapshot::of(chip);
        let row = row
            .put(36, &REGISTERS.map(|address| chip.register(address)))
            .put(41, &flags)
            .put(44, &crc32(&chip.image(self.now)[..]).to_le_bytes())
            .put(48, &(snapshot.len() as u32).to_le_bytes())
            .put(52, &crc32(&snapshot).to_le_bytes());
        self.buffer[..snapshot.len()].copy_from_slice(&snapshot);
        self.length = snapshot.len();
        self.coverage.pages(snapshot::pages(&snapshot));
        self.groups.last_mut().expect("rows stand in groups").answers += 1;
        self.push(row);
    }

    /// A new array at `now`, unless the firmware has another length.
    pub fn firmware(&mut self, firmware: Firmware) {
        let bytes = firmware.bytes();
        self.buffer[..bytes.len()].copy_from_slice(&bytes);
        let number = match Original::new(&bytes) {
            Ok(chip) => {
                self.chip = chip;
                0
            }
            Err(Error::ImageSize { .. }) => 1,
            Err(other) => panic!("document 01 has no number for {other:?}"),
        };
        self.coverage.refusal(number);
        let row = Row::new(b'N')
            .value(number)
            .size(bytes.len())
            .time(self.now)
            .put(24, &firmware.seed.to_le_bytes())
            .put(28, &firmware.factor.to_le_bytes())
            .put(32, &firmware.step.to_le_bytes());
        self.left(row);
    }

    /// A new array at time 0.
    pub fn fresh(&mut self, firmware: Firmware) {
        self.now = 0;
        self.firmware(firmware);
    }

    pub fn call(&mut self, call: Call) {
        let mut events: Vec<Event> = Vec::new();
        let value = call.run(&mut self.chip, self.now, &mut events);
        let words: Vec<u64> = events.iter().map(event_word).collect();
        words.iter().for_each(|word| self.coverage.event(*word));
        let bytes: Vec<u8> = words.iter().flat_map(|word| word.to_le_bytes()).collect();
        let row = Self::asked(call)
            .put(6, &u16::try_from(words.len()).expect("a range and its end").to_le_bytes())
            .time(self.now)
            .put(24, &crc32(&bytes).to_le_bytes())
            .put(28, &value.to_le_bytes());
        self.left(row);
    }

    /// The row of a call, before its answer.
    fn asked(call: Call) -> Row {
        match call {
            Call::WriteRegister(address, value) => Row::new(b'W').address(address).value(value),
            Call::Write8(address, value) => Row::new(b'D').address(address).value(value),
            Call::Read8(address) => Row::new(b'B').address(address),
            Call::Read16(address) => Row::new(b'H').address(address),
            Call::Protect => Row::new(b'P'),
            Call::Reset => Row::new(b'R'),
            Call::PowerOff => Row::new(b'O'),
            Call::Environment(number, module, oscillator) => {
                let flags = [u8::from(module), u8::from(oscillator)];
                Row::new(b'E').value(number).put(4, &flags)
            }
        }
    }

    /// A register of any address.
    pub fn register(&mut self, address: u16) {
        let value = self.chip.register(address);
        self.left(Row::new(b'Q').address(address).value(value).time(self.now));
    }

    /// Byte, charge and blank page of an address and a bit at a time from `now` on. The original has no function for the last two: a
    /// charge is the one in the snapshot of a settled copy; a page is blank if the image has FF throughout.
    pub fn look(&mut self, address: u16, bit: u8, at: u128) {
        let image = self.chip.image(at);
        let page = &image[usize::from(address) / 128 * 128..][..128];
        let charge = snapshot::charge(&snapshot::settled(&self.chip, at), address, bit);
        let seen = [self.chip.peek(address, at), u8::from(page.iter().all(|byte| *byte == 0xff))];
        let row = Row::new(b'L')
            .value(bit)
            .address(address)
            .time(at)
            .put(24, &seen)
            .put(28, &charge.to_le_bytes());
        let now = std::mem::replace(&mut self.now, at);
        self.left(row);
        self.now = now;
    }

    /// Changes bytes of what the next restoring reads.
    pub fn patch(&mut self, at: usize, bytes: &[u8]) {
        self.buffer[at..at + bytes.len()].copy_from_slice(bytes);
        let row = Row::new(b'C').value(bytes.len() as u8).size(at).put(24, bytes);
        assert!(bytes.len() <= 8, "a patch has room for eight bytes");
        self.push(row);
    }

    /// Changes how many bytes the next restoring reads.
    pub fn cut(&mut self, length: usize) {
        assert!(length <= self.buffer.len(), "past the buffer");
        self.length = length;
        self.push(Row::new(b'K').size(length));
    }

    /// Reads a snapshot from the buffer at `now`, and takes its state if it is valid. Gives the refusal's number.
    pub fn restore(&mut self) -> u8 {
        let number = match Original::read_snapshot(&self.buffer[..self.length]) {
            Err(error) => refusal_number(&error),
            Ok(chip) => match chip.validate(self.now) {
                Err(Error::Snapshot(_)) => 12,
                Err(other) => panic!("document 01 has no number for {other:?}"),
                Ok(()) => {
                    self.chip = chip;
                    0
                }
            },
        };
        self.coverage.refusal(number);
        self.left(Row::new(b'S').value(number).time(self.now));
        number
    }

    /// The snapshot of the chip as it is: what the last row that has an answer left in the buffer.
    pub fn saved(&self) -> Vec<u8> {
        snapshot::of(&self.chip)
    }

    /// A whole history.
    pub fn history(&mut self, history: &History) {
        self.fresh(history.firmware);
        for (call, at) in &history.calls {
            assert!(*at >= self.now, "times rise");
            self.now = *at;
            self.call(*call);
        }
    }
}

impl Recorded {
    pub fn rows(&self) -> usize {
        self.bytes.len() / ROW
    }

    /// What the replay writes where every answer is as recorded.
    pub fn expected(&self) -> String {
        let answers: usize = self.groups.iter().map(|group| group.answers).sum();
        let line =
            |group: &Group| format!("{}: {} answers as recorded\n", group.name, group.answers);
        let lines: String = self.groups.iter().map(line).collect();
        format!(
            "{lines}total: {} groups, {answers} answers, 0 differ; list of {} rows, sum {:08x}, whole\n",
            self.groups.len(),
            self.rows(),
            self.sum
        )
    }
}
