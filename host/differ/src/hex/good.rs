//! Texts that must be loaded, with what they store.

use crate::case::BASE;
use formats::hex::{record, DATA, END, MOST_DATA, START, UPPER, WINDOW};
use formats::random::Random;

pub const LF: &[u8] = b"\n";
pub const CR_LF: &[u8] = b"\r\n";

/// Upper addresses at which no memory is, however large.
const FAR: [u16; 7] = [0, 1, 0x0080, 0x7FFF, 0x8010, 0xFFFE, 0xFFFF];

/// More lines than 16 bits can count.
const MANY: usize = 66_000;

/// What a good text can have that a reader could get wrong.
pub const FEATURES: [&str; 22] = [
    LINE_ENDS[0],
    LINE_ENDS[1],
    LINE_ENDS[2],
    "last line without an end",
    CAPITALS,
    SMALL,
    BOTH,
    "no data at all",
    "past 65,535",
    "two records name a byte",
    "first byte of memory",
    "last byte of memory",
    "255 data bytes",
    "no bytes in memory",
    "no bytes outside",
    "upper address changed",
    "a start address",
    "several start addresses",
    "start address 0",
    "4,096 bytes of memory",
    "1,048,576 bytes of memory",
    "over 65,535 lines",
];
const LINE_ENDS: [&str; 3] = ["LF", "CR LF", "LF and CR LF"];
const CAPITALS: &str = "capitals";
const SMALL: &str = "small letters";
const BOTH: &str = "both in a pair";

pub struct Line {
    pub bytes: Vec<u8>,
    pub end: &'static [u8],
}

pub struct Text {
    /// The length of the memory that it is for.
    pub memory: usize,
    pub lines: Vec<Line>,
    /// What it stores, in order: a place in memory and the bytes.
    pub stores: Vec<(usize, Vec<u8>)>,
    pub start: Option<u64>,
    /// Those of `FEATURES` that it has.
    pub features: Vec<&'static str>,
}

impl Text {
    pub fn bytes(&self) -> Vec<u8> {
        let lines = self.lines.iter();
        let parts: Vec<&[u8]> = lines.flat_map(|line| [&line.bytes[..], line.end]).collect();
        parts.concat()
    }

    fn note(&mut self, feature: &'static str) {
        if !self.features.contains(&feature) {
            self.features.push(feature);
        }
    }
}

/// A text that is loaded into a memory of so many bytes, whole pages.
pub fn good(random: &mut Random, memory: usize) -> Text {
    let mut maker = Maker {
        letters: random.pick(&[CAPITALS, CAPITALS, SMALL, BOTH]),
        ends: random.pick(&LINE_ENDS),
        random,
        upper: 0,
        starts: 0,
        text: Text {
            memory,
            lines: Vec::new(),
            stores: Vec::new(),
            start: None,
            features: Vec::new(),
        },
    };
    let records = match maker.random.below(1_000) {
        0 => maker.many(),
        1 => 256 + maker.random.below(256),
        2..=50 => 0,
        51..=80 => 20 + maker.random.below(40),
        _ => 1 + maker.random.below(8),
    };
    for _ in 0..records {
        maker.any();
    }
    maker.finish()
}

struct Maker<'a> {
    random: &'a mut Random,
    letters: &'static str,
    ends: &'static str,
    upper: u16,
    starts: u64,
    text: Text,
}

impl Maker<'_> {
    fn any(&mut self) {
        match self.random.below(100) {
            0..=63 => self.data(),
            64..=73 => self.nothing(),
            74..=83 => self.start(),
            84..=91 => {
                let windows = (self.text.memory as u64).div_ceil(WINDOW);
                let upper = BASE / WINDOW + self.random.below(windows);
                self.upper(upper as u16);
            }
            _ => {
                let anything = self.random.word() as u16;
                let upper = self.random.pick(&FAR);
                let upper = self.random.pick(&[upper, upper, upper, anything]);
                self.upper(upper);
            }
        }
    }

    fn add(&mut self, kind: u8, offset: u16, data: &[u8]) {
        let mut bytes = record(kind, offset, data).into_bytes();
        let mut bits = self.random.word();
        for digit in &mut bytes {
            if self.letters == SMALL || self.letters == BOTH && bits & 1 == 1 {
                digit.make_ascii_lowercase();
            }
            bits = bits.rotate_right(1);
        }
        let end = match self.ends {
            "LF" => LF,
            "CR LF" => CR_LF,
            _ => self.random.pick(&[LF, CR_LF]),
        };
        self.text.lines.push(Line { bytes, end });
    }

    fn upper(&mut self, upper: u16) {
        if ![0, upper].contains(&self.upper) {
            self.text.note("upper address changed");
        }
        self.upper = upper;
        self.add(UPPER, 0, &upper.to_be_bytes());
    }

    fn data(&mut self) {
        let anything = 1 + self.random.below(MOST_DATA as u64) as usize;
        let length = self
            .random
            .pick(&[1, 2, 3, 4, 8, 16, 16, 32, MOST_DATA, anything]);
        let place = self.place(length);
        let address = BASE + place as u64;
        let (upper, offset) = ((address / WINDOW) as u16, (address % WINDOW) as u16);
        if upper != self.upper || self.random.chance(5) {
            self.upper(upper);
        }
        let data: Vec<u8> = (0..length).map(|_| self.random.word() as u8).collect();
        self.add(DATA, offset, &data);
        self.note_data(place, usize::from(offset), length);
        self.text.stores.push((place, data));
    }

    /// Where so many bytes go: anywhere, at memory's ends, over an earlier record or over a multiple of 65,536.
    fn place(&mut self, length: usize) -> usize {
        let most = self.text.memory - length;
        let below = |random: &mut Random, limit: usize| random.below(limit as u64) as usize;
        let near = below(self.random, length + 1);
        let place = match self.random.below(100) {
            0..=29 => below(self.random, most + 1),
            30..=44 => below(self.random, 3),
            45..=59 => most - below(self.random, 3),
            60..=79 if !self.text.stores.is_empty() => {
                let earlier = below(self.random, self.text.stores.len());
                let (place, data) = &self.text.stores[earlier];
                (place + below(self.random, data.len())).saturating_sub(near / 2)
            }
            _ => {
                let windows = self.text.memory / WINDOW as usize;
                let window = (1 + below(self.random, windows + 1)) * WINDOW as usize;
                window - near
            }
        };
        place.min(most)
    }

    fn note_data(&mut self, place: usize, offset: usize, length: usize) {
        let meets = |(other, data): &(usize, Vec<u8>)| {
            place < other + data.len() && *other < place + length
        };
        let is = [
            ("past 65,535", offset + length > WINDOW as usize),
            (
                "two records name a byte",
                self.text.stores.iter().any(meets),
            ),
            ("first byte of memory", place == 0),
            ("last byte of memory", place + length == self.text.memory),
            ("255 data bytes", length == MOST_DATA),
        ];
        for (feature, _) in is.into_iter().filter(|(_, is)| *is) {
            self.text.note(feature);
        }
    }

    /// A data record of no bytes, wherever it points.
    fn nothing(&mut self) {
        let anything = self.random.word() as u16;
        let offset = self.random.pick(&[0, 0xFFFF, anything]);
        let address = u64::from(self.upper) * WINDOW + u64::from(offset);
        let inside = (BASE..BASE + self.text.memory as u64).contains(&address);
        self.text.note(match inside {
            true => "no bytes in memory",
            false => "no bytes outside",
        });
        self.add(DATA, offset, &[]);
    }

    fn start(&mut self) {
        let anything = self.random.word() as u32;
        let inside = BASE as u32 + (anything as usize % self.text.memory) as u32;
        let address = self.random.pick(&[anything, inside, inside, 0, u32::MAX]);
        self.starts += 1;
        self.text.start = Some(address.into());
        self.add(START, 0, &address.to_be_bytes());
    }

    /// Very many records of no bytes; gives how many others shall follow.
    fn many(&mut self) -> u64 {
        for _ in 0..MANY {
            self.nothing();
        }
        self.text.note("over 65,535 lines");
        4
    }

    /// The end record, and what can be said of the whole text.
    fn finish(mut self) -> Text {
        self.add(END, 0, &[]);
        let mut text = self.text;
        if text.lines.len() == 1 {
            text.note("no data at all");
        }
        if self.random.chance(25) {
            text.note("last line without an end");
            text.lines.last_mut().expect("the end record").end = &[];
        }
        let has = |end: &[u8]| text.lines.iter().any(|line| line.end == end);
        match (has(LF), has(CR_LF)) {
            (true, false) => text.note(LINE_ENDS[0]),
            (false, true) => text.note(LINE_ENDS[1]),
            (true, true) => text.note(LINE_ENDS[2]),
            (false, false) => {}
        }
        match self.starts {
            0 => {}
            1 => text.note("a start address"),
            _ => text.note("several start addresses"),
        }
        if text.start == Some(0) {
            text.note("start address 0");
        }
        match text.memory {
            0x1000 => text.note("4,096 bytes of memory"),
            0x10_0000 => text.note("1,048,576 bytes of memory"),
            _ => {}
        }
        note_letters(&mut text);
        text
    }
}

/// Which letters a text has; both in a pair only where a pair has both.
fn note_letters(text: &mut Text) {
    let mut has = [false; 3];
    for pair in text.lines.iter().flat_map(|line| line.bytes[1..].chunks(2)) {
        let capital = pair.iter().any(u8::is_ascii_uppercase);
        let small = pair.iter().any(u8::is_ascii_lowercase);
        has = [has[0] | capital, has[1] | small, has[2] | (capital & small)];
    }
    for (feature, _) in [CAPITALS, SMALL, BOTH]
        .into_iter()
        .zip(has)
        .filter(|(_, has)| *has)
    {
        text.note(feature);
    }
}
