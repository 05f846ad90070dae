//! Wrong readings of chapter 11, each planted in a plain reader: the texts and the comparison must find it.
//!
//! The plain reader goes by lines, as chapter 11 speaks. Without a slip it is a third reader and must agree with `second`.

use differ::case::BASE;
use differ::hex::make::Sort;
use differ::hex::soak::{Failure, Texts};
use differ::hex::Reader;
use differ::simulator::Second;
use sporhulma::Loaded;

/// Within so many texts each slip must be found.
const TEXTS: u64 = 10_000;

#[derive(Clone, Copy, PartialEq, Eq, Debug)]
enum Slip {
    Nothing,
    // Lines.
    LoneCrEndsALine,
    CrAtTheEndDropped,
    AllCrsDropped,
    CrLfNotKnown,
    EmptyLinesSkipped,
    SpaceBeforeSkipped,
    SpaceBehindSkipped,
    LinesWithoutColonSkipped,
    TextEndsAtControlZ,
    // Well-formed or not.
    SmallLettersRefused,
    CapitalsRefused,
    BothInAPairRefused,
    HighBitIgnored,
    MorePairsIgnored,
    LengthSigned,
    LengthOf01Ignored,
    LengthOf04Ignored,
    LengthOf05Ignored,
    OffsetOf01Ignored,
    OffsetOf04Ignored,
    OffsetOf05Ignored,
    // Checksums and types.
    ChecksumIgnored,
    ChecksumOfDataAlone,
    ChecksumIsTheSum,
    OtherTypesSkipped,
    Type02Read,
    // Addresses.
    UpperStays0,
    UpperAdds,
    UpperLittleEndian,
    UpperForgottenAfterStart,
    StartSetsUpper,
    OffsetWraps,
    CarryChangesUpper,
    MemoryAt0,
    NoBytesOutsideRefused,
    OnlyFirstByteJudged,
    OnlyLastByteJudged,
    LastByteRefused,
    ByteBehindTaken,
    // Start addresses.
    FirstStartKept,
    StartOnRefusal,
    Start0IsNone,
    StartOutsideRefused,
    // Answers.
    StoredBeforeJudged,
    EarlierWins,
    LinesFrom0,
    LastBadLineNamed,
    LineNumbersOf8Bits,
    LineNumbersOf16Bits,
    MissingEndAccepted,
    MissingEndNamesLastLine,
    TextAfterAccepted,
    TextAfterJudged,
    TextAfterNamesTheEnd,
    SecondEndAccepted,
    EmptyLineAfterAccepted,
    Refusal2Last,
    Refusal2HasALine,
    NoMemoryTaken,
    OddMemoryTaken,
    LargeMemoryTaken,
}

use Slip::*;

#[rustfmt::skip]
const SLIPS: [Slip; 61] = [
    LoneCrEndsALine, CrAtTheEndDropped, AllCrsDropped, CrLfNotKnown, EmptyLinesSkipped, SpaceBeforeSkipped, SpaceBehindSkipped,
    LinesWithoutColonSkipped, TextEndsAtControlZ, SmallLettersRefused, CapitalsRefused, BothInAPairRefused, HighBitIgnored,
    MorePairsIgnored, LengthSigned, LengthOf01Ignored, LengthOf04Ignored, LengthOf05Ignored, OffsetOf01Ignored, OffsetOf04Ignored,
    OffsetOf05Ignored, ChecksumIgnored, ChecksumOfDataAlone, ChecksumIsTheSum, OtherTypesSkipped, Type02Read, UpperStays0, UpperAdds,
    UpperLittleEndian, UpperForgottenAfterStart, StartSetsUpper, OffsetWraps, CarryChangesUpper, MemoryAt0, NoBytesOutsideRefused,
    OnlyFirstByteJudged, OnlyLastByteJudged, LastByteRefused, ByteBehindTaken, FirstStartKept, StartOnRefusal, Start0IsNone,
    StartOutsideRefused, StoredBeforeJudged, EarlierWins, LinesFrom0, LastBadLineNamed, LineNumbersOf8Bits, LineNumbersOf16Bits,
    MissingEndAccepted, MissingEndNamesLastLine, TextAfterAccepted, TextAfterJudged, TextAfterNamesTheEnd, SecondEndAccepted,
    EmptyLineAfterAccepted, Refusal2Last, Refusal2HasALine, NoMemoryTaken, OddMemoryTaken, LargeMemoryTaken,
];

struct Record {
    kind: u8,
    offset: u64,
    data: Vec<u8>,
}

/// What was read of a text so far.
#[derive(Default)]
struct Read {
    upper: u64,
    start: Option<u64>,
    /// What data records name: an address for each byte.
    bytes: Vec<(u64, u8)>,
    ended: bool,
    wrong: Vec<u64>,
}

struct Plain(Slip);

impl Reader for Plain {
    fn load(&self, memory: &mut [u8], text: &[u8]) -> Loaded {
        let fits = self.fits(memory.len());
        if !fits && !self.is(Refusal2Last) {
            return Loaded {
                refusal: 2,
                line: u64::from(self.is(Refusal2HasALine)),
                start: None,
            };
        }
        let read = self.read(memory.len() as u64, text);
        let named = match self.is(LastBadLineNamed) {
            true => read.wrong.last(),
            false => read.wrong.first(),
        };
        if named.is_none() || self.is(StoredBeforeJudged) {
            self.store(&read, memory);
        }
        let start = read
            .start
            .filter(|start| !(self.is(Start0IsNone) && *start == 0));
        match named {
            None if !fits => refused(2, 0),
            None => Loaded {
                refusal: 0,
                line: 0,
                start,
            },
            Some(line) => Loaded {
                start: start.filter(|_| self.is(StartOnRefusal)),
                ..refused(6, self.number(*line))
            },
        }
    }
}

fn refused(refusal: u64, line: u64) -> Loaded {
    Loaded {
        refusal,
        line,
        start: None,
    }
}

impl Plain {
    fn is(&self, slip: Slip) -> bool {
        self.0 == slip
    }

    fn fits(&self, length: usize) -> bool {
        (length > 0 || self.is(NoMemoryTaken))
            && (length % 4096 == 0 || self.is(OddMemoryTaken))
            && (length <= 1_048_576 || self.is(LargeMemoryTaken))
    }

    fn number(&self, line: u64) -> u64 {
        match self.0 {
            LinesFrom0 => line - 1,
            LineNumbersOf8Bits => line & 0xFF,
            LineNumbersOf16Bits => line & 0xFFFF,
            _ => line,
        }
    }

    fn store(&self, read: &Read, memory: &mut [u8]) {
        let base = if self.is(MemoryAt0) { 0 } else { BASE };
        let place = |address: u64| usize::try_from(address.wrapping_sub(base)).ok();
        let mut put = |(address, byte): &(u64, u8)| {
            if let Some(to) = place(*address).and_then(|place| memory.get_mut(place)) {
                *to = *byte;
            }
        };
        match self.is(EarlierWins) {
            true => read.bytes.iter().rev().for_each(&mut put),
            false => read.bytes.iter().for_each(&mut put),
        }
    }

    /// The lines without their ends.
    fn lines<'a>(&self, text: &'a [u8]) -> Vec<&'a [u8]> {
        let mut text = text;
        if let (true, Some(at)) = (
            self.is(TextEndsAtControlZ),
            text.iter().position(|byte| *byte == 0x1A),
        ) {
            text = &text[..at];
        }
        if self.is(CrAtTheEndDropped) {
            text = text.strip_suffix(b"\r").unwrap_or(text);
        }
        let ends = |byte: &u8| *byte == b'\n' || self.is(LoneCrEndsALine) && *byte == b'\r';
        let mut lines: Vec<&[u8]> = text.split(ends).collect();
        let last = lines.pop().filter(|last| !last.is_empty());
        let cut = |line: &mut &'a [u8]| match self.0 {
            CrLfNotKnown => {}
            AllCrsDropped => {
                while let Some(rest) = line.strip_suffix(b"\r") {
                    *line = rest
                }
            }
            _ => *line = line.strip_suffix(b"\r").unwrap_or(line),
        };
        lines.iter_mut().for_each(cut);
        lines.extend(last);
        lines
    }

    fn read(&self, memory: u64, text: &[u8]) -> Read {
        let mut read = Read::default();
        let lines = self.lines(text);
        let mut number = 0;
        for line in &lines {
            number += 1;
            if read.ended && !self.is(TextAfterJudged) {
                if !self.passes_after(line) {
                    let end = u64::from(self.is(TextAfterNamesTheEnd));
                    read.wrong.push(number - end);
                }
            } else if !self.skips(line) && self.line(memory, line, &mut read).is_none() {
                read.wrong.push(number);
            }
        }
        if !read.ended && !self.is(MissingEndAccepted) {
            let last = self.is(MissingEndNamesLastLine) && number > 0;
            read.wrong.push(number + u64::from(!last));
        }
        read
    }

    fn passes_after(&self, line: &[u8]) -> bool {
        match self.0 {
            TextAfterAccepted => true,
            SecondEndAccepted => line == b":00000001FF",
            EmptyLineAfterAccepted => line.is_empty(),
            _ => false,
        }
    }

    fn skips(&self, line: &[u8]) -> bool {
        match self.0 {
            EmptyLinesSkipped => line.is_empty(),
            LinesWithoutColonSkipped => line.first() != Some(&b':'),
            _ => false,
        }
    }

    /// Takes a line into what was read; nothing if it is wrong.
    fn line(&self, memory: u64, line: &[u8], read: &mut Read) -> Option<()> {
        let record = self.record(line)?;
        let Record { kind, offset, data } = record;
        let fixed = |length: usize, other_length, other_offset| {
            let right = data.len() == length || self.is(other_length);
            (right && (offset == 0 || self.is(other_offset))).then_some(())
        };
        match kind {
            0 => return self.data(memory, offset, &data, read),
            1 => {
                fixed(0, LengthOf01Ignored, OffsetOf01Ignored)?;
                read.ended = true;
            }
            4 => {
                fixed(2, LengthOf04Ignored, OffsetOf04Ignored)?;
                self.upper(&data, read);
            }
            5 => {
                fixed(4, LengthOf05Ignored, OffsetOf05Ignored)?;
                self.start(memory, &data, read)?;
            }
            2 if self.is(Type02Read) => read.upper = number(&data) << 4,
            _ => return self.is(OtherTypesSkipped).then_some(()),
        }
        Some(())
    }

    fn upper(&self, data: &[u8], read: &mut Read) {
        let upper = number(data) << 16;
        read.upper = match self.0 {
            UpperStays0 => 0,
            UpperAdds => read.upper + upper,
            UpperLittleEndian => number(&data.iter().rev().copied().collect::<Vec<_>>()) << 16,
            _ => upper,
        };
    }

    fn start(&self, memory: u64, data: &[u8], read: &mut Read) -> Option<()> {
        let start = number(data);
        if self.is(StartOutsideRefused) && !(BASE..BASE + memory).contains(&start) {
            return None;
        }
        if !(self.is(FirstStartKept) && read.start.is_some()) {
            read.start = Some(start);
        }
        match self.0 {
            UpperForgottenAfterStart => read.upper = 0,
            StartSetsUpper => read.upper = start & !0xFFFF,
            _ => {}
        }
        Some(())
    }

    fn data(&self, memory: u64, offset: u64, data: &[u8], read: &mut Read) -> Option<()> {
        let address = |at: u64| match self.0 {
            OffsetWraps => read.upper + (offset + at & 0xFFFF),
            _ => read.upper + offset + at,
        };
        let base = if self.is(MemoryAt0) { 0 } else { BASE };
        let end = match self.0 {
            LastByteRefused => base + memory - 1,
            ByteBehindTaken => base + memory + 1,
            _ => base + memory,
        };
        let inside = |at: u64| (base..end).contains(&address(at));
        let length = data.len() as u64;
        let good = match self.0 {
            NoBytesOutsideRefused if length == 0 => inside(0),
            OnlyFirstByteJudged => length == 0 || inside(0),
            OnlyLastByteJudged => length == 0 || inside(length - 1),
            _ => (0..length).all(inside),
        };
        let bytes: Vec<(u64, u8)> = (0..).map(address).zip(data.iter().copied()).collect();
        if good {
            read.bytes.extend(bytes);
        }
        if self.is(CarryChangesUpper) && offset + length > 0x1_0000 {
            read.upper += 0x1_0000;
        }
        good.then_some(())
    }

    /// A line as a record; nothing if it is malformed or its checksum is wrong.
    fn record(&self, line: &[u8]) -> Option<Record> {
        let line = match self.0 {
            SpaceBeforeSkipped => line.trim_ascii_start(),
            SpaceBehindSkipped => line.trim_ascii_end(),
            _ => line,
        };
        let digits = line.strip_prefix(b":")?;
        let pairs = digits.chunks(2).map(|pair| self.pair(pair));
        let mut bytes: Vec<u8> = pairs.collect::<Option<_>>()?;
        let length = usize::from(*bytes.first()?);
        if self.is(MorePairsIgnored) {
            bytes.truncate(length + 5);
        }
        if bytes.len() != length + 5 || self.is(LengthSigned) && length > 127 {
            return None;
        }
        let counted = if self.is(ChecksumOfDataAlone) {
            &bytes[4..]
        } else {
            &bytes[..]
        };
        let sum: u64 = counted.iter().map(|byte| u64::from(*byte)).sum();
        let right = match self.0 {
            ChecksumIgnored => true,
            ChecksumIsTheSum => {
                (sum - u64::from(*bytes.last()?)) % 256 == u64::from(*bytes.last()?)
            }
            _ => sum % 256 == 0,
        };
        let record = Record {
            kind: bytes[3],
            offset: number(&bytes[1..3]),
            data: bytes[4..4 + length].to_vec(),
        };
        right.then_some(record)
    }

    fn pair(&self, pair: &[u8]) -> Option<u8> {
        let &[high, low] = pair else { return None };
        let [small, capital] =
            [u8::is_ascii_lowercase, u8::is_ascii_uppercase].map(|is| pair.iter().any(is));
        let refused = match self.0 {
            SmallLettersRefused => small,
            CapitalsRefused => capital,
            BothInAPairRefused => small && capital,
            _ => false,
        };
        if refused {
            return None;
        }
        let mask = if self.is(HighBitIgnored) { 0x7F } else { 0xFF };
        let value = |digit: u8| char::from(digit & mask).to_digit(16);
        Some((value(high)? << 4 | value(low)?) as u8)
    }
}

/// Bytes as a number, the first the highest.
fn number(bytes: &[u8]) -> u64 {
    bytes
        .iter()
        .fold(0, |number, byte| number << 8 | u64::from(*byte))
}

/// The first text that `wanted` chooses of those on which two readers differ, or that they answer otherwise than it was made for.
fn first(
    left: impl Reader,
    right: impl Reader,
    texts: u64,
    wanted: impl Fn(&Failure) -> bool,
) -> Option<Failure> {
    let mut soak = Texts::new(left, right, 1);
    for number in 0..texts {
        soak.text(number);
        if let Some(failure) = soak.failures.pop().filter(&wanted) {
            return Some(failure);
        }
    }
    None
}

#[test]
fn each_slip_is_found() {
    for slip in SLIPS {
        let found = first(Plain(slip), Second, TEXTS, |_| true);
        assert!(found.is_some(), "{slip:?}: not found in {TEXTS} texts");
    }
}

/// Two readers with the same slip agree: what the texts were made for finds it.
#[test]
fn each_slip_is_found_where_both_have_it() {
    for slip in SLIPS {
        let found = first(Plain(slip), Plain(slip), TEXTS, |_| true);
        assert!(found.is_some(), "{slip:?}: not found in {TEXTS} texts");
    }
}

/// A damage is wrong in its own way: the slip that lets it pass is found by it.
#[test]
#[rustfmt::skip]
fn a_slip_is_found_by_its_damage() {
    for (slip, damage) in [
        (ChecksumIgnored, "a wrong checksum"),
        (MissingEndAccepted, "a missing end"),
        (SecondEndAccepted, "a second end record"),
        (OtherTypesSkipped, "another type"),
        (LoneCrEndsALine, "a lone CR as a line's end"),
        (CrAtTheEndDropped, "a lone CR at the text's end"),
        (OffsetOf04Ignored, "type 04 with an offset"),
        (LengthOf05Ignored, "type 05 without four bytes"),
        (OnlyFirstByteJudged, "data over memory's last byte"),
        (OnlyLastByteJudged, "data over memory's first byte"),
        (ByteBehindTaken, "data just behind memory"),
    ] {
        let by = |failure: &Failure| failure.made.sort == Sort::Damaged(damage);
        let found = first(Plain(slip), Second, TEXTS, by);
        assert!(found.is_some(), "{slip:?}: not found by '{damage}'");
    }
}

/// Without a slip the plain reader is right: what the tests above find is the slip and nothing else.
#[test]
fn no_slip_no_difference() {
    let found = first(Plain(Slip::Nothing), Second, 3 * TEXTS, |_| true);
    if let Some(failure) = found {
        panic!("{}: {:?}", failure.title(), failure.differences);
    }
}
