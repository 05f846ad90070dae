//! The kinds of operands: how each is written, how it is read into an instruction's numbers, and what its reach is.
//!
//! Reading leaves the decision to the proved writer. What a number may be is told here too, but only where the writer has refused, so that
//! the line can say what would be right (`complaint`). Two are judged here, since they are not among the eight numbers as they are written:
//! the 20 bits of `Upper` and the 12 of `Fence`.

use crate::number::number;
use crate::text::Piece;
use crate::wrong::{nearest, Wrong};
use sporhulma::number::{FIRST, IMMEDIATE, OPERATION, RD, RS1, RS2, SECOND};

/// The lowest and the highest of the numbers that can be written.
pub type Reach = (i64, i64);

pub enum Operand {
    /// A register, and where it goes.
    Register(usize),
    /// A number, where it goes, and its reach.
    Number(usize, Reach),
    /// The upper 20 bits of `lui` and `auipc`, as a number.
    Upper,
    /// Where a jump or branch goes: an address, or `.+8`.
    Target(Reach),
    /// `N(rs1)`, or `(rs1)` for 0.
    Memory,
    /// The same, or `rs1` for 0.
    Place,
    /// `(rs1)`.
    Base,
    Csr,
    /// A set of a fence, and where it goes.
    Set(usize),
    /// The upper 12 bits of any fence.
    Fence,
    /// What must stand there as it is.
    Literal(&'static str),
}

impl Operand {
    /// How it is written.
    pub fn usage(&self) -> String {
        match self {
            Operand::Register(RD) => "rd".into(),
            Operand::Register(RS1) => "rs1".into(),
            Operand::Register(_) => "rs2".into(),
            Operand::Target(_) => "ADDRESS".into(),
            Operand::Memory | Operand::Place => "N(rs1)".into(),
            Operand::Base => "(rs1)".into(),
            Operand::Csr => "CSR".into(),
            Operand::Set(_) => "SET".into(),
            Operand::Literal(text) => text.to_string(),
            Operand::Number(..) | Operand::Upper | Operand::Fence => "N".into(),
        }
    }

    /// Reads the operand, of an instruction at `pc`, into its numbers.
    pub fn read(&self, piece: Piece, pc: u64, numbers: &mut [u64; 8]) -> Result<(), Wrong> {
        match *self {
            Operand::Register(at) => numbers[at] = register(one(piece)?)?,
            Operand::Number(at, _) => numbers[at] = number(one(piece)?)?,
            Operand::Upper => numbers[IMMEDIATE] = upper(one(piece)?)?,
            Operand::Target(_) => numbers[IMMEDIATE] = distance(one(piece)?, pc)?,
            Operand::Memory | Operand::Place | Operand::Base => self.address(piece, numbers)?,
            Operand::Csr => numbers[FIRST] = csr(one(piece)?)?,
            Operand::Set(at) => numbers[at] = set(one(piece)?)?,
            Operand::Fence => {
                let bits = twelve(one(piece)?)?;
                numbers[OPERATION] = bits >> 8;
                numbers[FIRST] = bits >> 4 & 15;
                numbers[SECOND] = bits & 15;
            }
            Operand::Literal(wanted) => literal(piece, wanted)?,
        }
        Ok(())
    }

    /// A number and a register in brackets, as far as this kind of operand has them.
    fn address(&self, piece: Piece, numbers: &mut [u64; 8]) -> Result<(), Wrong> {
        let Some(open) = piece.text.find('(') else {
            if matches!(self, Operand::Place) {
                numbers[RS1] = register(one(piece)?)?;
                return Ok(());
            }
            let right = self.usage();
            let what = format!(
                "'{}' is not written as {right}, as in {}",
                piece.text,
                self.example()
            );
            return Err(Wrong::at(piece.column, what));
        };
        let (before, behind) = piece.split_at(open);
        if matches!(self, Operand::Base) && !before.text.is_empty() {
            let what = format!(
                "there is no '{}' before the brackets; write (rs1), as in (a0)",
                before.text
            );
            return Err(Wrong::at(before.column, what));
        }
        if !before.text.is_empty() {
            numbers[IMMEDIATE] = number(one(before)?)?;
        }
        numbers[RS1] = bracketed(behind.without_first())?;
        Ok(())
    }

    fn example(&self) -> &'static str {
        match self {
            Operand::Base => "(a0)",
            _ => "8(sp)",
        }
    }

    /// What is wrong with an operand that the writer refused, if it is this one.
    pub fn complaint(&self, piece: Piece, pc: u64, numbers: &[u64; 8]) -> Option<Wrong> {
        let (reach, at) = match *self {
            Operand::Number(at, reach) => (reach, at),
            Operand::Csr => ((0, 4095), FIRST),
            Operand::Memory | Operand::Place => ((-2048, 2047), IMMEDIATE),
            Operand::Target(reach) => return far(piece, pc, numbers[IMMEDIATE] as i64, reach),
            _ => return None,
        };
        let number = numbers[at] as i64;
        let (low, high) = reach;
        let text = piece.text.split('(').next().unwrap_or("").trim_end();
        let what = || format!("{text} is out of reach; it may be {low} to {high}");
        (!(low..=high).contains(&number)).then(|| Wrong::at(piece.column, what()))
    }
}

/// An operand that is one word.
fn one(piece: Piece) -> Result<Piece, Wrong> {
    let (first, rest) = piece.first();
    match rest.text {
        "" => Ok(piece),
        text => {
            let what = format!(
                "'{text}' follows '{}' in the same operand; write a comma between operands, and one instruction a line",
                first.text
            );
            Err(Wrong::at(rest.column, what))
        }
    }
}

fn literal(piece: Piece, wanted: &str) -> Result<(), Wrong> {
    if piece.text.split_whitespace().eq(wanted.split(' ')) {
        return Ok(());
    }
    let what = format!(
        "'{}' is not {wanted}; .insn is taken for a fence only, .insn i MISC_MEM,0,rd,rs1,N, and .word N for any word",
        piece.text
    );
    Err(Wrong::at(piece.column, what))
}

fn register(piece: Piece) -> Result<u64, Wrong> {
    let name = piece.text;
    let wrong = || {
        let right = "write a name as a0, sp, ra or x10";
        Wrong::at(piece.column, format!("'{name}' is no register; {right}"))
    };
    disasm::register_number(name)
        .map(|n| n as u64)
        .ok_or_else(wrong)
}

/// A register and a closing bracket; nothing may follow.
fn bracketed(piece: Piece) -> Result<u64, Wrong> {
    let Some(close) = piece.text.find(')') else {
        let end = piece.column + piece.text.chars().count();
        return Err(Wrong::at(
            end,
            "the closing bracket is missing; write N(rs1), as in 8(sp)",
        ));
    };
    let (inside, behind) = piece.split_at(close);
    match behind.without_first() {
        Piece { text: "", .. } => register(one(inside)?),
        rest => {
            let what = format!("'{}' follows the closing bracket; leave it out", rest.text);
            Err(Wrong::at(rest.column, what))
        }
    }
}

/// The 20 bits that `lui` writes above 12 zeros, as the number that this is.
fn upper(piece: Piece) -> Result<u64, Wrong> {
    match number(piece)? {
        bits @ 0..=0xF_FFFF => Ok(((bits << 44) as i64 >> 32) as u64),
        _ => {
            let what = format!(
                "{} is out of reach; it may be 0 to 0xfffff, the upper 20 bits",
                piece.text
            );
            Err(Wrong::at(piece.column, what))
        }
    }
}

/// The 12 bits of a fence above its registers: fm, the predecessors and the successors.
fn twelve(piece: Piece) -> Result<u64, Wrong> {
    match number(piece)? as i64 {
        number @ -2048..=2047 => Ok(number as u64 & 0xFFF),
        _ => {
            let what = format!("{} is out of reach; it may be -2048 to 2047", piece.text);
            Err(Wrong::at(piece.column, what))
        }
    }
}

/// How far a target is away.
fn distance(piece: Piece, pc: u64) -> Result<u64, Wrong> {
    let text = piece.text;
    let wrong = || {
        let what = format!("'{text}' is no target; write an address, as 0x80000008, or a distance, as .+8 (there are no labels)");
        Wrong::at(piece.column, what)
    };
    let (sign, digits) = match (text.strip_prefix(".+"), text.strip_prefix(".-")) {
        (Some(digits), _) => (1, digits),
        (_, Some(digits)) => (-1, digits),
        _ if text == "." => return Ok(0),
        _ if text.starts_with(|first: char| first.is_ascii_digit()) => {
            return Ok(number(piece)?.wrapping_sub(pc))
        }
        _ => return Err(wrong()),
    };
    if !digits.starts_with(|first: char| first.is_ascii_digit()) {
        return Err(wrong());
    }
    let magnitude = number(Piece {
        text: digits,
        column: piece.column + 2,
    })? as i64;
    // What is too large for a sign is too far too.
    Ok(magnitude
        .checked_mul(sign)
        .filter(|_| magnitude >= 0)
        .unwrap_or(i64::MAX) as u64)
}

/// What is wrong with a target so far away.
fn far(piece: Piece, pc: u64, distance: i64, (low, high): Reach) -> Option<Wrong> {
    let text = piece.text;
    let (first, last) = (pc.wrapping_add(low as u64), pc.wrapping_add(high as u64));
    let what = if !(low..=high).contains(&distance) {
        format!("{text} is out of reach; from {pc:#x} it may be {first:#x} to {last:#x}, .{low} to .+{high}")
    } else if distance % 2 != 0 {
        format!("{text} is an odd number of bytes away; a target is an even number away")
    } else {
        return None;
    };
    Some(Wrong::at(piece.column, what))
}

/// A CSR by name or number.
fn csr(piece: Piece) -> Result<u64, Wrong> {
    let name = piece.text;
    if let Some(address) = disasm::csr_address(name) {
        return Ok(address.into());
    }
    if name.starts_with(|first: char| first.is_ascii_digit()) {
        return number(piece);
    }
    let right = match nearest(name, disasm::csr_names()) {
        Some(near) => format!("did you mean {near}?"),
        None => "write another's number, 0 to 0xfff".into(),
    };
    let what = format!("'{name}' is no CSR of this hart; {right}");
    Err(Wrong::at(piece.column, what))
}

/// A set of a fence: some of the letters i, o, r, w in this order; the empty one is called `unknown`, as objdump does.
fn set(piece: Piece) -> Result<u64, Wrong> {
    if piece.text == "unknown" {
        return Ok(0);
    }
    let mut set = 0;
    for letter in piece.text.chars() {
        let bit = "wroi".find(letter).map_or(0, |place| 1 << place);
        // Each bit is below those before it.
        if bit == 0 || set & (2 * bit - 1) != 0 {
            let what = format!(
                "'{}' is no set of a fence; write some of iorw in this order, or unknown for none",
                piece.text
            );
            return Err(Wrong::at(piece.column, what));
        }
        set |= bit;
    }
    Ok(set)
}

/// The names of rd, rs1 and rs2.
pub fn register_names(numbers: &[u64; 8]) -> [&'static str; 3] {
    [RD, RS1, RS2].map(|at| disasm::register(numbers[at] as usize))
}
