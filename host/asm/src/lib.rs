//! The word of an instruction from its GNU-style text: the other way of `disasm`, whose text of every word gives that word again.
//!
//! A line is read into the eight numbers of include/sporhulma.h, and the proved writer decides: its word is the line's, and what it refuses
//! is refused. `table` has the mnemonics, `operand` the kinds of operands, `text` cuts a line into pieces. A line holds one instruction or
//! none; `#` begins a comment. There are no labels: a target is an address, or a distance as `.+8`.

mod number;
mod operand;
mod table;
mod text;
mod wrong;

use operand::register_names;
use sporhulma::number::{FAMILY, OPERATION, RD};
use table::{numbered, rows, Row, ROWS};
use text::Piece;
pub use wrong::{nearest, Wrong, WrongLine};

/// The directive for a word that is given as a number, of which nothing is asked.
const WORD: &str = ".word";

/// The words of a text, whose first instruction stands at `at` and each next one 4 bytes on.
pub fn words(text: &str, at: u64) -> Result<Vec<u32>, WrongLine> {
    let mut words = Vec::new();
    let mut pc = at;
    for (line, content) in (1..).zip(text.lines()) {
        let word = word(content, pc).map_err(|wrong| WrongLine { line, wrong })?;
        if let Some(word) = word {
            words.push(word);
            pc = pc.wrapping_add(4);
        }
    }
    Ok(words)
}

/// The word of a line that stands at `pc`; none where it is blank or a comment.
pub fn word(line: &str, pc: u64) -> Result<Option<u32>, Wrong> {
    let (mnemonic, rest) = Piece::line(line).first();
    match mnemonic.text {
        "" => Ok(None),
        WORD => given(mnemonic, rest).map(Some),
        _ => instruction(mnemonic, rest, pc).map(Some),
    }
}

/// The names that a line may begin with, `N` for a number.
pub fn mnemonics() -> impl Iterator<Item = &'static str> {
    ROWS.iter().map(|row| row.name).chain([WORD])
}

/// The word of `.word`.
fn given(mnemonic: Piece, rest: Piece) -> Result<u32, Wrong> {
    let column = rest.column.max(mnemonic.column + WORD.len());
    let wrong = |what: &str| {
        let right = "write .word N, N from 0 to 0xffffffff";
        Wrong::at(column, format!("{what}; {right}"))
    };
    if rest.text.is_empty() {
        return Err(wrong("the word is missing"));
    }
    let number = number::number(rest)?;
    u32::try_from(number).map_err(|_| wrong(&format!("{} has more than 32 bits", rest.text)))
}

fn instruction(mnemonic: Piece, rest: Piece, pc: u64) -> Result<u32, Wrong> {
    let (name, number) = numbered(mnemonic.text);
    let operands = rest.operands();
    let row = chosen(mnemonic, name, rest, &operands)?;
    if let Some(empty) = operands.iter().find(|piece| piece.text.is_empty()) {
        let what = format!("an operand is missing here; write {}", row.usage());
        return Err(Wrong::at(empty.column, what));
    }
    let mut numbers = row.numbers;
    if let Some(n) = number {
        numbers[OPERATION] = n;
    }
    for (operand, &piece) in row.operands.iter().zip(&operands) {
        operand.read(piece, pc, &mut numbers)?;
    }
    let mut word = 0;
    match sporhulma::write(&numbers, &mut word) {
        0 => Ok(word),
        _ => Err(refused(row, mnemonic, &operands, pc, &numbers)),
    }
}

/// The row of this name that has so many operands.
fn chosen(
    mnemonic: Piece,
    name: &str,
    rest: Piece,
    operands: &[Piece],
) -> Result<&'static Row, Wrong> {
    let found: Vec<&Row> = rows(name).collect();
    let Some(most) = found.iter().map(|row| row.operands.len()).max() else {
        return Err(unknown(mnemonic));
    };
    let fits = |row: &&&Row| row.operands.len() == operands.len();
    if let Some(row) = found.iter().find(fits) {
        return Ok(row);
    }
    let usages: Vec<String> = found.iter().map(|row| row.usage()).collect();
    let column = match operands.get(most) {
        Some(surplus) => surplus.column,
        None => rest.column + rest.text.chars().count(),
    };
    let what = match operands.len() {
        1 => "1 operand is".to_string(),
        count => format!("{count} operands are"),
    };
    Err(Wrong::at(
        column,
        format!("{what} given; write {}", usages.join(" or ")),
    ))
}

/// What is said of a mnemonic that is not in the table.
fn unknown(mnemonic: Piece) -> Wrong {
    let name = mnemonic.text;
    let right = match nearest(&name.to_lowercase(), mnemonics()) {
        _ if name.ends_with(':') => {
            "there are no labels; give targets as addresses or as .+8".to_string()
        }
        Some(near) => format!("did you mean {near}?"),
        None => "write one of this hart's, as addi, or .word N".to_string(),
    };
    Wrong::at(
        mnemonic.column,
        format!("'{name}' is no instruction of this hart; {right}"),
    )
}

/// Why the writer refused these numbers.
fn refused(row: &Row, mnemonic: Piece, operands: &[Piece], pc: u64, numbers: &[u64; 8]) -> Wrong {
    let pairs = row.operands.iter().zip(operands);
    let complaint = pairs
        .clone()
        .find_map(|(operand, &piece)| operand.complaint(piece, pc, numbers));
    if let Some(wrong) = complaint {
        return wrong;
    }
    let [rd, rs1, rs2] = register_names(numbers);
    let first = operands
        .first()
        .map_or(mnemonic.column, |piece| piece.column);
    let at_name = |what: String| Wrong::at(mnemonic.column, what);
    let other = |right: String| at_name(format!("this word is that of {right}; write {right}"));
    match (numbers[FAMILY], numbers[OPERATION]) {
        (18, _) => Wrong::at(
            first,
            "ssrdp reads into any register but zero; write for instance a0",
        ),
        (19 | 20, _) => Wrong::at(first, format!("{} takes ra or t0 (x1 or x5)", row.name)),
        (22, 28) if numbers[RD] != 0 => other(format!("ssrdp {rd}")),
        (22, 28) => other(format!("sspopchk {rs1}")),
        (23, 7) => other(format!("sspush {rs2}")),
        (22, _) => at_name("the number of mop.r.N is 0 to 31".into()),
        (23, _) => at_name("the number of mop.rr.N is 0 to 7".into()),
        _ => at_name("no word reads as this instruction".into()),
    }
}
