//! The page map as a small text file: a line a page, `VIRTUAL -> PHYSICAL FLAGS`, or many, `FIRST..END -> PHYSICAL FLAGS`; comments from
//! `#` on.
//!
//! FLAGS are letters of the Sv39 leaf (r w x u g, and v a d, which are set unless `!v`, `!a` or `!d` clears
//! them), or the name `shadow` for W alone. `VIRTUAL -> leaf WORD` gives the leaf word whole, so that every
//! map that the hart takes can be written. docs/DESK.md has the form for users.

use crate::failure::Failure;
use crate::number::number;
use formats::leaf::{self, FRAME, FRAME_SHIFT, NUMBERS, R, V, W, X};
pub use formats::leaf::{A, D, ENTRIES as MOST, PAGE};

/// Bits 0 to 7 of a leaf, by the letters that stand for them.
const LETTERS: [char; 8] = ['v', 'r', 'w', 'x', 'u', 'g', 'a', 'd'];

/// A line of the map.
#[derive(Clone, Copy, Debug, PartialEq)]
pub struct Entry {
    /// The virtual page number, 27 bits.
    pub page: u64,
    pub leaf: u64,
    /// Where the map's file has it.
    pub line: usize,
}

impl Entry {
    /// The physical address of the frame (bits 53:10 of the leaf are its number).
    pub fn frame(&self) -> u64 {
        ((self.leaf & FRAME) >> FRAME_SHIFT) * PAGE
    }

    /// The virtual address of the page, bits 63:39 as bit 38.
    pub fn address(&self) -> u64 {
        leaf::address(self.page)
    }

    /// Whether the leaf's bit of this letter is set.
    pub fn has(&self, letter: char) -> bool {
        let bit = LETTERS.iter().position(|&known| known == letter);
        bit.is_some_and(|bit| self.leaf >> bit & 1 == 1)
    }

    /// R, W and X as far as they are set.
    pub fn rwx(&self) -> String {
        "rwx".chars().filter(|&letter| self.has(letter)).collect()
    }

    /// The entry as the map's file would give it, with the letter of each set bit and `-` for the others.
    pub fn text(&self) -> String {
        let shown = |&letter: &char| if self.has(letter) { letter } else { '-' };
        let flags: String = LETTERS.iter().map(shown).collect();
        format!("{:#x} -> {:#x} {flags}", self.address(), self.frame())
    }

    /// The entry, and where the map's file has it.
    pub fn placed(&self) -> String {
        format!("{} (line {} of the map)", self.text(), self.line)
    }

    /// The entry as a row of a report.
    pub fn row(&self) -> (&'static str, String) {
        ("entry", self.placed())
    }
}

/// The entries in rising order of their pages, and the same as the words that the hart takes.
#[derive(Clone, Debug, Default)]
pub struct PageMap {
    pub entries: Vec<Entry>,
    pub words: Vec<u64>,
}

impl PageMap {
    /// Reads the text of a map; `file` is its name in an error.
    pub fn parse(file: &str, text: &str) -> Result<PageMap, Failure> {
        let mut entries: Vec<Entry> = Vec::new();
        let (mut count, mut over) = (0, None);
        for (line, content) in (1..).zip(text.lines()) {
            let content = content.split('#').next().unwrap_or_default().trim();
            if content.is_empty() {
                continue;
            }
            let place = format!("{file}:{line}");
            let pages = pages(content).map_err(|wrong| Failure::at(&place, wrong))?;
            count += pages.count;
            if count > MOST as u64 {
                over = over.or(Some(line));
                continue;
            }
            for entry in pages.entries(line) {
                if let Some(first) = entries.iter().find(|one| one.page == entry.page) {
                    let wrong = format!(
                        "page {:#x} stands already in line {}; give each page once",
                        first.address(),
                        first.line
                    );
                    return Err(Failure::at(&place, wrong));
                }
                entries.push(entry);
            }
        }
        if let Some(line) = over {
            let wrong = format!("the map has {count} pages, and the hart takes at most {MOST}; this line is the first over it");
            return Err(Failure::at(&format!("{file}:{line}"), wrong));
        }
        entries.sort_by_key(|entry| entry.page);
        let words = entries
            .iter()
            .flat_map(|entry| [entry.page, entry.leaf])
            .collect();
        Ok(PageMap { entries, words })
    }
}

/// The pages of a line: the number and the leaf of the first, and how many there are, each in the frame behind the one before.
struct Pages {
    page: u64,
    leaf: u64,
    count: u64,
}

impl Pages {
    fn entries(&self, line: usize) -> impl Iterator<Item = Entry> + '_ {
        (0..self.count).map(move |at| Entry {
            page: self.page + at,
            leaf: self.leaf + (at << FRAME_SHIFT),
            line,
        })
    }
}

fn pages(content: &str) -> Result<Pages, String> {
    let Some((virtuals, target)) = content.split_once("->") else {
        return Err(format!(
            "'{content}' has no '->'; write for instance 0x10000 -> 0x80001000 rw u"
        ));
    };
    let (page, count) = page_numbers(virtuals.trim())?;
    let mut words = target.split_whitespace();
    let leaf =
        match words.next() {
            Some("leaf") if count > 1 => return Err(
                "'leaf' gives the word of one page; for a range give a physical address and flags"
                    .into(),
            ),
            Some("leaf") => whole_leaf(words)?,
            Some(frame) => {
                let first = frame_number(frame)?;
                frame_fits(first + (count - 1))?;
                first << FRAME_SHIFT | flags(words)?
            }
            None => {
                return Err(
                    "the frame is missing; write for instance 0x10000 -> 0x80001000 rw u".into(),
                )
            }
        };
    Ok(Pages { page, leaf, count })
}

/// The number of the first page, and how many there are.
fn page_numbers(text: &str) -> Result<(u64, u64), String> {
    let Some((first, end)) = text.split_once("..") else {
        return Ok((page_number(text)?, 1));
    };
    let (first, end) = (first.trim(), end.trim());
    let page = page_number(first)?;
    let (start, behind) = (number(first)?, number(end)?);
    aligned("virtual", behind)?;
    if behind <= start {
        let right = match start.checked_add(PAGE) {
            Some(right) => {
                format!("its end is the first address behind it, for instance {right:#x}")
            }
            None => "give the last page a line of its own".into(),
        };
        return Err(format!("the range {first}..{end} has no page; {right}"));
    }
    let last = page_number(&format!("{:#x}", behind - PAGE))?;
    match last.checked_sub(page) {
        Some(more) if start >> 38 == (behind - PAGE) >> 38 => Ok((page, more + 1)),
        _ => Err(format!(
            "the range {first}..{end} goes over addresses that are not of Sv39; give two ranges"
        )),
    }
}

fn page_number(text: &str) -> Result<u64, String> {
    let address = number(text)?;
    aligned("virtual", address)?;
    match address as i64 >> 38 {
        0 | -1 => Ok(address / PAGE % NUMBERS),
        _ => Err(format!(
            "virtual address {address:#x} is not of Sv39; its bits 63:39 must equal bit 38"
        )),
    }
}

fn frame_number(text: &str) -> Result<u64, String> {
    let address = number(text)?;
    aligned("physical", address)?;
    frame_fits(address / PAGE)?;
    Ok(address / PAGE)
}

fn frame_fits(frame: u64) -> Result<(), String> {
    match frame >> 44 {
        0 => Ok(()),
        _ => Err(format!(
            "physical address {:#x} has more than 56 bits, the most that a leaf holds",
            u128::from(frame) * u128::from(PAGE)
        )),
    }
}

fn aligned(kind: &str, address: u64) -> Result<(), String> {
    match address % PAGE {
        0 => Ok(()),
        over => Err(format!(
            "{kind} address {address:#x} is not a multiple of 4096; try {:#x}",
            address - over
        )),
    }
}

fn whole_leaf<'a>(mut words: impl Iterator<Item = &'a str>) -> Result<u64, String> {
    match (words.next(), words.next()) {
        (Some(word), None) => number(word),
        _ => Err("'leaf' takes one word; write for instance 0x10000 -> leaf 0x200004d7".into()),
    }
}

/// The bits of the leaf that the rest of a line asks for.
fn flags<'a>(words: impl Iterator<Item = &'a str> + Clone) -> Result<u64, String> {
    if words.clone().next().is_none() {
        return Err("the flags are missing; write for instance rw u, r-x u or shadow u".into());
    }
    let shadow = words.clone().any(|word| word == "shadow");
    let (mut set, mut cleared) = (V | A | D, 0);
    for word in words {
        match word.strip_prefix('!') {
            Some(letters) if !letters.is_empty() => cleared |= bits(word, letters)?,
            None if word == "shadow" => set |= W,
            _ => set |= bits(word, word)?,
        }
    }
    if shadow && set & (R | W | X) != W {
        return Err("'shadow' is W alone; leave out r and x, or 'shadow'".into());
    }
    Ok(set & !cleared)
}

fn bits(word: &str, letters: &str) -> Result<u64, String> {
    let mut bits = 0;
    for letter in letters.chars().filter(|&letter| letter != '-') {
        let Some(bit) = LETTERS.iter().position(|&known| known == letter) else {
            return Err(format!(
                "'{word}' is no flag; use letters of v r w x u g a d, !v !a !d, or shadow"
            ));
        };
        bits |= 1 << bit;
    }
    Ok(bits)
}

#[cfg(test)]
mod tests {
    use super::*;

    fn leaf(line: &str) -> u64 {
        PageMap::parse("m", line).unwrap().words[1]
    }

    #[test]
    fn flags_become_bits() {
        assert_eq!(leaf("0x1000 -> 0x80001000 rwx u"), 0x80001 << 10 | 0xdf);
        assert_eq!(leaf("0x1000 -> 0x80001000 r-x u g"), 0x80001 << 10 | 0xfb);
        assert_eq!(leaf("0x1000 -> 0x80001000 shadow u"), 0x80001 << 10 | 0xd5);
        assert_eq!(leaf("0x1000 -> 0x80001000 rw !ad"), 0x80001 << 10 | 0x07);
        assert_eq!(
            leaf("0x1000 -> 0x80001000 rw !v # off"),
            0x80001 << 10 | 0xc6
        );
        assert_eq!(
            leaf("0x1000 -> leaf 0xffff_0000_0000_0001"),
            0xffff_0000_0000_0001
        );
    }

    #[test]
    fn entries_are_sorted_and_keep_their_lines() {
        let map = "# stack\n0xffffffc000000000 -> 0x80002000 rw\n\n0x1000 -> 0x80001000 rx\n";
        let map = PageMap::parse("m", map).unwrap();
        let seen: Vec<_> = map.entries.iter().map(|e| (e.address(), e.line)).collect();
        assert_eq!(seen, [(0x1000, 4), (0xffff_ffc0_0000_0000, 2)]);
        assert_eq!(map.words[2], 0x400_0000);
        assert_eq!(
            map.entries[1].text(),
            "0xffffffc000000000 -> 0x80002000 vrw---ad"
        );
    }
}
