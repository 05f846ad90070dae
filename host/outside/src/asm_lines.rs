//! The library of `desk asm` beside GNU as: the same words for the same lines, and the same lines refused.
//!
//! The lines are the texts of the sample's legal words, which have every instruction of the hart, of random legal words, and some
//! spellings that the disassembler does not print. Both get the same line: a jump or branch has its target as a distance (`.+8`), as in
//! `assembler`. What as of binutils 2.40 cannot read (Zimop, Zicfiss, `lpad`, the name `ssp`, a fence with an empty set) is left out and
//! counted, and so are the mnemonics of the table that no line has for that reason.

use crate::assembler::{assembled, refused_lines, text, unreadable};
use crate::gnu;
use crate::report::Report;
use crate::stream;
use crate::words::{sample, BASE};
use std::collections::BTreeSet;

/// How many random legal words there are.
const RANDOM: usize = 100_000;

/// Spellings that the disassembler does not print, and two words that the sample may not have.
const SPELLINGS: [&str; 26] = [
    "addi x10, fp, -2048",
    "addi a0,a0,0xffffffffffffffff",
    "andi a0 , a1 , 0b11",
    "slli a0,a0,63",
    "slliw a0,a0,31",
    "lui a0,1048575",
    "auipc a0,0",
    "jal x1,.+4",
    "jal x0,.-4",
    "jalr a0,a1,4",
    "jalr x0,0(ra)",
    "jalr (a0)",
    "jr (a0)",
    "lw a0,(a1)",
    "lw a0, -0x8 ( sp )",
    "bgt a0,a1,.+8",
    "ble a0,a1,.-8",
    "bgtu a0,a1,.+4094",
    "bleu a0,a1,.-4096",
    "beq zero,zero,.+8",
    "csrrw zero,0xc00,zero",
    "csrrs a0,768,x0",
    "csrrwi x0,mscratch,31",
    "addi a0,a0,1 # a comment",
    "unimp",
    "fence.tso",
];

/// Lines that both refuse. Targets out of reach are none of them: as makes two instructions of such a branch.
const REFUSED: [&str; 22] = [
    "addi a0,a0,2048",
    "addi a0,a0,-2049",
    "slli a0,a0,64",
    "slli a0,a0,-1",
    "slliw a0,a0,32",
    "srai a0,a0,64",
    "sraiw a0,a0,32",
    "lui a0,0x100000",
    "lui a0,-1",
    "jalr a0,a1,2048",
    "csrw 4096,a0",
    "csrwi mscratch,32",
    "fence wr,r",
    "fence r,rr",
    "addi a0,a0",
    "add a0,a0,a1,a2",
    "add a0,a1,b2",
    "add x32,a1,a2",
    "ret ra",
    "adi a0,a0,1",
    "add a0 a1,a2",
    "lw a0,8(a1",
];

pub fn compare(seed: u64) -> Result<u64, String> {
    let mut report = Report::new("asm");
    let lines = lines(&mut report, seed);
    let words = assembled(&lines)?;
    let mut met = BTreeSet::new();
    for (place, (line, theirs)) in lines.iter().zip(words).enumerate() {
        let pc = BASE + 4 * place as u64;
        match asm::word(line, pc) {
            Ok(Some(ours)) if ours == theirs => {
                report.count("the same word");
                met.insert(line.split(' ').next().unwrap_or(""));
            }
            ours => report.difference(format!(
                "`{line}` is 0x{theirs:08x} to as, and {ours:x?} to us; seed {seed}"
            )),
        }
    }
    let apart = mnemonics(&mut report, &met);
    refused(&mut report)?;
    Ok(report.finish(format!(
        "{} lines, {} mnemonics, {apart} apart, seed {seed}, {}",
        lines.len(),
        met.len(),
        gnu::version("as")?
    )))
}

/// The lines that as can read; the others are counted.
fn lines(report: &mut Report, seed: u64) -> Vec<String> {
    let random = &mut stream(seed, 0xA1);
    let legal = |word: &u32| sporhulma::family(*word) != 0;
    let drawn = std::iter::repeat_with(|| random.word() as u32 | 3);
    let drawn = drawn.filter(legal).take(RANDOM);
    let words = sample(seed).into_iter().filter(legal).chain(drawn);
    let mut lines = Vec::new();
    for word in words {
        match unreadable(&disasm::text(word, BASE)) {
            None => lines.push(text(word, BASE + 4 * lines.len() as u64)),
            Some(why) => report.count(format!("apart: as cannot read it: {why}")),
        }
    }
    lines.extend(SPELLINGS.map(str::to_string));
    lines
}

/// Every mnemonic of our table was in a line, or is one that as cannot read; gives how many are that.
fn mnemonics(report: &mut Report, met: &BTreeSet<&str>) -> usize {
    let names: BTreeSet<&str> = asm::mnemonics().filter(|name| *name != ".word").collect();
    let missing: Vec<&&str> = names.iter().filter(|name| !met.contains(**name)).collect();
    for name in &missing {
        if unreadable(name).is_none() {
            report.difference(format!("no line has {name}, which as should know"));
        }
    }
    missing.len()
}

fn refused(report: &mut Report) -> Result<(), String> {
    let lines = REFUSED.map(str::to_string);
    let theirs = refused_lines(&lines)?;
    for (number, line) in (1..).zip(&lines) {
        match (asm::word(line, BASE), theirs.contains(&number)) {
            (Err(_), true) => report.count("refused by both"),
            (Err(_), false) => report.difference(format!("`{line}`: as takes it, and we do not")),
            (Ok(_), _) => report.difference(format!("`{line}`: we take it")),
        }
    }
    Ok(())
}
