//! GNU as, reading our text, gives the word back.
//!
//! A jump or branch target, which we write as an address, is handed over as the distance from the
//! instruction (`.+8`): as takes an address as a symbol of its own and would turn a branch to it
//! into a branch over a jump. All else is handed over as it is.
//!
//! Texts that as of binutils 2.40 cannot read are counted apart: Zimop, Zicfiss, `lpad`, `ssp`, and
//! a fence with an empty set, which objdump calls `unknown` and so do we. That it refuses each one
//! of them is also checked.

use crate::gnu;
use crate::objdump::unknown_to_gnu;
use crate::report::Report;
use crate::words::{sample, BASE};
use std::collections::BTreeSet;

const AS: [&str; 4] = [
    "-march=rv64im_zicsr_zbb",
    "-mabi=lp64",
    "-mno-relax",
    "-mno-arch-attr",
];

pub fn compare(seed: u64) -> Result<u64, String> {
    let mut report = Report::new("as");
    let words = sample(seed);
    let (unreadable, readable): (Vec<u32>, Vec<u32>) = words
        .iter()
        .partition(|&&word| unreadable(&disasm::text(word, BASE)).is_some());
    let texts: Vec<_> = readable
        .iter()
        .enumerate()
        .map(|(place, &word)| text(word, BASE + 4 * place as u64))
        .collect();
    for ((word, text), back) in readable.iter().zip(&texts).zip(assembled(&texts)?) {
        match back == *word {
            true => report.count(if text.starts_with(".word") {
                "given back: .word"
            } else {
                "given back: an instruction"
            }),
            false => report.difference(format!(
                "word 0x{word:08x}: `{text}` is 0x{back:08x} to as; seed {seed}"
            )),
        }
    }
    refused(&mut report, &unreadable, seed)?;
    Ok(report.finish(format!(
        "{} words, seed {seed}, {}",
        words.len(),
        gnu::version("as")?
    )))
}

/// Why as of binutils 2.40 cannot read the text; none if it can.
pub fn unreadable(text: &str) -> Option<&'static str> {
    let name = text.split(' ').next().unwrap_or("");
    let uses = |wanted| text.split([' ', ',']).any(|operand| operand == wanted);
    match name {
        ".insn" => None,
        "lpad" => Some("a landing pad"),
        _ if unknown_to_gnu(name) => Some("Zimop and Zicfiss"),
        _ if uses("ssp") => Some("the name ssp"),
        _ if uses("unknown") => Some("a fence with an empty set"),
        _ => None,
    }
}

/// The text of `word` at `pc`, with a jump or branch target as a distance.
pub fn text(word: u32, pc: u64) -> String {
    let text = disasm::text(word, pc);
    if !matches!(word & 0x7f, 0x63 | 0x6f) || text.starts_with(".word") {
        return text;
    }
    let at = text
        .rfind("0x")
        .expect("a jump or branch ends with its target");
    let target =
        u64::from_str_radix(&text[at + 2..], 16).expect("a target is a hexadecimal number");
    format!("{}.{:+}", &text[..at], target.wrapping_sub(pc) as i64)
}

/// The words that as and ld make of the texts, one each.
pub fn assembled(texts: &[String]) -> Result<Vec<u32>, String> {
    let [source, object, linked, image] =
        ["words.s", "words.o", "words.elf", "words-back.bin"].map(gnu::file);
    let (source, object, linked, image) = (source?, object?, linked?, image?);
    gnu::write(
        &source,
        (".globl _start\n_start:\n".to_string() + &texts.join("\n") + "\n").as_bytes(),
    )?;
    let path = |path: &std::path::PathBuf| path.display().to_string();
    gnu::output(
        "as",
        &[&AS[..], &["-o", &path(&object), &path(&source)]].concat(),
    )?;
    gnu::output(
        "ld",
        &[
            "--no-relax",
            &format!("-Ttext={BASE:#x}"),
            "-o",
            &path(&linked),
            &path(&object),
        ],
    )?;
    gnu::output(
        "objcopy",
        &["-O", "binary", "-j", ".text", &path(&linked), &path(&image)],
    )?;
    let words = |bytes: &[u8]| u32::from_le_bytes(bytes.try_into().expect("four bytes"));
    let back: Vec<u32> = gnu::read(&image)?.chunks_exact(4).map(words).collect();
    match back.len() == texts.len() {
        true => Ok(back),
        false => Err(format!(
            "as: {} gave {} words, not {}",
            path(&source),
            back.len(),
            texts.len()
        )),
    }
}

/// Checks that as refuses the text of each of the words.
fn refused(report: &mut Report, words: &[u32], seed: u64) -> Result<(), String> {
    let texts: Vec<_> = words.iter().map(|&word| text(word, BASE)).collect();
    let lines = refused_lines(&texts)?;
    for (place, (word, text)) in words.iter().zip(&texts).enumerate() {
        match lines.contains(&(place + 1)) {
            true => report.count(format!(
                "apart: as refuses it: {}",
                unreadable(text).expect("only such texts are here")
            )),
            false => report.difference(format!(
                "word 0x{word:08x}: as takes `{text}`, which it should not know; seed {seed}"
            )),
        }
    }
    Ok(())
}

/// The numbers, from 1, of the lines that as refuses.
pub fn refused_lines(texts: &[String]) -> Result<BTreeSet<usize>, String> {
    let source = gnu::file("refused.s")?;
    gnu::write(&source, (texts.join("\n") + "\n").as_bytes())?;
    let said = gnu::run(
        "as",
        &[&AS[..], &["-o", "/dev/null", &source.display().to_string()]].concat(),
    )?;
    let start = format!("{}:", source.display());
    let number = |line: &str| line.strip_prefix(&start)?.split(':').next()?.parse().ok();
    Ok(said.errors.lines().filter_map(number).collect())
}

#[cfg(test)]
mod tests {
    use super::*;

    #[test]
    fn a_target_is_handed_over_as_a_distance() {
        assert_eq!(text(0xffdff0ef, BASE), "jal .-4");
        assert_eq!(text(0x00050463, BASE), "beqz a0,.+8");
        assert_eq!(text(0x12345537, BASE), "lui a0,0x12345");
    }

    #[test]
    fn what_as_cannot_read() {
        for text in [
            "sspush ra",
            "mop.r.0 a0,a1",
            "lpad 0x1",
            "csrr a0,ssp",
            "fence w,unknown",
        ] {
            assert!(unreadable(text).is_some(), "{text}");
        }
        for text in [
            "ret",
            "csrr a0,0x11",
            ".insn i MISC_MEM,0,a0,a1,291 # fence",
            ".word 0x00000003",
        ] {
            assert_eq!(unreadable(text), None, "{text}");
        }
    }
}
