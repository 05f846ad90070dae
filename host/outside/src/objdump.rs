//! Our text of many words beside GNU objdump's, and our verdict (instruction or not) beside both
//! simulators' decoders.
//!
//! The words lie in an object whose attributes say rv64gc with Zba, Zbb, Zbc and Zbs (`KNOWN`), so
//! that objdump has a name for each instruction of M and Zbb and for those beside them that the hart
//! does not have. The rule by which a line is compared, made for binutils 2.40:
//! 1. objdump's tab is a space, and both texts end before ` # `: objdump adds an address there that
//!    it guesses from the words before, and we say `fence` of a word for which GNU has no name.
//! 2. Where the last operand is a number, `add` is read as `addi`, and so on for the names in
//!    `IMMEDIATE`: binutils 2.40 prints the manual's `addi a0,a0,1` as `add a0,a0,1`.
//! 3. Then the texts must be equal, or `.word` with us and `.4byte` there with the same number
//!    (objdump leaves out leading zeros).
//!
//! What is counted apart, and nothing else:
//! - Words that are not 32 bits long for GNU (bits 1:0 not 11, or bits 4:0 all 1): ours must be
//!   `.word`.
//! - Zimop, Zicfiss and fences with reserved fields, which this objdump does not know: it must
//!   print `.4byte`.
//! - Landing pads: `lpad N` of ours must be `auipc zero,N`.
//! - CSRs that the hart does not have, by number with us and by name there, and `ssp`, which this
//!   objdump does not know: all but that operand must be equal; or GNU's alias must be one that
//!   names such a CSR (`CSR_ALIASES`).
//! - Instructions that the hart does not have (`further`): ours must be `.word`.

use crate::gnu;
use crate::report::Report;
use crate::words::{sample, BASE};
use formats::extensions::{added, ABSENT};

/// What objdump is to know.
const KNOWN: &str = "-march=rv64gc_zba_zbb_zbc_zbs";

pub fn compare(seed: u64) -> Result<u64, String> {
    let mut report = Report::new("objdump");
    let words = sample(seed);
    let (long, odd): (Vec<u32>, Vec<u32>) = words
        .iter()
        .partition(|&&word| word & 3 == 3 && word & 0x1f != 0x1f);
    let theirs = disassembled(&long)?;
    for (place, (&word, theirs)) in long.iter().zip(&theirs).enumerate() {
        let ours = disasm::text(word, BASE + 4 * place as u64);
        match judge(&ours, theirs) {
            Some(label) => report.count(match added(word) {
                Some(_) => label + " of M or Zbb",
                None => label,
            }),
            None => report.difference(format!(
                "word 0x{word:08x}: ours `{ours}`, objdump's `{theirs}`; seed {seed}"
            )),
        }
    }
    for word in odd {
        match disasm::text(word, BASE) == format!(".word 0x{word:08x}") {
            true => report.count("apart: not 32 bits long for GNU, .word with us"),
            false => {
                report.difference(format!("word 0x{word:08x}: ours is not .word; seed {seed}"))
            }
        }
    }
    decoders(&mut report, &words, seed);
    Ok(report.finish(format!(
        "{} words, seed {seed}, {}",
        words.len(),
        gnu::version("objdump")?
    )))
}

/// A word that has a text is an instruction to both decoders, and the other way round.
fn decoders(report: &mut Report, words: &[u32], seed: u64) {
    for &word in words {
        let ours = !disasm::text(word, BASE).starts_with(".word");
        let (proved, second) = (sporhulma::family(word), second::family(word));
        if (proved != 0, second != 0) != (ours, ours) {
            report.difference(format!(
                "word 0x{word:08x}: text `{}`, family {proved} (sporhulma), {second} (second); seed {seed}",
                disasm::text(word, BASE)
            ));
        }
    }
}

/// objdump's text of each word.
fn disassembled(words: &[u32]) -> Result<Vec<String>, String> {
    let vma = format!("--adjust-vma={BASE:#x}");
    let object = object(words)?;
    let printed = gnu::output("objdump", &["-D", "-z", "-j", ".text", &vma, &object])?;
    let texts: Vec<_> = printed.lines().filter_map(line).collect();
    for (place, (address, word, _)) in texts.iter().enumerate() {
        if *address != BASE + 4 * place as u64 || words.get(place) != Some(word) {
            return Err(format!("objdump: line {place} is about word 0x{word:08x} at {address:#x}, not about the word that stands there"));
        }
    }
    match texts.len() == words.len() {
        true => Ok(texts.into_iter().map(|(_, _, text)| text).collect()),
        false => Err(format!(
            "objdump: it printed {} lines of words, not {}",
            texts.len(),
            words.len()
        )),
    }
}

/// An object with the words as its text. It has no symbols: as marks what `.incbin` takes in as
/// data, and objdump would print it so.
fn object(words: &[u32]) -> Result<String, String> {
    let [bytes, source, object] = ["words.bin", "words-in.s", "words-in.o"].map(gnu::file);
    let (bytes, source, object) = (bytes?, source?, object?.display().to_string());
    let all: Vec<u8> = words.iter().flat_map(|word| word.to_le_bytes()).collect();
    gnu::write(&bytes, &all)?;
    let text = format!(".incbin \"{}\"\n", bytes.display());
    gnu::write(&source, text.as_bytes())?;
    gnu::output("as", &[KNOWN, "-o", &object, &source.display().to_string()])?;
    gnu::output("strip", &[&object])?;
    Ok(object)
}

/// Address, word and text of a line such as `    80000000:\t00000013          \tnop`; none for the
/// lines above the words.
fn line(line: &str) -> Option<(u64, u32, String)> {
    let mut parts = line.split('\t');
    let address = u64::from_str_radix(parts.next()?.trim().strip_suffix(':')?, 16).ok()?;
    let word = u32::from_str_radix(parts.next()?.trim(), 16).ok()?;
    Some((address, word, parts.collect::<Vec<_>>().join(" ")))
}

const IMMEDIATE: [(&str, &str); 19] = [
    ("add", "addi"),
    ("addw", "addiw"),
    ("and", "andi"),
    ("csrc", "csrci"),
    ("csrrc", "csrrci"),
    ("csrrs", "csrrsi"),
    ("csrrw", "csrrwi"),
    ("csrs", "csrsi"),
    ("csrw", "csrwi"),
    ("or", "ori"),
    ("sll", "slli"),
    ("sllw", "slliw"),
    ("slt", "slti"),
    ("sltu", "sltiu"),
    ("sra", "srai"),
    ("sraw", "sraiw"),
    ("srl", "srli"),
    ("srlw", "srliw"),
    ("xor", "xori"),
];

/// GNU's names for instructions on CSRs that the hart does not have: the floating-point ones and
/// the counters.
const CSR_ALIASES: [&str; 11] = [
    "frcsr",
    "frflags",
    "frrm",
    "fscsr",
    "fsflags",
    "fsflagsi",
    "fsrm",
    "fsrmi",
    "rdcycle",
    "rdinstret",
    "rdtime",
];

/// Under what the pair of texts is counted; none if it is a difference. The file's head has the
/// rule.
fn judge(ours: &str, theirs: &str) -> Option<String> {
    let ours = ours.split(" # ").next()?;
    let theirs = with_immediate_name(theirs.split(" # ").next()?);
    let (name, operands) = theirs.split_once(' ').unwrap_or((&theirs, ""));
    let our_name = ours.split(' ').next()?;
    if ours == theirs {
        return Some("the same: an instruction".to_string());
    }
    if let Some((ours, theirs)) = ours
        .strip_prefix(".word 0x")
        .zip(theirs.strip_prefix(".4byte 0x"))
    {
        let value = |digits| u32::from_str_radix(digits, 16).ok();
        return (value(ours) == value(theirs)).then(|| "the same: .word".to_string());
    }
    if let Some(pad) = ours.strip_prefix("lpad ") {
        return (theirs == format!("auipc zero,{pad}")).then(|| "apart: landing pad".to_string());
    }
    if our_name == ".word" {
        return further(name).map(|extension| format!("apart: only GNU has it: {extension}"));
    }
    if our_name.starts_with("csr") && (differ_in_csr(ours, &theirs) || CSR_ALIASES.contains(&name))
    {
        return Some("apart: a CSR that one of us has no name for".to_string());
    }
    let unknown = name == ".4byte" && !operands.is_empty() && unknown_to_gnu(our_name);
    unknown.then(|| format!("apart: unknown to this objdump: {}", class(our_name)))
}

fn with_immediate_name(text: &str) -> String {
    let last = text.rsplit([',', ' ']).next().unwrap_or("");
    let is_number = last.starts_with(|first: char| first.is_ascii_digit() || first == '-');
    let (name, operands) = text.split_once(' ').unwrap_or((text, ""));
    match IMMEDIATE.iter().find(|(register, _)| *register == name) {
        Some((_, immediate)) if is_number => format!("{immediate} {operands}"),
        _ => text.to_string(),
    }
}

/// Whether `name` is one of ours that binutils 2.40 does not know.
pub fn unknown_to_gnu(name: &str) -> bool {
    ["mop.", "sspush", "sspopchk", "ssrdp", "ssamoswap.", ".insn"]
        .iter()
        .any(|start| name.starts_with(start))
}

/// The name without its number and its ordering, so that a count stands for all of them.
fn class(name: &str) -> &str {
    match name {
        ".insn" => "fence with reserved fields",
        _ if name.starts_with("mop.rr") => "mop.rr",
        _ if name.starts_with("mop.r") => "mop.r",
        _ if name.starts_with("ssamoswap") => "ssamoswap",
        _ => name,
    }
}

/// Whether the texts are equal but for one operand: a number with us and a name there, or `ssp`
/// with us and its number there.
fn differ_in_csr(ours: &str, theirs: &str) -> bool {
    let split = |text: &str| {
        text.split([' ', ','])
            .map(str::to_string)
            .collect::<Vec<_>>()
    };
    let (ours, theirs) = (split(ours), split(theirs));
    let different: Vec<_> = ours.iter().zip(&theirs).filter(|(a, b)| a != b).collect();
    ours.len() == theirs.len()
        && matches!(different[..], [(a, b)] if a.starts_with("0x") && !b.starts_with("0x") || a == "ssp" && b == "0x11")
}

/// The extension of an instruction that GNU knows and the hart does not have; none if `name` is of
/// no such extension.
fn further(name: &str) -> Option<&'static str> {
    if let Some(encoding) = ABSENT.iter().find(|encoding| encoding.name == name) {
        return Some(match encoding.extension {
            "Zbb" => "the rest of Zbb",
            other => other,
        });
    }
    match name {
        "zext.w" => Some("Zba"),
        "fence.i" => Some("Zifencei"),
        "wfi" | "sfence.vma" | "sfence.vm" | "uret" | "hret" | "dret" => {
            Some("privileged (wfi, sfence.vma, uret, dret)")
        }
        _ if ["lr.", "sc.", "amo"]
            .iter()
            .any(|start| name.starts_with(start)) =>
        {
            Some("A")
        }
        _ if name.starts_with('f') && !name.starts_with("fence") => Some("F and D"),
        _ => None,
    }
}

#[cfg(test)]
mod tests {
    use super::*;

    #[test]
    fn equal_texts_pass_and_wrong_ones_do_not() {
        assert!(judge("addi a0,a0,1", "add a0,a0,1").is_some());
        assert!(judge("lw a0,0(zero)", "lw a0,0(zero) # 0x0").is_some());
        assert!(judge(".word 0x00000003", ".4byte 0x00000003").is_some());
        for (ours, theirs) in [
            ("add a0,a0,a1", "add a0,a0,a2"),
            ("addi a0,a0,1", "add a0,a0,2"),
            ("addi a0,a0,1", ".4byte 0x00150513"),
            ("add a0,a0,a1", "addi a0,a0,a1"),
            (".word 0x00150513", "add a0,a0,1"),
            (".word 0x00000003", ".4byte 0x00000007"),
            ("lpad 0x1", "auipc zero,0x2"),
            ("auipc a0,0x1", "lpad 0x1"),
        ] {
            assert_eq!(judge(ours, theirs), None, "{ours} | {theirs}");
        }
    }

    #[test]
    fn what_is_apart_is_so_for_its_own_reason_only() {
        assert!(judge("lpad 0x1", "auipc zero,0x1").is_some());
        assert!(judge("sspush ra", ".4byte 0xce104073").is_some());
        assert!(judge("sspush ra", "csrr ra,mstatus").is_none());
        assert!(judge(".word 0x40a57533", "andn a0,a0,a0").is_some());
        assert!(judge(".word 0x60355513", "ror a0,a0,0x3").is_some());
        assert!(judge(".word 0x02a50533", "mul a0,a0,a0").is_none());
        assert!(judge(".word 0x60051513", "clz a0,a0").is_none());
        assert!(judge("clz a0,a0", ".4byte 0x60051513").is_none());
        assert!(judge("csrr a0,0xc80", "csrr a0,cycleh").is_some());
        assert!(judge("csrr a0,0xc80", "csrr a1,cycleh").is_none());
        assert!(judge("csrr a0,ssp", "csrr a0,0x11").is_some());
        assert!(judge("csrr a0,mstatus", "csrr a0,mtvec").is_none());
        assert!(judge("csrr a0,0xc00", "rdcycle a0").is_some());
    }
}
