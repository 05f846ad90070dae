//! Instructions of extensions that the hart lacks, by name: C, F and D, A. Compilers emit them where they are not told what the hart has.

/// The name and the extension of such a word; none if it is not of these.
pub fn foreign(word: u32) -> Option<(String, &'static str)> {
    let funct3 = word >> 12 & 7;
    match word & 0x7f {
        _ if word & 3 != 3 => compressed(word as u16).map(|name| (name.into(), "C")),
        0x2f => atomic(word).map(|name| (name, "A")),
        0x07 | 0x27 => {
            let load = word & 0x7f == 0x07;
            match funct3 {
                2 => Some((if load { "flw" } else { "fsw" }.into(), "F")),
                3 => Some((if load { "fld" } else { "fsd" }.into(), "D")),
                _ => None,
            }
        }
        0x43 => float("fmadd", word),
        0x47 => float("fmsub", word),
        0x4b => float("fnmsub", word),
        0x4f => float("fnmadd", word),
        0x53 => arithmetic(word),
        _ => None,
    }
}

/// `name` with the format's letter, and the format's extension.
fn float(name: &str, word: u32) -> Option<(String, &'static str)> {
    let (letter, extension) = format(word)?;
    Some((format!("{name}.{letter}"), extension))
}

/// Single or double, by bits 26:25.
fn format(word: u32) -> Option<(&'static str, &'static str)> {
    match word >> 25 & 3 {
        0 => Some(("s", "F")),
        1 => Some(("d", "D")),
        _ => None,
    }
}

/// OP-FP, by bits 31:27, the rounding mode's place and rs2's place.
fn arithmetic(word: u32) -> Option<(String, &'static str)> {
    let (letter, extension) = format(word)?;
    let (funct3, second) = (word >> 12 & 7, word >> 20 & 31);
    let integer = ["w", "wu", "l", "lu"].get(second as usize);
    let moved = if letter == "s" { "w" } else { "d" };
    let name = match (word >> 27, funct3) {
        (0x00, _) => format!("fadd.{letter}"),
        (0x01, _) => format!("fsub.{letter}"),
        (0x02, _) => format!("fmul.{letter}"),
        (0x03, _) => format!("fdiv.{letter}"),
        (0x0b, _) => format!("fsqrt.{letter}"),
        (0x04, 0) => format!("fsgnj.{letter}"),
        (0x04, 1) => format!("fsgnjn.{letter}"),
        (0x04, 2) => format!("fsgnjx.{letter}"),
        (0x05, 0) => format!("fmin.{letter}"),
        (0x05, 1) => format!("fmax.{letter}"),
        (0x08, _) if (letter, second) == ("s", 1) => "fcvt.s.d".into(),
        (0x08, _) if (letter, second) == ("d", 0) => "fcvt.d.s".into(),
        (0x14, 0) => format!("fle.{letter}"),
        (0x14, 1) => format!("flt.{letter}"),
        (0x14, 2) => format!("feq.{letter}"),
        (0x18, _) => format!("fcvt.{}.{letter}", integer?),
        (0x1a, _) => format!("fcvt.{letter}.{}", integer?),
        (0x1c, 0) => format!("fmv.x.{moved}"),
        (0x1c, 1) => format!("fclass.{letter}"),
        (0x1e, 0) => format!("fmv.{moved}.x"),
        _ => return None,
    };
    // A conversion between the two is of D, whichever it gives.
    let extension = if word >> 27 == 0x08 { "D" } else { extension };
    Some((name, extension))
}

fn atomic(word: u32) -> Option<String> {
    let width = match word >> 12 & 7 {
        2 => "w",
        3 => "d",
        _ => return None,
    };
    let name = match word >> 27 {
        0x00 => "amoadd",
        0x01 => "amoswap",
        0x02 => "lr",
        0x03 => "sc",
        0x04 => "amoxor",
        0x08 => "amoor",
        0x0c => "amoand",
        0x10 => "amomin",
        0x14 => "amomax",
        0x18 => "amominu",
        0x1c => "amomaxu",
        _ => return None,
    };
    Some(format!("{name}.{width}"))
}

/// A 16-bit instruction of RV64C, by its quadrant and bits 15:13.
fn compressed(half: u16) -> Option<&'static str> {
    let (first, second) = (half >> 7 & 31, half >> 2 & 31);
    let name = match (half & 3, half >> 13) {
        (0, 0) if half >> 5 != 0 => "c.addi4spn",
        (0, 1) => "c.fld",
        (0, 2) => "c.lw",
        (0, 3) => "c.ld",
        (0, 5) => "c.fsd",
        (0, 6) => "c.sw",
        (0, 7) => "c.sd",
        (1, 0) if first == 0 => "c.nop",
        (1, 0) => "c.addi",
        (1, 1) if first != 0 => "c.addiw",
        (1, 2) => "c.li",
        (1, 3) if first == 2 => "c.addi16sp",
        (1, 3) => "c.lui",
        (1, 4) => return compressed_arithmetic(half),
        (1, 5) => "c.j",
        (1, 6) => "c.beqz",
        (1, 7) => "c.bnez",
        (2, 0) => "c.slli",
        (2, 1) => "c.fldsp",
        (2, 2) if first != 0 => "c.lwsp",
        (2, 3) if first != 0 => "c.ldsp",
        (2, 4) => match (half >> 12 & 1, first, second) {
            (0, 0, 0) => return None,
            (0, _, 0) => "c.jr",
            (0, ..) => "c.mv",
            (_, 0, 0) => "c.ebreak",
            (_, _, 0) => "c.jalr",
            _ => "c.add",
        },
        (2, 5) => "c.fsdsp",
        (2, 6) => "c.swsp",
        (2, 7) => "c.sdsp",
        _ => return None,
    };
    Some(name)
}

/// Those of quadrant 1 that are told apart by bits 12, 11:10 and 6:5.
fn compressed_arithmetic(half: u16) -> Option<&'static str> {
    let name = match (half >> 10 & 3, half >> 12 & 1, half >> 5 & 3) {
        (0, ..) => "c.srli",
        (1, ..) => "c.srai",
        (2, ..) => "c.andi",
        (_, 0, 0) => "c.sub",
        (_, 0, 1) => "c.xor",
        (_, 0, 2) => "c.or",
        (_, 0, 3) => "c.and",
        (_, 1, 0) => "c.subw",
        (_, 1, 1) => "c.addw",
        _ => return None,
    };
    Some(name)
}

#[cfg(test)]
mod tests {
    use super::*;

    /// Words of the GNU assembler, one of each name.
    #[test]
    fn names_of_words() {
        for (word, name) in WORDS {
            let named = foreign(word).map(|(name, _)| name);
            assert_eq!(named.as_deref(), Some(name), "{word:#x}");
        }
    }

    /// What is no instruction of these, or is one of the hart's own shadow swaps.
    #[test]
    fn words_without_a_name() {
        for word in [
            0,
            0x8000,
            0x9c41,
            0x6000_0053,
            0x4800_202f,
            0x0000_0007,
            0x13,
            0x73,
        ] {
            assert_eq!(foreign(word), None, "{word:#x}");
        }
    }

    #[rustfmt::skip]
    const WORDS: [(u32, &str); 84] = [
        (0x0000_0028, "c.addi4spn"), (0x0000_2508, "c.fld"), (0x0000_41c8, "c.lw"), (0x0000_6588, "c.ld"),
        (0x0000_a508, "c.fsd"), (0x0000_c1c8, "c.sw"), (0x0000_e588, "c.sd"), (0x0000_0001, "c.nop"),
        (0x0000_0505, "c.addi"), (0x0000_2505, "c.addiw"), (0x0000_4505, "c.li"), (0x0000_6105, "c.addi16sp"),
        (0x0000_6505, "c.lui"), (0x0000_8105, "c.srli"), (0x0000_8505, "c.srai"), (0x0000_8905, "c.andi"),
        (0x0000_8d0d, "c.sub"), (0x0000_8d2d, "c.xor"), (0x0000_8d4d, "c.or"), (0x0000_8d6d, "c.and"),
        (0x0000_9d0d, "c.subw"), (0x0000_9d2d, "c.addw"), (0x0000_a021, "c.j"), (0x0000_c501, "c.beqz"),
        (0x0000_e501, "c.bnez"), (0x0000_0506, "c.slli"), (0x0000_2522, "c.fldsp"), (0x0000_4512, "c.lwsp"),
        (0x0000_6522, "c.ldsp"), (0x0000_8502, "c.jr"), (0x0000_852e, "c.mv"), (0x0000_9002, "c.ebreak"),
        (0x0000_9502, "c.jalr"), (0x0000_952e, "c.add"), (0x0000_a42a, "c.fsdsp"), (0x0000_c22a, "c.swsp"),
        (0x0000_e42a, "c.sdsp"), (0x0005_2507, "flw"), (0x0005_3507, "fld"), (0x00a5_2027, "fsw"),
        (0x00a5_3027, "fsd"), (0x68c5_f543, "fmadd.s"), (0x6ac5_f547, "fmsub.d"), (0x68c5_f54b, "fnmsub.s"),
        (0x6ac5_f54f, "fnmadd.d"), (0x00c5_f553, "fadd.s"), (0x0ac5_f553, "fsub.d"), (0x10c5_f553, "fmul.s"),
        (0x1ac5_f553, "fdiv.d"), (0x5805_f553, "fsqrt.s"), (0x22c5_8553, "fsgnj.d"), (0x20c5_9553, "fsgnjn.s"),
        (0x22c5_a553, "fsgnjx.d"), (0x28c5_8553, "fmin.s"), (0x2ac5_9553, "fmax.d"), (0x4015_f553, "fcvt.s.d"),
        (0x4205_8553, "fcvt.d.s"), (0xa0c5_8553, "fle.s"), (0xa2c5_9553, "flt.d"), (0xa0c5_a553, "feq.s"),
        (0xc005_f553, "fcvt.w.s"), (0xc215_f553, "fcvt.wu.d"), (0xc025_f553, "fcvt.l.s"), (0xc235_f553, "fcvt.lu.d"),
        (0xd005_f553, "fcvt.s.w"), (0xd215_8553, "fcvt.d.wu"), (0xd025_f553, "fcvt.s.l"), (0xd235_f553, "fcvt.d.lu"),
        (0xe005_8553, "fmv.x.w"), (0xe205_8553, "fmv.x.d"), (0xe005_9553, "fclass.s"), (0xf005_8553, "fmv.w.x"),
        (0xf205_8553, "fmv.d.x"), (0x1005_a52f, "lr.w"), (0x18c5_b52f, "sc.d"), (0x00b6_252f, "amoadd.w"),
        (0x08b6_352f, "amoswap.d"), (0x20b6_252f, "amoxor.w"), (0x40b6_352f, "amoor.d"), (0x60b6_252f, "amoand.w"),
        (0x80b6_352f, "amomin.d"), (0xa0b6_252f, "amomax.w"), (0xc0b6_352f, "amominu.d"), (0xe0b6_252f, "amomaxu.w"),
    ];
}
