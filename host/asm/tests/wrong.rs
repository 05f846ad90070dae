//! Wrong lines: the column, what is wrong there and what would be right; and that what is just within reach is taken.

use sporhulma::BASE;

/// Each line, the column that is named and what is said there.
#[rustfmt::skip]
const WRONG: &[(&str, usize, &str)] = &[
    // mnemonics
    ("addii a0,a0,1", 1, "'addii' is no instruction of this hart; did you mean addi?"),
    ("  ADDI a0,a0,1", 3, "'ADDI' is no instruction of this hart; did you mean addi?"),
    ("sspsh ra", 1, "'sspsh' is no instruction of this hart; did you mean sspush?"),
    ("fld fa0,0(a0)", 1, "'fld' is no instruction of this hart; write one of this hart's, as addi, or .word N"),
    ("qqq", 1, "'qqq' is no instruction of this hart; write one of this hart's, as addi, or .word N"),
    ("loop: addi a0,a0,1", 1, "'loop:' is no instruction of this hart; there are no labels; give targets as addresses or as .+8"),
    ("mop.r.32 a0,a1", 1, "the number of mop.r.N is 0 to 31"),
    ("mop.rr.8 a0,a1,a2", 1, "the number of mop.rr.N is 0 to 7"),
    ("mop.r.01 a0,a1", 1, "'mop.r.01' is no instruction of this hart; did you mean mop.r.N?"),
    // how many operands
    ("addi a0,a0", 11, "2 operands are given; write addi rd,rs1,N"),
    ("addi a0", 8, "1 operand is given; write addi rd,rs1,N"),
    ("addi", 5, "0 operands are given; write addi rd,rs1,N"),
    ("ret ra", 5, "1 operand is given; write ret"),
    ("jal a0,0x80000000,1", 19, "3 operands are given; write jal rd,ADDRESS or jal ADDRESS"),
    ("jalr a0,a1,4,5", 14, "4 operands are given; write jalr rd,rs1,N or jalr rd,N(rs1) or jalr N(rs1)"),
    ("fence rw", 9, "1 operand is given; write fence or fence SET,SET"),
    ("add a0,,a1", 8, "an operand is missing here; write add rd,rs1,rs2"),
    ("add a0,a1,", 11, "an operand is missing here; write add rd,rs1,rs2"),
    // registers
    ("add a0,a1,b2", 11, "'b2' is no register; write a name as a0, sp, ra or x10"),
    ("add x32,a1,a2", 5, "'x32' is no register; write a name as a0, sp, ra or x10"),
    ("add x01,a1,a2", 5, "'x01' is no register; write a name as a0, sp, ra or x10"),
    ("add a0,a1,1", 11, "'1' is no register; write a name as a0, sp, ra or x10"),
    ("sspush a0", 8, "sspush takes ra or t0 (x1 or x5)"),
    ("sspopchk zero", 10, "sspopchk takes ra or t0 (x1 or x5)"),
    ("ssrdp zero", 7, "ssrdp reads into any register but zero; write for instance a0"),
    ("mop.r.28 a0,zero", 1, "this word is that of ssrdp a0; write ssrdp a0"),
    ("mop.r.28 zero,t0", 1, "this word is that of sspopchk t0; write sspopchk t0"),
    ("mop.rr.7 zero,zero,ra", 1, "this word is that of sspush ra; write sspush ra"),
    // numbers
    ("addi a0,a0,2048", 12, "2048 is out of reach; it may be -2048 to 2047"),
    ("addi a0,a0,-2049", 12, "-2049 is out of reach; it may be -2048 to 2047"),
    ("li a0,0x1000", 7, "0x1000 is out of reach; it may be -2048 to 2047"),
    ("li a0,0xffffffff", 7, "0xffffffff is out of reach; it may be -2048 to 2047"),
    ("slli a0,a0,64", 12, "64 is out of reach; it may be 0 to 63"),
    ("srai a0,a0,-1", 12, "-1 is out of reach; it may be 0 to 63"),
    ("slliw a0,a0,32", 13, "32 is out of reach; it may be 0 to 31"),
    ("lui a0,0x100000", 8, "0x100000 is out of reach; it may be 0 to 0xfffff, the upper 20 bits"),
    ("lpad -1", 6, "-1 is out of reach; it may be 0 to 0xfffff, the upper 20 bits"),
    ("csrwi mstatus,32", 15, "32 is out of reach; it may be 0 to 31"),
    ("csrr a0,4096", 9, "4096 is out of reach; it may be 0 to 4095"),
    ("addi a0,a0,x", 12, "'x' is not a number; write it as 10, -1, 0x1f or 0b101"),
    ("addi a0,a0,0x", 12, "'0x' is not a number; write it as 10, -1, 0x1f or 0b101"),
    ("addi a0,a0,--1", 12, "'--1' is not a number; write it as 10, -1, 0x1f or 0b101"),
    ("addi a0,a0,010", 12, "'010' begins with 0, which is octal to some and not to others; write it as 10 or 0x1f"),
    ("addi a0,a0,0x10000000000000000", 12, "0x10000000000000000 has more than 64 bits; the largest is 0xffffffffffffffff"),
    ("addi a0,a0,-9223372036854775809", 12, "-9223372036854775809 is below -2^63, the least that 64 bits hold"),
    (".word 0x100000000", 7, "0x100000000 has more than 32 bits; write .word N, N from 0 to 0xffffffff"),
    (".word -1", 7, "-1 has more than 32 bits; write .word N, N from 0 to 0xffffffff"),
    (".word", 6, "the word is missing; write .word N, N from 0 to 0xffffffff"),
    (".word 1,2", 7, "'1,2' is not a number; write it as 10, -1, 0x1f or 0b101"),
    // addresses
    ("lw a0,2048(a1)", 7, "2048 is out of reach; it may be -2048 to 2047"),
    ("jalr -2049(a1)", 6, "-2049 is out of reach; it may be -2048 to 2047"),
    ("lw a0,a1", 7, "'a1' is not written as N(rs1), as in 8(sp)"),
    ("lw a0,8(a1", 11, "the closing bracket is missing; write N(rs1), as in 8(sp)"),
    ("lw a0,8(a1) 4", 13, "'4' follows the closing bracket; leave it out"),
    ("lw a0,8()", 9, "'' is no register; write a name as a0, sp, ra or x10"),
    ("sd a0,8(y)", 9, "'y' is no register; write a name as a0, sp, ra or x10"),
    ("sd a0,8 9(a1)", 9, "'9' follows '8' in the same operand; write a comma between operands, and one instruction a line"),
    ("ssamoswap.d a0,a1,8(a2)", 19, "there is no '8' before the brackets; write (rs1), as in (a0)"),
    ("ssamoswap.d a0,a1,a2", 19, "'a2' is not written as (rs1), as in (a0)"),
    ("jr b", 4, "'b' is no register; write a name as a0, sp, ra or x10"),
    // targets
    ("j 0x80100000", 3, "0x80100000 is out of reach; from 0x80000000 it may be 0x7ff00000 to 0x800ffffe, .-1048576 to .+1048574"),
    ("beqz a0,8", 9, "8 is out of reach; from 0x80000000 it may be 0x7ffff000 to 0x80000ffe, .-4096 to .+4094"),
    ("beqz a0,.+4096", 9, ".+4096 is out of reach; from 0x80000000 it may be 0x7ffff000 to 0x80000ffe, .-4096 to .+4094"),
    ("beqz a0,.-4098", 9, ".-4098 is out of reach; from 0x80000000 it may be 0x7ffff000 to 0x80000ffe, .-4096 to .+4094"),
    ("j .+0xffffffffffffffff", 3, ".+0xffffffffffffffff is out of reach; from 0x80000000 it may be 0x7ff00000 to 0x800ffffe, .-1048576 to .+1048574"),
    ("j .-0x8000000000000000", 3, ".-0x8000000000000000 is out of reach; from 0x80000000 it may be 0x7ff00000 to 0x800ffffe, .-1048576 to .+1048574"),
    ("bne a0,a1,.+3", 11, ".+3 is an odd number of bytes away; a target is an even number away"),
    ("j 0x80000001", 3, "0x80000001 is an odd number of bytes away; a target is an even number away"),
    ("j loop", 3, "'loop' is no target; write an address, as 0x80000008, or a distance, as .+8 (there are no labels)"),
    ("j .+-8", 3, "'.+-8' is no target; write an address, as 0x80000008, or a distance, as .+8 (there are no labels)"),
    ("j -4", 3, "'-4' is no target; write an address, as 0x80000008, or a distance, as .+8 (there are no labels)"),
    // CSRs and fences
    ("csrr a0,mstaus", 9, "'mstaus' is no CSR of this hart; did you mean mstatus?"),
    ("csrr a0,cycle", 9, "'cycle' is no CSR of this hart; write another's number, 0 to 0xfff"),
    ("fence wr,r", 7, "'wr' is no set of a fence; write some of iorw in this order, or unknown for none"),
    ("fence r,rr", 9, "'rr' is no set of a fence; write some of iorw in this order, or unknown for none"),
    (".insn r OP,0,a0,a1,a2", 7, "'r OP' is not i MISC_MEM; .insn is taken for a fence only, .insn i MISC_MEM,0,rd,rs1,N, and .word N for any word"),
    (".insn i MISC_MEM,1,a0,a1,0", 18, "'1' is not 0; .insn is taken for a fence only, .insn i MISC_MEM,0,rd,rs1,N, and .word N for any word"),
    (".insn i MISC_MEM,0,a0,a1,2048", 26, "2048 is out of reach; it may be -2048 to 2047"),
    // text behind
    ("addi a0,a0,1 a1", 14, "'a1' follows '1' in the same operand; write a comma between operands, and one instruction a line"),
    ("add a0 a1,a2,a3", 8, "'a1' follows 'a0' in the same operand; write a comma between operands, and one instruction a line"),
    ("ecall ; ret", 7, "1 operand is given; write ecall"),
    ("li \u{e4},1", 4, "'\u{e4}' is no register; write a name as a0, sp, ra or x10"),
    ("add \u{e4},a0,a\u{e4}", 5, "'\u{e4}' is no register; write a name as a0, sp, ra or x10"),
];

#[test]
fn a_wrong_line_says_where_and_what_would_be_right() {
    for &(line, column, what) in WRONG {
        let wrong = asm::word(line, BASE).expect_err(line);
        assert_eq!(
            (wrong.column, wrong.what.as_str()),
            (column, what),
            "{line}"
        );
    }
}

#[test]
fn a_wrong_line_of_a_text_is_named() {
    let wrong = asm::words("nop\n\n# more\n addi a0,a0,4096\nqqq", BASE).unwrap_err();
    assert_eq!(
        wrong.to_string(),
        "line 4, column 13: 4096 is out of reach; it may be -2048 to 2047"
    );
}

/// What is just within reach, and spellings that the disassembler does not print.
#[test]
fn what_is_within_reach_is_taken() {
    for (line, text) in [
        ("addi x10, fp, -2048", "addi a0,s0,-2048"),
        ("addi\ta0,a0,0xffffffffffffffff", "addi a0,a0,-1"),
        ("andi a0 , a1 , 0b11", "andi a0,a1,3"),
        ("slli a0,a0,63", "slli a0,a0,0x3f"),
        ("lui a0,1048575", "lui a0,0xfffff"),
        ("auipc zero,5", "lpad 0x5"),
        ("jalr a0,a1,4", "jalr a0,4(a1)"),
        ("jalr x0,0(ra)", "ret"),
        ("lw a0,(a1)", "lw a0,0(a1)"),
        ("lw a0, -0x8 ( sp )", "lw a0,-8(sp)"),
        ("beqz a0,.+4094", "beqz a0,0x80000ffe"),
        ("beqz a0,.-4096", "beqz a0,0x7ffff000"),
        ("j .-0x100000", "j 0x7ff00000"),
        ("bgt a0,a1,.+8", "blt a1,a0,0x80000008"),
        ("bleu a0,a1,.", "bgeu a1,a0,0x80000000"),
        ("csrrw zero,0xc00,zero", "unimp"),
        ("csrrs a0,768,x0", "csrr a0,mstatus"),
        ("mop.r.28 a0,a0", "mop.r.28 a0,a0"),
        (".insn i  MISC_MEM, 0, x0, x0, 255", "fence"),
        (".word 0x00050513", "mv a0,a0"),
    ] {
        let word = asm::word(line, BASE).unwrap_or_else(|wrong| panic!("{line}: {wrong}"));
        assert_eq!(
            word.map(|word| disasm::text(word, BASE)).as_deref(),
            Some(text)
        );
    }
    for blank in ["", "  \t", "# nothing", "   # addi a0,a0,1"] {
        assert_eq!(asm::word(blank, BASE), Ok(None), "{blank:?}");
    }
}
