//! What the desk says about each kind of stop, whole.

mod common;

use common::*;

/// Runs an image of these words and compares all that is said; the status is 3 for a trap.
fn says(test: &str, words: &[u32], options: &str, expected: &str) {
    let desk = Desk::new(test);
    desk.image("p.bin", words);
    let outcome = desk.run(&format!("run p.bin {options}"));
    assert_eq!(outcome.out, expected);
    assert_eq!(outcome.err, "");
    assert_eq!(
        outcome.status,
        if expected.contains("trap") { 3 } else { 0 }
    );
}

#[test]
fn shadow_stack_mismatch() {
    let words = [
        0x0001_00b7, // lui ra,0x10
        SSPUSH_RA,
        0x00c0_8093, // addi ra,ra,12
        SSPOPCHK_RA,
    ];
    let options = format!("{USER} --shadow-stack --ssp 0x31000 --csr mtvec=0x80000100");
    says(
        "mismatch",
        &words,
        &options,
        "\
Stopped by a trap in step 4: cause 18 (software check), tval 0x3, from U to M.
  at        0x1000c in U: cdc0c073  sspopchk ra
  why       shadow stack mismatch: the return address is not the one that was pushed
  used      0x1000c (in ra: the return would go there)
  pushed    0x10000 (on the shadow stack)
  lies at   virtual 0x30ff8 (ssp), physical 0x80002ff8
  entry     0x30000 -> 0x80002000 v-w-u-ad (line 2 of the map)
  handler   0x80000100 in M: 00000000  .word 0x00000000
",
    );
}

#[test]
fn landing_pad_missing() {
    let words = [JR_A0, NOP, ECALL];
    let options = "--memory 4K --landing-pads --x a0=0x80000008 --x t2=0x12345fff";
    says(
        "pad",
        &words,
        options,
        "\
Stopped by a trap in step 2: cause 18 (software check), tval 0x2, from M to M.
  at        0x80000008 in M: 00000073  ecall
  why       landing pad missing: an indirect jump led here, and ELP expects a pad
  expected  lpad 0x12345 (t2 = 0x12345fff), or lpad 0x0, which fits any label
  found     0x00000073  ecall
  handler   0x0 in M: no word can be fetched there
",
    );
}

#[test]
fn page_fault_without_an_entry() {
    says(
        "no-entry",
        &[LD_A0_A1],
        &format!("{USER} --x a1=0x40008 --csr medeleg=0x2000"),
        "\
Stopped by a trap in step 1: cause 13 (load page fault), tval 0x40008, from U to S, delegated by
  medeleg.
  at        0x10000 in U: 0005b503  ld a0,0(a1)
  access    load of 8 bytes at 0x40008
  as        U under Sv39
  refused   by rule 5 of \"From address to byte\": no entry of the map has page 0x40000
  handler   0x0 in S: no word can be fetched there
",
    );
}

#[test]
fn access_fault_of_a_masked_store_to_a_shadow_page() {
    let options = format!("{USER} --shadow-stack --masking 7 --x a1=0x5400000000030000");
    says(
        "shadow-store",
        &[SD_A0_A1],
        &options,
        "\
Stopped by a trap in step 1: cause 7 (store access fault), tval 0x30000, from U to M.
  at        0x10000 in U: 00a5b023  sd a0,0(a1)
  access    store of 8 bytes at 0x5400000000030000, after masking 0x30000
  as        U under Sv39
  refused   by rule 7 of \"From address to byte\": an ordinary store to a shadow page
  entry     0x30000 -> 0x80002000 v-w-u-ad (line 2 of the map)
  handler   0x0 in M: no word can be fetched there
  note      the shadow stack is on, and no push or pop-check was met: the program may be built
            without them (docs/C.md)
",
    );
}

/// The options of a monitor in M that reaches for the user's data with a tag, by MPRV and what `mstatus` has beside it.
fn monitor(mstatus: &str, address: &str) -> String {
    format!("--memory 16K --map user.map --sv39 --masking 7 --csr mstatus={mstatus} --x a1={address} --steps 1")
}

/// Rule 7.2 e: in M with MPRV and MXR both set the tag stays, whatever MPP is.
#[test]
fn a_tag_that_is_not_masked_under_mprv_with_mxr() {
    says(
        "unmasked-load",
        &[LD_A0_A1],
        &monitor("0xa0000", "0x5400000000020008"),
        "\
Stopped by a trap in step 1: cause 13 (load page fault), tval 0x5400000000020008, from M to M.
  at        0x80000000 in M: 0005b503  ld a0,0(a1)
  access    load of 8 bytes at 0x5400000000020008
  as        U under Sv39
  masking   off for this access: mstatus has MPRV and MXR both set (masked, it would be at 0x20008)
  refused   by rule 5 of \"From address to byte\": bits 63:39 of the address do not equal bit 38
  handler   0x0 in M: no word can be fetched there
  note      masking is on, and changed the address of no access
",
    );
    says(
        "unmasked-store",
        &[SD_A0_A1],
        &monitor("0xa1800", "0x5400000080000008"),
        "\
Stopped by a trap in step 1: cause 7 (store access fault), tval 0x5400000080000008, from M to M.
  at        0x80000000 in M: 00a5b023  sd a0,0(a1)
  access    store of 8 bytes at 0x5400000080000008
  as        M where addresses are physical
  masking   off for this access: mstatus has MPRV and MXR both set (masked, it would be at
            0x80000008)
  refused   by rule 9 of \"From address to byte\": physical 0x5400000080000008 lies outside memory
            (0x80000000 to 0x80003fff)
  handler   0x0 in M: no word can be fetched there
  note      the map was not in use: no access was made in S or U with satp on (--sv39 turns it on,
            --mode U starts in U)
  note      masking is on, and changed the address of no access
",
    );
}

/// With one of the two bits masking is as it was, and so it is below M with both.
#[test]
fn a_tag_that_is_masked_beside_request_a2() {
    says(
        "masked-mprv",
        &[LD_A0_A1],
        &monitor("0x20000", "0x5400000000020008"),
        "\
The program had not ended after 1 step, all that --steps allows.
  next      0x80000004 in M: 00000000  .word 0x00000000
",
    );
    says(
        "masked-mxr",
        &[LD_A0_A1],
        &monitor("0x80000", "0x5400000000020008"),
        "\
Stopped by a trap in step 1: cause 5 (load access fault), tval 0x20008, from M to M.
  at        0x80000000 in M: 0005b503  ld a0,0(a1)
  access    load of 8 bytes at 0x5400000000020008, after masking 0x20008
  as        M where addresses are physical
  refused   by rule 9 of \"From address to byte\": physical 0x20008 lies outside memory (0x80000000 to
            0x80003fff)
  handler   0x0 in M: no word can be fetched there
  note      the map was not in use: no access was made in S or U with satp on (--sv39 turns it on,
            --mode U starts in U)
",
    );
    let options = format!("{USER} --masking 7 --csr mstatus=0xa0000 --x a1=0x5400000000030000");
    says(
        "masked-below",
        &[SD_A0_A1],
        &options,
        "\
Stopped by a trap in step 1: cause 15 (store page fault), tval 0x30000, from U to M.
  at        0x10000 in U: 00a5b023  sd a0,0(a1)
  access    store of 8 bytes at 0x5400000000030000, after masking 0x30000
  as        U under Sv39
  refused   by rule 5 of \"From address to byte\": the entry has W alone, and menvcfg.SSE is 0, so it
            is no shadow page
  entry     0x30000 -> 0x80002000 v-w-u-ad (line 2 of the map)
  handler   0x0 in M: no word can be fetched there
",
    );
}

#[test]
fn access_fault_outside_memory() {
    says(
        "outside",
        &[LD_A0_A1],
        "--memory 4K --x a1=0x80001000",
        "\
Stopped by a trap in step 1: cause 5 (load access fault), tval 0x80001000, from M to M.
  at        0x80000000 in M: 0005b503  ld a0,0(a1)
  access    load of 8 bytes at 0x80001000
  as        M where addresses are physical
  refused   by rule 9 of \"From address to byte\": physical 0x80001000 lies outside memory (0x80000000
            to 0x80000fff)
  handler   0x0 in M: no word can be fetched there
",
    );
}

#[test]
fn misaligned_load_and_jump() {
    says(
        "load",
        &[LD_A0_A1],
        "--memory 4K --x a1=0x80000001",
        "\
Stopped by a trap in step 1: cause 4 (load address misaligned), tval 0x80000001, from M to M.
  at        0x80000000 in M: 0005b503  ld a0,0(a1)
  access    load of 8 bytes at 0x80000001
  as        M where addresses are physical
  refused   by rule 3 of \"From address to byte\": the address is not a multiple of 8
  handler   0x0 in M: no word can be fetched there
",
    );
    says(
        "jump",
        &[JR_A0],
        "--memory 4K --x a0=0x80000007",
        "\
Stopped by a trap in step 1: cause 0 (instruction address misaligned), tval 0x80000006, from M to M.
  at        0x80000000 in M: 00050067  jr a0
  why       rule 3: the jump's target 0x80000006 is not a multiple of 4
  handler   0x0 in M: no word can be fetched there
",
    );
}

#[test]
fn fetch_fault() {
    says(
        "fetch",
        &[NOP],
        "--memory 4K --mode U --pc 0x20000 --sv39 --map user.map",
        "\
Stopped by a trap in step 1: cause 12 (instruction page fault), tval 0x20000, from U to M.
  at        0x20000 in U: no word can be fetched there
  access    fetch of 4 bytes at 0x20000
  as        U under Sv39
  refused   by rule 8 of \"From address to byte\": a fetch needs X
  entry     0x20000 -> 0x80001000 vrw-u-ad (line 4 of the map)
  handler   0x0 in M: no word can be fetched there
",
    );
}

#[test]
fn ecall_and_ebreak() {
    says(
        "ecall",
        &[ECALL],
        &format!("{USER} --x a7=93 --x a0=-1"),
        "\
Stopped by a trap in step 1: cause 8 (environment call from U), tval 0x0, from U to M.
  at        0x10000 in U: 00000073  ecall
  why       the program made an environment call from U
  values    a7 = 0x5d, a0 = 0xffffffffffffffff, a1 = 0x0, a2 = 0x0
  handler   0x0 in M: no word can be fetched there
  hint      a7 is 93, the system call exit; --syscalls serves it
",
    );
    says(
        "ebreak",
        &[NOP, EBREAK],
        "--memory 4K",
        "\
Stopped by a trap in step 2: cause 3 (breakpoint), tval 0x80000004, from M to M.
  at        0x80000004 in M: 00100073  ebreak
  why       the program met a breakpoint (ebreak)
  handler   0x0 in M: no word can be fetched there
",
    );
}

/// The row `why` of an illegal instruction.
#[test]
#[rustfmt::skip]
fn illegal_instructions() {
    let desk = Desk::new("illegal");
    for (word, options, why) in [
        (0x0000_0000, "", "no instruction of this hart has this word; it is empty memory: the program ran into a\n            place where no code is"),
        (0x0000_4501, "", "no instruction of this hart has this word; it looks like C.LI (C, which the hart lacks:\n            compile with -march=rv64im)"),
        (0x40b5_7533, "", "no instruction of this hart has this word; it looks like ANDN (Zbb)"),
        (0x0805_053b, "", "no instruction of this hart has this word; it looks like ADD.UW (Zba)"),
        (0x0ab5_1533, "", "no instruction of this hart has this word; it looks like CLMUL (Zbc)"),
        (0x2835_1513, "", "no instruction of this hart has this word; it looks like BSETI (Zbs)"),
        (0x6035_1513, "", "no instruction of this hart has this word"),                      // one after cpop a0,a0
        (0x02b5_153b, "", "no instruction of this hart has this word"),                      // there is no mulhw
        (0x00b5_252f, "", "no instruction of this hart has this word; it looks like AMOADD.W (A, which the hart\n            lacks: compile with -march=rv64im)"),
        (0x0005_3507, "", "no instruction of this hart has this word; it looks like FLD (D, which the hart lacks:\n            compile with -march=rv64im)"),
        (0x0000_100f, "", "no instruction of this hart has this word; it looks like FENCE.I"),
        (0x1050_0073, "", "no instruction of this hart has this word; it is WFI"),
        (0x1200_0073, "", "no instruction of this hart has this word; it looks like SFENCE.VMA"),
        (0xffff_ffff, "", "no instruction of this hart has this word"),
        (0x7c00_2573, "", "the hart has no CSR 0x7c0"),
        (0x3b10_2573, "", "the hart has no CSR 0x3b1 (pmpaddr1)"),
        (0xb1f0_2573, "", "the hart has no CSR 0xb1f (mhpmcounter31)"),
        (0xf140_2573, "", "the hart has no CSR 0xf14 (mhartid)"),                                     // csrr a0,mhartid
        (0x3000_2573, "--mode S", "CSR mstatus needs mode M, and the hart is in S"),         // csrr a0,mstatus
        (0x0110_2573, "--mode S", "CSR ssp in S needs menvcfg.SSE, which is 0"),             // csrr a0,ssp
        (0x0110_2573, "--mode U --csr menvcfg=8", "CSR ssp in U needs senvcfg.SSE, which is 0"),
        (0x3020_0073, "--mode S", "MRET needs mode M, and the hart is in S"),
        (0x1020_0073, "--mode U", "SRET needs mode S or M, and the hart is in U"),
        (0x48b6_352f, "--mode S", "a shadow swap in S needs menvcfg.SSE, which is 0"),       // ssamoswap.d a0,a1,(a2)
        (0x48b6_352f, "--mode U --csr menvcfg=8", "a shadow swap in U needs senvcfg.SSE, which is 0"),
    ] {
        desk.image("p.bin", &[word]);
        let outcome = desk.run(&format!("run p.bin --memory 4K {options}"));
        assert!(outcome.out.contains("cause 2 (illegal instruction)"), "{word:#x}: {}", outcome.out);
        let row = format!("\n  why       {why}\n  handler ");
        assert!(outcome.out.contains(&row), "{word:#x}: {}", outcome.out);
    }
}

#[test]
fn steps_that_ran_out() {
    says(
        "steps",
        &[NOP, NOP],
        "--memory 4K --steps 1",
        "\
The program had not ended after 1 step, all that --steps allows.
  next      0x80000004 in M: 00000013  nop
",
    );
    says(
        "waiting",
        &[J_SELF],
        "--memory 4K --steps 5 --map user.map",
        "\
The program had not ended after 5 steps, all that --steps allows.
  next      0x80000000 in M: 0000006f  j 0x80000000
  hint      the last step changed nothing: the program waits here for ever
  note      the map was not in use: no access was made in S or U with satp on (--sv39 turns it on,
            --mode U starts in U)
",
    );
}

#[test]
fn stuck_in_a_trap() {
    says(
        "stuck",
        &[ECALL],
        "--memory 4K --follow all --steps 1_000_000_000_000",
        "\
Stuck in step 3, 2 traps before it followed: this trap leaves the hart exactly as it was, for ever:
  cause 1 (instruction access fault), tval 0x0, from M to M.
  at        0x0 in M: no word can be fetched there
  access    fetch of 4 bytes at 0x0
  as        M where addresses are physical
  refused   by rule 9 of \"From address to byte\": physical 0x0 lies outside memory (0x80000000 to
            0x80000fff)
  handler   0x0 in M: no word can be fetched there
  hint      pc is 0: a return or a call by an address that was never set, or a trap with tvec 0
",
    );
}

/// Slips that are easily made, with what would mend them.
#[test]
fn hints() {
    let desk = Desk::new("hints");
    let sd_sp = 0xfe11_3c23; // sd ra,-8(sp)
    for (words, options, hint) in [
        (
            vec![SSPUSH_RA],
            format!("{USER} --shadow-stack"),
            "ssp is 0: no shadow stack was set up; --ssp ADDRESS gives the end of its pages (--user sets it)",
        ),
        (
            vec![sd_sp],
            format!("{USER} --steps 9"),
            "sp was 0 at the start: no stack was set up; --x sp=ADDRESS gives its end (--user sets it)",
        ),
        (
            vec![sd_sp],
            "--memory 4K".to_string(),
            "sp was 0 at the start: no stack was set up; --x sp=ADDRESS gives its end (--user sets it)",
        ),
        (
            vec![NOP],
            "--memory 4K --pc 0x10000".to_string(),
            "the run began at 0x10000, outside memory (0x80000000 to 0x80000fff); --pc ADDRESS says where the program starts",
        ),
        (
            vec![JR_A0],
            "--memory 4K --x a0=0x90000000".to_string(),
            "the program jumped to 0x90000000, outside memory (0x80000000 to 0x80000fff)",
        ),
        (
            vec![JR_A0],
            "--memory 4K".to_string(),
            "pc is 0: a return or a call by an address that was never set, or a trap with tvec 0",
        ),
    ] {
        desk.image("p.bin", &words);
        let said = desk.run(&format!("run p.bin {options}")).out;
        let words: Vec<&str> = said.split_whitespace().collect();
        let hint = format!("hint {hint}");
        assert!(words.join(" ").contains(&hint), "{options}: {said}");
    }
    // None where the pointers are set and the fault has another reason.
    desk.image("p.bin", &[sd_sp]);
    let said = desk.run(&format!("run p.bin {USER} --x sp=0x10000")).out;
    assert!(!said.contains("hint"), "{said}");
    desk.image("p.bin", &[SSPUSH_RA]);
    let said = desk
        .run(&format!("run p.bin {USER} --shadow-stack --ssp 0x21000"))
        .out;
    assert!(!said.contains("hint"), "{said}");
}
