//! Traces, chained calls, followed traps, dumps, files that are written, and outputs that are closed.

mod common;

use common::*;
use std::io::Read;
use std::process::Stdio;

#[test]
fn a_trace_shows_what_each_step_changes() {
    let desk = Desk::new("trace");
    let words = [
        0x0020_0093, // li ra,2
        SSPUSH_RA,
        0x0015_8023, // sb ra,0(a1)
        SSPOPCHK_RA,
        ECALL,
    ];
    desk.image("p.bin", &words);
    let options =
        format!("{USER} --shadow-stack --ssp 0x31000 --x a1=0x20007 --csr mtvec=0x80000100");
    let outcome = desk.run(&format!("run p.bin {options} --trace"));
    let (trace, report) = outcome.out.split_once("Stopped by").unwrap();
    assert_eq!(
        trace,
        "      1 U 0x0000000000010000 00200093  li ra,2                      ra=0x2
      2 U 0x0000000000010004 ce104073  sspush ra                    ssp=0x30ff8 mem8[0x80002ff8]=0x2
      3 U 0x0000000000010008 00158023  sb ra,0(a1)                  mem1[0x80001007]=0x2
      4 U 0x000000000001000c cdc0c073  sspopchk ra                  ssp=0x31000
      5 U 0x0000000000010010 00000073  ecall                        trap 8 (environment call from U)
                                                                    pc=0x80000100 mode=M
                                                                    mepc=0x10010 mcause=0x8
"
    );
    let plain = desk.run(&format!("run p.bin {options}"));
    assert_eq!(
        format!("Stopped by{report}"),
        plain.out,
        "a trace ends as a run does"
    );
    let filed = desk.run(&format!("run p.bin {options} --trace-to t.txt"));
    assert_eq!(filed.out, plain.out);
    assert_eq!(
        std::fs::read_to_string(desk.folder.join("t.txt")).unwrap(),
        trace
    );
}

/// M in user mode: a division by zero has its result, and traps as little as the others.
#[test]
fn a_trace_of_products_and_counts() {
    let desk = Desk::new("products");
    let words = [
        0x02c5_8533, // mul a0,a1,a2
        0x0205_c533, // div a0,a1,zero
        0x0205_e533, // rem a0,a1,zero
        0x6000_1513, // clz a0,zero
        0x0ac5_d533, // minu a0,a1,a2
        ECALL,
    ];
    desk.image("p.bin", &words);
    let outcome = desk.run(&format!("run p.bin {USER} --x a1=-7 --x a2=3 --trace"));
    let (trace, _) = outcome.out.split_once("      6 U").unwrap();
    assert_eq!(
        trace,
        "      1 U 0x0000000000010000 02c58533  mul a0,a1,a2                 a0=0xffffffffffffffeb
      2 U 0x0000000000010004 0205c533  div a0,a1,zero               a0=0xffffffffffffffff
      3 U 0x0000000000010008 0205e533  rem a0,a1,zero               a0=0xfffffffffffffff9
      4 U 0x000000000001000c 60001513  clz a0,zero                  a0=0x40
      5 U 0x0000000000010010 0ac5d533  minu a0,a1,a2                a0=0x3
"
    );
}

/// 2,500,002 steps are three calls and a last step; the hart after them is the one that the same calls give here.
#[test]
fn chained_calls_are_one_long_run() {
    let desk = Desk::new("chained");
    desk.image("p.bin", &COUNTDOWN);
    let outcome = desk.run("run p.bin --memory 4K --x a0=5000000 --steps 2500002 --registers");
    assert_eq!(outcome.status, 0);

    let mut hart = sporhulma::Hart::fresh();
    hart.x[10] = 5_000_000;
    let mut mem: Vec<u8> = COUNTDOWN
        .iter()
        .flat_map(|word| word.to_le_bytes())
        .collect();
    mem.resize(4096, 0);
    for budget in [1_000_000, 1_000_000, 500_002] {
        assert_eq!(
            sporhulma::run(&mut hart, &mut mem, &[], budget).count,
            budget
        );
    }
    assert_eq!(hart.x[10], 5_000_000 - 1_250_001);
    assert!(
        outcome.out.contains(&format!("a0   {:#018x}", hart.x[10])),
        "{}",
        outcome.out
    );
    assert!(
        outcome
            .out
            .contains(&format!("pc       {:#018x}", hart.rest[0])),
        "{}",
        outcome.out
    );
}

/// A trap in a later call: the state before it is found again, so that it can be explained.
#[test]
fn a_trap_in_a_later_call_is_counted_and_explained() {
    let desk = Desk::new("later");
    desk.image("p.bin", &COUNTDOWN);
    let outcome = desk.run("run p.bin --memory 4K --x a0=600_000 --steps 0xffffffffffffffff");
    assert!(
        outcome
            .out
            .starts_with("Stopped by a trap in step 1200001: cause 11"),
        "{}",
        outcome.out
    );
    assert!(
        outcome
            .out
            .contains("  at        0x80000008 in M: 00000073  ecall\n"),
        "{}",
        outcome.out
    );
}

/// The same program step by step and in calls, at every length around its traps.
#[test]
fn a_trace_and_a_run_end_alike() {
    let desk = Desk::new("alike");
    // An ecall whose handler (mtvec, the third word) stores a0, counts it up and calls again.
    let words = [NOP, ECALL, 0x00a5_b023, 0x0015_0513, ECALL]; // .., sd a0,0(a1); addi a0,a0,1; ecall
    desk.image("p.bin", &words);
    for steps in 0..12 {
        for follow in ["0", "1", "2", "all"] {
            let options = format!(
                "run p.bin --memory 8K --x a1=0x80001000 --csr mtvec=0x80000008 --steps {steps} \
                 --follow {follow} --json --dump 0x80001000:16"
            );
            let run = desk.run(&options);
            let trace = desk.run(&format!("{options} --trace-to t.txt"));
            assert_eq!(
                (run.status, run.out),
                (trace.status, trace.out),
                "{options}"
            );
            let lines = std::fs::read_to_string(desk.folder.join("t.txt")).unwrap();
            let shown = lines
                .lines()
                .filter(|line| line.as_bytes()[6].is_ascii_digit())
                .count();
            assert!(shown <= steps, "{options}");
        }
    }
}

#[test]
fn traps_are_followed_and_expected() {
    let desk = Desk::new("follow");
    desk.image("p.bin", &[ECALL, EBREAK, ECALL]); // the handler is the second word, then itself
    let run = |options: &str| {
        desk.run(&format!(
            "run p.bin --memory 4K --csr mtvec=0x80000004 {options}"
        ))
    };
    let headline = |options: &str| run(options).out.lines().next().unwrap().to_string();
    assert!(headline("").contains("trap in step 1: cause 11"));
    assert!(headline("--follow 1").contains("trap in step 2, 1 trap before it followed: cause 3"));
    assert!(headline("--follow all").contains("Stuck in step 3, 2 traps before it followed"));
    // The handler of a followed trap waits: the state before the last step is not one of before the trap.
    desk.image("p.bin", &[ECALL, NOP, NOP, J_SELF]);
    assert!(run("--follow all --steps 10")
        .out
        .contains("the program waits here for ever"));
    desk.image("p.bin", &[ECALL, EBREAK, ECALL]);
    assert_eq!(run("--expect ecall").status, 0);
    assert!(run("--expect 11")
        .out
        .contains("  expect    as --expect asks: 11\n"));
    assert_eq!(run("--follow 1 --expect ebreak").status, 0);
    assert_eq!(run("--expect ebreak").status, 3);
    assert!(run("--expect ebreak")
        .out
        .contains("  expect    not as --expect asks: ebreak\n"));
    assert_eq!(run("--follow all --steps 1").status, 0);
    assert_eq!(
        run("--follow all --steps 1 --expect ecall").status,
        3,
        "no trap stopped it"
    );
}

#[test]
fn dumps_and_saved_memory() {
    let desk = Desk::new("dumps");
    desk.file("p.bin", b"\x73\0\0\0Hello, shadow stack");
    desk.file("mem.bin", vec![7; 9000]); // longer than memory: nothing of it may stay
    let outcome =
        desk.run("run p.bin --memory 4K --dump 0x80000000:24 --dump 0x80000ffe:2 --save mem.bin");
    let dumps = "
0x80000000  73 00 00 00 48 65 6c 6c 6f 2c 20 73 68 61 64 6f  |s...Hello, shado|
0x80000010  77 20 73 74 61 63 6b 00                          |w stack.|

0x80000ffe  00 00                                            |..|
";
    assert!(outcome.out.ends_with(dumps), "{}", outcome.out);
    let saved = std::fs::read(desk.folder.join("mem.bin")).unwrap();
    assert_eq!(saved.len(), 4096);
    assert_eq!(saved[..12], *b"\x73\0\0\0Hello, s");
}

#[test]
fn the_start_is_as_the_options_say() {
    let desk = Desk::new("start");
    desk.image("p.bin", &[NOP]);
    let outcome = desk.run(
        "run p.bin --steps 0 --registers --mode s --elp 1 --x fp=-2 --x t6=0b101 --csr ssp=16 \
         --csr mstatus=0x80 --csr menvcfg=0x300000000 --masking 7 --landing-pads --shadow-stack --sv39",
    );
    for part in [
        "s0   0xfffffffffffffffe",
        "t6   0x0000000000000005",
        "mode     S",
        "elp      0x0000000000000001",
        "ssp      0x0000000000000010",
        "mstatus  0x0000000a00000080",
        "satp     0x8000000000000000",
        "menvcfg  0x000000020000000c",
        "senvcfg  0x000000020000000c",
        "mseccfg  0x0000000200000400",
    ] {
        assert!(outcome.out.contains(part), "{part}: {}", outcome.out);
    }
    assert_eq!(outcome.status, 0);
}

#[test]
fn disassembly_of_words_and_images() {
    let desk = Desk::new("disasm");
    desk.file(
        "p.bin",
        [0x13, 0x05, 0xa0, 0x00, 0x73, 0x40, 0x10, 0xce, 0xaa, 0xbb],
    );
    let image = "0x1000:  00a00513  li a0,10\n0x1004:  ce104073  sspush ra\n";
    let rest = "0x1008:            .byte 0xaa, 0xbb\n";
    assert_eq!(
        desk.run("disasm --image p.bin --at 0x1000").out,
        format!("{image}{rest}")
    );
    assert_eq!(
        desk.run("disasm --image p.bin --at 0x1000 --words 2").out,
        image
    );
    let words = desk.run("disasm 00a00513 0x6f");
    assert_eq!(
        words.out,
        "0x80000000:  00a00513  li a0,10\n0x80000004:  0000006f  j 0x80000004\n"
    );
    assert_eq!((words.status, words.err.as_str()), (0, ""));
}

#[test]
fn the_demo_writes_its_picture_where_it_is_told() {
    let desk = Desk::new("demo");
    let outcome = desk.run("demo --svg picture.svg");
    assert_eq!((outcome.status, outcome.err.as_str()), (0, ""));
    assert!(!outcome.out.is_empty());
    let picture = std::fs::read_to_string(desk.folder.join("picture.svg")).unwrap();
    assert!(picture.contains("<svg"));
    assert_eq!(desk.run("demo").status, 0);
    assert!(desk.folder.join("torque.svg").exists());
    let outcome = desk.run("demo --svg no/picture.svg");
    assert_eq!(outcome.status, 2);
    assert!(outcome.err.starts_with("desk: demo: ") && outcome.err.lines().count() == 1);
}

#[test]
fn help_is_there_and_fits_a_page() {
    let desk = Desk::new("help");
    for command in [
        "help",
        "help run",
        "help frames",
        "help demo",
        "help disasm",
        "help asm",
        "help hex",
        "--help",
        "run -h",
        "frames --help",
        "disasm --help",
        "asm --help",
        "hex --help",
    ] {
        let outcome = desk.run(command);
        assert_eq!((outcome.status, outcome.err.as_str()), (0, ""), "{command}");
        assert!(
            outcome.out.lines().all(|line| line.len() <= 100),
            "{command}: {}",
            outcome.out
        );
    }
    assert!(desk.run("help run").out.contains("--shadow-stack"));
}

#[test]
fn a_closed_pipe_ends_the_desk_quietly() {
    let desk = Desk::new("pipe");
    desk.image("p.bin", &[J_SELF]);
    let mut child = desk
        .command(&[
            "run", "p.bin", "--memory", "4K", "--trace", "--steps", "100000",
        ])
        .stdout(Stdio::piped())
        .stderr(Stdio::piped())
        .spawn()
        .unwrap();
    drop(child.stdout.take());
    let mut err = String::new();
    child
        .stderr
        .take()
        .unwrap()
        .read_to_string(&mut err)
        .unwrap();
    assert_eq!(err, "");
    assert_eq!(child.wait().unwrap().code(), Some(1));
}

/// A full disk is the desk's own failure, not wrong input.
#[cfg(target_os = "linux")]
#[test]
fn a_full_disk_is_status_1() {
    let desk = Desk::new("full");
    desk.image("p.bin", &[ECALL]);
    let outcome = desk.run("run p.bin --save /dev/full");
    assert_eq!(outcome.status, 1);
    let line = "desk: the output could not be written: /dev/full: No space left on device";
    assert!(outcome.err.starts_with(line), "{}", outcome.err);
}

/// A loop over a trap that leaves the hart as it was but memory not: it goes on, and is not stuck.
#[test]
fn a_trap_loop_that_changes_memory_is_not_stuck() {
    let desk = Desk::new("trap-loop");
    let count = [
        0x0005_a503, // lw a0,0(a1)
        0x0015_0513, // addi a0,a0,1
        0x00a5_a023, // sw a0,0(a1)
        0x0000_0513, // li a0,0
        ECALL,
    ];
    desk.image("p.bin", &count);
    let outcome = desk.run(
        "run p.bin --x a1=0x80000100 --csr mtvec=0x80000000 --follow all --steps 50 --dump 0x80000100:4",
    );
    assert_eq!(outcome.status, 0, "{}", outcome.out);
    assert!(
        outcome
            .out
            .contains("The program had not ended after 50 steps"),
        "{}",
        outcome.out
    );
    assert!(
        outcome.out.contains("0x80000100  0a 00 00 00"),
        "{}",
        outcome.out
    );
}
