//! `--syscalls`, and what both services have in common: what each call does to the console, to registers and to memory, and what is not served.

mod common;

use common::calls::*;
use common::json::Reader;
use common::*;

#[test]
fn write_goes_to_the_console_also_over_pages_that_lie_apart() {
    let mut data = vec![b'.'; 4096];
    data[..6].copy_from_slice(b"hello\n");
    data[4094..].copy_from_slice(b"ab");
    let data = [data, vec![0; 4096], b"cd".to_vec()].concat();
    let (outcome, object) = call(&data, "", "a7=64 a0=1 a1=0x20000 a2=6");
    assert_eq!((outcome.err.as_str(), a0(&object)), ("hello\n", 6));
    let (outcome, object) = call(&data, "", "a7=64 a0=2 a1=0x20ffe a2=4");
    assert_eq!((outcome.err.as_str(), a0(&object)), ("abcd", 4));
    let (outcome, object) = call(&data, "", "a7=64 a0=1 a1=0x20000 a2=0");
    assert_eq!((outcome.err.as_str(), a0(&object)), ("", 0));
}

#[test]
fn what_cannot_be_written_says_so_and_writes_nothing() {
    for (registers, error) in [
        ("a7=64 a0=0 a1=0x20000 a2=4", EBADF),
        ("a7=64 a0=3 a1=0x20000 a2=4", EBADF),
        ("a7=64 a0=-1 a1=0x20000 a2=4", EBADF),
        ("a7=64 a0=1 a1=0x22000 a2=1", EFAULT),
        ("a7=64 a0=1 a1=0x21ffe a2=4", EFAULT), // the last two bytes have no page
        ("a7=64 a0=1 a1=0x20000 a2=-1", EFAULT),
        ("a7=64 a0=1 a1=-1 a2=4", EFAULT),
        ("a7=64 a0=1 a1=0x80000000 a2=4", EFAULT), // physical, and the program has no such page
    ] {
        let (outcome, object) = call(b"data", "", registers);
        assert_eq!(
            (outcome.err.as_str(), a0(&object)),
            ("", error),
            "{registers}"
        );
    }
}

#[test]
fn read_fills_the_buffer() {
    let (_, object) = call(b"", "abcdef", "a7=63 a0=0 a1=0x20ffe a2=4");
    assert_eq!(a0(&object), 4);
    assert!(dump(&object, 0).ends_with("6162"));
    assert!(dump(&object, 1).starts_with("63640000"));
    let (_, object) = call(b"", "ab", "a7=63 a0=0 a1=0x20000 a2=100");
    assert_eq!(a0(&object), 2, "as much as there is");
    let (_, object) = call(b"", "", "a7=63 a0=0 a1=0x20000 a2=100");
    assert_eq!(a0(&object), 0, "the end of the input");
}

/// A store there would trap: to code, to a shadow page, behind the data.
#[test]
fn read_into_what_the_program_cannot_write_changes_nothing() {
    for buffer in ["0x10000", "0x30000", "0x21ffe", "0x40000"] {
        let (_, object) = call(b"data", "abcdef", &format!("a7=63 a0=0 a1={buffer} a2=4"));
        assert_eq!(a0(&object), EFAULT, "{buffer}");
        assert!(dump(&object, 0).starts_with("6461746100"), "{buffer}");
    }
    let (_, object) = call(b"", "abcdef", "a7=63 a0=1 a1=0x20000 a2=4");
    assert_eq!(a0(&object), EBADF);
}

/// A call that fails takes nothing from the input: the next one gets it.
#[test]
fn input_is_not_lost_by_a_bad_buffer() {
    let desk = Desk::new("input-kept");
    let words = [
        ECALL,
        0x0002_05b7, // lui a1,0x20
        0x0000_0513, // li a0,0
        ECALL,
        EBREAK,
    ];
    program(&desk, &words, b"");
    let options = "--syscalls --x a7=63 --x a1=0x10000 --x a2=3 --dump 0x80001000:4";
    let outcome = desk.run_with(&format!("{RUN} {options} --expect ebreak"), "abcdef");
    assert!(outcome.out.contains("61 62 63 00"), "{}", outcome.out);
    assert!(
        outcome.out.contains("calls     2 served\n"),
        "{}",
        outcome.out
    );
}

/// By masking, as a load of the program itself would go.
#[test]
fn a_tagged_buffer_is_where_the_program_has_it() {
    let desk = Desk::new("tagged");
    program(&desk, &[ECALL, EBREAK], b"tagged");
    let registers = "--x a7=64 --x a0=1 --x a1=0x5400000000020000 --x a2=6";
    let masked = desk.run(&format!(
        "{RUN} --syscalls {registers} --masking 7 --expect ebreak"
    ));
    assert!(
        masked.out.starts_with("tagged\nStopped by a trap"),
        "{}",
        masked.out
    );
    let plain = desk.run(&format!("{RUN} --syscalls {registers} --json"));
    assert_eq!(a0(&Reader::whole(&plain.out)), EFAULT);
}

#[test]
fn fstat_and_close() {
    let (_, object) = call(b"", "", "a7=80 a0=1 a1=0x20000");
    assert_eq!(a0(&object), 0);
    let stat = &dump(&object, 0)[..256];
    assert_eq!(
        &stat[32..48],
        "9021000001000000",
        "S_IFCHR, mode 0620, one link"
    );
    assert_eq!(&stat[112..120], "00040000", "blocks of 1024");
    let (_, object) = call(b"", "", "a7=80 a0=3 a1=0x20000");
    assert_eq!(a0(&object), EBADF);
    let (_, object) = call(b"", "", "a7=80 a0=1 a1=0x21fc0");
    assert_eq!(a0(&object), EFAULT);
    assert_eq!(
        dump(&object, 1),
        "0".repeat(32),
        "nothing is written in part"
    );
    let (_, object) = call(b"", "", "a7=57 a0=2");
    assert_eq!(a0(&object), 0);
    let (_, object) = call(b"", "", "a7=57 a0=7");
    assert_eq!(a0(&object), EBADF);
}

#[test]
fn what_is_closed_stays_closed() {
    let desk = Desk::new("closed");
    let words = [
        ECALL,       // close(1)
        0x0400_0893, // li a7,64
        0x0010_0513, // li a0,1
        ECALL,
        EBREAK,
    ];
    program(&desk, &words, b"text");
    let options = "--syscalls --x a7=57 --x a0=1 --x a1=0x20000 --x a2=4 --json";
    let outcome = desk.run(&format!("{RUN} {options}"));
    assert_eq!(
        (outcome.err.as_str(), a0(&Reader::whole(&outcome.out))),
        ("", EBADF)
    );
}

#[test]
fn other_calls_are_answered_and_listed() {
    let (_, object) = call(b"", "", "a7=62 a0=1");
    assert_eq!(a0(&object), ENOSYS);
    let unserved = &object.at("calls").at("unserved").list()[0];
    assert_eq!(unserved.at("call").text(), "system call 62 lseek");
    assert_eq!(
        (
            unserved.at("number").number(),
            unserved.at("count").number()
        ),
        (62, 1)
    );
    let desk = Desk::new("unserved");
    program(&desk, &[ECALL, ECALL, EBREAK], b"");
    let outcome = desk.run(&format!("{RUN} --syscalls --x a7=4711"));
    let calls = "0 served; not served, and answered with an error: system call 4711 (2 times)\n";
    assert!(outcome.out.contains(calls), "{}", outcome.out);
}

#[test]
fn an_exit_ends_the_run() {
    let desk = Desk::new("exit");
    program(&desk, &[NOP, ECALL, EBREAK], b"");
    let run = |options: &str| desk.run(&format!("{RUN} --syscalls {options}"));
    let outcome = run("--x a7=93 --x a0=7");
    assert_eq!(
        (outcome.status, outcome.out.as_str()),
        (
            3,
            "The program exited with 7 in step 2.\n  at        0x10004 in U: 00000073  ecall\n"
        )
    );
    assert_eq!(run("--x a7=93").status, 0);
    assert_eq!(run("--x a7=94 --x a0=-1").status, 3);
    for (value, options, status) in [
        (7, "--expect exit", 0),
        (7, "--expect exit=7", 0),
        (-2, "--expect exit=-2", 0),
        (7, "--expect exit=0", 3),
        (0, "--expect ecall", 3),
        (7, "--exit-status", 7),
        (256 + 9, "--exit-status", 9),
        (-1, "--exit-status", 255),
    ] {
        let outcome = run(&format!("--x a7=93 --x a0={value} {options}"));
        assert_eq!(outcome.status, status, "{value} {options}");
    }
    let outcome = run("--x a7=93 --x a0=3 --json");
    let object = Reader::whole(&outcome.out);
    assert_eq!(
        (object.at("stopped").text(), object.at("exit").number()),
        ("exit", 3)
    );
}

/// With `--exit-status` the output is the program's alone; a trap keeps the desk's own status.
#[test]
fn a_runner_for_programs() {
    let desk = Desk::new("runner");
    let words = [
        ECALL,
        0x05d0_0893, // li a7,93
        0x0050_0513, // li a0,5
        ECALL,
    ];
    program(&desk, &words, b"text");
    let options = "--syscalls --exit-status --x a7=64 --x a0=1 --x a1=0x20000 --x a2=4";
    let outcome = desk.run(&format!("{RUN} {options}"));
    assert_eq!((outcome.status, outcome.out.as_str()), (5, "text"));
    assert!(
        outcome
            .err
            .starts_with("The program exited with 5 in step 4."),
        "{}",
        outcome.err
    );
    program(&desk, &[EBREAK], b"");
    let outcome = desk.run(&format!("{RUN} --syscalls --exit-status"));
    assert_eq!((outcome.status, outcome.out.as_str()), (3, ""));
}

/// Delegated to S, the desk stands in for the handler there, and returns by SRET.
#[test]
fn a_delegated_call_is_served_too() {
    let desk = Desk::new("delegated");
    program(&desk, &[ECALL, EBREAK], b"text");
    let options =
        "--syscalls --csr medeleg=0x100 --x a7=64 --x a0=1 --x a1=0x20000 --x a2=4 --json";
    let outcome = desk.run(&format!("{RUN} {options}"));
    let object = Reader::whole(&outcome.out);
    assert_eq!((outcome.err.as_str(), a0(&object)), ("text", 4));
    let csr = |name: &str| object.at("csrs").at(name).hex();
    assert_eq!((csr("sepc"), csr("scause")), (0x10004, 8));
    assert_eq!(
        (csr("mepc"), csr("mcause")),
        (0x10004, 3),
        "the breakpoint's, which is not delegated"
    );
}

/// Who called is told by what the trap to S saved, whatever an earlier trap to M has left.
#[test]
fn a_delegated_call_has_its_own_mode_and_address() {
    let desk = Desk::new("delegated-mode");
    program(&desk, &[ECALL, EBREAK], b"text");
    let delegated = "--csr medeleg=0x108 --csr mstatus=0x1800 --csr mepc=0x80000100";
    let options = "--syscalls --x a7=64 --x a0=1 --x a1=0x20000 --x a2=4 --json";
    let outcome = desk.run(&format!("{RUN} {delegated} {options}"));
    let object = Reader::whole(&outcome.out);
    assert_eq!((outcome.err.as_str(), a0(&object)), ("text", 4));
    program(&desk, &[SLLI, EBREAK, SRAI, ECALL], b"text");
    let options = "--semihosting --x a0=4 --x a1=0x20000 --expect ecall --json";
    let outcome = desk.run(&format!("{RUN} {delegated} {options}"));
    assert_eq!((outcome.err.as_str(), outcome.status), ("text", 0));
}

/// A buffer may end at the last address, and does not go on at the first.
#[test]
fn a_buffer_at_the_end_of_all_addresses() {
    let desk = Desk::new("last-address");
    program(&desk, &[ECALL, EBREAK], &[b'x'; 4096]);
    let ends = "0xfffffffffffff000 -> 0x80001000 rw u\n0x0 -> 0x80001000 rw u\n";
    desk.file("apart.map", format!("{APART}{ends}"));
    let write = |length: u64| {
        let registers = format!("--x a7=64 --x a0=1 --x a1=-2 --x a2={length}");
        let outcome = desk.run(&format!("{RUN} --syscalls {registers} --json"));
        (outcome.err.clone(), a0(&Reader::whole(&outcome.out)))
    };
    assert_eq!(write(2), ("xx".to_string(), 2));
    assert_eq!(write(3), (String::new(), EFAULT));
}

/// ECALLs of the mode in which the run began are the environment's, others are the program's own.
#[test]
fn which_ecalls_are_served() {
    let desk = Desk::new("whose");
    desk.image("m.bin", &[ECALL, EBREAK]);
    let outcome = desk.run("run m.bin --syscalls --x a7=62 --expect ebreak --json");
    assert_eq!(a0(&Reader::whole(&outcome.out)), ENOSYS);
    desk.image("u.bin", &[MRET, NOP, ECALL]);
    let outcome = desk.run("run u.bin --syscalls --csr mepc=0x80000008 --x a7=93");
    let trap = "Stopped by a trap in step 2: cause 8 (environment call from U)";
    assert!(outcome.out.starts_with(trap), "{}", outcome.out);
    desk.image("s.bin", &[ECALL, EBREAK]);
    let outcome = desk.run("run s.bin --syscalls --mode S --x a7=62 --expect ebreak --json");
    assert_eq!(a0(&Reader::whole(&outcome.out)), ENOSYS);
    let outcome = desk.run("run m.bin --x a7=93");
    assert!(
        outcome.out.contains("cause 11"),
        "without the option it is a trap: {}",
        outcome.out
    );
}

/// What stands behind a call is explained by the state that the call has left: an address that was read.
#[test]
fn a_trap_behind_calls_is_explained() {
    let desk = Desk::new("behind");
    let words = [
        ECALL,
        0x0005_b603, // ld a2,0(a1)
        0x0006_3503, // ld a0,0(a2)
    ];
    program(&desk, &words, b"");
    let options = "--syscalls --x a7=63 --x a1=0x20000 --x a2=8";
    let run = format!("{RUN} {options}");
    let outcome = desk.run_with(&run, "\x10\x32\x54\0\0\0\0\0");
    assert!(
        outcome.out.contains("load of 8 bytes at 0x543210"),
        "{}",
        outcome.out
    );
    let traced = desk.run_with(&format!("{run} --trace-to t.txt"), "\x10\x32\x54\0\0\0\0\0");
    assert_eq!(traced.out, outcome.out);
}

/// More calls than the desk keeps in mind before it takes a new copy of memory.
#[test]
fn thousands_of_calls() {
    let desk = Desk::new("thousands");
    let words = [
        0xfff4_0413, // addi s0,s0,-1
        0x0010_0513, // li a0,1
        ECALL,
        0xfe04_1ae3, // bnez s0,.-12
        LD_A0_A1,
        0x0005_3503, // ld a0,0(a0)
    ];
    program(&desk, &words, b"x\0\0\0\0\0\0\0");
    let outcome = desk.run(&format!(
        "{RUN} --syscalls --x s0=3500 --x a7=64 --x a1=0x20000 --x a2=1"
    ));
    let (text, report) = outcome.out.split_once('\n').unwrap();
    assert_eq!(text, "x".repeat(3500));
    assert!(
        report.starts_with("Stopped by a trap in step 14002: cause 13"),
        "{report}"
    );
    assert!(report.contains("load of 8 bytes at 0x78"), "{report}");
    assert!(report.contains("calls     3500 served"), "{report}");
}

/// The trace shows the call and where the program goes on, and the console does not disturb it.
#[test]
fn a_trace_with_calls() {
    let desk = Desk::new("trace-calls");
    program(&desk, &[ECALL, EBREAK], b"text");
    let options = "--syscalls --x a7=64 --x a0=1 --x a1=0x20000 --x a2=4 --trace";
    let outcome = desk.run(&format!("{RUN} {options}"));
    assert_eq!(outcome.err, "text");
    let lines: Vec<&str> = outcome.out.lines().collect();
    assert!(
        lines[0].starts_with("      1 U 0x0000000000010000 00000073  ecall"),
        "{}",
        lines[0]
    );
    assert!(
        outcome
            .out
            .contains("\n        served: a0=0x4, on at 0x10004 in U\n"),
        "{}",
        outcome.out
    );
    assert!(
        outcome
            .out
            .contains("\n      2 U 0x0000000000010004 00100073  ebreak"),
        "{}",
        outcome.out
    );
    let apart = desk.run(&format!("{RUN} {options} --trace-to t.txt"));
    assert!(
        apart.out.starts_with("text\nStopped by a trap in step 2"),
        "{}",
        apart.out
    );
}

/// A program that makes calls without the option that serves them is told which.
#[test]
fn a_call_that_nothing_serves_has_a_hint() {
    let desk = Desk::new("unserved-hint");
    let hint = |words: &[u32], options: &str| {
        desk.image("p.bin", words);
        let said = desk.run(&format!("run p.bin --memory 4K {options}")).out;
        let row = said
            .lines()
            .find_map(|line| line.strip_prefix("  hint      "));
        row.unwrap_or_default().to_string()
    };
    let semihosting = "this is a semihosting call; --semihosting serves it";
    assert_eq!(hint(&[SLLI, EBREAK, SRAI], "--syscalls"), semihosting);
    assert_eq!(hint(&[NOP, EBREAK, SRAI], ""), "");
    let exit = "a7 is 93, the system call exit; --syscalls serves it";
    assert_eq!(hint(&[ECALL], "--x a7=93 --semihosting"), exit);
    assert_eq!(hint(&[ECALL], "--x a7=62"), "");
    let other =
        "--syscalls serves ECALLs from the mode in which the run began, and this is another";
    assert_eq!(
        hint(
            &[MRET, NOP, ECALL],
            "--syscalls --csr mepc=0x80000008 --x a7=93"
        ),
        other
    );
}
