//! `desk frames` and `desk run --frames`: the table whole, as JSON and in a run.

mod common;

use common::json::Value;
use common::*;
use sporhulma::BASE;

/// Every sort of entry.
const RICH: &str = "\
# what a user program can do
0x10000 -> 0x80000000 r-x u
0x20000 -> 0x80001000 rw u
0x21000 -> 0x80001000 r u          # the same frame
0x30000 -> 0x80002000 shadow u
0x31000 -> 0x80003000 shadow u !d
0x40000 -> 0x80004000 rw u !d
0x41000 -> 0x80005000 rwx u !ad
0x42000 -> 0x80006000 x u
# what it can't
0x50000 -> 0x80001000 rw           # a frame that it names all the same
0x51000 -> 0x80008000 rw
0x52000 -> 0x80009000 rw u !v
0x53000 -> 0x80009000 u
0x54000 -> 0x80009000 wx u
0x55000 -> 0x80009000 shadow
0x56000 -> leaf 0x00400000200024df
0xffffffffffff0000 -> 0x80010000 rw u
0x60000 -> 0x1000 r u
";

/// Without the shadow stack, whole: each sort of entry in its place, and entries with W alone among those that name nothing.
#[test]
fn the_table_without_the_shadow_stack() {
    let desk = Desk::new("frames-off");
    desk.file("rich.map", RICH);
    let outcome = desk.run("frames --map rich.map --memory 64K");
    assert_eq!(
        outcome.out,
        "\
By this map, a user program under Sv39 can name 5 of the 16 frames of memory (0x80000000 to
  0x8000ffff).
  setting   menvcfg.SSE 0 (so W alone is not valid; --shadow-stack sets it), senvcfg.SSE 0,
            mstatus.MXR 0
  theorem   up to and including its first trap, a user program neither depends on the bytes of
            frames that are not named nor changes them (docs/ISOLATION.md)

Named, in its reach: 5 frames, 20K
  0x80000000  0x10000 -> 0x80000000 vr-xu-ad (line 2 of the map): read, execute
  0x80001000  named by 2 entries:
              0x20000 -> 0x80001000 vrw-u-ad (line 3 of the map): read, write
              0x21000 -> 0x80001000 vr--u-ad (line 4 of the map): read
  0x80004000  0x40000 -> 0x80004000 vrw-u-a- (line 7 of the map): read; not as it stands: write (D
                is 0)
  0x80005000  0x41000 -> 0x80005000 vrwxu--- (line 8 of the map): not as it stands: read (A is 0),
                write (A is 0, D is 0), execute (A is 0)
  0x80006000  0x42000 -> 0x80006000 v--xu-ad (line 9 of the map): execute; not as it stands: read
                (mstatus.MXR is 0)

Not named, out of its reach: 11 frames, 44K
  0x80002000 to 0x80003fff  2 frames, 8K
  0x80007000 to 0x8000ffff  9 frames, 36K

Of a frame outside memory: 2 entries
  0x60000 -> 0x1000 vr--u-ad (line 19 of the map): it names no byte of memory, and what it allows is
    an access fault (rule 9)
  0xffffffffffff0000 -> 0x80010000 vrw-u-ad (line 18 of the map): it names no byte of memory, and
    what it allows is an access fault (rule 9)

Naming nothing for a user program: 9 entries
  0x30000 -> 0x80002000 v-w-u-ad (line 5 of the map): the entry has W alone, and menvcfg.SSE is 0,
    so it is no shadow page (rule 5); with --shadow-stack it is one and names its frame
  0x31000 -> 0x80003000 v-w-u-a- (line 6 of the map): the entry has W alone, and menvcfg.SSE is 0,
    so it is no shadow page (rule 5); with --shadow-stack it is one and names its frame
  0x50000 -> 0x80001000 vrw---ad (line 11 of the map): U mode needs the U bit, and the entry has it
    not (rule 6); lines 3, 4 name this frame
  0x51000 -> 0x80008000 vrw---ad (line 12 of the map): U mode needs the U bit, and the entry has it
    not (rule 6)
  0x52000 -> 0x80009000 -rw-u-ad (line 13 of the map): V of the entry is 0 (rule 5)
  0x53000 -> 0x80009000 v---u-ad (line 14 of the map): R, W and X of the entry are all 0 (rule 5)
  0x54000 -> 0x80009000 v-wxu-ad (line 15 of the map): the entry has W without R (rule 5)
  0x55000 -> 0x80009000 v-w---ad (line 16 of the map): the entry has W alone, and menvcfg.SSE is 0,
    so it is no shadow page (rule 5)
  0x56000 -> 0x80009000 vrwxu-ad (line 17 of the map): bits 63:54 of the entry are not 0 (rule 5)
"
    );
    assert_eq!((outcome.status, outcome.err.as_str()), (0, ""));
}

/// With it, the whole table again.
#[test]
fn the_table_with_the_shadow_stack() {
    let desk = Desk::new("frames-on");
    desk.file("rich.map", RICH);
    let outcome = desk.run("frames --map rich.map --memory 64K --shadow-stack");
    assert_eq!(
        outcome.out,
        "\
By this map, a user program under Sv39 can name 7 of the 16 frames of memory (0x80000000 to
  0x8000ffff).
  setting   menvcfg.SSE 1 (so W alone is a shadow page), senvcfg.SSE 1, mstatus.MXR 0
  theorem   up to and including its first trap, a user program neither depends on the bytes of
            frames that are not named nor changes them (docs/ISOLATION.md)

Named, in its reach: 7 frames, 28K
  0x80000000  0x10000 -> 0x80000000 vr-xu-ad (line 2 of the map): read, execute
  0x80001000  named by 2 entries:
              0x20000 -> 0x80001000 vrw-u-ad (line 3 of the map): read, write
              0x21000 -> 0x80001000 vr--u-ad (line 4 of the map): read
  0x80002000  0x30000 -> 0x80002000 v-w-u-ad (line 5 of the map): read, shadow push, shadow
                pop-check, shadow swap; valid only by menvcfg.SSE
  0x80003000  0x31000 -> 0x80003000 v-w-u-a- (line 6 of the map): read, shadow pop-check; not as it
                stands: shadow push, shadow swap (D is 0); valid only by menvcfg.SSE
  0x80004000  0x40000 -> 0x80004000 vrw-u-a- (line 7 of the map): read; not as it stands: write (D
                is 0)
  0x80005000  0x41000 -> 0x80005000 vrwxu--- (line 8 of the map): not as it stands: read (A is 0),
                write (A is 0, D is 0), execute (A is 0)
  0x80006000  0x42000 -> 0x80006000 v--xu-ad (line 9 of the map): execute; not as it stands: read
                (mstatus.MXR is 0)

Not named, out of its reach: 9 frames, 36K
  0x80007000 to 0x8000ffff  9 frames, 36K

Of a frame outside memory: 2 entries
  0x60000 -> 0x1000 vr--u-ad (line 19 of the map): it names no byte of memory, and what it allows is
    an access fault (rule 9)
  0xffffffffffff0000 -> 0x80010000 vrw-u-ad (line 18 of the map): it names no byte of memory, and
    what it allows is an access fault (rule 9)

Naming nothing for a user program: 7 entries
  0x50000 -> 0x80001000 vrw---ad (line 11 of the map): U mode needs the U bit, and the entry has it
    not (rule 6); lines 3, 4 name this frame
  0x51000 -> 0x80008000 vrw---ad (line 12 of the map): U mode needs the U bit, and the entry has it
    not (rule 6)
  0x52000 -> 0x80009000 -rw-u-ad (line 13 of the map): V of the entry is 0 (rule 5)
  0x53000 -> 0x80009000 v---u-ad (line 14 of the map): R, W and X of the entry are all 0 (rule 5)
  0x54000 -> 0x80009000 v-wxu-ad (line 15 of the map): the entry has W without R (rule 5)
  0x55000 -> 0x80009000 v-w---ad (line 16 of the map): U mode needs the U bit, and the entry has it
    not (rule 6)
  0x56000 -> 0x80009000 vrwxu-ad (line 17 of the map): bits 63:54 of the entry are not 0 (rule 5)
"
    );
    assert_eq!((outcome.status, outcome.err.as_str()), (0, ""));
}

/// The map of docs/DESK.md gives what docs/DESK.md shows.
#[test]
fn the_documented_example_is_what_the_desk_prints() {
    let docs = include_str!("../../../docs/DESK.md");
    let (_, example) = docs.split_once("With controllers.map").unwrap();
    let (map, rest) = example.split_once("`./desk frames").unwrap();
    let (options, rest) = rest.split_once("` prints\n").unwrap();
    let (shown, _) = rest.split_once("\nEach frame").unwrap();
    let plain = |block: &str| block.replace("\n    ", "\n");
    let desk = Desk::new("frames-docs");
    let map = plain(map);
    desk.file("controllers.map", map.split_once("\n\n").unwrap().1);
    let outcome = desk.run(&format!("frames{options}"));
    assert_eq!(format!("\n{}", outcome.out), plain(shown));
}

/// A map without a line, and the default memory: nothing is named.
#[test]
fn the_table_of_an_empty_map() {
    let desk = Desk::new("frames-empty");
    desk.file("empty.map", "# nothing yet\n");
    let outcome = desk.run("frames --map empty.map");
    assert_eq!(
        outcome.out,
        "\
By this map, a user program under Sv39 can name 0 of the 256 frames of memory (0x80000000 to
  0x800fffff).
  setting   menvcfg.SSE 0 (so W alone is not valid; --shadow-stack sets it), senvcfg.SSE 0,
            mstatus.MXR 0
  theorem   up to and including its first trap, a user program neither depends on the bytes of
            frames that are not named nor changes them (docs/ISOLATION.md)

Named, in its reach: no frame

Not named, out of its reach: 256 frames, 1024K
  0x80000000 to 0x800fffff  256 frames, 1024K
"
    );
}

/// A run tells the table by its own start, behind its report, and whether the theorem speaks of it.
#[test]
fn a_run_in_user_mode_tells_its_frames() {
    let desk = Desk::new("frames-run");
    desk.image("p.bin", &[SSPUSH_RA, ECALL]);
    let options = format!("{USER} --shadow-stack --ssp 0x31000");
    let plain = desk.run(&format!("run p.bin {options}"));
    let outcome = desk.run(&format!("run p.bin {options} --frames"));
    assert_eq!((outcome.status, outcome.err.as_str()), (3, ""));
    assert_eq!(
        outcome.out,
        plain.out
            + "
By this map, a user program under Sv39 can name 3 of the 4 frames of memory (0x80000000 to
  0x80003fff).
  setting   menvcfg.SSE 1 (so W alone is a shadow page), senvcfg.SSE 1, mstatus.MXR 0
  theorem   up to and including its first trap, a user program neither depends on the bytes of
            frames that are not named nor changes them (docs/ISOLATION.md)

Named, in its reach: 3 frames, 12K
  0x80000000  0x10000 -> 0x80000000 vr-xu-ad (line 3 of the map): read, execute
  0x80001000  0x20000 -> 0x80001000 vrw-u-ad (line 4 of the map): read, write
  0x80002000  0x30000 -> 0x80002000 v-w-u-ad (line 2 of the map): read, shadow push, shadow
                pop-check, shadow swap; valid only by menvcfg.SSE

Not named, out of its reach: 1 frame, 4K
  0x80003000 to 0x80003fff  1 frame, 4K
"
    );
    let table = desk
        .run("frames --map user.map --memory 16K --shadow-stack")
        .out;
    assert!(
        outcome.out.ends_with(&format!("\n{table}")),
        "it is the one of desk frames"
    );
}

/// The row that says of what the theorem speaks.
fn theorem(options: &str) -> String {
    let desk = Desk::new("frames-theorem");
    desk.image("p.bin", &[ECALL]);
    let outcome = desk.run(&format!(
        "run p.bin --memory 16K --map user.map --frames {options}"
    ));
    assert_eq!(outcome.err, "", "{options}");
    let (_, behind) = outcome
        .out
        .split_once("\n  theorem ")
        .expect("the row is there");
    let (row, _) = behind.split_once("\n\n").expect("frames follow");
    row.split_whitespace().collect::<Vec<_>>().join(" ")
}

#[test]
fn where_the_theorem_does_not_speak_of_a_run_it_says_why() {
    let not = "docs/ISOLATION.md speaks of user mode under Sv39, and so not of this run:";
    for (options, why) in [
        ("", "it starts in M, and satp is Bare at its start"),
        ("--sv39", "it starts in M"),
        ("--mode S --sv39", "it starts in S"),
        ("--mode U", "satp is Bare at its start"),
    ] {
        assert_eq!(theorem(options), format!("{not} {why}"), "{options}");
    }
    let speaks = "up to and including its first trap, a user program neither depends on the bytes of frames that are not named nor changes them (docs/ISOLATION.md)";
    let user = "--mode U --sv39 --pc 0x10000 --steps 5";
    assert_eq!(theorem(user), speaks);
    let after = "; this run went on after its first trap, and of that it does not speak";
    assert_eq!(
        theorem(&format!("{user} --follow 1")),
        format!("{speaks}{after}")
    );
}

/// In a run's object, the object of `desk frames` and the conditions that the run does not meet.
#[test]
fn a_run_has_the_object_of_desk_frames() {
    let desk = Desk::new("frames-run-json");
    desk.image("p.bin", &[NOP]);
    desk.file("rich.map", RICH);
    let run = |options: &str| {
        desk.object(&format!(
            "run p.bin --map rich.map --memory 64K --steps 0 --json {options}"
        ))
    };
    for (mode, unmet) in [
        ("--mode U --sv39", vec![]),
        ("", vec!["it starts in M", "satp is Bare at its start"]),
    ] {
        for switch in ["", "--shadow-stack"] {
            let Value::Object(run) = run(&format!("--frames {mode} {switch}")) else {
                panic!("no object")
            };
            let Value::Object(table) = desk.object(&format!(
                "frames --map rich.map --memory 64K --json {switch}"
            )) else {
                panic!("no object")
            };
            for (name, value) in &table {
                assert_eq!(run["frames"].at(name), value, "{mode} {switch}: {name}");
            }
            assert_eq!(run["frames"].at("unmet").texts(), unmet, "{mode} {switch}");
        }
    }
    let Value::Object(without) = run("") else {
        panic!("no object")
    };
    assert!(
        !without.contains_key("frames"),
        "only where it is asked for"
    );
}

/// The object of the rich map.
fn rich(test: &str, options: &str) -> Value {
    let desk = Desk::new(test);
    desk.file("rich.map", RICH);
    desk.object(&format!(
        "frames --map rich.map --memory 64K --json {options}"
    ))
}

/// One member of each object of a list.
fn each<T>(list: &Value, member: &str, read: fn(&Value) -> T) -> Vec<T> {
    let objects = list.list().iter();
    objects.map(|object| read(object.at(member))).collect()
}

/// A range of frames: its first and its last address, its frames and its bytes.
fn range(range: &Value) -> (u64, u64, u64, u64) {
    let address = |member| range.at(member).hex();
    let number = |member| range.at(member).number();
    (
        address("first"),
        address("last"),
        number("frames"),
        number("bytes"),
    )
}

/// With the shadow stack on, shadow pages are named too, one of them not for pushes.
#[test]
fn the_object_has_what_is_named() {
    let table = rich("frames-json", "--shadow-stack");
    let settings = ["menvcfg_sse", "senvcfg_sse", "mstatus_mxr"];
    let settings = settings.map(|bit| table.at("settings").at(bit).number());
    assert_eq!(settings, [1, 1, 0]);
    let named = table.at("named");
    let frames: Vec<u64> = (0..7).map(|frame| BASE + frame * 4096).collect();
    assert_eq!(each(named, "frame", Value::hex), frames);
    let by = |frame: usize| named.list()[frame].at("by");
    assert_eq!(each(by(0), "line", Value::number), [2]);
    assert_eq!(each(by(1), "line", Value::number), [3, 4], "named twice");
    let shadow = &by(3).list()[0];
    assert_eq!(shadow.at("entry").text(), "0x31000 -> 0x80003000 v-w-u-a-");
    assert_eq!(shadow.at("virtual").hex(), 0x31000);
    assert_eq!(shadow.at("frame").hex(), 0x8000_3000);
    assert_eq!(shadow.at("shadow_page").number(), 1);
    assert_eq!(shadow.at("usable").texts(), ["load", "shadow pop-check"]);
    let not = shadow.at("not_usable").list();
    assert_eq!(not[0].at("access").text(), "shadow push");
    assert_eq!(not[0].at("lacks").texts(), ["D is 0"]);
    assert_eq!((not.len(), not[1].at("access").text()), (2, "shadow swap"));
}

#[test]
fn the_object_has_what_is_not_named() {
    let table = rich("frames-json-not", "--shadow-stack");
    assert_eq!(range(table.at("memory")), (BASE, 0x8000_ffff, 16, 65536));
    let unnamed: Vec<_> = table.at("unnamed").list().iter().map(range).collect();
    assert_eq!(unnamed, [(0x8000_7000, 0x8000_ffff, 9, 36864)]);
    let outside = table.at("outside");
    assert_eq!(each(outside, "line", Value::number), [19, 18]);
    assert_eq!(each(outside, "frame", Value::hex), [0x1000, 0x8001_0000]);
    let nothing = table.at("nothing");
    assert_eq!(each(nothing, "rule", Value::number), [6, 6, 5, 5, 5, 6, 5]);
    let first = &nothing.list()[0];
    assert_eq!(first.at("named_by").list(), [3, 4].map(Value::Number));
    let no_right = nothing.list()[3].at("reason").text();
    assert_eq!(no_right, "R, W and X of the entry are all 0");
}

/// Without the switch the entries with W alone name nothing; those with the U bit are told to be ones that would.
#[test]
fn the_object_says_what_the_shadow_stack_would_change() {
    let table = rich("frames-json-off", "");
    let nothing = table.at("nothing");
    let lines = each(nothing, "line", Value::number);
    assert_eq!(lines, [5, 6, 11, 12, 13, 14, 15, 16, 17]);
    let would = each(nothing, "with_shadow_stack", Value::number);
    assert_eq!(would, [1, 1, 0, 0, 0, 0, 0, 0, 0]);
}
