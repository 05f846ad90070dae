//! `--json`: one well-formed object with the documented members.

mod common;

use common::json::{Reader, Value};
use common::*;

#[test]
fn a_mismatch_with_all_members() {
    let desk = Desk::new("json-mismatch");
    desk.image("p.bin", &[SSPUSH_RA, 0x00c0_8093, SSPOPCHK_RA]); // .., addi ra,ra,12, ..
    let options = "--shadow-stack --ssp 0x31000 --x ra=0x10000 --dump 0x80002ff8:8 --json";
    let outcome = desk.run(&format!("run p.bin {USER} {options}"));
    assert_eq!((outcome.status, outcome.err.as_str()), (3, ""));
    let end = Reader::whole(&outcome.out);
    assert_eq!(*end.at("status"), Value::Number(3));
    assert_eq!(end.at("stopped").text(), "trap");
    assert_eq!(*end.at("count"), Value::Number(3));
    assert_eq!(*end.at("followed"), Value::Number(0));
    assert_eq!(
        (end.at("pc").text(), end.at("mode").text()),
        ("0x0000000000000000", "M")
    );
    assert_eq!(*end.at("elp"), Value::Number(0));
    let trap = end.at("trap");
    assert_eq!(*trap.at("cause"), Value::Number(18));
    assert_eq!(trap.at("name").text(), "software check");
    assert_eq!(trap.at("tval").text(), "0x0000000000000003");
    assert_eq!(trap.at("pc").text(), "0x0000000000010008");
    assert_eq!((trap.at("from").text(), trap.at("to").text()), ("U", "M"));
    let facts = trap.at("facts");
    assert_eq!(facts.at("register").text(), "ra");
    assert_eq!(facts.at("used").text(), "0x000000000001000c");
    assert_eq!(facts.at("pushed").text(), "0x0000000000010000");
    assert_eq!(facts.at("virtual").text(), "0x0000000000030ff8");
    assert_eq!(facts.at("physical").text(), "0x0000000080002ff8");
    assert_eq!(end.at("registers").at("ra").text(), "0x000000000001000c");
    assert_eq!(end.at("csrs").at("mcause").text(), "0x0000000000000012");
    let dumps = end.at("dump").list();
    assert_eq!(dumps[0].at("address").text(), "0x0000000080002ff8");
    assert_eq!(dumps[0].at("bytes").text(), "0000010000000000");
    let words = end.at("words").list();
    assert!(words[0].text().starts_with("Stopped by a trap in step 3"));
}

#[test]
fn a_fault_names_its_rule() {
    let desk = Desk::new("json-fault");
    desk.image("p.bin", &[SD_A0_A1]);
    let outcome = desk.run(&format!("run p.bin {USER} --x a1=0x10008 --json"));
    let end = Reader::whole(&outcome.out);
    let facts = end.at("trap").at("facts");
    assert_eq!(*facts.at("rule"), Value::Number(8));
    assert_eq!(facts.at("reason").text(), "a store needs W");
    assert_eq!(facts.at("access").text(), "store");
    assert_eq!(*facts.at("width"), Value::Number(8));
    assert_eq!(facts.at("address").text(), "0x0000000000010008");
    assert_eq!(facts.at("transformed").text(), "0x0000000000010008");
    assert_eq!(facts.at("effective_mode").text(), "U");
    assert_eq!(facts.at("entry").text(), "0x10000 -> 0x80000000 vr-xu-ad");
}

/// Every kind of end is well-formed, with the quotes that its words have.
#[test]
fn every_end_is_well_formed() {
    let desk = Desk::new("json-ends");
    for (words, options, stopped) in [
        (vec![NOP], "--steps 0", "steps"),
        (vec![ECALL], "--follow all", "stuck"),
        (vec![EBREAK], "", "trap"),
        (vec![0], "", "trap"),
        (vec![JR_A0], "--x a0=2", "trap"),
        (vec![JR_A0], "--landing-pads --x a0=0x80000000", "trap"),
        (vec![LD_A0_A1], "--x a1=8", "trap"),
    ] {
        desk.image("p.bin", &words);
        let outcome = desk.run(&format!("run p.bin --json {options}"));
        let end = Reader::whole(&outcome.out);
        assert_eq!(end.at("stopped").text(), stopped, "{options}");
        assert_eq!(
            *end.at("trap") == Value::Null,
            stopped == "steps",
            "{options}"
        );
        assert_eq!(
            *end.at("status"),
            Value::Number(outcome.status as u64),
            "{options}"
        );
    }
}

/// Where there is nothing to tell there is no object: programs go by the status first.
#[test]
fn a_refusal_is_a_line_and_no_object() {
    let desk = Desk::new("json-refused");
    desk.image("p.bin", &[NOP]);
    let outcome = desk.run("run p.bin --json --pc 2");
    assert_eq!((outcome.status, outcome.out.as_str()), (2, ""));
    assert!(outcome.err.contains("refusal 1"));
}
