//! Rule 7.2 e's nearest neighbours, each planted in a wrapper of `second`: the generator and the comparison must find it.
//!
//! They are planted where the word is handed in, so that the wrapper knows it.

use differ::case::Call;
use differ::lifted::access;
use differ::simulator::{Second, Simulator};
use differ::soak::{Failure, Soak};
use differ::state::{View, MPRV, MXR, PMM};
use second::{Access, Kind};
use sporhulma::word::*;
use sporhulma::{Answer, Hart};

/// Within so many steps each must be found.
const STEPS: u64 = 50_000;

/// When masking is lifted: by the hart's words, what they mean, and the kind of access.
type Rule = fn(&[u64; 20], &View, Kind) -> bool;

/// `second` with another rule in the place of 7.2 e.
struct Lifts(Rule);

impl Simulator for Lifts {
    fn call(&self, call: Call, hart: &mut Hart, mem: &mut [u8], map: &[u64]) -> Answer {
        let (word, access) = match call {
            Call::StepWord(word) => (word, access(hart, word)),
            _ => (0, None),
        };
        let Some(access) = access else {
            return Second.call(call, hart, mem, map);
        };
        let view = View::of(&hart.rest);
        match (view.data.spared, self.0(&hart.rest, &view, access.kind)) {
            (true, false) => with_mask(word, access, hart, mem, map),
            (false, true) => without_masks(word, hart, mem, map),
            _ => Second.call(call, hart, mem, map),
        }
    }
}

/// The access with its address masked before it is made.
fn with_mask(word: u32, access: Access, hart: &mut Hart, mem: &mut [u8], map: &[u64]) -> Answer {
    let call = Call::StepWord(word);
    let [rd, rs1, rs2] = [7, 15, 20].map(|at| (word >> at) as usize & 31);
    let reads_it_twice = access.kind != Kind::Load && rs1 == rs2;
    if rs1 == 0 || reads_it_twice {
        return Second.call(call, hart, mem, map);
    }
    let address = hart.x[rs1];
    let change = View::of(&hart.rest)
        .data
        .masked(access.address)
        .wrapping_sub(access.address);
    hart.x[rs1] = address.wrapping_add(change);
    let answer = Second.call(call, hart, mem, map);
    let written = access.kind != Kind::Store && rd == rs1 && !answer.trapped;
    if !written || answer.refusal != 0 {
        hart.x[rs1] = address;
    }
    answer
}

/// The access with every PMM 0 while it is made.
fn without_masks(word: u32, hart: &mut Hart, mem: &mut [u8], map: &[u64]) -> Answer {
    const MASKS: [usize; 3] = [SENVCFG, MENVCFG, MSECCFG];
    let stored = MASKS.map(|csr| hart.rest[csr]);
    // A PMM of 1 is refused, and must be.
    if stored.iter().all(|csr| csr & PMM != 1 << 32) {
        for csr in MASKS {
            hart.rest[csr] &= !PMM;
        }
    }
    let answer = Second.call(Call::StepWord(word), hart, mem, map);
    for (csr, value) in MASKS.into_iter().zip(stored) {
        hart.rest[csr] = value;
    }
    answer
}

/// The first case on which the impostor and `second` differ.
fn found(impostor: impl Simulator) -> Failure {
    let mut soak = Soak::new(impostor, Second, 1);
    for number in 0..STEPS {
        soak.step(number);
        if let Some(failure) = soak.failures.pop() {
            return failure;
        }
    }
    panic!("it was not found within {STEPS} steps");
}

/// The mode of the first case on which this rule and 7.2 e differ, and which of MPRV and MXR are set there.
fn met(rule: Rule) -> (u64, bool, bool) {
    let rest = found(Lifts(rule)).case.hart.rest;
    let set = |bit| rest[MSTATUS] & bit != 0;
    (rest[MODE], set(MPRV), set(MXR))
}

fn both(rest: &[u64; 20]) -> bool {
    rest[MSTATUS] & (MPRV | MXR) == MPRV | MXR
}

const BOTH_IN_M: (u64, bool, bool) = (3, true, true);

#[test]
fn masking_as_it_was_before() {
    assert_eq!(met(|_, _, _| false), BOTH_IN_M);
}

#[test]
fn masking_for_one_mode_in_mpp() {
    assert_eq!(
        met(|_, view, _| view.data.spared && view.data.mode != 0),
        BOTH_IN_M
    );
    assert_eq!(
        met(|_, view, _| view.data.spared && view.data.mode != 1),
        BOTH_IN_M
    );
    assert_eq!(
        met(|_, view, _| view.data.spared && view.data.mode != 3),
        BOTH_IN_M
    );
}

#[test]
fn masking_for_one_kind_of_access() {
    assert_eq!(
        met(|_, view, kind| view.data.spared && kind != Kind::Load),
        BOTH_IN_M
    );
    assert_eq!(
        met(|_, view, kind| view.data.spared && kind != Kind::Store),
        BOTH_IN_M
    );
    assert_eq!(
        met(|_, view, kind| view.data.spared && kind != Kind::Swap),
        BOTH_IN_M
    );
}

#[test]
fn masking_under_sv39_or_elsewhere() {
    assert_eq!(
        met(|_, view, _| view.data.spared && !view.data.paged),
        BOTH_IN_M
    );
    assert_eq!(
        met(|_, view, _| view.data.spared && view.data.paged),
        BOTH_IN_M
    );
}

#[test]
fn lifted_by_one_bit_alone() {
    let mprv = met(|rest, view, _| view.mode == 3 && rest[MSTATUS] & MPRV != 0);
    assert_eq!(mprv, (3, true, false));
    let mxr = met(|rest, view, _| view.mode == 3 && rest[MSTATUS] & MXR != 0);
    assert_eq!(mxr, (3, false, true));
}

#[test]
fn lifted_below_m_by_both_bits() {
    assert_eq!(
        met(|rest, view, _| view.mode != 0 && both(rest)),
        (1, true, true)
    );
    assert_eq!(
        met(|rest, view, _| view.mode != 1 && both(rest)),
        (0, true, true)
    );
}

/// The access itself is not masked, but its tval is.
struct MasksTval;

impl Simulator for MasksTval {
    fn call(&self, call: Call, hart: &mut Hart, mem: &mut [u8], map: &[u64]) -> Answer {
        let view = View::of(&hart.rest);
        let answer = Second.call(call, hart, mem, map);
        let faulted = answer.trapped && [4, 5, 6, 7, 13, 15].contains(&answer.cause);
        if matches!(call, Call::StepWord(_)) && view.data.spared && faulted {
            hart.rest[MTVAL] = view.data.masked(hart.rest[MTVAL]);
        }
        answer
    }
}

#[test]
fn tval_masked_although_the_address_is_not() {
    let differences = found(MasksTval).differences;
    assert_eq!(differences.len(), 3);
    assert!(differences[2].starts_with("mtval:"));
}

/// With rule 7.2 e itself the wrapper is `second`: what the tests above find is the rule and nothing else.
#[test]
fn the_rule_itself_no_difference() {
    let mut soak = Soak::new(Lifts(|_, view, _| view.data.spared), Second, 1);
    (0..STEPS).for_each(|number| soak.step(number));
    assert!(soak.failures.is_empty());
}
