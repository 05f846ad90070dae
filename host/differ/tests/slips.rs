//! The easy slips of docs/HART.md, 14.7, each planted in a wrapper of `second`: the generator and the comparison must find it.
//!
//! The slips are planted where the word is handed in, so that a wrapper knows it; the masked fetch where it is fetched.

use differ::case::{Call, BASE};
use differ::simulator::{Second, Simulator};
use differ::soak::{Failure, Soak};
use differ::state::{View, SV39};
use formats::{JALR, STORE};
use sporhulma::word::*;
use sporhulma::{Answer, Hart};

/// Within so many steps each slip must be found.
const STEPS: u64 = 200_000;

/// Alters what a step with a given word leaves: the hart before, the word, what was left, the map.
type Alter = fn(&Hart, u32, &mut Hart, &mut Answer, &[u64]);

struct Slip(Alter);

impl Simulator for Slip {
    fn call(&self, call: Call, hart: &mut Hart, mem: &mut [u8], map: &[u64]) -> Answer {
        let before = *hart;
        let mut answer = Second.call(call, hart, mem, map);
        if let (Call::StepWord(word), 0) = (call, answer.refusal) {
            self.0(&before, word, hart, &mut answer, map);
        }
        answer
    }
}

/// Fetches through masking in M and Bare: the upper bits of pc do not count.
struct MaskedFetch;

impl Simulator for MaskedFetch {
    fn call(&self, call: Call, hart: &mut Hart, mem: &mut [u8], map: &[u64]) -> Answer {
        let view = View::of(&hart.rest);
        let place = (hart.rest[PC] << view.fetch.bits >> view.fetch.bits).wrapping_sub(BASE);
        let word = usize::try_from(place)
            .ok()
            .and_then(|at| mem.get(at..)?.first_chunk::<4>());
        match (call, word) {
            (Call::Step, Some(word)) if !view.fetch.paged => {
                let word = u32::from_le_bytes(*word);
                Second.call(Call::StepWord(word), hart, mem, map)
            }
            _ => Second.call(call, hart, mem, map),
        }
    }
}

/// The first case on which the impostor and `second` differ.
fn found(impostor: impl Simulator) -> Failure {
    let mut soak = Soak::new(impostor, Second, 1);
    for number in 0..STEPS {
        soak.step(number);
        if let Some(failure) = soak.failures.pop() {
            return failure;
        }
    }
    panic!("the slip was not found within {STEPS} steps");
}

/// The words of the hart that differ, by name.
fn differing(failure: &Failure) -> Vec<&str> {
    let words = failure.differences[2..].iter();
    words
        .filter_map(|line| Some(line.split_once(':')?.0))
        .collect()
}

fn rs1(word: u32) -> u32 {
    (word >> 15) & 31
}

#[test]
fn ssp_moved_before_the_store_was_allowed() {
    let failure = found(Slip(|_, word, hart, answer, _| {
        let push = word == 0xCE10_4073 || word == 0xCE50_4073;
        if push && answer.trapped && (answer.cause == 7 || answer.cause == 15) {
            hart.rest[SSP] = hart.rest[SSP].wrapping_sub(8);
        }
    }));
    assert_eq!(differing(&failure), ["ssp"]);
}

#[test]
fn the_fetch_address_masked() {
    let rest = found(MaskedFetch).case.hart.rest;
    let masked = View::of(&rest).fetch.bits;
    assert_ne!(rest[PC] << masked >> masked, rest[PC]);
}

#[test]
fn a_page_fault_for_an_ordinary_store_to_a_shadow_page() {
    let failure = found(Slip(|before, word, hart, answer, map| {
        let s_handler = hart.rest[MODE] == 1;
        let (cause, tval) = if s_handler {
            (SCAUSE, STVAL)
        } else {
            (MCAUSE, MTVAL)
        };
        let number = (hart.rest[tval] >> 12) & 0x7FF_FFFF;
        let shadow = |entry: &[u64]| entry[0] == number && entry[1] & 0xF == 0b0101;
        let sv39 = before.rest[SATP] == SV39;
        if word & 0x7F == STORE && answer.cause == 7 && sv39 && map.chunks(2).any(shadow) {
            answer.cause = 15;
            hart.rest[cause] = 15;
        }
    }));
    assert!(matches!(differing(&failure)[..], ["scause" | "mcause"]));
}

#[test]
fn elp_set_for_a_return_through_x5() {
    let failure = found(Slip(|before, word, hart, answer, _| {
        let through_x5 = word & 0x707F == JALR && rs1(word) == 5;
        if through_x5 && !answer.trapped && View::of(&before.rest).pads {
            hart.rest[ELP] = 1;
        }
    }));
    assert_eq!(differing(&failure), ["elp"]);
}

#[test]
fn rd_of_a_jalr_written_although_its_target_is_misaligned() {
    let failure = found(Slip(|before, word, hart, answer, _| {
        let rd = (word >> 7) as usize & 31;
        if word & 0x707F == JALR && answer.trapped && answer.cause == 0 && rd != 0 {
            hart.x[rd] = before.rest[PC].wrapping_add(4);
        }
    }));
    assert!(differing(&failure)[0].starts_with('x'));
}

/// Without a slip the wrapper is `second`: what the tests above find is the slip and nothing else.
#[test]
fn no_slip_no_difference() {
    let mut soak = Soak::new(Slip(|_, _, _, _, _| {}), Second, 1);
    (0..STEPS).for_each(|number| soak.step(number));
    assert!(soak.failures.is_empty());
}
