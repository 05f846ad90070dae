//! The runs show the incident: wrapped product, stray store, what the shadow stack makes of it, and the controller
//! mended.

use demo::image::{symbol, MENDED, TORQUE};
use demo::incident::Incident;
use demo::layout::{self, Shadow};
use demo::outcome::Outcome;
use sporhulma::word;

fn incident() -> Incident {
    Incident::happen().unwrap()
}

fn value(name: &str) -> u64 {
    symbol(name).unwrap()
}

#[test]
fn the_product_wraps_and_its_class_is_below_the_table() {
    let stray = incident().stray;
    let full = stray.speed_factor * stray.torque_factor;
    assert!(full > i64::from(i16::MAX), "{full} fits in sixteen bits");
    assert_eq!(stray.product, i64::from(full as i16));
    let class = stray.product >> value("CLASS_SHIFT");
    assert!(class < 0);
    assert_eq!(stray.class().unwrap(), class);
    assert_eq!(stray.counter, stray.table.wrapping_add_signed(4 * class));
}

#[test]
fn within_the_limit_no_product_wraps() {
    // The generator's range check, which held for the limited torque only.
    let torque = value("LIMIT") >> value("TORQUE_SHIFT");
    let speed = value("GOAL") >> value("SPEED_SHIFT");
    assert!(speed * torque <= i16::MAX as u64);
}

#[test]
fn the_store_hits_the_saved_return_address() {
    let stray = incident().stray;
    assert_eq!(stray.counter, stray.saved_at);
    assert_eq!(stray.pushed, value("drive_step.limit"));
    assert_eq!(stray.stored, stray.pushed + value("PERIODS"));
    assert_eq!(stray.landed, stray.stored);
}

#[test]
fn off_runs_to_its_ecall() {
    let off = incident().off;
    assert_eq!(off.trap(), (8, 0, value("finish")));
    assert_eq!(off.samples.len() as u64, value("STEPS"));
}

#[test]
fn off_draws_a_smooth_speed() {
    let incident = incident();
    let jump = (value("GOAL") - value("HOLD")) as f64;
    assert!(incident.roughness() <= jump / 100.0);
    // Rising all the way, and bent by no more than the 1 rpm in which it is drawn.
    let speeds: Vec<f64> = incident
        .off
        .samples
        .iter()
        .map(|sample| sample.speed)
        .collect();
    let changes: Vec<f64> = speeds.windows(2).map(|pair| pair[1] - pair[0]).collect();
    assert!(changes.iter().all(|&change| change >= 0.0));
    assert!(changes
        .windows(2)
        .all(|pair| (pair[1] - pair[0]).abs() <= 1.0));
    assert!(speeds.last().unwrap() - speeds[0] > 0.9 * jump);
}

#[test]
fn off_gives_the_drive_an_unlimited_torque() {
    let incident = incident();
    let over: Vec<_> = incident.kick().collect();
    assert!(over.len() > 1);
    assert_eq!(over[0].ms, incident.stray.ms);
    assert!(over.iter().all(|sample| sample.command == sample.demand));
    assert!(incident.off.peak() > 2.0 * incident.limit);
    // All other samples are limited: it is the stray return and nothing else that lets them through.
    let rest = incident
        .off
        .samples
        .iter()
        .filter(|sample| sample.command <= incident.limit);
    assert!(rest.clone().any(|sample| sample.demand > incident.limit));
    assert!(rest
        .into_iter()
        .all(|sample| sample.command == sample.demand.min(incident.limit)));
}

#[test]
fn on_traps_at_the_pop_check_of_book_load() {
    let on = incident().on;
    let check = value("book_load.check");
    assert_eq!(on.trap(), (18, 3, check));
    assert_eq!(
        u32::from_le_bytes(layout::bytes(&on.memory, check).unwrap()),
        0xCDC0_C073
    );
}

#[test]
fn on_finds_the_overwritten_return_address() {
    let incident = incident();
    assert_ne!(incident.used(), incident.pushed().unwrap());
    assert_eq!(incident.used(), incident.stray.stored);
    assert_eq!(incident.pushed().unwrap(), incident.stray.pushed);
    assert_eq!(incident.trap_ms().unwrap(), incident.stray.ms);
}

#[test]
fn on_is_the_same_up_to_the_trap_and_never_over_the_limit() {
    let incident = incident();
    let on = &incident.on.samples;
    assert_eq!(on[..], incident.off.samples[..on.len()]);
    assert!(on.len() > 1 && on.iter().all(|sample| sample.command <= incident.limit));
}

#[test]
fn mended_is_the_same_image_up_to_its_product() {
    let product = (value("mul16") - value("CODE")) as usize;
    assert_eq!(TORQUE[..product], MENDED[..product]);
    // mul a0,a0,a1; min a0,a0,t0; max a0,a0,t0
    for word in [0x02B5_0533_u32, 0x0A55_4533, 0x0A55_6533] {
        let has = |image: &[u8]| image.chunks(4).any(|bytes| bytes == word.to_le_bytes());
        assert!(has(MENDED) && !has(TORQUE), "{word:#x}");
    }
}

/// What an image's mul16 gives, run alone: it returns to `finish`, whose ecall is the first trap.
fn product(image: &[u8], a0: i64, a1: i64) -> i64 {
    let (mut hart, mut memory) = (layout::hart(Shadow::On).unwrap(), layout::memory(image));
    hart.rest[word::PC] = value("mul16");
    (hart.x[1], hart.x[10], hart.x[11]) = (value("finish"), a0 as u64, a1 as u64);
    let answer = sporhulma::run(&mut hart, &mut memory, &layout::map(), 1000);
    assert!(answer.refusal == 0 && answer.trapped);
    assert_eq!(hart.rest[word::MEPC], value("finish"));
    hart.x[10] as i64
}

#[test]
fn mended_saturates_where_the_product_wrapped() {
    for (speed, torque) in [
        (156, 279),
        (156, -279),
        (-156, 279),
        (187, 120),
        (3, -4),
        (0, 1),
    ] {
        let full: i64 = speed * torque;
        assert_eq!(product(TORQUE, speed, torque), i64::from(full as i16));
        let held = full.clamp(i16::MIN.into(), i16::MAX.into());
        assert_eq!(product(MENDED, speed, torque), held);
    }
}

#[test]
fn mended_runs_to_its_ecall_with_the_shadow_stack_on() {
    let mended = incident().mended;
    assert_eq!(mended.trap(), (8, 0, value("finish")));
    assert_eq!(mended.samples.len() as u64, value("STEPS"));
    // What was pushed is popped, and the first push, run_drive's return address, still lies there.
    let top = value("SHADOW_TOP");
    assert_eq!(mended.hart.rest[word::SSP], top);
    let first = layout::bytes(&mended.memory, top - 8).unwrap();
    assert_eq!(u64::from_le_bytes(first), value("finish"));
}

#[test]
fn mended_is_the_same_up_to_the_jump_and_then_limited_all_the_way() {
    let incident = incident();
    let (mended, on) = (&incident.mended.samples, &incident.on.samples);
    assert_eq!(mended[..on.len()], on[..]);
    // It wants as much as the other did, and the drive never gets it.
    assert_eq!(mended[on.len()].demand, incident.off.peak());
    assert!(mended
        .iter()
        .all(|sample| sample.command == sample.demand.min(incident.limit)));
    assert_eq!(incident.mended.peak(), incident.limit);
}

#[test]
fn mended_counts_every_step_in_the_table_and_the_large_ones_in_its_last_class() {
    let incident = incident();
    let counters = |outcome: &Outcome| -> Vec<u64> {
        let counter = |class| layout::bytes(&outcome.memory, incident.stray.table + 4 * class);
        (0..value("CLASSES"))
            .map(|class| u32::from_le_bytes(counter(class).unwrap()).into())
            .collect()
    };
    let all = value("STEPS") * value("PERIODS");
    let (off, mended) = (counters(&incident.off), counters(&incident.mended));
    assert!(off.iter().sum::<u64>() < all);
    assert_eq!(mended.iter().sum::<u64>(), all);
    assert!(mended.last() > off.last());
}
