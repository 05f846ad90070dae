//! A fixed-point filter as a template with saturation writes it: a second-order section on samples of 32 bits, then a gain that follows
//! the peak of each block of samples. Its inner loop is, instruction by instruction, what GCC 12 (-O2 -march=rv64im_zbb) makes of
//!
//! ```c
//! for (int k = 0; k < n; k++) {
//!     int32_t x = in[k];
//!     int64_t sum = 1 << 29;
//!     sum += (int64_t)f->c[0] * x + (int64_t)f->c[1] * x1 + .. + (int64_t)f->c[4] * y2;
//!     int64_t y = clamp(sum >> 30);
//!     x2 = x1; x1 = x; y2 = y1; y1 = y;
//!     peak = max(peak, abs(y));
//!     out[k] = clamp((int64_t)(((__int128)(y << 32) * gain) >> 64) >> 28);
//! }
//! ```
//!
//! Between two blocks there is one division, for the gain.

use crate::encode::*;
use crate::programs::{bare, entry, start_in_user, Program, PAGE, R, W, X};
use sporhulma::BASE;

/// Where these stand in the page of data: the section's coefficients (30 bits behind the point), the gain (60), the samples of a block
/// and what comes of them (31).
const COEFFICIENTS: i32 = 0;
const GAIN: i32 = 48;
const INPUT: i32 = 64;
const OUTPUT: i32 = 128;

/// Samples in a block.
const BLOCK: usize = 16;

/// b0, b1, b2, -a1 and -a2 of a low-pass whose resonance, of quality 4, is at an eighth of the sampling rate.
const SECTION: [i32; 5] = [
    144_475_866,
    288_951_733,
    144_475_866,
    1_395_182_384,
    -899_344_026,
];

/// Nine tenths of the largest sample: a square wave of this height on the resonance is more than the section's output can hold.
const HEIGHT: i32 = 1_932_735_282;

/// The peak that a block is brought to: half of the largest sample, times 2^32, so that its quotient by a peak is a gain with 32 bits
/// behind the point.
const HALF: u64 = 1 << 62;

/// The smallest peak that counts, an eighth of the largest sample: the gain is at most 4.
const FLOOR: u64 = 1 << 28;

fn input(n: usize) -> i32 {
    if n % 8 < 4 {
        HEIGHT
    } else {
        -HEIGHT
    }
}

/// GCC's registers, by their numbers. The section's past is in T4 (x1), T0 (x2), T3 (y1) and T2 (y2).
const T0: u32 = 5;
const T1: u32 = 6;
const T2: u32 = 7;
const END: u32 = 8; // s0
const UNIT: u32 = 9; // s1, half a unit of the sum, which rounds it
const PEAK: u32 = 10; // a0
const IN: u32 = 11; // a1
const OUT: u32 = 12; // a2
const A3: u32 = 13;
const BY: u32 = 14; // a4, the gain
const MOST: u32 = 15; // a5, the largest sample
const A6: u32 = 16;
const DATA: u32 = 17; // a7
const S2: u32 = 18;
const S3: u32 = 19;
const T3: u32 = 28;
const T4: u32 = 29;
const T5: u32 = 30;
const LEAST: u32 = 31; // t6, the smallest sample
/// What the code between two blocks needs: FLOOR and HALF.
const LOW: u32 = 20;
const GOAL: u32 = 21;

/// The inner loop, which starts at its third instruction.
fn samples() -> Vec<u32> {
    let mut code = vec![
        addi(T3, T1, 0),
        addi(T4, T5, 0),
        load(2, T5, IN, 0),
        load(2, S3, DATA, COEFFICIENTS),
        load(2, S2, DATA, COEFFICIENTS + 4),
        load(2, T1, DATA, COEFFICIENTS + 8),
        load(2, A6, DATA, COEFFICIENTS + 12),
        mul(S3, S3, T5),
        load(2, A3, DATA, COEFFICIENTS + 16),
        addi(OUT, OUT, 4),
        addi(IN, IN, 4),
        mul(S2, S2, T4),
        add(S3, S3, UNIT),
        mul(T1, T1, T0),
        add(S2, S2, S3),
        addi(T0, T4, 0),
        mul(A6, A6, T3),
        add(T1, T1, S2),
        mul(A3, A3, T2),
        add(A6, A6, T1),
        addi(T2, T3, 0),
        add(A3, A3, A6),
        srai(A3, A3, 30),
        max(A3, A3, LEAST),
        min(A3, A3, MOST),
        slli(A6, A3, 32),
        mulh(A6, A6, BY),
        sub(S2, 0, A3),
        addiw(T1, A3, 0),
        max(A3, A3, S2),
        max(PEAK, PEAK, A3),
        srai(A3, A6, 28),
        max(A3, A3, LEAST),
        min(A3, A3, MOST),
        store(2, A3, OUT, -4),
    ];
    code.push(bne(END, IN, -4 * code.len() as i32));
    code
}

/// A block of samples, and then the gain for the next one.
fn code() -> Vec<u32> {
    let mut code = samples();
    code.extend([
        max(PEAK, PEAK, LOW),
        div(BY, GOAL, PEAK),
        slli(BY, BY, 28),
        store(3, BY, DATA, GAIN),
        addi(PEAK, 0, 0),
        addi(IN, DATA, INPUT),
        addi(OUT, DATA, OUTPUT),
    ]);
    code.push(jal(0, -4 * code.len() as i32));
    code
}

/// The code in memory's first page and the data in its second, whose address is `data`.
fn filter(name: &'static str, data: u64) -> Program {
    let mut program = bare(name, &code());
    let x = &mut program.hart.x;
    x[DATA as usize] = data;
    x[IN as usize] = data + INPUT as u64;
    x[OUT as usize] = data + OUTPUT as u64;
    x[MOST as usize] = i32::MAX as u64;
    x[LEAST as usize] = i32::MIN as u64;
    x[END as usize] = data + INPUT as u64 + 4 * BLOCK as u64;
    x[LOW as usize] = FLOOR;
    x[GOAL as usize] = HALF;
    x[UNIT as usize] = 1 << 29;
    x[BY as usize] = 1 << 60;
    let mut put = |at: i32, bytes: &[u8]| {
        let at = PAGE + at as usize;
        program.memory[at..at + bytes.len()].copy_from_slice(bytes);
    };
    put(COEFFICIENTS, &SECTION.map(i32::to_le_bytes).concat());
    for n in 0..BLOCK {
        put(INPUT + 4 * n as i32, &input(n).to_le_bytes());
    }
    program
}

pub fn in_machine() -> Program {
    filter("fixed-point filter", BASE + PAGE as u64)
}

/// The same in U under Sv39, with a page of code and one of data.
pub fn in_user() -> Program {
    let mut program = filter("fixed-point filter, Sv39, 2 entries", 0x11 * PAGE as u64);
    start_in_user(&mut program.hart, 0x10);
    program.map = [entry(0x10, 0, R | X), entry(0x11, 1, R | W)].concat();
    program
}

/// The same in runs of 40 steps, as a host makes them that looks at the hart in between: what a call costs beside its steps shows here.
pub fn in_short_runs() -> Program {
    Program {
        name: "filter, Sv39, 2 entries, runs of 40",
        most: 40,
        ..in_user()
    }
}

#[cfg(test)]
mod tests {
    use super::*;

    /// Instructions between two blocks.
    const BEHIND: usize = 8;

    /// The filter in plain numbers.
    struct Plain {
        state: [i32; 4],
        gain: u64,
        output: [i32; BLOCK],
        clipped: usize,
    }

    fn saturated(n: i128) -> i32 {
        n.clamp(i32::MIN.into(), i32::MAX.into()) as i32
    }

    impl Plain {
        fn block(&mut self) {
            let mut peak = FLOOR;
            for n in 0..BLOCK {
                let [x1, x2, y1, y2] = self.state;
                let factors = [input(n), x1, x2, y1, y2].map(i128::from);
                let terms = factors.iter().zip(SECTION).map(|(f, c)| f * i128::from(c));
                let exact = (terms.sum::<i128>() + (1 << 29)) >> 30;
                let y = saturated(exact);
                self.clipped += usize::from(i128::from(y) != exact);
                self.state = [input(n), x1, y, y1];
                peak = peak.max(u64::from(y.unsigned_abs()));
                self.output[n] = saturated((i128::from(y) * i128::from(self.gain)) >> 60);
            }
            self.gain = (HALF / peak) << 28;
        }
    }

    /// After each block the page of data has what the filter in plain numbers has, and some samples were clipped.
    #[test]
    fn it_filters() {
        for mut p in [in_machine(), in_user()] {
            let mut plain = Plain {
                state: [0; 4],
                gain: 1 << 60,
                output: [0; BLOCK],
                clipped: 0,
            };
            let steps = BLOCK * samples().len() + BEHIND;
            for _ in 0..20 {
                plain.block();
                let answer = sporhulma::run(&mut p.hart, &mut p.memory, &p.map, steps as u64);
                assert_eq!((answer.refusal, answer.trapped), (0, false));
                let data = &p.memory[PAGE..];
                let at = |from: i32, count: usize| &data[from as usize..from as usize + count];
                let past = [T5, T0, T1, T2].map(|r| p.hart.x[r as usize] as i32);
                assert_eq!(past, plain.state);
                assert_eq!(at(GAIN, 8), plain.gain.to_le_bytes());
                assert_eq!(at(OUTPUT, 64), plain.output.map(i32::to_le_bytes).concat());
            }
            assert!(plain.clipped > 20, "{} clipped", plain.clipped);
        }
    }
}
