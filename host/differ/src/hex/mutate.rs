//! Bytes of a text changed at random, as a disk or a careless editor does it. What becomes of it is for the readers to say.

use formats::random::Random;

/// Bytes that mean something in a text.
const ALPHABET: &[u8] = b":0123456789ABCDEFabcdef\r\n";

/// Changes a text in one to four places, or puts something else in its place.
pub fn mutate(random: &mut Random, text: &mut Vec<u8>) {
    match random.below(20) {
        0 => anything(random, text, |random| random.word() as u8),
        1 => anything(random, text, |random| random.pick(ALPHABET)),
        _ => {
            for _ in 0..1 + random.below(4) {
                change(random, text);
            }
        }
    }
}

/// Up to 200 bytes of a text's own.
fn anything(random: &mut Random, text: &mut Vec<u8>, byte: fn(&mut Random) -> u8) {
    let length = random.below(200);
    text.clear();
    text.extend((0..length).map(|_| byte(random)));
    if random.chance(50) {
        text.insert(0, b':');
    }
}

fn change(random: &mut Random, text: &mut Vec<u8>) {
    let length = text.len() as u64;
    if length == 0 {
        return text.push(random.pick(ALPHABET));
    }
    let at = random.below(length) as usize;
    match random.below(10) {
        0 => text[at] ^= 1 << random.below(8),
        1 => text[at] = random.word() as u8,
        2 => text[at] = random.pick(ALPHABET),
        3 => text.insert(at, random.pick(ALPHABET)),
        4 => drop(text.remove(at)),
        5 => text.truncate(at),
        6 => {
            let end = (at + 1 + random.below(64) as usize).min(text.len());
            text.drain(at..end);
        }
        7 => {
            let end = (at + 1 + random.below(64) as usize).min(text.len());
            let again = text[at..end].to_vec();
            text.splice(at..at, again);
        }
        8 => text[at] ^= text[at].is_ascii_alphabetic() as u8 * 0x20,
        _ => lines(random, text),
    }
}

/// Doubles, drops or swaps whole lines: each stays right, and the text may.
fn lines(random: &mut Random, text: &mut Vec<u8>) {
    let mut lines: Vec<Vec<u8>> = text
        .split_inclusive(|byte| *byte == b'\n')
        .map(<[u8]>::to_vec)
        .collect();
    let [one, other] = [(); 2].map(|()| random.below(lines.len() as u64) as usize);
    match random.below(3) {
        0 => lines.insert(one, lines[other].clone()),
        1 => drop(lines.remove(one)),
        _ => lines.swap(one, other),
    }
    *text = lines.concat();
}
