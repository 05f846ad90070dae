//! Loading Intel HEX (chapter 11): texts of the largest memory, by the proved loader and by the second reader. A text is loaded again
//! and again into one memory, which is compared with the image at the end.

use crate::speed;
use sporhulma::BASE;

const MEMORY: u32 = 1 << 20;
/// Where the texts say that the program starts.
const START: u64 = BASE + 4;

pub struct Text {
    pub name: &'static str,
    image: Vec<u8>,
    text: Vec<u8>,
}

/// Lines of 16 data bytes, as GNU objcopy writes them, and of 32, as srec_cat does.
pub fn all() -> [Text; 2] {
    [
        ("Intel HEX, lines of 16 bytes", 16),
        ("Intel HEX, lines of 32 bytes", 32),
    ]
    .map(|(name, length)| {
        // Bytes of no pattern: a reader must not be quick by guessing the next digit.
        let byte = |at: u32| (at.wrapping_mul(0x9E37_79B1) >> 21) as u8;
        let image: Vec<u8> = (0..MEMORY).map(byte).collect();
        let text = formats::hex::text(&image, BASE as u32, length, Some(START as u32));
        Text {
            name,
            image,
            text: text.into_bytes(),
        }
    })
}

impl Text {
    pub fn bytes(&self) -> u64 {
        self.text.len() as u64
    }

    /// Loads until so many bytes of text were read, and gives millions of them a second. `load` gives refusal and start address.
    fn timed(&self, bytes: u64, load: fn(&mut [u8], &[u8]) -> (u64, Option<u64>)) -> f64 {
        let mut memory = vec![0; self.image.len()];
        let millions = speed(bytes, bytes, |_| {
            let loaded = load(&mut memory, &self.text);
            assert_eq!(loaded, (0, Some(START)), "{}", self.name);
            self.bytes()
        });
        assert!(memory == self.image, "{}: other bytes", self.name);
        millions
    }
}

pub fn proved(text: &Text, bytes: u64) -> f64 {
    text.timed(bytes, |memory, text| {
        let loaded = sporhulma::load_hex(memory, text);
        (loaded.refusal, loaded.start)
    })
}

pub fn second(text: &Text, bytes: u64) -> f64 {
    text.timed(bytes, |memory, text| {
        let loaded = second::load_hex(memory, text);
        (loaded.refusal, loaded.start)
    })
}
