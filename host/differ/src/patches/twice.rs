//! Functions that are patched: one is run by two of its names (the same frame under two pages), before it is patched and behind that; of another
//! the landing pad is patched.

use super::writer::*;
use formats::*;

/// A jump through x7 expects no landing pad, and one through x6 expects x7's label, or none.
const THROUGH: u32 = 7;
const TO_A_PAD: u32 = 6;
const LABEL: u32 = 7;

impl Writer<'_> {
    pub fn twice(&mut self) {
        let patch = self.drawn_for_calls();
        let setup = self.reserve(Self::SETUP);
        let far = self.reserve(3);
        self.warm();
        let times = self.times();
        let first = self.here();
        let calls = self.repeated(INNER, times, |writer| {
            let before = writer.both();
            writer.stored(&patch);
            [before, writer.both()]
        });
        self.words.extend(patch.over());
        let over = self.reserve(1);
        self.apart(first);
        let function = self.here();
        self.filler(2);
        let site = self.site(&patch);
        self.filler(2);
        self.words.push(i(JALR, 0, 0, RA, 0));
        self.words[over] = j(0, self.here() - self.offset(over));
        for call in calls {
            self.words[call] = j(RA, function.wrapping_sub(self.offset(call)));
        }
        let address = from_base(THROUGH, AGAIN, function);
        self.words[far..far + 3].copy_from_slice(&address);
        self.set_up(setup, &patch, &site);
    }

    /// A call by each name, in any order; gives the place of the one that is to be filled in.
    fn both(&mut self) -> usize {
        let by_the_other = i(JALR, 0, RA, THROUGH, 0);
        if self.random.chance(50) {
            let at = self.reserve(1);
            self.words.push(by_the_other);
            return at;
        }
        self.words.push(by_the_other);
        self.reserve(1)
    }

    /// A function with a landing pad that gets another label, mostly the one that is expected.
    pub fn padded(&mut self) {
        let patch = self.drawn_for_calls();
        let setup = self.reserve(Self::SETUP);
        let label = 1 + self.random.below(255) as u8;
        let wrong = u32::from(self.random.chance(15));
        let far = self.reserve(3);
        self.warm();
        let times = self.times();
        self.repeated(INNER, times, |writer| {
            writer
                .words
                .push(u(LUI, LABEL, u32::from(label) << 12 | wrong));
            writer.words.push(i(JALR, 0, RA, TO_A_PAD, 0));
            writer.stored(&patch);
            writer.words.push(i(JALR, 0, RA, TO_A_PAD, 0));
        });
        self.words.extend(patch.over());
        let over = self.reserve(1);
        let site = self.pad(&patch, label);
        let function = site.word();
        self.filler(2);
        self.words.push(i(JALR, 0, 0, RA, 0));
        self.words[over] = j(0, self.here() - self.offset(over));
        let address = self.address(far, TO_A_PAD, Name::Own, function);
        self.words[far..far + 3].copy_from_slice(&address);
        self.set_up(setup, &patch, &site);
    }
}
