//! How a program that patches itself runs: in which mode, and so by which of its code's names it can be patched.

use crate::case::Case;
use formats::csr::field::*;
use formats::random::Random;
use sporhulma::word::*;

#[derive(Clone, Copy, PartialEq, Eq, Debug)]
pub enum Kind {
    /// In M. Data has Sv39 only where MPRV is turned on for it.
    Physical,
    /// In M with MPRV on: the code has no Sv39, and data has.
    Moved,
    User,
    Supervisor,
    /// In S, while satp turns between Bare and Sv39: each page has its frame's own address, and under Sv39 the code may be another.
    Turning,
}

#[derive(Clone, Copy, Debug)]
pub struct Plan {
    pub kind: Kind,
    /// The mode in MPP, and where the program goes if it goes down.
    pub below: u64,
    /// Whether it goes down in the middle, by MRET or SRET.
    pub descends: bool,
    /// Whether the code can be written by the addresses from which it is run.
    pub own: bool,
    /// Whether under Sv39 the code's addresses lead to other frames than without.
    pub twin: bool,
    /// Whether some of the words that are patched in are illegal, or anything.
    pub wild: bool,
    /// Whether the code is larger than 1,024 words, and where it is late than 4,096.
    pub long: bool,
    /// Whether each patch comes behind a loop of some 1,024 steps that the quick way takes, and leaves out what would end the fast path.
    pub late: bool,
    /// Whether one of these loops is far longer.
    pub far: bool,
    /// Whether the data are in a page of the code.
    pub shared: bool,
    /// Whether there are words that are to trap.
    pub traps: bool,
}

impl Plan {
    pub fn random(random: &mut Random) -> Plan {
        use Kind::*;
        let kind = random.pick(&[
            Physical, Physical, Moved, Moved, Moved, User, User, User, User, User, User,
            Supervisor, Supervisor, Supervisor, Turning, Turning,
        ]);
        let descends = matches!(kind, Moved | Supervisor) && random.chance(30);
        let long = !descends && random.chance(10);
        let late = random.chance(55);
        Plan {
            kind,
            below: u64::from(kind == Moved && random.chance(25)),
            descends,
            own: kind == Turning || random.chance(60),
            twin: kind == Turning && random.chance(60),
            wild: random.chance(20),
            long,
            late,
            far: late && !long && random.chance(4),
            shared: !long && kind != Turning && random.chance(15),
            traps: true,
        }
    }

    /// The same for calls of given budgets, which are to be spent: late, and with no word that traps.
    pub fn swept(self, far: bool) -> Plan {
        Plan {
            wild: false,
            long: false,
            late: true,
            far,
            traps: false,
            ..self
        }
    }

    pub fn mode(&self) -> u64 {
        match self.kind {
            Kind::Physical | Kind::Moved => 3,
            Kind::User => 0,
            Kind::Supervisor | Kind::Turning => 1,
        }
    }

    /// The U bits of the code's pages, of those from which it is run again, and of the others. S reaches a user's data by SUM.
    pub fn users(&self) -> [bool; 3] {
        match self.kind {
            Kind::Physical | Kind::User => [true; 3],
            Kind::Moved => [self.below == 0; 3],
            Kind::Supervisor => [false, self.descends, self.descends],
            Kind::Turning => [false; 3],
        }
    }

    /// Turns a hart's settings into those of the plan; what would end most programs at once is off.
    pub fn set(&self, random: &mut Random, case: &mut Case) {
        const SAVED_PADS: u64 = SPELP | MPELP;
        let rest = &mut case.hart.rest;
        rest[MODE] = self.mode();
        rest[ELP] = 0;
        rest[SATP] = SV39;
        rest[MENVCFG] |= SSE;
        rest[SENVCFG] |= SSE;
        for csr in [MENVCFG, SENVCFG] {
            rest[csr] = rest[csr] & !LPE | if random.chance(40) { LPE } else { 0 };
        }
        rest[MSTATUS] &= !(MPP | MPRV | SAVED_PADS);
        rest[MSTATUS] |= self.below << MPP_SHIFT;
        match self.kind {
            // With MXR too no address is masked, and the program turns MXR.
            Kind::Moved => rest[MSTATUS] = rest[MSTATUS] & !MXR | MPRV,
            Kind::Supervisor if self.descends => rest[MSTATUS] |= SUM,
            // The S handler's address is not that of its frame's.
            Kind::Turning => rest[MEDELEG] = 0,
            _ => {}
        }
        if self.kind == Kind::Turning && random.chance(50) {
            rest[SATP] = 0;
        }
    }
}
