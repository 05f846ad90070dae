//! The words of Zicfiss and Zimop, with ssp or the address where they do something.

use crate::maker::Maker;
use crate::world::Role;
use formats::{mop_r as mop_r_word, mop_rr as mop_rr_word, r, AMO};
use sporhulma::word::SSP;

/// A page for a shadow access: mostly a shadow page.
fn role(maker: &mut Maker) -> Role {
    use Role::*;
    maker.random.pick(&[
        Shadow, Shadow, Shadow, Shadow, Shadow, Shadow, Shadow, ReadOnly, Data, Code,
    ])
}

/// Points ssp at a page for a shadow access, seldom to the ends of the address space.
fn point(maker: &mut Maker, beyond: u64) {
    let role = role(maker);
    let address = match maker.random.below(40) {
        0 => 0,
        1 => 8,
        _ => maker.address(role, 8).wrapping_add(beyond),
    };
    maker.case.hart.rest[SSP] = address & !7;
}

pub fn push(maker: &mut Maker) -> u32 {
    point(maker, 8);
    formats::push(maker.random.pick(&[1, 5]))
}

/// A pop-check; the word at ssp is mostly the register's, or one bit away from it.
pub fn pop_check(maker: &mut Maker) -> u32 {
    point(maker, 0);
    let register = maker.random.pick(&[1, 5]);
    let value = maker.case.hart.x[register as usize];
    let stored = match maker.random.below(8) {
        0 => value ^ maker.random.one_bit(u64::MAX),
        1 => maker.random.word(),
        _ => value,
    };
    let low = maker.case.hart.rest[SSP] & 0xFFF;
    let place = maker.world.offset(Role::Shadow, low);
    maker.case.poke(place, &stored.to_le_bytes());
    formats::pop_check(register)
}

pub fn read(maker: &mut Maker) -> u32 {
    mop_r_word(28, maker.register(), 0)
}

pub fn swap(maker: &mut Maker) -> u32 {
    let funct3 = maker.random.pick(&[2, 3]);
    let role = role(maker);
    let address = maker.address(role, 1 << funct3);
    let rs1 = maker.register();
    maker.case.set(rs1, address);
    let order = maker.random.below(4) as u32;
    r(
        AMO,
        funct3,
        0x24 | order,
        maker.register(),
        rs1,
        maker.register(),
    )
}

/// Any MOP.R word, half of them with the number of the pop-check and the read of ssp.
pub fn mop_r(maker: &mut Maker) -> u32 {
    let any = maker.random.below(32) as u32;
    let number = maker.random.pick(&[any, 28]);
    mop_r_word(number, maker.register(), maker.register())
}

/// Any MOP.RR word, half of them with the number of the push.
pub fn mop_rr(maker: &mut Maker) -> u32 {
    let any = maker.random.below(8) as u32;
    let number = maker.random.pick(&[any, 7]);
    mop_rr_word(number, maker.register(), maker.register(), maker.register())
}
