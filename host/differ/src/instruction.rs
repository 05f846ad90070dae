//! Instruction words with a state that suits them: each maker sets the registers it needs and gives the word.

use crate::case::PAGE;
use crate::maker::Maker;
use crate::world::Role;
use crate::{csr, multiply, shadow};
use formats::*;

type Make = fn(&mut Maker) -> u32;

/// The makers with their weights: more for what depends on much.
const MAKERS: [(u64, Make); 26] = [
    (3, lui),
    (3, auipc),
    (4, jal),
    (9, jalr),
    (7, branch),
    (13, load),
    (11, store),
    (5, op_imm),
    (4, op_imm_32),
    (5, op),
    (4, op_32),
    (12, multiply::product),
    (5, multiply::count),
    (4, multiply::min_max),
    (3, multiply::absent),
    (2, fence),
    (6, system),
    (12, csr::instruction),
    (3, shadow::read),
    (8, shadow::push),
    (10, shadow::pop_check),
    (9, shadow::swap),
    (3, shadow::mop_r),
    (3, shadow::mop_rr),
    (6, near_miss),
    (1, any),
];

/// Of these the makers of accesses that MPRV moves into the mode of MPP.
const MOVED: [(u64, Make); 3] = [(13, load), (11, store), (9, shadow::swap)];

/// Makes a word. Where a pad is expected it is mostly one, or nearly.
pub fn instruction(maker: &mut Maker) -> u32 {
    let expected = maker.case.hart.rest[sporhulma::word::ELP] == 1 && maker.view.pads;
    if expected && maker.random.chance(75) {
        return pad(maker);
    }
    drawn(maker, &MAKERS)
}

/// Makes a load, a store or a swap.
pub fn moved_by_mprv(maker: &mut Maker) -> u32 {
    drawn(maker, &MOVED)
}

fn drawn(maker: &mut Maker, makers: &[(u64, Make)]) -> u32 {
    let total = makers.iter().map(|(weight, _)| weight).sum();
    let mut draw = maker.random.below(total);
    for (weight, make) in makers {
        if draw < *weight {
            return make(maker);
        }
        draw -= weight;
    }
    unreachable!("a draw below the sum of the weights finds its maker")
}

/// A landing pad whose label matches x7, is 0, or is one bit away.
fn pad(maker: &mut Maker) -> u32 {
    let label = (maker.case.hart.x[7] >> 12) as u32 & 0xF_FFFF;
    match maker.random.below(10) {
        0..=4 => u(AUIPC, 0, label),
        5 | 6 => u(AUIPC, 0, 0),
        7 => u(AUIPC, 0, label) ^ maker.random.one_bit(0xFFFF_F000) as u32,
        8 => u(AUIPC, 0, label) ^ maker.random.one_bit(0xFFF) as u32,
        _ => u(AUIPC, maker.register(), label),
    }
}

fn lui(maker: &mut Maker) -> u32 {
    u(LUI, maker.register(), maker.random.word() as u32)
}

fn auipc(maker: &mut Maker) -> u32 {
    u(AUIPC, maker.register(), maker.random.word() as u32)
}

/// A jump's offset: mostly a multiple of 4, so that its target is aligned.
fn offset(maker: &mut Maker) -> u64 {
    let word = maker.random.word();
    if word >> 60 == 0 {
        word
    } else {
        word & !3
    }
}

fn jal(maker: &mut Maker) -> u32 {
    j(maker.register(), offset(maker))
}

fn branch(maker: &mut Maker) -> u32 {
    let (rs1, rs2) = (maker.register(), maker.register());
    let near = maker.random.pick(&[0, 0, 1, u64::MAX, 1 << 63, 1 << 32]);
    if maker.random.chance(70) {
        maker
            .case
            .set(rs2, maker.case.hart.x[rs1 as usize].wrapping_add(near));
    }
    b(
        maker.random.pick(&[0, 1, 4, 5, 6, 7]),
        rs1,
        rs2,
        offset(maker),
    )
}

/// JALR through the registers that count for landing pads; the target is seldom misaligned.
fn jalr(maker: &mut Maker) -> u32 {
    let any = maker.register();
    let rs1 = maker.random.pick(&[1, 5, 7, 4, 6, 8, 3, any, any]);
    let rd = maker.register();
    let rd = maker.random.pick(&[0, 1, 5, rs1, rd, rd]);
    let low = maker.random.pick(&[0, 0, 0, 0, 0, 0, 1, 1, 2, 3]);
    let place = maker.random.below(PAGE / 4) * 4 + low;
    let target = maker.world.at(Role::Code, maker.view.fetch.paged, place);
    let target = maker.dirty(target, maker.view.fetch.bits);
    let imm = maker.immediate();
    maker.case.set(rs1, target.wrapping_sub(imm));
    i(JALR, 0, rd, rs1, imm)
}

fn load(maker: &mut Maker) -> u32 {
    use Role::*;
    let funct3 = maker.random.below(7);
    let role = maker
        .random
        .pick(&[Data, Data, Data, ReadOnly, ReadOnly, Shadow, Code, Handler]);
    let address = maker.address(role, 1 << (funct3 & 3));
    let (rs1, imm) = (maker.register(), maker.immediate());
    maker.case.set(rs1, address.wrapping_sub(imm));
    i(LOAD, funct3 as u32, maker.register(), rs1, imm)
}

fn store(maker: &mut Maker) -> u32 {
    use Role::*;
    let funct3 = maker.random.below(4);
    let role = maker
        .random
        .pick(&[Data, Data, Data, Data, Data, Data, Shadow, ReadOnly, Code]);
    let address = maker.address(role, 1 << funct3);
    let (rs1, imm) = (maker.register(), maker.immediate());
    maker.case.set(rs1, address.wrapping_sub(imm));
    s(STORE, funct3 as u32, rs1, maker.register(), imm)
}

fn op_imm(maker: &mut Maker) -> u32 {
    let funct3 = maker.random.below(8) as u32;
    let imm = match funct3 {
        1 => maker.random.below(64),
        5 => maker.random.below(64) | maker.random.pick(&[0, 0x400]),
        _ => maker.immediate(),
    };
    i(OP_IMM, funct3, maker.register(), maker.register(), imm)
}

fn op_imm_32(maker: &mut Maker) -> u32 {
    let funct3 = maker.random.pick(&[0, 1, 5]);
    let imm = match funct3 {
        1 => maker.random.below(32),
        5 => maker.random.below(32) | maker.random.pick(&[0, 0x400]),
        _ => maker.immediate(),
    };
    i(OP_IMM_32, funct3, maker.register(), maker.register(), imm)
}

fn op(maker: &mut Maker) -> u32 {
    let funct3 = maker.random.below(8) as u32;
    let funct7 = if funct3 == 0 || funct3 == 5 {
        maker.random.pick(&[0, 0x20])
    } else {
        0
    };
    r(
        OP,
        funct3,
        funct7,
        maker.register(),
        maker.register(),
        maker.register(),
    )
}

fn op_32(maker: &mut Maker) -> u32 {
    let (funct3, funct7) = maker
        .random
        .pick(&[(0, 0), (0, 0x20), (1, 0), (5, 0), (5, 0x20)]);
    r(
        OP_32,
        funct3,
        funct7,
        maker.register(),
        maker.register(),
        maker.register(),
    )
}

fn fence(maker: &mut Maker) -> u32 {
    maker.random.word() as u32 & !0x7000 & !0x7F | MISC_MEM
}

/// ECALL, EBREAK and the returns, and SYSTEM words near them (SFENCE.VMA, WFI, the returns of other modes).
fn system(maker: &mut Maker) -> u32 {
    const OTHERS: [u32; 5] = [
        0x1200_0073,
        0x1050_0073,
        0x0020_0073,
        0x7020_0073,
        0x0000_4073,
    ];
    let returns = match maker.view.mode {
        0 => ECALL,
        1 => SRET,
        _ => maker.random.pick(&[MRET, MRET, SRET]),
    };
    let word = maker.random.pick(&[
        ECALL, EBREAK, SRET, MRET, returns, returns, returns, returns,
    ]);
    match maker.random.below(16) {
        0 => word ^ maker.random.one_bit(0xFFFF_FF80) as u32,
        1 => maker.random.pick(&OTHERS),
        _ => word,
    }
}

/// A word of another maker with one bit turned. The last two makers are this one and `any`.
fn near_miss(maker: &mut Maker) -> u32 {
    let (_, make) = maker.random.pick(&MAKERS[..MAKERS.len() - 2]);
    make(maker) ^ maker.random.one_bit(0xFFFF_FFFF) as u32
}

fn any(maker: &mut Maker) -> u32 {
    maker.random.word() as u32
}
