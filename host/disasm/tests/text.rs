//! Texts written by hand, with words taken from the manuals' tables and from docs/HART.md (3.18, chapter 14), not from
//! the code. What GNU objdump and as say of many thousands of words is checked by `tools/outside`.

use disasm::{csr_address, csr_name, csr_names, register, register_number, text};

const PC: u64 = 0x8000_0000;

fn check(cases: &[(u32, &str)]) {
    for &(word, expected) in cases {
        assert_eq!(text(word, PC), expected, "word 0x{word:08x}");
    }
}

#[test]
fn computation_with_registers() {
    check(&[
        (0x00b50533, "add a0,a0,a1"),
        (0x40b50533, "sub a0,a0,a1"),
        (0x40b00533, "neg a0,a1"),
        (0x00b035b3, "snez a1,a1"),
        (0x0005a533, "sltz a0,a1"),
        (0x00b02533, "sgtz a0,a1"),
        (0x00002533, "sltz a0,zero"),
        (0x40b5553b, "sraw a0,a0,a1"),
        (0x40b0053b, "negw a0,a1"),
        (0x04b50533, ".word 0x04b50533"), // add with a bit of funct7 that nothing has
        (0x40b51533, ".word 0x40b51533"), // sll with the bit of sub
        (0x00b5253b, ".word 0x00b5253b"), // there is no sltw
    ]);
}

/// Words of the GNU assembler for rv64im_zbb.
#[test]
fn products_counts_and_order() {
    check(&[
        (0x02c58533, "mul a0,a1,a2"),
        (0x02c59533, "mulh a0,a1,a2"),
        (0x02c5a533, "mulhsu a0,a1,a2"),
        (0x02c5b533, "mulhu a0,a1,a2"),
        (0x02c5c533, "div a0,a1,a2"),
        (0x02c5d533, "divu a0,a1,a2"),
        (0x02c5e533, "rem a0,a1,a2"),
        (0x02c5f533, "remu a0,a1,a2"),
        (0x02c5853b, "mulw a0,a1,a2"),
        (0x02c5c53b, "divw a0,a1,a2"),
        (0x02c5d53b, "divuw a0,a1,a2"),
        (0x02c5e53b, "remw a0,a1,a2"),
        (0x02c5f53b, "remuw a0,a1,a2"),
        (0x60059513, "clz a0,a1"),
        (0x60159513, "ctz a0,a1"),
        (0x60259513, "cpop a0,a1"),
        (0x6005951b, "clzw a0,a1"),
        (0x6015951b, "ctzw a0,a1"),
        (0x6025951b, "cpopw a0,a1"),
        (0x0ac5c533, "min a0,a1,a2"),
        (0x0ac5d533, "minu a0,a1,a2"),
        (0x0ac5e533, "max a0,a1,a2"),
        (0x0ac5f533, "maxu a0,a1,a2"),
        (0x02000033, "mul zero,zero,zero"), // no alias, as `neg` or `sgtz` would be
        (0x60001013, "clz zero,zero"),
    ]);
}

/// What GNU knows as Zbb, Zba, Zbc or Zbs and the hart does not have, and words that nobody knows.
#[test]
fn neighbours_of_the_counts_are_words() {
    for word in [
        0x60459513, // sext.b
        0x60559513, // sext.h
        0x0805c53b, // zext.h
        0x2875d513, // orc.b
        0x6b85d513, // rev8
        0x40c5f533, // andn
        0x40c5e533, // orn
        0x40c5c533, // xnor
        0x60c59533, // rol
        0x60c5d533, // ror
        0x6035d513, // rori
        0x60c5953b, // rolw
        0x6035d51b, // roriw
        0x08c5853b, // add.uw
        0x20c5a533, // sh1add
        0x0835951b, // slli.uw
        0x0ac59533, // clmul
        0x0ac5a533, // clmulr
        0x0ac5b533, // clmulh
        0x48c59533, // bclr
        0x28359513, // bseti
        0x60359513, // one after cpop
        0x6035951b, 0x62059513, // clz with bit 25
        0x20059513, // clz without bit 30
        0x6205951b, 0x02c5953b, // there is no mulhw
        0x0ac5c53b, // nor minw
    ] {
        assert_eq!(text(word, PC), format!(".word 0x{word:08x}"));
    }
}

#[test]
fn computation_with_immediates() {
    check(&[
        (0x00000013, "nop"),
        (0x00100013, "li zero,1"),
        (0x80000513, "li a0,-2048"),
        (0x00058513, "mv a0,a1"),
        (0x00158513, "addi a0,a1,1"),
        (0xfff5c513, "not a0,a1"),
        (0x0015b513, "seqz a0,a1"),
        (0x0ff5f513, "zext.b a0,a1"),
        (0x0fe5f513, "andi a0,a1,254"),
        (0x03f59513, "slli a0,a1,0x3f"),
        (0x43f5d513, "srai a0,a1,0x3f"),
        (0x0005851b, "sext.w a0,a1"),
        (0xfff5851b, "addiw a0,a1,-1"),
        (0x41f5d51b, "sraiw a0,a1,0x1f"),
        (0x0205951b, ".word 0x0205951b"), // slliw by 32
        (0x04059513, ".word 0x04059513"), // slli by 64
        (0x12345537, "lui a0,0x12345"),
        (0xfffff517, "auipc a0,0xfffff"),
    ]);
}

#[test]
fn jumps_and_branches_give_addresses() {
    check(&[
        (0x00008067, "ret"),
        (0x00050067, "jr a0"),
        (0xffc50067, "jr -4(a0)"),
        (0x000500e7, "jalr a0"),
        (0x004500e7, "jalr 4(a0)"),
        (0x00450567, "jalr a0,4(a0)"),
        (0x00051067, ".word 0x00051067"), // jalr with funct3 1
        (0x0080006f, "j 0x80000008"),
        (0xffdff0ef, "jal 0x7ffffffc"),
        (0x0000056f, "jal a0,0x80000000"),
        (0x00050463, "beqz a0,0x80000008"),
        (0xfeb51ee3, "bne a0,a1,0x7ffffffc"),
        (0x00a05463, "blez a0,0x80000008"),
        (0x00055463, "bgez a0,0x80000008"),
        (0x00054463, "bltz a0,0x80000008"),
        (0x00a04463, "bgtz a0,0x80000008"),
        (0x00b57463, "bgeu a0,a1,0x80000008"),
        (0x00b52463, ".word 0x00b52463"), // a branch with funct3 2
    ]);
    assert_eq!(text(0x8000_006f, 0), "j 0xfffffffffff00000");
}

#[test]
fn loads_stores_and_fences() {
    check(&[
        (0xff853503, "ld a0,-8(a0)"),
        (0x0005e503, "lwu a0,0(a1)"),
        (0x0005f503, ".word 0x0005f503"), // a load with funct3 7
        (0xfea5bc23, "sd a0,-8(a1)"),
        (0x00a5c023, ".word 0x00a5c023"), // a store with funct3 4
        (0x0ff0000f, "fence"),
        (0x0310000f, "fence rw,w"),
        (0x0840000f, "fence i,o"),
        (0x0100000f, "fence w,unknown"),
        (0x8330000f, "fence.tso"),
        (0x1235850f, ".insn i MISC_MEM,0,a0,a1,291 # fence"),
        (0x0000100f, ".word 0x0000100f"), // fence.i: Zifencei is not here
    ]);
}

#[test]
fn system_and_csr_instructions() {
    check(&[
        (0x00000073, "ecall"),
        (0x00100073, "ebreak"),
        (0x10200073, "sret"),
        (0x30200073, "mret"),
        (0x10500073, ".word 0x10500073"), // wfi
        (0x12000073, ".word 0x12000073"), // sfence.vma
        (0x000000f3, ".word 0x000000f3"), // ecall with rd 1
        (0x30002573, "csrr a0,mstatus"),
        (0x30002073, "csrr zero,mstatus"),
        (0x34051073, "csrw mscratch,a0"),
        (0x30052073, "csrs mstatus,a0"),
        (0x30003073, "csrc mstatus,zero"),
        (0x3402d073, "csrwi mscratch,5"),
        (0x300fe073, "csrsi mstatus,31"),
        (0x30007073, "csrci mstatus,0"),
        (0x300515f3, "csrrw a1,mstatus,a0"),
        (0x3002e5f3, "csrrsi a1,mstatus,5"),
        (0x30003573, "csrrc a0,mstatus,zero"),
        (0x01102573, "csrr a0,ssp"),
        (0x74759073, "csrw mseccfg,a1"),
        (0xc0002573, "csrr a0,0xc00"), // cycle is no CSR of the hart
        (0xc0001073, "unimp"),
    ]);
}

#[test]
fn may_be_operations() {
    check(&[
        (0x81c5c573, "mop.r.0 a0,a1"),
        (0x81d5c573, "mop.r.1 a0,a1"),
        (0x85c5c573, "mop.r.4 a0,a1"),
        (0xc1c5c573, "mop.r.16 a0,a1"),
        (0xcdf5c573, "mop.r.31 a0,a1"),
        (0x82c5c573, "mop.rr.0 a0,a1,a2"),
        (0x86c5c573, "mop.rr.1 a0,a1,a2"),
        (0xc2c5c573, "mop.rr.4 a0,a1,a2"),
        (0xcec5c573, "mop.rr.7 a0,a1,a2"),
        (0x80c5c573, ".word 0x80c5c573"), // bits 25:22 neither 0111 nor 1xxx
        (0x91c5c573, ".word 0x91c5c573"), // bit 28
        (0x01c5c573, ".word 0x01c5c573"), // bit 31
    ]);
}

#[test]
fn shadow_stack_and_landing_pads() {
    check(&[
        (0xce104073, "sspush ra"),
        (0xce504073, "sspush t0"),
        (0xce204073, "mop.rr.7 zero,zero,sp"),
        (0xce1040f3, "mop.rr.7 ra,zero,ra"),
        (0xce10c073, "mop.rr.7 zero,ra,ra"),
        (0xcdc0c073, "sspopchk ra"),
        (0xcdc2c073, "sspopchk t0"),
        (0xcdc14073, "mop.r.28 zero,sp"),
        (0xcdc0c0f3, "mop.r.28 ra,ra"),
        (0xcdc04573, "ssrdp a0"),
        (0xcdc04073, "mop.r.28 zero,zero"),
        (0xcdd04573, "mop.r.29 a0,zero"),
        (0x48b6252f, "ssamoswap.w a0,a1,(a2)"),
        (0x4ab6252f, "ssamoswap.w.rl a0,a1,(a2)"),
        (0x4cb6352f, "ssamoswap.d.aq a0,a1,(a2)"),
        (0x4eb6352f, "ssamoswap.d.aqrl a0,a1,(a2)"),
        (0x48b6452f, ".word 0x48b6452f"), // a width that the swap does not have
        (0x08b6252f, ".word 0x08b6252f"), // amoswap.w: A is not here
        (0x00000017, "lpad 0x0"),
        (0x12345017, "lpad 0x12345"),
    ]);
}

#[test]
fn every_register_and_csr_has_its_name() {
    let names: Vec<_> = (0..32).map(register).collect();
    let expected = "zero ra sp gp tp t0 t1 t2 s0 s1 a0 a1 a2 a3 a4 a5 a6 a7 s2 s3 s4 s5 s6 s7 s8 s9 s10 s11 t3 t4 t5 t6";
    assert_eq!(names.join(" "), expected);
    let csrs: Vec<_> = (0..0x1000)
        .filter_map(|address| Some(format!("{}={address:#x}", csr_name(address)?)))
        .collect();
    let expected = "ssp=0x11 sstatus=0x100 stvec=0x105 senvcfg=0x10a sscratch=0x140 sepc=0x141 scause=0x142 stval=0x143 \
                    satp=0x180 mstatus=0x300 medeleg=0x302 mtvec=0x305 menvcfg=0x30a mscratch=0x340 mepc=0x341 \
                    mcause=0x342 mtval=0x343 mseccfg=0x747";
    assert_eq!(csrs.join(" "), expected);
}

#[test]
fn registers_and_csrs_are_found_by_their_names() {
    for n in 0..32 {
        assert_eq!(register_number(register(n)), Some(n));
        assert_eq!(register_number(&format!("x{n}")), Some(n));
    }
    assert_eq!(register_number("fp"), Some(8));
    for name in ["", "x", "x32", "x01", "x+1", "a8", "A0", "s12", "zero "] {
        assert_eq!(register_number(name), None, "{name}");
    }
    for name in csr_names() {
        let address = csr_address(name).expect(name);
        assert_eq!(csr_name(address), Some(name));
    }
    assert_eq!(csr_names().count(), 18);
    assert_eq!(csr_address("cycle"), None);
}
