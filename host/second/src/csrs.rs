//! The CSRs as docs/HART.md lists them: their addresses (5.1), and where their fields lie (5.5 to 5.17).

pub const SSP: u16 = 0x011;
pub const SSTATUS: u16 = 0x100;
pub const STVEC: u16 = 0x105;
pub const SENVCFG: u16 = 0x10A;
pub const SSCRATCH: u16 = 0x140;
pub const SEPC: u16 = 0x141;
pub const SCAUSE: u16 = 0x142;
pub const STVAL: u16 = 0x143;
pub const SATP: u16 = 0x180;
pub const MSTATUS: u16 = 0x300;
pub const MEDELEG: u16 = 0x302;
pub const MTVEC: u16 = 0x305;
pub const MENVCFG: u16 = 0x30A;
pub const MSCRATCH: u16 = 0x340;
pub const MEPC: u16 = 0x341;
pub const MCAUSE: u16 = 0x342;
pub const MTVAL: u16 = 0x343;
pub const MSECCFG: u16 = 0x747;

/// Every CSR with its name, by rising addresses.
pub const ALL: [(u16, &str); 18] = [
    (SSP, "ssp"),
    (SSTATUS, "sstatus"),
    (STVEC, "stvec"),
    (SENVCFG, "senvcfg"),
    (SSCRATCH, "sscratch"),
    (SEPC, "sepc"),
    (SCAUSE, "scause"),
    (STVAL, "stval"),
    (SATP, "satp"),
    (MSTATUS, "mstatus"),
    (MEDELEG, "medeleg"),
    (MTVEC, "mtvec"),
    (MENVCFG, "menvcfg"),
    (MSCRATCH, "mscratch"),
    (MEPC, "mepc"),
    (MCAUSE, "mcause"),
    (MTVAL, "mtval"),
    (MSECCFG, "mseccfg"),
];

/// The fields, by name: of mstatus, and those of them that sstatus shows; of menvcfg, senvcfg and mseccfg; and whole words of satp.
pub mod field {
    pub const SIE: u64 = 1 << 1;
    pub const MIE: u64 = 1 << 3;
    pub const SPIE: u64 = 1 << 5;
    pub const MPIE: u64 = 1 << 7;
    pub const SPP: u64 = 1 << 8;
    pub const MPP_SHIFT: u32 = 11;
    pub const MPP: u64 = 3 << MPP_SHIFT;
    pub const MPRV: u64 = 1 << 17;
    pub const SUM: u64 = 1 << 18;
    pub const MXR: u64 = 1 << 19;
    pub const SPELP: u64 = 1 << 23;
    pub const MPELP: u64 = 1 << 41;

    /// UXL and SXL have two bits each and always read 2, which means 64 bits.
    pub const UXL: u64 = 3 << 32;
    pub const UXL_IS_64: u64 = 2 << 32;
    pub const SXL: u64 = 3 << 34;
    pub const SXL_IS_64: u64 = 2 << 34;

    /// What a write of sstatus can change.
    pub const SSTATUS_FIELDS: u64 = SIE | SPIE | SPP | SUM | MXR | SPELP;
    /// What a write of mstatus can change.
    pub const MSTATUS_FIELDS: u64 = SSTATUS_FIELDS | MIE | MPIE | MPP | MPRV | MPELP;

    /// menvcfg and senvcfg: landing pads and shadow stack of the next lower mode.
    pub const LPE: u64 = 1 << 2;
    pub const SSE: u64 = 1 << 3;
    /// mseccfg: landing pads of M.
    pub const MLPE: u64 = 1 << 10;
    /// menvcfg, senvcfg and mseccfg: which bits of an address are masked.
    pub const PMM_SHIFT: u32 = 32;
    pub const PMM: u64 = 3 << PMM_SHIFT;

    pub const ENVCFG_FIELDS: u64 = LPE | SSE | PMM;
    pub const MSECCFG_FIELDS: u64 = MLPE | PMM;

    /// The causes that can be delegated.
    pub const MEDELEG_FIELDS: u64 = 0x4_B3FF;

    /// satp holds a MODE in its upper four bits and nothing else.
    pub const SATP_MODE_SHIFT: u32 = 60;
    pub const BARE: u64 = 0;
    pub const SV39: u64 = 8 << SATP_MODE_SHIFT;
}
