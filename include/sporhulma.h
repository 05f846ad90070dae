/* Sporhulma: one 64-bit RISC-V hart (M, S, U) with landing pads, shadow stack and pointer masking, proved.
 *
 * Link target/staticlib/libsporhulma.a, and beside it libfamily.a for sporhulma_family and libscribe.a for sporhulma_read and
 * sporhulma_write; tools/library builds them. What each call does with anything that is handed in is proved; docs/PROMISES.md states
 * it. Trusted is that the caller's pointers are what the types say: arrays of the given length, which do not overlap, and memory of
 * mem_len bytes, a map of map_len words and a text of text_len bytes (a pointer that is not null, also where the length is 0). A run of more
 * than 1,024 steps needs some 120 KiB of stack.
 */
#ifndef SPORHULMA_H
#define SPORHULMA_H

#include <stddef.h>
#include <stdint.h>

#ifdef __cplusplus
extern "C" {
#endif

/* Indices into rest. mode: 0 user, 1 supervisor, 3 machine. elp: 1 where a landing pad is expected, else 0. mstatus holds UXL and
 * SXL as a read gives them (2 each). senvcfg is the stored word. */
enum sporhulma_rest {
    SPORHULMA_PC,
    SPORHULMA_MODE,
    SPORHULMA_ELP,
    SPORHULMA_SSP,
    SPORHULMA_STVEC,
    SPORHULMA_SENVCFG,
    SPORHULMA_SSCRATCH,
    SPORHULMA_SEPC,
    SPORHULMA_SCAUSE,
    SPORHULMA_STVAL,
    SPORHULMA_SATP,
    SPORHULMA_MSTATUS,
    SPORHULMA_MEDELEG,
    SPORHULMA_MTVEC,
    SPORHULMA_MENVCFG,
    SPORHULMA_MSCRATCH,
    SPORHULMA_MEPC,
    SPORHULMA_MCAUSE,
    SPORHULMA_MTVAL,
    SPORHULMA_MSECCFG
};

/* Indices into the answer of a step or a run: the steps taken, the trapping one included; 1 where the last one trapped, else 0; and
 * its cause, else 0. */
enum sporhulma_answer { SPORHULMA_COUNT, SPORHULMA_TRAPPED, SPORHULMA_CAUSE };

/* Each step or run answers 0 where it was taken, else the lowest number that applies, and then changes no word of x and rest and no
 * byte of mem, and answer is all 0:
 *   1  register 0 is not 0, pc is not a multiple of 4, mode is not 0, 1 or 3, elp is not 0 or 1, ssp is not a multiple of 8, or a
 *      CSR holds a value that no write could leave;
 *   2  mem_len is 0, not a multiple of 4,096, or over 1,048,576;
 *   3  map_len is odd or over 128, or a page number is 2^27 or more, or the numbers do not strictly rise;
 *   4  (run only) budget is over 1,000,000.
 * mem's first byte has physical address 0x80000000. map has two words a page: its virtual page number, then an Sv39 leaf. */

/* One step, which fetches at pc. */
uint64_t sporhulma_step(uint64_t x[32], uint64_t rest[20], uint8_t *mem, size_t mem_len, const uint64_t *map, size_t map_len,
                        uint64_t answer[3]);

/* One step with a given word, as if it had been fetched at pc. */
uint64_t sporhulma_step_word(uint64_t x[32], uint64_t rest[20], uint8_t *mem, size_t mem_len, const uint64_t *map, size_t map_len,
                             uint32_t word, uint64_t answer[3]);

/* Steps up to and including the first that traps, or until the budget is spent. */
uint64_t sporhulma_run(uint64_t x[32], uint64_t rest[20], uint8_t *mem, size_t mem_len, const uint64_t *map, size_t map_len,
                       uint64_t budget, uint64_t answer[3]);

/* Indices into the answer of sporhulma_load_hex: the number of the first bad line (refusal 6), else 0; 1 where a start address was
 * given, else 0; and the start address, the last type 05's, else 0. */
enum sporhulma_loaded { SPORHULMA_LINE, SPORHULMA_STARTED, SPORHULMA_START };

/* Loads a text of Intel HEX into mem: types 00 (data), 01 (end), 04 (upper address) and 05 (start address, which is handed back and
 * sets nothing). Addresses are physical: data for mem's first byte have upper address 8000 and offset 0000. Lines end in LF or
 * CR LF, and the last may lack its end. Where two records name one byte, the later wins. It answers 0 where the text was taken; else
 * 2, as above, or 6, and then changes no byte of mem and hands back no start address:
 *   6  a line is malformed, its checksum is wrong, its type is another or its data fall outside mem; nothing ends the file, or text
 *      follows the end record. The first such line is named, from 1; for a missing end it is the number after the last line. */
uint64_t sporhulma_load_hex(uint8_t *mem, size_t mem_len, const uint8_t *text, size_t text_len, uint64_t answer[3]);

/* The decoder's verdict on a word (in libfamily.a): 0 illegal, 1 LUI, 2 AUIPC, 3 JAL, 4 JALR, 5 branch, 6 load, 7 store, 8 OP-IMM,
 * 9 OP-IMM-32, 10 OP, 11 OP-32 (M and Zbb are among 8 to 11), 12 FENCE, 13 ECALL, 14 EBREAK, 15 SRET, 16 MRET, 17 CSR instruction,
 * 18 read of ssp, 19 shadow push, 20 shadow pop-check, 21 shadow swap, 22 another MOP.R word, 23 another MOP.RR word. */
uint64_t sporhulma_family(uint32_t word);

/* An instruction as eight numbers, for sporhulma_read and sporhulma_write (in libscribe.a). Indices into it: */
enum sporhulma_instruction {
    SPORHULMA_FAMILY,
    SPORHULMA_OPERATION,
    SPORHULMA_RD,
    SPORHULMA_RS1,
    SPORHULMA_RS2,
    SPORHULMA_IMMEDIATE,
    SPORHULMA_FIRST,
    SPORHULMA_SECOND
};

/* The family is sporhulma_family's number, and the operation tells the family's instructions apart: funct7 << 8 | rs2 << 3 | funct3 as
 * the manual lists them, with 0 for what is an operand (SUB 0x2000, MUL 0x100, CTZ 0x3009). A register is its number, 0 to 31. The
 * immediate is a number's 64 bits: (uint64_t)-4 for -4; LUI's and AUIPC's is the number itself, 4096 in `lui a0, 1`. FIRST and SECOND
 * are what is left. The table has all that can be written; a column that says nothing is 0. So `addi a0, a0, -1` is
 * { 8, 0, 10, 10, 0, (uint64_t)-1, 0, 0 }.
 *
 *  family         operation                                         registers         immediate                      first  second
 *   1 LUI         0                                                 rd                -2^31 to 2^31 - 4096, by 4096
 *   2 AUIPC       0                                                 rd                -2^31 to 2^31 - 4096, by 4096
 *   3 JAL         0                                                 rd                -1048576 to 1048574, by 2
 *   4 JALR        0                                                 rd, rs1           -2048 to 2047
 *   5 branch      0 BEQ, 1 BNE, 4 BLT, 5 BGE, 6 BLTU, 7 BGEU        rs1, rs2          -4096 to 4094, by 2
 *   6 load        0 LB, 1 LH, 2 LW, 3 LD, 4 LBU, 5 LHU, 6 LWU       rd, rs1           -2048 to 2047
 *   7 store       0 SB, 1 SH, 2 SW, 3 SD                            rs1, rs2          -2048 to 2047
 *   8 OP-IMM      0 ADDI, 2 SLTI, 3 SLTIU, 4 XORI, 6 ORI, 7 ANDI    rd, rs1           -2048 to 2047
 *                 1 SLLI, 5 SRLI, 0x2005 SRAI                       rd, rs1           0 to 63
 *                 0x3001 CLZ, 0x3009 CTZ, 0x3011 CPOP               rd, rs1
 *   9 OP-IMM-32   0 ADDIW                                           rd, rs1           -2048 to 2047
 *                 1 SLLIW, 5 SRLIW, 0x2005 SRAIW                    rd, rs1           0 to 31
 *                 0x3001 CLZW, 0x3009 CTZW, 0x3011 CPOPW            rd, rs1
 *  10 OP          0 ADD, 1 SLL, 2 SLT, 3 SLTU, 4 XOR, 5 SRL, 6 OR,  rd, rs1, rs2
 *                 7 AND, 0x2000 SUB, 0x2005 SRA                     rd, rs1, rs2
 *                 0x100 MUL, 0x101 MULH, 0x102 MULHSU, 0x103 MULHU  rd, rs1, rs2
 *                 0x104 DIV, 0x105 DIVU, 0x106 REM, 0x107 REMU      rd, rs1, rs2
 *                 0x504 MIN, 0x505 MINU, 0x506 MAX, 0x507 MAXU      rd, rs1, rs2
 *  11 OP-32       0 ADDW, 1 SLLW, 5 SRLW, 0x2000 SUBW, 0x2005 SRAW  rd, rs1, rs2
 *                 0x100 MULW, 0x104 DIVW, 0x105 DIVUW, 0x106 REMW   rd, rs1, rs2
 *                 0x107 REMUW                                       rd, rs1, rs2
 *  12 FENCE       fm, 0 to 15                                       rd, rs1                                          pred   succ
 *  13 ECALL       0
 *  14 EBREAK      0
 *  15 SRET        0
 *  16 MRET        0
 *  17 CSR         1 CSRRW, 2 CSRRS, 3 CSRRC                         rd, rs1                                          CSR
 *                 5 CSRRWI, 6 CSRRSI, 7 CSRRCI                      rd, rs1 (a)                                      CSR
 *  18 read ssp    0                                                 rd, not 0
 *  19 push        0                                                 rs2: 1 or 5
 *  20 pop-check   0                                                 rs1: 1 or 5
 *  21 swap        0x2402 SSAMOSWAP.W, 0x2403 SSAMOSWAP.D            rd, rs1, rs2                                     aq     rl
 *  22 MOP.R       n, 0 to 31                                        rd, rs1 (b)
 *  23 MOP.RR      n, 0 to 7                                         rd, rs1, rs2 (c)
 *
 * pred and succ are 0 to 15, CSR is 0 to 4095, aq and rl are 0 or 1. (a) rs1 is the number itself, 0 to 31. (b) Not the words that are
 * families 18 and 20: n 28 with rs1 0 and rd not 0, or with rd 0 and rs1 1 or 5. (c) Nor those of family 19: n 7 with rd 0, rs1 0 and
 * rs2 1 or 5. Legal is what is read: the mode, and whether there is such a CSR, do not count. */

/* Reads a word: 0 and its instruction's numbers; or 5 where it is no legal instruction, and eight zeros. */
uint64_t sporhulma_read(uint32_t word, uint64_t instruction[8]);

/* Writes an instruction: 0 and its word; or 5 where no word reads as these numbers, whatever they are, and then *word stays as it was.
 * What was read is written as the word that it was read from, and what was written reads back as the same eight numbers. */
uint64_t sporhulma_write(const uint64_t instruction[8], uint32_t *word);

#ifdef __cplusplus
}
#endif

#endif
