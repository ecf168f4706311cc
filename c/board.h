// The HP-87 exchange engine for C. docs/board.md says what each function does. The library is crates/board/out/libboard.a, which
// `rt lib` makes in crates/board; link it with c/liblibc_c.a of the Rattle kit.
#ifndef BOARD_H
#define BOARD_H

#include <stdbool.h>
#include <stddef.h>
#include <stdint.h>

#ifdef __cplusplus
extern "C" {
#endif

// A board is an exchange with its memory and its sheet. Only these functions read or write it. One that begins all zero, as
// `board b = {0}`, is a board that was not made.
typedef struct {
    bool made;
    struct {
        unsigned char *at;
    } handle;
} board;

// A step's answer, or a refusal.
typedef struct {
    uint16_t place;   // the program counter beforehand
    uint16_t stain;   // the first stained address that was read, if `told`
    uint16_t detail;  // of a refusal: the address, the code or the byte's index
    uint8_t number;   // the refusal's number, or 0
    uint8_t length;   // how many bytes the instruction has; 0 if it was refused
    uint8_t depth;    // how deep the bus refused
    uint8_t mar;      // the number of the mar, if `marred`
    bool told;
    bool ended;       // the step ended a visit
    bool marred;
} board_said;

// What a run did.
typedef struct {
    board_said last;  // the last answer; all zero where no step was asked for
    uint16_t done;    // the steps done
    uint8_t letter;   // 'S', 'R', 'T' or 'M'; 0 if the run was refused whole, as `last` says
} board_ran;

typedef struct {
    uint8_t registers[64];
    uint8_t arp;
    uint8_t drp;
    uint8_t e;
    uint8_t status;   // DCM in bit 0, then CY, OVF, LSB, MSB, Z, LDZ and RDZ
} board_read_out;

// What `board_new` answers for want of memory.
enum { BOARD_NO_MEMORY = 255 };

// Each answers the number of a refusal, or 0. No pointer may be null, also where `length` is 0.
uint8_t board_new(board *b);
uint8_t board_load(board *b, uint16_t address, const uint8_t *bytes, size_t length);
uint8_t board_go(board *b, uint16_t pc, uint16_t return_pointer);
uint8_t board_step(board *b, board_said *said);
uint8_t board_run(board *b, uint16_t n, board_ran *ran);
uint8_t board_ring(board *b, uint16_t vector, board_said *said);
uint8_t board_pc(board *b, uint16_t *pc);
uint8_t board_end(board *b, board_read_out *read_out);
uint8_t board_free(board *b);

#ifdef __cplusplus
}
#endif

#endif
