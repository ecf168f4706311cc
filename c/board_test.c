// Plays a worked tape on a board, call by call, and then everything out of turn and refused, and a read-out; then boards are made and
// freed in little memory. It prints what differs, and ends with status 1 if anything does.
#define _XOPEN_SOURCE 700

#include "board.h"

#include <stdio.h>
#include <string.h>
#include <sys/resource.h>

static int differ;

static void check(const char *what, long found, long wanted) {
    if (found != wanted) {
        printf("%s: %ld (%lX), and not %ld (%lX)\n", what, found, (unsigned long)found, wanted, (unsigned long)wanted);
        differ = 1;
    }
}

static uint16_t pc_of(board *b) {
    uint16_t pc = 0xFFFF;
    check("pc is in turn", board_pc(b, &pc), 0);
    return pc;
}

static void check_run(const char *what, board *b, uint16_t n, uint16_t done, char letter, uint16_t pc) {
    board_ran ran;
    check(what, board_run(b, n, &ran), 0);
    check(what, ran.done, done);
    check(what, ran.letter, letter);
    check(what, pc_of(b), pc);
}

// Every call but `board_new`, `board_free` and those that are in turn.
static void all_out_of_turn(const char *when, board *b, bool cold, bool live) {
    static const uint8_t one[] = {0};
    board_said said;
    board_ran ran;
    board_read_out end;
    board_read_out before;
    uint16_t pc = 7;
    if (!cold) {
        check(when, board_load(b, 0x0400, one, sizeof one), 12);
        check(when, board_go(b, 0x0100, 0x0400), 12);
    }
    if (!live) {
        memset(&end, 0xAA, sizeof end);
        before = end;
        check(when, board_step(b, &said), 12);
        check(when, said.number, 12);
        check(when, said.place, 0);
        check(when, board_run(b, 1, &ran), 12);
        check(when, ran.last.number, 12);
        check(when, ran.done, 0);
        check(when, ran.letter, 0);
        check(when, board_ring(b, 8, &said), 12);
        check(when, said.number, 12);
        check(when, board_pc(b, &pc), 12);
        check(when, pc, 7);
        check(when, board_end(b, &end), 12);
        check(when, memcmp(&end, &before, sizeof end), 0);
    }
}

static void worked_tape(void) {
    static const uint8_t vector[] = {0x00, 0x02};
    static const uint8_t program[] = {0x66, 0xA9, 0x34, 0x12, 0x89};
    static const uint8_t handler[] = {0x9E};
    board b = {0};
    board_said said;
    board_ran ran;
    board_read_out end;

    all_out_of_turn("a board that was not made", &b, false, false);
    check("nothing to free", board_free(&b), 12);
    check("made", board_new(&b), 0);
    check("made twice", board_new(&b), 12);
    all_out_of_turn("before go", &b, true, false);

    check("no bytes", board_load(&b, 0x0100, program, 0), 13);
    check("past the end of RAM", board_load(&b, 0x7FFF, program, sizeof program), 13);
    check("the vector", board_load(&b, 0x0008, vector, sizeof vector), 0);
    check("the program", board_load(&b, 0x0100, program, sizeof program), 0);
    check("the handler", board_load(&b, 0x0200, handler, sizeof handler), 0);
    check("go", board_go(&b, 0x0100, 0x0400), 0);
    all_out_of_turn("after go", &b, false, true);

    check("no steps", board_run(&b, 0, &ran), 0);
    check("no steps done", ran.done, 0);
    check("no steps", ran.letter, 'S');
    check("no last answer", ran.last.length, 0);
    check_run("two steps", &b, 2, 2, 'S', 0x0104);
    check("an odd vector", board_ring(&b, 0x0009, &said), 2);
    check("its place", said.place, 0x0104);
    check("a ring", board_ring(&b, 0x0008, &said), 0);
    check("the handler's place", pc_of(&b), 0x0200);
    check("a ring within a visit", board_ring(&b, 0x0008, &said), 3);
    check("its place", said.place, 0x0200);
    check("the handler", board_run(&b, 1, &ran), 0);
    check("the handler returns", ran.letter, 'S');
    check("the handler returns", pc_of(&b), 0x0104);
    check("the visit ended", ran.last.ended, true);
    check("the visit is clean", ran.last.marred, false);
    check("where the RTN stood", ran.last.place, 0x0200);
    check("an RTN has a byte", ran.last.length, 1);
    check_run("the last step", &b, 1, 1, 'S', 0x0105);
    check("the read-out", board_end(&b, &end), 0);
    for (int k = 0; k < 64; k++) {
        long wanted = k == 004 ? 0x05 : k == 005 ? 0x01 : k == 007 ? 0x04 : k == 046 ? 0x35 : k == 047 ? 0x12 : 0x00;
        check("a register", end.registers[k], wanted);
    }
    check("ARP", end.arp, 000);
    check("DRP", end.drp, 046);
    check("E", end.e, 0);
    check("status", end.status, 0x08);
    all_out_of_turn("after the read-out", &b, false, false);
    check("made again without free", board_new(&b), 12);
    check("freed", board_free(&b), 0);
    check("freed twice", board_free(&b), 12);
    all_out_of_turn("after free", &b, false, false);
}

// A program that is refused, told a stain and given back changed.
static void refusals(void) {
    // 0100: R46 is the data, the literal 34 12 is stored to 0010, which is guarded.
    static const uint8_t guarded[] = {0x66, 0xB3, 0x10, 0x00};
    // 0110: an illegal code.
    static const uint8_t illegal[] = {0xD6};
    // 0120: a jump of no distance, and then a byte of 0300 is loaded.
    static const uint8_t reads[] = {0xF0, 0x00, 0xB0, 0x00, 0x03};
    // 0200: the handler stores R46 to 0300, makes DRP another, and returns.
    static const uint8_t handler[] = {0x66, 0xB2, 0x00, 0x03, 0x67, 0x9E};
    static const uint8_t vector[] = {0x00, 0x02};
    board b = {0};
    board_said said;
    board_ran ran;

    check("made", board_new(&b), 0);
    check("loaded", board_load(&b, 0x0100, guarded, sizeof guarded), 0);
    check("loaded", board_load(&b, 0x0110, illegal, sizeof illegal), 0);
    check("loaded", board_load(&b, 0x0120, reads, sizeof reads), 0);
    check("loaded", board_load(&b, 0x0200, handler, sizeof handler), 0);
    check("loaded", board_load(&b, 0x0008, vector, sizeof vector), 0);
    check("go", board_go(&b, 0x0100, 0x0400), 0);
    check("a run that is refused", board_run(&b, 5, &ran), 0);
    check("is R", ran.letter, 'R');
    check("after one step", ran.done, 1);
    check("by a guard", ran.last.number, 6);
    check("at the address", ran.last.detail, 0x0010);
    check("below the split", ran.last.depth, 1);
    check("where it stood", ran.last.place, 0x0101);
    check("again as a step", board_step(&b, &said), 6);
    check("freed while in service", board_free(&b), 0);

    check("made", board_new(&b), 0);
    check("loaded", board_load(&b, 0x0110, illegal, sizeof illegal), 0);
    check("go", board_go(&b, 0x0110, 0x0400), 0);
    check("an illegal code", board_step(&b, &said), 8);
    check("the code", said.detail, 0xD6);
    check("its place", said.place, 0x0110);
    check("freed", board_free(&b), 0);

    check("made", board_new(&b), 0);
    check("loaded", board_load(&b, 0x0120, reads, sizeof reads), 0);
    check("loaded", board_load(&b, 0x0200, handler, sizeof handler), 0);
    check("loaded", board_load(&b, 0x0008, vector, sizeof vector), 0);
    check("go", board_go(&b, 0x0120, 0x0400), 0);
    check("a jump", board_step(&b, &said), 0);
    check("has two bytes", said.length, 2);
    check("tells nothing", said.told, false);
    check("ends no visit", said.ended, false);
    check("a ring", board_ring(&b, 0x0008, &said), 0);
    check("the handler", board_run(&b, 9, &ran), 0);
    check("mars", ran.letter, 'M');
    check("by its fourth step", ran.done, 4);
    check("mars", ran.last.marred, true);
    check("DRP", ran.last.mar, 65);
    check("a read of what the handler stored", board_run(&b, 9, &ran), 0);
    check("is told", ran.letter, 'T');
    check("is told", ran.last.told, true);
    check("its address", ran.last.stain, 0x0300);
    check("freed", board_free(&b), 0);

    check("made", board_new(&b), 0);
    check("go", board_go(&b, 0x9000, 0x0400), 0);
    check("no byte there", board_step(&b, &said), 4);
    check("the address", said.detail, 0x9000);
    check("below the split", said.depth, 1);
    check("freed", board_free(&b), 0);
}

// A read-out whose parts all differ, so that none stands for another.
static void read_out(void) {
    // 0100: ARP is 5, DRP is 2, three times ICE, and BCD.
    static const uint8_t program[] = {0x05, 0x42, 0x9C, 0x9C, 0x9C, 0x99};
    board b = {0};
    board_read_out end;

    check("made", board_new(&b), 0);
    check("loaded", board_load(&b, 0x0100, program, sizeof program), 0);
    check("go", board_go(&b, 0x0100, 0x0400), 0);
    check_run("six steps", &b, 6, 6, 'S', 0x0106);
    check("the read-out", board_end(&b, &end), 0);
    check("R4", end.registers[4], 0x06);
    check("ARP", end.arp, 5);
    check("DRP", end.drp, 2);
    check("E", end.e, 3);
    check("status", end.status, 1);
    check("freed", board_free(&b), 0);
}

// In 64 MiB: a board takes some 40 KiB, so that boards which were not freed would fill it several times.
static void little_memory(void) {
    enum { MANY = 8192 };
    static const uint8_t program[] = {0x89};
    static const uint8_t vector[] = {0x00, 0x01};
    static board boards[MANY];
    const struct rlimit limit = {.rlim_cur = 64 << 20, .rlim_max = 64 << 20};
    board_said said;
    board_ran ran;
    board_read_out end;
    uint16_t pc;
    int made = 0;

    check("a limit", setrlimit(RLIMIT_AS, &limit), 0);
    for (int n = 0; n < MANY && !differ; n++) {
        board b = {0};
        check("made in turn", board_new(&b), 0);
        check("made twice", board_new(&b), 12);
        check("loaded", board_load(&b, 0x0100, program, sizeof program), 0);
        check("loaded", board_load(&b, 0x0008, vector, sizeof vector), 0);
        check("go", board_go(&b, 0x0100, 0x0400), 0);
        check("a step", board_step(&b, &said), 0);
        check("a ring", board_ring(&b, 0x0008, &said), 0);
        check("a run", board_run(&b, 1, &ran), 0);
        check("the program counter", board_pc(&b, &pc), 0);
        if (n % 2 == 0) {
            check("the read-out", board_end(&b, &end), 0);
        }
        check("freed in turn", board_free(&b), 0);
    }
    while (made < MANY && board_new(&boards[made]) == 0) {
        made++;
    }
    check("there is memory for some", made > 100, true);
    check("and not for all", made < MANY, true);
    if (made < MANY) {
        check("for want of memory", board_new(&boards[made]), BOARD_NO_MEMORY);
        check("none was made", board_free(&boards[made]), 12);
    }
    for (int n = 0; n < made; n++) {
        check("freed", board_free(&boards[n]), 0);
    }
}

int main(void) {
    worked_tape();
    refusals();
    read_out();
    little_memory();
    if (differ) {
        return 1;
    }
    puts("the board answers as it should");
    return 0;
}
