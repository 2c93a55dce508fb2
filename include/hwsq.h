/* Auditing, replaying and stepping HWSQ scripts: the proved calls of the crates capi_*, for C99 and C++.
 *
 * Link with the static library that `bindings/build` writes (target/staticlib/libhwsq.a, for x86-64 Linux).
 *
 * All calls
 * - No call keeps or frees a pointer, allocates, or has state of its own; calls may run on several threads at once.
 * - A pointer is followed by the number of elements that it points to. It is not null, also where that number is 0, and
 *   lies as its type must. What is lent for writing (`out`, `writes`, columns) overlaps nothing else that the call is given.
 * - Each call takes every other input: what cannot be done is refused by a number. `refusal` (in a verdict: `verdict`) is 0
 *   where the call was done.
 * - A refused call leaves what it was lent as it was. In its reply the other members are 0, but for those that are named
 *   with the reply.
 *
 * Families: 1 (NV17:NV20, NV25:NV41), 2 (NV41:NV50), 3 (NV50:NV92), 4 (NV92:NVC0), with a code RAM of 64, 128, 256 and 512
 * bytes.
 */
#ifndef HWSQ_H
#define HWSQ_H

#include <stdbool.h>
#include <stddef.h>
#include <stdint.h>

#ifdef __cplusplus
extern "C" {
#endif

/* Refusals. Of the verdicts of hwsq_audit, 1 to 8 are faults of the script: see there. */
enum hwsq_refusal {
    HWSQ_DONE = 0,
    HWSQ_NO_BYTE = 1,          /* reader: no byte, or missing operands */
    HWSQ_UNKNOWN_OPCODE = 3,   /* reader */
    HWSQ_BAD_INPUT = 9,        /* unknown family; of a script: see hwsq_audit */
    HWSQ_NOT_ON_FAMILY = 11,   /* writer: no such instruction on the family, or no such kind at all */
    HWSQ_BAD_OPERAND = 12,     /* writer: an operand that the instruction has no room for */
    HWSQ_FEW_BYTES = 13,       /* writer: fewer bytes lent than needed */
    HWSQ_FEW_ENTRIES = 14,     /* replay: fewer than 340 entries lent; witness: fewer than 171 in a column */
    HWSQ_BAD_LOG = 15,         /* replay, step: no log, or a place outside it */
    HWSQ_BAD_GATE = 16,        /* sample: gate or calibration not fit, or no such gate */
    HWSQ_BAD_REGISTER = 27,    /* host: no register of the family that can be written, or read */
    HWSQ_SLOT_EXECUTES = 28    /* host: a slot executes, and this is no abort */
};

/* ---- families ---- */

struct hwsq_facts {
    uint8_t refusal;
    bool hangs;   /* an unknown opcode hangs the slot; elsewhere it is a nop of one byte */
    bool pauses;  /* flag 16 pauses memory */
    size_t size;  /* bytes of code RAM */
    size_t slots; /* 2 for A and B, 1 for A alone */
    size_t entry; /* the highest entry point */
};

/* What differs from one family to the next. Refuses with 9. */
struct hwsq_facts hwsq_family(uint8_t family);

/* ---- reader and writer ---- */

/* Kinds of instruction, with their first and second operand. */
enum hwsq_kind {
    HWSQ_NO_KIND = 0,
    HWSQ_WAIT = 1,    /* length 0 to 3, shift 0 to 15: (length << 2 * shift) * 32 clocks */
    HWSQ_ADDRLO = 2,  /* low 16 bits of ADDR */
    HWSQ_DATALO = 3,  /* low 16 bits of DATA */
    HWSQ_EWAIT = 4,   /* event byte, value byte */
    HWSQ_EXIT = 5,    /* none */
    HWSQ_UNSET = 6,   /* flag 0 to 31 */
    HWSQ_SET1 = 7,    /* flag 0 to 31 */
    HWSQ_SET0 = 8,    /* flag 0 to 31 */
    HWSQ_ADDR = 9,    /* ADDR */
    HWSQ_DATA = 10    /* DATA */
};

struct hwsq_decoded {
    uint8_t refusal;
    uint8_t kind;
    uint32_t first;  /* an operand that the instruction lacks is 0 */
    uint8_t second;
    size_t length; /* bytes that the instruction takes */
};

/* The instruction at the start of bytes. Refuses, in this order: 9 family, 1 no byte, 3 unknown opcode, 1 missing
 * operands. */
struct hwsq_decoded hwsq_decode(uint8_t family, const uint8_t *bytes, size_t bytes_len);

struct hwsq_encoded {
    uint8_t refusal;
    size_t length; /* bytes written */
};

/* Writes the one spelling of an instruction at the start of out, whose other bytes stay as lent. An operand that the
 * instruction lacks is not looked at. Refuses, in this order: 9 family; 11 an instruction that the family lacks, also a
 * kind that is none of the above; 12 a length above 3, a shift above 15, a flag above 31, an event above 255 or a half
 * word above 65535; 13 fewer bytes lent than needed. Refused, it writes nothing. */
struct hwsq_encoded hwsq_encode(uint8_t family, uint8_t kind, uint32_t first, uint8_t second, uint8_t *out,
                                size_t out_len);

/* ---- auditor ---- */

struct hwsq_verdict {
    uint8_t verdict; /* 0 for a pass, or the number of the first fault */
    size_t place;    /* of a pass where the script exits, of a fault its opcode, of 9 it is 0 */
    size_t count;    /* of a pass, else 0: instructions, exit included */
    size_t writes;   /* of a pass, else 0: register writes */
    uint64_t clocks; /* of a pass, else 0: clocks of the waits */
};

/* The verdict on a script: code RAM, marks (1 for each byte that was uploaded, else 0), entry point, and the allowed
 * ranges, first and last address of each one after the other, both included.
 * 1 a byte past the code RAM; 2 a byte never uploaded; 3 an unknown opcode; 4 addrlo with no addr before it; 5 a poke with a
 * half of DATA not set; 6 a poke outside every range; 7 an ewait that nothing releases; 8 an exit with memory paused;
 * 9, tested first: unknown family, code or marks not of its size, a mark above 1, an entry above 255 (511 on family 4),
 * over 64 ranges, a first without its last or above it. */
struct hwsq_verdict hwsq_audit(uint8_t family, const uint8_t *code, size_t code_len, const uint8_t *marks,
                               size_t marks_len, size_t entry, const uint32_t *ranges, size_t ranges_len);

/* The entries that hwsq_witness asks for in each column: one row at the entry, and one for each ewait of three bytes. */
#define HWSQ_SHOWN_ROWS 171

struct hwsq_shown {
    uint8_t refusal;
    uint8_t verdict; /* this, place, count and clocks as in hwsq_verdict; refused: the refusal, since 0 would be a pass */
    uint32_t addr;   /* ADDR of the second start: 65536 for verdict 4, else 0 */
    uint32_t data;   /* its DATA: 65536 for verdict 5, else 0. The first start has 0 in both */
    size_t place;
    size_t count;
    uint64_t clocks;
    size_t rows;   /* entries 0 to rows - 1 of each column are the log */
    size_t steps;  /* so many steps bring every start to place; the next one shows the fault, or is exit's */
    size_t writes; /* register writes made by these steps */
};

/* The verdict on a script, and a log that shows it (docs/LIBRARY.md): under that log so many steps bring every start to the
 * place, in whichever slot, and the next step shows the fault. Of 4 and 5 that step writes at an address, or a word, with
 * the high half that the start's ADDR, or DATA, had, so that the first and the second start write differently. A start is a
 * state of the family with the bytes marked 1 uploaded and no others, one slot executing with IP at the entry, any other slot
 * idle, HWSQ_ENABLE 1 and memory not paused. The log is one that hwsq_replay and hwsq_step take; the entries past it stay as
 * lent. Refuses, in this order: 9 as hwsq_audit does; 14 fewer than 171 entries lent in a column. Refused, it writes
 * nothing. */
struct hwsq_shown hwsq_witness(uint8_t family, const uint8_t *code, size_t code_len, const uint8_t *marks,
                               size_t marks_len, size_t entry, const uint32_t *ranges, size_t ranges_len,
                               uint64_t *clocks, size_t clocks_len, uint32_t *known, size_t known_len, uint32_t *values,
                               size_t values_len);

/* ---- replay ---- */

/* How a run ended. */
enum hwsq_ending {
    HWSQ_NO_ENDING = 0,
    HWSQ_ENDED_EXIT = 1,
    HWSQ_ENDED_LOG = 2,  /* in a wait, the log used up */
    HWSQ_ENDED_POKE = 3, /* at a poke with HWSQ_ENABLE 0 */
    HWSQ_ENDED_HANG = 4, /* after an unknown opcode */
    HWSQ_ENDED_STOP = 5  /* at a byte past the code RAM or never uploaded */
};

/* The entries that hwsq_replay asks for: two for each write, and no script makes more than 170. */
#define HWSQ_ENTRIES 340

struct hwsq_replayed {
    uint8_t refusal;
    uint8_t ending;
    uint32_t addr; /* ADDR and DATA at the end */
    uint32_t data;
    uint32_t flags_0; /* FLAGS_0 and FLAGS_1 at the end */
    uint32_t flags_1;
    size_t ip;
    size_t row; /* the place in the log: a row, or the row count, and clocks used of it */
    uint64_t used;
    size_t steps;      /* instructions fetched */
    size_t writes;     /* writes made: entries 0 to 2 * writes - 1 hold address and data of each, in order */
    uint64_t waited;   /* clocks spent in waits */
    uint64_t searched; /* clocks that ewaits passed by */
    uint64_t left;     /* clocks left */
};

/* Runs a script from its entry against a log, given as three columns of one length: clocks of each row, its known mask and
 * its values. ADDR, DATA, FLAGS_0, FLAGS_1 and HWSQ_ENABLE are those at the start. The entries of writes that no write used
 * stay as lent. Refuses, in this order: 9 as hwsq_audit does, but for ranges; 14 fewer than 340 entries lent; 15 over 1,024
 * rows, columns of unequal length, or a row's clocks not 1 to 2^48. Refused, it writes nothing. */
struct hwsq_replayed hwsq_replay(uint8_t family, const uint8_t *code, size_t code_len, const uint8_t *marks,
                                 size_t marks_len, size_t entry, uint32_t addr, uint32_t data, uint32_t flags_0,
                                 uint32_t flags_1, bool enable, const uint64_t *clocks, size_t clocks_len,
                                 const uint32_t *known, size_t known_len, const uint32_t *values, size_t values_len,
                                 uint32_t *writes, size_t writes_len);

/* ---- probe gates ---- */

enum hwsq_gate { HWSQ_NORMAL = 0, HWSQ_INVERTED = 1, HWSQ_DEAD = 2 };

struct hwsq_sampled {
    uint8_t refusal;
    uint8_t reading; /* 0, 1, or 2 for none; refused: 2 */
    uint32_t volts;  /* bit pattern of a float; refused: 0x7fc00000, a NaN */
};

/* What a raw value says through a gate. All but gate are bit patterns of 32-bit floats; a dead gate's levels are not looked
 * at. Refuses with 16: gain, offset or a level is not finite, low is not below high, or gate is none of the above. */
struct hwsq_sampled hwsq_sample(uint8_t gate, uint32_t low, uint32_t high, uint32_t gain, uint32_t offset, uint32_t raw);

/* ---- the machine, step by step ---- */

enum hwsq_mode {
    HWSQ_IDLE = 0,
    HWSQ_RUNNING = 1,
    HWSQ_WAITING = 2, /* in a wait that the log's end left unfinished */
    HWSQ_BLOCKED = 3, /* at a poke with HWSQ_ENABLE 0 */
    HWSQ_HUNG = 4     /* after an unknown opcode; numbers above 4 are taken for this one, and come back as 4 */
};

struct hwsq_slot {
    uint8_t mode;
    uint32_t addr;
    uint32_t data;
    size_t ip;
};

/* The whole state, which goes in by value and comes back by value. */
struct hwsq_state {
    uint8_t family;
    bool enable;        /* HWSQ_ENABLE */
    bool override_mode; /* override mode */
    uint32_t values;    /* the flags' values, bit f for flag f, and their enables */
    uint32_t enables;
    uint32_t entries; /* ENTRY_POINT and ENTRY_POINT_HIGH */
    uint32_t entries_high;
    struct hwsq_slot a;
    struct hwsq_slot b;
    uint8_t code[512];
    uint8_t marks[512]; /* 1 where the byte was uploaded */
};

struct hwsq_access {
    uint8_t refusal;
    struct hwsq_state state; /* refused: the state as handed in */
};

/* A state before the host touched it: every register 0, nothing uploaded, both slots idle. Refuses with 9; the state is then
 * such a state of the number that names no family. */
struct hwsq_access hwsq_fresh(uint8_t family);

/* The state after the host wrote a word at a register's address. Refuses, in this order: 9, 27, 28. */
struct hwsq_access hwsq_write(struct hwsq_state state, uint32_t address, uint32_t word);

struct hwsq_reading {
    uint8_t refusal;
    uint32_t word;
};

/* The word that the host reads at a register's address. Refuses, in this order: 9, 27. */
struct hwsq_reading hwsq_read(struct hwsq_state state, uint32_t address);

/* What a step did. */
enum hwsq_effect {
    HWSQ_NOTHING = 0, /* the slot is idle, waiting, blocked or hung, or the family lacks it; or refused */
    HWSQ_STOPPED = 1, /* why: 1 a byte past the code RAM, 2 a byte never uploaded */
    HWSQ_UNKNOWN = 2, /* an unknown opcode */
    HWSQ_FETCHED = 3, /* an instruction that wrote nothing */
    HWSQ_WROTE = 4    /* an instruction that wrote word at address */
};

struct hwsq_stepped {
    uint8_t refusal;
    uint8_t effect;
    uint8_t why; /* of a stop, else 0 */
    uint32_t address; /* of a write, else 0 */
    uint32_t word;
    size_t row; /* the place in the log; refused: the place as handed in */
    uint64_t used;
    uint64_t waited;   /* clocks that this step spent in a wait */
    uint64_t searched; /* clocks that this step passed by in an ewait */
    struct hwsq_state state; /* refused: the state as handed in */
};

/* One step of slot A (slot 0) or B (any other number) from a place in a log: a row and how many of its clocks are used.
 * Refuses, in this order: 9 family; 15 no log, or a place outside it. */
struct hwsq_stepped hwsq_step(struct hwsq_state state, uint8_t slot, const uint64_t *clocks, size_t clocks_len,
                              const uint32_t *known, size_t known_len, const uint32_t *values, size_t values_len,
                              size_t row, uint64_t used);

/* Whether memory is paused: flag 16 has its enable and its value set, on a family where it pauses memory. */
bool hwsq_paused(struct hwsq_state state);

/* ---- report ---- */

/* The bytes that hwsq_report asks for; every report fits. */
#define HWSQ_REPORT_SIZE 65536

/* Writes the report on a job (docs/FORMAT.md) at the start of out and says how many bytes it takes; the other bytes stay as
 * lent. A job that cannot be read has the one line `refused N at OFFSET` for its report. */
size_t hwsq_report(const uint8_t *job, size_t job_len, uint8_t out[HWSQ_REPORT_SIZE]);

#ifdef __cplusplus
}
#endif

#endif
