/* Audits a script that passes and one that does not, and replays the first. Then sees a fault happen: the worked example of
 * docs/LIBRARY.md. */
#include "hwsq.h"

#include <inttypes.h>
#include <stdio.h>
#include <string.h>

/* Bytes of family 3's code RAM, and of family 2's. */
enum { RAM = 256, RAM_2 = 128 };

static const uint32_t ranges[] = {0x00101600, 0x00101603};

/* Code RAM with a script at its start. */
struct script {
    uint8_t code[RAM];
    uint8_t marks[RAM];
};

/* Columns to be lent for a log. */
struct columns {
    uint64_t clocks[HWSQ_SHOWN_ROWS];
    uint32_t known[HWSQ_SHOWN_ROWS];
    uint32_t values[HWSQ_SHOWN_ROWS];
};

static struct script upload(const uint8_t *bytes, size_t n) {
    struct script s;
    memset(&s, 0, sizeof s);
    memcpy(s.code, bytes, n);
    memset(s.marks, 1, n);
    return s;
}

static void facts(uint8_t family) {
    struct hwsq_facts f = hwsq_family(family);
    printf("family %u refusal %u size %zu slots %zu hangs %d pauses %d entry %zu\n", family, f.refusal, f.size, f.slots,
           f.hangs, f.pauses, f.entry);
}

static uint8_t audit(const char *name, const struct script *s) {
    struct hwsq_verdict v = hwsq_audit(3, s->code, RAM, s->marks, RAM, 0, ranges, 2);
    printf("%s verdict %u place %zu", name, v.verdict, v.place);
    if (v.verdict == HWSQ_DONE) {
        printf(" count %zu writes %zu clocks %" PRIu64, v.count, v.writes, v.clocks);
    }
    printf("\n");
    return v.verdict;
}

static void replay(const char *name, const struct script *s) {
    static const uint64_t clocks[] = {100, 50};
    static const uint32_t known[] = {0, 2};
    static const uint32_t values[] = {0, 0};
    uint32_t writes[HWSQ_ENTRIES] = {0};
    struct hwsq_replayed r = hwsq_replay(3, s->code, RAM, s->marks, RAM, 0, 0, 0, 0, 0, true, clocks, 2, known, 2, values, 2,
                                         writes, HWSQ_ENTRIES);
    printf("%s refusal %u ending %u ip %zu", name, r.refusal, r.ending, r.ip);
    printf(" addr %08" PRIx32 " data %08" PRIx32 " flags %08" PRIx32 " %08" PRIx32, r.addr, r.data, r.flags_0, r.flags_1);
    printf(" row %zu used %" PRIu64 " steps %zu", r.row, r.used, r.steps);
    printf(" waited %" PRIu64 " searched %" PRIu64 " left %" PRIu64 "\n", r.waited, r.searched, r.left);
    for (size_t i = 0; i < r.writes; i++) {
        printf("write %08" PRIx32 " %08" PRIx32 "\n", writes[2 * i], writes[2 * i + 1]);
    }
}

/* The witness of a script on family 2, with so many entries lent in the last column. */
static struct hwsq_shown witness(const struct script *s, struct columns *log, size_t values_len) {
    return hwsq_witness(2, s->code, RAM_2, s->marks, RAM_2, 0, ranges, 2, log->clocks, HWSQ_SHOWN_ROWS, log->known,
                        HWSQ_SHOWN_ROWS, log->values, values_len);
}

static void print_log(const struct hwsq_shown *w, const struct columns *log) {
    printf("verdict %u place %zu rows %zu steps %zu writes %zu", w->verdict, w->place, w->rows, w->steps, w->writes);
    printf(" addr %08" PRIx32 " data %08" PRIx32 "\n", w->addr, w->data);
    for (size_t i = 0; i < w->rows; i++) {
        printf("row %zu clocks %" PRIu64 " known %08" PRIx32 " values %08" PRIx32 "\n", i, log->clocks[i], log->known[i],
               log->values[i]);
    }
}

/* A start: the script uploaded, slot A running at the entry, HWSQ_ENABLE 1. */
static struct hwsq_state start(const struct script *s, uint32_t addr, uint32_t data) {
    struct hwsq_state state = hwsq_fresh(2).state;
    memcpy(state.code, s->code, RAM_2);
    memcpy(state.marks, s->marks, RAM_2);
    state.enable = true;
    state.a.mode = HWSQ_RUNNING;
    state.a.addr = addr;
    state.a.data = data;
    return state;
}

/* Steps a start to the place, and once more; says what that last step wrote. */
static void see(struct hwsq_state state, const struct hwsq_shown *w, const struct columns *log) {
    struct hwsq_stepped at = {0};
    at.state = state;
    for (size_t i = 0; i < w->steps + 1; i++) {
        at = hwsq_step(at.state, 0, log->clocks, w->rows, log->known, w->rows, log->values, w->rows, at.row, at.used);
    }
    if (at.effect == HWSQ_WROTE) {
        printf("wrote %08" PRIx32 " %08" PRIx32 "\n", at.address, at.word);
    }
    printf("memory %s\n", hwsq_paused(at.state) ? "paused" : "free");
}

/* An entry too few in one column. */
static void refuse(const struct script *s) {
    struct columns lent;
    struct columns before;
    memset(&lent, 0xee, sizeof lent);
    memset(&before, 0xee, sizeof before);
    struct hwsq_shown w = witness(s, &lent, HWSQ_SHOWN_ROWS - 1);
    bool same = memcmp(&lent, &before, sizeof lent) == 0;
    printf("refused %u, %s\n", w.refusal, same ? "nothing written" : "but written to");
}

int main(void) {
    /* pause, wait for event 1 to be 0, write a register, wait 32 clocks, let go, exit */
    static const uint8_t good[] = {0xb0, 0x5f, 1, 0, 0xe2, 0x78, 0x56, 0x34, 0x12, 0xe0, 0x00, 0x16, 0x10, 0x00, 0x01, 0xd0, 0x7f};
    /* the same without letting go */
    static const uint8_t paused[] = {0xb0, 0x5f, 1, 0, 0xe2, 0x78, 0x56, 0x34, 0x12, 0xe0, 0x00, 0x16, 0x10, 0x00, 0x01, 0x7f};
    facts(3);
    facts(0);
    struct script passing = upload(good, sizeof good);
    struct script failing = upload(paused, sizeof paused);
    if (audit("passing", &passing) == HWSQ_DONE) {
        replay("passing", &passing);
    }
    audit("failing", &failing);

    /* wait for event 1, then poke with half an address */
    static const uint8_t half[] = {0x5f, 1, 1, 0xe2, 1, 0, 0, 0, 0x40, 0x00, 0x16, 0x7f};
    struct script poking = upload(half, sizeof half);
    struct columns log;
    struct hwsq_shown shown = witness(&poking, &log, HWSQ_SHOWN_ROWS);
    print_log(&shown, &log);
    see(start(&poking, 0, 0), &shown, &log);
    see(start(&poking, shown.addr, shown.data), &shown, &log);
    refuse(&poking);
    return 0;
}
