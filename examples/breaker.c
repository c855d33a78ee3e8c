/* The breaker falls, over include/nizgulk.h: a unit saves its lots to a file, round behind round, and loses its current
 * within one of them; what was saved whole before is recovered from what is left of the file, and the work goes on. It
 * prints what happens, and ends with status 1 where something is not as it is due. `tools/example-c breaker` builds and
 * runs it. */
#include "nizgulk.h"

#include <stdio.h>
#include <stdlib.h>
#include <string.h>

/* The partitions (01: lots) of this day. A row is a weight in milligrams. */
enum { BRASS = 0, SCRAP = 1 };
static const char *const names[] = {"brass", "scrap"};

/* The store: two areas, and the books in the newest reply. */
static struct nizgulk_entry entries[NIZGULK_ENTRIES_LENT];
static uint64_t rows[NIZGULK_ROWS_LENT];
static struct nizgulk_reply reply;

/* Two files as the disk has them, the one in use, and how many bytes it has. Each round (a checkpoint) goes behind the
 * last. */
static uint8_t files[2][3 * NIZGULK_CHECKPOINT_MAX];
static uint8_t *file = files[0];
static size_t length;

#define LENT entries, NIZGULK_ENTRIES_LENT, rows, NIZGULK_ROWS_LENT

static void due(const char *what, int holds)
{
    if (!holds) {
        printf("NOT AS DUE: %s\n", what);
        exit(1);
    }
}

/* The reply's value, where its call was accepted. */
static uint64_t accepted(const char *what)
{
    if (reply.number != NIZGULK_ACCEPTED) {
        printf("refused by %d: ", (int)reply.number);
        due(what, 0);
    }
    return reply.value;
}

static uint64_t begin(void)
{
    reply = nizgulk_begin(reply.state, LENT);
    return accepted("a load begins");
}

static void append(uint64_t txn, uint64_t p, uint64_t row)
{
    reply = nizgulk_append(reply.state, LENT, &row, 1, txn, p);
    accepted("a row is appended");
    printf("  load %d brings %d to %s\n", (int)txn, (int)row, names[p]);
}

static void commit(uint64_t txn)
{
    reply = nizgulk_commit(reply.state, LENT, txn);
    printf("  load %d is committed; committed up to %d\n", (int)txn, (int)accepted("a load commits"));
}

/* Saves what is committed, behind what the file has, and answers how many bytes that are. */
static size_t save(void)
{
    uint64_t lce = reply.state.clock.lce;
    struct nizgulk_seen seen = nizgulk_save(reply.state, LENT, file + length, sizeof files[0] - length, lce);
    due("a save is accepted", seen.number == NIZGULK_ACCEPTED);
    printf("  the round of epoch %d is saved: %d bytes from byte %d on\n", (int)lce, (int)seen.value, (int)length);
    length += seen.value;
    return seen.value;
}

/* All that was in memory is lost, and the first `left` bytes of the file are what there is. */
static void recover(size_t left)
{
    memset(&reply, 0x5a, sizeof reply);
    memset(entries, 0x5a, sizeof entries);
    memset(rows, 0x5a, sizeof rows);
    reply = nizgulk_recover(reply.state, LENT, file, left);
    accepted("a recovery");
}

/* Whether a page that opens now is shown these rows of a partition. A 0 ends the list. */
static int shown(uint64_t p, const uint64_t *row)
{
    uint8_t bitmap[NIZGULK_BITMAP_MAX];
    const uint64_t *area = rows + NIZGULK_ROWS_MAX * reply.state.partitions.at[p].area;
    struct nizgulk_seen seen;
    uint64_t ticket, i;
    reply = nizgulk_begin_ro(reply.state, LENT, 0);
    ticket = accepted("a page opens");
    seen = nizgulk_scan_ro(reply.state, LENT, bitmap, sizeof bitmap, ticket, p);
    due("a scan is accepted", seen.number == NIZGULK_ACCEPTED);
    reply = nizgulk_end_ro(reply.state, LENT, ticket);
    accepted("a page closes");
    for (i = 0; i < seen.value; i++) {
        if (((bitmap[i / 8] >> (i % 8)) & 1) && area[i] != *row++) {
            return 0;
        }
    }
    return *row == 0;
}

int main(void)
{
    /* what is shown of brass and of scrap when nothing was saved, and after each round; a 0 ends the list */
    static const uint64_t brass[4][5] = {{0}, {410, 395, 0}, {410, 395, 388, 0}, {410, 395, 388, 402, 0}};
    static const uint64_t scrap[4][2] = {{0}, {55, 0}, {80, 0}, {80, 0}};
    size_t end[4] = {0, 0, 0, 0}, cut;
    uint64_t first, second, third;
    int round;

    reply = nizgulk_create(reply.state, LENT, NIZGULK_FIRST_EPOCH);
    accepted("making new");
    printf("The store is made new\n");
    first = begin();
    append(first, BRASS, 410);
    append(first, BRASS, 395);
    append(first, SCRAP, 55);
    commit(first);
    end[1] = end[0] + save();

    printf("The scrap goes to the furnace, while a third load is open\n");
    second = begin();
    third = begin();
    append(second, BRASS, 388);
    append(third, BRASS, 402);
    reply = nizgulk_clear(reply.state, LENT, second, SCRAP);
    accepted("a clearing");
    append(second, SCRAP, 80);
    commit(second);
    end[2] = end[1] + save();
    commit(third);
    end[3] = end[2] + save();
    due("a round without rows has 24 bytes, and 8 more for each row", end[2] - end[1] == NIZGULK_CHECKPOINT_BYTES(4));

    printf("The breaker falls while the last round is written: %d of its %d bytes are in the file\n", 40,
           (int)(end[3] - end[2]));
    recover(end[2] + 40);
    printf("  the round of epoch %d is recovered, and load %d is not in it\n", (int)reply.state.clock.lce, (int)third);
    due("the books are at the round's epoch", reply.state.clock.lce == second && reply.state.clock.lse == second);
    due("all brass of that round", shown(BRASS, brass[2]));
    due("and all scrap", shown(SCRAP, scrap[2]));
    due("the books weigh it", reply.state.totals[BRASS] == 410 + 395 + 388 && reply.state.totals[SCRAP] == 80);

    printf("It may fall after any byte: the last whole round is recovered\n");
    for (cut = 0, round = 0; cut <= length; cut++) {
        if (round < 3 && cut == end[round + 1]) {
            round++;
        }
        recover(cut);
        due("the epoch of the last whole round, or 0", reply.state.clock.lce == (uint64_t)round);
        due("the brass of the last whole round", shown(BRASS, brass[round]));
        due("the scrap of the last whole round", shown(SCRAP, scrap[round]));
    }
    printf("  %d cuts, each as it is due\n", (int)cut);

    printf("A file that no save wrote is refused, and leaves the store as it is\n");
    file[end[1] + 1] = 2;
    reply = nizgulk_recover(reply.state, LENT, file, length);
    due("the third epoch falls: it is behind one of 514", reply.number == NIZGULK_CORRUPT);
    due("the store shows what it showed", shown(BRASS, brass[3]) && shown(SCRAP, scrap[3]));
    file[end[1] + 1] = 0;

    printf("The work goes on from the second round, in a file of its own\n");
    recover(end[3] - 1);
    file = files[1];
    length = 0;
    due("what was recovered takes as many bytes", save() == end[2] - end[1]);
    due("and the same ones", memcmp(file, files[0] + end[1], length) == 0);
    third = begin();
    due("the next load follows the round's epoch", third == second + 1);
    append(third, BRASS, 402);
    commit(third);
    save();
    recover(length);
    due("all of it is recovered", shown(BRASS, brass[3]) && shown(SCRAP, scrap[3]));
    printf("All is as it was due\n");
    return 0;
}
