/* The layout that include/nizgulk.h states. Asserted where this is compiled, as C99 or as C++: every size, place and
 * width, in bytes. Checked where it is run, against the library: a history that leaves another number in almost every
 * word of the books, compared word by word with books written here by the names of their fields; that the library reads
 * each of these words; every limit from both sides; every refusal; what a load is shown that clears; the totals, and
 * which bits of the rows they hold the store to; what a save writes, byte by byte, and what a recovery makes of these
 * bytes, cut after each of them. It ends with status 1 where something differs. */
#include "nizgulk.h"

#include <stdio.h>
#include <string.h>

/* An array of -1 elements is an error; one of 1 may be declared again and again. */
#define FACT(fact) extern char layout_fact[(fact) ? 1 : -1]
#define SIZE(type, bytes)                                                                                              \
    struct aligned_##type {                                                                                            \
        char before;                                                                                                   \
        struct type it;                                                                                                \
    };                                                                                                                 \
    FACT(sizeof(struct type) == (bytes) && offsetof(struct aligned_##type, it) == 8)
#define FIELD(type, field, place, bytes)                                                                               \
    FACT(offsetof(struct type, field) == (place) && sizeof(((struct type *)0)->field) == (bytes))

SIZE(nizgulk_clock, 24);
FIELD(nizgulk_clock, ec, 0, 8);
FIELD(nizgulk_clock, lce, 8, 8);
FIELD(nizgulk_clock, lse, 16, 8);

SIZE(nizgulk_rw_txn, 24);
FIELD(nizgulk_rw_txn, epoch, 0, 8);
FIELD(nizgulk_rw_txn, waiting, 8, 8);
FIELD(nizgulk_rw_txn, deps, 16, 8);

SIZE(nizgulk_rw_txns, 776);
FIELD(nizgulk_rw_txns, at, 0, 32 * 24);
FIELD(nizgulk_rw_txns, count, 768, 8);

SIZE(nizgulk_ro_txn, 16);
FIELD(nizgulk_ro_txn, ticket, 0, 8);
FIELD(nizgulk_ro_txn, epoch, 8, 8);

SIZE(nizgulk_ro_txns, 528);
FIELD(nizgulk_ro_txns, at, 0, 32 * 16);
FIELD(nizgulk_ro_txns, count, 512, 8);
FIELD(nizgulk_ro_txns, next, 520, 8);

SIZE(nizgulk_partition, 24);
FIELD(nizgulk_partition, area, 0, 8);
FIELD(nizgulk_partition, rows, 8, 8);
FIELD(nizgulk_partition, entries, 16, 8);

SIZE(nizgulk_partitions, 200);
FIELD(nizgulk_partitions, at, 0, 8 * 24);
FIELD(nizgulk_partitions, spare, 192, 8);

SIZE(nizgulk_state, 9528);
FIELD(nizgulk_state, clock, 0, 24);
FIELD(nizgulk_state, writers, 24, 776);
FIELD(nizgulk_state, deps, 800, 32 * 31 * 8);
FIELD(nizgulk_state, readers, 8736, 528);
FIELD(nizgulk_state, partitions, 9264, 200);
FIELD(nizgulk_state, totals, 9464, 8 * 8);

SIZE(nizgulk_entry, 24);
FIELD(nizgulk_entry, epoch, 0, 8);
FIELD(nizgulk_entry, end, 8, 8);
FIELD(nizgulk_entry, mark, 16, 8);

SIZE(nizgulk_reply, 9568);
FIELD(nizgulk_reply, state, 0, 9528);
FIELD(nizgulk_reply, number, 9528, 8);
FIELD(nizgulk_reply, value, 9536, 8);
FIELD(nizgulk_reply, second, 9544, 8);
FIELD(nizgulk_reply, from, 9552, 8);
FIELD(nizgulk_reply, count, 9560, 8);

SIZE(nizgulk_seen, 24);
FIELD(nizgulk_seen, number, 0, 8);
FIELD(nizgulk_seen, value, 8, 8);
FIELD(nizgulk_seen, second, 16, 8);

FACT(NIZGULK_ROWS_LENT == 4608 && NIZGULK_ENTRIES_LENT == 576 && NIZGULK_BITMAP_MAX == 64);
FACT(NIZGULK_CHECKPOINT_BYTES(0) == 24 && NIZGULK_CHECKPOINT_MAX == 32792);

/* The store, with an element more than is lent, and what it is to be. */
static struct nizgulk_entry entries[NIZGULK_ENTRIES_LENT + 1], want_entries[NIZGULK_ENTRIES_LENT + 1];
static uint64_t rows[NIZGULK_ROWS_LENT + 1], want_rows[NIZGULK_ROWS_LENT + 1];
static struct nizgulk_reply reply;
static struct nizgulk_state want, before;
static uint64_t weight[NIZGULK_PARTITIONS_MAX]; /* the low 32 bits of what write_to has appended, added up */
static int checks, failures;

#define LENT entries, NIZGULK_ENTRIES_LENT, rows, NIZGULK_ROWS_LENT

static void is(const char *what, uint64_t got, uint64_t due)
{
    checks++;
    if (got != due) {
        failures++;
        printf("%s is %llu, and not %llu\n", what, (unsigned long long)got, (unsigned long long)due);
    }
}

/* The reply's number and values; a refusal has left the books. */
static void told_both(const char *what, uint64_t number, uint64_t value, uint64_t second)
{
    is(what, reply.number, number);
    is(what, reply.value, value);
    is(what, reply.second, second);
    if (number != NIZGULK_ACCEPTED) {
        is(what, memcmp(&reply.state, &before, sizeof before) != 0, 0);
        is(what, reply.from + reply.count, 0);
    }
    before = reply.state;
}

/* The same where no second value is due. */
static void told(const char *what, uint64_t number, uint64_t value)
{
    told_both(what, number, value, 0);
}

/* All words that differ, at most a few of them named. */
static void same(const char *what, const void *got, const void *due, size_t bytes)
{
    size_t word, shown = 0;
    for (word = 0; word < bytes / 8; word++) {
        uint64_t a, b;
        memcpy(&a, (const char *)got + 8 * word, 8);
        memcpy(&b, (const char *)due + 8 * word, 8);
        checks++;
        if (a != b && shown++ < 4) {
            printf("%s, byte %lu: %llu, and not %llu\n", what, (unsigned long)(8 * word), (unsigned long long)a,
                   (unsigned long long)b);
        }
    }
    failures += shown != 0;
}

/* Appends `count` rows, or clears where there are none, and writes down what that is to leave. */
static void write_to(size_t p, uint64_t txn, size_t count)
{
    struct nizgulk_partition *lot = &want.partitions.at[p];
    struct nizgulk_entry *entry = &want_entries[NIZGULK_ENTRIES_MAX * lot->area + lot->entries];
    uint64_t batch[NIZGULK_ROWS_MAX];
    size_t i;
    for (i = 0; i < count; i++) {
        batch[i] = (txn << 48) + 1000000 * txn + 1000 * p + lot->rows + i;
        weight[p] += 1000000 * txn + 1000 * p + lot->rows + i;
        want_rows[NIZGULK_ROWS_MAX * lot->area + lot->rows + i] = batch[i];
    }
    lot->rows += count;
    lot->entries += 1;
    entry->epoch = txn;
    entry->end = lot->rows;
    entry->mark = count == 0;
    if (count == 0) {
        reply = nizgulk_clear(reply.state, LENT, txn, p);
        told("clear", NIZGULK_ACCEPTED, lot->entries);
    } else {
        reply = nizgulk_append(reply.state, LENT, batch, count, txn, p);
        told("append", NIZGULK_ACCEPTED, lot->rows);
    }
}

static void all_same(const char *what)
{
    printf("%s\n", what);
    same("books", &reply.state, &want, sizeof want);
    same("entries", entries, want_entries, sizeof entries);
    same("rows", rows, want_rows, sizeof rows);
}

/* 32 loads from 1036 on, of which 1041 waits; 32 pages, tickets 4 to 35 at the epochs 1004 to 1035. Each total is of
 * what the loads up to 1003 have brought. */
static void history(void)
{
    uint64_t i, t, p;
    reply = nizgulk_create(want, LENT, 1001);
    before = reply.state;
    told("create", NIZGULK_ACCEPTED, 0);
    for (p = 0; p < NIZGULK_PARTITIONS_MAX; p++) {
        want.partitions.at[p].area = p;
    }
    for (t = 1; t <= 35; t++) {
        reply = nizgulk_begin(reply.state, LENT);
        told("begin", NIZGULK_ACCEPTED, 1000 + t);
        if (t <= 2) {
            write_to(2, 1000 + t, 4 - t);
        }
        for (p = 0; p < NIZGULK_PARTITIONS_MAX; p++) {
            if (t == 3 && p != 2) {
                write_to(p, 1003, 1);
            }
        }
        reply = nizgulk_commit(reply.state, LENT, 1000 + t);
        told("commit", NIZGULK_ACCEPTED, 1000 + t);
        if (t > NIZGULK_READERS_MAX) {
            reply = nizgulk_end_ro(reply.state, LENT, t - NIZGULK_READERS_MAX);
            told("end_ro", NIZGULK_ACCEPTED, NIZGULK_READERS_MAX - 1);
        }
        reply = nizgulk_begin_ro(reply.state, LENT, 0);
        told("begin_ro", NIZGULK_ACCEPTED, t);
    }
    memcpy(want.totals, weight, sizeof weight);
    reply = nizgulk_advance_lse(reply.state, LENT, 0);
    told("advance_lse", NIZGULK_ACCEPTED, 1004);

    /* the five rows of partition 2 go to area 8, and get the epoch 1004 */
    reply = nizgulk_purge(reply.state, LENT, 2);
    told("purge", NIZGULK_ACCEPTED, 1);
    is("the part's place", reply.from, 8 * NIZGULK_ROWS_MAX);
    is("the part's rows", reply.count, 5);
    memcpy(&want_rows[8 * NIZGULK_ROWS_MAX], &want_rows[2 * NIZGULK_ROWS_MAX], 5 * sizeof *want_rows);
    want_entries[8 * NIZGULK_ENTRIES_MAX].epoch = 1004;
    want_entries[8 * NIZGULK_ENTRIES_MAX].end = 5;
    want_entries[8 * NIZGULK_ENTRIES_MAX].mark = 0;
    want.partitions.at[2].area = 8;
    want.partitions.at[2].entries = 1;
    want.partitions.spare = 2;

    for (i = 0; i < NIZGULK_WRITERS_MAX; i++) {
        reply = nizgulk_begin(reply.state, LENT);
        told("begin", NIZGULK_ACCEPTED, 1036 + i);
        want.writers.at[i].epoch = 1036 + i;
        want.writers.at[i].deps = i;
        for (t = 0; t < i; t++) {
            want.deps[NIZGULK_DEPS_MAX * i + t] = 1036 + t;
        }
    }
    for (p = 0; p < NIZGULK_PARTITIONS_MAX; p++) {
        for (i = 0; i <= p; i++) {
            write_to(p, 1036 + (i + p) % 7, p + 2);
        }
    }
    write_to(6, 1050, 0);
    reply = nizgulk_commit(reply.state, LENT, 1041);
    told_both("commit above LCE", NIZGULK_ACCEPTED, 1035, 1036);
    want.writers.at[5].waiting = 1;
    want.writers.at[5].deps = 0;
    memset(&want.deps[NIZGULK_DEPS_MAX * 5], 0, 5 * sizeof *want.deps);

    want.clock.ec = 1068;
    want.clock.lce = 1035;
    want.clock.lse = 1004;
    want.writers.count = NIZGULK_WRITERS_MAX;
    for (i = 0; i < NIZGULK_READERS_MAX; i++) {
        want.readers.at[i].ticket = 4 + i;
        want.readers.at[i].epoch = 1004 + i;
    }
    want.readers.count = NIZGULK_READERS_MAX;
    want.readers.next = 36;
}

/* No word of the books may be all ones: each is read, and by the call that is handed it. */
static void every_word_is_read(void)
{
    struct nizgulk_state spoilt;
    const uint64_t ones = UINT64_MAX;
    size_t word;
    for (word = 0; word < sizeof spoilt / 8; word++) {
        spoilt = want;
        memcpy((char *)&spoilt + 8 * word, &ones, 8);
        reply = nizgulk_advance_lse(spoilt, LENT, 0);
        is("the number of spoilt books", reply.number, NIZGULK_UNSOUND);
        is("a difference of refused books", memcmp(&reply.state, &spoilt, sizeof spoilt) != 0, 0);
    }
    reply.state = before = want;
}

static void scans(void)
{
    const uint8_t of_page[4] = {0x1f, 0, 0, 0xa5}, of_load[4] = {0x1f, 0x1e, 0, 0xa5};
    uint8_t bitmap[4] = {0xa5, 0xa5, 0xa5, 0xa5};
    struct nizgulk_seen seen = nizgulk_scan_ro(want, LENT, bitmap, 2, 4, 2);
    is("a scan into 2 bytes", seen.number, NIZGULK_SHORT_OUTPUT);
    is("its values", seen.value + seen.second, 0);
    is("its first byte", bitmap[0], 0xa5);
    seen = nizgulk_scan_ro(want, LENT, bitmap, 4, 4, 2);
    is("a scan", seen.number, NIZGULK_ACCEPTED);
    is("its rows", seen.value, 17);
    is("its ones", seen.second, 5);
    is("its bytes", memcmp(bitmap, of_page, 4) != 0, 0);
    /* partition 2 has the rows 0 to 4 purged, then four each by the loads 1038, 1039 and 1040 */
    seen = nizgulk_scan_rw(want, LENT, bitmap, 3, 1039, 2);
    is("a load's scan", seen.number, NIZGULK_ACCEPTED);
    is("its rows", seen.value, 17);
    is("its ones", seen.second, 9);
    is("its bytes", memcmp(bitmap, of_load, 4) != 0, 0);
}

static void limits(void)
{
    uint64_t batch[NIZGULK_ROWS_MAX + 1] = {0};
    reply = nizgulk_begin(reply.state, LENT);
    told("load 33", NIZGULK_TXNS_FULL, 0);
    reply = nizgulk_begin_ro(reply.state, LENT, 0);
    told("page 33", NIZGULK_TXNS_FULL, 0);
    reply = nizgulk_begin_ro(reply.state, LENT, 1036);
    told("a page above LCE", NIZGULK_OUT_OF_RANGE, 0);
    reply = nizgulk_end_ro(reply.state, LENT, 3);
    told("a closed page", NIZGULK_NOT_OPEN, 0);
    reply = nizgulk_commit(reply.state, LENT, 1041);
    told("a waiting load", NIZGULK_NOT_OPEN, 0);
    reply = nizgulk_roll_back(reply.state, LENT, 1041);
    told("a waiting load", NIZGULK_NOT_OPEN, 0);
    reply = nizgulk_advance_lse(reply.state, LENT, 1005);
    told("LSE above a page", NIZGULK_BLOCKED, 0);
    reply = nizgulk_purge(reply.state, LENT, NIZGULK_PARTITIONS_MAX);
    told("partition 8", NIZGULK_UNKNOWN_PARTITION, 0);
    reply = nizgulk_append(reply.state, LENT, batch, NIZGULK_ROWS_MAX - 1, 1036, 0);
    told("row 513", NIZGULK_ROWS_FULL, 0);
    write_to(0, 1037, NIZGULK_ROWS_MAX - 3);
    while (want.partitions.at[1].entries < NIZGULK_ENTRIES_MAX) {
        write_to(1, 1036, 0);
    }
    reply = nizgulk_clear(reply.state, LENT, 1036, 1);
    told("entry 65", NIZGULK_ENTRIES_FULL, 0);
    reply = nizgulk_begin(reply.state, entries, NIZGULK_ENTRIES_LENT - 1, rows, NIZGULK_ROWS_LENT);
    told("an entry fewer", NIZGULK_UNSOUND, 0);
    reply = nizgulk_begin(reply.state, entries, NIZGULK_ENTRIES_LENT + 1, rows, NIZGULK_ROWS_LENT);
    told("an entry more", NIZGULK_UNSOUND, 0);
    reply = nizgulk_begin(reply.state, entries, NIZGULK_ENTRIES_LENT, rows, NIZGULK_ROWS_LENT - 1);
    told("a row fewer", NIZGULK_UNSOUND, 0);
    reply = nizgulk_begin(reply.state, entries, NIZGULK_ENTRIES_LENT, rows, NIZGULK_ROWS_LENT + 1);
    told("a row more", NIZGULK_UNSOUND, 0);
    all_same("after the limits");

    reply = nizgulk_create(reply.state, LENT, NIZGULK_FIRST_EPOCH - 1);
    told("making new at 0", NIZGULK_OUT_OF_RANGE, 0);
    reply = nizgulk_create(reply.state, LENT, NIZGULK_FIRST_EPOCH);
    told("making new at the first epoch", NIZGULK_ACCEPTED, 0);
    reply = nizgulk_begin_ro(reply.state, LENT, 0);
    told("the first page", NIZGULK_ACCEPTED, NIZGULK_FIRST_TICKET);
    reply = nizgulk_create(reply.state, LENT, NIZGULK_LAST_EPOCH + 1);
    told("making new above the last epoch", NIZGULK_OUT_OF_RANGE, 0);
    reply = nizgulk_create(reply.state, LENT, NIZGULK_LAST_EPOCH);
    told("making new at the last epoch", NIZGULK_ACCEPTED, 0);
    reply = nizgulk_begin(reply.state, LENT);
    told("the last load", NIZGULK_ACCEPTED, NIZGULK_LAST_EPOCH);
    reply = nizgulk_begin(reply.state, LENT);
    told("a load more", NIZGULK_EXHAUSTED, 0);
    reply.state.readers.next = NIZGULK_LAST_TICKET;
    reply = nizgulk_begin_ro(reply.state, LENT, 0);
    told("the last page", NIZGULK_ACCEPTED, NIZGULK_LAST_TICKET);
    reply = nizgulk_begin_ro(reply.state, LENT, 0);
    told("a page more", NIZGULK_EXHAUSTED, 0);
}

/* Commits and roll backs name the oldest load that is open then, or none. */
static void closes(void)
{
    uint64_t txn;
    reply = nizgulk_create(reply.state, LENT, 2001);
    told("making new", NIZGULK_ACCEPTED, 0);
    for (txn = 2001; txn <= 2004; txn++) {
        reply = nizgulk_begin(reply.state, LENT);
        told("begin", NIZGULK_ACCEPTED, txn);
    }
    reply = nizgulk_commit(reply.state, LENT, 2002);
    told_both("a commit that is held back", NIZGULK_ACCEPTED, 2000, 2001);
    reply = nizgulk_commit(reply.state, LENT, 2002);
    told_both("a commit that is refused", NIZGULK_NOT_OPEN, 0, 0);
    reply = nizgulk_roll_back(reply.state, LENT, 2002);
    told_both("a roll back that is refused", NIZGULK_NOT_OPEN, 0, 0);
    reply = nizgulk_roll_back(reply.state, LENT, 2001);
    told_both("a roll back that lets LCE go on", NIZGULK_ACCEPTED, 2002, 2003);
    reply = nizgulk_commit(reply.state, LENT, 2003);
    told_both("a commit with a later load open", NIZGULK_ACCEPTED, 2003, 2004);
    reply = nizgulk_roll_back(reply.state, LENT, 2004);
    told_both("a roll back of the last load", NIZGULK_ACCEPTED, 2003, 0);
}

/* What load `txn` is shown of the five rows of partition 3. */
static void shown_to(const char *what, uint64_t txn, uint64_t ones, uint8_t bits)
{
    uint8_t bitmap = 0xa5;
    struct nizgulk_seen seen = nizgulk_scan_rw(reply.state, LENT, &bitmap, 1, txn, 3);
    is(what, seen.number, NIZGULK_ACCEPTED);
    is(what, seen.value, 5);
    is(what, seen.second, ones);
    is(what, bitmap, bits);
}

/* A load that clears a partition and loads it again is shown only what it loaded after. */
static void reload(void)
{
    const uint64_t batch[3] = {1, 2, 3};
    uint64_t txn;
    reply = nizgulk_create(reply.state, LENT, 3001);
    told("making new", NIZGULK_ACCEPTED, 0);
    reply = nizgulk_begin(reply.state, LENT);
    told("begin", NIZGULK_ACCEPTED, 3001);
    reply = nizgulk_append(reply.state, LENT, batch, 2, 3001, 3);
    told("append", NIZGULK_ACCEPTED, 2);
    reply = nizgulk_commit(reply.state, LENT, 3001);
    told("commit", NIZGULK_ACCEPTED, 3001);
    for (txn = 3002; txn <= 3003; txn++) {
        reply = nizgulk_begin(reply.state, LENT);
        told("begin", NIZGULK_ACCEPTED, txn);
    }
    reply = nizgulk_append(reply.state, LENT, batch, 1, 3002, 3);
    told("append", NIZGULK_ACCEPTED, 3);
    reply = nizgulk_clear(reply.state, LENT, 3002, 3);
    told("clear", NIZGULK_ACCEPTED, 3);
    reply = nizgulk_append(reply.state, LENT, batch, 2, 3002, 3);
    told("append", NIZGULK_ACCEPTED, 5);
    shown_to("what the load is shown that cleared", 3002, 2, 0x18);
    shown_to("what another load is shown", 3003, 2, 0x03);
}

/* The total of partition 5, and that a begin by such books and rows answers `number`. */
static void weighs(const char *what, uint64_t total, uint64_t number)
{
    is(what, reply.state.totals[5], total);
    is(what, nizgulk_begin(reply.state, LENT).number, number);
}

/* A total is of what a page at LCE would be shown, of each row the low 32 bits, and a store without that is refused. */
static void totals(void)
{
    const uint64_t five = UINT64_C(4294967301), top = UINT64_MAX, one = 1;
    uint64_t txn, all[NIZGULK_ROWS_MAX];
    size_t p, bit;
    reply = nizgulk_create(reply.state, LENT, 4001);
    told("making new", NIZGULK_ACCEPTED, 0);
    weighs("a total of a store made new", 0, NIZGULK_ACCEPTED);
    for (txn = 4001; txn <= 4002; txn++) {
        reply = nizgulk_begin(reply.state, LENT);
        told("begin", NIZGULK_ACCEPTED, txn);
    }
    reply = nizgulk_append(reply.state, LENT, &one, 1, 4001, 5);
    told("append", NIZGULK_ACCEPTED, 1);
    reply = nizgulk_append(reply.state, LENT, &five, 1, 4002, 5);
    told("append", NIZGULK_ACCEPTED, 2);
    reply = nizgulk_append(reply.state, LENT, &top, 1, 4002, 5);
    told("append", NIZGULK_ACCEPTED, 3);
    reply = nizgulk_commit(reply.state, LENT, 4002);
    told_both("a commit that is held back", NIZGULK_ACCEPTED, 4000, 4001);
    weighs("a total with a load waiting", 0, NIZGULK_ACCEPTED);
    reply = nizgulk_roll_back(reply.state, LENT, 4001);
    told_both("a roll back that lets LCE go on", NIZGULK_ACCEPTED, 4002, 0);
    weighs("a total after a roll back", UINT64_C(4294967300), NIZGULK_ACCEPTED);

    /* two rows are shown now, one by the open load 4003 is not, and the word behind them is of nobody */
    reply = nizgulk_begin(reply.state, LENT);
    told("begin", NIZGULK_ACCEPTED, 4003);
    reply = nizgulk_append(reply.state, LENT, &one, 1, 4003, 5);
    told("append", NIZGULK_ACCEPTED, 3);
    weighs("a total with a load open", UINT64_C(4294967300), NIZGULK_ACCEPTED);
    for (p = 0; p < NIZGULK_PARTITIONS_MAX; p++) {
        struct nizgulk_state kept = reply.state;
        for (bit = 0; bit < 64; bit++) {
            reply.state.totals[p] = kept.totals[p] ^ one << bit;
            is("the number of a spoilt total", nizgulk_begin(reply.state, LENT).number, NIZGULK_UNSOUND);
        }
        reply.state = kept;
    }
    for (p = 0; p < 4; p++) {
        uint64_t *row = &rows[NIZGULK_ROWS_MAX * reply.state.partitions.at[5].area + p];
        for (bit = 0; bit < 64; bit++) {
            *row ^= one << bit;
            weighs("a row of which a bit was changed", UINT64_C(4294967300),
                   p < 2 && bit < 32 ? NIZGULK_UNSOUND : NIZGULK_ACCEPTED);
            *row ^= one << bit;
        }
    }

    reply = nizgulk_clear(reply.state, LENT, 4003, 5);
    told("clear", NIZGULK_ACCEPTED, 3);
    reply = nizgulk_append(reply.state, LENT, &five, 1, 4003, 5);
    told("append", NIZGULK_ACCEPTED, 4);
    weighs("a total with a load open that clears", UINT64_C(4294967300), NIZGULK_ACCEPTED);
    reply = nizgulk_commit(reply.state, LENT, 4003);
    told("commit", NIZGULK_ACCEPTED, 4003);
    weighs("a total after a clearing", 5, NIZGULK_ACCEPTED);
    reply = nizgulk_advance_lse(reply.state, LENT, 0);
    told("advance_lse", NIZGULK_ACCEPTED, 4003);
    reply = nizgulk_purge(reply.state, LENT, 5);
    told("purge", NIZGULK_ACCEPTED, 1);
    weighs("a total after a purge", 5, NIZGULK_ACCEPTED);

    memset(all, 0xff, sizeof all);
    reply = nizgulk_create(reply.state, LENT, 5001);
    told("making new", NIZGULK_ACCEPTED, 0);
    weighs("a total of a store made new", 0, NIZGULK_ACCEPTED);
    reply = nizgulk_begin(reply.state, LENT);
    told("begin", NIZGULK_ACCEPTED, 5001);
    reply = nizgulk_append(reply.state, LENT, all, NIZGULK_ROWS_MAX, 5001, 5);
    told("append", NIZGULK_ACCEPTED, NIZGULK_ROWS_MAX);
    reply = nizgulk_commit(reply.state, LENT, 5001);
    told("commit", NIZGULK_ACCEPTED, 5001);
    weighs("the greatest total", UINT64_C(2199023255040), NIZGULK_ACCEPTED);
}

/* What the two saves below write: at 6001 two rows of partition 0 and one of 7; at 6002 another one of 0, which was
 * cleared, and the same of 7. */
static const uint8_t saved[88] = {
    0x71, 0x17, 0, 0, 0, 0, 0, 0, 2, 0, 0, 0, 0, 0, 0, 0, 0, 0, 0, 0, 0, 0, 1, 0, /* 6001: 2 and 1 rows */
    1, 2, 3, 4, 5, 6, 7, 8,                                                       /* partition 0 */
    5, 0, 0, 0, 0, 0, 0, 0,                                                       /* and its second row */
    0xff, 0xff, 0xff, 0xff, 0xff, 0xff, 0xff, 0xff,                               /* partition 7 */
    0x72, 0x17, 0, 0, 0, 0, 0, 0, 1, 0, 0, 0, 0, 0, 0, 0, 0, 0, 0, 0, 0, 0, 1, 0, /* 6002: 1 and 1 rows */
    9, 0, 0, 0, 0, 0, 0, 0x80,                                                    /* partition 0 */
    0xff, 0xff, 0xff, 0xff, 0xff, 0xff, 0xff, 0xff,                               /* partition 7 */
};
#define FIRST 48 /* bytes of the first save */

/* A save into `lent` of 60 bytes answers `number`, writes `count` bytes of `saved` from `from` on, and no more. */
static void saves(const char *what, uint64_t epoch, size_t lent, uint64_t number, size_t from, size_t count)
{
    uint8_t out[60], due[60];
    struct nizgulk_seen seen;
    memset(out, 0xa5, sizeof out);
    memset(due, 0xa5, sizeof due);
    memcpy(due, saved + from, count);
    seen = nizgulk_save(reply.state, LENT, out, lent, epoch);
    is(what, seen.number, number);
    is(what, seen.value, count);
    is(what, seen.second, 0);
    is(what, memcmp(out, due, sizeof out) != 0, 0);
}

/* What a recovery leaves of a store whose rows and entries are 0xa5 in all bytes: made new at 1, or the lots of the
 * first save, or of the second. */
static void recovered_to(int round)
{
    size_t p;
    memset(&want, 0, sizeof want);
    memset(want_entries, 0xa5, sizeof want_entries);
    memset(want_rows, 0xa5, sizeof want_rows);
    for (p = 0; p < NIZGULK_PARTITIONS_MAX; p++) {
        want.partitions.at[p].area = p;
    }
    want.partitions.spare = 8;
    want.readers.next = 1;
    want.clock.lce = want.clock.lse = round == 0 ? 0 : 6000 + (uint64_t)round;
    want.clock.ec = want.clock.lce + 1;
    if (round == 0) {
        return;
    }
    want_rows[0] = round == 1 ? UINT64_C(0x0807060504030201) : UINT64_C(0x8000000000000009);
    if (round == 1) {
        want_rows[1] = 5;
    }
    want_rows[7 * NIZGULK_ROWS_MAX] = UINT64_MAX;
    want.totals[0] = round == 1 ? UINT64_C(0x04030201) + 5 : 9;
    want.totals[7] = UINT64_C(0xffffffff);
    for (p = 0; p < NIZGULK_PARTITIONS_MAX; p += 7) {
        want.partitions.at[p].rows = p == 0 && round == 1 ? 2 : 1;
        want.partitions.at[p].entries = 1;
        want_entries[p * NIZGULK_ENTRIES_MAX].epoch = want.clock.lce;
        want_entries[p * NIZGULK_ENTRIES_MAX].end = want.partitions.at[p].rows;
        want_entries[p * NIZGULK_ENTRIES_MAX].mark = 0;
    }
}

static void recover(const uint8_t *file, size_t length, uint64_t number)
{
    memset(entries, 0xa5, sizeof entries);
    memset(rows, 0xa5, sizeof rows);
    reply = nizgulk_recover(reply.state, LENT, file, length);
    told("recover", number, 0);
    is("what a recovery hands out", reply.from + reply.count, 0);
}

static void left_by_recovery(void)
{
    same("books", &reply.state, &want, sizeof want);
    same("entries", entries, want_entries, sizeof entries);
    same("rows", rows, want_rows, sizeof rows);
}

/* A file that differs from `saved` in two bytes from `at` on, in the table of contents that begins at `from`, is
 * refused once that table is whole, be it cut behind it or not; nothing of it is taken. */
static void corrupt(const char *what, size_t from, size_t at, uint8_t low, uint8_t high)
{
    uint8_t file[sizeof saved];
    size_t cut;
    memcpy(file, saved, sizeof saved);
    file[at] = low;
    file[at + 1] = high;
    printf("corrupt: %s\n", what);
    for (cut = from; cut <= sizeof saved; cut++) {
        recover(file, cut, cut < from + 24 ? NIZGULK_ACCEPTED : NIZGULK_CORRUPT);
        recovered_to(from < FIRST ? 0 : 1);
        if (cut >= from + 24) {
            memset(want_entries, 0xa5, sizeof want_entries);
            memset(want_rows, 0xa5, sizeof want_rows);
        }
        left_by_recovery();
    }
}

/* Saves, and recoveries of what they wrote. */
static void checkpoints(void)
{
    const uint64_t two[2] = {UINT64_C(0x0807060504030201), 5}, top = UINT64_MAX, other = UINT64_C(0x8000000000000009);
    static const uint8_t nothing[24] = {0}; /* a checkpoint of epoch 0 */
    uint8_t last[24] = {0xff, 0xff, 0xff, 0x7f};
    size_t cut;
    reply = nizgulk_create(reply.state, LENT, 6001);
    told("making new", NIZGULK_ACCEPTED, 0);
    reply = nizgulk_begin(reply.state, LENT);
    told("begin", NIZGULK_ACCEPTED, 6001);
    reply = nizgulk_append(reply.state, LENT, two, 2, 6001, 0);
    told("append", NIZGULK_ACCEPTED, 2);
    reply = nizgulk_append(reply.state, LENT, &top, 1, 6001, 7);
    told("append", NIZGULK_ACCEPTED, 1);
    saves("a save at an open load", 6001, 60, NIZGULK_OUT_OF_RANGE, 0, 0);
    reply = nizgulk_commit(reply.state, LENT, 6001);
    told("commit", NIZGULK_ACCEPTED, 6001);
    reply = nizgulk_begin(reply.state, LENT);
    told("begin", NIZGULK_ACCEPTED, 6002);
    reply = nizgulk_clear(reply.state, LENT, 6002, 0);
    told("clear", NIZGULK_ACCEPTED, 2);
    reply = nizgulk_append(reply.state, LENT, &other, 1, 6002, 0);
    told("append", NIZGULK_ACCEPTED, 3);
    saves("a save beside an open load", 6001, 60, NIZGULK_ACCEPTED, 0, FIRST);
    reply = nizgulk_commit(reply.state, LENT, 6002);
    told("commit", NIZGULK_ACCEPTED, 6002);
    saves("a save below LCE", 6001, 60, NIZGULK_ACCEPTED, 0, FIRST);
    saves("a save at LCE", 6002, 60, NIZGULK_ACCEPTED, FIRST, sizeof saved - FIRST);
    saves("a save into just enough", 6002, sizeof saved - FIRST, NIZGULK_ACCEPTED, FIRST, sizeof saved - FIRST);
    saves("a save into a byte less", 6002, sizeof saved - FIRST - 1, NIZGULK_SHORT_OUTPUT, 0, 0);
    saves("a save into nothing", 6002, 0, NIZGULK_SHORT_OUTPUT, 0, 0);
    saves("a save above LCE", 6003, 0, NIZGULK_OUT_OF_RANGE, 0, 0);
    saves("a save below LSE", 5999, 0, NIZGULK_OUT_OF_RANGE, 0, 0);
    saves("a save at 0 with LSE above it", 0, 60, NIZGULK_OUT_OF_RANGE, 0, 0);
    reply.state.totals[0]++;
    saves("a save of an unsound store", 6003, 0, NIZGULK_UNSOUND, 0, 0);
    reply.state = before;

    for (cut = 0; cut <= sizeof saved; cut++) {
        recover(saved, cut, NIZGULK_ACCEPTED);
        recovered_to(cut < FIRST ? 0 : cut < sizeof saved ? 1 : 2);
        left_by_recovery();
    }
    saves("a save of what was recovered", 6002, 60, NIZGULK_ACCEPTED, FIRST, sizeof saved - FIRST);
    reply = nizgulk_begin(reply.state, LENT);
    told("the first load after a recovery", NIZGULK_ACCEPTED, 6003);
    reply = nizgulk_begin_ro(reply.state, LENT, 0);
    told("the first page after a recovery", NIZGULK_ACCEPTED, NIZGULK_FIRST_TICKET);

    recover(nothing, sizeof nothing, NIZGULK_ACCEPTED);
    recovered_to(0);
    left_by_recovery();
    recover(last, sizeof last, NIZGULK_ACCEPTED);
    is("EC after the last epoch", reply.state.clock.ec, NIZGULK_LAST_EPOCH + 1);
    reply = nizgulk_begin(reply.state, LENT);
    told("a load after the last epoch", NIZGULK_EXHAUSTED, 0);
    last[3] = 0x80;
    recover(last, sizeof last, NIZGULK_CORRUPT);
    reply = nizgulk_recover(reply.state, entries, NIZGULK_ENTRIES_LENT - 1, rows, NIZGULK_ROWS_LENT, last, 24);
    told("a recovery with an entry fewer", NIZGULK_UNSOUND, 0);
    reply = nizgulk_recover(reply.state, entries, NIZGULK_ENTRIES_LENT, rows, NIZGULK_ROWS_LENT + 1, saved, 88);
    told("a recovery with a row more", NIZGULK_UNSOUND, 0);

    corrupt("513 rows", 0, 8, 1, 2);
    corrupt("513 rows of the last partition", FIRST, FIRST + 22, 1, 2);
    corrupt("an epoch of 33 bits", 0, 4, 1, 0);
    corrupt("an epoch of 64 bits", FIRST, FIRST + 6, 0, 0x80);
    corrupt("an epoch below the one before", FIRST, FIRST, 0x70, 0x17);
    corrupt("epoch 0 and rows", 0, 0, 0, 0);
}

static void bytes_of(const char *what, size_t bytes)
{
    printf("bytes of %-24s %6lu\n", what, (unsigned long)bytes);
}

int main(void)
{
    memset(entries, 0xa5, sizeof entries);
    memset(want_entries, 0xa5, sizeof want_entries);
    memset(rows, 0xa5, sizeof rows);
    memset(want_rows, 0xa5, sizeof want_rows);
    history();
    all_same("after a history");
    every_word_is_read();
    scans();
    limits();
    closes();
    reload();
    totals();
    checkpoints();
    bytes_of("the books", sizeof want);
    bytes_of("the entries", sizeof entries - sizeof *entries);
    bytes_of("the rows", sizeof rows - sizeof *rows);
    bytes_of("the store: these three", sizeof want + sizeof entries - sizeof *entries + sizeof rows - sizeof *rows);
    bytes_of("a reply", sizeof reply);
    bytes_of("a reply to a scan", sizeof(struct nizgulk_seen));
    bytes_of("a bitmap, at most", NIZGULK_BITMAP_MAX);
    bytes_of("a checkpoint, at most", NIZGULK_CHECKPOINT_MAX);
    printf("%d checks, %d failed\n", checks, failures);
    return failures != 0;
}
