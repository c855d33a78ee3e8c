/* A day at the works, over include/nizgulk.h: two benches load, an order page (a read-only transaction) stays open,
 * scrap is cleared, a load is rolled back, and the page is shown the same rows all day; then room is made. It prints
 * what happens, and ends with status 1 where something is not as it is due. `tools/example-c` builds and runs it. */
#include "nizgulk.h"

#include <stdio.h>
#include <stdlib.h>
#include <string.h>

/* The partitions (01: lots) of this day. A row is a weight in milligrams. */
enum { BRASS = 0, BRONZE = 1, SCRAP = 2 };
static const char *const names[] = {"brass", "bronze", "scrap"};

/* The store: two areas, and the books in the newest reply. */
static struct nizgulk_entry entries[NIZGULK_ENTRIES_LENT];
static uint64_t rows[NIZGULK_ROWS_LENT];
static struct nizgulk_reply reply;

#define LENT entries, NIZGULK_ENTRIES_LENT, rows, NIZGULK_ROWS_LENT
#define COUNT(list) (sizeof(list) / sizeof *(list))

/* The rows that a reader is shown of a partition. */
struct shown {
    uint64_t row[NIZGULK_ROWS_MAX];
    size_t count;
};

static void due(const char *what, int holds)
{
    if (!holds) {
        printf("NOT AS DUE: %s\n", what);
        exit(1);
    }
}

/* The reply's value, where its call was accepted. */
static uint64_t accepted(const char *what)
{
    if (reply.number != NIZGULK_ACCEPTED) {
        printf("refused by %d: ", (int)reply.number);
        due(what, 0);
    }
    return reply.value;
}

static uint64_t begin(const char *bench)
{
    uint64_t txn;
    reply = nizgulk_begin(reply.state, LENT);
    txn = accepted("a load begins");
    printf("%s begins load %d\n", bench, (int)txn);
    return txn;
}

static void append(uint64_t txn, uint64_t p, const uint64_t *batch, size_t count)
{
    reply = nizgulk_append(reply.state, LENT, batch, count, txn, p);
    printf("  load %d brings %d to %s, which has %d rows now\n", (int)txn, (int)count, names[p],
           (int)accepted("rows are appended"));
}

static void commit(uint64_t txn)
{
    reply = nizgulk_commit(reply.state, LENT, txn);
    printf("  load %d is committed; committed up to %d", (int)txn, (int)accepted("a load commits"));
    if (reply.value < txn) {
        printf(", as load %d is open", (int)reply.second);
    }
    printf("\n");
}

static uint64_t open_page(void)
{
    uint64_t ticket;
    reply = nizgulk_begin_ro(reply.state, LENT, 0);
    ticket = accepted("a page opens");
    printf("page %d opens\n", (int)ticket);
    return ticket;
}

/* A bit a row says which rows of the partition's area are shown. */
static struct shown gather(struct nizgulk_seen seen, const uint8_t *bitmap, uint64_t p)
{
    const uint64_t *area = rows + NIZGULK_ROWS_MAX * reply.state.partitions.at[p].area;
    struct shown all;
    size_t i;
    due("a scan is accepted", seen.number == NIZGULK_ACCEPTED);
    all.count = 0;
    for (i = 0; i < seen.value; i++) {
        if ((bitmap[i / 8] >> (i % 8)) & 1) {
            all.row[all.count++] = area[i];
        }
    }
    due("the ones are counted", all.count == seen.second);
    return all;
}

static void print(const struct shown *all, uint64_t p)
{
    size_t i;
    printf(" %s:", names[p]);
    for (i = 0; i < all->count; i++) {
        printf(" %d", (int)all->row[i]);
    }
    printf(all->count == 0 ? " nothing\n" : "\n");
}

static struct shown by_page(uint64_t ticket, uint64_t p)
{
    uint8_t bitmap[NIZGULK_BITMAP_MAX];
    struct nizgulk_seen seen = nizgulk_scan_ro(reply.state, LENT, bitmap, sizeof bitmap, ticket, p);
    struct shown all = gather(seen, bitmap, p);
    printf("  page %d is shown", (int)ticket);
    print(&all, p);
    return all;
}

static struct shown by_load(uint64_t txn, uint64_t p)
{
    uint8_t bitmap[NIZGULK_BITMAP_MAX];
    struct nizgulk_seen seen = nizgulk_scan_rw(reply.state, LENT, bitmap, sizeof bitmap, txn, p);
    struct shown all = gather(seen, bitmap, p);
    printf("  load %d is shown", (int)txn);
    print(&all, p);
    return all;
}

static int are(const struct shown *all, const uint64_t *row, size_t count)
{
    return all->count == count && memcmp(all->row, row, count * sizeof *row) == 0;
}

/* The books' total of a partition: what a page that opens now would be shown, added up. */
static void weigh(uint64_t p, uint64_t total)
{
    printf("  the books have %d mg of %s\n", (int)reply.state.totals[p], names[p]);
    due("the total", reply.state.totals[p] == total);
}

/* Purges, and checks the part that is handed out. */
static void purge(uint64_t p, uint64_t rewritten, const uint64_t *row, size_t count)
{
    reply = nizgulk_purge(reply.state, LENT, p);
    due("a purge rewrites or skips", accepted("a purge") == rewritten);
    printf("  %s is %s: %d rows in force, from row %d of those lent\n", names[p],
           rewritten ? "purged" : "left as it is", (int)reply.count, (int)reply.from);
    due("the part is all that is left", reply.count == count);
    due("and in its order", memcmp(rows + reply.from, row, count * sizeof *row) == 0);
}

int main(void)
{
    /* what is weighed, and what is due of it */
    static const uint64_t brass[] = {410, 395, 402}, more_brass[] = {388}, bronze[] = {120, 130};
    static const uint64_t scrap[] = {55, 60, 71}, new_scrap[] = {80}, mistyped[] = {99999, 99998};
    static const uint64_t all_brass[] = {410, 395, 402, 388};
    struct shown orders[3], now;
    uint64_t first, second, third, fourth, order, evening, p;

    reply = nizgulk_create(reply.state, LENT, 1);
    accepted("making new");
    printf("The morning: the store is made new\n");
    first = begin("Bench A");
    second = begin("Bench B");
    append(first, BRASS, brass, COUNT(brass));
    append(second, SCRAP, scrap, COUNT(scrap));
    append(first, BRONZE, bronze, COUNT(bronze));
    append(second, BRASS, more_brass, COUNT(more_brass));
    now = by_load(second, BRASS);
    due("a load sees its own rows, and not those of one that was open when it began", are(&now, more_brass, 1));
    commit(second);
    due("a commit waits for the older load", reply.value == 0);
    due("and names it", reply.second == first);
    commit(first);
    due("then both are committed", reply.value == second);
    due("and no load is open", reply.second == 0);
    weigh(BRASS, 410 + 395 + 402 + 388);

    printf("Orders are planned\n");
    order = open_page();
    for (p = BRASS; p <= SCRAP; p++) {
        orders[p] = by_page(order, p);
    }
    due("the page is shown all brass", are(&orders[BRASS], all_brass, COUNT(all_brass)));
    due("and all bronze", are(&orders[BRONZE], bronze, COUNT(bronze)));
    due("and all scrap", are(&orders[SCRAP], scrap, COUNT(scrap)));

    printf("Noon: the scrap goes to the furnace, and a bench mistypes\n");
    third = begin("Bench A");
    fourth = begin("Bench B");
    reply = nizgulk_clear(reply.state, LENT, third, SCRAP);
    printf("  load %d clears %s, which has %d entries now\n", (int)third, names[SCRAP], (int)accepted("a clearing"));
    append(third, SCRAP, new_scrap, COUNT(new_scrap));
    now = by_load(third, SCRAP);
    due("a load that cleared is shown what it brought since alone", are(&now, new_scrap, COUNT(new_scrap)));
    now = by_load(fourth, SCRAP);
    due("and another load is shown the scrap as it was", are(&now, scrap, COUNT(scrap)));
    append(fourth, BRASS, mistyped, COUNT(mistyped));
    append(fourth, BRONZE, mistyped, COUNT(mistyped));
    weigh(SCRAP, 55 + 60 + 71);
    commit(third);
    weigh(SCRAP, 80);
    due("a later load does not hold a commit back", reply.value == third && reply.second == fourth);
    reply = nizgulk_roll_back(reply.state, LENT, fourth);
    printf("  load %d is rolled back; committed up to %d\n", (int)fourth, (int)accepted("a roll back"));
    due("the clearing is committed", reply.value == third);
    due("and no load is open", reply.second == 0);
    reply = nizgulk_append(reply.state, LENT, mistyped, COUNT(mistyped), fourth, BRASS);
    due("a load that is closed brings nothing more", reply.number == NIZGULK_NOT_OPEN);

    printf("The order page is still open\n");
    for (p = BRASS; p <= SCRAP; p++) {
        now = by_page(order, p);
        due("the page is shown what it was", are(&now, orders[p].row, orders[p].count));
    }
    evening = open_page();
    now = by_page(evening, SCRAP);
    due("a new page is shown the new scrap alone", are(&now, new_scrap, COUNT(new_scrap)));

    printf("Evening: room is made\n");
    reply = nizgulk_advance_lse(reply.state, LENT, third);
    due("the order page holds the safe epoch back", reply.number == NIZGULK_BLOCKED);
    printf("  the safe epoch cannot move to %d while page %d is open\n", (int)third, (int)order);
    reply = nizgulk_end_ro(reply.state, LENT, order);
    printf("page %d closes; %d still open\n", (int)order, (int)accepted("a page closes"));
    reply = nizgulk_advance_lse(reply.state, LENT, 0);
    due("the safe epoch moves as far as it may", accepted("LSE moves") == third);
    printf("  the safe epoch is %d\n", (int)reply.value);
    purge(SCRAP, 1, new_scrap, COUNT(new_scrap));
    purge(BRASS, 1, all_brass, COUNT(all_brass));
    purge(BRASS, 0, all_brass, COUNT(all_brass));
    weigh(BRASS, 410 + 395 + 402 + 388);
    now = by_page(evening, SCRAP);
    due("a purge changes nothing that is shown", are(&now, new_scrap, COUNT(new_scrap)));
    now = by_page(evening, BRASS);
    due("nor here", are(&now, all_brass, COUNT(all_brass)));
    printf("The day went as it was due\n");
    return 0;
}
