/* Nizgulk: an append-only snapshot-isolation store, for callers in C (C99 on) and C++ on x86-64. This header is the one
 * authority on the interface of the static library that `rt lib` leaves in crates/exports (out/libexports.a there).
 * "01" is the scope paper, "02" the paper of changes to it; their words stand in brackets beside the identifiers.
 *
 * The store is the caller's: the books (struct nizgulk_state), handed over by value, and two areas that are lent,
 * the entries and the rows. The library keeps nothing between two calls, allocates nothing, and calls nothing but
 * memcpy, memmove and memset. What each call does is proved for all books and for areas of any content and any
 * length; what follows is what no proof can see.
 *
 * WHAT THE CALLER OWES, in every call:
 *
 * - Pointers. None is null, not even where its length is 0. `entries`, `rows` and `batch` are aligned to 8 bytes,
 *   `bitmap`, `out` and `file` to 1. A length counts elements, and all of them may be read, and written where the
 *   pointer is not to const.
 * - No overlap. No two of the lent areas share a byte, and neither does the object that the reply goes to.
 * - One writer. Until a call returns, nobody else writes what is lent to it, and nobody reads what it may write. Calls
 *   that only read what they share, such as scans with a bitmap each and saves with an output each, may run at the same
 *   time.
 * - The newest books. After a call the books are those in its reply, and those that were handed over are to be thrown
 *   away, whether it was accepted or refused. Older books may be sound by themselves, so that no call refuses them, but
 *   they no longer describe the areas. A scan and a save change no books and reply without them.
 * - One history. The store starts with an accepted nizgulk_create or nizgulk_recover, and from then on nobody but these
 *   calls writes the books, the entries and the rows. Then no call is ever refused by 5, and what 01 promises of the
 *   rows shown holds. Other books, entries and rows may be handed over too: where they are not sound (01; for the
 *   totals see struct nizgulk_state) the call answers 5, and in no case is anything undefined.
 * - Stack. There is as much of it left as docs/FIGURES.md has for the call.
 *
 * LENGTHS. `entries_len` is NIZGULK_ENTRIES_LENT and `rows_len` is NIZGULK_ROWS_LENT: nine areas of 64 entries, and
 * of 512 rows. Any other length is refused by 5. What the areas hold before nizgulk_create or nizgulk_recover does not
 * matter.
 *
 * REFUSALS. `number` is 0 where the call was accepted. Else it is the first of the call's refusals, in the order
 * listed at that call, that applies; then value, second, from and count are 0, the books in the reply are those
 * handed over, and nothing that was lent has changed: no row, no entry, no byte of a bitmap or an output.
 *
 * The structs have no padding: every field is 8 bytes wide and they lie in the order written. tests/layout.c asserts
 * each size and place, and checks them against the library.
 */
#ifndef NIZGULK_H
#define NIZGULK_H

#include <stddef.h>
#include <stdint.h>

#ifdef __cplusplus
extern "C" {
#endif

/* ---- Limits. An epoch names a read-write transaction (01: load), a ticket a read-only one (01: page). */

#define NIZGULK_FIRST_EPOCH UINT64_C(1)
#define NIZGULK_LAST_EPOCH UINT64_C(2147483647)
#define NIZGULK_FIRST_TICKET UINT64_C(1)
#define NIZGULK_LAST_TICKET UINT64_C(4294967295)

#define NIZGULK_WRITERS_MAX 32 /* read-write transactions open or waiting */
#define NIZGULK_READERS_MAX 32 /* read-only transactions open */
#define NIZGULK_DEPS_MAX 31    /* deps of one read-write transaction */
#define NIZGULK_DEPS_ALL (NIZGULK_WRITERS_MAX * NIZGULK_DEPS_MAX)

#define NIZGULK_PARTITIONS_MAX 8 /* partitions (01: lots), 0 to 7 */
#define NIZGULK_AREAS_MAX 9      /* one for each partition, and a spare one */
#define NIZGULK_ROWS_MAX 512     /* rows of an area */
#define NIZGULK_ENTRIES_MAX 64   /* entries of an area */

#define NIZGULK_ROWS_LENT (NIZGULK_AREAS_MAX * NIZGULK_ROWS_MAX)
#define NIZGULK_ENTRIES_LENT (NIZGULK_AREAS_MAX * NIZGULK_ENTRIES_MAX)

/* The bytes that a scan of so many rows needs of its bitmap, and those that are enough for any scan. */
#define NIZGULK_BITMAP_BYTES(rows) (((rows) + 7) / 8)
#define NIZGULK_BITMAP_MAX NIZGULK_BITMAP_BYTES(NIZGULK_ROWS_MAX)

/* The bytes of a checkpoint (02: round) that shows so many rows, and those that are enough for any save. */
#define NIZGULK_CHECKPOINT_BYTES(rows) (8 + 2 * NIZGULK_PARTITIONS_MAX + 8 * (rows))
#define NIZGULK_CHECKPOINT_MAX NIZGULK_CHECKPOINT_BYTES(NIZGULK_PARTITIONS_MAX * NIZGULK_ROWS_MAX)

/* ---- The numbers of 01, and of 02 from 11 on: what `number` says in a reply. */

enum nizgulk_number {
    NIZGULK_ACCEPTED = 0,
    /* from the input */
    NIZGULK_UNKNOWN_PARTITION = 1, /* the partition is above 7 */
    NIZGULK_NOT_OPEN = 2,          /* the epoch or ticket is not that of an open transaction (01: load, page) */
    NIZGULK_SHORT_OUTPUT = 3,      /* the bitmap of a scan or the output of a save has fewer bytes than its rows need */
    NIZGULK_SHORT_BITMAP = NIZGULK_SHORT_OUTPUT, /* its name before a save could meet it */
    NIZGULK_OUT_OF_RANGE = 4,      /* starting epoch, page epoch, LSE target or the epoch to save out of its range */
    /* from the state */
    NIZGULK_UNSOUND = 5,      /* the store is not sound (01, and its totals), or a lent area has another length */
    NIZGULK_EXHAUSTED = 6,    /* begin: the last epoch is given out; begin_ro: the last ticket is */
    NIZGULK_TXNS_FULL = 7,    /* begin: 32 are open or waiting; begin_ro: 32 are open */
    NIZGULK_ROWS_FULL = 8,    /* more rows than the partition has left of 512 */
    NIZGULK_ENTRIES_FULL = 9, /* an entry is needed and the partition has 64 */
    NIZGULK_BLOCKED = 10,     /* the move of LSE is held (01) by an open page, or by the deps of an open load */
    /* from a file */
    NIZGULK_CORRUPT = 11 /* a table of contents of the file is one that no save writes there */
};

/* ---- The books (01). A caller may read every field. It writes none. */

/* The clock: the next epoch (EC), the latest committed epoch (LCE), the latest safe epoch (LSE). */
struct nizgulk_clock {
    uint64_t ec;
    uint64_t lce;
    uint64_t lse;
};

/* The record of a read-write transaction (01: load). */
struct nizgulk_rw_txn {
    uint64_t epoch;
    uint64_t waiting; /* 0: open; 1: committed above LCE (01: waiting), which still takes one of the 32 places */
    size_t deps;      /* how many deps it has (01: the loads open when it began), 0 once it waits */
};

/* The records in use stand first, epochs rising; the places behind them are 0. */
struct nizgulk_rw_txns {
    struct nizgulk_rw_txn at[NIZGULK_WRITERS_MAX];
    size_t count;
};

/* An open read-only transaction (01: page) and the epoch that it was opened at. */
struct nizgulk_ro_txn {
    uint64_t ticket;
    uint64_t epoch;
};

/* The open ones stand first, tickets rising; the places behind them are 0. `next` is the ticket handed out next. */
struct nizgulk_ro_txns {
    struct nizgulk_ro_txn at[NIZGULK_READERS_MAX];
    size_t count;
    uint64_t next;
};

/* A partition (01: lot): the area it lies in, and how many rows and entries it has there. Its row i is
 * rows[NIZGULK_ROWS_MAX * area + i], its entry i is entries[NIZGULK_ENTRIES_MAX * area + i]. */
struct nizgulk_partition {
    size_t area;
    size_t rows;
    size_t entries;
};

/* `spare` is the area that no partition lies in. */
struct nizgulk_partitions {
    struct nizgulk_partition at[NIZGULK_PARTITIONS_MAX];
    size_t spare;
};

/* The deps of record i are `writers.at[i].deps` words from deps[NIZGULK_DEPS_MAX * i] on, rising; the others are 0.
 * totals[p] is the total of partition p: the milligrams of the rows that a read-only transaction at LCE would be shown,
 * added up, at most 2,199,023,255,040. A store in which a total differs from that sum is not sound. A commit and a roll
 * back move it; a purge leaves it; nizgulk_create sets all to 0, and nizgulk_recover to what it brings. */
struct nizgulk_state {
    struct nizgulk_clock clock;
    struct nizgulk_rw_txns writers;
    uint64_t deps[NIZGULK_DEPS_ALL];
    struct nizgulk_ro_txns readers;
    struct nizgulk_partitions partitions;
    uint64_t totals[NIZGULK_PARTITIONS_MAX];
};

/* ---- What is lent. A row is any 64-bit word. Its low 32 bits are milligrams, which the totals add up; the store does
 * not look at the others. */

/* An entry of a partition: an epoch, how many rows the partition holds after it, and a mark: 0 rows, 1 a delete of
 * all that stands in the partition (01: clearing). */
struct nizgulk_entry {
    uint64_t epoch;
    size_t end;
    uint64_t mark;
};

/* ---- Replies. */

/* The books after the call, the number and the values. `second` is what a commit or a roll back answers beside LCE, and
 * 0 in the reply to any other call. `from` and `count` are the part that a purge answers with, `count` rows from
 * rows[from] on, and 0 in the reply to any other call. */
struct nizgulk_reply {
    struct nizgulk_state state;
    uint64_t number;
    uint64_t value;
    uint64_t second;
    size_t from;
    size_t count;
};

/* What a scan replies: the number, the rows of the partition, and how many of them are shown. What a save replies: the
 * number, the bytes written, and 0. */
struct nizgulk_seen {
    uint64_t number;
    uint64_t value;
    uint64_t second;
};

/* ---- Making new, and read-write transactions (01: loads). */

/* Making new (01) at the epoch `start`: EC is `start`, LCE and LSE are `start` - 1, nothing is open, all partitions
 * are empty, all totals are 0, the next ticket is 1. It does not look at `state` (hand over zeros) nor into the areas,
 * and writes nothing lent.
 * Refusals, in this order: 5 (only for the lengths), 4 (`start` is not 1 to NIZGULK_LAST_EPOCH).
 * Answers no value. */
struct nizgulk_reply nizgulk_create(struct nizgulk_state state, const struct nizgulk_entry *entries, size_t entries_len,
                                    const uint64_t *rows, size_t rows_len, uint64_t start);

/* A transaction (01: load) begins, named by its epoch: EC, which goes up by one. Writes nothing lent.
 * Refusals, in this order: 5, 6 (EC is NIZGULK_LAST_EPOCH + 1), 7 (NIZGULK_WRITERS_MAX are open or waiting).
 * Answers the epoch in `value`. */
struct nizgulk_reply nizgulk_begin(struct nizgulk_state state, const struct nizgulk_entry *entries, size_t entries_len,
                                   const uint64_t *rows, size_t rows_len);

/* Transaction `txn` appends the rows of `batch` to partition `p`, in order, all or none. Writes these rows behind
 * those of the partition, and one entry: a new one, or the end of the last one where that is a rows entry of `txn`.
 * A batch of no rows writes nothing and meets neither 8 nor 9.
 * Refusals, in this order: 5, 1, 2, 8 (the batch does not fit into what is left of NIZGULK_ROWS_MAX), 9 (a new entry
 * is needed and the partition has NIZGULK_ENTRIES_MAX).
 * Answers the rows now in the partition in `value`. */
struct nizgulk_reply nizgulk_append(struct nizgulk_state state, struct nizgulk_entry *entries, size_t entries_len,
                                    uint64_t *rows, size_t rows_len, const uint64_t *batch, size_t batch_len,
                                    uint64_t txn, uint64_t p);

/* Transaction `txn` clears partition `p` (01: clear). Writes one entry, a delete that ends at the present row count,
 * and no row: who sees it is no longer shown the rows that it hides.
 * Refusals, in this order: 5, 1, 2, 9 (the partition has NIZGULK_ENTRIES_MAX entries).
 * Answers the entries now in the partition in `value`. */
struct nizgulk_reply nizgulk_clear(struct nizgulk_state state, struct nizgulk_entry *entries, size_t entries_len,
                                   uint64_t *rows, size_t rows_len, uint64_t txn, uint64_t p);

/* Transaction `txn` commits; LCE becomes the greatest committed epoch that has no open load of smaller epoch, and the
 * totals move with it. Above LCE the transaction waits (01) and keeps its place. Writes nothing lent.
 * Refusals, in this order: 5, 2.
 * Answers LCE in `value`, and in `second` the epoch of the oldest transaction that is open then, or 0. Where LCE is
 * below `txn`, that one holds it back. */
struct nizgulk_reply nizgulk_commit(struct nizgulk_state state, const struct nizgulk_entry *entries, size_t entries_len,
                                    const uint64_t *rows, size_t rows_len, uint64_t txn);

/* Transaction `txn` is rolled back: its rows and entries go from each partition, and LCE and the totals move as at a
 * commit. Each partition that has an entry of it, in rising order, is written anew to the spare area, and its old area
 * is the spare one from then on. Words beyond those written stay, and other partitions are not written.
 * Refusals, in this order: 5, 2.
 * Answers LCE in `value`, and in `second` the epoch of the oldest transaction that is open then, or 0. */
struct nizgulk_reply nizgulk_roll_back(struct nizgulk_state state, struct nizgulk_entry *entries, size_t entries_len,
                                       uint64_t *rows, size_t rows_len, uint64_t txn);

/* ---- Read-only transactions (01: pages). */

/* A read-only transaction (01: page) begins at `epoch`, from LSE to LCE; 0 means LCE. Until it ends, it is shown the
 * same rows. Writes nothing lent.
 * Refusals, in this order: 5, 4 (`epoch` is neither 0 nor from LSE to LCE), 6 (the next ticket is
 * NIZGULK_LAST_TICKET + 1), 7 (NIZGULK_READERS_MAX are open).
 * Answers its ticket in `value`. */
struct nizgulk_reply nizgulk_begin_ro(struct nizgulk_state state, const struct nizgulk_entry *entries,
                                      size_t entries_len, const uint64_t *rows, size_t rows_len, uint64_t epoch);

/* The read-only transaction of `ticket` ends (01: close). Writes nothing lent. A ticket is not given out again.
 * Refusals, in this order: 5, 2.
 * Answers how many are still open in `value`. */
struct nizgulk_reply nizgulk_end_ro(struct nizgulk_state state, const struct nizgulk_entry *entries, size_t entries_len,
                                    const uint64_t *rows, size_t rows_len, uint64_t ticket);

/* ---- Scans. A bit a row: row i is bit i % 8 of byte i / 8 of `bitmap`, 1 where it is shown. Writes
 * NIZGULK_BITMAP_BYTES(rows of the partition) bytes, the bits behind the last row 0, and no byte behind these.
 * Answers the rows of the partition in `value`, and how many ones were written in `second`. A bitmap is of use until
 * the next roll back, or purge of that partition: these may put the rows to other places. */

/* What transaction `txn` is shown of partition `p`: its own rows, and those of the loads that were committed when it
 * began, but for what a clearing hides that it sees. It sees its own: of a partition that it has cleared, it is shown
 * only the rows that it has appended since.
 * Refusals, in this order: 5, 1, 2, 3. */
struct nizgulk_seen nizgulk_scan_rw(struct nizgulk_state state, const struct nizgulk_entry *entries, size_t entries_len,
                                    const uint64_t *rows, size_t rows_len, uint8_t *bitmap, size_t bitmap_len,
                                    uint64_t txn, uint64_t p);

/* What the read-only transaction of `ticket` is shown of partition `p`: the rows of the epochs up to its own, but
 * for what a clearing of these epochs hides.
 * Refusals, in this order: 5, 1, 2, 3. */
struct nizgulk_seen nizgulk_scan_ro(struct nizgulk_state state, const struct nizgulk_entry *entries, size_t entries_len,
                                    const uint64_t *rows, size_t rows_len, uint8_t *bitmap, size_t bitmap_len,
                                    uint64_t ticket, uint64_t p);

/* ---- Making room. */

/* LSE moves to `target`, from LSE to LCE; 0 means as far as it is not held (01), and is never refused by 10. It is
 * held where an open page has an epoch below the target, or an open load has an epoch at or below it in its deps.
 * Writes nothing lent.
 * Refusals, in this order: 5, 4 (`target` is neither 0 nor from LSE to LCE), 10.
 * Answers LSE in `value`. */
struct nizgulk_reply nizgulk_advance_lse(struct nizgulk_state state, const struct nizgulk_entry *entries,
                                         size_t entries_len, const uint64_t *rows, size_t rows_len, uint64_t target);

/* Purges partition `p` at LSE: rows that clearings up to LSE hide go, and so do these clearings; the rows left of
 * epochs up to LSE get epoch LSE. Nobody is shown other rows than before, and the total stays. The partition is
 * written anew to the spare area, and its old area is the spare one from then on; words beyond those written stay.
 * Where there is nothing to do it is skipped: nothing is written.
 * Refusals, in this order: 5, 1.
 * Answers 1 (rewritten) or 0 (skipped) in `value`; in `from` and `count` the part in force (01), all rows now in the
 * partition: rows[from] to rows[from + count - 1], until the next call that writes rows. */
struct nizgulk_reply nizgulk_purge(struct nizgulk_state state, struct nizgulk_entry *entries, size_t entries_len,
                                   uint64_t *rows, size_t rows_len, uint64_t p);

/* ---- Saving and recovery. A checkpoint (02: round) is a table of contents and then the rows, all low byte first:
 *
 *   bytes 0 to 7        its epoch
 *   bytes 8 to 23       how many rows it has of each partition, 0 to 7, in 2 bytes each
 *   bytes 24 and on     these rows, partition by partition, in 8 bytes each
 *
 * Checkpoints may follow one another in a file, epochs never falling, and the file may be cut after any byte. To a file
 * that was cut nothing may be appended, as what was cut would go on with it: after a recovery another file is begun,
 * with a save at LCE. */

/* Saves all partitions as a read-only transaction (01: page) at `epoch`, from LSE to LCE, would be shown them; here 0
 * is epoch 0, and not LCE. An open transaction changes nothing of it. Writes NIZGULK_CHECKPOINT_BYTES(rows shown) bytes
 * at the front of `out`, and no byte behind these.
 * Refusals, in this order: 5, 4 (`epoch` is not from LSE to LCE), 3 (`out` has fewer bytes).
 * Answers how many bytes were written in `value`. */
struct nizgulk_seen nizgulk_save(struct nizgulk_state state, const struct nizgulk_entry *entries, size_t entries_len,
                                 const uint64_t *rows, size_t rows_len, uint8_t *out, size_t out_len, uint64_t epoch);

/* Recovery: the store becomes what the last whole checkpoint of `file` holds. With its epoch e: EC is e + 1, LCE and
 * LSE are e, nothing is open, the next ticket is 1, partition p lies in area p, and where it has rows it has one entry,
 * of epoch e; the totals are of these rows. Without a whole checkpoint the store is made new at 1. It does not look at
 * `state` (hand over zeros) nor into the areas, and writes the rows and the entries that it brings and no other word. A
 * history starts with it, as with nizgulk_create, in which the rows are those of a committed transaction e.
 * Refusals, in this order: 5 (only for the lengths), 11 (a table of contents that is whole, even if its rows are cut,
 * has more than NIZGULK_ROWS_MAX rows of a partition, an epoch above NIZGULK_LAST_EPOCH or below that of the checkpoint
 * before, or epoch 0 and rows; nothing of such a file is taken).
 * Answers no value. */
struct nizgulk_reply nizgulk_recover(struct nizgulk_state state, struct nizgulk_entry *entries, size_t entries_len,
                                     uint64_t *rows, size_t rows_len, const uint8_t *file, size_t file_len);

#ifdef __cplusplus
}
#endif

#endif
