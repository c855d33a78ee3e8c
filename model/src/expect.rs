//! A second reading of calls: refusals as a table, row by row (01, "The books", "Lots", refusals; 02, (i) to (iii),
//! (v)).
//!
//! It uses the shape of the books, the test of *sound*, and nothing else of the store's code, so that the two
//! can be compared word for word.

use crate::call::{Answer, Call};
use crate::partition::{Entry, Partition};
use crate::sound::{lengths_right, well_formed};
use crate::store::{Closed, LivePart, Manager, Purged, Scanned, Store};
use crate::txn::{RoTxn, RwTxn};
use crate::visible::Reader;
use std::collections::{BTreeMap, BTreeSet};

/// The order in which refusals are checked.
const ORDER: [u64; 11] = [5, 1, 2, 4, 3, 6, 7, 8, 9, 10, 11];

/// All refusals whose condition holds for the call, in the order in which they are checked.
/// In a store that is not well-formed the others have no meaning.
pub fn due(store: &Store, call: &Call) -> Vec<u64> {
    if let Call::New { start } = call {
        let mut due = Vec::new();
        if !lengths_right(store) {
            due.push(5);
        }
        if *start == 0 || *start > 2_147_483_647 {
            due.push(4);
        }
        return due;
    }
    if let Call::Recover { file } = call {
        let mut due = Vec::new();
        if !lengths_right(store) {
            due.push(5);
        }
        if matches!(read_file(file).end, End::Corrupt(_)) {
            due.push(11);
        }
        return due;
    }
    if !well_formed(store) {
        return vec![5];
    }
    let Manager { clock, rw, ro, partitions, .. } = &store.manager;
    let no_txn =
        |epoch: u64| !(0..rw.count as usize).any(|i| rw.at[i].epoch == epoch && rw.at[i].waiting == 0);
    let no_ro = |ticket: u64| !(0..ro.count as usize).any(|i| ro.at[i].ticket == ticket);
    let at = |p: u64| partitions.at.get(p.min(8) as usize);
    let mut holds = [false; 12];
    match call {
        Call::New { .. } | Call::Recover { .. } => {}
        Call::Begin => {
            holds[6] = clock.ec == 2_147_483_648;
            holds[7] = rw.count == 32;
        }
        Call::Append { epoch, partition, rows } => {
            holds[1] = *partition > 7;
            holds[2] = no_txn(*epoch);
            if let Some(part) = at(*partition) {
                holds[8] = part.rows + rows.len() as u64 > 512;
                let last =
                    (part.entries > 0).then(|| store.entries[(part.area * 64 + part.entries - 1) as usize]);
                let moves_end = last.is_some_and(|last| last.mark == 0 && last.epoch == *epoch);
                holds[9] = part.entries == 64 && !rows.is_empty() && !moves_end;
            }
        }
        Call::Clear { epoch, partition } => {
            holds[1] = *partition > 7;
            holds[2] = no_txn(*epoch);
            holds[9] = at(*partition).is_some_and(|part| part.entries == 64);
        }
        Call::Commit { epoch } | Call::Rollback { epoch } => holds[2] = no_txn(*epoch),
        Call::Open { epoch } => {
            holds[4] = *epoch != 0 && (*epoch < clock.lse || *epoch > clock.lce);
            holds[6] = ro.next == 4_294_967_296;
            holds[7] = ro.count == 32;
        }
        Call::Close { ticket } => holds[2] = no_ro(*ticket),
        Call::MoveLse { target } => {
            holds[4] = *target != 0 && (*target < clock.lse || *target > clock.lce);
            holds[10] = *target != 0 && blocked(&store.manager, *target);
        }
        Call::Purge { partition } => holds[1] = *partition > 7,
        Call::Scan { reader, partition, lent } => {
            holds[1] = *partition > 7;
            holds[2] = match reader {
                Reader::Rw(epoch) => no_txn(*epoch),
                Reader::Ro(ticket) => no_ro(*ticket),
            };
            holds[3] = at(*partition).is_some_and(|part| (*lent as u64) * 8 < part.rows);
        }
        Call::Save { epoch, lent } => {
            holds[4] = *epoch < clock.lse || *epoch > clock.lce;
            holds[3] = *lent < 24 + 8 * (0..8).map(|p| words_at(store, *epoch, p).len()).sum::<usize>();
        }
    }
    ORDER.into_iter().filter(|&number| holds[number as usize]).collect()
}

/// *Held*.
fn blocked(books: &Manager, target: u64) -> bool {
    let ro_txns = &books.ro.at[..books.ro.count as usize];
    let rw_txns = &books.rw.at[..books.rw.count as usize];
    ro_txns.iter().any(|ro_txn| ro_txn.epoch < target)
        || rw_txns.iter().any(|rw_txn| {
            rw_txn.waiting == 0 && rw_txn.deps[..rw_txn.deps_count as usize].iter().any(|&dep| dep <= target)
        })
}

/// A row or a clearing of a lot, by itself. `gap` is set for a row that only a clearing's end brings.
#[derive(Clone, Copy, Debug, PartialEq, Eq)]
pub enum Item {
    Row { epoch: u64, word: u64, gap: bool },
    Clearing { epoch: u64 },
}

impl Item {
    fn epoch(&self) -> u64 {
        match self {
            Item::Row { epoch, .. } | Item::Clearing { epoch } => *epoch,
        }
    }
}

/// The rows and clearings of a lot in their order.
pub fn items(store: &Store, p: usize) -> Vec<Item> {
    let part = &store.manager.partitions.at[p];
    let mut items = Vec::new();
    let mut row = 0;
    for i in 0..part.entries {
        let Entry { epoch, end, mark } = store.entries[(part.area * 64 + i) as usize];
        while row < end {
            items.push(Item::Row {
                epoch,
                word: store.rows[(part.area * 512 + row) as usize],
                gap: mark == 1,
            });
            row += 1;
        }
        if mark == 1 {
            items.push(Item::Clearing { epoch });
        }
    }
    items
}

/// Writes a lot from its items into the area `area`.
fn put(store: &mut Store, p: usize, area: u64, items: &[Item]) {
    let mut entries: Vec<Entry> = Vec::new();
    let mut rows = 0;
    for item in items {
        match *item {
            Item::Row { epoch, word, gap } => {
                store.rows[(area * 512 + rows) as usize] = word;
                rows += 1;
                if gap {
                    continue;
                }
                match entries.last_mut() {
                    Some(last) if last.mark == 0 && last.epoch == epoch => last.end = rows,
                    _ => entries.push(Entry { epoch, end: rows, mark: 0 }),
                }
            }
            Item::Clearing { epoch } => entries.push(Entry { epoch, end: rows, mark: 1 }),
        }
    }
    for (i, entry) in entries.iter().enumerate() {
        store.entries[area as usize * 64 + i] = *entry;
    }
    store.manager.partitions.at[p] = Partition { area, rows, entries: entries.len() as u64 };
}

/// Writes a lot from its items into the spare area; the old one becomes the spare.
fn put_in_spare(store: &mut Store, p: usize, items: &[Item]) {
    let old = store.manager.partitions.at[p].area;
    let spare = store.manager.partitions.spare;
    put(store, p, spare, items);
    store.manager.partitions.spare = old;
}

/// What a purge at L leaves of the items, or nothing where it is skipped.
pub fn purged_items(items: &[Item], l: u64) -> Option<Vec<Item>> {
    let applied = |item: &Item| matches!(item, Item::Clearing { epoch } if *epoch <= l);
    if !items.iter().any(|item| item.epoch() < l || applied(item)) {
        return None;
    }
    let greatest = items.iter().filter(|item| applied(item)).map(Item::epoch).max().unwrap_or(0);
    // From the back: the applied clearings already passed stand after the row.
    let mut passed = BTreeSet::new();
    let mut left = Vec::new();
    for item in items.iter().rev() {
        match *item {
            Item::Clearing { epoch } if epoch <= l => {
                passed.insert(epoch);
            }
            Item::Clearing { .. } => left.push(*item),
            Item::Row { epoch, word, gap } => {
                if epoch >= greatest && !passed.contains(&epoch) {
                    left.push(Item::Row { epoch: epoch.max(l), word, gap });
                }
            }
        }
    }
    left.reverse();
    Some(left)
}

/// Whether a reader is shown each row, row by row.
fn bits(store: &Store, reader: Reader, p: usize) -> Vec<bool> {
    let books = &store.manager;
    let (last, unseen): (u64, &[u64]) = match reader {
        Reader::Rw(epoch) => {
            let rw_txn = books.rw.at.iter().find(|rw_txn| rw_txn.epoch == epoch).expect("an open load");
            (epoch, &rw_txn.deps[..rw_txn.deps_count as usize])
        }
        Reader::Ro(ticket) => {
            let ro_txn = books.ro.at.iter().find(|ro_txn| ro_txn.ticket == ticket).expect("an open page");
            (ro_txn.epoch, &[])
        }
    };
    shown(&items(store, p), last, unseen)
}

/// Whether each row is shown to who sees the epochs up to `last` but for `unseen`.
fn shown(items: &[Item], last: u64, unseen: &[u64]) -> Vec<bool> {
    let seen = |epoch: u64| epoch <= last && !unseen.contains(&epoch);
    let clearings = items.iter().filter(|item| matches!(item, Item::Clearing { .. })).map(Item::epoch);
    let greatest = clearings.filter(|&epoch| seen(epoch)).max().unwrap_or(0);
    // From the back: the clearings already passed stand after the row.
    let mut passed = BTreeSet::new();
    let mut bits = Vec::new();
    for item in items.iter().rev() {
        match *item {
            Item::Clearing { epoch } => {
                passed.insert(epoch);
            }
            Item::Row { epoch, .. } => {
                let hidden = epoch < greatest || passed.contains(&epoch);
                bits.push(seen(epoch) && !hidden);
            }
        }
    }
    bits.reverse();
    bits
}

/// The words of a lot that a page at this epoch would be shown.
fn words_at(store: &Store, epoch: u64, p: usize) -> Vec<u64> {
    let items = items(store, p);
    let words = items.iter().filter_map(|item| match item {
        Item::Row { word, .. } => Some(*word),
        Item::Clearing { .. } => None,
    });
    words.zip(shown(&items, epoch, &[])).filter(|(_, shown)| *shown).map(|(word, _)| word).collect()
}

/// The totals worked out afresh: the low 32 bits of each row that a page at LCE would show.
fn totals(store: &Store) -> [u64; 8] {
    let lce = store.manager.clock.lce;
    std::array::from_fn(|p| words_at(store, lce, p).iter().map(|word| word % (1 << 32)).sum())
}

/// A file of rounds as it is read from its first byte on.
#[derive(Clone, Debug, PartialEq, Eq)]
pub struct FileRead {
    /// Each whole round: L, and the words of each lot.
    pub whole: Vec<(u64, Vec<Vec<u64>>)>,
    pub end: End,
}

/// What stands behind the whole rounds of a file.
#[derive(Clone, Copy, Debug, PartialEq, Eq)]
pub enum End {
    Nothing,
    /// Fewer bytes than a table of contents has.
    CutContents,
    /// A table of contents, and fewer bytes than its bodies have.
    CutBody,
    /// A table of contents that is refused.
    Corrupt(Flaws),
}

/// What is wrong in a table of contents, and whether its bodies are whole.
#[derive(Clone, Copy, Debug, PartialEq, Eq)]
pub struct Flaws {
    pub count: bool,
    pub above: bool,
    pub falls: bool,
    pub zero: bool,
    pub whole: bool,
}

/// Reads a file round by round, up to the first table of contents that is refused.
pub fn read_file(file: &[u8]) -> FileRead {
    let number = |from: usize, width: usize| {
        (0..width).map(|i| u64::from(file[from + i]) * 256_u64.pow(i as u32)).sum::<u64>()
    };
    let mut whole: Vec<(u64, Vec<Vec<u64>>)> = Vec::new();
    let mut at = 0;
    let end = loop {
        let left = file.len() - at;
        if left < 24 {
            break if left == 0 { End::Nothing } else { End::CutContents };
        }
        let l = number(at, 8);
        let counts: Vec<usize> = (0..8).map(|p| number(at + 8 + 2 * p, 2) as usize).collect();
        let all: usize = counts.iter().sum();
        let flaws = Flaws {
            count: counts.iter().any(|&count| count > 512),
            above: l > 2_147_483_647,
            falls: whole.last().is_some_and(|&(before, _)| l < before),
            zero: l == 0 && all > 0,
            whole: left >= 24 + 8 * all,
        };
        if flaws.count || flaws.above || flaws.falls || flaws.zero {
            break End::Corrupt(flaws);
        }
        if !flaws.whole {
            break End::CutBody;
        }
        at += 24;
        let mut lots = Vec::new();
        for count in counts {
            lots.push((0..count).map(|row| number(at + 8 * row, 8)).collect());
            at += 8 * count;
        }
        whole.push((l, lots));
    };
    FileRead { whole, end }
}

/// Makes the store what the call must leave and the lent bytes what they must be. Answers number and values.
pub fn step(store: &mut Store, call: &Call, lent: &mut [u8]) -> (u64, Answer) {
    if let Some(&number) = due(store, call).first() {
        return (number, Answer::Nothing);
    }
    let answer = accepted(store, call, lent);
    store.manager.totals = totals(store);
    (0, answer)
}

fn accepted(store: &mut Store, call: &Call, lent: &mut [u8]) -> Answer {
    let value = match call {
        Call::New { start } => {
            make_new(&mut store.manager, *start);
            return Answer::Nothing;
        }
        Call::Begin => {
            let mut rw_txns = rw_txns(&store.manager);
            let open = rw_txns.iter().filter(|(_, (waiting, _))| !waiting).map(|(&epoch, _)| epoch).collect();
            let epoch = store.manager.clock.ec;
            rw_txns.insert(epoch, (false, open));
            put_rw_txns(&mut store.manager, &rw_txns);
            store.manager.clock.ec = epoch + 1;
            epoch
        }
        Call::Append { epoch, partition, rows } => {
            let p = *partition as usize;
            let mut list = items(store, p);
            list.extend(rows.iter().map(|&word| Item::Row { epoch: *epoch, word, gap: false }));
            let area = store.manager.partitions.at[p].area;
            put(store, p, area, &list);
            store.manager.partitions.at[p].rows
        }
        Call::Clear { epoch, partition } => {
            let p = *partition as usize;
            let mut list = items(store, p);
            list.push(Item::Clearing { epoch: *epoch });
            let area = store.manager.partitions.at[p].area;
            put(store, p, area, &list);
            store.manager.partitions.at[p].entries
        }
        Call::Commit { epoch } => {
            let mut rw_txns = rw_txns(&store.manager);
            rw_txns.insert(*epoch, (true, Vec::new()));
            return Answer::Closed(let_go_of_settled(&mut store.manager, rw_txns));
        }
        Call::Rollback { epoch } => {
            for p in 0..8 {
                let list = items(store, p);
                let kept: Vec<Item> = list.iter().filter(|item| item.epoch() != *epoch).copied().collect();
                if kept.len() < list.len() {
                    put_in_spare(store, p, &kept);
                }
            }
            let mut rw_txns = rw_txns(&store.manager);
            rw_txns.remove(epoch);
            return Answer::Closed(let_go_of_settled(&mut store.manager, rw_txns));
        }
        Call::Open { epoch } => {
            let books = &mut store.manager;
            let epoch = if *epoch == 0 { books.clock.lce } else { *epoch };
            let ticket = books.ro.next;
            books.ro.at[books.ro.count as usize] = RoTxn { ticket, epoch };
            books.ro.count += 1;
            books.ro.next = ticket + 1;
            ticket
        }
        Call::Close { ticket } => {
            let ro = &mut store.manager.ro;
            let at = ro.at.iter().position(|ro_txn| ro_txn.ticket == *ticket).expect("an open page");
            ro.at[at..].rotate_left(1);
            ro.at[31] = RoTxn { ticket: 0, epoch: 0 };
            ro.count -= 1;
            ro.count
        }
        Call::MoveLse { target } => {
            let books = &store.manager;
            let target = if *target == 0 {
                let ro_txns = books.ro.at.iter().map(|ro_txn| ro_txn.epoch);
                let deps = books.rw.at.iter().flat_map(|rw_txn| rw_txn.deps).map(|dep| dep.saturating_sub(1));
                let ends = [books.clock.lse, books.clock.lce].into_iter();
                let candidates = ro_txns.chain(deps).chain(ends);
                let in_range = candidates.filter(|t| (books.clock.lse..=books.clock.lce).contains(t));
                in_range.filter(|&t| !blocked(books, t)).max().expect("LSE is not held")
            } else {
                *target
            };
            store.manager.clock.lse = target;
            target
        }
        Call::Purge { partition } => {
            let p = *partition as usize;
            let left = purged_items(&items(store, p), store.manager.clock.lse);
            let rewritten = left.is_some();
            if let Some(left) = left {
                put_in_spare(store, p, &left);
            }
            let part = &store.manager.partitions.at[p];
            let live = LivePart { place: part.area * 512, count: part.rows };
            return Answer::Purged(Purged { rewritten, live });
        }
        Call::Scan { reader, partition, .. } => {
            let bits = bits(store, *reader, *partition as usize);
            for (byte, eight) in lent.iter_mut().zip(bits.chunks(8)) {
                *byte = eight.iter().rev().fold(0, |byte, &bit| byte << 1 | u8::from(bit));
            }
            let ones = bits.iter().filter(|&&bit| bit).count() as u64;
            return Answer::Scanned(Scanned { rows: bits.len() as u64, ones });
        }
        Call::Save { epoch, .. } => {
            let lots: Vec<Vec<u64>> = (0..8).map(|p| words_at(store, *epoch, p)).collect();
            let counts = lots.iter().map(|lot| (lot.len() as u64, 2));
            let words = lots.iter().flatten().map(|&word| (word, 8));
            let mut at = 0;
            for (number, width) in [(*epoch, 8)].into_iter().chain(counts).chain(words) {
                for byte in 0..width {
                    lent[at] = (number / 256_u64.pow(byte) % 256) as u8;
                    at += 1;
                }
            }
            at as u64
        }
        Call::Recover { file } => {
            let read = read_file(file);
            match read.whole.last() {
                None => make_new(&mut store.manager, 1),
                Some((l, lots)) => {
                    make_new(&mut store.manager, l + 1);
                    for (p, lot) in lots.iter().enumerate() {
                        let row = |&word| Item::Row { epoch: *l, word, gap: false };
                        put(store, p, p as u64, &lot.iter().map(row).collect::<Vec<_>>());
                    }
                }
            }
            return Answer::Nothing;
        }
    };
    Answer::Value(value)
}

/// Makes the books new.
fn make_new(books: &mut Manager, start: u64) {
    let zero_txn = RwTxn { epoch: 0, waiting: 0, deps: [0; 31], deps_count: 0 };
    (books.clock.ec, books.clock.lce, books.clock.lse) = (start, start - 1, start - 1);
    books.rw.at = [zero_txn; 32];
    books.rw.count = 0;
    books.ro.at = [RoTxn { ticket: 0, epoch: 0 }; 32];
    books.ro.count = 0;
    books.ro.next = 1;
    for p in 0..8 {
        books.partitions.at[p] = Partition { area: p as u64, rows: 0, entries: 0 };
    }
    books.partitions.spare = 8;
}

/// Load records by epoch: whether each waits, and its deps.
type RwTxns = BTreeMap<u64, (bool, Vec<u64>)>;

fn rw_txns(books: &Manager) -> RwTxns {
    let used = &books.rw.at[..books.rw.count as usize];
    used.iter()
        .map(|rw_txn| {
            (rw_txn.epoch, (rw_txn.waiting == 1, rw_txn.deps[..rw_txn.deps_count as usize].to_vec()))
        })
        .collect()
}

fn put_rw_txns(books: &mut Manager, rw_txns: &RwTxns) {
    for i in 0..32 {
        books.rw.at[i] = RwTxn { epoch: 0, waiting: 0, deps: [0; 31], deps_count: 0 };
    }
    for (i, (&epoch, (waiting, deps))) in rw_txns.iter().enumerate() {
        books.rw.at[i].epoch = epoch;
        books.rw.at[i].waiting = u64::from(*waiting);
        books.rw.at[i].deps[..deps.len()].copy_from_slice(deps);
        books.rw.at[i].deps_count = deps.len() as u64;
    }
    books.rw.count = rw_txns.len() as u64;
}

/// From the lowest epoch up: committed loads move LCE and go, until the first open one, which is the oldest.
fn let_go_of_settled(books: &mut Manager, mut rw_txns: RwTxns) -> Closed {
    let mut oldest = 0;
    while let Some(first) = rw_txns.first_entry() {
        if !first.get().0 {
            oldest = *first.key();
            break;
        }
        books.clock.lce = first.remove_entry().0;
    }
    put_rw_txns(books, &rw_txns);
    Closed { lce: books.clock.lce, oldest }
}
