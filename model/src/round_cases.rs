//! The fixed cases of saved rounds, every byte written out (02, (v)).

use crate::call::{number_of, Answer, Call, LENT_FILL};
use crate::cases::{same, Told};
use crate::check::{Checked, Checks, Outcome};
use crate::ledger::Ledger;
use crate::partition::{Entry, CLEARING, ROWS};
use crate::session::{parse, print};
use crate::store::{Manager, Store};
use crate::txn::{RoTable, RwTable};
use crate::{AREA_ROWS, EPOCH_END, LAST_EPOCH};

/// What a save at epoch 0 writes.
const AT_0: [u8; 24] = [0; 24];

/// What a save at epoch 1 of `worked_store` writes: two rows of lot 0 and one of lot 7.
#[rustfmt::skip]
const AT_1: [u8; 48] = [
    0x01, 0x00, 0x00, 0x00, 0x00, 0x00, 0x00, 0x00,
    0x02, 0x00, 0x00, 0x00, 0x00, 0x00, 0x00, 0x00, 0x00, 0x00, 0x00, 0x00, 0x00, 0x00, 0x01, 0x00,
    0x01, 0x02, 0x03, 0x04, 0x05, 0x06, 0x07, 0x08,
    0x05, 0x00, 0x00, 0x00, 0x00, 0x00, 0x00, 0x00,
    0xff, 0xff, 0xff, 0xff, 0xff, 0xff, 0xff, 0xff,
];

/// And at epoch 2: lot 0 was cleared and has another row, lot 3 has one more.
#[rustfmt::skip]
const AT_2: [u8; 48] = [
    0x02, 0x00, 0x00, 0x00, 0x00, 0x00, 0x00, 0x00,
    0x01, 0x00, 0x00, 0x00, 0x00, 0x00, 0x01, 0x00, 0x00, 0x00, 0x00, 0x00, 0x00, 0x00, 0x01, 0x00,
    0x09, 0x00, 0x00, 0x00, 0x00, 0x00, 0x00, 0x00,
    0x00, 0x01, 0x00, 0x00, 0x00, 0x00, 0x00, 0x80,
    0xff, 0xff, 0xff, 0xff, 0xff, 0xff, 0xff, 0xff,
];

/// A table of contents of the last epoch, lots of 512 and of 258 rows, and one of 1.
#[rustfmt::skip]
const LONG_CONTENTS: [u8; 24] = [
    0xff, 0xff, 0xff, 0x7f, 0x00, 0x00, 0x00, 0x00,
    0x00, 0x02, 0x02, 0x01, 0x00, 0x00, 0x00, 0x00, 0x01, 0x00, 0x00, 0x00, 0x00, 0x00, 0x00, 0x00,
];

/// Runs session lines with every check, each with its answer.
fn lines(checked: &mut Checked, input: &str, output: &str) -> Told {
    for (line, expected) in input.split("; ").zip(output.split("; ")) {
        let call = parse(line.as_bytes()).ok_or("no call")?;
        let outcome = checked.call(&call)?;
        same(line, print(&call, &outcome.answer, &checked.store, &outcome.lent).as_str(), expected)?;
    }
    same("lines and answers", input.split("; ").count(), output.split("; ").count())
}

/// Loads 1 and 2 are committed, and load 3 is open with a row and a clearing.
fn worked_store() -> Result<Checked, String> {
    let mut checked = Checked::new(Store::new(1), Ledger::new(1), Checks::ALL);
    lines(
        &mut checked,
        "B; A 1 0 578437695752307201 5; A 1 7 18446744073709551615; C 1; B; D 2 0; A 2 0 9; \
         A 2 3 9223372036854776064; C 2; B; A 3 1 77; D 3 7",
        "B 0 1; A 0 2; A 0 1; C 0 1 0; B 0 2; D 0 2; A 0 3; A 0 1; C 0 2 0; B 0 3; A 0 1; D 0 2",
    )?;
    Ok(checked)
}

/// A save lent so many bytes is accepted, and writes these bytes and none behind them.
fn saves(checked: &mut Checked, epoch: u64, lent: usize, bytes: &[u8]) -> Told {
    let outcome = checked.call(&Call::Save { epoch, lent })?;
    let what = format!("a save at {epoch} into {lent} bytes");
    same(&what, outcome.answer, Ok(Answer::Value(bytes.len() as u64)))?;
    same(&what, &outcome.lent[..bytes.len()], bytes)?;
    same(&what, &outcome.lent[bytes.len()..], &vec![LENT_FILL; lent - bytes.len()])
}

/// A save lent so many bytes is refused by this number, and writes none.
fn save_is_refused(checked: &mut Checked, epoch: u64, lent: usize, number: u64) -> Told {
    let Outcome { answer, lent: written } = checked.call(&Call::Save { epoch, lent })?;
    let what = format!("a save at {epoch} into {lent} bytes");
    same(&what, (number_of(&answer), written), (number, vec![LENT_FILL; lent]))
}

fn recovers(checked: &mut Checked, file: &[u8]) -> Told {
    let answer = checked.call(&Call::Recover { file: file.to_vec() })?.answer;
    same("a recovery", answer, Ok(Answer::Nothing))
}

/// Books without a load and a page, at these epochs.
fn books_at(ec: u64, lce: u64) -> Manager {
    let mut books = Manager::starting_at(1);
    (books.clock.ec, books.clock.lce, books.clock.lse) = (ec, lce, lce);
    books
}

/// What the first `cut` bytes of the two worked rounds are recovered to, in areas whose words are 7 each.
fn worked_recovery(cut: usize) -> Store {
    let mut store = any_areas();
    store.manager = books_at(1, 0);
    let mut lot = |p: usize, epoch: u64, rows: &[u64], total: u64| {
        store.rows[512 * p..512 * p + rows.len()].copy_from_slice(rows);
        store.entries[64 * p] = Entry { epoch, end: rows.len() as u64, mark: ROWS };
        let part = &mut store.manager.partitions.at[p];
        (part.rows, part.entries) = (rows.len() as u64, 1);
        store.manager.totals[p] = total;
    };
    match cut {
        0..48 => {}
        48..96 => {
            lot(0, 1, &[0x0807_0605_0403_0201, 5], 0x0403_0206);
            lot(7, 1, &[u64::MAX], 0xffff_ffff);
            store.manager.clock = books_at(2, 1).clock;
        }
        _ => {
            lot(0, 2, &[9], 9);
            lot(3, 2, &[0x8000_0000_0000_0100], 0x100);
            lot(7, 2, &[u64::MAX], 0xffff_ffff);
            store.manager.clock = books_at(3, 2).clock;
        }
    }
    store
}

/// A store in use, without rows, in areas whose words are 7 each.
fn any_areas() -> Store {
    let mut store = Store::new(50);
    store.manager.ro.next = 9;
    store.rows.fill(7);
    store.entries.fill(Entry { epoch: 7, end: 7, mark: 7 });
    store
}

pub fn saved_bytes() -> Told {
    let mut checked = worked_store()?;
    for (epoch, bytes) in [(0, &AT_0[..]), (1, &AT_1), (2, &AT_2)] {
        for lent in [bytes.len(), bytes.len() + 1, 99] {
            saves(&mut checked, epoch, lent, bytes)?;
        }
        for lent in [bytes.len() - 1, 23, 0] {
            save_is_refused(&mut checked, epoch, lent, 3)?;
        }
    }
    // Nothing to show is 24 bytes, at whichever epoch.
    let mut empty = Checked::new(Store::new(300), Ledger::new(300), Checks::ALL);
    let contents = [&[0x2b, 0x01][..], &[0; 22]].concat();
    saves(&mut empty, 299, 30, &contents)
}

pub fn saved_in_range() -> Told {
    let mut checked = worked_store()?;
    lines(&mut checked, "C 3; L 1", "C 0 3 0; L 0 1")?;
    for (epoch, number) in [(0, 4), (1, 0), (2, 0), (3, 0), (4, 4), (LAST_EPOCH, 4), (u64::MAX, 4)] {
        let answer = checked.call(&Call::Save { epoch, lent: 200 })?.answer;
        same(&format!("a save at {epoch}"), number_of(&answer), number)?;
        // Of an epoch out of range and a short output the first is told.
        save_is_refused(&mut checked, epoch, 0, if number == 0 { 3 } else { 4 })?;
    }
    let mut unsound = checked.store;
    unsound.manager.totals[7] += 1;
    save_is_refused(&mut Checked::without_ledger(unsound), 4, 0, 5)
}

pub fn saved_beside_loads() -> Told {
    // Loads that are open or waiting, and pages, change nothing of a save.
    let mut checked = worked_store()?;
    for (input, output) in [
        ("B; A 4 0 6; D 4 3; C 4", "B 0 4; A 0 4; D 0 2; C 0 2 3"),
        ("R 1; A 3 0 8; D 3 0", "R 0 1; A 0 5; D 0 6"),
    ] {
        lines(&mut checked, input, output)?;
        saves(&mut checked, 1, 48, &AT_1)?;
        saves(&mut checked, 2, 48, &AT_2)?;
    }
    // When both have landed, the rounds of 1 and 2 are what they were.
    lines(&mut checked, "C 3", "C 0 4 0")?;
    saves(&mut checked, 1, 48, &AT_1)?;
    saves(&mut checked, 2, 48, &AT_2)?;
    let at_4 =
        [&[4, 0, 0, 0, 0, 0, 0, 0, 1, 0, 1, 0][..], &[0; 12], &6_u64.to_le_bytes(), &77_u64.to_le_bytes()];
    saves(&mut checked, 4, 48, &at_4.concat()[..40])
}

pub fn saved_full() -> Told {
    // All lots of 512 rows: 32,792 bytes, each count 0x0200.
    let mut checked = Checked::new(Store::new(LAST_EPOCH), Ledger::new(LAST_EPOCH), Checks::ALL);
    checked.call(&Call::Begin)?;
    let mut bytes = LAST_EPOCH.to_le_bytes().to_vec();
    bytes.extend([0x00, 0x02].repeat(8));
    for partition in 0..8 {
        let rows: Vec<u64> = (0..512).map(|row| row << 56 | partition << 32 | (row * 8_388_609)).collect();
        bytes.extend(rows.iter().flat_map(|row| row.to_le_bytes()));
        checked.call(&Call::Append { epoch: LAST_EPOCH, partition, rows })?;
    }
    checked.call(&Call::Commit { epoch: LAST_EPOCH })?;
    same("bytes", bytes.len(), 32_792)?;
    saves(&mut checked, LAST_EPOCH, 32_792, &bytes)?;
    save_is_refused(&mut checked, LAST_EPOCH, 32_791, 3)?;
    let totals = checked.store.manager.totals;
    recovers(&mut checked, &bytes)?;
    same("EC", checked.store.manager.clock.ec, EPOCH_END)?;
    same("totals", checked.store.manager.totals, totals)?;
    lines(&mut checked, "B; R 0; R 1; L 0", "B 6; R 0 1; R 4; L 0 2147483647")
}

pub fn recovered_words() -> Told {
    let file = [AT_1, AT_2].concat();
    let mut store = worked_store()?.store;
    store.rows.fill(7);
    store.entries.fill(Entry { epoch: 7, end: 7, mark: 7 });
    // The books are not read: these are unsound, with loads and pages, lots in other areas and tickets given out.
    store.manager.ro = RoTable { next: 9, count: 40, ..RoTable::default() };
    store.manager.partitions.at[0].area = 8;
    store.manager.partitions.spare = 0;
    let mut checked = Checked::new(store, Ledger::new(1), Checks::ALL);
    recovers(&mut checked, &file)?;
    let books = &checked.store.manager;
    same("clock", (books.clock.ec, books.clock.lce, books.clock.lse), (3, 2, 2))?;
    same("loads", books.rw, RwTable::default())?;
    same("pages", books.ro, RoTable { next: 1, ..RoTable::default() })?;
    let lots = books.partitions.at.map(|part| (part.area, part.rows, part.entries));
    let empty = |area| (area, 0, 0);
    let ought = [(0, 1, 1), empty(1), empty(2), (3, 1, 1), empty(4), empty(5), empty(6), (7, 1, 1)];
    same("lots", lots, ought)?;
    same("spare", books.partitions.spare, 8)?;
    same("totals", books.totals, [9, 0, 0, 0x100, 0, 0, 0, 0xffff_ffff])?;
    same("all words", checked.store == worked_recovery(96), true)
}

pub fn recovered_cuts() -> Told {
    let file = [AT_1, AT_2].concat();
    for cut in 0..=file.len() {
        let mut checked = Checked::new(any_areas(), Ledger::new(1), Checks::ALL);
        recovers(&mut checked, &file[..cut])?;
        same(&format!("cut after {cut} bytes"), checked.store == worked_recovery(cut), true)?;
    }
    // A round without rows is whole with its table of contents: it takes away what the round before had.
    let last = [&[2, 0, 0, 0, 0, 0, 0, 0][..], &[0; 16]].concat();
    for cut in 48..72 {
        let mut checked = Checked::new(any_areas(), Ledger::new(1), Checks::ALL);
        recovers(&mut checked, &[&AT_1[..], &last].concat()[..cut])?;
        same(&format!("cut after {cut} bytes"), checked.store == worked_recovery(48), true)?;
    }
    let mut checked = Checked::new(any_areas(), Ledger::new(1), Checks::ALL);
    recovers(&mut checked, &[&AT_1[..], &last].concat())?;
    same("an empty round", (checked.store.manager, checked.store.rows[0]), (books_at(3, 2), 7))
}

pub fn recovered_corrupt() -> Told {
    // What is put into a table of contents, from which of its bytes on; the reason; and whether it is one only behind a
    // round of epoch 1, and then without a body.
    let edits: [(usize, &[u8], &str, bool); 14] = [
        (8, &[0x01, 0x02], "513 rows in lot 0", false),
        (22, &[0x01, 0x02], "513 rows in lot 7", false),
        (12, &[0xff, 0xff], "65,535 rows", false),
        (10, &[0x00, 0x80], "32,768 rows", false),
        (9, &[0x02, 0x00], "514 rows", false),
        (0, &[0, 0, 0, 0x80, 0, 0, 0, 0], "2,147,483,648", false),
        (0, &[0xff, 0xff, 0xff, 0x7f, 1, 0, 0, 0], "above 32 bits", false),
        (0, &[2, 0, 0, 0, 0, 0, 0, 1], "the highest byte", false),
        (0, &[0xff; 8], "the greatest epoch", false),
        (0, &[0; 8], "0 with rows", false),
        (
            0,
            &[0, 0, 0, 0, 0, 0, 0, 0, 0, 0, 0, 0, 0, 0, 0, 0, 0, 0, 0, 0, 0, 0, 1, 0],
            "0 with a row of lot 7",
            false,
        ),
        (0, &[0; 24], "0 behind 1", true),
        (0, &[0, 0, 0, 0x80, 0, 0, 0, 0, 1, 2, 1, 2, 1, 2, 1, 2, 1, 2, 1, 2, 1, 2, 1, 2], "all of it", false),
        (8, &[1, 2, 1, 2, 1, 2, 1, 2, 1, 2, 1, 2, 1, 2, 1, 2], "513 rows in every lot", false),
    ];
    for (at, bytes, what, behind) in edits {
        let mut spoilt = AT_2;
        spoilt[at..at + bytes.len()].copy_from_slice(bytes);
        for before in [&[][..], &AT_0, &AT_1, &[&AT_0[..], &AT_0, &AT_1, &AT_1].concat()] {
            let round = if behind { &spoilt[..24] } else { &spoilt };
            let file = [before, round, &AT_2].concat();
            let refused = !behind || before.len() > 24;
            for cut in before.len()..=file.len() {
                // From its 24th byte on it is judged, whether its body is whole or not.
                let due = if cut >= before.len() + 24 && refused { 11 } else { 0 };
                let mut checked = Checked::new(any_areas(), Ledger::new(1), Checks::ALL);
                let outcome = checked.call(&Call::Recover { file: file[..cut].to_vec() })?;
                same(&format!("{what}, cut after {cut} bytes"), number_of(&outcome.answer), due)?;
                if due == 11 {
                    same("the store", checked.store == any_areas(), true)?;
                }
            }
        }
    }
    // It is refused whole: a history goes on as if nothing had been asked.
    let mut checked = worked_store()?;
    let answer = checked.call(&Call::Recover { file: [AT_2, AT_1].concat() })?.answer;
    same("1 behind 2", number_of(&answer), 11)?;
    lines(&mut checked, "C 3; R 0; S p1 0; S p1 1", "C 0 3 0; R 0 1; S 0 9; S 0 77")
}

pub fn recovered_at_the_edges() -> Told {
    let new = books_at(1, 0);
    for file in
        [&[][..], &[0xff; 23], &AT_1[..47], &AT_0, &AT_0.repeat(3), &[&AT_0[..], &[0xff; 23]].concat()]
    {
        let mut checked = Checked::new(any_areas(), Ledger::new(1), Checks::ALL);
        recovers(&mut checked, file)?;
        same(&format!("{file:?}"), (checked.store.manager, checked.store.rows[0]), (new, 7))?;
    }
    // An epoch may be that of the round before, and the later round counts.
    let mut again = AT_1;
    again[24] = 0x20;
    let mut checked = Checked::new(any_areas(), Ledger::new(1), Checks::ALL);
    recovers(&mut checked, &[AT_1, again, AT_1, again].concat())?;
    same("row", checked.store.rows[0], 0x0807_0605_0403_0220)?;
    same("LCE", checked.store.manager.clock.lce, 1)?;
    // 512 rows, 258 rows and the last epoch are accepted.
    let rows: Vec<u64> = (1..=771).collect();
    let body: Vec<u8> = rows.iter().flat_map(|row| row.to_le_bytes()).collect();
    let mut checked = Checked::new(any_areas(), Ledger::new(1), Checks::ALL);
    recovers(&mut checked, &[&AT_2[..], &LONG_CONTENTS, &body].concat())?;
    let (books, is) = (&checked.store.manager, &checked.store.rows);
    same("clock", (books.clock.ec, books.clock.lce, books.clock.lse), (EPOCH_END, LAST_EPOCH, LAST_EPOCH))?;
    same("row counts", books.partitions.at.map(|part| part.rows), [512, 258, 0, 0, 1, 0, 0, 0])?;
    same("lot 0", &is[..AREA_ROWS], &rows[..512])?;
    same("lot 1", (&is[512..770], is[770]), (&rows[512..770], 7))?;
    same("lot 4", (is[4 * 512], is[4 * 512 + 1]), (771, 7))?;
    lines(&mut checked, "B; S l2147483647 0; C 2147483647; P 4", "B 6; S 2; C 2; P 0 0")?;
    // A byte less, and it is the round before.
    let mut checked = Checked::new(any_areas(), Ledger::new(1), Checks::ALL);
    recovers(&mut checked, &[&AT_2[..], &LONG_CONTENTS, &body[..771 * 8 - 1]].concat())?;
    same("LCE", checked.store.manager.clock.lce, 2)
}

pub fn recovered_history() -> Told {
    // What was open is gone, and the round's rows are those of a committed load: seen, cleared and purged like any.
    let mut checked = worked_store()?;
    lines(&mut checked, "R 1; R 0", "R 0 1; R 0 2")?;
    recovers(&mut checked, &AT_1)?;
    lines(
        &mut checked,
        "S l3 0; C 3; S p1 0; E 2; C 1; X 1; S l1 0; R 0; S p1 0; S p1 7; B; S l2 0; A 2 0 6; S l2 0; S p1 0; \
         D 2 7; B; S l3 0; S l3 7; C 2; C 3; R 0; S p2 0; S p2 7; S p1 7; L 0; L 2; E 1; L 2; P 0; P 7; S p2 0; L 4",
        "S 2; C 2; S 2; E 2; C 2; X 2; S 2; R 0 1; S 0 578437695752307201 5; S 0 18446744073709551615; B 0 2; \
         S 0 578437695752307201 5; A 0 3; S 0 578437695752307201 5 6; S 0 578437695752307201 5; D 0 2; B 0 3; \
         S 0 578437695752307201 5; S 0 18446744073709551615; C 0 2 3; C 0 3 0; R 0 2; \
         S 0 578437695752307201 5 6; S 0; S 0 18446744073709551615; L 0 1; L 10; E 0 1; L 0 2; P 0 1; P 0 1; \
         S 0 578437695752307201 5 6; L 4",
    )?;
    let entries: Vec<Entry> = checked.store.entries[8 * 64..8 * 64 + 1].to_vec();
    same("purged", entries, vec![Entry { epoch: 2, end: 3, mark: ROWS }])?;
    // At epoch 0 there is no load, and what follows begins with 1.
    recovers(&mut checked, &AT_0)?;
    lines(&mut checked, "R 0; S p1 0; L 0; B; D 1 0; C 1", "R 0 1; S 0; L 0 0; B 0 1; D 0 1; C 0 1 0")?;
    same("clearing", checked.store.entries[0], Entry { epoch: 1, end: 0, mark: CLEARING })
}

pub fn saved_and_recovered() -> Told {
    // The round of 1, recovered and saved again, is what it was; so is a file that goes on behind it.
    let mut checked = worked_store()?;
    saves(&mut checked, 1, 48, &AT_1)?;
    recovers(&mut checked, &AT_1)?;
    saves(&mut checked, 1, 48, &AT_1)?;
    save_is_refused(&mut checked, 0, 48, 4)?;
    lines(
        &mut checked,
        "B; D 2 0; A 2 0 9; A 2 3 9223372036854776064; C 2",
        "B 0 2; D 0 2; A 0 3; A 0 1; C 0 2 0",
    )?;
    saves(&mut checked, 2, 48, &AT_2)?;
    saves(&mut checked, 1, 48, &AT_1)?;
    recovers(&mut checked, &[AT_1, AT_2].concat())?;
    saves(&mut checked, 2, 48, &AT_2)?;
    lines(&mut checked, "R 0; S p1 0; S p1 3; S p1 1", "R 0 1; S 0 9; S 0 9223372036854776064; S 0")
}

pub fn recovered_lengths() -> Told {
    // Of 5 only the lengths are looked at, and they come before 11.
    type Spoil = fn(&mut Store);
    let spoils: [(u64, Spoil); 6] = [
        (5, |store| store.rows.truncate(4_607)),
        (5, |store| store.rows.push(0)),
        (5, |store| store.entries.truncate(575)),
        (5, |store| store.entries.push(Entry::default())),
        (0, |store| store.manager.clock.ec = 0),
        (0, |store| store.manager = Manager { totals: [u64::MAX; 8], ..store.manager }),
    ];
    for (number, spoil) in spoils {
        for (file, due) in
            [(&AT_1[..], number), (&[0xff; 24], if number == 5 { 5 } else { 11 }), (&[], number)]
        {
            let mut store = any_areas();
            spoil(&mut store);
            let outcome = Checked::without_ledger(store).call(&Call::Recover { file: file.to_vec() })?;
            same("a recovery", number_of(&outcome.answer), due)?;
        }
    }
    Ok(())
}
