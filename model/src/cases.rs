//! The fixed cases as functions, told in words where they fail (01, "A session" and on; 02, (i) to (iii), (v)).

use crate::call::{Answer, Call};
use crate::check::{Checked, Checks, Outcome};
use crate::ledger::Ledger;
use crate::partition::{entries_of, Entry, CLEARING, ROWS};
use crate::round_cases as rounds;
use crate::session::{parse, print, Session};
use crate::store::Store;
use crate::visible::Reader;
use crate::{LAST_EPOCH, TICKET_END};

pub type Told = Result<(), String>;
pub type Case = (&'static str, fn() -> Told);

/// All fixed cases by name.
pub const CASES: [Case; 46] = [
    ("worked session", worked_session),
    ("cases 1 to 4", cases_1_to_4),
    ("cases 5 to 8", cases_5_to_8),
    ("cases 9 and 10", cases_9_and_10),
    ("case 11", case_11),
    ("case 12", case_12),
    ("edge: 512 rows", edge_rows),
    ("edge: 33 loads", edge_loads),
    ("edge: 33 pages", edge_pages),
    ("edge: bitmap", edge_bitmap),
    ("edge: 64 entries", edge_entries),
    ("edge: epochs and tickets end", edge_names_end),
    ("wrong: LSE by open epochs", wrong_lse),
    ("wrong: clearing hides before only", wrong_clearing),
    ("wrong: LCE past an open load", wrong_lce),
    ("wrong: old ends after rollback", wrong_ends),
    ("page applies the last clearing", page_applies_last_clearing),
    ("own clearing", own_clearing),
    ("own clearing: others", own_clearing_others),
    ("own clearing: rolled back", own_clearing_rolled_back),
    ("own clearing: earlier row after it", own_clearing_earlier_row),
    ("rollback moves LCE", rollback_moves_lce),
    ("waiting load", waiting_load),
    ("oldest open load", oldest_open_load),
    ("tickets", tickets),
    ("purge", purge),
    ("purge of an own clearing", purge_own_clearing),
    ("rollback", rollback),
    ("gap", gap),
    ("total: low bits", total_low_bits),
    ("total: open loads", total_open_loads),
    ("total: by a rollback", total_by_rollback),
    ("total: clearings", total_clearings),
    ("total: purge", total_purge),
    ("total: spoilt", total_spoilt),
    ("saved: every byte", rounds::saved_bytes),
    ("saved: in range", rounds::saved_in_range),
    ("saved: beside loads", rounds::saved_beside_loads),
    ("saved: full", rounds::saved_full),
    ("recovered: every word", rounds::recovered_words),
    ("recovered: every cut", rounds::recovered_cuts),
    ("recovered: corrupt", rounds::recovered_corrupt),
    ("recovered: at the edges", rounds::recovered_at_the_edges),
    ("recovered: a new history", rounds::recovered_history),
    ("recovered: lengths", rounds::recovered_lengths),
    ("saved and recovered", rounds::saved_and_recovered),
];

/// Runs session lines, parted by `;`, with every check, and compares the answers.
fn lines(input: &str, output: &str) -> Told {
    lines_from(Store::new(1), 1, input, output).map(|_| ())
}

fn lines_from(store: Store, start: u64, input: &str, output: &str) -> Result<Store, String> {
    let mut session = Session { store: store.clone() };
    let mut checked = Checked::new(store, Ledger::new(start), Checks::ALL);
    let inputs: Vec<&str> = input.split(';').map(str::trim).collect();
    let outputs: Vec<&str> = output.split(';').map(str::trim).collect();
    if inputs.len() != outputs.len() {
        return Err(format!("{} lines and {} answers", inputs.len(), outputs.len()));
    }
    for (line, expected) in inputs.iter().zip(outputs) {
        let found = session.answer(line.as_bytes());
        if found != expected {
            return Err(format!("{line} answers {found}, not {expected}"));
        }
        if let Some(call) = parse(line.as_bytes()) {
            let outcome = checked.call(&call)?;
            let found = print(&call, &outcome.answer, &checked.store, &outcome.lent);
            if found != expected {
                return Err(format!("{line} as a call answers {found}, not {expected}"));
            }
        }
    }
    Ok(checked.store)
}

pub fn same<T: PartialEq + std::fmt::Debug>(what: &str, found: T, expected: T) -> Told {
    if found == expected {
        Ok(())
    } else {
        Err(format!("{what}: {found:?}, not {expected:?}"))
    }
}

fn worked_session() -> Told {
    lines(
        "B; A 1 0 10 11; B; A 2 0 20; C 1; R 0; D 2 0; S l2 0; C 2; S p1 0; R 0; S p2 0; L 2; E 1; \
         L 0; P 0; A 2 0 5",
        "B 0 1; A 0 2; B 0 2; A 0 3; C 0 1 2; R 0 1; D 0 3; S 0; C 0 2 0; S 0 10 11; R 0 2; S 0; L 10; \
         E 0 1; L 0 2; P 0 1; A 2",
    )
}

/// A store with loads 1 to 8 begun, lot 0 filled by `work`, a list of (load, rows), 0 rows being a clearing,
/// and all loads committed. Pages can then be opened at any epoch from 0 to 8.
fn table_store(work: &[(u64, u64)]) -> Result<Checked, String> {
    let mut checked = Checked::new(Store::new(1), Ledger::new(1), Checks::ALL);
    for _ in 1..=8 {
        checked.call(&Call::Begin)?;
    }
    let mut word = 100;
    for &(epoch, count) in work {
        let rows: Vec<u64> = (word..word + count).collect();
        word += count;
        let call = match count {
            0 => Call::Clear { epoch, partition: 0 },
            _ => Call::Append { epoch, partition: 0, rows },
        };
        same(&format!("{call:?}"), checked.call(&call)?.answer.is_ok(), true)?;
    }
    for epoch in 1..=8 {
        checked.call(&Call::Commit { epoch })?;
    }
    Ok(checked)
}

/// The bits that pages at 2, 4, 6 and 8 get of lot 0, in row order.
fn page_bits(checked: &mut Checked) -> Result<Vec<String>, String> {
    let mut found = Vec::new();
    for epoch in [2, 4, 6, 8] {
        let Ok(Answer::Value(ticket)) = checked.call(&Call::Open { epoch })?.answer else {
            return Err(format!("no page at {epoch}"));
        };
        let scan = Call::Scan { reader: Reader::Ro(ticket), partition: 0, lent: 64 };
        let Outcome { answer: Ok(Answer::Scanned(scanned)), lent } = checked.call(&scan)? else {
            return Err(format!("no scan at {epoch}"));
        };
        let bit = |row: u64| if lent[row as usize / 8] >> (row % 8) & 1 == 1 { '1' } else { '0' };
        found.push((0..scanned.rows).map(bit).collect());
    }
    Ok(found)
}

const TABLE_A: [(u64, u64); 6] = [(1, 2), (3, 2), (1, 1), (5, 0), (3, 3), (7, 1)];
const TABLE_B: [(u64, u64); 7] = [(1, 2), (3, 2), (1, 1), (3, 0), (1, 3), (3, 3), (1, 2)];

fn cases_1_to_4() -> Told {
    let found = page_bits(&mut table_store(&TABLE_A)?)?;
    same("bits", found, ["110010000", "111111110", "000000000", "000000001"].map(String::from).to_vec())
}

fn cases_5_to_8() -> Told {
    let found = page_bits(&mut table_store(&TABLE_B)?)?;
    let later = "0000000011100";
    same("bits", found, ["1100111100011", later, later, later].map(String::from).to_vec())
}

fn entries_of_lot(store: &Store, p: usize) -> Vec<(u64, u64, u64)> {
    let entries = entries_of(&store.manager.partitions.at[p], &store.entries);
    entries.iter().map(|entry| (entry.epoch, entry.end, entry.mark)).collect()
}

fn cases_9_and_10() -> Told {
    let mut checked = table_store(&TABLE_A)?;
    checked.call(&Call::MoveLse { target: 3 })?;
    checked.call(&Call::Purge { partition: 0 })?;
    let at_3 = vec![(3, 5, ROWS), (5, 5, CLEARING), (3, 8, ROWS), (7, 9, ROWS)];
    same("purged at 3", entries_of_lot(&checked.store, 0), at_3)?;
    checked.call(&Call::MoveLse { target: 5 })?;
    checked.call(&Call::Purge { partition: 0 })?;
    same("purged at 3 and 5", entries_of_lot(&checked.store, 0), vec![(7, 1, ROWS)])?;
    let mut checked = table_store(&TABLE_A)?;
    checked.call(&Call::MoveLse { target: 5 })?;
    checked.call(&Call::Purge { partition: 0 })?;
    same("purged at 5", entries_of_lot(&checked.store, 0), vec![(7, 1, ROWS)])?;
    same("row of 7", checked.store.rows[8 * 512], 108)
}

fn case_11() -> Told {
    lines("B; B; B; C 1; C 3; C 2", "B 0 1; B 0 2; B 0 3; C 0 1 2; C 0 1 2; C 0 3 0")
}

fn case_12() -> Told {
    lines("B; B; C 1; L 1; L 0; C 2; L 1", "B 0 1; B 0 2; C 0 1 2; L 10; L 0 0; C 0 2 0; L 0 1")
}

fn batch(count: u64) -> String {
    (0..count).map(|row| format!(" {}", row % 10)).collect()
}

fn edge_rows() -> Told {
    lines(
        &format!(
            "B; A 1 3{}; A 1 3 7; A 1 3; A 1 4{}; A 9 4{}; A 1 8{}",
            batch(512),
            batch(513),
            batch(513),
            batch(8189)
        ),
        "B 0 1; A 0 512; A 8; A 0 512; A 8; A 2; A 1",
    )?;
    lines(&format!("B; A 1 3{}; A 1 3 1 2; A 1 3 1", batch(511)), "B 0 1; A 0 511; A 8; A 0 512")
}

fn edge_loads() -> Told {
    let mut input = String::from("B");
    let mut output = String::from("B 0 1");
    for epoch in 2..=32 {
        input += "; B";
        output += &format!("; B 0 {epoch}");
    }
    // The 33rd is refused, also while committed ones wait; a rolled-back one makes room.
    lines(
        &(input + "; B; C 5; B; X 6; B; B; C 1; B"),
        &(output + "; B 7; C 0 0 1; B 7; X 0 0 1; B 0 33; B 7; C 0 1 2; B 0 34"),
    )
}

fn edge_pages() -> Told {
    let mut input = String::from("R 0");
    let mut output = String::from("R 0 1");
    for ticket in 2..=32 {
        input += "; R 0";
        output += &format!("; R 0 {ticket}");
    }
    lines(
        &(input + "; R 0; R 1; E 7; E 7; R 0; R 0; E 33"),
        &(output + "; R 7; R 4; E 0 31; E 2; R 0 33; R 7; E 0 31"),
    )
}

fn edge_bitmap() -> Told {
    let mut checked = Checked::new(Store::new(1), Ledger::new(1), Checks::ALL);
    checked.call(&Call::Begin)?;
    for (count, lent, accepted) in
        [(0, 0, true), (8, 1, true), (0, 0, false), (1, 1, false), (0, 2, true), (0, 9, true)]
    {
        let rows = vec![7; count];
        checked.call(&Call::Append { epoch: 1, partition: 0, rows })?;
        let scan = Call::Scan { reader: Reader::Rw(1), partition: 0, lent };
        let Outcome { answer, lent: bitmap } = checked.call(&scan)?;
        same(&format!("{scan:?}"), answer.is_ok(), accepted)?;
        if lent == 9 {
            same("bits", bitmap, vec![0xff, 1, 0xa5, 0xa5, 0xa5, 0xa5, 0xa5, 0xa5, 0xa5])?;
        }
    }
    Ok(())
}

fn edge_entries() -> Told {
    let mut input = String::from("B; B");
    let mut output = String::from("B 0 1; B 0 2");
    for count in 1..=31 {
        input += &format!("; A 1 0 {count}; A 2 0 {count}");
        output += &format!("; A 0 {}; A 0 {}", 2 * count - 1, 2 * count);
    }
    // 62 entries now. The 63rd and 64th fit; then only the last entry's end can move.
    lines(
        &format!("{input}; A 1 0 1; D 2 0; D 2 0; A 2 0 5; A 2 0; A 2 0{}; X 2; D 1 0; A 1 0 1", batch(500)),
        &format!("{output}; A 0 63; D 0 64; D 9; A 9; A 0 63; A 8; X 0 0 1; D 0 2; A 0 33"),
    )?;
    lines(
        &format!("{input}; A 1 0 1; A 2 0 1; A 2 0 1 2; A 1 0 1; D 1 0"),
        &format!("{output}; A 0 63; A 0 64; A 0 66; A 9; D 9"),
    )
}

fn edge_names_end() -> Told {
    let last = LAST_EPOCH;
    lines_from(
        Store::new(last),
        last,
        "B; B; R 0; C 2147483647; R 0; L 0",
        &format!("B 0 {last}; B 6; R 0 1; C 0 {last} 0; R 0 2; L 0 {}", last - 1),
    )?;
    let mut store = Store::new(1);
    store.manager.ro.next = TICKET_END - 1;
    lines_from(store, 1, "R 0; R 0; R 1; E 4294967295; R 0", "R 0 4294967295; R 6; R 4; E 0 0; R 6")?;
    let mut store = Store::new(1);
    for (start, number) in [(0, 4), (1, 0), (last, 0), (last + 1, 4), (u64::MAX, 4)] {
        let found = store.make_new(start).map_or_else(|refusal| refusal.number(), |()| 0);
        same(&format!("made new at {start}"), found, number)?;
    }
    Ok(())
}

fn wrong_lse() -> Told {
    lines(
        "B; A 1 0 10; B; A 2 0 20; C 2; B; C 1; L 2; L 1; L 0; P 0; S l3 0; C 3; L 0; P 0",
        "B 0 1; A 0 1; B 0 2; A 0 2; C 0 0 1; B 0 3; C 0 2 3; L 10; L 10; L 0 0; P 0 0; S 0 20; C 0 3 0; \
         L 0 3; P 0 1",
    )
}

fn wrong_clearing() -> Told {
    lines(
        "B; B; D 2 0; A 1 0 7; C 1; C 2; R 1; R 0; S p1 0; S p2 0",
        "B 0 1; B 0 2; D 0 1; A 0 1; C 0 1 2; C 0 2 0; R 0 1; R 0 2; S 0 7; S 0",
    )
}

fn wrong_lce() -> Told {
    lines(
        "B; B; B; C 1; C 3; R 3; R 0; C 2; R 3",
        "B 0 1; B 0 2; B 0 3; C 0 1 2; C 0 1 2; R 4; R 0 1; C 0 3 0; R 0 2",
    )
}

fn wrong_ends() -> Told {
    let input = "B; B; B; A 1 0 1 2; A 2 0 3; A 1 0 4; D 2 0; A 2 0 5; D 3 0; X 2; S l1 0; A 1 0 6; S l1 0";
    let output = "B 0 1; B 0 2; B 0 3; A 0 2; A 0 3; A 0 4; D 0 4; A 0 5; D 0 6; X 0 0 1; S 0 1 2 4; A 0 4; \
                  S 0 1 2 4 6";
    let store = lines_from(Store::new(1), 1, input, output)?;
    same("entries", entries_of_lot(&store, 0), vec![(1, 3, ROWS), (3, 3, CLEARING), (1, 4, ROWS)])
}

fn page_applies_last_clearing() -> Told {
    lines("B; A 1 0 5; D 1 0; A 1 0 6; C 1; R 0; S p1 0", "B 0 1; A 0 1; D 0 2; A 0 2; C 0 1 0; R 0 1; S 0 6")
}

fn own_clearing() -> Told {
    lines("B; A 1 0 1; D 1 0; A 1 0 2; S l1 0", "B 0 1; A 0 1; D 0 2; A 0 2; S 0 2")?;
    lines(
        "B; A 1 0 5; C 1; B; D 2 0; S l2 0; A 2 0 6; S l2 0",
        "B 0 1; A 0 1; C 0 1 0; B 0 2; D 0 2; S 0; A 0 2; S 0 6",
    )?;
    lines(
        "B; A 1 0 5; C 1; B; A 2 0 6; D 2 0; A 2 0 7; S l2 0; C 2; B; S l3 0",
        "B 0 1; A 0 1; C 0 1 0; B 0 2; A 0 2; D 0 3; A 0 3; S 0 7; C 0 2 0; B 0 3; S 0 7",
    )?;
    // Of two clearings the later one counts, with rows between them or none.
    lines(
        "B; A 1 0 1; D 1 0; A 1 0 2 3; S l1 0; D 1 0; S l1 0; D 1 0; A 1 0 4; S l1 0",
        "B 0 1; A 0 1; D 0 2; A 0 3; S 0 2 3; D 0 4; S 0; D 0 5; A 0 4; S 0 4",
    )?;
    // Other lots stay.
    lines(
        "B; A 1 0 1; A 1 7 2; C 1; B; A 2 0 3; A 2 7 4; D 2 0; S l2 0; S l2 7; D 2 7; S l2 7",
        "B 0 1; A 0 1; A 0 1; C 0 1 0; B 0 2; A 0 2; A 0 2; D 0 3; S 0; S 0 2 4; D 0 3; S 0",
    )
}

fn own_clearing_others() -> Told {
    // A load that begins while the clearing load is open, and a page opened meanwhile, never see the clearing.
    lines(
        "B; A 1 0 5; C 1; B; B; R 0; D 2 0; A 2 0 6; B; R 0; S l2 0; S l3 0; S l4 0; S p1 0; S p2 0; C 2; \
         S l3 0; S l4 0; S p1 0; S p2 0; B; R 0; S l5 0; S p3 0",
        "B 0 1; A 0 1; C 0 1 0; B 0 2; B 0 3; R 0 1; D 0 2; A 0 2; B 0 4; R 0 2; S 0 6; S 0 5; S 0 5; S 0 5; \
         S 0 5; C 0 2 3; S 0 5; S 0 5; S 0 5; S 0 5; B 0 5; R 0 3; S 0 6; S 0 6",
    )?;
    // Nor does the clearing load see another's.
    lines(
        "B; A 1 0 5; C 1; B; B; D 2 0; A 3 0 6; S l3 0; D 3 0; S l2 0; S l3 0; A 2 0 7; A 3 0 8; S l2 0; \
         S l3 0; C 2; S l3 0",
        "B 0 1; A 0 1; C 0 1 0; B 0 2; B 0 3; D 0 2; A 0 2; S 0 5 6; D 0 4; S 0; S 0; A 0 3; A 0 4; S 0 7; \
         S 0 8; C 0 2 3; S 0 8",
    )
}

fn own_clearing_rolled_back() -> Told {
    lines(
        "B; A 1 0 5; C 1; B; B; R 0; D 2 0; A 2 0 6; S l2 0; X 2; S l2 0; S l3 0; S p1 0; B; R 0; S l4 0; \
         S p2 0",
        "B 0 1; A 0 1; C 0 1 0; B 0 2; B 0 3; R 0 1; D 0 2; A 0 2; S 0 6; X 0 1 3; S 2; S 0 5; S 0 5; B 0 4; \
         R 0 2; S 0 5; S 0 5",
    )
}

fn own_clearing_earlier_row() -> Told {
    // In a history only an earlier load that the clearing load does not see can append after its clearing.
    lines(
        "B; B; D 2 0; A 1 0 5; A 2 0 6; S l1 0; S l2 0; C 1; S l2 0; C 2; R 1; R 2; S p1 0; S p2 0",
        "B 0 1; B 0 2; D 0 1; A 0 1; A 0 2; S 0 5; S 0 6; C 0 1 2; S 0 6; C 0 2 0; R 0 1; R 0 2; S 0 5; S 0 6",
    )?;
    // In a store that no history made it may be one that it sees: load 2 has no deps here.
    let mut store = Store::new(1);
    store.manager.clock.ec = 3;
    store.manager.clock.lce = 1;
    store.manager.rw.at[0].epoch = 2;
    store.manager.rw.count = 1;
    store.manager.partitions.at[0].entries = 3;
    store.manager.partitions.at[0].rows = 2;
    let entry = |epoch, end, mark| Entry { epoch, end, mark };
    store.entries[..3].copy_from_slice(&[entry(2, 0, CLEARING), entry(1, 1, ROWS), entry(2, 2, ROWS)]);
    let scan = Call::Scan { reader: Reader::Rw(2), partition: 0, lent: 1 };
    let outcome = Checked::without_ledger(store).call(&scan)?;
    same("bits", outcome.lent, vec![0b10])
}

fn rollback_moves_lce() -> Told {
    lines(
        "B; B; B; C 2; C 3; X 1; R 0; R 2; L 0; X 1; C 3",
        "B 0 1; B 0 2; B 0 3; C 0 0 1; C 0 0 1; X 0 3 0; R 0 1; R 0 2; L 0 2; X 2; C 2",
    )
}

fn waiting_load() -> Told {
    // A waiting load is seen by a load that begins after it, and does nothing any more.
    lines(
        "B; B; A 2 0 5; A 1 0 6; C 2; B; S l3 0; S l2 0; A 2 0 1; D 2 0; X 2; C 2; A 2 9",
        "B 0 1; B 0 2; A 0 1; A 0 2; C 0 0 1; B 0 3; S 0 5; S 2; A 2; D 2; X 2; C 2; A 1",
    )
}

fn oldest_open_load() -> Told {
    // The closed load is not named, and neither is a waiting one.
    lines("B; B; C 2; C 1", "B 0 1; B 0 2; C 0 0 1; C 0 2 0")?;
    lines("B; B; B; C 2; X 1", "B 0 1; B 0 2; B 0 3; C 0 0 1; X 0 2 3")?;
    lines("B; X 1", "B 0 1; X 0 0 0")
}

fn tickets() -> Told {
    lines("R 0; E 1; R 0; E 1; E 2; R 0; R 1", "R 0 1; E 0 0; R 0 2; E 2; E 0 0; R 0 3; R 4")
}

fn purge() -> Told {
    // Skipped at first, then rewritten and joined, then emptied; each rewriting takes the spare area.
    let input =
        "P 0; B; A 1 0 1; C 1; P 0; B; A 2 0 2; C 2; L 1; P 0; L 2; P 0; P 0; B; D 3 0; C 3; L 0; P 0; P 8";
    let output =
        "P 0 0; B 0 1; A 0 1; C 0 1 0; P 0 0; B 0 2; A 0 2; C 0 2 0; L 0 1; P 0 0; L 0 2; P 0 1; P 0 0; \
                  B 0 3; D 0 2; C 0 3 0; L 0 3; P 0 1; P 1";
    let store = lines_from(Store::new(1), 1, input, output)?;
    same("entries", entries_of_lot(&store, 0), Vec::new())?;
    same("area", (store.manager.partitions.at[0].area, store.manager.partitions.spare), (0, 8))?;
    same("words beyond", (store.rows[0], store.rows[8 * 512], store.rows[8 * 512 + 1]), (1, 1, 2))
}

fn purge_own_clearing() -> Told {
    // Of one epoch, the rows before its clearing go and the rows after it stay.
    lines(
        "B; B; A 1 0 1; A 2 0 2; D 2 0; A 2 0 3; A 1 0 4; C 1; C 2; L 0; P 0; P 0; R 0; S p1 0",
        "B 0 1; B 0 2; A 0 1; A 0 2; D 0 3; A 0 3; A 0 4; C 0 1 2; C 0 2 0; L 0 2; P 0 1; P 0 0; R 0 1; \
         S 0 3",
    )
}

fn rollback() -> Told {
    // Only lots with an entry of the load are rewritten, in rising order.
    let input =
        "B; B; A 1 2 1; A 2 2 2; A 1 2 3; A 2 5 4; A 1 7 5; D 2 0; X 2; S l1 2; S l1 5; A 1 2 6; C 1; X 1";
    let output =
        "B 0 1; B 0 2; A 0 1; A 0 2; A 0 3; A 0 1; A 0 1; D 0 1; X 0 0 1; S 0 1 3; S 0; A 0 3; C 0 1 0; X 2";
    let store = lines_from(Store::new(1), 1, input, output)?;
    let areas: Vec<u64> = store.manager.partitions.at.iter().map(|partition| partition.area).collect();
    same("areas", (areas, store.manager.partitions.spare), (vec![8, 1, 0, 3, 4, 2, 6, 7], 5))?;
    same("entries", entries_of_lot(&store, 2), vec![(1, 3, ROWS)])
}

fn gap() -> Told {
    // A clearing of 2 whose end lies above the end before it: its two rows have epoch 2 and stand before it.
    let mut store = Store::new(1);
    store.manager.clock.ec = 4;
    store.manager.clock.lce = 2;
    store.manager.rw.at[0].epoch = 3;
    store.manager.rw.count = 1;
    store.manager.ro.next = 9;
    store.manager.ro.at[0].ticket = 5;
    store.manager.ro.at[1].ticket = 6;
    store.manager.ro.at[1].epoch = 2;
    store.manager.ro.count = 2;
    store.manager.partitions.at[0].entries = 4;
    store.manager.partitions.at[0].rows = 6;
    let entry = |epoch, end, mark| Entry { epoch, end, mark };
    let entries = [entry(1, 1, ROWS), entry(2, 3, CLEARING), entry(1, 4, ROWS), entry(3, 6, CLEARING)];
    store.entries[..4].copy_from_slice(&entries);
    store.rows[..6].copy_from_slice(&[10, 21, 22, 13, 34, 35]);
    let mut session = Session { store };
    for (line, expected) in [
        ("S p5 0", "S 0"),
        ("S p6 0", "S 0"),
        ("S l3 0", "S 0"),
        ("E 5", "E 0 1"),
        ("P 0", "P 0 0"),
        ("L 1", "L 0 1"),
        ("P 0", "P 0 0"),
        ("L 0", "L 0 2"),
        ("P 0", "P 0 1"),
        ("S l3 0", "S 0"),
        ("X 3", "X 0 2 0"),
        ("S p6 0", "S 0"),
    ] {
        same(line, session.answer(line.as_bytes()).as_str(), expected)?;
    }
    same("rows", session.store.manager.partitions.at[0].rows, 0)
}

/// Runs session lines with every check: each with its answer and lot 0's total after it.
fn totals(lines: &[(&str, &str, u64)]) -> Result<Checked, String> {
    let mut checked = Checked::new(Store::new(1), Ledger::new(1), Checks::ALL);
    for &(line, expected, total) in lines {
        let call = parse(line.as_bytes()).ok_or("no call")?;
        let outcome = checked.call(&call)?;
        same(line, print(&call, &outcome.answer, &checked.store, &outcome.lent).as_str(), expected)?;
        same(&format!("total after {line}"), checked.store.manager.totals[0], total)?;
    }
    Ok(checked)
}

fn total_low_bits() -> Told {
    totals(&[("B", "B 0 1", 0), ("A 1 0 4294967301", "A 0 1", 0), ("C 1", "C 0 1 0", 5)])?;
    totals(&[
        ("B", "B 0 1", 0),
        ("A 1 0 4294967295 4294967296 18446744073709551615 0", "A 0 4", 0),
        ("C 1", "C 0 1 0", 8_589_934_590),
        ("B", "B 0 2", 8_589_934_590),
        ("A 2 0 18446744069414584321", "A 0 5", 8_589_934_590),
        ("C 2", "C 0 2 0", 8_589_934_591),
    ])?;
    // The greatest total, in every lot; making new sets all to 0.
    let mut checked = totals(&[("B", "B 0 1", 0)])?;
    for partition in 0..8 {
        checked.call(&Call::Append { epoch: 1, partition, rows: vec![u64::MAX; 512] })?;
    }
    same("before", checked.store.manager.totals, [0; 8])?;
    checked.call(&Call::Commit { epoch: 1 })?;
    same("greatest", checked.store.manager.totals, [2_199_023_255_040; 8])?;
    checked.call(&Call::New { start: 7 })?;
    same("made new", checked.store.manager.totals, [0; 8])
}

fn total_open_loads() -> Told {
    // Neither the rows nor the clearings of an open load count, and those of a waiting one count when LCE reaches it.
    totals(&[
        ("B", "B 0 1", 0),
        ("A 1 0 1", "A 0 1", 0),
        ("B", "B 0 2", 0),
        ("A 2 0 20", "A 0 2", 0),
        ("B", "B 0 3", 0),
        ("A 3 0 300", "A 0 3", 0),
        ("C 1", "C 0 1 2", 1),
        ("A 2 0 40", "A 0 4", 1),
        ("D 2 0", "D 0 5", 1),
        ("A 2 0 50", "A 0 5", 1),
        ("C 3", "C 0 1 2", 1),
        ("R 0", "R 0 1", 1),
        ("S p1 0", "S 0 1", 1),
        ("C 2", "C 0 3 0", 350),
        ("S p1 0", "S 0 1", 350),
    ])
    .map(|_| ())
}

fn total_by_rollback() -> Told {
    totals(&[
        ("B", "B 0 1", 0),
        ("B", "B 0 2", 0),
        ("A 1 0 1", "A 0 1", 0),
        ("A 2 0 2", "A 0 2", 0),
        ("C 2", "C 0 0 1", 0),
        ("X 1", "X 0 2 0", 2),
        ("B", "B 0 3", 2),
        ("A 3 0 4", "A 0 2", 2),
        ("X 3", "X 0 2 0", 2),
    ])?;
    // With a clearing that waits it falls, and in a lot without an entry of the load too.
    totals(&[
        ("B", "B 0 1", 0),
        ("A 1 0 5", "A 0 1", 0),
        ("C 1", "C 0 1 0", 5),
        ("B", "B 0 2", 5),
        ("B", "B 0 3", 5),
        ("D 3 0", "D 0 2", 5),
        ("C 3", "C 0 1 2", 5),
        ("X 2", "X 0 3 0", 0),
    ])
    .map(|_| ())
}

fn total_clearings() -> Told {
    totals(&[
        ("B", "B 0 1", 0),
        ("A 1 0 5", "A 0 1", 0),
        ("C 1", "C 0 1 0", 5),
        ("B", "B 0 2", 5),
        ("A 2 0 6", "A 0 2", 5),
        ("D 2 0", "D 0 3", 5),
        ("A 2 0 7", "A 0 3", 5),
        ("C 2", "C 0 2 0", 7),
        ("B", "B 0 3", 7),
        ("D 3 0", "D 0 5", 7),
        ("X 3", "X 0 2 0", 7),
        ("B", "B 0 4", 7),
        ("D 4 0", "D 0 5", 7),
        ("C 4", "C 0 4 0", 0),
    ])?;
    // A row of an earlier epoch that stands after the clearing.
    totals(&[
        ("B", "B 0 1", 0),
        ("B", "B 0 2", 0),
        ("D 2 0", "D 0 1", 0),
        ("A 1 0 7", "A 0 1", 0),
        ("C 1", "C 0 1 2", 7),
        ("C 2", "C 0 2 0", 0),
    ])
    .map(|_| ())
}

fn total_purge() -> Told {
    totals(&[
        ("B", "B 0 1", 0),
        ("A 1 0 5", "A 0 1", 0),
        ("C 1", "C 0 1 0", 5),
        ("B", "B 0 2", 5),
        ("D 2 0", "D 0 2", 5),
        ("A 2 0 6", "A 0 2", 5),
        ("C 2", "C 0 2 0", 6),
        ("B", "B 0 3", 6),
        ("A 3 0 8", "A 0 3", 6),
        ("C 3", "C 0 3 0", 14),
        ("L 2", "L 0 2", 14),
        ("P 0", "P 0 1", 14),
        ("P 0", "P 0 0", 14),
        ("L 0", "L 0 3", 14),
        ("P 0", "P 0 1", 14),
    ])
    .map(|_| ())
}

fn total_spoilt() -> Told {
    // Lot 0 has two shown rows, one of an open load, and a word beyond; in lot 1 a clearing hides a row.
    let made = totals(&[
        ("B", "B 0 1", 0),
        ("A 1 0 10 4294967307", "A 0 2", 0),
        ("A 1 1 12", "A 0 1", 0),
        ("D 1 1", "D 0 2", 0),
        ("C 1", "C 0 1 0", 21),
        ("B", "B 0 2", 21),
        ("A 2 0 13", "A 0 3", 21),
    ])?
    .store;
    let spoilt = |what: &str, number: u64, spoil: &dyn Fn(&mut Store)| {
        let mut store = made.clone();
        spoil(&mut store);
        let answer = Checked::without_ledger(store).call(&Call::Begin)?.answer;
        same(what, answer.map_or_else(|refusal| refusal.number(), |_| 0), number)
    };
    for p in 0..8 {
        for off in [1, u64::MAX, 1 << 32, 1 << 63] {
            spoilt("a total", 5, &|s| s.manager.totals[p] = s.manager.totals[p].wrapping_add(off))?;
        }
        spoilt("the greatest word", 5, &|s| s.manager.totals[p] = u64::MAX)?;
    }
    spoilt("two totals swapped", 5, &|s| s.manager.totals.swap(0, 7))?;
    spoilt("two totals of 0 swapped", 0, &|s| s.manager.totals.swap(1, 7))?;
    for bit in 0..64 {
        let number = if bit < 32 { 5 } else { 0 };
        spoilt("a shown row", number, &|s| s.rows[0] ^= 1 << bit)?;
        spoilt("another shown row", number, &|s| s.rows[1] ^= 1 << bit)?;
        spoilt("a row of an open load", 0, &|s| s.rows[2] ^= 1 << bit)?;
        spoilt("a word beyond the rows", 0, &|s| s.rows[3] ^= 1 << bit)?;
        spoilt("a row that is hidden", 0, &|s| s.rows[512] ^= 1 << bit)?;
    }
    spoilt("two shown rows swapped", 0, &|s| s.rows.swap(0, 1))?;
    spoilt("a shown row and one of an open load swapped", 5, &|s| s.rows.swap(0, 2))?;
    spoilt("two rows that weigh as much together", 0, &|s| {
        s.rows[0] += 1;
        s.rows[1] -= 1;
    })
}
