//! Lots in LMDB, its file in shared memory. Two layouts: a record a row, and a record a batch.

use crate::books::{View, Written};
use crate::database::{key, parts, purged, Floor, Gathered, Landing, Lots, Span, LAST};
use crate::engine::{word_at, Sum};
use std::ffi::{c_char, c_int, c_uint, c_void, CStr, CString};
use std::path::PathBuf;
use std::ptr;
use std::sync::atomic::{AtomicUsize, Ordering};

const NO_SUB_DIRECTORY: c_uint = 0x4000;
const NO_SYNC: c_uint = 0x1_0000;
const WRITE_MAP: c_uint = 0x8_0000;
const NO_LOCK: c_uint = 0x40_0000;
const NO_READ_AHEAD: c_uint = 0x80_0000;
const NO_MEMORY_INIT: c_uint = 0x100_0000;
const READ_ONLY: c_uint = 0x2_0000;

const DUPLICATES_SORTED: c_uint = 0x04;
const INTEGER_KEY: c_uint = 0x08;
const DUPLICATES_FIXED: c_uint = 0x10;

const APPEND_DUPLICATE: c_uint = 0x4_0000;
const MULTIPLE: c_uint = 0x8_0000;

const OK: c_int = 0;
const NOT_FOUND: c_int = -30798;

/// The places of a cursor that are asked for: `MDB_cursor_op`.
#[repr(C)]
#[derive(Clone, Copy)]
enum Place {
    GetBothRange = 3,
    GetCurrent = 4,
    GetMultiple = 5,
    LastDuplicate = 7,
    Next = 8,
    NextMultiple = 10,
    PreviousDuplicate = 13,
    Set = 15,
    SetRange = 17,
}

#[repr(C)]
struct Environment {
    _opaque: [u8; 0],
}

#[repr(C)]
struct Transaction {
    _opaque: [u8; 0],
}

#[repr(C)]
struct Cursor {
    _opaque: [u8; 0],
}

/// `MDB_val`.
#[repr(C)]
#[derive(Clone, Copy)]
struct Value {
    bytes: usize,
    data: *mut c_void,
}

impl Value {
    const NONE: Value = Value { bytes: 0, data: ptr::null_mut() };

    fn of<T>(value: &T) -> Value {
        Value { bytes: size_of::<T>(), data: ptr::from_ref(value).cast_mut().cast() }
    }

    /// Safety: the library answered with this value, and nothing was written since.
    unsafe fn slice<'a>(self) -> &'a [u8] {
        std::slice::from_raw_parts(self.data.cast(), self.bytes)
    }
}

extern "C" {
    fn mdb_version(major: *mut c_int, minor: *mut c_int, patch: *mut c_int) -> *const c_char;
    fn mdb_strerror(error: c_int) -> *const c_char;
    fn mdb_env_create(environment: *mut *mut Environment) -> c_int;
    fn mdb_env_set_mapsize(environment: *mut Environment, bytes: usize) -> c_int;
    fn mdb_env_open(environment: *mut Environment, path: *const c_char, flags: c_uint, mode: c_uint) -> c_int;
    fn mdb_env_close(environment: *mut Environment);
    fn mdb_txn_begin(
        environment: *mut Environment,
        parent: *mut Transaction,
        flags: c_uint,
        transaction: *mut *mut Transaction,
    ) -> c_int;
    fn mdb_txn_commit(transaction: *mut Transaction) -> c_int;
    fn mdb_txn_abort(transaction: *mut Transaction);
    fn mdb_txn_reset(transaction: *mut Transaction);
    fn mdb_txn_renew(transaction: *mut Transaction) -> c_int;
    fn mdb_dbi_open(transaction: *mut Transaction, name: *const c_char, flags: c_uint, table: *mut c_uint) -> c_int;
    fn mdb_drop(transaction: *mut Transaction, table: c_uint, delete: c_int) -> c_int;
    fn mdb_put(transaction: *mut Transaction, table: c_uint, key: *mut Value, data: *mut Value, flags: c_uint)
        -> c_int;
    fn mdb_del(transaction: *mut Transaction, table: c_uint, key: *mut Value, data: *mut Value) -> c_int;
    fn mdb_cursor_open(transaction: *mut Transaction, table: c_uint, cursor: *mut *mut Cursor) -> c_int;
    fn mdb_cursor_close(cursor: *mut Cursor);
    fn mdb_cursor_renew(transaction: *mut Transaction, cursor: *mut Cursor) -> c_int;
    fn mdb_cursor_get(cursor: *mut Cursor, key: *mut Value, data: *mut Value, place: Place) -> c_int;
    fn mdb_cursor_put(cursor: *mut Cursor, key: *mut Value, data: *mut Value, flags: c_uint) -> c_int;
    fn mdb_cursor_del(cursor: *mut Cursor, flags: c_uint) -> c_int;
}

/// The version of the library.
pub fn version() -> String {
    let (mut major, mut minor, mut patch) = (0, 0, 0);
    // Safety: three numbers are written.
    unsafe { mdb_version(&mut major, &mut minor, &mut patch) };
    format!("{major}.{minor}.{patch}")
}

fn must(answer: c_int) {
    if answer != OK {
        // Safety: the library answers a string that stays.
        panic!("lmdb: {}", unsafe { CStr::from_ptr(mdb_strerror(answer)) }.to_string_lossy());
    }
}

/// Whether there was something there.
fn found(answer: c_int) -> bool {
    if answer != NOT_FOUND {
        must(answer);
    }
    answer == OK
}

/// What both layouts share: the file, its one table, the writing transaction (null if there is none) and the reading
/// one with its cursor, live from the first scan after a commit until the next write.
struct Lmdb {
    environment: *mut Environment,
    table: c_uint,
    write: *mut Transaction,
    write_cursor: *mut Cursor,
    read: *mut Transaction,
    read_cursor: *mut Cursor,
    live: bool,
    landing: Landing,
    /// The next sequence number, and the clearings that the lot has.
    next: [u64; 8],
    clearings: [u64; 8],
    path: PathBuf,
}

const MAP: usize = 64 << 20;

/// Files made so far.
static FILES: AtomicUsize = AtomicUsize::new(0);

impl Lmdb {
    fn new(landing: Landing, flags: c_uint) -> Lmdb {
        let shared = PathBuf::from("/dev/shm");
        let path = if shared.is_dir() { shared } else { std::env::temp_dir() };
        let number = FILES.fetch_add(1, Ordering::Relaxed);
        let path = path.join(format!("nizgulk-benchmarks-{}-{number}", std::process::id()));
        let name = CString::new(path.to_string_lossy().as_bytes()).expect("no zero byte");
        let (mut environment, mut write, mut read) = (ptr::null_mut(), ptr::null_mut(), ptr::null_mut());
        let (mut table, mut read_cursor) = (0, ptr::null_mut());
        let options = NO_SUB_DIRECTORY | NO_SYNC | WRITE_MAP | NO_LOCK | NO_READ_AHEAD | NO_MEMORY_INIT;
        // Safety: each call is given what the ones before it made, in the order that the library asks for.
        unsafe {
            must(mdb_env_create(&mut environment));
            must(mdb_env_set_mapsize(environment, MAP));
            must(mdb_env_open(environment, name.as_ptr(), options, 0o600));
            must(mdb_txn_begin(environment, ptr::null_mut(), 0, &mut write));
            must(mdb_dbi_open(write, ptr::null(), flags, &mut table));
            must(mdb_txn_commit(write));
            must(mdb_txn_begin(environment, ptr::null_mut(), READ_ONLY, &mut read));
            must(mdb_cursor_open(read, table, &mut read_cursor));
        }
        Lmdb {
            environment,
            table,
            write: ptr::null_mut(),
            write_cursor: ptr::null_mut(),
            read,
            read_cursor,
            live: true,
            landing,
            next: [0; 8],
            clearings: [0; 8],
            path,
        }
    }

    fn reset(&mut self) {
        let transaction = self.writing();
        // Safety: the transaction is open, and its table.
        unsafe { must(mdb_drop(transaction, self.table, 0)) };
        self.commit();
        (self.next, self.clearings) = ([0; 8], [0; 8]);
    }

    /// The transaction that writes, begun where there is none. No cursor reads the table meanwhile.
    fn writing(&mut self) -> *mut Transaction {
        if self.write.is_null() {
            // Safety: the reading transaction is live at most until here, and the environment is open.
            unsafe {
                if self.live {
                    mdb_txn_reset(self.read);
                    self.live = false;
                }
                must(mdb_txn_begin(self.environment, ptr::null_mut(), 0, &mut self.write));
            }
        }
        self.write
    }

    /// A cursor of the transaction that writes, if there is one, and else of one that reads what was committed last.
    fn cursor(&mut self) -> *mut Cursor {
        // Safety: each transaction is open, the cursor belongs to it, and none of the writing one outlives it.
        unsafe {
            if !self.write.is_null() {
                if self.write_cursor.is_null() {
                    must(mdb_cursor_open(self.write, self.table, &mut self.write_cursor));
                }
                return self.write_cursor;
            }
            if !self.live {
                must(mdb_txn_renew(self.read));
                must(mdb_cursor_renew(self.read, self.read_cursor));
                self.live = true;
            }
        }
        self.read_cursor
    }

    /// A cursor to write with.
    fn writer(&mut self) -> *mut Cursor {
        self.writing();
        self.cursor()
    }

    fn commit(&mut self) {
        if !self.write.is_null() {
            // Safety: the transaction is open; its cursor is closed before it.
            unsafe {
                if !self.write_cursor.is_null() {
                    mdb_cursor_close(self.write_cursor);
                    self.write_cursor = ptr::null_mut();
                }
                must(mdb_txn_commit(self.write));
            }
            self.write = ptr::null_mut();
        }
    }

    fn wrote(&mut self) {
        if self.landing == Landing::EachCall {
            self.commit();
        }
    }

    fn take(&mut self, lot: usize, count: usize) -> u64 {
        let first = self.next[lot];
        self.next[lot] += count as u64;
        first
    }
}

impl Drop for Lmdb {
    fn drop(&mut self) {
        // Safety: transactions and cursors are closed before the environment.
        unsafe {
            self.commit();
            mdb_cursor_close(self.read_cursor);
            mdb_txn_abort(self.read);
            mdb_env_close(self.environment);
        }
        let _ = std::fs::remove_file(&self.path);
    }
}

/// A record a row: the key is the lot, its records are the lot's rows, in order, as sorted duplicates of one size,
/// which are read a page at a time. The clearings of lot p are those of key 8 + p.
pub struct Rows {
    lmdb: Lmdb,
    batch: Vec<Record>,
    name: &'static str,
}

/// The key of what is kept of the books, three words a record.
const BOOKS: usize = 16;

/// A row, its sequence number and epoch; or a clearing: its epoch, sequence number and 0. The first half is big-endian,
/// so that the order of the bytes is that of the two numbers.
type Record = [u8; 16];

fn record(first: u64, second: u64, word: u64) -> Record {
    let mut record = [0; 16];
    record[..4].copy_from_slice(&(first as u32).to_be_bytes());
    record[4..8].copy_from_slice(&(second as u32).to_be_bytes());
    record[8..].copy_from_slice(&word.to_ne_bytes());
    record
}

/// The two numbers and the word of a record.
#[inline]
fn fields(record: &[u8]) -> (u64, u64, u64) {
    let numbers = u64::from_be(word_at(record));
    (numbers >> 32, numbers & 0xffff_ffff, word_at(&record[8..]))
}

impl Rows {
    pub fn new(name: &'static str, landing: Landing) -> Rows {
        let lmdb = Lmdb::new(landing, INTEGER_KEY | DUPLICATES_SORTED | DUPLICATES_FIXED);
        Rows { lmdb, batch: Vec::new(), name }
    }

    /// Hands the records of a key to `each`, many at a time.
    fn each(&mut self, key: usize, mut each: impl FnMut(&[u8])) {
        let cursor = self.lmdb.cursor();
        let (mut key, mut data) = (Value::of(&key), Value::NONE);
        // Safety: the cursor's transaction is open, and nothing is written while the data is read.
        unsafe {
            if !found(mdb_cursor_get(cursor, &mut key, &mut data, Place::Set)) {
                return;
            }
            must(mdb_cursor_get(cursor, &mut key, &mut data, Place::GetMultiple));
            loop {
                each(data.slice());
                if !found(mdb_cursor_get(cursor, &mut key, &mut data, Place::NextMultiple)) {
                    return;
                }
            }
        }
    }

    fn floor(&mut self, lot: usize, view: &View) -> Floor {
        let mut floor = (0, 0);
        if self.lmdb.clearings[lot] > 0 {
            let cursor = self.lmdb.cursor();
            let key = 8 + lot;
            let (mut key, mut data) = (Value::of(&key), Value::NONE);
            let mut place = Place::LastDuplicate;
            // Safety: the cursor's transaction is open, and nothing is written while the data is read.
            unsafe {
                let mut more = found(mdb_cursor_get(cursor, &mut key, &mut data, Place::Set));
                while more && found(mdb_cursor_get(cursor, &mut key, &mut data, place)) {
                    let (epoch, sequence, _) = fields(data.slice());
                    if view.sees(epoch) {
                        floor = (epoch, sequence);
                        more = false;
                    }
                    place = Place::PreviousDuplicate;
                }
            }
        }
        floor
    }

    /// Adds records, not none, that come after all others of the key.
    fn put_all(&mut self, key: usize, records: &[Record]) {
        let cursor = self.lmdb.writer();
        let mut key = Value::of(&key);
        let mut data = [Value::of(&records[0]), Value { bytes: records.len(), data: ptr::null_mut() }];
        // Safety: the cursor's transaction is open; there are as many records, of the size stated, and they outlive the
        // call.
        unsafe { must(mdb_cursor_put(cursor, &mut key, data.as_mut_ptr(), MULTIPLE | APPEND_DUPLICATE)) };
        assert_eq!(data[1].bytes, records.len(), "lmdb: a batch was cut");
    }

    /// Takes all records of a key away, if there are any.
    fn remove_all(&mut self, key: usize) {
        let transaction = self.lmdb.writing();
        let mut key = Value::of(&key);
        // Safety: the transaction is open, and the key outlives the call.
        unsafe { found(mdb_del(transaction, self.lmdb.table, &mut key, ptr::null_mut())) };
    }

    /// Takes a record away.
    fn remove(&mut self, key: usize, record: Record) {
        let transaction = self.lmdb.writing();
        let (mut key, mut data) = (Value::of(&key), Value::of(&record));
        // Safety: the transaction is open, and the key and the data outlive the call.
        unsafe { must(mdb_del(transaction, self.lmdb.table, &mut key, &mut data)) };
    }
}

impl Lots for Rows {
    fn name(&self) -> &'static str {
        self.name
    }

    fn reset(&mut self) {
        self.lmdb.reset();
    }

    fn append(&mut self, lot: usize, epoch: u64, rows: &[u64]) -> Written {
        let first = self.lmdb.take(lot, rows.len());
        let mut batch = std::mem::take(&mut self.batch);
        batch.clear();
        batch.extend(rows.iter().zip(first..).map(|(&row, sequence)| record(sequence, epoch, row)));
        self.put_all(lot, &batch);
        self.batch = batch;
        Written { lot, clearing: false, first, last: first + rows.len() as u64 - 1 }
    }

    fn clear(&mut self, lot: usize, epoch: u64) -> Written {
        let sequence = self.lmdb.take(lot, 1);
        let transaction = self.lmdb.writing();
        let (key, record) = (8 + lot, record(epoch, sequence, 0));
        let (mut key, mut data) = (Value::of(&key), Value::of(&record));
        // Safety: the transaction is open, and the key and the data outlive the call.
        unsafe { must(mdb_put(transaction, self.lmdb.table, &mut key, &mut data, 0)) };
        self.lmdb.clearings[lot] += 1;
        Written { lot, clearing: true, first: sequence, last: sequence }
    }

    fn undo(&mut self, epoch: u64, written: &Written) {
        if written.clearing {
            self.remove(8 + written.lot, record(epoch, written.first, 0));
            self.lmdb.clearings[written.lot] -= 1;
            return;
        }
        let cursor = self.lmdb.writer();
        let start = record(written.first, 0, 0);
        let (mut key, mut data) = (Value::of(&written.lot), Value::of(&start));
        // Safety: the cursor's transaction is open. After a removal the cursor stands on the next record.
        unsafe {
            must(mdb_cursor_get(cursor, &mut key, &mut data, Place::GetBothRange));
            for sequence in written.first..=written.last {
                if sequence > written.first {
                    must(mdb_cursor_get(cursor, &mut key, &mut data, Place::GetCurrent));
                }
                must(mdb_cursor_del(cursor, 0));
            }
        }
    }

    fn scan(&mut self, lot: usize, view: &View, sum: &mut Sum) {
        let floor = self.floor(lot, view);
        self.each(lot, |records| {
            for record in records.chunks_exact(16) {
                let (sequence, epoch, word) = fields(record);
                if view.sees(epoch) && (epoch, sequence) > floor {
                    sum.row(word);
                }
            }
        });
    }

    fn scan_plain(&mut self, lot: usize, sum: &mut Sum) {
        self.each(lot, |records| records.chunks_exact(16).for_each(|record| sum.row(word_at(&record[8..]))));
    }

    fn purge(&mut self, lot: usize, lse: u64) {
        let floor = self.floor(lot, &View { last: lse, deps: &[] });
        if floor == (0, 0) {
            return;
        }
        let (mut gone, mut kept): (Vec<Record>, Vec<Record>) = (Vec::new(), Vec::new());
        self.each(lot, |records| {
            for record in records.chunks_exact(16) {
                let (sequence, epoch, word) = fields(record);
                let side = if (epoch, sequence) < floor { &mut gone } else { &mut kept };
                side.push(self::record(sequence, epoch, word));
            }
        });
        // Where few rows stay it is faster to take all away at once and to put those back.
        if 2 * gone.len() >= kept.len() {
            self.remove_all(lot);
            if !kept.is_empty() {
                self.put_all(lot, &kept);
            }
        } else {
            gone.into_iter().for_each(|record| self.remove(lot, record));
        }
        let mut clearings = Vec::new();
        self.each(8 + lot, |records| clearings.extend(records.chunks_exact(16).map(fields)));
        for (epoch, sequence, _) in clearings {
            if epoch <= lse {
                self.remove(8 + lot, record(epoch, sequence, 0));
                self.lmdb.clearings[lot] -= 1;
            }
        }
    }

    fn wrote(&mut self) {
        self.lmdb.wrote();
    }

    fn land(&mut self, books: &[u64]) {
        self.remove_all(BOOKS);
        let records = books.chunks(3).enumerate().map(|(at, words)| {
            let word = |at: usize| words.get(at).copied().unwrap_or(0);
            record(at as u64, word(0), word(1) << 32 | word(2))
        });
        let mut batch = std::mem::take(&mut self.batch);
        batch.clear();
        batch.extend(records);
        self.put_all(BOOKS, &batch);
        self.batch = batch;
        self.lmdb.commit();
    }

    fn landing(&self) -> Landing {
        self.lmdb.landing
    }

    fn is_writing(&self) -> bool {
        !self.lmdb.write.is_null()
    }
}

/// A record a batch, which is its rows. A purge joins the batches that all readers see.
pub struct Batches {
    lmdb: Lmdb,
    gathered: Gathered<Value>,
    name: &'static str,
}

/// The first bit of the keys of clearings, which come after those of all batches.
const CLEARING: u64 = 1 << 63;

impl Batches {
    pub fn new(name: &'static str, landing: Landing) -> Batches {
        Batches { lmdb: Lmdb::new(landing, INTEGER_KEY), gathered: Gathered::new(), name }
    }

    /// Hands the keys from `from` up to `to`, and their records, to `each`.
    fn each(&mut self, from: u64, to: u64, mut each: impl FnMut(u64, Value)) {
        let cursor = self.lmdb.cursor();
        let (mut key, mut data) = (Value::of(&from), Value::NONE);
        let mut place = Place::SetRange;
        // Safety: the cursor's transaction is open, and nothing is written while the key is read.
        unsafe {
            while found(mdb_cursor_get(cursor, &mut key, &mut data, place)) {
                let at = word_at(key.slice());
                if at > to {
                    return;
                }
                each(at, data);
                place = Place::Next;
            }
        }
    }

    fn floor(&mut self, lot: usize, view: &View) -> Floor {
        let mut floor = (0, 0);
        if self.lmdb.clearings[lot] > 0 {
            let last = CLEARING | key(lot, view.last, LAST);
            self.each(CLEARING | key(lot, 0, 0), last, |key, _| {
                let found = parts(key);
                if !view.deps.contains(&found.0) {
                    floor = found;
                }
            });
        }
        floor
    }

    /// Hands the rows of the batches between two keys to the sum, but those of these epochs.
    fn show(&mut self, from: u64, to: u64, without: &[u64], sum: &mut Sum) {
        let mut gathered = std::mem::replace(&mut self.gathered, Gathered::new());
        self.each(from, to, |key, rows| {
            let (epoch, sequence) = parts(key);
            if !without.contains(&epoch) {
                gathered.add(sequence, rows);
            }
        });
        // Safety: nothing was written since the cursor answered.
        gathered.each(|rows| sum.bytes(unsafe { rows.slice() }));
        self.gathered = gathered;
    }

    fn put(&mut self, key: u64, rows: &[u64]) {
        let transaction = self.lmdb.writing();
        let (mut key, mut data) = (Value::of(&key), Value::NONE);
        (data.bytes, data.data) = (size_of_val(rows), rows.as_ptr().cast_mut().cast());
        // Safety: the transaction is open, and the key and the rows outlive the call.
        unsafe { must(mdb_put(transaction, self.lmdb.table, &mut key, &mut data, 0)) };
    }

    fn remove(&mut self, key: u64) {
        let transaction = self.lmdb.writing();
        let mut key = Value::of(&key);
        // Safety: the transaction is open, and the key outlives the call.
        unsafe { must(mdb_del(transaction, self.lmdb.table, &mut key, ptr::null_mut())) };
    }
}

impl Lots for Batches {
    fn name(&self) -> &'static str {
        self.name
    }

    fn reset(&mut self) {
        self.lmdb.reset();
    }

    fn append(&mut self, lot: usize, epoch: u64, rows: &[u64]) -> Written {
        let sequence = self.lmdb.take(lot, 1);
        self.put(key(lot, epoch, sequence), rows);
        Written { lot, clearing: false, first: sequence, last: sequence }
    }

    fn clear(&mut self, lot: usize, epoch: u64) -> Written {
        let sequence = self.lmdb.take(lot, 1);
        self.put(CLEARING | key(lot, epoch, sequence), &[]);
        self.lmdb.clearings[lot] += 1;
        Written { lot, clearing: true, first: sequence, last: sequence }
    }

    fn undo(&mut self, epoch: u64, written: &Written) {
        let key = key(written.lot, epoch, written.first);
        if written.clearing {
            self.remove(CLEARING | key);
            self.lmdb.clearings[written.lot] -= 1;
        } else {
            self.remove(key);
        }
    }

    fn scan(&mut self, lot: usize, view: &View, sum: &mut Sum) {
        let floor = self.floor(lot, view);
        self.show(key(lot, floor.0, floor.1) + 1, key(lot, view.last, LAST), view.deps, sum);
    }

    fn scan_plain(&mut self, lot: usize, sum: &mut Sum) {
        self.show(key(lot, 0, 0), key(lot + 1, 0, 0) - 1, &[], sum);
    }

    fn purge(&mut self, lot: usize, lse: u64) {
        let floor = self.floor(lot, &View { last: lse, deps: &[] });
        let (mut spans, mut old) = (Vec::new(), Vec::new());
        self.each(key(lot, 0, 0), key(lot + 1, 0, 0) - 1, |key, rows| {
            let (epoch, sequence) = parts(key);
            // Safety: nothing was written since the cursor answered.
            let rows = unsafe { rows.slice() }.chunks_exact(8).map(word_at).collect();
            spans.push(Span { sequence, epoch, rows });
            old.push(key);
        });
        if purged(&mut spans, floor, lse) {
            old.into_iter().for_each(|key| self.remove(key));
            for span in &spans {
                self.put(key(lot, span.epoch, span.sequence), &span.rows);
            }
        }
        if floor != (0, 0) {
            let mut gone = Vec::new();
            self.each(CLEARING | key(lot, 0, 0), CLEARING | key(lot, lse, LAST), |key, _| gone.push(key));
            for key in gone {
                self.remove(key);
                self.lmdb.clearings[lot] -= 1;
            }
        }
    }

    fn wrote(&mut self) {
        self.lmdb.wrote();
    }

    fn land(&mut self, books: &[u64]) {
        self.put(u64::MAX, books);
        self.lmdb.commit();
    }

    fn landing(&self) -> Landing {
        self.lmdb.landing
    }

    fn is_writing(&self) -> bool {
        !self.lmdb.write.is_null()
    }
}
