//! Lots in SQLite, in memory. Two layouts: a record a row, and a record a batch.

use crate::books::{View, Written};
use crate::database::{key, parts, purged, Floor, Gathered, Landing, Lots, Span, LAST};
use crate::engine::{word_at, Sum};
use std::ffi::{c_char, c_int, c_uint, c_void, CStr, CString};
use std::ptr;

const OK: c_int = 0;
const ROW: c_int = 100;
const DONE: c_int = 101;
const OPEN_READ_WRITE_CREATE_NO_MUTEX: c_int = 0x2 | 0x4 | 0x8000;
const CONFIG_SINGLE_THREAD: c_int = 1;
const CONFIG_MEMORY_STATUS: c_int = 9;
const PREPARE_PERSISTENT: c_uint = 1;

#[repr(C)]
struct Connection {
    _opaque: [u8; 0],
}

#[repr(C)]
struct Prepared {
    _opaque: [u8; 0],
}

extern "C" {
    fn sqlite3_config(option: c_int, ...) -> c_int;
    fn sqlite3_libversion() -> *const c_char;
    fn sqlite3_open_v2(name: *const c_char, db: *mut *mut Connection, flags: c_int, vfs: *const c_char) -> c_int;
    fn sqlite3_close(db: *mut Connection) -> c_int;
    fn sqlite3_errmsg(db: *mut Connection) -> *const c_char;
    fn sqlite3_exec(
        db: *mut Connection,
        sql: *const c_char,
        callback: *const c_void,
        argument: *mut c_void,
        error: *mut *mut c_char,
    ) -> c_int;
    fn sqlite3_prepare_v3(
        db: *mut Connection,
        sql: *const c_char,
        bytes: c_int,
        flags: c_uint,
        statement: *mut *mut Prepared,
        tail: *mut *const c_char,
    ) -> c_int;
    fn sqlite3_finalize(statement: *mut Prepared) -> c_int;
    fn sqlite3_bind_int64(statement: *mut Prepared, at: c_int, value: i64) -> c_int;
    fn sqlite3_bind_blob(
        statement: *mut Prepared,
        at: c_int,
        value: *const c_void,
        bytes: c_int,
        destructor: *const c_void,
    ) -> c_int;
    fn sqlite3_step(statement: *mut Prepared) -> c_int;
    fn sqlite3_reset(statement: *mut Prepared) -> c_int;
    fn sqlite3_column_int64(statement: *mut Prepared, at: c_int) -> i64;
    fn sqlite3_column_blob(statement: *mut Prepared, at: c_int) -> *const c_void;
    fn sqlite3_column_bytes(statement: *mut Prepared, at: c_int) -> c_int;
}

/// The version of the library.
pub fn version() -> String {
    // Safety: the library answers a string that stays.
    unsafe { CStr::from_ptr(sqlite3_libversion()) }.to_string_lossy().into_owned()
}

/// A prepared statement. The connection, which is closed after it, is its owner's.
struct Statement {
    raw: *mut Prepared,
    db: *mut Connection,
}

impl Statement {
    fn fail(&self) -> ! {
        // Safety: the connection is open, and the library answers a string that stays until the next call.
        panic!("sqlite: {}", unsafe { CStr::from_ptr(sqlite3_errmsg(self.db)) }.to_string_lossy())
    }

    fn bind(&mut self, at: c_int, value: u64) {
        // Safety: the statement is prepared and not stepped since its last reset.
        if unsafe { sqlite3_bind_int64(self.raw, at, value as i64) } != OK {
            self.fail();
        }
    }

    /// Runs the statement, which answers no row, with these parameters.
    fn run(&mut self, parameters: &[u64]) {
        for (at, &parameter) in parameters.iter().enumerate() {
            self.bind(at as c_int + 1, parameter);
        }
        self.run_bound();
    }

    fn run_bound(&mut self) {
        // Safety: the statement is prepared.
        let stepped = unsafe { sqlite3_step(self.raw) };
        if stepped != DONE {
            self.fail();
        }
        // Safety: as above.
        unsafe { sqlite3_reset(self.raw) };
    }

    /// Runs the statement, its last parameter bytes.
    fn run_with_rows(&mut self, parameters: &[u64], rows: &[u64]) {
        let at = parameters.len() as c_int + 1;
        let bytes = size_of_val(rows) as c_int;
        // Safety: the rows outlive the step, which is the last to read them (a null destructor: static).
        if unsafe { sqlite3_bind_blob(self.raw, at, rows.as_ptr().cast(), bytes, ptr::null()) } != OK {
            self.fail();
        }
        self.run(parameters);
    }

    /// Hands each row that the statement answers to `each`, until that is false.
    fn each(&mut self, parameters: &[u64], mut each: impl FnMut(&Answered) -> bool) {
        for (at, &parameter) in parameters.iter().enumerate() {
            self.bind(at as c_int + 1, parameter);
        }
        loop {
            // Safety: the statement is prepared.
            match unsafe { sqlite3_step(self.raw) } {
                ROW if each(&Answered { raw: self.raw }) => {}
                ROW | DONE => break,
                _ => self.fail(),
            }
        }
        // Safety: as above.
        unsafe { sqlite3_reset(self.raw) };
    }
}

impl Drop for Statement {
    fn drop(&mut self) {
        // Safety: the statement is prepared, and not used again.
        unsafe { sqlite3_finalize(self.raw) };
    }
}

/// The row that a statement stands on.
struct Answered {
    raw: *mut Prepared,
}

impl Answered {
    #[inline]
    fn word(&self, at: c_int) -> u64 {
        // Safety: the statement stands on a row.
        unsafe { sqlite3_column_int64(self.raw, at) as u64 }
    }

    #[inline]
    fn bytes(&self, at: c_int) -> &[u8] {
        // Safety: the statement stands on a row, and the bytes stay until its next step, which needs this row gone.
        unsafe {
            let bytes = sqlite3_column_blob(self.raw, at);
            let len = sqlite3_column_bytes(self.raw, at) as usize;
            if len == 0 {
                return &[];
            }
            std::slice::from_raw_parts(bytes.cast(), len)
        }
    }
}

/// What both layouts share: the connection, its transactions, the clearings. Fields are dropped in order.
struct Sqlite {
    start: Statement,
    finish: Statement,
    clear: Statement,
    unclear: Statement,
    floor: Statement,
    forget: Statement,
    keep: Statement,
    connection: Owned,
    landing: Landing,
    open: bool,
    /// The next sequence number, and the clearings that the lot has.
    next: [u64; 8],
    clearings: [u64; 8],
}

/// The connection, closed when dropped.
struct Owned(*mut Connection);

impl Drop for Owned {
    fn drop(&mut self) {
        // Safety: the connection is open, and its statements were dropped before it.
        unsafe { sqlite3_close(self.0) };
    }
}

impl Owned {
    /// A database in memory for one thread.
    fn new() -> Owned {
        let mut db = ptr::null_mut();
        // Safety: the name is a string, and a new connection is written to `db`. The two options are for all
        // connections and are refused, which harms nothing, where there is one already.
        unsafe {
            sqlite3_config(CONFIG_SINGLE_THREAD);
            sqlite3_config(CONFIG_MEMORY_STATUS, 0 as c_int);
            let opened = sqlite3_open_v2(c":memory:".as_ptr(), &mut db, OPEN_READ_WRITE_CREATE_NO_MUTEX, ptr::null());
            assert_eq!(opened, OK, "sqlite: no database in memory");
        }
        Owned(db)
    }

    fn execute(&self, sql: &str) {
        let sql = CString::new(sql).expect("no zero byte");
        // Safety: the connection is open and the statement a string.
        let done = unsafe { sqlite3_exec(self.0, sql.as_ptr(), ptr::null(), ptr::null_mut(), ptr::null_mut()) };
        assert_eq!(done, OK, "sqlite: {sql:?}");
    }

    fn prepare(&self, sql: &str) -> Statement {
        let mut raw = ptr::null_mut();
        let text = CString::new(sql).expect("no zero byte");
        // Safety: the connection is open, the statement a string that ends itself, and the new one is written to `raw`.
        let prepared =
            unsafe { sqlite3_prepare_v3(self.0, text.as_ptr(), -1, PREPARE_PERSISTENT, &mut raw, ptr::null_mut()) };
        assert_eq!(prepared, OK, "sqlite: {sql}");
        Statement { raw, db: self.0 }
    }
}

impl Sqlite {
    fn new(landing: Landing, table: &str, page: u32) -> Sqlite {
        let connection = Owned::new();
        connection.execute(&format!("PRAGMA page_size = {page}"));
        connection.execute("PRAGMA journal_mode = OFF; PRAGMA synchronous = OFF; PRAGMA locking_mode = EXCLUSIVE");
        connection.execute(table);
        connection.execute("CREATE TABLE clearing (key INTEGER PRIMARY KEY)");
        connection
            .execute("CREATE TABLE books (key INTEGER PRIMARY KEY, words BLOB); INSERT INTO books VALUES (0, NULL)");
        Sqlite {
            start: connection.prepare("BEGIN"),
            finish: connection.prepare("COMMIT"),
            clear: connection.prepare("INSERT INTO clearing VALUES (?1)"),
            unclear: connection.prepare("DELETE FROM clearing WHERE key = ?1"),
            floor: connection.prepare("SELECT key FROM clearing WHERE key BETWEEN ?1 AND ?2 ORDER BY key DESC"),
            forget: connection.prepare("DELETE FROM clearing WHERE key BETWEEN ?1 AND ?2"),
            keep: connection.prepare("UPDATE books SET words = ?1 WHERE key = 0"),
            connection,
            landing,
            open: false,
            next: [0; 8],
            clearings: [0; 8],
        }
    }

    fn reset(&mut self, table: &str) {
        self.write();
        self.connection.execute(&format!("DELETE FROM {table}; DELETE FROM clearing"));
        self.finish.run(&[]);
        self.open = false;
        (self.next, self.clearings) = ([0; 8], [0; 8]);
    }

    /// Before a write.
    fn write(&mut self) {
        if !self.open {
            self.start.run(&[]);
            self.open = true;
        }
    }

    fn commit(&mut self) {
        if self.open {
            self.finish.run(&[]);
            self.open = false;
        }
    }

    fn wrote(&mut self) {
        if self.landing == Landing::EachCall {
            self.commit();
        }
    }

    fn land(&mut self, books: &[u64]) {
        self.write();
        self.keep.run_with_rows(&[], books);
        self.commit();
    }

    fn take(&mut self, lot: usize, count: usize) -> u64 {
        let first = self.next[lot];
        self.next[lot] += count as u64;
        first
    }

    fn clear(&mut self, lot: usize, epoch: u64) -> Written {
        self.write();
        let sequence = self.take(lot, 1);
        self.clear.run(&[key(lot, epoch, sequence)]);
        self.clearings[lot] += 1;
        Written { lot, clearing: true, first: sequence, last: sequence }
    }

    fn unclear(&mut self, epoch: u64, written: &Written) {
        self.unclear.run(&[key(written.lot, epoch, written.first)]);
        self.clearings[written.lot] -= 1;
    }

    /// The greatest clearing that the reader applies, by epoch and sequence number; (0, 0) if there is none.
    fn floor(&mut self, lot: usize, view: &View) -> Floor {
        let mut floor = (0, 0);
        if self.clearings[lot] > 0 {
            self.floor.each(&[key(lot, 0, 0), key(lot, view.last, LAST)], |answered| {
                let found = parts(answered.word(0));
                if view.deps.contains(&found.0) {
                    return true;
                }
                floor = found;
                false
            });
        }
        floor
    }

    /// Takes away the clearings that a purge applied.
    fn forget(&mut self, lot: usize, lse: u64) {
        let mut gone = 0;
        let keys = [key(lot, 0, 0), key(lot, lse, LAST)];
        self.floor.each(&keys, |_| {
            gone += 1;
            true
        });
        self.forget.run(&keys);
        self.clearings[lot] -= gone;
    }
}

/// What a purge at `lse` applies.
fn at(lse: u64) -> View<'static> {
    View { last: lse, deps: &[] }
}

/// The keys of what a reader is shown, if it has no deps.
fn shown(lot: usize, view: &View, floor: Floor) -> [u64; 2] {
    [key(lot, floor.0, floor.1) + 1, key(lot, view.last, LAST)]
}

/// The keys of a lot.
fn all(lot: usize) -> [u64; 2] {
    [key(lot, 0, 0), key(lot + 1, 0, 0) - 1]
}

/// A record a row.
pub struct Rows {
    insert: Statement,
    insert_8: Statement,
    remove: Statement,
    select: Statement,
    sqlite: Sqlite,
    gathered: Gathered<u64>,
    eights: bool,
    name: &'static str,
}

impl Rows {
    /// `eights`: eight rows a statement where there are so many.
    pub fn new(name: &'static str, landing: Landing, eights: bool) -> Rows {
        let table = "CREATE TABLE line (key INTEGER PRIMARY KEY, word INTEGER NOT NULL)";
        let sqlite = Sqlite::new(landing, table, 4096);
        let prepare = |sql: &str| sqlite.connection.prepare(sql);
        let eight: Vec<String> = (0..8).map(|i| format!("(?1 + {i}, ?{})", i + 2)).collect();
        Rows {
            insert: prepare("INSERT INTO line VALUES (?1, ?2)"),
            insert_8: prepare(&format!("INSERT INTO line VALUES {}", eight.join(", "))),
            remove: prepare("DELETE FROM line WHERE key BETWEEN ?1 AND ?2"),
            select: prepare("SELECT key, word FROM line WHERE key BETWEEN ?1 AND ?2"),
            sqlite,
            gathered: Gathered::new(),
            eights,
            name,
        }
    }
}

impl Lots for Rows {
    fn name(&self) -> &'static str {
        self.name
    }

    fn reset(&mut self) {
        self.sqlite.reset("line");
    }

    fn append(&mut self, lot: usize, epoch: u64, rows: &[u64]) -> Written {
        self.sqlite.write();
        let first = self.sqlite.take(lot, rows.len());
        let mut at = key(lot, epoch, first);
        let (eights, rest) = rows.split_at(if self.eights { rows.len() / 8 * 8 } else { 0 });
        for rows in eights.chunks_exact(8) {
            self.insert_8.run(&[at, rows[0], rows[1], rows[2], rows[3], rows[4], rows[5], rows[6], rows[7]]);
            at += 8;
        }
        for &row in rest {
            self.insert.run(&[at, row]);
            at += 1;
        }
        Written { lot, clearing: false, first, last: first + rows.len() as u64 - 1 }
    }

    fn clear(&mut self, lot: usize, epoch: u64) -> Written {
        self.sqlite.clear(lot, epoch)
    }

    fn undo(&mut self, epoch: u64, written: &Written) {
        self.sqlite.write();
        if written.clearing {
            self.sqlite.unclear(epoch, written);
        } else {
            self.remove.run(&[key(written.lot, epoch, written.first), key(written.lot, epoch, written.last)]);
        }
    }

    fn scan(&mut self, lot: usize, view: &View, sum: &mut Sum) {
        let floor = self.sqlite.floor(lot, view);
        self.select.each(&shown(lot, view, floor), |answered| {
            let (epoch, sequence) = parts(answered.word(0));
            if !view.deps.contains(&epoch) {
                self.gathered.add(sequence, answered.word(1));
            }
            true
        });
        self.gathered.each(|row| sum.row(row));
    }

    fn scan_plain(&mut self, lot: usize, sum: &mut Sum) {
        self.select.each(&all(lot), |answered| {
            self.gathered.add(parts(answered.word(0)).1, answered.word(1));
            true
        });
        self.gathered.each(|row| sum.row(row));
    }

    fn purge(&mut self, lot: usize, lse: u64) {
        let floor = self.sqlite.floor(lot, &at(lse));
        if floor != (0, 0) {
            self.sqlite.write();
            self.remove.run(&[key(lot, 0, 0), key(lot, floor.0, floor.1)]);
            self.sqlite.forget(lot, lse);
        }
    }

    fn wrote(&mut self) {
        self.sqlite.wrote();
    }

    fn land(&mut self, books: &[u64]) {
        self.sqlite.land(books);
    }

    fn landing(&self) -> Landing {
        self.sqlite.landing
    }

    fn is_writing(&self) -> bool {
        self.sqlite.open
    }
}

/// A record a batch, its rows a blob. A purge joins the batches that all readers see.
pub struct Batches {
    insert: Statement,
    remove: Statement,
    select: Statement,
    sqlite: Sqlite,
    /// Where the rows of batches stand in `rows`: a blob stays only until the next step.
    gathered: Gathered<(usize, usize)>,
    rows: Vec<u8>,
    name: &'static str,
}

impl Batches {
    pub fn new(name: &'static str, landing: Landing, page: u32) -> Batches {
        let table = "CREATE TABLE span (key INTEGER PRIMARY KEY, rows BLOB NOT NULL)";
        let sqlite = Sqlite::new(landing, table, page);
        let prepare = |sql: &str| sqlite.connection.prepare(sql);
        Batches {
            insert: prepare("INSERT INTO span VALUES (?1, ?2)"),
            remove: prepare("DELETE FROM span WHERE key BETWEEN ?1 AND ?2"),
            select: prepare("SELECT key, rows FROM span WHERE key BETWEEN ?1 AND ?2"),
            sqlite,
            gathered: Gathered::new(),
            rows: Vec::new(),
            name,
        }
    }

    /// Hands the rows of the batches between two keys to the sum, but those of these epochs.
    fn show(&mut self, keys: &[u64; 2], without: &[u64], sum: &mut Sum) {
        self.rows.clear();
        self.select.each(keys, |answered| {
            let (epoch, sequence) = parts(answered.word(0));
            if !without.contains(&epoch) {
                let from = self.rows.len();
                self.rows.extend_from_slice(answered.bytes(1));
                self.gathered.add(sequence, (from, self.rows.len()));
            }
            true
        });
        self.gathered.each(|(from, to)| sum.bytes(&self.rows[from..to]));
    }
}

impl Lots for Batches {
    fn name(&self) -> &'static str {
        self.name
    }

    fn reset(&mut self) {
        self.sqlite.reset("span");
    }

    fn append(&mut self, lot: usize, epoch: u64, rows: &[u64]) -> Written {
        self.sqlite.write();
        let first = self.sqlite.take(lot, 1);
        self.insert.run_with_rows(&[key(lot, epoch, first)], rows);
        Written { lot, clearing: false, first, last: first }
    }

    fn clear(&mut self, lot: usize, epoch: u64) -> Written {
        self.sqlite.clear(lot, epoch)
    }

    fn undo(&mut self, epoch: u64, written: &Written) {
        self.sqlite.write();
        if written.clearing {
            self.sqlite.unclear(epoch, written);
        } else {
            self.remove.run(&[key(written.lot, epoch, written.first), key(written.lot, epoch, written.last)]);
        }
    }

    fn scan(&mut self, lot: usize, view: &View, sum: &mut Sum) {
        let floor = self.sqlite.floor(lot, view);
        self.show(&shown(lot, view, floor), view.deps, sum);
    }

    fn scan_plain(&mut self, lot: usize, sum: &mut Sum) {
        self.show(&all(lot), &[], sum);
    }

    fn purge(&mut self, lot: usize, lse: u64) {
        let floor = self.sqlite.floor(lot, &at(lse));
        let mut spans = Vec::new();
        self.select.each(&all(lot), |answered| {
            let (epoch, sequence) = parts(answered.word(0));
            spans.push(Span { sequence, epoch, rows: answered.bytes(1).chunks_exact(8).map(word_at).collect() });
            true
        });
        if purged(&mut spans, floor, lse) {
            self.sqlite.write();
            self.remove.run(&all(lot));
            for span in &spans {
                self.insert.run_with_rows(&[key(lot, span.epoch, span.sequence)], &span.rows);
            }
        }
        if floor != (0, 0) {
            self.sqlite.write();
            self.sqlite.forget(lot, lse);
        }
    }

    fn wrote(&mut self) {
        self.sqlite.wrote();
    }

    fn land(&mut self, books: &[u64]) {
        self.sqlite.land(books);
    }

    fn landing(&self) -> Landing {
        self.sqlite.landing
    }

    fn is_writing(&self) -> bool {
        self.sqlite.open
    }
}
