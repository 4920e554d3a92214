//! A claim as an insert into SQLite: a table with the serial for its primary key, and order and item line unique together, one transaction a claim.
//! The library is opened while running, so that nothing of it is needed to build.
use std::ffi::{CStr, CString, c_char, c_int, c_void};
use std::hint::black_box;
use std::time::{Duration, Instant};

use crate::measure::{RUNS, Spread, Table, run, shown, turns};
use crate::register::{NEW, Opened, with};
use crate::{Edition, clock, peer};

unsafe extern "C" {
    fn dlopen(name: *const c_char, flags: c_int) -> *mut c_void;
    fn dlsym(library: *mut c_void, name: *const c_char) -> *mut c_void;
}

type Exec = unsafe extern "C" fn(*mut c_void, *const c_char, *const c_void, *const c_void, *mut *mut c_char) -> c_int;

struct Sqlite {
    open: unsafe extern "C" fn(*const c_char, *mut *mut c_void) -> c_int,
    exec: Exec,
    prepare: unsafe extern "C" fn(*mut c_void, *const c_char, c_int, *mut *mut c_void, *const c_void) -> c_int,
    bind: unsafe extern "C" fn(*mut c_void, c_int, i64) -> c_int,
    step: unsafe extern "C" fn(*mut c_void) -> c_int,
    reset: unsafe extern "C" fn(*mut c_void) -> c_int,
    finalize: unsafe extern "C" fn(*mut c_void) -> c_int,
    close: unsafe extern "C" fn(*mut c_void) -> c_int,
    version: String,
}

fn load() -> Option<Sqlite> {
    unsafe {
        let library = dlopen(c"libsqlite3.so.0".as_ptr(), 2);
        if library.is_null() {
            return None;
        }
        let find = |name: &CStr| {
            let found = dlsym(library, name.as_ptr());
            assert!(!found.is_null());
            found
        };
        let version: unsafe extern "C" fn() -> *const c_char = std::mem::transmute(find(c"sqlite3_libversion"));
        Some(Sqlite {
            open: std::mem::transmute(find(c"sqlite3_open")),
            exec: std::mem::transmute(find(c"sqlite3_exec")),
            prepare: std::mem::transmute(find(c"sqlite3_prepare_v2")),
            bind: std::mem::transmute(find(c"sqlite3_bind_int64")),
            step: std::mem::transmute(find(c"sqlite3_step")),
            reset: std::mem::transmute(find(c"sqlite3_reset")),
            finalize: std::mem::transmute(find(c"sqlite3_finalize")),
            close: std::mem::transmute(find(c"sqlite3_close")),
            version: CStr::from_ptr(version()).to_string_lossy().into_owned(),
        })
    }
}

/// A table with so many claims.
struct Claims<'a> {
    sqlite: &'a Sqlite,
    db: *mut c_void,
    insert: *mut c_void,
    entries: u64,
}

impl Claims<'_> {
    fn with<'a>(sqlite: &'a Sqlite, path: &str, entries: u64) -> Claims<'a> {
        let (mut db, mut insert) = (std::ptr::null_mut(), std::ptr::null_mut());
        let path = CString::new(path).unwrap();
        assert_eq!(unsafe { (sqlite.open)(path.as_ptr(), &mut db) }, 0);
        let mut table = Claims { sqlite, db, insert, entries };
        table.exec("create table line(serial integer primary key, number integer not null, item integer not null, unique(number, item))");
        let text = c"insert into line values(?, ?, ?)";
        assert_eq!(unsafe { (sqlite.prepare)(db, text.as_ptr(), -1, &mut insert, std::ptr::null()) }, 0);
        table.insert = insert;
        table.exec("begin");
        (1..=entries).for_each(|serial| table.claim(serial));
        table.exec("commit");
        table
    }

    fn exec(&self, text: &str) {
        let (text, none) = (CString::new(text).unwrap(), std::ptr::null());
        assert_eq!(unsafe { (self.sqlite.exec)(self.db, text.as_ptr(), none, none, std::ptr::null_mut()) }, 0);
    }

    fn claim(&self, serial: u64) {
        unsafe {
            (self.sqlite.bind)(self.insert, 1, serial as i64);
            // an order number that no other line has, in no order: no divisor is common to the two
            (self.sqlite.bind)(self.insert, 2, peer::numbered((serial * 2_654_435_761 % 429_496_729) as u32) as i64);
            (self.sqlite.bind)(self.insert, 3, 1);
            assert_eq!((self.sqlite.step)(self.insert), 101);
            (self.sqlite.reset)(self.insert);
        }
    }

    /// A run of so many claims: nanoseconds a claim by a clock. They are deleted again before the next run.
    fn run(&self, clock: impl Fn() -> Duration, claims: u64) -> f64 {
        let start = clock();
        (1..=claims).for_each(|j| self.claim(self.entries + j));
        let time = (clock() - start).as_nanos() as f64 / claims as f64;
        self.exec(&format!("delete from line where serial > {}", self.entries));
        time
    }
}

impl Drop for Claims<'_> {
    fn drop(&mut self) {
        unsafe {
            (self.sqlite.finalize)(self.insert);
            assert_eq!((self.sqlite.close)(self.db), 0);
        }
    }
}

/// On disk a claim waits for the disk: its times stand alone, on the clock.
fn on_disk(sqlite: &Sqlite, entries: &[u64], folder: &str) {
    println!("\n| Work | SQLite on disk | Its quartiles |\n|---|---|---|");
    let start = Instant::now();
    for &entries in entries {
        let path = format!("{folder}/claims-{entries}.db");
        _ = std::fs::remove_file(&path);
        let table = Claims::with(sqlite, &path, entries);
        let times = Spread::of((0..RUNS).map(|_| table.run(|| start.elapsed(), 5)).collect());
        println!("| {} | {} | {} to {} |", with("claim", entries), shown(times.median), shown(times.low), shown(times.high));
        drop(table);
        std::fs::remove_file(&path).unwrap();
    }
}

pub fn compare(e: &Edition, entries: &[u64], folder: &str) {
    let Some(sqlite) = load() else {
        println!("\nSQLite: libsqlite3.so.0 is not on this machine.");
        return;
    };
    println!("\nClaims of {} beside SQLite {}, through libsqlite3.so.0:\n", e.name, sqlite.version);
    let mut table = Table::new("SQLite in memory");
    for &entries in entries {
        let (mut ours, theirs) = (Opened::with(e, entries), Claims::with(&sqlite, ":memory:", entries));
        let ours = run(clock::own, move |_| _ = black_box(ours.claim(NEW, 1)));
        table.row(&with("claim", entries), turns(ours, || theirs.run(clock::own, 50)));
    }
    on_disk(&sqlite, entries, folder);
}
