//! SQLite's library, which is found at run time where it is installed.

use std::ffi::{c_char, c_int, c_void, CStr};
use std::{mem, ptr};

const LIBRARY: &CStr = c"libsqlite3.so.0";
const RESOLVE_NOW: c_int = 2;
const ROW: c_int = 100;
const DONE: c_int = 101;

extern "C" {
    fn dlopen(file: *const c_char, flags: c_int) -> *mut c_void;
    fn dlsym(library: *mut c_void, name: *const c_char) -> *mut c_void;
}

type Handle = *mut c_void;

/// The functions of the library that are used.
pub struct Library {
    open: unsafe extern "C" fn(*const c_char, *mut Handle) -> c_int,
    close: unsafe extern "C" fn(Handle) -> c_int,
    prepare: unsafe extern "C" fn(Handle, *const c_char, c_int, *mut Handle, *mut *const c_char) -> c_int,
    bind: unsafe extern "C" fn(Handle, c_int, i64) -> c_int,
    step: unsafe extern "C" fn(Handle) -> c_int,
    column: unsafe extern "C" fn(Handle, c_int) -> i64,
    reset: unsafe extern "C" fn(Handle) -> c_int,
    finalize: unsafe extern "C" fn(Handle) -> c_int,
}

impl Library {
    /// The library, where it is installed.
    pub fn find() -> Option<Library> {
        unsafe {
            let library = dlopen(LIBRARY.as_ptr(), RESOLVE_NOW);
            if library.is_null() {
                return None;
            }
            let named = |name: &CStr| Some(dlsym(library, name.as_ptr())).filter(|function| !function.is_null());
            Some(Library {
                open: mem::transmute(named(c"sqlite3_open")?),
                close: mem::transmute(named(c"sqlite3_close")?),
                prepare: mem::transmute(named(c"sqlite3_prepare_v2")?),
                bind: mem::transmute(named(c"sqlite3_bind_int64")?),
                step: mem::transmute(named(c"sqlite3_step")?),
                column: mem::transmute(named(c"sqlite3_column_int64")?),
                reset: mem::transmute(named(c"sqlite3_reset")?),
                finalize: mem::transmute(named(c"sqlite3_finalize")?),
            })
        }
    }
}

/// A database that is open.
pub struct Database {
    library: Library,
    handle: Handle,
}

/// A prepared statement.
pub struct Statement<'a> {
    library: &'a Library,
    handle: Handle,
}

impl Database {
    /// The database of a file, or one in memory for the name `:memory:`.
    pub fn open(library: Library, file: &CStr) -> Option<Database> {
        let mut handle = ptr::null_mut();
        let status = unsafe { (library.open)(file.as_ptr(), &mut handle) };
        let database = Database { library, handle };
        (status == 0).then_some(database)
    }

    pub fn prepare(&self, text: &str) -> Option<Statement<'_>> {
        let mut handle = ptr::null_mut();
        let size = c_int::try_from(text.len()).ok()?;
        let text = text.as_ptr().cast();
        let status = unsafe { (self.library.prepare)(self.handle, text, size, &mut handle, ptr::null_mut()) };
        (status == 0).then_some(Statement { library: &self.library, handle })
    }

    pub fn run(&self, text: &str) -> Option<()> {
        self.prepare(text)?.run(&[]).map(|_| ())
    }
}

impl Drop for Database {
    fn drop(&mut self) {
        unsafe { (self.library.close)(self.handle) };
    }
}

impl Statement<'_> {
    /// Runs the statement to its end: the first column of its last row.
    pub fn run(&self, values: &[i64]) -> Option<Option<i64>> {
        let mut answer = None;
        let done = unsafe {
            for (place, &value) in (1..).zip(values) {
                (self.library.bind)(self.handle, place, value);
            }
            let mut status = (self.library.step)(self.handle);
            while status == ROW {
                answer = Some((self.library.column)(self.handle, 0));
                status = (self.library.step)(self.handle);
            }
            (self.library.reset)(self.handle);
            status
        };
        (done == DONE).then_some(answer)
    }
}

impl Drop for Statement<'_> {
    fn drop(&mut self) {
        unsafe { (self.library.finalize)(self.handle) };
    }
}
