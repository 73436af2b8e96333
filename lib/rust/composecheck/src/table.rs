//! Compose tables.
use crate::input::Input;
use crate::{Error, Fault};
use composecheck_sys as sys;
use std::ffi::{CStr, CString};
use std::os::raw::{c_char, c_void};
use std::os::unix::ffi::OsStrExt;
use std::path::Path;
use std::ptr::{self, NonNull};
use std::sync::Arc;

/// A table. It is shared: a clone is the same table, in constant time, and it is freed with the last one.
#[derive(Clone, Debug)]
pub struct Table(Arc<Owned>);

/// A block of the library, and its length.
#[derive(Debug)]
struct Owned(NonNull<c_void>, usize);

// SAFETY: nothing changes a table once it is made, the calls only read it, and the library has no memory and no lock of its own; free may be called by
// any thread.
unsafe impl Send for Owned {}
unsafe impl Sync for Owned {}

impl Drop for Owned {
    fn drop(&mut self) {
        // SAFETY: the table is one of the library's, and this is its only owner.
        unsafe { sys::composecheck_table_free(self.0.as_ptr()) }
    }
}

/// How the table of a user is read.
#[derive(Clone, Copy, Debug, Default)]
pub struct Options<'a> {
    /// The folder of the system's tables; `None`: `$XLOCALEDIR`, or `/usr/share/X11/locale`.
    pub system: Option<&'a Path>,
    /// A faulty line refuses the table; else up to ten of them are left out.
    pub is_strict: bool,
    /// The table is kept in the user's cache, and taken from there while its files are the same.
    pub is_cached: bool,
}

/// What the includes of a file lead to.
#[derive(Clone, Copy, Debug, Default)]
pub struct Places<'a> {
    /// The folder of the system's tables, for `%S`.
    pub system: Option<&'a Path>,
    /// The table of the locale, for `%L`.
    pub locale: Option<&'a Path>,
    /// The home folder, for `%H`.
    pub home: Option<&'a Path>,
    /// The folder below which an absolute path is looked for first.
    pub sysroot: Option<&'a Path>,
}

/// What shows that typing goes on as before when a table takes another one's place.
#[derive(Clone, Copy, Debug)]
pub struct Move<'a> {
    pub certificate: &'a [u8],
    pub repertoire: &'a [u8],
}

impl Table {
    /// The table of the user, as libxkbcommon finds it: without a locale that of the environment. Faulty lines are left out, up to ten of them.
    pub fn from_locale(locale: Option<&str>) -> Result<Table, Error> {
        Table::from_locale_with(locale, &Options::default(), |_| ())
    }

    /// The same with options; `report` gets each line that is left out.
    pub fn from_locale_with(locale: Option<&str>, options: &Options, mut report: impl FnMut(&Fault)) -> Result<Table, Error> {
        let locale = locale.map(CString::new).transpose()?;
        let system = path_of(options.system)?;
        let mut messages: Vec<(sys::composecheck_fault, String, bool)> = Vec::new();
        let context = ptr::addr_of_mut!(messages).cast::<c_void>();
        let Options { is_strict, is_cached, .. } = *options;
        let given = sys::composecheck_options { system: start(&system), is_strict, is_cached, context, reserved: [ptr::null_mut(); 5] };
        let mut length = 0;
        // SAFETY: the texts have end marks and outlive the call, and `keep` takes the context for what it is.
        let made = unsafe { sys::composecheck_table_from_locale(start(&locale), &given, Some(keep), &mut length) };
        for (fault, text, _) in messages.iter().filter(|it| it.2) {
            report(&Fault::of(fault, text.clone()));
        }
        let end = messages.pop().unwrap_or_default();
        Table::owning(made, length, || Error::of(&end.0, end.1))
    }

    /// The table of the file at this path, with every file that it includes.
    pub fn from_file(path: &Path, places: &Places) -> Result<Table, Error> {
        let path = CString::new(path.as_os_str().as_bytes())?;
        let [system, locale, home, sysroot] = [path_of(places.system)?, path_of(places.locale)?, path_of(places.home)?, path_of(places.sysroot)?];
        let given = sys::composecheck_places { system: start(&system), locale: start(&locale), home: start(&home), sysroot: start(&sysroot) };
        let (mut length, mut fault, mut text) = (0, sys::composecheck_fault::default(), [0u8; 1024]);
        let (target, room) = (text.as_mut_ptr().cast(), text.len());
        // SAFETY: the texts have end marks and outlive the call, and the text has the room.
        let made = unsafe { sys::composecheck_table_from_file(path.as_ptr(), &given, true, &mut length, &mut fault, target, room) };
        Table::owning(made, length, || Error::of(&fault, until_end_mark(&text)))
    }

    /// The table of sources, the root first: each a name, as the including line has it between its quotes, and its content. The longer of two
    /// sequences counts of which one is a prefix of the other.
    pub fn new(sources: &[(&str, &[u8])]) -> Result<Table, Error> {
        let (input, mut length, mut fault) = (Input::new(sources)?, 0, sys::composecheck_fault::default());
        // SAFETY: the input's pointers hold while the call runs.
        let made = input.lend(|it| unsafe { sys::composecheck_table_new(it, &mut length, &mut fault) });
        Table::owning(made, length, || Error::of(&fault, input.sentence()))
    }

    /// The table of sources if the certificate is valid for a move to it from this one, so that nobody who types sees a difference that it doesn't say.
    pub fn load(&self, sources: &[(&str, &[u8])], shown: Move) -> Result<Table, Error> {
        let input = Input::new(sources)?.with(shown.certificate, shown.repertoire);
        let ((block, size), mut length, mut fault) = (self.block(), 0, sys::composecheck_fault::default());
        // SAFETY: the input's pointers hold while the call runs, and this is a table.
        let made = input.lend(|it| unsafe { sys::composecheck_table_load(block, size, it, &mut length, &mut fault) });
        Table::owning(made, length, || Error::of(&fault, input.sentence()))
    }

    /// Whether the certificate is valid for a move from this table to the new one.
    pub fn check(&self, new: &Table, shown: Move) -> Result<(), Error> {
        let (input, mut fault) = (Input::new(&[])?.with(shown.certificate, shown.repertoire), sys::composecheck_fault::default());
        let ((old_block, old_size), (new_block, new_size)) = (self.block(), new.block());
        // SAFETY: both are tables, and the input's pointers hold while the call runs.
        let is_valid = input.lend(|it| unsafe { sys::composecheck_table_check(old_block, old_size, new_block, new_size, it, &mut fault) });
        if is_valid {
            Ok(())
        } else {
            Err(Error::of(&fault, String::new()))
        }
    }

    /// The table of a block, a copy of these bytes, which may be any: from a file, a cache or another process. An error if they are none.
    pub fn from_bytes(bytes: &[u8]) -> Result<Table, Error> {
        let mut fault = sys::composecheck_fault::default();
        // SAFETY: the call copies the bytes, and takes any.
        let made = unsafe { sys::composecheck_table_copy(bytes.as_ptr().cast(), bytes.len(), &mut fault) };
        Table::owning(made, bytes.len(), || Error::of(&fault, "the bytes are no table".to_string()))
    }

    /// The block of the table: bytes that may be kept in a file, and sent.
    pub fn as_bytes(&self) -> &[u8] {
        // SAFETY: the block has that length, and nothing changes it while the table is there.
        unsafe { std::slice::from_raw_parts(self.0 .0.as_ptr().cast(), self.0 .1) }
    }

    pub(crate) fn block(&self) -> (*const c_void, usize) {
        (self.0 .0.as_ptr(), self.0 .1)
    }

    /// What a call returned: a table of the caller's own, or null.
    fn owning(made: *mut c_void, length: usize, error: impl FnOnce() -> Error) -> Result<Table, Error> {
        NonNull::new(made).map(|it| Table(Arc::new(Owned(it, length)))).ok_or_else(error)
    }
}

/// Keeps a message of the library; the context is the list of those before it.
unsafe extern "C" fn keep(context: *mut c_void, message: *const sys::composecheck_message) {
    // SAFETY: from_locale_with hands this function and its list to the library, which calls it while that function waits, with a message that holds.
    unsafe {
        let messages = &mut *context.cast::<Vec<(sys::composecheck_fault, String, bool)>>();
        let text = CStr::from_ptr((*message).text).to_string_lossy().into_owned();
        messages.push(((*message).fault, text, (*message).is_left_out));
    }
}

fn path_of(path: Option<&Path>) -> Result<Option<CString>, Error> {
    Ok(path.map(|it| CString::new(it.as_os_str().as_bytes())).transpose()?)
}

fn start(text: &Option<CString>) -> *const c_char {
    text.as_ref().map_or(ptr::null(), |it| it.as_ptr())
}

fn until_end_mark(text: &[u8]) -> String {
    String::from_utf8_lossy(text.split(|it| *it == 0).next().unwrap_or_default()).into_owned()
}
