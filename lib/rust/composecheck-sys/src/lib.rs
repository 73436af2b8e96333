//! The calls of `libcomposecheck` on whole tables, as `composecheck.h` declares them: that header says what each does, and what its caller has to keep.
//! The crate `composecheck` has them without `unsafe`.
#![allow(non_camel_case_types)]
use std::os::raw::{c_char, c_void};

pub const COMPOSECHECK_GREATEST_KEYSYM: u32 = 0x1fffffff;
pub const COMPOSECHECK_MOST_PENDING: usize = 31;
pub const COMPOSECHECK_MOST_TEXT: usize = 255;

/// What `composecheck_table_feed` answers.
pub const COMPOSECHECK_IGNORED: u32 = 0;
pub const COMPOSECHECK_ACCEPTED: u32 = 1;
pub const COMPOSECHECK_NO_KEYSYM: u32 = 2;

/// The numbers of a status.
pub const COMPOSECHECK_NOTHING: u32 = 0;
pub const COMPOSECHECK_COMPOSING: u32 = 1;
pub const COMPOSECHECK_COMPOSED: u32 = 2;
pub const COMPOSECHECK_CANCELLED: u32 = 3;

/// The part that is refused.
pub const COMPOSECHECK_NAMES: u32 = 1;
pub const COMPOSECHECK_BUNDLE: u32 = 2;
pub const COMPOSECHECK_SOURCE: u32 = 3;
pub const COMPOSECHECK_OVERLAP: u32 = 4;
pub const COMPOSECHECK_NODES: u32 = 5;
pub const COMPOSECHECK_MEMORY: u32 = 6;
pub const COMPOSECHECK_REPERTOIRE: u32 = 7;
pub const COMPOSECHECK_CERTIFICATE: u32 = 8;
pub const COMPOSECHECK_CONDITION: u32 = 9;
pub const COMPOSECHECK_SEARCH: u32 = 10;
pub const COMPOSECHECK_TABLE: u32 = 11;

/// A state. Zeros are at rest.
#[repr(C)]
#[derive(Clone, Copy, Debug)]
pub struct composecheck_state {
    pub pending: [u32; COMPOSECHECK_MOST_PENDING],
    pub hints: [u32; COMPOSECHECK_MOST_PENDING],
    pub count: u32,
    pub status: u32,
    pub reserved: [u32; 4],
}

#[repr(C)]
#[derive(Clone, Copy, Debug, Default, PartialEq, Eq)]
pub struct composecheck_fault {
    pub part: u32,
    pub code: u32,
    pub lexical: u32,
    pub value: u32,
    pub source: u64,
    pub line: u64,
    pub column: u64,
    pub at: u64,
    pub reserved: [u64; 2],
}

#[repr(C)]
pub struct composecheck_source {
    pub name: *const c_char,
    pub bytes: *const c_void,
    pub length: usize,
}

#[repr(C)]
pub struct composecheck_input {
    pub header: *const c_void,
    pub header_length: usize,
    pub sources: *const composecheck_source,
    pub source_count: usize,
    pub certificate: *const c_void,
    pub certificate_length: usize,
    pub repertoire: *const c_void,
    pub repertoire_length: usize,
    pub longest: bool,
    pub bundle: *const c_void,
    pub bundle_length: usize,
    pub reserved: [*mut c_void; 2],
}

#[repr(C)]
pub struct composecheck_places {
    pub system: *const c_char,
    pub locale: *const c_char,
    pub home: *const c_char,
    pub sysroot: *const c_char,
}

#[repr(C)]
pub struct composecheck_options {
    pub system: *const c_char,
    pub is_strict: bool,
    pub is_cached: bool,
    pub context: *mut c_void,
    pub reserved: [*mut c_void; 5],
}

#[repr(C)]
pub struct composecheck_message {
    pub text: *const c_char,
    pub fault: composecheck_fault,
    pub is_left_out: bool,
}

pub type composecheck_report = unsafe extern "C" fn(context: *mut c_void, message: *const composecheck_message);

extern "C" {
    pub fn composecheck_table_new(input: *const composecheck_input, length: *mut usize, fault: *mut composecheck_fault) -> *mut c_void;
    pub fn composecheck_table_load(
        in_use: *const c_void,
        in_use_length: usize,
        input: *const composecheck_input,
        length: *mut usize,
        fault: *mut composecheck_fault,
    ) -> *mut c_void;
    pub fn composecheck_table_copy(bytes: *const c_void, length: usize, fault: *mut composecheck_fault) -> *mut c_void;
    pub fn composecheck_table_free(table: *mut c_void);
    pub fn composecheck_table_explain(input: *const composecheck_input, text: *mut c_char, room: usize) -> usize;
    pub fn composecheck_table_check(
        old_table: *const c_void,
        old_length: usize,
        new_table: *const c_void,
        new_length: usize,
        input: *const composecheck_input,
        fault: *mut composecheck_fault,
    ) -> bool;
    pub fn composecheck_table_is_table(bytes: *const c_void, length: usize) -> u32;
    pub fn composecheck_table_feed(
        table: *const c_void,
        length: usize,
        state: *mut composecheck_state,
        keysym: u32,
        text: *mut u8,
        text_length: *mut u32,
    ) -> u32;
    pub fn composecheck_table_refeed(table: *const c_void, length: usize, state: *mut composecheck_state);
    pub fn composecheck_table_following(
        table: *const c_void,
        length: usize,
        state: *const composecheck_state,
        index: u32,
        keysym: *mut u32,
        status: *mut u32,
        text: *mut u8,
        text_length: *mut u32,
    ) -> bool;
    pub fn composecheck_table_result(table: *const c_void, length: usize, state: *const composecheck_state, keysym: u32) -> u32;
    pub fn composecheck_table_from_file(
        path: *const c_char,
        places: *const composecheck_places,
        longest: bool,
        length: *mut usize,
        fault: *mut composecheck_fault,
        text: *mut c_char,
        room: usize,
    ) -> *mut c_void;
    pub fn composecheck_table_from_locale(
        locale: *const c_char,
        options: *const composecheck_options,
        report: Option<composecheck_report>,
        length: *mut usize,
    ) -> *mut c_void;
    pub fn composecheck_reset(state: *mut composecheck_state);
    pub fn composecheck_status(state: *const composecheck_state) -> u32;
    pub fn composecheck_pending(state: *const composecheck_state, keysyms: *mut u32) -> u32;
    pub fn composecheck_key_text(keysym: u32, text: *mut c_char) -> usize;
}
