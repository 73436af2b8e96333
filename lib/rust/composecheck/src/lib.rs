//! Compose tables and compose states by `libcomposecheck`, whose typing is proved. The names are those of the crate `xkbcommon`'s compose module.
//!
//! ```no_run
//! use composecheck::{State, Status, Table};
//!
//! let mut state = State::new(&Table::from_locale(None)?);
//! for keysym in [0xff20, 0x27, 0x65] {
//!     state.feed(keysym);
//! }
//! if state.status() == Status::Composed {
//!     println!("{}", state.utf8().unwrap_or(""));
//! }
//! # Ok::<(), composecheck::Error>(())
//! ```
//!
//! A key that is part of no sequence commits no text here; [`key_text`] has the text of such a key.
#![warn(unsafe_op_in_unsafe_fn)]
mod error;
mod input;
mod state;
mod table;

pub use error::{Error, Fault, Part};
pub use state::{FeedResult, Following, State, Status};
pub use table::{Move, Options, Places, Table};

/// The greatest number of a keysym.
pub const GREATEST_KEYSYM: u32 = composecheck_sys::COMPOSECHECK_GREATEST_KEYSYM;

/// The text of a key that is part of no sequence, by the names that are built in; `None` if it has none. It takes as long as reading these names.
pub fn key_text(keysym: u32) -> Option<char> {
    let mut text = [0; 5];
    // SAFETY: the text has the room that the call asks for.
    let length = unsafe { composecheck_sys::composecheck_key_text(keysym, text.as_mut_ptr()) };
    let bytes: Vec<u8> = text[..length].iter().map(|it| *it as u8).collect();
    std::str::from_utf8(&bytes).ok()?.chars().next()
}
