//! Compose states.
use crate::{Table, GREATEST_KEYSYM};
use composecheck_sys as sys;

/// What a state is in the middle of.
#[derive(Clone, Copy, Debug, PartialEq, Eq)]
pub enum Status {
    Nothing,
    Composing,
    Composed,
    Cancelled,
}

/// Whether a key counts for sequences; a Shift doesn't.
#[derive(Clone, Copy, Debug, PartialEq, Eq)]
pub enum FeedResult {
    Ignored,
    Accepted,
}

/// A key that may come next, and what it would do.
#[derive(Clone, Debug, PartialEq, Eq)]
pub struct Following {
    pub keysym: u32,
    pub status: Status,
    /// The text that it would commit.
    pub text: String,
}

/// A compose state over a table, which it keeps. A state may go to another thread, and is used by one at a time.
#[derive(Clone, Debug)]
pub struct State {
    table: Table,
    state: sys::composecheck_state,
    text: String,
    keysym: u32,
}

impl State {
    /// A state at rest.
    pub fn new(table: &Table) -> State {
        let none = [0; sys::COMPOSECHECK_MOST_PENDING];
        let state = sys::composecheck_state { pending: none, hints: none, count: 0, status: sys::COMPOSECHECK_NOTHING, reserved: [0; 4] };
        State { table: table.clone(), state, text: String::new(), keysym: 0 }
    }

    /// Feeds a key. A number above [`GREATEST_KEYSYM`] is part of no sequence: it cancels what is pending.
    pub fn feed(&mut self, keysym: u32) -> FeedResult {
        if keysym > GREATEST_KEYSYM {
            return self.cancel();
        }
        let (mut text, mut length) = ([0u8; sys::COMPOSECHECK_MOST_TEXT], 0);
        let (block, size) = self.table.block();
        // SAFETY: the table is one, the state may hold anything, and the text has the room that the call asks for.
        let (result, fed) = unsafe {
            let result = sys::composecheck_table_result(block, size, &self.state, keysym);
            (result, sys::composecheck_table_feed(block, size, &mut self.state, keysym, text.as_mut_ptr(), &mut length))
        };
        if fed == sys::COMPOSECHECK_IGNORED {
            return FeedResult::Ignored;
        }
        self.keysym = result;
        self.set_text(&text[..length as usize]);
        FeedResult::Accepted
    }

    /// What a key does that is part of no sequence.
    fn cancel(&mut self) -> FeedResult {
        let is_composing = self.status() == Status::Composing;
        self.reset();
        self.state.status = if is_composing { sys::COMPOSECHECK_CANCELLED } else { sys::COMPOSECHECK_NOTHING };
        FeedResult::Accepted
    }

    fn set_text(&mut self, bytes: &[u8]) {
        self.text.clear();
        self.text.push_str(&String::from_utf8_lossy(bytes));
    }

    pub fn status(&self) -> Status {
        // SAFETY: a state may hold anything.
        status_of(unsafe { sys::composecheck_status(&self.state) })
    }

    /// The text of the sequence that the last key completed, if it completed one.
    pub fn utf8(&self) -> Option<&str> {
        (self.status() == Status::Composed).then_some(self.text.as_str())
    }

    /// Its result keysym, if it has one.
    pub fn keysym(&self) -> Option<u32> {
        (self.status() == Status::Composed && self.keysym != 0).then_some(self.keysym)
    }

    /// Puts the state at rest.
    pub fn reset(&mut self) {
        // SAFETY: a state may hold anything.
        unsafe { sys::composecheck_reset(&mut self.state) }
        self.text.clear();
        self.keysym = 0;
    }

    /// The table that the state is over.
    pub fn table(&self) -> &Table {
        &self.table
    }

    /// Goes over to another table, also in the middle of a sequence: what is pending is typed anew there, and nothing is committed.
    pub fn refeed(&mut self, table: &Table) {
        let (block, size) = table.block();
        // SAFETY: the table is one, and a state may hold anything.
        unsafe { sys::composecheck_table_refeed(block, size, &mut self.state) }
        self.table = table.clone();
    }

    /// The keysyms that are pending.
    pub fn pending(&self) -> Vec<u32> {
        let mut keysyms = [0; sys::COMPOSECHECK_MOST_PENDING];
        // SAFETY: a state may hold anything, and the array has the room that the call asks for.
        let count = unsafe { sys::composecheck_pending(&self.state, keysyms.as_mut_ptr()) };
        keysyms[..count as usize].to_vec()
    }

    /// The keys that may come next, in rising order.
    pub fn following(&self) -> impl Iterator<Item = Following> + '_ {
        (0..).map_while(|index| self.following_at(index))
    }

    fn following_at(&self, index: u32) -> Option<Following> {
        let (mut keysym, mut status, mut length, mut text) = (0, 0, 0, [0u8; sys::COMPOSECHECK_MOST_TEXT]);
        let (block, size) = self.table.block();
        // SAFETY: the table is one, a state may hold anything, and the text has the room that the call asks for.
        let is_there =
            unsafe { sys::composecheck_table_following(block, size, &self.state, index, &mut keysym, &mut status, text.as_mut_ptr(), &mut length) };
        let text = String::from_utf8_lossy(&text[..length as usize]).into_owned();
        is_there.then_some(Following { keysym, status: status_of(status), text })
    }
}

fn status_of(number: u32) -> Status {
    match number {
        sys::COMPOSECHECK_COMPOSING => Status::Composing,
        sys::COMPOSECHECK_COMPOSED => Status::Composed,
        sys::COMPOSECHECK_CANCELLED => Status::Cancelled,
        _ => Status::Nothing,
    }
}
