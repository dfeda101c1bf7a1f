//! Memory that the host lends.

use std::ops::{Deref, DerefMut};

use crate::{Cell, View};

/// The one length of a state block.
pub const STATE_BYTES: usize = 8_256;
/// The most cells of a live stack that are used.
pub const LIVE_CELLS: usize = 4_096;
/// The most cells of a store that are used.
pub const STORE_CELLS: usize = 65_536;

/// State block, live stack and store of one job: its own, or borrowed.
///
/// All that a job is stands in these bytes, so a copy of them is a copy of the job. They may have any content: a call on memory that no load could lead to is refused with 7.
#[derive(Debug)]
pub struct Memory<'m> {
    state: Bytes<'m>,
    live: Bytes<'m>,
    store: Bytes<'m>,
}

#[derive(Debug)]
enum Bytes<'m> {
    Owned(Vec<u8>),
    Borrowed(&'m mut [u8]),
}

impl Deref for Bytes<'_> {
    type Target = [u8];

    fn deref(&self) -> &[u8] {
        match self {
            Bytes::Owned(bytes) => bytes,
            Bytes::Borrowed(bytes) => bytes,
        }
    }
}

impl DerefMut for Bytes<'_> {
    fn deref_mut(&mut self) -> &mut [u8] {
        match self {
            Bytes::Owned(bytes) => bytes,
            Bytes::Borrowed(bytes) => bytes,
        }
    }
}

/// So many cells of zeros, but no more than are ever used.
fn zeros(cells: usize, most: usize) -> Bytes<'static> {
    Bytes::Owned(vec![0; cells.min(most) * Cell::BYTES])
}

impl Memory<'static> {
    /// New memory with nothing loaded. More than 4,096 cells of live stack or 65,536 of store are never used, so no more are made.
    pub fn new(live_cells: usize, store_cells: usize) -> Memory<'static> {
        let state = Bytes::Owned(vec![0; STATE_BYTES]);
        Memory { state, live: zeros(live_cells, LIVE_CELLS), store: zeros(store_cells, STORE_CELLS) }
    }
}

impl<'m> Memory<'m> {
    /// Memory of the caller, of any length and content.
    pub fn borrowed(state: &'m mut [u8], live: &'m mut [u8], store: &'m mut [u8]) -> Memory<'m> {
        Memory { state: Bytes::Borrowed(state), live: Bytes::Borrowed(live), store: Bytes::Borrowed(store) }
    }

    /// Lends so many cells at least from now on, in new memory where the old is shorter. A run that was refused with 14 or 15 can go on then.
    pub fn grow(&mut self, live_cells: usize, store_cells: usize) {
        lengthen(&mut self.live, zeros(live_cells, LIVE_CELLS));
        lengthen(&mut self.store, zeros(store_cells, STORE_CELLS));
    }

    /// What it holds, read by the layout.
    pub fn view(&self) -> View<'_> {
        View::new(&self.state, &self.live, &self.store)
    }

    /// The state block.
    pub fn state(&self) -> &[u8] {
        &self.state
    }

    /// The live stack.
    pub fn live(&self) -> &[u8] {
        &self.live
    }

    /// The store.
    pub fn store(&self) -> &[u8] {
        &self.store
    }

    /// State block, live stack and store, to be changed; what is not in form afterwards is refused with 7.
    pub fn parts_mut(&mut self) -> (&mut [u8], &mut [u8], &mut [u8]) {
        (&mut self.state, &mut self.live, &mut self.store)
    }
}

fn lengthen<'m>(old: &mut Bytes<'m>, mut new: Bytes<'m>) {
    if old.len() < new.len() {
        new[..old.len()].copy_from_slice(old);
        *old = new;
    }
}
