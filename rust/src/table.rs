//! Two queues at one table.
use crate::deck::Kind;
use crate::functions as c;
use crate::reply::{fine, Refusal};

const TABLE_BYTES: usize = 8448;

/// One of the two queues. What it is told depends only on its own calls.
#[derive(Clone, Copy, Debug, PartialEq, Eq, Hash)]
pub enum Queue {
    Day = 0,
    Night = 1,
}

/// A table of blocks, eight for each queue.
#[derive(Clone)]
pub struct Table(Box<[u8]>);

impl Table {
    /// An empty table.
    pub fn new() -> Table {
        let mut bytes = vec![0; TABLE_BYTES].into_boxed_slice();
        let reply = unsafe { c::tteuyomal_queue_empty(bytes.as_mut_ptr(), bytes.len()) };
        assert_eq!(reply, 0, "a table of {TABLE_BYTES} bytes is long enough");
        Table(bytes)
    }

    /// Adds a block under a number of the queue's own.
    pub fn add(&mut self, queue: Queue, number: u16, atoms: usize, bonds: &[u8]) -> Result<(), Refusal> {
        let table = &mut self.0;
        let reply = unsafe {
            c::tteuyomal_queue_add(
                table.as_mut_ptr(),
                table.len(),
                queue as usize,
                number,
                atoms,
                bonds.as_ptr(),
                bonds.len(),
            )
        };
        fine(reply, ())
    }

    /// The six fields of a block that the queue holds.
    pub fn look(&self, queue: Queue, number: u16) -> Result<[u64; 6], Refusal> {
        let mut fields = [0; 6];
        let reply = unsafe {
            c::tteuyomal_queue_look(
                self.0.as_ptr(),
                self.0.len(),
                queue as usize,
                number,
                fields.as_mut_ptr(),
                fields.len(),
            )
        };
        fine(reply, fields)
    }

    /// Drops a block that the queue holds.
    pub fn drop(&mut self, queue: Queue, number: u16) -> Result<(), Refusal> {
        let reply = unsafe { c::tteuyomal_queue_drop(self.0.as_mut_ptr(), self.0.len(), queue as usize, number) };
        fine(reply, ())
    }

    /// The sheet that a record of kind 2 makes of the blocks that the queue holds: a whole record.
    pub fn compose(&self, queue: Queue, kind: Kind, record: &[u8]) -> Result<Vec<u8>, Refusal> {
        let mut out = vec![0; kind.bytes()];
        let (table, room) = (&self.0, out.len());
        let reply = unsafe {
            c::tteuyomal_queue_compose(
                table.as_ptr(),
                table.len(),
                queue as usize,
                kind as usize,
                record.as_ptr(),
                record.len(),
                out.as_mut_ptr(),
                room,
            )
        };
        fine(reply, out)
    }
}

impl Default for Table {
    fn default() -> Self {
        Table::new()
    }
}
