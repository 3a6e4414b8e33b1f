//! READ and WRITE of blocks of one file. A block has bytes of its own, which are always the same: so what is written is
//! what is read, whichever slot has the block.

use crate::client::{write, Client, Open};
use crate::connection::Connection;
use crate::operations::*;
use crate::wire::{Outcome, Reader};
use crate::workloads::Workload;

/// How many bytes a file may have.
pub const FILE: usize = 65_536;

/// READ again and again of the slot's block, or WRITE.
pub struct Blocks {
    slots: Vec<Block>,
    writes: bool,
}

/// A block, by an open of the slot's own; and the verifier with which it was written.
struct Block {
    open: Open,
    offset: u64,
    bytes: Vec<u8>,
    verifier: u64,
}

impl Blocks {
    /// Opens the file and writes the block for each of these places.
    pub fn new(
        connection: &mut Connection,
        client: &Client,
        places: std::ops::Range<usize>,
        length: usize,
        writes: bool,
    ) -> Outcome<Blocks> {
        let slots = places.map(|place| Block::new(connection, client, place, length)).collect::<Outcome<_>>()?;
        Ok(Blocks { slots, writes })
    }
}

impl Block {
    /// The place's block; where there are more places than blocks they begin again.
    fn new(connection: &mut Connection, client: &Client, place: usize, length: usize) -> Outcome<Block> {
        let mut open = client.open(connection, format!("open-{place}"))?;
        let number = place % (FILE / length);
        let (offset, bytes) = ((number * length) as u64, bytes_of(number, length));
        let verifier = write(connection, &mut open, offset, &bytes)?;
        Ok(Block { open, offset, bytes, verifier })
    }
}

/// No two blocks begin with the same bytes.
fn bytes_of(number: usize, length: usize) -> Vec<u8> {
    (0..length).map(|at| (number + at) as u8).collect()
}

impl Workload for Blocks {
    fn put(&self, slot: usize, out: &mut Vec<u8>) {
        let Block { open, offset, bytes, .. } = &self.slots[slot];
        put_compound(out, 2);
        put_handle(out, &open.file);
        if self.writes {
            put_write(out, &open.stateid, *offset, bytes);
        } else {
            put_read(out, &open.stateid, *offset, bytes.len() as u32);
        }
    }

    fn judge(&mut self, slot: usize, reply: &mut Reader) -> Outcome<()> {
        let Block { bytes, verifier, .. } = &self.slots[slot];
        judge_compound(reply, 2)?;
        judge_handle(reply)?;
        if !self.writes {
            return judge_read(reply, bytes);
        }
        match judge_write(reply, bytes.len() as u32)? {
            same if same == *verifier => Ok(()),
            other => Err(format!("a WRITE's verifier is {other:#x}, not {verifier:#x} as before")),
        }
    }
}
