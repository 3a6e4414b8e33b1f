//! The workloads. A slot is a chain of calls, each sent when the one before it was answered; slots don't share owners,
//! since an owner has one request under way at a time.

use crate::blocks::Blocks;
use crate::client::{close, introduce, Client, Open};
use crate::connection::{Connection, COMPOUND, NULL};
use crate::drive::SLOT_BITS;
use crate::operations::*;
use crate::wire::{Outcome, Reader, Stateid};

pub trait Workload: Send {
    fn procedure(&self) -> u32 {
        COMPOUND
    }
    /// Puts the arguments of the slot's next call.
    fn put(&self, slot: usize, out: &mut Vec<u8>);
    /// Judges the reply to this call, up to its end.
    fn judge(&mut self, slot: usize, reply: &mut Reader) -> Outcome<()>;
}

pub struct Null;

impl Workload for Null {
    fn procedure(&self) -> u32 {
        NULL
    }

    fn put(&self, _: usize, _: &mut Vec<u8>) {}

    fn judge(&mut self, _: usize, _: &mut Reader) -> Outcome<()> {
        Ok(())
    }
}

pub struct Getattr;

impl Workload for Getattr {
    fn put(&self, _: usize, out: &mut Vec<u8>) {
        put_compound(out, 2);
        put_root(out);
        put_getattr(out);
    }

    fn judge(&mut self, _: usize, reply: &mut Reader) -> Outcome<()> {
        judge_compound(reply, 2)?;
        judge_root(reply)?;
        judge_getattr(reply)
    }
}

pub struct Renew {
    client: u64,
}

impl Workload for Renew {
    fn put(&self, _: usize, out: &mut Vec<u8>) {
        put_compound(out, 1);
        put_renew(out, self.client);
    }

    fn judge(&mut self, _: usize, reply: &mut Reader) -> Outcome<()> {
        judge_compound(reply, 1)?;
        judge_renew(reply)
    }
}

/// OPEN, CLOSE, and so on.
pub struct OpenClose {
    client: Client,
    slots: Vec<Opener>,
}

struct Opener {
    owner: Owner,
    file: Vec<u8>,
    open: Option<Stateid>,
}

impl Workload for OpenClose {
    fn put(&self, slot: usize, out: &mut Vec<u8>) {
        let Opener { owner, file, open } = &self.slots[slot];
        put_compound(out, 2);
        match open {
            None => {
                put_handle(out, &self.client.directory);
                put_open(out, self.client.id, owner, &self.client.name, false);
            }
            Some(stateid) => {
                put_handle(out, file);
                put_close(out, owner.seqid, stateid);
            }
        }
    }

    fn judge(&mut self, slot: usize, reply: &mut Reader) -> Outcome<()> {
        let Opener { owner, open, .. } = &mut self.slots[slot];
        judge_compound(reply, 2)?;
        judge_handle(reply)?;
        *open = match open {
            None => Some(judge_known_open(reply)?),
            Some(_) => {
                judge_close(reply)?;
                None
            }
        };
        owner.seqid += 1;
        Ok(())
    }
}

/// LOCK, LOCKU, and so on, of bytes of the slot's own; with `pairs`, CLOSE and OPEN after so many of both.
pub struct LockUnlock {
    client: Client,
    slots: Vec<Locker>,
    pairs: Option<u64>,
}

struct Locker {
    open: Open,
    owner: Owner,
    range: Range,
    done: u64,
    step: Step,
}

/// What a locker sends next, with the stateid of its lock state where it has one.
#[derive(Clone, Copy)]
enum Step {
    Open,
    FirstLock,
    Unlock(Stateid),
    NextLock(Stateid),
    Close,
}

impl Locker {
    fn after_unlock(&mut self, stateid: Stateid, pairs: Option<u64>) -> Step {
        self.done += 1;
        match pairs {
            Some(pairs) if self.done % pairs == 0 => Step::Close,
            _ => Step::NextLock(stateid),
        }
    }

    /// Judges the result of the step; answers which is the next.
    fn judge(&mut self, reply: &mut Reader, pairs: Option<u64>) -> Outcome<Step> {
        match self.step {
            Step::Open => {
                self.open.owner.seqid += 1;
                self.open.stateid = judge_known_open(reply)?;
                Ok(Step::FirstLock)
            }
            Step::FirstLock => {
                self.open.owner.seqid += 1;
                self.owner.seqid += 1;
                Ok(Step::Unlock(judge_first_lock(reply)?))
            }
            Step::NextLock(last) => {
                self.owner.seqid += 1;
                Ok(Step::Unlock(judge_next_lock(reply, &last)?))
            }
            Step::Unlock(last) => {
                self.owner.seqid += 1;
                let stateid = judge_unlock(reply, &last)?;
                Ok(self.after_unlock(stateid, pairs))
            }
            Step::Close => {
                self.open.owner.seqid += 1;
                judge_close(reply)?;
                Ok(Step::Open)
            }
        }
    }
}

impl Workload for LockUnlock {
    fn put(&self, slot: usize, out: &mut Vec<u8>) {
        let Locker { open: Open { owner: opener, stateid, file }, owner, range, step, .. } = &self.slots[slot];
        put_compound(out, 2);
        put_handle(out, if matches!(step, Step::Open) { &self.client.directory } else { file });
        match step {
            Step::Open => put_open(out, self.client.id, opener, &self.client.name, false),
            Step::FirstLock => put_first_lock(out, *range, (opener.seqid, stateid), self.client.id, owner),
            Step::Unlock(state) => put_unlock(out, *range, state, owner.seqid),
            Step::NextLock(state) => put_next_lock(out, *range, state, owner.seqid),
            Step::Close => put_close(out, opener.seqid, stateid),
        }
    }

    fn judge(&mut self, slot: usize, reply: &mut Reader) -> Outcome<()> {
        let locker = &mut self.slots[slot];
        judge_compound(reply, 2)?;
        judge_handle(reply)?;
        locker.step = locker.judge(reply, self.pairs)?;
        Ok(())
    }
}

pub const WORKLOADS: [&str; 7] = ["null", "getattr", "renew", "open", "lock", "read", "write"];

/// What the connections of a load do.
#[derive(Clone)]
pub struct Plan {
    pub workload: String,
    pub path: Vec<Vec<u8>>,
    pub creates: bool,
    pub slots: usize,
    pub pairs: Option<u64>,
    /// How many bytes a READ or WRITE has.
    pub length: usize,
}

impl Plan {
    /// The workload of one connection, with what it needs made before.
    pub fn prepare(&self, connection: &mut Connection, number: usize) -> Outcome<Box<dyn Workload>> {
        let name = format!("load-{number}");
        match self.workload.as_str() {
            "null" => Ok(Box::new(Null)),
            "getattr" => Ok(Box::new(Getattr)),
            "renew" => Ok(Box::new(Renew { client: introduce(connection, &name)? })),
            "open" => {
                let client = Client::new(connection, &name, &self.path, self.creates)?;
                let slots = (0..self.slots).map(|slot| opener(connection, &client, slot)).collect::<Outcome<_>>()?;
                Ok(Box::new(OpenClose { client, slots }))
            }
            "lock" => {
                let client = Client::new(connection, &name, &self.path, self.creates)?;
                let slots = self.places(number).map(|place| locker(connection, &client, place)).collect::<Outcome<_>>()?;
                Ok(Box::new(LockUnlock { client, slots, pairs: self.pairs }))
            }
            "read" | "write" => {
                let client = Client::new(connection, &name, &self.path, self.creates)?;
                let writes = self.workload == "write";
                Ok(Box::new(Blocks::new(connection, &client, self.places(number), self.length, writes)?))
            }
            other => Err(format!("there is no workload {other}")),
        }
    }

    /// Those of the slots of a connection, among those of all.
    fn places(&self, number: usize) -> std::ops::Range<usize> {
        let first = number << SLOT_BITS;
        first..first + self.slots
    }
}

fn opener(connection: &mut Connection, client: &Client, slot: usize) -> Outcome<Opener> {
    let mut open = client.open(connection, format!("open-{slot}"))?;
    close(connection, &mut open)?;
    Ok(Opener { owner: open.owner, file: open.file, open: None })
}

/// Each slot of all connections has a place of its own, and so its own bytes. They depend on nothing else, so that what
/// a load of before still holds, in a server that knows its clients, is in nobody's way.
fn locker(connection: &mut Connection, client: &Client, place: usize) -> Outcome<Locker> {
    let open = client.open(connection, format!("open-{place}"))?;
    let range = Range { offset: place as u64 * 1000, length: 100 };
    Ok(Locker { open, owner: Owner::new(format!("lock-{place}"), 1), range, done: 0, step: Step::FirstLock })
}
