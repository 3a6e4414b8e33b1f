//! The operations that are sent, and what has to come back for each.

use crate::wire::{Outcome, Put, Reader, Stateid};

const CLOSE: u32 = 4;
const GETATTR: u32 = 9;
const GETFH: u32 = 10;
const LOCK: u32 = 12;
const LOCKU: u32 = 14;
const LOOKUP: u32 = 15;
const OPEN: u32 = 18;
const OPEN_CONFIRM: u32 = 20;
const PUTFH: u32 = 22;
const PUTROOTFH: u32 = 24;
const READ: u32 = 25;
const RENEW: u32 = 30;
const SETCLIENTID: u32 = 35;
const SETCLIENTID_CONFIRM: u32 = 36;
const WRITE: u32 = 38;

/// Type, change and size.
const ATTRIBUTES: u32 = 0x1a;
const DIRECTORY: u32 = 2;
const READ_AND_WRITE: u32 = 3;
const WRITE_LOCK: u32 = 2;
const ASKS_TO_CONFIRM: u32 = 2;
const FILE_SYNC: u32 = 2;

/// A sequenced request's owner: its name, and the sequence id of its next request.
#[derive(Clone)]
pub struct Owner {
    pub name: Vec<u8>,
    pub seqid: u32,
}

impl Owner {
    pub fn new(name: String, seqid: u32) -> Owner {
        Owner { name: name.into_bytes(), seqid }
    }
}

/// The bytes that a slot locks.
#[derive(Clone, Copy)]
pub struct Range {
    pub offset: u64,
    pub length: u64,
}

// What is sent.

/// The beginning of a COMPOUND of so many operations.
pub fn put_compound(out: &mut Vec<u8>, operations: u32) {
    for word in [0, 0, operations] {
        out.put_word(word);
    }
}

pub fn put_root(out: &mut Vec<u8>) {
    out.put_word(PUTROOTFH);
}

pub fn put_handle(out: &mut Vec<u8>, handle: &[u8]) {
    out.put_word(PUTFH);
    out.put_opaque(handle);
}

pub fn put_lookup(out: &mut Vec<u8>, name: &[u8]) {
    out.put_word(LOOKUP);
    out.put_opaque(name);
}

pub fn put_getfh(out: &mut Vec<u8>) {
    out.put_word(GETFH);
}

pub fn put_getattr(out: &mut Vec<u8>) {
    for word in [GETATTR, 1, ATTRIBUTES] {
        out.put_word(word);
    }
}

pub fn put_renew(out: &mut Vec<u8>, client: u64) {
    out.put_word(RENEW);
    out.put_long(client);
}

/// With no address for callbacks, so that no delegation is granted.
pub fn put_setclientid(out: &mut Vec<u8>, verifier: u64, name: &[u8]) {
    out.put_word(SETCLIENTID);
    out.put_long(verifier);
    out.put_opaque(name);
    out.put_word(0x4000_0000);
    out.put_opaque(b"tcp");
    out.put_opaque(b"");
    out.put_word(1);
}

pub fn put_setclientid_confirm(out: &mut Vec<u8>, client: u64, value: u64) {
    out.put_word(SETCLIENTID_CONFIRM);
    out.put_long(client);
    out.put_long(value);
}

/// OPEN of a name in the current directory, for reading and writing; with `creates`, of mode 0666 where it is missing.
pub fn put_open(out: &mut Vec<u8>, client: u64, owner: &Owner, name: &[u8], creates: bool) {
    for word in [OPEN, owner.seqid, READ_AND_WRITE, 0] {
        out.put_word(word);
    }
    out.put_long(client);
    out.put_opaque(&owner.name);
    let how: &[u32] = if creates { &[1, 0, 2, 0, 2, 4, 0o666] } else { &[0] };
    for word in how {
        out.put_word(*word);
    }
    out.put_word(0);
    out.put_opaque(name);
}

pub fn put_open_confirm(out: &mut Vec<u8>, stateid: &Stateid, seqid: u32) {
    out.put_word(OPEN_CONFIRM);
    out.extend_from_slice(stateid);
    out.put_word(seqid);
}

pub fn put_close(out: &mut Vec<u8>, seqid: u32, stateid: &Stateid) {
    out.put_word(CLOSE);
    out.put_word(seqid);
    out.extend_from_slice(stateid);
}

fn put_lock(out: &mut Vec<u8>, range: Range, is_new_owner: u32) {
    for word in [LOCK, WRITE_LOCK, 0] {
        out.put_word(word);
    }
    out.put_long(range.offset);
    out.put_long(range.length);
    out.put_word(is_new_owner);
}

/// LOCK by an owner that has no lock state of the file yet, under an open of this owner and stateid.
pub fn put_first_lock(out: &mut Vec<u8>, range: Range, open: (u32, &Stateid), client: u64, owner: &Owner) {
    put_lock(out, range, 1);
    out.put_word(open.0);
    out.extend_from_slice(open.1);
    out.put_word(owner.seqid);
    out.put_long(client);
    out.put_opaque(&owner.name);
}

pub fn put_next_lock(out: &mut Vec<u8>, range: Range, stateid: &Stateid, seqid: u32) {
    put_lock(out, range, 0);
    out.extend_from_slice(stateid);
    out.put_word(seqid);
}

pub fn put_unlock(out: &mut Vec<u8>, range: Range, stateid: &Stateid, seqid: u32) {
    for word in [LOCKU, WRITE_LOCK, seqid] {
        out.put_word(word);
    }
    out.extend_from_slice(stateid);
    out.put_long(range.offset);
    out.put_long(range.length);
}

pub fn put_read(out: &mut Vec<u8>, stateid: &Stateid, offset: u64, count: u32) {
    out.put_word(READ);
    out.extend_from_slice(stateid);
    out.put_long(offset);
    out.put_word(count);
}

/// WRITE that is to be safe at once.
pub fn put_write(out: &mut Vec<u8>, stateid: &Stateid, offset: u64, bytes: &[u8]) {
    out.put_word(WRITE);
    out.extend_from_slice(stateid);
    out.put_long(offset);
    out.put_word(FILE_SYNC);
    out.put_opaque(bytes);
}

// What has to come back.

/// The beginning of a COMPOUND's reply: all of so many operations succeeded.
pub fn judge_compound(reply: &mut Reader, operations: u32) -> Outcome<()> {
    reply.expect("the status", 0)?;
    reply.expect("the tag's length", 0)?;
    reply.expect("the number of results", operations)
}

fn judge(reply: &mut Reader, operation: u32) -> Outcome<()> {
    reply.expect("the operation", operation)?;
    reply.expect("the operation's status", 0)
}

pub fn judge_root(reply: &mut Reader) -> Outcome<()> {
    judge(reply, PUTROOTFH)
}

pub fn judge_handle(reply: &mut Reader) -> Outcome<()> {
    judge(reply, PUTFH)
}

pub fn judge_lookup(reply: &mut Reader) -> Outcome<()> {
    judge(reply, LOOKUP)
}

pub fn judge_getfh(reply: &mut Reader) -> Outcome<Vec<u8>> {
    judge(reply, GETFH)?;
    reply.opaque().map(<[u8]>::to_vec)
}

/// The attributes of a directory; change and size may be any.
pub fn judge_getattr(reply: &mut Reader) -> Outcome<()> {
    judge(reply, GETATTR)?;
    reply.expect("the mask's length", 1)?;
    reply.expect("the mask", ATTRIBUTES)?;
    reply.expect("the attributes' length", 20)?;
    reply.expect("the type", DIRECTORY)?;
    reply.bytes(16)?;
    Ok(())
}

pub fn judge_renew(reply: &mut Reader) -> Outcome<()> {
    judge(reply, RENEW)
}

/// The clientid, and the value to confirm it with.
pub fn judge_setclientid(reply: &mut Reader) -> Outcome<(u64, u64)> {
    judge(reply, SETCLIENTID)?;
    Ok((reply.long()?, reply.long()?))
}

pub fn judge_setclientid_confirm(reply: &mut Reader) -> Outcome<()> {
    judge(reply, SETCLIENTID_CONFIRM)
}

/// The stateid of a new open without a delegation, and whether it has to be confirmed.
pub fn judge_open(reply: &mut Reader) -> Outcome<(Stateid, bool)> {
    judge(reply, OPEN)?;
    let stateid = reply.stateid()?;
    reply.bytes(20)?;
    let flags = reply.word()?;
    let words = reply.word()?;
    reply.bytes(4 * words as usize)?;
    reply.expect("the delegation's type", 0)?;
    match seqid_of(&stateid) {
        1 => Ok((stateid, flags & ASKS_TO_CONFIRM != 0)),
        other => Err(format!("a new open's stateid has the seqid {other}")),
    }
}

/// The stateid of a new open by an owner that is confirmed.
pub fn judge_known_open(reply: &mut Reader) -> Outcome<Stateid> {
    match judge_open(reply)? {
        (stateid, false) => Ok(stateid),
        (_, true) => Err("the owner is to be confirmed again".into()),
    }
}

pub fn judge_open_confirm(reply: &mut Reader, last: &Stateid) -> Outcome<Stateid> {
    judge(reply, OPEN_CONFIRM)?;
    judge_next(reply, last)
}

/// What a CLOSE answers for the stateid says nothing.
pub fn judge_close(reply: &mut Reader) -> Outcome<()> {
    judge(reply, CLOSE)?;
    reply.stateid().map(drop)
}

pub fn judge_first_lock(reply: &mut Reader) -> Outcome<Stateid> {
    judge(reply, LOCK)?;
    let stateid = reply.stateid()?;
    match seqid_of(&stateid) {
        1 => Ok(stateid),
        other => Err(format!("a new lock state's stateid has the seqid {other}")),
    }
}

pub fn judge_next_lock(reply: &mut Reader, last: &Stateid) -> Outcome<Stateid> {
    judge(reply, LOCK)?;
    judge_next(reply, last)
}

pub fn judge_unlock(reply: &mut Reader, last: &Stateid) -> Outcome<Stateid> {
    judge(reply, LOCKU)?;
    judge_next(reply, last)
}

/// These bytes, and whether the file ends behind them.
pub fn judge_read(reply: &mut Reader, bytes: &[u8]) -> Outcome<()> {
    judge(reply, READ)?;
    let end = reply.word()?;
    let got = reply.opaque()?;
    if end > 1 {
        Err(format!("the end of the file is {end}, and no bool"))
    } else if got != bytes {
        Err(format!("a READ has {} bytes, and not those that were written", got.len()))
    } else {
        Ok(())
    }
}

/// The verifier of a WRITE, of which all bytes are safe.
pub fn judge_write(reply: &mut Reader, count: u32) -> Outcome<u64> {
    judge(reply, WRITE)?;
    reply.expect("the number of bytes written", count)?;
    reply.expect("how safe they are", FILE_SYNC)?;
    reply.long()
}

/// The stateid of the same state, with the next seqid.
fn judge_next(reply: &mut Reader, last: &Stateid) -> Outcome<Stateid> {
    let stateid = reply.stateid()?;
    if stateid[4..] == last[4..] && seqid_of(&stateid) == seqid_of(last) + 1 {
        Ok(stateid)
    } else {
        Err("the stateid isn't the one before with the next seqid".into())
    }
}

fn seqid_of(stateid: &Stateid) -> u32 {
    u32::from_be_bytes([stateid[0], stateid[1], stateid[2], stateid[3]])
}
