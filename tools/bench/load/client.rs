//! What comes before the load: a client id, and opens that are confirmed.

use crate::connection::{Connection, COMPOUND};
use crate::operations::*;
use crate::wire::{Outcome, Reader, Stateid};
use std::time::{SystemTime, UNIX_EPOCH};

/// A confirmed clientid, and the file that it opens: by its name in a directory.
#[derive(Clone, Default)]
pub struct Client {
    pub id: u64,
    pub directory: Vec<u8>,
    pub name: Vec<u8>,
    pub creates: bool,
}

/// An open that is confirmed, by the one who has the next request.
pub struct Open {
    pub owner: Owner,
    pub stateid: Stateid,
    pub file: Vec<u8>,
}

impl Client {
    /// Introduces the client, and finds the directory of the path.
    pub fn new(connection: &mut Connection, client: &str, path: &[Vec<u8>], creates: bool) -> Outcome<Client> {
        let (name, directories) = path.split_last().ok_or("the path is empty")?;
        let id = introduce(connection, client)?;
        Ok(Client { id, directory: walk(connection, directories)?, name: name.clone(), creates })
    }

    /// Opens the file, and confirms the owner where that is asked.
    pub fn open(&self, connection: &mut Connection, name: String) -> Outcome<Open> {
        let owner = Owner::new(name, 1);
        let (open, is_to_confirm) = self.first_open(connection, owner)?;
        if is_to_confirm {
            confirm(connection, open)
        } else {
            Ok(open)
        }
    }

    fn first_open(&self, connection: &mut Connection, mut owner: Owner) -> Outcome<(Open, bool)> {
        let reply = connection.ask(COMPOUND, |out| {
            put_compound(out, 3);
            put_handle(out, &self.directory);
            put_open(out, self.id, &owner, &self.name, self.creates);
            put_getfh(out);
        })?;
        let mut results = Reader(&reply);
        judge_compound(&mut results, 3)?;
        judge_handle(&mut results)?;
        let (stateid, is_to_confirm) = judge_open(&mut results)?;
        let file = judge_getfh(&mut results)?;
        results.end()?;
        owner.seqid += 1;
        Ok((Open { owner, stateid, file }, is_to_confirm))
    }
}

fn confirm(connection: &mut Connection, mut open: Open) -> Outcome<Open> {
    let Open { owner, stateid, file } = &mut open;
    let put = |out: &mut Vec<u8>| put_open_confirm(out, stateid, owner.seqid);
    *stateid = ask_of(connection, file, put, |results| judge_open_confirm(results, stateid))?;
    owner.seqid += 1;
    Ok(open)
}

pub fn close(connection: &mut Connection, open: &mut Open) -> Outcome<()> {
    let Open { owner, stateid, file } = open;
    ask_of(connection, file, |out| put_close(out, owner.seqid, stateid), judge_close)?;
    owner.seqid += 1;
    Ok(())
}

/// Writes these bytes by the open, and answers the verifier.
pub fn write(connection: &mut Connection, open: &mut Open, offset: u64, bytes: &[u8]) -> Outcome<u64> {
    let Open { stateid, file, .. } = open;
    let put = |out: &mut Vec<u8>| put_write(out, stateid, offset, bytes);
    ask_of(connection, file, put, |results| judge_write(results, bytes.len() as u32))
}

/// An operation with the file current, and what is told by its result.
fn ask_of<T>(
    connection: &mut Connection,
    file: &[u8],
    put: impl FnOnce(&mut Vec<u8>),
    judge: impl FnOnce(&mut Reader) -> Outcome<T>,
) -> Outcome<T> {
    let reply = connection.ask(COMPOUND, |out| {
        put_compound(out, 2);
        put_handle(out, file);
        put(out);
    })?;
    let mut results = Reader(&reply);
    judge_compound(&mut results, 2)?;
    judge_handle(&mut results)?;
    let told = judge(&mut results)?;
    results.end()?;
    Ok(told)
}

/// SETCLIENTID with a verifier that wasn't sent before, which ends what the client had, and its confirmation.
pub fn introduce(connection: &mut Connection, client: &str) -> Outcome<u64> {
    let now = SystemTime::now().duration_since(UNIX_EPOCH).map_err(|fault| fault.to_string())?;
    let reply = connection.ask(COMPOUND, |out| {
        put_compound(out, 1);
        put_setclientid(out, now.as_nanos() as u64, client.as_bytes());
    })?;
    let mut results = Reader(&reply);
    judge_compound(&mut results, 1)?;
    let (id, value) = judge_setclientid(&mut results)?;
    results.end()?;
    let reply = connection.ask(COMPOUND, |out| {
        put_compound(out, 1);
        put_setclientid_confirm(out, id, value);
    })?;
    let mut results = Reader(&reply);
    judge_compound(&mut results, 1)?;
    judge_setclientid_confirm(&mut results)?;
    results.end()?;
    Ok(id)
}

/// The handle of a directory by the names that lead to it from the root.
fn walk(connection: &mut Connection, names: &[Vec<u8>]) -> Outcome<Vec<u8>> {
    let count = names.len() as u32 + 2;
    let reply = connection.ask(COMPOUND, |out| {
        put_compound(out, count);
        put_root(out);
        names.iter().for_each(|name| put_lookup(out, name));
        put_getfh(out);
    })?;
    let mut results = Reader(&reply);
    judge_compound(&mut results, count)?;
    judge_root(&mut results)?;
    names.iter().try_for_each(|_| judge_lookup(&mut results))?;
    let handle = judge_getfh(&mut results)?;
    results.end()?;
    Ok(handle)
}
