//! A connection: calls go out, and whole replies come back.

use crate::wire::{Outcome, Put, Reader};
use std::io::{Read, Write};
use std::net::{SocketAddr, TcpStream};
use std::time::Duration;

pub const NULL: u32 = 0;
pub const COMPOUND: u32 = 1;
const LAST_FRAGMENT: u32 = 1 << 31;
const ROOM: usize = 1 << 18;
const PATIENCE: Duration = Duration::from_secs(10);

pub struct Connection {
    stream: TcpStream,
    /// What came and wasn't taken yet is `inbox[start..end]`.
    inbox: Vec<u8>,
    start: usize,
    end: usize,
    outbox: Vec<u8>,
    credential: Vec<u8>,
}

/// A reply to a call that was accepted and carried out.
pub struct Reply<'a> {
    pub xid: u32,
    pub results: Reader<'a>,
}

impl Connection {
    pub fn new(server: SocketAddr) -> Outcome<Connection> {
        let stream = open(server).map_err(|fault| format!("no connection to {server}: {fault}"))?;
        Ok(Connection { stream, inbox: vec![0; ROOM], start: 0, end: 0, outbox: Vec::new(), credential: system() })
    }

    /// Puts a call into the outbox; `arguments` writes what follows its header.
    pub fn put_call(&mut self, xid: u32, procedure: u32, arguments: impl FnOnce(&mut Vec<u8>)) {
        let out = &mut self.outbox;
        let begin = out.len();
        for word in [0, xid, 0, 2, 100003, 4, procedure] {
            out.put_word(word);
        }
        out.extend_from_slice(&self.credential);
        arguments(out);
        let length = (out.len() - begin - 4) as u32;
        out[begin..begin + 4].copy_from_slice(&(LAST_FRAGMENT | length).to_be_bytes());
    }

    /// Sends all calls of the outbox by one write.
    pub fn send(&mut self) -> Outcome<()> {
        self.stream.write_all(&self.outbox).map_err(|fault| format!("nothing can be sent: {fault}"))?;
        self.outbox.clear();
        Ok(())
    }

    /// Waits for more bytes.
    pub fn receive(&mut self) -> Outcome<()> {
        self.inbox.copy_within(self.start..self.end, 0);
        (self.start, self.end) = (0, self.end - self.start);
        match self.stream.read(&mut self.inbox[self.end..]) {
            Ok(0) => return Err("the server ended the connection".into()),
            Ok(count) => self.end += count,
            Err(fault) => return Err(format!("no reply came: {fault}")),
        }
        Ok(())
    }

    /// The next reply, if the whole of it has come.
    pub fn next_reply(&mut self) -> Outcome<Option<Reply<'_>>> {
        let mut rest = Reader(&self.inbox[self.start..self.end]);
        let Ok(header) = rest.word() else { return Ok(None) };
        let length = header ^ LAST_FRAGMENT;
        if length as usize > ROOM - 4 {
            return Err(format!("a fragment's header is {header:#x}: too long, or not the last of its record"));
        }
        let Ok(body) = rest.bytes(length as usize) else { return Ok(None) };
        self.start += 4 + length as usize;
        accepted(Reader(body)).map(Some)
    }

    /// The reply to a call that goes out alone.
    pub fn ask(&mut self, procedure: u32, arguments: impl FnOnce(&mut Vec<u8>)) -> Outcome<Vec<u8>> {
        const XID: u32 = u32::MAX;
        self.put_call(XID, procedure, arguments);
        self.send()?;
        loop {
            self.receive()?;
            match self.next_reply()? {
                Some(reply) if reply.xid == XID => return Ok(reply.results.0.to_vec()),
                Some(reply) => return Err(format!("a reply has the xid {:#x}", reply.xid)),
                None => (),
            }
        }
    }
}

fn open(server: SocketAddr) -> std::io::Result<TcpStream> {
    let stream = TcpStream::connect_timeout(&server, PATIENCE)?;
    stream.set_nodelay(true)?;
    stream.set_read_timeout(Some(PATIENCE))?;
    stream.set_write_timeout(Some(PATIENCE))?;
    Ok(stream)
}

/// AUTH_SYS of uid 0, and the empty verifier.
fn system() -> Vec<u8> {
    let mut body = Vec::new();
    body.put_word(0);
    body.put_opaque(b"load");
    for word in [0, 0, 0] {
        body.put_word(word);
    }
    let mut credential = Vec::new();
    credential.put_word(1);
    credential.put_opaque(&body);
    credential.put_long(0);
    credential
}

fn accepted(mut body: Reader) -> Outcome<Reply> {
    let xid = body.word()?;
    body.expect("the message type", 1)?;
    body.expect("the reply state", 0)?;
    body.expect("the verifier's flavor", 0)?;
    body.expect("the verifier's length", 0)?;
    body.expect("the accept state", 0)?;
    Ok(Reply { xid, results: body })
}
