//! echo --listen 127.0.0.1:PORT --connections N: answers every call with an accepted reply without results, whatever it
//! asks, in a thread for each connection, and ends when N connections have ended. With calls of NULL it shows what the
//! load and the loopback can do at most.

use std::io::{Read, Result, Write};
use std::net::{TcpListener, TcpStream};
use std::thread;

const ROOM: usize = 1 << 16;
/// A fragment's header for 24 bytes, the last of its record.
const HEADER: [u8; 4] = [0x80, 0, 0, 24];
/// REPLY, MSG_ACCEPTED, the empty verifier, SUCCESS.
const ACCEPTED: [u8; 20] = [0, 0, 0, 1, 0, 0, 0, 0, 0, 0, 0, 0, 0, 0, 0, 0, 0, 0, 0, 0];

fn main() -> Result<()> {
    let words: Vec<String> = std::env::args().skip(1).collect();
    let [_, address, _, connections] = &words[..] else { panic!("--listen ADDRESS --connections N") };
    let listener = TcpListener::bind(address)?;
    eprintln!("listening on {}", listener.local_addr()?);
    let count: usize = connections.parse().expect("a number of connections");
    let threads: Vec<_> = (0..count)
        .map(|_| listener.accept().map(|(stream, _)| thread::spawn(|| serve(stream))))
        .collect::<Result<_>>()?;
    for thread in threads {
        // How a connection ended is its client's to say.
        let _ = thread.join().expect("no thread panics");
    }
    Ok(())
}

fn serve(mut stream: TcpStream) -> Result<()> {
    stream.set_nodelay(true)?;
    let (mut inbox, mut outbox, mut piece) = (Vec::new(), Vec::new(), vec![0; ROOM]);
    loop {
        match stream.read(&mut piece)? {
            0 => return Ok(()),
            count => inbox.extend_from_slice(&piece[..count]),
        }
        let taken = answer(&inbox, &mut outbox);
        inbox.drain(..taken);
        stream.write_all(&outbox)?;
        outbox.clear();
    }
}

/// Answers the whole records at the front; says how many bytes they have.
fn answer(inbox: &[u8], outbox: &mut Vec<u8>) -> usize {
    let mut rest = inbox;
    while let Some((header, body)) = rest.split_first_chunk::<4>() {
        let length = (u32::from_be_bytes(*header) & 0x7fff_ffff) as usize;
        if body.len() < length.max(4) {
            break;
        }
        outbox.extend_from_slice(&HEADER);
        outbox.extend_from_slice(&body[..4]);
        outbox.extend_from_slice(&ACCEPTED);
        rest = &body[length..];
    }
    inbox.len() - rest.len()
}
