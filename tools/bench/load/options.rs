//! The command line.

use crate::blocks::FILE;
use crate::drive::SLOT_BITS;
use crate::wire::Outcome;
use crate::workloads::{Plan, WORKLOADS};
use std::net::{Ipv4Addr, SocketAddr};

pub const HELP: &str = "load WORKLOAD --server 127.0.0.1:PORT [OPTIONS] [--beside WORKLOAD [OPTIONS]]

sends calls to a server of NFSv4.0, judges every reply, and prints one line of JSON. WORKLOAD is null, getattr, renew,
open (OPEN and CLOSE in turn), lock (LOCK and LOCKU in turn), read or write. With --beside two of them go on at the same
time, each over connections of its own, and each has its line.

  --connections N  how many [default: 1]
  --under-way N    calls under way on each connection, 1 to 64 [default: 1]
  --seconds S      after which no further call is sent [default: 1]
  --calls N        or after how many calls [default: 100000 of read or write, 16000000 of null or renew, or 900000]
  --path NAMES     the file to open, of names with / between them [default: a]
  --create         make the file where it is missing
  --pairs N        lock: after how many LOCKs and LOCKUs to CLOSE and OPEN [default: never]
  --bytes N        read, write: how many bytes of the file a call has, 1 to 65536 [default: 4096]
  --pid PID        the server's process, to tell its processor time [default: none]
  --beside WORKLOAD
                   another one: options behind it are of this one, which has the other options as the first has them

The status is 0 if each reply was right, 1 if one wasn't or none came, and 2 for other arguments.";

pub struct Options {
    pub server: SocketAddr,
    pub seconds: f64,
    pub pid: Option<String>,
    /// What goes on at the same time.
    pub sides: Vec<Side>,
}

/// A workload over connections of its own.
#[derive(Clone)]
pub struct Side {
    pub plan: Plan,
    pub connections: usize,
    /// None is as many as the workload has.
    calls: Option<u64>,
}

impl Options {
    pub fn read(words: &[String]) -> Outcome<Options> {
        let (workload, mut rest) = words.split_first().ok_or("a workload is missing")?;
        let workload = workload.clone();
        let plan = Plan { workload, path: names("a"), creates: false, slots: 1, pairs: None, length: 4096 };
        let server = (Ipv4Addr::LOCALHOST, 0).into();
        let mut sides = vec![Side { plan, connections: 1, calls: None }];
        let mut options = Options { server, seconds: 1.0, pid: None, sides: Vec::new() };
        while let Some((word, after)) = rest.split_first() {
            let side = sides.last_mut().expect("there is one");
            rest = after;
            if word == "--create" {
                side.plan.creates = true;
                continue;
            }
            let (value, after) = rest.split_first().ok_or(format!("{word} needs a value"))?;
            rest = after;
            if word == "--beside" {
                let other = side.clone().with(value);
                sides.push(other);
            } else if !options.set(word, value)? {
                side.set(word, value)?;
            }
        }
        options.sides = sides;
        options.checked()
    }

    /// Answers whether the option is one of all sides.
    fn set(&mut self, word: &str, value: &str) -> Outcome<bool> {
        match word {
            "--server" => self.server = read(value)?,
            "--seconds" => self.seconds = read(value)?,
            "--pid" => self.pid = Some(value.into()),
            _ => return Ok(false),
        }
        Ok(true)
    }

    fn checked(self) -> Outcome<Options> {
        if self.server.port() == 0 {
            return Err("--server is missing".into());
        }
        self.sides.iter().try_for_each(Side::check)?;
        Ok(self)
    }
}

impl Side {
    fn with(mut self, workload: &str) -> Side {
        self.plan.workload = workload.into();
        self
    }

    fn set(&mut self, word: &str, value: &str) -> Outcome<()> {
        match word {
            "--connections" => self.connections = read(value)?,
            "--under-way" => self.plan.slots = read(value)?,
            "--calls" => self.calls = Some(read(value)?),
            "--path" => self.plan.path = names(value),
            "--pairs" => self.plan.pairs = Some(read(value)?),
            "--bytes" => self.plan.length = read(value)?,
            _ => return Err(format!("there is no option {word}")),
        }
        Ok(())
    }

    /// After how many calls each connection ends at the latest. A journal of them has an end, and so has the memory
    /// that it takes; null and renew aren't entered.
    pub fn calls_of_one(&self) -> u64 {
        let calls = match self.plan.workload.as_str() {
            "read" | "write" => 100_000,
            "null" | "renew" => 16_000_000,
            _ => 900_000,
        };
        self.calls.unwrap_or(calls) / self.connections as u64
    }

    fn check(&self) -> Outcome<()> {
        let Plan { workload, slots, pairs, length, .. } = &self.plan;
        if !WORKLOADS.contains(&workload.as_str()) {
            Err(format!("there is no workload {workload}"))
        } else if self.connections == 0 || !(1..=1 << SLOT_BITS).contains(slots) || *pairs == Some(0) {
            Err("a number is out of its bounds".into())
        } else if !(1..=FILE).contains(length) {
            Err("a number is out of its bounds".into())
        } else {
            Ok(())
        }
    }
}

fn read<T: std::str::FromStr>(value: &str) -> Outcome<T> {
    value.parse().map_err(|_| format!("{value} can't be read"))
}

fn names(path: &str) -> Vec<Vec<u8>> {
    path.split('/').map(|name| name.as_bytes().to_vec()).collect()
}
