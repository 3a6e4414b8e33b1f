//! Sends a load to a server of NFSv4.0 and judges every reply: HELP in options.rs says how. It needs no crates:
//!     rustc -O --edition 2021 -o load tools/bench/load/main.rs

mod blocks;
mod client;
mod connection;
mod drive;
mod operations;
mod options;
mod usage;
mod wire;
mod workloads;

use connection::Connection;
use drive::Drive;
use options::{Options, Side, HELP};
use std::process::exit;
use std::sync::Barrier;
use std::thread;
use std::time::{Duration, Instant};
use usage::Usage;
use wire::Outcome;
use workloads::Workload;

fn main() {
    let words: Vec<String> = std::env::args().skip(1).collect();
    let options = Options::read(&words).unwrap_or_else(|fault| {
        eprintln!("load: {fault}\n\n{HELP}");
        exit(2)
    });
    match run(&options) {
        Ok(lines) => println!("{lines}"),
        Err(fault) => {
            eprintln!("load: {fault}");
            exit(1)
        }
    }
}

/// A connection, and the side whose workload goes over it.
struct Lane<'a> {
    side: &'a Side,
    connection: Connection,
    workload: Box<dyn Workload>,
}

/// What came of a lane: how long each call took, in nanoseconds, and when the last reply was judged.
struct Ran {
    latencies: Vec<u32>,
    end: Instant,
}

/// Makes the connections, and what the workloads need; then comes the load. Of each side a line of JSON tells.
fn run(options: &Options) -> Outcome<String> {
    let mut lanes = lanes(options)?;
    let pid = options.pid.as_deref();
    let (before, begin) = (Usage::now(pid), Instant::now());
    let all = drive_all(options.seconds, &mut lanes)?;
    let usage = Usage::now(pid).zip(before).map(|(after, before)| after.since(&before));
    let calls = all.iter().map(|ran| ran.latencies.len()).sum();
    let mut left = all.as_slice();
    let lines = options.sides.iter().map(|side| {
        let (own, rest) = left.split_at(side.connections);
        left = rest;
        line(own, begin, calls, usage)
    });
    Ok(lines.collect::<Vec<_>>().join("\n"))
}

/// The connections of all sides, in their order. Each has a number, by which its client and owners are named.
fn lanes(options: &Options) -> Outcome<Vec<Lane<'_>>> {
    let sides = options.sides.iter().flat_map(|side| vec![side; side.connections]);
    let pairs = sides.map(|side| Ok((side, Connection::new(options.server)?))).collect::<Outcome<Vec<_>>>()?;
    let lanes = pairs.into_iter().enumerate().map(|(number, (side, mut connection))| {
        let workload = side.plan.prepare(&mut connection, number)?;
        Ok(Lane { side, connection, workload })
    });
    lanes.collect::<Outcome<_>>().map_err(|fault| format!("before the load: {fault}"))
}

/// The load, with a thread for each connection.
fn drive_all(seconds: f64, lanes: &mut [Lane]) -> Outcome<Vec<Ran>> {
    let start = &Barrier::new(lanes.len());
    let drive = |lane: &mut Lane| {
        start.wait();
        let (end, side) = (Instant::now() + Duration::from_secs_f64(seconds), lane.side);
        let workload = lane.workload.as_mut();
        let drive = Drive::new(&mut lane.connection, workload, side.plan.slots, side.calls_of_one(), end);
        Ok(Ran { latencies: drive.run()?, end: Instant::now() })
    };
    thread::scope(|scope| {
        let threads: Vec<_> = lanes.iter_mut().map(|lane| scope.spawn(move || drive(lane))).collect();
        threads.into_iter().map(|thread| thread.join().expect("no thread panics")).collect()
    })
}

/// Latencies and processor time are in microseconds, the latter for each call of so many, which are those of all sides;
/// the others' share of the machine is in percent.
fn line(own: &[Ran], begin: Instant, all: usize, usage: Option<Usage>) -> String {
    let mut latencies = own.iter().flat_map(|ran| &ran.latencies).copied().collect::<Vec<_>>();
    latencies.sort_unstable();
    let calls = latencies.len();
    let end = own.iter().map(|ran| ran.end).max().unwrap_or(begin);
    let seconds = (end - begin).as_secs_f64();
    let within = |part: f64| {
        let place = (calls as f64 * part).ceil() as usize;
        latencies.get(place.saturating_sub(1)).map_or(0.0, |nanoseconds| *nanoseconds as f64 / 1000.0)
    };
    let fields = [
        ("calls", Some(calls as f64)),
        ("seconds", Some(seconds)),
        ("rate", Some(calls as f64 / seconds)),
        ("p50", Some(within(0.5))),
        ("p99", Some(within(0.99))),
        ("longest", Some(within(1.0))),
        ("processor", usage.and_then(|usage| usage.server_a_call(all.max(1)))),
        ("others", usage.and_then(|usage| usage.others())),
    ];
    let fields = fields.map(|(name, value)| {
        let value = value.map_or("null".into(), |value| format!("{:.3}", value));
        format!("\"{name}\": {value}")
    });
    format!("{{{}}}", fields.join(", "))
}
