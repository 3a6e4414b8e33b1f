//! Processor time, as the kernel tells it, in its ticks of ten milliseconds.

pub const TICK_MICROSECONDS: f64 = 10_000.0;

/// Ticks so far.
#[derive(Clone, Copy)]
pub struct Usage {
    /// Of all processors, and those that processes or the hypervisor took.
    machine: f64,
    taken: f64,
    /// Of this process, and of the server's where it is known.
    own: f64,
    server: Option<f64>,
}

impl Usage {
    pub fn now(server: Option<&str>) -> Option<Usage> {
        let text = std::fs::read_to_string("/proc/stat").ok()?;
        let fields = numbers(text.lines().next()?.strip_prefix("cpu ")?);
        let [user, nice, system, _, _, _, _, stolen] = *fields.first_chunk()?;
        let machine = fields[..8].iter().sum();
        let (own, server) = (of_process("self")?, server.and_then(of_process));
        Some(Usage { machine, taken: user + nice + system + stolen, own, server })
    }

    pub fn since(&self, before: &Usage) -> Usage {
        Usage {
            machine: self.machine - before.machine,
            taken: self.taken - before.taken,
            own: self.own - before.own,
            server: self.server.zip(before.server).map(|(after, before)| after - before),
        }
    }

    /// The server's time for each of so many calls, in microseconds.
    pub fn server_a_call(&self, calls: usize) -> Option<f64> {
        self.server.map(|ticks| ticks * TICK_MICROSECONDS / calls as f64)
    }

    /// How much of the machine neither the server nor this process had, in percent.
    pub fn others(&self) -> Option<f64> {
        self.server.map(|server| 100.0 * (self.taken - self.own - server).max(0.0) / self.machine.max(1.0))
    }
}

/// The ticks of a process, in its own code and in the kernel.
fn of_process(process: &str) -> Option<f64> {
    let text = std::fs::read_to_string(format!("/proc/{process}/stat")).ok()?;
    let fields = numbers(text.rsplit_once(')')?.1);
    Some(fields.get(11)? + fields.get(12)?)
}

fn numbers(text: &str) -> Vec<f64> {
    text.split_whitespace().map(|word| word.parse().unwrap_or(0.0)).collect()
}
