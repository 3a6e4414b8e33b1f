//! Sends a workload's calls over a connection, and takes the time of each.

use crate::connection::Connection;
use crate::wire::Outcome;
use crate::workloads::Workload;
use std::time::Instant;

/// How many bits of an xid name the slot.
pub const SLOT_BITS: u32 = 6;

pub struct Drive<'a> {
    connection: &'a mut Connection,
    workload: &'a mut dyn Workload,
    /// Of each slot the xid of the call that is under way, and when it was put into the outbox.
    slots: Vec<Option<(u32, Instant)>>,
    under_way: usize,
    sent: u64,
    calls: u64,
    end: Instant,
    /// In nanoseconds, of each call.
    latencies: Vec<u32>,
}

impl<'a> Drive<'a> {
    /// Makes ready to send so many calls, or fewer where the end comes before.
    pub fn new(
        connection: &'a mut Connection,
        workload: &'a mut dyn Workload,
        slots: usize,
        calls: u64,
        end: Instant,
    ) -> Drive<'a> {
        let latencies = Vec::with_capacity(calls.min(1 << 22) as usize);
        Drive { connection, workload, slots: vec![None; slots], under_way: 0, sent: 0, calls, end, latencies }
    }

    pub fn run(mut self) -> Outcome<Vec<u32>> {
        for slot in 0..self.slots.len() {
            self.begin(slot, Instant::now());
        }
        while self.under_way > 0 {
            self.connection.send()?;
            self.connection.receive()?;
            self.take_replies()?;
        }
        Ok(self.latencies)
    }

    fn begin(&mut self, slot: usize, now: Instant) {
        if self.sent == self.calls || now >= self.end {
            return;
        }
        let xid = (self.sent as u32) << SLOT_BITS | slot as u32;
        let workload = &self.workload;
        self.connection.put_call(xid, workload.procedure(), |out| workload.put(slot, out));
        self.slots[slot] = Some((xid, now));
        self.sent += 1;
        self.under_way += 1;
    }

    fn take_replies(&mut self) -> Outcome<()> {
        while let Some(mut reply) = self.connection.next_reply()? {
            let slot = (reply.xid % (1 << SLOT_BITS)) as usize;
            let Some(Some((xid, since))) = self.slots.get_mut(slot).map(Option::take) else {
                return Err(format!("a reply has the xid {:#x}, which no call has", reply.xid));
            };
            if reply.xid != xid {
                return Err(format!("a reply has the xid {:#x}, not {xid:#x}", reply.xid));
            }
            self.workload.judge(slot, &mut reply.results)?;
            reply.results.end()?;
            let now = Instant::now();
            self.latencies.push((now - since).as_nanos().min(u32::MAX as u128) as u32);
            self.under_way -= 1;
            self.begin(slot, now);
        }
        Ok(())
    }
}
