//! Our library's three entries of a wait, by the declarations of the bindings (bindings/rust/src/raw.rs, linked beside this file by
//! oracle/layout), or what stands in their place.
#[path = "raw.rs"]
#[allow(dead_code)]
mod raw;

use crate::definition::Definition;
pub use raw::{Sent, Wait, WaitOutcome, ending, presence};

/// What a step is given.
#[derive(Clone, Copy, Debug)]
pub struct Call<'a> {
    pub time: u64,
    pub presence: u8,
    pub error: u8,
    pub arrived: bool,
    pub interface: u32,
    pub packet: &'a [u8],
}

/// What a wait is begun with.
#[derive(Clone, Copy, Debug)]
pub struct Beginning {
    pub interface: u32,
    pub cid: u32,
    pub time: u64,
    pub limit: u32,
}

pub struct Ours {
    /// Takes the library's place where a fault is planted.
    pub faulty: Option<Definition>,
}

impl Ours {
    pub fn begin(&self, wait: &mut Wait, with: &Beginning) -> u8 {
        match &self.faulty {
            Some(definition) => definition.begin(wait, with),
            None => raw::wait_begin(wait, with.interface, with.cid, with.time, with.limit),
        }
    }

    pub fn elapsed(&self, wait: &Wait, time: u64) -> u8 {
        match &self.faulty {
            Some(definition) => definition.elapsed(wait, time),
            None => raw::wait_elapsed(wait, time),
        }
    }

    pub fn step(&self, wait: &mut Wait, call: &Call) -> WaitOutcome {
        match &self.faulty {
            Some(definition) => definition.step(wait, call),
            None => raw::wait_step(
                wait,
                call.time,
                call.presence,
                call.error,
                call.arrived,
                call.interface,
                call.packet,
            ),
        }
    }
}

/// The one packet of a message that a step has sent.
pub fn packet_of(sent: &Sent) -> Result<[u8; 64], String> {
    let mut packet = [0x5a; 64];
    match raw::write_packet(sent.cid, sent.cmd, &[sent.byte], 0, &mut packet) {
        0 => Ok(packet),
        number => Err(format!(
            "writing the packet of {sent:02x?}: refusal {number}"
        )),
    }
}

/// A step's answer, in one line.
pub fn shown(outcome: &WaitOutcome) -> String {
    let mut line = format!("ending {}", outcome.ending);
    for (name, number) in [("error", outcome.error), ("refusal", outcome.refusal)] {
        if number != 0 {
            line += &format!(" {name} {number:02x}");
        }
    }
    for (at, sent) in outcome.sent.iter().enumerate() {
        let is_sent = at < outcome.count as usize;
        if is_sent || *sent != Sent::default() {
            let Sent {
                interface,
                cid,
                cmd,
                byte,
                spare,
            } = sent;
            let what = if is_sent { "sent" } else { "not sent" };
            line += &format!(", {what} {interface:x}:{cid:08x} {cmd:02x} {byte:02x} {spare:x}");
        }
    }
    line
}
