//! The rules for a wait, written once more by hand. All that a call alters or answers is compared with them, also where OpenSK has
//! nothing like it: other limits, refusals, a wait of any contents. With a fault planted they take our library's place, to see
//! that the fault is found.
use crate::ours::{Beginning, Call, Sent, Wait, WaitOutcome, ending, presence};

/// The last time that is one.
pub const LAST_TIME: u64 = (1 << 48) - 1;

pub const BROADCAST: u32 = 0xffff_ffff;

/// The fifth byte of a first packet: its command, and the bit of a first packet.
pub const INIT: u8 = 0x80 | 0x06;
pub const CANCEL: u8 = 0x80 | 0x11;

/// Faults of a step, of the question and of the beginning.
pub const FAULTS: [&str; 44] = [
    "busy-to-own-channel",
    "busy-of-first-packets-alone",
    "busy-on-own-interface",
    "busy-after-keepalive",
    "busy-not-when-touched",
    "broadcast-dropped",
    "interface-not-looked-at",
    "interface-by-low-byte",
    "channel-by-low-half",
    "cancel-of-anyone",
    "cancel-of-0-bytes-alone",
    "cancel-after-touch",
    "cancel-and-keepalive",
    "continuation-17-cancels",
    "init-cancels",
    "keepalive-1",
    "keepalive-not-with-packet",
    "keepalive-to-others",
    "keepalive-when-touched",
    "keepalive-when-over",
    "failed-goes-on",
    "failed-without-number",
    "failed-3-is-timeout",
    "limit-after-packet",
    "limit-early",
    "limit-late",
    "limit-0-is-none",
    "limit-of-16-bits",
    "limit-ends-at-last-time",
    "elapsed-early",
    "elapsed-late",
    "elapsed-never-refuses",
    "last-not-moved",
    "last-not-moved-when-over",
    "last-not-begun",
    "last-time-refused",
    "time-past-last-taken",
    "time-back-taken",
    "4-before-1",
    "size-without-packet",
    "packet-without-arrival",
    "refused-step-alters",
    "refused-beginning-alters",
    "second-not-cleared",
];

pub struct Definition {
    pub fault: &'static str,
}

impl Definition {
    fn is(&self, fault: &str) -> bool {
        self.fault == fault
    }

    fn is_past(&self, time: u64) -> bool {
        match self.fault {
            "last-time-refused" => LAST_TIME <= time,
            "time-past-last-taken" => LAST_TIME + 1 < time,
            _ => LAST_TIME < time,
        }
    }

    pub fn begin(&self, wait: &mut Wait, with: &Beginning) -> u8 {
        if self.is_past(with.time) {
            if self.is("refused-beginning-alters") {
                wait.last = with.time;
            }
            return 4;
        }
        let deadline = match self.fault {
            "limit-0-is-none" if with.limit == 0 => u64::MAX,
            "limit-of-16-bits" => with.time + with.limit as u16 as u64,
            "limit-ends-at-last-time" => LAST_TIME.min(with.time + with.limit as u64),
            _ => with.time + with.limit as u64,
        };
        *wait = Wait {
            deadline,
            last: match self.fault {
                "last-not-begun" => wait.last,
                _ => with.time,
            },
            interface: with.interface,
            cid: with.cid,
        };
        0
    }

    pub fn elapsed(&self, wait: &Wait, time: u64) -> u8 {
        if (self.is_past(time) || time < wait.last) && !self.is("elapsed-never-refuses") {
            return 4;
        }
        let is_over = match self.fault {
            "elapsed-early" => wait.deadline <= time + 1,
            "elapsed-late" => wait.deadline < time,
            _ => wait.deadline <= time,
        };
        is_over as u8
    }

    pub fn step(&self, wait: &mut Wait, call: &Call) -> WaitOutcome {
        if let Some(refusal) = self.refusal(wait, call) {
            if self.is("refused-step-alters") {
                wait.last = call.time;
            }
            return WaitOutcome {
                refusal,
                ..Default::default()
            };
        }
        let is_over = match self.fault {
            "limit-early" => wait.deadline <= call.time + 1,
            "limit-late" => wait.deadline < call.time,
            _ => wait.deadline <= call.time,
        };
        match self.fault {
            "last-not-moved" => (),
            "last-not-moved-when-over" if is_over => (),
            _ => wait.last = call.time,
        }
        let mut told = Told::default();
        // 1
        if is_over && !self.is("limit-after-packet") {
            if self.is("keepalive-when-over") {
                told.send(wait.interface, wait.cid, 0x3b, 2);
            }
            return told.ends(ending::TIMED_OUT, 0);
        }
        // 2
        let arrived = call.arrived || self.is("packet-without-arrival") && call.packet.len() == 64;
        let mut theirs = (wait.interface, wait.cid);
        if arrived {
            let cid = u32::from_be_bytes(call.packet[..4].try_into().unwrap());
            let is_first = call.packet[4] >= 0x80;
            theirs = (call.interface, cid);
            if !self.is_own(wait, call.interface, cid) {
                let is_told = match self.fault {
                    "busy-of-first-packets-alone" => is_first,
                    "busy-not-when-touched" => call.presence != presence::TOUCHED,
                    "broadcast-dropped" => cid != BROADCAST,
                    _ => true,
                };
                if is_told {
                    let interface = match self.fault {
                        "busy-on-own-interface" => wait.interface,
                        _ => call.interface,
                    };
                    told.send(interface, cid, 0x3f, 6);
                }
                if self.is("cancel-of-anyone") && call.packet[4] == CANCEL {
                    return told.ends(ending::CANCELED, 0);
                }
            } else if self.cancels(call) {
                if self.is("cancel-and-keepalive") {
                    told.send(wait.interface, wait.cid, 0x3b, 2);
                }
                return told.ends(ending::CANCELED, 0);
            } else if self.is("busy-to-own-channel") {
                told.send(call.interface, cid, 0x3f, 6);
            }
        }
        if is_over {
            return told.ends(ending::TIMED_OUT, 0);
        }
        // 3
        let presence = match (self.fault, call.presence) {
            ("failed-goes-on", 2..) | ("failed-3-is-timeout", 3..) => presence::TIMEOUT,
            (_, presence) => presence,
        };
        let is_due = match self.fault {
            "keepalive-not-with-packet" => presence == presence::TIMEOUT && !arrived,
            "keepalive-when-touched" => presence != presence::FAILED,
            _ => presence == presence::TIMEOUT,
        };
        if is_due {
            let (interface, cid) = match self.fault {
                "keepalive-to-others" => theirs,
                _ => (wait.interface, wait.cid),
            };
            told.send(
                interface,
                cid,
                0x3b,
                if self.is("keepalive-1") { 1 } else { 2 },
            );
        }
        if self.is("busy-after-keepalive") && told.count == 2 {
            told.sent.reverse();
        }
        if self.is("second-not-cleared") && told.count == 1 {
            told.sent[1] = told.sent[0];
        }
        match presence {
            presence::TIMEOUT => told.ends(ending::NOT_YET, 0),
            presence::TOUCHED => told.ends(ending::TOUCHED, 0),
            _ if self.is("failed-without-number") => told.ends(ending::FAILED, 0),
            _ => told.ends(ending::FAILED, call.error),
        }
    }

    fn refusal(&self, wait: &Wait, call: &Call) -> Option<u8> {
        let is_looked_at = call.arrived || self.is("size-without-packet");
        let size = is_looked_at && call.packet.len() != 64;
        let back = call.time < wait.last && !self.is("time-back-taken");
        let time = self.is_past(call.time) || back;
        match (size, time) {
            (true, true) if self.is("4-before-1") => Some(4),
            (true, _) => Some(1),
            (_, true) => Some(4),
            _ => None,
        }
    }

    /// Whether a channel of an interface is the one that waits.
    fn is_own(&self, wait: &Wait, interface: u32, cid: u32) -> bool {
        let interfaces = match self.fault {
            "interface-not-looked-at" => true,
            "interface-by-low-byte" => interface as u8 == wait.interface as u8,
            _ => interface == wait.interface,
        };
        let channels = match self.fault {
            "channel-by-low-half" => cid as u16 == wait.cid as u16,
            _ => cid == wait.cid,
        };
        interfaces && channels
    }

    /// Whether a packet of that channel gives the request up.
    fn cancels(&self, call: &Call) -> bool {
        let fifth = call.packet[4];
        match self.fault {
            "cancel-of-0-bytes-alone" => fifth == CANCEL && call.packet[5..7] == [0, 0],
            "cancel-after-touch" => fifth == CANCEL && call.presence != presence::TOUCHED,
            "continuation-17-cancels" => fifth & 0x7f == 0x11,
            "init-cancels" => fifth == CANCEL || fifth == INIT,
            _ => fifth == CANCEL,
        }
    }
}

#[derive(Default)]
struct Told {
    sent: [Sent; 2],
    count: u8,
}

impl Told {
    fn send(&mut self, interface: u32, cid: u32, cmd: u8, byte: u8) {
        self.sent[self.count as usize] = Sent {
            interface,
            cid,
            cmd,
            byte,
            spare: 0,
        };
        self.count += 1;
    }

    fn ends(self, ending: u8, error: u8) -> WaitOutcome {
        WaitOutcome {
            sent: self.sent,
            count: self.count,
            ending,
            error,
            refusal: 0,
        }
    }
}
