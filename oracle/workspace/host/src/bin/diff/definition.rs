//! The rules for set-up and for a step (docs/RULES.md), written once more by hand. It says what the buffers must hold
//! after each step, and of a device with a list of vendor commands, which OpenSK hasn't, all else too; and with a fault
//! planted it takes our library's place, to see that the fault is found.
use crate::ours::{CtapHid, ECHO, MESSAGE, MessageAssembler, NOTHING, Outcome, REPLY};

pub const BROADCAST: u32 = 0xffff_ffff;

/// CTAP 2.1, 11.2.9.3: the numbers that are the vendor's.
pub const VENDOR: std::ops::RangeInclusive<u8> = 0x40..=0x7f;

/// The other commands that a host may send, 11.2.9.1 and 11.2.9.2: PING, MSG, LOCK, INIT, WINK, CBOR and CANCEL.
const KNOWN: [u8; 7] = [1, 3, 4, 6, 8, 16, 17];

/// Faults of a step, of set-up, and of the functions beside them.
pub const FAULTS: [&str; 77] = [
    "first-number-1",
    "timer-99",
    "timer-101",
    "lock-11-as-10",
    "init-through-lock",
    "other-channel-is-life",
    "wink-ends-on-taken",
    "channel-2-kept",
    "length-over",
    "length-under",
    "lock-999",
    "lock-1001",
    "wink-4999",
    "wink-5001",
    "timeout-on-first",
    "cancel-in-message",
    "spare-bytes-written",
    "last-byte-not-written",
    "reply-buffer-cleared",
    "57-begins-a-transaction",
    "due-one-too-many",
    "due-57",
    "due-not-counted-down",
    "due-kept-on-wrong-number",
    "due-kept-on-first",
    "due-kept-on-timeout",
    "due-cleared-when-late",
    "due-cleared-by-others",
    "due-of-too-long",
    "due-kept-at-set-up",
    "unknown-told-when-whole",
    "unknown-begins",
    "keepalive-told-when-whole",
    "early-after-length",
    "early-inside",
    "early-when-busy",
    "early-when-locked",
    "early-on-any-channel",
    "early-keeps-timed-out",
    "early-writes-data",
    "early-known-long",
    "early-cancel",
    "early-msg-without-u2f",
    "owed-byte-lost",
    "unlisted-handed-out",
    "listed-not-known",
    "listed-empty-not-known",
    "listed-as-cbor",
    "listed-leaves-wink",
    "listed-on-broadcast",
    "listed-begins-anew",
    "listed-early",
    "unlisted-late",
    "list-bit-one-off",
    "list-read-one-off",
    "list-lost-at-init",
    "list-in-order-alone",
    "list-twice-is-off",
    "list-first-alone-judged",
    "list-63-taken",
    "list-128-taken",
    "13-before-5",
    "refused-set-up-alters",
    "sender-number-1",
    "sender-stale-bytes",
    "reader-length-swapped",
    "split-long-at-7610",
    "host-number-1",
    "host-any-channel",
    "host-spare-bytes-written",
    "host-owed-byte-lost",
    "init-channel-swapped",
    "init-17-alone",
    "init-short-taken",
    "init-long-taken",
    "init-rest-from-16",
    "init-cbor-lost",
];

#[derive(Clone, Debug)]
pub struct Definition {
    pub hid: CtapHid,
    pub wink: u64,
    /// The vendor commands that the device knows.
    known: Vec<u8>,
    fault: &'static str,
}

/// What a step does beside altering the state: bytes to be written, and the answers of the
/// transport alone and of the device.
pub struct Effect {
    pub at: usize,
    pub data: std::ops::Range<usize>,
    /// Whether check 4 has answered InvalidCmd.
    pub told_at_once: bool,
    pub inner: Outcome,
    pub inner_reply: Vec<u8>,
    pub outer: Outcome,
    pub outer_reply: Vec<u8>,
}

fn told(kind: u8, cid: u32, cmd: u8, len: usize) -> Outcome {
    Outcome {
        len,
        cid,
        kind,
        cmd,
        refusal: 0,
        spare: 0,
    }
}

impl Definition {
    /// Set-up, or the number of its refusal.
    pub fn new(max: usize, u2f: bool, list: &[u8], fault: &'static str) -> Result<Self, u8> {
        let judged = match fault {
            "list-first-alone-judged" => &list[..list.len().min(1)],
            _ => list,
        };
        let foreign = judged.iter().any(|number| match (fault, number) {
            ("list-63-taken", 63) | ("list-128-taken", 128) => false,
            _ => !VENDOR.contains(number),
        });
        if foreign && fault == "13-before-5" {
            return Err(13);
        }
        if max > 7609 {
            return Err(5);
        }
        if foreign {
            return Err(13);
        }
        let mut known: Vec<u8> = vec![];
        for number in list {
            match fault {
                "list-in-order-alone" if known.iter().any(|before| before > number) => (),
                "list-twice-is-off" if known.contains(number) => known.retain(|n| n != number),
                _ => known.push(*number),
            }
        }
        if fault == "list-bit-one-off" {
            known.retain(|number| *number < 127);
        }
        // the state has a bit for each of the vendor's numbers, in their order from the lowest
        let bits = VENDOR.map(|number| known.contains(&number) as u64);
        let mut vendor = bits.enumerate().map(|(at, bit)| bit << at).sum();
        if fault == "list-bit-one-off" {
            vendor <<= 1;
        }
        Ok(Definition {
            hid: CtapHid {
                max: max as u32,
                u2f: u2f as u8,
                vendor,
                ..CtapHid::default()
            },
            wink: 0,
            known,
            fault,
        })
    }

    /// What a question tells.
    pub fn is_locked(&self, time: u64) -> bool {
        time < self.hid.lock
    }

    pub fn is_winking(&self, time: u64) -> bool {
        time < self.wink
    }

    pub fn is(&self, fault: &str) -> bool {
        self.fault == fault
    }

    /// `message` is the message buffer as it is lent.
    pub fn step(&mut self, time: u64, disabled: bool, packet: &[u8; 64], message: &[u8]) -> Effect {
        let mut effect = Effect {
            at: 0,
            data: 0..0,
            told_at_once: false,
            inner: told(NOTHING, 0, 0, 0),
            inner_reply: vec![],
            outer: told(NOTHING, 0, 0, 0),
            outer_reply: vec![],
        };
        self.hid.last = time;
        self.transport(time, disabled, packet, message, &mut effect);
        // 8
        effect.outer = effect.inner;
        effect.outer_reply = effect.inner_reply.clone();
        if effect.inner.kind != NOTHING {
            let Outcome { cid, cmd, len, .. } = effect.inner;
            let is_left = match self.fault {
                "wink-ends-on-taken" => cmd == 63,
                "listed-leaves-wink" => VENDOR.contains(&cmd),
                _ => false,
            };
            if !is_left {
                self.wink = 0;
            }
            let mut error = |number| {
                effect.outer = told(REPLY, cid, 63, 1);
                effect.outer_reply = vec![number];
            };
            match (effect.inner.kind, cmd) {
                (MESSAGE, 8) if len > 0 => error(3),
                (MESSAGE, 8) => {
                    effect.outer = told(ECHO, cid, 8, 0);
                    self.wink = time
                        + match self.fault {
                            "wink-4999" => 4999,
                            "wink-5001" => 5001,
                            _ => 5000,
                        };
                }
                (MESSAGE, 3) if self.hid.u2f == 0 => error(1),
                _ => (),
            }
        }
        effect
    }

    fn transport(
        &mut self,
        time: u64,
        disabled: bool,
        packet: &[u8; 64],
        message: &[u8],
        effect: &mut Effect,
    ) {
        let cid = u32::from_be_bytes(packet[..4].try_into().unwrap());
        let first = packet[4] >= 128;
        let cmd = packet[4] & 127;
        let len = u16::from_be_bytes([packet[5], packet[6]]) as u32;
        let allocated = |hid: &CtapHid| 1 <= cid && cid <= hid.allocated;
        let mut error = |number: u8| {
            effect.inner = told(REPLY, cid, 63, 1);
            effect.inner_reply = vec![number];
        };

        // a transaction whose time is up stands, and its packets are due, until check 3 drops it
        let running = self.hid.assembler;
        let still_due = self.hid.still_due;
        let late = running.len > 0 && running.deadline <= time;
        if late && self.is("due-cleared-when-late") {
            self.hid.still_due = 0;
        }

        // 1
        let valid = match cid {
            BROADCAST => {
                first && (cmd == 6 || self.is("listed-on-broadcast") && self.known.contains(&cmd))
            }
            _ => allocated(&self.hid),
        };
        // what 4 answers InvalidCmd, should it get that far; with a fault an earlier check does
        let unknown = first && !self.knows(cmd, len);
        let planted = self.fault;
        let or_early = |number, fault| {
            if unknown && planted == fault {
                1
            } else {
                number
            }
        };
        if !valid {
            if first {
                error(or_early(11, "early-on-any-channel"));
            }
            return;
        }
        // 2
        let locked = time < self.hid.lock
            && self.hid.locked != cid
            && !(self.is("init-through-lock") && cid == BROADCAST);
        if disabled || locked {
            return error(or_early(6, "early-when-locked"));
        }
        // 3
        let life = match self.fault {
            "timer-99" => 99,
            "timer-101" => 101,
            _ => 100,
        };
        if late {
            self.hid.assembler = MessageAssembler::default();
            if !self.is("due-kept-on-timeout") {
                self.hid.still_due = 0;
            }
            if running.cid == cid && (!first || self.is("timeout-on-first")) {
                return error(5);
            }
        }
        // 4 and 5
        let assembler = &mut self.hid.assembler;
        let due = &mut self.hid.still_due;
        if assembler.len > 0 && assembler.cid != cid {
            if self.fault == "other-channel-is-life" {
                assembler.deadline = time + life;
            }
            if self.fault == "due-cleared-by-others" {
                *due = 0;
            }
            return error(or_early(6, "early-when-busy"));
        }
        if first {
            if assembler.len > 0 {
                *assembler = MessageAssembler::default();
                if self.fault != "due-kept-on-first" {
                    *due = 0;
                }
                if cmd == 17 && self.fault == "cancel-in-message" {
                    return;
                }
                let anew = self.fault == "listed-begins-anew" && self.known.contains(&cmd);
                if cmd != 6 && !anew {
                    return error(or_early(4, "early-inside"));
                }
            }
            let over = match self.fault {
                "length-over" => len > self.hid.max + 1,
                "length-under" => len > 0 && len >= self.hid.max,
                _ => len > self.hid.max,
            };
            // what the first packet has no room for comes later, 59 bytes at a time
            let behind = len.saturating_sub(57) as u16;
            let count = match self.fault {
                "due-one-too-many" => behind.div_ceil(59) + 1,
                "due-57" => behind.div_ceil(57),
                _ => behind.div_ceil(59),
            };
            if unknown {
                effect.told_at_once = true;
                error(1);
                match self.fault {
                    "unknown-begins" if 57 < len && !over => (),
                    "early-keeps-timed-out" if late => {
                        (*assembler, *due) = (running, still_due);
                        return;
                    }
                    "early-writes-data" => {
                        effect.data = 7..7 + len.min(57) as usize;
                        return;
                    }
                    _ => return,
                }
            }
            if over {
                if self.fault == "due-of-too-long" {
                    *due = count;
                }
                return error(3);
            }
            *due = count;
            *assembler = MessageAssembler {
                deadline: time + life,
                cid,
                len,
                taken: 0,
                cmd: cmd as u16,
                seq: (self.fault == "first-number-1") as u16,
            };
        } else {
            if assembler.len == 0 {
                return;
            }
            if packet[4] as u16 != assembler.seq {
                *assembler = MessageAssembler::default();
                if self.fault != "due-kept-on-wrong-number" {
                    *due = 0;
                }
                return error(4);
            }
            assembler.deadline = time + life;
            assembler.seq += 1;
            if self.fault != "due-not-counted-down" {
                // a fault may have cleared it
                *due = due.saturating_sub(1);
            }
        }
        // 6
        let from = if first { 7 } else { 5 };
        let room = (64 - from) as u32;
        let left = assembler.len - assembler.taken;
        let taken = room.min(left);
        effect.at = assembler.taken as usize;
        effect.data = from..from
            + match self.fault {
                "spare-bytes-written" => room as usize,
                "last-byte-not-written" if left > room => taken as usize - 1,
                _ => taken as usize,
            };
        assembler.taken += taken;
        if room < left || (left == 57 && first && self.fault == "57-begins-a-transaction") {
            return;
        }
        let len = assembler.len as usize;
        let cmd = assembler.cmd as u8;
        self.hid.assembler = MessageAssembler::default();
        self.hid.still_due = 0;
        // the message: what was there, and now this packet's bytes
        let byte = |i: usize| match i.checked_sub(effect.at) {
            Some(k) => packet[from + k],
            None => message[i],
        };

        // 7
        match cmd {
            6 if len != 8 => error(3),
            6 => {
                let mut new = cid;
                if cid == BROADCAST {
                    let restarts = self.hid.allocated == 0xffff_fffe;
                    new = if restarts { 1 } else { self.hid.allocated + 1 };
                    self.hid.allocated = new;
                    if restarts && self.fault == "channel-2-kept" {
                        self.hid.allocated = 2;
                    }
                    if self.fault == "list-lost-at-init" {
                        self.known.clear();
                    }
                }
                let mut reply: Vec<u8> = (0..8).map(byte).collect();
                reply.extend(new.to_be_bytes());
                reply.extend([2, 1, 0, 0, if self.hid.u2f == 0 { 13 } else { 5 }]);
                effect.inner = told(REPLY, cid, 6, 17);
                effect.inner_reply = reply;
            }
            4 if len != 1 => error(3),
            4 => {
                let mut seconds = byte(0);
                if seconds == 11 && self.fault == "lock-11-as-10" {
                    seconds = 10;
                }
                if seconds > 10 {
                    return error(2);
                }
                let span = 1000 * seconds as u64;
                (self.hid.locked, self.hid.lock) = match (seconds, self.fault) {
                    (0, _) => (0, 0),
                    (_, "lock-999") => (cid, time + span - 1),
                    (_, "lock-1001") => (cid, time + span + 1),
                    _ => (cid, time + span),
                };
                effect.inner = told(REPLY, cid, 4, 0);
            }
            17 => (),
            1 => effect.inner = told(ECHO, cid, 1, len),
            3 | 8 | 16 => effect.inner = told(MESSAGE, cid, cmd, len),
            _ if VENDOR.contains(&cmd) && self.lists(cmd, len) => {
                let as_cbor = self.fault == "listed-as-cbor";
                effect.inner = told(MESSAGE, cid, if as_cbor { 16 } else { cmd }, len);
            }
            _ => error(1),
        }
    }

    /// C-16: whether a command is known, so that its first packet may begin a transaction of so many bytes. Any other gets
    /// InvalidCmd at once, whatever it declares. MSG is known without U2F too.
    fn knows(&self, cmd: u8, len: u32) -> bool {
        let is_vendor = VENDOR.contains(&cmd);
        let known = KNOWN.contains(&cmd) || is_vendor && self.lists(cmd, len as usize);
        match (self.fault, cmd) {
            ("unknown-told-when-whole", _) | ("keepalive-told-when-whole", 59) => true,
            ("early-after-length", _) if len > self.hid.max => true,
            ("early-known-long", 1) => len <= 57,
            ("early-cancel", 17) => false,
            // in the form that the device's own answers show: of one packet it gets InvalidCmd anyway
            ("early-msg-without-u2f", 3) if self.hid.u2f == 0 => len <= 57 || len > self.hid.max,
            ("listed-early", _) if is_vendor => known && len <= 57,
            ("unlisted-late", _) if is_vendor => known || !self.known.is_empty(),
            _ => known,
        }
    }

    /// Whether a vendor command is on the list, of a message of so many bytes.
    fn lists(&self, number: u8, len: usize) -> bool {
        match self.fault {
            "unlisted-handed-out" => !self.known.is_empty(),
            "listed-not-known" => false,
            "listed-empty-not-known" if len == 0 => false,
            "list-read-one-off" => self.known.contains(&(number + 1)),
            _ => self.known.contains(&number),
        }
    }
}
