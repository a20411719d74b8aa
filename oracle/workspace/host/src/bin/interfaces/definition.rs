//! The rules for a key with two interfaces (docs/RULES.md), written once more by hand, over those for one (diff/definition.rs). All that a call
//! alters or answers is compared with them, also where OpenSK has nothing like it: refusals, records that make no sense, vendor commands, the
//! buffers. With a fault planted they take our library's place, to see that the fault is found.
use crate::compare::LAST_TIME;
use crate::lent::write;
use crate::ours::{
    Call, CtapHid, ECHO, Key, MESSAGE, MainHid, MessageAssembler, NOTHING, Outcome, REPLY,
    Settings, VendorHid, sides,
};
pub use crate::single::{BROADCAST, VENDOR};
use crate::single::{Definition as Single, Effect};
use opensk::Transport;

/// Faults of a step, of the questions and of set-up. Those that end in -on-main or -on-vendor are diff's, on that interface alone.
pub const FAULTS: [&str; 64] = [
    // what one interface's lock is to the other
    "flag-from-own-lock",
    "flag-from-either-lock",
    "main-heeds-no-lock",
    "vendor-heeds-no-lock",
    "holder-let-through",
    "broadcast-let-through",
    "lock-let-through",
    "flag-late",
    "flag-early",
    "flag-at-last-time",
    "flag-before-channel",
    "busy-of-first-packets-alone",
    "busy-drops-message",
    // check 8
    "wink-ended-from-vendor",
    "busy-leaves-wink",
    "vendor-wink-echoed",
    "vendor-wink-starts",
    "vendor-wink-by-length",
    "vendor-wink-early",
    "vendor-msg-never",
    "vendor-msg-without-u2f",
    // what each interface has, and what both share
    "last-time-kept-apart",
    "last-time-of-main-alone",
    "one-transaction",
    "one-count",
    "one-maximum",
    "one-due",
    "one-message-buffer",
    "owed-byte-lost",
    "u2f-of-main-alone",
    "commands-of-main-alone",
    "spare-cleared",
    "timer-99-on-vendor",
    "lock-999-on-vendor",
    "first-number-1-on-vendor",
    "channel-2-kept-on-vendor",
    "init-through-lock-on-main",
    "wink-4999-on-main",
    // refusals
    "two-locks-sound",
    "two-locks-at-this-time",
    "two-locks-of-one-number",
    "3-of-stepped-alone",
    "3-of-main-alone",
    "3-without-wink-on-vendor",
    "3-without-vendor-due",
    "3-without-vendor-holder",
    "3-by-vendor-spare",
    "2-of-the-other",
    "2-of-both",
    "2-before-1",
    "3-before-2",
    "4-before-3",
    "time-back-taken",
    "time-past-last-taken",
    "refused-step-alters",
    // the questions
    "question-of-main",
    "question-of-either",
    "question-3-of-its-own",
    "question-at-any-time",
    // set-up
    "5-of-main-alone",
    "13-before-5",
    "maxima-swapped",
    "vendor-kept-at-set-up",
    "refused-set-up-alters",
];

#[derive(Clone)]
pub struct Definition {
    /// Main and vendor. The last time, U2F and the vendor commands are the same in both.
    pub sides: [Single; 2],
    spare: u16,
    /// Whether check 4 has answered InvalidCmd in the last step.
    pub told_at_once: bool,
    fault: &'static str,
}

pub fn other(on: Transport) -> Transport {
    match on {
        Transport::MainHid => Transport::VendorHid,
        Transport::VendorHid => Transport::MainHid,
    }
}

/// The fault that an interface has by itself.
fn single_fault(fault: &'static str, on: Transport) -> &'static str {
    let suffix = match on {
        Transport::MainHid => "-on-main",
        Transport::VendorHid => "-on-vendor",
    };
    fault.strip_suffix(suffix).unwrap_or("")
}

/// "A sound state" of docs/RULES.md, of one interface, but for what a fault leaves out.
fn is_sound_alone(hid: &CtapHid, wink: u64, but: &str) -> bool {
    let a = &hid.assembler;
    let is_allocated = |cid| 1 <= cid && cid <= hid.allocated;
    let is_within = |end: u64, past| end <= hid.last.saturating_add(past);
    let is_held = hid.lock <= hid.last || is_allocated(hid.locked) || but == "holder";
    // a transaction, of which this many packets are still due
    let seq = a.seq as u32;
    let due = |len: u32| (len + 1) / 59 - seq;
    let is_counted = match a.len {
        0 => hid.still_due == 0 || but == "due",
        len => {
            len > 57
                && len <= hid.max
                && a.taken == 57 + 59 * seq
                && a.taken < len
                && (hid.still_due as u32 == due(len) || but == "due")
        }
    };
    let is_on_channel = is_allocated(a.cid) || a.cid == BROADCAST && a.cmd == 6;
    hid.max <= 7609
        && hid.allocated <= 0xffff_fffe
        && hid.last <= LAST_TIME
        && is_within(a.deadline, 100)
        && is_within(hid.lock, 10_000)
        && is_within(wink, 5_000)
        && is_held
        && is_counted
        && (a.len == 0 || a.cmd <= 127 && is_on_channel)
}

impl Definition {
    /// A key of any contents.
    pub fn of(key: &Key, fault: &'static str) -> Self {
        let bits = key.main.hid.vendor;
        let commands: Vec<u8> = VENDOR.filter(|n| bits >> (n - 64) & 1 == 1).collect();
        let side = |on: Transport| {
            let fault = single_fault(fault, on);
            let mut single = Single::new(0, false, &commands, fault).unwrap();
            single.hid = sides(key)[on as usize];
            single
        };
        let mut definition = Definition {
            sides: [side(Transport::MainHid), side(Transport::VendorHid)],
            spare: key.vendor.spare,
            told_at_once: false,
            fault,
        };
        definition.sides[0].wink = key.main.wink;
        definition.plant_settings();
        definition
    }

    /// Set-up over a key, or the number of its refusal.
    pub fn set_up(came: &Key, with: &Settings, fault: &'static str) -> Result<Self, u8> {
        let [main, vendor] = with.maxima;
        let is_large = main > 7609 || vendor > 7609 && fault != "5-of-main-alone";
        let fresh = |on| Single::new(0, with.u2f, &with.commands, single_fault(fault, on));
        let fresh =
            fresh(Transport::MainHid).and_then(|main| Ok([main, fresh(Transport::VendorHid)?]));
        let mut sides = match fresh {
            Err(foreign) if fault == "13-before-5" => return Err(foreign),
            _ if is_large => return Err(5),
            _ => fresh?,
        };
        sides[0].hid.max = main as u32;
        sides[1].hid.max = vendor as u32;
        if fault == "maxima-swapped" {
            [sides[0].hid.max, sides[1].hid.max] = [vendor as u32, main as u32];
        }
        let mut definition = Definition {
            sides,
            spare: 0,
            told_at_once: false,
            fault,
        };
        if fault == "vendor-kept-at-set-up" {
            definition.sides[1].hid.assembler = came.vendor.assembler;
        }
        definition.plant_settings();
        Ok(definition)
    }

    /// Faults of what both interfaces share since set-up.
    fn plant_settings(&mut self) {
        let vendor = &mut self.sides[1];
        match self.fault {
            "u2f-of-main-alone" => vendor.hid.u2f = 0,
            "commands-of-main-alone" => {
                let hid = vendor.hid;
                *vendor = Single::new(0, false, &[], "").unwrap();
                vendor.hid = hid;
            }
            _ => (),
        }
    }

    /// How many channels each interface has, and what stands in the numbers that are ignored.
    pub fn begin_at(&mut self, counts: [u32; 2], spares: (u8, u16)) {
        for (side, count) in self.sides.iter_mut().zip(counts) {
            side.hid.allocated = count;
            side.hid.spare = spares.0;
        }
        self.spare = spares.1;
    }

    pub fn key(&self) -> Key {
        let [main, vendor] = &self.sides;
        Key {
            main: MainHid {
                hid: main.hid,
                wink: main.wink,
            },
            vendor: VendorHid {
                assembler: vendor.hid.assembler,
                lock: vendor.hid.lock,
                allocated: vendor.hid.allocated,
                locked: vendor.hid.locked,
                max: vendor.hid.max,
                spare: self.spare,
                still_due: vendor.hid.still_due,
            },
        }
    }

    fn is(&self, fault: &str) -> bool {
        self.fault == fault
    }

    // ---- refusals

    /// Whether the record makes sense, for a call about an interface.
    fn is_sound(&self, on: Transport, time: u64, its_own_alone: bool) -> bool {
        let [main, vendor] = &self.sides;
        let at = match self.fault {
            "two-locks-at-this-time" => time,
            _ => main.hid.last,
        };
        let are_two = at < main.hid.lock && at < vendor.hid.lock;
        let are_let = match self.fault {
            "two-locks-sound" => true,
            "two-locks-of-one-number" => main.hid.locked == vendor.hid.locked,
            _ => false,
        };
        let wink = match (self.fault, on) {
            ("3-without-wink-on-vendor", Transport::VendorHid) => 0,
            _ => main.wink,
        };
        let but = match self.fault {
            "3-without-vendor-due" => "due",
            "3-without-vendor-holder" => "holder",
            _ => "",
        };
        let by_spare = self.is("3-by-vendor-spare") && self.spare > 0xff00;
        let is_main_sound = is_sound_alone(&main.hid, wink, "");
        let is_vendor_sound = is_sound_alone(&vendor.hid, 0, but) && !by_spare;
        match on {
            Transport::MainHid if its_own_alone => is_main_sound,
            Transport::VendorHid if its_own_alone => is_vendor_sound,
            _ if self.is("3-of-main-alone") => is_main_sound,
            _ => is_main_sound && is_vendor_sound && (!are_two || are_let),
        }
    }

    fn is_untimely(&self, on: Transport, time: u64) -> bool {
        let last = self.sides[on as usize].hid.last;
        time > LAST_TIME && !self.is("time-past-last-taken")
            || time < last && !self.is("time-back-taken")
    }

    /// The number of a step's refusal, or 0. The buffers have so many bytes.
    pub fn refusal(&self, call: &Call, message: usize, reply: usize) -> u8 {
        let Call { on, time, packet } = *call;
        let max = |on| self.sides[on as usize].hid.max as usize;
        let least = match self.fault {
            "2-of-the-other" => max(other(on)),
            "2-of-both" => max(on).max(max(other(on))),
            _ => max(on),
        };
        let mut numbers = [
            (1, packet.len() != 64),
            (2, message < least || reply < 17),
            (3, !self.is_sound(on, time, self.is("3-of-stepped-alone"))),
            (4, self.is_untimely(on, time)),
        ];
        match self.fault {
            "2-before-1" => numbers.swap(0, 1),
            "3-before-2" => numbers.swap(1, 2),
            "4-before-3" => numbers.swap(2, 3),
            _ => (),
        }
        let first = numbers.into_iter().find(|(_, is_due)| *is_due);
        first.map_or(0, |(number, _)| number)
    }

    // ---- the questions

    /// Main's lock, vendor's, and the wink: 0 no, 1 yes, or a refusal.
    pub fn questions(&self, time: u64) -> [u8; 3] {
        let [main, vendor] = &self.sides;
        let locks = [main.hid.lock, vendor.hid.lock];
        let of_vendor = match self.fault {
            "question-of-main" => locks[0],
            "question-of-either" => locks[0].max(locks[1]),
            _ => locks[1],
        };
        let ask = |on, until: u64| {
            if !self.is_sound(on, time, self.is("question-3-of-its-own")) {
                3
            } else if self.is_untimely(on, time) && !self.is("question-at-any-time") {
                4
            } else {
                (time < until) as u8
            }
        };
        [
            ask(Transport::MainHid, locks[0]),
            ask(Transport::VendorHid, of_vendor),
            ask(Transport::MainHid, main.wink),
        ]
    }

    // ---- a step

    /// A step on an interface, which is lent that interface's message buffer.
    pub fn step(&mut self, call: &Call, message: &mut [u8], reply: &mut [u8]) -> Outcome {
        let Call { on, time, packet } = *call;
        self.told_at_once = false;
        let refusal = self.refusal(call, message.len(), reply.len());
        let last = self.sides[0].hid.last;
        if refusal != 0 {
            if self.is("refused-step-alters") {
                self.pass_to(time);
            }
            return Outcome {
                refusal,
                ..Outcome::default()
            };
        }
        let mut packet: [u8; 64] = packet.try_into().unwrap();
        let hindered = self.is_hindered(on, time, &packet);
        if self.is("vendor-wink-early") && on == Transport::VendorHid && packet[4] == 0x88 {
            // a command that nobody knows
            packet[4] = 0x82;
        }
        let wink = self.sides[0].wink;
        let max = self.sides[on as usize].hid.max;
        if self.is("one-maximum") {
            self.sides[on as usize].hid.max = self.sides[0].hid.max;
        }
        let mut effect = self.sides[on as usize].step(time, hindered, &packet, message);
        self.sides[on as usize].hid.max = max;
        self.told_at_once = effect.told_at_once;
        if on == Transport::VendorHid {
            self.above_vendor(time, &mut effect);
        }
        if hindered {
            self.plant_busy(on, wink, &packet, &mut effect);
        }
        match (self.fault, on) {
            ("last-time-kept-apart", _) => (),
            ("last-time-of-main-alone", Transport::VendorHid) => self.pass_to(last),
            _ => self.pass_to(time),
        }
        self.plant_shared(on);
        write(message, effect.at, &packet[effect.data.clone()]);
        write(reply, 0, &effect.outer_reply);
        effect.outer
    }

    /// One last time serves both.
    fn pass_to(&mut self, time: u64) {
        self.sides.iter_mut().for_each(|side| side.hid.last = time);
    }

    /// Whether the other interface holds a running lock.
    fn is_hindered(&self, on: Transport, time: u64, packet: &[u8; 64]) -> bool {
        let own = &self.sides[on as usize].hid;
        let theirs = &self.sides[other(on) as usize].hid;
        let cid = u32::from_be_bytes(packet[..4].try_into().unwrap());
        let runs = time < theirs.lock;
        match (self.fault, on) {
            ("flag-from-own-lock", _) => time < own.lock,
            ("flag-from-either-lock", _) => runs || time < own.lock,
            ("main-heeds-no-lock", Transport::MainHid) => false,
            ("vendor-heeds-no-lock", Transport::VendorHid) => false,
            ("holder-let-through", _) => runs && cid != theirs.locked,
            ("broadcast-let-through", _) => runs && cid != BROADCAST,
            ("lock-let-through", _) => runs && packet[4] != 0x84,
            ("flag-late", _) => time < theirs.lock + (theirs.lock > 0) as u64,
            ("flag-early", _) => time + 1 < theirs.lock,
            ("flag-at-last-time", _) => self.sides[0].hid.last < theirs.lock,
            _ => runs,
        }
    }

    /// Check 8 on vendor: there is no WINK, and nothing ends one.
    fn above_vendor(&mut self, time: u64, effect: &mut Effect) {
        let [main, vendor] = &mut self.sides;
        // that of a device by itself
        vendor.wink = 0;
        let Outcome { kind, cmd, len, .. } = effect.inner;
        let is_known = match (cmd, self.fault) {
            (8, "vendor-wink-echoed" | "vendor-wink-starts") => len == 0,
            (8, _) => false,
            (3, "vendor-msg-without-u2f") => true,
            (3, "vendor-msg-never") => false,
            (3, _) => vendor.hid.u2f != 0,
            _ => true,
        };
        effect.outer = effect.inner;
        effect.outer_reply = effect.inner_reply.clone();
        if kind == MESSAGE && !is_known {
            effect.outer = Outcome {
                kind: REPLY,
                cmd: 63,
                len: 1,
                ..effect.inner
            };
            let by_length = self.fault == "vendor-wink-by-length" && len > 0;
            effect.outer_reply = vec![if by_length { 3 } else { 1 }];
        } else if (kind, cmd) == (MESSAGE, 8) {
            effect.outer.kind = ECHO;
            if self.fault == "vendor-wink-starts" {
                main.wink = time + 5000;
            }
        }
        if self.fault == "wink-ended-from-vendor" && kind != NOTHING {
            main.wink = 0;
        }
    }

    /// Faults of what is turned away by the other interface's lock.
    fn plant_busy(&mut self, on: Transport, wink: u64, packet: &[u8; 64], effect: &mut Effect) {
        let side = &mut self.sides[on as usize];
        let is_busy = effect.outer_reply == [6];
        match self.fault {
            "flag-before-channel" if effect.outer_reply == [11] => effect.outer_reply = vec![6],
            "busy-of-first-packets-alone" if is_busy && packet[4] < 128 => {
                effect.outer = nothing();
                effect.outer_reply = vec![];
            }
            "busy-drops-message" if is_busy => {
                side.hid.assembler = MessageAssembler::default();
                side.hid.still_due = 0;
            }
            "busy-leaves-wink" if is_busy && on == Transport::MainHid => side.wink = wink,
            _ => (),
        }
    }

    /// Faults by which both interfaces have what each has of its own.
    fn plant_shared(&mut self, on: Transport) {
        let own = self.sides[on as usize].hid;
        let theirs = &mut self.sides[other(on) as usize].hid;
        match self.fault {
            "one-transaction" => {
                theirs.assembler = own.assembler;
                theirs.still_due = own.still_due;
            }
            "one-count" => theirs.allocated = own.allocated,
            "one-due" => theirs.still_due = own.still_due,
            "spare-cleared" => self.spare = 0,
            _ => (),
        }
    }
}

fn nothing() -> Outcome {
    Outcome {
        kind: NOTHING,
        ..Outcome::default()
    }
}
