//! Made-up traffic for both interfaces at once. All of it comes from a seed.
use crate::compare::{LAST_TIME, U2F};
use crate::definition::BROADCAST;
use crate::hosts::{self, Hosts};
use crate::ours::{CtapHid, Key, Settings, VendorHid};
use crate::pair::{Pair, Setup, Step, WHOLE};
use crate::random::Random;
use opensk::Transport::{self, MainHid as Main, VendorHid as Vendor};
use opensk::ctap::hid::HidPacket;
use std::collections::VecDeque;

pub fn setup(random: &mut Random, with_opensk: bool) -> Setup {
    let counts = [hosts::count(random), hosts::count(random)];
    let maxima = [hosts::maximum(random), hosts::maximum(random)];
    Setup {
        settings: Settings {
            maxima: random.of(&[maxima, [7609; 2]]),
            u2f: if with_opensk { U2F } else { random.one_in(2) },
            commands: if with_opensk {
                vec![]
            } else {
                hosts::list(random)
            },
        },
        // mostly the same numbers on both
        counts: random.of(&[counts, [counts[0]; 2]]),
        slack: random.of(&[0, 0, 1, 47]),
        scribble: random.next() as u8,
        with_opensk,
    }
}

/// For set-up: what it is given, and the record before.
pub fn set_up(random: &mut Random) -> (Settings, Key) {
    let maxima = [hosts::any_maximum(random), hosts::any_maximum(random)];
    let fine = random.below(7610);
    let settings = Settings {
        // one that is too large is refused whichever it is
        maxima: random.of(&[maxima, [maxima[0], fine], [fine, maxima[1]], [fine; 2]]),
        u2f: random.one_in(2),
        commands: hosts::any_list(random),
    };
    (settings, any_key(random))
}

/// A record of any contents.
pub fn any_key(random: &mut Random) -> Key {
    let main = hosts::any_state(random);
    let like_vendor = hosts::any_state(random).hid;
    Key {
        main,
        vendor: VendorHid {
            assembler: like_vendor.assembler,
            lock: like_vendor.lock,
            allocated: like_vendor.allocated,
            locked: like_vendor.locked,
            max: like_vendor.max,
            spare: random.next() as u16,
            still_due: like_vendor.still_due,
        },
    }
}

/// How packets are made up in a run.
#[derive(Clone, Copy)]
enum Manner {
    /// After the state that each will meet.
    Wild,
    /// By several hosts on each interface, some of them bad.
    Hosts,
    /// By one on each interface, whose messages are long and mostly come through.
    Talk,
}

/// What comes in a run, on both interfaces.
pub struct Run {
    manner: Manner,
    /// Little time passes between two packets.
    is_calm: bool,
    hosts: [Hosts; 2],
    /// What is left of a message, where they talk.
    queues: [VecDeque<HidPacket>; 2],
    time: u64,
}

impl Run {
    pub fn new(random: &mut Random) -> Self {
        let manner = random.of(&[Manner::Wild, Manner::Hosts, Manner::Talk]);
        Run {
            manner,
            is_calm: random.one_in(2) || matches!(manner, Manner::Talk),
            hosts: [Hosts::new(random), Hosts::new(random)],
            queues: [VecDeque::new(), VecDeque::new()],
            time: hosts::start(random),
        }
    }

    /// The next step, of which some are to be refused. The time of such a one is not the run's.
    pub fn step(&mut self, random: &mut Random, pair: &Pair, list: Option<&[u8]>) -> Step {
        let key = pair.key();
        // a lock of vendor's beside a wink is rare by itself
        let is_lock = self.time < key.main.wink && random.one_in(8);
        let on = random.of(&[Main, Vendor]);
        // at once before, at or past an end that either interface may look at
        if random.one_in(30) {
            let ends = [key.main.hid.lock, key.vendor.lock, key.main.wink];
            let end = random.of(&ends) + random.of(&[0, 1, 2]);
            self.time = end.saturating_sub(1).max(self.time).min(LAST_TIME);
        }
        let began = self.time;
        let (hid, time) = (pair.state(on), &mut self.time);
        let packet = match self.manner {
            _ if is_lock && on == Vendor => hosts::packet(1, &[0x84, 0, 1, 1]),
            Manner::Talk if !random.one_in(12) => self.talk(random, on, hid),
            Manner::Hosts => self.hosts[on as usize].packet(random, hid, list, time),
            _ => hosts::wild(random, hid, list, time),
        };
        if self.is_calm {
            self.time = self.time.min(began + 12);
        }
        let mut step = Step {
            on,
            time: self.time,
            packet,
            answer: hosts::answer(random),
            lent: WHOLE,
        };
        if random.one_in(40) {
            spoil(random, &key, &mut step);
        }
        step
    }

    fn talk(&mut self, random: &mut Random, on: Transport, hid: &CtapHid) -> HidPacket {
        self.time = (self.time + random.below(12) as u64).min(LAST_TIME);
        let queue = &mut self.queues[on as usize];
        if queue.is_empty() {
            let most = (hid.max as usize).min(random.of(&[60, 600, 7609]));
            *queue = match hid.allocated {
                0 => hosts::message(random, BROADCAST, 6, 8),
                count => {
                    let cid = 1 + random.below(3.min(count as usize)) as u32;
                    let cmd = random.of(&[1, 1, 3, 16, 16]);
                    let len = random.below(most + 1);
                    hosts::message(random, cid, cmd, len)
                }
            };
        }
        queue.pop_front().unwrap()
    }
}

/// Makes a call one that is to be refused, for one reason or for more.
fn spoil(random: &mut Random, key: &Key, step: &mut Step) {
    let max = [key.main.hid.max, key.vendor.max][step.on as usize] as usize;
    for _ in 0..1 + random.below(3) {
        match random.below(4) {
            0 => step.lent.packet = random.of(&[0, 1, 63, 65]),
            1 => step.lent.message = max.saturating_sub(1 + random.below(3)),
            2 => step.lent.reply = random.of(&[0, 1, 16]),
            _ => step.time = untimely(random, key.main.hid.last),
        }
    }
}

/// Before the last time, or past the last that there is.
pub fn untimely(random: &mut Random, last: u64) -> u64 {
    let any = random.next() << 16;
    let back = last.saturating_sub(1 + random.below(300) as u64);
    match last {
        0 => LAST_TIME + 1,
        _ => random.of(&[last - 1, back, LAST_TIME + 1, u64::MAX, any | 1 << 60]),
    }
}

/// The letters of the exhaustive set: time to pass first, the interface, and the packet. For maxima of 117 and 60; channels 1 and 2 are
/// allocated on both.
pub fn letters() -> Vec<(u64, Transport, HidPacket)> {
    let each: &[(u64, u32, &[u8])] = &[
        (0, BROADCAST, &[0x86, 0, 8, 1, 2, 3, 4, 5, 6, 7, 8]),
        (0, 1, &[0x84, 0, 1, 0]),
        (0, 1, &[0x84, 0, 1, 1]),
        (0, 1, &[0x84, 0, 1, 10]),
        (0, 2, &[0x84, 0, 1, 1]),
        (0, 1, &[0x81, 0, 1, 7]),
        (0, 1, &[0x81, 0, 58, 8]),
        (0, 1, &[0, 9]),
        (99, 1, &[0, 9]),
        (100, 1, &[0, 9]),
        (0, 2, &[0x81, 0, 61]),
        (0, 1, &[0x88, 0, 0]),
        (0, 1, &[0x88, 0, 58]),
        (0, 1, &[0x83, 0, 1, 3]),
        (0, 1, &[0x91, 0, 0]),
        (0, 1, &[0xbb, 0, 58]),
        (999, 2, &[0x81, 0, 0]),
        (1000, 2, &[0x81, 0, 0]),
        (0, 3, &[0x81, 0, 0]),
    ];
    // time passes, and nothing else
    let passing: &[(u64, u32, &[u8])] = &[(4999, 1, &[5]), (5000, 1, &[5])];
    let letter =
        |on| move |(gap, cid, rest): &(u64, u32, &[u8])| (*gap, on, hosts::packet(*cid, rest));
    let main = each.iter().map(letter(Main));
    let vendor = each.iter().map(letter(Vendor));
    main.chain(vendor)
        .chain(passing.iter().map(letter(Main)))
        .collect()
}
