//! Made-up hosts, and what they send to an interface. All of it comes from a seed. Where a list of vendor commands is given,
//! half of the commands are about it.
use crate::compare::LAST_TIME;
use crate::definition::{BROADCAST, VENDOR};
use crate::ours::{CtapHid, MainHid, MessageAssembler};
use crate::random::Random;
use opensk::ctap::hid::HidPacket;
use std::collections::VecDeque;

/// Both sides of every boundary of a length.
const LENGTHS: [usize; 25] = [
    0, 1, 2, 6, 7, 8, 9, 16, 17, 18, 56, 57, 58, 59, 60, 115, 116, 117, 118, 175, 176, 1024, 7608,
    7609, 7610,
];

pub const GAPS: [u64; 22] = [
    1, 1, 2, 10, 49, 50, 98, 99, 99, 100, 100, 101, 500, 999, 1000, 1001, 4999, 5000, 5001, 9999,
    10000, 10001,
];

/// For a run: the largest message.
pub fn maximum(random: &mut Random) -> usize {
    let any = random.below(7610);
    random.of(&[
        7609, 7609, 7609, 7609, 7608, 1024, 118, 117, 116, 59, 58, 57, 56, 17, 16, 9, 8, 7, 1, 0,
        any, any, any,
    ])
}

/// For a run: how many channels are allocated.
pub fn count(random: &mut Random) -> u32 {
    random.of(&[
        0,
        0,
        1,
        2,
        2,
        3,
        300,
        0x0100_0000,
        0xffff_fffb,
        0xffff_fffc,
        0xffff_fffd,
        0xffff_fffe,
    ])
}

fn vendor(random: &mut Random) -> u8 {
    match random.below(4) {
        0 => random.of(&[64, 127]),
        _ => VENDOR.start() + random.below(64) as u8,
    }
}

/// Vendor commands: none, one, several in any order and some more than once, or all, once or more.
pub fn list(random: &mut Random) -> Vec<u8> {
    match random.below(8) {
        0 => vec![],
        1..4 => vec![vendor(random)],
        4..7 => {
            let mut list = vec![vendor(random)];
            for _ in 0..1 + random.below(20) {
                let again = random.of(&list);
                let other = vendor(random);
                list.push(if random.one_in(3) { again } else { other });
            }
            list
        }
        _ => {
            let mut list: Vec<u8> = VENDOR.collect();
            if random.one_in(3) {
                list = list.repeat(1 + random.below(5));
            }
            for at in (1..list.len()).rev() {
                list.swap(at, random.below(at + 1));
            }
            list
        }
    }
}

/// For set-up: a maximum, which may be refused.
pub fn any_maximum(random: &mut Random) -> usize {
    let any = random.below(9000);
    random.of(&[
        0,
        57,
        7608,
        7609,
        7610,
        7611,
        65_536 + 57,
        (1 << 32) + 57,
        usize::MAX,
        any,
        any,
        any,
    ])
}

/// For set-up: a list. In every other one a number stands that isn't the vendor's.
pub fn any_list(random: &mut Random) -> Vec<u8> {
    let mut list = list(random);
    if random.one_in(2) {
        let any = random.next() as u8;
        let foreign = random.of(&[63, 63, 128, 128, 0, 1, 16, 62, 129, 192, 255, any]);
        list.insert(random.below(list.len() + 1), foreign);
    }
    list
}

/// A state of any contents.
pub fn any_state(random: &mut Random) -> MainHid {
    let mut number = || random.next() << 32 ^ random.next();
    MainHid {
        hid: CtapHid {
            assembler: MessageAssembler {
                deadline: number(),
                cid: number() as u32,
                len: number() as u32,
                taken: number() as u32,
                cmd: number() as u16,
                seq: number() as u16,
            },
            lock: number(),
            last: number(),
            vendor: number(),
            allocated: number() as u32,
            locked: number() as u32,
            max: number() as u32,
            u2f: number() as u8,
            spare: number() as u8,
            still_due: number() as u16,
        },
        wink: number(),
    }
}

pub fn start(random: &mut Random) -> u64 {
    match random.below(8) {
        0 => LAST_TIME - random.below(200_000) as u64,
        1 => (1 << 32) - random.below(2000) as u64,
        _ => random.below(1000) as u64,
    }
}

pub fn answer(random: &mut Random) -> usize {
    match random.below(40) {
        0 => random.of(&[7605, 7606, 7607, 7608, 7609, 7610, 7611, 8000, 20_000]),
        _ => random.of(&[0, 1, 2, 3, 54, 55, 56, 57, 58, 59, 115, 116, 117]),
    }
}

fn length(random: &mut Random, cmd: u8, max: usize) -> usize {
    match cmd {
        6 => random.of(&[8, 8, 8, 8, 8, 8, 7, 9, 0, 57, 58, 60]),
        4 => random.of(&[1, 1, 1, 1, 1, 0, 2, 58]),
        8 => random.of(&[0, 0, 0, 1, 58]),
        _ => match random.below(8) {
            0 if random.one_in(4) => random.below(7612),
            0 => random.below(400),
            1 => random.of(&[max, max + 1, max.saturating_sub(1), 65_535]),
            2..4 => random.of(&LENGTHS),
            _ => random.of(&LENGTHS[..21]),
        },
    }
}

fn command(random: &mut Random, list: Option<&[u8]>) -> u8 {
    match list {
        Some(list) if random.one_in(2) => near(random, list),
        _ => any_command(random),
    }
}

/// One of the list or beside one of it, at an end of the vendor's numbers, or any of them.
fn near(random: &mut Random, list: &[u8]) -> u8 {
    match random.below(8) {
        0..3 if !list.is_empty() => random.of(list),
        3 if !list.is_empty() => (random.of(list) - 1 + random.of(&[0, 2])) & 127,
        4 => random.of(&[62, 63, 64, 127]),
        _ => vendor(random),
    }
}

/// KEEPALIVE, ERROR, and numbers that are nobody's or the vendor's.
const UNKNOWN: [u8; 7] = [59, 63, 0, 2, 5, 64, 127];

fn any_command(random: &mut Random) -> u8 {
    match random.below(60) {
        0..3 => random.below(128) as u8,
        3..22 => random.of(&UNKNOWN),
        _ => random.of(&[1, 1, 1, 3, 3, 4, 4, 6, 6, 8, 8, 16, 16, 17]),
    }
}

/// A packet after the state that it will find: what goes on, and what nearly does.
pub fn wild(random: &mut Random, hid: &CtapHid, list: Option<&[u8]>, time: &mut u64) -> HidPacket {
    if random.one_in(4) {
        *time += random.of(&GAPS);
    }
    // at once before, at or past a deadline
    if random.one_in(30) {
        let deadline = random.of(&[hid.assembler.deadline, hid.lock]);
        *time = (deadline + random.of(&[0, 1, 2]))
            .saturating_sub(1)
            .max(*time);
    }
    *time = (*time).min(LAST_TIME);
    let mut packet = [0; 64];
    random.fill(&mut packet);
    let count = hid.allocated;
    let a = &hid.assembler;
    let mut cid = random.of(&[
        BROADCAST,
        BROADCAST,
        0,
        1,
        1,
        1,
        2,
        2,
        count,
        count.wrapping_add(1),
        0xffff_fffe,
        0x0100_0000,
        hid.locked,
        hid.locked,
        a.cid,
    ]);
    // of one that is over, more is to be seen by first packets
    let others = if *time < a.deadline { 7 } else { 2 };
    if a.len > 0 && !random.one_in(others) {
        cid = a.cid;
        packet[4] = a.seq as u8;
        if random.one_in(12) {
            let seq = a.seq as u8;
            packet[4] = random.of(&[
                0,
                1,
                seq + 1,
                seq.wrapping_sub(1),
                127,
                0x91,
                0x86,
                0x81,
                0x82,
            ]);
            if let (0x81, Some(list)) = (packet[4], list) {
                packet[4] = 128 | near(random, list);
            }
            if packet[4] == 0x82 {
                let cmd = random.of(&UNKNOWN);
                let len = length(random, cmd, hid.max as usize);
                packet[4] = 128 | cmd;
                packet[5..7].copy_from_slice(&(len as u16).to_be_bytes());
            }
            if packet[4] == 0x86 {
                packet[5..7].copy_from_slice(&[0, 8]);
            }
        }
        if random.one_in(20) {
            cid = random.of(&[1, 2, BROADCAST, 0]);
        }
    } else if random.one_in(6) {
        packet[4] &= 127;
    } else {
        let cmd = command(random, list);
        let len = length(random, cmd, hid.max as usize);
        packet[4] = 128 | cmd;
        packet[5..7].copy_from_slice(&(len as u16).to_be_bytes());
        if cmd == 4 {
            packet[7] = random.of(&[0, 1, 1, 1, 2, 9, 10, 11, 12, 255]);
        }
    }
    packet[..4].copy_from_slice(&cid.to_be_bytes());
    packet
}

/// Hosts that each send whole messages, in turns; some of them badly.
pub struct Hosts {
    hosts: Vec<Host>,
    /// Which one sends, mostly until its message is through.
    turn: usize,
}

struct Host {
    cid: u32,
    bad: bool,
    /// Sends all of a message that was turned away.
    stubborn: bool,
    queue: VecDeque<HidPacket>,
}

impl Hosts {
    pub fn new(random: &mut Random) -> Self {
        let hosts = (0..1 + random.below(4))
            .map(|_| Host {
                cid: BROADCAST,
                bad: random.one_in(3),
                stubborn: random.one_in(3),
                queue: VecDeque::new(),
            })
            .collect();
        Hosts { hosts, turn: 0 }
    }

    pub fn packet(
        &mut self,
        random: &mut Random,
        hid: &CtapHid,
        list: Option<&[u8]>,
        time: &mut u64,
    ) -> HidPacket {
        if random.one_in(30) {
            *time += random.of(&GAPS);
        } else if random.one_in(3) {
            *time += random.below(12) as u64;
        }
        *time = (*time).min(LAST_TIME);
        if self.hosts[self.turn].queue.is_empty() || random.one_in(25) {
            self.turn = random.below(self.hosts.len());
        }
        let host = &mut self.hosts[self.turn];
        let is_on = hid.assembler.len > 0 && hid.assembler.cid == host.cid;
        let goes_on = host.queue.front().is_some_and(|packet| packet[4] < 128);
        if goes_on && !is_on && !host.stubborn && random.one_in(4) {
            host.queue.clear();
        }
        if host.queue.is_empty() {
            // a host without a channel asks for one; it will be the next
            if host.cid == BROADCAST && hid.allocated != 0 && random.one_in(2) {
                host.cid = hid.allocated;
            }
            let cmd = match host.cid {
                BROADCAST => 6,
                _ => command(random, list),
            };
            let len = length(random, cmd, hid.max as usize);
            host.queue = message(random, host.cid, cmd, len);
        }
        let mut packet = host.queue.pop_front().unwrap();
        if host.bad && random.one_in(6) {
            match random.below(5) {
                0 => host.queue.push_front(packet),
                1 => _ = host.queue.pop_front(),
                2 => packet[4] = packet[4].wrapping_add(1),
                3 => packet[random.below(8)] ^= 1 << random.below(8),
                _ => host.queue.clear(),
            }
        }
        packet
    }
}

/// A host's own packets, by the standard's rule.
pub fn message(random: &mut Random, cid: u32, cmd: u8, len: usize) -> VecDeque<HidPacket> {
    let mut payload = vec![0; len];
    random.fill(&mut payload);
    if cmd == 4 && len > 0 {
        payload[0] = random.of(&[0, 0, 1, 1, 2, 10, 11]);
    }
    let mut all = VecDeque::new();
    let mut rest = &payload[..];
    let mut number = 0;
    while all.is_empty() || !rest.is_empty() {
        let mut packet = [0; 64];
        packet[..4].copy_from_slice(&cid.to_be_bytes());
        let from = if all.is_empty() {
            packet[4] = 128 | cmd;
            packet[5..7].copy_from_slice(&(len as u16).to_be_bytes());
            7
        } else {
            packet[4] = number & 127;
            number = number.wrapping_add(1);
            5
        };
        let now = rest.len().min(64 - from);
        packet[from..from + now].copy_from_slice(&rest[..now]);
        rest = &rest[now..];
        all.push_back(packet);
    }
    all
}

/// A channel, and what stands behind it.
pub fn packet(cid: u32, rest: &[u8]) -> HidPacket {
    let mut packet = [0; 64];
    packet[..4].copy_from_slice(&cid.to_be_bytes());
    packet[4..4 + rest.len()].copy_from_slice(rest);
    packet
}

/// On channel 1, each of the 128 commands: a message of 1 byte, one of 58, and a first packet that declares 118.
pub fn each_command() -> impl Iterator<Item = HidPacket> {
    (128..=255).flat_map(|cmd| {
        [[cmd, 0, 1], [cmd, 0, 58], [0, 0, 0], [cmd, 0, 118]].map(|rest| packet(1, &rest))
    })
}
