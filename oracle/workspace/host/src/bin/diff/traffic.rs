//! Made-up traffic for a transport and a device. All of it comes from a seed.
use crate::compare::LAST_TIME;
use crate::definition::BROADCAST;
use crate::hosts::{self, GAPS, Hosts};
use crate::ours::{CtapHid, MainHid};
use crate::pair::{Setup, Step};
use crate::random::Random;
use opensk::ctap::hid::HidPacket;

pub fn setup(random: &mut Random) -> Setup {
    Setup {
        max: hosts::maximum(random),
        allocated: hosts::count(random),
        slack: random.of(&[0, 0, 1, 47]),
        scribble: random.next() as u8,
        list: None,
    }
}

/// For set-up: a maximum, a list, and the state before.
pub fn set_up(random: &mut Random) -> (usize, Vec<u8>, MainHid) {
    let max = hosts::any_maximum(random);
    let list = hosts::any_list(random);
    (max, list, hosts::any_state(random))
}

/// The next step of a run: wild, or a host's.
pub fn step(
    random: &mut Random,
    hosts: &mut Hosts,
    wild: bool,
    hid: &CtapHid,
    list: Option<&[u8]>,
    time: &mut u64,
) -> Step {
    let (packet, most) = match wild {
        true => (hosts::wild(random, hid, list, time), 25),
        false => (hosts.packet(random, hid, list, time), 200),
    };
    Step {
        time: *time,
        disabled: random.one_in(most),
        packet,
        answer: hosts::answer(random),
    }
}

/// A copy with a few damages.
pub fn damaged(random: &mut Random, good: &[Step]) -> Vec<Step> {
    let mut steps = good.to_vec();
    for _ in 0..1 + random.below(4) {
        if steps.len() < 2 {
            break;
        }
        let at = random.below(steps.len() - 1);
        match random.below(7) {
            0 => _ = steps.remove(at),
            1 => steps.insert(at, steps[at].clone()),
            2 => {
                let packet = steps[at].packet;
                steps[at].packet = steps[at + 1].packet;
                steps[at + 1].packet = packet;
            }
            3 => steps[at].packet[random.below(8)] ^= 1 << random.below(8),
            4 => steps[at].packet[random.below(64)] = random.next() as u8,
            5 => steps[at].disabled = !steps[at].disabled,
            _ => {
                let gap = random.of(&GAPS);
                for step in &mut steps[at..] {
                    step.time = (step.time + gap).min(LAST_TIME);
                }
            }
        }
    }
    steps
}

/// The letters of the exhaustive set: time to pass first, transport disabled, and the packet. For a
/// maximum of 117; channels 1 and 2 are allocated.
pub fn letters() -> Vec<(u64, bool, HidPacket)> {
    let all: &[(u64, u32, &[u8])] = &[
        // broadcast
        (0, BROADCAST, &[0x86, 0, 8, 1, 2, 3, 4, 5, 6, 7, 8]),
        (0, BROADCAST, &[0x86, 0, 60]),
        (0, BROADCAST, &[0]),
        (0, BROADCAST, &[0x81, 0, 0]),
        // every command on channel 1
        (0, 1, &[0x86, 0, 8, 9, 9]),
        (0, 1, &[0x86, 0, 58]),
        (0, 1, &[0x81, 0, 0]),
        (0, 1, &[0x81, 0, 57, 1]),
        (0, 1, &[0x81, 0, 58, 2]),
        (0, 1, &[0x81, 0, 118]),
        (0, 1, &[0x83, 0, 1, 3]),
        (0, 1, &[0x83, 0, 116]),
        (0, 1, &[0x84, 0, 1, 0]),
        (0, 1, &[0x84, 0, 1, 1]),
        (0, 1, &[0x84, 0, 1, 10]),
        (0, 1, &[0x84, 0, 1, 11]),
        (0, 1, &[0x84, 0, 2, 1]),
        (0, 1, &[0x88, 0, 0]),
        (0, 1, &[0x88, 0, 1]),
        (0, 1, &[0x90, 0, 1, 4]),
        (0, 1, &[0x90, 0, 117, 5]),
        (0, 1, &[0x91, 0, 0]),
        (0, 1, &[0xbb, 0, 1]),
        (100, 1, &[0xbf, 0, 117]),
        (0, 1, &[0x82, 0, 118]),
        (0, 1, &[0xc0, 0, 58]),
        // continuations, and the edges of time
        (0, 1, &[0, 6]),
        (99, 1, &[0, 6]),
        (100, 1, &[0, 6]),
        (101, 1, &[0, 6]),
        (0, 1, &[1, 7]),
        (99, 1, &[1, 7]),
        (100, 1, &[1, 7]),
        (0, 1, &[127]),
        (4999, 1, &[5]),
        (5000, 1, &[5]),
        // another channel
        (0, 2, &[0x81, 0, 58]),
        (0, 2, &[0]),
        (1, 2, &[0]),
        (0, 2, &[0x84, 0, 1, 1]),
        (100, 2, &[0x81, 0, 0]),
        (999, 2, &[0x81, 0, 0]),
        (1000, 2, &[0x81, 0, 0]),
        // channels that are not there
        (0, 0, &[0x82, 0, 58]),
        (0, 0, &[0]),
        (0, 3, &[0x81, 0, 0]),
        (0, 3, &[0]),
    ];
    let off: &[(u64, u32, &[u8])] = &[
        (0, BROADCAST, &[0x86, 0, 8]),
        (0, 1, &[0xc0, 0, 58]),
        (0, 1, &[0]),
    ];
    let letter = |disabled: bool, (gap, cid, rest): &(u64, u32, &[u8])| {
        (*gap, disabled, hosts::packet(*cid, rest))
    };
    let on = all.iter().map(|l| letter(false, l));
    on.chain(off.iter().map(|l| letter(true, l))).collect()
}
