//! Random calls of our three entries, for what OpenSK has nothing like: any limit, any interfaces, times that are refused, packets
//! of any size, waits of any contents.
use crate::definition::{BROADCAST, CANCEL, INIT, LAST_TIME};
use crate::ours::{Beginning, Call, Wait};
use crate::pair::Pair;
use crate::random::Random;

/// What is called, for who wants to see it.
#[derive(Debug)]
#[allow(dead_code)]
pub enum Called {
    Begin(Beginning),
    Elapsed(u64),
    Step {
        time: u64,
        presence: u8,
        error: u8,
        arrived: bool,
        interface: u32,
        packet: Vec<u8>,
    },
}

const LIMITS: [u32; 12] = [
    0,
    0,
    1,
    2,
    100,
    29_999,
    30_000,
    65_535,
    65_536,
    1 << 31,
    u32::MAX,
    u32::MAX,
];

/// Of any size.
fn any(random: &mut Random) -> u64 {
    let shift = random.below(64);
    (random.next() << 32 ^ random.next()) >> shift
}

/// A wait of any contents.
pub fn contents(random: &mut Random) -> Wait {
    let number = any(random);
    let last = random.of(&[0, LAST_TIME, LAST_TIME + 1, u64::MAX, number]);
    let last = random.of(&[last, number & LAST_TIME, number & LAST_TIME]);
    let after = random.of(&[0, 1, 100, 30_000, u32::MAX as u64]);
    let number = any(random);
    let before = last.wrapping_sub(1);
    let cid = any(random) as u32;
    Wait {
        deadline: random.of(&[before, last.wrapping_add(after), u64::MAX, 0, number]),
        last,
        interface: any(random) as u32,
        cid: random.of(&[0, 1, BROADCAST, cid]),
    }
}

/// Around all that a time is compared with.
fn time(random: &mut Random, wait: &Wait) -> u64 {
    let number = any(random);
    let soon = wait.last.wrapping_add(random.below(300) as u64);
    let (last, deadline) = (wait.last, wait.deadline);
    let mark = random.of(&[
        last, last, soon, soon, soon, soon, deadline, deadline, LAST_TIME, number,
    ]);
    mark.wrapping_add(random.of(&[0, 0, 0, 1, 1, u64::MAX, 1 << 32]))
}

/// The same as a number, one that has another bit, or any.
fn like(random: &mut Random, number: u32) -> u32 {
    let another = any(random) as u32;
    let by_bit = number ^ 1 << random.below(32);
    random.of(&[number, number, by_bit, another])
}

/// A call, which is compared. Where it differs, what was called is told too.
pub fn call(random: &mut Random, pair: &mut Pair, wait: &mut Wait) -> Result<(), (Called, String)> {
    let time = time(random, wait);
    let interface = like(random, wait.interface);
    let cid = like(random, wait.cid);
    let cid = random.of(&[cid, cid, cid, cid, BROADCAST, 0]);
    match random.below(8) {
        0 => {
            let limit = any(random) as u32;
            let limit = match random.one_in(4) {
                true => limit,
                false => random.of(&LIMITS),
            };
            let with = Beginning {
                interface,
                cid,
                time,
                limit,
            };
            let called = |what| (Called::Begin(with), what);
            pair.begin(wait, &with).map(drop).map_err(called)
        }
        1 | 2 => {
            let called = |what| (Called::Elapsed(time), what);
            pair.elapsed(wait, time).map(drop).map_err(called)
        }
        _ => {
            let mut bytes = [0; 65];
            random.fill(&mut bytes);
            bytes[..4].copy_from_slice(&cid.to_be_bytes());
            bytes[4] = random.of(&[CANCEL, CANCEL, 0x11, INIT, 0, bytes[4], bytes[4]]);
            if random.one_in(3) {
                bytes[5..7].fill(0);
            }
            let size = random.below(65);
            let size = random.of(&[64, 64, 64, 64, 64, 64, 65, 63, 0, size]);
            let presence = random.next() as u8;
            let call = Call {
                time,
                presence: random.of(&[0, 0, 0, 1, 1, 2, 3, 255, presence]),
                error: random.next() as u8,
                arrived: !random.one_in(4),
                interface,
                packet: &bytes[..size],
            };
            pair.step(wait, &call).map(drop).map_err(|what| {
                let Call {
                    time,
                    presence,
                    error,
                    arrived,
                    interface,
                    ..
                } = call;
                let packet = call.packet.to_vec();
                let called = Called::Step {
                    time,
                    presence,
                    error,
                    arrived,
                    interface,
                    packet,
                };
                (called, what)
            })
        }
    }
}
