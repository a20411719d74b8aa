//! Calls of records of any contents: one that a run has brought about, of which a number is bent, or both locks; or numbers of any kind. What
//! makes no sense is refused; what still does is stepped on from there.
use crate::compare::LAST_TIME;
use crate::definition::BROADCAST;
use crate::fields::{FIELDS, Field};
use crate::hosts;
use crate::lent::Lent;
use crate::ours::{Call, Key, sides};
use crate::pair;
use crate::random::Random;
use crate::traffic;
use opensk::Transport;

/// How many calls had each refusal or none, and how many records each number has made unsound; the last two are both locks, and all numbers.
#[derive(Default)]
pub struct Counts {
    refusals: [u64; 5],
    unsound: [u64; FIELDS.len() + 2],
}

/// What is called, for who wants to see it.
#[derive(Debug)]
#[allow(dead_code)]
pub struct Called {
    bent: &'static str,
    key: Key,
    on: Transport,
    time: u64,
    packet: Vec<u8>,
    message: usize,
    reply: usize,
}

/// Around what a number is, and around what it is compared with.
fn bent(random: &mut Random, key: &Key, was: u64) -> u64 {
    let last = key.main.hid.last;
    let shift = random.below(64);
    let any = (random.next() << 32 ^ random.next()) >> shift;
    let mark = random.of(&[
        was,
        was,
        was,
        0,
        last,
        last.wrapping_add(100),
        last.wrapping_add(5_000),
        last.wrapping_add(10_000),
        57,
        116,
        127,
        7_609,
        0xffff_fffe,
        LAST_TIME,
        BROADCAST as u64,
        any,
    ]);
    mark.wrapping_add(random.of(&[0, 1, 1, u64::MAX]))
}

/// Both interfaces have a lock, of channels that are allocated. Those that end at the last time don't run.
fn lock_both(random: &mut Random, key: &mut Key) {
    let last = key.main.hid.last;
    let mut end = || last + random.of(&[0, 0, 1, 1, 1_000, 10_000, 10_001]);
    (key.main.hid.lock, key.vendor.lock) = (end(), end());
    let Key { main, vendor } = key;
    main.hid.allocated = main.hid.allocated.max(1);
    vendor.allocated = vendor.allocated.max(1);
    main.hid.locked = random.of(&[1, main.hid.allocated]);
    vendor.locked = random.of(&[1, vendor.allocated]);
}

/// A record that is bent, by the number of what bends it.
fn bend(random: &mut Random, key: &Key) -> (usize, Key) {
    let mut key = *key;
    match random.below(16) {
        0 => {
            key = traffic::any_key(random);
            // for both there is a buffer that is large enough
            (key.main.hid.max, key.vendor.max) =
                (random.below(7_700) as u32, random.below(7_700) as u32);
            (FIELDS.len() + 1, key)
        }
        1..4 => {
            lock_both(random, &mut key);
            (FIELDS.len(), key)
        }
        _ => {
            let at = random.below(FIELDS.len());
            let Field { get, set, .. } = FIELDS[at];
            let number = bent(random, &key, get(&key));
            set(&mut key, number);
            (at, key)
        }
    }
}

/// A call of a bent record, which is compared. The packet is one for the record as it was. Where it differs, what was called is told too.
pub fn call(
    random: &mut Random,
    was: &Key,
    fault: &'static str,
    counts: &mut Counts,
) -> Result<(), (Called, String)> {
    let (at, key) = bend(random, was);
    let on = random.of(&[Transport::MainHid, Transport::VendorHid]);
    let mut time = was.main.hid.last;
    let side = &sides(was)[on as usize];
    let packet = hosts::wild(random, side, None, &mut time);
    if random.one_in(6) {
        time = traffic::untimely(random, key.main.hid.last);
    }
    let max = (sides(&key)[on as usize].max as usize).min(7_700);
    let size = match random.below(12) {
        0 => max.saturating_sub(1),
        1 => max + 3,
        _ => max,
    };
    let mut message = Lent::new(size);
    message.scribble(0, random.next() as u8);
    let reply = Lent::new(match random.below(12) {
        0 => random.of(&[0, 16]),
        1 => 20,
        _ => 17,
    });
    let packet = match random.one_in(12) {
        true => &packet[..random.below(64)],
        false => &packet[..],
    };
    let call = Call { on, time, packet };
    match pair::call(&key, &call, &message, &reply, fault) {
        Ok(refusal) => {
            counts.refusals[refusal as usize] += 1;
            counts.unsound[at] += (refusal == 3) as u64;
            Ok(())
        }
        Err(what) => {
            let names = FIELDS.iter().map(|field| field.name);
            let called = Called {
                bent: names.chain(["both locks", "all numbers"]).nth(at).unwrap(),
                key,
                on,
                time,
                packet: packet.to_vec(),
                message: size,
                reply: reply.front(usize::MAX).len(),
            };
            Err((called, what))
        }
    }
}

impl Counts {
    pub fn sum(&self) -> u64 {
        self.refusals.iter().sum()
    }

    pub fn is_any_empty(&self) -> bool {
        let judged = FIELDS.iter().map(|field| field.is_judged);
        let unsound = self.unsound.iter().zip(judged.chain([true, true]));
        self.refusals.contains(&0)
            || unsound
                .into_iter()
                .any(|(count, is_judged)| (*count > 0) != is_judged)
    }

    pub fn say(&self) {
        let [none, size, buffers, unsound, time] = self.refusals;
        println!(
            "    refused: {size} by 1, {buffers} by 2, {unsound} by 3, {time} by 4; {none} were not"
        );
        let judged = FIELDS
            .iter()
            .zip(self.unsound)
            .filter(|(field, _)| field.is_judged);
        let (field, least) = judged.min_by_key(|(_, count)| *count).unwrap();
        println!(
            "    unsound: {} by both locks, {} by all numbers; by a number alone at least {least}, that is {}",
            self.unsound[FIELDS.len()],
            self.unsound[FIELDS.len() + 1],
            field.name
        );
    }
}
