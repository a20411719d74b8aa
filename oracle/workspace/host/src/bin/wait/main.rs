//! Waits for a touch, by OpenSK's own two functions and by ours, on the same packets, touches and times.
//!   wait [--seed N] [--steps N] [--depth N] [--calls N] [--fault NAME] [--opensk]
//! --depth N runs steps alone, and then waits of all sequences of N letters; --steps N runs random waits, of at least N steps.
//! --calls N makes N random calls, with what OpenSK has nothing like among them, and compares them with the rules
//! (definition.rs). --fault plants a fault in a stand-in for our library; --opensk leaves the rules uncompared. Exits with 1
//! where two differ, after the shortest wait that it can find, and where in a million steps or calls a clause is never met.
mod calls;
mod counts;
mod definition;
mod env;
mod ours;
mod pair;
#[path = "../diff/random.rs"]
mod random;
#[path = "../diff/shortest.rs"]
mod shortest;
mod traffic;

use counts::Counts;
use definition::{BROADCAST, FAULTS};
use env::{Moment, Trouble};
use opensk::api::connection::UsbEndpoint::{MainHid, VendorHid};
use opensk::ctap::status_code::Ctap2StatusCode;
use pair::{Ended, Pair};
use random::Random;
use shortest::{hex, shortest};
use std::process::exit;
use traffic::{Maker, Setup};

/// What OpenSK's wait can end with, where nothing fails in the key.
const RESULTS: [Ctap2StatusCode; 4] = [
    Ctap2StatusCode::CTAP2_OK,
    Ctap2StatusCode::CTAP2_ERR_USER_ACTION_TIMEOUT,
    Ctap2StatusCode::CTAP2_ERR_KEEPALIVE_CANCEL,
    Ctap2StatusCode::CTAP2_ERR_OPERATION_DENIED,
];

struct Driver {
    seed: u64,
    fault: &'static str,
    with_rules: bool,
    pair: Pair,
    /// Steps of OpenSK's, and whole waits.
    steps: u64,
    waits: u64,
    /// What kind of waits is run, and how many had been before.
    kind: (&'static str, u64),
    /// Waits by their result, and those with another.
    ends: [u64; 5],
}

fn main() {
    let mut seed = 1;
    let mut steps = 0;
    let mut depth = 0;
    let mut calls = 0;
    let mut fault = "";
    let mut with_rules = true;
    let mut args = std::env::args().skip(1);
    while let Some(arg) = args.next() {
        let mut number = || args.next().and_then(|n| n.parse().ok());
        match arg.as_str() {
            "--seed" => seed = number().unwrap_or_else(|| usage()),
            "--steps" => steps = number().unwrap_or_else(|| usage()),
            "--depth" => depth = number().unwrap_or_else(|| usage()) as u32,
            "--calls" => calls = number().unwrap_or_else(|| usage()),
            "--opensk" => with_rules = false,
            "--fault" => {
                let name = args.next().unwrap_or_else(|| usage());
                let found = FAULTS.iter().chain(&["none"]).find(|f| **f == name);
                fault = found.unwrap_or_else(|| usage());
            }
            _ => usage(),
        }
    }
    let mut driver = Driver {
        seed,
        fault,
        with_rules,
        pair: Pair::new(fault, with_rules),
        steps: 0,
        waits: 0,
        kind: ("", 0),
        ends: [0; 5],
    };
    let alone = if depth > 0 { driver.alone() } else { 0 };
    driver.exhaustive(depth);
    let (sequences, exhaustive) = (driver.waits, driver.steps - alone);
    driver.random(steps);
    let counts = std::mem::take(&mut driver.pair.counts);
    driver.calls(calls);
    driver.known();

    println!(
        "seed {seed}: {alone} steps alone; all sequences of {depth} letters: {sequences} waits, {exhaustive} steps; \
         random: {} waits, {} steps",
        driver.waits - sequences,
        driver.steps - alone - exhaustive
    );
    let [touched, timeout, cancel, denied, others] = driver.ends;
    println!(
        "  waits by their result: {touched} touched, {timeout} USER_ACTION_TIMEOUT, {cancel} KEEPALIVE_CANCEL, \
         {denied} OPERATION_DENIED, {others} others"
    );
    println!("  steps of ours by what came, those of each wait twice:");
    counts.say();
    check(&counts, steps, false);
    if calls > 0 && with_rules {
        println!("  steps among the calls, by what came:");
        driver.pair.counts.say();
        check(&driver.pair.counts, calls, true);
        println!("{calls} calls: as the rules have them");
    }
    println!(
        "{} waits, {} steps: no difference",
        driver.waits, driver.steps
    );
}

/// That no clause is empty, where enough was run to say so.
fn check(counts: &Counts, run: u64, all: bool) {
    if run >= 1_000_000 && counts.is_any_empty(all) {
        println!("DIFFERENCE: a clause is never met");
        exit(1);
    }
}

fn usage() -> ! {
    eprintln!(
        "usage: wait [--seed N] [--steps N] [--depth N] [--calls N] [--fault NAME] [--opensk]"
    );
    eprintln!("faults: none {}", FAULTS.join(" "));
    exit(2)
}

impl Driver {
    /// Steps alone, of requests on either interface.
    fn alone(&mut self) -> u64 {
        let mut random = Random::new(self.seed);
        for endpoint in [MainHid, VendorHid] {
            for cid in [1, 0x0102_0304, 0, BROADCAST] {
                for arrived in traffic::arrivals(cid) {
                    for presence in traffic::PRESENCES {
                        let setup = Setup {
                            endpoint,
                            cid,
                            ..traffic::setup(&mut random)
                        };
                        let moment = Moment {
                            gap: random.below(30_000) as u64,
                            presence,
                            arrived,
                            trouble: Trouble::None,
                        };
                        self.steps += 1;
                        if let Err(what) = self.pair.alone(&setup, &moment) {
                            println!("DIFFERENCE at step {} alone: {what}", self.steps);
                            println!("{setup:x?}");
                            say(&moment);
                            exit(1);
                        }
                    }
                }
            }
        }
        self.steps
    }

    /// All sequences of letters. A wait that ends before the last stands for all that begin as it does.
    fn exhaustive(&mut self, depth: u32) {
        if depth == 0 {
            return;
        }
        self.kind = ("sequence", self.waits);
        for endpoint in [MainHid, VendorHid] {
            let setup = Setup {
                endpoint,
                cid: 1,
                start: 0,
                interfaces: [1, 2],
            };
            let letters = traffic::letters(&setup);
            let n = letters.len() as u64;
            let mut which = 0;
            while which < n.pow(depth) {
                let place = |at| n.pow(depth - 1 - at);
                let key = self.pair.key();
                key.moments.clear();
                key.moments
                    .extend((0..depth).map(|at| letters[(which / place(at) % n) as usize]));
                let ended = self.wait(&setup);
                // where the time is over, a letter's time is met, and the rest of it by the loop that doesn't ask
                let over = Ctap2StatusCode::CTAP2_ERR_USER_ACTION_TIMEOUT as u8;
                let met = ended.asked + (ended.code == over) as usize;
                let last = place(met.clamp(1, depth as usize) as u32 - 1);
                which += last - which % last;
            }
        }
    }

    fn random(&mut self, steps: u64) {
        let mut random = Random::new(self.seed);
        let end = self.steps + steps;
        self.kind = ("random wait", self.waits);
        while self.steps < end {
            let setup = traffic::setup(&mut random);
            let key = self.pair.key();
            key.moments.clear();
            key.maker = Some(Maker::new(&mut random, &setup));
            self.wait(&setup);
        }
    }

    fn wait(&mut self, setup: &Setup) -> Ended {
        self.waits += 1;
        match self.pair.wait(setup) {
            Err(what) => self.found(setup, what),
            Ok(ended) => {
                self.steps += ended.asked as u64;
                let at = RESULTS.iter().position(|code| *code as u8 == ended.code);
                self.ends[at.unwrap_or(RESULTS.len())] += 1;
                ended
            }
        }
    }

    fn calls(&mut self, calls: u64) {
        if !self.with_rules {
            return;
        }
        let mut random = Random::new(self.seed);
        let mut wait = calls::contents(&mut random);
        for at in 1..=calls {
            if random.one_in(8) {
                wait = calls::contents(&mut random);
            }
            let came = wait;
            if let Err((called, what)) = calls::call(&mut random, &mut self.pair, &mut wait) {
                println!("DIFFERENCE at call {at} of seed {}: {what}", self.seed);
                println!("{came:x?}\n{called:x?}");
                exit(1);
            }
        }
    }

    /// What is known to differ: OpenSK takes an error of the key that has this number for no touch so far, and goes on.
    fn known(&mut self) {
        let number = Ctap2StatusCode::CTAP2_ERR_USER_ACTION_TIMEOUT;
        for (trouble, sent) in [(Trouble::Waiting(number), 0), (Trouble::Sending(number), 1)] {
            let [opensk, bindings] = self.pair.after(trouble);
            if opensk != (0, 2, sent) || bindings != (number as u8, 1, sent) {
                println!(
                    "DIFFERENCE of another kind than is known, {trouble:?}: {opensk:?}, {bindings:?}"
                );
                exit(1);
            }
        }
    }

    fn found(&mut self, setup: &Setup, what: String) -> ! {
        let (kind, before) = self.kind;
        println!(
            "DIFFERENCE at {kind} {} of seed {}: {what}",
            self.waits - before,
            self.seed
        );
        let moments = self.pair.key().moments.clone();
        let differs = |less: &[Moment]| self.difference(setup, less).map(|_| less.len());
        let run = shortest(&moments, differs);
        let what = self.difference(setup, &run).unwrap_or(what);
        println!("the shortest wait found has {} moments: {what}", run.len());
        println!("{setup:x?}");
        run.iter().for_each(say);
        exit(1)
    }

    fn difference(&self, setup: &Setup, run: &[Moment]) -> Option<String> {
        let mut pair = Pair::new(self.fault, self.with_rules);
        pair.key().moments = run.to_vec();
        pair.wait(setup).err()
    }
}

fn say(moment: &Moment) {
    print!("after {} ms: {:?}", moment.gap, moment.presence);
    if let Some((endpoint, packet)) = &moment.arrived {
        print!(", {endpoint:?} {}", hex(packet));
    }
    match moment.trouble {
        Trouble::None => println!(),
        trouble => println!(", fails: {trouble:?}"),
    }
}
