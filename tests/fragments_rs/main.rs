//! Bluetooth fragments, by our library's three entries and by rules that are written by hand, on the same messages and losses.
//!   fragments [--seed N] [--fragments N] [--longest N] [--fault NAME] [--random]
//! All that is small enough is tried in full (every.rs), the N longest payloads among it; then random messages are written and sent
//! on a way with losses, until N fragments are read. --fault plants a fault in a stand-in for our library, or none; --random leaves
//! out what is tried in full. Exits with 1 where two differ, and where in a million random fragments a clause is met too seldom.
mod border;
mod counts;
mod definition;
mod every;
mod faults;
mod lent;
mod made_up;
mod ours;
mod pair;
#[path = "../../oracle/workspace/host/src/bin/diff/random.rs"]
mod random;
mod stand_in;
mod traffic;

use counts::{Counts, Entry};
use faults::FAULTS;
use pair::Pair;
use random::Random;
use std::process::exit;
use traffic::{POOL, Traffic};

struct Wanted {
    seed: u64,
    fragments: u64,
    longest: usize,
    fault: Option<&'static str>,
    is_random_alone: bool,
}

struct Driver {
    wanted: Wanted,
    pair: Pair,
    random: Random,
    pool: Vec<u8>,
    /// Of all parts that were run.
    total: Counts,
}

fn main() {
    let wanted = arguments();
    let mut random = Random::new(wanted.seed);
    let mut pool = vec![0; POOL];
    random.fill(&mut pool);
    let mut driver = Driver {
        pair: Pair::new(wanted.fault, &mut random),
        wanted,
        random,
        pool,
        total: Counts::default(),
    };
    if driver.wanted.is_random_alone {
        driver.random_messages();
    } else {
        driver.run();
    }
    let total = &driver.total;
    println!(
        "{} fragments read, {} written, {} counts, {} messages, {} refusals: as the rules have them",
        total.calls(Entry::Read),
        total.calls(Entry::Write),
        total.calls(Entry::Count),
        total.messages,
        total.refusals()
    );
}

impl Driver {
    fn run(&mut self) {
        let single = every::single_fragments(&mut self.pair, &mut self.random);
        self.end("single fragments", single);
        let short = every::short_messages(&mut self.pair, &mut self.random, &self.pool);
        self.end("short messages", short);
        // what takes long comes late, as a fault is mostly found before
        self.random_messages();
        let longest = self.wanted.longest;
        let long = every::long_messages(&mut self.pair, &mut self.random, &self.pool, longest);
        self.end("long messages", long);
        let counts = every::counts(&mut self.pair);
        self.end("counts", counts);
    }

    fn random_messages(&mut self) {
        let fragments = self.wanted.fragments;
        let mut traffic = Traffic::new(Random::new(self.wanted.seed), &self.pool);
        let mut result = Ok(());
        while result.is_ok() && self.pair.counts.calls(Entry::Read) < fragments {
            result = traffic.next(&mut self.pair);
        }
        // of fewer nothing can be said
        if result.is_ok() && fragments >= 1_000_000 {
            is_enough(&self.pair.counts, fragments / 10_000);
        }
        self.end("random messages", result);
    }

    /// Of one part, whose calls are counted from its first on.
    fn end(&mut self, part: &str, result: Result<(), String>) {
        let counts = std::mem::take(&mut self.pair.counts);
        if let Err(what) = result {
            let (call, seed) = (counts.all_calls(), self.wanted.seed);
            println!("DIFFERENCE in {part}, call {call} of seed {seed}: {what}");
            exit(1);
        }
        self.total.add(&counts);
    }
}

fn is_enough(counts: &Counts, least: u64) {
    println!("of the random messages:");
    counts.say();
    if let Some(rare) = counts.rarest(least) {
        println!("TOO SELDOM, of at least {least}: {rare}");
        exit(1);
    }
}

fn arguments() -> Wanted {
    let mut wanted = Wanted {
        seed: 1,
        fragments: 1_000_000,
        longest: 536,
        fault: None,
        is_random_alone: false,
    };
    let mut args = std::env::args().skip(1);
    while let Some(arg) = args.next() {
        let mut number = || args.next().and_then(|n| n.parse().ok());
        match arg.as_str() {
            "--seed" => wanted.seed = number().unwrap_or_else(|| usage()),
            "--fragments" => wanted.fragments = number().unwrap_or_else(|| usage()),
            "--longest" => wanted.longest = number().unwrap_or_else(|| usage()) as usize,
            "--random" => wanted.is_random_alone = true,
            "--fault" => {
                let name = args.next().unwrap_or_else(|| usage());
                let found = FAULTS.iter().chain(&["none"]).find(|f| **f == name);
                wanted.fault = Some(found.unwrap_or_else(|| usage()));
            }
            _ => usage(),
        }
    }
    wanted
}

fn usage() -> ! {
    eprintln!(
        "usage: fragments [--seed N] [--fragments N] [--longest N] [--fault NAME] [--random]"
    );
    eprintln!("faults: none {}", FAULTS.join(" "));
    exit(2)
}
