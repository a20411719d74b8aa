//! Runs a key with two interfaces, OpenSK's and ours, on the same packets, and compares them after every step.
//!   interfaces [--seed N] [--steps N] [--depth N] [--calls N] [--fault NAME] [--opensk]
//! --depth N runs all sequences of N letters; --steps N runs N random steps. --calls N makes calls that OpenSK has nothing like, and
//! compares them with the rules (definition.rs): N random steps with lists of vendor commands, N calls of records that are bent, and a tenth
//! as many set-ups. --fault plants a fault in a stand-in for our library; --opensk leaves the rules uncompared. Exits with 1 where two
//! differ, after the shortest run that it can find, and where in a million steps or calls a clause is never met.
#[path = "../diff/allowance.rs"]
mod allowance;
mod calls;
#[path = "../diff/compare.rs"]
mod compare;
mod counts;
mod definition;
mod fields;
#[path = "../diff/hosts.rs"]
mod hosts;
#[path = "../diff/lent.rs"]
mod lent;
mod ours;
mod pair;
#[path = "../diff/random.rs"]
mod random;
#[path = "../diff/shortest.rs"]
mod shortest;
#[path = "../diff/definition.rs"]
#[allow(dead_code)]
mod single;
mod theirs;
mod traffic;

use compare::U2F;
use counts::Counts;
use definition::{FAULTS, VENDOR};
use opensk::Transport;
use ours::Settings;
use pair::{Met, Pair, Setup, Step, WHOLE};
use random::Random;
use shortest::{hex, shortest};
use std::process::exit;
use std::sync::Arc;
use traffic::Run;

struct Driver {
    seed: u64,
    fault: &'static str,
    with_rules: bool,
    answers: Arc<Vec<u8>>,
    /// Steps, and calls between them that were refused.
    done: u64,
    refused: u64,
    /// Steps that were allowed for.
    allowed: u64,
    counts: Counts,
}

fn main() {
    let mut seed = 1;
    let mut steps = 0;
    let mut depth = 0;
    let mut calls = 0;
    let mut fault = "";
    let mut with_rules = true;
    let mut args = std::env::args().skip(1);
    while let Some(arg) = args.next() {
        let mut number = || args.next().and_then(|n| n.parse().ok());
        match arg.as_str() {
            "--seed" => seed = number().unwrap_or_else(|| usage()),
            "--steps" => steps = number().unwrap_or_else(|| usage()),
            "--depth" => depth = number().unwrap_or_else(|| usage()) as u32,
            "--calls" => calls = number().unwrap_or_else(|| usage()),
            "--opensk" => with_rules = false,
            "--fault" => {
                let name = args.next().unwrap_or_else(|| usage());
                let found = FAULTS.iter().chain(&["none"]).find(|f| **f == name);
                fault = found.unwrap_or_else(|| usage());
            }
            _ => usage(),
        }
    }
    let driver = || Driver {
        seed,
        fault,
        with_rules,
        answers: Arc::new((0..20_000).map(|i| (i % 251) as u8).collect()),
        done: 0,
        refused: 0,
        allowed: 0,
        counts: Counts::default(),
    };
    let (mut driver, mut listed) = (driver(), driver());
    let sequences = driver.exhaustive(depth);
    let (exhaustive, allowed) = (driver.done, driver.allowed);
    driver.counts = Counts::default();
    driver.random(steps, true, |_, _| ());
    let calls = if with_rules { calls } else { 0 };
    let set_ups = listed.set_ups(calls.div_ceil(10));
    let bent = listed.with_lists(calls);

    println!(
        "{} U2F, seed {seed}: {sequences} sequences ({exhaustive} steps), {} random steps: no difference",
        if U2F { "with" } else { "without" },
        driver.done - exhaustive
    );
    println!(
        "  allowed for were {allowed} steps of the sequences and {} random ones: unknown commands, told at once",
        driver.allowed - allowed
    );
    if with_rules {
        println!(
            "  between the random ones {} calls were refused: as the rules have them",
            driver.refused
        );
    }
    println!("  random steps, by what they met:");
    driver.counts.say();
    check(driver.counts.is_any_empty(false), steps);
    if calls > 0 {
        println!(
            "  {} set-ups, {} steps with lists, {} calls of bent records: as the rules have them",
            set_ups.iter().sum::<u64>(),
            listed.done,
            bent.sum()
        );
        println!(
            "    set-ups refused: {} by 5, {} by 13",
            set_ups[5], set_ups[13]
        );
        println!("  calls of bent records:");
        bent.say();
        println!("  steps with lists, by what they met:");
        listed.counts.say();
        check(
            listed.counts.is_any_empty(true) || bent.is_any_empty(),
            calls,
        );
    }
}

/// That no clause is empty, where enough was run to say so.
fn check(is_any_empty: bool, run: u64) {
    if run >= 1_000_000 && is_any_empty {
        println!("DIFFERENCE: a clause is never met");
        exit(1);
    }
}

fn usage() -> ! {
    eprintln!(
        "usage: interfaces [--seed N] [--steps N] [--depth N] [--calls N] [--fault NAME] [--opensk]"
    );
    eprintln!("faults: none {}", FAULTS.join(" "));
    exit(2)
}

impl Driver {
    fn pair(&self, setup: &Setup) -> Pair {
        Pair::new(setup, self.fault, self.with_rules, &self.answers)
    }

    fn exhaustive(&mut self, depth: u32) -> u64 {
        if depth == 0 {
            return 0;
        }
        self.each_command(vec![], true);
        let letters = traffic::letters();
        let n = letters.len() as u64;
        let mut sequences = 0;
        let restarts = depth - 1;
        for (counts, depth) in [
            ([2, 2], depth),
            ([0xffff_fffe, 2], restarts),
            ([2, 0xffff_fffe], restarts),
        ] {
            // the longest alone: each shorter one is the front of one of them
            let setup = setup(vec![], counts, true);
            for which in 0..n.pow(depth) {
                let mut pair = self.pair(&setup);
                let mut run = vec![];
                let mut time = 0;
                let mut rest = which;
                for _ in 0..depth {
                    let (gap, on, packet) = letters[(rest % n) as usize];
                    rest /= n;
                    time += gap;
                    run.push(Step {
                        on,
                        time,
                        packet,
                        answer: 3,
                        lent: WHOLE,
                    });
                    self.step(&mut pair, &setup, &run);
                }
            }
            sequences += n.pow(depth);
        }
        sequences
    }

    /// On each interface, with each of the 128 commands.
    fn each_command(&mut self, commands: Vec<u8>, with_opensk: bool) {
        let setup = setup(commands, [2, 2], with_opensk);
        let mut pair = self.pair(&setup);
        let mut run = vec![];
        for on in [Transport::MainHid, Transport::VendorHid] {
            for packet in hosts::each_command() {
                run.push(Step {
                    on,
                    time: 0,
                    packet,
                    answer: 0,
                    lent: WHOLE,
                });
                self.step(&mut pair, &setup, &run);
            }
        }
    }

    /// Random steps; after each, what is to be done with it.
    fn random(&mut self, steps: u64, with_opensk: bool, mut then: impl FnMut(&mut Random, &Pair)) {
        let mut random = Random::new(self.seed);
        let end = self.done + steps;
        while self.done < end {
            let setup = traffic::setup(&mut random, with_opensk);
            let list = (!with_opensk).then_some(&setup.settings.commands[..]);
            let mut traffic = Run::new(&mut random);
            let mut pair = self.pair(&setup);
            let mut run = vec![];
            while run.len() < 400 && self.done < end {
                run.push(traffic.step(&mut random, &pair, list));
                self.step(&mut pair, &setup, &run);
                then(&mut random, &pair);
            }
        }
    }

    /// Set-ups over records of any contents. Tells how many had each refusal, or none.
    fn set_ups(&self, count: u64) -> [u64; 14] {
        let mut random = Random::new(self.seed);
        let mut refusals = [0; 14];
        for at in 1..=count {
            let (with, came) = traffic::set_up(&mut random);
            match pair::set_up(&with, &came, self.fault) {
                Ok(refusal) => refusals[refusal as usize] += 1,
                Err(what) => {
                    println!("DIFFERENCE at set-up {at} of seed {}: {what}", self.seed);
                    println!("{with:?}");
                    exit(1);
                }
            }
        }
        refusals
    }

    /// Steps with lists of vendor commands: each command, where it stands on the list alone and where it alone is missing; and
    /// random ones, after each of which a call is made of the record as it is then, bent.
    fn with_lists(&mut self, calls: u64) -> calls::Counts {
        let mut counts = calls::Counts::default();
        if calls == 0 {
            return counts;
        }
        for number in VENDOR {
            self.each_command(vec![number], false);
            self.each_command(VENDOR.filter(|other| *other != number).collect(), false);
        }
        let (seed, fault) = (self.seed, self.fault);
        let mut at = 0;
        self.random(calls, false, |random, pair| {
            at += 1;
            if let Err((called, what)) = calls::call(random, &pair.key(), fault, &mut counts) {
                println!("DIFFERENCE at call {at} of seed {seed}: {what}");
                println!("{called:x?}");
                exit(1);
            }
        });
        counts
    }

    /// The last step of a run, of which the pair has the others behind it.
    fn step(&mut self, pair: &mut Pair, setup: &Setup, run: &[Step]) {
        match pair.step(run.last().unwrap(), &mut self.counts) {
            Err(what) => self.found(setup, run, what),
            Ok(Met::Refused) => self.refused += 1,
            Ok(met) => {
                self.done += 1;
                self.allowed += (met == Met::AllowedFor) as u64;
            }
        }
    }

    /// What differs first in a run, and after how many steps.
    fn difference(&self, setup: &Setup, run: &[Step]) -> Option<(usize, String)> {
        let mut pair = self.pair(setup);
        let mut counts = Counts::default();
        run.iter().enumerate().find_map(|(at, step)| {
            let differs = pair.step(step, &mut counts).err();
            differs.map(|what| (at + 1, what))
        })
    }

    fn found(&self, setup: &Setup, run: &[Step], what: String) -> ! {
        let with = if setup.with_opensk { "" } else { " with lists" };
        println!(
            "DIFFERENCE at step {}{with} of seed {}: {what}",
            self.done + self.refused + 1,
            self.seed
        );
        let run = shortest(run, |less| self.difference(setup, less).map(|(len, _)| len));
        let (_, what) = self.difference(setup, &run).unwrap();
        println!("the shortest run found has {} steps: {what}", run.len());
        println!("{setup:?}");
        for step in run {
            println!(
                "{} {:?} {} answer {} {:?}",
                step.time,
                step.on,
                hex(&step.packet),
                step.answer,
                step.lent
            );
        }
        exit(1)
    }
}

/// For what is not random: maxima of 117 and 60.
fn setup(commands: Vec<u8>, counts: [u32; 2], with_opensk: bool) -> Setup {
    Setup {
        settings: Settings {
            maxima: [117, 60],
            u2f: U2F,
            commands,
        },
        counts,
        slack: 3,
        scribble: 0xee,
        with_opensk,
    }
}
