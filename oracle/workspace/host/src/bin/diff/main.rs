//! Runs OpenSK's transport and ours on the same packets and compares them after every step.
//!   diff [--seed N] [--steps N] [--depth N] [--lists N] [--fault NAME] [--answers]
//!   diff [--seed N] (--lines N | --runs N)
//! --depth N runs all sequences of up to N letters; --steps N runs N random steps. --lists N runs set-ups, and N random
//! steps, with lists of vendor commands, which OpenSK hasn't, and compares them with the definition (definition.rs). --fault
//! plants a fault in a stand-in for our library; --answers leaves states and buffers uncompared. Exits with 1
//! where the two differ, after the shortest run that it can find.
//! --lines N and --runs N print N lines of such traffic instead, for bench.rs and crates/replay.
mod allowance;
mod compare;
mod definition;
mod hosts;
mod inputs;
mod lent;
mod ours;
mod pair;
mod random;
mod shortest;
mod traffic;

use compare::U2F;
use definition::{FAULTS, VENDOR};
use hosts::Hosts;
use ours::{ECHO, MESSAGE, NOTHING};
use pair::{Pair, Setup, Step};
use random::Random;
use shortest::{hex, shortest};
use std::process::exit;
use std::sync::Arc;

struct Driver {
    seed: u64,
    fault: &'static str,
    answers_only: bool,
    answers: Arc<Vec<u8>>,
    done: u64,
    /// Answers of the device: nothing, messages, echoes, other replies, and errors by number; and of the messages the
    /// vendor commands.
    kinds: [u64; 4],
    errors: [u64; 12],
    vendor: u64,
    /// Steps that were allowed for.
    allowed: u64,
}

fn main() {
    let mut seed = 1;
    let mut steps = 0;
    let mut depth = 0;
    let mut lists = 0;
    let mut fault = "";
    let mut answers_only = false;
    let mut lines = 0;
    let mut runs = 0;
    let mut args = std::env::args().skip(1);
    while let Some(arg) = args.next() {
        let mut number = || args.next().and_then(|n| n.parse().ok());
        match arg.as_str() {
            "--seed" => seed = number().unwrap_or_else(|| usage()),
            "--steps" => steps = number().unwrap_or_else(|| usage()),
            "--depth" => depth = number().unwrap_or_else(|| usage()) as u32,
            "--lists" => lists = number().unwrap_or_else(|| usage()),
            "--answers" => answers_only = true,
            "--lines" => lines = number().unwrap_or_else(|| usage()),
            "--runs" => runs = number().unwrap_or_else(|| usage()),
            "--fault" => {
                let name = args.next().unwrap_or_else(|| usage());
                let found = FAULTS.iter().chain(&["none"]).find(|f| **f == name);
                fault = found.unwrap_or_else(|| usage());
            }
            _ => usage(),
        }
    }
    let driver = || Driver {
        seed,
        fault,
        answers_only,
        answers: Arc::new((0..20_000).map(|i| (i % 251) as u8).collect()),
        done: 0,
        kinds: [0; 4],
        errors: [0; 12],
        vendor: 0,
        allowed: 0,
    };
    let (mut driver, mut listed) = (driver(), driver());
    if lines + runs > 0 {
        inputs::bench(&driver, lines)
            .and_then(|()| inputs::runs(&driver, runs))
            .expect("written");
        return;
    }
    let messages = driver.senders_and_readers();
    let sequences = driver.exhaustive(depth);
    let exhaustive = driver.done;
    let allowed = driver.allowed;
    driver.random(steps, false);
    let refusals = listed.with_lists(lists);
    println!(
        "{} U2F, seed {seed}: {messages} messages split and read, {sequences} sequences ({exhaustive} steps), \
         {} random steps: no difference",
        if U2F { "with" } else { "without" },
        driver.done - exhaustive
    );
    println!(
        "  allowed for were {allowed} steps of the sequences and {} random ones: unknown commands, told at once",
        driver.allowed - allowed
    );
    driver.say_answers();
    if lists > 0 {
        println!(
            "  with lists of vendor commands: {} set-ups, {} steps: as the definition says",
            refusals.iter().sum::<u64>(),
            listed.done
        );
        listed.say_answers();
        println!(
            "  handed over were {} vendor commands; {} set-ups were refused by 5, {} by 13",
            listed.vendor, refusals[5], refusals[13]
        );
    }
}

fn usage() -> ! {
    eprintln!(
        "usage: diff [--seed N] [--steps N] [--depth N] [--lists N] [--fault NAME] [--answers]"
    );
    eprintln!("       diff [--seed N] (--lines N | --runs N)");
    eprintln!("faults: none {}", FAULTS.join(" "));
    exit(2)
}

impl Driver {
    /// Every length from 0 past the largest, and every value of a packet's fifth byte.
    fn senders_and_readers(&self) -> usize {
        let long = 7700;
        let commands = [1, 3, 4, 6, 8, 16, 17, 59, 63];
        for len in (0..=long).chain([8191, 8192, 20_000]) {
            let cmd = commands[len % 9];
            let cid = (len as u32).wrapping_mul(0x0123_4567);
            let sent = pair::send(cid, cmd, &self.answers[..len], self.fault);
            self.alone(format!("a message of {len} bytes"), sent);
            let made = pair::ready_made(cid, self.fault);
            self.alone(format!("KEEPALIVE or busy on {cid:08x}"), made);
        }
        let mut random = Random::new(self.seed);
        for fifth in 0..=255 {
            for _ in 0..64 {
                let packet = std::array::from_fn(|i| match i {
                    4 => fifth,
                    _ => random.next() as u8,
                });
                self.alone(hex(&packet), pair::read(&packet, self.fault));
            }
        }
        long + 4
    }

    fn alone(&self, input: String, result: Result<(), String>) {
        if let Err(what) = result {
            println!("DIFFERENCE before any step, {input}: {what}");
            exit(1);
        }
    }

    fn pair(&self, setup: &Setup) -> Pair {
        Pair::new(setup, self.fault, self.answers_only, &self.answers)
    }

    fn exhaustive(&mut self, depth: u32) -> u64 {
        if depth > 0 {
            self.each_command(None);
        }
        let letters = traffic::letters();
        let n = letters.len() as u64;
        let mut sequences = 0;
        let restarts = depth.saturating_sub(1);
        for (allocated, depth) in [(2, depth), (0xffff_fffe, restarts), (0xffff_fffd, restarts)] {
            let setup = Setup {
                max: 117,
                allocated,
                slack: 3,
                scribble: 0xee,
                list: None,
            };
            // the longest alone: each shorter one is the front of one of them
            if depth == 0 {
                continue;
            }
            for which in 0..n.pow(depth) {
                let mut pair = self.pair(&setup);
                let mut steps = vec![];
                let mut time = 0;
                let mut rest = which;
                for _ in 0..depth {
                    let (gap, disabled, packet) = letters[(rest % n) as usize];
                    rest /= n;
                    time += gap;
                    steps.push(Step {
                        time,
                        disabled,
                        packet,
                        answer: 3,
                    });
                    self.step(&mut pair, &setup, &steps);
                }
            }
            sequences += n.pow(depth);
        }
        sequences
    }

    /// Set-ups and steps with lists of vendor commands: each command, where it stands on the list alone and where it alone
    /// is missing; and random ones. Tells how many set-ups had each refusal, or none.
    fn with_lists(&mut self, steps: u64) -> [u64; 14] {
        let mut refusals = [0; 14];
        if steps == 0 {
            return refusals;
        }
        let mut random = Random::new(self.seed);
        for at in 1..=steps.div_ceil(10) {
            let (max, list, came) = traffic::set_up(&mut random);
            match pair::set_up(max, &list, came, self.fault, self.answers_only) {
                Ok(refusal) => refusals[refusal as usize] += 1,
                Err(what) => {
                    println!("DIFFERENCE at set-up {at} of seed {}: {what}", self.seed);
                    println!("a maximum of {max}, and the list {list:?}");
                    exit(1);
                }
            }
        }
        for number in VENDOR {
            self.each_command(Some(vec![number]));
            self.each_command(Some(VENDOR.filter(|other| *other != number).collect()));
        }
        self.random(steps, true);
        refusals
    }

    /// With each of the 128 commands; what it declares at last is too much.
    fn each_command(&mut self, list: Option<Vec<u8>>) {
        let setup = Setup {
            max: 117,
            allocated: 2,
            slack: 3,
            scribble: 0xee,
            list,
        };
        let mut pair = self.pair(&setup);
        let mut run = vec![];
        for packet in hosts::each_command() {
            run.push(Step {
                time: 0,
                disabled: false,
                packet,
                answer: 0,
            });
            self.step(&mut pair, &setup, &run);
        }
    }

    fn random(&mut self, steps: u64, with_lists: bool) {
        let mut random = Random::new(self.seed);
        let end = self.done + steps;
        while self.done < end {
            let mut setup = traffic::setup(&mut random);
            if with_lists {
                setup.list = Some(hosts::list(&mut random));
            }
            let list = setup.list.as_deref();
            let mut time = hosts::start(&mut random);
            let mut hosts = Hosts::new(&mut random);
            let wild = random.one_in(2);
            let mut pair = self.pair(&setup);
            let mut run = vec![];
            let len = if wild { 200 } else { 400 };
            while run.len() < len && self.done < end {
                let (hosts, state) = (&mut hosts, pair.state());
                run.push(traffic::step(
                    &mut random,
                    hosts,
                    wild,
                    state,
                    list,
                    &mut time,
                ));
                self.step(&mut pair, &setup, &run);
            }
            if !wild {
                for _ in 0..2 {
                    let copy = traffic::damaged(&mut random, &run);
                    let mut pair = self.pair(&setup);
                    for at in 0..copy.len() {
                        if self.done == end {
                            return;
                        }
                        self.step(&mut pair, &setup, &copy[..=at]);
                    }
                }
            }
        }
    }

    /// The last step of a run, of which the pair has the others behind it.
    fn step(&mut self, pair: &mut Pair, setup: &Setup, run: &[Step]) {
        self.done += 1;
        match pair.step(run.last().unwrap()) {
            Err(what) => self.found(setup, run, what),
            Ok(outcome) => match outcome.kind {
                NOTHING => self.kinds[0] += 1,
                MESSAGE => {
                    self.kinds[1] += 1;
                    self.vendor += VENDOR.contains(&outcome.cmd) as u64;
                }
                ECHO => self.kinds[2] += 1,
                _ => self.kinds[3] += 1,
            },
        }
        if let Some(error) = pair.error() {
            self.errors[error as usize] += 1;
        }
        self.allowed += pair.was_allowed_for() as u64;
    }

    fn say_answers(&self) {
        let [nothing, handed, echoes, replies] = self.kinds;
        println!(
            "  answers: {nothing} nothing, {handed} handed over, {echoes} echoes, {replies} other replies; \
             errors by number {:?}",
            self.errors
        );
    }

    /// What differs first in a run, and after how many steps.
    fn difference(&self, setup: &Setup, run: &[Step]) -> Option<(usize, String)> {
        let mut pair = self.pair(setup);
        run.iter()
            .enumerate()
            .find_map(|(at, step)| pair.step(step).err().map(|what| (at + 1, what)))
    }

    fn found(&self, setup: &Setup, run: &[Step], what: String) -> ! {
        println!(
            "DIFFERENCE at step {}{} of seed {}: {what}",
            self.done,
            if setup.list.is_some() {
                " with lists"
            } else {
                ""
            },
            self.seed
        );
        let run = shortest(run, |less| self.difference(setup, less).map(|(len, _)| len));
        let (_, what) = self.difference(setup, &run).unwrap();
        println!("the shortest run found has {} steps: {what}", run.len());
        println!("{setup:?}, {} U2F", if U2F { "with" } else { "without" });
        for step in run {
            println!(
                "{} {} {} answer {}",
                step.time,
                step.disabled as u8,
                hex(&step.packet),
                step.answer
            );
        }
        exit(1)
    }
}
