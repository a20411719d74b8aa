//! The traffic as lines: for the bench program, and for crates/replay.
use crate::Driver;
use crate::compare::U2F;
use crate::hosts::{self, Hosts};
use crate::pair::{Pair, Setup, Step};
use crate::random::Random;
use crate::shortest::hex;
use crate::traffic;
use std::io::{BufWriter, Result, Write, stdout};

/// One device from its set-up, as the bench program has it. One line in eight is not of its form, or
/// has a time that is refused.
pub fn bench(driver: &Driver, lines: u64) -> Result<()> {
    let mut random = Random::new(driver.seed);
    let setup = Setup {
        max: 7609,
        allocated: 0,
        slack: 0,
        scribble: 0,
        list: None,
    };
    let mut run = Run::new(driver, &setup, &mut random);
    let mut out = BufWriter::new(stdout().lock());
    for at in 0..lines {
        let line = match random.below(16) {
            0 => {
                let good = run.next(driver, &mut random);
                malformed(&mut random, line(&good))
            }
            1 => untimely(&mut random, &run),
            _ => line(&run.taken(driver, &mut random)),
        };
        out.write_all(&line)?;
        // the last line of every other seed has no newline
        if at + 1 < lines || driver.seed % 2 == 0 {
            out.write_all(b"\n")?;
        }
    }
    out.flush()
}

/// Runs of up to 100 lines, each after the line that sets its device up.
pub fn runs(driver: &Driver, lines: u64) -> Result<()> {
    let mut random = Random::new(driver.seed);
    let mut out = BufWriter::new(stdout().lock());
    let mut left = lines;
    while left > 0 {
        let setup = traffic::setup(&mut random);
        let count = setup.allocated;
        writeln!(out, "={} {} {count:08x}", setup.max, U2F as u8)?;
        let mut run = Run::new(driver, &setup, &mut random);
        for _ in 0..left.min(100) {
            run.thin = !random.one_in(8);
            let line = match random.below(50) {
                0 => untimely(&mut random, &run),
                _ => line(&run.taken(driver, &mut random)),
            };
            out.write_all(&line)?;
            out.write_all(b"\n")?;
            left -= 1;
        }
    }
    out.flush()
}

struct Run {
    pair: Pair,
    hosts: Hosts,
    time: u64,
    wild: bool,
    /// Data bytes are 0 but for the first few, so that the lines are short.
    thin: bool,
}

impl Run {
    fn new(driver: &Driver, setup: &Setup, random: &mut Random) -> Self {
        Run {
            pair: driver.pair(setup),
            hosts: Hosts::new(random),
            time: hosts::start(random),
            wild: false,
            thin: false,
        }
    }

    fn next(&mut self, driver: &Driver, random: &mut Random) -> Step {
        if random.one_in(40) {
            self.wild = !self.wild;
            // hosts that have gone are followed by others
            self.hosts = Hosts::new(random);
        }
        let state = self.pair.state();
        let mut time = self.time;
        let mut step = traffic::step(random, &mut self.hosts, self.wild, state, None, &mut time);
        if self.thin {
            step.packet[10..].fill(0);
        }
        // the longest answers are for diff alone
        step.answer = step.answer.min(driver.answers.len());
        step
    }

    fn taken(&mut self, driver: &Driver, random: &mut Random) -> Step {
        let step = self.next(driver, random);
        self.time = step.time;
        if let Err(what) = self.pair.step(&step) {
            panic!("{what}");
        }
        step
    }
}

fn line(step: &Step) -> Vec<u8> {
    format!(
        "{} {} {}",
        step.time,
        step.disabled as u8,
        hex(&step.packet)
    )
    .into_bytes()
}

/// A time before the last one, or past the last there is.
fn untimely(random: &mut Random, run: &Run) -> Vec<u8> {
    let time = match run.time {
        0 => 1 << 48,
        time if random.one_in(2) => time - 1,
        _ => random.of(&[1 << 48, (1 << 48) + 1, 999_999_999_999_999]),
    };
    format!("{time} 0 ffffffff8600080102030405060708").into_bytes()
}

fn malformed(random: &mut Random, good: Vec<u8>) -> Vec<u8> {
    let mut line = good;
    let spaces: Vec<usize> = (0..line.len()).filter(|at| line[*at] == b' ').collect();
    let (first, second) = (spaces[0], spaces[1]);
    match random.below(18) {
        0 => line.clear(),
        1 => line.push(b'\r'),
        2 => line.push(b' '),
        3 => line.insert(0, b' '),
        4 => line.insert(first, b' '),
        5 => line.insert(second, b' '),
        6 => line[first] = b'\t',
        7 => line[first + 1] = random.of(b"23456789x"),
        8 => line.truncate(second + 1),
        9 => line.truncate(second),
        10 => _ = line.pop(),
        11 => line[second + 1] = random.of(b"ABCDEFgG/:`@"),
        12 => {
            let at = random.below(line.len());
            line[at] = random.next() as u8 | 128;
        }
        13 => {
            let zeros = 16 - first;
            line.splice(0..0, std::iter::repeat_n(b'0', zeros));
        }
        14 => line.extend(std::iter::repeat_n(b'0', 130)),
        15 => line.extend(std::iter::repeat_n(b'0', 200_000)),
        16 => line.insert(0, random.of(b"+-")),
        _ => {
            let at = random.below(line.len());
            line[at] = 0;
        }
    }
    // a newline among the bytes would be two lines
    line.retain(|byte| *byte != b'\n');
    line
}
