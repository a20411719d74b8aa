//! How often each clause of the rules was met.
use crate::definition::{BROADCAST, INIT};
use crate::ours::{Call, Wait, WaitOutcome, ending};

/// What came, in a step that is neither refused nor over nor canceled.
const CAME: [&str; 8] = [
    "nothing",
    "another channel",
    "its number on another interface",
    "another channel of another interface",
    "broadcast",
    "its own channel: INIT",
    "its own channel: continuation 17",
    "its own channel: others",
];

#[derive(Default)]
pub struct Counts {
    /// By what came, and by what the sensor said: no touch so far, touched, failed.
    steps: [[u64; 3]; 8],
    /// By what the sensor said.
    canceled: [u64; 3],
    over: u64,
    /// By 1; by 4, for a time that is past the last; by 4, for one that goes back.
    refused: [u64; 3],
    /// Answers of the question: no, yes, refused.
    pub elapsed: [u64; 3],
    /// Beginnings: taken, refused.
    pub begun: [u64; 2],
}

impl Counts {
    /// A step of a wait as it came, and what the rules answer.
    pub fn step(&mut self, wait: &Wait, call: &Call, outcome: &WaitOutcome) {
        let sensor = call.presence.min(2) as usize;
        match (outcome.ending, outcome.refusal) {
            (ending::REFUSED, 1) => self.refused[0] += 1,
            (ending::REFUSED, _) => self.refused[1 + (call.time < wait.last) as usize] += 1,
            (ending::TIMED_OUT, _) => self.over += 1,
            (ending::CANCELED, _) => self.canceled[sensor] += 1,
            _ => self.steps[came(wait, call)][sensor] += 1,
        }
    }

    /// All that OpenSK has, or all.
    pub fn is_any_empty(&self, all: bool) -> bool {
        let mut counts = self.steps.concat();
        counts.extend(self.canceled);
        counts.push(self.over);
        counts.extend(&self.elapsed[..2]);
        counts.push(self.begun[0]);
        if all {
            counts.extend(self.refused);
            counts.extend([self.elapsed[2], self.begun[1]]);
        }
        counts.contains(&0)
    }

    pub fn say(&self) {
        for (came, [timeout, touched, failed]) in CAME.iter().zip(self.steps) {
            println!("    {came}: {timeout} KEEPALIVE, {touched} touched, {failed} failed");
        }
        let [timeout, touched, failed] = self.canceled;
        println!(
            "    CANCEL: {timeout} without a touch, {touched} touched, {failed} failed; the time over: {}",
            self.over
        );
        let [size, past, back] = self.refused;
        if size + past + back > 0 {
            println!(
                "    refused: {size} by 1, {past} by 4 as past the last time, {back} by 4 as going back"
            );
        }
        println!(
            "    elapsed: {} no, {} yes, {} refused; begun: {}, refused {}",
            self.elapsed[0], self.elapsed[1], self.elapsed[2], self.begun[0], self.begun[1]
        );
    }
}

fn came(wait: &Wait, call: &Call) -> usize {
    if !call.arrived {
        return 0;
    }
    let cid = u32::from_be_bytes(call.packet[..4].try_into().unwrap());
    match (call.interface == wait.interface, cid == wait.cid) {
        (true, true) => match call.packet[4] {
            INIT => 5,
            0x11 => 6,
            _ => 7,
        },
        (false, true) => 2,
        _ if cid == BROADCAST => 4,
        (true, false) => 1,
        (false, false) => 3,
    }
}
