//! How often each clause was met, on main and on vendor.
use crate::definition::{BROADCAST, VENDOR, other};
use crate::ours::{Call, CtapHid, ECHO, Key, MESSAGE, NOTHING, Outcome, REFUSED, REPLY, sides};

/// By what the other interface's lock does, by the messages on their way, by the wink, and by what is handed over. The last one takes a list,
/// which OpenSK hasn't.
const MET: [&str; 17] = [
    "turned away by the other's lock",
    "so: broadcast INIT",
    "so: the holder's number",
    "so: LOCK",
    "so: inside a message of its own",
    "so: in the lock's last millisecond",
    "so: while a wink runs",
    "served when the other's lock ends",
    "taken into a message while the other has one on its way",
    "so: of the same number",
    "WINK without data",
    "WINK with data",
    "a reply while a wink runs",
    "nothing while a wink runs",
    "MSG handed over, or turned away for want of U2F",
    "CBOR handed over",
    "a vendor command handed over",
];

#[derive(Default)]
pub struct Counts {
    met: [[u64; 2]; MET.len()],
    /// Answers: nothing, messages, echoes, other replies; and errors by number.
    kinds: [[u64; 4]; 2],
    errors: [[u64; 12]; 2],
    refused: [[u64; 5]; 2],
}

impl Counts {
    /// A step of a key as it came, and what the rules answer; `said` is the first byte of a reply.
    pub fn step(&mut self, key: &Key, call: &Call, outcome: &Outcome, said: u8) {
        let Call { on, time, packet } = *call;
        let at = on as usize;
        let kind = match outcome.kind {
            REFUSED => return self.refused[at][outcome.refusal as usize] += 1,
            NOTHING => 0,
            MESSAGE => 1,
            ECHO => 2,
            _ => 3,
        };
        self.kinds[at][kind] += 1;
        let error = match (outcome.kind, outcome.cmd) {
            (REPLY, 63) => said,
            _ => 0,
        };
        self.errors[at][error as usize] += (error != 0) as u64;

        let own = sides(key)[at];
        let theirs = sides(key)[other(on) as usize];
        let cid = u32::from_be_bytes(packet[..4].try_into().unwrap());
        let has_wink = time < key.main.wink;
        let is_on = |side: &CtapHid| side.assembler.len > 0 && time < side.assembler.deadline;
        let is_inside = is_on(&own) && own.assembler.cid == cid;
        let is_away = error == 6 && time < theirs.lock;
        let is_served = error != 6 && error != 11;
        let is_first = packet[4] >= 128;
        let is_taken = kind == 0 && if is_first { !is_on(&own) } else { is_inside };
        let are_two = is_taken && is_on(&theirs);
        // a message of one packet
        let is = |cmd: u8| {
            let is_whole = packet[4] == 128 | cmd && packet[5] == 0 && packet[6] <= 57;
            is_whole && !is_on(&own) && is_served
        };
        let is_handed = outcome.kind == MESSAGE;
        let met = [
            is_away,
            is_away && cid == BROADCAST,
            is_away && cid == theirs.locked,
            is_away && packet[4] == 0x84,
            is_away && is_inside,
            is_away && time + 1 == theirs.lock,
            is_away && has_wink,
            kind != 0 && is_served && time == theirs.lock && time > 0,
            are_two,
            are_two && cid == theirs.assembler.cid,
            is(8) && packet[6] == 0,
            is(8) && packet[6] > 0,
            kind != 0 && has_wink,
            kind == 0 && has_wink,
            is(3) && error != 3,
            is_handed && outcome.cmd == 16,
            is_handed && VENDOR.contains(&outcome.cmd),
        ];
        for (count, is_met) in self.met.iter_mut().zip(met) {
            count[at] += is_met as u64;
        }
    }

    /// All that OpenSK has, or all.
    pub fn is_any_empty(&self, all: bool) -> bool {
        let clauses = MET.len() - !all as usize;
        let refused = self.refused.map(|by| [by[1], by[2], by[4]]);
        let mut counts = self.met[..clauses].concat();
        counts.extend(self.kinds.concat());
        counts.extend(refused.concat());
        counts.contains(&0)
    }

    pub fn say(&self) {
        for (at, name) in ["main", "vendor"].into_iter().enumerate() {
            let [nothing, handed, echoes, replies] = self.kinds[at];
            let [_, size, buffers, _, time] = self.refused[at];
            println!(
                "    on {name}: {nothing} nothing, {handed} handed over, {echoes} echoes, {replies} other replies, errors by number {:?}; \
                 refused: {size} by 1, {buffers} by 2, {time} by 4",
                self.errors[at]
            );
        }
        for (name, [main, vendor]) in MET.iter().zip(self.met) {
            println!("    {name}: {main} on main, {vendor} on vendor");
        }
    }
}
