//! How often each clause of the rules was met.
use crate::definition::{COMMANDS, Message, Reasons, Taken};
use crate::ours::Collection;

/// The entries, and their refusals in order.
const ORDERS: [(&str, &[u8]); 3] = [
    ("count", &[14, 7]),
    ("write", &[14, 2, 12, 7, 6]),
    ("read", &[14, 3, 15, 16, 17, 18]),
];

#[derive(Clone, Copy)]
pub enum Entry {
    Count,
    Write,
    Read,
}

/// What is met beside the refusals. NAMES has the same order.
#[derive(Clone, Copy)]
pub enum Met {
    RoundTrip,
    Waiting,
    Whole,
    Wrapped,
    EmptyContinuation,
    EmptyFirst,
    NoBytes,
    WholeBuffer,
    UnknownCommand,
    LowCommand,
    Leftovers,
    Empty,
    Head1,
    Head2,
    OneAboveSize,
    WrongNumber,
    NoneBegun,
    FirstInside,
    AllTaken,
    OneAboveBuffer,
    Number128,
    DeclaredOneAbove,
    OneMoreThanDue,
    DataOfNoBytes,
    LastFull,
    LastOfOneByte,
    WroteWrapped,
}

const NAMES: [&str; 27] = [
    "messages that came out as they were sent, without losses",
    "WAITING",
    "COLLECTED",
    "number 127 taken, 0 due",
    "continuations without data, taken",
    "first fragments without data, WAITING",
    "messages of 0 bytes, COLLECTED",
    "messages of exactly the buffer, COLLECTED",
    "commands not among the five, taken by the reader",
    "commands below 128 in a collection, COLLECTED",
    "fragments taken where none was begun, with leftovers",
    "15: fragments of 0 bytes",
    "15: first fragments of 1 byte",
    "15: first fragments of 2 bytes",
    "15: one above the size",
    "16: wrong numbers",
    "16: continuations with none begun",
    "16: first fragments inside a message",
    "3: all bytes taken",
    "3: declared one above the buffer",
    "3: number 128 due",
    "17: declared one above the buffer",
    "18: one byte more than is due",
    "18: data of a message of 0 bytes",
    "last fragments that are full, written",
    "last fragments with one byte of data, written",
    "number 0 after 127, written",
];

#[derive(Default)]
pub struct Counts {
    pub messages: u64,
    calls: [u64; 3],
    refused: [[u64; 19]; 3],
    /// By the refusal that is answered, and another that holds too.
    both: [[[u64; 19]; 19]; 3],
    met: [u64; NAMES.len()],
}

/// What a reader is given.
#[derive(Clone, Copy, Debug)]
pub struct Read<'a> {
    pub size: usize,
    pub fragment: &'a [u8],
    pub room: usize,
}

impl Counts {
    pub fn calls(&self, entry: Entry) -> u64 {
        self.calls[entry as usize]
    }

    pub fn all_calls(&self) -> u64 {
        self.calls.iter().sum()
    }

    pub fn refusals(&self) -> u64 {
        self.refused.iter().flatten().sum()
    }

    pub fn met(&mut self, what: Met, is_met: bool) {
        self.met[what as usize] += is_met as u64;
    }

    pub fn add(&mut self, other: &Counts) {
        self.messages += other.messages;
        for entry in 0..3 {
            self.calls[entry] += other.calls[entry];
            for number in 0..19 {
                self.refused[entry][number] += other.refused[entry][number];
            }
        }
    }

    pub fn called<T>(&mut self, entry: Entry, answer: &Result<T, Reasons>) {
        let entry = entry as usize;
        self.calls[entry] += 1;
        if let Err(reasons) = answer {
            let first = reasons[0] as usize;
            self.refused[entry][first] += 1;
            for other in &reasons[1..] {
                self.both[entry][first][*other as usize] += 1;
            }
        }
    }

    pub fn wrote(&mut self, message: &Message, index: usize, count: usize, fragment: &[u8]) {
        let is_last = index + 1 == count;
        let head = if index == 0 { 3 } else { 1 };
        self.met(Met::LastFull, is_last && fragment.len() == message.size);
        self.met(Met::LastOfOneByte, is_last && fragment.len() == head + 1);
        self.met(Met::WroteWrapped, index > 1 && index % 128 == 1);
    }

    /// A collection as it came, and what the rules make of a fragment.
    pub fn read(&mut self, came: &Collection, call: &Read, answer: &Result<Taken, Reasons>) {
        self.called(Entry::Read, answer);
        match answer {
            Ok(taken) => self.took(came, call, taken),
            Err(reasons) => match reasons[0] {
                3 => self.unsound(came, call),
                15 => self.bad_length(call),
                16 => self.bad_number(came, call),
                17 | 18 => self.too_much(came, call, reasons[0]),
                _ => (),
            },
        }
    }

    fn took(&mut self, came: &Collection, call: &Read, taken: &Taken) {
        let is_first = call.fragment[0] >= 128;
        let is_waiting = matches!(taken, Taken::Waiting);
        let is_empty = call.fragment.len() == if is_first { 3 } else { 1 };
        let has_leftovers = is_first && *came != Collection::default();
        self.met(Met::Waiting, is_waiting);
        self.met(Met::Wrapped, is_waiting && call.fragment[0] == 127);
        self.met(Met::EmptyContinuation, !is_first && is_empty);
        self.met(Met::EmptyFirst, is_waiting && is_first && is_empty);
        let is_known = COMMANDS.contains(&call.fragment[0]);
        self.met(Met::UnknownCommand, is_first && !is_known);
        self.met(Met::Leftovers, has_leftovers);
        if let Taken::Whole(whole) = taken {
            self.met(Met::Whole, true);
            self.met(Met::NoBytes, whole.declared == 0);
            self.met(Met::WholeBuffer, whole.declared == call.room);
            self.met(Met::LowCommand, whole.cmd < 128);
        }
    }

    /// By one cause alone.
    fn unsound(&mut self, came: &Collection, call: &Read) {
        let fits = came.len as usize <= call.room;
        self.met(
            Met::AllTaken,
            came.taken == came.len && fits && came.seq < 128,
        );
        let is_above = came.len as usize == call.room + 1;
        self.met(
            Met::OneAboveBuffer,
            is_above && came.taken < came.len && came.seq < 128,
        );
        self.met(
            Met::Number128,
            came.seq == 128 && fits && came.taken < came.len,
        );
    }

    fn bad_length(&mut self, call: &Read) {
        let is_first = call.fragment.first().is_some_and(|head| *head >= 128);
        let len = call.fragment.len();
        self.met(Met::Empty, len == 0);
        self.met(Met::Head1, is_first && len == 1);
        self.met(Met::Head2, is_first && len == 2);
        self.met(Met::OneAboveSize, len == call.size + 1);
    }

    fn bad_number(&mut self, came: &Collection, call: &Read) {
        let is_first = call.fragment[0] >= 128;
        self.met(Met::FirstInside, is_first);
        self.met(Met::NoneBegun, !is_first && came.len == 0);
        self.met(Met::WrongNumber, !is_first && came.len != 0);
    }

    fn too_much(&mut self, came: &Collection, call: &Read, refusal: u8) {
        let (remains, data) = match call.fragment {
            [128..=255, high, low, data @ ..] => (u16::from_be_bytes([*high, *low]), data),
            [_, data @ ..] => (came.len - came.taken, data),
            [] => return,
        };
        let remains = remains as usize;
        let is_excess = refusal == 18;
        self.met(
            Met::DeclaredOneAbove,
            !is_excess && remains == call.room + 1,
        );
        self.met(Met::OneMoreThanDue, is_excess && data.len() == remains + 1);
        self.met(Met::DataOfNoBytes, is_excess && remains == 0);
    }

    /// All that has to be met, and how often it was.
    fn all(&self) -> Vec<(String, u64)> {
        let met = NAMES.iter().zip(self.met);
        let mut all: Vec<_> = met.map(|(name, met)| (name.to_string(), met)).collect();
        for (entry, (name, order)) in ORDERS.iter().enumerate() {
            for (at, first) in order.iter().enumerate() {
                let refused = self.refused[entry][*first as usize];
                all.push((format!("{name} refused by {first}"), refused));
                for other in &order[at + 1..] {
                    let both = self.both[entry][*first as usize][*other as usize];
                    all.push((
                        format!("{name} refused by {first}, and {other} holds too"),
                        both,
                    ));
                }
            }
        }
        all
    }

    pub fn say(&self) {
        for (name, met) in self.all() {
            println!("    {name}: {met}");
        }
    }

    /// What was met less often than that.
    pub fn rarest(&self, least: u64) -> Option<String> {
        let rare = self.all().into_iter().find(|(_, met)| *met < least)?;
        Some(format!("{}: {} times", rare.0, rare.1))
    }
}
