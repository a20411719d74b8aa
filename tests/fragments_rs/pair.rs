//! The rules and ours, side by side: every number and every byte after every call.
use crate::border;
use crate::counts::{Counts, Entry, Met, Read};
use crate::definition::{Begun, Definition, Message, Taken};
use crate::faults::Fault;
use crate::lent::{Held, Lent, PLACES};
use crate::ours::{Collection, Ours, Outcome};
use crate::random::Random;
use crate::stand_in::StandIn;
use std::fmt::Debug;

/// The longest that is lent, for a fragment that is written or read, and for a message.
pub const LONGEST_FRAGMENT: usize = 1_200;
pub const LONGEST_BUFFER: usize = 66_000;

pub struct Pair {
    rules: Definition,
    ours: Ours,
    begun: Option<Begun>,
    held: Held,
    written: Lent,
    fragment: Lent,
    buffer: Lent,
    pub counts: Counts,
}

fn same<T: PartialEq + Debug>(what: &str, wanted: &T, ours: &T) -> Result<(), String> {
    match wanted == ours {
        true => Ok(()),
        false => Err(format!("{what}: wanted {wanted:?}, ours has {ours:?}")),
    }
}

impl Pair {
    /// Without a name, ours is the library.
    pub fn new(fault: Option<&'static str>, random: &mut Random) -> Self {
        let rules_of = |fault| Definition { fault };
        Pair {
            rules: rules_of(Fault::NONE),
            ours: match fault {
                Some(name) => Ours::StandIn(StandIn::new(rules_of(Fault { name }))),
                None => Ours::Library,
            },
            begun: None,
            held: Held::new(Collection::default()),
            written: Lent::new(LONGEST_FRAGMENT, random),
            fragment: Lent::new(LONGEST_FRAGMENT, random),
            buffer: Lent::new(LONGEST_BUFFER, random),
            counts: Counts::default(),
        }
    }

    // ---- the writer

    pub fn count(&mut self, size: usize, len: usize) -> Result<(), String> {
        let answer = self.rules.count(size, len);
        self.counts.called(Entry::Count, &answer);
        let wanted = match &answer {
            Ok(count) => border::counted(*count),
            Err(reasons) => border::refused(reasons),
        };
        let ours = self.ours.count(size, len);
        same("its outcome", &wanted, &ours)
            .map_err(|what| format!("the count of {len} bytes at size {size}: {what}"))
    }

    /// Fragments are written to another place from now on, so that one that is written twice is seen.
    pub fn write_elsewhere(&mut self, random: &mut Random) {
        self.written.move_to(random.below(PLACES));
    }

    /// Cuts a message, once for all its fragments.
    pub fn cut(&mut self, message: &Message) -> Result<Vec<Vec<u8>>, String> {
        self.counts.messages += 1;
        self.ours.begin(message);
        let cut = self.rules.cut(message);
        match self.rules.count(message.size, message.payload.len()) {
            Ok(count) if count != cut.len() => Err(format!(
                "the rules count {count} fragments, and cut {}",
                cut.len()
            )),
            _ => Ok(cut),
        }
    }

    pub fn write(
        &mut self,
        message: &Message,
        cut: &[Vec<u8>],
        index: usize,
        room: usize,
    ) -> Result<(), String> {
        self.written.lend(room);
        let answer = self.rules.write(message, cut, index, room);
        self.counts.called(Entry::Write, &answer);
        let (wanted, front) = match &answer {
            Ok(fragment) => {
                self.counts.wrote(message, index, cut.len(), fragment);
                (border::counted(fragment.len()), *fragment)
            }
            Err(reasons) => (border::refused(reasons), &[][..]),
        };
        let ours = self.ours.write(message, index, &mut self.written);
        let compared = same("its outcome", &wanted, &ours)
            .and_then(|_| self.written.check(front))
            .map_err(|what| {
                let Message { size, cmd, payload } = message;
                let len = payload.len();
                format!(
                    "fragment {index} of {len} bytes, command {cmd:02x}, size {size}, into {room}: {what}"
                )
            });
        self.written.keep(front);
        compared
    }

    // ---- the reader

    pub fn collection(&self) -> Collection {
        self.held.collection
    }

    /// Another collection takes the place of the one that stands there, and buffer and fragments are lent from other places on.
    pub fn replace(&mut self, collection: Collection, random: &mut Random) {
        if let Some(begun) = self.begun.take() {
            self.buffer.keep(&begun.bytes);
        }
        self.held.collection = collection;
        self.buffer.move_to(random.below(PLACES));
        self.fragment.move_to(random.below(PLACES));
        let stands = self.buffer.stands(collection.taken as usize);
        self.begun = border::begun_of(&collection, stands);
    }

    /// What the rules make of a fragment; nothing where they refuse it.
    pub fn read(&mut self, call: Read) -> Result<Option<Taken>, String> {
        let mut wanted = self.held;
        self.fragment.put(call.fragment);
        self.buffer.lend(call.room);
        let answer = self
            .rules
            .read(&mut self.begun, call.size, call.fragment, call.room);
        self.counts.read(&wanted.collection, &call, &answer);
        let outcome = match &answer {
            Ok(taken) => {
                wanted.collection = border::collection_of(self.begun.as_ref());
                border::taken(taken)
            }
            Err(reasons) => border::refused(reasons),
        };
        if let Ok(Taken::Whole(whole)) = &answer {
            self.buffer.keep(&whole.bytes);
        }
        let came = self.held.collection;
        let ours = self.ours.read(
            &mut self.held,
            call.size,
            &mut self.fragment,
            &mut self.buffer,
        );
        self.compare(outcome, ours, &wanted)
            .map_err(|what| format!("{} with {came:?}: {what}", shown(&call)))?;
        Ok(answer.ok())
    }

    fn compare(&self, outcome: Outcome, ours: Outcome, wanted: &Held) -> Result<(), String> {
        same("its outcome", &outcome, &ours)?;
        same("the collection", &wanted.collection, &self.held.collection)?;
        same("around the collection", wanted, &self.held)?;
        let front = self.begun.as_ref().map_or(&[][..], |begun| &begun.bytes);
        let buffer = self.buffer.check(front);
        buffer.map_err(|what| format!("the buffer, {what}"))?;
        let fragment = self.fragment.check(&[]);
        fragment.map_err(|what| format!("the fragment that is read, {what}"))
    }

    /// Without losses a message comes out as it was sent, at its last fragment.
    pub fn round_trip(
        &mut self,
        message: &Message,
        cut: &[Vec<u8>],
        room: usize,
    ) -> Result<(), String> {
        for (index, fragment) in cut.iter().enumerate() {
            let call = Read {
                size: message.size,
                fragment,
                room,
            };
            let is_right = match self.read(call)? {
                Some(Taken::Waiting) => index + 1 < cut.len(),
                Some(Taken::Whole(whole)) => {
                    let bytes = self.buffer.stands(message.payload.len());
                    index + 1 == cut.len() && whole.cmd == message.cmd && bytes == message.payload
                }
                None => false,
            };
            if !is_right {
                return Err(format!(
                    "{}: the message doesn't come out as it was sent",
                    shown(&call)
                ));
            }
        }
        self.counts.met(Met::RoundTrip, true);
        Ok(())
    }
}

fn shown(call: &Read) -> String {
    let Read {
        size,
        fragment,
        room,
    } = call;
    let hex: String = fragment
        .iter()
        .take(8)
        .map(|b| format!("{b:02x}"))
        .collect();
    let more = if fragment.len() > 8 { ".." } else { "" };
    let len = fragment.len();
    format!("a fragment of {len} bytes, {hex}{more}, read at size {size} into {room}")
}
