//! The definition in our library's place, with a fault planted in it, or here in what it writes and tells.
use crate::border;
use crate::definition::{Begun, Definition, Message, Taken};
use crate::lent::{Held, Lent};
use crate::ours::{Collection, Outcome, kind};

pub struct StandIn {
    rules: Definition,
    cut: Vec<Vec<u8>>,
}

impl StandIn {
    pub fn new(rules: Definition) -> Self {
        StandIn { rules, cut: vec![] }
    }

    fn is(&self, fault: &str) -> bool {
        self.rules.fault.is(fault)
    }

    pub fn begin(&mut self, message: &Message) {
        self.cut = self.rules.cut(message);
    }

    pub fn count(&self, size: usize, len: usize) -> Outcome {
        match self.rules.count(size, len) {
            Ok(count) => border::counted(count),
            Err(reasons) => self.refused(border::refused(&reasons)),
        }
    }

    fn refused(&self, outcome: Outcome) -> Outcome {
        let spare = self.is("refused-tells-spare") as u8;
        Outcome { spare, ..outcome }
    }

    /// As much as there is room for.
    fn put(&self, buffer: &mut Lent, bytes: &[u8]) {
        for (place, byte) in buffer.lent().iter_mut().zip(bytes) {
            *place = *byte;
        }
    }

    pub fn write(&self, message: &Message, index: usize, buffer: &mut Lent) -> Outcome {
        let room = buffer.room();
        let fragment = match self.rules.write(message, &self.cut, index, room) {
            Ok(fragment) => fragment,
            Err(reasons) => {
                if self.is("write-refused-alters") {
                    self.put(buffer, &[0]);
                }
                return self.refused(border::refused(&reasons));
            }
        };
        self.put(buffer, fragment);
        let mut outcome = border::counted(fragment.len());
        match self.rules.fault.name {
            "write-clears-rest" => buffer.lent()[fragment.len()..].fill(0),
            "write-before-front" => *buffer.before() ^= 1,
            "write-past-end" => *buffer.behind() ^= 1,
            "write-tells-size" => outcome.len = message.size,
            "write-tells-command" => outcome.cmd = message.cmd,
            _ => (),
        }
        outcome
    }

    pub fn read(
        &self,
        held: &mut Held,
        size: usize,
        fragment: &mut Lent,
        buffer: &mut Lent,
    ) -> Outcome {
        let came = held.collection;
        if self.is("leftovers-unsound") && came.len == 0 && came != Collection::default() {
            return self.refused(border::refused(&vec![3]));
        }
        let mut begun = border::begun_of(&came, buffer.lent());
        let read = self
            .rules
            .read(&mut begun, size, fragment.lent(), buffer.room());
        self.alter(fragment, buffer);
        match read {
            Ok(taken) => {
                let outcome = border::taken(&taken);
                if let Taken::Whole(whole) = &taken {
                    self.put(buffer, &whole.bytes);
                }
                self.go_on(held, begun.as_ref(), buffer);
                self.told(outcome, held)
            }
            Err(reasons) => {
                self.stay(held, begun.as_ref(), buffer);
                self.refused(border::refused(&reasons))
            }
        }
    }

    /// Faults that write where nothing is to be written.
    fn alter(&self, fragment: &mut Lent, buffer: &mut Lent) {
        match self.rules.fault.name {
            "read-before-front" => *buffer.before() ^= 1,
            "read-past-end" => *buffer.behind() ^= 1,
            "read-clears-rest" => {
                let from = buffer.room() / 2;
                buffer.lent()[from..].fill(0);
            }
            "read-alters-fragment" => fragment.lent().iter_mut().take(1).for_each(|b| *b ^= 1),
            _ => (),
        }
    }

    fn go_on(&self, held: &mut Held, begun: Option<&Begun>, buffer: &mut Lent) {
        let came = held.collection;
        held.collection = border::collection_of(begun);
        if let Some(begun) = begun {
            self.put(buffer, &begun.bytes);
        }
        match (self.rules.fault.name, begun) {
            ("whole-keeps-command", None) => held.collection.cmd = came.cmd,
            ("leftover-number-kept", Some(_)) if came.len == 0 => held.collection.seq = came.seq,
            ("read-past-collection", Some(_)) => held.behind[0] = 0,
            _ => (),
        }
    }

    fn stay(&self, held: &mut Held, begun: Option<&Begun>, buffer: &mut Lent) {
        let came = &mut held.collection;
        match (self.rules.fault.name, begun) {
            ("refused-clears-command", _) => came.cmd = 0,
            ("refused-clears-leftovers", None) => *came = Collection::default(),
            ("excess-written", Some(begun)) => self.put(buffer, &begun.bytes),
            // what the definition has dropped
            (_, None) if came.len != 0 => *came = Collection::default(),
            _ => (),
        }
    }

    fn told(&self, outcome: Outcome, held: &Held) -> Outcome {
        match (self.rules.fault.name, outcome.kind) {
            ("waiting-tells-taken", kind::WAITING) => Outcome {
                len: held.collection.taken as usize,
                ..outcome
            },
            ("whole-tells-channel", kind::COLLECTED) => Outcome { cid: 1, ..outcome },
            _ => outcome,
        }
    }
}
