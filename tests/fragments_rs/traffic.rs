//! Made-up messages and what becomes of them on their way, all of which come from a seed.
use crate::counts::Read;
use crate::definition::{COMMANDS, Message};
use crate::made_up;
use crate::ours::Collection;
use crate::pair::{LONGEST_BUFFER, LONGEST_FRAGMENT, Pair};
use crate::random::Random;

/// The bytes that payloads are taken from.
pub const POOL: usize = 1 << 18;

pub struct Traffic<'a> {
    random: Random,
    pool: &'a [u8],
    /// The same bytes, which are lent to no call.
    kept: Vec<u8>,
}

/// A message on its way to the reader.
struct Way<'a> {
    message: Message<'a>,
    cut: &'a [Vec<u8>],
    /// Which fragment is next.
    at: usize,
    /// What the reader is given: not always the writer's size.
    size: usize,
    room: usize,
    /// How many fragments were refused, one after the other, and how many may be.
    refused: usize,
    patience: usize,
}

impl Way<'_> {
    fn give(&mut self, pair: &mut Pair, fragment: &[u8]) -> Result<(), String> {
        self.give_with(pair, self.size, fragment, self.room)
    }

    fn give_with(
        &mut self,
        pair: &mut Pair,
        size: usize,
        fragment: &[u8],
        room: usize,
    ) -> Result<(), String> {
        let call = Read {
            size,
            fragment,
            room,
        };
        match pair.read(call)? {
            Some(_) => self.refused = 0,
            None => self.refused += 1,
        }
        Ok(())
    }

    /// The collection to which the next fragment belongs.
    fn fitting(&self) -> Collection {
        if self.at == 0 {
            return Collection::default();
        }
        let before = &self.cut[..self.at];
        let bytes: usize = before.iter().map(|fragment| fragment.len() - 1).sum();
        Collection {
            len: self.message.payload.len() as u16,
            taken: (bytes - 2) as u16,
            cmd: self.message.cmd,
            seq: ((self.at - 1) % 128) as u8,
        }
    }
}

impl<'a> Traffic<'a> {
    pub fn new(random: Random, pool: &'a [u8]) -> Self {
        let kept = pool.to_vec();
        Traffic { random, pool, kept }
    }

    /// A message, or calls of any contents.
    pub fn next(&mut self, pair: &mut Pair) -> Result<(), String> {
        match self.random.below(8) {
            0 => self.any_reads(pair),
            1 => self.any_writes(pair),
            _ => self.message(pair),
        }
    }

    fn payload(&mut self, len: usize) -> &'a [u8] {
        let from = self.random.below(self.pool.len() - len);
        &self.pool[from..from + len]
    }

    /// That the writer has left the payload as it was.
    fn is_kept(&self, payload: &[u8]) -> Result<(), String> {
        let from = payload.as_ptr() as usize - self.pool.as_ptr() as usize;
        match self.kept[from..from + payload.len()] == *payload {
            true => Ok(()),
            false => Err("the payload that is lent is altered".to_string()),
        }
    }

    fn message(&mut self, pair: &mut Pair) -> Result<(), String> {
        let size = made_up::size(&mut self.random);
        let len = made_up::len(&mut self.random, size);
        let message = Message {
            size,
            cmd: made_up::command(&mut self.random, 16),
            payload: self.payload(len),
        };
        pair.count(size, len)?;
        let (any_size, any_len) = made_up::counted(&mut self.random);
        pair.count(any_size, any_len)?;
        let cut = pair.cut(&message)?;
        self.write(pair, &message, &cut)?;
        self.is_kept(message.payload)?;
        if len > 65_535 {
            return Ok(());
        }
        match self.random.below(2) {
            0 if message.cmd >= 128 => self.send_all(pair, &message, &cut),
            _ => self.send(pair, message, &cut),
        }
    }

    /// All fragments of a message, or a few where it is refused, and some past the last.
    fn write(&mut self, pair: &mut Pair, message: &Message, cut: &[Vec<u8>]) -> Result<(), String> {
        let longer = message.size + self.random.below(LONGEST_FRAGMENT - message.size);
        let lent = [message.size, message.size, message.size + 1, longer];
        let room = self.random.of(&lent);
        let is_taken = COMMANDS.contains(&message.cmd) && message.payload.len() <= 65_535;
        let count = if is_taken { cut.len() } else { 4 };
        for index in 0..count {
            if self.random.one_in(64) {
                let short = message.size - 1 - self.random.below(3);
                pair.write(message, cut, index, short)?;
            }
            pair.write(message, cut, index, room)?;
        }
        for _ in 0..3 {
            let index = made_up::index(&mut self.random, cut.len());
            pair.write_elsewhere(&mut self.random);
            pair.write(message, cut, index, room)?;
        }
        Ok(())
    }

    fn send_all(
        &mut self,
        pair: &mut Pair,
        message: &Message,
        cut: &[Vec<u8>],
    ) -> Result<(), String> {
        let room = made_up::room(&mut self.random, message.payload.len());
        let fresh = made_up::none_begun(&mut self.random);
        pair.replace(fresh, &mut self.random);
        pair.round_trip(message, cut, room.max(message.payload.len()))
    }

    /// With losses: about one fragment in so many meets with something.
    fn send(&mut self, pair: &mut Pair, message: Message, cut: &[Vec<u8>]) -> Result<(), String> {
        let rate = self.random.of(&[2, 3, 5, 10, 30, 100, 500]);
        let mut way = Way {
            message,
            cut,
            at: 0,
            size: message.size,
            room: made_up::room(&mut self.random, message.payload.len()),
            refused: 0,
            patience: 1 + self.random.below(8),
        };
        // else what is left of another message still stands there
        if !self.random.one_in(8) {
            let fresh = made_up::none_begun(&mut self.random);
            pair.replace(fresh, &mut self.random);
        }
        while way.at < cut.len() {
            if self.random.one_in(rate) {
                self.mishap(pair, &mut way)?;
            } else {
                way.give(pair, &cut[way.at])?;
                way.at += 1;
            }
            if way.refused > way.patience && !self.goes_on(pair, &mut way) {
                break;
            }
        }
        Ok(())
    }

    /// Where too much was refused, it is given up, or goes on with a collection that fits.
    fn goes_on(&mut self, pair: &mut Pair, way: &mut Way) -> bool {
        if way.at >= way.cut.len() || self.random.one_in(3) {
            return false;
        }
        way.refused = 0;
        way.size = way.message.size;
        way.room = way.room.max(way.message.payload.len());
        pair.replace(way.fitting(), &mut self.random);
        true
    }

    fn mishap(&mut self, pair: &mut Pair, way: &mut Way) -> Result<(), String> {
        match self.random.below(4) {
            0 => self.out_of_order(pair, way),
            1 | 2 => self.bent(pair, way),
            _ => self.misused(pair, way),
        }
    }

    fn out_of_order(&mut self, pair: &mut Pair, way: &mut Way) -> Result<(), String> {
        let cut = way.cut;
        match self.random.below(5) {
            0 => way.at += 1,
            1 => {
                way.give(pair, &cut[way.at])?;
                way.give(pair, &cut[way.at])?;
                way.at += 1;
            }
            2 => {
                let next = (way.at + 1).min(cut.len() - 1);
                way.give(pair, &cut[next])?;
                way.give(pair, &cut[way.at])?;
                way.at += 2;
            }
            // one from before or from later on
            3 => {
                let other = self.random.below(cut.len());
                way.give(pair, &cut[other])?;
            }
            _ => {
                let stranger = made_up::first(&mut self.random, way.size, way.room);
                way.give(pair, &stranger)?;
            }
        }
        Ok(())
    }

    /// A fragment whose bytes are altered; the right one follows, or is lost.
    fn bent(&mut self, pair: &mut Pair, way: &mut Way) -> Result<(), String> {
        let mut fragment = way.cut[way.at].clone();
        let due = pair.collection();
        made_up::bend(&mut self.random, &mut fragment, way.size, way.room, &due);
        way.give(pair, &fragment)?;
        way.at += self.random.below(2);
        Ok(())
    }

    /// A caller that lends another size, another buffer or another collection.
    fn misused(&mut self, pair: &mut Pair, way: &mut Way) -> Result<(), String> {
        let fragment = &way.cut[way.at];
        match self.random.below(6) {
            0 => {
                let size = made_up::bad_size(&mut self.random);
                way.give_with(pair, size, fragment, way.room)
            }
            1 => {
                let size = made_up::size(&mut self.random);
                way.give_with(pair, size, fragment, way.room)
            }
            2 => {
                way.size = made_up::size(&mut self.random);
                Ok(())
            }
            3 => {
                let declared = pair.collection().len as usize;
                let other = self.random.below(way.room + 1);
                let rooms = [declared.saturating_sub(1), declared, declared + 1, other];
                let room = self.random.of(&rooms).min(LONGEST_BUFFER);
                way.give_with(pair, way.size, fragment, room)
            }
            4 => {
                let made_up = made_up::collection(&mut self.random, way.room);
                pair.replace(made_up, &mut self.random);
                Ok(())
            }
            _ => {
                let mut fitting = way.fitting();
                made_up::alter(&mut self.random, &mut fitting, way.room);
                pair.replace(fitting, &mut self.random);
                Ok(())
            }
        }
    }

    /// Fragments, sizes, buffers and collections of any contents, around all that they are compared with.
    fn any_reads(&mut self, pair: &mut Pair) -> Result<(), String> {
        let random = &mut self.random;
        let small = random.below(600);
        let room = random.of(&[0, 1, 2, 3, 17, 18, 100, 509, 510, 600, small, small]);
        for _ in 0..1 + random.below(24) {
            if random.one_in(2) {
                let made_up = made_up::collection(random, room);
                pair.replace(made_up, random);
            }
            let size = match random.one_in(6) {
                true => made_up::bad_size(random),
                false => made_up::size(random),
            };
            let lent = match random.one_in(8) {
                true => room + random.below(3),
                false => room,
            };
            let fragment = made_up::fragment(random, size, room, &pair.collection());
            let fragment = &fragment;
            pair.read(Read {
                size,
                fragment,
                room: lent,
            })?;
        }
        Ok(())
    }

    /// Messages that are refused for some reasons at once.
    fn any_writes(&mut self, pair: &mut Pair) -> Result<(), String> {
        let random = &mut self.random;
        let size = match random.one_in(2) {
            true => made_up::bad_size(random),
            false => made_up::size(random),
        };
        let above = random.of(&[65_536, 65_537, 65_536 + 17, 65_999]);
        let short = random.below(100);
        let len = if random.one_in(8) { above } else { short };
        let cmd = made_up::command(random, 2);
        let payload = self.payload(len);
        let message = Message { size, cmd, payload };
        let cut = pair.cut(&message)?;
        for _ in 0..8 {
            let random = &mut self.random;
            let near = random.below(3);
            let index = made_up::index(random, cut.len());
            let index = random.of(&[near, index]);
            let any = random.below(600);
            let enough = size.min(600);
            let room = random.of(&[enough, enough, enough.saturating_sub(1), any]);
            pair.write_elsewhere(random);
            pair.write(&message, &cut, index, room)?;
        }
        self.is_kept(payload)
    }
}
