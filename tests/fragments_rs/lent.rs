//! What is lent to a call, between guards that no call may write to.
use crate::ours::Collection;
use crate::random::Random;

/// As many bytes are looked at before what is lent and behind it.
const GUARD: usize = 64;

/// The bytes are lent from any of so many places on.
pub const PLACES: usize = 16;

pub struct Lent {
    bytes: Vec<u8>,
    /// What has to stand there, but for the front, which `check` is told.
    stays: Vec<u8>,
    start: usize,
    room: usize,
}

impl Lent {
    pub fn new(longest: usize, random: &mut Random) -> Self {
        let mut bytes = vec![0; GUARD + PLACES + longest + GUARD];
        random.fill(&mut bytes);
        Lent {
            stays: bytes.clone(),
            bytes,
            start: GUARD,
            room: 0,
        }
    }

    pub fn longest(&self) -> usize {
        self.bytes.len() - GUARD - PLACES - GUARD
    }

    pub fn move_to(&mut self, place: usize) {
        self.start = GUARD + place;
    }

    pub fn lend(&mut self, room: usize) {
        assert!(room <= self.longest());
        self.room = room;
    }

    pub fn room(&self) -> usize {
        self.room
    }

    pub fn as_ptr(&self) -> *const u8 {
        self.bytes[self.start..].as_ptr()
    }

    pub fn as_mut_ptr(&mut self) -> *mut u8 {
        // of all bytes, so that the compiler doesn't take it for granted that the guards stay
        self.bytes.as_mut_ptr().wrapping_add(self.start)
    }

    /// What is lent, for what stands in the library's place.
    pub fn lent(&mut self) -> &mut [u8] {
        &mut self.bytes[self.start..][..self.room]
    }

    /// The guards, for a fault.
    pub fn before(&mut self) -> &mut u8 {
        &mut self.bytes[self.start - 1]
    }

    pub fn behind(&mut self) -> &mut u8 {
        &mut self.bytes[self.start + self.room]
    }

    /// As many bytes as are wanted, from the first that is lent on, also past the last.
    pub fn stands(&self, len: usize) -> &[u8] {
        &self.bytes[self.start..][..len]
    }

    /// The caller puts these bytes there, and lends them.
    pub fn put(&mut self, front: &[u8]) {
        self.lend(front.len());
        self.lent().copy_from_slice(front);
        self.keep(front);
    }

    /// From now on these have to stand at the front.
    pub fn keep(&mut self, front: &[u8]) {
        self.stays[self.start..][..front.len()].copy_from_slice(front);
    }

    /// That the front is this, and that all else is as it was.
    pub fn check(&self, front: &[u8]) -> Result<(), String> {
        let end = self.start + self.room + GUARD;
        let front = &front[..front.len().min(self.room + GUARD)];
        let behind = self.start + front.len();
        let is_kept = |from: usize, to: usize| self.bytes[from..to] == self.stays[from..to];
        let is_right = is_kept(self.start - GUARD, self.start)
            && self.bytes[self.start..behind] == *front
            && is_kept(behind, end);
        match is_right {
            true => Ok(()),
            false => Err(self.difference(front)),
        }
    }

    fn difference(&self, front: &[u8]) -> String {
        let mut wanted = self.stays.clone();
        wanted[self.start..][..front.len()].copy_from_slice(front);
        let differs = |at: &usize| wanted[*at] != self.bytes[*at];
        let first = (0..wanted.len()).find(differs).unwrap();
        let last = (0..wanted.len()).rfind(differs).unwrap();
        let place = |at: usize| at as isize - self.start as isize;
        format!(
            "bytes {} to {} of {}: wanted {:02x} first, ours has {:02x}",
            place(first),
            place(last),
            self.room,
            wanted[first],
            self.bytes[first]
        )
    }
}

/// A collection that is lent.
#[repr(C)]
#[derive(Clone, Copy, Debug, PartialEq, Eq)]
pub struct Held {
    before: [u8; 8],
    pub collection: Collection,
    pub behind: [u8; 8],
}

impl Held {
    pub fn new(collection: Collection) -> Self {
        Held {
            before: [0xa5; 8],
            collection,
            behind: [0x5a; 8],
        }
    }
}
