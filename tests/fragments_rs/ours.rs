//! Our library's three entries, as include/snjofrask.h has them, or what stands in their place.
use crate::definition::Message;
use crate::lent::{Held, Lent};
use crate::stand_in::StandIn;
use std::fmt::{Debug, Formatter};

#[repr(C)]
#[derive(Clone, Copy, Default, PartialEq, Eq)]
pub struct Outcome {
    pub len: usize,
    pub cid: u32,
    pub kind: u8,
    pub cmd: u8,
    pub refusal: u8,
    pub spare: u8,
}

impl Debug for Outcome {
    fn fmt(&self, to: &mut Formatter) -> std::fmt::Result {
        write!(to, "kind {}", self.kind)?;
        let fields = [
            ("refusal", self.refusal as usize),
            ("len", self.len),
            ("cmd", self.cmd as usize),
            ("cid", self.cid as usize),
            ("spare", self.spare as usize),
        ];
        let said = fields.iter().filter(|(_, number)| *number != 0);
        said.into_iter()
            .try_for_each(|(name, number)| write!(to, " {name} {number}"))
    }
}

#[repr(C)]
#[derive(Clone, Copy, Debug, Default, PartialEq, Eq)]
pub struct Collection {
    pub len: u16,
    pub taken: u16,
    pub cmd: u8,
    pub seq: u8,
}

const _: () = assert!(size_of::<Outcome>() == size_of::<usize>() + 8);
const _: () = assert!(size_of::<Collection>() == 6);

pub mod kind {
    pub const REFUSED: u8 = 0;
    pub const COUNT: u8 = 7;
    pub const WAITING: u8 = 10;
    pub const COLLECTED: u8 = 11;
}

unsafe extern "C" {
    fn snjofrask_ble_fragment_count(size: usize, len: usize) -> Outcome;
    fn snjofrask_ble_write_fragment(
        size: usize,
        cmd: u8,
        payload: *const u8,
        payload_len: usize,
        index: usize,
        buffer: *mut u8,
        buffer_len: usize,
    ) -> Outcome;
    fn snjofrask_ble_read_fragment(
        collection: *mut Collection,
        size: usize,
        fragment: *const u8,
        fragment_len: usize,
        buffer: *mut u8,
        buffer_len: usize,
    ) -> Outcome;
}

pub enum Ours {
    Library,
    StandIn(StandIn),
}

impl Ours {
    /// The message that is written from now on: what stands in the library's place cuts it once, and not anew for each fragment.
    pub fn begin(&mut self, message: &Message) {
        if let Ours::StandIn(stand_in) = self {
            stand_in.begin(message);
        }
    }

    pub fn count(&self, size: usize, len: usize) -> Outcome {
        match self {
            Ours::StandIn(stand_in) => stand_in.count(size, len),
            Ours::Library => unsafe { snjofrask_ble_fragment_count(size, len) },
        }
    }

    pub fn write(&self, message: &Message, index: usize, buffer: &mut Lent) -> Outcome {
        let payload = message.payload;
        match self {
            Ours::StandIn(stand_in) => stand_in.write(message, index, buffer),
            Ours::Library => unsafe {
                snjofrask_ble_write_fragment(
                    message.size,
                    message.cmd,
                    payload.as_ptr(),
                    payload.len(),
                    index,
                    buffer.as_mut_ptr(),
                    buffer.room(),
                )
            },
        }
    }

    pub fn read(
        &self,
        held: &mut Held,
        size: usize,
        fragment: &mut Lent,
        buffer: &mut Lent,
    ) -> Outcome {
        match self {
            Ours::StandIn(stand_in) => stand_in.read(held, size, fragment, buffer),
            Ours::Library => unsafe {
                // of all that is held, so that the compiler doesn't take it for granted that the guards stay
                let held: *mut Held = held;
                snjofrask_ble_read_fragment(
                    &raw mut (*held).collection,
                    size,
                    fragment.as_ptr(),
                    fragment.room(),
                    buffer.as_mut_ptr(),
                    buffer.room(),
                )
            },
        }
    }
}
