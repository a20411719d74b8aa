//! Our library's entries for a key with two interfaces, by the declarations of the bindings (bindings/rust/src/raw.rs and raw_key.rs, linked
//! beside this file by oracle/layout), or what stands in their place.
#[path = "raw.rs"]
#[allow(dead_code)]
mod raw;
#[path = "raw_key.rs"]
mod raw_key;

use crate::definition::Definition;
use opensk::Transport;
pub use raw::kind::*;
pub use raw::*;
pub use raw_key::{Key, VendorHid};

/// What a step is given beside the buffers.
#[derive(Clone, Copy, Debug)]
pub struct Call<'a> {
    pub on: Transport,
    pub time: u64,
    pub packet: &'a [u8],
}

/// What a key is set up with.
#[derive(Clone, Debug)]
pub struct Settings {
    /// Of main and of vendor.
    pub maxima: [usize; 2],
    pub u2f: bool,
    /// The numbers of the vendor commands.
    pub commands: Vec<u8>,
}

#[derive(Clone)]
pub struct Ours {
    pub key: Key,
    /// Takes the library's place where a fault is planted.
    faulty: Option<Definition>,
}

impl Ours {
    /// A key of any contents.
    pub fn of(key: &Key, fault: &'static str) -> Self {
        Ours {
            key: *key,
            faulty: (!fault.is_empty()).then(|| Definition::of(key, fault)),
        }
    }

    /// Set-up over a key that came as it is. Tells the refusal, or 0.
    pub fn set_up(&mut self, with: &Settings, fault: &'static str) -> u8 {
        if self.faulty.is_none() {
            let [main, vendor] = with.maxima;
            return raw_key::new(&mut self.key, main, vendor, with.u2f, &with.commands);
        }
        match Definition::set_up(&self.key, with, fault) {
            Ok(definition) => {
                self.key = definition.key();
                self.faulty = Some(definition);
                0
            }
            Err(refusal) if fault == "refused-set-up-alters" => {
                self.key.vendor = VendorHid::default();
                refusal
            }
            Err(refusal) => refusal,
        }
    }

    /// How many channels each interface has, and what stands in the numbers that are ignored: no call sets them.
    pub fn begin_at(&mut self, counts: [u32; 2], spares: (u8, u16)) {
        let Key { main, vendor } = &mut self.key;
        [main.hid.allocated, vendor.allocated] = counts;
        (main.hid.spare, vendor.spare) = spares;
        if let Some(definition) = &mut self.faulty {
            definition.begin_at(counts, spares);
        }
    }

    pub fn step(&mut self, call: &Call, message: &mut [u8], reply: &mut [u8]) -> Outcome {
        let Call { on, time, packet } = *call;
        match (&mut self.faulty, on) {
            (Some(definition), _) => {
                let outcome = definition.step(call, message, reply);
                self.key = definition.key();
                outcome
            }
            (_, Transport::MainHid) => {
                raw_key::main_step(&mut self.key, time, packet, message, reply)
            }
            (_, Transport::VendorHid) => {
                raw_key::vendor_step(&mut self.key, time, packet, message, reply)
            }
        }
    }

    /// The questions: main's lock, vendor's, and the wink.
    pub fn questions(&self, time: u64) -> [u8; 3] {
        match &self.faulty {
            Some(definition) => definition.questions(time),
            None => [
                raw_key::main_is_locked(&self.key, time),
                raw_key::vendor_is_locked(&self.key, time),
                raw_key::is_winking(&self.key, time),
            ],
        }
    }
}

/// Each interface of a key as a transport: the last time, U2F and the vendor commands are main's.
pub fn sides(key: &Key) -> [CtapHid; 2] {
    let main = key.main.hid;
    let VendorHid {
        assembler,
        lock,
        allocated,
        locked,
        max,
        still_due,
        ..
    } = key.vendor;
    let vendor = CtapHid {
        assembler,
        lock,
        allocated,
        locked,
        max,
        still_due,
        ..main
    };
    [main, vendor]
}
