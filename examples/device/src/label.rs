//! The vendor command: a label, which a host sets and reads back. It is gone when the device ends.

/// Its number.
pub const COMMAND: u8 = 0x40;

const LONGEST: usize = 32;

const READ: u8 = 0x00;
const SET: u8 = 0x01;

const OK: u8 = 0x00;
const UNKNOWN: &[u8] = &[0x01];
const WRONG_LENGTH: &[u8] = &[0x02];

pub struct Label {
    /// What a host reads: status 0, and the label.
    read: Vec<u8>,
}

impl Label {
    /// An empty one.
    pub fn new() -> Label {
        Label { read: vec![OK] }
    }

    pub fn answer(&mut self, payload: &[u8]) -> &[u8] {
        match payload {
            [READ] => &self.read,
            [SET, label @ ..] if label.len() <= LONGEST => {
                self.read.truncate(1);
                self.read.extend(label);
                &[OK]
            }
            [] | [READ | SET, ..] => WRONG_LENGTH,
            _ => UNKNOWN,
        }
    }
}
