//! A buffer that is lent, with bytes around it that nobody may write.
#[derive(Clone, Debug, PartialEq, Eq)]
pub struct Lent {
    pub bytes: Vec<u8>,
    len: usize,
}

const FENCE: usize = 64;

impl Lent {
    pub fn new(len: usize) -> Self {
        let bytes = vec![0xa5; len + 2 * FENCE];
        Lent { bytes, len }
    }

    pub fn part(&mut self) -> &mut [u8] {
        &mut self.bytes[FENCE..FENCE + self.len]
    }

    pub fn front(&self, len: usize) -> &[u8] {
        &self.bytes[FENCE..FENCE + len.min(self.len)]
    }

    /// As a caller may between two calls: other bytes behind those that it owes.
    pub fn scribble(&mut self, owed: usize, first: u8) {
        let free = &mut self.part()[owed..];
        free.copy_from_slice(&COUNTING[first as usize..][..free.len()]);
    }

    /// Whether it holds what it must, the bytes around it too.
    pub fn compare(&self, name: &str, ours: &Lent) -> Result<(), String> {
        let both = self.bytes.iter().zip(&ours.bytes);
        if self.bytes != ours.bytes {
            let at = both.map(|(a, b)| a != b).position(|differs| differs);
            return Err(format!(
                "{name} buffer: byte {} is not what the definition says",
                at.unwrap() as isize - FENCE as isize
            ));
        }
        Ok(())
    }
}

/// As a definition writes to what it is lent: what does not fit is left out.
pub fn write(part: &mut [u8], at: usize, data: &[u8]) {
    let end = (at + data.len()).min(part.len());
    if at < end {
        part[at..end].copy_from_slice(&data[..end - at]);
    }
}

/// What is scribbled: one up from byte to byte.
static COUNTING: [u8; 8192] = {
    let mut bytes = [0; 8192];
    let mut at = 0;
    while at < bytes.len() {
        bytes[at] = at as u8;
        at += 1;
    }
    bytes
};

/// The first byte of the scribble after one.
pub fn next_scribble(first: u8) -> u8 {
    first.wrapping_add(0x3b)
}
