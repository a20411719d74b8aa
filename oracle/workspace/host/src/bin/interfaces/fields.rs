//! The numbers of a key's record, by their names.
use crate::ours::Key;

/// A number of the record.
pub struct Field {
    pub name: &'static str,
    pub get: fn(&Key) -> u64,
    pub set: fn(&mut Key, u64),
    /// Whether a value of it can make the record unsound.
    pub is_judged: bool,
}

macro_rules! fields {
    ($($judged:literal $($name:ident).+: $number:ty,)*) => {{
        // there are no others
        assert!(0 $(+ size_of::<$number>())* == size_of::<Key>());
        [$(Field {
            name: stringify!($($name).+),
            get: |key| key.$($name).+ as u64,
            set: |key, number| key.$($name).+ = number as $number,
            is_judged: $judged,
        }),*]
    }};
}

pub const FIELDS: [Field; 28] = fields![
    true main.hid.assembler.deadline: u64,
    true main.hid.assembler.cid: u32,
    true main.hid.assembler.len: u32,
    true main.hid.assembler.taken: u32,
    true main.hid.assembler.cmd: u16,
    true main.hid.assembler.seq: u16,
    true main.hid.lock: u64,
    true main.hid.last: u64,
    false main.hid.vendor: u64,
    true main.hid.allocated: u32,
    true main.hid.locked: u32,
    true main.hid.max: u32,
    false main.hid.u2f: u8,
    false main.hid.spare: u8,
    true main.hid.still_due: u16,
    true main.wink: u64,
    true vendor.assembler.deadline: u64,
    true vendor.assembler.cid: u32,
    true vendor.assembler.len: u32,
    true vendor.assembler.taken: u32,
    true vendor.assembler.cmd: u16,
    true vendor.assembler.seq: u16,
    true vendor.lock: u64,
    true vendor.allocated: u32,
    true vendor.locked: u32,
    true vendor.max: u32,
    false vendor.spare: u16,
    true vendor.still_due: u16,
];

/// A record against the one that it must be. Tells the first number that is another.
pub fn compare(what: &str, wanted: &Key, ours: &Key) -> Result<(), String> {
    if wanted == ours {
        return Ok(());
    }
    let differs = |field: &&Field| (field.get)(wanted) != (field.get)(ours);
    let Field { name, get, .. } = FIELDS.iter().find(differs).unwrap();
    Err(format!(
        "{what}, {name}: wanted {:x}, ours has {:x}",
        get(wanted),
        get(ours)
    ))
}
