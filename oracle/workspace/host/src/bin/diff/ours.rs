//! Our library, by the entries that the bindings declare (bindings/rust/src/raw.rs, linked beside this file by oracle/layout).
#[path = "raw.rs"]
#[allow(dead_code)]
pub mod raw;

pub use raw::kind::*;
pub use raw::*;

pub fn transport_new(max: usize, u2f: bool, vendor: &[u8]) -> (CtapHid, u8) {
    let mut hid = CtapHid::default();
    let refusal = raw::transport_new(&mut hid, max, u2f, vendor);
    (hid, refusal)
}

pub fn device_new(max: usize, u2f: bool, vendor: &[u8]) -> (MainHid, u8) {
    let mut hid = MainHid::default();
    let refusal = raw::device_new(&mut hid, max, u2f, vendor);
    (hid, refusal)
}
