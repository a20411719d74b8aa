//! The entries of the archive for a key with two interfaces, as `raw.rs` has those of the other.
use super::raw::{MainHid, MessageAssembler, Outcome};

#[repr(C)]
#[derive(Clone, Copy, Debug, Default, PartialEq, Eq)]
pub struct VendorHid {
    pub assembler: MessageAssembler,
    pub lock: u64,
    pub allocated: u32,
    pub locked: u32,
    pub max: u32,
    pub spare: u16,
    pub still_due: u16,
}

#[repr(C)]
#[derive(Clone, Copy, Debug, Default, PartialEq, Eq)]
pub struct Key {
    pub main: MainHid,
    pub vendor: VendorHid,
}

const _: () = assert!(size_of::<VendorHid>() == 48 && size_of::<Key>() == 120);

#[link(name = "snjofrask_key", kind = "static")]
unsafe extern "C" {
    fn snjofrask_key_new(
        key: *mut Key,
        main: usize,
        vendor: usize,
        u2f: u8,
        commands: *const u8,
        commands_len: usize,
    ) -> u8;
    fn snjofrask_key_main_step(
        key: *mut Key,
        time: u64,
        packet: *const u8,
        packet_len: usize,
        message: *mut u8,
        message_len: usize,
        reply: *mut u8,
        reply_len: usize,
    ) -> Outcome;
    fn snjofrask_key_vendor_step(
        key: *mut Key,
        time: u64,
        packet: *const u8,
        packet_len: usize,
        message: *mut u8,
        message_len: usize,
        reply: *mut u8,
        reply_len: usize,
    ) -> Outcome;
    fn snjofrask_key_main_is_locked(key: *const Key, time: u64) -> u8;
    fn snjofrask_key_vendor_is_locked(key: *const Key, time: u64) -> u8;
    fn snjofrask_key_is_winking(key: *const Key, time: u64) -> u8;
}

pub fn new(key: &mut Key, main: usize, vendor: usize, u2f: bool, commands: &[u8]) -> u8 {
    unsafe {
        snjofrask_key_new(
            key,
            main,
            vendor,
            u2f as u8,
            commands.as_ptr(),
            commands.len(),
        )
    }
}

pub fn main_step(
    key: &mut Key,
    time: u64,
    packet: &[u8],
    message: &mut [u8],
    reply: &mut [u8],
) -> Outcome {
    unsafe {
        snjofrask_key_main_step(
            key,
            time,
            packet.as_ptr(),
            packet.len(),
            message.as_mut_ptr(),
            message.len(),
            reply.as_mut_ptr(),
            reply.len(),
        )
    }
}

pub fn vendor_step(
    key: &mut Key,
    time: u64,
    packet: &[u8],
    message: &mut [u8],
    reply: &mut [u8],
) -> Outcome {
    unsafe {
        snjofrask_key_vendor_step(
            key,
            time,
            packet.as_ptr(),
            packet.len(),
            message.as_mut_ptr(),
            message.len(),
            reply.as_mut_ptr(),
            reply.len(),
        )
    }
}

pub fn main_is_locked(key: &Key, time: u64) -> u8 {
    unsafe { snjofrask_key_main_is_locked(key, time) }
}

pub fn vendor_is_locked(key: &Key, time: u64) -> u8 {
    unsafe { snjofrask_key_vendor_is_locked(key, time) }
}

pub fn is_winking(key: &Key, time: u64) -> u8 {
    unsafe { snjofrask_key_is_winking(key, time) }
}
