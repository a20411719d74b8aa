//! The archive's entries, as `include/snjofrask.h` has them, each behind a safe function: Rust's borrow rules give
//! what they need, valid and aligned parts that don't overlap. The oracle and the speed measurements use this file too.

// All states and answers are numbers without padding.

#[repr(C)]
#[derive(Clone, Copy, Debug, Default, PartialEq, Eq)]
pub struct MessageAssembler {
    pub deadline: u64,
    pub cid: u32,
    pub len: u32,
    pub taken: u32,
    pub cmd: u16,
    pub seq: u16,
}

#[repr(C)]
#[derive(Clone, Copy, Debug, Default, PartialEq, Eq)]
pub struct CtapHid {
    pub assembler: MessageAssembler,
    pub lock: u64,
    pub last: u64,
    pub vendor: u64,
    pub allocated: u32,
    pub locked: u32,
    pub max: u32,
    pub u2f: u8,
    pub spare: u8,
    pub still_due: u16,
}

#[repr(C)]
#[derive(Clone, Copy, Debug, Default, PartialEq, Eq)]
pub struct MainHid {
    pub hid: CtapHid,
    pub wink: u64,
}

#[repr(C)]
#[derive(Clone, Copy, Debug, Default, PartialEq, Eq)]
pub struct Collection {
    pub len: u16,
    pub taken: u16,
    pub cmd: u8,
    pub seq: u8,
}

#[repr(C)]
#[derive(Clone, Copy, Debug, Default, PartialEq, Eq)]
pub struct Outcome {
    pub len: usize,
    pub cid: u32,
    pub kind: u8,
    pub cmd: u8,
    pub refusal: u8,
    pub spare: u8,
}

#[repr(C)]
#[derive(Clone, Copy, Debug, Default, PartialEq, Eq)]
pub struct InitOutcome {
    pub cid: u32,
    pub protocol: u8,
    pub major: u8,
    pub minor: u8,
    pub build: u8,
    pub capabilities: u8,
    pub refusal: u8,
    pub rest: u16,
    pub nonce: [u8; 8],
}

#[repr(C)]
#[derive(Clone, Copy, Debug, Default, PartialEq, Eq)]
pub struct Wait {
    pub deadline: u64,
    pub last: u64,
    pub interface: u32,
    pub cid: u32,
}

#[repr(C)]
#[derive(Clone, Copy, Debug, Default, PartialEq, Eq)]
pub struct Sent {
    pub interface: u32,
    pub cid: u32,
    pub cmd: u8,
    pub byte: u8,
    pub spare: u16,
}

#[repr(C)]
#[derive(Clone, Copy, Debug, Default, PartialEq, Eq)]
pub struct WaitOutcome {
    pub sent: [Sent; 2],
    pub count: u8,
    pub ending: u8,
    pub error: u8,
    pub refusal: u8,
}

const _: () = assert!(size_of::<MessageAssembler>() == 24 && size_of::<CtapHid>() == 64);
const _: () = assert!(size_of::<MainHid>() == 72 && size_of::<Collection>() == 6);
const _: () = assert!(size_of::<Outcome>() == size_of::<usize>() + 8);
const _: () = assert!(size_of::<InitOutcome>() == 20);
const _: () = assert!(size_of::<Wait>() == 24 && size_of::<Sent>() == 12);
const _: () = assert!(size_of::<WaitOutcome>() == 28);
const _: () = assert!(align_of::<CtapHid>() == 8 && align_of::<MainHid>() == 8);
const _: () = assert!(align_of::<Wait>() == 8 && align_of::<WaitOutcome>() == 4);

pub mod kind {
    pub const REFUSED: u8 = 0;
    pub const NOTHING: u8 = 1;
    pub const MESSAGE: u8 = 2;
    pub const ECHO: u8 = 3;
    pub const REPLY: u8 = 4;
    pub const FIRST: u8 = 5;
    pub const CONTINUATION: u8 = 6;
    pub const COUNT: u8 = 7;
    pub const IGNORED: u8 = 8;
    pub const KEEPALIVE: u8 = 9;
    pub const WAITING: u8 = 10;
    pub const COLLECTED: u8 = 11;
}

pub mod presence {
    pub const TIMEOUT: u8 = 0;
    pub const TOUCHED: u8 = 1;
    pub const FAILED: u8 = 2;
}

pub mod ending {
    pub const REFUSED: u8 = 0;
    pub const NOT_YET: u8 = 1;
    pub const TOUCHED: u8 = 2;
    pub const CANCELED: u8 = 3;
    pub const FAILED: u8 = 4;
    pub const TIMED_OUT: u8 = 5;
}

#[link(name = "snjofrask", kind = "static")]
unsafe extern "C" {
    fn snjofrask_transport_new(
        hid: *mut CtapHid,
        max: usize,
        u2f: u8,
        vendor: *const u8,
        vendor_len: usize,
    ) -> u8;
    fn snjofrask_transport_step(
        hid: *mut CtapHid,
        time: u64,
        disabled: u8,
        packet: *const u8,
        packet_len: usize,
        message: *mut u8,
        message_len: usize,
        reply: *mut u8,
        reply_len: usize,
    ) -> Outcome;
    fn snjofrask_is_locked(hid: *const CtapHid, time: u64) -> u8;
    fn snjofrask_device_new(
        hid: *mut MainHid,
        max: usize,
        u2f: u8,
        vendor: *const u8,
        vendor_len: usize,
    ) -> u8;
    fn snjofrask_device_step(
        hid: *mut MainHid,
        time: u64,
        disabled: u8,
        packet: *const u8,
        packet_len: usize,
        message: *mut u8,
        message_len: usize,
        reply: *mut u8,
        reply_len: usize,
    ) -> Outcome;
    fn snjofrask_is_winking(hid: *const MainHid, time: u64) -> u8;
    fn snjofrask_read_packet(packet: *const u8, packet_len: usize) -> Outcome;
    fn snjofrask_packet_count(len: usize) -> Outcome;
    fn snjofrask_write_packet(
        cid: u32,
        cmd: u8,
        payload: *const u8,
        payload_len: usize,
        index: usize,
        packet: *mut u8,
        packet_len: usize,
    ) -> u8;
    fn snjofrask_split_message(
        cid: u32,
        cmd: u8,
        payload: *const u8,
        payload_len: usize,
        internal_error: u8,
        index: usize,
        packet: *mut u8,
        packet_len: usize,
    ) -> u8;
    fn snjofrask_host_read(
        collection: *mut Collection,
        cid: u32,
        packet: *const u8,
        packet_len: usize,
        buffer: *mut u8,
        buffer_len: usize,
    ) -> Outcome;
    fn snjofrask_init_reply(cmd: u8, payload: *const u8, payload_len: usize) -> InitOutcome;
    fn snjofrask_ble_fragment_count(size: usize, len: usize) -> Outcome;
    fn snjofrask_ble_write_fragment(
        size: usize,
        cmd: u8,
        payload: *const u8,
        payload_len: usize,
        index: usize,
        buffer: *mut u8,
        buffer_len: usize,
    ) -> Outcome;
    fn snjofrask_ble_read_fragment(
        collection: *mut Collection,
        size: usize,
        fragment: *const u8,
        fragment_len: usize,
        buffer: *mut u8,
        buffer_len: usize,
    ) -> Outcome;
    fn snjofrask_wait_begin(wait: *mut Wait, interface: u32, cid: u32, time: u64, limit: u32)
    -> u8;
    fn snjofrask_wait_elapsed(wait: *const Wait, time: u64) -> u8;
    fn snjofrask_wait_step(
        wait: *mut Wait,
        time: u64,
        presence: u8,
        error: u8,
        arrived: u8,
        interface: u32,
        packet: *const u8,
        packet_len: usize,
    ) -> WaitOutcome;
}

pub fn transport_new(hid: &mut CtapHid, max: usize, u2f: bool, vendor: &[u8]) -> u8 {
    unsafe { snjofrask_transport_new(hid, max, u2f as u8, vendor.as_ptr(), vendor.len()) }
}

pub fn transport_step(
    hid: &mut CtapHid,
    time: u64,
    disabled: bool,
    packet: &[u8],
    message: &mut [u8],
    reply: &mut [u8],
) -> Outcome {
    unsafe {
        snjofrask_transport_step(
            hid,
            time,
            disabled as u8,
            packet.as_ptr(),
            packet.len(),
            message.as_mut_ptr(),
            message.len(),
            reply.as_mut_ptr(),
            reply.len(),
        )
    }
}

pub fn is_locked(hid: &CtapHid, time: u64) -> u8 {
    unsafe { snjofrask_is_locked(hid, time) }
}

pub fn device_new(hid: &mut MainHid, max: usize, u2f: bool, vendor: &[u8]) -> u8 {
    unsafe { snjofrask_device_new(hid, max, u2f as u8, vendor.as_ptr(), vendor.len()) }
}

pub fn device_step(
    hid: &mut MainHid,
    time: u64,
    disabled: bool,
    packet: &[u8],
    message: &mut [u8],
    reply: &mut [u8],
) -> Outcome {
    unsafe {
        snjofrask_device_step(
            hid,
            time,
            disabled as u8,
            packet.as_ptr(),
            packet.len(),
            message.as_mut_ptr(),
            message.len(),
            reply.as_mut_ptr(),
            reply.len(),
        )
    }
}

pub fn is_winking(hid: &MainHid, time: u64) -> u8 {
    unsafe { snjofrask_is_winking(hid, time) }
}

pub fn read_packet(packet: &[u8]) -> Outcome {
    unsafe { snjofrask_read_packet(packet.as_ptr(), packet.len()) }
}

pub fn packet_count(len: usize) -> Outcome {
    unsafe { snjofrask_packet_count(len) }
}

pub fn write_packet(cid: u32, cmd: u8, payload: &[u8], index: usize, packet: &mut [u8]) -> u8 {
    unsafe {
        snjofrask_write_packet(
            cid,
            cmd,
            payload.as_ptr(),
            payload.len(),
            index,
            packet.as_mut_ptr(),
            packet.len(),
        )
    }
}

pub fn split_message(
    cid: u32,
    cmd: u8,
    payload: &[u8],
    internal_error: u8,
    index: usize,
    packet: &mut [u8],
) -> u8 {
    unsafe {
        snjofrask_split_message(
            cid,
            cmd,
            payload.as_ptr(),
            payload.len(),
            internal_error,
            index,
            packet.as_mut_ptr(),
            packet.len(),
        )
    }
}

pub fn host_read(
    collection: &mut Collection,
    cid: u32,
    packet: &[u8],
    buffer: &mut [u8],
) -> Outcome {
    unsafe {
        snjofrask_host_read(
            collection,
            cid,
            packet.as_ptr(),
            packet.len(),
            buffer.as_mut_ptr(),
            buffer.len(),
        )
    }
}

pub fn init_reply(cmd: u8, payload: &[u8]) -> InitOutcome {
    unsafe { snjofrask_init_reply(cmd, payload.as_ptr(), payload.len()) }
}

pub fn ble_fragment_count(size: usize, len: usize) -> Outcome {
    unsafe { snjofrask_ble_fragment_count(size, len) }
}

pub fn ble_write_fragment(
    size: usize,
    cmd: u8,
    payload: &[u8],
    index: usize,
    buffer: &mut [u8],
) -> Outcome {
    unsafe {
        snjofrask_ble_write_fragment(
            size,
            cmd,
            payload.as_ptr(),
            payload.len(),
            index,
            buffer.as_mut_ptr(),
            buffer.len(),
        )
    }
}

pub fn ble_read_fragment(
    collection: &mut Collection,
    size: usize,
    fragment: &[u8],
    buffer: &mut [u8],
) -> Outcome {
    unsafe {
        snjofrask_ble_read_fragment(
            collection,
            size,
            fragment.as_ptr(),
            fragment.len(),
            buffer.as_mut_ptr(),
            buffer.len(),
        )
    }
}

pub fn wait_begin(wait: &mut Wait, interface: u32, cid: u32, time: u64, limit: u32) -> u8 {
    unsafe { snjofrask_wait_begin(wait, interface, cid, time, limit) }
}

pub fn wait_elapsed(wait: &Wait, time: u64) -> u8 {
    unsafe { snjofrask_wait_elapsed(wait, time) }
}

pub fn wait_step(
    wait: &mut Wait,
    time: u64,
    presence: u8,
    error: u8,
    arrived: bool,
    interface: u32,
    packet: &[u8],
) -> WaitOutcome {
    unsafe {
        snjofrask_wait_step(
            wait,
            time,
            presence,
            error,
            arrived as u8,
            interface,
            packet.as_ptr(),
            packet.len(),
        )
    }
}
