//! The bindings as firmware has them: no library but core, no allocator, no C library. A broadcast INIT goes through a device and, with the
//! feature for it, through each interface of a key, and a message over Bluetooth; the program ends with 0 if the replies are right and the message
//! returns. tests/bindings builds and runs it.
#![no_std]
#![no_main]

use core::arch::{asm, global_asm};
use core::panic::PanicInfo;
use snjofrask::ble::{Command, Fragments, Reader};
use snjofrask::{CHANNEL_BROADCAST, CtapHid, CtapHidCommand, MainHid, Message, Processed, Refusal};
#[cfg(feature = "vendor_hid")]
use snjofrask::{Key, Transport};

#[cfg(target_arch = "aarch64")]
global_asm!(".globl _start", "_start:", "b {main}", main = sym main);

#[cfg(target_arch = "x86_64")]
global_asm!(
    ".globl _start",
    "_start:",
    "and rsp, -16",
    "call {main}",
    "ud2",
    main = sym main
);

extern "C" fn main() -> ! {
    let is_right = device_welcomes() && key_welcomes() && fragments_return() == Ok(true);
    exit(if is_right { 0 } else { 1 })
}

const INIT: Message = Message {
    cid: CHANNEL_BROADCAST,
    cmd: CtapHidCommand::Init,
    payload: &[1, 2, 3, 4, 5, 6, 7, 8],
};

const WELCOME: Message = Message {
    payload: &[1, 2, 3, 4, 5, 6, 7, 8, 0, 0, 0, 1, 2, 1, 0, 0, 5],
    ..INIT
};

fn is_welcome(processed: Result<Processed, Refusal>) -> bool {
    match processed {
        Ok(Processed::Packets(packets)) => packets.eq(CtapHid::split_message(WELCOME)),
        _ => false,
    }
}

fn device_welcomes() -> bool {
    let mut buffer = [0; 1024];
    let Ok(mut device) = MainHid::new(&mut buffer, true, &[]) else {
        return false;
    };
    CtapHid::split_message(INIT)
        .all(|packet| is_welcome(device.process_hid_packet(0, &packet, false)))
}

#[cfg(not(feature = "vendor_hid"))]
fn key_welcomes() -> bool {
    true
}

#[cfg(feature = "vendor_hid")]
fn key_welcomes() -> bool {
    let (mut main, mut vendor) = ([0; 1024], [0; 1024]);
    let Ok(mut key) = Key::new(&mut main, &mut vendor, true, &[]) else {
        return false;
    };
    let mut is_welcomed_on = |transport| {
        CtapHid::split_message(INIT)
            .all(|packet| is_welcome(key.process_hid_packet(0, &packet, transport)))
    };
    is_welcomed_on(Transport::MainHid) && is_welcomed_on(Transport::VendorHid)
}

fn fragments_return() -> Result<bool, Refusal> {
    let (mut buffer, mut message) = ([0; 20], [0; 40]);
    let payload = WELCOME.payload;
    let mut fragments = Fragments::new(20, Command::Msg, payload)?;
    let mut reader = Reader::new(&mut message);
    let mut is_returned = false;
    while let Some(fragment) = fragments.next(&mut buffer)? {
        if let Some(message) = reader.take_fragment(20, fragment)? {
            is_returned = message.cmd == Command::Msg.byte() && message.payload == payload;
        }
    }
    Ok(is_returned)
}

#[cfg(target_arch = "aarch64")]
fn exit(status: i32) -> ! {
    unsafe { asm!("svc 0", in("x8") 93, in("x0") status, options(noreturn)) }
}

#[cfg(target_arch = "x86_64")]
fn exit(status: i32) -> ! {
    unsafe { asm!("syscall", in("rax") 60, in("rdi") status, options(noreturn)) }
}

#[panic_handler]
fn panic(_: &PanicInfo) -> ! {
    exit(2)
}

// What a compiler takes for granted. Volatile, so that no compiler makes a call of the same function of it.

#[unsafe(no_mangle)]
unsafe extern "C" fn memset(to: *mut u8, byte: i32, len: usize) -> *mut u8 {
    for at in 0..len {
        unsafe { to.add(at).write_volatile(byte as u8) }
    }
    to
}

#[unsafe(no_mangle)]
unsafe extern "C" fn memcpy(to: *mut u8, from: *const u8, len: usize) -> *mut u8 {
    for at in 0..len {
        unsafe { to.add(at).write_volatile(from.add(at).read()) }
    }
    to
}

#[unsafe(no_mangle)]
unsafe extern "C" fn bcmp(a: *const u8, b: *const u8, len: usize) -> i32 {
    for at in 0..len {
        let (x, y) = unsafe { (a.add(at).read_volatile(), b.add(at).read_volatile()) };
        if x != y {
            return x as i32 - y as i32;
        }
    }
    0
}

// The core library of a Linux target is built to unwind; nothing does here.
#[unsafe(no_mangle)]
extern "C" fn rust_eh_personality() {}
