//! OpenSK's device behind entries for C, for the same uses as ours has them. speed/cortex-m4 takes its size.
#![no_std]

extern crate alloc;

mod heap;

use core::mem::MaybeUninit;
use core::panic::PanicInfo;
use host::HostEnv;
use opensk::ctap::CtapState;
use opensk::ctap::hid::{HidPacket, HidPacketIterator};
use opensk::ctap::main_hid::MainHid;

pub struct Device {
    env: HostEnv,
    hid: MainHid<HostEnv>,
    authenticator: CtapState<HostEnv>,
    packets: HidPacketIterator,
}

#[unsafe(no_mangle)]
extern "C" fn opensk_device_new(at: &mut MaybeUninit<Device>, max: usize) {
    let mut env = HostEnv::new(max);
    at.write(Device {
        hid: MainHid::default(),
        authenticator: CtapState::new(&mut env),
        packets: HidPacketIterator::none(),
        env,
    });
}

/// What is to be sent is kept for opensk_next_packet.
#[unsafe(no_mangle)]
extern "C" fn opensk_device_step(
    device: &mut Device,
    time: u64,
    disabled: bool,
    packet: &HidPacket,
) {
    device.env.now.0 = time;
    device.packets =
        device
            .hid
            .process_hid_packet(&mut device.env, packet, disabled, &mut device.authenticator);
}

#[unsafe(no_mangle)]
extern "C" fn opensk_next_packet(device: &mut Device, packet: &mut HidPacket) -> bool {
    match device.packets.next() {
        Some(next) => {
            *packet = next;
            true
        }
        None => false,
    }
}

#[unsafe(no_mangle)]
extern "C" fn opensk_is_winking(device: &mut Device, time: u64) -> bool {
    device.env.now.0 = time;
    device.hid.should_wink(&mut device.env)
}

#[unsafe(no_mangle)]
extern "C" fn opensk_is_locked(device: &mut Device, time: u64) -> bool {
    device.env.now.0 = time;
    device.hid.has_channel_lock(&mut device.env)
}

// says nothing, so that no text of a panic counts
#[panic_handler]
fn panicked(_: &PanicInfo) -> ! {
    loop {}
}
