//! CTAPHID: FIDO messages over USB HID in packets of 64 bytes. Over Bluetooth, in fragments: [`ble`].
//!
//! A safe interface over Snjofrask's archive, whose every function is proved (`docs/PROMISES.md` in its repository).
//! Nothing here allocates or panics, and there are no globals: a state is a value of the caller's, which holds the
//! buffer that it was lent. The names are those of OpenSK's `CtapHid` and `MainHid`. What differs:
//!
//! - Time is an argument: whole milliseconds from any beginning, which never go back.
//! - Payloads are slices, of the buffer that the caller lent at set-up or of the caller's own.
//! - A call that makes no sense is refused: [`Refusal`].
//! - MSG and CBOR come back to the caller, who sends the whole answer by [`CtapHid::split_message`]. So do the vendor
//!   commands that are listed at set-up; OpenSK has none.
//! - A command that the device doesn't know is told so at its first packet, and not when the message is whole.
//! - A wait for a touch, [`check_user_presence`], takes its limit as an argument, and asks the key for the rest: [`Env`].
//! - With the feature `vendor_hid` there is `Key`, with two interfaces, as in OpenSK's `Ctap` with its feature of this name.
//!
//! A device:
//!
//! ```
//! use snjofrask::{CtapHid, CtapHidCommand, MainHid, Message, Processed};
//!
//! let mut buffer = [0; 1024];
//! let mut device = MainHid::new(&mut buffer, true, &[])?;
//! let mut sent = Vec::new();
//!
//! // a host asks for a channel, and then what this device is: CBOR with the one byte 4
//! let mut init = [0; 64];
//! init[..7].copy_from_slice(&[0xFF, 0xFF, 0xFF, 0xFF, 0x86, 0, 8]);
//! let mut cbor = [0; 64];
//! cbor[..8].copy_from_slice(&[0, 0, 0, 1, 0x90, 0, 1, 4]);
//!
//! for (time_ms, packet) in [(0, init), (5, cbor)] {
//!     match device.process_hid_packet(time_ms, &packet, false)? {
//!         Processed::Packets(packets) => sent.extend(packets),
//!         Processed::Request(request) => {
//!             assert_eq!((request.cmd, request.payload), (CtapHidCommand::Cbor, &[4][..]));
//!             let answer = Message { payload: &[0x01], ..request };
//!             sent.extend(CtapHid::split_message(answer));
//!         }
//!     }
//! }
//! assert_eq!(sent[0][..7], [0xFF, 0xFF, 0xFF, 0xFF, 0x86, 0, 17]);
//! assert_eq!(sent[0][15..24], [0, 0, 0, 1, 2, 1, 0, 0, 5]);
//! assert_eq!(sent[1][..9], [0, 0, 0, 1, 0x90, 0, 1, 0x01, 0]);
//! # Ok::<(), snjofrask::Refusal>(())
//! ```
//!
//! In the repository `firmware/build TARGET` writes the archive for x86-64 (as `x86_64`), Cortex-M4, Cortex-M33, RISC-V of 32
//! bits and AArch64; the environment variable `SNJOFRASK_LIB` names its folder if it is elsewhere. The feature `vendor_hid`
//! needs a second archive in the same folder: `firmware/build` writes both. On x86-64 they use the 128 bytes below the stack
//! pointer, so an interrupt handler on the same stack has to skip them.
#![no_std]
#![deny(missing_docs, unsafe_code)]

#[cfg(not(any(
    target_arch = "x86_64",
    target_arch = "aarch64",
    target_arch = "arm",
    target_arch = "riscv32"
)))]
compile_error!("there is no archive for this processor");

#[cfg(target_endian = "big")]
compile_error!("every archive is for little endian");

pub mod ble;
mod hid;
mod host;
#[cfg(feature = "vendor_hid")]
mod key;
mod main_hid;
mod message;
// all of the archive, of which this crate uses a part
#[allow(unsafe_code, dead_code)]
mod raw;
#[cfg(feature = "vendor_hid")]
#[allow(unsafe_code)]
mod raw_key;
mod send;
mod touch;

pub use hid::{CtapHid, Parsed};
pub use host::{Collection, InitReply, Progress, init_reply};
#[cfg(feature = "vendor_hid")]
pub use key::{Key, Transport};
pub use main_hid::{MainHid, Processed};
pub use message::{
    CHANNEL_BROADCAST, ChannelID, CtapHidCommand, CtapHidError, HidPacket, KeepaliveStatus,
    Message, ProcessedPacket, Refusal, VendorCommand,
};
pub use send::HidPacketIterator;
pub use touch::{
    Channel, Ending, Env, RecvStatus, Responded, UserPresence, UserPresenceError, Wait,
    check_user_presence,
};

/// The largest payload of a message, in bytes.
pub const LARGEST_PAYLOAD: usize = 7609;

/// The latest time, in milliseconds.
pub const LAST_TIME_MS: u64 = 0xFFFF_FFFF_FFFF;
