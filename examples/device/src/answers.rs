//! The canned table: what stands in for an authenticator.
use crate::label::Label;
use snjofrask::{CtapHidCommand, Message};

/// CTAP2 status: the host gave the request up.
pub const KEEPALIVE_CANCEL: &[u8] = &[0x2D];
/// CTAP2 status: no touch came.
pub const USER_ACTION_TIMEOUT: &[u8] = &[0x2F];

const OK: &[u8] = &[0x00];
const INVALID_COMMAND: &[u8] = &[0x01];
const INVALID_LENGTH: &[u8] = &[0x03];
const KEY_STORE_FULL: &[u8] = &[0x28];
const NO_CREDENTIALS: &[u8] = &[0x2E];

// status 0, and {1: ["U2F_V2", "FIDO_2_0"], 3: AAGUID, 4: {"rk": false, "up": true}, 5: 7609,
// 9: ["usb"], 10: [{"alg": -7, "type": "public-key"}]}: longer than a packet holds
const INFO: &[u8] = b"\x00\xA6\
    \x01\x82\x66U2F_V2\x68FIDO_2_0\
    \x03\x50snjofrask-device\
    \x04\xA2\x62rk\xF4\x62up\xF5\
    \x05\x19\x1D\xB9\
    \x09\x81\x63usb\
    \x0A\x81\xA2\x63alg\x26\x64type\x6Apublic-key";

const U2F_VERSION: &[u8] = b"U2F_V2\x90\x00";
const INS_NOT_SUPPORTED: &[u8] = &[0x6D, 0x00];
const CLA_NOT_SUPPORTED: &[u8] = &[0x6E, 0x00];

/// What is answered, and when.
pub enum Answer<'a> {
    AtOnce(&'a [u8]),
    AfterTouch(&'a [u8]),
}

/// The answer to MSG, CBOR or the vendor command.
pub fn answer<'a>(request: &Message, label: &'a mut Label) -> Answer<'a> {
    match request.cmd {
        CtapHidCommand::Msg => Answer::AtOnce(u2f(request.payload)),
        // no other is on the list
        CtapHidCommand::Vendor(_) => Answer::AtOnce(label.answer(request.payload)),
        _ => ctap2(request.payload),
    }
}

fn ctap2(payload: &[u8]) -> Answer<'static> {
    match payload {
        [] => Answer::AtOnce(INVALID_LENGTH),
        [0x01, ..] => Answer::AfterTouch(KEY_STORE_FULL),
        [0x02, ..] => Answer::AfterTouch(NO_CREDENTIALS),
        [0x04] => Answer::AtOnce(INFO),
        [0x0B] => Answer::AfterTouch(OK),
        _ => Answer::AtOnce(INVALID_COMMAND),
    }
}

fn u2f(apdu: &[u8]) -> &'static [u8] {
    match apdu {
        // no data; the length that is expected in 0, 1 or 3 bytes
        [0, 0x03, 0, 0] | [0, 0x03, 0, 0, _] | [0, 0x03, 0, 0, 0, _, _] => U2F_VERSION,
        [0, ..] | [] => INS_NOT_SUPPORTED,
        _ => CLA_NOT_SUPPORTED,
    }
}
