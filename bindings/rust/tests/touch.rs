//! A key that waits for a touch, by a script: what its sensor says, which packets come, what can't be sent.
// of which packets are all that is needed here
#[allow(dead_code)]
mod common;

use common::packet;
use snjofrask::{
    CHANNEL_BROADCAST, Channel, ChannelID, CtapHid, CtapHidCommand, Ending, Env, HidPacket,
    LAST_TIME_MS, MainHid, Message, Processed, RecvStatus, Refusal, UserPresence,
    UserPresenceError, Wait, check_user_presence,
};
use std::collections::VecDeque;

const LIMIT_MS: u32 = 30_000;
const DELAY_MS: u32 = 100;

const MAIN: u32 = 1;
const VENDOR: u32 = 2;
const ONE: ChannelID = [0, 0, 0, 1];
const TWO: ChannelID = [0, 0, 0, 2];
const OWN: Channel = Channel {
    interface: MAIN,
    cid: ONE,
};

fn cancel(cid: ChannelID) -> HidPacket {
    packet(cid, CtapHidCommand::Cancel, 0, 0)
}

/// What is said of a key, in order.
#[derive(Clone, Copy, Debug, PartialEq, Eq)]
enum Said {
    Init,
    Waits(u32),
    Busy(u32, ChannelID),
    Keepalive(u32, ChannelID),
    Complete,
}
use Said::{Busy, Complete, Init, Keepalive, Waits};

const ALIVE: Said = Keepalive(MAIN, ONE);
const STEP: Said = Waits(DELAY_MS);

/// A packet that is sent: nothing but these two.
fn said(packet: &HidPacket, interface: u32) -> Said {
    let (cid, _) = CtapHid::process_single_packet(packet);
    let said = match packet[4..8] {
        [0xBF, 0, 1, 6] => Busy(interface, cid),
        [0xBB, 0, 1, 2] => Keepalive(interface, cid),
        _ => panic!("{packet:?}"),
    };
    assert_eq!(packet[8..], [0; 56]);
    said
}

/// What can go wrong with a key.
#[derive(Clone, Copy, Debug, PartialEq, Eq)]
enum Fault {
    Wait,
    Send,
}

/// How a wait of the key goes: how long it takes, what its sensor says then, and what has come on which interface.
type Step = Result<(u64, UserPresence, Option<(u32, HidPacket)>), Fault>;

/// What happens to a key. When the script is at its end nothing does, for as long as the key waits.
#[derive(Default)]
struct Key {
    now_ms: u64,
    script: VecDeque<Step>,
    /// What can't be sent.
    stuck: Option<Said>,
    said: Vec<Said>,
}

impl Env for Key {
    type Error = Fault;

    fn now_ms(&mut self) -> u64 {
        self.now_ms
    }

    fn check_init(&mut self) {
        self.said.push(Init);
    }

    fn wait_with_timeout(
        &mut self,
        packet: &mut HidPacket,
        timeout_ms: u32,
    ) -> Result<(UserPresence, RecvStatus), Fault> {
        self.said.push(Waits(timeout_ms));
        let nothing = Ok((u64::from(timeout_ms), UserPresence::Timeout, None));
        let (waited_ms, presence, came) = self.script.pop_front().unwrap_or(nothing)?;
        self.now_ms = self.now_ms.wrapping_add(waited_ms);
        // where none has come, this is not looked at
        *packet = cancel(ONE);
        let Some((interface, came)) = came else {
            return Ok((presence, RecvStatus::Timeout));
        };
        *packet = came;
        Ok((presence, RecvStatus::Received(interface)))
    }

    fn send(&mut self, packet: &HidPacket, interface: u32) -> Result<(), Fault> {
        let said = said(packet, interface);
        self.said.push(said);
        if self.stuck == Some(said) {
            return Err(Fault::Send);
        }
        Ok(())
    }

    fn check_complete(&mut self) {
        self.said.push(Complete);
    }
}

/// A key with a script, from a time on.
fn scripted(now_ms: u64, script: &[Step]) -> Key {
    Key {
        now_ms,
        script: script.iter().copied().collect(),
        ..Key::default()
    }
}

/// Has a key wait. Between beginning and end it must say this.
#[track_caller]
fn must_end(
    mut key: Key,
    limit_ms: u32,
    wanted: Result<Ending, UserPresenceError<Fault>>,
    said: &[Said],
) {
    let ended = check_user_presence(&mut key, OWN, limit_ms, DELAY_MS);
    assert_eq!(ended, wanted);
    assert_eq!(key.said.first(), Some(&Init));
    assert_eq!(key.said.last(), Some(&Complete));
    assert_eq!(key.said[1..key.said.len() - 1], *said);
}

fn idle(waited_ms: u64) -> Step {
    Ok((waited_ms, UserPresence::Timeout, None))
}

fn senses(waited_ms: u64, presence: UserPresence) -> Step {
    Ok((waited_ms, presence, None))
}

fn comes(waited_ms: u64, interface: u32, packet: HidPacket) -> Step {
    Ok((waited_ms, UserPresence::Timeout, Some((interface, packet))))
}

#[test]
fn a_touch_ends_it() {
    let touch = senses(7, UserPresence::Touched);
    let touched = Ok(Ending::Touched);
    must_end(scripted(0, &[touch]), LIMIT_MS, touched, &[STEP]);
    let key = scripted(LAST_TIME_MS - 300, &[idle(100), idle(100), touch]);
    let wanted = [STEP, ALIVE, STEP, ALIVE, STEP];
    must_end(key, LIMIT_MS, touched, &wanted);
}

#[test]
fn cancel_ends_it_and_nothing_is_sent() {
    for presence in [
        UserPresence::Timeout,
        UserPresence::Touched,
        UserPresence::Failed(9),
    ] {
        for len in [0, 1, 57, 58, 2000] {
            let cancel = packet(ONE, CtapHidCommand::Cancel, len, 0);
            let key = scripted(5, &[idle(100), Ok((50, presence, Some((MAIN, cancel))))]);
            let wanted = [STEP, ALIVE, STEP];
            must_end(key, LIMIT_MS, Ok(Ending::Canceled), &wanted);
        }
    }
}

#[test]
fn a_sensor_that_fails_ends_it() {
    for number in [0, 1, 9, 0x2D, u8::MAX] {
        let key = scripted(5, &[idle(100), senses(1, UserPresence::Failed(number))]);
        let wanted = [STEP, ALIVE, STEP];
        must_end(key, LIMIT_MS, Ok(Ending::Failed(number)), &wanted);
    }
}

/// Packets of other channels: also of this one's number on the other interface, and CANCEL.
fn others() -> Vec<(u32, ChannelID, HidPacket)> {
    let mut others = Vec::new();
    for (interface, cid) in [
        (MAIN, TWO),
        (MAIN, CHANNEL_BROADCAST),
        (MAIN, [0; 4]),
        (VENDOR, ONE),
        (VENDOR, TWO),
        (VENDOR, CHANNEL_BROADCAST),
        (u32::MAX, ONE),
    ] {
        for packet in [
            cancel(cid),
            packet(cid, CtapHidCommand::Init, 8, 0),
            packet(cid, CtapHidCommand::Ping, 58, 1),
        ] {
            others.push((interface, cid, packet));
        }
    }
    others
}

#[test]
fn others_are_told_that_it_is_busy() {
    for (interface, cid, packet) in others() {
        let busy = Busy(interface, cid);
        let both = Ok((9, UserPresence::Touched, Some((interface, packet))));
        let key = scripted(0, &[comes(10, interface, packet), idle(100), both]);
        // first the other one, and then its own
        let wanted = [STEP, busy, ALIVE, STEP, ALIVE, STEP, busy];
        must_end(key, LIMIT_MS, Ok(Ending::Touched), &wanted);

        let both = Ok((9, UserPresence::Failed(3), Some((interface, packet))));
        let wanted = [STEP, busy];
        must_end(
            scripted(0, &[both]),
            LIMIT_MS,
            Ok(Ending::Failed(3)),
            &wanted,
        );
    }
}

#[test]
fn packets_of_its_own_are_dropped() {
    let mut own = vec![
        packet(ONE, CtapHidCommand::Init, 8, 0),
        packet(ONE, CtapHidCommand::Ping, 8, 0),
        packet(ONE, CtapHidCommand::Cbor, 58, 1),
    ];
    // its number is that of CANCEL
    own.push(packet(ONE, CtapHidCommand::Ping, 2000, 18));
    assert_eq!(own[3][4], 17);
    for packet in own {
        let both = Ok((9, UserPresence::Touched, Some((MAIN, packet))));
        let key = scripted(0, &[comes(10, MAIN, packet), both]);
        let wanted = [STEP, ALIVE, STEP];
        must_end(key, LIMIT_MS, Ok(Ending::Touched), &wanted);
    }
}

#[test]
fn a_keepalive_that_cannot_be_sent_ends_it() {
    let stuck = || Key {
        stuck: Some(ALIVE),
        ..Key::default()
    };
    let wanted = Err(UserPresenceError::Env(Fault::Send));
    must_end(stuck(), LIMIT_MS, wanted, &[STEP, ALIVE]);
    let mut key = stuck();
    key.script.push_back(comes(10, VENDOR, cancel(ONE)));
    let said = [STEP, Busy(VENDOR, ONE), ALIVE];
    must_end(key, LIMIT_MS, wanted, &said);
}

#[test]
fn an_error_to_another_that_cannot_be_sent_does_not() {
    let mut key = scripted(0, &[comes(10, MAIN, cancel(TWO)), idle(100)]);
    key.script.push_back(senses(1, UserPresence::Touched));
    key.stuck = Some(Busy(MAIN, TWO));
    let wanted = [STEP, Busy(MAIN, TWO), ALIVE, STEP, ALIVE, STEP];
    must_end(key, LIMIT_MS, Ok(Ending::Touched), &wanted);
}

#[test]
fn a_key_that_cannot_wait_ends_it() {
    let wanted = Err(UserPresenceError::Env(Fault::Wait));
    must_end(scripted(0, &[Err(Fault::Wait)]), LIMIT_MS, wanted, &[STEP]);
    let key = scripted(0, &[idle(100), Err(Fault::Wait)]);
    must_end(key, LIMIT_MS, wanted, &[STEP, ALIVE, STEP]);
}

#[test]
fn without_a_limit_nothing_is_asked() {
    let key = scripted(5, &[senses(0, UserPresence::Touched)]);
    must_end(key, 0, Ok(Ending::TimedOut), &[]);
}

#[test]
fn the_limit_is_looked_at_before_each_wait() {
    let mut key = Key::default();
    let ended = check_user_presence(&mut key, OWN, LIMIT_MS, DELAY_MS);
    assert_eq!((ended, key.now_ms), (Ok(Ending::TimedOut), 30_000));
    let waits = key.said.iter().filter(|said| **said == STEP).count();
    let alive = key.said.iter().filter(|said| **said == ALIVE).count();
    assert_eq!((waits, alive, key.said.len()), (300, 300, 602));

    // what comes in a wait that began in time counts, however late, and what is there after it is left
    for (limit_ms, wanted) in [(100, Ok(Ending::TimedOut)), (101, Ok(Ending::Touched))] {
        let key = scripted(5, &[idle(100), senses(5000, UserPresence::Touched)]);
        let said = [STEP, ALIVE, STEP];
        let said = if limit_ms == 100 { &said[..2] } else { &said };
        must_end(key, limit_ms, wanted, said);
    }
}

#[test]
fn a_clock_that_is_refused() {
    let wanted = Err(UserPresenceError::Refused(Refusal::Time));
    must_end(scripted(LAST_TIME_MS + 1, &[]), LIMIT_MS, wanted, &[]);
    // it goes back by 1, and past the last time
    let back = idle(u64::MAX);
    must_end(scripted(5, &[back]), LIMIT_MS, wanted, &[STEP, ALIVE]);
    let key = scripted(LAST_TIME_MS, &[idle(0), idle(1)]);
    let said = [STEP, ALIVE, STEP, ALIVE];
    must_end(key, LIMIT_MS, wanted, &said);
    let refused: UserPresenceError<Refusal> = Refusal::Time.into();
    let failed = UserPresenceError::Env(Refusal::Index);
    assert_eq!(refused.to_string(), Refusal::Time.to_string());
    assert_eq!(failed.to_string(), Refusal::Index.to_string());
}

#[test]
fn steps_of_a_wait() {
    let none = [0; 64];
    let begun = Wait::begin(OWN, 100, LIMIT_MS).unwrap();
    for (time_ms, is_elapsed) in [
        (99, Err(Refusal::Time)),
        (100, Ok(false)),
        (30_099, Ok(false)),
        (30_100, Ok(true)),
        (LAST_TIME_MS, Ok(true)),
        (LAST_TIME_MS + 1, Err(Refusal::Time)),
    ] {
        assert_eq!(begun.is_elapsed(time_ms), is_elapsed, "{time_ms}");
        for (presence, ending, alive) in [
            (UserPresence::Timeout, Ending::NotYet, 1),
            (UserPresence::Touched, Ending::Touched, 0),
            (UserPresence::Failed(7), Ending::Failed(7), 0),
        ] {
            let mut wait = begun.clone();
            let responded = wait.respond_busy(time_ms, presence, RecvStatus::Timeout, &none);
            let Ok(responded) = responded else {
                assert_eq!((responded.err(), &wait), (is_elapsed.err(), &begun));
                continue;
            };
            let (ending, alive) = match is_elapsed {
                Ok(true) => (Ending::TimedOut, 0),
                _ => (ending, alive),
            };
            assert_eq!((responded.ending, is_elapsed.is_ok()), (ending, true));
            let sent: Vec<_> = responded.packets().map(|(on, it)| said(&it, on)).collect();
            assert_eq!(sent, [ALIVE][..alive]);
            // the time of this step is the earliest of the next
            let earlier = time_ms.checked_sub(1).unwrap();
            assert_eq!(wait.is_elapsed(earlier), Err(Refusal::Time));
        }
    }
    assert_eq!(Wait::begin(OWN, LAST_TIME_MS + 1, 0), Err(Refusal::Time));
    assert!(Wait::begin(OWN, LAST_TIME_MS, u32::MAX).is_ok());
}

/// A request that a device hands out, with the touch that it asks for, and its answer: 0 or CTAP2_ERR_KEEPALIVE_CANCEL.
#[test]
fn a_request_of_a_device() {
    for (step, status, told) in [
        (senses(30, UserPresence::Touched), 0, vec![]),
        (comes(30, MAIN, cancel(ONE)), 0x2D, vec![]),
        (
            comes(30, MAIN, cancel(TWO)),
            0,
            vec![Busy(MAIN, TWO), ALIVE],
        ),
    ] {
        let mut buffer = [0; 100];
        let mut device = MainHid::new(&mut buffer, true, &[]).unwrap();
        let init = packet(CHANNEL_BROADCAST, CtapHidCommand::Init, 8, 0);
        let cbor = packet(ONE, CtapHidCommand::Cbor, 1, 0);
        device.process_hid_packet(0, &init, false).unwrap();
        let Ok(Processed::Request(request)) = device.process_hid_packet(0, &cbor, false) else {
            panic!();
        };
        let channel = Channel {
            interface: MAIN,
            cid: request.cid,
        };
        let mut key = scripted(10, &[step, senses(30, UserPresence::Touched)]);
        let ending = check_user_presence(&mut key, channel, LIMIT_MS, DELAY_MS);
        let payload: &[u8] = match ending {
            Ok(Ending::Touched) => &[0],
            Ok(Ending::Canceled) => &[0x2D],
            _ => panic!("{ending:?}"),
        };
        let answer = Message { payload, ..request };
        let sent = CtapHid::split_message(answer).next().unwrap();
        assert_eq!(sent[..8], [0, 0, 0, 1, 0x90, 0, 1, status]);
        key.said
            .retain(|said| !matches!(said, Init | Waits(_) | Complete));
        assert_eq!(key.said, told);
    }
}
