//! Made-up waits: letters for all sequences, and random ones, all of which come from a seed.
use crate::definition::{BROADCAST, CANCEL, INIT, LAST_TIME};
use crate::env::{LIMIT, Moment, Presence, Trouble};
use crate::random::Random;
use opensk::api::connection::UsbEndpoint::{self, MainHid, VendorHid};
use opensk::ctap::hid::HidPacket;
use opensk::ctap::status_code::Ctap2StatusCode;

const PING: u8 = 0x81;
const CBOR: u8 = 0x90;
const VENDOR: u8 = 0xc0;
const CONTINUATION_17: u8 = 0x11;

pub const PRESENCES: [Presence; 4] = [
    Presence::Timeout,
    Presence::Touched,
    Presence::Declined,
    Presence::Canceled,
];

/// What the key may fail with. CTAP2_ERR_USER_ACTION_TIMEOUT is not among these: OpenSK takes it for no touch so far.
const CODES: [Ctap2StatusCode; 4] = [
    Ctap2StatusCode::CTAP2_ERR_VENDOR_HARDWARE_FAILURE,
    Ctap2StatusCode::CTAP1_ERR_OTHER,
    Ctap2StatusCode::CTAP2_ERR_KEEPALIVE_CANCEL,
    Ctap2StatusCode::CTAP2_ERR_USER_ACTION_PENDING,
];

/// The request that waits, and when it begins to.
#[derive(Clone, Copy, Debug)]
pub struct Setup {
    pub endpoint: UsbEndpoint,
    pub cid: u32,
    pub start: u64,
    /// The numbers that ours has for the interfaces.
    pub interfaces: [u32; 2],
}

pub fn other(endpoint: UsbEndpoint) -> UsbEndpoint {
    match endpoint {
        MainHid => VendorHid,
        VendorHid => MainHid,
    }
}

pub fn packet(cid: u32, fifth: u8, len: u16) -> HidPacket {
    let mut packet = [0; 64];
    packet[..4].copy_from_slice(&cid.to_be_bytes());
    packet[4] = fifth;
    packet[5..7].copy_from_slice(&len.to_be_bytes());
    packet
}

/// For all sequences: each is a time after the one before, what the sensor says, and a packet or none. Two of 15,000 ms meet the
/// limit, one of them with one of 14,999 or 15,001 ms just misses it.
pub fn letters(setup: &Setup) -> Vec<Moment> {
    use Presence::{Canceled, Declined, Timeout, Touched};
    let (own, cid) = (setup.endpoint, setup.cid);
    let foreign = other(own);
    let on = |endpoint, cid, fifth, len| Some((endpoint, packet(cid, fifth, len)));
    let mut letters: Vec<Moment> = [
        (0, Timeout, None),
        (1, Timeout, None),
        (100, Timeout, None),
        (14_999, Timeout, None),
        (15_000, Timeout, None),
        (15_001, Timeout, on(foreign, cid, PING, 1)),
        (29_999, Timeout, None),
        (30_000, Timeout, on(own, cid ^ 2, PING, 1)),
        (100, Touched, None),
        (29_999, Touched, None),
        (30_000, Touched, None),
        (100, Declined, None),
        (100, Canceled, None),
        // the request's own channel
        (100, Timeout, on(own, cid, PING, 1)),
        (100, Timeout, on(own, cid, INIT, 8)),
        (100, Timeout, on(own, cid, VENDOR, 300)),
        (100, Timeout, on(own, cid, CONTINUATION_17, 0)),
        (100, Touched, on(own, cid, CBOR, 1)),
        (100, Timeout, on(own, cid, CANCEL, 0)),
        (100, Touched, on(own, cid, CANCEL, 1)),
        (100, Declined, on(own, cid, CANCEL, 65_535)),
        (15_000, Timeout, on(own, cid, CANCEL, 0)),
        (29_999, Timeout, on(own, cid, CANCEL, 0)),
        (30_000, Timeout, on(own, cid, CANCEL, 0)),
        // others
        (100, Timeout, on(own, cid ^ 2, CANCEL, 0)),
        (100, Timeout, on(foreign, cid, CANCEL, 0)),
        (100, Timeout, on(foreign, cid ^ 2, 0, 0)),
        (100, Timeout, on(own, BROADCAST, INIT, 8)),
        (100, Timeout, on(own, 0, INIT, 8)),
        (100, Touched, on(own, cid ^ 2, PING, 1)),
        (100, Touched, on(foreign, BROADCAST, INIT, 8)),
        (100, Canceled, on(own, cid ^ 2, CONTINUATION_17, 0)),
    ]
    .map(|(gap, presence, arrived)| Moment {
        gap,
        presence,
        arrived,
        trouble: Trouble::None,
    })
    .into();
    // what fails in the key ends a wait, but for a busy error
    let failing = CODES[0];
    for (trouble, presence, arrived) in [
        (Trouble::Waiting(failing), Touched, None),
        (Trouble::Sending(failing), Timeout, None),
        (
            Trouble::Sending(failing),
            Timeout,
            on(own, cid ^ 2, PING, 1),
        ),
        (
            Trouble::Sending(failing),
            Touched,
            on(own, cid ^ 2, PING, 1),
        ),
    ] {
        letters.push(Moment {
            gap: 100,
            presence,
            arrived,
            trouble,
        });
    }
    letters
}

/// For a step alone, each with every answer of the sensor: nothing, and packets on both interfaces, of each kind and number.
pub fn arrivals(cid: u32) -> Vec<Option<(UsbEndpoint, HidPacket)>> {
    let mut all = vec![None];
    let channels = [cid, cid ^ 1, cid ^ 1 << 16, 0, 2, BROADCAST];
    for endpoint in [MainHid, VendorHid] {
        for channel in channels {
            for fifth in 0..=255 {
                for len in [0, 1, 256, 65_535] {
                    let mut packet = packet(channel, fifth, len);
                    packet[7..].fill(fifth ^ len as u8);
                    all.push(Some((endpoint, packet)));
                }
            }
        }
    }
    all
}

pub fn setup(random: &mut Random) -> Setup {
    let latest = LAST_TIME - LIMIT;
    let small = random.below(100_000) as u64;
    let anytime = random.next() % (latest + 1);
    let any = random.next() as u32;
    let one = random.of(&[0, 1, 255, any]);
    let bit = 1 << random.below(32);
    let another = random.of(&[one ^ 1, one ^ bit, one ^ 0x100, !one]);
    Setup {
        endpoint: random.of(&[MainHid, VendorHid]),
        cid: random.of(&[1, 2, 0x0102_0304, 0xffff_fffe, 0, BROADCAST, any, any]),
        start: random.of(&[
            0,
            small,
            (1 << 32) - 1 - small / 2,
            latest,
            latest - small,
            anytime,
        ]),
        interfaces: random.of(&[[1, 2], [one, another]]),
    }
}

/// Makes up what comes in a random wait, moment by moment.
pub struct Maker {
    random: Random,
    endpoint: UsbEndpoint,
    cid: u32,
    /// One moment in about so many ends it.
    patience: usize,
    /// The longest time between two moments, but for those that go on to the limit.
    pace: usize,
}

impl Maker {
    pub fn new(random: &mut Random, setup: &Setup) -> Self {
        Maker {
            random: Random::new(random.next()),
            endpoint: setup.endpoint,
            cid: setup.cid,
            patience: random.of(&[2, 4, 8, 30, 100, 400]),
            pace: random.of(&[0, 10, 100, 100, 101, 1000, 5000, 20_000]),
        }
    }

    pub fn moment(&mut self, now: u64, deadline: u64) -> Moment {
        let random = &mut self.random;
        let gap = if random.one_in(self.patience) {
            let past = random.below(40_000) as u64;
            let then = random.of(&[
                deadline - 2,
                deadline - 1,
                deadline - 1,
                deadline,
                deadline + 1,
                deadline + past,
            ]);
            then.saturating_sub(now)
        } else {
            let any = random.below(self.pace + 1);
            random.of(&[any, any, 100.min(self.pace)]) as u64
        };
        let presence = if random.one_in(self.patience) {
            random.of(&PRESENCES)
        } else {
            Presence::Timeout
        };
        let trouble = if random.one_in(8 * self.patience) {
            let code = random.of(&CODES);
            random.of(&[Trouble::Waiting(code), Trouble::Sending(code)])
        } else {
            Trouble::None
        };
        Moment {
            gap,
            presence,
            arrived: (!random.one_in(3)).then(|| self.arrival()),
            trouble,
        }
    }

    fn arrival(&mut self) -> (UsbEndpoint, HidPacket) {
        let random = &mut self.random;
        let endpoint = random.of(&[self.endpoint, self.endpoint, other(self.endpoint)]);
        let any = random.next() as u32;
        let near = self.cid ^ 1 << random.below(32);
        let own = self.cid;
        let cid = random.of(&[own, own, own, own, near, near, BROADCAST, 0, any]);
        let mut packet = [0; 64];
        random.fill(&mut packet);
        packet[..4].copy_from_slice(&cid.to_be_bytes());
        let any = packet[4];
        packet[4] = random.of(&[
            CANCEL,
            CANCEL,
            CONTINUATION_17,
            INIT,
            PING,
            CBOR,
            VENDOR,
            0,
            0x92,
            any,
            any,
        ]);
        let is_own = endpoint == self.endpoint && cid == own;
        if is_own && packet[4] == CANCEL && !random.one_in(self.patience.div_ceil(4)) {
            packet[4] = random.of(&[CONTINUATION_17, INIT]);
        }
        if random.one_in(2) {
            let len: u16 = random.of(&[0, 0, 1, 8, 57, 58, 7609, 65_535]);
            packet[5..7].copy_from_slice(&len.to_be_bytes());
        }
        (endpoint, packet)
    }
}
