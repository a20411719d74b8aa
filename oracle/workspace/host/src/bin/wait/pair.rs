//! OpenSK and ours, side by side: a step alone, and whole waits. Each call of ours is compared with the rules too.
use crate::counts::Counts;
use crate::definition::Definition;
use crate::env::{DELAY, Event, Key, LIMIT, Moment, Presence, Trouble, code};
use crate::ours::{self, Beginning, Call, Ours, Wait, WaitOutcome, ending, presence};
use crate::shortest::hex;
use crate::traffic::Setup;
use opensk::api::connection::UsbEndpoint;
use opensk::ctap::status_code::Ctap2StatusCode;
use opensk::ctap::{Channel, check_user_presence, oracle_wait_and_respond_busy};
use std::fmt::Debug;

const TIMEOUT: u8 = Ctap2StatusCode::CTAP2_ERR_USER_ACTION_TIMEOUT as u8;
const CANCEL: u8 = Ctap2StatusCode::CTAP2_ERR_KEEPALIVE_CANCEL as u8;

pub struct Pair {
    key: Key,
    ours: Ours,
    /// Our bindings are compared too.
    with_bindings: bool,
    /// What OpenSK has nothing like is compared with the rules.
    with_rules: bool,
    pub counts: Counts,
    /// What OpenSK asked of the key.
    wanted: Vec<Event>,
}

/// How a wait has ended.
#[derive(Clone, Copy)]
pub struct Ended {
    pub code: u8,
    /// How many moments were met.
    pub asked: usize,
}

fn same<T: PartialEq + Debug>(what: &str, wanted: T, ours: T) -> Result<(), String> {
    match wanted == ours {
        true => Ok(()),
        false => Err(format!(
            "{what}: wanted {wanted:02x?}, ours has {ours:02x?}"
        )),
    }
}

fn channel_of(setup: &Setup) -> Channel {
    let cid = setup.cid.to_be_bytes();
    match setup.endpoint {
        UsbEndpoint::MainHid => Channel::MainHid(cid),
        UsbEndpoint::VendorHid => Channel::VendorHid(cid),
    }
}

/// Ours knows no status codes, but for the sensor's: which one the caller answers.
fn code_of(outcome: &WaitOutcome) -> Result<u8, String> {
    match outcome.ending {
        ending::TOUCHED => Ok(0),
        ending::NOT_YET | ending::TIMED_OUT => Ok(TIMEOUT),
        ending::CANCELED => Ok(CANCEL),
        ending::FAILED => Ok(outcome.error),
        _ => Err(format!("a step: ours has {}", ours::shown(outcome))),
    }
}

impl Pair {
    /// A fault is planted in a stand-in for our library, which the bindings don't call.
    pub fn new(fault: &'static str, with_rules: bool) -> Self {
        Pair {
            key: Key::new(),
            ours: Ours {
                faulty: (!fault.is_empty()).then_some(Definition { fault }),
            },
            with_bindings: fault.is_empty(),
            with_rules,
            counts: Counts::default(),
            wanted: vec![],
        }
    }

    pub fn key(&mut self) -> &mut Key {
        &mut self.key
    }

    // ---- calls of ours, beside the rules

    pub fn begin(&mut self, wait: &mut Wait, with: &Beginning) -> Result<u8, String> {
        let mut wanted = *wait;
        let refusal = Definition { fault: "" }.begin(&mut wanted, with);
        let ours = self.ours.begin(wait, with);
        self.counts.begun[(refusal != 0) as usize] += 1;
        if self.with_rules {
            same("the beginning's refusal", refusal, ours)?;
            same("the wait that is begun", wanted, *wait)?;
        }
        Ok(ours)
    }

    pub fn elapsed(&mut self, wait: &Wait, time: u64) -> Result<u8, String> {
        let wanted = Definition { fault: "" }.elapsed(wait, time);
        let ours = self.ours.elapsed(wait, time);
        self.counts.elapsed[wanted.min(2) as usize] += 1;
        if self.with_rules {
            same("whether it has elapsed", wanted, ours)?;
        }
        Ok(ours)
    }

    pub fn step(&mut self, wait: &mut Wait, call: &Call) -> Result<WaitOutcome, String> {
        let came = *wait;
        let mut left = came;
        let wanted = Definition { fault: "" }.step(&mut left, call);
        let ours = self.ours.step(wait, call);
        self.counts.step(&came, call, &wanted);
        if self.with_rules {
            if wanted != ours {
                let [wanted, ours] = [wanted, ours].map(|outcome| ours::shown(&outcome));
                return Err(format!("a step: wanted {wanted}, ours has {ours}"));
            }
            same("the wait after a step", left, *wait)?;
        }
        Ok(ours)
    }

    // ---- OpenSK beside ours

    /// A step alone.
    pub fn alone(&mut self, setup: &Setup, moment: &Moment) -> Result<(), String> {
        self.key.interfaces = setup.interfaces;
        self.key.meet(*moment);
        let wanted = code(oracle_wait_and_respond_busy(
            &mut self.key,
            channel_of(setup),
        ));
        std::mem::swap(&mut self.key.events, &mut self.wanted);

        self.key.meet(*moment);
        let mut wait = self.begun(setup)?;
        let mut packet = [0; 64];
        let time = setup.start + moment.gap;
        let (ours, _) = self.our_step(&mut wait, time, &mut packet, true)?;
        same("the result of a step", wanted, ours)?;
        self.compare("a step")
    }

    /// A whole wait: OpenSK's, ours by a loop that asks whether the limit has elapsed, ours by one that leaves it to the step, and
    /// our bindings'.
    pub fn wait(&mut self, setup: &Setup) -> Result<Ended, String> {
        self.key.interfaces = setup.interfaces;
        self.key.reset(setup.start, usize::MAX);
        let wanted = code(check_user_presence(&mut self.key, channel_of(setup)));
        std::mem::swap(&mut self.key.events, &mut self.wanted);
        // what ours meets is what OpenSK has met
        self.key.maker = None;
        let asked = self.key.asked;
        // nor does anything fail that OpenSK did not ask for
        if let Some(unasked) = self.key.moments.get_mut(asked) {
            unasked.trouble = Trouble::None;
        }

        for (name, asks) in [("a wait", true), ("a wait that doesn't ask", false)] {
            self.key.reset(setup.start, asked + 1);
            same(name, wanted, self.our_wait(setup, asks)?)?;
            self.compare(name)?;
        }
        if self.with_bindings {
            self.key.reset(setup.start, asked + 1);
            same("a wait of the bindings", wanted, self.bindings(setup)?)?;
            self.compare("a wait of the bindings")?;
        }
        let code = wanted;
        Ok(Ended { code, asked })
    }

    /// OpenSK's wait and our bindings', touched after a trouble of the key: the result, how often the key was asked, and how many
    /// packets it sent.
    pub fn after(&mut self, trouble: Trouble) -> [(u8, usize, usize); 2] {
        let setup = Setup {
            endpoint: UsbEndpoint::MainHid,
            cid: 1,
            start: 0,
            interfaces: [1, 2],
        };
        let moment = |presence, trouble| Moment {
            gap: 100,
            presence,
            arrived: None,
            trouble,
        };
        let moments = [
            moment(Presence::Timeout, trouble),
            moment(Presence::Touched, Trouble::None),
        ];
        let is_sent = |event: &&Event| matches!(event, Event::Sent(..));
        [true, false].map(|is_opensk| {
            self.key.moments = moments.to_vec();
            self.key.interfaces = setup.interfaces;
            self.key.reset(setup.start, usize::MAX);
            let code = match is_opensk {
                true => code(check_user_presence(&mut self.key, channel_of(&setup))),
                false => self.bindings(&setup).unwrap(),
            };
            let sent = self.key.events.iter().filter(is_sent).count();
            (code, self.key.asked, sent)
        })
    }

    /// All that was asked of the key and sent by it, in order.
    fn compare(&self, name: &str) -> Result<(), String> {
        let (wanted, ours) = (&self.wanted, &self.key.events);
        let differs = |at: &usize| wanted.get(*at) != ours.get(*at);
        match (0..wanted.len().max(ours.len())).find(differs) {
            None => Ok(()),
            Some(at) => Err(format!(
                "{name}, event {at}: wanted {}, ours has {}",
                shown(wanted.get(at)),
                shown(ours.get(at))
            )),
        }
    }

    fn begun(&mut self, setup: &Setup) -> Result<Wait, String> {
        // any contents are taken
        let mut wait = Wait {
            deadline: 3,
            last: u64::MAX,
            interface: 5,
            cid: 7,
        };
        let with = Beginning {
            interface: self.key.number(setup.endpoint),
            cid: setup.cid,
            time: setup.start,
            limit: LIMIT as u32,
        };
        same("the beginning's refusal", 0, self.begin(&mut wait, &with)?)?;
        Ok(wait)
    }

    /// The caller's part of a step: it waits for sensor and packet, and sends what it is told to. Tells the code, and whether the
    /// wait is over. Where no packet came, the one before still stands there, or there is none.
    fn our_step(
        &mut self,
        wait: &mut Wait,
        time: u64,
        packet: &mut [u8; 64],
        lends: bool,
    ) -> Result<(u8, u8), String> {
        let (said, endpoint) = match self.key.wait(packet, DELAY as usize) {
            Ok(came) => came,
            Err(code) => return Ok((code as u8, ending::FAILED)),
        };
        let (presence, error) = match said {
            Presence::Touched => (presence::TOUCHED, 0xee),
            Presence::Timeout => (presence::TIMEOUT, 0xee),
            failed => (presence::FAILED, failed.number()),
        };
        let arrived = endpoint.is_some();
        let call = Call {
            time,
            presence,
            error,
            arrived,
            interface: endpoint.map_or(wait.interface, |endpoint| self.key.number(endpoint)),
            packet: if arrived || lends { packet } else { &[] },
        };
        let outcome = self.step(wait, &call)?;
        for sent in outcome.sent.iter().take(outcome.count as usize) {
            let endpoint = self.key.endpoint(sent.interface);
            let endpoint =
                endpoint.ok_or_else(|| format!("no interface of the key: {sent:02x?}"))?;
            let result = self.key.send(&ours::packet_of(sent)?, endpoint);
            // a busy error that can't be sent ends nothing
            if let (0x3b, Err(code)) = (sent.cmd, result) {
                return Ok((code as u8, ending::FAILED));
            }
        }
        Ok((code_of(&outcome)?, outcome.ending))
    }

    fn our_wait(&mut self, setup: &Setup, asks: bool) -> Result<u8, String> {
        self.key.init();
        let mut wait = self.begun(setup)?;
        self.key.look();
        let mut packet = [0; 64];
        let code = loop {
            let time = self.key.now;
            if asks {
                match self.elapsed(&wait, time)? {
                    0 => (),
                    1 => break TIMEOUT,
                    number => return Err(format!("whether it has elapsed: ours answers {number}")),
                }
            }
            match self.our_step(&mut wait, time, &mut packet, asks)? {
                (_, ending::NOT_YET) => (),
                (code, ending::TIMED_OUT) if !asks => {
                    // this was asked for nothing
                    if let Some(Event::Asked(_)) = self.key.events.last() {
                        self.key.events.pop();
                    }
                    break code;
                }
                (code, _) => break code,
            }
        };
        self.key.complete();
        Ok(code)
    }

    fn bindings(&mut self, setup: &Setup) -> Result<u8, String> {
        let channel = snjofrask::Channel {
            interface: self.key.number(setup.endpoint),
            cid: setup.cid.to_be_bytes(),
        };
        use snjofrask::{Ending, UserPresenceError};
        let limit = LIMIT as u32;
        match snjofrask::check_user_presence(&mut self.key, channel, limit, DELAY) {
            Ok(Ending::Touched) => Ok(0),
            Ok(Ending::TimedOut) => Ok(TIMEOUT),
            Ok(Ending::Canceled) => Ok(CANCEL),
            Ok(Ending::Failed(number)) => Ok(number),
            Err(UserPresenceError::Env(code)) => Ok(code as u8),
            ended => Err(format!("a wait of the bindings: {ended:?}")),
        }
    }
}

fn shown(event: Option<&Event>) -> String {
    match event {
        Some(Event::Sent(endpoint, packet)) => format!("{endpoint:?} {}", hex(packet)),
        Some(event) => format!("{event:?}"),
        None => "nothing".to_string(),
    }
}
