//! The wait for a touch: the library's, with this device's button, pipes and clock.
use crate::pipe::{Pipes, Received};
use snjofrask::{
    Channel, Ending, Env, HidPacket, RecvStatus, UserPresence, UserPresenceError,
    check_user_presence,
};
use std::env;
use std::error::Error;
use std::io;
use std::time::{Duration, Instant};

const KEEPALIVE_DELAY_MS: u32 = 100;

/// When a touch comes, if ever, and when waiting for one ends.
pub struct Touch {
    after: Option<Duration>,
    timeout_ms: u32,
}

impl Touch {
    pub fn from_variables() -> Result<Touch, String> {
        let after = match env::var("SNJOFRASK_TOUCH").as_deref() {
            Err(_) | Ok("none") => None,
            Ok("now") => Some(0),
            Ok(text) => Some(milliseconds("SNJOFRASK_TOUCH", text)?),
        };
        let timeout_ms = match env::var("SNJOFRASK_TOUCH_TIMEOUT").as_deref() {
            Err(_) => 30_000,
            Ok(text) => milliseconds("SNJOFRASK_TOUCH_TIMEOUT", text)?,
        };
        Ok(Touch {
            after: after.map(|ms| Duration::from_millis(ms.into())),
            timeout_ms,
        })
    }

    /// How the wait ends for a request of this channel. It is left as [`Ending::NotYet`] at the end of input.
    pub fn wait(&self, channel: Channel, pipes: &Pipes) -> Result<Ending, Box<dyn Error>> {
        let mut key = Key {
            pipes,
            after: self.after,
            touched: None,
        };
        match check_user_presence(&mut key, channel, self.timeout_ms, KEEPALIVE_DELAY_MS) {
            Ok(ending) => Ok(ending),
            Err(UserPresenceError::Env(Stopped::EndOfInput)) => Ok(Ending::NotYet),
            Err(UserPresenceError::Env(Stopped::Failed(error))) => Err(error.into()),
            Err(UserPresenceError::Refused(refusal)) => Err(refusal.into()),
        }
    }
}

fn milliseconds(name: &str, text: &str) -> Result<u32, String> {
    text.parse()
        .map_err(|_| format!("{name} is {text}, which is no number of milliseconds"))
}

/// What the library asks during a wait.
struct Key<'a> {
    pipes: &'a Pipes,
    after: Option<Duration>,
    /// When the touch comes for which is waited.
    touched: Option<Instant>,
}

/// Why a wait can't go on.
enum Stopped {
    EndOfInput,
    Failed(io::Error),
}

impl From<io::Error> for Stopped {
    fn from(error: io::Error) -> Stopped {
        Stopped::Failed(error)
    }
}

impl Key<'_> {
    fn is_touched(&self) -> bool {
        self.touched.is_some_and(|at| at <= Instant::now())
    }
}

impl Env for Key<'_> {
    type Error = Stopped;

    fn now_ms(&mut self) -> u64 {
        self.pipes.now_ms()
    }

    fn check_init(&mut self) {
        self.touched = self.after.map(|after| Instant::now() + after);
    }

    /// Waits for a packet, the touch or the delay, whichever comes first. A packet that is there when the touch comes is taken
    /// with it.
    fn wait_with_timeout(
        &mut self,
        packet: &mut HidPacket,
        timeout_ms: u32,
    ) -> Result<(UserPresence, RecvStatus), Stopped> {
        let delayed = Instant::now() + Duration::from_millis(timeout_ms.into());
        let until = self.touched.map_or(delayed, |at| at.min(delayed));
        let received = match self.pipes.receive_until(until)? {
            Received::Packet(arrived) => {
                *packet = arrived.packet;
                RecvStatus::Received(arrived.interface)
            }
            // what was touched for is still answered
            Received::EndOfInput if !self.is_touched() => return Err(Stopped::EndOfInput),
            Received::EndOfInput | Received::Nothing => RecvStatus::Timeout,
        };
        let presence = match self.is_touched() {
            true => UserPresence::Touched,
            false => UserPresence::Timeout,
        };
        Ok((presence, received))
    }

    fn send(&mut self, packet: &HidPacket, interface: u32) -> Result<(), Stopped> {
        Ok(self.pipes.send(packet, interface)?)
    }

    fn check_complete(&mut self) {
        self.touched = None;
    }
}
