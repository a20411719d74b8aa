//! A line on standard error that shows how many packets a message still needs, as a key's light would.
use std::io::{self, IsTerminal, Write};

/// How many packets are due, and before each number what says of which interface.
type StillDue = Vec<(&'static str, u16)>;

pub struct Progress {
    is_drawn: bool,
    /// What is in the line, and nothing where there is no line.
    shown: StillDue,
}

impl Progress {
    /// One that is drawn if it was asked for, and then only on a terminal: elsewhere a line can't be redrawn.
    pub fn new(asked: bool) -> Progress {
        Progress {
            is_drawn: asked && io::stderr().is_terminal(),
            shown: StillDue::new(),
        }
    }

    pub fn show(&mut self, still_due: StillDue) {
        if self.is_drawn && still_due != self.shown {
            // the packets go on, though the terminal be gone
            let _ = io::stderr().write_all(drawn(&still_due).as_bytes());
            self.shown = still_due;
        }
    }
}

/// So nothing is left behind, and what is said after begins a line of its own.
impl Drop for Progress {
    fn drop(&mut self) {
        self.show(StillDue::new());
    }
}

/// The line, drawn over the one before.
fn drawn(still_due: &StillDue) -> String {
    let texts: Vec<_> = still_due.iter().map(text).collect();
    let line = match texts.is_empty() {
        true => String::new(),
        false => format!("device: {}", texts.join(", ")),
    };
    format!("\r{line}\x1b[K")
}

fn text((name, count): &(&str, u16)) -> String {
    match count {
        1 => format!("{name}1 packet still due"),
        _ => format!("{name}{count} packets still due"),
    }
}
