//! What the command line asks for.
use std::env;
use std::mem;

const USAGE: &str = "the arguments make no sense; usage: ./device [--progress] [--interfaces 2]";

#[derive(Default)]
pub struct Arguments {
    /// That the packets still due are shown.
    pub progress: bool,
    /// That a vendor's interface is served besides the main one.
    pub vendor: bool,
}

impl Arguments {
    /// Each at most once, in any order.
    pub fn read() -> Result<Arguments, String> {
        let mut asked = Arguments::default();
        let mut arguments = env::args_os().skip(1);
        while let Some(argument) = arguments.next() {
            let option = match argument.to_str() {
                Some("--progress") => &mut asked.progress,
                Some("--interfaces") if arguments.next().is_some_and(|number| number == "2") => {
                    &mut asked.vendor
                }
                _ => return Err(USAGE.to_string()),
            };
            if mem::replace(option, true) {
                return Err(USAGE.to_string());
            }
        }
        Ok(asked)
    }
}
