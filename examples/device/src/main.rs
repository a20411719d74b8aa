//! A CTAPHID device on a pipe. README.md beside this says what it answers, what it can be asked for and which variables it reads.
mod answers;
mod arguments;
mod device;
mod ends;
mod label;
mod pipe;
mod progress;
mod touch;

use answers::{Answer, KEEPALIVE_CANCEL, USER_ACTION_TIMEOUT, answer};
use arguments::Arguments;
use device::Device;
use ends::Ends;
use label::Label;
use pipe::Pipes;
use progress::Progress;
use snjofrask::{Channel, CtapHid, Ending, HidPacketIterator, LARGEST_PAYLOAD, Message, Processed};
use std::env;
use std::error::Error;
use std::fs::File;
use std::io::{self, Write};
use std::process::ExitCode;
use touch::Touch;

fn main() -> ExitCode {
    let (arguments, touch, interfaces) = match asked() {
        Ok(asked) => asked,
        Err(text) => {
            eprintln!("device: {text}");
            return ExitCode::from(2);
        }
    };
    match serve(&arguments, &touch, &Pipes::open(interfaces)) {
        Ok(()) => ExitCode::SUCCESS,
        Err(error) => {
            eprintln!("device: {error}");
            ExitCode::FAILURE
        }
    }
}

/// What arguments and variables ask for, and the pipes that they need.
fn asked() -> Result<(Arguments, Touch, Vec<Ends>), String> {
    let arguments = Arguments::read()?;
    let touch = Touch::from_variables()?;
    let interfaces = Ends::of_interfaces(arguments.vendor)?;
    Ok((arguments, touch, interfaces))
}

fn send(pipes: &Pipes, mut packets: HidPacketIterator, interface: u32) -> io::Result<()> {
    packets.try_for_each(|packet| pipes.send(&packet, interface))
}

fn serve(arguments: &Arguments, touch: &Touch, pipes: &Pipes) -> Result<(), Box<dyn Error>> {
    let mut buffers = [[0; LARGEST_PAYLOAD]; 2];
    let mut device = Device::new(&mut buffers, arguments.vendor)?;
    let mut label = Label::new();
    let mut progress = Progress::new(arguments.progress);
    while let Some(arrival) = pipes.receive()? {
        let interface = arrival.interface;
        let name = device.name(interface);
        match device.process_hid_packet(arrival.time_ms, &arrival.packet, interface)? {
            Processed::Packets(packets) => send(pipes, packets, interface)?,
            Processed::Request(request) => {
                record(name, &request)?;
                let Message { cid, cmd, .. } = request;
                let answer = answer(&request, &mut label);
                // during a wait it stays: the device is given no packet
                progress.show(device.still_due());
                let channel = Channel { interface, cid };
                let payload = match answer {
                    Answer::AtOnce(payload) => payload,
                    Answer::AfterTouch(payload) => match touch.wait(channel, pipes)? {
                        Ending::Touched => payload,
                        Ending::Canceled => KEEPALIVE_CANCEL,
                        Ending::TimedOut => USER_ACTION_TIMEOUT,
                        // the end of input; this button can't fail
                        Ending::NotYet | Ending::Failed(_) => return Ok(()),
                    },
                };
                let reply = Message { cid, cmd, payload };
                send(pipes, CtapHid::split_message(reply), interface)?;
            }
        }
        progress.show(device.still_due());
    }
    Ok(())
}

/// Adds a line to the file that a variable names, if it does: the interface's name, and channel, command and payload in hex.
fn record(interface: &str, request: &Message) -> io::Result<()> {
    let Some(name) = env::var_os("SNJOFRASK_REQUESTS") else {
        return Ok(());
    };
    let hex = |bytes: &[u8]| {
        bytes
            .iter()
            .map(|byte| format!("{byte:02x}"))
            .collect::<String>()
    };
    let (cid, payload) = (hex(&request.cid), hex(request.payload));
    let cmd = request.cmd.number();
    let mut file = File::options().create(true).append(true).open(name)?;
    file.write_all(format!("{interface}{cid} {cmd:02x} {payload}\n").as_bytes())
}
