//! Cuts the wait for a touch out of the real ctap/mod.rs, byte for byte, for ctap/wait.rs: each item whole, with the comments and
//! attributes above it. All other lines are left empty, so that a line has the number that it has there.
use std::{env, fs};

const REAL: &str = "src/ctap/real_mod.rs";

/// How each item begins. Each must stand there just once.
const ITEMS: [&str; 9] = [
    "pub const KEEPALIVE_DELAY_MS:",
    "pub const TOUCH_TIMEOUT_MS:",
    "pub enum Transport {",
    "impl Transport {",
    "pub enum Channel {",
    "pub fn send_packets<",
    "fn is_cancel(",
    "fn wait_and_respond_busy<",
    "pub fn check_user_presence<",
];

fn main() {
    println!("cargo:rerun-if-changed=build.rs");
    println!("cargo:rerun-if-changed={REAL}");
    // no other program has it
    if env::var_os("CARGO_FEATURE_VENDOR_HID").is_none() {
        return;
    }
    let real = fs::read_to_string(REAL).expect(REAL);
    let lines: Vec<&str> = real.split('\n').collect();
    let mut cut = vec![""; lines.len()];
    for item in ITEMS {
        let times = real.matches(item).count();
        assert_eq!(
            times, 1,
            "how often {item:?} stands in OpenSK's ctap/mod.rs"
        );
        let begins = lines.iter().position(|line| line.starts_with(item));
        let begins = begins.expect("an item that begins a line");
        let is_above = |line: &&&str| line.starts_with("///") || line.starts_with("#[");
        let above = lines[..begins].iter().rev().take_while(is_above).count();
        let ends = match lines[begins].ends_with(';') {
            true => Some(0),
            false => lines[begins..].iter().position(|line| *line == "}"),
        };
        let item = begins - above..=begins + ends.expect("an item that ends");
        cut[item.clone()].copy_from_slice(&lines[item]);
    }
    let out = env::var("OUT_DIR").expect("cargo's folder");
    fs::write(format!("{out}/ctap_mod.rs"), cut.join("\n")).expect("written");
}
