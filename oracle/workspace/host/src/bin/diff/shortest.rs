//! What is shown of a run that differs.
use opensk::ctap::hid::HidPacket;

/// The shortest run that is found: ever smaller pieces are left out, for as long as any difference is left. `differs` tells
/// after how many steps a run does.
pub fn shortest<T: Clone>(run: &[T], differs: impl Fn(&[T]) -> Option<usize>) -> Vec<T> {
    let mut run = run.to_vec();
    let mut piece = run.len().div_ceil(2);
    while piece > 0 {
        let mut at = 0;
        while at < run.len() {
            let mut less = run.clone();
            less.drain(at..(at + piece).min(run.len()));
            match differs(&less) {
                Some(len) => {
                    less.truncate(len);
                    run = less;
                }
                None => at += piece,
            }
        }
        piece /= 2;
    }
    run
}

/// Without the zero bytes at the end, as the bench program reads it.
pub fn hex(packet: &HidPacket) -> String {
    let len = packet.iter().rposition(|b| *b != 0).map_or(1, |at| at + 1);
    packet[..len].iter().map(|b| format!("{b:02x}")).collect()
}
