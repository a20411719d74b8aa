//! What may be planted in the definition, or in what stands between it and the entries.

/// A fault of one entry has its name before it.
pub const FAULTS: &[&str] = &[
    // sizes
    "count-size-19-taken",
    "count-size-20-refused",
    "count-size-512-refused",
    "count-size-513-taken",
    "count-size-of-16-bits",
    "write-size-19-taken",
    "write-size-20-refused",
    "write-size-512-refused",
    "write-size-513-taken",
    "write-size-of-16-bits",
    "read-size-19-taken",
    "read-size-20-refused",
    "read-size-512-refused",
    "read-size-513-taken",
    "read-size-of-16-bits",
    // refusals in another order
    "count-7-before-14",
    "write-2-before-14",
    "write-12-before-2",
    "write-7-before-12",
    "write-6-before-7",
    "read-3-before-14",
    "read-15-before-3",
    "read-16-before-15",
    "read-17-before-16",
    "read-18-before-17",
    // the count
    "count-65535-refused",
    "count-65536-taken",
    "count-length-of-16-bits",
    "count-0-of-no-bytes",
    "count-one-more-when-full",
    // the writer
    "first-holds-one-more",
    "first-holds-one-less",
    "continuation-holds-one-more",
    "continuation-holds-one-less",
    "last-short-by-one",
    "last-padded",
    "write-65535-refused",
    "write-65536-taken",
    "write-length-low-byte-first",
    "write-length-of-first-alone",
    "write-numbers-to-255",
    "write-numbers-to-126",
    "write-first-number-1",
    "write-command-90-taken",
    "write-command-from-128-taken",
    "write-command-by-low-bits",
    "write-cancel-refused",
    "write-long-room-refused",
    "write-exact-room-refused",
    "write-room-of-fragment-taken",
    "write-index-of-16-bits",
    "write-index-of-32-bits",
    "write-index-at-count-taken",
    "write-clears-rest",
    "write-refused-alters",
    "write-before-front",
    "write-past-end",
    "write-tells-size",
    "write-tells-command",
    // the reader
    "read-length-low-byte-first",
    "read-length-of-8-bits",
    "read-numbers-to-255",
    "read-numbers-to-126",
    "read-first-number-1",
    "head-of-2-bytes-taken",
    "short-head-inside-16",
    "continuation-data-from-byte-3",
    "empty-continuation-refused",
    "empty-continuation-keeps-number",
    "empty-first-refused",
    "not-full-refused",
    "one-above-size-taken",
    "full-fragment-refused",
    "first-begins-anew",
    "first-inside-drops",
    "wrong-number-drops",
    "number-not-looked-at",
    "number-by-6-bits",
    "continuation-alone-ignored",
    "exact-room-refused",
    "one-above-room-taken",
    "excess-cut-off",
    "excess-written",
    "excess-drops",
    "excess-of-no-bytes-taken",
    "exact-data-refused",
    "no-bytes-wait",
    "whole-one-early",
    "whole-waits",
    "top-bit-masked",
    "unknown-command-refused",
    // collections
    "all-taken-sound",
    "number-127-unsound",
    "number-128-sound",
    "above-room-sound",
    "exact-room-unsound",
    "low-command-unsound",
    "leftovers-unsound",
    "leftover-number-kept",
    "whole-keeps-command",
    "refused-clears-command",
    "refused-clears-leftovers",
    // what is answered and lent
    "waiting-tells-taken",
    "whole-tells-channel",
    "refused-tells-spare",
    "read-clears-rest",
    "read-before-front",
    "read-past-end",
    "read-past-collection",
    "read-alters-fragment",
];

#[derive(Clone, Copy)]
pub struct Fault {
    pub name: &'static str,
}

impl Fault {
    pub const NONE: Fault = Fault { name: "" };

    pub fn is(&self, name: &str) -> bool {
        self.name == name
    }

    /// The fault of one entry, without the entry's name.
    pub fn of(&self, entry: &str) -> &'static str {
        self.name.strip_prefix(entry).unwrap_or("")
    }

    /// Where the fault is one refusal before another, and both hold.
    pub fn reorder(&self, entry: &str, reasons: &mut [u8]) {
        let Some((early, late)) = self.of(entry).split_once("-before-") else {
            return;
        };
        let [early, late] = [early, late].map(|number| {
            let is_it = |reason: &u8| number.parse() == Ok(*reason);
            reasons.iter().position(is_it)
        });
        if let (Some(early), Some(late)) = (early, late) {
            reasons.swap(early, late);
        }
    }
}
