//! What `trial_print` prints. The heading of crates/trial_print/src/main.rt says what that is; this module shares nothing
//! else with that program.

use reference::sheetprint;

/// The bytes of the widest buffer.
const ROOM: usize = 4096;

/// The text for inputs, each behind its length in two bytes. Zeros stand for what is cut of the last one.
pub fn run(framed: &[u8]) -> String {
    let mut text = String::new();
    let mut rest = framed;
    while let [low, high, after @ ..] = rest {
        let size = u16::from_le_bytes([*low, *high]).into();
        let (there, later) = after.split_at(after.len().min(size));
        let mut input = there.to_vec();
        input.resize(size, 0);
        three_times(&sheetprint(&input), &mut text);
        rest = later;
    }
    text
}

/// A text in a wide buffer, in one that it just fits, and what is said where the buffer is a byte short.
fn three_times(one: &str, text: &mut String) {
    let size = one.len();
    text.push_str(&format!("{one}bytes {size}, untouched {}\n", ROOM - size));
    text.push_str(&format!("{one}bytes {size}, untouched 0\n"));
    text.push_str(&format!("bytes {size}, untouched {}\n", size - 1));
}
