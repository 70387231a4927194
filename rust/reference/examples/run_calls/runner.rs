//! Runs the items of the programs `trial_calls`, `trial_reports` and `trial_scripts` by the reference. The headings of their
//! sources say how the items are made up and what is printed; this module shares nothing else with them.

use reference::{chart, offer, open, ring, same, scan, sweep, turn, write};
use reference::{Refusal, Sheet, Stage};

/// What a buffer is filled with before a call.
const FILLED: u8 = 170;
/// The longest argument of an item.
const LONGEST: usize = 131_072;
/// The most numbers of a turn.
const MOST_NUMBERS: usize = 4096;
/// The longest argument of a turn in a script: a direction and 1,200 numbers.
const LONGEST_TURN: usize = 2401;
/// A run ends after this many items.
const MOST_ITEMS: usize = 100_000;

/// The lines of `trial_calls`.
pub fn calls(input: &[u8]) -> String {
    let mut sheet = Sheet::default();
    lines(input, 5, |kind, argument| {
        let (name, answer) = call(&mut sheet, kind, argument);
        let answer = answer.map_or_else(refused, |()| "accepted".to_string());
        format!("{name:<6}{answer}; {}", state(&sheet))
    })
}

/// The lines of `trial_reports`.
pub fn reports(input: &[u8]) -> String {
    lines(input, 4, |kind, argument| {
        let file = argument.get(2..).unwrap_or_default();
        report(kind, number(argument), file)
    })
}

/// The lines of `trial_scripts`.
pub fn scripts(input: &[u8]) -> String {
    lines(input, 0, |_, script| script_line(script))
}

/// A line for each item up to the first that is malformed or of a kind above the last, and how many there were.
fn lines(input: &[u8], last: u8, mut line: impl FnMut(u8, &[u8]) -> String) -> String {
    let mut text = String::new();
    let mut rest = input;
    let mut done = 0;
    while let Some((kind, argument, after)) = item(rest) {
        if kind > last || argument.len() > LONGEST || done == MOST_ITEMS {
            break;
        }
        text += &line(kind, argument);
        text.push('\n');
        rest = after;
        done += 1;
    }
    format!("{text}{done} items\n")
}

/// The kind and the argument of the first item, and what follows it.
fn item(input: &[u8]) -> Option<(u8, &[u8], &[u8])> {
    let (head, rest) = (input.get(..4)?, &input[4..]);
    let length = u32::from_le_bytes([head[1], head[2], head[3], 0]) as usize;
    let argument = rest.get(..length)?;
    Some((head[0], argument, &rest[length..]))
}

/// The number of two bytes that stands first; bytes that are not there are 0.
fn number(bytes: &[u8]) -> usize {
    let byte = |at| bytes.get(at).copied().unwrap_or_default();
    u16::from_le_bytes([byte(0), byte(1)]) as usize
}

/// The checksum of bytes.
fn checksum(bytes: &[u8]) -> u64 {
    let stir = |sum: u64, &byte: &u8| (sum * 1_000_003 + byte as u64 + 1) % 4_294_967_291;
    bytes.iter().fold(0, stir)
}

/// A refusal.
fn refused(refusal: Refusal) -> String {
    format!("refused {} at {}", refusal.number, refusal.place)
}

/// A call that changes a sheet: its name and its answer.
fn call(sheet: &mut Sheet, kind: u8, argument: &[u8]) -> (&'static str, Result<(), Refusal>) {
    match kind {
        0 => {
            *sheet = Sheet::default();
            ("fresh", Ok(()))
        }
        1 => ("open", open(argument).map(|opened| *sheet = opened)),
        2 => ("offer", offer(sheet, argument)),
        3 => ("sweep", sweep(sheet)),
        4 => {
            let direction = argument.first().copied().unwrap_or_default();
            let pairs = argument.get(1..).unwrap_or_default().chunks_exact(2);
            let list: Vec<u16> = pairs.map(|pair| number(pair) as u16).collect();
            let list = &list[..list.len().min(MOST_NUMBERS)];
            ("turn", turn(sheet, list, direction))
        }
        _ => ("chart", chart(sheet)),
    }
}

/// A sheet after a call.
fn state(sheet: &Sheet) -> String {
    let name = match sheet.stage() {
        Stage::Empty => "EMPTY",
        Stage::Open => "OPEN",
        Stage::Labelled => "LABELLED",
        Stage::Charted => "CHARTED",
    };
    let n = sheet.plan().map_or(0, |plan| plan.n());
    let (w, h) = sheet.chart().map_or((0, 0), |chart| (chart.w, chart.h));
    let mut buffer = [FILLED; 8192];
    let length = write(sheet, &mut buffer).unwrap_or_default();
    let sum = checksum(&buffer);
    format!("{name:<9}n {n}, {w}x{h}, length {length}, checksum {sum}")
}

/// The sheet that a fresh one becomes when a file is opened.
fn opened(file: &[u8]) -> Sheet {
    open(file).unwrap_or_default()
}

/// A call that tells of a sheet or of a file.
fn report(kind: u8, number: usize, file: &[u8]) -> String {
    let mut buffer = vec![FILLED; number];
    match kind {
        0 => {
            let answer = write(&opened(file), &mut buffer);
            format!("write      {}", written(answer, &buffer))
        }
        1 => {
            let answer = open(file).and_then(|sheet| write(&sheet, &mut buffer));
            format!("open_write {}", written(answer, &buffer))
        }
        2 => format!("ring       {}", ring_of(file, number)),
        3 => match scan(&opened(file)) {
            Ok(Some([a, b, c])) => format!("scan       {a},{b},{c}"),
            Ok(None) => "scan       none".to_string(),
            Err(refusal) => format!("scan       {}", refused(refusal)),
        },
        _ => {
            let one = file.get(..number).unwrap_or_default();
            let other = file.get(number..).unwrap_or_default();
            let yes_or_no = |equal| if equal { "yes" } else { "no" }.to_string();
            let answer = same(&opened(one), &opened(other));
            format!("same       {}", answer.map_or_else(refused, yes_or_no))
        }
    }
}

/// How many bytes there are, and their checksum.
fn of_bytes(bytes: &[u8]) -> String {
    format!("; {} bytes, checksum {}", bytes.len(), checksum(bytes))
}

/// The answer of a call that writes, and the buffer after it.
fn written(answer: Result<usize, Refusal>, buffer: &[u8]) -> String {
    let answer = answer.map_or_else(refused, |length| format!("length {length}"));
    answer + &of_bytes(buffer)
}

/// The answer of ring, and the part.
fn ring_of(file: &[u8], context: usize) -> String {
    match ring(file, context) {
        Ok((at, length)) => {
            let part = of_bytes(&file[at..at + length]);
            format!("at {at}, length {length}{part}")
        }
        Err(refusal) => refused(refusal) + &of_bytes(&[]),
    }
}

/// A script: calls from a fresh sheet on, up to the first item that is none of theirs.
fn script_line(script: &[u8]) -> String {
    let mut sheet = Sheet::default();
    let mut rest = script;
    let mut accepted = 0;
    let mut last = "none".to_string();
    while let Some((kind, argument, after)) = item(rest) {
        let formed = match kind {
            1 | 2 => true,
            3 | 5 => argument.is_empty(),
            4 => argument.len() % 2 == 1 && argument.len() <= LONGEST_TURN,
            _ => false,
        };
        if !formed {
            break;
        }
        let (_, answer) = call(&mut sheet, kind, argument);
        accepted += usize::from(answer.is_ok());
        last = answer.map_or_else(refused, |()| "accepted".to_string());
        rest = after;
    }
    let (length, end) = (script.len(), script.len() - rest.len());
    let stage = sheet.stage() as usize;
    let n = sheet.plan().map_or(0, |plan| plan.n());
    let mut buffer = vec![0; 65_536];
    let _ = write(&sheet, &mut buffer);
    let sum = checksum(&buffer);
    let answers = format!("accepted {accepted}, last {last}");
    let left = format!("stage {stage}, n {n}, checksum {sum}");
    format!("script of {length} ends at {end}; {answers}; {left}")
}
