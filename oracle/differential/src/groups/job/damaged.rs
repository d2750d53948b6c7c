//! Texts with a fault (27), and some that only look like one.

use super::cases::{example, of_pairs};
use super::reading::Job;

/// Values that are no number, and some that are: 64 and 32 bits and one more,
/// leading zeros, signs, spaces, control bytes, other digits, other bases,
/// lists.
const VALUES: [&str; 44] = [
    "",
    "0",
    "00",
    "000",
    "01",
    "03",
    "0,0",
    "00,0",
    "0,00",
    "+1",
    "-1",
    "-0",
    " 1",
    "1 ",
    "\t1",
    "1\t",
    "1\r",
    "\r1",
    "\x0b1",
    "1\0",
    "\0",
    "0x1",
    "1.0",
    "1e1",
    "1_0",
    "a",
    "1a",
    "4294967295",
    "4294967296",
    "18446744073709551615",
    "18446744073709551616",
    "99999999999999999999",
    "100000000000000000000000000000000000000000",
    "340282366920938463463374607431768211456",
    ",",
    ",1",
    "1,",
    "1,,1",
    "1, 1",
    "1;1",
    "=1",
    "1=",
    "\u{661}",
    "\u{ff11}",
];

/// Of a short right job every line with each of these values; lines that miss,
/// come twice or elsewhere; keys that differ; ends of lines.
pub fn short() -> Vec<Vec<u8>> {
    let job = example();
    [values(&job), lines(&job), keys(&job), ends(&job), bytes()].concat()
}

/// The value of each line replaced, then its first and its last number.
fn values(job: &Job) -> Vec<Vec<u8>> {
    let lines = job.lines();
    let mut all = vec![];
    for (place, line) in lines.iter().enumerate() {
        let (key, value) = line.split_once('=').expect("a key");
        let value = value.trim_end();
        for new in VALUES {
            let first = value.split_once(',').map(|(_, rest)| (new, rest));
            let last = value.rsplit_once(',').map(|(rest, _)| (rest, new));
            let mut with = |value: String| {
                let mut lines = lines.clone();
                lines[place] = format!("{key}={value}\n");
                all.push(lines.concat().into_bytes());
            };
            with(new.into());
            for (a, b) in first.into_iter().chain(last) {
                with(format!("{a},{b}"));
            }
        }
    }
    all
}

/// Each line missing, doubled, exchanged with each other one, or behind all.
fn lines(job: &Job) -> Vec<Vec<u8>> {
    let lines = job.lines();
    let mut all = vec![];
    let mut add = |lines: Vec<String>| all.push(lines.concat().into_bytes());
    for place in 0..lines.len() {
        let mut missing = lines.clone();
        let line = missing.remove(place);
        add(missing.clone());
        missing.push(line.clone());
        add(missing);
        let mut doubled = lines.clone();
        doubled.insert(place, line);
        add(doubled);
        for other in 0..place {
            let mut swapped = lines.clone();
            swapped.swap(place, other);
            add(swapped);
        }
        for more in ["\n", " \n", "x=1\n", "# 1\n", "size=3\n", "=\n", "\0\n"] {
            let mut longer = lines.clone();
            longer.insert(place, more.into());
            add(longer);
        }
    }
    for more in ["\n", "\n\n", " ", "\0", "hops=1\n", "hops=1", "x", "\r\n"] {
        add([&lines[..], &[more.into()]].concat());
    }
    add([&lines[..], &lines].concat());
    add(lines.iter().rev().cloned().collect());
    all
}

/// Each key in capitals, shorter, longer, with a space, with another sign.
fn keys(job: &Job) -> Vec<Vec<u8>> {
    let lines = job.lines();
    let mut all = vec![];
    for (place, line) in lines.iter().enumerate() {
        let (key, value) = line.split_once('=').expect("a key");
        for new in [
            key.to_uppercase() + "=",
            key[1..].to_string() + "=",
            key[..key.len() - 1].to_string() + "=",
            format!("{key}s="),
            format!("{key} ="),
            format!("{key}= "),
            format!(" {key}="),
            format!("{key}=="),
            format!("{key}:"),
            format!("\u{feff}{key}="),
            key.to_string(),
            "=".to_string(),
            String::new(),
        ] {
            let mut lines = lines.clone();
            lines[place] = new + value;
            all.push(lines.concat().into_bytes());
        }
    }
    all
}

/// No newline at all or at one line, other newlines, the text cut at each byte.
fn ends(job: &Job) -> Vec<Vec<u8>> {
    let text = job.lines().concat();
    let mut all: Vec<Vec<u8>> = [
        "", "\r", "\r\n", "\n\r", "\0", ";", ",", " ", "\x0b", "\u{2028}",
    ]
    .iter()
    .map(|end| text.replace('\n', end).into_bytes())
    .collect();
    for place in 0..6 {
        let mut lines = job.lines();
        lines[place] = lines[place].replace('\n', "\r\n");
        all.push(lines.concat().into_bytes());
    }
    all.extend((0..text.len()).map(|end| text.as_bytes()[..end].to_vec()));
    all.extend((1..text.len()).map(|start| text.as_bytes()[start..].to_vec()));
    all
}

/// Bytes that are no text.
fn bytes() -> Vec<Vec<u8>> {
    vec![
        vec![],
        vec![0],
        vec![0; 64],
        vec![255; 64],
        vec![b'\n'; 6],
        vec![b'\n'; 7],
        b"size".to_vec(),
        b"size=".to_vec(),
        b"size=\nblocks=\nptr=\ncols=\nseeds=\nhops=\n".to_vec(),
        (0..=255).collect(),
    ]
}

/// What takes a byte's place.
const BYTES: [u8; 24] = *b"0123456789,=\n\r\0 +-sp.\xff\x80/";

/// Each byte of a few right texts replaced by each of some bytes.
pub fn edits(work: &mut dyn FnMut(&[u8])) {
    for job in few() {
        let text = job.text();
        for place in 0..text.len() {
            for byte in BYTES {
                let mut edited = text.clone();
                edited[place] = byte;
                work(&edited);
            }
        }
    }
}

/// Each byte of 01's example replaced by every byte, left out, doubled, and
/// exchanged with the next; each byte put in before it.
pub fn all_edits(work: &mut dyn FnMut(&[u8])) {
    let text = example().text();
    for place in 0..text.len() {
        for byte in 0..=255 {
            let mut edited = text.clone();
            edited[place] = byte;
            work(&edited);
            edited = text.clone();
            edited.insert(place, byte);
            work(&edited);
        }
        let mut edited = text.clone();
        edited.remove(place);
        work(&edited);
        edited = text.clone();
        edited.swap(place, (place + 1) % text.len());
        work(&edited);
    }
}

fn few() -> Vec<Job> {
    vec![
        example(),
        of_pairs(12, 5, &[(0, 11), (10, 3), (3, 2), (3, 2)], &[11, 2], 10),
        of_pairs(1, 1, &[], &[], 18_446_744_073_709_551_615),
    ]
}
