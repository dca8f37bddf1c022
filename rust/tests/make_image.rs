//! The bench's program as it is built: every line of its vectors, and inputs longer than any of them.

mod common;

use std::fs;
use std::io::Write;
use std::process::{Command, Stdio};

use common::{bytes, file, hex, read_lines};

/// The bytes of a line of 3 MB.
const LONG: usize = 1_500_000;

/// The program's address space, in units of 1,024 bytes.
const MEMORY: usize = 8_192;

// Paper 02, 5.
const LONGEST_CHAIN: usize = 16_384;
const LARGEST_IMAGE: usize = 61_440;

/// What the program writes of an input that comes in pieces.
fn written(input: &[u8], piece: usize) -> Vec<u8> {
    let program = file("target/bin/make_image");
    let mut child = Command::new("sh")
        .args(["-c", "ulimit -v $1 && exec \"$0\""])
        .arg(&program)
        .arg(MEMORY.to_string())
        .stdin(Stdio::piped())
        .stdout(Stdio::piped())
        .spawn()
        .unwrap_or_else(|error| panic!("{}: {error}", program.display()));
    let mut stdin = child.stdin.take().expect("a pipe");
    for part in input.chunks(piece) {
        stdin.write_all(part).expect("the program reads to the end");
    }
    drop(stdin);
    let output = child.wait_with_output().expect("the program ends");
    assert!(output.status.success(), "{}", output.status);
    output.stdout
}

/// What the program writes where that is text, as every number is.
fn number(input: &str) -> String {
    // No power of two: pieces and the program's own parts end in different places.
    String::from_utf8(written(input.as_bytes(), 5_000)).expect("a number")
}

#[test]
fn vectors() {
    let mut lines = 0;
    let mut faults = Vec::new();
    for (at, line) in (1..).zip(read_lines("program.txt")) {
        let (input, expected) = line.split_once(' ').expect("an input and an output");
        let found = hex(&written(&bytes(input), at));
        if found != expected {
            faults.push(format!("request-5-program.txt:{at}: found {found}, expected {expected}"));
        }
        lines += 1;
    }
    println!("request-5-program.txt: {lines} lines, {} faults", faults.len());
    assert!(faults.is_empty(), "{}", faults.join("\n"));
    assert!(lines > 0, "no lines");
}

fn example(name: &str) -> Vec<u8> {
    let path = file("crates/make_image").join(name);
    fs::read(&path).unwrap_or_else(|error| panic!("{}: {error}", path.display()))
}

#[test]
fn example_of_the_readme() {
    assert_eq!(hex(&written(&example("stdin"), 100)), hex(&example("stdout")));
}

#[test]
fn empty_input() {
    assert_eq!(number(""), "2");
}

/// Neither digit nor line end: it makes its line malformed.
#[test]
fn carriage_returns() {
    let text = String::from_utf8(example("stdin")).expect("text").replace('\n', "\r\n");
    assert_eq!(number(&text), "2");
    assert_eq!(number(&text.replacen('\r', "", 1)), "4");
}

#[test]
fn long_lines() {
    let zeros = "00".repeat(LONG);
    for (input, expected) in [
        // the first byte's line
        (zeros.clone(), "2"),
        // an identity, and a chain where the identity is to stand
        (format!("01\n01{zeros}\n"), "6"),
        (format!("01\n02{zeros}\n"), "4"),
        // a chain, and no kind
        (format!("01\n010e0004\n02{zeros}\n"), "6"),
        (format!("01\n010e0004\n00{zeros}\n"), "4"),
        // malformed at the very end: with and without a line end, and by a byte's second digit
        (format!("01\n010e0004\n02{zeros}g\n"), "4"),
        (format!("01\n010e0004\n02{zeros}g"), "4"),
        (format!("01\n010e0004\n02{zeros}0"), "4"),
    ] {
        let end = input.len().saturating_sub(20);
        assert_eq!(number(&input), expected, "{:.20} .. {}", input, &input[end..]);
    }
}

type Record = (u8, Vec<u8>);

/// Hash number 2: digests of 64 bytes, so that records are as long as they can be.
fn identity() -> Record {
    (1, vec![31, 2, 8])
}

/// A chain whose own length is that of its bytes.
fn chain(slot: u8, length: usize) -> Record {
    let own = u16::try_from(length).expect("a chain's length").to_le_bytes();
    (2, [&[slot; 65][..], &own, &vec![slot; length - own.len()]].concat())
}

/// As many as an image may hold.
fn measurements() -> impl Iterator<Item = Record> {
    (208..240).map(|index| (3, [&[index, 3][..], &[index; 64]].concat()))
}

fn summaries() -> Record {
    (4, vec![4; 128])
}

fn text(records: &[Record]) -> String {
    let lines: String = records.iter().map(|(kind, body)| format!("{kind:02x}{}\n", hex(body))).collect();
    format!("01\n{lines}")
}

fn image(records: &[Record]) -> Vec<u8> {
    let mut image = vec![1];
    for (kind, body) in records {
        let length = u16::try_from(body.len()).expect("a body's length");
        image.extend(length.to_be_bytes());
        image.push(*kind);
        image.extend(body);
    }
    image
}

/// Three of the longest chains and one as long as the image then has room for, or `more`.
fn large(more: usize) -> Vec<Record> {
    let mut records = vec![identity()];
    records.extend((0..3).map(|slot| chain(slot, LONGEST_CHAIN)));
    records.push(chain(3, 9_670 + more));
    records.extend(measurements());
    records.push(summaries());
    records
}

#[test]
fn largest_image() {
    let records = large(0);
    let expected = image(&records);
    assert_eq!(expected.len(), LARGEST_IMAGE);
    assert_eq!(hex(&written(text(&records).as_bytes(), 5_000)), hex(&expected));
    let records = large(1);
    assert_eq!(image(&records).len(), LARGEST_IMAGE + 1);
    assert_eq!(number(&text(&records)), "1");
}

#[test]
fn longest_chain() {
    let records = [identity(), chain(0, LONGEST_CHAIN)];
    assert_eq!(hex(&written(text(&records).as_bytes(), 5_000)), hex(&image(&records)));
    assert_eq!(number(&text(&[identity(), chain(0, LONGEST_CHAIN + 1)])), "6");
    // Too long as a whole, and yet the chain's number.
    let mut records = large(0);
    records[4] = chain(3, LONGEST_CHAIN + 1);
    assert_eq!(number(&text(&records)), "6");
}

/// A fault behind the image's limit has its own number.
#[test]
fn too_long_and_a_fault() {
    let mut too_long = vec![identity()];
    too_long.extend((0..7).map(|slot| chain(slot, LONGEST_CHAIN)));
    assert_eq!(number(&text(&too_long)), "1");
    let mut unequal = chain(7, LONGEST_CHAIN);
    unequal.1[65] ^= 1;
    let faults: [(&[Record], &str); 8] = [
        (&[(5, vec![])], "4"),
        (&[(3, vec![1; 66])], "4"), // no summaries
        (&[chain(7, 69), chain(8, 69)], "5"),
        (&[chain(7, LONGEST_CHAIN + 1)], "6"),
        (&[(3, vec![1; 65])], "6"),
        (&[chain(6, 69)], "7"),
        (&[(3, vec![240; 66])], "7"),
        (&[unequal], "8"),
    ];
    for (fault, expected) in faults {
        assert_eq!(number(&text(&[&too_long, fault].concat())), expected);
    }
    // In the record that reaches past the limit.
    let mut records = large(1);
    records.pop();
    records.push((4, vec![4; 129]));
    assert_eq!(number(&text(&records)), "6");
}

/// Slots 0 to 7, then others: the ninth chain is one too many.
#[test]
fn many_lines() {
    for (lines, length) in [(100_000, 69), (600, LONGEST_CHAIN)] {
        let mut records = vec![identity()];
        records.extend((0..lines).map(|line: u32| chain(line as u8, length)));
        assert_eq!(number(&text(&records)), "5");
    }
}

/// A record as long as all of the program's address space.
#[test]
fn line_of_any_length() {
    let line = "02".repeat(1_024 * MEMORY);
    assert_eq!(number(&format!("01\n010e0004\n{line}\n")), "6");
}
