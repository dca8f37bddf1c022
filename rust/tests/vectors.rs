//! The vectors, through the plain responder, the tuned one and the C interface: every line must agree.

mod common;

use std::collections::HashMap;

use common::{bytes, hex, read_lines};
use spdm_check::plain::Provision;
use spdm_check::{ffi, plain, tuned};

fn number<T: std::str::FromStr>(text: &str) -> T
where
    T::Err: std::fmt::Debug,
{
    text.parse().unwrap_or_else(|error| panic!("not a number: {text}: {error:?}"))
}

/// CRC-32 (IEEE 802.3), reflected, as zlib's.
fn crc32(bytes: &[u8]) -> u32 {
    let mut table = [0u32; 256];
    for (value, entry) in (0u32..).zip(&mut table) {
        *entry = (0..8).fold(value, |crc, _| (crc >> 1) ^ if crc & 1 == 1 { 0xEDB8_8320 } else { 0 });
    }
    !bytes.iter().fold(!0u32, |crc, &byte| (crc >> 8) ^ table[usize::from(crc as u8 ^ byte)])
}

#[test]
fn crc32_is_the_usual_one() {
    assert_eq!(crc32(b"123456789"), 0xCBF4_3926);
}

/// What the plain reader finds, in the words of images.txt.
fn describe(image: &[u8]) -> String {
    match plain::Image::read(image) {
        Err(number) => (number as u32).to_string(),
        Ok(image) => {
            let chains: Vec<String> =
                image.chains().map(|(slot, chain)| format!("{}:{}", slot.number(), chain.bytes.len())).collect();
            let indices: Vec<String> = image.measurements().map(|m| m.index.number().to_string()).collect();
            format!(
                "0 {} {} {} {} {}",
                image.ct_exponent,
                image.hash_number,
                image.signature_number,
                chains.join(","),
                if indices.is_empty() { "-".to_owned() } else { indices.join(",") }
            )
        }
    }
}

#[test]
fn images() {
    let mut lines = 0;
    let mut faults = Vec::new();
    for (at, line) in (1..).zip(read_lines("images.txt")) {
        let (image, expected) = line.split_once(' ').expect("an image and what it holds");
        let image = bytes(image);
        let expected_number: u32 = number(expected.split(' ').next().expect("a number"));
        let found = describe(&image);
        if found != expected {
            faults.push(format!("images.txt:{at}: plain finds {found}, expected {expected}"));
        }
        let results = [plain::read_image(&image), tuned::read_image(&image), ffi::read_image(&image)];
        for (who, result) in ["plain", "tuned", "library"].into_iter().zip(results) {
            if result != expected_number << 16 {
                faults.push(format!("images.txt:{at}: {who} gives {result:#x}, expected {expected_number}"));
            }
        }
        lines += 1;
    }
    println!("images.txt: {lines} lines, {} faults", faults.len());
    assert!(faults.is_empty(), "{}", faults.join("\n"));
    assert!(lines > 0, "no lines");
}

/// What runs.txt is a copy of.
const RUNS: &str = "request-5-runs.txt";

type Respond = fn(&[u8], &mut [u32], &mut [u8], &mut [u8], &[u8], &[u8]) -> u32;
type Finish = fn(&[u8], &mut [u32], &mut [u8], &mut [u8], bool, &[u8]) -> u32;
type ToSign = fn(&[u32], &mut [u8], &mut [u32]) -> u32;

/// A responder's calls on a connection.
#[derive(Clone, Copy)]
struct Responder {
    who: &'static str,
    respond: Respond,
    finish: Finish,
    to_sign: ToSign,
}

/// The words of a state that the host looks at.
const AWAITED: usize = 6;
const AWAITED_LENGTH: usize = 7;

/// What a call left: its result, the answer buffer, and that buffer before the call.
struct Left {
    result: u32,
    answer: Vec<u8>,
    before: Vec<u8>,
}

/// The host of a run, which keeps what one responder is lent.
struct Host {
    responder: Responder,
    images: HashMap<String, Vec<u8>>,
    transcript: Vec<u8>,
    state: [u32; plain::STATE_WORDS],
    /// The answer that awaits a signature.
    kept: Vec<u8>,
    /// What the last call left, until its `=`.
    left: Option<Left>,
    /// Whether an `H` must follow.
    to_show: bool,
    /// The calls compared, and the faults.
    compared: usize,
    shown: usize,
    faults: Vec<String>,
}

impl Host {
    fn new(responder: Responder) -> Host {
        Host {
            responder,
            images: HashMap::new(),
            transcript: Vec::new(),
            state: [0; plain::STATE_WORDS],
            kept: Vec::new(),
            left: None,
            to_show: false,
            compared: 0,
            shown: 0,
            faults: Vec::new(),
        }
    }

    fn fault(&mut self, at: usize, what: &str) {
        self.faults.push(format!("{RUNS}:{at}: {}: {what}", self.responder.who));
    }

    /// An `S`: the state as handed in. Its awaited answer has bytes of its own.
    fn hand_in(&mut self, words: &[&str]) {
        assert_eq!(words.len(), self.state.len(), "words of a state");
        for (word, text) in self.state.iter_mut().zip(words) {
            *word = number(text);
        }
        // A length that is out of bounds is refused: nobody looks at these bytes.
        let length = if self.state[AWAITED] == 0 { 0 } else { self.state[AWAITED_LENGTH].min(5_000) };
        self.kept = (0..length).map(|i| (5 * i) as u8).collect();
    }

    /// An `R`.
    fn respond(&mut self, at: usize, image: &str, lengths: [&str; 2], nonce: &str, request: &str) {
        let [answer_len, transcript_len] = lengths.map(number);
        let before = other_bytes(at, answer_len);
        let mut answer = before.clone();
        let lent = &mut self.transcript[..transcript_len];
        let (request, nonce) = (bytes(request), bytes(nonce));
        let result =
            (self.responder.respond)(&self.images[image], &mut self.state, lent, &mut answer, &request, &nonce);
        self.left = Some(Left { result, answer, before });
    }

    /// An `F`: the answer buffer begins with the awaited answer.
    fn finish(&mut self, at: usize, image: &str, lengths: [&str; 2], chip: &str, signature: &str) {
        let [answer_len, transcript_len] = lengths.map(number);
        let mut before = other_bytes(at, answer_len);
        let shared = self.kept.len().min(before.len());
        before[..shared].copy_from_slice(&self.kept[..shared]);
        let mut answer = before.clone();
        let lent = &mut self.transcript[..transcript_len];
        let chip_ok = match chip {
            "0" => false,
            "1" => true,
            other => panic!("line {at}: chip result {other}"),
        };
        let signature = bytes(signature);
        let result =
            (self.responder.finish)(&self.images[image], &mut self.state, lent, &mut answer, chip_ok, &signature);
        self.left = Some(Left { result, answer, before });
    }

    /// An `=`: what the last call gave.
    fn compare(&mut self, at: usize, expected: &str) {
        let Left { result, answer, before } = self.left.take().expect("a call before its result");
        self.compared += 1;
        let (number, length) = (result >> 16, (result & 0xFFFF) as usize);
        let found = format!(
            "{number} {} {} {:08x}",
            answer.get(..length).map_or("out of the buffer".to_owned(), hex),
            self.state.map(|word| word.to_string()).join(" "),
            crc32(&self.transcript)
        );
        if found != expected {
            self.fault(at, &format!("\n  found    {found}\n  expected {expected}"));
        }
        if answer.get(length..) != before.get(length..) {
            self.fault(at, "bytes past the answer were changed");
        }
        self.to_show = number == 0 && self.state[AWAITED] != 0;
        if self.state[AWAITED] == 0 {
            self.kept.clear();
        } else if number == 0 && self.kept.is_empty() {
            self.kept = answer[..length].to_vec();
        }
    }

    /// An `H`: what is to be signed.
    fn show(&mut self, at: usize, expected: &str) {
        if !std::mem::take(&mut self.to_show) {
            self.fault(at, "nothing is awaited");
            return;
        }
        self.shown += 1;
        let before = other_bytes(at, plain::PREFIX);
        let (mut prefix, mut parts) = (before.clone(), [0; 4]);
        let result = (self.responder.to_sign)(&self.state, &mut prefix, &mut parts);
        let [first, first_length, second, second_length] = parts.map(|word| word as usize);
        let hashed =
            [&self.transcript[first..first + first_length], &self.transcript[second..second + second_length]].concat();
        let signed = prefix.get(..result as usize).map(|prefix| [prefix, &hashed].concat());
        let found = match &signed {
            Some(signed) => format!("{result} {} {:08x}", hashed.len(), crc32(signed)),
            None => format!("a result of {result:#x}"),
        };
        if found != expected {
            self.fault(at, &format!("to be signed:\n  found    {found}\n  expected {expected}"));
        }
        if result == 0 && prefix != before {
            self.fault(at, "no prefix, and yet its buffer was changed");
        }
    }
}

/// What a buffer holds that is lent to another call.
fn other_bytes(at: usize, length: usize) -> Vec<u8> {
    (0..length).map(|i| (7 * i + at) as u8).collect()
}

fn run(responder: Responder) -> Host {
    let mut host = Host::new(responder);
    let mut last = 0;
    for (at, line) in (1..).zip(read_lines("runs.txt")) {
        last = at;
        if host.to_show && !line.starts_with("H ") {
            host.fault(at, "a signature is awaited, and yet no H follows");
            host.to_show = false;
        }
        let words: Vec<&str> = line.split(' ').collect();
        match words[..] {
            ["I", name, image] => {
                if name == "g0" {
                    host.images.clear();
                }
                host.images.insert(name.to_owned(), bytes(image));
            }
            ["T", size, fill] => {
                let fill: usize = number(fill);
                host.transcript = (0..number(size)).map(|i: usize| (fill + 13 * i) as u8).collect();
            }
            ["S", ref words @ ..] => host.hand_in(words),
            ["R", image, answer_len, transcript_len, nonce, request] => {
                host.respond(at, image, [answer_len, transcript_len], nonce, request);
            }
            ["F", image, answer_len, transcript_len, chip, signature] => {
                host.finish(at, image, [answer_len, transcript_len], chip, signature);
            }
            ["=", ref expected @ ..] => host.compare(at, &expected.join(" ")),
            ["H", ref expected @ ..] => host.show(at, &expected.join(" ")),
            _ => panic!("{RUNS}:{at}: not understood: {line}"),
        }
    }
    if host.to_show {
        host.fault(last, "a signature is awaited, and yet no H follows");
    }
    host
}

fn check(responder: Responder) {
    let Host { compared, shown, faults, .. } = run(responder);
    println!(
        "{RUNS}: {}: {compared} calls and {shown} times what is to be signed compared, {} faults",
        responder.who,
        faults.len()
    );
    let first = faults.iter().take(20).cloned().collect::<Vec<_>>().join("\n");
    assert!(faults.is_empty(), "{} faults, the first:\n{first}", faults.len());
    assert!(compared > 0 && shown > 0, "no lines");
}

#[test]
fn runs_plain() {
    check(Responder { who: "plain", respond: plain::respond, finish: plain::finish, to_sign: plain::to_sign });
}

/// What is to be signed needs no image, so the plain responder shows it here too.
#[test]
fn runs_tuned() {
    check(Responder { who: "tuned", respond: tuned::respond, finish: tuned::finish, to_sign: plain::to_sign });
}

#[test]
fn runs_library() {
    check(Responder { who: "library", respond: ffi::respond, finish: ffi::finish, to_sign: ffi::to_sign });
}
