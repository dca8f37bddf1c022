//! Times the proved responder, through its C interface, against the plain one and the tuned one.
//!
//! All three get the same images, requests and buffer sizes, and each its own buffers, which are made once and not
//! cleared between calls. A repeat is cut into slices, the sides in turn in each, in another order from slice to slice, so
//! that a machine that slows down slows all three. The fastest slice and the median of the repeats are shown; the spread
//! is the slowest repeat over the median one, the worst of the three. Times are the thread's own processor time, so that
//! other work on the machine counts less. `SPDM_REPEATS` says how many repeats, `SPDM_DIGESTS` how many GET_DIGESTS each
//! has.
//!
//! Instructions a call are counted by valgrind's callgrind, which runs this program again; without valgrind that
//! column is empty. `SPDM_COUNTED` says how many calls are counted (0: none).

use std::hint::black_box;
use std::process::Command;
use std::time::Duration;

use spdm_check::{ffi, plain, tuned};

/// The sides. Calls are direct on each: no table of functions, and none is inlined.
trait Responder {
    fn respond(image: &[u8], buffers: &mut Buffers, request: &[u8], nonce: &[u8]) -> u32;
    fn finish(image: &[u8], buffers: &mut Buffers, signature: &[u8]) -> u32;
}

macro_rules! side {
    ($side:ident, $module:ident) => {
        struct $side;

        impl Responder for $side {
            #[inline(always)]
            fn respond(image: &[u8], buffers: &mut Buffers, request: &[u8], nonce: &[u8]) -> u32 {
                let Buffers { state, transcript, answer } = buffers;
                $module::respond(image, state, transcript, answer, request, nonce)
            }

            #[inline(always)]
            fn finish(image: &[u8], buffers: &mut Buffers, signature: &[u8]) -> u32 {
                let Buffers { state, transcript, answer } = buffers;
                $module::finish(image, state, transcript, answer, true, signature)
            }
        }
    };
}

side!(Plain, plain);
side!(Tuned, tuned);
side!(Library, ffi);

/// A repeat is cut into this many slices, the sides in turn in each.
const SLICES: usize = 20;

const SIDES: [&str; 3] = ["plain", "tuned", "library"];
const PLAIN: usize = 0;
const TUNED: usize = 1;
const LIBRARY: usize = 2;

/// The processor time this thread has had. (The C library is linked by std; Linux, 64 bits.)
fn processor_time() -> Duration {
    #[repr(C)]
    struct TimeSpec {
        seconds: i64,
        nanoseconds: i64,
    }
    extern "C" {
        fn clock_gettime(clock: i32, time: *mut TimeSpec) -> i32;
    }
    const CLOCK_THREAD_CPUTIME_ID: i32 = 3;
    let mut time = TimeSpec { seconds: 0, nanoseconds: 0 };
    // SAFETY: `time` is a timespec of this system, and is written by nobody else.
    let result = unsafe { clock_gettime(CLOCK_THREAD_CPUTIME_ID, &mut time) };
    assert_eq!(result, 0, "no processor time from this system");
    Duration::new(time.seconds as u64, time.nanoseconds as u32)
}

type State = [u32; plain::STATE_WORDS];

/// A side's buffers. They begin a page, so that they lie alike for every side: a copy whose two places are the same in
/// their pages is slower.
#[repr(C, align(4096))]
#[derive(PartialEq)]
struct Buffers {
    transcript: [u8; plain::TRANSCRIPT],
    answer: [u8; plain::MAX_MESSAGE],
    state: State,
}

impl Buffers {
    fn new() -> Box<Buffers> {
        let (transcript, answer) = ([0; plain::TRANSCRIPT], [0; plain::MAX_MESSAGE]);
        Box::new(Buffers { transcript, answer, state: [0; plain::STATE_WORDS] })
    }
}

/// What a box is provisioned with; SHA-256 and P-256 in each.
#[derive(Clone, Copy)]
struct Provisioning {
    chains: usize,
    chain: usize,
    measurements: usize,
}

const FULL: Provisioning = Provisioning { chains: 8, chain: 4_096, measurements: 32 };
/// As many of the longest chains as an image holds.
const LONG: Provisioning = Provisioning { chains: 3, chain: 16_384, measurements: 32 };
const HASH: usize = 32;
const SIGNATURE: usize = 64;

impl Provisioning {
    fn image(self) -> Vec<u8> {
        let mut image = vec![1];
        let mut record = |kind: u8, body: &[u8]| {
            image.extend((body.len() as u16).to_be_bytes());
            image.push(kind);
            image.extend(body);
        };
        record(1, &[14, 0, 4]);
        for slot in 0..self.chains {
            let mut body = vec![slot as u8];
            body.extend((0..HASH).map(|i| (i + slot) as u8));
            body.extend((self.chain as u16).to_le_bytes());
            body.extend((2..self.chain).map(|i| (i * 7 + slot) as u8));
            record(2, &body);
        }
        for index in 1..=self.measurements {
            let mut body = vec![index as u8, (index % 4) as u8];
            body.extend((0..HASH).map(|i| (i * index) as u8));
            record(3, &body);
        }
        if self.measurements > 0 {
            record(4, &[0xA5; 2 * HASH]);
        }
        image
    }
}

/// One step of a piece of work.
enum Step {
    /// Go back to this state.
    State(State),
    Respond(Vec<u8>),
    Finish,
}

struct Work {
    name: String,
    on: Provisioning,
    steps: Vec<Step>,
    /// Times through the steps, of a slice.
    times: usize,
}

impl Work {
    /// Calls of one time through the steps.
    fn calls_each(&self) -> usize {
        self.steps.iter().filter(|step| !matches!(step, Step::State(_))).count()
    }

    /// Goes through the steps that many times; gives the time and the sum of all results.
    fn run_on<R: Responder>(&self, image: &[u8], buffers: &mut Buffers, times: usize) -> (Duration, u64) {
        let (nonce, signature) = ([0x3C; 32], [0xC3; SIGNATURE]);
        let mut sum = 0;
        let start = processor_time();
        for _ in 0..times {
            for step in &self.steps {
                sum += u64::from(match step {
                    Step::State(state) => {
                        buffers.state = *state;
                        0
                    }
                    Step::Respond(request) => R::respond(black_box(image), buffers, request, &nonce),
                    Step::Finish => R::finish(black_box(image), buffers, &signature),
                });
            }
        }
        (processor_time() - start, black_box(sum))
    }

    fn run(&self, side: usize, image: &[u8], buffers: &mut Buffers, times: usize) -> (Duration, u64) {
        match side {
            PLAIN => self.run_on::<Plain>(image, buffers, times),
            TUNED => self.run_on::<Tuned>(image, buffers, times),
            _ => self.run_on::<Library>(image, buffers, times),
        }
    }
}

/// GET_VERSION, then GET_CAPABILITIES of the edition whose byte is `version`, which goes on with `sizes`, and
/// NEGOTIATE_ALGORITHMS.
fn handshake_of(version: u8, sizes: &[u8]) -> Vec<Step> {
    let mut capabilities = vec![version, 0xE1];
    capabilities.resize(12, 0);
    capabilities.extend(sizes);
    let mut algorithms = vec![version, 0xE3, 0, 0, 32, 0, 1, 0, 0x10, 0, 0, 0, 1, 0, 0, 0];
    algorithms.resize(32, 0);
    vec![Step::Respond(vec![0x10, 0x84, 0, 0]), Step::Respond(capabilities), Step::Respond(algorithms)]
}

/// That of 1.2, as all work but one is.
fn handshake(peer_size: u32) -> Vec<Step> {
    handshake_of(0x12, [peer_size.to_le_bytes(); 2].as_flattened())
}

/// A negotiated state without measurements, which every image allows.
fn negotiated(peer_size: u32) -> State {
    [3, peer_size, 0, 54 + 32 + 36, 0, 0, 0, 0, 0x12]
}

/// The same with measurements.
fn measuring() -> State {
    [3, 4_608, 1, 54 + 32 + 36, 0, 0, 0, 0, 0x12]
}

/// Reads of a slot from its chain's start to its end, `portion` bytes at a time.
fn reads(on: Provisioning, slot: u8, portion: usize) -> Vec<Step> {
    // B holds each request's 8 bytes and each answer's 8 and portion: no read is refused.
    assert!(16 * on.chain.div_ceil(portion) + on.chain <= plain::B_ROOM, "reads that B has no room for");
    (0..on.chain)
        .step_by(portion)
        .map(|offset| {
            let [low, high] = (offset as u16).to_le_bytes();
            Step::Respond(vec![0x12, 0x82, slot, 0, low, high, 0xFF, 0xFF])
        })
        .collect()
}

fn refusals() -> Vec<Step> {
    let mut too_long = vec![0x12, 0x81, 0, 0];
    too_long.resize(4_609, 0);
    let requests: Vec<Vec<u8>> = vec![
        vec![0x12, 0x81, 0],                         // too short
        too_long,                                    // too long
        vec![0x12, 0xFF, 0, 0],                      // RESPOND_IF_READY
        vec![0x11, 0x81, 0, 0],                      // version
        vec![0x12, 0xE1, 0, 0],                      // phase
        vec![0x12, 0x82, 8, 0, 0, 0, 0xFF, 0xFF],    // slot
        vec![0x12, 0x82, 0, 0, 0x00, 0x10, 0xFF, 0], // offset
        vec![0x12, 0xE0, 0, 200],                    // index
    ];
    requests.into_iter().map(Step::Respond).collect()
}

fn signed() -> Vec<Step> {
    let mut challenge = vec![0x12, 0x83, 1, 0xFF];
    challenge.resize(36, 0x11);
    let mut measurements = vec![0x12, 0xE0, 1, 0xFF];
    measurements.resize(36, 0x22);
    measurements.push(1);
    vec![Step::Respond(challenge), Step::Finish, Step::Respond(measurements), Step::Finish]
}

fn get_digests() -> Vec<Step> {
    vec![Step::State(negotiated(4_608)), Step::Respond(vec![0x12, 0x81, 0, 0])]
}

fn work(name: &str, on: Provisioning, steps: Vec<Step>, calls: usize) -> Work {
    let mut work = Work { name: name.to_owned(), on, steps, times: 0 };
    work.times = (calls / SLICES / work.calls_each()).max(1);
    work
}

fn works(digests: usize) -> Vec<Work> {
    let from = |state: State, steps: Vec<Step>| {
        let mut all = vec![Step::State(state)];
        all.extend(steps);
        all
    };
    let fifth = digests / 5;
    let mut mixed = handshake(4_608);
    mixed.push(Step::Respond(vec![0x12, 0x81, 0, 0]));
    mixed.extend(reads(FULL, 3, 1_024));
    mixed.extend(signed());
    mixed.extend(refusals());
    mixed.extend(handshake(42));
    mixed.extend(reads(FULL, 3, 34));
    mixed.extend(refusals());
    let mut all = vec![
        work("GET_DIGESTS", FULL, get_digests(), digests),
        work("handshake", FULL, handshake(4_608), fifth),
        work("handshake of 1.1", FULL, handshake_of(0x11, &[]), fifth),
        work("chain by 34", FULL, from(negotiated(42), reads(FULL, 3, 34)), fifth),
        work("chain by 1024", FULL, from(negotiated(4_608), reads(FULL, 3, 1_024)), fifth),
        work("long by 34", LONG, from(negotiated(42), reads(LONG, 2, 34)), fifth),
        work("long by 1024", LONG, from(negotiated(4_608), reads(LONG, 2, 1_024)), fifth),
        work("refusals", FULL, from(measuring(), refusals()), fifth),
        work("signed, finished", FULL, from(measuring(), signed()), fifth),
        work("all mixed", FULL, mixed, fifth),
    ];
    // GET_DIGESTS again, by what the image holds.
    for (chains, chain, measurements) in [
        (1, 64, 0),
        (1, 64, 1),
        (1, 64, 8),
        (1, 64, 32),
        (2, 64, 0),
        (4, 64, 0),
        (8, 64, 0),
        (8, 1_024, 0),
        (8, 4_096, 0),
        (1, 16_384, 0),
        (3, 16_384, 0),
    ] {
        let name = format!("{chains} of {chain}, {measurements}");
        all.push(work(&name, Provisioning { chains, chain, measurements }, get_digests(), fifth));
    }
    all
}

/// Nanoseconds a call: of the fastest slice, and of the repeats.
#[derive(Clone, Copy)]
struct Figures {
    fastest: f64,
    median: f64,
    slowest: f64,
}

/// What a side took: each slice, and each repeat as the sum of its slices.
#[derive(Default)]
struct Times {
    slices: Vec<Duration>,
    repeats: Vec<Duration>,
}

impl Times {
    fn figures(mut self, calls_a_slice: usize) -> Figures {
        self.repeats.sort_unstable();
        let each = |time: Duration, slices: usize| time.as_secs_f64() * 1e9 / (slices * calls_a_slice) as f64;
        Figures {
            fastest: each(*self.slices.iter().min().expect("a slice"), 1),
            median: each(self.repeats[self.repeats.len() / 2], SLICES),
            slowest: each(self.repeats[self.repeats.len() - 1], SLICES),
        }
    }
}

/// Does the work on every side, a slice of each in turn, and holds the results and buffers of all to the first's.
fn timed(work: &Work, repeats: usize) -> [Figures; 3] {
    let image = work.on.image();
    let reads = (plain::read_image(&image), tuned::read_image(&image), ffi::read_image(&image));
    assert_eq!(reads, (0, 0, 0), "the image is not accepted");
    let mut buffers = SIDES.map(|_| Buffers::new());
    let mut times = SIDES.map(|_| Times::default());
    for repeat in 0..=repeats {
        let mut whole = SIDES.map(|_| Duration::ZERO);
        for slice in 0..SLICES {
            let mut sums = [0; 3];
            for turn in 0..SIDES.len() {
                let side = (slice + if slice % 2 == 0 { turn } else { SIDES.len() - turn }) % SIDES.len();
                let (time, sum) = work.run(side, &image, &mut buffers[side], work.times);
                sums[side] = sum;
                whole[side] += time;
                times[side].slices.push(time);
            }
            assert_eq!(sums, [sums[PLAIN]; 3], "{}: other results", work.name);
        }
        // The first repeat warms up.
        if repeat == 0 {
            times = SIDES.map(|_| Times::default());
        } else {
            times.iter_mut().zip(whole).for_each(|(times, whole)| times.repeats.push(whole));
        }
    }
    for (side, left) in SIDES.iter().zip(&buffers) {
        assert!(*left == buffers[PLAIN], "{}: {side} leaves other bytes", work.name);
    }
    times.map(|times| times.figures(work.times * work.calls_each()))
}

/// Callgrind's count of this program going through a work's steps that many times.
fn counted(work: usize, side: usize, times: usize) -> Option<f64> {
    let run = Command::new("valgrind")
        .args(["--tool=callgrind", "--callgrind-out-file=/dev/null"])
        .arg(std::env::current_exe().ok()?)
        .args(["count".to_owned(), work.to_string(), side.to_string(), times.to_string()])
        .output()
        .ok()?;
    let said = String::from_utf8_lossy(&run.stderr);
    let count = said.lines().find_map(|line| line.split_once("Collected : "))?.1;
    count.trim().parse().ok()
}

/// Instructions a call: what more times through the steps cost.
fn instructions(works: &[Work], work: usize, side: usize, calls: usize) -> Option<f64> {
    let each = works[work].calls_each();
    let times = (calls / each).max(1);
    Some((counted(work, side, times + 1)? - counted(work, side, 1)?) / (times * each) as f64)
}

fn from_env(name: &str, default: usize) -> usize {
    std::env::var(name).map_or(default, |text| text.parse().unwrap_or_else(|error| panic!("{name}={text}: {error}")))
}

fn print_line(name: &str, figures: &[Figures; 3], counts: &[Option<f64>; 3]) {
    print!("{name:<17}");
    for (side, count) in figures.iter().zip(counts) {
        let count = count.map_or(String::new(), |count| format!("{count:.0}"));
        print!(" | {:>6.1} {:>6.1} {count:>5}", side.fastest, side.median);
    }
    let [plain, tuned, library] = figures;
    let spread = figures.iter().map(|side| side.slowest / side.median - 1.0).fold(0.0, f64::max);
    println!(
        " | {:>6.2} {:>6.2} | {:>6.2} {:>6.2} | {:>4.0} %",
        library.fastest / plain.fastest,
        library.median / plain.median,
        library.fastest / tuned.fastest,
        library.median / tuned.median,
        spread * 100.0
    );
}

fn main() {
    let works = works(from_env("SPDM_DIGESTS", 1_000_000).max(5));
    let words: Vec<String> = std::env::args().skip(1).collect();
    if let [count, numbers @ ..] = &words[..] {
        let numbers: Vec<usize> = numbers.iter().map(|word| word.parse().expect("a number")).collect();
        let ("count", &[work, side, times]) = (count.as_str(), &numbers[..]) else {
            panic!("usage: bench [count WORK SIDE TIMES]");
        };
        let work = &works[work];
        work.run(side, &work.on.image(), &mut Buffers::new(), times);
        return;
    }
    if cfg!(debug_assertions) {
        println!("NOT OPTIMISED: run with --release");
    }
    let repeats = from_env("SPDM_REPEATS", 11).max(1);
    let calls = from_env("SPDM_COUNTED", 2_000);
    let told = |on: Provisioning| {
        let Provisioning { chains, chain, measurements } = on;
        format!("{} bytes: {chains} chains of {chain} bytes, {measurements} measurements", on.image().len())
    };
    println!(
        "An image of {}; for \"long\" one of {}. {repeats} repeats in slices, interleaved; buffers are not cleared between calls.",
        told(FULL),
        told(LONG)
    );
    println!("Below \"all mixed\": GET_DIGESTS of other images, by chains of how many bytes, and measurements.");
    println!("Nanoseconds of processor time a call, and instructions a call:");
    println!(
        "{:<17} | {:<19} | {:<19} | {:<19} | {:<13} | {:<13} |",
        "", "plain", "tuned", "library", "library/plain", "library/tuned"
    );
    print!("{:<17}", "work");
    SIDES.iter().for_each(|_| print!(" | {:>6} {:>6} {:>5}", "fast", "median", "instr"));
    println!(" | {:>6} {:>6} | {:>6} {:>6} | spread", "fast", "median", "fast", "median");
    let mut wanted = String::new();
    for (at, work) in works.iter().enumerate() {
        let figures = timed(work, repeats);
        if at == 0 {
            let [plain, tuned, library] = figures;
            wanted = format!(
                "{}, by the median: {:.2} of plain Rust (wanted: at most 1.00), {:.2} of tuned Rust (wanted: at most 1.50)",
                work.name,
                library.median / plain.median,
                library.median / tuned.median
            );
        }
        let counts = [PLAIN, TUNED, LIBRARY].map(|side| match calls {
            0 => None,
            calls => instructions(&works, at, side, calls),
        });
        print_line(&work.name, &figures, &counts);
    }
    println!("{wanted}");
}
