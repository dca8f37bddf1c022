//! Random runs of calls, through the plain responder and through the C interface.
//!
//! After each call everything is compared: the result, every byte of the answer and transcript buffers, the words
//! of the state, and what `spdm_to_sign` then shows. Every buffer lent to the library lies between guard cells.
//!
//! `SPDM_SEED` and `SPDM_CALLS` choose other runs; the same two give the same runs again. With `SPDM_TRACE` set,
//! each call is printed before it is made, so that the last line names a call that did not return.

use std::collections::BTreeMap;
use std::fmt::Write as _;
use std::time::Instant;

use spdm_check::{ffi, plain, tuned};

const DEFAULT_SEED: u64 = 0x5350_444D_0001;
const DEFAULT_CALLS: u64 = 200_000;

// The paper's limits, written here once more: a responder that has one wrong must not move what is tried.
const MAX_IMAGE: usize = 61_440;
const MAX_CHAIN: usize = 16_384;
const TRANSCRIPT: usize = 36_864;
const B_START: usize = 512;
const M_START: usize = 29_184;
const A_ROOM: usize = 512;
const B_ROOM: usize = 28_672;
const M_ROOM: usize = 7_680;

// What they were before request 5.
const OLD_MAX_IMAGE: usize = 36_864;
const OLD_MAX_CHAIN: usize = 4_096;
const OLD_TRANSCRIPT: usize = 16_384;
const OLD_B_ROOM: usize = 8_192;

/// A state's words, and the places of those that are looked at.
type State = [u32; plain::STATE_WORDS];
const PHASE: usize = 0;
const PEER: usize = 1;
const SELECTION: usize = 2;
const A: usize = 3;
const B: usize = 4;
const M: usize = 5;
const AWAITED: usize = 6;
const LENGTH: usize = 7;
const EDITION: usize = 8;
const FRESH: State = [0; plain::STATE_WORDS];

/// The editions, none included, as what was met is counted by them.
const UNCHOSEN: usize = 0;
const V1_1: usize = 1;
const V1_2: usize = 2;
const EDITIONS: [&str; 3] = ["none", "1.1", "1.2"];

// ------------------------------------------------------------------------------------- the random numbers

/// SplitMix64.
struct Rng(u64);

impl Rng {
    fn next(&mut self) -> u64 {
        self.0 = self.0.wrapping_add(0x9E37_79B9_7F4A_7C15);
        let mut z = self.0;
        z = (z ^ (z >> 30)).wrapping_mul(0xBF58_476D_1CE4_E5B9);
        z = (z ^ (z >> 27)).wrapping_mul(0x94D0_49BB_1331_11EB);
        z ^ (z >> 31)
    }

    /// Below `n`, which is not 0.
    fn below(&mut self, n: usize) -> usize {
        (self.next() % n as u64) as usize
    }

    /// From `low` to `high`, both included.
    fn range(&mut self, low: usize, high: usize) -> usize {
        low + self.below(high - low + 1)
    }

    fn one_in(&mut self, n: usize) -> bool {
        self.below(n) == 0
    }

    fn byte(&mut self) -> u8 {
        self.next() as u8
    }

    fn word(&mut self) -> u32 {
        self.next() as u32
    }

    fn pick<T: Copy>(&mut self, from: &[T]) -> T {
        from[self.below(from.len())]
    }

    fn fill(&mut self, bytes: &mut [u8]) {
        for chunk in bytes.chunks_mut(8) {
            let random = self.next().to_le_bytes();
            chunk.copy_from_slice(&random[..chunk.len()]);
        }
    }

    fn bytes(&mut self, count: usize) -> Vec<u8> {
        let mut bytes = vec![0; count];
        self.fill(&mut bytes);
        bytes
    }
}

// ------------------------------------------------------------------------------------------ guarded buffers

const GUARD: usize = 64;

/// A buffer between guard cells, at an odd place as often as not.
struct Guarded<T> {
    cells: Vec<T>,
    front: usize,
    len: usize,
    guard: T,
}

impl<T: Copy + PartialEq> Guarded<T> {
    fn new(rng: &mut Rng, contents: &[T], guard: T) -> Self {
        let front = GUARD + rng.below(16);
        let mut cells = vec![guard; front + contents.len() + GUARD];
        cells[front..front + contents.len()].copy_from_slice(contents);
        Guarded { cells, front, len: contents.len(), guard }
    }

    /// The buffer. If it is empty, it is as often as not a pointer that must not be followed.
    fn get(&self) -> &[T] {
        if self.len == 0 && self.front.is_multiple_of(2) {
            return &[];
        }
        &self.cells[self.front..self.front + self.len]
    }

    fn get_mut(&mut self) -> &mut [T] {
        if self.len == 0 && self.front.is_multiple_of(2) {
            return &mut [];
        }
        &mut self.cells[self.front..self.front + self.len]
    }

    fn intact(&self) -> bool {
        let (front, rest) = self.cells.split_at(self.front);
        front.iter().chain(&rest[self.len..]).all(|cell| *cell == self.guard)
    }
}

/// A buffer lent to both responders: to each its own, with the same contents.
struct Both<T> {
    plain: Vec<T>,
    library: Guarded<T>,
}

impl<T: Copy + PartialEq + std::fmt::Debug> Both<T> {
    fn new(rng: &mut Rng, contents: &[T], guard: T) -> Self {
        Both { plain: contents.to_vec(), library: Guarded::new(rng, contents, guard) }
    }

    /// Says what differs, if anything does.
    fn compare(&self, name: &str) -> Result<(), String> {
        if !self.library.intact() {
            return Err(format!("the library wrote outside the {name}"));
        }
        if self.plain[..] == *self.library.get() {
            return Ok(());
        }
        let different: Vec<usize> =
            (0..self.plain.len()).filter(|&at| self.plain[at] != self.library.get()[at]).collect();
        let at = different[0];
        Err(format!(
            "{name}: {} places differ, the first at {at}: plain {:?}, library {:?}",
            different.len(),
            self.plain[at],
            self.library.get()[at]
        ))
    }
}

// --------------------------------------------------------------------------------------------- the images

const H: [usize; 6] = [32, 48, 64, 32, 48, 64];
const S: [usize; 9] = [256, 256, 384, 384, 64, 512, 512, 96, 132];

/// What a valid image was made of. The generator of requests looks at it to ask for what is there.
#[derive(Clone)]
struct Spec {
    hash: usize,
    signature: usize,
    /// Slots and lengths.
    chains: Vec<(u8, usize)>,
    indices: Vec<u8>,
    records: Vec<(u8, Vec<u8>)>,
}

impl Spec {
    fn h(&self) -> usize {
        H[self.hash]
    }

    fn s(&self) -> usize {
        S[self.signature]
    }

    /// What `image_algorithms` is to tell.
    fn algorithms(&self) -> [u32; 7] {
        let exponent = u32::from(self.records[0].1[0]);
        let mask = self.chains.iter().map(|chain| 1 << chain.0).sum();
        let (h, s, count) = (self.h() as u32, self.s() as u32, self.indices.len() as u32);
        [exponent, self.hash as u32, h, self.signature as u32, s, mask, count]
    }

    /// The sizes of the answers that this image can give in phase 3, signature left off.
    fn unsigned_sizes(&self) -> [usize; 6] {
        let h = self.h();
        [4 + h * self.chains.len(), 4 + h + 34, 4 + h + 34 + h, 42, 42 + 7 + h, 42 + (7 + h) * self.indices.len()]
    }
}

fn rising(rng: &mut Rng, low: usize, high: usize, count: usize) -> Vec<u8> {
    let mut all: Vec<usize> = (low..=high).collect();
    for at in 0..count {
        let other = rng.range(at, all.len() - 1);
        all.swap(at, other);
    }
    all.truncate(count);
    all.sort_unstable();
    all.iter().map(|&number| number as u8).collect()
}

/// A valid image with any bytes where there may be any.
fn spec_of(rng: &mut Rng, [hash, signature]: [usize; 2], chains: Vec<(u8, usize)>, indices: Vec<u8>) -> Spec {
    let h = H[hash];
    let mut records = vec![(1, vec![rng.below(32) as u8, hash as u8, signature as u8])];
    for &(slot, length) in &chains {
        let mut body = vec![slot];
        body.extend(rng.bytes(h + length));
        set_own_length(&mut body, h);
        records.push((2, body));
    }
    for &index in &indices {
        let mut body = vec![index, rng.below(4) as u8];
        body.extend(rng.bytes(h));
        records.push((3, body));
    }
    if !indices.is_empty() {
        records.push((4, rng.bytes(2 * h)));
    }
    Spec { hash, signature, chains, indices, records }
}

fn valid_spec(rng: &mut Rng) -> Spec {
    let (hash, signature) = (rng.below(6), rng.below(9));
    let h = H[hash];
    let slots = match rng.below(4) {
        0 => vec![0],
        1 => (0..8).collect(),
        _ => {
            let more = rng.below(8);
            let mut slots = vec![0];
            slots.extend(rising(rng, 1, 7, more));
            slots
        }
    };
    let count = match rng.below(6) {
        0 => 0,
        1 => 1,
        2 => 32,
        _ => rng.range(1, 32),
    };
    // What the chains may have beyond their least, so that the image has no more than it may.
    let summaries = if count > 0 { 3 + 2 * h } else { 0 };
    let mut spare = MAX_IMAGE - 7 - slots.len() * (4 + h + 5 + h) - count * (5 + h) - summaries;
    let big = rng.one_in(8);
    let full = big && rng.one_in(3);
    let mut chains = Vec::new();
    for slot in slots {
        let most = MAX_CHAIN.min(5 + h + spare);
        let length = match rng.below(8) {
            _ if full => most,
            0 => 5 + h,
            1 if big => most,
            _ if big => rng.range(5 + h, most),
            2 => rng.range(5 + h, most.min(1_400)),
            _ => rng.range(5 + h, most.min(200)),
        };
        spare -= length - (5 + h);
        chains.push((slot, length));
    }

    let mut indices = rising(rng, 1, 239, count);
    if count > 0 && rng.one_in(4) {
        indices[0] = 1;
        let last = indices.len() - 1;
        if last > 0 {
            indices[last] = 239;
        }
    }
    spec_of(rng, [hash, signature], chains, indices)
}

/// Makes a chain's own length that of its bytes.
fn set_own_length(body: &mut [u8], h: usize) {
    let length = body.len() - 1 - h;
    body[1 + h..3 + h].copy_from_slice(&(length as u16).to_le_bytes());
}

/// Lengthens chains until the image has `length` bytes, or no chain can be longer.
fn lengthen(records: &mut [(u8, Vec<u8>)], h: usize, length: usize) {
    let now = 1 + records.iter().map(|record| 3 + record.1.len()).sum::<usize>();
    let mut missing = length.saturating_sub(now);
    for (_, body) in records.iter_mut().filter(|record| record.0 == 2 && record.1.len() >= 3 + h) {
        let more = missing.min((1 + h + MAX_CHAIN).saturating_sub(body.len()));
        body.resize(body.len() + more, 0);
        set_own_length(body, h);
        missing -= more;
    }
}

fn encode(records: &[(u8, Vec<u8>)]) -> Vec<u8> {
    let mut image = vec![1];
    for (kind, body) in records {
        image.extend((body.len() as u16).to_be_bytes());
        image.push(*kind);
        image.extend(body);
    }
    image
}

/// An image with something wrong with it (or, now and then, not).
fn damaged(rng: &mut Rng, spec: &Spec) -> Vec<u8> {
    let mut records = spec.records.clone();
    for _ in 0..if rng.one_in(4) { 2 } else { 1 } {
        damage_records(rng, spec, &mut records);
    }
    let mut image = encode(&records);
    if rng.one_in(2) {
        damage_bytes(rng, &records, &mut image);
    }
    image
}

fn damage_records(rng: &mut Rng, spec: &Spec, records: &mut Vec<(u8, Vec<u8>)>) {
    let h = spec.h();
    if records.is_empty() {
        return;
    }
    let at = rng.below(records.len());
    match rng.below(14) {
        0 => {
            let other = rng.below(records.len());
            records.swap(at, other);
        }
        1 => {
            let copy = records[at].clone();
            records.insert(at, copy);
        }
        2 => {
            records.remove(at);
        }
        3 => records[at].0 = rng.pick(&[0, 1, 2, 3, 4, 5, 255]),
        4 => {
            let body = &mut records[at].1;
            match rng.below(5) {
                0 => body.push(0),
                1 => drop(body.pop()),
                2 => body.clear(),
                3 => body.truncate(1),
                _ => {
                    let chains = [5 + h, 4 + h, OLD_MAX_CHAIN, MAX_CHAIN, MAX_CHAIN + 1];
                    let longer = if rng.one_in(2) { 1 + h + rng.pick(&chains) } else { rng.pick(&[3, 2 + h, 2 * h]) };
                    body.resize(longer, 0);
                    if longer >= 3 + h && rng.one_in(2) {
                        set_own_length(body, h);
                    }
                }
            }
        }
        5 => {
            // The first two bytes of the body: ranges and order of CTExponent, slot, index, type.
            let body = &mut records[at].1;
            let place = rng.below(3);
            if place < body.len() {
                body[place] = rng.pick(&[0, 1, 3, 4, 5, 6, 7, 8, 9, 31, 32, 33, 239, 240, 255]);
            }
        }
        6 => {
            // A chain's own length.
            if let (2, body) = &mut records[at] {
                if body.len() > 3 + h {
                    let place = 1 + h + rng.below(2);
                    body[place] ^= 1 << rng.below(8);
                }
            }
        }
        7 => {
            // Chains up to nine, slots as they come.
            let chains = records.iter().filter(|record| record.0 == 2).count();
            let place = records.iter().rposition(|record| record.0 == 2).map_or(records.len(), |last| last + 1);
            for slot in chains..rng.pick(&[8, 9, 9, 9]) {
                let mut body = vec![slot as u8];
                body.extend(vec![0; h]);
                body.extend(((5 + h) as u16).to_le_bytes());
                body.extend(vec![0; 3 + h]);
                records.insert((place + slot - chains).min(records.len()), (2, body));
            }
        }
        8 => {
            // Measurements up to 33.
            let place = records.iter().rposition(|record| record.0 == 3).map_or(records.len(), |last| last + 1);
            let measurements = records.iter().filter(|record| record.0 == 3).count();
            let last = spec.indices.last().copied().unwrap_or(0);
            for more in measurements..33 {
                let mut body = vec![last.wrapping_add(1 + (more - measurements) as u8), 0];
                body.extend(vec![0; h]);
                records.insert(place.min(records.len()), (3, body));
            }
        }
        9 => records.truncate(at),
        10 => {
            let kind = rng.pick(&[1, 2, 3, 4, 5]);
            let length = rng.pick(&[0, 1, 3, 2 + h, 2 * h]);
            records.push((kind, vec![0; length]));
        }
        11 => lengthen(records, h, MAX_IMAGE + rng.below(3) - 1),
        12 => {
            // A chain as long as it may be, or a byte longer.
            if let (2, body) = &mut records[at] {
                body.resize(1 + h + MAX_CHAIN + rng.below(2), 0);
                set_own_length(body, h);
            }
        }
        _ => {}
    }
}

fn damage_bytes(rng: &mut Rng, records: &[(u8, Vec<u8>)], image: &mut Vec<u8>) {
    match rng.below(12) {
        0..=4 => {
            for _ in 0..rng.range(1, 3) {
                // Half of the flips hit a head or the first bytes of a body.
                let place = if rng.one_in(2) || records.is_empty() {
                    rng.below(image.len())
                } else {
                    let which = rng.below(records.len());
                    let head: usize = 1 + records[..which].iter().map(|record| 3 + record.1.len()).sum::<usize>();
                    (head + rng.below(6)).min(image.len() - 1)
                };
                image[place] ^= 1 << rng.below(8);
            }
        }
        5 => image.truncate(image.len() - rng.range(1, image.len().min(8))),
        6 => image.truncate(rng.below(image.len())),
        7 => {
            let extra = rng.range(1, 6);
            image.extend(rng.bytes(extra));
        }
        8 => image.clear(),
        9 => {
            let length = rng.pick(&[OLD_MAX_IMAGE + 1, MAX_IMAGE - 1, MAX_IMAGE, MAX_IMAGE + 1, 65_536]);
            image.resize(length, rng.pick(&[0, 1, 2, 255]));
        }
        10 => image[0] = rng.pick(&[0, 2, 129, 255]),
        _ => {
            let length = rng.range(1, 80);
            *image = rng.bytes(length);
            if rng.one_in(2) {
                image[0] = 1;
            }
        }
    }
}

// -------------------------------------------------------------------------------------------- the requests

fn get_version(rng: &mut Rng) -> Vec<u8> {
    vec![0x10, 0x84, rng.byte(), rng.byte()]
}

/// A version byte for any request but GET_VERSION: mostly the one that the connection has chosen, or may choose.
fn some_version(rng: &mut Rng, state: &State) -> u8 {
    match state[EDITION] {
        _ if rng.one_in(30) => rng.pick(&[0x10, 0x11, 0x11, 0x12, 0x12, 0x13]),
        chosen @ (0x11 | 0x12) => chosen as u8,
        _ => rng.pick(&[0x11, 0x12]),
    }
}

fn get_capabilities(rng: &mut Rng, spec: &Spec, version: u8) -> Vec<u8> {
    let mut request = rng.bytes(20);
    request[..2].copy_from_slice(&[version, 0xE1]);
    let size = match rng.below(8) {
        0 => 42,
        1 => rng.pick(&[43, 4_607, 4_608, 4_609, 65_535, 65_536, u32::MAX, 0x8000_0000]),
        2 => rng.pick(&[0, 1, 7, 8, 40, 41]),
        3 | 4 => {
            // At an answer's size, or one beside it.
            let size = rng.pick(&spec.unsigned_sizes()) + rng.pick(&[0, spec.s()]);
            (size + rng.below(3)) as u32 - 1
        }
        5 => rng.range(42, 1_100) as u32,
        _ => 4_608,
    };
    let most = match rng.below(8) {
        0 => size.wrapping_sub(1),
        1 => rng.word(),
        2 => u32::MAX,
        3 => size.wrapping_add(1),
        _ => size,
    };
    request[12..16].copy_from_slice(&size.to_le_bytes());
    request[16..20].copy_from_slice(&most.to_le_bytes());
    if version == 0x11 {
        // Its sizes, where they stand, are no part of it.
        request.truncate(rng.pick(&[11, 12, 12, 12, 12, 13, 19, 20]));
    }
    request
}

fn negotiate_algorithms(rng: &mut Rng, spec: &Spec, version: u8) -> Vec<u8> {
    let mut request = rng.bytes(32);
    request[..2].copy_from_slice(&[version, 0xE3]);
    let mut structures = Vec::new();
    let count = if rng.one_in(2) { 0 } else { rng.range(1, 4) };
    for kind in rising(rng, 2, 5, count) {
        let extended = if rng.one_in(3) { rng.below(5) } else { 0 };
        structures.extend([kind, 0x20 | extended as u8, rng.byte(), rng.byte()]);
        structures.extend(rng.bytes(4 * extended));
    }
    let (e1, e2) = match rng.below(4) {
        0 => (rng.below(5), rng.below(5)),
        1 => {
            // As long as a request may be, or a little longer.
            let whole: usize = rng.pick(&[128, 128, 132, 144]);
            let room = whole.saturating_sub(32 + structures.len()) / 4;
            let first = rng.range(0, room);
            (first, room - first)
        }
        _ => (0, 0),
    };
    request[2] = count as u8;
    request[28] = e1 as u8;
    request[29] = e2 as u8;
    let asym = rng.word() | 1 << spec.signature;
    let hash = rng.word() | 1 << spec.hash;
    request[8..12].copy_from_slice(&asym.to_le_bytes());
    request[12..16].copy_from_slice(&hash.to_le_bytes());
    if !rng.one_in(4) {
        request[6] |= 1;
    }
    request.extend(rng.bytes(4 * (e1 + e2)));
    request.extend(&structures);
    let length = request.len() as u16;
    request[4..6].copy_from_slice(&length.to_le_bytes());

    if rng.one_in(4) {
        // One thing wrong.
        match rng.below(9) {
            0 => request[2] = request[2].wrapping_add(rng.pick(&[1, 255, 4, 128])),
            1 => {
                let other = rng.pick(&[0, 31, 32, 36, 127, 128, 129, 132, 65_535, length + 4, length - 1, length + 1]);
                request[4..6].copy_from_slice(&other.to_le_bytes());
                if rng.one_in(2) {
                    request.resize(usize::from(other.max(32)).min(200), 0);
                }
            }
            2 => request[8 + spec.signature / 8] &= !(1 << (spec.signature % 8)),
            3 => request[12] &= !(1 << spec.hash),
            4 => request[28] = request[28].wrapping_add(rng.pick(&[1, 255, 64])),
            5 => request[29] = request[29].wrapping_add(rng.pick(&[1, 255, 64])),
            6 if !structures.is_empty() => {
                let at = request.len() - structures.len();
                request[at] = rng.pick(&[0, 1, 2, 3, 4, 5, 6, 255]);
            }
            7 if !structures.is_empty() => {
                let at = request.len() - structures.len();
                request[at + 1] ^= 1 << rng.below(8);
            }
            _ => drop(request.pop()),
        }
    }
    request
}

fn get_digests(rng: &mut Rng, version: u8) -> Vec<u8> {
    vec![version, 0x81, rng.byte(), rng.byte()]
}

/// A slot number, mostly a filled one.
fn some_slot(rng: &mut Rng, spec: &Spec) -> u8 {
    match rng.below(10) {
        0 => rng.below(8) as u8,
        1 => rng.below(16) as u8,
        _ => spec.chains[rng.below(spec.chains.len())].0,
    }
}

fn get_certificate(rng: &mut Rng, spec: &Spec, version: u8) -> Vec<u8> {
    let slot = some_slot(rng, spec);
    let chain = spec.chains.iter().find(|chain| chain.0 == slot).map_or(100, |chain| chain.1);
    let offset = match rng.below(10) {
        0 => chain - 1,
        1 => chain,
        2 => rng.pick(&[chain + 1, 65_535, MAX_CHAIN, MAX_CHAIN - 1, OLD_MAX_CHAIN, OLD_MAX_CHAIN - 1, 256]),
        3 | 4 => 0,
        _ => rng.below(chain),
    } as u16;
    let length: u16 = match rng.below(10) {
        0 => 0,
        1 => 1,
        2 => 34,
        3 => rng.pick(&[1_023, 1_024, 1_025, 256]),
        4 => (chain as u16).saturating_sub(offset).wrapping_add(rng.pick(&[0, 1, 65_535])),
        5 => rng.word() as u16,
        6 => rng.range(1, 100) as u16,
        _ => 65_535,
    };
    let mut request = vec![version, 0x82, slot | rng.byte() & 0xF0, rng.byte()];
    request.extend(offset.to_le_bytes());
    request.extend(length.to_le_bytes());
    request
}

fn challenge(rng: &mut Rng, spec: &Spec, version: u8, selected: bool) -> Vec<u8> {
    let mut request = rng.bytes(36);
    let slot = some_slot(rng, spec);
    let slot = if rng.one_in(12) { slot | rng.pick(&[8, 16, 128]) } else { slot };
    let summary = match rng.below(10) {
        0 => rng.pick(&[2, 3, 254, 127, 128]),
        1 => rng.byte(),
        2 | 3 => 1,
        4 | 5 => 0xFF,
        _ => 0,
    };
    let summary = if selected || rng.one_in(4) { summary } else { 0 };
    request[..4].copy_from_slice(&[version, 0x83, slot, summary]);
    request
}

fn get_measurements(rng: &mut Rng, spec: &Spec, version: u8) -> Vec<u8> {
    let which = match rng.below(10) {
        0 | 1 => 0,
        2 | 3 => 0xFF,
        4 => rng.byte(),
        5 => rng.pick(&[1, 238, 239, 240, 254]),
        _ if spec.indices.is_empty() => rng.byte(),
        _ => spec.indices[rng.below(spec.indices.len())],
    };
    let signed = rng.one_in(2);
    let mut request = vec![version, 0xE0, rng.byte() & 0xFE | u8::from(signed), which];
    if signed || rng.one_in(4) {
        request.extend(rng.bytes(32));
        request.push(some_slot(rng, spec) | rng.byte() & 0xF0);
    }
    if signed && rng.one_in(12) {
        request.pop();
    }
    request
}

/// What comes next in this phase.
fn next_step(rng: &mut Rng, spec: &Spec, state: &State) -> Vec<u8> {
    let version = some_version(rng, state);
    let selected = state[SELECTION] == 1;
    match state[PHASE] {
        0 => get_version(rng),
        1 => get_capabilities(rng, spec, version),
        2 => negotiate_algorithms(rng, spec, version),
        _ => match rng.below(12) {
            0 | 1 => get_digests(rng, version),
            2..=5 => get_certificate(rng, spec, version),
            6 | 7 => challenge(rng, spec, version, selected),
            8 if !selected => challenge(rng, spec, version, false),
            _ => get_measurements(rng, spec, version),
        },
    }
}

/// Any served request.
fn any_step(rng: &mut Rng, spec: &Spec, state: &State) -> Vec<u8> {
    let version = some_version(rng, state);
    match rng.below(7) {
        0 => get_version(rng),
        1 => get_capabilities(rng, spec, version),
        2 => negotiate_algorithms(rng, spec, version),
        3 => get_digests(rng, version),
        4 => get_certificate(rng, spec, version),
        5 => challenge(rng, spec, version, true),
        _ => get_measurements(rng, spec, version),
    }
}

fn mutate(rng: &mut Rng, request: &mut Vec<u8>) {
    match rng.below(8) {
        0 => request[0] = rng.pick(&[0x00, 0x10, 0x11, 0x12, 0x13, 0xFF]),
        1 => request[1] = rng.byte(),
        2 => request.truncate(request.len() - 1),
        3 => {
            let length = rng.below(request.len());
            request.truncate(length);
        }
        4 | 5 => {
            for _ in 0..rng.range(1, 3) {
                let at = rng.below(request.len());
                request[at] ^= 1 << rng.below(8);
            }
        }
        6 => {
            let at = rng.below(request.len());
            request[at] = rng.byte();
        }
        _ => {
            let at = rng.below(request.len());
            request.insert(at, rng.byte());
        }
    }
}

fn some_request(rng: &mut Rng, spec: &Spec, state: &State) -> Vec<u8> {
    let mut request = match rng.below(100) {
        0..=69 => next_step(rng, spec, state),
        70..=73 => get_version(rng),
        74..=82 => any_step(rng, spec, state),
        83..=90 => {
            let mut request = next_step(rng, spec, state);
            mutate(rng, &mut request);
            request
        }
        91..=93 => {
            let mut request = any_step(rng, spec, state);
            mutate(rng, &mut request);
            request
        }
        94 | 95 => {
            let code = rng.pick(&[
                0x00, 0x01, 0x7F, 0x80, 0x85, 0x86, 0xE2, 0xE4, 0xE5, 0xE6, 0xE7, 0xE8, 0xEA, 0xFC, 0xFD, 0xFE, 0xFF,
            ]);
            let code = if rng.one_in(2) { code } else { rng.byte() };
            vec![rng.pick(&[0x10, 0x12, 0x11]), code, rng.byte(), rng.byte()]
        }
        96 => {
            let length = rng.below(64);
            rng.bytes(length)
        }
        97 => {
            let mut request = any_step(rng, spec, state);
            request.truncate(rng.below(4));
            request
        }
        _ => {
            let version = some_version(rng, state);
            let measure = rng.one_in(2);
            let mut request = if measure { get_measurements(rng, spec, version) } else { any_step(rng, spec, state) };
            request.resize(rng.pick(&[4_607, 4_608, 4_609, 5_000]), rng.byte());
            request
        }
    };
    if rng.one_in(5) && request.len() < 4_000 {
        let pad = rng.range(1, 40);
        request.extend(rng.bytes(pad));
    }
    request
}

// --------------------------------------------------------------------------------------------- the states

/// Numbers at the bounds of one word or another, or beside them.
const NEAR: [u32; 49] = [
    0,
    1,
    2,
    3,
    4,
    5,
    8,
    12,
    13,
    14,
    15,
    0x10,
    0x11,
    0x12,
    0x13,
    37,
    38,
    39,
    41,
    42,
    43,
    52,
    53,
    54,
    55,
    216,
    0x111,
    511,
    512,
    513,
    4_607,
    4_608,
    4_609,
    0x1200,
    7_679,
    7_680,
    7_681,
    8_192,
    8_193,
    28_671,
    28_672,
    28_673,
    36_864,
    65_535,
    65_536,
    0x7FFF_FFFF,
    0x8000_0000,
    0xFFFF_FFFE,
    0xFFFF_FFFF,
];

/// A state in phase 3, within its bounds, often with B and M nearly full.
fn negotiated_state(rng: &mut Rng, spec: &Spec) -> State {
    let selected = u32::from(!spec.indices.is_empty() && !rng.one_in(4));
    let mut used = |room: usize, pairs: &[usize]| match rng.below(4) {
        0 => 0,
        1 => rng.range(0, room),
        2 => room - rng.below(60),
        // Just enough room for a request and its answer, or one byte too little or too much.
        _ => room + 1 - rng.pick(pairs) - rng.below(3),
    };
    let [digests, challenge, summed, none, one, all] = spec.unsigned_sizes();
    let b = used(B_ROOM, &[4 + digests, 36 + challenge, 36 + summed, 16 + 34, 16 + 1_024]);
    let m = used(M_ROOM, &[4 + none, 4 + one, 4 + all, 37 + none, 37 + one, 37 + all]);
    let awaited = if rng.one_in(3) { rng.range(1, 2) as u32 } else { 0 };
    let length = match (awaited, rng.below(4)) {
        (0, 0) => rng.word(),
        (0, _) => 0,
        (_, 0) => 4_608,
        (_, 1) => (4 + spec.s()) as u32,
        _ => rng.range(4 + spec.s(), 4_608) as u32,
    };
    let edition = rng.pick(&[0x11, 0x12]);
    let peer = match rng.below(4) {
        _ if edition == 0x11 => 4_608,
        0 => 42,
        1 => rng.pick(&[u32::MAX, 0x8000_0000, 65_536]),
        _ => 4_608,
    };
    let a = rng.range(0, A_ROOM);
    [3, peer, selected, a as u32, b as u32, m as u32, awaited, length, edition]
}

/// A state within its bounds, in any phase.
fn good_state(rng: &mut Rng, spec: &Spec) -> State {
    match rng.below(6) {
        0 => [0, rng.word(), 0, 0, 0, 0, 0, rng.word(), 0],
        1 => [1, rng.word(), 0, 14, 0, 0, 0, 0, 0],
        2 => [2, 4_608, 0, 38, 0, 0, 0, 0, 0x11],
        3 => [2, rng.pick(&[42, 43, 4_608, u32::MAX]), 0, 54, 0, 0, 0, 0, 0x12],
        _ => negotiated_state(rng, spec),
    }
}

/// A state that a careless or a hostile host could hand in.
fn hostile_state(rng: &mut Rng, spec: &Spec) -> State {
    let mut state = match rng.below(8) {
        0 => FRESH.map(|_| rng.word()),
        1 => FRESH.map(|_| rng.pick(&NEAR)),
        2 | 3 => {
            // A ninth word of another edition, of none, or of no meaning.
            let mut state = good_state(rng, spec);
            state[EDITION] = rng.pick(&[0, 0x11, 0x12, 0, 0x11, 0x12, 1, 2, 0x10, 0x13, 0x111, 0x1200, 0x8000_0012]);
            state
        }
        4 => {
            // 1.1 with a peer's size that is not its own.
            let early = [2, 0, 0, 38, 0, 0, 0, 0, 0x11];
            let mut state = if rng.one_in(2) { early } else { negotiated_state(rng, spec) };
            state[EDITION] = 0x11;
            state[PEER] = rng.pick(&[0, 41, 42, 4_607, 4_609, 65_536 + 4_608, u32::MAX]);
            state
        }
        5 => {
            // A region full, or used by a byte more than it has.
            let mut state = negotiated_state(rng, spec);
            let (word, room) = rng.pick(&[(A, A_ROOM), (B, B_ROOM), (M, M_ROOM)]);
            state[word] = (room + rng.below(2)) as u32;
            state
        }
        _ => good_state(rng, spec),
    };
    for _ in 0..rng.below(3) {
        let at = rng.below(state.len());
        state[at] = match rng.below(4) {
            0 => rng.word(),
            1 => state[at].wrapping_add(rng.pick(&[1, u32::MAX, 0x1_0000, 0x100, 0x8000_0000])),
            2 => (spec.s() + rng.range(2, 6)) as u32,
            _ => rng.pick(&NEAR),
        };
    }
    state
}

// ---------------------------------------------------------------------------------------------- the calls

enum Call {
    Respond { request: Vec<u8>, nonce: Vec<u8> },
    Finish { chip_ok: u32, signature: Vec<u8> },
}

/// All that goes into one call besides the transcript.
struct Setting {
    image: Vec<u8>,
    state: Vec<u32>,
    transcript_len: usize,
    answer: Vec<u8>,
    call: Call,
}

fn hex(bytes: &[u8]) -> String {
    let mut text = String::with_capacity(2 * bytes.len());
    for byte in bytes {
        write!(text, "{byte:02x}").expect("a string takes all");
    }
    if text.is_empty() {
        text.push('-');
    }
    text
}

impl Setting {
    fn describe(&self) -> String {
        let call = match &self.call {
            Call::Respond { request, nonce } => format!("respond\n  request {}\n  nonce {}", hex(request), hex(nonce)),
            Call::Finish { chip_ok, signature } => {
                format!("finish\n  chip_ok {chip_ok}\n  signature {}", hex(signature))
            }
        };
        format!(
            "{call}\n  state {:?}\n  transcript length {}\n  answer length {}\n  answer before {}\n  image {}",
            self.state,
            self.transcript_len,
            self.answer.len(),
            hex(&self.answer),
            hex(&self.image)
        )
    }
}

/// What has been met, so that a generator gone astray shows.
struct Met {
    numbers: [u64; 17],
    /// Of the states out of bounds: those that another edition, or none, would bring back.
    edition_out: u64,
    /// Choices of another edition than the connection had before it restarted.
    chosen_anew: u64,
    /// Calls without a number, by the edition that they leave.
    under: [Under; EDITIONS.len()],
    images: [u64; 17],
    sorts: Sorts,
}

/// Sorts of images and calls at the limits, or past what the limits were, each with how often it was met: 0 for one that
/// was looked for in vain.
#[derive(Default)]
struct Sorts(BTreeMap<&'static str, u64>);

impl Sorts {
    fn count(&mut self, sort: &'static str, met: bool) {
        *self.0.entry(sort).or_default() += u64::from(met);
    }

    fn image(&mut self, image: &[u8], number: u32) {
        let (chains, length) = (chain_lengths(image), image.len());
        self.count("image over 36,864 bytes, accepted", number == 0 && length > OLD_MAX_IMAGE);
        self.count("image of 61,440 bytes, accepted", number == 0 && length == MAX_IMAGE);
        self.count("image of 61,441 bytes, number 1", number == 1 && length == MAX_IMAGE + 1);
        self.count("image with a chain of 16,384 bytes, accepted", number == 0 && chains.contains(&MAX_CHAIN));
        self.count("image with a chain of 16,385 bytes, number 6", number == 6 && chains.contains(&(MAX_CHAIN + 1)));
    }

    /// A call: its number, and the answer and the state that it left.
    fn call(&mut self, setting: &Setting, number: u32, answer: &[u8], after: &[u32]) {
        let Setting { image, state, transcript_len: lent, .. } = setting;
        self.count("call on an image of 61,440 bytes", number == 0 && image.len() == MAX_IMAGE);
        self.count("transcript of 36,863 bytes, number 12", number == 12 && *lent == TRANSCRIPT - 1);
        self.count("transcript of 36,864 bytes, taken", number == 0 && *lent == TRANSCRIPT);
        self.count("transcript over 36,864 bytes, taken", number == 0 && *lent > TRANSCRIPT);
        let over = number == 14 && state.get(B) == Some(&(B_ROOM as u32 + 1));
        self.count("B of 28,673 bytes, number 14", over && only_its(state, B, &[B_ROOM as u32]));

        let used = |words: &[u32]| if number == 0 { words[B] as usize } else { 0 };
        let (before, after) = (used(state), used(after));
        self.count("B of 28,672 bytes, taken", before == B_ROOM);
        self.count("B filled past 8,192 bytes", before < after && after > OLD_B_ROOM);

        let (request, code) = match &setting.call {
            Call::Respond { request, .. } if number == 0 => (&request[..], answer[1]),
            _ => (&[][..], 0),
        };
        let full = before < B_ROOM && after == B_ROOM;
        self.count("DIGESTS to B's last byte", full && code == 0x01);
        self.count("CERTIFICATE to B's last byte", full && code == 0x02);
        self.count("CHALLENGE_AUTH to B's last byte", full && code == 0x03);
        let refused = code == 0x7F && answer[2] == 0x05 && request[1] == 0x81;
        let too_long = refused && before + digests_pair(image) == B_ROOM + 1;
        self.count("DIGESTS a byte too long for B, ERROR 0x05", too_long);

        let u16_at = |bytes: &[u8], at: usize| usize::from(u16::from_le_bytes([bytes[at], bytes[at + 1]]));
        let (offset, portion, rest) =
            if code == 0x02 { (u16_at(request, 4), u16_at(answer, 4), u16_at(answer, 6)) } else { (0, 0, 0) };
        self.count("read at an offset over 4,096", offset > OLD_MAX_CHAIN);
        self.count("read at an offset over 8,192", offset > 2 * OLD_MAX_CHAIN);
        self.count("read with a remainder over 8,192", rest > 2 * OLD_MAX_CHAIN);
        self.count("read of 34 bytes behind 4,096", offset > OLD_MAX_CHAIN && portion == 34);
        self.count("read of 1,024 bytes behind 4,096", offset > OLD_MAX_CHAIN && portion == 1_024);
        self.count("read to the end of 16,384 bytes", offset + portion == MAX_CHAIN && rest == 0);
    }

    fn print(&self) {
        for (sort, count) in &self.0 {
            println!("  {sort}: {count}");
        }
    }

    fn assert_all_met(&self) {
        for (sort, &count) in &self.0 {
            assert!(count > 0, "never met: {sort}");
        }
    }
}

/// The lengths of the chains in an image, as far as its records can be walked.
fn chain_lengths(image: &[u8]) -> Vec<usize> {
    let Some(h) = hash_size(image) else {
        return Vec::new();
    };
    let (mut lengths, mut at) = (Vec::new(), 1);
    while let Some(&[high, low, kind]) = image.get(at..).and_then(|rest| rest.first_chunk()) {
        let length = usize::from(u16::from_be_bytes([high, low]));
        if kind == 2 {
            lengths.push(length.saturating_sub(1 + h));
        }
        at += 3 + length;
    }
    lengths
}

/// H, if an image says any.
fn hash_size(image: &[u8]) -> Option<usize> {
    H.get(usize::from(*image.get(5)?)).copied()
}

/// What GET_DIGESTS and DIGESTS of an accepted image have together.
fn digests_pair(image: &[u8]) -> usize {
    8 + chain_lengths(image).len() * hash_size(image).expect("an accepted image")
}

/// What has been met under an edition.
#[derive(Clone, Copy)]
struct Under {
    /// By the ERROR's code.
    errors: [u64; 256],
    /// By the request's code.
    accepted: [u64; 256],
    /// Refusals for the other edition's version byte.
    crossed: u64,
    /// By the ERROR's code: refusals that found bytes in M and emptied it.
    emptied: [u64; 256],
    /// Likewise: refusals of GET_MEASUREMENTS that found bytes in M and left them, but for step 2,
    left: [u64; 256],
    /// whose refusals are these.
    left_too_long: u64,
    signed: u64,
    /// The chip failed, or succeeded.
    finished: [u64; 2],
    /// What is to be signed: of CHALLENGE, or of GET_MEASUREMENTS.
    shown: [u64; 2],
}

impl Under {
    /// Counts an ERROR to a request. The state that it leaves.
    fn count_error(&mut self, request: &[u8], code: u8, before: &[u32]) -> Vec<u32> {
        let mut left = before.to_vec();
        let measured = u64::from(request.get(1) == Some(&0xE0) && left[M] != 0);
        let at = usize::from(code);
        self.errors[at] += 1;
        if empties_m(request, code) {
            self.emptied[at] += measured;
            left[M] = 0;
        } else if request.len() > 4_608 {
            self.left_too_long += measured;
        } else {
            self.left[at] += measured;
        }
        left
    }
}

impl Met {
    fn nothing() -> Met {
        let under = Under {
            errors: [0; 256],
            accepted: [0; 256],
            crossed: 0,
            emptied: [0; 256],
            left: [0; 256],
            left_too_long: 0,
            signed: 0,
            finished: [0; 2],
            shown: [0; 2],
        };
        Met {
            numbers: [0; 17],
            edition_out: 0,
            chosen_anew: 0,
            under: [under; EDITIONS.len()],
            images: [0; 17],
            sorts: Sorts::default(),
        }
    }
}

/// Whether an ERROR tells that M was emptied: a GET_MEASUREMENTS that is no shorter than a header and no longer than a
/// request may be was refused at step 7, 8 or 9.
fn empties_m(request: &[u8], code: u8) -> bool {
    (4..=4_608).contains(&request.len()) && request[1] == 0xE0 && matches!(code, 0x01 | 0x0D | 0x05)
}

/// The edition of a state within its bounds.
fn edition_of(state: &[u32]) -> usize {
    match (state[PHASE], state[EDITION]) {
        (0 | 1, 0) => UNCHOSEN,
        (2 | 3, 0x11) => V1_1,
        (2 | 3, 0x12) => V1_2,
        _ => panic!("out of bounds: {state:?}"),
    }
}

/// Whether a state that is out of bounds would be within them with one of these in a word's place. (No image is looked
/// at.)
fn only_its(state: &[u32], word: usize, others: &[u32]) -> bool {
    let out = |state: &[u32]| plain::to_sign(state, &mut [0; 100], &mut [0; 4]) == 14 << 16;
    let mut mended = state.to_vec();
    out(state)
        && state.len() == plain::STATE_WORDS
        && others.iter().any(|&other| {
            mended[word] = other;
            !out(&mended)
        })
}

struct Host {
    rng: Rng,
    spec: Spec,
    image: Vec<u8>,
    transcript: Both<u8>,
    state: State,
    /// The edition chosen last.
    chosen: Option<usize>,
    /// The answer that awaits a signature.
    kept: Vec<u8>,
    /// Whether the last call found the state out of bounds.
    stuck: bool,
}

impl Host {
    fn new(mut rng: Rng) -> Host {
        let spec = valid_spec(&mut rng);
        let mut host = Host::with(rng, spec);
        host.state = match host.rng.below(10) {
            0 | 1 => negotiated_state(&mut host.rng, &host.spec),
            2 => hostile_state(&mut host.rng, &host.spec),
            _ => FRESH,
        };
        host.keep_any_answer();
        host
    }

    fn with(mut rng: Rng, spec: Spec) -> Host {
        let image = encode(&spec.records);
        let length = TRANSCRIPT + rng.pick(&[0, 0, 1, 100, 4_000]);
        let contents = rng.bytes(length);
        let guard = rng.byte();
        let transcript = Both::new(&mut rng, &contents, guard);
        Host { rng, spec, image, transcript, state: FRESH, chosen: None, kept: Vec::new(), stuck: false }
    }

    /// For a state that was made up: any bytes as its awaited answer.
    fn keep_any_answer(&mut self) {
        let length = if self.state[AWAITED] == 0 { 0 } else { (self.state[LENGTH] as usize).min(5_000) };
        self.kept = self.rng.bytes(length);
    }

    fn setting(&mut self) -> Setting {
        match self.rng.below(40) {
            0 => {
                self.state = hostile_state(&mut self.rng, &self.spec);
                self.keep_any_answer();
            }
            1 | 2 => {
                self.state = negotiated_state(&mut self.rng, &self.spec);
                self.keep_any_answer();
            }
            3 if self.rng.one_in(3) => {
                self.spec = valid_spec(&mut self.rng);
                self.image = encode(&self.spec.records);
            }
            4 if self.rng.one_in(3) => self.state = FRESH,
            _ if self.stuck && self.rng.one_in(2) => {
                self.state = if self.rng.one_in(2) { FRESH } else { negotiated_state(&mut self.rng, &self.spec) };
                self.keep_any_answer();
            }
            _ => {}
        }
        let rng = &mut self.rng;

        let image = match rng.below(30) {
            0 => damaged(rng, &self.spec),
            1 => encode(&valid_spec(rng).records),
            2 => {
                let bare: Vec<_> = self.spec.records.iter().filter(|record| record.0 < 3).cloned().collect();
                encode(&bare)
            }
            _ => self.image.clone(),
        };

        let mut state = self.state.to_vec();
        if rng.one_in(80) {
            let length = rng.pick(&[0, 1, 8, 10, 16]);
            state.resize(length, rng.word());
        }

        let whole = self.transcript.plain.len();
        let transcript_len = match rng.below(40) {
            0 => rng.pick(&[0, B_START, OLD_TRANSCRIPT, M_START, TRANSCRIPT - 1, TRANSCRIPT - 1]),
            1 => rng.below(TRANSCRIPT),
            2..=5 => rng.range(TRANSCRIPT, whole),
            6 | 7 => TRANSCRIPT,
            _ => whole,
        };
        let answer_len = match rng.below(40) {
            0 => rng.pick(&[0, 1, 4, 4_607]),
            1 => rng.below(4_608),
            2..=9 => rng.range(4_608, 4_700),
            _ => 4_608,
        };
        let mut answer = rng.bytes(answer_len);

        let finishing = if self.state[AWAITED] == 0 { rng.one_in(25) } else { !rng.one_in(3) };
        let call = if finishing {
            if !rng.one_in(6) {
                let shared = self.kept.len().min(answer.len());
                answer[..shared].copy_from_slice(&self.kept[..shared]);
            }
            let length = match rng.below(8) {
                0 => rng.pick(&[0, self.spec.s() - 1, self.spec.s() + 1, 64, 96, 132, 256, 384, 512, 1_000]),
                _ => self.spec.s(),
            };
            let chip_ok = rng.pick(&[0, 0, 1, 1, 1, 2, 0x100, 0x1_0000, 0x8000_0000, u32::MAX]);
            Call::Finish { chip_ok, signature: rng.bytes(length) }
        } else {
            let request = some_request(rng, &self.spec, &self.state);
            let length = match rng.below(40) {
                0 => rng.pick(&[0, 1, 31, 33, 64]),
                _ => 32,
            };
            Call::Respond { request, nonce: rng.bytes(length) }
        };
        Setting { image, state, transcript_len, answer, call }
    }

    /// Makes the call on both sides and compares; the answer.
    fn make(&mut self, setting: &Setting, met: &mut Met) -> Result<Vec<u8>, String> {
        let rng = &mut self.rng;
        let guard = rng.byte();
        let image = Guarded::new(rng, &setting.image, guard);
        let mut state = Both::new(rng, &setting.state, rng_word(guard));
        let mut answer = Both::new(rng, &setting.answer, guard);
        let lent = setting.transcript_len;
        let (plain, library) = match &setting.call {
            Call::Respond { request, nonce } => {
                let lent_request = Guarded::new(rng, request, guard);
                let lent_nonce = Guarded::new(rng, nonce, guard);
                let plain = plain::respond(
                    &setting.image,
                    &mut state.plain,
                    &mut self.transcript.plain[..lent],
                    &mut answer.plain,
                    request,
                    nonce,
                );
                let library = ffi::respond(
                    image.get(),
                    state.library.get_mut(),
                    &mut self.transcript.library.get_mut()[..lent],
                    answer.library.get_mut(),
                    lent_request.get(),
                    lent_nonce.get(),
                );
                unchanged("request", &lent_request, request)?;
                unchanged("nonce", &lent_nonce, nonce)?;
                (plain, library)
            }
            Call::Finish { chip_ok, signature } => {
                let lent_signature = Guarded::new(rng, signature, guard);
                let plain = plain::finish(
                    &setting.image,
                    &mut state.plain,
                    &mut self.transcript.plain[..lent],
                    &mut answer.plain,
                    *chip_ok != 0,
                    signature,
                );
                let library = ffi::finish_with(
                    image.get(),
                    state.library.get_mut(),
                    &mut self.transcript.library.get_mut()[..lent],
                    answer.library.get_mut(),
                    *chip_ok,
                    lent_signature.get(),
                );
                unchanged("signature", &lent_signature, signature)?;
                (plain, library)
            }
        };
        if plain != library {
            return Err(format!(
                "plain gives number {} and length {}, the library number {} and length {}; plain's answer {}, the \
                 library's {}",
                plain >> 16,
                plain & 0xFFFF,
                library >> 16,
                library & 0xFFFF,
                answer.plain.get(..(plain & 0xFFFF) as usize).map_or_else(String::new, hex),
                answer.library.get().get(..(library & 0xFFFF) as usize).map_or_else(String::new, hex),
            ));
        }
        answer.compare("answer buffer")?;
        state.compare("state")?;
        self.transcript.compare("transcript buffer")?;
        unchanged("image", &image, &setting.image)?;

        let (number, length) = (plain >> 16, (plain & 0xFFFF) as usize);
        met.numbers[number as usize] += 1;
        self.stuck = number == 14;
        if number != 0 {
            if length != 0 || answer.plain != setting.answer || state.plain != setting.state {
                return Err("a number, and yet something was changed (on both sides)".to_owned());
            }
            met.edition_out += u64::from(number == 14 && only_its(&setting.state, EDITION, &[0, 0x11, 0x12]));
        } else {
            self.state.copy_from_slice(&state.plain);
            self.count(setting, &answer.plain, length, met)?;
        }
        met.sorts.call(setting, number, &answer.plain, &state.plain);
        let state = self.state;
        compare_to_sign(&mut self.rng, &state, met)?;
        if self.rng.one_in(8) {
            let hostile = hostile_state(&mut self.rng, &self.spec);
            let length = if self.rng.one_in(10) { self.rng.below(hostile.len()) } else { hostile.len() };
            compare_to_sign(&mut self.rng, &hostile[..length], met)?;
        }
        let reading = (plain::read_image(&setting.image), ffi::read_image(image.get()));
        if reading.0 != reading.1 {
            return Err(format!("read_image: plain gives {:#x}, the library {:#x}", reading.0, reading.1));
        }
        met.images[(reading.0 >> 16) as usize] += 1;
        unchanged("image", &image, &setting.image)?;
        answer.plain.truncate(length);
        Ok(answer.plain)
    }

    /// Asks what all three must accept; the answer.
    fn accepted(&mut self, request: Vec<u8>, met: &mut Met) -> Vec<u8> {
        let (lent, nonce) = (self.rng.bytes(4_608), self.rng.bytes(32));
        let (mut state, mut transcript, mut by_tuned) = (self.state, self.transcript.plain.clone(), lent.clone());
        let length = tuned::respond(&self.image, &mut state, &mut transcript, &mut by_tuned, &request, &nonce);
        let setting = Setting {
            image: self.image.clone(),
            state: self.state.to_vec(),
            transcript_len: TRANSCRIPT,
            answer: lent,
            call: Call::Respond { request, nonce },
        };
        let answer = self.make(&setting, met).unwrap_or_else(|what| panic!("{what}\nthe call: {}", setting.describe()));
        assert!(answer.len() >= 4 && answer[1] != 0x7F, "{}: the call: {}", hex(&answer), setting.describe());
        let same = by_tuned.get(..length as usize) == Some(&answer) && transcript == self.transcript.plain;
        assert!(same && state == self.state, "tuned gives something else: the call: {}", setting.describe());
        answer
    }

    /// Restarts, and negotiates the edition of this version byte.
    fn negotiate(&mut self, version: u8, peer_size: u32, met: &mut Met) {
        self.accepted(vec![0x10, 0x84, 0, 0], met);
        let mut capabilities = [&[version, 0xE1][..], &[0; 10]].concat();
        if version == 0x12 {
            capabilities.extend([peer_size.to_le_bytes(); 2].as_flattened());
        }
        self.accepted(capabilities, met);
        self.accepted([&[version, 0xE3, 0, 0, 32, 0, 1, 0][..], &[0xFF; 8], &[0; 16]].concat(), met);
    }

    /// Reads a slot from its chain's start until no byte remains, as demand 3 has it: the portions.
    fn read(&mut self, version: u8, slot: u8, asked: u16, met: &mut Met) -> Vec<Vec<u8>> {
        let (mut portions, mut offset) = (Vec::new(), 0);
        loop {
            let [low, high] = u16::try_from(offset).expect("an offset").to_le_bytes();
            let [asked_low, asked_high] = asked.to_le_bytes();
            let answer = self.accepted(vec![version, 0x82, slot, 0, low, high, asked_low, asked_high], met);
            let (head, portion) = answer.split_at(8);
            assert!(!portion.is_empty(), "an empty portion");
            offset += portion.len();
            portions.push(portion.to_vec());
            if head[6..] == [0, 0] {
                return portions;
            }
        }
    }

    /// Counts what a call without a number came to, holds it to what is said of every such call, and keeps an answer that
    /// awaits its signature.
    fn count(&mut self, setting: &Setting, answer: &[u8], length: usize, met: &mut Met) -> Result<(), String> {
        let changed = answer[length..] != setting.answer[length..];
        if changed && matches!(setting.call, Call::Respond { .. }) {
            return Err("bytes past the answer were changed (on both sides)".to_owned());
        }
        let edition = edition_of(&self.state);
        let under = &mut met.under[edition];
        // After a success the buffer holds what the host lent, any bytes as often as not.
        let succeeded = matches!(setting.call, Call::Finish { chip_ok, .. } if chip_ok != 0);
        let version = [0x10, 0x11, 0x12][edition];
        if !succeeded && answer[0] != version {
            return Err(format!("an answer carries {:#04x}, not {version:#04x} (on both sides)", answer[0]));
        }
        match &setting.call {
            Call::Respond { request, .. } if answer[1] == 0x7F => {
                let others = [None, Some(&0x12), Some(&0x11)][edition];
                under.crossed += u64::from(answer[2] == 0x41 && request[1] != 0x84 && request.first() == others);
                if self.state[..] != under.count_error(request, answer[2], &setting.state) {
                    return Err("an ERROR, and yet the state is not what it leaves (on both sides)".to_owned());
                }
            }
            Call::Respond { request, .. } => {
                under.accepted[usize::from(request[1])] += 1;
                if request[1] == 0xE1 {
                    let before = self.chosen.replace(edition);
                    met.chosen_anew += u64::from(before.is_some_and(|before| before != edition));
                }
                if self.state[AWAITED] == 0 {
                    self.kept.clear();
                } else {
                    under.signed += 1;
                    self.kept = answer[..length].to_vec();
                }
            }
            Call::Finish { .. } => {
                under.finished[usize::from(succeeded)] += 1;
                self.kept.clear();
            }
        }
        Ok(())
    }
}

fn rng_word(guard: u8) -> u32 {
    u32::from_le_bytes([guard, guard ^ 0x5A, guard, guard ^ 0xA5])
}

fn unchanged<T: Copy + PartialEq>(name: &str, lent: &Guarded<T>, before: &[T]) -> Result<(), String> {
    if lent.intact() && lent.get() == before {
        Ok(())
    } else {
        Err(format!("the library wrote to or around the {name}"))
    }
}

fn compare_to_sign(rng: &mut Rng, words: &[u32], met: &mut Met) -> Result<(), String> {
    let prefix_len = if rng.one_in(12) { rng.pick(&[0, 1, 64, 99, 101, 160]) } else { 100 };
    let parts_len = if rng.one_in(12) { rng.pick(&[0, 1, 3, 5, 8]) } else { 4 };
    let (guard, contents, word) = (rng.byte(), rng.bytes(prefix_len), rng.word());
    let state = Guarded::new(rng, words, word);
    let mut prefix = Both::new(rng, &contents, guard);
    let mut parts = Both::new(rng, &vec![word; parts_len], !word);
    let plain = plain::to_sign(words, &mut prefix.plain, &mut parts.plain);
    let library = ffi::to_sign(state.get(), prefix.library.get_mut(), parts.library.get_mut());
    let report = |what: String| format!("to_sign of {words:?} (prefix {prefix_len}, parts {parts_len}): {what}");
    if plain != library {
        return Err(report(format!("plain gives {plain:#x}, the library {library:#x}")));
    }
    prefix.compare("prefix").map_err(report)?;
    parts.compare("parts").map_err(report)?;
    unchanged("state", &state, words).map_err(report)?;
    if plain >> 16 == 0 {
        let (edition, awaited) = (edition_of(words), words[AWAITED]);
        let wanted = match (edition, awaited) {
            (_, 1) => [0, words[A], B_START as u32, words[B]],
            (V1_1, _) => [0, 0, M_START as u32, words[M]],
            _ => [0, words[A], M_START as u32, words[M]],
        };
        let as_it_was = prefix.plain == contents;
        if parts.plain[..4] != wanted || (plain, as_it_was) != if edition == V1_1 { (0, true) } else { (100, false) } {
            return Err(report(format!("length {plain}, {:?}: not its edition's (on both sides)", parts.plain)));
        }
        met.under[edition].shown[awaited as usize - 1] += 1;
    }
    Ok(())
}

/// What the image says of its box, by all three: results, the seven words and those past them.
fn compare_algorithms(rng: &mut Rng, image: &[u8], lent: &Guarded<u8>) -> Result<(u32, Vec<u32>), String> {
    let length = if rng.one_in(6) { rng.pick(&[0, 1, 6, 8, 16]) } else { 7 };
    let word = rng.word();
    let before = vec![word; length];
    let mut told = Both::new(rng, &before, !word);
    let mut by_tuned = before.clone();
    let plain = plain::image_algorithms(image, &mut told.plain);
    let library = ffi::image_algorithms(lent.get(), told.library.get_mut());
    let tuned = tuned::image_algorithms(image, &mut by_tuned);
    let report = |what: String| format!("image_algorithms of {length} words: {what}");
    if (library, tuned) != (plain, plain) {
        return Err(report(format!("plain gives {plain:#x}, tuned {tuned:#x}, the library {library:#x}")));
    }
    told.compare("algorithms").map_err(report)?;
    if by_tuned != told.plain {
        return Err(report(format!("plain tells {:?}, tuned {by_tuned:?}", told.plain)));
    }
    if plain != 0 && told.plain != before {
        return Err(report("a number, and yet a word was changed (on all sides)".to_owned()));
    }
    Ok((plain, told.plain))
}

fn from_env(name: &str, default: u64) -> u64 {
    match std::env::var(name) {
        Err(_) => default,
        Ok(text) => {
            let parsed = match text.strip_prefix("0x") {
                Some(digits) => u64::from_str_radix(digits, 16),
                None => text.parse(),
            };
            parsed.unwrap_or_else(|error| panic!("{name}={text}: {error}"))
        }
    }
}

#[test]
fn random_runs() {
    let seed = from_env("SPDM_SEED", DEFAULT_SEED);
    let calls = from_env("SPDM_CALLS", DEFAULT_CALLS);
    let trace = std::env::var_os("SPDM_TRACE").is_some();
    println!("seed {seed} ({seed:#x}), {calls} calls");
    let start = Instant::now();
    let mut met = Met::nothing();
    let (mut made, mut runs) = (0, 0u64);
    while made < calls {
        let mut rng = Rng(seed ^ runs.wrapping_mul(0xD134_2543_DE82_EF95));
        let in_this_run = rng.range(1, 80);
        let mut host = Host::new(rng);
        for _ in 0..in_this_run {
            if made == calls {
                break;
            }
            let setting = host.setting();
            if trace {
                println!("run {runs}, call {made}: {}", setting.describe());
            }
            if let Err(difference) = host.make(&setting, &mut met) {
                panic!(
                    "DIFFERENCE at seed {seed}, run {runs}, call {made}: {difference}\nthe call: {}",
                    setting.describe()
                );
            }
            made += 1;
        }
        runs += 1;
    }
    println!("{made} calls in {runs} runs, {:.1} s, no difference", start.elapsed().as_secs_f64());
    print_met(&met);
    if calls >= 100_000 {
        for number in [0, 1, 2, 3, 4, 5, 6, 7, 8, 11, 12, 13, 14, 15, 16] {
            assert!(met.numbers[number] > 0, "number {number} was never met");
        }
        assert!(met.edition_out > 0, "no state was out of bounds by its edition alone");
        assert!(met.chosen_anew > 0, "no restart led to another edition");
        for ((edition, under), (errors, accepted, emptied, left)) in EDITIONS.iter().zip(&met.under).zip(WANTED) {
            for (counts, codes, what) in [
                (&under.errors, errors, "an ERROR"),
                (&under.accepted, accepted, "accepted"),
                (&under.emptied, emptied, "emptying M"),
                (&under.left, left, "leaving M"),
            ] {
                for &code in codes {
                    assert!(counts[code] > 0, "edition {edition}: {code:#04x} was never met, {what}");
                }
            }
        }
        for under in &met.under[V1_1..] {
            assert!(under.left_too_long > 0 && under.crossed > 0 && under.signed > 0);
            assert!(under.finished.iter().chain(&under.shown).all(|&count| count > 0));
        }
        let none = &met.under[V1_1].errors;
        assert_eq!((none[0x0D], none[0x0E]), (0, 0), "errors that 1.1 does not have");
        met.sorts.assert_all_met();
    }
}

/// The codes that a long run must meet under each edition: ERRORs, accepted requests, ERRORs to GET_MEASUREMENTS that
/// empty M, and those that leave it.
type Wanted = (&'static [usize], &'static [usize], &'static [usize], &'static [usize]);
const CHOSEN: &[usize] = &[0x81, 0x82, 0x83, 0xE0, 0xE1, 0xE3];
const LEFT: &[usize] = &[0x01, 0x03, 0x04, 0x07, 0x41];
const WANTED: [Wanted; EDITIONS.len()] = [
    (&[0x01, 0x04, 0x07, 0x0E, 0x41], &[0x84], &[], &[]),
    (&[0x01, 0x03, 0x04, 0x05, 0x07, 0x41], CHOSEN, &[0x01, 0x05], LEFT),
    (&[0x01, 0x03, 0x04, 0x05, 0x07, 0x0D, 0x0E, 0x41], CHOSEN, &[0x01, 0x05, 0x0D], LEFT),
];

/// Demand 3's reading at the longest chain, by the least portions and by the largest: no read is refused, the portions
/// joined are the chain, and B holds all of it.
#[test]
fn longest_chains() {
    let seed = from_env("SPDM_SEED", DEFAULT_SEED) ^ 0x4C4F_4E47;
    let mut met = Met::nothing();
    let longest = [0, 3, 7];
    for (hash, slot) in longest.into_iter().enumerate() {
        let mut rng = Rng(seed ^ hash as u64);
        let length = |slot| if longest.contains(&slot) { MAX_CHAIN } else { 5 + H[hash] };
        let chains = (0..8).map(|slot| (slot, length(slot))).collect();
        let signature = rng.below(S.len());
        let spec = spec_of(&mut rng, [hash, signature], chains, (1..=32).collect());
        let chain = spec.records[1 + usize::from(slot)].1[1 + H[hash]..].to_vec();
        let mut host = Host::with(rng, spec);
        for (version, peer_size, asked, count) in [
            (0x12, 42, 65_535, 482),
            (0x12, 4_608, 34, 482),
            (0x11, 4_608, 34, 482),
            (0x12, 4_608, 1_024, 16),
            (0x11, 4_608, 65_535, 16),
        ] {
            host.negotiate(version, peer_size, &mut met);
            let mut used = 0;
            // A peer of 42 bytes cannot take the digests.
            if peer_size > 42 {
                host.accepted(vec![version, 0x81, 0, 0], &mut met);
                used = digests_pair(&host.image);
            }
            let portions = host.read(version, slot, asked, &mut met);
            assert_eq!(portions.len(), count);
            assert!(portions.concat() == chain, "another chain was read");
            used += 16 * count + MAX_CHAIN;
            assert_eq!(host.state[B] as usize, used);
            assert!(host.transcript.plain[..B_START + used].ends_with(&portions[count - 1]));
            if peer_size > 42 {
                host.accepted([&[version, 0x83, slot, 0xFF][..], &[0; 32]].concat(), &mut met);
            }
        }
    }
}

/// The readers alone, mostly on damaged images.
#[test]
fn random_images() {
    let seed = from_env("SPDM_SEED", DEFAULT_SEED) ^ 0x494D_4147_4553;
    let count = from_env("SPDM_CALLS", DEFAULT_CALLS) / 2;
    let start = Instant::now();
    let mut rng = Rng(seed);
    let mut spec = valid_spec(&mut rng);
    let mut numbers = [0; 17];
    let mut sorts = Sorts::default();
    for made in 0..count {
        if made % 16 == 0 {
            spec = valid_spec(&mut rng);
        }
        let image = if made % 16 == 0 { encode(&spec.records) } else { damaged(&mut rng, &spec) };
        let guard = rng.byte();
        let lent = Guarded::new(&mut rng, &image, guard);
        let (plain, library) = (plain::read_image(&image), ffi::read_image(lent.get()));
        assert!(
            plain == library,
            "DIFFERENCE at seed {seed}, image {made}: plain gives {plain:#x}, the library {library:#x}: {}",
            hex(&image)
        );
        let tuned = tuned::read_image(&image);
        assert!(tuned == plain, "seed {seed}, image {made}: plain gives {plain:#x}, tuned {tuned:#x}: {}", hex(&image));
        let (result, told) = compare_algorithms(&mut rng, &image, &lent)
            .unwrap_or_else(|what| panic!("DIFFERENCE at seed {seed}, image {made}: {what}: {}", hex(&image)));
        let number = if plain != 0 { plain >> 16 } else { 11 * u32::from(told.len() < 7) };
        assert!(result == number << 16, "seed {seed}, image {made}: {result:#x} with {} words", told.len());
        if made % 16 == 0 && result == 0 {
            assert_eq!(told[..7], spec.algorithms(), "seed {seed}, image {made}");
        }
        unchanged("image", &lent, &image).unwrap_or_else(|what| panic!("seed {seed}, image {made}: {what}"));
        assert!(made % 16 != 0 || plain == 0, "seed {seed}, image {made}: a valid image is refused: {}", hex(&image));
        numbers[(plain >> 16) as usize] += 1;
        sorts.image(&image, plain >> 16);
    }
    println!("{count} images, {:.1} s, no difference", start.elapsed().as_secs_f64());
    print_counts("images  ", &numbers, false);
    sorts.print();
    if count >= 50_000 {
        sorts.assert_all_met();
    }
}

fn print_counts(name: &str, counts: &[u64], in_hex: bool) {
    let mut line = name.to_owned();
    for (value, count) in counts.iter().enumerate().filter(|(_, &count)| count > 0) {
        let value = if in_hex { format!("{value:02X}") } else { value.to_string() };
        write!(line, "  {value}: {count}").expect("a string takes all");
    }
    println!("{line}");
}

fn print_met(met: &Met) {
    print_counts("numbers ", &met.numbers, false);
    println!(
        "number 14 by the edition alone: {}; another edition after a restart: {}",
        met.edition_out, met.chosen_anew
    );
    for (edition, under) in EDITIONS.iter().zip(&met.under) {
        println!("edition {edition}");
        print_counts("  errors  ", &under.errors, true);
        print_counts("  accepted", &under.accepted, true);
        print_counts("  emptied ", &under.emptied, true);
        print_counts("  left    ", &under.left, true);
        println!(
            "  too long, M left: {}; the other edition's byte: {}; awaiting a signature: {}; finished: {} signed, {} \
             chip failed; shown to be signed: {} challenges, {} measurements",
            under.left_too_long,
            under.crossed,
            under.signed,
            under.finished[1],
            under.finished[0],
            under.shown[0],
            under.shown[1]
        );
    }
    print_counts("images  ", &met.images, false);
    println!("at the limits");
    met.sorts.print();
}
