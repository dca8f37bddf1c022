//! The plain responder: paper 01, as paper 02 amends it, written down once more, in ordinary Rust.
//!
//! It shares no code with the proved responder and was written from the paper, not from that code. Nothing in
//! it is `unsafe`. Each call walks the records of the image once and keeps slices of it.
//!
//! The public calls [`respond`], [`finish`], [`to_sign`], [`read_image`] and [`image_algorithms`] have the meaning of
//! the five functions of the C interface, slices taking the place of pointer and length.

#![forbid(unsafe_code)]

/// The longest image.
pub const MAX_IMAGE: usize = 61_440;
/// The longest message either way; also the least answer buffer.
pub const MAX_MESSAGE: usize = 4_608;
/// The least transcript buffer.
pub const TRANSCRIPT: usize = 36_864;
/// Where B and M begin in the transcript buffer (A begins at 0).
pub const B_START: usize = 512;
pub const M_START: usize = 29_184;
/// How many bytes A, B and M can hold.
pub const A_ROOM: usize = 512;
pub const B_ROOM: usize = 28_672;
pub const M_ROOM: usize = 7_680;
/// The words of a state.
pub const STATE_WORDS: usize = 9;
/// The one that counts the bytes of M.
const M_USED: usize = 5;
/// The bytes of the prefix to be signed, where there is one.
pub const PREFIX: usize = 100;

/// The header of every message; no request is shorter.
const HEADER: usize = 4;
const MIN_PEER_SIZE: u32 = 42;
/// The peer's size where it tells none.
const UNTOLD_PEER_SIZE: u32 = MAX_MESSAGE as u32;
pub(crate) const MAX_CHAIN: usize = 16_384;
const MAX_PORTION: usize = 1_024;
pub(crate) const MAX_CHAINS: usize = 8;
pub(crate) const MAX_MEASUREMENTS: usize = 32;
pub(crate) const MAX_SLOT: u8 = 7;
pub(crate) const MAX_INDEX: u8 = 239;
pub(crate) const MAX_TYPE: u8 = 3;
pub(crate) const MAX_EXPONENT: u8 = 31;
const NONCE: usize = 32;

pub(crate) const HASH_SIZES: [usize; 6] = [32, 48, 64, 32, 48, 64];
pub(crate) const SIGNATURE_SIZES: [usize; 9] = [256, 256, 384, 384, 64, 512, 512, 96, 132];

// Codes of the requests that are served.
const GET_DIGESTS: u8 = 0x81;
const GET_CERTIFICATE: u8 = 0x82;
const CHALLENGE: u8 = 0x83;
const GET_VERSION: u8 = 0x84;
const GET_MEASUREMENTS: u8 = 0xE0;
const GET_CAPABILITIES: u8 = 0xE1;
const NEGOTIATE_ALGORITHMS: u8 = 0xE3;

// Codes of the answers.
const DIGESTS: u8 = 0x01;
const CERTIFICATE: u8 = 0x02;
const CHALLENGE_AUTH: u8 = 0x03;
const VERSION: u8 = 0x04;
const MEASUREMENTS: u8 = 0x60;
const CAPABILITIES: u8 = 0x61;
const ALGORITHMS: u8 = 0x63;
const ERROR: u8 = 0x7F;

/// The numbers the host sees.
#[derive(Clone, Copy, Debug, PartialEq, Eq)]
#[repr(u32)]
pub enum Number {
    ImageSize = 1,
    ImageVersion = 2,
    ImageCut = 3,
    RecordSequence = 4,
    TooManyRecords = 5,
    BodyLength = 6,
    FieldRange = 7,
    ChainLength = 8,
    AnswerBuffer = 11,
    TranscriptBuffer = 12,
    NonceLength = 13,
    StateBounds = 14,
    NothingAwaited = 15,
    SignatureLength = 16,
}

// ---------------------------------------------------------------------------------------------- the image

/// A slot number, 0 to 7.
#[derive(Clone, Copy, Debug, PartialEq, Eq, PartialOrd, Ord)]
pub struct Slot(u8);

impl Slot {
    pub fn new(number: u8) -> Option<Slot> {
        (number <= MAX_SLOT).then_some(Slot(number))
    }

    pub fn number(self) -> u8 {
        self.0
    }
}

/// A measurement index, 1 to 239.
#[derive(Clone, Copy, Debug, PartialEq, Eq, PartialOrd, Ord)]
pub struct Index(u8);

impl Index {
    pub fn new(number: u8) -> Option<Index> {
        (1..=MAX_INDEX).contains(&number).then_some(Index(number))
    }

    pub fn number(self) -> u8 {
        self.0
    }
}

/// One certificate chain and its digest.
#[derive(Clone, Copy, Debug)]
pub struct Chain<'a> {
    pub digest: &'a [u8],
    pub bytes: &'a [u8],
}

/// One measurement.
#[derive(Clone, Copy, Debug)]
pub struct Measurement<'a> {
    pub index: Index,
    pub kind: u8,
    pub digest: &'a [u8],
}

/// What kind 4 holds.
#[derive(Clone, Copy, Debug)]
pub struct Summaries<'a> {
    pub tcb: &'a [u8],
    pub all: &'a [u8],
}

/// An accepted image.
#[derive(Clone, Debug)]
pub struct Image<'a> {
    pub ct_exponent: u8,
    pub hash_number: u8,
    pub signature_number: u8,
    chains: [Option<Chain<'a>>; MAX_CHAINS],
    /// The kind 3 records, heads included: all of one size and next to one another.
    measurements: &'a [u8],
    summaries: Option<Summaries<'a>>,
}

/// The records of an image that have not been read yet.
struct Records<'a> {
    rest: &'a [u8],
}

impl<'a> Records<'a> {
    /// The kind and body of the next record, or `None` at the end.
    #[inline]
    fn next(&mut self) -> Result<Option<(u8, &'a [u8])>, Number> {
        match self.rest {
            [] => Ok(None),
            &[high, low, kind, ref rest @ ..] => {
                let length = usize::from(u16::from_be_bytes([high, low]));
                let (body, rest) = rest.split_at_checked(length).ok_or(Number::ImageCut)?;
                self.rest = rest;
                Ok(Some((kind, body)))
            }
            _ => Err(Number::ImageCut),
        }
    }
}

impl<'a> Image<'a> {
    /// Reads an image. The walk stops at the first fault.
    pub fn read(image: &'a [u8]) -> Result<Image<'a>, Number> {
        let mut records = match image {
            [] => return Err(Number::ImageSize),
            _ if image.len() > MAX_IMAGE => return Err(Number::ImageSize),
            [1, rest @ ..] => Records { rest },
            _ => return Err(Number::ImageVersion),
        };

        let Some((1, body)) = records.next()? else {
            return Err(Number::RecordSequence);
        };
        let &[ct_exponent, hash_number, signature_number] = body else {
            return Err(Number::BodyLength);
        };
        if ct_exponent > MAX_EXPONENT
            || usize::from(hash_number) >= HASH_SIZES.len()
            || usize::from(signature_number) >= SIGNATURE_SIZES.len()
        {
            return Err(Number::FieldRange);
        }
        let h = HASH_SIZES[usize::from(hash_number)];

        let mut record = records.next()?;
        let mut chains = [None; MAX_CHAINS];
        let mut chain_count = 0;
        let mut next_slot = 0;
        while let Some((2, body)) = record {
            if chain_count == MAX_CHAINS {
                return Err(Number::TooManyRecords);
            }
            if body.len() < 1 + h + 5 + h || body.len() > 1 + h + MAX_CHAIN {
                return Err(Number::BodyLength);
            }
            let slot = Slot::new(body[0]).ok_or(Number::FieldRange)?;
            if slot.number() < next_slot || (chain_count == 0 && slot.number() != 0) {
                return Err(Number::FieldRange);
            }
            let (digest, bytes) = body[1..].split_at(h);
            if usize::from(u16::from_le_bytes([bytes[0], bytes[1]])) != bytes.len() {
                return Err(Number::ChainLength);
            }
            chains[usize::from(slot.number())] = Some(Chain { digest, bytes });
            chain_count += 1;
            next_slot = slot.number() + 1;
            record = records.next()?;
        }
        if chain_count == 0 {
            return Err(Number::RecordSequence);
        }

        let size = 5 + h;
        let mut measurement_count = 0;
        let mut last_index = 0;
        let mut after = records.rest;
        while let Some((3, body)) = record {
            if measurement_count == MAX_MEASUREMENTS {
                return Err(Number::TooManyRecords);
            }
            if body.len() != 2 + h {
                return Err(Number::BodyLength);
            }
            let index = Index::new(body[0]).ok_or(Number::FieldRange)?;
            if body[1] > MAX_TYPE || index.number() <= last_index {
                return Err(Number::FieldRange);
            }
            measurement_count += 1;
            last_index = index.number();
            after = records.rest;
            record = records.next()?;
        }
        let end = image.len() - after.len();
        let measurements = &image[end - measurement_count * size..end];

        let summaries = match (record, measurement_count) {
            (None, 0) => None,
            (Some((4, body)), 1..) => {
                if body.len() != 2 * h {
                    return Err(Number::BodyLength);
                }
                if records.next()?.is_some() {
                    return Err(Number::RecordSequence);
                }
                let (tcb, all) = body.split_at(h);
                Some(Summaries { tcb, all })
            }
            _ => return Err(Number::RecordSequence),
        };

        Ok(Image { ct_exponent, hash_number, signature_number, chains, measurements, summaries })
    }

    /// The filled slots and their chains, by rising slot.
    pub fn chains(&self) -> impl Iterator<Item = (Slot, Chain<'a>)> + '_ {
        (0..).zip(&self.chains).filter_map(|(number, chain)| chain.map(|chain| (Slot(number), chain)))
    }
}

/// What an answer needs of an accepted image, however it was read: [`Image`] keeps slices, the tuned reader places.
pub trait Provision<'a> {
    fn ct_exponent(&self) -> u8;
    fn hash_number(&self) -> u8;
    fn signature_number(&self) -> u8;
    /// H.
    fn hash_size(&self) -> usize;
    fn chain(&self, slot: Slot) -> Option<Chain<'a>>;
    fn chain_count(&self) -> usize;
    fn slot_mask(&self) -> u8;
    /// Writes the digests of all chains, by rising slot.
    fn put_digests(&self, out: &mut Writer);
    /// The kind 3 records, heads included.
    fn measurement_records(&self) -> &'a [u8];
    fn summaries(&self) -> Option<Summaries<'a>>;

    /// S.
    fn signature_size(&self) -> usize {
        SIGNATURE_SIZES[usize::from(self.signature_number())]
    }

    fn measurements(&self) -> impl ExactSizeIterator<Item = Measurement<'a>> {
        self.measurement_records().chunks_exact(5 + self.hash_size()).map(|record| Measurement {
            index: Index(record[3]),
            kind: record[4],
            digest: &record[5..],
        })
    }

    fn has_measurements(&self) -> bool {
        !self.measurement_records().is_empty()
    }

    fn measurement(&self, index: Index) -> Option<Measurement<'a>> {
        self.measurements().find(|measurement| measurement.index == index)
    }

    /// A slot given by a whole byte, with its chain, if it is filled.
    fn filled(&self, number: u8) -> Option<(Slot, Chain<'a>)> {
        let slot = Slot::new(number)?;
        Some((slot, self.chain(slot)?))
    }
}

impl<'a> Provision<'a> for Image<'a> {
    fn ct_exponent(&self) -> u8 {
        self.ct_exponent
    }

    fn hash_number(&self) -> u8 {
        self.hash_number
    }

    fn signature_number(&self) -> u8 {
        self.signature_number
    }

    fn hash_size(&self) -> usize {
        HASH_SIZES[usize::from(self.hash_number)]
    }

    fn chain(&self, slot: Slot) -> Option<Chain<'a>> {
        self.chains[usize::from(slot.number())]
    }

    fn chain_count(&self) -> usize {
        self.chains().count()
    }

    fn slot_mask(&self) -> u8 {
        self.chains().fold(0, |mask, (slot, _)| mask | 1 << slot.number())
    }

    fn put_digests(&self, out: &mut Writer) {
        for (_, chain) in self.chains() {
            out.put(chain.digest);
        }
    }

    fn measurement_records(&self) -> &'a [u8] {
        self.measurements
    }

    fn summaries(&self) -> Option<Summaries<'a>> {
        self.summaries
    }
}

// ------------------------------------------------------------------------------------------- the editions

/// The version byte while no edition is chosen: of GET_VERSION, of VERSION, and of ERRORs before CAPABILITIES.
const UNCHOSEN: u8 = 0x10;

/// What GET_CAPABILITIES chooses by its version byte, for all that follows it.
#[derive(Clone, Copy, Debug, PartialEq, Eq)]
enum Edition {
    V1_1 = 0x11,
    V1_2 = 0x12,
}

/// VERSION lists the editions, rising.
const VERSION_ANSWER: [u8; 10] = [UNCHOSEN, VERSION, 0, 0, 0, 2, 0, Edition::V1_1 as u8, 0, Edition::V1_2 as u8];

/// What A holds after it: 14.
const A_AFTER_VERSION: usize = HEADER + VERSION_ANSWER.len();

impl Edition {
    fn from_byte(byte: u8) -> Option<Edition> {
        [Edition::V1_1, Edition::V1_2].into_iter().find(|edition| edition.byte() == byte)
    }

    /// Its version byte.
    fn byte(self) -> u8 {
        self as u8
    }

    /// The bytes of GET_CAPABILITIES, and of CAPABILITIES. Those of 1.1 end before the two sizes.
    fn capabilities_size(self) -> usize {
        match self {
            Edition::V1_1 => 12,
            Edition::V1_2 => 20,
        }
    }

    /// What A holds after CAPABILITIES: 38 or 54.
    fn a_after_capabilities(self) -> usize {
        A_AFTER_VERSION + 2 * self.capabilities_size()
    }

    fn allows_peer_size(self, size: u32) -> bool {
        match self {
            Edition::V1_1 => size == UNTOLD_PEER_SIZE,
            Edition::V1_2 => size >= MIN_PEER_SIZE,
        }
    }
}

// ---------------------------------------------------------------------------------------------- the state

/// Which answer awaits its signature.
#[derive(Clone, Copy, Debug, PartialEq, Eq)]
enum Signed {
    Challenge,
    Measurements,
}

#[derive(Clone, Copy, Debug)]
struct Awaited {
    which: Signed,
    length: usize,
}

#[derive(Clone, Copy, Debug)]
enum Phase {
    Start,
    Version,
    Capabilities,
    Negotiated,
}

/// A state within its bounds.
#[derive(Clone, Copy, Debug)]
struct State {
    phase: Phase,
    /// Chosen in phases 2 and 3, and only there.
    edition: Option<Edition>,
    peer_size: u32,
    selected: bool,
    a: usize,
    b: usize,
    m: usize,
    awaited: Option<Awaited>,
}

impl State {
    const FRESH: State =
        State { phase: Phase::Start, edition: None, peer_size: 0, selected: false, a: 0, b: 0, m: 0, awaited: None };

    /// Takes the host's words, unless they are outside their bounds.
    fn load<'i>(words: &[u32], image: &impl Provision<'i>) -> Result<State, Number> {
        Self::from_words(words).filter(|state| state.fits(image)).ok_or(Number::StateBounds)
    }

    /// The bounds that go by the image.
    fn fits<'i>(&self, image: &impl Provision<'i>) -> bool {
        (!self.selected || image.has_measurements())
            && self.awaited.is_none_or(|awaited| HEADER + image.signature_size() <= awaited.length)
    }

    /// The bounds that need no image.
    fn from_words(words: &[u32]) -> Option<State> {
        let &[phase, peer_size, selection, a, b, m, awaited, length, edition] = words else {
            return None;
        };
        let (a, b, m) = region_counts(a, b, m)?;
        let edition = chosen_edition(edition)?;
        let (phase, exact_a) = match (phase, edition) {
            (0, None) => (Phase::Start, Some(0)),
            (1, None) => (Phase::Version, Some(A_AFTER_VERSION)),
            (2, Some(edition)) => (Phase::Capabilities, Some(edition.a_after_capabilities())),
            (3, Some(_)) => (Phase::Negotiated, None),
            _ => return None,
        };
        if exact_a.is_some_and(|exact| (a, b, m) != (exact, 0, 0)) {
            return None;
        }
        if edition.is_some_and(|edition| !edition.allows_peer_size(peer_size)) {
            return None;
        }
        let selected = match selection {
            0 => false,
            1 if matches!(phase, Phase::Negotiated) => true,
            _ => return None,
        };
        let awaited = match (which_signed(awaited)?, phase) {
            (None, _) => None,
            (Some(which), Phase::Negotiated) => {
                let length = usize::try_from(length).ok().filter(|&length| length <= MAX_MESSAGE)?;
                Some(Awaited { which, length })
            }
            (Some(_), _) => return None,
        };
        Some(State { phase, edition, peer_size, selected, a, b, m, awaited })
    }

    /// The version byte of the answer that leads to this state, or that leaves it as an ERROR does.
    fn version(&self) -> u8 {
        self.edition.map_or(UNCHOSEN, Edition::byte)
    }

    /// Hands the state back to the host.
    fn store(&self, words: &mut [u32]) {
        let phase = match self.phase {
            Phase::Start => 0,
            Phase::Version => 1,
            Phase::Capabilities => 2,
            Phase::Negotiated => 3,
        };
        let (awaited, length) = match self.awaited {
            None => (0, 0),
            Some(Awaited { which: Signed::Challenge, length }) => (1, length),
            Some(Awaited { which: Signed::Measurements, length }) => (2, length),
        };
        words.copy_from_slice(&[
            phase,
            self.peer_size,
            u32::from(self.selected),
            self.a as u32,
            self.b as u32,
            self.m as u32,
            awaited,
            length as u32,
            self.edition.map_or(0, |edition| u32::from(edition.byte())),
        ]);
    }
}

/// The three counts, unless one is over its region's room.
fn region_counts(a: u32, b: u32, m: u32) -> Option<(usize, usize, usize)> {
    let within = |count: u32, room: usize| usize::try_from(count).ok().filter(|&count| count <= room);
    Some((within(a, A_ROOM)?, within(b, B_ROOM)?, within(m, M_ROOM)?))
}

/// The state's word for the edition: `None` if it means nothing.
fn chosen_edition(word: u32) -> Option<Option<Edition>> {
    match u8::try_from(word).ok()? {
        0 => Some(None),
        byte => Edition::from_byte(byte).map(Some),
    }
}

/// The state's word for what is awaited: `None` if it means nothing.
fn which_signed(word: u32) -> Option<Option<Signed>> {
    match word {
        0 => Some(None),
        1 => Some(Some(Signed::Challenge)),
        2 => Some(Some(Signed::Measurements)),
        _ => None,
    }
}

// ------------------------------------------------------------------------------------------- the messages

/// Why a request is answered by an ERROR.
#[derive(Clone, Copy, Debug, PartialEq, Eq)]
enum Refusal {
    InvalidRequest,
    Unexpected,
    UnexpectedWhileAwaiting,
    Unspecified,
    Unsupported(u8),
    ResponseTooLarge(u32),
    RequestTooLarge,
    VersionMismatch,
}

impl Refusal {
    /// Writes the ERROR and gives its length.
    fn write(self, state: &State, answer: &mut [u8]) -> usize {
        let (code, data) = match self {
            Refusal::InvalidRequest => (0x01, 0),
            Refusal::UnexpectedWhileAwaiting => (0x03, 0),
            Refusal::Unexpected => (0x04, 0),
            Refusal::Unspecified => (0x05, 0),
            Refusal::Unsupported(code) => (0x07, code),
            Refusal::ResponseTooLarge(_) => (0x0D, 0),
            Refusal::RequestTooLarge => (0x0E, 0),
            Refusal::VersionMismatch => (0x41, 0),
        };
        let mut out = Writer::new(answer);
        out.put(&[state.version(), ERROR, code, data]);
        if let Refusal::ResponseTooLarge(size) = self {
            out.put(&size.to_le_bytes());
        }
        out.at
    }
}

/// Writes one part after another at the start of a buffer.
pub struct Writer<'a> {
    buffer: &'a mut [u8],
    at: usize,
}

impl<'a> Writer<'a> {
    fn new(buffer: &'a mut [u8]) -> Self {
        Writer { buffer, at: 0 }
    }

    #[inline]
    pub(crate) fn put(&mut self, bytes: &[u8]) {
        self.buffer[self.at..self.at + bytes.len()].copy_from_slice(bytes);
        self.at += bytes.len();
    }

    fn zeros(&mut self, count: usize) {
        self.buffer[self.at..self.at + count].fill(0);
        self.at += count;
    }
}

fn u16_at(bytes: &[u8], at: usize) -> u16 {
    u16::from_le_bytes([bytes[at], bytes[at + 1]])
}

fn u32_at(bytes: &[u8], at: usize) -> u32 {
    u32::from_le_bytes([bytes[at], bytes[at + 1], bytes[at + 2], bytes[at + 3]])
}

/// The regions of the transcript.
#[derive(Clone, Copy)]
enum Region {
    A,
    B,
    M,
}

impl Region {
    fn start(self) -> usize {
        match self {
            Region::A => 0,
            Region::B => B_START,
            Region::M => M_START,
        }
    }
}

/// One request being answered: the buffers and everything that has been found in order so far.
struct Exchange<'a, P> {
    image: &'a P,
    state: State,
    transcript: &'a mut [u8],
    answer: &'a mut [u8],
    request: &'a [u8],
    nonce: &'a [u8; NONCE],
}

/// What an accepted request leaves.
struct Accepted {
    state: State,
    length: usize,
}

type Served = Result<Accepted, Refusal>;

impl<'a, 'i, P: Provision<'i>> Exchange<'a, P> {
    /// Steps 1 to 6: the code of a request that may be looked at further.
    fn admit(&self) -> Result<u8, Refusal> {
        let request = self.request;
        let &[version, code, ..] = request else {
            return Err(Refusal::InvalidRequest);
        };
        if request.len() < HEADER {
            return Err(Refusal::InvalidRequest);
        }
        if request.len() > MAX_MESSAGE {
            return Err(match self.state.edition {
                Some(Edition::V1_1) => Refusal::InvalidRequest,
                Some(Edition::V1_2) | None => Refusal::RequestTooLarge,
            });
        }
        if self.state.awaited.is_some() && code != GET_VERSION {
            return Err(Refusal::UnexpectedWhileAwaiting);
        }
        match code {
            GET_VERSION | GET_CAPABILITIES | NEGOTIATE_ALGORITHMS => {}
            GET_DIGESTS | GET_CERTIFICATE | CHALLENGE => {}
            GET_MEASUREMENTS if self.image.has_measurements() => {}
            _ => return Err(Refusal::Unsupported(code)),
        }
        let version_fits = match (code, self.state.edition) {
            (GET_VERSION, _) => version == UNCHOSEN,
            (_, None) => Edition::from_byte(version).is_some(),
            (_, Some(edition)) => version == edition.byte(),
        };
        if !version_fits {
            return Err(Refusal::VersionMismatch);
        }
        match (code, self.state.phase) {
            (GET_VERSION, _) => Ok(code),
            (GET_CAPABILITIES, Phase::Version) => Ok(code),
            (NEGOTIATE_ALGORITHMS, Phase::Capabilities) => Ok(code),
            (GET_DIGESTS | GET_CERTIFICATE | CHALLENGE, Phase::Negotiated) => Ok(code),
            (GET_MEASUREMENTS, Phase::Negotiated) if self.state.selected => Ok(code),
            _ => Err(Refusal::Unexpected),
        }
    }

    /// Steps 7 to 9, and the answer.
    fn serve(self, code: u8) -> Served {
        match code {
            GET_VERSION => self.version(),
            GET_CAPABILITIES => self.capabilities(),
            NEGOTIATE_ALGORITHMS => self.algorithms(),
            GET_DIGESTS => self.digests(),
            GET_CERTIFICATE => self.certificate(),
            CHALLENGE => self.challenge(),
            _ => self.measurements(),
        }
    }

    /// The request's layout, if all of it is there.
    fn layout(&self, length: usize) -> Result<&'a [u8], Refusal> {
        self.request.get(..length).ok_or(Refusal::InvalidRequest)
    }

    /// Step 8.
    fn fits_peer(&self, length: usize) -> Result<(), Refusal> {
        match u32::try_from(length) {
            Ok(length) if length <= self.state.peer_size => Ok(()),
            _ => Err(Refusal::ResponseTooLarge(length as u32)),
        }
    }

    /// Step 9.
    fn fits_region(&self, region: Region, length: usize) -> Result<(), Refusal> {
        let (used, room) = match region {
            Region::A => (self.state.a, A_ROOM),
            Region::B => (self.state.b, B_ROOM),
            Region::M => (self.state.m, M_ROOM),
        };
        if used + length <= room {
            Ok(())
        } else {
            Err(Refusal::Unspecified)
        }
    }

    /// Appends an accepted request's layout and its written answer, signature left off, emptying what is to be
    /// emptied first.
    fn append(&mut self, region: Region, request: &[u8], answer_length: usize) {
        let state = &mut self.state;
        let used = match region {
            Region::A => {
                (state.b, state.m) = (0, 0);
                &mut state.a
            }
            Region::B => {
                state.m = 0;
                &mut state.b
            }
            Region::M => {
                state.b = 0;
                &mut state.m
            }
        };
        let from = region.start() + *used;
        *used += request.len() + answer_length;
        let mut out = Writer::new(&mut self.transcript[from..]);
        out.put(request);
        out.put(&self.answer[..answer_length]);
    }

    fn version(mut self) -> Served {
        let request = self.layout(HEADER)?;
        self.state = State { phase: Phase::Version, ..State::FRESH };
        let mut out = Writer::new(self.answer);
        out.put(&VERSION_ANSWER);
        let length = out.at;
        self.append(Region::A, request, length);
        Ok(Accepted { state: self.state, length })
    }

    fn capabilities(mut self) -> Served {
        // Step 5 has found one of the two in its place.
        let edition = Edition::from_byte(self.request[0]).ok_or(Refusal::VersionMismatch)?;
        let request = self.layout(edition.capabilities_size())?;
        let peer_size = match edition {
            Edition::V1_1 => UNTOLD_PEER_SIZE,
            Edition::V1_2 => {
                let (peer_size, peer_message) = (u32_at(request, 12), u32_at(request, 16));
                if !edition.allows_peer_size(peer_size) || peer_message < peer_size {
                    return Err(Refusal::InvalidRequest);
                }
                peer_size
            }
        };
        self.state.phase = Phase::Capabilities;
        self.state.edition = Some(edition);
        self.state.peer_size = peer_size;
        let flags: u32 = if self.image.has_measurements() { 0x16 } else { 0x06 };
        let size = (MAX_MESSAGE as u32).to_le_bytes();
        let mut out = Writer::new(self.answer);
        out.put(&[self.state.version(), CAPABILITIES, 0, 0, 0, self.image.ct_exponent(), 0, 0]);
        out.put(&flags.to_le_bytes());
        if edition == Edition::V1_2 {
            out.put(&size);
            out.put(&size);
        }
        let length = out.at;
        self.append(Region::A, request, length);
        Ok(Accepted { state: self.state, length })
    }

    fn algorithms(mut self) -> Served {
        let head = self.layout(32)?;
        let length = usize::from(u16_at(head, 4));
        if !(32..=128).contains(&length) {
            return Err(Refusal::InvalidRequest);
        }
        let request = self.layout(length)?;
        let extended = 4 * (usize::from(head[28]) + usize::from(head[29]));
        let structures = request.get(32 + extended..).ok_or(Refusal::InvalidRequest)?;
        check_structures(structures, head[2]).ok_or(Refusal::InvalidRequest)?;
        let signature_bit = 1u32 << self.image.signature_number();
        let hash_bit = 1u32 << self.image.hash_number();
        if u32_at(head, 8) & signature_bit == 0 || u32_at(head, 12) & hash_bit == 0 {
            return Err(Refusal::InvalidRequest);
        }

        let selected = self.image.has_measurements() && head[6] & 1 != 0;
        let measurement_hash = if selected { 1u32 << (self.image.hash_number() + 1) } else { 0 };
        let mut out = Writer::new(self.answer);
        out.put(&[self.state.version(), ALGORITHMS, 0, 0, 36, 0, u8::from(selected), 0]);
        out.put(&measurement_hash.to_le_bytes());
        out.put(&signature_bit.to_le_bytes());
        out.put(&hash_bit.to_le_bytes());
        out.zeros(16);
        let length = out.at;
        self.append(Region::A, request, length);
        self.state.phase = Phase::Negotiated;
        self.state.selected = selected;
        Ok(Accepted { state: self.state, length })
    }

    fn digests(mut self) -> Served {
        let request = self.layout(HEADER)?;
        let length = HEADER + self.image.hash_size() * self.image.chain_count();
        self.fits_peer(length)?;
        self.fits_region(Region::B, request.len() + length)?;
        let mut out = Writer::new(self.answer);
        out.put(&[self.state.version(), DIGESTS, 0, self.image.slot_mask()]);
        self.image.put_digests(&mut out);
        self.append(Region::B, request, length);
        Ok(Accepted { state: self.state, length })
    }

    fn certificate(mut self) -> Served {
        let request = self.layout(8)?;
        let (slot, chain) = self.image.filled(request[2] & 0x0F).ok_or(Refusal::InvalidRequest)?;
        let offset = usize::from(u16_at(request, 4));
        let asked = usize::from(u16_at(request, 6));
        if offset >= chain.bytes.len() || asked == 0 {
            return Err(Refusal::InvalidRequest);
        }
        let rest = &chain.bytes[offset..];
        let peer_room = usize::try_from(self.state.peer_size - 8).unwrap_or(usize::MAX);
        let portion = asked.min(rest.len()).min(peer_room).min(MAX_PORTION);
        let remainder = rest.len() - portion;
        let length = 8 + portion;
        self.fits_peer(length)?;
        self.fits_region(Region::B, request.len() + length)?;
        let mut out = Writer::new(self.answer);
        out.put(&[self.state.version(), CERTIFICATE, slot.number(), 0]);
        out.put(&(portion as u16).to_le_bytes());
        out.put(&(remainder as u16).to_le_bytes());
        out.put(&rest[..portion]);
        self.append(Region::B, request, length);
        Ok(Accepted { state: self.state, length })
    }

    fn challenge(mut self) -> Served {
        let request = self.layout(36)?;
        let (slot, chain) = self.image.filled(request[2]).ok_or(Refusal::InvalidRequest)?;
        let summary: &[u8] = match (request[3], self.image.summaries()) {
            (0, _) => &[],
            (1, Some(summaries)) if self.state.selected => summaries.tcb,
            (0xFF, Some(summaries)) if self.state.selected => summaries.all,
            _ => return Err(Refusal::InvalidRequest),
        };
        let unsigned = HEADER + chain.digest.len() + NONCE + summary.len() + 2;
        let length = unsigned + self.image.signature_size();
        self.fits_peer(length)?;
        self.fits_region(Region::B, request.len() + unsigned)?;
        let mut out = Writer::new(self.answer);
        out.put(&[self.state.version(), CHALLENGE_AUTH, slot.number(), self.image.slot_mask()]);
        out.put(chain.digest);
        out.put(self.nonce);
        out.put(summary);
        out.put(&[0, 0]);
        out.zeros(self.image.signature_size());
        self.append(Region::B, request, unsigned);
        self.state.awaited = Some(Awaited { which: Signed::Challenge, length });
        Ok(Accepted { state: self.state, length })
    }

    fn measurements(mut self) -> Served {
        let signed = self.request[2] & 1 != 0;
        let request = self.layout(if signed { 37 } else { HEADER })?;
        let asked = request[3];
        let (one, blocks) = match asked {
            0 => (None, 0),
            0xFF => (None, self.image.measurements().len()),
            number => {
                let found = Index::new(number).and_then(|index| self.image.measurement(index));
                (Some(found.ok_or(Refusal::InvalidRequest)?), 1)
            }
        };
        let slot = match request.get(36) {
            None => None,
            Some(byte) => Some(self.image.filled(byte & 0x0F).ok_or(Refusal::InvalidRequest)?.0),
        };

        let h = self.image.hash_size();
        let record = blocks * (7 + h);
        let unsigned = 8 + record + NONCE + 2;
        let signature = if signed { self.image.signature_size() } else { 0 };
        let length = unsigned + signature;
        self.fits_peer(length)?;
        self.fits_region(Region::M, request.len() + unsigned)?;

        let count = if asked == 0 { self.image.measurements().len() as u8 } else { 0 };
        let [record_0, record_1, record_2, _] = (record as u32).to_le_bytes();
        let mut out = Writer::new(self.answer);
        out.put(&[self.state.version(), MEASUREMENTS, count, slot.map_or(0, Slot::number)]);
        out.put(&[blocks as u8, record_0, record_1, record_2]);
        let mut block = |measurement: Measurement| {
            let ([size_0, size_1], [h_0, h_1]) = ((3 + h as u16).to_le_bytes(), (h as u16).to_le_bytes());
            out.put(&[measurement.index.number(), 1, size_0, size_1, measurement.kind, h_0, h_1]);
            out.put(measurement.digest);
        };
        match one {
            Some(measurement) => block(measurement),
            None if asked == 0xFF => self.image.measurements().for_each(block),
            None => {}
        }
        out.put(self.nonce);
        out.put(&[0, 0]);
        out.zeros(signature);
        self.append(Region::M, request, unsigned);
        if signed {
            self.state.awaited = Some(Awaited { which: Signed::Measurements, length });
        }
        Ok(Accepted { state: self.state, length })
    }
}

/// Whether the algorithm structures of NEGOTIATE_ALGORITHMS are `count` in number, in order, and fill `bytes`.
fn check_structures(mut bytes: &[u8], count: u8) -> Option<()> {
    let mut least_type = 2;
    for _ in 0..count {
        let &[kind, sizes, _, _, ref rest @ ..] = bytes else {
            return None;
        };
        if kind < least_type || kind > 5 || sizes >> 4 != 2 {
            return None;
        }
        least_type = kind + 1;
        bytes = rest.get(4 * usize::from(sizes & 0x0F)..)?;
    }
    bytes.is_empty().then_some(())
}

// ---------------------------------------------------------------------------------------------- the calls

fn check_buffers(transcript: &[u8], answer: &[u8]) -> Result<(), Number> {
    if answer.len() < MAX_MESSAGE {
        return Err(Number::AnswerBuffer);
    }
    if transcript.len() < TRANSCRIPT {
        return Err(Number::TranscriptBuffer);
    }
    Ok(())
}

/// A call's outcome as the host sees it: the number in the high half, or the answer's length.
pub(crate) fn outcome(result: Result<usize, Number>) -> u32 {
    match result {
        Ok(length) => length as u32,
        Err(number) => (number as u32) << 16,
    }
}

/// Reads an image: 0 if it is accepted.
#[inline(never)]
pub fn read_image(image: &[u8]) -> u32 {
    outcome(Image::read(image).map(|_| 0))
}

/// Tells what an image says of its box, in the first seven words: CTExponent, hash number, H, signature number, S, the
/// mask of the filled slots and the count of measurements.
#[inline(never)]
pub fn image_algorithms(image: &[u8], algorithms: &mut [u32]) -> u32 {
    outcome(Image::read(image).and_then(|image| try_image_algorithms(&image, algorithms)))
}

pub(crate) fn try_image_algorithms<'i>(image: &impl Provision<'i>, algorithms: &mut [u32]) -> Result<usize, Number> {
    let told = algorithms.first_chunk_mut().ok_or(Number::AnswerBuffer)?;
    *told = [
        u32::from(image.ct_exponent()),
        u32::from(image.hash_number()),
        image.hash_size() as u32,
        u32::from(image.signature_number()),
        image.signature_size() as u32,
        u32::from(image.slot_mask()),
        image.measurements().len() as u32,
    ];
    Ok(0)
}

/// Answers a request.
#[inline(never)]
pub fn respond(
    image: &[u8],
    state: &mut [u32],
    transcript: &mut [u8],
    answer: &mut [u8],
    request: &[u8],
    nonce: &[u8],
) -> u32 {
    outcome(Image::read(image).and_then(|image| try_respond(&image, state, transcript, answer, request, nonce)))
}

pub(crate) fn try_respond<'i>(
    image: &impl Provision<'i>,
    words: &mut [u32],
    transcript: &mut [u8],
    answer: &mut [u8],
    request: &[u8],
    nonce: &[u8],
) -> Result<usize, Number> {
    check_buffers(transcript, answer)?;
    let nonce = nonce.try_into().map_err(|_| Number::NonceLength)?;
    let state = State::load(words, image)?;
    let exchange = Exchange { image, state, transcript, answer: &mut *answer, request, nonce };
    let code = match exchange.admit() {
        Ok(code) => code,
        Err(refusal) => return Ok(refusal.write(&state, answer)),
    };
    match exchange.serve(code) {
        Ok(accepted) => {
            accepted.state.store(words);
            Ok(accepted.length)
        }
        Err(refusal) => {
            // Only M's count: the other words stay as they were handed in, the answer's length too.
            if code == GET_MEASUREMENTS {
                words[M_USED] = 0;
            }
            Ok(refusal.write(&state, answer))
        }
    }
}

/// Finishes the awaited answer with the chip's signature, or with its failure.
#[inline(never)]
pub fn finish(
    image: &[u8],
    state: &mut [u32],
    transcript: &mut [u8],
    answer: &mut [u8],
    chip_ok: bool,
    signature: &[u8],
) -> u32 {
    outcome(Image::read(image).and_then(|image| try_finish(&image, state, transcript, answer, chip_ok, signature)))
}

pub(crate) fn try_finish<'i>(
    image: &impl Provision<'i>,
    words: &mut [u32],
    transcript: &mut [u8],
    answer: &mut [u8],
    chip_ok: bool,
    signature: &[u8],
) -> Result<usize, Number> {
    check_buffers(transcript, answer)?;
    let mut state = State::load(words, image)?;
    let awaited = state.awaited.take().ok_or(Number::NothingAwaited)?;
    if chip_ok && signature.len() != image.signature_size() {
        return Err(Number::SignatureLength);
    }
    match awaited.which {
        Signed::Challenge => state.b = 0,
        Signed::Measurements => state.m = 0,
    }
    state.store(words);
    if chip_ok {
        answer[awaited.length - signature.len()..awaited.length].copy_from_slice(signature);
        Ok(awaited.length)
    } else {
        Ok(Refusal::Unspecified.write(&state, answer))
    }
}

/// Shows what is to be signed: the prefix, and where the two parts to hash lie in the transcript buffer (start
/// and length of A, start and length of B or M). Under 1.1 there is no prefix, and M is hashed alone: no byte of A.
#[inline(never)]
pub fn to_sign(state: &[u32], prefix: &mut [u8], parts: &mut [u32]) -> u32 {
    outcome(try_to_sign(state, prefix, parts))
}

fn try_to_sign(words: &[u32], prefix: &mut [u8], parts: &mut [u32]) -> Result<usize, Number> {
    if prefix.len() < PREFIX || parts.len() < 4 {
        return Err(Number::AnswerBuffer);
    }
    let state = State::from_words(words).ok_or(Number::StateBounds)?;
    let (Some(edition), Some(Awaited { which, .. })) = (state.edition, state.awaited) else {
        return Err(Number::NothingAwaited);
    };
    let (context, start, used): (&[u8], usize, usize) = match which {
        Signed::Challenge => (b"responder-challenge_auth signing", B_START, state.b),
        Signed::Measurements => (b"responder-measurements signing", M_START, state.m),
    };
    let hashed_a = match (edition, which) {
        (Edition::V1_1, Signed::Measurements) => 0,
        (Edition::V1_1, Signed::Challenge) | (Edition::V1_2, _) => state.a,
    };
    parts[..4].copy_from_slice(&[0, hashed_a as u32, start as u32, used as u32]);
    let mut out = Writer::new(prefix);
    if edition == Edition::V1_2 {
        for _ in 0..4 {
            out.put(b"dmtf-spdm-v1.2.*");
        }
        out.zeros(PREFIX - out.at - context.len());
        out.put(context);
    }
    Ok(out.at)
}
