//! The tuned responder: the plain one with its reader made fast by hand, as a mark for the proved one's speed.
//!
//! The digest size is a const generic, so that strides and copies have a fixed length; measurement records are taken
//! by a fixed stride with three compares each; what is kept of the image is a few numbers. A fault is left to the
//! plain reader, which knows its number. Nothing is `unsafe`.

#![forbid(unsafe_code)]

use crate::plain::{self, outcome, Chain, Number, Provision, Slot, Summaries, Writer};
use crate::plain::{HASH_SIZES, MAX_CHAIN, MAX_CHAINS, MAX_EXPONENT, MAX_IMAGE, MAX_INDEX, MAX_MEASUREMENTS};
use crate::plain::{MAX_SLOT, MAX_TYPE, SIGNATURE_SIZES};

/// Where the records behind the identity begin.
const IDENTITY_END: usize = 7;
/// The bytes of a record's head: length and kind.
const HEAD: usize = 3;

// A place in an image is kept in 16 bits.
const _: () = assert!(MAX_IMAGE <= u16::MAX as usize);

/// An accepted image with digests of H bytes.
struct Image<'a, const H: usize> {
    bytes: &'a [u8],
    mask: u8,
    /// Where the body of each slot's record starts.
    places: [u16; MAX_CHAINS],
    /// Where the measurement records start, and where the last of them ends.
    first: usize,
    end: usize,
}

/// Reads an image whose identity was found good; `None` of a fault.
#[inline(always)]
fn read<const H: usize>(bytes: &[u8]) -> Option<Image<'_, H>> {
    let mut at = IDENTITY_END;
    let (mut mask, mut places, mut next_slot) = (0u8, [0; MAX_CHAINS], 0u8);
    while let Some(&[high, low, 2, slot]) = bytes[at..].first_chunk() {
        let length = usize::from(u16::from_be_bytes([high, low]));
        let place = at + HEAD;
        let own = bytes.get(place + 1 + H..place + 3 + H)?;
        let own = usize::from(u16::from_le_bytes([own[0], own[1]]));
        if own + 1 + H != length || own < 5 + H || own > MAX_CHAIN || bytes.len() - place < length {
            return None;
        }
        // Rising slots of at most 7 are at most eight.
        if slot < next_slot || slot > MAX_SLOT {
            return None;
        }
        places[usize::from(slot)] = place as u16;
        mask |= 1 << slot;
        next_slot = slot + 1;
        at = place + length;
    }
    // Slots rise, so slot 0 is the first or is missing.
    if mask & 1 == 0 {
        return None;
    }

    // Length, kind and index of a record are one number that rises; the index is at most 239.
    let first = at;
    let base = u32::from_be_bytes([0, 2 + H as u8, 3, 0]);
    let mut last = base;
    for record in bytes[at..].chunks_exact(5 + H).take(MAX_MEASUREMENTS) {
        let head = u32::from_be_bytes([record[0], record[1], record[2], record[3]]);
        if head <= last || head > base + u32::from(MAX_INDEX) || record[4] > MAX_TYPE {
            break;
        }
        last = head;
        at += 5 + H;
    }

    let end = at;
    let rest = &bytes[end..];
    if first == end {
        return rest.is_empty().then_some(Image { bytes, mask, places, first, end });
    }
    let summary = rest.len() == HEAD + 2 * H && rest[..HEAD] == [0, 2 * H as u8, 4];
    summary.then_some(Image { bytes, mask, places, first, end })
}

impl<'a, const H: usize> Image<'a, H> {
    #[inline(always)]
    fn chain_at(&self, slot: u8) -> Chain<'a> {
        let place = usize::from(self.places[usize::from(slot)]);
        let (digest, rest) = self.bytes[place + 1..].split_at(H);
        let length = usize::from(u16::from_le_bytes([rest[0], rest[1]]));
        Chain { digest, bytes: &rest[..length] }
    }
}

impl<'a, const H: usize> Provision<'a> for Image<'a, H> {
    fn ct_exponent(&self) -> u8 {
        self.bytes[4]
    }

    fn hash_number(&self) -> u8 {
        self.bytes[5]
    }

    fn signature_number(&self) -> u8 {
        self.bytes[6]
    }

    fn hash_size(&self) -> usize {
        H
    }

    fn chain(&self, slot: Slot) -> Option<Chain<'a>> {
        (self.mask >> slot.number() & 1 == 1).then(|| self.chain_at(slot.number()))
    }

    fn measurement_records(&self) -> &'a [u8] {
        &self.bytes[self.first..self.end]
    }

    fn summaries(&self) -> Option<Summaries<'a>> {
        let body = self.bytes.get(self.end + HEAD..)?;
        let (tcb, all) = body.split_at(H);
        Some(Summaries { tcb, all })
    }

    fn chain_count(&self) -> usize {
        self.mask.count_ones() as usize
    }

    fn slot_mask(&self) -> u8 {
        self.mask
    }

    #[inline(always)]
    fn put_digests(&self, out: &mut Writer) {
        for place in self.places.map(usize::from) {
            if place > 0 {
                out.put(&self.bytes[place + 1..place + 1 + H]);
            }
        }
    }
}

/// The hash size of an image whose size, version and identity are in order.
#[inline(always)]
fn hash_size(image: &[u8]) -> Option<usize> {
    let &[1, 0, 3, 1, ct_exponent, hash, signature, ..] = image else {
        return None;
    };
    let good =
        image.len() <= MAX_IMAGE && ct_exponent <= MAX_EXPONENT && usize::from(signature) < SIGNATURE_SIZES.len();
    if good {
        HASH_SIZES.get(usize::from(hash)).copied()
    } else {
        None
    }
}

/// The number of a fault: the plain reader's.
#[cold]
#[inline(never)]
fn fault(image: &[u8]) -> Number {
    plain::Image::read(image).err().expect("a fault that the plain reader does not find")
}

/// A call on the image that was read, its digest size known; the number of a fault where it was not accepted.
macro_rules! on_image {
    ($image:ident, |$read:pat_param| $call:expr) => {
        outcome(match hash_size($image) {
            Some(32) => read::<32>($image).ok_or_else(|| fault($image)).and_then(|$read| $call),
            Some(48) => read::<48>($image).ok_or_else(|| fault($image)).and_then(|$read| $call),
            Some(64) => read::<64>($image).ok_or_else(|| fault($image)).and_then(|$read| $call),
            _ => Err(fault($image)),
        })
    };
}

/// Reads an image: 0 if it is accepted.
#[inline(never)]
pub fn read_image(image: &[u8]) -> u32 {
    on_image!(image, |_| Ok(0))
}

/// Tells what an image says of its box.
#[inline(never)]
pub fn image_algorithms(image: &[u8], algorithms: &mut [u32]) -> u32 {
    on_image!(image, |read| plain::try_image_algorithms(&read, algorithms))
}

/// Answers a request.
#[inline(never)]
pub fn respond(
    image: &[u8],
    state: &mut [u32],
    transcript: &mut [u8],
    answer: &mut [u8],
    request: &[u8],
    nonce: &[u8],
) -> u32 {
    on_image!(image, |read| plain::try_respond(&read, state, transcript, answer, request, nonce))
}

/// Finishes the awaited answer with the chip's signature, or with its failure.
#[inline(never)]
pub fn finish(
    image: &[u8],
    state: &mut [u32],
    transcript: &mut [u8],
    answer: &mut [u8],
    chip_ok: bool,
    signature: &[u8],
) -> u32 {
    on_image!(image, |read| plain::try_finish(&read, state, transcript, answer, chip_ok, signature))
}
