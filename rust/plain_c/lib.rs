//! The plain responder with the C interface of the proved one, `plain_` in place of `spdm_`: see plain.h.
//!
//! A crate of its own, since the differential tests' links the proved library. Where the plain responder panics, the
//! process aborts, which the fuzz driver's user sees as a finding.
//!
//! SAFETY, of every function: the caller's pointers are not null, each lends as many elements as the length behind it
//! says, and what is written overlaps nothing else.

#[path = "../src/plain.rs"]
pub mod plain;

use std::slice::{from_raw_parts, from_raw_parts_mut};

use plain::Provision;

unsafe fn lent<'a, T>(at: *const T, length: u64) -> &'a [T] {
    from_raw_parts(at, length as usize)
}

unsafe fn lent_mut<'a, T>(at: *mut T, length: u64) -> &'a mut [T] {
    from_raw_parts_mut(at, length as usize)
}

#[no_mangle]
pub unsafe extern "C" fn plain_signature_size(image: *const u8, image_len: u64) -> u64 {
    plain::Image::read(lent(image, image_len)).map_or(0, |image| image.signature_size() as u64)
}

#[no_mangle]
pub unsafe extern "C" fn plain_read_image(image: *const u8, image_len: u64) -> u32 {
    plain::read_image(lent(image, image_len))
}

#[no_mangle]
pub unsafe extern "C" fn plain_image_algorithms(
    image: *const u8,
    image_len: u64,
    algorithms: *mut u32,
    algorithms_len: u64,
) -> u32 {
    plain::image_algorithms(lent(image, image_len), lent_mut(algorithms, algorithms_len))
}

#[no_mangle]
pub unsafe extern "C" fn plain_respond(
    image: *const u8,
    image_len: u64,
    state: *mut u32,
    state_len: u64,
    transcript: *mut u8,
    transcript_len: u64,
    answer: *mut u8,
    answer_len: u64,
    request: *const u8,
    request_len: u64,
    nonce: *const u8,
    nonce_len: u64,
) -> u32 {
    plain::respond(
        lent(image, image_len),
        lent_mut(state, state_len),
        lent_mut(transcript, transcript_len),
        lent_mut(answer, answer_len),
        lent(request, request_len),
        lent(nonce, nonce_len),
    )
}

#[no_mangle]
pub unsafe extern "C" fn plain_finish(
    image: *const u8,
    image_len: u64,
    state: *mut u32,
    state_len: u64,
    transcript: *mut u8,
    transcript_len: u64,
    answer: *mut u8,
    answer_len: u64,
    chip_ok: u32,
    signature: *const u8,
    signature_len: u64,
) -> u32 {
    plain::finish(
        lent(image, image_len),
        lent_mut(state, state_len),
        lent_mut(transcript, transcript_len),
        lent_mut(answer, answer_len),
        chip_ok != 0,
        lent(signature, signature_len),
    )
}

#[no_mangle]
pub unsafe extern "C" fn plain_to_sign(
    state: *const u32,
    state_len: u64,
    prefix: *mut u8,
    prefix_len: u64,
    parts: *mut u32,
    parts_len: u64,
) -> u32 {
    plain::to_sign(lent(state, state_len), lent_mut(prefix, prefix_len), lent_mut(parts, parts_len))
}
