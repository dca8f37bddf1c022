//! The proved responder, through its C interface.
//!
//! [`raw`] is the interface itself. The functions beside it take slices, so that a caller cannot pass a pointer
//! with another's length; they have the signatures of those in [`crate::plain`].

/// The declarations of `spdm_responder.h`.
pub mod raw {
    extern "C" {
        pub fn spdm_respond(
            image: *const u8,
            image_len: u64,
            state: *mut u32,
            state_len: u64,
            transcript: *mut u8,
            transcript_len: u64,
            answer: *mut u8,
            answer_len: u64,
            request: *const u8,
            request_len: u64,
            nonce: *const u8,
            nonce_len: u64,
        ) -> u32;

        pub fn spdm_finish(
            image: *const u8,
            image_len: u64,
            state: *mut u32,
            state_len: u64,
            transcript: *const u8,
            transcript_len: u64,
            answer: *mut u8,
            answer_len: u64,
            chip_ok: u32,
            signature: *const u8,
            signature_len: u64,
        ) -> u32;

        pub fn spdm_to_sign(
            state: *const u32,
            state_len: u64,
            prefix: *mut u8,
            prefix_len: u64,
            parts: *mut u32,
            parts_len: u64,
        ) -> u32;

        pub fn spdm_read_image(image: *const u8, image_len: u64) -> u32;

        pub fn spdm_image_algorithms(
            image: *const u8,
            image_len: u64,
            algorithms: *mut u32,
            algorithms_len: u64,
        ) -> u32;
    }
}

/// A length as the library takes it: 64 bits on every processor.
fn length<T>(lent: &[T]) -> u64 {
    lent.len() as u64
}

/// Reads an image: 0 if it is accepted.
pub fn read_image(image: &[u8]) -> u32 {
    // SAFETY: pointer and length are those of one slice, which the library only reads.
    unsafe { raw::spdm_read_image(image.as_ptr(), length(image)) }
}

/// Tells what an image says of its box.
pub fn image_algorithms(image: &[u8], algorithms: &mut [u32]) -> u32 {
    // SAFETY: as in `respond`.
    unsafe { raw::spdm_image_algorithms(image.as_ptr(), length(image), algorithms.as_mut_ptr(), length(algorithms)) }
}

/// Answers a request.
pub fn respond(
    image: &[u8],
    state: &mut [u32],
    transcript: &mut [u8],
    answer: &mut [u8],
    request: &[u8],
    nonce: &[u8],
) -> u32 {
    // SAFETY: each pointer and length are those of one slice; the written ones are exclusive borrows.
    unsafe {
        raw::spdm_respond(
            image.as_ptr(),
            length(image),
            state.as_mut_ptr(),
            length(state),
            transcript.as_mut_ptr(),
            length(transcript),
            answer.as_mut_ptr(),
            length(answer),
            request.as_ptr(),
            length(request),
            nonce.as_ptr(),
            length(nonce),
        )
    }
}

/// Finishes the awaited answer.
pub fn finish(
    image: &[u8],
    state: &mut [u32],
    transcript: &mut [u8],
    answer: &mut [u8],
    chip_ok: bool,
    signature: &[u8],
) -> u32 {
    finish_with(image, state, transcript, answer, u32::from(chip_ok), signature)
}

/// Finishes the awaited answer, the chip's result being given as the word that C has for it: 0 if it failed.
pub fn finish_with(
    image: &[u8],
    state: &mut [u32],
    transcript: &mut [u8],
    answer: &mut [u8],
    chip_ok: u32,
    signature: &[u8],
) -> u32 {
    // SAFETY: as in `respond`.
    unsafe {
        raw::spdm_finish(
            image.as_ptr(),
            length(image),
            state.as_mut_ptr(),
            length(state),
            transcript.as_ptr(),
            length(transcript),
            answer.as_mut_ptr(),
            length(answer),
            chip_ok,
            signature.as_ptr(),
            length(signature),
        )
    }
}

/// Shows what is to be signed.
pub fn to_sign(state: &[u32], prefix: &mut [u8], parts: &mut [u32]) -> u32 {
    // SAFETY: as in `respond`.
    unsafe {
        raw::spdm_to_sign(
            state.as_ptr(),
            length(state),
            prefix.as_mut_ptr(),
            length(prefix),
            parts.as_mut_ptr(),
            length(parts),
        )
    }
}
