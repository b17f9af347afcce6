//! The digits of the crate hex, into room that is there.

pub(crate) fn decode(text: &[u8], bytes: &mut [u8]) -> Result<(), ()> {
    real::decode_to_slice(text, bytes).map_err(|_| ())
}

/// Writes into twice as many bytes as are given.
pub(crate) fn encode(bytes: &[u8], text: &mut [u8]) {
    let written = real::encode_to_slice(bytes, text);
    debug_assert!(written.is_ok(), "the room is twice the bytes");
}
