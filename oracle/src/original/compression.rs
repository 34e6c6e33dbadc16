//! The original compression.rs, unchanged, with a way to its two private functions. Its run-length step has a stand-in.

include!(concat!(env!("GGRS_SRC"), "/network/compression.rs"));

pub(crate) fn pack(reference: &[u8], pending: &[Vec<u8>]) -> Vec<u8> {
    delta_encode(reference, pending.iter())
}

pub(crate) fn unpack(reference: &[u8], packet: &[u8]) -> Result<Vec<Vec<u8>>, String> {
    delta_decode(reference, packet).map_err(|why| why.to_string())
}

/// Stands where the original finds a crate of this name. Only `encode` and `decode` call it, and only a test calls
/// them, to see the bytes that it is handed.
mod bitfield_rle {
    pub(super) fn encode(bytes: Vec<u8>) -> Vec<u8> {
        unreachable!("{bytes:?}")
    }

    pub(super) fn decode(bytes: &[u8]) -> Result<Vec<u8>, String> {
        unreachable!("{bytes:?}")
    }
}
