//! What stands for random bytes.

use consent::Digest;
use pkce::digest_of;

/// 32 bytes that differ from those of any other number.
pub fn drawn(number: u32) -> [u8; 32] {
    let mut bytes = [0; 32];
    let (head, _) = bytes.split_at_mut(4);
    head.copy_from_slice(&number.to_le_bytes());
    bytes
}

/// Their digest.
pub fn digest(number: u32) -> Digest {
    digest_of(&drawn(number))
}
