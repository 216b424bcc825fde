//! 32-bit FNV-1a.
//!
//! Q-5: "32-bit FNV-1a of the lower-case bytes [...] (start 2166136261, factor
//! 16777619, products kept modulo 2 to the 32)". With each byte first the
//! exclusive or, then the product.

use crate::both::agreed;

pub const START: u32 = 2_166_136_261;
pub const FACTOR: u32 = 16_777_619;

/// The whole product, and what is left of it modulo 2 to the 32.
pub fn by_products(bytes: &[u8]) -> u32 {
    bytes.iter().fold(START, |hash, &byte| {
        let product = u64::from(hash ^ u32::from(byte)) * u64::from(FACTOR);
        (product % (1 << 32)) as u32
    })
}

/// The powers of 2 that add up to the factor.
pub const POWERS: [u32; 6] = [24, 8, 7, 4, 1, 0];

/// The same: the product as a sum of powers of 2, of which what leaves 32 bits
/// falls away.
pub fn by_sums(bytes: &[u8]) -> u32 {
    let times = |hash: u32| {
        POWERS
            .iter()
            .fold(0u32, |sum, power| sum.wrapping_add(hash << power))
    };
    bytes
        .iter()
        .fold(START, |hash, &byte| times(hash ^ u32::from(byte)))
}

/// The hash of bytes.
pub fn fnv1a(bytes: &[u8]) -> u32 {
    agreed("hash", bytes.len(), by_products(bytes), || by_sums(bytes))
}
