//! A stand-in for the crate `crc-any`, which cannot be had without a network.
//!
//! It has the three names that rtcm-rs uses, and is written from the public definition of CRC-24Q (there called
//! CRC-24/LTE-A): polynomial 864CFB hex, start 0, most significant bit first, no final change. It is not that crate's
//! text, so a run against it says nothing about `crc-any` itself.
#![forbid(unsafe_code)]

const POLYNOMIAL: u32 = 0x86_4CFB;

const TABLE: [u32; 256] = table();

const fn table() -> [u32; 256] {
    let mut table = [0; 256];
    let mut byte = 0;
    while byte < 256 {
        let mut sum = (byte as u32) << 16;
        let mut bit = 0;
        while bit < 8 {
            sum <<= 1;
            if sum & 0x100_0000 != 0 {
                sum ^= 0x100_0000 | POLYNOMIAL;
            }
            bit += 1;
        }
        table[byte] = sum;
        byte += 1;
    }
    table
}

/// A checksum in the making.
#[allow(clippy::upper_case_acronyms)]
pub struct CRC {
    sum: u32,
}

impl CRC {
    /// The fresh checksum that rtcm-rs calls CRC-24/LTE-A, and RTCM CRC-24Q.
    pub fn crc24lte_a() -> CRC {
        CRC { sum: 0 }
    }

    /// Takes further bytes in.
    pub fn digest<T: ?Sized + AsRef<[u8]>>(&mut self, bytes: &T) {
        for byte in bytes.as_ref() {
            let place = (self.sum >> 16) as u8 ^ byte;
            self.sum = (self.sum << 8 & 0xFF_FFFF) ^ TABLE[place as usize];
        }
    }

    /// The checksum of the bytes taken in so far.
    pub fn get_crc(&mut self) -> u64 {
        self.sum as u64
    }
}
