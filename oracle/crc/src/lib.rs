//! Stand-in for the crate `crc`: the one algorithm and the few calls that `mod.rs` and `filestore.rs` use.

use core::marker::PhantomData;

/// The parameters of a CRC that is not reflected.
pub struct Algorithm<W> {
    pub poly: W,
    pub init: W,
    pub xorout: W,
}

/// CRC-32/CKSUM (POSIX `cksum` without the length).
pub const CRC_32_CKSUM: Algorithm<u32> = Algorithm {
    poly: 0x04c1_1db7,
    init: 0,
    xorout: 0xffff_ffff,
};

/// An algorithm, ready to start digests.
pub struct Crc<W: 'static> {
    algorithm: &'static Algorithm<W>,
}

/// A CRC over the bytes seen so far.
pub struct Digest<'a, W: 'static> {
    algorithm: &'static Algorithm<W>,
    register: W,
    crc: PhantomData<&'a Crc<W>>,
}

impl Crc<u32> {
    pub const fn new(algorithm: &'static Algorithm<u32>) -> Self {
        Self { algorithm }
    }

    pub const fn digest(&self) -> Digest<'_, u32> {
        Digest {
            algorithm: self.algorithm,
            register: self.algorithm.init,
            crc: PhantomData,
        }
    }
}

impl<'a> Digest<'a, u32> {
    /// Feeds bytes, highest bit first.
    pub fn update(&mut self, bytes: &[u8]) {
        for byte in bytes {
            self.register ^= u32::from(*byte) << 24;
            for _ in 0..8 {
                let carry = self.register & 0x8000_0000 != 0;
                self.register <<= 1;
                if carry {
                    self.register ^= self.algorithm.poly;
                }
            }
        }
    }

    pub const fn finalize(self) -> u32 {
        self.register ^ self.algorithm.xorout
    }
}

#[cfg(test)]
mod tests {
    use super::*;

    /// The check value that the catalogue of CRCs gives for CRC-32/CKSUM.
    #[test]
    fn check_value() {
        let crc = Crc::<u32>::new(&CRC_32_CKSUM);
        let mut digest = crc.digest();
        digest.update(b"123456789");
        assert_eq!(digest.finalize(), 0x765e_7680);
    }
}
