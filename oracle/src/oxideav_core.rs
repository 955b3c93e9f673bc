//! Stand-in for the bit reader and writer of `oxideav_core`, which is not among the files of the original.
//! Bits go high first; a read or skip of n bits fails if fewer remain; alignment pads with zeros. A read takes one load and two
//! shifts; with `--cfg reader_by_bits` (READER=bits oracle/build) it goes bit by bit. bench/run times the original with either.

pub mod bits {
    #[derive(Debug)]
    pub struct Short;

    pub struct BitReader<'a> {
        bytes: &'a [u8],
        at: usize,
    }

    impl<'a> BitReader<'a> {
        #[inline]
        pub fn new(bytes: &'a [u8]) -> Self {
            Self { bytes, at: 0 }
        }

        #[cfg(reader_by_bits)]
        pub fn read_u32(&mut self, n: u32) -> Result<u32, Short> {
            assert!(n <= 32);
            let from = self.at;
            self.skip(n)?;
            let bit = |i: usize| u32::from(self.bytes[i / 8] >> (7 - i % 8) & 1);
            Ok((from..self.at).fold(0, |value, i| value << 1 | bit(i)))
        }

        #[cfg(not(reader_by_bits))]
        #[inline]
        pub fn read_u32(&mut self, n: u32) -> Result<u32, Short> {
            assert!(n <= 32);
            let (byte, bit) = (self.at / 8, self.at % 8);
            self.skip(n)?;
            let word = match self.bytes.get(byte..byte + 8) {
                Some(eight) => u64::from_be_bytes(eight.try_into().unwrap()),
                None => self.last_word(byte),
            };
            Ok((word << bit).checked_shr(64 - n).unwrap_or(0) as u32)
        }

        /// Fewer than eight bytes, then zeros.
        #[cfg(not(reader_by_bits))]
        fn last_word(&self, byte: usize) -> u64 {
            let mut eight = [0; 8];
            let rest = self.bytes.get(byte..).unwrap_or(&[]);
            eight[..rest.len()].copy_from_slice(rest);
            u64::from_be_bytes(eight)
        }

        #[inline]
        pub fn skip(&mut self, n: u32) -> Result<(), Short> {
            if 8 * self.bytes.len() - self.at < n as usize {
                return Err(Short);
            }
            self.at += n as usize;
            Ok(())
        }

        #[inline]
        pub fn bit_position(&self) -> usize {
            self.at
        }

        #[inline]
        pub fn byte_position(&self) -> usize {
            self.at / 8
        }

        #[inline]
        pub fn is_byte_aligned(&self) -> bool {
            self.at % 8 == 0
        }
    }

    #[derive(Default)]
    pub struct BitWriter {
        bytes: Vec<u8>,
        free: u32,
    }

    impl BitWriter {
        pub fn new() -> Self {
            Self::default()
        }

        pub fn write_bit(&mut self, bit: bool) {
            if self.free == 0 {
                self.bytes.push(0);
                self.free = 8;
            }
            self.free -= 1;
            *self.bytes.last_mut().unwrap() |= u8::from(bit) << self.free;
        }

        pub fn write_u32(&mut self, value: u32, n: u32) {
            assert!(n <= 32);
            for i in (0..n).rev() {
                self.write_bit(value >> i & 1 == 1);
            }
        }

        pub fn align_to_byte(&mut self) {
            self.free = 0;
        }

        pub fn finish(mut self) -> Vec<u8> {
            self.align_to_byte();
            self.bytes
        }
    }
}
