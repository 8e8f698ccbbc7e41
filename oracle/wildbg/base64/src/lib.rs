//! In the place of the crate `base64`: only what wildbg's `conversion.rs` calls of it.

pub use engine::Engine;

pub mod engine {
    /// Encoding and decoding; the alphabet and the padding are the implementor's.
    pub trait Engine {
        fn encode(&self, input: impl AsRef<[u8]>) -> String;

        /// Writes the decoded bytes to the front of `output` and answers their number.
        fn decode_slice(
            &self,
            input: impl AsRef<[u8]>,
            output: &mut [u8],
        ) -> Result<usize, DecodeSliceError>;
    }

    /// Why a text was not decoded.
    #[derive(Debug, PartialEq)]
    pub enum DecodeSliceError {
        InvalidByte(u8),
        InvalidLength(usize),
        BitsAfterLastByte,
        OutputSliceTooSmall,
    }

    pub mod general_purpose {
        use super::{DecodeSliceError, Engine};

        const ALPHABET: &[u8; 64] =
            b"ABCDEFGHIJKLMNOPQRSTUVWXYZabcdefghijklmnopqrstuvwxyz0123456789+/";

        /// The standard alphabet without padding (RFC 4648, sections 3.2 and 4).
        pub struct StandardNoPad;

        pub const STANDARD_NO_PAD: StandardNoPad = StandardNoPad;

        impl Engine for StandardNoPad {
            fn encode(&self, input: impl AsRef<[u8]>) -> String {
                input.as_ref().chunks(3).flat_map(encode_group).collect()
            }

            fn decode_slice(
                &self,
                input: impl AsRef<[u8]>,
                output: &mut [u8],
            ) -> Result<usize, DecodeSliceError> {
                let mut decoded = Vec::new();
                for group in input.as_ref().chunks(4) {
                    decode_group(group, &mut decoded)?;
                }
                output
                    .get_mut(..decoded.len())
                    .ok_or(DecodeSliceError::OutputSliceTooSmall)?
                    .copy_from_slice(&decoded);
                Ok(decoded.len())
            }
        }

        /// One to three bytes as two to four characters, six bits each, high bits first.
        fn encode_group(bytes: &[u8]) -> impl Iterator<Item = char> {
            let mut group = [0; 3];
            group[..bytes.len()].copy_from_slice(bytes);
            let bits = u32::from_be_bytes([0, group[0], group[1], group[2]]);
            (0..=bytes.len()).map(move |i| ALPHABET[(bits >> (18 - 6 * i)) as usize & 63] as char)
        }

        /// Appends the one to three bytes of two to four characters.
        fn decode_group(text: &[u8], decoded: &mut Vec<u8>) -> Result<(), DecodeSliceError> {
            if text.len() < 2 {
                return Err(DecodeSliceError::InvalidLength(text.len()));
            }
            let mut bits = 0;
            for (i, &character) in text.iter().enumerate() {
                let value = ALPHABET.iter().position(|&c| c == character);
                let value = value.ok_or(DecodeSliceError::InvalidByte(character))?;
                bits |= (value as u32) << (18 - 6 * i);
            }
            let [_, bytes @ ..] = bits.to_be_bytes();
            let (bytes, rest) = bytes.split_at(text.len() - 1);
            if rest.iter().any(|&byte| byte != 0) {
                return Err(DecodeSliceError::BitsAfterLastByte);
            }
            decoded.extend_from_slice(bytes);
            Ok(())
        }
    }
}

#[cfg(test)]
mod tests {
    use super::engine::DecodeSliceError::{self, *};
    use super::engine::general_purpose::STANDARD_NO_PAD;
    use super::*;

    fn decode(text: &str) -> Result<Vec<u8>, DecodeSliceError> {
        let mut bytes = [0; 10];
        let length = STANDARD_NO_PAD.decode_slice(text, &mut bytes)?;
        Ok(bytes[..length].to_vec())
    }

    #[test]
    fn the_vectors_of_rfc_4648_and_the_start_boards_id() {
        let start = b"\xE0\x73\xF0\x01\x30\xE0\x73\xF0\x01\x30";
        let vectors: [(&[u8], &str); 8] = [
            (b"", ""),
            (b"f", "Zg"),
            (b"fo", "Zm8"),
            (b"foo", "Zm9v"),
            (b"foob", "Zm9vYg"),
            (b"fooba", "Zm9vYmE"),
            (b"foobar", "Zm9vYmFy"),
            (start, "4HPwATDgc/ABMA"),
        ];
        for (bytes, text) in vectors {
            assert_eq!(STANDARD_NO_PAD.encode(bytes), text);
            assert_eq!(decode(text), Ok(bytes.to_vec()));
        }
    }

    #[test]
    fn damaged_text_is_refused() {
        assert_eq!(decode("Z"), Err(InvalidLength(1)));
        assert_eq!(decode("Zg=="), Err(InvalidByte(b'=')));
        assert_eq!(decode("Zh"), Err(BitsAfterLastByte));
        assert_eq!(decode("AAAAAAAAAAAAAAA"), Err(OutputSliceTooSmall));
    }
}
