//! bincode 2's names over bincode 1.3.3, whose default format is the one bincode 2 calls legacy:
//! fixed width, low byte first, bytes after the value ignored.

pub mod error {
    pub type EncodeError = bincode1::Error;
    pub type DecodeError = bincode1::Error;
}

pub mod config {
    pub struct Legacy;

    pub fn legacy() -> Legacy {
        Legacy
    }
}

pub mod serde {
    use serde::{Serialize, de::DeserializeOwned};

    use crate::{config::Legacy, error};

    pub fn encode_to_vec<T: Serialize>(val: T, _: Legacy) -> Result<Vec<u8>, error::EncodeError> {
        bincode1::serialize(&val)
    }

    /// The second part, bincode 2's count of bytes read, is not given: nobody looks at it.
    pub fn decode_from_slice<T: DeserializeOwned>(
        slice: &[u8],
        _: Legacy,
    ) -> Result<(T, ()), error::DecodeError> {
        bincode1::deserialize(slice).map(|val| (val, ()))
    }
}
