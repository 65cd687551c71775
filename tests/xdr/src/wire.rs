//! The codec that is held against the witness.

use model::{codec, Message, Refusal};

pub trait Wire {
    fn encode(&self, message: &Message) -> Result<Vec<u8>, Refusal>;
    fn decode(&self, bytes: &[u8]) -> Result<Message, Refusal>;
}

/// The model's codec.
pub struct Plain;

impl Wire for Plain {
    fn encode(&self, message: &Message) -> Result<Vec<u8>, Refusal> {
        codec::bytes_of(message)
    }

    fn decode(&self, bytes: &[u8]) -> Result<Message, Refusal> {
        codec::decode(bytes)
    }
}
