//! What the Rust's files name and does not come with them. No function that is called or timed uses it.

pub mod message_type {
    #[derive(Debug)]
    pub enum MessageType {}

    impl core::fmt::Display for MessageType {
        fn fmt(&self, _: &mut core::fmt::Formatter<'_>) -> core::fmt::Result {
            match *self {}
        }
    }
}

pub mod source {
    pub trait Source {
        fn read_exact_at(&self, at: u64, len: usize) -> Result<Vec<u8>, crate::error::FormatError>;
    }
}
