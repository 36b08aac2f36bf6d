//! Names from the original's other files; a rejection keeps its number.
pub mod ssu2 {
    pub mod metrics {
        pub const GARBAGE_COLLECTED_COUNT: &str = "garbage collected";
        pub const INBOUND_FRAGMENT_COUNT: &str = "inbound fragments";
    }

    pub mod peer_test {
        pub mod types {
            #[derive(Debug, Clone, Copy, PartialEq, Eq)]
            pub struct RejectionReason(pub u8);
            impl From<u8> for RejectionReason {
                fn from(number: u8) -> Self {
                    Self(number)
                }
            }
        }
    }

    pub mod relay {
        pub mod types {
            pub use super::super::peer_test::types::RejectionReason;
        }
    }
}
