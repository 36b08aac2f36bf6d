//! The cipher that HeaderReader unmasks with. Its first block counter, 1, is not in the original's text.

/// Stands in for an X25519 public key: any 32 bytes.
#[derive(Debug, Clone, PartialEq, Eq)]
pub struct EphemeralPublicKey(pub [u8; 32]);

impl EphemeralPublicKey {
    pub fn try_from_bytes(bytes: &[u8]) -> Option<Self> {
        Some(Self(bytes.try_into().ok()?))
    }
}

pub mod chachapoly {
    use openssl::symm::{encrypt_aead, Cipher, Crypter, Mode};
    use std::sync::atomic::{AtomicBool, Ordering};

    /// Comparing takes OpenSSL's ChaCha20; timing takes a plain one, without OpenSSL's set-up for each call.
    pub static PLAIN: AtomicBool = AtomicBool::new(false);

    pub struct ChaCha {
        key: [u8; 32],
        nonce: [u8; 12],
    }

    impl ChaCha {
        pub fn with_iv(key: [u8; 32], nonce: [u8; 12]) -> Self {
            Self { key, nonce }
        }

        pub fn decrypt<const N: usize>(&mut self, mut data: [u8; N]) -> [u8; N] {
            self.decrypt_ref(&mut data);
            data
        }

        pub fn decrypt_ref(&mut self, data: &mut [u8]) {
            if PLAIN.load(Ordering::Relaxed) {
                plain(&self.key, &self.nonce, data);
            } else {
                openssl(&self.key, &self.nonce, data);
            }
        }

        pub fn encrypt_ref(&mut self, data: &mut [u8]) {
            self.decrypt_ref(data)
        }
    }

    fn openssl(key: &[u8; 32], nonce: &[u8; 12], data: &mut [u8]) {
        let mut iv = [0u8; 16];
        iv[0] = 1;
        iv[4..].copy_from_slice(nonce);
        let mut out = [0u8; 128];
        let mut cipher = Crypter::new(Cipher::chacha20(), Mode::Encrypt, key, Some(&iv)).expect("a cipher");
        let n = cipher.update(data, &mut out).expect("at most 64 bytes");
        data.copy_from_slice(&out[..n]);
    }

    /// XORs at most 64 bytes with the block of counter 1.
    fn plain(key: &[u8; 32], nonce: &[u8; 12], data: &mut [u8]) {
        let mut out = [0u8; 64];
        super::block::block(key, 1, nonce, &mut out);
        data.iter_mut().zip(out).for_each(|(a, b)| *a ^= b);
    }

    pub struct ChaChaPoly {
        key: [u8; 32],
        nonce: u64,
    }

    impl ChaChaPoly {
        pub fn with_nonce(key: &[u8; 32], nonce: u64) -> Self {
            Self { key: *key, nonce }
        }

        pub fn encrypt_with_ad_new(&mut self, ad: &[u8], data: &mut Vec<u8>) -> Result<(), ()> {
            let (mut iv, mut tag) = ([0u8; 12], [0u8; 16]);
            iv[4..].copy_from_slice(&self.nonce.to_le_bytes());
            *data = encrypt_aead(Cipher::chacha20_poly1305(), &self.key, Some(&iv), ad, data, &mut tag).map_err(|_| ())?;
            data.extend_from_slice(&tag);
            Ok(())
        }
    }
}

/// A ChaCha20 block written plainly, shared with bench/keystream.rs.
#[path = "../../bench/block.rs"]
pub mod block;
