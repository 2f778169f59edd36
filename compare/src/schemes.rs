//! Our two sealing schemes and our two signing keys, as keys for quinn-proto's tokens.
use crate::aes::{substitution, Aes256};
use crate::ccm;
use crate::crypto::{AeadKey, CryptoError, HandshakeTokenKey, HmacKey};
use crate::sha256::hmac_sha256;

/// The scheme for the bench: the content, and 16 check bytes that anybody can make.
pub(crate) struct Bench(pub(crate) [u8; 16]);

struct BenchKey {
    key: [u8; 16],
    nonce: [u8; 16],
}

impl BenchKey {
    fn checks(&self, content: &[u8]) -> [u8; 16] {
        std::array::from_fn(|j| {
            let sum = content
                .iter()
                .skip(j)
                .step_by(16)
                .fold(0u8, |sum, b| sum.wrapping_add(*b));
            self.key[j].wrapping_add(self.nonce[j]).wrapping_add(sum)
        })
    }
}

/// The scheme for the field: CCM under the nonce's own key, with the counter nonce zero.
pub(crate) struct Ccm {
    secret: [u8; 32],
    substitution: [u8; 256],
}

impl Ccm {
    pub(crate) fn new(secret: [u8; 32]) -> Self {
        Self {
            secret,
            substitution: substitution(),
        }
    }
}

/// HMAC-SHA-256 under a key of any length.
pub(crate) struct Hmac(pub(crate) Vec<u8>);

impl HmacKey for Hmac {
    fn sign(&self, data: &[u8], out: &mut [u8]) {
        out.copy_from_slice(&hmac_sha256(&self.0, data));
    }

    fn signature_len(&self) -> usize {
        32
    }
}

/// The check bytes under a nonce of zeros.
impl HmacKey for Bench {
    fn sign(&self, data: &[u8], out: &mut [u8]) {
        let key = BenchKey {
            key: self.0,
            nonce: [0; 16],
        };
        out.copy_from_slice(&key.checks(data));
    }

    fn signature_len(&self) -> usize {
        16
    }
}

impl HandshakeTokenKey for Bench {
    fn aead_from_hkdf(&self, random_bytes: &[u8]) -> Box<dyn AeadKey> {
        Box::new(BenchKey {
            key: self.0,
            nonce: random_bytes.try_into().unwrap(),
        })
    }
}

impl HandshakeTokenKey for Ccm {
    fn aead_from_hkdf(&self, random_bytes: &[u8]) -> Box<dyn AeadKey> {
        let key = hmac_sha256(&self.secret, &[random_bytes, &[1]].concat());
        Box::new(Aes256::new(&key, &self.substitution))
    }
}

impl AeadKey for BenchKey {
    fn seal(&self, data: &mut Vec<u8>, _: &[u8]) -> Result<(), CryptoError> {
        data.extend(self.checks(data));
        Ok(())
    }

    fn open<'a>(&self, data: &'a mut [u8], _: &[u8]) -> Result<&'a mut [u8], CryptoError> {
        let content = data.len().checked_sub(16).ok_or(CryptoError)?;
        let (content, checks) = data.split_at_mut(content);
        if self.checks(content) != checks {
            return Err(CryptoError);
        }
        Ok(content)
    }
}

impl AeadKey for Aes256 {
    fn seal(&self, data: &mut Vec<u8>, _: &[u8]) -> Result<(), CryptoError> {
        *data = ccm::seal(self, &[0; 12], data);
        Ok(())
    }

    fn open<'a>(&self, data: &'a mut [u8], _: &[u8]) -> Result<&'a mut [u8], CryptoError> {
        let text = ccm::open(self, &[0; 12], data).ok_or(CryptoError)?;
        let content = &mut data[..text.len()];
        content.copy_from_slice(&text);
        Ok(content)
    }
}
