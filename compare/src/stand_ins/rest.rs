//! The crates `rand` and `tracing`, and quinn-proto's own config, coding.rs, crypto.rs and packet.rs.
use crate::{Bytes, ConnectionId, Duration, SystemTime, TokenLog};
use std::sync::Arc;

/// A generator that draws what it was given.
pub trait Rng {
    fn drawn(&mut self) -> u128;
}

pub trait RngExt: Rng {
    fn random(&mut self) -> u128 {
        self.drawn()
    }
}

impl<T: Rng> RngExt for T {}

macro_rules! trace {
    ($($said:tt)*) => {};
}

macro_rules! warn_nothing {
    ($($said:tt)*) => {};
}

pub(crate) use trace;
pub(crate) use warn_nothing as warn;

pub trait TimeSource {
    fn now(&self) -> SystemTime;
}

pub struct ValidationTokenConfig {
    pub lifetime: Duration,
    pub log: Arc<dyn TokenLog>,
}

pub struct ServerConfig {
    pub token_key: Arc<dyn crypto::HandshakeTokenKey>,
    pub retry_token_lifetime: Duration,
    pub validation_token: ValidationTokenConfig,
    pub time_source: Arc<dyn TimeSource>,
}

pub mod coding {
    use crate::{Buf, BufMut};
    use std::net::{Ipv4Addr, Ipv6Addr};

    #[derive(Debug)]
    pub struct UnexpectedEnd;

    /// A value of so many bytes, the first one first.
    pub trait Codec: Sized {
        const SIZE: usize;

        fn read(bytes: &[u8]) -> Self;

        fn write(&self, out: &mut impl BufMut);
    }

    macro_rules! numbers {
        ($($number:ty)*) => {$(
            impl Codec for $number {
                const SIZE: usize = size_of::<$number>();

                fn read(bytes: &[u8]) -> Self {
                    Self::from_be_bytes(bytes.try_into().unwrap())
                }

                fn write(&self, out: &mut impl BufMut) {
                    out.put_slice(&self.to_be_bytes());
                }
            }
        )*};
    }

    numbers! { u8 u16 u64 }

    macro_rules! addresses {
        ($($address:ty, $size:literal;)*) => {$(
            impl Codec for $address {
                const SIZE: usize = $size;

                fn read(bytes: &[u8]) -> Self {
                    let octets: [u8; $size] = bytes.try_into().unwrap();
                    octets.into()
                }

                fn write(&self, out: &mut impl BufMut) {
                    out.put_slice(&self.octets());
                }
            }
        )*};
    }

    addresses! { Ipv4Addr, 4; Ipv6Addr, 16; }

    pub trait BufExt {
        fn get<T: Codec>(&mut self) -> Result<T, UnexpectedEnd>;
    }

    impl<B: Buf> BufExt for B {
        fn get<T: Codec>(&mut self) -> Result<T, UnexpectedEnd> {
            if self.remaining() < T::SIZE {
                return Err(UnexpectedEnd);
            }
            let mut bytes = vec![0; T::SIZE];
            self.copy_to_slice(&mut bytes);
            Ok(T::read(&bytes))
        }
    }

    pub trait BufMutExt {
        fn write<T: Codec>(&mut self, value: T);
    }

    impl<B: BufMut> BufMutExt for B {
        fn write<T: Codec>(&mut self, value: T) {
            value.write(self);
        }
    }
}

pub mod crypto {
    #[derive(Debug)]
    pub struct CryptoError;

    pub trait HmacKey {
        fn sign(&self, data: &[u8], out: &mut [u8]);

        fn signature_len(&self) -> usize;
    }

    pub trait HandshakeTokenKey {
        fn aead_from_hkdf(&self, random_bytes: &[u8]) -> Box<dyn AeadKey>;
    }

    pub trait AeadKey {
        fn seal(&self, data: &mut Vec<u8>, additional_data: &[u8]) -> Result<(), CryptoError>;

        fn open<'a>(
            &self,
            data: &'a mut [u8],
            additional_data: &[u8],
        ) -> Result<&'a mut [u8], CryptoError>;
    }
}

pub mod packet {
    use super::{Bytes, ConnectionId};

    pub struct InitialHeader {
        pub dst_cid: ConnectionId,
        pub token: Bytes,
    }

    #[derive(Debug)]
    pub struct PartialDecode;
}
