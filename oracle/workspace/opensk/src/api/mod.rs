// Shim. OpenSK's api/mod.rs is not among the sources. The four files named here are real. The
// traits below have no methods: Env names them, the transport calls none of them, and the real
// ones need crates that are not at hand.
pub mod clock;
pub mod connection;
pub mod customization;
pub mod user_presence;

pub mod crypto {
    pub trait Crypto {
        type Aes256;
        type Ecdh: ecdh::Ecdh;
        type Ecdsa: ec_signing::Ecdsa;
        type Sha256;
        type Hmac256;
        type Hkdf256;
    }

    pub mod ec_signing {
        pub trait Ecdsa {
            type SecretKey;
            type PublicKey;
            type Signature;
        }
    }

    pub mod ecdh {
        pub trait Ecdh {
            type SecretKey;
            type PublicKey;
        }
    }
}

pub mod key_store {
    pub trait KeyStore {}

    pub struct Error;
}

pub mod persist {
    pub trait Persist {}
}

pub mod rng {
    pub trait Rng {}
}
