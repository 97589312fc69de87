//! Keys: 16 bytes each, told apart by type. None shows its bytes when it is printed.

use std::fmt;

macro_rules! key {
    ($(#[$doc:meta])* $name:ident) => {
        $(#[$doc])*
        #[derive(Clone, Copy, PartialEq, Eq)]
        pub struct $name(pub [u8; 16]);

        impl From<[u8; 16]> for $name {
            fn from(bytes: [u8; 16]) -> Self {
                Self(bytes)
            }
        }

        impl fmt::Debug for $name {
            fn fmt(&self, f: &mut fmt::Formatter) -> fmt::Result {
                f.write_str(concat!(stringify!($name), "(..)"))
            }
        }
    };
}

key! {
    /// The key that a device and its network share ahead of joining.
    AppKey
}
key! {
    /// The network session key: MICs, and payloads on port 0.
    NwkSKey
}
key! {
    /// The application session key: payloads on the other ports.
    AppSKey
}

/// The two keys of a session.
#[derive(Clone, Copy, Debug, PartialEq, Eq)]
pub struct SessionKeys {
    pub nwk_skey: NwkSKey,
    pub app_skey: AppSKey,
}
