//! LoRaWAN 1.0 frames over a proved codec: reading, MIC tests, decryption, session keys, the three builders,
//! amendments to the payload of a frame, and the MAC commands of LoRaWAN 1.0.2.
//!
//! Every call, on any bytes, ends in its result or in a [`Refusal`], which says why and where a frame is bad; a refusal
//! changes no byte that was lent. Nothing here panics. The work is done by the static library of the crate `frame_c`,
//! where each call is proved to answer as the definitions written from FIPS 197, RFC 4493 and LoRaWAN 1.0 say; this
//! crate turns its numbers into types.
//!
//! ```
//! use zinovoky::{decrypt_data_checked, read, AppSKey, Data, DataKind, NwkSKey, Payload, Reading, Refusal};
//!
//! let (nwk_skey, app_skey) = (NwkSKey([2; 16]), AppSKey([1; 16]));
//! let fields = Data {
//!     kind: DataKind::ConfirmedUp,
//!     dev_addr: [4, 3, 2, 1],
//!     fctrl: 0x80,
//!     counter: 76543,
//!     port: Some(42),
//!     commands: &[],
//!     payload: b"hello lora",
//! };
//! let mut frame = fields.build(&nwk_skey, &app_skey)?;
//!
//! decrypt_data_checked(frame.as_mut_bytes(), &nwk_skey, Some(&app_skey), 76543)?;
//! let Reading::Data(data) = read(&frame)? else { panic!("another type") };
//! assert_eq!(data.port(), Some(42));
//! assert_eq!(data.payload(), Payload::Data(b"hello lora"));
//! # Ok::<(), Refusal>(())
//! ```
#![deny(unsafe_code)]

mod accept;
mod building;
mod command_text;
#[allow(unsafe_code)]
mod ffi;
mod holding;
mod keys;
mod maccommands;
mod opening;
mod packed;
mod reading;
mod refusal;

pub use accept::ClearJoinAccept;
pub use building::{Data, Frame, JoinAccept, JoinRequest, MAX_FRAME};
pub use holding::OpenFrame;
pub use keys::{AppKey, AppSKey, NwkSKey, SessionKeys};
pub use maccommands::{read_commands, write_commands, Command, Commands, Direction, ListRefusal, MAX_EIRP_DBM};
pub use opening::{
    amend, data_mic, decrypt_data, decrypt_data_checked, decrypt_join_accept, decrypt_join_accept_checked,
    join_accept_mic, join_request_mic, session_keys, Amendment,
};
pub use reading::{nwk_id, read, DataFields, DataKind, JoinRequestFields, Payload, Reading};
pub use refusal::{Reason, Refusal};

pub type Result<T> = std::result::Result<T, Refusal>;
