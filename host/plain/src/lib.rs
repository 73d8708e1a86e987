//! The specification in plain Rust: a second implementation, to hold another one against.
//!
//! Everything works on lent slices: nothing is allocated, and nothing panics whatever is handed in. The files
//! stand in the specification's order.

#![cfg_attr(not(test), no_std)]
#![forbid(unsafe_code)]

mod choice;
mod exchange;
mod kexinit;
mod keys;
mod methods;
mod sha2;
mod wire;

pub use choice::{choose, Choice};
pub use exchange::{
    again, init_c, own_c, read_init, read_reply, reply_parts, sign, start, take_secret, verdict, Answer, Classical,
    Exchange, Kem, Session, Stage, COMPLETED_MOST, H, INIT_OUT, K_PQ, K_RECORD, REPLY_OUT, ROOM,
};
pub use kexinit::{list_is_good, next_name, open_list, write_kexinit, Cursor, Next, Opened};
pub use keys::{derive, key_of, KEY_MOST};
pub use methods::{method, method_number, Method};
pub use sha2::{hash_start, Hash, DIGEST, HASH_BYTES, HASH_MOST};
pub use wire::{read_mpint, read_string, write_mpint, write_string, MpintRead, Part, StringRead, Written};
