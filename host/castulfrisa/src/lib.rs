//! Safe calls into the key-exchange core of SSH: strings and mpints, KEXINIT, the choice of a method, and one exchange as client or
//! server, with the keys that come of it. The core computes no curve, KEM or signature: the host does, and hands in what came out. It
//! hashes with its own SHA-2.
//!
//! A refusal is an `Err` with the one cause that the core found first and, where an INIT, a REPLY or a KEXINIT is cut or goes on behind its
//! last field, with the place. An exchange is a type for each role and stage: a step consumes it and returns the next, so that a step of
//! the other role, one out of order and a second use do not compile. Nothing here allocates.
//!
//! ```
//! use castulfrisa::{choose, write_kexinit, Classical, Client, Greeting, Kem, Refusal, Server, K, EXCHANGE, INIT, REPLY, ROOM};
//! use castulfrisa::{Key, Letter, Method, Own};
//!
//! let mut mine = [0; 4096];
//! let lists: [&[u8]; 10] = [b"curve25519-sha256", b"ssh-ed25519", b"", b"", b"", b"", b"", b"", b"", b""];
//! let n = write_kexinit(&mut mine, &[7; 16], &lists, false, 0)?;
//! let choice = choose(&mine[..n], &mine[..n])?;
//! assert_eq!((choice.method, choice.host_key), (Method::Curve25519Sha256, &b"ssh-ed25519"[..]));
//!
//! // a client and a server in one program; the primitives' outputs are made up
//! let greeting = Greeting { vc: b"SSH-2.0-c", vs: b"SSH-2.0-s", ic: &mine[..n], is: &mine[..n] };
//! let (mut client_exchange, mut client_room) = ([0; EXCHANGE], [0; ROOM]);
//! let (mut server_exchange, mut server_room) = ([0; EXCHANGE], [0; ROOM]);
//! let client = Client::start(choice.method, greeting, &mut client_exchange, &mut client_room)?;
//! let server = Server::start(choice.method, greeting, &mut server_exchange, &mut server_room)?;
//!
//! let (mut init, mut reply) = ([0; INIT], [0; REPLY]);
//! let (mut client_k, mut server_k) = (K::new(), K::new());
//! let (client, init) = client.own_c(&[1; 32], &mut init)?;
//! let (server, c) = server.read_init(init)?;
//! assert_eq!(c, [1; 32]);
//! let own = Own { host_key: b"host key", s: &[2; 32] };
//! let server = server.take_secret(Classical::Given(&[3; 32]), Kem::Absent, own)?;
//! let (server, reply) = server.sign(b"signature over H", &mut reply, &mut server_k)?;
//! let (client, parts) = client.read_reply(reply)?;
//! assert_eq!((parts.host_key, parts.s, parts.signature), (&b"host key"[..], &[2; 32][..], &b"signature over H"[..]));
//! let client = client.take_secret(Classical::Given(&[3; 32]), Kem::Absent)?;
//! assert_eq!(client.h(), server.h()); // what is signed, and verified
//! let client = client.verdict(true, true, &mut client_k)?;
//! assert_eq!(client_k.as_bytes(), server_k.as_bytes());
//!
//! // each of the six keys, as long as its cipher or MAC wants it
//! let (mut sends, mut receives) = (Key::new(), Key::new());
//! client.derive(Letter::CipherKeyC2s, 32, &mut sends)?;
//! server.derive(Letter::CipherKeyC2s, 32, &mut receives)?;
//! assert_eq!(sends.as_bytes(), receives.as_bytes());
//!
//! // rekeying: the same exchange begins again, with new KEXINITs and any method; the session identifier is the first one's H
//! let id = server.session();
//! assert_eq!(id.id(), server.h());
//! let server = server.again(Method::Curve448Sha512, &mine[..n], &mine[..n])?;
//! assert_eq!((server.session().id(), server.session().completed()), (id.id(), 1));
//!
//! // what an exchange was lent is zeros again once it is dropped
//! drop(server);
//! assert!(server_exchange.iter().chain(&server_room).all(|byte| *byte == 0));
//! # Ok::<(), Refusal>(())
//! ```
#![no_std]
#![deny(missing_debug_implementations)]

pub mod exchange;
mod hash;
mod kexinit;
mod keys;
mod method;
mod place;
pub mod raw;
mod refusal;
mod wire;

pub use exchange::{Classical, Client, Greeting, Kem, Own, Reply, Role, Server, Session, Stopped, K};
pub use hash::{Hash, Kind};
pub use kexinit::{choose, open_list, write_kexinit, Choice, Kexinit, List, Names, NotWritten};
pub use keys::{Key, Letter};
pub use method::{Method, Name, Sizes};
pub use place::{Field, Message, Place};
pub use refusal::{Cause, Refusal};
pub use wire::{read_mpint, read_string, write_mpint, write_string, Mpint};

/// The version of the header that this crate was written to.
pub const VERSION: u64 = 6;

/// The bytes of an exchange.
pub const EXCHANGE: usize = 228;
/// The room that an exchange needs, in bytes.
pub const ROOM: usize = 14_156;
/// The least output for INIT.
pub const INIT: usize = 1_670;
/// The least output for REPLY.
pub const REPLY: usize = 5_774;
/// The longest V_C and V_S.
pub const V_MOST: usize = 253;
/// The longest KEXINIT.
pub const KEXINIT_MOST: usize = 4_096;
/// The longest host key and signature.
pub const BLOB_MOST: usize = 2_048;
/// The longest INIT and REPLY that are read.
pub const PAYLOAD_MOST: usize = 32_768;
/// The longest C and S of any method.
pub const VALUE_MOST: usize = 1_665;
/// The longest X of any method.
pub const X_MOST: usize = 66;
/// The KEM's output K_PQ.
pub const K_PQ_SIZE: usize = 32;
/// H and a digest, zeros after the digest's own bytes.
pub const H_SIZE: usize = 64;
/// The longest key.
pub const KEY_MOST: usize = 128;
/// The bytes of a hash.
pub const HASH_SIZE: usize = 209;
/// What one hash is fed in all.
pub const HASH_MOST: usize = 65_536;
/// A KEXINIT's cookie.
pub const COOKIE: usize = 16;
/// How many lists a KEXINIT has.
pub const LISTS: usize = 10;
/// The longest name of a method.
pub const METHOD_NAME_MOST: usize = 28;
/// What `wipe_stack` wipes: no call of the core reaches as far.
pub const STACK: usize = 4_096;

/// Whether the archive that was linked is of this crate's day: ask once, ahead of all else. Sizes and entries of another one
/// differ, and starting an exchange with it panics.
pub fn same_version() -> bool {
    raw::version() == VERSION
}

/// Overwrites the stack below the caller's frame, as far as any call of the core reaches: K, K_PQ, X and keys stay there in copies that a
/// compiler made. To be called from the function that made the calls, once the keys are derived.
#[inline(never)]
pub fn wipe_stack() {
    let mut below = [0u64; STACK / 8];
    for word in &mut below {
        // a plain store to memory that dies is one that a compiler may leave out
        unsafe { core::ptr::write_volatile(word, 0) };
    }
}

fn bytes(s: &[u8], p: raw::Part) -> &[u8] {
    &s[p.start as usize..(p.start + p.len) as usize]
}
