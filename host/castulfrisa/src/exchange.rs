//! One exchange as client or server. Every step consumes the exchange and returns the next one:
//!
//! | client | |
//! |---|---|
//! | `Client::start` | `Client<Started>` |
//! | `own_c` | `Client<CSent>`, and INIT |
//! | `read_reply` | `Client<ReplyRead>`, and the parts of REPLY |
//! | `take_secret` | `Client<SecretDone>`, which lends H and the hash input |
//! | `verdict` | `Client<Complete>`; K is written |
//!
//! | server | |
//! |---|---|
//! | `Server::start` | `Server<Started>` |
//! | `read_init` | `Server<InitRead>`, and C |
//! | `take_secret` | `Server<SecretDone>`, which lends H and the hash input |
//! | `sign` | `Server<Complete>`, and REPLY; K is written |
//!
//! A complete exchange, of either role, gives the keys (`derive`): nothing else need be kept for them, not K either. It is no step, and may be asked
//! for each key, and again, until the exchange is dropped or begins again.
//!
//! Rekeying is `again` on a complete exchange, with new KEXINITs: it is at its start again (`Started`), in the same role, exchange bytes and room. At every stage
//! `session` tells the identifier, which is H of the first one that was completed, and how many were.
//!
//! A step that is refused with nothing changed brings the exchange back ([`Stopped::Refused`]); the peer's fault ends it, and
//! there is none any more ([`Stopped::Failed`]). Here a room that is too short is refused, and one that is long enough is lent
//! next:
//!
//! ```
//! use castulfrisa::{Client, Greeting, Method, Refusal, Stopped, EXCHANGE, INIT, ROOM};
//! let greeting = Greeting { vc: b"c", vs: b"s", ic: &[20], is: &[20] };
//! let (mut exchange, mut room) = ([0; EXCHANGE], [0; ROOM]);
//! let short = Client::start(Method::Curve25519Sha256, greeting, &mut exchange, &mut room[1..]);
//! assert_eq!(short.err(), Some(Refusal::ShortRoom));
//!
//! let client = Client::start(Method::Curve25519Sha256, greeting, &mut exchange, &mut room)?;
//! let (mut short, mut long) = ([0; INIT - 1], [0; INIT]);
//! let client = match client.own_c(&[1; 32], &mut short) {
//!     Err(Stopped::Refused { refusal: Refusal::ShortOutput, exchange }) => exchange,
//!     _ => panic!("a short output was taken"),
//! };
//! let (client, init) = client.own_c(&[1; 32], &mut long)?;
//! assert_eq!(init[0], 30);
//! # Ok::<(), Refusal>(())
//! ```
//!
//! Of an INIT or a REPLY that is cut, or goes on behind its last field, [`Stopped::place`] tells where:
//!
//! ```
//! use castulfrisa::{Field, Greeting, Method, Refusal, Server, Stopped, EXCHANGE, ROOM};
//! let greeting = Greeting { vc: b"c", vs: b"s", ic: &[20], is: &[20] };
//! let (mut exchange, mut room) = ([0; EXCHANGE], [0; ROOM]);
//! let server = Server::start(Method::Curve25519Sha256, greeting, &mut exchange, &mut room)?;
//! match server.read_init(&[30, 0, 0, 0, 32, 1, 2, 3]) {
//!     Err(Stopped::Failed(cause)) => {
//!         assert_eq!(cause, Refusal::PastEnd);
//!         assert_eq!(cause.place.map(|place| (place.position, place.field)), Some((1, Some(Field::C))));
//!         assert_eq!(cause.to_string(), "INIT cut at byte 1, in C (12)");
//!     }
//!     _ => panic!("a cut INIT was taken"),
//! }
//! # Ok::<(), Refusal>(())
//! ```
//!
//! What follows does not compile. A server's step on a client:
//!
//! ```compile_fail,E0599
//! # use castulfrisa::{Client, Greeting, Method, EXCHANGE, INIT, ROOM};
//! # let greeting = Greeting { vc: b"c", vs: b"s", ic: &[20], is: &[20] };
//! # let (mut exchange, mut room) = ([0; EXCHANGE], [0; ROOM]);
//! let client = Client::start(Method::Curve25519Sha256, greeting, &mut exchange, &mut room).unwrap();
//! client.read_init(&[30]);
//! ```
//!
//! A step out of order:
//!
//! ```compile_fail,E0599
//! # use castulfrisa::{Client, Greeting, Method, EXCHANGE, INIT, ROOM};
//! # let greeting = Greeting { vc: b"c", vs: b"s", ic: &[20], is: &[20] };
//! # let (mut exchange, mut room) = ([0; EXCHANGE], [0; ROOM]);
//! let client = Client::start(Method::Curve25519Sha256, greeting, &mut exchange, &mut room).unwrap();
//! client.read_reply(&[31]);
//! ```
//!
//! A key before the exchange is complete:
//!
//! ```compile_fail,E0599
//! # use castulfrisa::{Client, Greeting, Key, Letter, Method, EXCHANGE, INIT, ROOM};
//! # let greeting = Greeting { vc: b"c", vs: b"s", ic: &[20], is: &[20] };
//! # let (mut exchange, mut room) = ([0; EXCHANGE], [0; ROOM]);
//! let client = Client::start(Method::Curve25519Sha256, greeting, &mut exchange, &mut room).unwrap();
//! client.derive(Letter::IvC2s, 16, &mut Key::new());
//! ```
//!
//! A beginning again before the exchange is complete:
//!
//! ```compile_fail,E0599
//! # use castulfrisa::{Client, Greeting, Method, EXCHANGE, INIT, ROOM};
//! # let greeting = Greeting { vc: b"c", vs: b"s", ic: &[20], is: &[20] };
//! # let (mut exchange, mut room) = ([0; EXCHANGE], [0; ROOM]);
//! let client = Client::start(Method::Curve25519Sha256, greeting, &mut exchange, &mut room).unwrap();
//! client.again(Method::Curve25519Sha256, &[20], &[20]);
//! ```
//!
//! A second use of an exchange that a step consumed:
//!
//! ```compile_fail,E0382
//! # use castulfrisa::{Client, Greeting, Method, EXCHANGE, INIT, ROOM};
//! # let greeting = Greeting { vc: b"c", vs: b"s", ic: &[20], is: &[20] };
//! # let (mut exchange, mut room) = ([0; EXCHANGE], [0; ROOM]);
//! let client = Client::start(Method::Curve25519Sha256, greeting, &mut exchange, &mut room).unwrap();
//! let (mut init, mut again) = ([0; INIT], [0; INIT]);
//! client.own_c(&[1; 32], &mut init);
//! client.own_c(&[1; 32], &mut again);
//! ```
//!
//! A copy of an exchange, which would still stand where the exchange has failed:
//!
//! ```compile_fail,E0599
//! # use castulfrisa::{Client, Greeting, Method, EXCHANGE, INIT, ROOM};
//! # let greeting = Greeting { vc: b"c", vs: b"s", ic: &[20], is: &[20] };
//! # let (mut exchange, mut room) = ([0; EXCHANGE], [0; ROOM]);
//! let client = Client::start(Method::Curve25519Sha256, greeting, &mut exchange, &mut room).unwrap();
//! let copy = client.clone();
//! ```
//!
//! A look into the exchange's bytes while it lives:
//!
//! ```compile_fail,E0503
//! # use castulfrisa::{Client, Greeting, Method, EXCHANGE, INIT, ROOM};
//! # let greeting = Greeting { vc: b"c", vs: b"s", ic: &[20], is: &[20] };
//! # let (mut exchange, mut room) = ([0; EXCHANGE], [0; ROOM]);
//! let client = Client::start(Method::Curve25519Sha256, greeting, &mut exchange, &mut room).unwrap();
//! let stage = exchange[1];
//! drop(client);
//! ```
//!
//! But this does, with the same beginning:
//!
//! ```
//! # use castulfrisa::{Client, Greeting, Method, EXCHANGE, INIT, ROOM};
//! # let greeting = Greeting { vc: b"c", vs: b"s", ic: &[20], is: &[20] };
//! # let (mut exchange, mut room) = ([0; EXCHANGE], [0; ROOM]);
//! let client = Client::start(Method::Curve25519Sha256, greeting, &mut exchange, &mut room).unwrap();
//! let mut init = [0; INIT];
//! let client = client.own_c(&[1; 32], &mut init).unwrap().0;
//! drop(client.read_reply(&[31]));
//! let stage = exchange[1];
//! ```
use crate::raw::{self, Progress};
use crate::refusal::{judged, read, Cause, Refusal};
use crate::{bytes, same_version, Key, Letter, Method, Place, EXCHANGE, H_SIZE};
use core::fmt;
use core::marker::PhantomData;

/// Which side this host is.
#[derive(Clone, Copy, Debug, PartialEq, Eq)]
pub enum Role {
    Client = 1,
    Server = 2,
}

/// A role as a type.
pub trait Side {
    const ROLE: Role;
}

/// The client's role.
#[derive(Debug)]
pub enum AsClient {}

/// The server's.
#[derive(Debug)]
pub enum AsServer {}

impl Side for AsClient {
    const ROLE: Role = Role::Client;
}

impl Side for AsServer {
    const ROLE: Role = Role::Server;
}

/// V_C, V_S, I_C and I_S are in the room.
#[derive(Debug)]
pub struct Started(());

/// The client's own C went out.
#[derive(Debug)]
pub struct CSent(());

/// C came in at the server.
#[derive(Debug)]
pub struct InitRead(());

/// K_S and S came in at the client.
#[derive(Debug)]
pub struct ReplyRead(());

/// K is known, and the hash input is whole and hashed.
#[derive(Debug)]
pub struct SecretDone {
    hashed: Hashed,
}

/// Every step of the role was accepted.
#[derive(Debug)]
pub struct Complete {
    hashed: Hashed,
}

/// How many bytes of the room were hashed, and H with the number of its bytes.
#[derive(Clone, Copy, Debug)]
struct Hashed {
    input: usize,
    h: [u8; H_SIZE],
    h_len: usize,
}

impl Hashed {
    fn h(&self) -> &[u8] {
        &self.h[..self.h_len]
    }
}

/// What both sides sent ahead of the exchange: their version lines without CR and LF, and their KEXINIT payloads.
#[derive(Clone, Copy, Debug, PartialEq, Eq)]
pub struct Greeting<'a> {
    pub vc: &'a [u8],
    pub vs: &'a [u8],
    pub ic: &'a [u8],
    pub is: &'a [u8],
}

/// What the classical primitive gave: X with all its bytes, none dropped and none added.
#[derive(Clone, Copy)]
pub enum Classical<'a> {
    Failed,
    Given(&'a [u8]),
}

impl fmt::Debug for Classical<'_> {
    // without X
    fn fmt(&self, f: &mut fmt::Formatter<'_>) -> fmt::Result {
        match self {
            Classical::Failed => f.write_str("Failed"),
            Classical::Given(x) => write!(f, "Given({} bytes)", x.len()),
        }
    }
}

/// What the KEM gave: absent in methods 1 to 6, else K_PQ, whatever the classical primitive gave.
#[derive(Clone, Copy)]
pub enum Kem<'a> {
    Absent,
    Failed,
    Done(&'a [u8]),
}

impl<'a> Kem<'a> {
    /// The core's number, and K_PQ.
    fn told(self) -> (u64, &'a [u8]) {
        match self {
            Kem::Absent => (0, &[]),
            Kem::Failed => (1, &[]),
            Kem::Done(k_pq) => (2, k_pq),
        }
    }

    pub fn number(self) -> u64 {
        self.told().0
    }
}

impl fmt::Debug for Kem<'_> {
    // without K_PQ
    fn fmt(&self, f: &mut fmt::Formatter<'_>) -> fmt::Result {
        match self {
            Kem::Absent => f.write_str("Absent"),
            Kem::Failed => f.write_str("Failed"),
            Kem::Done(k_pq) => write!(f, "Done({} bytes)", k_pq.len()),
        }
    }
}

/// A server's host key blob and own public value.
#[derive(Clone, Copy, Debug, PartialEq, Eq)]
pub struct Own<'a> {
    pub host_key: &'a [u8],
    pub s: &'a [u8],
}

/// What a REPLY holds.
#[derive(Clone, Copy, Debug, PartialEq, Eq)]
pub struct Reply<'a> {
    pub host_key: &'a [u8],
    pub s: &'a [u8],
    pub signature: &'a [u8],
}

/// The shared secret as it is hashed, and as keys are derived from it: a complete exchange does that by itself, without it. It is lent to the last
/// step, which writes it where it stands, and wipes itself when it is dropped. A move of it leaves its bytes where it stood: hand it over where it is to stay.
///
/// ```compile_fail,E0599
/// let k = castulfrisa::K::new();
/// let copy = k.clone();
/// ```
pub struct K {
    record: [u8; K::SIZE],
    len: usize,
}

impl K {
    /// The bytes that the longest K has, its four length bytes included.
    pub const SIZE: usize = 71;

    /// A place for K: none so far.
    pub const fn new() -> K {
        K { record: [0; K::SIZE], len: 0 }
    }

    /// K with its four length bytes; nothing before a last step wrote it.
    pub fn as_bytes(&self) -> &[u8] {
        &self.record[..self.len]
    }
}

impl Default for K {
    fn default() -> K {
        K::new()
    }
}

impl fmt::Debug for K {
    // without a byte of it, and without its length, which tells of leading zeros
    fn fmt(&self, f: &mut fmt::Formatter<'_>) -> fmt::Result {
        f.debug_struct("K").finish_non_exhaustive()
    }
}

impl Drop for K {
    fn drop(&mut self) {
        raw::wipe(&mut self.record);
    }
}

/// What an exchange keeps of its whole session, over all beginnings again.
#[derive(Clone, Copy, PartialEq, Eq)]
pub struct Session {
    id: [u8; H_SIZE],
    told: raw::Session,
}

impl Session {
    /// The session identifier: H of the first exchange that was completed, of the bytes that its digest has; none until then.
    pub fn id(&self) -> &[u8] {
        &self.id[..self.told.id_len as usize]
    }

    /// How many exchanges were completed.
    pub fn completed(&self) -> u64 {
        self.told.completed
    }
}

impl fmt::Debug for Session {
    // without the identifier, which is an H
    fn fmt(&self, f: &mut fmt::Formatter<'_>) -> fmt::Result {
        f.debug_struct("Session").field("completed", &self.completed()).finish_non_exhaustive()
    }
}

/// What an exchange was lent: both hold K from the secret step on, and both are wiped when it ends, however it ends. Lent, so
/// that an exchange can be moved without a copy of K being left where it was.
struct Lent<'r> {
    exchange: &'r mut [u8; EXCHANGE],
    room: &'r mut [u8],
}

impl Drop for Lent<'_> {
    fn drop(&mut self) {
        raw::wipe(self.exchange);
        raw::wipe(self.room);
    }
}

/// One exchange in role `R` at stage `S`. What it was lent is zeros again when it is dropped.
pub struct Exchange<'r, R, S> {
    lent: Lent<'r>,
    stage: S,
    role: PhantomData<R>,
}

/// An exchange as client.
pub type Client<'r, S> = Exchange<'r, AsClient, S>;

/// An exchange as server.
pub type Server<'r, S> = Exchange<'r, AsServer, S>;

impl<R, S> fmt::Debug for Exchange<'_, R, S> {
    // without K, and without the room
    fn fmt(&self, f: &mut fmt::Formatter<'_>) -> fmt::Result {
        let told = self.told();
        let mut shown = f.debug_struct("Exchange");
        shown.field("role", &told.role).field("method", &told.method).field("stage", &told.stage).finish_non_exhaustive()
    }
}

/// Why a step did not lead on; `E` is the exchange that it was called on.
pub enum Stopped<E> {
    /// Nothing changed, and the exchange comes back: the call may be made again, with more lent or with other inputs.
    Refused { refusal: Refusal, exchange: E },
    /// The peer's fault, with the place where its INIT or REPLY breaks. The exchange was wiped, and ended for good.
    Failed(Cause),
}

impl<E> Stopped<E> {
    pub fn refusal(&self) -> Refusal {
        self.cause().refusal
    }

    /// Where an INIT or a REPLY breaks.
    pub fn place(&self) -> Option<Place> {
        self.cause().place
    }

    fn cause(&self) -> Cause {
        match self {
            Stopped::Refused { refusal, .. } => (*refusal).into(),
            Stopped::Failed(cause) => *cause,
        }
    }
}

impl<E> From<Stopped<E>> for Cause {
    /// Gives the exchange up where there still is one.
    fn from(stopped: Stopped<E>) -> Cause {
        stopped.cause()
    }
}

impl<E> From<Stopped<E>> for Refusal {
    /// Gives the exchange up where there still is one, and the place.
    fn from(stopped: Stopped<E>) -> Refusal {
        stopped.refusal()
    }
}

impl<E> fmt::Debug for Stopped<E> {
    fn fmt(&self, f: &mut fmt::Formatter<'_>) -> fmt::Result {
        match self {
            Stopped::Refused { refusal, .. } => f.debug_struct("Refused").field("refusal", refusal).finish_non_exhaustive(),
            Stopped::Failed(cause) => f.debug_tuple("Failed").field(cause).finish(),
        }
    }
}

impl<E> fmt::Display for Stopped<E> {
    fn fmt(&self, f: &mut fmt::Formatter<'_>) -> fmt::Result {
        self.cause().fmt(f)
    }
}

impl<E> core::error::Error for Stopped<E> {}

impl<'r, R, S> Exchange<'r, R, S> {
    fn told(&self) -> Progress {
        let mut told = Progress::default();
        // 0: the bytes are an exchange's as long as it lives
        let _ = raw::state(self.lent.exchange, &mut told);
        told
    }

    /// A step's number: the exchange at its next stage, or what stopped it.
    fn after<T>(self, number: u64, stage: T) -> Result<Exchange<'r, R, T>, Stopped<Self>> {
        self.judged(judged(number).map_err(Cause::from), stage)
    }

    fn judged<T>(self, told: Result<(), Cause>, stage: T) -> Result<Exchange<'r, R, T>, Stopped<Self>> {
        match told {
            Ok(()) => Ok(Exchange { lent: self.lent, stage, role: PhantomData }),
            Err(cause) if cause.refusal.ends_exchange() => Err(Stopped::Failed(cause)),
            Err(Cause { refusal, .. }) => Err(Stopped::Refused { refusal, exchange: self }),
        }
    }

    fn secret(
        mut self, classical: Classical<'_>, kem: Kem<'_>, own: Own<'_>,
    ) -> Result<Exchange<'r, R, SecretDone>, Stopped<Self>> {
        let (given, x) = match classical {
            Classical::Failed => (0, &[][..]),
            Classical::Given(x) => (1, x),
        };
        let (kem, k_pq) = kem.told();
        let (mut sizes, mut input, mut h) = (raw::Sizes::default(), 0, [0; H_SIZE]);
        // 0: an exchange that lives has a method
        let _ = raw::method_sizes(self.told().method, &mut sizes);
        let Lent { exchange, room } = &mut self.lent;
        let number = raw::take_secret(
            *exchange, room, given, x.len() as u64, x, kem, k_pq, own.host_key, own.s, &mut input, &mut h,
        );
        let hashed = Hashed { input: input as usize, h, h_len: sizes.digest_len as usize };
        self.after(number, SecretDone { hashed })
    }
}

impl<R: Side, S> Exchange<'_, R, S> {
    pub fn role(&self) -> Role {
        R::ROLE
    }

    /// The session identifier, and how many exchanges were completed, at any stage.
    pub fn session(&self) -> Session {
        let mut session = Session { id: [0; H_SIZE], told: raw::Session::default() };
        // 0: an exchange that lives has an identifier that goes with its count
        let _ = raw::session_id(self.lent.exchange, &mut session.told, &mut session.id);
        session
    }
}

impl<'r, R: Side> Exchange<'r, R, Started> {
    /// Starts an exchange in bytes that may hold anything; the greeting goes into the room, which is of `ROOM` bytes or more.
    /// Where it is refused the room stays as it was.
    ///
    /// # Panics
    ///
    /// Where the archive that was linked is of another version than this crate (`same_version`).
    pub fn start(
        method: Method, greeting: Greeting<'_>, exchange: &'r mut [u8; EXCHANGE], room: &'r mut [u8],
    ) -> Result<Self, Refusal> {
        assert!(same_version(), "the library is of another version than this crate");
        let Greeting { vc, vs, ic, is } = greeting;
        judged(raw::start(exchange, R::ROLE as u64, method.number(), vc, vs, ic, is, room))?;
        Ok(Exchange { lent: Lent { exchange, room }, stage: Started(()), role: PhantomData })
    }
}

impl<'r> Client<'r, Started> {
    /// Own C. INIT is written at the beginning of `out`, which is of `INIT` bytes or more, and lent back.
    pub fn own_c<'o>(mut self, c: &[u8], out: &'o mut [u8]) -> Result<(Client<'r, CSent>, &'o [u8]), Stopped<Self>> {
        let Lent { exchange, room } = &mut self.lent;
        let mut count = 0;
        let number = raw::own_c(*exchange, room, c, out, &mut count);
        let next = self.after(number, CSent(()))?;
        Ok((next, &out[..count as usize]))
    }
}

impl<'r> Client<'r, CSent> {
    /// REPLY read: K_S, S and the signature.
    pub fn read_reply(mut self, payload: &[u8]) -> Result<(Client<'r, ReplyRead>, Reply<'_>), Stopped<Self>> {
        let Lent { exchange, room } = &mut self.lent;
        let mut parts = raw::Reply::default();
        let number = raw::read_reply(*exchange, room, payload, &mut parts);
        let raw::Reply { host_key, s, signature, position } = parts;
        let next = self.judged(read(number, payload, position), ReplyRead(()))?;
        Ok((next, Reply { host_key: bytes(payload, host_key), s: bytes(payload, s), signature: bytes(payload, signature) }))
    }
}

impl<'r> Client<'r, ReplyRead> {
    /// What the primitives gave.
    pub fn take_secret(self, classical: Classical<'_>, kem: Kem<'_>) -> Result<Client<'r, SecretDone>, Stopped<Self>> {
        self.secret(classical, kem, Own { host_key: &[], s: &[] })
    }
}

impl<'r> Client<'r, SecretDone> {
    /// Last: whether the signature over the exchange hash verified, and whether the host key is accepted. K is written.
    pub fn verdict(mut self, signature: bool, host_key: bool, k: &mut K) -> Result<Client<'r, Complete>, Stopped<Self>> {
        let Lent { exchange, room } = &mut self.lent;
        let mut count = 0;
        let number = raw::verdict(*exchange, room, signature as u64, host_key as u64, &mut k.record, &mut count);
        let hashed = self.stage.hashed;
        let next = self.after(number, Complete { hashed })?;
        k.len = count as usize;
        Ok(next)
    }
}

impl<'r> Server<'r, Started> {
    /// INIT read: C.
    pub fn read_init(mut self, payload: &[u8]) -> Result<(Server<'r, InitRead>, &[u8]), Stopped<Self>> {
        let Lent { exchange, room } = &mut self.lent;
        let mut told = raw::Init::default();
        let number = raw::read_init(*exchange, room, payload, &mut told);
        let next = self.judged(read(number, payload, told.position), InitRead(()))?;
        Ok((next, bytes(payload, told.c)))
    }
}

impl<'r> Server<'r, InitRead> {
    /// What the primitives gave, as at the client, with the server's own values.
    pub fn take_secret(
        self, classical: Classical<'_>, kem: Kem<'_>, own: Own<'_>,
    ) -> Result<Server<'r, SecretDone>, Stopped<Self>> {
        self.secret(classical, kem, own)
    }
}

impl<'r> Server<'r, SecretDone> {
    /// Last: the signature over the exchange hash. REPLY is written at the beginning of `out`, which is of `REPLY` bytes or more,
    /// and lent back; K is written.
    pub fn sign<'o>(
        mut self, signature: &[u8], out: &'o mut [u8], k: &mut K,
    ) -> Result<(Server<'r, Complete>, &'o [u8]), Stopped<Self>> {
        let Lent { exchange, room } = &mut self.lent;
        let mut counts = raw::Signed::default();
        let number = raw::sign(*exchange, room, signature, out, &mut k.record, &mut counts);
        let hashed = self.stage.hashed;
        let next = self.after(number, Complete { hashed })?;
        k.len = counts.k as usize;
        Ok((next, &out[..counts.reply as usize]))
    }
}

impl<R> Exchange<'_, R, SecretDone> {
    /// H, the exchange hash: what is signed and verified.
    pub fn h(&self) -> &[u8] {
        self.stage.hashed.h()
    }

    /// What H is the hash of. K is its end.
    pub fn hash_input(&self) -> &[u8] {
        &self.lent.room[..self.stage.hashed.input]
    }
}

impl<'r, R> Exchange<'r, R, Complete> {
    /// Begins again, to rekey: in the same role, in any method, with new I_C and I_S behind the version lines that stand in the room. K and H
    /// are gone then, and keys with them: derive first. The last exchange's K stays in the room until it is written over, or wiped
    /// (`wipe_room`).
    pub fn again(mut self, method: Method, ic: &[u8], is: &[u8]) -> Result<Exchange<'r, R, Started>, Stopped<Self>> {
        let Lent { exchange, room } = &mut self.lent;
        let number = raw::again(*exchange, room, method.number(), ic, is);
        self.after(number, Started(()))
    }
}

impl<R> Exchange<'_, R, Complete> {
    /// Wipes the room behind the version lines, K among it: keys and a beginning again need none of it. The hash input is gone then.
    pub fn wipe_room(&mut self) {
        // each stands behind its four length bytes
        let behind = |room: &[u8], at: usize| at + 4 + room[at..at + 4].iter().fold(0, |n, b| n * 256 + *b as usize);
        let versions = behind(self.lent.room, behind(self.lent.room, 0));
        raw::wipe(&mut self.lent.room[versions..]);
    }

    /// A key of so many bytes, 1 to `KEY_MOST`, by RFC 4253, section 7.2, with the session identifier that the exchange holds. It is written into
    /// `key`. Fewer bytes are a beginning of what more would be.
    pub fn derive(&self, letter: Letter, length: usize, key: &mut Key) -> Result<(), Refusal> {
        judged(key.derived(self.lent.exchange, letter, length))
    }

    /// H, the exchange hash; of a session's first exchange it is the session identifier.
    pub fn h(&self) -> &[u8] {
        self.stage.hashed.h()
    }

    /// What H is the hash of. K is its end.
    pub fn hash_input(&self) -> &[u8] {
        &self.lent.room[..self.stage.hashed.input]
    }
}

#[cfg(test)]
mod tests {
    use super::*;
    use crate::{Method, INIT, ROOM};

    /// A complete exchange's room that was wiped holds both version lines, and no K; what begins again in it is as ever.
    #[test]
    fn wiped_room() {
        let greeting = Greeting { vc: b"c", vs: b"s", ic: &[20], is: &[20] };
        let (mut exchange, mut room) = ([0; EXCHANGE], [0xa5; ROOM]);
        let client = Client::start(Method::Curve25519Sha256, greeting, &mut exchange, &mut room).unwrap();
        let client = client.own_c(&[1; 32], &mut [0; INIT]).unwrap().0;
        // K_S, S and signature of 1, 32 and 1 bytes
        let mut reply = [1; 1 + 5 + 36 + 5];
        (reply[0], reply[9]) = (31, 32);
        for zero in [1, 2, 3, 6, 7, 8, 42, 43, 44] {
            reply[zero] = 0;
        }
        let client = client.read_reply(&reply).unwrap().0;
        let client = client.take_secret(Classical::Given(&[1; 32]), Kem::Absent).unwrap();
        let mut client = client.verdict(true, true, &mut K::new()).unwrap();
        client.wipe_room();
        let (versions, rest) = client.lent.room.split_at(10);
        assert_eq!(versions, b"\0\0\0\x01c\0\0\0\x01s");
        assert!(rest.iter().all(|b| *b == 0));
        let client = client.again(Method::Curve25519Sha256, &[20, 1], &[20, 2]).unwrap();
        assert!(client.lent.room.starts_with(b"\0\0\0\x01c\0\0\0\x01s\0\0\0\x02\x14\x01\0\0\0\x02\x14\x02"));
    }
}
