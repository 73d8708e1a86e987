//! What the calls leave on the stack, and what `wipe_stack` leaves of it: a thread runs on memory that the test keeps, and that
//! it looks through when the thread has ended.
#![cfg(all(target_os = "linux", target_pointer_width = "64"))]
use castulfrisa::{wipe_stack, Classical, Greeting, Kem, Key, Letter, Method, Own, Server, EXCHANGE, K, KEY_MOST, REPLY, ROOM};
use std::ffi::c_void;
use std::hint::black_box;

const SIZE: usize = 1 << 17;

/// At least as long as pthread_attr_t.
type Attributes = [u64; 16];

extern "C" {
    fn pthread_attr_init(attributes: *mut Attributes) -> i32;
    fn pthread_attr_setstack(attributes: *mut Attributes, at: *mut c_void, len: usize) -> i32;
    fn pthread_create(
        thread: *mut usize, attributes: *const Attributes, run: extern "C" fn(*mut c_void) -> *mut c_void, with: *mut c_void,
    ) -> i32;
    fn pthread_join(thread: usize, value: *mut *mut c_void) -> i32;
}

/// X, kept off the stack: 32 bytes that stand nowhere else.
fn x() -> Vec<u8> {
    (0..32).map(|i: u8| i.wrapping_mul(37) ^ 0xb5).collect()
}

/// All that a run needs, off the stack too.
struct Run {
    x: Vec<u8>,
    init: Vec<u8>,
    exchange: Box<[u8; EXCHANGE]>,
    room: Vec<u8>,
    reply: Vec<u8>,
    k: Box<K>,
    h: Vec<u8>,
    key: Box<Key>,
    what: fn(&mut Run),
}

impl Run {
    /// What must not be found: X, which K is of, H, and a key; the latter two where there was an exchange.
    fn secrets(&self) -> [&[u8]; 3] {
        [&self.x, &self.h, self.key.as_bytes()]
    }
}

/// A server's exchange, all of it, a key, and a beginning again that a cut INIT ends; what lies below this frame is wiped from here, since
/// it reaches furthest so.
#[inline(never)]
fn exchange(run: &mut Run) {
    let greeting = Greeting { vc: b"c", vs: b"s", ic: &[20], is: &[20] };
    let server = Server::start(Method::Curve25519Sha256, greeting, &mut run.exchange, &mut run.room).unwrap();
    let (server, _) = server.read_init(&run.init).unwrap();
    let own = Own { host_key: b"k", s: &[2; 32] };
    let server = server.take_secret(Classical::Given(&run.x), Kem::Absent, own).unwrap();
    let (server, _) = server.sign(b"g", &mut run.reply, &mut run.k).unwrap();
    run.h.extend_from_slice(server.h());
    server.derive(Letter::CipherKeyC2s, KEY_MOST, &mut run.key).unwrap();
    let server = server.again(Method::Curve448Sha512, &[20], &[20]).unwrap();
    assert!(server.session().id() == run.h);
    // a fault, which is told with its place
    assert!(server.read_init(&run.init[..20]).map(|_| ()).unwrap_err().place().is_some());
    wipe_stack();
}

/// Copies of X in a frame that is deeper than what a thread's end writes over.
#[inline(never)]
fn copies_x(run: &mut Run) {
    let mut copies = [[0u8; 32]; 100];
    for copy in &mut copies {
        copy.copy_from_slice(&run.x);
    }
    black_box(&copies);
}

extern "C" fn begin(with: *mut c_void) -> *mut c_void {
    let run = unsafe { &mut *with.cast::<Run>() };
    (run.what)(run);
    std::ptr::null_mut()
}

/// How often eight bytes of a secret stand on the stack after `what` ran on it.
fn left_by(what: fn(&mut Run)) -> usize {
    let mut run = Run {
        x: x(),
        init: [&[30, 0, 0, 0, 32][..], &[1; 32]].concat(),
        exchange: Box::new([0; EXCHANGE]),
        room: vec![0; ROOM],
        reply: vec![0; REPLY],
        k: Box::new(K::new()),
        h: Vec::with_capacity(64),
        key: Box::new(Key::new()),
        what,
    };
    let mut stack = vec![0u64; SIZE / 8];
    unsafe {
        let (mut attributes, mut thread): (Attributes, usize) = ([0; 16], 0);
        assert_eq!(pthread_attr_init(&mut attributes), 0);
        assert_eq!(pthread_attr_setstack(&mut attributes, stack.as_mut_ptr().cast(), SIZE), 0);
        assert_eq!(pthread_create(&mut thread, &attributes, begin, std::ptr::from_mut(&mut run).cast()), 0);
        assert_eq!(pthread_join(thread, std::ptr::null_mut()), 0);
    }
    let bytes: Vec<u8> = stack.iter().flat_map(|word| word.to_ne_bytes()).collect();
    let piece = |eight: &&[u8]| run.secrets().iter().any(|secret| secret.windows(8).any(|piece| piece == *eight));
    // most of it was never touched
    bytes.windows(8).filter(|eight| eight[0] != 0).filter(piece).count()
}

#[test]
fn the_stack_is_wiped_below_the_calls() {
    // it looks where the thread ran
    assert!(left_by(copies_x) > 0);
    fn copies_and_wipes(run: &mut Run) {
        copies_x(run);
        wipe_stack();
    }
    assert_eq!(left_by(copies_and_wipes), 0);
    // the exchange's own frame, where H was moved from stage to stage
    fn exchanges_and_wipes(run: &mut Run) {
        exchange(run);
        wipe_stack();
    }
    assert_eq!(left_by(exchanges_and_wipes), 0);
}
