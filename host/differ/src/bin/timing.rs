//! Times of the compiled core and of the plain implementation: HELP says which. Each is of so many exchanges or keys that the clock's own step does
//! not show; rooms are cleared first.
use castulfrisa::{raw, EXCHANGE, HASH_SIZE, H_SIZE};
use differ::calls::complete;
use differ::command::{words, wrong};
use differ::random::Random;
use differ::stored::bytes_of;
use std::hint::black_box;
use std::process::ExitCode;
use std::time::Instant;

const HELP: &str = "\
usage: timing [core|plain METHOD|choice|key|sha256|sha384|sha512 COUNT]
Without words: the choice that searches longest, SHA-2 over 16 KiB fed in one part, a key of 64 bytes, and from the start through the secret step as
server, H included, all fields at their largest; on the compiled library and on plain Rust in turns, medians of 1,001. With words it does that alone,
so often, and prints nothing, for a counter of instructions; METHOD is 1 to 9.
`make rust-host` makes it: build/cargo/release/timing, and with the library for size build/cargo-small/release/timing; `make measure` runs both. It
takes 4 seconds. Exits 0, 2 where it is called wrongly, 101 where the two do not answer alike.
";

const TURNS: usize = 1001;
const EACH: usize = 16;
const HASHED: usize = 16 * 1024;
const KEY: usize = 64;
const LETTER: u8 = b'C';
const HASHES: [(&str, u8); 3] = [("sha256", 32), ("sha384", 48), ("sha512", 64)];

/// What a run hands back: a count, and H or a digest.
type Done = (usize, [u8; H_SIZE]);

struct Fed {
    method: u8,
    v: Vec<u8>,
    i: Vec<u8>,
    init: Vec<u8>,
    x: Vec<u8>,
    k_pq: Vec<u8>,
    ks: Vec<u8>,
    s: Vec<u8>,
}

fn fed(method: u8) -> Fed {
    let m = plain::method(method).unwrap();
    let value = |len, classical: usize| {
        let mut v = vec![9; len];
        v[classical] = 4;
        v
    };
    let mut i = vec![1; 4096];
    i[0] = 20;
    let c = value(m.c_len, m.c_classical);
    let mut init = vec![30];
    init.extend((c.len() as u32).to_be_bytes());
    init.extend(&c);
    let k_pq = if m.hybrid { vec![7; plain::K_PQ] } else { Vec::new() };
    Fed { method, v: vec![b'v'; 253], i, init, x: vec![0x80; m.x_len], k_pq, ks: vec![5; 2048], s: value(m.s_len, m.s_classical) }
}

fn on_core(f: &Fed, room: &mut [u8]) -> Done {
    let (mut exchange, mut c, mut count, mut h) = ([0; EXCHANGE], raw::Init::default(), 0, [0; H_SIZE]);
    raw::start(&mut exchange, 2, f.method.into(), &f.v, &f.v, &f.i, &f.i, room);
    raw::read_init(&mut exchange, room, &f.init, &mut c);
    let kem = if f.k_pq.is_empty() { 0 } else { 2 };
    raw::take_secret(&mut exchange, room, 1, f.x.len() as u64, &f.x, kem, &f.k_pq, &f.ks, &f.s, &mut count, &mut h);
    (count as usize, h)
}

fn on_plain(f: &Fed, room: &mut [u8]) -> Done {
    let a = plain::start(2, f.method, &f.v, &f.v, &f.i, &f.i, room);
    let a = plain::read_init(a.exchange, room, &f.init);
    let kem = if f.k_pq.is_empty() { plain::Kem::Absent } else { plain::Kem::Done };
    let a = plain::take_secret(a.exchange, room, plain::Classical::Given(f.x.len()), &f.x, kem, &f.k_pq, &f.ks, &f.s);
    (a.count, a.h)
}

fn hash_on_core(kind: u8, message: &[u8]) -> Done {
    let (mut hash, mut digest) = ([0; HASH_SIZE], [0; H_SIZE]);
    raw::hash_start(&mut hash, kind.into());
    raw::hash_feed(&mut hash, message);
    raw::hash_finish(&hash, &mut digest);
    (message.len(), digest)
}

fn hash_on_plain(kind: u8, message: &[u8]) -> Done {
    let (_, mut hash) = plain::hash_start(kind);
    hash.feed(message);
    (message.len(), hash.finish().1)
}

fn one(f: &Fed, room: &mut [u8], run: fn(&Fed, &mut [u8]) -> Done) -> f64 {
    room.fill(0);
    let from = Instant::now();
    for _ in 0..EACH {
        black_box(run(black_box(f), black_box(room)));
    }
    from.elapsed().as_nanos() as f64 / EACH as f64
}

fn median(mut v: Vec<f64>) -> f64 {
    v.sort_by(f64::total_cmp);
    v[v.len() / 2]
}

/// The KEXINIT whose choice searches longest: one method, then one-byte host key names up to 4,096 bytes, only the last one in both.
fn crowded(name: u8) -> Vec<u8> {
    let kex = b"curve25519-sha256";
    let room = 4096 - 62 - kex.len();
    let mut names: Vec<u8> = [name, b','].iter().copied().cycle().take(room - (1 - room % 2)).collect();
    *names.last_mut().unwrap() = b'z';
    let mut v = vec![20];
    v.extend([7; 16]);
    for list in [&kex[..], &names, b"", b"", b"", b"", b"", b"", b"", b""] {
        v.extend((list.len() as u32).to_be_bytes());
        v.extend(list);
    }
    v.extend([0; 5]);
    v
}

fn choices() {
    let (client, server) = (crowded(b'c'), crowded(b's'));
    let mut core = raw::Choice::default();
    let number = raw::choose(&client, &server, &mut core);
    let model = plain::choose(&client, &server);
    assert_eq!((number, core.method, core.host_key.start), (0, 1, model.host_key.start as u64));
    let time = |run: &dyn Fn() -> u64| {
        let from = Instant::now();
        black_box(run());
        from.elapsed().as_nanos() as f64 / 1e6
    };
    let (mut cores, mut models) = (Vec::new(), Vec::new());
    for _ in 0..31 {
        cores.push(time(&|| raw::choose(black_box(&client), black_box(&server), &mut raw::Choice::default())));
        models.push(time(&|| plain::choose(black_box(&client), black_box(&server)).number.into()));
    }
    let (core, model) = (median(cores), median(models));
    println!("the choice that searches longest, {} bytes each: core {:.1} ms, plain Rust {:.1} ms, {:.2} times", client.len(), core, model, core / model);
}

/// Both in turns: the medians, in nanoseconds.
fn in_turns(mut core: impl FnMut() -> f64, mut model: impl FnMut() -> f64) -> (f64, f64) {
    let (cores, models) = (0..TURNS).map(|_| (core(), model())).unzip();
    (median(cores), median(models))
}

fn hashes() {
    let message: Vec<u8> = (0..HASHED).map(|i| (i * 7 + i / 256) as u8).collect();
    for (name, kind) in HASHES {
        assert_eq!(hash_on_core(kind, &message), hash_on_plain(kind, &message));
        let time = |run: fn(u8, &[u8]) -> Done| {
            let message = &message;
            move || {
                let from = Instant::now();
                black_box(run(black_box(kind), black_box(message)));
                from.elapsed().as_nanos() as f64
            }
        };
        let (core, model) = in_turns(time(hash_on_core), time(hash_on_plain));
        println!("{} over {} bytes: core {:.0} ns, plain Rust {:.0} ns, {:.2} times", name, HASHED, core, model, core / model);
    }
}

/// A complete exchange of method 1 with the longest K, the session's first, on either side.
struct Keyed {
    record: plain::Exchange,
    bytes: [u8; EXCHANGE],
}

fn keyed() -> Keyed {
    let mut record = complete(&mut Random::new(1, 1), 1, 1);
    record.k[..4].copy_from_slice(&[0, 0, 0, 33]);
    record.session = plain::Session { id: record.h, id_len: 32, completed: 1 };
    Keyed { bytes: bytes_of(&record), record }
}

fn key_on_core(of: &Keyed) -> [u8; KEY] {
    let mut key = [0; KEY];
    raw::derive(&of.bytes, LETTER.into(), KEY as u64, &mut key);
    key
}

fn key_on_plain(of: &Keyed) -> [u8; KEY] {
    let mut key = [0; KEY];
    plain::derive(&of.record, LETTER, KEY, &mut key);
    key
}

fn keys() {
    let of = keyed();
    assert!(key_on_core(&of) == key_on_plain(&of) && key_on_core(&of) != [0; KEY]);
    let time = |run: fn(&Keyed) -> [u8; KEY]| {
        let of = &of;
        move || {
            let from = Instant::now();
            for _ in 0..EACH {
                black_box(run(black_box(of)));
            }
            from.elapsed().as_nanos() as f64 / EACH as f64
        }
    };
    let (core, model) = in_turns(time(key_on_core), time(key_on_plain));
    println!("method 1: a key of {} bytes; core {:.0} ns, plain Rust {:.0} ns, {:.2} times", KEY, core, model, core / model);
}

/// The work that the words name; false where they name none.
fn counted(words: &[String]) -> bool {
    let [side, what, count] = words else { return false };
    let core = side == "core";
    let Ok(count) = count.parse::<u32>() else { return false };
    if !core && side != "plain" {
        return false;
    }
    if what == "choice" {
        let (client, server) = (crowded(b'c'), crowded(b's'));
        for _ in 0..count {
            let (client, server) = (black_box(&client), black_box(&server));
            black_box(if core { raw::choose(client, server, &mut raw::Choice::default()) } else { plain::choose(client, server).number.into() });
        }
        return true;
    }
    if what == "key" {
        let of = keyed();
        for _ in 0..count {
            black_box(if core { key_on_core(black_box(&of)) } else { key_on_plain(black_box(&of)) });
        }
        return true;
    }
    if let Some((_, kind)) = HASHES.iter().find(|(name, _)| what == name) {
        let message = vec![0x5a; HASHED];
        for _ in 0..count {
            black_box(if core { hash_on_core(*kind, black_box(&message)) } else { hash_on_plain(*kind, black_box(&message)) });
        }
        return true;
    }
    let Some(method) = what.parse().ok().filter(|m| plain::method(*m).is_some()) else { return false };
    let (f, mut room) = (fed(method), vec![0; plain::ROOM]);
    for _ in 0..count {
        black_box(if core { on_core(black_box(&f), black_box(&mut room)) } else { on_plain(black_box(&f), black_box(&mut room)) });
    }
    true
}

fn main() -> ExitCode {
    let words = words(HELP);
    if !words.is_empty() {
        if counted(&words) {
            return ExitCode::SUCCESS;
        }
        return wrong(HELP);
    }
    choices();
    hashes();
    keys();
    let (mut core_room, mut plain_room) = (vec![0; plain::ROOM], vec![0; plain::ROOM]);
    for method in [1, 8] {
        let f = fed(method);
        let done = on_core(&f, &mut core_room);
        assert_eq!(done, on_plain(&f, &mut plain_room));
        assert_eq!(core_room, plain_room);
        let (core, model) = in_turns(|| one(&f, &mut core_room, on_core), || one(&f, &mut plain_room, on_plain));
        let count = done.0;
        println!("method {}: {} bytes hashed; core {:.0} ns, plain Rust {:.0} ns, {:.2} times", method, count, core, model, core / model);
    }
    ExitCode::SUCCESS
}
