//! Every captured exchange through the boundary: HELP says how. Of the primitives' outputs X and K_PQ alone are handed in.
use castulfrisa::{choose, open_list, raw, same_version, write_kexinit, EXCHANGE, H_SIZE, INIT, REPLY, ROOM};
use castulfrisa::{Classical, Client, Greeting, Kem, Key, Letter, List, Method, Own, Refusal, Role, Server, Stopped, K, KEY_MOST};
use differ::captured::{self, Capture};
use differ::command::{words, wrong};
use differ::lists::PartEntry;
use differ::stored::bytes_of;
use plain::Stage;
use std::process::ExitCode;

const HELP: &str = "\
usage: captures [FOLDER]      (tests/captures where none is named)
Every captured exchange of a folder through the library: both KEXINITs read and written again, the choice, and in both roles every step, the messages,
K, the hash input, H, and keys as plain Rust derives them from the captured K and H. tests/captures/README.md says what a file has.
`make rust-host` makes it: build/cargo/release/captures, and with the library for size build/cargo-small/release/captures. It takes a tenth of a
second. Exits 0 with a line for each, 1 at the first that is not as it was or cannot be read, and where there are fewer than eighteen, 2 where it is
called wrongly.
";

/// What lent buffers are filled with.
const LENT: u8 = 0xee;

fn held(what: &str, have: &[u8], want: &[u8]) -> Result<(), String> {
    if have == want {
        return Ok(());
    }
    Err(format!("{} differs: {} bytes for {}, first at byte {}", what, have.len(), want.len(), differ::lists::first(have, want)))
}

/// The captured payload opened list by list, and written again from its names: the same bytes.
fn rewritten(payload: &[u8]) -> Result<usize, String> {
    let mut lists = Vec::new();
    let mut count = 0;
    for list in List::ALL {
        let names: Result<Vec<&[u8]>, Refusal> = open_list(payload, list).map_err(|r| r.to_string())?.names.collect();
        let names = names.map_err(|r| format!("list {:?}: {}", list, r))?;
        count += names.len();
        lists.push(names.join(&b','));
    }
    let lists: Vec<&[u8]> = lists.iter().map(|l| &l[..]).collect();
    let o = open_list(payload, List::Kex).map_err(|r| r.to_string())?;
    let mut out = [LENT; 4096];
    let (cookie, lists) = (o.cookie.try_into().unwrap(), lists[..].try_into().unwrap());
    let n = write_kexinit(&mut out, cookie, lists, o.follows, o.reserved).map_err(|r| r.to_string())?;
    held("a KEXINIT read and written again", &out[..n], payload)?;
    held("the output after it", &out[n..], &[LENT; 4096][n..])?;
    Ok(count)
}

/// The choice of the two payloads: what the exchange was made with.
fn chosen(c: &Capture, method: Method) -> Result<bool, String> {
    let (ic, is) = (c.bytes("I_C")?, c.bytes("I_S")?);
    let choice = choose(&ic, &is).map_err(|r| format!("choose: {}", r))?;
    if choice.method != method {
        return Err(format!("the choice is {:?}, the capture has {:?}", choice.method, method));
    }
    if Method::of_name(c.word("name")?.as_bytes()) != Some(method) {
        return Err("the method of that name is another".into());
    }
    held("the method's name", &method.name(), c.word("name")?.as_bytes())?;
    held("the host key name", choice.host_key, c.word("signature_algorithm")?.as_bytes())?;
    let guessed = c.word("ignored_first_packet").unwrap_or("no") == "yes";
    if (choice.ignore_client, choice.ignore_server) != (guessed, false) {
        return Err("the packets to ignore are others".into());
    }
    Ok(guessed)
}

/// The fields of one capture in hash order, and what stands of them in the room at a stage.
struct Steps {
    role: Role,
    method: Method,
    fields: [Vec<u8>; 7],
    room: Vec<u8>,
    exchange: [u8; EXCHANGE],
}

const V_AND_I: [bool; 7] = [true, true, true, true, false, false, false];
const AND_C: [bool; 7] = [true, true, true, true, false, true, false];
const ALL: [bool; 7] = [true; 7];

impl Steps {
    /// A step that was answered: accepted; every byte of the exchange and of the room as they must be, and no key before the last.
    fn after(&self, step: &str, number: u64, stage: Stage, stand: [bool; 7], k: &[u8], h: &[u8]) -> Result<(), String> {
        if number != 0 {
            return Err(format!("{}: {}", step, Refusal::of(number)));
        }
        let mut room = Vec::new();
        let mut e = plain::Exchange { role: self.role as u8, method: self.method as u8, stage, ..plain::Exchange::default() };
        for (i, field) in self.fields.iter().enumerate().filter(|(i, _)| stand[*i]) {
            room.extend((field.len() as u32).to_be_bytes());
            room.extend(field);
            e.lens[i] = field.len();
        }
        room.extend(k);
        room.resize(self.room.len(), LENT);
        e.k[..k.len()].copy_from_slice(k);
        e.h[..h.len()].copy_from_slice(h);
        if stage == Stage::Complete {
            e.session = plain::Session { id: e.h, id_len: h.len(), completed: 1 };
        }
        held(&format!("{}: the room", step), &self.room, &room)?;
        held(&format!("{}: the exchange", step), &self.exchange, &bytes_of(&e))?;
        let mut key = [LENT; 16];
        if stage != Stage::Complete && (raw::derive(&self.exchange, 65, 16, &mut key), key) != (1, [LENT; 16]) {
            return Err(format!("{}: a key before the exchange is complete", step));
        }
        Ok(())
    }

    /// Every key of a complete exchange: of K and H, and the exchange stays.
    fn keys(&self, k: &[u8], h: &[u8]) -> Result<(), String> {
        let before = self.exchange;
        for letter in Letter::ALL {
            for length in 1..=KEY_MOST {
                let mut out = [LENT; KEY_MOST + 2];
                let number = raw::derive(&self.exchange, letter.number(), length as u64, &mut out);
                counted("a key's number", number, 0)?;
                output("a key", &out, &key(self.method, k, h, letter, length), 0)?;
            }
        }
        held("the exchange behind the keys", &self.exchange, &before)
    }
}

/// A key by the plain implementation.
fn key(method: Method, k: &[u8], h: &[u8], letter: Letter, length: usize) -> Vec<u8> {
    let mut key = vec![0; length];
    plain::key_of(method.sizes().digest_len as u8, k, h, letter.number() as u8, h, &mut key);
    key
}

fn counted(what: &str, have: u64, want: usize) -> Result<(), String> {
    if have == want as u64 {
        return Ok(());
    }
    Err(format!("{}: counted as {} and not {}", what, have, want))
}

/// A part of a payload: this field.
fn is_field(what: &str, payload: &[u8], part: raw::Part, field: &[u8]) -> Result<(), String> {
    held(what, &payload[part.start as usize..(part.start + part.len) as usize], field)
}

/// A call of its own for a part: accepted with this part, or, where the step is not due, 1 and none.
fn asked(what: &str, number: u64, part: raw::Part, want: Option<raw::Part>) -> Result<(), String> {
    if (number, part) == want.map_or((1, raw::Part::default()), |part| (0, part)) {
        return Ok(());
    }
    Err(format!("{}: asked for by itself it is {:?}, number {}", what, part, number))
}

/// An output: what was captured, zeros to a place, and behind it what was lent.
fn output(what: &str, out: &[u8], want: &[u8], zeros: usize) -> Result<(), String> {
    let mut all = want.to_vec();
    all.resize(all.len().max(zeros), 0);
    all.resize(out.len(), LENT);
    held(what, out, &all)
}

/// The steps one by one in a role, its own or its peer's: after each, exchange, room, parts and outputs.
fn stepped(c: &Capture, role: Role, method: Method, room: usize) -> Result<(), String> {
    let field = |name| c.bytes(name);
    let fields = [field("V_C")?, field("V_S")?, field("I_C")?, field("I_S")?, field("K_S")?, field("C")?, field("S")?];
    let [vc, vs, ic, is, ks, value_c, value_s] = fields.clone();
    let (x, k_pq, k) = (field("X")?, field("K_PQ")?, field("K")?);
    let (init, reply, signature) = (field("INIT")?, field("REPLY")?, field("signature")?);
    let kem = if k_pq.is_empty() { 0 } else { 2 };
    let digest = field("H")?;
    let mut h_due = digest.clone();
    h_due.resize(H_SIZE, 0);
    let hashed = c.word("hash_input_length")?.parse().map_err(|_| "hash_input_length")?;
    let mut s = Steps { role, method, fields, room: vec![LENT; room], exchange: [LENT; EXCHANGE] };
    let (mut out, mut k_out, mut count, mut h) = (vec![LENT; 6000], [LENT; K::SIZE + 4], 0, [LENT; H_SIZE]);

    let n = raw::start(&mut s.exchange, role as u64, method.number(), &vc, &vs, &ic, &is, &mut s.room);
    s.after("start", n, Stage::Started, V_AND_I, b"", b"")?;
    let x_count = x.len() as u64;
    if role == Role::Client {
        let n = raw::own_c(&mut s.exchange, &mut s.room, &value_c, &mut out, &mut count);
        s.after("own C", n, Stage::OwnC, AND_C, b"", b"")?;
        counted("INIT", count, init.len())?;
        output("INIT", &out, &init, 0)?;

        let (before, mut parts) = (s.exchange, raw::Reply::default());
        let n = raw::read_reply(&mut s.exchange, &mut s.room, &reply, &mut parts);
        s.after("REPLY", n, Stage::Reply, ALL, b"", b"")?;
        counted("REPLY's position", parts.position, 0)?;
        let asks: [(&str, PartEntry, raw::Part, &[u8]); 3] = [
            ("K_S of REPLY", raw::reply_host_key, parts.host_key, &ks),
            ("S of REPLY", raw::reply_s, parts.s, &value_s),
            ("the signature of REPLY", raw::reply_signature, parts.signature, &signature),
        ];
        for (what, ask, told, field) in asks {
            is_field(what, &reply, told, field)?;
            // ahead of the step, and after it
            for (exchange, want) in [(&before, Some(told)), (&s.exchange, None)] {
                let mut part = raw::Part::default();
                let n = ask(exchange, &s.room, &reply, &mut part);
                asked(what, n, part, want)?;
            }
        }

        let n = raw::take_secret(&mut s.exchange, &mut s.room, 1, x_count, &x, kem, &k_pq, b"", b"", &mut count, &mut h);
        s.after("secret", n, Stage::Secret, ALL, &k, &digest)?;
        counted("the hash input", count, hashed)?;
        held("H", &h, &h_due)?;
        let n = raw::verdict(&mut s.exchange, &mut s.room, 1, 1, &mut k_out, &mut count);
        s.after("verdict", n, Stage::Complete, ALL, &k, &digest)?;
        counted("K", count, k.len())?;
    } else {
        let (before, mut told) = (s.exchange, raw::Init::default());
        let n = raw::read_init(&mut s.exchange, &mut s.room, &init, &mut told);
        s.after("INIT", n, Stage::Init, AND_C, b"", b"")?;
        counted("INIT's position", told.position, 0)?;
        is_field("C of INIT", &init, told.c, &value_c)?;
        for (exchange, want) in [(&before, Some(told.c)), (&s.exchange, None)] {
            let mut part = raw::Part::default();
            let n = raw::init_c(exchange, &s.room, &init, &mut part);
            asked("C of INIT", n, part, want)?;
        }

        let n = raw::take_secret(&mut s.exchange, &mut s.room, 1, x_count, &x, kem, &k_pq, &ks, &value_s, &mut count, &mut h);
        s.after("secret", n, Stage::Secret, ALL, &k, &digest)?;
        counted("the hash input", count, hashed)?;
        held("H", &h, &h_due)?;
        let mut counts = raw::Signed::default();
        let n = raw::sign(&mut s.exchange, &s.room, &signature, &mut out, &mut k_out, &mut counts);
        s.after("signature", n, Stage::Complete, ALL, &k, &digest)?;
        counted("REPLY", counts.reply, reply.len())?;
        counted("K", counts.k, k.len())?;
        output("REPLY", &out, &reply, 0)?;
    }
    output("K", &k_out, &k, K::SIZE)?;
    s.keys(&k, &digest)
}

fn told<E>(step: &'static str) -> impl Fn(Stopped<E>) -> String {
    move |stopped| format!("{}: {}", step, stopped)
}

/// The exchange in its own role through the wrapper.
fn wrapped(c: &Capture, method: Method) -> Result<(Role, usize), String> {
    let (ic, is) = (c.bytes("I_C")?, c.bytes("I_S")?);
    let (vc, vs) = (c.bytes("V_C")?, c.bytes("V_S")?);
    let (ks, value_c, value_s) = (c.bytes("K_S")?, c.bytes("C")?, c.bytes("S")?);
    let (x, k_pq) = (c.bytes("X")?, c.bytes("K_PQ")?);
    let (init, reply, signature) = (c.bytes("INIT")?, c.bytes("REPLY")?, c.bytes("signature")?);
    let (x, kem) = (Classical::Given(&x), if method.sizes().hybrid { Kem::Done(&k_pq) } else { Kem::Absent });
    let greeting = Greeting { vc: &vc, vs: &vs, ic: &ic, is: &is };

    let mut want = Vec::new();
    for field in [&vc, &vs, &ic, &is, &ks, &value_c, &value_s] {
        want.extend_from_slice(&(field.len() as u32).to_be_bytes());
        want.extend_from_slice(field);
    }
    want.extend(c.bytes("K")?);
    held("its length", want.len().to_string().as_bytes(), c.word("hash_input_length")?.as_bytes())?;
    let h = c.bytes("H")?;
    let hashed = |input: &[u8], of: &[u8]| held("the hash input", input, &want).and_then(|()| held("H", of, &h));
    let captured_k = c.bytes("K")?;
    let is_key = |letter: Letter, derive: &dyn Fn(&mut Key) -> Result<(), Refusal>| {
        let mut of = Key::new();
        derive(&mut of).map_err(|r| format!("a key: {}", r))?;
        held("a key", of.as_bytes(), &key(method, &captured_k, &h, letter, 64))
    };

    let (mut exchange, mut room) = ([LENT; EXCHANGE], vec![LENT; ROOM]);
    let mut k = K::new();
    let role = if c.word("our_role")? == "client" { Role::Client } else { Role::Server };
    match role {
        Role::Client => {
            let e = Client::start(method, greeting, &mut exchange, &mut room).map_err(|r| format!("start: {}", r))?;
            let mut out = [0; INIT];
            let (e, sent) = e.own_c(&value_c, &mut out).map_err(told("own C"))?;
            held("INIT", sent, &init)?;
            let (e, read) = e.read_reply(&reply).map_err(told("REPLY"))?;
            held("K_S", read.host_key, &ks)?;
            held("S", read.s, &value_s)?;
            held("the signature", read.signature, &signature)?;
            let e = e.take_secret(x, kem).map_err(told("secret"))?;
            hashed(e.hash_input(), e.h())?;
            let e = e.verdict(true, true, &mut k).map_err(told("verdict"))?;
            hashed(e.hash_input(), e.h())?;
            Letter::ALL.into_iter().try_for_each(|letter| is_key(letter, &|key| e.derive(letter, 64, key)))?;
        }
        Role::Server => {
            let e = Server::start(method, greeting, &mut exchange, &mut room).map_err(|r| format!("start: {}", r))?;
            let (e, read) = e.read_init(&init).map_err(told("INIT"))?;
            held("C", read, &value_c)?;
            let own = Own { host_key: &ks, s: &value_s };
            let e = e.take_secret(x, kem, own).map_err(told("secret"))?;
            hashed(e.hash_input(), e.h())?;
            let mut out = [0; REPLY];
            let (e, sent) = e.sign(&signature, &mut out, &mut k).map_err(told("signature"))?;
            held("REPLY", sent, &reply)?;
            hashed(e.hash_input(), e.h())?;
            Letter::ALL.into_iter().try_for_each(|letter| is_key(letter, &|key| e.derive(letter, 64, key)))?;
        }
    }
    held("K", k.as_bytes(), &captured_k)?;
    held("the exchange after it", &exchange, &[0; EXCHANGE])?;
    held("the room after it", &room, &[0; ROOM])?;
    Ok((role, want.len()))
}

fn run(c: &Capture) -> Result<String, String> {
    let method = c.word("method")?.parse().ok().and_then(Method::of).ok_or("method")?;
    let names = rewritten(&c.bytes("I_C")?)? + rewritten(&c.bytes("I_S")?)?;
    let guess = if chosen(c, method)? { ", the client's guess ignored" } else { "" };
    let (role, hashed) = wrapped(c, method)?;
    for (role, room) in [(Role::Client, ROOM), (Role::Server, ROOM + 44)] {
        stepped(c, role, method, room).map_err(|e| format!("as {:?}: {}", role, e))?;
    }
    Ok(format!(
        "{:?}, method {}: {} names written again, messages, K, {} bytes of hash input, H and keys, the steps in both roles{}",
        role, method.number(), names, hashed, guess
    ))
}

fn main() -> ExitCode {
    let words = words(HELP);
    let folder = match &words[..] {
        [] => "tests/captures",
        [folder] if !folder.starts_with('-') => folder,
        _ => return wrong(HELP),
    };
    if !same_version() {
        eprintln!("captures: the library is of another version");
        return ExitCode::FAILURE;
    }
    let captures = match captured::all(folder) {
        Ok(captures) => captures,
        Err(why) => {
            eprintln!("captures: {}", why);
            return ExitCode::FAILURE;
        }
    };
    for capture in &captures {
        match run(capture) {
            Ok(said) => println!("{}: {}", capture.name, said),
            Err(why) => {
                eprintln!("captures: {}: {}", capture.name, why);
                return ExitCode::FAILURE;
            }
        }
    }
    println!("{} captured exchanges as they were, in both roles", captures.len());
    if captures.len() < 18 {
        eprintln!("captures: fewer than the eighteen that there are");
        return ExitCode::FAILURE;
    }
    ExitCode::SUCCESS
}
