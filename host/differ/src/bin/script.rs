//! Random calls as a bench script, for the bench and for any other program that answers one.
use differ::calls::{self, Call, Field, Filled};
use differ::codecs::{encoded, hex, integer, list_number, opened, output, payload, ten};
use differ::command::{words, wrong};
use differ::hashes;
use differ::model::Side;
use differ::random::Random;
use differ::stored::numbers_of;
use std::io::{self, BufWriter, Write};
use std::process::ExitCode;

const HELP: &str = "\
usage: script SEED LISTS ROUNDS HASHES
Prints random calls as a bench script: so many lists of calls on an exchange, rounds of codecs, KEXINIT and choice, and lists of calls of a hash.
The same words print the same script. build/bench and plain_bench of host/plain answer it (`bench --help` has the calls), and must answer alike.
`make rust-host` makes it: build/cargo/release/script. `make script` asks for 3000 2000 2000, some 59,000 calls, which takes a second, and
`make bench-test` compares the answers. Exits 0, 1 where standard output cannot be written, 2 where it is called wrongly.
";

const STAGES: [&str; 7] = ["started", "own_c", "init", "reply", "secret", "complete", "failed"];

fn h(s: &[u8]) -> String {
    match s {
        [] => "-".into(),
        _ => hex(s),
    }
}

fn o(f: &Filled) -> String {
    match f.len {
        0 => "-".into(),
        n => format!("{}*{}", hex(&f.with), n),
    }
}

/// A number that a script's line may hold where only small ones mean anything.
fn small(n: u64, most: u64) -> Option<u64> {
    (n <= most).then_some(n)
}

/// A call as a line; none for one that a script cannot say.
fn line(call: &Call) -> Option<String> {
    Some(match call {
        Call::Room(f) => format!("room {}", o(f)),
        Call::Poke(at, bytes) => format!("poke {} {}", at, h(bytes)),
        Call::Forge(field, to) => match field {
            Field::Role => format!("set role {}", to),
            Field::Method => format!("set method {}", to),
            Field::Stage => format!("set stage {}", STAGES.get(usize::try_from(*to).ok()?)?),
            Field::Fail => format!("set fail {}", to),
            Field::Length(i) => format!("set l{} {}", i, to),
            Field::K(i) => format!("set k{} {}", i, to),
            Field::H(i) => format!("set h{} {}", i, to),
            Field::IdLen => format!("set slen {}", to),
            Field::Completed => format!("set count {}", to),
            Field::Id(i) => format!("set s{} {}", i, to),
            Field::Mark => return None,
        },
        Call::Session(s) => session(s),
        Call::Record(e) => record(e),
        Call::Lend(_) | Call::Old { .. } => return None,
        Call::Start { role, method, vc, vs, ic, is } => {
            format!("start {} {} {} {} {} {}", small(*role, 255)?, small(*method, 255)?, h(vc), h(vs), h(ic), h(is))
        }
        Call::OwnC { c, out } => format!("ownc {} {}", h(c), o(out)),
        Call::Init(p) => format!("init {}", h(p)),
        Call::Reply(p) => format!("reply {}", h(p)),
        Call::Secret { given, x_count, x, kem, k_pq, ks, s } => {
            let given = if small(*given, 1)? == 1 { format!("G{}", x_count) } else { "F".into() };
            let kem = ["a", "f", "d"].get(usize::try_from(*kem).ok()?)?;
            format!("secret {} {} {} {} {} {}", given, h(x), kem, h(k_pq), h(ks), h(s))
        }
        Call::Sign { signature, out, k_out } => format!("sign {} {} {}", h(signature), o(out), o(k_out)),
        Call::Verdict { signature, host_key, k_out } => {
            format!("verdict {} {} {}", small(*signature, 1)?, small(*host_key, 1)?, o(k_out))
        }
        Call::Again { method, ic, is } => format!("again {} {} {}", small(*method, 255)?, h(ic), h(is)),
        Call::Derive { letter, length, key } => format!("derive {} {} {}", small(*letter, 255)?, length, o(key)),
    })
}

fn session(s: &plain::Session) -> String {
    format!("put sid {}\nset slen {}\nset count {}", h(&s.id), s.id_len, s.completed)
}

/// An exchange made up as a whole, as lines.
fn record(e: &plain::Exchange) -> String {
    let (stage, fail) = numbers_of(e.stage);
    let lengths = e.lens.iter().enumerate().map(|(i, len)| format!("set l{} {}\n", i, len)).collect::<String>();
    format!(
        "set role {}\nset method {}\nset fail {}\nset stage {}\n{}put k {}\nput h {}\n{}",
        e.role, e.method, fail, STAGES[usize::from(stage)], lengths, h(&e.k), h(&e.h), session(&e.session)
    )
}

fn list(r: &mut Random, out: &mut impl Write) -> io::Result<()> {
    let (mut side, mut other) = (Side::new(), Side::new());
    if r.once_in(8) {
        writeln!(out, "blank")?;
    }
    let (length, careful) = calls::length(r);
    for i in 0..length {
        let call = match i {
            0 => Call::Room(calls::room(r)),
            1 => calls::start(r),
            _ => side.next(r, 0, careful, &mut other),
        };
        if let Some(text) = line(&call) {
            side.call(&call);
            writeln!(out, "{}", text)?;
        }
    }
    Ok(())
}

fn round(r: &mut Random, out: &mut impl Write) -> io::Result<()> {
    let n = r.below(40);
    let body = r.bytes(n);
    writeln!(out, "rstr {}", h(&encoded(r, &body)))?;
    writeln!(out, "wstr {} {}", h(&body), h(&output(r, 4 + body.len())))?;
    let number = integer(r);
    writeln!(out, "rmpint {}", h(&encoded(r, &number)))?;
    writeln!(out, "wmpint {} {}", h(&number), h(&output(r, 4 + number.len())))?;
    let list = list_number(r);
    writeln!(out, "open {} {}", h(&opened(r)), list)?;
    for _ in 0..r.below(5) {
        writeln!(out, "next")?;
    }
    writeln!(out, "names {} {}", h(&payload(r)), list)?;
    writeln!(out, "choose {} {}", h(&payload(r)), h(&payload(r)))?;
    let n = if r.once_in(20) { r.of(&[0, 15, 17]) } else { 16 };
    let (cookie, lists) = (r.bytes(n), ten(r));
    let total = 62 + lists.iter().map(Vec::len).sum::<usize>();
    write!(out, "wkex {}", h(&cookie))?;
    for l in &lists {
        write!(out, " {}", h(l))?;
    }
    writeln!(out, " {} {} {}", r.coin() as u8, r.word() as u32, h(&output(r, total)))
}

/// A hash's call as a line; none for one that a script cannot say.
fn hash_line(call: &hashes::Call) -> Option<String> {
    let number = |bytes: &[u8]| Some(u64::from_be_bytes(bytes.try_into().ok()?));
    Some(match call {
        hashes::Call::Start(kind) => format!("sha {}", small(*kind, 255)?),
        hashes::Call::Feed(part) => format!("feed {}", h(part)),
        hashes::Call::Finish => "finish".into(),
        hashes::Call::Forge(0, kind) => format!("shaset kind {}", kind[0]),
        hashes::Call::Forge(1, total) => format!("shaset total {}", number(total)?),
        hashes::Call::Forge(9, held) => format!("shaset tail {}", number(held)?),
        hashes::Call::Forge(..) | hashes::Call::Lend(_) => return None,
    })
}

/// Whether a state that somebody wrote to has the digest that any program gives it: none, or that of what was fed with another
/// total in its padding. What another kind, or another number of waiting bytes, makes of it is the library's own layout.
fn is_told(forged: &plain::Hash, fed: &plain::Hash) -> bool {
    forged.finish().0 != 0 || (forged.kind, forged.held) == (fed.kind, fed.held)
}

fn hash(r: &mut Random, out: &mut impl Write) -> io::Result<()> {
    let mut side = hashes::Side::default();
    let mut fed = plain::Hash::default();
    for _ in 0..r.range(3, 16) {
        let mut call = hashes::next(r, &side);
        // a long part is one that a short token says
        let long = match &mut call {
            hashes::Call::Feed(part) if part.len() > 2000 => {
                let byte = part[0];
                part.fill(byte);
                Some(format!("feed {:02x}*{}", byte, part.len()))
            }
            _ => None,
        };
        let Some(text) = long.or_else(|| hash_line(&call)) else { continue };
        let was = side.hash.clone();
        side.call(&call);
        let now = side.state().expect("a script lends no other length");
        if !matches!(call, hashes::Call::Forge(..)) {
            fed = now;
        } else if !is_told(&now, &fed) {
            side.hash = was;
            continue;
        }
        writeln!(out, "{}", text)?;
    }
    Ok(())
}

fn all([seed, lists, rounds, hashes]: [u64; 4]) -> io::Result<()> {
    let mut out = BufWriter::new(io::stdout().lock());
    writeln!(out, "# seed {}: {} rounds, {} lists, {} hashes", seed, rounds, lists, hashes)?;
    for i in 0..rounds {
        round(&mut Random::new(seed, i), &mut out)?;
    }
    for i in 0..lists {
        list(&mut Random::new(seed, rounds + i), &mut out)?;
    }
    for i in 0..hashes {
        hash(&mut Random::new(seed, rounds + lists + i), &mut out)?;
    }
    out.flush()
}

fn main() -> ExitCode {
    let numbers: Result<Vec<u64>, _> = words(HELP).iter().map(|word| word.parse()).collect();
    let Some(numbers) = numbers.ok().and_then(|n| n.try_into().ok()) else { return wrong(HELP) };
    match all(numbers) {
        Ok(()) => ExitCode::SUCCESS,
        Err(why) => {
            eprintln!("script: {}", why);
            ExitCode::FAILURE
        }
    }
}
