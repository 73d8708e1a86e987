//! Speaks the bench's line protocol over this library and nothing else: it reads a script on standard input and prints
//! one answer line for each call. Every number, count and byte that it prints came out of the library.

#![forbid(unsafe_code)]

use std::ffi::OsString;
use std::fmt::Write as _;
use std::io::{self, BufRead, BufWriter, Write};
use std::process::ExitCode;

use plain::{
    again, choose, derive, hash_start, init_c, next_name, open_list, own_c, read_init, read_mpint, read_reply,
    read_string, reply_parts, sign, start, take_secret, verdict, write_kexinit, write_mpint, write_string, Answer,
    Classical, Cursor, Exchange, Hash, Kem, Opened, Part, Session, Stage, Written,
};

const HELP: &str = "\
usage: plain_bench < CALLS
The specification in plain Rust as a bench: it reads the calls that build/bench reads (`bench --help` has them) and
prints the lines that build/bench has to print. `make script` leaves its answers to a random script in
build/host/answers, and `make bench-test` compares.
`make rust-host` makes it: build/cargo/release/plain_bench; 59,000 calls take 2 seconds.
Exits 0 at the end of the calls, 1 at a bad line, 2 where it is called wrongly.
";

/// Why a line is bad.
type Bad = &'static str;

const CALLS: [&str; 27] = [
    "rstr", "wstr", "rmpint", "wmpint", "open", "next", "names", "wkex", "choose", "sha", "feed", "finish", "shaset",
    "room", "poke", "set", "put", "blank", "start", "ownc", "init", "reply", "secret", "sign", "verdict", "derive",
    "again",
];

/// What is kept between lines: one exchange, one room, one view and one hash.
struct Bench {
    exchange: Exchange,
    /// What `set fail` left for a stage that is set to failed later.
    fail: u8,
    room: Vec<u8>,
    view: Vec<u8>,
    cursor: Cursor,
    hash: Hash,
}

/// -h or --help prints all of the help, another word is answered with its first line.
fn helped(words: &[OsString]) -> ExitCode {
    if let [word] = words {
        if word == "-h" || word == "--help" {
            print!("{HELP}");
            return ExitCode::SUCCESS;
        }
    }
    eprintln!("{}", HELP.lines().next().unwrap_or_default());
    ExitCode::from(2)
}

fn main() -> ExitCode {
    let words: Vec<OsString> = std::env::args_os().skip(1).collect();
    if !words.is_empty() {
        return helped(&words);
    }
    let mut output = BufWriter::new(io::stdout().lock());
    let played = play(io::stdin().lock(), &mut output);
    // The answers before a bad line are owed all the same.
    let flushed = output.flush().map_err(|error| error.to_string());
    match played.and(flushed) {
        Ok(()) => ExitCode::SUCCESS,
        Err(why) => {
            eprintln!("plain_bench: {why}");
            ExitCode::FAILURE
        }
    }
}

fn play(mut input: impl BufRead, output: &mut impl Write) -> Result<(), String> {
    // A view of nothing, opened, is refused.
    let cursor = open_list(&[], 1).cursor;
    let (exchange, hash) = (Exchange::default(), Hash::default());
    let mut bench = Bench { exchange, fail: 0, room: vec![], view: vec![], cursor, hash };
    let mut line = Vec::new();
    for at in 1u64.. {
        line.clear();
        if input.read_until(b'\n', &mut line).map_err(|error| error.to_string())? == 0 {
            break;
        }
        let text = line.strip_suffix(b"\n").unwrap_or(&line);
        if text.is_empty() || text[0] == b'#' {
            continue;
        }
        let text = std::str::from_utf8(text).map_err(|_| format!("line {at}: not text"))?;
        let mut answer = bench.call(text).map_err(|why| format!("line {at}: {why}"))?;
        answer.push('\n');
        output.write_all(answer.as_bytes()).map_err(|error| error.to_string())?;
    }
    Ok(())
}

impl Bench {
    fn call(&mut self, line: &str) -> Result<String, Bad> {
        let tokens: Vec<&str> = line.split(' ').collect();
        match tokens[..] {
            ["rstr", input] => {
                let input = bytes(input)?;
                let read = read_string(&input);
                Ok(format!("{} {} {}", read.number, part(&input, read.body), part(&input, read.rest)))
            }
            ["wstr", body, out] => {
                let (body, mut out) = (bytes(body)?, bytes(out)?);
                let written = write_string(&mut out, &body);
                Ok(written_line(written, &out))
            }
            ["rmpint", input] => {
                let input = bytes(input)?;
                let read = read_mpint(&input);
                let (body, rest) = (part(&input, read.body), part(&input, read.rest));
                Ok(format!("{} {} {body} {rest}", read.number, read.sign))
            }
            ["wmpint", number, out] => {
                let (number, mut out) = (bytes(number)?, bytes(out)?);
                let written = write_mpint(&mut out, &number);
                Ok(written_line(written, &out))
            }
            ["open", payload, list] => {
                let (payload, list) = (bytes(payload)?, number(list)?);
                let opened = open_list(&payload, list);
                let cookie = part(&payload, opened.cookie);
                self.view = payload;
                self.cursor = opened.cursor;
                let Opened { number, follows, reserved, position, .. } = opened;
                Ok(format!("{number} {cookie} {} {reserved} {position}", u8::from(follows)))
            }
            ["next"] => {
                let next = next_name(&self.view, self.cursor);
                self.cursor = next.cursor;
                match (next.number, next.found) {
                    (0, false) => Ok("0 end".to_string()),
                    _ => Ok(format!("{} {}", next.number, part(&self.view, next.name))),
                }
            }
            ["names", payload, list] => {
                let (payload, list) = (bytes(payload)?, number(list)?);
                Ok(names(&payload, list))
            }
            ["wkex", cookie, ref lists @ .., follows, reserved, out] if lists.len() == 10 => {
                let cookie = bytes(cookie)?;
                let lists = lists.iter().map(|list| bytes(list)).collect::<Result<Vec<_>, _>>()?;
                let lent: [&[u8]; 10] = std::array::from_fn(|at| lists[at].as_slice());
                let (follows, reserved, mut out) = (number::<u64>(follows)? != 0, number(reserved)?, bytes(out)?);
                let written = write_kexinit(&mut out, &cookie, &lent, follows, reserved);
                Ok(written_line(written, &out))
            }
            ["choose", client, server] => {
                let (client, server) = (bytes(client)?, bytes(server)?);
                let choice = choose(&client, &server);
                Ok(format!(
                    "{} {} {} {} {}",
                    choice.number,
                    choice.method,
                    part(&client, choice.host_key),
                    u8::from(choice.ignore_client),
                    u8::from(choice.ignore_server)
                ))
            }
            ["sha", kind] => {
                let (answer, hash) = hash_start(number(kind)?);
                self.hash = hash;
                Ok(self.hash_line(answer))
            }
            ["feed", part] => {
                let answer = self.hash.feed(&bytes(part)?);
                Ok(self.hash_line(answer))
            }
            ["finish"] => {
                let (answer, digest) = self.hash.finish();
                Ok(format!("{answer} {}", to_hex(&digest)))
            }
            ["shaset", field, value] => {
                match field {
                    "kind" => self.hash.kind = number(value)?,
                    "total" => self.hash.total = number(value)?,
                    "tail" => self.hash.held = number(value)?,
                    _ => return Err("unknown field"),
                }
                Ok(self.hash_line(0))
            }
            _ => {
                let mut answer = self.exchange_call(&tokens)?;
                self.push_record(&mut answer);
                Ok(answer)
            }
        }
    }

    fn hash_line(&self, answer: u8) -> String {
        let Hash { kind, total, held, .. } = self.hash;
        format!("{answer} {kind}.{total}.{held}")
    }

    /// The calls of the second group, whose answers end with the exchange and the room.
    fn exchange_call(&mut self, tokens: &[&str]) -> Result<String, Bad> {
        match *tokens {
            ["room", room] => {
                self.room = bytes(room)?;
                Ok("0".to_string())
            }
            ["poke", at, new] => {
                let (at, new): (usize, _) = (number(at)?, bytes(new)?);
                let end = at.checked_add(new.len()).ok_or("poke past the room's end")?;
                self.room.get_mut(at..end).ok_or("poke past the room's end")?.copy_from_slice(&new);
                Ok("0".to_string())
            }
            ["set", field, value] => {
                self.set(field, value)?;
                Ok("0".to_string())
            }
            ["put", field, new] => {
                let new = bytes(new)?;
                let record = match field {
                    "k" => &mut self.exchange.k[..],
                    "h" => &mut self.exchange.h[..],
                    "sid" => &mut self.exchange.session.id[..],
                    _ => return Err("unknown field"),
                };
                record.get_mut(..new.len()).ok_or("put past the field's end")?.copy_from_slice(&new);
                Ok("0".to_string())
            }
            ["blank"] => {
                self.exchange = Exchange::default();
                self.fail = 0;
                Ok("0".to_string())
            }
            ["start", role, method, vc, vs, ic, is] => {
                let (role, method) = (number(role)?, number(method)?);
                let (vc, vs, ic, is) = (bytes(vc)?, bytes(vs)?, bytes(ic)?, bytes(is)?);
                let answer = start(role, method, &vc, &vs, &ic, &is, &mut self.room);
                self.fail = 0;
                self.keep(&answer);
                Ok(answer.number.to_string())
            }
            ["ownc", c, out] => {
                let (c, mut out) = (bytes(c)?, bytes(out)?);
                let answer = own_c(self.exchange, &mut self.room, &c, &mut out);
                self.keep(&answer);
                Ok(format!("{} {} {}", answer.number, answer.count, after(&out)))
            }
            ["init", payload] => {
                let payload = bytes(payload)?;
                let c = init_c(&self.exchange, &self.room, &payload);
                let answer = read_init(self.exchange, &mut self.room, &payload);
                self.keep(&answer);
                Ok(format!("{} {} {}", answer.number, part(&payload, c), answer.position))
            }
            ["reply", payload] => {
                let payload = bytes(payload)?;
                let parts = reply_parts(&self.exchange, &self.room, &payload);
                let answer = read_reply(self.exchange, &mut self.room, &payload);
                self.keep(&answer);
                let [k_s, s, signature] = parts.map(|of| part(&payload, of));
                Ok(format!("{} {k_s} {s} {signature} {}", answer.number, answer.position))
            }
            ["secret", outcome, x, kem, k_pq, ks, s] => {
                let (outcome, x, kem, k_pq) = (classical(outcome)?, bytes(x)?, kem_outcome(kem)?, bytes(k_pq)?);
                let (ks, s) = (bytes(ks)?, bytes(s)?);
                let answer = take_secret(self.exchange, &mut self.room, outcome, &x, kem, &k_pq, &ks, &s);
                self.keep(&answer);
                Ok(format!("{} {} {}", answer.number, answer.count, to_hex(&answer.h)))
            }
            ["sign", signature, out, k_out] => {
                let (signature, mut out, mut k_out) = (bytes(signature)?, bytes(out)?, bytes(k_out)?);
                let answer = sign(self.exchange, &self.room, &signature, &mut out, &mut k_out);
                self.keep(&answer);
                let Answer { number, count, second, .. } = answer;
                Ok(format!("{number} {count} {second} {} {}", after(&out), after(&k_out)))
            }
            ["verdict", signature, host_key, k_out] => {
                let (signature, host_key, mut k_out) = (yes_no(signature)?, yes_no(host_key)?, bytes(k_out)?);
                let answer = verdict(self.exchange, &mut self.room, signature, host_key, &mut k_out);
                self.keep(&answer);
                Ok(format!("{} {} {}", answer.number, answer.count, after(&k_out)))
            }
            ["derive", letter, length, out] => {
                let (letter, length, mut out) = (number(letter)?, number(length)?, bytes(out)?);
                let answer = derive(&self.exchange, letter, length, &mut out);
                Ok(format!("{answer} {}", after(&out)))
            }
            ["again", method, ic, is] => {
                let (method, ic, is) = (number(method)?, bytes(ic)?, bytes(is)?);
                let answer = again(self.exchange, method, &ic, &is, &mut self.room);
                self.keep(&answer);
                Ok(answer.number.to_string())
            }
            [call, ..] if CALLS.contains(&call) => Err("wrong number of tokens"),
            _ => Err("unknown call"),
        }
    }

    /// Keeps the exchange that a step handed back.
    fn keep(&mut self, answer: &Answer) {
        self.exchange = answer.exchange;
        if let Stage::Failed(number) = self.exchange.stage {
            self.fail = number;
        }
    }

    fn set(&mut self, field: &str, value: &str) -> Result<(), Bad> {
        match field {
            "role" => self.exchange.role = number(value)?,
            "method" => self.exchange.method = number(value)?,
            "stage" => self.exchange.stage = stage(value)?,
            "fail" => self.fail = number(value)?,
            "slen" => self.exchange.session.id_len = number(value)?,
            "count" => self.exchange.session.completed = number(value)?,
            _ if field.starts_with('l') => {
                let at: usize = number(&field[1..])?;
                *self.exchange.lens.get_mut(at).ok_or("unknown field")? = number(value)?;
            }
            _ if field.starts_with('k') => {
                let at: usize = number(&field[1..])?;
                *self.exchange.k.get_mut(at).ok_or("unknown field")? = number(value)?;
            }
            _ if field.starts_with('h') => {
                let at: usize = number(&field[1..])?;
                *self.exchange.h.get_mut(at).ok_or("unknown field")? = number(value)?;
            }
            _ if field.starts_with('s') => {
                let at: usize = number(&field[1..])?;
                *self.exchange.session.id.get_mut(at).ok_or("unknown field")? = number(value)?;
            }
            _ => return Err("unknown field"),
        }
        // the fail number is 0 unless failed, as in every answer line
        if let Stage::Failed(_) = self.exchange.stage {
            self.exchange.stage = Stage::Failed(self.fail);
        }
        Ok(())
    }

    fn push_record(&self, line: &mut String) {
        let Exchange { role, method, stage, lens, k, h, session: Session { id, id_len, completed } } = &self.exchange;
        let (stage, fail) = match stage {
            Stage::Started => ("started", 0),
            Stage::OwnC => ("own_c", 0),
            Stage::Init => ("init", 0),
            Stage::Reply => ("reply", 0),
            Stage::Secret => ("secret", 0),
            Stage::Complete => ("complete", 0),
            Stage::Failed(number) => ("failed", *number),
        };
        let lens = lens.map(|len| len.to_string()).join(",");
        let (k, h, id, room) = (digest(k), digest(h), digest(id), digest(&self.room));
        let _ = write!(line, " | ex {role}.{method}.{stage}.{fail}.{lens} k={k} h={h}");
        let _ = write!(line, " sid={id_len}:{id} n={completed} room={room}");
    }
}

/// Opens a list, then yields every name, then the end or a bad name.
fn names(payload: &[u8], list: usize) -> String {
    let opened = open_list(payload, list);
    let mut line = opened.number.to_string();
    let mut next = next_name(payload, opened.cursor);
    while next.found {
        line.push(' ');
        line.push_str(&part(payload, next.name));
        next = next_name(payload, next.cursor);
    }
    line.push_str(if next.number == 0 { " end" } else { " 19" });
    line
}

fn written_line(written: Written, out: &[u8]) -> String {
    format!("{} {} {}", written.number, written.count, after(out))
}

/// An output after the call.
fn after(out: &[u8]) -> String {
    format!("out={}:{}", out.len(), digest(out))
}

fn part(bytes: &[u8], part: Part) -> String {
    match part.len {
        0 => format!("{}:-", part.start),
        len => format!("{}:{}", part.start, to_hex(&bytes[part.start..part.start + len])),
    }
}

fn to_hex(bytes: &[u8]) -> String {
    let mut line = String::with_capacity(2 * bytes.len());
    for byte in bytes {
        let _ = write!(line, "{byte:02x}");
    }
    line
}

fn digest(bytes: &[u8]) -> String {
    const M: u64 = (1 << 31) - 1;
    let (mut h, mut g) = (0u64, 0u64);
    for &byte in bytes {
        h = (h * 257 + u64::from(byte) + 1) % M;
        g = (g * 65599 + u64::from(byte) + 1) % M;
    }
    format!("{h:08x}{g:08x}")
}

/// A decimal number that its place can hold.
fn number<T: TryFrom<u64>>(token: &str) -> Result<T, Bad> {
    if token.is_empty() || !token.bytes().all(|digit| digit.is_ascii_digit()) {
        return Err("bad number");
    }
    let number: u64 = token.parse().map_err(|_| "number too large")?;
    T::try_from(number).map_err(|_| "number too large")
}

fn yes_no(token: &str) -> Result<bool, Bad> {
    match token {
        "0" => Ok(false),
        "1" => Ok(true),
        _ => Err("bad number"),
    }
}

/// H or H*N.
fn bytes(token: &str) -> Result<Vec<u8>, Bad> {
    let Some((unit, count)) = token.split_once('*') else {
        return hex(token);
    };
    let (unit, count): (_, usize) = (hex(unit)?, number(count)?);
    if unit.is_empty() && count > 0 {
        return Err("no bytes to repeat");
    }
    let mut all = Vec::new();
    all.try_reserve_exact(count).map_err(|_| "number too large")?;
    while all.len() < count {
        let take = unit.len().min(count - all.len());
        all.extend_from_slice(&unit[..take]);
    }
    Ok(all)
}

fn hex(token: &str) -> Result<Vec<u8>, Bad> {
    let digit = |byte: u8| match byte {
        b'0'..=b'9' => Ok(byte - b'0'),
        b'a'..=b'f' => Ok(byte - b'a' + 10),
        _ => Err("bad hex"),
    };
    if token == "-" {
        return Ok(vec![]);
    }
    if token.is_empty() || token.len() % 2 != 0 {
        return Err("bad hex");
    }
    token.as_bytes().chunks_exact(2).map(|pair| Ok(digit(pair[0])? * 16 + digit(pair[1])?)).collect()
}

fn classical(token: &str) -> Result<Classical, Bad> {
    match token.strip_prefix('G') {
        Some(count) => Ok(Classical::Given(number(count)?)),
        None if token == "F" => Ok(Classical::Failed),
        None => Err("bad classical outcome"),
    }
}

fn kem_outcome(token: &str) -> Result<Kem, Bad> {
    match token {
        "a" => Ok(Kem::Absent),
        "f" => Ok(Kem::Failed),
        "d" => Ok(Kem::Done),
        _ => Err("bad KEM outcome"),
    }
}

fn stage(token: &str) -> Result<Stage, Bad> {
    match token {
        "started" => Ok(Stage::Started),
        "own_c" => Ok(Stage::OwnC),
        "init" => Ok(Stage::Init),
        "reply" => Ok(Stage::Reply),
        "secret" => Ok(Stage::Secret),
        "complete" => Ok(Stage::Complete),
        "failed" => Ok(Stage::Failed(0)),
        _ => Err("unknown stage"),
    }
}
