//! Rounds of strings, mpints, methods, KEXINIT and choice on both, every lent buffer and every lent number at a fence.
use crate::calls::{broken, widened, yes_or_no, METHODS};
use crate::fence::{self, Fence};
use crate::random::Random;
use crate::tally::Tally;
use castulfrisa::raw;
use std::fmt::Debug;

const METHOD_NAMES: [&[u8]; METHODS] = [
    b"curve25519-sha256",
    b"curve25519-sha256@libssh.org",
    b"curve448-sha512",
    b"ecdh-sha2-nistp256",
    b"ecdh-sha2-nistp384",
    b"ecdh-sha2-nistp521",
    b"mlkem768nistp256-sha256",
    b"mlkem1024nistp384-sha384",
    b"mlkem768x25519-sha256",
];

const OTHERS: [&[u8]; 10] = [
    b"ssh-ed25519",
    b"rsa-sha2-256",
    b"rsa-sha2-512",
    b"ecdsa-sha2-nistp256",
    b"ext-info-c",
    b"kex-strict-c-v00@openssh.com",
    b"none",
    b"a",
    b"diffie-hellman-group14-sha256",
    b"curve25519-sha25",
];

/// What a call of this module is lent: an output, two inputs, and numbers to fill in.
#[derive(Default)]
pub struct Lent {
    out: Fence,
    inputs: [Fence; 2],
    numbers: [Fence; 2],
    ends: Fence,
}

impl Lent {
    /// A KEXINIT opened on the core; the lent numbers hold `word` until then.
    pub fn open(&mut self, payload: &[u8], list: u64, word: u64) -> (u64, raw::Opened) {
        let ahead = word % 2 == 0;
        let told: &mut raw::Opened = self.numbers[0].numbers(word, ahead);
        let number = raw::open_list(self.inputs[0].lend(payload, ahead), list, told);
        (number, *told)
    }
}

/// Both sides of one call: what was given, and what stands in the output after it.
fn same<T: PartialEq<U> + Debug, U: Debug>(what: impl Fn() -> String, core: T, plain: U) -> Result<(), String> {
    if core == plain {
        return Ok(());
    }
    Err(format!("{}\nthe core gives {:?}\nplain Rust    {:?}", what(), core, plain))
}

/// An input that the core must leave.
fn kept(what: &str, fence: &Fence, given: &[u8]) -> Result<(), String> {
    same(|| format!("the input of {}", what), fence.bytes(), given)
}

fn part(p: plain::Part) -> raw::Part {
    raw::Part { start: p.start as u64, len: p.len as u64 }
}

fn parts(body: plain::Part, rest: plain::Part) -> raw::StringParts {
    raw::StringParts { body: part(body), rest: part(rest) }
}

pub fn hex(s: &[u8]) -> String {
    s.iter().map(|b| format!("{:02x}", b)).collect()
}

/// An output for something of this length: just long enough, a byte too short, longer, or of any length.
pub fn output(r: &mut Random, total: usize) -> Vec<u8> {
    let len = match r.below(8) {
        0 => total.saturating_sub(1),
        1 => r.below(total + 2),
        2 | 3 => total + r.below(40),
        _ => total,
    };
    r.bytes(len)
}

/// An encoding whose length field may lie.
pub fn encoded(r: &mut Random, body: &[u8]) -> Vec<u8> {
    let len = match r.below(8) {
        0 => r.of(&[0xffff_fffd, 0xffff_ffff, 0x8000_0000, 0]),
        1 => (body.len() as u32).wrapping_add(r.of(&[1, 2, u32::MAX, 256])),
        _ => body.len() as u32,
    };
    let mut v = len.to_be_bytes().to_vec();
    v.extend_from_slice(body);
    match r.below(8) {
        0 => {
            let n = r.below(v.len() + 1);
            v.truncate(n);
        }
        1 | 2 => {
            let n = r.range(1, 20);
            v.extend(r.bytes(n));
        }
        _ => {}
    }
    v
}

/// Two's complement bytes: short, with a run of 00 or ff in front more often than not.
pub fn integer(r: &mut Random) -> Vec<u8> {
    let most = if r.once_in(8) { 300 } else { 12 };
    let len = r.below(most);
    let mut v = r.bytes(len);
    let run = r.below(len + 1);
    match r.below(3) {
        0 => v[..run].fill(0),
        1 => v[..run].fill(0xff),
        _ => {}
    }
    if run < len && r.coin() {
        v[run] = r.of(&[0x00, 0x7f, 0x80, 0xff]);
    }
    v
}

fn strings(r: &mut Random, f: &mut Lent, t: &mut Tally) -> Result<(), String> {
    let ahead = r.coin();
    let ([i, _], [n, _]) = (&mut f.inputs, &mut f.numbers);
    let most = if r.once_in(8) { 5000 } else { 40 };
    let len = r.below(most);
    let body = r.bytes(len);
    let s = encoded(r, &body);
    let told: &mut raw::StringParts = n.numbers(r.word(), ahead);
    let number = raw::read_string(i.lend(&s, ahead), told);
    let model = plain::read_string(&s);
    t.note("read_string", number);
    same(|| format!("read_string {}", hex(&s)), (number, *told), (model.number.into(), parts(model.body, model.rest)))?;
    kept("read_string", i, &s)?;
    let mut out = output(r, 4 + body.len());
    let lent = f.out.lend(&out, ahead);
    let count: &mut u64 = n.numbers(r.word(), ahead);
    let number = raw::write_string(lent, i.lend(&body, ahead), count);
    let model = plain::write_string(&mut out, &body);
    t.note("write_string", number);
    let want = (model.number.into(), model.count as u64, &out[..]);
    same(|| format!("write_string {}", hex(&body)), (number, *count, &lent[..]), want)?;
    kept("write_string", i, &body)
}

fn mpints(r: &mut Random, f: &mut Lent, t: &mut Tally) -> Result<(), String> {
    let ahead = r.coin();
    let ([i, _], [n, m]) = (&mut f.inputs, &mut f.numbers);
    let bytes = integer(r);
    let s = encoded(r, &bytes);
    let (sign, told): (&mut i64, &mut raw::StringParts) = (m.numbers(r.word(), ahead), n.numbers(r.word(), ahead));
    let number = raw::read_mpint(i.lend(&s, ahead), sign, told);
    let model = plain::read_mpint(&s);
    t.note("read_mpint", number);
    same(
        || format!("read_mpint {}", hex(&s)),
        (number, *sign, *told),
        (model.number.into(), model.sign.into(), parts(model.body, model.rest)),
    )?;
    kept("read_mpint", i, &s)?;
    let mut out = output(r, 4 + bytes.len());
    let lent = f.out.lend(&out, ahead);
    let count: &mut u64 = n.numbers(r.word(), ahead);
    let number = raw::write_mpint(lent, i.lend(&bytes, ahead), count);
    let model = plain::write_mpint(&mut out, &bytes);
    t.note("write_mpint", number);
    let want = (model.number.into(), model.count as u64, &out[..]);
    same(|| format!("write_mpint {}", hex(&bytes)), (number, *count, &lent[..]), want)?;
    kept("write_mpint", i, &bytes)
}

fn name(r: &mut Random) -> Vec<u8> {
    match r.below(40) {
        0 => {
            let n = r.range(60, 66);
            vec![b'n'; n]
        }
        1 => Vec::new(),
        2 => {
            let mut v = r.of(&OTHERS).to_vec();
            let i = r.below(v.len());
            v[i] = r.of(&[0, 10, 32, 33, 126, 127, 128, 255, b',']);
            v
        }
        3..=9 => {
            let n = r.range(1, 20);
            (0..n).map(|_| r.range(33, 126) as u8).filter(|b| *b != b',').chain([b'x']).collect()
        }
        10..=24 => r.of(&METHOD_NAMES).to_vec(),
        _ => r.of(&OTHERS).to_vec(),
    }
}

pub fn names(r: &mut Random, many: usize) -> Vec<u8> {
    let n = r.below(many + 1);
    let all: Vec<Vec<u8>> = (0..n).map(|_| name(r)).collect();
    all.join(&b',')
}

/// A list whose names are good: methods, host keys, or others.
fn good_names(r: &mut Random, pool: &[&[u8]], many: usize) -> Vec<u8> {
    let n = r.range(1, many);
    let all: Vec<&[u8]> = (0..n).map(|_| if r.once_in(6) { r.of(&OTHERS) } else { r.of(pool) }).collect();
    all.join(&b',')
}

pub fn ten(r: &mut Random) -> Vec<Vec<u8>> {
    let good = !r.once_in(6);
    let mut lists: Vec<Vec<u8>> = (0..10).map(|i| match (good, i) {
        (true, 0) => good_names(r, &METHOD_NAMES, 6),
        (true, 1) => good_names(r, &OTHERS[..4], 4),
        (true, _) => if r.coin() { good_names(r, &OTHERS, 2) } else { Vec::new() },
        _ => names(r, 4),
    }).collect();
    if r.once_in(16) {
        // up to the edge of 4,096, and a byte past it
        let rest: usize = lists.iter().skip(1).map(Vec::len).sum::<usize>() + 62;
        let to = r.range(4090, 4099).saturating_sub(rest);
        let filler: Vec<u8> = b"abcdefghijklmno,".iter().copied().cycle().take(to.max(1) - 1).chain([b'z']).collect();
        lists[0] = filler;
    }
    lists
}

/// A KEXINIT, and where its fields begin: the cookie, the lists, boolean and reserved number.
fn fields(r: &mut Random) -> (Vec<u8>, Vec<usize>) {
    let mut v = vec![20];
    v.extend(r.bytes(16));
    let mut begins = vec![1];
    for l in ten(r) {
        begins.push(v.len());
        v.extend_from_slice(&(l.len() as u32).to_be_bytes());
        v.extend_from_slice(&l);
    }
    begins.extend([v.len(), v.len() + 1]);
    v.push(r.of(&[0, 0, 0, 1, 1, 2, 255]));
    v.extend(r.bytes(4));
    (v, begins)
}

/// One to open: often it breaks in a field.
pub fn opened(r: &mut Random) -> Vec<u8> {
    if r.once_in(4) {
        let (mut v, begins) = fields(r);
        broken(r, &mut v, &begins, 1..11);
        return v;
    }
    payload(r)
}

pub fn payload(r: &mut Random) -> Vec<u8> {
    let (mut v, begins) = fields(r);
    if r.once_in(8) {
        match r.below(8) {
            0 => v.clear(),
            1 => v[0] = r.byte(),
            2 => {
                let n = r.below(v.len());
                v.truncate(n);
            }
            3 => v.push(0),
            4 => {
                let i = r.range(17, v.len() - 1);
                v[i] = r.byte();
            }
            5 => v[17..21].copy_from_slice(&r.of(&[0xffff_fffdu32, 0xffff_ffff, 5000, 0]).to_be_bytes()),
            6 => broken(r, &mut v, &begins, 1..11),
            _ => {
                let n = r.below(100);
                v = r.bytes(n);
            }
        }
    }
    v
}

/// The cursor after the call, and whether a name was found.
fn next_on_both(
    r: &mut Random, payload: &[u8], lent: &[u8], cursor: raw::Cursor, numbers: &mut [Fence; 2], t: &mut Tally,
) -> Result<(raw::Cursor, bool), String> {
    let (ahead, [n, m]) = (r.coin(), numbers);
    let (moved, name): (_, &mut raw::Part) = (m.given(cursor, ahead), n.numbers(r.word(), ahead));
    let number = raw::next_name(lent, moved, name);
    let model = plain::next_name(payload, plain::Cursor { at: cursor.at as usize, end: cursor.end as usize });
    t.note("next_name", number);
    let after = raw::Cursor { at: model.cursor.at as u64, end: model.cursor.end as u64 };
    same(
        || format!("next_name {} at {:?}", hex(payload), cursor),
        (number, *name, *moved),
        (model.number.into(), part(model.name), after),
    )?;
    // the end and a bad name are told by a name of no bytes, which no name is
    same(|| format!("a name's length in {} at {:?}", hex(payload), cursor), name.len > 0, model.found)?;
    Ok((after, model.found))
}

/// The specification's opening of a list, as the boundary tells it.
pub fn opened_of(payload: &[u8], list: u64) -> (u64, raw::Opened) {
    let model = plain::open_list(payload, list as usize);
    let opened = raw::Opened {
        cookie: part(model.cookie),
        follows: model.follows.into(),
        reserved: model.reserved.into(),
        cursor: raw::Cursor { at: model.cursor.at as u64, end: model.cursor.end as u64 },
        position: model.position as u64,
    };
    (model.number.into(), opened)
}

fn reader(r: &mut Random, f: &mut Lent, t: &mut Tally) -> Result<(), String> {
    let ahead = r.coin();
    let p = opened(r);
    let lent = f.inputs[0].lend(&p, ahead);
    let list = list_number(r);
    let told: &mut raw::Opened = f.numbers[0].numbers(r.word(), ahead);
    let number = raw::open_list(lent, list, told);
    t.note("open_list", number);
    t.broke(&p, number, told.position);
    let model = opened_of(&p, list);
    same(|| format!("open_list {} {}", hex(&p), list), (number, *told), model)?;
    let mut cursor = model.1.cursor;
    loop {
        let (after, found) = next_on_both(r, &p, lent, cursor, &mut f.numbers, t)?;
        if !found {
            break;
        }
        cursor = after;
    }
    // it stays at the end or before the bad name
    next_on_both(r, &p, lent, cursor, &mut f.numbers, t)?;
    // a cursor that nobody made
    let len = p.len() as u64;
    let edge = [0, 1, len, len.wrapping_sub(1), len + 1, len | 1 << 32, 1 << 32, u64::MAX, u64::MAX - 1];
    let any = |r: &mut Random| if r.coin() { r.of(&edge) } else { r.below(p.len() + 2) as u64 };
    let strange = raw::Cursor { at: any(r), end: any(r) };
    next_on_both(r, &p, lent, strange, &mut f.numbers, t)?;
    kept("open_list and next_name", &f.inputs[0], &p)
}

/// A list's number, or one that is none.
pub fn list_number(r: &mut Random) -> u64 {
    let list = r.range(1, 10) as u64;
    match r.below(60) {
        0 => r.of(&[0, 11, 255, u64::MAX]),
        1 => widened(r, list),
        _ => list,
    }
}

/// The first list, 1 to 10, that no list stands for: one that ends ahead of its beginning or behind the bytes, or has a bad name.
fn bad_list(lists: &[u8], ends: &[u64; 10]) -> u64 {
    let mut from = 0;
    for (number, &end) in (1..).zip(ends) {
        let good = |list: &[u8]| plain::list_is_good(list);
        if end > lists.len() as u64 || !lists.get(from..end as usize).is_some_and(good) {
            return number;
        }
        from = end as usize;
    }
    0
}

/// The specification's writer behind the table of ends: 4 also for a list that there is not, for bytes behind the last one, and for a
/// reserved number above 32 bits.
fn kexinit_of(out: &mut [u8], cookie: &[u8], lists: &[u8], ends: &[u64; 10], follows: u64, reserved: u64) -> (u64, raw::Proposed) {
    let bad_list = bad_list(lists, ends);
    let refused = (4, raw::Proposed { count: 0, bad_list });
    let Ok(reserved) = u32::try_from(reserved) else { return refused };
    if bad_list != 0 || ends[9] != lists.len() as u64 {
        return refused;
    }
    let from = |i: usize| if i == 0 { 0 } else { ends[i - 1] as usize };
    let ten: [&[u8]; 10] = std::array::from_fn(|i| &lists[from(i)..ends[i] as usize]);
    let model = plain::write_kexinit(out, cookie, &ten, follows == 1, reserved);
    (model.number.into(), raw::Proposed { count: model.count as u64, bad_list })
}

fn writer(r: &mut Random, f: &mut Lent, t: &mut Tally) -> Result<(), String> {
    let ahead = r.coin();
    let n = if r.once_in(20) { r.of(&[0, 15, 17, 32]) } else { 16 };
    let cookie = r.bytes(n);
    let ten = ten(r);
    let mut lists = ten.concat();
    let mut total = 0;
    let mut ends: [u64; 10] = std::array::from_fn(|i| {
        total += ten[i].len() as u64;
        total
    });
    if r.once_in(12) {
        match r.below(3) {
            // an end that is elsewhere: ahead of its list, in another one, behind them all
            0 => ends[r.below(10)] = r.of(&[0, 1, total, total + 1, total | 1 << 32, u64::MAX]),
            1 => ends[r.below(10)] = r.below(total as usize + 2) as u64,
            // bytes behind the last one
            _ => lists.push(r.of(b"x,")),
        }
    }
    let follows = r.coin();
    let (follows, mut reserved) = (yes_or_no(r, follows), r.word() as u32 as u64);
    if r.once_in(30) {
        reserved |= r.of(&[1 << 32, 1 << 63, u64::MAX << 32]);
    }
    let mut out = output(r, 62 + lists.len());
    let ([i, c], [n, _]) = (&mut f.inputs, &mut f.numbers);
    let lent = f.out.lend(&out, ahead);
    let told: &mut raw::Proposed = n.numbers(r.word(), ahead);
    let table = f.ends.given(ends, ahead);
    let number = raw::write_kexinit(lent, c.lend(&cookie, ahead), i.lend(&lists, ahead), table, follows, reserved, told);
    let model = kexinit_of(&mut out, &cookie, &lists, &ends, follows, reserved);
    t.note("write_kexinit", number);
    let what = || format!("write_kexinit {} {} {:?} {} {}", hex(&cookie), hex(&lists), ends, follows, reserved);
    same(what, (number, *told, &lent[..]), (model.0, model.1, &out[..]))?;
    same(what, *table, ends)?;
    kept("write_kexinit", i, &lists)?;
    kept("write_kexinit", c, &cookie)
}

/// A method's number, or one that is none.
fn method_number(r: &mut Random) -> u64 {
    let method = r.range(0, 10) as u64;
    match r.below(8) {
        0 => widened(r, method),
        1 => r.byte().into(),
        _ => method,
    }
}

/// The row of a number as it came: a number above 255 has none.
fn row(method: u64) -> Option<&'static plain::Method> {
    plain::method(u8::try_from(method).ok()?)
}

fn methods(r: &mut Random, f: &mut Lent, t: &mut Tally) -> Result<(), String> {
    let mut name = if r.coin() { r.of(&METHOD_NAMES).to_vec() } else { name(r) };
    if r.once_in(4) && !name.is_empty() {
        let i = r.below(name.len());
        match r.below(3) {
            0 => name[i] ^= 1 << r.below(8),
            1 => name.truncate(i),
            _ => name.push(b'a'),
        }
    }
    let (ahead, [i, _], [n, _]) = (r.coin(), &mut f.inputs, &mut f.numbers);
    let core = raw::method_number(i.lend(&name, ahead));
    t.note("method_number", core);
    same(|| format!("method_number {}", hex(&name)), core, u64::from(plain::method_number(&name)))?;
    kept("method_number", i, &name)?;

    let method = method_number(r);
    let row = row(method);
    let name = row.map_or(&[][..], |m| m.name);
    let mut out = output(r, name.len());
    let lent = f.out.lend(&out, ahead);
    let count: &mut u64 = n.numbers(r.word(), ahead);
    let number = raw::method_name(method, lent, count);
    t.note("method_name", number);
    let want = match (row, out.get_mut(..name.len())) {
        (None, _) => 2,
        (_, None) => 5,
        (_, Some(place)) => {
            place.copy_from_slice(name);
            0
        }
    };
    let written = if want == 0 { name.len() as u64 } else { 0 };
    same(|| format!("method_name {}", method), (number, *count, &lent[..]), (want, written, &out[..]))?;
    sizes(method, f, r.word(), ahead, t)
}

/// The method's row, as the boundary tells it.
fn sizes(method: u64, f: &mut Lent, word: u64, ahead: bool, t: &mut Tally) -> Result<(), String> {
    let told: &mut raw::Sizes = f.numbers[0].numbers(word, ahead);
    let number = raw::method_sizes(method, told);
    t.note("method_sizes", number);
    let model = row(method).map_or((2, raw::Sizes::default()), |m| {
        let sizes = raw::Sizes {
            c_len: m.c_len as u64,
            c_classical: m.c_classical as u64,
            s_len: m.s_len as u64,
            s_classical: m.s_classical as u64,
            x_len: m.x_len as u64,
            digest_len: m.digest_len as u64,
            hybrid: m.hybrid.into(),
            zero_check: m.zero_check.into(),
        };
        (0, sizes)
    });
    same(|| format!("method_sizes {}", method), (number, *told), model)
}

fn choice(r: &mut Random, f: &mut Lent, t: &mut Tally) -> Result<(), String> {
    let ahead = r.coin();
    let (client, server) = (payload(r), payload(r));
    let ([a, b], [n, _]) = (&mut f.inputs, &mut f.numbers);
    let told: &mut raw::Choice = n.numbers(r.word(), ahead);
    let number = raw::choose(a.lend(&client, ahead), b.lend(&server, ahead), told);
    let model = plain::choose(&client, &server);
    t.note("choose", number);
    let choice = raw::Choice {
        method: model.method.into(),
        host_key: part(model.host_key),
        ignore_client: model.ignore_client.into(),
        ignore_server: model.ignore_server.into(),
    };
    same(|| format!("choose {} {}", hex(&client), hex(&server)), (number, *told), (model.number.into(), choice))?;
    kept("choose", a, &client)?;
    kept("choose", b, &server)
}

/// Zeros in all of a buffer, and in nothing beside it.
fn wiped(r: &mut Random, f: &mut Lent) -> Result<(), String> {
    let most = if r.once_in(16) { 3 * 4096 } else { 200 };
    let n = r.below(most);
    let bytes = r.bytes(n + 2);
    let lent = f.out.lend(&bytes, r.coin());
    raw::wipe(&mut lent[1..n + 1]);
    let mut want = bytes.clone();
    want[1..n + 1].fill(0);
    same(|| format!("wipe of {} bytes", n), &lent[..], &want[..])?;
    let lent = f.out.lend(&bytes, r.coin());
    raw::wipe(lent);
    same(|| format!("wipe of {} bytes at a fence", n), &lent[..], &vec![0; n + 2][..])
}

/// Bodies of 4 GiB, a byte under the limit and at it: refused by their length, so that nothing of them is read or written.
pub fn long(t: &mut Tally) -> Result<(), String> {
    let zeros = fence::untouched(1 << 32);
    zeros[0] = 1;
    for len in [(1 << 32) - 1, 1 << 32] {
        let mut out = [7; 16];
        let mut count = 7;
        let number = raw::write_string(&mut out, &zeros[..len], &mut count);
        t.note("write_string", number);
        let model = plain::write_string(&mut [7; 16], &zeros[..len]);
        same(|| "write_string of 4 GiB".into(), (number, count), (model.number.into(), model.count as u64))?;
        count = 7;
        let number = raw::write_mpint(&mut out, &zeros[..len], &mut count);
        t.note("write_mpint", number);
        let model = plain::write_mpint(&mut [7; 16], &zeros[..len]);
        same(|| "write_mpint of 4 GiB".into(), (number, count), (model.number.into(), model.count as u64))?;
        same(|| "the output of a refused writer".into(), out, [7; 16])?;
    }
    Ok(())
}

/// Every method's row, and those of numbers that are none.
pub fn rows(f: &mut Lent, t: &mut Tally) -> Result<(), String> {
    let wide = [1 << 8, 1 << 16, 1 << 32, 1 << 63].into_iter().flat_map(|high| (0..=10).map(move |low| high | low));
    (0..=600).chain(wide).chain([u64::MAX]).try_for_each(|method| sizes(method, f, u64::MAX, method % 2 == 0, t))
}

/// One round: a string, an mpint, a method, a KEXINIT read, one written, a choice, and a buffer wiped.
pub fn round(seed: u64, index: u64, f: &mut Lent, t: &mut Tally) -> Result<(), String> {
    let mut r = Random::new(seed, index);
    let r = &mut r;
    strings(r, f, t)
        .and_then(|()| mpints(r, f, t))
        .and_then(|()| methods(r, f, t))
        .and_then(|()| reader(r, f, t))
        .and_then(|()| writer(r, f, t))
        .and_then(|()| choice(r, f, t))
        .and_then(|()| wiped(r, f))
        .map_err(|e| format!("seed {}, round {}: {}", seed, index, e))
}
