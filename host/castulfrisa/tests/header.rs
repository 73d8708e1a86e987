//! This crate says again what `include/castulfrisa.h` says: sizes, numbers, sentences, structs and entries, all written by hand.
//! Here the two are held against each other, so that neither changes alone.
use castulfrisa::*;
use std::collections::BTreeMap;
use std::fmt::Debug;

const HEADER: &str = include_str!("../../../include/castulfrisa.h");
const RAW: &str = include_str!("../src/raw.rs");

/// The text without what stands in C's or Rust's comments, its words parted by single spaces.
fn bare(text: &str) -> String {
    let mut out = String::new();
    let mut rest = text;
    while let Some((ahead, behind)) = rest.split_once("/*") {
        out += ahead;
        rest = behind.split_once("*/").expect("a comment ends").1;
    }
    out += rest;
    let lines = out.lines().map(|line| line.split("//").next().unwrap_or_default());
    lines.flat_map(str::split_whitespace).collect::<Vec<_>>().join(" ")
}

/// `NAME number` of every size that the header defines.
fn sizes() -> BTreeMap<&'static str, u64> {
    let lines = HEADER.lines().filter_map(|line| line.strip_prefix("#define CASTULFRISA_")?.split_once(' '));
    lines.filter_map(|(name, value)| Some((name, value.split_whitespace().next()?.parse().ok()?))).collect()
}

/// The names and numbers of an enum of the header.
fn numbers(name: &str) -> BTreeMap<String, u64> {
    let text = bare(HEADER);
    let body = text.split_once(&format!("enum castulfrisa_{} {{", name)).expect("an enum of the header").1;
    let cases = body.split_once('}').expect("it ends").0.split(',');
    let pair = |case: &str| {
        let (name, number) = case.trim().strip_prefix("CASTULFRISA_").expect("a name").split_once(" = ").expect("a number");
        (name.to_string(), number.parse().expect("a number"))
    };
    cases.map(pair).collect()
}

/// A Rust name as the header has it: `CipherC2s` is `CIPHER_C2S`.
fn upper(name: impl Debug) -> String {
    let mut out = String::new();
    for c in format!("{:?}", name).chars() {
        if c.is_ascii_uppercase() && !out.is_empty() {
            out.push('_');
        }
        out.push(c.to_ascii_uppercase());
    }
    out
}

#[test]
fn sizes_are_the_headers() {
    let ours = [
        ("VERSION", VERSION),
        ("EXCHANGE", EXCHANGE as u64),
        ("ROOM", ROOM as u64),
        ("INIT", INIT as u64),
        ("REPLY", REPLY as u64),
        ("K", K::SIZE as u64),
        ("V_MOST", V_MOST as u64),
        ("KEXINIT_MOST", KEXINIT_MOST as u64),
        ("BLOB_MOST", BLOB_MOST as u64),
        ("PAYLOAD_MOST", PAYLOAD_MOST as u64),
        ("VALUE_MOST", VALUE_MOST as u64),
        ("X_MOST", X_MOST as u64),
        ("K_PQ_SIZE", K_PQ_SIZE as u64),
        ("H_SIZE", H_SIZE as u64),
        ("KEY_MOST", KEY_MOST as u64),
        ("HASH_SIZE", HASH_SIZE as u64),
        ("HASH_MOST", HASH_MOST as u64),
        ("COOKIE", COOKIE as u64),
        ("LISTS", LISTS as u64),
        ("METHOD_NAME_MOST", METHOD_NAME_MOST as u64),
        ("STACK", STACK as u64),
    ];
    assert_eq!(sizes(), BTreeMap::from(ours));
}

#[test]
fn numbers_are_the_headers() {
    let refusals = (1..100).map(Refusal::of).filter(|refusal| !matches!(refusal, Refusal::Other(_)));
    let ours = refusals.map(|refusal| (upper(refusal), refusal.number())).chain([("OK".to_string(), 0)]);
    assert_eq!(numbers("number"), ours.collect());
    let ours = [Role::Client, Role::Server].map(|role| (upper(role), role as u64));
    assert_eq!(numbers("role"), ours.into());
    let ours = Method::ALL.map(|method| (upper(method), method.number()));
    assert_eq!(numbers("method"), ours.into());
    let ours = List::ALL.map(|list| (format!("LIST_{}", upper(list)), list.number()));
    assert_eq!(numbers("list"), ours.into());
    let ours = [("ABSENT", Kem::Absent), ("FAILED", Kem::Failed), ("DONE", Kem::Done(&[]))];
    assert_eq!(numbers("kem"), ours.map(|(name, kem)| (format!("KEM_{}", name), kem.number())).into());
    let ours = Kind::ALL.map(|kind| (format!("{:?}", kind).to_uppercase(), kind.number()));
    assert_eq!(numbers("kind"), ours.into());
    let ours = Letter::ALL.map(|letter| (upper(letter), letter.number()));
    assert_eq!(numbers("letter"), ours.into());
}

#[test]
fn sentences_are_the_headers() {
    let numbers = numbers("number");
    let mut count = 0;
    for line in HEADER.lines().filter_map(|line| line.trim().strip_prefix("case CASTULFRISA_")) {
        let (name, text) = line.split_once(": return \"").expect("a sentence");
        let number = numbers[name];
        if number != 0 {
            let text = text.strip_suffix("\";").expect("its end");
            assert_eq!(Refusal::of(number).to_string(), format!("{} ({})", text, number));
        }
        count += 1;
    }
    assert_eq!(count, numbers.len());
    let other = HEADER.split_once("default: return \"").expect("a sentence for the rest").1.split_once('"').expect("its end").0;
    assert_eq!(Refusal::of(99).to_string(), format!("{} (99)", other));
}

/// The names that castulfrisa_field has, in its order, but for the two that are no field's.
#[test]
fn fields_are_the_headers() {
    let body = HEADER.split_once("*castulfrisa_field(").expect("castulfrisa_field").1.split_once("\n}\n").expect("its end").0;
    let names = body.split('"').skip(1).step_by(2).filter(|name| !["no field", "bytes left over"].contains(name));
    let fields = |message: Message| message.fields().iter().map(|field| field.name());
    let mut lists = fields(Message::Kexinit).collect::<Vec<_>>();
    // the header has those that are no lists where it comes to them
    let (behind, ahead) = (lists.split_off(11), lists.remove(0));
    let ours = fields(Message::Init).chain(fields(Message::Reply)).chain(lists).chain([ahead]).chain(behind);
    assert_eq!(names.collect::<Vec<_>>(), ours.collect::<Vec<_>>());
    assert_eq!(List::ALL.map(Field::List), Message::Kexinit.fields()[1..11]);
    let numbers = body.split("case ").skip(1).map(|case| case.split_once(':').expect("a case").0.parse().expect("a number"));
    assert_eq!(numbers.collect::<Vec<u8>>(), [20, 30, 31]);
    let ours = (0..=255).filter_map(Message::of).map(|message| (message as u8, message.to_string()));
    let ours = ours.collect::<Vec<_>>();
    assert_eq!(ours, [(20, "KEXINIT".to_string()), (30, "INIT".to_string()), (31, "REPLY".to_string())]);
}

/// What a type of the header is here.
fn rust(of: &str) -> String {
    match of {
        "void" => "()".into(),
        "uint64_t" => "u64".into(),
        "int64_t" => "i64".into(),
        "uint8_t" => "u8".into(),
        "castulfrisa_string" => "StringParts".into(),
        other => {
            let name = other.strip_prefix("castulfrisa_").unwrap_or_else(|| panic!("a type of the header: {}", other));
            name[..1].to_uppercase() + &name[1..]
        }
    }
}

/// A parameter of the header, `const uint8_t *name`, as raw.rs has it: `name: *const u8`.
fn parameter(text: &str) -> String {
    let constant = text.starts_with("const ");
    let (of, name) = text.trim_start_matches("const ").rsplit_once(' ').expect("a type and a name");
    let bare = name.trim_start_matches('*').split('[').next().unwrap_or_default();
    match (name != bare, constant) {
        (true, true) => format!("{}: *const {}", bare, rust(of)),
        (true, false) => format!("{}: *mut {}", bare, rust(of)),
        (false, _) => format!("{}: {}", bare, rust(of)),
    }
}

#[test]
fn entries_are_the_headers() {
    let text = bare(HEADER).replace("CASTULFRISA_MUST_USE ", "");
    let mut theirs = BTreeMap::new();
    // what is defined in the header is none of the archive's entries
    for piece in text.split(';').filter(|piece| !piece.contains("static inline") && !piece.contains("typedef")) {
        let Some((ahead, behind)) = piece.split_once('(') else { continue };
        let mut words = ahead.rsplit(' ');
        let (Some(name), Some(back)) = (words.next(), words.next()) else { continue };
        let Some(list) = behind.strip_suffix(')').filter(|_| name.starts_with("castulfrisa_")) else { continue };
        let list: Vec<String> = list.split(',').map(str::trim).filter(|one| *one != "void").map(parameter).collect();
        theirs.insert(name.to_string(), (list, rust(back)));
    }
    let mut ours = BTreeMap::new();
    let text = bare(RAW);
    let block = text.split_once("extern \"C\" {").expect("the entries").1.split_once('}').expect("their end").0;
    for piece in block.split(';').map(str::trim).filter(|piece| !piece.is_empty()) {
        let (ahead, behind) = piece.strip_prefix("pub fn ").expect("an entry").split_once('(').expect("its parameters");
        let (list, back) = behind.split_once(')').expect("their end");
        let list = list.split(',').map(|one| one.trim().to_string()).filter(|one| !one.is_empty()).collect();
        let back = back.trim().strip_prefix("-> ").unwrap_or("()").to_string();
        ours.insert(ahead.to_string(), (list, back));
    }
    assert_eq!(theirs.len(), 31);
    assert_eq!(ours, theirs);
}

#[test]
fn structs_are_the_headers() {
    let text = bare(HEADER);
    let mut theirs = BTreeMap::new();
    for piece in text.split("typedef struct {").skip(1) {
        let (fields, behind) = piece.split_once('}').expect("the struct's end");
        let name = behind.split_once(';').expect("its name").0.trim();
        // the pair of pointer and length that castulfrisa_join takes does not cross
        if name == "castulfrisa_bytes" {
            continue;
        }
        let mut list = Vec::new();
        for line in fields.split(';').map(str::trim).filter(|line| !line.is_empty()) {
            let (of, names) = line.split_once(' ').expect("a type and names");
            list.extend(names.split(", ").map(|field| (field.to_string(), rust(of))));
        }
        theirs.insert(rust(name), list);
    }
    let mut ours = BTreeMap::new();
    for piece in bare(RAW).split("pub struct ").skip(1) {
        let (name, behind) = piece.split_once(" {").expect("its fields");
        let fields = behind.split_once('}').expect("their end").0.split(',').map(str::trim).filter(|field| !field.is_empty());
        let pair = |field: &str| {
            let (name, of) = field.strip_prefix("pub ").expect("a field").split_once(": ").expect("its type");
            (name.to_string(), of.to_string())
        };
        ours.insert(name.to_string(), fields.map(pair).collect());
    }
    assert_eq!(theirs.len(), 12);
    assert_eq!(ours, theirs);
    // each stands as C lays it out
    assert_eq!(bare(RAW).matches("#[repr(C)]").count(), ours.len());
}
