//! The differential test: HELP says what it tries.
use differ::command::{words, wrong};
use differ::{captured, codecs, cuts, hashes, keys, lists, sessions, tally::Tally};
use std::process::ExitCode;

const HELP: &str = "\
usage: differ [--lists N] [--rounds N] [--hashes N] [--seed N] [--captures FOLDER] [--list I | --round I | --hash I] [--progress]
Random lists of calls, keys and sessions one thing at a time, lists of calls of a hash, rounds of codecs, methods, KEXINIT and choice, and every
captured message of a folder (tests/captures where none is named) broken in every place, on the compiled library and on the specification in plain
Rust. A difference names its list, round or hash, which --list, --round or --hash runs alone, with the same --seed, and without a word where both
agree. A byte touched outside of what was lent ends the run with a signal.
`make rust-host` makes it: build/cargo/release/differ, and with the library for size build/cargo-small/release/differ. Without words it makes a million
lists and 300,000 of the others, in 25 seconds; --lists 10000 --rounds 3000 --hashes 3000 take one.
Exits 0; 1 at the first difference, where an entry gave a number that is not its own or never gave one that is, and where something was never tried, as
in a run that is too short (1,000 of each are); 2 where it is called wrongly.
";

struct Asked {
    lists: u64,
    rounds: u64,
    hashes: u64,
    seed: u64,
    captures: String,
    only_list: Option<u64>,
    only_round: Option<u64>,
    only_hash: Option<u64>,
    progress: bool,
}

/// What the words ask for; none where they make no sense.
fn asked(words: Vec<String>) -> Option<Asked> {
    let mut a = Asked {
        lists: 1_000_000,
        rounds: 300_000,
        hashes: 300_000,
        seed: 20_261_115,
        captures: "tests/captures".into(),
        only_list: None,
        only_round: None,
        only_hash: None,
        progress: false,
    };
    let mut words = words.into_iter();
    while let Some(word) = words.next() {
        if word == "--progress" {
            a.progress = true;
            continue;
        }
        let next = words.next()?;
        if word == "--captures" {
            a.captures = next;
            continue;
        }
        let n = next.parse().ok()?;
        match &word[..] {
            "--lists" => a.lists = n,
            "--rounds" => a.rounds = n,
            "--hashes" => a.hashes = n,
            "--seed" => a.seed = n,
            "--list" => a.only_list = Some(n),
            "--round" => a.only_round = Some(n),
            "--hash" => a.only_hash = Some(n),
            _ => return None,
        }
    }
    Some(a)
}

fn run(a: &Asked) -> Result<bool, String> {
    if !castulfrisa::same_version() {
        return Err("the library is of another version".into());
    }
    let mut tally = Tally::default();
    let mut seen = lists::Seen::default();
    let mut lent = lists::Lent::default();
    if let Some(i) = a.only_list {
        return lists::list(a.seed, i, &mut lent, &mut tally, &mut seen).map(|()| true);
    }
    let mut lent_to_codecs = codecs::Lent::default();
    if let Some(i) = a.only_round {
        return codecs::round(a.seed, i, &mut lent_to_codecs, &mut tally).map(|()| true);
    }
    let (mut lent_to_hashes, mut tried) = (hashes::Lent::default(), hashes::Tried::default());
    if let Some(i) = a.only_hash {
        return hashes::list(a.seed, i, &mut lent_to_hashes, &mut tally, &mut tried).map(|()| true);
    }
    let tell = |what: &str, i: u64, of: u64| {
        if a.progress && (i + 1) % 100_000 == 0 {
            println!("{} of {} {}", i + 1, of, what);
        }
    };
    codecs::rows(&mut lent_to_codecs, &mut tally)?;
    codecs::long(&mut tally)?;
    let mut of_cuts = cuts::Tried::default();
    for capture in captured::all(&a.captures)? {
        cuts::capture(&mut of_cuts, &capture).map_err(|what| format!("{}: {}", capture.name, what))?;
    }
    for i in 0..a.rounds {
        codecs::round(a.seed, i, &mut lent_to_codecs, &mut tally)?;
        tell("rounds", i, a.rounds);
    }
    for i in 0..a.lists {
        lists::list(a.seed, i, &mut lent, &mut tally, &mut seen)?;
        tell("lists", i, a.lists);
    }
    let mut lent_to_keys = keys::Lent::default();
    keys::edges(&mut lent_to_keys, &mut tally)?;
    let mut of_sessions = sessions::Tried::default();
    sessions::edges(&mut of_sessions, &mut tally)?;
    hashes::edges(&mut lent_to_hashes, &mut tally, &mut tried)?;
    for i in 0..a.hashes {
        hashes::list(a.seed, i, &mut lent_to_hashes, &mut tally, &mut tried)?;
        tell("hashes", i, a.hashes);
    }
    println!(
        "seed {}: {} rounds of codecs, KEXINIT and choice, {} lists of calls, {} keys and {} calls on sessions one by one, {} payloads of captured \
         messages broken, {} lists of a hash, no difference",
        a.seed, a.rounds, a.lists, lent_to_keys.count, of_sessions.count, of_cuts.payloads, a.hashes
    );
    println!("lists:");
    let all = seen.print();
    println!("hashes:");
    let all = tried.print() && all;
    println!("captured messages, and how often each field was the cut one, in its length bytes and behind them:");
    let all = of_cuts.print() && all;
    println!("random messages, likewise:");
    let all = tally.print_broke() && all;
    println!("share of each number among an entry's answers:");
    Ok(tally.print() && all)
}

fn main() -> ExitCode {
    let Some(a) = asked(words(HELP)) else { return wrong(HELP) };
    match run(&a) {
        Ok(true) => ExitCode::SUCCESS,
        Ok(false) => {
            eprintln!("differ: an entry gave a number that is not its own or never gave one that is, or something was never tried");
            ExitCode::FAILURE
        }
        Err(what) => {
            eprintln!("differ: {}", what);
            ExitCode::FAILURE
        }
    }
}
