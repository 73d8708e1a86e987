//! How often each entry gave each number, held to the numbers that the specification and the header let it give; and in which fields
//! payloads broke, which must be all.
use castulfrisa::{Field, Message, Place};

/// What INIT's and REPLY's steps answer, and the calls that tell of them.
const READ: &[u64] = &[0, 1, 3, 10, 11, 12, 13, 14, 15];

pub const ENTRIES: [(&str, &[u64]); 29] = [
    ("read_string", &[0, 12]),
    ("write_string", &[0, 4, 5]),
    ("read_mpint", &[0, 12, 22]),
    ("write_mpint", &[0, 4, 5]),
    ("method_number", &[0, 1, 2, 3, 4, 5, 6, 7, 8, 9]),
    ("method_name", &[0, 2, 5]),
    ("method_sizes", &[0, 2]),
    ("write_kexinit", &[0, 4, 5]),
    ("open_list", &[0, 4, 10, 11, 12, 13]),
    ("next_name", &[0, 19]),
    ("choose", &[0, 10, 11, 12, 13, 19, 20, 21]),
    ("start", &[0, 1, 2, 3, 4]),
    ("own_c", &[0, 1, 3, 4, 5]),
    ("read_init", READ),
    ("read_reply", READ),
    ("take_secret", &[0, 1, 3, 4, 16, 17]),
    ("sign", &[0, 1, 3, 4, 5]),
    ("verdict", &[0, 1, 3, 5, 18]),
    ("again", &[0, 1, 2, 3, 4, 23]),
    ("init_c", READ),
    ("reply_host_key", READ),
    ("reply_s", READ),
    ("reply_signature", READ),
    ("state", &[0, 1]),
    ("session_id", &[0, 1]),
    ("derive", &[0, 1, 4, 5]),
    ("hash_start", &[0, 4]),
    ("hash_feed", &[0, 4]),
    ("hash_finish", &[0, 4]),
];

/// Counts by number; the last one is for all that are above.
const NUMBERS: usize = 256;

const MESSAGES: [Message; 3] = [Message::Init, Message::Reply, Message::Kexinit];
/// A KEXINIT's fields, the most that a message has, and what is left over behind them.
const FIELDS: usize = 13 + 1;

pub struct Tally {
    numbers: [[u64; NUMBERS]; ENTRIES.len()],
    /// How often each field of a message was the one that is cut, in its length bytes and elsewhere; behind the fields, how often bytes were
    /// left over.
    broke: [[[u64; 2]; FIELDS]; MESSAGES.len()],
    /// Positions with 12 that are no field's, and with 13 that are not behind the last.
    astray: u64,
}

impl Default for Tally {
    fn default() -> Tally {
        Tally { numbers: [[0; NUMBERS]; ENTRIES.len()], broke: Default::default(), astray: 0 }
    }
}

/// Whether a field can be cut in length bytes, and elsewhere.
fn places(field: Option<&Field>) -> [bool; 2] {
    [field.is_some_and(|field| field.is_string()), true]
}

impl Tally {
    pub fn note(&mut self, entry: &str, number: u64) {
        let i = ENTRIES.iter().position(|e| e.0 == entry).expect("an entry of the table");
        self.numbers[i][number.min(NUMBERS as u64 - 1) as usize] += 1;
    }

    /// What a reader answered a payload, and the position that it told.
    pub fn broke(&mut self, payload: &[u8], number: u64, position: u64) {
        if number != 12 && number != 13 {
            return;
        }
        match Place::of(payload, position) {
            Some(Place { message, field, in_length, .. }) if field.is_some() == (number == 12) => {
                let m = MESSAGES.iter().position(|of| *of == message).expect("a message of the table");
                let fields = message.fields();
                let f = fields.iter().position(|of| Some(*of) == field).unwrap_or(fields.len());
                self.broke[m][f][usize::from(!in_length)] += 1;
            }
            _ => self.astray += 1,
        }
    }

    /// Prints where payloads broke; false where they never did in one of the fields, or a position was told that is none.
    pub fn print_broke(&self) -> bool {
        let mut good = self.astray == 0;
        for (message, counts) in MESSAGES.iter().zip(&self.broke) {
            for (field, counts) in message.fields().iter().map(Some).chain([None]).zip(counts) {
                for (can, count) in places(field).into_iter().zip(counts) {
                    match (can, count) {
                        (false, _) => print!("{:>9}", ""),
                        (true, 0) => print!("{:>9}", "NEVER"),
                        (true, count) => print!("{:>9}", count),
                    }
                    good &= !can || *count > 0;
                }
                println!(" {} {}", message, field.map_or("left over", |field| field.name()));
            }
        }
        if self.astray > 0 {
            println!("{:>18} positions ASTRAY", self.astray);
        }
        good
    }

    /// Prints the shares; false where an entry gave a number that is not its own, or never gave one that is.
    pub fn print(&self) -> bool {
        let mut good = true;
        for ((name, numbers), counts) in ENTRIES.iter().zip(&self.numbers) {
            let total: u64 = counts.iter().sum();
            print!("{:16}{:>9} calls:", name, total);
            for &n in *numbers {
                let c = counts[n as usize];
                let share = 100.0 * c as f64 / total.max(1) as f64;
                match c {
                    0 => print!("  {} NEVER", n),
                    _ if share < 0.01 => print!("  {} {} times", n, c),
                    _ => print!("  {} {:.2}%", n, share),
                }
                good &= c > 0;
            }
            for n in (0..NUMBERS).filter(|n| counts[*n] > 0 && !numbers.contains(&(*n as u64))) {
                print!("  {} NOT ITS OWN", n);
                good = false;
            }
            println!();
        }
        good
    }
}

#[cfg(test)]
mod tests {
    use super::*;

    /// Payloads that break in every place that is counted, with what is told of them.
    fn every_place() -> Vec<(Vec<u8>, u64, u64)> {
        let mut all = Vec::new();
        for message in MESSAGES {
            let mut whole = vec![message as u8];
            for field in message.fields() {
                let at = whole.len() as u64;
                let string = places(Some(field))[0];
                all.push((whole.clone(), 12, at));
                whole.extend(match field {
                    Field::Cookie => vec![0; 16],
                    Field::Follows => vec![0],
                    _ => vec![0; 4],
                });
                if string {
                    let mut long = whole.clone();
                    long[at as usize + 3] = 1;
                    all.push((long, 12, at));
                }
            }
            let end = whole.len() as u64;
            whole.push(0);
            all.push((whole, 13, end));
        }
        all
    }

    #[test]
    fn a_field_that_is_never_cut_is_noticed() {
        let all = every_place();
        assert_eq!(all.len(), 2 + 1 + 6 + 1 + 23 + 1);
        for but in 0..all.len() {
            let mut tally = Tally::default();
            for (payload, number, position) in all.iter().enumerate().filter(|(i, _)| *i != but).map(|(_, one)| one) {
                tally.broke(payload, *number, *position);
            }
            assert!(!tally.print_broke());
            let (payload, number, position) = &all[but];
            // other numbers do not count, and a place that is none is noticed
            tally.broke(payload, 14, *position);
            assert!(!tally.print_broke());
            tally.broke(payload, *number, *position);
            assert!(tally.print_broke());
            tally.broke(payload, 25 - number, *position);
            assert!(!tally.print_broke());
        }
        let mut tally = Tally::default();
        all.iter().for_each(|(payload, number, position)| tally.broke(payload, *number, *position));
        tally.broke(&all[0].0, 12, 0);
        assert!(!tally.print_broke());
    }
}
