//! What the programs print.

use std::fmt::Write;

use crate::book::{Answer, Fill, Rule};
use crate::format::{MOST_BYTES, Reader};
use crate::ledger::{Account, Ledger};
use crate::pile::{DAY_CAPACITY, Pile, Refused};
use crate::refusal::Refusal;

const TOO_LONG: &str = "too long\n";
const FIRST_LINE: &str = "grain 1\n";

/// The programs whose listings the model gives.
#[derive(Clone, Copy, Debug, PartialEq, Eq)]
pub enum Mode {
    Day,
    Books,
    Settle,
}

impl Mode {
    /// The mode of a name.
    pub fn from_name(name: &str) -> Option<Mode> {
        match name {
            "day" => Some(Mode::Day),
            "books" => Some(Mode::Books),
            "settle" => Some(Mode::Settle),
            _ => None,
        }
    }

    /// What the program prints for a file.
    pub fn listing(self, file: &[u8]) -> String {
        match self {
            Mode::Day => day(file),
            Mode::Books => books(file),
            Mode::Settle => settle(file),
        }
    }
}

/// What `day` prints.
pub fn day(file: &[u8]) -> String {
    deal(file, DAY_CAPACITY, Rule::Time)
}

/// What `day` would print with another capacity and another rule.
///
/// The capacity has to be one that a book can have.
pub fn deal(file: &[u8], capacity: usize, rule: Rule) -> String {
    if file.len() > MOST_BYTES {
        return TOO_LONG.into();
    }
    let mut out = String::from(FIRST_LINE);
    let mut admitted = 0;
    serve_all(file, capacity, rule, |count, served, fills| match served {
        Ok(answer) => {
            admitted += 1;
            write_answer(&mut out, count, answer);
            fills.iter().for_each(|fill| write_fill(&mut out, fill));
        }
        Err(refusal) => write_refusal(&mut out, count, refusal),
    });
    line(&mut out, format_args!("end {admitted}"));
    out
}

/// What `books` prints.
pub fn books(file: &[u8]) -> String {
    if file.len() > MOST_BYTES {
        return TOO_LONG.into();
    }
    let mut out = String::new();
    for (name, rule) in [("time", Rule::Time), ("size", Rule::Size)] {
        let listing = deal(file, DAY_CAPACITY, rule);
        for kind in ["shelf", "ranked"] {
            line(&mut out, format_args!("{kind} {name}"));
            out.push_str(&listing);
        }
    }
    out
}

/// What `settle` prints.
///
/// The fills are those that the rules give, so no claim of them fails.
pub fn settle(file: &[u8]) -> String {
    if file.len() > MOST_BYTES {
        return TOO_LONG.into();
    }
    let mut out = String::from(FIRST_LINE);
    let mut ledger = Ledger::default();
    serve_all(file, DAY_CAPACITY, Rule::Time, |count, _, fills| {
        if let Err(refusal) = ledger.book(fills) {
            let number = refusal.number();
            line(&mut out, format_args!("{count} booking refused {number}"));
        }
    });
    write_standing(&mut out, &ledger);
    out
}

/// A refusal by a reader or by a pile.
enum NotServed {
    Read(Refusal),
    Pile(Refused),
}

/// Serves all requests of a file on a fresh pile, and tells what came of
/// each, with the record's count and its fills.
fn serve_all(
    file: &[u8],
    capacity: usize,
    rule: Rule,
    mut tell: impl FnMut(usize, Result<&Answer, NotServed>, &[Fill]),
) {
    let mut pile = Pile::day(capacity, rule).expect("the capacity is one that a book can have");
    let mut fills = vec![Fill::default(); capacity];
    for (record, count) in Reader::new(file).zip(1..) {
        let served = record.request.map_err(NotServed::Read);
        let served =
            served.and_then(|request| pile.serve(&request, &mut fills).map_err(NotServed::Pile));
        match served {
            Ok(answer) => tell(count, Ok(&answer), &fills[..answer.fills()]),
            Err(refusal) => tell(count, Err(refusal), &[]),
        }
    }
}

fn line(out: &mut String, words: std::fmt::Arguments<'_>) {
    out.write_fmt(words).expect("a string takes all writing");
    out.push('\n');
}

fn write_answer(out: &mut String, count: usize, answer: &Answer) {
    match answer {
        Answer::Entered(e) => line(
            out,
            format_args!(
                "{count} enter {} dealt {} rest {} gone {}",
                e.number, e.dealt, e.rests, e.withdrawn
            ),
        ),
        Answer::Cancelled(c) => line(
            out,
            format_args!("{count} cancel {} gone {}", c.number, c.withdrawn),
        ),
        Answer::Called(c) => line(out, format_args!("{count} call {} {}", c.price, c.volume)),
        Answer::Halted => line(out, format_args!("{count} halt")),
    }
}

fn write_fill(out: &mut String, fill: &Fill) {
    let Fill {
        buy,
        sell,
        price,
        quantity,
        ..
    } = fill;
    line(out, format_args!("fill {buy} {sell} {price} {quantity}"));
}

fn write_refusal(out: &mut String, count: usize, refusal: NotServed) {
    match refusal {
        NotServed::Read(refusal) => line(
            out,
            format_args!("{count} refused {} at -", refusal.number()),
        ),
        NotServed::Pile(Refused { refusal, height }) => line(
            out,
            format_args!("{count} refused {} at {height}", refusal.number()),
        ),
    }
}

fn write_standing(out: &mut String, ledger: &Ledger) {
    for each in ledger.standing() {
        let (rank, member) = (each.rank, each.member);
        write_account(out, format_args!("{rank} member {member}"), &each.account);
    }
    write_account(out, format_args!("total"), &ledger.total());
}

fn write_account(out: &mut String, whose: std::fmt::Arguments<'_>, account: &Account) {
    let Account {
        bought,
        sold,
        pays,
        receives,
    } = account;
    line(
        out,
        format_args!("{whose} bought {bought} sold {sold} pays {pays} receives {receives}"),
    );
}

#[cfg(test)]
mod tests {
    use super::*;

    const FILE: &[u8] = include_bytes!("../../examples/day.grain");
    const DAY: &str = "\
grain 1
1 enter 1 dealt 0 rest 300 gone 0
2 enter 2 dealt 0 rest 100 gone 0
3 enter 3 dealt 0 rest 100 gone 0
4 enter 4 dealt 0 rest 100 gone 0
5 call 190 200
fill 1 2 190 100
fill 1 3 190 100
6 refused 15 at 0
7 enter 5 dealt 100 rest 0 gone 50
fill 1 5 200 100
8 cancel 4 gone 100
9 refused 8 at 1
10 refused 9 at 2
11 halt
end 8
";

    #[test]
    fn the_worked_example() {
        assert_eq!(day(FILE), DAY);
    }

    #[test]
    fn the_worked_example_on_four_piles() {
        let expected =
            format!("shelf time\n{DAY}ranked time\n{DAY}shelf size\n{DAY}ranked size\n{DAY}");
        assert_eq!(books(FILE), expected);
    }

    #[test]
    fn the_worked_example_settled() {
        let listing = settle(FILE);
        let lines: Vec<_> = listing.lines().collect();
        assert_eq!(lines[0], "grain 1");
        assert_eq!(
            lines[1],
            "1 member 1 bought 300 sold 0 pays 58000 receives 0"
        );
        assert_eq!(
            lines[lines.len() - 1],
            "total bought 300 sold 300 pays 58000 receives 58000"
        );
        assert_eq!(lines.len(), 6);
    }

    #[test]
    fn files_that_end_at_once() {
        assert_eq!(day(&[]), "grain 1\n1 refused 2 at -\nend 0\n");
        assert_eq!(day(&[1]), "grain 1\nend 0\n");
        assert_eq!(
            day(&[1, 0, 1, 3, 0]),
            "grain 1\n1 call 0 0\n2 refused 3 at -\nend 1\n"
        );
        assert_eq!(
            settle(&[]),
            "grain 1\ntotal bought 0 sold 0 pays 0 receives 0\n"
        );
    }

    #[test]
    fn long_files_are_not_read() {
        let longest = vec![1; MOST_BYTES];
        assert!(day(&longest).starts_with(FIRST_LINE));
        let longer = vec![1; MOST_BYTES + 1];
        for mode in [Mode::Day, Mode::Books, Mode::Settle] {
            assert_eq!(mode.listing(&longer), TOO_LONG);
        }
    }
}
