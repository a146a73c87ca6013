//! A judge of listings.
//!
//! The judge takes a request file and the listing that was printed for it,
//! and holds the listing against the market's rules. It deals nothing: which
//! orders there are, and what remains of them, it knows from the file's
//! entries and from the fills and the cancels of the listing itself. It has
//! its own reader and its own orders, so that it shares no fault with a book.

mod file;
mod laws;
mod lines;
mod orders;

use std::fmt;

use file::{Entry, Item, Request, Side};
use laws::{Deal, Prices};
use lines::{Fill, Lines};
use orders::{Order, Orders};

const LONGEST_FILE: usize = 65_536;
const LAST_NUMBER: u64 = 999_999;
const HIGHEST_PRICE: u64 = 100_000;
const MEMBERS: usize = 64;

/// Which of two orders with the same price is ahead.
#[derive(Clone, Copy, Debug, PartialEq, Eq)]
pub enum Sequence {
    /// The lower number.
    Time,
    /// The larger entered quantity, then the lower number.
    Size,
}

/// The pile that a listing is judged by: a book, a cap layer over it and a
/// collar layer over that.
#[derive(Clone, Copy, Debug)]
pub struct Terms {
    pub capacity: usize,
    pub sequence: Sequence,
    pub cap: u64,
    pub low: u64,
    pub high: u64,
}

impl Terms {
    /// The pile of the `day` program.
    pub fn day() -> Terms {
        Terms {
            capacity: 8,
            sequence: Sequence::Time,
            cap: 1_000,
            low: 100,
            high: 300,
        }
    }
}

/// Which law fails, and where.
#[derive(Clone, Debug, PartialEq, Eq)]
pub struct Fault {
    /// The listing's line, from 1.
    pub line: usize,
    /// The file's record, from 1, or 0 where no record is at fault.
    pub record: u64,
    /// What is wrong.
    pub words: String,
}

impl fmt::Display for Fault {
    fn fmt(&self, out: &mut fmt::Formatter<'_>) -> fmt::Result {
        write!(out, "line {}", self.line)?;
        if self.record > 0 {
            write!(out, ", record {}", self.record)?;
        }
        write!(out, ": {}", self.words)
    }
}

impl std::error::Error for Fault {}

/// What a law says that does not hold.
type Held = Result<(), String>;

/// Holds a listing of the `day` program against the rules.
pub fn judge_day(file: &[u8], listing: &[u8]) -> Result<(), Fault> {
    judge(file, listing, &Terms::day())
}

/// Holds a listing against the rules.
pub fn judge(file: &[u8], listing: &[u8], terms: &Terms) -> Result<(), Fault> {
    let mut judge = Judge::new(file, listing, *terms);
    let judged = if file.len() > LONGEST_FILE {
        judge.lines.expect("too long")
    } else {
        judge.judge_all(file)
    };
    judged
        .and_then(|()| judge.lines.expect_end())
        .map_err(|words| judge.fault(words))
}

struct Judge<'a> {
    terms: Terms,
    lines: Lines<'a>,
    record: u64,
    orders: Orders,
    dealing: bool,
    admitted: u64,
    /// How many calls are still tried at every price there is.
    scans: u32,
    /// Which calls these are.
    salt: u64,
}

impl<'a> Judge<'a> {
    fn new(file: &[u8], listing: &'a [u8], terms: Terms) -> Judge<'a> {
        Judge {
            terms,
            lines: Lines::new(listing),
            record: 0,
            orders: Orders::new(terms.sequence),
            dealing: false,
            admitted: 0,
            scans: 2,
            salt: file.len() as u64,
        }
    }

    fn fault(&self, words: String) -> Fault {
        Fault {
            line: self.lines.count().max(1),
            record: self.record,
            words,
        }
    }

    fn judge_all(&mut self, file: &[u8]) -> Held {
        self.lines.expect("grain 1")?;
        for item in file::read(file) {
            self.record += 1;
            self.judge_record(&item)?;
        }
        self.record = 0;
        let admitted = self.admitted;
        self.lines
            .expect(&format!("end {admitted}"))
            .map_err(|words| format!("{admitted} requests were admitted: {words}"))
    }

    fn judge_record(&mut self, item: &Item) -> Held {
        let request = match item {
            Item::Refused(number, why) => return self.expect_refusal(*number, "-", why),
            Item::Request(request) => request,
        };
        if let Some((number, height, why)) = self.refusal(request) {
            return self.expect_refusal(number, &height.to_string(), &why);
        }
        self.deny_refusal()?;
        self.admitted += 1;
        match request {
            Request::Enter(entry) => self.judge_entry(entry)?,
            Request::Cancel { number, .. } => self.judge_cancel(*number)?,
            Request::Call => self.judge_call()?,
            Request::Halt => self.judge_halt()?,
        }
        self.judge_what_always_holds()
    }

    fn expect_refusal(&mut self, number: u64, height: &str, why: &str) -> Held {
        let line = format!("{} refused {number} at {height}", self.record);
        self.lines
            .expect(&line)
            .map_err(|words| format!("refusal {number} is due, as {why}: {words}"))
    }

    fn deny_refusal(&mut self) -> Held {
        let refused = format!("{} refused ", self.record);
        match self.lines.peek() {
            Some(line) if line.starts_with(&refused) => {
                self.lines.pass();
                let words = format!("no refusal's sentence is true, and the line is '{line}'");
                Err(words)
            }
            _ => Ok(()),
        }
    }

    /// The refusal that is due, with the height that gives it and the reason.
    fn refusal(&self, request: &Request) -> Option<(u64, u64, String)> {
        match request {
            Request::Enter(entry) => self
                .layers_refuse(entry)
                .or_else(|| self.book_refuses(entry).map(|(n, why)| (n, 0, why))),
            Request::Cancel { member, number } => self.cancel_is_refused(*member, *number),
            Request::Call if self.dealing => Some((11, 0, "a call comes while dealing".into())),
            Request::Halt if !self.dealing => Some((11, 0, "a halt comes while gathering".into())),
            Request::Call | Request::Halt => None,
        }
    }

    fn layers_refuse(&self, entry: &Entry) -> Option<(u64, u64, String)> {
        let Terms { cap, low, high, .. } = self.terms;
        let price = entry.price;
        if price < low || price > high {
            let why = format!("price {price} is not from {low} to {high}");
            return Some((9, 2, why));
        }
        let held = self.orders.held(entry.member);
        if entry.side == Side::Buy && held + entry.quantity > cap {
            let why = format!(
                "member {} holds {held} and {} more exceed {cap}",
                entry.member, entry.quantity
            );
            return Some((8, 1, why));
        }
        None
    }

    fn book_refuses(&self, entry: &Entry) -> Option<(u64, String)> {
        let resting = self.orders.resting().count();
        let reach = self.orders.reach(entry.side, entry.price);
        if !self.dealing && (entry.kill || entry.minimum > 0) {
            let why = "an entry while gathering has a minimum or is kill";
            Some((11, why.into()))
        } else if resting >= self.terms.capacity {
            Some((13, format!("{resting} orders rest")))
        } else if self.orders.given() >= LAST_NUMBER {
            Some((14, "the last number was given".into()))
        } else if entry.minimum > reach {
            let minimum = entry.minimum;
            Some((15, format!("minimum {minimum} is above the reach {reach}")))
        } else {
            None
        }
    }

    fn cancel_is_refused(&self, member: u64, number: u64) -> Option<(u64, u64, String)> {
        let why = match self.orders.resting().find(|order| order.number == number) {
            None => format!("order {number} does not rest"),
            Some(order) if order.member != member => {
                format!("order {number} is member {}'s", order.member)
            }
            Some(_) => return None,
        };
        Some((12, 0, why))
    }

    fn judge_entry(&mut self, entry: &Entry) -> Held {
        let pattern = format!("{} enter # dealt # rest # gone #", self.record);
        let [number, dealt, rest, gone] = self.lines.numbers(&pattern)?;
        let next = self.orders.given() + 1;
        if number != next {
            return Err(format!("the next number is {next}, not {number}"));
        }
        let fills = self.lines.fills()?;
        let order = Order::entered(number, entry);
        let tonnes = self.judge_entry_fills(&order, &fills)?;
        judge_parts(entry, tonnes, dealt, rest, gone)?;
        self.orders.add(order);
        self.orders.deal(&fills)?;
        self.orders.withdraw(number, gone)?;
        self.orders.expect_rest(number, rest)
    }

    /// Holds an entry's fills against the match laws, and says how many
    /// tonnes are to be dealt.
    fn judge_entry_fills(&self, order: &Order, fills: &[Fill]) -> Result<u64, String> {
        if !self.dealing {
            return match fills.first() {
                None => Ok(0),
                Some(_) => Err("an entry while gathering has no fills".into()),
            };
        }
        let alone = vec![order.clone()];
        let others = self.orders.in_reach(order.side, order.price);
        let reach: u64 = others.iter().map(Order::remains).sum();
        let tonnes = reach.min(order.entered);
        let (buyers, sellers) = match order.side {
            Side::Buy => (alone, others),
            Side::Sell => (others, alone),
        };
        let deal = Deal {
            buyers,
            sellers,
            tonnes,
            prices: Prices::OfResting(order.side.other()),
        };
        laws::judge_fills(&deal, fills)?;
        Ok(tonnes)
    }

    fn judge_cancel(&mut self, number: u64) -> Held {
        let pattern = format!("{} cancel {number} gone #", self.record);
        let [gone] = self.lines.numbers(&pattern)?;
        self.orders.withdraw(number, gone)?;
        self.orders.expect_rest(number, 0)
    }

    fn judge_call(&mut self) -> Held {
        let pattern = format!("{} call # #", self.record);
        let [price, volume] = self.lines.numbers(&pattern)?;
        let resting: Vec<Order> = self.orders.resting().cloned().collect();
        laws::judge_call_price(&resting, price, volume, laws::candidates(&resting))?;
        if self.scans > 0 && (self.record + self.salt).is_multiple_of(16) {
            self.scans -= 1;
            laws::judge_call_price(&resting, price, volume, 1..=HIGHEST_PRICE)?;
        }
        let fills = self.lines.fills()?;
        let deal = Deal {
            buyers: self.orders.in_reach(Side::Sell, price),
            sellers: self.orders.in_reach(Side::Buy, price),
            tonnes: volume,
            prices: Prices::One(price),
        };
        laws::judge_fills(&deal, &fills)?;
        self.dealing = true;
        self.orders.deal(&fills)
    }

    fn judge_halt(&mut self) -> Held {
        self.lines.expect(&format!("{} halt", self.record))?;
        self.dealing = false;
        Ok(())
    }

    fn judge_what_always_holds(&self) -> Held {
        self.orders.judge_sums()?;
        self.orders.judge_caps(self.terms.cap)?;
        if self.dealing {
            self.orders.judge_not_crossed()?;
        }
        let resting = self.orders.resting().count();
        if resting > self.terms.capacity {
            return Err(format!("{resting} orders rest, more than the capacity"));
        }
        Ok(())
    }
}

/// The tonnes of an entry are dealt as the rules say, and what is left rests,
/// or is withdrawn under kill.
fn judge_parts(entry: &Entry, tonnes: u64, dealt: u64, rest: u64, gone: u64) -> Held {
    let left = entry.quantity - tonnes;
    let due = if entry.kill { (0, left) } else { (left, 0) };
    if dealt != tonnes {
        Err(format!("{tonnes} tonnes deal, and the line has {dealt}"))
    } else if (rest, gone) != due {
        Err(format!(
            "of {left} tonnes left {} rest and {} are withdrawn, and the line has {rest} and {gone}",
            due.0, due.1
        ))
    } else {
        Ok(())
    }
}

#[cfg(test)]
mod tests;
