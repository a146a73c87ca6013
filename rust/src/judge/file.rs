//! The judge's own reading of a request file.

/// A side.
#[derive(Clone, Copy, Debug, PartialEq, Eq)]
pub enum Side {
    Buy,
    Sell,
}

impl Side {
    pub fn other(self) -> Side {
        if self == Side::Buy {
            Side::Sell
        } else {
            Side::Buy
        }
    }
}

/// An entry within its ranges.
#[derive(Clone, Copy, Debug, PartialEq, Eq)]
pub struct Entry {
    pub member: u64,
    pub side: Side,
    pub kill: bool,
    pub price: u64,
    pub quantity: u64,
    pub minimum: u64,
}

/// A request.
#[derive(Clone, Copy, Debug, PartialEq, Eq)]
pub enum Request {
    Enter(Entry),
    Cancel { member: u64, number: u64 },
    Call,
    Halt,
}

/// A record, or the refusal that is due in its place and the reason.
#[derive(Clone, Debug, PartialEq, Eq)]
pub enum Item {
    Request(Request),
    Refused(u64, String),
}

fn refused(number: u64, why: &str) -> Item {
    Item::Refused(number, why.to_string())
}

/// All that a file holds, to its end or to the refusal that ends it.
pub fn read(file: &[u8]) -> Vec<Item> {
    if file.is_empty() || file[0] != 1 {
        return vec![refused(2, "the file does not begin with 1")];
    }
    let mut items = Vec::new();
    let mut at = 1;
    while at < file.len() {
        let left = file.len() - at;
        if left == 1 {
            items.push(refused(3, "one byte is left"));
            break;
        }
        let length = number(&file[at..at + 2]) as usize;
        if left - 2 < length {
            let why = format!("{} bytes are left of {length}", left - 2);
            items.push(refused(3, &why));
            break;
        }
        let body = &file[at + 2..at + 2 + length];
        if !known(body) {
            items.push(refused(4, "kind and length are no record's"));
            break;
        }
        items.push(item(body));
        at += 2 + length;
    }
    items
}

fn number(bytes: &[u8]) -> u64 {
    bytes
        .iter()
        .fold(0, |sum, &byte| sum * 256 + u64::from(byte))
}

fn known(body: &[u8]) -> bool {
    let kind = body.first().copied().unwrap_or(0);
    let lengths = [(1, 16), (2, 6), (3, 1), (4, 1)];
    lengths.contains(&(kind, body.len()))
}

fn item(body: &[u8]) -> Item {
    match body[0] {
        1 => entry(body),
        2 if body[1] > 63 => refused(5, "the member is above 63"),
        2 => Item::Request(Request::Cancel {
            member: number(&body[1..2]),
            number: number(&body[2..6]),
        }),
        3 => Item::Request(Request::Call),
        _ => Item::Request(Request::Halt),
    }
}

fn entry(body: &[u8]) -> Item {
    let [member, side, life] = [body[1], body[2], body[3]];
    let price = number(&body[4..8]);
    let quantity = number(&body[8..12]);
    let minimum = number(&body[12..16]);
    if member > 63 {
        return refused(5, "the member is above 63");
    }
    if ![1, 2].contains(&side) || ![1, 2].contains(&life) {
        return refused(6, "side or life is neither 1 nor 2");
    }
    if !(1..=100_000).contains(&price) {
        return refused(7, "the price is not from 1 to 100,000");
    }
    if !(1..=50_000).contains(&quantity) {
        return refused(7, "the quantity is not from 1 to 50,000");
    }
    if minimum > quantity {
        return refused(7, "the minimum is above the quantity");
    }
    Item::Request(Request::Enter(Entry {
        member: member.into(),
        side: if side == 1 { Side::Buy } else { Side::Sell },
        kill: life == 2,
        price,
        quantity,
        minimum,
    }))
}
