//! Request files from seeds: the same seed gives the same file for ever.
//!
//! A file is composed request by request, with the market of the `day`
//! program run beside it, so that requests can aim at what is resting, at
//! what an entry would reach, and at what a member may still buy. Some files
//! are then damaged.

use crate::book::{Fill, Order, Phase, Rule};
use crate::format::{
    Entry, Life, MEMBERS, MOST_BYTES, MOST_PRICE, MOST_QUANTITY, RawEntry, Request, Side, Writer,
};
use crate::pile::{DAY_CAPACITY, Pile};
use crate::random::Random;

/// The file of a seed.
pub fn file(seed: u64) -> Vec<u8> {
    let mut random = Random::new(seed);
    let place = random.weighed(&FLAVOURS.map(|(weight, _)| weight));
    match FLAVOURS[place].1 {
        Flavour::Composed(profile) => compose(random, profile).0,
        Flavour::Damaged => damaged(random),
        Flavour::Long => long(random),
        Flavour::Noise => noise(random),
    }
}

/// The random bytes of a seed; most begin as a request file does.
pub fn bytes(seed: u64) -> Vec<u8> {
    noise(Random::new(seed))
}

/// What a file is like.
#[derive(Clone, Copy)]
enum Flavour {
    /// Requests after a profile.
    Composed(&'static Profile),
    /// Requests, and then damage.
    Damaged,
    /// Requests to the most bytes that are read, or a little past them.
    Long,
    /// Bytes that mean nothing, or nearly nothing.
    Noise,
}

/// How often each flavour comes, of a hundred.
const FLAVOURS: [(u64, Flavour); 12] = [
    (10, Flavour::Composed(&MIXED)),
    (8, Flavour::Composed(&EVEN)),
    (10, Flavour::Composed(&WILD)),
    (12, Flavour::Composed(&CALLS)),
    (12, Flavour::Composed(&MINIMUMS)),
    (9, Flavour::Composed(&CAPS)),
    (8, Flavour::Composed(&FULL)),
    (7, Flavour::Composed(&CANCELS)),
    (8, Flavour::Composed(&TIES)),
    (13, Flavour::Damaged),
    (1, Flavour::Long),
    (2, Flavour::Noise),
];

/// How a file's requests are drawn. Kinds are weights, the rest of the
/// shares are of a hundred.
#[derive(Clone, Copy)]
struct Profile {
    records: (u32, u32),
    enter: u64,
    cancel: u64,
    call: u64,
    halt: u64,
    wild: u64,
    /// How many members take part.
    members: u32,
    /// How far most prices are from the middle.
    spread: u32,
    /// The largest of the usual quantities.
    quantity: u32,
    /// How often a quantity is one of a few, and of which.
    few: u64,
    few_quantities: &'static [u32],
    /// How often a quantity aims at what is there.
    aimed: u64,
    /// How often an entry while dealing has a minimum.
    minimum: u64,
    /// How often an entry while dealing is kill.
    kill: u64,
    /// How often a full book is given room before the next entry.
    relief: u64,
}

const MIXED: Profile = Profile {
    records: (5, 60),
    enter: 70,
    cancel: 12,
    call: 10,
    halt: 3,
    wild: 0,
    members: 12,
    spread: 12,
    quantity: 120,
    few: 20,
    few_quantities: &[1, 10, 10, 25, 50],
    aimed: 25,
    minimum: 20,
    kill: 20,
    relief: 60,
};

const WILD: Profile = Profile {
    wild: 40,
    records: (3, 40),
    ..MIXED
};

const CALLS: Profile = Profile {
    records: (10, 90),
    enter: 55,
    call: 20,
    halt: 20,
    cancel: 4,
    spread: 8,
    relief: 80,
    ..MIXED
};

const MINIMUMS: Profile = Profile {
    minimum: 85,
    kill: 35,
    aimed: 50,
    call: 16,
    halt: 1,
    ..MIXED
};

const CAPS: Profile = Profile {
    members: 3,
    quantity: 400,
    aimed: 60,
    cancel: 20,
    ..MIXED
};

const FULL: Profile = Profile {
    enter: 85,
    cancel: 8,
    call: 4,
    spread: 40,
    relief: 25,
    kill: 10,
    quantity: 60,
    ..MIXED
};

const CANCELS: Profile = Profile {
    enter: 50,
    cancel: 40,
    ..MIXED
};

const TIES: Profile = Profile {
    spread: 1,
    few: 85,
    aimed: 10,
    members: 30,
    quantity: 60,
    ..MIXED
};

/// Calls at which several prices are nearly as good as each other.
const EVEN: Profile = Profile {
    records: (10, 60),
    spread: 2,
    few: 100,
    few_quantities: &[5, 10, 10],
    aimed: 2,
    members: 60,
    cancel: 3,
    call: 16,
    halt: 40,
    minimum: 5,
    ..MIXED
};

const LONG: Profile = Profile {
    members: 64,
    quantity: 20,
    aimed: 10,
    wild: 2,
    halt: 6,
    relief: 90,
    ..MIXED
};

const MIDDLE: u32 = 200;
const EDGE_PRICES: [u32; 8] = [99, 100, 300, 301, 1, 2, 99_999, MOST_PRICE];

/// Writes requests, and runs them on a market of its own.
struct Composer {
    random: Random,
    profile: &'static Profile,
    writer: Writer,
    pile: Pile,
    fills: [Fill; DAY_CAPACITY],
    middle: u32,
    first_member: u32,
}

/// The bytes of a file, and the offset of each record.
type Composed = (Vec<u8>, Vec<usize>);

fn compose(random: Random, profile: &'static Profile) -> Composed {
    let mut composer = Composer::new(random, profile);
    let (low, high) = profile.records;
    let records = composer.random.between(low, high);
    (0..records).for_each(|_| composer.write_one());
    composer.writer.finish()
}

impl Composer {
    fn new(mut random: Random, profile: &'static Profile) -> Composer {
        let middle = random.pick(&[MIDDLE, MIDDLE, MIDDLE, 110, 290]);
        let first_member = random.between(0, MEMBERS as u32 - profile.members);
        Composer {
            random,
            profile,
            writer: Writer::new(),
            pile: Pile::day(DAY_CAPACITY, Rule::Time).expect("the day's pile is a good one"),
            fills: [Fill::default(); DAY_CAPACITY],
            middle,
            first_member,
        }
    }

    fn write_one(&mut self) {
        if self.is_full() && self.random.percent(self.profile.relief) {
            let relief = self.relief();
            return self.write(relief);
        }
        let weights = self.weights();
        match self.random.weighed(&weights) {
            0 => {
                let entry = self.entry();
                self.write(Request::Enter(entry));
            }
            1 => {
                let cancel = self.cancel();
                self.write(cancel);
            }
            2 => self.write(Request::Call),
            3 => self.write(Request::Halt),
            _ => self.write_wild(),
        }
    }

    /// The weights of entry, cancel, call, halt and wild fields: a request in
    /// the wrong phase comes now and then.
    fn weights(&self) -> [u64; 5] {
        let Profile {
            enter,
            cancel,
            call,
            halt,
            wild,
            ..
        } = *self.profile;
        match self.pile.book().phase() {
            Phase::Gathering => [enter, cancel, call, 1 + halt / 10, wild],
            Phase::Dealing => [enter, cancel, 1 + call / 10, halt, wild],
        }
    }

    fn write(&mut self, request: Request) {
        self.writer.request(request);
        // What the market answers does not matter here, only what it becomes.
        let _ = self.pile.serve(&request, &mut self.fills);
    }

    fn is_full(&self) -> bool {
        let book = self.pile.book();
        book.resting() >= book.capacity()
    }

    /// A request that is likely to give a full book room.
    fn relief(&mut self) -> Request {
        let gathering = self.pile.book().phase() == Phase::Gathering;
        match self.some_order() {
            Some(order) if !(gathering && self.random.percent(50)) => Request::Cancel {
                member: order.member,
                number: order.number,
            },
            _ => Request::Call,
        }
    }

    fn some_order(&mut self) -> Option<Order> {
        let book = self.pile.book();
        let sides = [Side::Buy, Side::Sell].into_iter();
        let orders: Vec<Order> = sides.flat_map(|side| book.orders(side).copied()).collect();
        (!orders.is_empty()).then(|| self.random.pick(&orders))
    }

    fn member(&mut self) -> u8 {
        let last = self.first_member + self.profile.members - 1;
        self.random.between(self.first_member, last) as u8
    }

    fn entry(&mut self) -> Entry {
        let side = self.random.pick(&[Side::Buy, Side::Sell]);
        let member = self.member();
        let price = self.price();
        let reach = self.pile.book().reach(side, price) as u32;
        let quantity = self.quantity(member, side, reach);
        let dealing = self.pile.book().phase() == Phase::Dealing;
        let (kills, minimums) = if dealing {
            (self.profile.kill, self.profile.minimum)
        } else {
            (3, 3)
        };
        let killed = self.random.percent(kills);
        let wants_minimum = self.random.percent(minimums);
        let minimum = if wants_minimum {
            self.minimum(quantity, reach)
        } else {
            0
        };
        Entry {
            member,
            side,
            life: if killed { Life::Kill } else { Life::Rest },
            price,
            quantity: quantity.max(minimum),
            minimum,
        }
    }

    fn price(&mut self) -> u32 {
        match self.random.below(50) {
            0 | 1 => self.random.pick(&EDGE_PRICES),
            2..=14 => match self.some_order() {
                Some(order) => self.near(order.price, MOST_PRICE),
                None => self.usual_price(),
            },
            _ => self.usual_price(),
        }
    }

    fn usual_price(&mut self) -> u32 {
        let spread = self.profile.spread;
        self.random
            .between(self.middle - spread, self.middle + spread)
    }

    /// A number or one beside it, from 1 to the most.
    fn near(&mut self, number: u32, most: u32) -> u32 {
        let moved = number.saturating_add(self.random.pick(&[0, 1, 1, 1, 2]));
        moved.saturating_sub(1).clamp(1, most)
    }

    fn quantity(&mut self, member: u8, side: Side, reach: u32) -> u32 {
        let Profile {
            quantity,
            few,
            few_quantities,
            aimed,
            ..
        } = *self.profile;
        if self.random.below(200) == 0 {
            return self.random.pick(&[1, 1_000, 1_001, MOST_QUANTITY]);
        }
        if self.random.percent(aimed) {
            return self.aimed_quantity(member, side, reach);
        }
        if self.random.percent(few) {
            return self.random.pick(few_quantities);
        }
        self.random.between(1, quantity)
    }

    /// A quantity at or beside the reach, what the cap leaves, or what
    /// remains of an order.
    fn aimed_quantity(&mut self, member: u8, side: Side, reach: u32) -> u32 {
        let room = self.pile.room(member).unwrap_or(0) as u32;
        let small_room = side == Side::Buy && room <= 2 * self.profile.quantity;
        let about = match self.random.below(3) {
            0 => reach,
            1 if small_room || self.random.percent(20) => room,
            _ => self.some_order().map_or(10, |order| order.remains),
        };
        self.near(about, MOST_QUANTITY)
    }

    /// A minimum at or beside the reach, or any up to the quantity.
    fn minimum(&mut self, quantity: u32, reach: u32) -> u32 {
        match self.random.below(8) {
            0..=5 => self.near(reach, MOST_QUANTITY),
            6 => quantity,
            _ => self.random.between(0, quantity),
        }
    }

    /// A cancel of the member's own order, of another's, of one that is gone
    /// or of a number that was never given.
    fn cancel(&mut self) -> Request {
        let next = self.pile.book().next_number();
        let order = self.some_order();
        let stranger = self.member();
        let (member, number) = match (self.random.below(10), order) {
            (0..=5, Some(order)) => (order.member, order.number),
            (6, Some(order)) => (stranger, order.number),
            (6..=8, _) => (stranger, self.random.between(0, next)),
            _ => {
                let numbers = [0, next, next.saturating_add(1), 999_999, 1 << 24, u32::MAX];
                (stranger, self.random.pick(&numbers))
            }
        };
        Request::Cancel { member, number }
    }

    /// Writes an entry or a cancel with fields at their limits or outside.
    fn write_wild(&mut self) {
        if self.random.percent(15) {
            let member = self.wild_member();
            let number = self.random.between(0, 9);
            return self.write_raw_cancel(member, number);
        }
        let mut raw: RawEntry = self.entry().into();
        for _ in 0..self.random.pick(&[1, 1, 1, 2, 3]) {
            self.spoil(&mut raw);
        }
        match raw.check() {
            Ok(entry) => self.write(Request::Enter(entry)),
            Err(_) => self.writer.enter(raw),
        }
    }

    fn write_raw_cancel(&mut self, member: u8, number: u32) {
        if usize::from(member) < MEMBERS {
            self.write(Request::Cancel { member, number });
        } else {
            self.writer.cancel(member, number);
        }
    }

    fn wild_member(&mut self) -> u8 {
        self.random.pick(&[63, 64, 65, 127, 128, 255])
    }

    fn spoil(&mut self, raw: &mut RawEntry) {
        match self.random.below(6) {
            0 => raw.member = self.wild_member(),
            1 => raw.side = self.random.pick(&[0, 3, 4, 255]),
            2 => raw.life = self.random.pick(&[0, 3, 4, 255]),
            3 => raw.price = self.wild_number(MOST_PRICE),
            4 => raw.quantity = self.wild_number(MOST_QUANTITY),
            _ => raw.minimum = self.wild_number(raw.quantity),
        }
    }

    fn wild_number(&mut self, most: u32) -> u32 {
        let over = most.saturating_add(1);
        self.random
            .pick(&[0, 1, most, over, over, 1 << 16, 1 << 31, u32::MAX])
    }
}

/// A file with one to three damages.
fn damaged(mut random: Random) -> Vec<u8> {
    let profile = random.pick(&[&MIXED, &CALLS, &MINIMUMS]);
    let own = Random::new(random.draw());
    let (mut file, offsets) = compose(own, profile);
    for _ in 0..random.pick(&[1, 1, 1, 2, 3]) {
        damage(&mut random, &mut file, &offsets);
    }
    file
}

/// Does one damage. The offsets are those of the file before any damage.
fn damage(random: &mut Random, file: &mut Vec<u8>, offsets: &[usize]) {
    let record = random.pick(offsets);
    let somewhere = random.place(file.len() + 1);
    match random.below(13) {
        0 => file.truncate(somewhere),
        1 => file.truncate(record + random.place(4)),
        2 => put(file, somewhere, random.byte()),
        3 => flip(file, somewhere, random.below(8)),
        4 => file.insert(somewhere, random.byte()),
        5 => lose(file, somewhere),
        6 => put(file, 0, random.pick(&[0, 2, 3, 255])),
        7 => put(file, record + 1, random.pick(&[0, 1, 2, 5, 6, 7, 15, 17])),
        8 => put(file, record, random.pick(&[1, 16, 128, 255])),
        9 => put(file, record + 2, random.pick(&[0, 1, 2, 3, 4, 5, 255])),
        10 => file.push(random.pick(&[0, 1, 3])),
        11 => file.extend_from_slice(random.pick(&ENDINGS)),
        _ => double(file, record, somewhere),
    }
}

/// Bytes that no good file ends with, and some that it may.
const ENDINGS: [&[u8]; 9] = [
    &[0, 0],
    &[0, 1],
    &[0, 1, 0],
    &[0, 1, 5],
    &[0, 2, 3, 3],
    &[0, 1, 1],
    &[0, 1, 3, 0, 1, 4],
    &[0xFF, 0xFF, 1, 2, 3],
    &[0, 6, 2, 200, 0, 0, 0, 1],
];

fn put(file: &mut [u8], place: usize, byte: u8) {
    if let Some(there) = file.get_mut(place) {
        *there = byte;
    }
}

fn lose(file: &mut Vec<u8>, place: usize) {
    if place < file.len() {
        file.remove(place);
    }
}

fn flip(file: &mut [u8], place: usize, bit: u64) {
    if let Some(there) = file.get_mut(place) {
        *there ^= 1 << bit;
    }
}

/// Writes the bytes between two places once more at the end.
fn double(file: &mut Vec<u8>, one: usize, other: usize) {
    let (from, to) = (one.min(other).min(file.len()), one.max(other));
    file.extend_from_within(from..to.min(file.len()));
}

/// A file that is long: up to the most bytes that are read, exactly so many,
/// or a few more.
fn long(mut random: Random) -> Vec<u8> {
    let size = match random.below(6) {
        0 | 1 => MOST_BYTES,
        2 => MOST_BYTES + 1,
        3 => MOST_BYTES - 1,
        4 => MOST_BYTES + random.place(40),
        _ => 10_000 + random.place(MOST_BYTES - 10_000),
    };
    let mut composer = Composer::new(random, &LONG);
    while composer.writer.size() + 60 < size {
        composer.write_one();
    }
    fill_up(&mut composer, size);
    let mut file = composer.writer.finish().0;
    file.resize(size, 0);
    file
}

/// Writes short records until fewer than three bytes are left: cancels of
/// eight bytes until the rest is a multiple of three, then calls and halts.
fn fill_up(composer: &mut Composer, size: usize) {
    let tidy = composer.random.percent(80);
    while tidy && !(size - composer.writer.size()).is_multiple_of(3) {
        let cancel = composer.cancel();
        composer.write(cancel);
    }
    while composer.writer.size() + 3 <= size {
        let either = composer.random.pick(&[Request::Call, Request::Halt]);
        composer.write(either);
    }
}

/// A file of random bytes, or of random bytes where records would be.
fn noise(mut random: Random) -> Vec<u8> {
    let count = random.pick(&[0, 1, 2, 3, 4, 8, 20, 100]);
    let mut file: Vec<u8> = (0..count).map(|_| random.byte()).collect();
    if random.percent(60) {
        put(&mut file, 0, 1);
    }
    if random.percent(40) {
        put(&mut file, 1, 0);
        put(&mut file, 2, random.pick(&[0, 1, 6, 16]));
        put(&mut file, 3, random.pick(&[1, 2, 3, 4]));
    }
    file
}

#[cfg(test)]
mod tests {
    use super::*;
    use crate::listing;

    /// What the files of the first 500 seeds come to. It never changes.
    const PRINT: u64 = 0xE0F7_37F3_24FF_717C;

    /// A sum of all bytes of all files from one seed to another.
    fn print_of(seeds: std::ops::Range<u64>) -> u64 {
        let mut print: u64 = 0xCBF2_9CE4_8422_2325;
        for seed in seeds {
            for byte in file(seed) {
                print = (print ^ u64::from(byte)).wrapping_mul(0x100_0000_01B3);
            }
            print = print.rotate_left(1);
        }
        print
    }

    #[test]
    fn seeds_give_the_same_files_for_ever() {
        assert_eq!(print_of(0..500), PRINT);
    }

    #[test]
    fn files_show_all_that_can_happen() {
        let mut all = String::new();
        (0..600).for_each(|seed| all.push_str(&listing::day(&file(seed))));
        for line in [
            "refused 2 at -",
            "refused 3 at -",
            "refused 4 at -",
            "refused 5 at -",
            "refused 6 at -",
            "refused 7 at -",
            "refused 8 at 1",
            "refused 9 at 2",
            "refused 11 at 0",
            "refused 12 at 0",
            "refused 13 at 0",
            "refused 15 at 0",
            "too long",
            "call 0 0",
        ] {
            assert!(all.contains(line), "no file gives '{line}'");
        }
    }

    #[test]
    fn long_files_have_all_their_sizes() {
        let sizes: Vec<usize> = (0..3_000).map(|seed| file(seed).len()).collect();
        for size in [MOST_BYTES - 1, MOST_BYTES, MOST_BYTES + 1] {
            assert!(sizes.contains(&size), "no file has {size} bytes");
        }
    }
}
