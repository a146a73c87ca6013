//! A book: price levels with queues, and an index by order number.

use std::cmp::Reverse;
use std::collections::{BTreeMap, HashMap, VecDeque};
use std::hash::{BuildHasherDefault, Hasher};

use crate::format::{Entry, Life, Request, Side};
use crate::refusal::Refusal;

/// The largest capacity of a book.
pub const MOST_ORDERS: usize = 1_024;
/// The last order number that is given.
pub const LAST_NUMBER: u32 = 999_999;

/// Which of two orders with the same price is ahead.
#[derive(Clone, Copy, Debug, PartialEq, Eq)]
pub enum Rule {
    /// The lower number.
    Time,
    /// The larger entered quantity, and of equal quantities the lower number.
    Size,
}

/// A place in the queue of a price level: the lower is ahead.
type Rank = (Reverse<u32>, u32);

impl Rule {
    fn rank(self, entered: u32, number: u32) -> Rank {
        match self {
            Rule::Time => (Reverse(0), number),
            Rule::Size => (Reverse(entered), number),
        }
    }

    fn rank_of(self, order: &Order) -> Rank {
        self.rank(order.entered, order.number)
    }
}

/// Whether entries gather or deal at once.
#[derive(Clone, Copy, Debug, PartialEq, Eq)]
pub enum Phase {
    Gathering,
    Dealing,
}

/// An order that rests in the book.
#[derive(Clone, Copy, Debug, PartialEq, Eq)]
pub struct Order {
    pub number: u32,
    pub member: u8,
    pub side: Side,
    pub price: u32,
    pub entered: u32,
    pub remains: u32,
}

/// A buy and a sell that deal.
#[derive(Clone, Copy, Debug, Default, PartialEq, Eq)]
pub struct Fill {
    pub buy: u32,
    pub sell: u32,
    pub buyer: u8,
    pub seller: u8,
    pub price: u32,
    pub quantity: u32,
}

/// What came of an entry.
#[derive(Clone, Copy, Debug, PartialEq, Eq)]
pub struct Entered {
    pub number: u32,
    pub fills: usize,
    pub dealt: u32,
    pub rests: u32,
    pub withdrawn: u32,
}

/// What came of a cancel.
#[derive(Clone, Copy, Debug, PartialEq, Eq)]
pub struct Cancelled {
    pub number: u32,
    pub side: Side,
    pub withdrawn: u32,
}

/// What came of a call.
#[derive(Clone, Copy, Debug, PartialEq, Eq)]
pub struct Called {
    pub price: u32,
    pub volume: u64,
    pub fills: usize,
}

/// What came of a request.
#[derive(Clone, Copy, Debug, PartialEq, Eq)]
pub enum Answer {
    Entered(Entered),
    Cancelled(Cancelled),
    Called(Called),
    Halted,
}

impl Answer {
    /// How many places of the fill list were filled.
    pub fn fills(&self) -> usize {
        match self {
            Answer::Entered(entered) => entered.fills,
            Answer::Called(called) => called.fills,
            Answer::Cancelled(_) | Answer::Halted => 0,
        }
    }
}

/// Where an order rests, so that a cancel finds it.
#[derive(Clone, Copy, Debug)]
struct Spot {
    member: u8,
    side: Side,
    price: u32,
    entered: u32,
}

/// Spreads order numbers over a table; they are too tame to need more.
#[derive(Clone, Default)]
struct NumberHasher(u64);

impl Hasher for NumberHasher {
    fn finish(&self) -> u64 {
        self.0
    }

    fn write(&mut self, bytes: &[u8]) {
        bytes.iter().for_each(|&byte| self.write_u32(byte.into()));
    }

    fn write_u32(&mut self, number: u32) {
        self.0 = (self.0 ^ u64::from(number))
            .wrapping_mul(0x9E37_79B9_7F4A_7C15)
            .rotate_left(32);
    }
}

type Index = HashMap<u32, Spot, BuildHasherDefault<NumberHasher>>;

/// The orders of one price, in their sequence.
#[derive(Clone, Debug, Default)]
struct Level {
    remains: u64,
    queue: VecDeque<Order>,
}

impl Level {
    fn place(&self, rule: Rule, rank: Rank) -> usize {
        self.queue
            .partition_point(|order| rule.rank_of(order) < rank)
    }

    fn add(&mut self, rule: Rule, order: Order) {
        let rank = rule.rank_of(&order);
        self.remains += u64::from(order.remains);
        match self.queue.back() {
            Some(last) if rank < rule.rank_of(last) => {
                self.queue.insert(self.place(rule, rank), order);
            }
            _ => self.queue.push_back(order),
        }
    }

    fn remove(&mut self, rule: Rule, rank: Rank) -> Option<Order> {
        let order = self.queue.remove(self.place(rule, rank))?;
        self.remains -= u64::from(order.remains);
        Some(order)
    }

    /// Deals up to so many tonnes from the front, and tells each piece.
    fn take(&mut self, tonnes: u64, index: &mut Index, mut tell: impl FnMut(&Order, u32)) -> u64 {
        let taken = tonnes.min(self.remains);
        let mut left = taken;
        while left > 0 {
            let Some(order) = self.queue.front_mut() else {
                break;
            };
            let piece = u64::from(order.remains).min(left);
            left -= piece;
            order.remains -= piece as u32;
            tell(order, piece as u32);
            if order.remains == 0 {
                index.remove(&order.number);
                self.queue.pop_front();
            }
        }
        self.remains -= taken;
        taken
    }
}

/// The levels of one side, the best price first.
#[derive(Clone, Debug)]
struct Ladder {
    side: Side,
    levels: BTreeMap<u32, Level>,
}

impl Ladder {
    fn new(side: Side) -> Ladder {
        Ladder {
            side,
            levels: BTreeMap::new(),
        }
    }

    /// The key of a price: the better the price, the lower the key.
    fn key(&self, price: u32) -> u32 {
        match self.side {
            Side::Buy => u32::MAX - price,
            Side::Sell => price,
        }
    }

    /// The price of a key.
    fn price(&self, key: u32) -> u32 {
        self.key(key)
    }

    fn best(&self) -> Option<u32> {
        self.levels
            .first_key_value()
            .map(|(&key, _)| self.price(key))
    }

    /// Prices and tonnes of the levels within a limit, the best first.
    fn within(&self, limit: u32) -> impl DoubleEndedIterator<Item = (u32, u64)> {
        self.levels
            .range(..=self.key(limit))
            .map(|(&key, level)| (self.price(key), level.remains))
    }

    fn orders(&self) -> impl Iterator<Item = &Order> {
        self.levels.values().flat_map(|level| level.queue.iter())
    }

    fn add(&mut self, rule: Rule, order: Order) {
        let key = self.key(order.price);
        self.levels.entry(key).or_default().add(rule, order);
    }

    fn remove(&mut self, rule: Rule, price: u32, rank: Rank) -> Option<Order> {
        let key = self.key(price);
        let level = self.levels.get_mut(&key)?;
        let order = level.remove(rule, rank);
        if level.queue.is_empty() {
            self.levels.remove(&key);
        }
        order
    }

    /// Deals up to so many tonnes within a limit, and tells each piece.
    fn take(
        &mut self,
        limit: u32,
        tonnes: u64,
        index: &mut Index,
        mut tell: impl FnMut(&Order, u32),
    ) -> u64 {
        let last = self.key(limit);
        let mut left = tonnes;
        while left > 0 {
            let Some(mut level) = self.levels.first_entry() else {
                break;
            };
            if *level.key() > last {
                break;
            }
            left -= level.get_mut().take(left, index, &mut tell);
            if level.get().queue.is_empty() {
                level.remove();
            }
        }
        tonnes - left
    }
}

/// What one order gets in a call.
#[derive(Clone, Copy, Debug)]
struct Piece {
    number: u32,
    member: u8,
    quantity: u32,
}

/// A book of orders.
#[derive(Clone, Debug)]
pub struct Book {
    capacity: usize,
    rule: Rule,
    phase: Phase,
    next: u32,
    buys: Ladder,
    sells: Ladder,
    index: Index,
}

impl Book {
    /// A fresh book.
    pub fn new(capacity: usize, rule: Rule) -> Result<Book, Refusal> {
        if !(1..=MOST_ORDERS).contains(&capacity) {
            return Err(Refusal::BadSetUp);
        }
        Ok(Book {
            capacity,
            rule,
            phase: Phase::Gathering,
            next: 1,
            buys: Ladder::new(Side::Buy),
            sells: Ladder::new(Side::Sell),
            index: Index::with_capacity_and_hasher(capacity, Default::default()),
        })
    }

    /// How many orders can rest.
    pub fn capacity(&self) -> usize {
        self.capacity
    }

    /// Whether the book is gathering or dealing.
    pub fn phase(&self) -> Phase {
        self.phase
    }

    /// The number that the next order gets.
    pub fn next_number(&self) -> u32 {
        self.next
    }

    /// How many orders rest.
    pub fn resting(&self) -> usize {
        self.index.len()
    }

    /// True if the book is gathering, has no orders and gave no number.
    pub fn is_fresh(&self) -> bool {
        self.phase == Phase::Gathering && self.next == 1 && self.index.is_empty()
    }

    /// The orders of a side, in their sequence.
    pub fn orders(&self, side: Side) -> impl Iterator<Item = &Order> {
        self.ladder(side).orders()
    }

    /// The best price of a side.
    pub fn best(&self, side: Side) -> Option<u32> {
        self.ladder(side).best()
    }

    /// The tonnes that an entry of this side and price could deal with.
    pub fn reach(&self, side: Side, price: u32) -> u64 {
        self.ladder(side.other())
            .within(price)
            .map(|(_, tonnes)| tonnes)
            .sum()
    }

    /// Serves a request.
    pub fn serve(&mut self, request: &Request, fills: &mut [Fill]) -> Result<Answer, Refusal> {
        match *request {
            Request::Enter(ref entry) => self.enter(entry, fills).map(Answer::Entered),
            Request::Cancel { member, number } => {
                self.cancel(member, number).map(Answer::Cancelled)
            }
            Request::Call => self.call(fills).map(Answer::Called),
            Request::Halt => self.halt().map(|()| Answer::Halted),
        }
    }

    /// Enters an order.
    pub fn enter(&mut self, entry: &Entry, fills: &mut [Fill]) -> Result<Entered, Refusal> {
        self.check_entry(entry, fills.len())?;
        let number = self.next;
        self.next += 1;
        let (count, dealt) = match self.phase {
            Phase::Gathering => (0, 0),
            Phase::Dealing => self.deal(entry, number, fills),
        };
        let left = entry.quantity - dealt;
        let (rests, withdrawn) = match entry.life {
            Life::Rest => (left, 0),
            Life::Kill => (0, left),
        };
        if rests > 0 {
            self.rest(entry, number, rests);
        }
        Ok(Entered {
            number,
            fills: count,
            dealt,
            rests,
            withdrawn,
        })
    }

    /// Takes away an order that rests and is the member's own.
    pub fn cancel(&mut self, member: u8, number: u32) -> Result<Cancelled, Refusal> {
        let spot = match self.index.get(&number) {
            Some(spot) if spot.member == member => *spot,
            _ => return Err(Refusal::NoSuchOrder),
        };
        self.index.remove(&number);
        let rule = self.rule;
        let order = self
            .ladder_mut(spot.side)
            .remove(rule, spot.price, rule.rank(spot.entered, number))
            .expect("the index names only orders that rest");
        Ok(Cancelled {
            number,
            side: spot.side,
            withdrawn: order.remains,
        })
    }

    /// Deals what has gathered, at one price.
    pub fn call(&mut self, fills: &mut [Fill]) -> Result<Called, Refusal> {
        self.check_list(fills.len())?;
        if self.phase == Phase::Dealing {
            return Err(Refusal::WrongPhase);
        }
        let (price, volume) = self.call_price();
        let count = self.deal_call(price, volume, fills);
        self.phase = Phase::Dealing;
        Ok(Called {
            price,
            volume,
            fills: count,
        })
    }

    /// Goes back to gathering.
    pub fn halt(&mut self) -> Result<(), Refusal> {
        if self.phase == Phase::Gathering {
            return Err(Refusal::WrongPhase);
        }
        self.phase = Phase::Gathering;
        Ok(())
    }

    fn ladder(&self, side: Side) -> &Ladder {
        match side {
            Side::Buy => &self.buys,
            Side::Sell => &self.sells,
        }
    }

    fn ladder_mut(&mut self, side: Side) -> &mut Ladder {
        match side {
            Side::Buy => &mut self.buys,
            Side::Sell => &mut self.sells,
        }
    }

    fn check_list(&self, places: usize) -> Result<(), Refusal> {
        if places < self.capacity {
            return Err(Refusal::FillListTooShort);
        }
        Ok(())
    }

    fn check_entry(&self, entry: &Entry, places: usize) -> Result<(), Refusal> {
        self.check_list(places)?;
        let gathering = self.phase == Phase::Gathering;
        if gathering && (entry.minimum > 0 || entry.life == Life::Kill) {
            return Err(Refusal::WrongPhase);
        }
        if self.index.len() >= self.capacity {
            return Err(Refusal::BookFull);
        }
        if self.next > LAST_NUMBER {
            return Err(Refusal::NumbersSpent);
        }
        if !self.reaches(entry) {
            return Err(Refusal::BelowTheMinimum);
        }
        Ok(())
    }

    /// True if the entry's minimum is within its reach.
    fn reaches(&self, entry: &Entry) -> bool {
        let minimum = u64::from(entry.minimum);
        minimum == 0 || {
            let mut reached = 0;
            self.ladder(entry.side.other())
                .within(entry.price)
                .any(|(_, tonnes)| {
                    reached += tonnes;
                    reached >= minimum
                })
        }
    }

    fn rest(&mut self, entry: &Entry, number: u32, remains: u32) {
        let spot = Spot {
            member: entry.member,
            side: entry.side,
            price: entry.price,
            entered: entry.quantity,
        };
        self.index.insert(number, spot);
        let order = Order {
            number,
            member: entry.member,
            side: entry.side,
            price: entry.price,
            entered: entry.quantity,
            remains,
        };
        let rule = self.rule;
        self.ladder_mut(entry.side).add(rule, order);
    }

    /// Deals an entry with what it reaches: how many fills, and tonnes.
    fn deal(&mut self, entry: &Entry, number: u32, fills: &mut [Fill]) -> (usize, u32) {
        let ladder = match entry.side {
            Side::Buy => &mut self.sells,
            Side::Sell => &mut self.buys,
        };
        let mut count = 0;
        let tonnes = u64::from(entry.quantity);
        let dealt = ladder.take(entry.price, tonnes, &mut self.index, |order, quantity| {
            fills[count] = fill_of(entry, number, order, quantity);
            count += 1;
        });
        (count, dealt as u32)
    }

    /// The price and the volume of a call now, by one sweep over the levels
    /// from the lowest sell up to the highest buy.
    ///
    /// Demand falls just above a buy's price and supply rises at a sell's, so
    /// the lowest of equally good prices is always one of those two.
    fn call_price(&self) -> (u32, u64) {
        let (Some(highest_buy), Some(lowest_sell)) = (self.buys.best(), self.sells.best()) else {
            return (0, 0);
        };
        let mut demand: u64 = self.buys.within(lowest_sell).map(|(_, t)| t).sum();
        let mut supply = 0;
        let mut falls = self.buys.within(lowest_sell).rev().peekable();
        let mut rises = self.sells.within(highest_buy).peekable();
        let mut best = (0, Reverse(0));
        let mut best_price = 0;
        while let Some(&(sell, _)) = rises.peek() {
            let price = falls.peek().map_or(sell, |&(buy, _)| sell.min(buy + 1));
            while let Some((_, tonnes)) = falls.next_if(|&(buy, _)| buy < price) {
                demand -= tonnes;
            }
            while let Some((_, tonnes)) = rises.next_if(|&(sell, _)| sell <= price) {
                supply += tonnes;
            }
            better(&mut best, &mut best_price, price, demand, supply);
        }
        for (buy, tonnes) in falls {
            demand -= tonnes;
            better(&mut best, &mut best_price, buy + 1, demand, supply);
        }
        (best_price, best.0)
    }

    /// Deals a call's volume at its price, and says how many fills there are.
    fn deal_call(&mut self, price: u32, volume: u64, fills: &mut [Fill]) -> usize {
        if volume == 0 {
            return 0;
        }
        let mut bought = take_pieces(&mut self.buys, price, volume, &mut self.index).into_iter();
        let mut sold = take_pieces(&mut self.sells, price, volume, &mut self.index).into_iter();
        let (mut buy, mut sell) = (bought.next(), sold.next());
        let mut count = 0;
        while let (Some(b), Some(s)) = (&mut buy, &mut sell) {
            let quantity = b.quantity.min(s.quantity);
            fills[count] = Fill {
                buy: b.number,
                sell: s.number,
                buyer: b.member,
                seller: s.member,
                price,
                quantity,
            };
            count += 1;
            b.quantity -= quantity;
            s.quantity -= quantity;
            let (buy_done, sell_done) = (b.quantity == 0, s.quantity == 0);
            if buy_done {
                buy = bought.next();
            }
            if sell_done {
                sell = sold.next();
            }
        }
        count
    }
}

/// Takes a price for the best if its volume is larger, or as large with a
/// smaller difference. Prices come from the lowest up.
fn better(
    best: &mut (u64, Reverse<u64>),
    best_price: &mut u32,
    price: u32,
    demand: u64,
    supply: u64,
) {
    let volume = demand.min(supply);
    let this = (volume, Reverse(demand.abs_diff(supply)));
    if volume > 0 && this > *best {
        *best = this;
        *best_price = price;
    }
}

fn take_pieces(ladder: &mut Ladder, price: u32, volume: u64, index: &mut Index) -> Vec<Piece> {
    let mut pieces = Vec::new();
    ladder.take(price, volume, index, |order, quantity| {
        pieces.push(Piece {
            number: order.number,
            member: order.member,
            quantity,
        });
    });
    pieces
}

fn fill_of(entry: &Entry, number: u32, order: &Order, quantity: u32) -> Fill {
    let (buy, sell) = match entry.side {
        Side::Buy => ((number, entry.member), (order.number, order.member)),
        Side::Sell => ((order.number, order.member), (number, entry.member)),
    };
    Fill {
        buy: buy.0,
        sell: sell.0,
        buyer: buy.1,
        seller: sell.1,
        price: order.price,
        quantity,
    }
}

#[cfg(test)]
mod tests {
    use super::*;

    struct Trial {
        book: Book,
        fills: Vec<Fill>,
    }

    impl Trial {
        fn new(capacity: usize, rule: Rule) -> Trial {
            Trial {
                book: Book::new(capacity, rule).unwrap(),
                fills: vec![Fill::default(); capacity],
            }
        }

        fn enter(&mut self, side: Side, quantity: u32, price: u32) -> Entered {
            self.try_enter(side, quantity, price, 0).unwrap()
        }

        fn try_enter(
            &mut self,
            side: Side,
            quantity: u32,
            price: u32,
            minimum: u32,
        ) -> Result<Entered, Refusal> {
            let entry = Entry {
                member: 1,
                side,
                life: Life::Rest,
                price,
                quantity,
                minimum,
            };
            self.book.enter(&entry, &mut self.fills)
        }

        fn call(&mut self) -> (u32, u64) {
            let called = self.book.call(&mut self.fills).unwrap();
            (called.price, called.volume)
        }

        fn dealt(&self, count: usize) -> Vec<(u32, u32, u32)> {
            let fills = self.fills[..count].iter();
            fills.map(|f| (f.buy, f.sell, f.quantity)).collect()
        }
    }

    use Side::{Buy, Sell};

    #[test]
    fn an_empty_call_deals_nothing() {
        assert_eq!(Trial::new(8, Rule::Time).call(), (0, 0));
    }

    #[test]
    fn a_call_takes_the_lowest_price() {
        let mut trial = Trial::new(8, Rule::Time);
        trial.enter(Buy, 10, 50);
        trial.enter(Sell, 10, 40);
        assert_eq!(trial.call(), (40, 10));
    }

    #[test]
    fn a_call_that_does_not_meet_deals_nothing() {
        let mut trial = Trial::new(8, Rule::Time);
        trial.enter(Buy, 10, 50);
        trial.enter(Sell, 10, 51);
        assert_eq!(trial.call(), (0, 0));
        assert_eq!(trial.book.resting(), 2);
    }

    #[test]
    fn a_call_takes_the_smallest_difference() {
        let mut trial = Trial::new(8, Rule::Time);
        trial.enter(Buy, 10, 50);
        trial.enter(Buy, 10, 45);
        trial.enter(Sell, 10, 40);
        assert_eq!(trial.call(), (46, 10));
        assert_eq!(trial.dealt(1), [(1, 3, 10)]);
        assert_eq!(trial.book.best(Buy), Some(45));
    }

    #[test]
    fn a_minimum_is_held_against_the_reach() {
        let mut trial = Trial::new(8, Rule::Time);
        trial.enter(Sell, 60, 180);
        trial.enter(Sell, 40, 190);
        trial.enter(Sell, 50, 191);
        trial.call();
        let refused = trial.try_enter(Buy, 200, 190, 101);
        assert_eq!(refused, Err(Refusal::BelowTheMinimum));
        let entered = trial.try_enter(Buy, 200, 190, 100).unwrap();
        assert_eq!((entered.dealt, entered.rests), (100, 100));
    }

    #[test]
    fn rules_give_the_sequence() {
        for (rule, fills) in [
            (Rule::Time, vec![(3, 1, 50), (3, 2, 10)]),
            (Rule::Size, vec![(3, 2, 60)]),
        ] {
            let mut trial = Trial::new(8, rule);
            trial.enter(Sell, 50, 180);
            trial.enter(Sell, 80, 180);
            trial.call();
            let entered = trial.enter(Buy, 60, 180);
            assert_eq!(entered.dealt, 60);
            assert_eq!(trial.dealt(entered.fills), fills);
        }
    }

    #[test]
    fn size_reads_what_was_entered() {
        let mut trial = Trial::new(8, Rule::Size);
        trial.enter(Sell, 80, 180);
        trial.enter(Sell, 50, 180);
        trial.call();
        trial.enter(Buy, 70, 180);
        let entered = trial.enter(Buy, 20, 180);
        assert_eq!(trial.dealt(entered.fills), [(4, 1, 10), (4, 2, 10)]);
    }

    #[test]
    fn a_full_book_refuses_what_it_could_deal() {
        let mut trial = Trial::new(1, Rule::Time);
        trial.enter(Sell, 10, 180);
        trial.call();
        let refused = trial.try_enter(Buy, 10, 180, 0);
        assert_eq!(refused, Err(Refusal::BookFull));
    }

    #[test]
    fn a_cancel_works_once() {
        for rule in [Rule::Time, Rule::Size] {
            let mut trial = Trial::new(8, rule);
            trial.enter(Sell, 10, 180);
            trial.enter(Sell, 30, 180);
            trial.enter(Sell, 20, 180);
            assert_eq!(trial.book.cancel(2, 3), Err(Refusal::NoSuchOrder));
            assert_eq!(trial.book.cancel(1, 3).unwrap().withdrawn, 20);
            assert_eq!(trial.book.cancel(1, 3), Err(Refusal::NoSuchOrder));
            assert_eq!(trial.book.resting(), 2);
        }
    }

    #[test]
    fn refusals_come_in_sequence() {
        let mut trial = Trial::new(1, Rule::Time);
        trial.enter(Sell, 10, 180);
        trial.book.next = LAST_NUMBER + 1;
        let short = trial.fills.split_off(0);
        let refused = trial.try_enter(Buy, 20, 180, 20);
        assert_eq!(refused, Err(Refusal::FillListTooShort));
        let refused = trial.book.call(&mut trial.fills);
        assert_eq!(refused, Err(Refusal::FillListTooShort));
        trial.fills = short;
        let refused = trial.try_enter(Buy, 20, 180, 20);
        assert_eq!(refused, Err(Refusal::WrongPhase));
        assert_eq!(trial.book.halt(), Err(Refusal::WrongPhase));
        trial.call();
        assert_eq!(trial.book.call(&mut trial.fills), Err(Refusal::WrongPhase));
        let refused = trial.try_enter(Buy, 20, 180, 20);
        assert_eq!(refused, Err(Refusal::BookFull));
        trial.book.cancel(1, 1).unwrap();
        let refused = trial.try_enter(Buy, 20, 180, 20);
        assert_eq!(refused, Err(Refusal::NumbersSpent));
        trial.book.next = LAST_NUMBER;
        let refused = trial.try_enter(Buy, 20, 180, 20);
        assert_eq!(refused, Err(Refusal::BelowTheMinimum));
        assert_eq!(trial.enter(Buy, 20, 180).number, LAST_NUMBER);
        trial.book.cancel(1, LAST_NUMBER).unwrap();
        let refused = trial.try_enter(Buy, 20, 180, 0);
        assert_eq!(refused, Err(Refusal::NumbersSpent));
    }

    #[test]
    fn capacities_have_limits() {
        for (capacity, good) in [(0, false), (1, true), (1_024, true), (1_025, false)] {
            assert_eq!(Book::new(capacity, Rule::Time).is_ok(), good);
        }
    }
}
