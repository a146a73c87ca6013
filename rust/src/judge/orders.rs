//! The orders as the listing has them, in a plain list.

use std::cmp::Ordering;

use super::file::{Entry, Side};
use super::lines::Fill;
use super::{Held, MEMBERS, Sequence};

/// An order, from its entry on.
#[derive(Clone, Debug)]
pub struct Order {
    pub number: u64,
    pub member: u64,
    pub side: Side,
    pub price: u64,
    pub entered: u64,
    pub dealt: u64,
    pub withdrawn: u64,
}

impl Order {
    pub fn entered(number: u64, entry: &Entry) -> Order {
        Order {
            number,
            member: entry.member,
            side: entry.side,
            price: entry.price,
            entered: entry.quantity,
            dealt: 0,
            withdrawn: 0,
        }
    }

    /// What neither was dealt nor withdrawn.
    pub fn remains(&self) -> u64 {
        self.entered.saturating_sub(self.dealt + self.withdrawn)
    }

    /// True if an order of the other side at this limit can deal with it.
    fn is_within(&self, side: Side, limit: u64) -> bool {
        self.side != side
            && match side {
                Side::Buy => self.price <= limit,
                Side::Sell => self.price >= limit,
            }
    }
}

/// Less if `a` is ahead of `b`, an order of the same side.
pub fn compare(sequence: Sequence, a: &Order, b: &Order) -> Ordering {
    let by_price = match a.side {
        Side::Buy => b.price.cmp(&a.price),
        Side::Sell => a.price.cmp(&b.price),
    };
    let by_size = match sequence {
        Sequence::Time => Ordering::Equal,
        Sequence::Size => b.entered.cmp(&a.entered),
    };
    by_price.then(by_size).then(a.number.cmp(&b.number))
}

/// All orders that were ever entered. An order's number is its place, from 1.
pub struct Orders {
    sequence: Sequence,
    list: Vec<Order>,
}

impl Orders {
    pub fn new(sequence: Sequence) -> Orders {
        Orders {
            sequence,
            list: Vec::new(),
        }
    }

    /// How many numbers were given.
    pub fn given(&self) -> u64 {
        self.list.len() as u64
    }

    pub fn resting(&self) -> impl Iterator<Item = &Order> {
        self.list.iter().filter(|order| order.remains() > 0)
    }

    /// The orders that an entry can deal with, in their sequence.
    pub fn in_reach(&self, side: Side, limit: u64) -> Vec<Order> {
        let reached = self.resting().filter(|order| order.is_within(side, limit));
        let mut list: Vec<Order> = reached.cloned().collect();
        list.sort_by(|a, b| compare(self.sequence, a, b));
        list
    }

    /// What remains of the orders that an entry can deal with.
    pub fn reach(&self, side: Side, limit: u64) -> u64 {
        self.resting()
            .filter(|order| order.is_within(side, limit))
            .map(Order::remains)
            .sum()
    }

    /// The tonnes of a member's buys that were entered, less those withdrawn.
    pub fn held(&self, member: u64) -> u64 {
        self.list
            .iter()
            .filter(|order| order.member == member && order.side == Side::Buy)
            .map(|order| order.entered - order.withdrawn)
            .sum()
    }

    pub fn add(&mut self, order: Order) {
        self.list.push(order);
    }

    fn get(&mut self, number: u64) -> Result<&mut Order, String> {
        let place = number.checked_sub(1).map(|place| place as usize);
        place
            .and_then(|place| self.list.get_mut(place))
            .ok_or_else(|| format!("there is no order {number}"))
    }

    /// Takes fills off what remains.
    pub fn deal(&mut self, fills: &[Fill]) -> Held {
        for fill in fills {
            self.get(fill.buy)?.dealt += fill.quantity;
            self.get(fill.sell)?.dealt += fill.quantity;
        }
        Ok(())
    }

    /// Takes withdrawn tonnes off what remains.
    pub fn withdraw(&mut self, number: u64, tonnes: u64) -> Held {
        let order = self.get(number)?;
        if tonnes > order.remains() {
            let remains = order.remains();
            return Err(format!(
                "order {number} does not add up: {tonnes} tonnes are withdrawn of {remains}"
            ));
        }
        order.withdrawn += tonnes;
        Ok(())
    }

    /// What remains of an order is what should rest.
    pub fn expect_rest(&mut self, number: u64, rest: u64) -> Held {
        let remains = self.get(number)?.remains();
        if remains == rest {
            return Ok(());
        }
        Err(format!(
            "order {number} does not add up: {rest} tonnes should rest, and {remains} remain"
        ))
    }

    /// Every order adds up.
    pub fn judge_sums(&self) -> Held {
        for order in &self.list {
            let parts = order.dealt + order.remains() + order.withdrawn;
            if parts != order.entered {
                return Err(format!(
                    "order {} does not add up: {} entered, {} dealt, {} withdrawn",
                    order.number, order.entered, order.dealt, order.withdrawn
                ));
            }
        }
        Ok(())
    }

    /// What a member holds is what he bought and what he has resting to buy,
    /// and is not above the cap.
    pub fn judge_caps(&self, cap: u64) -> Held {
        let mut held = [0; MEMBERS];
        let mut has = [0; MEMBERS];
        for order in self.list.iter().filter(|order| order.side == Side::Buy) {
            held[order.member as usize] += order.entered - order.withdrawn;
            has[order.member as usize] += order.dealt + order.remains();
        }
        for member in 0..MEMBERS {
            let (held, has) = (held[member], has[member]);
            if held > cap {
                return Err(format!("member {member} holds {held}, above the cap {cap}"));
            }
            if held != has {
                return Err(format!(
                    "member {member} holds {held}, and has {has} bought or resting"
                ));
            }
        }
        Ok(())
    }

    /// No resting buy's price is at or above a resting sell's.
    pub fn judge_not_crossed(&self) -> Held {
        for buy in self.resting().filter(|order| order.side == Side::Buy) {
            let crossed = self
                .resting()
                .find(|order| order.is_within(Side::Buy, buy.price));
            if let Some(sell) = crossed {
                return Err(format!(
                    "the book is crossed while dealing: buy {} at {} and sell {} at {}",
                    buy.number, buy.price, sell.number, sell.price
                ));
            }
        }
        Ok(())
    }
}
