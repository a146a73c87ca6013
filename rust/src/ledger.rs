//! What each member bought and sold, and what he pays and receives.

use std::cmp::Reverse;

use crate::book::Fill;
use crate::format::MEMBERS;
use crate::refusal::Refusal;

/// The most that any total of a member comes to.
pub const MOST_TOTAL: u64 = 1_000_000_000_000;

/// Tonnes bought and sold, and pence to pay and to receive.
#[derive(Clone, Copy, Debug, Default, PartialEq, Eq)]
pub struct Account {
    pub bought: u64,
    pub sold: u64,
    pub pays: u64,
    pub receives: u64,
}

impl Account {
    /// True if the member neither bought nor sold.
    pub fn is_empty(&self) -> bool {
        self.bought == 0 && self.sold == 0
    }

    fn plus(self, other: &Account) -> Account {
        Account {
            bought: self.bought + other.bought,
            sold: self.sold + other.sold,
            pays: self.pays + other.pays,
            receives: self.receives + other.receives,
        }
    }

    fn within_limit(&self) -> bool {
        [self.bought, self.sold, self.pays, self.receives]
            .iter()
            .all(|&total| total <= MOST_TOTAL)
    }
}

/// A member's line of the standing.
#[derive(Clone, Copy, Debug, PartialEq, Eq)]
pub struct Line {
    pub rank: usize,
    pub member: usize,
    pub account: Account,
}

/// The accounts of all members.
#[derive(Clone, Debug)]
pub struct Ledger {
    accounts: [Account; MEMBERS],
}

impl Default for Ledger {
    fn default() -> Ledger {
        Ledger {
            accounts: [Account::default(); MEMBERS],
        }
    }
}

impl Ledger {
    /// Books all of a list of fills, or none of them if some member's total
    /// would pass the limit.
    pub fn book(&mut self, fills: &[Fill]) -> Result<(), Refusal> {
        let mut accounts = self.accounts;
        for fill in fills {
            let quantity = u64::from(fill.quantity);
            let money = u64::from(fill.price) * quantity;
            let buyer = &mut accounts[usize::from(fill.buyer)];
            buyer.bought += quantity;
            buyer.pays += money;
            let seller = &mut accounts[usize::from(fill.seller)];
            seller.sold += quantity;
            seller.receives += money;
        }
        if !accounts.iter().all(Account::within_limit) {
            return Err(Refusal::LedgerFull);
        }
        self.accounts = accounts;
        Ok(())
    }

    /// The sums over all members.
    pub fn total(&self) -> Account {
        self.accounts.iter().fold(Account::default(), Account::plus)
    }

    /// The members who bought or sold: most tonnes bought first, then the
    /// lower member. Ranks count all members, also those who did neither.
    pub fn standing(&self) -> Vec<Line> {
        let mut members: Vec<usize> = (0..MEMBERS).collect();
        members.sort_by_key(|&member| (Reverse(self.accounts[member].bought), member));
        let ranked = members.into_iter().zip(1..);
        let lines = ranked.map(|(member, rank)| Line {
            rank,
            member,
            account: self.accounts[member],
        });
        lines.filter(|line| !line.account.is_empty()).collect()
    }
}

#[cfg(test)]
mod tests {
    use super::*;

    fn fill(buyer: u8, seller: u8, price: u32, quantity: u32) -> Fill {
        Fill {
            buyer,
            seller,
            price,
            quantity,
            ..Fill::default()
        }
    }

    #[test]
    fn the_standing_is_in_sequence() {
        let mut ledger = Ledger::default();
        ledger
            .book(&[fill(7, 3, 10, 5), fill(2, 3, 10, 5), fill(9, 9, 20, 6)])
            .unwrap();
        let standing = ledger.standing();
        let members: Vec<_> = standing.iter().map(|l| (l.rank, l.member)).collect();
        assert_eq!(members, [(1, 9), (2, 2), (3, 7), (6, 3)]);
        assert_eq!(ledger.total().pays, 220);
        assert_eq!(standing[0].account.receives, 120);
    }

    #[test]
    fn a_full_ledger_takes_nothing() {
        let mut ledger = Ledger::default();
        let large = fill(1, 2, 100_000, 50_000);
        for _ in 0..200 {
            ledger.book(&[large]).unwrap();
        }
        assert_eq!(ledger.total().pays, MOST_TOTAL);
        let both = [fill(3, 4, 1, 1), fill(1, 4, 1, 1)];
        assert_eq!(ledger.book(&both), Err(Refusal::LedgerFull));
        assert_eq!(ledger.standing().len(), 2);
        ledger.book(&both[..1]).unwrap();
        assert_eq!(ledger.total().pays, MOST_TOTAL + 1);
    }
}
