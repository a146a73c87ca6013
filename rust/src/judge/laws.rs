//! The match laws, and the law of the call's price.

use std::cmp::Reverse;
use std::collections::BTreeSet;

use super::file::Side;
use super::lines::Fill;
use super::orders::Order;
use super::{HIGHEST_PRICE, Held};

/// What the price of a fill has to be.
#[derive(Clone, Copy, Debug)]
pub enum Prices {
    /// This one.
    One(u64),
    /// That of the order of this side.
    OfResting(Side),
}

/// Who may deal, each side in its sequence, and how much.
#[derive(Debug)]
pub struct Deal {
    pub buyers: Vec<Order>,
    pub sellers: Vec<Order>,
    pub tonnes: u64,
    pub prices: Prices,
}

fn place(list: &[Order], number: u64) -> Option<usize> {
    list.iter().position(|order| order.number == number)
}

/// Match laws 2 to 7. The first is a refusal, and is held where refusals are.
pub fn judge_fills(deal: &Deal, fills: &[Fill]) -> Held {
    let mut pairs = Vec::new();
    for fill in fills {
        pairs.push(judge_fill(deal, fill)?);
    }
    let bought = got(&deal.buyers, fills.iter().map(|fill| (fill.buy, fill)));
    let sold = got(&deal.sellers, fills.iter().map(|fill| (fill.sell, fill)));
    judge_remains(&deal.buyers, &bought)?;
    judge_remains(&deal.sellers, &sold)?;
    judge_tonnes(deal.tonnes, fills)?;
    judge_ahead(&deal.buyers, &bought)?;
    judge_ahead(&deal.sellers, &sold)?;
    judge_sequence(&pairs)
}

/// Laws 2 and 3 for one fill: the places of its buyer and its seller.
fn judge_fill(deal: &Deal, fill: &Fill) -> Result<(usize, usize), String> {
    let Fill {
        buy,
        sell,
        price,
        quantity,
    } = *fill;
    let buyer = place(&deal.buyers, buy)
        .ok_or_else(|| format!("match law 2: {buy} is not one of the buyers"))?;
    let seller = place(&deal.sellers, sell)
        .ok_or_else(|| format!("match law 2: {sell} is not one of the sellers"))?;
    if quantity == 0 {
        let words = format!("match law 2: the fill of {buy} and {sell} has no tonnes");
        return Err(words);
    }
    let due = match deal.prices {
        Prices::One(price) => price,
        Prices::OfResting(Side::Buy) => deal.buyers[buyer].price,
        Prices::OfResting(Side::Sell) => deal.sellers[seller].price,
    };
    if price != due {
        return Err(format!(
            "match law 3: the fill of {buy} and {sell} is at {price} and not at {due}"
        ));
    }
    Ok((buyer, seller))
}

/// What each of a list gets in all.
fn got<'a>(list: &[Order], parts: impl Iterator<Item = (u64, &'a Fill)>) -> Vec<u64> {
    let mut sums = vec![0; list.len()];
    for (number, fill) in parts {
        if let Some(place) = place(list, number) {
            sums[place] += fill.quantity;
        }
    }
    sums
}

fn judge_remains(list: &[Order], got: &[u64]) -> Held {
    for (order, &sum) in list.iter().zip(got) {
        if sum > order.remains() {
            return Err(format!(
                "match law 4: order {} gets {sum}, and {} remain",
                order.number,
                order.remains()
            ));
        }
    }
    Ok(())
}

fn judge_tonnes(tonnes: u64, fills: &[Fill]) -> Held {
    let sum: u64 = fills.iter().map(|fill| fill.quantity).sum();
    if sum == tonnes {
        return Ok(());
    }
    Err(format!(
        "match law 5: the fills add up to {sum}, and {tonnes} are to deal"
    ))
}

fn judge_ahead(list: &[Order], got: &[u64]) -> Held {
    let mut passed_over: Option<&Order> = None;
    for (order, &sum) in list.iter().zip(got) {
        if let Some(ahead) = passed_over.filter(|_| sum > 0) {
            return Err(format!(
                "match law 6: order {} gets {sum}, and {} ahead of it is not dealt whole",
                order.number, ahead.number
            ));
        }
        if sum < order.remains() {
            passed_over = passed_over.or(Some(order));
        }
    }
    Ok(())
}

fn judge_sequence(pairs: &[(usize, usize)]) -> Held {
    for (place, pair) in pairs.windows(2).enumerate() {
        let (before, after) = (pair[0], pair[1]);
        let (this, next) = (place + 1, place + 2);
        if before == after {
            return Err(format!("match law 7: fills {this} and {next} are one pair"));
        }
        if after.0 < before.0 {
            return Err(format!(
                "match law 7: the buyer moves ahead from fill {this} to {next}"
            ));
        }
        if after.1 < before.1 {
            return Err(format!(
                "match law 7: the seller moves ahead from fill {this} to {next}"
            ));
        }
    }
    Ok(())
}

/// The prices at which demand or supply can change: 1, and each order's price
/// with those beside it.
pub fn candidates(resting: &[Order]) -> impl Iterator<Item = u64> {
    let mut prices = BTreeSet::from([1]);
    for order in resting {
        prices.extend([order.price - 1, order.price, order.price + 1]);
    }
    prices
        .into_iter()
        .filter(|price| (1..=HIGHEST_PRICE).contains(price))
}

/// Demand and supply at a price.
fn demand_and_supply(resting: &[Order], price: u64) -> (u64, u64) {
    let (mut demand, mut supply) = (0, 0);
    for order in resting {
        match order.side {
            Side::Buy if order.price >= price => demand += order.remains(),
            Side::Sell if order.price <= price => supply += order.remains(),
            _ => {}
        }
    }
    (demand, supply)
}

/// The call's price is the best of these prices: the largest volume, then the
/// smallest difference, then the lowest price.
pub fn judge_call_price(
    resting: &[Order],
    price: u64,
    volume: u64,
    prices: impl Iterator<Item = u64>,
) -> Held {
    let worth = prices.map(|price| {
        let (demand, supply) = demand_and_supply(resting, price);
        let volume = demand.min(supply);
        (volume, Reverse(demand.abs_diff(supply)), Reverse(price))
    });
    let due = match worth.max() {
        Some((volume, _, Reverse(price))) if volume > 0 => (price, volume),
        _ => (0, 0),
    };
    if (price, volume) == due {
        return Ok(());
    }
    Err(format!(
        "the call's price: {price} with volume {volume} is not the best, {} with {} is",
        due.0, due.1
    ))
}
