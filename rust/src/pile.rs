//! Layers over a book.

use crate::book::{Answer, Book, Fill, Rule};
use crate::format::{Entry, MEMBERS, Request, Side};
use crate::refusal::Refusal;

/// The most layers that stand over a book.
pub const MOST_LAYERS: usize = 15;
/// A member's cap where none is given.
pub const USUAL_CAP: u64 = 1_000;
/// How many orders rest at most in the book of the `day` program.
pub const DAY_CAPACITY: usize = 8;

const DAY_LOW: u32 = 100;
const DAY_HIGH: u32 = 300;

/// Refuses a buy entry that takes its member over his cap.
#[derive(Clone, Debug)]
pub struct Cap {
    caps: [u64; MEMBERS],
    held: [u64; MEMBERS],
}

impl Cap {
    fn refuses(&self, entry: &Entry) -> bool {
        let member = usize::from(entry.member);
        let wanted = self.held[member].saturating_add(entry.quantity.into());
        entry.side == Side::Buy && wanted > self.caps[member]
    }

    /// Keeps what the member of an admitted request holds.
    fn note(&mut self, request: &Request, answer: &Answer) {
        match (request, answer) {
            (Request::Enter(entry), Answer::Entered(entered)) if entry.side == Side::Buy => {
                self.held[usize::from(entry.member)] +=
                    u64::from(entry.quantity) - u64::from(entered.withdrawn);
            }
            (Request::Cancel { member, .. }, Answer::Cancelled(cancelled))
                if cancelled.side == Side::Buy =>
            {
                self.held[usize::from(*member)] -= u64::from(cancelled.withdrawn);
            }
            _ => {}
        }
    }
}

/// A layer.
#[derive(Clone, Debug)]
pub enum Layer {
    Cap(Box<Cap>),
    Collar { low: u32, high: u32 },
}

impl Layer {
    /// A cap layer with a cap for each member.
    pub fn cap(caps: [u64; MEMBERS]) -> Layer {
        let held = [0; MEMBERS];
        Layer::Cap(Box::new(Cap { caps, held }))
    }

    /// A collar layer.
    pub fn collar(low: u32, high: u32) -> Result<Layer, Refusal> {
        if low > high {
            return Err(Refusal::BadSetUp);
        }
        Ok(Layer::Collar { low, high })
    }

    fn check(&self, entry: &Entry) -> Result<(), Refusal> {
        match self {
            Layer::Cap(cap) if cap.refuses(entry) => Err(Refusal::OverTheCap),
            Layer::Collar { low, high } if !(*low..=*high).contains(&entry.price) => {
                Err(Refusal::OutsideTheCollar)
            }
            _ => Ok(()),
        }
    }
}

/// A refusal, and the height of the layer or book that gave it.
#[derive(Clone, Copy, Debug, PartialEq, Eq)]
pub struct Refused {
    pub refusal: Refusal,
    pub height: usize,
}

/// A book and the layers over it, the lowest first.
#[derive(Clone, Debug)]
pub struct Pile {
    book: Book,
    layers: Vec<Layer>,
}

impl Pile {
    /// A book with no layers.
    pub fn new(book: Book) -> Pile {
        Pile {
            book,
            layers: Vec::new(),
        }
    }

    /// The pile of the `day` program, but for the capacity and the rule.
    pub fn day(capacity: usize, rule: Rule) -> Result<Pile, Refusal> {
        let mut pile = Pile::new(Book::new(capacity, rule)?);
        pile.add(Layer::cap([USUAL_CAP; MEMBERS]))?;
        pile.add(Layer::collar(DAY_LOW, DAY_HIGH)?)?;
        Ok(pile)
    }

    /// Sets a layer on top.
    pub fn add(&mut self, layer: Layer) -> Result<(), Refusal> {
        if !self.book.is_fresh() || self.layers.len() >= MOST_LAYERS {
            return Err(Refusal::BadSetUp);
        }
        self.layers.push(layer);
        Ok(())
    }

    /// The book at the bottom.
    pub fn book(&self) -> &Book {
        &self.book
    }

    /// The tonnes that a member may still enter to buy, as the tightest cap
    /// has it, or nothing where there is no cap.
    pub fn room(&self, member: u8) -> Option<u64> {
        let member = usize::from(member);
        let rooms = self.layers.iter().filter_map(|layer| match layer {
            Layer::Cap(cap) => Some(cap.caps[member] - cap.held[member]),
            Layer::Collar { .. } => None,
        });
        rooms.min()
    }

    /// Serves a request: the layers see an entry from the top down.
    pub fn serve(&mut self, request: &Request, fills: &mut [Fill]) -> Result<Answer, Refused> {
        if let Request::Enter(entry) = request {
            self.check(entry)?;
        }
        let served = self.book.serve(request, fills);
        let answer = served.map_err(|refusal| Refused { refusal, height: 0 })?;
        for layer in &mut self.layers {
            if let Layer::Cap(cap) = layer {
                cap.note(request, &answer);
            }
        }
        Ok(answer)
    }

    fn check(&self, entry: &Entry) -> Result<(), Refused> {
        for (below, layer) in self.layers.iter().enumerate().rev() {
            let height = below + 1;
            layer
                .check(entry)
                .map_err(|refusal| Refused { refusal, height })?;
        }
        Ok(())
    }
}

#[cfg(test)]
mod tests {
    use super::*;
    use crate::format::Life;

    fn buy(member: u8, quantity: u32, price: u32) -> Request {
        Request::Enter(Entry {
            member,
            side: Side::Buy,
            life: Life::Rest,
            price,
            quantity,
            minimum: 0,
        })
    }

    fn refused(refusal: Refusal, height: usize) -> Result<Answer, Refused> {
        Err(Refused { refusal, height })
    }

    #[test]
    fn the_cap_is_the_last_that_passes() {
        let mut fills = [Fill::default(); 8];
        let mut pile = Pile::day(8, Rule::Time).unwrap();
        pile.serve(&buy(1, 300, 200), &mut fills).unwrap();
        assert_eq!(
            pile.serve(&buy(1, 701, 200), &mut fills),
            refused(Refusal::OverTheCap, 1)
        );
        pile.serve(&buy(1, 700, 200), &mut fills).unwrap();
        assert_eq!(pile.room(1), Some(0));
        let cancel = Request::Cancel {
            member: 1,
            number: 1,
        };
        pile.serve(&cancel, &mut fills).unwrap();
        assert_eq!(pile.room(1), Some(300));
    }

    #[test]
    fn the_topmost_layer_refuses_first() {
        let mut fills = [Fill::default(); 8];
        let mut pile = Pile::day(8, Rule::Time).unwrap();
        for (price, expected) in [
            (99, refused(Refusal::OutsideTheCollar, 2)),
            (100, refused(Refusal::OverTheCap, 1)),
            (300, refused(Refusal::OverTheCap, 1)),
            (301, refused(Refusal::OutsideTheCollar, 2)),
        ] {
            assert_eq!(pile.serve(&buy(1, 1_001, price), &mut fills), expected);
        }
        assert_eq!(
            pile.serve(&buy(1, 1_000, 100), &mut fills[..7]),
            refused(Refusal::FillListTooShort, 0)
        );
    }

    #[test]
    fn layers_are_set_over_what_is_fresh() {
        assert!(Layer::collar(2, 1).is_err());
        let mut pile = Pile::new(Book::new(1, Rule::Time).unwrap());
        for _ in 0..MOST_LAYERS {
            pile.add(Layer::collar(1, 1).unwrap()).unwrap();
        }
        assert!(pile.add(Layer::collar(1, 1).unwrap()).is_err());
        let mut pile = Pile::new(Book::new(1, Rule::Time).unwrap());
        pile.serve(&Request::Call, &mut [Fill::default()]).unwrap();
        assert!(pile.add(Layer::collar(1, 1).unwrap()).is_err());
    }
}
