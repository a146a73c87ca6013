//! How fast the model is, and how fast another program is beside it.
//!
//! Each measure takes a request file that was prepared before. The other
//! program is given the same file right after the model, and its rate is
//! printed beside the model's.

use std::fmt;
use std::hint::black_box;
use std::io::{self, Write};
use std::path::Path;
use std::process::{Command, Stdio};
use std::thread;
use std::time::{Duration, Instant};

use crate::book::{Book, Fill, Order, Rule};
use crate::format::{Entry, Life, MEMBERS, MOST_PRICE, Reader, Request, Side, Writer};
use crate::pile::{Layer, Pile};
use crate::random::Random;

/// The capacities that are measured; as many orders rest before a call.
pub const CAPACITIES: [usize; 4] = [8, 64, 512, 1_024];
/// How many requests a mix has.
pub const MIX_REQUESTS: usize = 200_000;
/// How many bytes the file has that is read.
pub const FILE_BYTES: usize = 32 << 20;

const SEED: u64 = 1;
const MIDDLE: u32 = 50_000;
/// How many pence a resting order is from the best price at most.
const NEAR: u32 = 8;
/// How long a measure is repeated.
const LEAST_TIME: Duration = Duration::from_millis(300);

/// A measure's name, the model's rate, the other program's if there is one,
/// and what the rates count.
#[derive(Clone, Debug)]
pub struct Measure {
    pub name: String,
    pub model: f64,
    pub program: Option<f64>,
    pub unit: &'static str,
}

impl fmt::Display for Measure {
    fn fmt(&self, out: &mut fmt::Formatter<'_>) -> fmt::Result {
        let Measure {
            name, model, unit, ..
        } = self;
        write!(out, "{name:<28} model {model:>12.1}")?;
        if let Some(program) = self.program {
            let ratio = program / model;
            write!(out, "  program {program:>12.1}  ratio {ratio:>5.2}")?;
        }
        write!(out, "  {unit}")
    }
}

/// What is measured: the model's rate, and the words by which the other
/// program does the same, with the file that it is given and how much of the
/// unit one round of it is.
struct Task {
    name: String,
    model: f64,
    work: &'static str,
    capacity: usize,
    file: Vec<u8>,
    amount: f64,
    unit: &'static str,
}

/// All measures, one after the other, with another program's beside them.
pub fn all(program: Option<&Path>, mut tell: impl FnMut(&Measure)) -> io::Result<()> {
    for capacity in CAPACITIES {
        let mix = prepare_mix(SEED, capacity, Depth::Deep, MIX_REQUESTS);
        let book = served("ranked", book_rate(capacity, &mix), capacity, &mix);
        tell(&beside(program, book)?);
        let pile = served("pile", pile_rate(capacity, &mix), capacity, &mix);
        tell(&beside(program, pile)?);
    }
    for capacity in CAPACITIES {
        let mix = prepare_mix(SEED, capacity, Depth::Crowded, MIX_REQUESTS);
        let mut book = served("ranked", book_rate(capacity, &mix), capacity, &mix);
        book.name.insert_str(0, "crowded ");
        tell(&beside(program, book)?);
    }
    for orders in CAPACITIES {
        tell(&beside(program, call_task(orders))?);
    }
    let file = prepare_file(SEED, FILE_BYTES);
    let reading = Task {
        name: "read".into(),
        model: reader_rate(&file),
        work: "read",
        capacity: 0,
        amount: file.len() as f64 / 1_000_000.0,
        file,
        unit: "megabytes a second",
    };
    tell(&beside(program, reading)?);
    Ok(())
}

/// A mix that is served, with the model's rate.
fn served(work: &'static str, model: f64, capacity: usize, mix: &[Request]) -> Task {
    Task {
        name: format!("{work}, {capacity} places"),
        model,
        work,
        capacity,
        file: written(mix),
        amount: mix.len() as f64,
        unit: "requests a second",
    }
}

fn call_task(orders: usize) -> Task {
    let gathered = prepare_gathered(SEED, orders);
    let entries = gathered.iter().map(|&entry| Request::Enter(entry));
    let requests: Vec<_> = entries.chain([Request::Call]).collect();
    Task {
        name: format!("call, {orders} orders"),
        model: call_rate(&gathered),
        work: "last",
        capacity: orders,
        file: written(&requests),
        amount: 1.0,
        unit: "calls a second",
    }
}

/// The file that a book of so many places is measured with.
pub fn mix_file(capacity: usize, depth: Depth) -> Vec<u8> {
    written(&prepare_mix(SEED, capacity, depth, MIX_REQUESTS))
}

fn written(requests: &[Request]) -> Vec<u8> {
    let mut writer = Writer::new();
    requests.iter().for_each(|&request| writer.request(request));
    writer.finish().0
}

fn beside(program: Option<&Path>, task: Task) -> io::Result<Measure> {
    let program = match program {
        Some(path) => Some(program_rate(path, &task)?),
        None => None,
    };
    Ok(Measure {
        name: task.name,
        model: task.model,
        program,
        unit: task.unit,
    })
}

/// Has the program do a task, and reads off its error output how many rounds
/// it made in how many nanoseconds.
fn program_rate(path: &Path, task: &Task) -> io::Result<f64> {
    let mut child = Command::new(path)
        .arg(task.work)
        .arg(task.capacity.to_string())
        .arg(LEAST_TIME.as_millis().to_string())
        .stdin(Stdio::piped())
        .stdout(Stdio::null())
        .stderr(Stdio::piped())
        .spawn()?;
    let mut input = child.stdin.take().expect("the input is a pipe");
    let output = thread::scope(|scope| {
        // A program that refuses its words ends before it has read everything.
        scope.spawn(move || input.write_all(&task.file).ok());
        child.wait_with_output()
    })?;
    let told = String::from_utf8_lossy(&output.stderr);
    match told.split_whitespace().collect::<Vec<_>>()[..] {
        [rounds, "rounds", nanoseconds, "ns"] => {
            let rounds: f64 = rounds.parse().map_err(io::Error::other)?;
            let nanoseconds: f64 = nanoseconds.parse().map_err(io::Error::other)?;
            Ok(rounds * task.amount * 1e9 / nanoseconds)
        }
        _ => Err(io::Error::other(format!("it says {told}"))),
    }
}

/// Where the orders of a book rest while it is measured.
#[derive(Clone, Copy, Debug, PartialEq, Eq)]
pub enum Depth {
    /// Half of the places, past the first eight, hold orders that lie away
    /// from the best prices, a penny apart; requests come near the best prices.
    Deep,
    /// All orders lie within a few pence, half of the places full of them.
    Crowded,
}

impl Depth {
    /// How many orders lie away from the best prices.
    fn far(self, capacity: usize) -> usize {
        match self {
            Depth::Deep => (capacity / 2).min(capacity.saturating_sub(8)),
            Depth::Crowded => 0,
        }
    }

    /// How many orders are kept near the best prices.
    fn near(self, capacity: usize) -> usize {
        match self {
            Depth::Deep => (capacity / 4).min(2 * NEAR as usize),
            Depth::Crowded => capacity / 2,
        }
    }
}

/// Requests for a book: orders away from the best prices, a call, and then of
/// a hundred 60 entries that rest near the best price, 25 that deal and 15
/// cancels.
pub fn prepare_mix(seed: u64, capacity: usize, depth: Depth, count: usize) -> Vec<Request> {
    let mut mixer = Mixer::new(seed, capacity, depth);
    let mut requests = Vec::new();
    for away in (0..depth.far(capacity) as u32).rev() {
        let request = mixer.far(away);
        requests.push(mixer.serve(request));
    }
    requests.push(mixer.serve(Request::Call));
    while requests.len() < count {
        let request = mixer.next();
        requests.push(mixer.serve(request));
    }
    requests
}

/// The kinds of request in a mix.
#[derive(Clone, Copy, PartialEq, Eq)]
enum Kind {
    Rest,
    Deal,
    Cancel,
}

/// Draws a mix, with a book run beside it.
struct Mixer {
    random: Random,
    book: Book,
    fills: Vec<Fill>,
    /// How many orders lie away from the best prices, and how many are kept
    /// near them.
    far: usize,
    near: usize,
    /// What gave way to a cancel when the book was full, and comes later.
    put_off: Vec<Kind>,
}

impl Mixer {
    fn new(seed: u64, capacity: usize, depth: Depth) -> Mixer {
        Mixer {
            random: Random::new(seed),
            book: Book::new(capacity, Rule::Time).expect("the capacity is a good one"),
            fills: vec![Fill::default(); capacity],
            far: depth.far(capacity),
            near: depth.near(capacity),
            put_off: Vec::new(),
        }
    }

    fn serve(&mut self, request: Request) -> Request {
        // A refusal is part of the mix too.
        let _ = self.book.serve(&request, &mut self.fills);
        request
    }

    fn next(&mut self) -> Request {
        match self.kind() {
            Kind::Rest => self.resting(),
            Kind::Deal => self.dealing(),
            Kind::Cancel => self.cancel(),
        }
    }

    fn kind(&mut self) -> Kind {
        let drawn = match self.random.below(100) {
            0..60 => Kind::Rest,
            60..85 => Kind::Deal,
            _ => Kind::Cancel,
        };
        let full = self.book.resting() >= self.book.capacity();
        match drawn {
            Kind::Cancel if full => drawn,
            Kind::Cancel => self.put_off.pop().unwrap_or(drawn),
            Kind::Rest | Kind::Deal if full => {
                self.put_off.push(drawn);
                Kind::Cancel
            }
            Kind::Rest | Kind::Deal => drawn,
        }
    }

    fn side(&mut self) -> Side {
        self.random.pick(&[Side::Buy, Side::Sell])
    }

    /// The price so many pence from the middle, on a side.
    fn price(side: Side, away: u32) -> u32 {
        match side {
            Side::Buy => MIDDLE - away,
            Side::Sell => MIDDLE + away,
        }
    }

    /// The orders of a side near the best prices, by rank.
    fn near(&self, side: Side) -> Vec<Order> {
        let last = Mixer::price(side, NEAR);
        let orders = self.book.orders(side).take_while(|order| match side {
            Side::Buy => order.price >= last,
            Side::Sell => order.price <= last,
        });
        orders.copied().collect()
    }

    /// A side that has orders near the best prices, with them, if there is one.
    fn side_with_orders(&mut self) -> Option<(Side, Vec<Order>)> {
        let side = self.side();
        let sides = [side, side.other()].map(|side| (side, self.near(side)));
        sides.into_iter().find(|(_, orders)| !orders.is_empty())
    }

    fn entry(&mut self, side: Side, price: u32, quantity: u32) -> Request {
        Request::Enter(Entry {
            member: self.random.below(MEMBERS as u64) as u8,
            side,
            life: Life::Rest,
            price,
            quantity,
            minimum: 0,
        })
    }

    /// An entry that rests away from the best prices, on each side in turn.
    fn far(&mut self, away: u32) -> Request {
        let side = if away % 2 == 0 { Side::Buy } else { Side::Sell };
        self.entry(side, Mixer::price(side, NEAR + 1 + away / 2), 100)
    }

    /// An entry that rests near the best price.
    fn resting(&mut self) -> Request {
        let side = self.side();
        let price = Mixer::price(side, self.random.between(1, NEAR));
        let quantity = self.random.between(1, 100);
        self.entry(side, price, quantity)
    }

    /// An entry that deals with the first orders of the other side: with as
    /// many as keep the orders near the best prices at their number.
    fn dealing(&mut self) -> Request {
        let Some((other, orders)) = self.side_with_orders() else {
            return self.resting();
        };
        let crowded = self.book.resting() > self.far + self.near;
        let count = orders.len().min(if crowded { 3 } else { 1 });
        let price = orders[count - 1].price;
        let quantity = orders[..count].iter().map(|order| order.remains).sum();
        self.entry(other.other(), price, quantity)
    }

    fn cancel(&mut self) -> Request {
        let Some((_, orders)) = self.side_with_orders() else {
            return self.resting();
        };
        let order = self.random.pick(&orders);
        Request::Cancel {
            member: order.member,
            number: order.number,
        }
    }
}

/// Entries that gather and cross: about half of their tonnes deal.
pub fn prepare_gathered(seed: u64, count: usize) -> Vec<Entry> {
    let mut random = Random::new(seed);
    let entries = (0..count).map(|_| Entry {
        member: random.below(MEMBERS as u64) as u8,
        side: random.pick(&[Side::Buy, Side::Sell]),
        life: Life::Rest,
        price: random.between(MIDDLE - 500, MIDDLE + 500),
        quantity: random.between(1, 100),
        minimum: 0,
    });
    entries.collect()
}

/// A good file with at least so many bytes.
pub fn prepare_file(seed: u64, bytes: usize) -> Vec<u8> {
    let mix = prepare_mix(seed, 64, Depth::Deep, 10_000);
    let mut writer = Writer::new();
    while writer.size() < bytes {
        mix.iter().for_each(|&request| writer.request(request));
    }
    writer.finish().0
}

/// Requests a second of a book alone.
pub fn book_rate(capacity: usize, mix: &[Request]) -> f64 {
    let mut fills = vec![Fill::default(); capacity];
    let fresh = || Book::new(capacity, Rule::Time).expect("the capacity is a good one");
    rate(mix.len(), fresh, |book| {
        for request in mix {
            black_box(book.serve(request, &mut fills)).ok();
        }
    })
}

/// Requests a second of a pile of a book, a cap layer and a collar layer that
/// refuse nothing.
pub fn pile_rate(capacity: usize, mix: &[Request]) -> f64 {
    let mut fills = vec![Fill::default(); capacity];
    rate(
        mix.len(),
        || wide_pile(capacity),
        |pile| {
            for request in mix {
                black_box(pile.serve(request, &mut fills)).ok();
            }
        },
    )
}

fn wide_pile(capacity: usize) -> Pile {
    let book = Book::new(capacity, Rule::Time).expect("the capacity is a good one");
    let mut pile = Pile::new(book);
    let collar = Layer::collar(1, MOST_PRICE).expect("the collar is a good one");
    pile.add(Layer::cap([u64::MAX; MEMBERS]))
        .and_then(|()| pile.add(collar))
        .expect("the pile is fresh");
    pile
}

/// Calls a second on a book in which all these entries rest.
pub fn call_rate(gathered: &[Entry]) -> f64 {
    let capacity = gathered.len();
    let mut fills = vec![Fill::default(); capacity];
    let mut full = Book::new(capacity, Rule::Time).expect("the capacity is a good one");
    for entry in gathered {
        full.enter(entry, &mut fills).expect("there is room");
    }
    rate(
        1,
        || full.clone(),
        |book| {
            black_box(book.call(&mut fills)).ok();
        },
    )
}

/// Megabytes a second of a reader that goes through all of a file.
pub fn reader_rate(file: &[u8]) -> f64 {
    let records = rate(
        file.len(),
        || (),
        |()| {
            for record in Reader::new(file) {
                black_box(record).request.ok();
            }
        },
    );
    records / 1_000_000.0
}

/// Repeats some work on what is set up anew each time, and says how much is
/// done in a second. Setting up is not in the time.
fn rate<T>(amount: usize, set_up: impl Fn() -> T, mut work: impl FnMut(&mut T)) -> f64 {
    let mut time = Duration::ZERO;
    let mut rounds = 0;
    work(&mut set_up());
    while time < LEAST_TIME {
        let mut prepared = set_up();
        let start = Instant::now();
        work(&mut prepared);
        time += start.elapsed();
        rounds += 1;
    }
    (amount * rounds) as f64 / time.as_secs_f64()
}

#[cfg(test)]
mod tests {
    use super::*;
    use crate::book::Answer;

    /// How many of a hundred requests rest, deal, cancel and are refused.
    fn shares(capacity: usize, depth: Depth) -> [usize; 4] {
        let mix = prepare_mix(SEED, capacity, depth, 20_000);
        let mut book = Book::new(capacity, Rule::Time).unwrap();
        let mut fills = vec![Fill::default(); capacity];
        let mut shares = [0; 4];
        for request in &mix {
            let place = match book.serve(request, &mut fills) {
                Ok(Answer::Entered(entered)) if entered.dealt == 0 => 0,
                Ok(Answer::Entered(_)) => 1,
                Ok(_) => 2,
                Err(_) => 3,
            };
            shares[place] += 1;
        }
        shares.map(|share| share / 200)
    }

    #[test]
    fn mixes_are_as_they_should_be() {
        let depths = [Depth::Deep, Depth::Crowded];
        let kinds = CAPACITIES.map(|capacity| depths.map(|depth| (capacity, depth)));
        for (capacity, depth) in kinds.into_iter().flatten() {
            let [rest, deal, cancel, refused] = shares(capacity, depth);
            assert!((54..=66).contains(&rest), "{rest} rest");
            assert!((20..=28).contains(&deal), "{deal} deal");
            assert!((11..=17).contains(&cancel), "{cancel} cancel");
            assert!(refused <= 5, "{refused} are refused");
        }
    }

    #[test]
    fn a_large_file_is_a_good_one() {
        let file = prepare_file(SEED, 100_000);
        assert!(Reader::new(&file).all(|record| record.request.is_ok()));
    }
}
