//! The lines of a listing.

use super::Held;

/// A fill as a listing has it.
#[derive(Clone, Copy, Debug, PartialEq, Eq)]
pub struct Fill {
    pub buy: u64,
    pub sell: u64,
    pub price: u64,
    pub quantity: u64,
}

/// Goes through the lines of a listing.
pub struct Lines<'a> {
    lines: Vec<&'a [u8]>,
    at: usize,
}

impl<'a> Lines<'a> {
    pub fn new(listing: &'a [u8]) -> Lines<'a> {
        Lines {
            lines: listing.split_inclusive(|&byte| byte == b'\n').collect(),
            at: 0,
        }
    }

    /// How many lines were taken.
    pub fn count(&self) -> usize {
        self.at
    }

    /// The next line, if it is text and has an end.
    pub fn peek(&self) -> Option<&'a str> {
        let line = self.lines.get(self.at)?.strip_suffix(b"\n")?;
        std::str::from_utf8(line).ok()
    }

    /// Goes past the next line.
    pub fn pass(&mut self) {
        self.at += 1;
    }

    fn take(&mut self) -> Result<&'a str, String> {
        let line = self.peek();
        let there = self.at < self.lines.len();
        self.pass();
        line.ok_or_else(|| {
            if there {
                "the line is no text with an end".to_string()
            } else {
                "the listing ends too soon".to_string()
            }
        })
    }

    /// The next line is this one.
    pub fn expect(&mut self, line: &str) -> Held {
        let found = self
            .take()
            .map_err(|words| format!("'{line}' is due, and {words}"))?;
        if found == line {
            Ok(())
        } else {
            Err(format!("'{line}' is due, and the line is '{found}'"))
        }
    }

    /// No line is left.
    pub fn expect_end(&mut self) -> Held {
        if self.at == self.lines.len() {
            return Ok(());
        }
        self.pass();
        Err("the listing goes on after its last line".into())
    }

    /// The numbers that stand in the next line where the pattern has `#`.
    pub fn numbers<const COUNT: usize>(&mut self, pattern: &str) -> Result<[u64; COUNT], String> {
        let line = self
            .take()
            .map_err(|words| format!("'{pattern}' is due, and {words}"))?;
        numbers_in(line, pattern)
            .and_then(|numbers| numbers.try_into().ok())
            .ok_or_else(|| format!("'{pattern}' is due, and the line is '{line}'"))
    }

    /// The fills that come next.
    pub fn fills(&mut self) -> Result<Vec<Fill>, String> {
        let mut fills = Vec::new();
        while self.peek().is_some_and(|line| line.starts_with("fill")) {
            let [buy, sell, price, quantity] = self.numbers("fill # # # #")?;
            fills.push(Fill {
                buy,
                sell,
                price,
                quantity,
            });
        }
        Ok(fills)
    }
}

fn numbers_in(line: &str, pattern: &str) -> Option<Vec<u64>> {
    let mut numbers = Vec::new();
    let mut words = line.split(' ');
    for due in pattern.split(' ') {
        let word = words.next()?;
        if due == "#" {
            numbers.push(number_of(word)?);
        } else if word != due {
            return None;
        }
    }
    match words.next() {
        None => Some(numbers),
        Some(_) => None,
    }
}

/// A number as it is printed: digits, and no needless zeros. No number of a
/// good listing has more than twelve digits.
fn number_of(word: &str) -> Option<u64> {
    let number: u64 = word.parse().ok()?;
    (word.len() <= 12 && number.to_string() == word).then_some(number)
}
