//! Request files: a reader, and a writer of records.

use crate::refusal::Refusal;

/// The version byte that a request file begins with.
pub const VERSION: u8 = 1;
/// The most bytes of a file that the programs read.
pub const MOST_BYTES: usize = 65_536;
/// How many members there are; they are numbered from 0.
pub const MEMBERS: usize = 64;
/// The highest price, in pence a tonne.
pub const MOST_PRICE: u32 = 100_000;
/// The largest quantity of an entry, in tonnes.
pub const MOST_QUANTITY: u32 = 50_000;

const ENTER: u8 = 1;
const CANCEL: u8 = 2;
const CALL: u8 = 3;
const HALT: u8 = 4;

/// The two sides of a book.
#[derive(Clone, Copy, Debug, PartialEq, Eq, Hash)]
pub enum Side {
    Buy,
    Sell,
}

impl Side {
    /// The side that this one deals with.
    pub fn other(self) -> Side {
        match self {
            Side::Buy => Side::Sell,
            Side::Sell => Side::Buy,
        }
    }

    /// The side's byte in a file.
    pub fn byte(self) -> u8 {
        match self {
            Side::Buy => 1,
            Side::Sell => 2,
        }
    }

    fn from_byte(byte: u8) -> Option<Side> {
        match byte {
            1 => Some(Side::Buy),
            2 => Some(Side::Sell),
            _ => None,
        }
    }
}

/// What becomes of the tonnes that an entry does not deal at once.
#[derive(Clone, Copy, Debug, PartialEq, Eq, Hash)]
pub enum Life {
    Rest,
    Kill,
}

impl Life {
    /// The life's byte in a file.
    pub fn byte(self) -> u8 {
        match self {
            Life::Rest => 1,
            Life::Kill => 2,
        }
    }

    fn from_byte(byte: u8) -> Option<Life> {
        match byte {
            1 => Some(Life::Rest),
            2 => Some(Life::Kill),
            _ => None,
        }
    }
}

/// An entry whose fields are all within their values.
#[derive(Clone, Copy, Debug, PartialEq, Eq)]
pub struct Entry {
    pub member: u8,
    pub side: Side,
    pub life: Life,
    pub price: u32,
    pub quantity: u32,
    pub minimum: u32,
}

/// The fields of an entry as they stand in a file, with any values.
#[derive(Clone, Copy, Debug, PartialEq, Eq)]
pub struct RawEntry {
    pub member: u8,
    pub side: u8,
    pub life: u8,
    pub price: u32,
    pub quantity: u32,
    pub minimum: u32,
}

impl From<Entry> for RawEntry {
    fn from(entry: Entry) -> RawEntry {
        RawEntry {
            member: entry.member,
            side: entry.side.byte(),
            life: entry.life.byte(),
            price: entry.price,
            quantity: entry.quantity,
            minimum: entry.minimum,
        }
    }
}

impl RawEntry {
    /// The entry, if every field is within its values.
    pub fn check(self) -> Result<Entry, Refusal> {
        check_member(self.member)?;
        let side = Side::from_byte(self.side).ok_or(Refusal::BadSideOrLife)?;
        let life = Life::from_byte(self.life).ok_or(Refusal::BadSideOrLife)?;
        if !self.numbers_in_range() {
            return Err(Refusal::OutOfRange);
        }
        Ok(Entry {
            member: self.member,
            side,
            life,
            price: self.price,
            quantity: self.quantity,
            minimum: self.minimum,
        })
    }

    fn numbers_in_range(self) -> bool {
        (1..=MOST_PRICE).contains(&self.price)
            && (1..=MOST_QUANTITY).contains(&self.quantity)
            && self.minimum <= self.quantity
    }
}

fn check_member(member: u8) -> Result<(), Refusal> {
    if usize::from(member) < MEMBERS {
        Ok(())
    } else {
        Err(Refusal::UnknownMember)
    }
}

/// What a record asks for.
#[derive(Clone, Copy, Debug, PartialEq, Eq)]
pub enum Request {
    Enter(Entry),
    Cancel { member: u8, number: u32 },
    Call,
    Halt,
}

/// A record as the reader hands it out.
#[derive(Clone, Copy, Debug, PartialEq, Eq)]
pub struct Record {
    /// How many bytes of the file stand before the record.
    pub offset: usize,
    /// The request, or why there is none.
    pub request: Result<Request, Refusal>,
}

/// Goes through the records of a file, each once.
///
/// A refusal that ends the file is the last thing that is handed out.
#[derive(Clone, Debug)]
pub struct Reader<'a> {
    file: &'a [u8],
    at: usize,
    ended: bool,
}

impl<'a> Reader<'a> {
    /// A reader at the beginning of a file.
    pub fn new(file: &'a [u8]) -> Reader<'a> {
        Reader {
            file,
            at: 0,
            ended: false,
        }
    }

    fn end(&mut self, offset: usize, refusal: Refusal) -> Option<Record> {
        self.ended = true;
        Some(Record {
            offset,
            request: Err(refusal),
        })
    }

    fn version_is_good(&self) -> bool {
        self.file.first() == Some(&VERSION)
    }
}

impl Iterator for Reader<'_> {
    type Item = Record;

    fn next(&mut self) -> Option<Record> {
        if self.ended {
            return None;
        }
        if self.at == 0 {
            if !self.version_is_good() {
                return self.end(0, Refusal::BadVersion);
            }
            self.at = 1;
        }
        let offset = self.at;
        let rest = &self.file[offset..];
        if rest.is_empty() {
            self.ended = true;
            return None;
        }
        match split_record(rest).and_then(|body| Ok((body, parse(body)?))) {
            Ok((body, request)) => {
                self.at += 2 + body.len();
                Some(Record { offset, request })
            }
            Err(refusal) => self.end(offset, refusal),
        }
    }
}

/// The bytes of the first record, after its length.
fn split_record(rest: &[u8]) -> Result<&[u8], Refusal> {
    let (length, rest) = rest.split_first_chunk().ok_or(Refusal::CutShort)?;
    let length = usize::from(u16::from_be_bytes(*length));
    rest.get(..length).ok_or(Refusal::CutShort)
}

/// Reads a record's bytes. The outer refusal ends the file, the inner one
/// skips the record.
fn parse(body: &[u8]) -> Result<Result<Request, Refusal>, Refusal> {
    match *body {
        [ENTER, member, side, life, ref numbers @ ..] if numbers.len() == 12 => {
            let raw = RawEntry {
                member,
                side,
                life,
                price: number_at(numbers, 0),
                quantity: number_at(numbers, 4),
                minimum: number_at(numbers, 8),
            };
            Ok(raw.check().map(Request::Enter))
        }
        [CANCEL, member, a, b, c, d] => {
            let number = u32::from_be_bytes([a, b, c, d]);
            Ok(check_member(member).map(|()| Request::Cancel { member, number }))
        }
        [CALL] => Ok(Ok(Request::Call)),
        [HALT] => Ok(Ok(Request::Halt)),
        _ => Err(Refusal::UnknownKind),
    }
}

fn number_at(bytes: &[u8], at: usize) -> u32 {
    u32::from_be_bytes([bytes[at], bytes[at + 1], bytes[at + 2], bytes[at + 3]])
}

/// Writes a request file, record by record.
#[derive(Clone, Debug)]
pub struct Writer {
    bytes: Vec<u8>,
    offsets: Vec<usize>,
}

impl Default for Writer {
    fn default() -> Writer {
        Writer::new()
    }
}

impl Writer {
    /// A file with the version byte and no records.
    pub fn new() -> Writer {
        Writer {
            bytes: vec![VERSION],
            offsets: Vec::new(),
        }
    }

    /// How many bytes were written.
    pub fn size(&self) -> usize {
        self.bytes.len()
    }

    /// The file, and the offset of each of its records.
    pub fn finish(self) -> (Vec<u8>, Vec<usize>) {
        (self.bytes, self.offsets)
    }

    /// Writes a request.
    pub fn request(&mut self, request: Request) {
        match request {
            Request::Enter(entry) => self.enter(entry.into()),
            Request::Cancel { member, number } => self.cancel(member, number),
            Request::Call => self.record(&[CALL]),
            Request::Halt => self.record(&[HALT]),
        }
    }

    /// Writes an entry with any fields.
    pub fn enter(&mut self, raw: RawEntry) {
        let mut body = [0; 16];
        body[..4].copy_from_slice(&[ENTER, raw.member, raw.side, raw.life]);
        body[4..8].copy_from_slice(&raw.price.to_be_bytes());
        body[8..12].copy_from_slice(&raw.quantity.to_be_bytes());
        body[12..].copy_from_slice(&raw.minimum.to_be_bytes());
        self.record(&body);
    }

    /// Writes a cancel with any member.
    pub fn cancel(&mut self, member: u8, number: u32) {
        let [a, b, c, d] = number.to_be_bytes();
        self.record(&[CANCEL, member, a, b, c, d]);
    }

    /// Writes a record with any bytes, and their length before them.
    pub fn record(&mut self, body: &[u8]) {
        let length = u16::try_from(body.len()).expect("a record is at most 65,535 bytes");
        self.offsets.push(self.bytes.len());
        self.bytes.extend_from_slice(&length.to_be_bytes());
        self.bytes.extend_from_slice(body);
    }
}

#[cfg(test)]
mod tests {
    use super::*;

    fn raw() -> RawEntry {
        RawEntry {
            member: 63,
            side: 2,
            life: 1,
            price: 100_000,
            quantity: 50_000,
            minimum: 50_000,
        }
    }

    fn refusals(file: &[u8]) -> Vec<(usize, Option<u8>)> {
        Reader::new(file)
            .map(|record| (record.offset, record.request.err().map(Refusal::number)))
            .collect()
    }

    #[test]
    fn prices_have_limits() {
        for (price, refused) in [(1, false), (100_000, false), (0, true), (100_001, true)] {
            let checked = RawEntry { price, ..raw() }.check();
            assert_eq!(checked.is_err(), refused, "price {price}");
            assert!(checked.is_ok() || checked == Err(Refusal::OutOfRange));
        }
    }

    #[test]
    fn fields_are_tested_in_sequence() {
        let worst = RawEntry {
            member: 64,
            side: 0,
            life: 3,
            price: 0,
            quantity: 0,
            minimum: 1,
        };
        assert_eq!(worst.check(), Err(Refusal::UnknownMember));
        let better = RawEntry { member: 0, ..worst };
        assert_eq!(better.check(), Err(Refusal::BadSideOrLife));
        let better = RawEntry { side: 1, ..better };
        assert_eq!(better.check(), Err(Refusal::BadSideOrLife));
        let better = RawEntry { life: 1, ..better };
        assert_eq!(better.check(), Err(Refusal::OutOfRange));
    }

    #[test]
    fn what_is_written_is_read() {
        let requests = [
            Request::Enter(raw().check().unwrap()),
            Request::Cancel {
                member: 0,
                number: u32::MAX,
            },
            Request::Call,
            Request::Halt,
        ];
        let mut writer = Writer::new();
        requests.iter().for_each(|&each| writer.request(each));
        let (file, offsets) = writer.finish();
        let read: Vec<_> = Reader::new(&file).collect();
        assert_eq!(offsets, [1, 19, 27, 30]);
        assert!(read.iter().map(|record| record.offset).eq(offsets));
        assert!(
            read.iter()
                .map(|record| record.request.unwrap())
                .eq(requests)
        );
    }

    #[test]
    fn files_end_as_they_should() {
        assert_eq!(refusals(&[]), [(0, Some(2))]);
        assert_eq!(refusals(&[2, 0, 1, 3]), [(0, Some(2))]);
        assert_eq!(refusals(&[1]), []);
        assert_eq!(refusals(&[1, 0]), [(1, Some(3))]);
        assert_eq!(refusals(&[1, 0, 1]), [(1, Some(3))]);
        assert_eq!(refusals(&[1, 0, 0]), [(1, Some(4))]);
        assert_eq!(refusals(&[1, 0, 2, 9]), [(1, Some(3))]);
        assert_eq!(
            refusals(&[1, 0, 1, 3, 0, 1, 5, 0, 1, 3]),
            [(1, None), (4, Some(4))]
        );
        assert_eq!(
            refusals(&[1, 0, 6, 2, 64, 0, 0, 0, 1, 0, 1, 4]),
            [(1, Some(5)), (9, None)]
        );
    }
}
