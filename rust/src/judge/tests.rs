//! The judge passes good listings and finds planted faults.

use super::*;
use crate::book::Rule;
use crate::generate;
use crate::listing;
use crate::random::Random;

const FILE: &[u8] = include_bytes!("../../../examples/day.grain");

/// Judges the worked example with a part of its listing put in another's
/// place, and gives the judge's words.
fn words_after(part: &str, other: &str) -> String {
    let listing = listing::day(FILE);
    assert!(listing.contains(part), "the listing has {part:?}");
    let planted = listing.replacen(part, other, 1);
    match judge_day(FILE, planted.as_bytes()) {
        Ok(()) => panic!("the judge passes {other:?} in the place of {part:?}"),
        Err(fault) => fault.to_string(),
    }
}

fn assert_found(part: &str, other: &str, words: &str) {
    let found = words_after(part, other);
    assert!(found.contains(words), "{found:?} has {words:?}");
}

#[test]
fn the_worked_example_passes() {
    assert_eq!(judge_day(FILE, listing::day(FILE).as_bytes()), Ok(()));
}

#[test]
fn a_fill_split_in_two() {
    assert_found(
        "fill 1 2 190 100\n",
        "fill 1 2 190 40\nfill 1 2 190 60\n",
        "match law 7: fills 1 and 2 are one pair",
    );
}

#[test]
fn fills_reversed() {
    assert_found(
        "fill 1 2 190 100\nfill 1 3 190 100\n",
        "fill 1 3 190 100\nfill 1 2 190 100\n",
        "match law 7: the seller moves ahead",
    );
}

#[test]
fn a_wrong_price() {
    assert_found("fill 1 2 190", "fill 1 2 191", "match law 3");
    assert_found("fill 1 5 200", "fill 1 5 195", "match law 3");
    assert_found("call 190 200", "call 191 200", "the call's price");
    assert_found("call 190 200", "call 0 0", "the call's price");
}

#[test]
fn a_missing_withdrawal() {
    assert_found(
        "rest 0 gone 50",
        "rest 0 gone 0",
        "0 rest and 50 are withdrawn",
    );
    assert_found("8 cancel 4 gone 100\n", "", "'8 cancel 4 gone #' is due");
    assert_found("cancel 4 gone 100", "cancel 4 gone 99", "does not add up");
    assert_found("cancel 4 gone 100", "cancel 4 gone 101", "does not add up");
}

#[test]
fn a_refusal_missing() {
    assert_found("6 refused 15 at 0\n", "", "refusal 15 is due");
    assert_found(
        "9 refused 8 at 1",
        "9 enter 6 dealt 0 rest 701 gone 0",
        "refusal 8 is due, as member 1 holds 300",
    );
    assert_found("10 refused 9 at 2", "10 refused 8 at 2", "refusal 9 is due");
    assert_found("10 refused 9 at 2", "10 refused 9 at 1", "refusal 9 is due");
}

#[test]
fn a_refusal_too_many() {
    let found = words_after("11 halt", "11 refused 11 at 0");
    assert!(found.contains("no refusal's sentence is true"), "{found}");
}

#[test]
fn other_fills_than_the_laws_give() {
    assert_found("fill 1 2 190 100\n", "", "match law 5");
    assert_found("fill 1 3 190 100", "fill 1 4 190 100", "match law 2");
    assert_found("fill 1 3 190 100", "fill 1 3 190 0", "match law 2");
    assert_found(
        "fill 1 2 190 100\nfill 1 3 190 100",
        "fill 1 2 190 99\nfill 1 3 190 101",
        "match law 4",
    );
    assert_found(
        "fill 1 2 190 100\nfill 1 3 190 100",
        "fill 1 3 190 100",
        "match law 5",
    );
}

#[test]
fn an_order_passed_over() {
    let mut writer = crate::format::Writer::new();
    for (side, quantity) in [(2, 50), (2, 80), (1, 60)] {
        if side == 1 {
            writer.record(&[3]);
        }
        writer.enter(crate::format::RawEntry {
            member: 1,
            side,
            life: 1,
            price: 180,
            quantity,
            minimum: 0,
        });
    }
    let (file, _) = writer.finish();
    let by_size = listing::deal(&file, 8, Rule::Size);
    let fault = judge_day(&file, by_size.as_bytes()).unwrap_err();
    assert!(fault.words.contains("match law 6"), "{fault}");
    let terms = Terms {
        sequence: Sequence::Size,
        ..Terms::day()
    };
    assert_eq!(judge(&file, by_size.as_bytes(), &terms), Ok(()));
}

#[test]
fn other_texts() {
    assert_found("end 8", "end 9", "8 requests were admitted");
    assert_found("end 8\n", "end 8", "no text with an end");
    assert_found("end 8\n", "end 8\nend 8\n", "goes on after its last line");
    assert_found("grain 1", "grain 2", "'grain 1' is due");
    assert_found("enter 5 dealt", "enter 6 dealt", "the next number is 5");
    assert_found("dealt 100 rest", "dealt 0100 rest", "'7 enter # dealt #");
    assert_found("11 halt\nend 8\n", "", "ends too soon");
}

#[test]
fn listings_of_generated_files_pass() {
    for seed in 0..300 {
        let file = generate::file(seed);
        for (rule, sequence) in [(Rule::Time, Sequence::Time), (Rule::Size, Sequence::Size)] {
            let listing = listing::deal(&file, 8, rule);
            let terms = Terms {
                sequence,
                ..Terms::day()
            };
            let judged = judge(&file, listing.as_bytes(), &terms);
            assert_eq!(judged, Ok(()), "seed {seed}");
        }
    }
}

/// The rules leave one listing for a file, so no other one may pass.
#[test]
fn every_changed_listing_is_found() {
    let mut random = Random::new(1);
    for seed in 0..300 {
        let file = generate::file(seed);
        let listing = listing::day(&file);
        for _ in 0..10 {
            let changed = change(&mut random, listing.as_bytes());
            let judged = judge_day(&file, &changed);
            assert_eq!(judged.is_ok(), changed == listing.as_bytes(), "seed {seed}");
        }
    }
}

/// A listing with a digit changed, or a line lost, doubled or moved.
fn change(random: &mut Random, listing: &[u8]) -> Vec<u8> {
    let mut lines: Vec<Vec<u8>> = listing
        .split_inclusive(|&byte| byte == b'\n')
        .map(<[u8]>::to_vec)
        .collect();
    let line = random.place(lines.len());
    let other = random.place(lines.len());
    match random.below(6) {
        0 => drop(lines.remove(line)),
        1 => lines.insert(line, lines[line].clone()),
        2 => lines.swap(line, other),
        _ => change_digit(random, &mut lines[line]),
    }
    lines.concat()
}

fn change_digit(random: &mut Random, line: &mut [u8]) {
    let digits = line.iter_mut().filter(|byte| byte.is_ascii_digit());
    let mut digits: Vec<&mut u8> = digits.collect();
    if !digits.is_empty() {
        let place = random.place(digits.len());
        *digits[place] = b'0' + random.below(10) as u8;
    }
}
