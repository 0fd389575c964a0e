//! The benchmark of the book: `bench_book [RUNS [PASSES [ONLY]]]`, as `bench`. Take on messages of few and many
//! quotations, with few and many levels standing on each side, beside the model with its sorted vectors in place.

use outside::bench::Bench;
use outside::book::{numbers, price_bytes, Book, Level, QUOTATIONS};
use reader::book;
use reader::book_cases::{quotation, CODE};
use reader::generate::Random;
use std::collections::BTreeSet;
use std::hint::black_box;

const PRICES: usize = 64;
const LOWEST: i64 = 1_234_500;

/// An absolute quotation of a side, 0 buying and 1 selling, at one of 64 prices.
fn field(side: u8, price: usize, quantity: u32) -> Vec<u8> {
    quotation(CODE, 1, side, &price_bytes(LOWEST + 100 * price as i64), quantity)
}

/// A message of so many quotations at any of the prices, quantity 0 among them, and one of as many that makes the book
/// again as it was, with the first prices standing: each replaces, adds or takes out a level.
fn messages(r: &mut Random, quotations: usize, standing: usize) -> [Vec<u8>; 2] {
    let places: Vec<(u8, usize)> = (0..quotations).map(|_| (r.below(2) as u8, r.below(PRICES))).collect();
    let there = places.iter().flat_map(|&(side, price)| field(side, price, r.below(5) as u32)).collect();
    let touched: Vec<_> = BTreeSet::from_iter(&places).into_iter().collect();
    let back = (0..quotations).map(|i| touched[i % touched.len()]);
    let back = back.flat_map(|&(side, price)| field(side, price, if price < standing { 9 } else { 0 })).collect();
    [there, back]
}

/// A number of the whole book.
fn sum(book: &Book) -> u64 {
    let level =
        |sum: u64, level: &Level| sum.wrapping_mul(31).wrapping_add(level.price as u64 ^ u64::from(level.quantity));
    book.buying.iter().chain(&book.selling).fold(book.turnover as u64 ^ book.volume as u64, level)
}

fn takes(bench: &Bench, quotations: usize, standing: usize, times: usize) {
    let mut model = book::Book::start(CODE).expect("a code");
    let all: Vec<u8> = (0..standing).flat_map(|price| [field(0, price, 9), field(1, price, 9)].concat()).collect();
    if standing > 0 {
        model.take(QUOTATIONS, &all).expect("levels");
    }
    let start = numbers(&model);
    let messages = messages(&mut Random::new(7), quotations, standing);
    // Both give the same books, there and back.
    let mut book = start;
    let mut other = model.clone();
    for message in &messages {
        let step = book.take(QUOTATIONS, message);
        other.take(QUOTATIONS, message).expect("a right message");
        assert_eq!((step.refusal, step.book), (0, numbers(&other)));
        book = step.book;
    }
    assert_eq!(book, start);
    let name = format!("{quotations} on {standing} levels");
    bench.compare(
        &name,
        || {
            let (mut book, mut refused) = (start, 0);
            for _ in 0..times {
                for message in &messages {
                    let step = book.take(QUOTATIONS, black_box(message));
                    book = step.book;
                    refused += u64::from(step.refusal);
                }
            }
            sum(&book) + refused
        },
        || {
            let (mut book, mut refused) = (model.clone(), 0);
            for _ in 0..times {
                for message in &messages {
                    refused += u64::from(book.take(QUOTATIONS, black_box(message)).err().unwrap_or(0));
                }
            }
            sum(&numbers(&book)) + refused
        },
    );
}

fn main() {
    let bench = Bench::by_arguments();
    if bench.only.is_none() {
        println!(
            "{} runs of {} passes; Take of a message of so many quotations, levels on each side",
            bench.runs, bench.passes
        );
    }
    for (quotations, times) in [(1, 1000), (100, 20), (840, 3)] {
        for standing in [0, 32, 64] {
            takes(&bench, quotations, standing, times);
        }
    }
}
