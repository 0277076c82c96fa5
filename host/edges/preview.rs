// What a preview tells: "the list of numbers, with 0 in any place past the count. They are those that performing the basket on a copy
// gives, and the scratch ends equal to that copy. The originals remain unchanged." On a fresh ledger of 4 rows and a fresh card, after
// requests; and what committing the basket then comes to.

use crate::numbers::{form, parse};
use crate::shop::Shop;
use crate::tables::*;
use crate::{request, Case, FAULTS, FILL, PAIRS, TOP};

// Requests that are served first, and those of the basket, whose count is said apart; and which of ledger, titles and rules (1, 2, 4,
// added up) lack their last byte, of the scratch buffers and of the originals.
#[derive(Clone, Copy)]
struct Call<'a> {
    served: &'a [u8],
    basket: &'a [u8],
    count: u64,
    short: [u64; 2],
}

fn of(basket: &[u8], count: u64) -> Call<'_> {
    Call { served: &[], basket, count, short: [0, 0] }
}

// The 16 places of a basket: title 4 is registered in each place for which no request is left.
fn places(mut bytes: &[u8]) -> Vec<(u64, Vec<u64>)> {
    let next = |_| match parse(bytes) {
        Ok((kind, arguments, used)) => {
            bytes = &bytes[used..];
            (kind, arguments)
        }
        Err(_) => (1, vec![4, 0, 0, 0, 0, 0, 0]),
    };
    (0..16).map(next).collect()
}

fn all_performed(shop: &mut Shop, requests: &[(u64, Vec<u64>)]) -> Vec<u64> {
    requests.iter().map(|(kind, arguments)| shop.perform(*kind, arguments)).collect()
}

// The answer, the 16 places for answers, and the scratch.
fn preview(shop: &Shop, call: &Call) -> (u64, Vec<u64>, Shop) {
    let noise = || (vec![99; 16], Shop::of(shop.pair, FILL));
    if call.count > 16 {
        let (answers, scratch) = noise();
        return (17, answers, scratch);
    }
    if call.short[0] != call.short[1] {
        let (answers, scratch) = noise();
        return (18, answers, scratch);
    }
    let mut copy = shop.clone();
    let mut answers = all_performed(&mut copy, &places(call.basket)[..call.count as usize]);
    answers.resize(16, 0);
    copy.set_last_bytes(call.short[0], FILL);
    (0, answers, copy)
}

fn case(call: Call) {
    PAIRS.into_iter().for_each(|pair| case_of(pair, call));
}

fn case_of(pair: Pair, call: Call) {
    let mut shop = Shop::fresh(pair);
    shop.serve(call.served);
    shop.short = call.short[1];
    let (word, code) = if pair == Pair::Audio { ("preview", 0x34) } else { ("picture-preview", 0x35) };
    let numbers = [call.served.len() as u64, call.count, call.short[0] + 8 * call.short[1]];
    let (answer, answers, scratch) = preview(&shop, &call);
    let case = Case::new(word, code, &numbers, &[call.served, call.basket].concat())
        .number("answer", answer)
        .numbers("places", &answers)
        .shown("scratch", &scratch)
        .number("noise", scratch.bytes_that_are(FILL))
        .shown("originals", &shop);
    let committed = all_performed(&mut shop, &places(call.basket)[..call.count.min(16) as usize]);
    case.numbers("committed", &committed).shown("after", &shop).end();
}

// Requests of seven kinds, with few bytes.
fn register(c: u64, permits: u64) -> Vec<u8> {
    form(1, &[c, 2, 0, 3, permits, 5, 6])
}

fn record(c: u64, j: u64) -> Vec<u8> {
    form(2, &[c, j, 2, 0, 3, 1, 5, 6, 9])
}

fn check_out(c: u64, j: u64) -> Vec<u8> {
    form(3, &[c, j])
}

fn check_in(j: u64) -> Vec<u8> {
    form(4, &[j, 9])
}

fn move_out(j: u64) -> Vec<u8> {
    form(5, &[j, 9, 1, 2, 3, 4])
}

fn move_in(c: u64, j: u64) -> Vec<u8> {
    form(6, &[c, j, 9])
}

fn delete(j: u64) -> Vec<u8> {
    form(7, &[j, 1, 2, 3, 4])
}

// Sixteen, of which each but the first depends on some before it. Seven are refused.
fn chain() -> Vec<u8> {
    [
        register(1, 1), check_out(1, 1), check_out(1, 2), check_out(1, 1), move_in(1, 3), check_in(1), check_in(1), move_in(1, 3),
        check_out(1, 2), move_out(3), check_out(1, 2), move_out(3), check_in(2), move_in(1, 1), delete(1), register(1, 1),
    ]
    .concat()
}

fn count_cases() {
    let chain = chain();
    for count in (0..=18).chain([1 << 32, (1 << 32) + 1, TOP]) {
        case_of(Pair::Audio, of(&chain, count));
    }
    for count in [0, 1, 16, 17] {
        case_of(Pair::Picture, of(&chain, count));
    }
    // more requests than places, and fewer than the count
    let many = [register(1, 15), (1..=16).flat_map(|j| check_out(1, j)).collect()].concat();
    for count in [16, 17] {
        case_of(Pair::Audio, of(&many, count));
    }
    for count in [0, 1, 2, 3, 16] {
        case_of(Pair::Audio, of(&register(1, 1), count));
    }
    case_of(Pair::Audio, of(&[], 0));
    // bytes that are no request, behind one that is: the one after them is not read
    for fault in &FAULTS[3..6] {
        case_of(Pair::Audio, of(&[&register(1, 1), *fault, &register(2, 1)].concat(), 2));
    }
}

// One of each kind.
fn each_kind() -> [Vec<u8>; 7] {
    [register(1, 1), check_out(1, 1), record(2, 2), check_in(1), move_in(1, 3), move_out(3), delete(2)]
}

fn length_cases() {
    let each = each_kind().concat();
    let two = [register(1, 1), check_out(1, 1)].concat();
    // as long as their originals, whose heads are wrong then
    for short in 0..8 {
        case(Call { short: [short, short], ..of(&each, 7) });
    }
    // 18: a buffer lacks a byte that the other has, the scratch or the original, or one each
    for short in 1..8 {
        case_of(Pair::Audio, Call { short: [short, 0], ..of(&two, 2) });
        case_of(Pair::Audio, Call { short: [0, short], ..of(&two, 2) });
    }
    for short in [[1, 2], [2, 4], [4, 1], [3, 5], [7, 6]] {
        case_of(Pair::Audio, Call { short, ..of(&two, 2) });
    }
    for short in [1, 2, 4] {
        case_of(Pair::Picture, Call { short: [short, 0], ..of(&two, 2) });
        // 17 comes first; an empty basket is refused as any other
        for count in [0, 16, 17, TOP] {
            case_of(Pair::Audio, Call { short: [short, 0], ..of(&two, count) });
        }
        case_of(Pair::Audio, Call { short: [short, short], ..of(&two, 17) });
    }
}

// In a shop in use: each kind by itself, all seven from each of them on, and what stands in the last entry.
fn shop_cases() {
    let served = [register(1, 3), record(2, 2), check_out(1, 1), register(3, 1), move_in(3, 3), check_out(1, 999)].concat();
    let basket = [register(4, 2), check_out(1, 4), check_in(1), move_out(2), delete(3), move_in(2, 3), record(4, 2)];
    for request in &basket {
        case_of(Pair::Audio, Call { served: &served, ..of(request, 1) });
    }
    for first in 0..7 {
        let mut turned = basket.clone();
        turned.rotate_left(first);
        case(Call { served: &served, ..of(&turned.concat(), 7) });
    }
    let last = [check_out(1, 999), check_in(999), check_in(999), move_in(1, 999), delete(1), move_in(1, 999), move_out(999)].concat();
    case(Call { served: &served, ..of(&last, 7) });
}

// Refused by the state, between requests that are done. With 15 none is: 14 permits are left and a copy is out only on damaged tables.
fn refusal_cases() {
    let with = |trigger, rights, permits| form(1, &[1, 2, trigger, rights, permits, 5, 6]);
    let refused = [
        // 10, 11, 12, 12 and 13, 14, 16
        (with(0, 3, 3), vec![check_out(1, 1), check_out(1, 1), check_in(2)]),
        (with(0, 3, 3), vec![with(0, 3, 3), record(1, 1), check_out(2, 1)]),
        (with(1, 3, 0), vec![check_out(1, 1), move_in(1, 1)]),
        (with(0, 0, 3), vec![move_in(1, 1), record(2, 1), form(5, &[1, 8, 1, 2, 3, 4])]),
        (with(0, 3, 15), vec![check_out(1, 1), move_in(1, 2)]),
        (with(0, 15, 3), vec![check_out(1, 1), form(4, &[1, 5]), form(7, &[1, 5, 2, 3, 4])]),
        // f1 of a full entry, and f2, which a picture call does not look at
        (record(1, 1), vec![form(5, &[1, 9, 5, 2, 3, 4]), form(7, &[1, 5, 2, 3, 4])]),
        (record(1, 1), vec![form(5, &[1, 9, 1, 6, 3, 4]), form(7, &[1, 1, 6, 3, 4])]),
        (record(1, 1), vec![form(7, &[1, 1, 6, 3, 4])]),
    ];
    for (first, then) in refused {
        let count = then.len() as u64 + 2;
        case(of(&[first, then.concat(), register(3, 1)].concat(), count));
    }
    // the arguments as long as their limits allow
    for kind in 1..=7 {
        case_of(Pair::Audio, of(&[request(kind, 999, 999), register(1, 1)].concat(), 2));
    }
}

pub fn cases() {
    count_cases();
    length_cases();
    shop_cases();
    refusal_cases();
}
