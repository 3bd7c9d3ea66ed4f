//! Makes one call on standard input again and again, so that what it takes can be told from a process's start: `calls CALL N`, where
//! CALL is `check` or `page` of a placement, `certify` of bare rows, or `plan`, `ask` or `commit` of an order. Committed are the counts that asking gives.
use std::hint::black_box;

use baseline::certify::certify;
use baseline::crowding::Counter;
use baseline::number::Reader;
use baseline::page::page;
use baseline::split::by_recurrence;
use baseline::{check_reply, plan_reply};

fn orders(call: &str, turns: usize, input: &[u8]) {
    let mut head = Reader::new(input);
    let order = [0; 3].map(|_| head.number().ok().unwrap());
    let pack = &input[head.at..];
    let offer = baseline::ask::<Counter>(pack, order, by_recurrence).ok().unwrap();
    for _ in 0..turns {
        match call {
            "ask" => {
                black_box(baseline::ask::<Counter>(black_box(pack), order, by_recurrence).ok().unwrap());
            }
            _ => {
                black_box(baseline::commit::<Counter>(black_box(pack), order, &offer.counts).ok().unwrap());
            }
        }
    }
}

fn main() {
    let words: Vec<String> = std::env::args().collect();
    let turns: usize = words[2].parse().unwrap();
    let input = baseline::read_input();
    for _ in 0..turns {
        match words[1].as_str() {
            "check" => drop(black_box(check_reply::<Counter>(black_box(&input)))),
            "plan" => drop(black_box(plan_reply::<Counter>(black_box(&input), by_recurrence))),
            "page" => drop(black_box(page::<Counter>(black_box(&input)).ok().unwrap())),
            "certify" => drop(black_box(certify(black_box(&input)).ok().unwrap())),
            call => return orders(call, turns, &input),
        }
    }
}
