//! Job 7 of document 02: commands wait for their tables, which come in any order. Judged by this file's own list of the
//! commands and by their segments, and not by the model.

use srp_tests::port::call::{Call, Target};
use srp_tests::port::frame::Memory;
use srp_tests::port::library::Library;
use srp_tests::port::plain::{login, take};
use srp_tests::port::waiting::{draws, Waiting};
use srp_tests::random::Random;

const N: u32 = 16;

fn after_login(seed: u64) -> Library {
    let (mut port, mut random) = (Library::new(seed), Random::new(seed));
    assert_eq!(port.call(&login(&mut random, N, 512, 1364, 0b110)).returned, 0, "login");
    port
}

fn assert_counters(port: &mut Library, expected: [i64; 4]) {
    let counters = port.call(&Call::Counters).answer.map(|word| word as i64);
    assert_eq!(counters[..4], expected, "W, A, H, D");
}

/// The tags listed, each with 0 bytes each way.
fn assert_listed(port: &mut Library, tags: &[u64]) {
    let listed = port.call(&Call::List { records: vec![0x5b; 64] });
    let expected: Vec<u64> = tags.iter().flat_map(|&tag| [tag, tag % 2, 0, 0]).collect();
    assert_eq!(listed.answer[0], tags.len() as u64, "how many");
    assert_eq!(listed.records[..expected.len()], expected, "oldest first");
}

/// Takes so many commands that wait, and none that does not.
fn all_waiting(port: &mut Library, count: u64) -> Vec<Waiting> {
    let commands: Vec<Waiting> = (0..count).map(|at| Waiting::with_tag(3 * at % 16)).collect();
    for (at, command) in commands.iter().enumerate() {
        let taken = port.call(&take(&command.msg));
        let (tag, held) = (command.tag, at as i64 + 1);
        assert_eq!((taken.returned, taken.answer), (0, [0, 1, tag, tag % 2, 32, 16, 1, 0]), "taken, and waits");
        assert_counters(port, [16, 16 - held, held, 0]);
    }
    commands
}

/// Brings the tables in this order, from the same state each time. After each, that command alone waits no more, and
/// neither the counters nor the listing are others.
fn brought_in_order(port: &mut Library, commands: &[Waiting], start: &Memory, order: &[usize]) {
    port.memory.clone_from(start);
    let tags: Vec<u64> = commands.iter().map(|command| command.tag).collect();
    let (held, mut waiting) = (tags.len() as i64, tags.clone());
    for &at in order {
        let command = &commands[at];
        assert_eq!(port.call(&command.bring()).returned, 0, "tables of {}, {order:?}", command.tag);
        waiting.retain(|&tag| tag != command.tag);
        assert_counters(port, [16, 16 - held, held, 0]);
        assert_listed(port, &tags);
        assert_eq!(port.call(&command.bring()).returned, 33, "brought twice");
        if let Some(&other) = waiting.first() {
            assert_eq!(draws(port, other), [33; 4], "{other} still waits, {order:?}");
        }
    }
    commands.iter().for_each(|command| command.assert_carried_out(port));
}

/// Every order of the numbers below `count`.
fn orders(count: usize) -> Vec<Vec<usize>> {
    let Some(last) = count.checked_sub(1) else {
        return vec![Vec::new()];
    };
    let with_last = |order: Vec<usize>| {
        (0..=last).map(move |at| [&order[..at], &[last], &order[at..]].concat()).collect::<Vec<Vec<usize>>>()
    };
    orders(last).into_iter().flat_map(with_last).collect()
}

#[test]
fn every_order_of_up_to_five() {
    let mut tried = 0;
    for count in 1..=5 {
        let mut port = after_login(count);
        let commands = all_waiting(&mut port, count);
        let start = port.memory.clone();
        for order in orders(count as usize) {
            brought_in_order(&mut port, &commands, &start, &order);
            tried += 1;
        }
    }
    println!("waiting, every order of up to five: {tried} events");
    assert_eq!(tried, 1 + 2 + 6 + 24 + 120);
}

/// A port full of commands that wait: all rotations, each backwards too, and many other orders.
#[test]
fn orders_of_sixteen() {
    let (mut port, mut random) = (after_login(6), Random::new(77));
    let commands = all_waiting(&mut port, 16);
    let start = port.memory.clone();
    let rotations = (0..16).map(|first| (0..16).map(|at| (first + at) % 16).collect::<Vec<usize>>());
    let mut tried: Vec<Vec<usize>> = rotations.collect();
    tried.extend(tried.clone().into_iter().map(|order| order.into_iter().rev().collect()));
    for _ in 0..300 {
        let mut order: Vec<usize> = (0..16).collect();
        (1..16).rev().for_each(|at| order.swap(at, random.below(at + 1)));
        tried.push(order);
    }
    tried.iter().for_each(|order| brought_in_order(&mut port, &commands, &start, order));
    println!("waiting, orders of sixteen: {} events", 16 * tried.len());
    assert_eq!(tried.len(), 332);
}

/// Between takes: half of the tables come while later commands are taken, and those are carried out before older ones.
#[test]
fn tables_between_takes() {
    let (mut port, mut random) = (after_login(7), Random::new(78));
    let (mut waiting, mut ready, mut tags, mut carried_out) = (Vec::new(), Vec::new(), Vec::new(), 0);
    for round in 0..4_000 {
        match random.below(4) {
            0 | 1 if tags.len() < 16 => {
                let tag = (0..40).map(|k| (round + k) % 40).find(|tag| !tags.contains(tag)).expect("24 are not open");
                let command = Waiting::with_tag(tag);
                assert_eq!(port.call(&take(&command.msg)).answer[6], 1, "waits");
                tags.push(tag);
                waiting.push(command);
            }
            2 if !waiting.is_empty() => {
                let command = waiting.swap_remove(random.below(waiting.len()));
                assert_eq!(port.call(&command.bring()).returned, 0, "tables of {}", command.tag);
                ready.push(command);
            }
            _ if !ready.is_empty() => {
                let command = ready.swap_remove(random.below(ready.len()));
                command.assert_carried_out(&mut port);
                assert_eq!(draws(&mut port, command.tag), [30, 0, 0, 0], "planned, moved, ended");
                tags.retain(|&tag| tag != command.tag);
                carried_out += 1;
            }
            _ => {}
        }
        assert_listed(&mut port, &tags);
        assert_counters(&mut port, [16, 16 - tags.len() as i64, tags.len() as i64, 0]);
    }
    println!("waiting, tables between takes: {carried_out} events");
    assert!(carried_out > 500, "{carried_out} carried out");
}
