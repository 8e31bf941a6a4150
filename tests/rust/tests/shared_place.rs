//! Words that no calls leave: open commands at one place of the store. Tables brought for one of them must leave what the
//! others have, also where all sixteen are at one place and each is given another.

use srp_tests::port::call::Target;
use srp_tests::port::library::Library;
use srp_tests::port::plain::{login, take};
use srp_tests::port::slots::{shares_a_place, word_of, PLACE};
use srp_tests::port::waiting::{Shape, Waiting};
use srp_tests::random::Random;

/// As many commands as can be open, of which nothing stands in the message, each with tables of its own.
fn commands(count: u64) -> Vec<Waiting> {
    let shapes = [
        [Shape::Fetched(2, 0), Shape::None],
        [Shape::None, Shape::Fetched(32, 0)],
        [Shape::Fetched(1, 0), Shape::Fetched(3, 0)],
    ];
    (1..=count).map(|tag| Waiting::new(tag, tag, shapes[tag as usize % shapes.len()])).collect()
}

/// All of them open and waiting, and all at one place.
fn at_one_place(commands: &[Waiting], place: u64) -> Library {
    let (mut port, mut random) = (Library::new(7), Random::new(7));
    assert_eq!(port.call(&login(&mut random, 16, 512, 1364, 0b110)).returned, 0, "login");
    for command in commands {
        assert_eq!(port.call(&take(&command.msg)).answer[6], 1, "taken, and waits");
    }
    assert!(!shares_a_place(&port.memory.words), "no calls leave two commands at one place");
    for slot in 0..commands.len() {
        port.memory.words[word_of(slot, PLACE)] = place;
    }
    port
}

#[test]
fn tables_leave_the_commands_at_the_same_place() {
    let mut brought = 0;
    for (count, place) in [(2, 0), (3, 15), (15, 9), (16, 0), (16, 15)] {
        let commands = commands(count);
        let mut port = at_one_place(&commands, place);
        for command in commands.iter().rev() {
            assert_eq!(port.call(&command.bring()).returned, 0, "accepted");
            brought += 1;
        }
        assert!(!shares_a_place(&port.memory.words), "each has a place of its own now");
        for command in &commands {
            command.assert_carried_out(&mut port);
        }
    }
    println!("tables, commands at one place: {brought} calls");
}
