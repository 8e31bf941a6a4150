//! Job 5 of document 02: "Records now come as the commands were taken, oldest first. A tag used again counts as taken
//! anew." On every list of a few calls that take, finish and abort, and on a full port.

use srp_tests::port::call::{Call, Target};
use srp_tests::port::generate::{command, request_with, Data};
use srp_tests::port::library::Library;
use srp_tests::port::plain::{finish, login, take};
use srp_tests::random::Random;
use srp_tests::tally::Tally;

/// A call that takes or ends commands, told by tag or by LUN.
#[derive(Clone, Copy, Debug)]
enum Event {
    Take(u64),
    Finish(u64),
    Abort(u64),
    Reset(u64),
}

/// Tags 1 and 3 have LUN 1, tags 2 and 4 LUN 0, and so on.
fn lun_of(tag: u64) -> u64 {
    tag % 2
}

/// The tag of task requests.
const TASK: u64 = 0xffff;

fn task(function: u8, lun: u64, managed: u64) -> Call {
    let mut msg = request_with(vec![0; 48], TASK, lun);
    (msg[0], msg[30]) = (0x01, function);
    msg[32..40].copy_from_slice(&managed.to_be_bytes());
    take(&msg)
}

const EVENTS: [&str; 7] = [
    "a new tag",
    "a tag used again",
    "aborted at an end",
    "aborted in the middle",
    "aborted none",
    "finished at an end",
    "finished in the middle",
];

const LISTINGS: [&str; 3] = ["by age and by tag", "by age and not by tag", "of one or none"];

/// The library's port; and beside it each open command, with the number of its taking, and the tags that were used.
struct Followed {
    library: Library,
    random: Random,
    open: Vec<(u64, u64)>,
    used: Vec<u64>,
    events: Tally,
    listings: Tally,
}

impl Followed {
    fn after_login() -> Self {
        let (mut library, mut random) = (Library::new(5), Random::new(5));
        assert_eq!(library.call(&login(&mut random, 16, 512, 1364, 0b110)).returned, 0, "login");
        let (events, listings) = (Tally::default(), Tally::default());
        Followed { library, random, open: Vec::new(), used: Vec::new(), events, listings }
    }

    fn is_open(&self, tag: u64) -> bool {
        self.open.iter().any(|&(_, open)| open == tag)
    }

    /// What can happen to a tag that is not open, and to one that is.
    fn take_or_finish(&self, tag: u64) -> Event {
        if self.is_open(tag) {
            Event::Finish(tag)
        } else {
            Event::Take(tag)
        }
    }

    fn happen(&mut self, event: Event) {
        let call = match event {
            Event::Take(tag) => {
                let msg = command(&mut self.random, tag, lun_of(tag), 0, &[Data::none(), Data::none()]);
                take(&msg)
            }
            Event::Finish(tag) => finish(tag),
            Event::Abort(tag) => task(0x01, lun_of(tag), tag),
            Event::Reset(lun) => task(0x08, lun, 0),
        };
        assert_eq!(self.library.call(&call).returned, 0, "{event:?}");
        match event {
            Event::Take(tag) => {
                self.events.add(if self.used.contains(&tag) { "a tag used again" } else { "a new tag" });
                self.open.push((self.used.len() as u64, tag));
                self.used.push(tag);
            }
            Event::Finish(gone) => self.end("finished", |tag| tag == gone),
            Event::Abort(gone) => self.end("aborted", |tag| tag == gone),
            Event::Reset(lun) => self.end("aborted", |tag| lun_of(tag) == lun),
        }
        self.assert_listed();
    }

    fn end(&mut self, name: &str, ends: impl Fn(u64) -> bool) {
        let stays = |&(_, tag): &(u64, u64)| !ends(tag);
        let (first, last) = (self.open.iter().position(stays), self.open.iter().rposition(stays));
        let between = &self.open[first.unwrap_or(0)..last.unwrap_or(0)];
        let place = match self.open.iter().all(stays) {
            true => "none",
            false if between.iter().all(stays) => "at an end",
            false => "in the middle",
        };
        self.events.add(format!("{name} {place}"));
        self.open.retain(stays);
    }

    /// By the numbers of the takings.
    fn assert_listed(&mut self) {
        let listed = self.library.call(&Call::List { records: vec![0x5b; 66] });
        self.open.sort_unstable();
        let mut expected: Vec<u64> = self.open.iter().flat_map(|&(_, tag)| [tag, lun_of(tag), 0, 0]).collect();
        expected.resize(66, 0x5b);
        assert_eq!((listed.returned, listed.answer[0]), (0, self.open.len() as u64), "how many");
        assert_eq!(listed.records, expected, "oldest first");
        self.listings.add(match self.open.len() {
            0 | 1 => "of one or none",
            _ if self.open.is_sorted_by_key(|&(_, tag)| tag) => "by age and by tag",
            _ => "by age and not by tag",
        });
    }

    fn print(&self, title: &str) {
        self.events.print_as(title, "events");
        self.listings.print_as(title, "listings");
    }

    /// Every list of so many events more, each from the state before it.
    fn every_list(&mut self, most: u32) {
        if most == 0 {
            return;
        }
        let (memory, open, used) = (self.library.memory.clone(), self.open.clone(), self.used.clone());
        let tags = [1, 2, 3];
        let events = [tags.map(|tag| self.take_or_finish(tag)), tags.map(Event::Abort)].concat();
        for event in events.into_iter().chain([Event::Reset(0), Event::Reset(1)]) {
            self.happen(event);
            self.every_list(most - 1);
            self.library.memory.clone_from(&memory);
            self.open.clone_from(&open);
            self.used.clone_from(&used);
        }
    }
}

/// Three tags of two LUNs: each list of up to six events, whatever was open, ended in the middle or came again.
#[test]
fn every_list_of_six() {
    let mut port = Followed::after_login();
    port.every_list(6);
    port.print("oldest first, every list of six");
    assert_eq!(port.listings.total(), (1..=6).map(|events| 8u64.pow(events)).sum::<u64>());
    port.listings.assert_each(20_000, &LISTINGS);
    port.events.assert_each(500, &EVENTS);
}

/// Up to 16 commands of 18 tags, often 16; where fewer are open, one event in 100 ends all of a LUN.
#[test]
fn sixteen_tags_used_again() {
    let (mut port, mut random) = (Followed::after_login(), Random::new(55));
    let mut full = 0;
    for _ in 0..20_000 {
        let tag = random.up_to(17);
        // A task request needs a buffer too.
        let event = match random.below(100) {
            0 if port.open.len() < 16 => Event::Reset(tag % 2),
            1..=5 if port.open.len() < 16 => Event::Abort(tag),
            _ if port.is_open(tag) && random.one_in(6) => Event::Finish(tag),
            _ if port.open.len() == 16 => Event::Finish(port.open[random.below(16)].1),
            _ => {
                Event::Take((0..18).map(|k| (tag + k) % 18).find(|&tag| !port.is_open(tag)).expect("16 of 18 are open"))
            }
        };
        port.happen(event);
        full += u32::from(port.open.len() == 16);
    }
    port.print("oldest first, tags used again");
    port.listings.assert_at_least(19_000, &["by age and not by tag"]);
    port.events.assert_each(18, &EVENTS);
    assert!(full > 4_000, "{full} times sixteen");
}
