//! Replays the histories that crates/bench_board prints, one on a line: each event has a seat, a letter, a ticket and an
//! answer. Ends with 1 at the first event that may not stand where it does.

use std::collections::{HashMap, HashSet};
use std::io::{self, BufRead};
use std::process::exit;

/// Where a ticket is.
#[derive(Clone, Copy, PartialEq)]
enum Place {
    Waiting,
    With(u32),
    Posted,
    Left,
    Gone,
}

#[derive(Default)]
struct Replay {
    tickets: HashMap<u64, (u32, Place)>,
    closers: HashSet<u32>,
    told: HashSet<u32>,
}

impl Replay {
    fn place(&self, ticket: u64) -> Option<Place> {
        self.tickets.get(&ticket).map(|kept| kept.1)
    }

    fn own_place(&self, seat: u32, ticket: u64) -> Option<Place> {
        self.tickets
            .get(&ticket)
            .filter(|kept| kept.0 == seat)
            .map(|kept| kept.1)
    }

    fn set(&mut self, ticket: u64, place: Place) {
        if let Some(kept) = self.tickets.get_mut(&ticket) {
            kept.1 = place;
        }
    }

    /// Whether the event may come next; then it is made.
    fn step(&mut self, seat: u32, letter: char, ticket: u64, answer: bool) -> bool {
        let is_closed = !self.closers.is_empty();
        let (legal, place) = match (letter, answer) {
            ('P', true) => {
                let legal = !is_closed && ticket == self.tickets.len() as u64 + 1;
                self.tickets.insert(ticket, (seat, Place::Waiting));
                (legal, None)
            }
            ('P', false) => (is_closed, None),
            ('T', true) => (
                !is_closed && self.place(ticket) == Some(Place::Waiting),
                Some(Place::With(seat)),
            ),
            ('T', false) => (is_closed && self.told.insert(seat), None),
            ('O', true) => (self.place(ticket) == Some(Place::With(seat)), Some(Place::Posted)),
            ('G', true) => (self.place(ticket) == Some(Place::With(seat)), Some(Place::Left)),
            ('F', true) | ('B', true) => (self.own_place(seat, ticket) == Some(Place::Posted), Some(Place::Gone)),
            ('F', false) => (self.own_place(seat, ticket) != Some(Place::Posted), None),
            ('B', false) => {
                let own = self.own_place(seat, ticket);
                (
                    own == Some(Place::Waiting) || own == Some(Place::Left),
                    Some(Place::Gone),
                )
            }
            ('C', true) => (self.closers.insert(seat), None),
            _ => (false, None),
        };
        if let Some(place) = place {
            self.set(ticket, place);
        }
        legal
    }
}

/// The seat, letter, ticket and answer of a word such as `8P1+`.
fn event(word: &str) -> Option<(u32, char, u64, bool)> {
    let mut letters = word.chars();
    let seat = letters.next()?.to_digit(10)?;
    let letter = letters.next()?;
    let answer = letters.next_back()?;
    Some((seat, letter, letters.as_str().parse().ok()?, answer == '+'))
}

fn main() {
    let (mut histories, mut events, mut misses, mut workers) = (0u64, 0u64, 0u64, 0u64);
    for line in io::stdin().lock().lines() {
        let line = line.expect("a line");
        let mut replay = Replay::default();
        let mut takers = HashSet::new();
        for word in line.split_whitespace() {
            let legal = event(word).is_some_and(|(seat, letter, ticket, answer)| {
                if letter == 'T' && answer {
                    takers.insert(seat);
                }
                misses += u64::from(letter == 'F' && !answer);
                replay.step(seat, letter, ticket, answer)
            });
            if !legal {
                println!("history {} is not legal at {word}", histories + 1);
                exit(1);
            }
            events += 1;
        }
        histories += 1;
        workers += takers.len() as u64;
    }
    let each = workers as f64 / histories.max(1) as f64;
    println!("histories  {histories}, all legal\nevents     {events}, of them {misses} fetches that found nothing");
    println!("workers    {each:.1} of 8 took a task, on average");
}
