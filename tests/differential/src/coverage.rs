//! How often each call gave each number, by itself and in lists, and what the calls came upon.

use crate::request::{Request, NAMES};
use crate::seen::Seen;
use crate::shapes::{listed_numbers, Shapes};

/// 0 for accepted calls, and the numbers of refusal.
const NUMBERS: usize = 23;

/// The numbers that each call can give, in the order of the names.
const GIVES: [&[usize]; NAMES.len()] = [
    &[0, 1],
    &[0, 1, 2, 5, 6],
    &[0, 1, 2, 3, 4, 5, 7, 8, 9, 10, 11, 12, 13, 14],
    &[0, 1, 2, 4, 5, 7, 9, 10, 13],
    &[0, 1, 2, 7],
    &[0, 1, 2, 3, 5, 15, 16, 17, 18],
    &[0, 1, 2, 3, 5, 15, 16, 18, 21],
    &[0, 1, 2],
    &[0, 1, 2],
    &[0, 1, 2],
    &[0, 1, 2],
    &[0, 1, 2],
    &[0, 1, 2, 5],
    &[0, 1, 2, 5, 20],
    &[0, 1, 2, 5, 20],
    &[0, 1, 2, 20],
    &[0, 19, 20],
    &[0, 19, 20],
    &[0, 1, 2, 4],
    &[0, 1, 2, 4, 22],
    &[0, 1, 2, 4],
];

/// The calls of lists among the names.
const LISTED: std::ops::Range<usize> = 1..8;

struct Table {
    names: &'static [&'static str],
    gives: &'static [&'static [usize]],
    numbers: Vec<[u64; NUMBERS]>,
}

impl Table {
    fn new(names: &'static [&'static str], gives: &'static [&'static [usize]]) -> Self {
        Table {
            names,
            gives,
            numbers: vec![[0; NUMBERS]; names.len()],
        }
    }

    fn note(&mut self, name: &str, number: u16) {
        let call = self.names.iter().position(|other| *other == name);
        self.numbers[call.expect("a call's name")][usize::from(number)] += 1;
    }

    fn merge(&mut self, other: &Table) {
        let cells = self.numbers.iter_mut().flatten();
        for (times, more) in cells.zip(other.numbers.iter().flatten()) {
            *times += more;
        }
    }

    /// How often a number came from any call.
    fn times(&self, number: usize) -> u64 {
        self.numbers.iter().map(|of_call| of_call[number]).sum()
    }

    fn print(&self, title: &str) {
        print!("{title:>9}");
        for name in self.names.iter().chain(&["all"]) {
            print!("{name:>12}");
        }
        println!();
        for number in 0..NUMBERS {
            print!("{number:>9}");
            for of_call in &self.numbers {
                print!("{:>12}", of_call[number]);
            }
            println!("{:>12}", self.times(number));
        }
    }

    /// What a call can give, and never gave.
    fn missing(&self) -> Vec<String> {
        let mut missing = Vec::new();
        for (call, gives) in self.gives.iter().enumerate() {
            let never = gives.iter().filter(|&&n| self.numbers[call][n] == 0);
            missing.extend(never.map(|number| format!("{} {number}", self.names[call])));
        }
        missing
    }
}

pub struct Coverage {
    calls: Table,
    listed: Table,
    shapes: Shapes,
}

impl Coverage {
    pub fn new() -> Self {
        Coverage {
            calls: Table::new(&NAMES, &GIVES),
            listed: Table::new(&NAMES[LISTED], &GIVES[LISTED]),
            shapes: Shapes::default(),
        }
    }

    /// Notes a call that both sides agreed on.
    pub fn note(&mut self, request: &Request, seen: &Seen) {
        self.calls.note(request.name(), seen.number);
        if let Request::Play(playing) = request {
            for (name, number) in listed_numbers(playing, seen) {
                self.listed.note(name, number);
            }
        }
        self.shapes.note(request, seen);
    }

    pub fn merge(&mut self, other: &Coverage) {
        self.calls.merge(&other.calls);
        self.listed.merge(&other.listed);
        self.shapes.merge(&other.shapes);
    }

    /// Prints all of it; gives what never came: a number of refusal, a number that a call can
    /// give by itself or in a list, a shape.
    pub fn report(&self) -> Vec<String> {
        let mut missing = self.shapes.report();
        self.calls.print("number");
        self.listed.print("in lists");
        let never = (0..NUMBERS).filter(|&number| self.calls.times(number) == 0);
        missing.extend(never.map(|number| format!("number {number}")));
        missing.extend(self.calls.missing());
        let listed = self.listed.missing().into_iter();
        missing.extend(listed.map(|what| format!("{what} in a list")));
        missing
    }
}
