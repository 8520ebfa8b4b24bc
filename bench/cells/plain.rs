//! The steps of the cells as a plain loop, with nothing proved: a domain whose group of four members is sent so many rounds, by so
//! many threads. It has the words and slots of a table for five domains, in the same order, and makes the same atomic steps on the
//! words: per member turn, ticket, post, claim, arrive, take, join of the ticket and clear; per round the rest of the domain and
//! its taking. It prints how many claims were won.
//!
//!     plain ROUNDS THREADS
use std::cell::UnsafeCell;
use std::env;
use std::sync::atomic::{AtomicU64, Ordering::SeqCst};
use std::thread;

const MEMBERS: usize = 4;

const DOMAINS: usize = MEMBERS + 1;

struct Table {
    words: Box<[AtomicU64]>,
    slots: Box<[UnsafeCell<Option<u64>>]>,
}

// A slot is read and written by the thread alone that has turned, claimed or taken its domain.
unsafe impl Sync for Table {}

impl Table {
    fn new() -> Table {
        Table {
            words: (0..2 * DOMAINS + 2).map(|_| AtomicU64::new(0)).collect(),
            slots: (0..DOMAINS).map(|_| UnsafeCell::new(None)).collect(),
        }
    }

    fn exchange(&self, domain: usize, state: Option<u64>) -> Option<u64> {
        unsafe { std::mem::replace(&mut *self.slots[domain].get(), state) }
    }

    // The load by which a seat is split off or joined.
    fn look(&self) -> u64 {
        self.words[0].load(SeqCst)
    }

    fn send(&self, domain: usize, state: u64) {
        self.words[2 * domain + 1].store(1, SeqCst);
        self.look();
        self.exchange(domain, Some(state));
        self.words[2 * domain + 1].store(2, SeqCst);
    }

    fn claim(&self, domain: usize) -> Option<u64> {
        match self.words[2 * domain + 1].compare_exchange(2, 1, SeqCst, SeqCst) {
            Ok(_) => self.exchange(domain, None),
            Err(_) => None,
        }
    }

    fn rest(&self, domain: usize, state: u64, members: u64) {
        self.exchange(domain, Some(state));
        self.words[2 * domain + 2].store(members, SeqCst);
    }

    // Whether it was the last of its group.
    fn arrive(&self, domain: usize, parent: usize, state: u64) -> bool {
        self.exchange(domain, Some(state));
        self.words[2 * parent + 2].fetch_sub(1, SeqCst) == 1
    }

    fn gather(&self, domain: usize) -> Option<u64> {
        self.words[2 * domain + 1].store(1, SeqCst);
        let state = self.exchange(domain, None);
        self.look();
        self.words[2 * domain + 1].store(0, SeqCst);
        state
    }

    fn resume(&self, domain: usize) -> Option<u64> {
        self.words[2 * domain + 1].store(1, SeqCst);
        self.exchange(domain, None)
    }
}

// The domain in hand sends its group once more, or stops all.
fn go_on(table: &Table, rounds: u64) {
    if rounds == 0 {
        table.words[0].fetch_or(1, SeqCst);
        return;
    }
    table.rest(0, rounds - 1, MEMBERS as u64);
    for member in 1..=MEMBERS {
        table.send(member, 0);
    }
}

// The last of a group takes all members, and then their domain.
fn take_group(table: &Table, list: &mut Vec<u64>) -> u64 {
    list.clear();
    for member in 1..=MEMBERS {
        list.extend(table.gather(member));
    }
    table.resume(0).unwrap_or(0)
}

fn work(table: &Table) -> u64 {
    let mut won = 0;
    let mut list = Vec::with_capacity(MEMBERS);
    while table.look() % 2 == 0 {
        for member in 1..=MEMBERS {
            if let Some(state) = table.claim(member) {
                won += 1;
                if table.arrive(member, 0, state) {
                    let rounds = take_group(table, &mut list);
                    go_on(table, rounds);
                }
            }
        }
    }
    won
}

fn main() {
    let numbers: Vec<u64> = env::args().skip(1).filter_map(|word| word.parse().ok()).collect();
    let [rounds, threads] = numbers[..] else {
        std::process::exit(2);
    };
    let table = Table::new();
    go_on(&table, rounds);
    let won: u64 = thread::scope(|scope| {
        let others: Vec<_> = (1..threads).map(|_| scope.spawn(|| work(&table))).collect();
        let own = work(&table);
        own + others.into_iter().filter_map(|other| other.join().ok()).sum::<u64>()
    });
    println!("{won}");
}
