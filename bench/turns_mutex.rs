//! What `turns_bench` does, with a `std::sync::Mutex` round each object: threads add entries to objects and to logs of
//! their own, and the number of turns a second is printed.

use std::hint::black_box;
use std::sync::Mutex;
use std::time::Instant;

/// As large as an entry of a history: 216 bytes.
#[derive(Clone, Copy)]
struct Entry {
    _words: [u64; WORDS],
}

const WORDS: usize = 27;

fn entry(stamp: u64) -> Entry {
    Entry { _words: [stamp; WORDS] }
}

fn work(object: &Mutex<Vec<Entry>>, log: &mut Vec<Entry>, times: u32) {
    for _ in 0..times {
        let mut entries = object.lock().unwrap();
        let stamp = entries.len() as u64;
        entries.push(entry(stamp));
        drop(entries);
        log.push(entry(stamp));
    }
}

fn main() {
    let words: Vec<u32> = std::env::args().skip(1).map(|word| word.parse().unwrap_or(0)).collect();
    let &[agents, objects, times] = words.as_slice() else {
        println!("usage: turns_mutex AGENTS OBJECTS TURNS");
        return;
    };
    let room = (times * agents.div_ceil(objects)) as usize;
    let shared: Vec<_> = (0..objects).map(|_| Mutex::new(Vec::with_capacity(room))).collect();
    let mut logs: Vec<_> = (0..agents).map(|_| Vec::with_capacity(times as usize)).collect();
    let start = Instant::now();
    std::thread::scope(|scope| {
        for (agent, log) in logs.iter_mut().enumerate() {
            let object = &shared[agent % objects as usize];
            scope.spawn(move || work(object, log, times));
        }
    });
    let time = start.elapsed().as_nanos().max(1);
    black_box((&shared, &logs));
    let rate = u128::from(agents) * u128::from(times) * 1_000_000_000 / time;
    println!("{agents} agents, {objects} objects: {rate} turns a second");
}
