//! A table that changes while threads look up in it.

use std::sync::atomic::{AtomicBool, AtomicU64, Ordering};
use std::thread;
use tuhvondi::{Answer, Image, Prefix, Row, Status, TableWriter, Target};

const READERS: usize = 3;
const PUBLICATIONS: u64 = 2000;

fn prefix(number: u64) -> Prefix {
    format!("{number}.0.0.0/8").parse().unwrap()
}

// Two rows by one port, and a third that comes and goes.
fn rows(generation: u64) -> [Row; 2] {
    let port = (generation % 32) as u8;
    [10, 11].map(|net| Row::new(prefix(net), Target::Via { port, session: 1 }))
}

#[test]
fn each_burst_is_answered_by_one_published_image_and_none_gets_older() {
    let mut writer = TableWriter::new(&mut Image::new(&rows(0)).unwrap(), READERS).unwrap();
    let told = AtomicU64::new(0);
    let stopping = AtomicBool::new(false);
    thread::scope(|scope| {
        for _ in 0..READERS {
            let mut reader = writer.reader().unwrap();
            let (told, stopping) = (&told, &stopping);
            scope.spawn(move || {
                let addrs: Vec<u32> = (0..30).map(|k| (10 + k % 3) << 24).collect();
                let mut answers = [Answer::default(); 30];
                let mut last = 0;
                while !stopping.load(Ordering::SeqCst) {
                    let before = told.load(Ordering::SeqCst);
                    let generation = reader.lookup_all(&addrs, &mut answers).unwrap();
                    assert!(generation >= before, "older than what was told");
                    assert!(generation >= last, "older than what was seen");
                    last = generation;
                    for (k, answer) in answers.iter().enumerate() {
                        let expected = match k % 3 {
                            2 if generation % 2 == 0 => None,
                            2 => Some(Row::new(prefix(12), Target::Local)),
                            net => Some(rows(generation)[net]),
                        };
                        assert_eq!(answer.row(), expected, "{k} in {generation}");
                    }
                }
            });
        }
        for generation in 1..=PUBLICATIONS {
            let mut set = rows(generation).to_vec();
            let gone = if generation % 2 == 0 {
                vec![prefix(12)]
            } else {
                set.push(Row::new(prefix(12), Target::Local));
                Vec::new()
            };
            while writer.publish(generation, &set, &gone) == Err(Status::Shared) {
                thread::yield_now();
            }
            told.store(generation, Ordering::SeqCst);
        }
        stopping.store(true, Ordering::SeqCst);
    });
    assert_eq!(writer.reader().unwrap().lookup([12, 0, 0, 1].into()), None);
}
