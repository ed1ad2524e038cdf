//! Runs the groups on as many threads as there are processors.
use crate::command::{EveryTable, Seen};
use crate::group::{Group, Line, Test};
use std::collections::BTreeMap;
use std::num::NonZero;
use std::panic::{catch_unwind, AssertUnwindSafe};
use std::sync::atomic::{AtomicUsize, Ordering};
use std::sync::mpsc::{channel, Receiver, Sender};
use std::thread;

/// What the threads share: each takes the next group that none has taken.
struct Work<'a> {
    tests: &'a [Test],
    next: AtomicUsize,
    seen: Seen,
}

impl Work<'_> {
    /// Runs groups and tells the line of each with its place, until there are no more.
    fn take(&self, lines: &Sender<(usize, Line)>) -> EveryTable {
        let mut every_table = EveryTable::default();
        loop {
            let place = self.next.fetch_add(1, Ordering::Relaxed);
            let Some(test) = self.tests.get(place) else {
                return every_table;
            };
            let group = run(test);
            let line = group.line(&test.name);
            every_table.of(&group, &self.seen);
            lines.send((place, line)).expect("it is listened to");
        }
    }
}

fn run(test: &Test) -> Group {
    let mut group = Group::default();
    if catch_unwind(AssertUnwindSafe(|| (test.body)(&mut group))).is_err() {
        group.fail("it stopped by a panic");
    }
    group
}

/// Hands on the line of each group, in the order of the groups, and one for all their tables.
pub fn all(tests: &[Test], mut body: impl FnMut(Line)) {
    let work = Work {
        tests,
        next: AtomicUsize::new(0),
        seen: Seen::default(),
    };
    let every_table = thread::scope(|scope| {
        let threads = thread::available_parallelism().map_or(1, NonZero::get);
        let (sender, lines) = channel();
        let workers: Vec<_> = (0..threads)
            .map(|_| {
                let (work, sender) = (&work, sender.clone());
                scope.spawn(move || work.take(&sender))
            })
            .collect();
        drop(sender);
        in_order(lines, &mut body);
        let tables = workers
            .into_iter()
            .map(|worker| worker.join().expect("no panic"));
        tables.fold(EveryTable::default(), EveryTable::and)
    });
    body(every_table.line());
}

/// Hands on each line as soon as all before it have come.
fn in_order(lines: Receiver<(usize, Line)>, body: &mut impl FnMut(Line)) {
    let mut waiting = BTreeMap::new();
    let mut next = 0;
    for (place, line) in lines {
        waiting.insert(place, line);
        while let Some(line) = waiting.remove(&next) {
            body(line);
            next += 1;
        }
    }
}
