//! `join`, with the first table on standard input and the second one in a file: the table is what
//! the reference writes.
use super::command;
use super::wanted::{parts, text, written, Wanted};
use crate::call::Hex;
use crate::cuts::records::Records;
use crate::group::Group;
use crate::joining::random::{each_around_most, each_good, each_spoiled};
use crate::list_inputs::joined;
use std::env::temp_dir;
use std::ffi::OsStr;
use std::fs;
use std::path::PathBuf;
use std::process::id;
use std::sync::atomic::{AtomicUsize, Ordering};

/// Joins, one after the other, and the file that each second table is in.
struct Joins<'a> {
    group: &'a mut Group,
    file: PathBuf,
    /// How many were done, and how many refused.
    seen: [usize; 2],
}

impl Drop for Joins<'_> {
    fn drop(&mut self) {
        // It may not be there.
        let _ = fs::remove_file(&self.file);
    }
}

impl<'a> Joins<'a> {
    /// Groups run side by side, so each has a file of its own.
    fn new(group: &'a mut Group) -> Self {
        static FILES: AtomicUsize = AtomicUsize::new(0);
        let (program, file) = (id(), FILES.fetch_add(1, Ordering::Relaxed));
        Joins {
            group,
            file: temp_dir().join(format!("joistdenim-compare-{program}-{file}.table")),
            seen: [0; 2],
        }
    }

    fn join(&mut self, halves: [&Records; 2]) {
        let [first, second] = halves.map(|half| joined(&half.pivots, &half.edges));
        fs::write(&self.file, &second).expect("a file can be written");
        let wanted = join(&first, &second);
        let arguments = [OsStr::new("join"), OsStr::new("-"), self.file.as_os_str()];
        let ran = command(&arguments, &first);
        self.group.check(ran.is(&wanted, ""), || {
            let (first, second, wanted) = (Hex(&first), Hex(&second), text(&wanted, ""));
            format!("join of {first} and {second}: {ran}; wanted {wanted}")
        });
        self.seen[usize::from(wanted.is_err())] += 1;
    }

    fn sorts(&mut self) {
        self.group.sorts(&self.seen);
    }
}

fn join(first: &[u8], second: &[u8]) -> Wanted {
    let ([p1, e1], [p2, e2]) = (parts(first), parts(second));
    written(|pivots, edges| reference::join(p1, e1, p2, e2, pivots, edges))
}

pub fn random(group: &mut Group, count: usize) {
    let mut joins = Joins::new(group);
    each_good(count, |halves| joins.join(halves));
    joins.sorts();
}

pub fn around_most(group: &mut Group, count: usize) {
    let mut joins = Joins::new(group);
    each_around_most(count, |halves| joins.join(halves));
    joins.sorts();
}

pub fn spoiled(group: &mut Group, count: usize) {
    let mut joins = Joins::new(group);
    each_spoiled(count, |halves| joins.join(halves));
    joins.sorts();
}
