//! A group of cases: one test.
use crate::asked::{Asked, MOST_DESTS, MOST_NUMBERS};
use crate::call::{Call, Seen};
use crate::lent::{before, number_before, Lent};
use crate::lent_tables::LentTables;

/// What is written down for a case.
pub enum Wanted<'a> {
    Refusal(u32),
    /// The numbers, as many as the call has, and what stands at the head of each destination.
    Answer(&'a [i64], [&'a [u8]; MOST_DESTS]),
}

#[derive(Default)]
pub struct Group {
    cases: u64,
    failure: Option<String>,
    lent: Lent,
    tables: LentTables,
    reference: [Vec<u8>; MOST_DESTS],
}

impl Group {
    /// One case of a call without a destination.
    pub fn ask(&mut self, call: &Call, slices: &[&[u8]]) {
        self.compare(call, slices, 0);
    }

    /// One case: status, numbers, every byte of the destinations and around them, and every
    /// argument must be what the reference leaves.
    pub fn compare(&mut self, call: &Call, slices: &[&[u8]], dest: usize) {
        let place = 0;
        self.case(call, &Asked::new(slices, place, dest));
    }

    pub fn case(&mut self, call: &Call, asked: &Asked) {
        self.run(call, asked, None);
    }

    /// One case whose result is written down: both implementations must give it.
    pub fn expect(&mut self, call: &Call, asked: &Asked, wanted: &Wanted) {
        self.run(call, asked, Some(wanted));
    }

    fn run(&mut self, call: &Call, asked: &Asked, wanted: Option<&Wanted>) {
        if self.failure.is_some() {
            return;
        }
        self.cases += 1;
        self.tables.take(call, asked);
        let salt = self.cases as u8;
        self.lent.fill(asked, salt);
        let status = (call.archive)(asked, &mut self.lent);
        for (which, dest) in self.reference.iter_mut().enumerate() {
            dest.clear();
            dest.extend_from_slice(before(which, asked.dests[which], salt));
        }
        let mut numbers = [number_before(salt); MOST_NUMBERS];
        let dests = self.reference.each_mut().map(Vec::as_mut_slice);
        let reference = Seen {
            status: (call.reference)(asked, dests, &mut numbers),
            numbers,
            dests: self.reference.each_ref().map(Vec::as_slice),
        };
        let archive = Seen {
            status,
            numbers: self.lent.numbers(),
            dests: self.lent.left_in_dests(),
        };
        let fault = fault(&archive, &reference, wanted, salt)
            .or_else(|| (!self.lent.is_whole(asked, salt)).then_some("bytes around it changed"));
        if let Some(fault) = fault {
            let case = call.text(asked);
            let text = format!("{case}: {fault}; archive {archive}; reference {reference}");
            self.failure = Some(text);
        }
    }

    /// One case of another sort, with a text for where it fails.
    pub fn check(&mut self, holds: bool, text: impl FnOnce() -> String) {
        if self.failure.is_none() {
            self.cases += 1;
            if !holds {
                self.failure = Some(text());
            }
        }
    }

    /// Of each of these sorts of cases at least one in twenty, so that no group goes by without one.
    pub fn sorts(&mut self, sorts: &[usize]) {
        let all: usize = sorts.iter().sum();
        let enough = all > 0 && sorts.iter().all(|sort| 20 * sort >= all);
        self.check(enough, || format!("too few cases of one sort: {sorts:?}"));
    }

    /// The tables that its cases lent, as inputs of the list, each once, with its hash.
    pub fn tables(&self) -> impl Iterator<Item = (u64, &[u8])> {
        self.tables.inputs()
    }

    /// What is said of the first case that failed, after which none is run.
    pub fn failure(&mut self) -> Option<&mut String> {
        self.failure.as_mut()
    }

    pub fn fail(&mut self, text: &str) {
        self.failure.get_or_insert_with(|| text.to_string());
    }

    /// The cases of another group as this one's.
    pub fn take(&mut self, other: Group) {
        self.cases += other.cases;
        self.failure = self.failure.take().or(other.failure);
    }

    /// A group without a case has failed.
    pub fn line(&self, name: &str) -> Line {
        let none = (self.cases == 0).then_some("no case was run");
        let failure = self.failure.as_deref().or(none);
        Line {
            passed: failure.is_none(),
            text: match failure {
                None => format!("ok {name} ({} cases)", self.cases),
                Some(text) => format!("FAILED {name}: {text}"),
            },
        }
    }
}

/// What is printed of a group.
pub struct Line {
    pub passed: bool,
    pub text: String,
}

/// A group's name, and what runs its cases.
pub struct Test {
    pub name: String,
    pub body: Box<dyn Fn(&mut Group) + Send + Sync>,
}

pub fn test(name: impl Into<String>, body: impl Fn(&mut Group) + Send + Sync + 'static) -> Test {
    Test {
        name: name.into(),
        body: Box::new(body),
    }
}

fn fault(
    archive: &Seen,
    reference: &Seen,
    wanted: Option<&Wanted>,
    salt: u8,
) -> Option<&'static str> {
    if archive.status != reference.status {
        return Some("the status differs");
    }
    if archive.numbers != reference.numbers {
        return Some("a number differs");
    }
    if archive.dests != reference.dests {
        return Some("the destination differs");
    }
    let was = [0, 1].map(|which| before(which, archive.dests[which].len(), salt));
    let unanswered = number_before(salt);
    let as_they_were = archive.numbers == [unanswered; MOST_NUMBERS];
    if archive.status != 0 && !(as_they_were && archive.dests == was) {
        return Some("a refusal changed something");
    }
    let as_written_down = match wanted {
        None => true,
        Some(Wanted::Refusal(status)) => archive.status == *status,
        Some(Wanted::Answer(numbers, heads)) => {
            let numbers = numbers.iter().map(|number| *number as u64);
            let numbers = numbers.chain(std::iter::repeat(unanswered));
            archive.status == 0
                && archive.numbers.into_iter().eq(numbers.take(MOST_NUMBERS))
                && (0..MOST_DESTS).all(|i| begins(archive.dests[i], heads[i], was[i]))
        }
    };
    (!as_written_down).then_some("not what is written down")
}

/// Whether a destination begins with what was written, and goes on as it was.
fn begins(dest: &[u8], head: &[u8], was: &[u8]) -> bool {
    dest.len() >= head.len()
        && dest[..head.len()] == *head
        && dest[head.len()..] == was[head.len()..]
}
