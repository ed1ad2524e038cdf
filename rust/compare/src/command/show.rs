//! `show`: what it says of keys, against the reference.
use super::wanted::{digits, key, list_of, parts};
use super::{command, expect, text};
use crate::cuts::inputs::{good_table, key_near};
use crate::cuts::random::each_spoiled;
use crate::cuts::small::each_table;
use crate::group::Group;
use crate::inputs::Xorshift;
use crate::list_inputs::joined;

const SEED: u64 = 20_430_627;
const KEYS: usize = 20;

/// What the reference says of a key.
pub struct Answer<'a> {
    pub key: &'a [u8],
    /// The line of its slot in the list, if it has one.
    pub slot: Option<&'a str>,
    pub renamed: Result<Vec<u8>, u32>,
}

/// A form of the answers: its options, which lines of the output are looked at, and what they
/// should be, with their ends.
pub struct Form {
    pub options: &'static [&'static str],
    pub is_looked_at: fn(&str) -> bool,
    pub lines: fn(&[Answer]) -> Vec<String>,
}

/// Runs in one form; and how many keys were renamed and refused, and tables taken and refused.
struct Shows<'a> {
    group: &'a mut Group,
    form: &'a Form,
    keys: [usize; 2],
    tables: [usize; 2],
}

impl<'a> Shows<'a> {
    fn new(group: &'a mut Group, form: &'a Form) -> Self {
        Shows {
            group,
            form,
            keys: [0; 2],
            tables: [0; 2],
        }
    }

    /// One run with all these keys as arguments.
    fn ask(&mut self, input: &[u8], keys: &[Vec<u8>]) {
        let digits: Vec<String> = keys.iter().map(|key| digits(key)).collect();
        let mut arguments = vec!["show"];
        arguments.extend(self.form.options);
        arguments.push("-");
        arguments.extend(digits.iter().map(String::as_str));
        let list = list_of(input);
        self.tables[usize::from(list.is_err())] += 1;
        match list {
            Ok(list) => {
                let answers = keys.iter().map(|key| answer(input, &list, key));
                self.compare(&arguments, input, &answers.collect::<Vec<_>>());
            }
            Err(number) => {
                expect(self.group, &arguments, input, &Err(number));
            }
        }
    }

    fn compare(&mut self, arguments: &[&str], input: &[u8], answers: &[Answer]) {
        let ran = command(arguments, input);
        let text = |fault: String| format!("{}; {fault}", text(arguments, input, &ran));
        let output = String::from_utf8_lossy(&ran.output);
        let got = output.split_inclusive('\n');
        let got = got.filter(|line| (self.form.is_looked_at)(line));
        let got: Vec<&str> = got.collect();
        let wanted = (self.form.lines)(answers);
        self.group.check(got.len() == wanted.len(), || {
            text(format!("wanted {wanted:?}"))
        });
        for (got, wanted) in got.into_iter().zip(wanted) {
            self.group.check(got == wanted, || {
                text(format!("{got:?}, wanted {wanted:?}"))
            });
        }
        let renamed = answers.iter().map(|answer| &answer.renamed);
        let refusals: Vec<u32> = renamed
            .filter_map(|key| key.as_ref().err().copied())
            .collect();
        self.keys[0] += answers.len() - refusals.len();
        self.keys[1] += refusals.len();
        let status = u8::from(!refusals.is_empty());
        let told = ran.refusals().as_ref() == Some(&refusals);
        self.group.check(ran.status == status && told, || {
            text(format!("wanted status {status}, refusals {refusals:?}"))
        });
    }
}

fn answer<'a>(input: &[u8], list: &'a str, asked: &'a [u8]) -> Answer<'a> {
    let [pivots, edges] = parts(input);
    let slot = reference::route(pivots, asked).ok();
    Answer {
        key: asked,
        slot: slot.and_then(|slot| list.lines().nth(1 + slot)),
        renamed: key(|dest| reference::translate_key(pivots, edges, asked, dest)),
    }
}

/// All small keys in all small tables with every choice of these edges. Some tables are refused
/// with 4.
pub fn small(group: &mut Group, form: &Form, edges: &[&[u8]]) {
    let mut shows = Shows::new(group, form);
    each_table(edges, |table, keys| {
        shows.ask(&joined(&table.pivots, &table.edges), keys);
    });
    let Shows { keys, tables, .. } = shows;
    group.sorts(&keys);
    group.sorts(&tables);
}

/// Keys near the pivots of random tables, and one of 65 bytes.
pub fn random(group: &mut Group, form: &Form, count: usize) {
    let mut shows = Shows::new(group, form);
    let mut random = Xorshift::new(SEED);
    for _ in 0..count {
        let table = good_table(&mut random);
        let near = (0..KEYS).map(|_| key_near(&mut random, &table));
        let mut keys: Vec<Vec<u8>> = near.collect();
        let mut long = keys[0].clone();
        long.resize(65, 0);
        keys.insert(KEYS / 2, long);
        shows.ask(&joined(&table.pivots, &table.edges), &keys);
    }
    let keys = shows.keys;
    group.sorts(&keys);
}

/// One key in each of so many random tables with faults.
pub fn spoiled(group: &mut Group, form: &Form, count: usize) {
    let mut shows = Shows::new(group, form);
    each_spoiled(count, |[pivots, edges, key]| {
        shows.ask(&joined(pivots, edges), &[key.to_vec()]);
    });
    let Shows { keys, tables, .. } = shows;
    group.sorts(&keys);
    group.sorts(&tables);
}
