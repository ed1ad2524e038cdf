//! `bucket translate`, on entries and on their text, and its report.
use super::wanted::{key, key_text, Wanted};
use super::{expect, expect_saying, text};
use crate::buckets::{random, small, Slices};
use crate::group::{test, Group, Test};
use crate::inputs::{Entry, ENTRY_SIZE, MAX_ENTRIES};
use reference::{change_prefix, entry_key, translate_bucket, Refusal};

const READ: &str = "a bucket that is taken or written has whole entries with keys";

type Each = fn(&mut dyn FnMut(Slices));

pub fn tests() -> Vec<Test> {
    let sorts: [(&str, Each); 4] = [
        ("all small ones", |body| {
            small::each_good(&mut *body);
            small::each_wrong(body);
        }),
        ("any ones, random", |body| random::each_of_any(40_000, body)),
        ("small ones, random", |body| random::each(10_000, 6, body)),
        ("large ones, random", |body| {
            random::each(500, MAX_ENTRIES, body)
        }),
    ];
    let named = |(name, each): (&str, Each)| {
        let name = format!("command: bucket translate, {name}");
        test(name, move |group| each_form(group, each))
    };
    sorts.into_iter().map(named).collect()
}

fn each_form(group: &mut Group, each: Each) {
    let mut seen = [0; 2];
    each(&mut |slices| {
        let renaming = Renaming::of(slices);
        renaming.bytes(group);
        renaming.text(group);
        renaming.report(group);
        seen[usize::from(renaming.wanted.is_err())] += 1;
    });
    group.sorts(&seen);
}

/// A bucket and two prefixes, these also as arguments, and what the reference makes of it.
struct Renaming<'a> {
    slices: Slices<'a>,
    arguments: [String; 2],
    wanted: Wanted,
}

impl<'a> Renaming<'a> {
    fn of(slices: Slices<'a>) -> Self {
        let [_, old, new] = slices;
        Renaming {
            slices,
            arguments: [old, new].map(key_text),
            wanted: renamed(slices),
        }
    }

    fn arguments<'b>(&'b self, options: &[&'b str]) -> Vec<&'b str> {
        let [old, new] = &self.arguments;
        [&["bucket", "translate"], options, &[old, new, "-"]].concat()
    }

    /// How many entries are kept and skipped, where it is done.
    fn counts(&self) -> String {
        let [all, kept] = [self.slices[0], self.wanted.as_deref().unwrap_or_default()]
            .map(|bucket| bucket.len() / ENTRY_SIZE);
        format!("kept {kept}, skipped {}\n", all - kept)
    }

    fn bytes(&self, group: &mut Group) {
        let arguments = self.arguments(&["--bytes"]);
        expect_saying(
            group,
            &arguments,
            self.slices[0],
            &self.wanted,
            &self.counts(),
        );
    }

    /// The bucket lent as text, where it has one: the result as text, or the same refusal.
    fn text(&self, group: &mut Group) {
        let Some(bucket) = text_of(self.slices[0]) else {
            return;
        };
        let wanted = self.wanted.as_ref().map_err(|number| *number);
        let wanted = wanted.map(|kept| text_of(kept).expect(READ).into_bytes());
        let arguments = self.arguments(&[]);
        expect_saying(
            group,
            &arguments,
            bucket.as_bytes(),
            &wanted,
            &self.counts(),
        );
    }

    /// A row for each entry; those kept are the result.
    fn report(&self, group: &mut Group) {
        let bucket = self.slices[0];
        let arguments = self.arguments(&["--bytes", "--report"]);
        let wanted = match self.wanted {
            Ok(_) | Err(8) => Ok(rows(self.slices).into_bytes()),
            Err(number) => Err(number),
        };
        let ran = expect(group, &arguments, bucket, &wanted);
        if let Ok(kept) = &self.wanted {
            let rows = kept_rows(&String::from_utf8_lossy(&ran.output));
            group.check(Some(rows) == text_of(kept), || {
                text(&arguments, bucket, &ran)
            });
        }
    }
}

fn renamed([bucket, old, new]: Slices) -> Wanted {
    let mut dest = vec![0; bucket.len()];
    let kept = translate_bucket(bucket, old, new, &mut dest).map_err(Refusal::number)?;
    dest.truncate(kept * ENTRY_SIZE);
    Ok(dest)
}

/// The key and the number of an entry that reads well.
fn read(entry: &Entry) -> Option<(&[u8], u32)> {
    let number = entry.last_chunk().copied().map(u32::from_be_bytes);
    entry_key(entry).ok().zip(number)
}

/// Those of a bucket that is made of such entries.
fn entries(bucket: &[u8]) -> Option<Vec<(&[u8], u32)>> {
    let (entries, rest) = bucket.as_chunks();
    let read: Option<_> = entries.iter().map(read).collect();
    read.filter(|_| rest.is_empty())
}

fn text_of(bucket: &[u8]) -> Option<String> {
    let line = |(key, number)| format!("{}\t{number}\n", key_text(key));
    Some(entries(bucket)?.into_iter().map(line).collect())
}

/// The report, entry by entry: 7 passes one over, and 8 is too long.
fn rows([bucket, old, new]: Slices) -> String {
    let mut rows = String::from("fate\tkey\trenamed\tnumber\n");
    for (entry, number) in entries(bucket).expect(READ) {
        let renamed = key(|dest| change_prefix(entry, old, new, dest));
        let (fate, renamed) = match renamed {
            Ok(renamed) => ("kept", key_text(&renamed)),
            Err(7) => ("skipped", String::new()),
            Err(_) => ("too long", String::new()),
        };
        rows += &format!("{fate}\t{}\t{renamed}\t{number}\n", key_text(entry));
    }
    rows
}

/// The entries kept by a report, as text.
fn kept_rows(report: &str) -> String {
    let row = |line: &str| {
        let (_, entry) = line.strip_prefix("kept\t")?.split_once('\t')?;
        Some(format!("{entry}\n"))
    };
    report.lines().filter_map(row).collect()
}
