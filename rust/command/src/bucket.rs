//! `joistdenim bucket translate`.
use crate::arguments::Arguments;
use crate::failure::{Done, Failure};
use crate::refused::{self, key_of};
use crate::{files, output, Streams};
use joistdenim::{Bucket, Entry, Key, Refusal};
use std::ffi::OsStr;
use std::fmt::Write;

pub fn run(arguments: &Arguments, streams: &mut Streams) -> Done {
    let [verb, old, new, path] = arguments.exactly("translate, two prefixes and a bucket")?;
    if verb != "translate" {
        return Err(arguments.wrong(format!("bucket has no command {verb:?}, only translate")));
    }
    let (old, new) = (arguments.bytes(old)?, arguments.bytes(new)?);
    // Of a bucket and a prefix that are both refused, the bucket's refusal comes first.
    let bucket = read(path, arguments, streams)?;
    let (old, new) = (key_of(&old)?, key_of(&new)?);
    let fates: Vec<(Entry, Fate)> = bucket
        .entries()
        .map(|e| (e, fate(&e, &old, &new)))
        .collect();
    if arguments.has("--report") {
        return output::text(&report(&fates), arguments, streams);
    }
    let renamed = bucket.translate(&old, &new);
    let renamed = renamed.map_err(|refusal| Failure::refused(refusal, too_long(&fates)))?;
    if arguments.has("--bytes") {
        output::bytes(renamed.as_bytes(), arguments, streams)?;
    } else {
        output::text(&renamed.to_string(), arguments, streams)?;
    }
    let (kept, all) = (renamed.entries().len(), fates.len());
    let _ = writeln!(streams.errors, "kept {kept}, skipped {}", all - kept);
    Ok(0)
}

fn read(path: &OsStr, arguments: &Arguments, streams: &mut Streams) -> Result<Bucket, Failure> {
    if !arguments.has("--bytes") {
        return files::of_text(path, "with --bytes entries are read", streams);
    }
    let bytes = files::bytes(path, files::MOST_COUNTED, streams)?;
    Bucket::try_from(&bytes[..]).map_err(|refusal| {
        let text = refused::entries(&files::name_of(path), &bytes);
        Failure::refused(refusal, text)
    })
}

/// What becomes of an entry.
enum Fate {
    Kept(Key),
    Skipped,
    TooLong,
}

/// By the library: the entry as a bucket of its own, translated.
fn fate(entry: &Entry, old: &Key, new: &Key) -> Fate {
    let alone = Bucket::new(&[*entry]).and_then(|bucket| bucket.translate(old, new));
    let kept = alone.map(|bucket| bucket.entries().next());
    match kept {
        Ok(Some(entry)) => Fate::Kept(entry.key),
        Ok(None) => Fate::Skipped,
        Err(Refusal::TooLong) => Fate::TooLong,
        Err(refusal) => unreachable!("an entry is a bucket: {refusal}"),
    }
}

fn report(fates: &[(Entry, Fate)]) -> String {
    let mut text = String::from("fate\tkey\trenamed\tnumber\n");
    for (Entry { key, number }, fate) in fates {
        let _ = match fate {
            Fate::Kept(renamed) => writeln!(text, "kept\t{key}\t{renamed}\t{number}"),
            Fate::Skipped => writeln!(text, "skipped\t{key}\t\t{number}"),
            Fate::TooLong => writeln!(text, "too long\t{key}\t\t{number}"),
        };
    }
    text
}

/// Which entries would pass 64 bytes.
fn too_long(fates: &[(Entry, Fate)]) -> String {
    let long = fates
        .iter()
        .filter(|(_, fate)| matches!(fate, Fate::TooLong));
    let keys: Vec<String> = long.map(|(entry, _)| entry.key.to_string()).collect();
    format!(
        "of {} entries {} would pass 64 bytes: {}",
        fates.len(),
        keys.len(),
        keys.join(" ")
    )
}
