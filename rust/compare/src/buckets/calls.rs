//! Buckets under another prefix, in the archive and in the reference.
use crate::call::{call, entries, Call, Kind};
use crate::lent::lend;
use crate::renaming::calls::{NEW_PREFIX, PREFIX};
use crate::told::{count, yes};
use joistdenim::raw;

pub static CALLS: [&Call; 2] = [&TRANSLATE_BUCKET, &TRANSLATE_BUCKET_WILL_FIT];

const ARGUMENTS: &[(&str, Kind)] = &[("bucket", Kind::Bucket), PREFIX, NEW_PREFIX];

pub static TRANSLATE_BUCKET: Call = Call {
    dests: &["dest"],
    written: entries,
    ..call(
        "translate_bucket",
        ARGUMENTS,
        |_, lent| lend!(lent, raw::jd_translate_bucket, bucket, prefix, new_prefix; dest),
        |asked, [dest, _], numbers| {
            let [bucket, prefix, new_prefix] = asked.all();
            let kept = reference::translate_bucket(bucket, prefix, new_prefix, dest);
            count(kept, numbers)
        },
    )
};

/// The place is the destination's length.
pub static TRANSLATE_BUCKET_WILL_FIT: Call = Call {
    takes_place: true,
    ..call(
        "translate_bucket_will_fit",
        ARGUMENTS,
        |asked, lent| lend!(lent, raw::jd_translate_bucket_will_fit, bucket, prefix, new_prefix; ; asked.place),
        |asked, _, numbers| {
            let [bucket, prefix, new_prefix] = asked.all();
            let len = asked.place;
            let fits = reference::translate_bucket_will_fit(bucket, prefix, new_prefix, len);
            yes(fits, numbers)
        },
    )
};
