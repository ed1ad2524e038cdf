//! The safe wrapper's calls on buckets against the reference.
use super::dests::lengths_around;
use crate::bucket_inputs::usual_buckets;
use crate::call::Kind;
use crate::group::Group;
use crate::lengths::usual;
use crate::wrapper::{into_both, same};

pub fn buckets(group: &mut Group) {
    let prefixes = usual(Kind::Key);
    for b in &usual_buckets() {
        for old in &prefixes {
            for new in &prefixes {
                for dest in lengths_around([b, old, new]) {
                    into_both!(group, dest, translate_bucket(b, old, new));
                    let len = dest as u64;
                    let got = joistdenim::translate_bucket_will_fit(b, old, new, len);
                    let wanted = reference::translate_bucket_will_fit(b, old, new, len);
                    let slices: [&[u8]; 3] = [b, old, new];
                    same(group, "translate_bucket_will_fit", &slices, got, wanted);
                }
            }
        }
    }
}
