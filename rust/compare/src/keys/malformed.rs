//! Groups for records: every length field, with a zero tail and with one byte that isn't zero at
//! each of the 64 places.
use super::calls::{COMPARE, ENTRY_KEY, PIVOT_KEY, PIVOT_LCP};
use crate::group::Group;
use crate::inputs::{entry, field_record, record, Record};

fn each_record(mut body: impl FnMut(&Record)) {
    for field in 0..=u16::MAX {
        let mut record = field_record(field);
        body(&record);
        for place in 0..64 {
            record[2 + place] = 1 << (place % 8);
            body(&record);
            record[2 + place] = 0;
        }
    }
}

pub fn pivot_key(group: &mut Group) {
    each_record(|record| group.ask(&PIVOT_KEY, &[record]));
}

pub fn entry_key(group: &mut Group) {
    each_record(|record| group.ask(&ENTRY_KEY, &[&entry(record)]));
}

pub fn compare(group: &mut Group) {
    let other = record(&[0x41]);
    each_record(|record| {
        group.ask(&COMPARE, &[record, &other]);
        group.ask(&COMPARE, &[&other, record]);
    });
}

pub fn pivot_lcp(group: &mut Group) {
    each_record(|record| group.ask(&PIVOT_LCP, &[&[0xFF, 0x00], record]));
}
