//! The source's functions, and by which call of the archive each is asked.
use crate::answers::{self, Answer};
use crate::inputs::Inputs;

pub struct Function {
    pub name: &'static str,
    /// As docs/CALLS.md names it.
    pub call: &'static str,
    pub answer: fn(&Inputs) -> Answer,
}

const fn of(name: &'static str, call: &'static str, answer: fn(&Inputs) -> Answer) -> Function {
    Function { name, call, answer }
}

/// In the order of the files; a method is asked as its function is.
#[rustfmt::skip]
pub const FUNCTIONS: &[Function] = &[
    of("ElementIsKey", "keys::pivot_key", answers::element_is_key),
    of("ElementsAreKeys", "keys::compare", answers::elements_are_keys),
    of("KeyToElement", "keys::pivot_key", answers::key_to_element),
    of("WFPivots", "tables::wf_pivots", answers::wf_pivots),
    of("ContainsAllKeys", "tables::contains_all_keys", answers::contains_all_keys),
    of("ComputeContainsAllKeys", "tables::contains_all_keys", answers::contains_all_keys),
    of("ContainsRange", "tables::contains_range", answers::contains_range),
    of("ComputeContainsRange", "tables::contains_range", answers::contains_range),
    of("BoundedKey", "tables::bounded_key", answers::bounded_key),
    of("BoundedKeySeq", "tables::bounded_key", answers::bounded_key_seq),
    of("BoundedSortedKeySeq", "indexes::build_index", answers::bounded_sorted_key_seq),
    of("ValidLeftCutOffKey", "tables::valid_left_cut_off_key", answers::valid_left_cut_off_key),
    of("ComputeBoundedKey", "tables::bounded_key", answers::bounded_key),
    of("ComputeValidLeftCutOffKey", "tables::valid_left_cut_off_key", answers::valid_left_cut_off_key),
    of("NumBuckets", "renaming::translate_edges", answers::num_buckets),
    of("PivotSize", "keys::pivot_key", answers::pivot_size),
    of("InBetween", "tables::bounded_key", answers::in_between),
    of("Route", "routing::route", answers::route),
    of("ComputeRoute", "routing::route", answers::route),
    of("InitPivotTable", "tables::init_pivot_table", answers::init_pivot_table),
    of("GetKey", "tables::get_key", answers::get_key),
    of("ComputeGetKey", "tables::get_key", answers::get_key),
    of("PivotInsertable", "tables::pivot_insertable", answers::pivot_insertable),
    of("ComputePivotInsertable", "tables::pivot_insertable", answers::pivot_insertable),
    of("InsertPivot", "cuts::insert_pivot", answers::insert_pivot),
    of("CutoffForLeft", "routing::cutoff_for_left", answers::cutoff_for_left),
    of("ComputeCutoffForLeft", "routing::cutoff_for_left", answers::cutoff_for_left),
    of("SplitLeft", "cuts::split_left", answers::split_left),
    of("ComputeSplitLeft", "cuts::split_left", answers::split_left),
    of("CutoffForRight", "routing::cutoff_for_right", answers::cutoff_for_right),
    of("ComputeCutoffForRight", "routing::cutoff_for_right", answers::cutoff_for_right),
    of("SplitRight", "cuts::split_right", answers::split_right),
    of("ComputeSplitRight", "cuts::split_right", answers::split_right),
    of("NonEmptyLcp", "tables::wf_edges", answers::non_empty_lcp),
    of("WFEdges", "tables::wf_edges", answers::wf_edges),
    of("SplitLeftEdges", "cuts::split_left", answers::split_left_edges),
    of("SplitRightEdges", "cuts::split_right", answers::split_right_edges),
    of("lcpright", "range_prefix::pivot_lcp", answers::lcpright),
    of("lcp", "range_prefix::pivot_lcp", answers::pivot_lcp),
    of("PivotLcp", "range_prefix::pivot_lcp", answers::pivot_lcp),
    of("Translate", "pair_translation::translate_pair", answers::translate),
    of("TranslateKey", "translation::translate_key", answers::translate_key),
    of("RevPrefixSet", "pair_records::reverse_pair", answers::reverse_pair),
    of("ApplyPrefixSet", "pair_records::apply_pair", answers::apply_pair),
    of("ComposePrefixSet", "pair_records::compose_pairs", answers::compose_pairs),
    of("ShortestUncommonPrefix", "upper_bound::shortest_uncommon_prefix", answers::shortest_uncommon_prefix),
    of("TranslateElement", "keys::change_prefix", answers::translate_element),
    of("TranslatePivotPair", "pivot_pair::translate_pivot_pair", answers::translate_pivot_pair),
    of("TranslatePivotPairInternal", "pivot_pair::translate_pivot_pair", answers::translate_pivot_pair_internal),
    of("TranslatePivots", "renaming::translate_pivots", answers::translate_pivots),
    of("TranslateEdges", "renaming::translate_edges", answers::translate_edges),
    of("TranslateBucketInternal", "buckets::translate_bucket", answers::translate_bucket_internal),
    of("TranslateBucket", "buckets::translate_bucket", answers::translate_bucket),
    of("TranslateBuckets", "index_translation::translate_index", answers::translate_buckets),
    of("ParentKeysInChildRange", "parent_child::parent_keys_in_child_range", answers::parent_keys_in_child_range),
];
