// What the source says of pairs.

module PairCases {
  import opened Sequences
  import opened Options
  import opened KeyType
  import opened TranslationLib
  import opened Randoms
  import opened Report
  import T = Text
  import Causes
  import Keys

  // A pair whose old prefix mostly begins a key; one in eight is absent.
  method Pair(r: Random, key: Key) returns (pset: Option<PrefixSet>)
    modifies r
  {
    var absent := r.OneIn(8);
    var prefix, newPrefix := Keys.Prefixes(r, key);
    pset := if absent then None else Some(PrefixSet(prefix, newPrefix));
  }

  method OfPairs(r: Random)
    modifies r
  {
    var key := Keys.Any(r);
    var a := Pair(r, key);
    var b := Pair(r, key);
    key := Keys.Lent(r, key);
    Input("key", T.OfKey(key));
    Input("a", T.OfPair(a));
    Input("b", T.OfPair(b));
    var cause := Causes.OfPair(a);
    Result("RevPrefixSet", cause, if cause == 0 then T.OfPair(RevPrefixSet(a)) else []);
    cause := Causes.First(cause, Causes.OfKey(key));
    var begins := a.Some? ==> IsPrefix(a.value.prefix, key);
    cause := if cause != 0 then cause else Causes.Unless(begins, 7);
    Result("ApplyPrefixSet", cause, if cause == 0 then T.OfKey(ApplyPrefixSet(a, key)) else []);
    cause := Causes.First(Causes.OfPair(a), Causes.OfPair(b));
    if cause == 0 && a.Some? && b.Some? {
      var p, q := a.value.prefix, b.value.prefix;
      cause := Causes.Unless(IsPrefix(p, q) || IsPrefix(q, p), 7);
    }
    Result("ComposePrefixSet", cause, if cause == 0 then T.OfPair(ComposePrefixSet(a, b)) else []);
  }
}
