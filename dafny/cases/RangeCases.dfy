// What the source says of a range, of a prefix, and of a range or a table that is renamed.

module RangeCases {
  import opened Sequences
  import opened NativeTypes
  import opened KeyType
  import opened BoundedPivotsLib
  import opened TranslationLib
  import opened Randoms
  import opened Report
  import T = Text
  import Causes
  import Keys
  import Tables

  // A left key and a right element, mostly in order, and pivots near them.
  method OfRange(r: Random, pt: PivotTable)
    modifies r
  {
    var left := Tables.Asked(r, pt);
    var right := Keys.ElementNear(r, left);
    var ordered := r.Below(4);
    if ordered > 0 && right.Element? && Keyspace.lt(right, Keyspace.Element(left)) {
      left, right := right.e, Keyspace.Element(left);
    }
    Input("left", T.OfKey(left));
    Input("right", T.OfElement(right));
    OfElement(right);
    OfPrefix(left, right);
    OfContainsRange(pt, left, right);
    OfInBetween(r, left, right);
    OfPivotPair(r, left, right);
  }

  method OfElement(e: Element)
  {
    Result("ElementIsKey", 0, T.OfBool(ElementIsKey(e)));
    var cause := Causes.OfElement(e);
    Result("PivotSize", cause, if cause == 0 then T.OfNumber(PivotSize(e) as int) else []);
  }

  method OfPrefix(left: Key, right: Element)
  {
    var cause := Causes.First(Causes.OfKey(left), Causes.OfElement(right));
    var e := KeyToElement(left);
    Result("PivotLcp", cause, if cause == 0 then T.OfKey(PivotLcp(e, right)) else []);
    Result("lcpright", Causes.OfKey(left), T.OfKey(lcpright(left)));
    if right.Element? {
      Result("lcp", cause, T.OfKey(lcp(left, right.e)));
    }
  }

  method OfContainsRange(pt: PivotTable, left: Key, right: Element)
  {
    var cause := Causes.OfRange(Causes.OfPivots(pt), left, right);
    var e := KeyToElement(left);
    Result("ContainsRange", cause,
      if cause == 0 then T.OfBool(ContainsRange(pt, e, right)) else []);
    if cause == 0 {
      var yes := ComputeContainsRange(pt, e, right);
      Result("ComputeContainsRange", cause, T.OfBool(yes));
    }
  }

  // The call is the question whether a table of one slot has the key, so a range that isn't in
  // order is a table whose pivots don't rise.
  method OfInBetween(r: Random, left: Key, right: Element)
    modifies r
  {
    var e := KeyToElement(left);
    var key := Tables.Asked(r, [e, right]);
    Input("key", T.OfKey(key));
    var cause := Causes.First(Causes.OfPivots([e, right]), Causes.OfKey(key));
    Result("InBetween", cause, if cause == 0 then T.OfBool(InBetween(e, right, key)) else []);
  }

  // For a key, as inputs.
  method Prefixes(r: Random, key: Key) returns (prefix: Key, newPrefix: Key)
    modifies r
  {
    prefix, newPrefix := Keys.Prefixes(r, key);
    Input("prefix", T.OfKey(prefix));
    Input("newPrefix", T.OfKey(newPrefix));
  }

  method OfPivotPair(r: Random, left: Key, right: Element)
    modifies r
  {
    var prefix, newPrefix := Prefixes(r, left);
    OfUpperBound(r, newPrefix);
    var cause := Causes.First(Causes.OfKey(left), Causes.OfPrefixes(prefix, newPrefix));
    cause := if cause != 0 then cause else Causes.Unless(IsPrefix(prefix, left), 7);
    var e := KeyToElement(left);
    Result("TranslateElement", cause,
      if cause == 0 then T.OfElement(TranslateElement(e, prefix, newPrefix)) else []);
    cause := Causes.First(cause, Causes.OfRange(0, left, right));
    var pair: T.Words := [];
    if cause == 0 || cause == 9 {
      var (left', right') := TranslatePivotPairInternal(e, right, prefix, newPrefix);
      pair := T.OfElements([left', right']);
    }
    Result("TranslatePivotPairInternal", cause, pair);
  }

  // From the prefix's end, or from a place behind which all is FF.
  method OfUpperBound(r: Random, prefix: Key)
    modifies r
  {
    var idx := |prefix|;
    var lower := r.OneIn(2);
    while lower && idx > 0 && forall i | idx - 1 < i < |prefix| :: prefix[i] == 0xFF {
      idx := idx - 1;
    }
    Input("idx", T.OfNumber(idx));
    var cause := Causes.OfKey(prefix);
    Result("ShortestUncommonPrefix", cause,
      if cause == 0 then T.OfElement(ShortestUncommonPrefix(prefix, idx)) else []);
  }

  // Pivots under another prefix, from a place on: the old prefix mostly begins all but the last.
  method OfPivots(r: Random, pt: PivotTable)
    modifies r
  {
    var whole := Causes.OfPivots(pt);
    var shared: seq<byte> := [];
    if whole == 0 {
      shared := Shared(pt[0].e, pt[|pt| - 2].e);
    }
    var prefix, newPrefix := Prefixes(r, shared);
    var end := Keys.ElementNear(r, newPrefix);
    var bound := r.OneIn(2);
    if bound {
      end := ShortestUncommonPrefix(newPrefix, |newPrefix|);
    }
    Input("end", T.OfElement(end));
    var cause := Causes.First(Causes.OfPrefixes(prefix, newPrefix), Causes.OfElement(end));
    cause := Causes.First(whole, cause);
    if cause == 0 {
      cause := Causes.Unless(forall i | 0 <= i < NumBuckets(pt) :: IsPrefix(prefix, pt[i].e), 7);
    }
    if cause == 0 {
      var last := TranslateElement(pt[|pt| - 2], prefix, newPrefix);
      cause := Causes.Unless(Keyspace.lt(last, end), 9);
    }
    var computed := cause == 0 || cause == 9;
    var idx := r.Place(if computed then NumBuckets(pt) else 1);
    Input("idx", T.OfNumber(idx));
    Result("TranslatePivots", cause,
      if computed then T.OfElements(TranslatePivots(pt, prefix, newPrefix, end, idx)) else []);
  }

  // The bytes at which two keys agree, from the first on.
  function method Shared(a: seq<byte>, b: seq<byte>): seq<byte>
  {
    if a == [] || b == [] || a[0] != b[0] then [] else [a[0]] + Shared(a[1..], b[1..])
  }
}
