// Inputs and results as words. A key is its digits, or "." where it is empty; "max" is max and "-"
// none.

module Text {
  import opened NativeTypes
  import opened Options
  import opened KeyType
  import opened BoundedPivotsLib
  import opened TranslationLib
  import opened BucketsLib

  type Words = seq<string>

  function method Digits(key: seq<byte>): string
  {
    if key == [] then ""
    else
      var digit := "0123456789abcdef";
      var last := key[|key| - 1] as int;
      Digits(key[..|key| - 1]) + [digit[last / 16], digit[last % 16]]
  }

  function method OfKey(key: seq<byte>): Words
  {
    [if key == [] then "." else Digits(key)]
  }

  function method OfElement(e: Element): Words
  {
    if e.Element? then OfKey(e.e) else ["max"]
  }

  function method OfEdge(edge: Option<Key>): Words
  {
    if edge.Some? then OfKey(edge.value) else ["-"]
  }

  function method OfPair(pset: Option<PrefixSet>): Words
  {
    if pset.Some? then OfKey(pset.value.prefix) + OfKey(pset.value.newPrefix) else ["-"]
  }

  function method OfBool(yes: bool): Words
  {
    [if yes then "yes" else "no"]
  }

  function method Decimal(n: nat): string
  {
    (if n < 10 then "" else Decimal(n / 10)) + ["0123456789"[n % 10]]
  }

  function method OfNumber(n: int): Words
  {
    [if n < 0 then "-" + Decimal(-n) else Decimal(n)]
  }

  function method OfKeys(keys: seq<Key>): Words
  {
    if keys == [] then [] else OfKeys(keys[..|keys| - 1]) + OfKey(keys[|keys| - 1])
  }

  function method OfElements(pt: PivotTable): Words
  {
    if pt == [] then [] else OfElements(pt[..|pt| - 1]) + OfElement(pt[|pt| - 1])
  }

  function method OfEdges(et: EdgeTable): Words
  {
    if et == [] then [] else OfEdges(et[..|et| - 1]) + OfEdge(et[|et| - 1])
  }

  // A "|" between pivots and edges.
  function method OfTable(pt: PivotTable, et: EdgeTable): Words
  {
    OfElements(pt) + ["|"] + OfEdges(et)
  }

  // Key and number of each entry.
  function method OfEntries(keys: seq<Key>, msgs: seq<uint32>): Words
  {
    if keys == [] then []
    else
      var last := |keys| - 1;
      OfEntries(keys[..last], msgs[..last]) + OfKey(keys[last]) + OfNumber(msgs[last] as int)
  }

  function method OfBucket(bucket: Bucket): Words
  {
    OfEntries(bucket.keys, bucket.msgs)
  }

  // A "|" before each bucket.
  function method OfBuckets(blist: BucketList): Words
  {
    if blist == [] then []
    else OfBuckets(blist[..|blist| - 1]) + ["|"] + OfBucket(blist[|blist| - 1])
  }
}
