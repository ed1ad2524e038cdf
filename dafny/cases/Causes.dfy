// Which refusal a call owes where a `requires` of the source fails, or a limit that only this library
// has: the number that docs/CALLS.md gives, or 0 where it owes an answer. The source's own predicates
// are asked. That a produced key is too long, 8, is mostly seen from the result that is printed.

module Causes {
  import opened NativeTypes
  import opened Options
  import opened KeyType
  import opened BoundedPivotsLib
  import opened TranslationLib
  import opened BucketsLib

  // Document 01's limits, which the source doesn't have.
  const MaxPivots: int := 64
  const MaxEntries: int := 512

  // Of two arguments, the smaller number; 0 is none. Of these numbers the smaller comes first.
  function method First(a: nat, b: nat): nat
  {
    if a == 0 || (0 < b < a) then b else a
  }

  function method Unless(holds: bool, number: nat): nat
  {
    if holds then 0 else number
  }

  // An argument that is a Key.
  function method OfKey(key: seq<byte>): nat
  {
    Unless(|key| <= MaxLen() as int, 2)
  }

  // An argument that is a Key, or max.
  function method OfElement(e: Element): nat
  {
    Unless(e.Element? ==> ElementIsKey(e), 2)
  }

  // A bound that is produced on the way, which the source says is a key or max.
  function method OfProduced(e: Element): nat
  {
    Unless(e.Element? ==> ElementIsKey(e), 8)
  }

  function method OfPair(pset: Option<PrefixSet>): nat
  {
    if pset.None? then 0 else First(OfKey(pset.value.prefix), OfKey(pset.value.newPrefix))
  }

  // WFPivots, taken apart; the source has no upper limit of the count.
  function method OfPivots(pt: PivotTable): nat
  {
    if !(2 <= |pt| <= MaxPivots) then 1
    else if !ElementsAreKeys(pt) || exists i | 0 <= i < NumBuckets(pt) :: pt[i].Max_Element? then 2
    else Unless(Keyspace.IsStrictlySorted(pt), 3)
  }

  // Edges whose values are Keys.
  function method OfEdges(et: EdgeTable): nat
  {
    Unless(forall i | 0 <= i < |et| && et[i].Some? :: |et[i].value| <= MaxLen() as int, 2)
  }

  // WFPivots and WFEdges, taken apart.
  function method OfTable(pt: PivotTable, et: EdgeTable): nat
  {
    var edges := if |et| != NumBuckets(pt) then 1 else OfEdges(et);
    var both := First(OfPivots(pt), edges);
    if both != 0 then both else Unless(WFEdges(et, pt), 4)
  }

  // BoundedKey, once what is lent is well formed.
  function method OfBounded(lent: nat, pt: PivotTable, key: Key): nat
  {
    var all := First(lent, OfKey(key));
    if all != 0 then all else Unless(BoundedKey(pt, key), 5)
  }

  // ValidLeftCutOffKey, once what is lent is well formed.
  function method OfLeftCut(lent: nat, pt: PivotTable, key: Key): nat
  {
    var all := First(lent, OfKey(key));
    if all != 0 then all else Unless(ValidLeftCutOffKey(pt, key), 5)
  }

  // A left key below a right element, once what is lent is well formed.
  function method OfRange(lent: nat, left: Key, right: Element): nat
  {
    var all := First(lent, First(OfKey(left), OfElement(right)));
    if all != 0 then all else Unless(Keyspace.lt(KeyToElement(left), right), 9)
  }

  // Change request W1: 5 outside the first and the last pivot, where the source would insert too, 11
  // at a pivot, 12 past 64 pivots.
  function method OfInsertion(pt: PivotTable, et: EdgeTable, key: Key): nat
  {
    var all := First(OfTable(pt, et), OfKey(key));
    if all != 0 then all
    else if !BoundedKey(pt, key) && !ValidLeftCutOffKey(pt, key) then 5
    else if KeyToElement(key) in pt then 11
    else Unless(|pt| < MaxPivots, 12)
  }

  function method OfPrefixes(prefix: Key, newPrefix: Key): nat
  {
    First(OfKey(prefix), OfKey(newPrefix))
  }

  function method OfBucket(bucket: Bucket): nat
  {
    if |bucket.keys| > MaxEntries then 1
    else Unless(forall i | 0 <= i < |bucket.keys| :: |bucket.keys[i]| <= MaxLen() as int, 2)
  }
}
