// Tables at random: 2 to 8 pivots, some of 64, with edges where they may stand; some with a fault.

module Tables {
  import opened NativeTypes
  import opened Options
  import opened KeyType
  import opened BoundedPivotsLib
  import opened TranslationLib
  import opened Randoms
  import Causes
  import Keys

  // The key put in where it belongs, unless it is there.
  function method Sorted(pt: PivotTable, e: Element): PivotTable
  {
    if e in pt then pt
    else
      var at := Keyspace.LargestLt(pt, e) + 1;
      pt[..at] + [e] + pt[at..]
  }

  // Pivots that are near a key, as many as asked for where tries find them; the last may be max.
  method PivotsNear(r: Random, key: Key, count: int) returns (pt: PivotTable)
    modifies r
  {
    pt := [Keyspace.Element(key)];
    var tries := 4 * count;
    while |pt| < count && tries > 0 {
      var from := r.Place(|pt|);
      var near := Keys.Near(r, pt[from].e);
      pt := Sorted(pt, Keyspace.Element(near));
      tries := tries - 1;
    }
    var max := r.OneIn(3);
    if |pt| == 1 {
      pt := pt + [Keyspace.Max_Element];
    } else if max {
      pt := pt[..|pt| - 1] + [Keyspace.Max_Element];
    }
  }

  method Pivots(r: Random) returns (pt: PivotTable)
    modifies r
  {
    var large := r.OneIn(16);
    var count := r.Below(7);
    var key := Keys.Any(r);
    pt := PivotsNear(r, key, if large then Causes.MaxPivots else 2 + count as int);
  }

  method Edges(r: Random, pt: PivotTable) returns (et: EdgeTable)
    modifies r
  {
    et := [];
    while |et| < NumBuckets(pt) {
      var absent := r.OneIn(3);
      var edge := Keys.Any(r);
      et := et + [if absent || !NonEmptyLcp(pt, |et|) then None else Some(edge)];
    }
  }

  // Pivots that aren't well formed, most of them: too few or too many, a wrong mark, a key that is
  // too long, or keys that don't rise.
  method FaultyPivots(r: Random, pt: PivotTable) returns (faulty: PivotTable)
    modifies r
  {
    var kind := r.Below(7);
    var at := r.Place(NumBuckets(pt));
    var any := r.Place(|pt|);
    var long := Keys.Long(r);
    faulty :=
      if kind == 0 then pt[..at % 2]
      else if kind == 1 then Rising(Causes.MaxPivots + 1)
      else if kind == 2 then pt[at := Keyspace.Max_Element]
      else if kind == 3 then pt[any := Keyspace.Element(long)]
      else if kind == 4 then pt[at := pt[at + 1]]
      else if kind == 5 then pt[at := pt[at + 1]][at + 1 := pt[at]]
      else pt + [pt[at]];
  }

  // The keys of one byte from 00 on.
  function method Rising(count: nat): PivotTable
  {
    if count == 0 then [] else Rising(count - 1) + [Keyspace.Element([(count - 1) as byte])]
  }

  // The first slot from a place on, and then from the beginning, whose range has an empty prefix;
  // the place itself if there is none.
  function method EmptySlot(pt: PivotTable, from: int, tries: int): int
  {
    var at := from % NumBuckets(pt);
    if tries == 0 || !NonEmptyLcp(pt, at) then at else EmptySlot(pt, at + 1, tries - 1)
  }

  // Edges that aren't well formed, most of them: one fewer or more, one that is too long, or one
  // where the range's prefix is empty.
  method FaultyEdges(r: Random, pt: PivotTable, et: EdgeTable) returns (faulty: EdgeTable)
    modifies r
  {
    var kind := r.Below(5);
    var at := r.Place(|et|);
    var long := Keys.Long(r);
    var edge := Keys.Any(r);
    faulty :=
      if kind == 0 then et[..at]
      else if kind == 1 then et + [None]
      else if kind == 2 then et[at := Some(long)]
      else et[EmptySlot(pt, at, |et|) := Some(edge)];
  }

  // Pivots, one in eight of them with a fault.
  method Lent(r: Random, pt: PivotTable) returns (lent: PivotTable)
    modifies r
  {
    var faulty := r.OneIn(8);
    lent := pt;
    if faulty {
      lent := FaultyPivots(r, pt);
    }
  }

  // Pivots and edges, one in eight of either with a fault.
  method Table(r: Random) returns (pt: PivotTable, et: EdgeTable)
    modifies r
  {
    pt := Pivots(r);
    et := Edges(r, pt);
    var faulty := r.OneIn(8);
    if faulty {
      et := FaultyEdges(r, pt, et);
    }
    pt := Lent(r, pt);
  }

  // A key to ask of pivots: a pivot, near one, behind one, or any; a few are too long.
  method Asked(r: Random, pt: PivotTable) returns (key: Key)
    modifies r
  {
    var kind := r.Below(8);
    var at := r.Place(|pt| + 1);
    key := Keys.Any(r);
    if kind < 7 && at < |pt| && pt[at].Element? {
      key := if kind < 5 then pt[at].e else Keys.Fitting(pt[at].e + key);
      if kind > 1 {
        key := Keys.Near(r, key);
      }
    }
    key := Keys.Lent(r, key);
  }
}
