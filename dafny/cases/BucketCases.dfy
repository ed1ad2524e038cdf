// What the source says of buckets, and of the keys that a table's buckets hold.

module BucketCases {
  import opened NativeTypes
  import opened KeyType
  import opened BoundedPivotsLib
  import opened TranslationLib
  import opened BucketsLib
  import opened Randoms
  import opened Report
  import T = Text
  import Causes
  import Keys
  import Tables
  import RangeCases

  method Number(r: Random) returns (number: uint32)
    modifies r
  {
    var high := r.Below(0x1_0000);
    var low := r.Below(0x1_0000);
    number := (high * 0x1_0000 + low) as uint32;
  }

  // Entries near a key, in any order; now and then one that is too long.
  method BucketNear(r: Random, key: Key, count: int) returns (bucket: Bucket)
    modifies r
  {
    bucket := Bucket([], []);
    var long := r.OneIn(16);
    while |bucket.keys| < count {
      var behind := r.OneIn(2);
      var more := Keys.Any(r);
      var near := Keys.Near(r, if behind then Keys.Fitting(key + more) else key);
      if long {
        near := Keys.Lent(r, near);
      }
      var number := Number(r);
      bucket := Bucket(bucket.keys + [near], bucket.msgs + [number]);
    }
  }

  // 0 to 8 entries, and now and then as many as there may be, or one more.
  method OfBucket(r: Random)
    modifies r
  {
    var large := r.OneIn(512);
    var count := r.Below(if large then 2 else 9);
    var key := Keys.Any(r);
    var bucket := BucketNear(r, key, if large then Causes.MaxEntries + count as int else count as int);
    var prefix, newPrefix := RangeCases.Prefixes(r, key);
    Input("bucket", T.OfBucket(bucket));
    var cause := Causes.First(Causes.OfBucket(bucket), Causes.OfPrefixes(prefix, newPrefix));
    Result("TranslateBucket", cause,
      if cause == 0 then T.OfBucket(TranslateBucket(bucket, prefix, newPrefix)) else []);
    var idx := r.Place(|bucket.keys| + 1);
    Input("idx", T.OfNumber(idx));
    if cause == 0 {
      var tbucket := TranslateBucketInternal(bucket, prefix, newPrefix, idx);
      Result("TranslateBucketInternal", cause, T.OfBucket(tbucket.b));
    }
  }

  // Keys by a table, sorted mostly, and mostly such as it bounds; now and then the last one twice.
  method OfKeys(r: Random, pt: PivotTable)
    modifies r
  {
    var sorted := r.Below(8);
    var inside := r.Below(4);
    var count := r.Place(6);
    var keys: PivotTable := [];
    while count > 0 {
      var key := Tables.Asked(r, pt);
      var wanted := inside == 0 || Causes.OfBounded(Causes.OfPivots(pt), pt, key) == 0;
      var e := Keyspace.Element(key);
      keys := if !wanted then keys else if sorted > 0 then Tables.Sorted(keys, e) else keys + [e];
      count := count - 1;
    }
    if sorted == 1 && keys != [] {
      keys := keys + [keys[|keys| - 1]];
    }
    OfKeySeq(r, pt, Bare(keys));
  }

  function method Bare(keys: PivotTable): seq<Key>
  {
    if keys == [] then [] else Bare(keys[..|keys| - 1]) + [keys[|keys| - 1].e]
  }

  method OfKeySeq(r: Random, pt: PivotTable, keys: seq<Key>)
    modifies r
  {
    Input("keys", T.OfKeys(keys));
    var fit := Causes.Unless(forall i | 0 <= i < |keys| :: |keys[i]| <= MaxLen() as int, 2);
    var cause := Causes.First(Causes.OfPivots(pt), fit);
    Result("BoundedKeySeq", cause, if cause == 0 then T.OfBool(BoundedKeySeq(pt, keys)) else []);
    var rising := Keyspace.Base_Order.IsStrictlySorted(keys);
    cause := if cause != 0 then cause else Causes.Unless(rising, 14);
    Result("BoundedSortedKeySeq", cause,
      if cause == 0 then T.OfBool(BoundedSortedKeySeq(pt, keys)) else []);
    if cause == 0 && BoundedKeySeq(pt, keys) {
      OfBuckets(r, pt, keys);
    }
  }

  // The keys as the buckets of the table's slots: the source's list, and a bucket with its index.
  method OfBuckets(r: Random, pt: PivotTable, keys: seq<Key>)
    modifies r
  {
    var blist := Slots(pt, keys, NumBuckets(pt));
    var key: Key := if keys == [] then [] else keys[0];
    var prefix, newPrefix := RangeCases.Prefixes(r, key);
    Input("buckets", T.OfBuckets(blist));
    var cause := Causes.OfPrefixes(prefix, newPrefix);
    Result("TranslateBuckets", cause,
      if cause == 0 then T.OfBuckets(TranslateBuckets(blist, prefix, newPrefix)) else []);
  }

  // The buckets of the slots below a count; a number is the key's length.
  function method Slots(pt: PivotTable, keys: seq<Key>, count: int): BucketList
  {
    if count == 0 then []
    else Slots(pt, keys, count - 1) + [Slot(pt, keys, count - 1)]
  }

  function method Slot(pt: PivotTable, keys: seq<Key>, slot: int): Bucket
  {
    if keys == [] then Bucket([], [])
    else
      var last := keys[|keys| - 1];
      var before := Slot(pt, keys[..|keys| - 1], slot);
      if Route(pt, last) != slot then before
      else Bucket(before.keys + [last], before.msgs + [|last| as uint32])
  }
}
