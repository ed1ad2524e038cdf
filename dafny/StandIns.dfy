// Stands in for the modules that the source includes and docs/src doesn't have, in document 01's
// meaning: what stands in quotes above a name is document 01's sentence. Where it has none, that is
// said.

// "bounded numbers under the limits above"; a key is made of bytes, and a bucket has "a four-byte
// number" for each key.
module NativeTypes {
  newtype{:nativeType "byte"} byte = i: int | 0 <= i < 0x100
  newtype{:nativeType "uint"} uint32 = i: int | 0 <= i < 0x1_0000_0000
  newtype{:nativeType "ulong"} uint64 = i: int | 0 <= i < 0x1_0000_0000_0000_0000

  // Not in document 01: one more than the largest byte, which is FF there.
  function method Uint8UpperBound(): uint64
  {
    0x100
  }
}

// An edge is a key or "no edge"; a pair is a state "with a flag", there or absent.
module Options {
  datatype Option<V> = None | Some(value: V)
}

module Sequences {
  // "IsPrefix says that the first bytes agree."
  predicate method {:opaque} IsPrefix<T(==)>(a: seq<T>, b: seq<T>)
  {
    |a| <= |b| && a == b[..|a|]
  }

  // Document 01 gives it no meaning. Change request W1 "puts a key inside the first and last pivot
  // as a new pivot": here at this place, before what stands there.
  function method insert<T>(s: seq<T>, x: T, at: int): seq<T>
  {
    s[..at] + [x] + s[at..]
  }

  // Not in document 01; by their names.
  function method Last<T>(s: seq<T>): T
  {
    s[|s| - 1]
  }

  function method DropLast<T>(s: seq<T>): seq<T>
  {
    s[..|s| - 1]
  }
}

module KeyType {
  import opened NativeTypes

  // "Here a key is 0 to 64 bytes". The limit of a type isn't looked at when a program runs, so a
  // function can give a longer key.
  type Key = s: seq<byte> | |s| <= MaxLen() as int

  function method MaxLen(): uint64
  {
    64
  }
}

// "Order is by the first differing byte, a proper prefix comes first"
module SeqComparison {
  import opened NativeTypes

  predicate method {:opaque} lte(a: seq<byte>, b: seq<byte>)
  {
    if a == [] then true
    else if b == [] then false
    else if a[0] != b[0] then a[0] < b[0]
    else lte(a[1..], b[1..])
  }

  predicate method lt(a: seq<byte>, b: seq<byte>)
  {
    a != b && lte(a, b)
  }
}

// "rise strictly", of keys.
module Lexicographic_Byte_Order {
  import opened NativeTypes
  import SeqComparison

  predicate method IsStrictlySorted(keys: seq<seq<byte>>)
  {
    forall i | 0 <= i < |keys| - 1 :: SeqComparison.lt(keys[i], keys[i + 1])
  }
}

module Upperbounded_Lexicographic_Byte_Order {
  import opened KeyType
  import SeqComparison
  import Base_Order = Lexicographic_Byte_Order

  datatype Element = Element(e: Key) | Max_Element

  // "max is above every key"
  predicate method lte(a: Element, b: Element)
  {
    b.Max_Element? || (a.Element? && SeqComparison.lte(a.e, b.e))
  }

  predicate method lt(a: Element, b: Element)
  {
    a != b && lte(a, b)
  }

  // "rise strictly", of pivots.
  predicate method {:opaque} IsStrictlySorted(run: seq<Element>)
  {
    forall i | 0 <= i < |run| - 1 :: lt(run[i], run[i + 1])
  }

  // "LargestLte and LargestLt give the last place not above, or below."
  function method LargestLte(run: seq<Element>, needle: Element): int
  {
    if run == [] || lte(run[|run| - 1], needle) then |run| - 1
    else LargestLte(run[..|run| - 1], needle)
  }

  function method LargestLt(run: seq<Element>, needle: Element): int
  {
    if run == [] || lt(run[|run| - 1], needle) then |run| - 1
    else LargestLt(run[..|run| - 1], needle)
  }
}

module Upperbounded_Lexicographic_Byte_Order_Impl {
  import Ord = Upperbounded_Lexicographic_Byte_Order

  // "Compare answers −1, 0 or 1; max equals max."
  function method cmp(a: Ord.Element, b: Ord.Element): int
  {
    if a == b then 0 else if Ord.lt(a, b) then -1 else 1
  }

  // What the methods compute is what the functions are.
  function method ComputeLargestLte(run: seq<Ord.Element>, needle: Ord.Element): int
  {
    Ord.LargestLte(run, needle)
  }

  function method ComputeLargestLt(run: seq<Ord.Element>, needle: Ord.Element): int
  {
    Ord.LargestLt(run, needle)
  }
}

module BucketsLib {
  import opened NativeTypes
  import opened KeyType

  // "entries of 70 bytes, a key record and a four-byte number"; "Entries may be in any order."
  datatype Bucket = Bucket(keys: seq<Key>, msgs: seq<uint32>)
  type BucketList = seq<Bucket>

  // "PreWFBucket, WFBucket, BucketWellMarshalled and EncodableMessageSeq have no body in the
  // files", nor has BucketListWellMarshalled; none is made up. Only clauses use them, and no clause
  // is run.
  predicate {:axiom} PreWFBucket(bucket: Bucket)
  predicate {:axiom} WFBucket(bucket: Bucket)
  predicate {:axiom} BucketWellMarshalled(bucket: Bucket)
  predicate {:axiom} BucketListWellMarshalled(blist: BucketList)
}

module TranslationApply {
  import opened KeyType

  // "Changing prefix p to q in k gives q followed by k without its first |p| bytes."
  function method changePrefix(prefix: Key, newPrefix: Key, key: Key): Key
  {
    newPrefix + key[|prefix|..]
  }
}

// Not in document 01: imported, and nothing of it is used.
module MapSeqs {
}
