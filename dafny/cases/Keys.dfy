// Keys, prefixes and elements at random: of 0 to 64 bytes, many near each other, a few too long.

module Keys {
  import opened NativeTypes
  import opened KeyType
  import opened BoundedPivotsLib
  import opened Randoms

  // Any byte, or one at which the rules turn.
  method Byte(r: Random) returns (b: byte)
    modifies r
  {
    var turns := [0x00, 0x01, 0x41, 0x42, 0xFE, 0xFF];
    var any := r.OneIn(4);
    if any {
      var number := r.Below(0x100);
      b := number as byte;
    } else {
      var place := r.Place(|turns|);
      b := turns[place];
    }
  }

  method Bytes(r: Random, length: uint64) returns (bytes: Key)
    modifies r
  {
    bytes := [];
    while |bytes| < length as int {
      var b := Byte(r);
      bytes := bytes + [b];
    }
  }

  // Short, of any length, or at the limit.
  method Any(r: Random) returns (key: Key)
    modifies r
  {
    var kind := r.Below(4);
    var more := r.Below(if kind < 2 then 5 else if kind == 2 then 65 else 4);
    key := Bytes(r, if kind == 3 then 61 + more else more);
  }

  // A prefix of a key, the whole key included.
  method Prefix(r: Random, key: Key) returns (prefix: Key)
    modifies r
  {
    var length := r.Place(|key| + 1);
    prefix := key[..length];
  }

  // Without the bytes past the limit.
  function method Fitting(key: Key): Key
  {
    if |key| > MaxLen() as int then key[..MaxLen() as int] else key
  }

  // The last byte one up or down, where there is such a byte.
  function method Beside(key: Key, up: bool): Key
  {
    if key == [] then key
    else
      var last := key[|key| - 1];
      var beside :=
        if up && last < 0xFF then last + 1
        else if !up && last > 0 then last - 1
        else last;
      key[..|key| - 1] + [beside]
  }

  // A byte more or fewer, another last byte, FF behind it, or another end.
  method Changed(r: Random, key: Key) returns (near: Key)
    modifies r
  {
    var kind := r.Below(6);
    var b := Byte(r);
    if kind == 0 {
      near := key + [b];
    } else if kind == 1 {
      near := if key == [] then key else key[..|key| - 1];
    } else if kind < 4 {
      near := Beside(key, kind == 2);
    } else if kind == 4 {
      near := key + [0xFF, 0xFF][..1 + b as int % 2];
    } else {
      near := Prefix(r, key);
      near := near + [b];
    }
    near := Fitting(near);
  }

  // Up to three changes away.
  method Near(r: Random, key: Key) returns (near: Key)
    modifies r
  {
    var changes := r.Below(4);
    near := key;
    while changes > 0 {
      near := Changed(r, near);
      changes := changes - 1;
    }
  }

  // 65 to 68 bytes.
  method Long(r: Random) returns (bytes: Key)
    modifies r
  {
    var more := r.Below(4);
    bytes := Bytes(r, 65 + more);
  }

  // A key, and now and then one that is too long.
  method Lent(r: Random, key: Key) returns (lent: Key)
    modifies r
  {
    var long := r.OneIn(32);
    if long {
      lent := Long(r);
    } else {
      lent := key;
    }
  }

  // An old prefix, which mostly begins a key, and a new one.
  method Prefixes(r: Random, key: Key) returns (prefix: Key, newPrefix: Key)
    modifies r
  {
    prefix := Prefix(r, key);
    var wrong := r.OneIn(8);
    if wrong {
      prefix := Near(r, prefix);
    }
    prefix := Lent(r, prefix);
    newPrefix := Any(r);
    newPrefix := Lent(r, newPrefix);
  }

  method ElementNear(r: Random, key: Key) returns (e: Element)
    modifies r
  {
    var max := r.OneIn(4);
    var near := Near(r, key);
    near := Lent(r, near);
    e := if max then Keyspace.Max_Element else Keyspace.Element(near);
  }
}
