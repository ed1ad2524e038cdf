// Random numbers that a seed decides: Lehmer's generator, modulo 2^31 - 1.

module Randoms {
  import opened NativeTypes

  class Random {
    var state: uint64

    // A state is never 0, since a seed has at most nine digits.
    constructor (seed: uint64)
    {
      state := seed + 1;
    }

    // Of numbers up to 2^16: the larger ones would be uneven.
    method Below(n: uint64) returns (number: uint64)
      modifies this
    {
      state := state * 48271 % 0x7FFF_FFFF;
      number := state / 8 % n;
    }

    method OneIn(n: uint64) returns (yes: bool)
      modifies this
    {
      var number := Below(n);
      yes := number == 0;
    }

    // One of 0 up to a length.
    method Place(length: int) returns (place: int)
      modifies this
    {
      var number := Below(length as uint64);
      place := number as int;
    }
  }
}
