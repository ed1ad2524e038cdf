// What the source says of a parent's slot and a child.

module ParentCases {
  import opened Options
  import opened BoundedPivotsLib
  import opened TranslationLib
  import opened Randoms
  import opened Report
  import T = Text
  import Causes
  import Keys
  import Tables

  // A child near the slot's range as the child sees it, so that yes and no both come.
  method Child(r: Random, left: Element, right: Element) returns (child: PivotTable)
    modifies r
  {
    var first := Keys.Near(r, left.e);
    var last := Keys.ElementNear(r, if right.Element? then right.e else left.e);
    var asked := r.Below(4);
    var low := if asked % 2 == 0 then left else Keyspace.Element(first);
    var high := if asked < 2 then right else last;
    child := [low, high];
  }

  method OfParent(r: Random, pt: PivotTable, et: EdgeTable)
    modifies r
  {
    var cause := Causes.OfTable(pt, et);
    var slot := r.Place(|et| + 2);
    var produced := 0;
    Input("slot", T.OfNumber(slot));
    var child := Tables.Pivots(r);
    child := Tables.Lent(r, child);
    if cause == 0 && slot < |et| {
      var left, right := OfSlot(pt, et, slot);
      produced := Causes.First(Causes.OfProduced(left), Causes.OfProduced(right));
      var other := r.OneIn(3);
      if !other {
        child := Child(r, left, right);
      }
    }
    Input("child", T.OfElements(child));
    cause := Causes.First(cause, Causes.OfPivots(child));
    cause := Causes.First(cause, Causes.First(Causes.Unless(slot < |et|, 6), produced));
    Result("ParentKeysInChildRange", cause,
      if cause == 0 then T.OfBool(ParentKeysInChildRange(pt, et, child, slot)) else []);
  }

  // The slot's range as the child sees it.
  method OfSlot(pt: PivotTable, et: EdgeTable, slot: int) returns (left: Element, right: Element)
  {
    left, right := pt[slot], pt[slot + 1];
    if et[slot].Some? {
      var pair := TranslatePivotPair(pt, et, slot);
      left, right := pair.0, pair.1;
      Result("TranslatePivotPair", 0, T.OfElements([left, right]));
    }
  }
}
