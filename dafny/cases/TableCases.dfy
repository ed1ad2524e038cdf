// What the source says of a table, a key and a place.

module TableCases {
  import opened NativeTypes
  import opened KeyType
  import opened BoundedPivotsLib
  import opened TranslationLib
  import opened Randoms
  import opened Report
  import T = Text
  import Causes
  import Tables

  method OfTable(r: Random, pt: PivotTable, et: EdgeTable)
    modifies r
  {
    Input("pt", T.OfElements(pt));
    Input("et", T.OfEdges(et));
    OfPivots(pt);
    OfEdges(pt, et);
    var key := Tables.Asked(r, pt);
    Input("key", T.OfKey(key));
    OfKey(pt, key);
    OfCuts(pt, key);
    OfCutEdges(pt, et, key);
    OfInsertion(pt, et, key);
    OfTranslation(pt, et, key);
    OfPlace(r, pt, et, key);
  }

  method OfPivots(pt: PivotTable)
  {
    var cause := Causes.OfPivots(pt);
    Result("ElementsAreKeys", 0, T.OfBool(ElementsAreKeys(pt)));
    Result("WFPivots", cause, if |pt| <= Causes.MaxPivots then T.OfBool(WFPivots(pt)) else []);
    Result("ContainsAllKeys", cause,
      if |pt| <= Causes.MaxPivots then T.OfBool(ContainsAllKeys(pt)) else []);
    Result("NumBuckets", cause, T.OfNumber(NumBuckets(pt)));
    if cause == 0 {
      var all := ComputeContainsAllKeys(pt);
      Result("ComputeContainsAllKeys", cause, T.OfBool(all));
    }
  }

  method OfEdges(pt: PivotTable, et: EdgeTable)
  {
    var cause := Causes.OfTable(pt, et);
    var lent := Causes.First(Causes.OfPivots(pt), Causes.OfEdges(et));
    Result("WFEdges", cause, if lent == 0 then T.OfBool(WFEdges(et, pt)) else []);
  }

  method OfKey(pt: PivotTable, key: Key)
  {
    var cause := Causes.First(Causes.OfPivots(pt), Causes.OfKey(key));
    Result("KeyToElement", Causes.OfKey(key), T.OfElement(KeyToElement(key)));
    Result("BoundedKey", cause, if cause == 0 then T.OfBool(BoundedKey(pt, key)) else []);
    Result("ValidLeftCutOffKey", cause,
      if cause == 0 then T.OfBool(ValidLeftCutOffKey(pt, key)) else []);
    if cause == 0 {
      var bounded := ComputeBoundedKey(pt, key);
      Result("ComputeBoundedKey", cause, T.OfBool(bounded));
      var valid := ComputeValidLeftCutOffKey(pt, key);
      Result("ComputeValidLeftCutOffKey", cause, T.OfBool(valid));
    }
    var inside := Causes.OfBounded(cause, pt, key);
    Result("Route", inside, if inside == 0 then T.OfNumber(Route(pt, key)) else []);
    if inside == 0 {
      var slot := ComputeRoute(pt, key);
      Result("ComputeRoute", inside, T.OfNumber(slot as int));
    }
  }

  // The place is an argument in the source, and found by the call: it is the one behind the pivots
  // below the key. By change request W1 the edges are those of the two cuts at the key.
  method OfInsertion(pt: PivotTable, et: EdgeTable, key: Key)
  {
    var cause := Causes.OfInsertion(pt, et, key);
    var inserted: T.Words := [];
    if cause == 0 {
      var place := Keyspace.LargestLt(pt, KeyToElement(key)) + 1;
      Input("place", T.OfNumber(place));
      var edges := SplitLeftEdges(et, pt, key) + SplitRightEdges(et, pt, key);
      inserted := T.OfTable(InsertPivot(pt, place, key), edges);
    }
    Result("InsertPivot", cause, inserted);
  }

  method OfCuts(pt: PivotTable, key: Key)
  {
    var left := Causes.OfLeftCut(Causes.OfPivots(pt), pt, key);
    Result("CutoffForLeft", left, if left == 0 then T.OfNumber(CutoffForLeft(pt, key)) else []);
    Result("SplitLeft", left, if left == 0 then T.OfElements(SplitLeft(pt, key)) else []);
    if left == 0 {
      var slot := ComputeCutoffForLeft(pt, key);
      Result("ComputeCutoffForLeft", left, T.OfNumber(slot as int));
      var cut := ComputeSplitLeft(pt, key, slot);
      Result("ComputeSplitLeft", left, T.OfElements(cut));
    }
    var right := Causes.OfBounded(Causes.OfPivots(pt), pt, key);
    Result("CutoffForRight", right, if right == 0 then T.OfNumber(CutoffForRight(pt, key)) else []);
    Result("SplitRight", right, if right == 0 then T.OfElements(SplitRight(pt, key)) else []);
    if right == 0 {
      var slot := ComputeCutoffForRight(pt, key);
      Result("ComputeCutoffForRight", right, T.OfNumber(slot as int));
      var cut := ComputeSplitRight(pt, key, slot);
      Result("ComputeSplitRight", right, T.OfElements(cut));
    }
  }

  // With the pivots that the call writes beside them.
  method OfCutEdges(pt: PivotTable, et: EdgeTable, key: Key)
  {
    var left := Causes.OfLeftCut(Causes.OfTable(pt, et), pt, key);
    Result("SplitLeftEdges", left,
      if left == 0 then T.OfTable(SplitLeft(pt, key), SplitLeftEdges(et, pt, key)) else []);
    var right := Causes.OfBounded(Causes.OfTable(pt, et), pt, key);
    Result("SplitRightEdges", right,
      if right == 0 then T.OfTable(SplitRight(pt, key), SplitRightEdges(et, pt, key)) else []);
  }

  method OfTranslation(pt: PivotTable, et: EdgeTable, key: Key)
  {
    var cause := Causes.OfBounded(Causes.OfTable(pt, et), pt, key);
    Result("Translate", cause, if cause == 0 then T.OfPair(Translate(pt, et, key)) else []);
    Result("TranslateKey", cause, if cause == 0 then T.OfKey(TranslateKey(pt, et, key)) else []);
  }

  // A place: where the key belongs, before or behind all pivots, or any up to one past them.
  method Place(r: Random, pt: PivotTable, key: Key) returns (idx: int)
    modifies r
  {
    var kind := r.Below(6);
    var any := r.Place(|pt| + 2);
    var whole := Causes.OfPivots(pt) == 0;
    idx :=
      if kind == 0 then 0
      else if kind == 1 then |pt|
      else if kind == 2 || !whole then any
      else Keyspace.LargestLt(pt, KeyToElement(key)) + 1;
  }

  method OfPlace(r: Random, pt: PivotTable, et: EdgeTable, key: Key)
    modifies r
  {
    var idx := Place(r, pt, key);
    var cause := Causes.First(Causes.OfPivots(pt), Causes.OfKey(key));
    Input("idx", T.OfNumber(idx));
    Result("PivotInsertable", cause,
      if cause == 0 then T.OfBool(PivotInsertable(pt, idx, key)) else []);
    if cause == 0 {
      var insertable := ComputePivotInsertable(pt, idx as uint64, key);
      Result("ComputePivotInsertable", cause, T.OfBool(insertable));
    }
    OfPivotAt(pt, idx);
    cause := Causes.OfTable(pt, et);
    if cause != 0 || idx < |et| {
      Result("TranslateEdges", cause,
        if cause == 0 then T.OfEdges(TranslateEdges(et, pt, idx)) else []);
    }
  }

  method OfPivotAt(pt: PivotTable, idx: nat)
  {
    var cause := Causes.OfPivots(pt);
    if cause == 0 && idx < NumBuckets(pt) {
      Result("NonEmptyLcp", cause, T.OfBool(NonEmptyLcp(pt, idx)));
    }
    cause := if cause != 0 then cause else Causes.Unless(idx < |pt| && pt[idx].Element?, 6);
    Result("GetKey", cause, if cause == 0 then T.OfKey(GetKey(pt, idx)) else []);
    if cause == 0 {
      var key := ComputeGetKey(pt, idx as uint64);
      Result("ComputeGetKey", cause, T.OfKey(key));
    }
  }
}
