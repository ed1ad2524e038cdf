use crate::source::{items, Item, Kind};

fn found(text: &str) -> Vec<(usize, Kind, String)> {
    let parts = |item: Item| (item.line, item.kind, item.text);
    items(text).into_iter().map(parts).collect()
}

fn expected(items: &[(usize, Kind, &str)]) -> Vec<(usize, Kind, String)> {
    let owned = |(line, kind, text): &(usize, Kind, &str)| (*line, *kind, text.to_string());
    items.iter().map(owned).collect()
}

#[test]
fn declarations() {
    let text = "module M {
  type EdgeTable = seq<Option<Key>>
  datatype P = P(prefix: Key)
  function method {:opaque} F(pt: PivotTable,
    key: Key)  : int
  requires WFPivots(pt)
  {
    function of the body
    requires of the body
  }
  method M(e: Element)
  returns (b: bool)
  { }
  predicate Q(e: Element)
  {
  }
}
";
    let wanted = [
        (2, Kind::Declaration, "type EdgeTable = seq<Option<Key>>"),
        (3, Kind::Declaration, "datatype P = P(prefix: Key)"),
        (
            4,
            Kind::Declaration,
            "function method {:opaque} F(pt: PivotTable, key: Key) : int",
        ),
        (6, Kind::Requires, "requires WFPivots(pt)"),
        (
            11,
            Kind::Declaration,
            "method M(e: Element) returns (b: bool)",
        ),
        (14, Kind::Declaration, "predicate Q(e: Element)"),
    ];
    assert_eq!(found(text), expected(&wanted));
}

#[test]
fn clauses_heads_and_parts() {
    let text = "  requires a.Some? ==>
    ( IsPrefix(a, b)
    || IsPrefix(b, a))
  ensures upper.Element? ==> (
    && ElementIsKey(upper)
    && lcp(prefix,
       upper.e) == prefix
  )
  ensures  Last(pt') == end

  no clause
";
    let wanted = [
        (
            1,
            Kind::Requires,
            "requires a.Some? ==> ( IsPrefix(a, b) || IsPrefix(b, a))",
        ),
        (4, Kind::Head, "ensures upper.Element? ==> ("),
        (5, Kind::Ensures, "&& ElementIsKey(upper)"),
        (6, Kind::Ensures, "&& lcp(prefix, upper.e) == prefix )"),
        (9, Kind::Ensures, "ensures Last(pt') == end"),
    ];
    assert_eq!(found(text), expected(&wanted));
}

#[test]
fn a_method_in_a_comment() {
    let text = "  // function of keys, in words
  // method M(blist: B)
  // requires InvLseq(blist)
  // ensures Inv(blist) ==
  //   I(blist)
  // {
  //   while i < 3
  //     invariant 0 <= i
  // }
";
    let wanted = [
        (1, Kind::Comment, "function of keys, in words"),
        (2, Kind::Declaration, "method M(blist: B)"),
        (3, Kind::Requires, "requires InvLseq(blist)"),
        (4, Kind::Ensures, "ensures Inv(blist) == I(blist)"),
        (6, Kind::Comment, "{"),
        (7, Kind::Comment, "while i < 3"),
        (8, Kind::Comment, "invariant 0 <= i"),
        (9, Kind::Comment, "}"),
    ];
    assert_eq!(found(text), expected(&wanted));
}

#[test]
fn a_comment_in_a_body() {
    let text = "  {\n    // why\n  }\n";
    assert_eq!(found(text), expected(&[(2, Kind::Comment, "why")]));
}
