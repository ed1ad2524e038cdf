// Runs the source's functions on inputs at random, and prints both. Settings has the seed and the
// number of rounds. Nothing of the program is verified; it claims nothing, and only draws and prints.

module Cases {
  import opened BoundedPivotsLib
  import opened Randoms
  import opened Report
  import T = Text
  import Tables
  import TableCases
  import RangeCases
  import PairCases
  import BucketCases
  import ParentCases
  import Settings

  method Main()
  {
    Result("InitPivotTable", 0, T.OfElements(InitPivotTable()));
    var r := new Random(Settings.Seed());
    var round := 0;
    while round < Settings.Rounds() {
      var pt, et := Tables.Table(r);
      TableCases.OfTable(r, pt, et);
      RangeCases.OfRange(r, pt);
      RangeCases.OfPivots(r, pt);
      PairCases.OfPairs(r);
      BucketCases.OfBucket(r);
      BucketCases.OfKeys(r, pt);
      ParentCases.OfParent(r, pt, et);
      round := round + 1;
    }
  }
}
