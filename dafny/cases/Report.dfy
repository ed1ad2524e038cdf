// The lines that are printed: an input by its name, a result by the function's, with the refusal
// that is owed.

module Report {
  import Text

  method Input(name: string, words: Text.Words)
  {
    Line(name, words);
  }

  method Result(name: string, cause: nat, words: Text.Words)
  {
    Line("= " + name, Text.OfNumber(cause) + words);
  }

  // Each print is a write, so words are put together; but a long text is slow to make.
  method Line(head: string, words: Text.Words)
  {
    var text := head;
    var i := 0;
    while i < |words| {
      if |text| > 1000 {
        print text;
        text := "";
      }
      text := text + " " + words[i];
      i := i + 1;
    }
    print text + "\n";
  }
}
