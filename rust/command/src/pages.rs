//! The commands: what `--help` and the manual page say of each, its options, and what runs it.
use crate::arguments::Arguments;
use crate::failure::Done;
use crate::operands::Operand;
use crate::{bucket, change, check, list, show, table, Streams};

/// A command. Its example is run by a test: lines after `$ `, and what they print.
pub struct Page {
    pub name: &'static str,
    pub usage: &'static str,
    pub about: &'static str,
    pub text: &'static [&'static str],
    pub options: &'static [(&'static str, &'static str)],
    pub operands: &'static [Operand],
    /// Whether it makes of what is read another thing of the kind, which may take its place.
    pub in_place: fn(&Arguments) -> bool,
    pub example: &'static str,
    pub run: fn(&Arguments, &mut Streams) -> Done,
}

/// What holds for all commands.
pub struct Section {
    pub title: &'static str,
    pub text: &'static [&'static str],
}

/// The page of a command.
pub fn page(name: &str) -> Option<&'static Page> {
    PAGES.iter().find(|page| page.name == name)
}

impl Page {
    /// An option without an argument.
    pub fn flag(&self, option: &str) -> Option<&'static str> {
        let mut flags = self.options.iter().map(|(flag, _)| *flag);
        flags.find(|flag| *flag == option)
    }

    /// Whether it takes the option for a file that is written.
    pub fn writes(&self) -> bool {
        self.options.contains(&FILE)
    }

    /// Whether its last argument may be followed by more of the kind.
    pub fn repeats(&self) -> bool {
        self.usage.contains("..")
    }

    /// All options, as they are given, with what they mean.
    pub fn all_options(&self) -> impl Iterator<Item = (&'static str, &'static str)> {
        let given = |&(option, meaning)| match option == FILE.0 {
            true => OUTPUT.map(|option| (option, meaning)).to_vec(),
            false => vec![(option, meaning)],
        };
        self.options.iter().flat_map(given).chain([HELP])
    }
}

const FILE: (&str, &str) = ("-o, --output FILE", "writes to a file, whole or not at all");
/// The short and the long option for that file.
pub const OUTPUT: [&str; 2] = ["-o", "--output"];
const HELP: (&str, &str) = ("--help", "tells how it is used");
const TEXT: (&str, &str) = (
    "--text",
    "takes keys as they are written, not in hexadecimal",
);

/// What can stand in place of a command.
pub const OPTIONS: [(&str, &str); 4] = [
    HELP,
    ("--version", "prints the version"),
    ("--man", "prints the manual page"),
    (
        "--completions",
        "prints what a shell reads to complete words",
    ),
];

pub const PAGES: &[Page] = &[
    Page {
        name: "list",
        usage: "[--short] [--text] TABLE [-o FILE]",
        about: "prints the list of a table",
        text: &[
            "Prints the list of a table, a line for each slot: its number, its bounds, the prefix that all its keys share, and its edge, the prefix that replaces it. It is what list_table writes, byte for byte.",
            "With --short it prints the short form, which is the one to edit: 'joistdenim table' reads it, and tells where a moved bound changes what an edge replaces.",
        ],
        options: &[
            ("--short", "left bounds, edges with what they replace, and the end"),
            ("--text", "adds the keys as characters, behind a #"),
            FILE,
        ],
        operands: &[Operand::File("table")],
        in_place: |_| false,
        example: include_str!("pages/list.txt"),
        run: list::run,
    },
    Page {
        name: "table",
        usage: "[LIST] [-o FILE]",
        about: "makes a table of its list, or of the short form",
        text: &[
            "Makes a table of its list: the way back from 'joistdenim list'. Without LIST, or with -, it reads standard input.",
            "The fields left, right and edge decide. Where slot, shared or a right bound doesn't agree with them, or something can't be read, the line and the column are told.",
            "In the short form a line has left and edge alone, and the last line the end, a key or max. An edge may be OLD>NEW, with what it replaces: where the keys of the slot share something else than OLD, that is told.",
        ],
        options: &[FILE],
        operands: &[Operand::FileOrInput("text")],
        in_place: |_| false,
        example: include_str!("pages/table.txt"),
        run: table::run,
    },
    Page {
        name: "show",
        usage: "[--text] [--tsv] TABLE KEY..",
        about: "shows what becomes of keys",
        text: &[
            "Shows for each key its slot and range, the prefix that the slot's keys share, the edge and the renamed key. What was replaced and what stands in its place is marked by a line below, on a terminal by colour too.",
            "Each argument is one key: 413107, \"41 31 07\" or 41:31:07. One that is refused is told on standard error, and the status is 1. One that can't be read is told there, too, and the status is 2. The others are shown.",
            "With - in place of a key it reads keys from standard input, one a line, and answers each before it reads the next. Blank lines are passed over, and so is what follows a #; the empty key is -. With --text a line is taken as it stands.",
            "From standard input, and with --tsv, each key has its answer on standard output, in its place: a refused one too, and what is no key. Where both outputs are a terminal, what a block says of a line isn't said on standard error again.",
        ],
        options: &[
            TEXT,
            ("--tsv", "a header and a row for each key, fields parted by tabs"),
        ],
        operands: &[Operand::File("table"), Operand::KeyOrInput],
        in_place: |_| false,
        example: include_str!("pages/show.txt"),
        run: show::run,
    },
    Page {
        name: "cut",
        usage: "left|right [--text] TABLE KEY [-o FILE]",
        about: "cuts a table at a key",
        text: &[
            "Writes the table of what lies below the key, the left cut, or from the key on, the right cut. Keys that are kept are renamed as before.",
        ],
        options: &[TEXT, FILE],
        operands: &[Operand::Word(&["left", "right"]), Operand::File("table"), Operand::Key],
        in_place: |_| true,
        example: include_str!("pages/cut.txt"),
        run: change::cut,
    },
    Page {
        name: "insert",
        usage: "[--text] TABLE KEY [-o FILE]",
        about: "puts a key into a table as a new pivot",
        text: &[
            "Writes the table with the key as a new pivot, which divides the slot that it lies in. Every key is renamed as before.",
        ],
        options: &[TEXT, FILE],
        operands: &[Operand::File("table"), Operand::Key],
        in_place: |_| true,
        example: include_str!("pages/insert.txt"),
        run: change::insert,
    },
    Page {
        name: "join",
        usage: "FIRST SECOND [-o FILE]",
        about: "puts two tables together",
        text: &[
            "Writes the table of both, where the first ends with the pivot that the second begins with. Every key is renamed as by the one that it lies in.",
        ],
        options: &[FILE],
        operands: &[Operand::File("table"), Operand::File("table")],
        in_place: |_| true,
        example: include_str!("pages/join.txt"),
        run: change::join,
    },
    Page {
        name: "check",
        usage: "TABLE.. [-o FILE]",
        about: "says whether tables are well formed",
        text: &[
            "Says for each table in turn how large it is, if it is well formed. For any other the refusal is told, and the first pivot or edge that is at fault. With -o nothing is written unless all are well formed.",
        ],
        options: &[FILE],
        operands: &[Operand::File("table")],
        in_place: |_| false,
        example: include_str!("pages/check.txt"),
        run: check::run,
    },
    Page {
        name: "bucket",
        usage: "translate [--text] [--bytes] [--report] OLD NEW BUCKET [-o FILE]",
        about: "renames the keys of a bucket",
        text: &[
            "Writes the entries whose key begins with the prefix OLD, in their order, with NEW in its place, and says on standard error how many were kept and how many skipped. If a renamed key would pass 64 bytes nothing is written, and those that would are told.",
        ],
        options: &[
            ("--text", "takes OLD and NEW as they are written"),
            ("--bytes", "reads and writes entries of 70 bytes, not text"),
            ("--report", "a row for each entry: kept, skipped or too long"),
            FILE,
        ],
        operands: &[Operand::Word(&["translate"]), Operand::Key, Operand::Key, Operand::File("bucket")],
        in_place: |arguments| !arguments.has("--report"),
        example: include_str!("pages/bucket.txt"),
        run: bucket::run,
    },
];

pub const ABOUT: &[Section] = &[
    Section {
        title: "Tables",
        text: &[
            "TABLE is a file with the count of the pivots in two bytes, high byte first, then the pivots and the edges, records of 66 bytes. In its place - is standard input. 'joistdenim table' makes one of text.",
        ],
    },
    Section {
        title: "Keys",
        text: &[
            "A key has at most 64 bytes, here in hexadecimal, two digits a byte. As an argument, or as a line that show reads, it may have spaces or colons between its bytes: \"41 31 07\" or 41:31:07. The empty key is - in texts and for cut, insert and bucket; for show, where - is standard input, and with --text it is ''. The end of a table may be max, which is above every key. In the column of edges - is no edge, and . the empty one.",
        ],
    },
    Section {
        title: "Texts",
        text: &[
            "In lists and buckets spaces may stand for tabs; blank lines are passed over, and so is what follows a #. A bucket has a line for each entry: the key, a tab, and a number.",
        ],
    },
    Section {
        title: "Files",
        text: &[
            "-o FILE is also -oFILE, --output FILE and --output=FILE; - is standard output. FILE is replaced once the result is whole, and only if it may be written to. Where it, or standard output, is one of the files that are read, nothing is done. Only cut, insert, join and bucket translate without --report, which make of a table or bucket another one, may have as FILE what they read.",
        ],
    },
    Section {
        title: "Limits",
        text: &[
            "A table has 2 to 64 pivots, a bucket at most 512 entries, and a key or an edge at most 64 bytes. A text has at most 1,048,576 bytes, with its comments.",
        ],
    },
    Section {
        title: "Exit status",
        text: &[
            "0: done. 1: refused by the library, with 'refused N: what it means' on standard error. 2: wrong usage, or a file that can't be read or written. After 1 and 2 no file is changed. A closed pipe ends the command quietly.",
        ],
    },
    Section {
        title: "Environment",
        text: &["NO_COLOR, if set and not empty, turns colour off; so does TERM, if not set or dumb."],
    },
    Section {
        title: "Completions",
        text: &[
            "'joistdenim --completions SHELL' prints what bash, zsh or fish reads to complete commands, options and files. In bash 'source <(joistdenim --completions bash)' takes it in; for zsh it is kept as _joistdenim in a folder of fpath, and for fish as joistdenim.fish in ~/.config/fish/completions.",
        ],
    },
];
