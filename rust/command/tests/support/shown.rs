//! `show` of T: what it prints of some keys, as arguments and as lines.
use super::{ran, table, Folder, Ran, SHORT_T};

pub const BLOCK: &str = "key      413107
         ^^ replaced
slot     0, from 4130 up to 4135
shared   41
edge     43
renamed  433107
         ^^ in its place
";

pub const UNCHANGED: &str = "key      4135
slot     1, from 4135 up to 42
shared   41
edge     - (none: the key stays as it is)
renamed  4135
";

pub const OUTSIDE: &str = "42 is outside the table, which goes from 4130 up to, but without, 42";

pub const HEADER: &str = "key\tslot\tleft\tright\tshared\tedge\trenamed\trefusal\n";

/// Of T, with these arguments.
pub fn of_t(arguments: &str) -> Ran {
    ran(&arguments.replace('T', "-"), table(SHORT_T))
}

/// Keys on standard input, of T in a file.
pub fn lines(options: &str, input: &[u8]) -> Ran {
    let folder = Folder::new();
    let t = folder.with("t.table", table(SHORT_T));
    ran(&format!("show {options} {t} -"), input)
}

/// A column of rows, its name first.
pub fn column(rows: &Ran, number: usize) -> Vec<&str> {
    let output = std::str::from_utf8(&rows.output).expect("text");
    output
        .lines()
        .map(|row| row.split('\t').nth(number).expect("a field"))
        .collect()
}
