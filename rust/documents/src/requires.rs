//! No public function has a `requires`: each takes whatever it is lent.
use crate::functions::{functions, Function};
use crate::report::Report;
use crate::repository::Repository;
use crate::scope::is_in;

pub fn check(repository: &Repository) -> Report {
    let mut report = Report::default();
    let code = |(path, _): &(&str, &str)| is_in(path, "src", ".rt");
    for (path, text) in repository.files().filter(code) {
        for function in functions(text) {
            let place = format!("{path}:{}: {}", function.line, function.name);
            report.thing(&place, faults(&function));
        }
    }
    if report.passed == 0 {
        report.fail("no public function without a `requires` was found in crates".to_string());
    }
    report
}

fn faults(function: &Function) -> Vec<String> {
    let has = function.clauses.iter().any(|clause| clause.is_requires);
    let fault =
        "it is public and has a `requires`: make its contract total, or the function pub(crate)";
    has.then(|| fault.to_string()).into_iter().collect()
}

#[cfg(test)]
mod tests {
    use super::check;
    use crate::repository::Repository;

    const TOTAL: &str = "pub fn least(a: u8) -> u8\n    ensures { result ≡ a }\n{\n    a\n}\n";
    const PARTIAL: &str = "\npub fn first(a: &[u8]) -> u8
    requires { 1 ≤ length a.now }
    ensures { result ≡ get_or a.now 0 0 }
{
    a[0]
}
";

    fn told(files: &[(&str, &str)]) -> (usize, Vec<String>) {
        let report = check(&Repository::of(files));
        (report.passed, report.failures)
    }

    #[test]
    fn a_requires_is_told_with_its_place() {
        let (passed, failures) = told(&[
            ("crates/scan/src/lib.rt", TOTAL),
            ("crates/scan/src/deep/words.rt", PARTIAL),
        ]);
        assert_eq!(passed, 1);
        assert_eq!(failures.len(), 1);
        assert!(failures[0].starts_with("crates/scan/src/deep/words.rt:2: first: it is public"));
    }

    #[test]
    fn functions_of_the_crate_alone_and_other_files_may_have_one() {
        let inner = PARTIAL.replace("pub fn", "pub(crate) fn");
        let files = [
            ("crates/scan/src/lib.rt", TOTAL),
            ("crates/scan/src/words.rt", &inner),
            ("crates/scan/must-fail/words.rt", PARTIAL),
        ];
        assert_eq!(told(&files), (1, vec![]));
    }

    #[test]
    fn where_nothing_is_looked_at_it_fails() {
        let (passed, failures) = told(&[("crates/scan/src/lib.rt", "fn own() {}\n")]);
        assert_eq!((passed, failures.len()), (0, 1));
    }
}
