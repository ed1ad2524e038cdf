//! Every function of the archive has its call, and the call a row in `vectors.rs`, which runs the cases of the
//! folder `vectors`; that each call has a case is a group of the comparison.
use std::fs;
use std::path::Path;

/// The files of a folder of this package whose names begin so, as one text.
fn text(folder: &str, begins: &str) -> String {
    let folder = Path::new(env!("CARGO_MANIFEST_DIR")).join(folder);
    let entries = fs::read_dir(folder).expect("the folder");
    let paths = entries.map(|entry| entry.expect("an entry").path());
    let named = paths.filter(|path| {
        let name = path.file_name().and_then(|name| name.to_str());
        path.is_file() && name.is_some_and(|name| name.starts_with(begins))
    });
    let texts = named.map(|path| fs::read_to_string(path).expect("a text"));
    texts.collect()
}

#[test]
fn each_call_has_its_row() {
    let declared = text("src", "raw.rs") + &text("src/raw", "");
    let names = declared.split("pub fn jd_").skip(1);
    let names: Vec<&str> = names.filter_map(|rest| rest.split('(').next()).collect();
    assert!(!names.is_empty());
    let rows = text("tests", "vectors.rs");
    for name in names {
        assert!(
            rows.contains(&format!("\n    {name}(")),
            "no row calls {name}"
        );
    }
}
