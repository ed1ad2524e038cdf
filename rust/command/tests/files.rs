//! Files, by the program itself: what is written whole or not at all, a full disk, and files that
//! can't be read or written.
mod support;

use std::fs;
use std::os::unix::fs::{chown, symlink, MetadataExt, PermissionsExt};
use std::os::unix::process::CommandExt;
use std::process::{Command, Output};
use support::{errors, failed, folder, quiet, shell, table, Folder, LIST_OF_T, SHORT_T};

#[test]
fn a_result_goes_into_a_file() {
    let folder = folder();
    let cut = shell(
        "joistdenim cut left t.table 4131 -o low.table",
        folder.path(),
    );
    quiet(&cut);
    assert_eq!(cut.stdout, b"");
    let low = fs::read(folder.at("low.table")).expect("the result");
    assert_eq!(low, table("4130 4330\n4131\n"));
    let listed = shell("joistdenim list -o t.txt t.table", folder.path());
    quiet(&listed);
    assert_eq!(
        fs::read(folder.at("t.txt")).expect("the list"),
        LIST_OF_T.as_bytes()
    );
    let bucket = "printf '4130 7\\n' | joistdenim bucket translate 41 43 - -o b.txt";
    assert_eq!(errors(&shell(bucket, folder.path())), "kept 1, skipped 0\n");
    assert_eq!(
        fs::read(folder.at("b.txt")).expect("the bucket"),
        b"4330\t7\n"
    );
    let names = ["b.txt", "large.table", "low.table", "t.table", "t.txt"];
    assert_eq!(folder.names(), names);
    let to_output = shell("joistdenim cut left t.table 4131 -o -", folder.path());
    assert_eq!(to_output.stdout, low);
}

#[test]
fn the_file_that_was_read_may_be_written() {
    let folder = folder();
    fs::set_permissions(folder.at("t.table"), fs::Permissions::from_mode(0o4640)).expect("mode");
    symlink("t.table", folder.at("link")).expect("a link");
    quiet(&shell("joistdenim insert link 4131 -o link", folder.path()));
    let written = fs::read(folder.at("t.table")).expect("the table");
    assert_eq!(written, table("4130 4330\n4131 43\n4135 -\n42\n"));
    let mode = fs::metadata(folder.at("t.table"))
        .expect("it is there")
        .permissions()
        .mode();
    assert_eq!(mode & 0o7777, 0o640);
    assert!(fs::symlink_metadata(folder.at("link"))
        .expect("it is there")
        .is_symlink());
    assert_eq!(folder.names(), ["large.table", "link", "t.table"]);
}

#[test]
fn a_link_and_a_long_name_are_written_to() {
    let folder = folder();
    fs::create_dir(folder.at("new")).expect("a folder");
    symlink("new/first", folder.at("link")).expect("a link");
    symlink("link", folder.at("second")).expect("a link to it");
    quiet(&shell("joistdenim list t.table -o second", folder.path()));
    let made = fs::symlink_metadata(folder.at("new/first")).expect("it is there");
    assert!(made.is_file());
    let long = "n".repeat(255);
    quiet(&shell(
        &format!("joistdenim list t.table -o {long}"),
        folder.path(),
    ));
    assert_eq!(
        fs::read(folder.at(&long)).expect("the list"),
        LIST_OF_T.as_bytes()
    );
}

#[test]
fn what_is_refused_changes_no_file() {
    let folder = folder();
    let before = folder.names();
    let refused = shell("joistdenim cut left t.table 4130 -o t.table", folder.path());
    let line = "refused 5: the key must be above 4130 and not above 42, and 4130 isn't";
    failed(&refused, 1, line);
    let unread = shell("echo 41 | joistdenim table - -o t.table", folder.path());
    failed(
        &unread,
        1,
        "refused 1: standard input, line 2, column 1: a table has 2 to 64 pivots, and this has 1",
    );
    let wrong = shell("joistdenim insert t.table 4x -o t.table", folder.path());
    assert_eq!(wrong.status.code(), Some(2));
    assert_eq!(fs::read(folder.at("t.table")).expect("T"), table(SHORT_T));
    assert_eq!(folder.names(), before);
}

/// No file may have more than a thousand bytes, as on a full disk; the signal for it is ignored.
#[test]
fn on_a_full_disk_the_file_is_as_it_was() {
    let folder = folder();
    folder.with("old", "as it was");
    let before = folder.names();
    let full = "trap '' XFSZ; ulimit -f 1; joistdenim cut right large.table 410000 -o";
    for name in ["old", "new"] {
        let written = shell(&format!("{full} {name}"), folder.path());
        failed(&written, 2, &format!("joistdenim: {name}: File too large"));
    }
    assert_eq!(
        fs::read(folder.at("old")).expect("it is there"),
        b"as it was"
    );
    assert_eq!(folder.names(), before);
}

/// Somebody who isn't root, for whom all is allowed.
const SOMEBODY: u32 = 65534;

/// A folder that everybody may write to, with the command in it, which all may run there. The copy
/// is made by a process of its own: none that begins meanwhile may keep it open for writing.
fn open_folder() -> Folder {
    let folder = folder();
    let line = "cp $(command -v joistdenim) . && chmod a+rx joistdenim && chmod a+r *.table && chmod 777 .";
    quiet(&shell(line, folder.path()));
    folder
}

fn is_root(folder: &Folder) -> bool {
    fs::metadata(folder.path()).expect("the folder").uid() == 0
}

/// A file of this text and mode. It is somebody's who runs the command, or root's.
fn old_file(folder: &Folder, mode: u32, is_others: bool) {
    let old = folder.with("old", "as it was");
    fs::set_permissions(&old, fs::Permissions::from_mode(mode)).expect("mode");
    if is_root(folder) && !is_others {
        chown(&old, Some(SOMEBODY), Some(SOMEBODY)).expect("root gives it away");
    }
}

/// Lists T into that file, as somebody.
fn list_as_somebody(folder: &Folder) -> Output {
    let mut command = Command::new(folder.at("joistdenim"));
    command.args(["list", "t.table", "-o", "old"]);
    if is_root(folder) {
        command.uid(SOMEBODY).gid(SOMEBODY);
    }
    let ran = command.current_dir(folder.path()).output();
    ran.expect("somebody may run it")
}

#[test]
fn a_file_that_may_not_be_written_isnt_replaced() {
    let folder = open_folder();
    let names = ["joistdenim", "large.table", "old", "t.table"];
    let line = "joistdenim: old: Permission denied, so it isn't replaced: give -o another file";
    // Only root can make another's file.
    for (mode, is_others) in [(0o444, false), (0o644, true), (0o664, true)] {
        if is_others && !is_root(&folder) {
            eprintln!("not tried, as it needs root: a file of another's with mode {mode:o}");
            continue;
        }
        old_file(&folder, mode, is_others);
        failed(&list_as_somebody(&folder), 2, line);
        assert_eq!(fs::read(folder.at("old")).expect("it"), b"as it was");
        assert_eq!(folder.names(), names);
        fs::remove_file(folder.at("old")).expect("the folder is open");
    }
}

#[test]
fn a_folder_that_may_not_be_written_gets_no_file() {
    let folder = open_folder();
    old_file(&folder, 0o666, false);
    let before = folder.names();
    quiet(&shell("chmod 555 .", folder.path()));
    let line = "joistdenim: old: no file may be made in its folder: give -o another file";
    failed(&list_as_somebody(&folder), 2, line);
    assert_eq!(fs::read(folder.at("old")).expect("it"), b"as it was");
    assert_eq!(folder.names(), before);
    quiet(&shell("chmod 777 .", folder.path()));
}

#[test]
fn a_file_that_may_be_written_is_replaced() {
    let folder = open_folder();
    for (mode, is_others) in [(0o200, false), (0o600, false), (0o666, true)] {
        old_file(&folder, mode, is_others);
        quiet(&list_as_somebody(&folder));
        quiet(&shell("chmod u+r old", folder.path()));
        let written = fs::read(folder.at("old")).expect("the list");
        assert_eq!(written, LIST_OF_T.as_bytes());
        fs::remove_file(folder.at("old")).expect("the folder is open");
    }
}

#[test]
fn files_that_cant_be_read() {
    let folder = folder();
    let missing = "No such file or directory";
    for arguments in [
        "list none",
        "table none",
        "show none 41",
        "cut left none 41",
        "insert none 41",
        "join none t.table",
        "join t.table none",
        "check none",
        "bucket translate 41 43 none",
        "bucket translate --bytes 41 43 none",
    ] {
        let line = format!("joistdenim: none: {missing}");
        failed(
            &shell(&format!("joistdenim {arguments}"), folder.path()),
            2,
            &line,
        );
    }
    let escape = shell("joistdenim list $'\\e[31mnone'", folder.path());
    failed(&escape, 2, &format!("joistdenim: ?[31mnone: {missing}"));
    let directory = "Is a directory";
    failed(
        &shell("joistdenim list .", folder.path()),
        2,
        &format!("joistdenim: .: {directory}"),
    );
    let input = format!("joistdenim: standard input: {directory}");
    failed(&shell("joistdenim list - <.", folder.path()), 2, &input);
    failed(
        &shell("joistdenim show t.table - <.", folder.path()),
        2,
        &input,
    );
}

#[test]
fn files_that_cant_be_written() {
    let folder = folder();
    let before = folder.names();
    let cut = |path: &str| {
        shell(
            &format!("joistdenim cut left t.table 4131 -o {path}"),
            folder.path(),
        )
    };
    failed(
        &cut("none/t"),
        2,
        "joistdenim: none/t: No such file or directory",
    );
    failed(
        &cut("t.table/t"),
        2,
        "joistdenim: t.table/t: Not a directory",
    );
    failed(
        &cut("."),
        2,
        "joistdenim: .: not a file that can be replaced",
    );
    for path in ["/dev/full", "/dev/stdout", "/proc/self/fd/1"] {
        let line = format!("joistdenim: {path}: not a file that can be replaced");
        let log = shell(
            &format!("joistdenim list t.table -o {path} >>large.table"),
            folder.path(),
        );
        failed(&log, 2, &line);
    }
    assert_eq!(folder.names(), before);
}
