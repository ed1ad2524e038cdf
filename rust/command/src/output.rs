//! What is written: to standard output, or to a file, whole or not at all.
use crate::arguments::Arguments;
use crate::failure::{reason, Done, Failure};
use crate::files::name_of;
use crate::Streams;
use std::ffi::OsStr;
use std::fs::{self, File, Permissions};
use std::io::{self, ErrorKind, Write};
use std::os::unix::fs::{fchown, MetadataExt, PermissionsExt};
use std::path::{Path, PathBuf};

/// Prints it all now; the status is 0.
pub fn print(streams: &mut Streams, text: &[u8]) -> Done {
    let output = &mut streams.output;
    match output.write_all(text).and_then(|()| output.flush()) {
        Ok(()) => Ok(0),
        Err(error) if error.kind() == ErrorKind::BrokenPipe => Err(Failure::Closed),
        Err(error) => Err(Failure::file("standard output", &error)),
    }
}

/// Writes text where the arguments say.
pub fn text(text: &str, arguments: &Arguments, streams: &mut Streams) -> Done {
    match arguments.file() {
        Some(path) => replace(path, text.as_bytes()),
        None => print(streams, text.as_bytes()),
    }
}

/// Writes bytes, which are nothing for a terminal.
pub fn bytes(bytes: &[u8], arguments: &Arguments, streams: &mut Streams) -> Done {
    match arguments.file() {
        Some(path) => replace(path, bytes),
        None if streams.terminal => {
            Err(arguments.wrong("the result is bytes and not for a terminal: give -o FILE"))
        }
        None => print(streams, bytes),
    }
}

/// A new file beside the old one, which takes its place once it is whole.
fn replace(path: &OsStr, bytes: &[u8]) -> Done {
    let name = name_of(path);
    let failed = |error| Failure::file(&name, &error);
    let denied = |why: String| Failure::File(format!("{name}: {why}: give -o another file"));
    let place = place_of(Path::new(path)).map_err(failed)?;
    may_be_written(&place)
        .map_err(|error| denied(format!("{}, so it isn't replaced", reason(&error))))?;
    let (new, file) = create_beside(&place).map_err(|error| match error.kind() {
        ErrorKind::PermissionDenied => denied("no file may be made in its folder".into()),
        _ => failed(error),
    })?;
    let written = fill(file, &place, bytes).and_then(|()| fs::rename(&new, &place));
    written.map_err(|error| {
        let _ = fs::remove_file(&new);
        failed(error)
    })?;
    Ok(0)
}

/// A file that its user may not write to is not replaced either, though the folder would allow it.
fn may_be_written(place: &Path) -> io::Result<()> {
    match File::options().write(true).open(place) {
        Err(error) if error.kind() != ErrorKind::NotFound => Err(error),
        _ => Ok(()),
    }
}

/// A file of our own, under a name that nothing has.
fn create_beside(place: &Path) -> io::Result<(PathBuf, File)> {
    let mut number = 0;
    loop {
        let name = format!(".joistdenim.{}.{number}", std::process::id());
        let new = place.with_file_name(name);
        match File::create_new(&new) {
            Err(error) if error.kind() == ErrorKind::AlreadyExists => number += 1,
            file => return Ok((new, file?)),
        }
    }
}

/// Where the file itself is, or shall be: a link stays a link. What the system has in these folders
/// stands for something else, a stream for one.
fn place_of(path: &Path) -> io::Result<PathBuf> {
    let is_system = ["/dev", "/proc"]
        .iter()
        .any(|folder| path.starts_with(folder));
    match fs::canonicalize(path) {
        Ok(place) if place.is_file() && !is_system => Ok(place),
        Ok(_) => Err(io::Error::other("not a file that can be replaced")),
        Err(error) if error.kind() == ErrorKind::NotFound => match fs::read_link(path) {
            Ok(target) => place_of(&path.with_file_name("").join(target)),
            Err(_) => Ok(path.to_path_buf()),
        },
        Err(error) => Err(error),
    }
}

fn fill(mut file: File, old: &Path, bytes: &[u8]) -> io::Result<()> {
    if let Ok(old) = fs::metadata(old) {
        // Another's file stays theirs where that is allowed.
        let _ = fchown(&file, Some(old.uid()), Some(old.gid()));
        file.set_permissions(Permissions::from_mode(old.mode() & 0o777))?;
    }
    file.write_all(bytes)?;
    file.sync_all()
}
