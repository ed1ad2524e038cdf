//! What documents name in code style though nothing in the repository has that name, and why.
pub const EXCEPTIONS: &[(&str, &str)] = &[
    ("program.c", "a caller's own program"),
    ("apt-get", "the distribution's command that installs Dafny"),
    (
        "pkg-config",
        "the system's command that reads joistdenim.pc",
    ),
    (
        "bcmp",
        "a C function that the compiler puts in for the reference's prefix test",
    ),
];
