//! Files are replaced whole, or not at all.

use crate::tools::{assert_bad_usage, command, printed, printed_bytes, ran, registers, Folder};
use crate::usage::full_device;
use std::fs::{self, File, Permissions};
use std::io::Read;
use std::os::unix::fs::{symlink, FileTypeExt, PermissionsExt};
use std::process::Command;

const BUILD: [&str; 4] = ["map", "build", "hex:C5F970CA1B", "--out"];

fn build_to(path: &str) -> Vec<&str> {
    [&BUILD[..], &[path]].concat()
}

#[test]
fn a_file_is_replaced_and_nothing_is_left_beside_it() {
    let folder = Folder::new("files_replaced");
    let out = folder.write("list.map", "as before");
    assert_eq!(printed(&build_to(&out)), "");
    assert_eq!(folder.read("list.map").len(), 4_096);
    assert_eq!(folder.names(), ["list.map"]);
}

#[test]
fn permissions_stay() {
    let folder = Folder::new("files_permissions");
    let out = folder.write("list.map", "as before");
    fs::set_permissions(&out, Permissions::from_mode(0o640)).expect("the file is mine");
    printed(&build_to(&out));
    let mode = fs::metadata(&out).expect("the file").permissions().mode();
    assert_eq!(mode & 0o777, 0o640);
}

#[test]
fn a_link_stays_and_its_file_is_replaced() {
    let folder = Folder::new("files_link");
    let file = folder.write("file.map", "as before");
    let link = folder.path("link.map");
    symlink(&file, &link).expect("a link");
    printed(&build_to(&link));
    assert!(fs::symlink_metadata(&link).expect("the link").is_symlink());
    assert_eq!(folder.read("file.map").len(), 4_096);
    assert_eq!(folder.names(), ["file.map", "link.map"]);
}

/// What is no file, such as a pipe or a device, must not be replaced by one.
#[test]
fn a_pipe_is_written_to() {
    let folder = Folder::new("files_pipe");
    let pipe = folder.path("pipe");
    let made = Command::new("mkfifo").arg(&pipe).status();
    if !made.is_ok_and(|status| status.success()) {
        println!("skipped: this system makes no named pipes");
        return;
    }
    // Open for both, so that neither side waits for the other.
    let mut reader = File::options().read(true).write(true).open(&pipe);
    assert_eq!(printed(&build_to(&pipe)), "");
    let kind = fs::metadata(&pipe).expect("the pipe").file_type();
    assert!(kind.is_fifo());
    let mut map = [0; 4_096];
    let read = reader.as_mut().map(|pipe| pipe.read_exact(&mut map));
    assert!(matches!(read, Ok(Ok(()))));
    assert_eq!(map[..], printed_bytes(&BUILD[..3]));
    assert_eq!(folder.names(), ["pipe"]);
}

#[test]
fn places_that_cannot_be_written_are_bad_usage() {
    let folder = Folder::new("files_unwritable");
    let missing = folder.path("missing/list.map");
    let message = format!(
        "expected a writable file, not '{missing}': No such file or directory (os error 2)"
    );
    assert_bad_usage(&build_to(&missing), &message);
    let path = folder.path("");
    let message = format!("expected a writable file, not '{path}': Is a directory (os error 21)");
    assert_bad_usage(&build_to(&path), &message);
    assert_eq!(folder.names(), [""; 0]);
}

/// The report is part of the work: if it cannot be printed, the old file stays.
#[test]
fn a_file_stays_if_the_report_cannot_be_printed() {
    let Some(full) = full_device() else { return };
    let folder = Folder::new("files_report");
    let before = folder.write("before.bin", registers());
    let out = folder.write("after.bin", "as before");
    let mut command = command();
    command.args([
        "run",
        "hex:C5F970CA1B",
        "--registers",
        &before,
        "--out",
        &out,
    ]);
    let output = command.stdout(full).output();
    let (status, _, err) = ran(output.expect("the command starts"));
    assert_eq!(status, Some(2));
    assert!(
        err.starts_with("tarhuspo: cannot write the answer: "),
        "{err}"
    );
    assert_eq!(folder.read("after.bin"), b"as before");
    assert_eq!(folder.names(), ["after.bin", "before.bin"]);
}
