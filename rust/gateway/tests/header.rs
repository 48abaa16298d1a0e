//! A C program over the header and the archive prints 01's listing.

use std::path::Path;
use std::process::Command;

const LISTING: &str = "\
fit 0 3FF0000000000000 7FF0000000000000 4
row 0 4008000000000000 4008000000000000 BFF0000000000000 0000000000000000
row 1 4008000000000000 4008000000000000 3FF0000000000000 0000000000000000
row 2 4024000000000000 4024000000000000 0000000000000000 3FF0000000000000
row 3 4024000000000000 4024000000000000 0000000000000000 3FF0000000000000
weight 0 3FF0000000000000
";

#[test]
fn a_c_program_prints_the_listing() {
    let package = Path::new(env!("CARGO_MANIFEST_DIR"));
    let program = Path::new(env!("CARGO_TARGET_TMPDIR")).join("header");
    let compiled = Command::new("cc")
        .args(["-std=c99", "-Wall", "-Wextra", "-Werror", "-I"])
        .arg(package.join("include"))
        .arg(package.join("tests/header.c"))
        .arg(env!("GATEWAY_ARCHIVE"))
        .arg("-o")
        .arg(&program)
        .status()
        .expect("cc is there, since cargo links with it");
    assert!(compiled.success());
    let out = Command::new(&program).output().expect("it runs");
    assert_eq!(String::from_utf8_lossy(&out.stdout), LISTING);
}
