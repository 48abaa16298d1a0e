//! Links target/staticlib/libgateway.a of the repository.

fn main() {
    let archive = archive::link("gateway");
    println!("cargo::rustc-env=GATEWAY_ARCHIVE={}", archive.display());
}
