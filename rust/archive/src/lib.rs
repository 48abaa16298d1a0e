//! For build scripts: links target/staticlib/libNAME.a of the repository. `scripts/prove.sh NAME` has it at hand: where it is missing,
//! or older than the sources of the crates in it, it proves them and writes it, in some minutes. Cargo runs the build scripts of several
//! packages at once; of two rt commands in one folder the second waits. Cargo shows nothing of what a build script says until it ends, so
//! whoever wants to see the proofs go by runs that script before cargo, as `make fit` does.

use std::path::{Path, PathBuf};
use std::process::{self, Command};
use std::{env, fs};

/// Has cargo show this one line and fail the build: a status other than 0 would show all that was printed here.
fn stop(message: &str) -> ! {
    println!("cargo::error={message}");
    process::exit(0);
}

/// The crates that one is made of, by the lines `NAME: DEPENDENCIES` of crates.txt, or `NAME staticlib: DEPENDENCIES`.
fn crates_of(root: &Path, name: &str) -> Vec<String> {
    let text = fs::read_to_string(root.join("crates.txt")).unwrap_or_default();
    let mut wanted = vec![name.to_string()];
    let mut next = 0;
    while let Some(name) = wanted.get(next).cloned() {
        next += 1;
        let line = text.lines().find_map(|l| {
            let rest = l.strip_prefix(name.as_str())?;
            rest.strip_prefix(" staticlib")
                .unwrap_or(rest)
                .strip_prefix(':')
        });
        for dependency in line.unwrap_or_default().split_whitespace() {
            if !wanted.iter().any(|w| w == dependency) {
                wanted.push(dependency.to_string());
            }
        }
    }
    wanted
}

/// Has cargo look for changes of the sources of a crate and of what it is made of.
fn watch_sources(root: &Path, name: &str) {
    for name in crates_of(root, name) {
        for part in ["src", "specs", "proofs"] {
            let sources = root.join("crates").join(&name).join(part);
            if sources.is_dir() {
                println!("cargo::rerun-if-changed={}", sources.display());
            }
        }
    }
}

/// Has the archive of a crate made, where it is missing or old.
fn make(root: &Path, name: &str) {
    let made = Command::new("bash")
        .args(["scripts/prove.sh", name])
        .current_dir(root)
        .output();
    match made {
        Err(_) => stop(&format!(
            "there is no command bash for scripts/prove.sh, which makes target/staticlib/lib{name}.a"
        )),
        Ok(out) if !out.status.success() => {
            let said = String::from_utf8_lossy(&out.stderr);
            let said: Vec<&str> = said.lines().collect();
            for line in &said[said.len().saturating_sub(5)..] {
                println!("cargo::warning={line}");
            }
            stop(&format!(
                "scripts/prove.sh {name} failed; run it in the repository to see why"
            ));
        }
        Ok(_) => {}
    }
}

/// Links the archive of a crate to the package that is built, which must be in rust/ of the repository. Answers its path.
pub fn link(name: &str) -> PathBuf {
    let package = PathBuf::from(env::var_os("CARGO_MANIFEST_DIR").expect("cargo sets it"));
    let Some(root) = package.ancestors().nth(2) else {
        stop("the package is not in rust/ of the repository");
    };
    let folder = root.join("target/staticlib");
    let archive = folder.join(format!("lib{name}.a"));
    println!("cargo::rerun-if-changed=build.rs");
    println!("cargo::rerun-if-changed={}", archive.display());
    watch_sources(root, name);
    make(root, name);
    if !archive.is_file() {
        stop(&format!(
            "scripts/prove.sh {name} wrote no target/staticlib/lib{name}.a"
        ));
    }
    println!("cargo::rustc-link-search=native={}", folder.display());
    println!("cargo::rustc-link-lib=static={name}");
    archive
}

#[cfg(test)]
mod tests {
    use super::*;

    #[test]
    fn a_crate_is_made_of_what_it_depends_on() {
        let package = PathBuf::from(env!("CARGO_MANIFEST_DIR"));
        let root = package.ancestors().nth(2).unwrap();
        assert_eq!(crates_of(root, "refusal"), ["refusal"]);
        let all = crates_of(root, "gateway");
        assert!(all.iter().any(|name| name == "root"));
        assert!(all.iter().all(|name| name != "measured"));
    }
}
