//! Takes `gwr.rs` (000) from the folder of source documents and puts into it what the comparison needs. Nothing of its text is
//! kept in the repository. Each substitution must match exactly the expected number of places, so a changed 000 stops the build.

use std::path::{Path, PathBuf};
use std::{env, fs, process};

const MODULE: &str = "crates/oxigeo-analytics/src/regression/gwr.rs";

/// What is replaced, by what, and how many places must have it.
const REPLACED: [(&str, &str, usize); 4] = [
    // Items that are included in a module cannot have inner documentation.
    ("//!", "//", 30),
    (
        "use crate::error::{AnalyticsError, Result};",
        "use crate::support::{AnalyticsError, Result, Steps};",
        1,
    ),
    (
        "use scirs2_core::ndarray::{Array1, Array2};",
        "use crate::support::{Array1, Array2};",
        1,
    ),
    // Line ends are single line feeds, as the texts below have them.
    ("\r", "", 0),
];

/// The same, of the text that has 01's steps in place of the platform's exp and ln.
const STEPS: [(&str, &str, usize); 2] =
    [(".exp()", ".exp_steps()", 2), (".ln()", ".ln_steps()", 2)];

/// Calls, and the lines that they are put before: the head of `solve_local` counts the solve and begins its row, its end keeps
/// the row, for a fit that fails later.
const INSERTED: [(&str, &str); 2] = [
    (
        "crate::support::begin_solve(i);",
        "    let n = y.len();\n\n    // Kernel weights for every observation relative to location i.",
    ),
    (
        "crate::support::end_solve(&beta, predicted, residual, local_r2);",
        "    Ok((beta, predicted, residual, local_r2, leverage))\n}",
    ),
];

/// 02's guarded criterion (wish 9): the line that 000 has in addition, and the one that it is put before. 17 has been tested there.
const GUARD: (&str, &str) = (
    "if denom <= f64::EPSILON { return Ok(f64::INFINITY); }",
    "    if denom.abs() <= f64::EPSILON {",
);

/// 02's trusts (wish 4): the product, at the one place where weights are made.
const TRUST: (&str, &str) = (
    "let kw = kernel.weight(d, bandwidth);",
    "let kw = kernel.weight(d, bandwidth) * crate::support::trust(j);",
);

/// Puts one text in another's places, of which there must be so many.
fn replace(text: &mut String, from: &str, to: &str, places: usize) {
    let found = text.matches(from).count();
    if found != places {
        stop(&format!(
            "{MODULE}: {found} places have {from:?} where {places} were expected"
        ));
    }
    *text = text.replace(from, to);
}

/// Puts a line before another one, of which there must be one.
fn insert(text: &mut String, added: &str, line: &str) {
    replace(text, line, &format!("    {added}\n{line}"), 1);
}

/// Writes a text for src/lib.rs to include.
fn write(name: &str, text: &str) {
    let out = PathBuf::from(env::var_os("OUT_DIR").expect("cargo sets OUT_DIR"));
    fs::write(out.join(name), text).expect("OUT_DIR can be written");
}

/// `GWR_SRC`, or the first `shared/docs/src` beside the repository or further up.
fn source() -> Option<PathBuf> {
    println!("cargo::rerun-if-env-changed=GWR_SRC");
    if let Some(folder) = env::var_os("GWR_SRC") {
        return Some(Path::new(&folder).join(MODULE)).filter(|f| f.is_file());
    }
    let package = PathBuf::from(env::var_os("CARGO_MANIFEST_DIR")?);
    let root = package.parent()?.parent()?;
    root.ancestors()
        .skip(1)
        .map(|folder| folder.join("shared/docs/src").join(MODULE))
        .find(|file| file.is_file())
}

/// Has cargo show this one line and fail the build: a status other than 0 would show all that was printed here.
fn stop(message: &str) -> ! {
    println!("cargo::error={message}");
    process::exit(0);
}

/// Writes every text that is made of 000.
fn write_all(mut text: String) {
    for (from, to, places) in REPLACED {
        replace(&mut text, from, to, places);
    }
    for (call, line) in INSERTED {
        insert(&mut text, call, line);
    }
    write("platform.rs", &text);
    for (from, to, places) in STEPS {
        replace(&mut text, from, to, places);
    }
    write("steps.rs", &text);
    let mut guarded = text.clone();
    insert(&mut guarded, GUARD.0, GUARD.1);
    write("guarded.rs", &guarded);
    for (name, text) in [
        ("trusted.rs", &mut text),
        ("trusted_guarded.rs", &mut guarded),
    ] {
        replace(text, TRUST.0, TRUST.1, 1);
        write(name, text);
    }
}

fn main() {
    println!("cargo::rerun-if-changed=build.rs");
    println!("cargo::rustc-check-cfg=cfg(gwr_source)");
    println!("cargo::rustc-check-cfg=cfg(feature, values(\"parallel\"))");
    let Some(file) = source() else {
        // A file that is not there has cargo run this again at the next build.
        println!("cargo::rerun-if-changed=source-is-missing");
        return;
    };
    println!("cargo::rerun-if-changed={}", file.display());
    match fs::read_to_string(&file) {
        Ok(text) => write_all(text),
        Err(e) => stop(&format!("cannot read {}: {e}", file.display())),
    }
    println!("cargo::rustc-cfg=gwr_source");
}
