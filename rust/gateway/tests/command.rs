//! The command `gwr`, run as a user does.

use std::io::Write;
use std::process::{Command, Output, Stdio};

fn gwr(words: &[&str], input: &str) -> Output {
    let mut child = Command::new(env!("CARGO_BIN_EXE_gwr"))
        .args(words)
        .stdin(Stdio::piped())
        .stdout(Stdio::piped())
        .stderr(Stdio::piped())
        .spawn()
        .expect("gwr starts");
    // A run that fails before it reads closes its input.
    let mut stdin = child.stdin.take().expect("a pipe");
    stdin.write_all(input.as_bytes()).ok();
    drop(stdin);
    child.wait_with_output().expect("gwr ends")
}

fn text(bytes: &[u8]) -> &str {
    std::str::from_utf8(bytes).expect("text")
}

fn pantries() -> String {
    let file = concat!(env!("CARGO_MANIFEST_DIR"), "/../../examples/pantries.csv");
    std::fs::read_to_string(file).expect("the example")
}

/// The four pantries of 01's listing.
const LISTING: &str = "e,n,kg\n0,0,2\n0,0,4\n10,10,10\n10,10,10\n";

#[test]
fn the_listing_of_01() {
    let out = gwr(&["--distance", "1", "--csv", "-"], LISTING);
    assert_eq!(out.status.code(), Some(0));
    assert_eq!(
        text(&out.stdout),
        "# bandwidth,1\n# aicc,inf\n# solves,4\nlocation,intercept,predicted,residual,local_r2\n\
         0,3,3,-1,0\n1,3,3,1,0\n2,10,10,0,1\n3,10,10,0,1\n"
    );
    assert!(out.stderr.is_empty());
}

#[test]
fn the_example_with_every_kernel_and_kind() {
    let csv = pantries();
    let n = csv.lines().count() - 1;
    assert!((38..=45).contains(&n));
    for kernel in ["gaussian", "bisquare", "exponential"] {
        for kind in [["--distance", "12"], ["--neighbours", "20"]] {
            for search in [&["--csv"][..], &["--csv", "--search"]] {
                let words = [&["--kernel", kernel], &kind[..], search, &["-"]].concat();
                let out = gwr(&words, &csv);
                assert_eq!(out.status.code(), Some(0), "{}", text(&out.stderr));
                assert_eq!(text(&out.stdout).lines().count(), n + 4);
            }
        }
    }
}

#[test]
fn a_file_and_an_aligned_table() {
    let file = concat!(env!("CARGO_MANIFEST_DIR"), "/../../examples/pantries.csv");
    let out = gwr(&[file, "--kernel", "gaussian", "--neighbours", "7"], "");
    assert_eq!(out.status.code(), Some(0));
    let lines: Vec<&str> = text(&out.stdout).lines().collect();
    assert!(lines[5].contains("households"));
    assert!(lines[5..].iter().all(|l| l.len() == lines[5].len()));
}

#[test]
fn the_default_count() {
    // 42 pantries and two predictors: 7 is more than 2 + 3.
    let csv = pantries();
    let named = gwr(&["--neighbours", "7", "-"], &csv);
    assert!(text(&named.stdout).contains("\nbandwidth  7 neighbours\n"));
    for words in [&["-"][..], &["--neighbours", "0", "-"]] {
        assert_eq!(gwr(words, &csv).stdout, named.stdout);
    }
    // Of the first ten 2 + 3 is more than 4.
    let ten: String = csv.lines().take(11).flat_map(|l| [l, "\n"]).collect();
    let out = gwr(&["--kernel", "gaussian", "-"], &ten);
    assert!(text(&out.stdout).contains("\nbandwidth  5 neighbours\n"));
}

#[test]
fn refusals_exit_with_1() {
    for (words, input, message) in [
        (&["-"][..], "e,n,y\n", "gwr: refusal 1: no coordinates"),
        (
            &["--distance", "-1", "-"],
            LISTING,
            "gwr: refusal 11: the bandwidth distance is not finite or not above zero",
        ),
        (
            &["-"],
            "e,n,y,x\n0,0,1,5\n1,0,2,5\n0,1,3,5\n",
            "gwr: refusal 14: a local system is singular",
        ),
        (
            &["-"],
            "e,n,y\n0,0,nan\n1,0,2\n",
            "gwr: refusal 8: a response is not finite",
        ),
    ] {
        let out = gwr(words, input);
        assert_eq!(out.status.code(), Some(1));
        assert_eq!(text(&out.stderr).trim_end(), message);
        assert!(out.stdout.is_empty());
    }
}

#[test]
fn bad_usage_and_input_exit_with_2() {
    for (words, input, message) in [
        (&[][..], "", "gwr: no file; see gwr --help"),
        (
            &["--speed", "-"],
            "",
            "gwr: unknown option --speed; see gwr --help",
        ),
        (&["-"], "", "gwr: -: line 1: no header"),
        (
            &["-"],
            "e,n,y\n1,2,3\n1,2\n",
            "gwr: -: line 3: 2 fields where the header has 3",
        ),
    ] {
        let out = gwr(words, input);
        assert_eq!(out.status.code(), Some(2));
        assert_eq!(text(&out.stderr).trim_end(), message);
    }
    let out = gwr(&["no-such-file.csv"], "");
    assert_eq!(out.status.code(), Some(2));
    assert!(text(&out.stderr).starts_with("gwr: no-such-file.csv: "));
}

#[test]
fn help_says_that_columns_count_by_position() {
    let out = gwr(&["--help"], "");
    assert_eq!(out.status.code(), Some(0));
    assert!(text(&out.stdout).contains("Columns count by position"));
}
