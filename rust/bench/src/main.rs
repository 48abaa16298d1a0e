//! Times of the proved code against 000, in the same run, and the stack that a fit takes: `bench [REPEATS] [TABLE..]`, with the
//! tables `fits`, `growth`, `weights`, `elementary`, `accuracy`, `turns` and `stack`, all of them if none is named.
//!
//! `bench once N P KERNEL KIND SIDE` makes one fit, for scripts/instructions.sh; `bench against SECONDS BEFORE.. AFTER..` times two
//! versions of the proved code, for scripts/against.sh.
//!
//! Each line has the medians of the sides and their ratios (proved by the other; below 1 the proved code is faster).

mod accuracy;
mod against;
mod fits;
#[cfg(test)]
mod guards;
#[cfg(test)]
mod numbers;
mod single;
mod stack;
mod timing;
#[cfg(test)]
mod trusts;
mod turns;
#[cfg(test)]
mod walks;

use std::process::ExitCode;

fn main() -> ExitCode {
    if !oracle::AVAILABLE {
        println!("{}", oracle::MISSING);
        return ExitCode::from(3);
    }
    let mut words: Vec<String> = std::env::args().skip(1).collect();
    type Words = fn(&[String]) -> Option<()>;
    let others: [(&str, Words); 2] = [("once", fits::once), ("against", against::against)];
    if let Some((_, other)) = others
        .iter()
        .find(|o| words.first().is_some_and(|w| w == o.0))
    {
        return match other(&words[1..]) {
            Some(()) => ExitCode::SUCCESS,
            None => ExitCode::from(2),
        };
    }
    let given = words.first().and_then(|w| w.parse().ok());
    if given.is_some() {
        words.remove(0);
    }
    let repeats: usize = given.unwrap_or(7).max(1);
    let tables: [(&str, &dyn Fn()); 7] = [
        ("fits", &|| fits::fits(repeats)),
        ("growth", &|| fits::growth(repeats)),
        ("weights", &|| single::weights(9 * repeats)),
        ("elementary", &|| single::elementary(3 * repeats)),
        ("accuracy", &accuracy::accuracy),
        ("turns", &|| turns::turns(repeats)),
        ("stack", &stack::stacks),
    ];
    if let Some(unknown) = words.iter().find(|w| tables.iter().all(|t| t.0 != **w)) {
        eprintln!("bench: there is no table {unknown}");
        return ExitCode::from(2);
    }
    for (name, table) in tables {
        if words.is_empty() || words.iter().any(|w| w == name) {
            table();
            println!();
        }
    }
    ExitCode::SUCCESS
}
