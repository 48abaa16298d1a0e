//! `gwr`: fits the observations of a file and prints summary and rows. See `gwr --help`.

#![forbid(unsafe_code)]

mod arguments;
mod csv;
mod table;

use arguments::Request;
use std::io::{Read, Write};
use std::process::ExitCode;

const REFUSED: u8 = 1;
const BAD_INPUT: u8 = 2;

fn read_file(file: &str) -> std::io::Result<String> {
    if file != "-" {
        return std::fs::read_to_string(file);
    }
    let mut text = String::new();
    std::io::stdin().read_to_string(&mut text)?;
    Ok(text)
}

fn print(text: &str) {
    // A reader that went away is no error of the fit.
    std::io::stdout().write_all(text.as_bytes()).ok();
}

fn stop(status: u8, message: &str) -> ExitCode {
    eprintln!("gwr: {message}");
    ExitCode::from(status)
}

fn main() -> ExitCode {
    let (file, options, as_csv) = match arguments::read(std::env::args().skip(1)) {
        Ok(Request::Help) => {
            print(arguments::HELP);
            return ExitCode::SUCCESS;
        }
        Ok(Request::Fit { file, options, csv }) => (file, options, csv),
        Err(e) => return stop(BAD_INPUT, &format!("{e}; see gwr --help")),
    };
    let all = match read_file(&file) {
        Ok(text) => csv::read(&text),
        Err(e) => return stop(BAD_INPUT, &format!("{file}: {e}")),
    };
    let all = match all {
        Ok(all) => all,
        Err(e) => return stop(BAD_INPUT, &format!("{file}: {e}")),
    };
    match gateway::gwr_fit(&all.coords, &all.x, &all.y, &options) {
        Ok(fit) if as_csv => print(&table::csv(&fit, &all.names)),
        Ok(fit) => print(&table::aligned(&fit, &options, &all.names)),
        Err(refusal) => return stop(REFUSED, &refusal.to_string()),
    }
    ExitCode::SUCCESS
}
