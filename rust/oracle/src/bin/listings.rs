//! Writes the stored runs of `gwrprint` anew: `listings` writes NAME.job and NAME.out of tests/listings for each job of jobs.txt.

use oracle::listings::{folder, listing, read};
use std::fs;
use std::process::ExitCode;

fn write_all() -> Result<usize, String> {
    let file = folder().join("jobs.txt");
    let text = fs::read_to_string(file).map_err(|e| format!("jobs.txt: {e}"))?;
    let jobs = read(&text).map_err(|line| format!("jobs.txt has a line {line:?}"))?;
    for (name, job) in &jobs {
        let write = |ending: &str, bytes: &[u8]| {
            let file = format!("{name}.{ending}");
            fs::write(folder().join(&file), bytes).map_err(|e| format!("{file}: {e}"))
        };
        write("job", job)?;
        write("out", listing(job).as_bytes())?;
    }
    Ok(jobs.len())
}

fn main() -> ExitCode {
    if !oracle::AVAILABLE {
        eprintln!("{}", oracle::MISSING);
        return ExitCode::FAILURE;
    }
    match write_all() {
        Ok(count) => {
            println!("{count} jobs and their listings written");
            ExitCode::SUCCESS
        }
        Err(e) => {
            eprintln!("listings: {e}");
            ExitCode::FAILURE
        }
    }
}
