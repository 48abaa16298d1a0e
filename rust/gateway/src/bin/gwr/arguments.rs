//! The command's arguments.

use gateway::{GwrBandwidth, GwrKernel, GwrOptions};

/// What `--help` prints.
pub const HELP: &str = "\
gwr: geographically weighted regression of a table, by proved code

usage: gwr [OPTIONS] FILE          ('-' reads standard input)

FILE is comma-separated text with a header line. Columns count by position, whatever their names:
easting, northing, response, then the predictors (0 to 7). At most 512 observations.

  --kernel gaussian|bisquare|exponential   how a weight falls with distance (bisquare)
  --distance B      the same bandwidth distance at every location
  --neighbours K    the distance to the K-th nearest neighbour as bandwidth, K at most all others; 0, the
                    default, stands for the number of predictors and 3 more, or for the root of the
                    number of observations, rounded up, where that is more
  --search          search the bandwidth with the least AICc; the value of B or K is then ignored
  --csv             rows as comma-separated text in full precision, the summary in lines that begin with #
  --help            this text

Each row has the location (from 0), the coefficients with the intercept first, prediction, residual and
local R squared. Exit status: 0 fitted, 1 refused (with the refusal's number), 2 bad usage or input.
";

/// What is asked for.
#[derive(Debug, PartialEq)]
pub enum Request {
    /// The help text.
    Help,
    /// A fit of a file.
    Fit {
        /// Its path, or `-`.
        file: String,
        /// What to fit with.
        options: GwrOptions,
        /// Comma-separated output.
        csv: bool,
    },
}

fn kernel(name: &str) -> Result<GwrKernel, String> {
    match name {
        "gaussian" => Ok(GwrKernel::Gaussian),
        "bisquare" => Ok(GwrKernel::Bisquare),
        "exponential" => Ok(GwrKernel::Exponential),
        _ => Err(format!("unknown kernel {name:?}")),
    }
}

/// Reads the words after the command's name.
pub fn read(words: impl IntoIterator<Item = String>) -> Result<Request, String> {
    let mut words = words.into_iter();
    let mut options = GwrOptions::default();
    let mut bandwidth = None;
    let mut csv = false;
    let mut file = None;
    while let Some(word) = words.next() {
        let mut value = || words.next().ok_or(format!("{word} needs a value"));
        let mut bandwidths = |b| match bandwidth.replace(b) {
            None => Ok(()),
            Some(_) => Err("one bandwidth only: --distance or --neighbours".to_string()),
        };
        match word.as_str() {
            "--help" | "-h" => return Ok(Request::Help),
            "--kernel" => options.kernel = kernel(&value()?)?,
            "--distance" => {
                let v = value()?;
                let b = v.parse().map_err(|_| format!("not a distance: {v:?}"))?;
                bandwidths(GwrBandwidth::Fixed(b))?;
            }
            "--neighbours" => {
                let v = value()?;
                let k = v.parse().map_err(|_| format!("not a count: {v:?}"))?;
                bandwidths(GwrBandwidth::AdaptiveKnn(k))?;
            }
            "--search" => options.optimize_bandwidth = true,
            "--csv" => csv = true,
            "-" => file = Some(word),
            _ if word.starts_with('-') => return Err(format!("unknown option {word}")),
            _ if file.is_some() => return Err(format!("one file only: {word}")),
            _ => file = Some(word),
        }
    }
    if let Some(b) = bandwidth {
        options.bandwidth = b;
    }
    let file = file.ok_or("no file")?;
    Ok(Request::Fit { file, options, csv })
}

#[cfg(test)]
mod tests {
    use super::*;

    fn words(line: &str) -> Result<Request, String> {
        read(line.split_whitespace().map(String::from))
    }

    fn options(line: &str) -> GwrOptions {
        match words(line) {
            Ok(Request::Fit { options, .. }) => options,
            other => panic!("{other:?}"),
        }
    }

    #[test]
    fn options_and_defaults() {
        assert_eq!(options("a.csv"), GwrOptions::default());
        let o = options("--kernel gaussian --distance 12.5 --search a.csv");
        assert_eq!(o.kernel, GwrKernel::Gaussian);
        assert_eq!(o.bandwidth, GwrBandwidth::Fixed(12.5));
        assert!(o.optimize_bandwidth);
        let o = options("- --neighbours 7 --kernel exponential");
        assert_eq!(o.bandwidth, GwrBandwidth::AdaptiveKnn(7));
        assert!(!o.optimize_bandwidth);
        assert_eq!(words("a b --help"), Err("one file only: b".to_string()));
        assert_eq!(words("--help a"), Ok(Request::Help));
    }

    #[test]
    fn bad_usage() {
        for (line, message) in [
            ("", "no file"),
            ("--csv", "no file"),
            ("a --what", "unknown option --what"),
            ("a --kernel", "--kernel needs a value"),
            ("a --kernel round", "unknown kernel \"round\""),
            ("a --distance far", "not a distance: \"far\""),
            ("a --neighbours -1", "not a count: \"-1\""),
            (
                "a --distance 1 --neighbours 2",
                "one bandwidth only: --distance or --neighbours",
            ),
        ] {
            assert_eq!(words(line), Err(message.to_string()), "{line}");
        }
    }

    #[test]
    fn a_distance_that_cannot_be_used_is_left_to_the_fit() {
        assert_eq!(
            options("a --distance -1").bandwidth,
            GwrBandwidth::Fixed(-1.0)
        );
    }
}
