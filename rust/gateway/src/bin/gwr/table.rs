//! The fit as text.

use gateway::{GwrBandwidth, GwrOptions, GwrResult};
use std::fmt::Write;

/// A number for the aligned table: four decimals, or a power of ten where these would not show it.
fn short(v: f64) -> String {
    if v == 0.0 || (1e-3..1e9).contains(&v.abs()) || !v.is_finite() {
        format!("{v:.4}")
    } else {
        format!("{v:.4e}")
    }
}

fn heads(names: &[String]) -> Vec<String> {
    let mut all = vec!["location".to_string(), "intercept".to_string()];
    all.extend(names.iter().cloned());
    all.extend(["predicted", "residual", "local_r2"].map(String::from));
    all
}

fn row(fit: &GwrResult, i: usize) -> impl Iterator<Item = f64> {
    let last = [fit.predicted[i], fit.residuals[i], fit.local_r2[i]];
    fit.coefficients[i].iter().copied().chain(last)
}

/// Summary and rows, aligned.
pub fn aligned(fit: &GwrResult, options: &GwrOptions, names: &[String]) -> String {
    let unit = match options.bandwidth {
        GwrBandwidth::Fixed(_) => "",
        GwrBandwidth::AdaptiveKnn(_) => " neighbours",
    };
    let mut text = format!(
        "kernel     {:?}\nbandwidth  {}{unit}{}\nAICc       {}\nsolves     {}\n\n",
        options.kernel,
        fit.bandwidth,
        if options.optimize_bandwidth {
            ", searched"
        } else {
            ""
        },
        short(fit.aicc),
        fit.solves
    );
    let mut lines = vec![heads(names)];
    for i in 0..fit.predicted.len() {
        let mut line = vec![i.to_string()];
        line.extend(row(fit, i).map(short));
        lines.push(line);
    }
    let width = |j: usize| {
        let cells = lines.iter().map(|l| l[j].chars().count());
        cells.max().unwrap_or(0)
    };
    let widths: Vec<usize> = (0..lines[0].len()).map(width).collect();
    for line in &lines {
        let cells: Vec<String> = line
            .iter()
            .zip(&widths)
            .map(|(cell, w)| format!("{cell:>w$}"))
            .collect();
        text.push_str(&cells.join("  "));
        text.push('\n');
    }
    text
}

/// A name as a field of comma-separated text.
fn field(name: &str) -> String {
    if name.contains([',', '"']) {
        format!("\"{}\"", name.replace('"', "\"\""))
    } else {
        name.to_string()
    }
}

/// Summary in lines that begin with #, rows in full precision.
pub fn csv(fit: &GwrResult, names: &[String]) -> String {
    let mut text = format!(
        "# bandwidth,{}\n# aicc,{}\n# solves,{}\n",
        fit.bandwidth, fit.aicc, fit.solves
    );
    let heads: Vec<String> = heads(names).iter().map(|h| field(h)).collect();
    text.push_str(&heads.join(","));
    text.push('\n');
    for i in 0..fit.predicted.len() {
        write!(text, "{i}").expect("a string takes all");
        for v in row(fit, i) {
            write!(text, ",{v}").expect("a string takes all");
        }
        text.push('\n');
    }
    text
}

#[cfg(test)]
mod tests {
    use super::*;

    fn fit() -> GwrResult {
        GwrResult {
            coefficients: vec![vec![1.0, 1e-9], vec![-12.5, f64::NAN]],
            predicted: vec![0.1, 2e12],
            residuals: vec![-0.0, 3.0],
            local_r2: vec![1.0, 0.25],
            bandwidth: 3.0,
            aicc: f64::INFINITY,
            solves: 2,
        }
    }

    #[test]
    fn columns_line_up() {
        let text = aligned(&fit(), &GwrOptions::default(), &["households".to_string()]);
        let lines: Vec<&str> = text.lines().collect();
        assert_eq!(lines[0], "kernel     Bisquare");
        assert_eq!(lines[1], "bandwidth  3 neighbours");
        assert_eq!(lines[2], "AICc       inf");
        let rows = &lines[5..];
        assert_eq!(rows.len(), 3);
        assert!(rows.iter().all(|r| r.len() == rows[0].len()));
        assert!(rows[1].contains("1.0000e-9") && rows[2].contains("2.0000e12"));
    }

    #[test]
    fn csv_is_exact() {
        let text = csv(&fit(), &["a,\"b\"".to_string()]);
        assert_eq!(
            text,
            "# bandwidth,3\n# aicc,inf\n# solves,2\nlocation,intercept,\"a,\"\"b\"\"\",predicted,residual,local_r2\n\
             0,1,0.000000001,0.1,-0,1\n1,-12.5,NaN,2000000000000,3,0.25\n"
        );
    }
}
