//! Reads observations from comma-separated text.

use std::fmt;

/// Observations, by the columns' positions.
#[derive(Debug, Default, PartialEq)]
pub struct Observations {
    /// Easting and northing.
    pub coords: Vec<(f64, f64)>,
    /// Predictors of each observation.
    pub x: Vec<Vec<f64>>,
    /// Responses.
    pub y: Vec<f64>,
    /// Names of the predictors' columns.
    pub names: Vec<String>,
}

/// A line that cannot be read, by its number in the file.
#[derive(Debug, PartialEq, Eq)]
pub struct BadLine {
    /// From 1.
    pub line: usize,
    /// What is wrong with it.
    pub what: String,
}

impl fmt::Display for BadLine {
    fn fmt(&self, f: &mut fmt::Formatter<'_>) -> fmt::Result {
        write!(f, "line {}: {}", self.line, self.what)
    }
}

/// The fields of a line. One in double quotes may hold commas, and doubled quotes for one.
fn fields(line: &str) -> Result<Vec<String>, String> {
    let mut all = vec![String::new()];
    let mut quoted = false;
    let mut letters = line.chars().peekable();
    while let Some(c) = letters.next() {
        let field = all.last_mut().expect("one at least");
        match c {
            '"' if quoted && letters.peek() == Some(&'"') => {
                letters.next();
                field.push('"');
            }
            '"' => quoted = !quoted,
            ',' if !quoted => all.push(String::new()),
            _ => field.push(c),
        }
    }
    if quoted {
        return Err("a quote is not closed".to_string());
    }
    Ok(all.iter().map(|f| f.trim().to_string()).collect())
}

/// Reads a header and a line for each observation; empty lines are passed over. Whether the numbers can be fitted is left to
/// the fit.
pub fn read(text: &str) -> Result<Observations, BadLine> {
    let text = text.strip_prefix('\u{FEFF}').unwrap_or(text);
    let mut lines = text
        .lines()
        .enumerate()
        .map(|(i, l)| (i + 1, l))
        .filter(|(_, l)| !l.trim().is_empty());
    let bad = |line, what| BadLine { line, what };
    let Some((line, header)) = lines.next() else {
        return Err(bad(1, "no header".to_string()));
    };
    let mut names = fields(header).map_err(|what| bad(line, what))?;
    let columns = names.len();
    if columns < 3 {
        let what = format!("{columns} columns; easting, northing and response are needed");
        return Err(bad(line, what));
    }
    let mut all = Observations {
        names: names.split_off(3),
        ..Observations::default()
    };
    for (line, text) in lines {
        let fields = fields(text).map_err(|what| bad(line, what))?;
        if fields.len() != columns {
            let what = format!("{} fields where the header has {columns}", fields.len());
            return Err(bad(line, what));
        }
        let mut values = Vec::with_capacity(columns);
        for (i, field) in fields.iter().enumerate() {
            match field.parse::<f64>() {
                Ok(v) => values.push(v),
                Err(_) => {
                    let what = format!("field {} is not a number: {field:?}", i + 1);
                    return Err(bad(line, what));
                }
            }
        }
        all.coords.push((values[0], values[1]));
        all.y.push(values[2]);
        all.x.push(values.split_off(3));
    }
    Ok(all)
}

#[cfg(test)]
mod tests {
    use super::*;

    fn what(text: &str) -> String {
        read(text).unwrap_err().to_string()
    }

    #[test]
    fn columns_by_position() {
        let all = read("e,n,kg,\"households, all\"\n1,2,3,4\n\n 5 ,6e1,-7,.5\r\n").unwrap();
        assert_eq!(all.coords, [(1.0, 2.0), (5.0, 60.0)]);
        assert_eq!(all.y, [3.0, -7.0]);
        assert_eq!(all.x, [[4.0], [0.5]]);
        assert_eq!(all.names, ["households, all"]);
    }

    #[test]
    fn no_predictor_and_no_observation() {
        let all = read("\u{FEFF}a,b,c\n1,2,3").unwrap();
        assert_eq!((all.x, all.names), (vec![vec![]], vec![]));
        assert_eq!(read("a,b,c\n").unwrap().y.len(), 0);
    }

    #[test]
    fn a_bad_line_is_named() {
        assert_eq!(what(""), "line 1: no header");
        assert_eq!(what("\n \n"), "line 1: no header");
        assert_eq!(
            what("a,b\n1,2\n"),
            "line 1: 2 columns; easting, northing and response are needed"
        );
        assert_eq!(
            what("a,b,c\n1,2,3\n\n1,2\n"),
            "line 4: 2 fields where the header has 3"
        );
        assert_eq!(
            what("a,b,c\n1,2,3\n1,x,3\n"),
            "line 3: field 2 is not a number: \"x\""
        );
        assert_eq!(
            what("a,b,c\n1,,3\n"),
            "line 2: field 2 is not a number: \"\""
        );
        assert_eq!(what("a,b,c\n1,\"2,3\n"), "line 2: a quote is not closed");
    }

    #[test]
    fn what_is_not_finite_is_left_to_the_fit() {
        let all = read("a,b,c\nnan,inf,-inf\n").unwrap();
        assert!(all.coords[0].0.is_nan());
        assert_eq!(all.y[0], f64::NEG_INFINITY);
    }
}
