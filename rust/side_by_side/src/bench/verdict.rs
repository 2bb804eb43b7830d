//! What the bench says of its own numbers.

use super::measure::Row;
use super::{ORIGINAL_AT, PORT};

/// Whether the port keeps within a line's limit, by the tenth that the table shows.
pub fn of_instructions(limit: u32, row: &Row) -> String {
    let port = row[PORT].expect("the port has every line");
    let over = (port * 10.0).round() - f64::from(limit) * 10.0;
    if over > 0.0 {
        format!("<= {limit}: misses by {:.1}", over / 10.0)
    } else {
        format!("<= {limit}: reached")
    }
}

/// Whether the port is no slower than the original over its plain bus by more than a tenth.
pub fn of_time(row: &Row) -> String {
    let port = row[PORT].expect("the port has every line");
    match row[ORIGINAL_AT] {
        None => "-".into(),
        Some(original) if port <= original * 1.1 => "within a tenth: reached".into(),
        Some(original) => format!("within a tenth: misses, {:.2} of it", port / original),
    }
}

#[cfg(test)]
mod tests {
    use super::*;

    fn row(port: f64, original: Option<f64>) -> Row {
        let mut row = Row::default();
        (row[PORT], row[ORIGINAL_AT]) = (Some(port), original);
        row
    }

    #[test]
    fn a_limit_is_reached_up_to_its_tenth() {
        assert_eq!(of_instructions(40, &row(40.04, None)), "<= 40: reached");
        assert_eq!(
            of_instructions(40, &row(40.06, None)),
            "<= 40: misses by 0.1"
        );
        assert_eq!(
            of_instructions(40, &row(43.5, None)),
            "<= 40: misses by 3.5"
        );
    }

    #[test]
    fn a_tenth_more_than_the_original_is_allowed() {
        assert_eq!(of_time(&row(11.0, Some(10.0))), "within a tenth: reached");
        assert_eq!(
            of_time(&row(12.5, Some(10.0))),
            "within a tenth: misses, 1.25 of it"
        );
        assert_eq!(of_time(&row(12.5, None)), "-");
    }
}
