//! Columns of text.

/// The most characters of a cell of text.
const MOST: usize = 60;

/// A column under its title.
pub struct Column {
    title: String,
    cells: Vec<String>,
}

impl Column {
    /// Text, which starts at the left, and is cut where it is long.
    pub fn of_text(title: &str, cells: impl IntoIterator<Item = String>) -> Column {
        let cut = |cell: String| match cell.chars().nth(MOST) {
            Some(_) => cell.chars().take(MOST - 3).chain("...".chars()).collect(),
            None => cell,
        };
        Column { title: title.to_string(), cells: cells.into_iter().map(cut).collect() }
    }

    /// Counts, which end at the right.
    pub fn of_counts(title: &str, counts: impl IntoIterator<Item = usize>) -> Column {
        let cells: Vec<String> = counts.into_iter().map(|count| count.to_string()).collect();
        let width = cells.iter().map(String::len).chain([title.len()]).max().unwrap_or(0);
        Column::of_text(title, cells.into_iter().map(|cell| format!("{cell:>width$}")))
    }

    /// Numbers, whose points stand one under the other.
    pub fn of_numbers(title: &str, numbers: impl IntoIterator<Item = String>) -> Column {
        let cells: Vec<String> = numbers.into_iter().collect();
        let before = |cell: &str| cell.find(['.', 'e']).unwrap_or(cell.len());
        let width = cells.iter().map(|cell| before(cell)).max().unwrap_or(0);
        Column::of_text(title, cells.iter().map(|cell| format!("{}{cell}", " ".repeat(width - before(cell)))))
    }

    fn width(&self) -> usize {
        self.cells.iter().chain([&self.title]).map(|cell| cell.chars().count()).max().unwrap_or(0)
    }
}

/// The lines of columns side by side: their titles, then their cells.
pub fn lines(columns: &[Column]) -> Vec<String> {
    let rows = columns.iter().map(|column| column.cells.len()).max().unwrap_or(0);
    let row = |row: Option<usize>| {
        let cell = |column: &Column| {
            let cell = row.map_or(Some(&column.title), |row| column.cells.get(row)).map_or("", String::as_str);
            format!("{cell:width$}", width = column.width())
        };
        columns.iter().map(cell).collect::<Vec<_>>().join("  ").trim_end().to_string()
    };
    std::iter::once(None).chain((0..rows).map(Some)).map(row).collect()
}

#[cfg(test)]
mod tests {
    use super::*;

    #[test]
    fn columns_stand_side_by_side() {
        let numbers = ["1500", "-0.5", "1e200", "2.5e-7", "NaN", "-"];
        let columns = [
            Column::of_counts("cue", [0, 10, 2, 3, 4, 5]),
            Column::of_text("step", ["é", "left 1"].map(String::from)),
            Column::of_numbers("e01", numbers.map(String::from)),
        ];
        let expected = "\
cue  step    e01
  0  é       1500
 10  left 1    -0.5
  2             1e200
  3             2.5e-7
  4           NaN
  5             -";
        let expected: Vec<&str> = expected.lines().collect();
        assert_eq!(lines(&columns), expected);
    }

    #[test]
    fn long_text_is_cut() {
        let column = Column::of_text("step", [60, 61].map(|count| "é".repeat(count)));
        assert_eq!(lines(&[column]), ["step".to_string(), "é".repeat(60), "é".repeat(57) + "..."]);
    }
}
