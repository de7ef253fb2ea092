//! Tables in plain text.

/// A row of a table, and what stands behind it.
pub struct Row {
    pub cells: Vec<String>,
    pub behind: &'static str,
}

/// Rows in columns as wide as their widest cells: the first to the left, the others to the right.
pub fn table(rows: &[Row]) -> String {
    let columns = rows.iter().map(|row| row.cells.len()).max().unwrap_or(0);
    let wide = |column: usize| {
        let cells = rows.iter().filter_map(|row| row.cells.get(column));
        cells.map(|cell| cell.chars().count()).max().unwrap_or(0)
    };
    let widths: Vec<usize> = (0..columns).map(wide).collect();
    rows.iter().map(|row| line(row, &widths)).collect()
}

fn line(row: &Row, widths: &[usize]) -> String {
    let cell = |(column, (cell, wide)): (usize, (&String, &usize))| match column {
        0 => format!("  {cell:<wide$}"),
        _ => format!("  {cell:>wide$}"),
    };
    let cells: String = row.cells.iter().zip(widths).enumerate().map(cell).collect();
    format!("{}\n", format!("{cells}  {}", row.behind).trim_end())
}

#[cfg(test)]
mod tests {
    use super::*;

    #[test]
    fn columns_are_as_wide_as_their_widest_cells() {
        let row = |cells: &[&str], behind| Row {
            cells: cells.iter().map(|cell| cell.to_string()).collect(),
            behind,
        };
        let rows = [row(&["", "raw", "rho0"], ""), row(&["volume [m³]", "12", "3"], "note"), row(&["x"], "")];
        assert_eq!(table(&rows), "               raw  rho0\n  volume [m³]   12     3  note\n  x\n");
        assert_eq!(table(&[]), "");
    }
}
