//! Counts of what was found: a row for each thing that may be found, and whether all of them were.

/// What is counted, and where.
pub struct Table<const ROWS: usize, const COLUMNS: usize> {
    pub columns: [&'static str; COLUMNS],
    pub name: fn(usize) -> &'static str,
    /// Whether a row can occur in a column.
    pub occurs: fn(usize, usize) -> bool,
}

/// By row and column.
#[derive(Clone, Copy)]
pub struct Counts<const ROWS: usize, const COLUMNS: usize>([[u64; COLUMNS]; ROWS]);

impl<const ROWS: usize, const COLUMNS: usize> Default for Counts<ROWS, COLUMNS> {
    fn default() -> Self {
        Self([[0; COLUMNS]; ROWS])
    }
}

impl<const ROWS: usize, const COLUMNS: usize> Counts<ROWS, COLUMNS> {
    pub fn count(&mut self, row: usize, column: usize) {
        self.0[row][column] += 1;
    }

    pub fn add(&mut self, other: &Self) {
        for (row, others) in self.0.iter_mut().zip(&other.0) {
            row.iter_mut().zip(others).for_each(|(count, other)| *count += other);
        }
    }

    /// All of a column.
    pub fn sum(&self, column: usize) -> u64 {
        self.0.iter().map(|row| row[column]).sum()
    }

    /// The rows that can occur.
    pub fn print(&self, table: &Table<ROWS, COLUMNS>) {
        let width = (0..ROWS).map(|row| (table.name)(row).len()).fold(10, usize::max) + 2;
        let columns: String = table.columns.iter().map(|column| format!("{column:>12}")).collect();
        println!("{:<width$}{columns}", "");
        for (row, counts) in self.0.iter().enumerate() {
            if (0..COLUMNS).any(|column| (table.occurs)(row, column)) {
                let counts: String = counts.iter().map(|count| format!("{count:>12}")).collect();
                println!("{:<width$}{counts}", (table.name)(row));
            }
        }
    }

    /// Whether everything occurred that can.
    pub fn is_full(&self, table: &Table<ROWS, COLUMNS>) -> Result<(), String> {
        for (row, counts) in self.0.iter().enumerate() {
            for (column, count) in counts.iter().enumerate() {
                if *count == 0 && (table.occurs)(row, column) {
                    let (name, column) = ((table.name)(row), table.columns[column]);
                    return Err(format!("not everything occurred: {name}, {column}"));
                }
            }
        }
        Ok(())
    }
}

#[cfg(test)]
mod tests {
    use super::*;

    #[test]
    fn gaps_show() {
        let table = Table::<2, 2> {
            columns: ["left", "right"],
            name: |row| ["first", "second"][row],
            occurs: |row, column| (row, column) != (1, 1),
        };
        let mut counts = Counts::default();
        counts.count(0, 0);
        counts.count(1, 0);
        assert_eq!(counts.is_full(&table), Err("not everything occurred: first, right".into()));
        let mut other = Counts::default();
        other.count(0, 1);
        counts.add(&other);
        assert_eq!(counts.is_full(&table), Ok(()));
        assert_eq!([counts.sum(0), counts.sum(1)], [2, 1]);
    }
}
