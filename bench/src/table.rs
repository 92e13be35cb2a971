//! Tables in markdown, their columns as wide as what they hold.

pub struct Table {
    rows: Vec<Vec<String>>,
}

impl Table {
    pub fn new(heads: &[&str]) -> Self {
        let heads = heads.iter().map(|head| head.to_string()).collect();
        Table { rows: vec![heads] }
    }

    pub fn row(&mut self, cells: Vec<String>) {
        assert_eq!(cells.len(), self.rows[0].len());
        self.rows.push(cells);
    }

    /// The first `left` columns hold words, the others numbers.
    pub fn print(&self, left: usize) {
        let columns = 0..self.rows[0].len();
        let width = |column: usize| {
            let widths = self.rows.iter().map(|row| row[column].chars().count());
            widths.max().expect("there is a head")
        };
        let widths: Vec<usize> = columns.map(width).collect();
        for (place, row) in self.rows.iter().enumerate() {
            for (column, (cell, width)) in row.iter().zip(&widths).enumerate() {
                if column < left {
                    print!("| {cell:<width$} ");
                } else {
                    print!("| {cell:>width$} ");
                }
            }
            println!("|");
            if place == 0 {
                for (column, width) in widths.iter().enumerate() {
                    let line = "-".repeat(width + 1);
                    print!("|{line}{}", if column < left { '-' } else { ':' });
                }
                println!("|");
            }
        }
    }
}

/// A number with three digits that count, or all of them where it is longer.
pub fn number(value: f64) -> String {
    let before = value.abs().log10().floor().max(-6.0) as i32;
    let after = (2 - before).clamp(0, 6) as usize;
    format!("{value:.after$}")
}

/// A number, or a dash where there is none.
pub fn known(value: Option<f64>) -> String {
    value.map_or_else(|| String::from("-"), number)
}
