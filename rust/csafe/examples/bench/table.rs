//! A Markdown table, printed row by row as the rows are measured.

pub struct Table {
    /// The names of the columns, until they are printed.
    head: Option<String>,
}

impl Table {
    /// A table with these columns. They are printed before its first row, so that a table without rows is not seen.
    pub fn new(columns: &[&str]) -> Table {
        let rule = "---|".repeat(columns.len());
        let head = format!("\n| {} |\n|{rule}", columns.join(" | "));
        Table { head: Some(head) }
    }

    pub fn row(&mut self, cells: &[String]) {
        if let Some(head) = self.head.take() {
            println!("{head}");
        }
        println!("| {} |", cells.join(" | "));
    }
}
