//! Tables of text, plain or as Markdown.

pub struct Table {
    head: Vec<String>,
    rows: Vec<Vec<String>>,
}

impl Table {
    pub fn new(head: &[&str]) -> Table {
        Table { head: head.iter().map(|name| name.to_string()).collect(), rows: Vec::new() }
    }

    pub fn add(&mut self, row: Vec<String>) {
        self.rows.push(row);
    }

    pub fn print(&self, markdown: bool) {
        let (between, edge) = if markdown { (" | ", "|") } else { ("  ", "") };
        let line = |row: &[String]| {
            let cells: Vec<String> = row.iter().enumerate().map(|(k, text)| self.pad(k, text)).collect();
            let text = cells.join(between);
            println!("{}", if markdown { format!("{edge} {text} {edge}") } else { text });
        };
        line(&self.head);
        if markdown {
            println!("|---{}|", "|--:".repeat(self.head.len() - 1));
        }
        self.rows.iter().for_each(|row| line(row));
        println!();
    }

    /// A cell filled up to the width of its column: the first column stands left, the others right.
    fn pad(&self, column: usize, text: &str) -> String {
        let rows = std::iter::once(&self.head).chain(&self.rows);
        let width = rows.map(|row| row[column].len()).max().unwrap_or(0);
        if column == 0 {
            format!("{text:width$}")
        } else {
            format!("{text:>width$}")
        }
    }
}
