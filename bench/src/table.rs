//! A table that can be read on a terminal and pasted into a document.

pub struct Table {
    title: &'static str,
    lines: Vec<Vec<String>>,
}

impl Table {
    pub fn new(title: &'static str, head: Vec<String>) -> Table {
        Table { title, lines: vec![head] }
    }

    pub fn add(&mut self, line: Vec<String>) {
        assert_eq!(line.len(), self.lines[0].len());
        self.lines.push(line);
    }

    /// The first column has names and goes to the left, the others go to the right.
    pub fn print(&self) {
        let width = |k: usize| self.lines.iter().map(|line| line[k].len()).max().unwrap();
        let widths: Vec<usize> = (0..self.lines[0].len()).map(width).collect();
        println!("{}:\n", self.title);
        for (k, line) in self.lines.iter().enumerate() {
            print!("| {:<1$} |", line[0], widths[0]);
            for (word, width) in line.iter().zip(&widths).skip(1) {
                print!(" {word:>width$} |");
            }
            println!();
            if k == 0 {
                let rules: String = widths[1..].iter().map(|width| "-".repeat(width + 1) + ":|").collect();
                println!("|{}|{rules}", "-".repeat(widths[0] + 2));
            }
        }
        println!();
    }
}

/// 1234567 as 1,234,567.
pub fn grouped(number: usize) -> String {
    let digits = number.to_string();
    let mut made = String::new();
    for (k, digit) in digits.chars().enumerate() {
        if k > 0 && (digits.len() - k) % 3 == 0 {
            made.push(',');
        }
        made.push(digit);
    }
    made
}
