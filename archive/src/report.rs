//! Tables in Markdown, printed as they are measured and kept for docs/BENCHMARKS.md.

use crate::clock::Time;

/// A number with two or three digits that count.
pub fn short(n: f64) -> String {
    match n {
        n if n < 10.0 => format!("{n:.2}"),
        n if n < 100.0 => format!("{n:.1}"),
        n => crate::trial::grouped(n.round() as u64),
    }
}

/// Best / median.
pub fn both(time: Time) -> String {
    format!("{} / {}", short(time.best), short(time.median))
}

/// The ratio of the best.
pub fn ratio(a: Time, b: Time) -> String {
    short(a.best / b.best)
}

/// Tables by their names.
#[derive(Default)]
pub struct Report {
    tables: Vec<(String, String)>,
}

impl Report {
    /// Begins the table of this name; the first column is what is measured.
    pub fn table(&mut self, name: &str, columns: &[&str]) {
        println!("\n{name}");
        self.tables.push((name.to_string(), String::new()));
        self.row(columns);
        let rule: Vec<&str> = columns.iter().map(|_| "---").collect();
        self.row(&rule);
    }

    pub fn row(&mut self, cells: &[&str]) {
        let line = format!("| {} |\n", cells.join(" | "));
        print!("{line}");
        self.tables.last_mut().expect("a table has begun").1.push_str(&line);
    }

    /// The page with each table in its place: between a line `<!-- NAME -->` and the next line `<!-- end -->`.
    pub fn fill(&self, page: &str) -> String {
        let mut page = page.to_string();
        for (name, table) in &self.tables {
            let mark = format!("<!-- {name} -->\n");
            let from = page.find(&mark).unwrap_or_else(|| panic!("the page has no {mark}"));
            let from = from + mark.len();
            let size = page[from..].find("<!-- end -->").expect("a table's place has an end");
            page.replace_range(from..from + size, table);
        }
        page
    }
}
