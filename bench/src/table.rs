//! Markdown tables.

pub struct Table {
    lines: Vec<String>,
}

impl Table {
    /// The first column holds names, the others numbers.
    pub fn new(head: &[&str]) -> Table {
        let rule = format!("|---|{}", "--:|".repeat(head.len() - 1));
        Table { lines: vec![line(head), rule] }
    }

    pub fn row(&mut self, cells: &[String]) {
        self.lines.push(line(cells));
    }

    pub fn print(&self) {
        println!("{}\n", self.lines.join("\n"));
    }
}

fn line<T: std::borrow::Borrow<str>>(cells: &[T]) -> String {
    format!("| {} |", cells.join(" | "))
}

/// Three digits that say something.
pub fn short(number: f64) -> String {
    match number {
        n if n >= 99.95 => thousands(n.round() as u64),
        n if n >= 9.995 => format!("{n:.1}"),
        n if n >= 0.9995 => format!("{n:.2}"),
        n if n >= 0.00995 => format!("{n:.3}"),
        n if n >= 0.0000995 => format!("{n:.5}"),
        n => format!("{n:.7}"),
    }
}

pub fn thousands(number: u64) -> String {
    let digits = number.to_string();
    let parts: Vec<&str> =
        digits.as_bytes().rchunks(3).rev().map(|part| std::str::from_utf8(part).expect("digits")).collect();
    parts.join(",")
}

/// Empty where there is nothing to compare with.
pub fn ratio(number: Option<f64>, other: Option<f64>) -> String {
    number.zip(other).map_or(String::new(), |(number, other)| short(number / other))
}

/// Says which books meet a target, by how much others miss it, and of which there is no ratio to judge by.
pub fn target(target: &str, ratios: &[(String, Option<f64>)], met: impl Fn(f64) -> bool) {
    if ratios.is_empty() {
        return;
    }
    let (mut judged, mut missing, mut unjudged) = (0, Vec::new(), Vec::new());
    for (book, ratio) in ratios {
        match *ratio {
            None => unjudged.push(book.clone()),
            Some(ratio) => {
                judged += 1;
                missing.extend((!met(ratio)).then(|| format!("{book} ({})", short(ratio))));
            }
        }
    }
    let named = |what: &str, books: &[String]| match books {
        [] => String::new(),
        books => format!("; {what} {}", books.join(", ")),
    };
    let others = named("not by", &missing) + &named("cannot be judged:", &unjudged);
    println!("Target, {target}: met by {} of {judged} books{others}.\n", judged - missing.len());
}
