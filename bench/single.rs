// The word count by hand, in one thread: reads the lines, splits, counts in a hash map, sorts at
// the end, and prints what `storm plain` prints of examples/word_count with batches of 100.
use std::collections::HashMap;
use std::io::{BufWriter, Write};

// The text of a line `["..."]`. Lines with escapes are left to programs that read JSON.
fn sentence(line: &str) -> &str {
    let text = line.trim().strip_prefix("[\"").and_then(|rest| rest.strip_suffix("\"]"));
    let text = text.expect("one text a line");
    assert!(!text.contains('\\'), "no escapes");
    text
}

fn main() {
    let path = std::env::args().nth(1).expect("usage: single INPUT");
    let input = std::fs::read_to_string(path).expect("a file");
    let mut counts: HashMap<&str, u64> = HashMap::new();
    let mut records = 0;
    let mut nodes = 0u64;
    for line in input.lines() {
        records += 1;
        nodes += 1;
        for word in sentence(line).split(' ').filter(|word| !word.is_empty()) {
            *counts.entry(word).or_insert(0) += 1;
            nodes += 1;
        }
    }
    let mut cells: Vec<(&str, u64)> = counts.into_iter().collect();
    // the order of the keys' texts, where a quote ends each word
    cells.sort_by(|a, b| a.0.bytes().chain([b'"']).cmp(b.0.bytes().chain([b'"'])));
    let mut out = BufWriter::new(std::io::stdout().lock());
    for (word, count) in cells {
        writeln!(out, "cell counts [\"{word}\"] {count}").expect("writes");
    }
    writeln!(out, "ok {records} records {} batches", (records + 99) / 100).expect("writes");
    eprintln!("{nodes}");
}
