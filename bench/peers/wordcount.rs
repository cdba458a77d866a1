//! Counts the words of standard input in a hash map, and writes them in the order of their bytes.
use std::collections::HashMap;
use std::io::{Read, Write};

fn main() {
    let mut text = Vec::new();
    std::io::stdin().read_to_end(&mut text).unwrap();
    let mut counts: HashMap<&[u8], u64> = HashMap::new();
    let blank = |b: &u8| matches!(b, b' ' | b'\t' | b'\n' | b'\r');
    for word in text.split(blank).filter(|word| !word.is_empty()) {
        *counts.entry(word).or_insert(0) += 1;
    }
    let mut list: Vec<_> = counts.into_iter().collect();
    list.sort();
    let mut out = Vec::new();
    for (word, count) in list {
        out.extend_from_slice(format!("{count} ").as_bytes());
        out.extend_from_slice(word);
        out.push(b'\n');
    }
    std::io::stdout().write_all(&out).unwrap();
}
