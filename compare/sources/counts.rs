//! Counts words: generic functions, closures and inlined calls of std.
use std::collections::BTreeMap;

trait Weight {
    fn weight(&self) -> usize;
}

impl Weight for str {
    fn weight(&self) -> usize {
        self.chars().filter(|letter| letter.is_alphabetic()).count()
    }
}

fn tally<'a, W>(words: impl Iterator<Item = &'a W>) -> BTreeMap<usize, usize>
where
    W: Weight + ?Sized + 'a,
{
    let mut counts = BTreeMap::new();
    for word in words {
        *counts.entry(word.weight()).or_insert(0) += 1;
    }
    counts
}

fn main() {
    let text: Vec<String> = std::env::args().collect();
    let counts = tally(text.iter().map(String::as_str));
    for (weight, count) in &counts {
        if count > &3 {
            println!("{weight}: {count}");
        }
    }
}
