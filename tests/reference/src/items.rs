//! LR(0) items, numbered: the items of production 0 with the dot moving to the
//! right, then those of production 1, .., last those of the added production.

use crate::grammar::Grammar;

pub struct Items {
    /// The item of each production with the dot at its left end.
    pub first: Vec<usize>,
    /// Production and dot of each item.
    pub at: Vec<(usize, usize)>,
    /// The symbol after the dot.
    pub after: Vec<Option<usize>>,
}

impl Items {
    pub fn new(grammar: &Grammar) -> Items {
        let mut items = Items { first: Vec::new(), at: Vec::new(), after: Vec::new() };
        for (production, right) in grammar.rights.iter().enumerate() {
            items.first.push(items.at.len());
            for dot in 0..=right.len() {
                items.at.push((production, dot));
                items.after.push(right.get(dot).copied());
            }
        }
        items
    }

    pub fn count(&self) -> usize {
        self.at.len()
    }

    /// What stands behind the symbol after the dot of an item.
    pub fn behind<'a>(&self, grammar: &'a Grammar, item: usize) -> &'a [usize] {
        let (production, dot) = self.at[item];
        &grammar.rights[production][dot + 1..]
    }
}
