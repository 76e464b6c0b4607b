//! The parts list and its longest chain.

use super::{ask, Book, Number, Pair};
use std::collections::{BTreeMap, BTreeSet};

/// "The result carries the rows and a depth." The depth given here is the
/// longest chain itself.
#[derive(Clone, Debug, PartialEq, Eq)]
pub struct PartsList {
    pub rows: Vec<Pair>,
    pub depth: usize,
}

impl Book {
    /// "The parts list of a pair holds what the pair is made from"; 22 where a
    /// slice of so many rows is too short.
    pub fn parts(
        &self,
        component: Number,
        version: Number,
        slice: usize,
    ) -> Result<PartsList, Number> {
        self.ask_pair(component, version)?;
        let rows = self.in_order(self.made_from((component, version)));
        ask(rows.len() <= slice, 22)?;
        let depth = self.longest_chain(&rows);
        Ok(PartsList { rows, depth })
    }

    /// "itself and all pairs reached through compositions"
    fn made_from(&self, pair: Pair) -> BTreeSet<Pair> {
        let mut reached = BTreeSet::from([pair]);
        let mut open = vec![pair];
        while let Some(next) = open.pop() {
            for member in self.members(next) {
                if reached.insert(member) {
                    open.push(member);
                }
            }
        }
        reached
    }

    /// "At each row stands, of the pairs not yet listed whose members are all
    /// listed, the one with the lowest component, then the lowest version."
    fn in_order(&self, mut open: BTreeSet<Pair>) -> Vec<Pair> {
        let mut rows = Vec::new();
        let ready = |pair: &Pair, open: &BTreeSet<Pair>| {
            self.members(*pair).iter().all(|member| !open.contains(member))
        };
        while let Some(next) = open.iter().copied().find(|pair| ready(pair, &open)) {
            open.remove(&next);
            rows.push(next);
        }
        rows
    }

    /// "A chain goes from a pair to one of its members, and so on; its length
    /// counts pairs." Each pair stands after its members.
    fn longest_chain(&self, rows: &[Pair]) -> usize {
        let mut chains: BTreeMap<Pair, usize> = BTreeMap::new();
        for pair in rows {
            let members = self.members(*pair);
            let below = members.iter().filter_map(|member| chains.get(member)).max();
            let chain = below.copied().unwrap_or(0) + 1;
            chains.insert(*pair, chain);
        }
        chains.values().copied().max().unwrap_or(0)
    }
}
