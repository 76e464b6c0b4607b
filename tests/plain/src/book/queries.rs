//! The seven queries: lines 15.0 to 21.6 of the monograph, by formula.
//! "Facilities and components rise by number, pairs by component, then version."

use super::{ask, facilities, Book, Facilities, Number, Pair, COMPONENTS, VERSIONS};
use std::collections::BTreeSet;

impl Book {
    /// "is the component specified? no: 4", after the questions of every call.
    pub(super) fn ask_specified(&self, component: Number) -> Result<(), Number> {
        ask(self.is_sound(), 25)?;
        ask(component < COMPONENTS, 1)?;
        ask(self.is_specified(component), 4)
    }

    /// "NEEDS, parts: has it the version? no: 10", after the questions before it.
    pub(super) fn ask_pair(&self, component: Number, version: Number) -> Result<(), Number> {
        ask(self.is_sound(), 25)?;
        ask(component < COMPONENTS && version < VERSIONS, 1)?;
        ask(self.is_specified(component), 4)?;
        ask(self.has_version(component, version), 10)
    }

    /// SUPPLIES, line 15.2: what the component provides.
    pub fn supplies(&self, component: Number) -> Result<Facilities, Number> {
        self.ask_specified(component)?;
        Ok(self.provided_by(component).clone())
    }

    /// NEEDS, line 16.3: the needs of the pair.
    pub fn needs(&self, component: Number, version: Number) -> Result<Facilities, Number> {
        self.ask_pair(component, version)?;
        let mut known = self.all_needs();
        Ok(known.remove(&(component, version)).unwrap_or_default())
    }

    /// CHOICE, line 17.2: the pairs whose component provides all facilities
    /// given; 22 where a slice of so many rows is too short.
    pub fn choice(&self, wanted: u64, slice: usize) -> Result<Vec<Pair>, Number> {
        ask(self.is_sound(), 25)?;
        let wanted = facilities(wanted);
        let rows: Vec<Pair> = self
            .pairs()
            .filter(|(component, _)| wanted.is_subset(self.provided_by(*component)))
            .collect();
        ask(rows.len() <= slice, 22)?;
        Ok(rows)
    }

    /// STANDARD, line 18.2: the standard version.
    pub fn standard(&self, component: Number) -> Result<Number, Number> {
        self.ask_specified(component)?;
        self.standard_of(component).ok_or(4)
    }

    /// UNDEFINED, line 19.1: the specified components that are not defined.
    pub fn undefined(&self) -> Result<BTreeSet<Number>, Number> {
        ask(self.is_sound(), 25)?;
        let specified = self.specifications.keys().copied();
        Ok(specified.filter(|component| !self.is_defined(*component)).collect())
    }

    /// UNUSED, line 20.1: the modules that are usable in no system.
    pub fn unused(&self) -> Result<BTreeSet<Number>, Number> {
        ask(self.is_sound(), 25)?;
        let usable: BTreeSet<Number> =
            self.systems.values().flat_map(|system| system.usable.iter().copied()).collect();
        let modules = self.modules.keys().copied();
        Ok(modules.filter(|component| !usable.contains(component)).collect())
    }

    /// WHEREUSED, lines 21.2 to 21.6: "follows usable lists, not compositions."
    pub fn whereused(&self, component: Number) -> Result<BTreeSet<Number>, Number> {
        self.ask_specified(component)?;
        let mut part = BTreeSet::from([component]);
        let mut step = part.clone();
        while !step.is_empty() {
            step = self
                .systems
                .iter()
                .filter(|(system, held)| !part.contains(system) && !held.usable.is_disjoint(&step))
                .map(|(system, _)| *system)
                .collect();
            part.extend(&step);
        }
        part.remove(&component);
        Ok(part)
    }
}
