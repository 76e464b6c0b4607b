//! The ten commands on raw lists of numbers. Each puts its questions in
//! document 01's order and changes the book only after the last yes.

use super::{
    ask, facilities, Answer, Book, Composition, Number, Pair, Specification, System, COMPONENTS,
    IMPLEMENTATIONS, LEFT_OUT, MOST_VERSIONS, VERSIONS,
};
use std::collections::BTreeSet;

/// "Does each version stand once in a list, each component once in a
/// composition or usable list?"
fn each_once(mut numbers: impl Iterator<Item = Number>) -> bool {
    let mut seen = BTreeSet::new();
    numbers.all(|number| seen.insert(number))
}

fn components(composition: &[Pair]) -> impl Iterator<Item = Number> + '_ {
    composition.iter().map(|(component, _)| *component)
}

/// "Is each number below its limit?", for a list.
fn below(numbers: &[Number], limit: Number) -> bool {
    numbers.iter().all(|number| *number < limit)
}

/// "Is each number below its limit?", for members; a version may be left out.
fn members_below(composition: &[Pair]) -> bool {
    composition.iter().all(|(c, v)| *c < COMPONENTS && (*v < VERSIONS || *v == LEFT_OUT))
}

/// "Is each number below its limit?", for a component with a version.
fn pair_below(component: Number, version: Number) -> bool {
    component < COMPONENTS && version < VERSIONS
}

/// Questions 1 to 3 of ADD-SYS for its lists; a usable list may be empty.
fn ask_system_lists(usable: &[Number], versions: &[Number], compositions: &[Vec<Pair>]) -> Answer {
    let mut composed = compositions.iter();
    ask(
        below(usable, COMPONENTS)
            && below(versions, VERSIONS)
            && composed.all(|composition| members_below(composition))
            && versions.len() == compositions.len(),
        1,
    )?;
    ask(!versions.is_empty() && !compositions.iter().any(Vec::is_empty), 2)?;
    let mut composed = compositions.iter();
    ask(
        each_once(versions.iter().copied())
            && each_once(usable.iter().copied())
            && composed.all(|composition| each_once(components(composition))),
        3,
    )
}

impl Book {
    /// "ADD-SPEC puts in the specification given"
    pub fn add_spec(
        &mut self,
        component: Number,
        provides: u64,
        versions: &[Number],
        requires: &[u64],
        standard: Number,
    ) -> Answer {
        ask(self.is_sound(), 25)?;
        ask(
            pair_below(component, standard)
                && below(versions, VERSIONS)
                && versions.len() == requires.len(),
            1,
        )?;
        ask(!versions.is_empty(), 2)?;
        ask(each_once(versions.iter().copied()), 3)?;
        ask(!self.is_specified(component), 5)?;
        ask(versions.len() <= MOST_VERSIONS, 12)?;
        ask(requires.iter().all(|required| required & provides == 0), 13)?;
        ask(versions.contains(&standard), 14)?;
        let requirements = requires.iter().map(|required| facilities(*required));
        let specification = Specification {
            provides: facilities(provides),
            versions: versions.iter().copied().zip(requirements).collect(),
            standard,
        };
        self.specifications.insert(component, specification);
        Ok(())
    }

    /// "ADD-MOD and ADD-SYS put in the definition given"
    pub fn add_mod(
        &mut self,
        component: Number,
        versions: &[Number],
        implementations: &[Number],
    ) -> Answer {
        ask(self.is_sound(), 25)?;
        ask(
            component < COMPONENTS
                && below(versions, VERSIONS)
                && below(implementations, IMPLEMENTATIONS)
                && versions.len() == implementations.len(),
            1,
        )?;
        ask(!versions.is_empty(), 2)?;
        ask(each_once(versions.iter().copied()), 3)?;
        self.can_be_defined(component, versions)?;
        let module = versions.iter().copied().zip(implementations.iter().copied());
        self.modules.insert(component, module.collect());
        Ok(())
    }

    /// "ADD-MOD, ADD-SYS: is the component specified? is it undefined? are the
    /// listed versions exactly the specified ones?"
    fn can_be_defined(&self, component: Number, versions: &[Number]) -> Answer {
        let Some(specification) = self.specifications.get(&component) else {
            return Err(4);
        };
        ask(!self.is_defined(component), 8)?;
        let listed: BTreeSet<Number> = versions.iter().copied().collect();
        ask(listed.iter().eq(specification.versions.keys()), 9)
    }

    /// "ADD-MOD and ADD-SYS put in the definition given"
    pub fn add_sys(
        &mut self,
        component: Number,
        usable: &[Number],
        versions: &[Number],
        compositions: &[Vec<Pair>],
    ) -> Answer {
        ask(self.is_sound(), 25)?;
        ask(component < COMPONENTS, 1)?;
        ask_system_lists(usable, versions, compositions)?;
        self.can_be_defined(component, versions)?;
        ask(self.requires_nothing(component), 16)?;
        ask(usable.iter().all(|usable| self.is_specified(*usable)), 17)?;
        let filled = compositions.iter().map(|composition| self.filled(composition));
        let system = System {
            usable: usable.iter().copied().collect(),
            compositions: versions.iter().copied().zip(filled).collect(),
        };
        let mut after = self.clone();
        after.systems.insert(component, system);
        ask(after.b3(), 19)?;
        ask(after.b4(), 20)?;
        ask(after.b5_to_b9(), 21)?;
        *self = after;
        Ok(())
    }

    /// "are all its specified requirements empty?"
    fn requires_nothing(&self, component: Number) -> bool {
        self.specifications
            .get(&component)
            .is_some_and(|specification| specification.versions.values().all(BTreeSet::is_empty))
    }

    /// "A composition may leave a member's version out; the member's standard
    /// version is stored." An unspecified member keeps the mark, and B5 says no.
    fn filled(&self, composition: &[Pair]) -> Composition {
        composition
            .iter()
            .map(|(member, version)| match version {
                &LEFT_OUT => (*member, self.standard_of(*member).unwrap_or(LEFT_OUT)),
                version => (*member, *version),
            })
            .collect()
    }

    /// "DEL-SPEC takes it out, and a definition too"
    pub fn del_spec(&mut self, component: Number) -> Answer {
        ask(self.is_sound(), 25)?;
        ask(component < COMPONENTS, 1)?;
        ask(self.is_specified(component), 4)?;
        let mut systems = self.systems.values();
        ask(systems.all(|system| !system.usable.contains(&component)), 18)?;
        self.specifications.remove(&component);
        self.modules.remove(&component);
        self.systems.remove(&component);
        Ok(())
    }

    /// "DEL-MOD and DEL-SYS take it out"
    pub fn del_mod(&mut self, component: Number) -> Answer {
        ask(self.is_sound(), 25)?;
        ask(component < COMPONENTS, 1)?;
        ask(self.is_module(component), 6)?;
        self.modules.remove(&component);
        Ok(())
    }

    /// "DEL-MOD and DEL-SYS take it out"; "DEL-SYS has this beyond the
    /// monograph": B5 to B9 hold for every system afterwards.
    pub fn del_sys(&mut self, component: Number) -> Answer {
        ask(self.is_sound(), 25)?;
        ask(component < COMPONENTS, 1)?;
        ask(self.is_system(component), 7)?;
        let mut after = self.clone();
        after.systems.remove(&component);
        ask(after.b5_to_b9(), 21)?;
        *self = after;
        Ok(())
    }

    /// "ADD-MODVAR puts in the version with requirements and implementation"
    pub fn add_modvar(
        &mut self,
        component: Number,
        version: Number,
        requires: u64,
        implementation: Number,
    ) -> Answer {
        ask(self.is_sound(), 25)?;
        ask(pair_below(component, version) && implementation < IMPLEMENTATIONS, 1)?;
        ask(self.is_module(component), 6)?;
        ask(!self.has_version(component, version), 11)?;
        ask(self.version_count(component) < MOST_VERSIONS, 12)?;
        let required = facilities(requires);
        ask(required.is_disjoint(self.provided_by(component)), 13)?;
        if let Some(specification) = self.specifications.get_mut(&component) {
            specification.versions.insert(version, required);
        }
        if let Some(module) = self.modules.get_mut(&component) {
            module.insert(version, implementation);
        }
        Ok(())
    }

    /// "ADD-SYSVAR with composition and empty requirements"
    pub fn add_sysvar(
        &mut self,
        component: Number,
        version: Number,
        composition: &[Pair],
    ) -> Answer {
        ask(self.is_sound(), 25)?;
        ask(pair_below(component, version) && members_below(composition), 1)?;
        ask(!composition.is_empty(), 2)?;
        ask(each_once(components(composition)), 3)?;
        ask(self.is_system(component), 7)?;
        ask(!self.has_version(component, version), 11)?;
        ask(self.version_count(component) < MOST_VERSIONS, 12)?;
        let mut after = self.clone();
        if let Some(specification) = after.specifications.get_mut(&component) {
            specification.versions.insert(version, BTreeSet::new());
        }
        if let Some(system) = after.systems.get_mut(&component) {
            system.compositions.insert(version, self.filled(composition));
        }
        ask(after.b5_to_b9(), 21)?;
        *self = after;
        Ok(())
    }

    /// "DEL-MODVAR and DEL-SYSVAR take it out with these"
    pub fn del_modvar(&mut self, component: Number, version: Number) -> Answer {
        ask(self.is_sound(), 25)?;
        ask(pair_below(component, version), 1)?;
        ask(self.is_module(component), 6)?;
        self.can_be_taken_out(component, version)?;
        self.take_out(component, version);
        Ok(())
    }

    /// "DEL-MODVAR and DEL-SYSVAR take it out with these"
    pub fn del_sysvar(&mut self, component: Number, version: Number) -> Answer {
        ask(self.is_sound(), 25)?;
        ask(pair_below(component, version), 1)?;
        ask(self.is_system(component), 7)?;
        self.can_be_taken_out(component, version)?;
        self.take_out(component, version);
        Ok(())
    }

    /// "DEL-MODVAR, DEL-SYSVAR: has it the version? is the version not the
    /// standard one? does no composition hold this pair?"
    fn can_be_taken_out(&self, component: Number, version: Number) -> Answer {
        ask(self.has_version(component, version), 10)?;
        ask(self.standard_of(component) != Some(version), 15)?;
        let mut composed = self.composed();
        ask(composed.all(|composed| composed.composition.get(&component) != Some(&version)), 18)
    }

    fn take_out(&mut self, component: Number, version: Number) {
        if let Some(specification) = self.specifications.get_mut(&component) {
            specification.versions.remove(&version);
        }
        if let Some(module) = self.modules.get_mut(&component) {
            module.remove(&version);
        }
        if let Some(system) = self.systems.get_mut(&component) {
            system.compositions.remove(&version);
        }
    }
}
