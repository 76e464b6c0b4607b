//! The plain book by numbers: what it holds, needs, and the rules B1 to B9.

mod commands;
mod parts;
mod queries;

pub use parts::PartsList;

use std::collections::{BTreeMap, BTreeSet};

/// A number of a component, version, implementation or facility, or an answer.
pub type Number = u32;
/// A specified component with one of its versions.
pub type Pair = (Number, Number);
/// A set of facilities.
pub type Facilities = BTreeSet<Number>;
/// A composition gives each of its members one version.
pub type Composition = BTreeMap<Number, Number>;
/// What was computed: the needs of each pair.
pub type Needs = BTreeMap<Pair, Facilities>;
/// A question's number at the first no.
pub type Answer = Result<(), Number>;

/// A component is a number below 32.
pub const COMPONENTS: Number = 32;
/// A version is a number below 64.
pub const VERSIONS: Number = 64;
/// A facility is one of 64.
pub const FACILITIES: Number = 64;
/// An implementation is a number below 256.
pub const IMPLEMENTATIONS: Number = 256;
/// A specified component has 1 to 8 versions.
pub const MOST_VERSIONS: usize = 8;
/// The mark of a member whose version is left out, above every limit.
pub const LEFT_OUT: Number = Number::MAX;

static NO_FACILITIES: Facilities = Facilities::new();

/// The facilities that a component provides, its versions with the
/// facilities that each requires, and one standard version.
#[derive(Clone, Debug, PartialEq, Eq)]
pub struct Specification {
    pub provides: Facilities,
    pub versions: BTreeMap<Number, Facilities>,
    pub standard: Number,
}

/// A set of usable components and, for each version, a composition.
#[derive(Clone, Debug, Default, PartialEq, Eq)]
pub struct System {
    pub usable: BTreeSet<Number>,
    pub compositions: BTreeMap<Number, Composition>,
}

/// What a book holds. A module is one implementation for each version.
#[derive(Clone, Debug, Default, PartialEq, Eq)]
pub struct Book {
    pub specifications: BTreeMap<Number, Specification>,
    pub modules: BTreeMap<Number, BTreeMap<Number, Number>>,
    pub systems: BTreeMap<Number, System>,
}

/// A composition of a system, with the system's number.
struct Composed<'a> {
    component: Number,
    system: &'a System,
    composition: &'a Composition,
}

/// "a definition covers exactly the specified versions"
fn same_versions<A, B>(one: &BTreeMap<Number, A>, other: &BTreeMap<Number, B>) -> bool {
    one.keys().eq(other.keys())
}

fn all_below<'a>(mut numbers: impl Iterator<Item = &'a Number>, limit: Number) -> bool {
    numbers.all(|number| *number < limit)
}

impl Specification {
    fn below_limits(&self) -> bool {
        all_below(self.provides.iter(), FACILITIES)
            && all_below(self.versions.keys(), VERSIONS)
            && all_below(self.versions.values().flatten(), FACILITIES)
            && self.standard < VERSIONS
    }
}

impl System {
    fn below_limits(&self) -> bool {
        all_below(self.usable.iter(), COMPONENTS)
            && all_below(self.compositions.keys(), VERSIONS)
            && self.compositions.values().all(|composition| {
                all_below(composition.keys(), COMPONENTS)
                    && all_below(composition.values(), VERSIONS)
            })
    }
}

impl Book {
    /// A component may be specified.
    pub fn is_specified(&self, component: Number) -> bool {
        self.specifications.contains_key(&component)
    }

    /// A specified component may be defined as a module.
    pub fn is_module(&self, component: Number) -> bool {
        self.modules.contains_key(&component)
    }

    /// A specified component may be defined as a system.
    pub fn is_system(&self, component: Number) -> bool {
        self.systems.contains_key(&component)
    }

    /// A specified component may be defined, either as a module or as a system.
    pub fn is_defined(&self, component: Number) -> bool {
        self.is_module(component) || self.is_system(component)
    }

    /// Whether the component has the version.
    pub fn has_version(&self, component: Number, version: Number) -> bool {
        self.specifications
            .get(&component)
            .is_some_and(|specification| specification.versions.contains_key(&version))
    }

    /// How many versions the component has.
    pub fn version_count(&self, component: Number) -> usize {
        self.specifications.get(&component).map_or(0, |specification| specification.versions.len())
    }

    /// "where the mission lists or counts versions it means pairs"
    pub fn pairs(&self) -> impl Iterator<Item = Pair> + '_ {
        self.specifications.iter().flat_map(|(component, specification)| {
            specification.versions.keys().map(|version| (*component, *version))
        })
    }

    /// The standard version of a specified component.
    pub fn standard_of(&self, component: Number) -> Option<Number> {
        self.specifications.get(&component).map(|specification| specification.standard)
    }

    /// The facilities that a component provides; none where it is unspecified.
    pub fn provided_by(&self, component: Number) -> &Facilities {
        let specification = self.specifications.get(&component);
        specification.map_or(&NO_FACILITIES, |specification| &specification.provides)
    }

    /// The facilities that components provide together.
    pub fn provided_by_all<'a>(&self, components: impl Iterator<Item = &'a Number>) -> Facilities {
        components
            .filter_map(|component| self.specifications.get(component))
            .flat_map(|specification| specification.provides.iter().copied())
            .collect()
    }

    /// What the specified version requires.
    fn required_by(&self, (component, version): Pair) -> Facilities {
        self.specifications
            .get(&component)
            .and_then(|specification| specification.versions.get(&version))
            .cloned()
            .unwrap_or_default()
    }

    /// "Only a system's pair has members, those of its composition."
    pub fn members(&self, (component, version): Pair) -> Vec<Pair> {
        self.systems
            .get(&component)
            .and_then(|system| system.compositions.get(&version))
            .into_iter()
            .flatten()
            .map(|(member, version)| (*member, *version))
            .collect()
    }

    /// The needs of every pair, each computed once.
    pub fn all_needs(&self) -> Needs {
        let mut known = Needs::new();
        for pair in self.pairs() {
            self.needs_of(pair, &mut known);
        }
        known
    }

    /// "of a component that is no system, what its version requires; the needs
    /// of a system version are the union of its members' needs."
    fn needs_of(&self, pair: Pair, known: &mut Needs) -> Facilities {
        if let Some(needs) = known.get(&pair) {
            return needs.clone();
        }
        let needs = if self.is_system(pair.0) {
            // Without B4 the walk could come back here; it then finds this.
            known.insert(pair, Facilities::new());
            let mut union = Facilities::new();
            for member in self.members(pair) {
                union.extend(self.needs_of(member, known));
            }
            union
        } else {
            self.required_by(pair)
        };
        known.insert(pair, needs.clone());
        needs
    }

    fn composed(&self) -> impl Iterator<Item = Composed<'_>> {
        self.systems.iter().flat_map(|(component, system)| {
            system.compositions.values().map(|composition| Composed {
                component: *component,
                system,
                composition,
            })
        })
    }

    /// The components met from one through usable components, in one step or more.
    pub fn reached_from(&self, component: Number) -> BTreeSet<Number> {
        let mut reached = BTreeSet::new();
        let mut open = vec![component];
        while let Some(next) = open.pop() {
            for usable in self.systems.get(&next).into_iter().flat_map(|s| &s.usable) {
                if reached.insert(*usable) {
                    open.push(*usable);
                }
            }
        }
        reached
    }

    /// B1 "A version requires nothing that its component provides. The
    /// standard version is one of its versions."
    pub fn b1(&self) -> bool {
        self.specifications.values().all(|specification| {
            let mut requirements = specification.versions.values();
            requirements.all(|required| required.is_disjoint(&specification.provides))
                && specification.versions.contains_key(&specification.standard)
        })
    }

    /// B2 "Only specified components are defined or usable; none is both
    /// module and system; a definition covers exactly the specified versions;
    /// a system's specified requirements are empty."
    pub fn b2(&self) -> bool {
        let module_fits = |(component, module): (&Number, &BTreeMap<Number, Number>)| {
            !self.is_system(*component)
                && self
                    .specifications
                    .get(component)
                    .is_some_and(|specification| same_versions(module, &specification.versions))
        };
        let system_fits = |(component, system): (&Number, &System)| {
            system.usable.iter().all(|usable| self.is_specified(*usable))
                && self.specifications.get(component).is_some_and(|specification| {
                    same_versions(&system.compositions, &specification.versions)
                        && specification.versions.values().all(BTreeSet::is_empty)
                })
        };
        self.modules.iter().all(module_fits) && self.systems.iter().all(system_fits)
    }

    /// B3 "What a system provides is provided by its usable components together."
    pub fn b3(&self) -> bool {
        self.systems.iter().all(|(component, system)| {
            self.provided_by(*component).is_subset(&self.provided_by_all(system.usable.iter()))
        })
    }

    /// B4 "No system reaches itself through usable components, in one step or more."
    pub fn b4(&self) -> bool {
        let mut systems = self.systems.keys();
        systems.all(|component| !self.reached_from(*component).contains(component))
    }

    /// B5 "A composition has a member; each member is usable, with a version that it has."
    pub fn b5(&self) -> bool {
        self.composed().all(|composed| {
            let mut members = composed.composition.iter();
            !composed.composition.is_empty()
                && members.all(|(member, version)| {
                    composed.system.usable.contains(member) && self.has_version(*member, *version)
                })
        })
    }

    /// B6 "Two members provide no common facility."
    pub fn b6(&self) -> bool {
        self.composed().all(|composed| {
            let mut seen = Facilities::new();
            let mut members = composed.composition.keys();
            members.all(|member| self.provided_by(*member).iter().all(|f| seen.insert(*f)))
        })
    }

    /// "p is all that its members provide"
    fn p(&self, composed: &Composed) -> Facilities {
        self.provided_by_all(composed.composition.keys())
    }

    /// "r the union of its members' needs, each member's own included"
    fn r(&self, composed: &Composed, needs: &Needs) -> Facilities {
        let members = composed.composition.iter();
        members
            .filter_map(|(member, version)| needs.get(&(*member, *version)))
            .flatten()
            .copied()
            .collect()
    }

    /// B7 "Each member provides something in r or in what s provides."
    pub fn b7(&self, needs: &Needs) -> bool {
        self.composed().all(|composed| {
            let mut wanted = self.r(&composed, needs);
            wanted.extend(self.provided_by(composed.component));
            let mut members = composed.composition.keys();
            members.all(|member| !self.provided_by(*member).is_disjoint(&wanted))
        })
    }

    /// B8 "p holds all that s provides."
    pub fn b8(&self) -> bool {
        self.composed()
            .all(|composed| self.provided_by(composed.component).is_subset(&self.p(&composed)))
    }

    /// B9 "No facility in r outside p is provided by a usable component of s."
    pub fn b9(&self, needs: &Needs) -> bool {
        self.composed().all(|composed| {
            let p = self.p(&composed);
            let usable = self.provided_by_all(composed.system.usable.iter());
            let r = self.r(&composed, needs);
            r.difference(&p).all(|facility| !usable.contains(facility))
        })
    }

    /// "do B5 to B9 hold for every system"; B4 is asked before.
    pub fn b5_to_b9(&self) -> bool {
        if !(self.b5() && self.b6() && self.b8()) {
            return false;
        }
        let needs = self.all_needs();
        self.b7(&needs) && self.b9(&needs)
    }

    /// "are its numbers below their limits"
    pub fn below_limits(&self) -> bool {
        all_below(self.specifications.keys(), COMPONENTS)
            && self.specifications.values().all(Specification::below_limits)
            && all_below(self.modules.keys(), COMPONENTS)
            && self.modules.values().all(|module| {
                all_below(module.keys(), VERSIONS) && all_below(module.values(), IMPLEMENTATIONS)
            })
            && all_below(self.systems.keys(), COMPONENTS)
            && self.systems.values().all(System::below_limits)
    }

    /// "has each specified component 1 to 8 different versions"
    pub fn version_counts_fit(&self) -> bool {
        let mut specifications = self.specifications.values();
        specifications
            .all(|specification| (1..=MOST_VERSIONS).contains(&specification.versions.len()))
    }

    /// The question for 25, which judges a book from anywhere.
    pub fn is_sound(&self) -> bool {
        self.below_limits()
            && self.version_counts_fit()
            && self.b1()
            && self.b2()
            && self.b3()
            && self.b4()
            && self.b5_to_b9()
    }
}

/// "the number at the first no is its answer"
pub fn ask(yes: bool, number: Number) -> Answer {
    if yes {
        Ok(())
    } else {
        Err(number)
    }
}

/// "Without one it answers 0, accepted"
pub fn number_of(answer: Answer) -> Number {
    answer.err().unwrap_or(0)
}

/// A facility set is a 64-bit number, one bit for each facility.
pub fn facilities(bits: u64) -> Facilities {
    (0..FACILITIES).filter(|facility| bits >> facility & 1 == 1).collect()
}

/// The 64-bit number of a facility set.
pub fn bits(facilities: &Facilities) -> u64 {
    facilities
        .iter()
        .filter(|facility| **facility < FACILITIES)
        .fold(0, |bits, facility| bits | 1 << facility)
}
