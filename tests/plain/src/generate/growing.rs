//! Steps that are mostly accepted.

use super::plan::{modvar_text, sysvar_text, ModPlan, PlannedMember, SpecPlan, SysPlan};
use super::Generator;
use crate::book::{Facilities, Number, Pair, MOST_VERSIONS};
use std::collections::BTreeSet;

impl Generator {
    /// One step of growth; a book with little in it gets a part.
    pub(super) fn grow(&mut self) {
        if self.book().specifications.len() < 3 {
            return self.grow_part();
        }
        match self.random.below(100) {
            0..=19 => self.grow_part(),
            20..=31 => self.grow_module(),
            32..=52 => self.grow_system(),
            53..=60 => self.grow_system_for_undefined(),
            61..=67 => self.grow_modvar(),
            68..=75 => self.grow_sysvar(),
            76..=86 => self.shrink(),
            _ => self.query(),
        }
    }

    pub(super) fn specified(&self) -> Vec<Number> {
        self.book().specifications.keys().copied().collect()
    }

    pub(super) fn systems(&self) -> Vec<Number> {
        self.book().systems.keys().copied().collect()
    }

    pub(super) fn modules(&self) -> Vec<Number> {
        self.book().modules.keys().copied().collect()
    }

    pub(super) fn undefined(&self) -> Vec<Number> {
        let specified = self.specified().into_iter();
        specified.filter(|component| !self.book().is_defined(*component)).collect()
    }

    pub(super) fn versions_of(&self, component: Number) -> Vec<Number> {
        let specification = self.book().specifications.get(&component);
        specification.map_or(Vec::new(), |s| s.versions.keys().copied().collect())
    }

    pub(super) fn requires_nothing(&self, component: Number) -> bool {
        let specification = self.book().specifications.get(&component);
        specification.is_some_and(|s| s.versions.values().all(BTreeSet::is_empty))
    }

    /// Names in the table of components that are not specified.
    pub(super) fn unspecified_names(&self) -> Vec<String> {
        let places = self.session.tables.components.places.keys();
        let free = places.filter(|number| !self.book().is_specified(**number));
        free.map(|number| self.component_name(*number)).collect()
    }

    /// A name for a component that is to be specified.
    pub(super) fn new_component(&mut self) -> String {
        let held = self.unspecified_names();
        let new = self.session.tables.components.free() > 0 && self.random.chance(70);
        match self.random.pick(&held) {
            Some(name) if !new && !self.random.chance(self.fresh) => name,
            _ => self.new_name(),
        }
    }

    /// A version name of the pool, sometimes a new one.
    pub(super) fn some_version(&mut self) -> String {
        match self.random.pick(&self.versions) {
            Some(name) if !self.random.chance(self.fresh) => name,
            _ => self.new_name(),
        }
    }

    /// Facilities of the pool outside others, sometimes a new one.
    pub(super) fn some_facilities(&mut self, most: usize, outside: &[String]) -> Vec<String> {
        let pool = self.facilities.iter().filter(|name| !outside.contains(name));
        let pool: Vec<String> = pool.cloned().collect();
        let mut names = self.random.some(&pool, most);
        if most > 0 && self.random.chance(self.fresh) {
            names.push(self.new_name());
        }
        names
    }

    pub(super) fn some_implementation(&mut self) -> String {
        match self.random.pick(&self.implementations) {
            Some(word) if !self.random.chance(self.fresh) => word,
            _ => self.new_implementation(),
        }
    }

    fn grow_part(&mut self) {
        let plan = self.plan_part();
        self.emit_accepted(&plan.text());
    }

    /// A spec of a component that is to be a module, or to stay undefined.
    pub(super) fn plan_part(&mut self) -> SpecPlan {
        let most = self.random.pick(&[0, 1, 1, 1, 2, 2, 3]).unwrap_or(1);
        let provides = self.some_facilities(most, &[]);
        let count = match self.random.below(12) {
            0 => MOST_VERSIONS,
            _ => self.random.between(1, 3),
        };
        let needy = self.random.chance(65);
        let names = self.random.some(&self.versions.clone(), count);
        let versions: Vec<_> = names
            .into_iter()
            .map(|version| {
                let most = if needy { self.random.below(3) } else { 0 };
                (version, self.some_facilities(most, &provides))
            })
            .collect();
        SpecPlan {
            component: self.new_component(),
            standard: self.random.below(versions.len()),
            provides,
            versions,
        }
    }

    fn grow_module(&mut self) {
        let undefined = self.undefined();
        if let Some(component) = self.random.pick(&undefined) {
            let plan = self.plan_module(component);
            self.emit_accepted(&plan.text());
        }
    }

    pub(super) fn plan_module(&mut self, component: Number) -> ModPlan {
        let versions = self.versions_of(component);
        let versions = self.random.some(&versions, versions.len());
        ModPlan {
            component: self.component_name(component),
            versions: versions
                .into_iter()
                .map(|version| (self.version_name(version), self.some_implementation()))
                .collect(),
        }
    }

    /// Members that cover the target and what they need themselves, as far as
    /// candidates that don't conflict provide it.
    pub(super) fn compose(&mut self, target: &Facilities, candidates: &[Number]) -> Vec<Pair> {
        let needs = self.book().all_needs();
        let (mut p, mut members) = (Facilities::new(), Vec::new());
        let mut wanted = target.clone();
        loop {
            let open: Facilities = wanted.difference(&p).copied().collect();
            let fits = |component: &&Number| {
                let provides = self.book().provided_by(**component);
                provides.is_disjoint(&p)
                    && (!provides.is_disjoint(&open) || (wanted.is_empty() && members.is_empty()))
            };
            let choices: Vec<Number> = candidates.iter().filter(fits).copied().collect();
            let systems = choices.iter().filter(|component| self.book().is_system(**component));
            let systems: Vec<Number> = systems.copied().collect();
            let prefer = !systems.is_empty() && self.random.chance(60);
            let Some(member) = self.random.pick(if prefer { &systems } else { &choices }) else {
                return members;
            };
            let versions = self.versions_of(member);
            let Some(version) = self.random.pick(&versions) else {
                return members;
            };
            p.extend(self.book().provided_by(member));
            wanted.extend(needs.get(&(member, version)).into_iter().flatten());
            members.push((member, version));
        }
    }

    /// Members by names; a standard version is often left out.
    pub(super) fn planned(&mut self, members: &[Pair]) -> Vec<PlannedMember> {
        members
            .iter()
            .map(|(member, version)| {
                let standard = self.book().standard_of(*member) == Some(*version);
                let shown = !standard || self.random.chance(50);
                let version = shown.then(|| self.version_name(*version));
                (self.component_name(*member), version)
            })
            .collect()
    }

    /// A definition of a system with these versions, if one is found that fits.
    pub(super) fn plan_system(
        &mut self,
        component: &str,
        versions: &[String],
        target: &Facilities,
        candidates: &[Number],
    ) -> SysPlan {
        let mut usable = BTreeSet::new();
        let mut compositions = Vec::new();
        let mut chosen = candidates.to_vec();
        for version in versions {
            let members = self.compose(target, &chosen);
            usable.extend(members.iter().map(|(member, _)| *member));
            compositions.push((version.clone(), self.planned(&members)));
            if self.random.chance(70) {
                chosen = usable.iter().copied().collect();
            }
        }
        let most = self.random.below(3);
        usable.extend(self.random.some(candidates, most));
        let usable: Vec<Number> = usable.into_iter().collect();
        let usable = self.random.some(&usable, usable.len());
        SysPlan {
            component: component.to_string(),
            usable: usable.iter().map(|usable| self.component_name(*usable)).collect(),
            compositions,
        }
    }

    /// A few facilities that components provide, systems first.
    fn some_target(&mut self) -> Facilities {
        let mut target = Facilities::new();
        for _ in 0..self.random.between(1, 3) {
            let systems = self.systems();
            let from = match systems.is_empty() || self.random.chance(40) {
                true => self.specified(),
                false => systems,
            };
            let component = self.random.pick(&from).unwrap_or(0);
            let provides: Vec<Number> =
                self.book().provided_by(component).iter().copied().collect();
            target.extend(self.random.pick(&provides));
        }
        target
    }

    /// A new component with the definition as a system.
    fn grow_system(&mut self) {
        let target = self.some_target();
        let (specified, component) = (self.specified(), self.new_component());
        let count = self.random.pick(&[1, 1, 2, 2, 3]).unwrap_or(1);
        let names = self.random.some(&self.versions.clone(), count);
        let spec = SpecPlan {
            component: component.clone(),
            provides: target.iter().map(|facility| self.facility_name(*facility)).collect(),
            versions: names.iter().map(|name| (name.clone(), Vec::new())).collect(),
            standard: self.random.below(names.len()),
        };
        if specified.is_empty() || !self.emit_accepted(&spec.text()) {
            return;
        }
        for _ in 0..4 {
            let plan = self.plan_system(&component, &names, &target, &specified);
            if !plan.usable.is_empty() && self.emit_accepted(&plan.text()) {
                break;
            }
        }
    }

    /// The undefined components that may become systems.
    pub(super) fn system_candidates(&self) -> Vec<Number> {
        let undefined = self.undefined().into_iter();
        undefined.filter(|component| self.requires_nothing(*component)).collect()
    }

    /// A plan for a component that is specified already.
    pub(super) fn plan_system_for(&mut self, component: Number) -> SysPlan {
        let above = self.book().whereused(component).unwrap_or_default();
        let specified = self.specified().into_iter();
        let candidates: Vec<Number> =
            specified.filter(|other| *other != component && !above.contains(other)).collect();
        let versions = self.versions_of(component);
        let versions: Vec<String> = versions.iter().map(|v| self.version_name(*v)).collect();
        let target = self.book().provided_by(component).clone();
        let name = self.component_name(component);
        self.plan_system(&name, &versions, &target, &candidates)
    }

    fn grow_system_for_undefined(&mut self) {
        let candidates = self.system_candidates();
        let Some(component) = self.random.pick(&candidates) else {
            return;
        };
        for _ in 0..3 {
            let plan = self.plan_system_for(component);
            if !plan.usable.is_empty() && self.emit_accepted(&plan.text()) {
                break;
            }
        }
    }

    /// One of the components, often the one with the most versions.
    pub(super) fn fat(&mut self, components: &[Number]) -> Option<Number> {
        if self.random.chance(40) {
            let fattest = components.iter().max_by_key(|c| self.versions_of(**c).len());
            return fattest.copied();
        }
        self.random.pick(components)
    }

    fn grow_modvar(&mut self) {
        let modules = self.modules();
        if let Some(component) = self.fat(&modules) {
            let text = self.plan_modvar(component);
            self.emit_accepted(&text);
        }
    }

    pub(super) fn plan_modvar(&mut self, component: Number) -> String {
        let provides = self.book().provided_by(component).clone();
        let provides: Vec<String> = provides.iter().map(|f| self.facility_name(*f)).collect();
        let most = self.random.below(3);
        let required = self.some_facilities(most, &provides);
        let (version, word) = (self.some_version(), self.some_implementation());
        modvar_text((&self.component_name(component), &version), &required, &word)
    }

    fn grow_sysvar(&mut self) {
        let systems = self.systems();
        if let Some(component) = self.fat(&systems) {
            let members = self.plan_composition(component);
            let version = self.some_version();
            if !members.is_empty() {
                let name = self.component_name(component);
                self.emit_accepted(&sysvar_text(&name, &version, &members));
            }
        }
    }

    /// A composition for a system that is defined already.
    pub(super) fn plan_composition(&mut self, component: Number) -> Vec<PlannedMember> {
        let usable = self.book().systems.get(&component).map(|system| &system.usable);
        let usable: Vec<Number> = usable.into_iter().flatten().copied().collect();
        let target = self.book().provided_by(component).clone();
        let members = self.compose(&target, &usable);
        self.planned(&members)
    }

    /// Takes something out.
    fn shrink(&mut self) {
        let word = self.random.pick(&["delspec", "delmod", "delsys", "delmodvar", "delsysvar"]);
        let word = word.unwrap_or("delmod");
        let among = match word {
            "delspec" => self.specified(),
            "delmod" | "delmodvar" => self.modules(),
            _ => self.systems(),
        };
        let Some(component) = self.random.pick(&among) else {
            return;
        };
        let name = self.component_name(component);
        let versions = self.versions_of(component);
        match self.random.pick(&versions) {
            Some(version) if word.ends_with("var") => {
                let version = self.version_name(version);
                self.emit_accepted(&format!("{word} {name} . {version}"))
            }
            _ => self.emit_accepted(&format!("{word} {name}")),
        };
    }

    /// A query about something that exists.
    fn query(&mut self) {
        if self.random.chance(self.outs) {
            self.emit("out");
            return;
        }
        let pairs: Vec<Pair> = self.book().pairs().collect();
        let systems = self.systems();
        let deep: Vec<Pair> = pairs.iter().filter(|p| systems.contains(&p.0)).copied().collect();
        let among = if self.random.chance(60) { deep } else { pairs };
        let Some((component, version)) = self.random.pick(&among) else {
            return;
        };
        let (c, v) = (self.component_name(component), self.version_name(version));
        let most = self.random.below(3);
        let wanted = self.some_facilities(most, &[]).join(" , ");
        let text = match self.random.below(10) {
            0 => format!("supplies {c}"),
            1 | 2 => format!("needs {c} . {v}"),
            3 => format!("choice {wanted} end"),
            4 => format!("standard {c}"),
            5 => "undefined".to_string(),
            6 => "unused".to_string(),
            7 => format!("whereused {c}"),
            _ => format!("parts {c} . {v}"),
        };
        self.emit(&text);
    }
}
