//! Steps that are mostly refused, and steps that fill the tables.

use super::plan::{modvar_text, sysvar_text, SpecPlan, SysPlan};
use super::Generator;
use crate::book::{Number, Pair, MOST_VERSIONS};
use crate::language::KEYWORDS;

impl Generator {
    /// One step that asks for a refusal, or has its arguments at random.
    pub(super) fn go_wrong(&mut self) {
        match self.random.below(100) {
            0..=24 => self.stray(),
            25..=31 => self.spoil_spec(),
            32..=38 => self.spoil_module(),
            39..=66 => self.spoil_system(),
            67..=74 => self.spoil_modvar(),
            75..=86 => self.spoil_sysvar(),
            87..=94 => self.delete_held(),
            95..=98 => self.define_again(),
            _ => self.delete_system(),
        }
    }

    /// A component, mostly a specified one.
    fn any_component(&mut self) -> String {
        let specified = self.specified();
        let unspecified = self.unspecified_names();
        match self.random.below(10) {
            0..=6 => match self.random.pick(&specified) {
                Some(component) => self.component_name(component),
                None => self.new_name(),
            },
            7 | 8 => self.random.pick(&unspecified).unwrap_or_else(|| "none".to_string()),
            _ => self.new_name(),
        }
    }

    /// A version, mostly one that the component has.
    fn any_version(&mut self, component: &str) -> String {
        let number = self.session.tables.components.number(component.as_bytes());
        let versions = number.map_or(Vec::new(), |number| self.versions_of(number));
        match self.random.pick(&versions) {
            Some(version) if self.random.chance(60) => self.version_name(version),
            _ => self.some_version(),
        }
    }

    /// A command with its arguments at random.
    fn stray(&mut self) {
        let c = self.any_component();
        let v = self.any_version(&c);
        let member = self.any_component();
        let w = self.any_version(&member);
        let text = match self.random.below(16) {
            0 => format!("delspec {c}"),
            1 => format!("delmod {c}"),
            2 => format!("delsys {c}"),
            3 => format!("delmodvar {c} . {v}"),
            4 => format!("delsysvar {c} . {v}"),
            5 => format!("supplies {c}"),
            6 => format!("needs {c} . {v}"),
            7 => format!("standard {c}"),
            8 => format!("whereused {c}"),
            9 => format!("parts {c} . {v}"),
            10 => format!("choice {} , {} end", self.new_name(), self.new_name()),
            11 => format!("mod {c} ; {v} impl {} end", self.some_implementation()),
            12 => format!("sys {c} use {member} ; {v} = {member} end"),
            13 => format!("modvar {c} . {v} impl {}", self.some_implementation()),
            14 => format!("sysvar {c} . {v} = {member} . {w} end"),
            _ => format!("spec {c} provides {w} ; std {v} end"),
        };
        self.emit(&text);
    }

    fn spoil_spec(&mut self) {
        let mut plan = self.plan_part();
        match self.random.below(4) {
            0 => plan.versions.extend(plan.versions.first().cloned()),
            1 => plan.component = self.any_component(),
            2 => {
                let count = self.random.between(MOST_VERSIONS + 1, self.versions.len());
                let names = self.random.some(&self.versions.clone(), count);
                plan.versions = names.into_iter().map(|name| (name, Vec::new())).collect();
            }
            _ => {
                let own = plan.provides.clone();
                plan.versions.iter_mut().for_each(|version| version.1.extend(own.clone()));
            }
        }
        self.emit(&plan.text());
    }

    fn spoil_module(&mut self) {
        let undefined = self.undefined();
        let Some(component) = self.random.pick(&undefined) else {
            return;
        };
        let mut plan = self.plan_module(component);
        match self.random.below(3) {
            0 => plan.versions.extend(plan.versions.first().cloned()),
            1 if plan.versions.len() > 1 => {
                plan.versions.pop();
            }
            _ => plan.versions.push((self.some_version(), self.some_implementation())),
        }
        self.emit(&plan.text());
    }

    /// A definition for a component that has one, with its own versions.
    fn define_again(&mut self) {
        let (modules, systems) = (self.modules(), self.systems());
        let among = if self.random.chance(50) { modules } else { systems };
        let Some(component) = self.random.pick(&among) else {
            return;
        };
        let text = if self.random.chance(50) {
            self.plan_module(component).text()
        } else {
            let mut plan = self.plan_system_for(component);
            plan.usable.push(self.any_component());
            self.fill_empty(&mut plan);
            plan.text()
        };
        self.emit(&text);
    }

    /// Puts a member into each composition that has none.
    fn fill_empty(&mut self, plan: &mut SysPlan) {
        for (_, members) in &mut plan.compositions {
            if members.is_empty() {
                members.push((self.any_component(), None));
            }
        }
    }

    fn spoil_system(&mut self) {
        let candidates = match self.random.below(8) {
            0 => self.undefined(),
            _ => self.system_candidates(),
        };
        let Some(component) = self.random.pick(&candidates) else {
            return;
        };
        let mut plan = self.plan_system_for(component);
        plan.usable.extend(plan.usable.is_empty().then(|| self.any_component()));
        self.fill_empty(&mut plan);
        match self.random.below(11) {
            0 => plan.usable.extend(plan.usable.first().cloned()),
            1 => plan.usable.push(self.new_name()),
            2 => plan.usable.truncate(1),
            3 => self.close_circle(component, &mut plan),
            4 => plan.compositions.push((self.some_version(), plan.compositions[0].1.clone())),
            5 => plan.compositions.extend(plan.compositions.first().cloned()),
            6 => plan.usable.extend(self.unspecified_names().pop()),
            _ => self.spoil_composition(&mut plan),
        }
        self.emit(&plan.text());
    }

    /// Makes the system usable in itself, or through a system above it.
    fn close_circle(&mut self, component: Number, plan: &mut SysPlan) {
        let above = self.book().whereused(component).unwrap_or_default();
        let above: Vec<Number> = above.into_iter().collect();
        let other = self.random.pick(&above).unwrap_or(component);
        plan.usable.push(self.component_name(other));
    }

    fn spoil_composition(&mut self, plan: &mut SysPlan) {
        let place = self.random.below(plan.compositions.len());
        let usable = self.random.pick(&plan.usable);
        let Some((_, members)) = plan.compositions.get_mut(place) else {
            return;
        };
        match self.random.below(5) {
            0 => members.extend(members.first().cloned()),
            1 if members.len() > 1 => {
                members.pop();
            }
            2 => members.push((self.any_component(), None)),
            3 => members.extend(usable.map(|usable| (usable, None))),
            _ => {
                let version = self.some_version();
                members.iter_mut().take(1).for_each(|member| member.1 = Some(version.clone()));
            }
        }
    }

    fn spoil_modvar(&mut self) {
        let modules = self.modules();
        let Some(component) = self.fat(&modules) else {
            return;
        };
        let name = self.component_name(component);
        let (version, word) = (self.any_version(&name), self.some_implementation());
        let provides = self.book().provided_by(component).clone();
        let own: Vec<String> = provides.iter().map(|f| self.facility_name(*f)).collect();
        let text = match self.random.below(3) {
            0 => modvar_text((&name, &version), &own, &word),
            1 => modvar_text((&name, &self.some_version()), &own, &word),
            _ => self.plan_modvar(component),
        };
        self.emit(&text);
    }

    fn spoil_sysvar(&mut self) {
        let systems = self.systems();
        let Some(component) = self.fat(&systems) else {
            return;
        };
        let name = self.component_name(component);
        let mut members = self.plan_composition(component);
        match self.random.below(5) {
            0 => members.extend(members.first().cloned()),
            1 if members.len() > 1 => {
                members.pop();
            }
            2 => members.push((self.any_component(), None)),
            _ => {}
        }
        if members.is_empty() {
            members.push((self.any_component(), None));
        }
        let version = match self.random.below(4) {
            0 => self.any_version(&name),
            _ => self.some_version(),
        };
        self.emit(&sysvar_text(&name, &version, &members));
    }

    /// Asks to take out what a composition or usable list holds, or a standard version.
    fn delete_held(&mut self) {
        let pairs: Vec<Pair> = self.book().pairs().collect();
        let mut held = pairs.clone();
        held.retain(|(component, version)| {
            let standard = self.book().standard_of(*component) == Some(*version);
            let mut compositions =
                self.book().systems.values().flat_map(|system| system.compositions.values());
            !standard && compositions.any(|members| members.get(component) == Some(version))
        });
        let among = if self.random.chance(70) { held } else { pairs };
        let Some((component, version)) = self.random.pick(&among) else {
            return;
        };
        let (c, mut v) = (self.component_name(component), self.version_name(version));
        if self.random.chance(15) {
            v = self.some_version();
        }
        let text = match self.random.below(5) {
            0 => format!("delspec {c}"),
            _ if self.book().is_system(component) => format!("delsysvar {c} . {v}"),
            _ => format!("delmodvar {c} . {v}"),
        };
        self.emit(&text);
    }

    fn delete_system(&mut self) {
        let systems = self.systems();
        if let Some(component) = self.random.pick(&systems) {
            let name = self.component_name(component);
            self.emit(&format!("delsys {name}"));
        }
    }

    /// Something that is not of the language; it ends the session.
    pub(super) fn write_rubbish(&mut self) {
        const RUBBISH: [&str; 10] = [
            "{ open",
            "spec a provides ; a end",
            "spec a provides ; std a ; std b end",
            "mod a ; v impl \"\" end",
            "needs a",
            "choice a b end",
            "modvar a . v requires impl \"x\"",
            "out - x",
            "sys a use ; v = a end",
            "supplies in",
        ];
        let word = self.random.pick(&KEYWORDS).unwrap_or("end");
        let text = match self.random.below(3) {
            0 => format!("delspec {word}"),
            _ => self.random.pick(&RUBBISH).unwrap_or("=").to_string(),
        };
        self.write(&text);
        self.write("undefined");
    }

    /// Specifies components, until their table is full or a few are left.
    pub(super) fn fill_components(&mut self, all: bool) {
        let left = if all { 0 } else { self.random.between(1, 9) };
        for _ in 0..self.session.tables.components.free().saturating_sub(left) {
            let mut plan = self.plan_part();
            plan.component = self.new_name();
            self.emit(&plan.text());
        }
    }

    /// Uses up the places of versions and facilities with specs that go again.
    pub(super) fn fill_names(&mut self) {
        let held = self.unspecified_names();
        let Some(component) = held.first().cloned().or_else(|| self.spare_component()) else {
            return;
        };
        for _ in 0..40 {
            let tables = &self.session.tables;
            let versions = tables.versions.free().min(MOST_VERSIONS);
            let facilities = tables.facilities.free().min(5);
            let names = self.new_names(versions.max(1));
            let plan = SpecPlan {
                component: component.clone(),
                provides: self.new_names(facilities),
                versions: names.into_iter().map(|name| (name, Vec::new())).collect(),
                standard: 0,
            };
            self.emit(&plan.text());
            self.emit(&format!("delspec {component}"));
        }
    }

    /// Takes out a component that is usable in no system, and gives its name.
    fn spare_component(&mut self) -> Option<String> {
        let mut specified = self.specified().into_iter().map(|c| self.component_name(c));
        let name = specified.find(|name| self.would(&format!("delspec {name}")) == 0)?;
        self.emit(&format!("delspec {name}"));
        Some(name)
    }

    /// Uses up the places of implementations with modules that go again.
    pub(super) fn fill_implementations(&mut self) {
        for _ in 0..4 {
            for component in self.undefined() {
                let mut plan = self.plan_module(component);
                for (_, word) in &mut plan.versions {
                    *word = self.new_implementation();
                }
                self.emit(&plan.text());
                self.emit(&format!("delmod {}", plan.component));
            }
        }
    }
}
