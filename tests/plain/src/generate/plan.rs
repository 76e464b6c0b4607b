//! Adding commands before they are written, so that they can be spoiled.

/// A version with what it requires.
pub type PlannedVersion = (String, Vec<String>);
/// A member; its version may be left out.
pub type PlannedMember = (String, Option<String>);

#[derive(Clone, Debug, Default)]
pub struct SpecPlan {
    pub component: String,
    pub provides: Vec<String>,
    pub versions: Vec<PlannedVersion>,
    pub standard: usize,
}

#[derive(Clone, Debug, Default)]
pub struct ModPlan {
    pub component: String,
    pub versions: Vec<(String, String)>,
}

#[derive(Clone, Debug, Default)]
pub struct SysPlan {
    pub component: String,
    pub usable: Vec<String>,
    pub compositions: Vec<(String, Vec<PlannedMember>)>,
}

fn requires(facilities: &[String]) -> String {
    match facilities {
        [] => String::new(),
        _ => format!("requires {}", facilities.join(" , ")),
    }
}

/// The members parted by commas.
pub fn members_text(members: &[PlannedMember]) -> String {
    let member = |(member, version): &PlannedMember| match version {
        Some(version) => format!("{member} . {version}"),
        None => member.clone(),
    };
    members.iter().map(member).collect::<Vec<_>>().join(" , ")
}

/// A modvar command.
pub fn modvar_text(pair: (&str, &str), required: &[String], implementation: &str) -> String {
    let (component, version) = pair;
    format!("modvar {component} . {version} {} impl {implementation}", requires(required))
}

/// A sysvar command.
pub fn sysvar_text(component: &str, version: &str, members: &[PlannedMember]) -> String {
    format!("sysvar {component} . {version} = {} end", members_text(members))
}

impl SpecPlan {
    pub fn text(&self) -> String {
        let version = |(place, (version, required)): (usize, &PlannedVersion)| {
            let mark = if place == self.standard { "std" } else { "" };
            format!("{mark} {version} {}", requires(required))
        };
        let versions: Vec<String> = self.versions.iter().enumerate().map(version).collect();
        let (component, provides) = (&self.component, self.provides.join(" , "));
        format!("spec {component} provides {provides} ; {} end", versions.join(" ; "))
    }
}

impl ModPlan {
    pub fn text(&self) -> String {
        let version = |(version, word): &(String, String)| format!("{version} impl {word}");
        let versions: Vec<String> = self.versions.iter().map(version).collect();
        format!("mod {} ; {} end", self.component, versions.join(" ; "))
    }
}

impl SysPlan {
    pub fn text(&self) -> String {
        let composition = |(version, members): &(String, Vec<PlannedMember>)| {
            format!("{version} = {}", members_text(members))
        };
        let composed: Vec<String> = self.compositions.iter().map(composition).collect();
        let (component, usable) = (&self.component, self.usable.join(" , "));
        format!("sys {component} use {usable} ; {} end", composed.join(" ; "))
    }
}
