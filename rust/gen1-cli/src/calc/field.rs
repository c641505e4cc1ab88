//! A battle for a calculation: two active members, with the stages, status, HP and conditions of the options.
use crate::commands::begun;
use clap::{Args, ValueEnum};
use gen1::{Battle, Conditions, HpChange, Kind, SideState, Team};

/// The differences from two members that have just been sent out.
#[derive(Args, Clone, Default)]
pub struct Field {
    /// Stages of the attacker, such as atk=+2,spc=-1; the stats are atk, def, spe, spc, acc and eva
    #[arg(long, value_name = "STAGES", value_parser = stages_in, allow_hyphen_values = true)]
    attacker_stages: Option<Stages>,
    /// Stages of the defender
    #[arg(long, value_name = "STAGES", value_parser = stages_in, allow_hyphen_values = true)]
    defender_stages: Option<Stages>,
    /// The attacker's status; a burn halves its Attack
    #[arg(long, value_enum, value_name = "STATUS")]
    attacker_status: Option<Ailment>,
    /// The defender's status
    #[arg(long, value_enum, value_name = "STATUS")]
    defender_status: Option<Ailment>,
    /// The HP that the attacker has left, as a number or a percentage
    #[arg(long, value_name = "HP", value_parser = hp_in)]
    attacker_hp: Option<Hp>,
    /// The HP that the defender has left, as a number or a percentage
    #[arg(long, value_name = "HP", value_parser = hp_in)]
    defender_hp: Option<Hp>,
    /// The defender has Reflect
    #[arg(long)]
    reflect: bool,
    /// The defender has Light Screen
    #[arg(long)]
    light_screen: bool,
    /// The attacker has Focus Energy
    #[arg(long)]
    focus_energy: bool,
    /// The defender has a Substitute with this many HP; without HP a quarter of the maximum
    #[arg(long, value_name = "HP", num_args = 0..=1, default_missing_value = "0", value_parser = clap::value_parser!(u8).range(0..=249))]
    substitute: Option<u8>,
    /// The HP that the defender gains between two uses
    #[arg(long, value_name = "HP", default_value_t = 0)]
    defender_gains: u16,
    /// The HP that the defender then loses between two uses, such as by poison
    #[arg(long, value_name = "HP", default_value_t = 0)]
    defender_loses: u16,
}

/// Stages of Attack, Defense, Speed, Special, accuracy and evasion.
#[derive(Clone, Copy, Debug, Default, PartialEq)]
pub struct Stages([i8; 6]);

#[derive(Clone, Copy, Debug, ValueEnum)]
enum Ailment {
    Slp,
    Psn,
    Brn,
    Frz,
    Par,
}

impl Ailment {
    fn kind(self) -> Kind {
        match self {
            Ailment::Slp => Kind::Sleep,
            Ailment::Psn => Kind::Poison,
            Ailment::Brn => Kind::Burn,
            Ailment::Frz => Kind::Freeze,
            Ailment::Par => Kind::Paralysis,
        }
    }
}

/// HP that are left.
#[derive(Clone, Copy, Debug, PartialEq)]
pub enum Hp {
    Exactly(u16),
    PerCent(u16),
}

impl Hp {
    fn of(self, max: u16) -> u16 {
        match self {
            Hp::Exactly(hp) => hp,
            // At most the maximum, which is a u16.
            Hp::PerCent(part) => (u32::from(max) * u32::from(part) / 100).max(1) as u16,
        }
    }
}

const STATS: [&str; 6] = ["atk", "def", "spe", "spc", "acc", "eva"];

fn stages_in(text: &str) -> Result<Stages, String> {
    let mut stages = Stages::default();
    for part in text.split(',') {
        let refused = || {
            format!("expected a stat and a stage from -6 to 6, such as atk=+2, found \"{part}\"")
        };
        let (name, stage) = part.split_once('=').ok_or_else(refused)?;
        let at = STATS
            .iter()
            .position(|stat| *stat == name.trim())
            .ok_or_else(refused)?;
        let stage = stage
            .trim()
            .parse()
            .ok()
            .filter(|stage| (-6..=6).contains(stage));
        stages.0[at] = stage.ok_or_else(refused)?;
    }
    Ok(stages)
}

fn hp_in(text: &str) -> Result<Hp, String> {
    let refused = || "expected a number from 1 to 999, or a percentage from 1% to 100%".to_string();
    let hp = match text.strip_suffix('%') {
        Some(part) => part
            .parse()
            .ok()
            .filter(|part| (1..=100).contains(part))
            .map(Hp::PerCent),
        None => text
            .parse()
            .ok()
            .filter(|hp| (1..=999).contains(hp))
            .map(Hp::Exactly),
    };
    hp.ok_or_else(refused)
}

/// The most turns of sleep.
const ASLEEP: u8 = 7;

impl Field {
    /// The battle of two teams whose first members are active as the options say, or which option does not fit them.
    pub fn battle(&self, one: &Team, two: &Team) -> Result<Battle, String> {
        let begun = begun(one, two);
        let state = begun.state();
        let [attacker, defender] = [0, 1].map(|at| state.sides[at].members[0].max_hp);
        let attacker = left(self.attacker_hp, attacker, "--attacker-hp")?;
        let defender = left(self.defender_hp, defender, "--defender-hp")?;
        let changed = begun.with_state(|state| {
            let [one, two] = &mut state.sides;
            put_member(one, attacker, self.attacker_stages, self.attacker_status);
            put_member(two, defender, self.defender_stages, self.defender_status);
            put_condition(one, self.focus_energy, Conditions::FOCUS_ENERGY);
            put_condition(two, self.reflect, Conditions::REFLECT);
            put_condition(two, self.light_screen, Conditions::LIGHT_SCREEN);
            self.put_substitute(two);
        });
        changed.map_err(|why| why.to_string())
    }

    fn put_substitute(&self, side: &mut SideState) {
        put_condition(side, self.substitute.is_some(), Conditions::SUBSTITUTE);
        // A quarter of 999 is 249.
        let quarter = (side.members[0].max_hp / 4) as u8;
        if let Some(active) = &mut side.active {
            active.substitute = self.substitute.map(|hp| if hp == 0 { quarter } else { hp });
        }
    }
}

/// The HP that a member of this maximum has left.
fn left(hp: Option<Hp>, max: u16, option: &str) -> Result<u16, String> {
    let left = hp.map_or(max, |hp| hp.of(max));
    match left <= max {
        true => Ok(left),
        false => Err(format!("{option}: expected at most {max} HP, found {left}")),
    }
}

/// Sets HP, stages and status of a side's first member, which is active. A burn and paralysis give one penalty each.
fn put_member(side: &mut SideState, hp: u16, stages: Option<Stages>, status: Option<Ailment>) {
    let member = &mut side.members[0];
    member.hp = hp;
    member.status = status.map(Ailment::kind);
    member.sleep = matches!(status, Some(Ailment::Slp)).then_some(ASLEEP);
    if let Some(active) = &mut side.active {
        active.stages = stages.unwrap_or_default().0;
        // Four zeros are computed from the stages and the status.
        active.stats = [0; 4];
    }
}

fn put_condition(side: &mut SideState, is_on: bool, which: Conditions) {
    if let Some(active) = side.active.as_mut().filter(|_| is_on) {
        active.conditions = active.conditions | which;
    }
}

impl Field {
    /// The differences, in words before the attacker and after the defender.
    pub fn words(&self) -> [String; 2] {
        let shifts = |stages: Option<Stages>| stages.map_or_else(String::new, shifted);
        let attacker = [shifts(self.attacker_stages), ailing(self.attacker_status)].concat();
        let defender = [shifts(self.defender_stages), ailing(self.defender_status)].concat();
        [attacker, defender]
    }

    /// The change of the defender's HP between two uses.
    pub fn change(&self) -> HpChange {
        HpChange {
            gained: self.defender_gains,
            lost: self.defender_loses,
        }
    }

    /// The conditions of the defender, in words after it.
    pub fn conditions(&self) -> String {
        let screens = [
            (self.reflect, "Reflect"),
            (self.light_screen, "Light Screen"),
        ];
        let named: Vec<_> = screens
            .iter()
            .filter(|(is_on, _)| *is_on)
            .map(|(_, name)| *name)
            .collect();
        if named.is_empty() {
            String::new()
        } else {
            format!(" with {}", named.join(" and "))
        }
    }
}

/// Stages in words, as `+2 atk `.
fn shifted(stages: Stages) -> String {
    let both = STATS.iter().zip(stages.0).filter(|(_, stage)| *stage != 0);
    both.map(|(name, stage)| format!("{stage:+} {name} "))
        .collect()
}

fn ailing(status: Option<Ailment>) -> String {
    let word = match status {
        None => "",
        Some(Ailment::Slp) => "sleeping ",
        Some(Ailment::Psn) => "poisoned ",
        Some(Ailment::Brn) => "burned ",
        Some(Ailment::Frz) => "frozen ",
        Some(Ailment::Par) => "paralysed ",
    };
    word.into()
}
