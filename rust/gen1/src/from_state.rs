//! Battles from states that were written or changed.
use crate::generated::states::{self, BattleState};
use crate::{
    ActiveState, Battle, Kind, MemberState, Outcome, Place, Request, Side, SideState, Stat, State,
    UsedMove,
};
use core::fmt;

pub use crate::generated::states::{StateFault, StateField};

impl fmt::Display for StateFault {
    fn fmt(&self, f: &mut fmt::Formatter<'_>) -> fmt::Result {
        if self.field == StateField::Unnamed {
            return f.write_str("the fields do not fit together");
        }
        if self.side > 0 {
            write!(f, "side {}", self.side)?;
            if self.place > 0 {
                write!(f, ", member {}", self.place)?;
            }
            f.write_str(": ")?;
        }
        write!(f, "{}", name_of(self.field))?;
        if self.index > 0 {
            write!(f, " {}", self.index)?;
        }
        let [value, low, high] = [self.value, self.low, self.high].map(|it| given(self.field, it));
        write!(f, " is {value}")?;
        if low == high {
            write!(f, ", not {low}")
        } else if (low..=high).contains(&value) {
            write!(f, ", which does not fit the other fields")
        } else {
            write!(f, ", not {low} to {high}")
        }
    }
}

/// A number of a fault as it is in a [`State`], whose stages are from -6.
fn given(field: StateField, number: u32) -> i64 {
    match field {
        StateField::Stage => i64::from((number as u8).wrapping_sub(6) as i8),
        _ => i64::from(number),
    }
}

impl core::error::Error for StateFault {}

/// The name of a field, in words.
fn name_of(field: StateField) -> &'static str {
    match field {
        StateField::Unnamed => "a field",
        StateField::Limit => "the turn limit",
        StateField::Turn => "the turn",
        StateField::Index => "the index of the next number",
        StateField::Outcome => "the outcome",
        StateField::Rules => "the rules",
        StateField::Request => "the request",
        StateField::Species => "the species",
        StateField::Level => "the level",
        StateField::MaxHp => "the maximum HP",
        StateField::Hp => "the HP",
        StateField::OwnStat => "own stat",
        StateField::Status => "the status",
        StateField::Sleep => "the turns of sleep",
        StateField::Marked => "the mark of the sleep clause",
        StateField::Move => "move",
        StateField::Pp => "the PP of move",
        StateField::Place => "the place of the active member",
        StateField::Type => "type",
        StateField::Stage => "stage",
        StateField::Conditions => "the conditions",
        StateField::Substitute => "the HP of the Substitute",
        StateField::Confusion => "the turns of confusion",
        StateField::DisabledSlot => "the disabled slot",
        StateField::DisabledTurns => "the turns of Disable",
        StateField::BadPoison => "the Toxic counter",
        StateField::Turns => "the turns of the current move",
        StateField::Energy => "the energy of Bide",
        StateField::KeptAccuracy => "the kept accuracy",
        StateField::CurrentMove => "the current move",
        StateField::PickedMove => "the picked move",
        StateField::TiedCondition => "condition bit",
        StateField::CurrentStat => "current stat",
    }
}

impl Battle {
    /// Creates a battle from a state, such as one from [`Battle::state`] in which fields were changed.
    ///
    /// It accepts exactly the states whose 384 bytes [`Battle::load`] accepts, and [`Battle::state`] then returns the same state. If the
    /// four current stats of an active member are all 0, they are computed from its stages and its status.
    ///
    /// ```
    /// use gen1::{Battle, Choice, Side, Team, member};
    ///
    /// # fn main() -> Result<(), Box<dyn std::error::Error>> {
    /// let team = Team::new(&[member("Tauros", &["Body Slam"])?])?;
    /// let mut battle = Battle::new(&team, &team, [0; 10]);
    /// battle.update(Choice::Pass, Choice::Pass)?;
    /// let mut state = battle.state();
    /// state.sides[1].members[0].hp = 30;
    /// let battle = Battle::from_state(&state)?;
    /// assert_eq!(battle.state(), state);
    /// state.sides[1].members[0].hp = 400;
    /// let fault = Battle::from_state(&state).unwrap_err();
    /// assert_eq!(fault.to_string(), "side 2, member 1: the HP is 400, not 0 to 353");
    /// # Ok(())
    /// # }
    /// ```
    ///
    /// # Errors
    ///
    /// The first field that is wrong, in the order in which loading tests the bytes. The numbers of a fault about a stage are 6 more than the
    /// stage, 0 to 12; its text has the stage.
    pub fn from_state(state: &State) -> Result<Self, StateFault> {
        let packed = states::from_state(&plain_state(state))?;
        Ok(Battle { packed })
    }

    /// A copy of the battle with a state that a function has changed.
    ///
    /// ```
    /// # use gen1::{Battle, Choice, Kind, Side, Stat, Team, member};
    /// # fn main() -> Result<(), Box<dyn std::error::Error>> {
    /// # let team = Team::new(&[member("Tauros", &["Body Slam"])?])?;
    /// # let mut battle = Battle::new(&team, &team, [0; 10]);
    /// # battle.update(Choice::Pass, Choice::Pass)?;
    /// let puzzle = battle.with_state(|state| state.sides[0].members[0].moves[0].pp = 1)?;
    /// assert_eq!(puzzle.state().sides[0].members[0].moves[0].pp, 1);
    /// # Ok(())
    /// # }
    /// ```
    ///
    /// # Errors
    ///
    /// As for [`Battle::from_state`].
    pub fn with_state(&self, change: impl FnOnce(&mut State)) -> Result<Self, StateFault> {
        let mut state = self.state();
        change(&mut state);
        Battle::from_state(&state)
    }

    /// A copy of the battle with other HP of a member. A place without a member changes nothing.
    ///
    /// # Errors
    ///
    /// As for [`Battle::from_state`]: the HP are above the maximum, or the battle would have ended.
    pub fn with_hp(&self, side: Side, place: Place, hp: u16) -> Result<Self, StateFault> {
        self.with_state(|state| {
            if let Some(member) = member_mut(state, side, place) {
                member.hp = hp;
            }
        })
    }

    /// A copy of the battle with another status of a member, without the Toxic counter. A new sleep lasts `turns`, 1 to 7; other statuses
    /// ignore `turns`. If the member is active, its current stats are recomputed from its stages and the new status. A place without a
    /// member changes nothing.
    ///
    /// ```
    /// # use gen1::{Battle, Choice, Kind, Side, Stat, Team, member};
    /// # fn main() -> Result<(), Box<dyn std::error::Error>> {
    /// # let team = Team::new(&[member("Tauros", &["Body Slam"])?])?;
    /// # let mut battle = Battle::new(&team, &team, [0; 10]);
    /// # battle.update(Choice::Pass, Choice::Pass)?;
    /// let place = gen1::Place::new(1).unwrap();
    /// let burned = battle.with_status(Side::One, place, Some(Kind::Burn), 0)?;
    /// let before = battle.damage(Side::One, "Body Slam".parse()?, false)?;
    /// assert!(burned.damage(Side::One, "Body Slam".parse()?, false)?[38] < before[0]);
    /// # Ok(())
    /// # }
    /// ```
    ///
    /// # Errors
    ///
    /// As for [`Battle::from_state`]: the turns are not 1 to 7, or the member has fainted.
    pub fn with_status(
        &self,
        side: Side,
        place: Place,
        status: Option<Kind>,
        turns: u8,
    ) -> Result<Self, StateFault> {
        self.with_state(|state| {
            if let Some(member) = member_mut(state, side, place) {
                member.status = status;
                member.sleep = (status == Some(Kind::Sleep)).then_some(turns);
                member.marked = false;
                if let Some(active) = side_mut(state, side).active.as_mut() {
                    if active.place == place {
                        active.stats = [0; 4];
                    }
                }
            }
        })
    }

    /// A copy of the battle with another stage of the active member, -6 to 6. Its current stats are recomputed from its stages and its
    /// status. Before the first update nothing changes.
    ///
    /// ```
    /// # use gen1::{Battle, Choice, Side, Stat, Team, member};
    /// # fn main() -> Result<(), Box<dyn std::error::Error>> {
    /// # let team = Team::new(&[member("Tauros", &["Body Slam"])?])?;
    /// # let mut battle = Battle::new(&team, &team, [0; 10]);
    /// # battle.update(Choice::Pass, Choice::Pass)?;
    /// let faster = battle.with_stage(Side::Two, Stat::Speed, 2)?;
    /// let state = faster.state();
    /// let [one, two] = Side::BOTH.map(|side| state.side(side).active.as_ref().unwrap().stats[2]);
    /// assert_eq!((one, two), (318, 636));
    /// # Ok(())
    /// # }
    /// ```
    ///
    /// # Errors
    ///
    /// As for [`Battle::from_state`]: the stage is not -6 to 6.
    ///
    /// ```
    /// # use gen1::{Battle, Choice, Side, Stat, Team, member};
    /// # fn main() -> Result<(), Box<dyn std::error::Error>> {
    /// # let team = Team::new(&[member("Tauros", &["Body Slam"])?])?;
    /// # let mut battle = Battle::new(&team, &team, [0; 10]);
    /// # battle.update(Choice::Pass, Choice::Pass)?;
    /// let fault = battle.with_stage(Side::One, Stat::Speed, -7).unwrap_err();
    /// assert_eq!(fault.to_string(), "side 1: stage 3 is -7, not -6 to 6");
    /// # Ok(())
    /// # }
    /// ```
    pub fn with_stage(&self, side: Side, stat: Stat, stage: i8) -> Result<Self, StateFault> {
        self.with_state(|state| {
            if let Some(active) = side_mut(state, side).active.as_mut() {
                active.stages[stage_place(stat)] = stage;
                active.stats = [0; 4];
            }
        })
    }
}

fn side_mut(state: &mut State, side: Side) -> &mut SideState {
    match side {
        Side::One => &mut state.sides[0],
        Side::Two => &mut state.sides[1],
    }
}

/// The index of a stat in [`ActiveState::stages`].
fn stage_place(stat: Stat) -> usize {
    match stat {
        Stat::Attack => 0,
        Stat::Defense => 1,
        Stat::Speed => 2,
        Stat::Special => 3,
        Stat::Accuracy => 4,
        Stat::Evasion => 5,
    }
}

fn member_mut(state: &mut State, side: Side, place: Place) -> Option<&mut MemberState> {
    let members = &mut side_mut(state, side).members;
    members.get_mut(usize::from(place.number()) - 1)
}

fn plain_state(state: &State) -> BattleState {
    BattleState {
        sides: [0, 1].map(|at| plain_side(&state.sides[at])),
        turn: state.turn,
        limit: state.limit,
        last_damage: state.last_damage,
        rules: u8::from(state.rules.sleep_clause()) + 2 * u8::from(state.rules.freeze_clause()),
        outcome: outcome_byte(state.outcome),
        requests: state.requests.map(request_byte),
        index: state.index,
        numbers: state.numbers,
    }
}

fn plain_side(side: &SideState) -> states::SideState {
    states::SideState {
        members: core::array::from_fn(|at| plain_member(side.members.get(at))),
        active: side.active.as_ref().map_or(NOBODY_OUT, plain_active),
    }
}

const NOBODY_OUT: states::ActiveState = states::ActiveState {
    conditions: 0,
    stats: [0; 4],
    energy: 0,
    place: 0,
    types: [0; 2],
    stages: [0; 6],
    current_move: 0,
    picked_move: 0,
    kept_accuracy: 0,
    substitute: 0,
    confusion: 0,
    disabled_slot: 0,
    disabled_turns: 0,
    bad_poison: 0,
    turns: 0,
};

fn plain_member(member: Option<&MemberState>) -> states::MemberState {
    let nobody = states::MemberState {
        species: 0,
        level: 0,
        status: 0,
        sleep: 0,
        marked: 0,
        moves: [0; 4],
        pp: [0; 4],
        hp: 0,
        max_hp: 0,
        stats: [0; 4],
    };
    member.map_or(nobody, |member| states::MemberState {
        species: member.species.number(),
        level: member.level,
        status: member.status.map_or(0, |kind| kind.number()),
        sleep: member.sleep.unwrap_or(0),
        marked: u8::from(member.marked),
        moves: core::array::from_fn(|at| member.moves.get(at).map_or(0, |known| known.id.number())),
        pp: core::array::from_fn(|at| member.moves.get(at).map_or(0, |known| known.pp)),
        hp: member.hp,
        max_hp: member.max_hp,
        stats: member.stats,
    })
}

fn plain_active(active: &ActiveState) -> states::ActiveState {
    states::ActiveState {
        conditions: active.conditions.bits(),
        stats: active.stats,
        energy: active.energy,
        place: active.place.number(),
        types: active.types.map(|element| element.number()),
        // A stage below -6 becomes one above 12, so that it is refused.
        stages: active.stages.map(|stage| stage.wrapping_add(6) as u8),
        current_move: used_byte(active.current_move),
        picked_move: used_byte(active.picked_move),
        kept_accuracy: active.kept_accuracy.unwrap_or(0),
        substitute: active.substitute.unwrap_or(0),
        confusion: active.confusion.unwrap_or(0),
        disabled_slot: active.disabled.map_or(0, |disabled| disabled.slot),
        disabled_turns: active.disabled.map_or(0, |disabled| disabled.turns),
        bad_poison: active.bad_poison.unwrap_or(0),
        turns: active.turns.unwrap_or(0),
    }
}

fn used_byte(used: UsedMove) -> u8 {
    match used {
        UsedMove::Nothing => 0,
        // No slot is 0, and Struggle isn't a slot: such a value is refused.
        UsedMove::Slot(slot) if matches!(slot, 1..=4) => slot,
        UsedMove::Slot(_) => 255,
        UsedMove::Struggle => 5,
    }
}

fn outcome_byte(outcome: Outcome) -> u8 {
    match outcome {
        Outcome::Ongoing => 0,
        Outcome::WinOne => 1,
        Outcome::WinTwo => 2,
        Outcome::Tie => 3,
        Outcome::Fault(code) => code.saturating_add(3),
    }
}

fn request_byte(request: Request) -> u8 {
    match request {
        Request::Pass => 0,
        Request::Move => 1,
        Request::Switch => 2,
    }
}
