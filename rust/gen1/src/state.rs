//! The state of a battle as a value with named fields.
use crate::generated::layout::Packed;
use crate::generated::stats::Status;
use crate::{
    Battle, Conditions, DisabledSlot, Element, Kind, KnownMove, MoveId, Outcome, Place, Request,
    Rules, Side, Species, Stat, UsedMove,
};
use arrayvec::ArrayVec;

/// The whole state of a battle ([docs/LAYOUT.md](https://hibsuloy.example/gen1/blob/main/docs/LAYOUT.md)).
///
/// It includes both teams and the numbers still to be drawn, so it must not be shown to the players.
/// [`Spectator`](crate::Spectator) holds what a spectator may know.
#[derive(Clone, Debug, PartialEq, Eq)]
#[cfg_attr(feature = "serde", derive(serde::Serialize, serde::Deserialize))]
#[non_exhaustive]
pub struct State {
    /// The turn, from 0 (no member is out yet) to the turn limit.
    pub turn: u16,
    /// The last turn, from 1 to 9,999.
    pub limit: u16,
    /// The last damage dealt by either side, from 0 to 65,535.
    pub last_damage: u16,
    /// The rules of the battle.
    pub rules: Rules,
    /// The outcome so far.
    pub outcome: Outcome,
    /// The requests to side 1 and side 2.
    pub requests: [Request; 2],
    /// Which of the first nine `numbers` is drawn next, from 0 to 8.
    pub index: u8,
    /// The nine link numbers in use, and the tenth byte of the seed, which is never drawn.
    pub numbers: [u8; 10],
    /// Side 1 and side 2; [`State::side`] selects one by name.
    pub sides: [SideState; 2],
}

impl State {
    /// A side.
    #[must_use]
    pub fn side(&self, side: Side) -> &SideState {
        match side {
            Side::One => &self.sides[0],
            Side::Two => &self.sides[1],
        }
    }
}

/// A side of a battle.
#[derive(Clone, Debug, PartialEq, Eq)]
#[cfg_attr(feature = "serde", derive(serde::Serialize, serde::Deserialize))]
#[non_exhaustive]
pub struct SideState {
    /// The active member, with the state that lasts only while it is active; `None` before the first update.
    pub active: Option<ActiveState>,
    /// The members, in the order of their places.
    pub members: ArrayVec<MemberState, 6>,
}

impl SideState {
    /// The active member; `None` before the first update.
    #[must_use]
    pub fn member_out(&self) -> Option<&MemberState> {
        let place = self.active.as_ref()?.place.number();
        self.members.get(usize::from(place) - 1)
    }
}

/// The active member of a side, and the state that lasts only while it is active.
#[derive(Clone, Debug, PartialEq, Eq)]
#[cfg_attr(feature = "serde", derive(serde::Serialize, serde::Deserialize))]
#[non_exhaustive]
pub struct ActiveState {
    /// Which member it is.
    pub place: Place,
    /// Its types, which need not be those of its species. A single type is listed twice.
    pub types: [Element; 2],
    /// Attack, Defense, Speed and Special after stages and penalties, from 1 to 999.
    pub stats: [u16; 4],
    /// The stages of Attack, Defense, Speed, Special, accuracy and evasion, from -6 to 6; [`ActiveState::stage`] selects one by name.
    pub stages: [i8; 6],
    /// The conditions that are on: confusion, screens, Substitute and the others.
    pub conditions: Conditions,
    /// The move that was used last.
    pub current_move: UsedMove,
    /// The move that was picked last.
    pub picked_move: UsedMove,
    /// The accuracy that Thrash and Rage keep, from 1 to 255.
    pub kept_accuracy: Option<u8>,
    /// The HP of the Substitute, from 0 to 249.
    pub substitute: Option<u8>,
    /// Turns of confusion left, from 1 to 5.
    pub confusion: Option<u8>,
    /// The slot that Disable blocks, and the turns left.
    pub disabled: Option<DisabledSlot>,
    /// The counter that Toxic starts, from 0 to 64.
    pub bad_poison: Option<u8>,
    /// Turns left of Bide or Thrash (1 to 3) or trapping (0 to 4). At most one of them is on.
    pub turns: Option<u8>,
    /// The damage that Bide has stored, from 0 to 65,535; 0 without Bide.
    pub energy: u16,
}

impl ActiveState {
    /// The stage of a stat, from -6 to 6.
    #[must_use]
    pub fn stage(&self, stat: Stat) -> i8 {
        let [attack, defense, speed, special, accuracy, evasion] = self.stages;
        match stat {
            Stat::Attack => attack,
            Stat::Defense => defense,
            Stat::Speed => speed,
            Stat::Special => special,
            Stat::Accuracy => accuracy,
            Stat::Evasion => evasion,
        }
    }
}

/// A member of a side.
#[derive(Clone, Debug, PartialEq, Eq)]
#[cfg_attr(feature = "serde", derive(serde::Serialize, serde::Deserialize))]
#[non_exhaustive]
pub struct MemberState {
    /// Its species.
    pub species: Species,
    /// Its level, from 1 to 100.
    pub level: u8,
    /// The HP that are left.
    pub hp: u16,
    /// Its maximum HP, from 11 to 999.
    pub max_hp: u16,
    /// Its Attack, Defense, Speed and Special before stages and penalties, from 5 to 999.
    pub stats: [u16; 4],
    /// The kind of its status; `None` without one. A member at 0 HP has none.
    pub status: Option<Kind>,
    /// Turns of sleep left, from 1 to 7; `None` if it is awake.
    pub sleep: Option<u8>,
    /// Whether the sleep clause counts its sleep, because the foe's move caused it.
    pub marked: bool,
    /// The moves that it knows with their remaining PP, in the order of their slots.
    pub moves: ArrayVec<KnownMove, 4>,
}

impl Battle {
    /// The whole state of the battle as a value with named fields.
    ///
    /// ```
    /// # use gen1::{Battle, Choice, Conditions, Refusal, Side, Stat, Team, member};
    /// # let team = Team::new(&[member("Mew", &["Amnesia", "Substitute"]).unwrap()]).unwrap();
    /// let mut battle = Battle::new(&team, &team, [7; 10]);
    /// battle.update(Choice::Pass, Choice::Pass)?;
    /// battle.update("move 1".parse().unwrap(), "move 2".parse().unwrap())?;
    /// let state = battle.state();
    /// assert_eq!(state.turn, 2);
    /// assert_eq!(state.sides[0].members[0].species.name(), "Mew");
    /// assert_eq!(state.sides[0].members[0].moves[1].id.name(), "Substitute");
    /// let [one, two] = Side::BOTH.map(|side| state.side(side).active.as_ref().unwrap());
    /// assert_eq!(one.stage(Stat::Special), 2);
    /// assert_eq!(two.substitute, Some(100));
    /// assert!(two.conditions.has(Conditions::SUBSTITUTE));
    /// # Ok::<(), Refusal>(())
    /// ```
    #[must_use]
    pub fn state(&self) -> State {
        let (packed, result) = (&self.packed, self.result());
        let header = packed.header();
        State {
            turn: packed.turn(),
            limit: packed.limit(),
            last_damage: packed.last_damage(),
            rules: packed.rules(),
            outcome: result.outcome,
            requests: Side::BOTH.map(|side| result.request(side)),
            index: header[5],
            numbers: core::array::from_fn(|at| header[6 + at]),
            sides: Side::BOTH.map(|side| SideState {
                active: active_of(packed, side),
                members: (1..=6)
                    .filter_map(|place| member_of(packed, side, place))
                    .collect(),
            }),
        }
    }
}

fn active_of(packed: &Packed, side: Side) -> Option<ActiveState> {
    if packed.turn() == 0 {
        return None;
    }
    let place = Place::new(packed.place(side))?;
    let stage = |stat| packed.stage(side, stat) as i8 - 6;
    let stat = |stat| packed.current_stat(side, stat);
    let own = [Stat::Attack, Stat::Defense, Stat::Speed, Stat::Special];
    let all = [
        own[0],
        own[1],
        own[2],
        own[3],
        Stat::Accuracy,
        Stat::Evasion,
    ];
    let kept = packed.kept_accuracy(side);
    Some(ActiveState {
        place,
        types: [packed.first_type(side), packed.second_type(side)],
        stats: own.map(stat),
        stages: all.map(stage),
        conditions: packed.conditions(side),
        current_move: packed.current_move(side),
        picked_move: packed.picked_move(side),
        kept_accuracy: (kept > 0).then_some(kept),
        substitute: packed.substitute(side),
        confusion: packed.confused(side),
        disabled: packed.disabled(side),
        bad_poison: packed.bad_poison(side),
        turns: packed
            .bide(side)
            .or_else(|| packed.thrash(side))
            .or_else(|| packed.trapping(side)),
        energy: packed.energy(side),
    })
}

fn member_of(packed: &Packed, side: Side, place: u8) -> Option<MemberState> {
    let species = Species::new(packed.species_at(side, place))?;
    let moves = (1..=4).filter_map(|slot| {
        let id = MoveId::new(packed.move_at(side, place, slot))?;
        Some(KnownMove {
            id,
            pp: packed.pp_at(side, place, slot),
        })
    });
    let sleep = match packed.status_at(side, place) {
        Status::Asleep { turns, .. } => Some(turns),
        _ => None,
    };
    Some(MemberState {
        species,
        level: packed.level_at(side, place),
        hp: packed.hp_at(side, place),
        max_hp: packed.max_hp_at(side, place),
        stats: packed.own_stats_at(side, place),
        status: packed
            .health_from(side, place)
            .and_then(|health| health.kind()),
        sleep,
        marked: packed.mark(side, place),
        moves: moves.collect(),
    })
}
