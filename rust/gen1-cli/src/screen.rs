//! Battles as text for people.
use crate::input::chosen::{move_of, species_of};
use gen1::{Battle, Choice, Health, HpForm, KnownMove, MemberState, Side};

/// The width of an HP bar in characters.
const BAR: u16 = 20;

/// An HP bar, rounded up, so that a member with any HP has at least one mark.
pub fn bar(hp: u16, max: u16) -> String {
    let filled = u32::from(hp) * u32::from(BAR);
    let marks = filled.div_ceil(u32::from(max.max(1))) as usize;
    format!(
        "[{}{}]",
        "#".repeat(marks),
        "-".repeat(usize::from(BAR) - marks)
    )
}

/// A member on one line: name, level, HP in a form, and status.
fn member(it: &MemberState, form: HpForm) -> String {
    let status = it
        .status
        .filter(|_| it.hp > 0)
        .map_or(String::new(), |kind| format!("  {kind}"));
    // HP of a state are at most the maximum, which is 11 to 999.
    let (hp, max) = Health::new(it.hp, it.max_hp, None).map_or((it.hp, it.max_hp), |health| {
        let told = form.tell(health);
        (told.hp(), told.max())
    });
    let (species, level, bar) = (it.species, it.level, bar(hp, max));
    format!("{species:<12} L{level:<3} {bar} {hp:>3}/{max}{status}")
}

/// The active members of both sides, as side 1 may see them.
pub fn both(battle: &Battle) -> String {
    let state = battle.state();
    let mut text = format!("-- turn {} --\n", state.turn);
    let shown = [("foe", HpForm::Bar), ("you", HpForm::Exact)];
    for (side, (name, form)) in state.sides.iter().rev().zip(shown) {
        if let Some(it) = side.member_out() {
            text += &format!("{name}  {}\n", member(it, form));
        }
    }
    text
}

fn known(it: &KnownMove) -> String {
    format!("{} ({} PP)", it.id, it.pp)
}

/// The whole battle, with the choices of each side.
pub fn whole(battle: &Battle) -> String {
    let state = battle.state();
    let mut text = format!(
        "turn {} of {}: {}\n",
        state.turn,
        battle.limit(),
        state.outcome
    );
    for (side, it) in Side::BOTH.into_iter().zip(&state.sides) {
        text += &format!("\nside {side}\n");
        for (place, one) in it.members.iter().enumerate() {
            let is_out = it
                .active
                .as_ref()
                .is_some_and(|active| usize::from(active.place.number()) == place + 1);
            let mark = if is_out { '*' } else { ' ' };
            let moves: Vec<_> = one.moves.iter().map(known).collect();
            text += &format!(
                "{mark} {} {}\n      {}\n",
                place + 1,
                member(one, HpForm::Exact),
                moves.join(", ")
            );
        }
        let choices: Vec<_> = battle.choices(side).iter().map(Choice::to_string).collect();
        text += &format!(
            "  may choose: {}\n",
            if choices.is_empty() {
                "nothing".into()
            } else {
                choices.join(", ")
            }
        );
    }
    text
}

/// A choice of a side in words: the name of the move, or the member that comes out.
pub fn choice(battle: &Battle, side: Side, it: Choice) -> String {
    let state = battle.state();
    let of_side = state.side(side);
    match it {
        Choice::Pass => "wait".into(),
        Choice::Move(slot) if slot.number() == 0 => "go on".into(),
        Choice::Move(slot) => {
            let moves = of_side
                .member_out()
                .map(|it| it.moves.as_slice())
                .unwrap_or_default();
            moves
                .get(usize::from(slot.number()) - 1)
                .map_or(it.to_string(), known)
        }
        Choice::Switch(place) => of_side
            .members
            .get(usize::from(place.number()) - 1)
            .map_or(it.to_string(), |it| {
                format!("switch to {}", member(it, HpForm::Exact))
            }),
    }
}

/// A choice with the name of its move or member, as `move 1 (Body Slam)`.
pub fn named(battle: &Battle, side: Side, it: Choice) -> String {
    match name_of(battle, side, it) {
        Some(name) => format!("{it} ({name})"),
        None => it.to_string(),
    }
}

/// The name of the move or the member that a choice means; none for a pass and for move 0.
pub fn name_of(battle: &Battle, side: Side, it: Choice) -> Option<&'static str> {
    let species = species_of(battle, side, it).map(gen1::Species::name);
    species.or(move_of(battle, side, it).map(gen1::MoveId::name))
}
