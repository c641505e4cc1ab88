//! Clauses that begin a battle, with members of type Normal out, and clauses that write a field of one.
use super::words::{Unread, Words, among, side_of};
use arrayvec::ArrayVec;
use gen1::generated::layout::{Conditions, Packed};
use gen1::generated::machine::{DisabledSlot, Outcome, Rules, Side};
use gen1::generated::stats::{MemberSpec, Team};
use gen1::generated::tables::Element::Normal;
use gen1::generated::tables::{MoveId, Species};

// The DVs and the experience of the members of a species, and their Attack, Defense, Speed and Special at level 100, or
// of Magikarp at level 1.
#[derive(Clone, Copy)]
struct Breed {
    dvs: u8,
    exp: u16,
    stats: [u16; 4],
}

const fn full(stats: [u16; 4]) -> Breed {
    Breed {
        dvs: 15,
        exp: 65535,
        stats,
    }
}

fn breed_of(name: &str) -> Result<Breed, Unread> {
    match name {
        "Tauros" => Ok(full([298, 288, 318, 238])),
        "Chansey" => Ok(full([108, 108, 198, 308])),
        "Electrode" => Ok(full([198, 238, 378, 258])),
        "Persian" => Ok(full([238, 218, 328, 228])),
        "Magikarp" => Ok(Breed {
            dvs: 0,
            exp: 0,
            stats: [5, 6, 6, 5],
        }),
        _ => Err(Unread),
    }
}

// A member of a species that knows these moves, with commas between them.
fn member(name: &str, level: u8, moves: &str) -> Result<MemberSpec, Unread> {
    let breed = breed_of(name)?;
    let mut known = ArrayVec::new();
    for id in moves.split(',') {
        let id = MoveId::from_name(id.trim()).ok_or(Unread)?;
        known.try_push((id, 0)).ok().ok_or(Unread)?;
    }
    Ok(MemberSpec {
        species: Species::from_name(name).ok_or(Unread)?,
        level,
        dvs: [breed.dvs; 4],
        exp: [breed.exp; 5],
        moves: known,
    })
}

// A member by words, as in `Tauros 100 Strength, Dig`.
fn member_of(mut words: Words<'_>) -> Result<MemberSpec, Unread> {
    let name = words.word();
    let level = words.byte()?;
    member(name, level, words.all())
}

fn a_team(members: &[MemberSpec]) -> Result<Team, Unread> {
    Team::new(members).ok().ok_or(Unread)
}

// A team by words, with `+` between its members.
fn team_of(text: &str, words: Words<'_>) -> Result<Team, Unread> {
    let mut members: ArrayVec<MemberSpec, 6> = ArrayVec::new();
    for part in text.split('+') {
        let spec = member_of(words.of_item(part))?;
        members.try_push(spec).ok().ok_or(Unread)?;
    }
    a_team(members.as_slice())
}

// The member of a side at a place comes out, with the stats of its species.
fn send_out(battle: &mut Packed, side: Side, place: u8, name: &str) -> Result<(), Unread> {
    battle.put_sent_out(side, place, Normal, Normal, breed_of(name)?.stats);
    Ok(())
}

// The first members of two teams are out.
fn facing(one: &Team, two: &Team, rules: u8, names: [&str; 2]) -> Result<Packed, Unread> {
    let rules = Rules::new(rules).ok_or(Unread)?;
    let mut battle = Packed::with_rules(one, two, [0; 10], rules);
    send_out(&mut battle, Side::One, 1, names[0])?;
    send_out(&mut battle, Side::Two, 1, names[1])?;
    Ok(battle)
}

// Each side has two members. The second knows Strength, and the first Strength too if no moves are named.
fn pair(mut words: Words<'_>, rules: u8) -> Result<Packed, Unread> {
    let name = words.word();
    let moves = if words.is_empty() {
        "Strength"
    } else {
        words.all()
    };
    let team = a_team(&[member(name, 100, moves)?, member(name, 100, "Strength")?])?;
    facing(&team, &team, rules, [name, name])
}

/// Each side has one Tauros that knows Strength.
pub(crate) fn single() -> Result<Packed, Unread> {
    let team = a_team(&[member("Tauros", 100, "Strength")?])?;
    facing(&team, &team, 0, ["Tauros", "Tauros"])
}

// Each side has one member, which knows Strength and Dig. Magikarp are at level 1.
fn duel(mut words: Words<'_>) -> Result<Packed, Unread> {
    let (one, two) = (words.word(), words.word());
    let level = if one == "Magikarp" { 1 } else { 100 };
    let first = a_team(&[member(one, level, "Strength, Dig")?])?;
    let second = a_team(&[member(two, level, "Strength, Dig")?])?;
    facing(&first, &second, 0, [one, two])
}

// Two teams of Tauros by words, with `/` between them.
fn teams(words: Words<'_>) -> Result<Packed, Unread> {
    let (one, two) = words.items().split_once('/').ok_or(Unread)?;
    facing(
        &team_of(one, words)?,
        &team_of(two, words)?,
        0,
        ["Tauros", "Tauros"],
    )
}

/// The battle that a clause begins, or `None` for any other clause.
pub(crate) fn begun(mut words: Words<'_>) -> Result<Option<Packed>, Unread> {
    Ok(Some(match words.word() {
        "pair" => pair(words, 0)?,
        "ruled" => {
            let rules = words.byte()?;
            pair(words, rules)?
        }
        "single" => single()?,
        "duel" => duel(words)?,
        "teams" => teams(words)?,
        _ => return Ok(None),
    }))
}

/// Writes a field that words name: whether they name one.
pub(crate) fn write(battle: &mut Packed, mut words: Words<'_>) -> Result<bool, Unread> {
    let word = words.word();
    let Some((side, field)) = word.split_once('.') else {
        return of_the_battle(battle, word, words);
    };
    let (side, field) = (side_of(side)?, words.value(field));
    Ok(of_the_member(battle, side, field, words)?
        || of_the_block(battle, side, field, words)?
        || of_a_stat(battle, side, field, words)?
        || of_a_condition(battle, side, field, words)?
        || of_what_goes_on(battle, side, field, words)?)
}

fn of_the_battle(battle: &mut Packed, word: &str, mut words: Words<'_>) -> Result<bool, Unread> {
    match word {
        "last" => battle.put_last_damage(words.number()?),
        "fault" => battle.put_outcome(Outcome::Fault(words.byte()?)),
        _ => return Ok(false),
    }
    Ok(true)
}

fn of_the_member(
    battle: &mut Packed,
    side: Side,
    field: &str,
    mut words: Words<'_>,
) -> Result<bool, Unread> {
    match field {
        "hp" => battle.put_hp(side, words.number()?),
        "status" => battle.put_status(side, words.status()?),
        "fallen" => battle.put_fallen(side),
        "pp" => put_pp(battle, side, words)?,
        "out" => send_out(battle, side, words.byte()?, "Tauros")?,
        _ => return Ok(false),
    }
    Ok(true)
}

// A slot, 1 to 4, and its PP.
fn put_pp(battle: &mut Packed, side: Side, mut words: Words<'_>) -> Result<(), Unread> {
    let slot = words.byte()?;
    if !(1..=4).contains(&slot) {
        return Err(Unread);
    }
    battle.put_pp(side, slot, words.byte()?);
    Ok(())
}

fn of_the_block(
    battle: &mut Packed,
    side: Side,
    field: &str,
    mut words: Words<'_>,
) -> Result<bool, Unread> {
    match field {
        "types" => battle.put_types(side, words.element()?, words.element()?),
        "current" => battle.put_current_move(side, words.used()?),
        "picked" => battle.put_picked_move(side, words.used()?),
        "kept" => battle.put_kept_accuracy(side, words.byte()?),
        _ => return Ok(false),
    }
    Ok(true)
}

// A stage as its byte, where 6 is the middle, and the stat at it. Accuracy and evasion have none.
fn of_a_stat(
    battle: &mut Packed,
    side: Side,
    field: &str,
    mut words: Words<'_>,
) -> Result<bool, Unread> {
    match field {
        "attack" => battle.put_attack(side, words.byte()?, words.number()?),
        "defense" => battle.put_defense(side, words.byte()?, words.number()?),
        "speed" => battle.put_speed(side, words.byte()?, words.number()?),
        "special" => battle.put_special(side, words.byte()?, words.number()?),
        "accuracy" => battle.put_accuracy(side, words.byte()?),
        "evasion" => battle.put_evasion(side, words.byte()?),
        _ => return Ok(false),
    }
    Ok(true)
}

fn of_a_condition(
    battle: &mut Packed,
    side: Side,
    field: &str,
    mut words: Words<'_>,
) -> Result<bool, Unread> {
    match field {
        "flag" => {
            let which = among(&flags(), words.word())?;
            battle.put_flag(side, which, words.word() != "off");
        }
        "substitute" => battle.put_substitute(side, words.count()?),
        "confused" => battle.put_confused(side, words.count()?),
        "bad_poison" => battle.put_bad_poison(side, words.count()?),
        "disabled" => battle.put_disabled(side, disabled(words)?),
        _ => return Ok(false),
    }
    Ok(true)
}

// A slot and its turns, or `none`.
fn disabled(mut words: Words<'_>) -> Result<Option<DisabledSlot>, Unread> {
    match words.count()? {
        None => Ok(None),
        Some(slot) => Ok(Some(DisabledSlot {
            slot,
            turns: words.byte()?,
        })),
    }
}

// The turns of a move that lasts, or `none`. Bide has its energy too.
fn of_what_goes_on(
    battle: &mut Packed,
    side: Side,
    field: &str,
    mut words: Words<'_>,
) -> Result<bool, Unread> {
    let (turns, energy) = match words.count() {
        Ok(turns) => (turns, words.number().unwrap_or(0)),
        Err(_) => return Ok(false),
    };
    match (field, turns) {
        ("bide", Some(turns)) => battle.put_bide(side, turns, energy),
        ("bide", None) => battle.end_bide(side),
        ("thrash", Some(turns)) => battle.put_thrash(side, turns),
        ("thrash", None) => battle.end_thrash(side),
        ("trapping", Some(turns)) => battle.put_trapping(side, turns),
        ("trapping", None) => battle.end_trapping(side),
        _ => return Ok(false),
    }
    Ok(true)
}

fn flags() -> [(&'static str, Conditions); 10] {
    [
        ("flinch", Conditions::FLINCH),
        ("charging", Conditions::CHARGING),
        ("invulnerable", Conditions::INVULNERABLE),
        ("mist", Conditions::MIST),
        ("focus", Conditions::FOCUS_ENERGY),
        ("recharge", Conditions::RECHARGE),
        ("rage", Conditions::RAGE),
        ("seeded", Conditions::SEEDED),
        ("reflect", Conditions::REFLECT),
        ("screen", Conditions::LIGHT_SCREEN),
    ]
}
