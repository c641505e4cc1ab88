//! The request to a player, as an object, and the choice with which the player replies (docs/PROGRAM.md, "Requests", "showdown").
use crate::words::{Hp, acts_on_user};
use crate::{Seat, id_of, player_of};
use gen1::{Choice, Health, MoveId, OwnMember};
use serde::Serialize;

#[derive(Serialize)]
#[serde(rename_all = "camelCase")]
struct RequestObject {
    #[serde(skip_serializing_if = "Option::is_none")]
    active: Option<[ActiveObject; 1]>,
    #[serde(skip_serializing_if = "Option::is_none")]
    force_switch: Option<[bool; 1]>,
    #[serde(skip_serializing_if = "Option::is_none")]
    wait: Option<bool>,
    side: SideObject,
    rqid: u32,
}

#[derive(Serialize)]
struct ActiveObject {
    moves: Vec<MoveObject>,
    #[serde(skip_serializing_if = "Option::is_none")]
    trapped: Option<bool>,
    /// Whether the foe's trapping move holds the member. Showdown has no such key.
    #[serde(skip_serializing_if = "Option::is_none")]
    held: Option<bool>,
}

#[derive(Serialize)]
struct MoveObject {
    #[serde(rename = "move")]
    name: &'static str,
    id: String,
    #[serde(skip_serializing_if = "Option::is_none")]
    pp: Option<u8>,
    #[serde(skip_serializing_if = "Option::is_none")]
    maxpp: Option<u8>,
    #[serde(skip_serializing_if = "Option::is_none")]
    target: Option<&'static str>,
    disabled: bool,
}

#[derive(Serialize)]
struct SideObject {
    name: String,
    id: &'static str,
    pokemon: Vec<MemberObject>,
}

#[derive(Serialize)]
#[serde(rename_all = "camelCase")]
struct MemberObject {
    ident: String,
    details: String,
    condition: String,
    active: bool,
    stats: StatsObject,
    moves: Vec<String>,
    base_ability: &'static str,
    item: &'static str,
    pokeball: &'static str,
}

#[derive(Serialize)]
struct StatsObject {
    atk: u16,
    def: u16,
    spa: u16,
    spd: u16,
    spe: u16,
}

/// The request of a player, as JSON, with its number.
#[must_use]
pub fn request(seat: &Seat, rqid: u32) -> String {
    let slots = seat.slots();
    let waits = seat.waits();
    let asks_switch = !waits && slots.is_empty();
    let moves: Vec<_> = slots
        .iter()
        .map(|slot| MoveObject {
            name: slot.name,
            id: id_of(slot.name),
            pp: slot.pp.map(|[pp, _]| pp),
            maxpp: slot.pp.map(|[_, most]| most),
            target: slot.pp.and(slot.id).map(target_of),
            disabled: slot.choice.is_none(),
        })
        .collect();
    let trapped = seat.is_trapped().then_some(true);
    let held = (seat.player.own().held == 1).then_some(true);
    let object = RequestObject {
        active: (!moves.is_empty()).then_some([ActiveObject {
            moves,
            trapped,
            held,
        }]),
        force_switch: asks_switch.then_some([true]),
        wait: waits.then_some(true),
        side: side(seat),
        rqid,
    };
    // Every object of the program has texts as keys, so that it can be serialized.
    serde_json::to_string(&object).unwrap_or_default()
}

fn side(seat: &Seat) -> SideObject {
    let own = seat.player.own();
    let listed = seat.order.iter().enumerate();
    let pokemon = listed.map(|(at, place)| {
        let name = &seat.members[*place];
        member(
            &own.members[*place],
            at == 0,
            seat.is_toxic(),
            format!("{}: {name}", player_of(seat.side)),
        )
    });
    SideObject {
        name: seat.name.clone(),
        id: player_of(seat.side),
        pokemon: pokemon.collect(),
    }
}

fn member(it: &OwnMember, active: bool, is_toxic: bool, ident: String) -> MemberObject {
    let [atk, def, spe, special] = it.stats;
    let species = it.species().map_or("", |species| species.name());
    let level = match it.level {
        100 => String::new(),
        level => format!(", L{level}"),
    };
    MemberObject {
        ident,
        details: format!("{species}{level}"),
        condition: condition(it, active && is_toxic),
        active,
        stats: StatsObject {
            atk,
            def,
            spa: special,
            spd: special,
            spe,
        },
        moves: it.moves().map(|(id, _)| id_of(id.name())).collect(),
        base_ability: "noability",
        item: "",
        pokeball: "pokeball",
    }
}

/// HP and status, as `353/353 par` or `0 fnt`.
fn condition(it: &OwnMember, is_toxic: bool) -> String {
    let health = Health::new(it.hp, it.max_hp, it.status());
    health.map_or("0 fnt".into(), |health| Hp::Exact.text(health, is_toxic))
}

/// The target of a move, as Showdown has it.
fn target_of(id: MoveId) -> &'static str {
    match id {
        MoveId::COUNTER => "scripted",
        _ if id.effect().thrashes() => "randomNormal",
        _ if acts_on_user(id) => "self",
        _ => "normal",
    }
}

/// The choice in a text: `move` or `switch` with a name or a number of the request, `default` or `auto`.
///
/// # Errors
///
/// Why it isn't a choice that can be made now, in the words that follow `|error|[Invalid choice]`.
pub fn choice_in(text: &str, seat: &Seat) -> Result<Choice, String> {
    let text = text.trim();
    let (word, rest) = text.split_once(char::is_whitespace).unwrap_or((text, ""));
    let rest = rest.trim();
    if seat.player.choices().is_empty() {
        return Err("Can't do anything: The game is over".into());
    }
    if seat.waits() {
        return Err("Can't do anything: It's not your turn".into());
    }
    match word {
        "default" | "auto" if rest.is_empty() => Ok(seat.player.choices()[0]),
        "move" => move_in(rest, seat),
        "switch" => switch_in(rest, seat),
        _ => Err(format!("Unrecognized choice: {text}")),
    }
}

fn move_in(text: &str, seat: &Seat) -> Result<Choice, String> {
    let slots = seat.slots();
    if slots.is_empty() {
        return Err("Can't move: You need a switch response".into());
    }
    let name = &seat.members[seat.order[0]];
    let missing = format!("Can't move: Your {name} doesn't have a move");
    let slot = match text.parse::<usize>() {
        Ok(number) => {
            let slot = number.checked_sub(1).and_then(|at| slots.get(at));
            slot.ok_or_else(|| format!("{missing} {number}"))?
        }
        Err(_) => {
            let slot = slots.iter().find(|slot| id_of(slot.name) == id_of(text));
            slot.ok_or_else(|| format!("{missing} matching {}", id_of(text)))?
        }
    };
    let disabled = || format!("Can't move: {name}'s {} is disabled", slot.name);
    slot.choice.ok_or_else(disabled)
}

fn switch_in(text: &str, seat: &Seat) -> Result<Choice, String> {
    let own = seat.player.own();
    let missing = "Can't switch: You do not have a Pokémon";
    let at = match text.parse::<usize>() {
        Ok(number) => {
            let at = number.checked_sub(1).filter(|at| *at < seat.order.len());
            at.ok_or_else(|| format!("{missing} in slot {number} to switch to"))?
        }
        Err(_) => {
            called(text, seat).ok_or_else(|| format!("{missing} named \"{text}\" to switch to"))?
        }
    };
    let place = seat.order[at];
    if at == 0 {
        return Err("Can't switch: You can't switch to an active Pokémon".into());
    }
    if own.members[place].hp == 0 {
        return Err("Can't switch: You can't switch to a fainted Pokémon".into());
    }
    let choice = u8::try_from(place).ok();
    let choice = choice.and_then(|place| Choice::from_byte(0x21 + place));
    let offered = choice.filter(|choice| seat.offers(*choice));
    offered.ok_or("Can't switch: The active Pokémon is trapped".into())
}

/// The index in the order of a member with this name or species; one that can come out if there is one.
fn called(text: &str, seat: &Seat) -> Option<usize> {
    let own = seat.player.own();
    let species = |place: usize| own.members[place].species().map_or("", |it| it.name());
    let fits = |at: &usize| {
        let place = seat.order[*at];
        [seat.members[place].as_str(), species(place)]
            .iter()
            .any(|name| id_of(name) == id_of(text))
    };
    let fitting: Vec<_> = (0..seat.order.len()).filter(fits).collect();
    let comes = fitting
        .iter()
        .find(|at| **at > 0 && own.members[seat.order[**at]].hp > 0);
    comes.or(fitting.first()).copied()
}
