//! Teams, and battles with a guess of the foe's.
use crate::random::Random;
use gen1::{Battle, Guess, MemberSpec, Player, Species, Team, member};

/// The members to draw from: species, and four moves.
const MEMBERS: [(&str, [&str; 4]); 12] = [
    ("Charizard", ["Flamethrower", "Slash", "Leer", "Growl"]),
    ("Blastoise", ["Surf", "Ice Beam", "Withdraw", "Tail Whip"]),
    ("Venusaur", ["Razor Leaf", "Body Slam", "Growth", "Growl"]),
    (
        "Pidgeot",
        ["Wing Attack", "Quick Attack", "Sand Attack", "Gust"],
    ),
    (
        "Raichu",
        ["Thunderbolt", "Quick Attack", "Growl", "Tail Whip"],
    ),
    ("Nidoking", ["Earthquake", "Thrash", "Leer", "Horn Attack"]),
    ("Alakazam", ["Psychic", "Reflect", "Teleport", "Kinesis"]),
    (
        "Machamp",
        ["Submission", "Low Kick", "Leer", "Focus Energy"],
    ),
    (
        "Golem",
        ["Rock Slide", "Earthquake", "Harden", "Defense Curl"],
    ),
    (
        "Gengar",
        ["Night Shade", "Thunderbolt", "Lick", "Confuse Ray"],
    ),
    ("Tauros", ["Body Slam", "Stomp", "Tail Whip", "Leer"]),
    ("Lapras", ["Ice Beam", "Surf", "Mist", "Growl"]),
];

/// A team of one to six different members.
///
/// # Panics
///
/// For another number of members.
pub fn drawn(members: usize, random: &mut Random) -> Team {
    beginning_with(Vec::new(), members, random)
}

/// A team of one to six different members; the first have these species.
///
/// # Panics
///
/// For another number of members, and for a species that is not in the list.
pub fn beginning_with(species: Vec<Species>, members: usize, random: &mut Random) -> Team {
    let (mut first, mut left) = (Vec::new(), MEMBERS.to_vec());
    for species in species {
        let at = left.iter().position(|(name, _)| *name == species.name());
        first.push(left.remove(at.expect("the species is in MEMBERS")));
    }
    while first.len() < members {
        first.push(left.swap_remove(random.below(left.len())));
    }
    let chosen: Vec<MemberSpec> = first
        .iter()
        .map(|(species, moves)| member(species, moves).expect("MEMBERS has names of the tables"))
        .collect();
    Team::new(&chosen)
        .expect("MEMBERS has moves that a team may hold, and there are one to six members")
}

#[cfg(test)]
mod tests {
    use super::*;

    #[test]
    fn all_may_be_drawn() {
        let mut random = Random::new(1, 1);
        let mut seen = std::collections::BTreeSet::new();
        for _ in 0..100 {
            seen.extend(
                drawn(6, &mut random)
                    .members()
                    .iter()
                    .map(|member| member.species().name()),
            );
        }
        assert_eq!(seen.len(), MEMBERS.len());
    }
}

/// A battle that fits a player's knowledge: the foe's members that have not appeared are drawn, and so are the numbers.
///
/// The teams of these battles are drawn from a list that both players know, so the moves of a species aren't secret. In other battles,
/// also draw the moves that have not been seen yet.
///
/// # Panics
///
/// If the battle has not begun, or is over.
pub fn guessed(player: &Player, random: &mut Random) -> Battle {
    let appeared = player
        .foe()
        .members
        .iter()
        .filter_map(|seen| seen.species());
    let count = player.foes().map_or(6, usize::from);
    let team = beginning_with(appeared.collect(), count, random);
    let guess = Guess::new(team, random.seed());
    Battle::from_player(player, &guess).expect("each species has its own moves")
}
