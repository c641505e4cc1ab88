// A usual set of moves for each species but Ditto, whose only move the engine leaves out. Species with the same set share a line.

const LINES = `
Bulbasaur, Ivysaur, Venusaur: Razor Leaf, Sleep Powder, Swords Dance, Body Slam
Charmander, Charmeleon: Fire Blast, Slash, Swords Dance, Body Slam
Charizard: Fire Blast, Slash, Earthquake, Swords Dance
Squirtle, Wartortle: Surf, Blizzard, Body Slam, Seismic Toss
Blastoise: Surf, Blizzard, Body Slam, Earthquake
Caterpie: Tackle, String Shot
Metapod: Tackle, String Shot, Harden
Butterfree: Sleep Powder, Stun Spore, Psychic, Mega Drain
Weedle: Poison Sting, String Shot
Kakuna: Poison Sting, String Shot, Harden
Beedrill: Twineedle, Swords Dance, Agility, Hyper Beam
Pidgey, Pidgeotto: Double-Edge, Sky Attack, Agility, Sand Attack
Pidgeot: Double-Edge, Sky Attack, Agility, Hyper Beam
Rattata: Body Slam, Super Fang, Blizzard, Thunderbolt
Raticate: Body Slam, Super Fang, Blizzard, Hyper Beam
Spearow: Drill Peck, Double-Edge, Agility, Substitute
Fearow: Drill Peck, Double-Edge, Agility, Hyper Beam
Ekans: Earthquake, Body Slam, Glare, Rock Slide
Arbok: Earthquake, Body Slam, Glare, Hyper Beam
Pikachu: Thunderbolt, Thunder Wave, Body Slam, Agility
Raichu: Thunderbolt, Thunder Wave, Body Slam, Hyper Beam
Sandshrew, Sandslash: Earthquake, Rock Slide, Swords Dance, Body Slam
Nidoran-F, Nidorina: Blizzard, Thunderbolt, Body Slam, Double Kick
Nidoqueen, Nidoking: Earthquake, Blizzard, Thunderbolt, Body Slam
Nidoran-M, Nidorino: Blizzard, Thunderbolt, Body Slam, Horn Drill
Clefairy: Blizzard, Thunderbolt, Thunder Wave, Body Slam
Clefable: Blizzard, Sing, Thunder Wave, Body Slam
Vulpix: Fire Blast, Body Slam, Confuse Ray, Quick Attack
Ninetales: Fire Blast, Body Slam, Confuse Ray, Hyper Beam
Jigglypuff, Wigglytuff: Body Slam, Blizzard, Thunder Wave, Sing
Zubat: Double-Edge, Confuse Ray, Mega Drain, Haze
Golbat: Double-Edge, Confuse Ray, Mega Drain, Hyper Beam
Oddish, Gloom: Sleep Powder, Stun Spore, Mega Drain, Double-Edge
Vileplume, Tangela: Sleep Powder, Stun Spore, Mega Drain, Body Slam
Paras, Parasect: Spore, Stun Spore, Slash, Swords Dance
Venonat, Venomoth: Psychic, Sleep Powder, Stun Spore, Double-Edge
Diglett, Dugtrio: Earthquake, Slash, Rock Slide, Substitute
Meowth: Slash, Bubble Beam, Thunderbolt, Body Slam
Persian: Slash, Bubble Beam, Thunderbolt, Hyper Beam
Psyduck, Golduck: Amnesia, Surf, Blizzard, Rest
Mankey: Submission, Body Slam, Rock Slide, Thunderbolt
Primeape: Submission, Body Slam, Rock Slide, Hyper Beam
Growlithe: Fire Blast, Body Slam, Agility, Reflect
Arcanine: Fire Blast, Body Slam, Agility, Hyper Beam
Poliwag, Poliwhirl: Hypnosis, Amnesia, Surf, Blizzard
Poliwrath: Hypnosis, Amnesia, Surf, Submission
Abra: Psychic, Seismic Toss, Thunder Wave, Reflect
Kadabra, Alakazam: Psychic, Seismic Toss, Thunder Wave, Recover
Machop, Machoke: Submission, Earthquake, Rock Slide, Body Slam
Machamp: Submission, Earthquake, Body Slam, Hyper Beam
Bellsprout, Weepinbell, Victreebel: Razor Leaf, Sleep Powder, Stun Spore, Swords Dance
Tentacool, Tentacruel: Surf, Blizzard, Wrap, Swords Dance
Geodude, Graveler, Golem, Onix: Earthquake, Rock Slide, Explosion, Body Slam
Ponyta: Fire Blast, Agility, Fire Spin, Body Slam
Rapidash: Fire Blast, Agility, Fire Spin, Hyper Beam
Slowpoke, Slowbro: Amnesia, Surf, Thunder Wave, Rest
Magnemite: Thunderbolt, Thunder Wave, Double-Edge, Rest
Magneton: Thunderbolt, Thunder Wave, Double-Edge, Hyper Beam
Farfetchd: Slash, Swords Dance, Agility, Body Slam
Doduo: Drill Peck, Body Slam, Double-Edge, Agility
Dodrio: Drill Peck, Body Slam, Hyper Beam, Agility
Seel, Dewgong, Omanyte, Omastar: Surf, Blizzard, Body Slam, Rest
Grimer, Koffing, Weezing: Sludge, Fire Blast, Thunderbolt, Explosion
Muk: Sludge, Body Slam, Hyper Beam, Explosion
Shellder: Surf, Blizzard, Clamp, Explosion
Cloyster: Clamp, Blizzard, Hyper Beam, Explosion
Gastly, Haunter, Gengar: Hypnosis, Night Shade, Thunderbolt, Explosion
Drowzee: Hypnosis, Psychic, Thunder Wave, Seismic Toss
Hypno: Hypnosis, Psychic, Thunder Wave, Rest
Krabby: Crabhammer, Blizzard, Swords Dance, Body Slam
Kingler: Crabhammer, Body Slam, Swords Dance, Hyper Beam
Voltorb: Thunderbolt, Thunder Wave, Explosion, Screech
Electrode: Thunderbolt, Thunder Wave, Explosion, Hyper Beam
Exeggcute, Exeggutor: Sleep Powder, Stun Spore, Psychic, Explosion
Cubone: Earthquake, Blizzard, Body Slam, Fire Blast
Marowak: Earthquake, Blizzard, Body Slam, Hyper Beam
Hitmonlee: High Jump Kick, Body Slam, Mega Kick, Meditate
Hitmonchan: Submission, Body Slam, Thunder Punch, Ice Punch
Lickitung: Body Slam, Swords Dance, Earthquake, Hyper Beam
Rhyhorn, Rhydon: Earthquake, Rock Slide, Body Slam, Substitute
Chansey: Ice Beam, Thunderbolt, Thunder Wave, Soft-Boiled
Kangaskhan: Body Slam, Earthquake, Rock Slide, Hyper Beam
Horsea: Surf, Blizzard, Smokescreen, Double-Edge
Seadra, Seaking: Surf, Blizzard, Agility, Hyper Beam
Goldeen: Surf, Blizzard, Horn Drill, Double-Edge
Staryu, Starmie, Porygon: Blizzard, Thunderbolt, Thunder Wave, Recover
Mr. Mime: Psychic, Thunderbolt, Thunder Wave, Seismic Toss
Scyther: Slash, Swords Dance, Agility, Hyper Beam
Jynx: Lovely Kiss, Blizzard, Psychic, Rest
Electabuzz: Thunderbolt, Thunder Wave, Psychic, Seismic Toss
Magmar: Fire Blast, Confuse Ray, Body Slam, Psychic
Pinsir: Swords Dance, Slash, Submission, Hyper Beam
Tauros: Body Slam, Hyper Beam, Blizzard, Earthquake
Magikarp: Splash, Tackle
Gyarados: Surf, Blizzard, Thunderbolt, Body Slam
Lapras: Blizzard, Thunderbolt, Body Slam, Sing
Eevee: Body Slam, Double-Edge, Quick Attack, Sand Attack
Vaporeon: Surf, Blizzard, Acid Armor, Rest
Jolteon: Thunderbolt, Thunder Wave, Double Kick, Pin Missile
Flareon: Fire Blast, Body Slam, Hyper Beam, Quick Attack
Kabuto: Surf, Blizzard, Slash, Body Slam
Kabutops: Surf, Slash, Swords Dance, Hyper Beam
Aerodactyl: Sky Attack, Fire Blast, Double-Edge, Hyper Beam
Snorlax: Body Slam, Earthquake, Hyper Beam, Self-Destruct
Articuno: Blizzard, Ice Beam, Agility, Hyper Beam
Zapdos: Thunderbolt, Drill Peck, Agility, Thunder Wave
Moltres: Fire Blast, Fire Spin, Agility, Hyper Beam
Dratini, Dragonair: Blizzard, Thunderbolt, Thunder Wave, Wrap
Dragonite: Blizzard, Wrap, Agility, Hyper Beam
Mewtwo: Psychic, Amnesia, Recover, Thunder Wave
Mew: Swords Dance, Earthquake, Soft-Boiled, Explosion
`;

/** @type {Map<string, string[]>} */
const sets = new Map();
for (const line of LINES.trim().split("\n")) {
  const [species, moves] = line.split(": ").map((part) => part.split(", "));
  for (const name of species) sets.set(name, moves);
}

/**
 * The moves of a usual set; none for Ditto.
 * @param {string} species
 */
export function usualMoves(species) {
  return sets.get(species) ?? [];
}
