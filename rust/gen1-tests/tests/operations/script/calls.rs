//! Clauses that call an operation. The user is side 1, unless the words name a side.
use super::scene::{Answer, Draws, NOTHING, Scene};
use super::words::{Clause, Unread, Words, among};
use crate::comparing::{FOE, USER};
use crate::countdown::Countdown;
use gen1::generated::effects::{
    group_one, group_one_knowing, group_two, is_early, is_late, side_effect, side_effect_knowing,
};
use gen1::generated::hits::{
    Hit, Known, Landed, critical, damage, gain_hp, hit_or_miss, hit_test, land, land_on_hp,
    land_on_substitute, lose_hp, must_hit, note_miss, numbers, own_numbers, scaled_accuracy,
    type_steps,
};
use gen1::generated::layout::Packed;
use gen1::generated::machine::{Choice, DamageSource, EventList, MoveSlot, Pick, Side, UsedMove};
use gen1::generated::multiturn::{
    bide, charge, counter, counter_knowing, fixed, fixed_knowing, hits, knock_out, missed_move,
    rage, substitute, thrash, thrash_knowing, trap, trap_knowing,
};
use gen1::generated::odds::{Reason, odds_of};
use gen1::generated::rolls::{LinkRandom, Rolls, Sweep};
use gen1::generated::status::{
    Gate, gate, inflict, inflict_status, lower_stage, pick, raise_stage, residual, shift_stage,
    take_penalty, used_by,
};
use gen1::generated::tables::{Effect, MoveId};

const fn word(word: &'static str) -> Answer<'static> {
    Answer { word, number: None }
}

const fn number(number: u16) -> Answer<'static> {
    Answer {
        word: "",
        number: Some(number),
    }
}

const fn truth(is_true: bool) -> Answer<'static> {
    word(if is_true { "true" } else { "false" })
}

fn some(found: Option<u16>) -> Answer<'static> {
    match found {
        Some(found) => number(found),
        None => word("none"),
    }
}

fn landed(where_to: Landed) -> Answer<'static> {
    word(match where_to {
        Landed::Hp => "hp",
        Landed::Kept => "kept",
        Landed::Broke => "broke",
    })
}

fn passed(answer: Gate) -> Answer<'static> {
    word(match answer {
        Gate::Go => "go",
        Gate::Stop => "stop",
        Gate::Fault => "fault",
    })
}

fn tested(hit: Hit) -> Answer<'static> {
    Answer {
        word: if hit.hit { "hit" } else { "miss" },
        number: Some(u16::from(hit.kept)),
    }
}

fn used(used: UsedMove) -> Answer<'static> {
    match used {
        UsedMove::Nothing => word("nothing"),
        UsedMove::Struggle => word("struggle"),
        UsedMove::Slot(slot) => number(u16::from(slot)),
    }
}

fn picked(pick: Pick) -> Answer<'static> {
    match pick {
        Pick::Use(what) => used(what),
        Pick::Continue => word("continue"),
        Pick::Idle => word("idle"),
        Pick::Held => word("held"),
    }
}

// The pick of a slot, or one that has a word.
fn pick_of(words: &mut Words<'_>) -> Result<Pick, Unread> {
    let before = *words;
    Ok(match words.word() {
        "continue" => Pick::Continue,
        "idle" => Pick::Idle,
        "held" => Pick::Held,
        _ => {
            *words = before;
            Pick::Use(words.used()?)
        }
    })
}

const SOURCES: [(&str, DamageSource); 6] = [
    ("hit", DamageSource::Direct),
    ("psn", DamageSource::Poison),
    ("brn", DamageSource::Burn),
    ("seed", DamageSource::LeechSeed),
    ("recoil", DamageSource::Recoil),
    ("confusion", DamageSource::Confusion),
];

pub(crate) fn source_of(word: &str) -> Result<DamageSource, Unread> {
    among(&SOURCES, word)
}

// How many of the 256 draws hit, or why none does.
fn odds(battle: &Packed, side: Side, id: MoveId) -> Answer<'static> {
    let odds = odds_of(battle, side, id);
    for (word, reason) in REASONS {
        if odds.reason == reason.number() {
            return Answer {
                word,
                number: Some(odds.hit_draws),
            };
        }
    }
    number(odds.hit_draws)
}

const REASONS: [(&str, Reason); 23] = [
    ("fallen", Reason::Fallen),
    ("left_out", Reason::LeftOut),
    ("always_fails", Reason::AlwaysFails),
    ("immune", Reason::Immune),
    ("no_damage", Reason::NoDamage),
    ("fault", Reason::Fault),
    ("slower", Reason::Slower),
    ("nothing_to_counter", Reason::NothingToCounter),
    ("no_energy", Reason::NoEnergy),
    ("awake", Reason::Awake),
    ("invulnerable", Reason::Invulnerable),
    ("mist", Reason::Mist),
    ("substitute", Reason::Substitute),
    ("has_status", Reason::HasStatus),
    ("own_type", Reason::OwnType),
    ("confused", Reason::Confused),
    ("seeded", Reason::Seeded),
    ("disabled", Reason::Disabled),
    ("no_pp", Reason::NoPp),
    ("stage", Reason::Stage),
    ("sleep_clause", Reason::SleepClause),
    ("already_up", Reason::AlreadyUp),
    ("health", Reason::Health),
];

// Ten numbers that rise from a byte.
fn rising(byte: u8) -> [u8; 10] {
    let mut numbers = [0; 10];
    let mut next = byte;
    for place in numbers.iter_mut() {
        *place = next;
        next = next.wrapping_add(1);
    }
    numbers
}

impl Scene {
    /// Does a clause that calls an operation.
    pub(crate) fn plays(&mut self, clause: Clause<'_>, words: Words<'_>) -> Result<(), Unread> {
        self.before = self.battle.clone();
        self.knew = self.known;
        match self.draws {
            Draws::Sweep(byte) => self.by_sweep(byte, words),
            Draws::Link(index, numbers) => self.by_link(index, numbers, words),
            Draws::Countdown(byte) => self.by_countdown(byte, words),
            Draws::Both(byte) => {
                let mut twin = self.twin()?;
                twin.by_sweep(byte, words)?;
                self.by_link(0, rising(byte), words)?;
                self.draws = Draws::Both(byte.wrapping_add(self.drawn));
                self.is_like(clause, &twin);
                Ok(())
            }
        }
    }

    fn by_sweep(&mut self, byte: u8, words: Words<'_>) -> Result<(), Unread> {
        let mut random = Sweep::new(byte);
        self.call(words, &mut random)?;
        let next = random.draw();
        self.drawn = next.wrapping_sub(byte);
        self.draws = Draws::Sweep(next);
        Ok(())
    }

    fn by_link(&mut self, index: u8, numbers: [u8; 10], words: Words<'_>) -> Result<(), Unread> {
        let mut random = LinkRandom::from_parts(index, numbers).ok_or(Unread)?;
        let before = random.index();
        self.call(words, &mut random)?;
        self.drawn = (9 + random.index() - before) % 9;
        self.draws = Draws::Link(random.index(), random.numbers());
        Ok(())
    }

    fn by_countdown(&mut self, byte: u8, words: Words<'_>) -> Result<(), Unread> {
        let mut random = Countdown::new(byte);
        self.call(words, &mut random)?;
        let next = random.draw();
        self.drawn = byte.wrapping_sub(next);
        self.draws = Draws::Countdown(next);
        Ok(())
    }

    // Calls an operation. Each of the groups returns nothing for an operation of another group.
    fn call<R: Rolls>(&mut self, words: Words<'_>, random: &mut R) -> Result<(), Unread> {
        self.events = EventList::new();
        let mut found = self.hit_call(words, random)?;
        if found.is_none() {
            found = self.effect_call(words, random)?;
        }
        if found.is_none() {
            found = self.turns_call(words, random)?;
        }
        if found.is_none() {
            found = self.damage_call(words, random)?;
        }
        if found.is_none() {
            found = self.landing_call(words)?;
        }
        if found.is_none() {
            found = self.status_call(words)?;
        }
        if found.is_none() {
            found = self.other_call(words)?;
        }
        self.answer = found.ok_or(Unread)?;
        Ok(())
    }

    fn hit_call<R: Rolls>(
        &mut self,
        mut words: Words<'_>,
        random: &mut R,
    ) -> Result<Option<Answer<'static>>, Unread> {
        let (battle, known) = (&mut self.battle, &mut self.known);
        Ok(Some(match words.word() {
            "hit_or_miss" => {
                hit_or_miss(battle, USER, words.id()?, known, random);
                NOTHING
            }
            "must_hit" => {
                let mut events = EventList::new();
                let ends = must_hit(battle, USER, words.id()?, known, random, &mut events);
                self.events = events;
                truth(ends)
            }
            "critical" => truth(critical(battle, USER, words.id()?, random)),
            "hit_test" => {
                let id = words.id()?;
                tested(hit_test(battle, USER, id, id.accuracy_byte(), random))
            }
            "gate" => {
                let mut events = EventList::new();
                let pick = pick_of(&mut words)?;
                let answer = gate(battle, USER, pick, random, &mut events);
                self.events = events;
                passed(answer)
            }
            _ => return Ok(None),
        }))
    }

    fn effect_call<R: Rolls>(
        &mut self,
        mut words: Words<'_>,
        random: &mut R,
    ) -> Result<Option<Answer<'static>>, Unread> {
        let (battle, known) = (&mut self.battle, &mut self.known);
        let mut events = EventList::new();
        let mut answer = NOTHING;
        match words.word() {
            "early" => {
                let id = words.id()?;
                if !is_early(id.effect()) {
                    return Err(Unread);
                }
                group_one(battle, USER, id, random, &mut events);
            }
            "early_knowing" => {
                let id = words.id()?;
                if !is_early(id.effect()) {
                    return Err(Unread);
                }
                group_one_knowing(battle, USER, id, known, random, &mut events);
            }
            "late" => {
                let id = words.id()?;
                if !is_late(id.effect()) {
                    return Err(Unread);
                }
                group_two(battle, USER, id, random, &mut events);
            }
            "side" => side_effect(battle, USER, words.id()?, random, &mut events),
            "side_knowing" => {
                let id = words.id()?;
                answer = truth(side_effect_knowing(
                    battle,
                    USER,
                    id,
                    known,
                    random,
                    &mut events,
                ));
            }
            _ => return Ok(None),
        }
        self.events = events;
        Ok(Some(answer))
    }

    fn turns_call<R: Rolls>(
        &mut self,
        mut words: Words<'_>,
        random: &mut R,
    ) -> Result<Option<Answer<'static>>, Unread> {
        let battle = &mut self.battle;
        let mut events = EventList::new();
        let mut answer = NOTHING;
        match words.word() {
            "trap" => trap(battle, USER, random),
            "trap_knowing" => trap_knowing(battle, USER, &self.known, random),
            "bide" => answer = some(bide(battle, USER, random, &mut events)),
            "thrash" => thrash(battle, USER, random, &mut events),
            "thrash_knowing" => {
                let id = words.id()?;
                match id.effect() {
                    Effect::Thrash => {
                        thrash_knowing(battle, USER, id, &self.known, random, &mut events);
                    }
                    _ => return Err(Unread),
                }
            }
            _ => return Ok(None),
        }
        self.events = events;
        Ok(Some(answer))
    }

    fn damage_call<R: Rolls>(
        &mut self,
        mut words: Words<'_>,
        random: &mut R,
    ) -> Result<Option<Answer<'static>>, Unread> {
        let (battle, known) = (&mut self.battle, &mut self.known);
        Ok(Some(match words.word() {
            "fixed" => some(fixed(battle, USER, words.id()?, random)),
            "fixed_knowing" => truth(fixed_knowing(battle, USER, words.id()?, known, random)),
            "counter_knowing" => {
                counter_knowing(battle, USER, words.id()?, known, random);
                NOTHING
            }
            "knock_out" => {
                knock_out(battle, USER, words.id()?, known, random);
                NOTHING
            }
            "hits" => {
                let mut uncounted = Known {
                    hits_made: 0,
                    hits_planned: None,
                    ..*known
                };
                let mut events = EventList::new();
                hits(
                    battle,
                    USER,
                    words.id()?,
                    &mut uncounted,
                    random,
                    &mut events,
                );
                self.known = uncounted;
                self.events = events;
                NOTHING
            }
            _ => return Ok(None),
        }))
    }

    fn landing_call(&mut self, mut words: Words<'_>) -> Result<Option<Answer<'static>>, Unread> {
        let battle = &mut self.battle;
        let mut events = EventList::new();
        let mut answer = NOTHING;
        match words.word() {
            "land" => answer = landed(land(battle, USER, words.number()?, &mut events)),
            "land_on_hp" => {
                let damage = words.number()?;
                land_on_hp(battle, FOE, source_of(words.word())?, damage, &mut events);
            }
            "land_on_substitute" => {
                let (damage, hp) = (words.number()?, words.byte()?);
                answer = truth(land_on_substitute(battle, FOE, damage, hp, &mut events));
            }
            "lose" => {
                let amount = words.number()?;
                lose_hp(battle, FOE, source_of(words.word())?, amount, &mut events);
            }
            "gain" => gain_hp(battle, FOE, words.number()?, &mut events),
            "note_miss" => note_miss(battle, USER, words.id()?, &mut events),
            "missed_move" => missed_move(battle, USER, words.id()?, &mut events),
            "rage" => rage(battle, USER, &mut events),
            _ => return Ok(None),
        }
        self.events = events;
        Ok(Some(answer))
    }

    fn status_call(&mut self, mut words: Words<'_>) -> Result<Option<Answer<'static>>, Unread> {
        let battle = &mut self.battle;
        let mut events = EventList::new();
        let mut answer = NOTHING;
        match words.word() {
            "inflict" => {
                let (target, kind, count) = (words.side()?, words.kind()?, words.byte()?);
                inflict(battle, target, kind, count, &mut events);
            }
            "inflict_status" => {
                let (target, kind, status) = (words.side()?, words.kind()?, words.status()?);
                inflict_status(battle, target, status, kind, &mut events);
            }
            "penalty" => take_penalty(battle, words.side()?, words.status()?),
            "shift" => {
                let (target, stat, by) = (words.side()?, words.stat()?, words.shift()?);
                answer = truth(shift_stage(battle, USER, target, stat, by, &mut events));
            }
            "raise" => {
                let (target, stat, by) = (words.side()?, words.stat()?, words.byte()?);
                answer = truth(raise_stage(battle, USER, target, stat, by, &mut events));
            }
            "lower" => {
                let (target, stat, by) = (words.side()?, words.stat()?, words.byte()?);
                answer = truth(lower_stage(battle, USER, target, stat, by, &mut events));
            }
            "residual" => residual(battle, words.side()?, &mut events),
            _ => return Ok(None),
        }
        self.events = events;
        Ok(Some(answer))
    }

    fn other_call(&mut self, mut words: Words<'_>) -> Result<Option<Answer<'static>>, Unread> {
        let battle = &mut self.battle;
        let mut events = EventList::new();
        let answer = match words.word() {
            "pick" => {
                let side = words.side()?;
                let slot = MoveSlot::new(words.byte()?).ok_or(Unread)?;
                picked(pick(battle, side, Choice::Move(slot)))
            }
            "used_by" => used(used_by(battle, USER, pick_of(&mut words)?)),
            "counter" => some(counter(battle, words.side()?)),
            "charge" => truth(charge(battle, USER, words.id()?, &mut events)),
            "substitute" => {
                substitute(battle, USER, &mut events);
                NOTHING
            }
            "usual" => some(damage(&numbers(battle, USER, words.id()?, false))),
            "against_critical" => {
                number(u16::from(numbers(battle, USER, words.id()?, true).defense))
            }
            "own" => some(damage(&own_numbers(battle, USER))),
            "type_steps" => {
                let damage = words.number()?.min(999);
                number(type_steps(
                    damage,
                    &numbers(battle, USER, words.id()?, false),
                ))
            }
            "scaled" => number(u16::from(scaled_accuracy(battle, USER, words.byte()?))),
            "odds" => {
                let side = words.side()?;
                odds(battle, side, words.id()?)
            }
            _ => return Ok(None),
        };
        self.events = events;
        Ok(Some(answer))
    }
}
