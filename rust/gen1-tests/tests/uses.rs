//! Tests of the programs of crates/uses, which the CALLING.md files show.
use arrayvec::ArrayVec;
use gen1::generated::stats::MemberSpec;
use gen1::generated::tables::{MoveId, Species};
use std::error::Error;

mod calculator {
    use crate::member;
    use gen1::generated::machine::Side;
    use gen1::generated::tables::MoveId;
    use gen1_tests::uses::calculator::{Calculation, calculate, face_off};
    use std::error::Error;

    // From an independent program. Oddish has 151 HP; 90 of 100 are 229 of 255; Dugtrio's base Speed is 120.
    #[test]
    fn dugtrio_uses_blizzard() -> Result<(), Box<dyn Error>> {
        let blizzard = MoveId::from_name("Blizzard").ok_or("no such move")?;
        let exp = [65535, 65535, 28425, 51341, 65535];
        let dugtrio = member("Dugtrio", 69, [0, 7, 6, 1], exp, &["Hyper Beam"])?;
        let oddish = member("Oddish", 50, [15; 4], [65535; 5], &["Bubble"])?;
        let battle = face_off(dugtrio, oddish)?;
        let expected = Calculation {
            damages: [
                139, 140, 140, 141, 142, 142, 143, 144, 144, 145, 145, 146, 147, 147, 148, 149,
                149, 150, 151, 151, 152, 153, 153, 154, 154, 155, 156, 156, 157, 158, 158, 159,
                160, 160, 161, 162, 162, 163, 164,
            ],
            knock_outs: 21,
            hits: 229,
            criticals: 60,
        };
        assert_eq!(
            calculate(&battle, Side::One, blizzard, false),
            Some(expected),
        );
        Ok(())
    }
}

mod player {
    use crate::member;
    use gen1::generated::engine::{Battle, Refusal};
    use gen1::generated::machine::{EventList, Outcome, Side};
    use gen1::generated::rolls::LinkRandom;
    use gen1::generated::stats::Team;
    use gen1_tests::uses::player::play_at_random;
    use std::error::Error;

    const SEED: [u8; 10] = [111, 60, 126, 210, 108, 161, 136, 210, 103, 72];

    // A member with one move, so that there is never more than one choice.
    fn seaking() -> Result<Team, Box<dyn Error>> {
        let seaking = member("Seaking", 1, [15; 4], [65535; 5], &["Acid"])?;
        Ok(Team::new(&[seaking])?)
    }

    // calling: ten_lines
    /// Plays a battle of two teams in which each side takes the first choice that it is offered, and returns how it ended.
    fn first_choices(one: &Team, two: &Team, seed: [u8; 10]) -> Result<Outcome, Refusal> {
        let mut battle = Battle::new(one, two, seed);
        let mut events = EventList::new();
        // No battle takes more updates.
        for _ in 0..u32::from(battle.limit()) + 11 {
            let Some(one) = battle.choices(Side::One).first().copied() else {
                break;
            };
            let Some(two) = battle.choices(Side::Two).first().copied() else {
                break;
            };
            battle.update_events(one, two, &mut events)?;
        }
        Ok(battle.result().outcome)
    }
    // end

    // From an independent program: side 1 wins on turn 5.
    #[test]
    fn one_choice_at_a_time() -> Result<(), Box<dyn Error>> {
        let team = seaking()?;
        let mut battle = Battle::new(&team, &team, SEED);
        let mut random = LinkRandom::new(SEED);
        let mut events = EventList::new();
        let result = play_at_random(&mut battle, &mut random, &mut events)?;
        assert_eq!(result.outcome, Outcome::WinOne);
        assert_eq!(battle.bytes()[1], 5);
        assert_eq!(events.len(), 4);
        assert_eq!(first_choices(&team, &team, SEED), Ok(Outcome::WinOne));
        Ok(())
    }
}

mod the_theorem {
    use gen1::generated::engine::{BattleResult, Choices, Refusal};
    use gen1::generated::events::{LogBuf, LogFault};
    use gen1::generated::machine::{Choice, MoveSlot, Outcome, Request, Rules, Side, TurnLimit};
    use gen1::generated::spectator::View;
    use gen1::generated::stats::Team;
    use gen1_tests::uses::the_theorem::{Beginning, Update, the_theorem};

    use arrayvec::ArrayVec;
    use gen1::generated::stats::MemberSpec;
    use gen1::generated::tables::{MoveId, Species};
    use std::error::Error;

    // The log of the battle that is stored in crates/battle_tool (stdin, stdout): both come out, the first turn hits each, and the
    // second makes side 2 fall.
    static LOG: [u8; 82] = [
        0x02, 1, 128, 1, 100, 97, 1, 97, 1, 0, 0x02, 2, 128, 1, 100, 97, 1, 97, 1, 0, 0x01, 1, 0,
        0x03, 1, 128, 70, 2, 128, 0x07, 2, 128, 0x05, 2, 128, 149, 0, 97, 1, 0, 0, 0x03, 2, 128,
        70, 1, 128, 0x05, 1, 128, 7, 1, 97, 1, 0, 0, 0x01, 2, 0, 0x03, 1, 128, 70, 2, 128, 0x07, 2,
        128, 0x05, 2, 128, 0, 0, 97, 1, 0, 0, 0x19, 2, 128, 0x1A, 1,
    ];

    const WON: BattleResult = BattleResult {
        outcome: Outcome::WinOne,
        request_one: Request::Pass,
        request_two: Request::Pass,
    };

    fn tauros() -> Result<Team, Box<dyn Error>> {
        let mut moves = ArrayVec::new();
        moves.push((MoveId::from_name("Strength").ok_or("no such move")?, 3));
        Ok(Team::new(&[MemberSpec {
            species: Species::from_name("Tauros").ok_or("no such species")?,
            level: 100,
            dvs: [15; 4],
            exp: [65535; 5],
            moves,
        }])?)
    }

    fn asked(one: Choice, two: Choice, is_reloaded: bool) -> Update {
        Update {
            one,
            two,
            is_reloaded,
            stored: [0; 384],
            result: WON,
            offered_one: Choices::new(),
            offered_two: Choices::new(),
            returned: Err(Refusal::Over),
            log: LogBuf::new(),
        }
    }

    // The stored battle, with a pair that is refused before the last one.
    fn stored_battle(is_reloaded: bool) -> Result<[Update; 4], Box<dyn Error>> {
        let strength = Choice::Move(MoveSlot::new(1).ok_or("no such slot")?);
        Ok([
            asked(Choice::Pass, Choice::Pass, is_reloaded),
            asked(strength, strength, is_reloaded),
            asked(strength, Choice::Pass, is_reloaded),
            asked(strength, strength, is_reloaded),
        ])
    }

    fn two_tauros() -> Result<Beginning, Box<dyn Error>> {
        Ok(Beginning {
            one: tauros()?,
            two: tauros()?,
            seed: [1, 36, 255, 7, 31, 100, 179, 254, 127, 10],
            rules: Rules::default(),
            limit: TurnLimit::default(),
        })
    }

    fn is_shown_at_the_end(view: &View) -> bool {
        let ends = view.turn() == 2 && view.outcome() == Outcome::WinOne;
        ends && view.hp(Side::One, 1) == 263 && view.hp(Side::Two, 1) == 0
    }

    fn is_logged(update: &Update, log: &[u8]) -> bool {
        update.log.as_slice() == log
    }

    #[test]
    fn the_stored_battle_is_played_and_watched() -> Result<(), Box<dyn Error>> {
        for is_reloaded in [false, true] {
            let mut updates = stored_battle(is_reloaded)?;
            let pieces: [&[u8]; 3] = [&LOG[..30], &LOG[30..31], &LOG[31..]];
            let view = the_theorem(&two_tauros()?, &mut updates, &pieces)?;
            assert!(is_shown_at_the_end(&view));
            assert!(is_logged(&updates[0], &LOG[..23]) && is_logged(&updates[1], &LOG[23..59]),);
            assert!(is_logged(&updates[2], &[]) && is_logged(&updates[3], &LOG[59..]),);
            assert_eq!(updates[2].returned, Err(Refusal::NotOffered(Side::Two)),);
            assert_eq!(updates[3].returned, Ok(WON));
            assert_eq!(
                updates[3].offered_two.first().copied(),
                Some(updates[3].two),
            );
            assert!(updates[3].stored == updates[2].stored && updates[3].stored[1] == 2,);
        }
        Ok(())
    }

    #[test]
    fn pieces_that_are_no_log_are_refused() -> Result<(), Box<dyn Error>> {
        let mut updates = stored_battle(true)?;
        let pieces: [&[u8]; 2] = [&LOG[..23], &[0xFF]];
        let view = the_theorem(&two_tauros()?, &mut updates, &pieces);
        assert!(view.is_err_and(|fault| fault == LogFault::UnknownTag));
        Ok(())
    }
}

mod two_players {
    use crate::member;
    use gen1::adapter::alloc::Global;
    use gen1::generated::engine::Battle;
    use gen1::generated::machine::{Outcome, Side};
    use gen1::generated::printer::print_log;
    use gen1::generated::room::{Room, RoomRefusal, Submitted};
    use gen1::generated::stats::Team;
    use gen1_tests::uses::two_players::{Next, Player, choose, look, restored};
    use std::error::Error;

    const ONE: Side = Side::One;

    const TWO: Side = Side::Two;

    fn seel_and_mew() -> Result<Team, Box<dyn Error>> {
        let exp = [41105, 6132, 0, 27624, 22806];
        let seel = member("Seel", 4, [15, 10, 3, 12], exp, &["Self-Destruct"])?;
        let exp = [0, 0, 0, 59288, 52090];
        let mew = member("Mew", 4, [12, 9, 1, 11], exp, &["Horn Drill"])?;
        Ok(Team::new(&[seel, mew])?)
    }

    fn pidgeot_and_gengar() -> Result<Team, Box<dyn Error>> {
        let exp = [62253, 47428, 0, 0, 54969];
        let pidgeot = member(
            "Pidgeot",
            61,
            [8, 12, 8, 3],
            exp,
            &["Horn Drill", "Blizzard"],
        )?;
        let exp = [0, 11915, 34952, 32331, 0];
        let names = ["Bide", "Sky Attack", "Guillotine"];
        let gengar = member("Gengar", 76, [4, 5, 11, 1], exp, &names)?;
        Ok(Team::new(&[pidgeot, gengar])?)
    }

    // A recorded battle, whose submissions these are.
    fn recorded() -> Result<Battle, Box<dyn Error>> {
        let seed = [76, 76, 76, 76, 76, 240, 96, 76, 76, 230];
        Ok(Battle::new(&seel_and_mew()?, &pidgeot_and_gengar()?, seed))
    }

    static SUBMISSIONS: [(Side, u32, u8); 9] = [
        (TWO, 0, 18),
        (ONE, 0, 17),
        (TWO, 1, 0),
        (TWO, 1, 33),
        (ONE, 1, 34),
        (ONE, 2, 17),
        (TWO, 2, 17),
        (TWO, 3, 0),
        (ONE, 3, 0),
    ];

    fn tauros() -> Result<Team, Box<dyn Error>> {
        let tauros = member("Tauros", 100, [15; 4], [65535; 5], &["Strength"])?;
        Ok(Team::new(&[tauros])?)
    }

    fn looks(next: Next) -> bool {
        matches!(next, Next::Look(_))
    }

    #[test]
    fn two_players_play_to_the_end() -> Result<(), Box<dyn Error>> {
        let mut room = Room::new(recorded()?);
        let mut one = Player {
            side: ONE,
            number: 0,
        };
        let mut two = Player {
            side: TWO,
            number: 0,
        };
        assert_eq!(choose(&mut two, 18, &mut room), Next::Wait);
        assert!(looks(choose(&mut one, 17, &mut room)));
        let lines = print_log(Global, look(&mut one, &room))?;
        assert!(
            lines.as_str()
                == "|move|p2a: Pidgeot|Blizzard|p1a: Seel\n|-resisted|p1a: Seel\n|-damage|p1a: Seel|0 fnt\n|faint|p1a: Seel\n",
        );
        assert!(look(&mut two, &room).len() == room.log().len());
        // Only side 1 is asked to replace its member.
        assert_eq!(choose(&mut two, 33, &mut room), Next::Wait);
        assert!(looks(choose(&mut one, 34, &mut room)));
        assert!(one.number == 1 && room.number() == 2);
        Ok(())
    }

    #[test]
    fn players_who_are_wrong_choose_again() -> Result<(), Box<dyn Error>> {
        let team = tauros()?;
        let seed = [1, 36, 255, 7, 31, 100, 179, 254, 127, 10];
        let mut room = Room::new(Battle::new(&team, &team, seed));
        let mut one = Player {
            side: ONE,
            number: 0,
        };
        let mut two = Player {
            side: TWO,
            number: 1,
        };
        assert_eq!(choose(&mut one, 17, &mut room), Next::Wait);
        assert_eq!(choose(&mut one, 17, &mut room), Next::Wait);
        assert_eq!(choose(&mut two, 17, &mut room), Next::Choose);
        assert!(looks(choose(&mut two, 17, &mut room)));
        assert_eq!(choose(&mut two, 17, &mut room), Next::Choose);
        assert!(two.number == 1 && one.number == 0);
        look(&mut one, &room);
        assert_eq!(choose(&mut one, 20, &mut room), Next::Choose);
        Ok(())
    }

    #[test]
    fn a_room_is_restored() -> Result<(), Box<dyn Error>> {
        let mut replies = [Ok(Submitted::Waiting); 9];
        let room = restored(recorded()?, &SUBMISSIONS, &mut replies).ok_or("other lengths")?;
        assert_eq!(replies[0], Ok(Submitted::Waiting));
        assert_eq!(replies[2], Err(RoomRefusal::AlreadyChosen));
        assert_eq!(replies[3], Err(RoomRefusal::AlreadyChosen));
        assert_eq!(replies[8], Err(RoomRefusal::Over));
        assert_eq!(room.battle().result().outcome, Outcome::WinTwo);
        let mut too_few = [Ok(Submitted::Waiting); 8];
        assert!(restored(recorded()?, &SUBMISSIONS, &mut too_few).is_none(),);
        Ok(())
    }
}

mod viewer {
    use crate::member;
    use gen1::generated::events::{LogFault, LogReader};
    use gen1::generated::machine::{Device, Kind, Outcome, Side};
    use gen1::generated::printer::PrintFault;
    use gen1::generated::spectator::View;
    use gen1::generated::stats::Team;
    use gen1_tests::uses::viewer::{show_log, show_piece, what_shows};
    use std::error::Error;

    // A recorded log, and its lines.
    static LOG: [u8; 140] = [
        0x02, 0x01, 0x86, 0x01, 0x64, 0xA6, 0x01, 0xA6, 0x01, 0x00, 0x02, 0x02, 0x41, 0x01, 0x64,
        0x14, 0x01, 0x14, 0x01, 0x00, 0x01, 0x01, 0x00, 0x03, 0x02, 0x41, 0x5C, 0x01, 0x86, 0x0D,
        0x01, 0x86, 0x02, 0x03, 0x01, 0x86, 0x22, 0x02, 0x41, 0x05, 0x02, 0x41, 0xBA, 0x00, 0x14,
        0x01, 0x00, 0x00, 0x0D, 0x02, 0x41, 0x05, 0x05, 0x01, 0x86, 0x8C, 0x01, 0xA6, 0x01, 0x02,
        0x01, 0x01, 0x02, 0x00, 0x03, 0x01, 0x86, 0x22, 0x02, 0x41, 0x05, 0x02, 0x41, 0x5C, 0x00,
        0x14, 0x01, 0x05, 0x00, 0x05, 0x01, 0x86, 0x58, 0x01, 0xA6, 0x01, 0x02, 0x01, 0x04, 0x02,
        0x41, 0x07, 0x01, 0x03, 0x00, 0x03, 0x01, 0x86, 0x2A, 0x02, 0x41, 0x08, 0x02, 0x41, 0x05,
        0x02, 0x41, 0x3D, 0x00, 0x14, 0x01, 0x05, 0x00, 0x05, 0x02, 0x41, 0x1E, 0x00, 0x14, 0x01,
        0x05, 0x00, 0x05, 0x02, 0x41, 0x00, 0x00, 0x14, 0x01, 0x05, 0x00, 0x17, 0x02, 0x41, 0x03,
        0x19, 0x02, 0x41, 0x1A, 0x01,
    ];

    static TEXT: &str = "|switch|p1a: Vaporeon|Vaporeon|422/422\n|switch|p2a: Alakazam|Alakazam|276/276\n|turn|1\n|move|p2a: Alakazam|Toxic|p1a: Vaporeon\n|-status|p1a: Vaporeon|psn\n|move|p1a: Vaporeon|Body Slam|p2a: Alakazam\n|-damage|p2a: Alakazam|186/276\n|-status|p2a: Alakazam|par\n|-damage|p1a: Vaporeon|396/422 psn|[from] psn\n|turn|2\n|move|p1a: Vaporeon|Body Slam|p2a: Alakazam\n|-damage|p2a: Alakazam|92/276 par\n|-damage|p1a: Vaporeon|344/422 psn|[from] psn\n|cant|p2a: Alakazam|par\n|turn|3\n|move|p1a: Vaporeon|Pin Missile|p2a: Alakazam\n|-supereffective|p2a: Alakazam\n|-damage|p2a: Alakazam|61/276 par\n|-damage|p2a: Alakazam|30/276 par\n|-damage|p2a: Alakazam|0 fnt\n|-hitcount|p2a: Alakazam|3\n|faint|p2a: Alakazam\n|win|p1\n";

    // At level 100, with DVs of 0.
    fn team(species: &str, exp: u16) -> Result<Team, Box<dyn Error>> {
        let spec = member(species, 100, [0; 4], [exp; 5], &["Body Slam"])?;
        Ok(Team::new(&[spec])?)
    }

    // The log shows that they have 422 HP and 276.
    fn vaporeon() -> Result<Team, Box<dyn Error>> {
        team("Vaporeon", 43264)
    }

    fn alakazam() -> Result<Team, Box<dyn Error>> {
        team("Alakazam", 50176)
    }

    fn shows_the_end(view: &View) -> Result<bool, Box<dyn Error>> {
        let one = what_shows(view, Side::One, &vaporeon()?).ok_or("nobody is out")?;
        let two = what_shows(view, Side::Two, &alakazam()?).ok_or("nobody is out")?;
        let names = one.species.name() == "Vaporeon" && two.species.name() == "Alakazam";
        let first = (one.hp, one.max_hp, one.status) == (344, 422, Some(Kind::Poison));
        Ok(names && first && (two.hp, two.max_hp, two.status) == (0, 276, None))
    }

    #[test]
    fn a_recorded_log_is_shown() -> Result<(), Box<dyn Error>> {
        let mut out = Device::new(Vec::new());
        let pieces: [&[u8]; 3] = [&LOG[..1], &LOG[1..77], &LOG[77..]];
        let view = show_log(&vaporeon()?, &alakazam()?, &pieces, &mut out)?;
        assert!(out.get_ref().as_slice() == TEXT.as_bytes());
        let end = shows_the_end(&view)?;
        assert!(end && view.turn() == 3 && view.outcome() == Outcome::WinOne,);
        Ok(())
    }

    #[test]
    fn bytes_are_shown_one_by_one() -> Result<(), Box<dyn Error>> {
        let mut out = Device::new(Vec::new());
        let mut reader = LogReader::new();
        let mut view = View::new(&vaporeon()?, &alakazam()?);
        assert_eq!(what_shows(&view, Side::One, &vaporeon()?), None);
        for byte in LOG {
            show_piece(&mut reader, &[byte], &mut view, &mut out)?;
        }
        assert!(out.get_ref().as_slice() == TEXT.as_bytes());
        let end = shows_the_end(&view)?;
        assert!(end && reader.finish() == Ok(()));
        Ok(())
    }

    #[test]
    fn a_cut_log_is_shown_up_to_the_cut() -> Result<(), Box<dyn Error>> {
        let mut out = Device::new(Vec::new());
        let pieces: [&[u8]; 1] = [&LOG[..139]];
        let cut = show_log(&vaporeon()?, &alakazam()?, &pieces, &mut out);
        assert!(cut.is_err_and(|fault| fault == PrintFault::Log(LogFault::Truncated)),);
        assert!(TEXT.as_bytes().starts_with(out.get_ref().as_slice()));
        let left = TEXT.len().checked_sub(out.get_ref().len());
        assert_eq!(left, Some("|win|p1\n".len()));
        Ok(())
    }
}

/// The specification of a member, whose moves have no PP ups.
fn member(
    species: &str,
    level: u8,
    dvs: [u8; 4],
    exp: [u16; 5],
    names: &[&str],
) -> Result<MemberSpec, Box<dyn Error>> {
    let mut moves = ArrayVec::new();
    for name in names {
        moves.push((MoveId::from_name(name).ok_or("no such move")?, 0));
    }
    Ok(MemberSpec {
        species: Species::from_name(species).ok_or("no such species")?,
        level,
        dvs,
        exp,
        moves,
    })
}
