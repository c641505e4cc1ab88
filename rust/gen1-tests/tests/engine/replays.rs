//! The stored run, replayed to a writer, and to one that fails at each of its writes (docs/MECHANICS.md, "Log bytes").
use crate::battles::{ENDS, LOG, PAIRS, WON, bytes_of, played, two_tauros};
use gen1::generated::engine::{BattleResult, Refusal, ReplayFault};
use gen1::generated::machine::{Device, Side};
use gen1_tests::Failing;
use std::error::Error;

#[test]
fn a_replay_writes_every_log() -> Result<(), Box<dyn Error>> {
    let mut battle = two_tauros()?;
    let mut sink = Device::new(Vec::new());
    assert_eq!(battle.replay(&PAIRS, &mut sink), Ok(WON));
    assert_eq!(sink.into_inner().as_slice(), LOG.as_slice());
    Ok(())
}

#[test]
fn a_replay_tells_a_refused_pair() -> Result<(), Box<dyn Error>> {
    let mut battle = two_tauros()?;
    let mut sink = Device::new(Vec::new());
    let result = battle.replay(&[(0x00, 0x00), (0x11, 0x15)], &mut sink);
    let why = Refusal::NotOffered(Side::Two);
    assert_eq!(result, Err(ReplayFault::Refused { pair: 1, why }));
    assert_eq!(sink.into_inner().len(), 23);
    Ok(())
}

/// How many pairs a replay plays if its writer takes this many bytes: those that are written whole, and the one that
/// isn't.
fn count_of(written: usize) -> usize {
    if written < ENDS[0] {
        1
    } else if written < ENDS[1] {
        2
    } else {
        3
    }
}

fn told(written: usize) -> Result<BattleResult, ReplayFault> {
    if written < ENDS[2] {
        Err(ReplayFault::Write {
            done: count_of(written),
        })
    } else {
        Ok(WON)
    }
}

/// Replays to a writer that takes at most `most` bytes in a write, and whose write number `left` fails.
///
/// Asserts that `written` bytes were written, that the error names the pair that they end in, and that no pair after
/// that one was played.
fn assert_told(failing: (usize, bool, usize), written: usize) -> Result<(), Box<dyn Error>> {
    let (left, takes_nothing, most) = failing;
    let mut battle = two_tauros()?;
    let mut bytes = Vec::new();
    let mut sink = Device::new(Failing {
        left,
        takes_nothing,
        most,
        bytes: &mut bytes,
    });
    let found = battle.replay(&PAIRS, &mut sink);
    assert_eq!(found, told(written));
    assert_eq!(
        (bytes.len(), LOG.starts_with(bytes.as_slice())),
        (written, true),
    );
    assert_eq!(bytes_of(&battle), bytes_of(&played(count_of(written))?));
    Ok(())
}

// Three writes, one for each pair.
#[test]
fn each_write_that_fails_is_told() -> Result<(), Box<dyn Error>> {
    for takes_nothing in [false, true] {
        for (left, written) in [(0usize, 0usize), (1, 23), (2, 59), (3, 82)] {
            assert_told((left, takes_nothing, 1000), written)?;
        }
    }
    Ok(())
}

// A write for each byte.
#[test]
fn each_byte_that_is_not_written_is_told() -> Result<(), Box<dyn Error>> {
    for takes_nothing in [false, true] {
        for left in 0..=82usize {
            assert_told((left, takes_nothing, 1), left)?;
        }
    }
    Ok(())
}

// Ten bytes in a write: the first log takes three writes, and ten bytes of the second log are written.
#[test]
fn a_pair_that_is_cut_is_counted() -> Result<(), Box<dyn Error>> {
    assert_told((4, false, 10), 33)
}
