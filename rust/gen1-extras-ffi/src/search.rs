//! The searches of gen1-search as functions of C.
pub use crate::forms::{SolveForm, ThinkForm};
use crate::texts;
use alloc::string::{String, ToString};
use gen1::generated::player::Player as PlainPlayer;
use gen1::{Battle, Player};
#[cfg(feature = "threads")]
use gen1_search::league::{Bot, League, Results};
use gen1_search::{LEVELS, Solver, think};

/// The nodes of a level of play, 1 to 5; 0 for any other number.
#[unsafe(no_mangle)]
pub extern "C" fn gen1_search_nodes(level: u8) -> u64 {
    let at = usize::from(level).checked_sub(1);
    at.and_then(|at| LEVELS.get(at)).copied().unwrap_or(0)
}

/// Searches for the choice of a player, and writes the result to `text`, as a JSON object with a key `error` if there is none.
///
/// Returns the length of the text. A longer one than `room` is not written.
///
/// # Safety
///
/// `text` has `room` bytes, and the pointers of the options have what [`ThinkForm`] says. Nothing else writes them during the call.
#[unsafe(no_mangle)]
pub unsafe extern "C" fn gen1_search_think(
    player: &PlainPlayer,
    options: &ThinkForm,
    text: *mut u8,
    room: usize,
) -> usize {
    // SAFETY: the caller guarantees it.
    let prior = unsafe { options.prior() };
    let found = on_threads(options.threads, || {
        let player = Player::from_plain(*player).ok_or("the player is of no side")?;
        let prior = prior?;
        let thought = think(&player, &prior, &options.options()?);
        thought.map_err(|why| why.to_string())
    });
    // SAFETY: the caller guarantees it.
    unsafe { put(&texts::thought(found), text, room) }
}

/// Bounds the value of a battle, and writes the result to `text`, as a JSON object with a key `error` if there is none.
///
/// Returns the length of the text. A longer one than `room` is not written.
///
/// # Safety
///
/// `text` has `room` bytes. Nothing else writes the arguments during the call.
#[unsafe(no_mangle)]
pub unsafe extern "C" fn gen1_search_solve(
    battle: &[u8; 384],
    options: &SolveForm,
    text: *mut u8,
    room: usize,
) -> usize {
    let found = on_threads(options.threads, || {
        let battle = Battle::from_bytes(battle).map_err(|why| why.to_string())?;
        let solver = Solver::new(&battle, options.options()?);
        let mut solver = solver.map_err(|why| why.to_string())?;
        let goes_on = options.clock();
        let stopped = solver.run(|_| goes_on());
        let stopped = stopped.map_err(|why| why.to_string())?;
        texts::solved(&solver, &battle, stopped)
    });
    // SAFETY: the caller guarantees it.
    unsafe { put(&texts::or_error(found), text, room) }
}

/// The league and the bots of a line such as `samples:7 think:100 greedy`, with tabs between them.
#[cfg(feature = "threads")]
fn league_in(line: &str) -> Result<(League, alloc::vec::Vec<Bot>), String> {
    let mut words = line.split('\t');
    let name = words.next().unwrap_or_default();
    let league = name.parse::<League>().map_err(|why| why.to_string())?;
    let bot = |word: &str| word.parse().map_err(|why| alloc::format!("{word}: {why}"));
    Ok((league, words.map(bot).collect::<Result<_, _>>()?))
}

/// Plays a battle of the league and the two bots of a line. Writes its line of results as JSON, or an object with a key `error`.
///
/// Returns the length of the text. A longer one than `room` is not written.
///
/// # Safety
///
/// `names` has `length` bytes, and `text` has `room` bytes.
#[cfg(feature = "threads")]
#[unsafe(no_mangle)]
pub unsafe extern "C" fn gen1_search_battle(
    names: *const u8,
    length: usize,
    number: u64,
    text: *mut u8,
    room: usize,
) -> usize {
    // SAFETY: the caller guarantees it.
    let names = unsafe { core::slice::from_raw_parts(names, length) };
    let played = || {
        let (league, bots) =
            league_in(core::str::from_utf8(names).map_err(|why| why.to_string())?)?;
        let [one, two] =
            <[Bot; 2]>::try_from(bots).map_err(|_| String::from("a battle has two bots"))?;
        let score = league.score(one, two, number);
        Ok(alloc::format!(
            "{{\"line\":{}}}",
            texts::quoted(league.line([one, two], number, score).trim_end())
        ))
    };
    // SAFETY: the caller guarantees it.
    unsafe { put(&texts::or_error(played()), text, room) }
}

/// Writes the tables of a league as JSON, or an object with a key `error`. The first line of `lines` has the league and the bots, and
/// the others are lines of results.
///
/// Returns the length of the text. A longer one than `room` is not written.
///
/// # Safety
///
/// `lines` has `length` bytes, and `text` has `room` bytes.
#[cfg(feature = "threads")]
#[unsafe(no_mangle)]
pub unsafe extern "C" fn gen1_search_table(
    lines: *const u8,
    length: usize,
    text: *mut u8,
    room: usize,
) -> usize {
    // SAFETY: the caller guarantees it.
    let lines = unsafe { core::slice::from_raw_parts(lines, length) };
    let made = || {
        let lines = core::str::from_utf8(lines).map_err(|why| why.to_string())?;
        let (first, lines) = lines.split_once('\n').unwrap_or((lines, ""));
        let (league, bots) = league_in(first)?;
        let mut results = Results::new(&bots);
        results
            .read(&league, lines)
            .map_err(|line| alloc::format!("line {line} is not a result"))?;
        let table = results.table().replace('\n', "\\n");
        Ok(alloc::format!("{{\"table\":\"{table}\"}}"))
    };
    // SAFETY: the caller guarantees it.
    unsafe { put(&texts::or_error(made()), text, room) }
}

/// Runs a search on new threads, so that a process may be forked between two searches.
#[cfg(feature = "threads")]
fn on_threads<T: Send>(
    threads: u32,
    search: impl FnOnce() -> Result<T, String> + Send,
) -> Result<T, String> {
    let pool = rayon::ThreadPoolBuilder::new().num_threads(threads.max(1) as usize);
    let pool = pool.build().map_err(|why| why.to_string())?;
    pool.install(search)
}

#[cfg(not(feature = "threads"))]
fn on_threads<T>(_: u32, search: impl FnOnce() -> Result<T, String>) -> Result<T, String> {
    search()
}

/// Writes a text where it fits, and returns its length.
///
/// # Safety
///
/// `to` has `room` bytes.
unsafe fn put(text: &str, to: *mut u8, room: usize) -> usize {
    if text.len() <= room {
        // SAFETY: the caller guarantees it.
        unsafe { to.copy_from_nonoverlapping(text.as_ptr(), text.len()) };
    }
    text.len()
}
