//! The spectator: it prints the lines of a battle from the log bytes that it is sent.
use gen1::{Event, Line, LogReader, Side, Species, Spectator, Team, member};
use std::io::{self, Read, Write};

/// Prints the line of each event of a log, as soon as the event is complete; with a board, also the state after each turn.
///
/// # Errors
///
/// A read or a write that fails, and bytes that aren't a log.
pub fn print_log(mut from: impl Read, mut to: impl Write, with_board: bool) -> io::Result<()> {
    let (mut reader, mut board, mut bytes) = (LogReader::new(), Board::new(), [0; 4096]);
    loop {
        let count = from.read(&mut bytes)?;
        if count == 0 {
            return reader.finish().map_err(io::Error::other);
        }
        let mut rest = &bytes[..count];
        loop {
            let taken = reader.feed(rest).map_err(io::Error::other)?;
            rest = &rest[taken..];
            let Some(event) = reader.next() else {
                break;
            };
            board.see(&event);
            writeln!(to, "{}", Line::of(&event))?;
            if with_board && matches!(event, Event::Turn(_)) {
                writeln!(to, "{}", board.text())?;
            }
        }
        to.flush()?;
    }
}

/// The knowledge of a battle from its log alone.
struct Board {
    view: Spectator,
    /// The active member of each side, with its maximum HP.
    out: [Option<(Species, u16)>; 2],
}

impl Board {
    /// A `Spectator` needs both teams, which this process is not sent. It therefore starts with six placeholder members on each side. The
    /// values that it shows of a member come from the log, from the member's first switch on.
    fn new() -> Board {
        let placeholder = member("Mew", &["Pound"]).expect("names of the tables");
        let team = Team::new(&std::array::from_fn::<_, 6, _>(|_| placeholder.clone()))
            .expect("a valid team");
        Board {
            view: Spectator::new(&team, &team),
            out: [None; 2],
        }
    }

    fn see(&mut self, event: &Event) {
        self.view.apply(event);
        if let Event::Switch(who, _, _, health) = event {
            self.out[usize::from(who.side.number()) - 1] = Some((who.species, health.max()));
        }
    }

    /// The turn and the active members, on one line.
    fn text(&self) -> String {
        let side = |side: Side| {
            let (species, max) = self.out[usize::from(side.number()) - 1]?;
            let place = self.view.place(side);
            let status = self
                .view
                .status(side, place)
                .map_or(String::new(), |kind| format!(" {kind}"));
            let behind = if self.view.substitute(side) {
                " behind a Substitute"
            } else {
                ""
            };
            Some(format!(
                "p{} {species} {}/{max}{status}{behind}",
                side.number(),
                self.view.hp(side, place)
            ))
        };
        let sides: Vec<String> = Side::BOTH.into_iter().filter_map(side).collect();
        format!("# turn {}: {}", self.view.turn(), sides.join(", "))
    }
}
