//! Events as sentences.
use crate::generated::sentences::{Narrator as Held, write_sentence};
use crate::lines::Text;
use crate::{Event, Side};
use arrayvec::ArrayString;
use core::fmt;
use core::ops::Deref;

/// The length of the longest sentence in bytes.
const LENGTH: usize = 127;

/// Makes sentences of the events of a battle, for a spectator or a side.
///
/// It notes which members are out, so that a sentence can say what is lost and who is withdrawn: [`say`](Self::say) each event, in
/// order. The default is a spectator who sees all HP.
///
/// ```
/// use gen1::{LogFault, Narrator, Side, events_of};
///
/// let log = [5, 1, 128, 24, 0, 48, 0, 0, 0, 5, 1, 128, 0, 0, 48, 0, 0, 4, 26, 2];
/// let mut narrator = Narrator::new(Some(Side::Two), [true, false]);
/// let told: Vec<_> = events_of(&log).map(|event| Ok(narrator.say(&event?))).collect::<Result<_, LogFault>>()?;
/// assert_eq!(*told[0], *"The foe's Tauros is down to 50%.");
/// assert_eq!(*told[1], *"The foe's Tauros loses its last 50% by recoil.");
/// assert_eq!(*told[2], *"You win.");
/// # Ok::<(), LogFault>(())
/// ```
#[derive(Clone, Debug, PartialEq, Eq)]
pub struct Narrator {
    held: Held,
}

impl Narrator {
    /// A narrator before a battle, for a side or for a spectator, and whether HP of side 1 and of side 2 are said in per cent: those of
    /// the foe in a log that is reported to a side ([`Teller`](crate::Teller)).
    #[must_use]
    pub fn new(you: Option<Side>, in_percent: [bool; 2]) -> Self {
        Narrator {
            held: Held::new(you, in_percent),
        }
    }

    /// The sentence of the next event, with its full stop.
    pub fn say(&mut self, event: &Event) -> Sentence {
        let mut text = Text(ArrayString::new());
        // No sentence is longer than the buffer, so no write fails.
        let _ = write_sentence(&self.held, event, &mut text);
        self.held.follow(event);
        Sentence { text: text.0 }
    }
}

impl Default for Narrator {
    fn default() -> Self {
        Narrator::new(None, [false, false])
    }
}

/// The sentence of an event. [`Narrator::say`] returns it.
#[derive(Clone, Copy, PartialEq, Eq)]
pub struct Sentence {
    text: ArrayString<LENGTH>,
}

impl Deref for Sentence {
    type Target = str;

    fn deref(&self) -> &str {
        &self.text
    }
}

impl fmt::Display for Sentence {
    fn fmt(&self, f: &mut fmt::Formatter<'_>) -> fmt::Result {
        f.pad(&self.text)
    }
}

impl fmt::Debug for Sentence {
    fn fmt(&self, f: &mut fmt::Formatter<'_>) -> fmt::Result {
        fmt::Debug::fmt(&**self, f)
    }
}
