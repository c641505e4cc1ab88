//! The protocol of the pipes.
//!
//! A player reads lines:
//!
//! | Line | When |
//! |---|---|
//! | `side N` | first: which side it is, 1 or 2 |
//! | `team JSON` | second: its own team, as a list of members in docs/PROGRAM.md |
//! | `log HEX` | for the battle's start and for each pair that ended: its log bytes (docs/MECHANICS.md, "Log bytes"), as the side may see them |
//! | `ask NUMBER BYTE ..` | a choice is due: the number of the current pair, and the offered choices |
//! | `taken NUMBER` | the player's choice for this pair was accepted |
//! | `refused CODE NUMBER` | its line was refused, and nothing has changed; NUMBER is that of the current pair |
//!
//! and writes lines `NUMBER BYTE`. Codes 1 to 4 are those of the host (docs/MECHANICS.md, "Hosts"): 1 over, 2 another pair is current,
//! 3 already chosen, 4 not offered. Code 5 means that the line is not two numbers separated by one space. Code 6 means that the player
//! was refused too often; it is the last line that it gets.
//!
//! The spectator reads log bytes, and nothing else: those that an audience may see, without places and with HP in 48ths.

/// The longest line of a player, without its line feed: two numbers of ten and three digits.
pub const LINE_MOST: usize = 14;
/// The code of a line that is not two numbers.
pub const RUBBISH: u8 = 5;
/// The code after which a player gets no more lines, and the host stops reading it.
pub const TOO_MANY: u8 = 6;

/// The number of a pair and the byte of a choice in a player's line, if it has exactly these.
pub fn choice_of(line: &[u8]) -> Option<(u32, u8)> {
    let (number, byte) = std::str::from_utf8(line).ok()?.split_once(' ')?;
    // Digits only: `parse` would accept a sign too.
    let is_number = |text: &str| text.bytes().all(|it| it.is_ascii_digit());
    (line.len() <= LINE_MOST && is_number(number) && is_number(byte))
        .then(|| Some((number.parse().ok()?, byte.parse().ok()?)))?
}

/// The line for log bytes.
pub fn log_line(log: &[u8]) -> String {
    let digits: String = log.iter().map(|byte| format!("{byte:02x}")).collect();
    format!("log {digits}\n")
}

/// The line that asks for a choice.
pub fn ask_line(number: u32, choices: &[u8]) -> String {
    let bytes: String = choices.iter().map(|byte| format!(" {byte}")).collect();
    format!("ask {number}{bytes}\n")
}

/// The number of the pair and the bytes that an `ask` line offers.
pub fn asked(line: &str) -> Option<(u32, Vec<u8>)> {
    let mut words = line.strip_prefix("ask ")?.split_whitespace();
    let number = words.next()?.parse().ok()?;
    Some((
        number,
        words.map(str::parse).collect::<Result<_, _>>().ok()?,
    ))
}

#[cfg(test)]
mod tests {
    use super::*;

    #[test]
    fn two_numbers_are_a_choice_and_nothing_else_is() {
        assert_eq!(choice_of(b"0 17"), Some((0, 17)));
        assert_eq!(choice_of(b"4294967295 255"), Some((u32::MAX, 255)));
        let rubbish: [&[u8]; 14] = [
            b"",
            b" ",
            b"0",
            b"0 ",
            b" 17",
            b"0  17",
            b"0 17 ",
            b"0 17 17",
            b"+0 17",
            b"0 +17",
            b"0 256",
            b"4294967296 17",
            b"000000000000 17",
            b"0 \xff",
        ];
        for line in rubbish {
            assert_eq!(choice_of(line), None, "{line:?}");
        }
    }

    #[test]
    fn what_is_asked_is_read_again() {
        assert_eq!(ask_line(7, &[17, 33]), "ask 7 17 33\n");
        assert_eq!(asked("ask 7 17 33\n"), Some((7, vec![17, 33])));
        assert_eq!(asked("taken 7\n"), None);
        assert_eq!(log_line(&[26, 1]), "log 1a01\n");
    }
}
