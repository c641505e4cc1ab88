//! The texts that help prints after the arguments (docs/PROGRAM.md).

pub const PROGRAM: &str = "\
FILE is the input. Without it, or with -, the input is standard input.
examples/tauros.json of the repository is an input to start with: gen1 run examples/tauros.json
docs/PROGRAM.md describes each input and output.

Exit status:
  0  done
  1  the input is refused: `error: json` and so on, as docs/PROGRAM.md lists them
  2  the command line is wrong
  3  a file could not be read or written
An error is printed to standard error. A reader of the output that wants no more,
such as head, ends the program without an error line, with status 3.";

pub const RUN: &str = r#"The input is a JSON object:
  {"seed": [1,36,255,7,31,100,179,254,127,10],
   "one": [{"species":"Tauros","level":100,"dvs":[15,15,15,15],
            "exp":[65535,65535,65535,65535,65535],"moves":[["Strength",3]]}],
   "two": [..], "choices": [[0,0],[17,17]], "rules": 0, "limit": 1000}

  seed      ten numbers from 0 to 255
  one, two  the teams of both sides: up to six members. dvs are those of Attack,
            Defense, Speed and Special; exp is that of HP and the same four; a
            move has its name and its PP ups. Or a string: Showdown's export text
            or a packed line
  choices   a pair for each update, side 1's choice and side 2's: 0 passes, 17 to
            20 are the moves, 33 to 38 switch to member 1 to 6, 16 goes on where no
            move can be chosen. Or in words: "pass", "move 1", "move Body Slam",
            "switch 3", "switch Chansey". The first pair is [0,0]
  rules     may be left out: 1 sleep clause, 2 freeze clause, 3 both
  limit     may be left out: the last turn, from 1 to 9999

Without JSON: --one, --two and --seed give teams and seed, and each line of FILE has
the choices of both sides, separated by a comma, as in: move 1, switch Chansey"#;

pub const PRINT: &str =
    "The input is what `gen1 log` writes: gen1 log examples/tauros.json | gen1 print";

pub const CALC: &str = r#"In words, one line for each move:
  gen1 calc Tauros Body Slam vs Alakazam
  gen1 calc --attacker team.txt --defender Alakazam --defender-stages spc=+2 --reflect

A member has just been sent out, at level 100 with maximum DVs and experience unless
a team text says otherwise. KO chances are those of uses, which may miss or be critical,
in the state that is given.

Or of a JSON object, with members as in `gen1 run --help`; the 39 numbers are in rising
order of the random factor, from 217 to 255:
  {"attacker": MEMBER, "defender": MEMBER, "move": "Body Slam", "critical": false}
examples/body_slam.json is an input to start with."#;

pub const SHOWDOWN: &str = r#"Commands are lines of standard input (docs/PROGRAM.md):
  >start {"formatid":"gen1ou","seed":[1,2,3,4]}
  >player p1 {"name":"Alice","team":"Tauros||||bodyslam|||||||"}
  >player p2 {"name":"Bob","team":"Alakazam||||psychic|||||||"}
  >p1 move 1
  >p2 move Psychic
After them come blocks of lines, each with an empty line at its end: update, sideupdate
with a player's request or error, and end."#;

pub const FOLLOW: &str = "\
The log is one that `gen1 run --showdown` or `gen1 showdown` prints, a log of Showdown,
or a replay page (docs/PROGRAM.md):
  gen1 run --showdown examples/tauros.json | gen1 follow --side p2

Without --team the player's own side too is known as far as the log shows it.

With the requests of the side in the log, a battle to search can be made of it:
  gen1 follow --team mine.txt --guess theirs.txt --battle stream.txt > battle.bin";

pub const TEAM: &str = "\
The form of the input is recognized: JSON begins with [, the first line of a packed line
has a bar, and anything else is an export text. Without an option the export text is
printed. It has neither PP ups nor experience: the EVs that are printed give the same
stats. docs/TEAM_TEXT.md describes both texts.";

pub const ROOM: &str = r#"The input is that of `gen1 run --help`, with submissions instead of choices:
  "submissions": [[1,0,17],[2,0,17]]

Each is a side, the number of the pair that is meant, from 0, and a choice. The battle
is started first, so no submission passes for its start."#;

pub const PLAY: &str = "\
Standard input has your choices, a number on each line, and q to leave the game.
The choices in FILE are ignored. With FILE - the whole of standard input is the battle,
so the game ends at your first choice.";

pub const THINK: &str = "\
The input is that of `gen1 run --help`. The side sees what a player may see: nothing of
the foe's team but what the choices have shown. Each line is a choice: how often to make
it, how often the side wins after it, and the choice. Then comes a line of play.
rust/gen1-search/README.md describes the search.";

pub const SOLVE: &str = "\
The input is that of `gen1 run --help`. A tie counts as half a win. The interval holds the
value whatever was left out: memory, draws, sweeps and rounding. After it come the reason
to stop (solved, memory, endless, sweeps) and the choices of both sides, with how often to
make them. rust/gen1-search/README.md describes what a position is.";

pub const LEAGUE: &str = "\
Each bot chooses from what its own player knows. random makes any choice, greedy the
move with the greatest mean damage. monte takes the choice that wins most random
playouts, think searches by `gen1 think`; MS are the milliseconds of each choice, on
Linux those that its thread uses of the processor. nodes and level are searches with
as many nodes as in `gen1 think`.

Two battles have the same teams, and the bots swap sides. A tie counts as half a win.
Elo is 400 for odds of 10 to 1, with the first bot at 0. Without MS the tables do not
depend on --jobs. After an interruption the same command with --file continues.";

pub const REPLAY: &str = "A file is written completely or not at all.";

pub const BENCH: &str = "\
Each row takes a quarter of the time, and says what one step includes. It is the plain
build, of which nothing is proved. The first row is what bench/run measures of a C
library as `without log`, the second what it measures as `choices not tested again`
in a step by masks.";
