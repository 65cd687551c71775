//! Scenarios in text: a line that begins with `>` is a command, the lines under it are what came out. The rest is for the reader.
//!
//! | Command | What happens |
//! |---|---|
//! | `coordinator 0 starts T8 (0,3,put,5)` | its drive starts T8 |
//! | `coordinator 1 recovers T8 above 0` | its drive recovers T8, with the pieces that it was started with |
//! | `coordinator 0 sends` | the message due gets a name, m1, m2, .. |
//! | `coordinator 0 hears m2 m3` | its drive takes these replies |
//! | `coordinator 0 moves on`, `.. goes on`, `.. vanishes` | "move on"; the next ballot; the drive is gone |
//! | `servers 0 1 2 take m1` | each takes the message, and its answer gets a name; `Inquire T8` and `Fetch T8` may stand for m1 |
//! | `servers 0 1 run` | each runs until 0, as at a start-up |
//! | `servers 0 want`, `.. hold T8`, `.. count`, `.. log` | the wanted set; what is held of T8; the counters that aren't 0; the numbers run |
//! | `cut 3`, `mend 3` | the trunk at station 3. A coordinator sits at the station of its number |

mod stage;

use engine::Engine;
use stage::Stage;

/// The text of a scenario as it comes out: the commands and remarks as they stand, under each command what it gave.
pub fn replay<E: Engine>(engine: &E, scenario: &str) -> String {
    let mut stage = Stage::fresh(engine);
    let mut out = Vec::new();
    for line in scenario.lines() {
        if let Some(command) = line.strip_prefix("> ") {
            out.push(line.to_string());
            out.extend(stage.obey(command).unwrap_or_else(|| vec![NO_SUCH.to_string()]));
        } else if line.is_empty() || line.starts_with('#') {
            out.push(line.to_string());
        }
    }
    out.join("\n") + "\n"
}

/// What comes of a command that isn't one, or that names a message that there isn't.
pub const NO_SUCH: &str = "NO SUCH COMMAND";

/// The first line at which two texts differ, in words.
pub fn first_difference(written: &str, played: &str) -> Option<String> {
    if written == played {
        return None;
    }
    let (mut ours, mut theirs) = (written.lines(), played.lines());
    for place in 1.. {
        match (ours.next(), theirs.next()) {
            (None, None) => break,
            (a, b) if a == b => {}
            (a, b) => {
                let (a, b) = (a.unwrap_or("nothing more"), b.unwrap_or("nothing more"));
                return Some(format!("line {place}: the scenario says `{a}`, and what came out is `{b}`"));
            }
        }
    }
    Some("the ends of the lines differ".to_string())
}
