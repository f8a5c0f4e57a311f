//! Instructions and stores, as valgrind's tool callgrind counts them.

use std::env;
use std::io::{self, ErrorKind};
use std::process::{Command, Output};

use crate::progress::Progress;
use crate::words::COUNTED;

/// What was counted.
#[derive(Clone, Copy, Debug, PartialEq)]
pub struct Count {
    /// The instructions.
    pub instructions: usize,
    /// The stores.
    pub stores: usize,
}

/// The counts of the first so many pushes that are counted, in their order, or why there are none:
/// of each, what a run that makes it counts more than one that ends before it.
pub fn counts(pushes: usize) -> Result<Vec<Count>, String> {
    let mut progress = Progress::of("counting in valgrind");
    let mut before = of_run(0)?;
    if before != of_run(0)? {
        return Err("valgrind counts the same run in two ways".into());
    }
    let counts = (1..=pushes).map(|push| {
        progress.tell(push, pushes);
        let after = of_run(push)?;
        let count = between(before, after);
        before = after;
        count.ok_or_else(|| "valgrind counts less in a longer run".into())
    });
    counts.collect()
}

/// What the later of two counts has more.
fn between(before: Count, after: Count) -> Option<Count> {
    Some(Count {
        instructions: after.instructions.checked_sub(before.instructions)?,
        stores: after.stores.checked_sub(before.stores)?,
    })
}

/// What is counted in a run that makes so many of the pushes that are counted.
fn of_run(pushes: usize) -> Result<Count, String> {
    let run = valgrind(pushes).map_err(|error| match error.kind() {
        ErrorKind::NotFound => "valgrind is not installed".into(),
        _ => format!("valgrind cannot be run: {error}"),
    })?;
    let said = String::from_utf8_lossy(&run.stderr);
    let count = parsed(&said).filter(|_| run.status.success());
    count.ok_or_else(|| format!("valgrind failed and said\n{}", said.trim_end()))
}

/// Runs this program inside callgrind. The word for the pushes has one length, so that no run has
/// more words on its stack than another.
fn valgrind(pushes: usize) -> io::Result<Output> {
    Command::new("valgrind")
        .args(["--tool=callgrind", "--cache-sim=yes"])
        .arg("--callgrind-out-file=/dev/null")
        .arg(env::current_exe()?)
        .args([COUNTED, &format!("{pushes:03}")])
        .output()
}

/// The count of what callgrind says at the end of a run.
fn parsed(said: &str) -> Option<Count> {
    let numbers = |name| {
        let line = said.lines().find(|line| line.contains(name))?;
        Some(line.split_once(": ")?.1.split_whitespace())
    };
    let mut sums = numbers(" Events ")?.zip(numbers(" Collected ")?);
    let mut sum = |event| sums.find(|(name, _)| *name == event)?.1.parse().ok();
    Some(Count {
        instructions: sum("Ir")?,
        stores: sum("Dw")?,
    })
}

#[cfg(test)]
mod tests {
    use super::*;

    /// Some counts.
    const COUNT: Count = Count {
        instructions: 295,
        stores: 84,
    };

    #[test]
    fn counts_are_those_of_the_two_events() {
        let said = "==9== a: b\n==9== Events    : Ir Dr Dw I1mr\n==9== Collected : 295 70 84 6\n";
        assert_eq!(parsed(said), Some(COUNT));
    }

    #[test]
    fn what_is_said_otherwise_has_no_counts() {
        let events = "==9== Events    : Ir Dr Dw\n";
        for said in ["", events, "==9== Collected : 295 70 84\n"] {
            assert_eq!(parsed(said), None, "{said}");
        }
        let few = format!("{events}==9== Collected : 295\n");
        assert_eq!(parsed(&few), None);
    }

    #[test]
    fn a_longer_run_has_more() {
        let after = Count {
            instructions: 300,
            stores: 84,
        };
        let more = Count {
            instructions: 5,
            stores: 0,
        };
        assert_eq!(between(COUNT, after), Some(more));
        assert_eq!(between(after, COUNT), None);
    }
}
