//! To see that the comparison can fail: each likely mistake, planted by itself, has to be found by it.

use crate::compare::{compare_stream, Repeat};
use crate::figures::Figures;
use crate::generate;
use crate::lines;
use crate::mistake::{Mistake, MISTAKES};
use crate::options::Options;
use crate::program::{difference, Run};

/// Streams at most in which a mistake has to be found.
const BOUND: u64 = 4000;

pub fn run(options: &Options) -> Result<(), String> {
    let bound = options.streams.unwrap_or(BOUND);
    let mut hidden = MISTAKES.to_vec();
    for number in 0..bound {
        let both = Both::of_stream(options, number)?;
        if let Some(found) = both.differs(Mistake::None) {
            // The comparison says it at length.
            let repeat = Repeat { options, number, command: "" };
            compare_stream(&both.made, &repeat, &mut Figures::default())?;
            return Err(format!("stream {number} differed once with no mistake planted: {found}"));
        }
        hidden.retain(|(mistake, words)| {
            let found = both.differs(*mistake);
            if found.is_some() {
                println!("stream {number} finds: {words}");
            }
            found.is_none()
        });
        if hidden.is_empty() {
            println!("{0} of {0} planted mistakes found (seed {1})", MISTAKES.len(), options.seed);
            return Ok(());
        }
    }
    let hidden: Vec<&str> = hidden.iter().map(|(_, words)| *words).collect();
    Err(format!("not found in {bound} streams: {}", hidden.join("; ")))
}

/// What both programs print for one stream and its script.
struct Both {
    made: generate::Made,
    replay: Run,
    inspect: Run,
}

impl Both {
    fn of_stream(options: &Options, number: u64) -> Result<Self, String> {
        let made = generate::made(options.seed, number);
        let replay = options.replay().run(&made.bytes)?;
        let inspect = options.inspect().run(&made.script)?;
        Ok(Both { made, replay, inspect })
    }

    /// The very comparison of `compare`, with a mistake planted in the second reading.
    fn differs(&self, mistake: Mistake) -> Option<String> {
        let expected = lines::replay(&self.made.bytes, mistake);
        difference(&expected, &self.replay)
            .or_else(|| difference(&lines::inspect(&self.made.script, mistake), &self.inspect))
    }
}
