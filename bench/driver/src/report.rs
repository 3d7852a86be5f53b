//! The table that is printed, a row at a time.

/// A row: ours beside plain's.
pub struct Row {
    pub name: String,
    pub of: String,
    /// Nanoseconds: the best of all rounds, ours and plain's.
    pub times: [f64; 2],
    pub medians: [f64; 2],
    /// The median of the ratios, round by round.
    pub median_ratio: f64,
    /// Instructions, ours and plain's.
    pub counts: Option<[f64; 2]>,
    pub mark: Option<f64>,
}

pub struct Report {
    above: Vec<String>,
}

fn ratio([ours, plain]: [f64; 2]) -> f64 {
    ours / plain
}

/// A number with as many places as tell something.
fn short(number: f64) -> String {
    match number {
        n if n < 100.0 => format!("{n:.1}"),
        n => format!("{n:.0}"),
    }
}

impl Report {
    pub fn begin(rounds: usize, stream_rounds: usize, is_counted: bool) -> Report {
        println!(
            "Ours beside the plain interpreter of bench/plain, in one run; every ratio is ours / plain."
        );
        println!("Steps are those of nimbra_step_held, and the marks are for them.");
        println!("Times are nanoseconds: the best of {rounds} rounds in turn, and the median in brackets; for (e) a step's share of");
        println!(
            "the processor time of the whole process, {stream_rounds} rounds, or 3 where one takes long."
        );
        if is_counted {
            println!("Instructions are callgrind's; its files stay in target/bench/counts.");
        } else {
            println!("valgrind is missing: no instructions are counted.");
        }
        println!();
        head("");
        Report { above: Vec::new() }
    }

    pub fn growth_begins(&self) {
        println!();
        head("how a step grows (by nimbra_step_held)");
    }

    pub fn row(&mut self, row: Row) {
        let time = |side: usize| format!("{} ({})", short(row.times[side]), short(row.medians[side]));
        let counts = row.counts.map_or(["-".to_string(), "-".to_string(), "-".to_string()], |counts| {
            [short(counts[0]), short(counts[1]), format!("{:.2}", ratio(counts))]
        });
        let is_above = row.mark.is_some_and(|mark| ratio(row.times) > mark);
        let mark = row
            .mark
            .map_or(String::new(), |mark| format!("{mark:.0}{}", if is_above { " above" } else { "" }));
        line([
            &row.name,
            &row.of,
            &time(0),
            &time(1),
            &format!("{:.2}", ratio(row.times)),
            &format!("{:.2}", row.median_ratio),
            &mark,
            &counts[0],
            &counts[1],
            &counts[2],
        ]);
        if is_above {
            self.above.push(format!(
                "{} {:.2} (mark {:.0})",
                row.name,
                ratio(row.times),
                row.mark.unwrap_or(0.0)
            ));
        }
    }

    /// The last line.
    pub fn end(self) {
        match self.above.is_empty() {
            true => println!("no row is above its mark"),
            false => println!("above the mark: {}", self.above.join(", ")),
        }
    }
}

fn head(title: &str) {
    line(["", title, "ours", "plain", "ratio", "median", "mark", "instr ours", "plain", "ratio"]);
}

fn line([name, of, ours, plain, ratio, median, mark, our_count, plain_count, count_ratio]: [&str; 10]) {
    let text = format!(
        "{name:<4} {of:<66} {ours:>17} {plain:>17} {ratio:>7} {median:>7} {mark:<8} {our_count:>11} {plain_count:>9} {count_ratio:>6}"
    );
    println!("{}", text.trim_end());
}
