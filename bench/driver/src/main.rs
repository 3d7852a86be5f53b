//! Measures the library beside the plain interpreter: ./bench/run builds all that this needs and runs it.

mod cases;
mod counting;
mod report;
mod sides;
mod sizes;
mod streams;
mod timing;
mod works;

use report::{Report, Row};
use std::process::ExitCode;
use works::{growing_works, main_works, Side, Work, TIMED};

/// How much is measured.
struct Extent {
    rounds: usize,
    stream_bytes: usize,
    stream_rounds: usize,
}

const WHOLE: Extent = Extent { rounds: 201, stream_bytes: 100_000_000, stream_rounds: 15 };
const QUICK: Extent = Extent { rounds: 51, stream_bytes: 4_000_000, stream_rounds: 15 };

fn main() -> ExitCode {
    let words: Vec<String> = std::env::args().skip(1).collect();
    let words: Vec<&str> = words.iter().map(String::as_str).collect();
    let done = match words[..] {
        ["counted"] => counting::run_counted(),
        [] => measure(WHOLE),
        ["--quick"] => measure(QUICK),
        _ => Err("bench [--quick]".to_string()),
    };
    match done {
        Ok(()) => ExitCode::SUCCESS,
        Err(message) => {
            println!("bench: {message}");
            ExitCode::FAILURE
        }
    }
}

/// All of it: first both sides are compared, then timed, in the order of the table.
fn measure(extent: Extent) -> Result<(), String> {
    let works = main_works(TIMED)?;
    let growing = growing_works(TIMED)?;
    let mut counts = counting::count()?;
    let mut report = Report::begin(extent.rounds, extent.stream_rounds, counts.is_some());
    for work in works {
        let counted = counts.as_mut().map(|counts| counts.take(&work));
        step_rows(work, counted, extent.rounds).into_iter().for_each(|row| report.row(row));
    }
    for row in stream_rows(&extent, counts.is_some())? {
        report.row(row);
    }
    report.growth_begins();
    for work in growing {
        let counted = counts.as_mut().map(|counts| counts.take(&work));
        step_rows(work, counted, extent.rounds).into_iter().for_each(|row| report.row(row));
    }
    println!();
    sizes::print();
    report.end();
    Ok(())
}

/// A row for each side of ours, beside plain's, which comes last.
fn step_rows(mut work: Work, counts: Option<Vec<f64>>, rounds: usize) -> Vec<Row> {
    let times = timing::in_turn(work.sides.iter_mut().map(|(_, batch)| batch), rounds);
    let (plain, ours) = times.split_last().expect("there is a plain side");
    let rows = ours.iter().zip(&work.sides).enumerate().map(|(place, (times, (side, _)))| {
        let is_tested = *side == Side::Tested;
        let detail = if is_tested { ": with the test for 29" } else { "" };
        let short = work.name.split('-').next().unwrap_or_default();
        Row {
            name: if work.mark.is_some() { format!("({short})") } else { String::new() },
            of: if is_tested { format!("    the same{detail}") } else { work.of.clone() },
            times: [times.best(), plain.best()].map(|time| time / work.times as f64),
            medians: [times.median(), plain.median()].map(|time| time / work.times as f64),
            median_ratio: times.median_ratio(plain),
            counts: counts.as_ref().map(|counts| [counts[place], counts[counts.len() - 1]]),
            mark: work.mark.filter(|_| !is_tested),
        }
    });
    rows.collect()
}

/// (e)
fn stream_rows(extent: &Extent, is_counted: bool) -> Result<Vec<Row>, String> {
    let folder = streams::Folder::new().map_err(|error| error.to_string())?;
    let made: [(&str, fn() -> _); 2] =
        [("the recorded script", cases::recorded), ("the script of (c)", cases::full)];
    let mut rows = Vec::new();
    for (name, made) in made {
        let end = streams::End::Bytes(extent.stream_bytes);
        let stream = streams::write(&folder, "stream", made(), end).map_err(|error| error.to_string())?;
        let printed = streams::compare(&folder, &stream)?;
        let [ours, plain] = streams::times(&stream, extent.stream_rounds)?;
        let megabytes = extent.stream_bytes / 1_000_000;
        let a_step = |time: f64| time / stream.steps as f64;
        rows.push(Row {
            name: "(e)".to_string(),
            of: format!("replay, {megabytes} MB, {name}, {printed} bytes printed"),
            times: [ours.best(), plain.best()].map(a_step),
            medians: [ours.median(), plain.median()].map(a_step),
            median_ratio: ours.median_ratio(&plain),
            counts: if is_counted { Some(streams::counts(&folder, made)?) } else { None },
            mark: Some(2.0),
        });
    }
    Ok(rows)
}
