//! A monitor that owns its buffers.

use crate::calls;
use crate::raw::{IMPORTS, MARKS, PLACE, SLOTS, STATE_WORDS};
use crate::Outcome;

/// A monitor: takes one step after another, and keeps one state of fixed size.
#[derive(Clone)]
pub struct Monitor {
    state: Box<[u64; STATE_WORDS]>,
    results: Box<[u64; SLOTS]>,
    script: Box<[u8]>,
}

/// What an entry can ever depend on.
#[derive(Clone, PartialEq, Eq, Debug)]
pub struct Reach {
    pub entries: [bool; SLOTS],
    pub imports: [bool; IMPORTS],
    pub clock: bool,
}

/// 0 is no fault.
fn accepted(number: u8) -> Result<(), u8> {
    match number {
        0 => Ok(()),
        number => Err(number),
    }
}

impl Monitor {
    /// A monitor of the script's rules with no step yet, or the number of the script's first fault, 1 to 11.
    pub fn start(script: &[u8]) -> Result<Monitor, u8> {
        let mut state = Box::new([0; STATE_WORDS]);
        accepted(calls::start(script, &mut state[..]))?;
        Ok(Monitor { state, results: Box::new([0; SLOTS]), script: script.into() })
    }

    /// A monitor whose words were stored: 90 where they are not 452, 29 where they are not those of a sound monitor. They are tested
    /// here once, by asking for the reach of entry 0, which every sound monitor has and which changes nothing. Words hold no
    /// labels: the labels of its alarms are empty.
    pub fn from_words(words: &[u64]) -> Result<Monitor, u8> {
        accepted(calls::reach(words, 0, &mut [0; MARKS]))?;
        let mut state = Box::new([0; STATE_WORDS]);
        state.copy_from_slice(words);
        Ok(Monitor { state, results: Box::new([0; SLOTS]), script: Box::default() })
    }

    /// The state as words, to be stored.
    pub fn words(&self) -> &[u64; STATE_WORDS] {
        &self.state
    }

    /// Takes a step, or the number of its first fault, 21 to 27; then the state is as it was, and there are no results.
    ///
    /// This is the step without the test for 29. It may be: the state is private, it came from `nimbra_start` or was tested in
    /// `from_words`, only this function lends it to be written, and it is proved that no step leaves a state that falls under 29.
    pub fn step(&mut self, step: &[u8]) -> Result<(), u8> {
        accepted(calls::step_held(&mut self.state[..], step, &mut self.results[..]))
    }

    /// The result words of the last step, one for each entry slot.
    pub fn results(&self) -> &[u64; SLOTS] {
        &self.results
    }

    /// The result of entry `k` at the last step.
    pub fn result(&self, k: usize) -> Outcome {
        self.results.get(k).map_or(Outcome::Nothing, |word| Outcome::of_word(*word))
    }

    /// The alarms that the last step raised and the properties that it violated, in order: the entry and its label.
    pub fn alarms(&self) -> impl Iterator<Item = (usize, &[u8])> {
        let mut from = 0;
        std::iter::from_fn(move || {
            let place = calls::next_alarm(&self.results[..], from);
            from = place + 1;
            ((place as usize) < SLOTS)
                .then(|| (place as usize, self.label(place as usize).unwrap_or_default()))
        })
    }

    /// The label of an alarm or a property, as a part of the script; the script's number where there is none, or 30.
    pub fn label(&self, entry: usize) -> Result<&[u8], u8> {
        let mut place = [0; PLACE];
        accepted(calls::label(&self.script, entry as u64, &mut place))?;
        Ok(self.part(place))
    }

    /// The block of all labels, as `write` takes it.
    pub fn labels(&self) -> Result<&[u8], u8> {
        let mut place = [0; PLACE];
        accepted(calls::labels(&self.script, &mut place))?;
        Ok(self.part(place))
    }

    fn part(&self, [from, size]: [u64; PLACE]) -> &[u8] {
        &self.script[from as usize..(from + size) as usize]
    }

    /// The time of the last accepted step; none before any.
    pub fn last_time(&self) -> Option<u64> {
        self.state[3].checked_sub(1)
    }

    /// How many entries the script has.
    pub fn entries(&self) -> usize {
        self.state[0] as usize
    }

    /// What an entry can ever depend on; 30 where there is no such entry.
    pub fn reach(&self, entry: usize) -> Result<Reach, u8> {
        let mut marks = [0; MARKS];
        accepted(calls::reach(&self.state[..], entry as u64, &mut marks))?;
        Ok(Reach {
            entries: std::array::from_fn(|k| marks[k] == 1),
            imports: std::array::from_fn(|i| marks[SLOTS + i] == 1),
            clock: marks[SLOTS + IMPORTS] == 1,
        })
    }

    /// Writes the script of the monitor's rules with these labels; how many bytes it has, or the writer's number. Bytes of `out` past
    /// the script stay, and all of them where it is refused.
    pub fn write(&self, labels: &[u8], out: &mut [u8]) -> Result<usize, u8> {
        let mut size = [0];
        accepted(calls::write(&self.state[..], labels, out, &mut size))?;
        Ok(size[0] as usize)
    }
}
