//! How much was compared.

use std::fmt;

use simulator::State;

use super::faults::FAULTS;

/// What an event can answer.
const EVENT_ANSWERS: [usize; 7] = [0, 6, 7, 8, 9, 12, 15];
/// What writing a day file can answer.
const WRITE_ANSWERS: [usize; 9] = [0, 1, 2, 3, 4, 5, 14, 16, 17];
/// What the call of the dearest list can answer.
const DEAREST_ANSWERS: [usize; 7] = [0, 1, 2, 3, 4, 5, 18];
/// What a setup with a list of closed names can answer.
const CLOSED_ANSWERS: [usize; 8] = [0, 1, 2, 3, 4, 5, 19, 20];

#[derive(Default)]
pub struct Tally {
    pub setups: u64,
    pub refused_setups: u64,
    pub large_setups: u64,
    /// Setups with a count.
    pub partial_setups: u64,
    pub refused_partial: u64,
    /// Accepted, with a count below L - 1.
    pub smaller_counts: u64,
    pub lists: u64,
    pub refused_lists: u64,
    pub list_events: u64,
    pub single_events: u64,
    /// Single events by request, step and release, too.
    pub kinds: [u64; 3],
    pub large_events: u64,
    /// Events by their answer, in lists and one at a time.
    pub answers: [u64; 16],
    pub states: u64,
    pub broken_states: u64,
    /// States with steps and returns of a process together about 255.
    pub sums: u64,
    pub broken_sums: u64,
    pub reports: u64,
    pub rolls: u64,
    pub files: u64,
    pub refused_files: u64,
    pub file_answers: u64,
    pub texts: u64,
    pub writes: u64,
    pub refused_writes: u64,
    /// Writes by their answer.
    pub write_answers: [u64; 18],
    pub large_writes: u64,
    pub written_back: u64,
    pub dearest: u64,
    pub refused_dearest: u64,
    /// Calls of the dearest list by their answer.
    pub dearest_answers: [u64; 19],
    pub large_dearest: u64,
    /// Moments of lists at which the claim was looked at.
    pub moments: u64,
    /// Setups with a list of closed names, by their answer too.
    pub closed_setups: u64,
    pub closed_answers: [u64; 21],
    /// Accepted ones: that close a name, with an empty list, with a name named
    /// twice, and with a list longer than the names.
    pub names_closed: u64,
    pub none_closed: u64,
    pub doubled: u64,
    pub longer: u64,
    /// On states with closed names.
    pub closed_lists: u64,
    pub refused_closed_lists: u64,
    pub closed_list_events: u64,
    pub closed_events: u64,
    pub closed_states: u64,
    pub broken_closed_states: u64,
    pub faults: [u64; FAULTS.len()],
}

/// What was compared, how often, and how often a part of it.
type Line = (&'static str, u64, Option<(&'static str, u64)>);

/// Each answer that was given, and how often.
fn given(answers: &[u64]) -> String {
    let seen = answers.iter().enumerate().filter(|(_, &n)| n > 0);
    let words: Vec<String> = seen.map(|(answer, n)| format!("{n} of {answer}")).collect();
    words.join(", ")
}

impl Tally {
    /// Adds a list on a state, its events by the journal.
    pub fn add_list(&mut self, state: &State, answer: u8, journal: &[u8]) {
        let refused = u64::from(answer != 0);
        let events = journal.len() as u64 / 4;
        self.lists += 1;
        self.refused_lists += refused;
        self.list_events += events;
        if state.closed != 0 {
            self.closed_lists += 1;
            self.refused_closed_lists += refused;
            self.closed_list_events += events;
        }
        for entry in journal.chunks_exact(4) {
            self.answers[usize::from(entry[0] & 15)] += 1;
        }
    }

    /// Adds an event by itself on a state.
    pub fn add_event(&mut self, state: &State, kind: u8, answer: u8) {
        self.single_events += 1;
        self.closed_events += u64::from(state.closed != 0);
        self.answers[usize::from(answer & 15)] += 1;
        if let Some(count) = self.kinds.get_mut(usize::from(kind)) {
            *count += 1;
        }
    }

    /// Adds a state that is given to every call.
    pub fn add_state(&mut self, state: &State, in_range: bool) {
        let closes = u64::from(state.closed != 0);
        let broken = u64::from(!in_range);
        self.states += 1;
        self.broken_states += broken;
        self.closed_states += closes;
        self.broken_closed_states += closes * broken;
    }

    /// Adds a setup with a list of closed names, and whether it closes any.
    pub fn add_closed_setup(&mut self, answer: u8, closes: bool) {
        self.closed_setups += 1;
        self.names_closed += u64::from(closes);
        if let Some(count) = self.closed_answers.get_mut(usize::from(answer)) {
            *count += 1;
        }
    }

    /// Adds the writing of a day file.
    pub fn add_write(&mut self, answer: u8) {
        self.writes += 1;
        self.refused_writes += u64::from(answer != 0);
        if let Some(count) = self.write_answers.get_mut(usize::from(answer)) {
            *count += 1;
        }
    }

    /// Adds a call of the dearest list.
    pub fn add_dearest(&mut self, answer: u8) {
        self.dearest += 1;
        self.refused_dearest += u64::from(answer != 0);
        if let Some(count) = self.dearest_answers.get_mut(usize::from(answer)) {
            *count += 1;
        }
    }

    /// Events that were refused so far.
    pub fn refused_events(&self) -> u64 {
        self.answers[1..].iter().sum()
    }

    /// Setups and lists.
    fn run_lines(&self) -> Vec<Line> {
        let refused = |count| Some(("refused", count));
        let [request, step, release] = self.kinds;
        let smaller = "of these with a smaller count, its state given to every call";
        vec![
            ("setups", self.setups, refused(self.refused_setups)),
            ("setups with a number above 255", self.large_setups, None),
            (
                "setups with a count",
                self.partial_setups,
                refused(self.refused_partial),
            ),
            (smaller, self.smaller_counts, None),
            ("lists", self.lists, refused(self.refused_lists)),
            ("events in lists", self.list_events, None),
            ("events one at a time", self.single_events, None),
            ("events by `request`", request, None),
            ("events by `step`", step, None),
            ("events by `release`", release, None),
            ("events with a number above 255", self.large_events, None),
            ("moments of lists with the claim", self.moments, None),
        ]
    }

    /// Setups that close names, and what follows them.
    fn closed_lines(&self) -> Vec<Line> {
        let refused = |count| Some(("refused", count));
        let lists = "lists on states with closed names";
        let mut lines = vec![
            (
                "setups with a list of closed names",
                self.closed_setups,
                refused(self.closed_setups - self.closed_answers[0]),
            ),
            ("of these accepted, names closed", self.names_closed, None),
            ("of these accepted, an empty list", self.none_closed, None),
            ("of these accepted, a name twice", self.doubled, None),
            ("of these accepted, more than k", self.longer, None),
            (lists, self.closed_lists, refused(self.refused_closed_lists)),
            ("events in these", self.closed_list_events, None),
            (
                "events one at a time on such states",
                self.closed_events,
                None,
            ),
            (
                "hand-made states with closed names",
                self.closed_states,
                Some(("broken", self.broken_closed_states)),
            ),
        ];
        let faults = FAULTS.iter().zip(self.faults);
        lines.extend(faults.map(|(&(what, _), count)| (what, count, None)));
        lines
    }

    /// Hand-made states, reports, files and dearest lists.
    fn other_lines(&self) -> Vec<Line> {
        let refused = |count| Some(("refused", count));
        let broken = |count| Some(("broken", count));
        let large_dearest = "dearest lists with a number above 255";
        vec![
            ("hand-made states", self.states, broken(self.broken_states)),
            (
                "of these with a sum about 255",
                self.sums,
                broken(self.broken_sums),
            ),
            ("gate reports", self.reports, None),
            ("rolls", self.rolls, None),
            ("day files", self.files, refused(self.refused_files)),
            ("answers of day files alone", self.file_answers, None),
            ("texts in lent buffers", self.texts, None),
            (
                "writes of day files",
                self.writes,
                refused(self.refused_writes),
            ),
            ("writes with a number above 255", self.large_writes, None),
            ("day files written back", self.written_back, None),
            ("dearest lists", self.dearest, refused(self.refused_dearest)),
            (large_dearest, self.large_dearest, None),
        ]
    }

    /// Every kind of comparison.
    fn lines(&self) -> Vec<Line> {
        [self.run_lines(), self.other_lines(), self.closed_lines()].concat()
    }

    /// Calls by their answer: the words for them, how often each was given,
    /// and which must be.
    fn answered(&self) -> [(&'static str, &[u64], &'static [usize]); 4] {
        [
            ("events", &self.answers, &EVENT_ANSWERS),
            ("writes", &self.write_answers, &WRITE_ANSWERS),
            ("dearest lists", &self.dearest_answers, &DEAREST_ANSWERS),
            ("closed names", &self.closed_answers, &CLOSED_ANSWERS),
        ]
    }

    /// What did not come up.
    pub fn missing(&self) -> Vec<String> {
        let mut missing = Vec::new();
        for (what, count, part) in self.lines() {
            match part {
                _ if count == 0 => missing.push(what.to_string()),
                Some((word, 0)) => missing.push(format!("{word} {what}")),
                _ => {}
            }
        }
        for (what, counts, answers) in self.answered() {
            let never = answers.iter().filter(|&&answer| counts[answer] == 0);
            missing.extend(never.map(|answer| format!("{what} answered {answer}")));
        }
        missing
    }
}

impl fmt::Display for Tally {
    fn fmt(&self, out: &mut fmt::Formatter) -> fmt::Result {
        for (what, count, part) in self.lines() {
            write!(out, "{what}: {count}")?;
            if let Some((word, part)) = part {
                write!(out, " ({part} {word})")?;
            }
            writeln!(out)?;
        }
        for (what, counts, _) in self.answered() {
            writeln!(out, "answers to {what}: {}", given(counts))?;
        }
        for what in self.missing() {
            writeln!(out, "not compared: {what}")?;
        }
        writeln!(out, "all that was compared agrees")
    }
}
