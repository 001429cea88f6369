//! Lists and single events, from the fresh state of a setup or any other.

use simulator::day_file::lay_out;
use simulator::State;

use super::claim::Claim;
use super::difference::{same, same_state, Check, Difference};
use super::faults::closed_names;
use super::lent::Lent;
use super::Differ;
use crate::archive::{self, Done};
use crate::lists::MOST_EVENTS;

/// The archive's state of the same image.
pub fn of(state: &State) -> archive::State {
    archive::State::from_image(&state.to_image())
}

/// The list call on a state, which becomes the one after it: the answer and
/// the journal, if these and the state are the same.
fn list(state: &mut State, events: &[u8], mut journal: Lent) -> Result<(u8, Lent), Difference> {
    let mut expected = journal.clone();
    let got = archive::run(of(state), events, journal.lend());
    let answer = state.run(events, expected.lend());
    same("the list's answer", got.answer, answer)?;
    if answer == 0 {
        same_entries(events, journal.lend(), expected.lend())?;
    }
    journal.same("the list's journal", &expected)?;
    same_state("after the list", got.state, state)?;
    Ok((answer, journal))
}

/// Every event has the same journal entry.
fn same_entries(events: &[u8], got: &[u8], expected: &[u8]) -> Check {
    let size = 2 * events.len();
    if got[..size] == expected[..size] {
        return Ok(());
    }
    let entries = got.chunks_exact(4).zip(expected.chunks_exact(4));
    for ((number, event), (got, expected)) in events.chunks_exact(2).enumerate().zip(entries) {
        let what = format_args!(
            "journal of event {number} (the first is 0), kind {}, process {}",
            event[0], event[1]
        );
        same(what, got, expected)?;
    }
    Ok(())
}

/// The call of one kind, where the kind has one.
fn by_kind(state: archive::State, kind: u8, process: u8) -> Option<Done> {
    let call = match kind {
        0 => archive::request,
        1 => archive::step,
        2 => archive::release,
        _ => return None,
    };
    Some(call(state, process.into()))
}

/// The event call on a state, which becomes the one after it, and the call of
/// its kind: the answer, if it and the state are the same.
fn event(state: &mut State, number: usize, kind: u8, process: u8) -> Result<u8, Difference> {
    let lent = of(state);
    let answer = state.event(kind, process);
    let by_event = archive::event(lent, kind.into(), process.into());
    let calls = [
        ("by itself", Some(by_event)),
        ("by the call of its kind", by_kind(lent, kind, process)),
    ];
    for (how, got) in calls {
        let Some(got) = got else { continue };
        let event =
            format_args!("event {number} (the first is 0) {how}, kind {kind}, process {process}");
        same(format_args!("{event}: the answer"), got.answer, answer)?;
        same_state(event, got.state, state)?;
    }
    Ok(answer)
}

/// The shortest beginning of a list that shows a difference one event at a
/// time, or the whole list.
fn shortest<'e>(start: &State, events: &'e [u8]) -> &'e [u8] {
    let mut state = start.clone();
    for (number, pair) in events.chunks_exact(2).enumerate() {
        let differs = list(&mut state.clone(), pair, Lent::new(4, 0)).is_err();
        if differs || event(&mut state, number, pair[0], pair[1]).is_err() {
            return &events[..2 * number + 2];
        }
    }
    events
}

/// Whether the program's lines for a day file are the same.
fn same_text(file: &[u8]) -> bool {
    let mut out = vec![0; 8 * file.len()];
    let size = archive::file_text(file, &mut out).size;
    out[..size] == *simulator::file_text(file).as_bytes()
}

/// The day file of a fresh state that closes no name.
fn day_file(start: &State, events: &[u8]) -> Option<Vec<u8>> {
    let setup = [start.n, start.l, start.g, start.b];
    (start.closed == 0).then(|| lay_out(setup, events))
}

/// The difference with its setup and list, as a day file if there is one.
fn as_case(difference: Difference, start: &State, events: &[u8]) -> Difference {
    let shown = shortest(start, events);
    let count = shown.len() / 2;
    let mut difference = difference
        .given_figures("setup", &[start.n, start.l, start.g, start.b])
        .given("events", events.len() / 2);
    let Some(file) = day_file(start, shown) else {
        return difference
            .given_figures("closed names", &closed_names(start))
            .given_figures("events that show it", shown);
    };
    difference = difference.given("events in the day file", count);
    if count > MOST_EVENTS {
        difference = difference.given("too many for a day file, which has at most", MOST_EVENTS);
    } else if same_text(&file) {
        difference = difference.given("its lines", "the same");
    }
    difference.replay(file)
}

impl Differ {
    /// Room for the journal of a list, often with bytes to spare.
    fn journal(&mut self, events: &[u8]) -> Lent {
        let spare = [0, 1, 3, 4, 5, 64][self.rng.below(6)];
        Lent::new(2 * events.len() + spare, self.rng.byte())
    }

    /// A list on a state, as `list` does it, and its place in the tally.
    fn counted(&mut self, state: &mut State, events: &[u8], journal: Lent) -> Check {
        let (answer, mut journal) = list(state, events, journal)?;
        let room = if answer == 0 { 2 * events.len() } else { 0 };
        self.tally.add_list(state, answer, &journal.lend()[..room]);
        Ok(())
    }

    /// The list of a fresh state, and the state after it.
    pub fn list_of(&mut self, start: &State, events: &[u8]) -> Result<State, Difference> {
        let journal = self.journal(events);
        let mut state = start.clone();
        self.counted(&mut state, events, journal)
            .map_err(|found| as_case(found, start, events))?;
        Ok(state)
    }

    /// The list of a fresh state, one event at a time, with the claim at every
    /// moment.
    pub fn chain(&mut self, start: &State, events: &[u8]) -> Check {
        let mut state = start.clone();
        let mut claim = Claim::default();
        for (number, pair) in events.chunks_exact(2).enumerate() {
            let answer = event(&mut state, number, pair[0], pair[1])
                .and_then(|answer| claim.check(&state).map(|()| answer))
                .map_err(|found| as_case(found, start, &events[..2 * number + 2]))?;
            self.tally.add_event(&state, pair[0], answer);
            self.tally.moments += 1;
        }
        Ok(())
    }

    /// The list of a fresh state with a byte too many, too little journal or
    /// both.
    pub fn refused_list(&mut self, start: &State, events: &[u8]) -> Check {
        let (events, journal) = self.damage(events);
        self.refusable(&mut start.clone(), &events, journal)
            .map_err(|found| match day_file(start, &events) {
                Some(file) => found.replay(file),
                None => found,
            })
    }

    /// A list that may be refused, on any state.
    fn refusable(&mut self, state: &mut State, events: &[u8], journal: Lent) -> Check {
        let image = state.to_image();
        let room = journal.room();
        self.counted(state, events, journal).map_err(|found| {
            found
                .given_figures("state", &image)
                .given_figures("events", events)
                .given("journal bytes", room)
        })
    }

    /// A copy of a list with a byte too many, too little journal or both.
    fn damage(&mut self, events: &[u8]) -> (Vec<u8>, Lent) {
        let mut events = events.to_vec();
        let turn = self.rng.below(3);
        if turn != 0 {
            events.push(self.rng.byte());
        }
        let right = 4 * (events.len() / 2);
        let room = match self.rng.below(3) {
            _ if turn == 1 => right + 4,
            0 => self.rng.below(right),
            1 => right.saturating_sub(4),
            _ => right.saturating_sub(1),
        };
        (events, Lent::new(room, self.rng.byte()))
    }

    /// A list for any state, one in six damaged.
    pub fn any_list(&mut self, state: &State, events: &[u8]) -> Check {
        let (events, journal) = if self.rng.chance(1, 6) {
            self.damage(events)
        } else {
            (events.to_vec(), self.journal(events))
        };
        self.refusable(&mut state.clone(), &events, journal)
    }

    /// An event by itself on any state, which becomes the one after it.
    pub fn any_event(&mut self, state: &mut State, kind: u8, process: u8) -> Check {
        let image = state.to_image();
        let answer =
            event(state, 0, kind, process).map_err(|found| found.given_figures("state", &image))?;
        self.tally.add_event(state, kind, answer);
        Ok(())
    }
}
