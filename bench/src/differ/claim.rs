//! What a user may rely on at every moment of a list from a fresh setup.

use simulator::state::{stage, NO_NAME};
use simulator::State;

use super::difference::{same, Check};

/// The most that were admitted at a moment so far.
#[derive(Default)]
pub struct Claim {
    most: u32,
}

/// How many processes are admitted.
fn admitted(state: &State) -> u32 {
    let processes = (0..state.n).zip(&state.processes);
    let admitted = processes.filter(|&(p, process)| match process.stage {
        stage::WAITING => !state.queued(p),
        stage => stage > stage::WAITING,
    });
    admitted.count() as u32
}

impl Claim {
    /// No more are admitted than names are open; every name held is open,
    /// unlike the others and among as many lowest open ones as were admitted.
    pub fn check(&mut self, state: &State) -> Check {
        let admitted = admitted(state);
        self.most = self.most.max(admitted);
        let fits = admitted <= u32::from(state.open_names());
        same("whether the open names suffice", fits, true)?;
        let mut free = !state.closed;
        for process in &state.processes[..usize::from(state.n)] {
            if process.name == NO_NAME {
                continue;
            }
            let bit = 1_u64 << process.name;
            let unlike = free & bit != 0;
            same("whether a held name is open and unlike", unlike, true)?;
            free &= !bit;
            let rank = (!state.closed & (bit - 1)).count_ones();
            same("whether a held name is low", rank < self.most, true)?;
        }
        Ok(())
    }
}
