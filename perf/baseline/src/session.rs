//! A store with the lists that its parties lend it.

use crate::kinds::Kind;
use crate::refusal::Refusal;
use crate::store::{Call, Outcome, Progress, Store, WalkCall};
use crate::walk::Notes;

pub struct Session<K: Kind> {
    store: Store<K>,
    data: Vec<K::Data>,
    /// Marks and worths of each party.
    notes: Vec<Notes<K>>,
}

impl<K: Kind> Session<K> {
    pub fn open(
        nodes: i32,
        parties: i32,
        node_stride: i32,
        party_stride: i32,
    ) -> Result<Session<K>, Refusal> {
        let store = Store::new(nodes, parties, node_stride, party_stride)?;
        let nodes = store.nodes();
        Ok(Session {
            store,
            data: vec![K::Data::default(); nodes],
            notes: (0..parties).map(|_| Notes::new(nodes)).collect(),
        })
    }

    pub fn begin(&mut self, party: i32, call: Call) -> Outcome<K> {
        self.store.begin(party, call, &self.data)
    }

    pub fn begin_walk(&mut self, party: i32, call: WalkCall) -> Outcome<K> {
        let notes = notes_of(&mut self.notes, party)?;
        self.store.begin_walk(party, call, &self.data, notes)
    }

    /// Up to so many turns of what the party is running; the last one's outcome.
    pub fn turns(&mut self, party: i32, most: i32) -> Outcome<K> {
        for _ in 1..most {
            match self.turn(party) {
                Ok(Progress::StillRunning) => {}
                outcome => return outcome,
            }
        }
        self.turn(party)
    }

    fn turn(&mut self, party: i32) -> Outcome<K> {
        if self.store.is_walking(party) {
            let notes = notes_of(&mut self.notes, party)?;
            return self.store.turn_walk(party, &self.data, notes);
        }
        self.store.turn(party, &mut self.data)
    }
}

fn notes_of<K: Kind>(notes: &mut [Notes<K>], party: i32) -> Result<&mut Notes<K>, Refusal> {
    crate::party::numbered(party, notes.len())
        .map(|index| &mut notes[index])
        .ok_or(Refusal::NoSuchParty)
}
