//! The waiting line: each kind of frame waits at most once, first come, first sent.

/// In the order in which several joining in one call line up.
#[derive(Clone, Copy, PartialEq, Eq, Debug)]
pub enum Kind {
    Emergency,
    Reply,
    Heartbeat,
    Tpdo1,
    Tpdo2,
}

const KINDS: usize = 5;

/// Taken places come first, free ones after them.
#[derive(Clone, Copy, PartialEq, Eq, Debug)]
pub(super) struct Line {
    places: [Option<Kind>; KINDS],
}

impl Line {
    pub(super) const EMPTY: Line = Line {
        places: [None; KINDS],
    };

    /// Takes the first free place, unless the kind waits already.
    pub(super) fn join(&mut self, kind: Kind) {
        for place in &mut self.places {
            match *place {
                None => {
                    *place = Some(kind);
                    return;
                }
                Some(waiting) if waiting == kind => return,
                Some(_) => {}
            }
        }
    }

    pub(super) fn withdraw(&mut self, kind: Kind) {
        let found = self.places.iter().position(|place| *place == Some(kind));
        if let Some(behind) = found.and_then(|at| self.places.get_mut(at..)) {
            behind.rotate_left(1);
            self.places[KINDS - 1] = None;
        }
    }

    pub(super) fn take_first(&mut self) -> Option<Kind> {
        let first = self.places[0];
        self.places.rotate_left(1);
        self.places[KINDS - 1] = None;
        first
    }

    pub(super) fn holds(&self, kind: Kind) -> bool {
        self.places.contains(&Some(kind))
    }

    pub(super) fn first(&self) -> Option<Kind> {
        self.places[0]
    }

    pub(super) fn count(&self) -> usize {
        self.places.iter().flatten().count()
    }
}
