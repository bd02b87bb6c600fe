//! Lists of sets that only grow, all in one vector, each in order of arrival. What a list had before the running round, and what
//! came in since, are parts of it.

/// Where a list stands, and how far it has come.
#[derive(Clone, Copy, Default)]
struct Place {
    start: usize,
    room: u32,
    len: u32,
    /// How many of the sets the running round sees.
    seen: u32,
    /// How many the round saw before that in which the list last grew.
    old: u32,
    grown_in: u32,
    /// All states of the sets.
    states: u32,
}

pub struct Lists {
    sets: Vec<u32>,
    places: Vec<Place>,
    /// Those whose last sets the running round does not see yet.
    pub gaining: Vec<usize>,
    pub round: u32,
}

impl Lists {
    /// None yet, with room for those of most games.
    pub fn none() -> Lists {
        Lists { sets: Vec::with_capacity(1 << 17), places: Vec::with_capacity(1 << 10), gaining: vec![], round: 0 }
    }

    /// So many more lists, with nothing in them; the number of the first.
    pub fn add(&mut self, count: usize) -> usize {
        let first = self.places.len();
        self.places.resize(first + count, Place::default());
        first
    }

    /// The next round, which sees all there is.
    pub fn begin_round(&mut self) {
        self.round += 1;
        for list in &self.gaining {
            let place = &mut self.places[*list];
            (place.old, place.seen, place.grown_in) = (place.seen, place.len, self.round);
        }
    }

    /// Takes in sets that the next round sees first.
    pub fn gain(&mut self, list: usize, more: &[u32]) {
        if !more.is_empty() {
            if self.places[list].len == self.places[list].seen {
                self.gaining.push(list);
            }
            self.push(list, more);
        }
    }

    /// Takes in sets that the running round sees already; once in a round.
    #[inline(always)]
    pub fn grow(&mut self, list: usize, more: &[u32]) {
        if !more.is_empty() {
            self.push(list, more);
            let place = &mut self.places[list];
            (place.old, place.seen, place.grown_in) = (place.seen, place.len, self.round);
        }
    }

    #[inline(always)]
    fn push(&mut self, list: usize, more: &[u32]) {
        let place = &mut self.places[list];
        let (from, end) = (place.start + place.len as usize, place.len + more.len() as u32);
        if end > place.room {
            let start = self.sets.len();
            self.sets.extend_from_within(place.start..from);
            self.sets.extend_from_slice(more);
            (place.start, place.room) = (start, 2 * end);
            self.sets.resize(start + 2 * end as usize, 0);
        } else {
            self.sets[from..from + more.len()].copy_from_slice(more);
        }
        place.len = end;
        place.states = more.iter().fold(place.states, |states, set| states | set);
    }

    #[inline(always)]
    pub fn has_grown(&self, list: usize) -> bool {
        self.places[list].grown_in == self.round
    }

    #[inline(always)]
    pub fn is_empty(&self, list: usize) -> bool {
        self.places[list].seen == 0
    }

    #[inline(always)]
    pub fn count(&self, list: usize) -> usize {
        self.places[list].seen as usize
    }

    #[inline(always)]
    pub fn states(&self, list: usize) -> u32 {
        self.places[list].states
    }

    /// How many sets were there before the running round.
    #[inline(always)]
    pub fn count_old(&self, list: usize) -> usize {
        let place = &self.places[list];
        (if place.grown_in == self.round { place.old } else { place.seen }) as usize
    }

    #[inline(always)]
    pub fn at(&self, list: usize, i: usize) -> u32 {
        self.sets[self.places[list].start + i]
    }

    /// What the running round sees.
    #[inline(always)]
    pub fn all(&self, list: usize) -> &[u32] {
        let place = &self.places[list];
        &self.sets[place.start..place.start + place.seen as usize]
    }

    /// What came in for the running round, in which the list has grown.
    #[inline(always)]
    pub fn new(&self, list: usize) -> &[u32] {
        let place = &self.places[list];
        &self.sets[place.start + place.old as usize..place.start + place.seen as usize]
    }

    /// What the round before it saw, and the rest.
    #[inline(always)]
    pub fn old_and_new(&self, list: usize) -> (&[u32], &[u32]) {
        self.all(list).split_at(self.count_old(list))
    }
}
