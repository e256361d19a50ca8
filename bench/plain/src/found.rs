/// The meetings that were found, in their order, and a mark for each.
pub struct Found {
    marks: Vec<bool>,
    list: Vec<u16>,
}

impl Found {
    pub fn none(many: usize) -> Found {
        Found {
            marks: vec![false; many],
            list: Vec::with_capacity(many),
        }
    }

    pub fn has(&self, meeting: u16) -> bool {
        self.marks[usize::from(meeting)]
    }

    pub fn list(&self) -> &[u16] {
        &self.list
    }

    pub fn add(&mut self, meeting: u16) {
        self.marks[usize::from(meeting)] = true;
        self.list.push(meeting);
    }

    /// Adds those that were not found yet.
    pub fn add_all(&mut self, members: &[u16]) {
        for &meeting in members {
            if !self.has(meeting) {
                self.add(meeting);
            }
        }
    }

    pub fn clear(&mut self) {
        for &meeting in &self.list {
            self.marks[usize::from(meeting)] = false;
        }
        self.list.clear();
    }
}
