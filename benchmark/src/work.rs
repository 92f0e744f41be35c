//! Counts of work: what the loops do, whatever the machine. The timed runs count nothing.

pub trait Work {
    /// Numbers of a table that a test or a chain looks at.
    fn slots(&mut self, count: usize);
    /// Edges of which the link condition is asked.
    fn link_test(&mut self);
    /// Entries of rings and marks that are gathered, set, looked at or taken away again.
    fn ring_entries(&mut self, count: usize);
    /// Rows that a step or a record passes over.
    fn rows(&mut self, count: usize);
    /// Rows in which a step writes another number.
    fn renamed(&mut self, count: usize);
    /// Bytes read or written.
    fn bytes(&mut self, count: usize);
}

/// Nothing is counted.
pub struct Uncounted;

impl Work for Uncounted {
    fn slots(&mut self, _: usize) {}
    fn link_test(&mut self) {}
    fn ring_entries(&mut self, _: usize) {}
    fn rows(&mut self, _: usize) {}
    fn renamed(&mut self, _: usize) {}
    fn bytes(&mut self, _: usize) {}
}

#[derive(Clone, Copy, Default)]
pub struct Counted {
    pub slots: usize,
    pub link_tests: usize,
    pub ring_entries: usize,
    pub rows: usize,
    pub renamed: usize,
    pub bytes: usize,
}

impl Work for Counted {
    fn slots(&mut self, count: usize) {
        self.slots += count;
    }
    fn link_test(&mut self) {
        self.link_tests += 1;
    }
    fn ring_entries(&mut self, count: usize) {
        self.ring_entries += count;
    }
    fn rows(&mut self, count: usize) {
        self.rows += count;
    }
    fn renamed(&mut self, count: usize) {
        self.renamed += count;
    }
    fn bytes(&mut self, count: usize) {
        self.bytes += count;
    }
}
