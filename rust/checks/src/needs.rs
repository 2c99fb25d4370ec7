//! The table of tasks and their needs, told a second time: apart from the library and from the model.

/// Which neighbour, so many rows down and columns to the right, must have done which task before a task.
const NEEDS: [&[(isize, isize, usize)]; 6] = [
    &[],
    &[(0, 0, 0), (-1, 0, 1)],
    &[(0, 0, 0), (-1, 0, 1), (1, 0, 2)],
    &[(0, 0, 0), (-1, 0, 1), (1, 0, 2), (0, -1, 3)],
    &[(0, 0, 0), (-1, 0, 1), (1, 0, 2), (0, -1, 3), (0, 1, 4)],
    &[(0, 0, 0), (-1, 0, 1), (1, 0, 2), (0, -1, 3), (0, 1, 4)],
];

/// A task and its block.
pub type Call = (usize, usize);

/// The rows and columns of blocks.
#[derive(Clone, Copy)]
pub struct Grid {
    rows: isize,
    columns: isize,
}

impl Grid {
    /// So many rows and columns of blocks.
    pub fn new(rows: usize, columns: usize) -> Grid {
        Grid { rows: rows as isize, columns: columns as isize }
    }

    /// How many blocks there are.
    pub fn blocks(&self) -> usize {
        (self.rows * self.columns) as usize
    }

    fn place(&self, block: usize) -> (isize, isize) {
        (block as isize / self.columns, block as isize % self.columns)
    }

    /// Whether a block has a task, of the six kinds.
    pub fn has(&self, (task, block): Call) -> bool {
        let (row, column) = self.place(block);
        [true, row < self.rows - 1, row > 0, column < self.columns - 1, column > 0, true][task]
    }

    /// All tasks of all blocks.
    pub fn tasks(&self) -> Vec<Call> {
        let pairs = (0..6).flat_map(|task| (0..self.blocks()).map(move |block| (task, block)));
        pairs.filter(|&call| self.has(call)).collect()
    }

    /// The needs of a task, without those beyond the map.
    pub fn needs(&self, (task, block): Call) -> impl Iterator<Item = Call> + '_ {
        let (row, column) = self.place(block);
        NEEDS[task].iter().filter_map(move |&(down, right, need)| {
            let (row, column) = (row + down, column + right);
            let inside = (0..self.rows).contains(&row) && (0..self.columns).contains(&column);
            inside.then_some((need, (row * self.columns + column) as usize))
        })
    }

    /// The blocks that each task needs, directly or through others, its own block among them: by block and task, one
    /// bit for each block.
    ///
    /// # Panics
    /// If there are more than 128 blocks.
    pub fn blocks_needed(&self) -> BlocksNeeded {
        assert!(self.blocks() <= 128, "{} blocks have no bit each", self.blocks());
        let mut known = vec![[0; 6]; self.blocks()];
        for call in self.tasks() {
            self.follow(call, &mut known);
        }
        BlocksNeeded(known)
    }

    /// Follows the needs of a task down to collects. What was found before is not followed again.
    fn follow(&self, (task, block): Call, known: &mut Vec<[u128; 6]>) -> u128 {
        if known[block][task] == 0 {
            let found = self.needs((task, block)).fold(1 << block, |found, need| found | self.follow(need, known));
            known[block][task] = found;
        }
        known[block][task]
    }
}

/// The blocks that each task needs, directly or through others.
pub struct BlocksNeeded(Vec<[u128; 6]>);

impl BlocksNeeded {
    /// Whether a task needs a block, directly or through others, or is one of its own.
    pub fn is_needed(&self, block: usize, (task, own): Call) -> bool {
        self.0[own][task] >> block & 1 == 1
    }
}

#[cfg(test)]
mod tests {
    use super::*;

    #[test]
    fn blocks_needed_in_a_square_of_four_worked_out_by_hand() {
        // Blocks 0 1 / 2 3.
        let needed = Grid::new(2, 2).blocks_needed();
        let blocks = |call| (0..4).filter(|&block| needed.is_needed(block, call)).collect::<Vec<_>>();
        assert_eq!(blocks((0, 3)), [3]);
        assert_eq!(blocks((1, 0)), [0]);
        assert_eq!(blocks((2, 3)), [1, 3]);
        assert_eq!(blocks((3, 0)), [0, 2]);
        assert_eq!(blocks((4, 1)), [0, 1, 2, 3]);
        assert_eq!(blocks((5, 2)), [0, 1, 2, 3]);
        assert_eq!(blocks((1, 2)), [], "the block has no such task");
    }
}
