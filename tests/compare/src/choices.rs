//! Arguments for the calls: right and wrong budgets, buffers and input lists.

use crate::calls::Call;
use crate::lent::Lent;
use reference::generate::{budgets, input_list, Random};
use reference::layout::{row, row_at, word, ANSWER_BYTES, POOL_BYTES, TABLE_BYTES};
use reference::limits;

/// Makes the arguments of calls on one text.
pub struct Choices<'a> {
    pub random: &'a mut Random,
    /// Steps and conditions of the rows that the text has, where an
    /// exploration has its turning points.
    ends: Vec<(u32, u32)>,
}

const WRONG_STEPS: [u32; 5] = [1_025, 1_026, 65_537, 0x0100_0400, u32::MAX];
const WRONG_BRANCHES: [u32; 5] = [17, 18, 256, 65_536, u32::MAX];
const WRONG_INPUTS: [usize; 8] = [0, 4, 60, 63, 65, 68, 128, 320];

impl Choices<'_> {
    pub fn new<'a>(text: &[u8], random: &'a mut Random) -> Choices<'a> {
        let (mut table, mut pool) = (vec![0; TABLE_BYTES], vec![0; POOL_BYTES]);
        let most = limits::BRANCHES as u32;
        reference::explore(text, limits::STEPS, most, &mut table, &mut pool);
        // After a refusal there is no row to be found.
        let end_of = |number| {
            let row = row_at(&table, number);
            (word(row, row::STEPS), word(row, row::CONDITION_COUNT))
        };
        let ends = (0..word(&table, 0) as usize).map(end_of).collect();
        Choices { random, ends }
    }

    /// Close to `number`, on either side, and in the range given.
    fn near(&mut self, number: u32, least: u32, most: u32) -> u32 {
        (number + self.random.below(3)).saturating_sub(1).clamp(least, most)
    }

    pub fn right_budgets(&mut self) -> (u32, u32) {
        if self.ends.is_empty() || self.random.chance(40) {
            return budgets(self.random);
        }
        let (steps, conditions) = self.random.pick(&self.ends);
        match self.random.chance(50) {
            true => (self.near(steps, 1, limits::STEPS), limits::BRANCHES as u32),
            false => (limits::STEPS, self.near(conditions, 0, limits::BRANCHES as u32)),
        }
    }

    fn budgets(&mut self, wrong: bool) -> (u32, u32) {
        let (steps, branches) = self.right_budgets();
        match (wrong, self.random.below(3)) {
            (false, _) => (steps, branches),
            (true, 0) => (0, branches),
            (true, 1) => (self.random.pick(&WRONG_STEPS), branches),
            (true, _) => (steps, self.random.pick(&WRONG_BRANCHES)),
        }
    }

    /// Of the plain run, which accepts 0 as well.
    fn steps(&mut self, wrong: bool) -> u32 {
        if wrong {
            return self.random.pick(&WRONG_STEPS);
        }
        match self.random.below(4) {
            0 => self.random.below(30),
            1 => limits::STEPS,
            _ => self.right_budgets().0,
        }
    }

    fn inputs(&mut self, wrong: bool) -> Vec<u8> {
        let mut inputs = input_list(self.random).to_vec();
        if wrong {
            inputs.resize(self.random.pick(&WRONG_INPUTS), 1);
        }
        inputs
    }

    fn lent(&mut self, needed: usize, wrong: bool) -> Lent {
        let length = match (wrong, self.random.below(4)) {
            (false, 0..=2) => needed,
            (false, _) => needed + 1 + self.random.index(100),
            (true, 0) => 0,
            (true, 1) => needed - 4,
            (true, 2) => needed - 1,
            (true, _) => self.random.index(needed),
        };
        Lent::new(length, self.random)
    }

    /// Of two calls one has only right arguments; in the other each is wrong
    /// by chance, so that refusals meet each other.
    fn wrongs(&mut self) -> [bool; 4] {
        let percent = self.random.pick(&[0, 35]);
        [(); 4].map(|()| self.random.chance(percent))
    }

    pub fn plain_run(&mut self) -> Call {
        let wrong = self.wrongs();
        Call::PlainRun {
            inputs: self.inputs(wrong[0]),
            steps: self.steps(wrong[1]),
            answer: self.lent(ANSWER_BYTES, wrong[2]),
        }
    }

    pub fn explore(&mut self) -> Call {
        let wrong = self.wrongs();
        let (steps, branches) = self.budgets(wrong[1]);
        let table = self.lent(TABLE_BYTES, wrong[2]);
        let pool = self.lent(POOL_BYTES, wrong[3]);
        Call::Explore { steps, branches, table, pool }
    }

    pub fn place(&mut self) -> Call {
        let wrong = self.wrongs();
        let inputs = self.inputs(wrong[0]);
        let (steps, branches) = self.budgets(wrong[1]);
        let table = self.lent(TABLE_BYTES, wrong[2]);
        let pool = self.lent(POOL_BYTES, wrong[3]);
        Call::Place { inputs, steps, branches, table, pool }
    }
}
