//! A job's operations.

use super::pool;
use super::program::Program;
use super::rng::Rng;

pub struct Operations<'a> {
    rng: &'a mut Rng,
    program: &'a mut Program,
    pool: Vec<i64>,
    angles: &'static [i64],
    /// Percent of measurements and of conditional rotations.
    barriers: usize,
    measured: Vec<i64>,
    /// How many of these no later operation may name.
    sealed: usize,
    pub records: Vec<[i64; 6]>,
}

/// Kinds of jobs: only T, odd, all angles with 0, mostly even.
const ANGLES: [&[i64]; 4] = [
    &[1, 7],
    &[1, 3, 5, 7],
    &[0, 1, 2, 3, 4, 5, 6, 7],
    &[1, 2, 4, 6, 2],
];

impl<'a> Operations<'a> {
    pub fn new(rng: &'a mut Rng, program: &'a mut Program, pool: Vec<i64>) -> Self {
        let angles = rng.pick(&ANGLES);
        let barriers = rng.pick(&[0, 0, 5, 15]);
        Self {
            rng,
            program,
            pool,
            angles,
            barriers,
            measured: Vec::new(),
            sealed: 0,
            records: Vec::new(),
        }
    }

    /// Up to `most` operations, or a few more, in bursts.
    pub fn fill(&mut self, acted: &[usize], most: usize) {
        let count = self.rng.between(0, most);
        self.up_to(acted, count);
    }

    pub fn up_to(&mut self, acted: &[usize], count: usize) {
        while self.records.len() < count {
            match self.rng.below(10) {
                0 => self.echo(),
                1 | 2 if acted.len() > 1 => self.exchange(acted),
                _ => self.one(),
            }
        }
    }

    /// Two sides with a measurement between them (M-113): the later names no outcome of the earlier, and has axes of its own.
    pub fn two_sides(&mut self, acted: &[usize], most: usize) {
        self.barriers = self.rng.pick(&[0, 10, 20]);
        self.side(acted, most);
        let before = self.measured.len();
        while self.measured.len() == before {
            self.measure();
        }
        self.sealed = self.measured.len();
        let own = pool::random(self.rng, self.program, acted, 3);
        self.pool.extend(own);
        self.side(acted, most);
    }

    /// As `fill`, now and then with an exchange in front, something to merge and a conditional rotation behind it.
    fn side(&mut self, acted: &[usize], most: usize) {
        if acted.len() > 1 && self.rng.chance(40) {
            self.exchange(acted);
        }
        if self.rng.chance(40) {
            self.echo();
        }
        if self.rng.chance(30) {
            self.measure_and_name(acted);
        }
        let count = self.records.len() + self.rng.between(0, most);
        self.up_to(acted, count);
    }

    /// A measurement, and behind a few others a conditional rotation.
    fn measure_and_name(&mut self, acted: &[usize]) {
        self.measure();
        let few = self.records.len() + self.rng.between(0, 4);
        self.up_to(acted, few);
        if self.can_name() {
            self.conditional();
        }
    }

    fn can_name(&self) -> bool {
        self.measured.len() > self.sealed
    }

    fn one(&mut self) {
        if self.rng.chance(self.barriers) {
            self.measure();
        } else if self.rng.chance(self.barriers) && self.can_name() {
            self.conditional();
        } else {
            let axis = self.axis();
            let angle = self.rng.pick(self.angles);
            let (outcome, target) = (self.unused(), self.unused());
            self.records
                .push([1, axis.0, axis.1, angle, outcome, target]);
        }
    }

    fn axis(&mut self) -> (i64, i64) {
        let node = self.rng.pick(&self.pool);
        let minus = self.rng.chance(25);
        self.program.signed(node, minus)
    }

    /// What stands in an outcome or target that is not looked at; a target is never above 65,535.
    fn unused(&mut self) -> i64 {
        if self.rng.chance(90) {
            -1
        } else {
            self.rng.below(65_536) as i64
        }
    }

    fn measure(&mut self) {
        let outcome = match self.rng.below(10) {
            0 => 65_534,
            1 => self.rng.below(65_535) as i64,
            _ => self.rng.below(8) as i64,
        };
        if self.measured.contains(&outcome) {
            return;
        }
        let axis = self.axis();
        // Few targets, so that they repeat.
        let target = self.rng.pick(&[-1, -1, 0, 1, 65_534]);
        self.measured.push(outcome);
        let angle = if self.rng.chance(90) {
            0
        } else {
            self.rng.below(8) as i64
        };
        self.records
            .push([2, axis.0, axis.1, angle, outcome, target]);
    }

    fn conditional(&mut self) {
        let axis = self.axis();
        let angle = self.rng.below(8) as i64;
        let outcome = self.rng.pick(&self.measured[self.sealed..]);
        let target = self.unused();
        self.records
            .push([3, axis.0, axis.1, angle, outcome, target]);
    }

    /// The last rotations backwards, turned the other way: merges that open merges.
    fn echo(&mut self) {
        let length = self.rng.between(1, 6).min(self.records.len());
        for i in (self.records.len() - length..self.records.len()).rev() {
            let [kind, node, phase, angle, ..] = self.records[i];
            if kind == 1 && !self.rng.chance(15) {
                let back = (8 - angle) % 8;
                self.records.push([1, node, phase, back, -1, -1]);
            }
        }
    }

    /// Groups that can be exchanged, most of the time.
    fn exchange(&mut self, acted: &[usize]) {
        let [xx, yy, zi, iz] = pool::exchange(self.rng, self.program, acted);
        let (a, b) = (self.rng.pick(self.angles), self.rng.pick(self.angles));
        if acted.len() > 2 && self.rng.chance(40) {
            // An equal axis that the exchange cuts off: zi before and after the first group.
            let p = self.program.letters(&[(acted[2], 1)]);
            let zz = self.program.product((zi, 0), (iz, 0));
            self.rotations(&[
                (xx, a),
                (yy, a),
                (p, a),
                (zi, b),
                (iz, b),
                (zz, b),
                (zi, b),
                (p, a),
            ]);
        } else {
            let again = self.rng.pick(&[xx, yy, xx]);
            self.rotations(&[(xx, a), (yy, a), (zi, b), (iz, b), (again, a)]);
        }
        // Later operations may meet these axes again.
        self.pool.extend([xx, yy, zi, iz]);
    }

    fn rotations(&mut self, rotations: &[(i64, i64)]) {
        for &(node, angle) in rotations {
            let minus = self.rng.chance(5);
            let axis = self.program.signed(node, minus);
            self.records.push([1, axis.0, axis.1, angle, -1, -1]);
        }
    }
}
