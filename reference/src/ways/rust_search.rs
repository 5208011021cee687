//! A contender of the benchmark: the links closed in place and held against the closed table, then levels backwards from
//! the way's end, in safe Rust.

use crate::algebra::Algebra;
use crate::elimination::rust_loop::{close, joined};
use crate::ways::Question;

/// Memory that is kept between calls, so that no call pays for allocating it.
pub struct RustSearch {
    table: Vec<u16>,
    via: Vec<u16>,
    /// 1 for the way's end, one more for each link before it, 0 for a point that was not met.
    level: Vec<u16>,
    next: Vec<u16>,
}

impl RustSearch {
    /// For tables of up to `size` points.
    pub fn new(size: usize) -> RustSearch {
        RustSearch {
            table: vec![0; size * size],
            via: vec![0; size],
            level: vec![0; size],
            next: vec![0; size],
        }
    }

    /// The number of points, or 19 for a wrong closed table, or 20; nothing else is tested.
    pub fn way(&mut self, asked: &Question, list: &mut [u16]) -> Result<usize, u32> {
        // One match here, and none in the loops: each arm is compiled for its own sum and product.
        let algebra = Algebra::ALL[asked.algebra as usize];
        match algebra {
            Algebra::Reach => self.find(asked, list, algebra, u16::max, u16::min),
            Algebra::Distance => self.find(asked, list, algebra, u16::min, joined),
            Algebra::Steepest => self.find(asked, list, algebra, u16::min, u16::max),
        }
    }

    fn find(
        &mut self,
        asked: &Question,
        list: &mut [u16],
        algebra: Algebra,
        sum: impl Fn(u16, u16) -> u16,
        product: impl Fn(u16, u16) -> u16,
    ) -> Result<usize, u32> {
        let n = asked.size;
        let table = &mut self.table[..n * n];
        table.copy_from_slice(asked.links);
        for i in 0..n {
            table[i * n + i] = algebra.own();
        }
        close(table, &mut self.via[..n], sum, &product);
        if table != asked.closed {
            return Err(19);
        }
        if asked.closed[asked.from * n + asked.to] == algebra.none() {
            return Err(20);
        }
        self.set_levels(asked, product);
        Ok(self.follow(asked, list))
    }

    /// Each round goes one link back from the points of one level, along links that keep the closed word.
    fn set_levels(&mut self, asked: &Question, product: impl Fn(u16, u16) -> u16) {
        let (n, to) = (asked.size, asked.to);
        let (level, next) = (&mut self.level[..n], &mut self.next[..n]);
        level.fill(0);
        level[to] = 1;
        let mut round = 1;
        while level[asked.from] == 0 && round <= n {
            for u in 0..n {
                if usize::from(level[u]) != round {
                    continue;
                }
                let rest = asked.closed[u * n + to];
                for v in 0..n {
                    if level[v] == 0
                        && asked.closed[v * n + to] == product(asked.links[v * n + u], rest)
                    {
                        level[v] = round as u16 + 1;
                        next[v] = u as u16;
                    }
                }
            }
            round += 1;
        }
    }

    fn follow(&self, asked: &Question, list: &mut [u16]) -> usize {
        let (mut at, mut length) = (asked.from, 0);
        list[length] = at as u16;
        while at != asked.to {
            at = usize::from(self.next[at]);
            length += 1;
            list[length] = at as u16;
        }
        length + 1
    }
}
