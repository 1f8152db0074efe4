//! Rankings of one subset by its counts, and ranks of subsets.

use crate::account::Account;
use crate::case::{fewer, same, Checked, Compared};
use crate::ours;
use answers::run::{Rank, Ranking};
use answers::{choose, compute_index, from_bins, valid};

impl Compared for Ranking {
    fn check(&self, _: &mut Account) -> Checked {
        let (k, lent) = (self.k, 0xABCD);
        let mut order = vec![lent; self.order];
        let mut ranking = [9; 3];
        let refusal = ours::from_bins(k, &self.counts, &mut order, &mut ranking);
        let m = 1_usize << k.min(20);
        let expected = self.refusal();
        same("refusal", refusal, expected)?;
        if expected != 0 {
            same("order as lent", order, vec![lent; self.order])?;
            return same("ranking as lent", ranking, [9; 3]);
        }
        let bins: Vec<usize> = self.counts[..m].iter().map(|&count| count as usize).collect();
        let bits: Vec<usize> = (0..k).collect();
        let found = from_bins(&bits, &bins, 4096);
        let expected: Vec<u32> = found.order.iter().map(|&bin| bin as u32).chain(vec![lent; self.order - m]).collect();
        same("order", order, expected)?;
        same("division and z", ranking, [found.division as u64, found.z.to_bits(), 9])
    }

    fn smaller(&self) -> Vec<Ranking> {
        let less = |counts: Vec<u32>| Ranking { k: self.k, counts, order: self.order };
        let mut cases: Vec<Ranking> = fewer(&self.counts, false).into_iter().map(less).collect();
        if self.k > 1 && self.counts.len() >= 1 << self.k {
            let m = 1 << (self.k - 1);
            cases.insert(0, Ranking { k: self.k - 1, counts: self.counts[..m].to_vec(), order: m });
        }
        cases
    }
}

impl Compared for Rank {
    fn check(&self, _: &mut Account) -> Checked {
        let (refusal, rank) = ours::rank(self.block_size, &self.bits);
        same("refusal", refusal, rank_refusal(self))?;
        if refusal != 0 {
            return same("rank beside a refusal", rank, 0);
        }
        let bits: Vec<usize> = self.bits.iter().map(|&bit| bit as usize).collect();
        same("rank", rank, compute_index(&bits, self.block_size))
    }

    fn smaller(&self) -> Vec<Rank> {
        fewer(&self.bits, true).into_iter().map(|bits| Rank { block_size: self.block_size, bits }).collect()
    }
}

/// The first refusal that applies to a rank.
fn rank_refusal(case: &Rank) -> u32 {
    let (block_size, k) = (case.block_size, case.bits.len());
    if !valid(block_size) {
        1
    } else if k == 0 || k > 20 {
        2
    } else if k > block_size {
        3
    } else if case.bits.windows(2).any(|pair| pair[0] >= pair[1]) {
        9
    } else if case.bits.iter().any(|&bit| bit as usize >= block_size) {
        10
    } else if choose(block_size, k) > 1 << 32 {
        12
    } else {
        0
    }
}
