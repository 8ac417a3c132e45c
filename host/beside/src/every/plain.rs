//! Every nearby cut set, written from the documents' words: all rising cuts, each judged by itself and then put in order; and, where these are too
//! many, the neighbour lists one in another. Where they are few both are done and must agree.

use crate::cases::nearby::Case;
use crate::ends::plain::cut_sets;

/// So many choices of cuts are judged one by one.
const FEW: usize = 3000;

/// The kept neighbour lists of a case, by the cuts that are missing, the one being picked included, and by the cut.
pub struct Lists<'c> {
    case: &'c Case,
    kept: Vec<Vec<Vec<usize>>>,
}

impl<'c> Lists<'c> {
    pub fn of(case: &'c Case) -> Self {
        let near: Vec<Vec<usize>> = (0..case.n).map(|cut| nearest(case, cut)).collect();
        let (n, m) = (case.n, case.min_segment_len);
        let list = |missing: usize, cut: usize| {
            let fits = |position: usize| position >= cut + m && position + m * missing <= n;
            let near = near[cut].iter().copied();
            near.filter(|&position| fits(position)).collect()
        };
        let level = |missing| (0..n).map(|cut| list(missing, cut)).collect();
        let kept = (0..case.k).map(level).collect();
        Self { case, kept }
    }

    /// The first sets, at most `most`; none where the two ways disagree.
    pub fn listed(&self, most: usize) -> Option<Vec<Vec<usize>>> {
        let mut sets = Vec::new();
        for first in self.case.min_segment_len..=self.case.n {
            if self.is_first(first) {
                self.nested(&mut vec![first], most, &mut sets);
            }
        }
        if choices(self.case) > FEW {
            return Some(sets);
        }
        let mut judged = self.judged();
        judged.truncate(most);
        (judged == sets).then_some(sets)
    }

    /// "The first cut lies from m to n − k·m."
    fn is_first(&self, cut: usize) -> bool {
        let (k, m) = (self.case.k, self.case.min_segment_len);
        cut >= m && cut + k * m <= self.case.n
    }

    fn nested(&self, cuts: &mut Vec<usize>, most: usize, sets: &mut Vec<Vec<usize>>) {
        if sets.len() == most {
            return;
        }
        let missing = self.case.k - cuts.len();
        if missing == 0 {
            return sets.push(cuts.clone());
        }
        for &cut in &self.kept[missing][cuts[cuts.len() - 1]] {
            cuts.push(cut);
            self.nested(cuts, most, sets);
            cuts.pop();
        }
    }

    fn judged(&self) -> Vec<Vec<usize>> {
        let all = cut_sets(self.case.k, 0, self.case.n);
        let placed = |cuts: Vec<usize>| Some((self.place(&cuts)?, cuts));
        let mut sets: Vec<_> = all.into_iter().filter_map(placed).collect();
        sets.sort();
        sets.into_iter().map(|(_, cuts)| cuts).collect()
    }

    /// What a set is ordered by: its first cut, then the rank of each further cut in the kept list of the one before. None where it is not nearby.
    fn place(&self, cuts: &[usize]) -> Option<Vec<usize>> {
        if !self.is_first(cuts[0]) {
            return None;
        }
        let mut place = vec![cuts[0]];
        for (index, pair) in cuts.windows(2).enumerate() {
            let list = &self.kept[self.case.k - 1 - index][pair[0]];
            place.push(list.iter().position(|&position| position == pair[1])?);
        }
        Some(place)
    }
}

/// The other positions, nearest first, equal distances by position, cut down to the number of neighbours.
fn nearest(case: &Case, cut: usize) -> Vec<usize> {
    let row = &case.distances[cut * case.n..(cut + 1) * case.n];
    let mut others: Vec<usize> = (0..case.n).filter(|&position| position != cut).collect();
    others.sort_by(|&one, &other| row[one].partial_cmp(&row[other]).expect("numbers"));
    others.truncate(case.max_nearby);
    others
}

/// How many choices of rising cuts there are: k of n + 1.
fn choices(case: &Case) -> usize {
    let of = case.n + 1;
    (0..case.k.min(of)).fold(1, |count, index| count * (of - index) / (index + 1))
}
