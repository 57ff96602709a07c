//! Actions of a free group on a few points, in which each generator is a permutation and every point is
//! reached from the first one. The words that lead the first point back to itself are a subgroup whose
//! index is the number of points: an action tells its members, and has Schreier generators for it.

use crate::random::Random;
use crate::small::letters;
use crate::words::{inverse_letters, Word};

/// Where the letters lead each point: for each generator, its image of each point.
pub struct Action {
    images: Vec<Vec<usize>>,
}

impl Action {
    /// The number of generators.
    pub fn generators(&self) -> usize {
        self.images.len()
    }

    /// The number of points.
    pub fn points(&self) -> usize {
        self.images[0].len()
    }

    /// The point to which a letter leads a point.
    pub fn next(&self, point: usize, letter: u8) -> usize {
        let image = &self.images[usize::from(letter.to_ascii_lowercase() - b'a')];
        if letter.is_ascii_lowercase() {
            return image[point];
        }
        let before = image.iter().position(|&to| to == point);
        before.expect("a permutation leads to every point")
    }

    /// Whether the letters lead the first point back to itself.
    pub fn returns(&self, letters: &[u8]) -> bool {
        let steps = letters.iter();
        steps.fold(0, |point, &letter| self.next(point, letter)) == 0
    }

    /// A point without a way, to which a letter leads from one that has a way, and the letters that lead
    /// there, chosen among all such, if there is one.
    fn another_way(
        &self,
        random: &mut Random,
        ways: &[Option<Vec<u8>>],
    ) -> Option<(usize, Vec<u8>)> {
        let mut longer = Vec::new();
        for (point, way) in ways.iter().enumerate() {
            let Some(way) = way else { continue };
            for letter in letters(self.generators()) {
                let to = self.next(point, letter);
                if ways[to].is_none() {
                    longer.push((to, [&way[..], &[letter]].concat()));
                }
            }
        }
        let choice = random.below(longer.len().max(1));
        longer.into_iter().nth(choice)
    }

    /// For each point that is reached, letters that lead the first point to it, along a random tree.
    fn ways(&self, random: &mut Random) -> Vec<Option<Vec<u8>>> {
        let mut ways = vec![None; self.points()];
        ways[0] = Some(Vec::new());
        while let Some((point, way)) = self.another_way(random, &ways) {
            ways[point] = Some(way);
        }
        ways
    }

    /// Whether every point is reached from the first one.
    fn reaches_all(&self, random: &mut Random) -> bool {
        self.ways(random).iter().all(Option::is_some)
    }

    /// The Schreier generators along a random tree of ways: the way to a point, a generator, and the way
    /// back from where it leads, for each point and generator for which this is not the empty word.
    pub fn schreier_generators(&self, random: &mut Random) -> Vec<Word> {
        let ways: Vec<Vec<u8>> = self.ways(random).into_iter().flatten().collect();
        let mut words = Vec::new();
        for (point, way) in ways.iter().enumerate() {
            for generator in (b'a'..).take(self.generators()) {
                let back = inverse_letters(&ways[self.next(point, generator)]);
                let row = [&way[..], &[generator], &back].concat();
                words.push(Word::freely_reduced(&row));
            }
        }
        words.retain(|word| !word.is_empty());
        words
    }
}

impl Random {
    /// A random permutation of this many points, as the image of each.
    fn permutation(&mut self, points: usize) -> Vec<usize> {
        let mut images: Vec<usize> = (0..points).collect();
        for point in (1..points).rev() {
            images.swap(point, self.below(point + 1));
        }
        images
    }

    /// A random action of the first generators, of which there is one at least, on this many points.
    pub fn action(&mut self, generators: usize, points: usize) -> Action {
        loop {
            let images = (0..generators).map(|_| self.permutation(points)).collect();
            let action = Action { images };
            if action.reaches_all(self) {
                return action;
            }
        }
    }
}

#[cfg(test)]
mod tests {
    use super::*;
    use crate::graph::Graph;

    /// There are as many Schreier generators as the index demands, each returns, and their folded graph
    /// is the action.
    #[test]
    fn schreier_generators_of_all_sizes() {
        let mut random = Random::new(51);
        for round in 0..300 {
            let (generators, points) = (1 + round % 3, random.between(1, 9));
            let action = random.action(generators, points);
            let words = action.schreier_generators(&mut random);
            assert_eq!(words.len(), points * (generators - 1) + 1);
            assert!(words.iter().all(|word| action.returns(word.letters())));
            let graph = Graph::folded(&words);
            assert_eq!(graph.rank(), words.len());
            for _ in 0..50 {
                let length = random.below(64);
                let letters = random.uniform_letters(generators, length);
                assert_eq!(graph.traces_loop(&letters), action.returns(&letters));
            }
        }
    }

    /// An action of one generator by steps of one, and one of two that was worked out by hand.
    #[test]
    fn small_actions() {
        let images = vec![vec![1, 2, 0]];
        let around = Action { images };
        assert!(around.returns(b"aaa") && around.returns(b"Aaaaa"));
        assert!(!around.returns(b"a") && !around.returns(b"AA"));
        let images = vec![vec![1, 0], vec![0, 1]];
        let even = Action { images };
        assert!(even.returns(b"abAb") && even.returns(b"Bab".repeat(2).as_slice()));
        assert!(!even.returns(b"ab"));
        let words = even.schreier_generators(&mut Random::new(52));
        let mut lengths: Vec<usize> = words.iter().map(Word::len).collect();
        lengths.sort_unstable();
        assert_eq!(lengths, [1, 2, 3]);
    }
}
