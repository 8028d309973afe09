//! A set of inputs as few short cubes: `FIRE=1 METER=0` is every input with those two bits so.

/// The bits that a cube looks at, and how they must be.
#[derive(Clone, Copy, PartialEq, Eq, Debug)]
pub struct Cube {
    looked: u32,
    wanted: u32,
}

impl Cube {
    fn has(self, input: u32) -> bool {
        input & self.looked == self.wanted
    }

    /// In words; empty for the cube of all inputs.
    pub fn text(self, names: &[String]) -> String {
        let looked = names.iter().enumerate().filter(|(bit, _)| self.looked >> bit & 1 == 1);
        let words: Vec<String> = looked.map(|(bit, name)| format!("{name}={}", self.wanted >> bit & 1)).collect();
        words.join(" ")
    }
}

/// Cubes that together hold exactly the given inputs of `bits` bits: always the one that takes in most of what is
/// left, and of several the first that looks at the fewest bits.
pub fn cover(inputs: &[u32], bits: usize) -> Vec<Cube> {
    let all = 1 << bits;
    let inside = |cube: &Cube| (0..all).all(|input| !cube.has(input) || inputs.contains(&input));
    let mut cubes: Vec<Cube> = every_cube(all).filter(inside).collect();
    cubes.sort_by_key(|cube| cube.looked.count_ones());
    let mut left = inputs.to_vec();
    let mut cover = Vec::new();
    while !left.is_empty() {
        let taken = |cube: &Cube| left.iter().filter(|&&input| cube.has(input)).count();
        let Some(best) = cubes.iter().copied().rev().max_by_key(taken) else {
            break;
        };
        left.retain(|&input| !best.has(input));
        cover.push(best);
    }
    cover
}

fn every_cube(all: u32) -> impl Iterator<Item = Cube> {
    let wanted = move |looked: u32| (0..all).filter(move |wanted| wanted & !looked == 0);
    (0..all).flat_map(move |looked| wanted(looked).map(move |wanted| Cube { looked, wanted }))
}

#[cfg(test)]
mod tests {
    use super::cover;

    #[test]
    fn a_cover_is_exact_for_every_set_of_three_bits() {
        for set in 1..256u32 {
            let inputs: Vec<u32> = (0..8).filter(|input| set >> input & 1 == 1).collect();
            let cubes = cover(&inputs, 3);
            for input in 0..8 {
                assert_eq!(cubes.iter().any(|cube| cube.has(input)), inputs.contains(&input));
            }
        }
    }

    #[test]
    fn cubes_are_short() {
        let names: Vec<String> = ["A", "B", "C"].map(String::from).to_vec();
        let text = |inputs: &[u32]| cover(inputs, 3).iter().map(|cube| cube.text(&names)).collect::<Vec<_>>();
        assert_eq!(text(&[0, 1, 2, 3, 4, 5, 6, 7]), [""]);
        assert_eq!(text(&[1, 3, 5, 7]), ["A=1"]);
        assert_eq!(text(&[5]), ["A=1 B=0 C=1"]);
        assert_eq!(text(&[1, 2, 3]), ["A=1 C=0", "B=1 C=0"]);
    }
}
