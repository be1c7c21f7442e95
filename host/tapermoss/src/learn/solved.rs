//! Equations for the weights over the field of 31 elements, and their elimination.

pub const WEIGHTS: usize = 26;
const FIELD: u16 = 31;

pub type Weights = [u8; WEIGHTS];

/// What an entry says: these numbers times the weights make its block's number.
#[derive(Clone, Copy, Debug, PartialEq, Eq, PartialOrd, Ord)]
pub struct Equation {
    /// The last weight that is not taken 0 times. It stands first so that equations are sorted by it.
    pub reach: usize,
    pub left: [u8; WEIGHTS],
    right: u8,
}

impl Equation {
    /// That of a name of 1 to 25 characters in block r.
    pub fn of(name: &[u8], r: u32) -> Equation {
        let mut left = [0; WEIGHTS];
        left[0] = name.len() as u8;
        for (number, character) in left[1..].iter_mut().zip(name) {
            *number = character.to_ascii_uppercase() % FIELD as u8;
        }
        let reach = left.iter().rposition(|&number| number != 0).unwrap_or(0);
        Equation { reach, left, right: (r % u32::from(FIELD)) as u8 }
    }

    /// The hash of the name.
    pub fn hash(&self, weights: &Weights) -> u8 {
        let pairs = self.left.iter().zip(weights);
        (pairs.map(|(&number, &w)| u16::from(number) * u16::from(w)).sum::<u16>() % FIELD) as u8
    }

    /// Whether the entry stands where these weights put it.
    pub fn holds(&self, weights: &Weights) -> bool {
        self.hash(weights) == self.right
    }

    /// Whether the entry stands in block 0, 31, 62 or so on, where weights of 0 put every name.
    pub fn stands_at_0(&self) -> bool {
        self.right == 0
    }

    /// Adds another one so many times.
    fn add(&mut self, other: &Equation, times: u16) {
        let sum = |one: u8, other: u8| ((u16::from(one) + times * u16::from(other)) % FIELD) as u8;
        self.left.iter_mut().zip(other.left).for_each(|(one, other)| *one = sum(*one, other));
        self.right = sum(self.right, other.right);
    }
}

/// The number that makes 1 with this one, which is not 0: its 29th power.
fn inverse(number: u8) -> u16 {
    (0..FIELD - 2).fold(1, |power, _| power * u16::from(number) % FIELD)
}

/// Independent equations, solved: each for the first weight that it has, which no other one has.
#[derive(Clone, Default)]
pub struct Solved {
    rows: [Option<Equation>; WEIGHTS],
    pub rank: usize,
}

impl Solved {
    /// Takes an equation in if it is independent of those that are there; answers whether it is.
    pub fn take(&mut self, equation: &Equation) -> bool {
        let mut rest = *equation;
        for (i, row) in self.rows.iter().enumerate() {
            if let (Some(row), 1..) = (row, rest.left[i]) {
                rest.add(row, FIELD - u16::from(rest.left[i]));
            }
        }
        let Some(i) = rest.left.iter().position(|&number| number != 0) else { return false };
        let (whole, times) = (rest, inverse(rest.left[i]) - 1);
        rest.add(&whole, times);
        for row in self.rows.iter_mut().flatten() {
            let times = FIELD - u16::from(row.left[i]);
            row.add(&rest, times);
        }
        self.rows[i] = Some(rest);
        self.rank += 1;
        true
    }

    /// The weights, those that are left open being 0. They are the same however the same equations were taken in.
    pub fn weights(&self) -> Weights {
        self.rows.map(|row| row.map_or(0, |row| row.right))
    }

    /// All names of at most so many characters have one hash only; 0 if those of one character have not.
    pub fn places_to(&self) -> usize {
        (0..WEIGHTS).take_while(|&i| self.settles(i)).count().saturating_sub(1)
    }

    /// Whether a weight has one value only.
    pub fn settles(&self, i: usize) -> bool {
        let alone = |row: &Equation| row.left.iter().filter(|&&number| number != 0).count() == 1;
        self.rows[i].as_ref().is_some_and(alone)
    }
}
