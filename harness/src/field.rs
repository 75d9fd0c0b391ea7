//! The five fields of document 01, "Words and checks".
//!
//! A product is the carry-less product of two polynomials over the bits, taken modulo the
//! field's polynomial. Tables of powers and logarithms are made from that product at the
//! start, for speed only, and `faults` compares them with it.

use std::sync::OnceLock;

/// Word sizes, each with its polynomial, written as document 01 gives its exponents.
const POLYNOMIALS: [(u32, &[u32]); 5] = [
    (4, &[4, 1, 0]),
    (6, &[6, 1, 0]),
    (8, &[8, 5, 3, 2, 0]),
    (10, &[10, 3, 0]),
    (12, &[12, 6, 5, 3, 0]),
];

/// The same polynomials as source 000 prints them in decimals (7.2.3 and table 3).
const DECIMALS: [u32; 5] = [19, 67, 301, 1_033, 4_201];

/// The word sizes in rising order.
pub const SIZES: [u32; 5] = [4, 6, 8, 10, 12];

pub struct Field {
    pub bits: u32,
    polynomial: u32,
    /// Powers of 2 over two rounds, then zeros, so that a sum of logarithms needs no test.
    powers: Vec<u16>,
    /// The logarithm of 0 points into the zeros.
    logs: Vec<u32>,
}

impl Field {
    /// The field of a word size, or none where document 01 has no such size.
    pub fn of(bits: u32) -> Option<&'static Field> {
        static FIELDS: OnceLock<Vec<Field>> = OnceLock::new();
        let fields = FIELDS.get_or_init(|| POLYNOMIALS.iter().map(Field::made).collect());
        fields.iter().find(|field| field.bits == bits)
    }

    fn made(&(bits, exponents): &(u32, &[u32])) -> Field {
        let polynomial = exponents.iter().map(|e| 1u32 << e).sum();
        let order = (1usize << bits) - 1;
        let mut field = Field {
            bits,
            polynomial,
            powers: vec![0; 4 * order + 1],
            logs: vec![2 * order as u32; order + 1],
        };
        let mut power = 1;
        for i in 0..2 * order {
            field.powers[i] = power;
            if i < order {
                field.logs[power as usize] = i as u32;
            }
            power = field.carry_less(power, 2);
        }
        field
    }

    /// Words other than 0, which is also the largest n.
    pub fn order(&self) -> usize {
        (1 << self.bits) - 1
    }

    /// The product by its definition.
    pub fn carry_less(&self, a: u16, b: u16) -> u16 {
        let mut product = 0u32;
        for i in 0..self.bits {
            if b >> i & 1 == 1 {
                product ^= (a as u32) << i;
            }
        }
        for i in (self.bits..2 * self.bits).rev() {
            if product >> i & 1 == 1 {
                product ^= self.polynomial << (i - self.bits);
            }
        }
        product as u16
    }

    pub fn product(&self, a: u16, b: u16) -> u16 {
        self.powers[(self.logs[a as usize] + self.logs[b as usize]) as usize]
    }

    /// row[i] += factor · other[i], the inner step of every elimination.
    pub fn add_multiple(&self, row: &mut [u16], factor: u16, other: &[u16]) {
        let factor = self.logs[factor as usize];
        for (a, &b) in row.iter_mut().zip(other) {
            *a ^= self.powers[(factor + self.logs[b as usize]) as usize];
        }
    }

    /// The inverse of a word other than 0.
    pub fn inverse(&self, a: u16) -> u16 {
        assert!(a != 0, "0 has no inverse");
        self.powers[self.order() - self.logs[a as usize] as usize]
    }

    /// 2 to the given exponent.
    pub fn power(&self, exponent: usize) -> u16 {
        self.powers[exponent % self.order()]
    }

    /// The value at x of a polynomial given with its highest coefficient first.
    pub fn value(&self, highest_first: &[u16], x: u16) -> u16 {
        let x = self.logs[x as usize];
        highest_first.iter().fold(0, |sum, &word| {
            self.powers[(self.logs[sum as usize] + x) as usize] ^ word
        })
    }

    /// Counts the places where the tables and the carry-less product disagree, and where the
    /// two papers would.
    pub fn faults(&self) -> usize {
        let all = 0..=self.order() as u16;
        // 2 runs through all words but 0 before it comes back to 1.
        let reached = self.logs[1..]
            .iter()
            .filter(|&&log| log < self.order() as u32);
        let mut faults = self.order() - reached.count();
        faults += usize::from(!DECIMALS.contains(&self.polynomial));
        // Every pair up to 10 bits, every seventh second factor at 12.
        let step = if self.bits == 12 { 7 } else { 1 };
        for a in all.clone() {
            for b in all.clone().step_by(step) {
                faults += usize::from(self.product(a, b) != self.carry_less(a, b));
            }
            if a > 0 {
                faults += usize::from(self.carry_less(a, self.inverse(a)) != 1);
            }
        }
        faults
    }
}
