//! Natural numbers of any size as decimal digits: slow, simple, and without an
//! end at which a product could overflow.

use std::cmp::Ordering;

#[derive(Clone, PartialEq, Eq, Debug)]
pub struct Natural {
    /// The lowest digit first; the highest one is never 0, so zero has none.
    digits: Vec<u8>,
}

impl Natural {
    pub fn of(number: u64) -> Self {
        Self::typed(number.to_string().as_bytes())
    }

    /// The number that a run of typed digits stands for.
    pub fn typed(digits: &[u8]) -> Self {
        Self::without_leading_zeros(digits.iter().rev().map(|digit| digit - b'0').collect())
    }

    fn without_leading_zeros(mut digits: Vec<u8>) -> Self {
        while digits.last() == Some(&0) {
            digits.pop();
        }
        Self { digits }
    }

    pub fn is_zero(&self) -> bool {
        self.digits.is_empty()
    }

    pub fn plus(&self, other: &Natural) -> Natural {
        let longest = self.digits.len().max(other.digits.len());
        let mut sum = Vec::with_capacity(longest + 1);
        let mut carry = 0;
        for place in 0..=longest {
            let column = carry + self.digit(place) + other.digit(place);
            sum.push(column % 10);
            carry = column / 10;
        }
        Self::without_leading_zeros(sum)
    }

    /// The difference; `other` is not the larger one.
    pub fn minus(&self, other: &Natural) -> Natural {
        let mut difference = Vec::with_capacity(self.digits.len());
        let mut borrow = 0;
        for place in 0..self.digits.len() {
            let taken = other.digit(place) + borrow;
            let digit = self.digit(place);
            borrow = u8::from(digit < taken);
            difference.push(digit + 10 * borrow - taken);
        }
        assert!(borrow == 0, "the larger number was taken from the smaller");
        Self::without_leading_zeros(difference)
    }

    /// The product, worked out digit by digit as on paper.
    pub fn times(&self, other: &Natural) -> Natural {
        let mut product = vec![0; self.digits.len() + other.digits.len()];
        for (shift, digit) in other.digits.iter().enumerate() {
            let mut carry = 0;
            for (place, own) in self.digits.iter().enumerate() {
                let column = product[shift + place] + own * digit + carry;
                product[shift + place] = column % 10;
                carry = column / 10;
            }
            product[shift + self.digits.len()] = carry;
        }
        Self::without_leading_zeros(product)
    }

    /// Times ten to a power; a negative power cuts the digits that would stand
    /// behind the point.
    pub fn shifted(&self, power: i64) -> Natural {
        let places = power.unsigned_abs() as usize;
        let digits = if self.is_zero() {
            Vec::new()
        } else if power >= 0 {
            [vec![0; places], self.digits.clone()].concat()
        } else {
            self.digits.iter().skip(places).copied().collect()
        };
        Self { digits }
    }

    /// The number made of the lowest digits, `count` of them.
    pub fn lowest(&self, count: usize) -> Natural {
        Self::without_leading_zeros(self.digits.iter().take(count).copied().collect())
    }

    pub fn to_u64(&self) -> Option<u64> {
        let mut number = 0_u64;
        for digit in self.digits.iter().rev() {
            number = number.checked_mul(10)?.checked_add(u64::from(*digit))?;
        }
        Some(number)
    }

    fn digit(&self, place: usize) -> u8 {
        self.digits.get(place).copied().unwrap_or(0)
    }
}

impl Ord for Natural {
    fn cmp(&self, other: &Self) -> Ordering {
        let by_length = self.digits.len().cmp(&other.digits.len());
        by_length.then_with(|| self.digits.iter().rev().cmp(other.digits.iter().rev()))
    }
}

impl PartialOrd for Natural {
    fn partial_cmp(&self, other: &Self) -> Option<Ordering> {
        Some(self.cmp(other))
    }
}
