//! The values of initializers, and which of them a type holds (RULES 17.6 and 17.7).

use super::natural::Natural;
use super::types::Primitive;

/// An exponent is cut to this size. A text's digits are far fewer, so beyond it a number that is not
/// zero is larger than every bound, or below 1 and not whole, as it was.
const FAR: i64 = 1_000_000;
/// No type holds numbers with more digits before the point.
const MOST_DIGITS: i64 = 400;

/// A number, exact: decimal digits without zeros at either end, the point right before the first
/// one, times ten to the power of `place`.
#[derive(Clone, Debug, PartialEq, Eq)]
pub struct Number {
    pub negative: bool,
    digits: Vec<u8>,
    place: i64,
}

impl Number {
    pub fn whole(value: &Natural) -> Number {
        Number::scaled(value.decimal().as_bytes(), 0)
    }

    /// Digits, the last of which count tens to the power of `up`.
    pub fn scaled(digits: &[u8], up: i64) -> Number {
        let zeros = digits.iter().take_while(|&&digit| digit == b'0').count();
        let mut digits = digits[zeros..].to_vec();
        let place = digits.len() as i64 + up;
        while digits.last() == Some(&b'0') {
            digits.pop();
        }
        Number {
            negative: false,
            place: if digits.is_empty() { 0 } else { place },
            digits,
        }
    }

    pub fn with_sign(self, negative: bool) -> Number {
        Number { negative, ..self }
    }

    pub fn is_zero(&self) -> bool {
        self.digits.is_empty()
    }

    pub fn is_whole(&self) -> bool {
        self.digits.len() as i64 <= self.place
    }

    /// Its absolute value without a fraction; nothing if no type holds it.
    fn truncated(&self) -> Option<Natural> {
        if self.place > MOST_DIGITS {
            return None;
        }
        let length = self.place.max(0) as usize;
        let mut digits = self.digits.clone();
        digits.resize(length, b'0');
        Some(Natural::in_base(10, &digits).unwrap_or(Natural::zero()))
    }

    /// The absolute value is below a whole number that has at most `MOST_DIGITS` digits.
    pub fn is_below(&self, bound: &Natural) -> bool {
        self.truncated().is_some_and(|value| value < *bound)
    }
}

/// The value of an exponent, cut to `FAR`.
pub fn exponent(negative: bool, digits: &Natural) -> i64 {
    let size = digits
        .decimal()
        .parse()
        .map_or(FAR, |size: i64| size.min(FAR));
    if negative {
        -size
    } else {
        size
    }
}

/// The type holds the number.
pub fn holds(primitive: Primitive, number: &Number) -> bool {
    let negative = number.negative && !number.is_zero();
    match primitive {
        Primitive::Bool => !negative && number.is_whole() && number.is_below(&Natural::of(2)),
        Primitive::Uint(width) => {
            let bound = Natural::power_of_2(width);
            !negative && number.is_whole() && number.is_below(&bound)
        }
        Primitive::Int(width) => {
            let bound = Natural::power_of_2(width - 1);
            let lowest = negative && *number == Number::whole(&bound).with_sign(true);
            number.is_whole() && (lowest || number.is_below(&bound))
        }
        Primitive::Float(width) => number.is_below(&infinity(width)),
    }
}

/// From here on a float's rounding gives infinity: half a step above the largest finite number.
pub fn infinity(width: u32) -> Natural {
    let (power, step) = match width {
        16 => (16, 4),
        32 => (128, 103),
        _ => (1024, 970),
    };
    Natural::power_of_2(power).minus(&Natural::power_of_2(step))
}
