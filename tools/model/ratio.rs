//! Fractions of 128 bits. A step that would not fit answers nothing, and the solver gives up.

#[derive(Clone, Copy, Debug, PartialEq)]
pub struct Ratio {
    top: i128,
    bottom: i128,
}

pub fn gcd(a: i128, b: i128) -> i128 {
    if b == 0 {
        a.abs()
    } else {
        gcd(b, a % b)
    }
}

impl Ratio {
    pub fn whole(figure: i128) -> Ratio {
        Ratio {
            top: figure,
            bottom: 1,
        }
    }

    /// In lowest terms, with the sign on top.
    fn reduced(top: i128, bottom: i128) -> Ratio {
        let shared = gcd(top, bottom).max(1);
        let sign = if bottom < 0 { -1 } else { 1 };
        Ratio {
            top: sign * top / shared,
            bottom: sign * bottom / shared,
        }
    }

    pub fn sign(self) -> i128 {
        self.top.signum()
    }

    pub fn bottom(self) -> i128 {
        self.bottom
    }

    pub fn floor(self) -> i128 {
        self.top.div_euclid(self.bottom)
    }

    pub fn is_whole(self) -> bool {
        self.bottom == 1
    }

    pub fn times(self, other: Ratio) -> Option<Ratio> {
        let across = gcd(self.top, other.bottom).max(1);
        let back = gcd(other.top, self.bottom).max(1);
        let top = (self.top / across).checked_mul(other.top / back)?;
        let bottom = (self.bottom / back).checked_mul(other.bottom / across)?;
        Some(Ratio::reduced(top, bottom))
    }

    pub fn over(self, other: Ratio) -> Option<Ratio> {
        self.times(Ratio::reduced(other.bottom, other.top))
    }

    pub fn minus(self, other: Ratio) -> Option<Ratio> {
        let shared = gcd(self.bottom, other.bottom);
        let (mine, its) = (other.bottom / shared, self.bottom / shared);
        let top = self
            .top
            .checked_mul(mine)?
            .checked_sub(other.top.checked_mul(its)?)?;
        Some(Ratio::reduced(top, self.bottom.checked_mul(mine)?))
    }

    pub fn is_below(self, other: Ratio) -> Option<bool> {
        Some(self.minus(other)?.sign() < 0)
    }
}
