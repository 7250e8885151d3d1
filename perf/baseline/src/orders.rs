use crate::refusal::Refusal;

pub const MOST_PARTIES: usize = 15;

/// The order in which parties go round the numbers 1 to `m`.
pub struct Stride {
    m: u32,
    stride: u32,
    /// Where each party stands, 1 to `m`.
    places: [u32; MOST_PARTIES],
}

impl Stride {
    /// `m` is within its limits: whoever makes a store has looked at that first.
    pub fn new(m: u8, stride: i32) -> Result<Stride, Refusal> {
        let m = u32::from(m);
        let stride = u8::try_from(stride).map_err(|_| Refusal::BadOrder)?.into();
        if stride == 0 || greatest_common_factor(stride, m) > 1 {
            return Err(Refusal::BadOrder);
        }
        let places = std::array::from_fn(|party| party as u32 % m + 1);
        Ok(Stride {
            m,
            stride: stride % m,
            places,
        })
    }

    /// The next number of `party`, which counts from 0.
    pub fn pick(&mut self, party: usize) -> u8 {
        let place = &mut self.places[party];
        let next = *place + self.stride;
        *place = if next > self.m { next - self.m } else { next };
        *place as u8
    }
}

fn greatest_common_factor(a: u32, b: u32) -> u32 {
    if b == 0 {
        a
    } else {
        greatest_common_factor(b, a % b)
    }
}

#[cfg(test)]
mod tests {
    use super::*;

    #[test]
    fn strides_go_round() {
        let mut order = Stride::new(9, 4).unwrap();
        let picks: Vec<u8> = (0..4).map(|_| order.pick(0)).collect();
        assert_eq!(picks, [5, 9, 4, 8]);
        assert_eq!(Stride::new(1, 255).unwrap().pick(14), 1);
    }

    #[test]
    fn bad_strides_are_refused() {
        for (m, stride) in [(9, 3), (9, 0), (9, 256), (9, -1), (2, 254)] {
            assert_eq!(Stride::new(m, stride).err(), Some(Refusal::BadOrder));
        }
    }
}
