//! The two kinds of data, and the situations that worths are worked out in.

#[derive(Clone, Copy, Debug)]
pub struct Situation {
    high_range: bool,
    gear: u8,
    temperature: i16,
}

impl Situation {
    pub fn new(range: i32, gear: i32, temperature: i32) -> Option<Situation> {
        let good = (0..=1).contains(&range)
            && (1..=16).contains(&gear)
            && (-40..=150).contains(&temperature);
        good.then_some(Situation {
            high_range: range == 1,
            gear: gear as u8,
            temperature: temperature as i16,
        })
    }
}

pub trait Kind {
    type Data: Copy + Default;
    type Worth: Copy + Default;

    /// The data of two numbers, if it fits the kids given.
    fn data(first: i32, second: i32, given: [bool; 3]) -> Option<Self::Data>;
    fn numbers(data: Self::Data) -> (i32, i32);
    fn worth(data: Self::Data, situation: Situation, kids: [Self::Worth; 3]) -> Self::Worth;
    fn worth_numbers(worth: Self::Worth) -> (i32, i32);
}

pub struct Maps;

const LIMIT: i32 = 1_000_000;

#[derive(Clone, Copy, Default, PartialEq, Eq)]
pub enum Code {
    #[default]
    Number = 0,
    Range = 1,
    Gear = 2,
    Temperature = 3,
    Negated = 8,
    Sum = 16,
    Difference = 17,
    Smaller = 18,
    Larger = 19,
    Scaled = 20,
    Choose = 24,
    Held = 25,
}

impl Code {
    fn of(number: i32) -> Option<Code> {
        use Code::*;
        [
            Number,
            Range,
            Gear,
            Temperature,
            Negated,
            Sum,
            Difference,
            Smaller,
            Larger,
            Scaled,
            Choose,
            Held,
        ]
        .into_iter()
        .find(|&code| code as i32 == number)
    }

    fn takes(self) -> usize {
        self as usize / 8
    }
}

#[derive(Clone, Copy, Default)]
pub struct MapData {
    code: Code,
    number: i32,
}

impl Kind for Maps {
    type Data = MapData;
    type Worth = i32;

    fn data(code: i32, number: i32, given: [bool; 3]) -> Option<MapData> {
        let code = Code::of(code)?;
        let wanted = std::array::from_fn(|kid| kid < code.takes());
        let in_limits = (-LIMIT..=LIMIT).contains(&number);
        let fits = given == wanted && in_limits && (code == Code::Number || number == 0);
        fits.then_some(MapData { code, number })
    }

    fn numbers(data: MapData) -> (i32, i32) {
        (data.code as i32, data.number)
    }

    fn worth(data: MapData, situation: Situation, kids: [i32; 3]) -> i32 {
        let [first, second, third] = kids.map(i64::from);
        let exact = match data.code {
            Code::Number => data.number.into(),
            Code::Range => situation.high_range.into(),
            Code::Gear => situation.gear.into(),
            Code::Temperature => situation.temperature.into(),
            Code::Negated => -first,
            Code::Sum => first + second,
            Code::Difference => first - second,
            Code::Smaller => first.min(second),
            Code::Larger => first.max(second),
            Code::Scaled => first * second / 100,
            Code::Choose if first == 0 => second,
            Code::Choose => third,
            Code::Held => second.max(first.min(third)),
        };
        exact.clamp((-LIMIT).into(), LIMIT.into()) as i32
    }

    fn worth_numbers(worth: i32) -> (i32, i32) {
        (worth, 0)
    }
}

pub struct Traces;

/// Data of a trace, and a trace's worth: a severity with an hour.
#[derive(Clone, Copy, Default)]
pub struct Fault {
    severity: u8,
    hour: u32,
}

impl Kind for Traces {
    type Data = Fault;
    type Worth = Fault;

    fn data(severity: i32, hour: i32, _given: [bool; 3]) -> Option<Fault> {
        let fits = (0..=9).contains(&severity) && (0..=2_000_000).contains(&hour);
        fits.then_some(Fault {
            severity: severity as u8,
            hour: hour as u32,
        })
    }

    fn numbers(data: Fault) -> (i32, i32) {
        (data.severity.into(), data.hour as i32)
    }

    fn worth(data: Fault, _situation: Situation, kids: [Fault; 3]) -> Fault {
        kids.iter().fold(data, |worst, kid| Fault {
            severity: worst.severity.max(kid.severity),
            hour: worst.hour.max(kid.hour),
        })
    }

    fn worth_numbers(worth: Fault) -> (i32, i32) {
        Traces::numbers(worth)
    }
}

#[cfg(test)]
mod tests {
    use super::*;

    fn worth(code: i32, kids: [i32; 3]) -> i32 {
        let takes = code as usize / 8;
        let data = Maps::data(code, 0, std::array::from_fn(|kid| kid < takes)).unwrap();
        Maps::worth(data, Situation::new(1, 5, -40).unwrap(), kids)
    }

    #[test]
    fn maps_work_out() {
        assert_eq!(
            [worth(1, [0; 3]), worth(2, [0; 3]), worth(3, [0; 3])],
            [1, 5, -40]
        );
        assert_eq!(worth(8, [7, 0, 0]), -7);
        assert_eq!([worth(20, [7, 50, 0]), worth(20, [-7, 50, 0])], [3, -3]);
        assert_eq!(
            [worth(16, [900_000, 200_000, 0]), worth(17, [3, 8, 0])],
            [LIMIT, -5]
        );
        assert_eq!([worth(18, [3, 8, 0]), worth(19, [3, 8, 0])], [3, 8]);
        assert_eq!([worth(24, [0, 2, 3]), worth(24, [9, 2, 3])], [2, 3]);
        assert_eq!(worth(25, [5, 10, 3]), 10);
    }

    #[test]
    fn map_data_fits_its_first_kids() {
        assert!(Maps::data(0, LIMIT, [false; 3]).is_some());
        assert!(Maps::data(0, LIMIT + 1, [false; 3]).is_none());
        assert!(Maps::data(8, 0, [false, true, false]).is_none());
        assert!(Maps::data(8, 1, [true, false, false]).is_none());
        assert!(Maps::data(256, 0, [false; 3]).is_none());
        assert!(Maps::data(4, 0, [false; 3]).is_none());
    }

    #[test]
    fn traces_gather_the_worst() {
        let over = Fault {
            severity: 2,
            hour: 30,
        };
        let data = Traces::data(4, 10, [true, false, true]).unwrap();
        let worth = Traces::worth(data, Situation::new(0, 1, 0).unwrap(), [over, over, over]);
        assert_eq!(Traces::worth_numbers(worth), (4, 30));
        assert!(Traces::data(10, 0, [false; 3]).is_none());
        assert!(Traces::data(9, 2_000_001, [false; 3]).is_none());
    }
}
