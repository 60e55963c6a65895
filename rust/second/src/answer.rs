/// What every entry answers. `number` is the refusal's number, 0 where there is none; where there
/// is one, every field but `place` is 0.
#[derive(Clone, Copy, Debug, Default, PartialEq, Eq)]
pub struct Answer {
    pub number: u16,
    pub place: u16,
    pub count: u16,
    pub value: u16,
    pub cost: u16,
    pub bound: u16,
}
