//! Rows and their text: a letter, then a comma and eight hexadecimal digits for each operand word.

/// What a row asks for.
#[derive(Clone, Copy, Debug, PartialEq, Eq)]
pub enum Kind {
    InvSqrt,
    LerpQuaternion,
    QuaternionToMatrix,
    MatrixToQuaternion,
    RowMat4Mul,
    PoseLerp,
    PoseConcat,
    PoseToMatrix,
    PoseFromMatrix,
    Widen,
    Narrow,
    FloorIndex,
    CeilingIndex,
    IndexToFloat,
}

impl Kind {
    pub const ALL: [Kind; 14] = [
        Kind::InvSqrt,
        Kind::LerpQuaternion,
        Kind::QuaternionToMatrix,
        Kind::MatrixToQuaternion,
        Kind::RowMat4Mul,
        Kind::PoseLerp,
        Kind::PoseConcat,
        Kind::PoseToMatrix,
        Kind::PoseFromMatrix,
        Kind::Widen,
        Kind::Narrow,
        Kind::FloorIndex,
        Kind::CeilingIndex,
        Kind::IndexToFloat,
    ];

    pub fn letter(self) -> char {
        match self {
            Kind::InvSqrt => 'i',
            Kind::LerpQuaternion => 'l',
            Kind::QuaternionToMatrix => 'm',
            Kind::MatrixToQuaternion => 'q',
            Kind::RowMat4Mul => 'p',
            Kind::PoseLerp => 'L',
            Kind::PoseConcat => 'c',
            Kind::PoseToMatrix => 'M',
            Kind::PoseFromMatrix => 'Q',
            Kind::Widen => 'w',
            Kind::Narrow => 'n',
            Kind::FloorIndex => 'd',
            Kind::CeilingIndex => 'u',
            Kind::IndexToFloat => 'x',
        }
    }

    /// How many operand words the letter has.
    pub fn operands(self) -> usize {
        match self {
            Kind::InvSqrt | Kind::Widen | Kind::FloorIndex | Kind::CeilingIndex => 1,
            Kind::Narrow | Kind::IndexToFloat => 2,
            Kind::QuaternionToMatrix => 4,
            Kind::PoseToMatrix => 8,
            Kind::LerpQuaternion => 9,
            Kind::MatrixToQuaternion | Kind::PoseFromMatrix | Kind::PoseConcat => 16,
            Kind::PoseLerp => 17,
            Kind::RowMat4Mul => 32,
        }
    }
}

#[derive(Clone, Debug, PartialEq, Eq)]
pub struct Row {
    pub kind: Kind,
    pub words: Vec<u32>,
}

impl Row {
    pub fn new(kind: Kind, words: &[u32]) -> Row {
        assert_eq!(words.len(), kind.operands(), "operands of {kind:?}");
        Row {
            kind,
            words: words.to_vec(),
        }
    }

    /// A row whose operand is a pair of words, the high one first.
    pub fn pair(kind: Kind, value: u64) -> Row {
        Row::new(kind, &[(value >> 32) as u32, value as u32])
    }

    pub fn text(&self) -> String {
        format!("{},{}", self.kind.letter(), joined(&self.words))
    }
}

pub fn joined(words: &[u32]) -> String {
    let digits: Vec<String> = words.iter().map(|word| format!("{word:08x}")).collect();
    digits.join(",")
}

/// One line for each item, every line ended by LF.
pub fn lines<T>(items: &[T], line: impl Fn(&T) -> String) -> String {
    items.iter().map(|item| line(item) + "\n").collect()
}
