//! Rotations: the approximate root, and quaternions with the matrices that they stand for. Document 01
//! has both conversions keep the Rust's order of operations, which is therefore taken from `math.rs`.

pub type Matrix = [[f32; 4]; 4];

/// w, x, y, z.
pub type Quaternion = [f32; 4];

/// The axes after an axis, round and round.
const NEXT: [[usize; 2]; 3] = [[1, 2], [2, 0], [0, 1]];

pub fn inv_sqrt(x: f32) -> f32 {
    let half = x / 2.0;
    let shifted = (x.to_bits() as i32) >> 1;
    let guess = f32::from_bits(0x5f37_59df_i32.wrapping_sub(shifted) as u32);
    guess * (1.5 - (half * guess) * guess)
}

fn dot(a: Quaternion, b: Quaternion) -> f32 {
    let products = [0, 1, 2, 3].map(|i| a[i] * b[i]);
    ((products[0] + products[1]) + products[2]) + products[3]
}

pub fn lerp(from: Quaternion, to: Quaternion, factor: f32) -> Quaternion {
    let first = 1.0 - factor;
    let second = if dot(from, to) > 0.0 { factor } else { -factor };
    let sum = [0, 1, 2, 3].map(|i| first * from[i] + second * to[i]);
    let root = inv_sqrt(dot(sum, sum));
    sum.map(|part| part * root)
}

/// The rotation's matrix, with no translation.
pub fn matrix([w, x, y, z]: Quaternion) -> Matrix {
    let axes = [x, y, z];
    let doubled = axes.map(|part| part + part);
    let mut matrix = [[0.0; 4]; 4];
    for (k, [i, j]) in NEXT.into_iter().enumerate() {
        // The lower axis is the doubled one in every product of two.
        let (low, high) = (i.min(j), i.max(j));
        let squares = [low, high].map(|axis| doubled[axis] * axes[axis]);
        matrix[k][k] = (1.0 - squares[0]) - squares[1];
        let both = doubled[low] * axes[high];
        let turn = doubled[k] * w;
        matrix[i][j] = both + turn;
        matrix[j][i] = both - turn;
    }
    matrix[3][3] = 1.0;
    matrix
}

/// The rotation in a matrix.
pub fn quaternion(matrix: &Matrix) -> Quaternion {
    let diagonal = [0, 1, 2].map(|axis| matrix[axis][axis]);
    let trace = (diagonal[0] + diagonal[1]) + diagonal[2];
    let turn = |axis: usize| {
        let [i, j] = NEXT[axis];
        matrix[i][j] - matrix[j][i]
    };
    if trace > 0.0 {
        let sum = trace + 1.0;
        let scale = inv_sqrt(sum) * 0.5;
        return [
            scale * sum,
            turn(0) * scale,
            turn(1) * scale,
            turn(2) * scale,
        ];
    }
    let axis = greatest(diagonal);
    let [i, j] = NEXT[axis];
    let sum = (diagonal[axis] - (diagonal[i] + diagonal[j])) + 1.0;
    let scale = inv_sqrt(sum) * 0.5;
    let mut parts = [turn(axis) * scale, 0.0, 0.0, 0.0];
    parts[1 + axis] = scale * sum;
    for other in [i, j] {
        parts[1 + other] = (matrix[axis][other] + matrix[other][axis]) * scale;
    }
    parts
}

/// The first entry, unless the second is greater; then that one, unless the third is.
fn greatest(diagonal: [f32; 3]) -> usize {
    let first = usize::from(diagonal[1] > diagonal[0]);
    if diagonal[2] > diagonal[first] {
        2
    } else {
        first
    }
}

pub fn product(a: &Matrix, b: &Matrix) -> Matrix {
    let mut product = [[0.0; 4]; 4];
    for (row, entries) in product.iter_mut().enumerate() {
        for (column, entry) in entries.iter_mut().enumerate() {
            let terms = [0, 1, 2, 3].map(|i| a[row][i] * b[i][column]);
            *entry = ((terms[0] + terms[1]) + terms[2]) + terms[3];
        }
    }
    product
}
