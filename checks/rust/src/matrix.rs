//! Matrices of sixteen signed 32-bit numbers with 12 fraction bits, row by row (document 01, Matrices).

pub type Matrix = [i32; 16];

/// 1.0.
pub const ONE: i32 = 4096;

pub const UNIT: Matrix = [ONE, 0, 0, 0, 0, ONE, 0, 0, 0, 0, ONE, 0, 0, 0, 0, ONE];

/// An exact sum, divided by 4096 rounding down, its low 32 bits as a signed number.
#[inline]
fn rounded(sum: i128) -> i32 {
    (sum >> 12) as i32
}

/// A row times a column. Each product fits 64 bits, the sum of four may not.
#[inline]
fn dot(row: [i32; 4], column: [i32; 4]) -> i32 {
    let product = |k: usize| i128::from(row[k]) * i128::from(column[k]);
    rounded(product(0) + product(1) + product(2) + product(3))
}

#[inline]
fn column(matrix: &Matrix, j: usize) -> [i32; 4] {
    [matrix[j], matrix[4 + j], matrix[8 + j], matrix[12 + j]]
}

/// A row vector times a matrix.
#[inline]
pub fn transform(vector: [i32; 4], matrix: &Matrix) -> [i32; 4] {
    [0, 1, 2, 3].map(|j| dot(vector, column(matrix, j)))
}

/// left × right.
pub fn multiply(left: &Matrix, right: &Matrix) -> Matrix {
    let mut product = [0; 16];
    for (target, row) in product.chunks_exact_mut(4).zip(left.chunks_exact(4)) {
        target.copy_from_slice(&transform([row[0], row[1], row[2], row[3]], right));
    }
    product
}

/// The scale matrix × current: row k times the k-th number. The other products of the full multiply are 0, and the
/// last row is multiplied by 1.0, which leaves it.
pub fn scale(by: [i32; 3], current: &Matrix) -> Matrix {
    let mut scaled = *current;
    for (row, factor) in scaled.chunks_exact_mut(4).zip(by) {
        for entry in row {
            *entry = rounded(i128::from(*entry) * i128::from(factor));
        }
    }
    scaled
}

/// The translation × current: its first three rows are those of the unit matrix, so that only the bottom row changes.
pub fn translate(by: [i32; 3], current: &Matrix) -> Matrix {
    let mut moved = *current;
    moved[12..].copy_from_slice(&transform([by[0], by[1], by[2], ONE], current));
    moved
}

/// The matrix of the sixteen parameters of 16h and 18h.
pub fn from_4x4(parameters: &[u32]) -> Matrix {
    std::array::from_fn(|k| parameters[k] as i32)
}

/// The matrix of the twelve parameters of 17h and 19h: they fill the first three columns.
pub fn from_4x3(parameters: &[u32]) -> Matrix {
    let mut matrix = UNIT;
    for (row, given) in matrix.chunks_exact_mut(4).zip(parameters.chunks_exact(3)) {
        fill(row, given);
    }
    matrix
}

/// The matrix of the nine parameters of 1Ah: the corner of the unit matrix.
pub fn from_3x3(parameters: &[u32]) -> Matrix {
    let mut matrix = UNIT;
    for (row, given) in matrix.chunks_exact_mut(4).zip(parameters[..9].chunks_exact(3)) {
        fill(row, given);
    }
    matrix
}

/// The first numbers of a row from the parameters given for it.
fn fill(row: &mut [i32], given: &[u32]) {
    for (entry, &parameter) in row.iter_mut().zip(given) {
        *entry = parameter as i32;
    }
}

/// Three parameters as signed numbers.
pub fn triple(parameters: &[u32]) -> [i32; 3] {
    [parameters[0] as i32, parameters[1] as i32, parameters[2] as i32]
}

#[cfg(test)]
mod tests {
    use super::*;

    const EXTREMES: [i32; 8] = [i32::MIN, i32::MAX, -1, 1, 0, 4095, -4097, 0x1234_5678];

    /// Matrices whose entries run through the extremes.
    fn samples() -> impl Iterator<Item = Matrix> {
        (0..8).flat_map(|start| [1, 3, 5, 0].map(|step| std::array::from_fn(|k| EXTREMES[(start + k * step) % 8])))
    }

    /// The product by the exact sum in 128 bits.
    fn exact(left: &Matrix, right: &Matrix) -> Matrix {
        std::array::from_fn(|place| {
            let (i, j) = (place / 4, place % 4);
            let sum: i128 = (0..4).map(|k| i128::from(left[4 * i + k]) * i128::from(right[4 * k + j])).sum();
            sum.div_euclid(4096) as i32
        })
    }

    #[test]
    fn products_are_exact() {
        for left in samples() {
            for right in samples() {
                assert_eq!(multiply(&left, &right), exact(&left, &right));
            }
        }
        assert_eq!(multiply(&[i32::MIN; 16], &[i32::MIN; 16]), [0; 16]);
    }

    #[test]
    fn scale_and_translate_are_multiplies() {
        for current in samples() {
            for [x, y, z] in samples().map(|sample| [sample[0], sample[1], sample[2]]) {
                let scaling = [x, 0, 0, 0, 0, y, 0, 0, 0, 0, z, 0, 0, 0, 0, ONE];
                assert_eq!(scale([x, y, z], &current), exact(&scaling, &current));
                let moving = [ONE, 0, 0, 0, 0, ONE, 0, 0, 0, 0, ONE, 0, x, y, z, ONE];
                assert_eq!(translate([x, y, z], &current), exact(&moving, &current));
            }
        }
    }

    #[test]
    fn parameters_fill_rows() {
        let given: [u32; 16] = std::array::from_fn(|k| k as u32 + 1);
        let matrix = from_4x3(&given);
        assert_eq!(matrix, [1, 2, 3, 0, 4, 5, 6, 0, 7, 8, 9, 0, 10, 11, 12, ONE]);
        assert_eq!(from_3x3(&given), [1, 2, 3, 0, 4, 5, 6, 0, 7, 8, 9, 0, 0, 0, 0, ONE]);
    }
}
