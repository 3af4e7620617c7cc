//! The boxes of a cipher: S on columns by table, L on rows by matrix.

use crate::state::{bit, column, from_columns, State};
use crate::tables::{Matrix, Sbox, A_3_1, B_2_1, ISCREAM_S, SCREAM_S, SCREAM_S_INVERSE};

/// S, L and their inverses.
pub struct Boxes {
    pub s: &'static Sbox,
    pub s_inverse: &'static Sbox,
    pub l: Matrix,
    pub l_inverse: Matrix,
}

/// Scream's boxes. Row i of A.3.1 is column i of L, and the inverse of L is its transpose.
pub fn scream() -> Boxes {
    Boxes {
        s: &SCREAM_S,
        s_inverse: &SCREAM_S_INVERSE,
        l: transpose(&A_3_1),
        l_inverse: A_3_1,
    }
}

/// iScream's boxes, each its own inverse.
pub fn iscream() -> Boxes {
    Boxes {
        s: &ISCREAM_S,
        s_inverse: &ISCREAM_S,
        l: B_2_1,
        l_inverse: B_2_1,
    }
}

/// The matrix with rows and columns changed.
pub fn transpose(matrix: &Matrix) -> Matrix {
    std::array::from_fn(|i| std::array::from_fn(|j| matrix[j][i]))
}

/// The matrix times a word: bit i of the product is the sum of row i's entries at the word's bits.
pub fn times(matrix: &Matrix, word: u16) -> u16 {
    let mut product = 0;
    for (i, row) in matrix.iter().enumerate() {
        let mut sum = 0;
        for (j, entry) in row.iter().enumerate() {
            sum ^= u16::from(*entry) & bit(word, j);
        }
        product += sum << i;
    }
    product
}

/// The S-box on each column.
pub fn s_layer(s: &Sbox, state: &State) -> State {
    from_columns(&std::array::from_fn(|j| s[usize::from(column(state, j))]))
}

/// The L-box on each row.
pub fn l_layer(l: &Matrix, state: &State) -> State {
    state.map(|row| times(l, row))
}

#[cfg(test)]
mod tests {
    use super::*;
    use crate::printed::{
        algorithm_3, algorithm_4, algorithm_5, ByteTables, A_4_1, ISCREAM_L, SCREAM_L,
        SCREAM_L_INVERSE,
    };

    /// L(b0 || b1) by the byte tables; b0 is the high byte.
    fn by_tables(t: &ByteTables, word: u16) -> u16 {
        let (b0, b1) = (usize::from(word >> 8), usize::from(word & 0xFF));
        u16::from(t.l11[b1] ^ t.l21[b0]) << 8 | u16::from(t.l12[b1] ^ t.l22[b0])
    }

    fn assert_same(matrix: &Matrix, tables: &ByteTables) {
        for word in 0..=u16::MAX {
            assert_eq!(times(matrix, word), by_tables(tables, word), "{word:04X}");
        }
    }

    #[test]
    fn matrices_give_the_printed_byte_tables() {
        assert_same(&scream().l, &SCREAM_L);
        assert_same(&scream().l_inverse, &SCREAM_L_INVERSE);
        assert_same(&iscream().l, &ISCREAM_L);
    }

    #[test]
    fn column_i_is_the_tables_value_at_bit_i() {
        for (matrix, tables) in [
            (scream().l, &SCREAM_L),
            (scream().l_inverse, &SCREAM_L_INVERSE),
            (iscream().l, &ISCREAM_L),
        ] {
            for (j, row) in matrix.iter().enumerate() {
                for (i, entry) in row.iter().enumerate() {
                    let value = by_tables(tables, 1 << i);
                    assert_eq!(u16::from(*entry), bit(value, j), "row {j}, column {i}");
                }
            }
        }
    }

    #[test]
    fn a_4_1_as_printed_differs_in_row_4_alone() {
        let by_tables = transpose(&scream().l_inverse);
        for i in 0..16 {
            assert_eq!(A_4_1[i] == by_tables[i], i != 4, "row {i}");
        }
    }

    #[test]
    fn inverses_undo_their_l_boxes() {
        for boxes in [scream(), iscream()] {
            for word in 0..=u16::MAX {
                assert_eq!(times(&boxes.l_inverse, times(&boxes.l, word)), word);
            }
        }
        assert_eq!(transpose(&B_2_1), B_2_1);
    }

    #[test]
    fn inverses_undo_their_s_boxes() {
        for boxes in [scream(), iscream()] {
            for x in 0..=255u8 {
                assert_eq!(boxes.s_inverse[usize::from(boxes.s[usize::from(x)])], x);
                assert_eq!(boxes.s[usize::from(boxes.s_inverse[usize::from(x)])], x);
            }
        }
    }

    /// Sixteen states, in whose columns each byte stands once.
    #[test]
    fn bit_equations_give_the_printed_s_boxes() {
        let boxes: [(&Sbox, fn(&mut State)); 3] = [
            (scream().s, algorithm_3),
            (scream().s_inverse, algorithm_4),
            (iscream().s, algorithm_5),
        ];
        for (s, equations) in boxes {
            for i in 0..16 {
                let state = from_columns(&std::array::from_fn(|j| (16 * i + j) as u8));
                let mut rows = state;
                equations(&mut rows);
                assert_eq!(rows, s_layer(s, &state), "columns from {:02X}", 16 * i);
            }
        }
    }

    #[test]
    fn layers_have_inverses() {
        let state = [0x8001, 0x1234, 0xFFFF, 0, 0x00FF, 0xA5A5, 0x0F0F, 0x7E81];
        for boxes in [scream(), iscream()] {
            assert_eq!(s_layer(boxes.s_inverse, &s_layer(boxes.s, &state)), state);
            assert_eq!(l_layer(&boxes.l_inverse, &l_layer(&boxes.l, &state)), state);
        }
    }

    #[test]
    fn known_values_of_scream_s() {
        assert_eq!(scream().s[0x00], 0x1E);
        assert_eq!(scream().s[0x1E], 0x00);
    }

    #[test]
    fn known_values_of_iscream_s() {
        assert_eq!(iscream().s[0x01], 0x85);
        assert_eq!(iscream().s[0x02], 0x65);
        assert_eq!(iscream().s[0x85], 0x01);
    }

    #[test]
    fn known_values_of_iscream_l() {
        assert_eq!(times(&iscream().l, 0x0001), 0xFFFE);
        assert_eq!(times(&iscream().l, 0x0002), 0xCCC1);
    }
}
