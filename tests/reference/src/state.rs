//! A block as the state: 8 rows of 16 bits.

/// 16 bytes.
pub type Block = [u8; 16];

/// The rows, from row 0; bit j of a row stands in column j.
pub type State = [u16; 8];

/// The state of a block: row i has byte 2i as its low half and byte 2i+1 as its high half.
pub fn rows(block: &Block) -> State {
    let mut state = [0; 8];
    for i in 0..8 {
        state[i] = u16::from(block[2 * i]) + 256 * u16::from(block[2 * i + 1]);
    }
    state
}

/// The block of a state.
pub fn block(state: &State) -> Block {
    let mut block = [0; 16];
    for i in 0..8 {
        block[2 * i] = (state[i] % 256) as u8;
        block[2 * i + 1] = (state[i] / 256) as u8;
    }
    block
}

/// Bit j of a word, 0 or 1.
pub fn bit(word: u16, j: usize) -> u16 {
    word >> j & 1
}

/// Column j: the bits j of all rows, that of row 0 lowest.
pub fn column(state: &State, j: usize) -> u8 {
    let mut column = 0;
    for (i, row) in state.iter().enumerate() {
        column += (bit(*row, j) as u8) << i;
    }
    column
}

/// The state whose column j is `columns[j]`.
pub fn from_columns(columns: &[u8; 16]) -> State {
    let mut state = [0; 8];
    for (i, row) in state.iter_mut().enumerate() {
        for (j, column) in columns.iter().enumerate() {
            *row += u16::from(column >> i & 1) << j;
        }
    }
    state
}

/// The sum of two states, by xor.
pub fn xor(a: &State, b: &State) -> State {
    std::array::from_fn(|i| a[i] ^ b[i])
}

#[cfg(test)]
mod tests {
    use super::*;

    #[test]
    fn a_block_is_the_block_of_its_rows() {
        let bytes: Block = std::array::from_fn(|i| (17 * i + 3) as u8);
        assert_eq!(rows(&bytes)[0], 0x1403);
        assert_eq!(rows(&bytes)[7], 0x02F1);
        assert_eq!(block(&rows(&bytes)), bytes);
    }

    #[test]
    fn columns_take_row_0_lowest() {
        let mut state = [0; 8];
        state[0] = 1 << 5;
        state[3] = 1 << 5;
        assert_eq!(column(&state, 5), 0b1001);
        assert_eq!(column(&state, 4), 0);
    }

    #[test]
    fn a_state_is_made_of_its_columns() {
        let state = [0x8001, 0x1234, 0xFFFF, 0, 0x00FF, 0xA5A5, 0x0F0F, 0x7E81];
        let columns = std::array::from_fn(|j| column(&state, j));
        assert_eq!(from_columns(&columns), state);
    }
}
