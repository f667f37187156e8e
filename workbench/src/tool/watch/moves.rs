//! Lists of moves as they are written: `0,0,1+0,2`.

use crate::checker::Move;

/// A list of moves.
pub fn moves_text(moves: impl Iterator<Item = Move>) -> String {
    moves
        .map(|made| made.to_string())
        .collect::<Vec<_>>()
        .join(",")
}

/// The moves of a list, or what is wrong with it. No moves are an empty list.
pub fn read_moves(text: &str) -> Result<Vec<Move>, String> {
    if text.trim().is_empty() {
        return Ok(vec![]);
    }
    text.split(',').map(|word| word.trim().parse()).collect()
}

#[cfg(test)]
mod tests {
    use super::*;

    #[test]
    fn lists_are_read_as_they_are_written() {
        for text in ["", "0", "0,0,1+0,2", "63+12,7"] {
            assert_eq!(moves_text(read_moves(text).unwrap().into_iter()), text);
        }
        for text in [",", "0,", "1+", "+1", "1+2+3", "a", "-1", "0 1", "1++2"] {
            assert!(read_moves(text).is_err(), "{text}");
        }
    }
}
