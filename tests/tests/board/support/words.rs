//! The stored row words and gathered words beside the comparison program's tables.

use comparison::fast::Fast;
use comparison::library::Board;

/// Every stored row word and gathered word.
pub fn compare_words(board: &Board, fast: &Fast, name: &str) {
    let n = board.n();
    let gathered = fast.gathered(n);
    for (i, &word) in gathered.iter().enumerate() {
        assert_eq!(board.rows()[i], fast.row(i), "{name}, row {i} after {n}");
        assert_eq!(board.gathered()[i], word, "{name}, word {i} after {n}");
    }
}
