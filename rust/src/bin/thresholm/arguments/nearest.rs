//! The word that a misspelt one may stand for.

/// The word that a misspelt one is nearest to: at most two letters are wrong, missing or too many, or two neighbours exchanged, and fewer than it has.
pub fn nearest<'w>(word: &str, known: impl IntoIterator<Item = &'w str>) -> Option<&'w str> {
    let near = known.into_iter().map(|known| (changes(word, known), known)).min()?;
    (near.0 <= 2 && near.0 < word.chars().count()).then_some(near.1)
}

/// How many letters lead from one word to another, each changed, left out, added, or exchanged with its neighbour.
fn changes(one: &str, other: &str) -> usize {
    let [one, other] = [one, other].map(|word| word.chars().take(20).collect::<Vec<_>>());
    let mut rows = vec![vec![0; other.len() + 1]; one.len() + 1];
    for i in 0..=one.len() {
        for j in 0..=other.len() {
            rows[i][j] = if i == 0 || j == 0 {
                i + j
            } else {
                let changed = rows[i - 1][j - 1] + usize::from(one[i - 1] != other[j - 1]);
                let exchanged = i > 1 && j > 1 && one[i - 1] == other[j - 2] && one[i - 2] == other[j - 1];
                let least = changed.min(rows[i - 1][j] + 1).min(rows[i][j - 1] + 1);
                if exchanged { least.min(rows[i - 2][j - 2] + 1) } else { least }
            };
        }
    }
    rows[one.len()][other.len()]
}

#[cfg(test)]
mod tests {
    use super::*;

    #[test]
    fn a_misspelt_word_has_its_nearest() {
        let known = ["import", "show", "check", "product", "replay", "drift", "diff", "help"];
        for (word, name) in
            [("chekc", "check"), ("prodct", "product"), ("dif", "diff"), ("Show", "show"), ("hlep", "help")]
        {
            assert_eq!(nearest(word, known), Some(name));
        }
        for word in ["", "x", "multiply", "room.rig", "shrug"] {
            assert_eq!(nearest(word, known), None, "{word}");
        }
        assert_eq!(nearest("show", []), None);
    }
}
