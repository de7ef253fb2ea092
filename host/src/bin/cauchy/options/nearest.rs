//! The known word that is nearest to one that is not known.

/// The nearest of these words, where one is near enough to be meant: at most a third of its letters are other ones, or
/// the word is its beginning.
pub fn of<'a>(word: &str, known: impl Iterator<Item = &'a str>) -> Option<&'a str> {
    let bare = word.trim_start_matches('-');
    let near = |known: &'a str| {
        let name = known.trim_start_matches('-');
        let is_beginning = bare.len() >= 2 && name.starts_with(bare);
        let changes = if is_beginning { 1 } else { changes(bare, name) };
        let most = (name.chars().count() / 3).max(1);
        (is_beginning || changes <= most).then_some((changes, known))
    };
    known.filter_map(near).min_by_key(|(changes, _)| *changes).map(|(_, known)| known)
}

/// How many letters are added, left out, replaced or changed over between two words.
fn changes(a: &str, b: &str) -> usize {
    let (a, b): (Vec<char>, Vec<char>) = (a.chars().collect(), b.chars().collect());
    // the changes between the beginnings of a, two and one letters shorter than now, and each beginning of b
    let mut before: Vec<usize> = Vec::new();
    let mut last: Vec<usize> = (0..=b.len()).collect();
    for i in 1..=a.len() {
        let row = next_row(&a[..i], &b, &before, &last);
        before = std::mem::replace(&mut last, row);
    }
    last[b.len()]
}

/// The changes between a beginning of one word and each beginning of the other, of those of the rows before.
fn next_row(a: &[char], b: &[char], before: &[usize], last: &[usize]) -> Vec<usize> {
    let (i, letter) = (a.len(), a[a.len() - 1]);
    let mut row = vec![i];
    for j in 1..=b.len() {
        let replaced = last[j - 1] + usize::from(letter != b[j - 1]);
        let least = replaced.min(last[j] + 1).min(row[j - 1] + 1);
        let is_swapped = i > 1 && j > 1 && letter == b[j - 2] && a[i - 2] == b[j - 1];
        row.push(if is_swapped { least.min(before[j - 2] + 1) } else { least });
    }
    row
}

#[cfg(test)]
mod tests {
    use super::*;

    #[test]
    fn changes_are_counted() {
        let counted =
            [("", ""), ("raw", ""), ("raw", "row"), ("mass", "mas"), ("layers", "alyers"), ("abc", "cab")];
        assert_eq!(counted.map(|(a, b)| changes(a, b)), [0, 3, 1, 1, 1, 2]);
        assert_eq!(counted.map(|(a, b)| changes(b, a)), [0, 3, 1, 1, 1, 2]);
    }

    #[test]
    fn a_near_word_is_found() {
        let known = ["--raw", "--rho0", "--mass", "--mesh-unit", "--overwrite"];
        let near = |word| of(word, known.into_iter());
        assert_eq!(near("--row"), Some("--raw"));
        assert_eq!(near("-raw"), Some("--raw"));
        assert_eq!(near("--mehs-unit"), Some("--mesh-unit"));
        assert_eq!(near("--over"), Some("--overwrite"));
        assert_eq!(near("--fast"), None);
        assert_eq!(near(""), None);
    }
}
