//! The name that was probably meant.

/// The known name nearest to a word, if it is near: at most one fault in three characters. The first of equals.
pub fn near<'a>(word: &str, known: impl IntoIterator<Item = &'a str>) -> Option<&'a str> {
    let most = |name: &str| word.chars().count().max(name.chars().count()).div_ceil(3);
    let with_distance = known.into_iter().map(|name| (distance(word, name), name));
    with_distance.filter(|&(d, name)| d > 0 && d <= most(name)).min_by_key(|&(d, _)| d).map(|(_, name)| name)
}

/// How many characters are put in, left out, exchanged, or stand in the wrong order of two neighbours.
fn distance(one: &str, other: &str) -> usize {
    let (one, other): (Vec<char>, Vec<char>) = (one.chars().collect(), other.chars().collect());
    let mut rows: Vec<Vec<usize>> = vec![(0..=other.len()).collect()];
    for i in 1..=one.len() {
        let mut row = vec![i];
        for j in 1..=other.len() {
            let changed = usize::from(one[i - 1] != other[j - 1]);
            let mut least = (rows[i - 1][j] + 1).min(row[j - 1] + 1).min(rows[i - 1][j - 1] + changed);
            if i > 1 && j > 1 && one[i - 1] == other[j - 2] && one[i - 2] == other[j - 1] {
                least = least.min(rows[i - 2][j - 2] + 1);
            }
            row.push(least);
        }
        rows.push(row);
    }
    rows[one.len()][other.len()]
}

#[cfg(test)]
mod tests {
    use super::near;

    #[test]
    fn near_names() {
        let names = ["pilot_valve", "pilot_flame", "main_flame", "open"];
        assert_eq!(near("pilot_flme", names), Some("pilot_flame"));
        assert_eq!(near("opne", names), Some("open"));
        assert_eq!(near("scanner", names), None);
        assert_eq!(near("open", names), None);
    }
}
