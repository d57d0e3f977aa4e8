//! Near misses: the name that was meant, by the slips of a hand that types.

/// `; did you mean 'rate'?`, or nothing where no name is near.
pub fn meant<'a>(word: &str, names: impl Iterator<Item = &'a str>) -> String {
    let word = word.to_lowercase();
    let mut near: Vec<(usize, &str)> = names
        // A word may be as long as a file, and the slips of such a one are many.
        .filter(|name| name.len().abs_diff(word.len()) <= name.len())
        .map(|name| (slips(&word, name), name))
        .filter(|(slips, name)| *slips <= forgiven(name))
        .collect();
    near.sort();
    near.dedup();
    let least = near.first().map(|(slips, _)| *slips);
    let nearest = near.iter().filter(|(slips, _)| Some(*slips) == least);
    let nearest: Vec<String> = nearest.map(|(_, name)| format!("'{name}'")).collect();
    match nearest.is_empty() {
        true => String::new(),
        false => format!("; did you mean {}?", nearest.join(" or ")),
    }
}

/// As many slips as a name may have and still be known: a third of it.
fn forgiven(name: &str) -> usize {
    name.trim_start_matches('-').len() / 3
}

/// How many slips lead from one word to another: a letter too many, one too few,
/// another one, or two exchanged.
fn slips(one: &str, other: &str) -> usize {
    let (one, other): (Vec<char>, Vec<char>) = (one.chars().collect(), other.chars().collect());
    // A row for each beginning of the one word, a place for each of the other.
    let mut rows = vec![(0..=other.len()).collect::<Vec<usize>>()];
    for i in 1..=one.len() {
        let mut row = vec![i];
        for j in 1..=other.len() {
            let changed = rows[i - 1][j - 1] + usize::from(one[i - 1] != other[j - 1]);
            let mut least = changed.min(rows[i - 1][j] + 1).min(row[j - 1] + 1);
            let exchanged =
                i > 1 && j > 1 && one[i - 1] == other[j - 2] && one[i - 2] == other[j - 1];
            if exchanged {
                least = least.min(rows[i - 2][j - 2] + 1);
            }
            row.push(least);
        }
        rows.push(row);
    }
    rows[one.len()][other.len()]
}

#[cfg(test)]
mod tests {
    use super::{meant, slips};

    #[test]
    fn slips_are_counted() {
        for (one, other, count) in [
            ("", "", 0),
            ("", "abc", 3),
            ("rate", "rate", 0),
            ("raet", "rate", 1),
            ("rte", "rate", 1),
            ("ratte", "rate", 1),
            ("rake", "rate", 1),
            ("rank", "rate", 2),
            ("archvie", "archive", 1),
            ("ca", "abc", 3),
        ] {
            assert_eq!(slips(one, other), count, "{one} {other}");
            assert_eq!(slips(other, one), count, "{other} {one}");
        }
    }

    #[test]
    fn the_nearest_are_named() {
        let names = || ["read", "rate", "best", "archive", "--quiet", "-h"].into_iter();
        assert_eq!(meant("raet", names()), "; did you mean 'rate'?");
        assert_eq!(meant("RATE", names()), "; did you mean 'rate'?");
        assert_eq!(meant("reae", names()), "; did you mean 'read'?");
        assert_eq!(meant("reat", names()), "; did you mean 'read'?");
        assert_eq!(meant("rae", names()), "; did you mean 'rate'?");
        assert_eq!(meant("reate", names()), "; did you mean 'rate'?");
        assert_eq!(meant("raed", names()), "; did you mean 'read'?");
        assert_eq!(meant("arhciv", names()), "; did you mean 'archive'?");
        assert_eq!(meant("--quite", names()), "; did you mean '--quiet'?");
        assert_eq!(meant("timetable", names()), "");
        assert_eq!(meant("", names()), "");
        assert_eq!(meant("-x", names()), "");
        assert_eq!(meant(&"rate".repeat(30_000), names()), "");
        let twins = ["aab", "aac"].into_iter();
        assert_eq!(meant("aad", twins), "; did you mean 'aab' or 'aac'?");
    }
}
