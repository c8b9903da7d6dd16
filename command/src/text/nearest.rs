//! The name that was probably meant.

/// The longest name that others are compared with.
const LONGEST: usize = 64;

/// The nearest of the candidates to a name: by insertions, deletions, replacements and swaps of
/// neighbours, at most 2 and at most a third of the name's length, but one in a name of two to five
/// characters. The first of several; none to a name of more than 64 characters.
pub fn nearest<'a>(name: &str, candidates: impl Iterator<Item = &'a str>) -> Option<&'a str> {
    let name: Vec<char> = name.chars().take(LONGEST + 1).collect();
    if name.len() > LONGEST {
        return None;
    }
    let most = (name.len() / 3)
        .clamp(1, 2)
        .min(name.len().saturating_sub(1));
    candidates
        .filter_map(|candidate| Some((distance(&name, candidate, most)?, candidate)))
        .min_by_key(|&(distance, _)| distance)
        .map(|(_, candidate)| candidate)
}

/// The edit distance with swaps of neighbours (optimal string alignment), if it is at most `most`.
fn distance(left: &[char], right: &str, most: usize) -> Option<usize> {
    let right: Vec<char> = right.chars().collect();
    if left.len().abs_diff(right.len()) > most {
        return None;
    }
    // Rows of distances from the first i, i - 1 and i - 2 characters of `left`.
    let mut row: Vec<usize> = (0..=right.len()).collect();
    let (mut last, mut before) = (row.clone(), row.clone());
    for i in 1..=left.len() {
        (before, last, row) = (last, row, before);
        row[0] = i;
        for j in 1..=right.len() {
            let replaced = last[j - 1] + usize::from(left[i - 1] != right[j - 1]);
            row[j] = replaced.min(last[j] + 1).min(row[j - 1] + 1);
            if i > 1 && j > 1 && left[i - 1] == right[j - 2] && left[i - 2] == right[j - 1] {
                row[j] = row[j].min(before[j - 2] + 1);
            }
        }
    }
    Some(row[right.len()]).filter(|&distance| distance <= most)
}

#[cfg(test)]
mod tests {
    use super::*;

    #[test]
    fn distances() {
        let distance = |left: &str, right: &str| {
            distance(&left.chars().collect::<Vec<_>>(), right, usize::MAX).unwrap()
        };
        for (left, right, steps) in [
            ("", "", 0),
            ("", "tap", 3),
            ("tap", "tap", 0),
            ("tapp", "tap", 1),
            ("tpa", "tap", 1),
            ("ca", "abc", 3),
            ("süd", "sud", 1),
            ("pillar", "pilalr", 1),
            ("kitten", "sitting", 3),
        ] {
            assert_eq!(distance(left, right), steps, "{left} {right}");
            assert_eq!(distance(right, left), steps, "{right} {left}");
        }
    }

    #[test]
    fn the_nearest_within_a_third() {
        let names = ["tap", "top", "water", "electricity", "x"];
        let nearest = |name| nearest(name, names.into_iter());
        assert_eq!(nearest("tapp"), Some("tap"));
        assert_eq!(nearest("tip"), Some("tap"));
        assert_eq!(nearest("wter"), Some("water"));
        assert_eq!(nearest("wtr"), None);
        assert_eq!(nearest("elektrizity"), Some("electricity"));
        assert_eq!(nearest("elektrizitt"), None);
        assert_eq!(nearest("y"), None);
        assert_eq!(nearest(""), None);
    }
}
