//! The name that was meant by a mistyped one.

/// So many letters at most are wrong.
const MOST: usize = 2;

/// What a message on a mistyped name ends with: the nearest name, if one is near.
pub fn hint<'a>(word: &str, names: impl Iterator<Item = &'a str>) -> String {
    match nearest(word, names) {
        Some(name) => format!("; did you mean {name}?"),
        None => String::new(),
    }
}

/// The name with the fewest wrong letters, or one that begins with the word. Where no letter is
/// right, none is near.
fn nearest<'a>(word: &str, names: impl Iterator<Item = &'a str>) -> Option<&'a str> {
    let word = word.to_lowercase();
    let letters = word.trim_start_matches('-').chars().count();
    let most = MOST.min(letters.checked_sub(1)?);
    let far = |name: &str| match name.starts_with(&word) {
        true => 0,
        false => distance(&word, name),
    };
    let names = names.map(|name| (far(name), name));
    let nearest = names.min_by_key(|(far, _)| *far);
    nearest
        .filter(|(far, _)| *far <= most)
        .map(|(_, name)| name)
}

/// How many letters must be put in, taken out or changed.
fn distance(from: &str, to: &str) -> usize {
    let to: Vec<char> = to.chars().collect();
    let mut row: Vec<usize> = (0..=to.len()).collect();
    for letter in from.chars() {
        row = next_row(letter, &to, &row);
    }
    row[to.len()]
}

/// The distances to each head of the other word once a letter more is looked at, from those without
/// it.
fn next_row(letter: char, to: &[char], above: &[usize]) -> Vec<usize> {
    let mut row = vec![above[0] + 1];
    for (j, other) in to.iter().enumerate() {
        let changed = above[j] + usize::from(letter != *other);
        row.push(changed.min(above[j + 1] + 1).min(row[j] + 1));
    }
    row
}
