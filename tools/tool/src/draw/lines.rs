//! Words in lines.

/// Words in lines of at most so many letters, broken at spaces where there are any; so many lines, the last cut.
pub fn wrapped(words: &str, letters: usize, most: usize) -> Vec<String> {
    let letters = letters.max(4);
    let mut lines = Vec::new();
    let mut rest: Vec<char> = words.chars().collect();
    while !rest.is_empty() {
        if rest.len() <= letters {
            lines.push(rest.drain(..).collect());
            break;
        }
        if lines.len() + 1 == most {
            lines.push(rest.iter().take(letters - 2).collect::<String>() + "..");
            break;
        }
        let space = rest.iter().take(letters + 1).rposition(|letter| *letter == ' ').filter(|&at| at > 0);
        let line: String = rest.drain(..space.unwrap_or(letters)).collect();
        lines.push(line);
        if space.is_some() {
            rest.remove(0);
        }
    }
    lines
}
