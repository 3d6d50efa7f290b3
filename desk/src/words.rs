//! Small helpers for text that people read.

/// Lines of text are broken here.
const WIDTH: usize = 110;

/// How the program was called, where a message names one of its commands; ./run sets it.
pub fn called() -> String {
    let set = std::env::var("DESK_COMMAND").ok();
    let set = set.filter(|words| !words.is_empty() && !words.contains(char::is_control));
    set.unwrap_or_else(|| "desk".to_string())
}

/// So many of something.
pub fn plural(count: usize, one: &str) -> String {
    let many = match one {
        "category" => "categories".to_string(),
        "class" => "classes".to_string(),
        _ => format!("{one}s"),
    };
    match count {
        1 => format!("1 {one}"),
        _ => format!("{count} {many}"),
    }
}

/// Words in a row: `a, b and c`.
pub fn listed(words: impl Iterator<Item = String>) -> String {
    let words: Vec<String> = words.collect();
    match words.split_last() {
        None => String::new(),
        Some((last, [])) => last.clone(),
        Some((last, before)) => format!("{} and {last}", before.join(", ")),
    }
}

/// Numbers in ascending order, three or more in a row as such: `3, 5, 7 to 16`.
pub fn ranges(numbers: &[i64]) -> String {
    let in_a_row = |one: &i64, next: &i64| *next == *one + 1;
    let words = numbers.chunk_by(in_a_row).map(|row| match row {
        [first, _, .., last] => format!("{first} to {last}"),
        _ => row
            .iter()
            .map(i64::to_string)
            .collect::<Vec<_>>()
            .join(", "),
    });
    words.collect::<Vec<String>>().join(", ")
}

/// A text behind a heading, broken between words; further lines stand under its first word.
pub fn under(heading: &str, text: &str) -> String {
    let margin = heading.chars().count();
    let mut lines = heading.to_string();
    let mut column = margin;
    for (index, word) in text.split(' ').enumerate() {
        let length = word.chars().count();
        if index > 0 && column + 1 + length > WIDTH {
            lines += &format!("\n{}", " ".repeat(margin));
            column = margin;
        } else if index > 0 {
            lines.push(' ');
            column += 1;
        }
        lines += word;
        column += length;
    }
    lines.push('\n');
    lines
}

#[cfg(test)]
mod tests {
    use super::*;

    #[test]
    fn counts_are_in_words() {
        let counts = [plural(1, "class"), plural(2, "class"), plural(0, "cell")];
        assert_eq!(counts, ["1 class", "2 classes", "0 cells"]);
    }

    #[test]
    fn words_in_a_row() {
        let row = |words: &[&str]| listed(words.iter().map(|word| word.to_string()));
        assert_eq!(
            [row(&[]), row(&["a"]), row(&["a", "b", "c"])],
            ["", "a", "a, b and c"]
        );
    }

    #[test]
    fn numbers_in_a_row() {
        let told = [&[][..], &[4], &[4, 5], &[3, 5, 7, 8, 9, 16], &[0, 1, 2]].map(ranges);
        assert_eq!(told, ["", "4", "4, 5", "3, 5, 7 to 9, 16", "0 to 2"]);
    }

    #[test]
    fn long_text_is_broken_between_words() {
        let text = "word ".repeat(50);
        let broken = under("head: ", text.trim_end());
        assert!(broken.lines().count() > 2);
        assert!(broken.lines().all(|line| line.len() <= WIDTH));
        assert!(broken
            .lines()
            .skip(1)
            .all(|line| line.starts_with("      word")));
        assert_eq!(broken.matches("word").count(), 50);
    }
}
