//! A line of a call that is too long for a screen. That of a step is never folded: a step has one line.

/// The columns of a line, so that it stands indented in a document 120 wide.
const WIDTH: usize = 116;

/// A line with its start and an answer. Where it is too long, the parentheses that end the answer stand below it, from its
/// first column on. The answer itself is not broken: it can be copied.
pub fn folded(start: &str, answer: &str) -> String {
    let column = start.chars().count();
    let fits = column + answer.chars().count() <= WIDTH;
    let Some((answer, explanation)) = parted(answer).filter(|_| !fits) else {
        return format!("{start}{answer}");
    };
    let mut text = format!("{start}{answer}");
    let mut room = 0;
    for word in explanation.split(' ') {
        let length = word.chars().count();
        if length < room {
            text.push(' ');
            room -= length + 1;
        } else {
            text.push('\n');
            text.push_str(&" ".repeat(column));
            room = WIDTH.saturating_sub(column + length);
        }
        text.push_str(word);
    }
    text
}

/// An answer, and the parentheses that end it.
fn parted(answer: &str) -> Option<(&str, &str)> {
    let mut open = 0;
    for (index, letter) in answer.char_indices().rev() {
        match letter {
            ')' => open += 1,
            '(' => open -= 1,
            _ => {}
        }
        if open == 0 {
            let (answer, explanation) = answer.split_at(index);
            return (letter == '(').then_some((answer.strip_suffix(' ')?, explanation));
        }
    }
    None
}

#[cfg(test)]
mod tests {
    use super::*;

    #[test]
    fn what_fits_stays() {
        let answer = format!("none ({})", "a".repeat(WIDTH - 10));
        assert_eq!(folded("0  ", &answer), format!("0  {answer}"));
        assert_eq!(folded("0  ", "returned"), "0  returned");
    }

    #[test]
    fn parentheses_stand_below() {
        let (start, rest) = ("0  ", "b".repeat(WIDTH - 4));
        let folds = [
            (format!("none (a) ({rest})"), format!("0  none (a)\n   ({rest})")),
            (format!("none (a (b) {rest})"), format!("0  none\n   (a (b)\n   {rest})")),
            (format!("none (a {rest} c)"), format!("0  none\n   (a\n   {rest}\n   c)")),
        ];
        for (answer, lines) in folds {
            assert_eq!(folded(start, &answer), lines);
        }
    }

    /// The columns in figures, counted in letters; a line is full to the last.
    #[test]
    fn a_line_has_116_columns() {
        let most = format!("é {} (a)", "b".repeat(107));
        assert_eq!(folded("é  ", &most), format!("é  {most}"));
        let more = format!("é {} (a)", "b".repeat(108));
        assert_eq!(folded("é  ", &more), format!("é  é {}\n   (a)", "b".repeat(108)));
        let full = format!("none ({} é{} c)", "a".repeat(100), "b".repeat(10));
        let lines = format!("   ({} é{}\n   c)", "a".repeat(100), "b".repeat(10));
        assert_eq!(lines.lines().next().map(|line| line.chars().count()), Some(116));
        assert_eq!(folded("0  ", &full), format!("0  none\n{lines}"));
        let full = format!("none ({} é{} c)", "a".repeat(100), "b".repeat(11));
        let lines = format!("   ({}\n   é{} c)", "a".repeat(100), "b".repeat(11));
        assert_eq!(folded("0  ", &full), format!("0  none\n{lines}"));
    }

    #[test]
    fn an_answer_is_not_broken() {
        let long = "long ".repeat(WIDTH);
        for answer in [format!("{long}(a) b"), format!("({long})"), format!("a) {long})"), long] {
            assert_eq!(folded("0  ", &answer), format!("0  {answer}"));
        }
    }

    #[test]
    fn lines_are_full() {
        let words = format!("none ({})", "word ".repeat(60).trim_end());
        for column in [0, 1, 30, 100] {
            let lines = folded(&" ".repeat(column), &words);
            let mut lengths: Vec<_> =
                lines.lines().skip(1).map(|line| line.chars().count()).collect();
            assert_eq!(lines.split_whitespace().count(), 61, "{lines}");
            lengths.pop();
            assert!(lengths.iter().all(|length| (WIDTH - 4..=WIDTH).contains(length)), "{lines}");
        }
    }
}
