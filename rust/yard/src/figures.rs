//! Numbers for people.

/// A count with its noun.
pub fn counted(count: usize, noun: &str) -> String {
    match count {
        1 => format!("1 {noun}"),
        _ => format!("{count} {noun}s"),
    }
}

/// A number with a comma before every three digits.
pub fn grouped(number: i64) -> String {
    let digits = number.unsigned_abs().to_string();
    let mut text = if number < 0 {
        "−".to_string()
    } else {
        String::new()
    };
    for (index, digit) in digits.chars().enumerate() {
        if index > 0 && (digits.len() - index).is_multiple_of(3) {
            text.push(',');
        }
        text.push(digit);
    }
    text
}

/// Several figures in a sentence, as in `1, 2 and 3`.
pub fn joined(figures: &[String]) -> String {
    match figures {
        [first @ .., last] if !first.is_empty() => format!("{} and {last}", first.join(", ")),
        _ => figures.concat(),
    }
}
