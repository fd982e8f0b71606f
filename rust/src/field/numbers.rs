//! Numbers as they stand in a sentence.

/// With a comma at each thousand: `-20,000`.
pub fn with_commas(number: i64) -> String {
    let sign = if number < 0 { "-" } else { "" };
    let digits = number.unsigned_abs().to_string();
    let mut text = String::from(sign);
    for (index, digit) in digits.chars().enumerate() {
        if index > 0 && (digits.len() - index) % 3 == 0 {
            text.push(',');
        }
        text.push(digit);
    }
    text
}

/// The number that stands so in a sentence.
pub fn without_commas(text: &str) -> Option<i64> {
    text.replace(',', "").parse().ok()
}

/// `1st`, `2nd`, `3rd`, `4th`, `11th`.
pub fn ordinal(number: usize) -> String {
    let ending = match (number % 100, number % 10) {
        (11..=13, _) => "th",
        (_, 1) => "st",
        (_, 2) => "nd",
        (_, 3) => "rd",
        _ => "th",
    };
    format!("{number}{ending}")
}

#[cfg(test)]
mod tests {
    use super::*;

    #[test]
    fn commas_stand_at_each_thousand() {
        for (number, text) in [
            (0, "0"),
            (-1, "-1"),
            (999, "999"),
            (-999, "-999"),
            (1_000, "1,000"),
            (-20_000, "-20,000"),
            (100_000, "100,000"),
            (4_294_967_295, "4,294,967,295"),
            (i64::MIN, "-9,223,372,036,854,775,808"),
        ] {
            assert_eq!(with_commas(number), text);
            assert_eq!(without_commas(text), Some(number));
        }
    }

    #[test]
    fn ordinals_have_their_endings() {
        for (number, text) in [
            (1, "1st"),
            (2, "2nd"),
            (3, "3rd"),
            (4, "4th"),
            (10, "10th"),
            (11, "11th"),
            (12, "12th"),
            (13, "13th"),
            (16, "16th"),
            (21, "21st"),
            (22, "22nd"),
            (63, "63rd"),
            (64, "64th"),
            (111, "111th"),
        ] {
            assert_eq!(ordinal(number), text);
        }
    }
}
