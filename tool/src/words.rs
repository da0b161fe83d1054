//! Numbers, lists and letters in words.

/// A number with its thousands parted: 65,536.
pub fn grouped(number: impl TryInto<u128>) -> String {
    let digits = number.try_into().unwrap_or(u128::MAX).to_string();
    let mut out = String::new();
    for (i, digit) in digits.chars().enumerate() {
        if i > 0 && (digits.len() - i) % 3 == 0 {
            out.push(',');
        }
        out.push(digit);
    }
    out
}

/// A count with its noun: `1 end`, `3 ends`.
pub fn count(number: usize, noun: &str) -> String {
    format!("{} {noun}{}", grouped(number), if number == 1 { "" } else { "s" })
}

/// The same, with `no` for none.
pub fn count_or_no(number: usize, noun: &str) -> String {
    if number == 0 {
        return format!("no {noun}");
    }
    count(number, noun)
}

/// The names of those fluents that hold in a state.
pub fn holding(fluents: &[String], state: u64) -> Vec<&str> {
    fluents.iter().enumerate().filter(|(k, _)| state >> k & 1 == 1).map(|(_, name)| name.as_str()).collect()
}

/// The same in words.
pub fn holding_words(fluents: &[String], state: u64) -> String {
    match holding(fluents, state)[..] {
        [] => "nothing holds".into(),
        ref names => names.join(", "),
    }
}

/// The noun with `a` or `an`.
pub fn article(noun: &str) -> String {
    format!("{} {noun}", if noun.starts_with(['a', 'e', 'i', 'o', 'u']) { "an" } else { "a" })
}

/// The letter of the `i`-th choice: A to Z, then AA.
pub fn letters(i: usize) -> String {
    let last = char::from(b'A' + (i % 26) as u8);
    if i < 26 {
        return last.to_string();
    }
    letters(i / 26 - 1) + &last.to_string()
}

/// Names parted by commas, in lines of at most `width` characters under one another after a lead.
pub fn wrapped(names: &[&str], lead: &str, width: usize) -> String {
    let pad = " ".repeat(lead.chars().count());
    let (mut out, mut line) = (String::new(), lead.to_string());
    for (i, name) in names.iter().enumerate() {
        let comma = if i + 1 < names.len() { "," } else { "" };
        if line.chars().count() + name.len() + comma.len() + 1 > width && line.trim() != lead.trim() {
            out += line.trim_end();
            out.push('\n');
            line.clone_from(&pad);
        }
        line += &format!("{name}{comma} ");
    }
    out + line.trim_end() + "\n"
}

#[cfg(test)]
mod tests {
    use super::*;

    #[test]
    fn numbers() {
        assert_eq!([0_usize, 999, 1000, 65_536].map(grouped), ["0", "999", "1,000", "65,536"]);
        assert_eq!(grouped(u64::MAX), "18,446,744,073,709,551,615");
        assert_eq!(
            (count(1, "end"), count(2000, "end"), count_or_no(0, "end")),
            ("1 end".into(), "2,000 ends".into(), "no end".into())
        );
    }

    #[test]
    fn letters_go_on_after_z() {
        assert_eq!([0, 25, 26, 27, 52].map(letters), ["A", "Z", "AA", "AB", "BA"]);
    }

    #[test]
    fn lists_are_wrapped() {
        assert_eq!(wrapped(&["one", "two", "three"], "in: ", 12), "in: one,\n    two,\n    three\n");
        assert_eq!(wrapped(&["one"], "in: ", 80), "in: one\n");
    }
}
