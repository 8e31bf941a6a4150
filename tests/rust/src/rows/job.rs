//! Rows of job1.rows, job4.rows and those behind it in the words of base.rows, with Q behind X or M, and of a command
//! whether it waits; and those of base.rows with Q.

use super::long;

/// The same row without what jobs up to 8 do not know: the channel, which is 0, a second lent buffer and the messages
/// in it. The number of a step stays behind its other words. The count of a listing is decimal there, and hexadecimal
/// in base.rows.
pub fn in_base_words(words: &[&str]) -> String {
    let plain: Vec<&str> = match words {
        ["login", "0", rest @ .., _, _, "=", outcome, number, written, "-"] => {
            let number: &[&str] = if *outcome == "accepted" { &[] } else { &[number] };
            [&["login"], rest, &["=", outcome], number, &[written]].concat()
        }
        ["cut", rest @ .., "-"] => [&["cut"], rest].concat(),
        ["cut", ..] => words.to_vec(),
        ["list", "0", records, "=", "ok", count, rest @ ..] => {
            let count: u32 = count.parse().expect("a decimal number");
            return [&["list", records, "=", "ok", &format!("{count:x}")], rest].concat().join(" ");
        }
        [name, "0", rest @ ..] => [&[*name], rest].concat(),
        _ => panic!("not a row: {words:?}"),
    };
    plain.join(" ")
}

/// A row of base.rows with Q, which is 0, where job6.rows has it: in login and in the cut.
pub fn with_no_boundary<'a>(words: &[&'a str]) -> Vec<&'a str> {
    match words {
        ["login", n, m, x, rest @ ..] => [&["login", n, m, x, "0"], rest].concat(),
        ["cut", list, m, rest @ ..] => [&["cut", list, m, "0"], rest].concat(),
        _ => words.to_vec(),
    }
}

/// Q of a row of a job's file, 0 where its call is given none.
pub fn boundary(words: &[&str]) -> u64 {
    match words {
        ["login", _, _, _, _, q, ..] | ["cut", _, _, q, ..] => long(q),
        _ => 0,
    }
}

/// Whether a row of a job's file has a number that is wider than the 32 bits which its call in C has for it.
pub fn is_wide(words: &[&str]) -> bool {
    let numbers = match words {
        ["login", _, n, m, x, _, indirect, solicited, ..] => vec![*n, *m, *x, *indirect, *solicited],
        ["plan", _, _, r_out, r_in, ..] => vec![*r_out, *r_in],
        ["move", _, _, _, offset, count, ..] => vec![*offset, *count],
        ["add" | "withdraw", _, k, ..] => vec![*k],
        ["close", _, reason, ..] => vec![*reason],
        ["finish", _, _, status, ..] => vec![*status],
        ["cut", _, m, _, r, handed, ..] => vec![*m, *r, *handed],
        _ => vec![],
    };
    numbers.into_iter().any(|number| long(number) > u32::MAX.into())
}

#[cfg(test)]
mod tests {
    use super::super::{lines, JOB_1, JOB_4, JOB_5, JOB_6, JOB_7, JOB_8};
    use super::*;

    /// The rows that are put to C with ffffffff for such a number, and those of login and of the cut with a boundary.
    #[test]
    fn wide_numbers_and_boundaries() {
        let counts = [(JOB_1, 89, 0), (JOB_4, 113, 0), (JOB_5, 97, 0), (JOB_6, 118, 141 + 173), (JOB_7, 74, 145 + 187)];
        for (file, wide, boundaries) in counts.into_iter().chain([(JOB_8, 102, 161 + 188)]) {
            let text = lines(file);
            let rows = text.iter().map(|line| line.split(' ').collect::<Vec<&str>>());
            let count = |test: fn(&[&str]) -> bool| rows.clone().filter(|words| test(words)).count();
            assert_eq!((count(is_wide), count(|words| boundary(words) != 0)), (wide, boundaries), "{file}");
        }
    }
}
