//! The refusals among the console's answers.

/// How often each number is given, by the number; under 0 how many answers are accepted.
pub fn refusals(answers: &[String]) -> [usize; 19] {
    let mut times = [0; 19];
    for answer in answers {
        let words: Vec<&str> = answer.splitn(3, ' ').collect();
        match words[..] {
            ["refused", number, ..] => {
                let number: usize = number.parse().expect("a number behind `refused`");
                times[number] += 1;
            }
            ["ok", ..] => times[0] += 1,
            _ => {}
        }
    }
    times
}
