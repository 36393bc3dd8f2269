//! The first difference of two outputs, in words.

/// The lines of the input are those that are answered, none where standards
/// are at fault.
pub fn first_difference(input: &[Vec<u8>], given: &[u8], expected: &[u8]) -> String {
    let mut given = given.split(|&byte| byte == b'\n');
    let mut expected = expected.split(|&byte| byte == b'\n');
    let mut number = 0;
    loop {
        let (theirs, ours) = (given.next(), expected.next());
        if theirs != ours || theirs.is_none() {
            let place = match input.get(number) {
                Some(line) => format!("input line {}: {}", number + 1, shown(Some(line))),
                None if input.is_empty() => format!("output line {}", number + 1),
                None => format!("listing line {}", number - input.len() + 1),
            };
            return format!(
                "{place}\n  program: {}\n  second:  {}",
                shown(theirs),
                shown(ours)
            );
        }
        number += 1;
    }
}

fn shown(line: Option<&[u8]>) -> String {
    match line {
        None => "nothing more".into(),
        Some(line) => format!("\"{}\" ({} bytes)", line.escape_ascii(), line.len()),
    }
}
