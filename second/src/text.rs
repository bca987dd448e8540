//! Lines of text: fields parted by tabs, numbers of 1 to 13 digits.

use crate::limits::MOST_DIGITS;

/// Reads a line's numbers into `numbers` and answers its kind, the first
/// field; none if a field behind the kind is not a number.
pub fn read_line<'a>(line: &'a [u8], numbers: &mut Vec<u64>) -> Option<&'a [u8]> {
    numbers.clear();
    let mut fields = line.split(|&byte| byte == b'\t');
    let kind = fields.next()?;
    for field in fields {
        numbers.push(read_number(field)?);
    }
    Some(kind)
}

fn read_number(field: &[u8]) -> Option<u64> {
    if field.is_empty() || field.len() > MOST_DIGITS {
        return None;
    }
    field.iter().try_fold(0, |number, &byte| {
        let digit = byte.wrapping_sub(b'0');
        (digit < 10).then(|| number * 10 + u64::from(digit))
    })
}

/// Prints an answer: its kind and numbers parted by tabs, then a newline.
pub fn print(answers: &mut Vec<u8>, kind: &[u8], numbers: &[u64]) {
    answers.extend_from_slice(kind);
    for &number in numbers {
        answers.push(b'\t');
        print_number(answers, number);
    }
    answers.push(b'\n');
}

/// The same as a line of input, without its newline.
pub fn line(kind: &[u8], numbers: &[u64]) -> Vec<u8> {
    let mut line = Vec::new();
    print(&mut line, kind, numbers);
    line.pop();
    line
}

fn print_number(answers: &mut Vec<u8>, number: u64) {
    let mut digits = [0; 20];
    let mut first = digits.len();
    let mut left = number;
    loop {
        first -= 1;
        digits[first] = b'0' + (left % 10) as u8;
        left /= 10;
        if left == 0 {
            break;
        }
    }
    answers.extend_from_slice(&digits[first..]);
}
