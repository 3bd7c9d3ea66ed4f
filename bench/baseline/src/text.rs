//! Lines of decimal numbers.

/// The word and the numbers with one space between, and a newline.
pub fn line(word: &str, numbers: &[usize]) -> Vec<u8> {
    let mut out = Vec::with_capacity(160);
    out.extend_from_slice(word.as_bytes());
    for &number in numbers {
        out.push(b' ');
        push_decimal(&mut out, number);
    }
    out.push(b'\n');
    out
}

/// Two numbers with a space between, and a newline.
pub fn push_pair(out: &mut Vec<u8>, first: usize, second: usize) {
    push_decimal(out, first);
    out.push(b' ');
    push_decimal(out, second);
    out.push(b'\n');
}

fn push_decimal(out: &mut Vec<u8>, mut number: usize) {
    let mut digits = [0; 20];
    let mut at = digits.len();
    loop {
        at -= 1;
        digits[at] = b'0' + (number % 10) as u8;
        number /= 10;
        if number == 0 {
            break;
        }
    }
    out.extend_from_slice(&digits[at..]);
}

#[cfg(test)]
mod tests {
    use super::*;

    #[test]
    fn lines() {
        assert_eq!(line("refused", &[7, 27]), b"refused 7 27\n");
        assert_eq!(line("accepted", &[0, 10, 4096]), b"accepted 0 10 4096\n");
        assert_eq!(line("", &[usize::MAX]), b" 18446744073709551615\n");
    }
}
