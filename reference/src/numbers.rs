//! A line of the bench program's input as three whole numbers (paper 01, "Bench pack").

/// Three whole numbers with single spaces between, or none: the line is `unread`.
pub fn three(line: &[u8]) -> Option<[i32; 3]> {
    let mut parts = line.split(|&byte| byte == b' ').map(whole);
    let numbers = [parts.next()??, parts.next()??, parts.next()??];
    match parts.next() {
        None => Some(numbers),
        Some(_) => None,
    }
}

/// An optional minus and one or more digits, from −2,147,483,648 to 2,147,483,647. Leading zeros may be any number.
fn whole(text: &[u8]) -> Option<i32> {
    let (negative, digits) = match text {
        [b'-', digits @ ..] => (true, digits),
        digits => (false, digits),
    };
    if digits.is_empty() {
        return None;
    }
    let mut amount: i64 = 0;
    for &digit in digits {
        if !digit.is_ascii_digit() {
            return None;
        }
        // Held just above the range once it is out of it, so that no length of line runs over.
        amount = (10 * amount + i64::from(digit - b'0')).min(1 << 32);
    }
    i32::try_from(if negative { -amount } else { amount }).ok()
}
