//! Input that nobody has to end: it decides by a line feed, or by more than a line can hold.

/// Whatever follows, what is printed for it is the same.
pub fn open() -> Vec<Vec<u8>> {
    let lines = [digits(), zeros(), listed(LINES), long()];
    [lines.concat(), listed(NO_LINES)].concat()
}

fn listed(inputs: &[&[u8]]) -> Vec<Vec<u8>> {
    inputs.iter().map(|input| input.to_vec()).collect()
}

/// One line of each number of digits.
fn digits() -> Vec<Vec<u8>> {
    (1..=10).map(|count| format!("{}\n", &"1234567890"[..count]).into_bytes()).collect()
}

/// One line of each number of digits that has room for a zero before the seed.
fn zeros() -> Vec<Vec<u8>> {
    (2..=10).map(|count| format!("{:0count$}\n", 7).into_bytes()).collect()
}

const LINES: &[&[u8]] = &[
    b"4294967295\n",
    b"25\n\n",
    b"25\n7\n",
    b"5\nx",
    b"5\n\r\n",
    b"5\n0000000000",
    b"4294967295\n0",
    b"0000000005\n\0\xff",
    b"\n",
    b"\n7\n",
    b"0\n",
    b"0\n7\n",
    b"0000000000\n",
    b"4294967296\n",
    b"9999999999\n",
    b"7x\n",
    b"x\n",
    b"-7\n",
    b"+7\n",
    b" 7\n",
    b"7 \n",
    b"7\r\n",
    b"\r\n",
    b"00000000007\n",
    b"12345678901\n",
];

/// More than a pipe holds, so that writing waits as well.
const LONG: usize = 100_000;

fn long() -> Vec<Vec<u8>> {
    let run = |opening: &[u8], byte| [opening, &[byte; LONG][..]].concat();
    vec![run(b"7\n", b'x'), run(b"0000000007\n", b'\n'), run(b"", b'0'), run(b"", b'7')]
}

/// Without any line feed. Ten digits and the byte after them decide.
const NO_LINES: &[&[u8]] = &[
    b"12345678901",
    b"00000000000",
    b"00000000007",
    b"42949672950",
    b"1234567890x",
    b"1234567890\r",
    b"123456789012",
    b"00000000000000000007",
];
