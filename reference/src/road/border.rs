//! Files at the borders of what K7 of document 02 says, with what they have to be answered with. The numbers are
//! written down here by hand, and not taken from the reader.

/// By the number, 0 where a file is accepted: files with a bar between.
const BORDER: &[(u32, &str)] = &[
    // Lines and their ends.
    (
        21,
        "|\n| |x\n|p sp 2 1\na 1 2\n3\n|p sp 2 2\na 1 2 3\n4\na 1 2 3\n|c|c\n|cat\nc\n\
         |p sp 1 0\n\n|p sp 1 0\n |p sp 1 0\r\n|p sp 1 0\0|\np sp 1 0\n|\u{feff}p sp 1 0\n\
         | c\np sp 1 0\n|C\np sp 1 0\n",
    ),
    (
        0,
        "p sp 1 0|p sp 1 0\n|p sp 1 0\nc|c\r\np sp 1 0\ncat\nc\n\
         |p sp 1 0\nca 1 1 1\nc p sp 1 0\nc\0\u{80}\u{ff}|p sp 1 2\na 1 1 1\nc\na 1 1 1",
    ),
    // The parts of a `p` line.
    (
        21,
        "p|p |p sp|p sp 1|p sp 1 |p sp 1 0 | p sp 1 0|p sp 1 0 0|p 1 0|psp 1 0|p sp1 0\
         |p sp1 1 0|p s p 1 0|p\tsp 1 0|\tp sp 1 0|p sp 1 0\t|pp sp 1 0|P sp 1 0|p SP 1 0\
         |p max 1 0|p sp +1 0|p sp 1 -0|p sp 1 0.0|p sp 1 :|p sp 1 /",
    ),
    (0, "p sp  1   0|p   sp 1 0"),
    // Numerals and the number of points.
    (0, "p sp 0000000001 0000000000|p sp 128 0|p sp 127 0"),
    (
        21,
        "p sp 00000000001 0|p sp 1 00000000000|p sp 10000000000 0|p sp 129 0 |p sp 0|p sp 129 x\
         |\np sp 129 0\n",
    ),
    (
        22,
        "p sp 0 0|p sp 129 0|p sp 9999999999 0|p sp 4294967297 0|p sp 65537 0|p sp 129 0\n\n\
         |p sp 129 0\np sp 1 0\n",
    ),
    // The order of the lines.
    (
        21,
        "p sp 1 0\np sp 1 0\n|p sp 1 0\np sp 129 0\n|p sp 1 1\np sp 2 0\n|a 1 1 1\n\
         |a 1 1 1\np sp 1 1\n|a 0 9 1\np sp 1 1\n|a 0 9 1\np sp 129 1\n",
    ),
    // Arcs.
    (
        0,
        "p sp 2 1\na 1 2 0|p sp 2 1\na   2 1     9999999999\n|p sp 2 1\na 1 2 65533\n\
         |p sp 2 1\na 1 2 65534\n|p sp 2 1\na 1 2 65535\n|p sp 2 1\na 1 2 65536\n\
         |p sp 2 1\na 1 2 4294967296\n|p sp 2 2\na 1 2 3\na 2 1 4\n|p sp 2 2\na 1 2 3\na 1 2 4\n\
         |p sp 2 2\na 1 2 4\na 1 2 3\n|p sp 2 3\na 1 2 4\na 1 2 3\na 1 2 4\n\
         |p sp 2 1\na 01 0000000002 0000000003\n|p sp 128 1\na 128 1 3\n",
    ),
    (
        21,
        "p sp 2 1\na 1 2 10000000000\n|p sp 2 1\na 1 2 10000000000000000000\n\
         |p sp 2 1\na 01 00000000002 3\n|p sp 2 1\na 1 2\n|p sp 2 1\na 1 2 3 4\n\
         |p sp 2 1\na1 2 3\n|p sp 2 1\naa 1 2 3\n|p sp 2 1\nA 1 2 3\n|p sp 2 1\na 1 2 3 \n\
         |p sp 2 1\n a 1 2 3\n|p sp 2 1\na 1\t2 3\n|p sp 2 1\na 1 2 3\r\n|p sp 2 1\na 1 2 -3\n\
         |p sp 2 1\na 1 2 +3\n|p sp 2 1\na\n|p sp 2 1\ne 1 2 3\n|p sp 2 1\na 3 2 x\n\
         |p sp 2 1\na 3 2\n|p sp 2 1\nx\na 3 2 3\n",
    ),
    (
        22,
        "p sp 2 1\na 0 2 3\n|p sp 2 1\na 2 0 3\n|p sp 2 1\na 3 2 3\n|p sp 2 1\na 2 3 3\n\
         |p sp 2 1\na 0 0 3\n|p sp 2 1\na 3 3 3\n|p sp 2 1\na 4294967297 2 3\n\
         |p sp 128 1\na 128 129 3\n|p sp 2 1\na 3 2 3\nx\n",
    ),
    // The number of arcs.
    (
        23,
        "p sp 1 1\n|p sp 1 0\na 1 1 5\n|p sp 2 1\na 1 2 3\na 1 2 3\n\
         |p sp 2 3\na 1 2 3\na 1 2 3\n|p sp 2 4294967297\na 1 2 3\n|p sp 2 9999999999\na 1 2 3\n",
    ),
    (0, "p sp 1 1\na 1 1 5\n|p sp 2 2\na 1 2 3\na 1 2 3\n"),
    (21, "p sp 2 0\na 1 2 3\nx\n|p sp 2 0\na 1 2 3\np sp 2 0\n"),
    (22, "p sp 2 0\na 1 2 3\na 1 3 3\n"),
];

/// Each of them with its number.
pub fn border_files() -> impl Iterator<Item = (&'static [u8], u32)> {
    let by_number = BORDER.iter();
    by_number.flat_map(|&(number, files)| {
        let files = files.split('|');
        files.map(move |file| (file.as_bytes(), number))
    })
}

/// A file with a line of each kind, and all that are one byte away from it or begin it.
pub fn neighbours() -> Vec<Vec<u8>> {
    let file = b"c\np sp 2 1\na 1 2 3\n";
    let mut files = Vec::new();
    for at in 0..=file.len() {
        let (before, after) = file.split_at(at);
        files.push(before.to_vec());
        for byte in 0..=255 {
            files.push([before, &[byte], after].concat());
            if let [_, after @ ..] = after {
                files.push([before, &[byte], after].concat());
            }
        }
        if let [_, after @ ..] = after {
            files.push([before, after].concat());
        }
    }
    files
}
