//! Lines at the borders of the tests, with the number that a text has to be refused with for them. Written down by hand,
//! as the texts are.

/// By the number: lines with a bar between.
pub type Lines = &'static [(u16, &'static str)];

/// Lines where a list is due, with number, or 17 where the line is right and the text ends early.
pub const LIST_LINES: Lines = &[
    (6, "(list 0|(list 33|(list 00000|(list 65535"),
    (17, "(list 1|(list 32|(list 00001"),
    (
        15,
        "(list 000001|(list 65536|(list 65537|(list 99999|(list 100000\
         |(list 18446744073709551617",
    ),
    (
        14,
        "(list 65536 x|(list 33 x|(list -|(list -1|(list x|(list 2 1|(list 2 -|(list|(list \
         |(list 2 reach|(list 2 distance|(list 33 distance|(list 65536 distance|(list distance\
         |(list reach 2|(list 2 reach 2|(list 2)|(list 2 )|( list 2|((list 2|(list2|(lists 2\
         |list 2|(list 2 ;c|(list 2;|(list 2\r|(list\t2|\t(list 2|(list 2\0|\u{feff}(list 2\
         |(job 1 reach|(row 1)|(|)|()|\r|\t;|(;",
    ),
];

/// So too for lines where a job is due, in a list of order 2.
pub const JOB_LINES: Lines = &[
    (8, "(job 0 reach|(job 3 reach|(job 65535 reach"),
    (
        17,
        "(job 1 reach|(job 2 distance|  (job   2   steepest  |(job 00002 reach",
    ),
    (
        15,
        "(job 000002 reach|(job 65536 reach|(job 65537 reach|(job 4294967297 reach",
    ),
    (
        14,
        "(job 65536 x|(job 65536|(job 3 x|(job 3|(job 000002 1|(job - reach|(job|(job |(job 2\
         |(job 2 7|(job 2 1|(job 2 -|(job distance|(job distance 2|(job distance distance\
         |(job 2 distance x|(job 2 distance 2|(job 2 2 distance|(job 2 distance distance\
         |(job 2 Distance|(job 2 distances|(job 2 distanc|(job 2 dist ance|(job 2 lengths\
         |(job 1 reach)|(job 1 reach )|(job 1) reach|( job 1 reach|(job1 reach|(job 1reach\
         |(job 1 reach;|(job 1 reach ;c|(job 1 reach\r|(job 1\treach|(job 1 reach\0|(row 1)\
         |(list 2|))|) )|) ;",
    ),
    (7, ")|  )  "),
];

/// So too for lines where a row of one word is due, in reach.
pub const ROW_LINES: Lines = &[
    (17, "(row 0)|(row 1)|  (row   1)  |(row 00001)"),
    (5, "(row 2)|(row 65535)"),
    (
        15,
        "(row 000001)|(row 65536)|(row 65537)|(row -)|(row 2 -)|(row - 2)|(row 65536 2)",
    ),
    (16, "(row)|(row 1 1)|(row 2 2)"),
    (
        14,
        "(row 65536 x)|(row - x)|(row x 65536)|(row x)|(row --)|(row +1)|(row -1)|(row 1-)\
         |(row 1.)|(row )|(row 1 )|( row 1)|(row 1|(row 1))|(row 1) )|(row 1)(|(row (1))\
         |(row 1) ;c|(row 1 ;c)|(row1)|(rows 1)|(Row 1)|row 1)|(row\t1)|(row 1\r)|(row 1)\r\
         |(row \u{661})|(job 1 reach|)",
    ),
];

/// So too for a 17th job's line, in a list of order 1.
pub const LAST_JOB_LINES: Lines = &[
    (7, "(job 1 reach|(job 00001 distance"),
    (8, "(job 0 reach|(job 2 steepest"),
    (15, "(job 65536 reach|(job 000001 reach"),
    (
        14,
        "(job - reach|(job 1|(job 2|(job 65536 x|(job 1 reach)|(row 1)",
    ),
];
