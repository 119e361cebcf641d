//! The clip program's input and output, case by case.

use compare::program::answer_all;
use std::io::BufReader;

/// What is printed, whatever the size of the pieces in which the input comes.
fn printed(input: impl AsRef<[u8]>) -> String {
    let by = |size| {
        let mut output = Vec::new();
        answer_all(BufReader::with_capacity(size, input.as_ref()), &mut output).unwrap();
        String::from_utf8(output).unwrap()
    };
    let whole = by(1 << 16);
    assert_eq!(by(1), whole);
    assert_eq!(by(7), whole);
    whole
}

/// What is printed after the rectangle 0,0,100,100.
fn after_square(lines: impl AsRef<[u8]>) -> String {
    let input = [b"R,0,0,100,100\n", lines.as_ref()].concat();
    printed(input).strip_prefix("R,0,0,100,100\n").unwrap().to_string()
}

#[test]
fn the_example() {
    let output = "R,0,0,100,100\nC,2,4,50,80,50,50,100,50,100,80\nL,3,2,0,10,100,10\n";
    let input = "R,0,0,100,100\nC,50,50,150,50,150,80,50,80\nL,-50,10,150,10\n";
    assert_eq!(printed(input), output);
    assert_eq!(printed(input.trim_end()), output);
}

#[test]
fn line_1_is_12() {
    for line in [
        "",
        "\n",
        "\nR,0,0,1,1\n",
        "R",
        "R,",
        "R,1,2,3",
        "R,1,2,3,4,5",
        "R,1,2,3,",
        "R,1,2,3,x",
        "r,1,2,3,4",
        "RR,1,2,3,4",
        "C,1,2",
        "L,1,2,3,4",
        ",1,2,3,4",
        " R,1,2,3,4",
        "R, 1,2,3,4",
        "R,+1,2,3,4",
        "R,1,2,3,4\r\n",
        "R,--1,2,3,4",
        "R,-,2,3,4",
        "R,1,2,3,9223372036854775808",
        "R,1,2,3,-9223372036854775809",
        "R;1;2;3;4",
        "X,1,12",
    ] {
        assert_eq!(printed(line), "X,1,12\n", "{line:?}");
    }
}

#[test]
fn line_1_is_6_and_nothing_follows() {
    for corner in ["33554433", "-33554433", "9223372036854775807", "-9223372036854775808"] {
        assert_eq!(printed(format!("R,0,0,{corner},1\nC,1,2\n")), "X,1,6\n");
    }
    assert_eq!(printed("R,-33554432,0,33554432,1"), "R,-33554432,0,33554432,1\n");
}

#[test]
fn numbers_are_printed_plainly() {
    assert_eq!(printed("R,-0,000,0100,00000000000000000000000100\n"), "R,0,0,100,100\n");
    assert_eq!(after_square("L,-000,007,0050,07"), "L,2,2,0,7,50,7\n");
}

#[test]
fn further_lines_that_are_12() {
    for line in [
        "\n",
        "R,0,0,1,1",
        "X",
        "c,1,2",
        "CC",
        "C,",
        "C,1,",
        "C,,1",
        "C,1,2,x",
        "C,1,-",
        "C,1,2\r\n",
        "C 1,2",
        "\"C\",1,2",
        "C,1,9223372036854775808",
        "L,9223372036854775808,1,2",
        "C,\u{e9}",
        "C,1\0,2",
        "C,0x1,2",
        "C,1.0,2",
    ] {
        assert_eq!(after_square(line), "X,2,12\n", "{line:?}");
    }
    assert_eq!(after_square(b"C,\xff,1\n\xff\n"), "X,2,12\nX,3,12\n");
}

#[test]
fn a_final_line_feed_opens_no_line() {
    assert_eq!(after_square(""), "");
    assert_eq!(after_square("\n"), "X,2,12\n");
    assert_eq!(after_square("\n\n"), "X,2,12\nX,3,12\n");
    assert_eq!(after_square("C\n"), "");
}

#[test]
fn paths_without_points_print_nothing() {
    assert_eq!(after_square("C\nL\nC,1,1\nL,1,1\nX\n"), "X,6,12\n");
}

#[test]
fn odd_comes_before_5_and_7() {
    let numbers = |n: usize| ",1".repeat(n);
    assert_eq!(after_square("C,1"), "X,2,1\n");
    assert_eq!(after_square("C,99999999"), "X,2,1\n");
    assert_eq!(after_square(format!("C{}", numbers(257))), "X,2,1\n");
    assert_eq!(after_square(format!("L{}", numbers(258))), "X,2,5\n");
    assert_eq!(after_square(format!("L,99999999,1{}", numbers(256))), "X,2,5\n");
    assert_eq!(after_square(format!("L{}", numbers(256))), "");
    assert_eq!(after_square(format!("C{},x", numbers(258))), "X,2,12\n");
}

#[test]
fn path_coordinates_beyond_the_limit_are_7() {
    assert_eq!(after_square("L,0,0,33554433,0"), "X,2,7\n");
    assert_eq!(after_square("L,0,0,33554432,0"), "L,2,2,0,0,100,0\n");
    assert_eq!(after_square("C,0,-9223372036854775808"), "X,2,7\n");
}

#[test]
fn lines_up_to_4096_bytes() {
    let line = |letter: &str, bytes: usize| format!("{letter},{}1,50,60,50", "0".repeat(bytes - letter.len() - 11));
    assert_eq!(line("L", 4096).len(), 4096);
    assert_eq!(after_square(line("L", 4096)), "L,2,2,1,50,60,50\n");
    assert_eq!(after_square(line("L", 4096) + "\nL,1,1,2,2\n"), "L,2,2,1,50,60,50\nL,3,2,1,1,2,2\n");
    assert_eq!(after_square(line("L", 4097)), "X,2,12\n");
    assert_eq!(after_square(line("L", 4097) + "\nL,1,1,2,2\n"), "X,2,12\nL,3,2,1,1,2,2\n");
    assert_eq!(after_square("L".repeat(100_000) + "\nL,1,1,2,2"), "X,2,12\nL,3,2,1,1,2,2\n");
    assert_eq!(printed(line("R", 4096)), "R,1,50,60,50\n");
    assert_eq!(printed(line("R", 4097)), "X,1,12\n");
}

#[test]
fn an_empty_rectangle_draws_nothing() {
    assert_eq!(printed("R,5,0,5,9\nC,0,0,9,0,9,9\nL,5,1,5,2\nC,1\n"), "R,5,0,5,9\nX,4,1\n");
}

#[test]
fn a_line_may_give_several_paths() {
    let lines = "L,-5,10,50,10,50,-5,60,-5,60,20\n";
    assert_eq!(after_square(lines), "L,2,3,0,10,50,10,50,0\nL,2,2,60,0,60,20\n");
}

#[test]
fn eight_and_ten_with_256() {
    let closed = |points: usize, turn: [&str; 3]| -> String {
        let path: String = (0..points).map(|i| turn[i % 3]).collect();
        after_square(format!("C{path}"))
    };
    let three_a_point = [",-40,109", ",109,-40", ",100,80"];
    assert_eq!(closed(128, three_a_point), "X,2,8\n");
    let overlapping = [",20,30", ",-40,109", ",20,100"];
    assert_eq!(closed(128, overlapping), "X,2,10\n");
    assert!(closed(3, overlapping).starts_with("C,2,"));
}
