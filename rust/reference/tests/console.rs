//! The commands, and lines that are none.

use reference::console::Console;

/// The answers to a script, line by line.
fn answers(script: &str) -> String {
    let mut console = Console::new();
    script.lines().map(|line| console.answer(line)).collect()
}

const OPEN: &str = "open hPa 0 0 0 662 8500:0 11000:0\n";

#[test]
fn empty_lines_and_remarks_answer_nothing() {
    assert_eq!(answers("\n# pressure 4\n  \n"), "");
}

#[test]
fn a_watch() {
    let script = [
        OPEN,
        "hear 00000000640000000000794400000000\n", // 996.0 hPa at minute 100
        "hear 00000000640000000000794400000000\n",
        "hear 00000000630000000000794400000000\n", // minute 99
        "hear 00000000000000000000794400000000\n", // minute 0
        "hear 0000\n",
        "hear \n",
        "hear 01000000640000000000a04100000000\n", // 20.0 °C
        "pressure 100\n",
        "pressure 101\n",
        "tendency 100\n",
        "tendency 16777216\n",
        "humidity 100\n",
    ];
    let expected = "open\nheard\nrefused 8\nrefused 19 1\nrefused 19 100\nrefused 1\nrefused 1\n\
        heard\nP 100 9960\n\
        refused 11 0 101\nrefused 14\nrefused 5\nrefused 11 4 100\n";
    assert_eq!(answers(&script.concat()), expected);
}

#[test]
fn an_iced_bulb() {
    let script = [
        OPEN,
        "hear 00000000640000000000794400000000\n", // 996.0 hPa at minute 100
        "hear 0401000064000000000020c100000000\n", // the dry bulb has no state
        "hear 0400000064000000000020c100000000\n", // -10.0 °C
        "hear 0503000064000000000020c100000000\n", // a state above 2
        "hear 0501000064000000000020c100000000\n", // ice
        "humidity 100\n",
        "hear 00000000650000000000794400000000\n",
        "hear 0400000065000000000020c100000000\n",
        "hear 0502000065000000000020c100000000\n", // unknown
        "humidity 101\n",
    ];
    let expected = "open\nheard\nrefused 3\nheard\nrefused 4\nheard\nH 100 260 287 27 91 -112\n\
        heard\nheard\nheard\nrefused 21\n";
    assert_eq!(answers(&script.concat()), expected);
}

#[test]
fn a_wind_by_hand() {
    let script = [
        "open hPa 0 0 0 662 8500:0 11000:0 anemometer 1:13 2:22 10:94 20:188\n",
        "hear 0300000064000000000000000000af43\n", // still, course 350
        "note 16777216 361 10000 0 0\n",
        "note 100 361 10000 0 0\n",
        "note 100 360 10000 0 1\n",
        "note 100 360 0 0 0\n",
        "note 101 10 9940 0 60\n",
        "note 100 10 9940 9999 60\n",
        "note 100 10 9940 0 60\n",
        "wind 100\n",
        "note 100 10 9940 0 60\n",
        "note 40 10 9940 0 60\n",
        "hear 02000000640000000000004100000000\n",
    ];
    let expected = "open\nheard\nrefused 5\nrefused 7\n\
        refused 23\nrefused 23\nrefused 11 3 101\nrefused 24\nnoted\nW 100 13 10\n\
        refused 8\nrefused 19 60\nrefused 8\n";
    assert_eq!(answers(&script.concat()), expected);
}

#[test]
fn the_anemometer_may_be_left_out() {
    let course = "hear 03000000640000000000000000000000\nnote 100 0 0 60 60\n";
    for (rates, told) in [
        ("", "refused 24"),
        (" anemometer", "refused 24"),
        (" anemometer 1:13 2:22", "noted"),
    ] {
        let script = format!("{}{rates}\n{course}", OPEN.trim_end());
        assert_eq!(answers(&script), format!("open\nheard\n{told}\n"));
    }
    let many = |n: i32| -> String { (0..n).map(|i| format!(" {i}:{i}")).collect() };
    for (line, told) in [
        (
            format!("open hPa 0 0 0 662 8500:0 11000:0 anemometer{}", many(20)),
            "open",
        ),
        (
            format!("open hPa 0 0 0 662 8500:0 11000:0 anemometer{}", many(21)),
            "refused 25",
        ),
        (
            format!("open hPa 0 0 0 662 8500:0 11000:0 anemometer{}", many(1)),
            "refused 25",
        ),
        (
            format!("open hPa 0 0 0 662 8500:0 anemometer{}", many(1)),
            "refused 10",
        ),
        (
            format!("open hPa 0 0 0 662 anemometer{}", many(1)),
            "refused 10",
        ),
        (
            format!("open hPa 0 0 0 499 anemometer{}", many(1)),
            "refused 9",
        ),
        (
            "open hPa 0 0 0 662 8500:0 11000:0 anemometer 0:0 99999999999:1".into(),
            "refused 25",
        ),
    ] {
        assert_eq!(answers(&line), format!("{told}\n"), "{line}");
    }
}

#[test]
fn a_refused_open_keeps_the_store_and_a_good_one_starts_empty() {
    let script = [
        OPEN,
        "hear 03000000640000000000a04000000000\n",
        "hear 02000000640000000000a04000003443\n",
        "open hPa 601 0 0 662 8500:0 11000:0\n",
        "open hPa 0 0 0 662 8500:0\n",
        "open hPa 99999999999 0 0 662\n",
        "wind 100\n",
        OPEN,
        "wind 100\n",
    ];
    let expected = "open\nheard\nheard\nrefused 9\nrefused 10\nrefused 9\nW 100 76 180\n\
        open\nrefused 11 2 100\n";
    assert_eq!(answers(&script.concat()), expected);
}

#[test]
fn files_are_read_and_written() {
    let script = "read 57540101020 00C0018010000EEFFB3\n\
        read 5754010102000C0018010000EEFFB3\n\
        write 15 T:280:-18:179\n\
        write 14 T:280:-18:179\n\
        write 0 T:179:-18:179\n\
        write 4\n\
        read \n";
    let expected = "not a command\nWT 1 1\nT 280 -18 179\n\
        file 5754010102000c0018010000eeffb3\nrefused 17 15\nrefused 16 0\n\
        file 57540100\nrefused 18 at 0\n";
    assert_eq!(answers(script), expected);
}

#[test]
fn a_reading_outside_the_certificate_is_named_by_its_minute() {
    let script = "open hPa 0 0 0 662 8500:0 9000:0\n\
        hear 00000000640000000000794400000000\n\
        hear 01000000640000000000a04100000000\n\
        pressure 100\n";
    assert_eq!(answers(script), "open\nheard\nheard\nrefused 12 100\n");
}

#[test]
fn what_is_no_command_says_so_and_changes_nothing() {
    for line in [
        "sail",
        "open",
        "open bar 0 0 0 662",
        "open hPa 0 0 0 662 8500",
        "open hPa 0 0 x 662 8500:0 11000:0",
        "open hPa 0 0 0 662 8500:0 11000:0 anemometer 1",
        "open hPa 0 0 0 662 8500:0 11000:0 anemometer 0:0 anemometer 1:1",
        "open anemometer hPa 0 0 0 662 8500:0 11000:0",
        "note",
        "note 1 2 3 4",
        "note 1 2 3 4 5 6",
        "note 1 2 -3 4 5",
        "note 1 2 3 4 x",
        "hear 0g",
        "hear 000",
        "hear 00 00",
        "pressure",
        "pressure -1",
        "pressure 1 2",
        "wind x",
        "write",
        "write -1",
        "write 820 P:1",
        "write 820 Q:1:2",
        "write 820 P:1:2:3",
        "write 820 P:-1:9000",
    ] {
        assert_eq!(answers(line), "not a command\n", "{line}");
    }
    assert_eq!(
        answers("pressure 4\nhear 00\nnote 1 2 3 4 5\n"),
        "no store is open\n".repeat(3)
    );
}
