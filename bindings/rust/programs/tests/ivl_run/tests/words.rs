// Written by bindings/rust/extract from crates/ivl_run/src/tests/words.rt.
//! Words and numbers of a line, and what arguments ask for, by example.
use crate::host::prelude::*;
use intervallum_programs::proved::ivl_lines::{
    Escaped, Start, first_word, line_text, next_word, number_from, one_word, pairs_from, start_of,
    three_words, two_words,
};
use crate::host::std::test::Fail;

#[test]
fn arguments_of_a_program() { let rt = HostRuntime;
    assert_eq!(rt;
        [
            start_of(None, false),
            start_of(Some("--help"), false),
            start_of(Some("--help"), true),
            start_of(Some("--version"), false),
            start_of(Some("--versions"), false)
        ],
        [
            Start::Lines,
            Start::Help,
            Start::Other,
            Start::Version,
            Start::Other
        ]
    );
}

#[test]
fn text_of_a_line() { let rt = HostRuntime;
    assert_eq!(rt;
        [line_text(b"show a\r"), line_text(b"\xff")],
        [Some("show a"), None]
    );
    assert_eq!(rt;
        [
            first_word(b"  sum x y z"),
            first_word(b"sum\r"),
            first_word(b" \r"),
            first_word(b"sum \xff")
        ],
        [b"sum".as_slice(), b"sum", b"", b"sum"]
    );
}

#[test]
fn control_characters_are_escaped() -> Result<(), Fail> { let rt = HostRuntime;
    for (text, shown) in [
        ("a\tb", "a\\tb"),
        ("\u{1b}[2J", "\\u{1b}[2J"),
        (
            "\0\n\r\u{7f}\u{80}\u{9f}",
            "\\u{0}\\n\\r\\u{7f}\\u{80}\\u{9f}",
        ),
        ("\u{e9}\u{a0} '\"\\~", "\u{e9}\u{a0} '\"\\~"),
        ("", ""),
    ] {
        assert_eq!(rt;
            format!(in rt.alloc(); "{}", Escaped(text))?.as_str(),
            shown
        );
    }
    Ok(())
}

#[test]
fn words_of_a_text() { let rt = HostRuntime;
    assert_eq!(rt;
        [next_word("  sum x  y"), next_word("   ")],
        [Some(("sum", "x  y")), None]
    );
    assert_eq!(rt; [one_word(" x "), one_word("x y")], [Some("x"), None]);
    assert_eq!(rt;
        [two_words("x y "), two_words("x")],
        [Some(("x", "y")), None]
    );
    assert_eq!(rt;
        [three_words("x y z"), three_words("x y z w")],
        [Some(("x", "y", "z")), None]
    );
}

#[test]
fn numbers_of_a_text() -> Result<(), Fail> { let rt = HostRuntime;
    assert_eq!(rt; [number_from("-12"), number_from("+12")], [Some(-12), None]);
    let alloc = rt.alloc();
    let pairs = vec![in alloc; (1, 9), (20, 30)]?;
    assert_eq!(rt; pairs_from(alloc, "1 9 20 30")?, Some(pairs));
    assert_eq!(rt; pairs_from(alloc, "1 9 20")?, None);
    Ok(())
}
