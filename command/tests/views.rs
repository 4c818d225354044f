//! Journals with their blocks in one order, and what keeps two from being of one round.
#![allow(dead_code)]

#[path = "../../oracle/tools/generate.rs"]
mod generate;
#[path = "../../oracle/tools/journal.rs"]
mod journal;
#[path = "../src/text.rs"]
mod text;
#[path = "../src/views.rs"]
mod views;

use beamtassel::{two_views, Refusal, Report};

/// What a replay tells does not depend on the order of blocks: README and docs/RULES.md say so.
#[test]
fn blocks_in_one_order_tell_the_same() {
    let (mut journals, mut changed) = (0, 0);
    for class in generate::CLASSES {
        for index in 0..300 {
            let journal = generate::journal(class, 7, index);
            if matches!(beamtassel::replay(&journal), Report::Refused { .. }) {
                continue;
            }
            let sorted = views::in_one_order(&journal);
            journals += 1;
            changed += usize::from(sorted != journal);
            assert_eq!(beamtassel::lines(&sorted), beamtassel::lines(&journal), "{class} {index}");
            assert_eq!(beamtassel::finalizing(&sorted), beamtassel::finalizing(&journal), "{class} {index}");
            assert_eq!(views::in_one_order(&sorted), sorted, "{class} {index}");
        }
    }
    assert!(journals > 3000 && changed > 1000, "{journals} {changed}");
}

fn of(lines: &str) -> Vec<u8> {
    text::journal(lines.as_bytes()).unwrap()
}

const OPENED: &str = "Vt 1 weight 1\nVt 2 weight 1\nRt 10 number 0\nBk 11 under 10\nBk 12 under 10\nOp 7 base 10\nPc 1 for 11 number 1 signature 0\n";

#[test]
fn what_differs_has_words() {
    let case = [
        ("Op 7 base 10", "Op 8 base 10", "round 7 and round 8"),
        ("Vt 2 weight 1", "Vt 2 weight 2", "their voters differ"),
        ("Op 7 base 10", "Op 7 base 11", "base 10 and base 11"),
        ("Bk 12 under 10", "Bk 12 under 11", "their blocks differ"),
        ("Bk 12 under 10\n", "", "their blocks differ"),
        ("Rt 10 number 0", "Rt 10 number 1", "their blocks differ"),
        ("Op 7 base 10\nPc 1 for 11 number 1 signature 0\n", "", "the second opens no round"),
    ];
    for (old, new, words) in case {
        // A number of the root that is another makes a vote's number wrong, so the votes are left off there.
        let cut = |lines: &str| {
            if words == "their blocks differ" {
                lines.replace("Pc 1 for 11 number 1 signature 0\n", "")
            } else {
                lines.into()
            }
        };
        let (one, other) = (of(&cut(OPENED)), of(&cut(&OPENED.replace(old, new))));
        assert_eq!(two_views(&one, &other), Err(Refusal::NOT_ONE_ROUND), "{new}");
        assert_eq!(views::apart(&one, &other).as_deref(), Some(words), "{new}");
    }
    let (one, other) =
        (of(OPENED), of(&OPENED.replace("Bk 11 under 10\nBk 12 under 10\n", "Bk 12 under 10\nBk 11 under 10\n")));
    assert_eq!(two_views(&one, &other), Err(Refusal::NOT_ONE_ROUND));
    assert!(views::apart(&one, &other).unwrap().starts_with("the same blocks in another order"));
    assert_eq!(two_views(&views::in_one_order(&one), &views::in_one_order(&other)), Ok(0));
    // Parts of one voter's weight, and voters without any, are no difference.
    let parts = of(&OPENED.replace("Vt 2 weight 1\n", "Vt 2 weight 0\nVt 3 weight 0\nVt 2 weight 1\n"));
    assert_eq!((two_views(&one, &parts), views::apart(&one, &parts)), (Ok(0), None));
}
