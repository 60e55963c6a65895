//! Every message once, with its line.

use marks::{bytes, text};

const UNREADABLE: &str = "\
L=4 l=4 # no such setting
n=2 k=x
tag
n=3
0: 1=4096 erased
1: g=1 c=2 c=3 a=65536 a=+1
x\u{1b}: 5=1
3:

2: erased
";
const UNREADABLE_FOR: &str = "\
line 1: \"l\" is no setting: n, k, L and G are
line 2: \"x\" is no number from 0 to 255
line 3: \"tag\" is neither a setting, such as n=15, nor a mark, such as 0: a=2148
line 4: n is set a second time
line 5: \"erased\" is no symbol with its weight, such as a=2148
line 6: \"g\" is no symbol: 0 to 9 and a to f are
line 6: symbol c is named twice
line 6: \"65536\" is no number from 0 to 65535
line 6: \"+1\" is no number from 0 to 65535
line 7: a mark begins with its number, and \"x\\u{1b}\" is no number from 0 to 254
line 8: mark 2 comes next, not 3
line 8: mark 3 names no symbol: write erased where it cannot be read
line 10: mark 4 comes next, not 2
line 10: the text ends, and G is not set
line 10: mark 2 is too many: n is 2
";
const REFUSED: &str = "n=1 k=2\nL=6\nG=226\n0: 1=4096 2=1\n1: 0=1 tag\n";
const REFUSED_FOR: &str = "\
line 1: n is 1, and may be from 2 to 15
line 1: k is 2, and may be from 2 to 1, which is n
line 2: L is 6, and may be from 1 to 5
line 3: G is 226, and may be from 0 to 225
line 4: the weights of mark 0 sum to 4097, and 4096 is the most
line 5: \"tag\" is no symbol with its weight, such as a=2148
line 5: mark 1 is too many: n is 1
";
/// Costs 11.
const TAG: &str = "n=2 k=2 L=4\nG=11\n0: 1=4096\n1: a=2000 c=1000\n";

/// The faults that a text is checked to have, a line each.
fn faults(text: &str) -> String {
    let faults = text::read(text).checked().err().unwrap_or_default();
    faults.iter().map(|fault| format!("{fault}\n")).collect()
}

#[test]
fn texts_are_refused_by_line_and_reason() {
    assert_eq!(faults(TAG), "");
    assert_eq!(faults(UNREADABLE), UNREADABLE_FOR);
    assert_eq!(faults(REFUSED), REFUSED_FOR);
    let dear = TAG.replace("G=11", "G=10");
    let why = "line 2: the marks cost 11, and the limit G is 10\n";
    assert_eq!(faults(&dear), why);
    let why = "line 4: \"d\" is no symbol with its weight, such as a=2148\n";
    assert_eq!(faults(&dear.replace("1000", "1000 d")), why);
    let why = "line 4: the text ends, and mark 2 is missing\n";
    assert_eq!(faults(&TAG.replace("n=2", "n=3")), why);
    let why = "line 1: this is no text: the program's bytes belong in a .tag\n";
    assert_eq!(faults("\u{2}\u{2}\0"), why);
    let not_set = |name| format!("line 1: the text ends, and {name} is not set\n");
    assert_eq!(faults(""), ["n", "k", "L", "G"].map(not_set).concat());
}

#[test]
fn bytes_of_a_wrong_length_are_counted() {
    let why = |bytes: &[u8]| bytes::read(bytes).err().unwrap_or_default();
    let short = "there are 3 bytes, and should be 4 at least: n, k, L and G";
    assert_eq!(why(&[2, 2, 4]), short);
    for (length, right) in [(67, false), (68, true), (69, false)] {
        let counted = format!("there are {length} bytes, and should be 68 where n is 2");
        let counted = if right { "" } else { &counted };
        assert_eq!(why(&vec![2; length]), counted);
    }
}
