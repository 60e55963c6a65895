//! What a picture says where the examples are silent.

use marks::picture::picture;
use marks::text;

const TEXT: &str = "\
n=6 k=2 L=4 G=150
0: 1=4096
1: 1=3072
2: 1=3071 5=20
3: 1=2048 2=2048
4: 2=4032 f=1
5: erased
";
const PICTURE: &str = "\
name: n 6, k 2, L 4, G 150

     a column is a weight of 128       strongest            1
  0  11111111111111111111111111111111  1 4096               =
  1  111111111111111111111111          1 3072               =
  2  111111111111111111111111          1 3071 5 20    worn  =
  3  11111111111111112222222222222222  1 2048 2 2048  worn  =
  4  22222222222222222222222222222222  2 4032 f 1           x
  5                                                   erased
= the mark's strongest symbol is the ticket's, . a weaker one is, x none is

cost 31, limit G 150, bound 7
ticket 1: 10, score 11, 4 above the bound
one ticket: no other is supported above the bound
";

fn drawn(text: &str) -> String {
    let tag = text::read(text).tag();
    picture("name", &tag.unwrap_or_default())
}

#[test]
fn edges_of_weights_are_drawn() {
    assert_eq!(drawn(TEXT), PICTURE);
}

#[test]
fn each_refusal_is_told_in_words() {
    let told = |part, instead| {
        let picture = drawn(&TEXT.replace(part, instead));
        picture.lines().last().unwrap_or_default().to_string()
    };
    let sizes = "refused 1 at 0: k is 7, and may be from 2 to 6, which is n";
    assert_eq!(told("k=2", "k=7"), sizes);
    let setting = "refused 2 at 0: L is 0, and may be from 1 to 5";
    assert_eq!(told("L=4", "L=0"), setting);
    let column = "refused 6 at 2: the weights of mark 2 sum to 4097, and 4096 is the most";
    assert_eq!(told("5=20", "5=1026"), column);
    let cost = "refused 7 at 0: the marks cost 31, and the limit G is 30";
    assert_eq!(told("G=150", "G=30"), cost);
}
