//| trait Iterator(type)
//| trait Same(type, type)
//| trait Sum(type)
//| type Words
//| alias Item(type)
//| impl Iterator(Words)
//| norm Item(Words) = u16
//| impl Same(?T, ?T)
//| impl Sum(?I) <- Iterator(?I), Same(Item(?I), u8)
//| goal Sum(Words)
trait Iter {
    type Item;
}
trait Sum {}
struct Words;
impl Iter for Words {
    type Item = u16;
}
impl<I: Iter<Item = u8>> Sum for I {}
fn holds<T: Sum>() {}
fn main() {
    holds::<Words>();
}
