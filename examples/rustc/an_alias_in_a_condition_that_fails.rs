//| trait Iterator(type)
//| trait Number(type)
//| trait Sum(type)
//| type Names
//| type Text
//| alias Item(type)
//| impl Iterator(Names)
//| norm Item(Names) = Text
//| impl Number(u8)
//| impl Sum(?I) <- Iterator(?I), Number(Item(?I))
//| goal Sum(Names)
trait Iter {
    type Item;
}
trait Number {}
trait Sum {}
struct Names;
struct Text;
impl Iter for Names {
    type Item = Text;
}
impl Number for u8 {}
impl<I: Iter> Sum for I where I::Item: Number {}
fn holds<T: Sum>() {}
fn main() {
    holds::<Names>();
}
