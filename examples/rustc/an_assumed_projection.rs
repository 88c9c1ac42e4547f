//| trait Iterator(type)
//| trait Number(type)
//| trait Sum(type)
//| alias Item(type)
//| impl Number(u8)
//| impl Sum(?I) <- Iterator(?I), Number(Item(?I))
//| env Iterator(!I), Item(!I) = u8
//| goal Sum(!I)
trait Iter {
    type Item;
}
trait Number {}
trait Sum {}
impl Number for u8 {}
impl<I: Iter> Sum for I where I::Item: Number {}
fn holds<T: Sum>() {}
fn generic<I: Iter<Item = u8>>() {
    holds::<I>();
}
fn main() {}
