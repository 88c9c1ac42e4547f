//| trait Iterator(type)
//| trait Number(type)
//| trait Sum(type)
//| type Bytes
//| alias Item(type)
//| impl Iterator(Bytes)
//| norm Item(Bytes) = u8
//| impl Number(u8)
//| impl Sum(?I) <- Iterator(?I), Number(Item(?I))
//| goal Sum(Bytes)
trait Iter {
    type Item;
}
trait Number {}
trait Sum {}
struct Bytes;
impl Iter for Bytes {
    type Item = u8;
}
impl Number for u8 {}
impl<I: Iter> Sum for I where I::Item: Number {}
fn holds<T: Sum>() {}
fn main() {
    holds::<Bytes>();
}
