//| trait Iterator(type)
//| trait Same(type, type)
//| trait Sum(type)
//| type Bytes
//| alias Item(type)
//| impl Iterator(Bytes)
//| norm Item(Bytes) = u8
//| impl Same(?T, ?T)
//| impl Sum(?I) <- Iterator(?I), Same(Item(?I), u8)
//| goal Sum(Bytes)
trait Iter {
    type Item;
}
trait Sum {}
struct Bytes;
impl Iter for Bytes {
    type Item = u8;
}
impl<I: Iter<Item = u8>> Sum for I {}
fn holds<T: Sum>() {}
fn main() {
    holds::<Bytes>();
}
