//| trait Same(type, type)
//| type Bytes
//| type More
//| alias Item(type)
//| norm Item(Bytes) = u8
//| norm Item(More) = u8
//| impl Same(?T, ?T)
//| goal Same(Item(More), Item(Bytes))
trait Iter {
    type Item;
}
struct Bytes;
struct More;
impl Iter for Bytes {
    type Item = u8;
}
impl Iter for More {
    type Item = u8;
}
fn same<A: Iter, B: Iter<Item = A::Item>>() {}
fn main() {
    same::<Bytes, More>();
}
