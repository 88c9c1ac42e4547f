//| trait Same(type, type)
//| type Bytes
//| type Words
//| alias Item(type)
//| norm Item(Bytes) = u8
//| norm Item(Words) = u16
//| impl Same(?T, ?T)
//| goal Same(Item(Words), Item(Bytes))
trait Iter {
    type Item;
}
struct Bytes;
struct Words;
impl Iter for Bytes {
    type Item = u8;
}
impl Iter for Words {
    type Item = u16;
}
fn same<A: Iter, B: Iter<Item = A::Item>>() {}
fn main() {
    same::<Bytes, Words>();
}
