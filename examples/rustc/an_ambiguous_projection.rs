//| trait Iterator(type)
//| trait Number(type)
//| trait Sum(type)
//| type Bytes
//| type Words
//| alias Item(type)
//| impl Iterator(Bytes)
//| impl Iterator(Words)
//| norm Item(Bytes) = u8
//| norm Item(Words) = u16
//| impl Number(u8)
//| impl Number(u16)
//| impl Sum(?I) <- Iterator(?I), Number(Item(?I))
//| goal Sum(?x)
trait Iter {
    type Item;
}
trait Number {}
struct Bytes;
struct Words;
impl Iter for Bytes {
    type Item = u8;
}
impl Iter for Words {
    type Item = u16;
}
impl Number for u8 {}
impl Number for u16 {}
fn sum<I: Iter>()
where
    I::Item: Number,
{
}
fn main() {
    sum();
}
