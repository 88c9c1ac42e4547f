//| trait Iterator(type)
//| trait Number(type)
//| type Bytes
//| type Rev(type)
//| alias Item(type)
//| impl Iterator(Bytes)
//| norm Item(Bytes) = u8
//| impl Iterator(Rev(?I)) <- Iterator(?I)
//| norm Item(Rev(?I)) = Item(?I) <- Iterator(?I)
//| impl Number(u8)
//| goal Number(Item(Rev(Rev(Bytes))))
trait Iter {
    type Item;
}
trait Number {}
struct Bytes;
struct Rev<I>(I);
impl Iter for Bytes {
    type Item = u8;
}
impl<I: Iter> Iter for Rev<I> {
    type Item = I::Item;
}
impl Number for u8 {}
fn holds<T: Number>() {}
fn main() {
    holds::<<Rev<Rev<Bytes>> as Iter>::Item>();
}
