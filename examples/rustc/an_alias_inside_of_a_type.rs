//| trait Copied(type)
//| type List(type)
//| type Bytes
//| alias Item(type)
//| norm Item(Bytes) = u8
//| impl Copied(u8)
//| impl Copied(List(?T)) <- Copied(?T)
//| goal Copied(List(Item(Bytes)))
trait Iter {
    type Item;
}
trait Copied {}
struct List<T>(T);
struct Bytes;
impl Iter for Bytes {
    type Item = u8;
}
impl Copied for u8 {}
impl<T: Copied> Copied for List<T> {}
fn holds<T: Copied>() {}
fn main() {
    holds::<List<<Bytes as Iter>::Item>>();
}
