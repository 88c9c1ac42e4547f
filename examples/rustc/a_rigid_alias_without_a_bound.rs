//| trait Number(type)
//| alias Item(type) rigid
//| impl Number(u8)
//| goal Number(Item(!I))
trait Iter {
    type Item;
}
trait Number {}
impl Number for u8 {}
fn holds<T: Number>() {}
fn generic<I: Iter>() {
    holds::<I::Item>();
}
fn main() {}
