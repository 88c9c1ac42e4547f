//| trait Iterator(type)
//| trait Same(type, type)
//| trait Bytes(type)
//| alias Item(type)
//| impl Same(?T, ?T)
//| impl Bytes(?I) <- Iterator(?I), Same(Item(?I), u8)
//| env Iterator(!I), Item(!I) = u8
//| goal Bytes(!I)
trait Iter {
    type Item;
}
fn holds<T: Iter<Item = u8>>() {}
fn generic<I: Iter<Item = u8>>() {
    holds::<I>();
}
fn main() {}
