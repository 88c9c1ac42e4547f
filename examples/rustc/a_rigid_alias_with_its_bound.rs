//| trait Number(type)
//| alias Item(type) rigid
//| env Number(Item(!I))
//| goal Number(Item(!I))
trait Iter {
    type Item;
}
trait Number {}
fn holds<T: Number>() {}
fn generic<I: Iter>()
where
    I::Item: Number,
{
    holds::<I::Item>();
}
fn main() {}
