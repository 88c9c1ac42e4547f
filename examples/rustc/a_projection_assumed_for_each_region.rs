//| type R(region, type)
//| trait Iterator(type)
//| trait Number(type)
//| trait Sum(type)
//| alias Item(type)
//| impl Number(u8)
//| impl Sum(?I) <- Iterator(?I), Number(Item(?I))
//| env for<'a> Iterator(R('a, !T)), for<'a> Item(R('a, !T)) = u8
//| goal Sum(R('static, !T))
trait Iter {
    type Item;
}
trait Number {}
trait Sum {}
impl Number for u8 {}
impl<I: Iter> Sum for I where I::Item: Number {}
fn holds<T: Sum>() {}
struct R<'a, T>(&'a T);
fn generic<T: 'static>()
where
    for<'a> R<'a, T>: Iter<Item = u8>,
{
    holds::<R<'static, T>>();
}
fn main() {}
