use std::marker::PhantomData;

pub trait Combinator<T> {}

pub struct Context;

impl Context {
    pub fn sized(_: usize, _: usize) -> Context {
        unreachable!()
    }
}

pub fn problem_to_url_with_context<T, C: Combinator<T>>(
    _: C,
    _: &str,
    _: T,
    _: &Context,
) -> Option<String> {
    unreachable!()
}

pub fn url_to_problem<T, C: Combinator<T>>(_: C, _: &[&str], _: &str) -> Option<T> {
    unreachable!()
}

pub struct HexInt;
pub struct MultiDigit;
pub struct Choice<T>(PhantomData<T>);
pub struct ContextBasedGrid<C>(PhantomData<C>);
pub struct Dict<T>(PhantomData<T>);
pub struct Optionalize<C>(PhantomData<C>);
pub struct Size<C>(PhantomData<C>);
pub struct Spaces<T>(PhantomData<T>);
pub struct Tuple2<A, B>(PhantomData<(A, B)>);

impl Combinator<i32> for HexInt {}
impl Combinator<i32> for MultiDigit {}
impl<T> Combinator<T> for Choice<T> {}
impl<T, C: Combinator<T>> Combinator<Vec<Vec<T>>> for ContextBasedGrid<C> {}
impl<T> Combinator<T> for Dict<T> {}
impl<T, C: Combinator<T>> Combinator<Option<T>> for Optionalize<C> {}
impl<T, C: Combinator<T>> Combinator<T> for Size<C> {}
impl<T> Combinator<T> for Spaces<T> {}
impl<S, T, A: Combinator<S>, B: Combinator<T>> Combinator<(S, T)> for Tuple2<A, B> {}

impl MultiDigit {
    pub fn new(_: i32, _: usize) -> MultiDigit {
        unreachable!()
    }
}

impl<T> Choice<T> {
    pub fn new(_: Vec<Box<dyn Combinator<T>>>) -> Choice<T> {
        unreachable!()
    }
}

impl<C> ContextBasedGrid<C> {
    pub fn new(_: C) -> ContextBasedGrid<C> {
        unreachable!()
    }
}

impl<T> Dict<T> {
    pub fn new(_: T, _: &str) -> Dict<T> {
        unreachable!()
    }
}

impl<C> Optionalize<C> {
    pub fn new(_: C) -> Optionalize<C> {
        unreachable!()
    }
}

impl<C> Size<C> {
    pub fn new(_: C) -> Size<C> {
        unreachable!()
    }
}

impl<T> Spaces<T> {
    pub fn new(_: T, _: char) -> Spaces<T> {
        unreachable!()
    }
}

impl<A, B> Tuple2<A, B> {
    pub fn new(_: A, _: B) -> Tuple2<A, B> {
        unreachable!()
    }
}
