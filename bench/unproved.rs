//! The crates as plain Rust, by `bench/unproved`: what takes the place of the proved collections, and a program.

// The crates.

/// The calls of the proved library that the crates use, over the collections of Rust.
mod proved {
    use std::cmp::Ordering;
    use std::collections::{btree_map, vec_deque};
    use std::ops::{Deref, DerefMut};

    #[derive(Clone, Copy, Debug, PartialEq, Eq)]
    pub struct AllocError;

    #[derive(Clone, Copy, Debug)]
    pub struct Global;

    #[derive(Clone, Copy, Debug)]
    pub struct Brand;

    #[derive(Debug)]
    pub struct AllocFailed<T> {
        pub value: T,
    }

    impl<T> From<AllocFailed<T>> for AllocError {
        fn from(_: AllocFailed<T>) -> AllocError {
            AllocError
        }
    }

    /// A type over one of Rust, with its methods that can't fail.
    macro_rules! over {
        ($name:ident<$($t:ident),*>, $inner:ty, $target:ty) => {
            pub struct $name<$($t),*>(pub $inner);

            impl<$($t),*> Deref for $name<$($t),*> {
                type Target = $target;

                #[inline(always)]
                fn deref(&self) -> &$target {
                    &self.0
                }
            }

            impl<$($t),*> DerefMut for $name<$($t),*> {
                #[inline(always)]
                fn deref_mut(&mut self) -> &mut $target {
                    &mut self.0
                }
            }
        };
    }

    over!(Vec<T>, std::vec::Vec<T>, std::vec::Vec<T>);
    over!(VecDeque<T>, std::collections::VecDeque<T>, std::collections::VecDeque<T>);
    over!(BTreeMap<K, V>, std::collections::BTreeMap<K, V>, std::collections::BTreeMap<K, V>);
    over!(Box<T>, std::boxed::Box<T>, T);

    #[rustfmt::skip]
    impl<T> Vec<T> {
        #[inline(always)] pub fn new(_: Global) -> Self { Vec(Default::default()) }
        #[inline(always)] pub fn with_capacity(_: Global, n: usize) -> Result<Self, AllocError> { Ok(Vec(std::vec::Vec::with_capacity(n))) }
        #[inline(always)] pub fn push(&mut self, item: T) -> Result<(), AllocError> { self.0.push(item); Ok(()) }
        #[inline(always)] pub fn push_reserved(&mut self, item: T) { unsafe { std::hint::assert_unchecked(self.0.len() < self.0.capacity()) }; self.0.push(item) }
        #[inline(always)] pub fn reserve(&mut self, n: usize) -> Result<(), AllocError> { self.0.reserve(n); Ok(()) }
        #[inline(always)] pub fn reserve_exact(&mut self, n: usize) -> Result<(), AllocError> { self.0.reserve_exact(n); Ok(()) }
        #[inline(always)] pub fn append(&mut self, other: &mut Vec<T>) -> Result<(), AllocError> { self.0.append(&mut other.0); Ok(()) }
    }

    #[rustfmt::skip]
    impl<T: Copy> Vec<T> {
        #[inline(always)] pub fn extend_from_slice(&mut self, items: &[T]) -> Result<(), AllocError> { self.0.extend_from_slice(items); Ok(()) }
        #[inline(always)] pub fn from_slice(_: Global, items: &[T]) -> Result<Self, AllocError> { Ok(Vec(items.to_vec())) }
    }

    #[rustfmt::skip]
    impl<T> VecDeque<T> {
        pub fn new(_: Global) -> Self { VecDeque(Default::default()) }
        pub fn push_back(&mut self, item: T) -> Result<(), AllocFailed<T>> { self.0.push_back(item); Ok(()) }
        pub fn push_back_reserved(&mut self, item: T) { self.0.push_back(item) }
    }

    #[rustfmt::skip]
    impl<K: Ord, V> BTreeMap<K, V> {
        pub fn new(_: Global) -> Self { BTreeMap(Default::default()) }
        pub fn insert(&mut self, key: K, value: V) -> Result<Option<V>, AllocError> { Ok(self.0.insert(key, value)) }
        pub fn entry(&mut self, key: K) -> Result<btree_map::Entry<'_, K, V>, AllocError> { Ok(self.0.entry(key)) }
    }

    #[rustfmt::skip]
    impl<T> Box<T> {
        pub fn new(_: Global, value: T) -> Result<Self, AllocError> { Ok(Box(std::boxed::Box::new(value))) }
        pub fn into_inner(this: Self) -> T { *this.0 }
    }

    /// A trait of Rust, by that of the type within.
    #[rustfmt::skip]
    mod by_inner {
        use super::*;
        impl<T: Clone> Clone for Vec<T> { fn clone(&self) -> Self { Vec(self.0.clone()) } }
        impl<T: std::fmt::Debug> std::fmt::Debug for Vec<T> { fn fmt(&self, f: &mut std::fmt::Formatter) -> std::fmt::Result { self.0.fmt(f) } }
        impl<T: PartialEq> PartialEq for Vec<T> { fn eq(&self, other: &Self) -> bool { self.0 == other.0 } }
        impl<T: Eq> Eq for Vec<T> {}
        impl<T: PartialOrd> PartialOrd for Vec<T> { fn partial_cmp(&self, other: &Self) -> Option<Ordering> { self.0.partial_cmp(&other.0) } }
        impl<T: Ord> Ord for Vec<T> { fn cmp(&self, other: &Self) -> Ordering { self.0.cmp(&other.0) } }
        impl<T> IntoIterator for Vec<T> { type Item = T; type IntoIter = std::vec::IntoIter<T>; fn into_iter(self) -> Self::IntoIter { self.0.into_iter() } }
        impl<'a, T> IntoIterator for &'a Vec<T> { type Item = &'a T; type IntoIter = std::slice::Iter<'a, T>; fn into_iter(self) -> Self::IntoIter { self.0.iter() } }
        impl<'a, T> IntoIterator for &'a VecDeque<T> { type Item = &'a T; type IntoIter = vec_deque::Iter<'a, T>; fn into_iter(self) -> Self::IntoIter { self.0.iter() } }
        impl<K: Ord, V> IntoIterator for BTreeMap<K, V> { type Item = (K, V); type IntoIter = btree_map::IntoIter<K, V>; fn into_iter(self) -> Self::IntoIter { self.0.into_iter() } }
        impl<'a, K: Ord, V> IntoIterator for &'a BTreeMap<K, V> { type Item = (&'a K, &'a V); type IntoIter = btree_map::Iter<'a, K, V>; fn into_iter(self) -> Self::IntoIter { self.0.iter() } }
    }

    /// In place of the crate itoa.
    pub struct Buffer(String);

    impl Buffer {
        pub fn new() -> Buffer {
            Buffer(String::new())
        }

        pub fn format<T: ToString>(&mut self, number: T) -> &str {
            self.0 = number.to_string();
            &self.0
        }
    }

    static PAIRS: [u8; 200] = {
        let mut pairs = [0; 200];
        let mut pair = 0;
        while pair < 100 {
            pairs[2 * pair] = b'0' + pair as u8 / 10;
            pairs[2 * pair + 1] = b'0' + pair as u8 % 10;
            pair += 1;
        }
        pairs
    };

    /// In place of the function of that crate: as there, two digits at a time.
    #[inline]
    pub fn write_digits(number: u64, bytes: &mut [u8], end: usize) -> usize {
        let (mut left, mut at) = (number as usize, end);
        while left >= 10 {
            let pair = left % 100;
            bytes[at - 2..at].copy_from_slice(&PAIRS[2 * pair..2 * pair + 2]);
            at -= 2;
            left /= 100;
        }
        if left > 0 || at == end {
            at -= 1;
            bytes[at] = b'0' + left as u8;
        }
        at
    }
}

use oas_bytes::{NotedWriter, ReaderSource};
use oas_elements::{Limits, Profile};
use oas_judge::{Given, is_canonical, read_given, read_layout, write_canonical, write_listing};
use proved::Global;
use std::io::Write;

fn main() {
    let words: Vec<String> = std::env::args().collect();
    let [_, command, path] = &words[..] else {
        panic!("unproved canon|check|show FILE");
    };
    let file = std::fs::File::open(path).expect("the file can't be opened");
    let mut source = ReaderSource::new(Global, file, u64::MAX).expect("out of memory");
    let mut writer = NotedWriter::new(std::io::stdout());
    let (limits, by) = (Limits::large(), Profile::Two);
    match command.as_str() {
        "canon" => match read_given(Global, &mut source, limits, by).expect("refused") {
            Given::Canonical(bytes) => std::io::stdout().write_all(&bytes).expect("not written"),
            Given::Layout(layout) => drop(write_canonical(&layout, &mut writer).expect("not written")),
        },
        "check" => println!("{}", is_canonical(Global, &mut source, limits, by).expect("refused")),
        "show" => {
            let layout = read_layout(Global, &mut source, limits, by).expect("refused");
            write_listing(&layout, &mut writer).expect("not written");
        }
        other => panic!("{other}: no such command"),
    }
}
