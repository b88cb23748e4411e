pub mod alloc {
    #[derive(Clone, Copy, Debug)]
    pub struct Global;
    #[derive(Clone, Copy, Debug)]
    pub struct AllocError;
    #[derive(Clone, Copy, Debug)]
    pub struct AllocFailed<T>(pub T);
    impl<T> From<AllocFailed<T>> for AllocError {
        fn from(_: AllocFailed<T>) -> Self {
            AllocError
        }
    }
}
pub mod marker {
    pub trait Model {}
    pub struct Brand;
}
pub mod process {
    pub trait Abort {}
}
pub mod rt {
    pub trait Files {}
    pub struct R;
    impl Files for R {}
}
pub mod fs {
    pub use crate::rt::Files;
}
pub mod sync {
    pub mod ledger {
        pub trait Ledger {}
        impl Ledger for crate::marker::Brand {}
        pub struct Blank;
    }
}
pub mod collections {
    use crate::alloc::*;
    use std::collections;
    use std::hash::Hash;
    use std::ops::{Deref, DerefMut};

    /// A map of std's whose `insert` may want memory; all else is std's own.
    macro_rules! map_in_memory {
        ($map:ident, $($key:path),+) => {
            pub struct $map<K, V>(collections::$map<K, V>);
            impl<K: $($key +)+, V> $map<K, V> {
                pub fn new(_: Global) -> Self {
                    $map(collections::$map::new())
                }
                pub fn insert(&mut self, k: K, v: V) -> Result<Option<V>, AllocFailed<(K, V)>> {
                    Ok(self.0.insert(k, v))
                }
            }
            impl<K, V> Deref for $map<K, V> {
                type Target = collections::$map<K, V>;
                fn deref(&self) -> &Self::Target {
                    &self.0
                }
            }
            impl<K, V> DerefMut for $map<K, V> {
                fn deref_mut(&mut self) -> &mut Self::Target {
                    &mut self.0
                }
            }
        };
    }
    map_in_memory!(BTreeMap, Ord);
    map_in_memory!(HashMap, Hash, Eq);

    impl<'a, K, V> IntoIterator for &'a BTreeMap<K, V> {
        type Item = (&'a K, &'a V);
        type IntoIter = collections::btree_map::Iter<'a, K, V>;
        fn into_iter(self) -> Self::IntoIter {
            self.0.iter()
        }
    }
}
pub mod prelude {
    use crate::alloc::*;
    use std::ops::{Deref, DerefMut};
    #[derive(Clone, PartialEq, Eq, Debug, PartialOrd, Ord)]
    pub struct Vec<T>(pub std::vec::Vec<T>);
    impl<T> Vec<T> {
        pub fn new(_: Global) -> Self {
            Vec(std::vec::Vec::new())
        }
        pub fn with_capacity(_: Global, n: usize) -> Result<Self, AllocError> {
            Ok(Vec(std::vec::Vec::with_capacity(n)))
        }
        pub fn from_slice(_: Global, s: &[T]) -> Result<Self, AllocError>
        where
            T: Clone,
        {
            Ok(Vec(s.to_vec()))
        }
        #[inline]
        pub fn push(&mut self, t: T) -> Result<(), AllocFailed<T>> {
            self.0.push(t);
            Ok(())
        }
        pub fn insert(&mut self, i: usize, t: T) -> Result<(), AllocFailed<T>> {
            self.0.insert(i, t);
            Ok(())
        }
        pub fn extend_from_slice(&mut self, s: &[T]) -> Result<(), AllocError>
        where
            T: Clone,
        {
            self.0.extend_from_slice(s);
            Ok(())
        }
        pub fn resize(&mut self, n: usize, t: T) -> Result<(), AllocError>
        where
            T: Clone,
        {
            self.0.resize(n, t);
            Ok(())
        }
        pub fn reserve(&mut self, n: usize) -> Result<(), AllocError> {
            self.0.reserve(n);
            Ok(())
        }
    }
    impl<T> Deref for Vec<T> {
        type Target = std::vec::Vec<T>;
        #[inline]
        fn deref(&self) -> &Self::Target {
            &self.0
        }
    }
    impl<T> DerefMut for Vec<T> {
        #[inline]
        fn deref_mut(&mut self) -> &mut Self::Target {
            &mut self.0
        }
    }
    impl<T> IntoIterator for Vec<T> {
        type Item = T;
        type IntoIter = std::vec::IntoIter<T>;
        fn into_iter(self) -> Self::IntoIter {
            self.0.into_iter()
        }
    }
    impl<'a, T> IntoIterator for &'a Vec<T> {
        type Item = &'a T;
        type IntoIter = std::slice::Iter<'a, T>;
        fn into_iter(self) -> Self::IntoIter {
            self.0.iter()
        }
    }
    impl<'a, T> IntoIterator for &'a mut Vec<T> {
        type Item = &'a mut T;
        type IntoIter = std::slice::IterMut<'a, T>;
        fn into_iter(self) -> Self::IntoIter {
            self.0.iter_mut()
        }
    }
    #[derive(Clone, PartialEq, Eq, Debug, PartialOrd, Ord, Hash)]
    pub struct String(pub std::string::String);
    impl String {
        pub fn new(_: Global) -> Self {
            String(std::string::String::new())
        }
        pub fn from_str(_: Global, s: &str) -> Result<Self, AllocError> {
            Ok(String(s.to_string()))
        }
        pub fn into_bytes(self) -> Vec<u8> {
            Vec(self.0.into_bytes())
        }
        pub fn push_str(&mut self, s: &str) -> Result<(), AllocError> {
            self.0.push_str(s);
            Ok(())
        }
        pub fn push(&mut self, c: char) -> Result<(), AllocError> {
            self.0.push(c);
            Ok(())
        }
    }
    impl Deref for String {
        type Target = std::string::String;
        fn deref(&self) -> &Self::Target {
            &self.0
        }
    }
    impl DerefMut for String {
        fn deref_mut(&mut self) -> &mut Self::Target {
            &mut self.0
        }
    }
    impl std::fmt::Display for String {
        fn fmt(&self, f: &mut std::fmt::Formatter<'_>) -> std::fmt::Result {
            self.0.fmt(f)
        }
    }
    pub fn fmt_string(_a: Global, s: std::string::String) -> Result<String, AllocError> {
        Ok(String(s))
    }
}
pub fn vector<T>(v: std::vec::Vec<T>) -> Result<prelude::Vec<T>, alloc::AllocError> {
    Ok(prelude::Vec(v))
}
pub fn text(v: std::string::String) -> Result<prelude::String, alloc::AllocError> {
    Ok(prelude::String(v))
}
