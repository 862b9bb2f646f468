//! Iterators over the elements of a document in memory.

use super::Document;
use crate::Bson;

/// Declares an iterator over elements.
macro_rules! iterators {
    ($($(#[$what:meta])* $name:ident $(<$life:lifetime>)? -> $item:ty, $inner:ty, $element:pat => $given:expr;)*) => {
        $(
            $(#[$what])*
            #[derive(Debug)]
            pub struct $name $(<$life>)? {
                inner: $inner,
            }

            impl $(<$life>)? $name $(<$life>)? {
                pub(super) fn new(inner: $inner) -> Self {
                    $name { inner }
                }
            }

            impl $(<$life>)? Iterator for $name $(<$life>)? {
                type Item = $item;

                fn next(&mut self) -> Option<$item> {
                    self.inner.next().map(|$element| $given)
                }

                fn size_hint(&self) -> (usize, Option<usize>) {
                    self.inner.size_hint()
                }
            }

            impl $(<$life>)? DoubleEndedIterator for $name $(<$life>)? {
                fn next_back(&mut self) -> Option<$item> {
                    self.inner.next_back().map(|$element| $given)
                }
            }

            impl $(<$life>)? ExactSizeIterator for $name $(<$life>)? {}
        )*
    };
}

iterators! {
    /// The keys and values of a document.
    Iter<'a> -> (&'a String, &'a Bson), std::slice::Iter<'a, (String, Bson)>, (key, value) => (key, value);
    /// The keys and values of a document; the values can be changed.
    IterMut<'a> -> (&'a String, &'a mut Bson), std::slice::IterMut<'a, (String, Bson)>, (key, value) => (&*key, value);
    /// The keys and values of a document that is taken apart.
    IntoIter -> (String, Bson), std::vec::IntoIter<(String, Bson)>, element => element;
}

impl IntoIterator for Document {
    type IntoIter = IntoIter;
    type Item = (String, Bson);

    fn into_iter(self) -> IntoIter {
        IntoIter::new(self.entries.into_list().into_iter())
    }
}

impl<'a> IntoIterator for &'a Document {
    type IntoIter = Iter<'a>;
    type Item = (&'a String, &'a Bson);

    fn into_iter(self) -> Iter<'a> {
        self.iter()
    }
}

impl<'a> IntoIterator for &'a mut Document {
    type IntoIter = IterMut<'a>;
    type Item = (&'a String, &'a mut Bson);

    fn into_iter(self) -> IterMut<'a> {
        self.iter_mut()
    }
}
