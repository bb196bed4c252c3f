//! Makes what a difference was found in small, whatever it is.

/// What can be made smaller, step by step.
pub trait Shrink: Clone + PartialEq {
    /// What is found in it.
    type Found: Clone;

    /// Tries every way to make it smaller once, and [adopts](Small::adopt) those in which something
    /// is still found.
    fn smaller(small: &mut Small<Self>, test: Test<'_, Self>);

    /// Leaves out what lies behind what was found, if that can be said without a test.
    fn cut(&mut self, _found: &Self::Found) {}
}

/// What is looked for.
pub type Test<'a, T> = &'a dyn Fn(&T) -> Option<<T as Shrink>::Found>;

/// Something in which a difference was found, as small as it has become.
#[derive(Clone, Debug)]
pub struct Small<T: Shrink> {
    /// The thing.
    pub inner: T,
    /// What was found in it.
    pub found: T::Found,
}

impl<T: Shrink> Small<T> {
    fn new(mut inner: T, found: T::Found) -> Small<T> {
        inner.cut(&found);
        Small { inner, found }
    }

    /// Takes the candidate if something is found in it too.
    pub fn adopt(&mut self, candidate: T, test: Test<'_, T>) -> bool {
        if candidate == self.inner {
            return false;
        }
        match test(&candidate) {
            Some(found) => {
                *self = Small::new(candidate, found);
                true
            }
            None => false,
        }
    }
}

/// Makes it smaller as long as the test finds something.
pub fn shrink_by<T: Shrink>(inner: &T, found: T::Found, test: Test<'_, T>) -> Small<T> {
    let mut small = Small::new(inner.clone(), found);
    loop {
        let before = small.inner.clone();
        T::smaller(&mut small, test);
        if small.inner == before {
            return small;
        }
    }
}
