//! Locks, counts and cells. One thread runs, so a lock is a cell that panics where it is taken twice.

pub mod lock {
    use std::cell::{Ref, RefCell, RefMut};

    #[derive(Debug)]
    pub struct PyRwLock<T>(RefCell<T>);

    pub type PyRwLockWriteGuard<'a, T> = RefMut<'a, T>;

    impl<T> PyRwLock<T> {
        pub fn new(value: T) -> Self {
            PyRwLock(RefCell::new(value))
        }

        pub fn read(&self) -> Ref<'_, T> {
            self.0.borrow()
        }

        pub fn write(&self) -> RefMut<'_, T> {
            self.0.borrow_mut()
        }
    }

    #[derive(Debug)]
    pub struct PyMutex<T>(RefCell<T>);

    impl<T> PyMutex<T> {
        pub fn new(value: T) -> Self {
            PyMutex(RefCell::new(value))
        }

        pub fn lock(&self) -> RefMut<'_, T> {
            self.0.borrow_mut()
        }
    }
}

pub mod rc {
    pub type PyRc<T> = std::rc::Rc<T>;
}
