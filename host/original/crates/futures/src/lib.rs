//! The boxed future that the original's traits return, and the waker that its queues keep.
#![forbid(unsafe_code)]

pub mod future {
    pub type BoxFuture<'a, T> = core::pin::Pin<Box<dyn Future<Output = T> + Send + 'a>>;
}

pub mod task {
    use std::sync::{Mutex, MutexGuard, PoisonError};
    use std::task::Waker;

    #[derive(Default)]
    pub struct AtomicWaker(Mutex<Option<Waker>>);

    impl AtomicWaker {
        pub fn new() -> Self {
            Self::default()
        }

        pub fn register(&self, waker: &Waker) {
            *self.kept() = Some(waker.clone());
        }

        pub fn wake(&self) {
            let waker = self.kept().take();
            if let Some(waker) = waker {
                waker.wake();
            }
        }

        fn kept(&self) -> MutexGuard<'_, Option<Waker>> {
            self.0.lock().unwrap_or_else(PoisonError::into_inner)
        }
    }
}

pub trait FutureExt: Future {
    fn boxed<'a>(self) -> future::BoxFuture<'a, Self::Output>
    where
        Self: Sized + Send + 'a,
    {
        Box::pin(self)
    }
}

impl<F: Future> FutureExt for F {}
