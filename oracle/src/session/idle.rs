//! When is a call over?

use std::{
    future::poll_fn,
    sync::{
        atomic::{AtomicBool, Ordering::SeqCst},
        Arc, Mutex,
    },
    task::{Poll, Waker},
};

/// Tells when the current-thread runtime has nothing left to run.
#[derive(Clone, Default)]
pub struct Idle {
    waiting: Arc<Mutex<Option<Waker>>>,
    came: Arc<AtomicBool>,
}

impl Idle {
    /// Called by the runtime when its run queue is empty, before it parks.
    pub fn arrived(&self) {
        if let Some(waker) = self.waiting.lock().unwrap().take() {
            self.came.store(true, SeqCst);
            waker.wake();
        }
    }

    pub async fn reached(&self) {
        self.came.store(false, SeqCst);
        poll_fn(|context| {
            if self.came.load(SeqCst) {
                return Poll::Ready(());
            }
            *self.waiting.lock().unwrap() = Some(context.waker().clone());
            Poll::Pending
        })
        .await;
    }
}
