//! Between a job and its host: what a driver asks for, and waits for. A driver is a future that is polled whenever a
//! reply lies on its desk; so four of them share one link, and none of them knows of the others.

use crate::board::Trouble;
use crate::host::Completion;
use ctc_words::interface::Store;
use std::cell::RefCell;
use std::future::Future;
use std::ops::Deref;
use std::pin::Pin;
use std::rc::Rc;
use std::task::{Context, Poll};

/// A part of a file, without a copy of it.
#[derive(Clone, Debug, Default, PartialEq, Eq)]
pub struct Part {
    pub(super) file: Rc<Vec<u8>>,
    pub(super) from: usize,
    pub(super) to: usize,
}

impl Deref for Part {
    type Target = [u8];

    fn deref(&self) -> &[u8] {
        &self.file[self.from..self.to]
    }
}

pub enum Request {
    /// Stores for the queue, in this order, and the bytes of a write.
    Stores(Vec<Store>, Part),
    Load(u8),
    CheckBytes(u8),
}

pub enum Reply {
    Completions(Vec<Completion>),
    Word(u32),
    Bytes(Vec<u8>),
}

/// Between a job and its host: at most one request, and its reply.
#[derive(Default)]
pub struct Mail {
    pub request: Option<Request>,
    pub reply: Option<Result<Reply, Trouble>>,
    /// What the driver says of what it does.
    pub notes: Vec<String>,
}

pub type Desk = Rc<RefCell<Mail>>;

pub(super) struct Waiting(pub(super) Desk);

impl Future for Waiting {
    type Output = Result<Reply, Trouble>;

    fn poll(self: Pin<&mut Self>, _: &mut Context) -> Poll<Self::Output> {
        match self.0.borrow_mut().reply.take() {
            Some(reply) => Poll::Ready(reply),
            None => Poll::Pending,
        }
    }
}
