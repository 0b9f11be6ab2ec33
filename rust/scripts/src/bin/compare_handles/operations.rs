//! Operations that are kept under a name. A future borrows its handle, so that each is kept by a
//! future that has the handle too: it never ends, and its polls are those of the operation.

use std::cell::Cell;
use std::collections::VecDeque;
use std::future::{poll_fn, Future};
use std::pin::Pin;
use std::rc::Rc;
use std::task::{Context, Poll, Waker};

use vamorilesh::run::Reply;
use vamorilesh::{Receiver, SendError, Sender};

use crate::lines::Answer;

/// An operation, or a receiver's stream, keeps its handle all the time that it is there.
pub struct Operation {
    kept: Pin<Box<dyn Future<Output = ()>>>,
    desk: Rc<Desk>,
}

/// What an operation and who polls it hand to one another.
#[derive(Default)]
struct Desk {
    /// What the last poll answered.
    answer: Cell<Option<Answer>>,
    /// Whether the operation is given up, and what it has left is wanted.
    gives_up: Cell<bool>,
}

impl Operation {
    fn new<F: Future<Output = ()> + 'static>(keep: impl FnOnce(Rc<Desk>) -> F) -> Operation {
        let desk = Rc::<Desk>::default();
        Operation { kept: Box::pin(keep(desk.clone())), desk }
    }

    pub fn send(sender: Rc<Sender<u64>>, message: u64) -> Operation {
        Operation::new(|desk| async move {
            let mut send = sender.send(message);
            for_ever(|context| {
                let polled = Pin::new(&mut send).poll(context);
                desk.answer.set(Some(Answer::One(Reply::SendPolled(polled))));
            })
            .await
        })
    }

    pub fn recv(receiver: Rc<Receiver<u64>>) -> Operation {
        Operation::new(|desk| async move {
            let mut receive = receiver.recv();
            for_ever(|context| {
                let polled = Pin::new(&mut receive).poll(context);
                desk.answer.set(Some(Answer::One(Reply::RecvPolled(polled))));
            })
            .await
        })
    }

    pub fn closed(sender: Rc<Sender<u64>>) -> Operation {
        Operation::new(|desk| async move {
            let mut closed = sender.closed();
            for_ever(|context| {
                let polled = Pin::new(&mut closed).poll(context);
                desk.answer.set(Some(Answer::One(Reply::ClosedPolled(polled))));
            })
            .await
        })
    }

    /// A receive of many. Once it has finished it begins anew, with the same list.
    pub fn recv_many(receiver: Rc<Receiver<u64>>, mut into: Vec<u64>, limit: usize) -> Operation {
        Operation::new(|desk| async move {
            loop {
                let mut receive = receiver.recv_many(&mut into, limit);
                let count = poll_fn(|context| {
                    desk.answer.set(Some(Answer::Received(Poll::Pending, Vec::new())));
                    Pin::new(&mut receive).poll(context)
                });
                let count = count.await;
                desk.answer.set(Some(Answer::Received(Poll::Ready(count), into.clone())));
                pause().await;
            }
        })
    }

    pub fn send_many(sender: Rc<Sender<u64>>, messages: VecDeque<u64>) -> Operation {
        Operation::new(|desk| async move {
            let mut send = sender.send_many(messages);
            poll_fn(|context| {
                if desk.gives_up.get() {
                    return Poll::Ready(());
                }
                let polled = Pin::new(&mut send).poll(context).map_err(SendError::into_inner);
                desk.answer.set(Some(Answer::Sent(polled, send.sent())));
                Poll::Pending
            })
            .await;
            desk.answer.set(Some(Answer::Messages(send.into_unsent().into())));
        })
    }

    /// Polls the operation.
    pub fn poll(&mut self, waker: &Waker) -> Answer {
        let _never_ready = self.kept.as_mut().poll(&mut Context::from_waker(waker));
        self.desk.answer.take().expect("each poll answers")
    }

    /// Gives a send of many up, and answers what it has left.
    pub fn into_unsent(mut self) -> Answer {
        self.desk.gives_up.set(true);
        self.poll(Waker::noop())
    }
}

/// Calls `poll` in each of its polls.
async fn for_ever(mut poll: impl FnMut(&mut Context<'_>)) {
    poll_fn(|context| {
        poll(context);
        Poll::Pending
    })
    .await
}

/// Ends the poll that it is in, and none else.
async fn pause() {
    let mut polls = 0;
    poll_fn(|_| {
        polls += 1;
        if polls > 1 {
            Poll::Ready(())
        } else {
            Poll::Pending
        }
    })
    .await
}
