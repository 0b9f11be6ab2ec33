//! No wake-up is lost, and nobody is woken who wasn't told: random calls, and a judge.
//!
//! The judge keeps the four waiting lists by the rules alone: a new waiter goes last, untold;
//! the longest waiting untold one is told first; a told one that can't go on goes last again.
//! After every call the wakers that were woken have to be those of the newly told, in their
//! order. From time to time the woken are polled until none is left; then nobody may wait who
//! could go on.

mod support;

use std::cell::Cell;
use std::collections::{BTreeMap, VecDeque};
use std::future::{poll_fn, Future};
use std::pin::Pin;
use std::rc::Rc;
use std::task::{Context, Poll, Waker};

use futures_core::stream::Stream;
use support::judge::{Judge, Waiting};
use support::{Draw, Log};
use vamorilesh::{bounded, unbounded, Receiver, Sender};

/// Runs of the property, each from its own seed.
const RUNS: u64 = 1_500;
/// Calls of a run.
const CALLS: usize = 200;

/// What an operation's poll came to.
#[derive(Clone, Copy, PartialEq)]
enum Came {
    Accepted,
    Taken,
    Ended,
    Waits,
}

/// An operation of one kind, or a receiver's stream, which is never finished.
enum Operation {
    Send(Pin<Box<dyn Future<Output = Came>>>),
    Receive(Pin<Box<dyn Future<Output = Came>>>),
    Closed(Pin<Box<dyn Future<Output = Came>>>),
    Stream(Pin<Box<Receiver<u64>>>),
}

impl Operation {
    fn poll(&mut self, context: &mut Context<'_>) -> Came {
        let came = match self {
            Operation::Send(future) | Operation::Receive(future) | Operation::Closed(future) => {
                future.as_mut().poll(context)
            }
            Operation::Stream(stream) => {
                stream.as_mut().poll_next(context).map(|item| match item {
                    Some(_) => Came::Taken,
                    None => Came::Ended,
                })
            }
        };
        match came {
            Poll::Ready(came) => came,
            Poll::Pending => Came::Waits,
        }
    }
}

/// A channel, all that goes on at it, and the judge.
struct World {
    draw: Draw,
    log: Log,
    judge: Judge,
    /// How many messages the last poll of an operation moved.
    moved: Rc<Cell<usize>>,
    senders: Vec<Rc<Sender<u64>>>,
    receivers: Vec<Rc<Receiver<u64>>>,
    /// The operations that aren't finished, by name.
    operations: BTreeMap<usize, Operation>,
    /// The waker of each operation's last poll, by name.
    wakers: BTreeMap<usize, Waker>,
    next_name: usize,
}

impl World {
    fn new(seed: u64) -> World {
        let mut draw = Draw::from_seed(seed);
        let (s, r) = match draw.below(4) {
            0 => unbounded(),
            capacity => bounded(capacity),
        };
        World {
            draw,
            log: Log::default(),
            judge: Judge::default(),
            moved: Rc::default(),
            senders: vec![Rc::new(s)],
            receivers: vec![Rc::new(r)],
            operations: BTreeMap::new(),
            wakers: BTreeMap::new(),
            next_name: 0,
        }
    }

    fn sender(&mut self) -> Option<Rc<Sender<u64>>> {
        let count = self.senders.len();
        (count > 0).then(|| self.senders[self.draw.below(count)].clone())
    }

    fn receiver(&mut self) -> Option<Rc<Receiver<u64>>> {
        let count = self.receivers.len();
        (count > 0).then(|| self.receivers[self.draw.below(count)].clone())
    }

    /// One random call. None if a handle for it is missing.
    fn call(&mut self) -> Option<()> {
        match self.draw.below(28) {
            0..=3 => self.try_send(),
            4 => self.force_send(),
            5..=8 => self.try_recv(),
            24..=25 => self.try_send_many(),
            26..=27 => self.try_recv_many(),
            9..=15 => self.start(),
            16..=18 => self.poll_any(),
            19..=20 => self.cancel(),
            21 => self.copy_handle(),
            22 => self.drop_handle(),
            _ => self.close(),
        }
    }

    fn try_send(&mut self) -> Option<()> {
        let accepted = self.sender()?.try_send(0).is_ok();
        self.expect(if accepted { Judge::accepted } else { nobody });
        Some(())
    }

    fn force_send(&mut self) -> Option<()> {
        let accepted = self.sender()?.force_send(0).is_ok();
        self.expect(if accepted { Judge::accepted } else { nobody });
        Some(())
    }

    fn try_recv(&mut self) -> Option<()> {
        let taken = self.receiver()?.try_recv().is_ok();
        self.expect(if taken { Judge::taken } else { nobody });
        Some(())
    }

    fn try_send_many(&mut self) -> Option<()> {
        let mut from: VecDeque<u64> = (0..self.draw.below(5) as u64).collect();
        let count = from.len();
        let sent = self.sender()?.try_send_many(&mut from).unwrap_or(0);
        assert_eq!(sent + from.len(), count);
        self.expect(|judge| judge.accepted_many(sent));
        Some(())
    }

    fn try_recv_many(&mut self) -> Option<()> {
        let (mut into, limit) = (Vec::new(), self.draw.below(5));
        let taken = self.receiver()?.try_recv_many(&mut into, limit).unwrap_or(0);
        assert!(taken == into.len() && taken <= limit);
        self.expect(|judge| judge.taken_many(taken));
        Some(())
    }

    fn close(&mut self) -> Option<()> {
        if self.draw.below(6) > 0 {
            return None;
        }
        let was_open = self.sender()?.close();
        self.expect(if was_open { Judge::closed } else { nobody });
        Some(())
    }

    fn copy_handle(&mut self) -> Option<()> {
        if self.draw.below(2) == 0 {
            let copy = Sender::clone(&*self.sender()?);
            self.senders.push(Rc::new(copy));
        } else {
            let copy = Receiver::clone(&*self.receiver()?);
            self.receivers.push(Rc::new(copy));
        }
        self.expect(nobody);
        Some(())
    }

    /// Gives up a handle that no operation keeps.
    fn drop_handle(&mut self) -> Option<()> {
        let free_sender = self.senders.iter().position(|s| Rc::strong_count(s) == 1);
        let free_receiver = self.receivers.iter().position(|r| Rc::strong_count(r) == 1);
        if self.draw.below(2) == 0 {
            let sender = self.senders.swap_remove(free_sender?);
            let closes = sender.sender_count() == 1 && !sender.is_closed();
            drop(sender);
            self.expect(if closes { Judge::closed } else { nobody });
        } else {
            let receiver = self.receivers.swap_remove(free_receiver?);
            self.give_up_receiver(|| drop(receiver));
        }
        Some(())
    }

    /// Gives up a receiver by `give_up`. If it is the last one, closed operations go on.
    fn give_up_receiver(&mut self, give_up: impl FnOnce()) {
        let watch = self.senders.first().cloned();
        let was_closed = watch.as_ref().map_or(false, |s| s.is_closed());
        give_up();
        let Some(sender) = watch else {
            return self.expect(nobody);
        };
        let closes = sender.is_closed() && !was_closed;
        let last = sender.receiver_count() == 0;
        self.expect(|judge| {
            let first = if closes { judge.closed() } else { Vec::new() };
            [first, if last { judge.closeds.tell_all() } else { Vec::new() }].concat()
        });
    }

    /// Starts an operation and polls it at once.
    fn start(&mut self) -> Option<()> {
        let moved = self.moved.clone();
        let operation = match self.draw.below(10) {
            0..=2 => {
                let sender = self.sender()?;
                Operation::Send(Box::pin(async move {
                    let sent = sender.send(0).await;
                    moved.set(usize::from(sent.is_ok()));
                    sent.map_or(Came::Ended, |()| Came::Accepted)
                }))
            }
            8 => {
                let (sender, count) = (self.sender()?, self.draw.below(5) as u64);
                Operation::Send(Box::pin(async move {
                    let mut send = sender.send_many(0..count);
                    let sent = poll_fn(|context| {
                        let before = send.sent();
                        let polled = Pin::new(&mut send).poll(context);
                        moved.set(send.sent() - before);
                        polled
                    });
                    sent.await.map_or(Came::Ended, |()| Came::Accepted)
                }))
            }
            3..=5 => {
                let receiver = self.receiver()?;
                Operation::Receive(Box::pin(async move {
                    let taken = receiver.recv().await;
                    moved.set(usize::from(taken.is_ok()));
                    taken.map_or(Came::Ended, |_| Came::Taken)
                }))
            }
            9 => {
                let (receiver, limit) = (self.receiver()?, self.draw.below(5));
                Operation::Receive(Box::pin(async move {
                    moved.set(receiver.recv_many(&mut Vec::new(), limit).await);
                    Came::Taken
                }))
            }
            6 => {
                let sender = self.sender()?;
                Operation::Closed(Box::pin(async move {
                    sender.closed().await;
                    Came::Ended
                }))
            }
            _ => {
                let receiver = Receiver::clone(&*self.receiver()?);
                Operation::Stream(Box::pin(receiver))
            }
        };
        let name = self.next_name;
        self.next_name += 1;
        self.operations.insert(name, operation);
        self.poll(name);
        Some(())
    }

    fn poll_any(&mut self) -> Option<()> {
        let count = self.operations.len();
        let place = (count > 0).then(|| self.draw.below(count))?;
        let name = *self.operations.keys().nth(place)?;
        self.poll(name);
        Some(())
    }

    /// Polls the operation `name` with its last waker or a new one, and looks at whom that woke.
    fn poll(&mut self, name: usize) {
        if self.draw.below(2) == 0 {
            self.wakers.remove(&name);
        }
        let waker = self.wakers.entry(name).or_insert_with(|| self.log.waker(name)).clone();
        let mut operation = self.operations.remove(&name).unwrap();
        let came = operation.poll(&mut Context::from_waker(&waker));
        let is_stream = matches!(operation, Operation::Stream(_));
        let moved = match came {
            Came::Taken if is_stream => 1,
            _ => self.moved.take(),
        };
        let list = list_of(&operation, &mut self.judge);
        // A send of many that sent some and waits for room has begun to wait anew.
        if came != Came::Waits || moved > 0 {
            list.remove(name);
        }
        if came == Came::Waits {
            list.wait(name);
        }
        self.expect(|judge| match came {
            Came::Accepted | Came::Waits => judge.accepted_many(moved),
            Came::Taken => judge.taken_many(moved),
            Came::Ended => Vec::new(),
        });
        if came == Came::Waits || is_stream {
            self.operations.insert(name, operation);
        }
    }

    /// Gives up an unfinished operation, or a stream's receiver.
    fn cancel(&mut self) -> Option<()> {
        let count = self.operations.len();
        let place = (count > 0).then(|| self.draw.below(count))?;
        let name = *self.operations.keys().nth(place)?;
        let operation = self.operations.remove(&name)?;
        let was_told = list_of(&operation, &mut self.judge).remove(name);
        match operation {
            Operation::Stream(stream) => self.give_up_receiver(|| drop(stream)),
            Operation::Send(send) => {
                drop(send);
                self.expect(|judge| if was_told { judge.sends.tell_one() } else { Vec::new() });
            }
            Operation::Receive(receive) => {
                drop(receive);
                self.expect(|judge| if was_told { judge.receives.tell_one() } else { Vec::new() });
            }
            Operation::Closed(closed) => {
                drop(closed);
                self.expect(nobody);
            }
        }
        Some(())
    }

    /// Those who were woken since the last look are just those whom the judge tells, in order.
    fn expect(&mut self, tells: impl FnOnce(&mut Judge) -> Vec<usize>) {
        assert_eq!(self.log.take(), tells(&mut self.judge));
    }

    /// Polls those who were told, in a random order, until nobody is. Then nobody waits in vain.
    fn settle(&mut self) {
        loop {
            let told = self.told();
            if told.is_empty() {
                break;
            }
            let place = self.draw.below(told.len());
            self.poll(told[place]);
        }
        let handle = self.senders.first();
        let state = handle.map(|s| (s.is_closed(), s.is_empty(), s.is_full(), s.receiver_count()));
        let Some((closed, empty, full, receivers)) = state else {
            return;
        };
        assert!(self.judge.sends.names.is_empty() || (!closed && full));
        assert!(self.judge.receives.names.is_empty() || (!closed && empty));
        assert!(self.judge.streams.names.is_empty() || (!closed && empty));
        assert!(self.judge.closeds.names.is_empty() || receivers > 0);
    }

    fn told(&self) -> Vec<usize> {
        let Judge { sends, receives, streams, closeds } = &self.judge;
        let lists = [sends, receives, streams, closeds].into_iter();
        lists.flat_map(|list| list.names[..list.told].to_vec()).collect()
    }
}

fn nobody(_: &mut Judge) -> Vec<usize> {
    Vec::new()
}

/// The waiting list that an operation waits in.
fn list_of<'a>(operation: &Operation, judge: &'a mut Judge) -> &'a mut Waiting {
    match operation {
        Operation::Send(_) => &mut judge.sends,
        Operation::Receive(_) => &mut judge.receives,
        Operation::Closed(_) => &mut judge.closeds,
        Operation::Stream(_) => &mut judge.streams,
    }
}

#[test]
fn whom_calls_wake_and_that_nobody_waits_in_vain() {
    for seed in 0..RUNS {
        let mut world = World::new(seed);
        for _ in 0..CALLS {
            let _ = world.call();
            if world.draw.below(12) == 0 {
                world.settle();
            }
        }
        world.settle();
    }
}
