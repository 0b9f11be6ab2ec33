//! Random lines, the same for the same seed. Names are picked from those that are live.

use std::collections::{BTreeMap, VecDeque};

use vamorilesh::run::{Kind, Side, Step, Who};
use vamorilesh::ROUND_LIMIT;

use crate::handles::Handles;
use crate::lines::Line;
use crate::support::Draw;

/// Writes the lines of one script.
pub struct Writer {
    draw: Draw,
    /// Whether some batches take more than one round.
    is_large: bool,
    /// Whether the channel may be closed before the end.
    closes: bool,
    /// How many operations of one side begin yet, before anything else is done.
    crowd: usize,
    /// Whether sends are more frequent now than receives.
    fills: bool,
    /// The operation that the last line began.
    begun: Option<u64>,
    /// The last name that was made, and the last message.
    name: u64,
    message: u64,
}

/// How many messages a batch of several rounds has at the most.
const LARGE: usize = 400;

/// How many operations a crowd has: one for each message of a round, and some more.
const CROWD: usize = ROUND_LIMIT + 30;

/// Makes one line, unless what it needs isn't live.
type Make = fn(&mut Writer, &Handles) -> Option<Line>;

/// Each kind of line, and how often it is picked while the channel fills, and while it drains.
const KINDS: [([usize; 2], Make); 15] = [
    ([9, 2], Writer::try_send_many),
    ([2, 9], Writer::try_recv_many),
    ([5, 1], Writer::send_many_blocking),
    ([1, 5], Writer::recv_many_blocking),
    ([1, 5], Writer::try_iter),
    ([12, 12], Writer::start_many),
    ([12, 12], Writer::start),
    ([16, 16], Writer::poll),
    ([2, 10], Writer::poll_next),
    ([10, 10], Writer::give_up),
    ([7, 2], Writer::try_send),
    ([2, 6], Writer::try_recv),
    ([4, 4], Writer::copy),
    ([4, 4], Writer::drop),
    ([1, 1], Writer::close),
];

impl Writer {
    pub fn new(seed: u64) -> Writer {
        let mut draw = Draw::from_seed(seed);
        let crowd = if draw.below(300) == 0 { CROWD } else { 0 };
        let is_large = crowd > 0 || draw.below(5) == 0;
        let (closes, fills) = (draw.below(2) == 0, draw.below(2) == 0);
        Writer { draw, is_large, closes, crowd, fills, begun: None, name: 0, message: 0 }
    }

    /// How many messages the channel may hold.
    pub fn kind(&mut self) -> Kind {
        match self.draw.below(8) {
            0 | 1 => Kind::Unbounded,
            2 if self.is_large => Kind::Bounded(100 + self.draw.below(300)),
            _ if self.crowd > 0 => Kind::Bounded(ROUND_LIMIT + self.draw.below(100)),
            _ => Kind::Bounded(1 + self.draw.below(5)),
        }
    }

    /// How many lines there are.
    pub fn count(&mut self) -> usize {
        20 + self.draw.below(120) + 2 * self.crowd
    }

    /// A line. An operation that was begun is polled soon, and so is who was told.
    pub fn line(&mut self, live: &Handles, told: &[Who]) -> Option<Line> {
        let is_crowd = self.crowd > 0;
        let begun = self.begun.take().filter(|_| is_crowd || self.draw.below(4) > 0);
        if let Some(op) = begun {
            return Some(Line::One(Step::Poll(op)));
        }
        if self.crowd > 0 {
            return self.crowd(live);
        }
        if !told.is_empty() && self.draw.below(4) == 0 {
            return Some(Line::One(told[self.draw.below(told.len())].poll()));
        }
        self.fills ^= self.draw.below(15) == 0;
        self.make()(self, live)
    }

    /// The operations of a crowd all have to wait. After it the other side is more frequent.
    fn crowd(&mut self, live: &Handles) -> Option<Line> {
        let is_first = self.crowd == CROWD;
        self.crowd -= 1;
        if self.crowd == 0 {
            self.fills ^= true;
            return None;
        }
        if !self.fills {
            return Some(Line::One(self.start_recv(live)?));
        }
        if is_first {
            let messages = (0..LARGE).map(|_| self.new_message()).collect();
            return Some(Line::TrySendMany { sender: self.of(&live.senders)?, messages });
        }
        Some(Line::One(self.start_send(live)?))
    }

    fn make(&mut self) -> Make {
        let weights = KINDS.map(|(weights, _)| weights[usize::from(!self.fills)]);
        let mut place = self.draw.below(weights.iter().sum());
        let is_here = |weight: &usize| {
            let is_here = place < *weight;
            place = place.wrapping_sub(*weight);
            is_here
        };
        let kind = weights.iter().position(is_here).expect("the place is below their sum");
        KINDS[kind].1
    }

    /// A live name.
    fn of<V>(&mut self, live: &BTreeMap<u64, V>) -> Option<u64> {
        let place = (!live.is_empty()).then(|| self.draw.below(live.len()))?;
        live.keys().nth(place).copied()
    }

    /// A name that isn't live, and never was.
    fn new_name(&mut self) -> u64 {
        self.name += 1;
        self.name
    }

    fn new_message(&mut self) -> u64 {
        self.message += 1;
        self.message
    }

    /// How many messages a batch has.
    fn size(&mut self) -> usize {
        if self.is_large && self.draw.below(3) == 0 {
            return self.draw.below(LARGE);
        }
        self.draw.below(8)
    }

    fn limit(&mut self) -> usize {
        match self.draw.below(6) {
            0 => usize::MAX,
            _ => self.size(),
        }
    }

    fn messages(&mut self) -> VecDeque<u64> {
        let count = self.size();
        (0..count).map(|_| self.new_message()).collect()
    }

    /// What a list has before messages come.
    fn before(&mut self) -> Vec<u64> {
        vec![0; self.draw.below(3)]
    }

    fn side(&mut self, live: &Handles) -> Option<Side> {
        match self.draw.below(2) {
            0 => self.of(&live.senders).map(Side::Sender),
            _ => self.of(&live.receivers).map(Side::Receiver),
        }
    }

    fn try_send_many(&mut self, live: &Handles) -> Option<Line> {
        let (sender, messages) = (self.of(&live.senders)?, self.messages());
        Some(Line::TrySendMany { sender, messages })
    }

    fn try_recv_many(&mut self, live: &Handles) -> Option<Line> {
        let (receiver, before) = (self.of(&live.receivers)?, self.before());
        Some(Line::TryRecvMany { receiver, before, limit: self.limit() })
    }

    fn send_many_blocking(&mut self, live: &Handles) -> Option<Line> {
        let (sender, messages) = (self.of(&live.senders)?, self.messages());
        Some(Line::SendManyBlocking { sender, messages })
    }

    fn recv_many_blocking(&mut self, live: &Handles) -> Option<Line> {
        let (receiver, before) = (self.of(&live.receivers)?, self.before());
        Some(Line::RecvManyBlocking { receiver, before, limit: self.limit() })
    }

    fn try_iter(&mut self, live: &Handles) -> Option<Line> {
        let receiver = self.of(&live.receivers)?;
        Some(Line::TryIter { receiver, limit: self.limit() })
    }

    /// Whether an operation that begins is a send.
    fn is_send(&mut self) -> bool {
        (self.draw.below(4) == 0) != self.fills
    }

    fn new_operation(&mut self) -> u64 {
        let op = self.new_name();
        self.begun = Some(op);
        op
    }

    fn start_many(&mut self, live: &Handles) -> Option<Line> {
        if self.is_send() {
            let (sender, messages) = (self.of(&live.senders)?, self.messages());
            return Some(Line::StartSendMany { op: self.new_operation(), sender, messages });
        }
        let (receiver, before, limit) = (self.of(&live.receivers)?, self.before(), self.limit());
        Some(Line::StartRecvMany { op: self.new_operation(), receiver, before, limit })
    }

    fn start(&mut self, live: &Handles) -> Option<Line> {
        let step = if self.draw.below(6) == 0 {
            let sender = self.of(&live.senders)?;
            Step::StartClosed { op: self.new_operation(), sender }
        } else if self.is_send() {
            self.start_send(live)?
        } else {
            self.start_recv(live)?
        };
        Some(Line::One(step))
    }

    fn start_send(&mut self, live: &Handles) -> Option<Step<u64>> {
        let (sender, msg) = (self.of(&live.senders)?, self.new_message());
        Some(Step::StartSend { op: self.new_operation(), sender, msg })
    }

    fn start_recv(&mut self, live: &Handles) -> Option<Step<u64>> {
        let receiver = self.of(&live.receivers)?;
        Some(Step::StartRecv { op: self.new_operation(), receiver })
    }

    fn poll(&mut self, live: &Handles) -> Option<Line> {
        Some(Line::One(Step::Poll(self.of(&live.operations)?)))
    }

    fn poll_next(&mut self, live: &Handles) -> Option<Line> {
        Some(Line::One(Step::PollNext(self.of(&live.receivers)?)))
    }

    fn give_up(&mut self, live: &Handles) -> Option<Line> {
        let op = self.of(&live.operations)?;
        match self.draw.below(3) {
            0 => Some(Line::IntoUnsent(op)),
            _ => Some(Line::One(Step::DropOp(op))),
        }
    }

    fn try_send(&mut self, live: &Handles) -> Option<Line> {
        let (sender, message) = (self.of(&live.senders)?, self.new_message());
        Some(Line::One(match self.draw.below(3) {
            0 => Step::ForceSend(sender, message),
            _ => Step::TrySend(sender, message),
        }))
    }

    fn try_recv(&mut self, live: &Handles) -> Option<Line> {
        Some(Line::One(Step::TryRecv(self.of(&live.receivers)?)))
    }

    fn copy(&mut self, live: &Handles) -> Option<Line> {
        let new = self.new_name();
        Some(Line::One(match self.draw.below(8) {
            0 | 1 => Step::CloneSender { of: self.of(&live.senders)?, new },
            2 | 3 => Step::CloneReceiver { of: self.of(&live.receivers)?, new },
            4 => Step::DowngradeSender { of: self.of(&live.senders)?, new },
            5 => Step::DowngradeReceiver { of: self.of(&live.receivers)?, new },
            6 => Step::UpgradeSender { of: self.of(&live.weak_senders)?, new },
            _ => Step::UpgradeReceiver { of: self.of(&live.weak_receivers)?, new },
        }))
    }

    /// Gives up a handle, the last one of a side only if the channel may be closed.
    fn drop(&mut self, live: &Handles) -> Option<Line> {
        let is_kept = |count| count == 1 && !self.closes;
        let kept = [live.senders.len(), live.receivers.len()].map(is_kept);
        Some(Line::One(match self.draw.below(6) {
            0 | 1 if !kept[0] => Step::DropSender(self.of(&live.senders)?),
            2 | 3 if !kept[1] => Step::DropReceiver(self.of(&live.receivers)?),
            4 => Step::DropWeakSender(self.of(&live.weak_senders)?),
            _ => Step::DropWeakReceiver(self.of(&live.weak_receivers)?),
        }))
    }

    fn close(&mut self, live: &Handles) -> Option<Line> {
        self.closes.then_some(())?;
        Some(Line::One(Step::Close(self.side(live)?)))
    }
}
