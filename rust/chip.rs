//! The modelled chip and its bus, to run your own code against (feature `chip`): the chip is a [`Line`].
use crate::mcp::{Failed, Line};
use crate::proved::{bus, fifo as fifos, model, state};
use crate::{Header, Refusal};

/// Why a frame that arrived was not delivered: refused (named for a FIFO: 20, 21, 22; sorted: 21, 22, 31, 30), or turned down by a cause.
pub use crate::proved::bus::Undelivered;
/// Why a send gave no frame: the message is none, there was nothing to send, or it was refused (20).
pub use crate::proved::bus::Unsent;
/// A message: header, DLC, SEQ (0 in one received), timestamp and payload.
pub use crate::proved::message::Frame;
/// The first `len` bytes; those behind are 0.
pub use crate::proved::message::Payload;
/// Why a slot holds no whole message: a classic one to send with a DLC above 8 (`NoFrame`), or one that is longer than the slot (`Short`).
pub use crate::proved::message::Undecoded;
/// The chip's state: registers, FIFOs and RAM.
pub use crate::proved::state::Model;

/// What a frame that the filters sorted came to.
#[derive(Clone, Copy, Debug, PartialEq, Eq)]
pub struct Sorted {
    /// Delivered, or why not.
    pub delivery: Result<(), Undelivered>,
    /// The FIFO that it was for, also where that turned it down; 0 where it was refused.
    pub fifo: u32,
    /// The filter that took it; 0 where it was refused.
    pub filter: u32,
}

/// A chip, and what is told of its exchanges.
#[derive(Clone, Debug, PartialEq, Eq)]
pub struct Chip {
    /// Its state.
    pub model: Model,
    /// How many exchanges it was asked for.
    pub exchanges: u32,
    /// How many of them asked to leave Configuration and were not granted (27), because the FIFOs, and the transmit queue where it is on,
    /// do not fit into RAM or the event FIFO is on. Such a write is done on the line, so no call is told: `set_op_mode` polls in vain and
    /// is refused 12.
    pub no_layout: u32,
}

impl Chip {
    /// After a reset, with RAM of zeros.
    pub fn new() -> Chip {
        Chip { model: state::reset([0; 2048]), exchanges: 0, no_layout: 0 }
    }

    /// The chip sends the oldest message of a FIFO, if sending is requested there.
    pub fn send(&mut self, fifo: u32) -> Result<Frame, Unsent> {
        let sent = bus::send(self.model, fifo);
        self.model = sent.model;
        sent.sent
    }

    /// The chip sends from the transmit queue, if sending is requested there: of all that it holds the message whose identifier wins
    /// arbitration, of equal ones that in the lowest slot. Nothing is sent where the queue is off.
    pub fn send_queue(&mut self) -> Result<Frame, Unsent> {
        let sent = bus::send_queue(self.model);
        self.model = sent.model;
        sent.sent
    }

    /// A frame arrives for a FIFO, at this time. Its payload is as long as its DLC means: DLC 0 to 8 as many bytes, 9 to 15 in an FD frame
    /// 12, 16, 20, 24, 32, 48 or 64, in a classic one 8. Another length is 22, and so is a DLC above 15.
    pub fn deliver(&mut self, fifo: u32, header: Header, dlc: u32, time: u32, payload: &[u8]) -> Result<(), Undelivered> {
        let delivered = bus::deliver(self.model, fifo, bus::Arrival { header, dlc, time, payload });
        self.model = delivered.model;
        delivered.delivery
    }

    /// A frame arrives, at this time, and the filters sort it: the lowest-numbered enabled one that matches gives it to its FIFO. DLC and
    /// payload are as in a delivery.
    pub fn sort(&mut self, header: Header, dlc: u32, time: u32, payload: &[u8]) -> Sorted {
        let sorted = bus::sort(self.model, bus::Arrival { header, dlc, time, payload });
        self.model = sorted.model;
        Sorted { delivery: sorted.delivery, fifo: sorted.fifo, filter: sorted.filter }
    }

    /// How many messages a FIFO holds. Refused: 20.
    pub fn held(&self, fifo: u32) -> Result<u8, Refusal> {
        match fifos::is_fifo(fifo) {
            true => Ok(bus::held_len(self.model, fifo)),
            false => Err(Refusal::BadNumber),
        }
    }

    /// The message `k` places behind a FIFO's oldest, decoded from RAM, or `None` where it holds fewer. Refused: 20.
    pub fn held_at(&self, fifo: u32, k: u8) -> Result<Option<Result<Frame, Undecoded>>, Refusal> {
        Ok((k < self.held(fifo)?).then(|| bus::held_at(self.model, fifo, k)))
    }

    /// How many messages the transmit queue holds: none where it is off.
    pub fn held_queue(&self) -> u8 {
        (0..32).map(|slot| u8::from(bus::queue_holds(self.model, slot))).sum()
    }

    /// The message in a slot of the transmit queue, 0 to 31, decoded from RAM, or `None` where the slot holds none.
    pub fn held_queue_at(&self, slot: u8) -> Option<Result<Frame, Undecoded>> {
        bus::queue_holds(self.model, slot).then(|| bus::queue_item(self.model, slot))
    }
}

impl Default for Chip {
    fn default() -> Chip {
        Chip::new()
    }
}

/// An exchange that the chip does not know fails and changes nothing.
impl Line for Chip {
    fn transfer(&mut self, tx: &[u8], rx: &mut [u8]) -> Result<(), Failed> {
        let exchanged = model::exchange(self.model, tx, rx.len(), rx);
        self.model = exchanged.model;
        self.exchanges = self.exchanges.wrapping_add(1);
        match exchanged.heard {
            model::Heard::Failed => Err(Failed),
            model::Heard::Received => Ok(()),
            model::Heard::NoLayout => {
                self.no_layout = self.no_layout.wrapping_add(1);
                Ok(())
            }
        }
    }

    fn wait(&mut self, _microseconds: u32) {}
}
