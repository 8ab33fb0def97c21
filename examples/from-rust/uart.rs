//! The driver of a line that sends: operation 1 takes the text of lease 0 into a ring, and is answered when all of it is in there. The line
//! has room for FIFO bytes, and tells by an interrupt that they are sent.
#![no_std]

use userlib::*;

const RING: usize = 16;
const FIFO: usize = 4;

struct Writer {
    client: TaskId,
    offset: usize,
}

struct Uart {
    ring: [u8; RING],
    first: usize,
    count: usize,
    room: usize,
    writer: Option<Writer>,
}

impl Uart {
    fn pump(&mut self) {
        while self.room > 0 && self.count > 0 {
            // SAFETY: the region is a device's, which this task uses.
            unsafe { region!(region_out).write_volatile(self.ring[self.first]) };
            self.first = (self.first + 1) % RING;
            self.count -= 1;
            self.room -= 1;
        }
    }

    /// As much of the writer's text as there is room for; and its answer, when that was all.
    fn fill(&mut self) {
        while let Some(writer) = &mut self.writer {
            let end = (self.first + self.count) % RING;
            let free = (RING - self.count).min(RING - end);
            if free == 0 {
                return;
            }
            let (code, moved) = sys_borrow_read(writer.client, 0, writer.offset, &mut self.ring[end..end + free]);
            writer.offset += moved;
            if code != 0 || moved == 0 {
                sys_reply(writer.client, code, &(writer.offset as u32).to_le_bytes());
                self.writer = None;
            }
            self.count += moved;
            self.pump();
        }
    }
}

#[no_mangle]
pub extern "C" fn task() {
    let sent = symbol!(note_sent);
    let mut uart = Uart { ring: [0; RING], first: 0, count: 0, room: FIFO, writer: None };
    sys_irq_control(sent, true);
    loop {
        let message = if uart.writer.is_some() {
            let bits = sys_recv_notification(sent);
            RecvMessage { sender: TaskId::KERNEL, operation: bits, message_len: 0, response_capacity: 0, lease_count: 0 }
        } else {
            sys_recv_open(&mut [], sent)
        };
        if message.sender == TaskId::KERNEL {
            uart.room = FIFO;
            sys_irq_control(sent, true);
            uart.pump();
            uart.fill();
        } else if message.operation != 1 {
            sys_reply_fault(message.sender, ReplyFaultReason::UndefinedOperation);
        } else if message.lease_count != 1 {
            sys_reply_fault(message.sender, ReplyFaultReason::BadLeases);
        } else if message.response_capacity < 4 {
            sys_reply_fault(message.sender, ReplyFaultReason::ReplyBufferTooSmall);
        } else {
            uart.writer = Some(Writer { client: message.sender, offset: 0 });
            uart.fill();
        }
    }
}
