//! The client: at each second tick it writes a line. Its number grows until the line is longer than its buffer, which is a panic of Rust; the
//! supervisor restarts it, and it counts anew.
#![no_std]

use core::fmt::Write;
use userlib::*;

task_slot!(UART, task_uart);

const EVERY: u64 = 2;
const LONGEST: usize = 20;

struct Line {
    bytes: [u8; LONGEST],
    length: usize,
}

impl Write for Line {
    fn write_str(&mut self, text: &str) -> core::fmt::Result {
        for byte in text.bytes() {
            self.bytes[self.length] = byte;
            self.length += 1;
        }
        Ok(())
    }
}

fn send_line(line: &Line) {
    let mut taken = [0; 4];
    loop {
        let (code, _) = sys_send(UART.get_task_id(), 1, &[], &mut taken, &[Lease::read_only(&line.bytes[..line.length])]);
        if dead(code).is_ok() {
            return;
        }
    }
}

#[no_mangle]
pub extern "C" fn task() {
    let timer = symbol!(note_timer);
    let mut number = 10u32;
    loop {
        let mut line = Line { bytes: [0; LONGEST], length: 0 };
        let now = sys_get_timer().now;
        let _ = write!(line, "line {} at {}\n", number, now);
        send_line(&line);
        number *= 1000;
        sys_set_timer(Some(now + EVERY), timer);
        sys_recv_notification(timer);
    }
}
