//! The supervisor: who falls is restarted.
#![no_std]

use userlib::*;

const TASKS: usize = 3;

#[no_mangle]
pub extern "C" fn task() {
    let fault = symbol!(note_fault);
    loop {
        sys_recv_notification(fault);
        let mut index = 1;
        while index < TASKS {
            match kipc::find_faulted_task(index) {
                Some(found) => {
                    kipc::restart_task(found, true);
                    index = found + 1;
                }
                None => break,
            }
        }
    }
}
