//! The system calls for tasks in Rust (docs/FORMATS.md, System calls), by the names that Hubris's `userlib` gives them. Each goes through
//! `svc` of examples/from-c/start.c, since a compiler for ARMv6-M keeps r6, r7 and r11 to itself.
#![no_std]

use core::marker::PhantomData;

#[repr(C)]
struct Call {
    r4: u32,
    r5: u32,
    r6: u32,
    r7: u32,
    r8: u32,
    r9: u32,
    r10: u32,
}

extern "C" {
    fn svc(call: *mut Call, number: u32);
}

/// r4 to r10 before the call become r4 to r9 after it.
fn system(number: u32, arguments: [u32; 7]) -> Call {
    let [r4, r5, r6, r7, r8, r9, r10] = arguments;
    let mut call = Call { r4, r5, r6, r7, r8, r9, r10 };
    // SAFETY: `svc` reads and writes these seven words. What the kernel writes besides is in the buffers and leases that the call was
    // given, which the caller has as `&mut [u8]` for the time of the call.
    unsafe { svc(&mut call, number) };
    call
}

fn base(bytes: &[u8]) -> u32 {
    bytes.as_ptr() as u32
}

fn length(bytes: &[u8]) -> u32 {
    bytes.len() as u32
}

/// A symbol of the builder, whose address is its value: `symbol!(note_sent)` is the bit of the task's own notification `sent`,
/// `symbol!(note_dog_uart)` that of the notification `uart` of the task `dog`.
#[macro_export]
macro_rules! symbol {
    ($name:ident) => {{
        extern "C" {
            static $name: u8;
        }
        // SAFETY: only the address is taken.
        unsafe { core::ptr::addr_of!($name) as u32 }
    }};
}

/// `task_slot!(UART, task_uart)` makes `UART.get_task_id()`, the present id of that task.
#[macro_export]
macro_rules! task_slot {
    ($slot:ident, $symbol:ident) => {
        #[allow(non_camel_case_types)]
        struct $slot;
        impl $slot {
            fn get_task_id(&self) -> $crate::TaskId {
                $crate::sys_refresh_task_id($crate::TaskId($crate::symbol!($symbol) as u16))
            }
        }
    };
}

/// The first byte of a device's region: `region!(region_out)`.
#[macro_export]
macro_rules! region {
    ($name:ident) => {
        $crate::symbol!($name) as *mut u8
    };
}

#[derive(Copy, Clone, Debug, PartialEq, Eq)]
#[repr(transparent)]
pub struct TaskId(pub u16);

impl TaskId {
    pub const KERNEL: TaskId = TaskId(0xffff);

    pub fn for_index_and_gen(index: usize, generation: u8) -> TaskId {
        TaskId(index as u16 & 0x3ff | u16::from(generation) << 10)
    }

    pub fn index(self) -> usize {
        usize::from(self.0 & 0x3ff)
    }

    pub fn generation(self) -> u8 {
        (self.0 >> 10) as u8
    }
}

/// Of codes from this on the low byte is the present generation of a task that was born again.
pub const FIRST_DEAD_CODE: u32 = 0xffff_ff00;

#[derive(Copy, Clone, Debug, PartialEq, Eq)]
pub struct TaskDeath(pub u8);

pub fn dead(code: u32) -> Result<u32, TaskDeath> {
    if code >= FIRST_DEAD_CODE {
        Err(TaskDeath(code as u8))
    } else {
        Ok(code)
    }
}

pub mod lease_attributes {
    pub const READ: u32 = 1;
    pub const WRITE: u32 = 2;
}

#[repr(C)]
pub struct Lease<'a> {
    attributes: u32,
    base: u32,
    length: u32,
    _marker: PhantomData<&'a mut [u8]>,
}

impl<'a> Lease<'a> {
    pub fn read_only(bytes: &'a [u8]) -> Self {
        Lease { attributes: lease_attributes::READ, base: base(bytes), length: length(bytes), _marker: PhantomData }
    }

    pub fn write_only(bytes: &'a mut [u8]) -> Self {
        Lease { attributes: lease_attributes::WRITE, base: base(bytes), length: length(bytes), _marker: PhantomData }
    }

    pub fn read_write(bytes: &'a mut [u8]) -> Self {
        Lease {
            attributes: lease_attributes::READ | lease_attributes::WRITE,
            base: base(bytes),
            length: length(bytes),
            _marker: PhantomData,
        }
    }
}

impl<'a> From<&'a [u8]> for Lease<'a> {
    fn from(bytes: &'a [u8]) -> Self {
        Lease::read_only(bytes)
    }
}

/// The server's code, or a dead one, and how many bytes of answer came.
pub fn sys_send(target: TaskId, operation: u16, outgoing: &[u8], incoming: &mut [u8], leases: &[Lease<'_>]) -> (u32, usize) {
    let call = system(
        0,
        [
            u32::from(target.0) << 16 | u32::from(operation),
            base(outgoing),
            length(outgoing),
            incoming.as_mut_ptr() as u32,
            length(incoming),
            leases.as_ptr() as u32,
            leases.len() as u32,
        ],
    );
    (call.r4, call.r5 as usize)
}

/// A message; or notifications, where `sender` is the kernel and `operation` their bits.
#[derive(Copy, Clone, Debug)]
pub struct RecvMessage {
    pub sender: TaskId,
    pub operation: u32,
    pub message_len: usize,
    pub response_capacity: usize,
    pub lease_count: usize,
}

/// An error is the code of a sender that is dead.
pub fn sys_recv(buffer: &mut [u8], notification_mask: u32, specific_sender: Option<TaskId>) -> Result<RecvMessage, u32> {
    let from = match specific_sender {
        Some(id) => 1 << 31 | u32::from(id.0),
        None => 0,
    };
    let call = system(1, [buffer.as_mut_ptr() as u32, length(buffer), notification_mask, from, 0, 0, 0]);
    if call.r4 != 0 {
        return Err(call.r4);
    }
    Ok(RecvMessage {
        sender: TaskId(call.r5 as u16),
        operation: call.r6,
        message_len: call.r7 as usize,
        response_capacity: call.r8 as usize,
        lease_count: call.r9 as usize,
    })
}

/// An open RECV has no dead sender.
pub fn sys_recv_open(buffer: &mut [u8], notification_mask: u32) -> RecvMessage {
    match sys_recv(buffer, notification_mask, None) {
        Ok(message) => message,
        Err(_) => sys_panic(b"recv"),
    }
}

/// Waits for notifications alone, and gives their bits.
pub fn sys_recv_notification(notification_mask: u32) -> u32 {
    match sys_recv(&mut [], notification_mask, Some(TaskId::KERNEL)) {
        Ok(message) => message.operation,
        Err(_) => 0,
    }
}

pub fn sys_reply(peer: TaskId, code: u32, message: &[u8]) {
    system(2, [u32::from(peer.0), code, base(message), length(message), 0, 0, 0]);
}

pub fn sys_set_timer(deadline: Option<u64>, notifications: u32) {
    let set = u32::from(deadline.is_some());
    let deadline = deadline.unwrap_or(0);
    system(3, [set, deadline as u32, (deadline >> 32) as u32, notifications, 0, 0, 0]);
}

/// The code, and how many bytes were moved.
pub fn sys_borrow_read(lender: TaskId, index: usize, offset: usize, dest: &mut [u8]) -> (u32, usize) {
    let call = system(4, [u32::from(lender.0), index as u32, offset as u32, dest.as_mut_ptr() as u32, length(dest), 0, 0]);
    (call.r4, call.r5 as usize)
}

pub fn sys_borrow_write(lender: TaskId, index: usize, offset: usize, src: &[u8]) -> (u32, usize) {
    let call = system(5, [u32::from(lender.0), index as u32, offset as u32, base(src), length(src), 0, 0]);
    (call.r4, call.r5 as usize)
}

#[derive(Copy, Clone, Debug)]
pub struct BorrowInfo {
    pub attributes: u32,
    pub len: usize,
}

/// None where the call is over.
pub fn sys_borrow_info(lender: TaskId, index: usize) -> Option<BorrowInfo> {
    let call = system(6, [u32::from(lender.0), index as u32, 0, 0, 0, 0, 0]);
    (call.r4 == 0).then(|| BorrowInfo { attributes: call.r5, len: call.r6 as usize })
}

pub fn sys_irq_control(mask: u32, enable: bool) {
    system(7, [mask, u32::from(enable), 0, 0, 0, 0, 0]);
}

/// The sum of 1 enabled, 2 pending, 4 posted.
#[derive(Copy, Clone, Debug, PartialEq, Eq)]
pub struct IrqStatus(pub u32);

impl IrqStatus {
    pub const ENABLED: u32 = 1;
    pub const PENDING: u32 = 2;
    pub const POSTED: u32 = 4;
}

pub fn sys_irq_status(mask: u32) -> IrqStatus {
    IrqStatus(system(13, [mask, 0, 0, 0, 0, 0, 0]).r4)
}

/// The trace tells where the text is, and how long: `fault <task> 8 <address> <length>`.
pub fn sys_panic(text: &[u8]) -> ! {
    system(8, [base(text), length(text), 0, 0, 0, 0, 0]);
    loop {}
}

#[derive(Copy, Clone, Debug)]
pub struct TimerState {
    pub now: u64,
    pub deadline: Option<u64>,
    pub on_dl: u32,
}

pub fn sys_get_timer() -> TimerState {
    let call = system(9, [0; 7]);
    let two = |low: u32, high: u32| u64::from(low) | u64::from(high) << 32;
    TimerState { now: two(call.r4, call.r5), deadline: (call.r6 != 0).then(|| two(call.r7, call.r8)), on_dl: call.r9 }
}

pub fn sys_refresh_task_id(id: TaskId) -> TaskId {
    TaskId(system(10, [u32::from(id.0), 0, 0, 0, 0, 0, 0]).r4 as u16)
}

/// 0, or a dead code.
pub fn sys_post(id: TaskId, bits: u32) -> u32 {
    system(11, [u32::from(id.0), bits, 0, 0, 0, 0, 0]).r4
}

#[derive(Copy, Clone, Debug)]
#[repr(u32)]
pub enum ReplyFaultReason {
    UndefinedOperation = 0,
    BadMessageSize = 1,
    BadMessageContents = 2,
    BadLeases = 3,
    ReplyBufferTooSmall = 4,
    AccessViolation = 5,
}

pub fn sys_reply_fault(client: TaskId, reason: ReplyFaultReason) {
    system(12, [u32::from(client.0), reason as u32, 0, 0, 0, 0, 0]);
}

/// The kernel messages, which task 0 alone may send.
pub mod kipc {
    use super::{sys_send, TaskId};

    #[derive(Copy, Clone, Debug, PartialEq, Eq)]
    pub enum TaskState {
        Healthy,
        Stopped,
        Faulted { fault: u32, x: u32, y: u32 },
    }

    fn word(bytes: &[u8], k: usize) -> u32 {
        u32::from_le_bytes([bytes[4 * k], bytes[4 * k + 1], bytes[4 * k + 2], bytes[4 * k + 3]])
    }

    pub fn read_task_status(index: usize) -> TaskState {
        let mut answer = [0; 16];
        sys_send(TaskId::KERNEL, 1, &(index as u32).to_le_bytes(), &mut answer, &[]);
        match word(&answer, 0) {
            0 => TaskState::Healthy,
            1 => TaskState::Stopped,
            _ => TaskState::Faulted { fault: word(&answer, 1), x: word(&answer, 2), y: word(&answer, 3) },
        }
    }

    pub fn restart_task(index: usize, start: bool) {
        let mut message = [0; 8];
        message[..4].copy_from_slice(&(index as u32).to_le_bytes());
        message[4] = u8::from(start);
        sys_send(TaskId::KERNEL, 2, &message, &mut [], &[]);
    }

    pub fn fault_task(index: usize) {
        sys_send(TaskId::KERNEL, 3, &(index as u32).to_le_bytes(), &mut [], &[]);
    }

    /// The first task at or after an index that has faulted. The index is below the number of tasks.
    pub fn find_faulted_task(index: usize) -> Option<usize> {
        let mut answer = [0; 4];
        sys_send(TaskId::KERNEL, 9, &(index as u32).to_le_bytes(), &mut answer, &[]);
        match word(&answer, 0) {
            0 => None,
            found => Some(found as usize),
        }
    }
}

/// A panic of Rust is call 8: where the name of the source stands, and its line, `fault <task> 8 <address> <line>` in the trace.
#[panic_handler]
fn panic(info: &core::panic::PanicInfo<'_>) -> ! {
    match info.location() {
        Some(place) => {
            system(8, [place.file().as_ptr() as u32, place.line(), 0, 0, 0, 0, 0]);
            loop {}
        }
        None => sys_panic(b"panic"),
    }
}
