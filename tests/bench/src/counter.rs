//! The hardware's counter of cycles, by Linux's perf_event_open.

use std::ffi::{c_int, c_long, c_ulong};
use std::fs::File;
use std::io::Read;
use std::os::fd::FromRawFd;

extern "C" {
    fn syscall(number: c_long, ...) -> c_long;
}

#[cfg(target_arch = "x86_64")]
const PERF_EVENT_OPEN: c_long = 298;
#[cfg(not(target_arch = "x86_64"))]
const PERF_EVENT_OPEN: c_long = 241;

const HARDWARE: u32 = 0;
const CPU_CYCLES: u64 = 0;
const TIMES_ENABLED_AND_RUNNING: u64 = 1 | 2;
const EXCLUDE_KERNEL_AND_HYPERVISOR: u64 = 1 << 5 | 1 << 6;
const CLOSE_ON_EXEC: c_ulong = 8;

/// The first version of the kernel's `perf_event_attr`.
#[repr(C)]
struct Attributes {
    kind: u32,
    size: u32,
    config: u64,
    sample_period: u64,
    sample_type: u64,
    read_format: u64,
    flags: u64,
    wakeup_events: u32,
    breakpoint_type: u32,
    config1: u64,
}

/// A counter of the cycles that this thread spends in user mode.
pub struct Cycles {
    file: File,
}

impl Cycles {
    /// The counter; `None` where the kernel or the hardware refuses it or it does not count.
    pub fn open() -> Option<Cycles> {
        let attributes = Attributes {
            kind: HARDWARE,
            size: size_of::<Attributes>() as u32,
            config: CPU_CYCLES,
            sample_period: 0,
            sample_type: 0,
            read_format: TIMES_ENABLED_AND_RUNNING,
            flags: EXCLUDE_KERNEL_AND_HYPERVISOR,
            wakeup_events: 0,
            breakpoint_type: 0,
            config1: 0,
        };
        let (this_thread, any_cpu, no_group): (c_int, c_int, c_int) = (0, -1, -1);
        // SAFETY: the kernel reads `size` bytes of the attributes and returns a new file or -1.
        let file = unsafe {
            syscall(
                PERF_EVENT_OPEN,
                &attributes as *const Attributes,
                this_thread,
                any_cpu,
                no_group,
                CLOSE_ON_EXEC,
            )
        };
        let file = c_int::try_from(file).ok().filter(|file| *file >= 0)?;
        // SAFETY: the file is open and nothing else has it.
        let file = unsafe { File::from_raw_fd(file) };
        let mut counter = Cycles { file };
        let start = counter.now()?;
        std::hint::black_box((0..10_000u32).fold(0, |sum, i| std::hint::black_box(sum ^ i)));
        (counter.now()? > start).then_some(counter)
    }

    /// The count up to now; `None` where the counter was not running all the time.
    pub fn now(&mut self) -> Option<u64> {
        let mut bytes = [0; 24];
        self.file.read_exact(&mut bytes).ok()?;
        let number = |i: usize| u64::from_ne_bytes(bytes[8 * i..8 * i + 8].try_into().unwrap());
        let (count, enabled, running) = (number(0), number(1), number(2));
        (enabled == running).then_some(count)
    }
}
