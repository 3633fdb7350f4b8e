//! A kernel's first turns with nothing below it: no standard library, no C library, no start-up code. It ends with 0, or with
//! the number of the turn that went wrong.
#![no_std]
#![no_main]
use core::cell::RefCell;
use skid::kernel::*;

// The stack is aligned to 16 bytes at the entry, so it is where this calls.
core::arch::global_asm!(
    ".globl _start", "_start: call {turns}", "mov edi, eax", "mov eax, 60", "syscall", turns = sym turns
);

// What the archive asks of its host.
core::arch::global_asm!(
    ".globl memset",
    "memset: mov r8, rdi",
    "mov eax, esi",
    "mov rcx, rdx",
    "rep stosb",
    "mov rax, r8",
    "ret",
    ".globl memcpy",
    "memcpy: mov rax, rdi",
    "mov rcx, rdx",
    "rep movsb",
    "ret"
);

#[panic_handler]
fn panicked(_: &core::panic::PanicInfo) -> ! {
    unsafe { core::arch::asm!("ud2", options(noreturn)) }
}

extern "C" fn turns() -> i32 {
    let mut memory = Memory::<Headers<2>, Buckets<4>>::new();
    let mut pages = BookMemory::<8>::new();
    let arena = RefCell::new(Arena::open(&mut memory, &[0, 1], 5));
    let Ok(mut book) = Book::open(&arena.borrow(), &mut pages) else {
        return 1;
    };
    let key = Key {
        binding: 1,
        bucket: 2,
    };
    {
        let Ok(valve) = Guard::take(&arena, key) else {
            return 2;
        };
        if !Guard::take(&arena, key).is_err_and(|error| error.is_busy()) {
            return 3;
        }
        let bar = Setpoint::Pressure(f32::from_bits(0x3fc0_0000));
        if book.write(&arena.borrow(), valve.lease(), bar).is_err() {
            return 4;
        }
        let setting = book.read(&arena.borrow(), 6);
        if !setting.is_ok_and(
            |it| matches!(it.setpoint, Setpoint::Pressure(bar) if bar.to_bits() == 0x3fc0_0000),
        ) {
            return 5;
        }
    }
    let mut arena = arena.into_inner();
    let Ok(all) = arena.take_all([
        key,
        Key {
            binding: 0,
            bucket: 0,
        },
        key,
    ]) else {
        return 6;
    };
    if arena.give_all(all).is_err() || arena.cells().any(|cell| cell.state != State::Free) {
        return 7;
    }
    let paper = arena.head();
    if paper.next != 4 {
        return 8;
    }
    memory.as_mut_slices().0[0] = 7;
    let mut report = Report::<Headers<2>, Buckets<4>>::new();
    match Arena::salvage(paper, &mut memory, &[0, 1], &mut report) {
        Ok((_, found)) if found.changes.len() == 1 => 0,
        _ => 9,
    }
}
