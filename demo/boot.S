/*
 * Where the machine begins, how its timer is started, and where the timer interrupts.
 *
 * The emulator enters by the PVH boot protocol: 32-bit, no paging, ebx the start info. From there to long mode, and to
 * kernel() in C.
 */
    .section .note.Xen, "a", @note
    .align 4
    .long 4, 4, 18          /* name size, description size, XEN_ELFNOTE_PHYS32_ENTRY */
    .asciz "Xen"
    .long start

    .section .text.boot, "ax"
    .code32
    .globl start
start:
    cli
    movl $boot_stack_top, %esp
    movl %ebx, %edi         /* the start info: first argument of kernel() */

    /* Addresses are as they are, up to 1 GiB: one PML4 entry, one PDPT entry, 512 pages of 2 MiB. */
    movl $pdpt + 3, pml4
    movl $pd + 3, pdpt
    xorl %ecx, %ecx
1:  movl %ecx, %eax
    shll $21, %eax
    orl $0x83, %eax         /* present, writable, 2 MiB */
    movl %eax, pd(,%ecx,8)
    incl %ecx
    cmpl $512, %ecx
    jne 1b

    /* The battery-backed memory, 2 MiB at 4 GiB. */
    movl $paper_pd + 3, pdpt + 32
    movl $0x83, paper_pd
    movl $1, paper_pd + 4

    movl $pml4, %eax
    movl %eax, %cr3
    movl %cr4, %eax
    orl $0x620, %eax        /* PAE; OSFXSR and OSXMMEXCPT: the library uses SSE */
    movl %eax, %cr4
    movl $0xC0000080, %ecx  /* EFER */
    rdmsr
    orl $0x100, %eax        /* long mode */
    wrmsr
    movl %cr0, %eax
    andl $~0xC, %eax        /* EM and TS clear: SSE is on */
    orl $0x80000002, %eax   /* paging; MP */
    movl %eax, %cr0
    lgdt gdt_pointer
    ljmp $8, $long_mode

    .code64
long_mode:
    movw $16, %ax
    movw %ax, %ds
    movw %ax, %es
    movw %ax, %ss
    movl $boot_stack_top, %esp  /* a multiple of 16 where the call is made, as the library needs it */
    movl %edi, %edi
    fninit
    call kernel
2:  cli
    hlt
    jmp 2b

/* start_timer(): the interrupts and their stacks, the timer; then interrupts are on. */
    .globl start_timer
start_timer:
    movl $task_state, %eax  /* a segment for the task state, which has the stacks; it is below 16 MiB */
    movl %eax, %ecx
    shll $16, %ecx
    orl $103, %ecx
    movl %ecx, gdt + 24
    shrl $16, %eax
    orl $0x8900, %eax
    movl %eax, gdt + 28
    movw $24, %ax
    ltr %ax

    movl $idt, %edi
    movl $trap, %eax        /* what the processor cannot do, 0 to 31, on the second stack */
    movl $2, %edx
    xorl %ecx, %ecx
1:  cmpl $32, %ecx
    jne 2f
    movl $tick_entry, %eax  /* the timer, on the first */
    movl $1, %edx
2:  movw %ax, (%rdi)
    movw $8, 2(%rdi)
    movb %dl, 4(%rdi)
    movb $0x8E, 5(%rdi)     /* present; interrupts are off inside */
    movl %eax, %esi
    shrl $16, %esi
    movw %si, 6(%rdi)
    addq $16, %rdi
    incl %ecx
    cmpl $33, %ecx
    jne 1b
    lidt idt_pointer

    movl $settings, %esi
    movl $9, %ecx
3:  movzbl (%rsi), %edx     /* a port, and what goes there */
    movb 1(%rsi), %al
    outb %al, %dx
    addq $2, %rsi
    loop 3b
    sti
    ret

/*
 * The timer. The processor has changed to the interrupt's own stack (its gate says so) and has pushed five words there;
 * the other registers go on top: together they are struct frame of machine.c. tick() may put another task's frame in
 * their place: then that task goes on.
 */
    .globl tick_entry
tick_entry:
    pushq %rax
    pushq %rbx
    pushq %rcx
    pushq %rdx
    pushq %rsi
    pushq %rdi
    pushq %rbp
    pushq %r8
    pushq %r9
    pushq %r10
    pushq %r11
    pushq %r12
    pushq %r13
    pushq %r14
    pushq %r15
    cld
    movq %rsp, %rdi
    call tick               /* twenty words are on the stack: it is a multiple of 16 */
    popq %r15
    popq %r14
    popq %r13
    popq %r12
    popq %r11
    popq %r10
    popq %r9
    popq %r8
    popq %rbp
    popq %rdi
    popq %rsi
    popq %rdx
    popq %rcx
    popq %rbx
    popq %rax
    iretq

/* The two functions that the library asks for. */
    .globl memcpy, memset
memcpy:
    movq %rdi, %rax
    movq %rdx, %rcx
    rep movsb
    ret
memset:
    movq %rdi, %r8
    movzbl %sil, %eax
    movabsq $0x0101010101010101, %rcx
    imulq %rcx, %rax
    movq %rdx, %rcx
    shrq $3, %rcx
    rep stosq               /* eight bytes at a time, then the rest */
    movq %rdx, %rcx
    andq $7, %rcx
    rep stosb
    movq %r8, %rax
    ret

    .data
    .align 8
    .globl gdt
gdt:
    .quad 0
    .quad 0x00AF9A000000FFFF    /* 8: code, 64-bit */
    .quad 0x00CF92000000FFFF    /* 16: data */
    .quad 0, 0                  /* 24: task state, filled in by start_timer() */
gdt_pointer:
    .word gdt_pointer - gdt - 1
    .long gdt
idt_pointer:
    .word 33 * 16 - 1
    .quad idt
task_state:
    .skip 36
    .quad tick_stack_top, trap_stack_top    /* the interrupt stack table */
    .skip 50
    .word 104
settings:
    .byte 0x20, 0x11, 0x21, 32, 0x21, 4, 0x21, 1    /* interrupts from 32 on, */
    .byte 0x21, 0xFE, 0xA1, 0xFF                    /* the timer's and no other; */
    .byte 0x43, 0x34, 0x40, 30, 0x40, 0             /* it ticks 1,193,182 / 30 times a second */

    .section .bss
    .align 4096
pml4: .skip 4096
pdpt: .skip 4096
pd:   .skip 4096
paper_pd: .skip 4096
idt:  .skip 33 * 16
    .align 16
    .skip 4096
tick_stack_top:
    .skip 4096
trap_stack_top:
    .skip 32768
boot_stack_top:
    .section .note.GNU-stack, "", @progbits
