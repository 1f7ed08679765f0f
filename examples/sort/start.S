// The parts that can't be said in C: the first instructions, the timer in machine mode, and the way into and out of
// the kernel.

        .equ    TIME_COMPARE, 0x02004000        // the timer interrupts once the clock has come to this
        .equ    DELEGATED, 0xb1ff               // exceptions that go to supervisor mode: all but its own calls
        .equ    SUPERVISOR, 1 << 11             // mstatus.MPP: mret goes to supervisor mode
        .equ    SOFTWARE_BIT, 1 << 1            // mip: the interrupt by which machine mode wakes supervisor mode
        .equ    SUPERVISOR_BITS, 0x222          // mideleg: the interrupts of supervisor mode
        .equ    TIMER_BIT, 1 << 7               // mie: the timer of machine mode

// The machine starts here, in machine mode with all registers 0. It sets the first alarm, hands exceptions and
// interrupts on to supervisor mode, and goes to the kernel there.
        .section .text.start, "ax"
        .globl  start
start:
        la      t0, timer_rings
        csrw    mtvec, t0
        la      t0, timer_state
        csrw    mscratch, t0
        li      t1, TICKS
        sw      t1, 0(t0)                       // the first alarm
        li      t2, TIME_COMPARE
        sw      t1, 0(t2)
        sw      zero, 4(t2)
        li      t0, DELEGATED
        csrw    medeleg, t0
        li      t0, SUPERVISOR_BITS
        csrw    mideleg, t0
        li      t0, TIMER_BIT
        csrw    mie, t0
        la      t0, kernel_entered
        csrw    stvec, t0
        li      t0, SUPERVISOR
        csrw    mstatus, t0
        la      t0, kernel_main
        csrw    mepc, t0
        la      sp, kernel_stack_end
        mret

// The timer has rung, in machine mode. The next alarm is TICKS behind this one, so that the clock needn't be read, and
// supervisor mode gets a software interrupt. While the two halves of the alarm are written, the high one is the
// greatest number, so that no value in between rings.
        .text
        .balign 4
timer_rings:
        csrrw   t0, mscratch, t0                // t0: timer_state
        sw      t1, 8(t0)
        sw      t2, 12(t0)
        sw      t3, 16(t0)
        lw      t1, 0(t0)                       // the alarm, low half and high half
        lw      t2, 4(t0)
        li      t3, TICKS
        add     t1, t1, t3
        sltu    t3, t1, t3                      // what is carried to the high half
        add     t2, t2, t3
        sw      t1, 0(t0)
        sw      t2, 4(t0)
        li      t3, TIME_COMPARE
        li      t2, -1
        sw      t2, 4(t3)
        sw      t1, 0(t3)
        lw      t2, 4(t0)
        sw      t2, 4(t3)
        csrsi   mip, SOFTWARE_BIT
        lw      t1, 8(t0)
        lw      t2, 12(t0)
        lw      t3, 16(t0)
        csrrw   t0, mscratch, t0
        mret

// A process was left by a call, a fault or an interrupt. sscratch has its struct process, which begins with x1 to x31
// and pc. Its registers are kept there, and the kernel begins on its own stack, where it runs until it resumes a
// process.
        .balign 4
kernel_entered:
        csrrw   a0, sscratch, a0                // a0: the process
        sw      ra, 0(a0)
        sw      sp, 4(a0)
        sw      gp, 8(a0)
        sw      tp, 12(a0)
        sw      t0, 16(a0)
        sw      t1, 20(a0)
        sw      t2, 24(a0)
        sw      s0, 28(a0)
        sw      s1, 32(a0)
        sw      a1, 40(a0)
        sw      a2, 44(a0)
        sw      a3, 48(a0)
        sw      a4, 52(a0)
        sw      a5, 56(a0)
        sw      a6, 60(a0)
        sw      a7, 64(a0)
        sw      s2, 68(a0)
        sw      s3, 72(a0)
        sw      s4, 76(a0)
        sw      s5, 80(a0)
        sw      s6, 84(a0)
        sw      s7, 88(a0)
        sw      s8, 92(a0)
        sw      s9, 96(a0)
        sw      s10, 100(a0)
        sw      s11, 104(a0)
        sw      t3, 108(a0)
        sw      t4, 112(a0)
        sw      t5, 116(a0)
        sw      t6, 120(a0)
        csrr    t0, sscratch                    // its a0
        sw      t0, 36(a0)
        csrr    t0, sepc
        sw      t0, 124(a0)
        la      sp, kernel_stack_end
        j       process_left

// void resume(struct process *process, word satp): goes on with a process in user mode.
        .globl  resume
resume:
        csrw    satp, a1
        sfence.vma
        csrw    sscratch, a0
        lw      t0, 124(a0)
        csrw    sepc, t0
        lw      ra, 0(a0)
        lw      sp, 4(a0)
        lw      gp, 8(a0)
        lw      tp, 12(a0)
        lw      t0, 16(a0)
        lw      t1, 20(a0)
        lw      t2, 24(a0)
        lw      s0, 28(a0)
        lw      s1, 32(a0)
        lw      a1, 40(a0)
        lw      a2, 44(a0)
        lw      a3, 48(a0)
        lw      a4, 52(a0)
        lw      a5, 56(a0)
        lw      a6, 60(a0)
        lw      a7, 64(a0)
        lw      s2, 68(a0)
        lw      s3, 72(a0)
        lw      s4, 76(a0)
        lw      s5, 80(a0)
        lw      s6, 84(a0)
        lw      s7, 88(a0)
        lw      s8, 92(a0)
        lw      s9, 96(a0)
        lw      s10, 100(a0)
        lw      s11, 104(a0)
        lw      t3, 108(a0)
        lw      t4, 112(a0)
        lw      t5, 116(a0)
        lw      t6, 120(a0)
        lw      a0, 36(a0)
        sret

// The alarm in two words, and the registers of whoever was interrupted by it.
        .bss
        .balign 4
timer_state:
        .space  20

// The kernel's stack. A call of the kernel begins on it anew each time.
        .balign 16
        .space  2048
kernel_stack_end:
