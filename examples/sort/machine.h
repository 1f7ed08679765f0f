// The machine that the system runs on: the words of its devices, and its control registers. docs/DEVICES.md says what
// each word does.
#ifndef MACHINE_H
#define MACHINE_H

typedef unsigned int word; // 32 bits; an address is one too

// Devices. Each is loaded and stored a whole word at a time.
#define POWER              (*(volatile word *)0x00100000) // any store turns the machine off
#define PENDING_MASK       (*(volatile word *)0x0c000004) // which devices interrupt supervisor mode
#define PENDING            (*(volatile word *)0x0c000008) // which devices want something
#define CONSOLE            (*(volatile word *)0x10000000) // a load takes a byte, a store prints one
#define BLOCK_SECTOR       (*(volatile word *)0x10001000)
#define BLOCK_ADDRESS      (*(volatile word *)0x10001004)
#define BLOCK_COUNT        (*(volatile word *)0x10001008)
#define BLOCK_COMMAND      (*(volatile word *)0x1000100c)
#define BLOCK_STATE        (*(volatile word *)0x10001010)

#define PENDING_CONSOLE    1u // a byte waits in the console
#define PENDING_BLOCK      2u // the block device has ended a command
#define BLOCK_READ         1u // the command that moves sectors to RAM
#define BLOCK_DONE         2u // the state behind a command that was carried out
#define SECTOR_BYTES       512u

// Control registers of supervisor mode.
#define READ_CONTROL(name) ({ word value; __asm__ volatile("csrr %0, " #name : "=r"(value)); value; })
#define WRITE_CONTROL(name, value) __asm__ volatile("csrw " #name ", %0" ::"r"((word)(value)) : "memory")
#define SET_CONTROL(name, bits) __asm__ volatile("csrs " #name ", %0" ::"r"((word)(bits)) : "memory")
#define CLEAR_CONTROL(name, bits) __asm__ volatile("csrc " #name ", %0" ::"r"((word)(bits)) : "memory")

#define STATUS_SUPERVISOR  (1u << 8)  // sstatus.SPP: where sret goes
#define STATUS_USER_PAGES  (1u << 18) // sstatus.SUM: supervisor mode may touch the pages of user mode
#define SOFTWARE_BIT       (1u << 1)  // sip and sie: machine mode says that the timer has rung
#define EXTERNAL_BIT       (1u << 9)  // sip and sie: a device wants something

// What scause may hold.
#define CAUSE_SOFTWARE     0x80000001u
#define CAUSE_EXTERNAL     0x80000009u
#define CAUSE_CALL         8u

// Entries of page tables.
#define PAGE_BYTES         4096u
#define ENTRY_VALID        0x01u
#define ENTRY_READ         0x02u
#define ENTRY_WRITE        0x04u
#define ENTRY_EXECUTE      0x08u
#define ENTRY_USER         0x10u
#define ENTRY_USED         0xc0u // accessed and dirty: the hart doesn't set them itself
#define TRANSLATE          0x80000000u // satp: by Sv32

#endif
