// A small kernel in supervisor mode. It runs two processes in user mode, each under a root of its own, and switches
// between them when the timer rings or one of them waits for a device. Once both have ended it turns the machine off.
//
// start.S comes before this: `process_left` below is called with the registers of a process kept, and `resume` goes on
// with one. Only the timer's handler in machine mode interrupts the kernel, which doesn't notice it, so each of its
// calls runs to its end.
#include "layout.h"
#include "machine.h"

#define PROCESSES 2

enum state { READY, WAITS_FOR_BYTE, WAITS_FOR_SECTOR, ENDED };

// What a process has while it doesn't run. start.S knows the places of the registers and of pc.
struct process {
    word registers[31]; // x1 to x31
    word pc;
    enum state state;
};

#define REGISTER(process, number) ((process)->registers[(number) - 1])
#define STACK_POINTER 2
#define ARGUMENT_0 10 // a0, also the result of a call
#define ARGUMENT_1 11
#define CALL_NUMBER 17

// The pages of a process. link.ld puts them at fixed places, process after process.
struct pages {
    unsigned char data[PAGE_BYTES];
    unsigned char stack[PAGE_BYTES];
    word root[PAGE_BYTES / 4];
    word table[PAGE_BYTES / 4];
};

static struct process processes[PROCESSES];
static struct pages pages[PROCESSES] __attribute__((section(".pages")));
static int running;        // the process that runs, or ran last
static int byte_users;     // how many processes wait for a byte of the console
static int disk_user = -1; // the process that the block device works for, or -1

extern unsigned char user_text[]; // the page of RAM that has the program of the processes
void resume(struct process *process, word satp);

// An entry of a page table for the page at a place.
static word entry(word place, word permissions) {
    return place >> 12 << 10 | permissions | ENTRY_VALID;
}

// An entry for four megabytes that the kernel alone may touch, each place at the address that is its own.
static word kernel_entry(word place) {
    return entry(place, ENTRY_READ | ENTRY_WRITE | ENTRY_EXECUTE | ENTRY_USED);
}

// Makes the page tables of a process: the kernel and its devices, and the process's own pages.
static void make_root(struct pages *own) {
    const word devices[] = {0x00000000, 0x0c000000, 0x10000000};
    for (int i = 0; i < 3; i++)
        own->root[devices[i] >> 22] = kernel_entry(devices[i]);
    own->root[0x80000000 >> 22] = kernel_entry(0x80000000);
    own->root[USER_TEXT >> 22] = entry((word)own->table, 0);

    const word program = ENTRY_READ | ENTRY_EXECUTE | ENTRY_USER | ENTRY_USED;
    const word memory = ENTRY_READ | ENTRY_WRITE | ENTRY_USER | ENTRY_USED;
    own->table[USER_TEXT >> 12 & 0x3ff] = entry((word)user_text, program);
    own->table[USER_DATA >> 12 & 0x3ff] = entry((word)own->data, memory);
    own->table[USER_STACK >> 12 & 0x3ff] = entry((word)own->stack, memory);
}

// Makes a process that begins at the start of the program, with its number as argument.
static void make_process(int number) {
    struct process *process = &processes[number];
    make_root(&pages[number]);
    process->pc = USER_TEXT;
    process->state = READY;
    REGISTER(process, STACK_POINTER) = USER_STACK + PAGE_BYTES;
    REGISTER(process, ARGUMENT_0) = number;
}

// A process gets the result of its call, and can go on.
static void answer(struct process *process, word result) {
    REGISTER(process, ARGUMENT_0) = result;
    process->state = READY;
}

// Says which devices interrupt: the console only while a process waits for a byte. Else a byte stays where it is.
static void choose_interrupts(void) {
    PENDING_MASK = PENDING_BLOCK | (byte_users > 0 ? PENDING_CONSOLE : 0);
}

// A byte waits in the console: the first process that waits for one takes it.
static void console_has_byte(void) {
    int number = 0;
    while (processes[number].state != WAITS_FOR_BYTE)
        number++;
    answer(&processes[number], CONSOLE);
    byte_users--;
    choose_interrupts();
}

// The block device has ended its command: the process that waits for it goes on.
static void block_has_ended(void) {
    word state = BLOCK_STATE;
    BLOCK_STATE = 0;
    answer(&processes[disk_user], state == BLOCK_DONE ? 0 : -1);
    disk_user = -1;
}

// A device wants something.
static void serve_devices(void) {
    word pending = PENDING;
    if (pending & PENDING_CONSOLE && byte_users > 0)
        console_has_byte();
    if (pending & PENDING_BLOCK)
        block_has_ended();
}

// Whether bytes at a virtual address lie in the page there that a process owns.
static int lies_in(word page, word address, word length) {
    return address >= page && length <= PAGE_BYTES && address - page <= PAGE_BYTES - length;
}

// Prints bytes of the process that runs. Gives how many, or -1 where they aren't its own.
static word print(word address, word length) {
    if (!lies_in(USER_DATA, address, length) && !lies_in(USER_STACK, address, length)
        && !lies_in(USER_TEXT, address, length))
        return -1;
    const unsigned char *bytes = (const unsigned char *)address;
    SET_CONTROL(sstatus, STATUS_USER_PAGES);
    for (word i = 0; i < length; i++)
        CONSOLE = bytes[i];
    CLEAR_CONTROL(sstatus, STATUS_USER_PAGES);
    return length;
}

// Has the block device move a sector to the data of the process that runs, which waits for it.
static void read_sector(struct process *process, word address, word number) {
    if (!lies_in(USER_DATA, address, SECTOR_BYTES) || disk_user >= 0) {
        answer(process, -1);
        return;
    }
    disk_user = running;
    process->state = WAITS_FOR_SECTOR;
    BLOCK_SECTOR = number;
    BLOCK_ADDRESS = (word)pages[running].data + (address - USER_DATA);
    BLOCK_COUNT = 1;
    BLOCK_COMMAND = BLOCK_READ;
}

// Carries out a call of the process that runs.
static void serve_call(struct process *process) {
    word first = REGISTER(process, ARGUMENT_0), second = REGISTER(process, ARGUMENT_1);
    process->pc += 4;
    switch (REGISTER(process, CALL_NUMBER)) {
    case CALL_PRINT:
        answer(process, print(first, second));
        break;
    case CALL_READ_BYTE:
        process->state = WAITS_FOR_BYTE;
        byte_users++;
        choose_interrupts();
        break;
    case CALL_READ_SECTOR:
        read_sector(process, first, second);
        break;
    default: // CALL_EXIT, and what isn't known
        process->state = ENDED;
    }
}

// The next process behind the one that ran last, in turn, that can go on; -1 where there is none.
static int next_ready(void) {
    for (int i = 1; i <= PROCESSES; i++) {
        int number = (running + i) % PROCESSES;
        if (processes[number].state == READY)
            return number;
    }
    return -1;
}

static int all_have_ended(void) {
    for (int i = 0; i < PROCESSES; i++)
        if (processes[i].state != ENDED)
            return 0;
    return 1;
}

// Goes on with a process: the one that ran, where it stays and can go on, or the next that can. Where all wait, so does
// the hart, until a device wants something.
static void go_on(int stays) {
    while (!stays || processes[running].state != READY) {
        int next = next_ready();
        if (next >= 0) {
            running = next;
            break;
        }
        if (all_have_ended())
            POWER = 0;
        __asm__ volatile("wfi");
        if (READ_CONTROL(sip) & EXTERNAL_BIT)
            serve_devices();
    }
    resume(&processes[running], TRANSLATE | (word)pages[running].root >> 12);
}

// start.S calls this when the process that ran was left, with its registers kept.
void process_left(void) {
    struct process *process = &processes[running];
    int stays = 1;
    switch (READ_CONTROL(scause)) {
    case CAUSE_CALL:
        serve_call(process);
        break;
    case CAUSE_EXTERNAL: // one that has waited for a device goes first
        serve_devices();
        stays = 0;
        break;
    case CAUSE_SOFTWARE: // the timer has rung: it is the other's turn
        CLEAR_CONTROL(sip, SOFTWARE_BIT);
        stays = 0;
        break;
    default: // a fault ends the process
        process->state = ENDED;
    }
    go_on(stays);
}

// start.S calls this once, in supervisor mode.
void kernel_main(void) {
    for (int i = 0; i < PROCESSES; i++)
        make_process(i);
    choose_interrupts();
    CLEAR_CONTROL(sstatus, STATUS_SUPERVISOR);
    SET_CONTROL(sie, SOFTWARE_BIT | EXTERNAL_BIT);
    running = PROCESSES - 1;
    go_on(0);
}
