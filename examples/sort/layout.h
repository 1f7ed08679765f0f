// Where user mode finds its pages, and how it calls the kernel. The kernel and the processes share this page.
#ifndef LAYOUT_H
#define LAYOUT_H

// Virtual addresses, the same in each process. link.ld has the first one too.
#define USER_TEXT          0x00400000u // one page with the program, which all processes share
#define USER_DATA          0x00410000u // one page of data
#define USER_STACK         0x0041f000u // one page of stack, used from its end down

// Calls: the number is in a7, arguments are in a0 and a1, and the result comes in a0.
#define CALL_EXIT          0 // exit(): never comes back
#define CALL_PRINT         1 // print(bytes, length): to the console
#define CALL_READ_BYTE     2 // read_byte(): the next byte of the console, once there is one
#define CALL_READ_SECTOR   3 // read_sector(bytes, number): 512 bytes of the disk; 0, or -1 where it can't be done

#endif
