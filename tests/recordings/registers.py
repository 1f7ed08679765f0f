"""The names of registers: those of the ABI, those of the control registers, and the words of a state."""

# The ABI's names of x0 to x31, and the other names that x0 to x31 go by.
ABI = (
    'zero ra sp gp tp t0 t1 t2 s0 s1 a0 a1 a2 a3 a4 a5 a6 a7 '
    's2 s3 s4 s5 s6 s7 s8 s9 s10 s11 t3 t4 t5 t6'
).split()
INTEGER = {name: number for number, name in enumerate(ABI)}
INTEGER.update({f'x{number}': number for number in range(32)}, fp=8)

# The numbers by which instructions name control registers.
CONTROL = {
    'sstatus': 0x100, 'sie': 0x104, 'stvec': 0x105, 'scounteren': 0x106,
    'sscratch': 0x140, 'sepc': 0x141, 'scause': 0x142, 'stval': 0x143, 'sip': 0x144, 'satp': 0x180,
    'mstatus': 0x300, 'misa': 0x301, 'medeleg': 0x302, 'mideleg': 0x303, 'mie': 0x304, 'mtvec': 0x305,
    'mcounteren': 0x306, 'mscratch': 0x340, 'mepc': 0x341, 'mcause': 0x342, 'mtval': 0x343, 'mip': 0x344,
    'mcycle': 0xb00, 'mcycleh': 0xb80, 'minstret': 0xb02, 'minstreth': 0xb82,
    'cycle': 0xc00, 'cycleh': 0xc80, 'time': 0xc01, 'timeh': 0xc81, 'instret': 0xc02, 'instreth': 0xc82,
    'mvendorid': 0xf11, 'marchid': 0xf12, 'mimpid': 0xf13, 'mhartid': 0xf14,
}

# The words of a state in their order. `mip` is the part of it that software sets.
STATE = (
    ['pc'] + ABI[1:] + ['mode']
    + 'mstatus medeleg mideleg mie mip mtvec mcounteren mscratch mepc mcause mtval'.split()
    + 'stvec scounteren sscratch sepc scause stval satp'.split()
    + 'mcycle mcycleh minstret minstreth reserved place lines'.split()
)
WORD = {name: index for index, name in enumerate(STATE)}
WORD.update({f'x{number}': number for number in range(1, 32)}, fp=8)

# Modes.
USER, SUPERVISOR, MACHINE = 0, 1, 3

# Bits of mstatus.
SIE, MIE, SPIE, MPIE, SPP = 1 << 1, 1 << 3, 1 << 5, 1 << 7, 1 << 8
MPP_SUPERVISOR, MPP_MACHINE = 1 << 11, 3 << 11
MPRV, SUM, MXR, TVM, TW, TSR = 1 << 17, 1 << 18, 1 << 19, 1 << 20, 1 << 21, 1 << 22

# Interrupts, as bits of mie, mideleg, mip and the lines.
SUPERVISOR_SOFTWARE, MACHINE_SOFTWARE = 1 << 1, 1 << 3
SUPERVISOR_TIMER, MACHINE_TIMER = 1 << 5, 1 << 7
SUPERVISOR_EXTERNAL, MACHINE_EXTERNAL = 1 << 9, 1 << 11
