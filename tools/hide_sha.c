/* A library to stand in front of a program (LD_PRELOAD), which then runs as on a processor without SHA instructions.
 *
 *   gcc -shared -fPIC -O2 -o hide_sha.so hide_sha.c
 *   LD_PRELOAD=./hide_sha.so PROGRAM ..
 *
 * The system is told to fault at each `cpuid`; the fault is answered with what the processor says, but for the bit of these instructions
 * (leaf 7, EBX, bit 29). A program that asks no `cpuid` runs as before. x86-64 Linux on a processor that can fault so (`cpuid_fault`). */
#define _GNU_SOURCE
#include <signal.h>
#include <stdio.h>
#include <sys/syscall.h>
#include <ucontext.h>
#include <unistd.h>

enum { ARCH_SET_CPUID = 0x1012 };

static void let_cpuid(int allowed) {
    if (syscall(SYS_arch_prctl, ARCH_SET_CPUID, allowed))
        perror("hide_sha");
}

static void answer(int signal_number, siginfo_t *info, void *context) {
    greg_t *registers = ((ucontext_t *)context)->uc_mcontext.gregs;
    const unsigned char *at = (const unsigned char *)registers[REG_RIP];
    if (at[0] != 0x0f || at[1] != 0xa2) { /* no cpuid: a fault of the program's own */
        signal(signal_number, SIG_DFL);
        return;
    }
    unsigned leaf = registers[REG_RAX], part = registers[REG_RCX], a, b, c, d;
    let_cpuid(1);
    __asm__ volatile("cpuid" : "=a"(a), "=b"(b), "=c"(c), "=d"(d) : "a"(leaf), "c"(part));
    let_cpuid(0);
    if (leaf == 7 && part == 0)
        b &= ~(1u << 29);
    registers[REG_RAX] = a, registers[REG_RBX] = b, registers[REG_RCX] = c, registers[REG_RDX] = d;
    registers[REG_RIP] += 2;
}

__attribute__((constructor)) static void hide(void) {
    struct sigaction action = {.sa_sigaction = answer, .sa_flags = SA_SIGINFO | SA_NODEFER};
    sigaction(SIGSEGV, &action, NULL);
    let_cpuid(0);
}
