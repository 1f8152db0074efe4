/* The check, the evaluation and the writing read no bit entry past the width, and none where the width is refused: at each width those entries lie on a page that
   cannot be read. So does the bit order behind them, which is read: a read of the page ends in a signal, is held against the place of the bit order, and is made
   again with the page readable for one instruction. */
#define _GNU_SOURCE
#include "../jimrawel.h"

#include <signal.h>
#include <stdio.h>
#include <sys/mman.h>
#include <ucontext.h>
#include <unistd.h>

#define TRAP 0x100 /* the flag of x86-64 by which a signal comes after the next instruction */

static uint32_t order[1 << 20], scratch[1 << 20];
static uint8_t text[1 << 24];

static char *page; /* that cannot be read */
static size_t size;
static const uint64_t *bit_order;
static volatile sig_atomic_t reads;

static void at_read(int number, siginfo_t *info, void *context) {
    (void)number;
    const char *at = info->si_addr;
    if (at < (const char *)bit_order || at >= (const char *)(bit_order + 1)) {
        static const char words[] = "a bit entry past the width is read\n";
        _exit(write(STDERR_FILENO, words, sizeof words - 1) < 0 ? 2 : 1);
    }
    reads++;
    mprotect(page, size, PROT_READ);
    ((ucontext_t *)context)->uc_mcontext.gregs[REG_EFL] |= TRAP;
}

static void after_read(int number, siginfo_t *info, void *context) {
    (void)number, (void)info;
    mprotect(page, size, PROT_NONE);
    ((ucontext_t *)context)->uc_mcontext.gregs[REG_EFL] &= ~TRAP;
}

int main(void) {
    const uint8_t bytes[] = {0x00, 0x80, 0xFF};
    size = (size_t)sysconf(_SC_PAGESIZE);
    char *pages = mmap(NULL, 2 * size, PROT_READ | PROT_WRITE, MAP_PRIVATE | MAP_ANONYMOUS, -1, 0);
    struct sigaction reading = {.sa_sigaction = at_read, .sa_flags = SA_SIGINFO};
    struct sigaction read = {.sa_sigaction = after_read, .sa_flags = SA_SIGINFO};
    if (pages == MAP_FAILED || sigaction(SIGSEGV, &reading, NULL) != 0 || sigaction(SIGTRAP, &read, NULL) != 0) return 1;
    page = pages + size;

    for (size_t width = 0; width <= 21; width++) {
        for (uint64_t low_first = 0; low_first <= 2; low_first++) {
            size_t chosen = width <= 20 ? width : 0;
            size_t bins = (size_t)1 << chosen;
            if (mprotect(page, size, PROT_READ | PROT_WRITE) != 0) return 1;
            uint64_t *finding = (uint64_t *)page - (JIMRAWEL_BITS + chosen);
            uint64_t evaluated[JIMRAWEL_EVALUATED];
            finding[JIMRAWEL_BLOCK_SIZE] = 24;
            finding[JIMRAWEL_WIDTH] = width;
            finding[JIMRAWEL_DIVISION] = 1;
            finding[JIMRAWEL_Z] = 0;
            for (size_t i = 0; i < chosen; i++) finding[JIMRAWEL_BITS + i] = i;
            finding[JIMRAWEL_LOW_FIRST] = low_first;
            bit_order = &finding[JIMRAWEL_LOW_FIRST];
            if (mprotect(page, size, PROT_NONE) != 0) return 1;
            for (size_t v = 0; v < bins; v++) order[v] = (uint32_t)v;
            uint32_t expected = low_first > 1 ? JIMRAWEL_BAD_BIT_ORDER : chosen == 0 ? JIMRAWEL_BAD_WIDTH : JIMRAWEL_OK;
            reads = 0;
            uint32_t checked = jimrawel_validate(finding, JIMRAWEL_FINDING, order, bins, scratch, bins);
            uint32_t tried = jimrawel_evaluate_histogram(
                finding, JIMRAWEL_FINDING, order, bins, bytes, sizeof bytes, scratch, bins, evaluated, JIMRAWEL_EVALUATED);
            size_t length;
            uint32_t written = jimrawel_write_finding(finding, JIMRAWEL_FINDING, order, bins, scratch, bins, text, sizeof text, &length);
            if (checked != expected || tried != expected || written != expected || reads < 3) return 1;
        }
    }
    puts("no bit entry past the width is read");
    return 0;
}
