/*
 * Start of a program on an emulated Cortex-M4: sets memory up, calls main, and exits QEMU with main's answer. newlib reads and
 * writes by the functions below, which reach the files of the machine by semihosting. A fault exits with FAULT.
 */
#include <errno.h>
#include <stdbool.h>
#include <stddef.h>
#include <stdint.h>
#include <string.h>
#include <sys/stat.h>

enum { FAULT = 99 };
/* Arm's numbers of semihosting calls, of the reason "the program exits", and of the modes "rb" and "ab" */
enum { SYS_OPEN = 0x01, SYS_WRITE = 0x05, SYS_READ = 0x06, SYS_EXIT_EXTENDED = 0x20 };
enum { APPLICATION_EXIT = 0x20026 };
enum { MODE_READ = 1, MODE_APPEND = 9 };

#define CPACR (*(volatile uint32_t *)0xE000ED88u)
#define CPACR_FLOATING_POINT 0x00F00000u

extern uint32_t data_load[], data_start[], data_end[], bss_start[], bss_end[], stack_top[];
extern char end[];
extern int main(void);
void reset(void);
void _exit(int code);
int _read(int file, char *to, int size);
int _write(int file, const char *from, int size);
int _close(int file);
int _lseek(int file, int at, int from);
int _isatty(int file);
int _fstat(int file, struct stat *status);
int _kill(int process, int signal);
int _getpid(void);
void *_sbrk(ptrdiff_t by);

static intptr_t semihost(uint32_t call, const void *arguments)
{
    register uint32_t r0 __asm__("r0") = call;
    register const void *r1 __asm__("r1") = arguments;
    __asm__ volatile("bkpt 0xAB" : "+r"(r0) : "r"(r1) : "memory", "r2", "r3", "ip", "lr", "cc");
    return (intptr_t)r0;
}

void _exit(int code)
{
    const uint32_t arguments[] = {APPLICATION_EXIT, (uint32_t)code};
    semihost(SYS_EXIT_EXTENDED, arguments);
    for (;;) {
    }
}

static void fault(void)
{
    _exit(FAULT);
}

static intptr_t file_named(const char *name, uint32_t mode)
{
    const uint32_t arguments[] = {(uint32_t)name, mode, (uint32_t)strlen(name)};
    return semihost(SYS_OPEN, arguments);
}

/* Reads or writes, and answers how many bytes it did; semihosting answers how many it did not. */
static int transfer(uint32_t call, intptr_t file, const void *memory, int size)
{
    const uint32_t arguments[] = {(uint32_t)file, (uint32_t)memory, (uint32_t)size};
    intptr_t left = semihost(call, arguments);
    return left < 0 ? -1 : size - (int)left;
}

int _read(int file, char *to, int size)
{
    static intptr_t input = -1;
    (void)file;
    if (input < 0)
        input = file_named("/dev/stdin", MODE_READ);
    return transfer(SYS_READ, input, to, size);
}

int _write(int file, const char *from, int size)
{
    static intptr_t outputs[] = {-1, -1};
    const bool error = file == 2;
    if (outputs[error] < 0)
        outputs[error] = file_named(error ? "/dev/stderr" : "/dev/stdout", MODE_APPEND);
    return transfer(SYS_WRITE, outputs[error], from, size);
}

int _close(int file)
{
    (void)file;
    return -1;
}

int _lseek(int file, int at, int from)
{
    (void)file, (void)at, (void)from;
    return 0;
}

int _isatty(int file)
{
    (void)file;
    return 0;
}

int _fstat(int file, struct stat *status)
{
    (void)file;
    memset(status, 0, sizeof *status);
    status->st_mode = S_IFIFO;
    return 0;
}

int _kill(int process, int signal)
{
    (void)process, (void)signal;
    errno = EINVAL;
    return -1;
}

int _getpid(void)
{
    return 1;
}

void *_sbrk(ptrdiff_t by)
{
    static char *at = end;
    char *before = at;
    at += by;
    return before;
}

void reset(void)
{
    const uint32_t *from = data_load;
    for (volatile uint32_t *to = data_start; to < data_end; to++)
        *to = *from++;
    for (volatile uint32_t *to = bss_start; to < bss_end; to++)
        *to = 0;
    CPACR |= CPACR_FLOATING_POINT;
    __asm__ volatile("dsb\n isb" ::: "memory");
    _exit(main());
}

__attribute__((section(".vectors"), used)) static const void *const vectors[] = {
    stack_top, (const void *)reset, (const void *)fault, (const void *)fault,
    (const void *)fault, (const void *)fault, (const void *)fault,
};
