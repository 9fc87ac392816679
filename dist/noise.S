/* The text of the command `noise` for the machine that is compiled for. packaging/assemble links it with runtime.c, whose `main` calls the command's own;
   where the system isn't Linux, its calls are runtime.c's, too. */
#ifdef __APPLE__
#define _main _noise_main
#define _open _noise_open
#define _close _noise_close
#define _read _noise_read
#define _write _noise_write
#else
#define main noise_main
#endif
#ifdef _WIN32
#define open noise_open
#define close noise_close
#define read noise_read
#define write noise_write
#endif
#if defined(__linux__) && defined(__x86_64__) && !defined(__ILP32__)
#include "noise_linux_x86_64.s"
#elif defined(__linux__) && defined(__aarch64__) && !defined(__ILP32__) && !defined(__AARCH64EB__)
#include "noise_linux_aarch64.s"
#elif defined(_WIN32) && defined(__x86_64__)
#include "noise_windows_x86_64.s"
/* The command takes a place for memory in two registers, 1 and where it is, or 0: so no function of C returns it on Windows. */
.macro returns_place name, of
    .globl \name
    .seh_proc \name
\name:
    subq $40, %rsp
    .seh_stackalloc 40
    .seh_endprologue
    call \of
    movq %rax, %rdx
    xorl %eax, %eax
    testq %rdx, %rdx
    setne %al
    addq $40, %rsp
    ret
    .seh_endproc
.endm
    .text
    returns_place rattle_alloc, noise_alloc
    returns_place rattle_realloc, noise_realloc
#ifdef _MSC_VER
/* What Microsoft's library has under another name. */
___chkstk_ms:
    jmp __chkstk
#endif
#elif defined(__APPLE__) && defined(__x86_64__)
#include "noise_macos_x86_64.s"
#elif defined(__APPLE__) && defined(__aarch64__)
#include "noise_macos_arm64.s"
#else
#error "noise: there is no text of the command for this machine: there are some for Linux and macOS (x86-64, AArch64) and Windows (x86-64)"
#endif
