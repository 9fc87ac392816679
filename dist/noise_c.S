/* The library for the machine that is compiled for: `cc -I include program.c dist/noise_c.S`. The texts in the ELF format are named after Linux, and
   call nothing of it: they are also for FreeBSD, OpenBSD, NetBSD, illumos, and programs without a system. */
#if defined(__TINYC__)
#error "noise_c: tcc can't assemble the text: assemble it with gcc or clang, and link the object"
#elif defined(_MSC_VER) && !defined(__clang__)
#error "noise_c: Microsoft's compiler can't assemble the text: assemble it with clang-cl, and link the object"
#elif defined(__x86_64__) && defined(__ILP32__)
#error "noise_c: there is no text for x32: compile for 64-bit addresses, with -m64"
#elif defined(__i386__) || defined(__arm__) || defined(__riscv) && __riscv_xlen == 32 || defined(__SIZEOF_POINTER__) && __SIZEOF_POINTER__ < 8
#error "noise_c: there is no text for a machine with 32-bit addresses"
#elif defined(__ELF__) && defined(__x86_64__)
#include "noise_c_linux_x86_64.s"
#elif defined(__ELF__) && defined(__aarch64__) && !defined(__AARCH64EB__)
#include "noise_c_linux_aarch64.s"
#elif defined(__ELF__) && defined(__riscv) && defined(__riscv_float_abi_double)
#include "noise_c_linux_riscv64.s"
#elif defined(_WIN32) && defined(__x86_64__)
#include "noise_c_windows_x86_64.s"
#ifdef _MSC_VER
/* What Microsoft's library has under another name. */
    .text
___chkstk_ms:
    jmp __chkstk
#endif
#elif defined(__APPLE__) && defined(__x86_64__)
#include "noise_c_macos_x86_64.s"
#elif defined(__APPLE__) && defined(__aarch64__)
#include "noise_c_macos_arm64.s"
#else
#error "noise_c: there is no text for this machine: there are some for x86-64, AArch64 and RISC-V 64 with ELF, Windows (x86-64) and macOS"
#endif
