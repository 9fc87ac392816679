/* The library for the system and the processor that the compiler makes code for. Its text comes from the proofs. */
#if defined(__linux__) && defined(__x86_64__) && defined(__LP64__)
.include "linux_x86_64.s"
#elif defined(__linux__) && defined(__aarch64__) && defined(__LP64__) && !defined(__AARCH64EB__)
.include "linux_aarch64.s"
#elif defined(__linux__) && defined(__riscv_float_abi_double) && __riscv_xlen == 64
.include "linux_riscv64.s"
#elif defined(__MINGW32__) && defined(__x86_64__)
.include "windows_x86_64.s"
#elif defined(__APPLE__) && defined(__x86_64__)
.include "macos_x86_64.s"
#elif defined(__APPLE__) && defined(__aarch64__)
.include "macos_arm64.s"
#else
#error "yulimosar has no assembly text for this target: it has Linux (x86-64, AArch64, RISC-V 64), macOS (x86-64, arm64), Windows (x86-64)"
#endif
#if defined(__linux__) && defined(__ELF__)
.section .note.GNU-stack,"",%progbits
#endif
