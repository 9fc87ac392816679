/* The sections of the static library, for `ld -r`: the code that a handshake takes, and what several calls share, is
   one, and so is the data. Each call of halves, streams and cipher states stays a section of its own, so that a linker
   with --gc-sections leaves out those that a program doesn't use. */
SECTIONS {
    .text 0 : {
        *(.text ".text.*::*" .text.noise_*_size .text.noise_find_level)
        *(.text.noise_start .text.noise_answer .text.noise_set_psk .text.noise_read .text.noise_write)
        *(.text.noise_message_len .text.noise_hash .text.noise_remote_static .text.noise_stage)
    }
    .rodata.cst16 0 : { *(.rodata.cst16) }
    .rodata 0 : { *(.rodata .rodata.*) }
    .data.rel.ro 0 : { *(.data.rel.ro .data.rel.ro.*) }
    .bss 0 : { *(.bss .bss.*) }
    /DISCARD/ : { *(.comment .llvm_addrsig) }
}
