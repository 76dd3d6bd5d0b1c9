/* RAM stands at 0x8000_0000, and a hart that is given no entry starts at its first word. The stack is part of the last section, so that an
   experiment that gives a guest too little RAM for it is refused (`outside-ram`). */
OUTPUT_ARCH(riscv)
ENTRY(_start)
PHDRS { ram PT_LOAD; }
stack_bytes = DEFINED(stack_bytes) ? stack_bytes : 8192;
SECTIONS
{
    . = 0x80000000;
    .text : { KEEP(*(.text.start)) *(.text .text.*) } :ram
    .rodata : { *(.rodata .rodata.* .srodata .srodata.*) } :ram
    .data : { *(.data .data.* .sdata .sdata.*) } :ram
    .tdata : { . = ALIGN(16); tls_start = .; *(.tdata .tdata.*) } :ram
    .tbss : { *(.tbss .tbss.*) } :ram
    .bss : {
        . += SIZEOF(.tbss);
        *(.bss .bss.* .sbss .sbss.* COMMON)
        . = ALIGN(16);
        . += stack_bytes;
        stack_end = .;
    } :ram
    /DISCARD/ : { *(.comment) *(.riscv.attributes) *(.note*) *(.eh_frame*) }
}
