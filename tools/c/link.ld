/* Code and constants from 0x10000, data from 0x80000: apart, since a store into an executable segment traps. The heap of the C
   library stands behind the data; the last 64 KiB of the first MiB of RAM are left to the stack. */
ENTRY(_start)
PHDRS
{
  text PT_LOAD FLAGS(5);
  data PT_LOAD FLAGS(6);
}
SECTIONS
{
  . = 0x10000;
  .text : { *(.text.start) *(.text .text.*) *(.rodata .rodata.* .srodata .srodata.*) } :text
  . = 0x80000;
  .data : { *(.data .data.* .sdata .sdata.*) } :data
  .tdata : { __tls_base = .; *(.tdata .tdata.*) *(.tbss .tbss.* .tcommon) } :data
  .bss : { *(.bss .bss.* .sbss .sbss.* COMMON) } :data
  . = ALIGN(16);
  __heap_start = .;
  __heap_end = 0x100000;
  /DISCARD/ : { *(.comment) *(.riscv.attributes) *(.note*) *(.eh_frame*) *(.init_array*) *(.fini_array*) }
}
