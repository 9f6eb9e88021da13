/* Begins and ends a table that C sees as an array. */
#define TABLE(name) .section .rodata; .globl name; .type name, %object; .balign 4; name:
#define END(name) name##_end: .size name, . - name
