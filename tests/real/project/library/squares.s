        .section .rodata
        .globl squares
        .type squares, %object
        .balign 4
squares:
        .long 0, 1, 4, 9, 16, 25
        .size squares, . - squares
        .section .note.GNU-stack,"",%progbits
