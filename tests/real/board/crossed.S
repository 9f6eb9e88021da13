/* The bytes of a word the other way round. */
        .syntax unified
        .thumb
        .global crossed
        .thumb_func
crossed:
        rev r0, r0
        bx lr
