/* Moves the code that is linked after it by SHIFT bytes from a multiple of 64. */
    .section .text.shift, "axR", @progbits
    .p2align 6
    .fill SHIFT, 1, 0xcc
    .section .note.GNU-stack, "", @progbits
