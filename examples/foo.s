@ a function that answers 7
        .text
        .global foo
        .type foo func
foo:    mov r0, #7
        bx lr
