@ calls foo, and ends the process with what it answers
        .text
        .global _start
_start: bl foo
        svc #0
