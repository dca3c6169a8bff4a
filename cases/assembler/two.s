start: addiu $2,$0,2
       syscall
