 .globl main
main:
 pushq %rbx
 pushq %rbp
 pushq %r12
 pushq %r13
 pushq %r14
 pushq %r15
 call .Lenter
 call f.main
 movl %eax, %ebx
 call .Lflush
 movl %ebx, %eax
 popq %r15
 popq %r14
 popq %r13
 popq %r12
 popq %rbp
 popq %rbx
 ret
f.main:
 cmpq %r15, %rsp
 jb .Lfull
 subq $16, %rsp
.L0.1:
 movl $7, %r8d
 movl %r8d, 8(%rsp)
.L0.0:
 movl 8(%rsp), %r8d
 movl %r8d, %eax
 addq $16, %rsp
 ret
 jmp .Lwrong
.Lenter:
 leaq .Lglobals(%rip), %r14
 movq .Llimit(%rip), %r15
 testq %r15, %r15
 je .Lfind
.Lfound:
 xorl %r8d, %r8d
 xorl %r9d, %r9d
 xorl %r10d, %r10d
 xorl %r11d, %r11d
 xorl %ebx, %ebx
 xorl %ebp, %ebp
 xorl %r12d, %r12d
 xorl %r13d, %r13d
 ret
.Lfind:
 pushq %rdi
 pushq %rsi
 pushq %rdx
 pushq %rcx
 movq %rsp, %rbp
 subq $16, %rsp
 andq $-16, %rsp
 movl $3, %edi
 movq %rsp, %rsi
 call getrlimit@PLT
 movq (%rsp), %rax
 movl $1073741824, %ecx
 cmpq %rcx, %rax
 cmovaq %rcx, %rax
 movq %rax, %rdx
 shrq $2, %rdx
 subq %rdx, %rax
 leaq 65536(%rbp), %r15
 subq %rax, %r15
 movq %r15, .Llimit(%rip)
 movq %rbp, %rsp
 popq %rcx
 popq %rdx
 popq %rsi
 popq %rdi
 jmp .Lfound
.Lput:
 pushq %r8
 pushq %r9
 pushq %r10
 pushq %r11
 pushq %rbp
 movq %rsp, %rbp
 andq $-16, %rsp
 movzbl %dil, %edi
 call putchar@PLT
 movq %rbp, %rsp
 popq %rbp
 popq %r11
 popq %r10
 popq %r9
 popq %r8
 testl %eax, %eax
 js .Lunwritten
 ret
.Lflush:
 pushq %rbp
 movq %rsp, %rbp
 andq $-16, %rsp
 xorl %edi, %edi
 call fflush@PLT
 movq %rbp, %rsp
 popq %rbp
 testl %eax, %eax
 jne .Lunwritten
 ret
.Lwrong:
 call .Lflush
 movl $5, %ebx
 leaq .Ltold5(%rip), %rsi
 movl $6, %edx
 jmp .Lend
.Lfull:
 call .Lflush
 movl $7, %ebx
 leaq .Ltold7(%rip), %rsi
 movl $7, %edx
 jmp .Lend
.Lunwritten:
 movl $4, %ebx
 leaq .Ltold4(%rip), %rsi
 movl $10, %edx
.Lend:
 andq $-16, %rsp
 movl $2, %edi
 call write@PLT
 movl %ebx, %edi
 call _exit@PLT
.Ltold5:
 .byte 119,114,111,110,103,10
.Ltold7:
 .byte 109,101,109,111,114,121,10
.Ltold4:
 .byte 119,114,105,116,101,32,55,48,49,10
 .data
 .p2align 3
.Llimit:
 .quad 0
.Lglobals:
 .section .note.GNU-stack,"",@progbits
