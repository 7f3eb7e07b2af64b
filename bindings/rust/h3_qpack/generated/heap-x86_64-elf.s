/* Generated from heap.c by dist/generate: do not edit. */
	.section	.note.gnu.property,"a",@note
	.p2align	3, 0x0
	.long	4
	.long	16
	.long	5
	.asciz	"GNU"
	.long	3221225474
	.long	4
	.long	3
	.p2align	3, 0x0
	.text
	.file	"heap.c"
	.hidden	rattle_alloc
	.globl	rattle_alloc
	.p2align	4
	.type	rattle_alloc,@function
rattle_alloc:
	.cfi_startproc
	endbr64
	pushq	%rax
	.cfi_def_cfa_offset 16
	testq	%rdi, %rdi
	cmoveq	%rsi, %rdi
	callq	malloc@PLT
	testq	%rax, %rax
	setne	%cl
	leaq	tried.nothing(%rip), %rdx
	cmovneq	%rax, %rdx
	movl	%ecx, %eax
	popq	%rcx
	.cfi_def_cfa_offset 8
	retq
.Lh3q_heap_func_end0:
	.size	rattle_alloc, .Lh3q_heap_func_end0-rattle_alloc
	.cfi_endproc

	.hidden	rattle_realloc
	.globl	rattle_realloc
	.p2align	4
	.type	rattle_realloc,@function
rattle_realloc:
	.cfi_startproc
	endbr64
	pushq	%rax
	.cfi_def_cfa_offset 16
	testq	%rdx, %rdx
	cmovneq	%rdx, %rcx
	movq	%rcx, %rsi
	callq	realloc@PLT
	testq	%rax, %rax
	setne	%cl
	leaq	tried.nothing(%rip), %rdx
	cmovneq	%rax, %rdx
	movl	%ecx, %eax
	popq	%rcx
	.cfi_def_cfa_offset 8
	retq
.Lh3q_heap_func_end1:
	.size	rattle_realloc, .Lh3q_heap_func_end1-rattle_realloc
	.cfi_endproc

	.hidden	rattle_dealloc
	.globl	rattle_dealloc
	.p2align	4
	.type	rattle_dealloc,@function
rattle_dealloc:
	.cfi_startproc
	endbr64
	jmp	free@PLT
.Lh3q_heap_func_end2:
	.size	rattle_dealloc, .Lh3q_heap_func_end2-rattle_dealloc
	.cfi_endproc

	.type	tried.nothing,@object
	.local	tried.nothing
	.comm	tried.nothing,1,1
	.ident	"clang version 22.1.8"
	.section	".note.GNU-stack","",@progbits
