/* Generated from heap.c by dist/generate: do not edit. */
	.section	__TEXT,__text,regular,pure_instructions
	.private_extern	_rattle_alloc
	.globl	_rattle_alloc
	.p2align	4
_rattle_alloc:
	.cfi_startproc
	pushq	%rbp
	.cfi_def_cfa_offset 16
	.cfi_offset %rbp, -16
	movq	%rsp, %rbp
	.cfi_def_cfa_register %rbp
	testq	%rdi, %rdi
	cmoveq	%rsi, %rdi
	callq	_malloc
	testq	%rax, %rax
	setne	%cl
	leaq	_tried.nothing(%rip), %rdx
	cmovneq	%rax, %rdx
	movl	%ecx, %eax
	popq	%rbp
	retq
	.cfi_endproc

	.private_extern	_rattle_realloc
	.globl	_rattle_realloc
	.p2align	4
_rattle_realloc:
	.cfi_startproc
	pushq	%rbp
	.cfi_def_cfa_offset 16
	.cfi_offset %rbp, -16
	movq	%rsp, %rbp
	.cfi_def_cfa_register %rbp
	testq	%rdx, %rdx
	cmovneq	%rdx, %rcx
	movq	%rcx, %rsi
	callq	_realloc
	testq	%rax, %rax
	setne	%cl
	leaq	_tried.nothing(%rip), %rdx
	cmovneq	%rax, %rdx
	movl	%ecx, %eax
	popq	%rbp
	retq
	.cfi_endproc

	.private_extern	_rattle_dealloc
	.globl	_rattle_dealloc
	.p2align	4
_rattle_dealloc:
	.cfi_startproc
	pushq	%rbp
	.cfi_def_cfa_offset 16
	.cfi_offset %rbp, -16
	movq	%rsp, %rbp
	.cfi_def_cfa_register %rbp
	popq	%rbp
	jmp	_free
	.cfi_endproc

.zerofill __DATA,__bss,_tried.nothing,1,0
.subsections_via_symbols
