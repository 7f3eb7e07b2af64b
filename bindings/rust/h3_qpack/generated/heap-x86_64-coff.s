/* Generated from heap.c by dist/generate: do not edit. */
	.file	"heap.c"
	.def	rattle_alloc;
	.scl	2;
	.type	32;
	.endef
	.text
	.globl	rattle_alloc
	.p2align	4
rattle_alloc:
	subq	$40, %rsp
	movq	%rsi, %rcx
	testq	%rdi, %rdi
	cmovneq	%rdi, %rcx
	callq	malloc
	testq	%rax, %rax
	setne	%cl
	leaq	tried.nothing(%rip), %rdx
	cmovneq	%rax, %rdx
	movl	%ecx, %eax
	addq	$40, %rsp
	retq

	.def	rattle_realloc;
	.scl	2;
	.type	32;
	.endef
	.globl	rattle_realloc
	.p2align	4
rattle_realloc:
	subq	$40, %rsp
	testq	%rdx, %rdx
	cmoveq	%rcx, %rdx
	movq	%rdi, %rcx
	callq	realloc
	testq	%rax, %rax
	setne	%cl
	leaq	tried.nothing(%rip), %rdx
	cmovneq	%rax, %rdx
	movl	%ecx, %eax
	addq	$40, %rsp
	retq

	.def	rattle_dealloc;
	.scl	2;
	.type	32;
	.endef
	.globl	rattle_dealloc
	.p2align	4
rattle_dealloc:
	subq	$40, %rsp
	movq	%rdi, %rcx
	callq	free
	addq	$40, %rsp
	retq

	.def	rattle_memcpy;
	.scl	2;
	.type	32;
	.endef
	.globl	rattle_memcpy
	.p2align	4
rattle_memcpy:
	subq	$40, %rsp
	movq	%rdx, %r8
	movq	%rsi, %rdx
	movq	%rdi, %rcx
	callq	memcpy
	movq	%rdi, %rax
	addq	$40, %rsp
	retq

	.def	rattle_memmove;
	.scl	2;
	.type	32;
	.endef
	.globl	rattle_memmove
	.p2align	4
rattle_memmove:
	subq	$40, %rsp
	movq	%rdx, %r8
	movq	%rsi, %rdx
	movq	%rdi, %rcx
	callq	memmove
	movq	%rdi, %rax
	addq	$40, %rsp
	retq

	.def	rattle_memset;
	.scl	2;
	.type	32;
	.endef
	.globl	rattle_memset
	.p2align	4
rattle_memset:
	subq	$40, %rsp
	movq	%rdx, %r8
	movl	%esi, %edx
	movq	%rdi, %rcx
	callq	memset
	movq	%rdi, %rax
	addq	$40, %rsp
	retq

	.def	rattle_memcmp;
	.scl	2;
	.type	32;
	.endef
	.globl	rattle_memcmp
	.p2align	4
rattle_memcmp:
	subq	$40, %rsp
	movq	%rdx, %r8
	movq	%rsi, %rdx
	movq	%rdi, %rcx
	callq	memcmp
	addq	$40, %rsp
	retq

	.lcomm	tried.nothing,1
	.section	.debug$S,"dr"
	.p2align	2, 0x0
	.long	4
	.long	241
	.long	.Lh3q_heap_tmp1-.Lh3q_heap_tmp0
.Lh3q_heap_tmp0:
	.short	.Lh3q_heap_tmp3-.Lh3q_heap_tmp2
.Lh3q_heap_tmp2:
	.short	4353
	.long	0
	.byte	0
	.p2align	2, 0x0
.Lh3q_heap_tmp3:
	.short	.Lh3q_heap_tmp5-.Lh3q_heap_tmp4
.Lh3q_heap_tmp4:
	.short	4412
	.long	0
	.short	208
	.short	22
	.short	1
	.short	8
	.short	0
	.short	22018
	.short	0
	.short	0
	.short	0
	.asciz	"clang version 22.1.8"
	.p2align	2, 0x0
.Lh3q_heap_tmp5:
.Lh3q_heap_tmp1:
	.p2align	2, 0x0
