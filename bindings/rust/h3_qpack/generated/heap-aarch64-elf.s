/* Generated from heap.c by dist/generate: do not edit. */
	.file	"heap.c"
	.text
	.hidden	rattle_alloc
	.globl	rattle_alloc
	.p2align	2
	.type	rattle_alloc,@function
rattle_alloc:
	.cfi_startproc
	stp	x29, x30, [sp, #-16]!
	.cfi_def_cfa_offset 16
	mov	x29, sp
	.cfi_def_cfa w29, 16
	.cfi_offset w30, -8
	.cfi_offset w29, -16
	cmp	x0, #0
	csel	x0, x1, x0, eq
	bl	malloc
	cmp	x0, #0
	adrp	x9, tried.nothing
	add	x9, x9, :lo12:tried.nothing
	cset	w8, ne
	csel	x1, x0, x9, ne
	mov	x0, x8
	.cfi_def_cfa wsp, 16
	ldp	x29, x30, [sp], #16
	.cfi_def_cfa_offset 0
	.cfi_restore w30
	.cfi_restore w29
	ret
.Lh3q_heap_func_end0:
	.size	rattle_alloc, .Lh3q_heap_func_end0-rattle_alloc
	.cfi_endproc

	.hidden	rattle_realloc
	.globl	rattle_realloc
	.p2align	2
	.type	rattle_realloc,@function
rattle_realloc:
	.cfi_startproc
	stp	x29, x30, [sp, #-16]!
	.cfi_def_cfa_offset 16
	mov	x29, sp
	.cfi_def_cfa w29, 16
	.cfi_offset w30, -8
	.cfi_offset w29, -16
	cmp	x2, #0
	csel	x1, x3, x2, eq
	bl	realloc
	cmp	x0, #0
	adrp	x9, tried.nothing
	add	x9, x9, :lo12:tried.nothing
	cset	w8, ne
	csel	x1, x0, x9, ne
	mov	x0, x8
	.cfi_def_cfa wsp, 16
	ldp	x29, x30, [sp], #16
	.cfi_def_cfa_offset 0
	.cfi_restore w30
	.cfi_restore w29
	ret
.Lh3q_heap_func_end1:
	.size	rattle_realloc, .Lh3q_heap_func_end1-rattle_realloc
	.cfi_endproc

	.hidden	rattle_dealloc
	.globl	rattle_dealloc
	.p2align	2
	.type	rattle_dealloc,@function
rattle_dealloc:
	.cfi_startproc
	b	free
.Lh3q_heap_func_end2:
	.size	rattle_dealloc, .Lh3q_heap_func_end2-rattle_dealloc
	.cfi_endproc

	.type	tried.nothing,@object
	.local	tried.nothing
	.comm	tried.nothing,1,1
	.ident	"clang version 22.1.8"
	.section	".note.GNU-stack","",@progbits
