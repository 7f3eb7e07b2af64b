/* Generated from heap.c by dist/generate: do not edit. */
	.section	__TEXT,__text,regular,pure_instructions
	.private_extern	_rattle_alloc
	.globl	_rattle_alloc
	.p2align	2
_rattle_alloc:
	.cfi_startproc
	stp	x29, x30, [sp, #-16]!
	mov	x29, sp
	.cfi_def_cfa w29, 16
	.cfi_offset w30, -8
	.cfi_offset w29, -16
	cmp	x0, #0
	csel	x0, x1, x0, eq
	bl	_malloc
Lh3q_heap_loh0:
	adrp	x8, _tried.nothing@PAGE
Lh3q_heap_loh1:
	add	x8, x8, _tried.nothing@PAGEOFF
	cmp	x0, #0
	csel	x1, x0, x8, ne
	cset	w0, ne
	ldp	x29, x30, [sp], #16
	ret
	.loh AdrpAdd	Lh3q_heap_loh0, Lh3q_heap_loh1
	.cfi_endproc

	.private_extern	_rattle_realloc
	.globl	_rattle_realloc
	.p2align	2
_rattle_realloc:
	.cfi_startproc
	stp	x29, x30, [sp, #-16]!
	mov	x29, sp
	.cfi_def_cfa w29, 16
	.cfi_offset w30, -8
	.cfi_offset w29, -16
	cmp	x2, #0
	csel	x1, x3, x2, eq
	bl	_realloc
Lh3q_heap_loh2:
	adrp	x8, _tried.nothing@PAGE
Lh3q_heap_loh3:
	add	x8, x8, _tried.nothing@PAGEOFF
	cmp	x0, #0
	csel	x1, x0, x8, ne
	cset	w0, ne
	ldp	x29, x30, [sp], #16
	ret
	.loh AdrpAdd	Lh3q_heap_loh2, Lh3q_heap_loh3
	.cfi_endproc

	.private_extern	_rattle_dealloc
	.globl	_rattle_dealloc
	.p2align	2
_rattle_dealloc:
	.cfi_startproc
	b	_free
	.cfi_endproc

.zerofill __DATA,__bss,_tried.nothing,1,0
.subsections_via_symbols
