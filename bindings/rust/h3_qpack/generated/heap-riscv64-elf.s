/* Generated from heap.c by dist/generate: do not edit. */
	.file	"heap.c"
	.text
	.hidden	rattle_alloc
	.globl	rattle_alloc
	.p2align	1
	.type	rattle_alloc,@function
rattle_alloc:
	.cfi_startproc
	beqz	a0, .Lh3q_heap_BB0_2
	mv	a1, a0
.Lh3q_heap_BB0_2:
	addi	sp, sp, -16
	.cfi_def_cfa_offset 16
	sd	ra, 8(sp)
	.cfi_offset ra, -8
	mv	a0, a1
	call	malloc
	mv	a1, a0
	snez	a0, a0
	ld	ra, 8(sp)
	.cfi_restore ra
	addi	sp, sp, 16
	.cfi_def_cfa_offset 0
	bnez	a1, .Lh3q_heap_BB0_4
.Lh3q_heap_pcrel_hi0:
	auipc	a1, %pcrel_hi(tried.nothing)
	addi	a1, a1, %pcrel_lo(.Lh3q_heap_pcrel_hi0)
.Lh3q_heap_BB0_4:
	ret
.Lh3q_heap_func_end0:
	.size	rattle_alloc, .Lh3q_heap_func_end0-rattle_alloc
	.cfi_endproc

	.hidden	rattle_realloc
	.globl	rattle_realloc
	.p2align	1
	.type	rattle_realloc,@function
rattle_realloc:
	.cfi_startproc
	mv	a1, a3
	beqz	a2, .Lh3q_heap_BB1_2
	mv	a1, a2
.Lh3q_heap_BB1_2:
	addi	sp, sp, -16
	.cfi_def_cfa_offset 16
	sd	ra, 8(sp)
	.cfi_offset ra, -8
	call	realloc
	mv	a1, a0
	snez	a0, a0
	ld	ra, 8(sp)
	.cfi_restore ra
	addi	sp, sp, 16
	.cfi_def_cfa_offset 0
	bnez	a1, .Lh3q_heap_BB1_4
.Lh3q_heap_pcrel_hi1:
	auipc	a1, %pcrel_hi(tried.nothing)
	addi	a1, a1, %pcrel_lo(.Lh3q_heap_pcrel_hi1)
.Lh3q_heap_BB1_4:
	ret
.Lh3q_heap_func_end1:
	.size	rattle_realloc, .Lh3q_heap_func_end1-rattle_realloc
	.cfi_endproc

	.hidden	rattle_dealloc
	.globl	rattle_dealloc
	.p2align	1
	.type	rattle_dealloc,@function
rattle_dealloc:
	.cfi_startproc
	tail	free
.Lh3q_heap_func_end2:
	.size	rattle_dealloc, .Lh3q_heap_func_end2-rattle_dealloc
	.cfi_endproc

	.type	tried.nothing,@object
	.local	tried.nothing
	.comm	tried.nothing,1,1
	.ident	"clang version 22.1.8"
	.section	".note.GNU-stack","",@progbits
