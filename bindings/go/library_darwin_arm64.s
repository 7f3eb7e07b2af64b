/* Generated from the module of aarch64-elf.s by dist/generate: do not edit. */
	.section	__TEXT,__text,regular,pure_instructions
	.p2align	2
"_std_collections::btree::node::Node::destroy::<#bf85185a38bd87d2>":
	sub	sp, sp, #160
	stp	x20, x19, [sp, #128]
	ldrh	w20, [x0]
	ldrh	w10, [x0, #2]
	add	x8, x0, #8
	mov	w9, #15
	mov	w11, #16
	stp	x8, x20, [sp, #8]
	add	x8, x0, #248
	cmp	w10, #0
	stp	x9, x8, [sp, #24]
	add	x8, x0, #608
	csel	x11, xzr, x11, eq
	stp	x20, x9, [sp, #40]
	csinc	x9, xzr, x20, eq
	stp	x22, x21, [sp, #112]
	stp	x29, x30, [sp, #144]
	add	x29, sp, #144
	stp	x8, x9, [sp, #56]
	stp	x11, x0, [sp, #72]
	cbz	w10, Lh3q_BB0_43
	add	x19, sp, #8
	cbnz	w20, Lh3q_BB0_3
	b	Lh3q_BB0_30
Lh3q_BB0_2:
	ldr	x20, [sp, #16]
	cbz	x20, Lh3q_BB0_29
Lh3q_BB0_3:
	ldp	x9, x8, [sp, #56]
	sub	x8, x8, #1
	ldr	x0, [x9]
	cmp	x8, #257
	b.lo	Lh3q_BB0_9
	mov	x13, xzr
	add	x11, x9, #16
Lh3q_BB0_5:
	mov	w10, #256
	mov	x12, x11
Lh3q_BB0_6:
	ldur	q0, [x12, #-8]
	ldur	q1, [x12, #8]
	subs	x10, x10, #4
	stp	q0, q1, [x12, #-16]
	add	x12, x12, #32
	b.ne	Lh3q_BB0_6
	add	x13, x13, #256
	add	x11, x11, #2048
	sub	x10, x8, x13
	cmp	x10, #256
	b.hi	Lh3q_BB0_5
	lsl	x11, x13, #3
	add	x12, x9, x11
	cmp	x8, x13
	b.ne	Lh3q_BB0_10
	b	Lh3q_BB0_15
Lh3q_BB0_9:
	mov	x11, xzr
	mov	x12, x9
	mov	x10, x8
	cmp	x8, xzr
	b.eq	Lh3q_BB0_15
Lh3q_BB0_10:
	cmp	x10, #4
	b.lo	Lh3q_BB0_12
	add	x13, x11, x9
	sub	x13, x13, x12
	sub	x13, x13, #8
	cmp	x13, #32
	b.hs	Lh3q_BB0_26
Lh3q_BB0_12:
	mov	x13, xzr
Lh3q_BB0_13:
	lsl	x14, x13, #3
	add	x11, x9, x11
	sub	x9, x10, x13
	add	x12, x12, x14
	add	x11, x11, x14
	add	x10, x12, #8
Lh3q_BB0_14:
	ldr	x12, [x10], #8
	subs	x9, x9, #1
	str	x12, [x11], #8
	b.ne	Lh3q_BB0_14
Lh3q_BB0_15:
	ldr	x9, [sp, #72]
	stp	x8, x9, [sp, #64]
	bl	"_std_collections::btree::node::Node::destroy::<#bf85185a38bd87d2>"
	sub	x8, x20, #1
	ldr	x9, [sp, #8]
	stp	xzr, xzr, [x29, #-56]
	cmp	x8, #129
	stur	xzr, [x29, #-40]
	b.lo	Lh3q_BB0_21
	mov	x10, xzr
	add	x12, x9, #16
Lh3q_BB0_17:
	mov	w11, #128
	mov	x13, x12
Lh3q_BB0_18:
	ldr	q0, [x13]
	subs	x11, x11, #1
	stur	q0, [x13, #-16]
	add	x13, x13, #16
	b.ne	Lh3q_BB0_18
	add	x10, x10, #128
	add	x12, x12, #2048
	sub	x11, x8, x10
	cmp	x11, #128
	b.hi	Lh3q_BB0_17
	lsl	x13, x10, #4
	add	x14, x9, x13
	ldr	x12, [sp, #24]
	cmp	x8, x10
	b.ne	Lh3q_BB0_22
	b	Lh3q_BB0_24
Lh3q_BB0_21:
	mov	x13, xzr
	mov	x14, x9
	mov	x11, x8
	ldr	x12, [sp, #24]
	cmp	x8, xzr
	b.eq	Lh3q_BB0_24
Lh3q_BB0_22:
	add	x10, x14, #16
	add	x9, x9, x13
Lh3q_BB0_23:
	ldr	q0, [x10], #16
	subs	x11, x11, #1
	str	q0, [x9], #16
	b.ne	Lh3q_BB0_23
Lh3q_BB0_24:
	sub	x0, x29, #56
	add	x1, x19, #24
	mov	x2, xzr
	stp	x8, x12, [sp, #16]
	bl	"_std_alloc::vec::Vec::remove::<#59d4bea1ca342376>"
	ldur	x8, [x29, #-40]
	cbz	x8, Lh3q_BB0_2
	ldur	x0, [x29, #-56]
	bl	_rattle_dealloc
	b	Lh3q_BB0_2
Lh3q_BB0_26:
	add	x15, x9, x11
	and	x13, x10, #0x1fc
	add	x14, x12, #24
	add	x15, x15, #16
	and	x16, x10, #0x1fc
Lh3q_BB0_27:
	ldp	q0, q1, [x14, #-16]
	subs	x16, x16, #4
	add	x14, x14, #32
	stp	q0, q1, [x15, #-16]
	add	x15, x15, #32
	b.ne	Lh3q_BB0_27
	cmp	x10, x13
	b.eq	Lh3q_BB0_15
	b	Lh3q_BB0_13
Lh3q_BB0_29:
	ldp	x8, x9, [sp, #56]
	sub	x20, x9, #1
Lh3q_BB0_30:
	ldr	x0, [x8]
	mov	x9, xzr
	mov	x12, xzr
	cmp	x20, #257
	mov	x11, x8
	mov	x10, x20
	stp	xzr, xzr, [x19, #56]
	b.lo	Lh3q_BB0_36
	mov	x12, xzr
	add	x9, x8, #16
Lh3q_BB0_32:
	mov	w10, #256
	mov	x11, x9
Lh3q_BB0_33:
	ldur	q0, [x11, #-8]
	ldur	q1, [x11, #8]
	subs	x10, x10, #4
	stp	q0, q1, [x11, #-16]
	add	x11, x11, #32
	b.ne	Lh3q_BB0_33
	add	x12, x12, #256
	add	x9, x9, #2048
	sub	x10, x20, x12
	cmp	x10, #256
	b.hi	Lh3q_BB0_32
	lsl	x9, x12, #3
	add	x11, x8, x9
Lh3q_BB0_36:
	cmp	x20, x12
	b.eq	Lh3q_BB0_42
	cmp	x10, #6
	b.lo	Lh3q_BB0_39
	add	x14, x9, x8
	sub	x12, x14, x11
	sub	x12, x12, #8
	cmp	x12, #32
	b.hs	Lh3q_BB0_49
Lh3q_BB0_39:
	mov	x12, xzr
Lh3q_BB0_40:
	lsl	x13, x12, #3
	add	x14, x8, x9
	sub	x8, x10, x12
	add	x11, x13, x11
	add	x10, x14, x13
	add	x9, x11, #8
Lh3q_BB0_41:
	ldr	x11, [x9], #8
	subs	x8, x8, #1
	str	x11, [x10], #8
	b.ne	Lh3q_BB0_41
Lh3q_BB0_42:
	bl	"_std_collections::btree::node::Node::destroy::<#bf85185a38bd87d2>"
	ldr	x0, [sp, #80]
	ldp	x29, x30, [sp, #144]
	ldp	x20, x19, [sp, #128]
	ldp	x22, x21, [sp, #112]
	add	sp, sp, #160
	b	_rattle_dealloc
Lh3q_BB0_43:
	mov	x19, x0
	add	x0, sp, #8
	bl	"_std_collections::btree::row::Row::reverse::<#f1f734e93d23a409>"
	cbz	w20, Lh3q_BB0_48
	mov	w8, #24
	umaddl	x8, w20, w8, x19
	add	x21, x8, #240
	b	Lh3q_BB0_46
Lh3q_BB0_45:
	sub	x20, x20, #1
	sub	x21, x21, #24
	cbz	x20, Lh3q_BB0_48
Lh3q_BB0_46:
	ldr	x8, [x21]
	cbz	x8, Lh3q_BB0_45
	ldur	x0, [x21, #-16]
	bl	_rattle_dealloc
	b	Lh3q_BB0_45
Lh3q_BB0_48:
	mov	x0, x19
	ldp	x29, x30, [sp, #144]
	ldp	x20, x19, [sp, #128]
	ldp	x22, x21, [sp, #112]
	add	sp, sp, #160
	b	_rattle_dealloc
Lh3q_BB0_49:
	and	x12, x10, #0x1fc
	add	x13, x11, #24
	add	x14, x14, #16
	and	x15, x10, #0x1fc
Lh3q_BB0_50:
	ldp	q0, q1, [x13, #-16]
	subs	x15, x15, #4
	add	x13, x13, #32
	stp	q0, q1, [x14, #-16]
	add	x14, x14, #32
	b.ne	Lh3q_BB0_50
	cmp	x10, x12
	b.eq	Lh3q_BB0_42
	b	Lh3q_BB0_40

	.p2align	2
"_std_collections::btree::row::Row::reverse::<#f1f734e93d23a409>":
	sub	sp, sp, #64
	stp	x20, x19, [sp, #32]
	mov	x19, x0
	ldp	x0, x8, [x0]
	stp	x29, x30, [sp, #48]
	add	x29, sp, #48
	cmp	x8, #15
	b.ls	Lh3q_BB1_2
	lsr	x2, x8, #1
	sub	x8, x8, x2
	add	x1, x0, x8, lsl #4
	bl	"_core::slice::edits::mirror::<44'qpack_table::dynamic::open_blocks::CommitKey>"
	b	Lh3q_BB1_35
Lh3q_BB1_2:
	subs	x10, x8, #2
	b.lo	Lh3q_BB1_35
	lsr	x9, x10, #1
	subs	x11, x8, #1
	b.eq	Lh3q_BB1_5
	lsl	x11, x11, #4
	ldr	q1, [x0]
	ldr	q0, [x0, x11]
	str	q0, [x0]
	str	q1, [x0, x11]
Lh3q_BB1_5:
	cbz	x9, Lh3q_BB1_35
	cmp	x10, #1
	b.ls	Lh3q_BB1_8
	lsl	x10, x10, #4
	ldr	q1, [x0, #16]
	ldr	q0, [x0, x10]
	str	q0, [x0, #16]
	str	q1, [x0, x10]
	b	Lh3q_BB1_10
Lh3q_BB1_8:
	cbnz	x10, Lh3q_BB1_10
	ldp	q1, q0, [x0]
	stp	q0, q1, [x0]
Lh3q_BB1_10:
	cmp	x9, #1
	b.eq	Lh3q_BB1_35
	sub	x10, x8, #3
	cmp	x10, #2
	b.ls	Lh3q_BB1_13
	lsl	x10, x10, #4
	ldr	q1, [x0, #32]
	ldr	q0, [x0, x10]
	str	q0, [x0, #32]
	str	q1, [x0, x10]
	b	Lh3q_BB1_15
Lh3q_BB1_13:
	b.eq	Lh3q_BB1_15
	lsl	x10, x10, #4
	ldr	q1, [x0, #32]
	ldr	q0, [x0, x10]
	str	q1, [x0, x10]
	str	q0, [x0, #32]
Lh3q_BB1_15:
	cmp	x9, #2
	b.eq	Lh3q_BB1_35
	sub	x10, x8, #4
	cmp	x10, #3
	b.ls	Lh3q_BB1_18
	lsl	x10, x10, #4
	ldr	q1, [x0, #48]
	ldr	q0, [x0, x10]
	str	q0, [x0, #48]
	str	q1, [x0, x10]
	b	Lh3q_BB1_20
Lh3q_BB1_18:
	b.eq	Lh3q_BB1_20
	lsl	x10, x10, #4
	ldr	q1, [x0, #48]
	ldr	q0, [x0, x10]
	str	q1, [x0, x10]
	str	q0, [x0, #48]
Lh3q_BB1_20:
	cmp	x9, #3
	b.eq	Lh3q_BB1_35
	sub	x10, x8, #5
	cmp	x10, #4
	b.ls	Lh3q_BB1_23
	lsl	x10, x10, #4
	ldr	q1, [x0, #64]
	ldr	q0, [x0, x10]
	str	q0, [x0, #64]
	str	q1, [x0, x10]
	b	Lh3q_BB1_25
Lh3q_BB1_23:
	b.eq	Lh3q_BB1_25
	lsl	x10, x10, #4
	ldr	q1, [x0, #64]
	ldr	q0, [x0, x10]
	str	q1, [x0, x10]
	str	q0, [x0, #64]
Lh3q_BB1_25:
	cmp	x9, #4
	b.eq	Lh3q_BB1_35
	sub	x10, x8, #6
	cmp	x10, #5
	b.ls	Lh3q_BB1_28
	lsl	x10, x10, #4
	ldr	q1, [x0, #80]
	ldr	q0, [x0, x10]
	str	q0, [x0, #80]
	str	q1, [x0, x10]
	b	Lh3q_BB1_30
Lh3q_BB1_28:
	b.eq	Lh3q_BB1_30
	lsl	x10, x10, #4
	ldr	q1, [x0, #80]
	ldr	q0, [x0, x10]
	str	q1, [x0, x10]
	str	q0, [x0, #80]
Lh3q_BB1_30:
	cmp	x9, #5
	b.eq	Lh3q_BB1_35
	sub	x8, x8, #7
	cmp	x8, #6
	b.ls	Lh3q_BB1_33
	lsl	x8, x8, #4
	ldr	q1, [x0, #96]
	ldr	q0, [x0, x8]
	str	q0, [x0, #96]
	str	q1, [x0, x8]
	b	Lh3q_BB1_35
Lh3q_BB1_33:
	b.eq	Lh3q_BB1_35
	lsl	x8, x8, #4
	ldr	q1, [x0, #96]
	ldr	q0, [x0, x8]
	str	q1, [x0, x8]
	str	q0, [x0, #96]
Lh3q_BB1_35:
	ldp	x0, x8, [x19, #24]
	cmp	x8, #15
	b.ls	Lh3q_BB1_37
	lsr	x2, x8, #1
	ldp	x29, x30, [sp, #48]
	ldp	x20, x19, [sp, #32]
	mov	w9, #24
	sub	x8, x8, x2
	madd	x1, x8, x9, x0
	add	sp, sp, #64
	b	"_core::slice::edits::mirror::<#d4cc4489b8d17ff3>"
Lh3q_BB1_37:
	subs	x10, x8, #2
	b.lo	Lh3q_BB1_70
	lsr	x9, x10, #1
	subs	x11, x8, #1
	b.eq	Lh3q_BB1_40
	mov	w12, #24
	ldr	q1, [x0]
	ldr	x13, [x0, #16]
	madd	x11, x11, x12, x0
	ldr	q0, [x11]
	ldr	x12, [x11, #16]
	str	q0, [x0]
	str	x12, [x0, #16]
	str	q1, [x11]
	str	x13, [x11, #16]
Lh3q_BB1_40:
	cbz	x9, Lh3q_BB1_70
	cmp	x10, #1
	b.ls	Lh3q_BB1_43
	mov	w11, #24
	ldur	q1, [x0, #24]
	ldr	x12, [x0, #40]
	madd	x10, x10, x11, x0
	ldr	q0, [x10]
	ldr	x11, [x10, #16]
	stur	q0, [x0, #24]
	str	x11, [x0, #40]
	str	q1, [x10]
	str	x12, [x10, #16]
	b	Lh3q_BB1_45
Lh3q_BB1_43:
	cbnz	x10, Lh3q_BB1_45
	mov	w11, #24
	ldur	q0, [x0, #24]
	madd	x10, x10, x11, x0
	ldr	x11, [x0, #40]
	ldr	q1, [x10]
	ldr	x12, [x10, #16]
	str	q0, [x10]
	str	x11, [x10, #16]
	stur	q1, [x0, #24]
	str	x12, [x0, #40]
Lh3q_BB1_45:
	cmp	x9, #1
	b.eq	Lh3q_BB1_70
	sub	x10, x8, #3
	cmp	x10, #2
	b.ls	Lh3q_BB1_48
	mov	w11, #24
	ldr	q1, [x0, #48]
	ldr	x12, [x0, #64]
	madd	x10, x10, x11, x0
	ldr	q0, [x10]
	ldr	x11, [x10, #16]
	str	q0, [x0, #48]
	str	x11, [x0, #64]
	str	q1, [x10]
	str	x12, [x10, #16]
	b	Lh3q_BB1_50
Lh3q_BB1_48:
	b.eq	Lh3q_BB1_50
	mov	w11, #24
	ldr	q0, [x0, #48]
	madd	x10, x10, x11, x0
	ldr	x11, [x0, #64]
	ldr	q1, [x10]
	ldr	x12, [x10, #16]
	str	q0, [x10]
	str	x11, [x10, #16]
	str	q1, [x0, #48]
	str	x12, [x0, #64]
Lh3q_BB1_50:
	cmp	x9, #2
	b.eq	Lh3q_BB1_70
	sub	x10, x8, #4
	cmp	x10, #3
	b.ls	Lh3q_BB1_53
	mov	w11, #24
	ldur	q1, [x0, #72]
	ldr	x12, [x0, #88]
	madd	x10, x10, x11, x0
	ldr	q0, [x10]
	ldr	x11, [x10, #16]
	stur	q0, [x0, #72]
	str	x11, [x0, #88]
	str	q1, [x10]
	str	x12, [x10, #16]
	b	Lh3q_BB1_55
Lh3q_BB1_53:
	b.eq	Lh3q_BB1_55
	mov	w11, #24
	ldur	q0, [x0, #72]
	madd	x10, x10, x11, x0
	ldr	x11, [x0, #88]
	ldr	q1, [x10]
	ldr	x12, [x10, #16]
	str	q0, [x10]
	str	x11, [x10, #16]
	stur	q1, [x0, #72]
	str	x12, [x0, #88]
Lh3q_BB1_55:
	cmp	x9, #3
	b.eq	Lh3q_BB1_70
	sub	x10, x8, #5
	cmp	x10, #4
	b.ls	Lh3q_BB1_58
	mov	w11, #24
	ldr	q1, [x0, #96]
	ldr	x12, [x0, #112]
	madd	x10, x10, x11, x0
	ldr	q0, [x10]
	ldr	x11, [x10, #16]
	str	q0, [x0, #96]
	str	x11, [x0, #112]
	str	q1, [x10]
	str	x12, [x10, #16]
	b	Lh3q_BB1_60
Lh3q_BB1_58:
	b.eq	Lh3q_BB1_60
	mov	w11, #24
	ldr	q0, [x0, #96]
	madd	x10, x10, x11, x0
	ldr	x11, [x0, #112]
	ldr	q1, [x10]
	ldr	x12, [x10, #16]
	str	q0, [x10]
	str	x11, [x10, #16]
	str	q1, [x0, #96]
	str	x12, [x0, #112]
Lh3q_BB1_60:
	cmp	x9, #4
	b.eq	Lh3q_BB1_70
	sub	x10, x8, #6
	cmp	x10, #5
	b.ls	Lh3q_BB1_63
	mov	w11, #24
	ldur	q1, [x0, #120]
	ldr	x12, [x0, #136]
	madd	x10, x10, x11, x0
	ldr	q0, [x10]
	ldr	x11, [x10, #16]
	stur	q0, [x0, #120]
	str	x11, [x0, #136]
	str	q1, [x10]
	str	x12, [x10, #16]
	b	Lh3q_BB1_65
Lh3q_BB1_63:
	b.eq	Lh3q_BB1_65
	mov	w11, #24
	ldur	q0, [x0, #120]
	madd	x10, x10, x11, x0
	ldr	x11, [x0, #136]
	ldr	q1, [x10]
	ldr	x12, [x10, #16]
	str	q0, [x10]
	str	x11, [x10, #16]
	stur	q1, [x0, #120]
	str	x12, [x0, #136]
Lh3q_BB1_65:
	cmp	x9, #5
	b.eq	Lh3q_BB1_70
	sub	x8, x8, #7
	cmp	x8, #6
	b.ls	Lh3q_BB1_68
	mov	w9, #24
	ldr	q1, [x0, #144]
	ldr	x10, [x0, #160]
	madd	x8, x8, x9, x0
	ldr	q0, [x8]
	ldr	x9, [x8, #16]
	str	q0, [x0, #144]
	str	x9, [x0, #160]
	str	q1, [x8]
	str	x10, [x8, #16]
	ldp	x29, x30, [sp, #48]
	ldp	x20, x19, [sp, #32]
	add	sp, sp, #64
	ret
Lh3q_BB1_68:
	b.eq	Lh3q_BB1_70
	mov	w9, #24
	ldr	q0, [x0, #144]
	madd	x8, x8, x9, x0
	ldr	x9, [x0, #160]
	ldr	q1, [x8]
	ldr	x10, [x8, #16]
	str	q0, [x8]
	str	x9, [x8, #16]
	str	q1, [x0, #144]
	str	x10, [x0, #160]
Lh3q_BB1_70:
	ldp	x29, x30, [sp, #48]
	ldp	x20, x19, [sp, #32]
	add	sp, sp, #64
	ret

	.p2align	2
"_core::slice::edits::mirror::<44'qpack_table::dynamic::open_blocks::CommitKey>":
	sub	sp, sp, #16
	add	x8, x1, x2, lsl #4
	sub	x8, x8, #16
Lh3q_BB2_1:
	ldr	q0, [x8]
	ldr	q1, [x0]
	sub	x2, x2, #1
	str	q0, [x0], #16
	str	q1, [x8], #-16
	cbnz	x2, Lh3q_BB2_1
	add	sp, sp, #16
	ret

	.p2align	2
"_core::slice::edits::mirror::<#d4cc4489b8d17ff3>":
	sub	sp, sp, #32
	mov	w8, #24
	madd	x8, x2, x8, x1
	sub	x8, x8, #24
Lh3q_BB3_1:
	ldr	q0, [x8]
	ldr	x9, [x8, #16]
	sub	x2, x2, #1
	ldr	q1, [x0]
	ldr	x10, [x0, #16]
	str	q0, [x0]
	str	x9, [x0, #16]
	add	x0, x0, #24
	str	q1, [x8]
	str	x10, [x8, #16]
	sub	x8, x8, #24
	cbnz	x2, Lh3q_BB3_1
	add	sp, sp, #32
	ret

	.p2align	2
"_std_alloc::vec::Vec::remove::<#89b048af38b1c68a>":
	ldp	x11, x13, [x0]
	lsl	x15, x1, #4
	ldr	x10, [x0, #16]
	stp	xzr, xzr, [x0, #8]
	mov	x9, x1
	mov	x8, x0
	cmn	x1, #1
	add	x12, x11, x15
	ldp	x0, x1, [x12]
	sub	x12, x13, #1
	sub	x14, x12, x9
	b.eq	Lh3q_BB4_9
	cmp	x14, #129
	b.lo	Lh3q_BB4_14
	sub	x14, x13, x9
	add	x15, x15, x11
	sub	x2, x14, #129
	add	x16, x15, #16
	add	x17, x15, #2048
	b	Lh3q_BB4_4
Lh3q_BB4_3:
	add	x9, x9, #128
	sub	x2, x15, #128
	add	x16, x16, #2048
	sub	x14, x12, x9
	add	x17, x17, #2048
	cmp	x14, #128
	b.ls	Lh3q_BB4_12
Lh3q_BB4_4:
	cmn	x9, #1
	mov	x15, x2
	mov	w14, #128
	b.eq	Lh3q_BB4_7
	mov	x2, x16
Lh3q_BB4_6:
	ldr	q0, [x2]
	subs	x14, x14, #1
	stur	q0, [x2, #-16]
	add	x2, x2, #16
	b.ne	Lh3q_BB4_6
	b	Lh3q_BB4_3
Lh3q_BB4_7:
	mov	x2, x17
Lh3q_BB4_8:
	ldr	q0, [x2]
	sub	x3, x2, #16
	subs	x14, x14, #1
	stur	q0, [x2, #-16]
	mov	x2, x3
	b.ne	Lh3q_BB4_8
	b	Lh3q_BB4_3
Lh3q_BB4_9:
	cbz	x13, Lh3q_BB4_20
	add	x13, x11, x13, lsl #4
	neg	x9, x9, lsl #4
	sub	x13, x13, #32
Lh3q_BB4_11:
	ldr	q0, [x13, x9]
	sub	x14, x14, #1
	str	q0, [x13], #-16
	cbnz	x14, Lh3q_BB4_11
	b	Lh3q_BB4_20
Lh3q_BB4_12:
	cmn	x9, #1
	b.eq	Lh3q_BB4_17
	lsl	x15, x9, #4
Lh3q_BB4_14:
	cmp	x12, x9
	b.eq	Lh3q_BB4_20
	add	x9, x11, x15
	add	x9, x9, #16
Lh3q_BB4_16:
	ldr	q0, [x9]
	subs	x14, x14, #1
	stur	q0, [x9, #-16]
	add	x9, x9, #16
	b.ne	Lh3q_BB4_16
	b	Lh3q_BB4_20
Lh3q_BB4_17:
	cbz	x13, Lh3q_BB4_20
	add	x9, x11, x13, lsl #4
	sub	x9, x9, #16
Lh3q_BB4_19:
	ldr	q0, [x9]
	sub	x13, x9, #16
	subs	x15, x15, #1
	stur	q0, [x9, #-16]
	mov	x9, x13
	b.ne	Lh3q_BB4_19
Lh3q_BB4_20:
	stp	x11, x12, [x8]
	str	x10, [x8, #16]
	ret

	.p2align	2
"_std_alloc::vec::Vec::remove::<#59d4bea1ca342376>":
	sub	sp, sp, #384
	add	x8, x2, x2, lsl #1
	ldr	x13, [x1, #16]
	cmn	x2, #1
	stp	d15, d14, [sp, #224]
	lsl	x9, x8, #3
	ldp	x8, x12, [x1]
	stp	xzr, xzr, [x1, #8]
	stp	d13, d12, [sp, #240]
	str	x8, [sp, #48]
	add	x8, x8, x9
	sub	x14, x12, #1
	ldr	q0, [x8]
	ldr	x8, [x8, #16]
	stp	d11, d10, [sp, #256]
	stp	d9, d8, [sp, #272]
	str	x8, [sp, #208]
	sub	x8, x14, x2
	stp	x28, x27, [sp, #288]
	stp	x26, x25, [sp, #304]
	stp	x24, x23, [sp, #320]
	stp	x22, x21, [sp, #336]
	stp	x20, x19, [sp, #352]
	stp	x29, x30, [sp, #368]
	str	q0, [sp, #192]
	b.eq	Lh3q_BB5_8
	cmp	x8, #86
	b.lo	Lh3q_BB5_13
	ldr	x10, [sp, #48]
	sub	x8, x12, x2
	stp	x13, x1, [sp, #16]
	stp	x0, x12, [sp, #32]
	add	x10, x9, x10
	sub	x9, x8, #86
	add	x13, x10, #2040
	b	Lh3q_BB5_5
Lh3q_BB5_3:
	mov	w8, #24
	ldr	x9, [sp, #48]
	madd	x14, x2, x8, x9
	ldr	x10, [x14, #328]
	ldr	q2, [x14, #384]
	ldr	x9, [x14, #280]
	ldr	x11, [x14, #376]
	ldr	q0, [x14, #288]
	ldr	q1, [x14, #336]
	stp	x10, x9, [sp, #176]
	add	x10, x14, #360
	ldr	q3, [x14, #432]
	ldr	q4, [x14, #480]
	ldr	q5, [x10]
	str	q2, [x10]
	ldr	x10, [x14, #520]
	add	x8, x14, #264
	add	x9, x14, #312
	str	x11, [sp, #168]
	add	x11, x14, #408
	ldr	x15, [x14, #424]
	add	x12, x14, #456
	ldr	q7, [x8]
	str	q0, [x8]
	ldr	q17, [x9]
	ldr	q6, [x11]
	str	q1, [x9]
	ldr	q2, [x12]
	ldr	x8, [x14, #472]
	str	q3, [x11]
	ldr	q1, [x14, #528]
	ldr	q3, [x14, #576]
	str	q4, [x12]
	ldr	q4, [x14, #624]
	add	x17, x14, #552
	str	x10, [sp, #120]
	ldr	x10, [x14, #568]
	add	x9, x14, #600
	stp	x8, x15, [sp, #152]
	add	x15, x14, #504
	ldr	q16, [x14, #672]
	ldr	q18, [x14, #720]
	ldr	q19, [x14, #768]
	ldr	q20, [x14, #816]
	ldr	x3, [x14, #808]
	ldr	q21, [x14, #864]
	ldr	q0, [x15]
	add	x8, x14, #648
	str	q1, [x15]
	add	x11, x14, #696
	ldr	q1, [x17]
	add	x16, x14, #744
	str	x10, [sp, #104]
	add	x1, x14, #792
	ldr	x10, [x14, #616]
	str	q3, [x17]
	ldr	q3, [x9]
	add	x17, x14, #840
	str	q4, [x9]
	ldr	x9, [x14, #664]
	ldr	x12, [x14, #712]
	ldr	x0, [x14, #760]
	ldr	q4, [x8]
	str	q16, [x8]
	ldr	q16, [x11]
	str	q18, [x11]
	ldr	q18, [x16]
	str	q19, [x16]
	ldr	q19, [x1]
	ldr	q22, [x14, #912]
	str	x3, [sp, #72]
	ldr	x3, [x14, #856]
	ldr	q23, [x14, #960]
	str	q20, [x1]
	ldr	q20, [x17]
	add	x15, x14, #888
	str	q21, [x17]
	ldr	x17, [x14, #904]
	add	x8, x14, #984
	ldr	q24, [x14, #1008]
	ldr	q25, [x14, #1056]
	add	x11, x14, #1080
	ldr	q26, [x14, #1104]
	ldr	q27, [x14, #1152]
	add	x16, x14, #1176
	ldr	q28, [x14, #1200]
	ldr	q29, [x14, #1248]
	add	x1, x14, #1272
	ldr	q30, [x14, #1296]
	ldr	q31, [x14, #1344]
	add	x4, x14, #1320
	str	x10, [sp, #112]
	add	x10, x14, #936
	ldr	q8, [x14, #1392]
	stp	x12, x9, [sp, #88]
	add	x9, x14, #1032
	ldr	q9, [x14, #1440]
	add	x12, x14, #1128
	ldr	q10, [x14, #1488]
	str	x0, [sp, #80]
	add	x0, x14, #1224
	ldr	q11, [x14, #1536]
	ldr	q12, [x14, #1584]
	ldr	q13, [x14, #1632]
	add	x5, x14, #1368
	ldr	q14, [x14, #1680]
	ldur	q15, [x14, #24]
	add	x6, x14, #1416
	ldr	q21, [x15]
	stp	x17, x3, [sp, #56]
	add	x7, x14, #1464
	str	q22, [x15]
	ldr	q22, [x10]
	add	x19, x14, #1512
	ldr	x25, [x14, #952]
	str	q23, [x10]
	add	x21, x14, #1560
	ldr	q23, [x8]
	add	x20, x14, #1608
	ldr	x26, [x14, #1000]
	str	q24, [x8]
	ldr	q24, [x9]
	add	x22, x14, #1992
	ldr	x27, [x14, #1048]
	str	q25, [x9]
	ldr	q25, [x11]
	ldr	x28, [x14, #1096]
	str	q26, [x11]
	ldr	q26, [x12]
	ldr	x30, [x14, #1144]
	str	q27, [x12]
	ldr	q27, [x16]
	ldr	x3, [x14, #1192]
	str	q28, [x16]
	ldr	q28, [x0]
	ldr	x17, [x14, #1240]
	str	q29, [x0]
	ldr	q29, [x1]
	ldr	x0, [x14, #1288]
	str	q30, [x1]
	ldr	q30, [x4]
	ldr	x16, [x14, #1336]
	str	q31, [x4]
	add	x4, x14, #1656
	ldr	q31, [x5]
	ldr	x1, [x14, #1384]
	str	q8, [x5]
	add	x5, x14, #1704
	ldr	q8, [x6]
	ldr	x15, [x14, #1432]
	str	q9, [x6]
	add	x6, x14, #1752
	ldr	q9, [x7]
	ldr	x11, [x14, #1480]
	str	q10, [x7]
	add	x7, x14, #1800
	ldr	q10, [x19]
	ldr	x10, [x14, #1528]
	str	q11, [x19]
	add	x19, x14, #1848
	ldr	q11, [x21]
	ldr	x9, [x14, #1576]
	str	q12, [x21]
	add	x21, x14, #1944
	ldr	q12, [x20]
	ldr	x8, [x14, #1624]
	str	q13, [x20]
	add	x20, x14, #1896
	ldr	q13, [x4]
	ldr	x12, [x14, #1672]
	str	q14, [x4]
	ldr	q14, [x14, #48]
	str	q15, [x14]
	ldur	q15, [x14, #72]
	str	q0, [sp, #128]
	ldr	q0, [x14, #1776]
	ldr	x4, [x14, #1720]
	stur	q14, [x14, #24]
	ldr	q14, [x14, #96]
	ldur	x23, [x14, #40]
	str	q15, [x14, #48]
	ldur	q15, [x14, #120]
	stur	q14, [x14, #72]
	ldr	q14, [x14, #144]
	str	q15, [x14, #96]
	ldur	q15, [x14, #168]
	stur	q14, [x14, #120]
	ldr	q14, [x14, #192]
	str	q15, [x14, #144]
	ldur	q15, [x14, #216]
	stur	q14, [x14, #168]
	ldr	q14, [x14, #240]
	str	q15, [x14, #192]
	ldr	q15, [x14, #1728]
	stur	q14, [x14, #216]
	ldr	q14, [x5]
	str	q15, [x5]
	ldr	x5, [x14, #1768]
	ldr	q15, [x6]
	str	q0, [x6]
	ldr	q0, [x14, #1824]
	ldr	x6, [x14, #1816]
	str	q17, [x14, #288]
	ldr	q17, [x14, #1872]
	str	q7, [x14, #240]
	ldr	q7, [x7]
	str	q0, [x7]
	ldr	x7, [x14, #1864]
	ldr	q0, [x19]
	str	q17, [x19]
	ldr	q17, [x14, #1968]
	ldr	x19, [x14, #1912]
	str	q6, [x14, #384]
	ldr	q6, [x14, #1920]
	str	q5, [x14, #336]
	ldr	q5, [x20]
	str	q6, [x20]
	ldr	x20, [x14, #1960]
	ldr	q6, [x21]
	str	q17, [x21]
	ldr	q17, [x14, #2016]
	ldr	x21, [x14, #2008]
	str	q2, [x14, #432]
	ldr	q2, [x22]
	str	q17, [x22]
	ldr	x22, [x14, #64]
	ldr	q17, [sp, #128]
	str	x23, [x14, #16]
	ldr	x23, [x14, #88]
	stur	x22, [x14, #40]
	ldr	x22, [x14, #112]
	str	x23, [x14, #64]
	ldr	x23, [x14, #136]
	str	x22, [x14, #88]
	ldr	x22, [x14, #160]
	str	x23, [x14, #112]
	ldr	x23, [x14, #184]
	str	x22, [x14, #136]
	ldr	x22, [x14, #208]
	str	x23, [x14, #160]
	ldr	x23, [x14, #232]
	str	x22, [x14, #184]
	ldr	x22, [x14, #256]
	str	x23, [x14, #208]
	ldr	x23, [sp, #184]
	str	x22, [x14, #232]
	ldr	x22, [x14, #304]
	str	x23, [x14, #256]
	ldr	x23, [sp, #176]
	str	x22, [x14, #280]
	ldr	x22, [x14, #352]
	str	x23, [x14, #304]
	ldr	x23, [sp, #168]
	str	x22, [x14, #328]
	ldr	x22, [x14, #400]
	str	x23, [x14, #352]
	ldr	x23, [sp, #160]
	str	x22, [x14, #376]
	ldr	x22, [x14, #448]
	str	x23, [x14, #400]
	ldr	x23, [sp, #152]
	str	x22, [x14, #424]
	ldr	x22, [x14, #496]
	str	x23, [x14, #448]
	ldr	x23, [sp, #120]
	str	x22, [x14, #472]
	ldr	x22, [x14, #544]
	str	x23, [x14, #496]
	ldr	x23, [sp, #104]
	str	x22, [x14, #520]
	ldr	x22, [x14, #592]
	str	x23, [x14, #544]
	ldr	x23, [sp, #96]
	str	x22, [x14, #568]
	ldr	x22, [sp, #112]
	str	q0, [x14, #1824]
	str	x22, [x14, #592]
	ldr	x22, [x14, #640]
	str	x23, [x14, #640]
	ldr	x23, [sp, #88]
	str	x22, [x14, #616]
	ldr	x22, [x14, #688]
	str	x23, [x14, #688]
	ldr	x23, [sp, #80]
	str	x22, [x14, #664]
	ldr	x22, [x14, #736]
	str	x23, [x14, #736]
	ldr	x23, [sp, #72]
	str	x22, [x14, #712]
	ldr	x22, [x14, #784]
	str	x23, [x14, #784]
	ldr	x23, [sp, #64]
	str	x22, [x14, #760]
	ldr	x22, [x14, #832]
	str	x23, [x14, #832]
	ldr	x23, [sp, #56]
	str	x22, [x14, #808]
	ldr	x22, [x14, #880]
	str	q17, [x14, #480]
	str	x22, [x14, #856]
	ldr	x22, [x14, #928]
	str	q1, [x14, #528]
	str	x22, [x14, #904]
	ldr	x22, [x14, #976]
	str	q3, [x14, #576]
	str	x22, [x14, #952]
	ldr	x22, [x14, #1024]
	str	q4, [x14, #624]
	str	x22, [x14, #1000]
	ldr	x22, [x14, #1072]
	str	q16, [x14, #672]
	str	x22, [x14, #1048]
	ldr	x22, [x14, #1120]
	str	q18, [x14, #720]
	str	x22, [x14, #1096]
	ldr	x22, [x14, #1168]
	str	x3, [x14, #1168]
	ldr	x3, [x14, #1264]
	str	x22, [x14, #1144]
	ldr	x22, [x14, #1216]
	str	x17, [x14, #1216]
	ldr	x17, [x14, #1312]
	str	x16, [x14, #1312]
	ldr	x16, [x14, #1408]
	str	x15, [x14, #1408]
	ldr	x15, [x14, #1504]
	str	x10, [x14, #1504]
	ldr	x10, [x14, #1600]
	str	x8, [x14, #1600]
	ldr	x8, [x14, #1696]
	str	x16, [x14, #1384]
	ldr	x16, [x14, #1456]
	str	x8, [x14, #1672]
	ldr	x8, [x14, #1744]
	str	x11, [x14, #1456]
	ldr	x11, [x14, #1552]
	str	x8, [x14, #1720]
	ldr	x8, [x14, #1792]
	str	x9, [x14, #1552]
	ldr	x9, [x14, #1648]
	str	x8, [x14, #1768]
	ldr	x8, [x14, #1840]
	str	x9, [x14, #1624]
	add	x9, x14, #2040
	str	x8, [x14, #1816]
	ldr	x8, [x14, #1888]
	ldr	q0, [x9]
	str	x17, [x14, #1288]
	ldr	x17, [x14, #1360]
	str	x8, [x14, #1864]
	ldr	x8, [x14, #1936]
	str	x12, [x14, #1648]
	ldr	x12, [sp, #40]
	str	x8, [x14, #1912]
	ldr	x8, [x14, #1984]
	str	q19, [x14, #768]
	str	x8, [x14, #1960]
	ldr	x8, [x14, #2032]
	str	q20, [x14, #816]
	str	x8, [x14, #2008]
	ldr	x8, [x14, #2056]
	str	q21, [x14, #864]
	str	q22, [x14, #912]
	str	q23, [x14, #960]
	str	q24, [x14, #1008]
	str	q25, [x14, #1056]
	str	q26, [x14, #1104]
	str	q27, [x14, #1152]
	str	q28, [x14, #1200]
	str	q29, [x14, #1248]
	str	q30, [x14, #1296]
	str	q31, [x14, #1344]
	str	q8, [x14, #1392]
	str	q9, [x14, #1440]
	str	q10, [x14, #1488]
	str	q11, [x14, #1536]
	str	q12, [x14, #1584]
	str	q13, [x14, #1632]
	str	q14, [x14, #1680]
	str	q15, [x14, #1728]
	str	q7, [x14, #1776]
	str	q5, [x14, #1872]
	str	q6, [x14, #1920]
	str	x23, [x14, #880]
	str	x25, [x14, #928]
	str	x26, [x14, #976]
	str	x27, [x14, #1024]
	str	x28, [x14, #1072]
	str	x30, [x14, #1120]
	str	x22, [x14, #1192]
	str	x3, [x14, #1240]
	str	x0, [x14, #1264]
	str	x17, [x14, #1336]
	str	x1, [x14, #1360]
	str	x16, [x14, #1432]
	str	x15, [x14, #1480]
	str	x11, [x14, #1528]
	str	x10, [x14, #1576]
	str	x4, [x14, #1696]
	str	x5, [x14, #1744]
	str	x6, [x14, #1792]
	str	x7, [x14, #1840]
	str	x19, [x14, #1888]
	str	x20, [x14, #1936]
	str	x21, [x14, #1984]
	str	q2, [x14, #1968]
	str	x8, [x14, #2032]
	str	q0, [x14, #2016]
	sub	x14, x12, #1
Lh3q_BB5_4:
	add	x2, x2, #85
	sub	x9, x24, #85
	add	x13, x13, #2040
	sub	x8, x14, x2
	cmp	x8, #85
	b.ls	Lh3q_BB5_11
Lh3q_BB5_5:
	cmn	x2, #1
	mov	x24, x9
	b.ne	Lh3q_BB5_3
	mov	w8, #85
	mov	x9, x13
Lh3q_BB5_7:
	ldr	q0, [x9]
	ldr	x10, [x9, #16]
	sub	x11, x9, #24
	subs	x8, x8, #1
	stur	q0, [x9, #-24]
	stur	x10, [x9, #-8]
	mov	x9, x11
	b.ne	Lh3q_BB5_7
	b	Lh3q_BB5_4
Lh3q_BB5_8:
	cbz	x12, Lh3q_BB5_19
	mov	w9, #24
	ldr	x10, [sp, #48]
	madd	x10, x12, x9, x10
	lsl	x9, x2, #3
	sub	x9, x9, x2, lsl #5
	sub	x10, x10, #48
Lh3q_BB5_10:
	add	x11, x10, x9
	sub	x8, x8, #1
	ldr	x12, [x11, #16]
	ldr	q0, [x11]
	str	x12, [x10, #16]
	str	q0, [x10], #-24
	cbnz	x8, Lh3q_BB5_10
	b	Lh3q_BB5_19
Lh3q_BB5_11:
	ldp	x1, x0, [sp, #24]
	cmn	x2, #1
	ldr	x13, [sp, #16]
	b.eq	Lh3q_BB5_16
	add	x9, x2, x2, lsl #1
	lsl	x9, x9, #3
Lh3q_BB5_13:
	cmp	x14, x2
	b.eq	Lh3q_BB5_19
	ldr	x10, [sp, #48]
	add	x9, x10, x9
Lh3q_BB5_15:
	ldur	q0, [x9, #24]
	ldr	x10, [x9, #40]
	add	x11, x9, #24
	subs	x8, x8, #1
	str	q0, [x9]
	str	x10, [x9, #16]
	mov	x9, x11
	b.ne	Lh3q_BB5_15
	b	Lh3q_BB5_19
Lh3q_BB5_16:
	cbz	x12, Lh3q_BB5_19
	mov	w8, #24
	ldr	x9, [sp, #48]
	madd	x8, x12, x8, x9
	sub	x8, x8, #24
Lh3q_BB5_18:
	ldr	q0, [x8]
	ldr	x9, [x8, #16]
	sub	x10, x8, #24
	subs	x24, x24, #1
	stur	q0, [x8, #-24]
	stur	x9, [x8, #-8]
	mov	x8, x10
	b.ne	Lh3q_BB5_18
Lh3q_BB5_19:
	ldr	x8, [sp, #48]
	ldr	q0, [sp, #192]
	str	x13, [x1, #16]
	ldp	x29, x30, [sp, #368]
	stp	x8, x14, [x1]
	ldr	x8, [sp, #208]
	ldp	x20, x19, [sp, #352]
	str	q0, [x0]
	str	x8, [x0, #16]
	ldp	x22, x21, [sp, #336]
	ldp	x24, x23, [sp, #320]
	ldp	x26, x25, [sp, #304]
	ldp	x28, x27, [sp, #288]
	ldp	d9, d8, [sp, #272]
	ldp	d11, d10, [sp, #256]
	ldp	d13, d12, [sp, #240]
	ldp	d15, d14, [sp, #224]
	add	sp, sp, #384
	ret

	.p2align	2
"_std_alloc::vec::Vec::remove::<#4cd6898c41987f4d>":
	ldp	x10, x13, [x0]
	lsl	x15, x1, #3
	ldr	x9, [x0, #16]
	stp	xzr, xzr, [x0, #8]
	mov	x8, x0
	cmn	x1, #1
	add	x12, x10, x15
	sub	x11, x13, #1
	ldr	x0, [x12]
	sub	x14, x11, x1
	b.eq	Lh3q_BB6_9
	cmp	x14, #257
	b.lo	Lh3q_BB6_17
	sub	x14, x13, x1
	add	x15, x15, x10
	mov	x16, xzr
	add	x17, x12, #2048
	sub	x3, x14, #257
	add	x2, x15, #16
	b	Lh3q_BB6_4
Lh3q_BB6_3:
	add	x1, x1, #256
	add	x16, x16, #1
	sub	x3, x15, #256
	sub	x14, x11, x1
	add	x2, x2, #2048
	add	x12, x12, #2048
	cmp	x14, #256
	b.ls	Lh3q_BB6_15
Lh3q_BB6_4:
	cmn	x1, #1
	mov	x15, x3
	b.eq	Lh3q_BB6_7
	mov	w14, #256
	mov	x3, x2
Lh3q_BB6_6:
	ldur	q0, [x3, #-8]
	ldur	q1, [x3, #8]
	subs	x14, x14, #4
	stp	q0, q1, [x3, #-16]
	add	x3, x3, #32
	b.ne	Lh3q_BB6_6
	b	Lh3q_BB6_3
Lh3q_BB6_7:
	lsl	x14, x16, #11
	mov	w3, #2040
	ldr	x14, [x17, x14]
Lh3q_BB6_8:
	str	x14, [x12, x3]
	sub	x3, x3, #8
	cmn	x3, #8
	b.ne	Lh3q_BB6_8
	b	Lh3q_BB6_3
Lh3q_BB6_9:
	cbz	x13, Lh3q_BB6_32
	lsl	x12, x13, #3
	cmp	x14, #4
	b.lo	Lh3q_BB6_29
	neg	x16, x1, lsl #3
	cmp	x16, #32
	mov	x16, xzr
	b.lo	Lh3q_BB6_30
	sub	x17, x12, #40
	and	x16, x14, #0xfffffffffffffffc
	and	x2, x14, #0xfffffffffffffffc
	sub	x15, x17, x15
	add	x17, x10, x17
	add	x15, x10, x15
Lh3q_BB6_13:
	ldp	q1, q0, [x15], #-32
	sub	x2, x2, #4
	stp	q1, q0, [x17], #-32
	cbnz	x2, Lh3q_BB6_13
	cmp	x14, x16
	b.ne	Lh3q_BB6_30
	b	Lh3q_BB6_32
Lh3q_BB6_15:
	cmn	x1, #1
	b.eq	Lh3q_BB6_23
	lsl	x15, x1, #3
	add	x12, x10, x15
Lh3q_BB6_17:
	cmp	x11, x1
	b.eq	Lh3q_BB6_32
	cmp	x14, #6
	b.lo	Lh3q_BB6_20
	add	x17, x15, x10
	sub	x13, x17, x12
	sub	x13, x13, #8
	cmp	x13, #32
	b.hs	Lh3q_BB6_26
Lh3q_BB6_20:
	mov	x13, xzr
Lh3q_BB6_21:
	lsl	x16, x13, #3
	add	x15, x10, x15
	add	x17, x16, x12
	sub	x12, x14, x13
	add	x14, x15, x16
	add	x13, x17, #8
Lh3q_BB6_22:
	ldr	x15, [x13], #8
	subs	x12, x12, #1
	str	x15, [x14], #8
	b.ne	Lh3q_BB6_22
	b	Lh3q_BB6_32
Lh3q_BB6_23:
	cbz	x13, Lh3q_BB6_32
	add	x13, x10, x13, lsl #3
	ldur	x12, [x13, #-8]
	sub	x13, x13, #16
Lh3q_BB6_25:
	subs	x15, x15, #1
	str	x12, [x13], #-8
	b.ne	Lh3q_BB6_25
	b	Lh3q_BB6_32
Lh3q_BB6_26:
	and	x13, x14, #0x1fc
	add	x16, x12, #24
	add	x17, x17, #16
	and	x1, x14, #0x1fc
Lh3q_BB6_27:
	ldp	q0, q1, [x16, #-16]
	subs	x1, x1, #4
	add	x16, x16, #32
	stp	q0, q1, [x17, #-16]
	add	x17, x17, #32
	b.ne	Lh3q_BB6_27
	cmp	x14, x13
	b.eq	Lh3q_BB6_32
	b	Lh3q_BB6_21
Lh3q_BB6_29:
	mov	x16, xzr
Lh3q_BB6_30:
	add	x14, x16, x1
	sub	x12, x12, #16
	sub	x15, x12, x14, lsl #3
	sub	x16, x12, x16, lsl #3
	sub	x12, x14, x13
	add	x12, x12, #1
	add	x13, x10, x15
	add	x14, x10, x16
Lh3q_BB6_31:
	ldr	x15, [x13], #-8
	adds	x12, x12, #1
	str	x15, [x14], #-8
	b.lo	Lh3q_BB6_31
Lh3q_BB6_32:
	stp	x10, x11, [x8]
	str	x9, [x8, #16]
	ret

	.p2align	2
"_std_collections::btree::node::Node::destroy::<#0873b75fdd7caed6>":
	sub	sp, sp, #96
	stp	x22, x21, [sp, #48]
	ldrh	w8, [x0, #2]
	ldrh	w21, [x0]
	stp	x20, x19, [sp, #64]
	mov	x19, x0
	add	x20, x0, #8
	stp	x26, x25, [sp, #16]
	stp	x24, x23, [sp, #32]
	stp	x29, x30, [sp, #80]
	add	x29, sp, #80
	cbz	w8, Lh3q_BB7_29
	cbz	w21, Lh3q_BB7_28
	add	x22, x19, #248
	add	x23, x21, #1
	add	x24, x19, #240
	add	x25, x19, #264
	add	x26, x19, #248
	b	Lh3q_BB7_4
Lh3q_BB7_3:
	cbz	x21, Lh3q_BB7_28
Lh3q_BB7_4:
	sub	x23, x23, #1
	ldr	x0, [x22]
	cmp	x23, #257
	b.lo	Lh3q_BB7_10
	mov	x11, xzr
	add	x9, x19, #272
Lh3q_BB7_6:
	mov	w8, #256
	mov	x10, x9
Lh3q_BB7_7:
	ldp	q0, q1, [x10, #-16]
	subs	x8, x8, #4
	stur	q0, [x10, #-24]
	stur	q1, [x10, #-8]
	add	x10, x10, #32
	b.ne	Lh3q_BB7_7
	add	x11, x11, #256
	add	x9, x9, #2048
	sub	x8, x23, x11
	cmp	x8, #256
	b.hi	Lh3q_BB7_6
	lsl	x9, x11, #3
	add	x10, x22, x9
	cmp	x23, x11
	b.ne	Lh3q_BB7_11
	b	Lh3q_BB7_16
Lh3q_BB7_10:
	mov	x9, xzr
	add	x10, x19, #248
	mov	x8, x23
	cmp	x23, xzr
	b.eq	Lh3q_BB7_16
Lh3q_BB7_11:
	cmp	x8, #4
	b.lo	Lh3q_BB7_13
	add	x11, x24, x9
	sub	x11, x11, x10
	cmp	x11, #32
	b.hs	Lh3q_BB7_25
Lh3q_BB7_13:
	mov	x11, xzr
Lh3q_BB7_14:
	lsl	x12, x11, #3
	add	x13, x26, x9
	sub	x8, x8, x11
	add	x10, x10, x12
	add	x9, x10, #8
	add	x10, x13, x12
Lh3q_BB7_15:
	ldr	x11, [x9], #8
	subs	x8, x8, #1
	str	x11, [x10], #8
	b.ne	Lh3q_BB7_15
Lh3q_BB7_16:
	bl	"_std_collections::btree::node::Node::destroy::<#0873b75fdd7caed6>"
	sub	x21, x21, #1
	cmp	x21, #129
	b.lo	Lh3q_BB7_22
	mov	x8, xzr
	add	x10, x19, #24
Lh3q_BB7_18:
	mov	w9, #128
	mov	x11, x10
Lh3q_BB7_19:
	ldr	q0, [x11]
	subs	x9, x9, #1
	stur	q0, [x11, #-16]
	add	x11, x11, #16
	b.ne	Lh3q_BB7_19
	add	x8, x8, #128
	add	x10, x10, #2048
	sub	x9, x21, x8
	cmp	x9, #128
	b.hi	Lh3q_BB7_18
	lsl	x10, x8, #4
	add	x11, x20, x10
	cmp	x21, x8
	b.eq	Lh3q_BB7_3
	b	Lh3q_BB7_23
Lh3q_BB7_22:
	mov	x10, xzr
	add	x11, x19, #8
	mov	x9, x21
	cmp	x21, xzr
	b.eq	Lh3q_BB7_3
Lh3q_BB7_23:
	add	x8, x11, #16
	add	x10, x20, x10
Lh3q_BB7_24:
	ldr	q0, [x8], #16
	subs	x9, x9, #1
	str	q0, [x10], #16
	b.ne	Lh3q_BB7_24
	b	Lh3q_BB7_3
Lh3q_BB7_25:
	and	x11, x8, #0x1fc
	add	x12, x10, #24
	add	x13, x25, x9
	and	x14, x8, #0x1fc
Lh3q_BB7_26:
	ldp	q0, q1, [x12, #-16]
	subs	x14, x14, #4
	add	x12, x12, #32
	stp	q0, q1, [x13, #-16]
	add	x13, x13, #32
	b.ne	Lh3q_BB7_26
	cmp	x8, x11
	b.eq	Lh3q_BB7_16
	b	Lh3q_BB7_14
Lh3q_BB7_28:
	ldr	x0, [x19, #248]
	bl	"_std_collections::btree::node::Node::destroy::<#0873b75fdd7caed6>"
	b	Lh3q_BB7_64
Lh3q_BB7_29:
	cmp	w21, #15
	b.ls	Lh3q_BB7_31
	lsr	x2, x21, #1
	add	x0, x19, #8
	sub	x8, x21, x2
	add	x1, x20, x8, lsl #4
	bl	"_core::slice::edits::mirror::<44'qpack_table::dynamic::open_blocks::CommitKey>"
	b	Lh3q_BB7_64
Lh3q_BB7_31:
	cmp	w21, #2
	b.lo	Lh3q_BB7_64
	sub	x9, x21, #2
	subs	x10, x21, #1
	lsr	x8, x9, #1
	b.eq	Lh3q_BB7_34
	lsl	x10, x10, #4
	ldr	q1, [x20]
	ldr	q0, [x20, x10]
	str	q0, [x20]
	str	q1, [x20, x10]
Lh3q_BB7_34:
	cbz	x8, Lh3q_BB7_64
	cmp	x9, #1
	b.ls	Lh3q_BB7_37
	lsl	x9, x9, #4
	ldur	q1, [x19, #24]
	ldr	q0, [x20, x9]
	stur	q0, [x19, #24]
	str	q1, [x20, x9]
	b	Lh3q_BB7_39
Lh3q_BB7_37:
	cbnz	x9, Lh3q_BB7_39
	ldur	q0, [x19, #24]
	ldr	q1, [x20]
	str	q0, [x20]
	stur	q1, [x19, #24]
Lh3q_BB7_39:
	cmp	x8, #1
	b.eq	Lh3q_BB7_64
	sub	x9, x21, #3
	cmp	x9, #2
	b.ls	Lh3q_BB7_42
	lsl	x9, x9, #4
	ldur	q1, [x19, #40]
	ldr	q0, [x20, x9]
	stur	q0, [x19, #40]
	str	q1, [x20, x9]
	b	Lh3q_BB7_44
Lh3q_BB7_42:
	b.eq	Lh3q_BB7_44
	lsl	x9, x9, #4
	ldur	q1, [x19, #40]
	ldr	q0, [x20, x9]
	str	q1, [x20, x9]
	stur	q0, [x19, #40]
Lh3q_BB7_44:
	cmp	x8, #2
	b.eq	Lh3q_BB7_64
	sub	x9, x21, #4
	cmp	x9, #3
	b.ls	Lh3q_BB7_47
	lsl	x9, x9, #4
	ldur	q1, [x19, #56]
	ldr	q0, [x20, x9]
	stur	q0, [x19, #56]
	str	q1, [x20, x9]
	b	Lh3q_BB7_49
Lh3q_BB7_47:
	b.eq	Lh3q_BB7_49
	lsl	x9, x9, #4
	ldur	q1, [x19, #56]
	ldr	q0, [x20, x9]
	str	q1, [x20, x9]
	stur	q0, [x19, #56]
Lh3q_BB7_49:
	cmp	x8, #3
	b.eq	Lh3q_BB7_64
	sub	x9, x21, #5
	cmp	x9, #4
	b.ls	Lh3q_BB7_52
	lsl	x9, x9, #4
	ldur	q1, [x19, #72]
	ldr	q0, [x20, x9]
	stur	q0, [x19, #72]
	str	q1, [x20, x9]
	b	Lh3q_BB7_54
Lh3q_BB7_52:
	b.eq	Lh3q_BB7_54
	lsl	x9, x9, #4
	ldur	q1, [x19, #72]
	ldr	q0, [x20, x9]
	str	q1, [x20, x9]
	stur	q0, [x19, #72]
Lh3q_BB7_54:
	cmp	x8, #4
	b.eq	Lh3q_BB7_64
	sub	x9, x21, #6
	cmp	x9, #5
	b.ls	Lh3q_BB7_57
	lsl	x9, x9, #4
	ldur	q1, [x19, #88]
	ldr	q0, [x20, x9]
	stur	q0, [x19, #88]
	str	q1, [x20, x9]
	b	Lh3q_BB7_59
Lh3q_BB7_57:
	b.eq	Lh3q_BB7_59
	lsl	x9, x9, #4
	ldur	q1, [x19, #88]
	ldr	q0, [x20, x9]
	str	q1, [x20, x9]
	stur	q0, [x19, #88]
Lh3q_BB7_59:
	cmp	x8, #5
	b.eq	Lh3q_BB7_64
	sub	x8, x21, #7
	cmp	x8, #6
	b.ls	Lh3q_BB7_62
	lsl	x8, x8, #4
	ldur	q1, [x19, #104]
	ldr	q0, [x20, x8]
	stur	q0, [x19, #104]
	str	q1, [x20, x8]
	b	Lh3q_BB7_64
Lh3q_BB7_62:
	b.eq	Lh3q_BB7_64
	lsl	x8, x8, #4
	ldur	q1, [x19, #104]
	ldr	q0, [x20, x8]
	str	q1, [x20, x8]
	stur	q0, [x19, #104]
Lh3q_BB7_64:
	mov	x0, x19
	ldp	x29, x30, [sp, #80]
	ldp	x20, x19, [sp, #64]
	ldp	x22, x21, [sp, #48]
	ldp	x24, x23, [sp, #32]
	ldp	x26, x25, [sp, #16]
	add	sp, sp, #96
	b	_rattle_dealloc

	.p2align	2
"_std_alloc::vec::Vec::remove::<#dcade1da240033cb>":
	ldp	x10, x13, [x0]
	lsl	x15, x1, #3
	ldr	x9, [x0, #16]
	stp	xzr, xzr, [x0, #8]
	mov	x8, x0
	cmn	x1, #1
	add	x12, x10, x15
	sub	x11, x13, #1
	ldr	x0, [x12]
	sub	x14, x11, x1
	b.eq	Lh3q_BB8_9
	cmp	x14, #257
	b.lo	Lh3q_BB8_17
	sub	x14, x13, x1
	add	x15, x15, x10
	mov	x16, xzr
	add	x17, x12, #2048
	sub	x3, x14, #257
	add	x2, x15, #16
	b	Lh3q_BB8_4
Lh3q_BB8_3:
	add	x1, x1, #256
	add	x16, x16, #1
	sub	x3, x15, #256
	sub	x14, x11, x1
	add	x2, x2, #2048
	add	x12, x12, #2048
	cmp	x14, #256
	b.ls	Lh3q_BB8_15
Lh3q_BB8_4:
	cmn	x1, #1
	mov	x15, x3
	b.eq	Lh3q_BB8_7
	mov	w14, #256
	mov	x3, x2
Lh3q_BB8_6:
	ldur	q0, [x3, #-8]
	ldur	q1, [x3, #8]
	subs	x14, x14, #4
	stp	q0, q1, [x3, #-16]
	add	x3, x3, #32
	b.ne	Lh3q_BB8_6
	b	Lh3q_BB8_3
Lh3q_BB8_7:
	lsl	x14, x16, #11
	mov	w3, #2040
	ldr	x14, [x17, x14]
Lh3q_BB8_8:
	str	x14, [x12, x3]
	sub	x3, x3, #8
	cmn	x3, #8
	b.ne	Lh3q_BB8_8
	b	Lh3q_BB8_3
Lh3q_BB8_9:
	cbz	x13, Lh3q_BB8_32
	lsl	x12, x13, #3
	cmp	x14, #4
	b.lo	Lh3q_BB8_29
	neg	x16, x1, lsl #3
	cmp	x16, #32
	mov	x16, xzr
	b.lo	Lh3q_BB8_30
	sub	x17, x12, #40
	and	x16, x14, #0xfffffffffffffffc
	and	x2, x14, #0xfffffffffffffffc
	sub	x15, x17, x15
	add	x17, x10, x17
	add	x15, x10, x15
Lh3q_BB8_13:
	ldp	q1, q0, [x15], #-32
	sub	x2, x2, #4
	stp	q1, q0, [x17], #-32
	cbnz	x2, Lh3q_BB8_13
	cmp	x14, x16
	b.ne	Lh3q_BB8_30
	b	Lh3q_BB8_32
Lh3q_BB8_15:
	cmn	x1, #1
	b.eq	Lh3q_BB8_23
	lsl	x15, x1, #3
	add	x12, x10, x15
Lh3q_BB8_17:
	cmp	x11, x1
	b.eq	Lh3q_BB8_32
	cmp	x14, #6
	b.lo	Lh3q_BB8_20
	add	x17, x15, x10
	sub	x13, x17, x12
	sub	x13, x13, #8
	cmp	x13, #32
	b.hs	Lh3q_BB8_26
Lh3q_BB8_20:
	mov	x13, xzr
Lh3q_BB8_21:
	lsl	x16, x13, #3
	add	x15, x10, x15
	add	x17, x16, x12
	sub	x12, x14, x13
	add	x14, x15, x16
	add	x13, x17, #8
Lh3q_BB8_22:
	ldr	x15, [x13], #8
	subs	x12, x12, #1
	str	x15, [x14], #8
	b.ne	Lh3q_BB8_22
	b	Lh3q_BB8_32
Lh3q_BB8_23:
	cbz	x13, Lh3q_BB8_32
	add	x13, x10, x13, lsl #3
	ldur	x12, [x13, #-8]
	sub	x13, x13, #16
Lh3q_BB8_25:
	subs	x15, x15, #1
	str	x12, [x13], #-8
	b.ne	Lh3q_BB8_25
	b	Lh3q_BB8_32
Lh3q_BB8_26:
	and	x13, x14, #0x1fc
	add	x16, x12, #24
	add	x17, x17, #16
	and	x1, x14, #0x1fc
Lh3q_BB8_27:
	ldp	q0, q1, [x16, #-16]
	subs	x1, x1, #4
	add	x16, x16, #32
	stp	q0, q1, [x17, #-16]
	add	x17, x17, #32
	b.ne	Lh3q_BB8_27
	cmp	x14, x13
	b.eq	Lh3q_BB8_32
	b	Lh3q_BB8_21
Lh3q_BB8_29:
	mov	x16, xzr
Lh3q_BB8_30:
	add	x14, x16, x1
	sub	x12, x12, #16
	sub	x15, x12, x14, lsl #3
	sub	x16, x12, x16, lsl #3
	sub	x12, x14, x13
	add	x12, x12, #1
	add	x13, x10, x15
	add	x14, x10, x16
Lh3q_BB8_31:
	ldr	x15, [x13], #-8
	adds	x12, x12, #1
	str	x15, [x14], #-8
	b.lo	Lh3q_BB8_31
Lh3q_BB8_32:
	stp	x10, x11, [x8]
	str	x9, [x8, #16]
	ret

	.p2align	2
"_std_collections::btree::node::Node::destroy::<#e2e2e5076f5d4f7b>":
	sub	sp, sp, #96
	stp	x22, x21, [sp, #48]
	ldrh	w8, [x0, #2]
	ldrh	w21, [x0]
	stp	x20, x19, [sp, #64]
	mov	x19, x0
	add	x20, x0, #8
	stp	x26, x25, [sp, #16]
	stp	x24, x23, [sp, #32]
	stp	x29, x30, [sp, #80]
	add	x29, sp, #80
	cbz	w8, Lh3q_BB9_29
	cbz	w21, Lh3q_BB9_28
	add	x22, x19, #248
	add	x23, x21, #1
	add	x24, x19, #240
	add	x25, x19, #264
	add	x26, x19, #248
	b	Lh3q_BB9_4
Lh3q_BB9_3:
	cbz	x21, Lh3q_BB9_28
Lh3q_BB9_4:
	sub	x23, x23, #1
	ldr	x0, [x22]
	cmp	x23, #257
	b.lo	Lh3q_BB9_10
	mov	x11, xzr
	add	x9, x19, #272
Lh3q_BB9_6:
	mov	w8, #256
	mov	x10, x9
Lh3q_BB9_7:
	ldp	q0, q1, [x10, #-16]
	subs	x8, x8, #4
	stur	q0, [x10, #-24]
	stur	q1, [x10, #-8]
	add	x10, x10, #32
	b.ne	Lh3q_BB9_7
	add	x11, x11, #256
	add	x9, x9, #2048
	sub	x8, x23, x11
	cmp	x8, #256
	b.hi	Lh3q_BB9_6
	lsl	x9, x11, #3
	add	x10, x22, x9
	cmp	x23, x11
	b.ne	Lh3q_BB9_11
	b	Lh3q_BB9_16
Lh3q_BB9_10:
	mov	x9, xzr
	add	x10, x19, #248
	mov	x8, x23
	cmp	x23, xzr
	b.eq	Lh3q_BB9_16
Lh3q_BB9_11:
	cmp	x8, #4
	b.lo	Lh3q_BB9_13
	add	x11, x24, x9
	sub	x11, x11, x10
	cmp	x11, #32
	b.hs	Lh3q_BB9_25
Lh3q_BB9_13:
	mov	x11, xzr
Lh3q_BB9_14:
	lsl	x12, x11, #3
	add	x13, x26, x9
	sub	x8, x8, x11
	add	x10, x10, x12
	add	x9, x10, #8
	add	x10, x13, x12
Lh3q_BB9_15:
	ldr	x11, [x9], #8
	subs	x8, x8, #1
	str	x11, [x10], #8
	b.ne	Lh3q_BB9_15
Lh3q_BB9_16:
	bl	"_std_collections::btree::node::Node::destroy::<#e2e2e5076f5d4f7b>"
	sub	x21, x21, #1
	cmp	x21, #129
	b.lo	Lh3q_BB9_22
	mov	x8, xzr
	add	x10, x19, #24
Lh3q_BB9_18:
	mov	w9, #128
	mov	x11, x10
Lh3q_BB9_19:
	ldr	q0, [x11]
	subs	x9, x9, #1
	stur	q0, [x11, #-16]
	add	x11, x11, #16
	b.ne	Lh3q_BB9_19
	add	x8, x8, #128
	add	x10, x10, #2048
	sub	x9, x21, x8
	cmp	x9, #128
	b.hi	Lh3q_BB9_18
	lsl	x10, x8, #4
	add	x11, x20, x10
	cmp	x21, x8
	b.eq	Lh3q_BB9_3
	b	Lh3q_BB9_23
Lh3q_BB9_22:
	mov	x10, xzr
	add	x11, x19, #8
	mov	x9, x21
	cmp	x21, xzr
	b.eq	Lh3q_BB9_3
Lh3q_BB9_23:
	add	x8, x11, #16
	add	x10, x20, x10
Lh3q_BB9_24:
	ldr	q0, [x8], #16
	subs	x9, x9, #1
	str	q0, [x10], #16
	b.ne	Lh3q_BB9_24
	b	Lh3q_BB9_3
Lh3q_BB9_25:
	and	x11, x8, #0x1fc
	add	x12, x10, #24
	add	x13, x25, x9
	and	x14, x8, #0x1fc
Lh3q_BB9_26:
	ldp	q0, q1, [x12, #-16]
	subs	x14, x14, #4
	add	x12, x12, #32
	stp	q0, q1, [x13, #-16]
	add	x13, x13, #32
	b.ne	Lh3q_BB9_26
	cmp	x8, x11
	b.eq	Lh3q_BB9_16
	b	Lh3q_BB9_14
Lh3q_BB9_28:
	ldr	x0, [x19, #248]
	bl	"_std_collections::btree::node::Node::destroy::<#e2e2e5076f5d4f7b>"
	b	Lh3q_BB9_64
Lh3q_BB9_29:
	cmp	w21, #15
	b.ls	Lh3q_BB9_31
	lsr	x2, x21, #1
	add	x0, x19, #8
	sub	x8, x21, x2
	add	x1, x20, x8, lsl #4
	bl	"_core::slice::edits::mirror::<36'qpack_shared::streams::BlockedStream>"
	b	Lh3q_BB9_64
Lh3q_BB9_31:
	cmp	w21, #2
	b.lo	Lh3q_BB9_64
	sub	x9, x21, #2
	subs	x10, x21, #1
	lsr	x8, x9, #1
	b.eq	Lh3q_BB9_34
	lsl	x10, x10, #4
	ldr	q1, [x20]
	ldr	q0, [x20, x10]
	str	q0, [x20]
	str	q1, [x20, x10]
Lh3q_BB9_34:
	cbz	x8, Lh3q_BB9_64
	cmp	x9, #1
	b.ls	Lh3q_BB9_37
	lsl	x9, x9, #4
	ldur	q1, [x19, #24]
	ldr	q0, [x20, x9]
	stur	q0, [x19, #24]
	str	q1, [x20, x9]
	b	Lh3q_BB9_39
Lh3q_BB9_37:
	cbnz	x9, Lh3q_BB9_39
	ldur	q0, [x19, #24]
	ldr	q1, [x20]
	str	q0, [x20]
	stur	q1, [x19, #24]
Lh3q_BB9_39:
	cmp	x8, #1
	b.eq	Lh3q_BB9_64
	sub	x9, x21, #3
	cmp	x9, #2
	b.ls	Lh3q_BB9_42
	lsl	x9, x9, #4
	ldur	q1, [x19, #40]
	ldr	q0, [x20, x9]
	stur	q0, [x19, #40]
	str	q1, [x20, x9]
	b	Lh3q_BB9_44
Lh3q_BB9_42:
	b.eq	Lh3q_BB9_44
	lsl	x9, x9, #4
	ldur	q1, [x19, #40]
	ldr	q0, [x20, x9]
	str	q1, [x20, x9]
	stur	q0, [x19, #40]
Lh3q_BB9_44:
	cmp	x8, #2
	b.eq	Lh3q_BB9_64
	sub	x9, x21, #4
	cmp	x9, #3
	b.ls	Lh3q_BB9_47
	lsl	x9, x9, #4
	ldur	q1, [x19, #56]
	ldr	q0, [x20, x9]
	stur	q0, [x19, #56]
	str	q1, [x20, x9]
	b	Lh3q_BB9_49
Lh3q_BB9_47:
	b.eq	Lh3q_BB9_49
	lsl	x9, x9, #4
	ldur	q1, [x19, #56]
	ldr	q0, [x20, x9]
	str	q1, [x20, x9]
	stur	q0, [x19, #56]
Lh3q_BB9_49:
	cmp	x8, #3
	b.eq	Lh3q_BB9_64
	sub	x9, x21, #5
	cmp	x9, #4
	b.ls	Lh3q_BB9_52
	lsl	x9, x9, #4
	ldur	q1, [x19, #72]
	ldr	q0, [x20, x9]
	stur	q0, [x19, #72]
	str	q1, [x20, x9]
	b	Lh3q_BB9_54
Lh3q_BB9_52:
	b.eq	Lh3q_BB9_54
	lsl	x9, x9, #4
	ldur	q1, [x19, #72]
	ldr	q0, [x20, x9]
	str	q1, [x20, x9]
	stur	q0, [x19, #72]
Lh3q_BB9_54:
	cmp	x8, #4
	b.eq	Lh3q_BB9_64
	sub	x9, x21, #6
	cmp	x9, #5
	b.ls	Lh3q_BB9_57
	lsl	x9, x9, #4
	ldur	q1, [x19, #88]
	ldr	q0, [x20, x9]
	stur	q0, [x19, #88]
	str	q1, [x20, x9]
	b	Lh3q_BB9_59
Lh3q_BB9_57:
	b.eq	Lh3q_BB9_59
	lsl	x9, x9, #4
	ldur	q1, [x19, #88]
	ldr	q0, [x20, x9]
	str	q1, [x20, x9]
	stur	q0, [x19, #88]
Lh3q_BB9_59:
	cmp	x8, #5
	b.eq	Lh3q_BB9_64
	sub	x8, x21, #7
	cmp	x8, #6
	b.ls	Lh3q_BB9_62
	lsl	x8, x8, #4
	ldur	q1, [x19, #104]
	ldr	q0, [x20, x8]
	stur	q0, [x19, #104]
	str	q1, [x20, x8]
	b	Lh3q_BB9_64
Lh3q_BB9_62:
	b.eq	Lh3q_BB9_64
	lsl	x8, x8, #4
	ldur	q1, [x19, #104]
	ldr	q0, [x20, x8]
	str	q1, [x20, x8]
	stur	q0, [x19, #104]
Lh3q_BB9_64:
	mov	x0, x19
	ldp	x29, x30, [sp, #80]
	ldp	x20, x19, [sp, #64]
	ldp	x22, x21, [sp, #48]
	ldp	x24, x23, [sp, #32]
	ldp	x26, x25, [sp, #16]
	add	sp, sp, #96
	b	_rattle_dealloc

	.p2align	2
"_core::slice::edits::mirror::<36'qpack_shared::streams::BlockedStream>":
	sub	sp, sp, #16
	add	x8, x1, x2, lsl #4
	sub	x8, x8, #16
Lh3q_BB10_1:
	ldr	q0, [x8]
	ldr	q1, [x0]
	sub	x2, x2, #1
	str	q0, [x0], #16
	str	q1, [x8], #-16
	cbnz	x2, Lh3q_BB10_1
	add	sp, sp, #16
	ret

	.p2align	2
"_std_alloc::vec::Vec::remove::<#f809febec475afef>":
	ldp	x11, x13, [x0]
	lsl	x15, x1, #4
	ldr	x10, [x0, #16]
	stp	xzr, xzr, [x0, #8]
	mov	x9, x1
	mov	x8, x0
	cmn	x1, #1
	add	x12, x11, x15
	ldp	x0, x1, [x12]
	sub	x12, x13, #1
	sub	x14, x12, x9
	b.eq	Lh3q_BB11_9
	cmp	x14, #129
	b.lo	Lh3q_BB11_14
	sub	x14, x13, x9
	add	x15, x15, x11
	sub	x2, x14, #129
	add	x16, x15, #16
	add	x17, x15, #2048
	b	Lh3q_BB11_4
Lh3q_BB11_3:
	add	x9, x9, #128
	sub	x2, x15, #128
	add	x16, x16, #2048
	sub	x14, x12, x9
	add	x17, x17, #2048
	cmp	x14, #128
	b.ls	Lh3q_BB11_12
Lh3q_BB11_4:
	cmn	x9, #1
	mov	x15, x2
	mov	w14, #128
	b.eq	Lh3q_BB11_7
	mov	x2, x16
Lh3q_BB11_6:
	ldr	q0, [x2]
	subs	x14, x14, #1
	stur	q0, [x2, #-16]
	add	x2, x2, #16
	b.ne	Lh3q_BB11_6
	b	Lh3q_BB11_3
Lh3q_BB11_7:
	mov	x2, x17
Lh3q_BB11_8:
	ldr	q0, [x2]
	sub	x3, x2, #16
	subs	x14, x14, #1
	stur	q0, [x2, #-16]
	mov	x2, x3
	b.ne	Lh3q_BB11_8
	b	Lh3q_BB11_3
Lh3q_BB11_9:
	cbz	x13, Lh3q_BB11_20
	add	x13, x11, x13, lsl #4
	neg	x9, x9, lsl #4
	sub	x13, x13, #32
Lh3q_BB11_11:
	ldr	q0, [x13, x9]
	sub	x14, x14, #1
	str	q0, [x13], #-16
	cbnz	x14, Lh3q_BB11_11
	b	Lh3q_BB11_20
Lh3q_BB11_12:
	cmn	x9, #1
	b.eq	Lh3q_BB11_17
	lsl	x15, x9, #4
Lh3q_BB11_14:
	cmp	x12, x9
	b.eq	Lh3q_BB11_20
	add	x9, x11, x15
	add	x9, x9, #16
Lh3q_BB11_16:
	ldr	q0, [x9]
	subs	x14, x14, #1
	stur	q0, [x9, #-16]
	add	x9, x9, #16
	b.ne	Lh3q_BB11_16
	b	Lh3q_BB11_20
Lh3q_BB11_17:
	cbz	x13, Lh3q_BB11_20
	add	x9, x11, x13, lsl #4
	sub	x9, x9, #16
Lh3q_BB11_19:
	ldr	q0, [x9]
	sub	x13, x9, #16
	subs	x15, x15, #1
	stur	q0, [x9, #-16]
	mov	x9, x13
	b.ne	Lh3q_BB11_19
Lh3q_BB11_20:
	stp	x11, x12, [x8]
	str	x10, [x8, #16]
	ret

	.p2align	2
"_std_alloc::vec::Vec::remove::<#2497946d5c84e1d7>":
	ldp	x10, x13, [x0]
	lsl	x15, x1, #3
	ldr	x9, [x0, #16]
	stp	xzr, xzr, [x0, #8]
	mov	x8, x0
	cmn	x1, #1
	add	x12, x10, x15
	sub	x11, x13, #1
	ldr	x0, [x12]
	sub	x14, x11, x1
	b.eq	Lh3q_BB12_9
	cmp	x14, #257
	b.lo	Lh3q_BB12_17
	sub	x14, x13, x1
	add	x15, x15, x10
	mov	x16, xzr
	add	x17, x12, #2048
	sub	x3, x14, #257
	add	x2, x15, #16
	b	Lh3q_BB12_4
Lh3q_BB12_3:
	add	x1, x1, #256
	add	x16, x16, #1
	sub	x3, x15, #256
	sub	x14, x11, x1
	add	x2, x2, #2048
	add	x12, x12, #2048
	cmp	x14, #256
	b.ls	Lh3q_BB12_15
Lh3q_BB12_4:
	cmn	x1, #1
	mov	x15, x3
	b.eq	Lh3q_BB12_7
	mov	w14, #256
	mov	x3, x2
Lh3q_BB12_6:
	ldur	q0, [x3, #-8]
	ldur	q1, [x3, #8]
	subs	x14, x14, #4
	stp	q0, q1, [x3, #-16]
	add	x3, x3, #32
	b.ne	Lh3q_BB12_6
	b	Lh3q_BB12_3
Lh3q_BB12_7:
	lsl	x14, x16, #11
	mov	w3, #2040
	ldr	x14, [x17, x14]
Lh3q_BB12_8:
	str	x14, [x12, x3]
	sub	x3, x3, #8
	cmn	x3, #8
	b.ne	Lh3q_BB12_8
	b	Lh3q_BB12_3
Lh3q_BB12_9:
	cbz	x13, Lh3q_BB12_32
	lsl	x12, x13, #3
	cmp	x14, #4
	b.lo	Lh3q_BB12_29
	neg	x16, x1, lsl #3
	cmp	x16, #32
	mov	x16, xzr
	b.lo	Lh3q_BB12_30
	sub	x17, x12, #40
	and	x16, x14, #0xfffffffffffffffc
	and	x2, x14, #0xfffffffffffffffc
	sub	x15, x17, x15
	add	x17, x10, x17
	add	x15, x10, x15
Lh3q_BB12_13:
	ldp	q1, q0, [x15], #-32
	sub	x2, x2, #4
	stp	q1, q0, [x17], #-32
	cbnz	x2, Lh3q_BB12_13
	cmp	x14, x16
	b.ne	Lh3q_BB12_30
	b	Lh3q_BB12_32
Lh3q_BB12_15:
	cmn	x1, #1
	b.eq	Lh3q_BB12_23
	lsl	x15, x1, #3
	add	x12, x10, x15
Lh3q_BB12_17:
	cmp	x11, x1
	b.eq	Lh3q_BB12_32
	cmp	x14, #6
	b.lo	Lh3q_BB12_20
	add	x17, x15, x10
	sub	x13, x17, x12
	sub	x13, x13, #8
	cmp	x13, #32
	b.hs	Lh3q_BB12_26
Lh3q_BB12_20:
	mov	x13, xzr
Lh3q_BB12_21:
	lsl	x16, x13, #3
	add	x15, x10, x15
	add	x17, x16, x12
	sub	x12, x14, x13
	add	x14, x15, x16
	add	x13, x17, #8
Lh3q_BB12_22:
	ldr	x15, [x13], #8
	subs	x12, x12, #1
	str	x15, [x14], #8
	b.ne	Lh3q_BB12_22
	b	Lh3q_BB12_32
Lh3q_BB12_23:
	cbz	x13, Lh3q_BB12_32
	add	x13, x10, x13, lsl #3
	ldur	x12, [x13, #-8]
	sub	x13, x13, #16
Lh3q_BB12_25:
	subs	x15, x15, #1
	str	x12, [x13], #-8
	b.ne	Lh3q_BB12_25
	b	Lh3q_BB12_32
Lh3q_BB12_26:
	and	x13, x14, #0x1fc
	add	x16, x12, #24
	add	x17, x17, #16
	and	x1, x14, #0x1fc
Lh3q_BB12_27:
	ldp	q0, q1, [x16, #-16]
	subs	x1, x1, #4
	add	x16, x16, #32
	stp	q0, q1, [x17, #-16]
	add	x17, x17, #32
	b.ne	Lh3q_BB12_27
	cmp	x14, x13
	b.eq	Lh3q_BB12_32
	b	Lh3q_BB12_21
Lh3q_BB12_29:
	mov	x16, xzr
Lh3q_BB12_30:
	add	x14, x16, x1
	sub	x12, x12, #16
	sub	x15, x12, x14, lsl #3
	sub	x16, x12, x16, lsl #3
	sub	x12, x14, x13
	add	x12, x12, #1
	add	x13, x10, x15
	add	x14, x10, x16
Lh3q_BB12_31:
	ldr	x15, [x13], #-8
	adds	x12, x12, #1
	str	x15, [x14], #-8
	b.lo	Lh3q_BB12_31
Lh3q_BB12_32:
	stp	x10, x11, [x8]
	str	x9, [x8, #16]
	ret

	.p2align	2
"_std_collections::btree::node::Node::destroy::<#c1378e5419258927>":
	stp	x28, x27, [sp, #-96]!
	stp	x22, x21, [sp, #48]
	ldrh	w8, [x0, #2]
	ldrh	w21, [x0]
	stp	x24, x23, [sp, #32]
	add	x23, x0, #128
	add	x22, x0, #8
	stp	x20, x19, [sp, #64]
	mov	x19, x0
	stp	x26, x25, [sp, #16]
	stp	x29, x30, [sp, #80]
	add	x29, sp, #80
	cbz	w8, Lh3q_BB13_50
	cbz	w21, Lh3q_BB13_49
	add	x20, x19, #248
	add	x24, x21, #1
	add	x26, x19, #240
	add	x28, x19, #248
	add	x27, x19, #8
	add	x25, x19, #128
	b	Lh3q_BB13_4
Lh3q_BB13_3:
	cbz	x21, Lh3q_BB13_49
Lh3q_BB13_4:
	sub	x24, x24, #1
	ldr	x0, [x20]
	cmp	x24, #257
	b.lo	Lh3q_BB13_10
	mov	x11, xzr
	add	x9, x19, #272
Lh3q_BB13_6:
	mov	w8, #256
	mov	x10, x9
Lh3q_BB13_7:
	ldp	q0, q1, [x10, #-16]
	subs	x8, x8, #4
	stur	q0, [x10, #-24]
	stur	q1, [x10, #-8]
	add	x10, x10, #32
	b.ne	Lh3q_BB13_7
	add	x11, x11, #256
	add	x9, x9, #2048
	sub	x8, x24, x11
	cmp	x8, #256
	b.hi	Lh3q_BB13_6
	lsl	x9, x11, #3
	add	x10, x20, x9
	cmp	x24, x11
	b.ne	Lh3q_BB13_11
	b	Lh3q_BB13_16
Lh3q_BB13_10:
	mov	x9, xzr
	add	x10, x19, #248
	mov	x8, x24
	cmp	x24, xzr
	b.eq	Lh3q_BB13_16
Lh3q_BB13_11:
	cmp	x8, #4
	b.lo	Lh3q_BB13_13
	add	x11, x26, x9
	sub	x11, x11, x10
	cmp	x11, #32
	b.hs	Lh3q_BB13_40
Lh3q_BB13_13:
	mov	x11, xzr
Lh3q_BB13_14:
	lsl	x12, x11, #3
	add	x13, x28, x9
	sub	x8, x8, x11
	add	x10, x10, x12
	add	x9, x10, #8
	add	x10, x13, x12
Lh3q_BB13_15:
	ldr	x11, [x9], #8
	subs	x8, x8, #1
	str	x11, [x10], #8
	b.ne	Lh3q_BB13_15
Lh3q_BB13_16:
	bl	"_std_collections::btree::node::Node::destroy::<#c1378e5419258927>"
	sub	x21, x21, #1
	cmp	x21, #257
	b.lo	Lh3q_BB13_22
	mov	x11, xzr
	add	x9, x19, #16
Lh3q_BB13_18:
	mov	w8, #256
	mov	x10, x9
Lh3q_BB13_19:
	ldp	q0, q1, [x10]
	subs	x8, x8, #4
	stur	q0, [x10, #-8]
	stur	q1, [x10, #8]
	add	x10, x10, #32
	b.ne	Lh3q_BB13_19
	add	x11, x11, #256
	add	x9, x9, #2048
	sub	x8, x21, x11
	cmp	x8, #256
	b.hi	Lh3q_BB13_18
	lsl	x9, x11, #3
	add	x10, x22, x9
	cmp	x21, x11
	b.ne	Lh3q_BB13_23
	b	Lh3q_BB13_28
Lh3q_BB13_22:
	mov	x9, xzr
	add	x10, x19, #8
	mov	x8, x21
	cmp	x21, xzr
	b.eq	Lh3q_BB13_28
Lh3q_BB13_23:
	cmp	x8, #4
	b.lo	Lh3q_BB13_25
	add	x11, x9, x19
	sub	x11, x11, x10
	cmp	x11, #32
	b.hs	Lh3q_BB13_43
Lh3q_BB13_25:
	mov	x11, xzr
Lh3q_BB13_26:
	lsl	x12, x11, #3
	add	x13, x27, x9
	sub	x8, x8, x11
	add	x10, x10, x12
	add	x9, x10, #8
	add	x10, x13, x12
Lh3q_BB13_27:
	ldr	x11, [x9], #8
	subs	x8, x8, #1
	str	x11, [x10], #8
	b.ne	Lh3q_BB13_27
Lh3q_BB13_28:
	cmp	x21, #257
	b.lo	Lh3q_BB13_34
	mov	x11, xzr
	add	x9, x19, #152
Lh3q_BB13_30:
	mov	w8, #256
	mov	x10, x9
Lh3q_BB13_31:
	ldp	q0, q1, [x10, #-16]
	subs	x8, x8, #4
	stur	q0, [x10, #-24]
	stur	q1, [x10, #-8]
	add	x10, x10, #32
	b.ne	Lh3q_BB13_31
	add	x11, x11, #256
	add	x9, x9, #2048
	sub	x8, x21, x11
	cmp	x8, #256
	b.hi	Lh3q_BB13_30
	lsl	x9, x11, #3
	add	x10, x23, x9
	cmp	x21, x11
	b.eq	Lh3q_BB13_3
	b	Lh3q_BB13_35
Lh3q_BB13_34:
	mov	x9, xzr
	add	x10, x19, #128
	mov	x8, x21
	cmp	x21, xzr
	b.eq	Lh3q_BB13_3
Lh3q_BB13_35:
	cmp	x8, #4
	b.lo	Lh3q_BB13_37
	add	x11, x19, #120
	add	x11, x11, x9
	sub	x11, x11, x10
	cmp	x11, #32
	b.hs	Lh3q_BB13_46
Lh3q_BB13_37:
	mov	x11, xzr
Lh3q_BB13_38:
	lsl	x12, x11, #3
	add	x13, x25, x9
	sub	x8, x8, x11
	add	x10, x10, x12
	add	x9, x10, #8
	add	x10, x13, x12
Lh3q_BB13_39:
	ldr	x11, [x9], #8
	subs	x8, x8, #1
	str	x11, [x10], #8
	b.ne	Lh3q_BB13_39
	b	Lh3q_BB13_3
Lh3q_BB13_40:
	add	x13, x19, #264
	and	x11, x8, #0x1fc
	add	x12, x10, #24
	add	x13, x13, x9
	and	x14, x8, #0x1fc
Lh3q_BB13_41:
	ldp	q0, q1, [x12, #-16]
	subs	x14, x14, #4
	add	x12, x12, #32
	stp	q0, q1, [x13, #-16]
	add	x13, x13, #32
	b.ne	Lh3q_BB13_41
	cmp	x8, x11
	b.eq	Lh3q_BB13_16
	b	Lh3q_BB13_14
Lh3q_BB13_43:
	add	x13, x19, #24
	and	x11, x8, #0x1fc
	add	x12, x10, #24
	add	x13, x13, x9
	and	x14, x8, #0x1fc
Lh3q_BB13_44:
	ldp	q0, q1, [x12, #-16]
	subs	x14, x14, #4
	add	x12, x12, #32
	stp	q0, q1, [x13, #-16]
	add	x13, x13, #32
	b.ne	Lh3q_BB13_44
	cmp	x8, x11
	b.eq	Lh3q_BB13_28
	b	Lh3q_BB13_26
Lh3q_BB13_46:
	add	x13, x19, #144
	and	x11, x8, #0x1fc
	add	x12, x10, #24
	add	x13, x13, x9
	and	x14, x8, #0x1fc
Lh3q_BB13_47:
	ldp	q0, q1, [x12, #-16]
	subs	x14, x14, #4
	add	x12, x12, #32
	stp	q0, q1, [x13, #-16]
	add	x13, x13, #32
	b.ne	Lh3q_BB13_47
	cmp	x8, x11
	b.eq	Lh3q_BB13_3
	b	Lh3q_BB13_38
Lh3q_BB13_49:
	ldr	x0, [x19, #248]
	bl	"_std_collections::btree::node::Node::destroy::<#c1378e5419258927>"
	b	Lh3q_BB13_91
Lh3q_BB13_50:
	cmp	w21, #15
	b.ls	Lh3q_BB13_52
	lsr	x20, x21, #1
	add	x0, x19, #8
	sub	x8, x21, x20
	mov	x2, x20
	lsl	x21, x8, #3
	add	x1, x22, x21
	bl	"_core::slice::edits::mirror::<i64>"
	add	x0, x19, #128
	add	x1, x23, x21
	mov	x2, x20
	bl	"_core::slice::edits::mirror::<i64>"
	b	Lh3q_BB13_91
Lh3q_BB13_52:
	cmp	w21, #2
	b.lo	Lh3q_BB13_91
	sub	x9, x21, #2
	subs	x10, x21, #1
	lsr	x8, x9, #1
	b.eq	Lh3q_BB13_55
	ldr	x11, [x22, x10, lsl #3]
	ldr	x12, [x22]
	str	x11, [x22]
	str	x12, [x22, x10, lsl #3]
Lh3q_BB13_55:
	cbz	x8, Lh3q_BB13_85
	cmp	x9, #1
	b.ls	Lh3q_BB13_58
	ldr	x10, [x22, x9, lsl #3]
	ldr	x11, [x19, #16]
	str	x10, [x19, #16]
	str	x11, [x22, x9, lsl #3]
	b	Lh3q_BB13_60
Lh3q_BB13_58:
	cbnz	x9, Lh3q_BB13_60
	ldp	x10, x9, [x19, #8]
	stp	x9, x10, [x19, #8]
Lh3q_BB13_60:
	cmp	x8, #1
	b.eq	Lh3q_BB13_85
	sub	x9, x21, #3
	cmp	x9, #2
	b.ls	Lh3q_BB13_63
	ldr	x10, [x22, x9, lsl #3]
	ldr	x11, [x19, #24]
	str	x10, [x19, #24]
	str	x11, [x22, x9, lsl #3]
	b	Lh3q_BB13_65
Lh3q_BB13_63:
	b.eq	Lh3q_BB13_65
	ldr	x10, [x22, x9, lsl #3]
	ldr	x11, [x19, #24]
	str	x11, [x22, x9, lsl #3]
	str	x10, [x19, #24]
Lh3q_BB13_65:
	cmp	x8, #2
	b.eq	Lh3q_BB13_85
	sub	x9, x21, #4
	cmp	x9, #3
	b.ls	Lh3q_BB13_68
	ldr	x10, [x22, x9, lsl #3]
	ldr	x11, [x19, #32]
	str	x10, [x19, #32]
	str	x11, [x22, x9, lsl #3]
	b	Lh3q_BB13_70
Lh3q_BB13_68:
	b.eq	Lh3q_BB13_70
	ldr	x10, [x22, x9, lsl #3]
	ldr	x11, [x19, #32]
	str	x11, [x22, x9, lsl #3]
	str	x10, [x19, #32]
Lh3q_BB13_70:
	cmp	x8, #3
	b.eq	Lh3q_BB13_85
	sub	x9, x21, #5
	cmp	x9, #4
	b.ls	Lh3q_BB13_73
	ldr	x10, [x22, x9, lsl #3]
	ldr	x11, [x19, #40]
	str	x10, [x19, #40]
	str	x11, [x22, x9, lsl #3]
	b	Lh3q_BB13_75
Lh3q_BB13_73:
	b.eq	Lh3q_BB13_75
	ldr	x10, [x22, x9, lsl #3]
	ldr	x11, [x19, #40]
	str	x11, [x22, x9, lsl #3]
	str	x10, [x19, #40]
Lh3q_BB13_75:
	cmp	x8, #4
	b.eq	Lh3q_BB13_85
	sub	x9, x21, #6
	cmp	x9, #5
	b.ls	Lh3q_BB13_78
	ldr	x10, [x22, x9, lsl #3]
	ldr	x11, [x19, #48]
	str	x10, [x19, #48]
	str	x11, [x22, x9, lsl #3]
	b	Lh3q_BB13_80
Lh3q_BB13_78:
	b.eq	Lh3q_BB13_80
	ldr	x10, [x22, x9, lsl #3]
	ldr	x11, [x19, #48]
	str	x11, [x22, x9, lsl #3]
	str	x10, [x19, #48]
Lh3q_BB13_80:
	cmp	x8, #5
	b.eq	Lh3q_BB13_85
	sub	x9, x21, #7
	cmp	x9, #6
	b.ls	Lh3q_BB13_83
	ldr	x10, [x22, x9, lsl #3]
	ldr	x11, [x19, #56]
	str	x10, [x19, #56]
	str	x11, [x22, x9, lsl #3]
	b	Lh3q_BB13_85
Lh3q_BB13_83:
	b.eq	Lh3q_BB13_85
	ldr	x10, [x22, x9, lsl #3]
	ldr	x11, [x19, #56]
	str	x11, [x22, x9, lsl #3]
	str	x10, [x19, #56]
Lh3q_BB13_85:
	mov	x9, xzr
	add	x10, x19, #120
	add	x8, x8, #1
	b	Lh3q_BB13_88
Lh3q_BB13_86:
	add	x12, x10, x9, lsl #3
	ldr	x13, [x10, x21, lsl #3]
	ldr	x14, [x12, #8]
	str	x13, [x12, #8]
	str	x14, [x10, x21, lsl #3]
Lh3q_BB13_87:
	add	x9, x9, #1
	mov	x21, x11
	cmp	x8, x9
	b.eq	Lh3q_BB13_91
Lh3q_BB13_88:
	sub	x11, x21, #1
	cmp	x9, x11
	b.lo	Lh3q_BB13_86
	cmp	x11, x9
	b.hs	Lh3q_BB13_87
	add	x12, x10, x9, lsl #3
	ldr	x13, [x10, x21, lsl #3]
	ldr	x14, [x12, #8]
	str	x14, [x10, x21, lsl #3]
	str	x13, [x12, #8]
	b	Lh3q_BB13_87
Lh3q_BB13_91:
	mov	x0, x19
	ldp	x29, x30, [sp, #80]
	ldp	x20, x19, [sp, #64]
	ldp	x22, x21, [sp, #48]
	ldp	x24, x23, [sp, #32]
	ldp	x26, x25, [sp, #16]
	ldp	x28, x27, [sp], #96
	b	_rattle_dealloc

	.p2align	2
"_core::slice::edits::mirror::<i64>":
	lsl	x8, x2, #3
	add	x9, x1, x8
	add	x8, x0, x8
	cmp	x0, x9
	ccmp	x1, x8, #2, lo
	b.lo	Lh3q_BB14_4
	add	x9, x1, x2, lsl #3
	and	x8, x2, #0x7ffffffffffffffe
	mov	x10, x0
	and	x11, x2, #0x7ffffffffffffffe
	sub	x9, x9, #16
Lh3q_BB14_2:
	ldr	q0, [x9]
	ldr	q1, [x10]
	subs	x11, x11, #2
	ext.16b	v0, v0, v0, #8
	ext.16b	v1, v1, v1, #8
	str	q0, [x10], #16
	str	q1, [x9], #-16
	b.ne	Lh3q_BB14_2
	cmp	x2, x8
	b.ne	Lh3q_BB14_5
	b	Lh3q_BB14_7
Lh3q_BB14_4:
	mov	x8, xzr
Lh3q_BB14_5:
	add	x9, x0, x8, lsl #3
	sub	x8, x2, x8
	sub	x10, x1, #8
Lh3q_BB14_6:
	ldr	x11, [x10, x8, lsl #3]
	ldr	x12, [x9]
	str	x11, [x9], #8
	str	x12, [x10, x8, lsl #3]
	subs	x8, x8, #1
	b.ne	Lh3q_BB14_6
Lh3q_BB14_7:
	ret

	.p2align	2
"_std_alloc::vec::Vec::remove::<#0c35fd3905773d29>":
	ldp	x10, x13, [x0]
	lsl	x15, x1, #3
	ldr	x9, [x0, #16]
	stp	xzr, xzr, [x0, #8]
	mov	x8, x0
	cmn	x1, #1
	add	x12, x10, x15
	sub	x11, x13, #1
	ldr	x0, [x12]
	sub	x14, x11, x1
	b.eq	Lh3q_BB15_9
	cmp	x14, #257
	b.lo	Lh3q_BB15_17
	sub	x14, x13, x1
	add	x15, x15, x10
	mov	x16, xzr
	add	x17, x12, #2048
	sub	x3, x14, #257
	add	x2, x15, #16
	b	Lh3q_BB15_4
Lh3q_BB15_3:
	add	x1, x1, #256
	add	x16, x16, #1
	sub	x3, x15, #256
	sub	x14, x11, x1
	add	x2, x2, #2048
	add	x12, x12, #2048
	cmp	x14, #256
	b.ls	Lh3q_BB15_15
Lh3q_BB15_4:
	cmn	x1, #1
	mov	x15, x3
	b.eq	Lh3q_BB15_7
	mov	w14, #256
	mov	x3, x2
Lh3q_BB15_6:
	ldur	q0, [x3, #-8]
	ldur	q1, [x3, #8]
	subs	x14, x14, #4
	stp	q0, q1, [x3, #-16]
	add	x3, x3, #32
	b.ne	Lh3q_BB15_6
	b	Lh3q_BB15_3
Lh3q_BB15_7:
	lsl	x14, x16, #11
	mov	w3, #2040
	ldr	x14, [x17, x14]
Lh3q_BB15_8:
	str	x14, [x12, x3]
	sub	x3, x3, #8
	cmn	x3, #8
	b.ne	Lh3q_BB15_8
	b	Lh3q_BB15_3
Lh3q_BB15_9:
	cbz	x13, Lh3q_BB15_32
	lsl	x12, x13, #3
	cmp	x14, #4
	b.lo	Lh3q_BB15_29
	neg	x16, x1, lsl #3
	cmp	x16, #32
	mov	x16, xzr
	b.lo	Lh3q_BB15_30
	sub	x17, x12, #40
	and	x16, x14, #0xfffffffffffffffc
	and	x2, x14, #0xfffffffffffffffc
	sub	x15, x17, x15
	add	x17, x10, x17
	add	x15, x10, x15
Lh3q_BB15_13:
	ldp	q1, q0, [x15], #-32
	sub	x2, x2, #4
	stp	q1, q0, [x17], #-32
	cbnz	x2, Lh3q_BB15_13
	cmp	x14, x16
	b.ne	Lh3q_BB15_30
	b	Lh3q_BB15_32
Lh3q_BB15_15:
	cmn	x1, #1
	b.eq	Lh3q_BB15_23
	lsl	x15, x1, #3
	add	x12, x10, x15
Lh3q_BB15_17:
	cmp	x11, x1
	b.eq	Lh3q_BB15_32
	cmp	x14, #6
	b.lo	Lh3q_BB15_20
	add	x17, x15, x10
	sub	x13, x17, x12
	sub	x13, x13, #8
	cmp	x13, #32
	b.hs	Lh3q_BB15_26
Lh3q_BB15_20:
	mov	x13, xzr
Lh3q_BB15_21:
	lsl	x16, x13, #3
	add	x15, x10, x15
	add	x17, x16, x12
	sub	x12, x14, x13
	add	x14, x15, x16
	add	x13, x17, #8
Lh3q_BB15_22:
	ldr	x15, [x13], #8
	subs	x12, x12, #1
	str	x15, [x14], #8
	b.ne	Lh3q_BB15_22
	b	Lh3q_BB15_32
Lh3q_BB15_23:
	cbz	x13, Lh3q_BB15_32
	add	x13, x10, x13, lsl #3
	ldur	x12, [x13, #-8]
	sub	x13, x13, #16
Lh3q_BB15_25:
	subs	x15, x15, #1
	str	x12, [x13], #-8
	b.ne	Lh3q_BB15_25
	b	Lh3q_BB15_32
Lh3q_BB15_26:
	and	x13, x14, #0x1fc
	add	x16, x12, #24
	add	x17, x17, #16
	and	x1, x14, #0x1fc
Lh3q_BB15_27:
	ldp	q0, q1, [x16, #-16]
	subs	x1, x1, #4
	add	x16, x16, #32
	stp	q0, q1, [x17, #-16]
	add	x17, x17, #32
	b.ne	Lh3q_BB15_27
	cmp	x14, x13
	b.eq	Lh3q_BB15_32
	b	Lh3q_BB15_21
Lh3q_BB15_29:
	mov	x16, xzr
Lh3q_BB15_30:
	add	x14, x16, x1
	sub	x12, x12, #16
	sub	x15, x12, x14, lsl #3
	sub	x16, x12, x16, lsl #3
	sub	x12, x14, x13
	add	x12, x12, #1
	add	x13, x10, x15
	add	x14, x10, x16
Lh3q_BB15_31:
	ldr	x15, [x13], #-8
	adds	x12, x12, #1
	str	x15, [x14], #-8
	b.lo	Lh3q_BB15_31
Lh3q_BB15_32:
	stp	x10, x11, [x8]
	str	x9, [x8, #16]
	ret

	.p2align	2
"_std_alloc::vec::Vec::remove::<#e75f653959fed946>":
	ldp	x10, x13, [x0]
	lsl	x15, x1, #3
	ldr	x9, [x0, #16]
	stp	xzr, xzr, [x0, #8]
	mov	x8, x0
	cmn	x1, #1
	add	x12, x10, x15
	sub	x11, x13, #1
	ldr	x0, [x12]
	sub	x14, x11, x1
	b.eq	Lh3q_BB16_9
	cmp	x14, #257
	b.lo	Lh3q_BB16_17
	sub	x14, x13, x1
	add	x15, x15, x10
	mov	x16, xzr
	add	x17, x12, #2048
	sub	x3, x14, #257
	add	x2, x15, #16
	b	Lh3q_BB16_4
Lh3q_BB16_3:
	add	x1, x1, #256
	add	x16, x16, #1
	sub	x3, x15, #256
	sub	x14, x11, x1
	add	x2, x2, #2048
	add	x12, x12, #2048
	cmp	x14, #256
	b.ls	Lh3q_BB16_15
Lh3q_BB16_4:
	cmn	x1, #1
	mov	x15, x3
	b.eq	Lh3q_BB16_7
	mov	w14, #256
	mov	x3, x2
Lh3q_BB16_6:
	ldur	q0, [x3, #-8]
	ldur	q1, [x3, #8]
	subs	x14, x14, #4
	stp	q0, q1, [x3, #-16]
	add	x3, x3, #32
	b.ne	Lh3q_BB16_6
	b	Lh3q_BB16_3
Lh3q_BB16_7:
	lsl	x14, x16, #11
	mov	w3, #2040
	ldr	x14, [x17, x14]
Lh3q_BB16_8:
	str	x14, [x12, x3]
	sub	x3, x3, #8
	cmn	x3, #8
	b.ne	Lh3q_BB16_8
	b	Lh3q_BB16_3
Lh3q_BB16_9:
	cbz	x13, Lh3q_BB16_32
	lsl	x12, x13, #3
	cmp	x14, #4
	b.lo	Lh3q_BB16_29
	neg	x16, x1, lsl #3
	cmp	x16, #32
	mov	x16, xzr
	b.lo	Lh3q_BB16_30
	sub	x17, x12, #40
	and	x16, x14, #0xfffffffffffffffc
	and	x2, x14, #0xfffffffffffffffc
	sub	x15, x17, x15
	add	x17, x10, x17
	add	x15, x10, x15
Lh3q_BB16_13:
	ldp	q1, q0, [x15], #-32
	sub	x2, x2, #4
	stp	q1, q0, [x17], #-32
	cbnz	x2, Lh3q_BB16_13
	cmp	x14, x16
	b.ne	Lh3q_BB16_30
	b	Lh3q_BB16_32
Lh3q_BB16_15:
	cmn	x1, #1
	b.eq	Lh3q_BB16_23
	lsl	x15, x1, #3
	add	x12, x10, x15
Lh3q_BB16_17:
	cmp	x11, x1
	b.eq	Lh3q_BB16_32
	cmp	x14, #6
	b.lo	Lh3q_BB16_20
	add	x17, x15, x10
	sub	x13, x17, x12
	sub	x13, x13, #8
	cmp	x13, #32
	b.hs	Lh3q_BB16_26
Lh3q_BB16_20:
	mov	x13, xzr
Lh3q_BB16_21:
	lsl	x16, x13, #3
	add	x15, x10, x15
	add	x17, x16, x12
	sub	x12, x14, x13
	add	x14, x15, x16
	add	x13, x17, #8
Lh3q_BB16_22:
	ldr	x15, [x13], #8
	subs	x12, x12, #1
	str	x15, [x14], #8
	b.ne	Lh3q_BB16_22
	b	Lh3q_BB16_32
Lh3q_BB16_23:
	cbz	x13, Lh3q_BB16_32
	add	x13, x10, x13, lsl #3
	ldur	x12, [x13, #-8]
	sub	x13, x13, #16
Lh3q_BB16_25:
	subs	x15, x15, #1
	str	x12, [x13], #-8
	b.ne	Lh3q_BB16_25
	b	Lh3q_BB16_32
Lh3q_BB16_26:
	and	x13, x14, #0x1fc
	add	x16, x12, #24
	add	x17, x17, #16
	and	x1, x14, #0x1fc
Lh3q_BB16_27:
	ldp	q0, q1, [x16, #-16]
	subs	x1, x1, #4
	add	x16, x16, #32
	stp	q0, q1, [x17, #-16]
	add	x17, x17, #32
	b.ne	Lh3q_BB16_27
	cmp	x14, x13
	b.eq	Lh3q_BB16_32
	b	Lh3q_BB16_21
Lh3q_BB16_29:
	mov	x16, xzr
Lh3q_BB16_30:
	add	x14, x16, x1
	sub	x12, x12, #16
	sub	x15, x12, x14, lsl #3
	sub	x16, x12, x16, lsl #3
	sub	x12, x14, x13
	add	x12, x12, #1
	add	x13, x10, x15
	add	x14, x10, x16
Lh3q_BB16_31:
	ldr	x15, [x13], #-8
	adds	x12, x12, #1
	str	x15, [x14], #-8
	b.lo	Lh3q_BB16_31
Lh3q_BB16_32:
	stp	x10, x11, [x8]
	str	x9, [x8, #16]
	ret

	.p2align	2
"_std_collections::btree::iter::Cursor::advance::<36'qpack_shared::streams::BlockedStream,()>":
	cmn	x1, #1
	b.eq	Lh3q_BB17_3
	ldr	x8, [x2]
	and	x9, x1, #0xf
	ldrh	w10, [x8]
	cmp	x9, x10
	b.hs	Lh3q_BB17_5
	add	x10, x8, x9, lsl #4
	add	x9, x8, #248
	add	x8, x1, #1
	mov	w12, #1
	mov	x3, x2
	add	x10, x10, #8
	cmp	x8, x4
	b.ne	Lh3q_BB17_15
	b	Lh3q_BB17_20
Lh3q_BB17_3:
	ldr	x11, [x3]
	ldrh	w8, [x11, #2]
	cmp	w8, #1
	b.ne	Lh3q_BB17_17
	mov	x12, xzr
	mov	x10, xzr
	mov	x9, xzr
	mov	x8, xzr
	cmp	xzr, x4
	b.ne	Lh3q_BB17_15
	b	Lh3q_BB17_20
Lh3q_BB17_5:
	ldr	x9, [x3]
	ldrh	w14, [x9, #2]
	cmp	w14, #1
	b.eq	Lh3q_BB17_16
	mov	x12, xzr
	mov	x8, xzr
	mov	x11, xzr
	mov	w10, wzr
	mov	x13, xzr
Lh3q_BB17_7:
	ubfiz	x14, x14, #2, #32
	ldrh	w15, [x9]
	sub	x14, x14, #4
	lsr	x14, x1, x14
	and	x16, x14, #0xf
	cmp	x16, x15
	csel	x11, x11, x3, hs
	add	x3, x9, x16, lsl #3
	csel	x8, x8, x13, hs
	orr	x13, x16, x13, lsl #4
	csinc	w10, w10, wzr, hs
	csel	x12, x12, x16, hs
	ldr	x9, [x3, #248]!
	ldrh	w14, [x9, #2]
	cmp	w14, #1
	b.ne	Lh3q_BB17_7
	cbz	w10, Lh3q_BB17_16
	ldr	x13, [x11]
	ldrh	w9, [x13, #2]
	add	x10, x13, x12, lsl #4
	add	x12, x12, #1
	cmp	w9, #1
	add	x9, x13, #248
	add	x10, x10, #8
	b.eq	Lh3q_BB17_14
	lsl	x14, x12, #3
	add	x8, x12, x8, lsl #4
	ldr	x11, [x9, x14]
	ldrh	w15, [x11, #2]
	cmp	w15, #1
	b.eq	Lh3q_BB17_13
Lh3q_BB17_11:
	mov	x13, x11
	ldr	x11, [x11, #248]
	lsl	x8, x8, #4
	ldrh	w12, [x11, #2]
	cmp	w12, #1
	b.ne	Lh3q_BB17_11
	mov	x14, xzr
Lh3q_BB17_13:
	add	x11, x13, x14
	mov	x12, xzr
	add	x11, x11, #248
Lh3q_BB17_14:
	add	x8, x12, x8, lsl #4
	mov	w12, #1
	mov	x3, x11
	cmp	x8, x4
	b.eq	Lh3q_BB17_20
Lh3q_BB17_15:
	stp	x12, x10, [x0]
	mov	w10, #1
	stp	x9, x10, [x0, #16]
	stp	x8, x3, [x0, #32]
	ret
Lh3q_BB17_16:
	movi.2d	v0, #0000000000000000
	stp	q0, q0, [x0, #16]
	str	q0, [x0]
	ret
Lh3q_BB17_17:
	ldr	x8, [x11, #248]
	ldrh	w9, [x8, #2]
	cmp	w9, #1
	b.eq	Lh3q_BB17_19
Lh3q_BB17_18:
	mov	x11, x8
	ldr	x8, [x8, #248]
	ldrh	w9, [x8, #2]
	cmp	w9, #1
	b.ne	Lh3q_BB17_18
Lh3q_BB17_19:
	mov	x12, xzr
	mov	x10, xzr
	mov	x9, xzr
	mov	x8, xzr
	add	x3, x11, #248
	cmp	xzr, x4
	b.ne	Lh3q_BB17_15
Lh3q_BB17_20:
	stp	x12, x10, [x0]
	stp	x9, xzr, [x0, #16]
	stp	xzr, xzr, [x0, #32]
	ret

	.p2align	2
"_qpack_base::static_::known_row":
	cmp	x1, #24
	b.hi	Lh3q_BB18_2
Lh3q_loh0:
	adrp	x8, l_static.0@PAGE
Lh3q_loh1:
	add	x8, x8, l_static.0@PAGEOFF
	add	x8, x8, x1, lsl #5
	ldr	q0, [x8]
	str	q0, [x0]
	ldr	q0, [x8, #16]
	str	q0, [x0, #16]
	ret
Lh3q_BB18_2:
	cmp	x1, #49
	b.hi	Lh3q_BB18_4
Lh3q_loh2:
	adrp	x8, l_static.1@PAGE
Lh3q_loh3:
	add	x8, x8, l_static.1@PAGEOFF
	add	x8, x8, x1, lsl #5
	sub	x8, x8, #800
	ldr	q0, [x8]
	str	q0, [x0]
	ldr	q0, [x8, #16]
	str	q0, [x0, #16]
	ret
Lh3q_BB18_4:
	lsl	x8, x1, #5
	cmp	x1, #74
	b.hi	Lh3q_BB18_6
Lh3q_loh4:
	adrp	x9, l_static.2@PAGE
Lh3q_loh5:
	add	x9, x9, l_static.2@PAGEOFF
	add	x8, x9, x8
	sub	x8, x8, #1600
	ldr	q0, [x8]
	str	q0, [x0]
	ldr	q0, [x8, #16]
	str	q0, [x0, #16]
	ret
Lh3q_BB18_6:
Lh3q_loh6:
	adrp	x9, l_static.3@PAGE
Lh3q_loh7:
	add	x9, x9, l_static.3@PAGEOFF
	add	x8, x9, x8
	sub	x8, x8, #2400
	ldr	q0, [x8]
	str	q0, [x0]
	ldr	q0, [x8, #16]
	str	q0, [x0, #16]
	ret
	.loh AdrpAdd	Lh3q_loh0, Lh3q_loh1
	.loh AdrpAdd	Lh3q_loh2, Lh3q_loh3
	.loh AdrpAdd	Lh3q_loh4, Lh3q_loh5
	.loh AdrpAdd	Lh3q_loh6, Lh3q_loh7

	.p2align	2
"_qpack_base::prefix_int::read_groups":
	ldr	x8, [x1, #8]
	cbz	x8, Lh3q_BB19_20
	ldr	x10, [x1]
	ldr	x11, [x1, #16]
	sub	x12, x8, #1
	mov	x9, x10
	ldrb	w13, [x9], #1
	stp	x9, x12, [x1]
	add	x9, x11, #1
	str	x9, [x1, #16]
	and	x9, x13, #0x7f
	tbnz	w13, #7, Lh3q_BB19_3
Lh3q_BB19_2:
	strh	wzr, [x0]
	str	x9, [x0, #8]
	ret
Lh3q_BB19_3:
	cbz	x12, Lh3q_BB19_20
	ldrsb	w13, [x10, #1]
	add	x14, x10, #2
	sub	x12, x8, #2
	stp	x14, x12, [x1]
	add	x14, x11, #2
	and	w15, w13, #0x7f
	str	x14, [x1, #16]
	orr	x9, x9, x15, lsl #7
	tbz	w13, #31, Lh3q_BB19_2
	cbz	x12, Lh3q_BB19_20
	ldrsb	w13, [x10, #2]
	add	x14, x10, #3
	sub	x12, x8, #3
	stp	x14, x12, [x1]
	add	x14, x11, #3
	and	w15, w13, #0x7f
	str	x14, [x1, #16]
	orr	x9, x9, x15, lsl #14
	tbz	w13, #31, Lh3q_BB19_2
	cbz	x12, Lh3q_BB19_20
	ldrsb	w13, [x10, #3]
	add	x14, x10, #4
	sub	x12, x8, #4
	stp	x14, x12, [x1]
	add	x14, x11, #4
	and	w15, w13, #0x7f
	str	x14, [x1, #16]
	orr	x9, x9, x15, lsl #21
	tbz	w13, #31, Lh3q_BB19_2
	cbz	x12, Lh3q_BB19_20
	ldrsb	w13, [x10, #4]
	add	x14, x10, #5
	sub	x12, x8, #5
	stp	x14, x12, [x1]
	add	x14, x11, #5
	and	w15, w13, #0x7f
	str	x14, [x1, #16]
	orr	x9, x9, x15, lsl #28
	tbz	w13, #31, Lh3q_BB19_2
	cbz	x12, Lh3q_BB19_20
	ldrsb	w13, [x10, #5]
	add	x14, x10, #6
	sub	x12, x8, #6
	stp	x14, x12, [x1]
	add	x14, x11, #6
	and	w15, w13, #0x7f
	str	x14, [x1, #16]
	orr	x9, x9, x15, lsl #35
	tbz	w13, #31, Lh3q_BB19_2
	cbz	x12, Lh3q_BB19_20
	ldrsb	w13, [x10, #6]
	add	x14, x10, #7
	sub	x12, x8, #7
	stp	x14, x12, [x1]
	add	x14, x11, #7
	and	w15, w13, #0x7f
	str	x14, [x1, #16]
	orr	x9, x9, x15, lsl #42
	tbz	w13, #31, Lh3q_BB19_2
	cbz	x12, Lh3q_BB19_20
	ldrsb	w13, [x10, #7]
	add	x14, x10, #8
	sub	x12, x8, #8
	stp	x14, x12, [x1]
	add	x14, x11, #8
	and	w15, w13, #0x7f
	str	x14, [x1, #16]
	orr	x9, x9, x15, lsl #49
	tbz	w13, #31, Lh3q_BB19_2
	cbz	x12, Lh3q_BB19_20
	sub	x13, x8, #9
	ldrsb	w8, [x10, #8]
	add	x12, x10, #9
	add	x10, x11, #9
	stp	x12, x13, [x1]
	str	x10, [x1, #16]
	tbnz	w8, #31, Lh3q_BB19_21
	and	w8, w8, #0x7f
	orr	x9, x9, x8, lsl #56
	strh	wzr, [x0]
	str	x9, [x0, #8]
	ret
Lh3q_BB19_20:
	mov	w8, #257
	strh	w8, [x0]
	str	xzr, [x0, #8]
	ret
Lh3q_BB19_21:
	mov	w8, #1
	strh	w8, [x0]
	str	xzr, [x0, #8]
	ret

	.p2align	2
"_std_collections::btree::node::Node::pop_first::<#cd27f3f210e89739>":
	stp	x20, x19, [sp, #-32]!
	ldr	x8, [x0]
	mov	x19, x0
	stp	x29, x30, [sp, #16]
	add	x29, sp, #16
	ldrh	w9, [x8, #2]
	cbz	w9, Lh3q_BB20_4
	add	x0, x8, #248
	bl	"_std_collections::btree::node::Node::pop_first::<#cd27f3f210e89739>"
	ldr	x8, [x19]
	ldr	x8, [x8, #248]
	ldrh	w8, [x8]
	cmp	w8, #6
	b.hi	Lh3q_BB20_3
	mov	x20, x0
	mov	x0, x19
	mov	x19, x1
	mov	x1, xzr
	bl	"_std_collections::btree::node::Node::balance::<#cd27f3f210e89739>"
	mov	x1, x19
	mov	x0, x20
Lh3q_BB20_3:
	ldp	x29, x30, [sp, #16]
	ldp	x20, x19, [sp], #32
	ret
Lh3q_BB20_4:
	ldrh	w9, [x8]
	mov	x10, x8
	ldr	x1, [x8, #16]
	ldr	x0, [x10, #8]!
	sub	x9, x9, #1
	cmp	x9, #129
	b.lo	Lh3q_BB20_10
	mov	x11, xzr
	add	x13, x8, #24
Lh3q_BB20_6:
	mov	w12, #128
	mov	x14, x13
Lh3q_BB20_7:
	ldr	q0, [x14]
	subs	x12, x12, #1
	stur	q0, [x14, #-16]
	add	x14, x14, #16
	b.ne	Lh3q_BB20_7
	add	x11, x11, #128
	add	x13, x13, #2048
	sub	x12, x9, x11
	cmp	x12, #128
	b.hi	Lh3q_BB20_6
	lsl	x13, x11, #4
	add	x14, x10, x13
	cmp	x9, x11
	b.ne	Lh3q_BB20_11
	b	Lh3q_BB20_13
Lh3q_BB20_10:
	mov	x13, xzr
	mov	x14, x10
	mov	x12, x9
	cmp	x9, xzr
	b.eq	Lh3q_BB20_13
Lh3q_BB20_11:
	add	x11, x14, #16
	add	x10, x10, x13
Lh3q_BB20_12:
	ldr	q0, [x11], #16
	subs	x12, x12, #1
	str	q0, [x10], #16
	b.ne	Lh3q_BB20_12
Lh3q_BB20_13:
	strh	w9, [x8]
	str	x8, [x19]
	ldp	x29, x30, [sp, #16]
	ldp	x20, x19, [sp], #32
	ret

	.p2align	2
"_std_collections::btree::node::Node::balance::<#cd27f3f210e89739>":
	sub	sp, sp, #208
	stp	x20, x19, [sp, #176]
	ldr	x20, [x0]
	stp	x24, x23, [sp, #144]
	lsl	x24, x1, #3
	mov	x8, x20
	stp	x22, x21, [sp, #160]
	ldrh	w21, [x8], #248
	add	x22, x8, x24
	ldp	x10, x9, [x22]
	stp	x28, x27, [sp, #112]
	mov	x27, x0
	stp	x26, x25, [sp, #128]
	stp	x29, x30, [sp, #192]
	add	x29, sp, #192
	ldrh	w11, [x10]
	ldrh	w12, [x9]
	add	x13, x12, x11
	cmp	x13, #15
	b.hs	Lh3q_BB21_5
	ldrh	w10, [x20, #2]
	add	x9, x20, #8
	add	x0, sp, #32
	stp	x9, x21, [sp, #32]
	mov	w9, #15
	add	x19, sp, #32
	cmp	w10, #0
	stp	x9, x8, [sp, #48]
	mov	w10, #16
	stp	x21, x9, [sp, #64]
	csinc	x9, xzr, x21, eq
	mov	x21, x1
	stp	x8, x9, [sp, #80]
	csel	x8, xzr, x10, eq
	str	x27, [sp, #16]
	stp	x8, x20, [sp, #96]
	bl	"_std_alloc::vec::Vec::remove::<#89b048af38b1c68a>"
	ldr	x8, [sp, #64]
	mov	x22, x0
	mov	x23, x1
	add	x0, x19, #48
	add	x1, x21, #1
	sub	x8, x8, #1
	str	x8, [sp, #64]
	bl	"_std_alloc::vec::Vec::remove::<#dcade1da240033cb>"
	ldr	x8, [sp, #80]
	ldrh	w26, [x0]
	mov	x20, x0
	ldrh	w19, [x0, #2]
	ldr	x21, [x8, x21, lsl #3]
	str	x8, [sp, #8]
	add	x8, x0, #8
	lsl	x2, x26, #4
	ldrh	w28, [x21]
	add	x9, x21, #8
	ldrh	w25, [x21, #2]
	add	x27, x28, #1
	add	x0, x9, x27, lsl #4
	add	x9, x9, x28, lsl #4
	sub	x10, x0, x8
	stp	x22, x23, [x9]
	cmp	x10, x2
	b.hs	Lh3q_BB21_12
	mov	x9, x26
Lh3q_BB21_3:
	ldr	q0, [x8], #16
	subs	x9, x9, #1
	str	q0, [x0], #16
	b.ne	Lh3q_BB21_3
	cbnz	w25, Lh3q_BB21_13
	b	Lh3q_BB21_23
Lh3q_BB21_5:
	cmp	w11, w12
	add	x8, x20, #8
	b.hs	Lh3q_BB21_20
	mov	x13, x9
	cmp	w12, #130
	sub	x11, x12, #1
	ldr	q0, [x13, #8]!
	ldurh	w10, [x13, #-6]
	b.lo	Lh3q_BB21_24
	mov	x14, xzr
	add	x16, x9, #24
Lh3q_BB21_8:
	mov	w15, #128
	mov	x17, x16
Lh3q_BB21_9:
	ldr	q1, [x17]
	subs	x15, x15, #1
	stur	q1, [x17, #-16]
	add	x17, x17, #16
	b.ne	Lh3q_BB21_9
	add	x14, x14, #128
	add	x16, x16, #2048
	sub	x15, x11, x14
	cmp	x15, #128
	b.hi	Lh3q_BB21_8
	lsl	x16, x14, #4
	add	x17, x13, x16
	cmp	x11, x14
	b.ne	Lh3q_BB21_25
	b	Lh3q_BB21_27
Lh3q_BB21_12:
	add	x1, x20, #8
	bl	_memmove
	cbz	w25, Lh3q_BB21_23
Lh3q_BB21_13:
	add	x8, x21, #248
	lsl	x9, x26, #3
	cmp	w19, #0
	add	x0, x8, x27, lsl #3
	add	x8, x20, #248
	add	x9, x9, #8
	csel	x2, xzr, x9, eq
	sub	x8, x0, x8
	cmp	x8, x2
	b.hs	Lh3q_BB21_22
	cbz	w19, Lh3q_BB21_23
	cmp	w26, #7
	b.lo	Lh3q_BB21_17
	lsl	x8, x28, #3
	add	x11, x8, x21
	sub	x8, x11, x20
	add	x8, x8, #8
	cmp	x8, #32
	b.hs	Lh3q_BB21_57
Lh3q_BB21_17:
	mov	x8, xzr
Lh3q_BB21_18:
	lsl	x9, x8, #3
	sub	x8, x26, x8
	add	x8, x8, #1
	add	x10, x9, x28, lsl #3
	add	x9, x9, x20
	add	x9, x9, #248
	add	x10, x10, x21
	add	x10, x10, #256
Lh3q_BB21_19:
	ldr	x11, [x9], #8
	subs	x8, x8, #1
	str	x11, [x10], #8
	b.ne	Lh3q_BB21_19
	b	Lh3q_BB21_23
Lh3q_BB21_20:
	sub	x9, x11, #1
	ldrh	w23, [x10, #2]
	add	x12, x10, x9, lsl #4
	ldur	q0, [x12, #8]
	cbz	w23, Lh3q_BB21_35
	add	x11, x10, x11, lsl #3
	ldr	x19, [x11, #248]
	b	Lh3q_BB21_36
Lh3q_BB21_22:
	add	x1, x20, #248
	bl	_memmove
Lh3q_BB21_23:
	mov	x0, x20
	bl	_rattle_dealloc
	add	w8, w26, w27
	ldr	x9, [sp, #40]
	ldr	x10, [sp, #104]
	strh	w8, [x21]
	ldr	x8, [sp, #8]
	str	x21, [x8, x24]
	ldr	x8, [sp, #16]
	strh	w9, [x10]
	str	x10, [x8]
	b	Lh3q_BB21_53
Lh3q_BB21_24:
	mov	x16, xzr
	mov	x17, x13
	sub	x15, x12, #1
	cmp	x11, xzr
	b.eq	Lh3q_BB21_27
Lh3q_BB21_25:
	add	x14, x17, #16
	add	x16, x13, x16
Lh3q_BB21_26:
	ldr	q1, [x14], #16
	subs	x15, x15, #1
	str	q1, [x16], #16
	b.ne	Lh3q_BB21_26
Lh3q_BB21_27:
	cbz	w10, Lh3q_BB21_43
	add	x14, x13, #240
	cmp	w12, #257
	ldr	x13, [x14]
	b.lo	Lh3q_BB21_44
	mov	x15, xzr
	add	x16, x9, #272
Lh3q_BB21_30:
	mov	w17, #256
	mov	x0, x16
Lh3q_BB21_31:
	ldp	q1, q2, [x0, #-16]
	subs	x17, x17, #4
	stur	q1, [x0, #-24]
	stur	q2, [x0, #-8]
	add	x0, x0, #32
	b.ne	Lh3q_BB21_31
	add	x15, x15, #256
	add	x16, x16, #2048
	sub	x17, x12, x15
	cmp	x17, #256
	b.hi	Lh3q_BB21_30
	cmp	x12, x15
	b.eq	Lh3q_BB21_49
	lsl	x15, x15, #3
	mov	x12, x17
	add	x14, x14, x15
	cmp	x17, #6
	b.lo	Lh3q_BB21_46
	b	Lh3q_BB21_45
Lh3q_BB21_35:
	mov	x19, xzr
Lh3q_BB21_36:
	strh	w9, [x10]
	lsl	x9, x1, #4
	str	x10, [x22]
	ldr	q1, [x8, x9]
	str	q0, [x8, x9]
	ldr	x24, [x22, #8]
	ldrh	w8, [x24]
	ldrh	w26, [x24, #2]
	add	x25, x8, #1
	cbz	x8, Lh3q_BB21_38
	lsl	x2, x8, #4
	add	x0, x24, #24
	add	x1, x24, #8
	str	q1, [sp, #16]
	bl	_memmove
	ldr	q1, [sp, #16]
Lh3q_BB21_38:
	stur	q1, [x24, #8]
	cbz	w23, Lh3q_BB21_42
	cbz	w26, Lh3q_BB21_41
	lsl	x2, x25, #3
	add	x0, x24, #256
	add	x1, x24, #248
	bl	_memmove
Lh3q_BB21_41:
	stur	x19, [x24, #248]
Lh3q_BB21_42:
	strh	w25, [x24]
	str	x24, [x22, #8]
	b	Lh3q_BB21_52
Lh3q_BB21_43:
	mov	x13, xzr
	b	Lh3q_BB21_49
Lh3q_BB21_44:
	mov	x15, xzr
	cmp	x12, #6
	b.lo	Lh3q_BB21_46
Lh3q_BB21_45:
	add	x0, x15, x9
	sub	x16, x0, x14
	add	x16, x16, #240
	cmp	x16, #32
	b.hs	Lh3q_BB21_54
Lh3q_BB21_46:
	mov	x16, xzr
Lh3q_BB21_47:
	lsl	x17, x16, #3
	add	x15, x15, x9
	sub	x12, x12, x16
	add	x14, x17, x14
	add	x15, x15, x17
	add	x14, x14, #8
	add	x15, x15, #248
Lh3q_BB21_48:
	ldr	x16, [x14], #8
	subs	x12, x12, #1
	str	x16, [x15], #8
	b.ne	Lh3q_BB21_48
Lh3q_BB21_49:
	strh	w11, [x9]
	lsl	x11, x1, #4
	str	x9, [x22, #8]
	ldr	q1, [x8, x11]
	str	q0, [x8, x11]
	ldr	x8, [x22]
	ldrh	w9, [x8]
	ldrh	w11, [x8, #2]
	add	x12, x8, x9, lsl #4
	add	x9, x9, #1
	stur	q1, [x12, #8]
	cbz	w10, Lh3q_BB21_51
	lsl	x10, x9, #3
	cmp	w11, #0
	csel	x10, xzr, x10, eq
	add	x10, x8, x10
	str	x13, [x10, #248]
Lh3q_BB21_51:
	strh	w9, [x8]
	str	x8, [x22]
Lh3q_BB21_52:
	strh	w21, [x20]
	str	x20, [x27]
Lh3q_BB21_53:
	ldp	x29, x30, [sp, #192]
	ldp	x20, x19, [sp, #176]
	ldp	x22, x21, [sp, #160]
	ldp	x24, x23, [sp, #144]
	ldp	x26, x25, [sp, #128]
	ldp	x28, x27, [sp, #112]
	add	sp, sp, #208
	ret
Lh3q_BB21_54:
	and	x16, x12, #0xfffc
	add	x17, x14, #24
	add	x0, x0, #264
	and	x2, x12, #0xfffc
Lh3q_BB21_55:
	ldp	q1, q2, [x17, #-16]
	subs	x2, x2, #4
	add	x17, x17, #32
	stp	q1, q2, [x0, #-16]
	add	x0, x0, #32
	b.ne	Lh3q_BB21_55
	cmp	x12, x16
	b.ne	Lh3q_BB21_47
	b	Lh3q_BB21_49
Lh3q_BB21_57:
	add	x9, x26, #1
	add	x10, x20, #264
	add	x11, x11, #272
	and	x8, x9, #0x1fffc
	and	x12, x9, #0x1fffc
Lh3q_BB21_58:
	ldp	q0, q1, [x10, #-16]
	subs	x12, x12, #4
	add	x10, x10, #32
	stp	q0, q1, [x11, #-16]
	add	x11, x11, #32
	b.ne	Lh3q_BB21_58
	cmp	x9, x8
	b.eq	Lh3q_BB21_23
	b	Lh3q_BB21_18

	.p2align	2
"_qpack_table::dynamic::open_blocks::oldest_entry":
	sub	sp, sp, #160
	ldrb	w8, [x1]
	stp	x24, x23, [sp, #96]
	stp	x22, x21, [sp, #112]
	cmp	w8, #1
	stp	x20, x19, [sp, #128]
	stp	x29, x30, [sp, #144]
	add	x29, sp, #144
	stp	xzr, xzr, [sp, #16]
	stp	xzr, xzr, [sp]
	b.ne	Lh3q_BB22_8
	mov	x3, x1
	ldr	x20, [x3, #8]!
	mov	x19, x20
	ldrh	w21, [x19], #8
	cbz	x21, Lh3q_BB22_9
	mov	x8, xzr
	mov	w9, #8
Lh3q_BB22_3:
	ldr	x10, [x20, x9]
	cmp	x2, x10
	b.ls	Lh3q_BB22_6
	add	x8, x8, #1
	add	x9, x9, #16
	cmp	x21, x8
	b.ne	Lh3q_BB22_3
	mov	x8, x21
Lh3q_BB22_6:
	ldrh	w9, [x20, #2]
	cbnz	w9, Lh3q_BB22_10
	cmp	x8, x21
	b.lo	Lh3q_BB22_19
	b	Lh3q_BB22_20
Lh3q_BB22_8:
	mov	x22, xzr
	sub	x19, x29, #56
	sub	x9, x29, #56
	cmp	xzr, xzr
	b.lo	Lh3q_BB22_21
	b	Lh3q_BB22_31
Lh3q_BB22_9:
	ldrh	w9, [x20, #2]
	mov	x8, xzr
	cbz	w9, Lh3q_BB22_20
Lh3q_BB22_10:
	mov	x1, xzr
	mov	x9, x3
	b	Lh3q_BB22_12
Lh3q_BB22_11:
	ldrh	w10, [x20, #2]
	mov	x22, xzr
	cbz	w10, Lh3q_BB22_24
Lh3q_BB22_12:
	add	x10, x20, x8, lsl #3
	add	x1, x8, x1, lsl #4
	mov	x4, x9
	mov	x8, xzr
	ldr	x20, [x10, #608]
	add	x9, x10, #608
	mov	x19, x20
	ldrh	w21, [x19], #8
	cbz	x21, Lh3q_BB22_11
	mov	w10, #8
Lh3q_BB22_14:
	ldr	x11, [x20, x10]
	cmp	x2, x11
	b.ls	Lh3q_BB22_17
	add	x8, x8, #1
	add	x10, x10, #16
	cmp	x21, x8
	b.ne	Lh3q_BB22_14
	mov	x8, x21
Lh3q_BB22_17:
	ldrh	w10, [x20, #2]
	cbnz	w10, Lh3q_BB22_12
	cmp	x8, x21
	b.hs	Lh3q_BB22_23
Lh3q_BB22_19:
	mov	w9, #24
	madd	x10, x8, x9, x20
	add	x8, x20, x8, lsl #4
	add	x9, x8, #8
	add	x8, x10, #248
	ldr	x10, [x9]
	cmp	x10, x2
	b.eq	Lh3q_BB22_22
	b	Lh3q_BB22_28
Lh3q_BB22_20:
	add	x9, x20, #248
	mov	x22, x8
	cmp	x8, x21
	b.hs	Lh3q_BB22_31
Lh3q_BB22_21:
	mov	w8, #24
	madd	x8, x22, x8, x9
	add	x9, x19, x22, lsl #4
	ldr	x10, [x9]
	cmp	x10, x2
	b.ne	Lh3q_BB22_28
Lh3q_BB22_22:
	ldr	q0, [x9]
	mov	w9, #1
	stp	q0, q0, [sp]
	b	Lh3q_BB22_29
Lh3q_BB22_23:
	mov	x22, x8
Lh3q_BB22_24:
	movi.2d	v0, #0000000000000000
	mov	x23, x2
	mov	x24, x0
	add	x0, sp, #32
	mov	x2, x4
	mov	x4, #-1
	stp	q0, q0, [sp, #48]
	str	q0, [sp, #32]
	bl	"_std_collections::btree::iter::Cursor::advance::<#f1f734e93d23a409>"
	ldrb	w9, [sp, #56]
	ldrb	w8, [sp, #32]
	cmp	w9, #1
	b.ne	Lh3q_BB22_26
	ldp	x10, x9, [sp, #64]
	mov	x22, xzr
	ldr	x9, [x9]
	ubfiz	x10, x10, #3, #4
	add	x9, x9, x10
	ldr	x20, [x9, #608]
	mov	x19, x20
	ldrh	w21, [x19], #8
Lh3q_BB22_26:
	cmp	w8, #1
	mov	x0, x24
	mov	x2, x23
	b.ne	Lh3q_BB22_30
	ldp	x9, x8, [sp, #40]
	ldr	x10, [x9]
	cmp	x10, x2
	b.eq	Lh3q_BB22_22
Lh3q_BB22_28:
	mov	x9, xzr
	mov	x8, xzr
Lh3q_BB22_29:
	ldr	q0, [sp, #16]
	str	x9, [x0]
	str	x8, [x0, #24]
	stur	q0, [x0, #8]
	ldp	x29, x30, [sp, #144]
	ldp	x20, x19, [sp, #128]
	ldp	x22, x21, [sp, #112]
	ldp	x24, x23, [sp, #96]
	add	sp, sp, #160
	ret
Lh3q_BB22_30:
	add	x9, x20, #248
	cmp	x22, x21
	b.lo	Lh3q_BB22_21
Lh3q_BB22_31:
	movi.2d	v0, #0000000000000000
	stp	q0, q0, [x0]
	ldp	x29, x30, [sp, #144]
	ldp	x20, x19, [sp, #128]
	ldp	x22, x21, [sp, #112]
	ldp	x24, x23, [sp, #96]
	add	sp, sp, #160
	ret

	.p2align	2
"_std_collections::btree::iter::Cursor::advance::<#f1f734e93d23a409>":
	cmn	x1, #1
	b.eq	Lh3q_BB23_3
	ldr	x8, [x2]
	and	x9, x1, #0xf
	ldrh	w10, [x8]
	cmp	x9, x10
	b.hs	Lh3q_BB23_5
	mov	w10, #24
	mov	w12, #1
	mov	x3, x2
	umaddl	x10, w9, w10, x8
	add	x8, x8, x9, lsl #4
	add	x9, x8, #8
	add	x8, x1, #1
	add	x10, x10, #248
	cmp	x8, x4
	b.ne	Lh3q_BB23_15
	b	Lh3q_BB23_20
Lh3q_BB23_3:
	ldr	x11, [x3]
	ldrh	w8, [x11, #2]
	cmp	w8, #1
	b.ne	Lh3q_BB23_17
	mov	x12, xzr
	mov	x9, xzr
	mov	x10, xzr
	mov	x8, xzr
	cmp	xzr, x4
	b.ne	Lh3q_BB23_15
	b	Lh3q_BB23_20
Lh3q_BB23_5:
	ldr	x9, [x3]
	ldrh	w14, [x9, #2]
	cmp	w14, #1
	b.eq	Lh3q_BB23_16
	mov	x12, xzr
	mov	x8, xzr
	mov	x11, xzr
	mov	w10, wzr
	mov	x13, xzr
Lh3q_BB23_7:
	ubfiz	x14, x14, #2, #32
	sub	x14, x14, #4
	lsr	x14, x1, x14
	and	x15, x14, #0xf
	ldrh	w14, [x9]
	add	x16, x9, x15, lsl #3
	cmp	x15, x14
	ldr	x9, [x16, #608]
	csel	x8, x8, x13, hs
	orr	x13, x15, x13, lsl #4
	csel	x11, x11, x3, hs
	csinc	w10, w10, wzr, hs
	csel	x12, x12, x15, hs
	ldrh	w14, [x9, #2]
	add	x3, x16, #608
	cmp	w14, #1
	b.ne	Lh3q_BB23_7
	cbz	w10, Lh3q_BB23_16
	mov	w9, #24
	ldr	x13, [x11]
	madd	x10, x12, x9, x13
	ldrh	w9, [x13, #2]
	add	x14, x13, x12, lsl #4
	add	x12, x12, #1
	cmp	w9, #1
	add	x9, x14, #8
	add	x10, x10, #248
	b.eq	Lh3q_BB23_14
	lsl	x11, x12, #3
	add	x8, x12, x8, lsl #4
	add	x14, x13, x11
	ldr	x14, [x14, #608]
	ldrh	w15, [x14, #2]
	cmp	w15, #1
	b.eq	Lh3q_BB23_13
Lh3q_BB23_11:
	mov	x13, x14
	ldr	x14, [x14, #608]
	lsl	x8, x8, #4
	ldrh	w11, [x14, #2]
	cmp	w11, #1
	b.ne	Lh3q_BB23_11
	mov	x11, xzr
Lh3q_BB23_13:
	add	x11, x13, x11
	mov	x12, xzr
	add	x11, x11, #608
Lh3q_BB23_14:
	add	x8, x12, x8, lsl #4
	mov	w12, #1
	mov	x3, x11
	cmp	x8, x4
	b.eq	Lh3q_BB23_20
Lh3q_BB23_15:
	stp	x12, x9, [x0]
	mov	w9, #1
	stp	x10, x9, [x0, #16]
	stp	x8, x3, [x0, #32]
	ret
Lh3q_BB23_16:
	movi.2d	v0, #0000000000000000
	stp	q0, q0, [x0, #16]
	str	q0, [x0]
	ret
Lh3q_BB23_17:
	ldr	x8, [x11, #608]
	ldrh	w9, [x8, #2]
	cmp	w9, #1
	b.eq	Lh3q_BB23_19
Lh3q_BB23_18:
	mov	x11, x8
	ldr	x8, [x8, #608]
	ldrh	w9, [x8, #2]
	cmp	w9, #1
	b.ne	Lh3q_BB23_18
Lh3q_BB23_19:
	mov	x12, xzr
	mov	x9, xzr
	mov	x10, xzr
	mov	x8, xzr
	add	x3, x11, #608
	cmp	xzr, x4
	b.ne	Lh3q_BB23_15
Lh3q_BB23_20:
	stp	x12, x9, [x0]
	stp	x10, xzr, [x0, #16]
	stp	xzr, xzr, [x0, #32]
	ret

	.p2align	2
"_qpack_table::dynamic::table::DynamicTable::untrack_block::<#f1ee30144fd2ee58>":
	sub	sp, sp, #224
	movi.2d	v0, #0000000000000000
	stp	x20, x19, [sp, #192]
	mov	x20, x1
	mov	x19, x0
	mov	x0, sp
	add	x1, x1, #128
	stp	x24, x23, [sp, #160]
	stp	x22, x21, [sp, #176]
	mov	x22, x2
	stp	x29, x30, [sp, #208]
	add	x29, sp, #208
	stp	q0, q0, [sp]
	bl	"_qpack_table::dynamic::open_blocks::oldest_entry"
	ldrb	w8, [sp]
	cmp	w8, #1
	b.ne	Lh3q_BB24_12
	ldurb	w8, [x20, #128]
	cmp	w8, #1
	b.ne	Lh3q_BB24_12
	mov	x21, x20
	mov	w8, #15
	mov	x11, xzr
	ldr	x0, [x21, #136]!
	mov	x12, xzr
	ldp	x13, x14, [sp, #8]
	ldrh	w9, [x0, #2]
	mov	x17, x0
	sub	x8, x8, x9
	neg	x10, x9
	mov	x15, x8
	mov	x16, x0
	ldrh	w0, [x0]
	cbz	x0, Lh3q_BB24_9
Lh3q_BB24_3:
	mov	x23, xzr
	add	x1, x16, #16
Lh3q_BB24_4:
	ldur	x2, [x1, #-8]
	cmp	x13, x2
	cset	w2, lo
	b.ne	Lh3q_BB24_6
	ldr	x2, [x1]
	cmp	x14, x2
	cset	w2, lo
	b.eq	Lh3q_BB24_13
Lh3q_BB24_6:
	tbnz	w2, #0, Lh3q_BB24_10
	add	x23, x23, #1
	add	x1, x1, #16
	cmp	x0, x23
	b.ne	Lh3q_BB24_4
	mov	x11, x0
	ldrh	w17, [x16, #2]
	cbnz	w17, Lh3q_BB24_11
	b	Lh3q_BB24_12
Lh3q_BB24_9:
	mov	x11, xzr
	ldrh	w17, [x16, #2]
	cbnz	w17, Lh3q_BB24_11
	b	Lh3q_BB24_12
Lh3q_BB24_10:
	mov	x11, x23
	ldrh	w17, [x16, #2]
	cbz	w17, Lh3q_BB24_12
Lh3q_BB24_11:
	add	x17, x16, x11, lsl #3
	add	x12, x11, x12, lsl #4
	add	x15, x15, #1
	add	x10, x10, #1
	ldr	x0, [x17, #608]
	mov	x17, x16
	mov	x16, x0
	ldrh	w0, [x0]
	cbnz	x0, Lh3q_BB24_3
	b	Lh3q_BB24_9
Lh3q_BB24_12:
	mov	w8, #1
	mov	w9, #6
	strb	w8, [x19]
	stp	x9, x22, [x19, #8]
	ldp	x29, x30, [sp, #208]
	ldp	x20, x19, [sp, #192]
	ldp	x22, x21, [sp, #176]
	ldp	x24, x23, [sp, #160]
	add	sp, sp, #224
	ret
Lh3q_BB24_13:
	ldr	x14, [x20, #144]
	add	x13, x15, #1
	add	x12, x23, x12, lsl #4
	cmp	x13, #16
	sub	x14, x14, #1
	str	x14, [x20, #144]
	b.ne	Lh3q_BB24_16
	add	x10, x17, x11, lsl #3
	cmp	w9, #0
	add	x10, x10, #608
	csel	x22, x21, x10, eq
	ldr	x10, [x22]
	ldrh	w11, [x10]
	cmp	x11, #8
	b.lo	Lh3q_BB24_20
	ldrh	w12, [x10, #2]
	add	x8, x10, #8
	add	x9, x10, #248
	stp	x8, x11, [sp, #32]
	mov	w8, #15
	add	x0, sp, #32
	cmp	w12, #0
	stp	x8, x9, [sp, #48]
	add	x9, x10, #608
	stp	x11, x8, [sp, #64]
	csinc	x8, xzr, x11, eq
	mov	w11, #16
	stp	x9, x8, [sp, #80]
	csel	x9, xzr, x11, eq
	and	x1, x23, #0xf
	stp	x9, x10, [sp, #96]
	add	x21, sp, #32
	stp	xzr, xzr, [x29, #-96]
	stur	xzr, [x29, #-80]
	bl	"_std_alloc::vec::Vec::remove::<#89b048af38b1c68a>"
	sub	x0, x29, #96
	add	x1, x21, #24
	and	x2, x23, #0xf
	bl	"_std_alloc::vec::Vec::remove::<#59d4bea1ca342376>"
	ldr	x8, [sp, #40]
	ldr	x9, [sp, #104]
	strh	w8, [x9]
	str	x9, [x22]
	ldp	x9, x8, [x29, #-88]
	b	Lh3q_BB24_27
Lh3q_BB24_16:
	subs	x3, x13, x8
	stp	xzr, xzr, [x29, #-64]
	b.ls	Lh3q_BB24_19
	sub	x9, x29, #64
	add	x9, x9, #15
Lh3q_BB24_18:
	add	x11, x10, #15
	and	w13, w12, #0xf
	lsr	x12, x12, #4
	cmp	x8, x11
	strb	w13, [x9, x10]
	sub	x10, x10, #1
	b.lo	Lh3q_BB24_18
Lh3q_BB24_19:
	sub	x9, x29, #64
	add	x0, sp, #32
	add	x2, x9, x8
	mov	x1, x21
	bl	"_std_collections::btree::node::Node::take_at::<#eb074a7ac6e62146>"
	ldr	x0, [x21]
	ldrh	w8, [x0]
	cbnz	w8, Lh3q_BB24_26
	b	Lh3q_BB24_24
Lh3q_BB24_20:
	cmp	x8, #15
	stp	xzr, xzr, [x29, #-64]
	b.hi	Lh3q_BB24_23
	mov	w10, #15
Lh3q_BB24_22:
	and	w11, w12, #0xf
	sub	x13, x29, #64
	lsr	x12, x12, #4
	cmp	x8, x10
	strb	w11, [x13, x10]
	sub	x10, x10, #1
	b.lo	Lh3q_BB24_22
Lh3q_BB24_23:
	sub	x10, x29, #64
	add	x0, sp, #32
	add	x3, x9, #1
	add	x2, x10, x8
	mov	x1, x21
	bl	"_std_collections::btree::node::Node::take_at::<#eb074a7ac6e62146>"
	ldr	x0, [x21]
	ldrh	w8, [x0]
	cbnz	w8, Lh3q_BB24_26
Lh3q_BB24_24:
	ldrh	w8, [x0, #2]
	cbz	w8, Lh3q_BB24_26
	ldr	x22, [x0, #608]
	bl	_rattle_dealloc
	str	x22, [x21]
Lh3q_BB24_26:
	ldr	q0, [sp, #48]
	ldr	x8, [sp, #64]
	stur	q0, [x29, #-96]
	ldur	x9, [x29, #-88]
	stur	x8, [x29, #-80]
Lh3q_BB24_27:
	ldur	x0, [x29, #-96]
	cbz	x9, Lh3q_BB24_36
	ldr	x10, [x20, #48]
	mov	x11, x0
	b	Lh3q_BB24_32
Lh3q_BB24_29:
	add	x12, x14, x15
	mov	w14, #48
	madd	x12, x12, x14, x13
Lh3q_BB24_30:
	ldr	x13, [x12, #40]
	sub	x13, x13, #1
	str	x13, [x12, #40]
Lh3q_BB24_31:
	subs	x9, x9, #1
	b.eq	Lh3q_BB24_36
Lh3q_BB24_32:
	ldr	x12, [x11], #8
	subs	x12, x12, x10
	b.ls	Lh3q_BB24_31
	cmp	x12, #0
	ldr	x13, [x20, #8]
	cset	w14, ne
	sub	x12, x12, x14
	subs	x14, x12, x13
	b.hs	Lh3q_BB24_31
	ldr	x15, [x20, #32]
	sub	x16, x13, x15
	ldr	x13, [x20]
	cmp	x12, x16
	b.hs	Lh3q_BB24_29
	ldr	x14, [x20, #24]
	mov	w15, #48
	madd	x13, x14, x15, x13
	madd	x12, x12, x15, x13
	b	Lh3q_BB24_30
Lh3q_BB24_36:
	cbz	x8, Lh3q_BB24_38
	bl	_rattle_dealloc
Lh3q_BB24_38:
	strb	wzr, [x19]
	stp	xzr, xzr, [x19, #8]
	ldp	x29, x30, [sp, #208]
	ldp	x20, x19, [sp, #192]
	ldp	x22, x21, [sp, #176]
	ldp	x24, x23, [sp, #160]
	add	sp, sp, #224
	ret

	.p2align	2
"_std_collections::btree::node::Node::take_at::<#eb074a7ac6e62146>":
	sub	sp, sp, #272
	stp	x22, x21, [sp, #224]
	ldrb	w21, [x2], #1
	ldr	x8, [x1]
	stp	x20, x19, [sp, #240]
	mov	x20, x1
	subs	x3, x3, #1
	mov	x19, x0
	stp	x28, x27, [sp, #192]
	stp	x24, x23, [sp, #208]
	stp	x29, x30, [sp, #256]
	add	x29, sp, #256
	b.ne	Lh3q_BB25_5
	ldrh	w9, [x8, #2]
	cbz	w9, Lh3q_BB25_8
	lsl	x24, x21, #3
	add	x0, sp, #80
	add	x8, x8, x24
	add	x1, x8, #608
	bl	"_std_collections::btree::node::Node::pop_last::<#eb074a7ac6e62146>"
	ldr	x8, [x20]
	mov	w9, #24
	ldr	x11, [sp, #112]
	umaddl	x9, w21, w9, x8
	ldp	q0, q1, [sp, #80]
	add	x10, x8, x21, lsl #4
	ldp	x22, x23, [x10, #8]
	stur	q0, [x10, #8]
	ldur	q0, [x9, #248]
	stur	q1, [x9, #248]
	ldr	x10, [x9, #264]
	str	x11, [x9, #264]
	add	x9, x8, x24
	str	x8, [x20]
	ldr	x8, [x9, #608]
	stur	q0, [x29, #-96]
	stur	x10, [x29, #-80]
	ldrh	w8, [x8]
	cmp	w8, #6
	b.hi	Lh3q_BB25_14
	cbz	w21, Lh3q_BB25_12
	sub	x1, x21, #1
	mov	x0, x20
	b	Lh3q_BB25_13
Lh3q_BB25_5:
	lsl	x22, x21, #3
	mov	x0, sp
	add	x8, x8, x22
	add	x1, x8, #608
	bl	"_std_collections::btree::node::Node::take_at::<#eb074a7ac6e62146>"
	ldr	x8, [x20]
	add	x8, x8, x22
	ldr	x8, [x8, #608]
	ldrh	w8, [x8]
	cmp	w8, #6
	b.hi	Lh3q_BB25_11
	cbz	w21, Lh3q_BB25_9
	sub	x1, x21, #1
	mov	x0, x20
	b	Lh3q_BB25_10
Lh3q_BB25_8:
	mov	x10, x8
	mov	w9, #15
	add	x11, x8, #248
	ldrh	w12, [x10], #8
	add	x0, sp, #80
	mov	x1, x21
	stp	x9, x11, [sp, #96]
	add	x24, sp, #80
	stp	x10, x12, [sp, #80]
	add	x10, x8, #608
	stp	x12, x9, [sp, #112]
	stp	x10, xzr, [sp, #128]
	stp	xzr, x8, [sp, #144]
	stp	xzr, xzr, [x29, #-96]
	stur	xzr, [x29, #-80]
	bl	"_std_alloc::vec::Vec::remove::<#89b048af38b1c68a>"
	mov	x22, x0
	mov	x23, x1
	sub	x0, x29, #96
	add	x1, x24, #24
	mov	x2, x21
	bl	"_std_alloc::vec::Vec::remove::<#59d4bea1ca342376>"
	ldr	x8, [sp, #88]
	ldr	x9, [sp, #152]
	ldur	x10, [x29, #-80]
	ldur	q0, [x29, #-96]
	strh	w8, [x9]
	str	x9, [x20]
	str	x10, [sp, #64]
	str	q0, [sp, #48]
	stp	x22, x23, [x19]
	str	q0, [x19, #16]
	str	x10, [x19, #32]
	b	Lh3q_BB25_16
Lh3q_BB25_9:
	mov	x0, x20
	mov	x1, xzr
Lh3q_BB25_10:
	bl	"_std_collections::btree::node::Node::balance::<#eb074a7ac6e62146>"
Lh3q_BB25_11:
	ldp	q0, q1, [sp]
	ldr	x8, [sp, #32]
	stp	q0, q1, [x19]
	b	Lh3q_BB25_15
Lh3q_BB25_12:
	mov	x0, x20
	mov	x1, xzr
Lh3q_BB25_13:
	bl	"_std_collections::btree::node::Node::balance::<#eb074a7ac6e62146>"
Lh3q_BB25_14:
	ldur	q0, [x29, #-96]
	ldur	x8, [x29, #-80]
	stp	x22, x23, [x19]
	str	q0, [sp, #48]
	str	x8, [sp, #64]
	str	q0, [x19, #16]
Lh3q_BB25_15:
	str	x8, [x19, #32]
Lh3q_BB25_16:
	ldp	x29, x30, [sp, #256]
	ldp	x20, x19, [sp, #240]
	ldp	x22, x21, [sp, #224]
	ldp	x24, x23, [sp, #208]
	ldp	x28, x27, [sp, #192]
	add	sp, sp, #272
	ret

	.p2align	2
"_std_collections::btree::node::Node::pop_last::<#eb074a7ac6e62146>":
	sub	sp, sp, #240
	ldr	x8, [x1]
	stp	x22, x21, [sp, #192]
	stp	x20, x19, [sp, #208]
	mov	x20, x1
	mov	x19, x0
	ldrh	w9, [x8, #2]
	ldrh	w21, [x8]
	stp	x24, x23, [sp, #176]
	stp	x29, x30, [sp, #224]
	add	x29, sp, #224
	cbz	w9, Lh3q_BB26_4
	lsl	x22, x21, #3
	mov	x0, sp
	add	x8, x8, x22
	add	x1, x8, #608
	bl	"_std_collections::btree::node::Node::pop_last::<#eb074a7ac6e62146>"
	ldr	x8, [x20]
	add	x8, x8, x22
	ldr	x8, [x8, #608]
	ldrh	w8, [x8]
	cmp	w8, #6
	b.hi	Lh3q_BB26_7
	cbz	w21, Lh3q_BB26_5
	sub	x1, x21, #1
	mov	x0, x20
	b	Lh3q_BB26_6
Lh3q_BB26_4:
	add	x9, x8, #8
	add	x10, x8, #248
	add	x0, sp, #72
	stp	x9, x21, [sp, #72]
	mov	w9, #15
	add	x24, sp, #72
	stp	x21, x9, [sp, #104]
	sub	x21, x21, #1
	stp	x9, x10, [sp, #88]
	add	x10, x8, #608
	mov	x1, x21
	stp	x10, xzr, [sp, #120]
	stp	xzr, x8, [sp, #136]
	stp	xzr, xzr, [x29, #-72]
	stur	xzr, [x29, #-56]
	bl	"_std_alloc::vec::Vec::remove::<#89b048af38b1c68a>"
	mov	x22, x0
	mov	x23, x1
	sub	x0, x29, #72
	add	x1, x24, #24
	mov	x2, x21
	bl	"_std_alloc::vec::Vec::remove::<#59d4bea1ca342376>"
	ldr	x8, [sp, #80]
	ldr	x9, [sp, #144]
	ldur	x10, [x29, #-56]
	ldur	q0, [x29, #-72]
	strh	w8, [x9]
	str	x9, [x20]
	str	x10, [sp, #64]
	str	q0, [sp, #48]
	stp	x22, x23, [x19]
	str	q0, [x19, #16]
	str	x10, [x19, #32]
	ldp	x29, x30, [sp, #224]
	ldp	x20, x19, [sp, #208]
	ldp	x22, x21, [sp, #192]
	ldp	x24, x23, [sp, #176]
	add	sp, sp, #240
	ret
Lh3q_BB26_5:
	mov	x0, x20
	mov	x1, xzr
Lh3q_BB26_6:
	bl	"_std_collections::btree::node::Node::balance::<#eb074a7ac6e62146>"
Lh3q_BB26_7:
	ldp	q0, q1, [sp]
	ldr	x8, [sp, #32]
	str	x8, [x19, #32]
	stp	q0, q1, [x19]
	ldp	x29, x30, [sp, #224]
	ldp	x20, x19, [sp, #208]
	ldp	x22, x21, [sp, #192]
	ldp	x24, x23, [sp, #176]
	add	sp, sp, #240
	ret

	.p2align	2
"_std_collections::btree::node::Node::balance::<#eb074a7ac6e62146>":
	sub	sp, sp, #304
	stp	x22, x21, [sp, #256]
	ldr	x21, [x0]
	stp	x24, x23, [sp, #240]
	lsl	x24, x1, #3
	add	x9, x21, #608
	ldrh	w22, [x21]
	stp	x20, x19, [sp, #272]
	add	x23, x9, x24
	mov	x20, x1
	stp	x28, x27, [sp, #208]
	ldp	x8, x12, [x23]
	stp	x26, x25, [sp, #224]
	stp	x29, x30, [sp, #288]
	add	x29, sp, #288
	ldrh	w14, [x8]
	ldrh	w13, [x12]
	add	x10, x13, x14
	cmp	x10, #15
	b.hs	Lh3q_BB27_4
	ldrh	w11, [x21, #2]
	add	x8, x21, #8
	add	x10, x21, #248
	stp	x8, x22, [sp, #64]
	mov	w8, #15
	mov	x1, x20
	cmp	w11, #0
	stp	x8, x10, [sp, #80]
	mov	w10, #16
	stp	x22, x8, [sp, #96]
	csinc	x8, xzr, x22, eq
	add	x19, sp, #64
	str	x0, [sp, #16]
	add	x0, sp, #64
	stp	x9, x8, [sp, #112]
	csel	x9, xzr, x10, eq
	stp	x9, x21, [sp, #128]
	stp	xzr, xzr, [x29, #-112]
	stur	xzr, [x29, #-96]
	bl	"_std_alloc::vec::Vec::remove::<#89b048af38b1c68a>"
	mov	x22, x0
	mov	x23, x1
	sub	x0, x29, #112
	add	x1, x19, #24
	mov	x2, x20
	bl	"_std_alloc::vec::Vec::remove::<#59d4bea1ca342376>"
	add	x0, x19, #48
	add	x1, x20, #1
	bl	"_std_alloc::vec::Vec::remove::<#4cd6898c41987f4d>"
	ldr	x8, [sp, #112]
	ldrh	w26, [x0]
	mov	x21, x0
	ldrh	w19, [x0, #2]
	mov	w11, #24
	ldur	q0, [x29, #-112]
	ldr	x20, [x8, x20, lsl #3]
	str	x8, [sp, #8]
	add	x8, x0, #8
	lsl	x2, x26, #4
	ldrh	w28, [x20]
	add	x9, x20, #8
	add	x25, x20, #248
	add	x27, x28, #1
	add	x10, x9, x28, lsl #4
	umaddl	x11, w28, w11, x25
	add	x0, x9, x27, lsl #4
	ldur	x9, [x29, #-96]
	stp	x22, x23, [x10]
	ldrh	w22, [x20, #2]
	add	x23, x21, #248
	sub	x10, x0, x8
	str	q0, [x11]
	cmp	x10, x2
	str	x9, [x11, #16]
	b.hs	Lh3q_BB27_21
	mov	x9, x26
Lh3q_BB27_3:
	ldr	q0, [x8], #16
	subs	x9, x9, #1
	str	q0, [x0], #16
	b.ne	Lh3q_BB27_3
	b	Lh3q_BB27_22
Lh3q_BB27_4:
	cmp	w14, w13
	b.hs	Lh3q_BB27_26
	ldrh	w24, [x12, #2]
	add	x9, x12, #248
	add	x10, x12, #608
	stp	x9, x13, [sp, #88]
	mov	w9, #15
	mov	w14, #16
	cmp	w24, #0
	stp	x9, x10, [sp, #104]
	ldr	x26, [x12, #16]
	csinc	x9, xzr, x13, eq
	csel	x10, xzr, x14, eq
	mov	x11, xzr
	stp	x9, x10, [sp, #120]
	mov	x9, x12
	sub	x10, x13, #1
	ldr	x25, [x9, #8]!
	mov	x8, xzr
	cmp	w13, #130
	mov	x14, x9
	mov	x13, x10
	stp	xzr, xzr, [sp, #152]
	stp	x12, xzr, [sp, #136]
	stp	xzr, xzr, [sp, #40]
	str	xzr, [sp, #32]
	stp	xzr, xzr, [x29, #-112]
	stur	xzr, [x29, #-96]
	b.lo	Lh3q_BB27_11
	mov	x8, xzr
	add	x11, x12, #24
Lh3q_BB27_7:
	mov	w12, #128
	mov	x13, x11
Lh3q_BB27_8:
	ldr	q0, [x13]
	subs	x12, x12, #1
	stur	q0, [x13, #-16]
	add	x13, x13, #16
	b.ne	Lh3q_BB27_8
	add	x8, x8, #128
	add	x11, x11, #2048
	sub	x13, x10, x8
	cmp	x13, #128
	b.hi	Lh3q_BB27_7
	lsl	x11, x8, #4
	add	x14, x9, x11
Lh3q_BB27_11:
	mov	x19, x0
	cmp	x10, x8
	add	x8, sp, #64
	b.eq	Lh3q_BB27_14
	add	x12, x14, #16
	add	x11, x9, x11
Lh3q_BB27_13:
	ldr	q0, [x12], #16
	subs	x13, x13, #1
	str	q0, [x11], #16
	b.ne	Lh3q_BB27_13
Lh3q_BB27_14:
	stp	x9, x10, [sp, #64]
	mov	w9, #15
	sub	x0, x29, #112
	add	x1, x8, #24
	mov	x2, xzr
	add	x28, x21, #248
	add	x27, x21, #8
	str	x9, [sp, #80]
	bl	"_std_alloc::vec::Vec::remove::<#59d4bea1ca342376>"
	cbz	w24, Lh3q_BB27_38
	ldp	x9, x8, [sp, #112]
	mov	x17, x19
	sub	x13, x8, #1
	ldr	x8, [x9]
	cmp	x13, #257
	b.lo	Lh3q_BB27_47
	mov	x14, xzr
	add	x11, x9, #16
Lh3q_BB27_17:
	mov	w10, #256
	mov	x12, x11
Lh3q_BB27_18:
	ldur	q0, [x12, #-8]
	ldur	q1, [x12, #8]
	subs	x10, x10, #4
	stp	q0, q1, [x12, #-16]
	add	x12, x12, #32
	b.ne	Lh3q_BB27_18
	add	x14, x14, #256
	add	x11, x11, #2048
	sub	x10, x13, x14
	cmp	x10, #256
	b.hi	Lh3q_BB27_17
	lsl	x11, x14, #3
	add	x12, x9, x11
	cmp	x13, x14
	b.ne	Lh3q_BB27_48
	b	Lh3q_BB27_53
Lh3q_BB27_21:
	add	x1, x21, #8
	bl	_memmove
Lh3q_BB27_22:
	mov	w8, #24
	umaddl	x0, w27, w8, x25
	add	x8, x26, x26, lsl #1
	lsl	x2, x8, #3
	sub	x8, x0, x23
	cmp	x8, x2
	b.hs	Lh3q_BB27_28
	mov	x8, x26
Lh3q_BB27_24:
	ldr	x9, [x23, #16]
	ldr	q0, [x23], #24
	subs	x8, x8, #1
	str	x9, [x0, #16]
	str	q0, [x0], #24
	b.ne	Lh3q_BB27_24
	cbnz	w22, Lh3q_BB27_29
	b	Lh3q_BB27_37
Lh3q_BB27_26:
	sub	x10, x14, #1
	ldrh	w24, [x8, #2]
	mov	x28, x0
	add	x9, x8, x10, lsl #4
	add	x11, x21, #248
	ldur	q0, [x9, #8]
	add	x9, x21, #8
	cbz	w24, Lh3q_BB27_39
	add	x12, x8, x14, lsl #3
	ldr	x19, [x12, #608]
	b	Lh3q_BB27_40
Lh3q_BB27_28:
	add	x1, x21, #248
	bl	_memmove
	cbz	w22, Lh3q_BB27_37
Lh3q_BB27_29:
	add	x8, x20, #608
	lsl	x9, x26, #3
	cmp	w19, #0
	add	x0, x8, x27, lsl #3
	add	x8, x21, #608
	add	x9, x9, #8
	csel	x2, xzr, x9, eq
	sub	x8, x0, x8
	cmp	x8, x2
	b.hs	Lh3q_BB27_36
	cbz	w19, Lh3q_BB27_37
	cmp	w26, #7
	b.lo	Lh3q_BB27_33
	lsl	x8, x28, #3
	add	x11, x8, x20
	sub	x8, x11, x21
	add	x8, x8, #8
	cmp	x8, #32
	b.hs	Lh3q_BB27_57
Lh3q_BB27_33:
	mov	x8, xzr
Lh3q_BB27_34:
	lsl	x9, x8, #3
	sub	x8, x26, x8
	add	x8, x8, #1
	add	x10, x9, x28, lsl #3
	add	x9, x9, x21
	add	x9, x9, #608
	add	x10, x10, x20
	add	x10, x10, #616
Lh3q_BB27_35:
	ldr	x11, [x9], #8
	subs	x8, x8, #1
	str	x11, [x10], #8
	b.ne	Lh3q_BB27_35
	b	Lh3q_BB27_37
Lh3q_BB27_36:
	add	x1, x21, #608
	bl	_memmove
Lh3q_BB27_37:
	mov	x0, x21
	bl	_rattle_dealloc
	add	w8, w26, w27
	ldr	x9, [sp, #72]
	ldr	x10, [sp, #136]
	strh	w8, [x20]
	ldr	x8, [sp, #8]
	str	x20, [x8, x24]
	ldr	x8, [sp, #16]
	strh	w9, [x10]
	str	x10, [x8]
	b	Lh3q_BB27_56
Lh3q_BB27_38:
	mov	x8, xzr
	mov	x17, x19
	b	Lh3q_BB27_53
Lh3q_BB27_39:
	mov	x19, xzr
Lh3q_BB27_40:
	mov	w12, #24
	strh	w10, [x8]
	smaddl	x13, w10, w12, x8
	lsl	x10, x20, #4
	madd	x11, x20, x12, x11
	ldur	q1, [x13, #248]
	ldr	x12, [x13, #264]
	str	x8, [x23]
	ldr	q2, [x9, x10]
	str	q0, [x9, x10]
	stur	q1, [x29, #-112]
	ldr	q0, [x11]
	str	q1, [x11]
	ldr	x8, [x11, #16]
	str	x12, [x11, #16]
	ldr	x20, [x23, #8]
	stur	x12, [x29, #-96]
	str	q0, [sp, #144]
	ldrh	w27, [x20]
	ldrh	w26, [x20, #2]
	str	x8, [sp, #160]
	add	x25, x27, #1
	cbz	x27, Lh3q_BB27_42
	lsl	x2, x27, #4
	add	x0, x20, #24
	add	x1, x20, #8
	str	q2, [sp, #16]
	bl	_memmove
	add	x8, x27, x27, lsl #1
	ldr	q0, [sp, #144]
	ldr	x9, [sp, #160]
	add	x0, x20, #272
	add	x1, x20, #248
	lsl	x2, x8, #3
	str	q0, [sp, #64]
	str	x9, [sp, #80]
	bl	_memmove
	ldr	q2, [sp, #16]
	ldr	q0, [sp, #64]
	ldr	x8, [sp, #80]
	stur	q2, [x20, #8]
	stur	q0, [x20, #248]
	str	x8, [x20, #264]
	cbnz	w24, Lh3q_BB27_43
	b	Lh3q_BB27_46
Lh3q_BB27_42:
	ldr	q0, [sp, #144]
	ldr	x8, [sp, #160]
	str	q0, [sp, #64]
	str	x8, [sp, #80]
	ldr	q0, [sp, #64]
	stur	q2, [x20, #8]
	stur	q0, [x20, #248]
	str	x8, [x20, #264]
	cbz	w24, Lh3q_BB27_46
Lh3q_BB27_43:
	add	x24, x20, #608
	cbz	w26, Lh3q_BB27_45
	lsl	x2, x25, #3
	add	x0, x20, #616
	add	x1, x20, #608
	bl	_memmove
Lh3q_BB27_45:
	str	x19, [x24]
Lh3q_BB27_46:
	strh	w25, [x20]
	str	x20, [x23, #8]
	strh	w22, [x21]
	str	x21, [x28]
	b	Lh3q_BB27_56
Lh3q_BB27_47:
	mov	x11, xzr
	mov	x12, x9
	mov	x10, x13
	cmp	x13, xzr
	b.eq	Lh3q_BB27_53
Lh3q_BB27_48:
	cmp	x10, #6
	b.lo	Lh3q_BB27_50
	add	x15, x11, x9
	sub	x13, x15, x12
	sub	x13, x13, #8
	cmp	x13, #32
	b.hs	Lh3q_BB27_60
Lh3q_BB27_50:
	mov	x13, xzr
Lh3q_BB27_51:
	lsl	x14, x13, #3
	add	x11, x9, x11
	sub	x9, x10, x13
	add	x12, x14, x12
	add	x11, x11, x14
	add	x10, x12, #8
Lh3q_BB27_52:
	ldr	x12, [x10], #8
	subs	x9, x9, #1
	str	x12, [x11], #8
	b.ne	Lh3q_BB27_52
Lh3q_BB27_53:
	ldr	x9, [sp, #72]
	ldr	x10, [sp, #136]
	mov	w11, #24
	ldur	q0, [x29, #-112]
	add	x12, x27, x20, lsl #4
	strh	w9, [x10]
	ldur	x9, [x29, #-96]
	str	x10, [x23, #8]
	madd	x10, x20, x11, x28
	str	q0, [sp, #144]
	ldr	q0, [x12]
	ldr	q1, [sp, #144]
	stp	x25, x26, [x12]
	str	x9, [sp, #160]
	ldr	q2, [x10]
	str	q1, [x10]
	ldr	x12, [x10, #16]
	str	x9, [x10, #16]
	ldr	x9, [x23]
	str	q2, [sp, #32]
	ldr	q1, [sp, #32]
	str	x12, [sp, #48]
	ldrh	w10, [x9]
	umaddl	x13, w10, w11, x9
	add	x11, x9, x10, lsl #4
	add	x10, x10, #1
	stur	q0, [x11, #8]
	ldrh	w11, [x9, #2]
	stur	q1, [x13, #248]
	str	x12, [x13, #264]
	cbz	w24, Lh3q_BB27_55
	lsl	x12, x10, #3
	cmp	w11, #0
	csel	x11, xzr, x12, eq
	add	x11, x9, x11
	str	x8, [x11, #608]
Lh3q_BB27_55:
	strh	w10, [x9]
	str	x9, [x23]
	strh	w22, [x21]
	str	x21, [x17]
Lh3q_BB27_56:
	ldp	x29, x30, [sp, #288]
	ldp	x20, x19, [sp, #272]
	ldp	x22, x21, [sp, #256]
	ldp	x24, x23, [sp, #240]
	ldp	x26, x25, [sp, #224]
	ldp	x28, x27, [sp, #208]
	add	sp, sp, #304
	ret
Lh3q_BB27_57:
	add	x9, x26, #1
	add	x10, x21, #624
	add	x11, x11, #632
	and	x8, x9, #0x1fffc
	and	x12, x9, #0x1fffc
Lh3q_BB27_58:
	ldp	q0, q1, [x10, #-16]
	subs	x12, x12, #4
	add	x10, x10, #32
	stp	q0, q1, [x11, #-16]
	add	x11, x11, #32
	b.ne	Lh3q_BB27_58
	cmp	x9, x8
	b.eq	Lh3q_BB27_37
	b	Lh3q_BB27_34
Lh3q_BB27_60:
	and	x13, x10, #0x1fc
	add	x14, x12, #24
	add	x15, x15, #16
	and	x16, x10, #0x1fc
Lh3q_BB27_61:
	ldp	q0, q1, [x14, #-16]
	subs	x16, x16, #4
	add	x14, x14, #32
	stp	q0, q1, [x15, #-16]
	add	x15, x15, #32
	b.ne	Lh3q_BB27_61
	cmp	x10, x13
	b.eq	Lh3q_BB27_53
	b	Lh3q_BB27_51

	.section	__TEXT,__literal16,16byte_literals
	.p2align	4, 0x0
lh3q_CPI28_0:
	.quad	1
	.quad	0
	.section	__TEXT,__text,regular,pure_instructions
	.p2align	2
"_std_alloc::vec::lodged::Vec+T+Lodged::insert_reserved::<#d4cc4489b8d17ff3>":
	ldr	q0, [x2]
	ldr	x9, [x2, #16]
	str	q0, [sp, #-32]!
	str	x9, [sp, #16]
	ldp	x8, x9, [x0]
	ldur	q0, [x0, #8]
	cmn	x1, #1
	stp	xzr, xzr, [x0, #8]
	b.eq	Lh3q_BB28_4
	cmp	x9, x1
	b.eq	Lh3q_BB28_17
	mov	w10, #24
	madd	x10, x9, x10, x8
	sub	x9, x9, x1
Lh3q_BB28_3:
	ldur	q1, [x10, #-24]
	ldur	x11, [x10, #-8]
	sub	x12, x10, #24
	subs	x9, x9, #1
	str	q1, [x10]
	str	x11, [x10, #16]
	mov	x10, x12
	b.ne	Lh3q_BB28_3
	b	Lh3q_BB28_17
Lh3q_BB28_4:
	add	x10, x9, #1
	cmp	x10, #86
	b.lo	Lh3q_BB28_11
	mov	x13, xzr
	add	x12, x8, #1992
	b	Lh3q_BB28_8
Lh3q_BB28_6:
	mov	w13, #24
	madd	x13, x11, x13, x8
	sub	x14, x13, #24
	add	x16, x13, #264
	ldr	q1, [x14]
	ldr	x15, [x14, #16]
	str	q1, [x13]
	stur	q1, [x13, #24]
	str	q1, [x13, #48]
	stur	q1, [x13, #72]
	str	q1, [x13, #96]
	stur	q1, [x13, #120]
	str	q1, [x13, #144]
	stur	q1, [x13, #168]
	ldr	q1, [x14]
	str	x15, [x13, #16]
	str	x15, [x13, #40]
	str	x15, [x13, #64]
	str	x15, [x13, #88]
	str	x15, [x13, #112]
	str	x15, [x13, #136]
	str	x15, [x13, #160]
	str	x15, [x13, #184]
	ldr	x15, [x14, #16]
	str	q1, [x16]
	add	x16, x13, #312
	str	q1, [x16]
	add	x16, x13, #360
	str	x15, [x13, #208]
	str	q1, [x13, #192]
	str	x15, [x13, #232]
	stur	q1, [x13, #216]
	str	x15, [x13, #256]
	str	q1, [x13, #240]
	str	x15, [x13, #280]
	str	x15, [x13, #304]
	str	q1, [x13, #288]
	str	x15, [x13, #328]
	str	x15, [x13, #352]
	str	q1, [x13, #336]
	str	x15, [x13, #376]
	ldr	x15, [x14, #16]
	str	q1, [x16]
	ldr	q1, [x14]
	add	x16, x13, #408
	str	x15, [x13, #400]
	ldr	x15, [x14, #16]
	str	q1, [x13, #384]
	ldr	q1, [x14]
	str	x15, [x13, #424]
	ldr	x15, [x14, #16]
	str	q1, [x16]
	ldr	q1, [x14]
	add	x16, x13, #456
	str	x15, [x13, #448]
	ldr	x15, [x14, #16]
	str	q1, [x13, #432]
	ldr	q1, [x14]
	str	x15, [x13, #472]
	ldr	x15, [x14, #16]
	str	q1, [x16]
	ldr	q1, [x14]
	add	x16, x13, #504
	str	x15, [x13, #496]
	ldr	x15, [x14, #16]
	str	q1, [x13, #480]
	ldr	q1, [x14]
	str	x15, [x13, #520]
	ldr	x15, [x14, #16]
	str	q1, [x16]
	ldr	q1, [x14]
	add	x16, x13, #552
	str	x15, [x13, #544]
	ldr	x15, [x14, #16]
	str	q1, [x13, #528]
	ldr	q1, [x14]
	str	x15, [x13, #568]
	ldr	x15, [x14, #16]
	str	q1, [x16]
	ldr	q1, [x14]
	add	x16, x13, #600
	str	x15, [x13, #592]
	ldr	x15, [x14, #16]
	str	q1, [x13, #576]
	ldr	q1, [x14]
	str	x15, [x13, #616]
	ldr	x15, [x14, #16]
	str	q1, [x16]
	ldr	q1, [x14]
	add	x16, x13, #648
	str	x15, [x13, #640]
	ldr	x15, [x14, #16]
	str	q1, [x13, #624]
	ldr	q1, [x14]
	str	x15, [x13, #664]
	ldr	x15, [x14, #16]
	str	q1, [x16]
	ldr	q1, [x14]
	add	x16, x13, #696
	str	x15, [x13, #688]
	ldr	x15, [x14, #16]
	str	q1, [x13, #672]
	ldr	q1, [x14]
	str	x15, [x13, #712]
	ldr	x15, [x14, #16]
	str	q1, [x16]
	ldr	q1, [x14]
	add	x16, x13, #744
	str	x15, [x13, #736]
	ldr	x15, [x14, #16]
	str	q1, [x13, #720]
	ldr	q1, [x14]
	str	x15, [x13, #760]
	ldr	x15, [x14, #16]
	str	q1, [x16]
	ldr	q1, [x14]
	add	x16, x13, #792
	str	x15, [x13, #784]
	ldr	x15, [x14, #16]
	str	q1, [x13, #768]
	ldr	q1, [x14]
	str	x15, [x13, #808]
	ldr	x15, [x14, #16]
	str	q1, [x16]
	ldr	q1, [x14]
	add	x16, x13, #840
	str	x15, [x13, #832]
	ldr	x15, [x14, #16]
	str	q1, [x13, #816]
	ldr	q1, [x14]
	str	x15, [x13, #856]
	ldr	x15, [x14, #16]
	str	q1, [x16]
	ldr	q1, [x14]
	add	x16, x13, #888
	str	x15, [x13, #880]
	ldr	x15, [x14, #16]
	str	q1, [x13, #864]
	ldr	q1, [x14]
	str	x15, [x13, #904]
	ldr	x15, [x14, #16]
	str	q1, [x16]
	ldr	q1, [x14]
	add	x16, x13, #936
	str	x15, [x13, #928]
	ldr	x15, [x14, #16]
	str	q1, [x13, #912]
	ldr	q1, [x14]
	str	x15, [x13, #952]
	ldr	x15, [x14, #16]
	str	q1, [x16]
	ldr	q1, [x14]
	add	x16, x13, #984
	str	x15, [x13, #976]
	ldr	x15, [x14, #16]
	str	q1, [x13, #960]
	ldr	q1, [x14]
	str	x15, [x13, #1000]
	ldr	x15, [x14, #16]
	str	q1, [x16]
	ldr	q1, [x14]
	add	x16, x13, #1032
	str	x15, [x13, #1024]
	ldr	x15, [x14, #16]
	str	q1, [x13, #1008]
	ldr	q1, [x14]
	str	x15, [x13, #1048]
	ldr	x15, [x14, #16]
	str	q1, [x16]
	ldr	q1, [x14]
	add	x16, x13, #1080
	str	x15, [x13, #1072]
	ldr	x15, [x14, #16]
	str	q1, [x13, #1056]
	ldr	q1, [x14]
	str	x15, [x13, #1096]
	ldr	x15, [x14, #16]
	str	q1, [x16]
	ldr	q1, [x14]
	add	x16, x13, #1128
	str	x15, [x13, #1120]
	ldr	x15, [x14, #16]
	str	q1, [x13, #1104]
	ldr	q1, [x14]
	str	x15, [x13, #1144]
	ldr	x15, [x14, #16]
	str	q1, [x16]
	ldr	q1, [x14]
	add	x16, x13, #1176
	str	x15, [x13, #1168]
	ldr	x15, [x14, #16]
	str	q1, [x13, #1152]
	ldr	q1, [x14]
	str	x15, [x13, #1192]
	ldr	x15, [x14, #16]
	str	q1, [x16]
	ldr	q1, [x14]
	add	x16, x13, #1224
	str	x15, [x13, #1216]
	ldr	x15, [x14, #16]
	str	q1, [x13, #1200]
	ldr	q1, [x14]
	str	x15, [x13, #1240]
	ldr	x15, [x14, #16]
	str	q1, [x16]
	ldr	q1, [x14]
	add	x16, x13, #1272
	str	x15, [x13, #1264]
	ldr	x15, [x14, #16]
	str	q1, [x13, #1248]
	ldr	q1, [x14]
	str	x15, [x13, #1288]
	ldr	x15, [x14, #16]
	str	q1, [x16]
	ldr	q1, [x14]
	add	x16, x13, #1320
	str	x15, [x13, #1312]
	ldr	x15, [x14, #16]
	str	q1, [x13, #1296]
	ldr	q1, [x14]
	str	x15, [x13, #1336]
	ldr	x15, [x14, #16]
	str	q1, [x16]
	ldr	q1, [x14]
	add	x16, x13, #1368
	str	x15, [x13, #1360]
	ldr	x15, [x14, #16]
	str	q1, [x13, #1344]
	ldr	q1, [x14]
	str	x15, [x13, #1384]
	ldr	x15, [x14, #16]
	str	q1, [x16]
	ldr	q1, [x14]
	add	x16, x13, #1416
	str	x15, [x13, #1408]
	ldr	x15, [x14, #16]
	str	q1, [x13, #1392]
	ldr	q1, [x14]
	str	x15, [x13, #1432]
	ldr	x15, [x14, #16]
	str	q1, [x16]
	ldr	q1, [x14]
	add	x16, x13, #1464
	str	x15, [x13, #1456]
	ldr	x15, [x14, #16]
	str	q1, [x13, #1440]
	ldr	q1, [x14]
	str	x15, [x13, #1480]
	ldr	x15, [x14, #16]
	str	q1, [x16]
	ldr	q1, [x14]
	add	x16, x13, #1512
	str	x15, [x13, #1504]
	ldr	x15, [x14, #16]
	str	q1, [x13, #1488]
	ldr	q1, [x14]
	str	x15, [x13, #1528]
	ldr	x15, [x14, #16]
	str	q1, [x16]
	ldr	q1, [x14]
	add	x16, x13, #1560
	str	x15, [x13, #1552]
	ldr	x15, [x14, #16]
	str	q1, [x13, #1536]
	ldr	q1, [x14]
	str	x15, [x13, #1576]
	ldr	x15, [x14, #16]
	str	q1, [x16]
	ldr	q1, [x14]
	add	x16, x13, #1608
	str	x15, [x13, #1600]
	ldr	x15, [x14, #16]
	str	q1, [x13, #1584]
	ldr	q1, [x14]
	str	x15, [x13, #1624]
	ldr	x15, [x14, #16]
	str	q1, [x16]
	ldr	q1, [x14]
	add	x16, x13, #1656
	str	x15, [x13, #1648]
	ldr	x15, [x14, #16]
	str	q1, [x13, #1632]
	ldr	q1, [x14]
	str	x15, [x13, #1672]
	ldr	x15, [x14, #16]
	str	q1, [x16]
	ldr	q1, [x14]
	add	x16, x13, #1704
	str	x15, [x13, #1696]
	ldr	x15, [x14, #16]
	str	q1, [x13, #1680]
	ldr	q1, [x14]
	str	x15, [x13, #1720]
	ldr	x15, [x14, #16]
	str	q1, [x16]
	ldr	q1, [x14]
	add	x16, x13, #1752
	str	x15, [x13, #1744]
	ldr	x15, [x14, #16]
	str	q1, [x13, #1728]
	ldr	q1, [x14]
	str	x15, [x13, #1768]
	ldr	x15, [x14, #16]
	str	q1, [x16]
	ldr	q1, [x14]
	add	x16, x13, #1800
	str	x15, [x13, #1792]
	ldr	x15, [x14, #16]
	str	q1, [x13, #1776]
	ldr	q1, [x14]
	str	x15, [x13, #1816]
	ldr	x15, [x14, #16]
	str	q1, [x16]
	ldr	q1, [x14]
	add	x16, x13, #1848
	str	x15, [x13, #1840]
	ldr	x15, [x14, #16]
	str	q1, [x13, #1824]
	ldr	q1, [x14]
	str	x15, [x13, #1864]
	ldr	x15, [x14, #16]
	str	q1, [x16]
	ldr	q1, [x14]
	add	x16, x13, #1896
	str	x15, [x13, #1888]
	ldr	x15, [x14, #16]
	str	q1, [x13, #1872]
	ldr	q1, [x14]
	str	x15, [x13, #1912]
	ldr	x15, [x14, #16]
	str	q1, [x16]
	ldr	q1, [x14]
	add	x16, x13, #1944
	str	x15, [x13, #1936]
	ldr	x15, [x14, #16]
	str	q1, [x13, #1920]
	ldr	q1, [x14]
	str	x15, [x13, #1960]
	ldr	x15, [x14, #16]
	str	q1, [x16]
	ldr	q1, [x14]
	add	x16, x13, #1992
	str	x15, [x13, #1984]
	ldr	x15, [x14, #16]
	str	q1, [x13, #1968]
	ldr	q1, [x14]
	str	x15, [x13, #2008]
	ldr	x15, [x14, #16]
	str	q1, [x16]
	ldr	q1, [x14]
	str	x15, [x13, #2032]
	str	q1, [x13, #2016]
Lh3q_BB28_7:
	add	x13, x11, #85
	add	x12, x12, #2040
	sub	x14, x10, x13
	cmp	x14, #85
	b.ls	Lh3q_BB28_14
Lh3q_BB28_8:
	mov	x11, x13
	cbz	x13, Lh3q_BB28_6
	mov	w13, #85
	mov	x14, x12
Lh3q_BB28_10:
	ldr	q1, [x14]
	ldr	x15, [x14, #16]
	sub	x13, x13, #1
	stur	q1, [x14, #24]
	str	x15, [x14, #40]
	sub	x14, x14, #24
	cbnz	x13, Lh3q_BB28_10
	b	Lh3q_BB28_7
Lh3q_BB28_11:
	cbz	x10, Lh3q_BB28_17
	add	x9, x1, x1, lsl #1
	mov	x11, x8
	lsl	x9, x9, #3
Lh3q_BB28_13:
	add	x12, x11, x9
	subs	x10, x10, #1
	ldr	x13, [x12, #16]
	ldr	q1, [x12]
	str	x13, [x11, #16]
	str	q1, [x11], #24
	b.ne	Lh3q_BB28_13
	b	Lh3q_BB28_17
Lh3q_BB28_14:
	cmp	x10, x13
	b.eq	Lh3q_BB28_17
	mov	w10, #24
	madd	x10, x9, x10, x8
	sub	x9, x9, x11
	sub	x9, x9, #84
Lh3q_BB28_16:
	ldur	q1, [x10, #-24]
	ldur	x11, [x10, #-8]
	sub	x12, x10, #24
	subs	x9, x9, #1
	str	q1, [x10]
	str	x11, [x10, #16]
	mov	x10, x12
	b.ne	Lh3q_BB28_16
Lh3q_BB28_17:
	mov	w9, #24
Lh3q_loh8:
	adrp	x10, lh3q_CPI28_0@PAGE
	ldr	q1, [sp]
	madd	x9, x1, x9, x8
Lh3q_loh9:
	ldr	q2, [x10, lh3q_CPI28_0@PAGEOFF]
	ldr	x10, [sp, #16]
	add.2d	v0, v0, v2
	str	q1, [x9]
	str	x10, [x9, #16]
	str	x8, [x0]
	stur	q0, [x0, #8]
	add	sp, sp, #32
	ret
	.loh AdrpLdr	Lh3q_loh8, Lh3q_loh9

	.p2align	2
"_qpack_encoding::encoder::ConnectionEncoder::tell":
	sub	sp, sp, #176
	stp	x22, x21, [sp, #128]
	ldrb	w22, [x1, #112]
	mov	x21, x2
	stp	x20, x19, [sp, #144]
	mov	x20, x1
	mov	x19, x0
	stp	x26, x25, [sp, #96]
	stp	x24, x23, [sp, #112]
	stp	x29, x30, [sp, #160]
	add	x29, sp, #160
	stp	xzr, xzr, [sp]
	cbz	w22, Lh3q_BB29_2
	ldr	x8, [x20, #120]
	mov	w9, #1073741823
	cmp	x8, x9
	csel	x8, x8, x9, lo
	cmp	x8, x21
	b.hs	Lh3q_BB29_3
	b	Lh3q_BB29_10
Lh3q_BB29_2:
	mov	w8, #1073741823
	cmp	x8, x21
	b.lo	Lh3q_BB29_10
Lh3q_BB29_3:
	add	x0, x20, #40
	mov	x1, x21
	bl	"_qpack_table::dynamic::table::DynamicTable::evictable_count::<#f1ee30144fd2ee58>"
	tbz	w0, #0, Lh3q_BB29_19
	ldr	x8, [x20, #1496]
	ldr	x9, [x20, #1488]
	subs	x8, x8, x9
	csel	x8, xzr, x8, lo
	cmp	x8, #10
	b.hi	Lh3q_BB29_8
	add	x0, x20, #1480
	mov	w1, #11
	bl	"_qpack_base::coding::grow::<#f5d64057dea64abe>"
	and	w8, w0, #0xff
	tbz	w8, #0, Lh3q_BB29_7
Lh3q_BB29_6:
	mov	w8, #7
	b	Lh3q_BB29_20
Lh3q_BB29_7:
	ldrb	w22, [x20, #112]
Lh3q_BB29_8:
	cbz	w22, Lh3q_BB29_11
	ldr	x8, [x20, #120]
	mov	w9, #1073741823
	cmp	x8, x9
	csel	x8, x8, x9, lo
	cmp	x8, x21
	b.hs	Lh3q_BB29_12
Lh3q_BB29_10:
	mov	w8, #1
	b	Lh3q_BB29_20
Lh3q_BB29_11:
	mov	w8, #1073741823
	cmp	x8, x21
	b.lo	Lh3q_BB29_10
Lh3q_BB29_12:
	add	x0, x20, #40
	mov	x1, x21
	bl	"_qpack_table::dynamic::table::DynamicTable::evictable_count::<#f1ee30144fd2ee58>"
	tbz	w0, #0, Lh3q_BB29_19
	mov	x3, x1
	add	x0, x20, #232
	add	x1, x20, #40
	add	x2, x20, #80
	bl	"_qpack_table::dynamic::index::IndexEntryIndex::drop_oldest::<#e26e38abbd2828ef>"
	ldr	x8, [x20, #48]
	mov	x22, x0
	cbnz	x8, Lh3q_BB29_28
	ldr	x8, [x20, #56]
	cbz	x8, Lh3q_BB29_24
	ldur	q0, [x20, #40]
	ldur	q1, [x20, #56]
	add	x0, sp, #64
	ldur	x8, [x20, #72]
	add	x1, sp, #16
	stp	xzr, xzr, [sp, #64]
	stp	q0, q1, [sp, #16]
	str	x8, [sp, #48]
	str	xzr, [sp, #80]
	bl	"_std_alloc::vec::deque::VecDeque::into_vec::<#1768c683c02e1de9>"
	ldp	x24, x25, [sp, #72]
	ldr	x23, [sp, #64]
	cmp	x25, x24
	b.ls	Lh3q_BB29_23
	cbz	x24, Lh3q_BB29_22
	add	x8, x24, x24, lsl #1
	mov	x0, x23
	mov	w3, #8
	lsl	x1, x8, #4
	mov	x2, x1
	bl	_rattle_realloc
	tbz	w0, #0, Lh3q_BB29_23
	mov	x23, x1
	mov	x25, x24
	b	Lh3q_BB29_23
Lh3q_BB29_19:
	mov	w8, #2
Lh3q_BB29_20:
	mov	w9, #1
	stp	xzr, xzr, [sp]
Lh3q_BB29_21:
	ldr	q0, [sp]
	strb	w9, [x19]
	str	x8, [x19, #8]
	ldp	x29, x30, [sp, #160]
	str	q0, [x19, #16]
	ldp	x22, x21, [sp, #128]
	stp	xzr, xzr, [x19, #32]
	ldp	x20, x19, [sp, #144]
	ldp	x24, x23, [sp, #112]
	ldp	x26, x25, [sp, #96]
	add	sp, sp, #176
	ret
Lh3q_BB29_22:
	mov	x0, x23
	bl	_rattle_dealloc
	mov	x25, xzr
	sub	x23, x29, #72
Lh3q_BB29_23:
	stp	x23, x24, [x20, #40]
	stp	xzr, xzr, [x20, #64]
	str	x25, [x20, #56]
Lh3q_BB29_24:
	ldp	x9, x23, [x20, #248]
	sub	x8, x29, #72
	ldr	x0, [x20, #232]
	ldr	x24, [x20, #272]
	stp	x8, xzr, [x20, #232]
	stp	xzr, x8, [x20, #248]
	stp	xzr, xzr, [x20, #264]
	cbz	x9, Lh3q_BB29_26
	bl	_rattle_dealloc
Lh3q_BB29_26:
	cbz	x24, Lh3q_BB29_28
	mov	x0, x23
	bl	_rattle_dealloc
Lh3q_BB29_28:
	ldr	x8, [x20, #96]
	cmp	x21, #30
	sub	x8, x8, x22
	stp	x8, x21, [x20, #96]
	b.hi	Lh3q_BB29_33
	ldr	x9, [x20, #1496]
	ldr	x8, [x20, #1488]
	cmp	x9, x8
	b.hi	Lh3q_BB29_32
	add	x0, x20, #1480
	mov	w1, #1
	bl	"_qpack_base::coding::grow::<#f5d64057dea64abe>"
	and	w8, w0, #0xff
	tbnz	w8, #0, Lh3q_BB29_6
	ldr	x8, [x20, #1488]
Lh3q_BB29_32:
	ldr	x9, [x20, #1480]
	add	x11, x8, #1
	orr	w10, w21, #0x20
	strb	w10, [x9, x8]
	str	x11, [x20, #1488]
	b	Lh3q_BB29_34
Lh3q_BB29_33:
	add	x3, x20, #1480
	mov	w0, #5
	mov	w1, #1
	mov	x2, x21
	bl	"_qpack_base::prefix_int::encode_long::<#f5d64057dea64abe>"
	and	w8, w0, #0xff
	tbnz	w8, #0, Lh3q_BB29_6
Lh3q_BB29_34:
	movi.2d	v0, #0000000000000000
	mov	w9, wzr
	mov	x8, xzr
	str	q0, [x20, #1424]
	b	Lh3q_BB29_21

	.p2align	2
"_qpack_table::dynamic::table::DynamicTable::evictable_count::<#f1ee30144fd2ee58>":
	ldr	x10, [x0, #8]
	mov	x8, x1
	mov	x1, xzr
	mov	w9, #1
	cbz	x10, Lh3q_BB30_21
	ldr	x11, [x0, #56]
	cmp	x8, x11
	b.hs	Lh3q_BB30_21
	ldr	x9, [x0, #32]
	mov	w12, #48
	mov	x1, xzr
	neg	x15, x10
	mul	x13, x9, x12
	msub	x14, x10, x12, x13
	ldr	x12, [x0]
	sub	x13, x10, x9
	add	x14, x12, x14
Lh3q_BB30_3:
	cmp	x1, x13
	mov	x9, x14
	b.hs	Lh3q_BB30_5
	ldr	x9, [x0, #24]
	mov	w16, #48
	madd	x9, x9, x16, x12
	madd	x9, x1, x16, x9
Lh3q_BB30_5:
	ldr	x16, [x9, #40]
	cbnz	x16, Lh3q_BB30_22
	ldrb	w9, [x9, #32]
	cmp	w9, #1
	b.ne	Lh3q_BB30_8
	ldr	x9, [x0, #40]
	ldr	x16, [x0, #96]
	add	x9, x15, x9
	cmp	x9, x16
	b.hs	Lh3q_BB30_22
Lh3q_BB30_8:
	cmp	x1, x13
	mov	x9, x14
	b.hs	Lh3q_BB30_10
	ldr	x9, [x0, #24]
	mov	w16, #48
	madd	x9, x9, x16, x12
	madd	x9, x1, x16, x9
Lh3q_BB30_10:
	ldrb	w17, [x9, #28]
	ldr	w16, [x9, #24]
	cmp	w17, #1
	mov	x17, x16
	b.ne	Lh3q_BB30_19
	ldrb	w17, [x9, #29]
	cmp	w17, #24
	b.hi	Lh3q_BB30_13
Lh3q_loh10:
	adrp	x2, l_static.0@PAGE
Lh3q_loh11:
	add	x2, x2, l_static.0@PAGEOFF
	add	x17, x2, x17, lsl #5
	add	x17, x17, #8
	b	Lh3q_BB30_18
Lh3q_BB30_13:
	cmp	w17, #49
	b.hi	Lh3q_BB30_15
Lh3q_loh12:
	adrp	x2, l_static.1@PAGE
Lh3q_loh13:
	add	x2, x2, l_static.1@PAGEOFF
	add	x17, x2, x17, lsl #5
	sub	x17, x17, #792
	b	Lh3q_BB30_18
Lh3q_BB30_15:
	lsl	x2, x17, #5
	cmp	w17, #74
	b.hi	Lh3q_BB30_17
Lh3q_loh14:
	adrp	x17, l_static.2@PAGE
Lh3q_loh15:
	add	x17, x17, l_static.2@PAGEOFF
	add	x17, x17, x2
	sub	x17, x17, #1592
	b	Lh3q_BB30_18
Lh3q_BB30_17:
Lh3q_loh16:
	adrp	x17, l_static.3@PAGE
Lh3q_loh17:
	add	x17, x17, l_static.3@PAGEOFF
	add	x17, x17, x2
	sub	x17, x17, #2392
Lh3q_BB30_18:
	ldr	x17, [x17]
Lh3q_BB30_19:
	ldr	x9, [x9, #8]
	add	x1, x1, #1
	sub	x9, x9, x16
	adds	x9, x9, x17
	csinv	x9, x9, xzr, lo
	adds	x9, x9, #32
	csinv	x16, x9, xzr, lo
	cmp	x1, x10
	mov	w9, #1
	b.hs	Lh3q_BB30_21
	sub	x11, x11, x16
	add	x14, x14, #48
	add	x15, x15, #1
	cmp	x8, x11
	b.lo	Lh3q_BB30_3
Lh3q_BB30_21:
	mov	w0, w9
	ret
Lh3q_BB30_22:
	mov	x1, xzr
	mov	w0, wzr
	ret
	.loh AdrpAdd	Lh3q_loh10, Lh3q_loh11
	.loh AdrpAdd	Lh3q_loh12, Lh3q_loh13
	.loh AdrpAdd	Lh3q_loh14, Lh3q_loh15
	.loh AdrpAdd	Lh3q_loh16, Lh3q_loh17

	.p2align	2
"_qpack_base::coding::grow::<#f5d64057dea64abe>":
	ldp	x9, x8, [x0, #8]
	sub	x8, x8, x9
	cmp	x1, x8
	b.hi	Lh3q_BB31_2
	mov	w0, wzr
	ret
Lh3q_BB31_2:
	stp	x29, x30, [sp, #-16]!
	mov	x29, sp
	bl	"_std_alloc::vec::Vec::grow_amortized::<#1a70ab8b7290f517>"
	eor	w0, w0, #0x1
	ldp	x29, x30, [sp], #16
	ret

	.p2align	2
"_std_alloc::vec::Vec::grow_amortized::<#1a70ab8b7290f517>":
	ldr	x8, [x0, #8]
	cmn	x8, x1
	b.lo	Lh3q_BB32_2
	mov	w0, wzr
	ret
Lh3q_BB32_2:
	stp	x20, x19, [sp, #-32]!
	ldr	x10, [x0, #16]
	add	x9, x8, x1
	mov	w11, #8
	cmp	x9, #8
	stp	x29, x30, [sp, #16]
	add	x29, sp, #16
	lsl	x12, x10, #1
	csel	x11, x9, x11, hi
	lsr	x13, x10, #62
	cmp	x11, x12
	csel	x9, x11, x12, hi
	cmp	x13, #0
	csel	x19, x9, x11, eq
	tbnz	x19, #63, Lh3q_BB32_7
	cbz	x10, Lh3q_BB32_6
	mov	x20, x0
	ldr	x0, [x0]
	mov	x1, x8
	mov	x2, x19
	mov	w3, #1
	bl	_rattle_realloc
	tbz	w0, #0, Lh3q_BB32_7
Lh3q_BB32_5:
	mov	w0, #1
	str	x1, [x20]
	str	x19, [x20, #16]
	ldp	x29, x30, [sp, #16]
	ldp	x20, x19, [sp], #32
	ret
Lh3q_BB32_6:
	mov	x20, x0
	mov	x0, x9
	mov	w1, #1
	bl	_rattle_alloc
	tbnz	w0, #0, Lh3q_BB32_5
Lh3q_BB32_7:
	mov	w0, wzr
	ldp	x29, x30, [sp, #16]
	ldp	x20, x19, [sp], #32
	ret

	.p2align	2
"_qpack_table::dynamic::index::IndexEntryIndex::drop_oldest::<#e26e38abbd2828ef>":
	sub	sp, sp, #208
	stp	x26, x25, [sp, #128]
	stp	x24, x23, [sp, #144]
	stp	x22, x21, [sp, #160]
	stp	x20, x19, [sp, #176]
	stp	x29, x30, [sp, #192]
	add	x29, sp, #192
	cbz	x3, Lh3q_BB33_52
	mov	x26, #10459
	mov	x20, x3
	mov	x21, x2
	movk	x26, #41140, lsl #16
	mov	x22, x1
	mov	x23, x0
	movk	x26, #32465, lsl #32
	mov	x19, xzr
	mov	x25, xzr
	movk	x26, #59139, lsl #48
	b	Lh3q_BB33_3
Lh3q_BB33_2:
	add	x25, x25, #1
	add	x19, x24, x19
	cmp	x25, x20
	b.eq	Lh3q_BB33_53
Lh3q_BB33_3:
	movi.2d	v0, #0000000000000000
	ldp	x13, x8, [x22]
	ldr	x10, [x22, #32]
	ldr	x9, [x21]
	cmp	x8, x10
	stp	q0, q0, [sp]
	stp	q0, q0, [sp, #32]
	stp	q0, q0, [sp, #64]
	stp	q0, q0, [sp, #96]
	b.eq	Lh3q_BB33_5
	ldr	x10, [x22, #24]
	mov	w11, #48
	madd	x13, x10, x11, x13
Lh3q_BB33_5:
	ldp	x10, x14, [x13]
	ldrb	w11, [x13, #28]
	ldr	w12, [x13, #24]
	cmp	w11, #1
	sub	x11, x14, x12
	b.ne	Lh3q_BB33_7
	ldrb	w12, [x13, #29]
Lh3q_loh18:
	adrp	x13, l_static.3@PAGE
Lh3q_loh19:
	add	x13, x13, l_static.3@PAGEOFF
Lh3q_loh20:
	adrp	x14, l_static.2@PAGE
Lh3q_loh21:
	add	x14, x14, l_static.2@PAGEOFF
Lh3q_loh22:
	adrp	x16, l_static.1@PAGE
Lh3q_loh23:
	add	x16, x16, l_static.1@PAGEOFF
	lsl	x15, x12, #5
	cmp	w12, #74
	add	x13, x13, x15
	add	x14, x14, x15
	add	x15, x16, x12, lsl #5
	sub	x16, x13, #2400
	sub	x17, x14, #1600
	sub	x13, x13, #2392
	sub	x14, x14, #1592
	csel	x16, x16, x17, hi
	sub	x17, x15, #800
	csel	x13, x13, x14, hi
Lh3q_loh24:
	adrp	x14, l_static.0@PAGE
Lh3q_loh25:
	add	x14, x14, l_static.0@PAGEOFF
	add	x14, x14, x12, lsl #5
	cmp	w12, #49
	sub	x15, x15, #792
	csel	x16, x16, x17, hi
	csel	x13, x13, x15, hi
	cmp	w12, #24
	add	x15, x14, #8
	csel	x14, x16, x14, hi
	csel	x12, x13, x15, hi
	ldr	x13, [x14]
	ldr	x12, [x12]
	b	Lh3q_BB33_8
Lh3q_BB33_7:
	add	x13, x10, x11
Lh3q_BB33_8:
	mov	x15, #50915
	ldr	x14, [x23, #48]
	mov	x0, #25647
	movk	x15, #40072, lsl #16
	movk	x0, #30909, lsl #16
	cmp	x12, #16
	movk	x15, #27376, lsl #32
	movk	x0, #7524, lsl #32
	movk	x15, #36540, lsl #48
	movk	x0, #41078, lsl #48
	mul	x16, x14, x15
	eor	x0, x14, x0
	umulh	x15, x14, x15
	eor	x15, x15, x16
	eor	x15, x15, x26
	and	x16, x15, #0xfffffffffffffffe
	eor	x17, x16, x26
	mul	x16, x17, x12
	eor	x16, x0, x16
	b.hs	Lh3q_BB33_10
	mov	x1, x13
	mov	x0, x12
	b	Lh3q_BB33_12
Lh3q_BB33_10:
	mov	x0, x12
	mov	x2, x13
Lh3q_BB33_11:
	ldp	x1, x3, [x2]
	sub	x0, x0, #16
	cmp	x0, #15
	eor	x16, x1, x16
	eor	x1, x3, x15
	mul	x3, x1, x16
	umulh	x16, x1, x16
	add	x1, x2, #16
	mov	x2, x1
	eor	x16, x16, x3
	b.hi	Lh3q_BB33_11
Lh3q_BB33_12:
	cmp	x0, #7
	b.hi	Lh3q_BB33_30
	cmp	x0, #3
	b.hi	Lh3q_BB33_31
	cbz	x0, Lh3q_BB33_19
	ldrb	w2, [x1]
	cmp	x0, #1
	b.eq	Lh3q_BB33_18
	ldrb	w3, [x1, #1]
	cmp	x0, #2
	orr	x2, x3, x2, lsl #8
	b.eq	Lh3q_BB33_18
	ldrb	w0, [x1, #2]
	orr	x2, x0, x2, lsl #8
Lh3q_BB33_18:
	eor	x16, x2, x16
Lh3q_BB33_19:
	mul	x0, x16, x15
	umulh	x16, x16, x15
	eor	x16, x16, x0
	mul	x17, x17, x11
	cmp	x11, #16
	eor	x17, x16, x17
	b.lo	Lh3q_BB33_33
Lh3q_BB33_20:
	mov	x0, x11
	mov	x2, x10
Lh3q_BB33_21:
	ldp	x1, x3, [x2]
	sub	x0, x0, #16
	cmp	x0, #15
	eor	x17, x1, x17
	eor	x1, x3, x15
	mul	x3, x1, x17
	umulh	x17, x1, x17
	add	x1, x2, #16
	mov	x2, x1
	eor	x17, x17, x3
	b.hi	Lh3q_BB33_21
	cmp	x0, #7
	b.hi	Lh3q_BB33_34
Lh3q_BB33_23:
	cmp	x0, #3
	b.hi	Lh3q_BB33_35
	cbz	x0, Lh3q_BB33_29
	ldrb	w2, [x1]
	cmp	x0, #1
	b.eq	Lh3q_BB33_28
	ldrb	w3, [x1, #1]
	cmp	x0, #2
	orr	x2, x3, x2, lsl #8
	b.eq	Lh3q_BB33_28
	ldrb	w0, [x1, #2]
	orr	x2, x0, x2, lsl #8
Lh3q_BB33_28:
	eor	x17, x2, x17
Lh3q_BB33_29:
	mul	x0, x17, x15
	umulh	x15, x17, x15
	b	Lh3q_BB33_37
Lh3q_BB33_30:
	add	x0, x1, x0
	ldr	x1, [x1]
	ldur	x0, [x0, #-8]
	eor	x16, x1, x16
	eor	x0, x0, x15
	b	Lh3q_BB33_32
Lh3q_BB33_31:
	add	x0, x1, x0
	ldr	w1, [x1]
	ldur	w0, [x0, #-4]
	eor	x16, x16, x1
	eor	x0, x15, x0
Lh3q_BB33_32:
	mul	x1, x0, x16
	umulh	x16, x0, x16
	eor	x16, x16, x1
	mul	x17, x17, x11
	cmp	x11, #16
	eor	x17, x16, x17
	b.hs	Lh3q_BB33_20
Lh3q_BB33_33:
	mov	x1, x10
	mov	x0, x11
	cmp	x11, #7
	b.ls	Lh3q_BB33_23
Lh3q_BB33_34:
	add	x0, x1, x0
	ldr	x1, [x1]
	ldur	x0, [x0, #-8]
	eor	x17, x1, x17
	eor	x15, x0, x15
	b	Lh3q_BB33_36
Lh3q_BB33_35:
	add	x0, x1, x0
	ldr	w1, [x1]
	ldur	w0, [x0, #-4]
	eor	x17, x17, x1
	eor	x15, x15, x0
Lh3q_BB33_36:
	mul	x0, x15, x17
	umulh	x15, x15, x17
Lh3q_BB33_37:
	eor	x15, x15, x0
	stp	x10, x11, [sp, #96]
	sub	x24, x9, x8
	lsr	x15, x15, #32
	stp	x10, x11, [sp, #32]
	lsr	x10, x16, #32
	mov	w17, #1
	add	x3, sp, #64
	mov	x0, x23
	mov	x1, x22
	mov	x2, x24
	stp	x17, x14, [sp, #64]
	stp	x13, x12, [sp, #80]
	str	xzr, [sp, #112]
	str	w15, [sp, #120]
	stp	xzr, x14, [sp]
	stp	x13, x12, [sp, #16]
	str	xzr, [sp, #48]
	str	w10, [sp, #56]
	bl	"_qpack_table::dynamic::index::row::Row::leave::<#e26e38abbd2828ef>"
	add	x0, x23, #24
	mov	x3, sp
	mov	x1, x22
	mov	x2, x24
	bl	"_qpack_table::dynamic::index::row::Row::leave::<#e26e38abbd2828ef>"
	ldr	x8, [x22, #8]
	cbz	x8, Lh3q_BB33_53
	ldr	x9, [x22, #32]
	cmp	x9, x8
	b.ne	Lh3q_BB33_40
	mov	x9, xzr
	str	xzr, [x22, #32]
	b	Lh3q_BB33_41
Lh3q_BB33_40:
	ldr	x9, [x22, #24]
Lh3q_BB33_41:
	mov	w10, #48
	ldr	x11, [x22]
	sub	x8, x8, #1
	madd	x11, x9, x10, x11
	add	x9, x9, #1
	str	x8, [x22, #8]
	str	x9, [x22, #24]
	ldrb	w12, [x11, #28]
	ldr	w9, [x11, #24]
	ldr	x8, [x11, #16]
	ldp	x0, x10, [x11]
	cmp	w12, #1
	mov	x12, x9
	b.ne	Lh3q_BB33_50
	ldrb	w11, [x11, #29]
	cmp	w11, #24
	b.hi	Lh3q_BB33_44
Lh3q_loh26:
	adrp	x12, l_static.0@PAGE
Lh3q_loh27:
	add	x12, x12, l_static.0@PAGEOFF
	add	x11, x12, x11, lsl #5
	add	x11, x11, #8
	b	Lh3q_BB33_49
Lh3q_BB33_44:
	cmp	w11, #49
	b.hi	Lh3q_BB33_46
Lh3q_loh28:
	adrp	x12, l_static.1@PAGE
Lh3q_loh29:
	add	x12, x12, l_static.1@PAGEOFF
	add	x11, x12, x11, lsl #5
	sub	x11, x11, #792
	b	Lh3q_BB33_49
Lh3q_BB33_46:
	lsl	x12, x11, #5
	cmp	w11, #74
	b.hi	Lh3q_BB33_48
Lh3q_loh30:
	adrp	x11, l_static.2@PAGE
Lh3q_loh31:
	add	x11, x11, l_static.2@PAGEOFF
	add	x11, x11, x12
	sub	x11, x11, #1592
	b	Lh3q_BB33_49
Lh3q_BB33_48:
Lh3q_loh32:
	adrp	x11, l_static.3@PAGE
Lh3q_loh33:
	add	x11, x11, l_static.3@PAGEOFF
	add	x11, x11, x12
	sub	x11, x11, #2392
Lh3q_BB33_49:
	ldr	x12, [x11]
Lh3q_BB33_50:
	sub	x9, x10, x9
	ldr	x10, [x21, #8]
	adds	x9, x9, x12
	csinv	x9, x9, xzr, lo
	add	x10, x10, #1
	adds	x9, x9, #32
	str	x10, [x21, #8]
	csinv	x24, x9, xzr, lo
	cbz	x8, Lh3q_BB33_2
	bl	_rattle_dealloc
	b	Lh3q_BB33_2
Lh3q_BB33_52:
	mov	x19, xzr
Lh3q_BB33_53:
	mov	x0, x19
	ldp	x29, x30, [sp, #192]
	ldp	x20, x19, [sp, #176]
	ldp	x22, x21, [sp, #160]
	ldp	x24, x23, [sp, #144]
	ldp	x26, x25, [sp, #128]
	add	sp, sp, #208
	ret
	.loh AdrpAdd	Lh3q_loh24, Lh3q_loh25
	.loh AdrpAdd	Lh3q_loh22, Lh3q_loh23
	.loh AdrpAdd	Lh3q_loh20, Lh3q_loh21
	.loh AdrpAdd	Lh3q_loh18, Lh3q_loh19
	.loh AdrpAdd	Lh3q_loh26, Lh3q_loh27
	.loh AdrpAdd	Lh3q_loh28, Lh3q_loh29
	.loh AdrpAdd	Lh3q_loh30, Lh3q_loh31
	.loh AdrpAdd	Lh3q_loh32, Lh3q_loh33

	.p2align	2
"_qpack_table::dynamic::index::row::Row::leave::<#e26e38abbd2828ef>":
	sub	sp, sp, #64
	stp	x22, x21, [sp, #16]
	mov	x22, x0
	ldr	x21, [x22, #8]!
	stp	x20, x19, [sp, #32]
	mov	x20, x2
	mov	x19, x0
	stp	x29, x30, [sp, #48]
	cmp	x21, #16
	add	x29, sp, #48
	b.hi	Lh3q_BB34_6
	cbz	x21, Lh3q_BB34_5
	ldr	x8, [x19]
	mov	x1, xzr
	mov	w9, #4
Lh3q_BB34_3:
	ldr	w10, [x8, x9]
	sub	w10, w10, w20
	cmp	w10, #1
	b.eq	Lh3q_BB34_8
	add	x1, x1, #1
	add	x9, x9, #8
	cmp	x21, x1
	b.ne	Lh3q_BB34_3
Lh3q_BB34_5:
	ldp	x29, x30, [sp, #48]
	ldp	x20, x19, [sp, #32]
	ldp	x22, x21, [sp, #16]
	add	sp, sp, #64
	ret
Lh3q_BB34_6:
	add	x4, sp, #8
	mov	x0, x19
	mov	x2, x20
	str	xzr, [sp, #8]
	bl	"_qpack_table::dynamic::index::row::Row::search::<#e26e38abbd2828ef>"
	tst	w0, #0xff
	b.ne	Lh3q_BB34_5
	ldr	x8, [x19]
	add	x9, x8, x1, lsl #3
	ldr	w9, [x9, #4]
	sub	w9, w9, w20
	cmp	w9, #1
	b.ne	Lh3q_BB34_5
Lh3q_BB34_8:
	ldr	x9, [x19, #16]
	lsl	x12, x1, #3
	sub	x10, x21, #1
	cmn	x1, #1
	sub	x11, x10, x1
	stp	xzr, xzr, [x22]
	b.eq	Lh3q_BB34_17
	cmp	x11, #257
	b.lo	Lh3q_BB34_25
	add	x14, x8, x12
	sub	x11, x21, x1
	mov	x13, xzr
	add	x15, x14, #2048
	sub	x17, x11, #257
	add	x16, x14, #16
	b	Lh3q_BB34_12
Lh3q_BB34_11:
	add	x1, x1, #256
	add	x13, x13, #1
	sub	x17, x12, #256
	sub	x11, x10, x1
	add	x16, x16, #2048
	add	x14, x14, #2048
	cmp	x11, #256
	b.ls	Lh3q_BB34_23
Lh3q_BB34_12:
	cmn	x1, #1
	mov	x12, x17
	b.eq	Lh3q_BB34_15
	mov	w11, #256
	mov	x17, x16
Lh3q_BB34_14:
	ldur	q0, [x17, #-8]
	ldur	q1, [x17, #8]
	subs	x11, x11, #4
	stp	q0, q1, [x17, #-16]
	add	x17, x17, #32
	b.ne	Lh3q_BB34_14
	b	Lh3q_BB34_11
Lh3q_BB34_15:
	lsl	x11, x13, #11
	mov	w17, #2040
	ldr	x11, [x15, x11]
Lh3q_BB34_16:
	str	x11, [x14, x17]
	sub	x17, x17, #8
	cmn	x17, #8
	b.ne	Lh3q_BB34_16
	b	Lh3q_BB34_11
Lh3q_BB34_17:
	cbz	x21, Lh3q_BB34_39
	lsl	x13, x21, #3
	cmp	x11, #4
	b.lo	Lh3q_BB34_36
	neg	x14, x1, lsl #3
	cmp	x14, #32
	mov	x14, xzr
	b.lo	Lh3q_BB34_37
	sub	x15, x13, #40
	and	x14, x11, #0xfffffffffffffffc
	and	x16, x11, #0xfffffffffffffffc
	sub	x12, x15, x12
	add	x15, x8, x15
	add	x12, x8, x12
Lh3q_BB34_21:
	ldp	q1, q0, [x12], #-32
	sub	x16, x16, #4
	stp	q1, q0, [x15], #-32
	cbnz	x16, Lh3q_BB34_21
	cmp	x11, x14
	b.ne	Lh3q_BB34_37
	b	Lh3q_BB34_39
Lh3q_BB34_23:
	cmn	x1, #1
	b.eq	Lh3q_BB34_33
	lsl	x12, x1, #3
Lh3q_BB34_25:
	cmp	x10, x1
	b.eq	Lh3q_BB34_39
	cmp	x11, #4
	b.hs	Lh3q_BB34_28
	mov	x13, xzr
	b	Lh3q_BB34_31
Lh3q_BB34_28:
	add	x14, x12, x8
	and	x13, x11, #0x1fc
	and	x15, x11, #0x1fc
	add	x14, x14, #16
Lh3q_BB34_29:
	ldur	q0, [x14, #-8]
	ldur	q1, [x14, #8]
	subs	x15, x15, #4
	stp	q0, q1, [x14, #-16]
	add	x14, x14, #32
	b.ne	Lh3q_BB34_29
	cmp	x11, x13
	b.eq	Lh3q_BB34_39
Lh3q_BB34_31:
	add	x12, x12, x13, lsl #3
	sub	x11, x11, x13
	add	x12, x12, x8
	add	x12, x12, #8
Lh3q_BB34_32:
	ldr	x13, [x12]
	subs	x11, x11, #1
	stur	x13, [x12, #-8]
	add	x12, x12, #8
	b.ne	Lh3q_BB34_32
	b	Lh3q_BB34_39
Lh3q_BB34_33:
	cbz	x21, Lh3q_BB34_39
	add	x13, x8, x21, lsl #3
	ldur	x11, [x13, #-8]
	sub	x13, x13, #16
Lh3q_BB34_35:
	subs	x12, x12, #1
	str	x11, [x13], #-8
	b.ne	Lh3q_BB34_35
	b	Lh3q_BB34_39
Lh3q_BB34_36:
	mov	x14, xzr
Lh3q_BB34_37:
	sub	x11, x13, #16
	add	x12, x1, x14
	mvn	x13, x14
	sub	x12, x11, x12, lsl #3
	sub	x14, x11, x14, lsl #3
	add	x11, x13, x21
	sub	x11, x11, x1
	add	x12, x8, x12
	add	x13, x8, x14
Lh3q_BB34_38:
	ldr	x14, [x12], #-8
	subs	x11, x11, #1
	str	x14, [x13], #-8
	b.ne	Lh3q_BB34_38
Lh3q_BB34_39:
	stp	x8, x10, [x19]
	str	x9, [x19, #16]
	ldp	x29, x30, [sp, #48]
	ldp	x20, x19, [sp, #32]
	ldp	x22, x21, [sp, #16]
	add	sp, sp, #64
	ret

	.p2align	2
"_qpack_table::dynamic::index::row::Row::search::<#e26e38abbd2828ef>":
	sub	sp, sp, #112
	stp	x24, x23, [sp, #48]
	ldr	x24, [x0, #8]
	stp	x28, x27, [sp, #16]
	stp	x26, x25, [sp, #32]
	stp	x22, x21, [sp, #64]
	stp	x20, x19, [sp, #80]
	stp	x29, x30, [sp, #96]
	add	x29, sp, #96
	str	x2, [sp, #8]
	cbz	x24, Lh3q_BB35_13
	ldr	w8, [x3, #56]
	sub	x10, x24, #1
	mov	x19, x4
	mov	x20, x3
	mov	x22, x0
	mov	x23, x1
	mul	x9, x24, x8
	lsr	x9, x9, #32
	cmp	x10, x9
	csel	x11, x10, x9, lo
	ldr	x9, [x0]
	lsl	x10, x11, #3
	ldr	w10, [x9, x10]
	cmp	w10, w8
	mov	w10, #2
	csel	w10, wzr, w10, lo
	csinc	w10, w10, wzr, ne
	cmp	w10, #2
	b.eq	Lh3q_BB35_4
	cmp	w10, #1
	b.ne	Lh3q_BB35_6
	mov	x10, xzr
	cmp	xzr, x11
	b.eq	Lh3q_BB35_28
	b	Lh3q_BB35_57
Lh3q_BB35_4:
	cbz	x11, Lh3q_BB35_11
	mov	x10, xzr
	sub	x12, x11, #1
	mov	x24, x11
	b	Lh3q_BB35_8
Lh3q_BB35_6:
	add	x12, x11, #1
	cmp	x12, x24
	b.eq	Lh3q_BB35_13
	mov	x10, x12
Lh3q_BB35_8:
	lsl	x11, x12, #3
	ldr	w11, [x9, x11]
	cmp	w11, w8
	mov	w11, #2
	csel	w11, wzr, w11, lo
	csinc	w11, w11, wzr, ne
	cbz	w11, Lh3q_BB35_12
	cmp	w11, #1
	b.ne	Lh3q_BB35_14
Lh3q_BB35_10:
	mov	x11, x12
	cmp	x10, x12
	b.ne	Lh3q_BB35_57
	b	Lh3q_BB35_28
Lh3q_BB35_11:
	mov	x24, xzr
	mov	w0, #1
	b	Lh3q_BB35_74
Lh3q_BB35_12:
	add	x13, x12, #1
	cmp	x13, x24
	b.ne	Lh3q_BB35_16
Lh3q_BB35_13:
	mov	w0, #1
	b	Lh3q_BB35_74
Lh3q_BB35_14:
	cmp	x10, x12
	b.eq	Lh3q_BB35_21
	sub	x13, x12, #1
	b	Lh3q_BB35_17
Lh3q_BB35_16:
	mov	x12, x24
	mov	x10, x13
Lh3q_BB35_17:
	lsl	x11, x13, #3
	ldr	w11, [x9, x11]
	cmp	w11, w8
	mov	w11, #2
	csel	w11, wzr, w11, lo
	csinc	w11, w11, wzr, ne
	cbz	w11, Lh3q_BB35_20
	cmp	w11, #1
	b.ne	Lh3q_BB35_22
Lh3q_BB35_19:
	mov	x11, x13
	mov	x24, x12
	cmp	x10, x13
	b.ne	Lh3q_BB35_57
	b	Lh3q_BB35_28
Lh3q_BB35_20:
	add	x24, x13, #1
	cmp	x24, x12
	b.ne	Lh3q_BB35_24
Lh3q_BB35_21:
	mov	w0, #1
	mov	x24, x12
	b	Lh3q_BB35_74
Lh3q_BB35_22:
	cmp	x10, x13
	b.eq	Lh3q_BB35_31
	sub	x24, x13, #1
	b	Lh3q_BB35_25
Lh3q_BB35_24:
	mov	x13, x12
	mov	x10, x24
Lh3q_BB35_25:
	lsl	x11, x24, #3
	ldr	w11, [x9, x11]
	cmp	w11, w8
	mov	w11, #2
	csel	w11, wzr, w11, lo
	csinc	w11, w11, wzr, ne
	cbz	w11, Lh3q_BB35_30
	cmp	w11, #1
	b.ne	Lh3q_BB35_32
Lh3q_BB35_27:
	mov	x11, x24
	mov	x24, x13
	cmp	x10, x11
	b.ne	Lh3q_BB35_57
Lh3q_BB35_28:
	mov	x27, x11
	add	x10, x11, #1
	cmp	x10, x24
	b.ne	Lh3q_BB35_58
Lh3q_BB35_29:
	mov	x28, x24
	cmp	x27, x24
	b.lo	Lh3q_BB35_60
	b	Lh3q_BB35_72
Lh3q_BB35_30:
	add	x12, x24, #1
	cmp	x12, x13
	b.ne	Lh3q_BB35_34
Lh3q_BB35_31:
	mov	w0, #1
	mov	x24, x13
	b	Lh3q_BB35_74
Lh3q_BB35_32:
	cmp	x10, x24
	b.eq	Lh3q_BB35_13
	sub	x12, x24, #1
	b	Lh3q_BB35_35
Lh3q_BB35_34:
	mov	x24, x13
	mov	x10, x12
Lh3q_BB35_35:
	lsl	x11, x12, #3
	ldr	w11, [x9, x11]
	cmp	w11, w8
	mov	w11, #2
	csel	w11, wzr, w11, lo
	csinc	w11, w11, wzr, ne
	cbz	w11, Lh3q_BB35_39
	cmp	w11, #1
	b.eq	Lh3q_BB35_10
	cmp	x10, x12
	b.eq	Lh3q_BB35_21
	sub	x13, x12, #1
	b	Lh3q_BB35_41
Lh3q_BB35_39:
	add	x13, x12, #1
	cmp	x13, x24
	b.eq	Lh3q_BB35_13
	mov	x12, x24
	mov	x10, x13
Lh3q_BB35_41:
	lsl	x11, x13, #3
	ldr	w11, [x9, x11]
	cmp	w11, w8
	mov	w11, #2
	csel	w11, wzr, w11, lo
	csinc	w11, w11, wzr, ne
	cbz	w11, Lh3q_BB35_45
	cmp	w11, #1
	b.eq	Lh3q_BB35_19
	cmp	x10, x13
	b.eq	Lh3q_BB35_31
	sub	x24, x13, #1
	b	Lh3q_BB35_47
Lh3q_BB35_45:
	add	x24, x13, #1
	cmp	x24, x12
	b.eq	Lh3q_BB35_21
	mov	x13, x12
	mov	x10, x24
Lh3q_BB35_47:
	lsl	x11, x24, #3
	ldr	w11, [x9, x11]
	cmp	w11, w8
	mov	w11, #2
	csel	w11, wzr, w11, lo
	csinc	w11, w11, wzr, ne
	cbz	w11, Lh3q_BB35_51
	cmp	w11, #1
	b.eq	Lh3q_BB35_27
	cmp	x10, x24
	b.eq	Lh3q_BB35_13
	sub	x12, x24, #1
	b	Lh3q_BB35_53
Lh3q_BB35_51:
	add	x12, x24, #1
	cmp	x12, x13
	b.eq	Lh3q_BB35_31
	mov	x24, x13
	mov	x10, x12
Lh3q_BB35_53:
	lsl	x11, x12, #3
	ldr	w11, [x9, x11]
	cmp	w11, w8
	mov	w11, #2
	csel	w11, wzr, w11, lo
	csinc	w11, w11, wzr, ne
	cbz	w11, Lh3q_BB35_75
	cmp	w11, #1
	b.eq	Lh3q_BB35_10
	cmp	x10, x12
	b.eq	Lh3q_BB35_21
	sub	x11, x12, #1
	mov	x24, x12
	cmp	x10, x11
	b.eq	Lh3q_BB35_28
Lh3q_BB35_57:
	add	x12, x9, x11, lsl #3
	ldur	w12, [x12, #-8]
	cmp	w12, w8
	csel	x27, x11, x10, lo
	add	x10, x11, #1
	cmp	x10, x24
	b.eq	Lh3q_BB35_29
Lh3q_BB35_58:
	lsl	x11, x10, #3
	ldr	w9, [x9, x11]
	cmp	w9, w8
	csel	x28, x10, x24, hi
	cmp	x27, x28
	b.lo	Lh3q_BB35_60
	b	Lh3q_BB35_72
Lh3q_BB35_59:
	add	x27, x24, #1
	cmp	x27, x28
	b.hs	Lh3q_BB35_72
Lh3q_BB35_60:
	sub	x8, x28, x27
	ldr	w10, [x20, #56]
	add	x24, x27, x8, lsr #1
	ldr	x8, [x22]
	add	x9, x8, x24, lsl #3
	ldr	w8, [x9]
	cmp	w8, w10
	mov	w8, #2
	csel	w8, wzr, w8, lo
	b.ne	Lh3q_BB35_69
	ldr	w8, [x9, #4]
	ldr	x9, [sp, #8]
	ldr	x11, [x23, #32]
	mvn	w9, w9
	add	w9, w9, w8
	ldp	x8, x10, [x23]
	sub	x10, x10, x11
	subs	x10, x9, x10
	b.hs	Lh3q_BB35_63
	ldr	x10, [x23, #24]
	mov	w11, #48
	madd	x8, x10, x11, x8
	umaddl	x8, w9, w11, x8
	b	Lh3q_BB35_64
Lh3q_BB35_63:
	mov	w9, #48
	umaddl	x8, w10, w9, x8
Lh3q_BB35_64:
	ldr	x9, [x19]
	ldrb	w21, [x20]
	adds	x9, x9, #1
	csinv	x9, x9, xzr, lo
	str	x9, [x19]
	ldp	x25, x10, [x8]
	ldrb	w9, [x8, #28]
	ldr	w1, [x8, #24]
	cmp	w9, #1
	sub	x26, x10, x1
	b.ne	Lh3q_BB35_66
	ldrb	w8, [x8, #29]
Lh3q_loh34:
	adrp	x9, l_static.3@PAGE
Lh3q_loh35:
	add	x9, x9, l_static.3@PAGEOFF
Lh3q_loh36:
	adrp	x10, l_static.2@PAGE
Lh3q_loh37:
	add	x10, x10, l_static.2@PAGEOFF
Lh3q_loh38:
	adrp	x12, l_static.1@PAGE
Lh3q_loh39:
	add	x12, x12, l_static.1@PAGEOFF
	lsl	x11, x8, #5
	cmp	w8, #74
	add	x9, x9, x11
	add	x10, x10, x11
	add	x11, x12, x8, lsl #5
	sub	x12, x9, #2400
	sub	x13, x10, #1600
	sub	x9, x9, #2392
	sub	x10, x10, #1592
	csel	x12, x12, x13, hi
	sub	x13, x11, #800
	csel	x9, x9, x10, hi
Lh3q_loh40:
	adrp	x10, l_static.0@PAGE
Lh3q_loh41:
	add	x10, x10, l_static.0@PAGEOFF
	add	x10, x10, x8, lsl #5
	cmp	w8, #49
	sub	x11, x11, #792
	csel	x12, x12, x13, hi
	csel	x9, x9, x11, hi
	cmp	w8, #24
	add	x11, x10, #8
	csel	x8, x12, x10, hi
	csel	x9, x9, x11, hi
	ldr	x0, [x8]
	ldr	x1, [x9]
	ldp	x2, x3, [x20, #16]
	bl	"_qpack_table::dynamic::comparing::compare_bytes"
	and	w8, w0, #0xff
	cmp	w8, #1
	b.eq	Lh3q_BB35_67
	b	Lh3q_BB35_69
Lh3q_BB35_66:
	add	x0, x25, x26
	ldp	x2, x3, [x20, #16]
	bl	"_qpack_table::dynamic::comparing::compare_bytes"
	and	w8, w0, #0xff
	cmp	w8, #1
	b.ne	Lh3q_BB35_69
Lh3q_BB35_67:
	cbz	w21, Lh3q_BB35_73
	ldp	x2, x3, [x20, #32]
	mov	x0, x25
	mov	x1, x26
	bl	"_qpack_table::dynamic::comparing::compare_bytes"
	and	w8, w0, #0xff
Lh3q_BB35_69:
	cbz	w8, Lh3q_BB35_59
	cmp	w8, #2
	b.ne	Lh3q_BB35_73
	mov	x28, x24
	cmp	x27, x24
	b.lo	Lh3q_BB35_60
Lh3q_BB35_72:
	mov	w0, #1
	mov	x24, x27
	b	Lh3q_BB35_74
Lh3q_BB35_73:
	mov	w0, wzr
Lh3q_BB35_74:
	mov	x1, x24
	ldp	x29, x30, [sp, #96]
	ldp	x20, x19, [sp, #80]
	ldp	x22, x21, [sp, #64]
	ldp	x24, x23, [sp, #48]
	ldp	x26, x25, [sp, #32]
	ldp	x28, x27, [sp, #16]
	add	sp, sp, #112
	ret
Lh3q_BB35_75:
	add	x11, x12, #1
	cmp	x11, x24
	b.ne	Lh3q_BB35_28
	b	Lh3q_BB35_13
	.loh AdrpAdd	Lh3q_loh40, Lh3q_loh41
	.loh AdrpAdd	Lh3q_loh38, Lh3q_loh39
	.loh AdrpAdd	Lh3q_loh36, Lh3q_loh37
	.loh AdrpAdd	Lh3q_loh34, Lh3q_loh35

	.p2align	2
"_qpack_table::dynamic::comparing::compare_bytes":
	cmp	x1, x3
	b.ne	Lh3q_BB36_16
	cmp	x1, #7
	add	x8, x0, x1
	b.ls	Lh3q_BB36_6
	add	x9, x2, x1
	ldur	x8, [x8, #-8]
	ldur	x9, [x9, #-8]
	cmp	x8, x9
	b.ne	Lh3q_BB36_16
	mov	x8, x0
	mov	x9, x1
	mov	x10, x2
Lh3q_BB36_4:
	subs	x9, x9, #8
	b.lo	Lh3q_BB36_12
	ldr	x11, [x8], #8
	ldr	x12, [x10], #8
	cmp	x11, x12
	b.eq	Lh3q_BB36_4
	b	Lh3q_BB36_16
Lh3q_BB36_6:
	cmp	x1, #3
	b.ls	Lh3q_BB36_9
	ldr	w9, [x0]
	ldr	w10, [x2]
	cmp	w9, w10
	b.ne	Lh3q_BB36_16
	add	x9, x2, x1
	ldur	w8, [x8, #-4]
	ldur	w9, [x9, #-4]
	cmp	w8, w9
	b.ne	Lh3q_BB36_16
	b	Lh3q_BB36_12
Lh3q_BB36_9:
	cbz	x1, Lh3q_BB36_12
	ldrb	w8, [x0]
	ldrb	w9, [x2]
	cmp	w8, w9
	b.ne	Lh3q_BB36_16
	cmp	x1, #1
	b.ne	Lh3q_BB36_13
Lh3q_BB36_12:
	mov	w0, #1
	ret
Lh3q_BB36_13:
	ldrb	w8, [x0, #1]
	ldrb	w9, [x2, #1]
	cmp	w8, w9
	b.ne	Lh3q_BB36_16
	cmp	x1, #2
	b.eq	Lh3q_BB36_12
	ldrb	w8, [x0, #2]
	ldrb	w9, [x2, #2]
	cmp	w8, w9
	b.eq	Lh3q_BB36_12
Lh3q_BB36_16:
	cmp	x3, x1
	csel	x8, x3, x1, lo
	cmp	x8, #64
	b.hs	Lh3q_BB36_18
	mov	x9, xzr
	b	Lh3q_BB36_22
Lh3q_BB36_18:
	mov	x9, xzr
	mov	x10, x8
Lh3q_BB36_19:
	add	x11, x0, x9
	add	x12, x2, x9
	ldp	q0, q3, [x12]
	ldp	q1, q2, [x11]
	ldp	q4, q5, [x12, #32]
	cmeq.16b	v0, v1, v0
	cmeq.16b	v1, v2, v3
	ldp	q2, q3, [x11, #32]
	mvn.16b	v0, v0
	mvn.16b	v1, v1
	cmeq.16b	v2, v2, v4
	cmeq.16b	v3, v3, v5
	orn.16b	v0, v0, v2
	orn.16b	v1, v1, v3
	orr.16b	v0, v1, v0
	umaxv.16b	b0, v0
	fmov	w11, s0
	tbnz	w11, #0, Lh3q_BB36_22
	sub	x10, x10, #64
	add	x9, x9, #64
	cmp	x10, #63
	b.hi	Lh3q_BB36_19
	and	x9, x8, #0xffffffffffffffc0
Lh3q_BB36_22:
	sub	x10, x8, x9
	cmp	x10, #8
	b.lo	Lh3q_BB36_25
Lh3q_BB36_23:
	ldr	x11, [x0, x9]
	ldr	x12, [x2, x9]
	cmp	x11, x12
	b.ne	Lh3q_BB36_25
	sub	x10, x10, #8
	add	x9, x9, #8
	cmp	x10, #7
	b.hi	Lh3q_BB36_23
Lh3q_BB36_25:
	subs	x8, x8, x9
	b.ls	Lh3q_BB36_29
	add	x10, x2, x9
	add	x9, x0, x9
Lh3q_BB36_27:
	ldrb	w11, [x9], #1
	ldrb	w12, [x10], #1
	cmp	w11, w12
	b.ne	Lh3q_BB36_30
	subs	x8, x8, #1
	b.ne	Lh3q_BB36_27
Lh3q_BB36_29:
	cmp	x1, x3
	mov	w8, #2
	csel	w8, wzr, w8, lo
	csinc	w0, w8, wzr, ne
	ret
Lh3q_BB36_30:
	mov	w8, #2
	csel	w0, wzr, w8, lo
	ret

	.p2align	2
"_std_alloc::vec::deque::VecDeque::into_vec::<#1768c683c02e1de9>":
	sub	sp, sp, #496
	ldp	q0, q1, [x1]
	stp	x22, x21, [sp, #448]
	ldr	x8, [x1, #32]
	stp	x20, x19, [sp, #464]
	mov	x19, x0
	stp	x28, x27, [sp, #400]
	stp	q0, q1, [sp]
	ldr	x21, [sp, #8]
	stp	x26, x25, [sp, #416]
	stp	x24, x23, [sp, #432]
	stp	x29, x30, [sp, #480]
	add	x29, sp, #480
	str	x8, [sp, #32]
	cbz	x21, Lh3q_BB37_11
	ldr	x20, [sp, #32]
	sub	x3, x21, x20
	cmp	x20, x3
	csel	x9, x20, x3, lo
	cbz	x20, Lh3q_BB37_12
	ldr	x22, [sp, #16]
	sub	x8, x22, x21
	cmp	x8, x9
	b.lo	Lh3q_BB37_12
	movi.2d	v0, #0000000000000000
	mov	x23, sp
	ldr	x1, [sp, #24]
	ldr	x0, [sp]
	orr	x9, x23, #0x8
	cmp	x3, x8
	stp	q0, q0, [x9]
	b.ls	Lh3q_BB37_18
	subs	x8, x1, x20
	b.ls	Lh3q_BB37_22
	cmp	x3, #43
	b.lo	Lh3q_BB37_29
	mov	w9, #48
	madd	x10, x1, x9, x0
	madd	x11, x20, x9, x0
	mov	x9, x20
	b	Lh3q_BB37_9
Lh3q_BB37_7:
	ldp	q1, q0, [x10, #16]
	ldr	q2, [x10]
	str	q2, [x11]
	stp	q1, q0, [x11, #16]
	ldp	q1, q0, [x10, #64]
	ldr	q2, [x10, #48]
	str	q2, [x11, #48]
	stp	q1, q0, [x11, #64]
	ldp	q1, q0, [x10, #112]
	ldr	q2, [x10, #96]
	str	q2, [x11, #96]
	stp	q1, q0, [x11, #112]
	ldp	q1, q0, [x10, #160]
	ldr	q2, [x10, #144]
	str	q2, [x11, #144]
	stp	q1, q0, [x11, #160]
	ldp	q1, q0, [x10, #208]
	ldr	q2, [x10, #192]
	str	q2, [x11, #192]
	stp	q1, q0, [x11, #208]
	ldp	q1, q0, [x10, #256]
	ldr	q2, [x10, #240]
	str	q2, [x11, #240]
	stp	q1, q0, [x11, #256]
	ldp	q1, q0, [x10, #304]
	ldr	q2, [x10, #288]
	str	q2, [x11, #288]
	stp	q1, q0, [x11, #304]
	ldp	q1, q0, [x10, #352]
	ldr	q2, [x10, #336]
	str	q2, [x11, #336]
	stp	q1, q0, [x11, #352]
	ldp	q1, q0, [x10, #400]
	ldr	q2, [x10, #384]
	str	q2, [x11, #384]
	stp	q1, q0, [x11, #400]
	ldp	q1, q0, [x10, #448]
	ldr	q2, [x10, #432]
	str	q2, [x11, #432]
	stp	q1, q0, [x11, #448]
	ldp	q1, q0, [x10, #496]
	ldr	q2, [x10, #480]
	str	q2, [x11, #480]
	stp	q1, q0, [x11, #496]
	ldp	q1, q0, [x10, #544]
	ldr	q2, [x10, #528]
	str	q2, [x11, #528]
	stp	q1, q0, [x11, #544]
	ldp	q1, q0, [x10, #592]
	ldr	q2, [x10, #576]
	str	q2, [x11, #576]
	stp	q1, q0, [x11, #592]
	ldp	q1, q0, [x10, #640]
	ldr	q2, [x10, #624]
	str	q2, [x11, #624]
	stp	q1, q0, [x11, #640]
	ldp	q1, q0, [x10, #688]
	ldr	q2, [x10, #672]
	str	q2, [x11, #672]
	stp	q1, q0, [x11, #688]
	ldp	q1, q0, [x10, #736]
	ldr	q2, [x10, #720]
	str	q2, [x11, #720]
	stp	q1, q0, [x11, #736]
	ldp	q1, q0, [x10, #784]
	ldr	q2, [x10, #768]
	str	q2, [x11, #768]
	stp	q1, q0, [x11, #784]
	ldp	q1, q0, [x10, #832]
	ldr	q2, [x10, #816]
	str	q2, [x11, #816]
	stp	q1, q0, [x11, #832]
	ldp	q1, q0, [x10, #880]
	ldr	q2, [x10, #864]
	str	q2, [x11, #864]
	stp	q1, q0, [x11, #880]
	ldp	q1, q0, [x10, #928]
	ldr	q2, [x10, #912]
	str	q2, [x11, #912]
	stp	q1, q0, [x11, #928]
	ldp	q1, q0, [x10, #976]
	ldr	q2, [x10, #960]
	str	q2, [x11, #960]
	stp	q1, q0, [x11, #976]
	ldp	q2, q1, [x10, #1008]
	ldr	q0, [x10, #1040]
	str	q0, [x11, #1040]
	stp	q2, q1, [x11, #1008]
	ldr	q0, [x10, #1088]
	ldr	q1, [x10, #1072]
	ldr	q2, [x10, #1056]
	str	q0, [x11, #1088]
	str	q1, [x11, #1072]
	str	q2, [x11, #1056]
	ldr	q0, [x10, #1136]
	ldr	q1, [x10, #1120]
	ldr	q2, [x10, #1104]
	str	q0, [x11, #1136]
	str	q1, [x11, #1120]
	str	q2, [x11, #1104]
	ldr	q0, [x10, #1184]
	ldr	q1, [x10, #1168]
	ldr	q2, [x10, #1152]
	str	q0, [x11, #1184]
	str	q1, [x11, #1168]
	str	q2, [x11, #1152]
	ldr	q0, [x10, #1232]
	ldr	q1, [x10, #1216]
	ldr	q2, [x10, #1200]
	str	q0, [x11, #1232]
	str	q1, [x11, #1216]
	str	q2, [x11, #1200]
	ldr	q0, [x10, #1280]
	ldr	q1, [x10, #1264]
	ldr	q2, [x10, #1248]
	str	q0, [x11, #1280]
	str	q1, [x11, #1264]
	str	q2, [x11, #1248]
	ldr	q0, [x10, #1328]
	ldr	q1, [x10, #1312]
	ldr	q2, [x10, #1296]
	str	q0, [x11, #1328]
	str	q1, [x11, #1312]
	str	q2, [x11, #1296]
	ldr	q0, [x10, #1376]
	ldr	q1, [x10, #1360]
	ldr	q2, [x10, #1344]
	str	q0, [x11, #1376]
	str	q1, [x11, #1360]
	str	q2, [x11, #1344]
	ldr	q0, [x10, #1424]
	ldr	q1, [x10, #1408]
	ldr	q2, [x10, #1392]
	str	q0, [x11, #1424]
	str	q1, [x11, #1408]
	str	q2, [x11, #1392]
	ldr	q0, [x10, #1472]
	ldr	q1, [x10, #1456]
	ldr	q2, [x10, #1440]
	str	q0, [x11, #1472]
	str	q1, [x11, #1456]
	str	q2, [x11, #1440]
	ldr	q0, [x10, #1520]
	ldr	q1, [x10, #1504]
	ldr	q2, [x10, #1488]
	str	q0, [x11, #1520]
	str	q1, [x11, #1504]
	str	q2, [x11, #1488]
	ldr	q0, [x10, #1568]
	ldr	q1, [x10, #1552]
	ldr	q2, [x10, #1536]
	str	q0, [x11, #1568]
	str	q1, [x11, #1552]
	str	q2, [x11, #1536]
	ldr	q0, [x10, #1616]
	ldr	q1, [x10, #1600]
	ldr	q2, [x10, #1584]
	str	q0, [x11, #1616]
	str	q1, [x11, #1600]
	str	q2, [x11, #1584]
	ldr	q0, [x10, #1664]
	ldr	q1, [x10, #1648]
	ldr	q2, [x10, #1632]
	str	q0, [x11, #1664]
	str	q1, [x11, #1648]
	str	q2, [x11, #1632]
	ldr	q0, [x10, #1712]
	ldr	q1, [x10, #1696]
	ldr	q2, [x10, #1680]
	str	q0, [x11, #1712]
	str	q1, [x11, #1696]
	str	q2, [x11, #1680]
	ldr	q0, [x10, #1760]
	ldr	q1, [x10, #1744]
	ldr	q2, [x10, #1728]
	str	q0, [x11, #1760]
	str	q1, [x11, #1744]
	str	q2, [x11, #1728]
	ldr	q0, [x10, #1808]
	ldr	q1, [x10, #1792]
	ldr	q2, [x10, #1776]
	str	q0, [x11, #1808]
	str	q1, [x11, #1792]
	str	q2, [x11, #1776]
	ldr	q0, [x10, #1856]
	ldr	q1, [x10, #1840]
	ldr	q2, [x10, #1824]
	str	q0, [x11, #1856]
	str	q1, [x11, #1840]
	str	q2, [x11, #1824]
	ldr	q0, [x10, #1904]
	ldr	q1, [x10, #1888]
	ldr	q2, [x10, #1872]
	str	q0, [x11, #1904]
	str	q1, [x11, #1888]
	str	q2, [x11, #1872]
	ldr	q0, [x10, #1952]
	ldr	q1, [x10, #1936]
	ldr	q2, [x10, #1920]
	str	q0, [x11, #1952]
	str	q1, [x11, #1936]
	str	q2, [x11, #1920]
	ldr	q0, [x10, #2000]
	ldr	q1, [x10, #1984]
	ldr	q2, [x10, #1968]
	str	q0, [x11, #2000]
	str	q1, [x11, #1984]
	str	q2, [x11, #1968]
Lh3q_BB37_8:
	sub	x3, x3, #42
	add	x9, x9, #42
	add	x10, x10, #2016
	cmp	x3, #42
	add	x1, x1, #42
	add	x11, x11, #2016
	b.ls	Lh3q_BB37_30
Lh3q_BB37_9:
	cmp	x9, x1
	b.lo	Lh3q_BB37_7
	ldr	q0, [x10, #2000]
	ldr	q1, [x10, #1984]
	ldr	q2, [x10, #1968]
	str	q0, [x11, #2000]
	str	q1, [x11, #1984]
	str	q2, [x11, #1968]
	ldr	q0, [x10, #1952]
	ldr	q1, [x10, #1936]
	ldr	q2, [x10, #1920]
	str	q0, [x11, #1952]
	str	q1, [x11, #1936]
	str	q2, [x11, #1920]
	ldr	q0, [x10, #1904]
	ldr	q1, [x10, #1888]
	ldr	q2, [x10, #1872]
	str	q0, [x11, #1904]
	str	q1, [x11, #1888]
	str	q2, [x11, #1872]
	ldr	q0, [x10, #1856]
	ldr	q1, [x10, #1840]
	ldr	q2, [x10, #1824]
	str	q0, [x11, #1856]
	str	q1, [x11, #1840]
	str	q2, [x11, #1824]
	ldr	q0, [x10, #1808]
	ldr	q1, [x10, #1792]
	ldr	q2, [x10, #1776]
	str	q0, [x11, #1808]
	str	q1, [x11, #1792]
	str	q2, [x11, #1776]
	ldr	q0, [x10, #1760]
	ldr	q1, [x10, #1744]
	ldr	q2, [x10, #1728]
	str	q0, [x11, #1760]
	str	q1, [x11, #1744]
	str	q2, [x11, #1728]
	ldr	q0, [x10, #1712]
	ldr	q1, [x10, #1696]
	ldr	q2, [x10, #1680]
	str	q0, [x11, #1712]
	str	q1, [x11, #1696]
	str	q2, [x11, #1680]
	ldr	q0, [x10, #1664]
	ldr	q1, [x10, #1648]
	ldr	q2, [x10, #1632]
	str	q0, [x11, #1664]
	str	q1, [x11, #1648]
	str	q2, [x11, #1632]
	ldr	q0, [x10, #1616]
	ldr	q1, [x10, #1600]
	ldr	q2, [x10, #1584]
	str	q0, [x11, #1616]
	str	q1, [x11, #1600]
	str	q2, [x11, #1584]
	ldr	q0, [x10, #1568]
	ldr	q1, [x10, #1552]
	ldr	q2, [x10, #1536]
	str	q0, [x11, #1568]
	str	q1, [x11, #1552]
	str	q2, [x11, #1536]
	ldr	q0, [x10, #1520]
	ldr	q1, [x10, #1504]
	ldr	q2, [x10, #1488]
	str	q0, [x11, #1520]
	str	q1, [x11, #1504]
	str	q2, [x11, #1488]
	ldr	q0, [x10, #1472]
	ldr	q1, [x10, #1456]
	ldr	q2, [x10, #1440]
	str	q0, [x11, #1472]
	str	q1, [x11, #1456]
	str	q2, [x11, #1440]
	ldr	q0, [x10, #1424]
	ldr	q1, [x10, #1408]
	ldr	q2, [x10, #1392]
	str	q0, [x11, #1424]
	str	q1, [x11, #1408]
	str	q2, [x11, #1392]
	ldr	q0, [x10, #1376]
	ldr	q1, [x10, #1360]
	ldr	q2, [x10, #1344]
	str	q0, [x11, #1376]
	str	q1, [x11, #1360]
	str	q2, [x11, #1344]
	ldr	q0, [x10, #1328]
	ldr	q1, [x10, #1312]
	ldr	q2, [x10, #1296]
	str	q0, [x11, #1328]
	str	q1, [x11, #1312]
	str	q2, [x11, #1296]
	ldr	q0, [x10, #1280]
	ldr	q1, [x10, #1264]
	ldr	q2, [x10, #1248]
	str	q0, [x11, #1280]
	str	q1, [x11, #1264]
	str	q2, [x11, #1248]
	ldr	q0, [x10, #1232]
	ldr	q1, [x10, #1216]
	ldr	q2, [x10, #1200]
	str	q0, [x11, #1232]
	str	q1, [x11, #1216]
	str	q2, [x11, #1200]
	ldr	q0, [x10, #1184]
	ldr	q1, [x10, #1168]
	ldr	q2, [x10, #1152]
	str	q0, [x11, #1184]
	str	q1, [x11, #1168]
	str	q2, [x11, #1152]
	ldr	q0, [x10, #1136]
	ldr	q1, [x10, #1120]
	ldr	q2, [x10, #1104]
	str	q0, [x11, #1136]
	str	q1, [x11, #1120]
	str	q2, [x11, #1104]
	ldr	q0, [x10, #1088]
	ldr	q1, [x10, #1072]
	ldr	q2, [x10, #1056]
	str	q0, [x11, #1088]
	str	q1, [x11, #1072]
	str	q2, [x11, #1056]
	ldp	q2, q1, [x10, #1008]
	ldr	q0, [x10, #1040]
	str	q0, [x11, #1040]
	stp	q2, q1, [x11, #1008]
	ldp	q1, q0, [x10, #976]
	ldr	q2, [x10, #960]
	str	q2, [x11, #960]
	stp	q1, q0, [x11, #976]
	ldp	q1, q0, [x10, #928]
	ldr	q2, [x10, #912]
	str	q2, [x11, #912]
	stp	q1, q0, [x11, #928]
	ldp	q1, q0, [x10, #880]
	ldr	q2, [x10, #864]
	str	q2, [x11, #864]
	stp	q1, q0, [x11, #880]
	ldp	q1, q0, [x10, #832]
	ldr	q2, [x10, #816]
	str	q2, [x11, #816]
	stp	q1, q0, [x11, #832]
	ldp	q1, q0, [x10, #784]
	ldr	q2, [x10, #768]
	str	q2, [x11, #768]
	stp	q1, q0, [x11, #784]
	ldp	q1, q0, [x10, #736]
	ldr	q2, [x10, #720]
	str	q2, [x11, #720]
	stp	q1, q0, [x11, #736]
	ldp	q1, q0, [x10, #688]
	ldr	q2, [x10, #672]
	str	q2, [x11, #672]
	stp	q1, q0, [x11, #688]
	ldp	q1, q0, [x10, #640]
	ldr	q2, [x10, #624]
	str	q2, [x11, #624]
	stp	q1, q0, [x11, #640]
	ldp	q1, q0, [x10, #592]
	ldr	q2, [x10, #576]
	str	q2, [x11, #576]
	stp	q1, q0, [x11, #592]
	ldp	q1, q0, [x10, #544]
	ldr	q2, [x10, #528]
	str	q2, [x11, #528]
	stp	q1, q0, [x11, #544]
	ldp	q1, q0, [x10, #496]
	ldr	q2, [x10, #480]
	str	q2, [x11, #480]
	stp	q1, q0, [x11, #496]
	ldp	q1, q0, [x10, #448]
	ldr	q2, [x10, #432]
	str	q2, [x11, #432]
	stp	q1, q0, [x11, #448]
	ldp	q1, q0, [x10, #400]
	ldr	q2, [x10, #384]
	str	q2, [x11, #384]
	stp	q1, q0, [x11, #400]
	ldp	q1, q0, [x10, #352]
	ldr	q2, [x10, #336]
	str	q2, [x11, #336]
	stp	q1, q0, [x11, #352]
	ldp	q1, q0, [x10, #304]
	ldr	q2, [x10, #288]
	str	q2, [x11, #288]
	stp	q1, q0, [x11, #304]
	ldp	q1, q0, [x10, #256]
	ldr	q2, [x10, #240]
	str	q2, [x11, #240]
	stp	q1, q0, [x11, #256]
	ldp	q1, q0, [x10, #208]
	ldr	q2, [x10, #192]
	str	q2, [x11, #192]
	stp	q1, q0, [x11, #208]
	ldp	q1, q0, [x10, #160]
	ldr	q2, [x10, #144]
	str	q2, [x11, #144]
	stp	q1, q0, [x11, #160]
	ldp	q1, q0, [x10, #112]
	ldr	q2, [x10, #96]
	str	q2, [x11, #96]
	stp	q1, q0, [x11, #112]
	ldp	q1, q0, [x10, #64]
	ldr	q2, [x10, #48]
	str	q2, [x11, #48]
	stp	q1, q0, [x11, #64]
	ldp	q1, q0, [x10, #16]
	ldr	q2, [x10]
	str	q2, [x11]
	stp	q1, q0, [x11, #16]
	b	Lh3q_BB37_8
Lh3q_BB37_11:
	ldr	x8, [sp]
	ldr	x9, [sp, #16]
	stp	x8, xzr, [x19]
	str	x9, [x19, #16]
	b	Lh3q_BB37_43
Lh3q_BB37_12:
	cbz	x20, Lh3q_BB37_42
	mov	x0, sp
	bl	"_std_alloc::vec::deque::VecDeque::close_gap::<#1768c683c02e1de9>"
	ldr	x8, [sp, #8]
	ldr	x9, [sp, #32]
	sub	x1, x8, x9
	subs	x24, x1, x20
	b.eq	Lh3q_BB37_42
	cmp	x24, x20
	ldr	x25, [sp, #24]
	mov	w13, #4097
	csel	x8, x24, x20, lo
	ldr	x26, [sp]
	sub	x9, x1, x8
	add	x11, x8, x8, lsl #1
	add	x12, x25, x25, lsl #1
	add	x10, x9, x9, lsl #1
	lsl	x11, x11, #4
	lsl	x27, x12, #4
	lsl	x10, x10, #4
	add	x21, x26, x27
	cmp	x10, x13
	ccmp	x11, #0, #0, lo
	csel	x3, x9, x8, eq
	cmp	x20, #1
	b.ne	Lh3q_BB37_25
	ldp	q0, q1, [x21]
	sub	x20, x1, #1
	ldr	q2, [x21, #32]
	cmp	x20, #43
	mov	x8, xzr
	stp	q0, q1, [sp, #48]
	str	q2, [sp, #80]
	b.lo	Lh3q_BB37_38
	mov	x10, x21
	mov	x9, x20
Lh3q_BB37_17:
	ldp	q0, q1, [x10, #48]
	sub	x9, x9, #42
	add	x11, x10, #2016
	cmp	x9, #42
	add	x8, x8, #42
	stp	q0, q1, [x10]
	ldp	q0, q2, [x10, #80]
	stp	q0, q2, [x10, #32]
	ldp	q1, q0, [x10, #112]
	stp	q1, q0, [x10, #64]
	ldp	q2, q0, [x10, #144]
	ldp	q1, q3, [x10, #176]
	stp	q2, q0, [x10, #96]
	ldp	q2, q0, [x10, #208]
	stp	q1, q3, [x10, #128]
	stp	q2, q0, [x10, #160]
	ldp	q1, q0, [x10, #240]
	stp	q1, q0, [x10, #192]
	ldp	q2, q0, [x10, #304]
	ldp	q1, q3, [x10, #272]
	stp	q2, q0, [x10, #256]
	ldr	q2, [x10, #336]
	stp	q1, q3, [x10, #224]
	ldp	q1, q0, [x10, #352]
	str	q2, [x10, #288]
	stp	q1, q0, [x10, #304]
	ldp	q3, q1, [x10, #384]
	ldr	q0, [x10, #416]
	stp	q1, q0, [x10, #352]
	ldp	q1, q0, [x10, #432]
	str	q3, [x10, #336]
	stp	q1, q0, [x10, #384]
	ldp	q2, q0, [x10, #496]
	ldp	q1, q3, [x10, #464]
	stp	q2, q0, [x10, #448]
	ldr	q2, [x10, #528]
	stp	q1, q3, [x10, #416]
	ldp	q1, q0, [x10, #544]
	str	q2, [x10, #480]
	stp	q1, q0, [x10, #496]
	ldp	q3, q1, [x10, #576]
	ldr	q0, [x10, #608]
	stp	q1, q0, [x10, #544]
	ldp	q1, q0, [x10, #624]
	str	q3, [x10, #528]
	stp	q1, q0, [x10, #576]
	ldp	q2, q0, [x10, #688]
	ldp	q1, q3, [x10, #656]
	stp	q2, q0, [x10, #640]
	ldr	q2, [x10, #720]
	stp	q1, q3, [x10, #608]
	ldp	q1, q0, [x10, #736]
	str	q2, [x10, #672]
	stp	q1, q0, [x10, #688]
	ldp	q3, q1, [x10, #768]
	ldr	q0, [x10, #800]
	stp	q1, q0, [x10, #736]
	ldp	q1, q0, [x10, #816]
	str	q3, [x10, #720]
	stp	q1, q0, [x10, #768]
	ldp	q2, q0, [x10, #880]
	ldp	q1, q3, [x10, #848]
	stp	q2, q0, [x10, #832]
	ldr	q2, [x10, #912]
	stp	q1, q3, [x10, #800]
	ldp	q1, q0, [x10, #928]
	str	q2, [x10, #864]
	ldr	q2, [x10, #1088]
	stp	q1, q0, [x10, #880]
	ldp	q3, q1, [x10, #960]
	ldr	q0, [x10, #992]
	stp	q1, q0, [x10, #928]
	ldp	q1, q0, [x10, #1008]
	str	q3, [x10, #912]
	stp	q1, q0, [x10, #960]
	ldr	q0, [x10, #1072]
	ldr	q1, [x10, #1040]
	str	q2, [x10, #1040]
	ldr	q2, [x10, #1056]
	str	q1, [x10, #992]
	ldr	q1, [x10, #1120]
	stp	q2, q0, [x10, #1008]
	ldr	q0, [x10, #1136]
	ldr	q2, [x10, #1104]
	str	q1, [x10, #1072]
	ldr	q1, [x10, #1168]
	str	q0, [x10, #1088]
	ldr	q0, [x10, #1184]
	str	q2, [x10, #1056]
	ldr	q2, [x10, #1152]
	str	q0, [x10, #1136]
	ldr	q0, [x10, #1232]
	str	q1, [x10, #1120]
	ldr	q1, [x10, #1216]
	str	q2, [x10, #1104]
	ldr	q2, [x10, #1200]
	str	q0, [x10, #1184]
	ldr	q0, [x10, #1280]
	str	q1, [x10, #1168]
	ldr	q1, [x10, #1264]
	str	q2, [x10, #1152]
	ldr	q2, [x10, #1248]
	str	q0, [x10, #1232]
	ldr	q0, [x10, #1328]
	str	q1, [x10, #1216]
	ldr	q1, [x10, #1312]
	str	q2, [x10, #1200]
	ldr	q2, [x10, #1296]
	str	q0, [x10, #1280]
	ldr	q0, [x10, #1376]
	str	q1, [x10, #1264]
	ldr	q1, [x10, #1360]
	str	q2, [x10, #1248]
	ldr	q2, [x10, #1344]
	str	q0, [x10, #1328]
	ldr	q0, [x10, #1424]
	str	q1, [x10, #1312]
	ldr	q1, [x10, #1408]
	str	q2, [x10, #1296]
	ldr	q2, [x10, #1392]
	str	q0, [x10, #1376]
	ldr	q0, [x10, #1472]
	str	q1, [x10, #1360]
	ldr	q1, [x10, #1456]
	str	q2, [x10, #1344]
	ldr	q2, [x10, #1440]
	str	q0, [x10, #1424]
	ldr	q0, [x10, #1520]
	str	q1, [x10, #1408]
	ldr	q1, [x10, #1504]
	str	q2, [x10, #1392]
	ldr	q2, [x10, #1488]
	str	q0, [x10, #1472]
	ldr	q0, [x10, #1568]
	str	q1, [x10, #1456]
	ldr	q1, [x10, #1552]
	str	q2, [x10, #1440]
	ldr	q2, [x10, #1536]
	str	q0, [x10, #1520]
	ldr	q0, [x10, #1616]
	str	q1, [x10, #1504]
	ldr	q1, [x10, #1600]
	str	q2, [x10, #1488]
	ldr	q2, [x10, #1584]
	str	q0, [x10, #1568]
	ldr	q0, [x10, #1664]
	str	q1, [x10, #1552]
	ldr	q1, [x10, #1648]
	str	q2, [x10, #1536]
	ldr	q2, [x10, #1632]
	str	q0, [x10, #1616]
	ldr	q0, [x10, #1712]
	str	q1, [x10, #1600]
	ldr	q1, [x10, #1696]
	str	q2, [x10, #1584]
	ldr	q2, [x10, #1680]
	str	q0, [x10, #1664]
	ldr	q0, [x10, #1760]
	str	q1, [x10, #1648]
	ldr	q1, [x10, #1744]
	str	q2, [x10, #1632]
	ldr	q2, [x10, #1728]
	str	q0, [x10, #1712]
	ldr	q0, [x10, #1808]
	str	q1, [x10, #1696]
	ldr	q1, [x10, #1792]
	str	q2, [x10, #1680]
	ldr	q2, [x10, #1776]
	str	q0, [x10, #1760]
	ldr	q0, [x10, #1856]
	str	q1, [x10, #1744]
	ldr	q1, [x10, #1840]
	str	q2, [x10, #1728]
	ldr	q2, [x10, #1824]
	str	q0, [x10, #1808]
	ldr	q0, [x10, #1904]
	str	q1, [x10, #1792]
	ldr	q1, [x10, #1888]
	str	q2, [x10, #1776]
	ldr	q2, [x10, #1872]
	str	q0, [x10, #1856]
	ldr	q0, [x10, #1952]
	str	q1, [x10, #1840]
	ldr	q1, [x10, #1936]
	str	q2, [x10, #1824]
	ldr	q2, [x10, #1920]
	str	q0, [x10, #1904]
	ldr	q0, [x10, #2000]
	str	q1, [x10, #1888]
	ldr	q1, [x10, #1984]
	str	q2, [x10, #1872]
	ldr	q2, [x10, #1968]
	str	q0, [x10, #1952]
	ldr	q0, [x10, #2048]
	str	q1, [x10, #1936]
	ldr	q1, [x10, #2032]
	str	q2, [x10, #1920]
	ldr	q2, [x10, #2016]
	str	q0, [x10, #2000]
	str	q1, [x10, #1984]
	str	q2, [x10, #1968]
	mov	x10, x11
	b.hi	Lh3q_BB37_17
	b	Lh3q_BB37_39
Lh3q_BB37_18:
	cmp	x21, x20
	b.eq	Lh3q_BB37_21
	mov	w8, #48
	madd	x9, x20, x8, x0
	madd	x10, x21, x8, x0
	sub	x8, x9, #48
	sub	x9, x10, #48
Lh3q_BB37_20:
	ldp	q1, q0, [x8, #16]
	sub	x20, x20, #1
	ldr	q2, [x8], #-48
	stp	q1, q0, [x9, #16]
	str	q2, [x9], #-48
	cbnz	x20, Lh3q_BB37_20
Lh3q_BB37_21:
	mov	x2, xzr
	bl	"_core::slots::Slots::move_over::<#87cca78d895f04c8>"
	stp	x21, x22, [sp, #8]
	stp	xzr, xzr, [x23, #24]
	b	Lh3q_BB37_42
Lh3q_BB37_22:
	b.hs	Lh3q_BB37_37
	mov	w8, #48
	add	x9, x1, x21
	mul	x9, x9, x8
	madd	x10, x21, x8, x0
	msub	x9, x20, x8, x9
	add	x8, x9, x0
	sub	x9, x10, #48
	sub	x8, x8, #48
Lh3q_BB37_24:
	ldp	q1, q0, [x8, #16]
	sub	x3, x3, #1
	ldr	q2, [x8], #-48
	stp	q1, q0, [x9, #16]
	str	q2, [x9], #-48
	cbnz	x3, Lh3q_BB37_24
	b	Lh3q_BB37_37
Lh3q_BB37_25:
	cmp	x24, #1
	b.ne	Lh3q_BB37_44
	subs	x8, x1, #1
	mov	w9, #48
	madd	x8, x8, x9, x21
	ldp	q0, q1, [x8]
	ldr	q2, [x8, #32]
	str	q2, [sp, #80]
	stp	q0, q1, [sp, #48]
	b.eq	Lh3q_BB37_28
	mov	w8, #48
	mov	x9, #-48
	add	x0, x21, #48
	madd	x2, x1, x8, x9
	mov	x1, x21
	bl	_memmove
Lh3q_BB37_28:
	ldp	q0, q1, [sp, #48]
	ldr	q2, [sp, #80]
	str	q2, [x21, #32]
	stp	q0, q1, [x21]
	b	Lh3q_BB37_42
Lh3q_BB37_29:
	mov	x9, x20
Lh3q_BB37_30:
	add	x11, x9, x8
	add	x10, x9, x9, lsl #1
	add	x8, x11, x11, lsl #1
	cmp	x9, x11
	lsl	x10, x10, #4
	lsl	x8, x8, #4
	b.hs	Lh3q_BB37_34
	cmp	x21, x9
	b.eq	Lh3q_BB37_37
	add	x8, x0, x8
	add	x9, x0, x10
Lh3q_BB37_33:
	ldp	q1, q0, [x8, #16]
	subs	x3, x3, #1
	ldr	q2, [x8], #48
	stp	q1, q0, [x9, #16]
	str	q2, [x9], #48
	b.ne	Lh3q_BB37_33
	b	Lh3q_BB37_37
Lh3q_BB37_34:
	cmp	x21, x9
	b.eq	Lh3q_BB37_37
	add	x9, x3, x3, lsl #1
	add	x10, x10, x0
	lsl	x9, x9, #4
	add	x11, x9, x0
	add	x9, x10, x9
	add	x8, x11, x8
	sub	x9, x9, #48
	sub	x8, x8, #48
Lh3q_BB37_36:
	ldp	q1, q0, [x8, #16]
	sub	x3, x3, #1
	ldr	q2, [x8], #-48
	stp	q1, q0, [x9, #16]
	str	q2, [x9], #-48
	cbnz	x3, Lh3q_BB37_36
Lh3q_BB37_37:
	mov	x1, xzr
	mov	x2, x21
	mov	x3, x20
	bl	"_core::slots::Slots::move_over::<#87cca78d895f04c8>"
	stp	x21, x22, [sp, #8]
	stp	x20, xzr, [sp, #24]
	b	Lh3q_BB37_42
Lh3q_BB37_38:
	mov	x9, x20
Lh3q_BB37_39:
	cmp	x20, x8
	b.eq	Lh3q_BB37_41
	mov	w10, #48
	madd	x0, x8, x10, x21
	add	x8, x9, x9, lsl #1
	lsl	x2, x8, #4
	add	x1, x0, #48
	bl	_memmove
Lh3q_BB37_41:
	mov	w8, #48
	ldp	q0, q1, [sp, #48]
	madd	x8, x20, x8, x21
	ldr	q2, [sp, #80]
	stp	q0, q1, [x8]
	str	q2, [x8, #32]
Lh3q_BB37_42:
	mov	x0, sp
	bl	"_std_alloc::vec::deque::VecDeque::close_gap::<#1768c683c02e1de9>"
	ldr	x8, [sp]
	ldur	q0, [sp, #8]
	str	x8, [x19]
	stur	q0, [x19, #8]
Lh3q_BB37_43:
	ldp	x29, x30, [sp, #480]
	ldp	x20, x19, [sp, #464]
	ldp	x22, x21, [sp, #448]
	ldp	x24, x23, [sp, #432]
	ldp	x26, x25, [sp, #416]
	ldp	x28, x27, [sp, #400]
	add	sp, sp, #496
	ret
Lh3q_BB37_44:
	add	x8, x3, x3, lsl #1
	lsl	x8, x8, #4
	cmp	x8, #1, lsl #12
	b.hi	Lh3q_BB37_46
	mov	x0, x21
	mov	x2, x20
	bl	"_core::slice::edits::turn_through_room::<#87cca78d895f04c8>"
	b	Lh3q_BB37_42
Lh3q_BB37_46:
	cmp	x20, #32
	mov	x22, xzr
	b.lo	Lh3q_BB37_51
	cmp	x24, #32
	b.lo	Lh3q_BB37_51
	mov	x22, xzr
Lh3q_BB37_49:
	cmp	x24, x20
	add	x8, x20, x22
	mov	w9, #48
	csel	x23, x24, x20, lo
	madd	x2, x8, x9, x21
	sub	x8, x8, x23
	mov	x1, x23
	madd	x0, x8, x9, x21
	bl	"_core::slice::edits::slice+T::swap_with_slice::<#87cca78d895f04c8>"
	cmp	x20, x24
	csel	x8, x23, xzr, hi
	sub	x20, x20, x8
	csel	x8, xzr, x23, hi
	cmp	x20, #32
	sub	x24, x24, x8
	add	x22, x8, x22
	b.lo	Lh3q_BB37_51
	cmp	x24, #31
	b.hi	Lh3q_BB37_49
Lh3q_BB37_51:
	cmp	x20, #15
	add	x23, x22, x20
	b.ls	Lh3q_BB37_53
	lsr	x3, x20, #1
	mov	w9, #48
	add	x0, x26, x27
	mov	x1, x22
	sub	x8, x23, x3
	madd	x2, x8, x9, x21
	bl	"_core::slice::edits::mirror::<#87cca78d895f04c8>"
	b	Lh3q_BB37_60
Lh3q_BB37_53:
	cmp	x20, #2
	b.lo	Lh3q_BB37_60
	add	x10, x20, x22
	mov	w8, #48
	mov	x12, x22
	add	x11, x10, x25
	madd	x9, x22, x8, x27
	sub	x10, x10, #1
	madd	x11, x11, x8, x26
	add	x8, x26, x9
	sub	x9, x11, #48
	mov	x11, x20
	b	Lh3q_BB37_57
Lh3q_BB37_55:
	ldp	q0, q1, [x9]
	ldr	q4, [x9, #32]
	ldp	q2, q3, [x8]
	stp	q0, q1, [x8]
	ldr	q0, [x8, #32]
	str	q4, [x8, #32]
	stp	q3, q0, [x9, #16]
	str	q2, [x9]
Lh3q_BB37_56:
	sub	x11, x11, #2
	add	x12, x12, #1
	add	x8, x8, #48
	cmp	x11, #1
	sub	x9, x9, #48
	sub	x10, x10, #1
	b.ls	Lh3q_BB37_60
Lh3q_BB37_57:
	cmp	x12, x10
	b.lo	Lh3q_BB37_55
	cmp	x10, x12
	b.hs	Lh3q_BB37_56
	ldp	q0, q1, [x8]
	ldr	q4, [x8, #32]
	ldp	q2, q3, [x9]
	stp	q0, q1, [x9]
	ldr	q0, [x9, #32]
	str	q4, [x9, #32]
	stp	q3, q0, [x8, #16]
	str	q2, [x8]
	b	Lh3q_BB37_56
Lh3q_BB37_60:
	cmp	x24, #15
	add	x28, x23, x24
	b.ls	Lh3q_BB37_62
	lsr	x3, x24, #1
	mov	w9, #48
	add	x0, x26, x27
	add	x1, x22, x20
	sub	x8, x28, x3
	madd	x2, x8, x9, x21
	bl	"_core::slice::edits::mirror::<#87cca78d895f04c8>"
	b	Lh3q_BB37_69
Lh3q_BB37_62:
	cmp	x24, #2
	b.lo	Lh3q_BB37_69
	add	x9, x20, x24
	mov	w8, #48
	add	x11, x9, x22
	madd	x10, x23, x8, x27
	add	x9, x11, x25
	madd	x9, x9, x8, x26
	add	x8, x26, x10
	sub	x10, x11, #1
	mov	x11, x24
	sub	x9, x9, #48
	b	Lh3q_BB37_66
Lh3q_BB37_64:
	ldp	q0, q1, [x9]
	ldr	q4, [x9, #32]
	ldp	q2, q3, [x8]
	stp	q0, q1, [x8]
	ldr	q0, [x8, #32]
	str	q4, [x8, #32]
	stp	q3, q0, [x9, #16]
	str	q2, [x9]
Lh3q_BB37_65:
	sub	x11, x11, #2
	add	x23, x23, #1
	add	x8, x8, #48
	cmp	x11, #1
	sub	x9, x9, #48
	sub	x10, x10, #1
	b.ls	Lh3q_BB37_69
Lh3q_BB37_66:
	cmp	x23, x10
	b.lo	Lh3q_BB37_64
	cmp	x10, x23
	b.hs	Lh3q_BB37_65
	ldp	q0, q1, [x8]
	ldr	q4, [x8, #32]
	ldp	q2, q3, [x9]
	stp	q0, q1, [x9]
	ldr	q0, [x9, #32]
	str	q4, [x9, #32]
	stp	q3, q0, [x8, #16]
	str	q2, [x8]
	b	Lh3q_BB37_65
Lh3q_BB37_69:
	sub	x8, x28, x22
	cmp	x8, #15
	b.ls	Lh3q_BB37_71
	lsr	x3, x8, #1
	mov	w9, #48
	mov	x0, x21
	mov	x1, x22
	sub	x8, x28, x3
	madd	x2, x8, x9, x21
	bl	"_core::slice::edits::mirror::<#87cca78d895f04c8>"
	b	Lh3q_BB37_42
Lh3q_BB37_71:
	cmp	x8, #2
	b.lo	Lh3q_BB37_42
	add	x10, x20, x24
	mov	w9, #48
	add	x12, x10, x22
	madd	x11, x22, x9, x27
	add	x10, x12, x25
	madd	x10, x10, x9, x26
	add	x9, x26, x11
	sub	x11, x12, #1
	sub	x10, x10, #48
	b	Lh3q_BB37_75
Lh3q_BB37_73:
	ldp	q0, q1, [x10]
	ldr	q4, [x10, #32]
	ldp	q2, q3, [x9]
	stp	q0, q1, [x9]
	ldr	q0, [x9, #32]
	str	q4, [x9, #32]
	stp	q3, q0, [x10, #16]
	str	q2, [x10]
Lh3q_BB37_74:
	sub	x8, x8, #2
	add	x22, x22, #1
	add	x9, x9, #48
	cmp	x8, #1
	sub	x10, x10, #48
	sub	x11, x11, #1
	b.ls	Lh3q_BB37_42
Lh3q_BB37_75:
	cmp	x22, x11
	b.lo	Lh3q_BB37_73
	cmp	x11, x22
	b.hs	Lh3q_BB37_74
	ldp	q0, q1, [x9]
	ldr	q4, [x9, #32]
	ldp	q2, q3, [x10]
	stp	q0, q1, [x10]
	ldr	q0, [x10, #32]
	str	q4, [x10, #32]
	stp	q3, q0, [x9, #16]
	str	q2, [x9]
	b	Lh3q_BB37_74

	.p2align	2
"_core::slots::Slots::move_over::<#87cca78d895f04c8>":
	cmp	x2, x1
	csel	x8, x2, x1, lo
	csel	x9, x2, x1, hi
	add	x8, x8, x3
	cmp	x8, x9
	b.ls	Lh3q_BB38_8
	subs	x9, x1, x2
	b.ls	Lh3q_BB38_11
	cmp	x3, #43
	mov	x10, x2
	mov	x8, x3
	b.lo	Lh3q_BB38_15
	mov	w8, #48
	mov	x10, x2
	madd	x11, x1, x8, x0
	madd	x12, x2, x8, x0
	mov	x8, x3
	b	Lh3q_BB38_6
Lh3q_BB38_4:
	ldp	q1, q0, [x11, #16]
	ldr	q2, [x11]
	str	q2, [x12]
	stp	q1, q0, [x12, #16]
	ldp	q1, q0, [x11, #64]
	ldr	q2, [x11, #48]
	str	q2, [x12, #48]
	stp	q1, q0, [x12, #64]
	ldp	q1, q0, [x11, #112]
	ldr	q2, [x11, #96]
	str	q2, [x12, #96]
	stp	q1, q0, [x12, #112]
	ldp	q1, q0, [x11, #160]
	ldr	q2, [x11, #144]
	str	q2, [x12, #144]
	stp	q1, q0, [x12, #160]
	ldp	q1, q0, [x11, #208]
	ldr	q2, [x11, #192]
	str	q2, [x12, #192]
	stp	q1, q0, [x12, #208]
	ldp	q1, q0, [x11, #256]
	ldr	q2, [x11, #240]
	str	q2, [x12, #240]
	stp	q1, q0, [x12, #256]
	ldp	q1, q0, [x11, #304]
	ldr	q2, [x11, #288]
	str	q2, [x12, #288]
	stp	q1, q0, [x12, #304]
	ldp	q1, q0, [x11, #352]
	ldr	q2, [x11, #336]
	str	q2, [x12, #336]
	stp	q1, q0, [x12, #352]
	ldp	q1, q0, [x11, #400]
	ldr	q2, [x11, #384]
	str	q2, [x12, #384]
	stp	q1, q0, [x12, #400]
	ldp	q1, q0, [x11, #448]
	ldr	q2, [x11, #432]
	str	q2, [x12, #432]
	stp	q1, q0, [x12, #448]
	ldp	q1, q0, [x11, #496]
	ldr	q2, [x11, #480]
	str	q2, [x12, #480]
	stp	q1, q0, [x12, #496]
	ldp	q1, q0, [x11, #544]
	ldr	q2, [x11, #528]
	str	q2, [x12, #528]
	stp	q1, q0, [x12, #544]
	ldp	q1, q0, [x11, #592]
	ldr	q2, [x11, #576]
	str	q2, [x12, #576]
	stp	q1, q0, [x12, #592]
	ldp	q1, q0, [x11, #640]
	ldr	q2, [x11, #624]
	str	q2, [x12, #624]
	stp	q1, q0, [x12, #640]
	ldp	q1, q0, [x11, #688]
	ldr	q2, [x11, #672]
	str	q2, [x12, #672]
	stp	q1, q0, [x12, #688]
	ldp	q1, q0, [x11, #736]
	ldr	q2, [x11, #720]
	str	q2, [x12, #720]
	stp	q1, q0, [x12, #736]
	ldp	q1, q0, [x11, #784]
	ldr	q2, [x11, #768]
	str	q2, [x12, #768]
	stp	q1, q0, [x12, #784]
	ldp	q1, q0, [x11, #832]
	ldr	q2, [x11, #816]
	str	q2, [x12, #816]
	stp	q1, q0, [x12, #832]
	ldp	q1, q0, [x11, #880]
	ldr	q2, [x11, #864]
	str	q2, [x12, #864]
	stp	q1, q0, [x12, #880]
	ldp	q1, q0, [x11, #928]
	ldr	q2, [x11, #912]
	str	q2, [x12, #912]
	stp	q1, q0, [x12, #928]
	ldp	q1, q0, [x11, #976]
	ldr	q2, [x11, #960]
	str	q2, [x12, #960]
	stp	q1, q0, [x12, #976]
	ldp	q2, q1, [x11, #1008]
	ldr	q0, [x11, #1040]
	str	q0, [x12, #1040]
	stp	q2, q1, [x12, #1008]
	ldr	q0, [x11, #1088]
	ldr	q1, [x11, #1072]
	ldr	q2, [x11, #1056]
	str	q0, [x12, #1088]
	str	q1, [x12, #1072]
	str	q2, [x12, #1056]
	ldr	q0, [x11, #1136]
	ldr	q1, [x11, #1120]
	ldr	q2, [x11, #1104]
	str	q0, [x12, #1136]
	str	q1, [x12, #1120]
	str	q2, [x12, #1104]
	ldr	q0, [x11, #1184]
	ldr	q1, [x11, #1168]
	ldr	q2, [x11, #1152]
	str	q0, [x12, #1184]
	str	q1, [x12, #1168]
	str	q2, [x12, #1152]
	ldr	q0, [x11, #1232]
	ldr	q1, [x11, #1216]
	ldr	q2, [x11, #1200]
	str	q0, [x12, #1232]
	str	q1, [x12, #1216]
	str	q2, [x12, #1200]
	ldr	q0, [x11, #1280]
	ldr	q1, [x11, #1264]
	ldr	q2, [x11, #1248]
	str	q0, [x12, #1280]
	str	q1, [x12, #1264]
	str	q2, [x12, #1248]
	ldr	q0, [x11, #1328]
	ldr	q1, [x11, #1312]
	ldr	q2, [x11, #1296]
	str	q0, [x12, #1328]
	str	q1, [x12, #1312]
	str	q2, [x12, #1296]
	ldr	q0, [x11, #1376]
	ldr	q1, [x11, #1360]
	ldr	q2, [x11, #1344]
	str	q0, [x12, #1376]
	str	q1, [x12, #1360]
	str	q2, [x12, #1344]
	ldr	q0, [x11, #1424]
	ldr	q1, [x11, #1408]
	ldr	q2, [x11, #1392]
	str	q0, [x12, #1424]
	str	q1, [x12, #1408]
	str	q2, [x12, #1392]
	ldr	q0, [x11, #1472]
	ldr	q1, [x11, #1456]
	ldr	q2, [x11, #1440]
	str	q0, [x12, #1472]
	str	q1, [x12, #1456]
	str	q2, [x12, #1440]
	ldr	q0, [x11, #1520]
	ldr	q1, [x11, #1504]
	ldr	q2, [x11, #1488]
	str	q0, [x12, #1520]
	str	q1, [x12, #1504]
	str	q2, [x12, #1488]
	ldr	q0, [x11, #1568]
	ldr	q1, [x11, #1552]
	ldr	q2, [x11, #1536]
	str	q0, [x12, #1568]
	str	q1, [x12, #1552]
	str	q2, [x12, #1536]
	ldr	q0, [x11, #1616]
	ldr	q1, [x11, #1600]
	ldr	q2, [x11, #1584]
	str	q0, [x12, #1616]
	str	q1, [x12, #1600]
	str	q2, [x12, #1584]
	ldr	q0, [x11, #1664]
	ldr	q1, [x11, #1648]
	ldr	q2, [x11, #1632]
	str	q0, [x12, #1664]
	str	q1, [x12, #1648]
	str	q2, [x12, #1632]
	ldr	q0, [x11, #1712]
	ldr	q1, [x11, #1696]
	ldr	q2, [x11, #1680]
	str	q0, [x12, #1712]
	str	q1, [x12, #1696]
	str	q2, [x12, #1680]
	ldr	q0, [x11, #1760]
	ldr	q1, [x11, #1744]
	ldr	q2, [x11, #1728]
	str	q0, [x12, #1760]
	str	q1, [x12, #1744]
	str	q2, [x12, #1728]
	ldr	q0, [x11, #1808]
	ldr	q1, [x11, #1792]
	ldr	q2, [x11, #1776]
	str	q0, [x12, #1808]
	str	q1, [x12, #1792]
	str	q2, [x12, #1776]
	ldr	q0, [x11, #1856]
	ldr	q1, [x11, #1840]
	ldr	q2, [x11, #1824]
	str	q0, [x12, #1856]
	str	q1, [x12, #1840]
	str	q2, [x12, #1824]
	ldr	q0, [x11, #1904]
	ldr	q1, [x11, #1888]
	ldr	q2, [x11, #1872]
	str	q0, [x12, #1904]
	str	q1, [x12, #1888]
	str	q2, [x12, #1872]
	ldr	q0, [x11, #1952]
	ldr	q1, [x11, #1936]
	ldr	q2, [x11, #1920]
	str	q0, [x12, #1952]
	str	q1, [x12, #1936]
	str	q2, [x12, #1920]
	ldr	q0, [x11, #2000]
	ldr	q1, [x11, #1984]
	ldr	q2, [x11, #1968]
	str	q0, [x12, #2000]
	str	q1, [x12, #1984]
	str	q2, [x12, #1968]
Lh3q_BB38_5:
	sub	x8, x8, #42
	add	x10, x10, #42
	add	x1, x1, #42
	cmp	x8, #42
	add	x11, x11, #2016
	add	x12, x12, #2016
	b.ls	Lh3q_BB38_15
Lh3q_BB38_6:
	cmp	x10, x1
	b.lo	Lh3q_BB38_4
	ldr	q0, [x11, #2000]
	ldr	q1, [x11, #1984]
	ldr	q2, [x11, #1968]
	str	q0, [x12, #2000]
	str	q1, [x12, #1984]
	str	q2, [x12, #1968]
	ldr	q0, [x11, #1952]
	ldr	q1, [x11, #1936]
	ldr	q2, [x11, #1920]
	str	q0, [x12, #1952]
	str	q1, [x12, #1936]
	str	q2, [x12, #1920]
	ldr	q0, [x11, #1904]
	ldr	q1, [x11, #1888]
	ldr	q2, [x11, #1872]
	str	q0, [x12, #1904]
	str	q1, [x12, #1888]
	str	q2, [x12, #1872]
	ldr	q0, [x11, #1856]
	ldr	q1, [x11, #1840]
	ldr	q2, [x11, #1824]
	str	q0, [x12, #1856]
	str	q1, [x12, #1840]
	str	q2, [x12, #1824]
	ldr	q0, [x11, #1808]
	ldr	q1, [x11, #1792]
	ldr	q2, [x11, #1776]
	str	q0, [x12, #1808]
	str	q1, [x12, #1792]
	str	q2, [x12, #1776]
	ldr	q0, [x11, #1760]
	ldr	q1, [x11, #1744]
	ldr	q2, [x11, #1728]
	str	q0, [x12, #1760]
	str	q1, [x12, #1744]
	str	q2, [x12, #1728]
	ldr	q0, [x11, #1712]
	ldr	q1, [x11, #1696]
	ldr	q2, [x11, #1680]
	str	q0, [x12, #1712]
	str	q1, [x12, #1696]
	str	q2, [x12, #1680]
	ldr	q0, [x11, #1664]
	ldr	q1, [x11, #1648]
	ldr	q2, [x11, #1632]
	str	q0, [x12, #1664]
	str	q1, [x12, #1648]
	str	q2, [x12, #1632]
	ldr	q0, [x11, #1616]
	ldr	q1, [x11, #1600]
	ldr	q2, [x11, #1584]
	str	q0, [x12, #1616]
	str	q1, [x12, #1600]
	str	q2, [x12, #1584]
	ldr	q0, [x11, #1568]
	ldr	q1, [x11, #1552]
	ldr	q2, [x11, #1536]
	str	q0, [x12, #1568]
	str	q1, [x12, #1552]
	str	q2, [x12, #1536]
	ldr	q0, [x11, #1520]
	ldr	q1, [x11, #1504]
	ldr	q2, [x11, #1488]
	str	q0, [x12, #1520]
	str	q1, [x12, #1504]
	str	q2, [x12, #1488]
	ldr	q0, [x11, #1472]
	ldr	q1, [x11, #1456]
	ldr	q2, [x11, #1440]
	str	q0, [x12, #1472]
	str	q1, [x12, #1456]
	str	q2, [x12, #1440]
	ldr	q0, [x11, #1424]
	ldr	q1, [x11, #1408]
	ldr	q2, [x11, #1392]
	str	q0, [x12, #1424]
	str	q1, [x12, #1408]
	str	q2, [x12, #1392]
	ldr	q0, [x11, #1376]
	ldr	q1, [x11, #1360]
	ldr	q2, [x11, #1344]
	str	q0, [x12, #1376]
	str	q1, [x12, #1360]
	str	q2, [x12, #1344]
	ldr	q0, [x11, #1328]
	ldr	q1, [x11, #1312]
	ldr	q2, [x11, #1296]
	str	q0, [x12, #1328]
	str	q1, [x12, #1312]
	str	q2, [x12, #1296]
	ldr	q0, [x11, #1280]
	ldr	q1, [x11, #1264]
	ldr	q2, [x11, #1248]
	str	q0, [x12, #1280]
	str	q1, [x12, #1264]
	str	q2, [x12, #1248]
	ldr	q0, [x11, #1232]
	ldr	q1, [x11, #1216]
	ldr	q2, [x11, #1200]
	str	q0, [x12, #1232]
	str	q1, [x12, #1216]
	str	q2, [x12, #1200]
	ldr	q0, [x11, #1184]
	ldr	q1, [x11, #1168]
	ldr	q2, [x11, #1152]
	str	q0, [x12, #1184]
	str	q1, [x12, #1168]
	str	q2, [x12, #1152]
	ldr	q0, [x11, #1136]
	ldr	q1, [x11, #1120]
	ldr	q2, [x11, #1104]
	str	q0, [x12, #1136]
	str	q1, [x12, #1120]
	str	q2, [x12, #1104]
	ldr	q0, [x11, #1088]
	ldr	q1, [x11, #1072]
	ldr	q2, [x11, #1056]
	str	q0, [x12, #1088]
	str	q1, [x12, #1072]
	str	q2, [x12, #1056]
	ldp	q2, q1, [x11, #1008]
	ldr	q0, [x11, #1040]
	str	q0, [x12, #1040]
	stp	q2, q1, [x12, #1008]
	ldp	q1, q0, [x11, #976]
	ldr	q2, [x11, #960]
	str	q2, [x12, #960]
	stp	q1, q0, [x12, #976]
	ldp	q1, q0, [x11, #928]
	ldr	q2, [x11, #912]
	str	q2, [x12, #912]
	stp	q1, q0, [x12, #928]
	ldp	q1, q0, [x11, #880]
	ldr	q2, [x11, #864]
	str	q2, [x12, #864]
	stp	q1, q0, [x12, #880]
	ldp	q1, q0, [x11, #832]
	ldr	q2, [x11, #816]
	str	q2, [x12, #816]
	stp	q1, q0, [x12, #832]
	ldp	q1, q0, [x11, #784]
	ldr	q2, [x11, #768]
	str	q2, [x12, #768]
	stp	q1, q0, [x12, #784]
	ldp	q1, q0, [x11, #736]
	ldr	q2, [x11, #720]
	str	q2, [x12, #720]
	stp	q1, q0, [x12, #736]
	ldp	q1, q0, [x11, #688]
	ldr	q2, [x11, #672]
	str	q2, [x12, #672]
	stp	q1, q0, [x12, #688]
	ldp	q1, q0, [x11, #640]
	ldr	q2, [x11, #624]
	str	q2, [x12, #624]
	stp	q1, q0, [x12, #640]
	ldp	q1, q0, [x11, #592]
	ldr	q2, [x11, #576]
	str	q2, [x12, #576]
	stp	q1, q0, [x12, #592]
	ldp	q1, q0, [x11, #544]
	ldr	q2, [x11, #528]
	str	q2, [x12, #528]
	stp	q1, q0, [x12, #544]
	ldp	q1, q0, [x11, #496]
	ldr	q2, [x11, #480]
	str	q2, [x12, #480]
	stp	q1, q0, [x12, #496]
	ldp	q1, q0, [x11, #448]
	ldr	q2, [x11, #432]
	str	q2, [x12, #432]
	stp	q1, q0, [x12, #448]
	ldp	q1, q0, [x11, #400]
	ldr	q2, [x11, #384]
	str	q2, [x12, #384]
	stp	q1, q0, [x12, #400]
	ldp	q1, q0, [x11, #352]
	ldr	q2, [x11, #336]
	str	q2, [x12, #336]
	stp	q1, q0, [x12, #352]
	ldp	q1, q0, [x11, #304]
	ldr	q2, [x11, #288]
	str	q2, [x12, #288]
	stp	q1, q0, [x12, #304]
	ldp	q1, q0, [x11, #256]
	ldr	q2, [x11, #240]
	str	q2, [x12, #240]
	stp	q1, q0, [x12, #256]
	ldp	q1, q0, [x11, #208]
	ldr	q2, [x11, #192]
	str	q2, [x12, #192]
	stp	q1, q0, [x12, #208]
	ldp	q1, q0, [x11, #160]
	ldr	q2, [x11, #144]
	str	q2, [x12, #144]
	stp	q1, q0, [x12, #160]
	ldp	q1, q0, [x11, #112]
	ldr	q2, [x11, #96]
	str	q2, [x12, #96]
	stp	q1, q0, [x12, #112]
	ldp	q1, q0, [x11, #64]
	ldr	q2, [x11, #48]
	str	q2, [x12, #48]
	stp	q1, q0, [x12, #64]
	ldp	q1, q0, [x11, #16]
	ldr	q2, [x11]
	str	q2, [x12]
	stp	q1, q0, [x12, #16]
	b	Lh3q_BB38_5
Lh3q_BB38_8:
	add	x8, x1, x1, lsl #1
	add	x9, x2, x2, lsl #1
	add	x10, x3, x3, lsl #1
	lsl	x8, x8, #4
	lsl	x9, x9, #4
	lsl	x2, x10, #4
	sub	x10, x9, x8
	add	x1, x0, x8
	add	x0, x0, x9
	cmp	x10, x2
	b.hs	Lh3q_BB38_19
	cbz	x3, Lh3q_BB38_23
Lh3q_BB38_10:
	ldp	q1, q0, [x1, #16]
	subs	x3, x3, #1
	ldr	q2, [x1], #48
	stp	q1, q0, [x0, #16]
	str	q2, [x0], #48
	b.ne	Lh3q_BB38_10
	b	Lh3q_BB38_23
Lh3q_BB38_11:
	b.hs	Lh3q_BB38_23
	cbz	x3, Lh3q_BB38_23
	add	x8, x1, x1, lsl #1
	add	x9, x2, x2, lsl #1
	add	x10, x3, x3, lsl #1
	lsl	x8, x8, #4
	lsl	x9, x9, #4
	lsl	x10, x10, #4
	add	x8, x10, x8
	add	x9, x10, x9
	add	x8, x8, x0
	add	x9, x9, x0
	sub	x8, x8, #48
	sub	x9, x9, #48
Lh3q_BB38_14:
	ldp	q1, q0, [x8, #16]
	sub	x3, x3, #1
	ldr	q2, [x8], #-48
	stp	q1, q0, [x9, #16]
	str	q2, [x9], #-48
	cbnz	x3, Lh3q_BB38_14
	b	Lh3q_BB38_23
Lh3q_BB38_15:
	add	x12, x10, x9
	add	x11, x10, x10, lsl #1
	add	x9, x12, x12, lsl #1
	cmp	x10, x12
	add	x12, x3, x2
	lsl	x11, x11, #4
	lsl	x9, x9, #4
	b.hs	Lh3q_BB38_20
	cmp	x12, x10
	b.eq	Lh3q_BB38_23
	add	x9, x0, x9
	add	x10, x0, x11
Lh3q_BB38_18:
	ldp	q1, q0, [x9, #16]
	subs	x8, x8, #1
	ldr	q2, [x9], #48
	stp	q1, q0, [x10, #16]
	str	q2, [x10], #48
	b.ne	Lh3q_BB38_18
	b	Lh3q_BB38_23
Lh3q_BB38_19:
	b	_memmove
Lh3q_BB38_20:
	cmp	x12, x10
	b.eq	Lh3q_BB38_23
	add	x10, x8, x8, lsl #1
	lsl	x10, x10, #4
	add	x12, x10, x0
	add	x10, x11, x10
	add	x9, x12, x9
	add	x10, x10, x0
	sub	x9, x9, #48
	sub	x10, x10, #48
Lh3q_BB38_22:
	ldp	q1, q0, [x9, #16]
	sub	x8, x8, #1
	ldr	q2, [x9], #-48
	stp	q1, q0, [x10, #16]
	str	q2, [x10], #-48
	cbnz	x8, Lh3q_BB38_22
Lh3q_BB38_23:
	ret

	.p2align	2
"_core::slice::edits::turn_through_room::<#87cca78d895f04c8>":
	stp	x28, x27, [sp, #-80]!
	stp	x24, x23, [sp, #16]
	stp	x22, x21, [sp, #32]
	stp	x20, x19, [sp, #48]
	stp	x29, x30, [sp, #64]
	add	x29, sp, #64
	sub	sp, sp, #3072
	str	xzr, [sp]
	sub	sp, sp, #1024
	mov	x22, x1
	mov	x20, x0
	sub	x23, x1, x3
	mov	x0, sp
	mov	w1, #4096
	mov	x19, x3
	mov	x21, x2
	mov	x24, sp
	bl	_bzero
	cmp	x19, x21
	b.ne	Lh3q_BB39_9
	add	x8, x19, x19, lsl #1
	lsl	x21, x8, #4
	sub	x8, x24, x20
	cmp	x8, x21
	b.hs	Lh3q_BB39_13
	mov	x8, sp
	mov	x9, x20
	mov	x10, x19
Lh3q_BB39_3:
	ldp	q0, q1, [x9]
	subs	x10, x10, #1
	ldr	q2, [x9, #32]
	add	x9, x9, #48
	stp	q0, q1, [x8]
	str	q2, [x8, #32]
	add	x8, x8, #48
	b.ne	Lh3q_BB39_3
	cmp	x23, #43
	b.lo	Lh3q_BB39_14
Lh3q_BB39_5:
	mov	x9, xzr
	add	x10, x20, x21
	mov	x11, x20
	mov	x8, x23
	b	Lh3q_BB39_7
Lh3q_BB39_6:
	ldp	q1, q0, [x10, #16]
	ldr	q2, [x10]
	str	q2, [x11]
	stp	q1, q0, [x11, #16]
	ldp	q1, q0, [x10, #64]
	ldr	q2, [x10, #48]
	str	q2, [x11, #48]
	stp	q1, q0, [x11, #64]
	ldp	q1, q0, [x10, #112]
	ldr	q2, [x10, #96]
	str	q2, [x11, #96]
	stp	q1, q0, [x11, #112]
	ldp	q1, q0, [x10, #160]
	ldr	q2, [x10, #144]
	str	q2, [x11, #144]
	stp	q1, q0, [x11, #160]
	ldp	q1, q0, [x10, #208]
	ldr	q2, [x10, #192]
	str	q2, [x11, #192]
	stp	q1, q0, [x11, #208]
	ldp	q1, q0, [x10, #256]
	ldr	q2, [x10, #240]
	str	q2, [x11, #240]
	stp	q1, q0, [x11, #256]
	ldp	q1, q0, [x10, #304]
	ldr	q2, [x10, #288]
	str	q2, [x11, #288]
	stp	q1, q0, [x11, #304]
	ldp	q1, q0, [x10, #352]
	ldr	q2, [x10, #336]
	str	q2, [x11, #336]
	stp	q1, q0, [x11, #352]
	ldp	q1, q0, [x10, #400]
	ldr	q2, [x10, #384]
	str	q2, [x11, #384]
	stp	q1, q0, [x11, #400]
	ldp	q1, q0, [x10, #448]
	ldr	q2, [x10, #432]
	str	q2, [x11, #432]
	stp	q1, q0, [x11, #448]
	ldp	q1, q0, [x10, #496]
	ldr	q2, [x10, #480]
	str	q2, [x11, #480]
	stp	q1, q0, [x11, #496]
	ldp	q1, q0, [x10, #544]
	ldr	q2, [x10, #528]
	str	q2, [x11, #528]
	stp	q1, q0, [x11, #544]
	ldp	q1, q0, [x10, #592]
	ldr	q2, [x10, #576]
	str	q2, [x11, #576]
	stp	q1, q0, [x11, #592]
	ldp	q1, q0, [x10, #640]
	ldr	q2, [x10, #624]
	str	q2, [x11, #624]
	stp	q1, q0, [x11, #640]
	ldp	q1, q0, [x10, #688]
	ldr	q2, [x10, #672]
	str	q2, [x11, #672]
	stp	q1, q0, [x11, #688]
	ldp	q1, q0, [x10, #736]
	ldr	q2, [x10, #720]
	str	q2, [x11, #720]
	stp	q1, q0, [x11, #736]
	ldp	q1, q0, [x10, #784]
	ldr	q2, [x10, #768]
	str	q2, [x11, #768]
	stp	q1, q0, [x11, #784]
	ldp	q1, q0, [x10, #832]
	ldr	q2, [x10, #816]
	str	q2, [x11, #816]
	stp	q1, q0, [x11, #832]
	ldp	q1, q0, [x10, #880]
	ldr	q2, [x10, #864]
	str	q2, [x11, #864]
	stp	q1, q0, [x11, #880]
	ldp	q1, q0, [x10, #928]
	ldr	q2, [x10, #912]
	str	q2, [x11, #912]
	stp	q1, q0, [x11, #928]
	ldp	q1, q0, [x10, #976]
	ldr	q2, [x10, #960]
	str	q2, [x11, #960]
	stp	q1, q0, [x11, #976]
	ldp	q2, q1, [x10, #1008]
	ldr	q0, [x10, #1040]
	str	q0, [x11, #1040]
	stp	q2, q1, [x11, #1008]
	ldr	q0, [x10, #1088]
	ldr	q1, [x10, #1072]
	ldr	q2, [x10, #1056]
	str	q0, [x11, #1088]
	str	q1, [x11, #1072]
	str	q2, [x11, #1056]
	ldr	q0, [x10, #1136]
	ldr	q1, [x10, #1120]
	ldr	q2, [x10, #1104]
	str	q0, [x11, #1136]
	str	q1, [x11, #1120]
	str	q2, [x11, #1104]
	ldr	q0, [x10, #1184]
	ldr	q1, [x10, #1168]
	ldr	q2, [x10, #1152]
	str	q0, [x11, #1184]
	str	q1, [x11, #1168]
	str	q2, [x11, #1152]
	ldr	q0, [x10, #1232]
	ldr	q1, [x10, #1216]
	ldr	q2, [x10, #1200]
	str	q0, [x11, #1232]
	str	q1, [x11, #1216]
	str	q2, [x11, #1200]
	ldr	q0, [x10, #1280]
	ldr	q1, [x10, #1264]
	ldr	q2, [x10, #1248]
	str	q0, [x11, #1280]
	str	q1, [x11, #1264]
	str	q2, [x11, #1248]
	ldr	q0, [x10, #1328]
	ldr	q1, [x10, #1312]
	ldr	q2, [x10, #1296]
	str	q0, [x11, #1328]
	str	q1, [x11, #1312]
	str	q2, [x11, #1296]
	ldr	q0, [x10, #1376]
	ldr	q1, [x10, #1360]
	ldr	q2, [x10, #1344]
	str	q0, [x11, #1376]
	str	q1, [x11, #1360]
	str	q2, [x11, #1344]
	ldr	q0, [x10, #1424]
	ldr	q1, [x10, #1408]
	ldr	q2, [x10, #1392]
	str	q0, [x11, #1424]
	str	q1, [x11, #1408]
	str	q2, [x11, #1392]
	ldr	q0, [x10, #1472]
	ldr	q1, [x10, #1456]
	ldr	q2, [x10, #1440]
	str	q0, [x11, #1472]
	str	q1, [x11, #1456]
	str	q2, [x11, #1440]
	ldr	q0, [x10, #1520]
	ldr	q1, [x10, #1504]
	ldr	q2, [x10, #1488]
	str	q0, [x11, #1520]
	str	q1, [x11, #1504]
	str	q2, [x11, #1488]
	ldr	q0, [x10, #1568]
	ldr	q1, [x10, #1552]
	ldr	q2, [x10, #1536]
	str	q0, [x11, #1568]
	str	q1, [x11, #1552]
	str	q2, [x11, #1536]
	ldr	q0, [x10, #1616]
	ldr	q1, [x10, #1600]
	ldr	q2, [x10, #1584]
	str	q0, [x11, #1616]
	str	q1, [x11, #1600]
	str	q2, [x11, #1584]
	ldr	q0, [x10, #1664]
	ldr	q1, [x10, #1648]
	ldr	q2, [x10, #1632]
	str	q0, [x11, #1664]
	str	q1, [x11, #1648]
	str	q2, [x11, #1632]
	ldr	q0, [x10, #1712]
	ldr	q1, [x10, #1696]
	ldr	q2, [x10, #1680]
	str	q0, [x11, #1712]
	str	q1, [x11, #1696]
	str	q2, [x11, #1680]
	ldr	q0, [x10, #1760]
	ldr	q1, [x10, #1744]
	ldr	q2, [x10, #1728]
	str	q0, [x11, #1760]
	str	q1, [x11, #1744]
	str	q2, [x11, #1728]
	ldr	q0, [x10, #1808]
	ldr	q1, [x10, #1792]
	ldr	q2, [x10, #1776]
	str	q0, [x11, #1808]
	str	q1, [x11, #1792]
	str	q2, [x11, #1776]
	ldr	q0, [x10, #1856]
	ldr	q1, [x10, #1840]
	ldr	q2, [x10, #1824]
	str	q0, [x11, #1856]
	str	q1, [x11, #1840]
	str	q2, [x11, #1824]
	ldr	q0, [x10, #1904]
	ldr	q1, [x10, #1888]
	ldr	q2, [x10, #1872]
	str	q0, [x11, #1904]
	str	q1, [x11, #1888]
	str	q2, [x11, #1872]
	ldr	q0, [x10, #1952]
	ldr	q1, [x10, #1936]
	ldr	q2, [x10, #1920]
	str	q0, [x11, #1952]
	str	q1, [x11, #1936]
	str	q2, [x11, #1920]
	ldr	q0, [x10, #2000]
	ldr	q1, [x10, #1984]
	ldr	q2, [x10, #1968]
	str	q0, [x11, #2000]
	str	q1, [x11, #1984]
	str	q2, [x11, #1968]
	sub	x8, x8, #42
	add	x9, x9, #42
	add	x10, x10, #2016
	cmp	x8, #42
	add	x11, x11, #2016
	b.ls	Lh3q_BB39_15
Lh3q_BB39_7:
	add	x12, x19, x9
	cmp	x9, x12
	b.lo	Lh3q_BB39_6
	ldr	q0, [x10, #2000]
	ldr	q1, [x10, #1984]
	ldr	q2, [x10, #1968]
	str	q0, [x11, #2000]
	str	q1, [x11, #1984]
	str	q2, [x11, #1968]
	ldr	q0, [x10, #1952]
	ldr	q1, [x10, #1936]
	ldr	q2, [x10, #1920]
	str	q0, [x11, #1952]
	str	q1, [x11, #1936]
	str	q2, [x11, #1920]
	ldr	q0, [x10, #1904]
	ldr	q1, [x10, #1888]
	ldr	q2, [x10, #1872]
	str	q0, [x11, #1904]
	str	q1, [x11, #1888]
	str	q2, [x11, #1872]
	ldr	q0, [x10, #1856]
	ldr	q1, [x10, #1840]
	ldr	q2, [x10, #1824]
	str	q0, [x11, #1856]
	str	q1, [x11, #1840]
	str	q2, [x11, #1824]
	ldr	q0, [x10, #1808]
	ldr	q1, [x10, #1792]
	ldr	q2, [x10, #1776]
	str	q0, [x11, #1808]
	str	q1, [x11, #1792]
	str	q2, [x11, #1776]
	ldr	q0, [x10, #1760]
	ldr	q1, [x10, #1744]
	ldr	q2, [x10, #1728]
	str	q0, [x11, #1760]
	str	q1, [x11, #1744]
	str	q2, [x11, #1728]
	ldr	q0, [x10, #1712]
	ldr	q1, [x10, #1696]
	ldr	q2, [x10, #1680]
	str	q0, [x11, #1712]
	str	q1, [x11, #1696]
	str	q2, [x11, #1680]
	ldr	q0, [x10, #1664]
	ldr	q1, [x10, #1648]
	ldr	q2, [x10, #1632]
	str	q0, [x11, #1664]
	str	q1, [x11, #1648]
	str	q2, [x11, #1632]
	ldr	q0, [x10, #1616]
	ldr	q1, [x10, #1600]
	ldr	q2, [x10, #1584]
	str	q0, [x11, #1616]
	str	q1, [x11, #1600]
	str	q2, [x11, #1584]
	ldr	q0, [x10, #1568]
	ldr	q1, [x10, #1552]
	ldr	q2, [x10, #1536]
	str	q0, [x11, #1568]
	str	q1, [x11, #1552]
	str	q2, [x11, #1536]
	ldr	q0, [x10, #1520]
	ldr	q1, [x10, #1504]
	ldr	q2, [x10, #1488]
	str	q0, [x11, #1520]
	str	q1, [x11, #1504]
	str	q2, [x11, #1488]
	ldr	q0, [x10, #1472]
	ldr	q1, [x10, #1456]
	ldr	q2, [x10, #1440]
	str	q0, [x11, #1472]
	str	q1, [x11, #1456]
	str	q2, [x11, #1440]
	ldr	q0, [x10, #1424]
	ldr	q1, [x10, #1408]
	ldr	q2, [x10, #1392]
	str	q0, [x11, #1424]
	str	q1, [x11, #1408]
	str	q2, [x11, #1392]
	ldr	q0, [x10, #1376]
	ldr	q1, [x10, #1360]
	ldr	q2, [x10, #1344]
	str	q0, [x11, #1376]
	str	q1, [x11, #1360]
	str	q2, [x11, #1344]
	ldr	q0, [x10, #1328]
	ldr	q1, [x10, #1312]
	ldr	q2, [x10, #1296]
	str	q0, [x11, #1328]
	str	q1, [x11, #1312]
	str	q2, [x11, #1296]
	ldr	q0, [x10, #1280]
	ldr	q1, [x10, #1264]
	ldr	q2, [x10, #1248]
	str	q0, [x11, #1280]
	str	q1, [x11, #1264]
	str	q2, [x11, #1248]
	ldr	q0, [x10, #1232]
	ldr	q1, [x10, #1216]
	ldr	q2, [x10, #1200]
	str	q0, [x11, #1232]
	str	q1, [x11, #1216]
	str	q2, [x11, #1200]
	ldr	q0, [x10, #1184]
	ldr	q1, [x10, #1168]
	ldr	q2, [x10, #1152]
	str	q0, [x11, #1184]
	str	q1, [x11, #1168]
	str	q2, [x11, #1152]
	ldr	q0, [x10, #1136]
	ldr	q1, [x10, #1120]
	ldr	q2, [x10, #1104]
	str	q0, [x11, #1136]
	str	q1, [x11, #1120]
	str	q2, [x11, #1104]
	ldr	q0, [x10, #1088]
	ldr	q1, [x10, #1072]
	ldr	q2, [x10, #1056]
	str	q0, [x11, #1088]
	str	q1, [x11, #1072]
	str	q2, [x11, #1056]
	ldp	q2, q1, [x10, #1008]
	ldr	q0, [x10, #1040]
	str	q0, [x11, #1040]
	stp	q2, q1, [x11, #1008]
	ldp	q1, q0, [x10, #976]
	ldr	q2, [x10, #960]
	str	q2, [x11, #960]
	stp	q1, q0, [x11, #976]
	ldp	q1, q0, [x10, #928]
	ldr	q2, [x10, #912]
	str	q2, [x11, #912]
	stp	q1, q0, [x11, #928]
	ldp	q1, q0, [x10, #880]
	ldr	q2, [x10, #864]
	str	q2, [x11, #864]
	stp	q1, q0, [x11, #880]
	ldp	q1, q0, [x10, #832]
	ldr	q2, [x10, #816]
	str	q2, [x11, #816]
	stp	q1, q0, [x11, #832]
	ldp	q1, q0, [x10, #784]
	ldr	q2, [x10, #768]
	str	q2, [x11, #768]
	stp	q1, q0, [x11, #784]
	ldp	q1, q0, [x10, #736]
	ldr	q2, [x10, #720]
	str	q2, [x11, #720]
	stp	q1, q0, [x11, #736]
	ldp	q1, q0, [x10, #688]
	ldr	q2, [x10, #672]
	str	q2, [x11, #672]
	stp	q1, q0, [x11, #688]
	ldp	q1, q0, [x10, #640]
	ldr	q2, [x10, #624]
	str	q2, [x11, #624]
	stp	q1, q0, [x11, #640]
	ldp	q1, q0, [x10, #592]
	ldr	q2, [x10, #576]
	str	q2, [x11, #576]
	stp	q1, q0, [x11, #592]
	ldp	q1, q0, [x10, #544]
	ldr	q2, [x10, #528]
	str	q2, [x11, #528]
	stp	q1, q0, [x11, #544]
	ldp	q1, q0, [x10, #496]
	ldr	q2, [x10, #480]
	str	q2, [x11, #480]
	stp	q1, q0, [x11, #496]
	ldp	q1, q0, [x10, #448]
	ldr	q2, [x10, #432]
	str	q2, [x11, #432]
	stp	q1, q0, [x11, #448]
	ldp	q1, q0, [x10, #400]
	ldr	q2, [x10, #384]
	str	q2, [x11, #384]
	stp	q1, q0, [x11, #400]
	ldp	q1, q0, [x10, #352]
	ldr	q2, [x10, #336]
	str	q2, [x11, #336]
	stp	q1, q0, [x11, #352]
	ldp	q1, q0, [x10, #304]
	ldr	q2, [x10, #288]
	str	q2, [x11, #288]
	stp	q1, q0, [x11, #304]
	ldp	q1, q0, [x10, #256]
	ldr	q2, [x10, #240]
	str	q2, [x11, #240]
	stp	q1, q0, [x11, #256]
	ldp	q1, q0, [x10, #208]
	ldr	q2, [x10, #192]
	str	q2, [x11, #192]
	stp	q1, q0, [x11, #208]
	ldp	q1, q0, [x10, #160]
	ldr	q2, [x10, #144]
	str	q2, [x11, #144]
	stp	q1, q0, [x11, #160]
	ldp	q1, q0, [x10, #112]
	ldr	q2, [x10, #96]
	str	q2, [x11, #96]
	stp	q1, q0, [x11, #112]
	ldp	q1, q0, [x10, #64]
	ldr	q2, [x10, #48]
	str	q2, [x11, #48]
	stp	q1, q0, [x11, #64]
	ldp	q1, q0, [x10, #16]
	ldr	q2, [x10]
	str	q2, [x11]
	stp	q1, q0, [x11, #16]
	sub	x8, x8, #42
	add	x9, x9, #42
	add	x10, x10, #2016
	cmp	x8, #42
	add	x11, x11, #2016
	b.hi	Lh3q_BB39_7
	b	Lh3q_BB39_15
Lh3q_BB39_9:
	mov	w8, #48
	madd	x1, x23, x8, x20
	add	x8, x19, x19, lsl #1
	lsl	x21, x8, #4
	sub	x8, x24, x1
	cmp	x8, x21
	b.hs	Lh3q_BB39_19
	cbz	x19, Lh3q_BB39_33
	mov	x8, sp
	mov	x9, x19
Lh3q_BB39_12:
	ldp	q0, q1, [x1]
	subs	x9, x9, #1
	ldr	q2, [x1, #32]
	add	x1, x1, #48
	stp	q0, q1, [x8]
	str	q2, [x8, #32]
	add	x8, x8, #48
	b.ne	Lh3q_BB39_12
	b	Lh3q_BB39_20
Lh3q_BB39_13:
	mov	x0, sp
	mov	x1, x20
	mov	x2, x21
	bl	_memcpy
	cmp	x23, #43
	b.hs	Lh3q_BB39_5
Lh3q_BB39_14:
	mov	x9, xzr
	mov	x8, x23
Lh3q_BB39_15:
	add	x12, x9, x19
	add	x11, x9, x9, lsl #1
	add	x10, x12, x12, lsl #1
	cmp	x9, x12
	lsl	x11, x11, #4
	lsl	x10, x10, #4
	b.hs	Lh3q_BB39_26
	cmp	x23, x9
	b.eq	Lh3q_BB39_29
	add	x9, x20, x10
	add	x10, x20, x11
Lh3q_BB39_18:
	ldp	q1, q0, [x9, #16]
	subs	x8, x8, #1
	ldr	q2, [x9], #48
	stp	q1, q0, [x10, #16]
	str	q2, [x10], #48
	b.ne	Lh3q_BB39_18
	b	Lh3q_BB39_29
Lh3q_BB39_19:
	mov	x0, sp
	mov	x2, x21
	bl	_memcpy
	cbz	x19, Lh3q_BB39_33
Lh3q_BB39_20:
	cmp	x22, x19
	b.eq	Lh3q_BB39_23
	mov	w8, #48
	madd	x9, x22, x8, x20
	lsl	x8, x19, #4
	sub	x8, x8, x19, lsl #6
	sub	x9, x9, #48
Lh3q_BB39_22:
	add	x10, x9, x8
	sub	x23, x23, #1
	ldp	q1, q0, [x10, #16]
	ldr	q2, [x10]
	stp	q1, q0, [x9, #16]
	str	q2, [x9], #-48
	cbnz	x23, Lh3q_BB39_22
Lh3q_BB39_23:
	mov	x8, sp
	sub	x8, x20, x8
	cmp	x8, x21
	b.hs	Lh3q_BB39_34
	mov	x8, sp
Lh3q_BB39_25:
	ldp	q0, q1, [x8]
	subs	x19, x19, #1
	ldr	q2, [x8, #32]
	add	x8, x8, #48
	stp	q0, q1, [x20]
	str	q2, [x20, #32]
	add	x20, x20, #48
	b.ne	Lh3q_BB39_25
	b	Lh3q_BB39_36
Lh3q_BB39_26:
	cmp	x23, x9
	b.eq	Lh3q_BB39_29
	add	x9, x8, x8, lsl #1
	lsl	x9, x9, #4
	add	x12, x9, x20
	add	x9, x11, x9
	add	x10, x12, x10
	add	x11, x9, x20
	sub	x9, x10, #48
	sub	x10, x11, #48
Lh3q_BB39_28:
	ldp	q1, q0, [x9, #16]
	sub	x8, x8, #1
	ldr	q2, [x9], #-48
	stp	q1, q0, [x10, #16]
	str	q2, [x10], #-48
	cbnz	x8, Lh3q_BB39_28
Lh3q_BB39_29:
	mov	w8, #48
	madd	x0, x23, x8, x20
	mov	x8, sp
	sub	x8, x0, x8
	cmp	x8, x21
	b.hs	Lh3q_BB39_32
	mov	x8, sp
Lh3q_BB39_31:
	ldp	q0, q1, [x8]
	subs	x19, x19, #1
	ldr	q2, [x8, #32]
	add	x8, x8, #48
	stp	q0, q1, [x0]
	str	q2, [x0, #32]
	add	x0, x0, #48
	b.ne	Lh3q_BB39_31
	b	Lh3q_BB39_36
Lh3q_BB39_32:
	mov	x1, sp
	b	Lh3q_BB39_35
Lh3q_BB39_33:
	mov	x8, sp
	sub	x8, x20, x8
	cmp	x8, x21
	b.lo	Lh3q_BB39_36
Lh3q_BB39_34:
	mov	x1, sp
	mov	x0, x20
Lh3q_BB39_35:
	mov	x2, x21
	bl	_memcpy
Lh3q_BB39_36:
	add	sp, sp, #1, lsl #12
	ldp	x29, x30, [sp, #64]
	ldp	x20, x19, [sp, #48]
	ldp	x22, x21, [sp, #32]
	ldp	x24, x23, [sp, #16]
	ldp	x28, x27, [sp], #80
	ret

	.p2align	2
"_core::slice::edits::slice+T::swap_with_slice::<#87cca78d895f04c8>":
	cbz	x1, Lh3q_BB40_4
	sub	sp, sp, #48
Lh3q_BB40_2:
	ldp	q0, q1, [x2]
	subs	x1, x1, #1
	ldp	q2, q3, [x0]
	ldr	q4, [x2, #32]
	stp	q0, q1, [x0]
	ldr	q0, [x0, #32]
	str	q4, [x0, #32]
	add	x0, x0, #48
	stp	q3, q0, [x2, #16]
	str	q2, [x2], #48
	b.ne	Lh3q_BB40_2
	add	sp, sp, #48
Lh3q_BB40_4:
	ret

	.p2align	2
"_core::slice::edits::mirror::<#87cca78d895f04c8>":
	sub	sp, sp, #48
	mov	w8, #48
	madd	x9, x3, x8, x2
	madd	x8, x1, x8, x0
	sub	x9, x9, #48
Lh3q_BB41_1:
	ldp	q0, q1, [x9]
	sub	x3, x3, #1
	ldp	q2, q3, [x8]
	ldr	q4, [x9, #32]
	stp	q0, q1, [x8]
	ldr	q0, [x8, #32]
	str	q4, [x8, #32]
	add	x8, x8, #48
	stp	q3, q0, [x9, #16]
	str	q2, [x9], #-48
	cbnz	x3, Lh3q_BB41_1
	add	sp, sp, #48
	ret

	.p2align	2
"_std_alloc::vec::deque::VecDeque::close_gap::<#1768c683c02e1de9>":
	movi.2d	v1, #0000000000000000
	mov	x8, x0
	ldr	x12, [x0, #32]
	ldp	x9, x11, [x0]
	ldur	q0, [x0, #8]
	ldr	x13, [x8, #24]!
	subs	x14, x13, x12
	sub	x10, x11, x12
	stur	q1, [x0, #8]
	str	q1, [x8]
	b.ls	Lh3q_BB42_7
	cmp	x10, #43
	b.lo	Lh3q_BB42_11
	mov	w16, #48
	madd	x15, x13, x16, x9
	madd	x16, x12, x16, x9
	b	Lh3q_BB42_5
Lh3q_BB42_3:
	ldp	q2, q1, [x15, #16]
	ldr	q3, [x15]
	str	q3, [x16]
	stp	q2, q1, [x16, #16]
	ldp	q2, q1, [x15, #64]
	ldr	q3, [x15, #48]
	str	q3, [x16, #48]
	stp	q2, q1, [x16, #64]
	ldp	q2, q1, [x15, #112]
	ldr	q3, [x15, #96]
	str	q3, [x16, #96]
	stp	q2, q1, [x16, #112]
	ldp	q2, q1, [x15, #160]
	ldr	q3, [x15, #144]
	str	q3, [x16, #144]
	stp	q2, q1, [x16, #160]
	ldp	q2, q1, [x15, #208]
	ldr	q3, [x15, #192]
	str	q3, [x16, #192]
	stp	q2, q1, [x16, #208]
	ldp	q2, q1, [x15, #256]
	ldr	q3, [x15, #240]
	str	q3, [x16, #240]
	stp	q2, q1, [x16, #256]
	ldp	q2, q1, [x15, #304]
	ldr	q3, [x15, #288]
	str	q3, [x16, #288]
	stp	q2, q1, [x16, #304]
	ldp	q2, q1, [x15, #352]
	ldr	q3, [x15, #336]
	str	q3, [x16, #336]
	stp	q2, q1, [x16, #352]
	ldp	q2, q1, [x15, #400]
	ldr	q3, [x15, #384]
	str	q3, [x16, #384]
	stp	q2, q1, [x16, #400]
	ldp	q2, q1, [x15, #448]
	ldr	q3, [x15, #432]
	str	q3, [x16, #432]
	stp	q2, q1, [x16, #448]
	ldp	q2, q1, [x15, #496]
	ldr	q3, [x15, #480]
	str	q3, [x16, #480]
	stp	q2, q1, [x16, #496]
	ldp	q2, q1, [x15, #544]
	ldr	q3, [x15, #528]
	str	q3, [x16, #528]
	stp	q2, q1, [x16, #544]
	ldp	q2, q1, [x15, #592]
	ldr	q3, [x15, #576]
	str	q3, [x16, #576]
	stp	q2, q1, [x16, #592]
	ldp	q2, q1, [x15, #640]
	ldr	q3, [x15, #624]
	str	q3, [x16, #624]
	stp	q2, q1, [x16, #640]
	ldp	q2, q1, [x15, #688]
	ldr	q3, [x15, #672]
	str	q3, [x16, #672]
	stp	q2, q1, [x16, #688]
	ldp	q2, q1, [x15, #736]
	ldr	q3, [x15, #720]
	str	q3, [x16, #720]
	stp	q2, q1, [x16, #736]
	ldp	q2, q1, [x15, #784]
	ldr	q3, [x15, #768]
	str	q3, [x16, #768]
	stp	q2, q1, [x16, #784]
	ldp	q2, q1, [x15, #832]
	ldr	q3, [x15, #816]
	str	q3, [x16, #816]
	stp	q2, q1, [x16, #832]
	ldp	q2, q1, [x15, #880]
	ldr	q3, [x15, #864]
	str	q3, [x16, #864]
	stp	q2, q1, [x16, #880]
	ldp	q2, q1, [x15, #928]
	ldr	q3, [x15, #912]
	str	q3, [x16, #912]
	stp	q2, q1, [x16, #928]
	ldp	q2, q1, [x15, #976]
	ldr	q3, [x15, #960]
	str	q3, [x16, #960]
	stp	q2, q1, [x16, #976]
	ldp	q3, q2, [x15, #1008]
	ldr	q1, [x15, #1040]
	str	q1, [x16, #1040]
	stp	q3, q2, [x16, #1008]
	ldr	q1, [x15, #1088]
	ldr	q2, [x15, #1072]
	ldr	q3, [x15, #1056]
	str	q1, [x16, #1088]
	str	q2, [x16, #1072]
	str	q3, [x16, #1056]
	ldr	q1, [x15, #1136]
	ldr	q2, [x15, #1120]
	ldr	q3, [x15, #1104]
	str	q1, [x16, #1136]
	str	q2, [x16, #1120]
	str	q3, [x16, #1104]
	ldr	q1, [x15, #1184]
	ldr	q2, [x15, #1168]
	ldr	q3, [x15, #1152]
	str	q1, [x16, #1184]
	str	q2, [x16, #1168]
	str	q3, [x16, #1152]
	ldr	q1, [x15, #1232]
	ldr	q2, [x15, #1216]
	ldr	q3, [x15, #1200]
	str	q1, [x16, #1232]
	str	q2, [x16, #1216]
	str	q3, [x16, #1200]
	ldr	q1, [x15, #1280]
	ldr	q2, [x15, #1264]
	ldr	q3, [x15, #1248]
	str	q1, [x16, #1280]
	str	q2, [x16, #1264]
	str	q3, [x16, #1248]
	ldr	q1, [x15, #1328]
	ldr	q2, [x15, #1312]
	ldr	q3, [x15, #1296]
	str	q1, [x16, #1328]
	str	q2, [x16, #1312]
	str	q3, [x16, #1296]
	ldr	q1, [x15, #1376]
	ldr	q2, [x15, #1360]
	ldr	q3, [x15, #1344]
	str	q1, [x16, #1376]
	str	q2, [x16, #1360]
	str	q3, [x16, #1344]
	ldr	q1, [x15, #1424]
	ldr	q2, [x15, #1408]
	ldr	q3, [x15, #1392]
	str	q1, [x16, #1424]
	str	q2, [x16, #1408]
	str	q3, [x16, #1392]
	ldr	q1, [x15, #1472]
	ldr	q2, [x15, #1456]
	ldr	q3, [x15, #1440]
	str	q1, [x16, #1472]
	str	q2, [x16, #1456]
	str	q3, [x16, #1440]
	ldr	q1, [x15, #1520]
	ldr	q2, [x15, #1504]
	ldr	q3, [x15, #1488]
	str	q1, [x16, #1520]
	str	q2, [x16, #1504]
	str	q3, [x16, #1488]
	ldr	q1, [x15, #1568]
	ldr	q2, [x15, #1552]
	ldr	q3, [x15, #1536]
	str	q1, [x16, #1568]
	str	q2, [x16, #1552]
	str	q3, [x16, #1536]
	ldr	q1, [x15, #1616]
	ldr	q2, [x15, #1600]
	ldr	q3, [x15, #1584]
	str	q1, [x16, #1616]
	str	q2, [x16, #1600]
	str	q3, [x16, #1584]
	ldr	q1, [x15, #1664]
	ldr	q2, [x15, #1648]
	ldr	q3, [x15, #1632]
	str	q1, [x16, #1664]
	str	q2, [x16, #1648]
	str	q3, [x16, #1632]
	ldr	q1, [x15, #1712]
	ldr	q2, [x15, #1696]
	ldr	q3, [x15, #1680]
	str	q1, [x16, #1712]
	str	q2, [x16, #1696]
	str	q3, [x16, #1680]
	ldr	q1, [x15, #1760]
	ldr	q2, [x15, #1744]
	ldr	q3, [x15, #1728]
	str	q1, [x16, #1760]
	str	q2, [x16, #1744]
	str	q3, [x16, #1728]
	ldr	q1, [x15, #1808]
	ldr	q2, [x15, #1792]
	ldr	q3, [x15, #1776]
	str	q1, [x16, #1808]
	str	q2, [x16, #1792]
	str	q3, [x16, #1776]
	ldr	q1, [x15, #1856]
	ldr	q2, [x15, #1840]
	ldr	q3, [x15, #1824]
	str	q1, [x16, #1856]
	str	q2, [x16, #1840]
	str	q3, [x16, #1824]
	ldr	q1, [x15, #1904]
	ldr	q2, [x15, #1888]
	ldr	q3, [x15, #1872]
	str	q1, [x16, #1904]
	str	q2, [x16, #1888]
	str	q3, [x16, #1872]
	ldr	q1, [x15, #1952]
	ldr	q2, [x15, #1936]
	ldr	q3, [x15, #1920]
	str	q1, [x16, #1952]
	str	q2, [x16, #1936]
	str	q3, [x16, #1920]
	ldr	q1, [x15, #2000]
	ldr	q2, [x15, #1984]
	ldr	q3, [x15, #1968]
	str	q1, [x16, #2000]
	str	q2, [x16, #1984]
	str	q3, [x16, #1968]
Lh3q_BB42_4:
	sub	x10, x10, #42
	add	x12, x12, #42
	add	x13, x13, #42
	cmp	x10, #42
	add	x15, x15, #2016
	add	x16, x16, #2016
	b.ls	Lh3q_BB42_11
Lh3q_BB42_5:
	cmp	x12, x13
	b.lo	Lh3q_BB42_3
	ldr	q1, [x15, #2000]
	ldr	q2, [x15, #1984]
	ldr	q3, [x15, #1968]
	str	q1, [x16, #2000]
	str	q2, [x16, #1984]
	str	q3, [x16, #1968]
	ldr	q1, [x15, #1952]
	ldr	q2, [x15, #1936]
	ldr	q3, [x15, #1920]
	str	q1, [x16, #1952]
	str	q2, [x16, #1936]
	str	q3, [x16, #1920]
	ldr	q1, [x15, #1904]
	ldr	q2, [x15, #1888]
	ldr	q3, [x15, #1872]
	str	q1, [x16, #1904]
	str	q2, [x16, #1888]
	str	q3, [x16, #1872]
	ldr	q1, [x15, #1856]
	ldr	q2, [x15, #1840]
	ldr	q3, [x15, #1824]
	str	q1, [x16, #1856]
	str	q2, [x16, #1840]
	str	q3, [x16, #1824]
	ldr	q1, [x15, #1808]
	ldr	q2, [x15, #1792]
	ldr	q3, [x15, #1776]
	str	q1, [x16, #1808]
	str	q2, [x16, #1792]
	str	q3, [x16, #1776]
	ldr	q1, [x15, #1760]
	ldr	q2, [x15, #1744]
	ldr	q3, [x15, #1728]
	str	q1, [x16, #1760]
	str	q2, [x16, #1744]
	str	q3, [x16, #1728]
	ldr	q1, [x15, #1712]
	ldr	q2, [x15, #1696]
	ldr	q3, [x15, #1680]
	str	q1, [x16, #1712]
	str	q2, [x16, #1696]
	str	q3, [x16, #1680]
	ldr	q1, [x15, #1664]
	ldr	q2, [x15, #1648]
	ldr	q3, [x15, #1632]
	str	q1, [x16, #1664]
	str	q2, [x16, #1648]
	str	q3, [x16, #1632]
	ldr	q1, [x15, #1616]
	ldr	q2, [x15, #1600]
	ldr	q3, [x15, #1584]
	str	q1, [x16, #1616]
	str	q2, [x16, #1600]
	str	q3, [x16, #1584]
	ldr	q1, [x15, #1568]
	ldr	q2, [x15, #1552]
	ldr	q3, [x15, #1536]
	str	q1, [x16, #1568]
	str	q2, [x16, #1552]
	str	q3, [x16, #1536]
	ldr	q1, [x15, #1520]
	ldr	q2, [x15, #1504]
	ldr	q3, [x15, #1488]
	str	q1, [x16, #1520]
	str	q2, [x16, #1504]
	str	q3, [x16, #1488]
	ldr	q1, [x15, #1472]
	ldr	q2, [x15, #1456]
	ldr	q3, [x15, #1440]
	str	q1, [x16, #1472]
	str	q2, [x16, #1456]
	str	q3, [x16, #1440]
	ldr	q1, [x15, #1424]
	ldr	q2, [x15, #1408]
	ldr	q3, [x15, #1392]
	str	q1, [x16, #1424]
	str	q2, [x16, #1408]
	str	q3, [x16, #1392]
	ldr	q1, [x15, #1376]
	ldr	q2, [x15, #1360]
	ldr	q3, [x15, #1344]
	str	q1, [x16, #1376]
	str	q2, [x16, #1360]
	str	q3, [x16, #1344]
	ldr	q1, [x15, #1328]
	ldr	q2, [x15, #1312]
	ldr	q3, [x15, #1296]
	str	q1, [x16, #1328]
	str	q2, [x16, #1312]
	str	q3, [x16, #1296]
	ldr	q1, [x15, #1280]
	ldr	q2, [x15, #1264]
	ldr	q3, [x15, #1248]
	str	q1, [x16, #1280]
	str	q2, [x16, #1264]
	str	q3, [x16, #1248]
	ldr	q1, [x15, #1232]
	ldr	q2, [x15, #1216]
	ldr	q3, [x15, #1200]
	str	q1, [x16, #1232]
	str	q2, [x16, #1216]
	str	q3, [x16, #1200]
	ldr	q1, [x15, #1184]
	ldr	q2, [x15, #1168]
	ldr	q3, [x15, #1152]
	str	q1, [x16, #1184]
	str	q2, [x16, #1168]
	str	q3, [x16, #1152]
	ldr	q1, [x15, #1136]
	ldr	q2, [x15, #1120]
	ldr	q3, [x15, #1104]
	str	q1, [x16, #1136]
	str	q2, [x16, #1120]
	str	q3, [x16, #1104]
	ldr	q1, [x15, #1088]
	ldr	q2, [x15, #1072]
	ldr	q3, [x15, #1056]
	str	q1, [x16, #1088]
	str	q2, [x16, #1072]
	str	q3, [x16, #1056]
	ldp	q3, q2, [x15, #1008]
	ldr	q1, [x15, #1040]
	str	q1, [x16, #1040]
	stp	q3, q2, [x16, #1008]
	ldp	q2, q1, [x15, #976]
	ldr	q3, [x15, #960]
	str	q3, [x16, #960]
	stp	q2, q1, [x16, #976]
	ldp	q2, q1, [x15, #928]
	ldr	q3, [x15, #912]
	str	q3, [x16, #912]
	stp	q2, q1, [x16, #928]
	ldp	q2, q1, [x15, #880]
	ldr	q3, [x15, #864]
	str	q3, [x16, #864]
	stp	q2, q1, [x16, #880]
	ldp	q2, q1, [x15, #832]
	ldr	q3, [x15, #816]
	str	q3, [x16, #816]
	stp	q2, q1, [x16, #832]
	ldp	q2, q1, [x15, #784]
	ldr	q3, [x15, #768]
	str	q3, [x16, #768]
	stp	q2, q1, [x16, #784]
	ldp	q2, q1, [x15, #736]
	ldr	q3, [x15, #720]
	str	q3, [x16, #720]
	stp	q2, q1, [x16, #736]
	ldp	q2, q1, [x15, #688]
	ldr	q3, [x15, #672]
	str	q3, [x16, #672]
	stp	q2, q1, [x16, #688]
	ldp	q2, q1, [x15, #640]
	ldr	q3, [x15, #624]
	str	q3, [x16, #624]
	stp	q2, q1, [x16, #640]
	ldp	q2, q1, [x15, #592]
	ldr	q3, [x15, #576]
	str	q3, [x16, #576]
	stp	q2, q1, [x16, #592]
	ldp	q2, q1, [x15, #544]
	ldr	q3, [x15, #528]
	str	q3, [x16, #528]
	stp	q2, q1, [x16, #544]
	ldp	q2, q1, [x15, #496]
	ldr	q3, [x15, #480]
	str	q3, [x16, #480]
	stp	q2, q1, [x16, #496]
	ldp	q2, q1, [x15, #448]
	ldr	q3, [x15, #432]
	str	q3, [x16, #432]
	stp	q2, q1, [x16, #448]
	ldp	q2, q1, [x15, #400]
	ldr	q3, [x15, #384]
	str	q3, [x16, #384]
	stp	q2, q1, [x16, #400]
	ldp	q2, q1, [x15, #352]
	ldr	q3, [x15, #336]
	str	q3, [x16, #336]
	stp	q2, q1, [x16, #352]
	ldp	q2, q1, [x15, #304]
	ldr	q3, [x15, #288]
	str	q3, [x16, #288]
	stp	q2, q1, [x16, #304]
	ldp	q2, q1, [x15, #256]
	ldr	q3, [x15, #240]
	str	q3, [x16, #240]
	stp	q2, q1, [x16, #256]
	ldp	q2, q1, [x15, #208]
	ldr	q3, [x15, #192]
	str	q3, [x16, #192]
	stp	q2, q1, [x16, #208]
	ldp	q2, q1, [x15, #160]
	ldr	q3, [x15, #144]
	str	q3, [x16, #144]
	stp	q2, q1, [x16, #160]
	ldp	q2, q1, [x15, #112]
	ldr	q3, [x15, #96]
	str	q3, [x16, #96]
	stp	q2, q1, [x16, #112]
	ldp	q2, q1, [x15, #64]
	ldr	q3, [x15, #48]
	str	q3, [x16, #48]
	stp	q2, q1, [x16, #64]
	ldp	q2, q1, [x15, #16]
	ldr	q3, [x15]
	str	q3, [x16]
	stp	q2, q1, [x16, #16]
	b	Lh3q_BB42_4
Lh3q_BB42_7:
	b.hs	Lh3q_BB42_18
	cmp	x11, x12
	b.eq	Lh3q_BB42_18
	add	x12, x12, x12, lsl #1
	add	x13, x13, x11
	mov	w14, #48
	lsl	x12, x12, #4
	neg	x12, x12
	madd	x12, x13, x14, x12
	madd	x13, x11, x14, x9
	add	x11, x12, x9
	sub	x11, x11, #48
	sub	x12, x13, #48
Lh3q_BB42_10:
	ldp	q2, q1, [x11, #16]
	sub	x10, x10, #1
	ldr	q3, [x11], #-48
	stp	q2, q1, [x12, #16]
	str	q3, [x12], #-48
	cbnz	x10, Lh3q_BB42_10
	b	Lh3q_BB42_18
Lh3q_BB42_11:
	add	x15, x12, x14
	add	x14, x12, x12, lsl #1
	add	x13, x15, x15, lsl #1
	cmp	x12, x15
	lsl	x14, x14, #4
	lsl	x13, x13, #4
	b.hs	Lh3q_BB42_15
	cmp	x11, x12
	b.eq	Lh3q_BB42_18
	add	x11, x9, x13
	add	x12, x9, x14
Lh3q_BB42_14:
	ldp	q2, q1, [x11, #16]
	subs	x10, x10, #1
	ldr	q3, [x11], #48
	stp	q2, q1, [x12, #16]
	str	q3, [x12], #48
	b.ne	Lh3q_BB42_14
	b	Lh3q_BB42_18
Lh3q_BB42_15:
	cmp	x11, x12
	b.eq	Lh3q_BB42_18
	add	x11, x10, x10, lsl #1
	add	x14, x14, x9
	lsl	x11, x11, #4
	add	x12, x11, x9
	add	x12, x12, x13
	add	x13, x14, x11
	sub	x11, x12, #48
	sub	x12, x13, #48
Lh3q_BB42_17:
	ldp	q2, q1, [x11, #16]
	sub	x10, x10, #1
	ldr	q3, [x11], #-48
	stp	q2, q1, [x12, #16]
	str	q3, [x12], #-48
	cbnz	x10, Lh3q_BB42_17
Lh3q_BB42_18:
	str	x9, [x0]
	stur	q0, [x0, #8]
	stp	xzr, xzr, [x8]
	ret

	.p2align	2
"_qpack_base::prefix_int::encode_long::<#f5d64057dea64abe>":
	mov	x8, #-1
	lsl	x8, x8, x0
	mvn	x8, x8
	subs	x9, x2, x8
	b.hs	Lh3q_BB43_2
	mov	w8, #1
	b	Lh3q_BB43_4
Lh3q_BB43_2:
	mov	w8, #2
	cmp	x9, #128
	b.lo	Lh3q_BB43_4
Lh3q_BB43_3:
	lsr	x10, x9, #14
	lsr	x9, x9, #7
	add	x8, x8, #1
	cbnz	x10, Lh3q_BB43_3
Lh3q_BB43_4:
	stp	x22, x21, [sp, #-48]!
	ldp	x10, x9, [x3, #8]
	stp	x20, x19, [sp, #16]
	stp	x29, x30, [sp, #32]
	add	x29, sp, #32
	subs	x9, x9, x10
	csel	x9, xzr, x9, lo
	cmp	x8, x9
	b.ls	Lh3q_BB43_7
	mov	x19, x0
	mov	x0, x3
	mov	w20, w1
	mov	x1, x8
	mov	x21, x3
	mov	x22, x2
	bl	"_qpack_base::coding::grow::<#f5d64057dea64abe>"
	mov	w8, w0
	mov	w1, w20
	mov	x2, x22
	mov	x3, x21
	mov	x0, x19
	and	w8, w8, #0xff
	tbz	w8, #0, Lh3q_BB43_7
	mov	w0, #1
	ldp	x29, x30, [sp, #32]
	ldp	x20, x19, [sp, #16]
	ldp	x22, x21, [sp], #48
	ret
Lh3q_BB43_7:
	bl	"_qpack_base::prefix_int::put_long::<#f5d64057dea64abe>"
	mov	w0, wzr
	ldp	x29, x30, [sp, #32]
	ldp	x20, x19, [sp, #16]
	ldp	x22, x21, [sp], #48
	ret

	.p2align	2
"_qpack_base::prefix_int::put_long::<#f5d64057dea64abe>":
	mov	w8, #8
	mov	w9, #1
	sub	w8, w8, w0
	ldp	x12, x11, [x3]
	lsl	x8, x9, x8
	mov	x9, #-1
	lsl	x9, x9, x0
	cmp	x8, w1, uxtb
	csel	w8, wzr, w8, hi
	mvn	x10, x9
	sub	w8, w1, w8
	sub	x9, x2, x10
	lsl	x8, x8, x0
	cmp	x9, #128
	add	w8, w8, w10
	strb	w8, [x12, x11]
	add	x8, x11, #1
	b.lo	Lh3q_BB44_3
Lh3q_BB44_1:
	ldr	x11, [x3]
	lsr	x10, x9, #7
	lsr	x12, x9, #14
	orr	w9, w9, #0x80
	strb	w9, [x11, x8]
	add	x8, x8, #1
	mov	x9, x10
	cbnz	x12, Lh3q_BB44_1
	ldr	x9, [x3]
	add	x11, x8, #1
	strb	w10, [x9, x8]
	str	x11, [x3, #8]
	ret
Lh3q_BB44_3:
	mov	x10, x9
	ldr	x9, [x3]
	add	x11, x8, #1
	strb	w10, [x9, x8]
	str	x11, [x3, #8]
	ret

	.p2align	2
"_qpack_base::prefix_int::encode_long::<#8fc0d6d4cd31a236>":
	mov	x8, #-1
	lsl	x8, x8, x0
	mvn	x8, x8
	subs	x9, x2, x8
	b.hs	Lh3q_BB45_2
	mov	w8, #1
	b	Lh3q_BB45_4
Lh3q_BB45_2:
	mov	w8, #2
	cmp	x9, #128
	b.lo	Lh3q_BB45_4
Lh3q_BB45_3:
	lsr	x10, x9, #14
	lsr	x9, x9, #7
	add	x8, x8, #1
	cbnz	x10, Lh3q_BB45_3
Lh3q_BB45_4:
	stp	x22, x21, [sp, #-48]!
	ldp	x10, x9, [x3, #8]
	stp	x20, x19, [sp, #16]
	stp	x29, x30, [sp, #32]
	add	x29, sp, #32
	subs	x9, x9, x10
	csel	x9, xzr, x9, lo
	cmp	x8, x9
	b.ls	Lh3q_BB45_7
	mov	x19, x0
	mov	x0, x3
	mov	w20, w1
	mov	x1, x8
	mov	x21, x3
	mov	x22, x2
	bl	"_qpack_base::coding::grow::<#8fc0d6d4cd31a236>"
	mov	w8, w0
	mov	w1, w20
	mov	x2, x22
	mov	x3, x21
	mov	x0, x19
	and	w8, w8, #0xff
	tbz	w8, #0, Lh3q_BB45_7
	mov	w0, #1
	ldp	x29, x30, [sp, #32]
	ldp	x20, x19, [sp, #16]
	ldp	x22, x21, [sp], #48
	ret
Lh3q_BB45_7:
	bl	"_qpack_base::prefix_int::put_long::<#8fc0d6d4cd31a236>"
	mov	w0, wzr
	ldp	x29, x30, [sp, #32]
	ldp	x20, x19, [sp, #16]
	ldp	x22, x21, [sp], #48
	ret

	.p2align	2
"_qpack_base::prefix_int::put_long::<#8fc0d6d4cd31a236>":
	mov	x8, #-1
	lsl	x10, x1, x0
	lsl	x8, x8, x0
	ldp	x12, x11, [x3]
	mvn	x8, x8
	sub	x9, x2, x8
	add	w8, w10, w8
	strb	w8, [x12, x11]
	cmp	x9, #128
	add	x8, x11, #1
	b.lo	Lh3q_BB46_3
Lh3q_BB46_1:
	ldr	x11, [x3]
	lsr	x10, x9, #7
	lsr	x12, x9, #14
	orr	w9, w9, #0x80
	strb	w9, [x11, x8]
	add	x8, x8, #1
	mov	x9, x10
	cbnz	x12, Lh3q_BB46_1
	ldr	x9, [x3]
	add	x11, x8, #1
	strb	w10, [x9, x8]
	str	x11, [x3, #8]
	ret
Lh3q_BB46_3:
	mov	x10, x9
	ldr	x9, [x3]
	add	x11, x8, #1
	strb	w10, [x9, x8]
	str	x11, [x3, #8]
	ret

	.p2align	2
"_qpack_base::coding::grow::<#8fc0d6d4cd31a236>":
	ldp	x9, x8, [x0, #8]
	sub	x8, x8, x9
	cmp	x1, x8
	b.hi	Lh3q_BB47_2
	mov	w0, wzr
	ret
Lh3q_BB47_2:
	stp	x29, x30, [sp, #-16]!
	mov	x29, sp
	bl	"_std_alloc::vec::Vec::grow_amortized::<#a86b858a52422f6f>"
	eor	w0, w0, #0x1
	ldp	x29, x30, [sp], #16
	ret

	.p2align	2
"_std_alloc::vec::Vec::grow_amortized::<#a86b858a52422f6f>":
	ldr	x8, [x0, #8]
	cmn	x8, x1
	b.lo	Lh3q_BB48_2
	mov	w0, wzr
	ret
Lh3q_BB48_2:
	stp	x20, x19, [sp, #-32]!
	ldr	x10, [x0, #16]
	add	x9, x8, x1
	mov	w11, #8
	cmp	x9, #8
	stp	x29, x30, [sp, #16]
	add	x29, sp, #16
	lsl	x12, x10, #1
	csel	x11, x9, x11, hi
	lsr	x13, x10, #62
	cmp	x11, x12
	csel	x9, x11, x12, hi
	cmp	x13, #0
	csel	x19, x9, x11, eq
	tbnz	x19, #63, Lh3q_BB48_7
	cbz	x10, Lh3q_BB48_6
	mov	x20, x0
	ldr	x0, [x0]
	mov	x1, x8
	mov	x2, x19
	mov	w3, #1
	bl	_rattle_realloc
	tbz	w0, #0, Lh3q_BB48_7
Lh3q_BB48_5:
	mov	w0, #1
	str	x1, [x20]
	str	x19, [x20, #16]
	ldp	x29, x30, [sp, #16]
	ldp	x20, x19, [sp], #32
	ret
Lh3q_BB48_6:
	mov	x20, x0
	mov	x0, x9
	mov	w1, #1
	bl	_rattle_alloc
	tbnz	w0, #0, Lh3q_BB48_5
Lh3q_BB48_7:
	mov	w0, wzr
	ldp	x29, x30, [sp, #16]
	ldp	x20, x19, [sp], #32
	ret

	.p2align	2
"_std_collections::btree_map::BTreeMap::remove::<#0bd4589be7401c64>":
	ldrb	w8, [x0]
	cmp	w8, #1
	b.ne	Lh3q_BB49_10
	sub	sp, sp, #128
	stp	x20, x19, [sp, #96]
	mov	x19, x0
	mov	w8, #15
	ldr	x16, [x19, #8]!
	mov	x12, xzr
	mov	x11, xzr
	stp	x22, x21, [sp, #80]
	ldrh	w9, [x16, #2]
	mov	x15, x16
	stp	x29, x30, [sp, #112]
	add	x29, sp, #112
	sub	x8, x8, x9
	neg	x10, x9
	mov	x13, x8
	mov	x17, x16
	mov	x14, x16
	ldrh	w16, [x17], #8
	cbz	x16, Lh3q_BB49_7
Lh3q_BB49_2:
	mov	x20, xzr
Lh3q_BB49_3:
	ldr	x2, [x17, x20, lsl #3]
	cmp	x1, x2
	mov	w2, #2
	csel	w2, wzr, w2, lo
	csinc	w2, w2, wzr, ne
	cmp	w2, #2
	b.ne	Lh3q_BB49_6
	add	x20, x20, #1
	cmp	x16, x20
	b.ne	Lh3q_BB49_3
	mov	x20, x16
	b	Lh3q_BB49_8
Lh3q_BB49_6:
	cbnz	w2, Lh3q_BB49_11
	b	Lh3q_BB49_8
Lh3q_BB49_7:
	mov	x20, xzr
Lh3q_BB49_8:
	ldrh	w12, [x14, #2]
	cbz	w12, Lh3q_BB49_25
	add	x12, x14, x20, lsl #3
	add	x13, x13, #1
	add	x11, x20, x11, lsl #4
	add	x10, x10, #1
	mov	x15, x14
	ldr	x16, [x12, #248]
	mov	x12, x20
	mov	x17, x16
	mov	x14, x16
	ldrh	w16, [x17], #8
	cbnz	x16, Lh3q_BB49_2
	b	Lh3q_BB49_7
Lh3q_BB49_10:
	mov	w0, wzr
	mov	x1, xzr
	ret
Lh3q_BB49_11:
	ldr	x14, [x0, #16]
	add	x13, x13, #1
	add	x11, x20, x11, lsl #4
	cmp	x13, #16
	sub	x14, x14, #1
	str	x14, [x0, #16]
	b.ne	Lh3q_BB49_14
	add	x10, x15, x12, lsl #3
	cmp	w9, #0
	add	x10, x10, #248
	csel	x21, x19, x10, eq
	ldr	x10, [x21]
	ldrh	w12, [x10]
	cmp	x12, #8
	b.lo	Lh3q_BB49_18
	ldrh	w11, [x10, #2]
	add	x8, x10, #8
	add	x9, x10, #128
	stp	x8, x12, [sp]
	mov	w8, #15
	mov	x0, sp
	cmp	w11, #0
	stp	x8, x9, [sp, #16]
	add	x9, x10, #248
	stp	x12, x8, [sp, #32]
	csinc	x8, xzr, x12, eq
	mov	w11, #16
	stp	x9, x8, [sp, #48]
	csel	x9, xzr, x11, eq
	and	x1, x20, #0xf
	stp	x9, x10, [sp, #64]
	mov	x19, sp
	bl	"_std_alloc::vec::Vec::remove::<#0c35fd3905773d29>"
	add	x0, x19, #24
	and	x1, x20, #0xf
	bl	"_std_alloc::vec::Vec::remove::<#0c35fd3905773d29>"
	ldr	x8, [sp, #8]
	ldr	x9, [sp, #72]
	mov	x1, x0
	strh	w8, [x9]
	str	x9, [x21]
	mov	w0, #1
	ldp	x29, x30, [sp, #112]
	ldp	x20, x19, [sp, #96]
	ldp	x22, x21, [sp, #80]
	add	sp, sp, #128
	ret
Lh3q_BB49_14:
	subs	x2, x13, x8
	stp	xzr, xzr, [sp]
	b.ls	Lh3q_BB49_17
	mov	x9, sp
	add	x9, x9, #15
Lh3q_BB49_16:
	add	x12, x10, #15
	and	w13, w11, #0xf
	lsr	x11, x11, #4
	cmp	x8, x12
	strb	w13, [x9, x10]
	sub	x10, x10, #1
	b.lo	Lh3q_BB49_16
Lh3q_BB49_17:
	mov	x9, sp
	add	x1, x9, x8
	mov	x0, x19
	bl	"_std_collections::btree::node::Node::take_at::<#2223681b050dcb82>"
	ldr	x0, [x19]
	ldrh	w8, [x0]
	cbnz	w8, Lh3q_BB49_24
	b	Lh3q_BB49_22
Lh3q_BB49_18:
	cmp	x8, #15
	stp	xzr, xzr, [sp]
	b.hi	Lh3q_BB49_21
	mov	w10, #15
Lh3q_BB49_20:
	and	w12, w11, #0xf
	mov	x13, sp
	lsr	x11, x11, #4
	cmp	x8, x10
	strb	w12, [x13, x10]
	sub	x10, x10, #1
	b.lo	Lh3q_BB49_20
Lh3q_BB49_21:
	mov	x10, sp
	add	x2, x9, #1
	add	x1, x10, x8
	mov	x0, x19
	bl	"_std_collections::btree::node::Node::take_at::<#2223681b050dcb82>"
	ldr	x0, [x19]
	ldrh	w8, [x0]
	cbnz	w8, Lh3q_BB49_24
Lh3q_BB49_22:
	ldrh	w8, [x0, #2]
	cbz	w8, Lh3q_BB49_24
	ldr	x21, [x0, #248]
	mov	x20, x1
	bl	_rattle_dealloc
	mov	x1, x20
	str	x21, [x19]
Lh3q_BB49_24:
	mov	w0, #1
	ldp	x29, x30, [sp, #112]
	ldp	x20, x19, [sp, #96]
	ldp	x22, x21, [sp, #80]
	add	sp, sp, #128
	ret
Lh3q_BB49_25:
	mov	w0, wzr
	mov	x1, xzr
	ldp	x29, x30, [sp, #112]
	ldp	x20, x19, [sp, #96]
	ldp	x22, x21, [sp, #80]
	add	sp, sp, #128
	ret

	.p2align	2
"_std_collections::btree::node::Node::take_at::<#2223681b050dcb82>":
	sub	sp, sp, #128
	stp	x20, x19, [sp, #96]
	ldrb	w20, [x1], #1
	ldr	x8, [x0]
	mov	x19, x0
	subs	x2, x2, #1
	stp	x22, x21, [sp, #80]
	stp	x29, x30, [sp, #112]
	add	x29, sp, #112
	b.ne	Lh3q_BB50_4
	ldrh	w9, [x8, #2]
	cbz	w9, Lh3q_BB50_7
	lsl	x21, x20, #3
	add	x8, x8, x21
	add	x0, x8, #248
	bl	"_std_collections::btree::node::Node::pop_last::<#2223681b050dcb82>"
	ldr	x10, [x19]
	mov	x8, x0
	mov	x9, x1
	add	x11, x10, x21
	ldr	x0, [x11, #8]
	str	x8, [x11, #8]
	ldr	x1, [x11, #128]
	str	x9, [x11, #128]
	str	x10, [x19]
	ldr	x8, [x11, #248]
	ldrh	w8, [x8]
	cmp	w8, #6
	b.ls	Lh3q_BB50_5
Lh3q_BB50_3:
	ldp	x29, x30, [sp, #112]
	ldp	x20, x19, [sp, #96]
	ldp	x22, x21, [sp, #80]
	add	sp, sp, #128
	ret
Lh3q_BB50_4:
	lsl	x21, x20, #3
	add	x8, x8, x21
	add	x0, x8, #248
	bl	"_std_collections::btree::node::Node::take_at::<#2223681b050dcb82>"
	ldr	x8, [x19]
	add	x8, x8, x21
	ldr	x8, [x8, #248]
	ldrh	w8, [x8]
	cmp	w8, #6
	b.hi	Lh3q_BB50_3
Lh3q_BB50_5:
	mov	x21, x1
	mov	x22, x0
	cbz	w20, Lh3q_BB50_8
	sub	x1, x20, #1
	mov	x0, x19
	b	Lh3q_BB50_9
Lh3q_BB50_7:
	mov	x10, x8
	mov	w9, #15
	add	x11, x8, #128
	ldrh	w12, [x10], #8
	stp	x9, x11, [sp, #16]
	mov	x0, sp
	mov	x1, x20
	stp	xzr, xzr, [sp, #56]
	stp	x12, x9, [sp, #32]
	add	x9, x8, #248
	mov	x22, sp
	stp	x10, x12, [sp]
	str	x9, [sp, #48]
	str	x8, [sp, #72]
	bl	"_std_alloc::vec::Vec::remove::<#0c35fd3905773d29>"
	mov	x21, x0
	add	x0, x22, #24
	mov	x1, x20
	bl	"_std_alloc::vec::Vec::remove::<#0c35fd3905773d29>"
	ldr	x8, [sp, #8]
	ldr	x9, [sp, #72]
	mov	x1, x0
	mov	x0, x21
	strh	w8, [x9]
	str	x9, [x19]
	ldp	x29, x30, [sp, #112]
	ldp	x20, x19, [sp, #96]
	ldp	x22, x21, [sp, #80]
	add	sp, sp, #128
	ret
Lh3q_BB50_8:
	mov	x0, x19
	mov	x1, xzr
Lh3q_BB50_9:
	bl	"_std_collections::btree::node::Node::balance::<#2223681b050dcb82>"
	mov	x0, x22
	mov	x1, x21
	ldp	x29, x30, [sp, #112]
	ldp	x20, x19, [sp, #96]
	ldp	x22, x21, [sp, #80]
	add	sp, sp, #128
	ret

	.p2align	2
"_std_collections::btree::node::Node::pop_last::<#2223681b050dcb82>":
	sub	sp, sp, #128
	ldr	x8, [x0]
	stp	x20, x19, [sp, #96]
	mov	x19, x0
	stp	x22, x21, [sp, #80]
	ldrh	w9, [x8, #2]
	ldrh	w20, [x8]
	stp	x29, x30, [sp, #112]
	add	x29, sp, #112
	cbz	w9, Lh3q_BB51_4
	lsl	x21, x20, #3
	add	x8, x8, x21
	add	x0, x8, #248
	bl	"_std_collections::btree::node::Node::pop_last::<#2223681b050dcb82>"
	ldr	x8, [x19]
	add	x8, x8, x21
	ldr	x8, [x8, #248]
	ldrh	w8, [x8]
	cmp	w8, #6
	b.hi	Lh3q_BB51_5
	mov	x21, x1
	mov	x22, x0
	cbz	w20, Lh3q_BB51_6
	sub	x1, x20, #1
	mov	x0, x19
	b	Lh3q_BB51_7
Lh3q_BB51_4:
	add	x9, x8, #8
	add	x10, x8, #128
	mov	x0, sp
	stp	x9, x20, [sp]
	mov	w9, #15
	mov	x22, sp
	stp	x20, x9, [sp, #32]
	sub	x20, x20, #1
	stp	x9, x10, [sp, #16]
	add	x9, x8, #248
	mov	x1, x20
	stp	xzr, xzr, [sp, #56]
	str	x9, [sp, #48]
	str	x8, [sp, #72]
	bl	"_std_alloc::vec::Vec::remove::<#0c35fd3905773d29>"
	mov	x21, x0
	add	x0, x22, #24
	mov	x1, x20
	bl	"_std_alloc::vec::Vec::remove::<#0c35fd3905773d29>"
	ldr	x8, [sp, #8]
	ldr	x9, [sp, #72]
	mov	x1, x0
	mov	x0, x21
	strh	w8, [x9]
	str	x9, [x19]
Lh3q_BB51_5:
	ldp	x29, x30, [sp, #112]
	ldp	x20, x19, [sp, #96]
	ldp	x22, x21, [sp, #80]
	add	sp, sp, #128
	ret
Lh3q_BB51_6:
	mov	x0, x19
	mov	x1, xzr
Lh3q_BB51_7:
	bl	"_std_collections::btree::node::Node::balance::<#2223681b050dcb82>"
	mov	x0, x22
	mov	x1, x21
	ldp	x29, x30, [sp, #112]
	ldp	x20, x19, [sp, #96]
	ldp	x22, x21, [sp, #80]
	add	sp, sp, #128
	ret

	.p2align	2
"_std_collections::btree::node::Node::balance::<#2223681b050dcb82>":
	sub	sp, sp, #208
	stp	x22, x21, [sp, #160]
	ldr	x21, [x0]
	stp	x24, x23, [sp, #144]
	lsl	x24, x1, #3
	mov	x8, x21
	stp	x28, x27, [sp, #112]
	ldrh	w7, [x8], #248
	add	x23, x8, x24
	ldp	x11, x10, [x23]
	stp	x26, x25, [sp, #128]
	stp	x20, x19, [sp, #176]
	stp	x29, x30, [sp, #192]
	add	x29, sp, #192
	ldrh	w12, [x11]
	ldrh	w14, [x10]
	add	x9, x14, x12
	cmp	x9, #15
	b.hs	Lh3q_BB52_7
	ldrh	w11, [x21, #2]
	add	x9, x21, #8
	add	x10, x21, #128
	stp	x0, x9, [sp, #24]
	mov	w9, #15
	add	x0, sp, #32
	stp	x10, x7, [sp, #56]
	cmp	w11, #0
	mov	w10, #16
	stp	x7, x9, [sp, #40]
	add	x19, sp, #32
	stp	x9, x8, [sp, #72]
	csinc	x9, xzr, x7, eq
	csel	x8, xzr, x10, eq
	stp	x9, x8, [sp, #88]
	str	x21, [sp, #104]
	mov	x21, x1
	bl	"_std_alloc::vec::Vec::remove::<#0c35fd3905773d29>"
	mov	x22, x0
	add	x0, x19, #24
	mov	x1, x21
	bl	"_std_alloc::vec::Vec::remove::<#0c35fd3905773d29>"
	mov	x23, x0
	add	x0, x19, #48
	add	x1, x21, #1
	bl	"_std_alloc::vec::Vec::remove::<#e75f653959fed946>"
	ldr	x8, [sp, #80]
	ldrh	w27, [x0]
	mov	x20, x0
	ldrh	w10, [x0, #2]
	add	x12, x0, #128
	ldr	x26, [x8, x21, lsl #3]
	str	x8, [sp, #16]
	lsl	x21, x27, #3
	ldrh	w19, [x26]
	add	x28, x26, #128
	add	x9, x19, #1
	add	x8, x19, #1
	str	x23, [x28, x19, lsl #3]
	lsl	x25, x9, #3
	str	x8, [sp, #8]
	add	x8, x26, #8
	add	x9, x0, #8
	str	x22, [x8, x19, lsl #3]
	ldrh	w22, [x26, #2]
	add	x0, x8, x25
	mov	w23, w10
	sub	x8, x0, x9
	cmp	x8, x21
	b.hs	Lh3q_BB52_14
	cmp	w27, #8
	b.lo	Lh3q_BB52_4
	lsl	x8, x19, #3
	add	x10, x8, x26
	sub	x8, x10, x20
	add	x8, x8, #8
	cmp	x8, #32
	b.hs	Lh3q_BB52_78
Lh3q_BB52_4:
	mov	x8, xzr
Lh3q_BB52_5:
	lsl	x9, x8, #3
	sub	x8, x27, x8
	add	x10, x9, x19, lsl #3
	add	x9, x9, x20
	add	x9, x9, #8
	add	x10, x10, x26
	add	x10, x10, #16
Lh3q_BB52_6:
	ldr	x11, [x9], #8
	subs	x8, x8, #1
	str	x11, [x10], #8
	b.ne	Lh3q_BB52_6
	b	Lh3q_BB52_15
Lh3q_BB52_7:
	cmp	w12, w14
	add	x8, x21, #128
	add	x9, x21, #8
	b.hs	Lh3q_BB52_21
	mov	x16, x10
	mov	x6, x0
	cmp	w14, #258
	ldr	x12, [x16, #8]!
	ldurh	w11, [x16, #-6]
	add	x17, x16, #120
	sub	x13, x14, #1
	b.lo	Lh3q_BB52_34
	mov	x2, xzr
	add	x0, x10, #16
Lh3q_BB52_10:
	mov	w15, #256
	mov	x1, x0
Lh3q_BB52_11:
	ldp	q0, q1, [x1]
	subs	x15, x15, #4
	stur	q0, [x1, #-8]
	stur	q1, [x1, #8]
	add	x1, x1, #32
	b.ne	Lh3q_BB52_11
	add	x2, x2, #256
	add	x0, x0, #2048
	sub	x15, x13, x2
	cmp	x15, #256
	b.hi	Lh3q_BB52_10
	lsl	x0, x2, #3
	add	x1, x16, x0
	cmp	x13, x2
	b.ne	Lh3q_BB52_35
	b	Lh3q_BB52_40
Lh3q_BB52_14:
	add	x1, x20, #8
	mov	x2, x21
	bl	_memmove
	add	x12, x20, #128
Lh3q_BB52_15:
	add	x0, x28, x25
	sub	x8, x0, x12
	cmp	x8, x21
	b.hs	Lh3q_BB52_23
	cmp	w27, #8
	b.lo	Lh3q_BB52_18
	lsl	x8, x19, #3
	add	x10, x8, x26
	sub	x8, x10, x20
	add	x8, x8, #8
	cmp	x8, #32
	b.hs	Lh3q_BB52_81
Lh3q_BB52_18:
	mov	x8, xzr
Lh3q_BB52_19:
	lsl	x9, x8, #3
	sub	x8, x27, x8
	add	x10, x9, x19, lsl #3
	add	x9, x9, x20
	add	x9, x9, #128
	add	x10, x10, x26
	add	x10, x10, #136
Lh3q_BB52_20:
	ldr	x11, [x9], #8
	subs	x8, x8, #1
	str	x11, [x10], #8
	b.ne	Lh3q_BB52_20
	b	Lh3q_BB52_24
Lh3q_BB52_21:
	sub	x14, x12, #1
	ldrh	w25, [x11, #2]
	stp	x7, x0, [sp, #16]
	add	x10, x11, x14, lsl #3
	ldr	x13, [x10, #8]
	ldr	x10, [x10, #128]
	cbz	w25, Lh3q_BB52_60
	add	x12, x11, x12, lsl #3
	ldr	x19, [x12, #248]
	b	Lh3q_BB52_61
Lh3q_BB52_23:
	add	x1, x20, #128
	mov	x2, x21
	bl	_memmove
Lh3q_BB52_24:
	cbz	w22, Lh3q_BB52_33
	add	x9, x26, #248
	add	x8, x20, #248
	cmp	w23, #0
	add	x0, x9, x25
	add	x9, x21, #8
	csel	x2, xzr, x9, eq
	sub	x8, x0, x8
	cmp	x8, x2
	b.hs	Lh3q_BB52_32
	cbz	w23, Lh3q_BB52_33
	cmp	w27, #7
	b.lo	Lh3q_BB52_29
	lsl	x8, x19, #3
	add	x11, x8, x26
	sub	x8, x11, x20
	add	x8, x8, #8
	cmp	x8, #32
	b.hs	Lh3q_BB52_93
Lh3q_BB52_29:
	mov	x8, xzr
Lh3q_BB52_30:
	lsl	x9, x8, #3
	sub	x8, x27, x8
	add	x8, x8, #1
	add	x10, x9, x19, lsl #3
	add	x9, x9, x20
	add	x9, x9, #248
	add	x10, x10, x26
	add	x10, x10, #256
Lh3q_BB52_31:
	ldr	x11, [x9], #8
	subs	x8, x8, #1
	str	x11, [x10], #8
	b.ne	Lh3q_BB52_31
	b	Lh3q_BB52_33
Lh3q_BB52_32:
	add	x1, x20, #248
	bl	_memmove
Lh3q_BB52_33:
	mov	x0, x20
	bl	_rattle_dealloc
	ldr	x8, [sp, #8]
	ldr	x9, [sp, #40]
	ldr	x10, [sp, #104]
	add	w8, w27, w8
	strh	w8, [x26]
	ldr	x8, [sp, #16]
	str	x26, [x8, x24]
	ldr	x8, [sp, #24]
	strh	w9, [x10]
	str	x10, [x8]
	b	Lh3q_BB52_77
Lh3q_BB52_34:
	mov	x0, xzr
	mov	x1, x16
	sub	x15, x14, #1
	cmp	x13, xzr
	b.eq	Lh3q_BB52_40
Lh3q_BB52_35:
	cmp	x15, #6
	b.lo	Lh3q_BB52_37
	add	x4, x0, x10
	sub	x2, x4, x1
	cmp	x2, #32
	b.hs	Lh3q_BB52_84
Lh3q_BB52_37:
	mov	x2, xzr
Lh3q_BB52_38:
	lsl	x3, x2, #3
	add	x0, x0, x10
	sub	x15, x15, x2
	add	x1, x3, x1
	add	x3, x0, x3
	add	x0, x1, #8
	add	x1, x3, #8
Lh3q_BB52_39:
	ldr	x2, [x0], #8
	subs	x15, x15, #1
	str	x2, [x1], #8
	b.ne	Lh3q_BB52_39
Lh3q_BB52_40:
	ldr	x15, [x17]
	cmp	w14, #258
	b.lo	Lh3q_BB52_46
	mov	x2, xzr
	add	x1, x10, #152
Lh3q_BB52_42:
	mov	w0, #256
	mov	x3, x1
Lh3q_BB52_43:
	ldp	q0, q1, [x3, #-16]
	subs	x0, x0, #4
	stur	q0, [x3, #-24]
	stur	q1, [x3, #-8]
	add	x3, x3, #32
	b.ne	Lh3q_BB52_43
	add	x2, x2, #256
	add	x1, x1, #2048
	sub	x0, x13, x2
	cmp	x0, #256
	b.hi	Lh3q_BB52_42
	lsl	x1, x2, #3
	add	x17, x17, x1
	cmp	x13, x2
	b.ne	Lh3q_BB52_47
	b	Lh3q_BB52_52
Lh3q_BB52_46:
	mov	x1, xzr
	sub	x0, x14, #1
	cmp	x13, xzr
	b.eq	Lh3q_BB52_52
Lh3q_BB52_47:
	cmp	x0, #6
	b.lo	Lh3q_BB52_49
	add	x4, x1, x10
	sub	x2, x4, x17
	add	x2, x2, #120
	cmp	x2, #32
	b.hs	Lh3q_BB52_87
Lh3q_BB52_49:
	mov	x2, xzr
Lh3q_BB52_50:
	lsl	x3, x2, #3
	add	x1, x1, x10
	add	x4, x3, x17
	add	x1, x1, x3
	sub	x17, x0, x2
	add	x0, x4, #8
	add	x1, x1, #128
Lh3q_BB52_51:
	ldr	x2, [x0], #8
	subs	x17, x17, #1
	str	x2, [x1], #8
	b.ne	Lh3q_BB52_51
Lh3q_BB52_52:
	cbz	w11, Lh3q_BB52_68
	add	x17, x16, #240
	cmp	w14, #257
	ldr	x16, [x17]
	b.lo	Lh3q_BB52_69
	mov	x0, xzr
	add	x1, x10, #272
Lh3q_BB52_55:
	mov	w2, #256
	mov	x3, x1
Lh3q_BB52_56:
	ldp	q0, q1, [x3, #-16]
	subs	x2, x2, #4
	stur	q0, [x3, #-24]
	stur	q1, [x3, #-8]
	add	x3, x3, #32
	b.ne	Lh3q_BB52_56
	add	x0, x0, #256
	add	x1, x1, #2048
	sub	x2, x14, x0
	cmp	x2, #256
	b.hi	Lh3q_BB52_55
	cmp	x14, x0
	b.eq	Lh3q_BB52_74
	lsl	x0, x0, #3
	mov	x14, x2
	add	x17, x17, x0
	cmp	x2, #6
	b.lo	Lh3q_BB52_71
	b	Lh3q_BB52_70
Lh3q_BB52_60:
	mov	x19, xzr
Lh3q_BB52_61:
	strh	w14, [x11]
	ldr	x26, [x23, #8]
	str	x11, [x23]
	ldr	x27, [x9, x24]
	str	x13, [x9, x24]
	ldr	x28, [x8, x24]
	str	x10, [x8, x24]
	ldrh	w8, [x26]
	ldrh	w22, [x26, #2]
	add	x24, x8, #1
	cbz	x8, Lh3q_BB52_63
	lsl	x20, x8, #3
	add	x0, x26, #16
	add	x1, x26, #8
	mov	x2, x20
	bl	_memmove
	add	x0, x26, #136
	add	x1, x26, #128
	mov	x2, x20
	bl	_memmove
Lh3q_BB52_63:
	stur	x27, [x26, #8]
	stur	x28, [x26, #128]
	cbz	w25, Lh3q_BB52_67
	cbz	w22, Lh3q_BB52_66
	lsl	x2, x24, #3
	add	x0, x26, #256
	add	x1, x26, #248
	bl	_memmove
Lh3q_BB52_66:
	stur	x19, [x26, #248]
Lh3q_BB52_67:
	ldr	x8, [sp, #16]
	strh	w24, [x26]
	str	x26, [x23, #8]
	strh	w8, [x21]
	ldr	x8, [sp, #24]
	str	x21, [x8]
	b	Lh3q_BB52_77
Lh3q_BB52_68:
	mov	x16, xzr
	b	Lh3q_BB52_74
Lh3q_BB52_69:
	mov	x0, xzr
	cmp	x14, #6
	b.lo	Lh3q_BB52_71
Lh3q_BB52_70:
	add	x3, x0, x10
	sub	x1, x3, x17
	add	x1, x1, #240
	cmp	x1, #32
	b.hs	Lh3q_BB52_90
Lh3q_BB52_71:
	mov	x1, xzr
Lh3q_BB52_72:
	lsl	x2, x1, #3
	add	x0, x0, x10
	sub	x14, x14, x1
	add	x17, x2, x17
	add	x0, x0, x2
	add	x17, x17, #8
	add	x0, x0, #248
Lh3q_BB52_73:
	ldr	x1, [x17], #8
	subs	x14, x14, #1
	str	x1, [x0], #8
	b.ne	Lh3q_BB52_73
Lh3q_BB52_74:
	strh	w13, [x10]
	ldr	x13, [x9, x24]
	str	x12, [x9, x24]
	ldr	x9, [x23]
	str	x10, [x23, #8]
	ldr	x12, [x8, x24]
	str	x15, [x8, x24]
	ldrh	w8, [x9]
	ldrh	w10, [x9, #2]
	add	x14, x9, x8, lsl #3
	add	x8, x8, #1
	str	x13, [x14, #8]
	str	x12, [x14, #128]
	cbz	w11, Lh3q_BB52_76
	lsl	x11, x8, #3
	cmp	w10, #0
	csel	x10, xzr, x11, eq
	add	x10, x9, x10
	str	x16, [x10, #248]
Lh3q_BB52_76:
	strh	w8, [x9]
	str	x9, [x23]
	strh	w7, [x21]
	str	x21, [x6]
Lh3q_BB52_77:
	ldp	x29, x30, [sp, #192]
	ldp	x20, x19, [sp, #176]
	ldp	x22, x21, [sp, #160]
	ldp	x24, x23, [sp, #144]
	ldp	x26, x25, [sp, #128]
	ldp	x28, x27, [sp, #112]
	add	sp, sp, #208
	ret
Lh3q_BB52_78:
	and	x8, x27, #0xfffc
	add	x9, x20, #24
	add	x10, x10, #32
	and	x11, x27, #0xfffc
Lh3q_BB52_79:
	ldp	q0, q1, [x9, #-16]
	subs	x11, x11, #4
	add	x9, x9, #32
	stp	q0, q1, [x10, #-16]
	add	x10, x10, #32
	b.ne	Lh3q_BB52_79
	cmp	x8, x27
	b.eq	Lh3q_BB52_15
	b	Lh3q_BB52_5
Lh3q_BB52_81:
	and	x8, x27, #0xfffc
	add	x9, x20, #144
	add	x10, x10, #152
	and	x11, x27, #0xfffc
Lh3q_BB52_82:
	ldp	q0, q1, [x9, #-16]
	subs	x11, x11, #4
	add	x9, x9, #32
	stp	q0, q1, [x10, #-16]
	add	x10, x10, #32
	b.ne	Lh3q_BB52_82
	cmp	x8, x27
	b.eq	Lh3q_BB52_24
	b	Lh3q_BB52_19
Lh3q_BB52_84:
	and	x2, x15, #0xfffffffffffffffc
	add	x3, x1, #24
	add	x4, x4, #24
	and	x5, x15, #0xfffffffffffffffc
Lh3q_BB52_85:
	ldp	q0, q1, [x3, #-16]
	subs	x5, x5, #4
	add	x3, x3, #32
	stp	q0, q1, [x4, #-16]
	add	x4, x4, #32
	b.ne	Lh3q_BB52_85
	cmp	x15, x2
	b.eq	Lh3q_BB52_40
	b	Lh3q_BB52_38
Lh3q_BB52_87:
	and	x2, x0, #0xfffffffffffffffc
	add	x3, x17, #24
	add	x4, x4, #144
	and	x5, x0, #0xfffffffffffffffc
Lh3q_BB52_88:
	ldp	q0, q1, [x3, #-16]
	subs	x5, x5, #4
	add	x3, x3, #32
	stp	q0, q1, [x4, #-16]
	add	x4, x4, #32
	b.ne	Lh3q_BB52_88
	cmp	x0, x2
	b.eq	Lh3q_BB52_52
	b	Lh3q_BB52_50
Lh3q_BB52_90:
	and	x1, x14, #0xfffc
	add	x2, x17, #24
	add	x3, x3, #264
	and	x4, x14, #0xfffc
Lh3q_BB52_91:
	ldp	q0, q1, [x2, #-16]
	subs	x4, x4, #4
	add	x2, x2, #32
	stp	q0, q1, [x3, #-16]
	add	x3, x3, #32
	b.ne	Lh3q_BB52_91
	cmp	x14, x1
	b.ne	Lh3q_BB52_72
	b	Lh3q_BB52_74
Lh3q_BB52_93:
	add	x9, x27, #1
	add	x10, x20, #264
	add	x11, x11, #272
	and	x8, x9, #0x1fffc
	and	x12, x9, #0x1fffc
Lh3q_BB52_94:
	ldp	q0, q1, [x10, #-16]
	subs	x12, x12, #4
	add	x10, x10, #32
	stp	q0, q1, [x11, #-16]
	add	x11, x11, #32
	b.ne	Lh3q_BB52_94
	cmp	x9, x8
	b.eq	Lh3q_BB52_33
	b	Lh3q_BB52_30

	.p2align	2
"_std_collections::btree_set::BTreeSet::remove::<#d92db99615d1834b>":
	ldrb	w8, [x0]
	cmp	w8, #1
	b.ne	Lh3q_BB53_25
	sub	sp, sp, #112
	stp	x20, x19, [sp, #80]
	mov	x19, x0
	mov	w8, #15
	ldr	x13, [x19, #8]!
	mov	x11, xzr
	mov	x12, xzr
	stp	x29, x30, [sp, #96]
	add	x29, sp, #96
	ldrh	w9, [x13, #2]
	mov	x16, x13
	sub	x8, x8, x9
	neg	x10, x9
	mov	x14, x8
	ldrh	w17, [x13]
	mov	x15, x13
	cbz	x17, Lh3q_BB53_8
Lh3q_BB53_2:
	mov	x13, xzr
	add	x3, x15, #16
Lh3q_BB53_3:
	ldur	x4, [x3, #-8]
	cmp	x1, x4
	cset	w4, lo
	b.ne	Lh3q_BB53_5
	ldr	x4, [x3]
	cmp	x2, x4
	cset	w4, lo
	b.eq	Lh3q_BB53_11
Lh3q_BB53_5:
	tbnz	w4, #0, Lh3q_BB53_9
	add	x13, x13, #1
	add	x3, x3, #16
	cmp	x17, x13
	b.ne	Lh3q_BB53_3
	mov	x11, x17
	ldrh	w13, [x15, #2]
	cbnz	w13, Lh3q_BB53_10
	b	Lh3q_BB53_24
Lh3q_BB53_8:
	mov	x11, xzr
	ldrh	w13, [x15, #2]
	cbnz	w13, Lh3q_BB53_10
	b	Lh3q_BB53_24
Lh3q_BB53_9:
	mov	x11, x13
	ldrh	w13, [x15, #2]
	cbz	w13, Lh3q_BB53_24
Lh3q_BB53_10:
	add	x13, x15, x11, lsl #3
	add	x12, x11, x12, lsl #4
	add	x14, x14, #1
	add	x10, x10, #1
	mov	x16, x15
	ldr	x13, [x13, #248]
	ldrh	w17, [x13]
	mov	x15, x13
	cbnz	x17, Lh3q_BB53_2
	b	Lh3q_BB53_8
Lh3q_BB53_11:
	ldr	x15, [x0, #16]
	add	x14, x14, #1
	add	x12, x13, x12, lsl #4
	cmp	x14, #16
	sub	x15, x15, #1
	str	x15, [x0, #16]
	b.ne	Lh3q_BB53_14
	add	x10, x16, x11, lsl #3
	cmp	w9, #0
	add	x10, x10, #248
	csel	x20, x19, x10, eq
	ldr	x10, [x20]
	ldrh	w11, [x10]
	cmp	x11, #8
	b.lo	Lh3q_BB53_18
	ldrh	w12, [x10, #2]
	add	x8, x10, #8
	add	x9, x10, #248
	stp	x8, x11, [sp]
	mov	w8, #15
	mov	x0, sp
	cmp	w12, #0
	stp	x8, x9, [sp, #16]
	and	x1, x13, #0xf
	stp	x11, x8, [sp, #32]
	csinc	x8, xzr, x11, eq
	mov	w11, #16
	stp	x9, x8, [sp, #48]
	csel	x9, xzr, x11, eq
	stp	x9, x10, [sp, #64]
	bl	"_std_alloc::vec::Vec::remove::<#f809febec475afef>"
	ldr	x8, [sp, #8]
	ldr	x9, [sp, #72]
	strh	w8, [x9]
	str	x9, [x20]
	b	Lh3q_BB53_24
Lh3q_BB53_14:
	subs	x2, x14, x8
	stp	xzr, xzr, [sp]
	b.ls	Lh3q_BB53_17
	mov	x9, sp
	add	x9, x9, #15
Lh3q_BB53_16:
	add	x11, x10, #15
	and	w13, w12, #0xf
	lsr	x12, x12, #4
	cmp	x8, x11
	strb	w13, [x9, x10]
	sub	x10, x10, #1
	b.lo	Lh3q_BB53_16
Lh3q_BB53_17:
	mov	x9, sp
	add	x1, x9, x8
	mov	x0, x19
	bl	"_std_collections::btree::node::Node::take_at::<#4331c6e857d27a8a>"
	ldr	x0, [x19]
	ldrh	w8, [x0]
	cbnz	w8, Lh3q_BB53_24
	b	Lh3q_BB53_22
Lh3q_BB53_18:
	cmp	x8, #15
	stp	xzr, xzr, [sp]
	b.hi	Lh3q_BB53_21
	mov	w10, #15
Lh3q_BB53_20:
	and	w11, w12, #0xf
	mov	x13, sp
	lsr	x12, x12, #4
	cmp	x8, x10
	strb	w11, [x13, x10]
	sub	x10, x10, #1
	b.lo	Lh3q_BB53_20
Lh3q_BB53_21:
	mov	x10, sp
	add	x2, x9, #1
	add	x1, x10, x8
	mov	x0, x19
	bl	"_std_collections::btree::node::Node::take_at::<#4331c6e857d27a8a>"
	ldr	x0, [x19]
	ldrh	w8, [x0]
	cbnz	w8, Lh3q_BB53_24
Lh3q_BB53_22:
	ldrh	w8, [x0, #2]
	cbz	w8, Lh3q_BB53_24
	ldr	x20, [x0, #248]
	bl	_rattle_dealloc
	str	x20, [x19]
Lh3q_BB53_24:
	ldp	x29, x30, [sp, #96]
	ldp	x20, x19, [sp, #80]
	add	sp, sp, #112
Lh3q_BB53_25:
	ret

	.p2align	2
"_std_collections::btree::node::Node::take_at::<#4331c6e857d27a8a>":
	sub	sp, sp, #128
	stp	x20, x19, [sp, #96]
	ldrb	w20, [x1], #1
	ldr	x8, [x0]
	mov	x19, x0
	subs	x2, x2, #1
	stp	x22, x21, [sp, #80]
	stp	x29, x30, [sp, #112]
	add	x29, sp, #112
	b.ne	Lh3q_BB54_4
	ldrh	w9, [x8, #2]
	cbz	w9, Lh3q_BB54_7
	lsl	x21, x20, #3
	add	x8, x8, x21
	add	x0, x8, #248
	bl	"_std_collections::btree::node::Node::pop_last::<#4331c6e857d27a8a>"
	ldr	x10, [x19]
	mov	x8, x0
	mov	x9, x1
	add	x11, x10, x20, lsl #4
	ldp	x0, x1, [x11, #8]
	stp	x8, x9, [x11, #8]
	add	x8, x10, x21
	str	x10, [x19]
	ldr	x8, [x8, #248]
	ldrh	w8, [x8]
	cmp	w8, #6
	b.ls	Lh3q_BB54_5
Lh3q_BB54_3:
	ldp	x29, x30, [sp, #112]
	ldp	x20, x19, [sp, #96]
	ldp	x22, x21, [sp, #80]
	add	sp, sp, #128
	ret
Lh3q_BB54_4:
	lsl	x21, x20, #3
	add	x8, x8, x21
	add	x0, x8, #248
	bl	"_std_collections::btree::node::Node::take_at::<#4331c6e857d27a8a>"
	ldr	x8, [x19]
	add	x8, x8, x21
	ldr	x8, [x8, #248]
	ldrh	w8, [x8]
	cmp	w8, #6
	b.hi	Lh3q_BB54_3
Lh3q_BB54_5:
	mov	x21, x1
	mov	x22, x0
	cbz	w20, Lh3q_BB54_8
	sub	x1, x20, #1
	mov	x0, x19
	b	Lh3q_BB54_9
Lh3q_BB54_7:
	mov	x10, x8
	mov	w9, #15
	add	x11, x8, #248
	ldrh	w12, [x10], #8
	mov	x0, sp
	mov	x1, x20
	stp	x9, x11, [sp, #16]
	stp	x10, x12, [sp]
	stp	x12, x9, [sp, #32]
	stp	x11, xzr, [sp, #48]
	stp	xzr, x8, [sp, #64]
	bl	"_std_alloc::vec::Vec::remove::<#f809febec475afef>"
	ldr	x8, [sp, #8]
	ldr	x9, [sp, #72]
	strh	w8, [x9]
	str	x9, [x19]
	ldp	x29, x30, [sp, #112]
	ldp	x20, x19, [sp, #96]
	ldp	x22, x21, [sp, #80]
	add	sp, sp, #128
	ret
Lh3q_BB54_8:
	mov	x0, x19
	mov	x1, xzr
Lh3q_BB54_9:
	bl	"_std_collections::btree::node::Node::balance::<#4331c6e857d27a8a>"
	mov	x0, x22
	mov	x1, x21
	ldp	x29, x30, [sp, #112]
	ldp	x20, x19, [sp, #96]
	ldp	x22, x21, [sp, #80]
	add	sp, sp, #128
	ret

	.p2align	2
"_std_collections::btree::node::Node::pop_last::<#4331c6e857d27a8a>":
	sub	sp, sp, #128
	ldr	x8, [x0]
	stp	x20, x19, [sp, #96]
	mov	x19, x0
	stp	x22, x21, [sp, #80]
	ldrh	w9, [x8, #2]
	ldrh	w20, [x8]
	stp	x29, x30, [sp, #112]
	add	x29, sp, #112
	cbz	w9, Lh3q_BB55_4
	lsl	x21, x20, #3
	add	x8, x8, x21
	add	x0, x8, #248
	bl	"_std_collections::btree::node::Node::pop_last::<#4331c6e857d27a8a>"
	ldr	x8, [x19]
	add	x8, x8, x21
	ldr	x8, [x8, #248]
	ldrh	w8, [x8]
	cmp	w8, #6
	b.hi	Lh3q_BB55_5
	mov	x21, x1
	mov	x22, x0
	cbz	w20, Lh3q_BB55_6
	sub	x1, x20, #1
	mov	x0, x19
	b	Lh3q_BB55_7
Lh3q_BB55_4:
	add	x9, x8, #8
	add	x10, x8, #248
	sub	x1, x20, #1
	stp	x9, x20, [sp]
	mov	w9, #15
	mov	x0, sp
	stp	x9, x10, [sp, #16]
	stp	x20, x9, [sp, #32]
	stp	xzr, xzr, [sp, #56]
	str	x10, [sp, #48]
	str	x8, [sp, #72]
	bl	"_std_alloc::vec::Vec::remove::<#f809febec475afef>"
	ldr	x8, [sp, #8]
	ldr	x9, [sp, #72]
	strh	w8, [x9]
	str	x9, [x19]
Lh3q_BB55_5:
	ldp	x29, x30, [sp, #112]
	ldp	x20, x19, [sp, #96]
	ldp	x22, x21, [sp, #80]
	add	sp, sp, #128
	ret
Lh3q_BB55_6:
	mov	x0, x19
	mov	x1, xzr
Lh3q_BB55_7:
	bl	"_std_collections::btree::node::Node::balance::<#4331c6e857d27a8a>"
	mov	x0, x22
	mov	x1, x21
	ldp	x29, x30, [sp, #112]
	ldp	x20, x19, [sp, #96]
	ldp	x22, x21, [sp, #80]
	add	sp, sp, #128
	ret

	.p2align	2
"_std_collections::btree::node::Node::balance::<#4331c6e857d27a8a>":
	sub	sp, sp, #208
	stp	x20, x19, [sp, #176]
	ldr	x20, [x0]
	stp	x24, x23, [sp, #144]
	lsl	x24, x1, #3
	mov	x8, x20
	stp	x22, x21, [sp, #160]
	ldrh	w21, [x8], #248
	add	x22, x8, x24
	ldp	x10, x9, [x22]
	stp	x28, x27, [sp, #112]
	mov	x27, x0
	stp	x26, x25, [sp, #128]
	stp	x29, x30, [sp, #192]
	add	x29, sp, #192
	ldrh	w11, [x10]
	ldrh	w12, [x9]
	add	x13, x12, x11
	cmp	x13, #15
	b.hs	Lh3q_BB56_5
	ldrh	w10, [x20, #2]
	add	x9, x20, #8
	add	x0, sp, #32
	stp	x9, x21, [sp, #32]
	mov	w9, #15
	add	x19, sp, #32
	cmp	w10, #0
	stp	x9, x8, [sp, #48]
	mov	w10, #16
	stp	x21, x9, [sp, #64]
	csinc	x9, xzr, x21, eq
	mov	x21, x1
	stp	x8, x9, [sp, #80]
	csel	x8, xzr, x10, eq
	str	x27, [sp, #16]
	stp	x8, x20, [sp, #96]
	bl	"_std_alloc::vec::Vec::remove::<#f809febec475afef>"
	ldr	x8, [sp, #64]
	mov	x22, x0
	mov	x23, x1
	add	x0, x19, #48
	add	x1, x21, #1
	sub	x8, x8, #1
	str	x8, [sp, #64]
	bl	"_std_alloc::vec::Vec::remove::<#2497946d5c84e1d7>"
	ldr	x8, [sp, #80]
	ldrh	w26, [x0]
	mov	x20, x0
	ldrh	w19, [x0, #2]
	ldr	x21, [x8, x21, lsl #3]
	str	x8, [sp, #8]
	add	x8, x0, #8
	lsl	x2, x26, #4
	ldrh	w28, [x21]
	add	x9, x21, #8
	ldrh	w25, [x21, #2]
	add	x27, x28, #1
	add	x0, x9, x27, lsl #4
	add	x9, x9, x28, lsl #4
	sub	x10, x0, x8
	stp	x22, x23, [x9]
	cmp	x10, x2
	b.hs	Lh3q_BB56_12
	mov	x9, x26
Lh3q_BB56_3:
	ldr	q0, [x8], #16
	subs	x9, x9, #1
	str	q0, [x0], #16
	b.ne	Lh3q_BB56_3
	cbnz	w25, Lh3q_BB56_13
	b	Lh3q_BB56_23
Lh3q_BB56_5:
	cmp	w11, w12
	add	x8, x20, #8
	b.hs	Lh3q_BB56_20
	mov	x13, x9
	cmp	w12, #130
	sub	x11, x12, #1
	ldr	q0, [x13, #8]!
	ldurh	w10, [x13, #-6]
	b.lo	Lh3q_BB56_24
	mov	x14, xzr
	add	x16, x9, #24
Lh3q_BB56_8:
	mov	w15, #128
	mov	x17, x16
Lh3q_BB56_9:
	ldr	q1, [x17]
	subs	x15, x15, #1
	stur	q1, [x17, #-16]
	add	x17, x17, #16
	b.ne	Lh3q_BB56_9
	add	x14, x14, #128
	add	x16, x16, #2048
	sub	x15, x11, x14
	cmp	x15, #128
	b.hi	Lh3q_BB56_8
	lsl	x16, x14, #4
	add	x17, x13, x16
	cmp	x11, x14
	b.ne	Lh3q_BB56_25
	b	Lh3q_BB56_27
Lh3q_BB56_12:
	add	x1, x20, #8
	bl	_memmove
	cbz	w25, Lh3q_BB56_23
Lh3q_BB56_13:
	add	x8, x21, #248
	lsl	x9, x26, #3
	cmp	w19, #0
	add	x0, x8, x27, lsl #3
	add	x8, x20, #248
	add	x9, x9, #8
	csel	x2, xzr, x9, eq
	sub	x8, x0, x8
	cmp	x8, x2
	b.hs	Lh3q_BB56_22
	cbz	w19, Lh3q_BB56_23
	cmp	w26, #7
	b.lo	Lh3q_BB56_17
	lsl	x8, x28, #3
	add	x11, x8, x21
	sub	x8, x11, x20
	add	x8, x8, #8
	cmp	x8, #32
	b.hs	Lh3q_BB56_57
Lh3q_BB56_17:
	mov	x8, xzr
Lh3q_BB56_18:
	lsl	x9, x8, #3
	sub	x8, x26, x8
	add	x8, x8, #1
	add	x10, x9, x28, lsl #3
	add	x9, x9, x20
	add	x9, x9, #248
	add	x10, x10, x21
	add	x10, x10, #256
Lh3q_BB56_19:
	ldr	x11, [x9], #8
	subs	x8, x8, #1
	str	x11, [x10], #8
	b.ne	Lh3q_BB56_19
	b	Lh3q_BB56_23
Lh3q_BB56_20:
	sub	x9, x11, #1
	ldrh	w23, [x10, #2]
	add	x12, x10, x9, lsl #4
	ldur	q0, [x12, #8]
	cbz	w23, Lh3q_BB56_35
	add	x11, x10, x11, lsl #3
	ldr	x19, [x11, #248]
	b	Lh3q_BB56_36
Lh3q_BB56_22:
	add	x1, x20, #248
	bl	_memmove
Lh3q_BB56_23:
	mov	x0, x20
	bl	_rattle_dealloc
	add	w8, w26, w27
	ldr	x9, [sp, #40]
	ldr	x10, [sp, #104]
	strh	w8, [x21]
	ldr	x8, [sp, #8]
	str	x21, [x8, x24]
	ldr	x8, [sp, #16]
	strh	w9, [x10]
	str	x10, [x8]
	b	Lh3q_BB56_53
Lh3q_BB56_24:
	mov	x16, xzr
	mov	x17, x13
	sub	x15, x12, #1
	cmp	x11, xzr
	b.eq	Lh3q_BB56_27
Lh3q_BB56_25:
	add	x14, x17, #16
	add	x16, x13, x16
Lh3q_BB56_26:
	ldr	q1, [x14], #16
	subs	x15, x15, #1
	str	q1, [x16], #16
	b.ne	Lh3q_BB56_26
Lh3q_BB56_27:
	cbz	w10, Lh3q_BB56_43
	add	x14, x13, #240
	cmp	w12, #257
	ldr	x13, [x14]
	b.lo	Lh3q_BB56_44
	mov	x15, xzr
	add	x16, x9, #272
Lh3q_BB56_30:
	mov	w17, #256
	mov	x0, x16
Lh3q_BB56_31:
	ldp	q1, q2, [x0, #-16]
	subs	x17, x17, #4
	stur	q1, [x0, #-24]
	stur	q2, [x0, #-8]
	add	x0, x0, #32
	b.ne	Lh3q_BB56_31
	add	x15, x15, #256
	add	x16, x16, #2048
	sub	x17, x12, x15
	cmp	x17, #256
	b.hi	Lh3q_BB56_30
	cmp	x12, x15
	b.eq	Lh3q_BB56_49
	lsl	x15, x15, #3
	mov	x12, x17
	add	x14, x14, x15
	cmp	x17, #6
	b.lo	Lh3q_BB56_46
	b	Lh3q_BB56_45
Lh3q_BB56_35:
	mov	x19, xzr
Lh3q_BB56_36:
	strh	w9, [x10]
	lsl	x9, x1, #4
	str	x10, [x22]
	ldr	q1, [x8, x9]
	str	q0, [x8, x9]
	ldr	x24, [x22, #8]
	ldrh	w8, [x24]
	ldrh	w26, [x24, #2]
	add	x25, x8, #1
	cbz	x8, Lh3q_BB56_38
	lsl	x2, x8, #4
	add	x0, x24, #24
	add	x1, x24, #8
	str	q1, [sp, #16]
	bl	_memmove
	ldr	q1, [sp, #16]
Lh3q_BB56_38:
	stur	q1, [x24, #8]
	cbz	w23, Lh3q_BB56_42
	cbz	w26, Lh3q_BB56_41
	lsl	x2, x25, #3
	add	x0, x24, #256
	add	x1, x24, #248
	bl	_memmove
Lh3q_BB56_41:
	stur	x19, [x24, #248]
Lh3q_BB56_42:
	strh	w25, [x24]
	str	x24, [x22, #8]
	b	Lh3q_BB56_52
Lh3q_BB56_43:
	mov	x13, xzr
	b	Lh3q_BB56_49
Lh3q_BB56_44:
	mov	x15, xzr
	cmp	x12, #6
	b.lo	Lh3q_BB56_46
Lh3q_BB56_45:
	add	x0, x15, x9
	sub	x16, x0, x14
	add	x16, x16, #240
	cmp	x16, #32
	b.hs	Lh3q_BB56_54
Lh3q_BB56_46:
	mov	x16, xzr
Lh3q_BB56_47:
	lsl	x17, x16, #3
	add	x15, x15, x9
	sub	x12, x12, x16
	add	x14, x17, x14
	add	x15, x15, x17
	add	x14, x14, #8
	add	x15, x15, #248
Lh3q_BB56_48:
	ldr	x16, [x14], #8
	subs	x12, x12, #1
	str	x16, [x15], #8
	b.ne	Lh3q_BB56_48
Lh3q_BB56_49:
	strh	w11, [x9]
	lsl	x11, x1, #4
	str	x9, [x22, #8]
	ldr	q1, [x8, x11]
	str	q0, [x8, x11]
	ldr	x8, [x22]
	ldrh	w9, [x8]
	ldrh	w11, [x8, #2]
	add	x12, x8, x9, lsl #4
	add	x9, x9, #1
	stur	q1, [x12, #8]
	cbz	w10, Lh3q_BB56_51
	lsl	x10, x9, #3
	cmp	w11, #0
	csel	x10, xzr, x10, eq
	add	x10, x8, x10
	str	x13, [x10, #248]
Lh3q_BB56_51:
	strh	w9, [x8]
	str	x8, [x22]
Lh3q_BB56_52:
	strh	w21, [x20]
	str	x20, [x27]
Lh3q_BB56_53:
	ldp	x29, x30, [sp, #192]
	ldp	x20, x19, [sp, #176]
	ldp	x22, x21, [sp, #160]
	ldp	x24, x23, [sp, #144]
	ldp	x26, x25, [sp, #128]
	ldp	x28, x27, [sp, #112]
	add	sp, sp, #208
	ret
Lh3q_BB56_54:
	and	x16, x12, #0xfffc
	add	x17, x14, #24
	add	x0, x0, #264
	and	x2, x12, #0xfffc
Lh3q_BB56_55:
	ldp	q1, q2, [x17, #-16]
	subs	x2, x2, #4
	add	x17, x17, #32
	stp	q1, q2, [x0, #-16]
	add	x0, x0, #32
	b.ne	Lh3q_BB56_55
	cmp	x12, x16
	b.ne	Lh3q_BB56_47
	b	Lh3q_BB56_49
Lh3q_BB56_57:
	add	x9, x26, #1
	add	x10, x20, #264
	add	x11, x11, #272
	and	x8, x9, #0x1fffc
	and	x12, x9, #0x1fffc
Lh3q_BB56_58:
	ldp	q0, q1, [x10, #-16]
	subs	x12, x12, #4
	add	x10, x10, #32
	stp	q0, q1, [x11, #-16]
	add	x11, x11, #32
	b.ne	Lh3q_BB56_58
	cmp	x9, x8
	b.eq	Lh3q_BB56_23
	b	Lh3q_BB56_18

	.p2align	2
"_qpack_wire::block::prefix::HeaderPrefix::decode":
	sub	sp, sp, #96
	ldr	x8, [x1, #8]
	stp	x20, x19, [sp, #64]
	mov	x19, x0
	stp	x22, x21, [sp, #48]
	stp	x29, x30, [sp, #80]
	add	x29, sp, #80
	stp	xzr, xzr, [sp, #32]
	cbz	x8, Lh3q_BB57_10
	ldr	x9, [x1]
	ldr	x10, [x1, #16]
	sub	x8, x8, #1
	ldrb	w20, [x9], #1
	stp	x9, x8, [x1]
	add	x9, x10, #1
	cmp	x20, #255
	str	x9, [x1, #16]
	b.eq	Lh3q_BB57_7
	stp	xzr, xzr, [sp, #32]
	cbz	x8, Lh3q_BB57_10
Lh3q_BB57_3:
	ldr	x9, [x1]
	ldr	x10, [x1, #16]
	sub	x12, x8, #1
	ldrb	w21, [x9], #1
	stp	x9, x12, [x1]
	add	x9, x10, #1
	sub	x11, x21, #128
	tst	w21, #0x80
	str	x9, [x1, #16]
	csel	x8, x11, x21, ne
	cmp	x8, #127
	b.lo	Lh3q_BB57_6
	add	x0, sp, #32
	bl	"_qpack_base::prefix_int::read_groups"
	ldrb	w8, [sp, #32]
	cbnz	w8, Lh3q_BB57_8
	ldr	x8, [sp, #40]
	add	x8, x8, #127
Lh3q_BB57_6:
	mov	x10, xzr
	str	wzr, [sp, #24]
	lsr	w9, w21, #7
	stur	wzr, [sp, #27]
	str	xzr, [sp, #16]
	str	xzr, [sp]
	b	Lh3q_BB57_12
Lh3q_BB57_7:
	add	x0, sp, #32
	mov	x20, x1
	bl	"_qpack_base::prefix_int::read_groups"
	ldrb	w8, [sp, #32]
	cbz	w8, Lh3q_BB57_9
Lh3q_BB57_8:
	ldrb	w8, [sp, #33]
	lsl	x20, x8, #8
	b	Lh3q_BB57_11
Lh3q_BB57_9:
	ldr	x9, [sp, #40]
	ldr	x8, [x20, #8]
	mov	x1, x20
	add	x20, x9, #255
	stp	xzr, xzr, [sp, #32]
	cbnz	x8, Lh3q_BB57_3
Lh3q_BB57_10:
	mov	w20, #256
Lh3q_BB57_11:
	mov	w9, wzr
	mov	x8, xzr
	mov	w10, #1
	str	wzr, [sp, #24]
	stur	wzr, [sp, #27]
	str	xzr, [sp]
	str	xzr, [sp, #16]
Lh3q_BB57_12:
	str	xzr, [sp, #8]
	ldp	x29, x30, [sp, #80]
	stp	x10, x20, [x19]
	ldr	w10, [sp, #24]
	ldr	q0, [sp]
	strb	w9, [x19, #16]
	ldur	w9, [sp, #27]
	str	x8, [x19, #24]
	ldr	x8, [sp, #16]
	stur	w10, [x19, #17]
	ldp	x22, x21, [sp, #48]
	str	w9, [x19, #20]
	str	q0, [x19, #32]
	stp	x8, xzr, [x19, #48]
	ldp	x20, x19, [sp, #64]
	add	sp, sp, #96
	ret

	.p2align	2
"_qpack_table::dynamic::table::DynamicTableDecoder::get_relative::<#78d66cfad5c8051d>":
	mov	x8, xzr
	subs	x10, x2, x3
	mov	w9, #1
	b.lo	Lh3q_BB58_7
	ldp	x12, x11, [x1, #40]
	cmp	x12, x11
	b.eq	Lh3q_BB58_7
	subs	x8, x10, x11
	cset	w9, ne
	cmp	x10, x11
	b.ls	Lh3q_BB58_6
	ldr	x10, [x1, #8]
	sub	x3, x8, x9
	cmp	x10, x3
	b.ls	Lh3q_BB58_8
	ldr	x8, [x1, #32]
	sub	x9, x10, x8
	ldr	x8, [x1]
	subs	x9, x3, x9
	b.hs	Lh3q_BB58_9
	ldr	x9, [x1, #24]
	mov	w10, #48
	madd	x8, x9, x10, x8
	madd	x8, x3, x10, x8
	stp	xzr, x8, [x0]
	str	xzr, [x0, #16]
	ret
Lh3q_BB58_6:
	mov	x8, xzr
	mov	w9, #1
Lh3q_BB58_7:
	stp	x9, x8, [x0]
	str	x3, [x0, #16]
	ret
Lh3q_BB58_8:
	mov	w8, #2
	mov	w9, #1
	stp	x9, x8, [x0]
	str	x3, [x0, #16]
	ret
Lh3q_BB58_9:
	mov	w10, #48
	madd	x8, x9, x10, x8
	stp	xzr, x8, [x0]
	str	xzr, [x0, #16]
	ret

	.p2align	2
"_qpack_table::dynamic::table::DynamicTableDecoder::get_postbase::<#78d66cfad5c8051d>":
	ldr	x8, [x1, #40]
	subs	x8, x8, x2
	csel	x8, xzr, x8, lo
	cmp	x8, x3
	b.ls	Lh3q_BB59_5
	add	x8, x2, x3
	ldr	x10, [x1, #48]
	add	x11, x8, #1
	subs	x8, x11, x10
	cset	w9, ne
	cmp	x11, x10
	b.ls	Lh3q_BB59_5
	ldr	x10, [x1, #8]
	sub	x3, x8, x9
	cmp	x10, x3
	b.ls	Lh3q_BB59_6
	ldr	x8, [x1, #32]
	sub	x9, x10, x8
	ldr	x8, [x1]
	subs	x9, x3, x9
	b.hs	Lh3q_BB59_7
	ldr	x9, [x1, #24]
	mov	w10, #48
	madd	x8, x9, x10, x8
	madd	x8, x3, x10, x8
	stp	xzr, x8, [x0]
	str	xzr, [x0, #16]
	ret
Lh3q_BB59_5:
	mov	w9, #1
	mov	w8, #1
	stp	x9, x8, [x0]
	str	x3, [x0, #16]
	ret
Lh3q_BB59_6:
	mov	w8, #2
	mov	w9, #1
	stp	x9, x8, [x0]
	str	x3, [x0, #16]
	ret
Lh3q_BB59_7:
	mov	w10, #48
	madd	x8, x9, x10, x8
	stp	xzr, x8, [x0]
	str	xzr, [x0, #16]
	ret

	.p2align	2
"_qpack_base::coding::append_within::<#8fc0d6d4cd31a236>":
	cmp	x2, x1
	b.hs	Lh3q_BB60_2
	mov	w0, wzr
	ret
Lh3q_BB60_2:
	stp	x22, x21, [sp, #-48]!
	ldp	x9, x8, [x3, #8]
	stp	x20, x19, [sp, #16]
	stp	x29, x30, [sp, #32]
	add	x29, sp, #32
	subs	x10, x8, x9
	csel	x10, xzr, x10, lo
	cmp	x1, x10
	b.ls	Lh3q_BB60_6
	mov	x19, x0
	mov	x0, x3
	mov	x21, x3
	mov	x20, x1
	bl	"_qpack_base::coding::grow_within::<#a86b858a52422f6f>"
	and	w8, w0, #0xff
	tbz	w8, #0, Lh3q_BB60_5
	mov	x1, xzr
	mov	w0, #1
	ldp	x29, x30, [sp, #32]
	ldp	x20, x19, [sp, #16]
	ldp	x22, x21, [sp], #48
	ret
Lh3q_BB60_5:
	ldp	x9, x8, [x21, #8]
	mov	x3, x21
	mov	x1, x20
	mov	x0, x19
Lh3q_BB60_6:
	ldr	x10, [x3]
	cmp	x1, #8
	b.hs	Lh3q_BB60_8
	mov	x11, x1
	subs	x12, x1, #4
	b.hs	Lh3q_BB60_13
	b	Lh3q_BB60_14
Lh3q_BB60_8:
	mov	x12, xzr
	add	x13, x10, x9
	mov	x11, x1
Lh3q_BB60_9:
	sub	x14, x11, #8
	cmp	x14, #7
	b.ls	Lh3q_BB60_12
	sub	x11, x11, #16
	ldr	q0, [x0, x12]
	cmp	x11, #7
	str	q0, [x13, x12]
	add	x12, x12, #16
	b.hi	Lh3q_BB60_9
	add	x0, x0, x12
	add	x9, x9, x12
	subs	x12, x11, #4
	b.hs	Lh3q_BB60_13
	b	Lh3q_BB60_14
Lh3q_BB60_12:
	add	x0, x0, x12
	add	x9, x9, x12
	ldr	x11, [x0], #8
	str	x11, [x9, x10]
	add	x9, x9, #8
	mov	x11, x14
	subs	x12, x14, #4
	b.lo	Lh3q_BB60_14
Lh3q_BB60_13:
	ldr	w11, [x0], #4
	str	w11, [x10, x9]
	add	x9, x9, #4
	mov	x11, x12
Lh3q_BB60_14:
	subs	x12, x11, #2
	b.hs	Lh3q_BB60_18
	cbz	x11, Lh3q_BB60_17
Lh3q_BB60_16:
	ldrb	w11, [x0]
	strb	w11, [x10, x9]
	add	x9, x9, #1
Lh3q_BB60_17:
	mov	w0, wzr
	stp	x10, x9, [x3]
	str	x8, [x3, #16]
	ldp	x29, x30, [sp, #32]
	ldp	x20, x19, [sp, #16]
	ldp	x22, x21, [sp], #48
	ret
Lh3q_BB60_18:
	ldrh	w11, [x0], #2
	strh	w11, [x10, x9]
	add	x9, x9, #2
	cbnz	x12, Lh3q_BB60_16
	b	Lh3q_BB60_17

	.p2align	2
"_qpack_base::coding::grow_within::<#a86b858a52422f6f>":
	mov	x8, x1
	ldp	x1, x9, [x0, #8]
	mov	w12, #4
	subs	x10, x9, x1
	csel	x11, xzr, x10, lo
	adds	x11, x11, x9, lsr #1
	csinv	x11, x11, xzr, lo
	cmp	x11, #4
	csel	x11, x11, x12, hi
	cmp	x2, x11
	csel	x11, x2, x11, lo
	cmp	x8, x11
	csel	x8, x8, x11, hi
	cmp	x8, x10
	b.ls	Lh3q_BB61_3
	cmn	x1, x8
	b.lo	Lh3q_BB61_4
	mov	w0, #1
	ret
Lh3q_BB61_3:
	mov	w0, wzr
	ret
Lh3q_BB61_4:
	stp	x22, x21, [sp, #-48]!
	stp	x20, x19, [sp, #16]
	adds	x19, x8, x1
	stp	x29, x30, [sp, #32]
	add	x29, sp, #32
	b.mi	Lh3q_BB61_8
	cbz	x9, Lh3q_BB61_9
	mov	x20, x0
	ldr	x0, [x0]
	mov	x2, x19
	mov	w3, #1
	bl	_rattle_realloc
	mov	x8, x0
	mov	w0, #1
	tbnz	w8, #0, Lh3q_BB61_10
Lh3q_BB61_7:
	ldp	x29, x30, [sp, #32]
	ldp	x20, x19, [sp, #16]
	ldp	x22, x21, [sp], #48
	ret
Lh3q_BB61_8:
	mov	w0, #1
	ldp	x29, x30, [sp, #32]
	ldp	x20, x19, [sp, #16]
	ldp	x22, x21, [sp], #48
	ret
Lh3q_BB61_9:
	mov	x20, x0
	mov	x0, x19
	mov	w1, #1
	mov	w21, #1
	bl	_rattle_alloc
	mov	x8, x0
	mov	w0, w21
	tbz	w8, #0, Lh3q_BB61_7
Lh3q_BB61_10:
	mov	w0, wzr
	str	x1, [x20]
	str	x19, [x20, #16]
	ldp	x29, x30, [sp, #32]
	ldp	x20, x19, [sp, #16]
	ldp	x22, x21, [sp], #48
	ret

	.p2align	2
"_qpack_base::prefix_string::decode_within::<#8fc0d6d4cd31a236>":
	sub	sp, sp, #352
	ldr	x8, [x3, #8]
	stp	x20, x19, [sp, #320]
	mov	x19, x0
	stp	x28, x27, [sp, #256]
	stp	x26, x25, [sp, #272]
	stp	x24, x23, [sp, #288]
	stp	x22, x21, [sp, #304]
	stp	x29, x30, [sp, #336]
	add	x29, sp, #336
	stp	xzr, xzr, [sp, #48]
	stp	xzr, xzr, [sp, #144]
	cbz	x8, Lh3q_BB62_7
	sub	w21, w1, #1
	ldr	x9, [x3]
	mov	w10, #1
	lsl	x10, x10, x21
	ldr	x11, [x3, #16]
	sub	x8, x8, #1
	ldrb	w23, [x9], #1
	mov	x20, x4
	sub	w12, w10, #1
	sub	x22, x10, #1
	stp	x9, x8, [x3]
	and	w28, w23, w12
	add	x8, x11, #1
	cmp	x22, x28
	str	x8, [x3, #16]
	b.hi	Lh3q_BB62_5
	add	x0, sp, #144
	mov	x1, x3
	mov	x24, x2
	mov	x25, x3
	bl	"_qpack_base::prefix_int::read_groups"
	ldrb	w8, [sp, #144]
	cbz	w8, Lh3q_BB62_4
	ldrb	w8, [sp, #145]
	cmp	w8, #1
	cset	w8, ne
	b	Lh3q_BB62_7
Lh3q_BB62_4:
	ldr	x8, [sp, #152]
	mov	x2, x24
	mov	x3, x25
	add	x28, x8, x22
Lh3q_BB62_5:
	ldr	x8, [x3, #8]
	subs	x8, x8, x28
	b.hs	Lh3q_BB62_8
	mov	x8, xzr
Lh3q_BB62_7:
	stp	xzr, xzr, [sp, #32]
	mov	w9, #1
	ldr	q0, [sp, #32]
	stp	x9, x8, [x19]
	stp	xzr, xzr, [x19, #16]
	str	q0, [x19, #32]
	str	xzr, [x19, #48]
	b	Lh3q_BB62_69
Lh3q_BB62_8:
	ldr	x22, [x3]
	ldr	x9, [x3, #16]
	stp	xzr, xzr, [sp, #32]
	stp	xzr, xzr, [sp, #64]
	add	x10, x22, x28
	add	x9, x9, x28
	stp	x10, x8, [x3]
	str	x9, [x3, #16]
	cbz	x28, Lh3q_BB62_17
	lsr	w8, w23, w21
	tbz	w8, #0, Lh3q_BB62_19
	mov	x8, #-3689348814741910324
	ldr	x24, [x20, #8]
	stp	xzr, xzr, [sp, #112]
	movk	x8, #52429
	stp	xzr, xzr, [sp, #96]
	umulh	x8, x28, x8
	stp	xzr, xzr, [sp, #80]
	lsl	x8, x8, #1
	orr	x1, x8, #0x6
	cmp	x1, x2
	b.ls	Lh3q_BB62_21
	movi.2d	v0, #0000000000000000
	add	x0, sp, #144
	sub	x1, x29, #128
	mov	x21, x2
	str	xzr, [sp, #192]
	stp	xzr, xzr, [x29, #-112]
	stp	x22, x28, [x29, #-128]
	stp	q0, q0, [sp, #160]
	str	q0, [sp, #144]
	stur	x28, [x29, #-96]
	bl	"_qpack_base::prefix_string::decoding::DecodeIterIterator::next"
	ldrb	w8, [sp, #144]
	cmp	w8, #1
	b.ne	Lh3q_BB62_24
	mov	x23, xzr
Lh3q_BB62_13:
	ldrb	w8, [sp, #152]
	cbnz	w8, Lh3q_BB62_29
	add	x0, sp, #144
	sub	x1, x29, #128
	add	x23, x23, #1
	bl	"_qpack_base::prefix_string::decoding::DecodeIterIterator::next"
	ldrb	w8, [sp, #144]
	cmp	w8, #1
	b.eq	Lh3q_BB62_13
	cmp	x23, x21
	b.ls	Lh3q_BB62_70
Lh3q_BB62_16:
	mov	x9, xzr
	mov	x11, xzr
	mov	w10, wzr
	mov	x8, xzr
	stp	xzr, xzr, [sp, #64]
	b	Lh3q_BB62_67
Lh3q_BB62_17:
	mov	x9, xzr
	mov	x11, xzr
	mov	x23, xzr
Lh3q_BB62_18:
	mov	x10, xzr
	mov	x8, xzr
	stp	xzr, xzr, [sp, #48]
	b	Lh3q_BB62_68
Lh3q_BB62_19:
	mov	x0, x22
	mov	x1, x28
	mov	x3, x20
	bl	"_qpack_base::coding::append_within::<#8fc0d6d4cd31a236>"
	tst	w0, #0xff
	b.eq	Lh3q_BB62_28
	mov	x9, xzr
	mov	x10, xzr
	mov	x8, xzr
	stp	xzr, xzr, [sp, #48]
	mov	w23, #5
	mov	w11, #1
	b	Lh3q_BB62_68
Lh3q_BB62_21:
	ldr	x9, [x20, #16]
	subs	x8, x9, x24
	csel	x8, xzr, x8, lo
	cmp	x1, x8
	mov	x8, x24
	b.ls	Lh3q_BB62_31
	mov	x0, x20
	bl	"_qpack_base::coding::grow_within::<#a86b858a52422f6f>"
	and	w8, w0, #0xff
	tbz	w8, #0, Lh3q_BB62_30
Lh3q_BB62_23:
	mov	x9, xzr
	mov	w10, wzr
	mov	x8, xzr
	mov	w23, #5
	stp	xzr, xzr, [sp, #64]
	b	Lh3q_BB62_66
Lh3q_BB62_24:
	mov	x23, xzr
Lh3q_BB62_25:
	movi.2d	v0, #0000000000000000
	str	xzr, [sp, #192]
	stp	x22, x28, [x29, #-128]
	stp	xzr, xzr, [x29, #-112]
	stur	x28, [x29, #-96]
	stp	q0, q0, [sp, #160]
	str	q0, [sp, #144]
	add	x0, sp, #144
	sub	x1, x29, #128
	bl	"_qpack_base::prefix_string::decoding::DecodeIterIterator::next"
	ldrb	w8, [sp, #144]
	cmp	w8, #1
	b.ne	Lh3q_BB62_16
Lh3q_BB62_26:
	ldrb	w8, [sp, #152]
	ldr	x9, [x20, #8]
	cbnz	w8, Lh3q_BB62_62
	ldr	x8, [x20]
	ldrb	w10, [sp, #153]
	add	x11, x9, #1
	strb	w10, [x8, x9]
	str	x11, [x20, #8]
	add	x0, sp, #144
	sub	x1, x29, #128
	bl	"_qpack_base::prefix_string::decoding::DecodeIterIterator::next"
	ldrb	w8, [sp, #144]
	cmp	w8, #1
	b.eq	Lh3q_BB62_26
	b	Lh3q_BB62_16
Lh3q_BB62_28:
	mov	x23, x1
	mov	x9, xzr
	mov	x11, xzr
	b	Lh3q_BB62_18
Lh3q_BB62_29:
	ldr	q0, [sp, #176]
	ldr	x8, [sp, #192]
	ldrb	w10, [sp, #160]
	ldr	x9, [sp, #168]
	str	q0, [sp, #96]
	b	Lh3q_BB62_65
Lh3q_BB62_30:
	ldp	x8, x9, [x20, #8]
Lh3q_BB62_31:
	ldr	x25, [x20]
	mov	x26, xzr
	mov	w23, wzr
	mov	x27, x8
	mov	x21, x28
	stp	x24, x9, [sp, #16]
	stp	xzr, xzr, [sp, #128]
	str	x8, [sp, #8]
	b	Lh3q_BB62_34
Lh3q_BB62_32:
	ldrb	w9, [x9]
Lh3q_BB62_33:
	orr	x8, x9, x8, lsl #32
	strb	w8, [x25, x27]
	add	x27, x27, #1
	lsr	x9, x8, #32
	lsl	x26, x26, x9
	sub	w23, w23, w9
Lh3q_BB62_34:
	cmp	w23, #31
	b.hi	Lh3q_BB62_43
	cbz	x21, Lh3q_BB62_41
	subs	x8, x21, #4
	b.hs	Lh3q_BB62_42
	ldrb	w8, [x22]
	cmp	x21, #1
	lsl	x8, x8, #56
	lsr	x8, x8, x23
	add	x26, x8, x26
	b.eq	Lh3q_BB62_40
	ldrb	w8, [x22, #1]
	add	w9, w23, #8
	cmp	x21, #2
	lsl	x8, x8, #56
	lsr	x8, x8, x9
	add	x26, x8, x26
	b.eq	Lh3q_BB62_40
	ldrb	w8, [x22, #2]
	add	w9, w23, #16
	lsl	x8, x8, #56
	lsr	x8, x8, x9
	add	x26, x8, x26
Lh3q_BB62_40:
	add	w23, w23, w21, lsl #3
	add	x22, x22, x21
Lh3q_BB62_41:
	cmp	w23, #12
	mov	x21, xzr
	b.hs	Lh3q_BB62_43
	b	Lh3q_BB62_44
Lh3q_BB62_42:
	ldr	w9, [x22], #4
	mov	x21, x8
	rev	w9, w9
	lsl	x9, x9, #32
	lsr	x9, x9, x23
	orr	w23, w23, #0x20
	add	x26, x9, x26
Lh3q_BB62_43:
	lsr	x8, x26, #50
	and	x9, x8, #0x3ffc
Lh3q_loh42:
	adrp	x8, l_static.7@PAGE
Lh3q_loh43:
	add	x8, x8, l_static.7@PAGEOFF
	ldr	w10, [x8, x9]
	and	x9, x10, #0xff
	cmp	w9, #12
	b.ls	Lh3q_BB62_48
Lh3q_BB62_44:
	lsr	x8, x26, #56
Lh3q_loh44:
	adrp	x9, l_static.4@PAGE
Lh3q_loh45:
	add	x9, x9, l_static.4@PAGEOFF
	add	x9, x9, x8, lsl #1
	ldrb	w8, [x9, #1]
	cmp	w23, w8
	b.hs	Lh3q_BB62_32
	lsr	x8, x26, #1
	mvn	w9, w23
	cmp	w23, #8
	lsr	x24, x8, x9
	b.lo	Lh3q_BB62_51
	mov	x0, x24
	mov	w1, w23
	bl	"_qpack_base::prefix_string::decoding::long_code"
	lsr	w8, w0, #8
	cmp	w23, w8
	b.lo	Lh3q_BB62_54
	mov	w9, w0
	b	Lh3q_BB62_33
Lh3q_BB62_48:
	lsr	x11, x10, #8
	add	x14, x27, #2
	lsr	w12, w10, #16
	lsr	w10, w10, #24
	sub	w23, w23, w9
	lsl	x26, x26, x9
	add	x11, x27, w11, uxtb
	add	x13, x25, x27
	strb	w12, [x13]
	cmp	x14, x11
	strb	w10, [x13, #1]
	csel	x27, x14, x11, lo
	cmp	w23, #12
	b.lo	Lh3q_BB62_34
	lsr	x9, x26, #50
	and	x9, x9, #0x3ffc
	ldr	w9, [x8, x9]
	and	x8, x9, #0xff
	cmp	w8, #12
	b.hi	Lh3q_BB62_34
	lsr	x10, x9, #8
	lsr	w11, w9, #16
	lsr	w9, w9, #24
	add	x13, x27, #2
	add	x12, x25, x27
	lsl	x26, x26, x8
	add	x10, x27, w10, uxtb
	strb	w11, [x12]
	sub	w23, w23, w8
	strb	w9, [x12, #1]
	cmp	x13, x10
	csel	x27, x13, x10, lo
	b	Lh3q_BB62_34
Lh3q_BB62_51:
	ldr	x8, [sp, #24]
	stp	x25, x27, [x20]
	str	x8, [x20, #16]
	cbnz	x21, Lh3q_BB62_55
	mov	x8, #-1
	lsl	x8, x8, x23
	eor	x8, x24, x8
	cmn	x8, #1
	b.eq	Lh3q_BB62_58
	mov	x21, xzr
	b	Lh3q_BB62_55
Lh3q_BB62_54:
	ldr	x8, [sp, #24]
	stp	x25, x27, [x20]
	str	x8, [x20, #16]
Lh3q_BB62_55:
	movi.2d	v0, #0000000000000000
	str	xzr, [sp, #192]
	stp	x22, x21, [x29, #-128]
	stur	x24, [x29, #-112]
	stp	w23, wzr, [x29, #-104]
	stp	q0, q0, [sp, #160]
	str	q0, [sp, #144]
	stur	x28, [x29, #-96]
	add	x0, sp, #144
	sub	x1, x29, #128
	bl	"_qpack_base::prefix_string::decoding::DecodeIterIterator::next"
	ldrb	w8, [sp, #144]
	cmp	w8, #1
	b.ne	Lh3q_BB62_58
Lh3q_BB62_56:
	ldrb	w8, [sp, #152]
	cbnz	w8, Lh3q_BB62_59
	ldr	x8, [x20]
	ldrb	w9, [sp, #153]
	strb	w9, [x8, x27]
	add	x27, x27, #1
	str	x27, [x20, #8]
	add	x0, sp, #144
	sub	x1, x29, #128
	bl	"_qpack_base::prefix_string::decoding::DecodeIterIterator::next"
	ldrb	w8, [sp, #144]
	cmp	w8, #1
	b.eq	Lh3q_BB62_56
Lh3q_BB62_58:
	ldr	x12, [sp, #16]
	mov	x9, xzr
	mov	x11, xzr
	mov	w10, wzr
	mov	x8, xzr
	stp	xzr, xzr, [sp, #64]
	sub	x23, x27, x12
	b	Lh3q_BB62_67
Lh3q_BB62_59:
	ldr	x9, [sp, #8]
	ldr	x8, [sp, #192]
	ldrb	w10, [sp, #160]
	cmp	x27, x9
	b.ls	Lh3q_BB62_61
	str	x9, [x20, #8]
Lh3q_BB62_61:
	ldr	q0, [sp, #176]
	ldr	x9, [sp, #168]
	str	q0, [sp, #112]
	b	Lh3q_BB62_65
Lh3q_BB62_62:
	ldr	x8, [sp, #192]
	ldrb	w10, [sp, #160]
	cmp	x9, x24
	b.ls	Lh3q_BB62_64
	str	x24, [x20, #8]
Lh3q_BB62_64:
	ldr	q0, [sp, #176]
	ldr	x9, [sp, #168]
	str	q0, [sp, #80]
Lh3q_BB62_65:
	str	q0, [sp, #64]
	mov	w23, #2
Lh3q_BB62_66:
	mov	w11, #1
Lh3q_BB62_67:
	ldr	q0, [sp, #64]
	mov	w10, w10
	str	q0, [sp, #48]
Lh3q_BB62_68:
	ldr	q0, [sp, #48]
	stp	x11, x23, [x19]
	stp	x10, x9, [x19, #16]
	str	q0, [x19, #32]
	str	x8, [x19, #48]
Lh3q_BB62_69:
	ldp	x29, x30, [sp, #336]
	ldp	x20, x19, [sp, #320]
	ldp	x22, x21, [sp, #304]
	ldp	x24, x23, [sp, #288]
	ldp	x26, x25, [sp, #272]
	ldp	x28, x27, [sp, #256]
	add	sp, sp, #352
	ret
Lh3q_BB62_70:
	ldr	x8, [x20, #16]
	subs	x8, x8, x24
	csel	x8, xzr, x8, lo
	cmp	x23, x8
	b.ls	Lh3q_BB62_25
	mov	x2, x21
	mov	x0, x20
	mov	x1, x23
	bl	"_qpack_base::coding::grow_within::<#a86b858a52422f6f>"
	and	w8, w0, #0xff
	tbnz	w8, #0, Lh3q_BB62_23
	b	Lh3q_BB62_25
	.loh AdrpAdd	Lh3q_loh42, Lh3q_loh43
	.loh AdrpAdd	Lh3q_loh44, Lh3q_loh45

	.p2align	2
"_qpack_base::prefix_string::decoding::long_code":
	sub	w8, w1, #8
	lsr	x8, x0, x8
	cmp	x8, #253
	b.hi	Lh3q_BB63_2
Lh3q_BB63_1:
	mov	w0, #16384
	ret
Lh3q_BB63_2:
	subs	w8, w1, #24
	b.hs	Lh3q_BB63_4
	mov	x8, xzr
	b	Lh3q_BB63_5
Lh3q_BB63_4:
	lsr	x8, x0, x8
	mov	w9, #65023
	mov	w10, #16776704
	movk	w9, #255, lsl #16
	add	x9, x9, #490
	cmp	x8, x10
	mov	w10, #6
	csel	x10, x10, xzr, hs
	cmp	x8, x9
	mov	w8, #11
	csel	x8, x8, x10, hi
Lh3q_BB63_5:
	mov	w9, #24
Lh3q_loh46:
	adrp	x10, l_static.6@PAGE
Lh3q_loh47:
	add	x10, x10, l_static.6@PAGEOFF
	umaddl	x10, w8, w9, x10
	sub	x9, x8, #17
	add	x8, x10, #8
	b	Lh3q_BB63_7
Lh3q_BB63_6:
	adds	x9, x9, #1
	add	x8, x8, #24
	b.hs	Lh3q_BB63_1
Lh3q_BB63_7:
	ldurb	w10, [x8, #-8]
	subs	w11, w1, w10
	b.lo	Lh3q_BB63_1
	lsr	x11, x0, x11
	ldur	w12, [x8, #-4]
	subs	x11, x11, x12
	b.lo	Lh3q_BB63_6
	ldr	x12, [x8, #8]
	cmp	x11, x12
	b.hs	Lh3q_BB63_6
	ldr	x8, [x8]
	ldrb	w8, [x8, x11]
	orr	w0, w8, w10, lsl #8
	ret
	.loh AdrpAdd	Lh3q_loh46, Lh3q_loh47

	.p2align	2
"_qpack_base::prefix_string::decoding::DecodeIterIterator::next":
	ldr	w8, [x1, #24]
	cmp	w8, #31
	b.hi	Lh3q_BB64_14
	mov	x16, x1
	ldr	x9, [x1]
	ldr	x10, [x16, #8]!
	subs	x11, x10, #4
	b.hs	Lh3q_BB64_6
	cbz	x10, Lh3q_BB64_8
	mov	x13, x9
	ldr	x11, [x1, #16]
	add	w12, w8, #8
	ldrb	w14, [x13], #1
	str	w12, [x1, #24]
	str	x13, [x1]
	orr	x11, x14, x11, lsl #8
	subs	x14, x10, #1
	stp	x14, x11, [x1, #8]
	b.eq	Lh3q_BB64_7
	ldrb	w13, [x9, #1]
	add	w12, w8, #16
	subs	x14, x10, #2
	str	w12, [x1, #24]
	orr	x11, x13, x11, lsl #8
	add	x13, x9, #2
	str	x13, [x1]
	stp	x14, x11, [x1, #8]
	b.eq	Lh3q_BB64_13
	ldrb	w12, [x9, #2]
	add	w8, w8, #24
	add	x9, x9, #3
	sub	x10, x10, #3
	str	w8, [x1, #24]
	orr	x11, x12, x11, lsl #8
	str	x9, [x1]
	stp	x10, x11, [x1, #8]
	cmp	w8, #7
	b.ls	Lh3q_BB64_9
	b	Lh3q_BB64_14
Lh3q_BB64_6:
	ldr	w10, [x9], #4
	ldr	x12, [x1, #16]
	orr	w8, w8, #0x20
	str	x9, [x1]
	rev	w10, w10
	str	w8, [x1, #24]
	orr	x10, x10, x12, lsl #32
	stp	x11, x10, [x1, #8]
	b	Lh3q_BB64_14
Lh3q_BB64_7:
	mov	w8, w12
Lh3q_BB64_8:
	cmp	w8, #7
	b.hi	Lh3q_BB64_14
Lh3q_BB64_9:
	mov	w9, #8
	ldr	x17, [x1, #16]
	mov	x10, #-1
	sub	w9, w9, w8
	lsl	x10, x10, x9
	lsl	x9, x17, x9
	mvn	x10, x10
	add	x9, x9, x10
	cmp	x9, #255
	b.ne	Lh3q_BB64_11
Lh3q_loh48:
	adrp	x17, l_static.5@PAGE
Lh3q_loh49:
	add	x17, x17, l_static.5@PAGEOFF
	mov	x8, xzr
	mov	w15, wzr
	mov	w11, wzr
	mov	x10, xzr
	mov	x13, xzr
	mov	x14, xzr
	mov	x9, xzr
	mov	x12, xzr
	stp	xzr, xzr, [x16]
	str	x17, [x1]
	str	wzr, [x16, #16]
	b	Lh3q_BB64_29
Lh3q_BB64_11:
Lh3q_loh50:
	adrp	x10, l_static.4@PAGE
Lh3q_loh51:
	add	x10, x10, l_static.4@PAGEOFF
	add	x11, x10, x9, lsl #1
	ldrb	w9, [x11, #1]
	subs	w2, w8, w9
	b.hs	Lh3q_BB64_30
	ldr	x13, [x1, #32]
	mov	w9, w8
	neg	w8, w8
	add	x14, x9, #7
	mov	w11, wzr
	mov	x10, xzr
	subs	x13, x13, x14, lsr #3
	mov	x12, xzr
Lh3q_loh52:
	adrp	x15, l_static.5@PAGE
Lh3q_loh53:
	add	x15, x15, l_static.5@PAGEOFF
	and	x14, x8, #0x7
	stp	xzr, xzr, [x16]
	csel	x13, xzr, x13, lo
	str	x15, [x1]
	str	wzr, [x16, #16]
	b	Lh3q_BB64_27
Lh3q_BB64_13:
	mov	w8, w12
	cmp	w12, #7
	b.ls	Lh3q_BB64_9
Lh3q_BB64_14:
	ldr	x16, [x1, #16]
	sub	w9, w8, #8
	lsr	x11, x16, x9
	cmp	x11, #254
	b.lo	Lh3q_BB64_17
	subs	w9, w8, #24
	b.hs	Lh3q_BB64_19
	mov	x9, xzr
	b	Lh3q_BB64_20
Lh3q_BB64_17:
Lh3q_loh54:
	adrp	x17, l_static.4@PAGE
Lh3q_loh55:
	add	x17, x17, l_static.4@PAGEOFF
	mov	w15, wzr
	add	x11, x17, x11, lsl #1
	mov	x10, xzr
	mov	x13, xzr
	mov	x14, xzr
	mov	x9, xzr
	mov	x12, xzr
	ldrb	w17, [x11, #1]
	ldrb	w11, [x11]
	sub	w8, w8, w17
	mov	x17, #-1
	lsl	x17, x17, x8
	str	w8, [x1, #24]
	bic	x8, x16, x17
Lh3q_BB64_18:
	str	x8, [x1, #16]
	mov	w8, #1
	b	Lh3q_BB64_29
Lh3q_BB64_19:
	lsr	x9, x16, x9
	mov	w10, #65023
	mov	w11, #16776704
	movk	w10, #255, lsl #16
	add	x10, x10, #490
	cmp	x9, x11
	mov	w11, #6
	csel	x11, x11, xzr, hs
	cmp	x9, x10
	mov	w9, #11
	csel	x9, x9, x11, hi
Lh3q_BB64_20:
	mov	w10, #24
Lh3q_loh56:
	adrp	x11, l_static.6@PAGE
Lh3q_loh57:
	add	x11, x11, l_static.6@PAGEOFF
	umaddl	x10, w9, w10, x11
	sub	x9, x9, #17
	add	x11, x10, #8
	b	Lh3q_BB64_22
Lh3q_BB64_21:
	adds	x9, x9, #1
	add	x11, x11, #24
	b.hs	Lh3q_BB64_28
Lh3q_BB64_22:
	ldurb	w10, [x11, #-8]
	subs	w17, w8, w10
	b.lo	Lh3q_BB64_26
	lsr	x10, x16, x17
	ldur	w12, [x11, #-4]
	subs	x2, x10, x12
	b.lo	Lh3q_BB64_21
	ldr	x10, [x11, #8]
	cmp	x2, x10
	b.hs	Lh3q_BB64_21
	mov	x8, #-1
	ldr	x11, [x11]
	mov	w15, wzr
	lsl	x8, x8, x17
	mov	x10, xzr
	mov	x13, xzr
	ldrb	w11, [x11, x2]
	mov	x14, xzr
	mov	x9, xzr
	mov	x12, xzr
	str	w17, [x1, #24]
	bic	x8, x16, x8
	b	Lh3q_BB64_18
Lh3q_BB64_26:
	ldr	x13, [x1, #32]
	ldr	x14, [x1, #8]
	mov	w9, w8
	neg	w8, w8
Lh3q_loh58:
	adrp	x15, l_static.5@PAGE
Lh3q_loh59:
	add	x15, x15, l_static.5@PAGEOFF
	subs	x13, x13, x14
	add	x14, x9, #7
	mov	w11, wzr
	csel	x13, xzr, x13, lo
	mov	x10, xzr
	mov	x12, xzr
	subs	x13, x13, x14, lsr #3
	stp	xzr, xzr, [x1, #8]
	and	x14, x8, #0x7
	str	wzr, [x1, #24]
	csel	x13, xzr, x13, lo
	str	x15, [x1]
Lh3q_BB64_27:
	mov	w8, #1
	mov	w15, #1
	b	Lh3q_BB64_29
Lh3q_BB64_28:
	ldr	x10, [x1, #32]
	ldr	x12, [x1, #8]
	mov	w9, w8
Lh3q_loh60:
	adrp	x13, l_static.5@PAGE
Lh3q_loh61:
	add	x13, x13, l_static.5@PAGEOFF
	mov	w11, wzr
	subs	x10, x10, x12
	add	x12, x9, #7
	stp	x13, xzr, [x1]
	csel	x10, xzr, x10, lo
	str	xzr, [x1, #16]
	mov	w15, #1
	subs	x10, x10, x12, lsr #3
	neg	w12, w8
	str	wzr, [x1, #24]
	mov	w8, #1
	and	x14, x12, #0x7
	mov	w12, #1073741823
	csel	x13, xzr, x10, lo
	mov	w10, #1
Lh3q_BB64_29:
	str	x8, [x0]
	strb	w15, [x0, #8]
	strb	w11, [x0, #9]
	stp	x10, x13, [x0, #16]
	stp	x14, x9, [x0, #32]
	str	x12, [x0, #48]
	ret
Lh3q_BB64_30:
	mov	x8, #-1
	ldrb	w11, [x11]
	mov	w15, wzr
	lsl	x8, x8, x2
	mov	x10, xzr
	mov	x13, xzr
	mov	x14, xzr
	mov	x9, xzr
	mov	x12, xzr
	str	w2, [x1, #24]
	bic	x8, x17, x8
	b	Lh3q_BB64_18
	.loh AdrpAdd	Lh3q_loh48, Lh3q_loh49
	.loh AdrpAdd	Lh3q_loh50, Lh3q_loh51
	.loh AdrpAdd	Lh3q_loh52, Lh3q_loh53
	.loh AdrpAdd	Lh3q_loh54, Lh3q_loh55
	.loh AdrpAdd	Lh3q_loh56, Lh3q_loh57
	.loh AdrpAdd	Lh3q_loh58, Lh3q_loh59
	.loh AdrpAdd	Lh3q_loh60, Lh3q_loh61

	.p2align	2
"_qpack_base::coding::grow_within::<#c17844b3e8bab21b>":
	ldp	x8, x9, [x0, #8]
	mov	w10, #4
	subs	x11, x9, x8
	csel	x12, xzr, x11, lo
	adds	x12, x12, x9, lsr #1
	csinv	x12, x12, xzr, lo
	cmp	x12, #4
	csel	x10, x12, x10, hi
	cmp	x1, x10
	csel	x10, x1, x10, lo
	cmp	x10, #1
	csinc	x10, x10, xzr, hi
	cmp	x10, x11
	b.ls	Lh3q_BB65_3
	cmn	x8, x10
	b.lo	Lh3q_BB65_4
	mov	w0, #1
	ret
Lh3q_BB65_3:
	mov	w0, wzr
	ret
Lh3q_BB65_4:
	stp	x20, x19, [sp, #-32]!
	add	x19, x10, x8
	mov	x10, #6148914691236517205
	stp	x29, x30, [sp, #16]
	movk	x10, #1365, lsl #48
	add	x29, sp, #16
	cmp	x19, x10
	b.hi	Lh3q_BB65_9
	cbz	x9, Lh3q_BB65_8
	add	x8, x8, x8, lsl #1
	add	x9, x19, x19, lsl #1
	mov	x20, x0
	ldr	x0, [x0]
	mov	w3, #8
	lsl	x1, x8, #3
	lsl	x2, x9, #3
	bl	_rattle_realloc
	tbz	w0, #0, Lh3q_BB65_9
Lh3q_BB65_7:
	mov	w0, wzr
	str	x1, [x20]
	str	x19, [x20, #16]
	ldp	x29, x30, [sp, #16]
	ldp	x20, x19, [sp], #32
	ret
Lh3q_BB65_8:
	add	x8, x19, x19, lsl #1
	mov	x20, x0
	mov	w1, #8
	lsl	x0, x8, #3
	bl	_rattle_alloc
	tbnz	w0, #0, Lh3q_BB65_7
Lh3q_BB65_9:
	mov	w0, #1
	ldp	x29, x30, [sp, #16]
	ldp	x20, x19, [sp], #32
	ret

	.p2align	2
"_qpack_decoding::field_section::FieldSection::clear_within":
	sub	sp, sp, #64
	stp	x22, x21, [sp, #16]
	mov	x22, x0
	ldr	x8, [x22, #8]!
	stp	x20, x19, [sp, #32]
	mov	x19, x0
	mov	x20, x1
	stp	x29, x30, [sp, #48]
	add	x29, sp, #48
	cbz	x8, Lh3q_BB66_2
	str	xzr, [x22]
Lh3q_BB66_2:
	mov	x21, x19
	ldr	x8, [x21, #32]!
	cbz	x8, Lh3q_BB66_4
	str	xzr, [x21]
Lh3q_BB66_4:
	ldr	x8, [x19, #16]
	cmp	x20, x8
	b.hs	Lh3q_BB66_6
	ldr	x0, [x19]
	bl	_rattle_dealloc
	add	x8, sp, #8
	stp	xzr, xzr, [x22]
	str	x8, [x19]
Lh3q_BB66_6:
	ldr	x8, [x19, #40]
	cmp	x8, x20, lsr #5
	b.ls	Lh3q_BB66_11
	ldr	x20, [x21]
	cmp	x8, x20
	b.ls	Lh3q_BB66_11
	cbz	x20, Lh3q_BB66_12
	add	x8, x20, x20, lsl #1
	ldr	x0, [x19, #24]
	mov	w3, #8
	lsl	x1, x8, #3
	mov	x2, x1
	bl	_rattle_realloc
	tbz	w0, #0, Lh3q_BB66_11
	str	x1, [x19, #24]
	str	x20, [x19, #40]
Lh3q_BB66_11:
	ldp	x29, x30, [sp, #48]
	ldp	x20, x19, [sp, #32]
	ldp	x22, x21, [sp, #16]
	add	sp, sp, #64
	ret
Lh3q_BB66_12:
	ldr	x0, [x19, #24]
	bl	_rattle_dealloc
	add	x8, sp, #8
	stp	xzr, xzr, [x21]
	str	x8, [x19, #24]
	ldp	x29, x30, [sp, #48]
	ldp	x20, x19, [sp, #32]
	ldp	x22, x21, [sp, #16]
	add	sp, sp, #64
	ret

	.section	__TEXT,__literal16,16byte_literals
	.p2align	4, 0x0
lh3q_CPI67_0:
	.quad	1
	.quad	2
	.section	__TEXT,__text,regular,pure_instructions
	.p2align	2
"_qpack_decoding::decoder::ConnectionDecoder::block":
	sub	sp, sp, #400
	ldrb	w8, [x1, #296]
	stp	x28, x27, [sp, #304]
	ldr	x27, [x1, #64]
	ldr	x15, [x1, #8]
	stp	x22, x21, [sp, #352]
	mov	x21, x1
	stp	x20, x19, [sp, #368]
	mov	x20, x2
	mov	x19, x0
	stp	x29, x30, [sp, #384]
	add	x29, sp, #384
	add	x22, sp, #192
	cmp	w8, #1
	stp	x26, x25, [sp, #320]
	stp	x24, x23, [sp, #336]
	stur	wzr, [x22, #11]
	stur	wzr, [x29, #-184]
	str	wzr, [sp, #192]
	stur	wzr, [x22, #3]
	stp	xzr, xzr, [sp, #168]
	str	xzr, [sp, #160]
	stp	xzr, xzr, [sp, #136]
	str	xzr, [sp, #128]
	str	wzr, [sp, #120]
	stur	wzr, [sp, #123]
	stp	xzr, xzr, [sp, #104]
	stp	xzr, xzr, [sp, #88]
	stp	xzr, xzr, [sp, #72]
	stur	wzr, [sp, #67]
	str	wzr, [sp, #64]
	stp	xzr, xzr, [sp, #48]
	stp	xzr, xzr, [sp, #32]
	stp	xzr, xzr, [sp, #16]
	b.ne	Lh3q_BB67_12
	add	x9, x21, #304
	ldr	x9, [x9]
	ldrh	w11, [x9]
	cbz	x11, Lh3q_BB67_8
Lh3q_BB67_2:
	mov	x10, xzr
	mov	x12, x9
	mov	x13, x11
Lh3q_BB67_3:
	ldr	x14, [x12, #8]
	cmp	x20, x14
	mov	w14, #2
	csel	w14, wzr, w14, lo
	csinc	w14, w14, wzr, ne
	cmp	w14, #2
	b.ne	Lh3q_BB67_6
	sub	x13, x13, #1
	sub	x10, x10, #8
	add	x12, x12, #8
	cbnz	x13, Lh3q_BB67_3
	lsl	x10, x11, #3
	b	Lh3q_BB67_9
Lh3q_BB67_6:
	cbnz	w14, Lh3q_BB67_11
	neg	x10, x10
	b	Lh3q_BB67_9
Lh3q_BB67_8:
	mov	x10, xzr
Lh3q_BB67_9:
	ldrh	w11, [x9, #2]
	cbz	w11, Lh3q_BB67_12
	add	x9, x9, x10
	add	x9, x9, #248
	ldr	x9, [x9]
	ldrh	w11, [x9]
	cbnz	x11, Lh3q_BB67_2
	b	Lh3q_BB67_8
Lh3q_BB67_11:
	ldr	x9, [x12, #128]
	cmp	x27, x9
	b.lo	Lh3q_BB67_30
Lh3q_BB67_12:
	ldr	x28, [x21, #288]
	cmp	x15, x28
	b.hi	Lh3q_BB67_29
	ldrb	w8, [x21, #272]
	stp	x3, x15, [sp]
	cmp	w8, #1
	b.ne	Lh3q_BB67_16
	ldr	x22, [x21, #280]
	ldrh	w8, [x22, #2]
	cbz	w8, Lh3q_BB67_17
	mov	x25, xzr
	add	x2, x21, #280
	mov	x23, #-1
	mov	w8, #1
	sub	x22, x29, #104
	mov	x26, xzr
	mov	x1, x23
	mov	x24, x2
	cmp	xzr, xzr
	b.lo	Lh3q_BB67_21
	b	Lh3q_BB67_18
Lh3q_BB67_16:
	mov	x25, xzr
	mov	w8, wzr
	mov	x2, xzr
	mov	x23, xzr
	sub	x22, x29, #104
	mov	x26, xzr
	mov	x1, x23
	mov	x24, x2
	cmp	xzr, xzr
	b.lo	Lh3q_BB67_21
	b	Lh3q_BB67_18
Lh3q_BB67_17:
	ldrh	w25, [x22], #8
	mov	x2, xzr
	mov	x23, xzr
	mov	x26, xzr
	mov	x1, x23
	mov	x24, x2
	cmp	xzr, x25
	b.lo	Lh3q_BB67_21
Lh3q_BB67_18:
	movi.2d	v0, #0000000000000000
	cmp	w8, #1
	stp	q0, q0, [x29, #-160]
	stur	q0, [x29, #-176]
	b.eq	Lh3q_BB67_23
	mov	w8, wzr
Lh3q_BB67_20:
	cmp	x26, x25
	b.hs	Lh3q_BB67_27
Lh3q_BB67_21:
	add	x9, x22, x26, lsl #4
	add	x26, x26, #1
	ldr	x9, [x9]
	cmp	x9, x27
	b.hi	Lh3q_BB67_27
Lh3q_BB67_22:
	sub	x28, x28, #1
	cmp	x26, x25
	b.hs	Lh3q_BB67_18
	b	Lh3q_BB67_21
Lh3q_BB67_23:
	sub	x0, x29, #176
	mov	x3, x24
	mov	x4, x23
	bl	"_std_collections::btree::iter::Cursor::advance::<36'qpack_shared::streams::BlockedStream,()>"
	ldurb	w8, [x29, #-152]
	cmp	w8, #1
	b.ne	Lh3q_BB67_25
	ldp	x1, x2, [x29, #-144]
	mov	x26, xzr
	ldr	x8, [x2]
	ubfiz	x9, x1, #3, #4
	add	x8, x8, x9
	ldr	x22, [x8, #248]
	mov	w8, #1
	ldrh	w25, [x22], #8
	ldurb	w9, [x29, #-176]
	cmp	w9, #1
	b.ne	Lh3q_BB67_20
	b	Lh3q_BB67_26
Lh3q_BB67_25:
	mov	w8, wzr
	mov	x24, xzr
	mov	x1, xzr
	mov	x2, xzr
	mov	x23, xzr
	ldurb	w9, [x29, #-176]
	cmp	w9, #1
	b.ne	Lh3q_BB67_20
Lh3q_BB67_26:
	ldur	x9, [x29, #-168]
	ldr	x9, [x9]
	cmp	x9, x27
	b.ls	Lh3q_BB67_22
Lh3q_BB67_27:
	ldr	x8, [sp, #8]
	cmp	x8, x28
	b.ls	Lh3q_BB67_48
	ldrb	w8, [x21, #296]
	ldr	x3, [sp]
	add	x22, sp, #192
Lh3q_BB67_29:
	cmp	w8, #1
	b.ne	Lh3q_BB67_44
Lh3q_BB67_30:
	add	x8, x21, #304
	ldr	x8, [x8]
	ldrh	w10, [x8]
	cbz	x10, Lh3q_BB67_37
Lh3q_BB67_31:
	mov	x9, xzr
	mov	x11, x8
	mov	x12, x10
Lh3q_BB67_32:
	ldr	x13, [x11, #8]
	cmp	x20, x13
	mov	w13, #2
	csel	w13, wzr, w13, lo
	csinc	w13, w13, wzr, ne
	cmp	w13, #2
	b.ne	Lh3q_BB67_35
	sub	x12, x12, #1
	sub	x9, x9, #8
	add	x11, x11, #8
	cbnz	x12, Lh3q_BB67_32
	lsl	x9, x10, #3
	b	Lh3q_BB67_38
Lh3q_BB67_35:
	cbnz	w13, Lh3q_BB67_40
	neg	x9, x9
	b	Lh3q_BB67_38
Lh3q_BB67_37:
	mov	x9, xzr
Lh3q_BB67_38:
	ldrh	w10, [x8, #2]
	cbz	w10, Lh3q_BB67_44
	add	x8, x8, x9
	add	x8, x8, #248
	ldr	x8, [x8]
	ldrh	w10, [x8]
	cbnz	x10, Lh3q_BB67_31
	b	Lh3q_BB67_37
Lh3q_BB67_40:
	ldr	x23, [x11, #128]
	cmp	x23, x3
	b.eq	Lh3q_BB67_43
	sub	x0, x29, #176
	add	x1, x21, #272
	mov	x24, x3
	mov	x2, x3
	mov	x3, x20
	stp	xzr, xzr, [x29, #-168]
	stur	xzr, [x29, #-176]
	stp	xzr, xzr, [x29, #-120]
	stur	xzr, [x29, #-128]
	bl	"_std_collections::btree_set::BTreeSet::insert::<#16899c1f4b11a2ec>"
	ldurb	w8, [x29, #-176]
	cbz	w8, Lh3q_BB67_49
	tbnz	w8, #0, Lh3q_BB67_47
Lh3q_BB67_43:
	mov	w8, wzr
	b	Lh3q_BB67_50
Lh3q_BB67_44:
	sub	x0, x29, #176
	add	x1, x21, #296
	mov	x2, x20
	stp	xzr, xzr, [x29, #-168]
	mov	x23, x3
	stur	xzr, [x29, #-176]
	stp	xzr, xzr, [x29, #-120]
	stur	xzr, [x29, #-128]
	bl	"_std_collections::btree_map::BTreeMap::insert::<#5069bb9211453e8b>"
	ldurb	w8, [x29, #-176]
	cbnz	w8, Lh3q_BB67_47
	sub	x0, x29, #128
	add	x1, x21, #272
	mov	x2, x23
	mov	x3, x20
	bl	"_std_collections::btree_set::BTreeSet::insert::<#16899c1f4b11a2ec>"
	ldurb	w8, [x29, #-128]
	cbz	w8, Lh3q_BB67_50
	add	x0, x21, #296
	mov	x1, x20
	bl	"_std_collections::btree_map::BTreeMap::remove::<#0bd4589be7401c64>"
Lh3q_BB67_47:
	ldr	w8, [sp, #64]
	ldur	w9, [sp, #67]
	mov	x20, xzr
	ldur	q0, [sp, #40]
	str	w8, [sp, #192]
	ldr	x8, [sp, #56]
	stur	w9, [x22, #3]
	ldr	x9, [sp, #32]
	str	q0, [sp, #160]
	ldr	q0, [sp, #16]
	str	x8, [sp, #176]
	mov	w8, #1
	str	x9, [sp, #144]
	mov	w9, #4
	str	q0, [sp, #128]
	b	Lh3q_BB67_51
Lh3q_BB67_48:
	ldr	q0, [sp, #96]
Lh3q_loh62:
	adrp	x8, lh3q_CPI67_0@PAGE
	add	x9, x21, #408
Lh3q_loh63:
	ldr	q3, [x8, lh3q_CPI67_0@PAGEOFF]
	ldur	w8, [sp, #123]
	add	x10, x21, #377
	str	q0, [x9]
	ldr	w9, [sp, #120]
	ldur	q1, [sp, #72]
	str	w8, [x21, #380]
	ldr	q2, [sp, #96]
	add	x22, sp, #192
	str	w9, [x10]
	ldr	x9, [sp, #112]
	ldur	q0, [sp, #72]
	ldr	w8, [sp, #120]
	ldr	x10, [sp, #88]
	ldr	x11, [sp, #112]
	str	x9, [x21, #424]
	ldr	x12, [sp, #88]
	ldur	w9, [sp, #123]
	str	q1, [x21, #432]
	str	q3, [x21, #352]
	str	q2, [sp, #160]
	str	x20, [x21, #368]
	strb	wzr, [x21, #376]
	stp	xzr, xzr, [x21, #392]
	str	xzr, [x21, #384]
	stp	x10, xzr, [x21, #448]
	str	w8, [sp, #192]
	mov	w8, #1
	stur	w9, [x22, #3]
	mov	w9, #2
	str	x11, [sp, #176]
	str	q0, [sp, #128]
	str	x12, [sp, #144]
	b	Lh3q_BB67_51
Lh3q_BB67_49:
	add	x0, x21, #272
	mov	x1, x23
	mov	x2, x20
	bl	"_std_collections::btree_set::BTreeSet::remove::<#d92db99615d1834b>"
	sub	x0, x29, #128
	add	x1, x21, #296
	mov	x2, x20
	mov	x3, x24
	bl	"_std_collections::btree_map::BTreeMap::insert::<#5069bb9211453e8b>"
	ldurb	w8, [x29, #-128]
	cbnz	w8, Lh3q_BB67_52
Lh3q_BB67_50:
	mov	x20, xzr
	mov	x9, xzr
Lh3q_BB67_51:
	ldur	w10, [x29, #-184]
	strb	w8, [x19]
	ldur	w8, [x22, #11]
	ldr	q0, [sp, #160]
	stp	x9, x20, [x19, #8]
	ldur	w9, [x22, #3]
	stur	w10, [x19, #1]
	ldp	x29, x30, [sp, #384]
	str	w8, [x19, #4]
	ldr	w8, [sp, #192]
	stur	q0, [x19, #56]
	ldr	q0, [sp, #128]
	stur	w8, [x19, #25]
	ldr	x8, [sp, #176]
	strb	wzr, [x19, #24]
	ldp	x22, x21, [sp, #352]
	str	x8, [x19, #72]
	ldr	x8, [sp, #144]
	str	w9, [x19, #28]
	ldp	x24, x23, [sp, #336]
	stp	xzr, xzr, [x19, #40]
	ldp	x26, x25, [sp, #320]
	str	xzr, [x19, #32]
	ldp	x28, x27, [sp, #304]
	str	q0, [x19, #80]
	stp	x8, xzr, [x19, #96]
	ldp	x20, x19, [sp, #368]
	add	sp, sp, #400
	ret
Lh3q_BB67_52:
	brk	#0x1
	.loh AdrpLdr	Lh3q_loh62, Lh3q_loh63

	.p2align	2
"_std_collections::btree_set::BTreeSet::insert::<#16899c1f4b11a2ec>":
	sub	sp, sp, #192
	ldrb	w8, [x1]
	stp	x22, x21, [sp, #144]
	mov	x21, x2
	stp	x20, x19, [sp, #160]
	mov	x20, x3
	mov	x22, x1
	cmp	w8, #1
	mov	x19, x0
	stp	x28, x27, [sp, #96]
	stp	x26, x25, [sp, #112]
	stp	x24, x23, [sp, #128]
	stp	x29, x30, [sp, #176]
	add	x29, sp, #176
	b.ne	Lh3q_BB68_2
	ldr	x1, [x22, #8]
	b	Lh3q_BB68_4
Lh3q_BB68_2:
	mov	w0, #248
	mov	w1, #8
	bl	_rattle_alloc
	tbz	w0, #0, Lh3q_BB68_18
	str	wzr, [x1]
	mov	w9, #1
	ldrb	w8, [x22]
	stp	x9, x1, [x22]
	cmp	w8, #1
	b.eq	Lh3q_BB68_70
Lh3q_BB68_4:
	ldrh	w27, [x1, #2]
	mov	w8, #15
	mov	x24, xzr
	mov	x23, xzr
	add	x14, x22, #8
	mov	x11, x1
	sub	x8, x8, x27
	neg	x25, x27
	mov	x26, x1
	mov	x28, x8
	mov	x9, x11
	ldrh	w11, [x11]
	cbz	x11, Lh3q_BB68_11
Lh3q_BB68_5:
	mov	x10, xzr
	add	x12, x9, #16
Lh3q_BB68_6:
	ldur	x13, [x12, #-8]
	cmp	x21, x13
	cset	w13, lo
	b.ne	Lh3q_BB68_8
	ldr	x13, [x12]
	cmp	x20, x13
	cset	w13, lo
	b.eq	Lh3q_BB68_14
Lh3q_BB68_8:
	tbnz	w13, #0, Lh3q_BB68_12
	add	x10, x10, #1
	add	x12, x12, #16
	cmp	x11, x10
	b.ne	Lh3q_BB68_6
	mov	x10, x11
	b	Lh3q_BB68_12
Lh3q_BB68_11:
	mov	x10, xzr
Lh3q_BB68_12:
	ldrh	w11, [x9, #2]
	add	x23, x10, x23, lsl #4
	add	x28, x28, #1
	cbz	w11, Lh3q_BB68_17
	add	x11, x9, x10, lsl #3
	add	x25, x25, #1
	mov	x24, x10
	mov	x26, x9
	ldr	x11, [x11, #248]
	mov	x9, x11
	ldrh	w11, [x11]
	cbnz	x11, Lh3q_BB68_5
	b	Lh3q_BB68_11
Lh3q_BB68_14:
	add	x8, x26, x24, lsl #3
	add	x9, x27, x28
	cmp	x9, #15
	and	x9, x10, #0xf
	add	x8, x8, #248
	csel	x8, x14, x8, eq
	ldr	x8, [x8]
	ldrh	w8, [x8]
	cmp	x9, x8
	b.hs	Lh3q_BB68_70
	mov	w8, wzr
Lh3q_BB68_16:
	strb	wzr, [x19]
	strb	w8, [x19, #1]
	stp	xzr, xzr, [x19, #8]
	b	Lh3q_BB68_19
Lh3q_BB68_17:
	ldr	x9, [x22, #16]
	mov	x10, #9223372036854775806
	cmp	x9, x10
	b.ls	Lh3q_BB68_20
Lh3q_BB68_18:
	mov	w8, #1
	stp	x21, x20, [x19, #8]
	strh	w8, [x19]
Lh3q_BB68_19:
	ldp	x29, x30, [sp, #176]
	ldp	x20, x19, [sp, #160]
	ldp	x22, x21, [sp, #144]
	ldp	x24, x23, [sp, #128]
	ldp	x26, x25, [sp, #112]
	ldp	x28, x27, [sp, #96]
	add	sp, sp, #192
	ret
Lh3q_BB68_20:
	lsl	x9, x24, #3
	sub	x11, x28, x8
	cmp	x11, #1
	add	x10, x26, x9
	add	x10, x10, #248
	csel	x10, x14, x10, eq
	ldr	x10, [x10]
	ldrh	w10, [x10]
	cmp	w10, #15
	b.lo	Lh3q_BB68_63
	ldrh	w9, [x1]
	cmp	w9, #15
	b.hs	Lh3q_BB68_56
	subs	x9, x28, x8
	stp	xzr, xzr, [sp, #80]
	str	x9, [sp, #8]
	b.ls	Lh3q_BB68_25
Lh3q_BB68_23:
	add	x9, sp, #80
	add	x9, x9, #15
Lh3q_BB68_24:
	add	x10, x25, #15
	and	w11, w23, #0xf
	lsr	x23, x23, #4
	cmp	x8, x10
	strb	w11, [x9, x25]
	sub	x25, x25, #1
	b.lo	Lh3q_BB68_24
Lh3q_BB68_25:
	mov	w9, #16
	ldr	q0, [sp, #80]
	sub	x10, x9, x8
	cmp	x10, #2
	str	q0, [sp, #64]
	b.lo	Lh3q_BB68_60
	add	x9, sp, #64
	add	x11, x22, #8
	add	x27, x9, x8
	b	Lh3q_BB68_29
Lh3q_BB68_27:
	add	w25, w25, #1
	sub	w8, w8, #8
	strb	w25, [x27]
	strb	w8, [x27, #1]
Lh3q_BB68_28:
	add	x8, x26, w25, uxtb #3
	cmp	x10, #2
	sub	x10, x10, #1
	add	x27, x27, #1
	add	x11, x8, #248
	b.ls	Lh3q_BB68_59
Lh3q_BB68_29:
	ldrb	w25, [x27]
	ldr	x26, [x11]
	add	x8, x26, x25, lsl #3
	ldr	x8, [x8, #248]
	ldrh	w8, [x8]
	cmp	w8, #15
	b.lo	Lh3q_BB68_28
	ldrh	w8, [x26, #2]
	add	x28, x22, #8
	str	x11, [sp, #56]
	str	x10, [sp, #40]
	subs	x24, x8, #1
	b.eq	Lh3q_BB68_32
	mov	w0, #376
	mov	w1, #8
	bl	_rattle_alloc
	tbnz	w0, #0, Lh3q_BB68_33
	b	Lh3q_BB68_66
Lh3q_BB68_32:
	mov	w0, #248
	mov	w1, #8
	bl	_rattle_alloc
	tbz	w0, #0, Lh3q_BB68_66
Lh3q_BB68_33:
	ldr	x8, [sp, #56]
	strh	w24, [x1, #2]
	mov	x23, x1
	ldr	x26, [x8]
	add	x8, x26, #248
	ldrh	w10, [x26, #2]
	ldrh	w11, [x26]
	ldr	x28, [x8, x25, lsl #3]
	add	x8, x1, #8
	cmp	w10, #0
	str	x11, [sp, #48]
	ldrh	w24, [x28]
	add	x9, x28, #136
	csinc	x11, xzr, x11, eq
	sub	x10, x8, x9
	str	x11, [sp, #32]
	ldrh	w11, [x28, #2]
	sub	x13, x24, #8
	lsl	x2, x13, #4
	cmp	x10, x2
	b.hs	Lh3q_BB68_36
	cmp	w24, #8
	sub	x10, x24, #8
	b.eq	Lh3q_BB68_37
Lh3q_BB68_35:
	ldr	q0, [x9], #16
	subs	x10, x10, #1
	str	q0, [x8], #16
	b.ne	Lh3q_BB68_35
	b	Lh3q_BB68_37
Lh3q_BB68_36:
	add	x0, x23, #8
	add	x1, x28, #136
	str	x23, [sp, #16]
	mov	w23, w11
	bl	_memmove
	mov	w11, w23
	ldr	x23, [sp, #16]
	sub	x13, x24, #8
Lh3q_BB68_37:
	ldur	q2, [x28, #120]
	cbz	w11, Lh3q_BB68_46
	sub	x8, x24, #7
	add	x9, x23, #248
	add	x10, x28, #312
	lsl	x2, x8, #3
	sub	x9, x9, x10
	cmp	x9, x2
	b.hs	Lh3q_BB68_45
	cmp	w24, #7
	b.eq	Lh3q_BB68_46
	cmp	x8, #4
	b.lo	Lh3q_BB68_42
	sub	x9, x23, x28
	sub	x9, x9, #64
	cmp	x9, #32
	b.hs	Lh3q_BB68_53
Lh3q_BB68_42:
	mov	x9, xzr
Lh3q_BB68_43:
	lsl	x8, x9, #3
	sub	x9, x24, x9
	add	x10, x28, x8
	add	x11, x23, x8
	sub	x8, x9, #7
	add	x9, x10, #312
	add	x10, x11, #248
Lh3q_BB68_44:
	ldr	x11, [x9], #8
	subs	x8, x8, #1
	str	x11, [x10], #8
	b.ne	Lh3q_BB68_44
	b	Lh3q_BB68_46
Lh3q_BB68_45:
	add	x0, x23, #248
	add	x1, x28, #312
	mov	x24, x13
	str	q2, [sp, #16]
	bl	_memmove
	ldr	q2, [sp, #16]
	mov	x13, x24
Lh3q_BB68_46:
	mov	w8, #7
	add	x9, x26, #8
	strh	w8, [x28]
	ldr	x8, [sp, #48]
	add	x24, x9, x25, lsl #4
	add	x9, x26, #248
	strh	w13, [x23]
	subs	x8, x8, x25
	str	x28, [x9, x25, lsl #3]
	add	x28, x26, #248
	b.eq	Lh3q_BB68_48
	lsl	x2, x8, #4
	add	x0, x24, #16
	mov	x1, x24
	str	q2, [sp, #16]
	bl	_memmove
	ldr	q2, [sp, #16]
Lh3q_BB68_48:
	ldr	x10, [sp, #32]
	add	x9, x25, #1
	str	q2, [x24]
	subs	x8, x10, x9
	b.ne	Lh3q_BB68_50
	lsl	x24, x10, #3
	b	Lh3q_BB68_51
Lh3q_BB68_50:
	lsl	x24, x9, #3
	lsl	x2, x8, #3
	add	x1, x28, x24
	add	x0, x1, #8
	bl	_memmove
Lh3q_BB68_51:
	ldp	x10, x9, [sp, #40]
	add	x14, x22, #8
	ldrb	w8, [x27, #1]
	ldr	x11, [sp, #56]
	str	x23, [x28, x24]
	add	x9, x9, #1
	cmp	w8, #7
	strh	w9, [x26]
	str	x26, [x11]
	b.hi	Lh3q_BB68_27
	ldrb	w25, [x27]
	b	Lh3q_BB68_28
Lh3q_BB68_53:
	and	x9, x8, #0xfffffffffffffffc
	add	x10, x28, #328
	add	x11, x23, #264
	and	x12, x8, #0xfffffffffffffffc
Lh3q_BB68_54:
	ldp	q0, q1, [x10, #-16]
	subs	x12, x12, #4
	add	x10, x10, #32
	stp	q0, q1, [x11, #-16]
	add	x11, x11, #32
	b.ne	Lh3q_BB68_54
	cmp	x8, x9
	b.eq	Lh3q_BB68_46
	b	Lh3q_BB68_43
Lh3q_BB68_56:
	cmp	w27, #10
	b.hi	Lh3q_BB68_18
	mov	w0, #376
	mov	w1, #8
	bl	_rattle_alloc
	add	x14, x22, #8
	tbz	w0, #0, Lh3q_BB68_18
	add	w8, w27, #1
	mov	w9, #14
	strh	w8, [x1, #2]
	ldr	x8, [x14]
	strh	wzr, [x1]
	str	x8, [x1, #248]
	sub	x8, x9, x27
	str	x1, [x14]
	subs	x9, x28, x8
	stp	xzr, xzr, [sp, #80]
	str	x9, [sp, #8]
	b.hi	Lh3q_BB68_23
	b	Lh3q_BB68_25
Lh3q_BB68_59:
	ldr	x1, [x14]
	and	x24, x25, #0xff
Lh3q_BB68_60:
	ldrh	w8, [x1]
	cbz	w8, Lh3q_BB68_68
	ldrb	w8, [x22]
	ldr	x11, [sp, #8]
	cmp	w8, #1
	b.ne	Lh3q_BB68_70
	ldrb	w23, [sp, #79]
	lsl	x9, x24, #3
Lh3q_BB68_63:
	add	x8, x26, x9
	cmp	x11, #1
	add	x8, x8, #248
	csel	x24, x14, x8, eq
	and	x8, x23, #0xf
	ldr	x25, [x24]
	lsl	x23, x8, #4
	mov	x27, x25
	ldrh	w26, [x27], #8
	subs	x8, x26, x8
	b.eq	Lh3q_BB68_65
	lsl	x2, x8, #4
	add	x8, x27, x23
	add	x1, x27, x23
	add	x0, x8, #16
	bl	_memmove
Lh3q_BB68_65:
	add	x8, x27, x23
	add	w9, w26, #1
	stp	x21, x20, [x8]
	strh	w9, [x25]
	str	x25, [x24]
	ldr	x8, [x22, #16]
	add	x8, x8, #1
	str	x8, [x22, #16]
	mov	w8, #1
	b	Lh3q_BB68_16
Lh3q_BB68_66:
	ldr	x1, [x28]
	ldrh	w8, [x1]
	cbnz	w8, Lh3q_BB68_18
	mov	x14, x28
Lh3q_BB68_68:
	ldrh	w8, [x1, #2]
	cbz	w8, Lh3q_BB68_18
	ldr	x22, [x1, #248]
	mov	x0, x1
	mov	x23, x14
	bl	_rattle_dealloc
	str	x22, [x23]
	b	Lh3q_BB68_18
Lh3q_BB68_70:
	brk	#0x1

	.section	__TEXT,__literal16,16byte_literals
	.p2align	4, 0x0
lh3q_CPI69_0:
	.quad	0
	.quad	1
	.section	__TEXT,__text,regular,pure_instructions
	.p2align	2
"_std_collections::btree_map::BTreeMap::insert::<#5069bb9211453e8b>":
	sub	sp, sp, #240
	ldrb	w8, [x1]
	stp	x22, x21, [sp, #192]
	mov	x21, x2
	stp	x20, x19, [sp, #208]
	mov	x22, x1
	mov	x19, x0
	cmp	w8, #1
	stp	x28, x27, [sp, #144]
	stp	x26, x25, [sp, #160]
	stp	x24, x23, [sp, #176]
	stp	x29, x30, [sp, #224]
	add	x29, sp, #224
	b.ne	Lh3q_BB69_2
	ldr	x1, [x22, #8]
	b	Lh3q_BB69_4
Lh3q_BB69_2:
	mov	w0, #248
	mov	w1, #8
	mov	x20, x3
	bl	_rattle_alloc
	mov	x3, x20
	tbz	w0, #0, Lh3q_BB69_16
	str	wzr, [x1]
	mov	w9, #1
	ldrb	w8, [x22]
	stp	x9, x1, [x22]
	cmp	w8, #1
	b.eq	Lh3q_BB69_98
Lh3q_BB69_4:
	ldrh	w20, [x1, #2]
	mov	w8, #15
	mov	x24, xzr
	mov	x25, xzr
	add	x13, x22, #8
	mov	x10, x1
	sub	x28, x8, x20
	neg	x26, x20
	mov	x23, x1
	mov	x27, x28
	mov	x11, x10
	mov	x8, x10
	ldrh	w10, [x11], #8
	cbnz	x10, Lh3q_BB69_8
Lh3q_BB69_5:
	mov	x9, xzr
Lh3q_BB69_6:
	ldrh	w10, [x8, #2]
	add	x25, x9, x25, lsl #4
	add	x27, x27, #1
	cbz	w10, Lh3q_BB69_15
	add	x10, x8, x9, lsl #3
	add	x26, x26, #1
	mov	x24, x9
	mov	x23, x8
	ldr	x10, [x10, #248]
	mov	x11, x10
	mov	x8, x10
	ldrh	w10, [x11], #8
	cbz	x10, Lh3q_BB69_5
Lh3q_BB69_8:
	mov	x9, xzr
Lh3q_BB69_9:
	ldr	x12, [x11, x9, lsl #3]
	cmp	x21, x12
	mov	w12, #2
	csel	w12, wzr, w12, lo
	csinc	w12, w12, wzr, ne
	cmp	w12, #2
	b.ne	Lh3q_BB69_12
	add	x9, x9, #1
	cmp	x10, x9
	b.ne	Lh3q_BB69_9
	mov	x9, x10
	b	Lh3q_BB69_6
Lh3q_BB69_12:
	cbz	w12, Lh3q_BB69_6
	add	x8, x23, x24, lsl #3
	add	x10, x20, x27
	and	x9, x9, #0xf
	cmp	x10, #15
	add	x8, x8, #248
	csel	x8, x13, x8, eq
	ldr	x8, [x8]
	ldrh	w10, [x8]
	cmp	x9, x10
	b.hs	Lh3q_BB69_98
	add	x8, x8, x9, lsl #3
Lh3q_loh64:
	adrp	x9, lh3q_CPI69_0@PAGE
Lh3q_loh65:
	ldr	q0, [x9, lh3q_CPI69_0@PAGEOFF]
	ldr	x9, [x8, #128]
	str	x3, [x8, #128]
	str	q0, [x19]
	str	x9, [x19, #16]
	b	Lh3q_BB69_17
Lh3q_BB69_15:
	ldr	x8, [x22, #16]
	mov	x9, #9223372036854775806
	cmp	x8, x9
	b.ls	Lh3q_BB69_18
Lh3q_BB69_16:
	mov	w8, #1
	str	x3, [x19, #16]
	stp	x8, x21, [x19]
Lh3q_BB69_17:
	ldp	x29, x30, [sp, #224]
	ldp	x20, x19, [sp, #208]
	ldp	x22, x21, [sp, #192]
	ldp	x24, x23, [sp, #176]
	ldp	x26, x25, [sp, #160]
	ldp	x28, x27, [sp, #144]
	add	sp, sp, #240
	ret
Lh3q_BB69_18:
	add	x8, x23, x24, lsl #3
	sub	x9, x27, x28
	cmp	x9, #1
	add	x8, x8, #248
	csel	x8, x13, x8, eq
	ldr	x8, [x8]
	ldrh	w8, [x8]
	cmp	w8, #15
	b.lo	Lh3q_BB69_91
	ldrh	w8, [x1]
	cmp	w8, #15
	b.hs	Lh3q_BB69_75
	cmp	x28, x27
	stp	xzr, xzr, [x29, #-96]
	b.hs	Lh3q_BB69_23
Lh3q_BB69_21:
	sub	x8, x29, #96
	add	x8, x8, #15
Lh3q_BB69_22:
	add	x9, x26, #15
	and	w10, w25, #0xf
	lsr	x25, x25, #4
	cmp	x28, x9
	strb	w10, [x8, x26]
	sub	x26, x26, #1
	b.lo	Lh3q_BB69_22
Lh3q_BB69_23:
	mov	w8, #16
	ldur	q0, [x29, #-96]
	sub	x9, x8, x28
	add	x8, sp, #112
	cmp	x9, #2
	add	x26, x8, x28
	str	x9, [sp, #16]
	str	q0, [sp, #112]
	b.lo	Lh3q_BB69_79
	ldr	x25, [sp, #16]
	add	x9, x22, #8
	str	x26, [sp, #8]
	str	x26, [sp, #104]
	stp	x28, x3, [sp, #24]
	b	Lh3q_BB69_27
Lh3q_BB69_25:
	ldr	x9, [sp, #104]
	add	w10, w10, #1
	sub	w8, w8, #8
	strb	w10, [x9]
	strb	w8, [x9, #1]
Lh3q_BB69_26:
	add	x9, x23, w10, uxtb #3
	ldr	x11, [sp, #104]
	cmp	x25, #2
	sub	x25, x25, #1
	add	x9, x9, #248
	add	x11, x11, #1
	str	x11, [sp, #104]
	b.ls	Lh3q_BB69_78
Lh3q_BB69_27:
	ldr	x8, [sp, #104]
	ldr	x23, [x9]
	ldrb	w10, [x8]
	lsl	x11, x10, #3
	add	x8, x23, x11
	ldr	x8, [x8, #248]
	ldrh	w8, [x8]
	cmp	w8, #15
	b.lo	Lh3q_BB69_26
	ldrh	w8, [x23, #2]
	add	x24, x22, #8
	stp	x11, x9, [sp, #64]
	str	x10, [sp, #80]
	subs	x20, x8, #1
	str	x25, [sp, #48]
	b.eq	Lh3q_BB69_30
	mov	w0, #376
	b	Lh3q_BB69_31
Lh3q_BB69_30:
	mov	w0, #248
Lh3q_BB69_31:
	mov	w1, #8
	bl	_rattle_alloc
	tbz	w0, #0, Lh3q_BB69_94
	ldr	x8, [sp, #72]
	strh	w20, [x1, #2]
	mov	x14, x1
	add	x26, x1, #128
	ldr	x23, [x8]
	ldr	x8, [sp, #64]
	add	x9, x23, #248
	ldrh	w11, [x23]
	ldr	x16, [x9, x8]
	ldrh	w9, [x23, #2]
	add	x8, x1, #8
	str	x11, [sp, #56]
	ldrh	w15, [x16]
	add	x10, x16, #72
	cmp	w9, #0
	sub	x8, x8, x10
	csinc	x9, xzr, x11, eq
	stp	x1, x16, [sp, #88]
	sub	x13, x15, #8
	sub	x12, x15, #8
	str	x9, [sp, #40]
	lsl	x2, x13, #3
	ldrh	w13, [x16, #2]
	cmp	x8, x2
	b.hs	Lh3q_BB69_35
	cmp	w15, #8
	b.ne	Lh3q_BB69_36
	ldr	x8, [sp, #96]
	mov	x25, xzr
	add	x1, x8, #192
	sub	x8, x26, x1
	cmp	x8, x2
	b.hs	Lh3q_BB69_49
	b	Lh3q_BB69_50
Lh3q_BB69_35:
	ldr	x8, [sp, #96]
	add	x0, x14, #8
	mov	x25, x2
	mov	x20, x15
	mov	w24, w13
	add	x1, x8, #72
	bl	_memmove
	ldr	x14, [sp, #88]
	mov	x2, x25
	mov	w13, w24
	mov	x15, x20
	b	Lh3q_BB69_41
Lh3q_BB69_36:
	cmp	x12, #4
	b.lo	Lh3q_BB69_38
	ldr	x8, [sp, #96]
	sub	x8, x14, x8
	sub	x8, x8, #64
	cmp	x8, #32
	b.hs	Lh3q_BB69_66
Lh3q_BB69_38:
	mov	x8, xzr
Lh3q_BB69_39:
	lsl	x9, x8, #3
	ldr	x10, [sp, #96]
	sub	x8, x15, x8
	sub	x8, x8, #8
	add	x10, x10, x9
	add	x11, x14, x9
	add	x9, x10, #72
	add	x10, x11, #8
Lh3q_BB69_40:
	ldr	x11, [x9], #8
	subs	x8, x8, #1
	str	x11, [x10], #8
	b.ne	Lh3q_BB69_40
Lh3q_BB69_41:
	ldr	x8, [sp, #96]
	add	x1, x8, #192
	sub	x8, x26, x1
	cmp	x8, x2
	b.hs	Lh3q_BB69_48
	cmp	w15, #8
	sub	x25, x15, #8
	b.eq	Lh3q_BB69_50
	cmp	x25, #4
	b.lo	Lh3q_BB69_45
	ldr	x8, [sp, #96]
	sub	x8, x14, x8
	sub	x8, x8, #64
	cmp	x8, #32
	b.hs	Lh3q_BB69_69
Lh3q_BB69_45:
	mov	x8, xzr
Lh3q_BB69_46:
	lsl	x9, x8, #3
	ldr	x10, [sp, #96]
	sub	x8, x15, x8
	sub	x8, x8, #8
	add	x10, x10, x9
	add	x11, x14, x9
	add	x9, x10, #192
	add	x10, x11, #128
Lh3q_BB69_47:
	ldr	x11, [x9], #8
	subs	x8, x8, #1
	str	x11, [x10], #8
	b.ne	Lh3q_BB69_47
	b	Lh3q_BB69_50
Lh3q_BB69_48:
	sub	x25, x15, #8
Lh3q_BB69_49:
	add	x0, x14, #128
	mov	x24, x15
	mov	w20, w13
	bl	_memmove
	ldr	x28, [sp, #24]
	ldr	x14, [sp, #88]
	mov	w13, w20
	mov	x15, x24
Lh3q_BB69_50:
	ldr	x8, [sp, #96]
	ldr	x26, [x8, #64]
	ldr	x16, [x8, #184]
	cbz	w13, Lh3q_BB69_59
	ldr	x10, [sp, #96]
	sub	x8, x15, #7
	add	x9, x14, #248
	lsl	x2, x8, #3
	add	x10, x10, #312
	sub	x9, x9, x10
	cmp	x9, x2
	b.hs	Lh3q_BB69_58
	cmp	w15, #7
	b.eq	Lh3q_BB69_59
	cmp	x8, #4
	b.lo	Lh3q_BB69_55
	ldr	x9, [sp, #96]
	sub	x9, x14, x9
	sub	x9, x9, #64
	cmp	x9, #32
	b.hs	Lh3q_BB69_72
Lh3q_BB69_55:
	mov	x9, xzr
Lh3q_BB69_56:
	lsl	x8, x9, #3
	ldr	x10, [sp, #96]
	sub	x9, x15, x9
	add	x10, x10, x8
	add	x11, x14, x8
	sub	x8, x9, #7
	add	x9, x10, #312
	add	x10, x11, #248
Lh3q_BB69_57:
	ldr	x11, [x9], #8
	subs	x8, x8, #1
	str	x11, [x10], #8
	b.ne	Lh3q_BB69_57
	b	Lh3q_BB69_59
Lh3q_BB69_58:
	ldr	x8, [sp, #96]
	add	x0, x14, #248
	mov	x24, x16
	add	x1, x8, #312
	bl	_memmove
	ldr	x14, [sp, #88]
	mov	x16, x24
Lh3q_BB69_59:
	ldr	x12, [sp, #96]
	mov	w8, #7
	ldr	x10, [sp, #80]
	add	x9, x23, #8
	add	x20, x23, #128
	strh	w8, [x12]
	ldp	x8, x11, [sp, #56]
	strh	w25, [x14]
	subs	x8, x8, x10
	add	x24, x9, x11
	add	x9, x23, #248
	str	x12, [x9, x10, lsl #3]
	b.eq	Lh3q_BB69_61
	lsl	x25, x8, #3
	add	x0, x24, #8
	mov	x1, x24
	mov	x20, x11
	str	x26, [sp, #96]
	mov	x26, x16
	mov	x2, x25
	bl	_memmove
	add	x8, x23, #128
	mov	x2, x25
	add	x1, x8, x20
	add	x20, x23, #128
	add	x0, x1, #8
	bl	_memmove
	mov	x16, x26
	ldp	x14, x26, [sp, #88]
	ldr	x10, [sp, #80]
Lh3q_BB69_61:
	ldr	x11, [sp, #40]
	add	x9, x10, #1
	str	x26, [x24]
	str	x16, [x20, x10, lsl #3]
	subs	x8, x11, x9
	b.ne	Lh3q_BB69_63
	lsl	x20, x11, #3
	ldr	x3, [sp, #32]
	ldr	x25, [sp, #48]
	ldr	x11, [sp, #72]
	add	x13, x22, #8
	add	x24, x23, #248
	b	Lh3q_BB69_64
Lh3q_BB69_63:
	lsl	x20, x9, #3
	add	x24, x23, #248
	lsl	x2, x8, #3
	add	x1, x24, x20
	add	x0, x1, #8
	bl	_memmove
	ldp	x10, x14, [sp, #80]
	add	x13, x22, #8
	ldr	x3, [sp, #32]
	ldr	x25, [sp, #48]
	ldr	x11, [sp, #72]
Lh3q_BB69_64:
	ldr	x8, [sp, #104]
	ldr	x9, [sp, #56]
	str	x14, [x24, x20]
	ldrb	w8, [x8, #1]
	add	x9, x9, #1
	strh	w9, [x23]
	cmp	w8, #7
	str	x23, [x11]
	b.hi	Lh3q_BB69_25
	ldr	x8, [sp, #104]
	ldrb	w10, [x8]
	b	Lh3q_BB69_26
Lh3q_BB69_66:
	ldr	x9, [sp, #96]
	sub	x11, x15, #8
	add	x10, x14, #24
	and	x8, x11, #0xfffffffffffffffc
	sub	x12, x15, #8
	and	x11, x11, #0xfffffffffffffffc
	add	x9, x9, #88
Lh3q_BB69_67:
	ldp	q0, q1, [x9, #-16]
	subs	x11, x11, #4
	add	x9, x9, #32
	stp	q0, q1, [x10, #-16]
	add	x10, x10, #32
	b.ne	Lh3q_BB69_67
	cmp	x12, x8
	b.eq	Lh3q_BB69_41
	b	Lh3q_BB69_39
Lh3q_BB69_69:
	ldr	x9, [sp, #96]
	and	x8, x25, #0xfffffffffffffffc
	add	x10, x14, #144
	and	x11, x25, #0xfffffffffffffffc
	add	x9, x9, #208
Lh3q_BB69_70:
	ldp	q0, q1, [x9, #-16]
	subs	x11, x11, #4
	add	x9, x9, #32
	stp	q0, q1, [x10, #-16]
	add	x10, x10, #32
	b.ne	Lh3q_BB69_70
	cmp	x25, x8
	b.eq	Lh3q_BB69_50
	b	Lh3q_BB69_46
Lh3q_BB69_72:
	ldr	x10, [sp, #96]
	and	x9, x8, #0xfffffffffffffffc
	add	x11, x14, #264
	and	x12, x8, #0xfffffffffffffffc
	add	x10, x10, #328
Lh3q_BB69_73:
	ldp	q0, q1, [x10, #-16]
	subs	x12, x12, #4
	add	x10, x10, #32
	stp	q0, q1, [x11, #-16]
	add	x11, x11, #32
	b.ne	Lh3q_BB69_73
	cmp	x8, x9
	b.eq	Lh3q_BB69_59
	b	Lh3q_BB69_56
Lh3q_BB69_75:
	cmp	w20, #10
	b.hi	Lh3q_BB69_16
	mov	w0, #376
	mov	w1, #8
	mov	x28, x3
	bl	_rattle_alloc
	add	x13, x22, #8
	mov	x3, x28
	tbz	w0, #0, Lh3q_BB69_16
	add	w8, w20, #1
	mov	w9, #14
	strh	w8, [x1, #2]
	sub	x28, x9, x20
	ldr	x8, [x13]
	strh	wzr, [x1]
	str	x8, [x1, #248]
	str	x1, [x13]
	cmp	x28, x27
	stp	xzr, xzr, [x29, #-96]
	b.lo	Lh3q_BB69_21
	b	Lh3q_BB69_23
Lh3q_BB69_78:
	mov	w8, w10
	ldr	x1, [x13]
	ldr	x26, [sp, #8]
	and	x24, x8, #0xff
Lh3q_BB69_79:
	ldrh	w8, [x1]
	cbz	w8, Lh3q_BB69_96
	ldr	x8, [sp, #16]
	cmp	x8, #2
	b.hs	Lh3q_BB69_82
	mov	x8, xzr
	b	Lh3q_BB69_86
Lh3q_BB69_82:
	mov	x9, x8
	and	x8, x8, #0xfffffffffffffffe
	and	x9, x9, #0xfffffffffffffffe
Lh3q_BB69_83:
	subs	x9, x9, #2
	b.ne	Lh3q_BB69_83
	ldr	x9, [sp, #16]
	cmp	x9, x8
	b.ne	Lh3q_BB69_86
	sub	x8, x8, #1
	b	Lh3q_BB69_89
Lh3q_BB69_86:
	mov	w9, #1
	add	x10, x8, x28
	sub	x8, x9, x8
	sub	x9, x10, #16
Lh3q_BB69_87:
	adds	x9, x9, #1
	sub	x8, x8, #1
	b.lo	Lh3q_BB69_87
	neg	x8, x8
Lh3q_BB69_89:
	ldrb	w9, [x22]
	cmp	w9, #1
	b.ne	Lh3q_BB69_98
	ldrb	w25, [x26, x8]
Lh3q_BB69_91:
	add	x8, x23, x24, lsl #3
	sub	x9, x27, x28
	cmp	x9, #1
	add	x8, x8, #248
	csel	x20, x13, x8, eq
	and	x8, x25, #0xf
	ldr	x26, [x20]
	lsl	x28, x8, #3
	mov	x25, x26
	add	x9, x26, x28
	ldrh	w27, [x25], #128
	add	x23, x9, #8
	subs	x8, x27, x8
	b.eq	Lh3q_BB69_93
	lsl	x24, x8, #3
	add	x0, x23, #8
	mov	x1, x23
	str	x3, [sp, #32]
	mov	x2, x24
	bl	_memmove
	add	x8, x25, x28
	add	x1, x25, x28
	mov	x2, x24
	add	x0, x8, #8
	bl	_memmove
	ldr	x3, [sp, #32]
Lh3q_BB69_93:
	add	w8, w27, #1
	str	x21, [x23]
	str	x3, [x25, x28]
	strh	w8, [x26]
	str	x26, [x20]
	ldr	x8, [x22, #16]
	add	x8, x8, #1
	str	x8, [x22, #16]
	stp	xzr, xzr, [x19]
	str	xzr, [x19, #16]
	b	Lh3q_BB69_17
Lh3q_BB69_94:
	ldr	x1, [x24]
	ldr	x3, [sp, #32]
	ldrh	w8, [x1]
	cbnz	w8, Lh3q_BB69_16
	mov	x13, x24
Lh3q_BB69_96:
	ldrh	w8, [x1, #2]
	cbz	w8, Lh3q_BB69_16
	ldr	x20, [x1, #248]
	mov	x0, x1
	mov	x22, x3
	mov	x23, x13
	bl	_rattle_dealloc
	mov	x3, x22
	str	x20, [x23]
	b	Lh3q_BB69_16
Lh3q_BB69_98:
	brk	#0x1
	.loh AdrpLdr	Lh3q_loh64, Lh3q_loh65

	.p2align	2
"_qpack_decoding::section::read_prefix::<#78d66cfad5c8051d>":
	sub	sp, sp, #288
	stp	x20, x19, [sp, #256]
	mov	x20, x1
	mov	x19, x0
	add	x0, sp, #40
	add	x1, sp, #104
	stp	x22, x21, [sp, #240]
	stp	x29, x30, [sp, #272]
	add	x29, sp, #272
	add	x21, sp, #40
	stp	xzr, xzr, [sp, #128]
	str	xzr, [sp, #144]
	stp	x2, x3, [sp, #104]
	str	xzr, [sp, #120]
	bl	"_qpack_wire::block::prefix::HeaderPrefix::decode"
	ldp	x8, x10, [sp, #56]
	ldrb	w9, [sp, #40]
	ldrb	w12, [sp, #48]
	ldrb	w11, [sp, #49]
	cbz	w9, Lh3q_BB70_5
	ldr	x9, [sp, #96]
	cmp	w12, #1
	stp	xzr, xzr, [x29, #-96]
	stur	xzr, [x29, #-80]
	stp	xzr, xzr, [x29, #-64]
	stur	xzr, [x29, #-48]
	b.le	Lh3q_BB70_8
	cmp	w12, #2
	b.eq	Lh3q_BB70_19
	cmp	w12, #3
	b.ne	Lh3q_BB70_21
	mov	w11, wzr
	mov	x10, xzr
	mov	x9, xzr
	mov	w12, #7
	b	Lh3q_BB70_26
Lh3q_BB70_5:
	ldur	w9, [sp, #50]
	ldrb	w13, [x20, #72]
	add	x15, x20, #64
	ldrh	w14, [sp, #54]
	add	x16, x20, #80
	orr	x12, x12, x11, lsl #8
	lsl	x9, x9, #16
	cmp	w13, #1
	csel	x13, x16, x15, eq
	orr	x9, x9, x14, lsl #48
	ldr	x11, [x13]
	orr	x9, x12, x9
	cbnz	x11, Lh3q_BB70_10
	cbz	x9, Lh3q_BB70_10
	mov	x9, xzr
	mov	x8, xzr
	mov	w10, #2
	stp	xzr, xzr, [sp, #16]
	str	xzr, [sp, #32]
	str	xzr, [sp, #8]
	b	Lh3q_BB70_33
Lh3q_BB70_8:
	cbnz	w12, Lh3q_BB70_20
	mov	x8, x12
	mov	x10, x12
	mov	x9, x12
	b	Lh3q_BB70_26
Lh3q_BB70_10:
	cbz	x9, Lh3q_BB70_22
	cbz	x11, Lh3q_BB70_22
	lsr	x11, x11, #5
	cbz	x11, Lh3q_BB70_31
	lsl	x12, x11, #1
	cmp	x12, x9
	b.lo	Lh3q_BB70_31
	ldr	x13, [x20, #40]
	sub	x9, x11, x9
	add	x9, x9, x12
	udiv	x14, x13, x12
	msub	x14, x14, x12, x13
	adds	x13, x13, x11
	add	x9, x9, x14
	add	x9, x9, #1
	udiv	x14, x9, x12
	msub	x12, x14, x12, x9
	cset	w14, hs
	subs	x9, x13, x12
	sbcs	x11, x14, xzr
	csel	x11, xzr, x11, lo
	csel	x9, xzr, x9, lo
	cmp	x12, x13
	ngcs	xzr, x14
	b.hs	Lh3q_BB70_31
	cbnz	x11, Lh3q_BB70_31
	tbz	w8, #0, Lh3q_BB70_30
	subs	x8, x10, x9
	b.hs	Lh3q_BB70_34
	mvn	x8, x10
	add	x8, x9, x8
	b	Lh3q_BB70_29
Lh3q_BB70_19:
	mov	x8, xzr
	mov	x10, xzr
	mov	x9, xzr
	mov	w12, #5
	b	Lh3q_BB70_26
Lh3q_BB70_20:
	and	x11, x8, #0xff
	cmp	x11, #5
	b.ne	Lh3q_BB70_25
Lh3q_BB70_21:
	mov	x9, xzr
	mov	x11, xzr
	mov	x8, xzr
	mov	x10, xzr
	mov	w12, #4
	b	Lh3q_BB70_27
Lh3q_BB70_22:
	tbz	w8, #0, Lh3q_BB70_28
	mov	x8, #9223372036854775807
	cmp	x10, x8
	csel	x8, x10, x8, lo
Lh3q_BB70_24:
	mvn	x8, x8
	mov	w9, #7
	b	Lh3q_BB70_32
Lh3q_BB70_25:
	ldur	q0, [x21, #32]
	ldur	x12, [x21, #48]
	mov	w11, wzr
	and	x10, x10, #0xff
	and	x8, x8, #0xffff
	stur	q0, [x29, #-64]
	stur	x12, [x29, #-48]
	mov	w12, #1
Lh3q_BB70_26:
	mov	w11, w11
	ldur	q0, [x29, #-64]
	ldur	x13, [x29, #-48]
	orr	x11, x12, x11, lsl #8
	mov	w12, #1
	stur	q0, [x29, #-96]
	stur	x13, [x29, #-80]
Lh3q_BB70_27:
	ldur	q0, [x29, #-96]
	ldur	x13, [x29, #-80]
	mov	w14, #1
	stp	x14, x12, [x19]
	str	q0, [sp, #128]
	str	x13, [sp, #144]
	stp	x11, x8, [x19, #16]
	str	x10, [x19, #32]
	stur	q0, [x19, #40]
	stp	x13, x9, [x19, #56]
	stp	xzr, xzr, [x19, #80]
	str	xzr, [x19, #72]
	ldp	x29, x30, [sp, #272]
	ldp	x20, x19, [sp, #256]
	ldp	x22, x21, [sp, #240]
	add	sp, sp, #288
	ret
Lh3q_BB70_28:
	mov	x8, xzr
	mov	x9, xzr
Lh3q_BB70_29:
	movi.2d	v0, #0000000000000000
	ldr	x10, [sp, #120]
	stp	xzr, x9, [x19]
	stp	x8, x10, [x19, #16]
	stp	q0, q0, [x19, #32]
	stp	q0, q0, [x19, #64]
	ldp	x29, x30, [sp, #272]
	ldp	x20, x19, [sp, #256]
	ldp	x22, x21, [sp, #240]
	add	sp, sp, #288
	ret
Lh3q_BB70_30:
	adds	x8, x10, x9
	b.lo	Lh3q_BB70_29
Lh3q_BB70_31:
	mov	x9, xzr
	mov	x8, xzr
Lh3q_BB70_32:
	stp	xzr, xzr, [x29, #-120]
	ldur	q0, [x29, #-120]
	stur	xzr, [x29, #-104]
	str	xzr, [sp, #8]
	str	q0, [sp, #16]
	str	xzr, [sp, #32]
	mov	w10, #1
Lh3q_BB70_33:
	ldr	q0, [sp, #16]
	str	xzr, [sp]
	mov	w11, #1
	stp	x9, x8, [x19, #16]
	ldr	x8, [sp, #32]
	stur	q0, [x19, #40]
	ldr	q0, [sp]
	stp	x11, x10, [x19]
	str	xzr, [x19, #32]
	stp	x8, xzr, [x19, #56]
	stur	q0, [x19, #72]
	str	xzr, [x19, #88]
	ldp	x29, x30, [sp, #272]
	ldp	x20, x19, [sp, #256]
	ldp	x22, x21, [sp, #240]
	add	sp, sp, #288
	ret
Lh3q_BB70_34:
	mov	x9, #9223372036854775807
	cmp	x8, x9
	csel	x8, x8, x9, lo
	b	Lh3q_BB70_24

	.p2align	2
"_qpack_shared::unsent::Unsent::sent":
	sub	sp, sp, #80
	stp	x22, x21, [sp, #32]
	mov	x21, x0
	stp	x24, x23, [sp, #16]
	stp	x20, x19, [sp, #48]
	ldr	x20, [x21, #8]!
	ldr	x24, [x21, #16]
	mov	x19, x0
	stp	x29, x30, [sp, #64]
	add	x29, sp, #64
	sub	x9, x20, x24
	cmp	x9, x1
	csel	x23, x9, x1, lo
	add	x8, x23, x24
	sub	x9, x9, x23
	cmp	x9, x8
	b.hs	Lh3q_BB71_12
	ldr	x0, [x19]
	add	x2, x23, x24
	mov	x1, x20
	sub	x22, x20, x8
	bl	"_core::slice::edits::slice+T::rotate_left::<i8>"
	ldp	x10, x9, [x19]
	sub	x8, x9, x22
	add	x0, x10, x22
	cmp	x8, #15
	b.ls	Lh3q_BB71_3
	lsr	x3, x8, #1
	mov	x1, xzr
	sub	x8, x8, x3
	add	x2, x0, x8
	bl	"_core::slice::edits::mirror::<i8>"
	b	Lh3q_BB71_10
Lh3q_BB71_3:
	subs	x11, x8, #2
	b.lo	Lh3q_BB71_10
	lsr	x11, x11, #1
	add	x12, x24, x9
	mvn	x13, x20
	add	x10, x9, x10
	add	x12, x13, x12
	mov	x8, xzr
	add	x9, x11, #1
	sub	x10, x10, #1
	add	x11, x12, x23
	b	Lh3q_BB71_7
Lh3q_BB71_5:
	ldrb	w12, [x0, x8]
	ldrb	w13, [x10]
	strb	w13, [x0, x8]
	strb	w12, [x10]
Lh3q_BB71_6:
	add	x8, x8, #1
	sub	x10, x10, #1
	sub	x11, x11, #1
	cmp	x9, x8
	b.eq	Lh3q_BB71_10
Lh3q_BB71_7:
	cmp	x8, x11
	b.lo	Lh3q_BB71_5
	cmp	x11, x8
	b.hs	Lh3q_BB71_6
	ldrb	w12, [x0, x8]
	ldrb	w13, [x10]
	strb	w12, [x10]
	strb	w13, [x0, x8]
	b	Lh3q_BB71_6
Lh3q_BB71_10:
	ldr	x20, [x21]
	cmp	x22, x20
	b.hs	Lh3q_BB71_14
	mov	x8, xzr
	mov	x20, x22
	str	x22, [x21]
Lh3q_BB71_12:
	str	x8, [x19, #24]
	cbz	x20, Lh3q_BB71_15
Lh3q_BB71_13:
	ldp	x29, x30, [sp, #64]
	ldp	x20, x19, [sp, #48]
	ldp	x22, x21, [sp, #32]
	ldp	x24, x23, [sp, #16]
	add	sp, sp, #80
	ret
Lh3q_BB71_14:
	str	xzr, [x19, #24]
	cbnz	x20, Lh3q_BB71_13
Lh3q_BB71_15:
	ldr	x8, [x19, #16]
	cmp	x8, #1025
	b.lo	Lh3q_BB71_13
	ldr	x0, [x19]
	bl	_rattle_dealloc
	add	x8, sp, #15
	stp	xzr, xzr, [x21]
	str	x8, [x19]
	ldp	x29, x30, [sp, #64]
	ldp	x20, x19, [sp, #48]
	ldp	x22, x21, [sp, #32]
	ldp	x24, x23, [sp, #16]
	add	sp, sp, #80
	ret

	.p2align	2
"_core::slice::edits::slice+T::rotate_left::<i8>":
	stp	x24, x23, [sp, #-64]!
	stp	x22, x21, [sp, #16]
	stp	x20, x19, [sp, #32]
	stp	x29, x30, [sp, #48]
	add	x29, sp, #48
	cbz	x2, Lh3q_BB72_11
	mov	x21, x2
	subs	x23, x1, x2
	b.eq	Lh3q_BB72_11
	cmp	x23, x21
	mov	w10, #4097
	mov	x19, x0
	csel	x8, x23, x21, lo
	sub	x9, x1, x8
	cmp	x9, x10
	ccmp	x8, #16, #2, lo
	csel	x3, x9, x8, lo
	cmp	x21, #1
	b.ne	Lh3q_BB72_12
	sub	x20, x1, #1
	ldrb	w21, [x19]
	cmp	x20, #2049
	b.lo	Lh3q_BB72_16
	mov	x8, xzr
	add	x9, x19, #17
Lh3q_BB72_5:
	mov	w10, #2048
	mov	x11, x9
Lh3q_BB72_6:
	ldp	q0, q1, [x11, #-16]
	subs	x10, x10, #32
	stur	q0, [x11, #-17]
	stur	q1, [x11, #-1]
	add	x11, x11, #32
	b.ne	Lh3q_BB72_6
	add	x8, x8, #2048
	add	x9, x9, #2048
	sub	x2, x20, x8
	cmp	x2, #2048
	b.hi	Lh3q_BB72_5
	cmp	x20, x8
	b.eq	Lh3q_BB72_10
Lh3q_BB72_9:
	add	x0, x19, x8
	add	x1, x0, #1
	bl	_memmove
Lh3q_BB72_10:
	strb	w21, [x19, x20]
Lh3q_BB72_11:
	ldp	x29, x30, [sp, #48]
	ldp	x20, x19, [sp, #32]
	ldp	x22, x21, [sp, #16]
	ldp	x24, x23, [sp], #64
	ret
Lh3q_BB72_12:
	cmp	x23, #1
	b.ne	Lh3q_BB72_17
	subs	x2, x1, #1
	ldrb	w20, [x19, x2]
	b.eq	Lh3q_BB72_15
	add	x0, x19, #1
	mov	x1, x19
	bl	_memmove
Lh3q_BB72_15:
	strb	w20, [x19]
	ldp	x29, x30, [sp, #48]
	ldp	x20, x19, [sp, #32]
	ldp	x22, x21, [sp, #16]
	ldp	x24, x23, [sp], #64
	ret
Lh3q_BB72_16:
	mov	x8, xzr
	mov	x2, x20
	cmp	x20, xzr
	b.ne	Lh3q_BB72_9
	b	Lh3q_BB72_10
Lh3q_BB72_17:
	cmp	x3, #1, lsl #12
	b.hi	Lh3q_BB72_19
	mov	x0, x19
	mov	x2, x21
	ldp	x29, x30, [sp, #48]
	ldp	x20, x19, [sp, #32]
	ldp	x22, x21, [sp, #16]
	ldp	x24, x23, [sp], #64
	b	"_core::slice::edits::turn_through_room::<i8>"
Lh3q_BB72_19:
	cmp	x21, #32
	mov	x20, xzr
	b.lo	Lh3q_BB72_24
	cmp	x23, #32
	b.lo	Lh3q_BB72_24
	mov	x20, xzr
Lh3q_BB72_22:
	cmp	x23, x21
	add	x8, x20, x21
	csel	x22, x23, x21, lo
	add	x2, x19, x8
	sub	x9, x8, x22
	mov	x1, x22
	add	x0, x19, x9
	bl	"_core::slice::edits::slice+T::swap_with_slice::<i8>"
	cmp	x21, x23
	csel	x8, x22, xzr, hi
	sub	x21, x21, x8
	csel	x8, xzr, x22, hi
	cmp	x21, #32
	sub	x23, x23, x8
	add	x20, x8, x20
	b.lo	Lh3q_BB72_24
	cmp	x23, #31
	b.hi	Lh3q_BB72_22
Lh3q_BB72_24:
	cmp	x21, #15
	add	x22, x20, x21
	b.ls	Lh3q_BB72_26
	lsr	x3, x21, #1
	mov	x0, x19
	mov	x1, x20
	sub	x8, x22, x3
	add	x2, x19, x8
	bl	"_core::slice::edits::mirror::<i8>"
	b	Lh3q_BB72_33
Lh3q_BB72_26:
	cmp	x21, #2
	b.lo	Lh3q_BB72_33
	add	x8, x21, x20
	mov	x9, x21
	mov	x10, x20
	sub	x8, x8, #1
	b	Lh3q_BB72_30
Lh3q_BB72_28:
	ldrb	w11, [x19, x8]
	ldrb	w12, [x19, x10]
	strb	w11, [x19, x10]
	strb	w12, [x19, x8]
Lh3q_BB72_29:
	sub	x9, x9, #2
	add	x10, x10, #1
	sub	x8, x8, #1
	cmp	x9, #1
	b.ls	Lh3q_BB72_33
Lh3q_BB72_30:
	cmp	x10, x8
	b.lo	Lh3q_BB72_28
	cmp	x8, x10
	b.hs	Lh3q_BB72_29
	ldrb	w11, [x19, x10]
	ldrb	w12, [x19, x8]
	strb	w11, [x19, x8]
	strb	w12, [x19, x10]
	b	Lh3q_BB72_29
Lh3q_BB72_33:
	cmp	x23, #15
	add	x24, x22, x23
	b.ls	Lh3q_BB72_35
	lsr	x3, x23, #1
	add	x1, x20, x21
	mov	x0, x19
	sub	x8, x24, x3
	add	x2, x19, x8
	bl	"_core::slice::edits::mirror::<i8>"
	b	Lh3q_BB72_42
Lh3q_BB72_35:
	cmp	x23, #2
	b.lo	Lh3q_BB72_42
	add	x8, x23, x21
	mov	x9, x23
	add	x8, x8, x20
	sub	x8, x8, #1
	b	Lh3q_BB72_39
Lh3q_BB72_37:
	ldrb	w10, [x19, x8]
	ldrb	w11, [x19, x22]
	strb	w10, [x19, x22]
	strb	w11, [x19, x8]
Lh3q_BB72_38:
	sub	x9, x9, #2
	add	x22, x22, #1
	sub	x8, x8, #1
	cmp	x9, #1
	b.ls	Lh3q_BB72_42
Lh3q_BB72_39:
	cmp	x22, x8
	b.lo	Lh3q_BB72_37
	cmp	x8, x22
	b.hs	Lh3q_BB72_38
	ldrb	w10, [x19, x22]
	ldrb	w11, [x19, x8]
	strb	w10, [x19, x8]
	strb	w11, [x19, x22]
	b	Lh3q_BB72_38
Lh3q_BB72_42:
	sub	x8, x24, x20
	cmp	x8, #15
	b.ls	Lh3q_BB72_44
	lsr	x3, x8, #1
	mov	x0, x19
	mov	x1, x20
	ldp	x29, x30, [sp, #48]
	sub	x8, x24, x3
	ldp	x22, x21, [sp, #16]
	add	x2, x19, x8
	ldp	x20, x19, [sp, #32]
	ldp	x24, x23, [sp], #64
	b	"_core::slice::edits::mirror::<i8>"
Lh3q_BB72_44:
	cmp	x8, #2
	b.lo	Lh3q_BB72_11
	add	x9, x23, x21
	add	x9, x9, x20
	sub	x9, x9, #1
	b	Lh3q_BB72_48
Lh3q_BB72_46:
	ldrb	w10, [x19, x9]
	ldrb	w11, [x19, x20]
	strb	w10, [x19, x20]
	strb	w11, [x19, x9]
Lh3q_BB72_47:
	sub	x8, x8, #2
	add	x20, x20, #1
	sub	x9, x9, #1
	cmp	x8, #1
	b.ls	Lh3q_BB72_11
Lh3q_BB72_48:
	cmp	x20, x9
	b.lo	Lh3q_BB72_46
	cmp	x9, x20
	b.hs	Lh3q_BB72_47
	ldrb	w10, [x19, x20]
	ldrb	w11, [x19, x9]
	strb	w10, [x19, x9]
	strb	w11, [x19, x20]
	b	Lh3q_BB72_47

	.p2align	2
"_core::slice::edits::turn_through_room::<i8>":
	stp	x24, x23, [sp, #-64]!
	stp	x22, x21, [sp, #16]
	stp	x20, x19, [sp, #32]
	stp	x29, x30, [sp, #48]
	add	x29, sp, #48
	sub	sp, sp, #3072
	str	xzr, [sp]
	sub	sp, sp, #1024
	mov	x21, x1
	mov	x20, x0
	sub	x23, x1, x3
	mov	x0, sp
	mov	w1, #4096
	mov	x19, x3
	mov	x22, x2
	bl	_bzero
	mov	x0, sp
	cmp	x19, x22
	b.ne	Lh3q_BB73_15
	mov	x1, x20
	mov	x2, x19
	bl	_memcpy
	cmp	x23, #2049
	b.lo	Lh3q_BB73_21
	mov	x8, xzr
	add	x10, x19, #31
	add	x11, x20, #2032
	add	x12, x20, x19
	mov	x13, x20
	b	Lh3q_BB73_4
Lh3q_BB73_3:
	add	x8, x8, #2048
	add	x11, x11, #2048
	add	x12, x12, #2048
	sub	x9, x23, x8
	add	x13, x13, #2048
	cmp	x9, #2048
	b.ls	Lh3q_BB73_22
Lh3q_BB73_4:
	add	x9, x8, x19
	cmp	x8, x9
	b.hs	Lh3q_BB73_8
	cmp	x10, #32
	b.hs	Lh3q_BB73_11
	mov	x9, xzr
Lh3q_BB73_7:
	ldrb	w14, [x12, x9]
	strb	w14, [x13, x9]
	add	x9, x9, #1
	cmp	x9, #2048
	b.ne	Lh3q_BB73_7
	b	Lh3q_BB73_3
Lh3q_BB73_8:
	cmp	x19, #32
	b.hs	Lh3q_BB73_13
	mov	w9, #2047
Lh3q_BB73_10:
	ldrb	w14, [x12, x9]
	strb	w14, [x13, x9]
	sub	x9, x9, #1
	cmn	x9, #1
	b.ne	Lh3q_BB73_10
	b	Lh3q_BB73_3
Lh3q_BB73_11:
	mov	x9, xzr
	add	x14, x13, x19
Lh3q_BB73_12:
	add	x15, x14, x9
	ldr	q0, [x14, x9]
	add	x16, x13, x9
	ldr	q1, [x15, #16]
	add	x9, x9, #32
	cmp	x9, #2048
	stp	q0, q1, [x16]
	b.ne	Lh3q_BB73_12
	b	Lh3q_BB73_3
Lh3q_BB73_13:
	mov	x9, #-2048
	mov	x14, x11
Lh3q_BB73_14:
	add	x15, x14, x19
	add	x9, x9, #32
	ldp	q1, q0, [x15, #-16]
	stp	q1, q0, [x14, #-16]
	sub	x14, x14, #32
	cbnz	x9, Lh3q_BB73_14
	b	Lh3q_BB73_3
Lh3q_BB73_15:
	add	x1, x20, x23
	mov	x2, x19
	bl	_memcpy
	cbz	x19, Lh3q_BB73_42
	subs	x10, x21, x19
	b.eq	Lh3q_BB73_42
	cmp	x23, #8
	mov	x8, xzr
	b.lo	Lh3q_BB73_40
	add	x9, x19, #31
	cmp	x9, #32
	b.lo	Lh3q_BB73_40
	cmp	x23, #32
	b.hs	Lh3q_BB73_33
	mov	x8, xzr
	b	Lh3q_BB73_37
Lh3q_BB73_21:
	mov	x8, xzr
	mov	x9, x23
Lh3q_BB73_22:
	add	x10, x8, x19
	cmp	x8, x10
	b.hs	Lh3q_BB73_28
	cmp	x23, x8
	b.eq	Lh3q_BB73_61
	cmp	x9, #8
	mov	x10, xzr
	b.lo	Lh3q_BB73_50
	add	x11, x19, #31
	cmp	x11, #32
	b.lo	Lh3q_BB73_50
	cmp	x9, #32
	b.hs	Lh3q_BB73_43
	mov	x10, xzr
	b	Lh3q_BB73_47
Lh3q_BB73_28:
	cmp	x23, x8
	b.eq	Lh3q_BB73_61
	cmp	x9, #8
	mov	x11, xzr
	b.lo	Lh3q_BB73_59
	cmp	x19, #32
	b.lo	Lh3q_BB73_59
	cmp	x9, #32
	b.hs	Lh3q_BB73_52
	mov	x11, xzr
	b	Lh3q_BB73_56
Lh3q_BB73_33:
	add	x11, x21, x20
	add	x12, x10, x20
	and	x9, x23, #0x18
	and	x8, x23, #0xffffffffffffffe0
	sub	x10, x11, #32
	sub	x11, x12, #16
	and	x12, x23, #0xffffffffffffffe0
Lh3q_BB73_34:
	ldp	q1, q0, [x11, #-16]
	sub	x12, x12, #32
	sub	x11, x11, #32
	stp	q1, q0, [x10], #-32
	cbnz	x12, Lh3q_BB73_34
	cmp	x23, x8
	b.eq	Lh3q_BB73_42
	cbz	x9, Lh3q_BB73_40
Lh3q_BB73_37:
	mov	x9, x8
	and	x8, x23, #0xfffffffffffffff8
	sub	x10, x21, x9
	sub	x9, x9, x8
	add	x11, x10, x20
	neg	x10, x19
	sub	x11, x11, #8
Lh3q_BB73_38:
	ldr	d0, [x11, x10]
	add	x9, x9, #8
	str	d0, [x11], #-8
	cbnz	x9, Lh3q_BB73_38
	cmp	x23, x8
	b.eq	Lh3q_BB73_42
Lh3q_BB73_40:
	sub	x8, x21, x8
	sub	x10, x20, #1
	sub	x9, x8, x19
Lh3q_BB73_41:
	ldrb	w11, [x10, x9]
	sub	x9, x9, #1
	strb	w11, [x10, x8]
	sub	x8, x8, #1
	cbnz	x9, Lh3q_BB73_41
Lh3q_BB73_42:
	mov	x1, sp
	mov	x0, x20
	b	Lh3q_BB73_62
Lh3q_BB73_43:
	add	x10, x8, x20
	and	x11, x9, #0x18
	and	x14, x9, #0xfe0
	add	x12, x10, #16
	and	x10, x9, #0xfe0
	add	x13, x12, x19
Lh3q_BB73_44:
	ldp	q0, q1, [x13, #-16]
	subs	x14, x14, #32
	add	x13, x13, #32
	stp	q0, q1, [x12, #-16]
	add	x12, x12, #32
	b.ne	Lh3q_BB73_44
	cmp	x9, x10
	b.eq	Lh3q_BB73_61
	cbz	x11, Lh3q_BB73_50
Lh3q_BB73_47:
	mov	x11, x10
	and	x10, x9, #0xff8
	add	x12, x11, x8
	sub	x11, x11, x10
	add	x12, x20, x12
Lh3q_BB73_48:
	ldr	d0, [x12, x19]
	adds	x11, x11, #8
	str	d0, [x12], #8
	b.ne	Lh3q_BB73_48
	cmp	x9, x10
	b.eq	Lh3q_BB73_61
Lh3q_BB73_50:
	add	x11, x10, x8
	sub	x8, x9, x10
	add	x9, x20, x11
Lh3q_BB73_51:
	ldrb	w10, [x9, x19]
	subs	x8, x8, #1
	strb	w10, [x9], #1
	b.ne	Lh3q_BB73_51
	b	Lh3q_BB73_61
Lh3q_BB73_52:
	add	x11, x9, x8
	and	x12, x9, #0x18
	and	x15, x9, #0xfe0
	add	x11, x11, x20
	sub	x13, x11, #16
	and	x11, x9, #0xfe0
	add	x14, x13, x19
Lh3q_BB73_53:
	ldp	q1, q0, [x14, #-16]
	sub	x15, x15, #32
	sub	x14, x14, #32
	stp	q1, q0, [x13, #-16]
	sub	x13, x13, #32
	cbnz	x15, Lh3q_BB73_53
	cmp	x9, x11
	b.eq	Lh3q_BB73_61
	cbz	x12, Lh3q_BB73_59
Lh3q_BB73_56:
	mov	x12, x11
	add	x11, x9, x8
	sub	x13, x11, x12
	and	x11, x9, #0xff8
	add	x13, x13, x20
	sub	x12, x12, x11
	sub	x13, x13, #8
Lh3q_BB73_57:
	ldr	d0, [x13, x19]
	add	x12, x12, #8
	str	d0, [x13], #-8
	cbnz	x12, Lh3q_BB73_57
	cmp	x9, x11
	b.eq	Lh3q_BB73_61
Lh3q_BB73_59:
	mvn	x11, x11
	add	x10, x20, x10
	add	x8, x20, x8
	add	x9, x11, x9
Lh3q_BB73_60:
	ldrb	w11, [x10, x9]
	strb	w11, [x8, x9]
	sub	x9, x9, #1
	cmn	x9, #1
	b.ne	Lh3q_BB73_60
Lh3q_BB73_61:
	add	x0, x20, x23
	mov	x1, sp
Lh3q_BB73_62:
	mov	x2, x19
	bl	_memcpy
	add	sp, sp, #1, lsl #12
	ldp	x29, x30, [sp, #48]
	ldp	x20, x19, [sp, #32]
	ldp	x22, x21, [sp, #16]
	ldp	x24, x23, [sp], #64
	ret

	.p2align	2
"_core::slice::edits::slice+T::swap_with_slice::<i8>":
	cbz	x1, Lh3q_BB74_7
	cmp	x1, #8
	b.lo	Lh3q_BB74_4
	add	x8, x2, x1
	cmp	x0, x8
	b.hs	Lh3q_BB74_8
	add	x8, x0, x1
	cmp	x2, x8
	b.hs	Lh3q_BB74_8
Lh3q_BB74_4:
	mov	x8, xzr
Lh3q_BB74_5:
	sub	x9, x1, x8
	add	x10, x2, x8
	add	x8, x0, x8
Lh3q_BB74_6:
	ldrb	w11, [x10]
	ldrb	w12, [x8]
	subs	x9, x9, #1
	strb	w11, [x8], #1
	strb	w12, [x10], #1
	b.ne	Lh3q_BB74_6
Lh3q_BB74_7:
	ret
Lh3q_BB74_8:
	cmp	x1, #32
	b.hs	Lh3q_BB74_10
	mov	x8, xzr
	b	Lh3q_BB74_14
Lh3q_BB74_10:
	and	x9, x1, #0x18
	and	x8, x1, #0xffffffffffffffe0
	add	x10, x2, #16
	add	x11, x0, #16
	and	x12, x1, #0xffffffffffffffe0
Lh3q_BB74_11:
	ldp	q1, q2, [x11, #-16]
	subs	x12, x12, #32
	ldp	q0, q3, [x10, #-16]
	stp	q1, q2, [x10, #-16]
	add	x10, x10, #32
	stur	q0, [x11, #-16]
	str	q3, [x11], #32
	b.ne	Lh3q_BB74_11
	cmp	x1, x8
	b.eq	Lh3q_BB74_7
	cbz	x9, Lh3q_BB74_5
Lh3q_BB74_14:
	mov	x11, x8
	and	x8, x1, #0xfffffffffffffff8
	sub	x9, x11, x8
	add	x10, x2, x11
	add	x11, x0, x11
Lh3q_BB74_15:
	ldr	d0, [x10]
	ldr	d1, [x11]
	adds	x9, x9, #8
	str	d0, [x11], #8
	str	d1, [x10], #8
	b.ne	Lh3q_BB74_15
	cmp	x1, x8
	b.eq	Lh3q_BB74_7
	b	Lh3q_BB74_5

	.p2align	2
"_core::slice::edits::mirror::<i8>":
	add	x8, x2, x3
	add	x9, x0, x1
	cmp	x9, x8
	b.hs	Lh3q_BB75_3
	add	x8, x9, x3
	cmp	x2, x8
	b.hs	Lh3q_BB75_3
	mov	x8, xzr
	b	Lh3q_BB75_12
Lh3q_BB75_3:
	cmp	x3, #16
	b.hs	Lh3q_BB75_5
	mov	x8, xzr
	b	Lh3q_BB75_9
Lh3q_BB75_5:
	and	x10, x3, #0xc
	and	x8, x3, #0x7ffffffffffffff0
	sub	x11, x2, #16
	and	x12, x3, #0x7ffffffffffffff0
Lh3q_BB75_6:
	ldr	q0, [x11, x3]
	ldr	q1, [x9]
	sub	x12, x12, #16
	rev64.16b	v0, v0
	rev64.16b	v1, v1
	ext.16b	v0, v0, v0, #8
	ext.16b	v1, v1, v1, #8
	str	q1, [x11, x3]
	sub	x11, x11, #16
	str	q0, [x9], #16
	cbnz	x12, Lh3q_BB75_6
	cmp	x3, x8
	b.eq	Lh3q_BB75_14
	cbz	x10, Lh3q_BB75_12
Lh3q_BB75_9:
	mov	x9, x8
	and	x8, x3, #0x7ffffffffffffffc
	sub	x10, x2, x9
	add	x11, x9, x1
	sub	x9, x9, x8
	sub	x10, x10, #4
	add	x11, x0, x11
Lh3q_BB75_10:
	ldr	s0, [x10, x3]
	ldr	s1, [x11]
	add	x9, x9, #4
	zip1.8b	v0, v0, v0
	zip1.8b	v1, v1, v1
	rev64.4h	v0, v0
	rev64.4h	v1, v1
	uzp1.8b	v0, v0, v0
	st1.s	{ v0 }[0], [x11], #4
	uzp1.8b	v0, v1, v0
	str	s0, [x10, x3]
	sub	x10, x10, #4
	cbnz	x9, Lh3q_BB75_10
	cmp	x3, x8
	b.eq	Lh3q_BB75_14
Lh3q_BB75_12:
	add	x9, x8, x1
	sub	x8, x3, x8
	sub	x10, x2, #1
	add	x9, x0, x9
Lh3q_BB75_13:
	ldrb	w11, [x10, x8]
	ldrb	w12, [x9]
	strb	w11, [x9], #1
	strb	w12, [x10, x8]
	subs	x8, x8, #1
	b.ne	Lh3q_BB75_13
Lh3q_BB75_14:
	ret

	.p2align	2
"_qpack_decoding::encoder_stream::take_all_strictly::<#78d66cfad5c8051d>":
	sub	sp, sp, #480
	stp	x29, x30, [sp, #464]
	add	x29, sp, #464
	add	x9, sp, #128
	sub	x10, x29, #176
	stp	x22, x21, [sp, #432]
	mov	x21, x2
	orr	x8, x10, #0x2
	stp	x20, x19, [sp, #448]
	mov	x20, x3
	str	x8, [sp, #40]
	add	x8, sp, #80
	mov	x22, x1
	orr	x8, x8, #0x2
	stp	x28, x27, [sp, #384]
	stp	x0, x8, [sp, #24]
	orr	x8, x10, #0x1
	str	x8, [sp]
	orr	x8, x9, #0x1
	stp	x26, x25, [sp, #400]
	stp	x24, x23, [sp, #416]
	str	x8, [sp, #8]
	b	Lh3q_BB76_4
Lh3q_BB76_1:
	cmp	x23, #99
	b.hs	Lh3q_BB76_168
Lh3q_BB76_2:
	ldr	x8, [x22, #64]
	cbnz	x8, Lh3q_BB76_144
Lh3q_BB76_3:
	ldr	q0, [sp, #48]
	mov	w8, #1
	str	q0, [x20]
	dup.2d	v0, x8
	ldr	x8, [sp, #64]
	ldr	x9, [x20, #8]
	str	x8, [x20, #16]
	sub	x9, x27, x9
	ldr	q1, [x21]
	mov.d	v0[1], x9
	uqadd.2d	v0, v0, v1
	str	q0, [x21]
Lh3q_BB76_4:
	ldr	x27, [x20, #8]
	ldr	x8, [x22, #64]
	cbz	x27, Lh3q_BB76_7
	cbnz	x8, Lh3q_BB76_7
	ldr	x8, [x20]
	ldrb	w8, [x8]
	cmp	w8, #63
	mov	x8, xzr
	b.hi	Lh3q_BB76_139
Lh3q_BB76_7:
	ldr	q0, [x20]
	ldr	x9, [x20, #16]
	subs	x8, x8, #32
	csel	x23, xzr, x8, lo
	str	q0, [sp, #48]
	ldr	x10, [sp, #56]
	str	x9, [sp, #64]
	cbz	x10, Lh3q_BB76_163
	ldr	x8, [sp, #48]
	mov	w11, #3
	mov	w13, #2
	ldrsb	w12, [x8]
	tst	w12, #0xe0
	and	x24, x12, #0xff
	and	w19, w12, #0xff
	csel	w11, wzr, w11, ne
	tst	w12, #0xc0
	csel	w11, w13, w11, ne
	cmp	w12, #0
	csinc	w11, w11, wzr, pl
	cmp	w11, #1
	b.gt	Lh3q_BB76_18
	cbnz	w11, Lh3q_BB76_25
	add	x8, x8, #1
	sub	x10, x10, #1
	and	x23, x24, #0x1f
	stp	x8, x10, [sp, #48]
	add	x8, x9, #1
	cmp	w23, #31
	stp	xzr, xzr, [sp, #224]
	str	x8, [sp, #64]
	b.ne	Lh3q_BB76_13
	add	x0, sp, #224
	add	x1, sp, #48
	bl	"_qpack_base::prefix_int::read_groups"
	ldrb	w8, [sp, #224]
	cbnz	w8, Lh3q_BB76_164
	ldr	x8, [sp, #232]
	add	x23, x8, #31
Lh3q_BB76_13:
	lsr	x8, x24, #5
	cmp	w8, #1
	b.ne	Lh3q_BB76_154
	movi.2d	v0, #0000000000000000
	stp	q0, q0, [sp, #224]
	stp	q0, q0, [sp, #256]
Lh3q_BB76_15:
	ldrb	w8, [x22, #72]
	cbz	w8, Lh3q_BB76_46
	ldr	x8, [x22, #80]
	mov	w9, #1073741823
	cmp	x8, x9
	csel	x8, x8, x9, lo
	cmp	x8, x23
	b.hs	Lh3q_BB76_47
Lh3q_BB76_17:
	mov	w9, #4
	b	Lh3q_BB76_64
Lh3q_BB76_18:
	cmp	w11, #2
	b.ne	Lh3q_BB76_28
	movi.2d	v0, #0000000000000000
	and	w8, w19, #0xc0
	str	xzr, [sp, #272]
	cmp	w8, #64
	stp	q0, q0, [sp, #240]
	str	q0, [sp, #224]
	b.ne	Lh3q_BB76_45
	sub	x8, x29, #104
	sub	x9, x29, #176
	add	x0, sp, #224
	stur	x8, [x29, #-176]
	add	x3, sp, #48
	sub	x4, x29, #176
	str	x8, [sp, #192]
	add	x8, sp, #192
	mov	w1, #6
	mov	x2, x23
	stp	xzr, xzr, [x9, #8]
	stp	xzr, xzr, [x8, #8]
	bl	"_qpack_base::prefix_string::decode_within::<#94025a41bde9419f>"
	ldrb	w8, [sp, #224]
	ldr	x19, [sp, #232]
	cbz	w8, Lh3q_BB76_65
	and	w10, w19, #0xff
	mov	w11, #1
	ldrb	w8, [sp, #240]
	lsl	w10, w11, w10
	ldr	x9, [sp, #272]
	mov	w11, #23
	mov	w13, #4
	mov	x24, xzr
	mov	x25, xzr
	tst	w10, w11
	mov	x0, xzr
	mov	x26, xzr
	mov	x23, xzr
	mov	x17, xzr
	b.eq	Lh3q_BB76_23
	ldp	x25, x0, [sp, #256]
	and	x26, x19, #0xffff
	ldr	x24, [sp, #248]
	mov	w13, #1
	mov	x23, x8
	mov	x17, x9
Lh3q_BB76_23:
	ldur	x8, [x29, #-160]
	cbz	x8, Lh3q_BB76_73
	mov	x19, x0
	ldur	x0, [x29, #-176]
	mov	x28, x25
	mov	x25, x21
	mov	x21, x17
	str	x20, [sp, #16]
	b	Lh3q_BB76_72
Lh3q_BB76_25:
	movi.2d	v0, #0000000000000000
	add	x8, x8, #1
	sub	x10, x10, #1
	and	x24, x24, #0x3f
	stp	x8, x10, [sp, #48]
	add	x8, x9, #1
	cmp	w24, #63
	str	xzr, [sp, #272]
	stp	xzr, xzr, [sp, #192]
	stp	q0, q0, [sp, #240]
	str	q0, [sp, #224]
	str	x8, [sp, #64]
	b.ne	Lh3q_BB76_76
	add	x0, sp, #192
	add	x1, sp, #48
	bl	"_qpack_base::prefix_int::read_groups"
	ldrb	w8, [sp, #192]
	cbz	w8, Lh3q_BB76_75
	ldrb	w19, [sp, #193]
	mov	w13, wzr
	mov	x26, xzr
	mov	x23, xzr
	mov	x24, xzr
	mov	x25, xzr
	mov	x0, xzr
	mov	x17, xzr
	mov	w8, #1
	b	Lh3q_BB76_91
Lh3q_BB76_28:
	add	x8, x8, #1
	sub	x10, x10, #1
	and	x23, x24, #0x1f
	stp	x8, x10, [sp, #48]
	add	x8, x9, #1
	cmp	w23, #31
	stp	xzr, xzr, [sp, #224]
	str	x8, [sp, #64]
	b.ne	Lh3q_BB76_31
	add	x0, sp, #224
	add	x1, sp, #48
	bl	"_qpack_base::prefix_int::read_groups"
	ldrb	w8, [sp, #224]
	cbnz	w8, Lh3q_BB76_157
	ldr	x8, [sp, #232]
	add	x23, x8, #31
Lh3q_BB76_31:
	lsr	x8, x24, #5
	cbnz	w8, Lh3q_BB76_155
	movi.2d	v0, #0000000000000000
	str	wzr, [sp, #120]
	strh	wzr, [sp, #124]
	stp	q0, q0, [sp, #80]
	stp	q0, q0, [sp, #224]
	stp	q0, q0, [sp, #256]
Lh3q_BB76_33:
	ldr	x8, [x22, #40]
	subs	x10, x8, x23
	b.lo	Lh3q_BB76_138
	ldr	x11, [x22, #48]
	subs	x8, x10, x11
	cset	w9, ne
	cmp	x10, x11
	b.ls	Lh3q_BB76_138
	ldr	x10, [x22, #8]
	sub	x23, x8, x9
	cmp	x10, x23
	b.ls	Lh3q_BB76_145
	ldr	x8, [x22, #32]
	sub	x9, x10, x8
	ldr	x8, [x22]
	subs	x9, x23, x9
	b.hs	Lh3q_BB76_40
	ldur	x9, [x22, #24]
	mov	w10, #48
	madd	x8, x9, x10, x8
	madd	x19, x23, x10, x8
	ldp	x24, x23, [x19]
	cbz	x23, Lh3q_BB76_41
Lh3q_BB76_38:
	tbnz	x23, #63, Lh3q_BB76_148
	mov	x0, x23
	mov	w1, #1
	bl	_rattle_alloc
	tbnz	w0, #0, Lh3q_BB76_42
	b	Lh3q_BB76_148
Lh3q_BB76_40:
	mov	w10, #48
	madd	x19, x9, x10, x8
	ldp	x24, x23, [x19]
	cbnz	x23, Lh3q_BB76_38
Lh3q_BB76_41:
	sub	x1, x29, #104
Lh3q_BB76_42:
	stp	x1, xzr, [x29, #-176]
	sub	x3, x29, #176
	mov	x0, x24
	mov	x1, x23
	mov	x2, x23
	stur	x23, [x29, #-160]
	bl	"_qpack_base::coding::append_within::<#3b617f7ce96065ff>"
	tst	w0, #0xff
	b.ne	Lh3q_BB76_146
	ldurh	w10, [x29, #-176]
	ldr	x9, [sp, #40]
	add	x0, sp, #224
	add	x2, sp, #80
	strh	w10, [sp, #80]
	sub	x10, x29, #176
	ldr	w8, [x9]
	ldrh	w9, [x9, #4]
	ldur	q0, [x10, #8]
	ldr	x10, [sp, #32]
	str	w8, [sp, #120]
	strh	w9, [sp, #124]
	str	w8, [x10]
	ldr	w8, [x19, #24]
	strh	w9, [x10, #4]
	ldrh	w9, [x19, #28]
	stur	q0, [sp, #88]
	str	w8, [sp, #104]
	strh	w9, [sp, #108]
Lh3q_BB76_44:
	mov	x1, x22
	bl	"_qpack_codec::decoder::instructions::insert::<#78d66cfad5c8051d>"
	ldrb	w8, [sp, #224]
	cmp	w8, #0
	cset	w8, eq
	tbnz	w8, #0, Lh3q_BB76_3
	b	Lh3q_BB76_137
Lh3q_BB76_45:
	mov	x26, xzr
	mov	x23, xzr
	mov	x24, xzr
	mov	x25, xzr
	mov	x0, xzr
	mov	x17, xzr
	b	Lh3q_BB76_74
Lh3q_BB76_46:
	mov	w8, #1073741823
	cmp	x8, x23
	b.lo	Lh3q_BB76_17
Lh3q_BB76_47:
	mov	x0, x22
	mov	x1, x23
	bl	"_qpack_table::dynamic::table::DynamicTable::evictable_count::<#78d66cfad5c8051d>"
	mov	w9, #3
	tst	w0, #0x1
	csel	x24, x1, x9, ne
	tbz	w0, #0, Lh3q_BB76_64
	mov	x19, xzr
	cbnz	x1, Lh3q_BB76_56
Lh3q_BB76_49:
	ldr	x8, [x22, #8]
	cbnz	x8, Lh3q_BB76_136
Lh3q_BB76_50:
	ldr	x8, [x22, #16]
	cbz	x8, Lh3q_BB76_136
	ldp	q0, q1, [x22]
	sub	x0, x29, #128
	ldr	x8, [x22, #32]
	sub	x1, x29, #176
	stp	xzr, xzr, [x29, #-128]
	stur	xzr, [x29, #-112]
	stp	q0, q1, [x29, #-176]
	stur	x8, [x29, #-144]
	bl	"_std_alloc::vec::deque::VecDeque::into_vec::<#1768c683c02e1de9>"
	ldp	x25, x26, [x29, #-120]
	ldur	x24, [x29, #-128]
	cmp	x26, x25
	b.ls	Lh3q_BB76_135
	cbz	x25, Lh3q_BB76_134
	add	x8, x25, x25, lsl #1
	mov	x0, x24
	mov	w3, #8
	lsl	x1, x8, #4
	mov	x2, x1
	bl	_rattle_realloc
	tbz	w0, #0, Lh3q_BB76_135
	mov	x24, x1
	mov	x26, x25
	b	Lh3q_BB76_135
Lh3q_BB76_55:
	subs	x24, x24, #1
	add	x19, x25, x19
	b.eq	Lh3q_BB76_49
Lh3q_BB76_56:
	ldr	x8, [x22, #8]
	cbz	x8, Lh3q_BB76_50
	ldr	x9, [x22, #32]
	cmp	x9, x8
	b.ne	Lh3q_BB76_59
	mov	x9, xzr
	str	xzr, [x22, #32]
	b	Lh3q_BB76_60
Lh3q_BB76_59:
	ldur	x9, [x22, #24]
Lh3q_BB76_60:
	mov	w10, #48
	ldr	x11, [x22]
	sub	x8, x8, #1
	madd	x11, x9, x10, x11
	add	x9, x9, #1
	str	x8, [x22, #8]
	str	x9, [x22, #24]
	ldrb	w12, [x11, #28]
	ldr	w9, [x11, #24]
	ldr	x8, [x11, #16]
	ldp	x0, x10, [x11]
	cmp	w12, #1
	mov	x12, x9
	b.ne	Lh3q_BB76_62
	ldrb	w11, [x11, #29]
Lh3q_loh66:
	adrp	x12, l_static.3@PAGE
Lh3q_loh67:
	add	x12, x12, l_static.3@PAGEOFF
Lh3q_loh68:
	adrp	x13, l_static.2@PAGE
Lh3q_loh69:
	add	x13, x13, l_static.2@PAGEOFF
Lh3q_loh70:
	adrp	x15, l_static.1@PAGE
Lh3q_loh71:
	add	x15, x15, l_static.1@PAGEOFF
	lsl	x14, x11, #5
	cmp	w11, #74
	add	x12, x12, x14
	add	x13, x13, x14
	add	x14, x15, x11, lsl #5
Lh3q_loh72:
	adrp	x15, l_static.0@PAGE
Lh3q_loh73:
	add	x15, x15, l_static.0@PAGEOFF
	sub	x12, x12, #2392
	sub	x13, x13, #1592
	add	x15, x15, x11, lsl #5
	csel	x12, x12, x13, hi
	sub	x13, x14, #792
	cmp	w11, #49
	csel	x12, x12, x13, hi
	add	x13, x15, #8
	cmp	w11, #24
	csel	x11, x12, x13, hi
	ldr	x12, [x11]
Lh3q_BB76_62:
	sub	x9, x10, x9
	ldr	x10, [x22, #48]
	adds	x9, x9, x12
	csinv	x9, x9, xzr, lo
	add	x10, x10, #1
	adds	x9, x9, #32
	str	x10, [x22, #48]
	csinv	x25, x9, xzr, lo
	cbz	x8, Lh3q_BB76_55
	bl	_rattle_dealloc
	b	Lh3q_BB76_55
Lh3q_BB76_64:
	movi.2d	v0, #0000000000000000
	str	x9, [sp, #240]
	mov	w9, #3
	mov	w10, #1
	strb	w9, [sp, #232]
	add	x9, sp, #224
	strb	w10, [sp, #224]
	stur	xzr, [x9, #56]
	stur	q0, [x9, #24]
	stur	q0, [x9, #40]
	b	Lh3q_BB76_137
Lh3q_BB76_65:
	subs	x8, x23, x19
	add	x0, sp, #224
	add	x3, sp, #48
	csel	x24, xzr, x8, lo
	add	x4, sp, #192
	mov	w1, #8
	mov	x2, x24
	bl	"_qpack_base::prefix_string::decode_within::<#94025a41bde9419f>"
	ldrb	w8, [sp, #224]
	ldr	x10, [sp, #232]
	cbz	w8, Lh3q_BB76_120
	and	w11, w10, #0xff
	mov	w12, #1
	ldrb	w8, [sp, #240]
	lsl	w11, w12, w11
	ldr	x9, [sp, #272]
	mov	w12, #23
	mov	w13, #4
	mov	x24, xzr
	mov	x25, xzr
	tst	w11, w12
	mov	x0, xzr
	mov	x26, xzr
	mov	x23, xzr
	mov	x17, xzr
	b.eq	Lh3q_BB76_68
	ldp	x25, x0, [sp, #256]
	and	x26, x10, #0xffff
	ldr	x24, [sp, #248]
	mov	w13, #1
	mov	x23, x8
	mov	x17, x9
Lh3q_BB76_68:
	ldr	x8, [sp, #208]
	str	x20, [sp, #16]
	cbz	x8, Lh3q_BB76_70
	mov	x19, x0
	ldr	x0, [sp, #192]
	mov	x28, x25
	mov	x25, x21
	mov	x21, x17
	mov	x20, x26
	mov	x26, x24
	mov	w24, w13
	bl	_rattle_dealloc
	mov	w13, w24
	mov	x24, x26
	mov	x26, x20
	ldr	x20, [sp, #16]
	mov	x17, x21
	mov	x21, x25
	mov	x25, x28
	mov	x0, x19
Lh3q_BB76_70:
	ldur	x8, [x29, #-160]
	cbz	x8, Lh3q_BB76_73
	mov	x19, x0
	ldur	x0, [x29, #-176]
	mov	x28, x25
	mov	x25, x21
	mov	x21, x17
Lh3q_BB76_72:
	mov	x20, x26
	mov	x26, x24
	mov	w24, w13
	bl	_rattle_dealloc
	mov	w13, w24
	mov	x24, x26
	mov	x26, x20
	ldr	x20, [sp, #16]
	mov	x17, x21
	mov	x21, x25
	mov	x25, x28
	mov	x0, x19
Lh3q_BB76_73:
	mov	w19, wzr
Lh3q_BB76_74:
	mov	x9, xzr
	mov	w8, #1
	b	Lh3q_BB76_92
Lh3q_BB76_75:
	ldr	x8, [sp, #200]
	add	x24, x8, #63
Lh3q_BB76_76:
	lsr	w19, w19, #6
	cmp	w19, #2
	b.eq	Lh3q_BB76_79
	cmp	w19, #3
	mov	x26, xzr
	b.eq	Lh3q_BB76_80
	mov	w13, #2
	mov	w8, #1
	mov	x23, x26
	mov	x24, x26
	mov	x25, x26
	mov	x0, x26
	mov	x17, x26
	b	Lh3q_BB76_91
Lh3q_BB76_79:
	mov	w26, #1
Lh3q_BB76_80:
	sub	x8, x29, #104
	add	x0, sp, #224
	add	x3, sp, #48
	stur	x8, [x29, #-176]
	sub	x8, x29, #176
	sub	x4, x29, #176
	mov	w1, #8
	mov	x2, x23
	stp	xzr, xzr, [x8, #8]
	bl	"_qpack_base::prefix_string::decode_within::<#94025a41bde9419f>"
	ldrb	w8, [sp, #224]
	ldr	x10, [sp, #232]
	cbz	w8, Lh3q_BB76_86
	and	w11, w10, #0xff
	mov	w12, #1
	ldrb	w8, [sp, #240]
	lsl	w11, w12, w11
	ldr	x9, [sp, #272]
	mov	w12, #23
	mov	w13, #4
	mov	x25, xzr
	mov	x0, xzr
	tst	w11, w12
	mov	x24, xzr
	mov	x26, xzr
	mov	x23, xzr
	mov	x17, xzr
	b.eq	Lh3q_BB76_83
	ldp	x24, x25, [sp, #248]
	and	x26, x10, #0xffff
	ldr	x0, [sp, #264]
	mov	w13, #1
	mov	x23, x8
	mov	x17, x9
Lh3q_BB76_83:
	ldur	x8, [x29, #-160]
	cbz	x8, Lh3q_BB76_85
	mov	x19, x0
	ldur	x0, [x29, #-176]
	mov	x28, x25
	mov	x25, x21
	mov	x21, x17
	str	x20, [sp, #16]
	mov	x20, x26
	mov	x26, x24
	mov	w24, w13
	bl	_rattle_dealloc
	mov	w13, w24
	mov	x24, x26
	mov	x26, x20
	ldr	x20, [sp, #16]
	mov	x17, x21
	mov	x21, x25
	mov	x25, x28
	mov	x0, x19
Lh3q_BB76_85:
	mov	w19, wzr
	mov	w8, #1
	b	Lh3q_BB76_91
Lh3q_BB76_86:
	cmp	x23, x10
	b.hs	Lh3q_BB76_90
	ldur	x8, [x29, #-160]
	cbz	x8, Lh3q_BB76_89
	ldur	x0, [x29, #-176]
	bl	_rattle_dealloc
	mov	w8, wzr
Lh3q_BB76_89:
	mov	w19, wzr
	mov	x25, xzr
	mov	x0, xzr
	mov	x17, xzr
	mov	w13, #1
	mov	x23, x24
	mov	x24, xzr
	b	Lh3q_BB76_91
Lh3q_BB76_90:
	ldp	x0, x17, [x29, #-168]
	cmp	w19, #3
	ldur	x25, [x29, #-176]
	mov	w8, wzr
	mov	w13, wzr
	mov	x26, xzr
	cset	w23, ne
	mov	w19, wzr
Lh3q_BB76_91:
	mov	x9, xzr
Lh3q_BB76_92:
	and	w10, w26, #0xff
	cbnz	w8, Lh3q_BB76_140
	cbz	w13, Lh3q_BB76_99
	cmp	w10, #2
	b.eq	Lh3q_BB76_2
	cmp	w10, #1
	b.ne	Lh3q_BB76_1
	ldr	x8, [x22, #40]
	subs	x8, x8, x23
	b.lo	Lh3q_BB76_156
	ldr	x9, [x22, #48]
	subs	x8, x8, x9
	b.ls	Lh3q_BB76_156
	cmp	x8, #0
	ldr	x10, [x22, #8]
	cset	w9, ne
	sub	x8, x8, x9
	cmp	x10, x8
	b.hi	Lh3q_BB76_2
	b	Lh3q_BB76_169
Lh3q_BB76_99:
	movi.2d	v0, #0000000000000000
	cmp	w10, #1
	stp	xzr, xzr, [sp, #160]
	stur	xzr, [sp, #175]
	str	wzr, [sp, #120]
	strh	wzr, [sp, #124]
	stp	q0, q0, [sp, #80]
	stp	q0, q0, [sp, #128]
	stp	q0, q0, [sp, #192]
	stp	q0, q0, [sp, #224]
	stp	q0, q0, [sp, #256]
	b.gt	Lh3q_BB76_109
	cbnz	w10, Lh3q_BB76_110
	tst	x23, #0xff
	b.eq	Lh3q_BB76_123
	ldr	x8, [x22, #40]
	subs	x10, x8, x24
	b.lo	Lh3q_BB76_175
	ldr	x11, [x22, #48]
	subs	x8, x10, x11
	cset	w9, ne
	cmp	x10, x11
	b.ls	Lh3q_BB76_175
	ldr	x10, [x22, #8]
	sub	x23, x8, x9
	cmp	x10, x23
	b.ls	Lh3q_BB76_176
	ldr	x8, [x22, #32]
	sub	x9, x10, x8
	ldr	x8, [x22]
	subs	x9, x23, x9
	b.hs	Lh3q_BB76_124
	ldur	x9, [x22, #24]
	mov	w10, #48
	madd	x8, x9, x10, x8
	madd	x8, x23, x10, x8
	ldrb	w9, [x8, #28]
	cmp	w9, #1
	b.eq	Lh3q_BB76_125
Lh3q_BB76_107:
	ldr	w23, [x8, #24]
	ldp	x8, x9, [x8]
	stp	x25, x0, [x29, #-176]
	sub	x3, x29, #176
	mov	x1, x23
	mov	x2, x23
	stur	x17, [x29, #-160]
	sub	x9, x9, x23
	add	x0, x8, x9
	bl	"_qpack_base::coding::append_within::<#3b617f7ce96065ff>"
	tst	w0, #0xff
	b.ne	Lh3q_BB76_146
	ldp	x25, x0, [x29, #-176]
	mov	w8, wzr
	ldur	x17, [x29, #-160]
	mov	w24, wzr
	b	Lh3q_BB76_127
Lh3q_BB76_109:
	cmp	w10, #2
	b.ne	Lh3q_BB76_15
	b	Lh3q_BB76_33
Lh3q_BB76_110:
	mov	x8, #4294967296
	lsr	x10, x24, #32
	cmp	x24, x8
	csel	x19, x24, x8, lo
	cbnz	x10, Lh3q_BB76_114
	stp	x0, x17, [x29, #-176]
	sub	x3, x29, #176
	mov	x0, x23
	mov	x1, x24
	mov	x2, x24
	stur	x9, [x29, #-160]
	bl	"_qpack_base::coding::append_within::<#3b617f7ce96065ff>"
	tst	w0, #0xff
	b.eq	Lh3q_BB76_133
	ldur	x8, [x29, #-160]
	cbz	x8, Lh3q_BB76_116
	ldur	x0, [x29, #-176]
	b	Lh3q_BB76_115
Lh3q_BB76_114:
	cbz	x9, Lh3q_BB76_116
Lh3q_BB76_115:
	bl	_rattle_dealloc
Lh3q_BB76_116:
	mov	w24, wzr
	mov	w26, wzr
	mov	w19, wzr
	sub	x8, x29, #176
	stp	xzr, xzr, [x29, #-128]
	stur	xzr, [x8, #63]
	cbz	x25, Lh3q_BB76_118
Lh3q_BB76_117:
	mov	x0, x23
	bl	_rattle_dealloc
Lh3q_BB76_118:
	sub	x8, x29, #176
	ldur	q0, [x29, #-128]
	ldur	x8, [x8, #63]
	str	q0, [sp, #160]
	stur	x8, [sp, #175]
	cbz	w26, Lh3q_BB76_148
	ldr	q0, [sp, #160]
	ldur	x8, [sp, #175]
	add	x0, sp, #224
	ldr	x9, [sp, #8]
	strb	w24, [sp, #128]
	add	x2, sp, #128
	str	w19, [sp, #152]
	str	q0, [x9]
	stur	x8, [x9, #15]
	strh	wzr, [sp, #156]
	b	Lh3q_BB76_44
Lh3q_BB76_120:
	cmp	x23, x19
	b.lo	Lh3q_BB76_128
	cmp	x24, x10
	b.lo	Lh3q_BB76_128
	ldp	x0, x17, [sp, #192]
	mov	w8, wzr
	ldp	x23, x24, [x29, #-176]
	mov	w13, wzr
	ldr	x9, [sp, #208]
	ldur	x25, [x29, #-160]
	mov	w19, wzr
	mov	w26, #1
	b	Lh3q_BB76_92
Lh3q_BB76_123:
	cmp	x24, #99
	b.lo	Lh3q_BB76_126
	b	Lh3q_BB76_180
Lh3q_BB76_124:
	mov	w10, #48
	madd	x8, x9, x10, x8
	ldrb	w9, [x8, #28]
	cmp	w9, #1
	b.ne	Lh3q_BB76_107
Lh3q_BB76_125:
	ldrb	w24, [x8, #29]
Lh3q_BB76_126:
	mov	w23, wzr
	mov	w8, #1
Lh3q_BB76_127:
	stp	x25, x0, [sp, #192]
	add	x0, sp, #224
	add	x2, sp, #192
	str	x17, [sp, #208]
	str	w23, [sp, #216]
	strb	w8, [sp, #220]
	strb	w24, [sp, #221]
	b	Lh3q_BB76_44
Lh3q_BB76_128:
	ldr	x8, [sp, #208]
	cbz	x8, Lh3q_BB76_130
	ldr	x0, [sp, #192]
	bl	_rattle_dealloc
Lh3q_BB76_130:
	ldur	x8, [x29, #-160]
	cbz	x8, Lh3q_BB76_132
	ldur	x0, [x29, #-176]
	bl	_rattle_dealloc
	mov	w8, wzr
Lh3q_BB76_132:
	mov	w19, wzr
	mov	x23, xzr
	mov	x24, xzr
	mov	x25, xzr
	mov	x0, xzr
	mov	x17, xzr
	mov	x9, xzr
	mov	w13, #1
	mov	w26, #2
	b	Lh3q_BB76_92
Lh3q_BB76_133:
	ldr	x8, [sp]
	ldurb	w24, [x29, #-176]
	sub	x9, x29, #176
	mov	w26, #1
	ldr	q0, [x8]
	ldur	x8, [x8, #15]
	stur	q0, [x29, #-128]
	stur	x8, [x9, #63]
	cbnz	x25, Lh3q_BB76_117
	b	Lh3q_BB76_118
Lh3q_BB76_134:
	mov	x0, x24
	bl	_rattle_dealloc
	mov	x26, xzr
	sub	x24, x29, #104
Lh3q_BB76_135:
	stp	x24, x25, [x22]
	stp	xzr, xzr, [x22, #24]
	str	x26, [x22, #16]
Lh3q_BB76_136:
	ldr	x8, [x22, #56]
	movi.2d	v0, #0000000000000000
	add	x9, sp, #224
	strb	wzr, [sp, #224]
	sub	x8, x8, x19
	strh	wzr, [sp, #232]
	stp	x8, x23, [x22, #56]
	mov	w8, #1
	stp	q0, q0, [x9, #16]
	stur	q0, [x9, #48]
	tbnz	w8, #0, Lh3q_BB76_3
Lh3q_BB76_137:
	ldp	x23, x8, [sp, #240]
	ldrb	w9, [sp, #232]
	ldp	x0, x17, [sp, #272]
	ldrb	w19, [sp, #233]
	ldr	w10, [sp, #256]
	ldrb	w12, [sp, #260]
	ldrb	w13, [sp, #261]
	ldrh	w11, [sp, #262]
	ldr	x25, [sp, #264]
	lsr	x14, x23, #8
	cmp	w9, #3
	b.eq	Lh3q_BB76_150
	b	Lh3q_BB76_151
Lh3q_BB76_138:
	mov	x24, xzr
	mov	w9, #3
	b	Lh3q_BB76_149
Lh3q_BB76_139:
	mov	w19, wzr
	mov	w9, #3
	mov	w26, #3
	mov	x24, x8
	mov	x25, x8
	mov	x0, x8
	mov	x17, x8
	b	Lh3q_BB76_172
Lh3q_BB76_140:
	cmp	w10, #0
	and	x8, x23, #0xff
	cset	w9, eq
	cmp	w13, #1
	b.le	Lh3q_BB76_159
Lh3q_BB76_141:
	cmp	w13, #2
	b.eq	Lh3q_BB76_153
	cmp	w13, #3
	b.ne	Lh3q_BB76_167
	mov	w19, wzr
	mov	x8, xzr
	mov	x24, xzr
	mov	x25, xzr
	mov	x0, xzr
	mov	x17, xzr
	mov	w9, #7
	b	Lh3q_BB76_172
Lh3q_BB76_144:
	mov	x14, xzr
	mov	x17, xzr
	mov	w13, wzr
	mov	w12, wzr
	mov	w10, wzr
	mov	x8, xzr
	mov	w19, wzr
	mov	x0, xzr
	mov	x25, xzr
	mov	w11, wzr
	mov	w23, #3
	b	Lh3q_BB76_152
Lh3q_BB76_145:
	mov	w9, #3
	mov	w24, #2
	b	Lh3q_BB76_149
Lh3q_BB76_146:
	ldur	x8, [x29, #-160]
	cbz	x8, Lh3q_BB76_148
	ldur	x0, [x29, #-176]
	bl	_rattle_dealloc
Lh3q_BB76_148:
	mov	x24, xzr
	mov	x23, xzr
	mov	w9, #11
Lh3q_BB76_149:
	mov	x17, xzr
	mov	w13, wzr
	mov	w12, wzr
	mov	w10, wzr
	mov	w19, wzr
	mov	x0, xzr
	mov	x25, xzr
	mov	w11, wzr
	mov	x8, x23
	mov	x23, x24
	lsr	x14, x24, #8
	cmp	w9, #3
	b.ne	Lh3q_BB76_151
Lh3q_BB76_150:
	and	w15, w23, #0xff
	mov	w16, #1
	mov	w9, #3
	lsl	w15, w16, w15
	mov	w16, #935
	tst	w15, w16
	b.eq	Lh3q_BB76_152
Lh3q_BB76_151:
	bfi	x23, x14, #8, #56
	b	Lh3q_BB76_171
Lh3q_BB76_152:
	ldr	x9, [sp, #64]
	ldr	q0, [sp, #48]
	bfi	x23, x14, #8, #56
	str	x9, [x20, #16]
	mov	w9, #3
	str	q0, [x20]
	b	Lh3q_BB76_171
Lh3q_BB76_153:
	mov	x26, xzr
	mov	x8, xzr
	mov	x24, xzr
	mov	x25, xzr
	mov	x0, xzr
	mov	x17, xzr
	mov	w9, #5
	b	Lh3q_BB76_172
Lh3q_BB76_154:
	mov	w9, #2
	orr	x9, x9, x8, lsl #8
	b	Lh3q_BB76_165
Lh3q_BB76_155:
	mov	w9, #2
	orr	x9, x9, x8, lsl #8
	b	Lh3q_BB76_158
Lh3q_BB76_156:
	mov	x8, x23
	mov	x23, xzr
	b	Lh3q_BB76_170
Lh3q_BB76_157:
	ldrb	w8, [sp, #225]
	lsl	x9, x8, #8
Lh3q_BB76_158:
	mov	x17, xzr
	mov	x0, xzr
	mov	x25, xzr
	mov	x24, xzr
	mov	x8, xzr
	mov	x26, xzr
	lsr	x19, x9, #8
	and	w13, w9, #0xff
	mov	w9, #1
	cmp	w13, #1
	b.gt	Lh3q_BB76_141
Lh3q_BB76_159:
	cbnz	w13, Lh3q_BB76_162
	cmp	w19, #1
	b.eq	Lh3q_BB76_163
	mov	w9, wzr
	mov	x26, xzr
	mov	x8, xzr
	mov	x24, xzr
	mov	x25, xzr
	mov	x0, xzr
	mov	x17, xzr
	b	Lh3q_BB76_172
Lh3q_BB76_162:
	tbz	w9, #0, Lh3q_BB76_166
Lh3q_BB76_163:
	movi.2d	v0, #0000000000000000
	ldr	x8, [sp, #24]
	strb	wzr, [x8]
	strh	wzr, [x8, #8]
	stp	q0, q0, [x8, #16]
	str	q0, [x8, #48]
	b	Lh3q_BB76_173
Lh3q_BB76_164:
	ldrb	w8, [sp, #225]
	lsl	x9, x8, #8
Lh3q_BB76_165:
	mov	x17, xzr
	mov	x0, xzr
	mov	x25, xzr
	mov	x24, xzr
	mov	x8, xzr
	mov	x26, xzr
	lsr	x19, x9, #8
	and	w13, w9, #0xff
	mov	w9, #1
	cmp	w13, #1
	b.gt	Lh3q_BB76_141
	b	Lh3q_BB76_159
Lh3q_BB76_166:
	and	x9, x26, #0xff
	cmp	x9, #5
	b.ne	Lh3q_BB76_174
Lh3q_BB76_167:
	mov	w19, wzr
	mov	x26, xzr
	mov	x8, xzr
	mov	x24, xzr
	mov	x25, xzr
	mov	x0, xzr
	mov	x17, xzr
	mov	w9, #11
	b	Lh3q_BB76_172
Lh3q_BB76_168:
	lsr	x14, x23, #8
	mov	w11, wzr
	mov	x25, xzr
	mov	x0, xzr
	mov	w19, wzr
	mov	x8, xzr
	mov	w10, wzr
	mov	w12, wzr
	mov	w13, wzr
	mov	x17, xzr
	mov	w9, #4
	b	Lh3q_BB76_151
Lh3q_BB76_169:
	mov	w23, #2
Lh3q_BB76_170:
	mov	w11, wzr
	mov	x25, xzr
	mov	x0, xzr
	mov	w19, wzr
	mov	w10, wzr
	mov	w12, wzr
	mov	w13, wzr
	mov	x17, xzr
	mov	w9, #3
	bfc	x23, #8, #56
Lh3q_BB76_171:
	lsl	x11, x11, #48
	mov	w10, w10
	mov	x26, x23
	orr	x11, x11, x13, lsl #40
	orr	x11, x11, x12, lsl #32
	orr	x24, x11, x10
Lh3q_BB76_172:
	ldr	x11, [sp, #24]
	mov	w10, #1
	strb	w9, [x11, #8]
	strb	w10, [x11]
	strb	w19, [x11, #9]
	stp	x26, x8, [x11, #16]
	stp	x24, x25, [x11, #32]
	stp	x0, x17, [x11, #48]
Lh3q_BB76_173:
	ldp	x29, x30, [sp, #464]
	ldp	x20, x19, [sp, #448]
	ldp	x22, x21, [sp, #432]
	ldp	x24, x23, [sp, #416]
	ldp	x26, x25, [sp, #400]
	ldp	x28, x27, [sp, #384]
	add	sp, sp, #480
	ret
Lh3q_BB76_174:
	mov	w19, wzr
	mov	w9, #1
	b	Lh3q_BB76_172
Lh3q_BB76_175:
	mov	x23, x24
	mov	x24, xzr
	b	Lh3q_BB76_177
Lh3q_BB76_176:
	mov	w24, #2
Lh3q_BB76_177:
	cbz	x17, Lh3q_BB76_179
	mov	x0, x25
	bl	_rattle_dealloc
Lh3q_BB76_179:
	mov	w9, #3
	b	Lh3q_BB76_149
Lh3q_BB76_180:
	cbz	x17, Lh3q_BB76_182
	mov	x0, x25
	bl	_rattle_dealloc
Lh3q_BB76_182:
	mov	x23, xzr
	mov	w9, #4
	b	Lh3q_BB76_149
	.loh AdrpAdd	Lh3q_loh72, Lh3q_loh73
	.loh AdrpAdd	Lh3q_loh70, Lh3q_loh71
	.loh AdrpAdd	Lh3q_loh68, Lh3q_loh69
	.loh AdrpAdd	Lh3q_loh66, Lh3q_loh67

	.p2align	2
"_qpack_base::prefix_string::decode_within::<#94025a41bde9419f>":
	sub	sp, sp, #352
	ldr	x8, [x3, #8]
	stp	x20, x19, [sp, #320]
	mov	x19, x0
	stp	x28, x27, [sp, #256]
	stp	x26, x25, [sp, #272]
	stp	x24, x23, [sp, #288]
	stp	x22, x21, [sp, #304]
	stp	x29, x30, [sp, #336]
	add	x29, sp, #336
	stp	xzr, xzr, [sp, #48]
	stp	xzr, xzr, [sp, #144]
	cbz	x8, Lh3q_BB77_7
	sub	w21, w1, #1
	ldr	x9, [x3]
	mov	w10, #1
	lsl	x10, x10, x21
	ldr	x11, [x3, #16]
	sub	x8, x8, #1
	ldrb	w23, [x9], #1
	mov	x20, x4
	sub	w12, w10, #1
	sub	x22, x10, #1
	stp	x9, x8, [x3]
	and	w28, w23, w12
	add	x8, x11, #1
	cmp	x22, x28
	str	x8, [x3, #16]
	b.hi	Lh3q_BB77_5
	add	x0, sp, #144
	mov	x1, x3
	mov	x24, x2
	mov	x25, x3
	bl	"_qpack_base::prefix_int::read_groups"
	ldrb	w8, [sp, #144]
	cbz	w8, Lh3q_BB77_4
	ldrb	w8, [sp, #145]
	cmp	w8, #1
	cset	w8, ne
	b	Lh3q_BB77_7
Lh3q_BB77_4:
	ldr	x8, [sp, #152]
	mov	x2, x24
	mov	x3, x25
	add	x28, x8, x22
Lh3q_BB77_5:
	ldr	x8, [x3, #8]
	subs	x8, x8, x28
	b.hs	Lh3q_BB77_8
	mov	x8, xzr
Lh3q_BB77_7:
	stp	xzr, xzr, [sp, #32]
	mov	w9, #1
	ldr	q0, [sp, #32]
	stp	x9, x8, [x19]
	stp	xzr, xzr, [x19, #16]
	str	q0, [x19, #32]
	str	xzr, [x19, #48]
	b	Lh3q_BB77_69
Lh3q_BB77_8:
	ldr	x22, [x3]
	ldr	x9, [x3, #16]
	stp	xzr, xzr, [sp, #32]
	stp	xzr, xzr, [sp, #64]
	add	x10, x22, x28
	add	x9, x9, x28
	stp	x10, x8, [x3]
	str	x9, [x3, #16]
	cbz	x28, Lh3q_BB77_17
	lsr	w8, w23, w21
	tbz	w8, #0, Lh3q_BB77_19
	mov	x8, #-3689348814741910324
	ldr	x24, [x20, #8]
	stp	xzr, xzr, [sp, #112]
	movk	x8, #52429
	stp	xzr, xzr, [sp, #96]
	umulh	x8, x28, x8
	stp	xzr, xzr, [sp, #80]
	lsl	x8, x8, #1
	orr	x1, x8, #0x6
	cmp	x1, x2
	b.ls	Lh3q_BB77_21
	movi.2d	v0, #0000000000000000
	add	x0, sp, #144
	sub	x1, x29, #128
	mov	x21, x2
	str	xzr, [sp, #192]
	stp	xzr, xzr, [x29, #-112]
	stp	x22, x28, [x29, #-128]
	stp	q0, q0, [sp, #160]
	str	q0, [sp, #144]
	stur	x28, [x29, #-96]
	bl	"_qpack_base::prefix_string::decoding::DecodeIterIterator::next"
	ldrb	w8, [sp, #144]
	cmp	w8, #1
	b.ne	Lh3q_BB77_24
	mov	x23, xzr
Lh3q_BB77_13:
	ldrb	w8, [sp, #152]
	cbnz	w8, Lh3q_BB77_29
	add	x0, sp, #144
	sub	x1, x29, #128
	add	x23, x23, #1
	bl	"_qpack_base::prefix_string::decoding::DecodeIterIterator::next"
	ldrb	w8, [sp, #144]
	cmp	w8, #1
	b.eq	Lh3q_BB77_13
	cmp	x23, x21
	b.ls	Lh3q_BB77_70
Lh3q_BB77_16:
	mov	x9, xzr
	mov	x11, xzr
	mov	w10, wzr
	mov	x8, xzr
	stp	xzr, xzr, [sp, #64]
	b	Lh3q_BB77_67
Lh3q_BB77_17:
	mov	x9, xzr
	mov	x11, xzr
	mov	x23, xzr
Lh3q_BB77_18:
	mov	x10, xzr
	mov	x8, xzr
	stp	xzr, xzr, [sp, #48]
	b	Lh3q_BB77_68
Lh3q_BB77_19:
	mov	x0, x22
	mov	x1, x28
	mov	x3, x20
	bl	"_qpack_base::coding::append_within::<#94025a41bde9419f>"
	tst	w0, #0xff
	b.eq	Lh3q_BB77_28
	mov	x9, xzr
	mov	x10, xzr
	mov	x8, xzr
	stp	xzr, xzr, [sp, #48]
	mov	w23, #5
	mov	w11, #1
	b	Lh3q_BB77_68
Lh3q_BB77_21:
	ldr	x9, [x20, #16]
	subs	x8, x9, x24
	csel	x8, xzr, x8, lo
	cmp	x1, x8
	mov	x8, x24
	b.ls	Lh3q_BB77_31
	mov	x0, x20
	bl	"_qpack_base::coding::grow_within::<#c4fa8bf778226c0a>"
	and	w8, w0, #0xff
	tbz	w8, #0, Lh3q_BB77_30
Lh3q_BB77_23:
	mov	x9, xzr
	mov	w10, wzr
	mov	x8, xzr
	mov	w23, #5
	stp	xzr, xzr, [sp, #64]
	b	Lh3q_BB77_66
Lh3q_BB77_24:
	mov	x23, xzr
Lh3q_BB77_25:
	movi.2d	v0, #0000000000000000
	str	xzr, [sp, #192]
	stp	x22, x28, [x29, #-128]
	stp	xzr, xzr, [x29, #-112]
	stur	x28, [x29, #-96]
	stp	q0, q0, [sp, #160]
	str	q0, [sp, #144]
	add	x0, sp, #144
	sub	x1, x29, #128
	bl	"_qpack_base::prefix_string::decoding::DecodeIterIterator::next"
	ldrb	w8, [sp, #144]
	cmp	w8, #1
	b.ne	Lh3q_BB77_16
Lh3q_BB77_26:
	ldrb	w8, [sp, #152]
	ldr	x9, [x20, #8]
	cbnz	w8, Lh3q_BB77_62
	ldr	x8, [x20]
	ldrb	w10, [sp, #153]
	add	x11, x9, #1
	strb	w10, [x8, x9]
	str	x11, [x20, #8]
	add	x0, sp, #144
	sub	x1, x29, #128
	bl	"_qpack_base::prefix_string::decoding::DecodeIterIterator::next"
	ldrb	w8, [sp, #144]
	cmp	w8, #1
	b.eq	Lh3q_BB77_26
	b	Lh3q_BB77_16
Lh3q_BB77_28:
	mov	x23, x1
	mov	x9, xzr
	mov	x11, xzr
	b	Lh3q_BB77_18
Lh3q_BB77_29:
	ldr	q0, [sp, #176]
	ldr	x8, [sp, #192]
	ldrb	w10, [sp, #160]
	ldr	x9, [sp, #168]
	str	q0, [sp, #96]
	b	Lh3q_BB77_65
Lh3q_BB77_30:
	ldp	x8, x9, [x20, #8]
Lh3q_BB77_31:
	ldr	x25, [x20]
	mov	x26, xzr
	mov	w23, wzr
	mov	x27, x8
	mov	x21, x28
	stp	x24, x9, [sp, #16]
	stp	xzr, xzr, [sp, #128]
	str	x8, [sp, #8]
	b	Lh3q_BB77_34
Lh3q_BB77_32:
	ldrb	w9, [x9]
Lh3q_BB77_33:
	orr	x8, x9, x8, lsl #32
	strb	w8, [x25, x27]
	add	x27, x27, #1
	lsr	x9, x8, #32
	lsl	x26, x26, x9
	sub	w23, w23, w9
Lh3q_BB77_34:
	cmp	w23, #31
	b.hi	Lh3q_BB77_43
	cbz	x21, Lh3q_BB77_41
	subs	x8, x21, #4
	b.hs	Lh3q_BB77_42
	ldrb	w8, [x22]
	cmp	x21, #1
	lsl	x8, x8, #56
	lsr	x8, x8, x23
	add	x26, x8, x26
	b.eq	Lh3q_BB77_40
	ldrb	w8, [x22, #1]
	add	w9, w23, #8
	cmp	x21, #2
	lsl	x8, x8, #56
	lsr	x8, x8, x9
	add	x26, x8, x26
	b.eq	Lh3q_BB77_40
	ldrb	w8, [x22, #2]
	add	w9, w23, #16
	lsl	x8, x8, #56
	lsr	x8, x8, x9
	add	x26, x8, x26
Lh3q_BB77_40:
	add	w23, w23, w21, lsl #3
	add	x22, x22, x21
Lh3q_BB77_41:
	cmp	w23, #12
	mov	x21, xzr
	b.hs	Lh3q_BB77_43
	b	Lh3q_BB77_44
Lh3q_BB77_42:
	ldr	w9, [x22], #4
	mov	x21, x8
	rev	w9, w9
	lsl	x9, x9, #32
	lsr	x9, x9, x23
	orr	w23, w23, #0x20
	add	x26, x9, x26
Lh3q_BB77_43:
	lsr	x8, x26, #50
	and	x9, x8, #0x3ffc
Lh3q_loh74:
	adrp	x8, l_static.7@PAGE
Lh3q_loh75:
	add	x8, x8, l_static.7@PAGEOFF
	ldr	w10, [x8, x9]
	and	x9, x10, #0xff
	cmp	w9, #12
	b.ls	Lh3q_BB77_48
Lh3q_BB77_44:
	lsr	x8, x26, #56
Lh3q_loh76:
	adrp	x9, l_static.4@PAGE
Lh3q_loh77:
	add	x9, x9, l_static.4@PAGEOFF
	add	x9, x9, x8, lsl #1
	ldrb	w8, [x9, #1]
	cmp	w23, w8
	b.hs	Lh3q_BB77_32
	lsr	x8, x26, #1
	mvn	w9, w23
	cmp	w23, #8
	lsr	x24, x8, x9
	b.lo	Lh3q_BB77_51
	mov	x0, x24
	mov	w1, w23
	bl	"_qpack_base::prefix_string::decoding::long_code"
	lsr	w8, w0, #8
	cmp	w23, w8
	b.lo	Lh3q_BB77_54
	mov	w9, w0
	b	Lh3q_BB77_33
Lh3q_BB77_48:
	lsr	x11, x10, #8
	add	x14, x27, #2
	lsr	w12, w10, #16
	lsr	w10, w10, #24
	sub	w23, w23, w9
	lsl	x26, x26, x9
	add	x11, x27, w11, uxtb
	add	x13, x25, x27
	strb	w12, [x13]
	cmp	x14, x11
	strb	w10, [x13, #1]
	csel	x27, x14, x11, lo
	cmp	w23, #12
	b.lo	Lh3q_BB77_34
	lsr	x9, x26, #50
	and	x9, x9, #0x3ffc
	ldr	w9, [x8, x9]
	and	x8, x9, #0xff
	cmp	w8, #12
	b.hi	Lh3q_BB77_34
	lsr	x10, x9, #8
	lsr	w11, w9, #16
	lsr	w9, w9, #24
	add	x13, x27, #2
	add	x12, x25, x27
	lsl	x26, x26, x8
	add	x10, x27, w10, uxtb
	strb	w11, [x12]
	sub	w23, w23, w8
	strb	w9, [x12, #1]
	cmp	x13, x10
	csel	x27, x13, x10, lo
	b	Lh3q_BB77_34
Lh3q_BB77_51:
	ldr	x8, [sp, #24]
	stp	x25, x27, [x20]
	str	x8, [x20, #16]
	cbnz	x21, Lh3q_BB77_55
	mov	x8, #-1
	lsl	x8, x8, x23
	eor	x8, x24, x8
	cmn	x8, #1
	b.eq	Lh3q_BB77_58
	mov	x21, xzr
	b	Lh3q_BB77_55
Lh3q_BB77_54:
	ldr	x8, [sp, #24]
	stp	x25, x27, [x20]
	str	x8, [x20, #16]
Lh3q_BB77_55:
	movi.2d	v0, #0000000000000000
	str	xzr, [sp, #192]
	stp	x22, x21, [x29, #-128]
	stur	x24, [x29, #-112]
	stp	w23, wzr, [x29, #-104]
	stp	q0, q0, [sp, #160]
	str	q0, [sp, #144]
	stur	x28, [x29, #-96]
	add	x0, sp, #144
	sub	x1, x29, #128
	bl	"_qpack_base::prefix_string::decoding::DecodeIterIterator::next"
	ldrb	w8, [sp, #144]
	cmp	w8, #1
	b.ne	Lh3q_BB77_58
Lh3q_BB77_56:
	ldrb	w8, [sp, #152]
	cbnz	w8, Lh3q_BB77_59
	ldr	x8, [x20]
	ldrb	w9, [sp, #153]
	strb	w9, [x8, x27]
	add	x27, x27, #1
	str	x27, [x20, #8]
	add	x0, sp, #144
	sub	x1, x29, #128
	bl	"_qpack_base::prefix_string::decoding::DecodeIterIterator::next"
	ldrb	w8, [sp, #144]
	cmp	w8, #1
	b.eq	Lh3q_BB77_56
Lh3q_BB77_58:
	ldr	x12, [sp, #16]
	mov	x9, xzr
	mov	x11, xzr
	mov	w10, wzr
	mov	x8, xzr
	stp	xzr, xzr, [sp, #64]
	sub	x23, x27, x12
	b	Lh3q_BB77_67
Lh3q_BB77_59:
	ldr	x9, [sp, #8]
	ldr	x8, [sp, #192]
	ldrb	w10, [sp, #160]
	cmp	x27, x9
	b.ls	Lh3q_BB77_61
	str	x9, [x20, #8]
Lh3q_BB77_61:
	ldr	q0, [sp, #176]
	ldr	x9, [sp, #168]
	str	q0, [sp, #112]
	b	Lh3q_BB77_65
Lh3q_BB77_62:
	ldr	x8, [sp, #192]
	ldrb	w10, [sp, #160]
	cmp	x9, x24
	b.ls	Lh3q_BB77_64
	str	x24, [x20, #8]
Lh3q_BB77_64:
	ldr	q0, [sp, #176]
	ldr	x9, [sp, #168]
	str	q0, [sp, #80]
Lh3q_BB77_65:
	str	q0, [sp, #64]
	mov	w23, #2
Lh3q_BB77_66:
	mov	w11, #1
Lh3q_BB77_67:
	ldr	q0, [sp, #64]
	mov	w10, w10
	str	q0, [sp, #48]
Lh3q_BB77_68:
	ldr	q0, [sp, #48]
	stp	x11, x23, [x19]
	stp	x10, x9, [x19, #16]
	str	q0, [x19, #32]
	str	x8, [x19, #48]
Lh3q_BB77_69:
	ldp	x29, x30, [sp, #336]
	ldp	x20, x19, [sp, #320]
	ldp	x22, x21, [sp, #304]
	ldp	x24, x23, [sp, #288]
	ldp	x26, x25, [sp, #272]
	ldp	x28, x27, [sp, #256]
	add	sp, sp, #352
	ret
Lh3q_BB77_70:
	ldr	x8, [x20, #16]
	subs	x8, x8, x24
	csel	x8, xzr, x8, lo
	cmp	x23, x8
	b.ls	Lh3q_BB77_25
	mov	x2, x21
	mov	x0, x20
	mov	x1, x23
	bl	"_qpack_base::coding::grow_within::<#c4fa8bf778226c0a>"
	and	w8, w0, #0xff
	tbnz	w8, #0, Lh3q_BB77_23
	b	Lh3q_BB77_25
	.loh AdrpAdd	Lh3q_loh74, Lh3q_loh75
	.loh AdrpAdd	Lh3q_loh76, Lh3q_loh77

	.p2align	2
"_qpack_base::coding::append_within::<#94025a41bde9419f>":
	cmp	x2, x1
	b.hs	Lh3q_BB78_2
	mov	w0, wzr
	ret
Lh3q_BB78_2:
	stp	x22, x21, [sp, #-48]!
	ldp	x9, x8, [x3, #8]
	stp	x20, x19, [sp, #16]
	stp	x29, x30, [sp, #32]
	add	x29, sp, #32
	subs	x10, x8, x9
	csel	x10, xzr, x10, lo
	cmp	x1, x10
	b.ls	Lh3q_BB78_6
	mov	x19, x0
	mov	x0, x3
	mov	x21, x3
	mov	x20, x1
	bl	"_qpack_base::coding::grow_within::<#c4fa8bf778226c0a>"
	and	w8, w0, #0xff
	tbz	w8, #0, Lh3q_BB78_5
	mov	x1, xzr
	mov	w0, #1
	ldp	x29, x30, [sp, #32]
	ldp	x20, x19, [sp, #16]
	ldp	x22, x21, [sp], #48
	ret
Lh3q_BB78_5:
	ldp	x9, x8, [x21, #8]
	mov	x3, x21
	mov	x1, x20
	mov	x0, x19
Lh3q_BB78_6:
	ldr	x10, [x3]
	cmp	x1, #8
	b.hs	Lh3q_BB78_8
	mov	x11, x1
	subs	x12, x1, #4
	b.hs	Lh3q_BB78_13
	b	Lh3q_BB78_14
Lh3q_BB78_8:
	mov	x12, xzr
	add	x13, x10, x9
	mov	x11, x1
Lh3q_BB78_9:
	sub	x14, x11, #8
	cmp	x14, #7
	b.ls	Lh3q_BB78_12
	sub	x11, x11, #16
	ldr	q0, [x0, x12]
	cmp	x11, #7
	str	q0, [x13, x12]
	add	x12, x12, #16
	b.hi	Lh3q_BB78_9
	add	x0, x0, x12
	add	x9, x9, x12
	subs	x12, x11, #4
	b.hs	Lh3q_BB78_13
	b	Lh3q_BB78_14
Lh3q_BB78_12:
	add	x0, x0, x12
	add	x9, x9, x12
	ldr	x11, [x0], #8
	str	x11, [x9, x10]
	add	x9, x9, #8
	mov	x11, x14
	subs	x12, x14, #4
	b.lo	Lh3q_BB78_14
Lh3q_BB78_13:
	ldr	w11, [x0], #4
	str	w11, [x10, x9]
	add	x9, x9, #4
	mov	x11, x12
Lh3q_BB78_14:
	subs	x12, x11, #2
	b.hs	Lh3q_BB78_18
	cbz	x11, Lh3q_BB78_17
Lh3q_BB78_16:
	ldrb	w11, [x0]
	strb	w11, [x10, x9]
	add	x9, x9, #1
Lh3q_BB78_17:
	mov	w0, wzr
	stp	x10, x9, [x3]
	str	x8, [x3, #16]
	ldp	x29, x30, [sp, #32]
	ldp	x20, x19, [sp, #16]
	ldp	x22, x21, [sp], #48
	ret
Lh3q_BB78_18:
	ldrh	w11, [x0], #2
	strh	w11, [x10, x9]
	add	x9, x9, #2
	cbnz	x12, Lh3q_BB78_16
	b	Lh3q_BB78_17

	.p2align	2
"_qpack_base::coding::grow_within::<#c4fa8bf778226c0a>":
	mov	x8, x1
	ldp	x1, x9, [x0, #8]
	mov	w12, #4
	subs	x10, x9, x1
	csel	x11, xzr, x10, lo
	adds	x11, x11, x9, lsr #1
	csinv	x11, x11, xzr, lo
	cmp	x11, #4
	csel	x11, x11, x12, hi
	cmp	x2, x11
	csel	x11, x2, x11, lo
	cmp	x8, x11
	csel	x8, x8, x11, hi
	cmp	x8, x10
	b.ls	Lh3q_BB79_3
	cmn	x1, x8
	b.lo	Lh3q_BB79_4
	mov	w0, #1
	ret
Lh3q_BB79_3:
	mov	w0, wzr
	ret
Lh3q_BB79_4:
	stp	x22, x21, [sp, #-48]!
	stp	x20, x19, [sp, #16]
	adds	x19, x8, x1
	stp	x29, x30, [sp, #32]
	add	x29, sp, #32
	b.mi	Lh3q_BB79_8
	cbz	x9, Lh3q_BB79_9
	mov	x20, x0
	ldr	x0, [x0]
	mov	x2, x19
	mov	w3, #1
	bl	_rattle_realloc
	mov	x8, x0
	mov	w0, #1
	tbnz	w8, #0, Lh3q_BB79_10
Lh3q_BB79_7:
	ldp	x29, x30, [sp, #32]
	ldp	x20, x19, [sp, #16]
	ldp	x22, x21, [sp], #48
	ret
Lh3q_BB79_8:
	mov	w0, #1
	ldp	x29, x30, [sp, #32]
	ldp	x20, x19, [sp, #16]
	ldp	x22, x21, [sp], #48
	ret
Lh3q_BB79_9:
	mov	x20, x0
	mov	x0, x19
	mov	w1, #1
	mov	w21, #1
	bl	_rattle_alloc
	mov	x8, x0
	mov	w0, w21
	tbz	w8, #0, Lh3q_BB79_7
Lh3q_BB79_10:
	mov	w0, wzr
	str	x1, [x20]
	str	x19, [x20, #16]
	ldp	x29, x30, [sp, #32]
	ldp	x20, x19, [sp, #16]
	ldp	x22, x21, [sp], #48
	ret

	.p2align	2
"_qpack_base::coding::append_within::<#3b617f7ce96065ff>":
	cmp	x2, x1
	b.hs	Lh3q_BB80_2
	mov	w0, wzr
	ret
Lh3q_BB80_2:
	stp	x22, x21, [sp, #-48]!
	ldp	x9, x8, [x3, #8]
	stp	x20, x19, [sp, #16]
	stp	x29, x30, [sp, #32]
	add	x29, sp, #32
	subs	x10, x8, x9
	csel	x10, xzr, x10, lo
	cmp	x1, x10
	b.ls	Lh3q_BB80_6
	mov	x19, x0
	mov	x0, x3
	mov	x21, x3
	mov	x20, x1
	bl	"_qpack_base::coding::grow_within::<#9189f88b91b46282>"
	and	w8, w0, #0xff
	tbz	w8, #0, Lh3q_BB80_5
	mov	w0, #1
	ldp	x29, x30, [sp, #32]
	ldp	x20, x19, [sp, #16]
	ldp	x22, x21, [sp], #48
	ret
Lh3q_BB80_5:
	ldp	x9, x8, [x21, #8]
	mov	x3, x21
	mov	x0, x19
	mov	x1, x20
Lh3q_BB80_6:
	ldr	x10, [x3]
	cmp	x1, #8
	b.hs	Lh3q_BB80_12
	subs	x11, x1, #4
	b.hs	Lh3q_BB80_17
Lh3q_BB80_8:
	subs	x11, x1, #2
	b.hs	Lh3q_BB80_18
Lh3q_BB80_9:
	cbz	x1, Lh3q_BB80_11
Lh3q_BB80_10:
	ldrb	w11, [x0]
	strb	w11, [x10, x9]
	add	x9, x9, #1
Lh3q_BB80_11:
	mov	w0, wzr
	stp	x10, x9, [x3]
	str	x8, [x3, #16]
	ldp	x29, x30, [sp, #32]
	ldp	x20, x19, [sp, #16]
	ldp	x22, x21, [sp], #48
	ret
Lh3q_BB80_12:
	mov	x11, xzr
	add	x12, x10, x9
Lh3q_BB80_13:
	sub	x13, x1, #8
	cmp	x13, #7
	b.ls	Lh3q_BB80_16
	sub	x1, x1, #16
	ldr	q0, [x0, x11]
	cmp	x1, #7
	str	q0, [x12, x11]
	add	x11, x11, #16
	b.hi	Lh3q_BB80_13
	add	x0, x0, x11
	add	x9, x9, x11
	subs	x11, x1, #4
	b.lo	Lh3q_BB80_8
	b	Lh3q_BB80_17
Lh3q_BB80_16:
	add	x0, x0, x11
	add	x9, x9, x11
	mov	x1, x13
	ldr	x12, [x0], #8
	str	x12, [x9, x10]
	add	x9, x9, #8
	subs	x11, x13, #4
	b.lo	Lh3q_BB80_8
Lh3q_BB80_17:
	ldr	w12, [x0], #4
	mov	x1, x11
	str	w12, [x10, x9]
	add	x9, x9, #4
	subs	x11, x11, #2
	b.lo	Lh3q_BB80_9
Lh3q_BB80_18:
	ldrh	w12, [x0], #2
	strh	w12, [x10, x9]
	add	x9, x9, #2
	cbnz	x11, Lh3q_BB80_10
	b	Lh3q_BB80_11

	.p2align	2
"_qpack_base::coding::grow_within::<#9189f88b91b46282>":
	mov	x8, x1
	ldp	x1, x9, [x0, #8]
	mov	w12, #4
	subs	x10, x9, x1
	csel	x11, xzr, x10, lo
	adds	x11, x11, x9, lsr #1
	csinv	x11, x11, xzr, lo
	cmp	x11, #4
	csel	x11, x11, x12, hi
	cmp	x2, x11
	csel	x11, x2, x11, lo
	cmp	x8, x11
	csel	x8, x8, x11, hi
	cmp	x8, x10
	b.ls	Lh3q_BB81_3
	cmn	x1, x8
	b.lo	Lh3q_BB81_4
	mov	w0, #1
	ret
Lh3q_BB81_3:
	mov	w0, wzr
	ret
Lh3q_BB81_4:
	stp	x22, x21, [sp, #-48]!
	stp	x20, x19, [sp, #16]
	adds	x19, x8, x1
	stp	x29, x30, [sp, #32]
	add	x29, sp, #32
	b.mi	Lh3q_BB81_8
	cbz	x9, Lh3q_BB81_9
	mov	x20, x0
	ldr	x0, [x0]
	mov	x2, x19
	mov	w3, #1
	bl	_rattle_realloc
	mov	x8, x0
	mov	w0, #1
	tbnz	w8, #0, Lh3q_BB81_10
Lh3q_BB81_7:
	ldp	x29, x30, [sp, #32]
	ldp	x20, x19, [sp, #16]
	ldp	x22, x21, [sp], #48
	ret
Lh3q_BB81_8:
	mov	w0, #1
	ldp	x29, x30, [sp, #32]
	ldp	x20, x19, [sp, #16]
	ldp	x22, x21, [sp], #48
	ret
Lh3q_BB81_9:
	mov	x20, x0
	mov	x0, x19
	mov	w1, #1
	mov	w21, #1
	bl	_rattle_alloc
	mov	x8, x0
	mov	w0, w21
	tbz	w8, #0, Lh3q_BB81_7
Lh3q_BB81_10:
	mov	w0, wzr
	str	x1, [x20]
	str	x19, [x20, #16]
	ldp	x29, x30, [sp, #32]
	ldp	x20, x19, [sp, #16]
	ldp	x22, x21, [sp], #48
	ret

	.p2align	2
"_qpack_codec::decoder::instructions::insert::<#78d66cfad5c8051d>":
	sub	sp, sp, #112
	stp	x24, x23, [sp, #48]
	ldr	x8, [x1, #64]
	ldr	x23, [x2, #16]
	stp	x22, x21, [sp, #64]
	ldr	x21, [x2]
	stp	x20, x19, [sp, #80]
	mov	x19, x0
	stp	x28, x27, [sp, #16]
	stp	x26, x25, [sp, #32]
	stp	x29, x30, [sp, #96]
	add	x29, sp, #96
	cbz	x8, Lh3q_BB82_16
	ldrb	w24, [x2, #28]
	ldr	w26, [x2, #24]
	mov	x20, x1
	ldr	x12, [x2, #8]
	ldrb	w25, [x2, #29]
	cmp	w24, #1
	mov	x9, x26
	b.ne	Lh3q_BB82_6
	cmp	w25, #24
	b.hi	Lh3q_BB82_4
Lh3q_loh78:
	adrp	x9, l_static.0@PAGE
Lh3q_loh79:
	add	x9, x9, l_static.0@PAGEOFF
	add	x9, x9, x25, lsl #5
	add	x9, x9, #8
	b	Lh3q_BB82_5
Lh3q_BB82_4:
	lsl	x9, x25, #5
Lh3q_loh80:
	adrp	x10, l_static.3@PAGE
Lh3q_loh81:
	add	x10, x10, l_static.3@PAGEOFF
Lh3q_loh82:
	adrp	x11, l_static.2@PAGE
Lh3q_loh83:
	add	x11, x11, l_static.2@PAGEOFF
	cmp	w25, #74
	add	x10, x10, x9
	add	x9, x11, x9
Lh3q_loh84:
	adrp	x11, l_static.1@PAGE
Lh3q_loh85:
	add	x11, x11, l_static.1@PAGEOFF
	sub	x10, x10, #2392
	sub	x9, x9, #1592
	add	x11, x11, x25, lsl #5
	csel	x9, x10, x9, hi
	cmp	w25, #49
	sub	x10, x11, #792
	csel	x9, x9, x10, hi
Lh3q_BB82_5:
	ldr	x9, [x9]
Lh3q_BB82_6:
	sub	x28, x12, x26
	adds	x9, x28, x9
	csinv	x9, x9, xzr, lo
	adds	x9, x9, #32
	csinv	x9, x9, xzr, lo
	subs	x1, x8, x9
	b.hs	Lh3q_BB82_11
	cbz	x23, Lh3q_BB82_9
	mov	x0, x21
	bl	_rattle_dealloc
Lh3q_BB82_9:
	mov	w8, #3
	mov	w9, #3
Lh3q_BB82_10:
	movi.2d	v0, #0000000000000000
	strb	w9, [x19, #8]
	mov	w9, #1
	strb	wzr, [x19, #9]
	str	x8, [x19, #16]
	strb	w9, [x19]
	stur	q0, [x19, #24]
	stur	q0, [x19, #40]
	str	xzr, [x19, #56]
	b	Lh3q_BB82_19
Lh3q_BB82_11:
	ldr	x8, [x20, #40]
	lsr	x8, x8, #62
	cbnz	x8, Lh3q_BB82_16
	mov	x0, x20
	str	x12, [sp, #8]
	bl	"_qpack_table::dynamic::table::DynamicTable::evictable_count::<#78d66cfad5c8051d>"
	and	w8, w0, #0xff
	cmp	w8, #1
	b.ne	Lh3q_BB82_16
	mov	x22, x1
	cmp	w24, #1
	mov	x8, x26
	b.ne	Lh3q_BB82_26
	cmp	w25, #24
	b.hi	Lh3q_BB82_20
Lh3q_loh86:
	adrp	x8, l_static.0@PAGE
Lh3q_loh87:
	add	x8, x8, l_static.0@PAGEOFF
	add	x8, x8, x25, lsl #5
	add	x8, x8, #8
	b	Lh3q_BB82_25
Lh3q_BB82_16:
	cbz	x23, Lh3q_BB82_18
	mov	x0, x21
	bl	_rattle_dealloc
Lh3q_BB82_18:
	movi.2d	v0, #0000000000000000
	strb	wzr, [x19]
	strh	wzr, [x19, #8]
	stp	q0, q0, [x19, #16]
	str	q0, [x19, #48]
Lh3q_BB82_19:
	ldp	x29, x30, [sp, #96]
	ldp	x20, x19, [sp, #80]
	ldp	x22, x21, [sp, #64]
	ldp	x24, x23, [sp, #48]
	ldp	x26, x25, [sp, #32]
	ldp	x28, x27, [sp, #16]
	add	sp, sp, #112
	ret
Lh3q_BB82_20:
	cmp	w25, #49
	b.hi	Lh3q_BB82_22
Lh3q_loh88:
	adrp	x8, l_static.1@PAGE
Lh3q_loh89:
	add	x8, x8, l_static.1@PAGEOFF
	add	x8, x8, x25, lsl #5
	sub	x8, x8, #792
	b	Lh3q_BB82_25
Lh3q_BB82_22:
	lsl	x8, x25, #5
	cmp	w25, #74
	b.hi	Lh3q_BB82_24
Lh3q_loh90:
	adrp	x9, l_static.2@PAGE
Lh3q_loh91:
	add	x9, x9, l_static.2@PAGEOFF
	add	x8, x9, x8
	sub	x8, x8, #1592
	b	Lh3q_BB82_25
Lh3q_BB82_24:
Lh3q_loh92:
	adrp	x9, l_static.3@PAGE
Lh3q_loh93:
	add	x9, x9, l_static.3@PAGEOFF
	add	x8, x9, x8
	sub	x8, x8, #2392
Lh3q_BB82_25:
	ldr	x8, [x8]
Lh3q_BB82_26:
	adds	x8, x28, x8
	ldp	x9, x10, [x20, #8]
	csinv	x8, x8, xzr, lo
	adds	x8, x8, #32
	csinv	x27, x8, xzr, lo
	cmp	x9, x10
	b.lo	Lh3q_BB82_31
	mov	x0, x20
	bl	"_qpack_table::dynamic::growth::grow::<#87cca78d895f04c8>"
	tst	w0, #0xff
	b.eq	Lh3q_BB82_31
	cbz	x23, Lh3q_BB82_30
	mov	x0, x21
	bl	_rattle_dealloc
Lh3q_BB82_30:
	mov	x8, xzr
	mov	w9, #11
	b	Lh3q_BB82_10
Lh3q_BB82_31:
	mov	x28, xzr
	str	x27, [sp]
	cbnz	x22, Lh3q_BB82_35
Lh3q_BB82_32:
	ldr	x8, [sp]
	ldp	x11, x9, [x20, #24]
	ldr	x10, [x20, #56]
	ldr	x14, [x20, #40]
	sub	x12, x8, x28
	ldp	x8, x13, [x20, #8]
	add	x15, x12, x10
	ldr	x10, [x20]
	str	x15, [x20, #56]
	sub	x12, x8, x9
	sub	x13, x13, x11
	cmp	x12, x13
	add	x13, x14, #1
	str	x13, [x20, #40]
	b.hs	Lh3q_BB82_43
	add	x9, x11, x12
	mov	w11, #48
	madd	x9, x9, x11, x10
	ldr	x10, [sp, #8]
	stp	x21, x10, [x9]
	str	x23, [x9, #16]
	str	w26, [x9, #24]
	strb	w24, [x9, #28]
	strb	w25, [x9, #29]
	stur	xzr, [x9, #38]
	stur	xzr, [x9, #30]
	strh	wzr, [x9, #46]
	b	Lh3q_BB82_44
Lh3q_BB82_34:
	subs	x22, x22, #1
	add	x28, x27, x28
	b.eq	Lh3q_BB82_32
Lh3q_BB82_35:
	ldr	x8, [x20, #8]
	cbz	x8, Lh3q_BB82_32
	ldr	x9, [x20, #32]
	cmp	x9, x8
	b.ne	Lh3q_BB82_38
	mov	x9, xzr
	str	xzr, [x20, #32]
	b	Lh3q_BB82_39
Lh3q_BB82_38:
	ldr	x9, [x20, #24]
Lh3q_BB82_39:
	mov	w10, #48
	ldr	x11, [x20]
	sub	x8, x8, #1
	madd	x11, x9, x10, x11
	add	x9, x9, #1
	str	x8, [x20, #8]
	str	x9, [x20, #24]
	ldrb	w12, [x11, #28]
	ldr	w9, [x11, #24]
	ldr	x8, [x11, #16]
	ldp	x0, x10, [x11]
	cmp	w12, #1
	mov	x12, x9
	b.ne	Lh3q_BB82_41
	ldrb	w11, [x11, #29]
Lh3q_loh94:
	adrp	x13, l_static.3@PAGE
Lh3q_loh95:
	add	x13, x13, l_static.3@PAGEOFF
Lh3q_loh96:
	adrp	x14, l_static.1@PAGE
Lh3q_loh97:
	add	x14, x14, l_static.1@PAGEOFF
Lh3q_loh98:
	adrp	x15, l_static.2@PAGE
Lh3q_loh99:
	add	x15, x15, l_static.2@PAGEOFF
	lsl	x12, x11, #5
	add	x14, x14, x11, lsl #5
	cmp	w11, #74
	add	x13, x13, x12
	add	x12, x15, x12
Lh3q_loh100:
	adrp	x15, l_static.0@PAGE
Lh3q_loh101:
	add	x15, x15, l_static.0@PAGEOFF
	sub	x13, x13, #2392
	sub	x12, x12, #1592
	add	x15, x15, x11, lsl #5
	csel	x12, x13, x12, hi
	sub	x13, x14, #792
	cmp	w11, #49
	csel	x12, x12, x13, hi
	add	x13, x15, #8
	cmp	w11, #24
	csel	x11, x12, x13, hi
	ldr	x12, [x11]
Lh3q_BB82_41:
	sub	x9, x10, x9
	ldr	x10, [x20, #48]
	adds	x9, x9, x12
	csinv	x9, x9, xzr, lo
	add	x10, x10, #1
	adds	x9, x9, #32
	str	x10, [x20, #48]
	csinv	x27, x9, xzr, lo
	cbz	x8, Lh3q_BB82_34
	bl	_rattle_dealloc
	b	Lh3q_BB82_34
Lh3q_BB82_43:
	mov	w11, #48
	madd	x10, x9, x11, x10
	ldr	x11, [sp, #8]
	add	x9, x9, #1
	stp	x21, x11, [x10]
	str	x23, [x10, #16]
	str	w26, [x10, #24]
	strb	w24, [x10, #28]
	strb	w25, [x10, #29]
	stur	xzr, [x10, #38]
	stur	xzr, [x10, #30]
	strh	wzr, [x10, #46]
	str	x9, [x20, #32]
Lh3q_BB82_44:
	add	x8, x8, #1
	str	x8, [x20, #8]
	b	Lh3q_BB82_18
	.loh AdrpAdd	Lh3q_loh78, Lh3q_loh79
	.loh AdrpAdd	Lh3q_loh84, Lh3q_loh85
	.loh AdrpAdd	Lh3q_loh82, Lh3q_loh83
	.loh AdrpAdd	Lh3q_loh80, Lh3q_loh81
	.loh AdrpAdd	Lh3q_loh86, Lh3q_loh87
	.loh AdrpAdd	Lh3q_loh88, Lh3q_loh89
	.loh AdrpAdd	Lh3q_loh90, Lh3q_loh91
	.loh AdrpAdd	Lh3q_loh92, Lh3q_loh93
	.loh AdrpAdd	Lh3q_loh100, Lh3q_loh101
	.loh AdrpAdd	Lh3q_loh98, Lh3q_loh99
	.loh AdrpAdd	Lh3q_loh96, Lh3q_loh97
	.loh AdrpAdd	Lh3q_loh94, Lh3q_loh95

	.p2align	2
"_qpack_table::dynamic::table::DynamicTable::evictable_count::<#78d66cfad5c8051d>":
	ldr	x10, [x0, #8]
	mov	x8, x1
	mov	x1, xzr
	mov	w9, #1
	cbz	x10, Lh3q_BB83_21
	ldr	x11, [x0, #56]
	cmp	x8, x11
	b.hs	Lh3q_BB83_21
	ldr	x9, [x0, #32]
	mov	w12, #48
	mov	x1, xzr
	neg	x15, x10
	mul	x13, x9, x12
	msub	x14, x10, x12, x13
	ldr	x12, [x0]
	sub	x13, x10, x9
	add	x14, x12, x14
Lh3q_BB83_3:
	cmp	x1, x13
	mov	x9, x14
	b.hs	Lh3q_BB83_5
	ldr	x9, [x0, #24]
	mov	w16, #48
	madd	x9, x9, x16, x12
	madd	x9, x1, x16, x9
Lh3q_BB83_5:
	ldr	x16, [x9, #40]
	cbnz	x16, Lh3q_BB83_22
	ldrb	w9, [x9, #32]
	cmp	w9, #1
	b.ne	Lh3q_BB83_8
	ldr	x9, [x0, #40]
	ldr	x16, [x0, #96]
	add	x9, x15, x9
	cmp	x9, x16
	b.hs	Lh3q_BB83_22
Lh3q_BB83_8:
	cmp	x1, x13
	mov	x9, x14
	b.hs	Lh3q_BB83_10
	ldr	x9, [x0, #24]
	mov	w16, #48
	madd	x9, x9, x16, x12
	madd	x9, x1, x16, x9
Lh3q_BB83_10:
	ldrb	w17, [x9, #28]
	ldr	w16, [x9, #24]
	cmp	w17, #1
	mov	x17, x16
	b.ne	Lh3q_BB83_19
	ldrb	w17, [x9, #29]
	cmp	w17, #24
	b.hi	Lh3q_BB83_13
Lh3q_loh102:
	adrp	x2, l_static.0@PAGE
Lh3q_loh103:
	add	x2, x2, l_static.0@PAGEOFF
	add	x17, x2, x17, lsl #5
	add	x17, x17, #8
	b	Lh3q_BB83_18
Lh3q_BB83_13:
	cmp	w17, #49
	b.hi	Lh3q_BB83_15
Lh3q_loh104:
	adrp	x2, l_static.1@PAGE
Lh3q_loh105:
	add	x2, x2, l_static.1@PAGEOFF
	add	x17, x2, x17, lsl #5
	sub	x17, x17, #792
	b	Lh3q_BB83_18
Lh3q_BB83_15:
	lsl	x2, x17, #5
	cmp	w17, #74
	b.hi	Lh3q_BB83_17
Lh3q_loh106:
	adrp	x17, l_static.2@PAGE
Lh3q_loh107:
	add	x17, x17, l_static.2@PAGEOFF
	add	x17, x17, x2
	sub	x17, x17, #1592
	b	Lh3q_BB83_18
Lh3q_BB83_17:
Lh3q_loh108:
	adrp	x17, l_static.3@PAGE
Lh3q_loh109:
	add	x17, x17, l_static.3@PAGEOFF
	add	x17, x17, x2
	sub	x17, x17, #2392
Lh3q_BB83_18:
	ldr	x17, [x17]
Lh3q_BB83_19:
	ldr	x9, [x9, #8]
	add	x1, x1, #1
	sub	x9, x9, x16
	adds	x9, x9, x17
	csinv	x9, x9, xzr, lo
	adds	x9, x9, #32
	csinv	x16, x9, xzr, lo
	cmp	x1, x10
	mov	w9, #1
	b.hs	Lh3q_BB83_21
	sub	x11, x11, x16
	add	x14, x14, #48
	add	x15, x15, #1
	cmp	x8, x11
	b.lo	Lh3q_BB83_3
Lh3q_BB83_21:
	mov	w0, w9
	ret
Lh3q_BB83_22:
	mov	x1, xzr
	mov	w0, wzr
	ret
	.loh AdrpAdd	Lh3q_loh102, Lh3q_loh103
	.loh AdrpAdd	Lh3q_loh104, Lh3q_loh105
	.loh AdrpAdd	Lh3q_loh106, Lh3q_loh107
	.loh AdrpAdd	Lh3q_loh108, Lh3q_loh109

	.p2align	2
"_qpack_table::dynamic::growth::grow::<#87cca78d895f04c8>":
	sub	sp, sp, #128
	ldp	x9, x10, [x0, #8]
	mov	w8, #8
	stp	x24, x23, [sp, #64]
	stp	x22, x21, [sp, #80]
	lsr	x11, x9, #2
	stp	x20, x19, [sp, #96]
	stp	x29, x30, [sp, #112]
	add	x29, sp, #112
	cmp	x11, #8
	csel	x23, x11, x8, hi
	sub	x8, x10, x9
	cmp	x23, x8
	b.ls	Lh3q_BB84_7
	ldp	q0, q1, [x0]
	mov	x19, x0
	ldr	x8, [x0, #32]
	add	x0, sp, #40
	mov	x1, sp
	stp	xzr, xzr, [sp, #48]
	stp	q0, q1, [sp]
	stp	x8, xzr, [sp, #32]
	bl	"_std_alloc::vec::deque::VecDeque::into_vec::<#1768c683c02e1de9>"
	ldp	x21, x22, [sp, #48]
	ldr	x20, [sp, #40]
	sub	x8, x22, x21
	cmp	x23, x8
	b.ls	Lh3q_BB84_8
	cmn	x21, x23
	b.hs	Lh3q_BB84_6
	mov	x8, #-6148914691236517206
	add	x23, x21, x23
	movk	x8, #682, lsl #48
	cmp	x23, x8
	b.hi	Lh3q_BB84_6
	cbz	x22, Lh3q_BB84_10
	add	x8, x21, x21, lsl #1
	add	x9, x23, x23, lsl #1
	mov	x0, x20
	mov	w3, #8
	lsl	x1, x8, #4
	lsl	x2, x9, #4
	bl	_rattle_realloc
	tbnz	w0, #0, Lh3q_BB84_11
Lh3q_BB84_6:
	mov	w0, #1
	b	Lh3q_BB84_9
Lh3q_BB84_7:
	mov	w0, wzr
	ldp	x29, x30, [sp, #112]
	ldp	x20, x19, [sp, #96]
	ldp	x22, x21, [sp, #80]
	ldp	x24, x23, [sp, #64]
	add	sp, sp, #128
	ret
Lh3q_BB84_8:
	mov	w0, wzr
Lh3q_BB84_9:
	stp	x20, x21, [x19]
	stp	xzr, xzr, [x19, #24]
	str	x22, [x19, #16]
	ldp	x29, x30, [sp, #112]
	ldp	x20, x19, [sp, #96]
	ldp	x22, x21, [sp, #80]
	ldp	x24, x23, [sp, #64]
	add	sp, sp, #128
	ret
Lh3q_BB84_10:
	add	x8, x23, x23, lsl #1
	mov	w1, #8
	lsl	x0, x8, #4
	bl	_rattle_alloc
	tbz	w0, #0, Lh3q_BB84_12
Lh3q_BB84_11:
	mov	x20, x1
	mov	w0, wzr
	mov	x22, x23
	b	Lh3q_BB84_9
Lh3q_BB84_12:
	mov	x22, xzr
	mov	w0, #1
	b	Lh3q_BB84_9

	.section	__TEXT,__literal16,16byte_literals
	.p2align	4, 0x0
lh3q_CPI85_0:
	.quad	1
	.quad	3
	.section	__TEXT,__text,regular,pure_instructions
	.p2align	2
"_qpack_decoding::encoder_stream::find_wanted::<#78d66cfad5c8051d>":
	sub	sp, sp, #160
	stp	x28, x27, [sp, #64]
	stp	x26, x25, [sp, #80]
	stp	x24, x23, [sp, #96]
	stp	x22, x21, [sp, #112]
	stp	x20, x19, [sp, #128]
	stp	x29, x30, [sp, #144]
	add	x29, sp, #144
	stp	xzr, xzr, [sp]
	str	xzr, [sp, #16]
	cbz	x3, Lh3q_BB85_6
	ldrsb	w8, [x2]
	mov	w9, #3
	mov	w10, #2
	stp	xzr, xzr, [sp, #24]
	tst	w8, #0xe0
	and	x20, x8, #0xff
	and	w19, w8, #0xff
	csel	w9, wzr, w9, ne
	tst	w8, #0xc0
	str	xzr, [sp, #40]
	csel	w9, w10, w9, ne
	cmp	w8, #0
	csinc	w21, w9, wzr, pl
	cmp	w21, #1
	b.gt	Lh3q_BB85_7
	cbz	w21, Lh3q_BB85_16
	add	x9, x2, #1
	sub	x8, x3, #1
	mov	w10, #63
	stp	x9, x8, [sp, #24]
	mov	w9, #1
	bics	wzr, w10, w19
	stp	xzr, xzr, [sp, #48]
	str	x9, [sp, #40]
	b.ne	Lh3q_BB85_12
	mov	x22, x1
	mov	x25, x0
	add	x0, sp, #48
	add	x1, sp, #24
	mov	x23, x2
	mov	x24, x3
	bl	"_qpack_base::prefix_int::read_groups"
	ldrb	w8, [sp, #48]
	cbz	w8, Lh3q_BB85_11
	mov	w8, #32
	mov	x0, x25
	mov	x3, x24
	mov	x2, x23
	ldr	x9, [x22, #64]
	cmp	x9, x8
	b.lo	Lh3q_BB85_34
	b	Lh3q_BB85_16
Lh3q_BB85_6:
	mov	w8, #1
	b	Lh3q_BB85_48
Lh3q_BB85_7:
	cmp	w21, #2
	b.ne	Lh3q_BB85_16
	add	x10, x2, #1
	sub	x9, x3, #1
	and	x8, x20, #0x1f
	stp	x10, x9, [sp, #24]
	mov	w10, #1
	cmp	w8, #31
	stp	xzr, xzr, [sp, #48]
	str	x10, [sp, #40]
	b.ne	Lh3q_BB85_27
	mov	x23, x1
	mov	x26, x0
	add	x0, sp, #48
	add	x1, sp, #24
	mov	x24, x2
	mov	x25, x3
	bl	"_qpack_base::prefix_int::read_groups"
	ldrb	w8, [sp, #48]
	cbz	w8, Lh3q_BB85_26
	mov	x22, xzr
	mov	x0, x26
	mov	x3, x25
	mov	x2, x24
	adds	x8, x22, #32
	csinv	x8, x8, xzr, lo
	ldr	x9, [x23, #64]
	cmp	x9, x8
	b.lo	Lh3q_BB85_34
	b	Lh3q_BB85_16
Lh3q_BB85_11:
	ldr	x8, [sp, #32]
	mov	x0, x25
	mov	x3, x24
	mov	x2, x23
	mov	x1, x22
Lh3q_BB85_12:
	stp	xzr, xzr, [sp, #48]
	cbz	x8, Lh3q_BB85_15
	ldr	x9, [sp, #24]
	ldr	x10, [sp, #40]
	sub	x13, x8, #1
	ldrb	w11, [x9], #1
	stp	x9, x13, [sp, #24]
	add	x9, x10, #1
	sxtb	w22, w11
	sub	x12, x11, #128
	str	x9, [sp, #40]
	cmp	w22, #0
	csel	x8, x12, x11, mi
	cmp	x8, #127
	b.lo	Lh3q_BB85_51
	mov	x23, x0
	add	x0, sp, #48
	mov	x24, x1
	add	x1, sp, #24
	mov	x25, x3
	mov	x26, x2
	bl	"_qpack_base::prefix_int::read_groups"
	ldrb	w8, [sp, #48]
	mov	x1, x24
	mov	x2, x26
	mov	x3, x25
	mov	x0, x23
	cbz	w8, Lh3q_BB85_50
Lh3q_BB85_15:
	mov	w8, #32
	ldr	x9, [x1, #64]
	cmp	x9, x8
	b.lo	Lh3q_BB85_34
Lh3q_BB85_16:
	cmp	w21, #1
	b.gt	Lh3q_BB85_21
	cbz	w21, Lh3q_BB85_25
	add	x9, x2, #1
	sub	x8, x3, #1
	mov	w10, #63
	stp	x9, x8, [sp, #24]
	mov	w9, #1
	bics	wzr, w10, w19
	stp	xzr, xzr, [sp, #48]
	str	x9, [sp, #40]
	b.ne	Lh3q_BB85_36
	mov	x19, x0
	add	x0, sp, #48
	add	x1, sp, #24
	mov	x20, x3
	bl	"_qpack_base::prefix_int::read_groups"
	ldrb	w8, [sp, #48]
	cbz	w8, Lh3q_BB85_35
	add	x8, x20, #1
	mov	x0, x19
	b	Lh3q_BB85_48
Lh3q_BB85_21:
	cmp	w21, #2
	b.ne	Lh3q_BB85_25
	add	x10, x2, #1
	sub	x9, x3, #1
	and	x8, x20, #0x1f
	stp	x10, x9, [sp, #24]
	mov	w10, #1
	cmp	w8, #31
	stp	xzr, xzr, [sp, #48]
	str	x10, [sp, #40]
	b.ne	Lh3q_BB85_39
	mov	x20, x0
	add	x0, sp, #48
	add	x1, sp, #24
	mov	x21, x3
	bl	"_qpack_base::prefix_int::read_groups"
	ldrb	w8, [sp, #48]
	cbz	w8, Lh3q_BB85_38
	add	x8, x21, #1
	mov	x0, x20
	b	Lh3q_BB85_48
Lh3q_BB85_25:
	add	x8, x3, #1
	b	Lh3q_BB85_48
Lh3q_BB85_26:
	ldr	x8, [sp, #56]
	ldr	x9, [sp, #32]
	mov	x0, x26
	mov	x3, x25
	mov	x2, x24
	mov	x1, x23
	add	x8, x8, #31
Lh3q_BB85_27:
	lsr	x10, x8, #2
	tst	x8, #0x3
	cinc	x10, x10, ne
	tst	w19, #0x20
	csel	x22, x8, x10, eq
	cmp	x9, x8
	b.lo	Lh3q_BB85_33
	ldr	x11, [sp, #24]
	ldr	x10, [sp, #40]
	cmp	x9, x8
	stp	xzr, xzr, [sp, #48]
	b.eq	Lh3q_BB85_33
	add	x11, x11, x8
	mvn	x13, x8
	add	x10, x8, x10
	ldrb	w12, [x11], #1
	add	x9, x9, x13
	stp	x11, x9, [sp, #24]
	add	x9, x10, #1
	sxtb	w23, w12
	sub	x13, x12, #128
	str	x9, [sp, #40]
	cmp	w23, #0
	csel	x8, x13, x12, mi
	cmp	x8, #127
	b.lo	Lh3q_BB85_32
	mov	x24, x0
	add	x0, sp, #48
	mov	x25, x1
	add	x1, sp, #24
	mov	x26, x3
	mov	x27, x2
	bl	"_qpack_base::prefix_int::read_groups"
	ldrb	w8, [sp, #48]
	mov	x1, x25
	mov	x2, x27
	mov	x3, x26
	mov	x0, x24
	cbnz	w8, Lh3q_BB85_33
	ldr	x8, [sp, #56]
	add	x8, x8, #127
Lh3q_BB85_32:
	lsr	x9, x8, #2
	tst	x8, #0x3
	cinc	x9, x9, ne
	cmp	w23, #0
	csel	x8, x9, x8, mi
	adds	x8, x8, x22
	csinv	x22, x8, xzr, lo
Lh3q_BB85_33:
	adds	x8, x22, #32
	csinv	x8, x8, xzr, lo
	ldr	x9, [x1, #64]
	cmp	x9, x8
	b.hs	Lh3q_BB85_16
Lh3q_BB85_34:
	movi.2d	v0, #0000000000000000
Lh3q_loh110:
	adrp	x8, lh3q_CPI85_0@PAGE
	mov	w9, #3
Lh3q_loh111:
	ldr	q1, [x8, lh3q_CPI85_0@PAGEOFF]
	str	x9, [x0, #16]
	str	q1, [x0]
	stur	q0, [x0, #24]
	stur	q0, [x0, #40]
	b	Lh3q_BB85_49
Lh3q_BB85_35:
	ldr	x8, [sp, #32]
	mov	x0, x19
	mov	x3, x20
Lh3q_BB85_36:
	stp	xzr, xzr, [sp, #48]
	cbz	x8, Lh3q_BB85_44
	ldr	x9, [sp, #24]
	ldr	x10, [sp, #40]
	sub	x13, x8, #1
	ldrb	w11, [x9], #1
	stp	x9, x13, [sp, #24]
	sub	x12, x11, #128
	tst	w11, #0x80
	csel	x8, x12, x11, ne
	add	x9, x10, #1
	cmp	x8, #127
	str	x9, [sp, #40]
	b.hs	Lh3q_BB85_43
	b	Lh3q_BB85_46
Lh3q_BB85_38:
	ldr	x8, [sp, #56]
	ldr	x9, [sp, #32]
	mov	x0, x20
	mov	x3, x21
	add	x8, x8, #31
Lh3q_BB85_39:
	cmp	x8, x9
	b.ls	Lh3q_BB85_41
	ldr	x9, [sp, #40]
	adds	x8, x8, x9
	csinv	x8, x8, xzr, lo
	adds	x9, x8, #1
	csinv	x9, x9, xzr, lo
	tst	w19, #0x20
	csel	x8, x9, x8, eq
	b	Lh3q_BB85_48
Lh3q_BB85_41:
	ldr	x11, [sp, #24]
	ldr	x10, [sp, #40]
	cmp	x9, x8
	stp	xzr, xzr, [sp, #48]
	b.eq	Lh3q_BB85_44
	add	x11, x11, x8
	mvn	x13, x8
	add	x10, x8, x10
	ldrb	w12, [x11], #1
	add	x9, x9, x13
	stp	x11, x9, [sp, #24]
	sub	x13, x12, #128
	tst	w12, #0x80
	csel	x8, x13, x12, ne
	add	x9, x10, #1
	cmp	x8, #127
	str	x9, [sp, #40]
	b.lo	Lh3q_BB85_46
Lh3q_BB85_43:
	mov	x19, x0
	add	x0, sp, #48
	add	x1, sp, #24
	mov	x20, x3
	bl	"_qpack_base::prefix_int::read_groups"
	ldrb	w8, [sp, #48]
	mov	x3, x20
	mov	x0, x19
	cbz	w8, Lh3q_BB85_45
Lh3q_BB85_44:
	adds	x8, x3, #1
	b	Lh3q_BB85_47
Lh3q_BB85_45:
	ldr	x8, [sp, #56]
	ldr	x9, [sp, #40]
	add	x8, x8, #127
Lh3q_BB85_46:
	adds	x8, x8, x9
Lh3q_BB85_47:
	csinv	x8, x8, xzr, lo
Lh3q_BB85_48:
	stp	xzr, x8, [x0]
	ldr	q0, [sp]
	ldr	x8, [sp, #16]
	stp	xzr, xzr, [x0, #16]
	str	q0, [x0, #32]
	str	x8, [x0, #48]
Lh3q_BB85_49:
	ldp	x29, x30, [sp, #144]
	str	xzr, [x0, #56]
	ldp	x20, x19, [sp, #128]
	ldp	x22, x21, [sp, #112]
	ldp	x24, x23, [sp, #96]
	ldp	x26, x25, [sp, #80]
	ldp	x28, x27, [sp, #64]
	add	sp, sp, #160
	ret
Lh3q_BB85_50:
	ldr	x8, [sp, #56]
	add	x8, x8, #127
Lh3q_BB85_51:
	lsr	x9, x8, #2
	tst	x8, #0x3
	cinc	x9, x9, ne
	cmp	w22, #0
	csel	x8, x9, x8, mi
	adds	x8, x8, #32
	csinv	x8, x8, xzr, lo
	ldr	x9, [x1, #64]
	cmp	x9, x8
	b.lo	Lh3q_BB85_34
	b	Lh3q_BB85_16
	.loh AdrpLdr	Lh3q_loh110, Lh3q_loh111

	.p2align	2
"_qpack_decoding::section::reader::gather":
	stp	x26, x25, [sp, #-80]!
	ldr	x8, [x5, #8]
	stp	x24, x23, [sp, #16]
	mov	w24, w1
	stp	x22, x21, [sp, #32]
	mov	x21, x3
	mov	x22, x2
	stp	x20, x19, [sp, #48]
	mov	x19, x5
	mov	x20, x4
	mov	w23, w0
	stp	x29, x30, [sp, #64]
	add	x29, sp, #64
	cbz	x8, Lh3q_BB86_7
	cbz	x21, Lh3q_BB86_5
Lh3q_BB86_2:
	ldp	x1, x26, [x19]
	mov	w0, w23
	mov	x2, x26
	bl	"_qpack_decoding::section::missing::missing"
	cmp	x21, x0
	csel	x25, x21, x0, lo
	cbz	x0, Lh3q_BB86_5
	sub	x2, x20, x26
	mov	x0, x22
	mov	x1, x25
	mov	x3, x19
	bl	"_qpack_base::coding::append_within::<#8fc0d6d4cd31a236>"
	tst	w0, #0xff
	b.ne	Lh3q_BB86_15
	subs	x21, x21, x25
	add	x22, x22, x25
	b.ne	Lh3q_BB86_2
Lh3q_BB86_5:
	tbz	w24, #0, Lh3q_BB86_9
	mov	w1, #1
	b	Lh3q_BB86_10
Lh3q_BB86_7:
	tbz	w24, #0, Lh3q_BB86_11
	mov	w0, wzr
	b	Lh3q_BB86_14
Lh3q_BB86_9:
	ldp	x1, x2, [x19]
	mov	w0, w23
	bl	"_qpack_decoding::section::missing::missing"
	cmp	x0, #0
	cset	w1, eq
Lh3q_BB86_10:
	mov	w0, wzr
	ldp	x29, x30, [sp, #64]
	ldp	x20, x19, [sp, #48]
	ldp	x22, x21, [sp, #32]
	ldp	x24, x23, [sp, #16]
	ldp	x26, x25, [sp], #80
	ret
Lh3q_BB86_11:
	mov	w0, w23
	mov	x1, x22
	mov	x2, x21
	bl	"_qpack_decoding::section::missing::missing"
	cbz	x0, Lh3q_BB86_14
	cbz	x21, Lh3q_BB86_16
	mov	x0, x22
	mov	x1, x21
	mov	x2, x20
	mov	x3, x19
	bl	"_qpack_base::coding::append_within::<#8fc0d6d4cd31a236>"
	tst	w0, #0xff
	mov	w1, wzr
	cset	w0, ne
	ldp	x29, x30, [sp, #64]
	ldp	x20, x19, [sp, #48]
	ldp	x22, x21, [sp, #32]
	ldp	x24, x23, [sp, #16]
	ldp	x26, x25, [sp], #80
	ret
Lh3q_BB86_14:
	mov	w1, #1
	ldp	x29, x30, [sp, #64]
	ldp	x20, x19, [sp, #48]
	ldp	x22, x21, [sp, #32]
	ldp	x24, x23, [sp, #16]
	ldp	x26, x25, [sp], #80
	ret
Lh3q_BB86_15:
	mov	w1, wzr
	mov	w0, #1
	ldp	x29, x30, [sp, #64]
	ldp	x20, x19, [sp, #48]
	ldp	x22, x21, [sp, #32]
	ldp	x24, x23, [sp, #16]
	ldp	x26, x25, [sp], #80
	ret
Lh3q_BB86_16:
	mov	w1, wzr
	b	Lh3q_BB86_10

	.p2align	2
"_qpack_decoding::section::missing::missing":
	sub	sp, sp, #64
	stp	x29, x30, [sp, #48]
	add	x29, sp, #48
	tbz	w0, #0, Lh3q_BB87_14
	cbz	x2, Lh3q_BB87_38
	ldrsb	w9, [x1]
	stp	xzr, xzr, [sp, #8]
	str	xzr, [sp, #24]
	and	x8, x9, #0xff
	tbnz	w9, #31, Lh3q_BB87_20
	cmp	w8, #63
	b.ls	Lh3q_BB87_26
	mov	w9, #4
Lh3q_BB87_5:
	mov	w10, #1
	add	x12, x1, #1
	stp	xzr, xzr, [x29, #-16]
	lsl	x11, x10, x9
	sub	x9, x2, #1
	str	x10, [sp, #24]
	stp	x12, x9, [sp, #8]
	add	w13, w11, #127
	sub	x11, x11, #1
	and	w8, w13, w8
	cmp	x11, x8
	b.hi	Lh3q_BB87_8
	sub	x0, x29, #16
	add	x1, sp, #8
	bl	"_qpack_base::prefix_int::read_groups"
	ldurb	w8, [x29, #-16]
	cbnz	w8, Lh3q_BB87_25
	ldr	x9, [sp, #16]
Lh3q_BB87_8:
	stp	xzr, xzr, [x29, #-16]
	cbz	x9, Lh3q_BB87_38
	ldr	x10, [sp, #8]
	ldr	x11, [sp, #24]
	sub	x8, x9, #1
	ldrb	w12, [x10], #1
	stp	x10, x8, [sp, #8]
	add	x10, x11, #1
	sub	x13, x12, #128
	tst	w12, #0x80
	str	x10, [sp, #24]
	csel	x9, x13, x12, ne
	cmp	x9, #127
	b.lo	Lh3q_BB87_12
	sub	x0, x29, #16
	add	x1, sp, #8
	bl	"_qpack_base::prefix_int::read_groups"
	ldurb	w8, [x29, #-16]
	cbnz	w8, Lh3q_BB87_25
	ldur	x9, [x29, #-8]
	ldr	x8, [sp, #16]
	add	x9, x9, #127
Lh3q_BB87_12:
	subs	x8, x9, x8
Lh3q_BB87_13:
	csel	x0, xzr, x8, lo
	ldp	x29, x30, [sp, #48]
	add	sp, sp, #64
	ret
Lh3q_BB87_14:
	stp	xzr, xzr, [x29, #-16]
	cbz	x2, Lh3q_BB87_38
	ldrb	w9, [x1], #1
	sub	x8, x2, #1
	mov	w10, #1
	stp	x1, x8, [sp, #8]
	cmp	w9, #255
	str	x10, [sp, #24]
	b.eq	Lh3q_BB87_24
	stp	xzr, xzr, [x29, #-16]
	cbz	x8, Lh3q_BB87_35
Lh3q_BB87_17:
	ldr	x9, [sp, #8]
	ldr	x10, [sp, #24]
	sub	x8, x8, #1
	mov	w12, #127
	ldrb	w11, [x9], #1
	stp	x9, x8, [sp, #8]
	add	x8, x10, #1
	bics	wzr, w12, w11
	str	x8, [sp, #24]
	b.ne	Lh3q_BB87_19
	sub	x0, x29, #16
	add	x1, sp, #8
	bl	"_qpack_base::prefix_int::read_groups"
	ldurb	w8, [x29, #-16]
	cbnz	w8, Lh3q_BB87_25
Lh3q_BB87_19:
	mov	x0, xzr
	ldp	x29, x30, [sp, #48]
	add	sp, sp, #64
	ret
Lh3q_BB87_20:
	mov	w9, #6
Lh3q_BB87_21:
	mov	w10, #1
	add	x11, x1, #1
	sub	x12, x2, #1
	lsl	x9, x10, x9
	stp	xzr, xzr, [x29, #-16]
	stp	x11, x12, [sp, #8]
	sub	w13, w9, #1
	sub	x9, x9, #1
	str	x10, [sp, #24]
	and	w8, w13, w8
	cmp	x9, x8
	b.hi	Lh3q_BB87_23
	sub	x0, x29, #16
	add	x1, sp, #8
	bl	"_qpack_base::prefix_int::read_groups"
	ldurb	w8, [x29, #-16]
	cbnz	w8, Lh3q_BB87_25
Lh3q_BB87_23:
	mov	x0, xzr
	ldp	x29, x30, [sp, #48]
	add	sp, sp, #64
	ret
Lh3q_BB87_24:
	sub	x0, x29, #16
	add	x1, sp, #8
	bl	"_qpack_base::prefix_int::read_groups"
	ldurb	w8, [x29, #-16]
	cbz	w8, Lh3q_BB87_34
Lh3q_BB87_25:
	ldurb	w8, [x29, #-15]
	cmp	w8, #0
	cset	w0, ne
	ldp	x29, x30, [sp, #48]
	add	sp, sp, #64
	ret
Lh3q_BB87_26:
	cmp	w8, #31
	b.ls	Lh3q_BB87_32
	add	x10, x1, #1
	sub	x9, x2, #1
	and	x8, x8, #0x7
	stp	x10, x9, [sp, #8]
	mov	w10, #1
	cmp	w8, #7
	stp	xzr, xzr, [x29, #-16]
	str	x10, [sp, #24]
	b.ne	Lh3q_BB87_30
	sub	x0, x29, #16
	add	x1, sp, #8
	bl	"_qpack_base::prefix_int::read_groups"
	ldurb	w8, [x29, #-16]
	cbnz	w8, Lh3q_BB87_25
	ldur	x8, [x29, #-8]
	ldr	x9, [sp, #16]
	add	x8, x8, #7
Lh3q_BB87_30:
	subs	x0, x8, x9
	b.ls	Lh3q_BB87_37
	ldp	x29, x30, [sp, #48]
	add	sp, sp, #64
	ret
Lh3q_BB87_32:
	cmp	w8, #16
	b.lo	Lh3q_BB87_36
	mov	w9, #4
	b	Lh3q_BB87_21
Lh3q_BB87_34:
	ldr	x8, [sp, #16]
	stp	xzr, xzr, [x29, #-16]
	cbnz	x8, Lh3q_BB87_17
Lh3q_BB87_35:
	mov	w0, #1
	ldp	x29, x30, [sp, #48]
	add	sp, sp, #64
	ret
Lh3q_BB87_36:
	mov	w9, #3
	b	Lh3q_BB87_5
Lh3q_BB87_37:
	ldr	x11, [sp, #8]
	ldr	x10, [sp, #24]
	cmp	x8, x9
	stp	xzr, xzr, [x29, #-16]
	b.ne	Lh3q_BB87_39
Lh3q_BB87_38:
	mov	w0, #1
	ldp	x29, x30, [sp, #48]
	add	sp, sp, #64
	ret
Lh3q_BB87_39:
	add	x11, x11, x8
	mvn	x13, x8
	add	x10, x8, x10
	ldrb	w12, [x11], #1
	add	x9, x9, x13
	add	x10, x10, #1
	stp	x11, x9, [sp, #8]
	sub	x13, x12, #128
	tst	w12, #0x80
	str	x10, [sp, #24]
	csel	x8, x13, x12, ne
	cmp	x8, #127
	b.lo	Lh3q_BB87_42
	sub	x0, x29, #16
	add	x1, sp, #8
	bl	"_qpack_base::prefix_int::read_groups"
	ldurb	w8, [x29, #-16]
	cbnz	w8, Lh3q_BB87_25
	ldur	x8, [x29, #-8]
	ldr	x9, [sp, #16]
	add	x8, x8, #127
Lh3q_BB87_42:
	subs	x8, x8, x9
	b	Lh3q_BB87_13

	.p2align	2
"_h3_qpack_c::views::store_view":
	ldr	x8, [x0, #32]
	cmp	x1, x8
	b.hs	Lh3q_BB88_3
	sub	sp, sp, #112
	mov	w8, #24
	ldr	x9, [x0, #24]
	stp	x20, x19, [sp, #80]
	madd	x8, x1, x8, x9
	mov	x19, x2
	stp	x28, x27, [sp, #16]
	stp	x26, x25, [sp, #32]
	stp	x24, x23, [sp, #48]
	stp	x22, x21, [sp, #64]
	stp	x29, x30, [sp, #96]
	add	x29, sp, #96
	cbz	x1, Lh3q_BB88_4
	ldur	x23, [x8, #-16]
	b	Lh3q_BB88_5
Lh3q_BB88_3:
	mov	w0, #-4
	ret
Lh3q_BB88_4:
	mov	x23, xzr
Lh3q_BB88_5:
	ldp	x27, x9, [x8]
	ldr	x25, [x0]
	ldrb	w24, [x8, #16]
	add	x0, x25, x23
	sub	x1, x27, x23
	sub	x26, x27, x23
	sub	x20, x9, x27
	bl	"_qpack_base::static_::indexes_of"
	cbz	x1, Lh3q_BB88_14
	mov	x22, x1
	mov	x21, x0
	str	w24, [sp, #12]
	mov	x24, xzr
	b	Lh3q_BB88_8
Lh3q_BB88_7:
	add	x24, x24, #1
	cmp	x22, x24
	b.eq	Lh3q_BB88_12
Lh3q_BB88_8:
	ldrb	w28, [x21, x24]
	cmp	w28, #98
	b.hi	Lh3q_BB88_7
	lsl	x8, x28, #5
Lh3q_loh112:
	adrp	x9, l_static.3@PAGE
Lh3q_loh113:
	add	x9, x9, l_static.3@PAGEOFF
Lh3q_loh114:
	adrp	x10, l_static.2@PAGE
Lh3q_loh115:
	add	x10, x10, l_static.2@PAGEOFF
	cmp	w28, #74
	add	x9, x9, x8
	add	x8, x10, x8
Lh3q_loh116:
	adrp	x10, l_static.1@PAGE
Lh3q_loh117:
	add	x10, x10, l_static.1@PAGEOFF
	sub	x11, x9, #2384
	sub	x12, x8, #1584
	add	x10, x10, x28, lsl #5
	csel	x11, x11, x12, hi
Lh3q_loh118:
	adrp	x12, l_static.0@PAGE
Lh3q_loh119:
	add	x12, x12, l_static.0@PAGEOFF
	sub	x9, x9, #2376
	sub	x8, x8, #1576
	add	x12, x12, x28, lsl #5
	csel	x8, x9, x8, hi
	sub	x9, x10, #784
	cmp	w28, #49
	sub	x10, x10, #776
	csel	x9, x11, x9, hi
	csel	x8, x8, x10, hi
	add	x10, x12, #24
	cmp	w28, #24
	csel	x8, x8, x10, hi
	ldr	x10, [x8]
	add	x8, x12, #16
	csel	x8, x9, x8, hi
	cmp	x20, x10
	b.ne	Lh3q_BB88_7
	ldr	x2, [x8]
	add	x0, x25, x27
	mov	x1, x20
	mov	x3, x20
	bl	"_qpack_base::static_::same_bytes"
	tbz	w0, #0, Lh3q_BB88_7
	ldrb	w8, [x21]
	b	Lh3q_BB88_13
Lh3q_BB88_12:
	ldrb	w8, [x21]
	mov	w28, #65535
Lh3q_BB88_13:
	ldr	w24, [sp, #12]
	b	Lh3q_BB88_15
Lh3q_BB88_14:
	mov	w8, #65535
	mov	w28, #65535
Lh3q_BB88_15:
	stp	x25, x23, [x19]
	ldp	x29, x30, [sp, #96]
	stp	x26, x20, [x19, #16]
	mov	w0, wzr
	str	w24, [x19, #32]
	ldp	x22, x21, [sp, #64]
	strh	w8, [x19, #36]
	ldp	x24, x23, [sp, #48]
	strh	w28, [x19, #38]
	ldp	x20, x19, [sp, #80]
	ldp	x26, x25, [sp, #32]
	ldp	x28, x27, [sp, #16]
	add	sp, sp, #112
	ret
	.loh AdrpAdd	Lh3q_loh118, Lh3q_loh119
	.loh AdrpAdd	Lh3q_loh116, Lh3q_loh117
	.loh AdrpAdd	Lh3q_loh114, Lh3q_loh115
	.loh AdrpAdd	Lh3q_loh112, Lh3q_loh113

	.p2align	2
"_qpack_base::static_::indexes_of":
	cmp	x1, #8
	b.hi	Lh3q_BB89_2
Lh3q_loh120:
	adrp	x8, l_static.8@PAGE
Lh3q_loh121:
	add	x8, x8, l_static.8@PAGEOFF
	add	x9, x8, x1, lsl #4
	add	x8, x9, #8
	ldr	x8, [x8]
	cbnz	x8, Lh3q_BB89_6
	b	Lh3q_BB89_32
Lh3q_BB89_2:
	cmp	x1, #15
	b.hi	Lh3q_BB89_4
Lh3q_loh122:
	adrp	x8, l_static.9@PAGE
Lh3q_loh123:
	add	x8, x8, l_static.9@PAGEOFF
	add	x8, x8, x1, lsl #4
	sub	x9, x8, #144
	sub	x8, x8, #136
	ldr	x8, [x8]
	cbnz	x8, Lh3q_BB89_6
	b	Lh3q_BB89_32
Lh3q_BB89_4:
	sub	x8, x1, #16
	cmp	x8, #16
	b.hi	Lh3q_BB89_32
Lh3q_loh124:
	adrp	x9, l_static.10@PAGE
Lh3q_loh125:
	add	x9, x9, l_static.10@PAGEOFF
	add	x9, x9, x8, lsl #4
	add	x8, x9, #8
	ldr	x8, [x8]
	cbz	x8, Lh3q_BB89_32
Lh3q_BB89_6:
	ldr	x9, [x9]
	cmp	x1, #8
	add	x10, x0, x1
	b.hs	Lh3q_BB89_22
	cmp	x1, #4
	b.hs	Lh3q_BB89_10
	mov	x10, x9
	cbnz	x1, Lh3q_BB89_14
	b	Lh3q_BB89_28
Lh3q_BB89_9:
	sub	x8, x8, #1
	add	x9, x9, #32
	cbz	x8, Lh3q_BB89_32
Lh3q_BB89_10:
	ldr	x11, [x9, #8]
	cmp	x1, x11
	b.ne	Lh3q_BB89_9
	ldr	x11, [x9]
	ldr	w12, [x0]
	ldr	w13, [x11]
	cmp	w12, w13
	b.ne	Lh3q_BB89_9
	add	x11, x11, x1
	ldur	w12, [x10, #-4]
	ldur	w11, [x11, #-4]
	cmp	w12, w11
	b.ne	Lh3q_BB89_9
	b	Lh3q_BB89_29
Lh3q_BB89_13:
	sub	x8, x8, #1
	add	x10, x10, #32
	cbz	x8, Lh3q_BB89_32
Lh3q_BB89_14:
	ldr	x9, [x10, #8]
	cmp	x1, x9
	b.ne	Lh3q_BB89_13
	ldr	x9, [x10]
	ldrb	w11, [x0]
	ldrb	w12, [x9]
	cmp	w11, w12
	b.ne	Lh3q_BB89_13
	cmp	x1, #1
	b.eq	Lh3q_BB89_20
	ldrb	w11, [x0, #1]
	ldrb	w12, [x9, #1]
	cmp	w11, w12
	b.ne	Lh3q_BB89_13
	cmp	x1, #2
	b.eq	Lh3q_BB89_20
	ldrb	w11, [x0, #2]
	ldrb	w9, [x9, #2]
	cmp	w11, w9
	b.ne	Lh3q_BB89_13
Lh3q_BB89_20:
	mov	w11, #1
	and	w8, w11, #0xff
	cmp	w8, #1
	b.eq	Lh3q_BB89_31
	b	Lh3q_BB89_33
Lh3q_BB89_21:
	sub	x8, x8, #1
	add	x9, x9, #32
	cbz	x8, Lh3q_BB89_32
Lh3q_BB89_22:
	ldr	x11, [x9, #8]
	cmp	x1, x11
	b.ne	Lh3q_BB89_21
	ldr	x11, [x9]
	ldur	x13, [x10, #-8]
	add	x12, x11, x1
	ldur	x12, [x12, #-8]
	cmp	x13, x12
	b.ne	Lh3q_BB89_21
	mov	x12, x0
	mov	x13, x1
Lh3q_BB89_25:
	subs	x13, x13, #8
	b.lo	Lh3q_BB89_29
	ldr	x14, [x12], #8
	ldr	x15, [x11], #8
	cmp	x14, x15
	b.eq	Lh3q_BB89_25
	b	Lh3q_BB89_21
Lh3q_BB89_27:
	mov	w11, wzr
	mov	x10, xzr
	subs	x8, x8, #1
	add	x9, x9, #32
	b.eq	Lh3q_BB89_30
Lh3q_BB89_28:
	ldr	x10, [x9, #8]
	cbnz	x10, Lh3q_BB89_27
Lh3q_BB89_29:
	mov	w11, #1
	mov	x10, x9
Lh3q_BB89_30:
	and	w8, w11, #0xff
	cmp	w8, #1
	b.ne	Lh3q_BB89_33
Lh3q_BB89_31:
	ldp	x0, x1, [x10, #16]
	ret
Lh3q_BB89_32:
	mov	x10, xzr
	and	w8, wzr, #0xff
	cmp	w8, #1
	b.eq	Lh3q_BB89_31
Lh3q_BB89_33:
	mov	x1, xzr
Lh3q_loh126:
	adrp	x0, l_static.5@PAGE
Lh3q_loh127:
	add	x0, x0, l_static.5@PAGEOFF
	ret
	.loh AdrpAdd	Lh3q_loh120, Lh3q_loh121
	.loh AdrpAdd	Lh3q_loh122, Lh3q_loh123
	.loh AdrpAdd	Lh3q_loh124, Lh3q_loh125
	.loh AdrpAdd	Lh3q_loh126, Lh3q_loh127

	.p2align	2
"_qpack_base::static_::same_bytes":
	cmp	x1, x3
	b.ne	Lh3q_BB90_9
	cmp	x1, #7
	add	x8, x0, x1
	b.ls	Lh3q_BB90_6
	add	x9, x2, x1
	ldur	x8, [x8, #-8]
	ldur	x9, [x9, #-8]
	cmp	x8, x9
	b.ne	Lh3q_BB90_9
Lh3q_BB90_3:
	subs	x1, x1, #8
	cset	w8, lo
	b.lo	Lh3q_BB90_5
	ldr	x9, [x0], #8
	ldr	x10, [x2], #8
	cmp	x9, x10
	b.eq	Lh3q_BB90_3
Lh3q_BB90_5:
	mov	w0, w8
	ret
Lh3q_BB90_6:
	cmp	x1, #3
	b.ls	Lh3q_BB90_10
	ldr	w9, [x0]
	ldr	w10, [x2]
	cmp	w9, w10
	b.ne	Lh3q_BB90_9
	add	x9, x2, x1
	ldur	w8, [x8, #-4]
	ldur	w9, [x9, #-4]
	cmp	w8, w9
	cset	w0, eq
	ret
Lh3q_BB90_9:
	mov	w8, wzr
	mov	w0, w8
	ret
Lh3q_BB90_10:
	cbz	x1, Lh3q_BB90_16
	ldrb	w8, [x0]
	ldrb	w9, [x2]
	cmp	w8, w9
	cset	w8, eq
	b.ne	Lh3q_BB90_5
	cmp	x1, #1
	b.eq	Lh3q_BB90_5
	ldrb	w8, [x0, #1]
	ldrb	w9, [x2, #1]
	cmp	w8, w9
	cset	w8, eq
	b.ne	Lh3q_BB90_5
	cmp	x1, #2
	b.eq	Lh3q_BB90_5
	ldrb	w8, [x0, #2]
	ldrb	w9, [x2, #2]
	cmp	w8, w9
	cset	w0, eq
	ret
Lh3q_BB90_16:
	mov	w0, #1
	ret

	.p2align	2
"_std_alloc::vec::Vec::grow_amortized::<#702c34bb3b270f26>":
	ldr	x8, [x0, #8]
	cmn	x8, x1
	b.lo	Lh3q_BB91_2
	mov	w0, wzr
	ret
Lh3q_BB91_2:
	stp	x20, x19, [sp, #-32]!
	ldr	x10, [x0, #16]
	add	x9, x8, x1
	mov	w11, #8
	cmp	x9, #8
	stp	x29, x30, [sp, #16]
	add	x29, sp, #16
	lsl	x12, x10, #1
	csel	x11, x9, x11, hi
	lsr	x13, x10, #62
	cmp	x11, x12
	csel	x9, x11, x12, hi
	cmp	x13, #0
	csel	x19, x9, x11, eq
	tbnz	x19, #63, Lh3q_BB91_7
	cbz	x10, Lh3q_BB91_6
	mov	x20, x0
	ldr	x0, [x0]
	mov	x1, x8
	mov	x2, x19
	mov	w3, #1
	bl	_rattle_realloc
	tbz	w0, #0, Lh3q_BB91_7
Lh3q_BB91_5:
	mov	w0, #1
	str	x1, [x20]
	str	x19, [x20, #16]
	ldp	x29, x30, [sp, #16]
	ldp	x20, x19, [sp], #32
	ret
Lh3q_BB91_6:
	mov	x20, x0
	mov	x0, x9
	mov	w1, #1
	bl	_rattle_alloc
	tbnz	w0, #0, Lh3q_BB91_5
Lh3q_BB91_7:
	mov	w0, wzr
	ldp	x29, x30, [sp, #16]
	ldp	x20, x19, [sp], #32
	ret

	.p2align	2
"_qpack_codec::stateless::field_lines::append_section::<#eb19ef351d0e6f0b>":
	sub	sp, sp, #128
	stp	x20, x19, [sp, #96]
	mov	x19, x0
	add	x0, sp, #8
	stp	x1, xzr, [sp]
	mov	x1, x19
	mov	x20, x2
	stp	x28, x27, [sp, #32]
	stp	x26, x25, [sp, #48]
	stp	x24, x23, [sp, #64]
	stp	x22, x21, [sp, #80]
	stp	x29, x30, [sp, #112]
	add	x29, sp, #112
	stp	xzr, xzr, [sp, #16]
	bl	"_qpack_wire::block::prefix::HeaderPrefix::encode::<#7b66556a84635673>"
	and	w8, w0, #0xff
	tbz	w8, #0, Lh3q_BB92_2
Lh3q_BB92_1:
	mov	w0, #1
	b	Lh3q_BB92_123
Lh3q_BB92_2:
	cbz	x20, Lh3q_BB92_122
	mov	x28, xzr
	b	Lh3q_BB92_7
Lh3q_BB92_4:
	str	x24, [x19, #8]
Lh3q_BB92_5:
	mov	w0, #8
	mov	w1, wzr
	mov	x2, x23
	mov	x3, x22
	mov	x4, x19
	bl	"_qpack_base::prefix_string::append_measured::<#7b66556a84635673>"
	tst	w0, #0xff
	b.ne	Lh3q_BB92_124
Lh3q_BB92_6:
	add	x28, x28, #1
	cmp	x28, x20
	b.eq	Lh3q_BB92_122
Lh3q_BB92_7:
	mov	w8, #40
	ldr	x9, [sp]
	madd	x8, x28, x8, x9
	ldp	x25, x24, [x8]
	ldrb	w21, [x8, #32]
	ldp	x23, x22, [x8, #16]
	mov	x0, x25
	mov	x1, x24
	bl	"_qpack_base::static_::indexes_of"
	mov	x26, x0
	mov	x27, x1
	tbz	w21, #0, Lh3q_BB92_14
	cbz	x27, Lh3q_BB92_30
	ldrb	w24, [x26]
	ldr	x25, [x19, #8]
	cmp	w24, #14
	b.hi	Lh3q_BB92_40
	ldr	x8, [x19, #16]
	cmp	x8, x25
	mov	x8, x25
	b.hi	Lh3q_BB92_13
	mov	x0, x19
	mov	w1, #1
	bl	"_qpack_base::coding::grow::<#7b66556a84635673>"
	and	w8, w0, #0xff
	tbnz	w8, #0, Lh3q_BB92_1
	ldr	x8, [x19, #8]
Lh3q_BB92_13:
	ldr	x9, [x19]
	orr	w10, w24, #0x70
	add	x24, x8, #1
	strb	w10, [x9, x8]
	str	x24, [x19, #8]
	ldr	x8, [x19, #16]
	subs	x8, x8, x24
	csel	x8, xzr, x8, lo
	cmp	x22, x8, lsr #2
	b.lo	Lh3q_BB92_42
	b	Lh3q_BB92_52
Lh3q_BB92_14:
	cbz	x27, Lh3q_BB92_35
	mov	x25, xzr
	b	Lh3q_BB92_17
Lh3q_BB92_16:
	add	x25, x25, #1
	cmp	x27, x25
	b.eq	Lh3q_BB92_25
Lh3q_BB92_17:
	ldrb	w24, [x26, x25]
	cmp	w24, #98
	b.hi	Lh3q_BB92_16
	lsl	x8, x24, #5
Lh3q_loh128:
	adrp	x9, l_static.3@PAGE
Lh3q_loh129:
	add	x9, x9, l_static.3@PAGEOFF
Lh3q_loh130:
	adrp	x10, l_static.2@PAGE
Lh3q_loh131:
	add	x10, x10, l_static.2@PAGEOFF
	cmp	w24, #74
	add	x9, x9, x8
	add	x8, x10, x8
Lh3q_loh132:
	adrp	x10, l_static.1@PAGE
Lh3q_loh133:
	add	x10, x10, l_static.1@PAGEOFF
	sub	x11, x9, #2384
	sub	x12, x8, #1584
	add	x10, x10, x24, lsl #5
	csel	x11, x11, x12, hi
Lh3q_loh134:
	adrp	x12, l_static.0@PAGE
Lh3q_loh135:
	add	x12, x12, l_static.0@PAGEOFF
	sub	x9, x9, #2376
	sub	x8, x8, #1576
	add	x12, x12, x24, lsl #5
	csel	x8, x9, x8, hi
	sub	x9, x10, #784
	cmp	w24, #49
	sub	x10, x10, #776
	csel	x9, x11, x9, hi
	csel	x8, x8, x10, hi
	add	x10, x12, #24
	cmp	w24, #24
	csel	x8, x8, x10, hi
	ldr	x10, [x8]
	add	x8, x12, #16
	csel	x8, x9, x8, hi
	cmp	x22, x10
	b.ne	Lh3q_BB92_16
	ldr	x2, [x8]
	mov	x0, x23
	mov	x1, x22
	mov	x3, x22
	bl	"_qpack_base::static_::same_bytes"
	tbz	w0, #0, Lh3q_BB92_16
	cmp	w24, #62
	b.hi	Lh3q_BB92_78
	ldp	x8, x9, [x19, #8]
	cmp	x9, x8
	b.hi	Lh3q_BB92_24
	mov	x0, x19
	mov	w1, #1
	mov	w22, #1
	bl	"_qpack_base::coding::grow::<#7b66556a84635673>"
	and	w8, w0, #0xff
	tbnz	w8, #0, Lh3q_BB92_129
	ldr	x8, [x19, #8]
Lh3q_BB92_24:
	ldr	x9, [x19]
	add	x11, x8, #1
	orr	w10, w24, #0xc0
	strb	w10, [x9, x8]
	str	x11, [x19, #8]
	b	Lh3q_BB92_6
Lh3q_BB92_25:
	ldrb	w24, [x26]
	ldr	x25, [x19, #8]
	cmp	w24, #14
	b.hi	Lh3q_BB92_46
	ldr	x8, [x19, #16]
	cmp	x8, x25
	mov	x8, x25
	b.hi	Lh3q_BB92_29
	mov	x0, x19
	mov	w1, #1
	mov	w26, #1
	bl	"_qpack_base::coding::grow::<#7b66556a84635673>"
	and	w8, w0, #0xff
	tbnz	w8, #0, Lh3q_BB92_128
	ldr	x8, [x19, #8]
Lh3q_BB92_29:
	ldr	x9, [x19]
	mov	w10, #80
	add	x26, x8, #1
	orr	w10, w24, w10
	strb	w10, [x9, x8]
	str	x26, [x19, #8]
	ldr	x8, [x19, #16]
	subs	x8, x8, x26
	csel	x8, xzr, x8, lo
	cmp	x22, x8, lsr #2
	b.lo	Lh3q_BB92_48
	b	Lh3q_BB92_52
Lh3q_BB92_30:
	ldp	x26, x8, [x19, #8]
	subs	x8, x8, x26
	csel	x8, xzr, x8, lo
	cmp	x24, x8, lsr #2
	b.hs	Lh3q_BB92_95
	sub	x8, x24, x24, lsr #2
	cmp	x8, #6
	b.hi	Lh3q_BB92_63
	ldr	x8, [x19]
	add	x9, x26, #1
	mov	x0, x25
	mov	x1, x24
	mov	x2, x19
	strb	wzr, [x8, x26]
	str	x9, [x19, #8]
	bl	"_qpack_base::prefix_string::encoding::put_payload::<#7b66556a84635673>"
	ldr	x8, [x19, #8]
	mvn	x9, x26
	add	x9, x8, x9
	cmp	x9, x24
	b.hs	Lh3q_BB92_80
	cmp	x9, #6
	b.hi	Lh3q_BB92_93
	ldr	x8, [x19]
	orr	w9, w9, #0x38
	strb	w9, [x8, x26]
	b	Lh3q_BB92_98
Lh3q_BB92_35:
	ldp	x26, x8, [x19, #8]
	subs	x8, x8, x26
	csel	x8, xzr, x8, lo
	cmp	x24, x8, lsr #2
	b.hs	Lh3q_BB92_88
	sub	x8, x24, x24, lsr #2
	cmp	x8, #6
	b.hi	Lh3q_BB92_68
	ldr	x8, [x19]
	add	x9, x26, #1
	mov	x0, x25
	mov	x1, x24
	mov	x2, x19
	strb	wzr, [x8, x26]
	str	x9, [x19, #8]
	bl	"_qpack_base::prefix_string::encoding::put_payload::<#7b66556a84635673>"
	ldr	x9, [x19, #8]
	mvn	x8, x26
	add	x8, x9, x8
	cmp	x8, x24
	b.hs	Lh3q_BB92_75
	cmp	x8, #6
	b.hi	Lh3q_BB92_86
	ldr	x9, [x19]
	mov	w10, #40
	orr	w8, w8, w10
	strb	w8, [x9, x26]
	b	Lh3q_BB92_98
Lh3q_BB92_40:
	mov	w0, #4
	mov	w1, #7
	mov	x2, x24
	mov	x3, x19
	bl	"_qpack_base::prefix_int::encode_long::<#7b66556a84635673>"
	and	w8, w0, #0xff
	tbnz	w8, #0, Lh3q_BB92_1
	ldp	x24, x8, [x19, #8]
	subs	x8, x8, x24
	csel	x8, xzr, x8, lo
	cmp	x22, x8, lsr #2
	b.hs	Lh3q_BB92_52
Lh3q_BB92_42:
	sub	x8, x22, x22, lsr #2
	cmp	x8, #126
	b.hi	Lh3q_BB92_53
	ldr	x8, [x19]
	add	x9, x24, #1
	mov	x0, x23
	mov	x1, x22
	mov	x2, x19
	strb	wzr, [x8, x24]
	str	x9, [x19, #8]
	bl	"_qpack_base::prefix_string::encoding::put_payload::<#7b66556a84635673>"
	ldr	x8, [x19, #8]
	mvn	x9, x24
	add	x9, x8, x9
	cmp	x9, x22
	b.hs	Lh3q_BB92_74
	cmp	x9, #126
	b.ls	Lh3q_BB92_102
	cmp	x8, x24
	b.hi	Lh3q_BB92_4
	b	Lh3q_BB92_5
Lh3q_BB92_46:
	mov	w0, #4
	mov	w1, #5
	mov	x2, x24
	mov	x3, x19
	bl	"_qpack_base::prefix_int::encode_long::<#7b66556a84635673>"
	and	w8, w0, #0xff
	tbnz	w8, #0, Lh3q_BB92_1
	ldp	x26, x8, [x19, #8]
	subs	x8, x8, x26
	csel	x8, xzr, x8, lo
	cmp	x22, x8, lsr #2
	b.hs	Lh3q_BB92_52
Lh3q_BB92_48:
	sub	x8, x22, x22, lsr #2
	cmp	x8, #126
	b.hi	Lh3q_BB92_58
	ldr	x8, [x19]
	add	x9, x26, #1
	mov	x0, x23
	mov	x1, x22
	mov	x2, x19
	strb	wzr, [x8, x26]
	str	x9, [x19, #8]
	bl	"_qpack_base::prefix_string::encoding::put_payload::<#7b66556a84635673>"
	ldr	x8, [x19, #8]
	mvn	x9, x26
	add	x9, x8, x9
	cmp	x9, x22
	b.hs	Lh3q_BB92_79
	cmp	x9, #126
	b.hi	Lh3q_BB92_89
	ldr	x8, [x19]
	orr	w9, w9, #0x80
	strb	w9, [x8, x26]
	b	Lh3q_BB92_6
Lh3q_BB92_52:
	mov	w0, #8
	mov	w1, wzr
	mov	x2, x23
	mov	x3, x22
	mov	x4, x19
	bl	"_qpack_base::prefix_string::append_measured::<#7b66556a84635673>"
	and	w8, w0, #0xff
	tbz	w8, #0, Lh3q_BB92_6
	b	Lh3q_BB92_124
Lh3q_BB92_53:
	cmp	x8, #254
	b.hi	Lh3q_BB92_5
	ldr	x8, [x19]
	add	x26, x24, #1
	add	x9, x24, #2
	mov	x0, x23
	mov	x1, x22
	mov	x2, x19
	strb	wzr, [x8, x24]
	ldr	x8, [x19]
	strb	wzr, [x8, x26]
	str	x9, [x19, #8]
	bl	"_qpack_base::prefix_string::encoding::put_payload::<#7b66556a84635673>"
	ldr	x9, [x19, #8]
	sub	x8, x9, x24
	sub	x10, x8, #2
	cmp	x10, x22
	b.hs	Lh3q_BB92_84
	cmp	x10, #127
	b.lo	Lh3q_BB92_118
	cmp	x8, #256
	b.hi	Lh3q_BB92_118
	ldr	x9, [x19]
	mov	w10, #255
	add	w8, w8, #127
	strb	w10, [x9, x24]
	ldr	x9, [x19]
	strb	w8, [x9, x26]
	b	Lh3q_BB92_6
Lh3q_BB92_58:
	cmp	x8, #254
	b.hi	Lh3q_BB92_5
	ldr	x8, [x19]
	add	x24, x26, #1
	add	x9, x26, #2
	mov	x0, x23
	mov	x1, x22
	mov	x2, x19
	strb	wzr, [x8, x26]
	ldr	x8, [x19]
	strb	wzr, [x8, x24]
	str	x9, [x19, #8]
	bl	"_qpack_base::prefix_string::encoding::put_payload::<#7b66556a84635673>"
	ldr	x9, [x19, #8]
	sub	x8, x9, x26
	sub	x10, x8, #2
	cmp	x10, x22
	b.hs	Lh3q_BB92_90
	cmp	x10, #127
	b.lo	Lh3q_BB92_119
	cmp	x8, #256
	b.hi	Lh3q_BB92_119
	ldr	x9, [x19]
	mov	w10, #255
	add	w8, w8, #127
	strb	w10, [x9, x26]
	ldr	x9, [x19]
	strb	w8, [x9, x24]
	b	Lh3q_BB92_6
Lh3q_BB92_63:
	cmp	x8, #134
	b.hi	Lh3q_BB92_95
	ldr	x8, [x19]
	add	x27, x26, #1
	add	x9, x26, #2
	mov	x0, x25
	mov	x1, x24
	mov	x2, x19
	strb	wzr, [x8, x26]
	ldr	x8, [x19]
	strb	wzr, [x8, x27]
	str	x9, [x19, #8]
	bl	"_qpack_base::prefix_string::encoding::put_payload::<#7b66556a84635673>"
	ldr	x9, [x19, #8]
	sub	x8, x9, x26
	sub	x10, x8, #2
	cmp	x10, x24
	b.hs	Lh3q_BB92_116
	cmp	x10, #7
	b.lo	Lh3q_BB92_121
	cmp	x8, #136
	b.hi	Lh3q_BB92_121
	ldr	x9, [x19]
	mov	w10, #63
	b	Lh3q_BB92_73
Lh3q_BB92_68:
	cmp	x8, #134
	b.hi	Lh3q_BB92_88
	ldr	x8, [x19]
	add	x27, x26, #1
	add	x9, x26, #2
	mov	x0, x25
	mov	x1, x24
	mov	x2, x19
	strb	wzr, [x8, x26]
	ldr	x8, [x19]
	strb	wzr, [x8, x27]
	str	x9, [x19, #8]
	bl	"_qpack_base::prefix_string::encoding::put_payload::<#7b66556a84635673>"
	ldr	x9, [x19, #8]
	sub	x8, x9, x26
	sub	x10, x8, #2
	cmp	x10, x24
	b.hs	Lh3q_BB92_75
	cmp	x10, #7
	b.lo	Lh3q_BB92_86
	cmp	x8, #136
	b.hi	Lh3q_BB92_86
	ldr	x9, [x19]
	mov	w10, #47
Lh3q_BB92_73:
	strb	w10, [x9, x26]
	sub	w8, w8, #9
	ldr	x9, [x19]
	strb	w8, [x9, x27]
	b	Lh3q_BB92_98
Lh3q_BB92_74:
	cmp	x8, x24
	b.hi	Lh3q_BB92_85
	b	Lh3q_BB92_92
Lh3q_BB92_75:
	cmp	x9, x26
	b.ls	Lh3q_BB92_77
	str	x26, [x19, #8]
Lh3q_BB92_77:
	mov	w0, #4
	mov	w1, #2
	b	Lh3q_BB92_83
Lh3q_BB92_78:
	mov	w0, #6
	mov	w1, #3
	mov	x2, x24
	mov	x3, x19
	bl	"_qpack_base::prefix_int::encode_long::<#7b66556a84635673>"
	and	w8, w0, #0xff
	tbz	w8, #0, Lh3q_BB92_6
	b	Lh3q_BB92_1
Lh3q_BB92_79:
	cmp	x8, x26
	b.hi	Lh3q_BB92_91
	b	Lh3q_BB92_92
Lh3q_BB92_80:
	cmp	x8, x26
	b.ls	Lh3q_BB92_82
Lh3q_BB92_81:
	str	x26, [x19, #8]
Lh3q_BB92_82:
	mov	w0, #4
	mov	w1, #3
Lh3q_BB92_83:
	mov	x2, x25
	mov	x3, x24
	mov	x4, x19
	bl	"_qpack_base::prefix_string::append_plain::<#7b66556a84635673>"
	b	Lh3q_BB92_97
Lh3q_BB92_84:
	cmp	x9, x24
	b.ls	Lh3q_BB92_92
Lh3q_BB92_85:
	str	x24, [x19, #8]
	b	Lh3q_BB92_92
Lh3q_BB92_86:
	cmp	x9, x26
	b.ls	Lh3q_BB92_88
	str	x26, [x19, #8]
Lh3q_BB92_88:
	mov	w0, #4
	mov	w1, #2
	b	Lh3q_BB92_96
Lh3q_BB92_89:
	cmp	x8, x26
	b.ls	Lh3q_BB92_5
	b	Lh3q_BB92_120
Lh3q_BB92_90:
	cmp	x9, x26
	b.ls	Lh3q_BB92_92
Lh3q_BB92_91:
	str	x26, [x19, #8]
Lh3q_BB92_92:
	mov	w0, #8
	mov	w1, wzr
	mov	x2, x23
	mov	x3, x22
	mov	x4, x19
	bl	"_qpack_base::prefix_string::append_plain::<#7b66556a84635673>"
	and	w8, w0, #0xff
	tbz	w8, #0, Lh3q_BB92_6
	b	Lh3q_BB92_124
Lh3q_BB92_93:
	cmp	x8, x26
	b.ls	Lh3q_BB92_95
Lh3q_BB92_94:
	str	x26, [x19, #8]
Lh3q_BB92_95:
	mov	w0, #4
	mov	w1, #3
Lh3q_BB92_96:
	mov	x2, x25
	mov	x3, x24
	mov	x4, x19
	bl	"_qpack_base::prefix_string::append_measured::<#7b66556a84635673>"
Lh3q_BB92_97:
	and	w8, w0, #0xff
	tbnz	w8, #0, Lh3q_BB92_1
Lh3q_BB92_98:
	ldp	x24, x8, [x19, #8]
	subs	x8, x8, x24
	csel	x8, xzr, x8, lo
	cmp	x22, x8, lsr #2
	b.hs	Lh3q_BB92_103
	sub	x8, x22, x22, lsr #2
	cmp	x8, #126
	b.hi	Lh3q_BB92_104
	ldr	x8, [x19]
	add	x9, x24, #1
	mov	x0, x23
	mov	x1, x22
	mov	x2, x19
	strb	wzr, [x8, x24]
	str	x9, [x19, #8]
	bl	"_qpack_base::prefix_string::encoding::put_payload::<#7b66556a84635673>"
	ldr	x8, [x19, #8]
	mvn	x9, x24
	add	x9, x8, x9
	cmp	x9, x22
	b.hs	Lh3q_BB92_109
	cmp	x9, #126
	b.hi	Lh3q_BB92_112
Lh3q_BB92_102:
	ldr	x8, [x19]
	orr	w9, w9, #0x80
	strb	w9, [x8, x24]
	b	Lh3q_BB92_6
Lh3q_BB92_103:
	mov	w0, #8
	mov	w1, wzr
	mov	x2, x23
	mov	x3, x22
	mov	x4, x19
	bl	"_qpack_base::prefix_string::append_measured::<#7b66556a84635673>"
	and	w8, w0, #0xff
	tbz	w8, #0, Lh3q_BB92_6
	b	Lh3q_BB92_126
Lh3q_BB92_104:
	cmp	x8, #254
	b.hi	Lh3q_BB92_114
	ldr	x8, [x19]
	add	x25, x24, #1
	add	x9, x24, #2
	mov	x0, x23
	mov	x1, x22
	mov	x2, x19
	strb	wzr, [x8, x24]
	ldr	x8, [x19]
	strb	wzr, [x8, x25]
	str	x9, [x19, #8]
	bl	"_qpack_base::prefix_string::encoding::put_payload::<#7b66556a84635673>"
	ldr	x9, [x19, #8]
	sub	x8, x9, x24
	sub	x10, x8, #2
	cmp	x10, x22
	b.hs	Lh3q_BB92_115
	cmp	x10, #127
	b.lo	Lh3q_BB92_117
	cmp	x8, #256
	b.hi	Lh3q_BB92_117
	ldr	x9, [x19]
	mov	w10, #255
	add	w8, w8, #127
	strb	w10, [x9, x24]
	ldr	x9, [x19]
	strb	w8, [x9, x25]
	b	Lh3q_BB92_6
Lh3q_BB92_109:
	cmp	x8, x24
	b.ls	Lh3q_BB92_111
Lh3q_BB92_110:
	str	x24, [x19, #8]
Lh3q_BB92_111:
	mov	w0, #8
	mov	w1, wzr
	mov	x2, x23
	mov	x3, x22
	mov	x4, x19
	bl	"_qpack_base::prefix_string::append_plain::<#7b66556a84635673>"
	and	w8, w0, #0xff
	tbz	w8, #0, Lh3q_BB92_6
	b	Lh3q_BB92_126
Lh3q_BB92_112:
	cmp	x8, x24
	b.ls	Lh3q_BB92_114
Lh3q_BB92_113:
	str	x24, [x19, #8]
Lh3q_BB92_114:
	mov	w0, #8
	mov	w1, wzr
	mov	x2, x23
	mov	x3, x22
	mov	x4, x19
	bl	"_qpack_base::prefix_string::append_measured::<#7b66556a84635673>"
	tst	w0, #0xff
	b.eq	Lh3q_BB92_6
	b	Lh3q_BB92_126
Lh3q_BB92_115:
	cmp	x9, x24
	b.hi	Lh3q_BB92_110
	b	Lh3q_BB92_111
Lh3q_BB92_116:
	cmp	x9, x26
	b.hi	Lh3q_BB92_81
	b	Lh3q_BB92_82
Lh3q_BB92_117:
	cmp	x9, x24
	b.hi	Lh3q_BB92_113
	b	Lh3q_BB92_114
Lh3q_BB92_118:
	cmp	x9, x24
	b.hi	Lh3q_BB92_4
	b	Lh3q_BB92_5
Lh3q_BB92_119:
	cmp	x9, x26
	b.ls	Lh3q_BB92_5
Lh3q_BB92_120:
	str	x26, [x19, #8]
	b	Lh3q_BB92_5
Lh3q_BB92_121:
	cmp	x9, x26
	b.hi	Lh3q_BB92_94
	b	Lh3q_BB92_95
Lh3q_BB92_122:
	mov	w0, wzr
Lh3q_BB92_123:
	ldp	x29, x30, [sp, #112]
	ldp	x20, x19, [sp, #96]
	ldp	x22, x21, [sp, #80]
	ldp	x24, x23, [sp, #64]
	ldp	x26, x25, [sp, #48]
	ldp	x28, x27, [sp, #32]
	add	sp, sp, #128
	ret
Lh3q_BB92_124:
	ldr	x8, [x19, #8]
	cmp	x8, x25
	b.ls	Lh3q_BB92_1
	str	x25, [x19, #8]
	b	Lh3q_BB92_1
Lh3q_BB92_126:
	ldr	x8, [x19, #8]
	cmp	x8, x26
	b.ls	Lh3q_BB92_1
	str	x26, [x19, #8]
	b	Lh3q_BB92_1
Lh3q_BB92_128:
	mov	w0, w26
	b	Lh3q_BB92_123
Lh3q_BB92_129:
	mov	w0, w22
	b	Lh3q_BB92_123
	.loh AdrpAdd	Lh3q_loh134, Lh3q_loh135
	.loh AdrpAdd	Lh3q_loh132, Lh3q_loh133
	.loh AdrpAdd	Lh3q_loh130, Lh3q_loh131
	.loh AdrpAdd	Lh3q_loh128, Lh3q_loh129

	.p2align	2
"_qpack_wire::block::prefix::HeaderPrefix::encode::<#7b66556a84635673>":
	stp	x24, x23, [sp, #-64]!
	stp	x22, x21, [sp, #16]
	ldr	x22, [x0]
	ldr	x23, [x1, #8]
	stp	x20, x19, [sp, #32]
	mov	x19, x1
	mov	x21, x0
	ldrb	w20, [x0, #8]
	cmp	x22, #254
	stp	x29, x30, [sp, #48]
	add	x29, sp, #48
	b.hi	Lh3q_BB93_5
	ldr	x8, [x19, #16]
	cmp	x8, x23
	mov	x8, x23
	b.hi	Lh3q_BB93_4
	mov	x0, x19
	mov	w1, #1
	bl	"_qpack_base::coding::grow::<#7b66556a84635673>"
	mov	w8, w0
	mov	w0, #1
	and	w8, w8, #0xff
	tbnz	w8, #0, Lh3q_BB93_11
	ldr	x8, [x19, #8]
Lh3q_BB93_4:
	ldr	x9, [x19]
	add	x10, x8, #1
	strb	w22, [x9, x8]
	str	x10, [x19, #8]
	b	Lh3q_BB93_6
Lh3q_BB93_5:
	mov	w0, #8
	mov	w1, wzr
	mov	x2, x22
	mov	x3, x19
	bl	"_qpack_base::prefix_int::encode_long::<#7b66556a84635673>"
	and	w8, w0, #0xff
	tbnz	w8, #0, Lh3q_BB93_15
Lh3q_BB93_6:
	ldr	x21, [x21, #16]
	cmp	x21, #126
	b.hi	Lh3q_BB93_12
	ldp	x8, x9, [x19, #8]
	cmp	x9, x8
	b.hi	Lh3q_BB93_10
	mov	x0, x19
	mov	w1, #1
	bl	"_qpack_base::coding::grow::<#7b66556a84635673>"
	and	w8, w0, #0xff
	tbnz	w8, #0, Lh3q_BB93_13
	ldr	x8, [x19, #8]
Lh3q_BB93_10:
	ldr	x9, [x19]
	orr	w10, w21, w20, lsl #7
	add	x11, x8, #1
	mov	w0, wzr
	strb	w10, [x9, x8]
	str	x11, [x19, #8]
Lh3q_BB93_11:
	ldp	x29, x30, [sp, #48]
	ldp	x20, x19, [sp, #32]
	ldp	x22, x21, [sp, #16]
	ldp	x24, x23, [sp], #64
	ret
Lh3q_BB93_12:
	mov	w0, #7
	mov	w1, w20
	mov	x2, x21
	mov	x3, x19
	bl	"_qpack_base::prefix_int::encode_long::<#7b66556a84635673>"
	tst	w0, #0xff
	b.eq	Lh3q_BB93_16
Lh3q_BB93_13:
	ldr	x8, [x19, #8]
	cmp	x8, x23
	b.ls	Lh3q_BB93_15
	str	x23, [x19, #8]
Lh3q_BB93_15:
	mov	w0, #1
	ldp	x29, x30, [sp, #48]
	ldp	x20, x19, [sp, #32]
	ldp	x22, x21, [sp, #16]
	ldp	x24, x23, [sp], #64
	ret
Lh3q_BB93_16:
	mov	w0, wzr
	ldp	x29, x30, [sp, #48]
	ldp	x20, x19, [sp, #32]
	ldp	x22, x21, [sp, #16]
	ldp	x24, x23, [sp], #64
	ret

	.p2align	2
"_qpack_base::prefix_int::encode_long::<#7b66556a84635673>":
	mov	x8, #-1
	lsl	x8, x8, x0
	mvn	x8, x8
	subs	x9, x2, x8
	b.hs	Lh3q_BB94_2
	mov	w8, #1
	b	Lh3q_BB94_4
Lh3q_BB94_2:
	mov	w8, #2
	cmp	x9, #128
	b.lo	Lh3q_BB94_4
Lh3q_BB94_3:
	lsr	x10, x9, #14
	lsr	x9, x9, #7
	add	x8, x8, #1
	cbnz	x10, Lh3q_BB94_3
Lh3q_BB94_4:
	stp	x22, x21, [sp, #-48]!
	ldp	x10, x9, [x3, #8]
	stp	x20, x19, [sp, #16]
	stp	x29, x30, [sp, #32]
	add	x29, sp, #32
	subs	x9, x9, x10
	csel	x9, xzr, x9, lo
	cmp	x8, x9
	b.ls	Lh3q_BB94_7
	mov	x19, x0
	mov	x0, x3
	mov	w20, w1
	mov	x1, x8
	mov	x21, x3
	mov	x22, x2
	bl	"_qpack_base::coding::grow::<#7b66556a84635673>"
	mov	w8, w0
	mov	w1, w20
	mov	x2, x22
	mov	x3, x21
	mov	x0, x19
	and	w8, w8, #0xff
	tbz	w8, #0, Lh3q_BB94_7
	mov	w0, #1
	ldp	x29, x30, [sp, #32]
	ldp	x20, x19, [sp, #16]
	ldp	x22, x21, [sp], #48
	ret
Lh3q_BB94_7:
	bl	"_qpack_base::prefix_int::put_long::<#7b66556a84635673>"
	mov	w0, wzr
	ldp	x29, x30, [sp, #32]
	ldp	x20, x19, [sp, #16]
	ldp	x22, x21, [sp], #48
	ret

	.p2align	2
"_qpack_base::prefix_int::put_long::<#7b66556a84635673>":
	mov	w8, #8
	mov	w9, #1
	sub	w8, w8, w0
	ldp	x12, x11, [x3]
	lsl	w8, w9, w8
	mov	x9, #-1
	lsl	x9, x9, x0
	add	w8, w8, #7
	and	w8, w8, w1
	mvn	x10, x9
	lsl	x8, x8, x0
	sub	x9, x2, x10
	cmp	x9, #128
	add	w8, w8, w10
	strb	w8, [x12, x11]
	add	x8, x11, #1
	b.lo	Lh3q_BB95_3
Lh3q_BB95_1:
	ldr	x11, [x3]
	lsr	x10, x9, #7
	lsr	x12, x9, #14
	orr	w9, w9, #0x80
	strb	w9, [x11, x8]
	add	x8, x8, #1
	mov	x9, x10
	cbnz	x12, Lh3q_BB95_1
	ldr	x9, [x3]
	add	x11, x8, #1
	strb	w10, [x9, x8]
	str	x11, [x3, #8]
	ret
Lh3q_BB95_3:
	mov	x10, x9
	ldr	x9, [x3]
	add	x11, x8, #1
	strb	w10, [x9, x8]
	str	x11, [x3, #8]
	ret

	.p2align	2
"_qpack_base::coding::grow::<#7b66556a84635673>":
	ldp	x9, x8, [x0, #8]
	sub	x8, x8, x9
	cmp	x1, x8
	b.hi	Lh3q_BB96_2
	mov	w0, wzr
	ret
Lh3q_BB96_2:
	stp	x29, x30, [sp, #-16]!
	mov	x29, sp
	bl	"_std_alloc::vec::Vec::grow_amortized::<#702c34bb3b270f26>"
	eor	w0, w0, #0x1
	ldp	x29, x30, [sp], #16
	ret

	.p2align	2
"_qpack_base::prefix_string::encoding::put_payload::<#7b66556a84635673>":
	sub	sp, sp, #144
	ldp	x8, x10, [x2]
	cmp	x1, #4
	ldr	x9, [x2, #16]
	stp	x22, x21, [sp, #96]
	mov	x21, x0
	stp	x20, x19, [sp, #112]
	mov	x19, x2
	mov	x20, x1
Lh3q_loh136:
	adrp	x22, l_static.12@PAGE
Lh3q_loh137:
	add	x22, x22, l_static.12@PAGEOFF
	stp	x29, x30, [sp, #128]
	add	x29, sp, #128
	b.hs	Lh3q_BB97_6
	mov	w12, wzr
	mov	x11, xzr
Lh3q_BB97_2:
	mov	x15, x21
	mov	x16, x20
	mov	w13, w12
	mov	x14, x11
	cbz	x20, Lh3q_BB97_4
Lh3q_BB97_3:
	ldrb	w17, [x15], #1
	subs	x16, x16, #1
	add	x17, x22, x17, lsl #3
	ldp	w0, w17, [x17]
	lsl	x14, x14, x0
	add	w13, w0, w13
	add	x14, x14, x17
	b.ne	Lh3q_BB97_3
Lh3q_BB97_4:
	sub	x15, x9, x10
	cmp	w13, #63
	ccmp	x15, #8, #0, ls
	b.hs	Lh3q_BB97_12
	sub	x0, x29, #56
	add	x1, sp, #48
	add	x2, sp, #8
	stp	x8, x10, [sp, #48]
	str	x9, [sp, #64]
	str	x11, [sp, #8]
	stp	w12, wzr, [sp, #16]
	stp	x21, x20, [sp, #24]
	stp	xzr, xzr, [x29, #-48]
	stur	xzr, [x29, #-56]
	bl	"_qpack_base::prefix_string::encoding::with_narrow_end::<#7b66556a84635673>"
	ldp	x8, x10, [x29, #-56]
	ldur	x9, [x29, #-40]
	b	Lh3q_BB97_13
Lh3q_BB97_6:
	mov	x11, xzr
	mov	w13, wzr
	b	Lh3q_BB97_9
Lh3q_BB97_7:
	add	x0, sp, #8
	sub	x1, x29, #56
	add	x2, sp, #48
	stp	x8, x10, [x29, #-56]
	stur	x9, [x29, #-40]
	str	x11, [sp, #48]
	stp	w13, wzr, [sp, #56]
	str	x21, [sp, #64]
	bl	"_qpack_base::prefix_string::encoding::with_long_codes::<#7b66556a84635673>"
	ldp	x8, x10, [sp, #8]
	ldr	w12, [sp, #40]
	ldp	x9, x11, [sp, #24]
Lh3q_BB97_8:
	sub	x20, x20, #4
	add	x21, x21, #4
	mov	w13, w12
	cmp	x20, #4
	b.lo	Lh3q_BB97_2
Lh3q_BB97_9:
	ldrb	w12, [x21]
	ldrb	w15, [x21, #1]
	ldrb	w16, [x21, #2]
	add	x14, x22, x12, lsl #3
	ldrb	w12, [x21, #3]
	add	x1, x22, x15, lsl #3
	add	x15, x22, x16, lsl #3
	ldr	w3, [x14]
	ldr	w2, [x1]
	add	x17, x22, x12, lsl #3
	ldr	w16, [x15]
	add	w12, w3, w13
	ldr	w0, [x17]
	add	w4, w2, w16
	add	w12, w12, w4
	add	w12, w12, w0
	cmp	w12, #63
	b.hi	Lh3q_BB97_7
	ldr	w13, [x14, #4]
	lsl	x11, x11, x3
	ldr	w14, [x17, #4]
	add	x11, x11, x13
	ldr	w13, [x1, #4]
	lsl	x11, x11, x2
	add	x11, x11, x13
	ldr	w13, [x15, #4]
	lsl	x11, x11, x16
	add	x11, x11, x13
	subs	w13, w12, #32
	lsl	x11, x11, x0
	add	x11, x11, x14
	b.lo	Lh3q_BB97_8
	lsr	x12, x11, x13
	rev	w12, w12
	str	w12, [x8, x10]
	add	x10, x10, #4
	mov	w12, w13
	b	Lh3q_BB97_8
Lh3q_BB97_12:
	mov	w11, #1
	eor	w12, w13, #0x3f
	add	w13, w13, #7
	orr	x11, x11, x14, lsl #1
	mov	x14, #-1
	lsl	x14, x14, x12
	lsl	x11, x11, x12
	lsr	w12, w13, #3
	mvn	x13, x14
	add	x14, x8, x10
	add	x11, x11, x13
	add	x13, x10, #8
	add	x10, x10, x12
	rev	x12, x11
	cmp	x13, x10
	rev	w11, w11
	stp	w12, w11, [x14]
	csel	x10, x13, x10, lo
Lh3q_BB97_13:
	stp	x8, x10, [x19]
	ldp	x29, x30, [sp, #128]
	str	x9, [x19, #16]
	ldp	x20, x19, [sp, #112]
	ldp	x22, x21, [sp, #96]
	add	sp, sp, #144
	ret
	.loh AdrpAdd	Lh3q_loh136, Lh3q_loh137

	.section	__TEXT,__literal16,16byte_literals
	.p2align	4, 0x0
lh3q_CPI98_0:
	.long	0
	.long	4294967288
	.long	4294967280
	.long	4294967272
	.section	__TEXT,__text,regular,pure_instructions
	.p2align	2
"_qpack_base::prefix_string::encoding::with_long_codes::<#7b66556a84635673>":
	ldr	x12, [x2, #16]
Lh3q_loh138:
	adrp	x13, l_static.12@PAGE
Lh3q_loh139:
	add	x13, x13, l_static.12@PAGEOFF
	ldr	x9, [x2]
	ldr	w10, [x2, #8]
	ldrb	w8, [x12]
	add	x8, x13, x8, lsl #3
	ldp	w11, w14, [x8]
	lsl	x17, x9, x11
	add	w15, w11, w10
	ldr	x9, [x1, #16]
	ldp	x8, x10, [x1]
	subs	w16, w15, #32
	add	x14, x17, x14
	adrp	x11, lh3q_CPI98_0@PAGE
	b.lo	Lh3q_BB98_2
	lsr	x15, x14, x16
	ldr	q1, [x11, lh3q_CPI98_0@PAGEOFF]
	rev	w15, w15
	dup.4s	v0, w15
	mov	w15, w16
	ushl.4s	v0, v0, v1
	xtn.4h	v0, v0
	uzp1.8b	v0, v0, v0
	str	s0, [x8, x10]
	add	x10, x10, #4
Lh3q_BB98_2:
	ldrb	w16, [x12, #1]
	add	x16, x13, x16, lsl #3
	ldp	w17, w1, [x16]
	lsl	x14, x14, x17
	add	w15, w17, w15
	subs	w16, w15, #32
	add	x14, x14, x1
	b.lo	Lh3q_BB98_4
	lsr	x15, x14, x16
	ldr	q1, [x11, lh3q_CPI98_0@PAGEOFF]
	rev	w15, w15
	dup.4s	v0, w15
	mov	w15, w16
	ushl.4s	v0, v0, v1
	xtn.4h	v0, v0
	uzp1.8b	v0, v0, v0
	str	s0, [x8, x10]
	add	x10, x10, #4
Lh3q_BB98_4:
	ldrb	w16, [x12, #2]
	add	x16, x13, x16, lsl #3
	ldp	w17, w1, [x16]
	lsl	x14, x14, x17
	add	w15, w17, w15
	subs	w16, w15, #32
	add	x14, x14, x1
	b.lo	Lh3q_BB98_6
	lsr	x15, x14, x16
	ldr	q1, [x11, lh3q_CPI98_0@PAGEOFF]
	rev	w15, w15
	dup.4s	v0, w15
	mov	w15, w16
	ushl.4s	v0, v0, v1
	xtn.4h	v0, v0
	uzp1.8b	v0, v0, v0
	str	s0, [x8, x10]
	add	x10, x10, #4
Lh3q_BB98_6:
	ldrb	w12, [x12, #3]
	add	x12, x13, x12, lsl #3
	ldp	w13, w12, [x12]
	lsl	x16, x14, x13
	add	w14, w13, w15
	subs	w13, w14, #32
	add	x12, x16, x12
	b.lo	Lh3q_BB98_8
	lsr	x14, x12, x13
	ldr	q1, [x11, lh3q_CPI98_0@PAGEOFF]
	rev	w14, w14
	dup.4s	v0, w14
	mov	w14, w13
	ushl.4s	v0, v0, v1
	xtn.4h	v0, v0
	uzp1.8b	v0, v0, v0
	str	s0, [x8, x10]
	add	x10, x10, #4
Lh3q_BB98_8:
	stp	x8, x10, [x0]
	stp	x9, x12, [x0, #16]
	stp	w14, wzr, [x0, #32]
	ret
	.loh AdrpAdd	Lh3q_loh138, Lh3q_loh139

	.section	__TEXT,__literal16,16byte_literals
	.p2align	4, 0x0
lh3q_CPI99_0:
	.long	0
	.long	4294967288
	.long	4294967280
	.long	4294967272
lh3q_CPI99_1:
	.quad	-112
	.quad	-120
lh3q_CPI99_2:
	.quad	-96
	.quad	-104
lh3q_CPI99_3:
	.quad	-80
	.quad	-88
lh3q_CPI99_4:
	.quad	-64
	.quad	-72
lh3q_CPI99_5:
	.quad	-48
	.quad	-56
lh3q_CPI99_6:
	.quad	-32
	.quad	-40
lh3q_CPI99_7:
	.quad	-16
	.quad	-24
lh3q_CPI99_8:
	.quad	0
	.quad	-8
lh3q_CPI99_9:
	.byte	0
	.byte	8
	.byte	16
	.byte	24
	.byte	32
	.byte	40
	.byte	48
	.byte	56
	.byte	64
	.byte	72
	.byte	80
	.byte	88
	.byte	96
	.byte	104
	.byte	112
	.byte	120
	.section	__TEXT,__text,regular,pure_instructions
	.p2align	2
"_qpack_base::prefix_string::encoding::with_narrow_end::<#7b66556a84635673>":
	ldp	x8, x11, [x1]
	ldr	x12, [x2, #24]
	ldr	x9, [x1, #16]
	ldr	x10, [x2]
	ldr	w13, [x2, #8]
	cbz	x12, Lh3q_BB99_5
	ldr	x14, [x2, #16]
	b	Lh3q_BB99_3
Lh3q_BB99_2:
	subs	x12, x12, #1
	b.eq	Lh3q_BB99_5
Lh3q_BB99_3:
	ldrb	w15, [x14], #1
Lh3q_loh140:
	adrp	x16, l_static.12@PAGE
Lh3q_loh141:
	add	x16, x16, l_static.12@PAGEOFF
	add	x15, x16, x15, lsl #3
	ldp	w16, w17, [x15]
	lsl	x10, x10, x16
	add	w13, w16, w13
	subs	w15, w13, #32
	add	x10, x10, x17
	b.lo	Lh3q_BB99_2
	lsr	x13, x10, x15
	rev	w13, w13
	dup.4s	v0, w13
Lh3q_loh142:
	adrp	x13, lh3q_CPI99_0@PAGE
Lh3q_loh143:
	ldr	q1, [x13, lh3q_CPI99_0@PAGEOFF]
	mov	w13, w15
	ushl.4s	v0, v0, v1
	xtn.4h	v0, v0
	uzp1.8b	v0, v0, v0
	str	s0, [x8, x11]
	add	x11, x11, #4
	b	Lh3q_BB99_2
Lh3q_BB99_5:
	neg	w12, w13
	and	w14, w12, #0x7
	add	w12, w14, w13
	cmp	w12, #8
	b.lo	Lh3q_BB99_8
	mov	x15, #-1
	lsl	x13, x15, x13
	lsl	x15, x15, x14
	bic	x10, x10, x13
	sub	x13, x12, #8
	lsl	x10, x10, x14
	mvn	x14, x15
	cmp	x13, #120
	add	x10, x10, x14
	b.hs	Lh3q_BB99_9
	mov	x13, x12
	mov	x12, x11
	b	Lh3q_BB99_12
Lh3q_BB99_8:
	stp	x8, x11, [x0]
	str	x9, [x0, #16]
	ret
Lh3q_BB99_9:
	lsr	x13, x13, #3
Lh3q_loh144:
	adrp	x14, lh3q_CPI99_1@PAGE
Lh3q_loh145:
	adrp	x16, lh3q_CPI99_3@PAGE
Lh3q_loh146:
	ldr	q1, [x14, lh3q_CPI99_1@PAGEOFF]
Lh3q_loh147:
	ldr	q3, [x16, lh3q_CPI99_3@PAGEOFF]
Lh3q_loh148:
	adrp	x16, lh3q_CPI99_5@PAGE
	add	x14, x13, #1
Lh3q_loh149:
	adrp	x13, lh3q_CPI99_4@PAGE
	dup.2d	v16, x12
Lh3q_loh150:
	ldr	q4, [x13, lh3q_CPI99_4@PAGEOFF]
Lh3q_loh151:
	adrp	x13, lh3q_CPI99_6@PAGE
Lh3q_loh152:
	adrp	x15, lh3q_CPI99_2@PAGE
Lh3q_loh153:
	ldr	q5, [x16, lh3q_CPI99_5@PAGEOFF]
Lh3q_loh154:
	ldr	q6, [x13, lh3q_CPI99_6@PAGEOFF]
Lh3q_loh155:
	adrp	x13, lh3q_CPI99_7@PAGE
Lh3q_loh156:
	adrp	x16, lh3q_CPI99_8@PAGE
Lh3q_loh157:
	ldr	q2, [x15, lh3q_CPI99_2@PAGEOFF]
Lh3q_loh158:
	ldr	q7, [x13, lh3q_CPI99_7@PAGEOFF]
Lh3q_loh159:
	ldr	q17, [x16, lh3q_CPI99_8@PAGEOFF]
	dup.2d	v0, x10
	and	x15, x14, #0x3ffffffffffffff0
	add.2d	v1, v16, v1
	add.2d	v2, v16, v2
	add.2d	v3, v16, v3
	add.2d	v4, v16, v4
	add.2d	v5, v16, v5
	add.2d	v6, v16, v6
	add.2d	v7, v16, v7
	add.2d	v16, v16, v17
	sub	x13, x12, x15, lsl #3
	add	x12, x11, x15
	add	x11, x8, x11
	and	x16, x14, #0x3ffffffffffffff0
Lh3q_BB99_10:
	mov	w17, #8
	subs	x16, x16, #16
	dup.2d	v17, x17
Lh3q_loh160:
	adrp	x17, lh3q_CPI99_9@PAGE
	sub.2d	v18, v17, v4
	sub.2d	v19, v17, v6
	sub.2d	v20, v17, v3
	sub.2d	v21, v17, v7
	sub.2d	v22, v17, v2
	sub.2d	v23, v17, v16
	ushl.2d	v24, v0, v18
	sub.2d	v18, v17, v1
	ushl.2d	v30, v0, v19
	sub.2d	v17, v17, v5
	ushl.2d	v25, v0, v20
	ushl.2d	v29, v0, v21
	ushl.2d	v26, v0, v22
	ushl.2d	v28, v0, v23
	ushl.2d	v27, v0, v18
	ushl.2d	v31, v0, v17
Lh3q_loh161:
	ldr	q17, [x17, lh3q_CPI99_9@PAGEOFF]
	mov	x17, #-128
	dup.2d	v19, x17
	tbl.16b	v18, { v28, v29, v30, v31 }, v17
	tbl.16b	v17, { v24, v25, v26, v27 }, v17
	add.2d	v7, v7, v19
	add.2d	v16, v16, v19
	add.2d	v6, v6, v19
	add.2d	v5, v5, v19
	add.2d	v4, v4, v19
	add.2d	v3, v3, v19
	add.2d	v2, v2, v19
	add.2d	v1, v1, v19
	mov.d	v18[1], v17[0]
	str	q18, [x11], #16
	b.ne	Lh3q_BB99_10
	cmp	x14, x15
	b.eq	Lh3q_BB99_13
Lh3q_BB99_12:
	sub	x13, x13, #8
	lsr	x11, x10, x13
	cmp	x13, #7
	strb	w11, [x8, x12]
	add	x12, x12, #1
	b.hi	Lh3q_BB99_12
Lh3q_BB99_13:
	stp	x8, x12, [x0]
	str	x9, [x0, #16]
	ret
	.loh AdrpAdd	Lh3q_loh140, Lh3q_loh141
	.loh AdrpLdr	Lh3q_loh142, Lh3q_loh143
	.loh AdrpLdr	Lh3q_loh156, Lh3q_loh159
	.loh AdrpLdr	Lh3q_loh155, Lh3q_loh158
	.loh AdrpLdr	Lh3q_loh152, Lh3q_loh157
	.loh AdrpAdrp	Lh3q_loh151, Lh3q_loh155
	.loh AdrpLdr	Lh3q_loh151, Lh3q_loh154
	.loh AdrpAdrp	Lh3q_loh149, Lh3q_loh151
	.loh AdrpLdr	Lh3q_loh149, Lh3q_loh150
	.loh AdrpAdrp	Lh3q_loh148, Lh3q_loh156
	.loh AdrpLdr	Lh3q_loh148, Lh3q_loh153
	.loh AdrpAdrp	Lh3q_loh145, Lh3q_loh148
	.loh AdrpLdr	Lh3q_loh145, Lh3q_loh147
	.loh AdrpLdr	Lh3q_loh144, Lh3q_loh146
	.loh AdrpLdr	Lh3q_loh160, Lh3q_loh161

	.p2align	2
"_qpack_base::prefix_string::append_plain::<#7b66556a84635673>":
	stp	x26, x25, [sp, #-80]!
	stp	x24, x23, [sp, #16]
	mov	x8, #-1
	sub	w24, w0, #1
	lsl	x8, x8, x24
	stp	x22, x21, [sp, #32]
	mov	x21, x3
	stp	x20, x19, [sp, #48]
	mov	x19, x4
	mov	x20, x2
	mvn	x25, x8
	mov	w22, w0
	mov	w23, w1
	subs	x9, x3, x25
	stp	x29, x30, [sp, #64]
	add	x29, sp, #64
	b.hs	Lh3q_BB100_2
	mov	w8, #1
	b	Lh3q_BB100_4
Lh3q_BB100_2:
	mov	w8, #2
	cmp	x9, #128
	b.lo	Lh3q_BB100_4
Lh3q_BB100_3:
	lsr	x10, x9, #14
	lsr	x9, x9, #7
	add	x8, x8, #1
	cbnz	x10, Lh3q_BB100_3
Lh3q_BB100_4:
	ldp	x10, x9, [x19, #8]
	adds	x8, x8, x21
	csinv	x1, x8, xzr, lo
	subs	x8, x9, x10
	csel	x8, xzr, x8, lo
	cmp	x1, x8
	b.ls	Lh3q_BB100_7
	mov	x0, x19
	bl	"_qpack_base::coding::grow::<#7b66556a84635673>"
	and	w8, w0, #0xff
	tbz	w8, #0, Lh3q_BB100_7
	mov	w0, #1
	ldp	x29, x30, [sp, #64]
	ldp	x20, x19, [sp, #48]
	ldp	x22, x21, [sp, #32]
	ldp	x24, x23, [sp, #16]
	ldp	x26, x25, [sp], #80
	ret
Lh3q_BB100_7:
	lsl	w1, w23, #1
	cmp	x21, x25
	and	x0, x24, #0xff
	b.hs	Lh3q_BB100_9
	mov	w8, #9
	mov	w9, #1
	sub	w8, w8, w22
	lsl	w8, w9, w8
	ldp	x10, x9, [x19]
	add	w8, w8, #7
	and	w8, w8, w1
	lsl	x11, x8, x0
	add	x8, x9, #1
	add	w11, w11, w21
	strb	w11, [x10, x9]
	str	x8, [x19, #8]
	ldr	x9, [x19]
	ldr	x10, [x19, #16]
	cmp	x21, #8
	b.hs	Lh3q_BB100_10
	b	Lh3q_BB100_14
Lh3q_BB100_9:
	mov	x2, x21
	mov	x3, x19
	bl	"_qpack_base::prefix_int::put_long::<#7b66556a84635673>"
	ldp	x9, x8, [x19]
	ldr	x10, [x19, #16]
	cmp	x21, #8
	b.lo	Lh3q_BB100_14
Lh3q_BB100_10:
	mov	x11, xzr
	add	x12, x9, x8
Lh3q_BB100_11:
	sub	x13, x21, #8
	cmp	x13, #7
	b.ls	Lh3q_BB100_19
	sub	x21, x21, #16
	ldr	q0, [x20, x11]
	cmp	x21, #7
	str	q0, [x12, x11]
	add	x11, x11, #16
	b.hi	Lh3q_BB100_11
	add	x20, x20, x11
	add	x8, x8, x11
Lh3q_BB100_14:
	subs	x11, x21, #4
	b.hs	Lh3q_BB100_20
Lh3q_BB100_15:
	subs	x11, x21, #2
	b.hs	Lh3q_BB100_21
Lh3q_BB100_16:
	cbz	x21, Lh3q_BB100_18
Lh3q_BB100_17:
	ldrb	w11, [x20]
	strb	w11, [x9, x8]
	add	x8, x8, #1
Lh3q_BB100_18:
	mov	w0, wzr
	stp	x9, x8, [x19]
	str	x10, [x19, #16]
	ldp	x29, x30, [sp, #64]
	ldp	x20, x19, [sp, #48]
	ldp	x22, x21, [sp, #32]
	ldp	x24, x23, [sp, #16]
	ldp	x26, x25, [sp], #80
	ret
Lh3q_BB100_19:
	add	x20, x20, x11
	add	x8, x8, x11
	mov	x21, x13
	ldr	x12, [x20], #8
	str	x12, [x8, x9]
	add	x8, x8, #8
	subs	x11, x13, #4
	b.lo	Lh3q_BB100_15
Lh3q_BB100_20:
	ldr	w12, [x20], #4
	mov	x21, x11
	str	w12, [x9, x8]
	add	x8, x8, #4
	subs	x11, x11, #2
	b.lo	Lh3q_BB100_16
Lh3q_BB100_21:
	ldrh	w12, [x20], #2
	strh	w12, [x9, x8]
	add	x8, x8, #2
	cbnz	x11, Lh3q_BB100_17
	b	Lh3q_BB100_18

	.p2align	2
"_qpack_base::prefix_string::append_measured::<#7b66556a84635673>":
	stp	x26, x25, [sp, #-80]!
	mov	w8, #67108864
	stp	x24, x23, [sp, #16]
	cmp	x3, x8
	stp	x22, x21, [sp, #32]
	stp	x20, x19, [sp, #48]
	stp	x29, x30, [sp, #64]
	add	x29, sp, #64
	b.ls	Lh3q_BB101_5
	mov	x8, xzr
	mov	x10, xzr
	mov	x9, x2
	mov	x11, x3
Lh3q_BB101_2:
	ldrb	w12, [x9], #1
Lh3q_loh162:
	adrp	x13, l_static.12@PAGE
Lh3q_loh163:
	add	x13, x13, l_static.12@PAGEOFF
	lsl	x12, x12, #3
	ldr	w12, [x13, x12]
	add	x10, x10, x12
	adds	x8, x8, x10, lsr #3
	and	x10, x10, #0x7
	csinv	x8, x8, xzr, lo
	subs	x11, x11, #1
	b.ne	Lh3q_BB101_2
	adds	x9, x8, #1
	csinv	x9, x9, xzr, lo
	cmp	x10, #0
	csel	x19, x8, x9, eq
	cmp	x19, x3
	b.lo	Lh3q_BB101_15
Lh3q_BB101_4:
	ldp	x29, x30, [sp, #64]
	ldp	x20, x19, [sp, #48]
	ldp	x22, x21, [sp, #32]
	ldp	x24, x23, [sp, #16]
	ldp	x26, x25, [sp], #80
	b	"_qpack_base::prefix_string::append_plain::<#7b66556a84635673>"
Lh3q_BB101_5:
	cmp	x3, #4
Lh3q_loh164:
	adrp	x8, l_static.12@PAGE
Lh3q_loh165:
	add	x8, x8, l_static.12@PAGEOFF
	b.hs	Lh3q_BB101_10
	mov	w10, #7
	mov	x9, x3
	mov	x11, x2
	cbz	x3, Lh3q_BB101_13
Lh3q_BB101_7:
	ldrb	w12, [x11]
	cmp	x9, #1
	lsl	x12, x12, #3
	ldr	w12, [x8, x12]
	b.eq	Lh3q_BB101_14
	ldrb	w13, [x11, #1]
	cmp	x9, #2
	lsl	x13, x13, #3
	ldr	w13, [x8, x13]
	add	w12, w13, w12
	b.eq	Lh3q_BB101_14
	ldrb	w9, [x11, #2]
	lsl	x9, x9, #3
	ldr	w8, [x8, x9]
	add	w12, w8, w12
	b	Lh3q_BB101_14
Lh3q_BB101_10:
	mov	w10, wzr
	mov	x12, x2
	mov	x9, x3
Lh3q_BB101_11:
	ldrb	w11, [x12]
	ldrb	w13, [x12, #1]
	sub	x9, x9, #4
	ldrb	w14, [x12, #2]
	ldrb	w15, [x12, #3]
	cmp	x9, #4
	lsl	x11, x11, #3
	lsl	x13, x13, #3
	lsl	x14, x14, #3
	lsl	x15, x15, #3
	ldr	w11, [x8, x11]
	ldr	w13, [x8, x13]
	ldr	w14, [x8, x14]
	ldr	w15, [x8, x15]
	add	w10, w11, w10
	add	x11, x12, #4
	add	w13, w13, w14
	mov	x12, x11
	add	w10, w10, w13
	add	w10, w10, w15
	b.hs	Lh3q_BB101_11
	add	w10, w10, #7
	cbnz	x9, Lh3q_BB101_7
Lh3q_BB101_13:
	mov	w12, wzr
Lh3q_BB101_14:
	add	w8, w12, w10
	lsr	w19, w8, #3
	cmp	x19, x3
	b.hs	Lh3q_BB101_4
Lh3q_BB101_15:
	sub	w20, w0, #1
	mov	x8, #-1
	lsl	x8, x8, x20
	mvn	x21, x8
	subs	x9, x19, x21
	b.hs	Lh3q_BB101_17
	mov	w8, #1
	b	Lh3q_BB101_19
Lh3q_BB101_17:
	mov	w8, #2
	cmp	x9, #128
	b.lo	Lh3q_BB101_19
Lh3q_BB101_18:
	lsr	x10, x9, #14
	lsr	x9, x9, #7
	add	x8, x8, #1
	cbnz	x10, Lh3q_BB101_18
Lh3q_BB101_19:
	ldp	x10, x9, [x4, #8]
	adds	x8, x8, x19
	csinv	x8, x8, xzr, lo
	subs	x9, x9, x10
	csel	x9, xzr, x9, lo
	cmp	x8, x9
	b.ls	Lh3q_BB101_22
	mov	w22, w0
	mov	x0, x4
	mov	w23, w1
	mov	x1, x8
	mov	x24, x4
	mov	x26, x3
	mov	x25, x2
	bl	"_qpack_base::coding::grow::<#7b66556a84635673>"
	mov	w8, w0
	mov	w1, w23
	mov	x2, x25
	mov	x3, x26
	mov	x4, x24
	mov	w0, w22
	and	w8, w8, #0xff
	tbz	w8, #0, Lh3q_BB101_22
	mov	w0, #1
	ldp	x29, x30, [sp, #64]
	ldp	x20, x19, [sp, #48]
	ldp	x22, x21, [sp, #32]
	ldp	x24, x23, [sp, #16]
	ldp	x26, x25, [sp], #80
	ret
Lh3q_BB101_22:
	mov	w9, #1
	cmp	x19, x21
	and	x8, x20, #0xff
	orr	w1, w9, w1, lsl #1
	b.hs	Lh3q_BB101_24
	mov	w10, #9
	sub	w10, w10, w0
	lsl	w9, w9, w10
	ldp	x11, x10, [x4]
	add	w9, w9, #7
	and	w9, w9, w1
	lsl	x8, x9, x8
	add	x9, x10, #1
	add	w8, w19, w8
	strb	w8, [x11, x10]
	str	x9, [x4, #8]
	b	Lh3q_BB101_25
Lh3q_BB101_24:
	mov	w0, w8
	mov	x20, x2
	mov	x2, x19
	mov	x19, x3
	mov	x3, x4
	mov	x21, x4
	bl	"_qpack_base::prefix_int::put_long::<#7b66556a84635673>"
	mov	x2, x20
	mov	x3, x19
	mov	x4, x21
Lh3q_BB101_25:
	mov	x0, x2
	mov	x1, x3
	mov	x2, x4
	bl	"_qpack_base::prefix_string::encoding::put_payload::<#7b66556a84635673>"
	mov	w0, wzr
	ldp	x29, x30, [sp, #64]
	ldp	x20, x19, [sp, #48]
	ldp	x22, x21, [sp, #32]
	ldp	x24, x23, [sp, #16]
	ldp	x26, x25, [sp], #80
	ret
	.loh AdrpAdd	Lh3q_loh162, Lh3q_loh163
	.loh AdrpAdd	Lh3q_loh164, Lh3q_loh165

	.p2align	2
"_qpack_table::dynamic::table::DynamicTable::release_references::<#f1ee30144fd2ee58>":
	ldr	x9, [x0, #112]
	cbz	x9, Lh3q_BB102_20
	ldr	x8, [x0, #48]
	ldr	x10, [x0, #104]
	b	Lh3q_BB102_5
Lh3q_BB102_2:
	ldr	x13, [x0, #24]
	mov	w14, #48
	madd	x12, x13, x14, x12
	madd	x11, x11, x14, x12
Lh3q_BB102_3:
	strb	wzr, [x11, #33]
Lh3q_BB102_4:
	subs	x9, x9, #1
	b.eq	Lh3q_BB102_9
Lh3q_BB102_5:
	ldr	x11, [x10], #8
	subs	x11, x11, x8
	b.ls	Lh3q_BB102_4
	cmp	x11, #0
	ldr	x12, [x0, #8]
	cset	w13, ne
	sub	x11, x11, x13
	subs	x13, x11, x12
	b.hs	Lh3q_BB102_4
	ldr	x14, [x0, #32]
	sub	x15, x12, x14
	ldr	x12, [x0]
	cmp	x11, x15
	b.lo	Lh3q_BB102_2
	add	x11, x13, x14
	mov	w13, #48
	madd	x11, x11, x13, x12
	b	Lh3q_BB102_3
Lh3q_BB102_9:
	ldr	x9, [x0, #112]
	cbz	x9, Lh3q_BB102_20
	ldr	x10, [x0, #104]
	b	Lh3q_BB102_14
Lh3q_BB102_11:
	add	x11, x13, x14
	mov	w13, #48
	madd	x11, x11, x13, x12
Lh3q_BB102_12:
	ldr	x12, [x11, #40]
	sub	x12, x12, #1
	str	x12, [x11, #40]
Lh3q_BB102_13:
	subs	x9, x9, #1
	b.eq	Lh3q_BB102_18
Lh3q_BB102_14:
	ldr	x11, [x10], #8
	subs	x11, x11, x8
	b.ls	Lh3q_BB102_13
	cmp	x11, #0
	ldr	x12, [x0, #8]
	cset	w13, ne
	sub	x11, x11, x13
	subs	x13, x11, x12
	b.hs	Lh3q_BB102_13
	ldr	x14, [x0, #32]
	sub	x15, x12, x14
	ldr	x12, [x0]
	cmp	x11, x15
	b.hs	Lh3q_BB102_11
	ldr	x13, [x0, #24]
	mov	w14, #48
	madd	x12, x13, x14, x12
	madd	x11, x11, x14, x12
	b	Lh3q_BB102_12
Lh3q_BB102_18:
	ldr	x8, [x0, #112]
	cbz	x8, Lh3q_BB102_20
	str	xzr, [x0, #112]
Lh3q_BB102_20:
	ret

	.p2align	2
"_std_alloc::vec::Vec::grow_amortized::<#fcdd31f4e0a7443b>":
	ldr	x8, [x0, #8]
	cmn	x8, #1
	b.eq	Lh3q_BB103_5
	stp	x20, x19, [sp, #-32]!
	ldr	x9, [x0, #16]
	cmp	x8, #3
	mov	w10, #3
	csel	x11, x8, x10, hi
	stp	x29, x30, [sp, #16]
	add	x29, sp, #16
	lsl	x10, x9, #1
	add	x12, x11, #1
	lsr	x13, x9, #62
	cmp	x12, x10
	csinc	x10, x10, x11, ls
	cmp	x13, #0
	csinc	x19, x10, x11, eq
	lsr	x11, x19, #59
	cbnz	x11, Lh3q_BB103_7
	cbz	x9, Lh3q_BB103_6
	mov	x20, x0
	ldr	x0, [x0]
	lsl	x1, x8, #4
	lsl	x2, x19, #4
	mov	w3, #8
	bl	_rattle_realloc
	tbz	w0, #0, Lh3q_BB103_7
Lh3q_BB103_4:
	mov	w0, #1
	str	x1, [x20]
	str	x19, [x20, #16]
	ldp	x29, x30, [sp, #16]
	ldp	x20, x19, [sp], #32
	ret
Lh3q_BB103_5:
	mov	w0, wzr
	ret
Lh3q_BB103_6:
	mov	x20, x0
	lsl	x0, x10, #4
	mov	w1, #8
	bl	_rattle_alloc
	tbnz	w0, #0, Lh3q_BB103_4
Lh3q_BB103_7:
	mov	w0, wzr
	ldp	x29, x30, [sp, #16]
	ldp	x20, x19, [sp], #32
	ret

	.section	__TEXT,__literal16,16byte_literals
	.p2align	4, 0x0
lh3q_CPI104_0:
	.quad	7
	.quad	15
	.section	__TEXT,__text,regular,pure_instructions
	.p2align	2
"_qpack_codec::encoder::sections::EncoderTable::write_along::<#7c810322eceed2e7>":
	stp	x28, x27, [sp, #-96]!
	stp	x26, x25, [sp, #16]
	stp	x24, x23, [sp, #32]
	stp	x22, x21, [sp, #48]
	stp	x20, x19, [sp, #64]
	stp	x29, x30, [sp, #80]
	add	x29, sp, #80
	sub	sp, sp, #784
	ldr	x8, [x3, #8]
	mov	x27, x7
	mov	x21, x6
	mov	x22, x5
	str	x4, [sp, #96]
	mov	x26, x3
	stp	x8, x0, [sp, #48]
	mov	x0, x1
	mov	x19, x2
	mov	x24, x1
	stp	xzr, xzr, [sp, #208]
	str	xzr, [sp, #224]
	stp	xzr, xzr, [sp, #184]
	str	xzr, [sp, #176]
	bl	"_qpack_table::dynamic::table::DynamicTable::release_references::<#f1ee30144fd2ee58>"
	ldr	x9, [x24, #40]
	ldrb	w8, [x24, #72]
	add	x11, x24, #80
	ldrb	w10, [x27, #1104]
	stp	x24, x19, [sp, #232]
	str	x9, [sp, #64]
	cmp	w8, #1
	str	x9, [sp, #248]
	add	x9, x24, #64
	csel	x8, x11, x9, eq
	add	w9, w10, #1
	str	x19, [sp, #40]
	cmp	w9, #255
	mov	w9, #255
	stp	xzr, xzr, [sp, #264]
	csinc	w9, w9, w10, hs
	add	x10, sp, #4
	str	xzr, [sp, #280]
	str	wzr, [sp, #256]
	stur	wzr, [x10, #255]
	mov	w10, #4
	ldr	x8, [x8]
	str	x8, [sp, #32]
	ldr	x8, [x26, #8]
	strb	w9, [x27, #1104]
	str	x8, [sp, #24]
	ldr	x8, [x24, #64]
	lsr	x9, x8, #7
	lsr	x8, x8, #8
	cmp	x9, #4
	csel	x10, x9, x10, lo
	cmp	x9, #0
	csinc	x9, x10, xzr, ne
	cmp	x8, #32
	mov	w10, #32
	csel	x10, x8, x10, lo
	cmp	x8, x9
	ldr	x8, [x27, #544]
	csel	x19, x9, x10, lo
	cmp	x8, x19
	b.eq	Lh3q_BB104_4
	cmp	x19, #32
	b.eq	Lh3q_BB104_3
	lsl	x8, x19, #3
	mov	w9, #254
	add	x10, x27, #288
	sub	x1, x9, x8
	add	x0, x10, x8
	bl	_bzero
	strh	wzr, [x27, #542]
Lh3q_BB104_3:
	str	x19, [x27, #544]
Lh3q_BB104_4:
	add	x1, sp, #232
	mov	x0, x27
	bl	"_qpack_encoding::choosing::draining::Draining::count"
	ldr	x8, [x27]
	ldr	x9, [x27, #16]
Lh3q_loh166:
	adrp	x20, l_static.3@PAGE
Lh3q_loh167:
	add	x20, x20, l_static.3@PAGEOFF
	cmp	x8, x9
	b.hs	Lh3q_BB104_15
	ldr	x10, [x27, #24]
	add	x11, x8, x8, lsl #1
	ldr	x12, [x27, #8]
	sub	x10, x10, x10, lsr #2
	lsl	x11, x11, #4
	b	Lh3q_BB104_9
Lh3q_BB104_6:
	ldrb	w15, [x13, #29]
Lh3q_loh168:
	adrp	x0, l_static.1@PAGE
Lh3q_loh169:
	add	x0, x0, l_static.1@PAGEOFF
Lh3q_loh170:
	adrp	x1, l_static.2@PAGE
Lh3q_loh171:
	add	x1, x1, l_static.2@PAGEOFF
	lsl	x16, x15, #5
	add	x0, x0, x15, lsl #5
	cmp	w15, #74
	add	x17, x20, x16
	add	x16, x1, x16
Lh3q_loh172:
	adrp	x1, l_static.0@PAGE
Lh3q_loh173:
	add	x1, x1, l_static.0@PAGEOFF
	sub	x17, x17, #2392
	sub	x16, x16, #1592
	add	x1, x1, x15, lsl #5
	csel	x16, x17, x16, hi
	sub	x17, x0, #792
	cmp	w15, #49
	csel	x16, x16, x17, hi
	add	x17, x1, #8
	cmp	w15, #24
	csel	x15, x16, x17, hi
	ldr	x15, [x15]
Lh3q_BB104_7:
	ldr	x13, [x13, #8]
	sub	x13, x13, x14
	adds	x13, x13, x15
	csinv	x13, x13, xzr, lo
	adds	x13, x13, #32
	csinv	x13, x13, xzr, lo
	subs	x12, x12, x13
	csel	x12, xzr, x12, lo
Lh3q_BB104_8:
	add	x8, x8, #1
	add	x11, x11, #48
	cmp	x9, x8
	stp	x8, x12, [x27]
	b.eq	Lh3q_BB104_15
Lh3q_BB104_9:
	cmp	x12, x10
	b.ls	Lh3q_BB104_15
	ldr	x13, [x24, #48]
	subs	x16, x8, x13
	b.lo	Lh3q_BB104_8
	ldr	x15, [x24, #8]
	cmp	x15, x16
	b.ls	Lh3q_BB104_8
	ldr	x17, [x24, #32]
	ldr	x14, [x24]
	sub	x0, x15, x17
	cmp	x16, x0
	b.hs	Lh3q_BB104_14
	ldr	x15, [x24, #24]
	mov	w16, #48
	add	x14, x14, x11
	mul	x15, x15, x16
	msub	x13, x13, x16, x15
	add	x13, x14, x13
	ldrb	w15, [x13, #28]
	ldr	w14, [x13, #24]
	cmp	w15, #1
	mov	x15, x14
	b.ne	Lh3q_BB104_7
	b	Lh3q_BB104_6
Lh3q_BB104_14:
	sub	x15, x17, x15
	sub	x13, x15, x13
	mov	w15, #48
	add	x13, x8, x13
	madd	x13, x13, x15, x14
	ldrb	w15, [x13, #28]
	ldr	w14, [x13, #24]
	cmp	w15, #1
	mov	x15, x14
	b.ne	Lh3q_BB104_7
	b	Lh3q_BB104_6
Lh3q_BB104_15:
	ldrb	w8, [x27, #1064]
	add	w9, w8, #1
	cmp	w9, #255
	mov	w9, #255
	csinc	w8, w9, w8, hs
	cmp	w8, #253
	csel	w8, w8, wzr, lo
	strb	w8, [x27, #1064]
	ldr	x8, [x24, #88]
	ldr	x9, [x24, #176]
	cmp	x9, x8
	b.lo	Lh3q_BB104_17
	ldr	x8, [x27, #1096]
	mov	w9, #11
	adds	x8, x8, #1
	csinv	x8, x8, xzr, lo
	cmp	x8, #11
	csel	x8, x8, x9, lo
	str	x8, [x27, #1096]
Lh3q_BB104_17:
	str	x24, [sp, #144]
	str	x26, [sp, #72]
	cbz	x21, Lh3q_BB104_422
	ldr	x8, [sp, #64]
	mov	x23, xzr
	add	x28, sp, #288
	str	x27, [sp, #88]
	mvn	x8, x8
	stp	x22, x21, [sp, #104]
	str	x8, [sp, #16]
	b	Lh3q_BB104_21
Lh3q_BB104_19:
	add	x0, sp, #232
	add	x1, sp, #288
	add	x2, sp, #448
	mov	x3, x26
	bl	"_qpack_codec::encoder::chosen_fields::append_named::<#959dfa9c1d07eea5>"
	and	w8, w0, #0xff
Lh3q_loh174:
	adrp	x20, l_static.3@PAGE
Lh3q_loh175:
	add	x20, x20, l_static.3@PAGEOFF
	tbnz	w8, #0, Lh3q_BB104_437
Lh3q_BB104_20:
	add	x23, x23, #1
	cmp	x23, x21
	b.eq	Lh3q_BB104_422
Lh3q_BB104_21:
	mov	w8, #40
	stur	wzr, [x28, #33]
	madd	x9, x23, x8, x22
	stur	wzr, [x28, #36]
	ldp	q1, q0, [x9]
	ldrb	w8, [x9, #32]
	sub	x9, x29, #192
	stur	q0, [x9, #16]
	and	w9, w8, #0x1
	ldur	q0, [x29, #-176]
	strb	w9, [sp, #320]
	stp	q1, q0, [sp, #288]
	tbnz	w8, #0, Lh3q_BB104_23
	lsl	w9, w8, #4
	tst	w8, #0x10
	mov	w10, #2
	sxtb	w9, w9
	ubfx	w9, w9, #7, #2
	csel	w25, w9, w10, eq
	b	Lh3q_BB104_24
Lh3q_BB104_23:
	mov	w25, #1
Lh3q_BB104_24:
	movi.2d	v0, #0000000000000000
	ldp	x0, x19, [sp, #288]
	str	xzr, [sp, #496]
	stp	xzr, xzr, [sp, #424]
	str	xzr, [sp, #416]
	stp	q0, q0, [sp, #352]
	stp	q0, q0, [sp, #448]
	str	q0, [sp, #480]
	str	q0, [sp, #384]
	str	xzr, [sp, #400]
	stp	xzr, xzr, [sp, #336]
	str	xzr, [sp, #328]
	tbz	w8, #0, Lh3q_BB104_27
	mov	x1, x19
	bl	"_qpack_base::static_::indexes_of"
	mov	x19, x1
	cbz	x1, Lh3q_BB104_42
	ldrb	w8, [x0]
	mov	w9, #1
	b	Lh3q_BB104_43
Lh3q_BB104_27:
	str	x23, [sp, #152]
	ldp	x8, x23, [sp, #304]
	mov	x1, x19
	str	x0, [sp, #128]
	str	x8, [sp, #168]
	bl	"_qpack_base::static_::indexes_of"
	mov	x22, x1
	str	x19, [sp, #160]
	cbz	x1, Lh3q_BB104_45
	mov	x21, x0
	mov	x19, xzr
	b	Lh3q_BB104_30
Lh3q_BB104_29:
	add	x19, x19, #1
	cmp	x22, x19
	b.eq	Lh3q_BB104_39
Lh3q_BB104_30:
	ldrb	w28, [x21, x19]
	cmp	w28, #98
	b.hi	Lh3q_BB104_29
	lsl	x8, x28, #5
Lh3q_loh176:
	adrp	x10, l_static.2@PAGE
Lh3q_loh177:
	add	x10, x10, l_static.2@PAGEOFF
Lh3q_loh178:
	adrp	x12, l_static.1@PAGE
Lh3q_loh179:
	add	x12, x12, l_static.1@PAGEOFF
	cmp	w28, #74
	add	x9, x20, x8
	add	x8, x10, x8
	add	x12, x12, x28, lsl #5
	sub	x10, x9, #2384
	sub	x11, x8, #1584
	sub	x9, x9, #2376
	csel	x10, x10, x11, hi
Lh3q_loh180:
	adrp	x11, l_static.0@PAGE
Lh3q_loh181:
	add	x11, x11, l_static.0@PAGEOFF
	sub	x8, x8, #1576
	add	x11, x11, x28, lsl #5
	csel	x8, x9, x8, hi
	sub	x9, x12, #784
	cmp	w28, #49
	csel	x9, x10, x9, hi
	sub	x10, x12, #776
	csel	x8, x8, x10, hi
	add	x10, x11, #24
	cmp	w28, #24
	csel	x8, x8, x10, hi
	ldr	x10, [x8]
	add	x8, x11, #16
	csel	x8, x9, x8, hi
	cmp	x23, x10
	b.ne	Lh3q_BB104_29
	ldr	x2, [x8]
	ldr	x0, [sp, #168]
	mov	x1, x23
	mov	x3, x23
	bl	"_qpack_base::static_::same_bytes"
	tbz	w0, #0, Lh3q_BB104_29
	cmp	w28, #62
	b.hi	Lh3q_BB104_118
	ldp	x8, x9, [x26, #8]
	cmp	x9, x8
	b.hi	Lh3q_BB104_37
	mov	x0, x26
	mov	w1, #1
	bl	"_qpack_base::coding::grow::<#7b66556a84635673>"
	and	w8, w0, #0xff
	tbnz	w8, #0, Lh3q_BB104_437
	ldr	x8, [x26, #8]
Lh3q_BB104_37:
	ldr	x9, [x26]
	orr	w10, w28, #0xc0
Lh3q_BB104_38:
	add	x11, x8, #1
	strb	w10, [x9, x8]
	str	x11, [x26, #8]
	b	Lh3q_BB104_280
Lh3q_BB104_39:
	ldrb	w21, [x21]
	ldr	x19, [sp, #160]
	mov	w20, #1
	ldr	x8, [x24, #8]
	str	x21, [sp, #120]
	str	x8, [sp, #80]
	cbz	x8, Lh3q_BB104_46
Lh3q_BB104_40:
	mov	x9, #50915
	ldr	x28, [x24, #240]
	mov	x10, #10459
	movk	x9, #40072, lsl #16
	movk	x10, #41140, lsl #16
	mov	x11, #25647
	movk	x9, #27376, lsl #32
	movk	x10, #32465, lsl #32
	movk	x11, #30909, lsl #16
	movk	x9, #36540, lsl #48
	movk	x10, #59139, lsl #48
	movk	x11, #7524, lsl #32
	mul	x8, x28, x9
	movk	x11, #41078, lsl #48
	cmp	x19, #16
	eor	x11, x28, x11
	umulh	x9, x28, x9
	eor	x8, x9, x8
	eor	x8, x8, x10
	and	x9, x8, #0xfffffffffffffffe
	eor	x9, x9, x10
	mul	x10, x9, x19
	eor	x10, x11, x10
	b.hs	Lh3q_BB104_47
	ldr	x12, [sp, #128]
	b	Lh3q_BB104_49
Lh3q_BB104_42:
	mov	w9, wzr
	mov	x8, xzr
Lh3q_BB104_43:
	movi.2d	v0, #0000000000000000
	cmp	w9, #0
	mov	w10, w9
	csel	x20, x8, xzr, ne
	add	x0, sp, #416
	add	x2, sp, #232
	add	x3, sp, #288
	add	x5, sp, #448
	mov	x1, x27
	mov	w4, w25
	stp	xzr, x10, [sp, #480]
	stp	q0, q0, [sp, #448]
	str	x20, [sp, #496]
	bl	"_qpack_encoding::choosing::ChooserChoosesIndexPackedField::choose"
	ldrb	w8, [sp, #416]
	cmp	w8, #2
	b.eq	Lh3q_BB104_19
	cmp	x19, #0
	mov	w8, #3
	add	x0, sp, #288
	csel	x2, xzr, x20, eq
	csel	w1, w8, wzr, eq
	mov	x3, x26
	bl	"_qpack_codec::encoder::fields::append_literal::<#7b66556a84635673>"
	and	w8, w0, #0xff
Lh3q_loh182:
	adrp	x20, l_static.3@PAGE
Lh3q_loh183:
	add	x20, x20, l_static.3@PAGEOFF
	tbz	w8, #0, Lh3q_BB104_20
	b	Lh3q_BB104_437
Lh3q_BB104_45:
	mov	x20, xzr
	mov	x21, xzr
	ldr	x8, [x24, #8]
	str	xzr, [sp, #120]
	str	x8, [sp, #80]
	cbnz	x8, Lh3q_BB104_40
Lh3q_BB104_46:
	mov	x28, xzr
	mov	w27, wzr
	mov	x9, xzr
	mov	x19, xzr
	mov	x24, xzr
	b	Lh3q_BB104_77
Lh3q_BB104_47:
	ldr	x13, [sp, #128]
Lh3q_BB104_48:
	ldp	x12, x14, [x13]
	sub	x19, x19, #16
	cmp	x19, #15
	eor	x10, x12, x10
	eor	x12, x14, x8
	mul	x14, x12, x10
	umulh	x10, x12, x10
	add	x12, x13, #16
	mov	x13, x12
	eor	x10, x10, x14
	b.hi	Lh3q_BB104_48
Lh3q_BB104_49:
	cmp	x19, #7
	b.hi	Lh3q_BB104_67
	cmp	x19, #3
	b.hi	Lh3q_BB104_68
	cbz	x19, Lh3q_BB104_56
	ldrb	w13, [x12]
	cmp	x19, #1
	b.eq	Lh3q_BB104_55
	ldrb	w14, [x12, #1]
	cmp	x19, #2
	orr	x13, x14, x13, lsl #8
	b.eq	Lh3q_BB104_55
	ldrb	w11, [x12, #2]
	orr	x13, x11, x13, lsl #8
Lh3q_BB104_55:
	eor	x10, x13, x10
Lh3q_BB104_56:
	mul	x11, x10, x8
	umulh	x10, x10, x8
	eor	x26, x10, x11
	mul	x9, x9, x23
	cmp	x23, #16
	eor	x9, x26, x9
	b.lo	Lh3q_BB104_70
Lh3q_BB104_57:
	ldr	x12, [sp, #168]
	mov	x10, x23
Lh3q_BB104_58:
	ldp	x11, x13, [x12]
	sub	x10, x10, #16
	cmp	x10, #15
	eor	x9, x11, x9
	eor	x11, x13, x8
	mul	x13, x11, x9
	umulh	x9, x11, x9
	add	x11, x12, #16
	mov	x12, x11
	eor	x9, x9, x13
	b.hi	Lh3q_BB104_58
	cmp	x10, #7
	b.hi	Lh3q_BB104_71
Lh3q_BB104_60:
	cmp	x10, #3
	b.hi	Lh3q_BB104_72
	cbz	x10, Lh3q_BB104_66
	ldrb	w12, [x11]
	cmp	x10, #1
	b.eq	Lh3q_BB104_65
	ldrb	w13, [x11, #1]
	cmp	x10, #2
	orr	x12, x13, x12, lsl #8
	b.eq	Lh3q_BB104_65
	ldrb	w10, [x11, #2]
	orr	x12, x10, x12, lsl #8
Lh3q_BB104_65:
	eor	x9, x12, x9
Lh3q_BB104_66:
	mul	x10, x9, x8
	umulh	x8, x9, x8
	b	Lh3q_BB104_74
Lh3q_BB104_67:
	add	x11, x12, x19
	ldr	x12, [x12]
	ldur	x11, [x11, #-8]
	eor	x10, x12, x10
	eor	x11, x11, x8
	b	Lh3q_BB104_69
Lh3q_BB104_68:
	add	x11, x12, x19
	ldr	w12, [x12]
	ldur	w11, [x11, #-4]
	eor	x10, x10, x12
	eor	x11, x8, x11
Lh3q_BB104_69:
	mul	x12, x11, x10
	umulh	x10, x11, x10
	eor	x26, x10, x12
	mul	x9, x9, x23
	cmp	x23, #16
	eor	x9, x26, x9
	b.hs	Lh3q_BB104_57
Lh3q_BB104_70:
	ldr	x11, [sp, #168]
	mov	x10, x23
	cmp	x23, #7
	b.ls	Lh3q_BB104_60
Lh3q_BB104_71:
	add	x10, x11, x10
	ldr	x11, [x11]
	ldur	x10, [x10, #-8]
	eor	x9, x11, x9
	eor	x8, x10, x8
	b	Lh3q_BB104_73
Lh3q_BB104_72:
	add	x10, x11, x10
	ldr	w11, [x11]
	ldur	w10, [x10, #-4]
	eor	x9, x9, x11
	eor	x8, x8, x10
Lh3q_BB104_73:
	mul	x10, x8, x9
	umulh	x8, x8, x9
Lh3q_BB104_74:
	eor	x8, x8, x10
	ldp	q0, q1, [sp, #288]
	ldr	x9, [sp, #320]
	ldr	x21, [x24, #48]
	sub	x10, x29, #192
	lsr	x27, x8, #32
	add	x0, x24, #192
	sub	x3, x29, #192
	stur	x9, [x10, #48]
	mov	w9, #1
	add	x4, sp, #592
	mov	x1, x24
	mov	x2, x21
	str	xzr, [sp, #592]
	stur	xzr, [x29, #-136]
	stp	q0, q1, [x10, #16]
	stp	x9, x28, [x29, #-192]
	stur	w27, [x29, #-136]
	bl	"_qpack_table::dynamic::index::row::Row::search::<#e26e38abbd2828ef>"
	mov	x19, xzr
	tst	w0, #0xff
	mov	x24, xzr
	b.ne	Lh3q_BB104_76
	ldr	x8, [sp, #144]
	mvn	w9, w21
	mov	w19, #1
	ldur	x8, [x8, #192]
	add	x8, x8, x1, lsl #3
	ldr	w8, [x8, #4]
	add	w8, w9, w8
	add	x8, x21, x8
	add	x24, x8, #1
Lh3q_BB104_76:
	lsr	x8, x26, #32
	ldr	x26, [sp, #72]
	ldr	x21, [sp, #120]
	mov	w9, #1
Lh3q_BB104_77:
	str	w27, [sp, #372]
	ldr	x27, [sp, #88]
	add	x0, sp, #328
	add	x2, sp, #232
	add	x3, sp, #288
	add	x5, sp, #352
	mov	x1, x27
	mov	w4, w25
	stp	x9, x28, [sp, #352]
	str	w8, [sp, #368]
	stp	x19, x24, [sp, #376]
	stp	x20, x21, [sp, #392]
	bl	"_qpack_encoding::choosing::ChooserChoosesIndexPackedField::choose"
	ldrb	w8, [sp, #328]
	ldrb	w20, [sp, #329]
	cmp	w8, #1
	b.gt	Lh3q_BB104_80
	cbnz	w8, Lh3q_BB104_95
Lh3q_BB104_79:
	cmp	x22, #0
	mov	w8, #3
	add	x0, sp, #288
	csel	w1, w8, wzr, eq
	mov	x2, x21
	mov	x3, x26
	bl	"_qpack_codec::encoder::fields::append_literal::<#7b66556a84635673>"
	ldr	x24, [sp, #144]
	and	w8, w0, #0xff
	tbz	w8, #0, Lh3q_BB104_82
	b	Lh3q_BB104_437
Lh3q_BB104_80:
	cmp	w8, #2
	b.ne	Lh3q_BB104_101
	add	x0, sp, #232
	add	x1, sp, #288
	add	x2, sp, #352
	mov	x3, x26
	bl	"_qpack_codec::encoder::chosen_fields::append_named::<#959dfa9c1d07eea5>"
	ldr	x24, [sp, #144]
	and	w8, w0, #0xff
	tbnz	w8, #0, Lh3q_BB104_437
Lh3q_BB104_82:
	tbz	w20, #0, Lh3q_BB104_280
Lh3q_BB104_83:
	ldr	x8, [sp, #160]
	ldr	x11, [sp, #96]
	movi.2d	v0, #0000000000000000
	adds	x8, x23, x8
	ldp	x11, x10, [x11, #8]
	csinv	x8, x8, xzr, lo
	adds	x9, x8, #32
	ldr	x8, [x24, #64]
	stp	q0, q0, [sp, #512]
	csinv	x19, x9, xzr, lo
	lsl	x9, x19, #2
	cmp	x8, x19
	csel	x1, xzr, x9, lo
	subs	x9, x10, x11
	csel	x9, xzr, x9, lo
	cmp	x1, x9
	b.ls	Lh3q_BB104_86
	ldr	x0, [sp, #96]
	bl	"_qpack_base::coding::grow::<#f5d64057dea64abe>"
	and	w8, w0, #0xff
	tbnz	w8, #0, Lh3q_BB104_437
	ldr	x8, [x24, #64]
Lh3q_BB104_86:
	subs	x1, x8, x19
	b.lo	Lh3q_BB104_280
	ldur	x8, [x24, #40]
	lsr	x8, x8, #62
	cbnz	x8, Lh3q_BB104_280
	mov	x0, x24
	bl	"_qpack_table::dynamic::table::DynamicTable::evictable_count::<#f1ee30144fd2ee58>"
	and	w8, w0, #0xff
	cmp	w8, #1
	b.ne	Lh3q_BB104_280
	ldr	x2, [sp, #64]
	mov	x19, x1
	add	x0, sp, #544
	add	x3, sp, #288
	add	x4, sp, #352
	mov	x1, x24
	bl	"_qpack_table::dynamic::table::DynamicTable::insertion_of::<#998670d21b39cbf5>"
	ldr	x27, [x24, #240]
	ldr	x8, [sp, #80]
	str	x19, [sp, #8]
	cbz	x8, Lh3q_BB104_135
	ldr	x19, [sp, #160]
	cmp	x28, x27
	b.ne	Lh3q_BB104_137
	ldr	x28, [sp, #368]
	mov	x25, x28
	cbnz	x22, Lh3q_BB104_224
Lh3q_BB104_92:
	adds	x21, x23, x19
	b.eq	Lh3q_BB104_161
	tbnz	x21, #63, Lh3q_BB104_437
	mov	x0, x21
	mov	w1, #1
	bl	_rattle_alloc
	tbnz	w0, #0, Lh3q_BB104_162
	b	Lh3q_BB104_437
Lh3q_BB104_95:
	ldr	x25, [sp, #336]
	ldrb	w20, [sp, #344]
	cbz	x19, Lh3q_BB104_97
	cmp	x24, x25
	b.eq	Lh3q_BB104_98
Lh3q_BB104_97:
	ldr	x0, [sp, #144]
	add	x2, sp, #288
	mov	x1, x25
	bl	"_qpack_table::dynamic::encoder::DynamicTableEncoder::is_equal::<#998670d21b39cbf5>"
	tbz	w0, #0, Lh3q_BB104_79
Lh3q_BB104_98:
	ldr	x24, [sp, #144]
	ldr	x8, [x24, #88]
	ldr	x9, [x24, #176]
	cmp	x9, x8
	b.lo	Lh3q_BB104_111
	ldr	x8, [x24, #96]
	cmp	x25, x8
	b.ls	Lh3q_BB104_111
	cmp	x22, #0
	mov	w8, #3
	add	x0, sp, #288
	csel	w1, w8, wzr, eq
	mov	x2, x21
	mov	x3, x26
	bl	"_qpack_codec::encoder::fields::append_literal::<#7b66556a84635673>"
	and	w8, w0, #0xff
	tbz	w8, #0, Lh3q_BB104_82
	b	Lh3q_BB104_437
Lh3q_BB104_101:
	ldr	x8, [sp, #160]
	ldr	x24, [sp, #144]
	movi.2d	v0, #0000000000000000
	ldr	x11, [sp, #96]
	adds	x8, x23, x8
	ldr	x9, [x24, #64]
	csinv	x8, x8, xzr, lo
	ldp	x11, x10, [x11, #8]
	adds	x8, x8, #32
	stp	q0, q0, [sp, #512]
	csinv	x19, x8, xzr, lo
	lsl	x8, x19, #2
	cmp	x9, x19
	csel	x1, xzr, x8, lo
	subs	x8, x10, x11
	csel	x8, xzr, x8, lo
	cmp	x1, x8
	b.ls	Lh3q_BB104_103
	ldr	x0, [sp, #96]
	bl	"_qpack_base::coding::grow::<#f5d64057dea64abe>"
	and	w8, w0, #0xff
	tbnz	w8, #0, Lh3q_BB104_437
Lh3q_BB104_103:
	ldr	x8, [x24, #88]
	ldr	x9, [x24, #176]
	cmp	x9, x8
	b.hs	Lh3q_BB104_110
	ldr	x8, [x24, #64]
	subs	x1, x8, x19
	b.lo	Lh3q_BB104_110
	ldur	x8, [x24, #40]
	lsr	x8, x8, #62
	cbnz	x8, Lh3q_BB104_110
	mov	x0, x24
	bl	"_qpack_table::dynamic::table::DynamicTable::evictable_count::<#f1ee30144fd2ee58>"
	and	w8, w0, #0xff
	cmp	w8, #1
	b.ne	Lh3q_BB104_110
	ldr	x2, [sp, #64]
	str	x1, [sp, #8]
	add	x0, sp, #544
	add	x3, sp, #288
	add	x4, sp, #352
	mov	x1, x24
	bl	"_qpack_table::dynamic::table::DynamicTable::insertion_of::<#998670d21b39cbf5>"
	ldr	x25, [x24, #240]
	ldr	x8, [sp, #80]
	cbz	x8, Lh3q_BB104_188
	ldr	x19, [sp, #160]
	cmp	x28, x25
	add	x20, sp, #512
	b.ne	Lh3q_BB104_196
	ldr	x28, [sp, #368]
	mov	x26, x28
	b	Lh3q_BB104_318
Lh3q_BB104_110:
	cmp	x22, #0
	mov	w8, #3
	add	x0, sp, #288
	csel	w1, w8, wzr, eq
	mov	x2, x21
	mov	x3, x26
	bl	"_qpack_codec::encoder::fields::append_literal::<#7b66556a84635673>"
	and	w8, w0, #0xff
	tbz	w8, #0, Lh3q_BB104_280
	b	Lh3q_BB104_437
Lh3q_BB104_111:
	ldr	x8, [x24, #48]
	ldr	x10, [x24, #32]
	mvn	x8, x8
	add	x19, x25, x8
	ldp	x8, x9, [x24]
	sub	x9, x9, x10
	subs	x9, x19, x9
	b.hs	Lh3q_BB104_119
	ldr	x9, [x24, #24]
	mov	w10, #48
	madd	x8, x9, x10, x8
	madd	x8, x19, x10, x8
	ldrb	w8, [x8, #33]
	tbnz	w8, #0, Lh3q_BB104_120
Lh3q_BB104_113:
	ldp	x8, x9, [x24, #112]
	cmp	x8, x9
	b.lo	Lh3q_BB104_116
	add	x0, x24, #104
	bl	"_qpack_table::dynamic::block::grow"
	and	w8, w0, #0xff
	tbnz	w8, #0, Lh3q_BB104_437
	ldr	x8, [x24, #112]
Lh3q_BB104_116:
	ldr	x9, [x24, #104]
	str	x25, [x9, x8, lsl #3]
	add	x8, x8, #1
	ldp	x9, x11, [x24]
	ldr	x10, [x24, #32]
	str	x8, [x24, #112]
	sub	x12, x11, x10
	cmp	x19, x12
	b.hs	Lh3q_BB104_127
	ldr	x8, [x24, #24]
	mov	w10, #48
	madd	x8, x8, x10, x9
	madd	x8, x19, x10, x8
	b	Lh3q_BB104_128
Lh3q_BB104_118:
	mov	w0, #6
	mov	w1, #3
	mov	x2, x28
	mov	x3, x26
	bl	"_qpack_base::prefix_int::encode_long::<#7b66556a84635673>"
	and	w8, w0, #0xff
	tbz	w8, #0, Lh3q_BB104_280
	b	Lh3q_BB104_437
Lh3q_BB104_119:
	mov	w10, #48
	madd	x8, x9, x10, x8
	ldrb	w8, [x8, #33]
	tbz	w8, #0, Lh3q_BB104_113
Lh3q_BB104_120:
	ldr	x8, [sp, #64]
	subs	x21, x8, x25
	b.hs	Lh3q_BB104_129
Lh3q_BB104_121:
	ldr	x8, [sp, #16]
	add	x21, x25, x8
	cmp	x21, #14
	b.hi	Lh3q_BB104_126
	ldp	x8, x9, [x26, #8]
	cmp	x9, x8
	b.hi	Lh3q_BB104_125
	mov	x0, x26
	mov	w1, #1
	bl	"_qpack_base::coding::grow::<#7b66556a84635673>"
	and	w8, w0, #0xff
	tbnz	w8, #0, Lh3q_BB104_437
	ldr	x8, [x26, #8]
Lh3q_BB104_125:
	ldr	x9, [x26]
	orr	w10, w21, #0x10
	add	x11, x8, #1
	strb	w10, [x9, x8]
	str	x11, [x26, #8]
	tbnz	w20, #0, Lh3q_BB104_83
	b	Lh3q_BB104_280
Lh3q_BB104_126:
	mov	w0, #4
	mov	w1, #1
	mov	x2, x21
	mov	x3, x26
	bl	"_qpack_base::prefix_int::encode_long::<#7b66556a84635673>"
	and	w8, w0, #0xff
	tbz	w8, #0, Lh3q_BB104_82
	b	Lh3q_BB104_437
Lh3q_BB104_127:
	sub	x8, x19, x11
	add	x8, x8, x10
	mov	w10, #48
	madd	x8, x8, x10, x9
Lh3q_BB104_128:
	ldr	x9, [x8, #40]
	mov	w10, #1
	strb	w10, [x8, #33]
	add	x9, x9, #1
	str	x9, [x8, #40]
	ldr	x8, [sp, #64]
	subs	x21, x8, x25
	b.lo	Lh3q_BB104_121
Lh3q_BB104_129:
	cmp	x21, #62
	b.hi	Lh3q_BB104_134
	ldp	x8, x9, [x26, #8]
	cmp	x9, x8
	b.hi	Lh3q_BB104_133
	mov	x0, x26
	mov	w1, #1
	bl	"_qpack_base::coding::grow::<#7b66556a84635673>"
	and	w8, w0, #0xff
	tbnz	w8, #0, Lh3q_BB104_437
	ldr	x8, [x26, #8]
Lh3q_BB104_133:
	ldr	x9, [x26]
	orr	w10, w21, #0xffffff80
	add	x11, x8, #1
	strb	w10, [x9, x8]
	str	x11, [x26, #8]
	tbnz	w20, #0, Lh3q_BB104_83
	b	Lh3q_BB104_280
Lh3q_BB104_134:
	mov	w0, #6
	mov	w1, #2
	mov	x2, x21
	mov	x3, x26
	bl	"_qpack_base::prefix_int::encode_long::<#7b66556a84635673>"
	and	w8, w0, #0xff
	tbz	w8, #0, Lh3q_BB104_82
	b	Lh3q_BB104_437
Lh3q_BB104_135:
	mov	x9, #50915
	mov	x10, #10459
	ldr	x19, [sp, #160]
	movk	x9, #40072, lsl #16
	movk	x10, #41140, lsl #16
	mov	x11, #25647
	movk	x9, #27376, lsl #32
	movk	x10, #32465, lsl #32
	movk	x11, #30909, lsl #16
	movk	x9, #36540, lsl #48
	movk	x10, #59139, lsl #48
	movk	x11, #7524, lsl #32
	mul	x8, x27, x9
	movk	x11, #41078, lsl #48
	cmp	x19, #16
	eor	x11, x27, x11
	umulh	x9, x27, x9
	eor	x8, x9, x8
	eor	x8, x8, x10
	and	x9, x8, #0xfffffffffffffffe
	eor	x10, x9, x10
	mul	x9, x10, x19
	eor	x9, x11, x9
	b.hs	Lh3q_BB104_139
	ldr	x12, [sp, #128]
	mov	x11, x19
	b	Lh3q_BB104_141
Lh3q_BB104_137:
	mov	x9, #50915
	mov	x10, #10459
	mov	x11, #25647
	movk	x9, #40072, lsl #16
	movk	x10, #41140, lsl #16
	movk	x11, #30909, lsl #16
	movk	x9, #27376, lsl #32
	movk	x10, #32465, lsl #32
	movk	x11, #7524, lsl #32
	movk	x9, #36540, lsl #48
	movk	x10, #59139, lsl #48
	movk	x11, #41078, lsl #48
	mul	x8, x27, x9
	eor	x11, x27, x11
	cmp	x19, #16
	umulh	x9, x27, x9
	eor	x8, x9, x8
	eor	x8, x8, x10
	and	x9, x8, #0xfffffffffffffffe
	eor	x10, x9, x10
	mul	x9, x10, x19
	eor	x9, x11, x9
	b.hs	Lh3q_BB104_150
	ldr	x12, [sp, #128]
	mov	x11, x19
	b	Lh3q_BB104_152
Lh3q_BB104_139:
	ldr	x13, [sp, #128]
	mov	x11, x19
Lh3q_BB104_140:
	ldp	x12, x14, [x13]
	sub	x11, x11, #16
	cmp	x11, #15
	eor	x9, x12, x9
	eor	x12, x14, x8
	mul	x14, x12, x9
	umulh	x9, x12, x9
	add	x12, x13, #16
	mov	x13, x12
	eor	x9, x9, x14
	b.hi	Lh3q_BB104_140
Lh3q_BB104_141:
	cmp	x11, #7
	b.hi	Lh3q_BB104_149
	cmp	x11, #3
	b.hi	Lh3q_BB104_198
	cbz	x11, Lh3q_BB104_148
	ldrb	w13, [x12]
	cmp	x11, #1
	b.eq	Lh3q_BB104_147
	ldrb	w14, [x12, #1]
	cmp	x11, #2
	orr	x13, x14, x13, lsl #8
	b.eq	Lh3q_BB104_147
	ldrb	w11, [x12, #2]
	orr	x13, x11, x13, lsl #8
Lh3q_BB104_147:
	eor	x9, x13, x9
Lh3q_BB104_148:
	mul	x11, x9, x8
	umulh	x9, x9, x8
	eor	x9, x9, x11
	b	Lh3q_BB104_200
Lh3q_BB104_149:
	add	x11, x12, x11
	ldr	x12, [x12]
	ldur	x11, [x11, #-8]
	eor	x9, x12, x9
	eor	x11, x11, x8
	b	Lh3q_BB104_199
Lh3q_BB104_150:
	ldr	x13, [sp, #128]
	mov	x11, x19
Lh3q_BB104_151:
	ldp	x12, x14, [x13]
	sub	x11, x11, #16
	cmp	x11, #15
	eor	x9, x12, x9
	eor	x12, x14, x8
	mul	x14, x12, x9
	umulh	x9, x12, x9
	add	x12, x13, #16
	mov	x13, x12
	eor	x9, x9, x14
	b.hi	Lh3q_BB104_151
Lh3q_BB104_152:
	cmp	x11, #7
	b.hi	Lh3q_BB104_160
	cmp	x11, #3
	b.hi	Lh3q_BB104_212
	cbz	x11, Lh3q_BB104_159
	ldrb	w13, [x12]
	cmp	x11, #1
	b.eq	Lh3q_BB104_158
	ldrb	w14, [x12, #1]
	cmp	x11, #2
	orr	x13, x14, x13, lsl #8
	b.eq	Lh3q_BB104_158
	ldrb	w11, [x12, #2]
	orr	x13, x11, x13, lsl #8
Lh3q_BB104_158:
	eor	x9, x13, x9
Lh3q_BB104_159:
	mul	x11, x9, x8
	umulh	x9, x9, x8
	eor	x9, x9, x11
	b	Lh3q_BB104_214
Lh3q_BB104_160:
	add	x11, x12, x11
	ldr	x12, [x12]
	ldur	x11, [x11, #-8]
	eor	x9, x12, x9
	eor	x11, x11, x8
	b	Lh3q_BB104_213
Lh3q_BB104_161:
	sub	x1, x29, #97
Lh3q_BB104_162:
	ldr	x0, [sp, #168]
	stp	x1, xzr, [x29, #-192]
	sub	x3, x29, #192
	mov	x1, x23
	mov	x2, x23
	stur	x21, [x29, #-176]
	bl	"_qpack_base::coding::append_within::<#3b617f7ce96065ff>"
	tst	w0, #0xff
	b.ne	Lh3q_BB104_509
	mov	x8, #4294967296
	lsr	x9, x19, #32
	ldur	x0, [x29, #-192]
	cmp	x19, x8
	csel	x23, x19, x8, lo
	cbnz	x9, Lh3q_BB104_584
	add	x8, sp, #512
	stur	x0, [x29, #-192]
	ldr	x0, [sp, #128]
	ldur	q0, [x8, #168]
	sub	x3, x29, #192
	mov	x1, x19
	mov	x2, x19
	stur	q0, [x8, #168]
	bl	"_qpack_base::coding::append_within::<#3b617f7ce96065ff>"
	tst	w0, #0xff
	b.ne	Lh3q_BB104_509
	ldp	x19, x21, [x29, #-192]
	mov	w26, wzr
	ldur	x22, [x29, #-176]
	str	xzr, [sp, #120]
	mov	x12, x23
	strh	wzr, [sp, #580]
	sub	x8, x21, x23
	str	wzr, [sp, #576]
	adds	x9, x8, x23
	add	x10, x19, x8
	csinv	x9, x9, xzr, lo
	adds	x9, x9, #32
	csinv	x20, x9, xzr, lo
	ldr	x13, [x24, #240]
	cmp	x27, x13
	b.eq	Lh3q_BB104_237
Lh3q_BB104_166:
	mov	x11, #50915
	mov	x14, #10459
	mov	x15, #25647
	movk	x11, #40072, lsl #16
	movk	x14, #41140, lsl #16
	movk	x15, #30909, lsl #16
	movk	x11, #27376, lsl #32
	movk	x14, #32465, lsl #32
	movk	x15, #7524, lsl #32
	movk	x11, #36540, lsl #48
	movk	x14, #59139, lsl #48
	movk	x15, #41078, lsl #48
	mul	x9, x13, x11
	cmp	x12, #16
	umulh	x11, x13, x11
	eor	x13, x13, x15
	eor	x9, x11, x9
	eor	x9, x9, x14
	and	x11, x9, #0xfffffffffffffffe
	eor	x11, x11, x14
	mul	x14, x11, x12
	eor	x13, x13, x14
	b.lo	Lh3q_BB104_169
Lh3q_BB104_167:
	ldp	x14, x15, [x10]
	sub	x12, x12, #16
	cmp	x12, #15
	eor	x13, x14, x13
	eor	x14, x15, x9
	mul	x15, x14, x13
	umulh	x13, x14, x13
	add	x14, x10, #16
	mov	x10, x14
	eor	x13, x13, x15
	b.hi	Lh3q_BB104_167
	mov	x10, x14
Lh3q_BB104_169:
	cmp	x12, #7
	b.hi	Lh3q_BB104_187
	cmp	x12, #3
	b.hi	Lh3q_BB104_190
	cbz	x12, Lh3q_BB104_176
	ldrb	w14, [x10]
	cmp	x12, #1
	b.eq	Lh3q_BB104_175
	ldrb	w15, [x10, #1]
	cmp	x12, #2
	orr	x14, x15, x14, lsl #8
	b.eq	Lh3q_BB104_175
	ldrb	w10, [x10, #2]
	orr	x14, x10, x14, lsl #8
Lh3q_BB104_175:
	eor	x13, x14, x13
Lh3q_BB104_176:
	mul	x10, x13, x9
	umulh	x12, x13, x9
	eor	x10, x12, x10
	mul	x11, x11, x8
	cmp	x8, #16
	eor	x11, x10, x11
	b.lo	Lh3q_BB104_192
Lh3q_BB104_177:
	mov	x13, x19
Lh3q_BB104_178:
	ldp	x12, x14, [x13]
	sub	x8, x8, #16
	cmp	x8, #15
	eor	x11, x12, x11
	eor	x12, x14, x9
	mul	x14, x12, x11
	umulh	x11, x12, x11
	add	x12, x13, #16
	mov	x13, x12
	eor	x11, x11, x14
	b.hi	Lh3q_BB104_178
	cmp	x8, #7
	b.hi	Lh3q_BB104_193
Lh3q_BB104_180:
	cmp	x8, #3
	b.hi	Lh3q_BB104_194
	cbz	x8, Lh3q_BB104_186
	ldrb	w13, [x12]
	cmp	x8, #1
	b.eq	Lh3q_BB104_185
	ldrb	w14, [x12, #1]
	cmp	x8, #2
	orr	x13, x14, x13, lsl #8
	b.eq	Lh3q_BB104_185
	ldrb	w8, [x12, #2]
	orr	x13, x8, x13, lsl #8
Lh3q_BB104_185:
	eor	x11, x13, x11
Lh3q_BB104_186:
	mul	x8, x11, x9
	umulh	x9, x11, x9
	eor	x28, x9, x8
	lsr	x25, x10, #32
	ldp	x8, x9, [x24, #8]
	cmp	x8, x9
	b.hs	Lh3q_BB104_238
	b	Lh3q_BB104_239
Lh3q_BB104_187:
	add	x12, x10, x12
	ldr	x10, [x10]
	ldur	x12, [x12, #-8]
	eor	x10, x10, x13
	eor	x12, x12, x9
	b	Lh3q_BB104_191
Lh3q_BB104_188:
	mov	x9, #50915
	mov	x10, #10459
	ldr	x19, [sp, #160]
	movk	x9, #40072, lsl #16
	movk	x10, #41140, lsl #16
	mov	x11, #25647
	movk	x9, #27376, lsl #32
	movk	x10, #32465, lsl #32
	movk	x11, #30909, lsl #16
	movk	x9, #36540, lsl #48
	movk	x10, #59139, lsl #48
	movk	x11, #7524, lsl #32
	mul	x8, x25, x9
	movk	x11, #41078, lsl #48
	cmp	x19, #16
	eor	x11, x25, x11
	add	x20, sp, #512
	umulh	x9, x25, x9
	eor	x8, x9, x8
	eor	x8, x8, x10
	and	x9, x8, #0xfffffffffffffffe
	eor	x10, x9, x10
	mul	x9, x10, x19
	eor	x9, x11, x9
	b.hs	Lh3q_BB104_256
	ldr	x12, [sp, #128]
	mov	x11, x19
	b	Lh3q_BB104_258
Lh3q_BB104_190:
	add	x12, x10, x12
	ldr	w10, [x10]
	ldur	w12, [x12, #-4]
	eor	x10, x13, x10
	eor	x12, x9, x12
Lh3q_BB104_191:
	mul	x13, x12, x10
	umulh	x10, x12, x10
	eor	x10, x10, x13
	mul	x11, x11, x8
	cmp	x8, #16
	eor	x11, x10, x11
	b.hs	Lh3q_BB104_177
Lh3q_BB104_192:
	mov	x12, x19
	cmp	x8, #7
	b.ls	Lh3q_BB104_180
Lh3q_BB104_193:
	add	x8, x12, x8
	ldr	x12, [x12]
	ldur	x8, [x8, #-8]
	eor	x11, x12, x11
	eor	x8, x8, x9
	b	Lh3q_BB104_195
Lh3q_BB104_194:
	add	x8, x12, x8
	ldr	w12, [x12]
	ldur	w8, [x8, #-4]
	eor	x11, x11, x12
	eor	x8, x9, x8
Lh3q_BB104_195:
	mul	x9, x8, x11
	umulh	x8, x8, x11
	eor	x28, x8, x9
	lsr	x25, x10, #32
	ldp	x8, x9, [x24, #8]
	cmp	x8, x9
	b.lo	Lh3q_BB104_239
	b	Lh3q_BB104_238
Lh3q_BB104_196:
	mov	x9, #50915
	mov	x10, #10459
	mov	x11, #25647
	movk	x9, #40072, lsl #16
	movk	x10, #41140, lsl #16
	movk	x11, #30909, lsl #16
	movk	x9, #27376, lsl #32
	movk	x10, #32465, lsl #32
	movk	x11, #7524, lsl #32
	movk	x9, #36540, lsl #48
	movk	x10, #59139, lsl #48
	movk	x11, #41078, lsl #48
	mul	x8, x25, x9
	eor	x11, x25, x11
	cmp	x19, #16
	umulh	x9, x25, x9
	eor	x8, x9, x8
	eor	x8, x8, x10
	and	x9, x8, #0xfffffffffffffffe
	eor	x10, x9, x10
	mul	x9, x10, x19
	eor	x9, x11, x9
	b.hs	Lh3q_BB104_281
	ldr	x12, [sp, #128]
	mov	x11, x19
	b	Lh3q_BB104_283
Lh3q_BB104_198:
	add	x11, x12, x11
	ldr	w12, [x12]
	ldur	w11, [x11, #-4]
	eor	x9, x9, x12
	eor	x11, x8, x11
Lh3q_BB104_199:
	mul	x12, x11, x9
	umulh	x9, x11, x9
	eor	x9, x9, x12
Lh3q_BB104_200:
	mul	x10, x10, x23
	cmp	x23, #16
	eor	x10, x9, x10
	b.hs	Lh3q_BB104_202
	ldr	x12, [sp, #168]
	mov	x11, x23
	b	Lh3q_BB104_204
Lh3q_BB104_202:
	ldr	x13, [sp, #168]
	mov	x11, x23
Lh3q_BB104_203:
	ldp	x12, x14, [x13]
	sub	x11, x11, #16
	cmp	x11, #15
	eor	x10, x12, x10
	eor	x12, x14, x8
	mul	x14, x12, x10
	umulh	x10, x12, x10
	add	x12, x13, #16
	mov	x13, x12
	eor	x10, x10, x14
	b.hi	Lh3q_BB104_203
Lh3q_BB104_204:
	cmp	x11, #7
	b.hi	Lh3q_BB104_221
	cmp	x11, #3
	b.hi	Lh3q_BB104_220
Lh3q_BB104_206:
	cbz	x11, Lh3q_BB104_211
	ldrb	w13, [x12]
	cmp	x11, #1
	b.eq	Lh3q_BB104_210
	ldrb	w14, [x12, #1]
	cmp	x11, #2
	orr	x13, x14, x13, lsl #8
	b.eq	Lh3q_BB104_210
	ldrb	w11, [x12, #2]
	orr	x13, x11, x13, lsl #8
Lh3q_BB104_210:
	eor	x10, x13, x10
Lh3q_BB104_211:
	mul	x11, x10, x8
	umulh	x8, x10, x8
	b	Lh3q_BB104_223
Lh3q_BB104_212:
	add	x11, x12, x11
	ldr	w12, [x12]
	ldur	w11, [x11, #-4]
	eor	x9, x9, x12
	eor	x11, x8, x11
Lh3q_BB104_213:
	mul	x12, x11, x9
	umulh	x9, x11, x9
	eor	x9, x9, x12
Lh3q_BB104_214:
	mul	x10, x10, x23
	cmp	x23, #16
	eor	x10, x9, x10
	b.hs	Lh3q_BB104_216
	ldr	x12, [sp, #168]
	mov	x11, x23
	b	Lh3q_BB104_218
Lh3q_BB104_216:
	ldr	x13, [sp, #168]
	mov	x11, x23
Lh3q_BB104_217:
	ldp	x12, x14, [x13]
	sub	x11, x11, #16
	cmp	x11, #15
	eor	x10, x12, x10
	eor	x12, x14, x8
	mul	x14, x12, x10
	umulh	x10, x12, x10
	add	x12, x13, #16
	mov	x13, x12
	eor	x10, x10, x14
	b.hi	Lh3q_BB104_217
Lh3q_BB104_218:
	cmp	x11, #7
	b.hi	Lh3q_BB104_221
	cmp	x11, #3
	b.ls	Lh3q_BB104_206
Lh3q_BB104_220:
	add	x11, x12, x11
	ldr	w12, [x12]
	ldur	w11, [x11, #-4]
	eor	x10, x10, x12
	eor	x8, x8, x11
	b	Lh3q_BB104_222
Lh3q_BB104_221:
	add	x11, x12, x11
	ldr	x12, [x12]
	ldur	x11, [x11, #-8]
	eor	x10, x12, x10
	eor	x8, x11, x8
Lh3q_BB104_222:
	mul	x11, x8, x10
	umulh	x8, x8, x10
Lh3q_BB104_223:
	lsr	x25, x9, #32
	eor	x28, x8, x11
	cbz	x22, Lh3q_BB104_92
Lh3q_BB104_224:
	cbz	x23, Lh3q_BB104_227
	tbnz	x23, #63, Lh3q_BB104_437
	mov	x0, x23
	mov	w1, #1
	bl	_rattle_alloc
	tbnz	w0, #0, Lh3q_BB104_228
	b	Lh3q_BB104_437
Lh3q_BB104_227:
	sub	x1, x29, #97
Lh3q_BB104_228:
	ldr	x0, [sp, #168]
	stp	x1, xzr, [x29, #-192]
	sub	x3, x29, #192
	mov	x1, x23
	mov	x2, x23
	stur	x23, [x29, #-176]
	bl	"_qpack_base::coding::append_within::<#3b617f7ce96065ff>"
	tst	w0, #0xff
	b.ne	Lh3q_BB104_509
	ldp	x19, x21, [x29, #-192]
	ldr	x13, [sp, #120]
	ldur	x22, [x29, #-176]
	strh	wzr, [sp, #580]
	cmp	x13, #25
	str	wzr, [sp, #576]
	b.hs	Lh3q_BB104_231
Lh3q_loh184:
	adrp	x8, l_static.0@PAGE
Lh3q_loh185:
	add	x8, x8, l_static.0@PAGEOFF
	add	x9, x8, x13, lsl #5
	mov	x8, x9
	ldr	x10, [x8, #8]!
	adds	x10, x21, x10
	csinv	x10, x10, xzr, lo
	adds	x10, x10, #32
	csinv	x20, x10, xzr, lo
	b	Lh3q_BB104_236
Lh3q_BB104_231:
	cmp	x13, #50
	b.hs	Lh3q_BB104_233
Lh3q_loh186:
	adrp	x8, l_static.1@PAGE
Lh3q_loh187:
	add	x8, x8, l_static.1@PAGEOFF
	add	x9, x8, x13, lsl #5
	sub	x8, x9, #792
	sub	x9, x9, #800
	ldr	x10, [x8]
	adds	x10, x21, x10
	csinv	x10, x10, xzr, lo
	adds	x10, x10, #32
	csinv	x20, x10, xzr, lo
	b	Lh3q_BB104_236
Lh3q_BB104_233:
	lsl	x8, x13, #5
Lh3q_loh188:
	adrp	x9, l_static.2@PAGE
Lh3q_loh189:
	add	x9, x9, l_static.2@PAGEOFF
Lh3q_loh190:
	adrp	x10, l_static.3@PAGE
Lh3q_loh191:
	add	x10, x10, l_static.3@PAGEOFF
	cmp	x13, #75
	add	x9, x9, x8
	add	x11, x10, x8
	sub	x8, x9, #1592
	sub	x10, x11, #2392
	csel	x12, x8, x10, lo
	ldr	x12, [x12]
	adds	x12, x21, x12
	csinv	x12, x12, xzr, lo
	adds	x12, x12, #32
	csinv	x20, x12, xzr, lo
	cmp	x13, #75
	b.hs	Lh3q_BB104_235
	sub	x9, x9, #1600
	b	Lh3q_BB104_236
Lh3q_BB104_235:
	sub	x9, x11, #2400
	mov	x8, x10
Lh3q_BB104_236:
	ldr	x12, [x8]
	ldr	x10, [x9]
	mov	w23, wzr
	mov	w26, #1
	mov	x8, x21
	ldr	x13, [x24, #240]
	cmp	x27, x13
	b.ne	Lh3q_BB104_166
Lh3q_BB104_237:
	ldp	x8, x9, [x24, #8]
	cmp	x8, x9
	b.lo	Lh3q_BB104_239
Lh3q_BB104_238:
	mov	x0, x24
	bl	"_qpack_table::dynamic::growth::grow::<#87cca78d895f04c8>"
	and	w8, w0, #0xff
	tbnz	w8, #0, Lh3q_BB104_508
Lh3q_BB104_239:
	ldp	x8, x9, [x24, #200]
	cmp	x8, x9
	b.lo	Lh3q_BB104_241
	add	x0, x24, #192
	bl	"_qpack_table::dynamic::index::row::Row::grow"
	and	w8, w0, #0xff
	tbnz	w8, #0, Lh3q_BB104_508
Lh3q_BB104_241:
	ldp	x8, x9, [x24, #224]
	cmp	x8, x9
	b.lo	Lh3q_BB104_243
	add	x0, x24, #216
	bl	"_qpack_table::dynamic::index::row::Row::grow"
	and	w8, w0, #0xff
	tbnz	w8, #0, Lh3q_BB104_508
Lh3q_BB104_243:
	ldr	x3, [sp, #8]
	add	x0, x24, #192
	add	x2, x24, #40
	mov	x1, x24
	bl	"_qpack_table::dynamic::index::IndexEntryIndex::drop_oldest::<#e26e38abbd2828ef>"
	ldp	x9, x13, [x24, #8]
	sub	x12, x20, x0
	ldp	x11, x8, [x24, #24]
	ldr	x10, [x24, #56]
	ldr	x14, [x24, #40]
	add	x15, x12, x10
	ldr	x10, [x24]
	sub	x12, x9, x8
	sub	x13, x13, x11
	str	x15, [x24, #56]
	cmp	x12, x13
	add	x13, x14, #1
	str	x13, [x24, #40]
	b.hs	Lh3q_BB104_245
	add	x8, x11, x12
	mov	w11, #48
	ldr	x12, [sp, #120]
	madd	x8, x8, x11, x10
	ldr	w11, [sp, #576]
	mov	w10, #65536
	strb	w12, [x8, #29]
	ldrh	w12, [sp, #580]
	stp	x19, x21, [x8]
	str	x22, [x8, #16]
	str	w23, [x8, #24]
	strb	w26, [x8, #28]
	stur	w10, [x8, #30]
	stur	w11, [x8, #34]
	strh	w12, [x8, #38]
	str	xzr, [x8, #40]
	ldr	x10, [x24, #32]
	b	Lh3q_BB104_246
Lh3q_BB104_245:
	mov	w11, #48
	ldr	x13, [sp, #120]
	ldr	w12, [sp, #576]
	madd	x10, x8, x11, x10
	mov	w11, #65536
	strb	w13, [x10, #29]
	ldrh	w13, [sp, #580]
	stp	x19, x21, [x10]
	str	x22, [x10, #16]
	str	w23, [x10, #24]
	strb	w26, [x10, #28]
	stur	w11, [x10, #30]
	stur	w12, [x10, #34]
	strh	w13, [x10, #38]
	str	xzr, [x10, #40]
	add	x10, x8, #1
	str	x10, [x24, #32]
Lh3q_BB104_246:
	add	x8, x9, #1
	ldr	x27, [sp, #88]
	ldr	x19, [x24, #48]
	sub	x11, x8, x10
	ldr	x10, [x24]
	ldr	x26, [sp, #72]
	subs	x11, x9, x11
	str	x8, [x24, #8]
	stur	xzr, [x29, #-136]
	str	xzr, [sp, #648]
	b.hs	Lh3q_BB104_249
	ldr	x11, [x24, #24]
	mov	w12, #48
	madd	x10, x11, x12, x10
	madd	x12, x9, x12, x10
	ldp	x9, x13, [x12]
	ldrb	w10, [x12, #28]
	ldr	w11, [x12, #24]
	cmp	w10, #1
	sub	x10, x13, x11
	b.eq	Lh3q_BB104_250
Lh3q_BB104_248:
	add	x12, x9, x10
	b	Lh3q_BB104_269
Lh3q_BB104_249:
	mov	w9, #48
	madd	x12, x11, x9, x10
	ldp	x9, x13, [x12]
	ldrb	w10, [x12, #28]
	ldr	w11, [x12, #24]
	cmp	w10, #1
	sub	x10, x13, x11
	b.ne	Lh3q_BB104_248
Lh3q_BB104_250:
	ldrb	w11, [x12, #29]
	cmp	w11, #24
	b.hi	Lh3q_BB104_252
Lh3q_loh192:
	adrp	x12, l_static.0@PAGE
Lh3q_loh193:
	add	x12, x12, l_static.0@PAGEOFF
	add	x11, x12, x11, lsl #5
	add	x13, x11, #8
	b	Lh3q_BB104_268
Lh3q_BB104_252:
	cmp	w11, #49
	b.hi	Lh3q_BB104_254
Lh3q_loh194:
	adrp	x12, l_static.1@PAGE
Lh3q_loh195:
	add	x12, x12, l_static.1@PAGEOFF
	add	x12, x12, x11, lsl #5
	sub	x11, x12, #800
	sub	x13, x12, #792
	b	Lh3q_BB104_268
Lh3q_BB104_254:
	lsl	x12, x11, #5
	cmp	w11, #74
	b.hi	Lh3q_BB104_267
Lh3q_loh196:
	adrp	x11, l_static.2@PAGE
Lh3q_loh197:
	add	x11, x11, l_static.2@PAGEOFF
	add	x12, x11, x12
	sub	x11, x12, #1600
	sub	x13, x12, #1592
	b	Lh3q_BB104_268
Lh3q_BB104_256:
	ldr	x13, [sp, #128]
	mov	x11, x19
Lh3q_BB104_257:
	ldp	x12, x14, [x13]
	sub	x11, x11, #16
	cmp	x11, #15
	eor	x9, x12, x9
	eor	x12, x14, x8
	mul	x14, x12, x9
	umulh	x9, x12, x9
	add	x12, x13, #16
	mov	x13, x12
	eor	x9, x9, x14
	b.hi	Lh3q_BB104_257
Lh3q_BB104_258:
	cmp	x11, #7
	b.hi	Lh3q_BB104_266
	cmp	x11, #3
	b.hi	Lh3q_BB104_292
	cbz	x11, Lh3q_BB104_265
	ldrb	w13, [x12]
	cmp	x11, #1
	b.eq	Lh3q_BB104_264
	ldrb	w14, [x12, #1]
	cmp	x11, #2
	orr	x13, x14, x13, lsl #8
	b.eq	Lh3q_BB104_264
	ldrb	w11, [x12, #2]
	orr	x13, x11, x13, lsl #8
Lh3q_BB104_264:
	eor	x9, x13, x9
Lh3q_BB104_265:
	mul	x11, x9, x8
	umulh	x9, x9, x8
	eor	x9, x9, x11
	b	Lh3q_BB104_294
Lh3q_BB104_266:
	add	x11, x12, x11
	ldr	x12, [x12]
	ldur	x11, [x11, #-8]
	eor	x9, x12, x9
	eor	x11, x11, x8
	b	Lh3q_BB104_293
Lh3q_BB104_267:
Lh3q_loh198:
	adrp	x11, l_static.3@PAGE
Lh3q_loh199:
	add	x11, x11, l_static.3@PAGEOFF
	add	x12, x11, x12
	sub	x11, x12, #2400
	sub	x13, x12, #2392
Lh3q_BB104_268:
	ldr	x12, [x11]
	ldr	x11, [x13]
Lh3q_BB104_269:
	ldr	x13, [x24, #240]
	lsr	x21, x28, #32
	mov	w14, #1
	add	x0, x24, #192
	sub	x3, x29, #192
	add	x4, sp, #584
	mov	x1, x24
	mov	x2, x19
	stp	x14, x13, [x29, #-192]
	stp	x12, x11, [x29, #-176]
	add	x22, x19, x8
	stp	x9, x10, [x29, #-160]
	stur	xzr, [x29, #-144]
	stur	w21, [x29, #-136]
	str	xzr, [sp, #592]
	str	x13, [sp, #600]
	str	x12, [sp, #608]
	str	x11, [sp, #616]
	str	x9, [sp, #624]
	str	x10, [sp, #632]
	str	xzr, [sp, #640]
	str	w25, [sp, #648]
	str	xzr, [sp, #584]
	bl	"_qpack_table::dynamic::index::row::Row::search::<#e26e38abbd2828ef>"
	tst	w0, #0xff
	b.eq	Lh3q_BB104_273
	ldp	x8, x9, [x24, #200]
	cmp	x8, x9
	b.lo	Lh3q_BB104_272
	cmp	x9, x8
	b.eq	Lh3q_BB104_418
Lh3q_BB104_272:
	add	x0, x24, #192
	mov	w2, w21
	mov	w3, w22
	bl	"_std_alloc::vec::Vec::put_at::<#3bf946f3347a0964>"
	b	Lh3q_BB104_274
Lh3q_BB104_273:
	ldur	x8, [x24, #192]
	add	x8, x8, x1, lsl #3
	stp	w21, w22, [x8]
Lh3q_BB104_274:
	add	x0, x24, #216
	add	x3, sp, #592
	add	x4, sp, #584
	mov	x1, x24
	mov	x2, x19
	str	xzr, [sp, #584]
	bl	"_qpack_table::dynamic::index::row::Row::search::<#e26e38abbd2828ef>"
	tst	w0, #0xff
	b.eq	Lh3q_BB104_278
	ldp	x8, x9, [x24, #224]
	cmp	x8, x9
	b.lo	Lh3q_BB104_277
	cmp	x9, x8
	b.eq	Lh3q_BB104_419
Lh3q_BB104_277:
	add	x0, x24, #216
	mov	w2, w25
	mov	w3, w22
	bl	"_std_alloc::vec::Vec::put_at::<#3bf946f3347a0964>"
	b	Lh3q_BB104_279
Lh3q_BB104_278:
	ldur	x8, [x24, #216]
	add	x8, x8, x1, lsl #3
	stp	w25, w22, [x8]
Lh3q_BB104_279:
	add	x10, sp, #512
	ldrb	w8, [sp, #544]
	ldr	x9, [sp, #568]
	ldur	q0, [x10, #40]
	ldr	x2, [sp, #96]
	add	x0, sp, #288
	add	x1, sp, #512
	str	x8, [sp, #512]
	stur	q0, [x10, #8]
	str	x9, [sp, #536]
	bl	"_qpack_codec::encoder::fields::write_instruction::<#f5d64057dea64abe>"
	tst	w0, #0xff
	b.ne	Lh3q_BB104_437
Lh3q_BB104_280:
	ldp	x22, x21, [sp, #104]
Lh3q_loh200:
	adrp	x20, l_static.3@PAGE
Lh3q_loh201:
	add	x20, x20, l_static.3@PAGEOFF
	ldr	x23, [sp, #152]
	add	x28, sp, #288
	add	x23, x23, #1
	cmp	x23, x21
	b.ne	Lh3q_BB104_21
	b	Lh3q_BB104_422
Lh3q_BB104_281:
	ldr	x13, [sp, #128]
	mov	x11, x19
Lh3q_BB104_282:
	ldp	x12, x14, [x13]
	sub	x11, x11, #16
	cmp	x11, #15
	eor	x9, x12, x9
	eor	x12, x14, x8
	mul	x14, x12, x9
	umulh	x9, x12, x9
	add	x12, x13, #16
	mov	x13, x12
	eor	x9, x9, x14
	b.hi	Lh3q_BB104_282
Lh3q_BB104_283:
	cmp	x11, #7
	b.hi	Lh3q_BB104_291
	cmp	x11, #3
	b.hi	Lh3q_BB104_306
	cbz	x11, Lh3q_BB104_290
	ldrb	w13, [x12]
	cmp	x11, #1
	b.eq	Lh3q_BB104_289
	ldrb	w14, [x12, #1]
	cmp	x11, #2
	orr	x13, x14, x13, lsl #8
	b.eq	Lh3q_BB104_289
	ldrb	w11, [x12, #2]
	orr	x13, x11, x13, lsl #8
Lh3q_BB104_289:
	eor	x9, x13, x9
Lh3q_BB104_290:
	mul	x11, x9, x8
	umulh	x9, x9, x8
	eor	x9, x9, x11
	b	Lh3q_BB104_308
Lh3q_BB104_291:
	add	x11, x12, x11
	ldr	x12, [x12]
	ldur	x11, [x11, #-8]
	eor	x9, x12, x9
	eor	x11, x11, x8
	b	Lh3q_BB104_307
Lh3q_BB104_292:
	add	x11, x12, x11
	ldr	w12, [x12]
	ldur	w11, [x11, #-4]
	eor	x9, x9, x12
	eor	x11, x8, x11
Lh3q_BB104_293:
	mul	x12, x11, x9
	umulh	x9, x11, x9
	eor	x9, x9, x12
Lh3q_BB104_294:
	mul	x10, x10, x23
	cmp	x23, #16
	eor	x10, x9, x10
	b.hs	Lh3q_BB104_296
	ldr	x12, [sp, #168]
	mov	x11, x23
	b	Lh3q_BB104_298
Lh3q_BB104_296:
	ldr	x13, [sp, #168]
	mov	x11, x23
Lh3q_BB104_297:
	ldp	x12, x14, [x13]
	sub	x11, x11, #16
	cmp	x11, #15
	eor	x10, x12, x10
	eor	x12, x14, x8
	mul	x14, x12, x10
	umulh	x10, x12, x10
	add	x12, x13, #16
	mov	x13, x12
	eor	x10, x10, x14
	b.hi	Lh3q_BB104_297
Lh3q_BB104_298:
	cmp	x11, #7
	b.hi	Lh3q_BB104_315
	cmp	x11, #3
	b.hi	Lh3q_BB104_314
Lh3q_BB104_300:
	cbz	x11, Lh3q_BB104_305
	ldrb	w13, [x12]
	cmp	x11, #1
	b.eq	Lh3q_BB104_304
	ldrb	w14, [x12, #1]
	cmp	x11, #2
	orr	x13, x14, x13, lsl #8
	b.eq	Lh3q_BB104_304
	ldrb	w11, [x12, #2]
	orr	x13, x11, x13, lsl #8
Lh3q_BB104_304:
	eor	x10, x13, x10
Lh3q_BB104_305:
	mul	x11, x10, x8
	umulh	x8, x10, x8
	b	Lh3q_BB104_317
Lh3q_BB104_306:
	add	x11, x12, x11
	ldr	w12, [x12]
	ldur	w11, [x11, #-4]
	eor	x9, x9, x12
	eor	x11, x8, x11
Lh3q_BB104_307:
	mul	x12, x11, x9
	umulh	x9, x11, x9
	eor	x9, x9, x12
Lh3q_BB104_308:
	mul	x10, x10, x23
	cmp	x23, #16
	eor	x10, x9, x10
	b.hs	Lh3q_BB104_310
	ldr	x12, [sp, #168]
	mov	x11, x23
	b	Lh3q_BB104_312
Lh3q_BB104_310:
	ldr	x13, [sp, #168]
	mov	x11, x23
Lh3q_BB104_311:
	ldp	x12, x14, [x13]
	sub	x11, x11, #16
	cmp	x11, #15
	eor	x10, x12, x10
	eor	x12, x14, x8
	mul	x14, x12, x10
	umulh	x10, x12, x10
	add	x12, x13, #16
	mov	x13, x12
	eor	x10, x10, x14
	b.hi	Lh3q_BB104_311
Lh3q_BB104_312:
	cmp	x11, #7
	b.hi	Lh3q_BB104_315
	cmp	x11, #3
	b.ls	Lh3q_BB104_300
Lh3q_BB104_314:
	add	x11, x12, x11
	ldr	w12, [x12]
	ldur	w11, [x11, #-4]
	eor	x10, x10, x12
	eor	x8, x8, x11
	b	Lh3q_BB104_316
Lh3q_BB104_315:
	add	x11, x12, x11
	ldr	x12, [x12]
	ldur	x11, [x11, #-8]
	eor	x10, x12, x10
	eor	x8, x11, x8
Lh3q_BB104_316:
	mul	x11, x8, x10
	umulh	x8, x8, x10
Lh3q_BB104_317:
	lsr	x26, x9, #32
	eor	x28, x8, x11
Lh3q_BB104_318:
	cbz	x22, Lh3q_BB104_322
	cbz	x23, Lh3q_BB104_325
	tbnz	x23, #63, Lh3q_BB104_547
	mov	x0, x23
	mov	w1, #1
	bl	_rattle_alloc
	tbnz	w0, #0, Lh3q_BB104_326
	b	Lh3q_BB104_547
Lh3q_BB104_322:
	adds	x21, x23, x19
	b.eq	Lh3q_BB104_328
	tbnz	x21, #63, Lh3q_BB104_547
	mov	x0, x21
	mov	w1, #1
	bl	_rattle_alloc
	tbnz	w0, #0, Lh3q_BB104_329
	b	Lh3q_BB104_547
Lh3q_BB104_325:
	sub	x1, x29, #97
Lh3q_BB104_326:
	ldr	x0, [sp, #168]
	stp	x1, xzr, [x29, #-192]
	sub	x3, x29, #192
	mov	x1, x23
	mov	x2, x23
	stur	x23, [x29, #-176]
	bl	"_qpack_base::coding::append_within::<#3b617f7ce96065ff>"
	tst	w0, #0xff
	b.ne	Lh3q_BB104_548
	ldurb	w8, [x29, #-185]
	ldurh	w9, [x20, #165]
	mov	x23, xzr
	ldur	w10, [x20, #161]
	ldp	x27, x21, [x29, #-184]
	orr	w9, w9, w8, lsl #16
	ldurb	w8, [x29, #-192]
	orr	x9, x10, x9, lsl #32
	mov	w10, #1
	str	w10, [sp, #168]
	ldp	x10, x11, [x24, #112]
	orr	x19, x8, x9, lsl #8
Lh3q_loh202:
	adrp	x20, l_static.3@PAGE
Lh3q_loh203:
	add	x20, x20, l_static.3@PAGEOFF
	cmp	x10, x11
	b.hs	Lh3q_BB104_333
	b	Lh3q_BB104_334
Lh3q_BB104_328:
	sub	x1, x29, #97
Lh3q_BB104_329:
	ldr	x0, [sp, #168]
	stp	x1, xzr, [x29, #-192]
	sub	x3, x29, #192
	mov	x1, x23
	mov	x2, x23
	stur	x21, [x29, #-176]
	bl	"_qpack_base::coding::append_within::<#3b617f7ce96065ff>"
	tst	w0, #0xff
	b.ne	Lh3q_BB104_548
	mov	x8, #4294967296
	lsr	x9, x19, #32
	ldur	x0, [x29, #-192]
	cmp	x19, x8
	mov	x1, x19
	csel	x19, x19, x8, lo
	cbnz	x9, Lh3q_BB104_632
	ldur	q0, [x20, #168]
	stur	x0, [x29, #-192]
	sub	x3, x29, #192
	ldr	x0, [sp, #128]
	mov	x2, x1
	stur	q0, [x20, #168]
	bl	"_qpack_base::coding::append_within::<#3b617f7ce96065ff>"
	tst	w0, #0xff
	b.ne	Lh3q_BB104_548
	ldurb	w8, [x29, #-185]
	ldurh	w9, [x20, #165]
	mov	w23, w19
	ldur	w10, [x20, #161]
	ldp	x27, x21, [x29, #-184]
	orr	w9, w9, w8, lsl #16
	ldurb	w8, [x29, #-192]
	str	wzr, [sp, #168]
	str	xzr, [sp, #120]
	orr	x9, x10, x9, lsl #32
	ldp	x10, x11, [x24, #112]
	orr	x19, x8, x9, lsl #8
Lh3q_loh204:
	adrp	x20, l_static.3@PAGE
Lh3q_loh205:
	add	x20, x20, l_static.3@PAGEOFF
	cmp	x10, x11
	b.lo	Lh3q_BB104_334
Lh3q_BB104_333:
	add	x0, x24, #104
	bl	"_qpack_table::dynamic::block::grow"
	and	w8, w0, #0xff
	tbnz	w8, #0, Lh3q_BB104_544
Lh3q_BB104_334:
	cbz	x22, Lh3q_BB104_337
	ldr	x14, [sp, #120]
	cmp	x14, #25
	b.hs	Lh3q_BB104_338
Lh3q_loh206:
	adrp	x8, l_static.0@PAGE
Lh3q_loh207:
	add	x8, x8, l_static.0@PAGEOFF
	add	x10, x8, x14, lsl #5
	sub	x8, x27, x23
	mov	x9, x10
	ldr	x11, [x9, #8]!
	adds	x11, x8, x11
	csinv	x11, x11, xzr, lo
	adds	x11, x11, #32
	csinv	x22, x11, xzr, lo
	b	Lh3q_BB104_343
Lh3q_BB104_337:
	sub	x8, x27, x23
	mov	x12, x23
	adds	x9, x8, x23
	add	x10, x19, x8
	csinv	x9, x9, xzr, lo
	adds	x9, x9, #32
	csinv	x22, x9, xzr, lo
	b	Lh3q_BB104_344
Lh3q_BB104_338:
	cmp	x14, #50
	b.hs	Lh3q_BB104_340
Lh3q_loh208:
	adrp	x8, l_static.1@PAGE
Lh3q_loh209:
	add	x8, x8, l_static.1@PAGEOFF
	add	x10, x8, x14, lsl #5
	sub	x8, x27, x23
	sub	x9, x10, #792
	sub	x10, x10, #800
	ldr	x11, [x9]
	adds	x11, x8, x11
	csinv	x11, x11, xzr, lo
	adds	x11, x11, #32
	csinv	x22, x11, xzr, lo
	b	Lh3q_BB104_343
Lh3q_BB104_340:
	lsl	x8, x14, #5
Lh3q_loh210:
	adrp	x9, l_static.2@PAGE
Lh3q_loh211:
	add	x9, x9, l_static.2@PAGEOFF
	cmp	x14, #75
	add	x10, x9, x8
	add	x12, x20, x8
	sub	x9, x10, #1592
	sub	x11, x12, #2392
	csel	x8, x9, x11, lo
	ldr	x13, [x8]
	sub	x8, x27, x23
	adds	x13, x8, x13
	csinv	x13, x13, xzr, lo
	adds	x13, x13, #32
	csinv	x22, x13, xzr, lo
	cmp	x14, #75
	b.hs	Lh3q_BB104_342
	sub	x10, x10, #1600
	b	Lh3q_BB104_343
Lh3q_BB104_342:
	sub	x10, x12, #2400
	mov	x9, x11
Lh3q_BB104_343:
	ldr	x10, [x10]
	ldr	x12, [x9]
Lh3q_BB104_344:
	ldr	x13, [x24, #240]
	cmp	x25, x13
	mov	x25, x26
	b.eq	Lh3q_BB104_375
	mov	x11, #50915
	mov	x14, #10459
	mov	x15, #25647
	movk	x11, #40072, lsl #16
	movk	x14, #41140, lsl #16
	movk	x15, #30909, lsl #16
	movk	x11, #27376, lsl #32
	movk	x14, #32465, lsl #32
	movk	x15, #7524, lsl #32
	movk	x11, #36540, lsl #48
	movk	x14, #59139, lsl #48
	movk	x15, #41078, lsl #48
	mul	x9, x13, x11
	cmp	x12, #16
	umulh	x11, x13, x11
	eor	x13, x13, x15
	eor	x9, x11, x9
	eor	x9, x9, x14
	and	x11, x9, #0xfffffffffffffffe
	eor	x11, x11, x14
	mul	x14, x11, x12
	eor	x13, x13, x14
	b.lo	Lh3q_BB104_348
Lh3q_BB104_346:
	ldp	x14, x15, [x10]
	sub	x12, x12, #16
	cmp	x12, #15
	eor	x13, x14, x13
	eor	x14, x15, x9
	mul	x15, x14, x13
	umulh	x13, x14, x13
	add	x14, x10, #16
	mov	x10, x14
	eor	x13, x13, x15
	b.hi	Lh3q_BB104_346
	mov	x10, x14
Lh3q_BB104_348:
	cmp	x12, #7
	b.hi	Lh3q_BB104_356
	cmp	x12, #3
	b.hi	Lh3q_BB104_357
	cbz	x12, Lh3q_BB104_355
	ldrb	w14, [x10]
	cmp	x12, #1
	b.eq	Lh3q_BB104_354
	ldrb	w15, [x10, #1]
	cmp	x12, #2
	orr	x14, x15, x14, lsl #8
	b.eq	Lh3q_BB104_354
	ldrb	w10, [x10, #2]
	orr	x14, x10, x14, lsl #8
Lh3q_BB104_354:
	eor	x13, x14, x13
Lh3q_BB104_355:
	mul	x10, x13, x9
	umulh	x12, x13, x9
	eor	x10, x12, x10
	b	Lh3q_BB104_359
Lh3q_BB104_356:
	add	x12, x10, x12
	ldr	x10, [x10]
	ldur	x12, [x12, #-8]
	eor	x10, x10, x13
	eor	x12, x12, x9
	b	Lh3q_BB104_358
Lh3q_BB104_357:
	add	x12, x10, x12
	ldr	w10, [x10]
	ldur	w12, [x12, #-4]
	eor	x10, x13, x10
	eor	x12, x9, x12
Lh3q_BB104_358:
	mul	x13, x12, x10
	umulh	x10, x12, x10
	eor	x10, x10, x13
Lh3q_BB104_359:
	mul	x11, x11, x8
	cmp	x8, #16
	eor	x11, x10, x11
	b.hs	Lh3q_BB104_361
	mov	x12, x19
	b	Lh3q_BB104_363
Lh3q_BB104_361:
	mov	x13, x19
Lh3q_BB104_362:
	ldp	x12, x14, [x13]
	sub	x8, x8, #16
	cmp	x8, #15
	eor	x11, x12, x11
	eor	x12, x14, x9
	mul	x14, x12, x11
	umulh	x11, x12, x11
	add	x12, x13, #16
	mov	x13, x12
	eor	x11, x11, x14
	b.hi	Lh3q_BB104_362
Lh3q_BB104_363:
	cmp	x8, #7
	b.hi	Lh3q_BB104_371
	cmp	x8, #3
	b.hi	Lh3q_BB104_372
	cbz	x8, Lh3q_BB104_370
	ldrb	w13, [x12]
	cmp	x8, #1
	b.eq	Lh3q_BB104_369
	ldrb	w14, [x12, #1]
	cmp	x8, #2
	orr	x13, x14, x13, lsl #8
	b.eq	Lh3q_BB104_369
	ldrb	w8, [x12, #2]
	orr	x13, x8, x13, lsl #8
Lh3q_BB104_369:
	eor	x11, x13, x11
Lh3q_BB104_370:
	mul	x8, x11, x9
	umulh	x9, x11, x9
	eor	x28, x9, x8
	b	Lh3q_BB104_374
Lh3q_BB104_371:
	add	x8, x12, x8
	ldr	x12, [x12]
	ldur	x8, [x8, #-8]
	eor	x11, x12, x11
	eor	x8, x8, x9
	b	Lh3q_BB104_373
Lh3q_BB104_372:
	add	x8, x12, x8
	ldr	w12, [x12]
	ldur	w8, [x8, #-4]
	eor	x11, x11, x12
	eor	x8, x9, x8
Lh3q_BB104_373:
	mul	x9, x8, x11
	umulh	x8, x8, x11
	eor	x28, x8, x9
Lh3q_BB104_374:
	lsr	x25, x10, #32
Lh3q_BB104_375:
	ldp	x8, x9, [x24, #8]
	cmp	x8, x9
	b.lo	Lh3q_BB104_377
	mov	x0, x24
	bl	"_qpack_table::dynamic::growth::grow::<#87cca78d895f04c8>"
	and	w8, w0, #0xff
	tbnz	w8, #0, Lh3q_BB104_544
Lh3q_BB104_377:
	ldp	x8, x9, [x24, #200]
	cmp	x8, x9
	b.lo	Lh3q_BB104_379
	add	x0, x24, #192
	bl	"_qpack_table::dynamic::index::row::Row::grow"
	and	w8, w0, #0xff
	tbnz	w8, #0, Lh3q_BB104_544
Lh3q_BB104_379:
	ldp	x8, x9, [x24, #224]
	cmp	x8, x9
	b.lo	Lh3q_BB104_381
	add	x0, x24, #216
	bl	"_qpack_table::dynamic::index::row::Row::grow"
	and	w8, w0, #0xff
	tbnz	w8, #0, Lh3q_BB104_544
Lh3q_BB104_381:
	ldr	x3, [sp, #8]
	add	x0, x24, #192
	add	x2, x24, #40
	mov	x1, x24
	bl	"_qpack_table::dynamic::index::IndexEntryIndex::drop_oldest::<#e26e38abbd2828ef>"
	ldp	x9, x13, [x24, #8]
	sub	x12, x22, x0
	ldp	x11, x8, [x24, #24]
	ldr	x10, [x24, #56]
	ldr	x14, [x24, #40]
	add	x15, x12, x10
	ldr	x10, [x24]
	sub	x12, x9, x8
	sub	x13, x13, x11
	str	x15, [x24, #56]
	cmp	x12, x13
	add	x13, x14, #1
	str	x13, [x24, #40]
	b.hs	Lh3q_BB104_383
	add	x8, x11, x12
	mov	w11, #48
	madd	x8, x8, x11, x10
	ldr	w10, [sp, #168]
	ldr	x11, [sp, #120]
	strb	w10, [x8, #28]
	mov	w10, #16842752
	stur	x10, [x8, #30]
	mov	w10, #1
	stp	x19, x27, [x8]
	str	x21, [x8, #16]
	str	w23, [x8, #24]
	strb	w11, [x8, #29]
	strh	wzr, [x8, #38]
	str	x10, [x8, #40]
	ldr	x10, [x24, #32]
	b	Lh3q_BB104_384
Lh3q_BB104_383:
	mov	w11, #48
	ldr	x12, [sp, #120]
	madd	x10, x8, x11, x10
	ldr	w11, [sp, #168]
	strb	w11, [x10, #28]
	mov	w11, #16842752
	stur	x11, [x10, #30]
	mov	w11, #1
	stp	x19, x27, [x10]
	str	x21, [x10, #16]
	str	w23, [x10, #24]
	strb	w12, [x10, #29]
	strh	wzr, [x10, #38]
	str	x11, [x10, #40]
	add	x10, x8, #1
	str	x10, [x24, #32]
Lh3q_BB104_384:
	add	x8, x9, #1
	ldr	x19, [x24, #48]
	ldr	x26, [sp, #72]
	sub	x11, x8, x10
	ldr	x10, [x24]
	ldr	x27, [sp, #88]
	subs	x11, x9, x11
	str	x8, [x24, #8]
	stur	xzr, [x29, #-136]
	str	xzr, [sp, #648]
	b.hs	Lh3q_BB104_387
	ldr	x11, [x24, #24]
	mov	w12, #48
	madd	x10, x11, x12, x10
	madd	x12, x9, x12, x10
	ldp	x9, x13, [x12]
	ldrb	w10, [x12, #28]
	ldr	w11, [x12, #24]
	cmp	w10, #1
	sub	x10, x13, x11
	b.eq	Lh3q_BB104_388
Lh3q_BB104_386:
	add	x12, x9, x10
	b	Lh3q_BB104_396
Lh3q_BB104_387:
	mov	w9, #48
	madd	x12, x11, x9, x10
	ldp	x9, x13, [x12]
	ldrb	w10, [x12, #28]
	ldr	w11, [x12, #24]
	cmp	w10, #1
	sub	x10, x13, x11
	b.ne	Lh3q_BB104_386
Lh3q_BB104_388:
	ldrb	w11, [x12, #29]
	cmp	w11, #24
	b.hi	Lh3q_BB104_390
Lh3q_loh212:
	adrp	x12, l_static.0@PAGE
Lh3q_loh213:
	add	x12, x12, l_static.0@PAGEOFF
	add	x11, x12, x11, lsl #5
	add	x13, x11, #8
	b	Lh3q_BB104_395
Lh3q_BB104_390:
	cmp	w11, #49
	b.hi	Lh3q_BB104_392
Lh3q_loh214:
	adrp	x12, l_static.1@PAGE
Lh3q_loh215:
	add	x12, x12, l_static.1@PAGEOFF
	add	x12, x12, x11, lsl #5
	sub	x11, x12, #800
	sub	x13, x12, #792
	b	Lh3q_BB104_395
Lh3q_BB104_392:
	lsl	x12, x11, #5
	cmp	w11, #74
	b.hi	Lh3q_BB104_394
Lh3q_loh216:
	adrp	x11, l_static.2@PAGE
Lh3q_loh217:
	add	x11, x11, l_static.2@PAGEOFF
	add	x12, x11, x12
	sub	x11, x12, #1600
	sub	x13, x12, #1592
	b	Lh3q_BB104_395
Lh3q_BB104_394:
	add	x12, x20, x12
	sub	x11, x12, #2400
	sub	x13, x12, #2392
Lh3q_BB104_395:
	ldr	x12, [x11]
	ldr	x11, [x13]
Lh3q_BB104_396:
	ldr	x13, [x24, #240]
	lsr	x21, x28, #32
	mov	w14, #1
	add	x0, x24, #192
	sub	x3, x29, #192
	add	x4, sp, #584
	mov	x1, x24
	mov	x2, x19
	stp	x14, x13, [x29, #-192]
	stp	x12, x11, [x29, #-176]
	add	x22, x19, x8
	stp	x9, x10, [x29, #-160]
	stur	xzr, [x29, #-144]
	stur	w21, [x29, #-136]
	str	xzr, [sp, #592]
	str	x13, [sp, #600]
	str	x12, [sp, #608]
	str	x11, [sp, #616]
	str	x9, [sp, #624]
	str	x10, [sp, #632]
	str	xzr, [sp, #640]
	str	w25, [sp, #648]
	str	xzr, [sp, #584]
	bl	"_qpack_table::dynamic::index::row::Row::search::<#e26e38abbd2828ef>"
	tst	w0, #0xff
	b.eq	Lh3q_BB104_400
	ldp	x8, x9, [x24, #200]
	cmp	x8, x9
	b.lo	Lh3q_BB104_399
	cmp	x9, x8
	b.eq	Lh3q_BB104_420
Lh3q_BB104_399:
	add	x0, x24, #192
	mov	w2, w21
	mov	w3, w22
	bl	"_std_alloc::vec::Vec::put_at::<#3bf946f3347a0964>"
	b	Lh3q_BB104_401
Lh3q_BB104_400:
	ldur	x8, [x24, #192]
	add	x8, x8, x1, lsl #3
	stp	w21, w22, [x8]
Lh3q_BB104_401:
	add	x0, x24, #216
	add	x3, sp, #592
	add	x4, sp, #584
	mov	x1, x24
	mov	x2, x19
	str	xzr, [sp, #584]
	bl	"_qpack_table::dynamic::index::row::Row::search::<#e26e38abbd2828ef>"
	tst	w0, #0xff
	b.eq	Lh3q_BB104_405
	ldp	x8, x9, [x24, #224]
	cmp	x8, x9
	b.lo	Lh3q_BB104_404
	cmp	x9, x8
	b.eq	Lh3q_BB104_421
Lh3q_BB104_404:
	add	x0, x24, #216
	mov	w2, w25
	mov	w3, w22
	bl	"_std_alloc::vec::Vec::put_at::<#3bf946f3347a0964>"
	b	Lh3q_BB104_406
Lh3q_BB104_405:
	ldur	x8, [x24, #216]
	add	x8, x8, x1, lsl #3
	stp	w25, w22, [x8]
Lh3q_BB104_406:
	ldp	x9, x8, [x24, #104]
	add	x0, sp, #288
	ldr	x10, [x24, #40]
	ldrb	w20, [sp, #544]
	add	x1, sp, #512
	ldr	x21, [sp, #552]
	ldr	q0, [sp, #560]
	ldr	x2, [sp, #96]
	str	x10, [x9, x8, lsl #3]
	add	x8, x8, #1
	ldr	x22, [sp, #560]
	str	x8, [x24, #112]
	str	x20, [sp, #512]
	str	x21, [sp, #520]
	str	q0, [sp, #528]
	bl	"_qpack_codec::encoder::fields::write_instruction::<#f5d64057dea64abe>"
	and	w8, w0, #0xff
	tbnz	w8, #0, Lh3q_BB104_437
	cmp	w20, #1
	b.le	Lh3q_BB104_410
	sub	w8, w20, #2
	mov	x19, x21
	cmp	w8, #2
	b.lo	Lh3q_BB104_412
	add	x0, sp, #288
	mov	w1, w21
	mov	x2, x22
	mov	x3, x26
	bl	"_qpack_codec::encoder::fields::append_literal::<#7b66556a84635673>"
	and	w8, w0, #0xff
	tbz	w8, #0, Lh3q_BB104_280
	b	Lh3q_BB104_437
Lh3q_BB104_410:
	mov	x19, x22
	cbnz	w20, Lh3q_BB104_412
	mov	x19, x21
Lh3q_BB104_412:
	cmp	x19, #14
	b.hi	Lh3q_BB104_417
	ldp	x8, x9, [x26, #8]
	cmp	x9, x8
	b.hi	Lh3q_BB104_416
	mov	x0, x26
	mov	w1, #1
	bl	"_qpack_base::coding::grow::<#7b66556a84635673>"
	and	w8, w0, #0xff
	tbnz	w8, #0, Lh3q_BB104_437
	ldr	x8, [x26, #8]
Lh3q_BB104_416:
	ldr	x9, [x26]
	orr	w10, w19, #0x10
	b	Lh3q_BB104_38
Lh3q_BB104_417:
	mov	w0, #4
	mov	w1, #1
	mov	x2, x19
	mov	x3, x26
	bl	"_qpack_base::prefix_int::encode_long::<#7b66556a84635673>"
	tst	w0, #0xff
	b.eq	Lh3q_BB104_280
	b	Lh3q_BB104_437
Lh3q_BB104_418:
	add	x0, x24, #192
	mov	x20, x1
	bl	"_std_alloc::vec::Vec::grow_amortized::<#3bf946f3347a0964>"
	mov	x1, x20
	cbnz	w0, Lh3q_BB104_272
	b	Lh3q_BB104_274
Lh3q_BB104_419:
	add	x0, x24, #216
	mov	x19, x1
	bl	"_std_alloc::vec::Vec::grow_amortized::<#3bf946f3347a0964>"
	mov	x1, x19
	cbnz	w0, Lh3q_BB104_277
	b	Lh3q_BB104_279
Lh3q_BB104_420:
	add	x0, x24, #192
	mov	x20, x1
	bl	"_std_alloc::vec::Vec::grow_amortized::<#3bf946f3347a0964>"
	mov	x1, x20
	cbnz	w0, Lh3q_BB104_399
	b	Lh3q_BB104_401
Lh3q_BB104_421:
	add	x0, x24, #216
	mov	x19, x1
	bl	"_std_alloc::vec::Vec::grow_amortized::<#3bf946f3347a0964>"
	mov	x1, x19
	cbnz	w0, Lh3q_BB104_404
	b	Lh3q_BB104_406
Lh3q_BB104_422:
	ldr	x8, [x24, #112]
	cbz	x8, Lh3q_BB104_425
	ldr	x9, [x24, #104]
	cmp	x8, #4
	b.hs	Lh3q_BB104_426
	mov	x24, xzr
	mov	x10, xzr
	b	Lh3q_BB104_429
Lh3q_BB104_425:
	mov	x24, xzr
	b	Lh3q_BB104_435
Lh3q_BB104_426:
	movi.2d	v0, #0000000000000000
	movi.2d	v1, #0000000000000000
	and	x10, x8, #0xfffffffffffffffc
	add	x11, x9, #16
	and	x12, x8, #0xfffffffffffffffc
Lh3q_BB104_427:
	ldp	q2, q3, [x11, #-16]
	subs	x12, x12, #4
	add	x11, x11, #32
	cmhi.2d	v4, v2, v0
	cmhi.2d	v5, v3, v1
	bit.16b	v0, v2, v4
	bit.16b	v1, v3, v5
	b.ne	Lh3q_BB104_427
	cmhi.2d	v2, v0, v1
	cmp	x8, x10
	bif.16b	v0, v1, v2
	ext.16b	v1, v0, v0, #8
	cmhi	d2, d0, d1
	bif.8b	v0, v1, v2
	fmov	x24, d0
	b.eq	Lh3q_BB104_431
Lh3q_BB104_429:
	add	x9, x9, x10, lsl #3
	sub	x8, x8, x10
Lh3q_BB104_430:
	ldr	x10, [x9], #8
	cmp	x10, x24
	csel	x24, x10, x24, hi
	subs	x8, x8, #1
	b.ne	Lh3q_BB104_430
Lh3q_BB104_431:
	ldr	x8, [sp, #32]
	cbz	x8, Lh3q_BB104_435
	cbz	x24, Lh3q_BB104_435
	lsr	x8, x8, #4
	ands	x8, x8, #0xffffffffffffffe
	b.eq	Lh3q_BB104_656
	udiv	x9, x24, x8
	add	x10, sp, #4
	stur	wzr, [x10, #255]
	msub	x8, x9, x8, x24
	ldr	x9, [sp, #64]
	subs	x11, x9, x24
	mvn	x9, x9
	add	x12, x24, x9
	cset	w9, lo
	add	x10, x8, #1
	csel	x8, x12, x11, lo
	b	Lh3q_BB104_436
Lh3q_BB104_435:
	add	x11, sp, #4
	mov	x10, xzr
	mov	w9, wzr
	mov	x8, xzr
	stur	wzr, [x11, #255]
Lh3q_BB104_436:
	str	wzr, [sp, #256]
	add	x11, sp, #18
	ldr	x22, [x26, #8]
	strb	w9, [sp, #272]
	add	x9, sp, #4
	add	x0, sp, #264
	ldur	w9, [x9, #255]
	str	x10, [sp, #264]
	mov	x1, x26
	stur	wzr, [x11, #255]
	str	w9, [sp, #276]
	str	x8, [sp, #280]
	bl	"_qpack_wire::block::prefix::HeaderPrefix::encode::<#7b66556a84635673>"
	and	w8, w0, #0xff
	tbz	w8, #0, Lh3q_BB104_438
Lh3q_BB104_437:
	ldr	x0, [sp, #144]
	bl	"_qpack_table::dynamic::table::DynamicTable::release_references::<#f1ee30144fd2ee58>"
	b	Lh3q_BB104_580
Lh3q_BB104_438:
	ldp	x20, x8, [x26]
	ldr	x23, [sp, #24]
	sub	x21, x8, x22
	sub	x19, x8, x23
	cmp	x21, #5
	b.ls	Lh3q_BB104_440
	sub	x2, x19, x21
	add	x0, x20, x23
	mov	x1, x19
	bl	"_core::slice::edits::slice+T::rotate_left::<i8>"
	b	Lh3q_BB104_442
Lh3q_BB104_440:
	cmp	x8, x22
	b.eq	Lh3q_BB104_442
Lh3q_BB104_441:
	add	x0, x20, x23
	sub	x2, x19, #1
	mov	x1, x19
	bl	"_core::slice::edits::slice+T::rotate_left::<i8>"
	subs	x21, x21, #1
	b.ne	Lh3q_BB104_441
Lh3q_BB104_442:
	ldr	x9, [sp, #144]
	str	xzr, [sp, #520]
	str	xzr, [sp, #512]
	ldr	x25, [x9, #96]
	str	xzr, [sp, #528]
	cmp	x25, x24
	b.hs	Lh3q_BB104_460
	ldr	x22, [x9, #184]
	lsr	x8, x22, #62
	cbnz	x8, Lh3q_BB104_579
	ldr	x10, [sp, #144]
	ldrb	w8, [x10, #160]
	cmp	w8, #1
	b.ne	Lh3q_BB104_446
	ldr	x1, [x10, #168]
	b	Lh3q_BB104_448
Lh3q_BB104_446:
	mov	w0, #248
	mov	w1, #8
	bl	_rattle_alloc
	tbz	w0, #0, Lh3q_BB104_579
	ldr	x10, [sp, #144]
	str	wzr, [x1]
	mov	w9, #1
	ldrb	w8, [x10, #160]
	stp	x9, x1, [x10, #160]
	cmp	w8, #1
	b.eq	Lh3q_BB104_656
Lh3q_BB104_448:
	ldrh	w23, [x1, #2]
	mov	w8, #15
	mov	x21, xzr
	mov	x19, xzr
	add	x28, x10, #168
	mov	x11, x1
	sub	x8, x8, x23
	neg	x20, x23
	mov	x26, x1
	mov	x27, x8
	mov	x9, x11
	ldrh	w11, [x11]
	cbz	x11, Lh3q_BB104_455
Lh3q_BB104_449:
	mov	x10, xzr
	add	x12, x9, #16
Lh3q_BB104_450:
	ldur	x13, [x12, #-8]
	cmp	x24, x13
	cset	w13, lo
	b.ne	Lh3q_BB104_452
	ldr	x13, [x12]
	cmp	x22, x13
	cset	w13, lo
	b.eq	Lh3q_BB104_458
Lh3q_BB104_452:
	tbnz	w13, #0, Lh3q_BB104_456
	add	x10, x10, #1
	add	x12, x12, #16
	cmp	x11, x10
	b.ne	Lh3q_BB104_450
	mov	x10, x11
	b	Lh3q_BB104_456
Lh3q_BB104_455:
	mov	x10, xzr
Lh3q_BB104_456:
	ldrh	w11, [x9, #2]
	add	x19, x10, x19, lsl #4
	add	x27, x27, #1
	cbz	w11, Lh3q_BB104_476
	add	x11, x9, x10, lsl #3
	add	x20, x20, #1
	mov	x21, x10
	mov	x26, x9
	ldr	x11, [x11, #248]
	mov	x9, x11
	ldrh	w11, [x11]
	cbnz	x11, Lh3q_BB104_449
	b	Lh3q_BB104_455
Lh3q_BB104_458:
	add	x8, x26, x21, lsl #3
	add	x9, x23, x27
	cmp	x9, #15
	and	x9, x10, #0xf
	add	x8, x8, #248
	csel	x8, x28, x8, eq
	ldr	x8, [x8]
	ldrh	w8, [x8]
	cmp	x9, x8
	b.hs	Lh3q_BB104_656
Lh3q_BB104_459:
	ldr	x9, [sp, #144]
	add	x8, x22, #1
	str	x8, [x9, #184]
Lh3q_BB104_460:
	ldr	x27, [x9, #112]
	cbz	x27, Lh3q_BB104_513
	lsr	x8, x27, #60
	cbnz	x8, Lh3q_BB104_553
	ldr	x8, [sp, #144]
	lsl	x21, x27, #3
	mov	w1, #8
	ldr	x19, [x8, #48]
	ldr	x22, [x8, #104]
	mov	x0, x21
	bl	_rattle_alloc
	tbz	w0, #0, Lh3q_BB104_553
	sub	x8, x1, x22
	cmp	x8, x21
	b.hs	Lh3q_BB104_471
	cmp	x27, #4
	mov	x8, xzr
	b.lo	Lh3q_BB104_469
	sub	x9, x1, x22
	cmp	x9, #32
	b.lo	Lh3q_BB104_469
	and	x8, x27, #0xffffffffffffffc
	add	x9, x22, #16
	add	x10, x1, #16
	and	x11, x27, #0xffffffffffffffc
Lh3q_BB104_467:
	ldp	q0, q1, [x9, #-16]
	subs	x11, x11, #4
	add	x9, x9, #32
	stp	q0, q1, [x10, #-16]
	add	x10, x10, #32
	b.ne	Lh3q_BB104_467
	cmp	x27, x8
	b.eq	Lh3q_BB104_472
Lh3q_BB104_469:
	lsl	x10, x8, #3
	sub	x8, x27, x8
	add	x9, x22, x10
	add	x10, x1, x10
Lh3q_BB104_470:
	ldr	x11, [x9], #8
	subs	x8, x8, #1
	str	x11, [x10], #8
	b.ne	Lh3q_BB104_470
	b	Lh3q_BB104_472
Lh3q_BB104_471:
	mov	x0, x1
	mov	x20, x1
	mov	x1, x22
	mov	x2, x21
	bl	_memmove
	mov	x1, x20
Lh3q_BB104_472:
	ldr	x10, [sp, #144]
	ldr	x21, [x10, #152]
	lsr	x8, x21, #62
	cbz	x8, Lh3q_BB104_474
	mov	x0, x1
	b	Lh3q_BB104_552
Lh3q_BB104_474:
	ldrb	w8, [x10, #128]
	stp	x19, x1, [sp, #160]
	cmp	w8, #1
	b.ne	Lh3q_BB104_484
	ldr	x1, [x10, #136]
	b	Lh3q_BB104_486
Lh3q_BB104_476:
	ldr	x9, [sp, #144]
	mov	x10, #9223372036854775806
	ldr	x9, [x9, #176]
	cmp	x9, x10
	b.hi	Lh3q_BB104_579
	lsl	x9, x21, #3
	sub	x11, x27, x8
	cmp	x11, #1
	add	x10, x26, x9
	add	x10, x10, #248
	csel	x10, x28, x10, eq
	ldr	x10, [x10]
	ldrh	w10, [x10]
	cmp	w10, #15
	b.lo	Lh3q_BB104_637
	ldrh	w9, [x1]
	cmp	w9, #15
	b.hs	Lh3q_BB104_586
	subs	x9, x27, x8
	stp	xzr, xzr, [x29, #-192]
	str	x9, [sp, #120]
	b.ls	Lh3q_BB104_482
Lh3q_BB104_480:
	sub	x9, x29, #192
	add	x9, x9, #15
Lh3q_BB104_481:
	add	x10, x20, #15
	and	w11, w19, #0xf
	lsr	x19, x19, #4
	cmp	x8, x10
	strb	w11, [x9, x20]
	sub	x20, x20, #1
	b.lo	Lh3q_BB104_481
Lh3q_BB104_482:
	mov	w9, #16
	ldur	q0, [x29, #-192]
	sub	x10, x9, x8
	cmp	x10, #2
	str	q0, [sp, #592]
	b.lo	Lh3q_BB104_634
	add	x9, sp, #592
	str	x28, [sp, #112]
	add	x28, x9, x8
	ldr	x8, [sp, #144]
	add	x23, x8, #168
	b	Lh3q_BB104_516
Lh3q_BB104_484:
	mov	w0, #608
	mov	w1, #8
	bl	_rattle_alloc
	tbz	w0, #0, Lh3q_BB104_551
	ldr	x10, [sp, #144]
	str	wzr, [x1]
	mov	w9, #1
	ldrb	w8, [x10, #128]
	stp	x9, x1, [x10, #128]
	cmp	w8, #1
	b.eq	Lh3q_BB104_656
Lh3q_BB104_486:
	ldrh	w19, [x1, #2]
	mov	w8, #15
	mov	x23, xzr
	mov	x22, xzr
	add	x15, x10, #136
	mov	x11, x1
	sub	x8, x8, x19
	neg	x28, x19
	mov	x20, x1
	mov	x26, x8
	mov	x9, x11
	ldrh	w11, [x11]
	cbz	x11, Lh3q_BB104_493
Lh3q_BB104_487:
	mov	x10, xzr
	add	x12, x9, #16
Lh3q_BB104_488:
	ldur	x13, [x12, #-8]
	ldr	x14, [sp, #40]
	cmp	x14, x13
	cset	w13, lo
	b.ne	Lh3q_BB104_490
	ldr	x13, [x12]
	cmp	x21, x13
	cset	w13, lo
	b.eq	Lh3q_BB104_496
Lh3q_BB104_490:
	tbnz	w13, #0, Lh3q_BB104_494
	add	x10, x10, #1
	add	x12, x12, #16
	cmp	x11, x10
	b.ne	Lh3q_BB104_488
	mov	x10, x11
	b	Lh3q_BB104_494
Lh3q_BB104_493:
	mov	x10, xzr
Lh3q_BB104_494:
	ldrh	w11, [x9, #2]
	add	x22, x10, x22, lsl #4
	add	x26, x26, #1
	cbz	w11, Lh3q_BB104_550
	add	x11, x9, x10, lsl #3
	add	x28, x28, #1
	mov	x23, x10
	mov	x20, x9
	ldr	x11, [x11, #608]
	mov	x9, x11
	ldrh	w11, [x11]
	cbnz	x11, Lh3q_BB104_487
	b	Lh3q_BB104_493
Lh3q_BB104_496:
	add	x8, x20, x23, lsl #3
	add	x9, x19, x26
	cmp	x9, #15
	and	x9, x10, #0xf
	add	x8, x8, #608
	csel	x8, x15, x8, eq
	ldr	x8, [x8]
	ldrh	w11, [x8]
	cmp	x9, x11
	b.hs	Lh3q_BB104_656
	mov	w10, #24
	umaddl	x8, w9, w10, x8
	ldp	x19, x10, [sp, #160]
	ldr	x0, [x8, #248]
	ldr	x9, [x8, #264]
	stp	x10, x27, [x8, #248]
	str	x27, [x8, #264]
	cbz	x9, Lh3q_BB104_499
	bl	_rattle_dealloc
Lh3q_BB104_499:
	ldr	x10, [sp, #144]
	add	x9, x21, #1
	ldr	x8, [x10, #112]
	str	x9, [x10, #152]
	cbz	x8, Lh3q_BB104_513
Lh3q_BB104_500:
	ldr	x9, [sp, #144]
	ldr	x9, [x9, #104]
	b	Lh3q_BB104_504
Lh3q_BB104_501:
	add	x10, x12, x13
	mov	w12, #48
	madd	x10, x10, x12, x11
Lh3q_BB104_502:
	strb	wzr, [x10, #33]
Lh3q_BB104_503:
	subs	x8, x8, #1
	b.eq	Lh3q_BB104_511
Lh3q_BB104_504:
	ldr	x10, [x9], #8
	subs	x10, x10, x19
	b.ls	Lh3q_BB104_503
	ldr	x11, [sp, #144]
	cmp	x10, #0
	cset	w12, ne
	ldr	x11, [x11, #8]
	sub	x10, x10, x12
	subs	x12, x10, x11
	b.hs	Lh3q_BB104_503
	ldr	x15, [sp, #144]
	ldr	x13, [x15, #32]
	sub	x14, x11, x13
	ldr	x11, [x15]
	cmp	x10, x14
	b.hs	Lh3q_BB104_501
	ldr	x12, [x15, #24]
	mov	w13, #48
	madd	x11, x12, x13, x11
	madd	x10, x10, x13, x11
	b	Lh3q_BB104_502
Lh3q_BB104_508:
	cbnz	x22, Lh3q_BB104_545
	b	Lh3q_BB104_547
Lh3q_BB104_509:
	ldur	x8, [x29, #-176]
	cbz	x8, Lh3q_BB104_437
	ldur	x0, [x29, #-192]
	bl	_rattle_dealloc
	b	Lh3q_BB104_437
Lh3q_BB104_511:
	ldr	x8, [sp, #144]
	ldr	x8, [x8, #112]
	cbz	x8, Lh3q_BB104_513
	ldr	x8, [sp, #144]
	str	xzr, [x8, #112]
Lh3q_BB104_513:
	ldr	x9, [sp, #528]
	ldr	q0, [sp, #512]
	mov	x8, xzr
	str	x9, [sp, #192]
	str	x9, [sp, #224]
	ldr	x9, [sp, #56]
	str	q0, [sp, #176]
	str	q0, [sp, #208]
	b	Lh3q_BB104_583
Lh3q_BB104_514:
	add	w27, w27, #1
	sub	w8, w8, #8
	strb	w27, [x28]
	strb	w8, [x28, #1]
Lh3q_BB104_515:
	add	x8, x26, w27, uxtb #3
	cmp	x10, #2
	sub	x10, x10, #1
	add	x28, x28, #1
	add	x23, x8, #248
	b.ls	Lh3q_BB104_633
Lh3q_BB104_516:
	ldrb	w27, [x28]
	ldr	x26, [x23]
	add	x8, x26, x27, lsl #3
	ldr	x8, [x8, #248]
	ldrh	w8, [x8]
	cmp	w8, #15
	b.lo	Lh3q_BB104_515
	ldrh	w8, [x26, #2]
	str	x10, [sp, #160]
	subs	x20, x8, #1
	b.eq	Lh3q_BB104_519
	mov	w0, #376
	b	Lh3q_BB104_520
Lh3q_BB104_519:
	mov	w0, #248
Lh3q_BB104_520:
	mov	w1, #8
	bl	_rattle_alloc
	tbz	w0, #0, Lh3q_BB104_640
	strh	w20, [x1, #2]
	add	x8, x1, #8
	mov	x19, x1
	ldr	x26, [x23]
	add	x13, x26, #248
	ldrh	w10, [x26, #2]
	ldrh	w11, [x26]
	ldr	x20, [x13, x27, lsl #3]
	cmp	w10, #0
	str	x11, [sp, #168]
	ldrh	w21, [x20]
	add	x9, x20, #136
	csinc	x11, xzr, x11, eq
	sub	x10, x8, x9
	str	x11, [sp, #152]
	ldrh	w11, [x20, #2]
	sub	x14, x21, #8
	lsl	x2, x14, #4
	cmp	x10, x2
	b.hs	Lh3q_BB104_524
	cmp	w21, #8
	sub	x10, x21, #8
	b.eq	Lh3q_BB104_525
Lh3q_BB104_523:
	ldr	q0, [x9], #16
	subs	x10, x10, #1
	str	q0, [x8], #16
	b.ne	Lh3q_BB104_523
	b	Lh3q_BB104_525
Lh3q_BB104_524:
	add	x0, x19, #8
	add	x1, x20, #136
	str	x19, [sp, #128]
	mov	x19, x23
	mov	w23, w11
	bl	_memmove
	mov	w11, w23
	mov	x23, x19
	ldr	x19, [sp, #128]
	sub	x14, x21, #8
	add	x13, x26, #248
Lh3q_BB104_525:
	ldur	q2, [x20, #120]
	cbz	w11, Lh3q_BB104_534
	sub	x8, x21, #7
	add	x9, x19, #248
	add	x10, x20, #312
	lsl	x2, x8, #3
	sub	x9, x9, x10
	cmp	x9, x2
	b.hs	Lh3q_BB104_533
	cmp	w21, #7
	b.eq	Lh3q_BB104_534
	cmp	x8, #4
	b.lo	Lh3q_BB104_530
	sub	x9, x19, x20
	sub	x9, x9, #64
	cmp	x9, #32
	b.hs	Lh3q_BB104_541
Lh3q_BB104_530:
	mov	x9, xzr
Lh3q_BB104_531:
	lsl	x8, x9, #3
	sub	x9, x21, x9
	add	x10, x20, x8
	add	x11, x19, x8
	sub	x8, x9, #7
	add	x9, x10, #312
	add	x10, x11, #248
Lh3q_BB104_532:
	ldr	x11, [x9], #8
	subs	x8, x8, #1
	str	x11, [x10], #8
	b.ne	Lh3q_BB104_532
	b	Lh3q_BB104_534
Lh3q_BB104_533:
	add	x0, x19, #248
	add	x1, x20, #312
	mov	x21, x14
	str	q2, [sp, #128]
	bl	_memmove
	ldr	q2, [sp, #128]
	mov	x14, x21
	add	x13, x26, #248
Lh3q_BB104_534:
	mov	w8, #7
	add	x9, x26, #8
	strh	w8, [x20]
	ldr	x8, [sp, #168]
	add	x21, x9, x27, lsl #4
	strh	w14, [x19]
	subs	x8, x8, x27
	str	x20, [x13, x27, lsl #3]
	b.eq	Lh3q_BB104_536
	lsl	x2, x8, #4
	add	x0, x21, #16
	mov	x1, x21
	str	q2, [sp, #128]
	bl	_memmove
	ldr	q2, [sp, #128]
	add	x13, x26, #248
Lh3q_BB104_536:
	ldr	x10, [sp, #152]
	add	x9, x27, #1
	str	q2, [x21]
	subs	x8, x10, x9
	b.ne	Lh3q_BB104_538
	lsl	x20, x10, #3
	b	Lh3q_BB104_539
Lh3q_BB104_538:
	lsl	x20, x9, #3
	lsl	x2, x8, #3
	add	x1, x13, x20
	add	x0, x1, #8
	bl	_memmove
	add	x13, x26, #248
Lh3q_BB104_539:
	ldp	x10, x8, [sp, #160]
	str	x19, [x13, x20]
	add	x8, x8, #1
	strh	w8, [x26]
	str	x26, [x23]
	ldrb	w8, [x28, #1]
	cmp	w8, #7
	b.hi	Lh3q_BB104_514
	ldrb	w27, [x28]
	b	Lh3q_BB104_515
Lh3q_BB104_541:
	and	x9, x8, #0xfffffffffffffffc
	add	x10, x20, #328
	add	x11, x19, #264
	and	x12, x8, #0xfffffffffffffffc
Lh3q_BB104_542:
	ldp	q0, q1, [x10, #-16]
	subs	x12, x12, #4
	add	x10, x10, #32
	stp	q0, q1, [x11, #-16]
	add	x11, x11, #32
	b.ne	Lh3q_BB104_542
	cmp	x8, x9
	b.eq	Lh3q_BB104_534
	b	Lh3q_BB104_531
Lh3q_BB104_544:
	cbz	x21, Lh3q_BB104_547
Lh3q_BB104_545:
	mov	x0, x19
Lh3q_BB104_546:
	bl	_rattle_dealloc
Lh3q_BB104_547:
	ldr	x26, [sp, #72]
	b	Lh3q_BB104_437
Lh3q_BB104_548:
	ldur	x8, [x29, #-176]
	cbz	x8, Lh3q_BB104_547
	ldur	x0, [x29, #-192]
	b	Lh3q_BB104_546
Lh3q_BB104_550:
	ldr	x9, [sp, #144]
	mov	x10, #9223372036854775806
	ldr	x9, [x9, #144]
	cmp	x9, x10
	b.ls	Lh3q_BB104_589
Lh3q_BB104_551:
	ldr	x0, [sp, #168]
Lh3q_BB104_552:
	bl	_rattle_dealloc
Lh3q_BB104_553:
	cmp	x25, x24
	b.hs	Lh3q_BB104_579
	ldr	x10, [sp, #144]
	ldr	x8, [x10, #184]
	ldrb	w9, [x10, #160]
	sub	x12, x8, #1
	cmp	w9, #1
	str	x12, [x10, #184]
	b.ne	Lh3q_BB104_579
	ldr	x19, [sp, #144]
	mov	w8, #15
	mov	x11, xzr
	mov	x13, xzr
	ldr	x14, [x19, #168]!
	ldrh	w9, [x14, #2]
	mov	x17, x14
	sub	x8, x8, x9
	neg	x10, x9
	mov	x15, x8
	ldrh	w0, [x14]
	mov	x16, x14
	cbz	x0, Lh3q_BB104_564
Lh3q_BB104_556:
	mov	x14, xzr
	add	x1, x16, #16
Lh3q_BB104_557:
	ldur	x2, [x1, #-8]
	cmp	x24, x2
	cset	w2, lo
	b.ne	Lh3q_BB104_559
	ldr	x2, [x1]
	cmp	x12, x2
	cset	w2, lo
	b.eq	Lh3q_BB104_565
Lh3q_BB104_559:
	tbnz	w2, #0, Lh3q_BB104_562
	add	x14, x14, #1
	add	x1, x1, #16
	cmp	x0, x14
	b.ne	Lh3q_BB104_557
	mov	x11, x0
	ldrh	w14, [x16, #2]
	cbnz	w14, Lh3q_BB104_563
	b	Lh3q_BB104_579
Lh3q_BB104_562:
	mov	x11, x14
	ldrh	w14, [x16, #2]
	cbz	w14, Lh3q_BB104_579
Lh3q_BB104_563:
	add	x14, x16, x11, lsl #3
	add	x13, x11, x13, lsl #4
	add	x15, x15, #1
	add	x10, x10, #1
	mov	x17, x16
	ldr	x14, [x14, #248]
	ldrh	w0, [x14]
	mov	x16, x14
	cbnz	x0, Lh3q_BB104_556
Lh3q_BB104_564:
	mov	x11, xzr
	ldrh	w14, [x16, #2]
	cbnz	w14, Lh3q_BB104_563
	b	Lh3q_BB104_579
Lh3q_BB104_565:
	ldr	x0, [sp, #144]
	add	x15, x15, #1
	add	x12, x14, x13, lsl #4
	cmp	x15, #16
	ldr	x16, [x0, #176]
	sub	x13, x16, #1
	str	x13, [x0, #176]
	b.ne	Lh3q_BB104_568
	add	x10, x17, x11, lsl #3
	cmp	w9, #0
	add	x10, x10, #248
	csel	x20, x19, x10, eq
	ldr	x10, [x20]
	ldrh	w11, [x10]
	cmp	x11, #8
	b.lo	Lh3q_BB104_572
	ldrh	w9, [x10, #2]
	add	x8, x10, #8
	add	x12, x10, #248
	stp	x8, x11, [x29, #-192]
	mov	w8, #15
	sub	x0, x29, #192
	cmp	w9, #0
	mov	w9, #16
	stp	x8, x12, [x29, #-176]
	stp	x11, x8, [x29, #-160]
	csinc	x8, xzr, x11, eq
	csel	x9, xzr, x9, eq
	and	x1, x14, #0xf
	stp	x12, x8, [x29, #-144]
	stp	x9, x10, [x29, #-128]
	bl	"_std_alloc::vec::Vec::remove::<#89b048af38b1c68a>"
	ldur	x8, [x29, #-184]
	ldur	x9, [x29, #-120]
	strh	w8, [x9]
	str	x9, [x20]
	b	Lh3q_BB104_579
Lh3q_BB104_568:
	subs	x2, x15, x8
	stp	xzr, xzr, [x29, #-192]
	b.ls	Lh3q_BB104_571
	sub	x9, x29, #192
	add	x9, x9, #15
Lh3q_BB104_570:
	add	x11, x10, #15
	and	w13, w12, #0xf
	lsr	x12, x12, #4
	cmp	x8, x11
	strb	w13, [x9, x10]
	sub	x10, x10, #1
	b.lo	Lh3q_BB104_570
Lh3q_BB104_571:
	sub	x9, x29, #192
	add	x1, x9, x8
	b	Lh3q_BB104_576
Lh3q_BB104_572:
	cmp	x8, #15
	stp	xzr, xzr, [x29, #-192]
	b.hi	Lh3q_BB104_575
	mov	w10, #15
Lh3q_BB104_574:
	and	w11, w12, #0xf
	sub	x13, x29, #192
	lsr	x12, x12, #4
	cmp	x8, x10
	strb	w11, [x13, x10]
	sub	x10, x10, #1
	b.lo	Lh3q_BB104_574
Lh3q_BB104_575:
	sub	x10, x29, #192
	add	x2, x9, #1
	add	x1, x10, x8
Lh3q_BB104_576:
	mov	x0, x19
	bl	"_std_collections::btree::node::Node::take_at::<#cd27f3f210e89739>"
	ldr	x0, [x19]
	ldrh	w8, [x0]
	cbnz	w8, Lh3q_BB104_579
	ldrh	w8, [x0, #2]
	cbz	w8, Lh3q_BB104_579
	ldr	x20, [x0, #248]
	bl	_rattle_dealloc
	str	x20, [x19]
Lh3q_BB104_579:
	ldr	x0, [sp, #144]
	bl	"_qpack_table::dynamic::table::DynamicTable::release_references::<#f1ee30144fd2ee58>"
	ldr	x26, [sp, #72]
Lh3q_BB104_580:
	stp	xzr, xzr, [sp, #216]
	str	xzr, [sp, #208]
	ldr	x8, [x26, #8]
	ldr	x9, [sp, #48]
	cmp	x8, x9
	mov	x8, x9
	ldr	x9, [sp, #56]
	b.ls	Lh3q_BB104_582
	str	x8, [x26, #8]
Lh3q_BB104_582:
	mov	w24, #4
	mov	w8, #1
Lh3q_BB104_583:
	stp	x8, x24, [x9]
	ldr	q0, [sp, #208]
	ldr	x8, [sp, #224]
	strh	wzr, [x9, #16]
	str	xzr, [x9, #24]
	str	q0, [x9, #32]
	stp	x8, xzr, [x9, #48]
	add	sp, sp, #784
	ldp	x29, x30, [sp, #80]
	ldp	x20, x19, [sp, #64]
	ldp	x22, x21, [sp, #48]
	ldp	x24, x23, [sp, #32]
	ldp	x26, x25, [sp, #16]
	ldp	x28, x27, [sp], #96
	ret
Lh3q_BB104_584:
	ldur	x8, [x29, #-176]
	cbz	x8, Lh3q_BB104_437
	bl	_rattle_dealloc
	b	Lh3q_BB104_437
Lh3q_BB104_586:
	cmp	w23, #10
	b.hi	Lh3q_BB104_579
	mov	w0, #376
	mov	w1, #8
	bl	_rattle_alloc
	tbz	w0, #0, Lh3q_BB104_579
	add	w8, w23, #1
	mov	w9, #14
	strh	w8, [x1, #2]
	ldr	x8, [x28]
	strh	wzr, [x1]
	str	x8, [x1, #248]
	sub	x8, x9, x23
	str	x1, [x28]
	subs	x9, x27, x8
	stp	xzr, xzr, [x29, #-192]
	str	x9, [sp, #120]
	b.hi	Lh3q_BB104_480
	b	Lh3q_BB104_482
Lh3q_BB104_589:
	lsl	x9, x23, #3
	sub	x11, x26, x8
	cmp	x11, #1
	add	x10, x20, x9
	add	x10, x10, #608
	csel	x10, x15, x10, eq
	ldr	x10, [x10]
	ldrh	w10, [x10]
	cmp	w10, #15
	b.lo	Lh3q_BB104_650
	ldrh	w9, [x1]
	str	x15, [sp, #64]
	cmp	w9, #15
	b.hs	Lh3q_BB104_643
	subs	x9, x26, x8
	stp	xzr, xzr, [x29, #-192]
	str	x9, [sp, #32]
	b.ls	Lh3q_BB104_594
Lh3q_BB104_592:
	sub	x9, x29, #192
	add	x9, x9, #15
Lh3q_BB104_593:
	add	x10, x28, #15
	and	w11, w22, #0xf
	lsr	x22, x22, #4
	cmp	x8, x10
	strb	w11, [x9, x28]
	sub	x28, x28, #1
	b.lo	Lh3q_BB104_593
Lh3q_BB104_594:
	mov	w9, #16
	ldur	q0, [x29, #-192]
	sub	x26, x9, x8
	cmp	x26, #2
	str	q0, [sp, #416]
	b.lo	Lh3q_BB104_647
	add	x9, sp, #416
	add	x28, x9, x8
	ldr	x8, [sp, #144]
	add	x10, x8, #136
	b	Lh3q_BB104_599
Lh3q_BB104_596:
	add	w22, w22, #1
	sub	w8, w8, #8
	strb	w22, [x28]
	strb	w8, [x28, #1]
Lh3q_BB104_597:
	ldr	x15, [sp, #64]
Lh3q_BB104_598:
	add	x8, x20, w22, uxtb #3
	cmp	x26, #2
	sub	x26, x26, #1
	add	x28, x28, #1
	add	x10, x8, #608
	b.ls	Lh3q_BB104_646
Lh3q_BB104_599:
	ldrb	w22, [x28]
	ldr	x20, [x10]
	add	x8, x20, x22, lsl #3
	ldr	x8, [x8, #608]
	ldrh	w8, [x8]
	cmp	w8, #15
	b.lo	Lh3q_BB104_598
	ldrh	w8, [x20, #2]
	str	x10, [sp, #152]
	str	x26, [sp, #112]
	subs	x19, x8, #1
	b.eq	Lh3q_BB104_602
	mov	w0, #736
	b	Lh3q_BB104_603
Lh3q_BB104_602:
	mov	w0, #608
Lh3q_BB104_603:
	mov	w1, #8
	bl	_rattle_alloc
	tbz	w0, #0, Lh3q_BB104_653
	ldr	x8, [sp, #152]
	strh	w19, [x1, #2]
	mov	x23, x1
	add	x26, x1, #248
	str	xzr, [sp, #552]
	ldr	x8, [x8]
	str	xzr, [sp, #544]
	str	xzr, [sp, #560]
	add	x11, x8, #8
	ldrh	w9, [x8, #2]
	ldrh	w12, [x8]
	str	x11, [sp, #592]
	add	x11, x8, #248
	add	x10, x8, #8
	str	x11, [sp, #616]
	cmp	w9, #0
	add	x13, x8, #608
	mov	w11, #16
	str	x10, [sp, #128]
	mov	w10, #15
	str	x12, [sp, #600]
	csinc	x9, xzr, x12, eq
	str	x12, [sp, #624]
	stp	x13, x12, [sp, #96]
	csel	x12, xzr, x11, eq
	str	x10, [sp, #608]
	str	x10, [sp, #632]
	str	x13, [sp, #640]
	str	x9, [sp, #648]
	str	x12, [sp, #656]
	str	x8, [sp, #664]
	ldr	x19, [x13, x22, lsl #3]
	stp	xzr, xzr, [sp, #288]
	str	xzr, [sp, #304]
	ldrh	w20, [x19]
	ldrh	w8, [x19, #2]
	add	x9, x19, #248
	stur	x9, [x29, #-168]
	add	x9, x19, #608
	sub	x13, x20, #8
	str	w8, [sp, #80]
	cmp	w8, #0
	add	x8, x1, #8
	stp	x10, x9, [x29, #-152]
	add	x9, x19, #136
	lsl	x2, x13, #4
	csel	x10, xzr, x11, eq
	sub	x11, x8, x9
	csinc	x12, xzr, x20, eq
	stp	xzr, xzr, [sp, #352]
	cmp	x11, x2
	add	x11, x13, x13, lsl #1
	stp	x12, x10, [x29, #-136]
	sub	x10, x20, #8
	str	xzr, [sp, #368]
	str	x10, [sp, #120]
	stur	x19, [x29, #-120]
	b.hs	Lh3q_BB104_608
	cmp	w20, #8
	sub	x10, x20, #8
	b.ne	Lh3q_BB104_607
	add	x1, x19, #440
	lsl	x2, x11, #3
	ldr	x20, [sp, #104]
	sub	x8, x26, x1
	cmp	x8, x2
	b.hs	Lh3q_BB104_613
	b	Lh3q_BB104_614
Lh3q_BB104_607:
	ldr	q0, [x9], #16
	subs	x10, x10, #1
	str	q0, [x8], #16
	b.ne	Lh3q_BB104_607
	b	Lh3q_BB104_609
Lh3q_BB104_608:
	add	x0, x23, #8
	add	x1, x19, #136
	str	x22, [sp, #88]
	mov	x22, x28
	mov	x28, x23
	mov	x23, x11
	bl	_memmove
	mov	x11, x23
	mov	x23, x28
	mov	x28, x22
	ldr	x22, [sp, #88]
Lh3q_BB104_609:
	add	x1, x19, #440
	lsl	x2, x11, #3
	sub	x8, x26, x1
	cmp	x8, x2
	b.hs	Lh3q_BB104_612
	cmp	w20, #8
	ldr	x8, [sp, #120]
	ldr	x20, [sp, #104]
	b.eq	Lh3q_BB104_614
Lh3q_BB104_611:
	ldr	x9, [x1, #16]
	ldr	q0, [x1], #24
	subs	x8, x8, #1
	str	x9, [x26, #16]
	str	q0, [x26], #24
	b.ne	Lh3q_BB104_611
	b	Lh3q_BB104_614
Lh3q_BB104_612:
	ldr	x20, [sp, #104]
Lh3q_BB104_613:
	add	x0, x23, #248
	bl	_memmove
Lh3q_BB104_614:
	mov	w8, #8
	add	x9, x19, #8
	add	x0, sp, #448
	stur	x8, [x29, #-160]
Lh3q_loh218:
	adrp	x8, lh3q_CPI104_0@PAGE
	mov	w2, #7
Lh3q_loh219:
	ldr	q0, [x8, lh3q_CPI104_0@PAGEOFF]
	ldr	x8, [x19, #120]
	stp	xzr, xzr, [sp, #448]
	str	xzr, [sp, #464]
	str	x8, [sp, #104]
	ldr	x8, [x19, #128]
	stur	x9, [x29, #-192]
	str	x8, [sp, #88]
	add	x8, sp, #512
	stur	q0, [x8, #168]
	sub	x8, x29, #192
	add	x1, x8, #24
	bl	"_std_alloc::vec::Vec::remove::<#59d4bea1ca342376>"
	ldr	x26, [sp, #112]
	ldr	w8, [sp, #80]
	cbz	w8, Lh3q_BB104_623
	ldp	x9, x8, [x29, #-144]
	add	x11, x23, #608
	sub	x10, x8, #8
	add	x1, x9, #64
	lsl	x2, x10, #3
	sub	x11, x11, x1
	cmp	x11, x2
	b.hs	Lh3q_BB104_622
	cmp	x8, #8
	b.eq	Lh3q_BB104_623
	cmp	x10, #4
	b.lo	Lh3q_BB104_619
	sub	x11, x23, x9
	add	x11, x11, #544
	cmp	x11, #32
	b.hs	Lh3q_BB104_629
Lh3q_BB104_619:
	mov	x11, xzr
Lh3q_BB104_620:
	lsl	x10, x11, #3
	sub	x8, x8, x11
	sub	x8, x8, #8
	add	x9, x9, x10
	add	x10, x23, x10
	add	x9, x9, #64
	add	x10, x10, #608
Lh3q_BB104_621:
	ldr	x11, [x9], #8
	subs	x8, x8, #1
	str	x11, [x10], #8
	b.ne	Lh3q_BB104_621
	b	Lh3q_BB104_623
Lh3q_BB104_622:
	add	x0, x23, #608
	bl	_memmove
Lh3q_BB104_623:
	ldur	x8, [x29, #-184]
	ldur	x9, [x29, #-120]
	lsl	x19, x22, #4
	ldr	x10, [sp, #120]
	ldr	q0, [sp, #448]
	strh	w8, [x9]
	ldr	x8, [sp, #464]
	strh	w10, [x23]
	ldr	x10, [sp, #96]
	str	x8, [sp, #304]
	str	x8, [sp, #560]
	subs	x8, x20, x22
	str	q0, [sp, #288]
	str	x9, [x10, x22, lsl #3]
	str	q0, [sp, #544]
	b.eq	Lh3q_BB104_625
	ldr	x9, [sp, #128]
	lsl	x2, x8, #4
	add	x8, x9, x19
	add	x1, x9, x19
	add	x0, x8, #16
	bl	_memmove
Lh3q_BB104_625:
	ldr	x9, [sp, #128]
	ldr	x10, [sp, #104]
	add	x2, sp, #544
	mov	x1, x22
	add	x8, x9, x19
	str	x10, [x8]
	ldr	x10, [sp, #88]
	str	x10, [x8, #8]
	add	x8, x20, #1
	str	x8, [sp, #600]
	mov	w8, #15
	str	x8, [sp, #608]
	add	x8, sp, #592
	add	x0, x8, #24
	str	x9, [sp, #592]
	bl	"_std_alloc::vec::lodged::Vec+T+Lodged::insert_reserved::<#d4cc4489b8d17ff3>"
	ldr	x8, [sp, #648]
	add	x9, x22, #1
	ldr	x19, [sp, #640]
	lsl	x20, x9, #3
	subs	x8, x8, x9
	b.eq	Lh3q_BB104_627
	lsl	x2, x8, #3
	add	x8, x19, x20
	add	x1, x19, x20
	add	x0, x8, #8
	bl	_memmove
Lh3q_BB104_627:
	str	x23, [x19, x20]
	ldrb	w8, [x28, #1]
	ldr	x9, [sp, #600]
	ldr	x20, [sp, #664]
	cmp	w8, #7
	strh	w9, [x20]
	ldr	x9, [sp, #152]
	str	x20, [x9]
	b.hi	Lh3q_BB104_596
	ldrb	w22, [x28]
	b	Lh3q_BB104_597
Lh3q_BB104_629:
	and	x11, x10, #0xfffffffffffffffc
	add	x12, x9, #80
	add	x13, x23, #624
	and	x14, x10, #0xfffffffffffffffc
Lh3q_BB104_630:
	ldp	q0, q1, [x12, #-16]
	subs	x14, x14, #4
	add	x12, x12, #32
	stp	q0, q1, [x13, #-16]
	add	x13, x13, #32
	b.ne	Lh3q_BB104_630
	cmp	x10, x11
	b.eq	Lh3q_BB104_623
	b	Lh3q_BB104_620
Lh3q_BB104_632:
	ldur	x8, [x29, #-176]
	cbnz	x8, Lh3q_BB104_546
	b	Lh3q_BB104_547
Lh3q_BB104_633:
	ldr	x28, [sp, #112]
	and	x21, x27, #0xff
	ldr	x1, [x28]
Lh3q_BB104_634:
	ldrh	w8, [x1]
	cbz	w8, Lh3q_BB104_641
	ldr	x8, [sp, #144]
	ldr	x11, [sp, #120]
	ldrb	w8, [x8, #160]
	cmp	w8, #1
	b.ne	Lh3q_BB104_656
	ldrb	w19, [sp, #607]
	lsl	x9, x21, #3
Lh3q_BB104_637:
	add	x8, x26, x9
	cmp	x11, #1
	add	x8, x8, #248
	csel	x20, x28, x8, eq
	and	x8, x19, #0xf
	ldr	x21, [x20]
	lsl	x19, x8, #4
	mov	x26, x21
	ldrh	w23, [x26], #8
	subs	x8, x23, x8
	b.eq	Lh3q_BB104_639
	lsl	x2, x8, #4
	add	x8, x26, x19
	add	x1, x26, x19
	add	x0, x8, #16
	bl	_memmove
Lh3q_BB104_639:
	add	w9, w23, #1
	add	x8, x26, x19
	strh	w9, [x21]
	ldr	x9, [sp, #144]
	stp	x24, x22, [x8]
	str	x21, [x20]
	ldr	x8, [x9, #176]
	add	x8, x8, #1
	str	x8, [x9, #176]
	b	Lh3q_BB104_459
Lh3q_BB104_640:
	ldr	x28, [sp, #112]
	ldr	x1, [x28]
	ldrh	w8, [x1]
	cbnz	w8, Lh3q_BB104_579
Lh3q_BB104_641:
	ldrh	w8, [x1, #2]
	cbz	w8, Lh3q_BB104_579
	ldr	x19, [x1, #248]
	mov	x0, x1
	bl	_rattle_dealloc
	str	x19, [x28]
	b	Lh3q_BB104_579
Lh3q_BB104_643:
	cmp	w19, #10
	b.hi	Lh3q_BB104_551
	mov	w0, #736
	mov	w1, #8
	bl	_rattle_alloc
	ldr	x15, [sp, #64]
	tbz	w0, #0, Lh3q_BB104_551
	add	w8, w19, #1
	mov	w9, #14
	strh	w8, [x1, #2]
	ldr	x8, [x15]
	strh	wzr, [x1]
	str	x8, [x1, #608]
	sub	x8, x9, x19
	str	x1, [x15]
	subs	x9, x26, x8
	stp	xzr, xzr, [x29, #-192]
	str	x9, [sp, #32]
	b.hi	Lh3q_BB104_592
	b	Lh3q_BB104_594
Lh3q_BB104_646:
	ldr	x1, [x15]
	and	x23, x22, #0xff
Lh3q_BB104_647:
	ldrh	w8, [x1]
	cbz	w8, Lh3q_BB104_654
	ldr	x8, [sp, #144]
	ldr	x11, [sp, #32]
	ldrb	w8, [x8, #128]
	cmp	w8, #1
	b.ne	Lh3q_BB104_656
	ldrb	w22, [sp, #431]
	lsl	x9, x23, #3
Lh3q_BB104_650:
	add	x8, x20, x9
	ldr	x9, [sp, #168]
	cmp	x11, #1
	add	x8, x8, #608
	str	x27, [sp, #600]
	and	x19, x22, #0xf
	str	x9, [sp, #592]
	csel	x20, x15, x8, eq
	mov	w8, #15
	str	x27, [sp, #608]
	lsl	x25, x19, #4
	sub	x22, x29, #192
	ldr	x9, [x20]
	ldrh	w11, [x9, #2]
	ldrh	w10, [x9]
	add	x12, x9, #608
	stp	x8, x12, [x29, #-152]
	mov	w8, #16
	add	x13, x9, #248
	cmp	w11, #0
	add	x23, x10, #1
	add	x26, x9, #8
	csinc	x11, xzr, x10, eq
	csel	x12, xzr, x8, eq
	subs	x8, x10, x19
	stp	x13, x10, [x29, #-168]
	stp	x11, x12, [x29, #-136]
	stur	x9, [x29, #-120]
	b.eq	Lh3q_BB104_652
	lsl	x2, x8, #4
	add	x8, x26, x25
	add	x1, x26, x25
	add	x0, x8, #16
	bl	_memmove
Lh3q_BB104_652:
	ldr	x9, [sp, #40]
	add	x8, x26, x25
	add	x0, x22, #24
	add	x2, sp, #592
	mov	x1, x19
	stp	x9, x21, [x8]
	mov	w8, #15
	stp	x26, x23, [x29, #-192]
	stur	x8, [x29, #-176]
	bl	"_std_alloc::vec::lodged::Vec+T+Lodged::insert_reserved::<#d4cc4489b8d17ff3>"
	ldur	x8, [x29, #-184]
	ldur	x9, [x29, #-120]
	ldr	x19, [sp, #160]
	strh	w8, [x9]
	str	x9, [x20]
	ldr	x9, [sp, #144]
	ldr	x8, [x9, #144]
	add	x8, x8, #1
	str	x8, [x9, #144]
	ldr	x10, [sp, #144]
	add	x9, x21, #1
	ldr	x8, [x10, #112]
	str	x9, [x10, #152]
	cbnz	x8, Lh3q_BB104_500
	b	Lh3q_BB104_513
Lh3q_BB104_653:
	ldr	x15, [sp, #64]
	ldr	x1, [x15]
	ldrh	w8, [x1]
	cbnz	w8, Lh3q_BB104_551
Lh3q_BB104_654:
	ldrh	w8, [x1, #2]
	cbz	w8, Lh3q_BB104_551
	ldr	x19, [x1, #608]
	mov	x0, x1
	mov	x20, x15
	bl	_rattle_dealloc
	str	x19, [x20]
	b	Lh3q_BB104_551
Lh3q_BB104_656:
	brk	#0x1
	.loh AdrpAdd	Lh3q_loh166, Lh3q_loh167
	.loh AdrpAdd	Lh3q_loh172, Lh3q_loh173
	.loh AdrpAdd	Lh3q_loh170, Lh3q_loh171
	.loh AdrpAdd	Lh3q_loh168, Lh3q_loh169
	.loh AdrpAdd	Lh3q_loh174, Lh3q_loh175
	.loh AdrpAdd	Lh3q_loh180, Lh3q_loh181
	.loh AdrpAdd	Lh3q_loh178, Lh3q_loh179
	.loh AdrpAdd	Lh3q_loh176, Lh3q_loh177
	.loh AdrpAdd	Lh3q_loh182, Lh3q_loh183
	.loh AdrpAdd	Lh3q_loh184, Lh3q_loh185
	.loh AdrpAdd	Lh3q_loh186, Lh3q_loh187
	.loh AdrpAdd	Lh3q_loh190, Lh3q_loh191
	.loh AdrpAdd	Lh3q_loh188, Lh3q_loh189
	.loh AdrpAdd	Lh3q_loh192, Lh3q_loh193
	.loh AdrpAdd	Lh3q_loh194, Lh3q_loh195
	.loh AdrpAdd	Lh3q_loh196, Lh3q_loh197
	.loh AdrpAdd	Lh3q_loh198, Lh3q_loh199
	.loh AdrpAdd	Lh3q_loh200, Lh3q_loh201
	.loh AdrpAdd	Lh3q_loh202, Lh3q_loh203
	.loh AdrpAdd	Lh3q_loh204, Lh3q_loh205
	.loh AdrpAdd	Lh3q_loh206, Lh3q_loh207
	.loh AdrpAdd	Lh3q_loh208, Lh3q_loh209
	.loh AdrpAdd	Lh3q_loh210, Lh3q_loh211
	.loh AdrpAdd	Lh3q_loh212, Lh3q_loh213
	.loh AdrpAdd	Lh3q_loh214, Lh3q_loh215
	.loh AdrpAdd	Lh3q_loh216, Lh3q_loh217
	.loh AdrpLdr	Lh3q_loh218, Lh3q_loh219

	.p2align	2
"_qpack_encoding::choosing::draining::Draining::count":
	ldr	x8, [x1]
	ldr	x11, [x0]
	ldp	x9, x10, [x8, #40]
	ldr	x8, [x8, #64]
	cmp	x11, x10
	b.ls	Lh3q_BB105_13
	ldr	x11, [x0, #24]
	cmp	x11, x8
	b.ne	Lh3q_BB105_13
	ldr	x10, [x0, #16]
	cmp	x10, x9
	b.hs	Lh3q_BB105_14
	add	x11, x10, x10, lsl #1
	lsl	x11, x11, #4
	b	Lh3q_BB105_6
Lh3q_BB105_4:
	mov	x12, xzr
Lh3q_BB105_5:
	ldr	x13, [x0, #8]
	add	x10, x10, #1
	add	x11, x11, #48
	adds	x12, x12, x13
	csinv	x12, x12, xzr, lo
	cmp	x9, x10
	str	x12, [x0, #8]
	b.eq	Lh3q_BB105_14
Lh3q_BB105_6:
	ldr	x13, [x1]
	ldr	x12, [x13, #48]
	subs	x15, x10, x12
	b.lo	Lh3q_BB105_4
	ldr	x16, [x13, #8]
	cmp	x16, x15
	b.ls	Lh3q_BB105_4
	ldr	x17, [x13, #32]
	ldr	x14, [x13]
	sub	x2, x16, x17
	cmp	x15, x2
	b.hs	Lh3q_BB105_10
	ldr	x13, [x13, #24]
	mov	w15, #48
	mul	x13, x13, x15
	msub	x12, x12, x15, x13
	add	x13, x14, x11
	add	x12, x13, x12
	ldrb	w14, [x12, #28]
	ldr	w13, [x12, #24]
	cmp	w14, #1
	mov	x14, x13
	b.eq	Lh3q_BB105_11
	b	Lh3q_BB105_12
Lh3q_BB105_10:
	sub	x13, x17, x16
	sub	x12, x13, x12
	mov	w13, #48
	add	x12, x10, x12
	madd	x12, x12, x13, x14
	ldrb	w14, [x12, #28]
	ldr	w13, [x12, #24]
	cmp	w14, #1
	mov	x14, x13
	b.ne	Lh3q_BB105_12
Lh3q_BB105_11:
	ldrb	w14, [x12, #29]
Lh3q_loh220:
	adrp	x15, l_static.3@PAGE
Lh3q_loh221:
	add	x15, x15, l_static.3@PAGEOFF
Lh3q_loh222:
	adrp	x16, l_static.2@PAGE
Lh3q_loh223:
	add	x16, x16, l_static.2@PAGEOFF
Lh3q_loh224:
	adrp	x2, l_static.1@PAGE
Lh3q_loh225:
	add	x2, x2, l_static.1@PAGEOFF
	lsl	x17, x14, #5
	cmp	w14, #74
	add	x15, x15, x17
	add	x16, x16, x17
	add	x17, x2, x14, lsl #5
Lh3q_loh226:
	adrp	x2, l_static.0@PAGE
Lh3q_loh227:
	add	x2, x2, l_static.0@PAGEOFF
	sub	x15, x15, #2392
	sub	x16, x16, #1592
	add	x2, x2, x14, lsl #5
	csel	x15, x15, x16, hi
	sub	x16, x17, #792
	cmp	w14, #49
	csel	x15, x15, x16, hi
	add	x16, x2, #8
	cmp	w14, #24
	csel	x14, x15, x16, hi
	ldr	x14, [x14]
Lh3q_BB105_12:
	ldr	x12, [x12, #8]
	sub	x12, x12, x13
	adds	x12, x12, x14
	csinv	x12, x12, xzr, lo
	adds	x12, x12, #32
	csinv	x12, x12, xzr, lo
	b	Lh3q_BB105_5
Lh3q_BB105_13:
	str	x10, [x0]
	ldr	x10, [x1]
	ldr	x10, [x10, #56]
	str	x10, [x0, #8]
Lh3q_BB105_14:
	stp	x9, x8, [x0, #16]
	ret
	.loh AdrpAdd	Lh3q_loh226, Lh3q_loh227
	.loh AdrpAdd	Lh3q_loh224, Lh3q_loh225
	.loh AdrpAdd	Lh3q_loh222, Lh3q_loh223
	.loh AdrpAdd	Lh3q_loh220, Lh3q_loh221

	.p2align	2
"_qpack_codec::encoder::chosen_fields::append_named::<#959dfa9c1d07eea5>":
	sub	sp, sp, #176
	stp	x22, x21, [sp, #128]
	ldr	x21, [x0]
	ldrb	w9, [x2]
	stp	x26, x25, [sp, #96]
	mov	x22, x2
	ldr	x8, [x2, #8]
	ldp	x26, x25, [x1]
	cmp	w9, #1
	stp	x24, x23, [sp, #112]
	mov	x24, x0
	ldr	x23, [x21, #48]
	ldr	w0, [x2, #16]
	stp	x20, x19, [sp, #144]
	mov	x19, x3
	mov	x20, x1
	stp	x28, x27, [sp, #80]
	stp	x29, x30, [sp, #160]
	add	x29, sp, #160
	str	xzr, [sp, #8]
	b.ne	Lh3q_BB106_2
	ldr	x27, [x21, #240]
	cmp	x8, x27
	b.ne	Lh3q_BB106_4
	b	Lh3q_BB106_5
Lh3q_BB106_2:
	ldr	x8, [x21, #8]
	cbz	x8, Lh3q_BB106_6
	ldr	x27, [x21, #240]
Lh3q_BB106_4:
	mov	x0, x27
	mov	x1, x26
	mov	x2, x25
	bl	"_qpack_table::dynamic::index::hash::hash_name"
Lh3q_BB106_5:
	stp	xzr, xzr, [sp, #64]
Lh3q_loh228:
	adrp	x8, l_static.5@PAGE
Lh3q_loh229:
	add	x8, x8, l_static.5@PAGEOFF
	str	w0, [sp, #72]
	add	x0, x21, #216
	add	x3, sp, #16
	add	x4, sp, #8
	mov	x1, x21
	mov	x2, x23
	stp	xzr, x27, [sp, #16]
	stp	x26, x25, [sp, #32]
	stp	x8, xzr, [sp, #48]
	bl	"_qpack_table::dynamic::index::row::Row::search::<#e26e38abbd2828ef>"
	tst	w0, #0xff
	b.eq	Lh3q_BB106_7
Lh3q_BB106_6:
	ldrb	w8, [x22, #40]
	ldr	x9, [x22, #48]
	cmp	w8, #1
	mov	w8, #3
	csel	x2, x9, xzr, eq
	csel	w1, wzr, w8, eq
	b	Lh3q_BB106_21
Lh3q_BB106_7:
	ldur	x8, [x21, #216]
	mvn	w9, w23
	ldr	x24, [x24, #16]
	add	x8, x8, x1, lsl #3
	ldr	w8, [x8, #4]
	add	w8, w9, w8
	ldr	x9, [x21, #176]
	add	x8, x23, x8
	add	x25, x8, #1
	ldr	x8, [x21, #88]
	cmp	x9, x8
	b.lo	Lh3q_BB106_9
	ldr	x8, [x21, #96]
	cmp	x25, x8
	b.hi	Lh3q_BB106_6
Lh3q_BB106_9:
	mvn	x8, x23
	ldr	x10, [x21, #32]
	add	x22, x25, x8
	ldp	x8, x9, [x21]
	sub	x9, x9, x10
	subs	x9, x22, x9
	b.hs	Lh3q_BB106_11
	ldr	x9, [x21, #24]
	mov	w10, #48
	madd	x8, x9, x10, x8
	madd	x8, x22, x10, x8
	ldrb	w8, [x8, #33]
	tbz	w8, #0, Lh3q_BB106_12
	b	Lh3q_BB106_20
Lh3q_BB106_11:
	mov	w10, #48
	madd	x8, x9, x10, x8
	ldrb	w8, [x8, #33]
	tbnz	w8, #0, Lh3q_BB106_20
Lh3q_BB106_12:
	ldp	x8, x9, [x21, #112]
	cmp	x8, x9
	b.lo	Lh3q_BB106_16
	add	x0, x21, #104
	bl	"_qpack_table::dynamic::block::grow"
	and	w8, w0, #0xff
	tbz	w8, #0, Lh3q_BB106_15
	ldp	x29, x30, [sp, #160]
	mov	w0, #1
	ldp	x20, x19, [sp, #144]
	ldp	x22, x21, [sp, #128]
	ldp	x24, x23, [sp, #112]
	ldp	x26, x25, [sp, #96]
	ldp	x28, x27, [sp, #80]
	add	sp, sp, #176
	ret
Lh3q_BB106_15:
	ldr	x8, [x21, #112]
Lh3q_BB106_16:
	ldr	x9, [x21, #104]
	str	x25, [x9, x8, lsl #3]
	add	x8, x8, #1
	ldp	x9, x11, [x21]
	ldr	x10, [x21, #32]
	str	x8, [x21, #112]
	sub	x12, x11, x10
	cmp	x22, x12
	b.hs	Lh3q_BB106_18
	ldr	x8, [x21, #24]
	mov	w10, #48
	madd	x8, x8, x10, x9
	madd	x8, x22, x10, x8
	b	Lh3q_BB106_19
Lh3q_BB106_18:
	sub	x8, x22, x11
	add	x8, x8, x10
	mov	w10, #48
	madd	x8, x8, x10, x9
Lh3q_BB106_19:
	ldr	x9, [x8, #40]
	mov	w10, #1
	strb	w10, [x8, #33]
	add	x9, x9, #1
	str	x9, [x8, #40]
Lh3q_BB106_20:
	mvn	x8, x24
	subs	x9, x24, x25
	mov	w10, #1
	add	x8, x25, x8
	cinc	w1, w10, lo
	csel	x2, x8, x9, lo
Lh3q_BB106_21:
	mov	x0, x20
	mov	x3, x19
	ldp	x29, x30, [sp, #160]
	ldp	x20, x19, [sp, #144]
	ldp	x22, x21, [sp, #128]
	ldp	x24, x23, [sp, #112]
	ldp	x26, x25, [sp, #96]
	ldp	x28, x27, [sp, #80]
	add	sp, sp, #176
	b	"_qpack_codec::encoder::fields::append_literal::<#7b66556a84635673>"
	.loh AdrpAdd	Lh3q_loh228, Lh3q_loh229

	.p2align	2
"_qpack_table::dynamic::index::hash::hash_name":
	mov	x8, #50915
	cmp	x2, #16
	movk	x8, #40072, lsl #16
	movk	x8, #27376, lsl #32
	movk	x8, #36540, lsl #48
	mul	x9, x0, x8
	umulh	x8, x0, x8
	eor	x8, x8, x9
	mov	x9, #10459
	movk	x9, #41140, lsl #16
	movk	x9, #32465, lsl #32
	movk	x9, #59139, lsl #48
	eor	x8, x8, x9
	and	x10, x8, #0xfffffffffffffffe
	eor	x9, x10, x9
	mov	x10, #25647
	mul	x9, x9, x2
	movk	x10, #30909, lsl #16
	movk	x10, #7524, lsl #32
	movk	x10, #41078, lsl #48
	eor	x10, x0, x10
	eor	x9, x10, x9
	b.lo	Lh3q_BB107_3
Lh3q_BB107_1:
	ldp	x10, x11, [x1]
	sub	x2, x2, #16
	cmp	x2, #15
	eor	x9, x10, x9
	eor	x10, x11, x8
	mul	x11, x10, x9
	umulh	x9, x10, x9
	add	x10, x1, #16
	mov	x1, x10
	eor	x9, x9, x11
	b.hi	Lh3q_BB107_1
	mov	x1, x10
Lh3q_BB107_3:
	cmp	x2, #7
	b.hi	Lh3q_BB107_11
	cmp	x2, #3
	b.hi	Lh3q_BB107_12
	cbz	x2, Lh3q_BB107_10
	ldrb	w10, [x1]
	cmp	x2, #1
	b.eq	Lh3q_BB107_9
	ldrb	w11, [x1, #1]
	cmp	x2, #2
	orr	x10, x11, x10, lsl #8
	b.eq	Lh3q_BB107_9
	ldrb	w11, [x1, #2]
	orr	x10, x11, x10, lsl #8
Lh3q_BB107_9:
	eor	x9, x10, x9
Lh3q_BB107_10:
	mul	x10, x9, x8
	umulh	x8, x9, x8
	eor	x8, x8, x10
	lsr	x0, x8, #32
	ret
Lh3q_BB107_11:
	add	x10, x1, x2
	ldr	x11, [x1]
	ldur	x10, [x10, #-8]
	eor	x9, x11, x9
	eor	x8, x10, x8
	mul	x10, x8, x9
	umulh	x8, x8, x9
	eor	x8, x8, x10
	lsr	x0, x8, #32
	ret
Lh3q_BB107_12:
	add	x10, x1, x2
	ldr	w11, [x1]
	ldur	w10, [x10, #-4]
	eor	x9, x9, x11
	eor	x8, x8, x10
	mul	x10, x8, x9
	umulh	x8, x8, x9
	eor	x8, x8, x10
	lsr	x0, x8, #32
	ret

	.p2align	2
"_qpack_table::dynamic::block::grow":
	ldp	x9, x8, [x0, #8]
	cmp	x8, x9
	b.eq	Lh3q_BB108_3
Lh3q_BB108_1:
	mov	w0, wzr
Lh3q_BB108_2:
	ret
Lh3q_BB108_3:
	stp	x29, x30, [sp, #-16]!
	mov	w1, #1
	mov	x29, sp
	bl	"_std_alloc::vec::Vec::grow_amortized::<#e08bd03da835bd87>"
	mov	w8, w0
	mov	w0, #1
	ldp	x29, x30, [sp], #16
	cbnz	w8, Lh3q_BB108_1
	b	Lh3q_BB108_2

	.p2align	2
"_std_alloc::vec::Vec::grow_amortized::<#e08bd03da835bd87>":
	ldr	x8, [x0, #8]
	cmn	x8, x1
	b.lo	Lh3q_BB109_2
	mov	w0, wzr
	ret
Lh3q_BB109_2:
	stp	x20, x19, [sp, #-32]!
	ldr	x9, [x0, #16]
	add	x10, x8, x1
	mov	w11, #4
	cmp	x10, #4
	stp	x29, x30, [sp, #16]
	add	x29, sp, #16
	lsl	x12, x9, #1
	csel	x11, x10, x11, hi
	lsr	x13, x9, #62
	cmp	x11, x12
	csel	x10, x11, x12, hi
	cmp	x13, #0
	csel	x19, x10, x11, eq
	lsr	x11, x19, #60
	cbnz	x11, Lh3q_BB109_7
	cbz	x9, Lh3q_BB109_6
	mov	x20, x0
	ldr	x0, [x0]
	lsl	x1, x8, #3
	lsl	x2, x19, #3
	mov	w3, #8
	bl	_rattle_realloc
	tbz	w0, #0, Lh3q_BB109_7
Lh3q_BB109_5:
	mov	w0, #1
	str	x1, [x20]
	str	x19, [x20, #16]
	ldp	x29, x30, [sp, #16]
	ldp	x20, x19, [sp], #32
	ret
Lh3q_BB109_6:
	mov	x20, x0
	lsl	x0, x10, #3
	mov	w1, #8
	bl	_rattle_alloc
	tbnz	w0, #0, Lh3q_BB109_5
Lh3q_BB109_7:
	mov	w0, wzr
	ldp	x29, x30, [sp, #16]
	ldp	x20, x19, [sp], #32
	ret

	.p2align	2
"_qpack_codec::encoder::fields::append_literal::<#7b66556a84635673>":
	stp	x26, x25, [sp, #-80]!
	stp	x22, x21, [sp, #32]
	and	w9, w1, #0xff
	ldrb	w8, [x0, #32]
	stp	x20, x19, [sp, #48]
	ldp	x21, x20, [x0, #16]
	mov	x19, x3
	cmp	w9, #1
	stp	x24, x23, [sp, #16]
	stp	x29, x30, [sp, #64]
	add	x29, sp, #64
	b.gt	Lh3q_BB110_8
	cbnz	w9, Lh3q_BB110_15
	ldr	x22, [x19, #8]
	cmp	x2, #14
	cbz	w8, Lh3q_BB110_27
	b.hi	Lh3q_BB110_62
	ldr	x8, [x19, #16]
	cmp	x8, x22
	mov	x8, x22
	b.hi	Lh3q_BB110_7
	mov	x0, x19
	mov	w1, #1
	mov	x23, x2
	bl	"_qpack_base::coding::grow::<#7b66556a84635673>"
	mov	w8, w0
	mov	w0, #1
	and	w8, w8, #0xff
	tbnz	w8, #0, Lh3q_BB110_48
	ldr	x8, [x19, #8]
	mov	x2, x23
Lh3q_BB110_7:
	ldr	x9, [x19]
	add	x23, x8, #1
	orr	w10, w2, #0x70
	b	Lh3q_BB110_42
Lh3q_BB110_8:
	cmp	w9, #2
	b.ne	Lh3q_BB110_21
	ldr	x22, [x19, #8]
	cmp	x2, #6
	cbz	w8, Lh3q_BB110_32
	b.hi	Lh3q_BB110_63
	ldr	x8, [x19, #16]
	cmp	x8, x22
	mov	x8, x22
	b.hi	Lh3q_BB110_14
	mov	x0, x19
	mov	w1, #1
	mov	x23, x2
	mov	w24, #1
	bl	"_qpack_base::coding::grow::<#7b66556a84635673>"
	and	w8, w0, #0xff
	mov	w0, w24
	tbnz	w8, #0, Lh3q_BB110_48
	ldr	x8, [x19, #8]
	mov	x2, x23
Lh3q_BB110_14:
	ldr	x9, [x19]
	add	x23, x8, #1
	orr	w10, w2, #0x8
	b	Lh3q_BB110_42
Lh3q_BB110_15:
	ldr	x22, [x19, #8]
	cmp	x2, #14
	cbz	w8, Lh3q_BB110_37
	b.hi	Lh3q_BB110_64
	ldr	x8, [x19, #16]
	cmp	x8, x22
	mov	x8, x22
	b.hi	Lh3q_BB110_20
	mov	x0, x19
	mov	w1, #1
	mov	x23, x2
	mov	w24, #1
	bl	"_qpack_base::coding::grow::<#7b66556a84635673>"
	and	w8, w0, #0xff
	mov	w0, w24
	tbnz	w8, #0, Lh3q_BB110_48
	ldr	x8, [x19, #8]
	mov	x2, x23
Lh3q_BB110_20:
	ldr	x9, [x19]
	add	x23, x8, #1
	orr	w10, w2, #0x60
	b	Lh3q_BB110_42
Lh3q_BB110_21:
	ldp	x24, x9, [x19, #8]
	ldp	x2, x22, [x0]
	subs	x9, x9, x24
	csel	x9, xzr, x9, lo
	lsr	x9, x9, #2
	cmp	x22, x9
	cbz	w8, Lh3q_BB110_49
	b.hs	Lh3q_BB110_103
	sub	x8, x22, x22, lsr #2
	cmp	x8, #6
	b.hi	Lh3q_BB110_75
	ldr	x8, [x19]
	add	x9, x24, #1
	mov	x23, x2
	mov	x0, x2
	mov	x1, x22
	mov	x2, x19
	strb	wzr, [x8, x24]
	str	x9, [x19, #8]
	bl	"_qpack_base::prefix_string::encoding::put_payload::<#7b66556a84635673>"
	ldr	x8, [x19, #8]
	mvn	x9, x24
	add	x9, x8, x9
	cmp	x9, x22
	b.hs	Lh3q_BB110_88
	cmp	x9, #6
	b.hi	Lh3q_BB110_98
	ldr	x8, [x19]
	orr	w9, w9, #0x38
	strb	w9, [x8, x24]
	b	Lh3q_BB110_104
Lh3q_BB110_27:
	b.hi	Lh3q_BB110_65
	ldr	x8, [x19, #16]
	cmp	x8, x22
	mov	x8, x22
	b.hi	Lh3q_BB110_31
	mov	x0, x19
	mov	w1, #1
	mov	x23, x2
	mov	w24, #1
	bl	"_qpack_base::coding::grow::<#7b66556a84635673>"
	and	w8, w0, #0xff
	mov	w0, w24
	tbnz	w8, #0, Lh3q_BB110_48
	ldr	x8, [x19, #8]
	mov	x2, x23
Lh3q_BB110_31:
	ldr	x9, [x19]
	mov	w10, #80
	add	x23, x8, #1
	orr	w10, w2, w10
	b	Lh3q_BB110_42
Lh3q_BB110_32:
	b.hi	Lh3q_BB110_66
	ldr	x8, [x19, #16]
	cmp	x8, x22
	mov	x8, x22
	b.hi	Lh3q_BB110_36
	mov	x0, x19
	mov	w1, #1
	mov	x23, x2
	mov	w24, #1
	bl	"_qpack_base::coding::grow::<#7b66556a84635673>"
	and	w8, w0, #0xff
	mov	w0, w24
	tbnz	w8, #0, Lh3q_BB110_48
	ldr	x8, [x19, #8]
	mov	x2, x23
Lh3q_BB110_36:
	ldr	x9, [x19]
	add	x23, x8, #1
	strb	w2, [x9, x8]
	str	x23, [x19, #8]
	ldr	x8, [x19, #16]
	subs	x8, x8, x23
	csel	x8, xzr, x8, lo
	cmp	x20, x8, lsr #2
	b.lo	Lh3q_BB110_43
	b	Lh3q_BB110_69
Lh3q_BB110_37:
	b.hi	Lh3q_BB110_67
	ldr	x8, [x19, #16]
	cmp	x8, x22
	mov	x8, x22
	b.hi	Lh3q_BB110_41
	mov	x0, x19
	mov	w1, #1
	mov	x23, x2
	mov	w24, #1
	bl	"_qpack_base::coding::grow::<#7b66556a84635673>"
	and	w8, w0, #0xff
	mov	w0, w24
	tbnz	w8, #0, Lh3q_BB110_48
	ldr	x8, [x19, #8]
	mov	x2, x23
Lh3q_BB110_41:
	ldr	x9, [x19]
	add	x23, x8, #1
	orr	w10, w2, #0x40
Lh3q_BB110_42:
	strb	w10, [x9, x8]
	str	x23, [x19, #8]
	ldr	x8, [x19, #16]
	subs	x8, x8, x23
	csel	x8, xzr, x8, lo
	cmp	x20, x8, lsr #2
	b.hs	Lh3q_BB110_69
Lh3q_BB110_43:
	sub	x8, x20, x20, lsr #2
	cmp	x8, #126
	b.hi	Lh3q_BB110_54
	ldr	x8, [x19]
	add	x9, x23, #1
	mov	x0, x21
	mov	x1, x20
	mov	x2, x19
	strb	wzr, [x8, x23]
	str	x9, [x19, #8]
	bl	"_qpack_base::prefix_string::encoding::put_payload::<#7b66556a84635673>"
	ldr	x9, [x19, #8]
	mvn	x8, x23
	add	x8, x9, x8
	cmp	x8, x20
	b.hs	Lh3q_BB110_59
	cmp	x8, #126
	b.hi	Lh3q_BB110_70
	ldr	x9, [x19]
	mov	w0, wzr
	orr	w8, w8, #0x80
Lh3q_BB110_47:
	strb	w8, [x9, x23]
Lh3q_BB110_48:
	ldp	x29, x30, [sp, #64]
	ldp	x20, x19, [sp, #48]
	ldp	x22, x21, [sp, #32]
	ldp	x24, x23, [sp, #16]
	ldp	x26, x25, [sp], #80
	ret
Lh3q_BB110_49:
	b.hs	Lh3q_BB110_93
	sub	x8, x22, x22, lsr #2
	cmp	x8, #6
	b.hi	Lh3q_BB110_80
	ldr	x8, [x19]
	add	x9, x24, #1
	mov	x23, x2
	mov	x0, x2
	mov	x1, x22
	mov	x2, x19
	strb	wzr, [x8, x24]
	str	x9, [x19, #8]
	bl	"_qpack_base::prefix_string::encoding::put_payload::<#7b66556a84635673>"
	ldr	x9, [x19, #8]
	mvn	x8, x24
	add	x8, x9, x8
	cmp	x8, x22
	b.hs	Lh3q_BB110_85
	cmp	x8, #6
	b.hi	Lh3q_BB110_91
	ldr	x9, [x19]
	mov	w10, #40
	orr	w8, w8, w10
	strb	w8, [x9, x24]
	b	Lh3q_BB110_94
Lh3q_BB110_54:
	cmp	x8, #254
	b.hi	Lh3q_BB110_72
	ldr	x8, [x19]
	add	x24, x23, #1
	add	x9, x23, #2
	mov	x0, x21
	mov	x1, x20
	mov	x2, x19
	strb	wzr, [x8, x23]
	ldr	x8, [x19]
	strb	wzr, [x8, x24]
	str	x9, [x19, #8]
	bl	"_qpack_base::prefix_string::encoding::put_payload::<#7b66556a84635673>"
	ldr	x9, [x19, #8]
	sub	x8, x9, x23
	sub	x10, x8, #2
	cmp	x10, x20
	b.hs	Lh3q_BB110_59
	cmp	x10, #127
	b.lo	Lh3q_BB110_70
	cmp	x8, #256
	b.gt	Lh3q_BB110_70
	ldr	x9, [x19]
	mov	w10, #255
	mov	w0, wzr
	add	w8, w8, #127
	strb	w10, [x9, x23]
	ldr	x9, [x19]
	strb	w8, [x9, x24]
	ldp	x29, x30, [sp, #64]
	ldp	x20, x19, [sp, #48]
	ldp	x22, x21, [sp, #32]
	ldp	x24, x23, [sp, #16]
	ldp	x26, x25, [sp], #80
	ret
Lh3q_BB110_59:
	cmp	x9, x23
	b.ls	Lh3q_BB110_61
	str	x23, [x19, #8]
Lh3q_BB110_61:
	mov	w0, #8
	mov	w1, wzr
	mov	x2, x21
	mov	x3, x20
	mov	x4, x19
	bl	"_qpack_base::prefix_string::append_plain::<#7b66556a84635673>"
	and	w8, w0, #0xff
	tbz	w8, #0, Lh3q_BB110_124
	b	Lh3q_BB110_73
Lh3q_BB110_62:
	mov	w0, #4
	mov	w1, #7
	mov	x3, x19
	bl	"_qpack_base::prefix_int::encode_long::<#7b66556a84635673>"
	and	w8, w0, #0xff
	tbnz	w8, #0, Lh3q_BB110_112
	b	Lh3q_BB110_68
Lh3q_BB110_63:
	mov	w0, #3
	mov	w1, #1
	mov	x3, x19
	bl	"_qpack_base::prefix_int::encode_long::<#7b66556a84635673>"
	mov	w8, w0
	mov	w0, #1
	and	w8, w8, #0xff
	tbnz	w8, #0, Lh3q_BB110_48
	b	Lh3q_BB110_68
Lh3q_BB110_64:
	mov	w0, #4
	mov	w1, #6
	mov	x3, x19
	bl	"_qpack_base::prefix_int::encode_long::<#7b66556a84635673>"
	and	w8, w0, #0xff
	tbz	w8, #0, Lh3q_BB110_68
	b	Lh3q_BB110_112
Lh3q_BB110_65:
	mov	w0, #4
	mov	w1, #5
	mov	x3, x19
	bl	"_qpack_base::prefix_int::encode_long::<#7b66556a84635673>"
	and	w8, w0, #0xff
	tbz	w8, #0, Lh3q_BB110_68
	b	Lh3q_BB110_112
Lh3q_BB110_66:
	mov	w0, #3
	mov	w1, wzr
	mov	x3, x19
	bl	"_qpack_base::prefix_int::encode_long::<#7b66556a84635673>"
	and	w8, w0, #0xff
	tbz	w8, #0, Lh3q_BB110_68
	b	Lh3q_BB110_112
Lh3q_BB110_67:
	mov	w0, #4
	mov	w1, #4
	mov	x3, x19
	bl	"_qpack_base::prefix_int::encode_long::<#7b66556a84635673>"
	and	w8, w0, #0xff
	tbnz	w8, #0, Lh3q_BB110_112
Lh3q_BB110_68:
	ldp	x23, x8, [x19, #8]
	subs	x8, x8, x23
	csel	x8, xzr, x8, lo
	cmp	x20, x8, lsr #2
	b.lo	Lh3q_BB110_43
Lh3q_BB110_69:
	mov	w0, #8
	mov	w1, wzr
	mov	x2, x21
	mov	x3, x20
	mov	x4, x19
	bl	"_qpack_base::prefix_string::append_measured::<#7b66556a84635673>"
	and	w8, w0, #0xff
	tbnz	w8, #0, Lh3q_BB110_73
	b	Lh3q_BB110_124
Lh3q_BB110_70:
	cmp	x9, x23
	b.ls	Lh3q_BB110_72
	str	x23, [x19, #8]
Lh3q_BB110_72:
	mov	w0, #8
	mov	w1, wzr
	mov	x2, x21
	mov	x3, x20
	mov	x4, x19
	bl	"_qpack_base::prefix_string::append_measured::<#7b66556a84635673>"
	tst	w0, #0xff
	b.eq	Lh3q_BB110_124
Lh3q_BB110_73:
	ldr	x8, [x19, #8]
	cmp	x8, x22
	b.ls	Lh3q_BB110_112
	str	x22, [x19, #8]
	b	Lh3q_BB110_112
Lh3q_BB110_75:
	cmp	x8, #134
	b.hi	Lh3q_BB110_103
	ldr	x8, [x19]
	add	x25, x24, #1
	add	x9, x24, #2
	mov	x23, x2
	mov	x0, x2
	mov	x1, x22
	strb	wzr, [x8, x24]
	mov	x2, x19
	ldr	x8, [x19]
	strb	wzr, [x8, x25]
	str	x9, [x19, #8]
	bl	"_qpack_base::prefix_string::encoding::put_payload::<#7b66556a84635673>"
	ldr	x9, [x19, #8]
	sub	x8, x9, x24
	sub	x10, x8, #2
	cmp	x10, x22
	b.hs	Lh3q_BB110_99
	cmp	x10, #7
	b.lo	Lh3q_BB110_100
	cmp	x8, #136
	b.gt	Lh3q_BB110_100
	ldr	x9, [x19]
	mov	w10, #63
	sub	w8, w8, #9
	strb	w10, [x9, x24]
	ldr	x9, [x19]
	strb	w8, [x9, x25]
	b	Lh3q_BB110_104
Lh3q_BB110_80:
	cmp	x8, #134
	b.hi	Lh3q_BB110_93
	ldr	x8, [x19]
	add	x25, x24, #1
	add	x9, x24, #2
	mov	x23, x2
	mov	x0, x2
	mov	x1, x22
	strb	wzr, [x8, x24]
	mov	x2, x19
	ldr	x8, [x19]
	strb	wzr, [x8, x25]
	str	x9, [x19, #8]
	bl	"_qpack_base::prefix_string::encoding::put_payload::<#7b66556a84635673>"
	ldr	x9, [x19, #8]
	sub	x8, x9, x24
	sub	x10, x8, #2
	cmp	x10, x22
	b.hs	Lh3q_BB110_85
	cmp	x10, #7
	b.lo	Lh3q_BB110_91
	cmp	x8, #136
	b.gt	Lh3q_BB110_91
	ldr	x9, [x19]
	mov	w10, #47
	sub	w8, w8, #9
	strb	w10, [x9, x24]
	ldr	x9, [x19]
	strb	w8, [x9, x25]
	b	Lh3q_BB110_94
Lh3q_BB110_85:
	cmp	x9, x24
	b.ls	Lh3q_BB110_87
	str	x24, [x19, #8]
Lh3q_BB110_87:
	mov	w0, #4
	mov	w1, #2
	mov	x2, x23
	mov	x3, x22
	mov	x4, x19
	bl	"_qpack_base::prefix_string::append_plain::<#7b66556a84635673>"
	and	w8, w0, #0xff
	tbz	w8, #0, Lh3q_BB110_94
	b	Lh3q_BB110_112
Lh3q_BB110_88:
	cmp	x8, x24
	b.ls	Lh3q_BB110_90
Lh3q_BB110_89:
	str	x24, [x19, #8]
Lh3q_BB110_90:
	mov	w0, #4
	mov	w1, #3
	mov	x2, x23
	mov	x3, x22
	mov	x4, x19
	bl	"_qpack_base::prefix_string::append_plain::<#7b66556a84635673>"
	and	w8, w0, #0xff
	tbz	w8, #0, Lh3q_BB110_104
	b	Lh3q_BB110_112
Lh3q_BB110_91:
	cmp	x9, x24
	mov	x2, x23
	b.ls	Lh3q_BB110_93
	str	x24, [x19, #8]
Lh3q_BB110_93:
	mov	w0, #4
	mov	w1, #2
	mov	x3, x22
	mov	x4, x19
	bl	"_qpack_base::prefix_string::append_measured::<#7b66556a84635673>"
	and	w8, w0, #0xff
	tbnz	w8, #0, Lh3q_BB110_112
Lh3q_BB110_94:
	ldp	x22, x8, [x19, #8]
	subs	x8, x8, x22
	csel	x8, xzr, x8, lo
	cmp	x20, x8, lsr #2
	b.hs	Lh3q_BB110_109
	sub	x8, x20, x20, lsr #2
	cmp	x8, #126
	b.hi	Lh3q_BB110_113
	ldr	x8, [x19]
	add	x9, x22, #1
	mov	x0, x21
	mov	x1, x20
	mov	x2, x19
	strb	wzr, [x8, x22]
	str	x9, [x19, #8]
	bl	"_qpack_base::prefix_string::encoding::put_payload::<#7b66556a84635673>"
	ldr	x9, [x19, #8]
	mvn	x8, x22
	add	x8, x9, x8
	cmp	x8, x20
	b.hs	Lh3q_BB110_118
	cmp	x8, #126
	b.ls	Lh3q_BB110_108
	b	Lh3q_BB110_121
Lh3q_BB110_98:
	cmp	x8, x24
	b	Lh3q_BB110_101
Lh3q_BB110_99:
	cmp	x9, x24
	b.hi	Lh3q_BB110_89
	b	Lh3q_BB110_90
Lh3q_BB110_100:
	cmp	x9, x24
Lh3q_BB110_101:
	mov	x2, x23
	b.ls	Lh3q_BB110_103
	str	x24, [x19, #8]
Lh3q_BB110_103:
	mov	w0, #4
	mov	w1, #3
	mov	x3, x22
	mov	x4, x19
	bl	"_qpack_base::prefix_string::append_measured::<#7b66556a84635673>"
	and	w8, w0, #0xff
	tbnz	w8, #0, Lh3q_BB110_112
Lh3q_BB110_104:
	ldp	x22, x8, [x19, #8]
	subs	x8, x8, x22
	csel	x8, xzr, x8, lo
	cmp	x20, x8, lsr #2
	b.hs	Lh3q_BB110_109
	sub	x8, x20, x20, lsr #2
	cmp	x8, #126
	b.hi	Lh3q_BB110_113
	ldr	x8, [x19]
	add	x9, x22, #1
	mov	x0, x21
	mov	x1, x20
	mov	x2, x19
	strb	wzr, [x8, x22]
	str	x9, [x19, #8]
	bl	"_qpack_base::prefix_string::encoding::put_payload::<#7b66556a84635673>"
	ldr	x9, [x19, #8]
	mvn	x8, x22
	add	x8, x9, x8
	cmp	x8, x20
	b.hs	Lh3q_BB110_118
	cmp	x8, #126
	b.hi	Lh3q_BB110_121
Lh3q_BB110_108:
	ldr	x9, [x19]
	mov	w0, wzr
	orr	w8, w8, #0x80
	strb	w8, [x9, x22]
	ldp	x29, x30, [sp, #64]
	ldp	x20, x19, [sp, #48]
	ldp	x22, x21, [sp, #32]
	ldp	x24, x23, [sp, #16]
	ldp	x26, x25, [sp], #80
	ret
Lh3q_BB110_109:
	mov	w0, #8
	mov	w1, wzr
	mov	x2, x21
	mov	x3, x20
	mov	x4, x19
	bl	"_qpack_base::prefix_string::append_measured::<#7b66556a84635673>"
	and	w8, w0, #0xff
	tbz	w8, #0, Lh3q_BB110_124
Lh3q_BB110_110:
	ldr	x8, [x19, #8]
	cmp	x8, x24
	b.ls	Lh3q_BB110_112
	str	x24, [x19, #8]
Lh3q_BB110_112:
	mov	w0, #1
	ldp	x29, x30, [sp, #64]
	ldp	x20, x19, [sp, #48]
	ldp	x22, x21, [sp, #32]
	ldp	x24, x23, [sp, #16]
	ldp	x26, x25, [sp], #80
	ret
Lh3q_BB110_113:
	cmp	x8, #254
	b.hi	Lh3q_BB110_123
	ldr	x8, [x19]
	add	x23, x22, #1
	add	x9, x22, #2
	mov	x0, x21
	mov	x1, x20
	mov	x2, x19
	strb	wzr, [x8, x22]
	ldr	x8, [x19]
	strb	wzr, [x8, x23]
	str	x9, [x19, #8]
	bl	"_qpack_base::prefix_string::encoding::put_payload::<#7b66556a84635673>"
	ldr	x9, [x19, #8]
	sub	x8, x9, x22
	sub	x10, x8, #2
	cmp	x10, x20
	b.hs	Lh3q_BB110_118
	cmp	x10, #127
	b.lo	Lh3q_BB110_121
	cmp	x8, #256
	b.gt	Lh3q_BB110_121
	ldr	x9, [x19]
	mov	w10, #255
	mov	w0, wzr
	add	w8, w8, #127
	strb	w10, [x9, x22]
	ldr	x9, [x19]
	b	Lh3q_BB110_47
Lh3q_BB110_118:
	cmp	x9, x22
	b.ls	Lh3q_BB110_120
	str	x22, [x19, #8]
Lh3q_BB110_120:
	mov	w0, #8
	mov	w1, wzr
	mov	x2, x21
	mov	x3, x20
	mov	x4, x19
	bl	"_qpack_base::prefix_string::append_plain::<#7b66556a84635673>"
	and	w8, w0, #0xff
	tbz	w8, #0, Lh3q_BB110_124
	b	Lh3q_BB110_110
Lh3q_BB110_121:
	cmp	x9, x22
	b.ls	Lh3q_BB110_123
	str	x22, [x19, #8]
Lh3q_BB110_123:
	mov	w0, #8
	mov	w1, wzr
	mov	x2, x21
	mov	x3, x20
	mov	x4, x19
	bl	"_qpack_base::prefix_string::append_measured::<#7b66556a84635673>"
	tst	w0, #0xff
	b.ne	Lh3q_BB110_110
Lh3q_BB110_124:
	mov	w0, wzr
	ldp	x29, x30, [sp, #64]
	ldp	x20, x19, [sp, #48]
	ldp	x22, x21, [sp, #32]
	ldp	x24, x23, [sp, #16]
	ldp	x26, x25, [sp], #80
	ret

	.p2align	2
"_qpack_encoding::choosing::ChooserChoosesIndexPackedField::choose":
	sub	sp, sp, #272
	and	w8, w4, #0xff
	stp	x20, x19, [sp, #240]
	mov	x19, x0
	cmp	w8, #1
	stp	x28, x27, [sp, #176]
	stp	x26, x25, [sp, #192]
	stp	x24, x23, [sp, #208]
	stp	x22, x21, [sp, #224]
	stp	x29, x30, [sp, #256]
	add	x29, sp, #256
	stp	xzr, xzr, [sp, #48]
	str	xzr, [sp, #64]
	stp	xzr, xzr, [sp, #32]
	str	xzr, [sp, #24]
	b.eq	Lh3q_BB111_8
	ldrb	w8, [x3, #32]
	tbnz	w8, #0, Lh3q_BB111_8
	ldrb	w8, [x5, #24]
	cmp	w8, #1
	b.ne	Lh3q_BB111_9
	ldr	x0, [x2]
	ldr	x21, [x5, #32]
	ldr	x22, [x0, #88]
	ldr	x23, [x0, #176]
	cmp	x23, x22
	b.hs	Lh3q_BB111_12
	mov	x20, x21
	add	x24, x1, #808
	and	x8, x21, #0xff
	ldrb	w9, [x24, x8]
	subs	w10, w9, #3
	b.hs	Lh3q_BB111_63
Lh3q_BB111_5:
	ldrb	w10, [x1, #1064]
	mov	w11, #255
	add	w10, w10, #3
	cmp	w10, #255
	csel	w10, w10, w11, lo
	strb	w10, [x24, x8]
	cbz	w9, Lh3q_BB111_65
	cmp	w9, #2
	b.ne	Lh3q_BB111_64
	cmp	x23, x22
	b.hs	Lh3q_BB111_65
	b	Lh3q_BB111_66
Lh3q_BB111_8:
	add	x0, sp, #48
	mov	x4, x5
	mov	w5, wzr
	bl	"_qpack_encoding::choosing::Chooser::choose_literal"
	ldrh	w8, [sp, #48]
	ldr	x9, [sp, #56]
	ldrb	w10, [sp, #64]
	strh	w8, [x19]
	str	x9, [x19, #8]
	b	Lh3q_BB111_230
Lh3q_BB111_9:
	ldr	x8, [x2]
	stp	xzr, xzr, [sp, #72]
	str	xzr, [sp, #88]
	ldr	x9, [x8, #88]
	ldr	x8, [x8, #176]
	cmp	x8, x9
	b.lo	Lh3q_BB111_34
	ldrb	w8, [x5, #40]
	cmp	w8, #1
	b.ne	Lh3q_BB111_32
	mov	x8, xzr
	b	Lh3q_BB111_33
Lh3q_BB111_12:
	ldr	x8, [x0, #96]
	mov	x20, x21
	cmp	x21, x8
	b.ls	Lh3q_BB111_30
	mov	x9, x1
	ldr	x10, [x9, #32]!
	cmp	x10, x21
	b.eq	Lh3q_BB111_28
	mov	x9, x1
	ldr	x10, [x9, #48]!
	cmp	x10, x21
	b.eq	Lh3q_BB111_28
	mov	x9, x1
	ldr	x10, [x9, #64]!
	cmp	x10, x21
	b.eq	Lh3q_BB111_28
	mov	x9, x1
	ldr	x10, [x9, #80]!
	cmp	x10, x21
	b.eq	Lh3q_BB111_28
	mov	x9, x1
	ldr	x10, [x9, #96]!
	cmp	x10, x21
	b.eq	Lh3q_BB111_28
	mov	x9, x1
	ldr	x10, [x9, #112]!
	cmp	x10, x21
	b.eq	Lh3q_BB111_28
	mov	x9, x1
	ldr	x10, [x9, #128]!
	cmp	x10, x21
	b.eq	Lh3q_BB111_28
	mov	x9, x1
	ldr	x10, [x9, #144]!
	cmp	x10, x21
	b.eq	Lh3q_BB111_28
	mov	x9, x1
	ldr	x10, [x9, #160]!
	cmp	x10, x21
	b.eq	Lh3q_BB111_28
	mov	x9, x1
	ldr	x10, [x9, #176]!
	cmp	x10, x21
	b.eq	Lh3q_BB111_28
	mov	x9, x1
	mov	x10, x1
	ldr	x11, [x9, #192]!
	cmp	x11, x21
	b.eq	Lh3q_BB111_27
	mov	x9, x10
	ldr	x11, [x9, #208]!
	cmp	x11, x21
	b.eq	Lh3q_BB111_27
	mov	x9, x10
	ldr	x11, [x9, #224]!
	cmp	x11, x21
	b.eq	Lh3q_BB111_27
	mov	x9, x10
	ldr	x11, [x9, #240]!
	cmp	x11, x21
	b.ne	Lh3q_BB111_221
Lh3q_BB111_27:
	mov	x1, x10
Lh3q_BB111_28:
	ldr	x20, [x9, #8]
	cmp	x20, x8
	b.hi	Lh3q_BB111_225
	mov	x24, x1
	mov	x1, x20
	mov	x25, x2
	mov	x2, x3
	mov	x26, x5
	mov	x28, x3
	mov	w27, w4
	bl	"_qpack_table::dynamic::encoder::DynamicTableEncoder::is_equal::<#998670d21b39cbf5>"
	mov	w4, w27
	mov	x3, x28
	mov	x5, x26
	mov	x2, x25
	mov	x1, x24
	tbz	w0, #0, Lh3q_BB111_225
Lh3q_BB111_30:
	ldrb	w8, [x5, #40]
	cmp	w8, #1
	b.ne	Lh3q_BB111_61
	mov	x8, xzr
	b	Lh3q_BB111_62
Lh3q_BB111_32:
	ldr	x8, [x3, #8]
Lh3q_BB111_33:
	ldr	x9, [x3, #24]
	adds	x8, x8, x9
	ldr	x9, [x1, #1088]
	csinv	x8, x8, xzr, lo
	adds	x8, x8, x9
	csinv	x8, x8, xzr, lo
	str	x8, [x1, #1088]
Lh3q_BB111_34:
	ldrb	w8, [x5]
	cmp	w8, #1
	b.ne	Lh3q_BB111_47
	ldr	x8, [x5, #8]
	cbz	x8, Lh3q_BB111_59
	mov	x9, #25647
	ldp	x11, x10, [x3]
	movk	x9, #30909, lsl #16
	mov	x8, #10459
	movk	x9, #7524, lsl #32
	movk	x8, #41140, lsl #16
	movk	x9, #41078, lsl #48
	movk	x8, #32465, lsl #32
	cmp	x10, #16
	movk	x8, #59139, lsl #48
	eor	x9, x10, x9
	b.lo	Lh3q_BB111_39
Lh3q_BB111_37:
	ldp	x12, x13, [x11]
	sub	x10, x10, #16
	cmp	x10, #15
	eor	x9, x12, x9
	eor	x12, x13, x8
	mul	x13, x12, x9
	umulh	x9, x12, x9
	add	x12, x11, #16
	mov	x11, x12
	eor	x9, x9, x13
	b.hi	Lh3q_BB111_37
	mov	x11, x12
Lh3q_BB111_39:
	cmp	x10, #7
	b.hi	Lh3q_BB111_60
	cmp	x10, #3
	b.hi	Lh3q_BB111_106
	cbz	x10, Lh3q_BB111_46
	ldrb	w12, [x11]
	cmp	x10, #1
	b.eq	Lh3q_BB111_45
	ldrb	w13, [x11, #1]
	cmp	x10, #2
	orr	x12, x13, x12, lsl #8
	b.eq	Lh3q_BB111_45
	ldrb	w10, [x11, #2]
	orr	x12, x10, x12, lsl #8
Lh3q_BB111_45:
	eor	x9, x12, x9
Lh3q_BB111_46:
	mul	x10, x9, x8
	umulh	x9, x9, x8
	eor	x9, x9, x10
	b	Lh3q_BB111_108
Lh3q_BB111_47:
	mov	x9, #25647
	ldp	x11, x10, [x3]
	movk	x9, #30909, lsl #16
	mov	x8, #10459
	movk	x9, #7524, lsl #32
	movk	x8, #41140, lsl #16
	movk	x9, #41078, lsl #48
	movk	x8, #32465, lsl #32
	cmp	x10, #16
	movk	x8, #59139, lsl #48
	eor	x9, x10, x9
	b.lo	Lh3q_BB111_50
Lh3q_BB111_48:
	ldp	x12, x13, [x11]
	sub	x10, x10, #16
	cmp	x10, #15
	eor	x9, x12, x9
	eor	x12, x13, x8
	mul	x13, x12, x9
	umulh	x9, x12, x9
	add	x12, x11, #16
	mov	x11, x12
	eor	x9, x9, x13
	b.hi	Lh3q_BB111_48
	mov	x11, x12
Lh3q_BB111_50:
	cmp	x10, #7
	b.hi	Lh3q_BB111_58
	cmp	x10, #3
	b.hi	Lh3q_BB111_77
	cbz	x10, Lh3q_BB111_57
	ldrb	w12, [x11]
	cmp	x10, #1
	b.eq	Lh3q_BB111_56
	ldrb	w13, [x11, #1]
	cmp	x10, #2
	orr	x12, x13, x12, lsl #8
	b.eq	Lh3q_BB111_56
	ldrb	w10, [x11, #2]
	orr	x12, x10, x12, lsl #8
Lh3q_BB111_56:
	eor	x9, x12, x9
Lh3q_BB111_57:
	mul	x10, x9, x8
	umulh	x9, x9, x8
	eor	x9, x9, x10
	b	Lh3q_BB111_79
Lh3q_BB111_58:
	add	x10, x11, x10
	ldr	x11, [x11]
	ldur	x10, [x10, #-8]
	eor	x9, x11, x9
	b	Lh3q_BB111_78
Lh3q_BB111_59:
	ldr	x8, [x5, #16]
	mov	x10, x8
	b	Lh3q_BB111_117
Lh3q_BB111_60:
	add	x10, x11, x10
	ldr	x11, [x11]
	ldur	x10, [x10, #-8]
	eor	x9, x11, x9
	b	Lh3q_BB111_107
Lh3q_BB111_61:
	ldr	x8, [x3, #8]
Lh3q_BB111_62:
	ldr	x9, [x3, #24]
	adds	x8, x8, x9
	ldr	x9, [x1, #1080]
	csinv	x8, x8, xzr, lo
	cmp	x9, x8
	csel	x10, x9, x8, lo
	subs	x9, x9, x10
	csel	x9, xzr, x9, lo
	subs	x8, x8, x10
	ldr	x10, [x1, #1072]
	csel	x8, xzr, x8, lo
	str	x9, [x1, #1080]
	adds	x8, x8, x10
	mov	w10, #16384
	csinv	x8, x8, xzr, lo
	cmp	x8, #4, lsl #12
	csel	x8, x8, x10, lo
	str	x8, [x1, #1072]
	add	x24, x1, #808
	and	x8, x20, #0xff
	ldrb	w9, [x24, x8]
	subs	w10, w9, #3
	b.lo	Lh3q_BB111_5
Lh3q_BB111_63:
	ldrb	w11, [x1, #1064]
	cmp	w11, w10, uxtb
	csel	w9, w9, w10, lo
	mov	w10, #255
	sub	w9, w11, w9
	and	w9, w9, #0xff
	cmp	w9, #3
	add	w9, w11, #3
	cset	w28, lo
	cmp	w9, #255
	csel	w9, w9, w10, lo
	strb	w9, [x24, x8]
	and	w8, w4, #0xff
	mov	w10, wzr
	mov	w22, #1
	cmp	w8, #2
	b.ne	Lh3q_BB111_67
	b	Lh3q_BB111_72
Lh3q_BB111_64:
	ldrb	w8, [x1, #1065]
	add	w9, w8, #1
	cmp	w9, #2
	mov	w9, #2
	csinc	w8, w9, w8, hs
	strb	w8, [x1, #1065]
Lh3q_BB111_65:
	mov	x0, x1
	mov	x22, x1
	mov	x1, x3
	mov	x23, x2
	mov	x2, x5
	mov	x25, x5
	mov	x27, x3
	mov	w26, w4
	bl	"_qpack_encoding::choosing::Chooser::raise"
	mov	w4, w26
	mov	x3, x27
	mov	x5, x25
	mov	x2, x23
	mov	x1, x22
Lh3q_BB111_66:
	mov	w28, wzr
	and	w8, w4, #0xff
	mov	w10, wzr
	mov	w22, #1
	cmp	w8, #2
	b.eq	Lh3q_BB111_72
Lh3q_BB111_67:
	cmp	x20, x21
	b.lo	Lh3q_BB111_72
	ldr	x23, [x1]
	cmp	x20, x23
	b.ls	Lh3q_BB111_73
	ldr	x8, [x3, #8]
	ldr	x9, [x3, #24]
	adds	x8, x9, x8
	ldr	x9, [x2, #16]
	csinv	x8, x8, xzr, lo
	adds	x8, x8, #32
	csinv	x21, x8, xzr, lo
	subs	x8, x9, x20
	csel	x8, xzr, x8, lo
	cmp	x8, #63
	eor	w8, w28, #0x1
	csinc	w8, w8, wzr, hs
	tbnz	w8, #0, Lh3q_BB111_71
	ldr	x8, [x2]
	ldr	x8, [x8, #64]
	cmp	x21, x8, lsr #6
	b.ls	Lh3q_BB111_174
Lh3q_BB111_71:
	mov	w10, wzr
	mov	w9, wzr
	b	Lh3q_BB111_229
Lh3q_BB111_72:
	mov	w9, w10
	b	Lh3q_BB111_229
Lh3q_BB111_73:
	ldr	x21, [x2]
	ldr	x8, [x21, #88]
	ldr	x9, [x21, #176]
	cmp	x9, x8
	b.hs	Lh3q_BB111_90
	cbz	w28, Lh3q_BB111_176
Lh3q_BB111_75:
	ldrb	w8, [x1, #1104]
	ldr	x2, [x3, #8]
	mov	x22, x1
	ldr	x3, [x3, #24]
	mov	x0, x1
	mov	x1, x21
	cmp	w8, #3
	cset	w4, lo
	csel	x5, x20, xzr, lo
	bl	"_qpack_encoding::choosing::Chooser::can_insert"
	tbnz	w0, #0, Lh3q_BB111_177
	cmp	x20, x23
	b.hi	Lh3q_BB111_191
	b	Lh3q_BB111_183
Lh3q_BB111_77:
	add	x10, x11, x10
	ldr	w11, [x11]
	ldur	w10, [x10, #-4]
	eor	x9, x9, x11
Lh3q_BB111_78:
	eor	x10, x10, x8
	mul	x11, x10, x9
	umulh	x9, x10, x9
	eor	x9, x9, x11
Lh3q_BB111_79:
	ldp	x12, x11, [x3, #16]
	cmp	x11, #16
	eor	x10, x11, x9
	b.lo	Lh3q_BB111_82
Lh3q_BB111_80:
	ldp	x13, x14, [x12]
	sub	x11, x11, #16
	cmp	x11, #15
	eor	x10, x13, x10
	eor	x13, x14, x8
	mul	x14, x13, x10
	umulh	x10, x13, x10
	add	x13, x12, #16
	mov	x12, x13
	eor	x10, x10, x14
	b.hi	Lh3q_BB111_80
	mov	x12, x13
Lh3q_BB111_82:
	cmp	x11, #7
	b.hi	Lh3q_BB111_114
	cmp	x11, #3
	b.hi	Lh3q_BB111_113
Lh3q_BB111_84:
	cbz	x11, Lh3q_BB111_89
	ldrb	w13, [x12]
	cmp	x11, #1
	b.eq	Lh3q_BB111_88
	ldrb	w14, [x12, #1]
	cmp	x11, #2
	orr	x13, x14, x13, lsl #8
	b.eq	Lh3q_BB111_88
	ldrb	w11, [x12, #2]
	orr	x13, x11, x13, lsl #8
Lh3q_BB111_88:
	eor	x10, x13, x10
Lh3q_BB111_89:
	mul	x11, x10, x8
	umulh	x8, x10, x8
	b	Lh3q_BB111_116
Lh3q_BB111_90:
	mov	x27, x5
Lh3q_BB111_91:
	ldr	x22, [x3, #8]
	ldr	x23, [x3, #24]
	mov	x25, x2
	mov	x0, x1
	mov	x26, x1
	mov	x1, x21
	mov	x2, x22
	mov	x3, x23
	mov	w4, wzr
	mov	x5, xzr
	bl	"_qpack_encoding::choosing::Chooser::can_insert"
	mov	x8, x26
	cbz	w0, Lh3q_BB111_94
	ldr	x9, [x8, #272]
	ldr	x10, [x21, #48]
	cmp	x10, x9
	b.hs	Lh3q_BB111_182
	ldr	x10, [x21, #96]
	cmp	x9, x10
	b.ls	Lh3q_BB111_182
Lh3q_BB111_94:
	ldrb	w11, [x27, #40]
	adds	x10, x22, x23
	ldr	x9, [x21, #64]
	csinv	x10, x10, xzr, lo
	cmp	w11, #1
	eor	w11, w28, #0x1
	csel	x27, x23, x10, eq
	cmp	x9, #2047
	csinc	w11, w11, wzr, ls
	tbnz	w11, #0, Lh3q_BB111_191
	ldp	x11, x12, [x21, #48]
	adds	x10, x10, #32
	csinv	x10, x10, xzr, lo
	adds	x10, x10, x12
	csinv	x10, x10, xzr, lo
	adds	x12, x11, #1
	csinv	x12, x12, xzr, lo
	cmp	x12, x20
	b.hs	Lh3q_BB111_185
	cmn	x11, #2
	mov	x13, #-2
	csel	x14, x11, x13, lo
	mov	w13, #48
	mul	x15, x14, x13
	sub	x14, x14, x11
	msub	x13, x11, x13, x15
	b	Lh3q_BB111_99
Lh3q_BB111_97:
	ldr	x15, [x15, #8]
	sub	x15, x15, x16
	adds	x15, x15, x17
	csinv	x15, x15, xzr, lo
	adds	x15, x15, #32
	csinv	x15, x15, xzr, lo
	subs	x10, x10, x15
	csel	x10, xzr, x10, lo
Lh3q_BB111_98:
	add	x12, x12, #1
	add	x14, x14, #1
	add	x13, x13, #48
	cmp	x12, x20
	b.hs	Lh3q_BB111_185
Lh3q_BB111_99:
	cmp	x12, x11
	b.ls	Lh3q_BB111_98
	ldr	x16, [x21, #8]
	cmp	x16, x14
	b.ls	Lh3q_BB111_98
	ldr	x17, [x21, #32]
	ldr	x15, [x21]
	sub	x0, x16, x17
	cmp	x14, x0
	b.hs	Lh3q_BB111_103
	ldr	x16, [x21, #24]
	mov	w17, #48
	madd	x15, x16, x17, x15
	add	x15, x15, x13
	b	Lh3q_BB111_104
Lh3q_BB111_103:
	sub	x16, x17, x16
	mov	w17, #48
	add	x16, x14, x16
	madd	x15, x16, x17, x15
Lh3q_BB111_104:
	ldrb	w17, [x15, #28]
	ldr	w16, [x15, #24]
	cmp	w17, #1
	mov	x17, x16
	b.ne	Lh3q_BB111_97
	ldrb	w17, [x15, #29]
Lh3q_loh230:
	adrp	x0, l_static.3@PAGE
Lh3q_loh231:
	add	x0, x0, l_static.3@PAGEOFF
Lh3q_loh232:
	adrp	x1, l_static.2@PAGE
Lh3q_loh233:
	add	x1, x1, l_static.2@PAGEOFF
Lh3q_loh234:
	adrp	x3, l_static.1@PAGE
Lh3q_loh235:
	add	x3, x3, l_static.1@PAGEOFF
	lsl	x2, x17, #5
	cmp	w17, #74
	add	x0, x0, x2
	add	x1, x1, x2
	add	x2, x3, x17, lsl #5
Lh3q_loh236:
	adrp	x3, l_static.0@PAGE
Lh3q_loh237:
	add	x3, x3, l_static.0@PAGEOFF
	sub	x0, x0, #2392
	sub	x1, x1, #1592
	add	x3, x3, x17, lsl #5
	csel	x0, x0, x1, hi
	sub	x1, x2, #792
	cmp	w17, #49
	csel	x0, x0, x1, hi
	add	x1, x3, #8
	cmp	w17, #24
	csel	x17, x0, x1, hi
	ldr	x17, [x17]
	b	Lh3q_BB111_97
Lh3q_BB111_106:
	add	x10, x11, x10
	ldr	w11, [x11]
	ldur	w10, [x10, #-4]
	eor	x9, x9, x11
Lh3q_BB111_107:
	eor	x10, x10, x8
	mul	x11, x10, x9
	umulh	x9, x10, x9
	eor	x9, x9, x11
Lh3q_BB111_108:
	ldp	x12, x11, [x3, #16]
	cmp	x11, #16
	eor	x10, x11, x9
	b.lo	Lh3q_BB111_111
Lh3q_BB111_109:
	ldp	x13, x14, [x12]
	sub	x11, x11, #16
	cmp	x11, #15
	eor	x10, x13, x10
	eor	x13, x14, x8
	mul	x14, x13, x10
	umulh	x10, x13, x10
	add	x13, x12, #16
	mov	x12, x13
	eor	x10, x10, x14
	b.hi	Lh3q_BB111_109
	mov	x12, x13
Lh3q_BB111_111:
	cmp	x11, #7
	b.hi	Lh3q_BB111_114
	cmp	x11, #3
	b.ls	Lh3q_BB111_84
Lh3q_BB111_113:
	add	x11, x12, x11
	ldr	w12, [x12]
	ldur	w11, [x11, #-4]
	eor	x10, x10, x12
	b	Lh3q_BB111_115
Lh3q_BB111_114:
	add	x11, x12, x11
	ldr	x12, [x12]
	ldur	x11, [x11, #-8]
	eor	x10, x12, x10
Lh3q_BB111_115:
	eor	x8, x11, x8
	mul	x11, x8, x10
	umulh	x8, x8, x10
Lh3q_BB111_116:
	eor	x10, x8, x11
	lsr	x8, x9, #32
Lh3q_BB111_117:
	ldr	x9, [x1, #544]
	cbz	x9, Lh3q_BB111_121
	lsr	x10, x10, #32
	cmp	x9, #32
	mov	w11, #32
	csel	x9, x9, x11, lo
	udiv	w11, w10, w9
	msub	w9, w11, w9, w10
	orr	w10, w11, #0x1
	dup.4h	v0, w10
	add	x11, x1, w9, uxtw #3
	ldr	d1, [x11, #288]
	cmeq.4h	v0, v1, v0
	umaxv.4h	h0, v0
	fmov	w9, s0
	tbz	w9, #0, Lh3q_BB111_120
	mov	w9, #1
	b	Lh3q_BB111_121
Lh3q_BB111_120:
	add	x11, x11, #288
	mov	w9, wzr
	ldrh	w12, [x11, #4]
	ldr	w13, [x11]
	strh	w10, [x11]
	strh	w12, [x11, #6]
	stur	w13, [x11, #2]
Lh3q_BB111_121:
	ldr	x10, [x3, #24]
	cmp	x10, #128
	mov	w10, #128
	csel	w10, wzr, w10, lo
	add	w8, w10, w8, lsr #24
	add	x10, x1, #552
	and	x11, x8, #0xff
	ldrb	w8, [x10, x11]
	tbz	w9, #0, Lh3q_BB111_124
	ldr	x12, [x2]
	ldr	x13, [x12, #88]
	ldr	x12, [x12, #176]
	cmp	x12, x13
	b.hs	Lh3q_BB111_126
	add	w12, w8, #48
	mov	w13, #255
	cmp	w12, #255
	csel	w12, w12, w13, lo
	b	Lh3q_BB111_125
Lh3q_BB111_124:
	lsr	w12, w8, #3
	tst	w8, #0x7
	cinc	w12, w12, ne
	subs	w12, w8, w12
	csel	w12, wzr, w12, lo
Lh3q_BB111_125:
	strb	w12, [x10, x11]
Lh3q_BB111_126:
	and	w10, w4, #0xff
	cmp	w10, #3
	b.eq	Lh3q_BB111_129
	cmp	w10, #2
	b.ne	Lh3q_BB111_133
Lh3q_BB111_128:
	add	x0, sp, #72
	mov	x4, x5
	b	Lh3q_BB111_169
Lh3q_BB111_129:
	ldr	x20, [x2]
	ldr	x8, [x20, #88]
	ldr	x9, [x20, #176]
	cmp	x9, x8
	b.hs	Lh3q_BB111_139
	ldr	x24, [x3, #24]
	ldr	x25, [x3, #8]
	mov	x23, x5
	mov	x26, x2
	mov	x22, x3
	mov	x28, x1
	mov	x0, x1
	mov	x1, x20
	mov	x2, x25
	mov	x3, x24
	mov	w4, wzr
	mov	x5, xzr
	bl	"_qpack_encoding::choosing::Chooser::can_insert"
	cbz	w0, Lh3q_BB111_142
	ldr	x8, [x20, #40]
	adds	x8, x8, #1
	csinv	x11, x8, xzr, lo
Lh3q_BB111_132:
	ldrb	w12, [x28, #1064]
	add	x11, x28, w11, uxtb
	mov	w13, #255
	mov	w10, wzr
	mov	x9, xzr
	mov	w8, wzr
	add	w12, w12, #3
	cmp	w12, #255
	csel	w12, w12, w13, lo
	strb	w12, [x11, #808]
	mov	w11, #3
	b	Lh3q_BB111_181
Lh3q_BB111_133:
	ldr	x11, [x2]
	ldr	x24, [x11, #88]
	ldr	x27, [x11, #176]
	cbz	w9, Lh3q_BB111_140
	cmp	w8, #63
	mov	w9, #1
	b.hi	Lh3q_BB111_163
	cmp	x27, x24
	b.lo	Lh3q_BB111_163
	cbz	w8, Lh3q_BB111_128
	ldrb	w8, [x1, #1105]
	add	w8, w8, #1
	tst	w8, #0x7
	strb	w8, [x1, #1105]
	b.ne	Lh3q_BB111_128
	ldr	x11, [x2]
	ldr	x24, [x11, #88]
	ldr	x27, [x11, #176]
	b	Lh3q_BB111_163
Lh3q_BB111_139:
	ldr	x8, [x20, #40]
	ldrb	w9, [x1, #1064]
	mov	w10, #255
	adds	x8, x8, #1
	add	w9, w9, #3
	csinv	x8, x8, xzr, lo
	cmp	w9, #255
	add	x8, x1, w8, uxtb
	csel	w9, w9, w10, lo
	strb	w9, [x8, #808]
	mov	w8, #1
	b	Lh3q_BB111_179
Lh3q_BB111_140:
	cmp	x27, x24
	b.lo	Lh3q_BB111_146
	mov	w9, #144
	cmp	w8, w9, uxtb
	b.lo	Lh3q_BB111_147
	b	Lh3q_BB111_162
Lh3q_BB111_142:
	adds	x8, x24, x25
	ldr	x9, [x20, #64]
	csinv	x8, x8, xzr, lo
	adds	x8, x8, #32
	csinv	x8, x8, xzr, lo
	subs	x1, x9, x8
	b.lo	Lh3q_BB111_168
	ldr	x24, [x20, #40]
	lsr	x8, x24, #62
	cbnz	x8, Lh3q_BB111_168
	mov	x0, x20
	bl	"_qpack_table::dynamic::table::DynamicTable::evictable_count::<#f1ee30144fd2ee58>"
	and	w8, w0, #0xff
	cmp	w8, #1
	b.ne	Lh3q_BB111_168
	add	x11, x24, #1
	b	Lh3q_BB111_132
Lh3q_BB111_146:
	ldrb	w9, [x1, #1104]
	mov	w10, #-64
	cmp	w9, #33
	mov	w9, #-116
	csel	w9, w10, w9, lo
	cmp	w8, w9, uxtb
	b.hs	Lh3q_BB111_162
Lh3q_BB111_147:
	cmp	w8, #64
	b.lo	Lh3q_BB111_151
	cmp	x27, x24
	b.hs	Lh3q_BB111_151
	ldr	x8, [x11, #64]
	cmp	x8, #2048
	b.lo	Lh3q_BB111_151
	ldr	x9, [x3, #8]
	ldr	x10, [x3, #24]
	adds	x9, x10, x9
	ldr	x10, [x11, #56]
	csinv	x9, x9, xzr, lo
	adds	x9, x9, #32
	csinv	x9, x9, xzr, lo
	adds	x9, x9, x10
	csinv	x9, x9, xzr, lo
	cmp	x9, x8, lsr #1
	b.ls	Lh3q_BB111_162
Lh3q_BB111_151:
	ldrb	w8, [x5, #40]
	cmp	w8, #1
	b.eq	Lh3q_BB111_128
	ldrb	w8, [x1, #1065]
	cbz	w8, Lh3q_BB111_128
	ldr	x22, [x3, #8]
	ldr	x8, [x3, #24]
	ldr	x10, [x11, #64]
	adds	x8, x8, x22
	csinv	x8, x8, xzr, lo
	adds	x8, x8, #32
	csinv	x9, x8, xzr, lo
	subs	x8, x10, x9
	b.lo	Lh3q_BB111_128
	lsr	x10, x10, #1
	cmp	x10, x9
	b.lo	Lh3q_BB111_128
	ldr	x9, [x11, #40]
	lsr	x9, x9, #62
	cbnz	x9, Lh3q_BB111_128
	mov	x0, x11
	mov	x25, x1
	mov	x1, x8
	mov	x21, x2
	mov	x28, x5
	str	x3, [sp, #16]
	mov	x26, x11
	bl	"_qpack_table::dynamic::table::DynamicTable::evictable_count::<#f1ee30144fd2ee58>"
	ldr	x3, [sp, #16]
	and	w8, w0, #0xff
	mov	x5, x28
	mov	x2, x21
	mov	x1, x25
	cmp	w8, #1
	b.ne	Lh3q_BB111_128
	ldr	x8, [x26, #48]
	ldrb	w9, [x5]
	mov	x11, x26
	ldr	x23, [x3]
	ldr	w0, [x5, #16]
	str	xzr, [sp, #96]
	str	x8, [sp, #8]
	cmp	w9, #1
	ldr	x8, [x5, #8]
	b.ne	Lh3q_BB111_207
	mov	x20, x24
	ldr	x24, [x11, #240]
	cmp	x8, x24
	b.eq	Lh3q_BB111_160
	mov	x0, x24
	mov	x1, x23
	mov	x2, x22
	bl	"_qpack_table::dynamic::index::hash::hash_name"
	mov	x11, x26
Lh3q_BB111_160:
	stp	x23, x22, [sp, #120]
	ldr	x22, [sp, #8]
Lh3q_loh238:
	adrp	x8, l_static.5@PAGE
Lh3q_loh239:
	add	x8, x8, l_static.5@PAGEOFF
	stp	xzr, xzr, [sp, #152]
	add	x3, sp, #104
	str	w0, [sp, #160]
	add	x0, x11, #216
	add	x4, sp, #96
	mov	x1, x11
	mov	x2, x22
	stp	xzr, x24, [sp, #104]
	stp	x8, xzr, [sp, #136]
	bl	"_qpack_table::dynamic::index::row::Row::search::<#e26e38abbd2828ef>"
	tst	w0, #0xff
	b.eq	Lh3q_BB111_214
	mov	w9, wzr
	mov	x8, xzr
	mov	x1, x25
	mov	x24, x20
	mov	x11, x26
	b	Lh3q_BB111_215
Lh3q_BB111_162:
	mov	w9, #2
Lh3q_BB111_163:
	ldr	x20, [x3, #24]
	ldr	x25, [x3, #8]
	mov	x23, x5
	mov	x26, x2
	mov	x22, x3
	mov	x28, x1
	mov	x0, x1
	mov	x1, x11
	mov	x2, x25
	mov	x3, x20
	mov	w4, wzr
	mov	x5, xzr
	str	w9, [sp, #16]
	mov	x21, x11
	bl	"_qpack_encoding::choosing::Chooser::can_insert"
	cmp	x27, x24
	b.hs	Lh3q_BB111_170
	tbz	w0, #0, Lh3q_BB111_168
	ldr	x8, [x21, #40]
	ldr	w26, [sp, #16]
	adds	x8, x8, #1
	csinv	x11, x8, xzr, lo
	cmp	w26, #1
	b.eq	Lh3q_BB111_132
	cmp	w26, #2
	b.ne	Lh3q_BB111_193
	add	x11, x28, w11, uxtb
	mov	w10, wzr
	mov	x9, xzr
	mov	w8, wzr
	strb	wzr, [x11, #808]
	mov	w11, #3
	b	Lh3q_BB111_181
Lh3q_BB111_168:
	add	x0, sp, #72
	mov	x1, x28
	mov	x2, x26
	mov	x3, x22
	mov	x4, x23
	strb	wzr, [x28, #1104]
Lh3q_BB111_169:
	mov	w5, wzr
	b	Lh3q_BB111_180
Lh3q_BB111_170:
	mov	x5, x23
	cbz	w0, Lh3q_BB111_178
	ldrb	w8, [x5, #40]
	adds	x9, x25, x20
	ldr	x10, [x28, #1072]
	csinv	x9, x9, xzr, lo
	mov	x1, x28
	mov	x2, x26
	cmp	w8, #1
	mov	x3, x22
	csel	x8, x20, x9, eq
	subs	x9, x10, x8
	b.hs	Lh3q_BB111_192
	ldr	x10, [x1, #1080]
	ldr	x9, [x1, #1096]
	adds	x8, x8, x10
	ldr	x10, [x1, #1088]
	csinv	x8, x8, xzr, lo
	cmp	x9, #1
	b.ne	Lh3q_BB111_194
	mov	w9, #11
	mov	x11, #17873
	mul	x9, x10, x9
	movk	x11, #23831, lsl #16
	movk	x11, #53620, lsl #32
	movk	x11, #5957, lsl #48
	cmp	x10, x11
	mov	x10, #1152921504606846975
	lsr	x9, x9, #4
	csel	x9, x10, x9, hi
	b	Lh3q_BB111_195
Lh3q_BB111_174:
	mov	x0, x1
	mov	x26, x1
	mov	x1, x2
	mov	x22, x3
	mov	x27, x5
	mov	x25, x2
	bl	"_qpack_encoding::choosing::draining::Draining::count"
	ldr	x8, [x26, #8]
	ldr	x9, [x26, #24]
	adds	x8, x21, x8
	csinv	x8, x8, xzr, lo
	cmp	x8, x9
	b.hi	Lh3q_BB111_191
	ldr	x21, [x25]
	mov	x1, x26
	mov	x2, x25
	mov	x3, x22
	ldr	x8, [x21, #88]
	ldr	x9, [x21, #176]
	cmp	x9, x8
	b.lo	Lh3q_BB111_75
	b	Lh3q_BB111_91
Lh3q_BB111_176:
	ldr	x2, [x3, #8]
	ldr	x3, [x3, #24]
	mov	x22, x1
	mov	x0, x1
	mov	x1, x21
	mov	w4, #1
	mov	x5, x20
	bl	"_qpack_encoding::choosing::Chooser::can_insert"
	cbz	w0, Lh3q_BB111_183
Lh3q_BB111_177:
	ldr	x8, [x21, #40]
	ldrb	w11, [x22, #1064]
	mov	w12, #255
	mov	w10, wzr
	mov	x20, xzr
	mov	w9, wzr
	adds	x8, x8, #1
	add	w11, w11, #3
	mov	w22, #3
	csinv	x8, x8, xzr, lo
	cmp	w11, #255
	and	x8, x8, #0xff
	csel	w11, w11, w12, lo
	strb	w11, [x24, x8]
	b	Lh3q_BB111_229
Lh3q_BB111_178:
	mov	w8, wzr
	mov	x1, x28
	mov	x2, x26
	mov	x3, x22
Lh3q_BB111_179:
	add	x0, sp, #72
	mov	x4, x5
	mov	w5, w8
Lh3q_BB111_180:
	bl	"_qpack_encoding::choosing::Chooser::choose_literal"
	ldrb	w11, [sp, #72]
	ldrb	w8, [sp, #73]
	ldr	x9, [sp, #80]
	ldrb	w10, [sp, #88]
Lh3q_BB111_181:
	strb	w11, [x19]
	strb	w8, [x19, #1]
	str	x9, [x19, #8]
	b	Lh3q_BB111_230
Lh3q_BB111_182:
	ldp	q1, q0, [x8, #240]
	mov	w12, #255
	ldr	x10, [x21, #40]
	ldrb	w11, [x8, #1064]
	mov	w9, wzr
	mov	w22, #1
	stp	q1, q0, [x8, #256]
	ldp	q0, q2, [x8, #208]
	adds	x10, x10, #1
	add	w11, w11, #3
	csinv	x10, x10, xzr, lo
	cmp	w11, #255
	stp	q0, q2, [x8, #224]
	ldp	q2, q1, [x8, #176]
	and	x13, x10, #0xff
	csel	w11, w11, w12, lo
	strb	w11, [x24, x13]
	stp	q2, q1, [x8, #192]
	ldp	q1, q0, [x8, #144]
	stp	q1, q0, [x8, #160]
	ldp	q2, q0, [x8, #112]
	stp	q2, q0, [x8, #128]
	ldp	q1, q0, [x8, #80]
	stp	q1, q0, [x8, #96]
	ldp	q2, q0, [x8, #48]
	stp	q2, q0, [x8, #64]
	ldur	q0, [x8, #32]
	stp	x10, x20, [x8, #32]
	mov	w10, #1
	str	q0, [x8, #48]
	b	Lh3q_BB111_229
Lh3q_BB111_183:
	mov	x0, x22
	mov	x1, x21
	mov	x2, x20
	bl	"_qpack_encoding::choosing::Chooser::is_let_go"
	tbz	w0, #0, Lh3q_BB111_191
	mov	w10, wzr
	mov	x20, xzr
	mov	w9, wzr
	mov	w22, wzr
	b	Lh3q_BB111_229
Lh3q_BB111_185:
	cmp	x9, x10
	b.hs	Lh3q_BB111_191
	mov	x0, x8
	mov	x1, x21
	mov	x2, x22
	mov	x3, x23
	mov	w4, #1
	mov	x5, x20
	mov	w22, #1
	bl	"_qpack_encoding::choosing::Chooser::can_insert"
	cbz	w0, Lh3q_BB111_71
	lsr	x9, x27, #61
	lsl	x10, x27, #3
	ldr	x8, [x26, #1072]
	cmp	x9, #0
	csinv	x9, x10, xzr, eq
	cmp	x9, x8
	b.hi	Lh3q_BB111_71
	subs	x8, x8, x27
	b.hs	Lh3q_BB111_206
	ldr	x8, [x26, #1080]
	ldr	x9, [x26, #1096]
	ldr	x10, [x26, #1088]
	adds	x8, x27, x8
	csinv	x8, x8, xzr, lo
	cmp	x9, #1
	b.ne	Lh3q_BB111_210
	mov	w9, #11
	mov	x11, #17873
	mul	x9, x10, x9
	movk	x11, #23831, lsl #16
	movk	x11, #53620, lsl #32
	movk	x11, #5957, lsl #48
	cmp	x10, x11
	mov	x10, #1152921504606846975
	lsr	x9, x9, #4
	csel	x9, x10, x9, hi
	b	Lh3q_BB111_211
Lh3q_BB111_191:
	mov	w10, wzr
	mov	w9, wzr
	mov	w22, #1
	b	Lh3q_BB111_229
Lh3q_BB111_192:
	ldr	w26, [sp, #16]
	str	x9, [x1, #1072]
	b	Lh3q_BB111_198
Lh3q_BB111_193:
	ldrb	w12, [x28, #1065]
	add	x11, x28, w11, uxtb
	mov	w10, wzr
	mov	x9, xzr
	mov	w8, wzr
	cmp	w12, #0
	cset	w13, ne
	sub	w12, w12, w13
	mov	w13, #1
	strb	w12, [x28, #1065]
	strb	w13, [x11, #808]
	mov	w11, #3
	b	Lh3q_BB111_181
Lh3q_BB111_194:
	lsr	x11, x10, #62
	lsl	x10, x10, #2
	cmp	x11, #0
	mov	x11, #3689348814741910323
	csinv	x10, x10, xzr, eq
	cmp	x9, x11
	csel	x9, x9, x11, lo
	add	x9, x9, x9, lsl #2
	cmp	x9, #1
	csinc	x9, x9, xzr, hi
	udiv	x9, x10, x9
Lh3q_BB111_195:
	ldr	w26, [sp, #16]
	cmp	x9, x8
	b.hs	Lh3q_BB111_197
	mov	w8, wzr
	b	Lh3q_BB111_179
Lh3q_BB111_197:
	str	x8, [x1, #1080]
Lh3q_BB111_198:
	ldr	x9, [x2]
	ldr	x8, [x9, #40]
	adds	x8, x8, #1
	csinv	x8, x8, xzr, lo
	cmp	w26, #3
	b.eq	Lh3q_BB111_201
	cmp	w26, #2
	b.ne	Lh3q_BB111_202
	add	x8, x1, w8, uxtb
	strb	wzr, [x8, #808]
	mov	w8, #1
	b	Lh3q_BB111_179
Lh3q_BB111_201:
	ldrb	w9, [x1, #1065]
	add	x11, x1, w8, uxtb
	mov	w8, #1
	cmp	w9, #0
	strb	w8, [x11, #808]
	cset	w10, ne
	sub	w9, w9, w10
	strb	w9, [x1, #1065]
	b	Lh3q_BB111_179
Lh3q_BB111_202:
	ldr	x10, [x9, #88]
	ldr	x9, [x9, #176]
	cmp	x9, x10
	add	x9, x1, #808
	b.hs	Lh3q_BB111_204
	ldrb	w10, [x1, #1064]
	mov	w11, #255
	and	x8, x8, #0xff
	add	w10, w10, #3
	cmp	w10, #255
	csel	w10, w10, w11, lo
	b	Lh3q_BB111_205
Lh3q_BB111_204:
	and	x8, x8, #0xff
	mov	w10, #2
Lh3q_BB111_205:
	strb	w10, [x9, x8]
	mov	w8, #1
	b	Lh3q_BB111_179
Lh3q_BB111_206:
	str	x8, [x26, #1072]
	b	Lh3q_BB111_213
Lh3q_BB111_207:
	ldr	x8, [x11, #8]
	cbz	x8, Lh3q_BB111_220
	str	x24, [sp]
	ldr	x24, [x11, #240]
	mov	x1, x23
	mov	x2, x22
	mov	x20, x11
	mov	x0, x24
	bl	"_qpack_table::dynamic::index::hash::hash_name"
	stp	xzr, xzr, [sp, #152]
	mov	x1, x20
Lh3q_loh240:
	adrp	x8, l_static.5@PAGE
Lh3q_loh241:
	add	x8, x8, l_static.5@PAGEOFF
	str	w0, [sp, #160]
	add	x0, x20, #216
	ldr	x20, [sp, #8]
	add	x3, sp, #104
	add	x4, sp, #96
	stp	xzr, x24, [sp, #104]
	mov	x2, x20
	stp	x23, x22, [sp, #120]
	stp	x8, xzr, [sp, #136]
	bl	"_qpack_table::dynamic::index::row::Row::search::<#e26e38abbd2828ef>"
	tst	w0, #0xff
	b.eq	Lh3q_BB111_216
	mov	w9, wzr
	mov	x8, xzr
	mov	x11, x26
	b	Lh3q_BB111_217
Lh3q_BB111_210:
	lsr	x11, x10, #62
	lsl	x10, x10, #2
	cmp	x11, #0
	mov	x11, #3689348814741910323
	csinv	x10, x10, xzr, eq
	cmp	x9, x11
	csel	x9, x9, x11, lo
	add	x9, x9, x9, lsl #2
	cmp	x9, #1
	csinc	x9, x9, xzr, hi
	udiv	x9, x10, x9
Lh3q_BB111_211:
	cmp	x9, x8
	b.lo	Lh3q_BB111_71
	str	x8, [x26, #1080]
Lh3q_BB111_213:
	ldr	x8, [x25]
	ldrb	w9, [x26, #1064]
	mov	w11, #255
	mov	w10, wzr
	mov	x20, xzr
	mov	w22, wzr
	ldr	x8, [x8, #40]
	add	w9, w9, #3
	adds	x8, x8, #1
	csinv	x8, x8, xzr, lo
	cmp	w9, #255
	and	x8, x8, #0xff
	csel	w9, w9, w11, lo
	strb	w9, [x24, x8]
	mov	w9, #1
	b	Lh3q_BB111_229
Lh3q_BB111_214:
	ldur	x8, [x26, #216]
	mvn	w9, w22
	mov	x11, x26
	mov	x24, x20
	add	x8, x8, x1, lsl #3
	mov	x1, x25
	ldr	w8, [x8, #4]
	add	w8, w9, w8
	mov	w9, #1
	add	x8, x22, x8
	add	x8, x8, #1
Lh3q_BB111_215:
	ldr	x3, [sp, #16]
	b	Lh3q_BB111_218
Lh3q_BB111_216:
	ldur	x8, [x26, #216]
	mvn	w9, w20
	mov	x11, x26
	add	x8, x8, x1, lsl #3
	ldr	w8, [x8, #4]
	add	w8, w9, w8
	mov	w9, #1
	add	x8, x20, x8
	add	x8, x8, #1
Lh3q_BB111_217:
	ldr	x3, [sp, #16]
	ldr	x24, [sp]
	mov	x1, x25
Lh3q_BB111_218:
	mov	x2, x21
	mov	x5, x28
	cmp	w9, #1
	b.ne	Lh3q_BB111_220
	ldr	x9, [x1]
	cmp	x8, x9
	b.hi	Lh3q_BB111_128
Lh3q_BB111_220:
	mov	w9, #3
	b	Lh3q_BB111_163
Lh3q_BB111_221:
	ldr	x9, [x10, #256]
	mov	x1, x10
	cmp	x9, x21
	b.ne	Lh3q_BB111_223
	add	x9, x10, #256
	b	Lh3q_BB111_28
Lh3q_BB111_223:
	ldr	x9, [x10, #272]
	cmp	x9, x21
	b.ne	Lh3q_BB111_225
	add	x9, x1, #272
	b	Lh3q_BB111_28
Lh3q_BB111_225:
	ldrb	w8, [x5, #40]
	cmp	w8, #1
	b.ne	Lh3q_BB111_227
	mov	x8, xzr
	b	Lh3q_BB111_228
Lh3q_BB111_227:
	ldr	x8, [x3, #8]
Lh3q_BB111_228:
	ldr	x9, [x3, #24]
	add	x0, sp, #24
	mov	x4, x5
	mov	w5, wzr
	adds	x8, x8, x9
	ldr	x9, [x1, #1088]
	csinv	x8, x8, xzr, lo
	adds	x8, x8, x9
	csinv	x8, x8, xzr, lo
	str	x8, [x1, #1088]
	bl	"_qpack_encoding::choosing::Chooser::choose_literal"
	ldrb	w22, [sp, #24]
	ldrb	w9, [sp, #25]
	ldr	x20, [sp, #32]
	ldrb	w10, [sp, #40]
Lh3q_BB111_229:
	strb	w22, [x19]
	strb	w9, [x19, #1]
	str	x20, [x19, #8]
Lh3q_BB111_230:
	strb	w10, [x19, #16]
	ldp	x29, x30, [sp, #256]
	ldp	x20, x19, [sp, #240]
	ldp	x22, x21, [sp, #224]
	ldp	x24, x23, [sp, #208]
	ldp	x26, x25, [sp, #192]
	ldp	x28, x27, [sp, #176]
	add	sp, sp, #272
	ret
	.loh AdrpAdd	Lh3q_loh236, Lh3q_loh237
	.loh AdrpAdd	Lh3q_loh234, Lh3q_loh235
	.loh AdrpAdd	Lh3q_loh232, Lh3q_loh233
	.loh AdrpAdd	Lh3q_loh230, Lh3q_loh231
	.loh AdrpAdd	Lh3q_loh238, Lh3q_loh239
	.loh AdrpAdd	Lh3q_loh240, Lh3q_loh241

	.p2align	2
"_qpack_encoding::choosing::Chooser::can_insert":
	stp	x26, x25, [sp, #-80]!
	adds	x8, x3, x2
	stp	x20, x19, [sp, #48]
	ldr	x19, [x1, #64]
	csinv	x8, x8, xzr, lo
	stp	x22, x21, [sp, #32]
	adds	x8, x8, #32
	stp	x24, x23, [sp, #16]
	csinv	x21, x8, xzr, lo
	stp	x29, x30, [sp, #64]
	add	x29, sp, #64
	subs	x8, x19, x21
	b.hs	Lh3q_BB112_3
	mov	w0, wzr
Lh3q_BB112_2:
	ldp	x29, x30, [sp, #64]
	ldp	x20, x19, [sp, #48]
	ldp	x22, x21, [sp, #32]
	ldp	x24, x23, [sp, #16]
	ldp	x26, x25, [sp], #80
	ret
Lh3q_BB112_3:
	ldr	x22, [x1, #40]
	lsr	x9, x22, #62
	cbnz	x9, Lh3q_BB112_21
	mov	x24, x0
	mov	x23, x1
	mov	x0, x1
	mov	x1, x8
	mov	x25, x5
	mov	w20, w4
	bl	"_qpack_table::dynamic::table::DynamicTable::evictable_count::<#f1ee30144fd2ee58>"
	and	w8, w0, #0xff
	cmp	w8, #1
	b.ne	Lh3q_BB112_21
	cmp	x19, #2047
	b.hi	Lh3q_BB112_22
	ldr	x10, [x23, #48]
	subs	x11, x10, x22
	b.hs	Lh3q_BB112_22
	ldr	x15, [x23, #56]
	sub	x16, x10, x25
	mov	x8, x24
	mov	x9, x23
	mov	x12, xzr
	mov	x13, xzr
	adds	x15, x21, x15
	add	x14, x24, #808
	add	x16, x16, #1
	csinv	x15, x15, xzr, lo
	mov	w17, w20
	b	Lh3q_BB112_11
Lh3q_BB112_8:
	ldrb	w2, [x0, #29]
Lh3q_loh242:
	adrp	x3, l_static.3@PAGE
Lh3q_loh243:
	add	x3, x3, l_static.3@PAGEOFF
Lh3q_loh244:
	adrp	x4, l_static.2@PAGE
Lh3q_loh245:
	add	x4, x4, l_static.2@PAGEOFF
Lh3q_loh246:
	adrp	x6, l_static.1@PAGE
Lh3q_loh247:
	add	x6, x6, l_static.1@PAGEOFF
	lsl	x5, x2, #5
	cmp	w2, #74
	add	x3, x3, x5
	add	x4, x4, x5
	add	x5, x6, x2, lsl #5
Lh3q_loh248:
	adrp	x6, l_static.0@PAGE
Lh3q_loh249:
	add	x6, x6, l_static.0@PAGEOFF
	sub	x3, x3, #2392
	sub	x4, x4, #1592
	add	x6, x6, x2, lsl #5
	csel	x3, x3, x4, hi
	sub	x4, x5, #792
	cmp	w2, #49
	csel	x3, x3, x4, hi
	add	x4, x6, #8
	cmp	w2, #24
	csel	x2, x3, x4, hi
	ldr	x2, [x2]
Lh3q_BB112_9:
	ldr	x0, [x0, #8]
	sub	x0, x0, x1
	adds	x0, x0, x2
	csinv	x0, x0, xzr, lo
	adds	x0, x0, #32
	csinv	x0, x0, xzr, lo
	subs	x15, x15, x0
	csel	x15, xzr, x15, lo
Lh3q_BB112_10:
	add	x13, x13, #1
	add	x12, x12, #48
	mov	w0, #1
	cmn	x11, x13
	b.eq	Lh3q_BB112_2
Lh3q_BB112_11:
	cmp	x15, x19
	b.ls	Lh3q_BB112_22
	tst	w17, #0xff
	add	x0, x10, x13
	b.eq	Lh3q_BB112_14
	add	x1, x16, x13
	cbz	x1, Lh3q_BB112_16
Lh3q_BB112_14:
	add	x1, x0, #1
	and	x1, x1, #0xff
	ldrb	w1, [x14, x1]
	subs	w2, w1, #3
	b.lo	Lh3q_BB112_16
	ldrb	w3, [x8, #1064]
	cmp	w3, w2, uxtb
	csel	w1, w1, w2, lo
	sub	w1, w3, w1
	and	w1, w1, #0xff
	cmp	w1, #3
	b.lo	Lh3q_BB112_21
Lh3q_BB112_16:
	cmp	x0, x10
	b.lo	Lh3q_BB112_10
	ldr	x1, [x9, #8]
	cmp	x1, x13
	b.ls	Lh3q_BB112_10
	ldr	x2, [x9, #32]
	ldr	x0, [x9]
	sub	x3, x1, x2
	cmp	x13, x3
	b.hs	Lh3q_BB112_20
	ldr	x1, [x9, #24]
	mov	w2, #48
	madd	x0, x1, x2, x0
	add	x0, x0, x12
	ldrb	w2, [x0, #28]
	ldr	w1, [x0, #24]
	cmp	w2, #1
	mov	x2, x1
	b.ne	Lh3q_BB112_9
	b	Lh3q_BB112_8
Lh3q_BB112_20:
	sub	x1, x2, x1
	mov	w2, #48
	add	x1, x13, x1
	madd	x0, x1, x2, x0
	ldrb	w2, [x0, #28]
	ldr	w1, [x0, #24]
	cmp	w2, #1
	mov	x2, x1
	b.ne	Lh3q_BB112_9
	b	Lh3q_BB112_8
Lh3q_BB112_21:
	mov	w0, wzr
	ldp	x29, x30, [sp, #64]
	ldp	x20, x19, [sp, #48]
	ldp	x22, x21, [sp, #32]
	ldp	x24, x23, [sp, #16]
	ldp	x26, x25, [sp], #80
	ret
Lh3q_BB112_22:
	mov	w0, #1
	ldp	x29, x30, [sp, #64]
	ldp	x20, x19, [sp, #48]
	ldp	x22, x21, [sp, #32]
	ldp	x24, x23, [sp, #16]
	ldp	x26, x25, [sp], #80
	ret
	.loh AdrpAdd	Lh3q_loh248, Lh3q_loh249
	.loh AdrpAdd	Lh3q_loh246, Lh3q_loh247
	.loh AdrpAdd	Lh3q_loh244, Lh3q_loh245
	.loh AdrpAdd	Lh3q_loh242, Lh3q_loh243

	.p2align	2
"_qpack_table::dynamic::encoder::DynamicTableEncoder::is_equal::<#998670d21b39cbf5>":
	ldr	x8, [x0, #48]
	cmp	x1, x8
	b.ls	Lh3q_BB113_4
	mvn	x8, x8
	ldr	x9, [x0, #8]
	add	x8, x1, x8
	cmp	x9, x8
	b.ls	Lh3q_BB113_4
	ldr	x10, [x0, #32]
	sub	x10, x9, x10
	ldr	x9, [x0]
	subs	x10, x8, x10
	b.hs	Lh3q_BB113_5
	ldr	x10, [x0, #24]
	mov	w11, #48
	madd	x9, x10, x11, x9
	madd	x8, x8, x11, x9
	b	Lh3q_BB113_6
Lh3q_BB113_4:
	mov	w0, wzr
	ret
Lh3q_BB113_5:
	mov	w8, #48
	madd	x8, x10, x8, x9
Lh3q_BB113_6:
	stp	x22, x21, [sp, #-48]!
	stp	x20, x19, [sp, #16]
	ldp	x19, x10, [x8]
	ldrb	w9, [x8, #28]
	ldr	w1, [x8, #24]
	stp	x29, x30, [sp, #32]
	add	x29, sp, #32
	cmp	w9, #1
	sub	x20, x10, x1
	b.ne	Lh3q_BB113_8
	ldrb	w8, [x8, #29]
Lh3q_loh250:
	adrp	x9, l_static.3@PAGE
Lh3q_loh251:
	add	x9, x9, l_static.3@PAGEOFF
Lh3q_loh252:
	adrp	x10, l_static.2@PAGE
Lh3q_loh253:
	add	x10, x10, l_static.2@PAGEOFF
Lh3q_loh254:
	adrp	x12, l_static.1@PAGE
Lh3q_loh255:
	add	x12, x12, l_static.1@PAGEOFF
	lsl	x11, x8, #5
	cmp	w8, #74
	add	x9, x9, x11
	add	x10, x10, x11
	add	x11, x12, x8, lsl #5
	sub	x12, x9, #2400
	sub	x13, x10, #1600
	sub	x9, x9, #2392
	sub	x10, x10, #1592
	csel	x12, x12, x13, hi
	sub	x13, x11, #800
	csel	x9, x9, x10, hi
Lh3q_loh256:
	adrp	x10, l_static.0@PAGE
Lh3q_loh257:
	add	x10, x10, l_static.0@PAGEOFF
	add	x10, x10, x8, lsl #5
	cmp	w8, #49
	sub	x11, x11, #792
	csel	x12, x12, x13, hi
	csel	x9, x9, x11, hi
	cmp	w8, #24
	add	x11, x10, #8
	csel	x8, x12, x10, hi
	csel	x9, x9, x11, hi
	ldr	x0, [x8]
	ldr	x1, [x9]
	b	Lh3q_BB113_9
Lh3q_BB113_8:
	add	x0, x19, x20
Lh3q_BB113_9:
	ldp	x8, x3, [x2]
	mov	x21, x2
	mov	x2, x8
	bl	"_qpack_table::dynamic::comparing::compare_bytes"
	and	w8, w0, #0xff
	cmp	w8, #1
	b.ne	Lh3q_BB113_11
	ldp	x2, x3, [x21, #16]
	mov	x0, x19
	mov	x1, x20
	bl	"_qpack_table::dynamic::comparing::compare_bytes"
	and	w8, w0, #0xff
	cmp	w8, #1
	cset	w0, eq
	ldp	x29, x30, [sp, #32]
	ldp	x20, x19, [sp, #16]
	ldp	x22, x21, [sp], #48
	ret
Lh3q_BB113_11:
	mov	w0, wzr
	ldp	x29, x30, [sp, #32]
	ldp	x20, x19, [sp, #16]
	ldp	x22, x21, [sp], #48
	ret
	.loh AdrpAdd	Lh3q_loh256, Lh3q_loh257
	.loh AdrpAdd	Lh3q_loh254, Lh3q_loh255
	.loh AdrpAdd	Lh3q_loh252, Lh3q_loh253
	.loh AdrpAdd	Lh3q_loh250, Lh3q_loh251

	.p2align	2
"_qpack_encoding::choosing::Chooser::raise":
	ldrb	w8, [x2]
	cmp	w8, #1
	b.ne	Lh3q_BB114_8
	ldr	x8, [x2, #8]
	cbz	x8, Lh3q_BB114_23
	mov	x9, #25647
	ldp	x11, x10, [x1]
	movk	x9, #30909, lsl #16
	mov	x8, #10459
	movk	x9, #7524, lsl #32
	movk	x8, #41140, lsl #16
	movk	x9, #41078, lsl #48
	movk	x8, #32465, lsl #32
	cmp	x10, #16
	movk	x8, #59139, lsl #48
	eor	x9, x10, x9
	b.lo	Lh3q_BB114_5
Lh3q_BB114_3:
	ldp	x12, x13, [x11]
	sub	x10, x10, #16
	cmp	x10, #15
	eor	x9, x12, x9
	eor	x12, x13, x8
	mul	x13, x12, x9
	umulh	x9, x12, x9
	add	x12, x11, #16
	mov	x11, x12
	eor	x9, x9, x13
	b.hi	Lh3q_BB114_3
	mov	x11, x12
Lh3q_BB114_5:
	cmp	x10, #7
	b.hi	Lh3q_BB114_19
	cmp	x10, #3
	b.ls	Lh3q_BB114_13
Lh3q_BB114_7:
	add	x10, x11, x10
	ldr	w11, [x11]
	ldur	w10, [x10, #-4]
	eor	x9, x9, x11
	b	Lh3q_BB114_20
Lh3q_BB114_8:
	mov	x9, #25647
	ldp	x11, x10, [x1]
	movk	x9, #30909, lsl #16
	mov	x8, #10459
	movk	x9, #7524, lsl #32
	movk	x8, #41140, lsl #16
	movk	x9, #41078, lsl #48
	movk	x8, #32465, lsl #32
	cmp	x10, #16
	movk	x8, #59139, lsl #48
	eor	x9, x10, x9
	b.lo	Lh3q_BB114_11
Lh3q_BB114_9:
	ldp	x12, x13, [x11]
	sub	x10, x10, #16
	cmp	x10, #15
	eor	x9, x12, x9
	eor	x12, x13, x8
	mul	x13, x12, x9
	umulh	x9, x12, x9
	add	x12, x11, #16
	mov	x11, x12
	eor	x9, x9, x13
	b.hi	Lh3q_BB114_9
	mov	x11, x12
Lh3q_BB114_11:
	cmp	x10, #7
	b.hi	Lh3q_BB114_19
	cmp	x10, #3
	b.hi	Lh3q_BB114_7
Lh3q_BB114_13:
	cbz	x10, Lh3q_BB114_18
	ldrb	w12, [x11]
	cmp	x10, #1
	b.eq	Lh3q_BB114_17
	ldrb	w13, [x11, #1]
	cmp	x10, #2
	orr	x12, x13, x12, lsl #8
	b.eq	Lh3q_BB114_17
	ldrb	w10, [x11, #2]
	orr	x12, x10, x12, lsl #8
Lh3q_BB114_17:
	eor	x9, x12, x9
Lh3q_BB114_18:
	mul	x10, x9, x8
	umulh	x8, x9, x8
	b	Lh3q_BB114_21
Lh3q_BB114_19:
	add	x10, x11, x10
	ldr	x11, [x11]
	ldur	x10, [x10, #-8]
	eor	x9, x11, x9
Lh3q_BB114_20:
	eor	x8, x10, x8
	mul	x10, x8, x9
	umulh	x8, x8, x9
Lh3q_BB114_21:
	eor	x8, x8, x10
	lsr	x8, x8, #32
Lh3q_BB114_22:
	ldr	x9, [x1, #24]
	mov	w10, #255
	cmp	x9, #128
	mov	w9, #128
	csel	w9, wzr, w9, lo
	add	w8, w9, w8, lsr #24
	add	x8, x0, w8, uxtb
	ldrb	w9, [x8, #552]
	add	w9, w9, #48
	cmp	w9, #255
	csel	w9, w9, w10, lo
	strb	w9, [x8, #552]
	ret
Lh3q_BB114_23:
	ldr	x8, [x2, #16]
	b	Lh3q_BB114_22

	.p2align	2
"_qpack_encoding::choosing::Chooser::is_let_go":
	ldr	x12, [x1, #64]
	cmp	x12, #2048
	b.lo	Lh3q_BB115_3
	ldrb	w8, [x0, #1104]
	cmp	w8, #32
	b.hi	Lh3q_BB115_3
	ldr	x8, [x0]
	cmp	x2, x8
	b.ls	Lh3q_BB115_5
Lh3q_BB115_3:
	mov	w0, wzr
Lh3q_BB115_4:
	ret
Lh3q_BB115_5:
	ldr	x8, [x1, #48]
	adds	x9, x8, #1
	csinv	x9, x9, xzr, lo
	cmp	x9, x2
	b.hs	Lh3q_BB115_16
	cmn	x8, #2
	mov	x10, #-2
	lsr	x12, x12, #3
	csel	x11, x8, x10, lo
	mov	w10, #48
	mov	x9, xzr
	mul	x13, x11, x10
	msub	x10, x8, x10, x13
	neg	x13, x8
Lh3q_BB115_7:
	add	x14, x11, #1
	mov	x15, x12
	cmp	x14, x8
	b.ls	Lh3q_BB115_14
	ldr	x16, [x1, #8]
	add	x17, x13, x11
	mov	x15, x12
	cmp	x16, x17
	b.ls	Lh3q_BB115_14
	ldr	x0, [x1, #32]
	ldr	x15, [x1]
	sub	x3, x16, x0
	cmp	x17, x3
	b.hs	Lh3q_BB115_11
	ldr	x16, [x1, #24]
	mov	w17, #48
	madd	x15, x16, x17, x15
	add	x15, x15, x10
	ldrb	w17, [x15, #28]
	ldr	w16, [x15, #24]
	cmp	w17, #1
	mov	x17, x16
	b.eq	Lh3q_BB115_12
	b	Lh3q_BB115_13
Lh3q_BB115_11:
	sub	x16, x0, x16
	add	x17, x13, x11
	add	x16, x17, x16
	mov	w17, #48
	madd	x15, x16, x17, x15
	ldrb	w17, [x15, #28]
	ldr	w16, [x15, #24]
	cmp	w17, #1
	mov	x17, x16
	b.ne	Lh3q_BB115_13
Lh3q_BB115_12:
	ldrb	w17, [x15, #29]
Lh3q_loh258:
	adrp	x0, l_static.3@PAGE
Lh3q_loh259:
	add	x0, x0, l_static.3@PAGEOFF
Lh3q_loh260:
	adrp	x3, l_static.2@PAGE
Lh3q_loh261:
	add	x3, x3, l_static.2@PAGEOFF
Lh3q_loh262:
	adrp	x5, l_static.1@PAGE
Lh3q_loh263:
	add	x5, x5, l_static.1@PAGEOFF
	lsl	x4, x17, #5
	cmp	w17, #74
	add	x0, x0, x4
	add	x3, x3, x4
	add	x4, x5, x17, lsl #5
Lh3q_loh264:
	adrp	x5, l_static.0@PAGE
Lh3q_loh265:
	add	x5, x5, l_static.0@PAGEOFF
	sub	x0, x0, #2392
	sub	x3, x3, #1592
	add	x5, x5, x17, lsl #5
	csel	x0, x0, x3, hi
	sub	x3, x4, #792
	cmp	w17, #49
	csel	x0, x0, x3, hi
	add	x3, x5, #8
	cmp	w17, #24
	csel	x17, x0, x3, hi
	ldr	x17, [x17]
Lh3q_BB115_13:
	ldr	x15, [x15, #8]
	sub	x15, x15, x16
	adds	x15, x15, x17
	csinv	x15, x15, xzr, lo
	adds	x15, x15, #32
	csinv	x15, x15, xzr, lo
Lh3q_BB115_14:
	adds	x9, x15, x9
	csinv	x9, x9, xzr, lo
	cmp	x12, x9
	cset	w0, hi
	b.ls	Lh3q_BB115_4
	add	x11, x11, #2
	add	x10, x10, #48
	cmp	x11, x2
	mov	x11, x14
	b.lo	Lh3q_BB115_7
	b	Lh3q_BB115_4
Lh3q_BB115_16:
	mov	w0, #1
	ret
	.loh AdrpAdd	Lh3q_loh264, Lh3q_loh265
	.loh AdrpAdd	Lh3q_loh262, Lh3q_loh263
	.loh AdrpAdd	Lh3q_loh260, Lh3q_loh261
	.loh AdrpAdd	Lh3q_loh258, Lh3q_loh259

	.p2align	2
"_qpack_encoding::choosing::Chooser::choose_literal":
	sub	sp, sp, #160
	ldrb	w8, [x4, #40]
	stp	x20, x19, [sp, #128]
	mov	w20, w5
	mov	x19, x0
	stp	x26, x25, [sp, #80]
	cmp	w8, #1
	stp	x24, x23, [sp, #96]
	stp	x22, x21, [sp, #112]
	stp	x29, x30, [sp, #144]
	add	x29, sp, #144
	b.eq	Lh3q_BB116_12
	ldr	x22, [x2]
	ldrb	w9, [x4]
	mov	x21, x1
	ldp	x25, x24, [x3]
	ldr	x8, [x4, #8]
	ldr	x23, [x22, #48]
	cmp	w9, #1
	ldr	w0, [x4, #16]
	str	xzr, [sp, #8]
	b.ne	Lh3q_BB116_3
	ldr	x26, [x22, #240]
	cmp	x8, x26
	b.ne	Lh3q_BB116_5
	b	Lh3q_BB116_6
Lh3q_BB116_3:
	ldr	x8, [x22, #8]
	cbz	x8, Lh3q_BB116_12
	ldr	x26, [x22, #240]
Lh3q_BB116_5:
	mov	x0, x26
	mov	x1, x25
	mov	x2, x24
	bl	"_qpack_table::dynamic::index::hash::hash_name"
Lh3q_BB116_6:
	stp	xzr, xzr, [sp, #64]
Lh3q_loh266:
	adrp	x8, l_static.5@PAGE
Lh3q_loh267:
	add	x8, x8, l_static.5@PAGEOFF
	str	w0, [sp, #72]
	add	x0, x22, #216
	add	x3, sp, #16
	add	x4, sp, #8
	mov	x1, x22
	mov	x2, x23
	stp	xzr, x26, [sp, #16]
	stp	x25, x24, [sp, #32]
	stp	x8, xzr, [sp, #48]
	bl	"_qpack_table::dynamic::index::row::Row::search::<#e26e38abbd2828ef>"
	tst	w0, #0xff
	b.eq	Lh3q_BB116_8
	mov	x23, xzr
	b	Lh3q_BB116_12
Lh3q_BB116_8:
	ldur	x8, [x22, #216]
	mvn	w9, w23
	add	x8, x8, x1, lsl #3
	ldr	w8, [x8, #4]
	add	w8, w9, w8
	add	x8, x23, x8
	add	x23, x8, #1
	mov	w8, #1
	cbz	w8, Lh3q_BB116_12
	ldr	x8, [x22, #88]
	ldr	x9, [x22, #176]
	cmp	x9, x8
	b.lo	Lh3q_BB116_11
	ldr	x8, [x22, #96]
	cmp	x23, x8
	b.hi	Lh3q_BB116_12
Lh3q_BB116_11:
	mov	x0, x21
	mov	x1, x22
	mov	x2, x23
	bl	"_qpack_encoding::choosing::Chooser::is_let_go"
	cbz	w0, Lh3q_BB116_14
Lh3q_BB116_12:
	strb	wzr, [x19]
	strb	w20, [x19, #1]
Lh3q_BB116_13:
	str	xzr, [x19, #8]
	ldp	x29, x30, [sp, #144]
	strb	wzr, [x19, #16]
	ldp	x20, x19, [sp, #128]
	ldp	x22, x21, [sp, #112]
	ldp	x24, x23, [sp, #96]
	ldp	x26, x25, [sp, #80]
	add	sp, sp, #160
	ret
Lh3q_BB116_14:
	add	x8, x21, #808
	and	x9, x23, #0xff
	ldrb	w10, [x8, x9]
	cmp	w10, #2
	b.hi	Lh3q_BB116_17
	cmp	w10, #1
	b.ne	Lh3q_BB116_18
	ldrb	w10, [x21, #1065]
	mov	w12, #2
	strb	wzr, [x8, x9]
	add	w11, w10, #1
	cmp	w11, #2
	csinc	w10, w12, w10, hs
	strb	w10, [x21, #1065]
	b	Lh3q_BB116_18
Lh3q_BB116_17:
	ldrb	w10, [x21, #1064]
	mov	w11, #255
	add	w10, w10, #3
	cmp	w10, #255
	csel	w10, w10, w11, lo
	strb	w10, [x8, x9]
Lh3q_BB116_18:
	mov	w8, #2
	strb	w20, [x19, #1]
	strb	w8, [x19]
	b	Lh3q_BB116_13
	.loh AdrpAdd	Lh3q_loh266, Lh3q_loh267

	.p2align	2
"_qpack_table::dynamic::table::DynamicTable::insertion_of::<#998670d21b39cbf5>":
	sub	sp, sp, #176
	stp	x26, x25, [sp, #96]
	ldrb	w8, [x4, #24]
	stp	x20, x19, [sp, #144]
	ldp	x26, x19, [x1, #40]
	stp	x24, x23, [sp, #112]
	stp	x28, x27, [sp, #80]
	subs	x9, x26, x2
	add	x24, x26, #1
	stp	x22, x21, [sp, #128]
	csel	x25, xzr, x9, lo
	cmp	w8, #1
	stp	x29, x30, [sp, #160]
	add	x29, sp, #160
	b.ne	Lh3q_BB117_3
	ldr	x8, [x4, #32]
	cmp	x19, x8
	b.hs	Lh3q_BB117_3
	mov	w9, #1
	sub	x8, x26, x8
	stp	x25, x24, [x0, #16]
	stp	x9, x8, [x0]
	b	Lh3q_BB117_18
Lh3q_BB117_3:
	ldrb	w8, [x4, #40]
	cmp	w8, #1
	b.ne	Lh3q_BB117_5
	ldr	x9, [x4, #48]
	mov	w8, #3
	stp	x8, x25, [x0]
	stp	x9, x24, [x0, #16]
	b	Lh3q_BB117_18
Lh3q_BB117_5:
	ldrb	w10, [x4]
	ldp	x21, x20, [x3]
	ldr	x9, [x4, #8]
	ldr	w8, [x4, #16]
	str	xzr, [sp, #8]
	cmp	w10, #1
	b.ne	Lh3q_BB117_10
	ldr	x22, [x1, #240]
	mov	x23, x0
	cmp	x9, x22
	b.eq	Lh3q_BB117_8
	mov	x0, x22
	mov	x27, x1
	mov	x1, x21
	mov	x2, x20
	bl	"_qpack_table::dynamic::index::hash::hash_name"
	mov	x1, x27
	mov	w8, w0
Lh3q_BB117_8:
Lh3q_loh268:
	adrp	x9, l_static.5@PAGE
Lh3q_loh269:
	add	x9, x9, l_static.5@PAGEOFF
	add	x0, x1, #216
	add	x3, sp, #16
	add	x4, sp, #8
	mov	x2, x19
	stp	xzr, x22, [sp, #16]
	stp	x21, x20, [sp, #32]
	mov	x20, x1
	stp	xzr, xzr, [sp, #64]
	stp	x9, xzr, [sp, #48]
	str	w8, [sp, #72]
	bl	"_qpack_table::dynamic::index::row::Row::search::<#e26e38abbd2828ef>"
	tst	w0, #0xff
	b.eq	Lh3q_BB117_13
	mov	w9, wzr
	mov	x8, xzr
	mov	x0, x23
	b	Lh3q_BB117_17
Lh3q_BB117_10:
	ldr	x8, [x1, #8]
	cbz	x8, Lh3q_BB117_14
	ldr	x22, [x1, #240]
	mov	x27, x0
	mov	x23, x1
	mov	x1, x21
	mov	x2, x20
	mov	x0, x22
	bl	"_qpack_table::dynamic::index::hash::hash_name"
	stp	xzr, xzr, [sp, #64]
Lh3q_loh270:
	adrp	x8, l_static.5@PAGE
Lh3q_loh271:
	add	x8, x8, l_static.5@PAGEOFF
	str	w0, [sp, #72]
	add	x0, x23, #216
	add	x3, sp, #16
	add	x4, sp, #8
	mov	x1, x23
	mov	x2, x19
	stp	xzr, x22, [sp, #16]
	stp	x21, x20, [sp, #32]
	mov	x20, x23
	stp	x8, xzr, [sp, #48]
	bl	"_qpack_table::dynamic::index::row::Row::search::<#e26e38abbd2828ef>"
	tst	w0, #0xff
	b.eq	Lh3q_BB117_15
	mov	w9, wzr
	mov	x8, xzr
	b	Lh3q_BB117_16
Lh3q_BB117_13:
	ldur	x8, [x20, #216]
	mvn	w9, w19
	mov	x0, x23
	add	x8, x8, x1, lsl #3
	ldr	w8, [x8, #4]
	add	w8, w9, w8
	mov	w9, #1
	add	x8, x19, x8
	add	x8, x8, #1
	b	Lh3q_BB117_17
Lh3q_BB117_14:
	mov	w9, wzr
	b	Lh3q_BB117_17
Lh3q_BB117_15:
	ldur	x8, [x20, #216]
	mvn	w9, w19
	add	x8, x8, x1, lsl #3
	ldr	w8, [x8, #4]
	add	w8, w9, w8
	mov	w9, #1
	add	x8, x19, x8
	add	x8, x8, #1
Lh3q_BB117_16:
	mov	x0, x27
Lh3q_BB117_17:
	cmp	x19, x8
	mov	w11, #2
	sub	x8, x26, x8
	cset	w10, lo
	tst	w9, w10
	csel	x9, x11, xzr, ne
	csel	x8, x8, x24, ne
	stp	x9, x25, [x0]
	csel	x9, x24, xzr, ne
	stp	x8, x9, [x0, #16]
Lh3q_BB117_18:
	ldp	x29, x30, [sp, #160]
	ldp	x20, x19, [sp, #144]
	ldp	x22, x21, [sp, #128]
	ldp	x24, x23, [sp, #112]
	ldp	x26, x25, [sp, #96]
	ldp	x28, x27, [sp, #80]
	add	sp, sp, #176
	ret
	.loh AdrpAdd	Lh3q_loh268, Lh3q_loh269
	.loh AdrpAdd	Lh3q_loh270, Lh3q_loh271

	.p2align	2
"_qpack_table::dynamic::index::row::Row::grow":
	ldp	x8, x9, [x0, #8]
	mov	w10, #4
	lsr	x11, x8, #2
	cmp	x11, #4
	csel	x10, x11, x10, hi
	sub	x11, x9, x8
	cmp	x10, x11
	b.ls	Lh3q_BB118_3
	cmn	x8, x10
	b.lo	Lh3q_BB118_4
	mov	w0, #1
	ret
Lh3q_BB118_3:
	mov	w0, wzr
	ret
Lh3q_BB118_4:
	stp	x20, x19, [sp, #-32]!
	add	x19, x10, x8
	stp	x29, x30, [sp, #16]
	add	x29, sp, #16
	lsr	x10, x19, #60
	cbnz	x10, Lh3q_BB118_9
	cbz	x9, Lh3q_BB118_8
	mov	x20, x0
	ldr	x0, [x0]
	lsl	x1, x8, #3
	lsl	x2, x19, #3
	mov	w3, #4
	bl	_rattle_realloc
	tbz	w0, #0, Lh3q_BB118_9
Lh3q_BB118_7:
	mov	w0, wzr
	str	x1, [x20]
	str	x19, [x20, #16]
	ldp	x29, x30, [sp, #16]
	ldp	x20, x19, [sp], #32
	ret
Lh3q_BB118_8:
	mov	x20, x0
	lsl	x0, x19, #3
	mov	w1, #4
	bl	_rattle_alloc
	tbnz	w0, #0, Lh3q_BB118_7
Lh3q_BB118_9:
	mov	w0, #1
	ldp	x29, x30, [sp, #16]
	ldp	x20, x19, [sp], #32
	ret

	.p2align	2
"_std_alloc::vec::Vec::grow_amortized::<#3bf946f3347a0964>":
	ldr	x8, [x0, #8]
	cmn	x8, #1
	b.eq	Lh3q_BB119_5
	stp	x20, x19, [sp, #-32]!
	ldr	x9, [x0, #16]
	cmp	x8, #3
	mov	w10, #3
	csel	x11, x8, x10, hi
	stp	x29, x30, [sp, #16]
	add	x29, sp, #16
	lsl	x10, x9, #1
	add	x12, x11, #1
	lsr	x13, x9, #62
	cmp	x12, x10
	csinc	x10, x10, x11, ls
	cmp	x13, #0
	csinc	x19, x10, x11, eq
	lsr	x11, x19, #60
	cbnz	x11, Lh3q_BB119_7
	cbz	x9, Lh3q_BB119_6
	mov	x20, x0
	ldr	x0, [x0]
	lsl	x1, x8, #3
	lsl	x2, x19, #3
	mov	w3, #4
	bl	_rattle_realloc
	tbz	w0, #0, Lh3q_BB119_7
Lh3q_BB119_4:
	mov	w0, #1
	str	x1, [x20]
	str	x19, [x20, #16]
	ldp	x29, x30, [sp, #16]
	ldp	x20, x19, [sp], #32
	ret
Lh3q_BB119_5:
	mov	w0, wzr
	ret
Lh3q_BB119_6:
	mov	x20, x0
	lsl	x0, x10, #3
	mov	w1, #4
	bl	_rattle_alloc
	tbnz	w0, #0, Lh3q_BB119_4
Lh3q_BB119_7:
	mov	w0, wzr
	ldp	x29, x30, [sp, #16]
	ldp	x20, x19, [sp], #32
	ret

	.section	__TEXT,__literal16,16byte_literals
	.p2align	4, 0x0
lh3q_CPI120_0:
	.quad	1
	.quad	0
	.section	__TEXT,__text,regular,pure_instructions
	.p2align	2
"_std_alloc::vec::Vec::put_at::<#3bf946f3347a0964>":
	ldp	x8, x9, [x0]
	cmn	x1, #1
	ldur	q0, [x0, #8]
	stp	xzr, xzr, [x0, #8]
	b.eq	Lh3q_BB120_4
	cmp	x9, x1
	b.eq	Lh3q_BB120_30
	sub	x11, x9, x1
	cmp	x11, #4
	b.hs	Lh3q_BB120_16
	mov	x10, xzr
	b	Lh3q_BB120_19
Lh3q_BB120_4:
	add	x11, x9, #1
	mov	x10, x8
	add	x15, x9, #1
	cmp	x11, #257
	b.lo	Lh3q_BB120_22
	mov	x12, xzr
	mov	x16, xzr
	add	x13, x8, #2008
	mov	x14, x8
	b	Lh3q_BB120_7
Lh3q_BB120_6:
	add	x16, x10, #256
	add	x12, x12, #1
	add	x13, x13, #2048
	sub	x15, x11, x16
	add	x14, x14, #2048
	cmp	x15, #256
	b.ls	Lh3q_BB120_12
Lh3q_BB120_7:
	mov	x10, x16
	cbz	x16, Lh3q_BB120_10
	mov	w15, #256
	mov	x16, x13
Lh3q_BB120_9:
	ldp	q2, q1, [x16]
	sub	x15, x15, #4
	stur	q1, [x16, #24]
	stur	q2, [x16, #8]
	sub	x16, x16, #32
	cbnz	x15, Lh3q_BB120_9
	b	Lh3q_BB120_6
Lh3q_BB120_10:
	add	x15, x8, x12, lsl #11
	ldur	x15, [x15, #-8]
Lh3q_BB120_11:
	str	x15, [x14, x16]
	add	x16, x16, #8
	cmp	x16, #2048
	b.ne	Lh3q_BB120_11
	b	Lh3q_BB120_6
Lh3q_BB120_12:
	cbz	x16, Lh3q_BB120_21
	cmp	x11, x16
	b.eq	Lh3q_BB120_30
	and	x11, x9, #0xff
	cmp	x11, #3
	b.hs	Lh3q_BB120_25
	mov	x11, xzr
	b	Lh3q_BB120_28
Lh3q_BB120_16:
	add	x12, x8, x9, lsl #3
	and	x10, x11, #0xfffffffffffffffc
	and	x13, x11, #0xfffffffffffffffc
	sub	x12, x12, #16
Lh3q_BB120_17:
	ldp	q2, q1, [x12, #-16]
	sub	x13, x13, #4
	stur	q1, [x12, #8]
	stur	q2, [x12, #-8]
	sub	x12, x12, #32
	cbnz	x13, Lh3q_BB120_17
	cmp	x11, x10
	b.eq	Lh3q_BB120_30
Lh3q_BB120_19:
	sub	x11, x8, x10, lsl #3
	add	x10, x10, x1
	add	x11, x11, x9, lsl #3
	sub	x9, x10, x9
	mov	x10, x11
Lh3q_BB120_20:
	ldr	x12, [x10, #-8]!
	adds	x9, x9, #1
	str	x12, [x11]
	mov	x11, x10
	b.lo	Lh3q_BB120_20
	b	Lh3q_BB120_30
Lh3q_BB120_21:
	add	x10, x8, x16, lsl #3
Lh3q_BB120_22:
	cbz	x11, Lh3q_BB120_30
	ldur	x9, [x10, #-8]
Lh3q_BB120_24:
	subs	x15, x15, #1
	str	x9, [x10], #8
	b.ne	Lh3q_BB120_24
	b	Lh3q_BB120_30
Lh3q_BB120_25:
	add	x13, x8, x9, lsl #3
	add	x12, x11, #1
	and	x11, x12, #0x1fc
	and	x14, x12, #0x1fc
	sub	x13, x13, #16
Lh3q_BB120_26:
	ldp	q2, q1, [x13, #-16]
	sub	x14, x14, #4
	stur	q1, [x13, #8]
	stur	q2, [x13, #-8]
	sub	x13, x13, #32
	cbnz	x14, Lh3q_BB120_26
	cmp	x12, x11
	b.eq	Lh3q_BB120_30
Lh3q_BB120_28:
	sub	x12, x8, x11, lsl #3
	sub	x10, x9, x10
	add	x12, x12, x9, lsl #3
	sub	x9, x10, x11
	sub	x9, x9, #255
	mov	x10, x12
Lh3q_BB120_29:
	ldr	x11, [x10, #-8]!
	subs	x9, x9, #1
	str	x11, [x12]
	mov	x12, x10
	b.ne	Lh3q_BB120_29
Lh3q_BB120_30:
Lh3q_loh272:
	adrp	x9, lh3q_CPI120_0@PAGE
Lh3q_loh273:
	ldr	q1, [x9, lh3q_CPI120_0@PAGEOFF]
	mov	w9, w2
	orr	x9, x9, x3, lsl #32
	add.2d	v0, v0, v1
	str	x9, [x8, x1, lsl #3]
	str	x8, [x0]
	stur	q0, [x0, #8]
	ret
	.loh AdrpLdr	Lh3q_loh272, Lh3q_loh273

	.p2align	2
"_qpack_codec::encoder::fields::write_instruction::<#f5d64057dea64abe>":
	stp	x26, x25, [sp, #-80]!
	stp	x22, x21, [sp, #32]
	ldrb	w8, [x1]
	stp	x20, x19, [sp, #48]
	ldp	x21, x20, [x0, #16]
	cmp	w8, #1
	mov	x19, x2
	stp	x24, x23, [sp, #16]
	stp	x29, x30, [sp, #64]
	add	x29, sp, #64
	b.le	Lh3q_BB121_13
	cmp	w8, #2
	b.eq	Lh3q_BB121_19
	cmp	w8, #3
	b.ne	Lh3q_BB121_102
	ldr	x22, [x1, #16]
	ldr	x23, [x19, #8]
	cmp	x22, #62
	b.hi	Lh3q_BB121_37
	ldr	x8, [x19, #16]
	cmp	x8, x23
	mov	x8, x23
	b.hi	Lh3q_BB121_7
	mov	x0, x19
	mov	w1, #1
	mov	w24, #1
	bl	"_qpack_base::coding::grow::<#f5d64057dea64abe>"
	and	w8, w0, #0xff
	mov	w0, w24
	tbnz	w8, #0, Lh3q_BB121_33
	ldr	x8, [x19, #8]
Lh3q_BB121_7:
	ldr	x9, [x19]
	orr	w10, w22, #0xffffffc0
	add	x22, x8, #1
	strb	w10, [x9, x8]
	str	x22, [x19, #8]
	ldr	x8, [x19, #16]
	subs	x8, x8, x22
	csel	x8, xzr, x8, lo
	cmp	x20, x8, lsr #2
	b.hs	Lh3q_BB121_39
Lh3q_BB121_8:
	sub	x8, x20, x20, lsr #2
	cmp	x8, #126
	b.hi	Lh3q_BB121_51
	ldr	x8, [x19]
	add	x9, x22, #1
	mov	x0, x21
	mov	x1, x20
	mov	x2, x19
	strb	wzr, [x8, x22]
	str	x9, [x19, #8]
	bl	"_qpack_base::prefix_string::encoding::put_payload::<#f5d64057dea64abe>"
	ldr	x9, [x19, #8]
	mvn	x8, x22
	add	x8, x9, x8
	cmp	x8, x20
	b.hs	Lh3q_BB121_64
	cmp	x8, #126
	b.ls	Lh3q_BB121_85
Lh3q_BB121_11:
	cmp	x9, x22
	b.ls	Lh3q_BB121_57
	str	x22, [x19, #8]
	b	Lh3q_BB121_57
Lh3q_BB121_13:
	cbnz	w8, Lh3q_BB121_28
	ldp	x24, x8, [x19, #8]
	ldp	x2, x22, [x0]
	subs	x8, x8, x24
	csel	x8, xzr, x8, lo
	cmp	x22, x8, lsr #2
	b.hs	Lh3q_BB121_79
	sub	x8, x22, x22, lsr #2
	cmp	x8, #30
	b.hi	Lh3q_BB121_41
	ldr	x8, [x19]
	add	x9, x24, #1
	mov	x23, x2
	mov	x0, x2
	mov	x1, x22
	mov	x2, x19
	strb	wzr, [x8, x24]
	str	x9, [x19, #8]
	bl	"_qpack_base::prefix_string::encoding::put_payload::<#f5d64057dea64abe>"
	ldr	x8, [x19, #8]
	mvn	x9, x24
	add	x9, x8, x9
	cmp	x9, x22
	b.hs	Lh3q_BB121_58
	cmp	x9, #30
	b.hi	Lh3q_BB121_69
	ldr	x8, [x19]
	orr	w9, w9, #0x60
	strb	w9, [x8, x24]
	b	Lh3q_BB121_81
Lh3q_BB121_19:
	ldr	x2, [x1, #16]
	ldr	x22, [x19, #8]
	cmp	x2, #62
	b.hi	Lh3q_BB121_34
	ldr	x8, [x19, #16]
	cmp	x8, x22
	mov	x8, x22
	b.hi	Lh3q_BB121_23
	mov	x0, x19
	mov	w1, #1
	mov	x23, x2
	mov	w24, #1
	bl	"_qpack_base::coding::grow::<#f5d64057dea64abe>"
	and	w8, w0, #0xff
	mov	w0, w24
	tbnz	w8, #0, Lh3q_BB121_33
	ldr	x8, [x19, #8]
	mov	x2, x23
Lh3q_BB121_23:
	ldr	x9, [x19]
	add	x23, x8, #1
	orr	w10, w2, #0xffffff80
	strb	w10, [x9, x8]
	str	x23, [x19, #8]
	ldr	x8, [x19, #16]
	subs	x8, x8, x23
	csel	x8, xzr, x8, lo
	cmp	x20, x8, lsr #2
	b.hs	Lh3q_BB121_36
Lh3q_BB121_24:
	sub	x8, x20, x20, lsr #2
	cmp	x8, #126
	b.hi	Lh3q_BB121_46
	ldr	x8, [x19]
	add	x9, x23, #1
	mov	x0, x21
	mov	x1, x20
	mov	x2, x19
	strb	wzr, [x8, x23]
	str	x9, [x19, #8]
	bl	"_qpack_base::prefix_string::encoding::put_payload::<#f5d64057dea64abe>"
	ldr	x9, [x19, #8]
	mvn	x8, x23
	add	x8, x9, x8
	cmp	x8, x20
	b.hs	Lh3q_BB121_61
	cmp	x8, #126
	b.hi	Lh3q_BB121_71
	ldr	x9, [x19]
	mov	w0, wzr
	orr	w8, w8, #0x80
	b	Lh3q_BB121_95
Lh3q_BB121_28:
	ldr	x20, [x1, #8]
	cmp	x20, #30
	b.hi	Lh3q_BB121_40
	ldp	x8, x9, [x19, #8]
	cmp	x9, x8
	b.hi	Lh3q_BB121_32
	mov	x0, x19
	mov	w1, #1
	bl	"_qpack_base::coding::grow::<#f5d64057dea64abe>"
	mov	w8, w0
	mov	w0, #1
	and	w8, w8, #0xff
	tbnz	w8, #0, Lh3q_BB121_33
	ldr	x8, [x19, #8]
Lh3q_BB121_32:
	ldr	x9, [x19]
	add	x10, x8, #1
	mov	w0, wzr
	strb	w20, [x9, x8]
	str	x10, [x19, #8]
Lh3q_BB121_33:
	ldp	x29, x30, [sp, #64]
	ldp	x20, x19, [sp, #48]
	ldp	x22, x21, [sp, #32]
	ldp	x24, x23, [sp, #16]
	ldp	x26, x25, [sp], #80
	ret
Lh3q_BB121_34:
	mov	w0, #6
	mov	w1, #2
	mov	x3, x19
	bl	"_qpack_base::prefix_int::encode_long::<#f5d64057dea64abe>"
	and	w8, w0, #0xff
	tbnz	w8, #0, Lh3q_BB121_89
	ldp	x23, x8, [x19, #8]
	subs	x8, x8, x23
	csel	x8, xzr, x8, lo
	cmp	x20, x8, lsr #2
	b.lo	Lh3q_BB121_24
Lh3q_BB121_36:
	mov	w0, #8
	mov	w1, wzr
	mov	x2, x21
	mov	x3, x20
	mov	x4, x19
	bl	"_qpack_base::prefix_string::append_measured::<#f5d64057dea64abe>"
	and	w8, w0, #0xff
	tbz	w8, #0, Lh3q_BB121_102
	b	Lh3q_BB121_74
Lh3q_BB121_37:
	mov	w0, #6
	mov	w1, #3
	mov	x2, x22
	mov	x3, x19
	bl	"_qpack_base::prefix_int::encode_long::<#f5d64057dea64abe>"
	and	w8, w0, #0xff
	tbnz	w8, #0, Lh3q_BB121_89
	ldp	x22, x8, [x19, #8]
	subs	x8, x8, x22
	csel	x8, xzr, x8, lo
	cmp	x20, x8, lsr #2
	b.lo	Lh3q_BB121_8
Lh3q_BB121_39:
	mov	w0, #8
	mov	w1, wzr
	mov	x2, x21
	mov	x3, x20
	mov	x4, x19
	bl	"_qpack_base::prefix_string::append_measured::<#f5d64057dea64abe>"
	and	w8, w0, #0xff
	tbz	w8, #0, Lh3q_BB121_102
	b	Lh3q_BB121_67
Lh3q_BB121_40:
	mov	x2, x20
	mov	x3, x19
	mov	w0, #5
	ldp	x29, x30, [sp, #64]
	mov	w1, wzr
	ldp	x20, x19, [sp, #48]
	ldp	x22, x21, [sp, #32]
	ldp	x24, x23, [sp, #16]
	ldp	x26, x25, [sp], #80
	b	"_qpack_base::prefix_int::encode_long::<#f5d64057dea64abe>"
Lh3q_BB121_41:
	cmp	x8, #158
	b.hi	Lh3q_BB121_79
	ldr	x8, [x19]
	add	x25, x24, #1
	add	x9, x24, #2
	mov	x23, x2
	mov	x0, x2
	mov	x1, x22
	strb	wzr, [x8, x24]
	mov	x2, x19
	ldr	x8, [x19]
	strb	wzr, [x8, x25]
	str	x9, [x19, #8]
	bl	"_qpack_base::prefix_string::encoding::put_payload::<#f5d64057dea64abe>"
	ldr	x9, [x19, #8]
	sub	x8, x9, x24
	sub	x10, x8, #2
	cmp	x10, x22
	b.hs	Lh3q_BB121_70
	cmp	x10, #31
	b.lo	Lh3q_BB121_76
	cmp	x8, #160
	b.hi	Lh3q_BB121_76
	ldr	x9, [x19]
	mov	w10, #127
	sub	w8, w8, #33
	strb	w10, [x9, x24]
	ldr	x9, [x19]
	strb	w8, [x9, x25]
	b	Lh3q_BB121_81
Lh3q_BB121_46:
	cmp	x8, #254
	b.hi	Lh3q_BB121_73
	ldr	x8, [x19]
	add	x24, x23, #1
	add	x9, x23, #2
	mov	x0, x21
	mov	x1, x20
	mov	x2, x19
	strb	wzr, [x8, x23]
	ldr	x8, [x19]
	strb	wzr, [x8, x24]
	str	x9, [x19, #8]
	bl	"_qpack_base::prefix_string::encoding::put_payload::<#f5d64057dea64abe>"
	ldr	x9, [x19, #8]
	sub	x8, x9, x23
	sub	x10, x8, #2
	cmp	x10, x20
	b.hs	Lh3q_BB121_61
	cmp	x10, #127
	b.lo	Lh3q_BB121_71
	cmp	x8, #256
	b.hi	Lh3q_BB121_71
	ldr	x9, [x19]
	mov	w0, wzr
	mov	w10, #255
	strb	w10, [x9, x23]
	b	Lh3q_BB121_56
Lh3q_BB121_51:
	cmp	x8, #254
	b.hi	Lh3q_BB121_57
	ldr	x8, [x19]
	add	x24, x22, #1
	add	x9, x22, #2
	mov	x0, x21
	mov	x1, x20
	mov	x2, x19
	strb	wzr, [x8, x22]
	ldr	x8, [x19]
	strb	wzr, [x8, x24]
	str	x9, [x19, #8]
	bl	"_qpack_base::prefix_string::encoding::put_payload::<#f5d64057dea64abe>"
	ldr	x9, [x19, #8]
	sub	x8, x9, x22
	sub	x10, x8, #2
	cmp	x10, x20
	b.hs	Lh3q_BB121_64
	cmp	x10, #127
	b.lo	Lh3q_BB121_11
	cmp	x8, #256
	b.hi	Lh3q_BB121_11
	ldr	x9, [x19]
	mov	w0, wzr
	mov	w10, #255
	strb	w10, [x9, x22]
Lh3q_BB121_56:
	ldr	x9, [x19]
	add	w8, w8, #127
	strb	w8, [x9, x24]
	ldp	x29, x30, [sp, #64]
	ldp	x20, x19, [sp, #48]
	ldp	x22, x21, [sp, #32]
	ldp	x24, x23, [sp, #16]
	ldp	x26, x25, [sp], #80
	ret
Lh3q_BB121_57:
	mov	w0, #8
	mov	w1, wzr
	mov	x2, x21
	mov	x3, x20
	mov	x4, x19
	bl	"_qpack_base::prefix_string::append_measured::<#f5d64057dea64abe>"
	tst	w0, #0xff
	b.eq	Lh3q_BB121_102
	b	Lh3q_BB121_67
Lh3q_BB121_58:
	cmp	x8, x24
	b.ls	Lh3q_BB121_60
Lh3q_BB121_59:
	str	x24, [x19, #8]
Lh3q_BB121_60:
	mov	w0, #6
	mov	w1, #1
	mov	x2, x23
	mov	x3, x22
	mov	x4, x19
	bl	"_qpack_base::prefix_string::append_plain::<#f5d64057dea64abe>"
	b	Lh3q_BB121_80
Lh3q_BB121_61:
	cmp	x9, x23
	b.ls	Lh3q_BB121_63
	str	x23, [x19, #8]
Lh3q_BB121_63:
	mov	w0, #8
	mov	w1, wzr
	mov	x2, x21
	mov	x3, x20
	mov	x4, x19
	bl	"_qpack_base::prefix_string::append_plain::<#f5d64057dea64abe>"
	and	w8, w0, #0xff
	tbz	w8, #0, Lh3q_BB121_102
	b	Lh3q_BB121_74
Lh3q_BB121_64:
	cmp	x9, x22
	b.ls	Lh3q_BB121_66
	str	x22, [x19, #8]
Lh3q_BB121_66:
	mov	w0, #8
	mov	w1, wzr
	mov	x2, x21
	mov	x3, x20
	mov	x4, x19
	bl	"_qpack_base::prefix_string::append_plain::<#f5d64057dea64abe>"
	and	w8, w0, #0xff
	tbz	w8, #0, Lh3q_BB121_102
Lh3q_BB121_67:
	ldr	x8, [x19, #8]
	cmp	x8, x23
	b.ls	Lh3q_BB121_89
	str	x23, [x19, #8]
	b	Lh3q_BB121_89
Lh3q_BB121_69:
	cmp	x8, x24
	b	Lh3q_BB121_77
Lh3q_BB121_70:
	cmp	x9, x24
	b.hi	Lh3q_BB121_59
	b	Lh3q_BB121_60
Lh3q_BB121_71:
	cmp	x9, x23
	b.ls	Lh3q_BB121_73
	str	x23, [x19, #8]
Lh3q_BB121_73:
	mov	w0, #8
	mov	w1, wzr
	mov	x2, x21
	mov	x3, x20
	mov	x4, x19
	bl	"_qpack_base::prefix_string::append_measured::<#f5d64057dea64abe>"
	tst	w0, #0xff
	b.eq	Lh3q_BB121_102
Lh3q_BB121_74:
	ldr	x8, [x19, #8]
	cmp	x8, x22
	b.ls	Lh3q_BB121_89
	str	x22, [x19, #8]
	b	Lh3q_BB121_89
Lh3q_BB121_76:
	cmp	x9, x24
Lh3q_BB121_77:
	mov	x2, x23
	b.ls	Lh3q_BB121_79
	str	x24, [x19, #8]
Lh3q_BB121_79:
	mov	w0, #6
	mov	w1, #1
	mov	x3, x22
	mov	x4, x19
	bl	"_qpack_base::prefix_string::append_measured::<#f5d64057dea64abe>"
Lh3q_BB121_80:
	mov	w8, w0
	mov	w0, #1
	and	w8, w8, #0xff
	tbnz	w8, #0, Lh3q_BB121_33
Lh3q_BB121_81:
	ldp	x22, x8, [x19, #8]
	subs	x8, x8, x22
	csel	x8, xzr, x8, lo
	cmp	x20, x8, lsr #2
	b.hs	Lh3q_BB121_86
	sub	x8, x20, x20, lsr #2
	cmp	x8, #126
	b.hi	Lh3q_BB121_90
	ldr	x8, [x19]
	add	x9, x22, #1
	mov	x0, x21
	mov	x1, x20
	mov	x2, x19
	strb	wzr, [x8, x22]
	str	x9, [x19, #8]
	bl	"_qpack_base::prefix_string::encoding::put_payload::<#f5d64057dea64abe>"
	ldr	x9, [x19, #8]
	mvn	x8, x22
	add	x8, x9, x8
	cmp	x8, x20
	b.hs	Lh3q_BB121_96
	cmp	x8, #126
	b.hi	Lh3q_BB121_99
Lh3q_BB121_85:
	ldr	x9, [x19]
	mov	w0, wzr
	orr	w8, w8, #0x80
	strb	w8, [x9, x22]
	ldp	x29, x30, [sp, #64]
	ldp	x20, x19, [sp, #48]
	ldp	x22, x21, [sp, #32]
	ldp	x24, x23, [sp, #16]
	ldp	x26, x25, [sp], #80
	ret
Lh3q_BB121_86:
	mov	w0, #8
	mov	w1, wzr
	mov	x2, x21
	mov	x3, x20
	mov	x4, x19
	bl	"_qpack_base::prefix_string::append_measured::<#f5d64057dea64abe>"
	and	w8, w0, #0xff
	tbz	w8, #0, Lh3q_BB121_102
Lh3q_BB121_87:
	ldr	x8, [x19, #8]
	cmp	x8, x24
	b.ls	Lh3q_BB121_89
	str	x24, [x19, #8]
Lh3q_BB121_89:
	mov	w0, #1
	ldp	x29, x30, [sp, #64]
	ldp	x20, x19, [sp, #48]
	ldp	x22, x21, [sp, #32]
	ldp	x24, x23, [sp, #16]
	ldp	x26, x25, [sp], #80
	ret
Lh3q_BB121_90:
	cmp	x8, #254
	b.hi	Lh3q_BB121_101
	ldr	x8, [x19]
	add	x23, x22, #1
	add	x9, x22, #2
	mov	x0, x21
	mov	x1, x20
	mov	x2, x19
	strb	wzr, [x8, x22]
	ldr	x8, [x19]
	strb	wzr, [x8, x23]
	str	x9, [x19, #8]
	bl	"_qpack_base::prefix_string::encoding::put_payload::<#f5d64057dea64abe>"
	ldr	x9, [x19, #8]
	sub	x8, x9, x22
	sub	x10, x8, #2
	cmp	x10, x20
	b.hs	Lh3q_BB121_96
	cmp	x10, #127
	b.lo	Lh3q_BB121_99
	cmp	x8, #256
	b.hi	Lh3q_BB121_99
	ldr	x9, [x19]
	mov	w10, #255
	mov	w0, wzr
	add	w8, w8, #127
	strb	w10, [x9, x22]
	ldr	x9, [x19]
Lh3q_BB121_95:
	strb	w8, [x9, x23]
	ldp	x29, x30, [sp, #64]
	ldp	x20, x19, [sp, #48]
	ldp	x22, x21, [sp, #32]
	ldp	x24, x23, [sp, #16]
	ldp	x26, x25, [sp], #80
	ret
Lh3q_BB121_96:
	cmp	x9, x22
	b.ls	Lh3q_BB121_98
	str	x22, [x19, #8]
Lh3q_BB121_98:
	mov	w0, #8
	mov	w1, wzr
	mov	x2, x21
	mov	x3, x20
	mov	x4, x19
	bl	"_qpack_base::prefix_string::append_plain::<#f5d64057dea64abe>"
	and	w8, w0, #0xff
	tbz	w8, #0, Lh3q_BB121_102
	b	Lh3q_BB121_87
Lh3q_BB121_99:
	cmp	x9, x22
	b.ls	Lh3q_BB121_101
	str	x22, [x19, #8]
Lh3q_BB121_101:
	mov	w0, #8
	mov	w1, wzr
	mov	x2, x21
	mov	x3, x20
	mov	x4, x19
	bl	"_qpack_base::prefix_string::append_measured::<#f5d64057dea64abe>"
	tst	w0, #0xff
	b.ne	Lh3q_BB121_87
Lh3q_BB121_102:
	mov	w0, wzr
	ldp	x29, x30, [sp, #64]
	ldp	x20, x19, [sp, #48]
	ldp	x22, x21, [sp, #32]
	ldp	x24, x23, [sp, #16]
	ldp	x26, x25, [sp], #80
	ret

	.p2align	2
"_qpack_base::prefix_string::encoding::put_payload::<#f5d64057dea64abe>":
	sub	sp, sp, #144
	ldp	x8, x10, [x2]
	cmp	x1, #4
	ldr	x9, [x2, #16]
	stp	x22, x21, [sp, #96]
	mov	x21, x0
	stp	x20, x19, [sp, #112]
	mov	x19, x2
	mov	x20, x1
Lh3q_loh274:
	adrp	x22, l_static.12@PAGE
Lh3q_loh275:
	add	x22, x22, l_static.12@PAGEOFF
	stp	x29, x30, [sp, #128]
	add	x29, sp, #128
	b.hs	Lh3q_BB122_6
	mov	w12, wzr
	mov	x11, xzr
Lh3q_BB122_2:
	mov	x15, x21
	mov	x16, x20
	mov	w13, w12
	mov	x14, x11
	cbz	x20, Lh3q_BB122_4
Lh3q_BB122_3:
	ldrb	w17, [x15], #1
	subs	x16, x16, #1
	add	x17, x22, x17, lsl #3
	ldp	w0, w17, [x17]
	lsl	x14, x14, x0
	add	w13, w0, w13
	add	x14, x14, x17
	b.ne	Lh3q_BB122_3
Lh3q_BB122_4:
	sub	x15, x9, x10
	cmp	w13, #63
	ccmp	x15, #8, #0, ls
	b.hs	Lh3q_BB122_12
	sub	x0, x29, #56
	add	x1, sp, #48
	add	x2, sp, #8
	stp	x8, x10, [sp, #48]
	str	x9, [sp, #64]
	str	x11, [sp, #8]
	stp	w12, wzr, [sp, #16]
	stp	x21, x20, [sp, #24]
	stp	xzr, xzr, [x29, #-48]
	stur	xzr, [x29, #-56]
	bl	"_qpack_base::prefix_string::encoding::with_narrow_end::<#f5d64057dea64abe>"
	ldp	x8, x10, [x29, #-56]
	ldur	x9, [x29, #-40]
	b	Lh3q_BB122_13
Lh3q_BB122_6:
	mov	x11, xzr
	mov	w13, wzr
	b	Lh3q_BB122_9
Lh3q_BB122_7:
	add	x0, sp, #8
	sub	x1, x29, #56
	add	x2, sp, #48
	stp	x8, x10, [x29, #-56]
	stur	x9, [x29, #-40]
	str	x11, [sp, #48]
	stp	w13, wzr, [sp, #56]
	str	x21, [sp, #64]
	bl	"_qpack_base::prefix_string::encoding::with_long_codes::<#f5d64057dea64abe>"
	ldp	x8, x10, [sp, #8]
	ldr	w12, [sp, #40]
	ldp	x9, x11, [sp, #24]
Lh3q_BB122_8:
	sub	x20, x20, #4
	add	x21, x21, #4
	mov	w13, w12
	cmp	x20, #4
	b.lo	Lh3q_BB122_2
Lh3q_BB122_9:
	ldrb	w12, [x21]
	ldrb	w15, [x21, #1]
	ldrb	w16, [x21, #2]
	add	x14, x22, x12, lsl #3
	ldrb	w12, [x21, #3]
	add	x1, x22, x15, lsl #3
	add	x15, x22, x16, lsl #3
	ldr	w3, [x14]
	ldr	w2, [x1]
	add	x17, x22, x12, lsl #3
	ldr	w16, [x15]
	add	w12, w3, w13
	ldr	w0, [x17]
	add	w4, w2, w16
	add	w12, w12, w4
	add	w12, w12, w0
	cmp	w12, #63
	b.hi	Lh3q_BB122_7
	ldr	w13, [x14, #4]
	lsl	x11, x11, x3
	ldr	w14, [x17, #4]
	add	x11, x11, x13
	ldr	w13, [x1, #4]
	lsl	x11, x11, x2
	add	x11, x11, x13
	ldr	w13, [x15, #4]
	lsl	x11, x11, x16
	add	x11, x11, x13
	subs	w13, w12, #32
	lsl	x11, x11, x0
	add	x11, x11, x14
	b.lo	Lh3q_BB122_8
	lsr	x12, x11, x13
	rev	w12, w12
	str	w12, [x8, x10]
	add	x10, x10, #4
	mov	w12, w13
	b	Lh3q_BB122_8
Lh3q_BB122_12:
	mov	w11, #1
	eor	w12, w13, #0x3f
	add	w13, w13, #7
	orr	x11, x11, x14, lsl #1
	mov	x14, #-1
	lsl	x14, x14, x12
	lsl	x11, x11, x12
	lsr	w12, w13, #3
	mvn	x13, x14
	add	x14, x8, x10
	add	x11, x11, x13
	add	x13, x10, #8
	add	x10, x10, x12
	rev	x12, x11
	cmp	x13, x10
	rev	w11, w11
	stp	w12, w11, [x14]
	csel	x10, x13, x10, lo
Lh3q_BB122_13:
	stp	x8, x10, [x19]
	ldp	x29, x30, [sp, #128]
	str	x9, [x19, #16]
	ldp	x20, x19, [sp, #112]
	ldp	x22, x21, [sp, #96]
	add	sp, sp, #144
	ret
	.loh AdrpAdd	Lh3q_loh274, Lh3q_loh275

	.section	__TEXT,__literal16,16byte_literals
	.p2align	4, 0x0
lh3q_CPI123_0:
	.long	0
	.long	4294967288
	.long	4294967280
	.long	4294967272
	.section	__TEXT,__text,regular,pure_instructions
	.p2align	2
"_qpack_base::prefix_string::encoding::with_long_codes::<#f5d64057dea64abe>":
	ldr	x12, [x2, #16]
Lh3q_loh276:
	adrp	x13, l_static.12@PAGE
Lh3q_loh277:
	add	x13, x13, l_static.12@PAGEOFF
	ldr	x9, [x2]
	ldr	w10, [x2, #8]
	ldrb	w8, [x12]
	add	x8, x13, x8, lsl #3
	ldp	w11, w14, [x8]
	lsl	x17, x9, x11
	add	w15, w11, w10
	ldr	x9, [x1, #16]
	ldp	x8, x10, [x1]
	subs	w16, w15, #32
	add	x14, x17, x14
	adrp	x11, lh3q_CPI123_0@PAGE
	b.lo	Lh3q_BB123_2
	lsr	x15, x14, x16
	ldr	q1, [x11, lh3q_CPI123_0@PAGEOFF]
	rev	w15, w15
	dup.4s	v0, w15
	mov	w15, w16
	ushl.4s	v0, v0, v1
	xtn.4h	v0, v0
	uzp1.8b	v0, v0, v0
	str	s0, [x8, x10]
	add	x10, x10, #4
Lh3q_BB123_2:
	ldrb	w16, [x12, #1]
	add	x16, x13, x16, lsl #3
	ldp	w17, w1, [x16]
	lsl	x14, x14, x17
	add	w15, w17, w15
	subs	w16, w15, #32
	add	x14, x14, x1
	b.lo	Lh3q_BB123_4
	lsr	x15, x14, x16
	ldr	q1, [x11, lh3q_CPI123_0@PAGEOFF]
	rev	w15, w15
	dup.4s	v0, w15
	mov	w15, w16
	ushl.4s	v0, v0, v1
	xtn.4h	v0, v0
	uzp1.8b	v0, v0, v0
	str	s0, [x8, x10]
	add	x10, x10, #4
Lh3q_BB123_4:
	ldrb	w16, [x12, #2]
	add	x16, x13, x16, lsl #3
	ldp	w17, w1, [x16]
	lsl	x14, x14, x17
	add	w15, w17, w15
	subs	w16, w15, #32
	add	x14, x14, x1
	b.lo	Lh3q_BB123_6
	lsr	x15, x14, x16
	ldr	q1, [x11, lh3q_CPI123_0@PAGEOFF]
	rev	w15, w15
	dup.4s	v0, w15
	mov	w15, w16
	ushl.4s	v0, v0, v1
	xtn.4h	v0, v0
	uzp1.8b	v0, v0, v0
	str	s0, [x8, x10]
	add	x10, x10, #4
Lh3q_BB123_6:
	ldrb	w12, [x12, #3]
	add	x12, x13, x12, lsl #3
	ldp	w13, w12, [x12]
	lsl	x16, x14, x13
	add	w14, w13, w15
	subs	w13, w14, #32
	add	x12, x16, x12
	b.lo	Lh3q_BB123_8
	lsr	x14, x12, x13
	ldr	q1, [x11, lh3q_CPI123_0@PAGEOFF]
	rev	w14, w14
	dup.4s	v0, w14
	mov	w14, w13
	ushl.4s	v0, v0, v1
	xtn.4h	v0, v0
	uzp1.8b	v0, v0, v0
	str	s0, [x8, x10]
	add	x10, x10, #4
Lh3q_BB123_8:
	stp	x8, x10, [x0]
	stp	x9, x12, [x0, #16]
	stp	w14, wzr, [x0, #32]
	ret
	.loh AdrpAdd	Lh3q_loh276, Lh3q_loh277

	.section	__TEXT,__literal16,16byte_literals
	.p2align	4, 0x0
lh3q_CPI124_0:
	.long	0
	.long	4294967288
	.long	4294967280
	.long	4294967272
lh3q_CPI124_1:
	.quad	-112
	.quad	-120
lh3q_CPI124_2:
	.quad	-96
	.quad	-104
lh3q_CPI124_3:
	.quad	-80
	.quad	-88
lh3q_CPI124_4:
	.quad	-64
	.quad	-72
lh3q_CPI124_5:
	.quad	-48
	.quad	-56
lh3q_CPI124_6:
	.quad	-32
	.quad	-40
lh3q_CPI124_7:
	.quad	-16
	.quad	-24
lh3q_CPI124_8:
	.quad	0
	.quad	-8
lh3q_CPI124_9:
	.byte	0
	.byte	8
	.byte	16
	.byte	24
	.byte	32
	.byte	40
	.byte	48
	.byte	56
	.byte	64
	.byte	72
	.byte	80
	.byte	88
	.byte	96
	.byte	104
	.byte	112
	.byte	120
	.section	__TEXT,__text,regular,pure_instructions
	.p2align	2
"_qpack_base::prefix_string::encoding::with_narrow_end::<#f5d64057dea64abe>":
	ldp	x8, x11, [x1]
	ldr	x12, [x2, #24]
	ldr	x9, [x1, #16]
	ldr	x10, [x2]
	ldr	w13, [x2, #8]
	cbz	x12, Lh3q_BB124_5
	ldr	x14, [x2, #16]
	b	Lh3q_BB124_3
Lh3q_BB124_2:
	subs	x12, x12, #1
	b.eq	Lh3q_BB124_5
Lh3q_BB124_3:
	ldrb	w15, [x14], #1
Lh3q_loh278:
	adrp	x16, l_static.12@PAGE
Lh3q_loh279:
	add	x16, x16, l_static.12@PAGEOFF
	add	x15, x16, x15, lsl #3
	ldp	w16, w17, [x15]
	lsl	x10, x10, x16
	add	w13, w16, w13
	subs	w15, w13, #32
	add	x10, x10, x17
	b.lo	Lh3q_BB124_2
	lsr	x13, x10, x15
	rev	w13, w13
	dup.4s	v0, w13
Lh3q_loh280:
	adrp	x13, lh3q_CPI124_0@PAGE
Lh3q_loh281:
	ldr	q1, [x13, lh3q_CPI124_0@PAGEOFF]
	mov	w13, w15
	ushl.4s	v0, v0, v1
	xtn.4h	v0, v0
	uzp1.8b	v0, v0, v0
	str	s0, [x8, x11]
	add	x11, x11, #4
	b	Lh3q_BB124_2
Lh3q_BB124_5:
	neg	w12, w13
	and	w14, w12, #0x7
	add	w12, w14, w13
	cmp	w12, #8
	b.lo	Lh3q_BB124_8
	mov	x15, #-1
	lsl	x13, x15, x13
	lsl	x15, x15, x14
	bic	x10, x10, x13
	sub	x13, x12, #8
	lsl	x10, x10, x14
	mvn	x14, x15
	cmp	x13, #120
	add	x10, x10, x14
	b.hs	Lh3q_BB124_9
	mov	x13, x12
	mov	x12, x11
	b	Lh3q_BB124_12
Lh3q_BB124_8:
	stp	x8, x11, [x0]
	str	x9, [x0, #16]
	ret
Lh3q_BB124_9:
	lsr	x13, x13, #3
Lh3q_loh282:
	adrp	x14, lh3q_CPI124_1@PAGE
Lh3q_loh283:
	adrp	x16, lh3q_CPI124_3@PAGE
Lh3q_loh284:
	ldr	q1, [x14, lh3q_CPI124_1@PAGEOFF]
Lh3q_loh285:
	ldr	q3, [x16, lh3q_CPI124_3@PAGEOFF]
Lh3q_loh286:
	adrp	x16, lh3q_CPI124_5@PAGE
	add	x14, x13, #1
Lh3q_loh287:
	adrp	x13, lh3q_CPI124_4@PAGE
	dup.2d	v16, x12
Lh3q_loh288:
	ldr	q4, [x13, lh3q_CPI124_4@PAGEOFF]
Lh3q_loh289:
	adrp	x13, lh3q_CPI124_6@PAGE
Lh3q_loh290:
	adrp	x15, lh3q_CPI124_2@PAGE
Lh3q_loh291:
	ldr	q5, [x16, lh3q_CPI124_5@PAGEOFF]
Lh3q_loh292:
	ldr	q6, [x13, lh3q_CPI124_6@PAGEOFF]
Lh3q_loh293:
	adrp	x13, lh3q_CPI124_7@PAGE
Lh3q_loh294:
	adrp	x16, lh3q_CPI124_8@PAGE
Lh3q_loh295:
	ldr	q2, [x15, lh3q_CPI124_2@PAGEOFF]
Lh3q_loh296:
	ldr	q7, [x13, lh3q_CPI124_7@PAGEOFF]
Lh3q_loh297:
	ldr	q17, [x16, lh3q_CPI124_8@PAGEOFF]
	dup.2d	v0, x10
	and	x15, x14, #0x3ffffffffffffff0
	add.2d	v1, v16, v1
	add.2d	v2, v16, v2
	add.2d	v3, v16, v3
	add.2d	v4, v16, v4
	add.2d	v5, v16, v5
	add.2d	v6, v16, v6
	add.2d	v7, v16, v7
	add.2d	v16, v16, v17
	sub	x13, x12, x15, lsl #3
	add	x12, x11, x15
	add	x11, x8, x11
	and	x16, x14, #0x3ffffffffffffff0
Lh3q_BB124_10:
	mov	w17, #8
	subs	x16, x16, #16
	dup.2d	v17, x17
Lh3q_loh298:
	adrp	x17, lh3q_CPI124_9@PAGE
	sub.2d	v18, v17, v4
	sub.2d	v19, v17, v6
	sub.2d	v20, v17, v3
	sub.2d	v21, v17, v7
	sub.2d	v22, v17, v2
	sub.2d	v23, v17, v16
	ushl.2d	v24, v0, v18
	sub.2d	v18, v17, v1
	ushl.2d	v30, v0, v19
	sub.2d	v17, v17, v5
	ushl.2d	v25, v0, v20
	ushl.2d	v29, v0, v21
	ushl.2d	v26, v0, v22
	ushl.2d	v28, v0, v23
	ushl.2d	v27, v0, v18
	ushl.2d	v31, v0, v17
Lh3q_loh299:
	ldr	q17, [x17, lh3q_CPI124_9@PAGEOFF]
	mov	x17, #-128
	dup.2d	v19, x17
	tbl.16b	v18, { v28, v29, v30, v31 }, v17
	tbl.16b	v17, { v24, v25, v26, v27 }, v17
	add.2d	v7, v7, v19
	add.2d	v16, v16, v19
	add.2d	v6, v6, v19
	add.2d	v5, v5, v19
	add.2d	v4, v4, v19
	add.2d	v3, v3, v19
	add.2d	v2, v2, v19
	add.2d	v1, v1, v19
	mov.d	v18[1], v17[0]
	str	q18, [x11], #16
	b.ne	Lh3q_BB124_10
	cmp	x14, x15
	b.eq	Lh3q_BB124_13
Lh3q_BB124_12:
	sub	x13, x13, #8
	lsr	x11, x10, x13
	cmp	x13, #7
	strb	w11, [x8, x12]
	add	x12, x12, #1
	b.hi	Lh3q_BB124_12
Lh3q_BB124_13:
	stp	x8, x12, [x0]
	str	x9, [x0, #16]
	ret
	.loh AdrpAdd	Lh3q_loh278, Lh3q_loh279
	.loh AdrpLdr	Lh3q_loh280, Lh3q_loh281
	.loh AdrpLdr	Lh3q_loh294, Lh3q_loh297
	.loh AdrpLdr	Lh3q_loh293, Lh3q_loh296
	.loh AdrpLdr	Lh3q_loh290, Lh3q_loh295
	.loh AdrpAdrp	Lh3q_loh289, Lh3q_loh293
	.loh AdrpLdr	Lh3q_loh289, Lh3q_loh292
	.loh AdrpAdrp	Lh3q_loh287, Lh3q_loh289
	.loh AdrpLdr	Lh3q_loh287, Lh3q_loh288
	.loh AdrpAdrp	Lh3q_loh286, Lh3q_loh294
	.loh AdrpLdr	Lh3q_loh286, Lh3q_loh291
	.loh AdrpAdrp	Lh3q_loh283, Lh3q_loh286
	.loh AdrpLdr	Lh3q_loh283, Lh3q_loh285
	.loh AdrpLdr	Lh3q_loh282, Lh3q_loh284
	.loh AdrpLdr	Lh3q_loh298, Lh3q_loh299

	.p2align	2
"_qpack_base::prefix_string::append_plain::<#f5d64057dea64abe>":
	stp	x26, x25, [sp, #-80]!
	stp	x24, x23, [sp, #16]
	mov	x8, #-1
	sub	w24, w0, #1
	lsl	x8, x8, x24
	stp	x22, x21, [sp, #32]
	mov	x21, x3
	stp	x20, x19, [sp, #48]
	mov	x19, x4
	mov	x20, x2
	mvn	x25, x8
	mov	w22, w0
	mov	w23, w1
	subs	x9, x3, x25
	stp	x29, x30, [sp, #64]
	add	x29, sp, #64
	b.hs	Lh3q_BB125_2
	mov	w8, #1
	b	Lh3q_BB125_4
Lh3q_BB125_2:
	mov	w8, #2
	cmp	x9, #128
	b.lo	Lh3q_BB125_4
Lh3q_BB125_3:
	lsr	x10, x9, #14
	lsr	x9, x9, #7
	add	x8, x8, #1
	cbnz	x10, Lh3q_BB125_3
Lh3q_BB125_4:
	ldp	x10, x9, [x19, #8]
	adds	x8, x8, x21
	csinv	x1, x8, xzr, lo
	subs	x8, x9, x10
	csel	x8, xzr, x8, lo
	cmp	x1, x8
	b.ls	Lh3q_BB125_7
	mov	x0, x19
	bl	"_qpack_base::coding::grow::<#f5d64057dea64abe>"
	and	w8, w0, #0xff
	tbz	w8, #0, Lh3q_BB125_7
	mov	w0, #1
	ldp	x29, x30, [sp, #64]
	ldp	x20, x19, [sp, #48]
	ldp	x22, x21, [sp, #32]
	ldp	x24, x23, [sp, #16]
	ldp	x26, x25, [sp], #80
	ret
Lh3q_BB125_7:
	lsl	w1, w23, #1
	cmp	x21, x25
	and	x0, x24, #0xff
	b.hs	Lh3q_BB125_14
	mov	w8, #9
	mov	w9, #1
	sub	w8, w8, w22
	lsl	x8, x9, x8
	ldp	x10, x9, [x19]
	cmp	x8, w1, uxtb
	csel	w8, wzr, w8, hi
	cmp	x21, #8
	sub	w8, w1, w8
	lsl	x8, x8, x0
	add	w8, w8, w21
	strb	w8, [x10, x9]
	add	x8, x9, #1
	ldr	x9, [x19]
	ldr	x10, [x19, #16]
	str	x8, [x19, #8]
	b.hs	Lh3q_BB125_15
	subs	x11, x21, #4
	b.hs	Lh3q_BB125_20
Lh3q_BB125_10:
	subs	x11, x21, #2
	b.hs	Lh3q_BB125_21
Lh3q_BB125_11:
	cbz	x21, Lh3q_BB125_13
Lh3q_BB125_12:
	ldrb	w11, [x20]
	strb	w11, [x9, x8]
	add	x8, x8, #1
Lh3q_BB125_13:
	mov	w0, wzr
	stp	x9, x8, [x19]
	str	x10, [x19, #16]
	ldp	x29, x30, [sp, #64]
	ldp	x20, x19, [sp, #48]
	ldp	x22, x21, [sp, #32]
	ldp	x24, x23, [sp, #16]
	ldp	x26, x25, [sp], #80
	ret
Lh3q_BB125_14:
	mov	x2, x21
	mov	x3, x19
	bl	"_qpack_base::prefix_int::put_long::<#f5d64057dea64abe>"
	ldp	x9, x8, [x19]
	ldr	x10, [x19, #16]
Lh3q_BB125_15:
	mov	x11, xzr
	add	x12, x9, x8
Lh3q_BB125_16:
	sub	x13, x21, #8
	cmp	x13, #7
	b.ls	Lh3q_BB125_19
	sub	x21, x21, #16
	ldr	q0, [x20, x11]
	cmp	x21, #7
	str	q0, [x12, x11]
	add	x11, x11, #16
	b.hi	Lh3q_BB125_16
	add	x20, x20, x11
	add	x8, x8, x11
	subs	x11, x21, #4
	b.lo	Lh3q_BB125_10
	b	Lh3q_BB125_20
Lh3q_BB125_19:
	add	x20, x20, x11
	add	x8, x8, x11
	mov	x21, x13
	ldr	x12, [x20], #8
	str	x12, [x8, x9]
	add	x8, x8, #8
	subs	x11, x13, #4
	b.lo	Lh3q_BB125_10
Lh3q_BB125_20:
	ldr	w12, [x20], #4
	mov	x21, x11
	str	w12, [x9, x8]
	add	x8, x8, #4
	subs	x11, x11, #2
	b.lo	Lh3q_BB125_11
Lh3q_BB125_21:
	ldrh	w12, [x20], #2
	strh	w12, [x9, x8]
	add	x8, x8, #2
	cbnz	x11, Lh3q_BB125_12
	b	Lh3q_BB125_13

	.p2align	2
"_qpack_base::prefix_string::append_measured::<#f5d64057dea64abe>":
	stp	x26, x25, [sp, #-80]!
	mov	w8, #67108864
	stp	x24, x23, [sp, #16]
	cmp	x3, x8
	stp	x22, x21, [sp, #32]
	stp	x20, x19, [sp, #48]
	stp	x29, x30, [sp, #64]
	add	x29, sp, #64
	b.ls	Lh3q_BB126_5
	mov	x8, xzr
	mov	x10, xzr
	mov	x9, x2
	mov	x11, x3
Lh3q_BB126_2:
	ldrb	w12, [x9], #1
Lh3q_loh300:
	adrp	x13, l_static.12@PAGE
Lh3q_loh301:
	add	x13, x13, l_static.12@PAGEOFF
	lsl	x12, x12, #3
	ldr	w12, [x13, x12]
	add	x10, x10, x12
	adds	x8, x8, x10, lsr #3
	and	x10, x10, #0x7
	csinv	x8, x8, xzr, lo
	subs	x11, x11, #1
	b.ne	Lh3q_BB126_2
	adds	x9, x8, #1
	csinv	x9, x9, xzr, lo
	cmp	x10, #0
	csel	x19, x8, x9, eq
	cmp	x19, x3
	b.lo	Lh3q_BB126_15
Lh3q_BB126_4:
	ldp	x29, x30, [sp, #64]
	ldp	x20, x19, [sp, #48]
	ldp	x22, x21, [sp, #32]
	ldp	x24, x23, [sp, #16]
	ldp	x26, x25, [sp], #80
	b	"_qpack_base::prefix_string::append_plain::<#f5d64057dea64abe>"
Lh3q_BB126_5:
	cmp	x3, #4
Lh3q_loh302:
	adrp	x8, l_static.12@PAGE
Lh3q_loh303:
	add	x8, x8, l_static.12@PAGEOFF
	b.hs	Lh3q_BB126_10
	mov	w10, #7
	mov	x9, x3
	mov	x11, x2
	cbz	x3, Lh3q_BB126_13
Lh3q_BB126_7:
	ldrb	w12, [x11]
	cmp	x9, #1
	lsl	x12, x12, #3
	ldr	w12, [x8, x12]
	b.eq	Lh3q_BB126_14
	ldrb	w13, [x11, #1]
	cmp	x9, #2
	lsl	x13, x13, #3
	ldr	w13, [x8, x13]
	add	w12, w13, w12
	b.eq	Lh3q_BB126_14
	ldrb	w9, [x11, #2]
	lsl	x9, x9, #3
	ldr	w8, [x8, x9]
	add	w12, w8, w12
	b	Lh3q_BB126_14
Lh3q_BB126_10:
	mov	w10, wzr
	mov	x12, x2
	mov	x9, x3
Lh3q_BB126_11:
	ldrb	w11, [x12]
	ldrb	w13, [x12, #1]
	sub	x9, x9, #4
	ldrb	w14, [x12, #2]
	ldrb	w15, [x12, #3]
	cmp	x9, #4
	lsl	x11, x11, #3
	lsl	x13, x13, #3
	lsl	x14, x14, #3
	lsl	x15, x15, #3
	ldr	w11, [x8, x11]
	ldr	w13, [x8, x13]
	ldr	w14, [x8, x14]
	ldr	w15, [x8, x15]
	add	w10, w11, w10
	add	x11, x12, #4
	add	w13, w13, w14
	mov	x12, x11
	add	w10, w10, w13
	add	w10, w10, w15
	b.hs	Lh3q_BB126_11
	add	w10, w10, #7
	cbnz	x9, Lh3q_BB126_7
Lh3q_BB126_13:
	mov	w12, wzr
Lh3q_BB126_14:
	add	w8, w12, w10
	lsr	w19, w8, #3
	cmp	x19, x3
	b.hs	Lh3q_BB126_4
Lh3q_BB126_15:
	sub	w20, w0, #1
	mov	x8, #-1
	lsl	x8, x8, x20
	mvn	x21, x8
	subs	x9, x19, x21
	b.hs	Lh3q_BB126_17
	mov	w8, #1
	b	Lh3q_BB126_19
Lh3q_BB126_17:
	mov	w8, #2
	cmp	x9, #128
	b.lo	Lh3q_BB126_19
Lh3q_BB126_18:
	lsr	x10, x9, #14
	lsr	x9, x9, #7
	add	x8, x8, #1
	cbnz	x10, Lh3q_BB126_18
Lh3q_BB126_19:
	ldp	x10, x9, [x4, #8]
	adds	x8, x8, x19
	csinv	x8, x8, xzr, lo
	subs	x9, x9, x10
	csel	x9, xzr, x9, lo
	cmp	x8, x9
	b.ls	Lh3q_BB126_22
	mov	w22, w0
	mov	x0, x4
	mov	w23, w1
	mov	x1, x8
	mov	x24, x4
	mov	x26, x3
	mov	x25, x2
	bl	"_qpack_base::coding::grow::<#f5d64057dea64abe>"
	mov	w8, w0
	mov	w1, w23
	mov	x2, x25
	mov	x3, x26
	mov	x4, x24
	mov	w0, w22
	and	w8, w8, #0xff
	tbz	w8, #0, Lh3q_BB126_22
	mov	w0, #1
	ldp	x29, x30, [sp, #64]
	ldp	x20, x19, [sp, #48]
	ldp	x22, x21, [sp, #32]
	ldp	x24, x23, [sp, #16]
	ldp	x26, x25, [sp], #80
	ret
Lh3q_BB126_22:
	mov	w8, #1
	cmp	x19, x21
	orr	w1, w8, w1, lsl #1
	and	x8, x20, #0xff
	b.hs	Lh3q_BB126_24
	mov	w9, #9
	mov	w10, #1
	sub	w9, w9, w0
	lsl	x9, x10, x9
	ldp	x11, x10, [x4]
	cmp	x9, w1, uxtb
	csel	w9, wzr, w9, hi
	sub	w9, w1, w9
	lsl	x8, x9, x8
	add	x9, x10, #1
	add	w8, w19, w8
	strb	w8, [x11, x10]
	str	x9, [x4, #8]
	b	Lh3q_BB126_25
Lh3q_BB126_24:
	mov	w0, w8
	mov	x20, x2
	mov	x2, x19
	mov	x19, x3
	mov	x3, x4
	mov	x21, x4
	bl	"_qpack_base::prefix_int::put_long::<#f5d64057dea64abe>"
	mov	x2, x20
	mov	x3, x19
	mov	x4, x21
Lh3q_BB126_25:
	mov	x0, x2
	mov	x1, x3
	mov	x2, x4
	bl	"_qpack_base::prefix_string::encoding::put_payload::<#f5d64057dea64abe>"
	mov	w0, wzr
	ldp	x29, x30, [sp, #64]
	ldp	x20, x19, [sp, #48]
	ldp	x22, x21, [sp, #32]
	ldp	x24, x23, [sp, #16]
	ldp	x26, x25, [sp], #80
	ret
	.loh AdrpAdd	Lh3q_loh300, Lh3q_loh301
	.loh AdrpAdd	Lh3q_loh302, Lh3q_loh303

	.p2align	2
"_std_collections::btree::node::Node::take_at::<#cd27f3f210e89739>":
	sub	sp, sp, #128
	stp	x20, x19, [sp, #96]
	ldrb	w20, [x1], #1
	ldr	x8, [x0]
	mov	x19, x0
	subs	x2, x2, #1
	stp	x22, x21, [sp, #80]
	stp	x29, x30, [sp, #112]
	add	x29, sp, #112
	b.ne	Lh3q_BB127_4
	ldrh	w9, [x8, #2]
	cbz	w9, Lh3q_BB127_7
	lsl	x21, x20, #3
	add	x8, x8, x21
	add	x0, x8, #248
	bl	"_std_collections::btree::node::Node::pop_last::<#cd27f3f210e89739>"
	ldr	x10, [x19]
	mov	x8, x0
	mov	x9, x1
	add	x11, x10, x20, lsl #4
	ldp	x0, x1, [x11, #8]
	stp	x8, x9, [x11, #8]
	add	x8, x10, x21
	str	x10, [x19]
	ldr	x8, [x8, #248]
	ldrh	w8, [x8]
	cmp	w8, #6
	b.ls	Lh3q_BB127_5
Lh3q_BB127_3:
	ldp	x29, x30, [sp, #112]
	ldp	x20, x19, [sp, #96]
	ldp	x22, x21, [sp, #80]
	add	sp, sp, #128
	ret
Lh3q_BB127_4:
	lsl	x21, x20, #3
	add	x8, x8, x21
	add	x0, x8, #248
	bl	"_std_collections::btree::node::Node::take_at::<#cd27f3f210e89739>"
	ldr	x8, [x19]
	add	x8, x8, x21
	ldr	x8, [x8, #248]
	ldrh	w8, [x8]
	cmp	w8, #6
	b.hi	Lh3q_BB127_3
Lh3q_BB127_5:
	mov	x21, x1
	mov	x22, x0
	cbz	w20, Lh3q_BB127_8
	sub	x1, x20, #1
	mov	x0, x19
	b	Lh3q_BB127_9
Lh3q_BB127_7:
	mov	x10, x8
	mov	w9, #15
	add	x11, x8, #248
	ldrh	w12, [x10], #8
	mov	x0, sp
	mov	x1, x20
	stp	x9, x11, [sp, #16]
	stp	x10, x12, [sp]
	stp	x12, x9, [sp, #32]
	stp	x11, xzr, [sp, #48]
	stp	xzr, x8, [sp, #64]
	bl	"_std_alloc::vec::Vec::remove::<#89b048af38b1c68a>"
	ldr	x8, [sp, #8]
	ldr	x9, [sp, #72]
	strh	w8, [x9]
	str	x9, [x19]
	ldp	x29, x30, [sp, #112]
	ldp	x20, x19, [sp, #96]
	ldp	x22, x21, [sp, #80]
	add	sp, sp, #128
	ret
Lh3q_BB127_8:
	mov	x0, x19
	mov	x1, xzr
Lh3q_BB127_9:
	bl	"_std_collections::btree::node::Node::balance::<#cd27f3f210e89739>"
	mov	x0, x22
	mov	x1, x21
	ldp	x29, x30, [sp, #112]
	ldp	x20, x19, [sp, #96]
	ldp	x22, x21, [sp, #80]
	add	sp, sp, #128
	ret

	.p2align	2
"_std_collections::btree::node::Node::pop_last::<#cd27f3f210e89739>":
	sub	sp, sp, #128
	ldr	x8, [x0]
	stp	x20, x19, [sp, #96]
	mov	x19, x0
	stp	x22, x21, [sp, #80]
	ldrh	w9, [x8, #2]
	ldrh	w20, [x8]
	stp	x29, x30, [sp, #112]
	add	x29, sp, #112
	cbz	w9, Lh3q_BB128_4
	lsl	x21, x20, #3
	add	x8, x8, x21
	add	x0, x8, #248
	bl	"_std_collections::btree::node::Node::pop_last::<#cd27f3f210e89739>"
	ldr	x8, [x19]
	add	x8, x8, x21
	ldr	x8, [x8, #248]
	ldrh	w8, [x8]
	cmp	w8, #6
	b.hi	Lh3q_BB128_5
	mov	x21, x1
	mov	x22, x0
	cbz	w20, Lh3q_BB128_6
	sub	x1, x20, #1
	mov	x0, x19
	b	Lh3q_BB128_7
Lh3q_BB128_4:
	add	x9, x8, #8
	add	x10, x8, #248
	sub	x1, x20, #1
	stp	x9, x20, [sp]
	mov	w9, #15
	mov	x0, sp
	stp	x9, x10, [sp, #16]
	stp	x20, x9, [sp, #32]
	stp	xzr, xzr, [sp, #56]
	str	x10, [sp, #48]
	str	x8, [sp, #72]
	bl	"_std_alloc::vec::Vec::remove::<#89b048af38b1c68a>"
	ldr	x8, [sp, #8]
	ldr	x9, [sp, #72]
	strh	w8, [x9]
	str	x9, [x19]
Lh3q_BB128_5:
	ldp	x29, x30, [sp, #112]
	ldp	x20, x19, [sp, #96]
	ldp	x22, x21, [sp, #80]
	add	sp, sp, #128
	ret
Lh3q_BB128_6:
	mov	x0, x19
	mov	x1, xzr
Lh3q_BB128_7:
	bl	"_std_collections::btree::node::Node::balance::<#cd27f3f210e89739>"
	mov	x0, x22
	mov	x1, x21
	ldp	x29, x30, [sp, #112]
	ldp	x20, x19, [sp, #96]
	ldp	x22, x21, [sp, #80]
	add	sp, sp, #128
	ret

	.p2align	2
"_qpack_encoding::at_risk::StreamsAtRisk::put":
	mov	x13, x0
	ldr	x8, [x0]
	ldr	x9, [x13, #8]!
	cbz	x9, Lh3q_BB129_9
	add	x10, x8, #8
	mov	x11, x9
	b	Lh3q_BB129_3
Lh3q_BB129_2:
	sub	x11, x11, #1
	add	x10, x10, #16
	cbz	x11, Lh3q_BB129_6
Lh3q_BB129_3:
	ldr	x12, [x10]
	cmp	x12, x2
	b.ne	Lh3q_BB129_2
	ldur	x12, [x10, #-8]
	cmp	x1, x12
	b.hi	Lh3q_BB129_2
	ret
Lh3q_BB129_6:
	ldr	x10, [x0, #16]
	add	x12, x8, #24
	stp	xzr, xzr, [x13]
Lh3q_BB129_7:
	ldur	x13, [x12, #-16]
	cmp	x13, x2
	add	x13, x11, #1
	b.eq	Lh3q_BB129_10
	cmp	x9, x13
	add	x12, x12, #16
	mov	x11, x13
	b.ne	Lh3q_BB129_7
	b	Lh3q_BB129_14
Lh3q_BB129_9:
	ldr	x10, [x0, #16]
	str	xzr, [x0, #16]
	b	Lh3q_BB129_14
Lh3q_BB129_10:
	cmp	x13, x9
	b.hs	Lh3q_BB129_13
	mvn	x13, x11
	add	x9, x13, x9
Lh3q_BB129_12:
	ldr	x13, [x12]
	ldur	q0, [x12, #-8]
	add	x12, x12, #16
	str	q0, [x8, x11, lsl #4]
	cmp	x13, x2
	cinc	x11, x11, ne
	subs	x9, x9, #1
	b.ne	Lh3q_BB129_12
Lh3q_BB129_13:
	mov	x9, x11
Lh3q_BB129_14:
	str	x8, [x0]
	add	x8, x8, x9, lsl #4
	str	x10, [x0, #16]
	stp	x1, x2, [x8]
	add	x8, x9, #1
	str	x8, [x0, #8]
	ret

	.globl	_h3q_version
	.p2align	2
_h3q_version:
	mov	w0, #2
	ret

	.globl	_h3q_decoder_free
	.p2align	2
_h3q_decoder_free:
	sub	sp, sp, #208
	ldr	x8, [x0, #128]
	stp	x28, x27, [sp, #112]
	stp	x22, x21, [sp, #160]
	ldp	x28, x27, [x0, #24]
	str	x8, [sp, #40]
	ldr	x8, [x0, #160]
	ldr	x22, [x0, #56]
	stp	x20, x19, [sp, #176]
	ldrb	w19, [x0, #152]
	str	x8, [sp, #8]
	ldr	x8, [x0, #192]
	stp	x26, x25, [sp, #128]
	ldr	x26, [x0, #144]
	ldr	x25, [x0, #232]
	str	x8, [sp, #16]
	ldr	x8, [x0, #216]
	stp	x24, x23, [sp, #144]
	ldrb	w24, [x0, #184]
	ldrb	w23, [x0, #272]
	str	x8, [sp, #48]
	ldr	x8, [x0, #280]
	stp	x29, x30, [sp, #192]
	add	x29, sp, #192
	str	x8, [sp, #24]
	ldrb	w8, [x0, #296]
	ldp	x20, x21, [x0, #40]
	str	w8, [sp, #84]
	ldr	x8, [x0, #304]
	str	x8, [sp, #32]
	ldr	x8, [x0, #320]
	str	x8, [sp, #56]
	ldr	x8, [x0, #336]
	str	x8, [sp, #88]
	ldr	x8, [x0, #464]
	str	x8, [sp, #64]
	ldr	x8, [x0, #480]
	str	x8, [sp, #96]
	ldr	x8, [x0, #488]
	str	x8, [sp, #72]
	ldr	x8, [x0, #504]
	stur	x8, [x29, #-88]
	bl	_rattle_dealloc
	cbz	x27, Lh3q_BB131_11
	sub	x27, x27, x22
	add	x8, x27, x21
	cmp	x21, x8
	b.hs	Lh3q_BB131_6
	mov	w8, #48
	madd	x8, x21, x8, x28
	add	x21, x8, #16
	b	Lh3q_BB131_4
Lh3q_BB131_3:
	subs	x27, x27, #1
	add	x21, x21, #48
	b.eq	Lh3q_BB131_6
Lh3q_BB131_4:
	ldr	x8, [x21]
	cbz	x8, Lh3q_BB131_3
	ldur	x0, [x21, #-16]
	bl	_rattle_dealloc
	b	Lh3q_BB131_3
Lh3q_BB131_6:
	cbz	x22, Lh3q_BB131_11
	add	x21, x28, #16
	b	Lh3q_BB131_9
Lh3q_BB131_8:
	subs	x22, x22, #1
	add	x21, x21, #48
	b.eq	Lh3q_BB131_11
Lh3q_BB131_9:
	ldr	x8, [x21]
	cbz	x8, Lh3q_BB131_8
	ldur	x0, [x21, #-16]
	bl	_rattle_dealloc
	b	Lh3q_BB131_8
Lh3q_BB131_11:
	cbz	x20, Lh3q_BB131_13
	mov	x0, x28
	bl	_rattle_dealloc
Lh3q_BB131_13:
	cbz	x26, Lh3q_BB131_15
	ldr	x0, [sp, #40]
	bl	_rattle_dealloc
Lh3q_BB131_15:
	cmp	w19, #1
	b.eq	Lh3q_BB131_27
	cmp	w24, #1
	b.eq	Lh3q_BB131_28
Lh3q_BB131_17:
	cbz	x25, Lh3q_BB131_19
Lh3q_BB131_18:
	ldr	x0, [sp, #48]
	bl	_rattle_dealloc
Lh3q_BB131_19:
	cmp	w23, #1
	b.eq	Lh3q_BB131_29
	ldr	w8, [sp, #84]
	cmp	w8, #1
	b.eq	Lh3q_BB131_30
Lh3q_BB131_21:
	ldr	x8, [sp, #88]
	cbz	x8, Lh3q_BB131_23
Lh3q_BB131_22:
	ldr	x0, [sp, #56]
	bl	_rattle_dealloc
Lh3q_BB131_23:
	ldr	x8, [sp, #96]
	cbz	x8, Lh3q_BB131_25
	ldr	x0, [sp, #64]
	bl	_rattle_dealloc
Lh3q_BB131_25:
	ldur	x8, [x29, #-88]
	cbz	x8, Lh3q_BB131_31
	ldp	x29, x30, [sp, #192]
	ldr	x0, [sp, #72]
	ldp	x20, x19, [sp, #176]
	ldp	x22, x21, [sp, #160]
	ldp	x24, x23, [sp, #144]
	ldp	x26, x25, [sp, #128]
	ldp	x28, x27, [sp, #112]
	add	sp, sp, #208
	b	_rattle_dealloc
Lh3q_BB131_27:
	ldr	x0, [sp, #8]
	bl	"_std_collections::btree::node::Node::destroy::<#bf85185a38bd87d2>"
	cmp	w24, #1
	b.ne	Lh3q_BB131_17
Lh3q_BB131_28:
	ldr	x0, [sp, #16]
	bl	"_std_collections::btree::node::Node::destroy::<#0873b75fdd7caed6>"
	cbnz	x25, Lh3q_BB131_18
	b	Lh3q_BB131_19
Lh3q_BB131_29:
	ldr	x0, [sp, #24]
	bl	"_std_collections::btree::node::Node::destroy::<#e2e2e5076f5d4f7b>"
	ldr	w8, [sp, #84]
	cmp	w8, #1
	b.ne	Lh3q_BB131_21
Lh3q_BB131_30:
	ldr	x0, [sp, #32]
	bl	"_std_collections::btree::node::Node::destroy::<#c1378e5419258927>"
	ldr	x8, [sp, #88]
	cbnz	x8, Lh3q_BB131_22
	b	Lh3q_BB131_23
Lh3q_BB131_31:
	ldp	x29, x30, [sp, #192]
	ldp	x20, x19, [sp, #176]
	ldp	x22, x21, [sp, #160]
	ldp	x24, x23, [sp, #144]
	ldp	x26, x25, [sp, #128]
	ldp	x28, x27, [sp, #112]
	add	sp, sp, #208
	ret

	.globl	_h3q_encoder_free
	.p2align	2
_h3q_encoder_free:
	sub	sp, sp, #192
	ldr	x8, [x0, #144]
	stp	x22, x21, [sp, #144]
	ldr	x21, [x0, #272]
	stp	x28, x27, [sp, #96]
	str	x8, [sp, #24]
	ldr	x8, [x0, #176]
	stp	x26, x25, [sp, #112]
	ldp	x27, x26, [x0, #40]
	str	x8, [sp, #8]
	ldr	x8, [x0, #208]
	ldr	x25, [x0, #160]
	stp	x20, x19, [sp, #160]
	ldr	x19, [x0, #72]
	str	x8, [sp, #16]
	ldr	x8, [x0, #232]
	stp	x24, x23, [sp, #128]
	ldrb	w23, [x0, #168]
	ldrb	w24, [x0, #200]
	str	x8, [sp, #32]
	ldp	x22, x8, [x0, #248]
	stp	x29, x30, [sp, #176]
	add	x29, sp, #176
	ldp	x28, x20, [x0, #56]
	str	x8, [sp, #40]
	ldr	x8, [x0, #288]
	str	x8, [sp, #48]
	ldr	x8, [x0, #304]
	str	x8, [sp, #72]
	ldr	x8, [x0, #1480]
	str	x8, [sp, #56]
	ldr	x8, [x0, #1496]
	str	x8, [sp, #80]
	ldr	x8, [x0, #1560]
	str	x8, [sp, #64]
	ldr	x8, [x0, #1576]
	str	x8, [sp, #88]
	bl	_rattle_dealloc
	cbz	x26, Lh3q_BB132_11
	sub	x26, x26, x19
	add	x8, x26, x20
	cmp	x20, x8
	b.hs	Lh3q_BB132_6
	mov	w8, #48
	madd	x8, x20, x8, x27
	add	x20, x8, #16
	b	Lh3q_BB132_4
Lh3q_BB132_3:
	subs	x26, x26, #1
	add	x20, x20, #48
	b.eq	Lh3q_BB132_6
Lh3q_BB132_4:
	ldr	x8, [x20]
	cbz	x8, Lh3q_BB132_3
	ldur	x0, [x20, #-16]
	bl	_rattle_dealloc
	b	Lh3q_BB132_3
Lh3q_BB132_6:
	cbz	x19, Lh3q_BB132_11
	add	x20, x27, #16
	b	Lh3q_BB132_9
Lh3q_BB132_8:
	subs	x19, x19, #1
	add	x20, x20, #48
	b.eq	Lh3q_BB132_11
Lh3q_BB132_9:
	ldr	x8, [x20]
	cbz	x8, Lh3q_BB132_8
	ldur	x0, [x20, #-16]
	bl	_rattle_dealloc
	b	Lh3q_BB132_8
Lh3q_BB132_11:
	cbz	x28, Lh3q_BB132_13
	mov	x0, x27
	bl	_rattle_dealloc
Lh3q_BB132_13:
	cbz	x25, Lh3q_BB132_15
	ldr	x0, [sp, #24]
	bl	_rattle_dealloc
Lh3q_BB132_15:
	cmp	w23, #1
	b.eq	Lh3q_BB132_27
	cmp	w24, #1
	b.eq	Lh3q_BB132_28
Lh3q_BB132_17:
	cbz	x22, Lh3q_BB132_19
Lh3q_BB132_18:
	ldr	x0, [sp, #32]
	bl	_rattle_dealloc
Lh3q_BB132_19:
	cbz	x21, Lh3q_BB132_21
	ldr	x0, [sp, #40]
	bl	_rattle_dealloc
Lh3q_BB132_21:
	ldr	x8, [sp, #72]
	cbz	x8, Lh3q_BB132_23
	ldr	x0, [sp, #48]
	bl	_rattle_dealloc
Lh3q_BB132_23:
	ldr	x8, [sp, #80]
	cbz	x8, Lh3q_BB132_25
	ldr	x0, [sp, #56]
	bl	_rattle_dealloc
Lh3q_BB132_25:
	ldr	x8, [sp, #88]
	cbz	x8, Lh3q_BB132_29
	ldp	x29, x30, [sp, #176]
	ldr	x0, [sp, #64]
	ldp	x20, x19, [sp, #160]
	ldp	x22, x21, [sp, #144]
	ldp	x24, x23, [sp, #128]
	ldp	x26, x25, [sp, #112]
	ldp	x28, x27, [sp, #96]
	add	sp, sp, #192
	b	_rattle_dealloc
Lh3q_BB132_27:
	ldr	x0, [sp, #8]
	bl	"_std_collections::btree::node::Node::destroy::<#bf85185a38bd87d2>"
	cmp	w24, #1
	b.ne	Lh3q_BB132_17
Lh3q_BB132_28:
	ldr	x0, [sp, #16]
	bl	"_std_collections::btree::node::Node::destroy::<#0873b75fdd7caed6>"
	cbnz	x22, Lh3q_BB132_18
	b	Lh3q_BB132_19
Lh3q_BB132_29:
	ldp	x29, x30, [sp, #176]
	ldp	x20, x19, [sp, #160]
	ldp	x22, x21, [sp, #144]
	ldp	x24, x23, [sp, #128]
	ldp	x26, x25, [sp, #112]
	ldp	x28, x27, [sp, #96]
	add	sp, sp, #192
	ret

	.globl	_h3q_reader_free
	.p2align	2
_h3q_reader_free:
	stp	x24, x23, [sp, #-64]!
	stp	x20, x19, [sp, #32]
	ldp	x23, x19, [x0, #200]
	stp	x22, x21, [sp, #16]
	ldr	x21, [x0, #8]
	ldr	x24, [x0, #24]
	ldr	x20, [x0, #184]
	ldr	x22, [x0, #224]
	stp	x29, x30, [sp, #48]
	add	x29, sp, #48
	bl	_rattle_dealloc
	cbz	x24, Lh3q_BB133_2
	mov	x0, x21
	bl	_rattle_dealloc
Lh3q_BB133_2:
	cbz	x23, Lh3q_BB133_4
	mov	x0, x20
	bl	_rattle_dealloc
Lh3q_BB133_4:
	cbz	x22, Lh3q_BB133_6
	mov	x0, x19
	ldp	x29, x30, [sp, #48]
	ldp	x20, x19, [sp, #32]
	ldp	x22, x21, [sp, #16]
	ldp	x24, x23, [sp], #64
	b	_rattle_dealloc
Lh3q_BB133_6:
	ldp	x29, x30, [sp, #48]
	ldp	x20, x19, [sp, #32]
	ldp	x22, x21, [sp, #16]
	ldp	x24, x23, [sp], #64
	ret

	.globl	_h3q_decoder_new
	.p2align	2
_h3q_decoder_new:
	stp	x26, x25, [sp, #-80]!
	stp	x24, x23, [sp, #16]
	stp	x22, x21, [sp, #32]
	stp	x20, x19, [sp, #48]
	stp	x29, x30, [sp, #64]
	add	x29, sp, #64
	sub	sp, sp, #784
	movi.2d	v0, #0000000000000000
	lsr	x9, x0, #30
	mov	x19, x3
	add	x20, sp, #128
	add	x8, sp, #496
	stp	xzr, xzr, [sp, #144]
	str	wzr, [sp, #136]
	stur	wzr, [x20, #11]
	stp	q0, q0, [sp]
	stp	q0, q0, [sp, #32]
	stp	q0, q0, [sp, #64]
	stp	q0, q0, [sp, #160]
	str	wzr, [sp, #128]
	stur	wzr, [x20, #3]
	str	wzr, [sp, #120]
	stur	wzr, [sp, #123]
	str	wzr, [sp, #112]
	stur	wzr, [sp, #115]
	str	xzr, [sp, #96]
	stp	q0, q0, [sp, #544]
	str	xzr, [sp, #536]
	str	xzr, [sp, #528]
	str	wzr, [sp, #520]
	stur	wzr, [x8, #27]
	str	wzr, [sp, #512]
	stur	wzr, [x8, #19]
	stur	wzr, [x8, #11]
	str	wzr, [sp, #504]
	stur	wzr, [x8, #3]
	str	wzr, [sp, #496]
	str	xzr, [sp, #480]
	stp	q0, q0, [sp, #384]
	stp	q0, q0, [sp, #416]
	stp	q0, q0, [sp, #448]
	cbnz	x9, Lh3q_BB134_2
	mov	w9, #65535
	sub	x10, x29, #72
	stp	q0, q0, [sp, #192]
	cmp	x1, x9
	stp	q0, q0, [sp, #224]
	cset	w9, lo
	stp	q0, q0, [sp, #352]
	csel	x23, x0, xzr, lo
	stp	xzr, xzr, [sp, #336]
	csel	x24, x1, xzr, lo
	csel	x25, x2, xzr, lo
	str	wzr, [sp, #328]
	csel	x21, x10, xzr, lo
	mov	x22, x9
	stur	wzr, [x20, #203]
	str	wzr, [sp, #320]
	stur	wzr, [x20, #195]
	str	wzr, [sp, #312]
	stur	wzr, [x20, #187]
	str	wzr, [sp, #304]
	stur	wzr, [x20, #179]
	b	Lh3q_BB134_3
Lh3q_BB134_2:
	mov	w9, wzr
	mov	x23, xzr
	mov	x24, xzr
	mov	x25, xzr
	mov	x21, xzr
	mov	x22, xzr
	stp	q0, q0, [sp, #352]
	stp	xzr, xzr, [sp, #336]
	str	wzr, [sp, #328]
	stur	wzr, [x20, #203]
	str	wzr, [sp, #320]
	stur	wzr, [x20, #195]
	str	wzr, [sp, #312]
	stur	wzr, [x20, #187]
	str	wzr, [sp, #304]
	stur	wzr, [x20, #179]
	stp	q0, q0, [sp, #192]
	stp	q0, q0, [sp, #224]
Lh3q_BB134_3:
	stp	q0, q0, [sp, #256]
	str	xzr, [sp, #288]
	stp	xzr, xzr, [x29, #-128]
	stur	wzr, [x29, #-136]
	stp	q0, q0, [x29, #-112]
	stur	wzr, [x8, #219]
	stur	wzr, [x29, #-144]
	stur	wzr, [x8, #211]
	stur	wzr, [x29, #-152]
	stur	wzr, [x8, #203]
	stur	wzr, [x29, #-160]
	stur	wzr, [x8, #195]
	stp	q0, q0, [sp, #576]
	stp	q0, q0, [sp, #608]
	stp	q0, q0, [sp, #640]
	str	xzr, [sp, #672]
	cbz	w9, Lh3q_BB134_5
	ldp	q0, q1, [sp, #352]
	ldr	w10, [sp, #328]
	ldur	w11, [x20, #203]
	stur	w10, [x29, #-136]
	ldr	w10, [sp, #320]
	stp	q0, q1, [x29, #-112]
	ldr	q0, [sp, #336]
	stur	w10, [x29, #-144]
	ldur	w10, [x20, #187]
	stur	q0, [x29, #-128]
	ldp	q1, q0, [sp, #192]
	stur	w10, [x8, #203]
	ldur	w10, [x20, #179]
	stur	w11, [x8, #219]
	ldur	w11, [x20, #195]
	stp	q1, q0, [sp, #576]
	ldp	q1, q0, [sp, #256]
	stur	w10, [x8, #195]
	ldr	w10, [sp, #304]
	stur	w11, [x8, #211]
	ldr	w11, [sp, #312]
	stp	q1, q0, [sp, #640]
	ldp	q2, q0, [sp, #224]
	stur	w10, [x29, #-160]
	ldr	x10, [sp, #288]
	stur	w11, [x29, #-152]
	str	x10, [sp, #672]
	stp	q2, q0, [sp, #608]
	b	Lh3q_BB134_6
Lh3q_BB134_5:
	mov	x23, xzr
	mov	x24, xzr
	mov	x25, xzr
	mov	x21, xzr
	mov	x22, xzr
Lh3q_BB134_6:
	ldp	q0, q1, [x29, #-112]
	ldur	w10, [x29, #-136]
	ldur	w11, [x8, #219]
	str	w10, [sp, #520]
	ldur	w10, [x29, #-144]
	stp	q0, q1, [sp, #544]
	ldur	q0, [x29, #-128]
	str	w10, [sp, #512]
	ldur	w10, [x8, #203]
	str	q0, [sp, #528]
	ldp	q0, q1, [sp, #640]
	stur	w10, [x8, #11]
	ldur	w10, [x29, #-160]
	stur	w11, [x8, #27]
	ldur	w11, [x8, #211]
	stp	q0, q1, [sp, #448]
	ldp	q0, q1, [sp, #576]
	str	w10, [sp, #496]
	ldur	w10, [x8, #195]
	stur	w11, [x8, #19]
	ldur	w11, [x29, #-152]
	stp	q0, q1, [sp, #384]
	ldp	q0, q2, [sp, #608]
	stur	w10, [x8, #3]
	ldr	x10, [sp, #672]
	str	w11, [sp, #504]
	str	x10, [sp, #480]
	stp	q0, q2, [sp, #416]
	tbz	w9, #0, Lh3q_BB134_9
	ldp	q0, q1, [sp, #544]
	mov	w0, #512
	ldr	w9, [sp, #520]
	ldur	w10, [x8, #27]
	mov	w1, #8
	stp	q0, q1, [sp, #160]
	ldr	q0, [sp, #528]
	str	w9, [sp, #136]
	ldr	w9, [sp, #512]
	str	q0, [sp, #144]
	ldp	q0, q1, [sp, #448]
	str	w9, [sp, #128]
	ldur	w9, [x8, #11]
	stur	w10, [x20, #11]
	ldur	w10, [x8, #19]
	ldur	w8, [x8, #3]
	stur	w9, [sp, #123]
	ldr	w9, [sp, #504]
	stp	q0, q1, [sp, #64]
	ldp	q0, q1, [sp, #384]
	str	w9, [sp, #120]
	ldr	w9, [sp, #496]
	stur	w10, [x20, #3]
	stp	q0, q1, [sp]
	ldp	q0, q2, [sp, #416]
	str	w9, [sp, #112]
	stur	w8, [sp, #115]
	ldr	x8, [sp, #480]
	stp	q0, q2, [sp, #32]
	str	x8, [sp, #96]
	bl	_rattle_alloc
	tbz	w0, #0, Lh3q_BB134_10
	ldr	w8, [sp, #136]
	ldur	w9, [x20, #11]
	movi.2d	v0, #0000000000000000
	ldp	q1, q2, [sp, #160]
	add	x10, x1, #273
	stur	w8, [x1, #153]
	ldr	w8, [sp, #128]
	mov	w0, wzr
	str	w9, [x1, #156]
	ldur	w9, [x20, #3]
	stp	q0, q0, [x1, #32]
	stp	q1, q2, [x1, #64]
	ldr	q1, [sp, #144]
	stur	w8, [x1, #185]
	ldur	w8, [sp, #123]
	str	w9, [x1, #188]
	ldr	w9, [sp, #120]
	str	q1, [x1, #112]
	ldp	q2, q1, [sp]
	str	w8, [x1, #276]
	ldur	w8, [sp, #115]
	str	w9, [x10]
	ldr	w9, [sp, #112]
	add	x10, x1, #297
	str	w8, [x1, #300]
	add	x8, x1, #328
	str	w9, [x10]
	add	x9, x1, #360
	stp	q0, q0, [x8]
	ldr	x8, [sp, #96]
	stp	q2, q1, [x9]
	ldp	q1, q0, [sp, #64]
	stp	x23, x24, [x1]
	stp	x25, x21, [x1, #16]
	stp	q1, q0, [x9, #64]
	ldp	q0, q2, [sp, #32]
	stp	x22, x23, [x1, #96]
	strb	wzr, [x1, #152]
	stp	q0, q2, [x9, #32]
	sub	x9, x29, #72
	stp	x21, xzr, [x1, #128]
	str	xzr, [x1, #144]
	stp	xzr, xzr, [x1, #168]
	str	xzr, [x1, #160]
	strb	wzr, [x1, #184]
	stp	xzr, xzr, [x1, #192]
	stp	xzr, x21, [x1, #208]
	stp	xzr, xzr, [x1, #224]
	stp	xzr, x22, [x1, #240]
	strb	wzr, [x1, #272]
	stp	xzr, xzr, [x1, #256]
	strb	wzr, [x1, #296]
	stp	xzr, xzr, [x1, #280]
	stp	xzr, xzr, [x1, #304]
	str	x21, [x1, #320]
	stp	x8, x9, [x1, #456]
	stp	xzr, xzr, [x1, #472]
	stp	xzr, xzr, [x1, #496]
	str	x9, [x1, #488]
	str	x1, [x19]
	b	Lh3q_BB134_11
Lh3q_BB134_9:
	mov	w0, #-4
	b	Lh3q_BB134_11
Lh3q_BB134_10:
	mov	w0, #-1
Lh3q_BB134_11:
	add	sp, sp, #784
	ldp	x29, x30, [sp, #64]
	ldp	x20, x19, [sp, #48]
	ldp	x22, x21, [sp, #32]
	ldp	x24, x23, [sp, #16]
	ldp	x26, x25, [sp], #80
	ret

	.globl	_h3q_encoder_new
	.p2align	2
_h3q_encoder_new:
	stp	x28, x27, [sp, #-96]!
	stp	x26, x25, [sp, #16]
	stp	x24, x23, [sp, #32]
	stp	x22, x21, [sp, #48]
	stp	x20, x19, [sp, #64]
	stp	x29, x30, [sp, #80]
	add	x29, sp, #80
	sub	sp, sp, #3072
	str	xzr, [sp]
	sub	sp, sp, #2048
	movi.2d	v0, #0000000000000000
	str	xzr, [sp]
	mov	x21, x0
	str	x1, [sp, #72]
	add	x25, sp, #1296
	add	x0, sp, #608
	mov	w1, #687
	str	x5, [sp, #8]
	mov	x27, x4
	mov	x28, x3
	mov	x22, x2
	str	wzr, [sp, #1304]
	str	wzr, [sp, #1296]
	sub	x23, x29, #160
	add	x24, sp, #3896
	stur	wzr, [x25, #11]
	add	x19, sp, #3056
	add	x26, sp, #1808
	str	q0, [sp, #1312]
	str	q0, [sp, #1328]
	stur	wzr, [x25, #3]
	bl	_bzero
	movi.2d	v0, #0000000000000000
	add	x0, sp, #2368
	mov	w1, #687
	str	xzr, [sp, #592]
	strb	wzr, [sp, #464]
	stur	xzr, [sp, #190]
	str	q0, [sp, #480]
	stp	q0, q0, [sp, #80]
	stp	q0, q0, [sp, #160]
	stp	q0, q0, [sp, #208]
	stp	q0, q0, [sp, #240]
	stp	q0, q0, [sp, #272]
	stp	q0, q0, [sp, #304]
	stp	q0, q0, [sp, #336]
	stp	q0, q0, [sp, #368]
	stp	q0, q0, [sp, #400]
	stp	q0, q0, [sp, #432]
	stp	q0, q0, [sp, #496]
	stp	q0, q0, [sp, #528]
	stp	q0, q0, [sp, #560]
	str	wzr, [sp, #152]
	stur	wzr, [sp, #155]
	stp	xzr, xzr, [sp, #136]
	str	xzr, [sp, #128]
	str	q0, [sp, #112]
	str	q0, [sp, #3072]
	str	q0, [sp, #3088]
	str	wzr, [sp, #3064]
	stur	wzr, [x19, #11]
	stur	wzr, [x19, #3]
	str	wzr, [sp, #3056]
	bl	_bzero
	movi.2d	v0, #0000000000000000
	lsr	x20, x21, #30
	str	xzr, [sp, #2352]
	strb	wzr, [sp, #2224]
	stur	xzr, [x26, #142]
	str	wzr, [sp, #1912]
	str	q0, [sp, #2336]
	str	q0, [sp, #2320]
	str	q0, [sp, #2304]
	str	q0, [sp, #2288]
	str	q0, [sp, #2272]
	str	q0, [sp, #2256]
	str	q0, [sp, #2240]
	str	q0, [sp, #1968]
	str	q0, [sp, #1984]
	str	q0, [sp, #2000]
	str	q0, [sp, #2016]
	str	q0, [sp, #2032]
	str	q0, [sp, #2048]
	str	q0, [sp, #2064]
	str	q0, [sp, #2080]
	str	q0, [sp, #2096]
	str	q0, [sp, #2112]
	str	q0, [sp, #2128]
	str	q0, [sp, #2144]
	str	q0, [sp, #2160]
	str	q0, [sp, #2176]
	str	q0, [sp, #2192]
	str	q0, [sp, #2208]
	str	q0, [sp, #1936]
	str	q0, [sp, #1920]
	stur	wzr, [x26, #107]
	str	xzr, [sp, #1904]
	str	xzr, [sp, #1888]
	str	xzr, [sp, #1896]
	str	q0, [sp, #1856]
	str	q0, [sp, #1872]
	cbnz	x20, Lh3q_BB135_2
	add	x0, sp, #3152
	mov	w1, #552
	stp	x28, x27, [sp, #56]
	strh	wzr, [sp, #3108]
	add	x27, sp, #3152
	str	wzr, [sp, #3104]
	bl	_bzero
	movi.16b	v0, #128
	cmp	x21, x22
	add	x8, x27, #552
	csel	x28, x21, x22, lo
	mov	x9, #-9187201950435737472
	movi.2d	v1, #0000000000000000
	cmp	x28, #0
	stur	x9, [x8, #127]
	sub	x27, x29, #104
	str	wzr, [sp, #1816]
	stp	q0, q0, [x8]
	stp	q0, q0, [x8, #32]
	stp	q0, q0, [x8, #64]
	stp	q0, q0, [x8, #96]
	cset	w8, ne
	str	x8, [sp, #40]
	mov	w8, #255
	str	w8, [sp, #36]
	mov	w8, #2
	str	w8, [sp, #32]
	mov	w8, #164
	str	w8, [sp, #28]
	mov	w8, #4096
	str	x8, [sp, #16]
	mov	w8, #1
	stur	q1, [x19, #54]
	stur	q1, [x19, #70]
	str	q1, [sp, #1824]
	str	q1, [sp, #1840]
	stur	wzr, [x26, #11]
	str	wzr, [sp, #1808]
	stur	wzr, [x26, #3]
	str	x9, [sp, #1792]
	str	q0, [sp, #1776]
	str	q0, [sp, #1760]
	str	q0, [sp, #1744]
	str	q0, [sp, #1728]
	str	q0, [sp, #1712]
	str	q0, [sp, #1696]
	str	q0, [sp, #1680]
	strb	wzr, [sp, #1664]
	str	q1, [sp, #1648]
	str	q1, [sp, #1632]
	str	q1, [sp, #1616]
	str	q1, [sp, #1600]
	str	q1, [sp, #1584]
	str	q1, [sp, #1568]
	str	q1, [sp, #1552]
	str	q1, [sp, #1536]
	str	q1, [sp, #1520]
	str	q1, [sp, #1504]
	str	q1, [sp, #1488]
	str	q1, [sp, #1472]
	str	q1, [sp, #1456]
	str	q1, [sp, #1440]
	str	q1, [sp, #1424]
	str	q1, [sp, #1408]
	stur	wzr, [x25, #107]
	str	wzr, [sp, #1400]
	str	xzr, [sp, #1392]
	str	xzr, [sp, #1376]
	str	xzr, [sp, #1384]
	str	q1, [sp, #1344]
	str	x8, [sp, #48]
	str	q1, [sp, #1360]
	b	Lh3q_BB135_3
Lh3q_BB135_2:
	add	x0, sp, #3152
	mov	w1, #687
	str	q0, [sp, #1840]
	str	q0, [sp, #1824]
	str	wzr, [sp, #1816]
	stur	wzr, [x26, #11]
	str	wzr, [sp, #1808]
	stur	wzr, [x26, #3]
	bl	_bzero
	movi.2d	v0, #0000000000000000
	mov	x21, xzr
	mov	x22, xzr
	mov	x27, xzr
	mov	x28, xzr
	stp	xzr, xzr, [sp, #64]
	stp	xzr, xzr, [sp, #48]
	str	xzr, [sp, #16]
	str	wzr, [sp, #28]
	stp	xzr, xzr, [sp, #32]
	str	xzr, [sp, #1792]
	str	q0, [sp, #1776]
	str	q0, [sp, #1760]
	str	q0, [sp, #1744]
	str	q0, [sp, #1728]
	str	q0, [sp, #1712]
	str	q0, [sp, #1696]
	str	q0, [sp, #1680]
	str	q0, [sp, #1408]
	str	q0, [sp, #1424]
	str	q0, [sp, #1440]
	str	q0, [sp, #1456]
	str	q0, [sp, #1472]
	str	q0, [sp, #1488]
	str	q0, [sp, #1504]
	str	q0, [sp, #1520]
	str	q0, [sp, #1536]
	str	q0, [sp, #1552]
	str	q0, [sp, #1568]
	str	q0, [sp, #1584]
	str	q0, [sp, #1600]
	str	q0, [sp, #1616]
	str	q0, [sp, #1632]
	str	q0, [sp, #1648]
	strb	wzr, [sp, #1664]
	stur	xzr, [x19, #78]
	str	q0, [sp, #3120]
	str	q0, [sp, #3104]
	str	wzr, [sp, #1400]
	stur	wzr, [x25, #107]
	str	xzr, [sp, #1392]
	str	xzr, [sp, #1376]
	str	xzr, [sp, #1384]
	str	q0, [sp, #1344]
	str	q0, [sp, #1360]
Lh3q_BB135_3:
	movi.2d	v0, #0000000000000000
	add	x0, sp, #1, lsl #12
	mov	w1, #687
	add	x0, x0, #256
	stur	wzr, [x29, #-152]
	stur	wzr, [x23, #11]
	stur	wzr, [x29, #-160]
	stp	q0, q0, [x29, #-144]
	stur	wzr, [x23, #3]
	bl	_bzero
	movi.2d	v0, #0000000000000000
	str	xzr, [sp, #4336]
	strb	wzr, [x24, #312]
	stur	xzr, [x24, #38]
	str	wzr, [sp, #3896]
	str	q0, [sp, #4320]
	str	q0, [sp, #4304]
	str	q0, [sp, #4288]
	str	q0, [sp, #4272]
	str	q0, [sp, #4256]
	str	q0, [sp, #4240]
	str	q0, [sp, #4224]
	str	q0, [sp, #3952]
	str	q0, [sp, #3968]
	str	q0, [sp, #3984]
	str	q0, [sp, #4000]
	str	q0, [sp, #4016]
	str	q0, [sp, #4032]
	str	q0, [sp, #4048]
	str	q0, [sp, #4064]
	str	q0, [sp, #4080]
	str	q0, [sp, #4096]
	str	q0, [sp, #4112]
	str	q0, [sp, #4128]
	str	q0, [sp, #4144]
	str	q0, [sp, #4160]
	str	q0, [sp, #4176]
	str	q0, [sp, #4192]
	str	q0, [sp, #3920]
	str	q0, [sp, #3904]
	stur	wzr, [x24, #3]
	str	xzr, [sp, #3888]
	str	xzr, [sp, #3872]
	str	xzr, [sp, #3880]
	str	q0, [sp, #3840]
	str	q0, [sp, #3856]
	cbnz	x20, Lh3q_BB135_5
	ldr	w8, [sp, #1816]
	ldur	w9, [x26, #11]
	add	x0, sp, #1, lsl #12
	ldr	q0, [sp, #1824]
	ldr	q1, [sp, #1840]
	add	x0, x0, #256
	stur	w8, [x29, #-152]
	ldr	w8, [sp, #1808]
	add	x1, sp, #3152
	stur	w9, [x23, #11]
	ldur	w9, [x26, #3]
	mov	w2, #687
	stp	q0, q1, [x29, #-144]
	stur	w8, [x29, #-160]
	stur	w9, [x23, #3]
	bl	_memcpy
	ldr	q0, [sp, #1744]
	ldr	q1, [sp, #1760]
	add	x0, sp, #3952
	ldr	q2, [sp, #1776]
	ldr	x8, [sp, #1792]
	add	x1, sp, #1408
	str	q0, [sp, #4288]
	ldr	q0, [sp, #1680]
	mov	w2, #257
	str	q1, [sp, #4304]
	ldr	q1, [sp, #1696]
	str	q2, [sp, #4320]
	ldr	q2, [sp, #1712]
	str	q0, [sp, #4224]
	ldr	q0, [sp, #1728]
	str	x8, [sp, #4336]
	str	q1, [sp, #4240]
	str	q2, [sp, #4256]
	str	q0, [sp, #4272]
	bl	_memcpy
	ldr	q0, [sp, #3104]
	ldr	q1, [sp, #3120]
	ldur	x8, [x19, #78]
	ldr	w9, [sp, #1400]
	str	q0, [sp, #3904]
	ldr	q0, [sp, #1376]
	str	q1, [sp, #3920]
	ldr	q1, [sp, #1344]
	stur	x8, [x24, #38]
	ldur	w8, [x25, #107]
	str	w9, [sp, #3896]
	stur	w8, [x24, #3]
	ldr	x8, [sp, #1392]
	str	q0, [sp, #3872]
	ldr	q0, [sp, #1360]
	str	x8, [sp, #3888]
	str	q0, [sp, #3856]
	str	q1, [sp, #3840]
	b	Lh3q_BB135_6
Lh3q_BB135_5:
	mov	x21, xzr
	stp	xzr, xzr, [sp, #64]
	mov	x22, xzr
	stp	xzr, xzr, [sp, #48]
	mov	x27, xzr
	mov	x28, xzr
	str	xzr, [sp, #16]
	str	wzr, [sp, #28]
	stp	xzr, xzr, [sp, #32]
Lh3q_BB135_6:
	ldur	w8, [x29, #-152]
	ldur	w9, [x23, #11]
	add	x1, sp, #1, lsl #12
	ldp	q0, q1, [x29, #-144]
	add	x0, sp, #2368
	str	w8, [sp, #3064]
	ldur	w8, [x29, #-160]
	add	x1, x1, #256
	stur	w9, [x19, #11]
	ldur	w9, [x23, #3]
	mov	w2, #687
	str	q0, [sp, #3072]
	str	q1, [sp, #3088]
	str	w8, [sp, #3056]
	stur	w9, [x19, #3]
	bl	_memcpy
	ldr	q0, [sp, #4288]
	ldr	q1, [sp, #4304]
	add	x0, sp, #1968
	ldr	q2, [sp, #4320]
	ldr	x8, [sp, #4336]
	add	x1, sp, #3952
	str	q0, [sp, #2304]
	ldr	q0, [sp, #4224]
	mov	w2, #257
	str	q1, [sp, #2320]
	ldr	q1, [sp, #4240]
	str	q2, [sp, #2336]
	ldr	q2, [sp, #4256]
	str	q0, [sp, #2240]
	ldr	q0, [sp, #4272]
	str	x8, [sp, #2352]
	str	q1, [sp, #2256]
	str	q2, [sp, #2272]
	str	q0, [sp, #2288]
	bl	_memcpy
	ldr	q0, [sp, #3904]
	ldr	q1, [sp, #3920]
	ldur	x8, [x24, #38]
	ldr	w9, [sp, #3896]
	str	q0, [sp, #1920]
	ldr	q0, [sp, #3872]
	str	q1, [sp, #1936]
	ldr	q1, [sp, #3840]
	stur	x8, [x26, #142]
	ldur	w8, [x24, #3]
	str	w9, [sp, #1912]
	stur	w8, [x26, #107]
	ldr	x8, [sp, #3888]
	str	q0, [sp, #1888]
	ldr	q0, [sp, #3856]
	str	x8, [sp, #1904]
	str	q0, [sp, #1872]
	str	q1, [sp, #1856]
	cbnz	x20, Lh3q_BB135_9
	ldr	w8, [sp, #3064]
	ldur	w9, [x19, #11]
	add	x0, sp, #608
	ldr	q0, [sp, #3072]
	ldr	q1, [sp, #3088]
	add	x1, sp, #2368
	str	w8, [sp, #1304]
	ldr	w8, [sp, #3056]
	mov	w2, #687
	stur	w9, [x25, #11]
	ldur	w9, [x19, #3]
	str	q0, [sp, #1312]
	str	q1, [sp, #1328]
	str	w8, [sp, #1296]
	stur	w9, [x25, #3]
	bl	_memcpy
	ldr	q0, [sp, #2304]
	ldr	q1, [sp, #2320]
	add	x0, sp, #208
	ldr	q2, [sp, #2336]
	ldr	x8, [sp, #2352]
	add	x1, sp, #1968
	stp	q0, q1, [sp, #544]
	ldr	q0, [sp, #2240]
	mov	w2, #257
	ldr	q1, [sp, #2256]
	str	q2, [sp, #576]
	ldr	q2, [sp, #2272]
	str	x8, [sp, #592]
	stp	q0, q1, [sp, #480]
	ldr	q0, [sp, #2288]
	stp	q2, q0, [sp, #512]
	bl	_memcpy
	ldr	q0, [sp, #1920]
	ldr	q1, [sp, #1936]
	mov	w0, #1584
	ldur	x8, [x26, #142]
	ldr	w9, [sp, #1912]
	mov	w1, #8
	stp	q0, q1, [sp, #160]
	ldr	q0, [sp, #1888]
	ldr	q1, [sp, #1856]
	stur	x8, [sp, #190]
	ldur	w8, [x26, #107]
	str	w9, [sp, #152]
	stur	w8, [sp, #155]
	ldr	x8, [sp, #1904]
	str	q0, [sp, #128]
	ldr	q0, [sp, #1872]
	str	x8, [sp, #144]
	stp	q1, q0, [sp, #80]
	stp	xzr, xzr, [sp, #112]
	bl	_rattle_alloc
	tbz	w0, #0, Lh3q_BB135_10
	ldp	x10, x8, [sp, #64]
	movi.2d	v2, #0000000000000000
	ldur	w9, [x25, #11]
	ldr	q0, [sp, #1312]
	add	x0, x1, #312
	ldr	q1, [sp, #1328]
	str	x27, [x1, #144]
	mov	x19, x1
	stp	x21, x8, [x1]
	ldp	x20, x8, [sp, #48]
	stp	x10, x27, [x1, #32]
	mov	w2, #687
	stp	q2, q2, [x1, #48]
	stp	x22, x8, [x1, #16]
	ldr	x8, [sp, #16]
	stp	q0, q1, [x1, #80]
	stp	x8, xzr, [x1, #128]
	ldr	w8, [sp, #1304]
	stp	x20, x21, [x1, #112]
	stur	w8, [x1, #169]
	ldr	w8, [sp, #1296]
	str	w9, [x1, #172]
	ldur	w9, [x25, #3]
	stur	w8, [x1, #201]
	add	x8, x1, #264
	stur	q2, [x1, #152]
	strb	wzr, [x1, #168]
	str	xzr, [x1, #192]
	str	q2, [x1, #176]
	strb	wzr, [x1, #200]
	str	w9, [x1, #204]
	str	q2, [x1, #208]
	stp	xzr, x27, [x1, #224]
	str	q2, [x1, #240]
	str	x27, [x1, #256]
	str	q2, [x8]
	add	x8, x1, #296
	stp	x10, x27, [x1, #280]
	add	x1, sp, #608
	str	q2, [x8]
	bl	_memcpy
	ldp	q0, q1, [sp, #544]
	add	x0, x19, #1120
	ldr	w8, [sp, #28]
	ldr	q2, [sp, #576]
	add	x1, sp, #208
	ldr	x9, [sp, #592]
	mov	w2, #257
	strb	w8, [x19, #999]
	add	x8, x19, #1000
	stp	q0, q1, [x8, #64]
	ldp	q0, q1, [sp, #480]
	str	q2, [x8, #96]
	str	x9, [x19, #1112]
	stp	q0, q1, [x8]
	ldp	q2, q0, [sp, #512]
	stp	q2, q0, [x8, #32]
	bl	_memcpy
	ldr	w9, [sp, #32]
	ldr	w8, [sp, #152]
	mov	w0, wzr
	ldp	q0, q1, [sp, #160]
	str	x28, [x19, #1432]
	strb	w9, [x19, #1377]
	add	x9, x19, #1417
	str	w8, [x9]
	add	x8, x19, #1378
	ldur	x9, [sp, #190]
	stp	q0, q1, [x8]
	ldur	w8, [sp, #155]
	ldr	q0, [sp, #128]
	str	x9, [x19, #1408]
	ldr	w9, [sp, #36]
	str	w8, [x19, #1420]
	ldr	x8, [sp, #40]
	str	q0, [x19, #1440]
	ldp	q0, q1, [sp, #80]
	str	x8, [x19, #1424]
	ldr	x8, [sp, #144]
	strb	w9, [x19, #1416]
	str	x8, [x19, #1456]
	add	x8, x19, #1512
	stp	q0, q1, [x8]
	ldr	q0, [sp, #112]
	movi.2d	v1, #0000000000000000
	str	x20, [x19, #1464]
	str	q0, [x8, #32]
	sub	x8, x29, #104
	str	x8, [x19, #1560]
	ldr	x8, [sp, #8]
	str	xzr, [x19, #1472]
	str	x27, [x19, #1480]
	str	xzr, [x19, #1504]
	str	q1, [x19, #1488]
	str	q1, [x19, #1568]
	str	x19, [x8]
	b	Lh3q_BB135_11
Lh3q_BB135_9:
	mov	w0, #-4
	b	Lh3q_BB135_11
Lh3q_BB135_10:
	mov	w0, #-1
Lh3q_BB135_11:
	add	sp, sp, #1, lsl #12
	add	sp, sp, #1024
	ldp	x29, x30, [sp, #80]
	ldp	x20, x19, [sp, #64]
	ldp	x22, x21, [sp, #48]
	ldp	x24, x23, [sp, #32]
	ldp	x26, x25, [sp, #16]
	ldp	x28, x27, [sp], #96
	ret

	.globl	_h3q_reader_new
	.p2align	2
_h3q_reader_new:
	lsr	x8, x0, #62
	cbz	x8, Lh3q_BB136_2
	mov	w0, #-4
	ret
Lh3q_BB136_2:
	sub	sp, sp, #48
	stp	x20, x19, [sp, #16]
	mov	x20, x0
	mov	x19, x1
	mov	w0, #232
	mov	w1, #8
	stp	x29, x30, [sp, #32]
	add	x29, sp, #32
	bl	_rattle_alloc
	tbz	w0, #0, Lh3q_BB136_4
	movi.2d	v0, #0000000000000000
	mov	w0, wzr
	add	x8, sp, #8
	stp	x20, x8, [x1]
	stp	xzr, x8, [x1, #176]
	stp	xzr, xzr, [x1, #192]
	stp	q0, q0, [x1, #16]
	stp	q0, q0, [x1, #48]
	stp	q0, q0, [x1, #80]
	stp	q0, q0, [x1, #112]
	stp	q0, q0, [x1, #144]
	stp	xzr, xzr, [x1, #216]
	str	x8, [x1, #208]
	str	x1, [x19]
	ldp	x29, x30, [sp, #32]
	ldp	x20, x19, [sp, #16]
	add	sp, sp, #48
	ret
Lh3q_BB136_4:
	mov	w0, #-1
	ldp	x29, x30, [sp, #32]
	ldp	x20, x19, [sp, #16]
	add	sp, sp, #48
	ret

	.globl	_h3q_decoder_blocked
	.p2align	2
_h3q_decoder_blocked:
	sub	sp, sp, #144
	ldr	x9, [x0]
	stp	x26, x25, [sp, #64]
	stp	x24, x23, [sp, #80]
	ldrb	w8, [x9, #272]
	stp	x22, x21, [sp, #96]
	stp	x20, x19, [sp, #112]
	cmp	w8, #1
	stp	x29, x30, [sp, #128]
	add	x29, sp, #128
	b.ne	Lh3q_BB137_3
	ldr	x23, [x9, #280]
	ldrh	w8, [x23, #2]
	cbz	w8, Lh3q_BB137_4
	mov	x22, xzr
	add	x2, x9, #280
	mov	x19, #-1
	mov	w8, #1
	add	x23, sp, #56
	b	Lh3q_BB137_5
Lh3q_BB137_3:
	mov	x22, xzr
	mov	w8, wzr
	mov	x2, xzr
	mov	x19, xzr
	add	x23, sp, #56
	b	Lh3q_BB137_5
Lh3q_BB137_4:
	ldrh	w22, [x23], #8
	mov	x2, xzr
	mov	x19, xzr
Lh3q_BB137_5:
	ldr	x24, [x9, #64]
	ldr	x20, [x9, #288]
	mov	x25, xzr
	mov	x1, x19
	mov	x21, x2
	cmp	xzr, x22
	b.lo	Lh3q_BB137_9
Lh3q_BB137_6:
	movi.2d	v0, #0000000000000000
	cmp	w8, #1
	stp	q0, q0, [sp, #16]
	str	q0, [sp]
	b.eq	Lh3q_BB137_11
	mov	w8, wzr
Lh3q_BB137_8:
	cmp	x25, x22
	b.hs	Lh3q_BB137_15
Lh3q_BB137_9:
	add	x9, x23, x25, lsl #4
	add	x25, x25, #1
	ldr	x9, [x9]
	cmp	x9, x24
	b.hi	Lh3q_BB137_15
Lh3q_BB137_10:
	sub	x20, x20, #1
	cmp	x25, x22
	b.hs	Lh3q_BB137_6
	b	Lh3q_BB137_9
Lh3q_BB137_11:
	mov	x0, sp
	mov	x3, x21
	mov	x4, x19
	bl	"_std_collections::btree::iter::Cursor::advance::<36'qpack_shared::streams::BlockedStream,()>"
	ldrb	w8, [sp, #24]
	cmp	w8, #1
	b.ne	Lh3q_BB137_13
	ldp	x1, x2, [sp, #32]
	mov	x25, xzr
	ldr	x8, [x2]
	ubfiz	x9, x1, #3, #4
	add	x8, x8, x9
	ldr	x23, [x8, #248]
	mov	w8, #1
	ldrh	w22, [x23], #8
	ldrb	w9, [sp]
	cmp	w9, #1
	b.ne	Lh3q_BB137_8
	b	Lh3q_BB137_14
Lh3q_BB137_13:
	mov	w8, wzr
	mov	x21, xzr
	mov	x1, xzr
	mov	x2, xzr
	mov	x19, xzr
	ldrb	w9, [sp]
	cmp	w9, #1
	b.ne	Lh3q_BB137_8
Lh3q_BB137_14:
	ldr	x9, [sp, #8]
	ldr	x9, [x9]
	cmp	x9, x24
	b.ls	Lh3q_BB137_10
Lh3q_BB137_15:
	mov	x0, x20
	ldp	x29, x30, [sp, #128]
	ldp	x20, x19, [sp, #112]
	ldp	x22, x21, [sp, #96]
	ldp	x24, x23, [sp, #80]
	ldp	x26, x25, [sp, #64]
	add	sp, sp, #144
	ret

	.globl	_h3q_decoder_capacity
	.p2align	2
_h3q_decoder_capacity:
	ldr	x8, [x0]
	ldr	x0, [x8, #88]
	ret

	.globl	_h3q_decoder_entries
	.p2align	2
_h3q_decoder_entries:
	ldr	x8, [x0]
	ldr	x0, [x8, #32]
	ret

	.globl	_h3q_decoder_entry
	.p2align	2
_h3q_decoder_entry:
	stp	x28, x27, [sp, #-96]!
	ldr	x9, [x0]
	cmp	x2, #0
	mov	w11, #4096
	stp	x24, x23, [sp, #32]
	csel	x23, x11, xzr, eq
	ldr	x10, [x9, #64]
	stp	x26, x25, [sp, #16]
	stp	x22, x21, [sp, #48]
	subs	x10, x10, x1
	stp	x20, x19, [sp, #64]
	stp	x29, x30, [sp, #80]
	add	x29, sp, #80
	b.lo	Lh3q_BB140_12
	ldr	x13, [x9, #72]
	subs	x11, x10, x13
	cset	w12, ne
	cmp	x10, x13
	b.ls	Lh3q_BB140_12
	ldr	x13, [x9, #32]
	sub	x10, x11, x12
	cmp	x13, x10
	b.ls	Lh3q_BB140_12
	ldr	x11, [x9, #56]
	sub	x12, x13, x11
	ldr	x11, [x9, #24]
	subs	x12, x10, x12
	b.hs	Lh3q_BB140_14
	ldr	x9, [x9, #48]
	mov	w12, #48
	madd	x9, x9, x12, x11
	madd	x9, x10, x12, x9
	ldp	x21, x24, [x9]
	ldrb	w10, [x9, #28]
	ldr	w25, [x9, #24]
	cmp	w10, #1
	sub	x19, x24, x25
	b.eq	Lh3q_BB140_15
Lh3q_BB140_5:
	add	x1, x21, x19
	mov	x20, x25
	subs	x9, x3, x25
	ccmp	x19, x9, #2, hs
	b.hi	Lh3q_BB140_16
Lh3q_BB140_6:
	add	x9, x2, x23
	sub	x10, x9, x1
	add	x22, x9, x20
	cmp	x10, x20
	b.hs	Lh3q_BB140_17
	cmp	x20, #8
	b.lo	Lh3q_BB140_9
	add	x9, x23, x2
	sub	x9, x9, x1
	cmp	x9, #32
	b.hs	Lh3q_BB140_26
Lh3q_BB140_9:
	mov	x26, x8
	mov	x9, xzr
Lh3q_BB140_10:
	add	x10, x23, x9
	sub	x8, x20, x9
	add	x9, x1, x9
	add	x10, x2, x10
Lh3q_BB140_11:
	ldrb	w11, [x9], #1
	subs	x8, x8, #1
	strb	w11, [x10], #1
	b.ne	Lh3q_BB140_11
	b	Lh3q_BB140_18
Lh3q_BB140_12:
	mov	x20, xzr
	mov	x19, xzr
	mov	w9, #-4
Lh3q_BB140_13:
	stp	x20, x19, [x8, #8]
	ldp	x29, x30, [sp, #80]
	ldp	x20, x19, [sp, #64]
	stp	w9, wzr, [x8]
	ldp	x22, x21, [sp, #48]
	ldp	x24, x23, [sp, #32]
	ldp	x26, x25, [sp, #16]
	ldp	x28, x27, [sp], #96
	ret
Lh3q_BB140_14:
	mov	w9, #48
	madd	x9, x12, x9, x11
	ldp	x21, x24, [x9]
	ldrb	w10, [x9, #28]
	ldr	w25, [x9, #24]
	cmp	w10, #1
	sub	x19, x24, x25
	b.ne	Lh3q_BB140_5
Lh3q_BB140_15:
	ldrb	w9, [x9, #29]
Lh3q_loh304:
	adrp	x10, l_static.3@PAGE
Lh3q_loh305:
	add	x10, x10, l_static.3@PAGEOFF
Lh3q_loh306:
	adrp	x11, l_static.2@PAGE
Lh3q_loh307:
	add	x11, x11, l_static.2@PAGEOFF
Lh3q_loh308:
	adrp	x13, l_static.1@PAGE
Lh3q_loh309:
	add	x13, x13, l_static.1@PAGEOFF
	lsl	x12, x9, #5
	cmp	w9, #74
	add	x10, x10, x12
	add	x11, x11, x12
	add	x12, x13, x9, lsl #5
	sub	x13, x10, #2400
	sub	x14, x11, #1600
	sub	x10, x10, #2392
	sub	x11, x11, #1592
	csel	x13, x13, x14, hi
	sub	x14, x12, #800
	csel	x10, x10, x11, hi
Lh3q_loh310:
	adrp	x11, l_static.0@PAGE
Lh3q_loh311:
	add	x11, x11, l_static.0@PAGEOFF
	add	x11, x11, x9, lsl #5
	cmp	w9, #49
	sub	x12, x12, #792
	csel	x13, x13, x14, hi
	csel	x10, x10, x12, hi
	cmp	w9, #24
	add	x12, x11, #8
	csel	x9, x13, x11, hi
	csel	x10, x10, x12, hi
	ldr	x1, [x9]
	ldr	x20, [x10]
	subs	x9, x3, x20
	ccmp	x19, x9, #2, hs
	b.ls	Lh3q_BB140_6
Lh3q_BB140_16:
	mov	w9, #-2
	b	Lh3q_BB140_13
Lh3q_BB140_17:
	add	x0, x2, x23
	mov	x27, x2
	mov	x2, x20
	mov	x26, x8
	bl	_memmove
	mov	x2, x27
Lh3q_BB140_18:
	sub	x8, x22, x21
	cmp	x8, x19
	b.hs	Lh3q_BB140_25
	cmp	x19, #8
	mov	x8, x26
	b.lo	Lh3q_BB140_21
	add	x9, x23, x20
	add	x9, x9, x2
	sub	x9, x9, x21
	cmp	x9, #32
	b.hs	Lh3q_BB140_28
Lh3q_BB140_21:
	mov	x9, xzr
Lh3q_BB140_22:
	add	x10, x9, x25
	add	x11, x23, x9
	add	x9, x21, x9
	sub	x10, x10, x24
	add	x11, x2, x11
Lh3q_BB140_23:
	ldrb	w12, [x9], #1
	adds	x10, x10, #1
	strb	w12, [x11, x20]
	add	x11, x11, #1
	b.lo	Lh3q_BB140_23
Lh3q_BB140_24:
	mov	w9, wzr
	b	Lh3q_BB140_13
Lh3q_BB140_25:
	mov	x0, x22
	mov	x1, x21
	mov	x2, x19
	bl	_memmove
	mov	w9, wzr
	mov	x8, x26
	b	Lh3q_BB140_13
Lh3q_BB140_26:
	cmp	x20, #32
	b.hs	Lh3q_BB140_30
	mov	x26, x8
	mov	x9, xzr
	b	Lh3q_BB140_34
Lh3q_BB140_28:
	cmp	x19, #32
	b.hs	Lh3q_BB140_37
	mov	x9, xzr
	b	Lh3q_BB140_41
Lh3q_BB140_30:
	add	x12, x23, x2
	and	x10, x20, #0x18
	and	x9, x20, #0xffffffffffffffe0
	add	x11, x1, #16
	add	x12, x12, #16
	and	x13, x20, #0xffffffffffffffe0
Lh3q_BB140_31:
	ldp	q0, q1, [x11, #-16]
	subs	x13, x13, #32
	add	x11, x11, #32
	stp	q0, q1, [x12, #-16]
	add	x12, x12, #32
	b.ne	Lh3q_BB140_31
	mov	x26, x8
	cmp	x20, x9
	b.eq	Lh3q_BB140_18
	cbz	x10, Lh3q_BB140_10
Lh3q_BB140_34:
	mov	x10, x9
	and	x9, x20, #0xfffffffffffffff8
	add	x11, x23, x10
	sub	x8, x10, x9
	add	x10, x1, x10
	add	x11, x2, x11
Lh3q_BB140_35:
	ldr	d0, [x10], #8
	adds	x8, x8, #8
	str	d0, [x11], #8
	b.ne	Lh3q_BB140_35
	cmp	x20, x9
	b.ne	Lh3q_BB140_10
	b	Lh3q_BB140_18
Lh3q_BB140_37:
	add	x11, x23, x20
	and	x10, x19, #0x18
	and	x9, x19, #0xffffffffffffffe0
	add	x12, x11, x2
	add	x11, x21, #16
	and	x13, x19, #0xffffffffffffffe0
	add	x12, x12, #16
Lh3q_BB140_38:
	ldp	q0, q1, [x11, #-16]
	subs	x13, x13, #32
	add	x11, x11, #32
	stp	q0, q1, [x12, #-16]
	add	x12, x12, #32
	b.ne	Lh3q_BB140_38
	cmp	x19, x9
	b.eq	Lh3q_BB140_24
	cbz	x10, Lh3q_BB140_22
Lh3q_BB140_41:
	mov	x11, x9
	and	x9, x19, #0xfffffffffffffff8
	add	x12, x23, x11
	sub	x10, x11, x9
	add	x11, x21, x11
	add	x12, x2, x12
Lh3q_BB140_42:
	ldr	d0, [x11], #8
	adds	x10, x10, #8
	str	d0, [x12, x20]
	add	x12, x12, #8
	b.ne	Lh3q_BB140_42
	cmp	x19, x9
	b.eq	Lh3q_BB140_24
	b	Lh3q_BB140_22
	.loh AdrpAdd	Lh3q_loh310, Lh3q_loh311
	.loh AdrpAdd	Lh3q_loh308, Lh3q_loh309
	.loh AdrpAdd	Lh3q_loh306, Lh3q_loh307
	.loh AdrpAdd	Lh3q_loh304, Lh3q_loh305

	.globl	_h3q_decoder_field
	.p2align	2
_h3q_decoder_field:
	sub	sp, sp, #112
	ldr	x9, [x0]
	cmp	x2, #0
	mov	w11, #4096
	stp	x24, x23, [sp, #48]
	csel	x24, x11, xzr, eq
	ldr	x10, [x9, #496]
	stp	x28, x27, [sp, #16]
	stp	x26, x25, [sp, #32]
	cmp	x1, x10
	stp	x22, x21, [sp, #64]
	stp	x20, x19, [sp, #80]
	stp	x29, x30, [sp, #96]
	add	x29, sp, #96
	b.hs	Lh3q_BB141_3
	mov	w10, #24
	ldr	x11, [x9, #488]
	madd	x10, x1, x10, x11
	cbz	x1, Lh3q_BB141_4
	ldur	x25, [x10, #-16]
	b	Lh3q_BB141_5
Lh3q_BB141_3:
	mov	w23, wzr
	mov	x22, xzr
	mov	x19, xzr
	mov	w9, #-4
	b	Lh3q_BB141_22
Lh3q_BB141_4:
	mov	x25, xzr
Lh3q_BB141_5:
	ldp	x27, x12, [x10]
	ldrb	w23, [x10, #16]
	sub	x22, x27, x25
	sub	x19, x12, x27
	subs	x11, x3, x22
	ccmp	x19, x11, #2, hs
	b.ls	Lh3q_BB141_7
	mov	w9, #-2
	b	Lh3q_BB141_22
Lh3q_BB141_7:
	ldr	x28, [x9, #464]
	add	x9, x2, x24
	str	x12, [sp, #8]
	add	x26, x9, x22
	add	x10, x28, x25
	add	x1, x28, x27
	sub	x10, x9, x10
	cmp	x10, x22
	b.hs	Lh3q_BB141_13
	cmp	x22, #8
	b.lo	Lh3q_BB141_10
	add	x9, x24, x2
	sub	x9, x9, x25
	sub	x9, x9, x28
	cmp	x9, #32
	b.hs	Lh3q_BB141_23
Lh3q_BB141_10:
	mov	x20, x8
	mov	x9, xzr
Lh3q_BB141_11:
	add	x10, x9, x25
	add	x11, x24, x9
	sub	x8, x10, x27
	add	x9, x28, x10
	add	x10, x2, x11
Lh3q_BB141_12:
	ldrb	w11, [x9], #1
	adds	x8, x8, #1
	strb	w11, [x10], #1
	b.lo	Lh3q_BB141_12
	b	Lh3q_BB141_14
Lh3q_BB141_13:
	add	x0, x2, x24
	add	x1, x28, x25
	mov	x21, x2
	sub	x2, x27, x25
	mov	x20, x8
	bl	_memmove
	add	x1, x28, x27
	mov	x2, x21
Lh3q_BB141_14:
	sub	x8, x26, x1
	cmp	x8, x19
	b.hs	Lh3q_BB141_21
	cmp	x19, #8
	mov	x8, x20
	b.lo	Lh3q_BB141_17
	add	x9, x24, x2
	add	x10, x25, x28
	sub	x9, x9, x10
	cmp	x9, #32
	b.hs	Lh3q_BB141_25
Lh3q_BB141_17:
	mov	x9, xzr
Lh3q_BB141_18:
	add	x10, x9, x27
	add	x9, x10, x24
	sub	x11, x9, x25
	ldr	x9, [sp, #8]
	add	x11, x2, x11
	sub	x9, x10, x9
	add	x10, x28, x10
Lh3q_BB141_19:
	ldrb	w12, [x10], #1
	adds	x9, x9, #1
	strb	w12, [x11], #1
	b.lo	Lh3q_BB141_19
Lh3q_BB141_20:
	mov	w9, wzr
	b	Lh3q_BB141_22
Lh3q_BB141_21:
	mov	x0, x26
	mov	x2, x19
	bl	_memmove
	mov	w9, wzr
	mov	x8, x20
Lh3q_BB141_22:
	stp	w9, w23, [x8]
	ldp	x29, x30, [sp, #96]
	stp	x22, x19, [x8, #8]
	ldp	x20, x19, [sp, #80]
	ldp	x22, x21, [sp, #64]
	ldp	x24, x23, [sp, #48]
	ldp	x26, x25, [sp, #32]
	ldp	x28, x27, [sp, #16]
	add	sp, sp, #112
	ret
Lh3q_BB141_23:
	cmp	x22, #32
	b.hs	Lh3q_BB141_27
	mov	x20, x8
	mov	x9, xzr
	b	Lh3q_BB141_31
Lh3q_BB141_25:
	cmp	x19, #32
	b.hs	Lh3q_BB141_34
	mov	x9, xzr
	b	Lh3q_BB141_38
Lh3q_BB141_27:
	add	x11, x25, x28
	add	x12, x24, x2
	and	x10, x22, #0x18
	and	x9, x22, #0xffffffffffffffe0
	add	x11, x11, #16
	add	x12, x12, #16
	and	x13, x22, #0xffffffffffffffe0
Lh3q_BB141_28:
	ldp	q0, q1, [x11, #-16]
	subs	x13, x13, #32
	add	x11, x11, #32
	stp	q0, q1, [x12, #-16]
	add	x12, x12, #32
	b.ne	Lh3q_BB141_28
	mov	x20, x8
	cmp	x22, x9
	b.eq	Lh3q_BB141_14
	cbz	x10, Lh3q_BB141_11
Lh3q_BB141_31:
	mov	x8, x9
	and	x9, x22, #0xfffffffffffffff8
	add	x10, x25, x8
	add	x11, x24, x8
	sub	x8, x8, x9
	add	x10, x28, x10
	add	x11, x2, x11
Lh3q_BB141_32:
	ldr	d0, [x10], #8
	adds	x8, x8, #8
	str	d0, [x11], #8
	b.ne	Lh3q_BB141_32
	cmp	x22, x9
	b.ne	Lh3q_BB141_11
	b	Lh3q_BB141_14
Lh3q_BB141_34:
	add	x9, x24, x27
	add	x12, x27, x28
	and	x10, x19, #0x18
	sub	x11, x9, x25
	and	x9, x19, #0xffffffffffffffe0
	add	x12, x12, #16
	add	x11, x11, x2
	and	x13, x19, #0xffffffffffffffe0
	add	x11, x11, #16
Lh3q_BB141_35:
	ldp	q0, q1, [x12, #-16]
	subs	x13, x13, #32
	add	x12, x12, #32
	stp	q0, q1, [x11, #-16]
	add	x11, x11, #32
	b.ne	Lh3q_BB141_35
	cmp	x19, x9
	b.eq	Lh3q_BB141_20
	cbz	x10, Lh3q_BB141_18
Lh3q_BB141_38:
	mov	x10, x9
	and	x9, x19, #0xfffffffffffffff8
	add	x11, x10, x27
	sub	x10, x10, x9
	add	x12, x11, x24
	add	x11, x28, x11
	sub	x12, x12, x25
	add	x12, x2, x12
Lh3q_BB141_39:
	ldr	d0, [x11], #8
	adds	x10, x10, #8
	str	d0, [x12], #8
	b.ne	Lh3q_BB141_39
	cmp	x19, x9
	b.eq	Lh3q_BB141_20
	b	Lh3q_BB141_18

	.globl	_h3q_decoder_insert_count
	.p2align	2
_h3q_decoder_insert_count:
	ldr	x8, [x0]
	ldr	x0, [x8, #64]
	ret

	.globl	_h3q_decoder_next_ready
	.p2align	2
_h3q_decoder_next_ready:
	ldr	x9, [x0]
	ldrb	w8, [x9, #272]
	cmp	w8, #1
	b.ne	Lh3q_BB143_5
	ldr	x8, [x9, #280]
	ldrh	w8, [x8]
	cbz	w8, Lh3q_BB143_5
	ldr	x8, [x9, #64]
	add	x10, x9, #280
Lh3q_BB143_3:
	ldr	x9, [x10]
	ldrh	w11, [x9, #2]
	add	x10, x9, #248
	cbnz	w11, Lh3q_BB143_3
	ldr	x10, [x9, #8]
	cmp	x8, x10
	b.hs	Lh3q_BB143_6
Lh3q_BB143_5:
	mov	w0, wzr
	ret
Lh3q_BB143_6:
	ldr	x8, [x9, #16]
	mov	w0, #1
	str	x8, [x1]
	ret

	.globl	_h3q_decoder_stream_len
	.p2align	2
_h3q_decoder_stream_len:
	ldr	x9, [x0]
	ldr	x8, [x9, #64]
	ldr	x10, [x9, #264]
	subs	x8, x8, x10
	csel	x10, xzr, x8, lo
	ldr	x8, [x9, #328]
	ldr	x9, [x9, #344]
	lsr	x11, x10, #5
	ands	x12, x10, #0x3f
	and	x10, x11, #0x7fffffffffffffe
	b.eq	Lh3q_BB144_2
	cmp	x12, #63
	add	x10, x10, #2
	orr	x11, x11, #0x1
	csel	x10, x10, x11, eq
Lh3q_BB144_2:
	sub	x8, x8, x9
	add	x0, x8, x10
	ret

	.globl	_h3q_decoder_table_size
	.p2align	2
_h3q_decoder_table_size:
	ldr	x8, [x0]
	ldr	x0, [x8, #80]
	ret

	.globl	_h3q_encoder_blocked
	.p2align	2
_h3q_encoder_blocked:
	ldr	x8, [x0]
	ldr	x0, [x8, #296]
	ret

	.globl	_h3q_encoder_capacity
	.p2align	2
_h3q_encoder_capacity:
	ldr	x8, [x0]
	ldr	x0, [x8, #104]
	ret

	.globl	_h3q_encoder_entries
	.p2align	2
_h3q_encoder_entries:
	ldr	x8, [x0]
	ldr	x0, [x8, #48]
	ret

	.globl	_h3q_encoder_entry
	.p2align	2
_h3q_encoder_entry:
	stp	x28, x27, [sp, #-96]!
	ldr	x9, [x0]
	cmp	x2, #0
	mov	w11, #4096
	stp	x24, x23, [sp, #32]
	csel	x23, x11, xzr, eq
	ldr	x10, [x9, #80]
	stp	x26, x25, [sp, #16]
	stp	x22, x21, [sp, #48]
	subs	x10, x10, x1
	stp	x20, x19, [sp, #64]
	stp	x29, x30, [sp, #80]
	add	x29, sp, #80
	b.lo	Lh3q_BB149_12
	ldr	x13, [x9, #88]
	subs	x11, x10, x13
	cset	w12, ne
	cmp	x10, x13
	b.ls	Lh3q_BB149_12
	ldr	x13, [x9, #48]
	sub	x10, x11, x12
	cmp	x13, x10
	b.ls	Lh3q_BB149_12
	ldr	x11, [x9, #72]
	sub	x12, x13, x11
	ldr	x11, [x9, #40]
	subs	x12, x10, x12
	b.hs	Lh3q_BB149_14
	ldr	x9, [x9, #64]
	mov	w12, #48
	madd	x9, x9, x12, x11
	madd	x9, x10, x12, x9
	ldp	x21, x24, [x9]
	ldrb	w10, [x9, #28]
	ldr	w25, [x9, #24]
	cmp	w10, #1
	sub	x19, x24, x25
	b.eq	Lh3q_BB149_15
Lh3q_BB149_5:
	add	x1, x21, x19
	mov	x20, x25
	subs	x9, x3, x25
	ccmp	x19, x9, #2, hs
	b.hi	Lh3q_BB149_16
Lh3q_BB149_6:
	add	x9, x2, x23
	sub	x10, x9, x1
	add	x22, x9, x20
	cmp	x10, x20
	b.hs	Lh3q_BB149_17
	cmp	x20, #8
	b.lo	Lh3q_BB149_9
	add	x9, x23, x2
	sub	x9, x9, x1
	cmp	x9, #32
	b.hs	Lh3q_BB149_26
Lh3q_BB149_9:
	mov	x26, x8
	mov	x9, xzr
Lh3q_BB149_10:
	add	x10, x23, x9
	sub	x8, x20, x9
	add	x9, x1, x9
	add	x10, x2, x10
Lh3q_BB149_11:
	ldrb	w11, [x9], #1
	subs	x8, x8, #1
	strb	w11, [x10], #1
	b.ne	Lh3q_BB149_11
	b	Lh3q_BB149_18
Lh3q_BB149_12:
	mov	x20, xzr
	mov	x19, xzr
	mov	w9, #-4
Lh3q_BB149_13:
	stp	x20, x19, [x8, #8]
	ldp	x29, x30, [sp, #80]
	ldp	x20, x19, [sp, #64]
	stp	w9, wzr, [x8]
	ldp	x22, x21, [sp, #48]
	ldp	x24, x23, [sp, #32]
	ldp	x26, x25, [sp, #16]
	ldp	x28, x27, [sp], #96
	ret
Lh3q_BB149_14:
	mov	w9, #48
	madd	x9, x12, x9, x11
	ldp	x21, x24, [x9]
	ldrb	w10, [x9, #28]
	ldr	w25, [x9, #24]
	cmp	w10, #1
	sub	x19, x24, x25
	b.ne	Lh3q_BB149_5
Lh3q_BB149_15:
	ldrb	w9, [x9, #29]
Lh3q_loh312:
	adrp	x10, l_static.3@PAGE
Lh3q_loh313:
	add	x10, x10, l_static.3@PAGEOFF
Lh3q_loh314:
	adrp	x11, l_static.2@PAGE
Lh3q_loh315:
	add	x11, x11, l_static.2@PAGEOFF
Lh3q_loh316:
	adrp	x13, l_static.1@PAGE
Lh3q_loh317:
	add	x13, x13, l_static.1@PAGEOFF
	lsl	x12, x9, #5
	cmp	w9, #74
	add	x10, x10, x12
	add	x11, x11, x12
	add	x12, x13, x9, lsl #5
	sub	x13, x10, #2400
	sub	x14, x11, #1600
	sub	x10, x10, #2392
	sub	x11, x11, #1592
	csel	x13, x13, x14, hi
	sub	x14, x12, #800
	csel	x10, x10, x11, hi
Lh3q_loh318:
	adrp	x11, l_static.0@PAGE
Lh3q_loh319:
	add	x11, x11, l_static.0@PAGEOFF
	add	x11, x11, x9, lsl #5
	cmp	w9, #49
	sub	x12, x12, #792
	csel	x13, x13, x14, hi
	csel	x10, x10, x12, hi
	cmp	w9, #24
	add	x12, x11, #8
	csel	x9, x13, x11, hi
	csel	x10, x10, x12, hi
	ldr	x1, [x9]
	ldr	x20, [x10]
	subs	x9, x3, x20
	ccmp	x19, x9, #2, hs
	b.ls	Lh3q_BB149_6
Lh3q_BB149_16:
	mov	w9, #-2
	b	Lh3q_BB149_13
Lh3q_BB149_17:
	add	x0, x2, x23
	mov	x27, x2
	mov	x2, x20
	mov	x26, x8
	bl	_memmove
	mov	x2, x27
Lh3q_BB149_18:
	sub	x8, x22, x21
	cmp	x8, x19
	b.hs	Lh3q_BB149_25
	cmp	x19, #8
	mov	x8, x26
	b.lo	Lh3q_BB149_21
	add	x9, x23, x20
	add	x9, x9, x2
	sub	x9, x9, x21
	cmp	x9, #32
	b.hs	Lh3q_BB149_28
Lh3q_BB149_21:
	mov	x9, xzr
Lh3q_BB149_22:
	add	x10, x9, x25
	add	x11, x23, x9
	add	x9, x21, x9
	sub	x10, x10, x24
	add	x11, x2, x11
Lh3q_BB149_23:
	ldrb	w12, [x9], #1
	adds	x10, x10, #1
	strb	w12, [x11, x20]
	add	x11, x11, #1
	b.lo	Lh3q_BB149_23
Lh3q_BB149_24:
	mov	w9, wzr
	b	Lh3q_BB149_13
Lh3q_BB149_25:
	mov	x0, x22
	mov	x1, x21
	mov	x2, x19
	bl	_memmove
	mov	w9, wzr
	mov	x8, x26
	b	Lh3q_BB149_13
Lh3q_BB149_26:
	cmp	x20, #32
	b.hs	Lh3q_BB149_30
	mov	x26, x8
	mov	x9, xzr
	b	Lh3q_BB149_34
Lh3q_BB149_28:
	cmp	x19, #32
	b.hs	Lh3q_BB149_37
	mov	x9, xzr
	b	Lh3q_BB149_41
Lh3q_BB149_30:
	add	x12, x23, x2
	and	x10, x20, #0x18
	and	x9, x20, #0xffffffffffffffe0
	add	x11, x1, #16
	add	x12, x12, #16
	and	x13, x20, #0xffffffffffffffe0
Lh3q_BB149_31:
	ldp	q0, q1, [x11, #-16]
	subs	x13, x13, #32
	add	x11, x11, #32
	stp	q0, q1, [x12, #-16]
	add	x12, x12, #32
	b.ne	Lh3q_BB149_31
	mov	x26, x8
	cmp	x20, x9
	b.eq	Lh3q_BB149_18
	cbz	x10, Lh3q_BB149_10
Lh3q_BB149_34:
	mov	x10, x9
	and	x9, x20, #0xfffffffffffffff8
	add	x11, x23, x10
	sub	x8, x10, x9
	add	x10, x1, x10
	add	x11, x2, x11
Lh3q_BB149_35:
	ldr	d0, [x10], #8
	adds	x8, x8, #8
	str	d0, [x11], #8
	b.ne	Lh3q_BB149_35
	cmp	x20, x9
	b.ne	Lh3q_BB149_10
	b	Lh3q_BB149_18
Lh3q_BB149_37:
	add	x11, x23, x20
	and	x10, x19, #0x18
	and	x9, x19, #0xffffffffffffffe0
	add	x12, x11, x2
	add	x11, x21, #16
	and	x13, x19, #0xffffffffffffffe0
	add	x12, x12, #16
Lh3q_BB149_38:
	ldp	q0, q1, [x11, #-16]
	subs	x13, x13, #32
	add	x11, x11, #32
	stp	q0, q1, [x12, #-16]
	add	x12, x12, #32
	b.ne	Lh3q_BB149_38
	cmp	x19, x9
	b.eq	Lh3q_BB149_24
	cbz	x10, Lh3q_BB149_22
Lh3q_BB149_41:
	mov	x11, x9
	and	x9, x19, #0xfffffffffffffff8
	add	x12, x23, x11
	sub	x10, x11, x9
	add	x11, x21, x11
	add	x12, x2, x12
Lh3q_BB149_42:
	ldr	d0, [x11], #8
	adds	x10, x10, #8
	str	d0, [x12, x20]
	add	x12, x12, #8
	b.ne	Lh3q_BB149_42
	cmp	x19, x9
	b.eq	Lh3q_BB149_24
	b	Lh3q_BB149_22
	.loh AdrpAdd	Lh3q_loh318, Lh3q_loh319
	.loh AdrpAdd	Lh3q_loh316, Lh3q_loh317
	.loh AdrpAdd	Lh3q_loh314, Lh3q_loh315
	.loh AdrpAdd	Lh3q_loh312, Lh3q_loh313

	.globl	_h3q_encoder_insert_count
	.p2align	2
_h3q_encoder_insert_count:
	ldr	x8, [x0]
	ldr	x0, [x8, #80]
	ret

	.globl	_h3q_encoder_known_received_count
	.p2align	2
_h3q_encoder_known_received_count:
	ldr	x8, [x0]
	ldr	x0, [x8, #136]
	ret

	.globl	_h3q_encoder_pending_capacity
	.p2align	2
_h3q_encoder_pending_capacity:
	ldr	x8, [x0]
	ldr	x9, [x8, #48]
	cbz	x9, Lh3q_BB152_3
	ldrb	w9, [x8, #1424]
	cmp	w9, #1
	b.ne	Lh3q_BB152_3
	ldr	x8, [x8, #1432]
	mov	w0, #1
	str	x8, [x1]
	ret
Lh3q_BB152_3:
	mov	w0, wzr
	ret

	.globl	_h3q_encoder_stream_len
	.p2align	2
_h3q_encoder_stream_len:
	ldr	x8, [x0]
	ldr	x9, [x8, #1488]
	ldr	x8, [x8, #1504]
	sub	x0, x9, x8
	ret

	.globl	_h3q_encoder_table_size
	.p2align	2
_h3q_encoder_table_size:
	ldr	x8, [x0]
	ldr	x0, [x8, #96]
	ret

	.globl	_h3q_encoder_unacknowledged
	.p2align	2
_h3q_encoder_unacknowledged:
	ldr	x8, [x0]
	ldr	x0, [x8, #184]
	ret

	.globl	_h3q_reader_field
	.p2align	2
_h3q_reader_field:
	stp	x28, x27, [sp, #-96]!
	ldr	x9, [x0]
	cmp	x1, #0
	mov	w11, #4096
	stp	x26, x25, [sp, #16]
	csel	x25, x11, xzr, eq
	ldr	x10, [x9, #216]
	stp	x24, x23, [sp, #32]
	stp	x22, x21, [sp, #48]
	stp	x20, x19, [sp, #64]
	stp	x29, x30, [sp, #80]
	add	x29, sp, #80
	cbz	x10, Lh3q_BB156_3
	ldr	x10, [x9, #208]
	ldp	x19, x26, [x10]
	ldrb	w24, [x10, #16]
	sub	x20, x26, x19
	subs	x11, x2, x19
	ccmp	x20, x11, #2, hs
	b.ls	Lh3q_BB156_4
	mov	w9, #-2
	b	Lh3q_BB156_19
Lh3q_BB156_3:
	mov	w24, wzr
	mov	x19, xzr
	mov	x20, xzr
	mov	w9, #-4
	b	Lh3q_BB156_19
Lh3q_BB156_4:
	ldr	x21, [x9, #184]
	add	x9, x1, x25
	add	x23, x9, x19
	sub	x10, x9, x21
	add	x22, x21, x19
	cmp	x10, x19
	b.hs	Lh3q_BB156_10
	cmp	x19, #8
	b.lo	Lh3q_BB156_7
	add	x9, x25, x1
	sub	x9, x9, x21
	cmp	x9, #32
	b.hs	Lh3q_BB156_20
Lh3q_BB156_7:
	mov	x27, x8
	mov	x9, xzr
Lh3q_BB156_8:
	add	x10, x25, x9
	sub	x8, x19, x9
	add	x9, x21, x9
	add	x10, x1, x10
Lh3q_BB156_9:
	ldrb	w11, [x9], #1
	subs	x8, x8, #1
	strb	w11, [x10], #1
	b.ne	Lh3q_BB156_9
	b	Lh3q_BB156_11
Lh3q_BB156_10:
	add	x0, x1, x25
	mov	x28, x1
	mov	x1, x21
	mov	x2, x19
	mov	x27, x8
	bl	_memmove
	mov	x1, x28
Lh3q_BB156_11:
	sub	x8, x23, x22
	cmp	x8, x20
	b.hs	Lh3q_BB156_18
	cmp	x20, #8
	mov	x8, x27
	b.lo	Lh3q_BB156_14
	add	x9, x25, x1
	sub	x9, x9, x21
	cmp	x9, #32
	b.hs	Lh3q_BB156_22
Lh3q_BB156_14:
	mov	x9, xzr
Lh3q_BB156_15:
	add	x10, x9, x19
	add	x11, x10, x25
	sub	x9, x10, x26
	add	x10, x21, x10
	add	x11, x1, x11
Lh3q_BB156_16:
	ldrb	w12, [x10], #1
	adds	x9, x9, #1
	strb	w12, [x11], #1
	b.lo	Lh3q_BB156_16
Lh3q_BB156_17:
	mov	w9, wzr
	b	Lh3q_BB156_19
Lh3q_BB156_18:
	mov	x0, x23
	mov	x1, x22
	mov	x2, x20
	bl	_memmove
	mov	w9, wzr
	mov	x8, x27
Lh3q_BB156_19:
	stp	w9, w24, [x8]
	ldp	x29, x30, [sp, #80]
	stp	x19, x20, [x8, #8]
	ldp	x20, x19, [sp, #64]
	ldp	x22, x21, [sp, #48]
	ldp	x24, x23, [sp, #32]
	ldp	x26, x25, [sp, #16]
	ldp	x28, x27, [sp], #96
	ret
Lh3q_BB156_20:
	cmp	x19, #32
	b.hs	Lh3q_BB156_24
	mov	x27, x8
	mov	x9, xzr
	b	Lh3q_BB156_28
Lh3q_BB156_22:
	cmp	x20, #32
	b.hs	Lh3q_BB156_31
	mov	x9, xzr
	b	Lh3q_BB156_35
Lh3q_BB156_24:
	add	x12, x25, x1
	and	x10, x19, #0x18
	and	x9, x19, #0xffffffffffffffe0
	add	x11, x21, #16
	add	x12, x12, #16
	and	x13, x19, #0xffffffffffffffe0
Lh3q_BB156_25:
	ldp	q0, q1, [x11, #-16]
	subs	x13, x13, #32
	add	x11, x11, #32
	stp	q0, q1, [x12, #-16]
	add	x12, x12, #32
	b.ne	Lh3q_BB156_25
	mov	x27, x8
	cmp	x19, x9
	b.eq	Lh3q_BB156_11
	cbz	x10, Lh3q_BB156_8
Lh3q_BB156_28:
	mov	x10, x9
	and	x9, x19, #0xfffffffffffffff8
	add	x11, x25, x10
	sub	x8, x10, x9
	add	x10, x21, x10
	add	x11, x1, x11
Lh3q_BB156_29:
	ldr	d0, [x10], #8
	adds	x8, x8, #8
	str	d0, [x11], #8
	b.ne	Lh3q_BB156_29
	cmp	x19, x9
	b.ne	Lh3q_BB156_8
	b	Lh3q_BB156_11
Lh3q_BB156_31:
	add	x11, x25, x19
	add	x12, x19, x21
	and	x10, x20, #0x18
	add	x11, x11, x1
	and	x9, x20, #0xffffffffffffffe0
	add	x12, x12, #16
	add	x11, x11, #16
	and	x13, x20, #0xffffffffffffffe0
Lh3q_BB156_32:
	ldp	q0, q1, [x12, #-16]
	subs	x13, x13, #32
	add	x12, x12, #32
	stp	q0, q1, [x11, #-16]
	add	x11, x11, #32
	b.ne	Lh3q_BB156_32
	cmp	x20, x9
	b.eq	Lh3q_BB156_17
	cbz	x10, Lh3q_BB156_15
Lh3q_BB156_35:
	mov	x10, x9
	and	x9, x20, #0xfffffffffffffff8
	add	x11, x10, x19
	sub	x10, x10, x9
	add	x12, x11, x25
	add	x11, x21, x11
	add	x12, x1, x12
Lh3q_BB156_36:
	ldr	d0, [x11], #8
	adds	x10, x10, #8
	str	d0, [x12], #8
	b.ne	Lh3q_BB156_36
	cmp	x20, x9
	b.eq	Lh3q_BB156_17
	b	Lh3q_BB156_15

	.globl	_h3q_reader_waiting
	.p2align	2
_h3q_reader_waiting:
	ldr	x8, [x0]
	ldr	x0, [x8, #16]
	ret

	.globl	_h3q_encoder_read
	.p2align	2
_h3q_encoder_read:
	sub	sp, sp, #192
	stp	x22, x21, [sp, #144]
	ldr	x22, [x0]
	cmp	x1, #0
	mov	w10, #4096
	stp	x28, x27, [sp, #96]
	ldrb	w9, [x22, #1512]
	csel	x10, x10, xzr, eq
	stp	x26, x25, [sp, #112]
	stp	x24, x23, [sp, #128]
	cmp	w9, #1
	stp	x20, x19, [sp, #160]
	stp	x29, x30, [sp, #176]
	add	x29, sp, #176
	b.ne	Lh3q_BB158_5
	ldrb	w20, [x22, #1520]
	cmp	w20, #3
	b.gt	Lh3q_BB158_67
	cmp	w20, #1
	b.gt	Lh3q_BB158_70
	cbnz	w20, Lh3q_BB158_73
	add	x11, x22, #1464
	ldrb	w12, [x22, #1528]
	ldr	x24, [x22, #1536]
	ldrb	w10, [x11, #71]
	ldurh	w9, [x11, #69]
	orr	w10, w9, w10, lsl #16
	ldur	w9, [x11, #65]
	orr	x11, x9, x10, lsl #32
	b	Lh3q_BB158_90
Lh3q_BB158_5:
	mov	x20, x2
	str	x8, [sp, #32]
	cbz	x2, Lh3q_BB158_66
	ldr	x28, [x22, #1456]
	mov	x24, xzr
	add	x25, x1, x10
	add	x26, x22, #1440
	add	x27, x22, #1441
	b	Lh3q_BB158_9
Lh3q_BB158_7:
	mov	w8, #1
	mov	x28, xzr
	dup.2d	v0, x8
	add	x8, x22, #1456
	ld1.d	{ v0 }[1], [x8]
	add	x8, x22, #1464
	str	xzr, [x22, #1456]
	ldr	q1, [x8]
	uqadd.2d	v0, v1, v0
	str	q0, [x8]
Lh3q_BB158_8:
	add	x24, x24, #1
	cmp	x24, x20
	b.eq	Lh3q_BB158_66
Lh3q_BB158_9:
	ldrb	w8, [x25, x24]
	stp	xzr, xzr, [sp, #64]
	strb	w8, [x26, x28]
	ldr	x8, [x22, #1456]
	str	xzr, [sp, #80]
	adds	x28, x8, #1
	str	x28, [x22, #1456]
	b.hs	Lh3q_BB158_8
	ldrsb	w10, [x26]
	mov	w9, #1
	and	w23, w10, #0xff
	and	x19, x10, #0xff
	cmp	w23, #63
	cinc	w9, w9, ls
	cmp	w10, #0
	csel	w9, wzr, w9, mi
	cbz	w9, Lh3q_BB158_18
	cmp	w9, #1
	b.ne	Lh3q_BB158_26
	and	x21, x19, #0x3f
	stp	x27, x8, [sp, #64]
	mov	w8, #1
	cmp	w21, #63
	stp	xzr, xzr, [sp, #40]
	str	x8, [sp, #80]
	b.ne	Lh3q_BB158_15
	add	x0, sp, #40
	add	x1, sp, #64
	bl	"_qpack_base::prefix_int::read_groups"
	ldrb	w8, [sp, #40]
	cbnz	w8, Lh3q_BB158_28
	ldr	x8, [sp, #48]
	add	x21, x8, #63
Lh3q_BB158_15:
	lsr	x8, x19, #6
	cmp	w8, #1
	b.ne	Lh3q_BB158_33
	stp	xzr, xzr, [sp, #64]
	str	xzr, [sp, #80]
Lh3q_BB158_17:
	add	x0, sp, #64
	add	x1, x22, #40
	mov	x2, x21
	bl	"_qpack_table::dynamic::table::DynamicTable::untrack_block::<#f1ee30144fd2ee58>"
	ldrb	w8, [sp, #64]
	cbz	w8, Lh3q_BB158_17
	b	Lh3q_BB158_7
Lh3q_BB158_18:
	sub	x9, x19, #128
	tst	w23, #0x80
	stp	x27, x8, [sp, #64]
	csel	x21, x9, x19, ne
	mov	w8, #1
	stp	xzr, xzr, [sp, #40]
	cmp	x21, #127
	str	x8, [sp, #80]
	b.lo	Lh3q_BB158_21
	add	x0, sp, #40
	add	x1, sp, #64
	bl	"_qpack_base::prefix_int::read_groups"
	ldrb	w8, [sp, #40]
	cbnz	w8, Lh3q_BB158_28
	ldr	x8, [sp, #48]
	add	x21, x8, #127
Lh3q_BB158_21:
	tbz	w23, #7, Lh3q_BB158_74
	movi.2d	v0, #0000000000000000
	add	x0, sp, #64
	add	x1, x22, #168
	mov	x2, x21
	stp	xzr, xzr, [sp, #40]
	str	xzr, [sp, #56]
	stp	q0, q0, [sp, #64]
	bl	"_qpack_table::dynamic::open_blocks::oldest_entry"
	ldrb	w8, [sp, #64]
	cmp	w8, #1
	b.ne	Lh3q_BB158_30
	ldr	x9, [sp, #88]
	ldr	x8, [x9, #8]
	cbz	x8, Lh3q_BB158_30
	ldr	x9, [x9]
	cmp	x8, #4
	b.hs	Lh3q_BB158_49
	mov	x19, xzr
	mov	x10, xzr
	b	Lh3q_BB158_52
Lh3q_BB158_26:
	and	x21, x19, #0x3f
	stp	x27, x8, [sp, #64]
	mov	w8, #1
	cmp	w21, #63
	stp	xzr, xzr, [sp, #40]
	str	x8, [sp, #80]
	b.ne	Lh3q_BB158_32
	add	x0, sp, #40
	add	x1, sp, #64
	bl	"_qpack_base::prefix_int::read_groups"
	ldrb	w8, [sp, #40]
	cbz	w8, Lh3q_BB158_31
Lh3q_BB158_28:
	ldrb	w8, [sp, #41]
	lsl	x8, x8, #8
	ands	w9, w8, #0xff
	b.eq	Lh3q_BB158_34
Lh3q_BB158_29:
	cmp	w9, #1
	b.eq	Lh3q_BB158_8
	b	Lh3q_BB158_74
Lh3q_BB158_30:
	mov	x19, xzr
	b	Lh3q_BB158_54
Lh3q_BB158_31:
	ldr	x8, [sp, #48]
	add	x21, x8, #63
Lh3q_BB158_32:
	lsr	x8, x19, #6
	cbz	w8, Lh3q_BB158_35
Lh3q_BB158_33:
	mov	w9, #2
	orr	x8, x9, x8, lsl #8
	ands	w9, w8, #0xff
	b.ne	Lh3q_BB158_29
Lh3q_BB158_34:
	and	x8, x8, #0xff00
	cmp	x8, #256
	b.eq	Lh3q_BB158_8
	b	Lh3q_BB158_74
Lh3q_BB158_35:
	cbz	x21, Lh3q_BB158_96
	ldr	x8, [x22, #136]
	mov	w11, #2
	adds	x9, x21, x8
	b.hs	Lh3q_BB158_75
	ldr	x10, [x22, #80]
	cmp	x9, x10
	b.hi	Lh3q_BB158_75
	ldrb	w9, [x22, #200]
	adds	x8, x21, x8
	csinv	x19, x8, xzr, lo
	cmp	w9, #1
	str	x19, [x22, #136]
	b.ne	Lh3q_BB158_7
	add	x8, x22, #208
	ldr	x0, [x8]
	b	Lh3q_BB158_41
Lh3q_BB158_40:
	ldrb	w8, [x22, #200]
	cmp	w8, #1
	b.ne	Lh3q_BB158_7
Lh3q_BB158_41:
	ldrh	w8, [x0]
	cbz	w8, Lh3q_BB158_7
	add	x9, x22, #208
Lh3q_BB158_43:
	ldr	x8, [x9]
	ldrh	w10, [x8, #2]
	add	x9, x8, #248
	cbnz	w10, Lh3q_BB158_43
	ldr	x8, [x8, #8]
	cmp	x19, x8
	b.lo	Lh3q_BB158_7
	ldr	x8, [x22, #216]
	cbz	x8, Lh3q_BB158_40
	sub	x8, x8, #1
	add	x0, x22, #208
	str	x8, [x22, #216]
	bl	"_std_collections::btree::node::Node::pop_first::<#cd27f3f210e89739>"
	ldr	x0, [x22, #208]
	ldrh	w8, [x0]
	cbnz	w8, Lh3q_BB158_40
	ldrh	w8, [x0, #2]
	cbz	w8, Lh3q_BB158_40
	ldr	x21, [x0, #248]
	bl	_rattle_dealloc
	add	x8, x22, #208
	mov	x0, x21
	str	x21, [x8]
	b	Lh3q_BB158_40
Lh3q_BB158_49:
	movi.2d	v0, #0000000000000000
	movi.2d	v1, #0000000000000000
	and	x10, x8, #0xfffffffffffffffc
	add	x11, x9, #16
	and	x12, x8, #0xfffffffffffffffc
Lh3q_BB158_50:
	ldp	q2, q3, [x11, #-16]
	subs	x12, x12, #4
	add	x11, x11, #32
	cmhi.2d	v4, v2, v0
	cmhi.2d	v5, v3, v1
	bit.16b	v0, v2, v4
	bit.16b	v1, v3, v5
	b.ne	Lh3q_BB158_50
	cmhi.2d	v2, v0, v1
	cmp	x8, x10
	bif.16b	v0, v1, v2
	ext.16b	v1, v0, v0, #8
	cmhi	d2, d0, d1
	bif.8b	v0, v1, v2
	fmov	x19, d0
	b.eq	Lh3q_BB158_54
Lh3q_BB158_52:
	add	x9, x9, x10, lsl #3
	sub	x8, x8, x10
Lh3q_BB158_53:
	ldr	x10, [x9], #8
	cmp	x10, x19
	csel	x19, x10, x19, hi
	subs	x8, x8, #1
	b.ne	Lh3q_BB158_53
Lh3q_BB158_54:
	add	x0, sp, #40
	add	x1, x22, #40
	mov	x2, x21
	bl	"_qpack_table::dynamic::table::DynamicTable::untrack_block::<#f1ee30144fd2ee58>"
	ldrb	w8, [sp, #40]
	cbnz	w8, Lh3q_BB158_95
	ldr	x8, [x22, #136]
	ldrb	w10, [x22, #200]
	subs	x9, x19, x8
	csel	x9, xzr, x9, lo
	adds	x8, x9, x8
	csinv	x19, x8, xzr, lo
	cmp	w10, #1
	str	x19, [x22, #136]
	b.ne	Lh3q_BB158_7
	add	x8, x22, #208
	ldr	x0, [x8]
	b	Lh3q_BB158_58
Lh3q_BB158_57:
	ldrb	w8, [x22, #200]
	cmp	w8, #1
	b.ne	Lh3q_BB158_7
Lh3q_BB158_58:
	ldrh	w8, [x0]
	cbz	w8, Lh3q_BB158_7
	add	x9, x22, #208
Lh3q_BB158_60:
	ldr	x8, [x9]
	ldrh	w10, [x8, #2]
	add	x9, x8, #248
	cbnz	w10, Lh3q_BB158_60
	ldr	x8, [x8, #8]
	cmp	x19, x8
	b.lo	Lh3q_BB158_7
	ldr	x8, [x22, #216]
	cbz	x8, Lh3q_BB158_57
	sub	x8, x8, #1
	add	x0, x22, #208
	str	x8, [x22, #216]
	bl	"_std_collections::btree::node::Node::pop_first::<#cd27f3f210e89739>"
	ldr	x0, [x22, #208]
	ldrh	w8, [x0]
	cbnz	w8, Lh3q_BB158_57
	ldrh	w8, [x0, #2]
	cbz	w8, Lh3q_BB158_57
	ldr	x21, [x0, #248]
	bl	_rattle_dealloc
	add	x8, x22, #208
	mov	x0, x21
	str	x21, [x8]
	b	Lh3q_BB158_57
Lh3q_BB158_66:
	mov	x24, xzr
	mov	x8, xzr
	mov	w10, wzr
	mov	x11, xzr
	mov	x21, xzr
	mov	w9, #1
	str	w9, [sp, #28]
	b	Lh3q_BB158_76
Lh3q_BB158_67:
	cmp	w20, #5
	b.gt	Lh3q_BB158_72
	cmp	w20, #4
	b.ne	Lh3q_BB158_93
	mov	x20, xzr
	mov	x10, xzr
	mov	x24, xzr
	b	Lh3q_BB158_91
Lh3q_BB158_70:
	cmp	w20, #2
	b.ne	Lh3q_BB158_73
	mov	x20, xzr
	mov	x10, xzr
	mov	x24, xzr
	mov	w9, #-6
	b	Lh3q_BB158_92
Lh3q_BB158_72:
	cmp	w20, #6
	b.ne	Lh3q_BB158_94
Lh3q_BB158_73:
	mov	x20, xzr
	mov	x10, xzr
	mov	x24, xzr
	mov	w9, #-4
	b	Lh3q_BB158_92
Lh3q_BB158_74:
	mov	x21, xzr
	mov	x11, xzr
Lh3q_BB158_75:
	add	x10, x22, #1464
	ldr	x24, [x22, #1472]
	str	wzr, [sp, #28]
	ldrb	w8, [x10, #7]
	ldurh	w9, [x10, #5]
	str	xzr, [x22, #1456]
	orr	w8, w9, w8, lsl #16
	ldur	w9, [x10, #1]
	ldrb	w10, [x22, #1464]
	orr	x8, x9, x8, lsl #32
Lh3q_BB158_76:
	ldp	x23, x25, [x22, #288]
	mov	x28, xzr
	ldr	x27, [x22, #136]
	ldr	x26, [x22, #304]
	str	w10, [sp, #4]
	stp	x8, x11, [sp, #8]
	stp	xzr, xzr, [x22, #296]
	cbz	x25, Lh3q_BB158_87
	add	x19, x23, #24
Lh3q_BB158_78:
	ldur	x8, [x19, #-24]
	cmp	x27, x8
	b.hs	Lh3q_BB158_82
	movi.2d	v0, #0000000000000000
	ldur	x2, [x19, #-16]
	add	x0, sp, #64
	add	x1, x22, #168
	stp	q0, q0, [sp, #64]
	bl	"_qpack_table::dynamic::open_blocks::oldest_entry"
	ldrb	w8, [sp, #64]
	cmp	w8, #1
	b.ne	Lh3q_BB158_82
	add	x28, x28, #1
	add	x19, x19, #16
	cmp	x25, x28
	b.ne	Lh3q_BB158_78
	mov	x28, x25
	b	Lh3q_BB158_87
Lh3q_BB158_82:
	add	x8, x28, #1
	cmp	x8, x25
	b.hs	Lh3q_BB158_87
	mvn	x8, x28
	add	x25, x8, x25
	b	Lh3q_BB158_85
Lh3q_BB158_84:
	movi.2d	v0, #0000000000000000
	ldr	x2, [x19]
	add	x0, sp, #64
	add	x1, x22, #168
	stp	q0, q0, [sp, #64]
	bl	"_qpack_table::dynamic::open_blocks::oldest_entry"
	ldrb	w8, [sp, #64]
	cmp	w8, #1
	ldur	x8, [x19, #-8]
	cset	w9, eq
	add	x10, x23, x28, lsl #4
	ldr	x11, [x19], #16
	subs	x25, x25, #1
	add	x28, x9, x28
	stp	x8, x11, [x10]
	b.eq	Lh3q_BB158_87
Lh3q_BB158_85:
	ldur	x8, [x19, #-8]
	cmp	x27, x8
	b.lo	Lh3q_BB158_84
	add	x10, x23, x28, lsl #4
	ldr	x11, [x19], #16
	subs	x25, x25, #1
	add	x28, xzr, x28
	stp	x8, x11, [x10]
	b.ne	Lh3q_BB158_85
Lh3q_BB158_87:
	ldr	w8, [sp, #28]
	stp	x23, x28, [x22, #288]
	str	x26, [x22, #304]
	tbz	w8, #0, Lh3q_BB158_89
	ldr	x8, [sp, #32]
	mov	w9, wzr
	mov	x10, xzr
	mov	x24, xzr
	b	Lh3q_BB158_92
Lh3q_BB158_89:
	ldr	x11, [sp, #8]
	mov	w8, #1
	add	x10, x22, #1464
	str	x8, [x22, #1512]
	ldr	w12, [sp, #4]
	lsr	x8, x11, #48
	lsr	x9, x11, #32
	str	xzr, [x22, #1520]
	strb	w12, [x22, #1528]
	strb	w8, [x10, #71]
	ldr	x8, [sp, #16]
	stur	w11, [x10, #65]
	str	x8, [x22, #1544]
	ldr	x8, [sp, #32]
	sturh	w9, [x10, #69]
	str	x24, [x22, #1536]
	str	x21, [x22, #1552]
Lh3q_BB158_90:
	mov	w9, w12
	orr	x10, x9, x11, lsl #8
Lh3q_BB158_91:
	mov	w9, #514
Lh3q_BB158_92:
	stp	x20, x10, [x8, #8]
	ldp	x29, x30, [sp, #176]
	str	x24, [x8, #24]
	ldp	x20, x19, [sp, #160]
	stp	w9, wzr, [x8]
	ldp	x22, x21, [sp, #144]
	ldp	x24, x23, [sp, #128]
	ldp	x26, x25, [sp, #112]
	ldp	x28, x27, [sp, #96]
	add	sp, sp, #192
	ret
Lh3q_BB158_93:
	mov	x20, xzr
	mov	x10, xzr
	mov	x24, xzr
	mov	w9, #265
	b	Lh3q_BB158_92
Lh3q_BB158_94:
	mov	x20, xzr
	mov	x10, xzr
	mov	x24, xzr
	mov	w9, #-1
	b	Lh3q_BB158_92
Lh3q_BB158_95:
	mov	w11, #3
	b	Lh3q_BB158_75
Lh3q_BB158_96:
	mov	w11, #1
	b	Lh3q_BB158_75

	.globl	_h3q_encoder_set_capacity
	.p2align	2
_h3q_encoder_set_capacity:
	sub	sp, sp, #64
	mov	x2, x1
	ldr	x1, [x0]
	movi.2d	v0, #0000000000000000
	stp	x29, x30, [sp, #48]
	add	x29, sp, #48
	ldrb	w8, [x1, #1512]
	cmp	w8, #1
	stp	q0, q0, [sp, #16]
	str	q0, [sp]
	b.ne	Lh3q_BB159_2
	ldrb	w8, [x1, #1520]
Lh3q_loh320:
	adrp	x9, l_switch.table.h3q_encoder_encode@PAGE
Lh3q_loh321:
	add	x9, x9, l_switch.table.h3q_encoder_encode@PAGEOFF
	ldr	w0, [x9, w8, uxtw #2]
	ldp	x29, x30, [sp, #48]
	add	sp, sp, #64
	ret
Lh3q_BB159_2:
	cbz	x2, Lh3q_BB159_4
	mov	x0, sp
	bl	"_qpack_encoding::encoder::ConnectionEncoder::tell"
	ldrb	w8, [sp]
	cbnz	w8, Lh3q_BB159_6
	b	Lh3q_BB159_7
Lh3q_BB159_4:
	ldr	x8, [x1]
	cbz	x8, Lh3q_BB159_7
	mov	x0, sp
	mov	x2, xzr
	bl	"_qpack_encoding::encoder::ConnectionEncoder::tell"
	ldrb	w8, [sp]
	cbz	w8, Lh3q_BB159_7
Lh3q_BB159_6:
	ldrb	w8, [sp, #8]
Lh3q_loh322:
	adrp	x9, l_switch.table.h3q_encoder_encode@PAGE
Lh3q_loh323:
	add	x9, x9, l_switch.table.h3q_encoder_encode@PAGEOFF
	ldr	w0, [x9, w8, uxtw #2]
	ldp	x29, x30, [sp, #48]
	add	sp, sp, #64
	ret
Lh3q_BB159_7:
	mov	w0, wzr
	ldp	x29, x30, [sp, #48]
	add	sp, sp, #64
	ret
	.loh AdrpAdd	Lh3q_loh320, Lh3q_loh321
	.loh AdrpAdd	Lh3q_loh322, Lh3q_loh323

	.globl	_h3q_encoder_set_peer_settings
	.p2align	2
_h3q_encoder_set_peer_settings:
	sub	sp, sp, #16
	ldr	x8, [x0]
	ldrb	w9, [x8, #1512]
	cmp	w9, #1
	b.ne	Lh3q_BB160_2
	ldrb	w9, [x8, #1520]
Lh3q_loh324:
	adrp	x8, l_switch.table.h3q_encoder_encode@PAGE
Lh3q_loh325:
	add	x8, x8, l_switch.table.h3q_encoder_encode@PAGEOFF
	ldr	w0, [x8, w9, uxtw #2]
	add	sp, sp, #16
	ret
Lh3q_BB160_2:
	ldr	x9, [x8, #8]
	cmp	x2, x9
	b.hs	Lh3q_BB160_4
	str	xzr, [sp, #8]
	mov	w9, #5
	b	Lh3q_BB160_8
Lh3q_BB160_4:
	ldr	x9, [x8]
	cmp	x1, x9
	b.ne	Lh3q_BB160_6
	str	x2, [x8, #8]
	mov	w0, wzr
	add	sp, sp, #16
	ret
Lh3q_BB160_6:
	cbz	x9, Lh3q_BB160_9
	mov	w9, #4
	str	xzr, [sp, #8]
Lh3q_BB160_8:
	movi.2d	v0, #0000000000000000
	str	xzr, [sp]
	mov	w10, #1
	ldr	q1, [sp]
	str	x10, [x8, #1512]
	add	x10, x8, #1528
	str	x9, [x8, #1520]
	add	x8, x8, #1544
	str	q1, [x10]
	str	q0, [x8]
Lh3q_loh326:
	adrp	x8, l_switch.table.h3q_encoder_encode@PAGE
Lh3q_loh327:
	add	x8, x8, l_switch.table.h3q_encoder_encode@PAGEOFF
	ldr	w0, [x8, w9, uxtw #2]
	add	sp, sp, #16
	ret
Lh3q_BB160_9:
	lsr	x9, x1, #30
	cbz	x9, Lh3q_BB160_11
	mov	w0, #-4
	add	sp, sp, #16
	ret
Lh3q_BB160_11:
	ldr	x9, [x8, #16]
	mov	w10, #1
	stp	x1, x2, [x8]
	stp	x10, x1, [x8, #112]
	cmp	x1, x9
	csel	x9, x1, x9, lo
	cmp	x9, #0
	str	x9, [x8, #1432]
	cset	w10, ne
	str	x10, [x8, #1424]
	mov	w0, wzr
	add	sp, sp, #16
	ret
	.loh AdrpAdd	Lh3q_loh324, Lh3q_loh325
	.loh AdrpAdd	Lh3q_loh326, Lh3q_loh327

	.globl	_h3q_encoder_shrink
	.p2align	2
_h3q_encoder_shrink:
	sub	sp, sp, #80
	stp	x20, x19, [sp, #48]
	ldr	x20, [x0]
	movi.2d	v0, #0000000000000000
	mov	x19, x1
	stp	x29, x30, [sp, #64]
	add	x29, sp, #64
	ldrb	w8, [x20, #1512]
	cmp	w8, #1
	stp	q0, q0, [sp, #16]
	str	q0, [sp]
	b.ne	Lh3q_BB161_2
	ldrb	w8, [x20, #1520]
	cmp	w8, #2
	b.ne	Lh3q_BB161_9
	b	Lh3q_BB161_7
Lh3q_BB161_2:
	cbz	x19, Lh3q_BB161_4
	mov	x0, sp
	mov	x1, x20
	mov	x2, x19
	bl	"_qpack_encoding::encoder::ConnectionEncoder::tell"
	ldrb	w9, [sp]
	ldrb	w8, [sp, #8]
	cmp	w9, #1
	b.eq	Lh3q_BB161_6
	b	Lh3q_BB161_8
Lh3q_BB161_4:
	ldr	x8, [x20]
	cbz	x8, Lh3q_BB161_10
	mov	x0, sp
	mov	x1, x20
	mov	x2, xzr
	bl	"_qpack_encoding::encoder::ConnectionEncoder::tell"
	ldrb	w9, [sp]
	ldrb	w8, [sp, #8]
	cmp	w9, #1
	b.ne	Lh3q_BB161_8
Lh3q_BB161_6:
	cmp	w8, #2
	b.ne	Lh3q_BB161_8
Lh3q_BB161_7:
	mov	w8, #1
	mov	w0, wzr
	str	x19, [x20, #1432]
	str	x8, [x20, #1424]
	ldp	x29, x30, [sp, #64]
	ldp	x20, x19, [sp, #48]
	add	sp, sp, #80
	ret
Lh3q_BB161_8:
	cbz	w9, Lh3q_BB161_10
Lh3q_BB161_9:
Lh3q_loh328:
	adrp	x9, l_switch.table.h3q_encoder_encode@PAGE
Lh3q_loh329:
	add	x9, x9, l_switch.table.h3q_encoder_encode@PAGEOFF
	ldr	w0, [x9, w8, uxtw #2]
	ldp	x29, x30, [sp, #64]
	ldp	x20, x19, [sp, #48]
	add	sp, sp, #80
	ret
Lh3q_BB161_10:
	mov	w0, wzr
	ldp	x29, x30, [sp, #64]
	ldp	x20, x19, [sp, #48]
	add	sp, sp, #80
	ret
	.loh AdrpAdd	Lh3q_loh328, Lh3q_loh329

	.globl	_h3q_decoder_cancel
	.p2align	2
_h3q_decoder_cancel:
	stp	x20, x19, [sp, #-32]!
	ldr	x20, [x0]
	stp	x29, x30, [sp, #16]
	add	x29, sp, #16
	ldrb	w8, [x20, #352]
	cmp	w8, #1
	b.ne	Lh3q_BB162_4
	ldrb	w8, [x20, #360]
	cmp	w8, #1
	b.le	Lh3q_BB162_12
	cmp	w8, #2
	b.eq	Lh3q_BB162_16
	cmp	w8, #3
	b.eq	Lh3q_BB162_5
	b	Lh3q_BB162_23
Lh3q_BB162_4:
	lsr	x8, x1, #62
	cbz	x8, Lh3q_BB162_6
Lh3q_BB162_5:
	mov	w0, #-4
	ldp	x29, x30, [sp, #16]
	ldp	x20, x19, [sp], #32
	ret
Lh3q_BB162_6:
	ldr	x8, [x20]
	cbz	x8, Lh3q_BB162_18
	cmp	x1, #62
	b.hi	Lh3q_BB162_17
	ldp	x8, x9, [x20, #328]
	cmp	x9, x8
	b.hi	Lh3q_BB162_11
	add	x0, x20, #320
	mov	x19, x1
	mov	w1, #1
	bl	"_qpack_base::coding::grow::<#8fc0d6d4cd31a236>"
	and	w8, w0, #0xff
	tbnz	w8, #0, Lh3q_BB162_23
	ldr	x8, [x20, #328]
	mov	x1, x19
Lh3q_BB162_11:
	ldr	x9, [x20, #320]
	add	x11, x8, #1
	orr	w10, w1, #0x40
	strb	w10, [x9, x8]
	str	x11, [x20, #328]
	b	Lh3q_BB162_18
Lh3q_BB162_12:
	cbnz	w8, Lh3q_BB162_14
	mov	w0, #513
	ldp	x29, x30, [sp, #16]
	ldp	x20, x19, [sp], #32
	ret
Lh3q_BB162_14:
	ldrb	w8, [x20, #376]
	cmp	w8, #2
	b.gt	Lh3q_BB162_21
	sub	w8, w8, #1
	cmp	w8, #2
	b.hs	Lh3q_BB162_24
Lh3q_BB162_16:
	mov	w0, #512
	ldp	x29, x30, [sp, #16]
	ldp	x20, x19, [sp], #32
	ret
Lh3q_BB162_17:
	mov	x19, x1
	add	x3, x20, #320
	mov	w0, #6
	mov	w1, #1
	mov	x2, x19
	bl	"_qpack_base::prefix_int::encode_long::<#8fc0d6d4cd31a236>"
	mov	x1, x19
	and	w8, w0, #0xff
	tbnz	w8, #0, Lh3q_BB162_23
Lh3q_BB162_18:
	add	x0, x20, #296
	mov	x19, x1
	bl	"_std_collections::btree_map::BTreeMap::remove::<#0bd4589be7401c64>"
	and	w8, w0, #0xff
	cmp	w8, #1
	b.ne	Lh3q_BB162_20
	add	x0, x20, #272
	mov	x2, x19
	bl	"_std_collections::btree_set::BTreeSet::remove::<#d92db99615d1834b>"
Lh3q_BB162_20:
	mov	w0, wzr
	ldp	x29, x30, [sp, #16]
	ldp	x20, x19, [sp], #32
	ret
Lh3q_BB162_21:
	cmp	w8, #3
	b.ne	Lh3q_BB162_23
	ldrb	w8, [x20, #400]
Lh3q_loh330:
	adrp	x9, l_switch.table.h3q_decoder_prefix@PAGE
Lh3q_loh331:
	add	x9, x9, l_switch.table.h3q_decoder_prefix@PAGEOFF
	ldr	w0, [x9, x8, lsl #2]
	ldp	x29, x30, [sp, #16]
	ldp	x20, x19, [sp], #32
	ret
Lh3q_BB162_23:
	mov	w0, #-1
	ldp	x29, x30, [sp, #16]
	ldp	x20, x19, [sp], #32
	ret
Lh3q_BB162_24:
	mov	w0, #-5
	ldp	x29, x30, [sp, #16]
	ldp	x20, x19, [sp], #32
	ret
	.loh AdrpAdd	Lh3q_loh330, Lh3q_loh331

	.globl	_h3q_decoder_decode
	.p2align	2
_h3q_decoder_decode:
	stp	x28, x27, [sp, #-96]!
	stp	x26, x25, [sp, #16]
	stp	x24, x23, [sp, #32]
	stp	x22, x21, [sp, #48]
	stp	x20, x19, [sp, #64]
	stp	x29, x30, [sp, #80]
	add	x29, sp, #80
	sub	sp, sp, #688
	ldr	x19, [x0]
	cmp	x2, #0
	mov	w9, #4096
	csel	x9, x9, xzr, eq
	ldr	x10, [x19, #472]
	cbz	x10, Lh3q_BB163_2
	str	xzr, [x19, #472]
Lh3q_BB163_2:
	ldr	x10, [x19, #496]
	cbz	x10, Lh3q_BB163_4
	str	xzr, [x19, #496]
Lh3q_BB163_4:
	ldrb	w10, [x19, #352]
	cmp	w10, #1
	b.ne	Lh3q_BB163_11
	ldp	x9, x21, [x19, #376]
	ldrb	w10, [x19, #360]
	ldp	x22, x23, [x19, #392]
Lh3q_BB163_6:
	cmp	w10, #1
	b.le	Lh3q_BB163_13
	cmp	w10, #2
	b.eq	Lh3q_BB163_32
	cmp	w10, #3
	b.eq	Lh3q_BB163_12
Lh3q_BB163_9:
	mov	x9, xzr
	mov	x10, xzr
	mov	x25, xzr
	mov	x21, xzr
	mov	x22, xzr
Lh3q_BB163_10:
	mov	w11, #-1
	b	Lh3q_BB163_226
Lh3q_BB163_11:
	lsr	x10, x1, #62
	cbz	x10, Lh3q_BB163_16
Lh3q_BB163_12:
	mov	x9, xzr
	mov	x10, xzr
	mov	x25, xzr
	mov	x21, xzr
	mov	x22, xzr
	mov	w11, #-4
	b	Lh3q_BB163_226
Lh3q_BB163_13:
	cbnz	w10, Lh3q_BB163_30
	mov	w9, w10
	mov	w11, #513
Lh3q_BB163_15:
	mov	x10, x9
	mov	x25, x9
	mov	x21, x9
	mov	x22, x9
	b	Lh3q_BB163_226
Lh3q_BB163_16:
	ldr	x24, [x19, #16]
	movi.2d	v0, #0000000000000000
	stp	xzr, xzr, [sp, #192]
	stp	xzr, xzr, [sp, #224]
	lsl	x10, x24, #2
	lsr	x11, x24, #62
	stp	xzr, xzr, [sp, #208]
	stp	xzr, xzr, [sp, #336]
	adds	x10, x10, #20
	stp	q0, q0, [sp, #80]
	csinv	x10, x10, xzr, lo
	stp	q0, q0, [sp, #112]
	stp	q0, q0, [sp, #144]
	str	q0, [sp, #176]
	str	x24, [sp, #72]
	str	x8, [sp, #24]
	cbnz	x11, Lh3q_BB163_18
	cmp	x10, x3
	b.lo	Lh3q_BB163_206
Lh3q_BB163_18:
	mov	x20, x1
	add	x8, x2, x9
	add	x0, sp, #248
	add	x1, sp, #312
	stp	x8, x3, [sp, #312]
	str	xzr, [sp, #328]
	bl	"_qpack_wire::block::prefix::HeaderPrefix::decode"
	ldp	x22, x10, [sp, #264]
	ldrb	w8, [sp, #248]
	ldrb	w25, [sp, #256]
	ldrb	w9, [sp, #257]
	cbnz	w8, Lh3q_BB163_207
	add	x8, sp, #3
	ldrb	w11, [x19, #96]
	ldrh	w12, [sp, #262]
	ldur	w8, [x8, #255]
	add	x13, x19, #88
	add	x14, x19, #104
	cmp	w11, #1
	stp	xzr, xzr, [sp, #352]
	orr	x9, x25, x9, lsl #8
	lsl	x8, x8, #16
	csel	x11, x14, x13, eq
	orr	x12, x8, x12, lsl #48
	ldr	x8, [x11]
	orr	x9, x9, x12
	cbnz	x8, Lh3q_BB163_21
	cbnz	x9, Lh3q_BB163_211
Lh3q_BB163_21:
	mov	x2, x20
	cbz	x9, Lh3q_BB163_33
	cbz	x8, Lh3q_BB163_33
	lsr	x11, x8, #5
	mov	x21, xzr
	cbz	x11, Lh3q_BB163_243
	lsl	x12, x11, #1
	mov	x13, x21
	cmp	x12, x9
	b.lo	Lh3q_BB163_251
	ldr	x8, [x19, #64]
	sub	x9, x11, x9
	mov	x21, xzr
	add	x9, x9, x12
	udiv	x13, x8, x12
	adds	x11, x8, x11
	msub	x13, x13, x12, x8
	add	x9, x9, x13
	add	x9, x9, #1
	udiv	x13, x9, x12
	msub	x12, x13, x12, x9
	cset	w13, hs
	subs	x14, x11, x12
	sbcs	x9, x13, xzr
	csel	x9, xzr, x9, lo
	csel	x25, xzr, x14, lo
	cmp	x12, x11
	ngcs	xzr, x13
	mov	x13, xzr
	b.hs	Lh3q_BB163_251
	cbnz	x9, Lh3q_BB163_251
	tbz	w22, #0, Lh3q_BB163_38
	subs	x9, x10, x25
	b.hs	Lh3q_BB163_248
	mvn	x9, x10
	add	x9, x25, x9
	b	Lh3q_BB163_39
Lh3q_BB163_30:
	and	w10, w9, #0xff
	cmp	w10, #2
	b.gt	Lh3q_BB163_35
	sub	w10, w10, #1
	cmp	w10, #2
	b.hs	Lh3q_BB163_204
Lh3q_BB163_32:
	mov	x9, xzr
	mov	x10, xzr
	mov	x25, xzr
	mov	x21, xzr
	mov	x22, xzr
	mov	w11, #512
	b	Lh3q_BB163_226
Lh3q_BB163_33:
	tbnz	w22, #0, Lh3q_BB163_230
	str	x2, [sp, #16]
	stp	xzr, xzr, [sp, #40]
	stp	xzr, xzr, [sp, #368]
	ldr	x8, [sp, #320]
	stp	xzr, xzr, [sp, #384]
	stp	xzr, xzr, [sp, #432]
	stp	xzr, xzr, [sp, #416]
	stp	xzr, xzr, [sp, #400]
	cbnz	x8, Lh3q_BB163_43
	b	Lh3q_BB163_191
Lh3q_BB163_35:
	cmp	w10, #4
	b.eq	Lh3q_BB163_9
	and	w9, w23, #0xff
	cmp	w9, #2
	b.hs	Lh3q_BB163_212
	mov	x9, xzr
	mov	x10, xzr
	mov	x25, xzr
	mov	w11, #512
	b	Lh3q_BB163_226
Lh3q_BB163_38:
	adds	x9, x10, x25
	b.hs	Lh3q_BB163_250
Lh3q_BB163_39:
	cmp	x8, x25
	stp	xzr, xzr, [sp, #368]
	b.hs	Lh3q_BB163_42
	add	x0, sp, #80
	mov	x1, x19
	mov	x3, x25
	bl	"_qpack_decoding::decoder::ConnectionDecoder::block"
	ldrb	w8, [sp, #80]
	cbz	w8, Lh3q_BB163_205
	ldp	x22, x23, [sp, #120]
	ldrb	w10, [sp, #88]
	ldp	x9, x21, [sp, #104]
	ldr	x8, [sp, #24]
	b	Lh3q_BB163_268
Lh3q_BB163_42:
	stp	x25, x9, [sp, #40]
	str	x2, [sp, #16]
	ldr	x8, [sp, #320]
	stp	xzr, xzr, [sp, #384]
	stp	xzr, xzr, [sp, #432]
	stp	xzr, xzr, [sp, #416]
	stp	xzr, xzr, [sp, #400]
	cbz	x8, Lh3q_BB163_191
Lh3q_BB163_43:
	ldp	x9, x10, [sp, #40]
	lsr	x11, x24, #5
	mov	x27, xzr
	mov	x23, xzr
	add	x12, sp, #504
	str	x11, [sp, #56]
	subs	x9, x9, x10
	csel	x9, xzr, x9, lo
	str	x9, [sp, #32]
	add	x9, x10, #1
	str	x9, [sp, #8]
	b	Lh3q_BB163_45
Lh3q_BB163_44:
	mov	w9, #24
	ldr	x10, [x19, #488]
	add	x12, sp, #504
	madd	x9, x8, x9, x10
	add	x10, x25, x22
	add	x27, x8, #1
	add	x11, x10, x26
	ldr	q0, [sp, #448]
	ldr	x8, [sp, #320]
	str	q0, [sp, #416]
	stp	x10, x11, [x9]
	ldr	w10, [sp, #504]
	ldur	w11, [x12, #3]
	strb	w20, [x9, #16]
	stur	w10, [x9, #17]
	str	w11, [x9, #20]
	str	x27, [x19, #496]
	cbz	x8, Lh3q_BB163_191
Lh3q_BB163_45:
	ldr	x9, [sp, #312]
	subs	x10, x24, x23
	ldr	x28, [sp, #328]
	csel	x10, xzr, x10, lo
	ldr	x22, [x19, #472]
	str	wzr, [sp, #504]
	ldrsb	w11, [x9]
	subs	x10, x10, #32
	stur	wzr, [x12, #3]
	csel	x24, xzr, x10, lo
	stp	xzr, xzr, [sp, #480]
	and	w21, w11, #0xff
	stp	xzr, xzr, [sp, #464]
	stp	xzr, xzr, [sp, #448]
	stp	xzr, xzr, [x29, #-256]
	str	x28, [sp, #64]
	tbnz	w11, #31, Lh3q_BB163_51
	cmp	w21, #63
	b.ls	Lh3q_BB163_55
	mov	w10, #1
	bic	w25, w10, w21, lsr #4
Lh3q_BB163_48:
	add	x9, x9, #1
	sub	x8, x8, #1
	cmp	w25, #2
	stp	x9, x8, [sp, #312]
	add	x8, x28, #1
	mov	w9, #8
	str	x8, [sp, #328]
	mov	w8, #16
	csel	x8, x9, x8, eq
	stp	xzr, xzr, [x29, #-208]
	add	w9, w8, #127
	sub	x20, x8, #1
	stp	xzr, xzr, [x29, #-224]
	and	w28, w9, w21
	stp	xzr, xzr, [x29, #-240]
	cmp	x20, x28
	stp	xzr, xzr, [x29, #-176]
	b.hi	Lh3q_BB163_76
	sub	x0, x29, #176
	add	x1, sp, #312
	bl	"_qpack_base::prefix_int::read_groups"
	ldurb	w8, [x29, #-176]
	cbz	w8, Lh3q_BB163_75
	ldurb	w8, [x29, #-175]
	mov	x9, xzr
	mov	x25, xzr
	mov	x20, xzr
	mov	x28, xzr
	mov	x24, xzr
	lsl	x26, x8, #8
	stp	xzr, xzr, [x29, #-256]
	b	Lh3q_BB163_154
Lh3q_BB163_51:
	mov	w10, #1
	bic	w25, w10, w21, lsr #6
Lh3q_BB163_52:
	cmp	w25, #2
	mov	w10, #64
	mov	w11, #16
	add	x9, x9, #1
	csel	x10, x11, x10, eq
	sub	x8, x8, #1
	stp	x9, x8, [sp, #312]
	sub	w9, w10, #1
	sub	x26, x10, #1
	and	w20, w9, w21
	add	x8, x28, #1
	stp	xzr, xzr, [x29, #-176]
	cmp	x26, x20
	str	x8, [sp, #328]
	b.hi	Lh3q_BB163_62
	sub	x0, x29, #176
	add	x1, sp, #312
	bl	"_qpack_base::prefix_int::read_groups"
	ldurb	w8, [x29, #-176]
	cbz	w8, Lh3q_BB163_61
	ldurb	w8, [x29, #-175]
	mov	x25, xzr
	mov	x20, xzr
	mov	x28, xzr
	stp	xzr, xzr, [x29, #-256]
	lsl	x26, x8, #8
	mov	w8, #1
	b	Lh3q_BB163_134
Lh3q_BB163_55:
	cmp	w21, #31
	b.ls	Lh3q_BB163_60
	movi.2d	v0, #0000000000000000
	sub	x0, x29, #176
	add	x3, sp, #312
	add	x4, x19, #464
	mov	w1, #4
	mov	x2, x24
	stur	xzr, [x29, #-128]
	stp	q0, q0, [x29, #-160]
	stur	q0, [x29, #-176]
	bl	"_qpack_base::prefix_string::decode_within::<#8fc0d6d4cd31a236>"
	ldurb	w8, [x29, #-176]
	cbnz	w8, Lh3q_BB163_58
	ldur	x25, [x29, #-168]
	movi.2d	v0, #0000000000000000
	sub	x0, x29, #176
	add	x3, sp, #312
	add	x4, x19, #464
	mov	w1, #8
	subs	x8, x24, x25
	stur	xzr, [x29, #-128]
	csel	x2, xzr, x8, lo
	stp	q0, q0, [x29, #-160]
	stur	q0, [x29, #-176]
	bl	"_qpack_base::prefix_string::decode_within::<#8fc0d6d4cd31a236>"
	ldurb	w8, [x29, #-176]
	cbz	w8, Lh3q_BB163_115
Lh3q_BB163_58:
	ldurb	w8, [x29, #-168]
	mov	w9, #1
	mov	w10, #23
	lsl	w9, w9, w8
	tst	w9, w10
	b.eq	Lh3q_BB163_104
	ldurb	w9, [x29, #-167]
	sub	x10, x29, #176
	ldurb	w28, [x29, #-160]
	ldur	q0, [x10, #32]
	ldur	x24, [x29, #-128]
	mov	x25, xzr
	orr	x20, x8, x9, lsl #8
	ldur	x9, [x29, #-152]
	mov	w26, #1
	stur	q0, [x29, #-112]
	b	Lh3q_BB163_105
Lh3q_BB163_60:
	cmp	w21, #15
	mov	w25, #2
	b.ls	Lh3q_BB163_48
	b	Lh3q_BB163_52
Lh3q_BB163_61:
	ldur	x8, [x29, #-168]
	add	x20, x8, x26
Lh3q_BB163_62:
	cmp	w25, #2
	b.eq	Lh3q_BB163_66
	cmp	w25, #1
	b.ne	Lh3q_BB163_72
	ldr	x9, [sp, #48]
	subs	x8, x9, x20
	csel	x26, xzr, x8, lo
	ldr	x8, [sp, #40]
	cmp	x8, x26
	b.hs	Lh3q_BB163_88
	mov	x20, xzr
	mov	x28, xzr
	stp	xzr, xzr, [x29, #-112]
	mov	w8, #1
	mov	w25, #1
	b	Lh3q_BB163_133
Lh3q_BB163_66:
	ldr	x8, [sp, #32]
	cmp	x8, x20
	b.ls	Lh3q_BB163_94
	ldr	x8, [x19, #64]
	ldr	x9, [sp, #48]
	subs	x8, x8, x9
	csel	x8, xzr, x8, lo
	cmp	x8, x20
	b.ls	Lh3q_BB163_108
	ldr	x8, [sp, #8]
	ldr	x10, [x19, #72]
	add	x11, x20, x8
	subs	x8, x11, x10
	cset	w9, ne
	cmp	x11, x10
	b.ls	Lh3q_BB163_108
	ldr	x10, [x19, #32]
	sub	x20, x8, x9
	cmp	x10, x20
	b.ls	Lh3q_BB163_117
	ldr	x8, [x19, #56]
	sub	x9, x10, x8
	ldr	x8, [x19, #24]
	subs	x9, x20, x9
	b.hs	Lh3q_BB163_173
	ldr	x9, [x19, #48]
	mov	w10, #48
	madd	x8, x9, x10, x8
	madd	x8, x20, x10, x8
	b	Lh3q_BB163_174
Lh3q_BB163_72:
	cmp	x20, #98
	b.hi	Lh3q_BB163_95
	cmp	x20, #24
	b.hi	Lh3q_BB163_110
Lh3q_loh332:
	adrp	x8, l_static.0@PAGE
Lh3q_loh333:
	add	x8, x8, l_static.0@PAGEOFF
	add	x8, x8, x20, lsl #5
	add	x9, x8, #8
	add	x10, x8, #16
	add	x11, x8, #24
	b	Lh3q_BB163_128
Lh3q_BB163_75:
	ldur	x8, [x29, #-168]
	add	x28, x8, x20
Lh3q_BB163_76:
	cmp	w25, #2
	b.eq	Lh3q_BB163_80
	cmp	w25, #1
	b.ne	Lh3q_BB163_85
	ldr	x9, [sp, #48]
	subs	x8, x9, x28
	csel	x26, xzr, x8, lo
	ldr	x8, [sp, #40]
	cmp	x8, x26
	b.hs	Lh3q_BB163_96
	mov	x28, xzr
	mov	x20, xzr
	stp	xzr, xzr, [x29, #-192]
	mov	w25, #1
	b	Lh3q_BB163_146
Lh3q_BB163_80:
	ldr	x8, [sp, #32]
	cmp	x8, x28
	b.ls	Lh3q_BB163_103
	ldr	x8, [x19, #64]
	ldr	x9, [sp, #48]
	subs	x8, x8, x9
	csel	x8, xzr, x8, lo
	cmp	x8, x28
	b.ls	Lh3q_BB163_109
	ldr	x8, [sp, #8]
	ldr	x10, [x19, #72]
	add	x11, x28, x8
	subs	x8, x11, x10
	cset	w9, ne
	cmp	x11, x10
	b.ls	Lh3q_BB163_109
	ldr	x10, [x19, #32]
	sub	x28, x8, x9
	cmp	x10, x28
	b.ls	Lh3q_BB163_122
	ldr	x8, [x19, #56]
	sub	x9, x10, x8
	b	Lh3q_BB163_101
Lh3q_BB163_85:
	cmp	x28, #98
	b.hi	Lh3q_BB163_106
	cmp	x28, #24
	b.hi	Lh3q_BB163_112
Lh3q_loh334:
	adrp	x8, l_static.0@PAGE
Lh3q_loh335:
	add	x8, x8, l_static.0@PAGEOFF
	add	x8, x8, x28, lsl #5
	add	x9, x8, #8
	b	Lh3q_BB163_143
Lh3q_BB163_88:
	subs	x8, x9, x20
	mov	x9, xzr
	b.lo	Lh3q_BB163_118
	ldp	x10, x11, [x19, #64]
	cmp	x10, x11
	b.eq	Lh3q_BB163_118
	subs	x9, x8, x11
	cset	w10, ne
	cmp	x8, x11
	b.ls	Lh3q_BB163_116
	ldr	x8, [x19, #32]
	sub	x20, x9, x10
	cmp	x8, x20
	b.ls	Lh3q_BB163_117
	ldr	x9, [x19, #56]
	sub	x9, x8, x9
	ldr	x8, [x19, #24]
	subs	x9, x20, x9
	b.hs	Lh3q_BB163_176
	ldr	x9, [x19, #48]
	mov	w10, #48
	madd	x8, x9, x10, x8
	madd	x8, x20, x10, x8
	b	Lh3q_BB163_177
Lh3q_BB163_94:
	ldr	x8, [sp, #48]
	mov	w25, #1
	mov	x28, xzr
	stp	xzr, xzr, [x29, #-112]
	adds	x8, x20, x8
	mov	x20, xzr
	csinv	x8, x8, xzr, lo
	adds	x8, x8, #1
	csinv	x26, x8, xzr, lo
	mov	w8, w25
	b	Lh3q_BB163_133
Lh3q_BB163_95:
	mov	x25, xzr
	mov	x28, xzr
	stp	xzr, xzr, [x29, #-112]
	mov	w8, #1
	mov	w26, #4
	b	Lh3q_BB163_133
Lh3q_BB163_96:
	subs	x8, x9, x28
	mov	x20, xzr
	b.lo	Lh3q_BB163_123
	ldp	x9, x11, [x19, #64]
	cmp	x9, x11
	b.eq	Lh3q_BB163_123
	subs	x9, x8, x11
	cset	w10, ne
	cmp	x8, x11
	b.ls	Lh3q_BB163_121
	ldr	x8, [x19, #32]
	sub	x28, x9, x10
	cmp	x8, x28
	b.ls	Lh3q_BB163_122
	ldr	x9, [x19, #56]
	sub	x9, x8, x9
Lh3q_BB163_101:
	ldr	x8, [x19, #24]
	subs	x9, x28, x9
	b.hs	Lh3q_BB163_136
	ldr	x9, [x19, #48]
	mov	w10, #48
	madd	x8, x9, x10, x8
	madd	x8, x28, x10, x8
	b	Lh3q_BB163_137
Lh3q_BB163_103:
	ldr	x8, [sp, #48]
	mov	x20, xzr
	stp	xzr, xzr, [x29, #-192]
	mov	w25, #1
	adds	x8, x28, x8
	csinv	x8, x8, xzr, lo
	adds	x8, x8, #1
	csinv	x26, x8, xzr, lo
	b	Lh3q_BB163_107
Lh3q_BB163_104:
	mov	x9, xzr
	mov	x26, xzr
	mov	x20, xzr
	mov	x28, xzr
	mov	x24, xzr
	stp	xzr, xzr, [x29, #-112]
	mov	w25, #3
Lh3q_BB163_105:
	ldur	q0, [x29, #-112]
	b	Lh3q_BB163_153
Lh3q_BB163_106:
	mov	x25, xzr
	mov	w26, #4
	mov	x20, x28
	stp	xzr, xzr, [x29, #-192]
Lh3q_BB163_107:
	mov	x28, xzr
	b	Lh3q_BB163_146
Lh3q_BB163_108:
	mov	w9, #1
	b	Lh3q_BB163_118
Lh3q_BB163_109:
	mov	w20, #1
	b	Lh3q_BB163_123
Lh3q_BB163_110:
	cmp	x20, #49
	b.hi	Lh3q_BB163_119
Lh3q_loh336:
	adrp	x8, l_static.1@PAGE
Lh3q_loh337:
	add	x8, x8, l_static.1@PAGEOFF
	add	x11, x8, x20, lsl #5
	sub	x8, x11, #800
	sub	x9, x11, #792
	sub	x10, x11, #784
	sub	x11, x11, #776
	b	Lh3q_BB163_128
Lh3q_BB163_112:
	cmp	x28, #49
	b.hi	Lh3q_BB163_124
Lh3q_loh338:
	adrp	x8, l_static.1@PAGE
Lh3q_loh339:
	add	x8, x8, l_static.1@PAGEOFF
	add	x9, x8, x28, lsl #5
Lh3q_BB163_114:
	sub	x8, x9, #800
	sub	x9, x9, #792
	b	Lh3q_BB163_143
Lh3q_BB163_115:
	ldur	x26, [x29, #-168]
	mov	x9, xzr
	mov	x20, xzr
	mov	x28, xzr
	mov	x24, xzr
	stp	xzr, xzr, [x29, #-256]
	b	Lh3q_BB163_155
Lh3q_BB163_116:
	mov	x9, xzr
	b	Lh3q_BB163_118
Lh3q_BB163_117:
	mov	w9, #2
Lh3q_BB163_118:
	mov	x25, xzr
	mov	x28, x20
	mov	w8, #1
	stp	xzr, xzr, [x29, #-112]
	mov	w26, #3
	mov	x20, x9
	b	Lh3q_BB163_133
Lh3q_BB163_119:
	lsl	x8, x20, #5
	cmp	x20, #74
	b.hi	Lh3q_BB163_127
Lh3q_loh340:
	adrp	x9, l_static.2@PAGE
Lh3q_loh341:
	add	x9, x9, l_static.2@PAGEOFF
	add	x11, x9, x8
	sub	x8, x11, #1600
	sub	x9, x11, #1592
	sub	x10, x11, #1584
	sub	x11, x11, #1576
	b	Lh3q_BB163_128
Lh3q_BB163_121:
	mov	x20, xzr
	b	Lh3q_BB163_123
Lh3q_BB163_122:
	mov	w20, #2
Lh3q_BB163_123:
	mov	x25, xzr
	stp	xzr, xzr, [x29, #-192]
	mov	w26, #3
	b	Lh3q_BB163_146
Lh3q_BB163_124:
	lsl	x8, x28, #5
	cmp	x28, #74
	b.hi	Lh3q_BB163_141
Lh3q_loh342:
	adrp	x9, l_static.2@PAGE
Lh3q_loh343:
	add	x9, x9, l_static.2@PAGEOFF
	add	x9, x9, x8
Lh3q_BB163_126:
	sub	x8, x9, #1600
	sub	x9, x9, #1592
	b	Lh3q_BB163_143
Lh3q_BB163_127:
Lh3q_loh344:
	adrp	x9, l_static.3@PAGE
Lh3q_loh345:
	add	x9, x9, l_static.3@PAGEOFF
	add	x11, x9, x8
	sub	x8, x11, #2400
	sub	x9, x11, #2392
	sub	x10, x11, #2384
	sub	x11, x11, #2376
Lh3q_BB163_128:
	ldr	x1, [x9]
	ldr	x0, [x8]
	ldr	x20, [x10]
	ldr	x26, [x11]
Lh3q_BB163_129:
	add	x3, x19, #464
	mov	x2, x24
	bl	"_qpack_base::coding::append_within::<#8fc0d6d4cd31a236>"
	tst	w0, #0xff
	b.ne	Lh3q_BB163_131
	subs	x8, x24, x1
	mov	x25, x1
	add	x3, x19, #464
	csel	x2, xzr, x8, lo
	mov	x0, x20
	mov	x1, x26
	bl	"_qpack_base::coding::append_within::<#8fc0d6d4cd31a236>"
	tst	w0, #0xff
	b.eq	Lh3q_BB163_135
Lh3q_BB163_131:
	mov	x26, xzr
	mov	w8, #1
	mov	w25, #3
Lh3q_BB163_132:
	stp	xzr, xzr, [x29, #-176]
	mov	x20, xzr
	mov	x28, xzr
	ldur	q0, [x29, #-176]
	stur	q0, [x29, #-112]
Lh3q_BB163_133:
	ldur	q0, [x29, #-112]
	stur	q0, [x29, #-256]
Lh3q_BB163_134:
	mov	x9, xzr
	mov	x24, xzr
	b	Lh3q_BB163_155
Lh3q_BB163_135:
	mov	x26, x1
	mov	w8, wzr
	b	Lh3q_BB163_132
Lh3q_BB163_136:
	mov	w10, #48
	madd	x8, x9, x10, x8
Lh3q_BB163_137:
	ldrb	w9, [x8, #28]
	cmp	w9, #1
	b.ne	Lh3q_BB163_140
	ldrb	w8, [x8, #29]
	cmp	w8, #24
	b.hi	Lh3q_BB163_182
Lh3q_loh346:
	adrp	x9, l_static.0@PAGE
Lh3q_loh347:
	add	x9, x9, l_static.0@PAGEOFF
	add	x8, x9, x8, lsl #5
	add	x9, x8, #8
	b	Lh3q_BB163_143
Lh3q_BB163_140:
	ldr	w1, [x8, #24]
	ldp	x8, x9, [x8]
	sub	x9, x9, x1
	add	x0, x8, x9
	b	Lh3q_BB163_144
Lh3q_BB163_141:
Lh3q_loh348:
	adrp	x9, l_static.3@PAGE
Lh3q_loh349:
	add	x9, x9, l_static.3@PAGEOFF
	add	x9, x9, x8
Lh3q_BB163_142:
	sub	x8, x9, #2400
	sub	x9, x9, #2392
Lh3q_BB163_143:
	ldr	x1, [x9]
	ldr	x0, [x8]
Lh3q_BB163_144:
	add	x3, x19, #464
	mov	x2, x24
	bl	"_qpack_base::coding::append_within::<#8fc0d6d4cd31a236>"
	tst	w0, #0xff
	stp	xzr, xzr, [x29, #-176]
	b.eq	Lh3q_BB163_167
	ldur	q0, [x29, #-176]
	mov	x28, xzr
	mov	x20, xzr
	mov	x26, xzr
	mov	w25, #3
	stur	q0, [x29, #-192]
Lh3q_BB163_146:
	movi.2d	v0, #0000000000000000
	sub	x0, x29, #176
	add	x3, sp, #312
	add	x4, x19, #464
	mov	w1, #8
	mov	x2, xzr
	stur	xzr, [x29, #-128]
	stp	q0, q0, [x29, #-160]
	stur	q0, [x29, #-176]
	bl	"_qpack_base::prefix_string::decode_within::<#8fc0d6d4cd31a236>"
	ldurb	w8, [x29, #-176]
	cbz	w8, Lh3q_BB163_149
	ldurb	w8, [x29, #-168]
	mov	w9, #1
	mov	w10, #23
	lsl	w9, w9, w8
	tst	w9, w10
	b.eq	Lh3q_BB163_151
	ldurb	w9, [x29, #-167]
	sub	x10, x29, #176
	ldurb	w28, [x29, #-160]
	ldur	q0, [x10, #32]
	ldur	x24, [x29, #-128]
	mov	x25, xzr
	orr	x20, x8, x9, lsl #8
	ldur	x9, [x29, #-152]
	mov	w26, #1
	stur	q0, [x29, #-112]
	b	Lh3q_BB163_152
Lh3q_BB163_149:
	ldur	q0, [x29, #-192]
	stp	xzr, xzr, [x29, #-240]
	mov	w8, #1
	stur	q0, [x29, #-208]
Lh3q_BB163_150:
	ldur	q0, [x29, #-208]
	mov	x9, xzr
	mov	x24, xzr
	stur	q0, [x29, #-256]
	b	Lh3q_BB163_155
Lh3q_BB163_151:
	mov	x9, xzr
	mov	x26, xzr
	mov	x20, xzr
	mov	x28, xzr
	mov	x24, xzr
	stp	xzr, xzr, [x29, #-112]
	mov	w25, #3
Lh3q_BB163_152:
	ldur	q0, [x29, #-112]
	stur	q0, [x29, #-240]
Lh3q_BB163_153:
	stur	q0, [x29, #-256]
Lh3q_BB163_154:
	mov	w8, #1
Lh3q_BB163_155:
	ldur	q0, [x29, #-256]
	str	q0, [sp, #480]
	cbnz	w8, Lh3q_BB163_233
	adds	x8, x25, x23
	ldr	x24, [sp, #72]
	csinv	x8, x8, xzr, lo
	adds	x8, x26, x8
	csinv	x8, x8, xzr, lo
	adds	x8, x8, #32
	csinv	x23, x8, xzr, lo
	cmp	x24, x23
	b.lo	Lh3q_BB163_238
	cmn	x23, #1
	b.eq	Lh3q_BB163_227
	tbnz	w21, #7, Lh3q_BB163_161
	cmp	w21, #63
	b.ls	Lh3q_BB163_162
	ubfx	w20, w21, #5, #1
	ldp	x8, x9, [x19, #496]
	cmp	x9, x8
	b.hi	Lh3q_BB163_44
	b	Lh3q_BB163_165
Lh3q_BB163_161:
	mov	w20, wzr
	ldp	x8, x9, [x19, #496]
	cmp	x9, x8
	b.ls	Lh3q_BB163_165
	b	Lh3q_BB163_44
Lh3q_BB163_162:
	cmp	w21, #31
	b.ls	Lh3q_BB163_164
	ubfx	w20, w21, #4, #1
	ldp	x8, x9, [x19, #496]
	cmp	x9, x8
	b.hi	Lh3q_BB163_44
	b	Lh3q_BB163_165
Lh3q_BB163_164:
	and	w8, w21, #0x18
	cmp	w8, #8
	cset	w20, eq
	ldp	x8, x9, [x19, #496]
	cmp	x9, x8
	b.hi	Lh3q_BB163_44
Lh3q_BB163_165:
	ldr	x9, [sp, #56]
	add	x0, x19, #488
	subs	x8, x9, x8
	csel	x1, xzr, x8, lo
	bl	"_qpack_base::coding::grow_within::<#c17844b3e8bab21b>"
	and	w8, w0, #0xff
	tbnz	w8, #0, Lh3q_BB163_227
	ldr	x8, [x19, #496]
	b	Lh3q_BB163_44
Lh3q_BB163_167:
	movi.2d	v0, #0000000000000000
	ldur	q1, [x29, #-176]
	subs	x8, x24, x1
	mov	x25, x1
	csel	x2, xzr, x8, lo
	sub	x0, x29, #176
	add	x3, sp, #312
	add	x4, x19, #464
	mov	w1, #8
	stur	xzr, [x29, #-128]
	stp	q1, q0, [x29, #-192]
	stp	q0, q0, [x29, #-160]
	bl	"_qpack_base::prefix_string::decode_within::<#8fc0d6d4cd31a236>"
	ldurb	w8, [x29, #-176]
	cbz	w8, Lh3q_BB163_170
	ldurb	w8, [x29, #-168]
	mov	w9, #1
	mov	w10, #23
	lsl	w9, w9, w8
	tst	w9, w10
	b.eq	Lh3q_BB163_171
	ldurb	w9, [x29, #-167]
	sub	x10, x29, #176
	ldurb	w28, [x29, #-160]
	ldur	q0, [x10, #32]
	ldur	x24, [x29, #-128]
	mov	x25, xzr
	orr	x20, x8, x9, lsl #8
	ldur	x9, [x29, #-152]
	mov	w26, #1
	stur	q0, [x29, #-112]
	b	Lh3q_BB163_172
Lh3q_BB163_170:
	ldur	x26, [x29, #-168]
	mov	x20, xzr
	mov	x28, xzr
	stp	xzr, xzr, [x29, #-224]
	b	Lh3q_BB163_150
Lh3q_BB163_171:
	mov	x9, xzr
	mov	x26, xzr
	mov	x20, xzr
	mov	x28, xzr
	mov	x24, xzr
	stp	xzr, xzr, [x29, #-112]
	mov	w25, #3
Lh3q_BB163_172:
	ldur	q0, [x29, #-112]
	stur	q0, [x29, #-224]
	b	Lh3q_BB163_153
Lh3q_BB163_173:
	mov	w10, #48
	madd	x8, x9, x10, x8
Lh3q_BB163_174:
	ldp	x20, x10, [x8]
	ldrb	w9, [x8, #28]
	ldr	w1, [x8, #24]
	cmp	w9, #1
	sub	x26, x10, x1
	b.eq	Lh3q_BB163_178
Lh3q_BB163_175:
	add	x0, x20, x26
	b	Lh3q_BB163_129
Lh3q_BB163_176:
	mov	w10, #48
	madd	x8, x9, x10, x8
Lh3q_BB163_177:
	ldp	x20, x10, [x8]
	ldrb	w9, [x8, #28]
	ldr	w1, [x8, #24]
	cmp	w9, #1
	sub	x26, x10, x1
	b.ne	Lh3q_BB163_175
Lh3q_BB163_178:
	ldrb	w8, [x8, #29]
	cmp	w8, #24
	b.hi	Lh3q_BB163_180
Lh3q_loh350:
	adrp	x9, l_static.0@PAGE
Lh3q_loh351:
	add	x9, x9, l_static.0@PAGEOFF
	add	x8, x9, x8, lsl #5
	add	x9, x8, #8
	b	Lh3q_BB163_189
Lh3q_BB163_180:
	cmp	w8, #49
	b.hi	Lh3q_BB163_184
Lh3q_loh352:
	adrp	x9, l_static.1@PAGE
Lh3q_loh353:
	add	x9, x9, l_static.1@PAGEOFF
	add	x9, x9, x8, lsl #5
	sub	x8, x9, #800
	sub	x9, x9, #792
	b	Lh3q_BB163_189
Lh3q_BB163_182:
	cmp	w8, #49
	b.hi	Lh3q_BB163_186
Lh3q_loh354:
	adrp	x9, l_static.1@PAGE
Lh3q_loh355:
	add	x9, x9, l_static.1@PAGEOFF
	add	x9, x9, x8, lsl #5
	b	Lh3q_BB163_114
Lh3q_BB163_184:
	lsl	x9, x8, #5
	cmp	w8, #74
	b.hi	Lh3q_BB163_188
Lh3q_loh356:
	adrp	x8, l_static.2@PAGE
Lh3q_loh357:
	add	x8, x8, l_static.2@PAGEOFF
	add	x9, x8, x9
	sub	x8, x9, #1600
	sub	x9, x9, #1592
	b	Lh3q_BB163_189
Lh3q_BB163_186:
	lsl	x9, x8, #5
	cmp	w8, #74
	b.hi	Lh3q_BB163_190
Lh3q_loh358:
	adrp	x8, l_static.2@PAGE
Lh3q_loh359:
	add	x8, x8, l_static.2@PAGEOFF
	add	x9, x8, x9
	b	Lh3q_BB163_126
Lh3q_BB163_188:
Lh3q_loh360:
	adrp	x8, l_static.3@PAGE
Lh3q_loh361:
	add	x8, x8, l_static.3@PAGEOFF
	add	x9, x8, x9
	sub	x8, x9, #2400
	sub	x9, x9, #2392
Lh3q_BB163_189:
	ldr	x1, [x9]
	ldr	x0, [x8]
	b	Lh3q_BB163_129
Lh3q_BB163_190:
Lh3q_loh362:
	adrp	x8, l_static.3@PAGE
Lh3q_loh363:
	add	x8, x8, l_static.3@PAGEOFF
	add	x9, x8, x9
	b	Lh3q_BB163_142
Lh3q_BB163_191:
	ldr	x23, [sp, #16]
	ldr	x25, [sp, #40]
	cbz	x25, Lh3q_BB163_223
	ldr	x20, [x19, #64]
	cmp	x25, x20
	b.hs	Lh3q_BB163_216
	ldr	x8, [x19, #264]
	subs	x22, x20, x8
	mov	x8, x20
	b.ls	Lh3q_BB163_215
	ldr	x24, [x19, #328]
	b	Lh3q_BB163_197
Lh3q_BB163_195:
	ldr	x9, [x19, #320]
	add	x10, x8, #1
	strb	w21, [x9, x8]
	str	x10, [x19, #328]
Lh3q_BB163_196:
	subs	x22, x22, x21
	b.eq	Lh3q_BB163_214
Lh3q_BB163_197:
	cmp	x22, #64
	mov	w8, #64
	csel	x21, x22, x8, lo
	cmp	x22, #62
	b.hi	Lh3q_BB163_201
	ldp	x8, x9, [x19, #328]
	cmp	x9, x8
	b.hi	Lh3q_BB163_195
	add	x0, x19, #320
	mov	w1, #1
	bl	"_qpack_base::coding::grow::<#8fc0d6d4cd31a236>"
	and	w8, w0, #0xff
	tbnz	w8, #0, Lh3q_BB163_202
	ldr	x8, [x19, #328]
	b	Lh3q_BB163_195
Lh3q_BB163_201:
	add	x3, x19, #320
	mov	w0, #6
	mov	w1, wzr
	mov	x2, x21
	bl	"_qpack_base::prefix_int::encode_long::<#8fc0d6d4cd31a236>"
	tst	w0, #0xff
	b.eq	Lh3q_BB163_196
Lh3q_BB163_202:
	ldr	x8, [x19, #328]
	cmp	x8, x24
	b.ls	Lh3q_BB163_258
	mov	x9, xzr
	mov	x21, xzr
	mov	x22, xzr
	mov	x23, xzr
	str	x24, [x19, #328]
	b	Lh3q_BB163_259
Lh3q_BB163_204:
	and	x9, x9, #0xff
	mov	w11, #-5
	b	Lh3q_BB163_15
Lh3q_BB163_205:
	ldr	x8, [sp, #24]
	mov	x9, xzr
	mov	x10, xzr
	mov	x21, xzr
	mov	x22, xzr
	mov	w11, #-3
	b	Lh3q_BB163_226
Lh3q_BB163_206:
	str	x1, [sp, #16]
	mov	w25, wzr
	mov	x21, xzr
	mov	x22, xzr
	mov	x23, xzr
	mov	x26, xzr
	mov	x20, xzr
	mov	x28, xzr
	mov	x27, xzr
	b	Lh3q_BB163_256
Lh3q_BB163_207:
	cmp	w25, #1
	str	x20, [sp, #16]
	b.le	Lh3q_BB163_231
	cmp	w25, #2
	b.eq	Lh3q_BB163_244
	cmp	w25, #3
	b.ne	Lh3q_BB163_245
	mov	x20, xzr
	mov	x28, xzr
	mov	x26, xzr
	mov	w9, wzr
	mov	x23, xzr
	mov	x25, xzr
	mov	w10, #7
	b	Lh3q_BB163_255
Lh3q_BB163_211:
	str	x20, [sp, #16]
	mov	x21, xzr
	mov	w25, #2
	str	xzr, [sp, #64]
	b	Lh3q_BB163_252
Lh3q_BB163_212:
	mov	x9, xzr
	mov	x10, xzr
	mov	x25, xzr
	b.ne	Lh3q_BB163_10
	mov	w11, #-5
	b	Lh3q_BB163_226
Lh3q_BB163_214:
	ldr	x8, [x19, #64]
Lh3q_BB163_215:
	str	x8, [x19, #264]
Lh3q_BB163_216:
	cmp	x23, #126
	b.hi	Lh3q_BB163_221
	ldp	x8, x9, [x19, #328]
	cmp	x9, x8
	b.hi	Lh3q_BB163_220
	add	x0, x19, #320
	mov	w1, #1
	bl	"_qpack_base::coding::grow::<#8fc0d6d4cd31a236>"
	and	w8, w0, #0xff
	tbnz	w8, #0, Lh3q_BB163_258
	ldr	x8, [x19, #328]
Lh3q_BB163_220:
	ldr	x9, [x19, #320]
	add	x11, x8, #1
	orr	w10, w23, #0xffffff80
	strb	w10, [x9, x8]
	str	x11, [x19, #328]
	b	Lh3q_BB163_222
Lh3q_BB163_221:
	add	x3, x19, #320
	mov	w0, #7
	mov	w1, #1
	mov	x2, x23
	bl	"_qpack_base::prefix_int::encode_long::<#8fc0d6d4cd31a236>"
	and	w8, w0, #0xff
	tbnz	w8, #0, Lh3q_BB163_258
Lh3q_BB163_222:
	str	x20, [x19, #264]
Lh3q_BB163_223:
	add	x0, x19, #296
	mov	x1, x23
	bl	"_std_collections::btree_map::BTreeMap::remove::<#0bd4589be7401c64>"
	and	w8, w0, #0xff
	cmp	w8, #1
	b.ne	Lh3q_BB163_225
	add	x0, x19, #272
	mov	x2, x23
	bl	"_std_collections::btree_set::BTreeSet::remove::<#d92db99615d1834b>"
Lh3q_BB163_225:
	ldr	x9, [x19, #496]
	ldr	x10, [x19, #472]
	mov	w11, wzr
	ldr	x8, [sp, #24]
	mov	x21, xzr
	mov	x22, xzr
Lh3q_BB163_226:
	stp	w11, wzr, [x8]
	stp	x9, x10, [x8, #8]
	stp	x25, x21, [x8, #24]
	str	x22, [x8, #40]
	add	sp, sp, #688
	ldp	x29, x30, [sp, #80]
	ldp	x20, x19, [sp, #64]
	ldp	x22, x21, [sp, #48]
	ldp	x24, x23, [sp, #32]
	ldp	x26, x25, [sp, #16]
	ldp	x28, x27, [sp], #96
	ret
Lh3q_BB163_227:
	ldr	x8, [x19, #472]
	cmp	x8, x22
	b.ls	Lh3q_BB163_229
	str	x22, [x19, #472]
Lh3q_BB163_229:
	mov	x9, xzr
	mov	x26, xzr
	mov	x20, xzr
	mov	x28, xzr
	mov	x21, xzr
	mov	x23, xzr
	mov	x24, xzr
	str	xzr, [sp, #64]
	stp	xzr, xzr, [x29, #-176]
	b	Lh3q_BB163_237
Lh3q_BB163_230:
	mov	x8, #9223372036854775807
	cmp	x10, x8
	csel	x8, x10, x8, lo
	b	Lh3q_BB163_249
Lh3q_BB163_231:
	cbnz	w25, Lh3q_BB163_246
	mov	x20, x25
	mov	x28, x25
	mov	x26, x25
	mov	x10, x25
	mov	x22, x25
	mov	x23, x25
	b	Lh3q_BB163_255
Lh3q_BB163_233:
	ldr	x8, [x19, #472]
	cmp	x8, x22
	b.ls	Lh3q_BB163_235
	str	x22, [x19, #472]
Lh3q_BB163_235:
	ldr	q0, [sp, #480]
	and	x8, x25, #0xff
	stp	xzr, xzr, [x29, #-176]
	cmp	x8, #3
	stp	q0, q0, [sp, #416]
	b.ne	Lh3q_BB163_241
	mov	x9, xzr
	mov	x26, xzr
	mov	x20, xzr
	mov	x28, xzr
	mov	x21, xzr
	str	xzr, [sp, #64]
	mov	x23, xzr
	mov	x24, xzr
Lh3q_BB163_237:
	mov	w25, #4
	b	Lh3q_BB163_242
Lh3q_BB163_238:
	ldr	x8, [x19, #472]
	cmp	x8, x22
	b.ls	Lh3q_BB163_240
	str	x22, [x19, #472]
Lh3q_BB163_240:
	ldr	q0, [sp, #464]
	mov	x9, xzr
	mov	x24, xzr
	mov	x28, xzr
	mov	x20, xzr
	mov	w25, #2
	mov	x26, x23
	stp	q0, q0, [sp, #416]
Lh3q_BB163_241:
	ldr	q0, [sp, #432]
	and	x23, x25, #0xff
	add	x21, x27, #1
	mov	w25, #3
	stur	q0, [x29, #-176]
Lh3q_BB163_242:
	ldur	q0, [x29, #-176]
	str	q0, [sp, #352]
	b	Lh3q_BB163_253
Lh3q_BB163_243:
	mov	x13, x21
	b	Lh3q_BB163_251
Lh3q_BB163_244:
	mov	x20, xzr
	mov	x28, xzr
	mov	x26, xzr
	mov	x22, xzr
	mov	x23, xzr
	mov	x25, xzr
	mov	w10, #5
	b	Lh3q_BB163_255
Lh3q_BB163_245:
	mov	x26, xzr
	mov	x20, xzr
	mov	x28, xzr
	mov	x27, xzr
	mov	x21, xzr
	mov	x22, xzr
	mov	x23, xzr
	b	Lh3q_BB163_256
Lh3q_BB163_246:
	and	x9, x22, #0xff
	cmp	x9, #5
	b.ne	Lh3q_BB163_254
	mov	x26, xzr
	mov	x20, xzr
	mov	x28, xzr
	mov	x27, xzr
	mov	x21, xzr
	mov	x22, xzr
	mov	x23, xzr
	mov	w25, #4
	b	Lh3q_BB163_256
Lh3q_BB163_248:
	mov	x8, #9223372036854775807
	cmp	x9, x8
	csel	x8, x9, x8, lo
Lh3q_BB163_249:
	mvn	x13, x8
	mov	w21, #7
	b	Lh3q_BB163_251
Lh3q_BB163_250:
	mov	x21, xzr
	mov	x13, xzr
Lh3q_BB163_251:
	mov	w25, #1
	str	x13, [sp, #64]
	str	x2, [sp, #16]
Lh3q_BB163_252:
	stp	xzr, xzr, [sp, #368]
	mov	x23, xzr
	mov	x26, xzr
	ldr	q0, [sp, #368]
	mov	x20, xzr
	mov	x28, xzr
	mov	x9, xzr
	mov	x24, xzr
Lh3q_BB163_253:
	str	q0, [sp, #336]
	ldr	x22, [sp, #64]
	mov	x27, x9
	ldr	q0, [sp, #336]
	stp	q0, q0, [sp, #208]
	b	Lh3q_BB163_257
Lh3q_BB163_254:
	ldp	x26, x20, [sp, #280]
	mov	w9, wzr
	ldp	x28, x25, [sp, #296]
	and	x23, x10, #0xff
	and	x22, x22, #0xffff
	mov	w10, #1
Lh3q_BB163_255:
	mov	w9, w9
	mov	x27, x25
	mov	w25, #1
	orr	x21, x10, x9, lsl #8
Lh3q_BB163_256:
	stp	xzr, xzr, [sp, #208]
	mov	x24, xzr
	ldr	q0, [sp, #208]
	str	q0, [sp, #224]
Lh3q_BB163_257:
	ldr	x1, [sp, #72]
	add	x0, x19, #464
	bl	"_qpack_decoding::field_section::FieldSection::clear_within"
	ldr	q0, [sp, #224]
	cmp	w25, #4
	str	q0, [sp, #192]
	b.ne	Lh3q_BB163_260
Lh3q_BB163_258:
	mov	x9, xzr
	mov	x21, xzr
	mov	x22, xzr
	mov	x23, xzr
Lh3q_BB163_259:
	ldr	x8, [sp, #24]
	mov	w10, #4
	b	Lh3q_BB163_268
Lh3q_BB163_260:
	ldr	x1, [sp, #16]
	add	x0, x19, #296
	bl	"_std_collections::btree_map::BTreeMap::remove::<#0bd4589be7401c64>"
	and	w8, w0, #0xff
	cmp	w8, #1
	b.ne	Lh3q_BB163_262
	ldr	x2, [sp, #16]
	add	x0, x19, #272
	bl	"_std_collections::btree_set::BTreeSet::remove::<#d92db99615d1834b>"
Lh3q_BB163_262:
	sub	w8, w25, #1
	mov	w9, w25
	cmp	w8, #2
	ldr	x8, [sp, #24]
	b.hs	Lh3q_BB163_264
Lh3q_BB163_263:
	mov	w10, #1
	ldr	x11, [sp, #16]
	strb	w25, [x19, #376]
	dup.2d	v0, x10
	strb	wzr, [x19, #383]
	str	x11, [x19, #368]
	add	x11, x19, #377
	strh	wzr, [x11, #4]
	str	q0, [x19, #352]
	ldr	q0, [sp, #192]
	str	wzr, [x11]
	add	x11, x19, #440
	stp	x21, x22, [x19, #384]
	stp	x23, x26, [x19, #400]
	stp	x20, x28, [x19, #416]
	str	x27, [x19, #432]
	str	q0, [x11]
	str	x24, [x19, #456]
	b	Lh3q_BB163_268
Lh3q_BB163_264:
	cbnz	w25, Lh3q_BB163_266
	mov	w10, #1
	b	Lh3q_BB163_268
Lh3q_BB163_266:
	tst	x23, #0xfe
	b.eq	Lh3q_BB163_263
	mov	w10, #1
	mov	w9, #3
Lh3q_BB163_268:
	ldr	x11, [x19, #472]
	cbz	x11, Lh3q_BB163_270
	str	xzr, [x19, #472]
Lh3q_BB163_270:
	ldr	x11, [x19, #496]
	cbz	x11, Lh3q_BB163_6
	str	xzr, [x19, #496]
	b	Lh3q_BB163_6
	.loh AdrpAdd	Lh3q_loh332, Lh3q_loh333
	.loh AdrpAdd	Lh3q_loh334, Lh3q_loh335
	.loh AdrpAdd	Lh3q_loh336, Lh3q_loh337
	.loh AdrpAdd	Lh3q_loh338, Lh3q_loh339
	.loh AdrpAdd	Lh3q_loh340, Lh3q_loh341
	.loh AdrpAdd	Lh3q_loh342, Lh3q_loh343
	.loh AdrpAdd	Lh3q_loh344, Lh3q_loh345
	.loh AdrpAdd	Lh3q_loh346, Lh3q_loh347
	.loh AdrpAdd	Lh3q_loh348, Lh3q_loh349
	.loh AdrpAdd	Lh3q_loh350, Lh3q_loh351
	.loh AdrpAdd	Lh3q_loh352, Lh3q_loh353
	.loh AdrpAdd	Lh3q_loh354, Lh3q_loh355
	.loh AdrpAdd	Lh3q_loh356, Lh3q_loh357
	.loh AdrpAdd	Lh3q_loh358, Lh3q_loh359
	.loh AdrpAdd	Lh3q_loh360, Lh3q_loh361
	.loh AdrpAdd	Lh3q_loh362, Lh3q_loh363

	.globl	_h3q_decoder_prefix
	.p2align	2
_h3q_decoder_prefix:
	sub	sp, sp, #128
	movi.2d	v0, #0000000000000000
	stp	x20, x19, [sp, #96]
	mov	x19, x8
	mov	w8, #4096
	cmp	x1, #0
	ldr	x20, [x0]
	mov	x9, x1
	csel	x8, x8, xzr, eq
	mov	x3, x2
	mov	x0, sp
	add	x1, x20, #24
	add	x2, x9, x8
	stp	x29, x30, [sp, #112]
	add	x29, sp, #112
	stp	q0, q0, [sp]
	stp	q0, q0, [sp, #32]
	stp	q0, q0, [sp, #64]
	bl	"_qpack_decoding::section::read_prefix::<#78d66cfad5c8051d>"
	ldrb	w8, [sp]
	ldr	x9, [sp, #8]
	cbz	w8, Lh3q_BB164_4
	and	w8, w9, #0xff
	cmp	w8, #2
	b.gt	Lh3q_BB164_5
	movi.2d	v0, #0000000000000000
	sub	w8, w8, #1
	cmp	w8, #2
	b.hs	Lh3q_BB164_7
	mov	x8, xzr
	mov	w9, #512
	b	Lh3q_BB164_9
Lh3q_BB164_4:
	ldr	x10, [x20, #64]
	ldur	q0, [sp, #8]
	ldr	x8, [sp, #24]
	cmp	x10, x9
	mov	w9, #-3
	csel	w9, w9, wzr, lo
	b	Lh3q_BB164_9
Lh3q_BB164_5:
	movi.2d	v0, #0000000000000000
	cmp	w8, #4
	b.ne	Lh3q_BB164_8
	mov	x8, xzr
	mov	w9, #-1
	b	Lh3q_BB164_9
Lh3q_BB164_7:
	and	x8, x9, #0xff
	mov	w9, #-5
	b	Lh3q_BB164_9
Lh3q_BB164_8:
	ldrb	w8, [sp, #32]
Lh3q_loh364:
	adrp	x9, l_switch.table.h3q_decoder_prefix@PAGE
Lh3q_loh365:
	add	x9, x9, l_switch.table.h3q_decoder_prefix@PAGEOFF
	ldr	w9, [x9, x8, lsl #2]
	mov	x8, xzr
Lh3q_BB164_9:
	stp	w9, wzr, [x19]
	ldp	x29, x30, [sp, #112]
	stur	q0, [x19, #8]
	str	x8, [x19, #24]
	ldp	x20, x19, [sp, #96]
	add	sp, sp, #128
	ret
	.loh AdrpAdd	Lh3q_loh364, Lh3q_loh365

	.globl	_h3q_decoder_stream
	.p2align	2
_h3q_decoder_stream:
	stp	x26, x25, [sp, #-80]!
	stp	x24, x23, [sp, #16]
	ldr	x23, [x0]
	cmp	x1, #0
	mov	w10, #4096
	stp	x22, x21, [sp, #32]
	ldr	x8, [x23, #64]
	ldr	x9, [x23, #264]
	csel	x24, x10, xzr, eq
	ldr	x25, [x23, #328]
	stp	x20, x19, [sp, #48]
	mov	x20, x2
	mov	x19, x1
	subs	x26, x8, x9
	add	x21, x1, x24
	stp	x29, x30, [sp, #64]
	add	x29, sp, #64
	b.hi	Lh3q_BB165_4
	b	Lh3q_BB165_11
Lh3q_BB165_1:
	ldr	x8, [x23, #328]
Lh3q_BB165_2:
	ldr	x9, [x23, #320]
	add	x10, x8, #1
	strb	w22, [x9, x8]
	str	x10, [x23, #328]
Lh3q_BB165_3:
	subs	x26, x26, x22
	b.eq	Lh3q_BB165_10
Lh3q_BB165_4:
	cmp	x26, #64
	mov	w8, #64
	csel	x22, x26, x8, lo
	cmp	x26, #62
	b.hi	Lh3q_BB165_7
	ldp	x8, x9, [x23, #328]
	cmp	x9, x8
	b.hi	Lh3q_BB165_2
	add	x0, x23, #320
	mov	w1, #1
	bl	"_qpack_base::coding::grow::<#8fc0d6d4cd31a236>"
	and	w8, w0, #0xff
	tbz	w8, #0, Lh3q_BB165_1
	b	Lh3q_BB165_8
Lh3q_BB165_7:
	add	x3, x23, #320
	mov	w0, #6
	mov	w1, wzr
	mov	x2, x22
	bl	"_qpack_base::prefix_int::encode_long::<#8fc0d6d4cd31a236>"
	tst	w0, #0xff
	b.eq	Lh3q_BB165_3
Lh3q_BB165_8:
	ldr	x10, [x23, #328]
	cmp	x10, x25
	b.ls	Lh3q_BB165_13
	str	x25, [x23, #328]
	b	Lh3q_BB165_12
Lh3q_BB165_10:
	ldr	x8, [x23, #64]
	ldr	x25, [x23, #328]
Lh3q_BB165_11:
	str	x8, [x23, #264]
Lh3q_BB165_12:
	mov	x10, x25
Lh3q_BB165_13:
	ldr	x9, [x23, #344]
	ldr	x8, [x23, #320]
	sub	x10, x10, x9
	add	x1, x8, x9
	cmp	x20, x10
	csel	x20, x20, x10, lo
	sub	x10, x21, x1
	cmp	x10, x20
	b.hs	Lh3q_BB165_19
	cmp	x20, #8
	b.lo	Lh3q_BB165_16
	add	x10, x24, x19
	add	x11, x9, x8
	sub	x10, x10, x11
	cmp	x10, #32
	b.hs	Lh3q_BB165_21
Lh3q_BB165_16:
	mov	x10, xzr
Lh3q_BB165_17:
	add	x11, x10, x9
	add	x12, x24, x10
	sub	x9, x20, x10
	add	x8, x8, x11
	add	x10, x19, x12
Lh3q_BB165_18:
	ldrb	w11, [x8], #1
	subs	x9, x9, #1
	strb	w11, [x10], #1
	b.ne	Lh3q_BB165_18
	b	Lh3q_BB165_20
Lh3q_BB165_19:
	mov	x0, x21
	mov	x2, x20
	bl	_memmove
Lh3q_BB165_20:
	add	x0, x23, #320
	mov	x1, x20
	bl	"_qpack_shared::unsent::Unsent::sent"
	mov	x0, x20
	ldp	x29, x30, [sp, #64]
	ldp	x20, x19, [sp, #48]
	ldp	x22, x21, [sp, #32]
	ldp	x24, x23, [sp, #16]
	ldp	x26, x25, [sp], #80
	ret
Lh3q_BB165_21:
	cmp	x20, #32
	b.hs	Lh3q_BB165_23
	mov	x10, xzr
	b	Lh3q_BB165_27
Lh3q_BB165_23:
	add	x12, x9, x8
	add	x13, x24, x19
	and	x11, x20, #0x18
	and	x10, x20, #0xffffffffffffffe0
	add	x12, x12, #16
	add	x13, x13, #16
	and	x14, x20, #0xffffffffffffffe0
Lh3q_BB165_24:
	ldp	q0, q1, [x12, #-16]
	subs	x14, x14, #32
	add	x12, x12, #32
	stp	q0, q1, [x13, #-16]
	add	x13, x13, #32
	b.ne	Lh3q_BB165_24
	cmp	x20, x10
	b.eq	Lh3q_BB165_20
	cbz	x11, Lh3q_BB165_17
Lh3q_BB165_27:
	mov	x11, x10
	and	x10, x20, #0xfffffffffffffff8
	add	x12, x11, x9
	add	x13, x24, x11
	sub	x11, x11, x10
	add	x12, x8, x12
	add	x13, x19, x13
Lh3q_BB165_28:
	ldr	d0, [x12], #8
	adds	x11, x11, #8
	str	d0, [x13], #8
	b.ne	Lh3q_BB165_28
	cmp	x20, x10
	b.eq	Lh3q_BB165_20
	b	Lh3q_BB165_17

	.globl	_h3q_encoder_stream
	.p2align	2
_h3q_encoder_stream:
	stp	x20, x19, [sp, #-32]!
	ldr	x20, [x0]
	cmp	x1, #0
	mov	w11, #4096
	csel	x11, x11, xzr, eq
	stp	x29, x30, [sp, #16]
	add	x29, sp, #16
	ldr	x8, [x20, #1488]
	ldr	x10, [x20, #1504]
	ldr	x9, [x20, #1480]
	add	x0, x1, x11
	sub	x12, x8, x10
	add	x8, x9, x10
	cmp	x2, x12
	csel	x19, x2, x12, lo
	sub	x12, x0, x8
	cmp	x12, x19
	b.hs	Lh3q_BB166_6
	cmp	x19, #8
	b.lo	Lh3q_BB166_3
	add	x8, x11, x1
	add	x12, x10, x9
	sub	x8, x8, x12
	cmp	x8, #32
	b.hs	Lh3q_BB166_8
Lh3q_BB166_3:
	mov	x8, xzr
Lh3q_BB166_4:
	add	x10, x8, x10
	add	x11, x11, x8
	sub	x8, x19, x8
	add	x9, x9, x10
	add	x10, x1, x11
Lh3q_BB166_5:
	ldrb	w11, [x9], #1
	subs	x8, x8, #1
	strb	w11, [x10], #1
	b.ne	Lh3q_BB166_5
	b	Lh3q_BB166_7
Lh3q_BB166_6:
	mov	x1, x8
	mov	x2, x19
	bl	_memmove
Lh3q_BB166_7:
	add	x0, x20, #1480
	mov	x1, x19
	bl	"_qpack_shared::unsent::Unsent::sent"
	ldp	x29, x30, [sp, #16]
	mov	x0, x19
	ldp	x20, x19, [sp], #32
	ret
Lh3q_BB166_8:
	cmp	x19, #32
	b.hs	Lh3q_BB166_10
	mov	x8, xzr
	b	Lh3q_BB166_14
Lh3q_BB166_10:
	add	x13, x10, x9
	add	x14, x11, x1
	and	x12, x19, #0x18
	and	x8, x19, #0xffffffffffffffe0
	add	x13, x13, #16
	add	x14, x14, #16
	and	x15, x19, #0xffffffffffffffe0
Lh3q_BB166_11:
	ldp	q0, q1, [x13, #-16]
	subs	x15, x15, #32
	add	x13, x13, #32
	stp	q0, q1, [x14, #-16]
	add	x14, x14, #32
	b.ne	Lh3q_BB166_11
	cmp	x19, x8
	b.eq	Lh3q_BB166_7
	cbz	x12, Lh3q_BB166_4
Lh3q_BB166_14:
	mov	x12, x8
	and	x8, x19, #0xfffffffffffffff8
	add	x13, x12, x10
	add	x14, x11, x12
	sub	x12, x12, x8
	add	x13, x9, x13
	add	x14, x1, x14
Lh3q_BB166_15:
	ldr	d0, [x13], #8
	adds	x12, x12, #8
	str	d0, [x14], #8
	b.ne	Lh3q_BB166_15
	cmp	x19, x8
	b.eq	Lh3q_BB166_7
	b	Lh3q_BB166_4

	.section	__TEXT,__literal16,16byte_literals
	.p2align	4, 0x0
lh3q_CPI167_0:
	.quad	1
	.quad	0
	.section	__TEXT,__text,regular,pure_instructions
	.globl	_h3q_decoder_read
	.p2align	2
_h3q_decoder_read:
	sub	sp, sp, #464
	stp	x26, x25, [sp, #384]
	ldr	x26, [x0]
	stp	x28, x27, [sp, #368]
	ldrb	w16, [x26, #352]
	add	x11, x26, #377
	stp	x24, x23, [sp, #400]
	stp	x22, x21, [sp, #416]
	cmp	w16, #1
	stp	x20, x19, [sp, #432]
	stp	x29, x30, [sp, #448]
	add	x29, sp, #448
	stp	xzr, xzr, [sp, #24]
	stp	xzr, xzr, [sp, #40]
	stp	xzr, xzr, [sp, #56]
	b.ne	Lh3q_BB167_5
	ldrb	w10, [x11, #6]
	ldrh	w9, [x11, #4]
	ldrb	w12, [x26, #360]
	ldr	x15, [x26, #368]
	ldrb	w13, [x26, #376]
	orr	w9, w9, w10, lsl #16
	ldr	w10, [x11]
	orr	x14, x10, x9, lsl #32
	ldrb	w10, [x26, #400]
	mov	x9, xzr
	cmp	w12, #1
	b.le	Lh3q_BB167_55
Lh3q_BB167_2:
	cmp	w12, #2
	b.eq	Lh3q_BB167_59
	cmp	w12, #3
	b.ne	Lh3q_BB167_61
	mov	w10, wzr
	mov	x15, xzr
	mov	x11, xzr
	mov	w12, #-4
	b	Lh3q_BB167_62
Lh3q_BB167_5:
	stp	x2, x8, [sp, #8]
	cmp	x1, #0
	mov	w8, #4096
	csel	x8, x8, xzr, eq
	mov	x27, xzr
	mov	x20, x2
	add	x21, x1, x8
	str	w16, [sp, #4]
	stp	xzr, xzr, [sp, #80]
	str	xzr, [sp, #96]
Lh3q_BB167_6:
	ldur	x25, [x26, #224]
	cbz	x25, Lh3q_BB167_43
	ldp	x28, x24, [x26, #232]
	movi.2d	v0, #0000000000000000
	add	x9, sp, #176
	subs	x8, x24, x25
	csel	x8, xzr, x8, lo
	stp	q0, q0, [x9, #48]
	cmp	x8, #1
	stp	q0, q0, [x9, #80]
	csinc	x19, x8, xzr, hi
	sub	x8, x28, x25
	cmp	x20, x19
	csel	x22, x20, x19, lo
	cmp	x22, x8
	b.hi	Lh3q_BB167_24
	ldr	x23, [x26, #216]
	stp	xzr, xzr, [x26, #224]
	add	x8, x23, x25
	sub	x8, x8, x21
	cmp	x8, x22
	b.hs	Lh3q_BB167_26
Lh3q_BB167_9:
	cmp	x22, #8
	b.lo	Lh3q_BB167_11
	add	x8, x25, x23
	sub	x8, x8, x21
	cmp	x8, #32
	b.hs	Lh3q_BB167_15
Lh3q_BB167_11:
	mov	x8, xzr
Lh3q_BB167_12:
	add	x10, x8, x25
	sub	x9, x8, x22
	add	x8, x21, x8
	add	x10, x23, x10
Lh3q_BB167_13:
	ldrb	w11, [x8], #1
	adds	x9, x9, #1
	strb	w11, [x10], #1
	b.lo	Lh3q_BB167_13
Lh3q_BB167_14:
	add	x3, x25, x22
	sub	x25, x20, x22
	stp	x28, xzr, [x26, #232]
	cmp	x24, x3
	stp	x23, x3, [x26, #216]
	b.ls	Lh3q_BB167_27
	b	Lh3q_BB167_40
Lh3q_BB167_15:
	cmp	x22, #32
	b.hs	Lh3q_BB167_17
	mov	x8, xzr
	b	Lh3q_BB167_21
Lh3q_BB167_17:
	add	x11, x23, x25
	and	x9, x22, #0x18
	and	x8, x22, #0xffffffffffffffe0
	add	x10, x21, #16
	add	x11, x11, #16
	and	x12, x22, #0xffffffffffffffe0
Lh3q_BB167_18:
	ldp	q0, q1, [x10, #-16]
	subs	x12, x12, #32
	add	x10, x10, #32
	stp	q0, q1, [x11, #-16]
	add	x11, x11, #32
	b.ne	Lh3q_BB167_18
	cmp	x22, x8
	b.eq	Lh3q_BB167_14
	cbz	x9, Lh3q_BB167_12
Lh3q_BB167_21:
	mov	x10, x8
	and	x8, x22, #0xfffffffffffffff8
	add	x11, x25, x10
	sub	x9, x10, x8
	add	x10, x21, x10
	add	x11, x23, x11
Lh3q_BB167_22:
	ldr	d0, [x10], #8
	adds	x9, x9, #8
	str	d0, [x11], #8
	b.ne	Lh3q_BB167_22
	cmp	x22, x8
	b.eq	Lh3q_BB167_14
	b	Lh3q_BB167_12
Lh3q_BB167_24:
	add	x0, x26, #216
	mov	x1, x22
	bl	"_std_alloc::vec::Vec::grow_amortized::<#a86b858a52422f6f>"
	cbz	w0, Lh3q_BB167_74
	ldp	x25, x28, [x26, #224]
	ldr	x23, [x26, #216]
	stp	xzr, xzr, [x26, #224]
	add	x8, x23, x25
	sub	x8, x8, x21
	cmp	x8, x22
	b.lo	Lh3q_BB167_9
Lh3q_BB167_26:
	add	x0, x23, x25
	mov	x1, x21
	mov	x2, x22
	bl	_memmove
	add	x3, x25, x22
	sub	x25, x20, x22
	stp	x28, xzr, [x26, #232]
	cmp	x24, x3
	stp	x23, x3, [x26, #216]
	b.hi	Lh3q_BB167_40
Lh3q_BB167_27:
	movi.2d	v0, #0000000000000000
	add	x8, sp, #176
	stp	x23, x3, [sp, #200]
	sub	x0, x29, #160
	add	x1, x26, #24
	add	x2, x26, #248
	add	x3, sp, #200
	str	xzr, [sp, #216]
	stp	q0, q0, [x8, #112]
	stp	q0, q0, [x8, #144]
	bl	"_qpack_decoding::encoder_stream::take_all_strictly::<#78d66cfad5c8051d>"
	ldp	x0, x24, [x26, #216]
	ldr	x23, [sp, #216]
	mov	x2, x23
	mov	x1, x24
	sub	x28, x24, x23
	bl	"_core::slice::edits::slice+T::rotate_left::<i8>"
	ldp	x10, x9, [x26, #216]
	sub	x8, x9, x28
	add	x0, x10, x28
	cmp	x8, #15
	b.ls	Lh3q_BB167_29
	lsr	x3, x8, #1
	mov	x1, xzr
	sub	x8, x8, x3
	add	x2, x0, x8
	bl	"_core::slice::edits::mirror::<i8>"
	b	Lh3q_BB167_36
Lh3q_BB167_29:
	subs	x11, x8, #2
	b.lo	Lh3q_BB167_36
	lsr	x11, x11, #1
	add	x10, x10, x9
	add	x12, x23, x9
	mvn	x13, x24
	mov	x8, xzr
	sub	x10, x10, #1
	add	x9, x11, #1
	add	x11, x13, x12
	b	Lh3q_BB167_33
Lh3q_BB167_31:
	ldrb	w12, [x0, x8]
	ldrb	w13, [x10]
	strb	w13, [x0, x8]
	strb	w12, [x10]
Lh3q_BB167_32:
	add	x8, x8, #1
	sub	x10, x10, #1
	sub	x11, x11, #1
	cmp	x9, x8
	b.eq	Lh3q_BB167_36
Lh3q_BB167_33:
	cmp	x8, x11
	b.lo	Lh3q_BB167_31
	cmp	x11, x8
	b.hs	Lh3q_BB167_32
	ldrb	w12, [x0, x8]
	ldrb	w13, [x10]
	strb	w12, [x10]
	strb	w13, [x0, x8]
	b	Lh3q_BB167_32
Lh3q_BB167_36:
	ldur	x3, [x26, #224]
	cmp	x28, x3
	b.hs	Lh3q_BB167_38
	mov	x3, x28
	stur	x28, [x26, #224]
Lh3q_BB167_38:
	sub	x9, x29, #160
	add	x14, sp, #176
	ldurb	w8, [x29, #-160]
	ldur	q1, [x9, #32]
	ldurb	w11, [x29, #-152]
	ldurb	w10, [x29, #-151]
	ldur	x12, [x9, #48]
	ldr	q0, [x14, #128]
	add	x13, sp, #176
	ldur	x9, [x29, #-104]
	str	q1, [x14]
	str	x12, [sp, #192]
	cbnz	w8, Lh3q_BB167_47
	ldr	x23, [x26, #216]
Lh3q_BB167_40:
	add	x0, sp, #224
	add	x1, x26, #24
	mov	x2, x23
	bl	"_qpack_decoding::encoder_stream::find_wanted::<#78d66cfad5c8051d>"
	ldrb	w9, [sp, #224]
	ldr	x8, [sp, #232]
	cbnz	w9, Lh3q_BB167_46
	add	x21, x21, x22
	cmp	x20, x19
	add	x27, x22, x27
	mov	x20, x25
	str	x8, [x26, #240]
	stp	xzr, xzr, [sp, #112]
	str	xzr, [sp, #128]
	b.hi	Lh3q_BB167_6
	ldr	x2, [sp, #8]
	subs	x8, x2, x25
	csel	x9, xzr, x8, lo
	b	Lh3q_BB167_78
Lh3q_BB167_43:
	movi.2d	v0, #0000000000000000
	add	x8, sp, #176
	stp	x21, x20, [sp, #24]
	str	x27, [sp, #40]
	stp	q0, q0, [x8, #48]
	stp	q0, q0, [x8, #80]
	stp	q0, q0, [x8, #112]
	stp	q0, q0, [x8, #144]
	cbz	x20, Lh3q_BB167_77
	sub	x0, x29, #160
	add	x1, x26, #24
	add	x2, x26, #248
	add	x3, sp, #24
	str	xzr, [x26, #240]
	bl	"_qpack_decoding::encoder_stream::take_all_strictly::<#78d66cfad5c8051d>"
	ldurb	w8, [x29, #-160]
	cbz	w8, Lh3q_BB167_49
	add	x8, sp, #176
	ldurb	w10, [x29, #-151]
	ldurb	w11, [x29, #-152]
	ldp	q0, q1, [x8, #128]
	ldp	x8, x9, [x29, #-112]
	str	q1, [sp, #144]
	str	x8, [sp, #160]
	b	Lh3q_BB167_51
Lh3q_BB167_46:
	add	x10, sp, #176
	ldp	x12, x9, [sp, #272]
	ldp	q0, q1, [x10, #64]
	lsr	x10, x8, #8
	str	x25, [sp, #32]
	and	w11, w8, #0xff
	str	x12, [sp, #128]
	str	q1, [sp, #112]
	b	Lh3q_BB167_48
Lh3q_BB167_47:
	ldr	q1, [x13]
	ldr	x8, [sp, #192]
	str	x25, [sp, #32]
	str	q1, [sp, #112]
	str	x8, [sp, #128]
Lh3q_BB167_48:
	ldr	q1, [sp, #112]
	ldr	x8, [sp, #128]
	b	Lh3q_BB167_52
Lh3q_BB167_49:
	ldp	x21, x22, [sp, #24]
	add	x0, sp, #224
	add	x1, x26, #24
	mov	x2, x21
	mov	x3, x22
	bl	"_qpack_decoding::encoder_stream::find_wanted::<#78d66cfad5c8051d>"
	ldrb	w8, [sp, #224]
	ldr	x19, [sp, #232]
	cbz	w8, Lh3q_BB167_67
	add	x11, sp, #176
	ldp	x8, x9, [sp, #272]
	ldp	q0, q1, [x11, #64]
	lsr	x10, x19, #8
	and	w11, w19, #0xff
	str	x8, [sp, #160]
	str	q1, [sp, #144]
Lh3q_BB167_51:
	ldr	q1, [sp, #144]
	ldr	x8, [sp, #160]
Lh3q_BB167_52:
	str	x8, [sp, #96]
	ldp	x2, x8, [sp, #8]
	ldr	w16, [sp, #4]
	add	x17, x26, #377
	cmp	w11, #11
	str	q1, [sp, #80]
	b.ne	Lh3q_BB167_54
	mov	x14, xzr
	mov	x15, xzr
	mov	w13, wzr
	mov	w10, wzr
	mov	w12, #4
	ldr	x9, [sp, #32]
	subs	x9, x2, x9
	csel	x9, xzr, x9, lo
	cmp	w12, #1
	b.gt	Lh3q_BB167_2
	b	Lh3q_BB167_55
Lh3q_BB167_54:
	ldr	q1, [sp, #80]
Lh3q_loh366:
	adrp	x13, lh3q_CPI167_0@PAGE
	mov	w11, w11
Lh3q_loh367:
	ldr	q2, [x13, lh3q_CPI167_0@PAGEOFF]
	ldp	x15, x13, [x26, #248]
	bfi	x11, x10, #8, #8
	add	x10, x26, #408
	ldr	x14, [sp, #96]
	str	q1, [x10]
	umov.b	w10, v0[8]
	mov	w12, wzr
	str	x14, [sp, #64]
	stp	x14, x9, [x26, #424]
	lsr	x14, x13, #8
	str	q1, [sp, #48]
	str	q2, [x26, #352]
	stp	x15, x13, [x26, #368]
	str	x11, [x26, #384]
	stur	q0, [x17, #15]
	stp	xzr, xzr, [x26, #448]
	str	xzr, [x26, #440]
	ldr	x9, [sp, #32]
	subs	x9, x2, x9
	csel	x9, xzr, x9, lo
	cmp	w12, #1
	b.gt	Lh3q_BB167_2
Lh3q_BB167_55:
	cbnz	w12, Lh3q_BB167_57
	mov	w11, w13
	mov	w12, #513
	mov	w10, #1
	bfi	x11, x14, #8, #56
	b	Lh3q_BB167_62
Lh3q_BB167_57:
	and	w11, w13, #0xff
	cmp	w11, #2
	b.gt	Lh3q_BB167_60
	sub	w10, w11, #1
	cmp	w10, #2
	b.hs	Lh3q_BB167_63
Lh3q_BB167_59:
	mov	w10, wzr
	mov	x15, xzr
	mov	x11, xzr
	mov	w12, #512
	b	Lh3q_BB167_62
Lh3q_BB167_60:
	cmp	w11, #4
	b.ne	Lh3q_BB167_64
Lh3q_BB167_61:
	mov	w10, wzr
	mov	x15, xzr
	mov	x11, xzr
	mov	w12, #-1
Lh3q_BB167_62:
	mov	w13, #1
	b	Lh3q_BB167_79
Lh3q_BB167_63:
	and	x15, x13, #0xff
	mov	w10, wzr
	mov	w12, #-5
	mov	w13, #1
	mov	x11, x15
	b	Lh3q_BB167_79
Lh3q_BB167_64:
	and	w10, w10, #0xff
	cmp	w10, #2
	b.lo	Lh3q_BB167_59
	b.ne	Lh3q_BB167_61
	mov	w10, wzr
	mov	x15, xzr
	mov	x11, xzr
	mov	w12, #-5
	b	Lh3q_BB167_62
Lh3q_BB167_67:
	ldp	x8, x20, [x26, #224]
	sub	x9, x20, x8
	cmp	x22, x9
	b.hi	Lh3q_BB167_89
Lh3q_BB167_68:
	ldr	x23, [x26, #216]
	add	x24, x8, x22
	stp	xzr, xzr, [x26, #224]
	add	x0, x23, x8
	sub	x9, x0, x21
	cmp	x9, x22
	b.hs	Lh3q_BB167_75
	cmp	x22, #8
	b.lo	Lh3q_BB167_71
	add	x9, x8, x23
	sub	x9, x9, x21
	cmp	x9, #32
	b.hs	Lh3q_BB167_80
Lh3q_BB167_71:
	mov	x9, xzr
Lh3q_BB167_72:
	add	x10, x9, x8
	sub	x8, x22, x9
	add	x9, x21, x9
	add	x10, x23, x10
Lh3q_BB167_73:
	ldrb	w11, [x9], #1
	subs	x8, x8, #1
	strb	w11, [x10], #1
	b.ne	Lh3q_BB167_73
	b	Lh3q_BB167_76
Lh3q_BB167_74:
	movi.2d	v0, #0000000000000000
	mov	w10, wzr
	mov	x9, xzr
	mov	w11, #11
	str	x20, [sp, #32]
	stp	xzr, xzr, [sp, #112]
	str	xzr, [sp, #128]
	b	Lh3q_BB167_48
Lh3q_BB167_75:
	mov	x1, x21
	mov	x2, x22
	bl	_memmove
Lh3q_BB167_76:
	stp	x23, x24, [x26, #216]
	stp	x20, x19, [x26, #232]
Lh3q_BB167_77:
	ldr	x2, [sp, #8]
	mov	x9, x2
Lh3q_BB167_78:
	ldrb	w10, [x26, #64]
	ldr	x8, [sp, #16]
	mov	w13, wzr
	ldr	w16, [sp, #4]
	mov	w12, wzr
	mov	x15, xzr
	cmp	x10, #0
	mov	x11, xzr
	cset	w10, eq
Lh3q_BB167_79:
	cmp	w16, #0
	ldp	x29, x30, [sp, #448]
	csel	w13, wzr, w13, ne
	ldp	x20, x19, [sp, #432]
	tst	w10, w13
	ldp	x22, x21, [sp, #416]
	ldp	x24, x23, [sp, #400]
	csel	x9, x2, x9, ne
	ldp	x26, x25, [sp, #384]
	stp	w12, wzr, [x8]
	ldp	x28, x27, [sp, #368]
	stp	x9, x15, [x8, #8]
	str	x11, [x8, #24]
	add	sp, sp, #464
	ret
Lh3q_BB167_80:
	cmp	x22, #32
	b.hs	Lh3q_BB167_82
	mov	x9, xzr
	b	Lh3q_BB167_86
Lh3q_BB167_82:
	add	x12, x8, x23
	and	x10, x22, #0x18
	and	x9, x22, #0xffffffffffffffe0
	add	x11, x21, #16
	add	x12, x12, #16
	and	x13, x22, #0xffffffffffffffe0
Lh3q_BB167_83:
	ldp	q0, q1, [x11, #-16]
	subs	x13, x13, #32
	add	x11, x11, #32
	stp	q0, q1, [x12, #-16]
	add	x12, x12, #32
	b.ne	Lh3q_BB167_83
	cmp	x22, x9
	b.eq	Lh3q_BB167_76
	cbz	x10, Lh3q_BB167_72
Lh3q_BB167_86:
	mov	x11, x9
	and	x9, x22, #0xfffffffffffffff8
	add	x12, x8, x11
	sub	x10, x11, x9
	add	x11, x21, x11
	add	x12, x23, x12
Lh3q_BB167_87:
	ldr	d0, [x11], #8
	adds	x10, x10, #8
	str	d0, [x12], #8
	b.ne	Lh3q_BB167_87
	cmp	x22, x9
	b.eq	Lh3q_BB167_76
	b	Lh3q_BB167_72
Lh3q_BB167_89:
	add	x0, x26, #216
	mov	x1, x22
	bl	"_std_alloc::vec::Vec::grow_amortized::<#a86b858a52422f6f>"
	cbz	w0, Lh3q_BB167_91
	ldp	x8, x20, [x26, #224]
	b	Lh3q_BB167_68
Lh3q_BB167_91:
	movi.2d	v0, #0000000000000000
	mov	w10, wzr
	mov	x9, xzr
	mov	w11, #11
	stp	xzr, xzr, [sp, #144]
	str	xzr, [sp, #160]
	b	Lh3q_BB167_51
	.loh AdrpLdr	Lh3q_loh366, Lh3q_loh367

	.section	__TEXT,__literal16,16byte_literals
	.p2align	4, 0x0
lh3q_CPI168_0:
	.quad	1
	.quad	3
	.section	__TEXT,__text,regular,pure_instructions
	.globl	_h3q_decoder_read_section
	.p2align	2
_h3q_decoder_read_section:
	stp	x28, x27, [sp, #-96]!
	stp	x26, x25, [sp, #16]
	stp	x24, x23, [sp, #32]
	stp	x22, x21, [sp, #48]
	stp	x20, x19, [sp, #64]
	stp	x29, x30, [sp, #80]
	add	x29, sp, #80
	sub	sp, sp, #816
	ldr	x26, [x1]
	cmp	x2, #0
	mov	w10, #4096
	ldr	x21, [x0]
	csel	x12, x10, xzr, eq
	stp	xzr, xzr, [sp, #64]
	ldr	x9, [x26, #192]
	str	xzr, [sp, #80]
	cbz	x9, Lh3q_BB168_2
	str	xzr, [x26, #192]
Lh3q_BB168_2:
	ldr	x9, [x26, #216]
	cbz	x9, Lh3q_BB168_4
	str	xzr, [x26, #216]
Lh3q_BB168_4:
	ldrb	w9, [x21, #352]
	cmp	w9, #1
	b.ne	Lh3q_BB168_9
	ldp	x10, x25, [x21, #384]
	mov	x9, xzr
	ldrb	w11, [x21, #360]
	ldr	x13, [x21, #400]
	ldrb	w23, [x21, #376]
	cmp	w11, #1
	b.le	Lh3q_BB168_11
Lh3q_BB168_6:
	cmp	w11, #2
	b.eq	Lh3q_BB168_18
	cmp	w11, #3
	b.ne	Lh3q_BB168_31
	mov	x12, xzr
	mov	x10, xzr
	mov	x25, xzr
	mov	w11, #-4
	b	Lh3q_BB168_33
Lh3q_BB168_9:
	ldr	x1, [x26]
	lsr	x9, x1, #62
	cbz	x9, Lh3q_BB168_14
	mov	x9, xzr
	mov	w23, wzr
	mov	x10, xzr
	mov	x25, xzr
	mov	x13, xzr
	mov	w11, #3
	cmp	w11, #1
	b.gt	Lh3q_BB168_6
Lh3q_BB168_11:
	cbnz	w11, Lh3q_BB168_16
	mov	w12, w11
	mov	w11, #513
Lh3q_BB168_13:
	mov	x10, x12
	mov	x25, x12
	b	Lh3q_BB168_33
Lh3q_BB168_14:
	ldrb	w9, [x26, #88]
	ldr	x25, [x21, #16]
	stp	xzr, xzr, [sp, #96]
	str	xzr, [sp, #112]
	cmp	w9, #1
	b.ne	Lh3q_BB168_19
	ldp	x9, x22, [x26, #168]
	mov	x27, x3
	ldp	x13, x25, [x26, #104]
	ldur	q0, [x26, #152]
	ldp	x14, x11, [x26, #120]
	ldrb	w23, [x26, #96]
	str	q0, [sp, #64]
	ldp	x24, x12, [x26, #136]
	str	x9, [sp, #80]
	b	Lh3q_BB168_24
Lh3q_BB168_16:
	and	w11, w23, #0xff
	cmp	w11, #2
	b.gt	Lh3q_BB168_30
	sub	w10, w11, #1
	cmp	w10, #2
	b.hs	Lh3q_BB168_36
Lh3q_BB168_18:
	mov	x12, xzr
	mov	x10, xzr
	mov	x25, xzr
	mov	w11, #512
	b	Lh3q_BB168_33
Lh3q_BB168_19:
	mov	x28, x26
	ldr	x14, [x28, #16]!
	ldr	x9, [x28, #56]
	cmn	x14, x9
	b.hs	Lh3q_BB168_23
	add	x13, x9, x14
	cmn	x3, x13
	b.hs	Lh3q_BB168_23
	lsl	x10, x25, #2
	lsr	x11, x25, #62
	adds	x10, x10, #20
	csinv	x10, x10, xzr, lo
	cbnz	x11, Lh3q_BB168_43
	add	x13, x13, x3
	cmp	x10, x13
	b.hs	Lh3q_BB168_43
Lh3q_BB168_23:
	movi.2d	v0, #0000000000000000
	mov	x22, xzr
	mov	x12, xzr
	mov	x24, xzr
	mov	x11, xzr
	mov	x14, xzr
	mov	x25, xzr
	mov	x13, xzr
	mov	w23, wzr
	mov	w9, #1
	mov	x27, x3
	str	xzr, [x26, #176]
	str	x9, [x26, #88]
	stp	q0, q0, [x26, #96]
	stp	q0, q0, [x26, #128]
	str	q0, [x26, #160]
	stp	xzr, xzr, [sp, #64]
	str	xzr, [sp, #80]
Lh3q_BB168_24:
	and	w9, w23, #0xff
	cmp	w9, #4
	b.ne	Lh3q_BB168_26
	mov	x10, xzr
	mov	x25, xzr
	mov	x13, xzr
	mov	w23, wzr
	mov	w11, #4
	subs	x9, x3, x27
	csel	x9, xzr, x9, lo
	cmp	w11, #1
	b.gt	Lh3q_BB168_6
	b	Lh3q_BB168_11
Lh3q_BB168_26:
	add	x0, x21, #296
	mov	x20, x27
	mov	x27, x14
	mov	x19, x13
	stp	x12, x22, [sp, #48]
	mov	x26, x3
	str	x24, [sp, #40]
	mov	x24, x11
	mov	x28, x8
	mov	x22, x21
	mov	x21, x1
	bl	"_std_collections::btree_map::BTreeMap::remove::<#0bd4589be7401c64>"
	and	w8, w0, #0xff
	cmp	w8, #1
	b.ne	Lh3q_BB168_28
	add	x0, x22, #272
	mov	x2, x21
	bl	"_std_collections::btree_set::BTreeSet::remove::<#d92db99615d1834b>"
Lh3q_BB168_28:
	and	w9, w23, #0xff
	mov	x3, x26
	mov	x10, x19
	sub	w8, w9, #1
	mov	x13, x27
	mov	x27, x20
	cmp	w8, #2
	mov	x8, x28
	b.hs	Lh3q_BB168_34
Lh3q_BB168_29:
	add	x9, x22, #377
	mov	w11, #1
	str	x21, [x22, #368]
	strh	wzr, [x9, #4]
	dup.2d	v0, x11
	str	wzr, [x9]
	ldr	x9, [sp, #40]
	strb	w23, [x22, #376]
	str	x9, [x22, #416]
	ldr	x9, [sp, #48]
	str	q0, [x22, #352]
	ldr	q0, [sp, #64]
	str	x9, [x22, #424]
	ldr	x9, [sp, #80]
	strb	wzr, [x22, #383]
	str	x9, [x22, #448]
	ldr	x9, [sp, #56]
	stp	x10, x25, [x22, #384]
	stp	x13, x24, [x22, #400]
	str	q0, [x22, #432]
	str	x9, [x22, #456]
	subs	x9, x3, x27
	csel	x9, xzr, x9, lo
	cmp	w11, #1
	b.gt	Lh3q_BB168_6
	b	Lh3q_BB168_11
Lh3q_BB168_30:
	cmp	w11, #4
	b.ne	Lh3q_BB168_37
Lh3q_BB168_31:
	mov	x12, xzr
	mov	x10, xzr
	mov	x25, xzr
Lh3q_BB168_32:
	mov	w11, #-1
Lh3q_BB168_33:
	stp	w11, wzr, [x8]
	stp	x9, x12, [x8, #8]
	stp	x10, x25, [x8, #24]
	add	sp, sp, #816
	ldp	x29, x30, [sp, #80]
	ldp	x20, x19, [sp, #64]
	ldp	x22, x21, [sp, #48]
	ldp	x24, x23, [sp, #32]
	ldp	x26, x25, [sp, #16]
	ldp	x28, x27, [sp], #96
	ret
Lh3q_BB168_34:
	cbnz	w9, Lh3q_BB168_39
	mov	w11, #1
	subs	x9, x3, x27
	csel	x9, xzr, x9, lo
	cmp	w11, #1
	b.gt	Lh3q_BB168_6
	b	Lh3q_BB168_11
Lh3q_BB168_36:
	and	x12, x23, #0xff
	mov	w11, #-5
	b	Lh3q_BB168_13
Lh3q_BB168_37:
	and	w11, w13, #0xff
	cmp	w11, #2
	b.hs	Lh3q_BB168_41
	mov	x12, xzr
	mov	w11, #512
	b	Lh3q_BB168_33
Lh3q_BB168_39:
	tst	x13, #0xfe
	b.eq	Lh3q_BB168_29
	mov	w23, #3
	mov	w11, #1
	subs	x9, x3, x27
	csel	x9, xzr, x9, lo
	cmp	w11, #1
	b.gt	Lh3q_BB168_6
	b	Lh3q_BB168_11
Lh3q_BB168_41:
	mov	x12, xzr
	b.ne	Lh3q_BB168_32
	mov	w11, #-5
	b	Lh3q_BB168_33
Lh3q_BB168_43:
	mov	x23, x26
	str	x21, [sp, #56]
	add	x21, x2, x12
	ldrb	w13, [x23, #32]!
	cmp	w13, #1
	b.ne	Lh3q_BB168_48
	ldr	x12, [sp, #56]
	ldr	x13, [x26, #40]
	ldr	x12, [x12, #64]
	cmp	x12, x13
	b.hs	Lh3q_BB168_57
	movi.2d	v0, #0000000000000000
	ldr	x21, [sp, #56]
	mov	x2, x1
	mov	x23, x8
	mov	x24, x3
	mov	x27, x3
	stp	q0, q0, [x29, #-208]
	stp	q0, q0, [x29, #-176]
	stp	q0, q0, [x29, #-144]
	stur	q0, [x29, #-224]
Lh3q_BB168_46:
	sub	x0, x29, #224
	mov	x1, x21
	mov	x3, x13
	mov	x19, x13
	bl	"_qpack_decoding::decoder::ConnectionDecoder::block"
	ldurb	w8, [x29, #-224]
	cbz	w8, Lh3q_BB168_63
	ldp	x12, x10, [x29, #-200]
	mov	x8, x23
	ldp	x25, x13, [x29, #-184]
	ldurb	w11, [x29, #-216]
	subs	x9, x24, x27
	mov	w23, w12
	csel	x9, xzr, x9, lo
	cmp	w11, #1
	b.gt	Lh3q_BB168_6
	b	Lh3q_BB168_11
Lh3q_BB168_48:
	cmp	w4, #0
	stp	x14, x1, [sp, #24]
	movi.2d	v0, #0000000000000000
	cset	w1, ne
	cmp	x11, #0
	stp	x8, x3, [sp, #40]
	csinv	x8, x10, xzr, eq
	add	x5, x26, #8
	mov	w0, wzr
	subs	x8, x8, x9
	mov	x2, x21
	str	xzr, [sp, #616]
	csel	x4, xzr, x8, lo
	str	xzr, [sp, #608]
	str	xzr, [sp, #624]
	stp	q0, q0, [x29, #-224]
	stp	q0, q0, [x29, #-192]
	stp	q0, q0, [x29, #-160]
	bl	"_qpack_decoding::section::reader::gather"
	tst	w0, #0xff
	str	x23, [sp, #16]
	b.eq	Lh3q_BB168_60
	mov	x12, xzr
	mov	x24, xzr
	mov	x11, xzr
	mov	x13, xzr
	mov	x25, xzr
	mov	x14, xzr
	mov	x22, xzr
	stp	xzr, xzr, [x29, #-256]
	mov	w23, #4
	stur	xzr, [x29, #-240]
	ldp	x10, x1, [sp, #24]
	ldr	x9, [x28]
	ldp	x8, x3, [sp, #40]
	ldr	x21, [sp, #56]
	cmp	x9, x10
	b.ls	Lh3q_BB168_51
Lh3q_BB168_50:
	mov	x9, x10
	str	x10, [x28]
Lh3q_BB168_51:
	cbnz	x9, Lh3q_BB168_54
	ldr	x9, [x26, #24]
	cmp	x9, #65
	b.lo	Lh3q_BB168_54
	ldur	x0, [x26, #8]
	mov	x19, x22
	mov	x27, x12
	mov	x21, x11
	mov	x22, x13
	mov	x20, x14
	bl	_rattle_dealloc
	ldp	x1, x8, [sp, #32]
	mov	x11, x21
	ldp	x3, x21, [sp, #48]
	mov	x14, x20
	mov	x13, x22
	mov	x12, x27
	mov	x22, x19
	sub	x9, x29, #97
	stp	xzr, xzr, [x28]
	stur	x9, [x26, #8]
Lh3q_BB168_54:
	ldur	q0, [x29, #-256]
	ldur	x9, [x29, #-240]
	and	w10, w23, #0xff
	cmp	w10, #4
	stur	q0, [x29, #-224]
	stur	x9, [x29, #-208]
	b.eq	Lh3q_BB168_56
	mov	w9, w23
	mov	w10, #1
	stp	x13, x25, [x26, #104]
	and	x9, x9, #0xff
	stp	x14, x11, [x26, #120]
	stp	x10, x9, [x26, #88]
	stp	x24, x12, [x26, #136]
	ldur	q0, [x29, #-224]
	stur	q0, [x26, #152]
	ldur	x9, [x29, #-208]
	stp	x9, x22, [x26, #168]
Lh3q_BB168_56:
	ldur	q0, [x29, #-224]
	ldur	x9, [x29, #-208]
	mov	x27, x3
	str	q0, [sp, #608]
	str	x9, [sp, #624]
	mov	w9, #1
	b	Lh3q_BB168_84
Lh3q_BB168_57:
	ldr	x27, [x26, #48]
	orr	x12, x14, x3
	stp	xzr, xzr, [sp, #200]
	str	xzr, [sp, #192]
	stp	xzr, xzr, [sp, #168]
	str	xzr, [sp, #160]
	stp	xzr, xzr, [sp, #136]
	str	xzr, [sp, #128]
	str	x23, [sp, #16]
	cbz	x12, Lh3q_BB168_64
	cmp	w4, #0
	stp	x14, x1, [sp, #24]
	ldr	x24, [x26, #80]
	cset	w1, ne
	cmp	x11, #0
	stp	x8, x3, [sp, #40]
	csinv	x8, x10, xzr, eq
	add	x5, x26, #8
	mov	w0, #1
	subs	x8, x8, x9
	mov	x2, x21
	mov	x19, x13
	csel	x4, xzr, x8, lo
	stp	xzr, xzr, [sp, #224]
	str	xzr, [sp, #240]
	stp	xzr, xzr, [sp, #256]
	str	xzr, [sp, #272]
	bl	"_qpack_decoding::section::reader::gather"
	tst	w0, #0xff
	b.eq	Lh3q_BB168_66
	ldp	x8, x3, [sp, #40]
	mov	x23, xzr
	ldp	x11, x1, [sp, #24]
	mov	x24, xzr
	mov	x20, xzr
	mov	x22, xzr
	mov	w21, #3
	stp	xzr, xzr, [sp, #224]
	str	xzr, [sp, #240]
	b	Lh3q_BB168_191
Lh3q_BB168_60:
	tbz	w1, #0, Lh3q_BB168_65
	ldr	x9, [x28]
	ldur	x8, [x26, #8]
	sub	x0, x29, #224
	cmp	x9, #0
	csel	x2, x21, x8, eq
	ldr	x8, [sp, #48]
	csel	x3, x8, x9, eq
	ldr	x8, [sp, #56]
	add	x1, x8, #24
	bl	"_qpack_decoding::section::read_prefix::<#78d66cfad5c8051d>"
	ldp	x13, x21, [x29, #-216]
	ldurb	w8, [x29, #-224]
	ldur	x25, [x29, #-200]
	cbz	w8, Lh3q_BB168_78
	ldp	x14, x11, [x29, #-192]
	mov	w23, w13
	ldp	x8, x22, [x29, #-144]
	mov	x13, x21
	ldp	x24, x12, [x29, #-176]
	ldur	q0, [x29, #-160]
	stur	q0, [x29, #-256]
	stur	x8, [x29, #-240]
	ldp	x10, x1, [sp, #24]
	ldr	x9, [x28]
	ldp	x8, x3, [sp, #40]
	ldr	x21, [sp, #56]
	cmp	x9, x10
	b.hi	Lh3q_BB168_50
	b	Lh3q_BB168_51
Lh3q_BB168_63:
	subs	x8, x24, x27
	mov	x10, xzr
	mov	x25, xzr
	csel	x9, xzr, x8, lo
	mov	w11, #-3
	mov	x8, x23
	mov	x12, x19
	b	Lh3q_BB168_33
Lh3q_BB168_64:
	cmp	w4, #0
	mov	w10, #4
	ldr	x21, [sp, #56]
	mov	w9, wzr
	mov	x25, xzr
	mov	x14, xzr
	mov	x11, xzr
	mov	x24, xzr
	mov	x22, xzr
	stp	xzr, xzr, [sp, #96]
	csel	x13, x13, xzr, ne
	csel	w23, w10, wzr, ne
	str	xzr, [sp, #112]
	mov	x27, x3
	b	Lh3q_BB168_201
Lh3q_BB168_65:
	ldp	x8, x3, [sp, #40]
	mov	x27, xzr
	mov	x12, xzr
	mov	x24, xzr
	mov	x11, xzr
	mov	w9, wzr
	mov	w23, wzr
	mov	x13, xzr
	mov	x25, xzr
	mov	x14, xzr
	mov	x22, xzr
	b	Lh3q_BB168_83
Lh3q_BB168_66:
	tbz	w1, #0, Lh3q_BB168_85
	ldp	x8, x10, [x26, #8]
	ldr	x11, [x26, #192]
	stp	xzr, xzr, [sp, #296]
	stp	xzr, xzr, [sp, #312]
	cmp	x10, #0
	csel	x9, x21, x8, eq
	ldr	x8, [sp, #48]
	csel	x8, x8, x10, eq
	stp	x9, x8, [sp, #280]
	cbz	x11, Lh3q_BB168_69
	str	xzr, [x26, #192]
Lh3q_BB168_69:
	ldr	x10, [x26, #216]
	cbz	x10, Lh3q_BB168_71
	str	xzr, [x26, #216]
Lh3q_BB168_71:
	cbz	x8, Lh3q_BB168_267
	add	x10, sp, #328
	str	wzr, [sp, #424]
	ldrsb	w11, [x9]
	stur	wzr, [x10, #99]
	subs	x10, x25, x24
	csel	x10, xzr, x10, lo
	and	w12, w11, #0xff
	stp	xzr, xzr, [sp, #408]
	subs	x10, x10, #32
	stp	xzr, xzr, [sp, #392]
	csel	x20, xzr, x10, lo
	stp	xzr, xzr, [sp, #376]
	stp	xzr, xzr, [sp, #360]
	stp	xzr, xzr, [sp, #344]
	stp	xzr, xzr, [sp, #328]
	str	x24, [sp, #8]
	stp	xzr, xzr, [sp, #432]
	str	xzr, [sp, #448]
	str	w12, [sp, #4]
	tbnz	w11, #31, Lh3q_BB168_87
	cmp	w12, #63
	sub	x22, x29, #224
	b.ls	Lh3q_BB168_91
	mov	w10, #1
	bic	w21, w10, w12, lsr #4
Lh3q_BB168_75:
	add	x9, x9, #1
	sub	x8, x8, #1
	cmp	w21, #2
	stp	x9, x8, [sp, #280]
	mov	w8, #16
	mov	w9, #8
	csel	x8, x9, x8, eq
	mov	w9, #1
	stp	xzr, xzr, [sp, #464]
	str	x9, [sp, #296]
	add	w9, w8, #127
	sub	x23, x8, #1
	and	w9, w9, w12
	str	xzr, [sp, #480]
	mov	x24, x9
	cmp	x23, x9
	stp	xzr, xzr, [x29, #-224]
	b.hi	Lh3q_BB168_110
	sub	x0, x29, #224
	add	x1, sp, #280
	bl	"_qpack_base::prefix_int::read_groups"
	ldurb	w8, [x29, #-224]
	cbz	w8, Lh3q_BB168_109
	ldurb	w8, [x29, #-223]
	mov	x27, xzr
	mov	x24, xzr
	mov	x20, xzr
	mov	x12, xzr
	stp	xzr, xzr, [sp, #440]
	lsl	x23, x8, #8
	str	xzr, [sp, #432]
	b	Lh3q_BB168_172
Lh3q_BB168_78:
	ldr	x8, [x28]
	ldr	x10, [sp, #24]
	cbz	x8, Lh3q_BB168_80
	str	xzr, [x28]
Lh3q_BB168_80:
	ldr	x8, [x26, #24]
	cmp	x8, #65
	b.lo	Lh3q_BB168_82
	ldur	x0, [x26, #8]
	mov	x19, x13
	bl	_rattle_dealloc
	ldr	x10, [sp, #24]
	mov	x13, x19
	sub	x8, x29, #97
	stur	x8, [x26, #8]
	stp	xzr, xzr, [x28]
Lh3q_BB168_82:
	ldr	x3, [sp, #48]
	mov	w23, #1
	mov	x12, xzr
	mov	x24, xzr
	mov	x11, xzr
	mov	w9, wzr
	add	x8, x10, x3
	mov	x14, xzr
	mov	x22, xzr
	sub	x27, x8, x25
	ldr	x8, [sp, #40]
	stp	x13, x21, [x26, #40]
	str	x23, [x26, #32]
	str	x25, [x26, #56]
	str	x25, [x26, #72]
	mov	x25, xzr
Lh3q_BB168_83:
	ldr	x1, [sp, #32]
	ldr	x21, [sp, #56]
Lh3q_BB168_84:
	ldr	q0, [sp, #608]
	ldr	x10, [sp, #624]
	str	q0, [sp, #96]
	str	x10, [sp, #112]
	b	Lh3q_BB168_202
Lh3q_BB168_85:
	ldp	x8, x3, [sp, #40]
	mov	x27, xzr
	mov	w9, wzr
	mov	x12, xzr
	mov	x24, xzr
	mov	x11, xzr
	mov	w23, wzr
	mov	x13, xzr
	mov	x25, xzr
	mov	x14, xzr
	mov	x22, xzr
Lh3q_BB168_86:
	ldr	x1, [sp, #32]
	ldr	x21, [sp, #56]
	b	Lh3q_BB168_200
Lh3q_BB168_87:
	mov	w10, #1
	bic	w21, w10, w12, lsr #6
Lh3q_BB168_88:
	cmp	w21, #2
	mov	w10, #64
	mov	w11, #16
	add	x9, x9, #1
	csel	x10, x11, x10, eq
	sub	x8, x8, #1
	stp	x9, x8, [sp, #280]
	sub	w9, w10, #1
	sub	x23, x10, #1
	and	w24, w9, w12
	mov	w8, #1
	stp	xzr, xzr, [x29, #-224]
	cmp	x23, x24
	str	x8, [sp, #296]
	b.hi	Lh3q_BB168_98
	sub	x0, x29, #224
	add	x1, sp, #280
	bl	"_qpack_base::prefix_int::read_groups"
	ldurb	w8, [x29, #-224]
	cbz	w8, Lh3q_BB168_97
	ldurb	w8, [x29, #-223]
	ldp	x11, x1, [sp, #24]
	mov	x27, xzr
	mov	x24, xzr
	mov	x20, xzr
	lsl	x23, x8, #8
	ldp	x8, x3, [sp, #40]
	stp	xzr, xzr, [sp, #440]
	mov	w9, #1
	mov	x12, xzr
	str	xzr, [sp, #432]
	b	Lh3q_BB168_174
Lh3q_BB168_91:
	cmp	w12, #31
	b.ls	Lh3q_BB168_96
	movi.2d	v0, #0000000000000000
	sub	x0, x29, #224
	add	x3, sp, #280
	add	x4, x26, #184
	mov	w1, #4
	mov	x2, x20
	stur	xzr, [x29, #-176]
	stp	q0, q0, [x29, #-208]
	stur	q0, [x29, #-224]
	bl	"_qpack_base::prefix_string::decode_within::<#8fc0d6d4cd31a236>"
	ldurb	w8, [x29, #-224]
	cbnz	w8, Lh3q_BB168_94
	ldur	x27, [x29, #-216]
	movi.2d	v0, #0000000000000000
	sub	x0, x29, #224
	add	x3, sp, #280
	add	x4, x26, #184
	mov	w1, #8
	subs	x8, x20, x27
	stur	xzr, [x29, #-176]
	csel	x2, xzr, x8, lo
	stp	q0, q0, [x29, #-208]
	stur	q0, [x29, #-224]
	bl	"_qpack_base::prefix_string::decode_within::<#8fc0d6d4cd31a236>"
	ldurb	w8, [x29, #-224]
	cbz	w8, Lh3q_BB168_141
Lh3q_BB168_94:
	ldurb	w8, [x29, #-216]
	mov	w9, #1
	mov	w10, #23
	lsl	w9, w9, w8
	tst	w9, w10
	b.eq	Lh3q_BB168_129
	ldurb	w9, [x29, #-215]
	ldp	x10, x12, [x29, #-184]
	ldur	q0, [x22, #24]
	mov	x27, xzr
	mov	w23, #1
	ldurb	w20, [x29, #-208]
	orr	x24, x8, x9, lsl #8
	stur	q0, [x29, #-256]
	stur	x10, [x29, #-240]
	b	Lh3q_BB168_130
Lh3q_BB168_96:
	cmp	w12, #15
	mov	w21, #2
	b.ls	Lh3q_BB168_75
	b	Lh3q_BB168_88
Lh3q_BB168_97:
	ldur	x8, [x29, #-216]
	add	x24, x8, x23
Lh3q_BB168_98:
	cmp	w21, #2
	b.eq	Lh3q_BB168_102
	cmp	w21, #1
	b.ne	Lh3q_BB168_106
	subs	x8, x27, x24
	csel	x8, xzr, x8, lo
	cmp	x19, x8
	b.hs	Lh3q_BB168_121
	mov	x23, x8
	mov	x24, xzr
	mov	x20, xzr
	str	xzr, [sp, #552]
	mov	w9, #1
	mov	w27, #1
	str	xzr, [sp, #544]
	str	xzr, [sp, #560]
	b	Lh3q_BB168_158
Lh3q_BB168_102:
	subs	x8, x19, x27
	mov	x3, x24
	csel	x8, xzr, x8, lo
	cmp	x8, x24
	b.ls	Lh3q_BB168_124
	ldr	x8, [sp, #56]
	sub	x0, x29, #256
	mov	x2, x27
	add	x1, x8, #24
	bl	"_qpack_table::dynamic::table::DynamicTableDecoder::get_postbase::<#78d66cfad5c8051d>"
	ldurb	w9, [x29, #-256]
	ldur	x8, [x29, #-248]
	cbnz	w9, Lh3q_BB168_122
Lh3q_BB168_104:
	ldp	x21, x10, [x8]
	ldrb	w9, [x8, #28]
	ldr	w1, [x8, #24]
	cmp	w9, #1
	sub	x22, x10, x1
	b.ne	Lh3q_BB168_142
	ldrb	w1, [x8, #29]
	sub	x0, x29, #224
	bl	"_qpack_base::static_::known_row"
	ldp	x0, x1, [x29, #-224]
	b	Lh3q_BB168_154
Lh3q_BB168_106:
	cmp	x24, #98
	b.hi	Lh3q_BB168_125
	cmp	x24, #24
	b.hi	Lh3q_BB168_137
Lh3q_loh368:
	adrp	x8, l_static.0@PAGE
Lh3q_loh369:
	add	x8, x8, l_static.0@PAGEOFF
	add	x8, x8, x24, lsl #5
	add	x9, x8, #8
	add	x10, x8, #16
	add	x11, x8, #24
	b	Lh3q_BB168_153
Lh3q_BB168_109:
	ldur	x8, [x29, #-216]
	add	x24, x8, x23
Lh3q_BB168_110:
	cmp	w21, #2
	b.eq	Lh3q_BB168_114
	cmp	w21, #1
	b.ne	Lh3q_BB168_118
	subs	x8, x27, x24
	csel	x8, xzr, x8, lo
	cmp	x19, x8
	b.hs	Lh3q_BB168_126
	mov	x23, x8
	mov	x20, xzr
	mov	x24, xzr
	stp	xzr, xzr, [sp, #496]
	mov	w27, #1
	b	Lh3q_BB168_147
Lh3q_BB168_114:
	subs	x8, x19, x27
	csel	x8, xzr, x8, lo
	cmp	x8, x24
	b.ls	Lh3q_BB168_131
	ldr	x8, [sp, #56]
	add	x0, sp, #520
	mov	x2, x27
	mov	x3, x24
	add	x1, x8, #24
	bl	"_qpack_table::dynamic::table::DynamicTableDecoder::get_postbase::<#78d66cfad5c8051d>"
	ldrb	w9, [sp, #520]
	ldr	x8, [sp, #528]
	cbz	w9, Lh3q_BB168_133
	and	x8, x8, #0xff
	cmp	x8, #9
	b.eq	Lh3q_BB168_128
	ldr	x20, [sp, #536]
	b	Lh3q_BB168_145
Lh3q_BB168_118:
	cmp	x24, #98
	b.hi	Lh3q_BB168_132
	cmp	x24, #24
	b.hi	Lh3q_BB168_139
Lh3q_loh370:
	adrp	x8, l_static.0@PAGE
Lh3q_loh371:
	add	x8, x8, l_static.0@PAGEOFF
	add	x8, x8, x24, lsl #5
	add	x9, x8, #8
	b	Lh3q_BB168_161
Lh3q_BB168_121:
	ldr	x8, [sp, #56]
	mov	x3, x24
	sub	x0, x29, #256
	mov	x2, x27
	add	x1, x8, #24
	bl	"_qpack_table::dynamic::table::DynamicTableDecoder::get_relative::<#78d66cfad5c8051d>"
	ldurb	w9, [x29, #-256]
	ldur	x8, [x29, #-248]
	cbz	w9, Lh3q_BB168_104
Lh3q_BB168_122:
	and	x8, x8, #0xff
	cmp	x8, #9
	b.ne	Lh3q_BB168_135
	mov	x23, xzr
	mov	x24, xzr
	mov	x20, xzr
	mov	w27, #3
	b	Lh3q_BB168_136
Lh3q_BB168_124:
	adds	x8, x3, x27
	mov	w27, #1
	mov	x20, xzr
	csinv	x8, x8, xzr, lo
	str	xzr, [sp, #552]
	mov	w9, w27
	adds	x8, x8, #1
	str	xzr, [sp, #544]
	mov	x24, xzr
	csinv	x23, x8, xzr, lo
	str	xzr, [sp, #560]
	b	Lh3q_BB168_158
Lh3q_BB168_125:
	mov	x27, xzr
	mov	x20, xzr
	str	xzr, [sp, #552]
	str	xzr, [sp, #544]
	mov	w9, #1
	mov	w23, #4
	str	xzr, [sp, #560]
	b	Lh3q_BB168_158
Lh3q_BB168_126:
	ldr	x8, [sp, #56]
	add	x0, sp, #544
	mov	x2, x27
	mov	x3, x24
	add	x1, x8, #24
	bl	"_qpack_table::dynamic::table::DynamicTableDecoder::get_relative::<#78d66cfad5c8051d>"
	ldrb	w9, [sp, #544]
	ldr	x8, [sp, #552]
	cbz	w9, Lh3q_BB168_133
	and	x8, x8, #0xff
	cmp	x8, #9
	b.ne	Lh3q_BB168_144
Lh3q_BB168_128:
	mov	x23, xzr
	mov	x24, xzr
	mov	x20, xzr
	mov	w27, #3
	b	Lh3q_BB168_146
Lh3q_BB168_129:
	mov	x23, xzr
	mov	x24, xzr
	mov	x20, xzr
	mov	x12, xzr
	stp	xzr, xzr, [x29, #-256]
	mov	w27, #3
	stur	xzr, [x29, #-240]
Lh3q_BB168_130:
	ldur	q0, [x29, #-256]
	ldur	x8, [x29, #-240]
	b	Lh3q_BB168_171
Lh3q_BB168_131:
	adds	x8, x24, x27
	mov	x20, xzr
	stp	xzr, xzr, [sp, #496]
	csinv	x8, x8, xzr, lo
	str	xzr, [sp, #512]
	mov	w27, #1
	adds	x8, x8, #1
	mov	x24, xzr
	csinv	x23, x8, xzr, lo
	b	Lh3q_BB168_164
Lh3q_BB168_132:
	mov	x20, xzr
	mov	x27, xzr
	mov	w23, #4
	b	Lh3q_BB168_146
Lh3q_BB168_133:
	ldrb	w9, [x8, #28]
	cmp	w9, #1
	b.ne	Lh3q_BB168_143
	ldrb	w1, [x8, #29]
	sub	x0, x29, #224
	bl	"_qpack_base::static_::known_row"
	ldp	x0, x1, [x29, #-224]
	b	Lh3q_BB168_162
Lh3q_BB168_135:
	ldur	x20, [x29, #-240]
	mov	x24, x8
	mov	x27, xzr
	mov	w23, #3
Lh3q_BB168_136:
	str	xzr, [sp, #552]
	mov	w9, #1
	str	xzr, [sp, #544]
	str	xzr, [sp, #560]
	b	Lh3q_BB168_158
Lh3q_BB168_137:
	cmp	x24, #49
	b.hi	Lh3q_BB168_148
Lh3q_loh372:
	adrp	x8, l_static.1@PAGE
Lh3q_loh373:
	add	x8, x8, l_static.1@PAGEOFF
	add	x11, x8, x24, lsl #5
	sub	x8, x11, #800
	sub	x9, x11, #792
	sub	x10, x11, #784
	sub	x11, x11, #776
	b	Lh3q_BB168_153
Lh3q_BB168_139:
	cmp	x24, #49
	b.hi	Lh3q_BB168_150
Lh3q_loh374:
	adrp	x8, l_static.1@PAGE
Lh3q_loh375:
	add	x8, x8, l_static.1@PAGEOFF
	add	x9, x8, x24, lsl #5
	sub	x8, x9, #800
	sub	x9, x9, #792
	b	Lh3q_BB168_161
Lh3q_BB168_141:
	ldur	x23, [x29, #-216]
	mov	w9, wzr
	mov	x24, xzr
	mov	x20, xzr
	mov	x12, xzr
	stp	xzr, xzr, [sp, #440]
	str	xzr, [sp, #432]
	b	Lh3q_BB168_173
Lh3q_BB168_142:
	add	x0, x21, x22
	b	Lh3q_BB168_154
Lh3q_BB168_143:
	ldr	w1, [x8, #24]
	ldp	x8, x9, [x8]
	sub	x9, x9, x1
	add	x0, x8, x9
	b	Lh3q_BB168_162
Lh3q_BB168_144:
	ldr	x20, [sp, #560]
Lh3q_BB168_145:
	mov	x24, x8
	mov	x27, xzr
	mov	w23, #3
Lh3q_BB168_146:
	stp	xzr, xzr, [sp, #496]
Lh3q_BB168_147:
	str	xzr, [sp, #512]
	b	Lh3q_BB168_164
Lh3q_BB168_148:
	lsl	x8, x24, #5
	cmp	x24, #74
	b.hi	Lh3q_BB168_152
Lh3q_loh376:
	adrp	x9, l_static.2@PAGE
Lh3q_loh377:
	add	x9, x9, l_static.2@PAGEOFF
	add	x11, x9, x8
	sub	x8, x11, #1600
	sub	x9, x11, #1592
	sub	x10, x11, #1584
	sub	x11, x11, #1576
	b	Lh3q_BB168_153
Lh3q_BB168_150:
	lsl	x8, x24, #5
	cmp	x24, #74
	b.hi	Lh3q_BB168_160
Lh3q_loh378:
	adrp	x9, l_static.2@PAGE
Lh3q_loh379:
	add	x9, x9, l_static.2@PAGEOFF
	add	x9, x9, x8
	sub	x8, x9, #1600
	sub	x9, x9, #1592
	b	Lh3q_BB168_161
Lh3q_BB168_152:
Lh3q_loh380:
	adrp	x9, l_static.3@PAGE
Lh3q_loh381:
	add	x9, x9, l_static.3@PAGEOFF
	add	x11, x9, x8
	sub	x8, x11, #2400
	sub	x9, x11, #2392
	sub	x10, x11, #2384
	sub	x11, x11, #2376
Lh3q_BB168_153:
	ldr	x1, [x9]
	ldr	x0, [x8]
	ldr	x21, [x10]
	ldr	x22, [x11]
Lh3q_BB168_154:
	add	x3, x26, #184
	mov	x2, x20
	bl	"_qpack_base::coding::append_within::<#8fc0d6d4cd31a236>"
	tst	w0, #0xff
	b.ne	Lh3q_BB168_156
	subs	x8, x20, x1
	mov	x27, x1
	add	x3, x26, #184
	csel	x2, xzr, x8, lo
	mov	x0, x21
	mov	x1, x22
	bl	"_qpack_base::coding::append_within::<#8fc0d6d4cd31a236>"
	tst	w0, #0xff
	b.eq	Lh3q_BB168_159
Lh3q_BB168_156:
	mov	x23, xzr
	mov	w9, #1
	mov	w27, #3
Lh3q_BB168_157:
	stp	xzr, xzr, [x29, #-224]
	ldur	q0, [x29, #-224]
	mov	x24, xzr
	mov	x20, xzr
	stur	xzr, [x29, #-208]
	str	q0, [sp, #544]
	str	xzr, [sp, #560]
Lh3q_BB168_158:
	ldp	x8, x3, [sp, #40]
	mov	x12, xzr
	ldp	x11, x1, [sp, #24]
	ldr	q0, [sp, #544]
	ldr	x10, [sp, #560]
	str	q0, [sp, #432]
	str	x10, [sp, #448]
	b	Lh3q_BB168_174
Lh3q_BB168_159:
	mov	x23, x1
	mov	w9, wzr
	b	Lh3q_BB168_157
Lh3q_BB168_160:
Lh3q_loh382:
	adrp	x9, l_static.3@PAGE
Lh3q_loh383:
	add	x9, x9, l_static.3@PAGEOFF
	add	x9, x9, x8
	sub	x8, x9, #2400
	sub	x9, x9, #2392
Lh3q_BB168_161:
	ldr	x1, [x9]
	ldr	x0, [x8]
Lh3q_BB168_162:
	add	x3, x26, #184
	mov	x2, x20
	bl	"_qpack_base::coding::append_within::<#8fc0d6d4cd31a236>"
	tst	w0, #0xff
	stp	xzr, xzr, [x29, #-248]
	stur	xzr, [x29, #-256]
	b.eq	Lh3q_BB168_249
	ldur	q0, [x29, #-256]
	ldur	x8, [x29, #-240]
	mov	x20, xzr
	mov	x24, xzr
	mov	x23, xzr
	mov	w27, #3
	str	q0, [sp, #496]
	str	x8, [sp, #512]
Lh3q_BB168_164:
	movi.2d	v0, #0000000000000000
	sub	x0, x29, #224
	add	x3, sp, #280
	add	x4, x26, #184
	mov	w1, #8
	mov	x2, xzr
	stur	xzr, [x29, #-176]
	stp	q0, q0, [x29, #-208]
	stur	q0, [x29, #-224]
	bl	"_qpack_base::prefix_string::decode_within::<#8fc0d6d4cd31a236>"
	ldurb	w8, [x29, #-224]
	cbz	w8, Lh3q_BB168_167
	ldurb	w8, [x29, #-216]
	mov	w9, #1
	mov	w10, #23
	lsl	w9, w9, w8
	tst	w9, w10
	b.eq	Lh3q_BB168_169
	ldurb	w9, [x29, #-215]
	ldp	x10, x12, [x29, #-184]
	ldur	q0, [x22, #24]
	mov	x27, xzr
	mov	w23, #1
	ldurb	w20, [x29, #-208]
	orr	x24, x8, x9, lsl #8
	str	q0, [sp, #608]
	str	x10, [sp, #624]
	b	Lh3q_BB168_170
Lh3q_BB168_167:
	ldr	q0, [sp, #496]
	ldr	x8, [sp, #512]
	mov	w9, #1
	str	q0, [sp, #464]
	str	x8, [sp, #480]
Lh3q_BB168_168:
	ldr	q0, [sp, #464]
	ldr	x8, [sp, #480]
	mov	x12, xzr
	str	q0, [sp, #432]
	str	x8, [sp, #448]
	b	Lh3q_BB168_173
Lh3q_BB168_169:
	mov	x23, xzr
	mov	x24, xzr
	mov	x20, xzr
	mov	x12, xzr
	str	xzr, [sp, #616]
	mov	w27, #3
	str	xzr, [sp, #608]
	str	xzr, [sp, #624]
Lh3q_BB168_170:
	ldr	q0, [sp, #608]
	ldr	x8, [sp, #624]
Lh3q_BB168_171:
	str	q0, [sp, #432]
	str	x8, [sp, #448]
Lh3q_BB168_172:
	mov	w9, #1
Lh3q_BB168_173:
	ldp	x8, x3, [sp, #40]
	ldp	x11, x1, [sp, #24]
Lh3q_BB168_174:
	ldr	q0, [sp, #432]
	ldr	x10, [sp, #448]
	str	q0, [sp, #400]
	str	x10, [sp, #416]
	cbz	w9, Lh3q_BB168_178
	ldr	x9, [x26, #192]
	cbz	x9, Lh3q_BB168_177
	str	xzr, [x26, #192]
Lh3q_BB168_177:
	ldr	q0, [sp, #400]
	ldr	x9, [sp, #416]
	and	w21, w27, #0xff
	mov	x22, x12
	str	q0, [sp, #304]
	str	x9, [sp, #320]
	b	Lh3q_BB168_189
Lh3q_BB168_178:
	ldr	x9, [sp, #8]
	adds	x9, x27, x9
	csinv	x9, x9, xzr, lo
	adds	x9, x23, x9
	csinv	x9, x9, xzr, lo
	adds	x9, x9, #32
	csinv	x19, x9, xzr, lo
	cmp	x25, x19
	b.hs	Lh3q_BB168_182
	ldr	x9, [x26, #192]
	cbz	x9, Lh3q_BB168_181
	str	xzr, [x26, #192]
Lh3q_BB168_181:
	add	x9, sp, #328
	mov	x24, xzr
	mov	x20, xzr
	ldr	q0, [x9, #48]
	ldr	x9, [sp, #392]
	mov	x22, xzr
	mov	w21, #2
	mov	x23, x19
	str	q0, [sp, #304]
	str	x9, [sp, #320]
	b	Lh3q_BB168_189
Lh3q_BB168_182:
	cmn	x19, #1
	b.eq	Lh3q_BB168_186
	ldr	w8, [sp, #4]
	tbnz	w8, #7, Lh3q_BB168_246
	ldr	w8, [sp, #4]
	cmp	w8, #63
	b.ls	Lh3q_BB168_247
	ldr	w8, [sp, #4]
	ubfx	w21, w8, #5, #1
	b	Lh3q_BB168_253
Lh3q_BB168_186:
	ldr	x8, [x26, #192]
	cbz	x8, Lh3q_BB168_188
	str	xzr, [x26, #192]
Lh3q_BB168_188:
	ldr	x8, [sp, #368]
	ldr	q0, [sp, #352]
	mov	x23, xzr
	ldp	x11, x1, [sp, #24]
	mov	x24, xzr
	str	x8, [sp, #320]
	ldp	x8, x3, [sp, #40]
	mov	x20, xzr
	mov	x22, xzr
	str	q0, [sp, #304]
	mov	w21, #3
Lh3q_BB168_189:
	ldr	q0, [sp, #304]
	ldr	x9, [sp, #320]
	str	q0, [sp, #256]
	str	x9, [sp, #272]
Lh3q_BB168_190:
	ldr	q0, [sp, #256]
	ldr	x9, [sp, #272]
	str	q0, [sp, #224]
	str	x9, [sp, #240]
Lh3q_BB168_191:
	ldr	x9, [x28]
	cmp	x9, x11
	b.ls	Lh3q_BB168_193
	mov	x9, x11
	str	x11, [x28]
Lh3q_BB168_193:
	cbnz	x9, Lh3q_BB168_196
	ldr	x9, [x26, #24]
	cmp	x9, #65
	b.lo	Lh3q_BB168_196
	ldur	x0, [x26, #8]
	bl	_rattle_dealloc
	ldp	x1, x8, [sp, #32]
	sub	x9, x29, #97
	ldr	x3, [sp, #48]
	stur	x9, [x26, #8]
	stp	xzr, xzr, [x28]
Lh3q_BB168_196:
	ldr	q0, [sp, #224]
	ldr	x9, [sp, #240]
	cmp	w21, #3
	str	q0, [sp, #192]
	str	x9, [sp, #208]
	b.ne	Lh3q_BB168_198
	mov	x22, xzr
	mov	x14, xzr
	mov	x25, xzr
	mov	x13, xzr
	mov	x12, xzr
	mov	x24, xzr
	mov	x11, xzr
	stp	xzr, xzr, [x29, #-224]
	mov	w23, #4
	stur	xzr, [x29, #-208]
	b	Lh3q_BB168_199
Lh3q_BB168_198:
	ldp	x11, x25, [x26, #64]
Lh3q_loh384:
	adrp	x10, lh3q_CPI168_0@PAGE
	ldr	q0, [sp, #192]
	ldr	x9, [sp, #208]
	mov	w14, w21
Lh3q_loh385:
	ldr	q1, [x10, lh3q_CPI168_0@PAGEOFF]
	mov	x12, x20
	stur	q0, [x29, #-224]
	add	x13, x11, #1
	mov	x11, x23
	stur	x9, [x29, #-208]
	stp	x14, x23, [x26, #120]
	mov	w23, #3
	stur	q1, [x26, #88]
	stp	x13, x25, [x26, #104]
	stp	x24, x20, [x26, #136]
	stur	q0, [x26, #152]
	stp	x9, x22, [x26, #168]
Lh3q_BB168_199:
	ldr	x21, [sp, #56]
	ldur	q0, [x29, #-224]
	mov	w9, #1
	ldur	x10, [x29, #-208]
	mov	x27, x3
	str	q0, [sp, #128]
	str	x10, [sp, #144]
	str	q0, [sp, #160]
	str	x10, [sp, #176]
Lh3q_BB168_200:
	ldr	q0, [sp, #160]
	ldr	x10, [sp, #176]
	str	q0, [sp, #96]
	str	x10, [sp, #112]
Lh3q_BB168_201:
	ldr	q0, [sp, #96]
	ldr	x10, [sp, #112]
Lh3q_BB168_202:
	str	q0, [sp, #64]
	str	x10, [sp, #80]
	cbnz	w9, Lh3q_BB168_24
	movi.2d	v0, #0000000000000000
	and	w9, w23, #0xff
	mov	x19, x13
	cmp	w9, #2
	stp	q0, q0, [x29, #-208]
	stp	q0, q0, [x29, #-176]
	stp	q0, q0, [x29, #-144]
	stur	q0, [x29, #-224]
	b.gt	Lh3q_BB168_206
	b.lo	Lh3q_BB168_207
	mov	x2, x1
	mov	x24, x3
	mov	x23, x8
	mov	x13, x19
	b	Lh3q_BB168_46
Lh3q_BB168_206:
	cmp	w9, #3
	b.ne	Lh3q_BB168_214
Lh3q_BB168_207:
	add	x0, x21, #296
	mov	x25, x3
	mov	x24, x8
	mov	x20, x1
	bl	"_std_collections::btree_map::BTreeMap::remove::<#0bd4589be7401c64>"
	and	w8, w0, #0xff
	cmp	w8, #1
	b.ne	Lh3q_BB168_209
	add	x0, x21, #272
	mov	x2, x20
	bl	"_std_collections::btree_set::BTreeSet::remove::<#d92db99615d1834b>"
Lh3q_BB168_209:
	subs	x8, x25, x27
	and	w11, w23, #0xff
	csel	x9, xzr, x8, lo
	cmp	w11, #1
	b.gt	Lh3q_BB168_212
	mov	x8, x24
	cbnz	w11, Lh3q_BB168_227
	and	x12, x23, #0xff
	b	Lh3q_BB168_13
Lh3q_BB168_212:
	cmp	w11, #2
	mov	x8, x24
	b.ne	Lh3q_BB168_228
	mov	x12, x19
	mov	x10, xzr
	mov	x25, xzr
	mov	w11, #-3
	b	Lh3q_BB168_33
Lh3q_BB168_214:
	mov	x24, x8
	cbz	x19, Lh3q_BB168_239
	ldr	x25, [x21, #64]
	str	x28, [sp, #56]
	mov	x28, x3
	cmp	x19, x25
	b.hs	Lh3q_BB168_231
	ldr	x8, [x21, #264]
	mov	x22, x27
	subs	x27, x25, x8
	mov	x8, x25
	b.ls	Lh3q_BB168_230
	ldr	x8, [x21, #328]
	str	x8, [sp, #48]
	b	Lh3q_BB168_220
Lh3q_BB168_218:
	ldr	x9, [x21, #320]
	add	x10, x8, #1
	strb	w23, [x9, x8]
	str	x10, [x21, #328]
Lh3q_BB168_219:
	subs	x27, x27, x23
	b.eq	Lh3q_BB168_229
Lh3q_BB168_220:
	cmp	x27, #64
	mov	w8, #64
	csel	x23, x27, x8, lo
	cmp	x27, #62
	b.hi	Lh3q_BB168_224
	ldp	x8, x9, [x21, #328]
	cmp	x9, x8
	b.hi	Lh3q_BB168_218
	add	x0, x21, #320
	mov	x20, x1
	mov	w1, #1
	bl	"_qpack_base::coding::grow::<#8fc0d6d4cd31a236>"
	and	w8, w0, #0xff
	tbnz	w8, #0, Lh3q_BB168_225
	ldr	x8, [x21, #328]
	mov	x1, x20
	b	Lh3q_BB168_218
Lh3q_BB168_224:
	add	x3, x21, #320
	mov	w0, #6
	mov	x20, x1
	mov	w1, wzr
	mov	x2, x23
	bl	"_qpack_base::prefix_int::encode_long::<#8fc0d6d4cd31a236>"
	mov	x1, x20
	tst	w0, #0xff
	b.eq	Lh3q_BB168_219
Lh3q_BB168_225:
	ldr	x8, [x21, #328]
	ldr	x9, [sp, #48]
	mov	x27, x22
	cmp	x8, x9
	b.ls	Lh3q_BB168_237
	ldr	x8, [sp, #48]
	str	x8, [x21, #328]
	b	Lh3q_BB168_237
Lh3q_BB168_227:
	mov	x12, x19
	mov	x10, xzr
	mov	x25, xzr
	mov	w11, #-10
	b	Lh3q_BB168_33
Lh3q_BB168_228:
	mov	x12, xzr
	mov	x10, xzr
	mov	x25, xzr
	mov	w11, #-8
	b	Lh3q_BB168_33
Lh3q_BB168_229:
	ldr	x8, [x21, #64]
Lh3q_BB168_230:
	mov	x27, x22
	str	x8, [x21, #264]
Lh3q_BB168_231:
	cmp	x1, #126
	b.hi	Lh3q_BB168_236
	ldp	x8, x9, [x21, #328]
	cmp	x9, x8
	b.hi	Lh3q_BB168_235
	add	x0, x21, #320
	mov	x20, x1
	mov	w1, #1
	bl	"_qpack_base::coding::grow::<#8fc0d6d4cd31a236>"
	and	w8, w0, #0xff
	tbnz	w8, #0, Lh3q_BB168_237
	ldr	x8, [x21, #328]
	mov	x1, x20
Lh3q_BB168_235:
	ldr	x9, [x21, #320]
	add	x11, x8, #1
	orr	w10, w1, #0xffffff80
	strb	w10, [x9, x8]
	str	x11, [x21, #328]
	b	Lh3q_BB168_238
Lh3q_BB168_236:
	add	x3, x21, #320
	mov	w0, #7
	mov	x2, x1
	mov	w1, #1
	mov	x20, x2
	bl	"_qpack_base::prefix_int::encode_long::<#8fc0d6d4cd31a236>"
	mov	x1, x20
	and	w8, w0, #0xff
	tbz	w8, #0, Lh3q_BB168_238
Lh3q_BB168_237:
	mov	x12, xzr
	mov	x10, xzr
	mov	x25, xzr
	mov	x13, xzr
	mov	w11, #4
	mov	x8, x24
	subs	x9, x28, x27
	mov	w23, w12
	csel	x9, xzr, x9, lo
	cmp	w11, #1
	b.gt	Lh3q_BB168_6
	b	Lh3q_BB168_11
Lh3q_BB168_238:
	mov	x3, x28
	ldr	x28, [sp, #56]
	str	x25, [x21, #264]
Lh3q_BB168_239:
	add	x0, x21, #296
	mov	x23, x3
	mov	x20, x1
	bl	"_std_collections::btree_map::BTreeMap::remove::<#0bd4589be7401c64>"
	and	w8, w0, #0xff
	cmp	w8, #1
	b.ne	Lh3q_BB168_241
	add	x0, x21, #272
	mov	x2, x20
	bl	"_std_collections::btree_set::BTreeSet::remove::<#d92db99615d1834b>"
Lh3q_BB168_241:
	ldr	x8, [x26, #16]
	cbz	x8, Lh3q_BB168_243
	str	xzr, [x28]
Lh3q_BB168_243:
	ldr	x8, [x26, #24]
	cmp	x8, #65
	b.lo	Lh3q_BB168_245
	ldr	x0, [x26, #8]
	bl	_rattle_dealloc
	sub	x8, x29, #97
	stp	xzr, xzr, [x28]
	str	x8, [x26, #8]
Lh3q_BB168_245:
	movi.2d	v0, #0000000000000000
	ldr	x11, [sp, #16]
	subs	x8, x23, x27
	mov	x10, xzr
	mov	x25, xzr
	csel	x9, xzr, x8, lo
	str	xzr, [x11, #144]
	mov	x8, x24
	mov	x12, x19
	stp	q0, q0, [x11, #16]
	stp	q0, q0, [x11, #48]
	stp	q0, q0, [x11, #80]
	stp	q0, q0, [x11, #112]
	str	q0, [x11]
	mov	w11, #-9
	b	Lh3q_BB168_33
Lh3q_BB168_246:
	mov	w21, wzr
	b	Lh3q_BB168_253
Lh3q_BB168_247:
	ldr	w8, [sp, #4]
	cmp	w8, #31
	b.ls	Lh3q_BB168_252
	ldr	w8, [sp, #4]
	ubfx	w21, w8, #4, #1
	b	Lh3q_BB168_253
Lh3q_BB168_249:
	movi.2d	v0, #0000000000000000
	subs	x8, x20, x1
	mov	x27, x1
	csel	x2, xzr, x8, lo
	sub	x0, x29, #224
	add	x3, sp, #280
	add	x4, x26, #184
	mov	w1, #8
	stur	xzr, [x29, #-176]
	stp	q0, q0, [x29, #-208]
	stur	q0, [x29, #-224]
	bl	"_qpack_base::prefix_string::decode_within::<#8fc0d6d4cd31a236>"
	ldurb	w8, [x29, #-224]
	cbz	w8, Lh3q_BB168_264
	ldurb	w8, [x29, #-216]
	mov	w9, #1
	mov	w10, #23
	lsl	w9, w9, w8
	tst	w9, w10
	b.eq	Lh3q_BB168_265
	ldurb	w9, [x29, #-215]
	ldp	x10, x12, [x29, #-184]
	ldur	q0, [x22, #24]
	mov	x27, xzr
	mov	w23, #1
	ldurb	w20, [x29, #-208]
	orr	x24, x8, x9, lsl #8
	str	q0, [sp, #576]
	str	x10, [sp, #592]
	b	Lh3q_BB168_266
Lh3q_BB168_252:
	ldr	w8, [sp, #4]
	and	w8, w8, #0x18
	cmp	w8, #8
	cset	w21, eq
Lh3q_BB168_253:
	ldp	x8, x9, [x26, #216]
	cmp	x9, x8
	b.hi	Lh3q_BB168_259
	lsr	x9, x25, #5
	add	x0, x26, #208
	subs	x8, x9, x8
	csel	x1, xzr, x8, lo
	bl	"_qpack_base::coding::grow_within::<#c17844b3e8bab21b>"
	and	w8, w0, #0xff
	tbz	w8, #0, Lh3q_BB168_258
	ldr	x8, [x26, #192]
	cbz	x8, Lh3q_BB168_257
	str	xzr, [x26, #192]
Lh3q_BB168_257:
	add	x8, sp, #328
	ldp	x11, x1, [sp, #24]
	ldr	q0, [x8]
	ldr	x8, [sp, #344]
	mov	x22, xzr
	mov	x20, xzr
	mov	x24, xzr
	mov	x23, xzr
	str	x8, [sp, #272]
	ldp	x8, x3, [sp, #40]
	mov	w21, #3
	str	q0, [sp, #304]
	str	q0, [sp, #256]
	b	Lh3q_BB168_190
Lh3q_BB168_258:
	ldr	x8, [x26, #216]
Lh3q_BB168_259:
	mov	w9, #24
	ldr	x10, [x26, #208]
	ldr	w11, [sp, #424]
	madd	x9, x8, x9, x10
	add	x10, x23, x27
	add	x8, x8, #1
	stp	x27, x10, [x9]
	add	x10, sp, #328
	ldur	w10, [x10, #99]
	strb	w21, [x9, #16]
	stur	w11, [x9, #17]
	str	w10, [x9, #20]
	ldr	x9, [x26, #16]
	str	x8, [x26, #216]
	cbz	x9, Lh3q_BB168_261
	str	xzr, [x28]
Lh3q_BB168_261:
	ldr	x8, [x26, #24]
	ldr	x21, [sp, #296]
	cmp	x8, #65
	b.lo	Lh3q_BB168_263
	ldur	x0, [x26, #8]
	bl	_rattle_dealloc
	sub	x8, x29, #97
	stp	xzr, xzr, [x28]
	stur	x8, [x26, #8]
Lh3q_BB168_263:
	mov	w8, #1
	ldr	q1, [x26, #64]
	ldr	x3, [sp, #48]
	dup.2d	v0, x8
	ldr	x8, [sp, #24]
	mov	w9, wzr
	mov	x12, xzr
	mov	x24, xzr
	mov	x11, xzr
	add	x8, x8, x3
	mov	x13, xzr
	mov	x25, xzr
	mov.d	v0[1], x21
	sub	x27, x8, x21
	ldr	x8, [sp, #40]
	mov	x14, xzr
	mov	x22, xzr
	str	x19, [x26, #80]
	mov	w23, #3
	add.2d	v0, v1, v0
	str	q0, [x26, #64]
	b	Lh3q_BB168_86
Lh3q_BB168_264:
	ldur	x23, [x29, #-216]
	mov	w9, wzr
	mov	x24, xzr
	mov	x20, xzr
	b	Lh3q_BB168_168
Lh3q_BB168_265:
	mov	x23, xzr
	mov	x24, xzr
	mov	x20, xzr
	mov	x12, xzr
	str	xzr, [sp, #584]
	mov	w27, #3
	str	xzr, [sp, #576]
	str	xzr, [sp, #592]
Lh3q_BB168_266:
	ldr	q0, [sp, #576]
	ldr	x8, [sp, #592]
	b	Lh3q_BB168_171
Lh3q_BB168_267:
	brk	#0x1
	.loh AdrpAdd	Lh3q_loh368, Lh3q_loh369
	.loh AdrpAdd	Lh3q_loh370, Lh3q_loh371
	.loh AdrpAdd	Lh3q_loh372, Lh3q_loh373
	.loh AdrpAdd	Lh3q_loh374, Lh3q_loh375
	.loh AdrpAdd	Lh3q_loh376, Lh3q_loh377
	.loh AdrpAdd	Lh3q_loh378, Lh3q_loh379
	.loh AdrpAdd	Lh3q_loh380, Lh3q_loh381
	.loh AdrpAdd	Lh3q_loh382, Lh3q_loh383
	.loh AdrpLdr	Lh3q_loh384, Lh3q_loh385

	.globl	_h3q_decoder_fields
	.p2align	2
_h3q_decoder_fields:
	stp	x20, x19, [sp, #-32]!
	ldr	x10, [x0]
	mov	w9, #4096
	cmp	x1, #0
	csel	x12, x9, xzr, eq
	cmp	x3, #0
	mov	w0, #-2
	ldr	x19, [x10, #472]
	csel	x9, x9, xzr, eq
	stp	x29, x30, [sp, #16]
	add	x29, sp, #16
	cmp	x4, x19
	b.lo	Lh3q_BB169_12
	ldr	x11, [x10, #496]
	cmp	x2, x11
	b.lo	Lh3q_BB169_12
	mov	x8, x1
	ldr	x1, [x10, #464]
	add	x0, x3, x9
	cbz	x11, Lh3q_BB169_4
	ldr	x13, [x10, #488]
	add	x8, x8, x12
	cmp	x11, #1
	ldrb	w12, [x13, #16]
	ldp	x14, x13, [x13]
	stp	wzr, w12, [x8]
	sub	x12, x13, x14
	stp	x14, x12, [x8, #8]
	b.ne	Lh3q_BB169_13
Lh3q_BB169_4:
	sub	x8, x0, x1
	cmp	x8, x19
	b.hs	Lh3q_BB169_10
	cmp	x19, #8
	b.lo	Lh3q_BB169_7
	add	x8, x9, x3
	sub	x8, x8, x1
	cmp	x8, #32
	b.hs	Lh3q_BB169_17
Lh3q_BB169_7:
	mov	x8, xzr
Lh3q_BB169_8:
	add	x10, x9, x8
	sub	x9, x19, x8
	add	x8, x1, x8
	add	x10, x3, x10
Lh3q_BB169_9:
	ldrb	w11, [x8], #1
	subs	x9, x9, #1
	strb	w11, [x10], #1
	b.ne	Lh3q_BB169_9
	b	Lh3q_BB169_11
Lh3q_BB169_10:
	mov	x2, x19
	bl	_memmove
Lh3q_BB169_11:
	mov	x0, xzr
Lh3q_BB169_12:
	ldp	x29, x30, [sp, #16]
	mov	x1, x19
	ldp	x20, x19, [sp], #32
	ret
Lh3q_BB169_13:
	mov	x12, xzr
	mov	w13, #1
	b	Lh3q_BB169_15
Lh3q_BB169_14:
	add	x13, x13, #1
	add	x12, x12, #24
	cmp	x11, x13
	b.eq	Lh3q_BB169_4
Lh3q_BB169_15:
	ldr	x14, [x10, #496]
	cmp	x13, x14
	b.hs	Lh3q_BB169_14
	ldr	x14, [x10, #488]
	add	x15, x8, x12
	add	x14, x14, x12
	ldr	x16, [x14, #8]
	ldrb	w17, [x14, #40]
	ldp	x2, x14, [x14, #24]
	stp	wzr, w17, [x15, #24]
	sub	x16, x2, x16
	sub	x14, x14, x2
	stp	x16, x14, [x15, #32]
	b	Lh3q_BB169_14
Lh3q_BB169_17:
	cmp	x19, #32
	b.hs	Lh3q_BB169_19
	mov	x8, xzr
	b	Lh3q_BB169_23
Lh3q_BB169_19:
	add	x12, x9, x3
	and	x10, x19, #0x18
	and	x8, x19, #0xffffffffffffffe0
	add	x11, x1, #16
	add	x12, x12, #16
	and	x13, x19, #0xffffffffffffffe0
Lh3q_BB169_20:
	ldp	q0, q1, [x11, #-16]
	subs	x13, x13, #32
	add	x11, x11, #32
	stp	q0, q1, [x12, #-16]
	add	x12, x12, #32
	b.ne	Lh3q_BB169_20
	cmp	x19, x8
	b.eq	Lh3q_BB169_11
	cbz	x10, Lh3q_BB169_8
Lh3q_BB169_23:
	mov	x11, x8
	and	x8, x19, #0xfffffffffffffff8
	add	x12, x9, x11
	sub	x10, x11, x8
	add	x11, x1, x11
	add	x12, x3, x12
Lh3q_BB169_24:
	ldr	d0, [x11], #8
	adds	x10, x10, #8
	str	d0, [x12], #8
	b.ne	Lh3q_BB169_24
	cmp	x19, x8
	b.eq	Lh3q_BB169_11
	b	Lh3q_BB169_8

	.globl	_h3q_decode_stateless
	.p2align	2
_h3q_decode_stateless:
	sub	sp, sp, #400
	stp	x24, x23, [sp, #336]
	mov	x24, x8
	mov	w8, #4096
	cmp	x0, #0
	stp	x20, x19, [sp, #368]
	lsr	x10, x1, #2
	csel	x19, x8, xzr, eq
	cmp	x3, #0
	lsl	x11, x1, #1
	csel	x9, x8, xzr, eq
	cmp	x5, #0
	stp	x29, x30, [sp, #384]
	csel	x8, x8, xzr, eq
	cmp	x4, x10
	add	x29, sp, #384
	csel	x20, x4, x10, lo
	cmp	x6, x11
	str	x8, [sp, #72]
	csel	x8, x6, x11, lo
	cmp	x1, #0
	stp	x28, x27, [sp, #304]
	stp	x26, x25, [sp, #320]
	mov	x25, x5
	mov	x23, x2
	stp	x22, x21, [sp, #352]
	mov	x21, x6
	mov	x22, x1
	mov	x27, x0
	stp	x9, x3, [sp, #56]
	sub	x9, x29, #104
	csel	x28, x6, x8, mi
	stp	xzr, x9, [sp, #104]
	stp	x9, xzr, [sp, #88]
	str	x4, [sp, #48]
	stp	xzr, xzr, [sp, #120]
	cbz	x20, Lh3q_BB170_4
	mov	x8, #6148914691236517205
	movk	x8, #1365, lsl #48
	cmp	x20, x8
	b.hi	Lh3q_BB170_7
	add	x8, x20, x20, lsl #1
	mov	w1, #8
	lsl	x0, x8, #3
	bl	_rattle_alloc
	tbz	w0, #0, Lh3q_BB170_7
	str	x1, [sp, #112]
	str	x20, [sp, #128]
Lh3q_BB170_4:
	cmp	x28, #1
	b.lt	Lh3q_BB170_7
	mov	x0, x28
	mov	w1, #1
	bl	_rattle_alloc
	tbz	w0, #0, Lh3q_BB170_7
	mov	x26, x1
	str	x1, [sp, #88]
	str	x28, [sp, #104]
	lsl	x8, x23, #2
	lsr	x9, x23, #62
	adds	x8, x8, #20
	csinv	x8, x8, xzr, lo
	cbz	x9, Lh3q_BB170_8
	b	Lh3q_BB170_9
Lh3q_BB170_7:
	sub	x26, x29, #104
	lsl	x8, x23, #2
	lsr	x9, x23, #62
	adds	x8, x8, #20
	csinv	x8, x8, xzr, lo
	cbnz	x9, Lh3q_BB170_9
Lh3q_BB170_8:
	cmp	x8, x22
	b.lo	Lh3q_BB170_78
Lh3q_BB170_9:
	add	x8, x27, x19
	add	x0, sp, #136
	sub	x1, x29, #184
	str	x21, [sp, #40]
	stp	x8, x22, [x29, #-184]
	stur	xzr, [x29, #-168]
	bl	"_qpack_wire::block::prefix::HeaderPrefix::decode"
	ldp	x22, x21, [sp, #152]
	ldrb	w9, [sp, #136]
	ldrb	w20, [sp, #144]
	ldrb	w8, [sp, #145]
	cbnz	w9, Lh3q_BB170_80
	ldrh	w9, [sp, #150]
	ldur	w10, [sp, #146]
	orr	x8, x8, x20
	orr	x9, x10, x9, lsl #32
	orr	x8, x9, x8
	cbnz	x8, Lh3q_BB170_84
	tbnz	w22, #0, Lh3q_BB170_86
	ldr	x8, [sp, #72]
	ldur	x9, [x29, #-176]
	add	x0, x25, x8
	cbz	x9, Lh3q_BB170_72
	lsr	x8, x23, #5
	str	x24, [sp, #32]
	mov	x20, xzr
	mov	x24, xzr
	sub	x28, x29, #160
	stp	x0, x25, [sp, #16]
	str	x8, [sp, #80]
	ldp	x10, x8, [sp, #56]
	add	x8, x8, x10
	str	x8, [sp, #8]
	b	Lh3q_BB170_15
Lh3q_BB170_14:
	mov	w9, #24
	ldr	x10, [sp, #112]
	add	x20, x8, #1
	madd	x11, x8, x9, x10
	add	x9, x27, x25
	str	x20, [sp, #120]
	add	x12, x9, x26
	stp	x9, x12, [x11]
	ldur	x9, [x29, #-176]
	strb	w19, [x11, #16]
	stur	wzr, [x11, #17]
	str	wzr, [x11, #20]
	cbz	x9, Lh3q_BB170_65
Lh3q_BB170_15:
	ldur	x8, [x29, #-184]
	subs	x10, x23, x24
	ldur	x22, [x29, #-168]
	csel	x10, xzr, x10, lo
	ldr	x25, [sp, #96]
	ldrsb	w11, [x8]
	subs	x10, x10, #32
	csel	x26, xzr, x10, lo
	and	w19, w11, #0xff
	tbnz	w11, #31, Lh3q_BB170_25
	cmp	w19, #63
	b.ls	Lh3q_BB170_33
	mov	w10, #1
	bic	w21, w10, w19, lsr #4
Lh3q_BB170_18:
	cmp	w21, #2
	mov	w10, #16
	mov	w11, #8
	add	x8, x8, #1
	csel	x10, x11, x10, eq
	sub	x9, x9, #1
	stp	x8, x9, [x29, #-184]
	add	x8, x22, #1
	add	w9, w10, #127
	stp	x8, xzr, [x29, #-168]
	and	w8, w9, w19
	sub	x27, x10, #1
	cmp	x27, x8
	stur	xzr, [x29, #-152]
	b.hi	Lh3q_BB170_21
	sub	x0, x29, #160
	sub	x1, x29, #184
	bl	"_qpack_base::prefix_int::read_groups"
	ldurb	w8, [x29, #-160]
	cbnz	w8, Lh3q_BB170_98
	ldur	x8, [x29, #-152]
	add	x8, x8, x27
Lh3q_BB170_21:
	cbnz	w21, Lh3q_BB170_99
	cmp	x8, #98
	b.hi	Lh3q_BB170_114
	cmp	x8, #24
	b.hi	Lh3q_BB170_38
Lh3q_loh386:
	adrp	x9, l_static.0@PAGE
Lh3q_loh387:
	add	x9, x9, l_static.0@PAGEOFF
	add	x8, x9, x8, lsl #5
	add	x9, x8, #8
	b	Lh3q_BB170_50
Lh3q_BB170_25:
	mov	w10, #1
	bic	w21, w10, w19, lsr #6
Lh3q_BB170_26:
	cmp	w21, #2
	mov	w10, #64
	mov	w11, #16
	add	x8, x8, #1
	csel	x10, x11, x10, eq
	sub	x9, x9, #1
	stp	x8, x9, [x29, #-184]
	add	x8, x22, #1
	sub	w9, w10, #1
	stp	x8, xzr, [x29, #-168]
	and	w8, w9, w19
	sub	x27, x10, #1
	cmp	x27, x8
	stur	xzr, [x29, #-152]
	b.hi	Lh3q_BB170_29
	sub	x0, x29, #160
	sub	x1, x29, #184
	bl	"_qpack_base::prefix_int::read_groups"
	ldurb	w8, [x29, #-160]
	cbnz	w8, Lh3q_BB170_98
	ldur	x8, [x29, #-152]
	add	x8, x8, x27
Lh3q_BB170_29:
	cbnz	w21, Lh3q_BB170_96
	cmp	x8, #98
	b.hi	Lh3q_BB170_98
	cmp	x8, #24
	b.hi	Lh3q_BB170_36
Lh3q_loh388:
	adrp	x9, l_static.0@PAGE
Lh3q_loh389:
	add	x9, x9, l_static.0@PAGEOFF
	add	x8, x9, x8, lsl #5
	add	x9, x8, #8
	add	x10, x8, #16
	add	x11, x8, #24
	b	Lh3q_BB170_46
Lh3q_BB170_33:
	cmp	w19, #31
	b.ls	Lh3q_BB170_40
	movi.2d	v0, #0000000000000000
	sub	x0, x29, #160
	sub	x3, x29, #184
	add	x4, sp, #88
	mov	w1, #4
	mov	x2, x26
	stur	xzr, [x29, #-112]
	stp	q0, q0, [x28, #16]
	str	q0, [x28]
	bl	"_qpack_base::prefix_string::decode_within::<#8fc0d6d4cd31a236>"
	ldurb	w8, [x29, #-160]
	cbnz	w8, Lh3q_BB170_101
	ldur	x27, [x29, #-152]
	stur	xzr, [x29, #-112]
	movi.2d	v0, #0000000000000000
	b	Lh3q_BB170_52
Lh3q_BB170_36:
	cmp	x8, #49
	b.hi	Lh3q_BB170_41
Lh3q_loh390:
	adrp	x9, l_static.1@PAGE
Lh3q_loh391:
	add	x9, x9, l_static.1@PAGEOFF
	add	x11, x9, x8, lsl #5
	sub	x8, x11, #800
	sub	x9, x11, #792
	sub	x10, x11, #784
	sub	x11, x11, #776
	b	Lh3q_BB170_46
Lh3q_BB170_38:
	cmp	x8, #49
	b.hi	Lh3q_BB170_43
Lh3q_loh392:
	adrp	x9, l_static.1@PAGE
Lh3q_loh393:
	add	x9, x9, l_static.1@PAGEOFF
	add	x9, x9, x8, lsl #5
	sub	x8, x9, #800
	sub	x9, x9, #792
	b	Lh3q_BB170_50
Lh3q_BB170_40:
	cmp	w19, #15
	mov	w21, #2
	b.ls	Lh3q_BB170_18
	b	Lh3q_BB170_26
Lh3q_BB170_41:
	lsl	x9, x8, #5
	cmp	x8, #74
	b.hi	Lh3q_BB170_45
Lh3q_loh394:
	adrp	x8, l_static.2@PAGE
Lh3q_loh395:
	add	x8, x8, l_static.2@PAGEOFF
	add	x11, x8, x9
	sub	x8, x11, #1600
	sub	x9, x11, #1592
	sub	x10, x11, #1584
	sub	x11, x11, #1576
	b	Lh3q_BB170_46
Lh3q_BB170_43:
	lsl	x9, x8, #5
	cmp	x8, #74
	b.hi	Lh3q_BB170_49
Lh3q_loh396:
	adrp	x8, l_static.2@PAGE
Lh3q_loh397:
	add	x8, x8, l_static.2@PAGEOFF
	add	x9, x8, x9
	sub	x8, x9, #1600
	sub	x9, x9, #1592
	b	Lh3q_BB170_50
Lh3q_BB170_45:
Lh3q_loh398:
	adrp	x8, l_static.3@PAGE
Lh3q_loh399:
	add	x8, x8, l_static.3@PAGEOFF
	add	x11, x8, x9
	sub	x8, x11, #2400
	sub	x9, x11, #2392
	sub	x10, x11, #2384
	sub	x11, x11, #2376
Lh3q_BB170_46:
	ldr	x1, [x9]
	ldr	x0, [x8]
	add	x3, sp, #88
	ldr	x28, [x10]
	ldr	x21, [x11]
	mov	x2, x26
	bl	"_qpack_base::coding::append_within::<#8fc0d6d4cd31a236>"
	tst	w0, #0xff
	b.ne	Lh3q_BB170_85
	subs	x8, x26, x1
	mov	x27, x1
	add	x3, sp, #88
	csel	x2, xzr, x8, lo
	mov	x0, x28
	mov	x1, x21
	bl	"_qpack_base::coding::append_within::<#8fc0d6d4cd31a236>"
	tst	w0, #0xff
	b.ne	Lh3q_BB170_85
	mov	x26, x1
	sub	x28, x29, #160
	b	Lh3q_BB170_54
Lh3q_BB170_49:
Lh3q_loh400:
	adrp	x8, l_static.3@PAGE
Lh3q_loh401:
	add	x8, x8, l_static.3@PAGEOFF
	add	x9, x8, x9
	sub	x8, x9, #2400
	sub	x9, x9, #2392
Lh3q_BB170_50:
	ldr	x1, [x9]
	ldr	x0, [x8]
	add	x3, sp, #88
	mov	x2, x26
	bl	"_qpack_base::coding::append_within::<#8fc0d6d4cd31a236>"
	tst	w0, #0xff
	b.ne	Lh3q_BB170_115
	movi.2d	v0, #0000000000000000
	mov	x27, x1
	stur	xzr, [x29, #-112]
Lh3q_BB170_52:
	subs	x8, x26, x27
	sub	x0, x29, #160
	sub	x3, x29, #184
	csel	x2, xzr, x8, lo
	add	x4, sp, #88
	mov	w1, #8
	stp	q0, q0, [x28, #16]
	str	q0, [x28]
	bl	"_qpack_base::prefix_string::decode_within::<#8fc0d6d4cd31a236>"
	ldurb	w8, [x29, #-160]
	cbnz	w8, Lh3q_BB170_101
	ldur	x26, [x29, #-152]
Lh3q_BB170_54:
	adds	x8, x27, x24
	csinv	x8, x8, xzr, lo
	adds	x8, x26, x8
	csinv	x8, x8, xzr, lo
	adds	x8, x8, #32
	csinv	x24, x8, xzr, lo
	cmp	x23, x24
	b.lo	Lh3q_BB170_93
	cmn	x24, #1
	b.eq	Lh3q_BB170_85
	tbnz	w19, #7, Lh3q_BB170_59
	cmp	w19, #63
	b.ls	Lh3q_BB170_60
	ubfx	w19, w19, #5, #1
	ldp	x8, x9, [sp, #120]
	cmp	x9, x8
	b.hi	Lh3q_BB170_14
	b	Lh3q_BB170_63
Lh3q_BB170_59:
	mov	w19, wzr
	ldp	x8, x9, [sp, #120]
	cmp	x9, x8
	b.ls	Lh3q_BB170_63
	b	Lh3q_BB170_14
Lh3q_BB170_60:
	cmp	w19, #31
	b.ls	Lh3q_BB170_62
	ubfx	w19, w19, #4, #1
	ldp	x8, x9, [sp, #120]
	cmp	x9, x8
	b.hi	Lh3q_BB170_14
	b	Lh3q_BB170_63
Lh3q_BB170_62:
	and	w8, w19, #0x18
	cmp	w8, #8
	cset	w19, eq
	ldp	x8, x9, [sp, #120]
	cmp	x9, x8
	b.hi	Lh3q_BB170_14
Lh3q_BB170_63:
	ldr	x9, [sp, #80]
	subs	x8, x9, x8
	csel	x1, xzr, x8, lo
	add	x8, sp, #88
	add	x0, x8, #24
	bl	"_qpack_base::coding::grow_within::<#c17844b3e8bab21b>"
	and	w8, w0, #0xff
	tbnz	w8, #0, Lh3q_BB170_85
	ldr	x8, [sp, #120]
	b	Lh3q_BB170_14
Lh3q_BB170_65:
	ldr	x9, [sp, #48]
	ldr	x21, [sp, #96]
	mov	x19, xzr
	mov	w23, #-2
	cmp	x9, x20
	b.lo	Lh3q_BB170_76
	ldp	x24, x9, [sp, #32]
	cmp	x9, x21
	b.lo	Lh3q_BB170_75
	ldr	x26, [sp, #88]
	cbz	x20, Lh3q_BB170_77
	ldrb	w9, [x10, #16]
	ldp	x13, x0, [sp, #8]
	ldp	x11, x12, [x10], #40
	ldr	x15, [sp, #24]
	stp	wzr, w9, [x13]
	sub	x9, x12, x11
	stp	x11, x9, [x13, #8]
	cbz	x8, Lh3q_BB170_87
	ldp	x11, x9, [sp, #56]
	add	x9, x11, x9
	add	x9, x9, #40
Lh3q_BB170_70:
	ldp	x13, x14, [x10, #-16]
	subs	x8, x8, #1
	ldur	x11, [x10, #-32]
	ldrb	w12, [x10], #24
	stp	wzr, w12, [x9, #-16]
	sub	x11, x13, x11
	sub	x12, x14, x13
	stp	x11, x12, [x9, #-8]
	add	x9, x9, #24
	b.ne	Lh3q_BB170_70
	sub	x8, x0, x26
	cmp	x8, x21
	b.hs	Lh3q_BB170_73
	b	Lh3q_BB170_88
Lh3q_BB170_72:
	mov	x20, xzr
	mov	x21, xzr
Lh3q_BB170_73:
	mov	x1, x26
	mov	x2, x21
	bl	_memmove
Lh3q_BB170_74:
	mov	w23, wzr
	mov	x19, xzr
	mov	x22, xzr
	b	Lh3q_BB170_129
Lh3q_BB170_75:
	mov	x22, x19
	b	Lh3q_BB170_129
Lh3q_BB170_76:
	ldr	x24, [sp, #32]
	mov	x22, x19
	b	Lh3q_BB170_129
Lh3q_BB170_77:
	ldp	x0, x15, [sp, #16]
	sub	x8, x0, x26
	cmp	x8, x21
	b.hs	Lh3q_BB170_73
	b	Lh3q_BB170_88
Lh3q_BB170_78:
	mov	x20, xzr
Lh3q_BB170_79:
	mov	x19, xzr
	mov	x22, xzr
	mov	x21, xzr
	b	Lh3q_BB170_122
Lh3q_BB170_80:
	cmp	w20, #1
	b.le	Lh3q_BB170_91
	cmp	w20, #2
	b.eq	Lh3q_BB170_102
	cmp	w20, #3
	b.ne	Lh3q_BB170_79
	mov	x8, xzr
	mov	x21, xzr
	mov	w20, #7
	b	Lh3q_BB170_105
Lh3q_BB170_84:
	mov	x19, xzr
	mov	x22, xzr
	mov	x21, xzr
	mov	w20, #2
	b	Lh3q_BB170_122
Lh3q_BB170_85:
	ldr	x8, [sp, #96]
	ldr	x24, [sp, #32]
	mov	x19, xzr
	mov	x22, xzr
	mov	x21, xzr
	mov	w20, #4
	cmp	x8, x25
	csel	x8, x8, x25, lo
	str	x8, [sp, #96]
	b	Lh3q_BB170_122
Lh3q_BB170_86:
	mov	x8, #9223372036854775807
	mov	w19, #7
	mov	w20, #1
	cmp	x21, x8
	csel	x8, x21, x8, lo
	mov	x21, xzr
	mvn	x22, x8
	b	Lh3q_BB170_122
Lh3q_BB170_87:
	mov	w20, #1
	sub	x8, x0, x26
	cmp	x8, x21
	b.hs	Lh3q_BB170_73
Lh3q_BB170_88:
	cmp	x21, #8
	b.lo	Lh3q_BB170_90
	ldr	x8, [sp, #72]
	add	x8, x8, x15
	sub	x8, x8, x26
	cmp	x8, #32
	b.hs	Lh3q_BB170_94
Lh3q_BB170_90:
	mov	x8, xzr
	b	Lh3q_BB170_140
Lh3q_BB170_91:
	cbnz	w20, Lh3q_BB170_103
	mov	x22, x20
	mov	x21, x20
	b	Lh3q_BB170_105
Lh3q_BB170_93:
	ldr	x8, [sp, #96]
	ldr	x24, [sp, #32]
	mov	w21, #2
	cmp	x8, x25
	csel	x8, x8, x25, lo
	str	x8, [sp, #96]
	b	Lh3q_BB170_121
Lh3q_BB170_94:
	cmp	x21, #32
	b.hs	Lh3q_BB170_106
	mov	x8, xzr
	b	Lh3q_BB170_110
Lh3q_BB170_96:
	ldr	x24, [sp, #32]
	cmp	w21, #1
	b.ne	Lh3q_BB170_112
	mov	x21, xzr
	b	Lh3q_BB170_121
Lh3q_BB170_98:
	ldr	x24, [sp, #32]
	mov	x21, xzr
	b	Lh3q_BB170_121
Lh3q_BB170_99:
	ldr	x24, [sp, #32]
	cmp	w21, #1
	b.ne	Lh3q_BB170_113
	mov	x21, xzr
	b	Lh3q_BB170_116
Lh3q_BB170_101:
	ldurb	w8, [x29, #-152]
Lh3q_loh402:
	adrp	x9, l_switch.table.h3q_decode_stateless.776@PAGE
Lh3q_loh403:
	add	x9, x9, l_switch.table.h3q_decode_stateless.776@PAGEOFF
	ldr	x24, [sp, #32]
	b	Lh3q_BB170_118
Lh3q_BB170_102:
	mov	x22, xzr
	mov	x21, xzr
	mov	w20, #5
	b	Lh3q_BB170_105
Lh3q_BB170_103:
	and	x8, x22, #0xff
	cmp	x8, #5
	b.eq	Lh3q_BB170_120
	mov	x8, xzr
	and	x22, x22, #0xffff
	mov	w20, #1
Lh3q_BB170_105:
	orr	x19, x20, x8, lsl #8
	mov	w20, #1
	b	Lh3q_BB170_122
Lh3q_BB170_106:
	ldr	x10, [sp, #72]
	and	x9, x21, #0x18
	and	x8, x21, #0xffffffffffffffe0
	and	x12, x21, #0xffffffffffffffe0
	add	x11, x10, x15
	add	x10, x26, #16
	add	x11, x11, #16
Lh3q_BB170_107:
	ldp	q0, q1, [x10, #-16]
	subs	x12, x12, #32
	add	x10, x10, #32
	stp	q0, q1, [x11, #-16]
	add	x11, x11, #32
	b.ne	Lh3q_BB170_107
	cmp	x21, x8
	b.eq	Lh3q_BB170_74
	cbz	x9, Lh3q_BB170_140
Lh3q_BB170_110:
	ldr	x9, [sp, #72]
	mov	x10, x8
	and	x8, x21, #0xfffffffffffffff8
	add	x11, x9, x10
	sub	x9, x10, x8
	add	x10, x26, x10
	add	x11, x15, x11
Lh3q_BB170_111:
	ldr	d0, [x10], #8
	adds	x9, x9, #8
	str	d0, [x11], #8
	b.ne	Lh3q_BB170_111
	b	Lh3q_BB170_139
Lh3q_BB170_112:
	mov	w21, #1
	b	Lh3q_BB170_121
Lh3q_BB170_113:
	mov	w21, #1
	b	Lh3q_BB170_116
Lh3q_BB170_114:
	ldr	x24, [sp, #32]
	mov	x21, xzr
	b	Lh3q_BB170_116
Lh3q_BB170_115:
	ldr	x24, [sp, #32]
	mov	w21, #3
Lh3q_BB170_116:
	movi.2d	v0, #0000000000000000
	sub	x0, x29, #160
	sub	x3, x29, #184
	add	x4, sp, #88
	mov	w1, #8
	mov	x2, xzr
	stur	xzr, [x29, #-112]
	stp	q0, q0, [x28, #16]
	str	q0, [x28]
	bl	"_qpack_base::prefix_string::decode_within::<#8fc0d6d4cd31a236>"
	ldurb	w8, [x29, #-160]
	cbz	w8, Lh3q_BB170_119
	ldurb	w8, [x29, #-152]
Lh3q_loh404:
	adrp	x9, l_switch.table.h3q_decode_stateless.776@PAGE
Lh3q_loh405:
	add	x9, x9, l_switch.table.h3q_decode_stateless.776@PAGEOFF
Lh3q_BB170_118:
	ldr	x21, [x9, x8, lsl #3]
Lh3q_BB170_119:
	ldr	x8, [sp, #96]
	cmp	x8, x25
	csel	x8, x8, x25, lo
	cmp	x21, #3
	str	x8, [sp, #96]
	b.ne	Lh3q_BB170_121
Lh3q_BB170_120:
	mov	x19, xzr
	mov	x22, xzr
	mov	x21, xzr
	mov	w20, #4
	b	Lh3q_BB170_122
Lh3q_BB170_121:
	add	x19, x20, #1
	mov	w20, #3
Lh3q_BB170_122:
	add	x0, sp, #88
	mov	x1, x23
	bl	"_qpack_decoding::field_section::FieldSection::clear_within"
	cmp	w20, #2
	b.gt	Lh3q_BB170_126
	sub	w8, w20, #1
	cmp	w8, #2
	b.hs	Lh3q_BB170_128
	mov	x20, xzr
	mov	x21, xzr
	mov	x19, xzr
	mov	x22, xzr
Lh3q_BB170_125:
	mov	w23, #512
	b	Lh3q_BB170_129
Lh3q_BB170_126:
	cmp	w20, #4
	b.ne	Lh3q_BB170_134
	mov	x20, xzr
	mov	x21, xzr
	mov	x19, xzr
	mov	x22, xzr
	mov	w23, #-1
	b	Lh3q_BB170_129
Lh3q_BB170_128:
	mov	w23, #-5
	mov	x21, x20
	mov	x19, x20
	mov	x22, x20
Lh3q_BB170_129:
	ldr	x8, [sp, #104]
	cbz	x8, Lh3q_BB170_131
	ldr	x0, [sp, #88]
	bl	_rattle_dealloc
Lh3q_BB170_131:
	ldr	x8, [sp, #128]
	cbz	x8, Lh3q_BB170_133
	ldr	x0, [sp, #112]
	bl	_rattle_dealloc
Lh3q_BB170_133:
	stp	w23, wzr, [x24]
	ldp	x29, x30, [sp, #384]
	stp	x20, x21, [x24, #8]
	ldp	x26, x25, [sp, #320]
	stp	x19, x22, [x24, #24]
	ldp	x20, x19, [sp, #368]
	ldp	x22, x21, [sp, #352]
	ldp	x24, x23, [sp, #336]
	ldp	x28, x27, [sp, #304]
	add	sp, sp, #400
	ret
Lh3q_BB170_134:
	and	w8, w21, #0xff
	cmp	w8, #2
	b.hs	Lh3q_BB170_136
	mov	x20, xzr
	mov	x21, xzr
	b	Lh3q_BB170_125
Lh3q_BB170_136:
	mov	x20, xzr
	mov	x21, xzr
	b.ne	Lh3q_BB170_138
	mov	w23, #-5
	b	Lh3q_BB170_129
Lh3q_BB170_138:
	mov	w23, #-1
	b	Lh3q_BB170_129
Lh3q_BB170_139:
	cmp	x21, x8
	b.eq	Lh3q_BB170_74
Lh3q_BB170_140:
	ldrb	w9, [x26, x8]
	strb	w9, [x0, x8]
	add	x8, x8, #1
	b	Lh3q_BB170_139
	.loh AdrpAdd	Lh3q_loh386, Lh3q_loh387
	.loh AdrpAdd	Lh3q_loh388, Lh3q_loh389
	.loh AdrpAdd	Lh3q_loh390, Lh3q_loh391
	.loh AdrpAdd	Lh3q_loh392, Lh3q_loh393
	.loh AdrpAdd	Lh3q_loh394, Lh3q_loh395
	.loh AdrpAdd	Lh3q_loh396, Lh3q_loh397
	.loh AdrpAdd	Lh3q_loh398, Lh3q_loh399
	.loh AdrpAdd	Lh3q_loh400, Lh3q_loh401
	.loh AdrpAdd	Lh3q_loh402, Lh3q_loh403
	.loh AdrpAdd	Lh3q_loh404, Lh3q_loh405

	.globl	_h3q_decoder_view
	.p2align	2
_h3q_decoder_view:
	ldr	x8, [x0]
	add	x0, x8, #464
	b	"_h3_qpack_c::views::store_view"

	.globl	_h3q_reader_view
	.p2align	2
_h3q_reader_view:
	ldr	x8, [x0]
	mov	x2, x1
	mov	x1, xzr
	add	x0, x8, #184
	b	"_h3_qpack_c::views::store_view"

	.globl	_h3q_encode_stateless
	.p2align	2
_h3q_encode_stateless:
	sub	sp, sp, #112
	mov	w8, #4096
	cmp	x0, #0
	stp	x26, x25, [sp, #32]
	csel	x25, x8, xzr, eq
	cmp	x2, #0
	stp	x24, x23, [sp, #48]
	csel	x23, x8, xzr, eq
	stp	x22, x21, [sp, #64]
	mov	x21, x3
	stp	x20, x19, [sp, #80]
	add	x20, x2, x23
	stp	x29, x30, [sp, #96]
	add	x29, sp, #96
	cbz	x1, Lh3q_BB173_8
	mov	x19, x1
	mov	x22, x0
	mov	x24, x2
	mov	x26, xzr
	add	x8, sp, #31
	stp	xzr, xzr, [sp, #8]
	str	x8, [sp]
	cbnz	x21, Lh3q_BB173_11
	mov	x0, sp
	add	x1, x22, x25
	mov	x2, x19
	bl	"_qpack_codec::stateless::field_lines::append_section::<#eb19ef351d0e6f0b>"
	tst	w0, #0xff
	b.eq	Lh3q_BB173_12
Lh3q_BB173_3:
	ldr	x8, [sp, #8]
	cmp	x8, x26
	b.ls	Lh3q_BB173_5
	str	x26, [sp, #8]
Lh3q_BB173_5:
	ldr	x8, [sp, #16]
	cbz	x8, Lh3q_BB173_7
	ldr	x0, [sp]
	bl	_rattle_dealloc
Lh3q_BB173_7:
	mov	x1, xzr
	mov	w21, #-1
	b	Lh3q_BB173_33
Lh3q_BB173_8:
	cmp	x21, #2
	b.hs	Lh3q_BB173_10
	mov	w21, #-2
	mov	w1, #2
	b	Lh3q_BB173_33
Lh3q_BB173_10:
	mov	w21, wzr
	strh	wzr, [x20]
	mov	w1, #2
	b	Lh3q_BB173_33
Lh3q_BB173_11:
	cmp	x21, #1, lsl #12
	mov	w8, #4096
	mov	x0, sp
	csel	x1, x21, x8, lo
	bl	"_std_alloc::vec::Vec::grow_amortized::<#702c34bb3b270f26>"
	ldr	x26, [sp, #8]
	mov	x0, sp
	add	x1, x22, x25
	mov	x2, x19
	bl	"_qpack_codec::stateless::field_lines::append_section::<#eb19ef351d0e6f0b>"
	tst	w0, #0xff
	b.ne	Lh3q_BB173_3
Lh3q_BB173_12:
	ldp	x19, x1, [sp]
	cmp	x21, x1
	b.hs	Lh3q_BB173_14
	mov	w21, #-2
	ldr	x8, [sp, #16]
	cbnz	x8, Lh3q_BB173_32
	b	Lh3q_BB173_33
Lh3q_BB173_14:
	sub	x8, x20, x19
	cmp	x8, x1
	b.hs	Lh3q_BB173_17
	cmp	x1, #8
	b.hs	Lh3q_BB173_18
	mov	x9, xzr
	mov	x8, x24
	b	Lh3q_BB173_29
Lh3q_BB173_17:
	mov	x0, x20
	mov	x20, x1
	mov	x1, x19
	mov	x2, x20
	bl	_memmove
	mov	x1, x20
	b	Lh3q_BB173_31
Lh3q_BB173_18:
	add	x9, x23, x24
	mov	x8, x24
	sub	x9, x9, x19
	cmp	x9, #32
	b.hs	Lh3q_BB173_20
	mov	x9, xzr
	b	Lh3q_BB173_29
Lh3q_BB173_20:
	cmp	x1, #32
	b.hs	Lh3q_BB173_22
	mov	x9, xzr
	b	Lh3q_BB173_26
Lh3q_BB173_22:
	add	x12, x23, x8
	and	x10, x1, #0x18
	and	x9, x1, #0xffffffffffffffe0
	add	x11, x19, #16
	add	x12, x12, #16
	and	x13, x1, #0xffffffffffffffe0
Lh3q_BB173_23:
	ldp	q0, q1, [x11, #-16]
	subs	x13, x13, #32
	add	x11, x11, #32
	stp	q0, q1, [x12, #-16]
	add	x12, x12, #32
	b.ne	Lh3q_BB173_23
	cmp	x1, x9
	b.eq	Lh3q_BB173_31
	cbz	x10, Lh3q_BB173_29
Lh3q_BB173_26:
	mov	x11, x9
	and	x9, x1, #0xfffffffffffffff8
	add	x12, x23, x11
	sub	x10, x11, x9
	add	x11, x19, x11
	add	x12, x8, x12
Lh3q_BB173_27:
	ldr	d0, [x11], #8
	adds	x10, x10, #8
	str	d0, [x12], #8
	b.ne	Lh3q_BB173_27
	cmp	x1, x9
	b.eq	Lh3q_BB173_31
Lh3q_BB173_29:
	add	x11, x23, x9
	sub	x10, x1, x9
	add	x9, x19, x9
	add	x8, x8, x11
Lh3q_BB173_30:
	ldrb	w11, [x9], #1
	subs	x10, x10, #1
	strb	w11, [x8], #1
	b.ne	Lh3q_BB173_30
Lh3q_BB173_31:
	mov	w21, wzr
	ldr	x8, [sp, #16]
	cbz	x8, Lh3q_BB173_33
Lh3q_BB173_32:
	mov	x0, x19
	mov	x19, x1
	bl	_rattle_dealloc
	mov	x1, x19
Lh3q_BB173_33:
	mov	w0, w21
	ldp	x29, x30, [sp, #96]
	ldp	x20, x19, [sp, #80]
	ldp	x22, x21, [sp, #64]
	ldp	x24, x23, [sp, #48]
	ldp	x26, x25, [sp, #32]
	add	sp, sp, #112
	ret

	.globl	_h3q_encoder_encode
	.p2align	2
_h3q_encoder_encode:
	sub	sp, sp, #208
	stp	x28, x27, [sp, #112]
	ldr	x27, [x0]
	cmp	x2, #0
	stp	x20, x19, [sp, #176]
	mov	x19, x8
	mov	w8, #4096
	stp	x24, x23, [sp, #144]
	ldr	x9, [x27, #1568]
	csel	x23, x8, xzr, eq
	cmp	x4, #0
	stp	x26, x25, [sp, #128]
	mov	x25, x5
	stp	x22, x21, [sp, #160]
	mov	x22, x4
	mov	x20, x3
	mov	x21, x2
	mov	x24, x1
	csel	x8, x8, xzr, eq
	add	x28, x27, #1568
	stp	x29, x30, [sp, #192]
	add	x29, sp, #192
	str	x8, [sp, #24]
	cbz	x9, Lh3q_BB174_2
	str	xzr, [x28]
Lh3q_BB174_2:
	ldr	x8, [x27, #1576]
	add	x26, x27, #1560
	cmp	x8, #1, lsl #12
	b.ls	Lh3q_BB174_4
	ldr	x0, [x26]
	bl	_rattle_dealloc
	sub	x8, x29, #81
	stp	xzr, xzr, [x28]
	str	x8, [x26]
Lh3q_BB174_4:
	ldrb	w8, [x27, #1512]
	cmp	w8, #1
	b.ne	Lh3q_BB174_8
	ldrb	w8, [x27, #1520]
Lh3q_BB174_6:
Lh3q_loh406:
	adrp	x9, l_switch.table.h3q_encoder_encode@PAGE
Lh3q_loh407:
	add	x9, x9, l_switch.table.h3q_encoder_encode@PAGEOFF
	mov	x24, xzr
	ldr	w8, [x9, w8, uxtw #2]
	mov	x23, xzr
Lh3q_BB174_7:
	mov	x9, xzr
	b	Lh3q_BB174_64
Lh3q_BB174_8:
	lsr	x8, x24, #62
	cbz	x8, Lh3q_BB174_10
	mov	x24, xzr
	mov	x23, xzr
	mov	x9, xzr
	mov	w8, #-4
	b	Lh3q_BB174_64
Lh3q_BB174_10:
	movi.2d	v0, #0000000000000000
	ldrb	w8, [x27, #1424]
	cmp	w8, #1
	stp	q0, q0, [sp, #48]
	str	q0, [sp, #32]
	b.ne	Lh3q_BB174_14
	ldr	x2, [x27, #1432]
	add	x0, sp, #32
	mov	x1, x27
	bl	"_qpack_encoding::encoder::ConnectionEncoder::tell"
	ldrb	w9, [sp, #32]
	ldrb	w8, [sp, #40]
	cmp	w9, #1
	b.ne	Lh3q_BB174_13
	cmp	w8, #2
	b.eq	Lh3q_BB174_14
Lh3q_BB174_13:
	cbnz	w9, Lh3q_BB174_6
Lh3q_BB174_14:
	ldrb	w8, [x27, #1424]
	cmp	w8, #1
	b.eq	Lh3q_BB174_26
	ldr	x8, [x27, #184]
	ldr	x9, [x27, #24]
	cmp	x9, x8
	b.ls	Lh3q_BB174_26
	cbz	x20, Lh3q_BB174_43
	ldr	x8, [x27, #296]
	ldr	x9, [x27, #8]
	cmp	x8, x9
	b.lo	Lh3q_BB174_21
	ldr	x9, [x27, #288]
	add	x12, x27, #288
	add	x10, x9, #8
	add	x9, x8, #1
Lh3q_BB174_19:
	subs	x9, x9, #1
	b.eq	Lh3q_BB174_45
	ldr	x11, [x10], #16
	cmp	x11, x24
	b.ne	Lh3q_BB174_19
Lh3q_BB174_21:
	ldr	x9, [x27, #304]
	add	x12, x27, #288
	cmp	x9, x8
	b.eq	Lh3q_BB174_61
	mov	w8, #4096
	movi.2d	v0, #0000000000000000
	str	x8, [x27, #128]
	ldr	x8, [x27, #104]
	stp	q0, q0, [sp, #32]
	stp	q0, q0, [sp, #64]
	cbz	x8, Lh3q_BB174_46
Lh3q_BB174_23:
	add	x0, sp, #32
	add	x1, x27, #40
	add	x3, x27, #1560
	add	x4, x27, #1480
	add	x5, x21, x23
	add	x7, x27, #312
	mov	x2, x24
	mov	x6, x20
	str	x12, [sp, #8]
	bl	"_qpack_codec::encoder::sections::EncoderTable::write_along::<#7c810322eceed2e7>"
	ldrb	w8, [sp, #32]
	mov	x10, x23
	ldr	x23, [sp, #40]
	mov	w9, #4096
	str	x9, [x27, #128]
	cbnz	w8, Lh3q_BB174_63
	ldr	x8, [x27, #136]
	str	x10, [sp, #16]
	cmp	x8, x23
	b.hs	Lh3q_BB174_30
	ldr	x0, [sp, #8]
	mov	x1, x23
	mov	x2, x24
	bl	"_qpack_encoding::at_risk::StreamsAtRisk::put"
	b	Lh3q_BB174_30
Lh3q_BB174_26:
	ldr	x27, [x28]
	add	x1, x21, x23
	mov	x0, x26
	mov	x2, x20
	bl	"_qpack_codec::stateless::field_lines::append_section::<#eb19ef351d0e6f0b>"
	tst	w0, #0xff
	b.eq	Lh3q_BB174_29
	ldr	x8, [x28]
	cmp	x8, x27
	b.ls	Lh3q_BB174_63
	mov	x24, xzr
	mov	x23, xzr
	mov	x9, xzr
	str	x27, [x28]
	mov	w8, #-1
	b	Lh3q_BB174_64
Lh3q_BB174_29:
	str	x23, [sp, #16]
	mov	x23, xzr
Lh3q_BB174_30:
	ldr	x24, [x28]
	cmp	x25, x24
	b.hs	Lh3q_BB174_32
	mov	w8, #-2
	b	Lh3q_BB174_40
Lh3q_BB174_32:
	ldr	x25, [sp, #24]
	ldr	x1, [x26]
	add	x0, x22, x25
	sub	x8, x0, x1
	cmp	x8, x24
	b.hs	Lh3q_BB174_38
	cmp	x24, #8
	b.lo	Lh3q_BB174_35
	add	x8, x25, x22
	sub	x8, x8, x1
	cmp	x8, #32
	b.hs	Lh3q_BB174_52
Lh3q_BB174_35:
	mov	x8, xzr
Lh3q_BB174_36:
	add	x10, x25, x8
	sub	x9, x24, x8
	add	x8, x1, x8
	add	x10, x22, x10
Lh3q_BB174_37:
	ldrb	w11, [x8], #1
	subs	x9, x9, #1
	strb	w11, [x10], #1
	b.ne	Lh3q_BB174_37
	b	Lh3q_BB174_39
Lh3q_BB174_38:
	mov	x2, x24
	bl	_memmove
Lh3q_BB174_39:
	mov	w8, wzr
Lh3q_BB174_40:
	cbz	x20, Lh3q_BB174_7
	ldr	x10, [sp, #16]
	mov	x9, xzr
	add	x10, x10, x21
	add	x10, x10, #24
Lh3q_BB174_42:
	ldur	x11, [x10, #-16]
	ldr	x12, [x10], #40
	adds	x11, x12, x11
	csinv	x11, x11, xzr, lo
	adds	x11, x11, #32
	csinv	x11, x11, xzr, lo
	adds	x9, x11, x9
	csinv	x9, x9, xzr, lo
	subs	x20, x20, #1
	b.ne	Lh3q_BB174_42
	b	Lh3q_BB174_64
Lh3q_BB174_43:
	add	x0, x27, #40
	bl	"_qpack_table::dynamic::table::DynamicTable::release_references::<#f1ee30144fd2ee58>"
	add	x0, sp, #32
	mov	x1, x26
	stp	xzr, xzr, [sp, #32]
	str	xzr, [sp, #48]
	bl	"_qpack_wire::block::prefix::HeaderPrefix::encode::<#7b66556a84635673>"
	and	w8, w0, #0xff
	mov	x24, xzr
	tbz	w8, #0, Lh3q_BB174_50
	mov	w8, #-1
	mov	x23, x24
	mov	x9, x24
	b	Lh3q_BB174_64
Lh3q_BB174_45:
	movi.2d	v0, #0000000000000000
	str	xzr, [x27, #128]
	ldr	x8, [x27, #104]
	stp	q0, q0, [sp, #32]
	stp	q0, q0, [sp, #64]
	cbnz	x8, Lh3q_BB174_23
Lh3q_BB174_46:
	add	x0, x27, #40
	bl	"_qpack_table::dynamic::table::DynamicTable::release_references::<#f1ee30144fd2ee58>"
	mov	x8, x23
	ldr	x23, [x28]
	mov	x0, x26
	add	x1, x21, x8
	mov	x2, x20
	str	x8, [sp, #16]
	bl	"_qpack_codec::stateless::field_lines::append_section::<#eb19ef351d0e6f0b>"
	and	w8, w0, #0xff
	tbz	w8, #0, Lh3q_BB174_51
	ldr	x8, [x28]
	cmp	x8, x23
	b.ls	Lh3q_BB174_49
	str	x23, [x28]
Lh3q_BB174_49:
	mov	w8, #4096
	mov	x24, xzr
	mov	x23, xzr
	mov	x9, xzr
	str	x8, [x27, #128]
	mov	w8, #-1
	b	Lh3q_BB174_64
Lh3q_BB174_50:
	str	x23, [sp, #16]
	mov	x23, x24
	b	Lh3q_BB174_30
Lh3q_BB174_51:
	mov	w8, #4096
	mov	x23, xzr
	str	x8, [x27, #128]
	b	Lh3q_BB174_30
Lh3q_BB174_52:
	cmp	x24, #32
	b.hs	Lh3q_BB174_54
	mov	x8, xzr
	b	Lh3q_BB174_58
Lh3q_BB174_54:
	add	x11, x25, x22
	and	x9, x24, #0x18
	and	x8, x24, #0xffffffffffffffe0
	add	x10, x1, #16
	add	x11, x11, #16
	and	x12, x24, #0xffffffffffffffe0
Lh3q_BB174_55:
	ldp	q0, q1, [x10, #-16]
	subs	x12, x12, #32
	add	x10, x10, #32
	stp	q0, q1, [x11, #-16]
	add	x11, x11, #32
	b.ne	Lh3q_BB174_55
	cmp	x24, x8
	b.eq	Lh3q_BB174_39
	cbz	x9, Lh3q_BB174_36
Lh3q_BB174_58:
	mov	x10, x8
	and	x8, x24, #0xfffffffffffffff8
	add	x11, x25, x10
	sub	x9, x10, x8
	add	x10, x1, x10
	add	x11, x22, x11
Lh3q_BB174_59:
	ldr	d0, [x10], #8
	adds	x9, x9, #8
	str	d0, [x11], #8
	b.ne	Lh3q_BB174_59
	cmp	x24, x8
	b.eq	Lh3q_BB174_39
	b	Lh3q_BB174_36
Lh3q_BB174_61:
	add	x0, x27, #288
	bl	"_std_alloc::vec::Vec::grow_amortized::<#fcdd31f4e0a7443b>"
	cbz	w0, Lh3q_BB174_63
	mov	w8, #4096
	add	x12, x27, #288
	movi.2d	v0, #0000000000000000
	str	x8, [x27, #128]
	ldr	x8, [x27, #104]
	stp	q0, q0, [sp, #32]
	stp	q0, q0, [sp, #64]
	cbnz	x8, Lh3q_BB174_23
	b	Lh3q_BB174_46
Lh3q_BB174_63:
	mov	x24, xzr
	mov	x23, xzr
	mov	x9, xzr
	mov	w8, #-1
Lh3q_BB174_64:
	stp	w8, wzr, [x19]
	ldp	x29, x30, [sp, #192]
	stp	x24, x23, [x19, #8]
	ldp	x22, x21, [sp, #160]
	str	x9, [x19, #24]
	ldp	x20, x19, [sp, #176]
	ldp	x24, x23, [sp, #144]
	ldp	x26, x25, [sp, #128]
	ldp	x28, x27, [sp, #112]
	add	sp, sp, #208
	ret
	.loh AdrpAdd	Lh3q_loh406, Lh3q_loh407

	.globl	_h3q_encoder_section
	.p2align	2
_h3q_encoder_section:
	stp	x20, x19, [sp, #-32]!
	ldr	x8, [x0]
	cmp	x1, #0
	mov	w9, #4096
	csel	x9, x9, xzr, eq
	stp	x29, x30, [sp, #16]
	add	x29, sp, #16
	ldr	x19, [x8, #1568]
	cmp	x2, x19
	b.hs	Lh3q_BB175_2
	mov	w0, #-2
	ldp	x29, x30, [sp, #16]
	mov	x1, x19
	ldp	x20, x19, [sp], #32
	ret
Lh3q_BB175_2:
	ldr	x8, [x8, #1560]
	add	x0, x1, x9
	sub	x10, x0, x8
	cmp	x10, x19
	b.hs	Lh3q_BB175_9
	cmp	x19, #8
	b.lo	Lh3q_BB175_5
	add	x10, x9, x1
	sub	x10, x10, x8
	cmp	x10, #32
	b.hs	Lh3q_BB175_10
Lh3q_BB175_5:
	mov	x10, xzr
Lh3q_BB175_6:
	add	x11, x9, x10
	sub	x9, x19, x10
	add	x8, x8, x10
	add	x10, x1, x11
Lh3q_BB175_7:
	ldrb	w11, [x8], #1
	subs	x9, x9, #1
	strb	w11, [x10], #1
	b.ne	Lh3q_BB175_7
Lh3q_BB175_8:
	mov	x0, xzr
	ldp	x29, x30, [sp, #16]
	mov	x1, x19
	ldp	x20, x19, [sp], #32
	ret
Lh3q_BB175_9:
	mov	x1, x8
	mov	x2, x19
	bl	_memmove
	mov	x0, xzr
	ldp	x29, x30, [sp, #16]
	mov	x1, x19
	ldp	x20, x19, [sp], #32
	ret
Lh3q_BB175_10:
	cmp	x19, #32
	b.hs	Lh3q_BB175_12
	mov	x10, xzr
	b	Lh3q_BB175_16
Lh3q_BB175_12:
	add	x13, x9, x1
	and	x11, x19, #0x18
	and	x10, x19, #0xffffffffffffffe0
	add	x12, x8, #16
	add	x13, x13, #16
	and	x14, x19, #0xffffffffffffffe0
Lh3q_BB175_13:
	ldp	q0, q1, [x12, #-16]
	subs	x14, x14, #32
	add	x12, x12, #32
	stp	q0, q1, [x13, #-16]
	add	x13, x13, #32
	b.ne	Lh3q_BB175_13
	cmp	x19, x10
	b.eq	Lh3q_BB175_8
	cbz	x11, Lh3q_BB175_6
Lh3q_BB175_16:
	mov	x12, x10
	and	x10, x19, #0xfffffffffffffff8
	add	x13, x9, x12
	sub	x11, x12, x10
	add	x12, x8, x12
	add	x13, x1, x13
Lh3q_BB175_17:
	ldr	d0, [x12], #8
	adds	x11, x11, #8
	str	d0, [x13], #8
	b.ne	Lh3q_BB175_17
	cmp	x19, x10
	b.eq	Lh3q_BB175_8
	b	Lh3q_BB175_6

	.section	__DATA,__const
	.p2align	3, 0x0
l_static.0:
	.quad	l_static.0+996
	.asciz	"\n\000\000\000\000\000\000"
	.quad	l_static.0+996
	.space	8
	.quad	l_static.0+991
	.asciz	"\005\000\000\000\000\000\000"
	.quad	l_static.0+990
	.asciz	"\001\000\000\000\000\000\000"
	.quad	l_static.0+987
	.asciz	"\003\000\000\000\000\000\000"
	.quad	l_static.0+986
	.asciz	"\001\000\000\000\000\000\000"
	.quad	l_static.0+967
	.asciz	"\023\000\000\000\000\000\000"
	.quad	l_static.0+996
	.space	8
	.quad	l_static.0+953
	.asciz	"\016\000\000\000\000\000\000"
	.quad	l_static.0+986
	.asciz	"\001\000\000\000\000\000\000"
	.quad	l_static.0+947
	.asciz	"\006\000\000\000\000\000\000"
	.quad	l_static.0+996
	.space	8
	.quad	l_static.0+943
	.asciz	"\004\000\000\000\000\000\000"
	.quad	l_static.0+996
	.space	8
	.quad	l_static.0+939
	.asciz	"\004\000\000\000\000\000\000"
	.quad	l_static.0+996
	.space	8
	.quad	l_static.0+922
	.asciz	"\021\000\000\000\000\000\000"
	.quad	l_static.0+996
	.space	8
	.quad	l_static.0+909
	.asciz	"\r\000\000\000\000\000\000"
	.quad	l_static.0+996
	.space	8
	.quad	l_static.0+896
	.asciz	"\r\000\000\000\000\000\000"
	.quad	l_static.0+996
	.space	8
	.quad	l_static.0+892
	.asciz	"\004\000\000\000\000\000\000"
	.quad	l_static.0+996
	.space	8
	.quad	l_static.0+884
	.asciz	"\b\000\000\000\000\000\000"
	.quad	l_static.0+996
	.space	8
	.quad	l_static.0+877
	.asciz	"\007\000\000\000\000\000\000"
	.quad	l_static.0+996
	.space	8
	.quad	l_static.0+867
	.asciz	"\n\000\000\000\000\000\000"
	.quad	l_static.0+996
	.space	8
	.quad	l_static.0+860
	.asciz	"\007\000\000\000\000\000\000"
	.quad	l_static.0+853
	.asciz	"\007\000\000\000\000\000\000"
	.quad	l_static.0+860
	.asciz	"\007\000\000\000\000\000\000"
	.quad	l_static.0+847
	.asciz	"\006\000\000\000\000\000\000"
	.quad	l_static.0+860
	.asciz	"\007\000\000\000\000\000\000"
	.quad	l_static.0+844
	.asciz	"\003\000\000\000\000\000\000"
	.quad	l_static.0+860
	.asciz	"\007\000\000\000\000\000\000"
	.quad	l_static.0+840
	.asciz	"\004\000\000\000\000\000\000"
	.quad	l_static.0+860
	.asciz	"\007\000\000\000\000\000\000"
	.quad	l_static.0+833
	.asciz	"\007\000\000\000\000\000\000"
	.quad	l_static.0+860
	.asciz	"\007\000\000\000\000\000\000"
	.quad	l_static.0+829
	.asciz	"\004\000\000\000\000\000\000"
	.quad	l_static.0+860
	.asciz	"\007\000\000\000\000\000\000"
	.quad	l_static.0+826
	.asciz	"\003\000\000\000\000\000\000"
	.quad	l_static.0+819
	.asciz	"\007\000\000\000\000\000\000"
	.quad	l_static.0+815
	.asciz	"\004\000\000\000\000\000\000"
	.quad	l_static.0+819
	.asciz	"\007\000\000\000\000\000\000"
	.quad	l_static.0+810
	.asciz	"\005\000\000\000\000\000\000"
	.quad	l_static.0+803
	.asciz	"\007\000\000\000\000\000\000"
	.quad	l_static.0+800
	.asciz	"\003\000\000\000\000\000\000\000103:statushttpshttp:schemePUTPOSTOPTIONSHEADGETDELETECONNECT:methodset-cookierefererlocationlinklast-modifiedif-none-matchif-modified-sinceetagdatecookiecontent-lengthcontent-disposition0age/:path:authority\000"

	.p2align	3, 0x0
l_static.1:
	.quad	l_static.1+1165
	.asciz	"\007\000\000\000\000\000\000"
	.quad	l_static.1+1162
	.asciz	"\003\000\000\000\000\000\000"
	.quad	l_static.1+1165
	.asciz	"\007\000\000\000\000\000\000"
	.quad	l_static.1+1159
	.asciz	"\003\000\000\000\000\000\000"
	.quad	l_static.1+1165
	.asciz	"\007\000\000\000\000\000\000"
	.quad	l_static.1+1156
	.asciz	"\003\000\000\000\000\000\000"
	.quad	l_static.1+1165
	.asciz	"\007\000\000\000\000\000\000"
	.quad	l_static.1+1153
	.asciz	"\003\000\000\000\000\000\000"
	.quad	l_static.1+1147
	.asciz	"\006\000\000\000\000\000\000"
	.quad	l_static.1+1144
	.asciz	"\003\000\000\000\000\000\000"
	.quad	l_static.1+1147
	.asciz	"\006\000\000\000\000\000\000"
	.quad	l_static.1+1121
	.asciz	"\027\000\000\000\000\000\000"
	.quad	l_static.1+1106
	.asciz	"\017\000\000\000\000\000\000"
	.quad	l_static.1+1089
	.asciz	"\021\000\000\000\000\000\000"
	.quad	l_static.1+1076
	.asciz	"\r\000\000\000\000\000\000"
	.quad	l_static.1+1071
	.asciz	"\005\000\000\000\000\000\000"
	.quad	l_static.1+1043
	.asciz	"\034\000\000\000\000\000\000"
	.quad	l_static.1+1030
	.asciz	"\r\000\000\000\000\000\000"
	.quad	l_static.1+1043
	.asciz	"\034\000\000\000\000\000\000"
	.quad	l_static.1+1018
	.asciz	"\f\000\000\000\000\000\000"
	.quad	l_static.1+991
	.asciz	"\033\000\000\000\000\000\000"
	.quad	l_static.1+990
	.asciz	"\001\000\000\000\000\000\000"
	.quad	l_static.1+1030
	.asciz	"\r\000\000\000\000\000\000"
	.quad	l_static.1+981
	.asciz	"\t\000\000\000\000\000\000"
	.quad	l_static.1+1030
	.asciz	"\r\000\000\000\000\000\000"
	.quad	l_static.1+966
	.asciz	"\017\000\000\000\000\000\000"
	.quad	l_static.1+1030
	.asciz	"\r\000\000\000\000\000\000"
	.quad	l_static.1+952
	.asciz	"\016\000\000\000\000\000\000"
	.quad	l_static.1+1030
	.asciz	"\r\000\000\000\000\000\000"
	.quad	l_static.1+944
	.asciz	"\b\000\000\000\000\000\000"
	.quad	l_static.1+1030
	.asciz	"\r\000\000\000\000\000\000"
	.quad	l_static.1+936
	.asciz	"\b\000\000\000\000\000\000"
	.quad	l_static.1+1030
	.asciz	"\r\000\000\000\000\000\000"
	.quad	l_static.1+912
	.asciz	"\030\000\000\000\000\000\000"
	.quad	l_static.1+896
	.asciz	"\020\000\000\000\000\000\000"
	.quad	l_static.1+894
	.asciz	"\002\000\000\000\000\000\000"
	.quad	l_static.1+896
	.asciz	"\020\000\000\000\000\000\000"
	.quad	l_static.1+890
	.asciz	"\004\000\000\000\000\000\000"
	.quad	l_static.1+1018
	.asciz	"\f\000\000\000\000\000\000"
	.quad	l_static.1+1121
	.asciz	"\027\000\000\000\000\000\000"
	.quad	l_static.1+1018
	.asciz	"\f\000\000\000\000\000\000"
	.quad	l_static.1+868
	.asciz	"\026\000\000\000\000\000\000"
	.quad	l_static.1+1018
	.asciz	"\f\000\000\000\000\000\000"
	.quad	l_static.1+852
	.asciz	"\020\000\000\000\000\000\000"
	.quad	l_static.1+1018
	.asciz	"\f\000\000\000\000\000\000"
	.quad	l_static.1+819
	.asciz	"!\000\000\000\000\000\000"
	.quad	l_static.1+1018
	.asciz	"\f\000\000\000\000\000\000"
	.quad	l_static.1+810
	.asciz	"\t\000\000\000\000\000\000"
	.quad	l_static.1+1018
	.asciz	"\f\000\000\000\000\000\000"
	.quad	l_static.1+800
	.asciz	"\n\000\000\000\000\000\000\000image/jpegimage/gifapplication/x-www-form-urlencodedapplication/jsonapplication/javascriptgzipbrcontent-encodingpublic, max-age=31536000no-storeno-cachemax-age=604800max-age=2592000max-age=0*access-control-allow-origincontent-typecache-controlaccess-control-allow-headersbytesaccept-rangesgzip, deflate, braccept-encodingapplication/dns-message*/*accept503404304200:status\000\000\000"

	.p2align	3, 0x0
l_static.2:
	.quad	l_static.2+1181
	.asciz	"\f\000\000\000\000\000\000"
	.quad	l_static.2+1172
	.asciz	"\t\000\000\000\000\000\000"
	.quad	l_static.2+1181
	.asciz	"\f\000\000\000\000\000\000"
	.quad	l_static.2+1164
	.asciz	"\b\000\000\000\000\000\000"
	.quad	l_static.2+1181
	.asciz	"\f\000\000\000\000\000\000"
	.quad	l_static.2+1140
	.asciz	"\030\000\000\000\000\000\000"
	.quad	l_static.2+1181
	.asciz	"\f\000\000\000\000\000\000"
	.quad	l_static.2+1130
	.asciz	"\n\000\000\000\000\000\000"
	.quad	l_static.2+1181
	.asciz	"\f\000\000\000\000\000\000"
	.quad	l_static.2+1106
	.asciz	"\030\000\000\000\000\000\000"
	.quad	l_static.2+1101
	.asciz	"\005\000\000\000\000\000\000"
	.quad	l_static.2+1093
	.asciz	"\b\000\000\000\000\000\000"
	.quad	l_static.2+1068
	.asciz	"\031\000\000\000\000\000\000"
	.quad	l_static.2+1052
	.asciz	"\020\000\000\000\000\000\000"
	.quad	l_static.2+1068
	.asciz	"\031\000\000\000\000\000\000"
	.quad	l_static.2+1017
	.asciz	"#\000\000\000\000\000\000"
	.quad	l_static.2+1068
	.asciz	"\031\000\000\000\000\000\000"
	.quad	l_static.2+973
	.asciz	",\000\000\000\000\000\000"
	.quad	l_static.2+969
	.asciz	"\004\000\000\000\000\000\000"
	.quad	l_static.2+954
	.asciz	"\017\000\000\000\000\000\000"
	.quad	l_static.2+969
	.asciz	"\004\000\000\000\000\000\000"
	.quad	l_static.2+948
	.asciz	"\006\000\000\000\000\000\000"
	.quad	l_static.2+926
	.asciz	"\026\000\000\000\000\000\000"
	.quad	l_static.2+919
	.asciz	"\007\000\000\000\000\000\000"
	.quad	l_static.2+903
	.asciz	"\020\000\000\000\000\000\000"
	.quad	l_static.2+890
	.asciz	"\r\000\000\000\000\000\000"
	.quad	l_static.2+883
	.asciz	"\007\000\000\000\000\000\000"
	.quad	l_static.2+880
	.asciz	"\003\000\000\000\000\000\000"
	.quad	l_static.2+883
	.asciz	"\007\000\000\000\000\000\000"
	.quad	l_static.2+877
	.asciz	"\003\000\000\000\000\000\000"
	.quad	l_static.2+883
	.asciz	"\007\000\000\000\000\000\000"
	.quad	l_static.2+874
	.asciz	"\003\000\000\000\000\000\000"
	.quad	l_static.2+883
	.asciz	"\007\000\000\000\000\000\000"
	.quad	l_static.2+871
	.asciz	"\003\000\000\000\000\000\000"
	.quad	l_static.2+883
	.asciz	"\007\000\000\000\000\000\000"
	.quad	l_static.2+868
	.asciz	"\003\000\000\000\000\000\000"
	.quad	l_static.2+883
	.asciz	"\007\000\000\000\000\000\000"
	.quad	l_static.2+865
	.asciz	"\003\000\000\000\000\000\000"
	.quad	l_static.2+883
	.asciz	"\007\000\000\000\000\000\000"
	.quad	l_static.2+862
	.asciz	"\003\000\000\000\000\000\000"
	.quad	l_static.2+883
	.asciz	"\007\000\000\000\000\000\000"
	.quad	l_static.2+859
	.asciz	"\003\000\000\000\000\000\000"
	.quad	l_static.2+883
	.asciz	"\007\000\000\000\000\000\000"
	.quad	l_static.2+856
	.asciz	"\003\000\000\000\000\000\000"
	.quad	l_static.2+841
	.asciz	"\017\000\000\000\000\000\000"
	.quad	l_static.2+841
	.space	8
	.quad	l_static.2+809
	.asciz	" \000\000\000\000\000\000"
	.quad	l_static.2+804
	.asciz	"\005\000\000\000\000\000\000"
	.quad	l_static.2+809
	.asciz	" \000\000\000\000\000\000"
	.quad	l_static.2+800
	.asciz	"\004\000\000\000\000\000\000\000TRUEFALSEaccess-control-allow-credentialsaccept-language500425421403400302206204100:status1; mode=blockx-xss-protectionnosniffx-content-type-optionsoriginaccept-encodingvarymax-age=31536000; includesubdomains; preloadmax-age=31536000; includesubdomainsmax-age=31536000strict-transport-securitybytes=0-rangetext/plain;charset=utf-8text/plaintext/html; charset=utf-8text/cssimage/pngcontent-type\000\000\000\000\000\000"

	.p2align	3, 0x0
l_static.3:
	.quad	l_static.3+1206
	.asciz	"\034\000\000\000\000\000\000"
	.quad	l_static.3+1205
	.asciz	"\001\000\000\000\000\000\000"
	.quad	l_static.3+1177
	.asciz	"\034\000\000\000\000\000\000"
	.quad	l_static.3+1174
	.asciz	"\003\000\000\000\000\000\000"
	.quad	l_static.3+1177
	.asciz	"\034\000\000\000\000\000\000"
	.quad	l_static.3+1156
	.asciz	"\022\000\000\000\000\000\000"
	.quad	l_static.3+1177
	.asciz	"\034\000\000\000\000\000\000"
	.quad	l_static.3+1149
	.asciz	"\007\000\000\000\000\000\000"
	.quad	l_static.3+1120
	.asciz	"\035\000\000\000\000\000\000"
	.quad	l_static.3+1106
	.asciz	"\016\000\000\000\000\000\000"
	.quad	l_static.3+1076
	.asciz	"\036\000\000\000\000\000\000"
	.quad	l_static.3+1064
	.asciz	"\f\000\000\000\000\000\000"
	.quad	l_static.3+1035
	.asciz	"\035\000\000\000\000\000\000"
	.quad	l_static.3+1174
	.asciz	"\003\000\000\000\000\000\000"
	.quad	l_static.3+1035
	.asciz	"\035\000\000\000\000\000\000"
	.quad	l_static.3+1031
	.asciz	"\004\000\000\000\000\000\000"
	.quad	l_static.3+1024
	.asciz	"\007\000\000\000\000\000\000"
	.quad	l_static.3+1019
	.asciz	"\005\000\000\000\000\000\000"
	.quad	l_static.3+1006
	.asciz	"\r\000\000\000\000\000\000"
	.quad	l_static.3+1006
	.space	8
	.quad	l_static.3+983
	.asciz	"\027\000\000\000\000\000\000"
	.quad	l_static.3+930
	.asciz	"5\000\000\000\000\000\000"
	.quad	l_static.3+920
	.asciz	"\n\000\000\000\000\000\000"
	.quad	l_static.3+919
	.asciz	"\001\000\000\000\000\000\000"
	.quad	l_static.3+910
	.asciz	"\t\000\000\000\000\000\000"
	.quad	l_static.3+1006
	.space	8
	.quad	l_static.3+901
	.asciz	"\t\000\000\000\000\000\000"
	.quad	l_static.3+1006
	.space	8
	.quad	l_static.3+893
	.asciz	"\b\000\000\000\000\000\000"
	.quad	l_static.3+1006
	.space	8
	.quad	l_static.3+887
	.asciz	"\006\000\000\000\000\000\000"
	.quad	l_static.3+1006
	.space	8
	.quad	l_static.3+880
	.asciz	"\007\000\000\000\000\000\000"
	.quad	l_static.3+872
	.asciz	"\b\000\000\000\000\000\000"
	.quad	l_static.3+866
	.asciz	"\006\000\000\000\000\000\000"
	.quad	l_static.3+1006
	.space	8
	.quad	l_static.3+847
	.asciz	"\023\000\000\000\000\000\000"
	.quad	l_static.3+1205
	.asciz	"\001\000\000\000\000\000\000"
	.quad	l_static.3+822
	.asciz	"\031\000\000\000\000\000\000"
	.quad	l_static.3+919
	.asciz	"\001\000\000\000\000\000\000"
	.quad	l_static.3+812
	.asciz	"\n\000\000\000\000\000\000"
	.quad	l_static.3+1006
	.space	8
	.quad	l_static.3+797
	.asciz	"\017\000\000\000\000\000\000"
	.quad	l_static.3+1006
	.space	8
	.quad	l_static.3+782
	.asciz	"\017\000\000\000\000\000\000"
	.quad	l_static.3+778
	.asciz	"\004\000\000\000\000\000\000"
	.quad	l_static.3+782
	.asciz	"\017\000\000\000\000\000\000"
	.quad	l_static.3+768
	.asciz	"\n\000\000\000\000\000\000\000sameorigindenyx-frame-optionsx-forwarded-foruser-agentupgrade-insecure-requeststiming-allow-originserverprefetchpurposeoriginif-rangeforwardedexpect-ct1early-datascript-src 'none'; object-src 'none'; base-uri 'none'content-security-policyauthorizationclearalt-svcpostaccess-control-request-methodcontent-typeaccess-control-request-headerscontent-lengthaccess-control-expose-headersoptionsget, post, optionsgetaccess-control-allow-methods*access-control-allow-headers\000\000\000\000\000"

	.section	__TEXT,__const
l_static.4:
	.ascii	"0\0050\0050\0050\0050\0050\0050\0050\0051\0051\0051\0051\0051\0051\0051\0051\0052\0052\0052\0052\0052\0052\0052\0052\005a\005a\005a\005a\005a\005a\005a\005a\005c\005c\005c\005c\005c\005c\005c\005c\005e\005e\005e\005e\005e\005e\005e\005e\005i\005i\005i\005i\005i\005i\005i\005i\005o\005o\005o\005o\005o\005o\005o\005o\005s\005s\005s\005s\005s\005s\005s\005s\005t\005t\005t\005t\005t\005t\005t\005t\005 \006 \006 \006 \006%\006%\006%\006%\006-\006-\006-\006-\006.\006.\006.\006.\006/\006/\006/\006/\0063\0063\0063\0063\0064\0064\0064\0064\0065\0065\0065\0065\0066\0066\0066\0066\0067\0067\0067\0067\0068\0068\0068\0068\0069\0069\0069\0069\006=\006=\006=\006=\006A\006A\006A\006A\006_\006_\006_\006_\006b\006b\006b\006b\006d\006d\006d\006d\006f\006f\006f\006f\006g\006g\006g\006g\006h\006h\006h\006h\006l\006l\006l\006l\006m\006m\006m\006m\006n\006n\006n\006n\006p\006p\006p\006p\006r\006r\006r\006r\006u\006u\006u\006u\006:\007:\007B\007B\007C\007C\007D\007D\007E\007E\007F\007F\007G\007G\007H\007H\007I\007I\007J\007J\007K\007K\007L\007L\007M\007M\007N\007N\007O\007O\007P\007P\007Q\007Q\007R\007R\007S\007S\007T\007T\007U\007U\007V\007V\007W\007W\007Y\007Y\007j\007j\007k\007k\007q\007q\007v\007v\007w\007w\007x\007x\007y\007y\007z\007z\007&\b*\b,\b;\bX\bZ\b\000@\000@"

l_static.5:
	.byte	0

	.section	__DATA,__const
	.p2align	3, 0x0
l_static.6:
	.asciz	"\n\000\000\000\370\003\000"
	.quad	l_static.6+585
	.asciz	"\005\000\000\000\000\000\000\000\013\000\000\000\372\007\000"
	.quad	l_static.6+582
	.asciz	"\003\000\000\000\000\000\000\000\f\000\000\000\372\017\000"
	.quad	l_static.6+580
	.asciz	"\002\000\000\000\000\000\000\000\r\000\000\000\370\037\000"
	.quad	l_static.6+574
	.asciz	"\006\000\000\000\000\000\000\000\016\000\000\000\374?\000"
	.quad	l_static.6+572
	.asciz	"\002\000\000\000\000\000\000\000\017\000\000\000\374\177\000"
	.quad	l_static.6+569
	.asciz	"\003\000\000\000\000\000\000\000\023\000\000\000\360\377\007"
	.quad	l_static.6+566
	.asciz	"\003\000\000\000\000\000\000\000\024\000\000\000\346\377\017"
	.quad	l_static.6+558
	.asciz	"\b\000\000\000\000\000\000\000\025\000\000\000\334\377\037"
	.quad	l_static.6+545
	.asciz	"\r\000\000\000\000\000\000\000\026\000\000\000\322\377?"
	.quad	l_static.6+519
	.asciz	"\032\000\000\000\000\000\000\000\027\000\000\000\330\377\177"
	.quad	l_static.6+490
	.asciz	"\035\000\000\000\000\000\000\000\030\000\000\000\352\377\377"
	.quad	l_static.6+478
	.ascii	"\f\000\000\000\000\000\000\000\031\000\000\000\354\377\377\001"
	.quad	l_static.6+474
	.ascii	"\004\000\000\000\000\000\000\000\032\000\000\000\340\377\377\003"
	.quad	l_static.6+459
	.ascii	"\017\000\000\000\000\000\000\000\033\000\000\000\336\377\377\007"
	.quad	l_static.6+440
	.ascii	"\023\000\000\000\000\000\000\000\034\000\000\000\342\377\377\017"
	.quad	l_static.6+411
	.ascii	"\035\000\000\000\000\000\000\000\036\000\000\000\374\377\377?"
	.quad	l_static.6+408
	.asciz	"\003\000\000\000\000\000\000\000\n\r\026\002\003\004\005\006\007\b\013\f\016\017\020\021\022\023\024\025\027\030\031\032\033\034\035\036\037\177\334\371\313\314\323\324\326\335\336\337\361\364\365\366\367\370\372\373\374\375\376\300\301\310\311\312\315\322\325\332\333\356\360\362\363\377\307\317\352\353\t\216\220\221\224\237\253\316\327\341\354\355\001\207\211\212\213\214\215\217\223\225\226\227\230\233\235\236\245\246\250\256\257\264\266\267\274\277\305\347\357\201\204\205\206\210\222\232\234\240\243\244\251\252\255\262\265\271\272\273\275\276\304\306\344\350\351\231\241\247\254\260\261\263\321\330\331\343\345\346\200\202\203\242\270\302\340\342\\\303\320<`{^}\000$@[]~#>'+|!\"()?\000"

	.section	__TEXT,__const
	.p2align	2, 0x0
l_static.7:
	.asciz	"\n\00200\n\00200\n\00200\n\00200\n\00201\n\00201\n\00201\n\00201\n\00202\n\00202\n\00202\n\00202\n\0020a\n\0020a\n\0020a\n\0020a\n\0020c\n\0020c\n\0020c\n\0020c\n\0020e\n\0020e\n\0020e\n\0020e\n\0020i\n\0020i\n\0020i\n\0020i\n\0020o\n\0020o\n\0020o\n\0020o\n\0020s\n\0020s\n\0020s\n\0020s\n\0020t\n\0020t\n\0020t\n\0020t\013\0020 \013\0020 \013\0020%\013\0020%\013\0020-\013\0020-\013\0020.\013\0020.\013\0020/\013\0020/\013\00203\013\00203\013\00204\013\00204\013\00205\013\00205\013\00206\013\00206\013\00207\013\00207\013\00208\013\00208\013\00209\013\00209\013\0020=\013\0020=\013\0020A\013\0020A\013\0020_\013\0020_\013\0020b\013\0020b\013\0020d\013\0020d\013\0020f\013\0020f\013\0020g\013\0020g\013\0020h\013\0020h\013\0020l\013\0020l\013\0020m\013\0020m\013\0020n\013\0020n\013\0020p\013\0020p\013\0020r\013\0020r\013\0020u\013\0020u\f\0020:\f\0020B\f\0020C\f\0020D\f\0020E\f\0020F\f\0020G\f\0020H\f\0020I\f\0020J\f\0020K\f\0020L\f\0020M\f\0020N\f\0020O\f\0020P\f\0020Q\f\0020R\f\0020S\f\0020T\f\0020U\f\0020V\f\0020W\f\0020Y\f\0020j\f\0020k\f\0020q\f\0020v\f\0020w\f\0020x\f\0020y\f\0020z\005\0010\000\005\0010\000\005\0010\000\005\0010\000\n\00210\n\00210\n\00210\n\00210\n\00211\n\00211\n\00211\n\00211\n\00212\n\00212\n\00212\n\00212\n\0021a\n\0021a\n\0021a\n\0021a\n\0021c\n\0021c\n\0021c\n\0021c\n\0021e\n\0021e\n\0021e\n\0021e\n\0021i\n\0021i\n\0021i\n\0021i\n\0021o\n\0021o\n\0021o\n\0021o\n\0021s\n\0021s\n\0021s\n\0021s\n\0021t\n\0021t\n\0021t\n\0021t\013\0021 \013\0021 \013\0021%\013\0021%\013\0021-\013\0021-\013\0021.\013\0021.\013\0021/\013\0021/\013\00213\013\00213\013\00214\013\00214\013\00215\013\00215\013\00216\013\00216\013\00217\013\00217\013\00218\013\00218\013\00219\013\00219\013\0021=\013\0021=\013\0021A\013\0021A\013\0021_\013\0021_\013\0021b\013\0021b\013\0021d\013\0021d\013\0021f\013\0021f\013\0021g\013\0021g\013\0021h\013\0021h\013\0021l\013\0021l\013\0021m\013\0021m\013\0021n\013\0021n\013\0021p\013\0021p\013\0021r\013\0021r\013\0021u\013\0021u\f\0021:\f\0021B\f\0021C\f\0021D\f\0021E\f\0021F\f\0021G\f\0021H\f\0021I\f\0021J\f\0021K\f\0021L\f\0021M\f\0021N\f\0021O\f\0021P\f\0021Q\f\0021R\f\0021S\f\0021T\f\0021U\f\0021V\f\0021W\f\0021Y\f\0021j\f\0021k\f\0021q\f\0021v\f\0021w\f\0021x\f\0021y\f\0021z\005\0011\000\005\0011\000\005\0011\000\005\0011\000\n\00220\n\00220\n\00220\n\00220\n\00221\n\00221\n\00221\n\00221\n\00222\n\00222\n\00222\n\00222\n\0022a\n\0022a\n\0022a\n\0022a\n\0022c\n\0022c\n\0022c\n\0022c\n\0022e\n\0022e\n\0022e\n\0022e\n\0022i\n\0022i\n\0022i\n\0022i\n\0022o\n\0022o\n\0022o\n\0022o\n\0022s\n\0022s\n\0022s\n\0022s\n\0022t\n\0022t\n\0022t\n\0022t\013\0022 \013\0022 \013\0022%\013\0022%\013\0022-\013\0022-\013\0022.\013\0022.\013\0022/\013\0022/\013\00223\013\00223\013\00224\013\00224\013\00225\013\00225\013\00226\013\00226\013\00227\013\00227\013\00228\013\00228\013\00229\013\00229\013\0022=\013\0022=\013\0022A\013\0022A\013\0022_\013\0022_\013\0022b\013\0022b\013\0022d\013\0022d\013\0022f\013\0022f\013\0022g\013\0022g\013\0022h\013\0022h\013\0022l\013\0022l\013\0022m\013\0022m\013\0022n\013\0022n\013\0022p\013\0022p\013\0022r\013\0022r\013\0022u\013\0022u\f\0022:\f\0022B\f\0022C\f\0022D\f\0022E\f\0022F\f\0022G\f\0022H\f\0022I\f\0022J\f\0022K\f\0022L\f\0022M\f\0022N\f\0022O\f\0022P\f\0022Q\f\0022R\f\0022S\f\0022T\f\0022U\f\0022V\f\0022W\f\0022Y\f\0022j\f\0022k\f\0022q\f\0022v\f\0022w\f\0022x\f\0022y\f\0022z\005\0012\000\005\0012\000\005\0012\000\005\0012\000\n\002a0\n\002a0\n\002a0\n\002a0\n\002a1\n\002a1\n\002a1\n\002a1\n\002a2\n\002a2\n\002a2\n\002a2\n\002aa\n\002aa\n\002aa\n\002aa\n\002ac\n\002ac\n\002ac\n\002ac\n\002ae\n\002ae\n\002ae\n\002ae\n\002ai\n\002ai\n\002ai\n\002ai\n\002ao\n\002ao\n\002ao\n\002ao\n\002as\n\002as\n\002as\n\002as\n\002at\n\002at\n\002at\n\002at\013\002a \013\002a \013\002a%\013\002a%\013\002a-\013\002a-\013\002a.\013\002a.\013\002a/\013\002a/\013\002a3\013\002a3\013\002a4\013\002a4\013\002a5\013\002a5\013\002a6\013\002a6\013\002a7\013\002a7\013\002a8\013\002a8\013\002a9\013\002a9\013\002a=\013\002a=\013\002aA\013\002aA\013\002a_\013\002a_\013\002ab\013\002ab\013\002ad\013\002ad\013\002af\013\002af\013\002ag\013\002ag\013\002ah\013\002ah\013\002al\013\002al\013\002am\013\002am\013\002an\013\002an\013\002ap\013\002ap\013\002ar\013\002ar\013\002au\013\002au\f\002a:\f\002aB\f\002aC\f\002aD\f\002aE\f\002aF\f\002aG\f\002aH\f\002aI\f\002aJ\f\002aK\f\002aL\f\002aM\f\002aN\f\002aO\f\002aP\f\002aQ\f\002aR\f\002aS\f\002aT\f\002aU\f\002aV\f\002aW\f\002aY\f\002aj\f\002ak\f\002aq\f\002av\f\002aw\f\002ax\f\002ay\f\002az\005\001a\000\005\001a\000\005\001a\000\005\001a\000\n\002c0\n\002c0\n\002c0\n\002c0\n\002c1\n\002c1\n\002c1\n\002c1\n\002c2\n\002c2\n\002c2\n\002c2\n\002ca\n\002ca\n\002ca\n\002ca\n\002cc\n\002cc\n\002cc\n\002cc\n\002ce\n\002ce\n\002ce\n\002ce\n\002ci\n\002ci\n\002ci\n\002ci\n\002co\n\002co\n\002co\n\002co\n\002cs\n\002cs\n\002cs\n\002cs\n\002ct\n\002ct\n\002ct\n\002ct\013\002c \013\002c \013\002c%\013\002c%\013\002c-\013\002c-\013\002c.\013\002c.\013\002c/\013\002c/\013\002c3\013\002c3\013\002c4\013\002c4\013\002c5\013\002c5\013\002c6\013\002c6\013\002c7\013\002c7\013\002c8\013\002c8\013\002c9\013\002c9\013\002c=\013\002c=\013\002cA\013\002cA\013\002c_\013\002c_\013\002cb\013\002cb\013\002cd\013\002cd\013\002cf\013\002cf\013\002cg\013\002cg\013\002ch\013\002ch\013\002cl\013\002cl\013\002cm\013\002cm\013\002cn\013\002cn\013\002cp\013\002cp\013\002cr\013\002cr\013\002cu\013\002cu\f\002c:\f\002cB\f\002cC\f\002cD\f\002cE\f\002cF\f\002cG\f\002cH\f\002cI\f\002cJ\f\002cK\f\002cL\f\002cM\f\002cN\f\002cO\f\002cP\f\002cQ\f\002cR\f\002cS\f\002cT\f\002cU\f\002cV\f\002cW\f\002cY\f\002cj\f\002ck\f\002cq\f\002cv\f\002cw\f\002cx\f\002cy\f\002cz\005\001c\000\005\001c\000\005\001c\000\005\001c\000\n\002e0\n\002e0\n\002e0\n\002e0\n\002e1\n\002e1\n\002e1\n\002e1\n\002e2\n\002e2\n\002e2\n\002e2\n\002ea\n\002ea\n\002ea\n\002ea\n\002ec\n\002ec\n\002ec\n\002ec\n\002ee\n\002ee\n\002ee\n\002ee\n\002ei\n\002ei\n\002ei\n\002ei\n\002eo\n\002eo\n\002eo\n\002eo\n\002es\n\002es\n\002es\n\002es\n\002et\n\002et\n\002et\n\002et\013\002e \013\002e \013\002e%\013\002e%\013\002e-\013\002e-\013\002e.\013\002e.\013\002e/\013\002e/\013\002e3\013\002e3\013\002e4\013\002e4\013\002e5\013\002e5\013\002e6\013\002e6\013\002e7\013\002e7\013\002e8\013\002e8\013\002e9\013\002e9\013\002e=\013\002e=\013\002eA\013\002eA\013\002e_\013\002e_\013\002eb\013\002eb\013\002ed\013\002ed\013\002ef\013\002ef\013\002eg\013\002eg\013\002eh\013\002eh\013\002el\013\002el\013\002em\013\002em\013\002en\013\002en\013\002ep\013\002ep\013\002er\013\002er\013\002eu\013\002eu\f\002e:\f\002eB\f\002eC\f\002eD\f\002eE\f\002eF\f\002eG\f\002eH\f\002eI\f\002eJ\f\002eK\f\002eL\f\002eM\f\002eN\f\002eO\f\002eP\f\002eQ\f\002eR\f\002eS\f\002eT\f\002eU\f\002eV\f\002eW\f\002eY\f\002ej\f\002ek\f\002eq\f\002ev\f\002ew\f\002ex\f\002ey\f\002ez\005\001e\000\005\001e\000\005\001e\000\005\001e\000\n\002i0\n\002i0\n\002i0\n\002i0\n\002i1\n\002i1\n\002i1\n\002i1\n\002i2\n\002i2\n\002i2\n\002i2\n\002ia\n\002ia\n\002ia\n\002ia\n\002ic\n\002ic\n\002ic\n\002ic\n\002ie\n\002ie\n\002ie\n\002ie\n\002ii\n\002ii\n\002ii\n\002ii\n\002io\n\002io\n\002io\n\002io\n\002is\n\002is\n\002is\n\002is\n\002it\n\002it\n\002it\n\002it\013\002i \013\002i \013\002i%\013\002i%\013\002i-\013\002i-\013\002i.\013\002i.\013\002i/\013\002i/\013\002i3\013\002i3\013\002i4\013\002i4\013\002i5\013\002i5\013\002i6\013\002i6\013\002i7\013\002i7\013\002i8\013\002i8\013\002i9\013\002i9\013\002i=\013\002i=\013\002iA\013\002iA\013\002i_\013\002i_\013\002ib\013\002ib\013\002id\013\002id\013\002if\013\002if\013\002ig\013\002ig\013\002ih\013\002ih\013\002il\013\002il\013\002im\013\002im\013\002in\013\002in\013\002ip\013\002ip\013\002ir\013\002ir\013\002iu\013\002iu\f\002i:\f\002iB\f\002iC\f\002iD\f\002iE\f\002iF\f\002iG\f\002iH\f\002iI\f\002iJ\f\002iK\f\002iL\f\002iM\f\002iN\f\002iO\f\002iP\f\002iQ\f\002iR\f\002iS\f\002iT\f\002iU\f\002iV\f\002iW\f\002iY\f\002ij\f\002ik\f\002iq\f\002iv\f\002iw\f\002ix\f\002iy\f\002iz\005\001i\000\005\001i\000\005\001i\000\005\001i\000\n\002o0\n\002o0\n\002o0\n\002o0\n\002o1\n\002o1\n\002o1\n\002o1\n\002o2\n\002o2\n\002o2\n\002o2\n\002oa\n\002oa\n\002oa\n\002oa\n\002oc\n\002oc\n\002oc\n\002oc\n\002oe\n\002oe\n\002oe\n\002oe\n\002oi\n\002oi\n\002oi\n\002oi\n\002oo\n\002oo\n\002oo\n\002oo\n\002os\n\002os\n\002os\n\002os\n\002ot\n\002ot\n\002ot\n\002ot\013\002o \013\002o \013\002o%\013\002o%\013\002o-\013\002o-\013\002o.\013\002o.\013\002o/\013\002o/\013\002o3\013\002o3\013\002o4\013\002o4\013\002o5\013\002o5\013\002o6\013\002o6\013\002o7\013\002o7\013\002o8\013\002o8\013\002o9\013\002o9\013\002o=\013\002o=\013\002oA\013\002oA\013\002o_\013\002o_\013\002ob\013\002ob\013\002od\013\002od\013\002of\013\002of\013\002og\013\002og\013\002oh\013\002oh\013\002ol\013\002ol\013\002om\013\002om\013\002on\013\002on\013\002op\013\002op\013\002or\013\002or\013\002ou\013\002ou\f\002o:\f\002oB\f\002oC\f\002oD\f\002oE\f\002oF\f\002oG\f\002oH\f\002oI\f\002oJ\f\002oK\f\002oL\f\002oM\f\002oN\f\002oO\f\002oP\f\002oQ\f\002oR\f\002oS\f\002oT\f\002oU\f\002oV\f\002oW\f\002oY\f\002oj\f\002ok\f\002oq\f\002ov\f\002ow\f\002ox\f\002oy\f\002oz\005\001o\000\005\001o\000\005\001o\000\005\001o\000\n\002s0\n\002s0\n\002s0\n\002s0\n\002s1\n\002s1\n\002s1\n\002s1\n\002s2\n\002s2\n\002s2\n\002s2\n\002sa\n\002sa\n\002sa\n\002sa\n\002sc\n\002sc\n\002sc\n\002sc\n\002se\n\002se\n\002se\n\002se\n\002si\n\002si\n\002si\n\002si\n\002so\n\002so\n\002so\n\002so\n\002ss\n\002ss\n\002ss\n\002ss\n\002st\n\002st\n\002st\n\002st\013\002s \013\002s \013\002s%\013\002s%\013\002s-\013\002s-\013\002s.\013\002s.\013\002s/\013\002s/\013\002s3\013\002s3\013\002s4\013\002s4\013\002s5\013\002s5\013\002s6\013\002s6\013\002s7\013\002s7\013\002s8\013\002s8\013\002s9\013\002s9\013\002s=\013\002s=\013\002sA\013\002sA\013\002s_\013\002s_\013\002sb\013\002sb\013\002sd\013\002sd\013\002sf\013\002sf\013\002sg\013\002sg\013\002sh\013\002sh\013\002sl\013\002sl\013\002sm\013\002sm\013\002sn\013\002sn\013\002sp\013\002sp\013\002sr\013\002sr\013\002su\013\002su\f\002s:\f\002sB\f\002sC\f\002sD\f\002sE\f\002sF\f\002sG\f\002sH\f\002sI\f\002sJ\f\002sK\f\002sL\f\002sM\f\002sN\f\002sO\f\002sP\f\002sQ\f\002sR\f\002sS\f\002sT\f\002sU\f\002sV\f\002sW\f\002sY\f\002sj\f\002sk\f\002sq\f\002sv\f\002sw\f\002sx\f\002sy\f\002sz\005\001s\000\005\001s\000\005\001s\000\005\001s\000\n\002t0\n\002t0\n\002t0\n\002t0\n\002t1\n\002t1\n\002t1\n\002t1\n\002t2\n\002t2\n\002t2\n\002t2\n\002ta\n\002ta\n\002ta\n\002ta\n\002tc\n\002tc\n\002tc\n\002tc\n\002te\n\002te\n\002te\n\002te\n\002ti\n\002ti\n\002ti\n\002ti\n\002to\n\002to\n\002to\n\002to\n\002ts\n\002ts\n\002ts\n\002ts\n\002tt\n\002tt\n\002tt\n\002tt\013\002t \013\002t \013\002t%\013\002t%\013\002t-\013\002t-\013\002t.\013\002t.\013\002t/\013\002t/\013\002t3\013\002t3\013\002t4\013\002t4\013\002t5\013\002t5\013\002t6\013\002t6\013\002t7\013\002t7\013\002t8\013\002t8\013\002t9\013\002t9\013\002t=\013\002t=\013\002tA\013\002tA\013\002t_\013\002t_\013\002tb\013\002tb\013\002td\013\002td\013\002tf\013\002tf\013\002tg\013\002tg\013\002th\013\002th\013\002tl\013\002tl\013\002tm\013\002tm\013\002tn\013\002tn\013\002tp\013\002tp\013\002tr\013\002tr\013\002tu\013\002tu\f\002t:\f\002tB\f\002tC\f\002tD\f\002tE\f\002tF\f\002tG\f\002tH\f\002tI\f\002tJ\f\002tK\f\002tL\f\002tM\f\002tN\f\002tO\f\002tP\f\002tQ\f\002tR\f\002tS\f\002tT\f\002tU\f\002tV\f\002tW\f\002tY\f\002tj\f\002tk\f\002tq\f\002tv\f\002tw\f\002tx\f\002ty\f\002tz\005\001t\000\005\001t\000\005\001t\000\005\001t\000\013\002 0\013\002 0\013\002 1\013\002 1\013\002 2\013\002 2\013\002 a\013\002 a\013\002 c\013\002 c\013\002 e\013\002 e\013\002 i\013\002 i\013\002 o\013\002 o\013\002 s\013\002 s\013\002 t\013\002 t\f\002  \f\002 %\f\002 -\f\002 .\f\002 /\f\002 3\f\002 4\f\002 5\f\002 6\f\002 7\f\002 8\f\002 9\f\002 =\f\002 A\f\002 _\f\002 b\f\002 d\f\002 f\f\002 g\f\002 h\f\002 l\f\002 m\f\002 n\f\002 p\f\002 r\f\002 u\006\001 \000\006\001 \000\006\001 \000\006\001 \000\006\001 \000\006\001 \000\006\001 \000\006\001 \000\006\001 \000\006\001 \000\006\001 \000\006\001 \000\006\001 \000\006\001 \000\006\001 \000\006\001 \000\006\001 \000\006\001 \000\013\002%0\013\002%0\013\002%1\013\002%1\013\002%2\013\002%2\013\002%a\013\002%a\013\002%c\013\002%c\013\002%e\013\002%e\013\002%i\013\002%i\013\002%o\013\002%o\013\002%s\013\002%s\013\002%t\013\002%t\f\002% \f\002%%\f\002%-\f\002%.\f\002%/\f\002%3\f\002%4\f\002%5\f\002%6\f\002%7\f\002%8\f\002%9\f\002%=\f\002%A\f\002%_\f\002%b\f\002%d\f\002%f\f\002%g\f\002%h\f\002%l\f\002%m\f\002%n\f\002%p\f\002%r\f\002%u\006\001%\000\006\001%\000\006\001%\000\006\001%\000\006\001%\000\006\001%\000\006\001%\000\006\001%\000\006\001%\000\006\001%\000\006\001%\000\006\001%\000\006\001%\000\006\001%\000\006\001%\000\006\001%\000\006\001%\000\006\001%\000\013\002-0\013\002-0\013\002-1\013\002-1\013\002-2\013\002-2\013\002-a\013\002-a\013\002-c\013\002-c\013\002-e\013\002-e\013\002-i\013\002-i\013\002-o\013\002-o\013\002-s\013\002-s\013\002-t\013\002-t\f\002- \f\002-%\f\002--\f\002-.\f\002-/\f\002-3\f\002-4\f\002-5\f\002-6\f\002-7\f\002-8\f\002-9\f\002-=\f\002-A\f\002-_\f\002-b\f\002-d\f\002-f\f\002-g\f\002-h\f\002-l\f\002-m\f\002-n\f\002-p\f\002-r\f\002-u\006\001-\000\006\001-\000\006\001-\000\006\001-\000\006\001-\000\006\001-\000\006\001-\000\006\001-\000\006\001-\000\006\001-\000\006\001-\000\006\001-\000\006\001-\000\006\001-\000\006\001-\000\006\001-\000\006\001-\000\006\001-\000\013\002.0\013\002.0\013\002.1\013\002.1\013\002.2\013\002.2\013\002.a\013\002.a\013\002.c\013\002.c\013\002.e\013\002.e\013\002.i\013\002.i\013\002.o\013\002.o\013\002.s\013\002.s\013\002.t\013\002.t\f\002. \f\002.%\f\002.-\f\002..\f\002./\f\002.3\f\002.4\f\002.5\f\002.6\f\002.7\f\002.8\f\002.9\f\002.=\f\002.A\f\002._\f\002.b\f\002.d\f\002.f\f\002.g\f\002.h\f\002.l\f\002.m\f\002.n\f\002.p\f\002.r\f\002.u\006\001.\000\006\001.\000\006\001.\000\006\001.\000\006\001.\000\006\001.\000\006\001.\000\006\001.\000\006\001.\000\006\001.\000\006\001.\000\006\001.\000\006\001.\000\006\001.\000\006\001.\000\006\001.\000\006\001.\000\006\001.\000\013\002/0\013\002/0\013\002/1\013\002/1\013\002/2\013\002/2\013\002/a\013\002/a\013\002/c\013\002/c\013\002/e\013\002/e\013\002/i\013\002/i\013\002/o\013\002/o\013\002/s\013\002/s\013\002/t\013\002/t\f\002/ \f\002/%\f\002/-\f\002/.\f\002//\f\002/3\f\002/4\f\002/5\f\002/6\f\002/7\f\002/8\f\002/9\f\002/=\f\002/A\f\002/_\f\002/b\f\002/d\f\002/f\f\002/g\f\002/h\f\002/l\f\002/m\f\002/n\f\002/p\f\002/r\f\002/u\006\001/\000\006\001/\000\006\001/\000\006\001/\000\006\001/\000\006\001/\000\006\001/\000\006\001/\000\006\001/\000\006\001/\000\006\001/\000\006\001/\000\006\001/\000\006\001/\000\006\001/\000\006\001/\000\006\001/\000\006\001/\000\013\00230\013\00230\013\00231\013\00231\013\00232\013\00232\013\0023a\013\0023a\013\0023c\013\0023c\013\0023e\013\0023e\013\0023i\013\0023i\013\0023o\013\0023o\013\0023s\013\0023s\013\0023t\013\0023t\f\0023 \f\0023%\f\0023-\f\0023.\f\0023/\f\00233\f\00234\f\00235\f\00236\f\00237\f\00238\f\00239\f\0023=\f\0023A\f\0023_\f\0023b\f\0023d\f\0023f\f\0023g\f\0023h\f\0023l\f\0023m\f\0023n\f\0023p\f\0023r\f\0023u\006\0013\000\006\0013\000\006\0013\000\006\0013\000\006\0013\000\006\0013\000\006\0013\000\006\0013\000\006\0013\000\006\0013\000\006\0013\000\006\0013\000\006\0013\000\006\0013\000\006\0013\000\006\0013\000\006\0013\000\006\0013\000\013\00240\013\00240\013\00241\013\00241\013\00242\013\00242\013\0024a\013\0024a\013\0024c\013\0024c\013\0024e\013\0024e\013\0024i\013\0024i\013\0024o\013\0024o\013\0024s\013\0024s\013\0024t\013\0024t\f\0024 \f\0024%\f\0024-\f\0024.\f\0024/\f\00243\f\00244\f\00245\f\00246\f\00247\f\00248\f\00249\f\0024=\f\0024A\f\0024_\f\0024b\f\0024d\f\0024f\f\0024g\f\0024h\f\0024l\f\0024m\f\0024n\f\0024p\f\0024r\f\0024u\006\0014\000\006\0014\000\006\0014\000\006\0014\000\006\0014\000\006\0014\000\006\0014\000\006\0014\000\006\0014\000\006\0014\000\006\0014\000\006\0014\000\006\0014\000\006\0014\000\006\0014\000\006\0014\000\006\0014\000\006\0014\000\013\00250\013\00250\013\00251\013\00251\013\00252\013\00252\013\0025a\013\0025a\013\0025c\013\0025c\013\0025e\013\0025e\013\0025i\013\0025i\013\0025o\013\0025o\013\0025s\013\0025s\013\0025t\013\0025t\f\0025 \f\0025%\f\0025-\f\0025.\f\0025/\f\00253\f\00254\f\00255\f\00256\f\00257\f\00258\f\00259\f\0025=\f\0025A\f\0025_\f\0025b\f\0025d\f\0025f\f\0025g\f\0025h\f\0025l\f\0025m\f\0025n\f\0025p\f\0025r\f\0025u\006\0015\000\006\0015\000\006\0015\000\006\0015\000\006\0015\000\006\0015\000\006\0015\000\006\0015\000\006\0015\000\006\0015\000\006\0015\000\006\0015\000\006\0015\000\006\0015\000\006\0015\000\006\0015\000\006\0015\000\006\0015\000\013\00260\013\00260\013\00261\013\00261\013\00262\013\00262\013\0026a\013\0026a\013\0026c\013\0026c\013\0026e\013\0026e\013\0026i\013\0026i\013\0026o\013\0026o\013\0026s\013\0026s\013\0026t\013\0026t\f\0026 \f\0026%\f\0026-\f\0026.\f\0026/\f\00263\f\00264\f\00265\f\00266\f\00267\f\00268\f\00269\f\0026=\f\0026A\f\0026_\f\0026b\f\0026d\f\0026f\f\0026g\f\0026h\f\0026l\f\0026m\f\0026n\f\0026p\f\0026r\f\0026u\006\0016\000\006\0016\000\006\0016\000\006\0016\000\006\0016\000\006\0016\000\006\0016\000\006\0016\000\006\0016\000\006\0016\000\006\0016\000\006\0016\000\006\0016\000\006\0016\000\006\0016\000\006\0016\000\006\0016\000\006\0016\000\013\00270\013\00270\013\00271\013\00271\013\00272\013\00272\013\0027a\013\0027a\013\0027c\013\0027c\013\0027e\013\0027e\013\0027i\013\0027i\013\0027o\013\0027o\013\0027s\013\0027s\013\0027t\013\0027t\f\0027 \f\0027%\f\0027-\f\0027.\f\0027/\f\00273\f\00274\f\00275\f\00276\f\00277\f\00278\f\00279\f\0027=\f\0027A\f\0027_\f\0027b\f\0027d\f\0027f\f\0027g\f\0027h\f\0027l\f\0027m\f\0027n\f\0027p\f\0027r\f\0027u\006\0017\000\006\0017\000\006\0017\000\006\0017\000\006\0017\000\006\0017\000\006\0017\000\006\0017\000\006\0017\000\006\0017\000\006\0017\000\006\0017\000\006\0017\000\006\0017\000\006\0017\000\006\0017\000\006\0017\000\006\0017\000\013\00280\013\00280\013\00281\013\00281\013\00282\013\00282\013\0028a\013\0028a\013\0028c\013\0028c\013\0028e\013\0028e\013\0028i\013\0028i\013\0028o\013\0028o\013\0028s\013\0028s\013\0028t\013\0028t\f\0028 \f\0028%\f\0028-\f\0028.\f\0028/\f\00283\f\00284\f\00285\f\00286\f\00287\f\00288\f\00289\f\0028=\f\0028A\f\0028_\f\0028b\f\0028d\f\0028f\f\0028g\f\0028h\f\0028l\f\0028m\f\0028n\f\0028p\f\0028r\f\0028u\006\0018\000\006\0018\000\006\0018\000\006\0018\000\006\0018\000\006\0018\000\006\0018\000\006\0018\000\006\0018\000\006\0018\000\006\0018\000\006\0018\000\006\0018\000\006\0018\000\006\0018\000\006\0018\000\006\0018\000\006\0018\000\013\00290\013\00290\013\00291\013\00291\013\00292\013\00292\013\0029a\013\0029a\013\0029c\013\0029c\013\0029e\013\0029e\013\0029i\013\0029i\013\0029o\013\0029o\013\0029s\013\0029s\013\0029t\013\0029t\f\0029 \f\0029%\f\0029-\f\0029.\f\0029/\f\00293\f\00294\f\00295\f\00296\f\00297\f\00298\f\00299\f\0029=\f\0029A\f\0029_\f\0029b\f\0029d\f\0029f\f\0029g\f\0029h\f\0029l\f\0029m\f\0029n\f\0029p\f\0029r\f\0029u\006\0019\000\006\0019\000\006\0019\000\006\0019\000\006\0019\000\006\0019\000\006\0019\000\006\0019\000\006\0019\000\006\0019\000\006\0019\000\006\0019\000\006\0019\000\006\0019\000\006\0019\000\006\0019\000\006\0019\000\006\0019\000\013\002=0\013\002=0\013\002=1\013\002=1\013\002=2\013\002=2\013\002=a\013\002=a\013\002=c\013\002=c\013\002=e\013\002=e\013\002=i\013\002=i\013\002=o\013\002=o\013\002=s\013\002=s\013\002=t\013\002=t\f\002= \f\002=%\f\002=-\f\002=.\f\002=/\f\002=3\f\002=4\f\002=5\f\002=6\f\002=7\f\002=8\f\002=9\f\002==\f\002=A\f\002=_\f\002=b\f\002=d\f\002=f\f\002=g\f\002=h\f\002=l\f\002=m\f\002=n\f\002=p\f\002=r\f\002=u\006\001=\000\006\001=\000\006\001=\000\006\001=\000\006\001=\000\006\001=\000\006\001=\000\006\001=\000\006\001=\000\006\001=\000\006\001=\000\006\001=\000\006\001=\000\006\001=\000\006\001=\000\006\001=\000\006\001=\000\006\001=\000\013\002A0\013\002A0\013\002A1\013\002A1\013\002A2\013\002A2\013\002Aa\013\002Aa\013\002Ac\013\002Ac\013\002Ae\013\002Ae\013\002Ai\013\002Ai\013\002Ao\013\002Ao\013\002As\013\002As\013\002At\013\002At\f\002A \f\002A%\f\002A-\f\002A.\f\002A/\f\002A3\f\002A4\f\002A5\f\002A6\f\002A7\f\002A8\f\002A9\f\002A=\f\002AA\f\002A_\f\002Ab\f\002Ad\f\002Af\f\002Ag\f\002Ah\f\002Al\f\002Am\f\002An\f\002Ap\f\002Ar\f\002Au\006\001A\000\006\001A\000\006\001A\000\006\001A\000\006\001A\000\006\001A\000\006\001A\000\006\001A\000\006\001A\000\006\001A\000\006\001A\000\006\001A\000\006\001A\000\006\001A\000\006\001A\000\006\001A\000\006\001A\000\006\001A\000\013\002_0\013\002_0\013\002_1\013\002_1\013\002_2\013\002_2\013\002_a\013\002_a\013\002_c\013\002_c\013\002_e\013\002_e\013\002_i\013\002_i\013\002_o\013\002_o\013\002_s\013\002_s\013\002_t\013\002_t\f\002_ \f\002_%\f\002_-\f\002_.\f\002_/\f\002_3\f\002_4\f\002_5\f\002_6\f\002_7\f\002_8\f\002_9\f\002_=\f\002_A\f\002__\f\002_b\f\002_d\f\002_f\f\002_g\f\002_h\f\002_l\f\002_m\f\002_n\f\002_p\f\002_r\f\002_u\006\001_\000\006\001_\000\006\001_\000\006\001_\000\006\001_\000\006\001_\000\006\001_\000\006\001_\000\006\001_\000\006\001_\000\006\001_\000\006\001_\000\006\001_\000\006\001_\000\006\001_\000\006\001_\000\006\001_\000\006\001_\000\013\002b0\013\002b0\013\002b1\013\002b1\013\002b2\013\002b2\013\002ba\013\002ba\013\002bc\013\002bc\013\002be\013\002be\013\002bi\013\002bi\013\002bo\013\002bo\013\002bs\013\002bs\013\002bt\013\002bt\f\002b \f\002b%\f\002b-\f\002b.\f\002b/\f\002b3\f\002b4\f\002b5\f\002b6\f\002b7\f\002b8\f\002b9\f\002b=\f\002bA\f\002b_\f\002bb\f\002bd\f\002bf\f\002bg\f\002bh\f\002bl\f\002bm\f\002bn\f\002bp\f\002br\f\002bu\006\001b\000\006\001b\000\006\001b\000\006\001b\000\006\001b\000\006\001b\000\006\001b\000\006\001b\000\006\001b\000\006\001b\000\006\001b\000\006\001b\000\006\001b\000\006\001b\000\006\001b\000\006\001b\000\006\001b\000\006\001b\000\013\002d0\013\002d0\013\002d1\013\002d1\013\002d2\013\002d2\013\002da\013\002da\013\002dc\013\002dc\013\002de\013\002de\013\002di\013\002di\013\002do\013\002do\013\002ds\013\002ds\013\002dt\013\002dt\f\002d \f\002d%\f\002d-\f\002d.\f\002d/\f\002d3\f\002d4\f\002d5\f\002d6\f\002d7\f\002d8\f\002d9\f\002d=\f\002dA\f\002d_\f\002db\f\002dd\f\002df\f\002dg\f\002dh\f\002dl\f\002dm\f\002dn\f\002dp\f\002dr\f\002du\006\001d\000\006\001d\000\006\001d\000\006\001d\000\006\001d\000\006\001d\000\006\001d\000\006\001d\000\006\001d\000\006\001d\000\006\001d\000\006\001d\000\006\001d\000\006\001d\000\006\001d\000\006\001d\000\006\001d\000\006\001d\000\013\002f0\013\002f0\013\002f1\013\002f1\013\002f2\013\002f2\013\002fa\013\002fa\013\002fc\013\002fc\013\002fe\013\002fe\013\002fi\013\002fi\013\002fo\013\002fo\013\002fs\013\002fs\013\002ft\013\002ft\f\002f \f\002f%\f\002f-\f\002f.\f\002f/\f\002f3\f\002f4\f\002f5\f\002f6\f\002f7\f\002f8\f\002f9\f\002f=\f\002fA\f\002f_\f\002fb\f\002fd\f\002ff\f\002fg\f\002fh\f\002fl\f\002fm\f\002fn\f\002fp\f\002fr\f\002fu\006\001f\000\006\001f\000\006\001f\000\006\001f\000\006\001f\000\006\001f\000\006\001f\000\006\001f\000\006\001f\000\006\001f\000\006\001f\000\006\001f\000\006\001f\000\006\001f\000\006\001f\000\006\001f\000\006\001f\000\006\001f\000\013\002g0\013\002g0\013\002g1\013\002g1\013\002g2\013\002g2\013\002ga\013\002ga\013\002gc\013\002gc\013\002ge\013\002ge\013\002gi\013\002gi\013\002go\013\002go\013\002gs\013\002gs\013\002gt\013\002gt\f\002g \f\002g%\f\002g-\f\002g.\f\002g/\f\002g3\f\002g4\f\002g5\f\002g6\f\002g7\f\002g8\f\002g9\f\002g=\f\002gA\f\002g_\f\002gb\f\002gd\f\002gf\f\002gg\f\002gh\f\002gl\f\002gm\f\002gn\f\002gp\f\002gr\f\002gu\006\001g\000\006\001g\000\006\001g\000\006\001g\000\006\001g\000\006\001g\000\006\001g\000\006\001g\000\006\001g\000\006\001g\000\006\001g\000\006\001g\000\006\001g\000\006\001g\000\006\001g\000\006\001g\000\006\001g\000\006\001g\000\013\002h0\013\002h0\013\002h1\013\002h1\013\002h2\013\002h2\013\002ha\013\002ha\013\002hc\013\002hc\013\002he\013\002he\013\002hi\013\002hi\013\002ho\013\002ho\013\002hs\013\002hs\013\002ht\013\002ht\f\002h \f\002h%\f\002h-\f\002h.\f\002h/\f\002h3\f\002h4\f\002h5\f\002h6\f\002h7\f\002h8\f\002h9\f\002h=\f\002hA\f\002h_\f\002hb\f\002hd\f\002hf\f\002hg\f\002hh\f\002hl\f\002hm\f\002hn\f\002hp\f\002hr\f\002hu\006\001h\000\006\001h\000\006\001h\000\006\001h\000\006\001h\000\006\001h\000\006\001h\000\006\001h\000\006\001h\000\006\001h\000\006\001h\000\006\001h\000\006\001h\000\006\001h\000\006\001h\000\006\001h\000\006\001h\000\006\001h\000\013\002l0\013\002l0\013\002l1\013\002l1\013\002l2\013\002l2\013\002la\013\002la\013\002lc\013\002lc\013\002le\013\002le\013\002li\013\002li\013\002lo\013\002lo\013\002ls\013\002ls\013\002lt\013\002lt\f\002l \f\002l%\f\002l-\f\002l.\f\002l/\f\002l3\f\002l4\f\002l5\f\002l6\f\002l7\f\002l8\f\002l9\f\002l=\f\002lA\f\002l_\f\002lb\f\002ld\f\002lf\f\002lg\f\002lh\f\002ll\f\002lm\f\002ln\f\002lp\f\002lr\f\002lu\006\001l\000\006\001l\000\006\001l\000\006\001l\000\006\001l\000\006\001l\000\006\001l\000\006\001l\000\006\001l\000\006\001l\000\006\001l\000\006\001l\000\006\001l\000\006\001l\000\006\001l\000\006\001l\000\006\001l\000\006\001l\000\013\002m0\013\002m0\013\002m1\013\002m1\013\002m2\013\002m2\013\002ma\013\002ma\013\002mc\013\002mc\013\002me\013\002me\013\002mi\013\002mi\013\002mo\013\002mo\013\002ms\013\002ms\013\002mt\013\002mt\f\002m \f\002m%\f\002m-\f\002m.\f\002m/\f\002m3\f\002m4\f\002m5\f\002m6\f\002m7\f\002m8\f\002m9\f\002m=\f\002mA\f\002m_\f\002mb\f\002md\f\002mf\f\002mg\f\002mh\f\002ml\f\002mm\f\002mn\f\002mp\f\002mr\f\002mu\006\001m\000\006\001m\000\006\001m\000\006\001m\000\006\001m\000\006\001m\000\006\001m\000\006\001m\000\006\001m\000\006\001m\000\006\001m\000\006\001m\000\006\001m\000\006\001m\000\006\001m\000\006\001m\000\006\001m\000\006\001m\000\013\002n0\013\002n0\013\002n1\013\002n1\013\002n2\013\002n2\013\002na\013\002na\013\002nc\013\002nc\013\002ne\013\002ne\013\002ni\013\002ni\013\002no\013\002no\013\002ns\013\002ns\013\002nt\013\002nt\f\002n \f\002n%\f\002n-\f\002n.\f\002n/\f\002n3\f\002n4\f\002n5\f\002n6\f\002n7\f\002n8\f\002n9\f\002n=\f\002nA\f\002n_\f\002nb\f\002nd\f\002nf\f\002ng\f\002nh\f\002nl\f\002nm\f\002nn\f\002np\f\002nr\f\002nu\006\001n\000\006\001n\000\006\001n\000\006\001n\000\006\001n\000\006\001n\000\006\001n\000\006\001n\000\006\001n\000\006\001n\000\006\001n\000\006\001n\000\006\001n\000\006\001n\000\006\001n\000\006\001n\000\006\001n\000\006\001n\000\013\002p0\013\002p0\013\002p1\013\002p1\013\002p2\013\002p2\013\002pa\013\002pa\013\002pc\013\002pc\013\002pe\013\002pe\013\002pi\013\002pi\013\002po\013\002po\013\002ps\013\002ps\013\002pt\013\002pt\f\002p \f\002p%\f\002p-\f\002p.\f\002p/\f\002p3\f\002p4\f\002p5\f\002p6\f\002p7\f\002p8\f\002p9\f\002p=\f\002pA\f\002p_\f\002pb\f\002pd\f\002pf\f\002pg\f\002ph\f\002pl\f\002pm\f\002pn\f\002pp\f\002pr\f\002pu\006\001p\000\006\001p\000\006\001p\000\006\001p\000\006\001p\000\006\001p\000\006\001p\000\006\001p\000\006\001p\000\006\001p\000\006\001p\000\006\001p\000\006\001p\000\006\001p\000\006\001p\000\006\001p\000\006\001p\000\006\001p\000\013\002r0\013\002r0\013\002r1\013\002r1\013\002r2\013\002r2\013\002ra\013\002ra\013\002rc\013\002rc\013\002re\013\002re\013\002ri\013\002ri\013\002ro\013\002ro\013\002rs\013\002rs\013\002rt\013\002rt\f\002r \f\002r%\f\002r-\f\002r.\f\002r/\f\002r3\f\002r4\f\002r5\f\002r6\f\002r7\f\002r8\f\002r9\f\002r=\f\002rA\f\002r_\f\002rb\f\002rd\f\002rf\f\002rg\f\002rh\f\002rl\f\002rm\f\002rn\f\002rp\f\002rr\f\002ru\006\001r\000\006\001r\000\006\001r\000\006\001r\000\006\001r\000\006\001r\000\006\001r\000\006\001r\000\006\001r\000\006\001r\000\006\001r\000\006\001r\000\006\001r\000\006\001r\000\006\001r\000\006\001r\000\006\001r\000\006\001r\000\013\002u0\013\002u0\013\002u1\013\002u1\013\002u2\013\002u2\013\002ua\013\002ua\013\002uc\013\002uc\013\002ue\013\002ue\013\002ui\013\002ui\013\002uo\013\002uo\013\002us\013\002us\013\002ut\013\002ut\f\002u \f\002u%\f\002u-\f\002u.\f\002u/\f\002u3\f\002u4\f\002u5\f\002u6\f\002u7\f\002u8\f\002u9\f\002u=\f\002uA\f\002u_\f\002ub\f\002ud\f\002uf\f\002ug\f\002uh\f\002ul\f\002um\f\002un\f\002up\f\002ur\f\002uu\006\001u\000\006\001u\000\006\001u\000\006\001u\000\006\001u\000\006\001u\000\006\001u\000\006\001u\000\006\001u\000\006\001u\000\006\001u\000\006\001u\000\006\001u\000\006\001u\000\006\001u\000\006\001u\000\006\001u\000\006\001u\000\f\002:0\f\002:1\f\002:2\f\002:a\f\002:c\f\002:e\f\002:i\f\002:o\f\002:s\f\002:t\007\001:\000\007\001:\000\007\001:\000\007\001:\000\007\001:\000\007\001:\000\007\001:\000\007\001:\000\007\001:\000\007\001:\000\007\001:\000\007\001:\000\007\001:\000\007\001:\000\007\001:\000\007\001:\000\007\001:\000\007\001:\000\007\001:\000\007\001:\000\007\001:\000\007\001:\000\f\002B0\f\002B1\f\002B2\f\002Ba\f\002Bc\f\002Be\f\002Bi\f\002Bo\f\002Bs\f\002Bt\007\001B\000\007\001B\000\007\001B\000\007\001B\000\007\001B\000\007\001B\000\007\001B\000\007\001B\000\007\001B\000\007\001B\000\007\001B\000\007\001B\000\007\001B\000\007\001B\000\007\001B\000\007\001B\000\007\001B\000\007\001B\000\007\001B\000\007\001B\000\007\001B\000\007\001B\000\f\002C0\f\002C1\f\002C2\f\002Ca\f\002Cc\f\002Ce\f\002Ci\f\002Co\f\002Cs\f\002Ct\007\001C\000\007\001C\000\007\001C\000\007\001C\000\007\001C\000\007\001C\000\007\001C\000\007\001C\000\007\001C\000\007\001C\000\007\001C\000\007\001C\000\007\001C\000\007\001C\000\007\001C\000\007\001C\000\007\001C\000\007\001C\000\007\001C\000\007\001C\000\007\001C\000\007\001C\000\f\002D0\f\002D1\f\002D2\f\002Da\f\002Dc\f\002De\f\002Di\f\002Do\f\002Ds\f\002Dt\007\001D\000\007\001D\000\007\001D\000\007\001D\000\007\001D\000\007\001D\000\007\001D\000\007\001D\000\007\001D\000\007\001D\000\007\001D\000\007\001D\000\007\001D\000\007\001D\000\007\001D\000\007\001D\000\007\001D\000\007\001D\000\007\001D\000\007\001D\000\007\001D\000\007\001D\000\f\002E0\f\002E1\f\002E2\f\002Ea\f\002Ec\f\002Ee\f\002Ei\f\002Eo\f\002Es\f\002Et\007\001E\000\007\001E\000\007\001E\000\007\001E\000\007\001E\000\007\001E\000\007\001E\000\007\001E\000\007\001E\000\007\001E\000\007\001E\000\007\001E\000\007\001E\000\007\001E\000\007\001E\000\007\001E\000\007\001E\000\007\001E\000\007\001E\000\007\001E\000\007\001E\000\007\001E\000\f\002F0\f\002F1\f\002F2\f\002Fa\f\002Fc\f\002Fe\f\002Fi\f\002Fo\f\002Fs\f\002Ft\007\001F\000\007\001F\000\007\001F\000\007\001F\000\007\001F\000\007\001F\000\007\001F\000\007\001F\000\007\001F\000\007\001F\000\007\001F\000\007\001F\000\007\001F\000\007\001F\000\007\001F\000\007\001F\000\007\001F\000\007\001F\000\007\001F\000\007\001F\000\007\001F\000\007\001F\000\f\002G0\f\002G1\f\002G2\f\002Ga\f\002Gc\f\002Ge\f\002Gi\f\002Go\f\002Gs\f\002Gt\007\001G\000\007\001G\000\007\001G\000\007\001G\000\007\001G\000\007\001G\000\007\001G\000\007\001G\000\007\001G\000\007\001G\000\007\001G\000\007\001G\000\007\001G\000\007\001G\000\007\001G\000\007\001G\000\007\001G\000\007\001G\000\007\001G\000\007\001G\000\007\001G\000\007\001G\000\f\002H0\f\002H1\f\002H2\f\002Ha\f\002Hc\f\002He\f\002Hi\f\002Ho\f\002Hs\f\002Ht\007\001H\000\007\001H\000\007\001H\000\007\001H\000\007\001H\000\007\001H\000\007\001H\000\007\001H\000\007\001H\000\007\001H\000\007\001H\000\007\001H\000\007\001H\000\007\001H\000\007\001H\000\007\001H\000\007\001H\000\007\001H\000\007\001H\000\007\001H\000\007\001H\000\007\001H\000\f\002I0\f\002I1\f\002I2\f\002Ia\f\002Ic\f\002Ie\f\002Ii\f\002Io\f\002Is\f\002It\007\001I\000\007\001I\000\007\001I\000\007\001I\000\007\001I\000\007\001I\000\007\001I\000\007\001I\000\007\001I\000\007\001I\000\007\001I\000\007\001I\000\007\001I\000\007\001I\000\007\001I\000\007\001I\000\007\001I\000\007\001I\000\007\001I\000\007\001I\000\007\001I\000\007\001I\000\f\002J0\f\002J1\f\002J2\f\002Ja\f\002Jc\f\002Je\f\002Ji\f\002Jo\f\002Js\f\002Jt\007\001J\000\007\001J\000\007\001J\000\007\001J\000\007\001J\000\007\001J\000\007\001J\000\007\001J\000\007\001J\000\007\001J\000\007\001J\000\007\001J\000\007\001J\000\007\001J\000\007\001J\000\007\001J\000\007\001J\000\007\001J\000\007\001J\000\007\001J\000\007\001J\000\007\001J\000\f\002K0\f\002K1\f\002K2\f\002Ka\f\002Kc\f\002Ke\f\002Ki\f\002Ko\f\002Ks\f\002Kt\007\001K\000\007\001K\000\007\001K\000\007\001K\000\007\001K\000\007\001K\000\007\001K\000\007\001K\000\007\001K\000\007\001K\000\007\001K\000\007\001K\000\007\001K\000\007\001K\000\007\001K\000\007\001K\000\007\001K\000\007\001K\000\007\001K\000\007\001K\000\007\001K\000\007\001K\000\f\002L0\f\002L1\f\002L2\f\002La\f\002Lc\f\002Le\f\002Li\f\002Lo\f\002Ls\f\002Lt\007\001L\000\007\001L\000\007\001L\000\007\001L\000\007\001L\000\007\001L\000\007\001L\000\007\001L\000\007\001L\000\007\001L\000\007\001L\000\007\001L\000\007\001L\000\007\001L\000\007\001L\000\007\001L\000\007\001L\000\007\001L\000\007\001L\000\007\001L\000\007\001L\000\007\001L\000\f\002M0\f\002M1\f\002M2\f\002Ma\f\002Mc\f\002Me\f\002Mi\f\002Mo\f\002Ms\f\002Mt\007\001M\000\007\001M\000\007\001M\000\007\001M\000\007\001M\000\007\001M\000\007\001M\000\007\001M\000\007\001M\000\007\001M\000\007\001M\000\007\001M\000\007\001M\000\007\001M\000\007\001M\000\007\001M\000\007\001M\000\007\001M\000\007\001M\000\007\001M\000\007\001M\000\007\001M\000\f\002N0\f\002N1\f\002N2\f\002Na\f\002Nc\f\002Ne\f\002Ni\f\002No\f\002Ns\f\002Nt\007\001N\000\007\001N\000\007\001N\000\007\001N\000\007\001N\000\007\001N\000\007\001N\000\007\001N\000\007\001N\000\007\001N\000\007\001N\000\007\001N\000\007\001N\000\007\001N\000\007\001N\000\007\001N\000\007\001N\000\007\001N\000\007\001N\000\007\001N\000\007\001N\000\007\001N\000\f\002O0\f\002O1\f\002O2\f\002Oa\f\002Oc\f\002Oe\f\002Oi\f\002Oo\f\002Os\f\002Ot\007\001O\000\007\001O\000\007\001O\000\007\001O\000\007\001O\000\007\001O\000\007\001O\000\007\001O\000\007\001O\000\007\001O\000\007\001O\000\007\001O\000\007\001O\000\007\001O\000\007\001O\000\007\001O\000\007\001O\000\007\001O\000\007\001O\000\007\001O\000\007\001O\000\007\001O\000\f\002P0\f\002P1\f\002P2\f\002Pa\f\002Pc\f\002Pe\f\002Pi\f\002Po\f\002Ps\f\002Pt\007\001P\000\007\001P\000\007\001P\000\007\001P\000\007\001P\000\007\001P\000\007\001P\000\007\001P\000\007\001P\000\007\001P\000\007\001P\000\007\001P\000\007\001P\000\007\001P\000\007\001P\000\007\001P\000\007\001P\000\007\001P\000\007\001P\000\007\001P\000\007\001P\000\007\001P\000\f\002Q0\f\002Q1\f\002Q2\f\002Qa\f\002Qc\f\002Qe\f\002Qi\f\002Qo\f\002Qs\f\002Qt\007\001Q\000\007\001Q\000\007\001Q\000\007\001Q\000\007\001Q\000\007\001Q\000\007\001Q\000\007\001Q\000\007\001Q\000\007\001Q\000\007\001Q\000\007\001Q\000\007\001Q\000\007\001Q\000\007\001Q\000\007\001Q\000\007\001Q\000\007\001Q\000\007\001Q\000\007\001Q\000\007\001Q\000\007\001Q\000\f\002R0\f\002R1\f\002R2\f\002Ra\f\002Rc\f\002Re\f\002Ri\f\002Ro\f\002Rs\f\002Rt\007\001R\000\007\001R\000\007\001R\000\007\001R\000\007\001R\000\007\001R\000\007\001R\000\007\001R\000\007\001R\000\007\001R\000\007\001R\000\007\001R\000\007\001R\000\007\001R\000\007\001R\000\007\001R\000\007\001R\000\007\001R\000\007\001R\000\007\001R\000\007\001R\000\007\001R\000\f\002S0\f\002S1\f\002S2\f\002Sa\f\002Sc\f\002Se\f\002Si\f\002So\f\002Ss\f\002St\007\001S\000\007\001S\000\007\001S\000\007\001S\000\007\001S\000\007\001S\000\007\001S\000\007\001S\000\007\001S\000\007\001S\000\007\001S\000\007\001S\000\007\001S\000\007\001S\000\007\001S\000\007\001S\000\007\001S\000\007\001S\000\007\001S\000\007\001S\000\007\001S\000\007\001S\000\f\002T0\f\002T1\f\002T2\f\002Ta\f\002Tc\f\002Te\f\002Ti\f\002To\f\002Ts\f\002Tt\007\001T\000\007\001T\000\007\001T\000\007\001T\000\007\001T\000\007\001T\000\007\001T\000\007\001T\000\007\001T\000\007\001T\000\007\001T\000\007\001T\000\007\001T\000\007\001T\000\007\001T\000\007\001T\000\007\001T\000\007\001T\000\007\001T\000\007\001T\000\007\001T\000\007\001T\000\f\002U0\f\002U1\f\002U2\f\002Ua\f\002Uc\f\002Ue\f\002Ui\f\002Uo\f\002Us\f\002Ut\007\001U\000\007\001U\000\007\001U\000\007\001U\000\007\001U\000\007\001U\000\007\001U\000\007\001U\000\007\001U\000\007\001U\000\007\001U\000\007\001U\000\007\001U\000\007\001U\000\007\001U\000\007\001U\000\007\001U\000\007\001U\000\007\001U\000\007\001U\000\007\001U\000\007\001U\000\f\002V0\f\002V1\f\002V2\f\002Va\f\002Vc\f\002Ve\f\002Vi\f\002Vo\f\002Vs\f\002Vt\007\001V\000\007\001V\000\007\001V\000\007\001V\000\007\001V\000\007\001V\000\007\001V\000\007\001V\000\007\001V\000\007\001V\000\007\001V\000\007\001V\000\007\001V\000\007\001V\000\007\001V\000\007\001V\000\007\001V\000\007\001V\000\007\001V\000\007\001V\000\007\001V\000\007\001V\000\f\002W0\f\002W1\f\002W2\f\002Wa\f\002Wc\f\002We\f\002Wi\f\002Wo\f\002Ws\f\002Wt\007\001W\000\007\001W\000\007\001W\000\007\001W\000\007\001W\000\007\001W\000\007\001W\000\007\001W\000\007\001W\000\007\001W\000\007\001W\000\007\001W\000\007\001W\000\007\001W\000\007\001W\000\007\001W\000\007\001W\000\007\001W\000\007\001W\000\007\001W\000\007\001W\000\007\001W\000\f\002Y0\f\002Y1\f\002Y2\f\002Ya\f\002Yc\f\002Ye\f\002Yi\f\002Yo\f\002Ys\f\002Yt\007\001Y\000\007\001Y\000\007\001Y\000\007\001Y\000\007\001Y\000\007\001Y\000\007\001Y\000\007\001Y\000\007\001Y\000\007\001Y\000\007\001Y\000\007\001Y\000\007\001Y\000\007\001Y\000\007\001Y\000\007\001Y\000\007\001Y\000\007\001Y\000\007\001Y\000\007\001Y\000\007\001Y\000\007\001Y\000\f\002j0\f\002j1\f\002j2\f\002ja\f\002jc\f\002je\f\002ji\f\002jo\f\002js\f\002jt\007\001j\000\007\001j\000\007\001j\000\007\001j\000\007\001j\000\007\001j\000\007\001j\000\007\001j\000\007\001j\000\007\001j\000\007\001j\000\007\001j\000\007\001j\000\007\001j\000\007\001j\000\007\001j\000\007\001j\000\007\001j\000\007\001j\000\007\001j\000\007\001j\000\007\001j\000\f\002k0\f\002k1\f\002k2\f\002ka\f\002kc\f\002ke\f\002ki\f\002ko\f\002ks\f\002kt\007\001k\000\007\001k\000\007\001k\000\007\001k\000\007\001k\000\007\001k\000\007\001k\000\007\001k\000\007\001k\000\007\001k\000\007\001k\000\007\001k\000\007\001k\000\007\001k\000\007\001k\000\007\001k\000\007\001k\000\007\001k\000\007\001k\000\007\001k\000\007\001k\000\007\001k\000\f\002q0\f\002q1\f\002q2\f\002qa\f\002qc\f\002qe\f\002qi\f\002qo\f\002qs\f\002qt\007\001q\000\007\001q\000\007\001q\000\007\001q\000\007\001q\000\007\001q\000\007\001q\000\007\001q\000\007\001q\000\007\001q\000\007\001q\000\007\001q\000\007\001q\000\007\001q\000\007\001q\000\007\001q\000\007\001q\000\007\001q\000\007\001q\000\007\001q\000\007\001q\000\007\001q\000\f\002v0\f\002v1\f\002v2\f\002va\f\002vc\f\002ve\f\002vi\f\002vo\f\002vs\f\002vt\007\001v\000\007\001v\000\007\001v\000\007\001v\000\007\001v\000\007\001v\000\007\001v\000\007\001v\000\007\001v\000\007\001v\000\007\001v\000\007\001v\000\007\001v\000\007\001v\000\007\001v\000\007\001v\000\007\001v\000\007\001v\000\007\001v\000\007\001v\000\007\001v\000\007\001v\000\f\002w0\f\002w1\f\002w2\f\002wa\f\002wc\f\002we\f\002wi\f\002wo\f\002ws\f\002wt\007\001w\000\007\001w\000\007\001w\000\007\001w\000\007\001w\000\007\001w\000\007\001w\000\007\001w\000\007\001w\000\007\001w\000\007\001w\000\007\001w\000\007\001w\000\007\001w\000\007\001w\000\007\001w\000\007\001w\000\007\001w\000\007\001w\000\007\001w\000\007\001w\000\007\001w\000\f\002x0\f\002x1\f\002x2\f\002xa\f\002xc\f\002xe\f\002xi\f\002xo\f\002xs\f\002xt\007\001x\000\007\001x\000\007\001x\000\007\001x\000\007\001x\000\007\001x\000\007\001x\000\007\001x\000\007\001x\000\007\001x\000\007\001x\000\007\001x\000\007\001x\000\007\001x\000\007\001x\000\007\001x\000\007\001x\000\007\001x\000\007\001x\000\007\001x\000\007\001x\000\007\001x\000\f\002y0\f\002y1\f\002y2\f\002ya\f\002yc\f\002ye\f\002yi\f\002yo\f\002ys\f\002yt\007\001y\000\007\001y\000\007\001y\000\007\001y\000\007\001y\000\007\001y\000\007\001y\000\007\001y\000\007\001y\000\007\001y\000\007\001y\000\007\001y\000\007\001y\000\007\001y\000\007\001y\000\007\001y\000\007\001y\000\007\001y\000\007\001y\000\007\001y\000\007\001y\000\007\001y\000\f\002z0\f\002z1\f\002z2\f\002za\f\002zc\f\002ze\f\002zi\f\002zo\f\002zs\f\002zt\007\001z\000\007\001z\000\007\001z\000\007\001z\000\007\001z\000\007\001z\000\007\001z\000\007\001z\000\007\001z\000\007\001z\000\007\001z\000\007\001z\000\007\001z\000\007\001z\000\007\001z\000\007\001z\000\007\001z\000\007\001z\000\007\001z\000\007\001z\000\007\001z\000\007\001z\000\b\001&\000\b\001&\000\b\001&\000\b\001&\000\b\001&\000\b\001&\000\b\001&\000\b\001&\000\b\001&\000\b\001&\000\b\001&\000\b\001&\000\b\001&\000\b\001&\000\b\001&\000\b\001&\000\b\001*\000\b\001*\000\b\001*\000\b\001*\000\b\001*\000\b\001*\000\b\001*\000\b\001*\000\b\001*\000\b\001*\000\b\001*\000\b\001*\000\b\001*\000\b\001*\000\b\001*\000\b\001*\000\b\001,\000\b\001,\000\b\001,\000\b\001,\000\b\001,\000\b\001,\000\b\001,\000\b\001,\000\b\001,\000\b\001,\000\b\001,\000\b\001,\000\b\001,\000\b\001,\000\b\001,\000\b\001,\000\b\001;\000\b\001;\000\b\001;\000\b\001;\000\b\001;\000\b\001;\000\b\001;\000\b\001;\000\b\001;\000\b\001;\000\b\001;\000\b\001;\000\b\001;\000\b\001;\000\b\001;\000\b\001;\000\b\001X\000\b\001X\000\b\001X\000\b\001X\000\b\001X\000\b\001X\000\b\001X\000\b\001X\000\b\001X\000\b\001X\000\b\001X\000\b\001X\000\b\001X\000\b\001X\000\b\001X\000\b\001X\000\b\001Z\000\b\001Z\000\b\001Z\000\b\001Z\000\b\001Z\000\b\001Z\000\b\001Z\000\b\001Z\000\b\001Z\000\b\001Z\000\b\001Z\000\b\001Z\000\b\001Z\000\b\001Z\000\b\001Z\000\b\001Z\000\n\001!\000\n\001!\000\n\001!\000\n\001!\000\n\001\"\000\n\001\"\000\n\001\"\000\n\001\"\000\n\001(\000\n\001(\000\n\001(\000\n\001(\000\n\001)\000\n\001)\000\n\001)\000\n\001)\000\n\001?\000\n\001?\000\n\001?\000\n\001?\000\013\001'\000\013\001'\000\013\001+\000\013\001+\000\013\001|\000\013\001|\000\f\001#\000\f\001>\000\377\000\000\000\377\000\000\000\377\000\000\000\377\000\000"

	.section	__DATA,__const
	.p2align	3, 0x0
l_static.8:
	.quad	l_static.8+928
	.space	8
	.quad	l_static.8+928
	.space	8
	.quad	l_static.8+928
	.space	8
	.quad	l_static.8+888
	.asciz	"\001\000\000\000\000\000\000"
	.quad	l_static.8+736
	.asciz	"\004\000\000\000\000\000\000"
	.quad	l_static.8+656
	.asciz	"\002\000\000\000\000\000\000"
	.quad	l_static.8+496
	.asciz	"\004\000\000\000\000\000\000"
	.quad	l_static.8+232
	.asciz	"\006\000\000\000\000\000\000"
	.quad	l_static.8+144
	.asciz	"\002\000\000\000\000\000\000"
	.quad	l_static.8+218
	.asciz	"\b\000\000\000\000\000\000"
	.quad	l_static.8+217
	.asciz	"\001\000\000\000\000\000\000"
	.quad	l_static.8+209
	.asciz	"\b\000\000\000\000\000\000"
	.quad	l_static.8+208
	.asciz	"\001\000\000\000\000\000\000\000\flocationYif-range\000\000\000\000\000"
	.quad	l_static.8+485
	.asciz	"\007\000\000\000\000\000\000"
	.quad	l_static.8+478
	.asciz	"\007\000\000\000\000\000\000"
	.quad	l_static.8+471
	.asciz	"\007\000\000\000\000\000\000"
	.quad	l_static.8+469
	.asciz	"\002\000\000\000\000\000\000"
	.quad	l_static.8+462
	.asciz	"\007\000\000\000\000\000\000"
	.quad	l_static.8+448
	.asciz	"\016\000\000\000\000\000\000"
	.quad	l_static.8+441
	.asciz	"\007\000\000\000\000\000\000"
	.quad	l_static.8+440
	.asciz	"\001\000\000\000\000\000\000"
	.quad	l_static.8+433
	.asciz	"\007\000\000\000\000\000\000"
	.quad	l_static.8+432
	.asciz	"\001\000\000\000\000\000\000"
	.quad	l_static.8+425
	.asciz	"\007\000\000\000\000\000\000"
	.quad	l_static.8+424
	.asciz	"\001\000\000\000\000\000\000\000\rreferer[purposeSalt-svc\030\031\032\033\034?@ABCDEFG:status\026\027:scheme\017\020\021\022\023\024\025:method\000\000\000"
	.quad	l_static.8+647
	.asciz	"\006\000\000\000\000\000\000"
	.quad	l_static.8+645
	.asciz	"\002\000\000\000\000\000\000"
	.quad	l_static.8+639
	.asciz	"\006\000\000\000\000\000\000"
	.quad	l_static.8+638
	.asciz	"\001\000\000\000\000\000\000"
	.quad	l_static.8+632
	.asciz	"\006\000\000\000\000\000\000"
	.quad	l_static.8+631
	.asciz	"\001\000\000\000\000\000\000"
	.quad	l_static.8+625
	.asciz	"\006\000\000\000\000\000\000"
	.quad	l_static.8+624
	.asciz	"\001\000\000\000\000\000\000\000\\serverZorigin\005cookie\035\036accept\000\000"
	.quad	l_static.8+727
	.asciz	"\005\000\000\000\000\000\000"
	.quad	l_static.8+726
	.asciz	"\001\000\000\000\000\000\000"
	.quad	l_static.8+721
	.asciz	"\005\000\000\000\000\000\000"
	.quad	l_static.8+720
	.asciz	"\001\000\000\000\000\000\000\0007range\001:path\000\000\000"
	.quad	l_static.8+881
	.asciz	"\004\000\000\000\000\000\000"
	.quad	l_static.8+880
	.asciz	"\001\000\000\000\000\000\000"
	.quad	l_static.8+876
	.asciz	"\004\000\000\000\000\000\000"
	.quad	l_static.8+875
	.asciz	"\001\000\000\000\000\000\000"
	.quad	l_static.8+871
	.asciz	"\004\000\000\000\000\000\000"
	.quad	l_static.8+870
	.asciz	"\001\000\000\000\000\000\000"
	.quad	l_static.8+866
	.asciz	"\004\000\000\000\000\000\000"
	.quad	l_static.8+864
	.asciz	"\002\000\000\000\000\000\000\000;<vary\013link\007etag\006date\000\000"
	.quad	l_static.8+921
	.asciz	"\003\000\000\000\000\000\000"
	.quad	l_static.8+920
	.asciz	"\001\000\000\000\000\000\000\000\002age\000\000\000"

	.p2align	3, 0x0
l_static.9:
	.quad	l_static.9+832
	.asciz	"\002\000\000\000\000\000\000"
	.quad	l_static.9+656
	.asciz	"\004\000\000\000\000\000\000"
	.quad	l_static.9+656
	.space	8
	.quad	l_static.9+600
	.asciz	"\001\000\000\000\000\000\000"
	.quad	l_static.9+360
	.asciz	"\005\000\000\000\000\000\000"
	.quad	l_static.9+312
	.asciz	"\001\000\000\000\000\000\000"
	.quad	l_static.9+112
	.asciz	"\004\000\000\000\000\000\000"
	.quad	l_static.9+290
	.asciz	"\017\000\000\000\000\000\000"
	.quad	l_static.9+289
	.asciz	"\001\000\000\000\000\000\000"
	.quad	l_static.9+274
	.asciz	"\017\000\000\000\000\000\000"
	.quad	l_static.9+273
	.asciz	"\001\000\000\000\000\000\000"
	.quad	l_static.9+258
	.asciz	"\017\000\000\000\000\000\000"
	.quad	l_static.9+257
	.asciz	"\001\000\000\000\000\000\000"
	.quad	l_static.9+242
	.asciz	"\017\000\000\000\000\000\000"
	.quad	l_static.9+240
	.asciz	"\002\000\000\000\000\000\000\000abx-frame-options`x-forwarded-forHaccept-language\037accept-encoding\000\000\000\000\000\000"
	.quad	l_static.9+345
	.asciz	"\016\000\000\000\000\000\000"
	.quad	l_static.9+344
	.asciz	"\001\000\000\000\000\000\000\000\004content-length"
	.quad	l_static.9+582
	.asciz	"\r\000\000\000\000\000\000"
	.quad	l_static.9+581
	.asciz	"\001\000\000\000\000\000\000"
	.quad	l_static.9+568
	.asciz	"\r\000\000\000\000\000\000"
	.quad	l_static.9+567
	.asciz	"\001\000\000\000\000\000\000"
	.quad	l_static.9+554
	.asciz	"\r\000\000\000\000\000\000"
	.quad	l_static.9+548
	.asciz	"\006\000\000\000\000\000\000"
	.quad	l_static.9+535
	.asciz	"\r\000\000\000\000\000\000"
	.quad	l_static.9+534
	.asciz	"\001\000\000\000\000\000\000"
	.quad	l_static.9+521
	.asciz	"\r\000\000\000\000\000\000"
	.quad	l_static.9+520
	.asciz	"\001\000\000\000\000\000\000\000\nlast-modified\tif-none-match$%&'()cache-controlTauthorization accept-ranges\000\000\000\000"
	.quad	l_static.9+643
	.asciz	"\f\000\000\000\000\000\000"
	.quad	l_static.9+632
	.asciz	"\013\000\000\000\000\000\000\000,-./0123456content-type"
	.quad	l_static.9+818
	.asciz	"\n\000\000\000\000\000\000"
	.quad	l_static.9+817
	.asciz	"\001\000\000\000\000\000\000"
	.quad	l_static.9+807
	.asciz	"\n\000\000\000\000\000\000"
	.quad	l_static.9+806
	.asciz	"\001\000\000\000\000\000\000"
	.quad	l_static.9+796
	.asciz	"\n\000\000\000\000\000\000"
	.quad	l_static.9+795
	.asciz	"\001\000\000\000\000\000\000"
	.quad	l_static.9+785
	.asciz	"\n\000\000\000\000\000\000"
	.quad	l_static.9+784
	.asciz	"\001\000\000\000\000\000\000\000_user-agent\016set-cookieVearly-data\000:authority\000\000\000"
	.quad	l_static.9+907
	.asciz	"\t\000\000\000\000\000\000"
	.quad	l_static.9+906
	.asciz	"\001\000\000\000\000\000\000"
	.quad	l_static.9+897
	.asciz	"\t\000\000\000\000\000\000"
	.quad	l_static.9+896
	.asciz	"\001\000\000\000\000\000\000\000XforwardedWexpect-ct\000\000\000"

	.p2align	3, 0x0
l_static.10:
	.quad	l_static.10+1120
	.asciz	"\002\000\000\000\000\000\000"
	.quad	l_static.10+1064
	.asciz	"\001\000\000\000\000\000\000"
	.quad	l_static.10+1064
	.space	8
	.quad	l_static.10+960
	.asciz	"\002\000\000\000\000\000\000"
	.quad	l_static.10+1064
	.space	8
	.quad	l_static.10+1064
	.space	8
	.quad	l_static.10+904
	.asciz	"\001\000\000\000\000\000\000"
	.quad	l_static.10+848
	.asciz	"\001\000\000\000\000\000\000"
	.quad	l_static.10+1064
	.space	8
	.quad	l_static.10+728
	.asciz	"\002\000\000\000\000\000\000"
	.quad	l_static.10+1064
	.space	8
	.quad	l_static.10+664
	.asciz	"\001\000\000\000\000\000\000"
	.quad	l_static.10+536
	.asciz	"\002\000\000\000\000\000\000"
	.quad	l_static.10+408
	.asciz	"\002\000\000\000\000\000\000"
	.quad	l_static.10+344
	.asciz	"\001\000\000\000\000\000\000"
	.quad	l_static.10+1064
	.space	8
	.quad	l_static.10+272
	.asciz	"\001\000\000\000\000\000\000"
	.quad	l_static.10+306
	.asciz	" \000\000\000\000\000\000"
	.quad	l_static.10+304
	.asciz	"\002\000\000\000\000\000\000\000IJaccess-control-allow-credentials\000\000\000\000\000"
	.quad	l_static.10+377
	.asciz	"\036\000\000\000\000\000\000"
	.quad	l_static.10+376
	.asciz	"\001\000\000\000\000\000\000\000Paccess-control-request-headers"
	.quad	l_static.10+504
	.asciz	"\035\000\000\000\000\000\000"
	.quad	l_static.10+503
	.asciz	"\001\000\000\000\000\000\000"
	.quad	l_static.10+474
	.asciz	"\035\000\000\000\000\000\000"
	.quad	l_static.10+472
	.asciz	"\002\000\000\000\000\000\000\000QRaccess-control-request-methodOaccess-control-expose-headers\000\000"
	.quad	l_static.10+634
	.asciz	"\034\000\000\000\000\000\000"
	.quad	l_static.10+631
	.asciz	"\003\000\000\000\000\000\000"
	.quad	l_static.10+603
	.asciz	"\034\000\000\000\000\000\000"
	.quad	l_static.10+600
	.asciz	"\003\000\000\000\000\000\000\000LMNaccess-control-allow-methods!\"Kaccess-control-allow-headers\000"
	.quad	l_static.10+697
	.asciz	"\033\000\000\000\000\000\000"
	.quad	l_static.10+696
	.asciz	"\001\000\000\000\000\000\000\000#access-control-allow-origin\000\000\000"
	.quad	l_static.10+821
	.asciz	"\031\000\000\000\000\000\000"
	.quad	l_static.10+818
	.asciz	"\003\000\000\000\000\000\000"
	.quad	l_static.10+793
	.asciz	"\031\000\000\000\000\000\000"
	.quad	l_static.10+792
	.asciz	"\001\000\000\000\000\000\000\000^upgrade-insecure-requests89:strict-transport-security\000"
	.quad	l_static.10+881
	.asciz	"\027\000\000\000\000\000\000"
	.quad	l_static.10+880
	.ascii	"\001\000\000\000\000\000\000\000Ucontent-security-policy"
	.quad	l_static.10+937
	.asciz	"\026\000\000\000\000\000\000"
	.quad	l_static.10+936
	.asciz	"\001\000\000\000\000\000\000\000=x-content-type-options"
	.quad	l_static.10+1045
	.asciz	"\023\000\000\000\000\000\000"
	.quad	l_static.10+1044
	.asciz	"\001\000\000\000\000\000\000"
	.quad	l_static.10+1025
	.asciz	"\023\000\000\000\000\000\000"
	.quad	l_static.10+1024
	.ascii	"\001\000\000\000\000\000\000\000]timing-allow-origin\003content-disposition"
	.quad	l_static.10+1097
	.asciz	"\021\000\000\000\000\000\000"
	.quad	l_static.10+1096
	.asciz	"\001\000\000\000\000\000\000\000\bif-modified-since\000\000\000\000\000"
	.quad	l_static.10+1203
	.asciz	"\020\000\000\000\000\000\000"
	.quad	l_static.10+1201
	.asciz	"\002\000\000\000\000\000\000"
	.quad	l_static.10+1185
	.asciz	"\020\000\000\000\000\000\000"
	.quad	l_static.10+1184
	.asciz	"\001\000\000\000\000\000\000\000>x-xss-protection*+content-encoding\000\000\000\000"

	.section	__TEXT,__const
	.p2align	2, 0x0
l_static.12:
	.ascii	"\r\000\000\000\370\037\000\000\027\000\000\000\330\377\177\000\034\000\000\000\342\377\377\017\034\000\000\000\343\377\377\017\034\000\000\000\344\377\377\017\034\000\000\000\345\377\377\017\034\000\000\000\346\377\377\017\034\000\000\000\347\377\377\017\034\000\000\000\350\377\377\017\030\000\000\000\352\377\377\000\036\000\000\000\374\377\377?\034\000\000\000\351\377\377\017\034\000\000\000\352\377\377\017\036\000\000\000\375\377\377?\034\000\000\000\353\377\377\017\034\000\000\000\354\377\377\017\034\000\000\000\355\377\377\017\034\000\000\000\356\377\377\017\034\000\000\000\357\377\377\017\034\000\000\000\360\377\377\017\034\000\000\000\361\377\377\017\034\000\000\000\362\377\377\017\036\000\000\000\376\377\377?\034\000\000\000\363\377\377\017\034\000\000\000\364\377\377\017\034\000\000\000\365\377\377\017\034\000\000\000\366\377\377\017\034\000\000\000\367\377\377\017\034\000\000\000\370\377\377\017\034\000\000\000\371\377\377\017\034\000\000\000\372\377\377\017\034\000\000\000\373\377\377\017\006\000\000\000\024\000\000\000\n\000\000\000\370\003\000\000\n\000\000\000\371\003\000\000\f\000\000\000\372\017\000\000\r\000\000\000\371\037\000\000\006\000\000\000\025\000\000\000\b\000\000\000\370\000\000\000\013\000\000\000\372\007\000\000\n\000\000\000\372\003\000\000\n\000\000\000\373\003\000\000\b\000\000\000\371\000\000\000\013\000\000\000\373\007\000\000\b\000\000\000\372\000\000\000\006\000\000\000\026\000\000\000\006\000\000\000\027\000\000\000\006\000\000\000\030\000\000\000\005\000\000\000\000\000\000\000\005\000\000\000\001\000\000\000\005\000\000\000\002\000\000\000\006\000\000\000\031\000\000\000\006\000\000\000\032\000\000\000\006\000\000\000\033\000\000\000\006\000\000\000\034\000\000\000\006\000\000\000\035\000\000\000\006\000\000\000\036\000\000\000\006\000\000\000\037\000\000\000\007\000\000\000\\\000\000\000\b\000\000\000\373\000\000\000\017\000\000\000\374\177\000\000\006\000\000\000 \000\000\000\f\000\000\000\373\017\000\000\n\000\000\000\374\003\000\000\r\000\000\000\372\037\000\000\006\000\000\000!\000\000\000\007\000\000\000]\000\000\000\007\000\000\000^\000\000\000\007\000\000\000_\000\000\000\007\000\000\000`\000\000\000\007\000\000\000a\000\000\000\007\000\000\000b\000\000\000\007\000\000\000c\000\000\000\007\000\000\000d\000\000\000\007\000\000\000e\000\000\000\007\000\000\000f\000\000\000\007\000\000\000g\000\000\000\007\000\000\000h\000\000\000\007\000\000\000i\000\000\000\007\000\000\000j\000\000\000\007\000\000\000k\000\000\000\007\000\000\000l\000\000\000\007\000\000\000m\000\000\000\007\000\000\000n\000\000\000\007\000\000\000o\000\000\000\007\000\000\000p\000\000\000\007\000\000\000q\000\000\000\007\000\000\000r\000\000\000\b\000\000\000\374\000\000\000\007\000\000\000s\000\000\000\b\000\000\000\375\000\000\000\r\000\000\000\373\037\000\000\023\000\000\000\360\377\007\000\r\000\000\000\374\037\000\000\016\000\000\000\374?\000\000\006\000\000\000\"\000\000\000\017\000\000\000\375\177\000\000\005\000\000\000\003\000\000\000\006\000\000\000#\000\000\000\005\000\000\000\004\000\000\000\006\000\000\000$\000\000\000\005\000\000\000\005\000\000\000\006\000\000\000%\000\000\000\006\000\000\000&\000\000\000\006\000\000\000'\000\000\000\005\000\000\000\006\000\000\000\007\000\000\000t\000\000\000\007\000\000\000u\000\000\000\006\000\000\000(\000\000\000\006\000\000\000)\000\000\000\006\000\000\000*\000\000\000\005\000\000\000\007\000\000\000\006\000\000\000+\000\000\000\007\000\000\000v\000\000\000\006\000\000\000,\000\000\000\005\000\000\000\b\000\000\000\005\000\000\000\t\000\000\000\006\000\000\000-\000\000\000\007\000\000\000w\000\000\000\007\000\000\000x\000\000\000\007\000\000\000y\000\000\000\007\000\000\000z\000\000\000\007\000\000\000{\000\000\000\017\000\000\000\376\177\000\000\013\000\000\000\374\007\000\000\016\000\000\000\375?\000\000\r\000\000\000\375\037\000\000\034\000\000\000\374\377\377\017\024\000\000\000\346\377\017\000\026\000\000\000\322\377?\000\024\000\000\000\347\377\017\000\024\000\000\000\350\377\017\000\026\000\000\000\323\377?\000\026\000\000\000\324\377?\000\026\000\000\000\325\377?\000\027\000\000\000\331\377\177\000\026\000\000\000\326\377?\000\027\000\000\000\332\377\177\000\027\000\000\000\333\377\177\000\027\000\000\000\334\377\177\000\027\000\000\000\335\377\177\000\027\000\000\000\336\377\177\000\030\000\000\000\353\377\377\000\027\000\000\000\337\377\177\000\030\000\000\000\354\377\377\000\030\000\000\000\355\377\377\000\026\000\000\000\327\377?\000\027\000\000\000\340\377\177\000\030\000\000\000\356\377\377\000\027\000\000\000\341\377\177\000\027\000\000\000\342\377\177\000\027\000\000\000\343\377\177\000\027\000\000\000\344\377\177\000\025\000\000\000\334\377\037\000\026\000\000\000\330\377?\000\027\000\000\000\345\377\177\000\026\000\000\000\331\377?\000\027\000\000\000\346\377\177\000\027\000\000\000\347\377\177\000\030\000\000\000\357\377\377\000\026\000\000\000\332\377?\000\025\000\000\000\335\377\037\000\024\000\000\000\351\377\017\000\026\000\000\000\333\377?\000\026\000\000\000\334\377?\000\027\000\000\000\350\377\177\000\027\000\000\000\351\377\177\000\025\000\000\000\336\377\037\000\027\000\000\000\352\377\177\000\026\000\000\000\335\377?\000\026\000\000\000\336\377?\000\030\000\000\000\360\377\377\000\025\000\000\000\337\377\037\000\026\000\000\000\337\377?\000\027\000\000\000\353\377\177\000\027\000\000\000\354\377\177\000\025\000\000\000\340\377\037\000\025\000\000\000\341\377\037\000\026\000\000\000\340\377?\000\025\000\000\000\342\377\037\000\027\000\000\000\355\377\177\000\026\000\000\000\341\377?\000\027\000\000\000\356\377\177\000\027\000\000\000\357\377\177\000\024\000\000\000\352\377\017\000\026\000\000\000\342\377?\000\026\000\000\000\343\377?\000\026\000\000\000\344\377?\000\027\000\000\000\360\377\177\000\026\000\000\000\345\377?\000\026\000\000\000\346\377?\000\027\000\000\000\361\377\177\000\032\000\000\000\340\377\377\003\032\000\000\000\341\377\377\003\024\000\000\000\353\377\017\000\023\000\000\000\361\377\007\000\026\000\000\000\347\377?\000\027\000\000\000\362\377\177\000\026\000\000\000\350\377?\000\031\000\000\000\354\377\377\001\032\000\000\000\342\377\377\003\032\000\000\000\343\377\377\003\032\000\000\000\344\377\377\003\033\000\000\000\336\377\377\007\033\000\000\000\337\377\377\007\032\000\000\000\345\377\377\003\030\000\000\000\361\377\377\000\031\000\000\000\355\377\377\001\023\000\000\000\362\377\007\000\025\000\000\000\343\377\037\000\032\000\000\000\346\377\377\003\033\000\000\000\340\377\377\007\033\000\000\000\341\377\377\007\032\000\000\000\347\377\377\003\033\000\000\000\342\377\377\007\030\000\000\000\362\377\377\000\025\000\000\000\344\377\037\000\025\000\000\000\345\377\037\000\032\000\000\000\350\377\377\003\032\000\000\000\351\377\377\003\034\000\000\000\375\377\377\017\033\000\000\000\343\377\377\007\033\000\000\000\344\377\377\007\033\000\000\000\345\377\377\007\024\000\000\000\354\377\017\000\030\000\000\000\363\377\377\000\024\000\000\000\355\377\017\000\025\000\000\000\346\377\037\000\026\000\000\000\351\377?\000\025\000\000\000\347\377\037\000\025\000\000\000\350\377\037\000\027\000\000\000\363\377\177\000\026\000\000\000\352\377?\000\026\000\000\000\353\377?\000\031\000\000\000\356\377\377\001\031\000\000\000\357\377\377\001\030\000\000\000\364\377\377\000\030\000\000\000\365\377\377\000\032\000\000\000\352\377\377\003\027\000\000\000\364\377\177\000\032\000\000\000\353\377\377\003\033\000\000\000\346\377\377\007\032\000\000\000\354\377\377\003\032\000\000\000\355\377\377\003\033\000\000\000\347\377\377\007\033\000\000\000\350\377\377\007\033\000\000\000\351\377\377\007\033\000\000\000\352\377\377\007\033\000\000\000\353\377\377\007\034\000\000\000\376\377\377\017\033\000\000\000\354\377\377\007\033\000\000\000\355\377\377\007\033\000\000\000\356\377\377\007\033\000\000\000\357\377\377\007\033\000\000\000\360\377\377\007\032\000\000\000\356\377\377\003"

	.section	__TEXT,__literal16,16byte_literals
	.p2align	2, 0x0
l_switch.table.h3q_decoder_prefix:
	.long	512
	.long	512
	.long	4294967291
	.long	4294967295

	.section	__TEXT,__const
	.p2align	3, 0x0
l_switch.table.h3q_decode_stateless.776:
	.quad	0
	.quad	0
	.quad	0
	.quad	3
	.quad	0
	.quad	3

	.p2align	2, 0x0
l_switch.table.h3q_encoder_encode:
	.long	514
	.long	4294967292
	.long	4294967290
	.long	4294967292
	.long	514
	.long	265
	.long	4294967292
	.long	4294967295

.subsections_via_symbols
