	.file	"rattle"
	.section	".text.balaban::index","ax",@progbits
	.p2align	2                               // -- Begin function balaban::index
	.type	"balaban::index",@function
"balaban::index":                       // @"balaban::index"
// %bb.0:                               // %start
	stp	x29, x30, [sp, #-64]!           // 16-byte Folded Spill
	stp	x28, x23, [sp, #16]             // 16-byte Folded Spill
	mov	x29, sp
	stp	x22, x21, [sp, #32]             // 16-byte Folded Spill
	stp	x20, x19, [sp, #48]             // 16-byte Folded Spill
	sub	sp, sp, #1088
	movi	v0.2d, #0000000000000000
	mov	x19, x0
	cmp	x3, #384
	str	xzr, [sp]
	str	xzr, [sp, #560]
	stp	q0, q0, [sp]
	stp	q0, q0, [sp, #32]
	stp	q0, q0, [sp, #64]
	stp	q0, q0, [sp, #96]
	stp	q0, q0, [sp, #128]
	stp	q0, q0, [sp, #160]
	stp	q0, q0, [sp, #192]
	stp	q0, q0, [sp, #224]
	stp	q0, q0, [sp, #256]
	stp	q0, q0, [sp, #288]
	stp	q0, q0, [sp, #320]
	stp	q0, q0, [sp, #352]
	stp	q0, q0, [sp, #384]
	stp	q0, q0, [sp, #416]
	stp	q0, q0, [sp, #448]
	stp	q0, q0, [sp, #480]
	stp	q0, q0, [sp, #528]
	str	q0, [sp, #512]
	str	q0, [sp, #1072]
	str	q0, [sp, #1056]
	str	q0, [sp, #1040]
	stp	q0, q0, [sp, #592]
	stp	q0, q0, [sp, #624]
	stp	q0, q0, [sp, #656]
	stp	q0, q0, [sp, #688]
	stp	q0, q0, [sp, #720]
	stp	q0, q0, [sp, #752]
	stp	q0, q0, [sp, #784]
	stp	q0, q0, [sp, #816]
	stp	q0, q0, [sp, #848]
	stp	q0, q0, [sp, #880]
	stp	q0, q0, [sp, #912]
	stp	q0, q0, [sp, #944]
	stp	q0, q0, [sp, #976]
	stp	q0, q0, [sp, #1008]
	str	q0, [sp, #576]
	b.hi	.LBB0_19
// %bb.1:                               // %start
	sub	x8, x1, #65
	cmn	x8, #64
	b.lo	.LBB0_19
// %bb.2:                               // %start
	tbnz	w3, #0, .LBB0_19
// %bb.3:                               // %after.1.i.i.i
	lsr	x20, x3, #1
	cbz	x3, .LBB0_8
// %bb.4:                               // %join.5.i.i.i.i.preheader
	add	x9, x2, #1
	mov	x10, x20
.LBB0_5:                                // %join.5.i.i.i.i
                                        // =>This Inner Loop Header: Depth=1
	ldurb	w8, [x9, #-1]
	sub	x11, x8, #1
	cmp	x11, x1
	b.hs	.LBB0_9
// %bb.6:                               // %else.9.i.i.i.i
                                        //   in Loop: Header=BB0_5 Depth=1
	ldrb	w8, [x9], #2
	sub	x12, x8, #1
	cmp	x12, x1
	b.hs	.LBB0_12
// %bb.7:                               // %after.6.i.i.i.i
                                        //   in Loop: Header=BB0_5 Depth=1
	mov	w8, #1                          // =0x1
	add	x13, sp, #576
	subs	x10, x10, #1
	lsl	x14, x8, x12
	ldr	x15, [x13, x11, lsl #3]
	orr	x14, x15, x14
	str	x14, [x13, x11, lsl #3]
	lsl	x11, x8, x11
	ldr	x14, [x13, x12, lsl #3]
	orr	x11, x14, x11
	str	x11, [x13, x12, lsl #3]
	b.ne	.LBB0_5
	b	.LBB0_10
.LBB0_8:
	mov	w8, #1                          // =0x1
	cmp	x1, #4
	b.lo	.LBB0_11
	b	.LBB0_13
.LBB0_9:
	mov	w8, wzr
.LBB0_10:                               // %"block::bonding::sketched.exit.i.i.i"
	cmp	x1, #4
	b.hs	.LBB0_13
.LBB0_11:
	mov	x11, xzr
	mov	x10, xzr
	mov	x9, xzr
	b	.LBB0_16
.LBB0_12:
	mov	w8, wzr
	cmp	x1, #4
	b.lo	.LBB0_11
.LBB0_13:                               // %vector.ph
	movi	v0.2d, #0000000000000000
	movi	v1.2d, #0000000000000000
	add	x10, sp, #576
	movi	v2.2d, #0000000000000000
	movi	v3.2d, #0000000000000000
	and	x9, x1, #0x7c
	add	x10, x10, #16
	and	x11, x1, #0x7c
.LBB0_14:                               // %vector.body
                                        // =>This Inner Loop Header: Depth=1
	ldp	q4, q5, [x10, #-16]
	mov	w12, #1                         // =0x1
	dup	v6.2d, x12
	subs	x11, x11, #4
	add	x10, x10, #32
	cnt	v4.16b, v4.16b
	cnt	v5.16b, v5.16b
	mov	v7.16b, v6.16b
	uaddlp	v4.8h, v4.16b
	uaddlp	v5.8h, v5.16b
	uaddlp	v4.4s, v4.8h
	uaddlp	v5.4s, v5.8h
	uadalp	v7.2d, v4.4s
	uadalp	v6.2d, v5.4s
	uadalp	v0.2d, v4.4s
	uadalp	v1.2d, v5.4s
	orr	v2.16b, v7.16b, v2.16b
	orr	v3.16b, v6.16b, v3.16b
	b.ne	.LBB0_14
// %bb.15:                              // %middle.block
	orr	v2.16b, v3.16b, v2.16b
	add	v0.2d, v1.2d, v0.2d
	cmp	x1, x9
	ext	v1.16b, v2.16b, v2.16b, #8
	addp	d0, v0.2d
	orr	v1.8b, v2.8b, v1.8b
	fmov	x11, d0
	fmov	x10, d1
	b.eq	.LBB0_18
.LBB0_16:                               // %join.5.i12.i.i.i.preheader
	add	x12, sp, #576
	add	x12, x12, x9, lsl #3
	sub	x9, x1, x9
.LBB0_17:                               // %join.5.i12.i.i.i
                                        // =>This Inner Loop Header: Depth=1
	ldr	d0, [x12], #8
	subs	x9, x9, #1
	cnt	v0.8b, v0.8b
	addv	b0, v0.8b
	fmov	x13, d0
	add	x14, x13, #1
	add	x11, x13, x11
	orr	x10, x14, x10
	b.ne	.LBB0_17
.LBB0_18:                               // %"block::bonding::is_plain.exit.i.i.i"
	cmp	x11, x3
	csel	w8, wzr, w8, ne
	cmp	w8, #1
	ccmp	x10, #7, #2, eq
	b.ls	.LBB0_21
.LBB0_19:                               // %arm.6.i
	mov	x0, x1
	mov	x1, x2
	mov	x2, x3
	bl	"block::refusal"
.LBB0_20:                               // %arm.4
	mov	w8, #1                          // =0x1
	str	x1, [x19, #16]
	stp	x8, x0, [x19]
	add	sp, sp, #1088
	ldp	x20, x19, [sp, #48]             // 16-byte Folded Reload
	ldp	x22, x21, [sp, #32]             // 16-byte Folded Reload
	ldp	x28, x23, [sp, #16]             // 16-byte Folded Reload
	ldp	x29, x30, [sp], #64             // 16-byte Folded Reload
	ret
.LBB0_21:                               // %arm.5.i
	add	x0, sp, #512
	add	x4, sp, #576
	mov	x6, sp
	mov	x5, x1
	mov	x21, x2
	mov	x23, x3
	mov	x22, x1
	bl	"reach::summed"
	ldrb	w10, [sp, #512]
	cmp	w10, #1
	b.ne	.LBB0_23
// %bb.22:                              // %arm.9.i
	ldr	x0, [sp, #520]
	ldr	x1, [sp, #528]
	b	.LBB0_20
.LBB0_23:                               // %join.5.lr.ph.i.i
	cmp	x23, #0
	ldr	x9, [sp, #560]
	mov	x11, x23
	cset	w8, ne
	cmp	x22, #4
	neg	x12, x8
	mov	x8, x22
	madd	x12, x9, x22, x12
	b.hs	.LBB0_25
// %bb.24:
	mov	x13, xzr
	mov	x9, x21
	b	.LBB0_28
.LBB0_25:                               // %vector.ph30
	dup	v0.2d, x12
	mov	x9, sp
	and	x13, x8, #0x7c
	add	x14, x9, #16
	and	x15, x8, #0x7c
	mov	x9, x21
.LBB0_26:                               // %vector.body33
                                        // =>This Inner Loop Header: Depth=1
	ldp	q1, q2, [x14, #-16]
	subs	x15, x15, #4
	sub	v1.2d, v0.2d, v1.2d
	sub	v2.2d, v0.2d, v2.2d
	stp	q1, q2, [x14, #-16]
	add	x14, x14, #32
	b.ne	.LBB0_26
// %bb.27:                              // %middle.block38
	cmp	x8, x13
	b.eq	.LBB0_30
.LBB0_28:                               // %join.5.i5.i.preheader
	mov	x14, sp
	add	x14, x14, x13, lsl #3
	sub	x13, x8, x13
.LBB0_29:                               // %join.5.i5.i
                                        // =>This Inner Loop Header: Depth=1
	ldr	x15, [x14]
	subs	x13, x13, #1
	sub	x15, x12, x15
	str	x15, [x14], #8
	b.ne	.LBB0_29
.LBB0_30:                               // %"reach::vertex_sums.exit"
	cbz	w10, .LBB0_32
// %bb.31:
	mov	x0, xzr
	mov	x1, xzr
	b	.LBB0_20
.LBB0_32:                               // %arm.3
	cbz	x11, .LBB0_41
// %bb.33:                              // %join.5.i.preheader
	mov	x10, xzr
	mov	x11, xzr
	b	.LBB0_36
.LBB0_34:                               //   in Loop: Header=BB0_36 Depth=1
	mov	x13, xzr
.LBB0_35:                               // %"balaban::brings.exit.i"
                                        //   in Loop: Header=BB0_36 Depth=1
	add	x11, x11, #1
	add	x10, x13, x10
	cmp	x11, x20
	b.eq	.LBB0_40
.LBB0_36:                               // %join.5.i
                                        // =>This Loop Header: Depth=1
                                        //     Child Loop BB0_38 Depth 2
                                        //     Child Loop BB0_39 Depth 2
	add	x12, x9, x11, lsl #1
	mov	x14, sp
	ldrb	w13, [x12]
	ldrb	w12, [x12, #1]
	add	x13, x14, x13, lsl #3
	add	x12, x14, x12, lsl #3
	ldur	x13, [x13, #-8]
	ldur	x12, [x12, #-8]
	mul	x12, x12, x13
	cbz	x12, .LBB0_34
// %bb.37:                              // %ok.5.i.i.i
                                        //   in Loop: Header=BB0_36 Depth=1
	clz	x13, x12
	mov	w15, #39                        // =0x27
	mov	x16, #1245                      // =0x4dd
	and	x14, x13, #0x3e
	movk	x16, #4345, lsl #16
	mov	w18, #-1073741824               // =0xc0000000
	lsl	x14, x12, x14
	movk	x16, #1, lsl #32
	lsr	x13, x13, #1
	lsr	x14, x14, #32
	eor	x13, x13, #0x1f
	umull	x15, w14, w15
	sub	x15, x16, x15, lsr #6
	mov	w16, #-1                        // =0xffffffff
	cmp	x15, x16
	csel	x15, x15, x16, lo
	mul	x17, x15, x15
	lsr	x17, x17, #32
	umull	x17, w17, w14
	subs	x17, x18, x17, lsr #32
	csel	x17, xzr, x17, lo
	mul	x15, x17, x15
	lsr	x15, x15, #31
	and	x15, x15, #0x1fffffffe
	cmp	x15, x16
	csel	x15, x15, x16, lo
	mul	x17, x15, x15
	lsr	x17, x17, #32
	umull	x17, w17, w14
	subs	x17, x18, x17, lsr #32
	csel	x17, xzr, x17, lo
	mul	x15, x17, x15
	lsr	x15, x15, #31
	and	x15, x15, #0x1fffffffe
	cmp	x15, x16
	csel	x15, x15, x16, lo
	mul	x17, x15, x15
	lsr	x17, x17, #32
	umull	x14, w17, w14
	subs	x14, x18, x14, lsr #32
	csel	x14, xzr, x14, lo
	mul	x14, x14, x15
	mov	x15, #2808348672                // =0xa7640000
	movk	x15, #46771, lsl #32
	movk	x15, #3552, lsl #48
	udiv	x12, x15, x12
	mov	w15, #51712                     // =0xca00
	movk	w15, #15258, lsl #16
	lsr	x14, x14, #31
	and	x14, x14, #0x1fffffffe
	cmp	x14, x16
	csel	x14, x14, x16, lo
	mul	x14, x14, x15
	lsr	x14, x14, #32
	lsr	x14, x14, x13
	sub	x15, x14, #1
.LBB0_38:                               // %loop.2.i.i.i.i
                                        //   Parent Loop BB0_36 Depth=1
                                        // =>  This Inner Loop Header: Depth=2
	mul	x16, x14, x14
	mov	x13, x15
	sub	x14, x14, #1
	sub	x15, x15, #1
	cmp	x12, x16
	b.lo	.LBB0_38
.LBB0_39:                               // %loop.2.i4.i.i.i
                                        //   Parent Loop BB0_36 Depth=1
                                        // =>  This Inner Loop Header: Depth=2
	add	x14, x13, #2
	add	x13, x13, #1
	mul	x14, x14, x14
	cmp	x14, x12
	b.ls	.LBB0_39
	b	.LBB0_35
.LBB0_40:                               // %after.1.loopexit.i
	mul	x9, x10, x20
	b	.LBB0_42
.LBB0_41:
	mov	x9, xzr
.LBB0_42:                               // %after.1.i
	add	x10, x20, #2
	subs	x8, x10, x8
	b.eq	.LBB0_44
// %bb.43:                              // %"balaban::reckon.exit"
	udiv	x8, x9, x8
	str	xzr, [x19, #16]
	stp	xzr, x8, [x19]
	add	sp, sp, #1088
	ldp	x20, x19, [sp, #48]             // 16-byte Folded Reload
	ldp	x22, x21, [sp, #32]             // 16-byte Folded Reload
	ldp	x28, x23, [sp, #16]             // 16-byte Folded Reload
	ldp	x29, x30, [sp], #64             // 16-byte Folded Reload
	ret
.LBB0_44:                               // %trap.1.i.i
	brk	#0x1
.Lfunc_end0:
	.size	"balaban::index", .Lfunc_end0-"balaban::index"
                                        // -- End function
	.section	".text.block::refusal","ax",@progbits
	.p2align	2                               // -- Begin function block::refusal
	.type	"block::refusal",@function
"block::refusal":                       // @"block::refusal"
// %bb.0:                               // %start
	sub	x8, x0, #65
	cmn	x8, #64
	b.hs	.LBB1_3
// %bb.1:
	mov	x8, xzr
	mov	w9, #1                          // =0x1
.LBB1_2:                                // %return.4
	mov	x0, x9
	mov	x1, x8
	ret
.LBB1_3:                                // %join.3
	mov	x8, xzr
	cmp	x2, #384
	mov	w9, #2                          // =0x2
	b.hi	.LBB1_2
// %bb.4:                               // %join.3
	tbnz	w2, #0, .LBB1_2
// %bb.5:                               // %after.5
	cbz	x2, .LBB1_45
// %bb.6:                               // %join.5.i.preheader
	stp	d9, d8, [sp, #-16]!             // 16-byte Folded Spill
	lsr	x13, x2, #1
	mov	x11, xzr
	mov	x12, xzr
	mov	x10, xzr
	add	x14, x1, #1
	mov	x15, #9223372036854775807       // =0x7fffffffffffffff
	b	.LBB1_9
.LBB1_7:                                // %"block::bonding::fault.exit.i"
                                        //   in Loop: Header=BB1_9 Depth=1
	cmp	x2, #6
	b.hs	.LBB1_49
.LBB1_8:                                // %join.9.i
                                        //   in Loop: Header=BB1_9 Depth=1
	add	x10, x10, #1
	mov	x8, xzr
	add	x12, x12, #2
	cmp	x10, x13
	add	x15, x15, #1
	sub	x11, x11, #2
	mov	w9, #7                          // =0x7
	b.eq	.LBB1_48
.LBB1_9:                                // %join.5.i
                                        // =>This Loop Header: Depth=1
                                        //     Child Loop BB1_13 Depth 2
                                        //     Child Loop BB1_24 Depth 2
                                        //     Child Loop BB1_21 Depth 2
                                        //     Child Loop BB1_29 Depth 2
                                        //     Child Loop BB1_39 Depth 2
                                        //     Child Loop BB1_36 Depth 2
                                        //     Child Loop BB1_44 Depth 2
	add	x8, x1, x10, lsl #1
	ldrb	w2, [x8]
	ldrb	w8, [x8, #1]
	sub	x9, x2, #1
	sub	x16, x8, #1
	cmp	x9, x0
	ccmp	x16, x0, #2, lo
	b.hs	.LBB1_46
// %bb.10:                              // %after.1.i.i
                                        //   in Loop: Header=BB1_9 Depth=1
	cmp	w2, w8
	b.eq	.LBB1_47
// %bb.11:                              // %join.14.i.i
                                        //   in Loop: Header=BB1_9 Depth=1
	cbz	x10, .LBB1_8
// %bb.12:                              //   in Loop: Header=BB1_9 Depth=1
	and	x9, x15, #0x7fffffffffffffff
	sub	x16, x10, #1
	add	x4, x1, #1
	add	x9, x9, #1
	and	x3, x16, #0x7fffffffffffffff
	mov	x5, x12
	and	x17, x9, #0xfffffffffffffff8
	and	x18, x9, #0xfffffffffffffff0
	add	x16, x3, #1
.LBB1_13:                               // %join.5.i.i.i
                                        //   Parent Loop BB1_9 Depth=1
                                        // =>  This Inner Loop Header: Depth=2
	ldurb	w9, [x4, #-1]
	ldrb	w7, [x4], #2
	cmp	w9, w8
	ccmp	w7, w2, #0, eq
	cset	w6, eq
	cmp	w7, w8
	ccmp	w9, w2, #0, eq
	mov	w9, #5                          // =0x5
	b.eq	.LBB1_50
// %bb.14:                              // %join.5.i.i.i
                                        //   in Loop: Header=BB1_13 Depth=2
	tbnz	w6, #0, .LBB1_50
// %bb.15:                              // %loop.2.i.i.i
                                        //   in Loop: Header=BB1_13 Depth=2
	subs	x5, x5, #2
	b.ne	.LBB1_13
// %bb.16:                              // %iter.check37
                                        //   in Loop: Header=BB1_9 Depth=1
	cmp	x3, #7
	b.hs	.LBB1_18
// %bb.17:                              //   in Loop: Header=BB1_9 Depth=1
	mov	x5, xzr
	mov	x4, xzr
	b	.LBB1_28
.LBB1_18:                               // %vector.main.loop.iter.check39
                                        //   in Loop: Header=BB1_9 Depth=1
	cmp	x3, #15
	b.hs	.LBB1_23
// %bb.19:                              //   in Loop: Header=BB1_9 Depth=1
	mov	x9, xzr
	mov	x5, xzr
.LBB1_20:                               // %vec.epilog.ph59
                                        //   in Loop: Header=BB1_9 Depth=1
	movi	v2.2d, #0000000000000000
	movi	v0.2d, #0000000000000000
	add	x6, x1, x9, lsl #1
	dup	v1.8b, w2
	movi	v3.2d, #0000000000000000
	sub	x9, x9, x17
	movi	v4.2d, #0000000000000000
	mov	v2.d[0], x5
	and	x5, x16, #0xfffffffffffffff8
	lsl	x4, x5, #1
.LBB1_21:                               // %vec.epilog.vector.body64
                                        //   Parent Loop BB1_9 Depth=1
                                        // =>  This Inner Loop Header: Depth=2
	ld2	{ v5.8b, v6.8b }, [x6], #16
	mov	w7, #1                          // =0x1
	dup	v17.2d, x7
	adds	x9, x9, #8
	cmeq	v7.8b, v5.8b, v1.8b
	cmeq	v5.8b, v6.8b, v1.8b
	ushll	v6.8h, v7.8b, #0
	ushll	v5.8h, v5.8b, #0
	ushll2	v7.4s, v6.8h, #0
	ushll	v6.4s, v6.4h, #0
	ushll	v16.4s, v5.4h, #0
	ushll2	v5.4s, v5.8h, #0
	ushll2	v18.2d, v7.4s, #0
	ushll	v7.2d, v7.2s, #0
	ushll2	v19.2d, v6.4s, #0
	ushll	v6.2d, v6.2s, #0
	ushll	v20.2d, v16.2s, #0
	ushll2	v16.2d, v16.4s, #0
	ushll	v21.2d, v5.2s, #0
	ushll2	v5.2d, v5.4s, #0
	and	v18.16b, v18.16b, v17.16b
	and	v7.16b, v7.16b, v17.16b
	and	v19.16b, v19.16b, v17.16b
	and	v6.16b, v6.16b, v17.16b
	and	v20.16b, v20.16b, v17.16b
	and	v16.16b, v16.16b, v17.16b
	and	v21.16b, v21.16b, v17.16b
	and	v5.16b, v5.16b, v17.16b
	add	v4.2d, v4.2d, v18.2d
	add	v3.2d, v3.2d, v19.2d
	add	v0.2d, v0.2d, v7.2d
	add	v2.2d, v2.2d, v6.2d
	add	v4.2d, v4.2d, v5.2d
	add	v0.2d, v0.2d, v21.2d
	add	v3.2d, v3.2d, v16.2d
	add	v2.2d, v2.2d, v20.2d
	b.ne	.LBB1_21
// %bb.22:                              // %vec.epilog.middle.block72
                                        //   in Loop: Header=BB1_9 Depth=1
	add	v0.2d, v2.2d, v0.2d
	add	v1.2d, v3.2d, v4.2d
	cmp	x16, x5
	add	v0.2d, v0.2d, v1.2d
	addp	d0, v0.2d
	fmov	x5, d0
	b.ne	.LBB1_28
	b	.LBB1_30
.LBB1_23:                               // %vector.ph40
                                        //   in Loop: Header=BB1_9 Depth=1
	movi	v0.2d, #0000000000000000
	movi	v5.2d, #0000000000000000
	and	x9, x16, #0xfffffffffffffff0
	movi	v1.2d, #0000000000000000
	movi	v2.2d, #0000000000000000
	mov	x4, x18
	movi	v7.2d, #0000000000000000
	movi	v3.2d, #0000000000000000
	mov	x5, x1
	movi	v16.2d, #0000000000000000
	movi	v6.2d, #0000000000000000
	dup	v4.16b, w2
.LBB1_24:                               // %vector.body45
                                        //   Parent Loop BB1_9 Depth=1
                                        // =>  This Inner Loop Header: Depth=2
	ld2	{ v17.16b, v18.16b }, [x5], #32
	mov	w6, #1                          // =0x1
	dup	v22.2d, x6
	subs	x4, x4, #16
	cmeq	v19.16b, v17.16b, v4.16b
	cmeq	v17.16b, v18.16b, v4.16b
	ushll2	v18.8h, v19.16b, #0
	ushll	v19.8h, v19.8b, #0
	ushll	v20.8h, v17.8b, #0
	ushll2	v17.8h, v17.16b, #0
	ushll2	v21.4s, v18.8h, #0
	ushll	v18.4s, v18.4h, #0
	ushll2	v23.4s, v19.8h, #0
	ushll	v19.4s, v19.4h, #0
	ushll	v24.4s, v20.4h, #0
	ushll2	v20.4s, v20.8h, #0
	ushll	v25.4s, v17.4h, #0
	ushll2	v17.4s, v17.8h, #0
	ushll2	v26.2d, v21.4s, #0
	ushll	v21.2d, v21.2s, #0
	ushll2	v27.2d, v18.4s, #0
	ushll2	v28.2d, v23.4s, #0
	ushll	v18.2d, v18.2s, #0
	ushll	v23.2d, v23.2s, #0
	ushll2	v29.2d, v19.4s, #0
	ushll	v19.2d, v19.2s, #0
	ushll	v30.2d, v24.2s, #0
	ushll2	v24.2d, v24.4s, #0
	ushll	v31.2d, v20.2s, #0
	ushll	v8.2d, v25.2s, #0
	ushll2	v20.2d, v20.4s, #0
	ushll2	v25.2d, v25.4s, #0
	ushll	v9.2d, v17.2s, #0
	and	v26.16b, v26.16b, v22.16b
	and	v21.16b, v21.16b, v22.16b
	and	v27.16b, v27.16b, v22.16b
	and	v28.16b, v28.16b, v22.16b
	and	v18.16b, v18.16b, v22.16b
	and	v23.16b, v23.16b, v22.16b
	and	v29.16b, v29.16b, v22.16b
	and	v19.16b, v19.16b, v22.16b
	ushll2	v17.2d, v17.4s, #0
	and	v30.16b, v30.16b, v22.16b
	and	v24.16b, v24.16b, v22.16b
	and	v31.16b, v31.16b, v22.16b
	and	v8.16b, v8.16b, v22.16b
	and	v20.16b, v20.16b, v22.16b
	and	v25.16b, v25.16b, v22.16b
	and	v9.16b, v9.16b, v22.16b
	and	v17.16b, v17.16b, v22.16b
	add	v16.2d, v16.2d, v21.2d
	add	v6.2d, v6.2d, v26.2d
	add	v7.2d, v7.2d, v18.2d
	add	v2.2d, v2.2d, v28.2d
	add	v3.2d, v3.2d, v27.2d
	add	v5.2d, v5.2d, v19.2d
	add	v0.2d, v0.2d, v29.2d
	add	v1.2d, v1.2d, v23.2d
	add	v16.2d, v16.2d, v9.2d
	add	v6.2d, v6.2d, v17.2d
	add	v2.2d, v2.2d, v20.2d
	add	v7.2d, v7.2d, v8.2d
	add	v3.2d, v3.2d, v25.2d
	add	v0.2d, v0.2d, v24.2d
	add	v5.2d, v5.2d, v30.2d
	add	v1.2d, v1.2d, v31.2d
	b.ne	.LBB1_24
// %bb.25:                              // %middle.block52
                                        //   in Loop: Header=BB1_9 Depth=1
	add	v4.2d, v5.2d, v7.2d
	add	v1.2d, v1.2d, v16.2d
	cmp	x16, x9
	add	v0.2d, v0.2d, v3.2d
	add	v2.2d, v2.2d, v6.2d
	add	v1.2d, v4.2d, v1.2d
	add	v0.2d, v0.2d, v2.2d
	add	v0.2d, v1.2d, v0.2d
	addp	d0, v0.2d
	fmov	x5, d0
	b.eq	.LBB1_30
// %bb.26:                              // %vec.epilog.iter.check57
                                        //   in Loop: Header=BB1_9 Depth=1
	tbnz	w16, #3, .LBB1_20
// %bb.27:                              //   in Loop: Header=BB1_9 Depth=1
	lsl	x4, x9, #1
.LBB1_28:                               // %join.5.i8.i.i.preheader
                                        //   in Loop: Header=BB1_9 Depth=1
	add	x9, x4, x11
	add	x4, x14, x4
.LBB1_29:                               // %join.5.i8.i.i
                                        //   Parent Loop BB1_9 Depth=1
                                        // =>  This Inner Loop Header: Depth=2
	ldurb	w6, [x4, #-1]
	ldrb	w7, [x4], #2
	cmp	w6, w2
	cinc	x5, x5, eq
	cmp	w7, w2
	cinc	x5, x5, eq
	adds	x9, x9, #2
	b.ne	.LBB1_29
.LBB1_30:                               // %"block::bonding::degree_of.exit.i.i"
                                        //   in Loop: Header=BB1_9 Depth=1
	cmp	x5, #5
	b.hi	.LBB1_49
// %bb.31:                              // %iter.check
                                        //   in Loop: Header=BB1_9 Depth=1
	cmp	x3, #7
	b.hs	.LBB1_33
// %bb.32:                              //   in Loop: Header=BB1_9 Depth=1
	mov	x2, xzr
	mov	x18, xzr
	b	.LBB1_43
.LBB1_33:                               // %vector.main.loop.iter.check
                                        //   in Loop: Header=BB1_9 Depth=1
	cmp	x3, #15
	b.hs	.LBB1_38
// %bb.34:                              //   in Loop: Header=BB1_9 Depth=1
	mov	x9, xzr
	mov	x2, xzr
.LBB1_35:                               // %vec.epilog.ph
                                        //   in Loop: Header=BB1_9 Depth=1
	movi	v2.2d, #0000000000000000
	movi	v0.2d, #0000000000000000
	add	x3, x1, x9, lsl #1
	dup	v1.8b, w8
	movi	v3.2d, #0000000000000000
	sub	x9, x9, x17
	movi	v4.2d, #0000000000000000
	mov	v2.d[0], x2
	and	x2, x16, #0xfffffffffffffff8
	lsl	x18, x2, #1
.LBB1_36:                               // %vec.epilog.vector.body
                                        //   Parent Loop BB1_9 Depth=1
                                        // =>  This Inner Loop Header: Depth=2
	ld2	{ v5.8b, v6.8b }, [x3], #16
	mov	w17, #1                         // =0x1
	dup	v17.2d, x17
	adds	x9, x9, #8
	cmeq	v7.8b, v5.8b, v1.8b
	cmeq	v5.8b, v6.8b, v1.8b
	ushll	v6.8h, v7.8b, #0
	ushll	v5.8h, v5.8b, #0
	ushll2	v7.4s, v6.8h, #0
	ushll	v6.4s, v6.4h, #0
	ushll	v16.4s, v5.4h, #0
	ushll2	v5.4s, v5.8h, #0
	ushll2	v18.2d, v7.4s, #0
	ushll	v7.2d, v7.2s, #0
	ushll2	v19.2d, v6.4s, #0
	ushll	v6.2d, v6.2s, #0
	ushll	v20.2d, v16.2s, #0
	ushll2	v16.2d, v16.4s, #0
	ushll	v21.2d, v5.2s, #0
	ushll2	v5.2d, v5.4s, #0
	and	v18.16b, v18.16b, v17.16b
	and	v7.16b, v7.16b, v17.16b
	and	v19.16b, v19.16b, v17.16b
	and	v6.16b, v6.16b, v17.16b
	and	v20.16b, v20.16b, v17.16b
	and	v16.16b, v16.16b, v17.16b
	and	v21.16b, v21.16b, v17.16b
	and	v5.16b, v5.16b, v17.16b
	add	v4.2d, v4.2d, v18.2d
	add	v3.2d, v3.2d, v19.2d
	add	v0.2d, v0.2d, v7.2d
	add	v2.2d, v2.2d, v6.2d
	add	v4.2d, v4.2d, v5.2d
	add	v0.2d, v0.2d, v21.2d
	add	v3.2d, v3.2d, v16.2d
	add	v2.2d, v2.2d, v20.2d
	b.ne	.LBB1_36
// %bb.37:                              // %vec.epilog.middle.block
                                        //   in Loop: Header=BB1_9 Depth=1
	add	v0.2d, v2.2d, v0.2d
	add	v1.2d, v3.2d, v4.2d
	cmp	x16, x2
	add	v0.2d, v0.2d, v1.2d
	addp	d0, v0.2d
	fmov	x2, d0
	b.eq	.LBB1_7
	b	.LBB1_43
.LBB1_38:                               // %vector.ph
                                        //   in Loop: Header=BB1_9 Depth=1
	movi	v0.2d, #0000000000000000
	movi	v5.2d, #0000000000000000
	and	x9, x16, #0xfffffffffffffff0
	movi	v1.2d, #0000000000000000
	movi	v2.2d, #0000000000000000
	mov	x2, x1
	movi	v7.2d, #0000000000000000
	movi	v3.2d, #0000000000000000
	movi	v16.2d, #0000000000000000
	movi	v6.2d, #0000000000000000
	dup	v4.16b, w8
.LBB1_39:                               // %vector.body
                                        //   Parent Loop BB1_9 Depth=1
                                        // =>  This Inner Loop Header: Depth=2
	ld2	{ v17.16b, v18.16b }, [x2], #32
	mov	w3, #1                          // =0x1
	dup	v22.2d, x3
	subs	x18, x18, #16
	cmeq	v19.16b, v17.16b, v4.16b
	cmeq	v17.16b, v18.16b, v4.16b
	ushll2	v18.8h, v19.16b, #0
	ushll	v19.8h, v19.8b, #0
	ushll	v20.8h, v17.8b, #0
	ushll2	v17.8h, v17.16b, #0
	ushll2	v21.4s, v18.8h, #0
	ushll	v18.4s, v18.4h, #0
	ushll2	v23.4s, v19.8h, #0
	ushll	v19.4s, v19.4h, #0
	ushll	v24.4s, v20.4h, #0
	ushll2	v20.4s, v20.8h, #0
	ushll	v25.4s, v17.4h, #0
	ushll2	v17.4s, v17.8h, #0
	ushll2	v26.2d, v21.4s, #0
	ushll	v21.2d, v21.2s, #0
	ushll2	v27.2d, v18.4s, #0
	ushll2	v28.2d, v23.4s, #0
	ushll	v18.2d, v18.2s, #0
	ushll	v23.2d, v23.2s, #0
	ushll2	v29.2d, v19.4s, #0
	ushll	v19.2d, v19.2s, #0
	ushll	v30.2d, v24.2s, #0
	ushll2	v24.2d, v24.4s, #0
	ushll	v31.2d, v20.2s, #0
	ushll	v8.2d, v25.2s, #0
	ushll2	v20.2d, v20.4s, #0
	ushll2	v25.2d, v25.4s, #0
	ushll	v9.2d, v17.2s, #0
	and	v26.16b, v26.16b, v22.16b
	and	v21.16b, v21.16b, v22.16b
	and	v27.16b, v27.16b, v22.16b
	and	v28.16b, v28.16b, v22.16b
	and	v18.16b, v18.16b, v22.16b
	and	v23.16b, v23.16b, v22.16b
	and	v29.16b, v29.16b, v22.16b
	and	v19.16b, v19.16b, v22.16b
	ushll2	v17.2d, v17.4s, #0
	and	v30.16b, v30.16b, v22.16b
	and	v24.16b, v24.16b, v22.16b
	and	v31.16b, v31.16b, v22.16b
	and	v8.16b, v8.16b, v22.16b
	and	v20.16b, v20.16b, v22.16b
	and	v25.16b, v25.16b, v22.16b
	and	v9.16b, v9.16b, v22.16b
	and	v17.16b, v17.16b, v22.16b
	add	v16.2d, v16.2d, v21.2d
	add	v6.2d, v6.2d, v26.2d
	add	v7.2d, v7.2d, v18.2d
	add	v2.2d, v2.2d, v28.2d
	add	v3.2d, v3.2d, v27.2d
	add	v5.2d, v5.2d, v19.2d
	add	v0.2d, v0.2d, v29.2d
	add	v1.2d, v1.2d, v23.2d
	add	v16.2d, v16.2d, v9.2d
	add	v6.2d, v6.2d, v17.2d
	add	v2.2d, v2.2d, v20.2d
	add	v7.2d, v7.2d, v8.2d
	add	v3.2d, v3.2d, v25.2d
	add	v0.2d, v0.2d, v24.2d
	add	v5.2d, v5.2d, v30.2d
	add	v1.2d, v1.2d, v31.2d
	b.ne	.LBB1_39
// %bb.40:                              // %middle.block
                                        //   in Loop: Header=BB1_9 Depth=1
	add	v4.2d, v5.2d, v7.2d
	add	v1.2d, v1.2d, v16.2d
	cmp	x16, x9
	add	v0.2d, v0.2d, v3.2d
	add	v2.2d, v2.2d, v6.2d
	add	v1.2d, v4.2d, v1.2d
	add	v0.2d, v0.2d, v2.2d
	add	v0.2d, v1.2d, v0.2d
	addp	d0, v0.2d
	fmov	x2, d0
	b.eq	.LBB1_7
// %bb.41:                              // %vec.epilog.iter.check
                                        //   in Loop: Header=BB1_9 Depth=1
	tbnz	w16, #3, .LBB1_35
// %bb.42:                              //   in Loop: Header=BB1_9 Depth=1
	lsl	x18, x9, #1
.LBB1_43:                               // %join.5.i16.i.i.preheader
                                        //   in Loop: Header=BB1_9 Depth=1
	add	x9, x18, x11
	add	x16, x14, x18
.LBB1_44:                               // %join.5.i16.i.i
                                        //   Parent Loop BB1_9 Depth=1
                                        // =>  This Inner Loop Header: Depth=2
	ldurb	w17, [x16, #-1]
	ldrb	w18, [x16], #2
	cmp	w17, w8
	cinc	x17, x2, eq
	cmp	w18, w8
	cinc	x2, x17, eq
	adds	x9, x9, #2
	b.ne	.LBB1_44
	b	.LBB1_7
.LBB1_45:
	mov	x8, xzr
	mov	w9, #7                          // =0x7
	mov	x0, x9
	mov	x1, x8
	ret
.LBB1_46:
	mov	w9, #3                          // =0x3
	add	x8, x10, #1
	ldp	d9, d8, [sp], #16               // 16-byte Folded Reload
	mov	x0, x9
	mov	x1, x8
	ret
.LBB1_47:
	mov	w9, #4                          // =0x4
	add	x8, x10, #1
.LBB1_48:
	ldp	d9, d8, [sp], #16               // 16-byte Folded Reload
	mov	x0, x9
	mov	x1, x8
	ret
.LBB1_49:
	mov	w9, #6                          // =0x6
.LBB1_50:                               // %arm.6.i
	add	x8, x10, #1
	ldp	d9, d8, [sp], #16               // 16-byte Folded Reload
	mov	x0, x9
	mov	x1, x8
	ret
.Lfunc_end1:
	.size	"block::refusal", .Lfunc_end1-"block::refusal"
                                        // -- End function
	.section	.rodata.cst16,"aM",@progbits,16
	.p2align	4, 0x0                          // -- Begin function reach::summed
.LCPI2_0:
	.xword	0                               // 0x0
	.xword	1                               // 0x1
.LCPI2_1:
	.xword	1                               // 0x1
	.xword	7                               // 0x7
	.section	".text.reach::summed","ax",@progbits
	.p2align	2
	.type	"reach::summed",@function
"reach::summed":                        // @"reach::summed"
// %bb.0:                               // %start
	stp	x29, x30, [sp, #-96]!           // 16-byte Folded Spill
	stp	x28, x27, [sp, #16]             // 16-byte Folded Spill
	mov	x29, sp
	stp	x26, x25, [sp, #32]             // 16-byte Folded Spill
	stp	x24, x23, [sp, #48]             // 16-byte Folded Spill
	stp	x22, x21, [sp, #64]             // 16-byte Folded Spill
	stp	x20, x19, [sp, #80]             // 16-byte Folded Spill
	sub	sp, sp, #1072
	mul	x26, x1, x1
	movi	v0.2d, #0000000000000000
	mov	x23, x5
	mov	x24, x4
	mov	x20, x1
	str	xzr, [sp]
	str	x6, [sp, #8]                    // 8-byte Spill
	str	x2, [sp, #24]                   // 8-byte Spill
	str	q0, [sp, #1040]
	stp	q0, q0, [sp, #48]
	stp	q0, q0, [sp, #80]
	stp	q0, q0, [sp, #112]
	stp	q0, q0, [sp, #144]
	stp	q0, q0, [sp, #176]
	stp	q0, q0, [sp, #208]
	stp	q0, q0, [sp, #240]
	stp	q0, q0, [sp, #272]
	stp	q0, q0, [sp, #304]
	stp	q0, q0, [sp, #336]
	stp	q0, q0, [sp, #368]
	stp	q0, q0, [sp, #400]
	stp	q0, q0, [sp, #432]
	stp	q0, q0, [sp, #464]
	stp	q0, q0, [sp, #496]
	stp	q0, q0, [sp, #528]
	stp	q0, q0, [sp, #560]
	stp	q0, q0, [sp, #592]
	stp	q0, q0, [sp, #624]
	stp	q0, q0, [sp, #656]
	stp	q0, q0, [sp, #688]
	stp	q0, q0, [sp, #720]
	stp	q0, q0, [sp, #752]
	stp	q0, q0, [sp, #784]
	stp	q0, q0, [sp, #816]
	stp	q0, q0, [sp, #848]
	stp	q0, q0, [sp, #880]
	stp	q0, q0, [sp, #912]
	stp	q0, q0, [sp, #944]
	stp	q0, q0, [sp, #976]
	stp	q0, q0, [sp, #1008]
	str	q0, [sp, #32]
	cbz	x1, .LBB2_7
// %bb.1:                               // %join.5.i.preheader
	cmp	x20, #4
	b.hs	.LBB2_3
// %bb.2:
	mov	x8, xzr
	b	.LBB2_5
.LBB2_3:                                // %vector.ph
	adrp	x10, .LCPI2_0
	add	x9, sp, #32
	add	x11, sp, #544
	ldr	q0, [x10, :lo12:.LCPI2_0]
	and	x8, x20, #0xfffffffffffffffc
	add	x9, x9, #16
	add	x10, x11, #16
	add	x11, x24, #16
	and	x12, x20, #0xfffffffffffffffc
.LBB2_4:                                // %vector.body
                                        // =>This Inner Loop Header: Depth=1
	mov	w13, #2                         // =0x2
	subs	x12, x12, #4
	dup	v1.2d, x13
	mov	w13, #1                         // =0x1
	dup	v2.2d, x13
	mov	w13, #4                         // =0x4
	add	v1.2d, v0.2d, v1.2d
	ushl	v3.2d, v2.2d, v0.2d
	ushl	v1.2d, v2.2d, v1.2d
	ldp	q4, q2, [x11, #-16]
	add	x11, x11, #32
	orr	v3.16b, v4.16b, v3.16b
	dup	v4.2d, x13
	orr	v1.16b, v2.16b, v1.16b
	add	v0.2d, v0.2d, v4.2d
	stp	q3, q1, [x10, #-16]
	add	x10, x10, #32
	stp	q3, q1, [x9, #-16]
	add	x9, x9, #32
	b.ne	.LBB2_4
	b	.LBB2_6
.LBB2_5:                                // %join.5.i
	mov	w9, #1                          // =0x1
	ldr	x10, [x24, x8, lsl #3]
	add	x11, sp, #544
	lsl	x9, x9, x8
	add	x12, sp, #32
	orr	x9, x10, x9
	str	x9, [x11, x8, lsl #3]
	str	x9, [x12, x8, lsl #3]
	add	x8, x8, #1
.LBB2_6:                                // %join.5.i
	cmp	x20, x8
	b.ne	.LBB2_5
.LBB2_7:                                // %"reach::with_neighbours.exit"
	add	x25, x3, x20
	cmp	x3, #0
	cset	w27, ne
	cmp	x25, x26
	b.hs	.LBB2_29
// %bb.8:                               // %join.9.lr.ph
	mov	w8, #64                         // =0x40
	mov	x9, #-1                         // =0xffffffffffffffff
	mov	x28, xzr
	subs	x8, x8, x20
	mov	x21, x3
	mov	x22, x3
	csel	x8, xzr, x8, lo
	str	x0, [sp]                        // 8-byte Spill
	lsr	x19, x9, x8
	str	x3, [sp, #16]                   // 8-byte Spill
.LBB2_9:                                // %join.9
                                        // =>This Loop Header: Depth=1
                                        //     Child Loop BB2_13 Depth 2
                                        //     Child Loop BB2_16 Depth 2
                                        //     Child Loop BB2_22 Depth 2
                                        //       Child Loop BB2_24 Depth 3
	tst	x27, #0x1
	add	x8, sp, #544
	add	x9, sp, #32
	csel	x8, x9, x8, eq
	cbz	x23, .LBB2_17
// %bb.10:                              // %join.5.i24.preheader
                                        //   in Loop: Header=BB2_9 Depth=1
	cmp	x23, #4
	b.hs	.LBB2_12
// %bb.11:                              //   in Loop: Header=BB2_9 Depth=1
	mov	x9, xzr
	b	.LBB2_15
.LBB2_12:                               // %vector.body19.preheader
                                        //   in Loop: Header=BB2_9 Depth=1
	ldr	x10, [sp, #8]                   // 8-byte Reload
	add	x9, x8, #16
	and	x11, x23, #0xfffffffffffffffc
	add	x10, x10, #16
.LBB2_13:                               // %vector.body19
                                        //   Parent Loop BB2_9 Depth=1
                                        // =>  This Inner Loop Header: Depth=2
	ldp	q0, q1, [x9, #-16]
	subs	x11, x11, #4
	ldp	q2, q3, [x10, #-16]
	add	x9, x9, #32
	cnt	v0.16b, v0.16b
	cnt	v1.16b, v1.16b
	uaddlp	v0.8h, v0.16b
	uaddlp	v1.8h, v1.16b
	uaddlp	v0.4s, v0.8h
	uaddlp	v1.4s, v1.8h
	uadalp	v2.2d, v0.4s
	uadalp	v3.2d, v1.4s
	stp	q2, q3, [x10, #-16]
	add	x10, x10, #32
	b.ne	.LBB2_13
// %bb.14:                              // %middle.block26
                                        //   in Loop: Header=BB2_9 Depth=1
	and	x9, x23, #0xfffffffffffffffc
	cmp	x23, x9
	and	x9, x23, #0xfffffffffffffffc
	b.eq	.LBB2_17
.LBB2_15:                               // %join.5.i24.preheader1
                                        //   in Loop: Header=BB2_9 Depth=1
	lsl	x11, x9, #3
	ldr	x10, [sp, #8]                   // 8-byte Reload
	sub	x9, x23, x9
	add	x10, x10, x11
	add	x11, x8, x11
.LBB2_16:                               // %join.5.i24
                                        //   Parent Loop BB2_9 Depth=1
                                        // =>  This Inner Loop Header: Depth=2
	ldr	d0, [x11], #8
	ldr	x12, [x10]
	subs	x9, x9, #1
	cnt	v0.8b, v0.8b
	addv	b0, v0.8b
	fmov	x13, d0
	add	x12, x12, x13
	str	x12, [x10], #8
	b.ne	.LBB2_16
.LBB2_17:                               // %"reach::count.exit"
                                        //   in Loop: Header=BB2_9 Depth=1
	sub	x9, x26, x25
	cmp	x9, x20
	b.ls	.LBB2_20
.LBB2_18:                               // %after.10
                                        //   in Loop: Header=BB2_9 Depth=1
	tbnz	w27, #0, .LBB2_26
// %bb.19:                              // %then.1.i
                                        //   in Loop: Header=BB2_9 Depth=1
	add	x0, sp, #32
	add	x4, sp, #544
	ldr	x2, [sp, #24]                   // 8-byte Reload
	mov	x1, x20
	bl	"reach::spread"
	subs	x9, x0, x25
	b.ne	.LBB2_27
	b	.LBB2_32
.LBB2_20:                               // %join.5.i27.preheader
                                        //   in Loop: Header=BB2_9 Depth=1
	mov	x10, xzr
	b	.LBB2_22
.LBB2_21:                               // %join.8.i
                                        //   in Loop: Header=BB2_22 Depth=2
	add	x10, x10, #1
	cmp	x10, x20
	b.eq	.LBB2_31
.LBB2_22:                               // %join.5.i27
                                        //   Parent Loop BB2_9 Depth=1
                                        // =>  This Loop Header: Depth=2
                                        //       Child Loop BB2_24 Depth 3
	ldr	x12, [x8, x10, lsl #3]
	cmp	x19, x12
	b.eq	.LBB2_21
// %bb.23:                              // %join.5.i.preheader.i
                                        //   in Loop: Header=BB2_22 Depth=2
	ldr	x11, [x24, x10, lsl #3]
	eor	x12, x12, x19
.LBB2_24:                               // %join.5.i.i
                                        //   Parent Loop BB2_9 Depth=1
                                        //     Parent Loop BB2_22 Depth=2
                                        // =>    This Inner Loop Header: Depth=3
	rbit	x13, x12
	clz	x13, x13
	ldr	x13, [x8, x13, lsl #3]
	tst	x13, x11
	b.eq	.LBB2_18
// %bb.25:                              // %join.8.i.i
                                        //   in Loop: Header=BB2_24 Depth=3
	sub	x13, x12, #1
	ands	x12, x13, x12
	b.ne	.LBB2_24
	b	.LBB2_21
.LBB2_26:                               // %join.3.i
                                        //   in Loop: Header=BB2_9 Depth=1
	add	x0, sp, #544
	add	x4, sp, #32
	ldr	x2, [sp, #24]                   // 8-byte Reload
	mov	x1, x20
	bl	"reach::spread"
	subs	x9, x0, x25
	b.eq	.LBB2_32
.LBB2_27:                               // %join.21
                                        //   in Loop: Header=BB2_9 Depth=1
	tst	x27, #0x1
	add	x8, x27, #1
	ldr	x3, [sp, #16]                   // 8-byte Reload
	csinc	x10, xzr, x27, ne
	madd	x22, x9, x8, x22
	cmp	x8, #3
	mov	x25, x0
	mov	x27, x8
	madd	x21, x9, x10, x21
	csel	x9, x9, xzr, eq
	cmp	x0, x26
	add	x28, x9, x28
	b.lo	.LBB2_9
// %bb.28:                              // %after.5.loopexit
	lsr	x9, x28, #1
	ldr	x0, [sp]                        // 8-byte Reload
	mov	x3, x22
	mov	x27, x8
	b	.LBB2_30
.LBB2_29:
	mov	x9, xzr
	mov	x21, x3
.LBB2_30:                               // %after.5
	lsr	x8, x3, #1
	lsr	x10, x21, #1
	stp	xzr, x20, [x0]
	str	x27, [x0, #48]
	sub	x11, x8, x10
	stp	x10, x9, [x0, #32]
	stp	x8, x11, [x0, #16]
	b	.LBB2_33
.LBB2_31:                               // %then.14
	tst	x27, #0x1
	add	x10, x27, #1
	ldr	x12, [sp]                       // 8-byte Reload
	csinc	x8, xzr, x27, ne
	madd	x11, x9, x10, x22
	cmp	x10, #3
	stp	xzr, x20, [x12]
	madd	x8, x8, x9, x21
	csel	x9, x9, xzr, eq
	str	x10, [x12, #48]
	add	x9, x9, x28
	lsr	x9, x9, #1
	lsr	x11, x11, #1
	lsr	x8, x8, #1
	stp	x8, x9, [x12, #32]
	sub	x8, x11, x8
	stp	x11, x8, [x12, #16]
	b	.LBB2_33
.LBB2_32:                               // %then.19
	movi	v0.2d, #0000000000000000
	adrp	x8, .LCPI2_1
	ldr	q1, [x8, :lo12:.LCPI2_1]
	ldr	x8, [sp]                        // 8-byte Reload
	str	xzr, [x8, #48]
	stp	q1, q0, [x8]
	str	q0, [x8, #32]
.LBB2_33:                               // %common.ret
	add	sp, sp, #1072
	ldp	x20, x19, [sp, #80]             // 16-byte Folded Reload
	ldp	x22, x21, [sp, #64]             // 16-byte Folded Reload
	ldp	x24, x23, [sp, #48]             // 16-byte Folded Reload
	ldp	x26, x25, [sp, #32]             // 16-byte Folded Reload
	ldp	x28, x27, [sp, #16]             // 16-byte Folded Reload
	ldp	x29, x30, [sp], #96             // 16-byte Folded Reload
	ret
.Lfunc_end2:
	.size	"reach::summed", .Lfunc_end2-"reach::summed"
                                        // -- End function
	.section	".text.reach::spread","ax",@progbits
	.p2align	2                               // -- Begin function reach::spread
	.type	"reach::spread",@function
"reach::spread":                        // @"reach::spread"
// %bb.0:                               // %start
	lsr	x8, x3, #1
	lsr	x10, x3, #2
	subs	x8, x8, x10
	b.eq	.LBB3_3
// %bb.1:                               // %join.5.preheader
	add	x9, x2, #1
	add	x10, x9, x10, lsl #1
.LBB3_2:                                // %join.5
                                        // =>This Inner Loop Header: Depth=1
	ldurb	w11, [x9, #-1]
	ldrb	w12, [x9], #2
	subs	x8, x8, #1
	lsl	x11, x11, #3
	lsl	x12, x12, #3
	sub	x11, x11, #8
	sub	x12, x12, #8
	ldr	x13, [x4, x11]
	ldr	x14, [x0, x12]
	orr	x13, x14, x13
	str	x13, [x4, x11]
	ldr	x13, [x4, x12]
	ldr	x11, [x0, x11]
	orr	x11, x11, x13
	str	x11, [x4, x12]
	ldurb	w11, [x10, #-1]
	ldrb	w12, [x10], #2
	lsl	x11, x11, #3
	lsl	x12, x12, #3
	sub	x11, x11, #8
	sub	x12, x12, #8
	ldr	x13, [x4, x11]
	ldr	x14, [x0, x12]
	orr	x13, x14, x13
	str	x13, [x4, x11]
	ldr	x13, [x4, x12]
	ldr	x11, [x0, x11]
	orr	x11, x11, x13
	str	x11, [x4, x12]
	b.ne	.LBB3_2
.LBB3_3:                                // %after.1
	lsr	x8, x1, #2
	cmp	x1, #17
	csel	x8, x8, xzr, lo
	cbz	x8, .LBB3_6
// %bb.4:                               // %join.5.i.i.preheader
	cmp	x8, #4
	b.hs	.LBB3_7
// %bb.5:
	mov	x9, xzr
	mov	x10, xzr
	b	.LBB3_10
.LBB3_6:
	mov	x9, xzr
	b	.LBB3_12
.LBB3_7:                                // %vector.ph
	movi	v0.2d, #0000000000000000
	movi	v1.2d, #0000000000000000
	and	x10, x8, #0x3ffffffffffffffc
	add	x9, x4, #64
	and	x11, x8, #0x3ffffffffffffffc
.LBB3_8:                                // %vector.body
                                        // =>This Inner Loop Header: Depth=1
	sub	x12, x9, #64
	ld4	{ v16.2d, v17.2d, v18.2d, v19.2d }, [x9]
	movi	v6.2d, #0x0000000000ffff
	movi	v7.2d, #0x00ffff00000000
	movi	v20.2d, #0x000000ffff0000
	subs	x11, x11, #4
	ld4	{ v2.2d, v3.2d, v4.2d, v5.2d }, [x12]
	add	x9, x9, #128
	shl	v23.2d, v18.2d, #32
	shl	v24.2d, v17.2d, #16
	shl	v21.2d, v4.2d, #32
	shl	v22.2d, v3.2d, #16
	shl	v25.2d, v5.2d, #48
	and	v2.16b, v2.16b, v6.16b
	and	v3.16b, v16.16b, v6.16b
	shl	v6.2d, v19.2d, #48
	and	v16.16b, v24.16b, v20.16b
	and	v4.16b, v21.16b, v7.16b
	and	v5.16b, v22.16b, v20.16b
	and	v7.16b, v23.16b, v7.16b
	orr	v3.16b, v16.16b, v3.16b
	orr	v4.16b, v25.16b, v4.16b
	orr	v2.16b, v5.16b, v2.16b
	orr	v5.16b, v6.16b, v7.16b
	orr	v2.16b, v4.16b, v2.16b
	orr	v3.16b, v5.16b, v3.16b
	cnt	v2.16b, v2.16b
	cnt	v3.16b, v3.16b
	uaddlp	v2.8h, v2.16b
	uaddlp	v3.8h, v3.16b
	uaddlp	v2.4s, v2.8h
	uaddlp	v3.4s, v3.8h
	uadalp	v0.2d, v2.4s
	uadalp	v1.2d, v3.4s
	b.ne	.LBB3_8
// %bb.9:                               // %middle.block
	add	v0.2d, v1.2d, v0.2d
	cmp	x8, x10
	addp	d0, v0.2d
	fmov	x9, d0
	b.eq	.LBB3_12
.LBB3_10:                               // %join.5.i.i.preheader2
	add	x11, x4, x10, lsl #5
	sub	x10, x8, x10
	add	x11, x11, #16
.LBB3_11:                               // %join.5.i.i
                                        // =>This Inner Loop Header: Depth=1
	ldp	x12, x13, [x11]
	subs	x10, x10, #1
	ldur	x14, [x11, #-8]
	ubfiz	x12, x12, #32, #16
	orr	x12, x12, x13, lsl #48
	ldurh	w13, [x11, #-16]
	add	x11, x11, #32
	bfi	x12, x14, #16, #16
	orr	x12, x12, x13
	fmov	d0, x12
	cnt	v0.8b, v0.8b
	addv	b0, v0.8b
	fmov	x12, d0
	add	x9, x12, x9
	b.ne	.LBB3_11
.LBB3_12:                               // %"reach::by_fours.exit.i"
	lsl	x10, x8, #2
	subs	x12, x1, x10
	b.ls	.LBB3_15
// %bb.13:                              // %join.5.i5.i.preheader
	cmp	x12, #4
	b.hs	.LBB3_16
// %bb.14:
	mov	x8, xzr
	b	.LBB3_19
.LBB3_15:
	add	x0, xzr, x9
	ret
.LBB3_16:                               // %vector.ph12
	movi	v0.2d, #0000000000000000
	movi	v1.2d, #0000000000000000
	and	x11, x1, #0x3
	add	x13, x4, x8, lsl #5
	sub	x8, x12, x11
	add	x10, x10, x8
	add	x12, x13, #16
.LBB3_17:                               // %vector.body15
                                        // =>This Inner Loop Header: Depth=1
	ldp	q2, q3, [x12, #-16]
	subs	x8, x8, #4
	add	x12, x12, #32
	cnt	v2.16b, v2.16b
	cnt	v3.16b, v3.16b
	uaddlp	v2.8h, v2.16b
	uaddlp	v3.8h, v3.16b
	uaddlp	v2.4s, v2.8h
	uaddlp	v3.4s, v3.8h
	uadalp	v0.2d, v2.4s
	uadalp	v1.2d, v3.4s
	b.ne	.LBB3_17
// %bb.18:                              // %middle.block21
	add	v0.2d, v1.2d, v0.2d
	addp	d0, v0.2d
	fmov	x8, d0
	cbz	x11, .LBB3_21
.LBB3_19:                               // %join.5.i5.i.preheader1
	add	x11, x4, x10, lsl #3
	sub	x10, x1, x10
.LBB3_20:                               // %join.5.i5.i
                                        // =>This Inner Loop Header: Depth=1
	ldr	d0, [x11], #8
	subs	x10, x10, #1
	cnt	v0.8b, v0.8b
	addv	b0, v0.8b
	fmov	x12, d0
	add	x8, x12, x8
	b.ne	.LBB3_20
.LBB3_21:                               // %"reach::together.exit"
	add	x0, x8, x9
	ret
.Lfunc_end3:
	.size	"reach::spread", .Lfunc_end3-"reach::spread"
                                        // -- End function
	.section	".text.block::admit","ax",@progbits
	.p2align	2                               // -- Begin function block::admit
	.type	"block::admit",@function
"block::admit":                         // @"block::admit"
// %bb.0:                               // %start
	cmp	x2, #384
	mov	w8, wzr
	b.hi	.LBB4_24
// %bb.1:                               // %start
	sub	x9, x0, #65
	cmn	x9, #64
	b.lo	.LBB4_24
// %bb.2:                               // %start
	tbnz	w2, #0, .LBB4_24
// %bb.3:                               // %after.1.i
	cbz	x2, .LBB4_11
// %bb.4:                               // %join.5.i.i.preheader
	lsr	x10, x2, #1
	add	x11, x1, #1
	mov	w8, #1                          // =0x1
.LBB4_5:                                // %join.5.i.i
                                        // =>This Inner Loop Header: Depth=1
	ldurb	w9, [x11, #-1]
	sub	x13, x9, #1
	cmp	x13, x0
	b.hs	.LBB4_8
// %bb.6:                               // %else.9.i.i
                                        //   in Loop: Header=BB4_5 Depth=1
	ldrb	w9, [x11], #2
	sub	x12, x9, #1
	cmp	x12, x0
	b.hs	.LBB4_8
// %bb.7:                               // %after.6.i.i
                                        //   in Loop: Header=BB4_5 Depth=1
	mov	w9, #1                          // =0x1
	ldr	x16, [x3, x13, lsl #3]
	lsl	x14, x9, x13
	lsl	x15, x9, x12
	orr	x16, x16, x15
	str	x16, [x3, x13, lsl #3]
	orr	x13, x15, x14
	tst	x13, x8
	ldr	x15, [x3, x12, lsl #3]
	csel	x13, xzr, x13, eq
	subs	x10, x10, #1
	orr	x8, x13, x8
	orr	x14, x15, x14
	str	x14, [x3, x12, lsl #3]
	b.ne	.LBB4_5
	b	.LBB4_9
.LBB4_8:
	mov	x8, xzr
	mov	w9, wzr
.LBB4_9:                                // %"block::bonding::sketched.exit.i"
	cmp	x0, #4
	b.hs	.LBB4_12
.LBB4_10:
	mov	x12, xzr
	mov	x11, xzr
	mov	x10, xzr
	b	.LBB4_15
.LBB4_11:
	mov	w8, #1                          // =0x1
	mov	w9, #1                          // =0x1
	cmp	x0, #4
	b.lo	.LBB4_10
.LBB4_12:                               // %vector.ph
	movi	v0.2d, #0000000000000000
	movi	v1.2d, #0000000000000000
	and	x10, x0, #0x7c
	movi	v2.2d, #0000000000000000
	movi	v3.2d, #0000000000000000
	add	x11, x3, #16
	and	x12, x0, #0x7c
.LBB4_13:                               // %vector.body
                                        // =>This Inner Loop Header: Depth=1
	ldp	q4, q5, [x11, #-16]
	mov	w13, #1                         // =0x1
	dup	v6.2d, x13
	subs	x12, x12, #4
	add	x11, x11, #32
	cnt	v4.16b, v4.16b
	cnt	v5.16b, v5.16b
	mov	v7.16b, v6.16b
	uaddlp	v4.8h, v4.16b
	uaddlp	v5.8h, v5.16b
	uaddlp	v4.4s, v4.8h
	uaddlp	v5.4s, v5.8h
	uadalp	v7.2d, v4.4s
	uadalp	v6.2d, v5.4s
	uadalp	v0.2d, v4.4s
	uadalp	v1.2d, v5.4s
	orr	v2.16b, v7.16b, v2.16b
	orr	v3.16b, v6.16b, v3.16b
	b.ne	.LBB4_13
// %bb.14:                              // %middle.block
	orr	v2.16b, v3.16b, v2.16b
	add	v0.2d, v1.2d, v0.2d
	cmp	x0, x10
	ext	v1.16b, v2.16b, v2.16b, #8
	addp	d0, v0.2d
	orr	v1.8b, v2.8b, v1.8b
	fmov	x12, d0
	fmov	x11, d1
	b.eq	.LBB4_17
.LBB4_15:                               // %join.5.i12.i.preheader
	add	x13, x3, x10, lsl #3
	sub	x10, x0, x10
.LBB4_16:                               // %join.5.i12.i
                                        // =>This Inner Loop Header: Depth=1
	ldr	d0, [x13], #8
	subs	x10, x10, #1
	cnt	v0.8b, v0.8b
	addv	b0, v0.8b
	fmov	x14, d0
	add	x15, x14, #1
	add	x12, x14, x12
	orr	x11, x15, x11
	b.ne	.LBB4_16
.LBB4_17:                               // %"block::draw.exit"
	cmp	x12, x2
	csel	w9, wzr, w9, ne
	cmp	w9, #1
	ccmp	x11, #8, #2, eq
	b.lo	.LBB4_19
// %bb.18:
	mov	w0, wzr
	ret
.LBB4_19:                               // %join.3
	mov	w9, #64                         // =0x40
	mov	x10, #-1                        // =0xffffffffffffffff
	subs	x9, x9, x0
	csel	x9, xzr, x9, lo
	lsr	x9, x10, x9
	cmp	x8, x9
	b.ne	.LBB4_21
// %bb.20:
	mov	w0, #1                          // =0x1
	ret
.LBB4_21:                               // %join.6
	mov	x8, xzr
	and	x10, x9, #0xfffffffffffffffe
	mov	w9, #1                          // =0x1
.LBB4_22:                               // %join.5.i.i6
                                        // =>This Inner Loop Header: Depth=1
	rbit	x11, x9
	clz	x11, x11
	ldr	x12, [x3, x11, lsl #3]
	mov	x11, x10
	sub	x10, x9, #1
	ands	x9, x10, x9
	orr	x8, x12, x8
	and	x13, x8, x11
	csel	x8, xzr, x8, eq
	csel	x12, x13, xzr, eq
	csel	x9, x13, x9, eq
	eor	x10, x12, x11
	cbnz	x9, .LBB4_22
// %bb.23:                              // %"block::search::connected.exit"
	cmp	x11, x12
	cset	w8, eq
.LBB4_24:                               // %common.ret
	mov	w0, w8
	ret
.Lfunc_end4:
	.size	"block::admit", .Lfunc_end4-"block::admit"
                                        // -- End function
	.section	".text.compose::fields","ax",@progbits
	.p2align	2                               // -- Begin function compose::fields
	.type	"compose::fields",@function
"compose::fields":                      // @"compose::fields"
// %bb.0:                               // %start
	stp	x29, x30, [sp, #-64]!           // 16-byte Folded Spill
	stp	x28, x23, [sp, #16]             // 16-byte Folded Spill
	mov	x29, sp
	stp	x22, x21, [sp, #32]             // 16-byte Folded Spill
	stp	x20, x19, [sp, #48]             // 16-byte Folded Spill
	sub	sp, sp, #3072
	str	xzr, [sp]
	sub	sp, sp, #3072
	str	xzr, [sp]
	sub	sp, sp, #2432
	mov	w20, w3
	mov	x21, x2
	mov	x22, x1
	mov	x19, x0
	mov	x8, xzr
	mov	x9, xzr
	sub	x23, x29, #64
	str	xzr, [sp]
	b	.LBB5_3
.LBB5_1:                                //   in Loop: Header=BB5_3 Depth=1
	mov	x10, xzr
.LBB5_2:                                // %"records::le16_at.exit26.i"
                                        //   in Loop: Header=BB5_3 Depth=1
	add	x8, x8, #1
	add	x9, x9, #4
	cmp	x8, #16
	add	x9, x9, x10
	b.eq	.LBB5_14
.LBB5_3:                                // %join.5.i
                                        // =>This Inner Loop Header: Depth=1
	add	x10, x9, #2
	cmp	x10, x21
	b.hs	.LBB5_10
// %bb.4:                               // %"records::byte_at.exit.i.i"
                                        //   in Loop: Header=BB5_3 Depth=1
	add	x11, x9, #3
	cmp	x11, x21
	b.hs	.LBB5_6
// %bb.5:                               // %then.1.i6.i.i
                                        //   in Loop: Header=BB5_3 Depth=1
	ldrb	w11, [x22, x11]
	ldrb	w10, [x22, x10]
	orr	w10, w10, w11, lsl #8
	cmp	w10, #1
	b.eq	.LBB5_7
	b	.LBB5_10
.LBB5_6:                                //   in Loop: Header=BB5_3 Depth=1
	ldrb	w10, [x22, x10]
	orr	w10, w10, wzr, lsl #8
	cmp	w10, #1
	b.ne	.LBB5_10
.LBB5_7:                                // %join.8.i
                                        //   in Loop: Header=BB5_3 Depth=1
	cmp	x9, x21
	b.hs	.LBB5_1
// %bb.8:                               // %"records::byte_at.exit.i12.i"
                                        //   in Loop: Header=BB5_3 Depth=1
	add	x11, x9, #1
	ldrb	w10, [x22, x9]
	cmp	x11, x21
	b.hs	.LBB5_2
// %bb.9:                               // %then.1.i6.i23.i
                                        //   in Loop: Header=BB5_3 Depth=1
	ldrb	w11, [x22, x11]
	orr	x10, x10, x11, lsl #8
	b	.LBB5_2
.LBB5_10:                               // %"deck::heads.exit"
	cmp	x8, #3
	b.hs	.LBB5_12
// %bb.11:                              // %then.1
	add	x0, sp, #64
	mov	w1, wzr
	mov	w2, #1056                       // =0x420
	bl	memset
	sub	x0, x29, #64
	add	x4, sp, #64
	mov	x1, x22
	mov	x2, x21
	mov	w3, w20
	mov	w5, #1056                       // =0x420
	b	.LBB5_15
.LBB5_12:                               // %join.3
	cmp	x8, #6
	b.hi	.LBB5_14
// %bb.13:                              // %then.4
	add	x0, sp, #64
	mov	w1, wzr
	mov	w2, #3168                       // =0xc60
	bl	memset
	sub	x0, x29, #64
	add	x4, sp, #64
	mov	x1, x22
	mov	x2, x21
	mov	w3, w20
	mov	w5, #3168                       // =0xc60
	b	.LBB5_15
.LBB5_14:                               // %join.6
	add	x0, sp, #64
	mov	w1, wzr
	mov	w2, #8448                       // =0x2100
	bl	memset
	sub	x0, x29, #64
	add	x4, sp, #64
	mov	x1, x22
	mov	x2, x21
	mov	w3, w20
	mov	w5, #8448                       // =0x2100
.LBB5_15:                               // %common.ret
	bl	"compose::in_book"
	ldur	x8, [x29, #-8]
	ldur	q0, [x23, #40]
	ldur	q1, [x23, #8]
	ldur	q2, [x23, #24]
	ldrb	w9, [x23]
	str	x8, [sp, #48]
	stp	q2, q0, [sp, #16]
	str	q1, [sp]
	str	x9, [x19]
	stur	q1, [x19, #8]
	stur	q2, [x19, #24]
	stur	q0, [x19, #40]
	str	x8, [x19, #56]
	add	sp, sp, #2, lsl #12             // =8192
	add	sp, sp, #384
	ldp	x20, x19, [sp, #48]             // 16-byte Folded Reload
	ldp	x22, x21, [sp, #32]             // 16-byte Folded Reload
	ldp	x28, x23, [sp, #16]             // 16-byte Folded Reload
	ldp	x29, x30, [sp], #64             // 16-byte Folded Reload
	ret
.Lfunc_end5:
	.size	"compose::fields", .Lfunc_end5-"compose::fields"
                                        // -- End function
	.section	.rodata.cst8,"aM",@progbits,8
	.p2align	3, 0x0                          // -- Begin function compose::in_book
.LCPI6_0:
	.hword	2                               // 0x2
	.hword	2                               // 0x2
	.hword	0                               // 0x0
	.hword	6                               // 0x6
.LCPI6_1:
	.hword	3                               // 0x3
	.hword	36                              // 0x24
	.hword	0                               // 0x0
	.hword	0                               // 0x0
.LCPI6_2:
	.hword	4                               // 0x4
	.hword	40                              // 0x28
	.hword	0                               // 0x0
	.hword	0                               // 0x0
	.section	".text.compose::in_book","ax",@progbits
	.p2align	2
	.type	"compose::in_book",@function
"compose::in_book":                     // @"compose::in_book"
// %bb.0:                               // %start
	sub	sp, sp, #448
	movi	v0.2d, #0000000000000000
	adrp	x8, .LCPI6_0
	stp	x24, x23, [sp, #400]            // 16-byte Folded Spill
	stp	x20, x19, [sp, #432]            // 16-byte Folded Spill
	mov	w23, w3
	mov	x19, x0
	add	x0, sp, #112
	add	x3, sp, #96
	stp	x29, x30, [sp, #352]            // 16-byte Folded Spill
	stp	x28, x27, [sp, #368]            // 16-byte Folded Spill
	add	x29, sp, #352
	mov	x24, x5
	stp	q0, q0, [sp, #32]
	mov	x20, x2
	stp	q0, q0, [sp, #128]
	stp	q0, q0, [sp, #160]
	stp	q0, q0, [sp, #192]
	stp	q0, q0, [sp, #224]
	stp	q0, q0, [sp, #256]
	str	q0, [sp, #112]
	str	q0, [sp, #64]
	ldr	d0, [x8, :lo12:.LCPI6_0]
	stp	x26, x25, [sp, #384]            // 16-byte Folded Spill
	mov	x25, x4
	stp	x22, x21, [sp, #416]            // 16-byte Folded Spill
	mov	x21, x1
	str	xzr, [sp, #288]
	strh	wzr, [sp, #104]
	str	xzr, [sp, #80]
	str	d0, [sp, #96]
	bl	"compose::blocks::open_deck"
	ldrb	w8, [sp, #112]
	cbz	w8, .LBB6_2
// %bb.1:                               // %arm.2
	movi	v1.2d, #0000000000000000
	ldur	q0, [sp, #120]
	mov	w8, #1                          // =0x1
	str	x8, [x19]
	stur	q0, [x19, #8]
	str	xzr, [x19, #56]
	stur	q1, [x19, #24]
	b	.LBB6_25
.LBB6_2:                                // %arm.1
	ldr	x27, [sp, #272]
	cmp	x20, x27
	b.hs	.LBB6_4
// %bb.3:
	mov	x4, xzr
	mov	x9, x20
	b	.LBB6_9
.LBB6_4:                                // %join.3.i
	cmp	x27, x20
	add	x8, x27, #4
	b.hs	.LBB6_7
// %bb.5:                               // %"records::byte_at.exit.i.i"
	add	x9, x27, #1
	ldrb	w10, [x21, x27]
	cmp	x9, x20
	b.hs	.LBB6_8
// %bb.6:                               // %then.1.i6.i.i
	ldrb	w9, [x21, x9]
	orr	x10, x10, x9, lsl #8
	b	.LBB6_8
.LBB6_7:
	mov	x10, xzr
.LBB6_8:                                // %"records::le16_at.exit.i"
	subs	x11, x20, x8
	csel	x9, x20, x8, lo
	cmp	x11, x10
	csel	x10, x11, x10, lo
	cmp	x20, x8
	csel	x4, xzr, x10, lo
.LBB6_9:                                // %"records::payload_at.exit"
	ldr	x22, [sp, #288]
	add	x0, sp, #32
	add	x3, x21, x9
	mov	x1, x25
	mov	x2, x24
	add	x26, sp, #32
	bl	"summaries::compose"
	ldrb	w8, [sp, #32]
	ldp	x24, x25, [sp, #40]
	cmp	w8, #1
	b.ne	.LBB6_11
// %bb.10:                              // %arm.5
	movi	v0.2d, #0000000000000000
	mov	w8, #6                          // =0x6
	mov	x22, xzr
	madd	x25, x25, x8, x27
	mov	w8, #1                          // =0x1
	stp	q0, q0, [sp]
	b	.LBB6_24
.LBB6_11:                               // %arm.6
	stp	xzr, xzr, [x29, #-16]
	stur	xzr, [x29, #-24]
	sturh	wzr, [x29, #-32]
	sturh	wzr, [x29, #-48]
	tbz	w23, #0, .LBB6_14
// %bb.12:                              // %join.4.i.i
	adrp	x8, .LCPI6_1
	adrp	x9, .LCPI6_2
	sub	x0, x29, #24
	ldr	d0, [x8, :lo12:.LCPI6_1]
	ldr	d1, [x9, :lo12:.LCPI6_2]
	sub	x4, x29, #40
	sub	x5, x29, #56
	mov	x1, x21
	mov	x2, x20
	mov	x3, x22
	stur	d0, [x29, #-40]
	stur	d1, [x29, #-56]
	bl	"records::record_at"
	ldurb	w8, [x29, #-24]
	cbz	w8, .LBB6_16
// %bb.13:                              // %"deck::sheet_reply.exit.thread.i"
	ldp	x24, x22, [x29, #-16]
	b	.LBB6_22
.LBB6_14:                               // %"deck::sheet_reply.exit.i"
	cmp	x22, x20
	b.hs	.LBB6_23
// %bb.15:
	mov	w24, #11                        // =0xb
	b	.LBB6_22
.LBB6_16:                               // %arm.5.i.i
	cmp	x22, x20
	add	x8, x22, #4
	b.hs	.LBB6_19
// %bb.17:                              // %"records::byte_at.exit.i.i.i"
	add	x10, x22, #1
	ldrb	w9, [x21, x22]
	cmp	x10, x20
	b.hs	.LBB6_20
// %bb.18:                              // %then.1.i6.i.i.i
	ldrb	w10, [x21, x10]
	orr	x9, x9, x10, lsl #8
	b	.LBB6_20
.LBB6_19:
	mov	x9, xzr
.LBB6_20:                               // %"records::le16_at.exit.i.i"
	add	x8, x8, x9
	cmp	x8, x20
	b.hs	.LBB6_23
// %bb.21:
	mov	w24, #11                        // =0xb
	mov	x22, x8
.LBB6_22:                               // %arm.2.i8
	movi	v0.2d, #0000000000000000
	mov	w8, #1                          // =0x1
	mov	x25, x22
	mov	x22, xzr
	stp	q0, q0, [sp]
	b	.LBB6_24
.LBB6_23:                               // %arm.1.i
	ldur	q0, [x26, #24]
	ldur	q1, [x26, #40]
	mov	x8, xzr
	stp	q0, q1, [sp]
.LBB6_24:                               // %join.7
	ldp	q0, q1, [sp]
	stp	x8, x24, [x19]
	str	x25, [x19, #16]
	str	x22, [x19, #56]
	stur	q0, [x19, #24]
.LBB6_25:                               // %arm.2
	stur	q1, [x19, #40]
	ldp	x20, x19, [sp, #432]            // 16-byte Folded Reload
	ldp	x22, x21, [sp, #416]            // 16-byte Folded Reload
	ldp	x24, x23, [sp, #400]            // 16-byte Folded Reload
	ldp	x26, x25, [sp, #384]            // 16-byte Folded Reload
	ldp	x28, x27, [sp, #368]            // 16-byte Folded Reload
	ldp	x29, x30, [sp, #352]            // 16-byte Folded Reload
	add	sp, sp, #448
	ret
.Lfunc_end6:
	.size	"compose::in_book", .Lfunc_end6-"compose::in_book"
                                        // -- End function
	.section	.rodata.cst8,"aM",@progbits,8
	.p2align	3, 0x0                          // -- Begin function compose::blocks::open_deck
.LCPI7_0:
	.hword	1                               // 0x1
	.hword	6                               // 0x6
	.hword	4                               // 0x4
	.hword	2                               // 0x2
	.section	".text.compose::blocks::open_deck","ax",@progbits
	.p2align	2
	.type	"compose::blocks::open_deck",@function
"compose::blocks::open_deck":           // @"compose::blocks::open_deck"
// %bb.0:                               // %start
	stp	d9, d8, [sp, #-112]!            // 16-byte Folded Spill
	stp	x29, x30, [sp, #16]             // 16-byte Folded Spill
	add	x29, sp, #16
	stp	x28, x27, [sp, #32]             // 16-byte Folded Spill
	stp	x26, x25, [sp, #48]             // 16-byte Folded Spill
	stp	x24, x23, [sp, #64]             // 16-byte Folded Spill
	stp	x22, x21, [sp, #80]             // 16-byte Folded Spill
	stp	x20, x19, [sp, #96]             // 16-byte Folded Spill
	sub	sp, sp, #944
	cmp	x2, #8, lsl #12                 // =32768
	str	x5, [sp, #24]                   // 8-byte Spill
	b.ls	.LBB7_2
// %bb.1:                               // %then.1
	movi	v0.2d, #0000000000000000
	mov	w8, #1                          // =0x1
	strb	w8, [x0]
	mov	w8, #20                         // =0x14
	strb	w8, [x0, #8]
	stur	q0, [x0, #9]
	stur	q0, [x0, #25]
	stur	q0, [x0, #41]
	stur	q0, [x0, #57]
	stur	q0, [x0, #73]
	stur	q0, [x0, #89]
	stur	q0, [x0, #105]
	stur	q0, [x0, #121]
	stur	q0, [x0, #137]
	stur	q0, [x0, #153]
	stur	q0, [x0, #168]
	b	.LBB7_55
.LBB7_2:                                // %join.3
	movi	v0.2d, #0000000000000000
	ldrb	w8, [x3, #8]
	ldr	d8, [x3]
	mov	x23, x2
	mov	x22, x1
	mov	x28, xzr
	str	w8, [sp, #20]                   // 4-byte Spill
	ldrb	w8, [x3, #9]
	mov	x20, xzr
	mov	x19, xzr
	stp	x4, x0, [sp]                    // 16-byte Folded Spill
	stp	xzr, xzr, [sp, #208]
	str	xzr, [sp, #200]
	strh	wzr, [sp, #192]
	stp	q0, q0, [sp, #224]
	stp	q0, q0, [sp, #256]
	stp	q0, q0, [sp, #288]
	str	w8, [sp, #16]                   // 4-byte Spill
	stp	q0, q0, [sp, #320]
	b	.LBB7_5
.LBB7_3:                                //   in Loop: Header=BB7_5 Depth=1
	mov	x8, xzr
.LBB7_4:                                // %"records::le16_at.exit61.i"
                                        //   in Loop: Header=BB7_5 Depth=1
	add	x20, x8, x25
	add	x28, x28, #528
	add	x19, x19, #1
.LBB7_5:                                // %loop.4.i
                                        // =>This Inner Loop Header: Depth=1
	movi	d0, #0000000000000000
	fmov	d1, x28
	adrp	x8, .LCPI7_0
	ldr	d9, [x8, :lo12:.LCPI7_0]
	ldr	w8, [sp, #20]                   // 4-byte Reload
	cmp	x28, #0
	add	x0, sp, #200
	add	x4, sp, #184
	add	x5, sp, #168
	csel	w8, wzr, w8, eq
	mov	x1, x22
	mov	x2, x23
	cmeq	d0, d1, d0
	strb	w8, [sp, #176]
	ldr	w8, [sp, #16]                   // 4-byte Reload
	mov	x3, x20
	strb	wzr, [sp, #192]
	csel	w8, wzr, w8, eq
	str	d9, [sp, #184]
	bsl	v0.8b, v9.8b, v8.8b
	strb	w8, [sp, #177]
	str	d0, [sp, #168]
	bl	"records::record_at"
	ldrb	w10, [sp, #200]
	cbnz	w10, .LBB7_44
// %bb.6:                               // %join.8.i
                                        //   in Loop: Header=BB7_5 Depth=1
	add	x8, x20, #2
	cmp	x8, x23
	b.hs	.LBB7_39
// %bb.7:                               // %"records::byte_at.exit.i.i"
                                        //   in Loop: Header=BB7_5 Depth=1
	add	x9, x20, #3
	cmp	x9, x23
	b.hs	.LBB7_9
// %bb.8:                               // %then.1.i6.i.i
                                        //   in Loop: Header=BB7_5 Depth=1
	ldrb	w9, [x22, x9]
	ldrb	w8, [x22, x8]
	str	d9, [sp, #184]
	strb	wzr, [sp, #192]
	orr	w8, w8, w9, lsl #8
	cmp	w8, #1
	b.eq	.LBB7_10
	b	.LBB7_39
.LBB7_9:                                //   in Loop: Header=BB7_5 Depth=1
	ldrb	w8, [x22, x8]
	str	d9, [sp, #184]
	strb	wzr, [sp, #192]
	orr	w8, w8, wzr, lsl #8
	cmp	w8, #1
	b.ne	.LBB7_39
.LBB7_10:                               // %join.11.i
                                        //   in Loop: Header=BB7_5 Depth=1
	add	x25, x20, #4
	cmp	x25, x23
	b.hs	.LBB7_17
// %bb.11:                              // %"records::byte_at.exit.i.i24.i"
                                        //   in Loop: Header=BB7_5 Depth=1
	add	x9, x20, #5
	ldrb	w8, [x22, x25]
	cmp	x9, x23
	b.hs	.LBB7_13
// %bb.12:                              // %then.1.i6.i.i30.i
                                        //   in Loop: Header=BB7_5 Depth=1
	ldrb	w9, [x22, x9]
	orr	x8, x8, x9, lsl #8
.LBB7_13:                               // %"records::le16_at.exit.i21.i"
                                        //   in Loop: Header=BB7_5 Depth=1
	add	x9, x20, #6
	cmp	x9, x23
	b.hs	.LBB7_18
.LBB7_14:                               // %"records::byte_at.exit.i8.i.i"
                                        //   in Loop: Header=BB7_5 Depth=1
	add	x10, x20, #7
	ldrb	w9, [x22, x9]
	cmp	x10, x23
	b.hs	.LBB7_16
// %bb.15:                              // %then.1.i6.i19.i.i
                                        //   in Loop: Header=BB7_5 Depth=1
	ldrb	w10, [x22, x10]
	orr	x9, x9, x10, lsl #8
.LBB7_16:                               // %"records::byte_at.exit9.i14.i.i"
                                        //   in Loop: Header=BB7_5 Depth=1
	lsl	x9, x9, #32
	add	x10, x20, #8
	cmp	x10, x23
	b.lo	.LBB7_19
	b	.LBB7_22
.LBB7_17:                               //   in Loop: Header=BB7_5 Depth=1
	mov	x8, xzr
	add	x9, x20, #6
	cmp	x9, x23
	b.lo	.LBB7_14
.LBB7_18:                               //   in Loop: Header=BB7_5 Depth=1
	mov	x9, xzr
	add	x10, x20, #8
	cmp	x10, x23
	b.hs	.LBB7_22
.LBB7_19:                               // %"records::byte_at.exit.i25.i.i"
                                        //   in Loop: Header=BB7_5 Depth=1
	add	x11, x20, #9
	ldrb	w10, [x22, x10]
	cmp	x11, x23
	b.hs	.LBB7_21
// %bb.20:                              // %then.1.i6.i36.i.i
                                        //   in Loop: Header=BB7_5 Depth=1
	ldrb	w11, [x22, x11]
	orr	x10, x10, x11, lsl #8
.LBB7_21:                               // %"records::byte_at.exit9.i31.i.i"
                                        //   in Loop: Header=BB7_5 Depth=1
	orr	x9, x9, x10, lsl #48
.LBB7_22:                               // %"compose::blocks::block_at.exit.i"
                                        //   in Loop: Header=BB7_5 Depth=1
	bfi	x8, x25, #16, #16
	orr	x24, x8, x9
	ands	x3, x24, #0xffff
	b.eq	.LBB7_50
// %bb.23:                              // %"deck::is_unfit.exit.i.i"
                                        //   in Loop: Header=BB7_5 Depth=1
	add	x0, sp, #416
	add	x1, sp, #224
	mov	x2, x19
	bl	"assembly::find_block"
	cmp	x19, #15
	mov	w0, #14                         // =0xe
	b.hi	.LBB7_52
// %bb.24:                              // %"deck::is_unfit.exit.i.i"
                                        //   in Loop: Header=BB7_5 Depth=1
	ldrh	w8, [sp, #416]
	cmp	w8, w24, uxth
	b.eq	.LBB7_52
// %bb.25:                              // %join.3.i34.i
                                        //   in Loop: Header=BB7_5 Depth=1
	lsr	w8, w24, #16
	cmp	x23, x8
	b.hs	.LBB7_29
// %bb.26:                              //   in Loop: Header=BB7_5 Depth=1
	mov	x27, xzr
	mov	x21, x23
	movi	v0.2d, #0000000000000000
	ldr	x9, [sp, #24]                   // 8-byte Reload
	add	x8, x28, #528
	ubfx	x26, x24, #32, #16
	cmp	x9, x8
	b.lo	.LBB7_30
.LBB7_27:                               // %join.3.i1.i.i
                                        //   in Loop: Header=BB7_5 Depth=1
	add	x0, sp, #352
	add	x2, x22, x21
	add	x4, sp, #416
	mov	x1, x26
	mov	x3, x27
	str	xzr, [sp, #400]
	stp	q0, q0, [sp, #368]
	str	q0, [sp, #352]
	bl	"reach::opened"
	ldrb	w8, [sp, #352]
	ldr	x0, [sp, #360]
	cbz	w8, .LBB7_33
// %bb.28:                              // %arm.4.i.i.i.i
                                        //   in Loop: Header=BB7_5 Depth=1
	ldr	x1, [sp, #368]
	mov	w8, #1                          // =0x1
	cbz	w8, .LBB7_36
	b	.LBB7_51
.LBB7_29:                               // %join.3.i.i.i.i
                                        //   in Loop: Header=BB7_5 Depth=1
	lsr	x9, x24, #47
	add	x8, x8, #6
	subs	x10, x23, x8
	and	x9, x9, #0x1fffe
	csel	x21, x23, x8, lo
	cmp	x10, x9
	csel	x9, x10, x9, lo
	cmp	x23, x8
	csel	x27, xzr, x9, lo
	movi	v0.2d, #0000000000000000
	ldr	x9, [sp, #24]                   // 8-byte Reload
	add	x8, x28, #528
	ubfx	x26, x24, #32, #16
	cmp	x9, x8
	b.hs	.LBB7_27
.LBB7_30:                               // %then.1.i.i.i
                                        //   in Loop: Header=BB7_5 Depth=1
	add	x1, x22, x21
	add	x3, sp, #416
	mov	x0, x26
	mov	x2, x27
	stp	q0, q0, [sp, #416]
	stp	q0, q0, [sp, #448]
	stp	q0, q0, [sp, #480]
	stp	q0, q0, [sp, #512]
	stp	q0, q0, [sp, #544]
	stp	q0, q0, [sp, #576]
	stp	q0, q0, [sp, #608]
	stp	q0, q0, [sp, #640]
	stp	q0, q0, [sp, #672]
	stp	q0, q0, [sp, #704]
	stp	q0, q0, [sp, #736]
	stp	q0, q0, [sp, #768]
	stp	q0, q0, [sp, #800]
	stp	q0, q0, [sp, #832]
	stp	q0, q0, [sp, #864]
	stp	q0, q0, [sp, #896]
	bl	"block::admit"
	tbz	w0, #0, .LBB7_32
// %bb.31:                              //   in Loop: Header=BB7_5 Depth=1
	mov	x0, xzr
	mov	x1, xzr
	b	.LBB7_36
.LBB7_32:                               // %join.5.i.i.i.i
                                        //   in Loop: Header=BB7_5 Depth=1
	add	x1, x22, x21
	mov	x0, x26
	mov	x2, x27
	bl	"block::refusal"
	mov	w8, #1                          // =0x1
	cbz	w8, .LBB7_36
	b	.LBB7_51
.LBB7_33:                               // %arm.3.i.i.i.i
                                        //   in Loop: Header=BB7_5 Depth=1
	add	x8, sp, #200
	lsr	x9, x24, #8
	ldur	q0, [x8, #176]
	ldr	x8, [sp]                        // 8-byte Reload
	add	x8, x8, x28
	xtn	v0.2s, v0.2d
	strb	w9, [x8, #1]
	ldp	x9, x10, [sp, #392]
	strb	w24, [x8]
	strb	w0, [x8, #2]
	strb	w10, [x8, #3]
	stur	d0, [x8, #4]
	str	w9, [x8, #12]
	cbz	x26, .LBB7_35
// %bb.34:                              // %join.5.i.i.i.preheader.i.i
                                        //   in Loop: Header=BB7_5 Depth=1
	lsl	x2, x26, #3
	add	x0, x8, #16
	add	x1, sp, #416
	bl	memcpy
.LBB7_35:                               //   in Loop: Header=BB7_5 Depth=1
	mov	x1, xzr
	mov	x0, xzr
.LBB7_36:                               // %join.14.i
                                        //   in Loop: Header=BB7_5 Depth=1
	add	x8, sp, #224
	cmp	x20, x23
	str	x24, [x8, x19, lsl #3]
	b.hs	.LBB7_3
// %bb.37:                              // %"records::byte_at.exit.i47.i"
                                        //   in Loop: Header=BB7_5 Depth=1
	add	x9, x20, #1
	ldrb	w8, [x22, x20]
	cmp	x9, x23
	b.hs	.LBB7_4
// %bb.38:                              // %then.1.i6.i58.i
                                        //   in Loop: Header=BB7_5 Depth=1
	ldrb	w9, [x22, x9]
	orr	x8, x8, x9, lsl #8
	b	.LBB7_4
.LBB7_39:                               // %then.9.i
	cmp	x23, x20
	b.hs	.LBB7_45
// %bb.40:
	ldr	x14, [sp, #8]                   // 8-byte Reload
	mov	x8, xzr
.LBB7_41:                               // %"records::le16_at.exit.i.i"
	cmp	x20, x23
	b.hs	.LBB7_48
// %bb.42:                              // %"records::byte_at.exit.i4.i.i"
	add	x10, x20, #1
	ldrb	w9, [x22, x20]
	cmp	x10, x23
	b.hs	.LBB7_49
// %bb.43:                              // %then.1.i6.i13.i.i
	ldrb	w10, [x22, x10]
	orr	x9, x9, x10, lsl #8
	b	.LBB7_49
.LBB7_44:                               // %arm.6.i
	add	x13, sp, #200
	ldrb	w11, [sp, #215]
	movi	v0.2d, #0000000000000000
	ldurh	w12, [x13, #13]
	ldur	w13, [x13, #9]
	ldrb	w0, [sp, #208]
	mov	x19, xzr
	mov	x20, xzr
	mov	x8, xzr
	orr	w11, w12, w11, lsl #16
	ldr	x12, [sp, #216]
	mov	x9, xzr
	stp	q0, q0, [sp, #32]
	orr	x11, x13, x11, lsl #32
	b	.LBB7_53
.LBB7_45:                               // %join.3.i.i.i
	ldr	x14, [sp, #8]                   // 8-byte Reload
	cmp	x20, x23
	add	x9, x20, #4
	b.hs	.LBB7_56
// %bb.46:                              // %"records::byte_at.exit.i.i.i.i"
	add	x8, x20, #1
	ldrb	w10, [x22, x20]
	cmp	x8, x23
	b.hs	.LBB7_57
// %bb.47:                              // %then.1.i6.i.i.i.i
	ldrb	w8, [x22, x8]
	orr	x10, x10, x8, lsl #8
	b	.LBB7_57
.LBB7_48:
	mov	x9, xzr
.LBB7_49:                               // %"compose::blocks::deck_at.exit.i"
	ldp	q0, q1, [sp, #288]
	add	x9, x20, x9
	mov	x11, xzr
	mov	w10, wzr
	mov	w0, wzr
	mov	x12, xzr
	add	x9, x9, #4
	stp	q0, q1, [sp, #96]
	ldp	q2, q0, [sp, #320]
	stp	q2, q0, [sp, #128]
	ldp	q1, q0, [sp, #224]
	stp	q1, q0, [sp, #32]
	ldp	q2, q0, [sp, #256]
	stp	q2, q0, [sp, #64]
	b	.LBB7_54
.LBB7_50:                               // %"deck::is_unfit.exit.thread.i.i"
	mov	w0, #14                         // =0xe
	b	.LBB7_52
.LBB7_51:                               // %arm.2.i.i.i
	add	x8, x20, #8
	cmp	x1, #0
	add	x8, x8, x1, lsl #1
	csel	x20, x20, x8, eq
.LBB7_52:                               // %arm.13.i
	movi	v0.2d, #0000000000000000
	mov	x19, xzr
	mov	x8, xzr
	mov	x9, xzr
	lsr	x11, x0, #8
	mov	w10, #1                         // =0x1
	mov	x12, x20
	mov	x20, xzr
	stp	q0, q0, [sp, #32]
.LBB7_53:                               // %"compose::blocks::read_blocks.exit"
	stp	q0, q0, [sp, #64]
	stp	q0, q0, [sp, #96]
	stp	q0, q0, [sp, #128]
	ldr	x14, [sp, #8]                   // 8-byte Reload
.LBB7_54:                               // %"compose::blocks::read_blocks.exit"
	ldp	q0, q1, [sp, #96]
	lsr	x13, x11, #32
	strb	w10, [x14]
	lsr	x10, x11, #48
	strb	w0, [x14, #8]
	stp	q0, q1, [x14, #96]
	ldp	q2, q0, [sp, #128]
	strb	w10, [x14, #15]
	sturh	w13, [x14, #13]
	stp	q2, q0, [x14, #128]
	ldp	q1, q0, [sp, #32]
	stur	w11, [x14, #9]
	stp	x12, x19, [x14, #16]
	stp	q1, q0, [x14, #32]
	ldp	q2, q0, [sp, #64]
	stp	x20, x8, [x14, #160]
	str	x9, [x14, #176]
	stp	q2, q0, [x14, #64]
.LBB7_55:                               // %then.1
	add	sp, sp, #944
	ldp	x20, x19, [sp, #96]             // 16-byte Folded Reload
	ldp	x22, x21, [sp, #80]             // 16-byte Folded Reload
	ldp	x24, x23, [sp, #64]             // 16-byte Folded Reload
	ldp	x26, x25, [sp, #48]             // 16-byte Folded Reload
	ldp	x28, x27, [sp, #32]             // 16-byte Folded Reload
	ldp	x29, x30, [sp, #16]             // 16-byte Folded Reload
	ldp	d9, d8, [sp], #112              // 16-byte Folded Reload
	ret
.LBB7_56:
	mov	x10, xzr
.LBB7_57:                               // %"records::payload_at.exit.i.i"
	subs	x11, x23, x9
	mov	x8, xzr
	cmp	x11, x10
	csel	x10, x11, x10, lo
	cmp	x23, x9
	csel	x9, x23, x9, lo
	b.lo	.LBB7_41
// %bb.58:                              // %"records::payload_at.exit.i.i"
	cbz	x10, .LBB7_41
// %bb.59:                              // %"records::byte_at.exit.i.i.i"
	add	x9, x22, x9
	cmp	x10, #2
	ldrb	w8, [x9]
	b.lo	.LBB7_41
// %bb.60:                              // %then.1.i6.i.i.i
	ldrb	w9, [x9, #1]
	orr	x8, x8, x9, lsl #8
	b	.LBB7_41
.Lfunc_end7:
	.size	"compose::blocks::open_deck", .Lfunc_end7-"compose::blocks::open_deck"
                                        // -- End function
	.section	".text.records::record_at","ax",@progbits
	.p2align	2                               // -- Begin function records::record_at
	.type	"records::record_at",@function
"records::record_at":                   // @"records::record_at"
// %bb.0:                               // %start
	subs	x8, x2, x3
	b.hs	.LBB8_2
.LBB8_1:                                // %then.1
	mov	w8, #1                          // =0x1
	mov	w9, #11                         // =0xb
	strb	w8, [x0]
	stp	x9, x3, [x0, #8]
	ret
.LBB8_2:                                // %join.3
	b.ls	.LBB8_6
// %bb.3:                               // %"records::byte_at.exit.i"
	add	x10, x3, #1
	ldrb	w9, [x1, x3]
	cmp	x10, x2
	b.hs	.LBB8_5
// %bb.4:                               // %then.1.i6.i
	ldrb	w10, [x1, x10]
	orr	x9, x9, x10, lsl #8
.LBB8_5:                                // %"records::byte_at.exit9.i"
	add	x9, x9, #4
	cmp	x8, x9
	b.lo	.LBB8_1
	b	.LBB8_7
.LBB8_6:
	mov	w9, #4                          // =0x4
	cmp	x8, x9
	b.lo	.LBB8_1
.LBB8_7:                                // %join.6
	add	x9, x3, #2
	ldrh	w8, [x4]
	cmp	x9, x2
	b.hs	.LBB8_10
// %bb.8:                               // %"records::byte_at.exit.i15"
	add	x10, x3, #3
	ldrb	w9, [x1, x9]
	cmp	x10, x2
	b.hs	.LBB8_15
// %bb.9:                               // %then.1.i6.i26
	ldrb	w10, [x1, x10]
	orr	w9, w9, w10, lsl #8
	cmp	w9, w8
	b.ne	.LBB8_16
	b	.LBB8_11
.LBB8_10:
	mov	w9, wzr
	cmp	wzr, w8
	b.ne	.LBB8_16
.LBB8_11:                               // %then.7
	ldrb	w9, [x4, #8]
	ldrh	w8, [x4, #2]
	tbz	w9, #0, .LBB8_21
// %bb.12:                              // %then.1.i.i
	cmp	x2, x3
	b.ls	.LBB8_25
// %bb.13:                              // %"records::byte_at.exit.i.i.i"
	add	x10, x3, #1
	ldrb	w9, [x1, x3]
	cmp	x10, x2
	b.hs	.LBB8_20
.LBB8_14:                               // %then.1.i6.i.i.i
	ldrb	w10, [x1, x10]
	orr	w9, w9, w10, lsl #8
	cmp	w9, w8
	b.hs	.LBB8_26
	b	.LBB8_38
.LBB8_15:
	orr	w9, w9, wzr, lsl #8
	cmp	w9, w8
	b.eq	.LBB8_11
.LBB8_16:                               // %join.9
	ldrh	w8, [x5]
	cmp	w9, w8
	b.ne	.LBB8_24
// %bb.17:                              // %then.10
	ldrb	w9, [x5, #8]
	ldrh	w8, [x5, #2]
	tbz	w9, #0, .LBB8_27
// %bb.18:                              // %then.1.i.i78
	cmp	x2, x3
	b.ls	.LBB8_25
// %bb.19:                              // %"records::byte_at.exit.i.i.i83"
	add	x10, x3, #1
	ldrb	w9, [x1, x3]
	cmp	x10, x2
	b.lo	.LBB8_14
.LBB8_20:
	orr	w9, w9, wzr, lsl #8
	cmp	w9, w8
	b.hs	.LBB8_26
	b	.LBB8_38
.LBB8_21:                               // %join.3.i.i
	ldrh	w9, [x4, #4]
	add	x9, x3, x9
	add	x10, x9, #4
	ldrh	w9, [x4, #6]
	cmp	x10, x2
	b.hs	.LBB8_30
// %bb.22:                              // %"records::byte_at.exit.i.i.i.i"
	add	x11, x10, #1
	ldrb	w10, [x1, x10]
	cmp	x11, x2
	b.hs	.LBB8_31
// %bb.23:                              // %then.1.i6.i.i.i.i
	ldrb	w11, [x1, x11]
	orr	x10, x10, x11, lsl #8
	b	.LBB8_31
.LBB8_24:                               // %join.12
	mov	w8, #1                          // =0x1
	mov	w9, #12                         // =0xc
	strb	w8, [x0]
	stp	x9, x3, [x0, #8]
	ret
.LBB8_25:
	cmp	wzr, w8
	b.lo	.LBB8_38
.LBB8_26:                               // %join.3.i
	strb	wzr, [x0]
	stp	xzr, xzr, [x0, #8]
	ret
.LBB8_27:                               // %join.3.i.i38
	ldrh	w9, [x5, #4]
	add	x9, x3, x9
	add	x10, x9, #4
	ldrh	w9, [x5, #6]
	cmp	x10, x2
	b.hs	.LBB8_34
// %bb.28:                              // %"records::byte_at.exit.i.i.i.i69"
	add	x11, x10, #1
	ldrb	w10, [x1, x10]
	cmp	x11, x2
	b.hs	.LBB8_35
// %bb.29:                              // %then.1.i6.i.i.i.i75
	ldrb	w11, [x1, x11]
	orr	x10, x10, x11, lsl #8
	b	.LBB8_35
.LBB8_30:
	mov	x10, xzr
.LBB8_31:                               // %"records::le16_at.exit.i.i.i"
	cmp	x2, x3
	b.ls	.LBB8_36
.LBB8_32:                               // %"records::byte_at.exit.i8.i.i.i"
	add	x12, x3, #1
	ldrb	w11, [x1, x3]
	cmp	x12, x2
	b.hs	.LBB8_37
// %bb.33:                              // %then.1.i6.i19.i.i.i
	ldrb	w12, [x1, x12]
	orr	x11, x11, x12, lsl #8
	b	.LBB8_37
.LBB8_34:
	mov	x10, xzr
.LBB8_35:                               // %"records::le16_at.exit.i.i.i45"
	cmp	x2, x3
	b.hi	.LBB8_32
.LBB8_36:
	mov	x11, xzr
.LBB8_37:                               // %"records::is_wrong.exit.i"
	umaddl	x8, w10, w9, x8
	cmp	x8, x11
	b.eq	.LBB8_26
.LBB8_38:
	mov	w8, #1                          // =0x1
	mov	w9, #13                         // =0xd
	strb	w8, [x0]
	stp	x9, x3, [x0, #8]
	ret
.Lfunc_end8:
	.size	"records::record_at", .Lfunc_end8-"records::record_at"
                                        // -- End function
	.section	".text.assembly::find_block","ax",@progbits
	.p2align	2                               // -- Begin function assembly::find_block
	.type	"assembly::find_block",@function
"assembly::find_block":                 // @"assembly::find_block"
// %bb.0:                               // %start
	cbz	x2, .LBB9_4
// %bb.1:                               // %join.8
	ldr	x8, [x1]
	cmp	w3, w8, uxth
	b.ne	.LBB9_3
.LBB9_2:                                // %then.9
	str	x8, [x0]
	ret
.LBB9_3:                                // %loop.2
	cmp	x2, #1
	b.ne	.LBB9_5
.LBB9_4:                                // %loop.2.15
	strh	wzr, [x0]
	strh	wzr, [x0, #6]
	stur	wzr, [x0, #2]
	ret
.LBB9_5:                                // %join.8.1
	ldr	x8, [x1, #8]
	cmp	w3, w8, uxth
	b.eq	.LBB9_2
// %bb.6:                               // %loop.2.1
	cmp	x2, #2
	b.eq	.LBB9_4
// %bb.7:                               // %join.8.2
	ldr	x8, [x1, #16]
	cmp	w3, w8, uxth
	b.eq	.LBB9_2
// %bb.8:                               // %loop.2.2
	cmp	x2, #3
	b.eq	.LBB9_4
// %bb.9:                               // %join.8.3
	ldr	x8, [x1, #24]
	cmp	w3, w8, uxth
	b.eq	.LBB9_2
// %bb.10:                              // %loop.2.3
	cmp	x2, #4
	b.eq	.LBB9_4
// %bb.11:                              // %join.8.4
	ldr	x8, [x1, #32]
	cmp	w3, w8, uxth
	b.eq	.LBB9_2
// %bb.12:                              // %loop.2.4
	cmp	x2, #5
	b.eq	.LBB9_4
// %bb.13:                              // %join.8.5
	ldr	x8, [x1, #40]
	cmp	w3, w8, uxth
	b.eq	.LBB9_2
// %bb.14:                              // %loop.2.5
	cmp	x2, #6
	b.eq	.LBB9_4
// %bb.15:                              // %join.8.6
	ldr	x8, [x1, #48]
	cmp	w3, w8, uxth
	b.eq	.LBB9_2
// %bb.16:                              // %loop.2.6
	cmp	x2, #7
	b.eq	.LBB9_4
// %bb.17:                              // %join.8.7
	ldr	x8, [x1, #56]
	cmp	w3, w8, uxth
	b.eq	.LBB9_2
// %bb.18:                              // %loop.2.7
	cmp	x2, #8
	b.eq	.LBB9_4
// %bb.19:                              // %join.8.8
	ldr	x8, [x1, #64]
	cmp	w3, w8, uxth
	b.eq	.LBB9_2
// %bb.20:                              // %loop.2.8
	cmp	x2, #9
	b.eq	.LBB9_4
// %bb.21:                              // %join.8.9
	ldr	x8, [x1, #72]
	cmp	w3, w8, uxth
	b.eq	.LBB9_2
// %bb.22:                              // %loop.2.9
	cmp	x2, #10
	b.eq	.LBB9_4
// %bb.23:                              // %join.8.10
	ldr	x8, [x1, #80]
	cmp	w3, w8, uxth
	b.eq	.LBB9_2
// %bb.24:                              // %loop.2.10
	cmp	x2, #11
	b.eq	.LBB9_4
// %bb.25:                              // %join.8.11
	ldr	x8, [x1, #88]
	cmp	w3, w8, uxth
	b.eq	.LBB9_2
// %bb.26:                              // %loop.2.11
	cmp	x2, #12
	b.eq	.LBB9_4
// %bb.27:                              // %join.8.12
	ldr	x8, [x1, #96]
	cmp	w3, w8, uxth
	b.eq	.LBB9_2
// %bb.28:                              // %loop.2.12
	cmp	x2, #13
	b.eq	.LBB9_4
// %bb.29:                              // %join.8.13
	ldr	x8, [x1, #104]
	cmp	w3, w8, uxth
	b.eq	.LBB9_2
// %bb.30:                              // %loop.2.13
	cmp	x2, #14
	b.eq	.LBB9_4
// %bb.31:                              // %join.8.14
	ldr	x8, [x1, #112]
	cmp	w3, w8, uxth
	b.eq	.LBB9_2
// %bb.32:                              // %loop.2.14
	cmp	x2, #15
	b.eq	.LBB9_4
// %bb.33:                              // %join.8.15
	ldr	x8, [x1, #120]
	cmp	w3, w8, uxth
	b.eq	.LBB9_2
	b	.LBB9_4
.Lfunc_end9:
	.size	"assembly::find_block", .Lfunc_end9-"assembly::find_block"
                                        // -- End function
	.section	".text.reach::opened","ax",@progbits
	.p2align	2                               // -- Begin function reach::opened
	.type	"reach::opened",@function
"reach::opened":                        // @"reach::opened"
// %bb.0:                               // %start
	sub	sp, sp, #96
	movi	v16.2d, #0000000000000000
	str	x19, [sp, #80]                  // 8-byte Spill
	mov	x19, x0
	cmp	x3, #384
	stp	x29, x30, [sp, #64]             // 16-byte Folded Spill
	add	x29, sp, #64
	str	xzr, [sp, #48]
	stp	q16, q16, [sp, #16]
	str	q16, [sp]
	stp	q16, q16, [x4]
	stp	q16, q16, [x4, #32]
	stp	q16, q16, [x4, #64]
	stp	q16, q16, [x4, #96]
	stp	q16, q16, [x4, #128]
	stp	q16, q16, [x4, #160]
	stp	q16, q16, [x4, #192]
	stp	q16, q16, [x4, #224]
	stp	q16, q16, [x4, #256]
	stp	q16, q16, [x4, #288]
	stp	q16, q16, [x4, #320]
	stp	q16, q16, [x4, #352]
	stp	q16, q16, [x4, #384]
	stp	q16, q16, [x4, #416]
	stp	q16, q16, [x4, #448]
	stp	q16, q16, [x4, #480]
	b.hi	.LBB10_19
// %bb.1:                               // %start
	sub	x8, x1, #65
	cmn	x8, #64
	b.lo	.LBB10_19
// %bb.2:                               // %start
	tbnz	w3, #0, .LBB10_19
// %bb.3:                               // %after.1.i.i
	cbz	x3, .LBB10_8
// %bb.4:                               // %join.5.i.i.i.preheader
	lsr	x9, x3, #1
	add	x10, x2, #1
.LBB10_5:                               // %join.5.i.i.i
                                        // =>This Inner Loop Header: Depth=1
	ldurb	w8, [x10, #-1]
	sub	x11, x8, #1
	cmp	x11, x1
	b.hs	.LBB10_9
// %bb.6:                               // %else.9.i.i.i
                                        //   in Loop: Header=BB10_5 Depth=1
	ldrb	w8, [x10], #2
	sub	x12, x8, #1
	cmp	x12, x1
	b.hs	.LBB10_12
// %bb.7:                               // %after.6.i.i.i
                                        //   in Loop: Header=BB10_5 Depth=1
	mov	w8, #1                          // =0x1
	ldr	x14, [x4, x11, lsl #3]
	subs	x9, x9, #1
	lsl	x13, x8, x12
	orr	x13, x14, x13
	str	x13, [x4, x11, lsl #3]
	lsl	x11, x8, x11
	ldr	x13, [x4, x12, lsl #3]
	orr	x11, x13, x11
	str	x11, [x4, x12, lsl #3]
	b.ne	.LBB10_5
	b	.LBB10_10
.LBB10_8:
	mov	w8, #1                          // =0x1
	cmp	x1, #4
	b.lo	.LBB10_11
	b	.LBB10_13
.LBB10_9:
	mov	w8, wzr
.LBB10_10:                              // %"block::bonding::sketched.exit.i.i"
	cmp	x1, #4
	b.hs	.LBB10_13
.LBB10_11:
	mov	x11, xzr
	mov	x10, xzr
	mov	x9, xzr
	b	.LBB10_16
.LBB10_12:
	mov	w8, wzr
	cmp	x1, #4
	b.lo	.LBB10_11
.LBB10_13:                              // %vector.ph
	movi	v0.2d, #0000000000000000
	movi	v1.2d, #0000000000000000
	and	x9, x1, #0x7c
	movi	v2.2d, #0000000000000000
	movi	v3.2d, #0000000000000000
	add	x10, x4, #16
	and	x11, x1, #0x7c
.LBB10_14:                              // %vector.body
                                        // =>This Inner Loop Header: Depth=1
	ldp	q4, q5, [x10, #-16]
	mov	w12, #1                         // =0x1
	dup	v6.2d, x12
	subs	x11, x11, #4
	add	x10, x10, #32
	cnt	v4.16b, v4.16b
	cnt	v5.16b, v5.16b
	mov	v7.16b, v6.16b
	uaddlp	v4.8h, v4.16b
	uaddlp	v5.8h, v5.16b
	uaddlp	v4.4s, v4.8h
	uaddlp	v5.4s, v5.8h
	uadalp	v7.2d, v4.4s
	uadalp	v6.2d, v5.4s
	uadalp	v0.2d, v4.4s
	uadalp	v1.2d, v5.4s
	orr	v2.16b, v7.16b, v2.16b
	orr	v3.16b, v6.16b, v3.16b
	b.ne	.LBB10_14
// %bb.15:                              // %middle.block
	orr	v2.16b, v3.16b, v2.16b
	add	v0.2d, v1.2d, v0.2d
	cmp	x1, x9
	ext	v1.16b, v2.16b, v2.16b, #8
	addp	d0, v0.2d
	orr	v1.8b, v2.8b, v1.8b
	fmov	x11, d0
	fmov	x10, d1
	b.eq	.LBB10_18
.LBB10_16:                              // %join.5.i12.i.i.preheader
	add	x12, x4, x9, lsl #3
	sub	x9, x1, x9
.LBB10_17:                              // %join.5.i12.i.i
                                        // =>This Inner Loop Header: Depth=1
	ldr	d0, [x12], #8
	subs	x9, x9, #1
	cnt	v0.8b, v0.8b
	addv	b0, v0.8b
	fmov	x13, d0
	add	x14, x13, #1
	add	x11, x13, x11
	orr	x10, x14, x10
	b.ne	.LBB10_17
.LBB10_18:                              // %"block::bonding::is_plain.exit.i.i"
	cmp	x11, x3
	csel	w8, wzr, w8, ne
	cmp	w8, #1
	ccmp	x10, #7, #2, eq
	b.ls	.LBB10_20
.LBB10_19:                              // %arm.2
	mov	x0, x1
	mov	x1, x2
	mov	x2, x3
	stp	q16, q16, [x4]
	stp	q16, q16, [x4, #32]
	stp	q16, q16, [x4, #64]
	stp	q16, q16, [x4, #96]
	stp	q16, q16, [x4, #128]
	stp	q16, q16, [x4, #160]
	stp	q16, q16, [x4, #192]
	stp	q16, q16, [x4, #224]
	stp	q16, q16, [x4, #256]
	stp	q16, q16, [x4, #288]
	stp	q16, q16, [x4, #320]
	stp	q16, q16, [x4, #352]
	stp	q16, q16, [x4, #384]
	stp	q16, q16, [x4, #416]
	stp	q16, q16, [x4, #448]
	stp	q16, q16, [x4, #480]
	bl	"block::refusal"
	movi	v0.2d, #0000000000000000
	stp	x0, x1, [sp, #8]
	mov	w8, #1                          // =0x1
	str	x8, [x19]
	stur	q0, [sp, #24]
	stur	q0, [sp, #40]
	ldur	q0, [sp, #8]
	ldur	q1, [sp, #24]
	stur	q0, [x19, #8]
	ldur	q0, [sp, #40]
	stur	q1, [x19, #24]
	stur	q0, [x19, #40]
	ldp	x29, x30, [sp, #64]             // 16-byte Folded Reload
	ldr	x19, [sp, #80]                  // 8-byte Reload
	add	sp, sp, #96
	ret
.LBB10_20:                              // %arm.1
	mov	x0, sp
	add	x6, x29, #24
	mov	x5, xzr
	bl	"reach::summed"
	ldrb	w8, [sp]
	ldur	q0, [sp, #8]
	ldur	q1, [sp, #24]
	ldur	q2, [sp, #40]
	str	x8, [x19]
	stur	q0, [x19, #8]
	stur	q1, [x19, #24]
	stur	q2, [x19, #40]
	ldp	x29, x30, [sp, #64]             // 16-byte Folded Reload
	ldr	x19, [sp, #80]                  // 8-byte Reload
	add	sp, sp, #96
	ret
.Lfunc_end10:
	.size	"reach::opened", .Lfunc_end10-"reach::opened"
                                        // -- End function
	.section	".text.summaries::compose","ax",@progbits
	.p2align	2                               // -- Begin function summaries::compose
	.type	"summaries::compose",@function
"summaries::compose":                   // @"summaries::compose"
// %bb.0:                               // %start
	stp	x29, x30, [sp, #-80]!           // 16-byte Folded Spill
	str	x28, [sp, #16]                  // 8-byte Spill
	mov	x29, sp
	stp	x24, x23, [sp, #32]             // 16-byte Folded Spill
	stp	x22, x21, [sp, #48]             // 16-byte Folded Spill
	stp	x20, x19, [sp, #64]             // 16-byte Folded Spill
	sub	sp, sp, #3072
	str	xzr, [sp]
	sub	sp, sp, #752
	movi	v0.2d, #0000000000000000
	mov	x19, x0
	add	x0, sp, #424
	mov	x23, x4
	mov	x24, x3
	mov	x20, x2
	mov	x21, x1
	stp	xzr, xzr, [sp, #424]
	str	xzr, [sp, #440]
	stp	q0, q0, [sp]
	bl	"shelf::check"
	ldrb	w8, [sp, #424]
	cbz	w8, .LBB11_2
// %bb.1:                               // %arm.2
	movi	v1.2d, #0000000000000000
	add	x9, sp, #177
	mov	w8, #1                          // =0x1
	ldur	q0, [x9, #255]
	str	x8, [x19]
	stur	q0, [x19, #8]
	stur	q1, [x19, #24]
	stur	q1, [x19, #40]
	b	.LBB11_46
.LBB11_2:                               // %arm.1
	cbz	x23, .LBB11_38
// %bb.3:                               // %"records::byte_at.exit.i"
	ldrb	w22, [x24]
	cmp	x23, #1
	b.eq	.LBB11_5
// %bb.4:                               // %then.1.i6.i
	ldrb	w8, [x24, #1]
	orr	x22, x22, x8, lsl #8
.LBB11_5:                               // %"records::le16_at.exit"
	movi	v0.2d, #0000000000000000
	str	q0, [sp, #1072]
	str	q0, [sp, #1056]
	str	q0, [sp, #1040]
	stp	q0, q0, [sp, #720]
	stp	q0, q0, [sp, #752]
	stp	q0, q0, [sp, #784]
	stp	q0, q0, [sp, #816]
	stp	q0, q0, [sp, #848]
	stp	q0, q0, [sp, #880]
	stp	q0, q0, [sp, #912]
	stp	q0, q0, [sp, #944]
	stp	q0, q0, [sp, #976]
	stp	q0, q0, [sp, #1008]
	str	q0, [sp, #704]
	cbz	x22, .LBB11_39
// %bb.6:                               // %join.7.lr.ph.i
	mov	w10, #43691                     // =0xaaab
	add	x12, x22, x22, lsl #1
	add	x11, sp, #704
	movk	w10, #43690, lsl #16
	mov	x8, xzr
	mov	x9, xzr
	mul	x10, x23, x10
	lsl	x12, x12, #1
	add	x13, x11, #256
	add	x14, x24, #7
	lsr	x10, x10, #34
	b	.LBB11_10
.LBB11_7:                               // %then.4.i.i.i
                                        //   in Loop: Header=BB11_10 Depth=1
	ldrh	w18, [x24, #2]
.LBB11_8:                               // %"summaries::links::block_of.exit.i"
                                        //   in Loop: Header=BB11_10 Depth=1
	mov	w16, wzr
.LBB11_9:                               // %"summaries::links::block_of.exit.i"
                                        //   in Loop: Header=BB11_10 Depth=1
	orr	w15, w15, w18, lsl #8
	add	x8, x8, #6
	and	w16, w16, #0xffff
	cmp	x12, x8
	add	x11, x11, #8
	str	w15, [x17, #4]
	str	w16, [x13, x9, lsl #2]
	add	x9, x9, #1
	b.eq	.LBB11_39
.LBB11_10:                              // %join.7.i
                                        // =>This Inner Loop Header: Depth=1
	cmp	x9, x10
	b.ls	.LBB11_12
// %bb.11:                              // %"assembly::placement_at.exit.thread.i"
                                        //   in Loop: Header=BB11_10 Depth=1
	add	x16, sp, #704
	mov	w15, wzr
	str	wzr, [x11]
	add	x17, x16, x9, lsl #3
	cmp	x23, #8
	b.hs	.LBB11_7
	b	.LBB11_32
.LBB11_12:                              // %join.3.i.i
                                        //   in Loop: Header=BB11_10 Depth=1
	add	x15, x8, #8
	cmp	x15, x23
	b.ls	.LBB11_16
// %bb.13:                              // %join.6.i.i
                                        //   in Loop: Header=BB11_10 Depth=1
	add	x15, x8, #2
	cmp	x15, x23
	b.hs	.LBB11_23
// %bb.14:                              // %"records::byte_at.exit.i.i.i"
                                        //   in Loop: Header=BB11_10 Depth=1
	add	x15, x8, #3
	cmp	x15, x23
	add	x15, x14, x8
	b.hs	.LBB11_28
// %bb.15:                              // %then.1.i6.i.i.i
                                        //   in Loop: Header=BB11_10 Depth=1
	ldurb	w16, [x15, #-4]
	ldurb	w15, [x15, #-5]
	orr	w17, w15, w16, lsl #8
	add	x15, x8, #4
	cmp	x15, x23
	b.hs	.LBB11_29
	b	.LBB11_24
.LBB11_16:                              // %then.4.i.i
                                        //   in Loop: Header=BB11_10 Depth=1
	add	x18, x14, x8
	ldurh	w17, [x18, #-5]
	ldurh	w16, [x18, #-3]
	ldurb	w15, [x18, #-1]
	ldrb	w18, [x18]
	bfi	w18, w17, #8, #16
	tst	w16, #0xffff
	str	w18, [x11]
	b.eq	.LBB11_31
.LBB11_17:                              // %join.3.i13.i
                                        //   in Loop: Header=BB11_10 Depth=1
	and	x17, x16, #0xffff
	sub	x17, x17, #1
	cmp	x17, x10
	b.ls	.LBB11_19
.LBB11_18:                              //   in Loop: Header=BB11_10 Depth=1
	mov	w18, wzr
	b	.LBB11_27
.LBB11_19:                              // %join.3.i.i.i
                                        //   in Loop: Header=BB11_10 Depth=1
	add	x17, x17, x17, lsl #1
	lsl	x17, x17, #1
	add	x18, x17, #8
	cmp	x18, x23
	add	x18, x17, #2
	b.ls	.LBB11_26
// %bb.20:                              // %join.6.i31.i.i
                                        //   in Loop: Header=BB11_10 Depth=1
	cmp	x18, x23
	b.hs	.LBB11_18
// %bb.21:                              // %"records::byte_at.exit.i.i60.i.i"
                                        //   in Loop: Header=BB11_10 Depth=1
	add	x17, x17, #3
	ldrb	w18, [x24, x18]
	cmp	x17, x23
	b.hs	.LBB11_27
// %bb.22:                              // %then.1.i6.i.i70.i.i
                                        //   in Loop: Header=BB11_10 Depth=1
	ldrb	w17, [x24, x17]
	orr	w18, w18, w17, lsl #8
	b	.LBB11_27
.LBB11_23:                              //   in Loop: Header=BB11_10 Depth=1
	mov	w17, wzr
	add	x15, x8, #4
	cmp	x15, x23
	b.hs	.LBB11_29
.LBB11_24:                              // %"records::byte_at.exit.i52.i.i"
                                        //   in Loop: Header=BB11_10 Depth=1
	add	x15, x8, #5
	cmp	x15, x23
	add	x15, x14, x8
	b.hs	.LBB11_36
// %bb.25:                              // %then.1.i6.i63.i.i
                                        //   in Loop: Header=BB11_10 Depth=1
	ldurb	w16, [x15, #-2]
	ldurb	w15, [x15, #-3]
	orr	w16, w15, w16, lsl #8
	add	x15, x8, #6
	cmp	x15, x23
	b.hs	.LBB11_37
	b	.LBB11_30
.LBB11_26:                              // %then.4.i7.i.i
                                        //   in Loop: Header=BB11_10 Depth=1
	ldrh	w18, [x24, x18]
.LBB11_27:                              // %"summaries::links::block_of.exit.i"
                                        //   in Loop: Header=BB11_10 Depth=1
	mov	x17, x11
	b	.LBB11_9
.LBB11_28:                              //   in Loop: Header=BB11_10 Depth=1
	ldurb	w15, [x15, #-5]
	orr	w17, w15, wzr, lsl #8
	add	x15, x8, #4
	cmp	x15, x23
	b.lo	.LBB11_24
.LBB11_29:                              //   in Loop: Header=BB11_10 Depth=1
	mov	w16, wzr
	add	x15, x8, #6
	cmp	x15, x23
	b.hs	.LBB11_37
.LBB11_30:                              // %then.1.i.i.i
                                        //   in Loop: Header=BB11_10 Depth=1
	add	x15, x14, x8
	ldurb	w15, [x15, #-1]
	mov	w18, wzr
	bfi	w18, w17, #8, #16
	tst	w16, #0xffff
	str	w18, [x11]
	b.ne	.LBB11_17
.LBB11_31:                              //   in Loop: Header=BB11_10 Depth=1
	mov	x17, x11
	cmp	x23, #8
	b.hs	.LBB11_7
.LBB11_32:                              // %join.6.i.i.i
                                        //   in Loop: Header=BB11_10 Depth=1
	cmp	x23, #3
	b.lo	.LBB11_35
// %bb.33:                              // %"records::byte_at.exit.i.i.i.i"
                                        //   in Loop: Header=BB11_10 Depth=1
	ldrb	w18, [x24, #2]
	cmp	x23, #3
	b.eq	.LBB11_8
// %bb.34:                              // %then.1.i6.i.i.i.i
                                        //   in Loop: Header=BB11_10 Depth=1
	ldrb	w16, [x24, #3]
	orr	w18, w18, w16, lsl #8
	b	.LBB11_8
.LBB11_35:                              //   in Loop: Header=BB11_10 Depth=1
	mov	w16, wzr
	mov	w18, wzr
	b	.LBB11_9
.LBB11_36:                              //   in Loop: Header=BB11_10 Depth=1
	ldurb	w15, [x15, #-3]
	orr	w16, w15, wzr, lsl #8
	add	x15, x8, #6
	cmp	x15, x23
	b.lo	.LBB11_30
.LBB11_37:                              //   in Loop: Header=BB11_10 Depth=1
	mov	w15, wzr
	mov	w18, wzr
	bfi	w18, w17, #8, #16
	tst	w16, #0xffff
	str	w18, [x11]
	b.ne	.LBB11_17
	b	.LBB11_31
.LBB11_38:                              // %"records::le16_at.exit.thread"
	movi	v0.2d, #0000000000000000
	mov	x22, xzr
	str	q0, [sp, #1072]
	str	q0, [sp, #1056]
	str	q0, [sp, #1040]
	stp	q0, q0, [sp, #720]
	stp	q0, q0, [sp, #752]
	stp	q0, q0, [sp, #784]
	stp	q0, q0, [sp, #816]
	stp	q0, q0, [sp, #848]
	stp	q0, q0, [sp, #880]
	stp	q0, q0, [sp, #912]
	stp	q0, q0, [sp, #944]
	stp	q0, q0, [sp, #976]
	stp	q0, q0, [sp, #1008]
	str	q0, [sp, #704]
.LBB11_39:                              // %"summaries::links::links_of.exit"
	add	x0, sp, #40
	add	x1, sp, #704
	mov	w2, #384                        // =0x180
	bl	memcpy
	movi	v0.2d, #0000000000000000
	cmp	x22, #2
	stp	q0, q0, [x29, #-48]
	stur	q0, [x29, #-16]
	b.hi	.LBB11_41
// %bb.40:                              // %then.1.i
	sub	x0, x29, #48
	add	x3, sp, #40
	add	x5, sp, #2752
	add	x6, sp, #704
	add	x7, sp, #448
	mov	x1, x21
	mov	x2, x20
	mov	x4, x22
	str	q0, [sp, #2800]
	str	q0, [sp, #2784]
	str	q0, [sp, #2768]
	str	q0, [sp, #2752]
	stp	q0, q0, [sp, #704]
	stp	q0, q0, [sp, #736]
	stp	q0, q0, [sp, #768]
	stp	q0, q0, [sp, #800]
	stp	xzr, xzr, [sp, #448]
	bl	"summaries::by_rows"
	ldp	q1, q2, [x29, #-32]
	b	.LBB11_45
.LBB11_41:                              // %join.3.i
	cmp	x22, #10
	sub	x23, x29, #48
	b.hi	.LBB11_43
// %bb.42:                              // %then.12.i
	add	x0, sp, #704
	mov	w1, wzr
	mov	w2, #640                        // =0x280
	str	q0, [sp, #3056]
	str	q0, [sp, #3040]
	str	q0, [sp, #3024]
	str	q0, [sp, #3008]
	str	q0, [sp, #2992]
	str	q0, [sp, #2976]
	str	q0, [sp, #2960]
	str	q0, [sp, #2944]
	str	q0, [sp, #2928]
	str	q0, [sp, #2912]
	str	q0, [sp, #2896]
	str	q0, [sp, #2880]
	str	q0, [sp, #2864]
	str	q0, [sp, #2848]
	str	q0, [sp, #2832]
	str	q0, [sp, #2816]
	str	q0, [sp, #2800]
	str	q0, [sp, #2784]
	str	q0, [sp, #2768]
	str	q0, [sp, #2752]
	bl	memset
	movi	v0.2d, #0000000000000000
	stp	q0, q0, [sp, #448]
	stp	q0, q0, [sp, #480]
	str	q0, [sp, #512]
	b	.LBB11_44
.LBB11_43:                              // %join.14.i
	add	x0, sp, #2752
	mov	w1, wzr
	mov	w2, #1024                       // =0x400
	bl	memset
	add	x0, sp, #704
	mov	w1, wzr
	mov	w2, #2048                       // =0x800
	bl	memset
	movi	v0.2d, #0000000000000000
	stp	q0, q0, [sp, #448]
	stp	q0, q0, [sp, #480]
	stp	q0, q0, [sp, #512]
	stp	q0, q0, [sp, #544]
	stp	q0, q0, [sp, #576]
	stp	q0, q0, [sp, #608]
	stp	q0, q0, [sp, #640]
	stp	q0, q0, [sp, #672]
.LBB11_44:                              // %"summaries::placed.exit"
	sub	x0, x29, #48
	add	x3, sp, #40
	add	x5, sp, #2752
	add	x6, sp, #704
	add	x7, sp, #448
	mov	x1, x21
	mov	x2, x20
	mov	x4, x22
	bl	"summaries::by_rows"
	ldp	q1, q2, [x23, #16]
.LBB11_45:                              // %"summaries::placed.exit"
	ldur	q0, [x29, #-48]
	stp	q1, q2, [sp]
	str	xzr, [x19]
	stur	q0, [x19, #8]
	ldp	q1, q0, [sp]
	stur	q1, [x19, #24]
	stur	q0, [x19, #40]
.LBB11_46:                              // %"summaries::placed.exit"
	add	sp, sp, #3824
	ldp	x20, x19, [sp, #64]             // 16-byte Folded Reload
	ldr	x28, [sp, #16]                  // 8-byte Reload
	ldp	x22, x21, [sp, #48]             // 16-byte Folded Reload
	ldp	x24, x23, [sp, #32]             // 16-byte Folded Reload
	ldp	x29, x30, [sp], #80             // 16-byte Folded Reload
	ret
.Lfunc_end11:
	.size	"summaries::compose", .Lfunc_end11-"summaries::compose"
                                        // -- End function
	.section	.rodata.cst16,"aM",@progbits,16
	.p2align	4, 0x0                          // -- Begin function shelf::check
.LCPI12_0:
	.xword	15                              // 0xf
	.xword	0                               // 0x0
	.section	".text.shelf::check","ax",@progbits
	.p2align	2
	.type	"shelf::check",@function
"shelf::check":                         // @"shelf::check"
// %bb.0:                               // %start
	sub	sp, sp, #144
	stp	x29, x30, [sp, #48]             // 16-byte Folded Spill
	add	x29, sp, #48
	stp	x28, x27, [sp, #64]             // 16-byte Folded Spill
	stp	x26, x25, [sp, #80]             // 16-byte Folded Spill
	stp	x24, x23, [sp, #96]             // 16-byte Folded Spill
	stp	x22, x21, [sp, #112]            // 16-byte Folded Spill
	stp	x20, x19, [sp, #128]            // 16-byte Folded Spill
	cbz	x4, .LBB12_4
// %bb.1:                               // %"records::byte_at.exit.i"
	ldrb	w15, [x3]
	mov	x20, x4
	mov	x22, x2
	cmp	x4, #1
	b.eq	.LBB12_3
// %bb.2:                               // %then.1.i6.i
	ldrb	w8, [x3, #1]
	orr	x15, x15, x8, lsl #8
.LBB12_3:                               // %"records::le16_at.exit"
	sub	x8, x15, #33
	cmn	x8, #32
	b.hs	.LBB12_5
.LBB12_4:                               // %then.1
	adrp	x8, .LCPI12_0
	mov	w9, #1                          // =0x1
	ldr	q0, [x8, :lo12:.LCPI12_0]
	strb	w9, [x0]
	stur	q0, [x0, #8]
	b	.LBB12_80
.LBB12_5:                               // %join.8.lr.ph
	mov	w8, #43691                      // =0xaaab
	and	w9, w22, #0xffff
	mov	w10, #63551                     // =0xf83f
	movk	w8, #43690, lsl #16
	mul	w9, w9, w10
	mov	x24, xzr
	mul	x8, x20, x8
	mov	x28, #-1                        // =0xffffffffffffffff
	str	x0, [sp, #8]                    // 8-byte Spill
	stur	x1, [x29, #-8]                  // 8-byte Folded Spill
	lsr	w23, w9, #25
	stp	x15, x3, [sp, #16]              // 16-byte Folded Spill
	lsr	x16, x8, #34
	stur	x16, [x29, #-16]                // 8-byte Folded Spill
	b	.LBB12_7
.LBB12_6:                               // %join.11
                                        //   in Loop: Header=BB12_7 Depth=1
	add	x24, x24, #1
	add	x28, x28, #1
	cmp	x24, x15
	b.eq	.LBB12_77
.LBB12_7:                               // %join.8
                                        // =>This Loop Header: Depth=1
                                        //     Child Loop BB12_23 Depth 2
                                        //     Child Loop BB12_45 Depth 2
                                        //     Child Loop BB12_64 Depth 2
	add	x21, x24, x24, lsl #1
	cmp	x24, x16
	b.ls	.LBB12_9
// %bb.8:                               //   in Loop: Header=BB12_7 Depth=1
	mov	w19, wzr
	mov	w8, wzr
	mov	w9, wzr
	b	.LBB12_25
.LBB12_9:                               // %join.3.i.i
                                        //   in Loop: Header=BB12_7 Depth=1
	lsl	x8, x21, #1
	add	x9, x8, #8
	cmp	x9, x20
	add	x9, x8, #2
	b.ls	.LBB12_13
// %bb.10:                              // %join.6.i.i
                                        //   in Loop: Header=BB12_7 Depth=1
	cmp	x9, x20
	b.hs	.LBB12_14
// %bb.11:                              // %"records::byte_at.exit.i.i.i"
                                        //   in Loop: Header=BB12_7 Depth=1
	add	x10, x8, #3
	cmp	x10, x20
	b.hs	.LBB12_17
// %bb.12:                              // %then.1.i6.i.i.i
                                        //   in Loop: Header=BB12_7 Depth=1
	ldrb	w10, [x3, x10]
	ldrb	w9, [x3, x9]
	orr	w10, w9, w10, lsl #8
	add	x9, x8, #4
	cmp	x9, x20
	b.hs	.LBB12_18
	b	.LBB12_15
.LBB12_13:                              // %then.4.i.i
                                        //   in Loop: Header=BB12_7 Depth=1
	add	x11, x3, x8
	ldrh	w10, [x3, x9]
	ldrh	w9, [x11, #4]
	ldrb	w8, [x11, #6]
	ldrb	w19, [x11, #7]
	tst	w10, #0xffff
	b.ne	.LBB12_22
	b	.LBB12_25
.LBB12_14:                              //   in Loop: Header=BB12_7 Depth=1
	mov	w10, wzr
	add	x9, x8, #4
	cmp	x9, x20
	b.hs	.LBB12_18
.LBB12_15:                              // %"records::byte_at.exit.i52.i.i"
                                        //   in Loop: Header=BB12_7 Depth=1
	add	x11, x8, #5
	cmp	x11, x20
	b.hs	.LBB12_20
// %bb.16:                              // %then.1.i6.i63.i.i
                                        //   in Loop: Header=BB12_7 Depth=1
	ldrb	w11, [x3, x11]
	ldrb	w9, [x3, x9]
	orr	w9, w9, w11, lsl #8
	add	x8, x8, #6
	cmp	x8, x20
	b.hs	.LBB12_21
	b	.LBB12_19
.LBB12_17:                              //   in Loop: Header=BB12_7 Depth=1
	ldrb	w9, [x3, x9]
	orr	w10, w9, wzr, lsl #8
	add	x9, x8, #4
	cmp	x9, x20
	b.lo	.LBB12_15
.LBB12_18:                              //   in Loop: Header=BB12_7 Depth=1
	mov	w9, wzr
	add	x8, x8, #6
	cmp	x8, x20
	b.hs	.LBB12_21
.LBB12_19:                              // %then.1.i.i.i
                                        //   in Loop: Header=BB12_7 Depth=1
	ldrb	w8, [x3, x8]
	mov	w19, wzr
	tst	w10, #0xffff
	b.ne	.LBB12_22
	b	.LBB12_25
.LBB12_20:                              //   in Loop: Header=BB12_7 Depth=1
	ldrb	w9, [x3, x9]
	orr	w9, w9, wzr, lsl #8
	add	x8, x8, #6
	cmp	x8, x20
	b.lo	.LBB12_19
.LBB12_21:                              //   in Loop: Header=BB12_7 Depth=1
	mov	w8, wzr
	mov	w19, wzr
	tst	w10, #0xffff
	b.eq	.LBB12_25
.LBB12_22:                              // %join.8.i.i.preheader
                                        //   in Loop: Header=BB12_7 Depth=1
	mov	x27, xzr
	and	x10, x10, #0xffff
	add	x11, x1, #1
.LBB12_23:                              // %join.8.i.i
                                        //   Parent Loop BB12_7 Depth=1
                                        // =>  This Inner Loop Header: Depth=2
	ldurh	w12, [x11, #-1]
	cmp	x12, x10
	b.eq	.LBB12_26
// %bb.24:                              // %join.11.i.i
                                        //   in Loop: Header=BB12_23 Depth=2
	add	x27, x27, #1
	add	x11, x11, #528
	cmp	x23, x27
	b.ne	.LBB12_23
.LBB12_25:                              //   in Loop: Header=BB12_7 Depth=1
	mov	x27, x23
.LBB12_26:                              // %"shelf::place_of.exit.i"
                                        //   in Loop: Header=BB12_7 Depth=1
	cmp	x27, x23
	b.hs	.LBB12_76
// %bb.27:                              // %join.3.i
                                        //   in Loop: Header=BB12_7 Depth=1
	cbz	x24, .LBB12_35
// %bb.28:                              // %join.6.i
                                        //   in Loop: Header=BB12_7 Depth=1
	and	x10, x9, #0xffff
	sub	x10, x10, #1
	cmp	x10, x24
	b.hs	.LBB12_78
// %bb.29:                              // %join.9.i
                                        //   in Loop: Header=BB12_7 Depth=1
	cmp	x10, x16
	mov	x9, x23
	b.ls	.LBB12_37
.LBB12_30:                              // %join.3.i.i.i
                                        //   in Loop: Header=BB12_7 Depth=1
	add	x9, x9, x9, lsl #5
	mov	w11, #528                       // =0x210
	lsl	x10, x9, #4
	subs	x9, x22, x10
	cmp	x9, #528
	csel	x9, x9, x11, lo
	subs	x11, x22, x10
	csel	x10, x22, x10, lo
	b.hs	.LBB12_41
// %bb.31:                              //   in Loop: Header=BB12_7 Depth=1
	mov	x9, xzr
	mov	x26, xzr
	mov	w8, w8
	sub	x2, x8, #1
	cmp	x2, #63
	b.ls	.LBB12_49
.LBB12_32:                              //   in Loop: Header=BB12_7 Depth=1
	mov	x25, xzr
	cmp	x27, x23
	b.ls	.LBB12_50
.LBB12_33:                              //   in Loop: Header=BB12_7 Depth=1
	mov	x8, xzr
	mov	x27, xzr
	mov	x9, x22
	mov	w10, w19
	sub	x2, x10, #1
	cmp	x2, #63
	b.ls	.LBB12_52
.LBB12_34:                              //   in Loop: Header=BB12_7 Depth=1
	mov	x8, xzr
	b	.LBB12_53
.LBB12_35:                              // %then.4.i
                                        //   in Loop: Header=BB12_7 Depth=1
	orr	w8, w8, w19
	mov	w10, #17                        // =0x11
	cbnz	w8, .LBB12_79
// %bb.36:                              // %then.4.i
                                        //   in Loop: Header=BB12_7 Depth=1
	tst	w9, #0xffff
	b.eq	.LBB12_6
	b	.LBB12_79
.LBB12_37:                              // %join.3.i29.i
                                        //   in Loop: Header=BB12_7 Depth=1
	add	x9, x10, x10, lsl #1
	lsl	x11, x9, #1
	add	x9, x11, #8
	add	x10, x11, #2
	cmp	x9, x20
	b.ls	.LBB12_43
// %bb.38:                              // %join.6.i58.i
                                        //   in Loop: Header=BB12_7 Depth=1
	cmp	x10, x20
	mov	x9, x23
	b.hs	.LBB12_30
// %bb.39:                              // %"records::byte_at.exit.i.i90.i"
                                        //   in Loop: Header=BB12_7 Depth=1
	add	x9, x11, #3
	cmp	x9, x20
	b.hs	.LBB12_73
// %bb.40:                              // %then.1.i6.i.i101.i
                                        //   in Loop: Header=BB12_7 Depth=1
	ldrb	w9, [x3, x9]
	ldrb	w10, [x3, x10]
	orr	w10, w10, w9, lsl #8
	tst	w10, #0xffff
	mov	x9, x23
	b.ne	.LBB12_44
	b	.LBB12_30
.LBB12_41:                              // %"shelf::summary_at.exit.i.i"
                                        //   in Loop: Header=BB12_7 Depth=1
	cmp	x11, #3
	b.lo	.LBB12_48
// %bb.42:                              // %"records::byte_at.exit.i.i129.i"
                                        //   in Loop: Header=BB12_7 Depth=1
	add	x11, x1, x10
	mov	w12, #64                        // =0x40
	ldrb	w11, [x11, #2]
	cmp	w11, #64
	csel	w26, w11, w12, lo
	mov	w8, w8
	sub	x2, x8, #1
	cmp	x2, #63
	b.hi	.LBB12_32
	b	.LBB12_49
.LBB12_43:                              // %then.4.i34.i
                                        //   in Loop: Header=BB12_7 Depth=1
	ldrh	w10, [x3, x10]
	tst	w10, #0xffff
	mov	x9, x23
	b.eq	.LBB12_30
.LBB12_44:                              // %join.8.i110.i.preheader
                                        //   in Loop: Header=BB12_7 Depth=1
	mov	x9, xzr
	and	x10, x10, #0xffff
	add	x11, x1, #1
.LBB12_45:                              // %join.8.i110.i
                                        //   Parent Loop BB12_7 Depth=1
                                        // =>  This Inner Loop Header: Depth=2
	ldurh	w12, [x11, #-1]
	cmp	x12, x10
	b.eq	.LBB12_71
// %bb.46:                              // %join.11.i122.i
                                        //   in Loop: Header=BB12_45 Depth=2
	add	x9, x9, #1
	add	x11, x11, #528
	cmp	x23, x9
	b.ne	.LBB12_45
// %bb.47:                              //   in Loop: Header=BB12_7 Depth=1
	mov	x9, x23
	b	.LBB12_30
.LBB12_48:                              //   in Loop: Header=BB12_7 Depth=1
	mov	x26, xzr
	mov	w8, w8
	sub	x2, x8, #1
	cmp	x2, #63
	b.hi	.LBB12_32
.LBB12_49:                              // %join.3.i.i.i.i
                                        //   in Loop: Header=BB12_7 Depth=1
	subs	x8, x9, #16
	mov	w11, #16                        // =0x10
	add	x10, x1, x10
	csel	x9, x9, x11, lo
	csel	x1, xzr, x8, lo
	add	x0, x10, x9
	bl	"sighted::set_at"
	fmov	d0, x0
	ldur	x1, [x29, #-8]                  // 8-byte Folded Reload
	cnt	v0.8b, v0.8b
	addv	b0, v0.8b
	fmov	x25, d0
	cmp	x27, x23
	b.hi	.LBB12_33
.LBB12_50:                              // %join.3.i.i135.i
                                        //   in Loop: Header=BB12_7 Depth=1
	add	x8, x27, x27, lsl #5
	mov	w10, #528                       // =0x210
	lsl	x9, x8, #4
	subs	x8, x22, x9
	cmp	x8, #528
	csel	x8, x8, x10, lo
	subs	x10, x22, x9
	csel	x9, x22, x9, lo
	b.hs	.LBB12_68
// %bb.51:                              //   in Loop: Header=BB12_7 Depth=1
	mov	x8, xzr
	mov	x27, xzr
	mov	w10, w19
	sub	x2, x10, #1
	cmp	x2, #63
	b.hi	.LBB12_34
.LBB12_52:                              // %join.3.i.i.i147.i
                                        //   in Loop: Header=BB12_7 Depth=1
	subs	x10, x8, #16
	mov	w11, #16                        // =0x10
	add	x9, x1, x9
	csel	x8, x8, x11, lo
	csel	x1, xzr, x10, lo
	add	x0, x9, x8
	bl	"sighted::set_at"
	fmov	d0, x0
	ldur	x1, [x29, #-8]                  // 8-byte Folded Reload
	mov	w8, #19                         // =0x13
	cnt	v0.8b, v0.8b
	addv	b0, v0.8b
	fmov	x9, d0
	cmp	x9, #5
	csel	x8, x8, xzr, hi
.LBB12_53:                              // %"shelf::site_at.exit161.i"
                                        //   in Loop: Header=BB12_7 Depth=1
	ldur	x16, [x29, #-16]                // 8-byte Folded Reload
	cmp	x24, x16
	b.hi	.LBB12_74
// %bb.54:                              // %join.3.i.i163.i
                                        //   in Loop: Header=BB12_7 Depth=1
	lsl	x9, x21, #1
	add	x10, x9, #8
	cmp	x10, x20
	b.hi	.LBB12_74
// %bb.55:                              // %"assembly::placement_at.exit.i.i"
                                        //   in Loop: Header=BB12_7 Depth=1
	ldr	x3, [sp, #24]                   // 8-byte Reload
	add	x11, x3, x9
	ldrb	w9, [x11, #6]
	sub	x10, x9, #1
	cmp	x10, x26
	mov	w10, #18                        // =0x12
	b.hs	.LBB12_79
// %bb.56:                              // %"assembly::placement_at.exit.i.i"
                                        //   in Loop: Header=BB12_7 Depth=1
	ldrb	w12, [x11, #7]
	ldr	x15, [sp, #16]                  // 8-byte Reload
	sub	x12, x12, #1
	cmp	x12, x27
	b.hs	.LBB12_79
// %bb.57:                              // %join.6.i167.i
                                        //   in Loop: Header=BB12_7 Depth=1
	cmp	x25, #5
	b.hi	.LBB12_75
// %bb.58:                              // %join.6.i8.i.i
                                        //   in Loop: Header=BB12_7 Depth=1
	ldrh	w10, [x11, #4]
	sub	x12, x24, #1
	cbz	w10, .LBB12_61
// %bb.59:                              // %join.3.i.i.i.i.i
                                        //   in Loop: Header=BB12_7 Depth=1
	sub	x11, x10, #2
	cmp	x11, x12
	b.hs	.LBB12_61
// %bb.60:                              // %join.3.i.i.i.i.i.i
                                        //   in Loop: Header=BB12_7 Depth=1
	mov	w11, #6                         // =0x6
	umaddl	x11, w10, w11, x3
	ldrb	w11, [x11, #1]
	cmp	w11, w9
	cset	w14, eq
	b	.LBB12_62
.LBB12_61:                              // %"assembly::own_on.exit.i.i.i.i"
                                        //   in Loop: Header=BB12_7 Depth=1
	mov	x14, xzr
	mov	x11, xzr
	cbz	x12, .LBB12_66
.LBB12_62:                              // %join.5.i.i.i.i.preheader
                                        //   in Loop: Header=BB12_7 Depth=1
	add	x12, x3, #12
	mov	x13, x28
	mov	x11, x14
	b	.LBB12_64
.LBB12_63:                              // %"assembly::is_on.exit.thread.i.i.i.i"
                                        //   in Loop: Header=BB12_64 Depth=2
	subs	x13, x13, #1
	add	x12, x12, #6
	b.eq	.LBB12_66
.LBB12_64:                              // %join.5.i.i.i.i
                                        //   Parent Loop BB12_7 Depth=1
                                        // =>  This Inner Loop Header: Depth=2
	ldurh	w14, [x12, #-2]
	cmp	w14, w10
	b.ne	.LBB12_63
// %bb.65:                              // %"assembly::is_on.exit.i.i.i.i"
                                        //   in Loop: Header=BB12_64 Depth=2
	ldrb	w14, [x12]
	cmp	w14, w9
	cinc	x11, x11, eq
	b	.LBB12_63
.LBB12_66:                              // %"assembly::is_full.exit.i.i"
                                        //   in Loop: Header=BB12_7 Depth=1
	add	x9, x11, x25
	cmp	x9, #5
	b.hi	.LBB12_75
// %bb.67:                              // %"shelf::fault_of.exit"
                                        //   in Loop: Header=BB12_7 Depth=1
	mov	x10, x8
	cbz	x8, .LBB12_6
	b	.LBB12_79
.LBB12_68:                              // %"shelf::summary_at.exit.i141.i"
                                        //   in Loop: Header=BB12_7 Depth=1
	cmp	x10, #3
	b.lo	.LBB12_70
// %bb.69:                              // %"records::byte_at.exit.i.i155.i"
                                        //   in Loop: Header=BB12_7 Depth=1
	add	x10, x1, x9
	mov	w11, #64                        // =0x40
	ldrb	w10, [x10, #2]
	cmp	w10, #64
	csel	w27, w10, w11, lo
	mov	w10, w19
	sub	x2, x10, #1
	cmp	x2, #63
	b.hi	.LBB12_34
	b	.LBB12_52
.LBB12_70:                              //   in Loop: Header=BB12_7 Depth=1
	mov	x27, xzr
	mov	w10, w19
	sub	x2, x10, #1
	cmp	x2, #63
	b.hi	.LBB12_34
	b	.LBB12_52
.LBB12_71:                              // %"shelf::place_of.exit126.i"
                                        //   in Loop: Header=BB12_7 Depth=1
	cmp	x9, x23
	b.ls	.LBB12_30
// %bb.72:                              //   in Loop: Header=BB12_7 Depth=1
	mov	x9, xzr
	mov	x26, xzr
	mov	x10, x22
	mov	w8, w8
	sub	x2, x8, #1
	cmp	x2, #63
	b.ls	.LBB12_49
	b	.LBB12_32
.LBB12_73:                              //   in Loop: Header=BB12_7 Depth=1
	ldrb	w10, [x3, x10]
	orr	w10, w10, wzr, lsl #8
	tst	w10, #0xffff
	mov	x9, x23
	b.ne	.LBB12_44
	b	.LBB12_30
.LBB12_74:
	mov	w10, #18                        // =0x12
	b	.LBB12_79
.LBB12_75:
	mov	w10, #19                        // =0x13
	b	.LBB12_79
.LBB12_76:
	mov	w10, #16                        // =0x10
	b	.LBB12_79
.LBB12_77:                              // %after.4
	ldr	x8, [sp, #8]                    // 8-byte Reload
	strb	wzr, [x8]
	stp	xzr, xzr, [x8, #8]
	b	.LBB12_80
.LBB12_78:                              // %then.7.i
	tst	w9, #0xffff
	mov	w8, #23                         // =0x17
	cinc	x10, x8, ne
.LBB12_79:                              // %then.9
	ldr	x9, [sp, #8]                    // 8-byte Reload
	mov	w8, #1                          // =0x1
	strb	w8, [x9]
	add	x8, x24, #1
	stp	x10, x8, [x9, #8]
.LBB12_80:                              // %common.ret
	ldp	x20, x19, [sp, #128]            // 16-byte Folded Reload
	ldp	x22, x21, [sp, #112]            // 16-byte Folded Reload
	ldp	x24, x23, [sp, #96]             // 16-byte Folded Reload
	ldp	x26, x25, [sp, #80]             // 16-byte Folded Reload
	ldp	x28, x27, [sp, #64]             // 16-byte Folded Reload
	ldp	x29, x30, [sp, #48]             // 16-byte Folded Reload
	add	sp, sp, #144
	ret
.Lfunc_end12:
	.size	"shelf::check", .Lfunc_end12-"shelf::check"
                                        // -- End function
	.section	".text.sighted::set_at","ax",@progbits
	.p2align	2                               // -- Begin function sighted::set_at
	.type	"sighted::set_at",@function
"sighted::set_at":                      // @"sighted::set_at"
// %bb.0:                               // %start
	lsl	x8, x2, #3
	cmp	x1, #512
	b.hs	.LBB13_6
// %bb.1:                               // %then.1
	subs	x9, x1, #8
	b.lo	.LBB13_3
// %bb.2:                               // %then.1
	cmp	x8, x9
	b.ls	.LBB13_9
.LBB13_3:                               // %join.6.i
	cmp	x1, x8
	b.ls	.LBB13_8
// %bb.4:                               // %join.8.i.i.preheader
	orr	x9, x8, #0x7
	cmp	x9, x1
	b.hs	.LBB13_11
// %bb.5:                               // %then.1.i.i.i
	ldrb	w9, [x0, x9]
	lsl	x9, x9, #8
	orr	x10, x8, #0x6
	cmp	x10, x1
	b.lo	.LBB13_12
	b	.LBB13_13
.LBB13_6:                               // %join.3
	cmp	x8, #504
	b.ls	.LBB13_9
// %bb.7:                               // %join.6.i10
	cmp	x8, #511
	b.ls	.LBB13_10
.LBB13_8:
	mov	x0, xzr
	ret
.LBB13_9:                               // %then.1.i6
	ldr	x0, [x0, x8]
	ret
.LBB13_10:                              // %"records::byte_at.exit.i.i20.7"
	add	x8, x0, x8
	ldrb	w9, [x8, #6]
	ldrb	w10, [x8, #7]
	ldrb	w11, [x8, #2]
	lsl	w9, w9, #8
	lsl	x11, x11, #8
	orr	w9, w9, w10, lsl #16
	ldrb	w10, [x8, #5]
	orr	w9, w9, w10
	ldrb	w10, [x8, #4]
	lsl	x9, x9, #16
	orr	x9, x9, x10, lsl #8
	ldrb	w10, [x8, #3]
	orr	x9, x9, x10
	ldrb	w10, [x8, #1]
	ldrb	w8, [x8]
	orr	x9, x11, x9, lsl #16
	orr	x9, x9, x10
	orr	x0, x8, x9, lsl #8
	ret
.LBB13_11:
	mov	x9, xzr
	orr	x10, x8, #0x6
	cmp	x10, x1
	b.hs	.LBB13_13
.LBB13_12:                              // %then.1.i.i.i.1
	ldrb	w10, [x0, x10]
	orr	x9, x9, x10
.LBB13_13:                              // %"records::byte_at.exit.i.i.1"
	mov	w10, #5                         // =0x5
	lsl	x9, x9, #8
	orr	x10, x8, x10
	cmp	x10, x1
	b.hs	.LBB13_19
// %bb.14:                              // %then.1.i.i.i.2
	ldrb	w10, [x0, x10]
	orr	x9, x9, x10
	orr	x10, x8, #0x4
	lsl	x9, x9, #8
	cmp	x10, x1
	b.lo	.LBB13_20
.LBB13_15:                              // %"records::byte_at.exit.i.i.3"
	orr	x10, x8, #0x3
	lsl	x9, x9, #8
	cmp	x10, x1
	b.hs	.LBB13_21
.LBB13_16:                              // %then.1.i.i.i.4
	ldrb	w10, [x0, x10]
	orr	x9, x9, x10
	orr	x10, x8, #0x2
	lsl	x9, x9, #8
	cmp	x10, x1
	b.lo	.LBB13_22
.LBB13_17:                              // %"records::byte_at.exit.i.i.5"
	orr	x10, x8, #0x1
	lsl	x9, x9, #8
	cmp	x10, x1
	b.hs	.LBB13_23
.LBB13_18:                              // %then.1.i.i.i.6
	ldrb	w10, [x0, x10]
	orr	x9, x9, x10
	ldrb	w8, [x0, x8]
	orr	x0, x8, x9, lsl #8
	ret
.LBB13_19:                              // %"records::byte_at.exit.i.i.2"
	orr	x10, x8, #0x4
	lsl	x9, x9, #8
	cmp	x10, x1
	b.hs	.LBB13_15
.LBB13_20:                              // %then.1.i.i.i.3
	ldrb	w10, [x0, x10]
	orr	x9, x9, x10
	orr	x10, x8, #0x3
	lsl	x9, x9, #8
	cmp	x10, x1
	b.lo	.LBB13_16
.LBB13_21:                              // %"records::byte_at.exit.i.i.4"
	orr	x10, x8, #0x2
	lsl	x9, x9, #8
	cmp	x10, x1
	b.hs	.LBB13_17
.LBB13_22:                              // %then.1.i.i.i.5
	ldrb	w10, [x0, x10]
	orr	x9, x9, x10
	orr	x10, x8, #0x1
	lsl	x9, x9, #8
	cmp	x10, x1
	b.lo	.LBB13_18
.LBB13_23:                              // %"records::byte_at.exit.i.i.7"
	ldrb	w8, [x0, x8]
	orr	x0, x8, x9, lsl #8
	ret
.Lfunc_end13:
	.size	"sighted::set_at", .Lfunc_end13-"sighted::set_at"
                                        // -- End function
	.section	".text.summaries::by_rows","ax",@progbits
	.p2align	2                               // -- Begin function summaries::by_rows
	.type	"summaries::by_rows",@function
"summaries::by_rows":                   // @"summaries::by_rows"
// %bb.0:                               // %start
	stp	x29, x30, [sp, #-96]!           // 16-byte Folded Spill
	stp	x28, x27, [sp, #16]             // 16-byte Folded Spill
	mov	x29, sp
	stp	x26, x25, [sp, #32]             // 16-byte Folded Spill
	stp	x24, x23, [sp, #48]             // 16-byte Folded Spill
	stp	x22, x21, [sp, #64]             // 16-byte Folded Spill
	stp	x20, x19, [sp, #80]             // 16-byte Folded Spill
	sub	sp, sp, #416
	mov	x22, x5
	mov	x24, x3
	mov	x17, x2
	cmp	x4, #1
	stp	x0, x7, [sp, #8]                // 16-byte Folded Spill
	str	x1, [sp, #144]                  // 8-byte Spill
	str	x6, [sp, #160]                  // 8-byte Spill
	str	x4, [sp, #40]                   // 8-byte Spill
	str	x2, [sp, #24]                   // 8-byte Spill
	b.ls	.LBB14_35
// %bb.1:                               // %join.5.lr.ph.i
	and	w8, w17, #0xffff
	mov	w9, #63551                      // =0xf83f
	lsl	x27, x4, #1
	mul	w8, w8, w9
	mov	x19, xzr
	add	x25, x24, #28
	add	x28, x24, #256
	mov	w26, #2                         // =0x2
	sub	x23, x27, #3
	lsr	w18, w8, #25
	neg	x8, x4, lsl #1
	str	x8, [sp, #168]                  // 8-byte Spill
	str	x18, [sp, #32]                  // 8-byte Spill
	b	.LBB14_3
.LBB14_2:                               // %"summaries::ends::see_end.exit.i"
                                        //   in Loop: Header=BB14_3 Depth=1
	add	x26, x26, #1
	add	x19, x19, #1
	sub	x23, x23, #1
	cmp	x26, x27
	add	x25, x25, #4
	b.eq	.LBB14_36
.LBB14_3:                               // %join.5.i
                                        // =>This Loop Header: Depth=1
                                        //     Child Loop BB14_9 Depth 2
                                        //     Child Loop BB14_12 Depth 2
                                        //     Child Loop BB14_16 Depth 2
                                        //     Child Loop BB14_26 Depth 2
                                        //       Child Loop BB14_33 Depth 3
	add	x8, x6, x26, lsl #5
	ldr	w8, [x8, #12]
	cbnz	w8, .LBB14_2
// %bb.4:                               // %join.3.i.i
                                        //   in Loop: Header=BB14_3 Depth=1
	ldr	w21, [x24, x26, lsl #2]
	cmp	x4, #11
	mov	x20, x27
	b.lo	.LBB14_14
// %bb.5:                               // %then.2.i.i.i
                                        //   in Loop: Header=BB14_3 Depth=1
	add	x20, x26, #1
	cmp	x20, x27
	b.hs	.LBB14_14
// %bb.6:                               // %join.5.i.i.i.i.preheader
                                        //   in Loop: Header=BB14_3 Depth=1
	sub	x8, x27, #3
	sub	x8, x8, x19
	cmp	x8, #8
	b.hs	.LBB14_8
// %bb.7:                               //   in Loop: Header=BB14_3 Depth=1
	mov	w8, wzr
	add	x9, x26, #1
	b	.LBB14_11
.LBB14_8:                               // %vector.ph
                                        //   in Loop: Header=BB14_3 Depth=1
	movi	v0.2d, #0000000000000000
	movi	v1.2d, #0000000000000000
	and	x10, x8, #0xfffffffffffffff8
	dup	v2.4s, w21
	and	x11, x23, #0xfffffffffffffff8
	add	x9, x20, x10
	mov	x12, x25
.LBB14_9:                               // %vector.body
                                        //   Parent Loop BB14_3 Depth=1
                                        // =>  This Inner Loop Header: Depth=2
	ldp	q3, q4, [x12, #-16]
	subs	x11, x11, #8
	add	x12, x12, #32
	cmeq	v3.4s, v3.4s, v2.4s
	cmeq	v4.4s, v4.4s, v2.4s
	sub	v0.4s, v0.4s, v3.4s
	sub	v1.4s, v1.4s, v4.4s
	b.ne	.LBB14_9
// %bb.10:                              // %middle.block
                                        //   in Loop: Header=BB14_3 Depth=1
	add	v0.4s, v1.4s, v0.4s
	cmp	x8, x10
	addv	s0, v0.4s
	fmov	w8, s0
	b.eq	.LBB14_13
.LBB14_11:                              // %join.5.i.i.i.i.preheader1
                                        //   in Loop: Header=BB14_3 Depth=1
	ldr	x11, [sp, #168]                 // 8-byte Reload
	add	x10, x24, x9, lsl #2
	add	x9, x11, x9
.LBB14_12:                              // %join.5.i.i.i.i
                                        //   Parent Loop BB14_3 Depth=1
                                        // =>  This Inner Loop Header: Depth=2
	ldr	w11, [x10], #4
	cmp	w11, w21
	cinc	w8, w8, eq
	adds	x9, x9, #1
	b.lo	.LBB14_12
.LBB14_13:                              // %"summaries::ends::again.exit.i.i.i"
                                        //   in Loop: Header=BB14_3 Depth=1
	cmp	w8, #0
	csel	x20, x20, x27, eq
.LBB14_14:                              // %"summaries::ends::none_from.exit.i.i"
                                        //   in Loop: Header=BB14_3 Depth=1
	movi	v0.2d, #0000000000000000
	lsr	x9, x21, #8
	mov	x8, x18
	stp	q0, q0, [x29, #-176]
	stp	q0, q0, [x29, #-144]
	stp	q0, q0, [x29, #-112]
	stp	q0, q0, [x29, #-80]
	cbz	x9, .LBB14_21
// %bb.15:                              // %join.8.i.i.i.i.preheader
                                        //   in Loop: Header=BB14_3 Depth=1
	ldr	x10, [sp, #144]                 // 8-byte Reload
	mov	x8, xzr
	add	x10, x10, #1
.LBB14_16:                              // %join.8.i.i.i.i
                                        //   Parent Loop BB14_3 Depth=1
                                        // =>  This Inner Loop Header: Depth=2
	ldurh	w11, [x10, #-1]
	cmp	x11, x9
	b.eq	.LBB14_19
// %bb.17:                              // %join.11.i.i.i.i
                                        //   in Loop: Header=BB14_16 Depth=2
	add	x8, x8, #1
	add	x10, x10, #528
	cmp	x18, x8
	b.ne	.LBB14_16
// %bb.18:                              //   in Loop: Header=BB14_3 Depth=1
	mov	x8, x18
	b	.LBB14_21
.LBB14_19:                              // %"shelf::place_of.exit.i.i.i"
                                        //   in Loop: Header=BB14_3 Depth=1
	cmp	x8, x18
	b.ls	.LBB14_21
// %bb.20:                              //   in Loop: Header=BB14_3 Depth=1
	mov	x2, xzr
	mov	x8, x17
	b	.LBB14_22
.LBB14_21:                              // %join.3.i.i.i.i
                                        //   in Loop: Header=BB14_3 Depth=1
	add	x8, x8, x8, lsl #5
	mov	w11, #528                       // =0x210
	lsl	x9, x8, #4
	subs	x10, x17, x9
	csel	x8, x17, x9, lo
	cmp	x10, #528
	csel	x10, x10, x11, lo
	cmp	x17, x9
	csel	x2, xzr, x10, lo
.LBB14_22:                              // %"summaries::ends::seen_from.exit.i.i"
                                        //   in Loop: Header=BB14_3 Depth=1
	ldr	x9, [sp, #144]                  // 8-byte Reload
	sub	x0, x29, #176
	and	x3, x21, #0xff
	add	x1, x9, x8
	bl	"summary::seen"
	sub	x8, x29, #176
	ldp	q1, q0, [x29, #-176]
	ldp	q2, q3, [x8, #64]
	cmp	x26, x20
	ldp	q4, q5, [x8, #96]
	add	x0, x24, #4
	ldp	x18, x4, [sp, #32]              // 16-byte Folded Reload
	ldr	x6, [sp, #160]                  // 8-byte Reload
	stp	q2, q3, [sp, #176]
	ldr	x17, [sp, #24]                  // 8-byte Reload
	ldp	q3, q2, [x29, #-144]
	stp	q4, q5, [sp, #208]
	b.hs	.LBB14_2
// %bb.23:                              // %join.5.i.i.i.preheader
                                        //   in Loop: Header=BB14_3 Depth=1
	uzp1	v0.4s, v1.4s, v0.4s
	uzp1	v1.4s, v3.4s, v2.4s
	mov	x8, x26
	b	.LBB14_26
.LBB14_24:                              // %"summaries::ends::stepped.exit.i.i.i.i"
                                        //   in Loop: Header=BB14_26 Depth=2
	ldp	q2, q3, [x29, #-176]
	add	x9, x6, x8, lsl #5
	stp	q2, q3, [x29, #-48]
	stp	q2, q3, [x10]
	stp	q0, q1, [x9]
.LBB14_25:                              // %"summaries::ends::put_end.exit.i.i.i"
                                        //   in Loop: Header=BB14_26 Depth=2
	add	x8, x8, #1
	cmp	x8, x20
	b.eq	.LBB14_2
.LBB14_26:                              // %join.5.i.i.i
                                        //   Parent Loop BB14_3 Depth=1
                                        // =>  This Loop Header: Depth=2
                                        //       Child Loop BB14_33 Depth 3
	ldr	w9, [x24, x8, lsl #2]
	cmp	w21, w9
	b.ne	.LBB14_25
// %bb.27:                              // %join.3.i.i11.i.i
                                        //   in Loop: Header=BB14_26 Depth=2
	tbnz	w8, #0, .LBB14_29
// %bb.28:                              // %then.1.i.i.i.i.i
                                        //   in Loop: Header=BB14_26 Depth=2
	lsr	x9, x8, #1
	add	x9, x9, #1
	b	.LBB14_30
.LBB14_29:                              // %join.3.i.i.i.i.i
                                        //   in Loop: Header=BB14_26 Depth=2
	lsl	x9, x8, #1
	and	x9, x9, #0x3fffc
	add	x9, x24, x9
	ldr	w9, [x9, #256]
.LBB14_30:                              // %"summaries::ends::home_of.exit.i.i.i.i"
                                        //   in Loop: Header=BB14_26 Depth=2
	lsl	x10, x8, #4
	subs	x11, x4, x9
	and	x10, x10, #0x1fffe0
	add	x10, x22, x10
	ldp	q2, q3, [x10]
	stp	q2, q3, [x29, #-176]
	b.ls	.LBB14_24
// %bb.31:                              // %join.5.i.i.i.i.i.preheader
                                        //   in Loop: Header=BB14_26 Depth=2
	sub	x14, x29, #176
	add	x12, x0, x9, lsl #3
	add	x13, x28, x9, lsl #2
	add	x14, x14, x9
	b	.LBB14_33
.LBB14_32:                              // %join.8.i.i.i.i.i
                                        //   in Loop: Header=BB14_33 Depth=3
	subs	x11, x11, #1
	add	x14, x14, #1
	add	x12, x12, #8
	b.eq	.LBB14_24
.LBB14_33:                              // %join.5.i.i.i.i.i
                                        //   Parent Loop BB14_3 Depth=1
                                        //     Parent Loop BB14_26 Depth=2
                                        // =>    This Inner Loop Header: Depth=3
	ldr	w15, [x13], #4
	cmp	x9, x15
	b.ne	.LBB14_32
// %bb.34:                              // %then.6.i.i.i.i.i
                                        //   in Loop: Header=BB14_33 Depth=3
	ldrb	w15, [x12]
	add	x16, sp, #176
	add	x15, x16, x15
	ldurb	w15, [x15, #-1]
	strb	w15, [x14]
	b	.LBB14_32
.LBB14_35:                              // %"start.summaries::ends::see_ends.exit_crit_edge"
	mov	w8, #63551                      // =0xf83f
	mul	w8, w17, w8
	lsr	w18, w8, #25
.LBB14_36:                              // %"summaries::ends::see_ends.exit"
	ldr	w8, [x24]
	str	x18, [sp, #32]                  // 8-byte Spill
	lsr	x9, x8, #8
	mov	x8, x18
	cbz	w9, .LBB14_43
// %bb.37:                              // %join.8.i.i.i.preheader
	ldr	x10, [sp, #144]                 // 8-byte Reload
	mov	x8, xzr
	add	x10, x10, #1
.LBB14_38:                              // %join.8.i.i.i
                                        // =>This Inner Loop Header: Depth=1
	ldurh	w11, [x10, #-1]
	cmp	x11, x9
	b.eq	.LBB14_41
// %bb.39:                              // %join.11.i.i.i
                                        //   in Loop: Header=BB14_38 Depth=1
	add	x8, x8, #1
	add	x10, x10, #528
	cmp	x18, x8
	b.ne	.LBB14_38
// %bb.40:
	mov	x8, x18
	b	.LBB14_43
.LBB14_41:                              // %"shelf::place_of.exit.i.i"
	cmp	x8, x18
	b.ls	.LBB14_43
// %bb.42:
	mov	x2, xzr
	mov	x8, x17
	b	.LBB14_44
.LBB14_43:                              // %join.3.i.i.i
	add	x8, x8, x8, lsl #5
	mov	w11, #528                       // =0x210
	lsl	x9, x8, #4
	subs	x10, x17, x9
	csel	x8, x17, x9, lo
	cmp	x10, #528
	csel	x10, x10, x11, lo
	cmp	x17, x9
	csel	x2, xzr, x10, lo
.LBB14_44:                              // %"summaries::ends::fields_at.exit.i"
	ldr	x9, [sp, #144]                  // 8-byte Reload
	sub	x0, x29, #176
	add	x1, x9, x8
	bl	"summary::fields"
	ldp	x16, x14, [x29, #-160]
	ldr	x8, [sp, #40]                   // 8-byte Reload
	ldp	x12, x15, [x29, #-144]
	ldur	x10, [x29, #-176]
	cmp	x8, #2
	b.lo	.LBB14_67
// %bb.45:                              // %join.5.lr.ph.i11
	mov	w5, #1                          // =0x1
	b	.LBB14_49
.LBB14_46:                              //   in Loop: Header=BB14_49 Depth=1
	mov	x8, x13
.LBB14_47:                              // %join.3.i.i47.i
                                        //   in Loop: Header=BB14_49 Depth=1
	add	x8, x8, x8, lsl #5
	mov	w11, #528                       // =0x210
	lsl	x9, x8, #4
	subs	x10, x12, x9
	csel	x8, x12, x9, lo
	cmp	x10, #528
	csel	x10, x10, x11, lo
	cmp	x12, x9
	csel	x2, xzr, x10, lo
.LBB14_48:                              // %"summaries::ends::fields_at.exit60.i"
                                        //   in Loop: Header=BB14_49 Depth=1
	ldr	x9, [sp, #144]                  // 8-byte Reload
	sub	x0, x29, #176
	add	x1, x9, x8
	bl	"summary::fields"
	ldp	x9, x8, [sp, #104]              // 16-byte Folded Reload
	and	x10, x27, #0x1fffffff
	ldp	x11, x13, [sp, #48]             // 16-byte Folded Reload
	and	x12, x23, #0x1fffffff
	ldr	x15, [sp, #64]                  // 8-byte Reload
	and	x14, x25, #0x1fffffff
	ldr	x5, [sp, #168]                  // 8-byte Reload
	and	x8, x8, #0xfffffffffffffff
	and	x9, x9, #0xfffffffffffffff
	and	x11, x11, #0x1fffffff
	and	x13, x13, #0x1fffffff
	and	x15, x15, #0x1fffffff
	umaddl	x8, w10, w11, x8
	add	x5, x5, #1
	umaddl	x9, w10, w13, x9
	add	x10, x10, x12
	ldr	x12, [sp, #72]                  // 8-byte Reload
	umaddl	x8, w14, w15, x8
	add	x13, x15, x13
	and	x12, x12, #0x1fffffff
	umaddl	x9, w10, w15, x9
	ldr	x15, [sp, #152]                 // 8-byte Reload
	umaddl	x8, w10, w12, x8
	and	x10, x20, #0x1fffffff
	add	x11, x12, x11
	umaddl	x13, w13, w10, x8
	stp	w26, w23, [x15, #32]
	umaddl	x8, w14, w12, x9
	ldr	x9, [sp, #120]                  // 8-byte Reload
	ldr	x14, [sp, #80]                  // 8-byte Reload
	and	x12, x21, #0x1fffffff
	umaddl	x8, w11, w10, x8
	ldur	x10, [x29, #-160]
	and	x9, x9, #0xfffffffffffffff
	and	x14, x14, #0x1fffffff
	stp	w25, w27, [x15, #40]
	add	x9, x12, x9
	and	x12, x19, #0x1fffffff
	and	x10, x10, #0xfffffffffffffff
	umaddl	x9, w12, w14, x9
	ldp	x11, x12, [x29, #-144]
	ldr	x14, [sp, #88]                  // 8-byte Reload
	add	x16, x13, x10
	and	x13, x28, #0x1fffffff
	stp	w20, w19, [x15, #48]
	and	x11, x11, #0xfffffffffffffff
	and	x14, x14, #0x1fffffff
	and	x12, x12, #0xfffffffffffffff
	add	x10, x14, x11
	ldr	x11, [sp, #128]                 // 8-byte Reload
	ldr	x14, [sp, #96]                  // 8-byte Reload
	stp	w21, w28, [x15, #56]
	and	x11, x11, #0xfffffffffffffff
	and	x14, x14, #0x1fffffff
	add	x13, x13, x14
	cmp	x11, x12
	ldur	x14, [x29, #-176]
	csel	x11, x11, x12, hi
	add	x12, x13, #1
	cmp	x11, x12
	ldur	x12, [x29, #-152]
	csinc	x15, x11, x13, hi
	ldr	x11, [sp, #136]                 // 8-byte Reload
	and	x13, x14, #0xfffffffffffffff
	ldr	x14, [sp, #40]                  // 8-byte Reload
	and	x12, x12, #0xfffffffffffffff
	and	x11, x11, #0xfffffffffffffff
	cmp	x5, x14
	add	x14, x8, x12
	add	x12, x9, x10
	add	x10, x13, x11
	b.eq	.LBB14_68
.LBB14_49:                              // %join.5.i12
                                        // =>This Loop Header: Depth=1
                                        //     Child Loop BB14_55 Depth 2
                                        //       Child Loop BB14_59 Depth 3
                                        //     Child Loop BB14_63 Depth 2
	ldr	x11, [sp, #160]                 // 8-byte Reload
	stp	x12, x15, [sp, #120]            // 16-byte Folded Spill
	add	x8, x24, x5, lsl #2
	str	x10, [sp, #136]                 // 8-byte Spill
	add	x12, x11, x5, lsl #6
	ldr	w9, [x8, #256]
	stp	x14, x16, [sp, #104]            // 16-byte Folded Spill
	ldp	w26, w23, [x12, #32]
	ldp	w25, w27, [x12, #40]
	ldp	w20, w19, [x12, #48]
	ldp	w21, w28, [x12, #56]
	subs	x10, x9, #1
	str	x12, [sp, #152]                 // 8-byte Spill
	b.eq	.LBB14_51
// %bb.50:                              // %join.3.i.i14.i
                                        //   in Loop: Header=BB14_49 Depth=1
	add	x11, x11, x10, lsl #6
	add	x10, x22, x10, lsl #5
	and	x3, x21, #0x1fffffff
	and	x4, x28, #0x1fffffff
	and	x18, x23, #0x1fffffff
	and	x0, x25, #0x1fffffff
	ldp	w12, w13, [x11, #36]
	ldp	w14, w15, [x11, #44]
	ldrb	w10, [x10, x5]
	ldr	w16, [x11, #52]
	ldr	w11, [x11, #60]
	and	x12, x12, #0x1fffffff
	and	x13, x13, #0x1fffffff
	and	x1, x27, #0x1fffffff
	and	x14, x14, #0x1fffffff
	and	x15, x15, #0x1fffffff
	tst	x10, #0x1
	and	x16, x16, #0x1fffffff
	csel	x17, x15, x14, eq
	csel	x14, x14, x15, eq
	csel	x15, x13, x12, eq
	csel	x12, x12, x13, eq
	cmp	w10, #0
	csel	x13, x16, xzr, eq
	cmp	x10, #0
	and	x16, x19, #0x1fffffff
	cinc	x19, x16, eq
	cmp	x10, #1
	add	x10, x10, #1
	umaddl	x12, w14, w10, x12
	and	x16, x26, #0x1fffffff
	and	x11, x11, #0x1fffffff
	umaddl	x15, w17, w10, x15
	add	x10, x10, x11
	and	x2, x20, #0x1fffffff
	add	x27, x17, x1
	add	x20, x14, x2
	add	x11, x12, x16
	add	x25, x12, x0
	add	x26, x11, x15
	cinc	x11, x3, eq
	cmp	x4, x10
	add	x23, x15, x18
	add	x21, x11, x13
	csel	x28, x4, x10, hi
.LBB14_51:                              // %"summaries::joins::begun.exit.i.i"
                                        //   in Loop: Header=BB14_49 Depth=1
	ldr	x30, [sp, #16]                  // 8-byte Reload
	cmp	x5, x9
	str	x5, [sp, #168]                  // 8-byte Spill
	b.ls	.LBB14_61
// %bb.52:                              // %join.5.i.i.preheader
                                        //   in Loop: Header=BB14_49 Depth=1
	mov	x10, x9
	b	.LBB14_55
.LBB14_53:                              // %then.1.i19.i.i
                                        //   in Loop: Header=BB14_55 Depth=2
	sub	x11, x14, #1
	ldr	x1, [sp, #160]                  // 8-byte Reload
	add	x12, x22, x11, lsl #5
	ldr	x11, [x30, x11, lsl #3]
	ldrb	w12, [x12, x10]
	add	x11, x11, x12
	add	x11, x11, #1
.LBB14_54:                              // %"summaries::joins::apart_kept.exit.i.i"
                                        //   in Loop: Header=BB14_55 Depth=2
	add	x12, x1, x10, lsl #6
	str	x11, [x30, x10, lsl #3]
	tst	x11, #0x1
	and	x5, x19, #0x1fffffff
	and	x18, x26, #0x1fffffff
	and	x6, x21, #0x1fffffff
	ldp	w13, w16, [x12, #4]
	ldp	w14, w15, [x12, #12]
	ldr	w2, [x12, #20]
	ldr	w12, [x12, #28]
	and	x7, x28, #0x1fffffff
	and	x13, x13, #0x1fffffff
	and	x16, x16, #0x1fffffff
	and	x0, x23, #0x1fffffff
	and	x14, x14, #0x1fffffff
	and	x15, x15, #0x1fffffff
	and	x2, x2, #0x1fffffff
	csel	x17, x15, x14, eq
	csel	x14, x14, x15, eq
	csel	x15, x16, x13, eq
	csel	x13, x13, x16, eq
	ands	x11, x11, #0x1fffffff
	and	x12, x12, #0x1fffffff
	add	x16, x11, #1
	csel	x2, x2, xzr, eq
	cinc	x19, x5, eq
	madd	x13, x14, x16, x13
	cmp	x11, #1
	add	x11, x16, x12
	ldr	x5, [sp, #168]                  // 8-byte Reload
	and	x1, x25, #0x1fffffff
	and	x3, x27, #0x1fffffff
	madd	x15, x17, x16, x15
	and	x4, x20, #0x1fffffff
	cinc	x12, x6, eq
	cmp	x7, x11
	add	x10, x10, #1
	add	x27, x17, x3
	csel	x28, x7, x11, hi
	cmp	x10, x5
	add	x20, x14, x4
	add	x16, x13, x18
	add	x25, x13, x1
	add	x21, x12, x2
	add	x23, x15, x0
	add	x26, x16, x15
	b.eq	.LBB14_61
.LBB14_55:                              // %join.5.i.i
                                        //   Parent Loop BB14_49 Depth=1
                                        // =>  This Loop Header: Depth=2
                                        //       Child Loop BB14_59 Depth 3
	add	x11, x24, x10, lsl #2
	ldr	w14, [x11, #256]
	cmp	x9, x14
	b.lo	.LBB14_53
// %bb.56:                              // %join.3.i15.i.i
                                        //   in Loop: Header=BB14_55 Depth=2
	ldr	w15, [x8, #256]
	cmp	x14, x15
	b.ne	.LBB14_58
// %bb.57:                              //   in Loop: Header=BB14_55 Depth=2
	ldr	x1, [sp, #160]                  // 8-byte Reload
	mov	x11, xzr
	mov	x12, x5
	mov	x13, x10
	b	.LBB14_60
.LBB14_58:                              // %join.5.i.i.i.i19.preheader
                                        //   in Loop: Header=BB14_55 Depth=2
	ldr	x1, [sp, #160]                  // 8-byte Reload
	mov	x11, xzr
	mov	x13, x10
	mov	x12, x5
.LBB14_59:                              // %join.5.i.i.i.i19
                                        //   Parent Loop BB14_49 Depth=1
                                        //     Parent Loop BB14_55 Depth=2
                                        // =>    This Inner Loop Header: Depth=3
	sub	x16, x15, #1
	sub	x17, x14, #1
	cmp	x14, x15
	add	x18, x22, x16, lsl #5
	add	x0, x22, x17, lsl #5
	add	x14, x18, x12
	add	x15, x0, x13
	csel	x12, x13, x12, lo
	csel	x13, x16, x17, lo
	add	x17, x24, x12, lsl #2
	csel	x14, x14, x15, lo
	add	x16, x24, x13, lsl #2
	ldrb	w18, [x14]
	ldr	w15, [x17, #256]
	ldr	w14, [x16, #256]
	add	x11, x11, x18
	add	x11, x11, #1
	cmp	x14, x15
	b.ne	.LBB14_59
.LBB14_60:                              // %"summaries::joins::apart.exit.i.i.i"
                                        //   in Loop: Header=BB14_55 Depth=2
	add	x13, x22, x13, lsl #5
	ldrb	w12, [x13, x12]
	add	x11, x11, x12
	b	.LBB14_54
.LBB14_61:                              // %"summaries::joins::core_of.exit.i"
                                        //   in Loop: Header=BB14_49 Depth=1
	ldr	x10, [sp, #152]                 // 8-byte Reload
	lsl	x8, x5, #3
	ldp	x12, x13, [sp, #24]             // 16-byte Folded Reload
	ldr	w9, [x10, #4]
	ldr	w8, [x24, x8]
	str	x9, [sp, #56]                   // 8-byte Spill
	ldr	w9, [x10, #8]
	str	x9, [sp, #48]                   // 8-byte Spill
	ldr	w9, [x10, #12]
	str	x9, [sp, #64]                   // 8-byte Spill
	ldr	w9, [x10, #16]
	str	x9, [sp, #72]                   // 8-byte Spill
	lsr	x9, x8, #8
	ldr	w8, [x10, #20]
	str	x8, [sp, #80]                   // 8-byte Spill
	ldr	w8, [x10, #24]
	str	x8, [sp, #88]                   // 8-byte Spill
	ldr	w8, [x10, #28]
	str	x8, [sp, #96]                   // 8-byte Spill
	mov	x8, x13
	cbz	w9, .LBB14_47
// %bb.62:                              // %join.8.i.i32.i.preheader
                                        //   in Loop: Header=BB14_49 Depth=1
	ldr	x10, [sp, #144]                 // 8-byte Reload
	mov	x8, xzr
	add	x10, x10, #1
.LBB14_63:                              // %join.8.i.i32.i
                                        //   Parent Loop BB14_49 Depth=1
                                        // =>  This Inner Loop Header: Depth=2
	ldurh	w11, [x10, #-1]
	cmp	x11, x9
	b.eq	.LBB14_65
// %bb.64:                              // %join.11.i.i44.i
                                        //   in Loop: Header=BB14_63 Depth=2
	add	x8, x8, #1
	add	x10, x10, #528
	cmp	x13, x8
	b.ne	.LBB14_63
	b	.LBB14_46
.LBB14_65:                              // %"shelf::place_of.exit.i58.i"
                                        //   in Loop: Header=BB14_49 Depth=1
	cmp	x8, x13
	b.ls	.LBB14_47
// %bb.66:                              //   in Loop: Header=BB14_49 Depth=1
	mov	x2, xzr
	mov	x8, x12
	b	.LBB14_48
.LBB14_67:
	ldur	x8, [x29, #-168]
	b	.LBB14_69
.LBB14_68:                              // %loop.2.after.1_crit_edge.i
	add	x8, x14, x16
.LBB14_69:                              // %"summaries::joins::composed.exit"
	ldr	x9, [sp, #8]                    // 8-byte Reload
	stp	x10, x8, [x9]
	stp	x16, x14, [x9, #16]
	stp	x12, x15, [x9, #32]
	add	sp, sp, #416
	ldp	x20, x19, [sp, #80]             // 16-byte Folded Reload
	ldp	x22, x21, [sp, #64]             // 16-byte Folded Reload
	ldp	x24, x23, [sp, #48]             // 16-byte Folded Reload
	ldp	x26, x25, [sp, #32]             // 16-byte Folded Reload
	ldp	x28, x27, [sp, #16]             // 16-byte Folded Reload
	ldp	x29, x30, [sp], #96             // 16-byte Folded Reload
	ret
.Lfunc_end14:
	.size	"summaries::by_rows", .Lfunc_end14-"summaries::by_rows"
                                        // -- End function
	.section	.rodata.cst16,"aM",@progbits,16
	.p2align	4, 0x0                          // -- Begin function summary::seen
.LCPI15_0:
	.xword	1                               // 0x1
	.xword	2                               // 0x2
	.section	".text.summary::seen","ax",@progbits
	.p2align	2
	.type	"summary::seen",@function
"summary::seen":                        // @"summary::seen"
// %bb.0:                               // %start
	sub	sp, sp, #64
	subs	x9, x2, #16
	mov	w8, #16                         // =0x10
	mov	w10, #512                       // =0x200
	csel	x8, x2, x8, lo
	cmp	x9, #512
	csel	x9, x9, x10, lo
	cmp	x2, #16
	csel	x17, xzr, x9, lo
	cmp	x2, #2
	b.ls	.LBB15_32
// %bb.1:                               // %"summary::atoms.exit"
	ldrb	w10, [x1, #2]
	movi	v0.2d, #0000000000000000
	mov	w11, #64                        // =0x40
	sub	x9, x3, #1
	cmp	w10, #64
	csel	w13, w10, w11, lo
	cmp	x9, x13
	stp	q0, q0, [sp]
	stp	q0, q0, [sp, #32]
	b.hs	.LBB15_33
// %bb.2:                               // %join.5.lr.ph.i.i
	neg	x10, x13
	mov	x11, #-1                        // =0xffffffffffffffff
	mov	w12, #1                         // =0x1
	lsr	x10, x11, x10
	lsl	x16, x12, x9
	cmp	x17, #512
	add	x14, x1, x8
	mov	x8, xzr
	mov	x9, xzr
	eor	x15, x10, x16
	mov	x11, xzr
	mov	x10, xzr
	mov	x12, xzr
	b.hs	.LBB15_28
// %bb.3:                               // %join.5.us.i.i.preheader
	sub	x18, x17, #8
.LBB15_4:                               // %join.5.us.i.i
                                        // =>This Loop Header: Depth=1
                                        //     Child Loop BB15_7 Depth 2
	and	x3, x8, #0x1
	mov	x1, xzr
	mov	x2, xzr
	mul	x4, x8, x3
	b	.LBB15_7
.LBB15_5:                               // %then.1.i.i.us.us.i.i
                                        //   in Loop: Header=BB15_7 Depth=2
	ldr	x5, [x14, x5]
.LBB15_6:                               // %"sighted::set_at.exit.us.us.i.i"
                                        //   in Loop: Header=BB15_7 Depth=2
	sub	x6, x16, #1
	orr	x2, x5, x2
	add	x1, x1, #1
	and	x16, x6, x16
	add	x9, x9, x3
	add	x10, x10, x4
	add	x12, x12, x8
	cbz	x16, .LBB15_26
.LBB15_7:                               // %join.5.i.us.us.i.i
                                        //   Parent Loop BB15_4 Depth=1
                                        // =>  This Inner Loop Header: Depth=2
	rbit	x5, x16
	mov	x7, sp
	cmp	x17, #8
	clz	x6, x5
	lsl	x5, x6, #3
	strb	w8, [x7, x6]
	b.lo	.LBB15_9
// %bb.8:                               // %join.5.i.us.us.i.i
                                        //   in Loop: Header=BB15_7 Depth=2
	cmp	x5, x18
	b.ls	.LBB15_5
.LBB15_9:                               // %join.6.i.i.us.us.i.i
                                        //   in Loop: Header=BB15_7 Depth=2
	cmp	x17, x5
	b.ls	.LBB15_12
// %bb.10:                              // %join.8.i.i.preheader.i.us.us.i.i
                                        //   in Loop: Header=BB15_7 Depth=2
	orr	x6, x5, #0x7
	cmp	x6, x17
	b.hs	.LBB15_13
// %bb.11:                              // %then.1.i.i.i.i.us.us.i.i
                                        //   in Loop: Header=BB15_7 Depth=2
	ldrb	w6, [x14, x6]
	lsl	x6, x6, #8
	orr	x7, x5, #0x6
	cmp	x7, x17
	b.lo	.LBB15_14
	b	.LBB15_15
.LBB15_12:                              //   in Loop: Header=BB15_7 Depth=2
	mov	x5, xzr
	b	.LBB15_6
.LBB15_13:                              //   in Loop: Header=BB15_7 Depth=2
	mov	x6, xzr
	orr	x7, x5, #0x6
	cmp	x7, x17
	b.hs	.LBB15_15
.LBB15_14:                              // %then.1.i.i.i.1.i.us.us.i.i
                                        //   in Loop: Header=BB15_7 Depth=2
	ldrb	w7, [x14, x7]
	orr	x6, x6, x7
.LBB15_15:                              // %"records::byte_at.exit.i.i.1.i.us.us.i.i"
                                        //   in Loop: Header=BB15_7 Depth=2
	mov	w7, #5                          // =0x5
	lsl	x6, x6, #8
	orr	x7, x5, x7
	cmp	x7, x17
	b.lo	.LBB15_22
// %bb.16:                              // %"records::byte_at.exit.i.i.2.i.us.us.i.i"
                                        //   in Loop: Header=BB15_7 Depth=2
	orr	x7, x5, #0x4
	lsl	x6, x6, #8
	cmp	x7, x17
	b.lo	.LBB15_23
.LBB15_17:                              // %"records::byte_at.exit.i.i.3.i.us.us.i.i"
                                        //   in Loop: Header=BB15_7 Depth=2
	orr	x7, x5, #0x3
	lsl	x6, x6, #8
	cmp	x7, x17
	b.lo	.LBB15_24
.LBB15_18:                              // %"records::byte_at.exit.i.i.4.i.us.us.i.i"
                                        //   in Loop: Header=BB15_7 Depth=2
	orr	x7, x5, #0x2
	lsl	x6, x6, #8
	cmp	x7, x17
	b.lo	.LBB15_25
.LBB15_19:                              // %"records::byte_at.exit.i.i.5.i.us.us.i.i"
                                        //   in Loop: Header=BB15_7 Depth=2
	orr	x7, x5, #0x1
	lsl	x6, x6, #8
	cmp	x7, x17
	b.hs	.LBB15_21
.LBB15_20:                              // %then.1.i.i.i.6.i.us.us.i.i
                                        //   in Loop: Header=BB15_7 Depth=2
	ldrb	w7, [x14, x7]
	orr	x6, x6, x7
.LBB15_21:                              // %"records::byte_at.exit.i.i.7.i.us.us.i.i"
                                        //   in Loop: Header=BB15_7 Depth=2
	ldrb	w5, [x14, x5]
	orr	x5, x5, x6, lsl #8
	b	.LBB15_6
.LBB15_22:                              // %then.1.i.i.i.2.i.us.us.i.i
                                        //   in Loop: Header=BB15_7 Depth=2
	ldrb	w7, [x14, x7]
	orr	x6, x6, x7
	orr	x7, x5, #0x4
	lsl	x6, x6, #8
	cmp	x7, x17
	b.hs	.LBB15_17
.LBB15_23:                              // %then.1.i.i.i.3.i.us.us.i.i
                                        //   in Loop: Header=BB15_7 Depth=2
	ldrb	w7, [x14, x7]
	orr	x6, x6, x7
	orr	x7, x5, #0x3
	lsl	x6, x6, #8
	cmp	x7, x17
	b.hs	.LBB15_18
.LBB15_24:                              // %then.1.i.i.i.4.i.us.us.i.i
                                        //   in Loop: Header=BB15_7 Depth=2
	ldrb	w7, [x14, x7]
	orr	x6, x6, x7
	orr	x7, x5, #0x2
	lsl	x6, x6, #8
	cmp	x7, x17
	b.hs	.LBB15_19
.LBB15_25:                              // %then.1.i.i.i.5.i.us.us.i.i
                                        //   in Loop: Header=BB15_7 Depth=2
	ldrb	w7, [x14, x7]
	orr	x6, x6, x7
	orr	x7, x5, #0x1
	lsl	x6, x6, #8
	cmp	x7, x17
	b.lo	.LBB15_20
	b	.LBB15_21
.LBB15_26:                              // %"sighted::look.exit.split.us.us.i.i"
                                        //   in Loop: Header=BB15_4 Depth=1
	dup	v1.2d, x8
	adrp	x16, .LCPI15_0
	add	x11, x11, x1
	ldr	q2, [x16, :lo12:.LCPI15_0]
	ands	x16, x2, x15
	add	x8, x8, #1
	cmeq	v1.2d, v1.2d, v2.2d
	dup	v2.2d, x1
	and	v1.16b, v1.16b, v2.16b
	add	v0.2d, v1.2d, v0.2d
	b.eq	.LBB15_34
// %bb.27:                              // %"sighted::look.exit.split.us.us.i.i"
                                        //   in Loop: Header=BB15_4 Depth=1
	cmp	x8, x13
	eor	x15, x16, x15
	b.lo	.LBB15_4
	b	.LBB15_34
.LBB15_28:                              // %join.5.i.i
                                        // =>This Loop Header: Depth=1
                                        //     Child Loop BB15_29 Depth 2
	and	x1, x8, #0x1
	mov	x17, xzr
	mov	x18, xzr
	mul	x2, x8, x1
.LBB15_29:                              // %join.5.i.i.i
                                        //   Parent Loop BB15_28 Depth=1
                                        // =>  This Inner Loop Header: Depth=2
	rbit	x3, x16
	sub	x5, x16, #1
	mov	x6, sp
	add	x17, x17, #1
	ands	x16, x5, x16
	add	x9, x9, x1
	clz	x3, x3
	add	x10, x10, x2
	add	x12, x12, x8
	ldr	x4, [x14, x3, lsl #3]
	strb	w8, [x6, x3]
	orr	x18, x4, x18
	b.ne	.LBB15_29
// %bb.30:                              // %"sighted::look.exit.split.i.i"
                                        //   in Loop: Header=BB15_28 Depth=1
	dup	v1.2d, x8
	adrp	x16, .LCPI15_0
	add	x11, x11, x17
	ldr	q2, [x16, :lo12:.LCPI15_0]
	ands	x16, x18, x15
	add	x8, x8, #1
	cmeq	v1.2d, v1.2d, v2.2d
	dup	v2.2d, x17
	and	v1.16b, v1.16b, v2.16b
	add	v0.2d, v1.2d, v0.2d
	b.eq	.LBB15_34
// %bb.31:                              // %"sighted::look.exit.split.i.i"
                                        //   in Loop: Header=BB15_28 Depth=1
	cmp	x8, x13
	eor	x15, x16, x15
	b.lo	.LBB15_28
	b	.LBB15_34
.LBB15_32:                              // %"summary::atoms.exit.thread"
	movi	v0.2d, #0000000000000000
	mov	x12, xzr
	mov	x10, xzr
	mov	x11, xzr
	mov	x9, xzr
	mov	x8, xzr
	stp	q0, q0, [sp]
	stp	q0, q0, [sp, #32]
	b	.LBB15_34
.LBB15_33:
	mov	x12, xzr
	mov	x10, xzr
	mov	x11, xzr
	mov	x9, xzr
	mov	x8, xzr
.LBB15_34:                              // %"sighted::see.exit"
	stur	q0, [x0, #40]
	ldp	q0, q1, [sp]
	sub	x11, x11, x9
	cmp	x8, #0
	sub	x13, x12, x10
	stp	x10, x11, [x0, #16]
	cset	w10, ne
	stp	q0, q1, [x0, #64]
	ldp	q2, q0, [sp, #32]
	sub	x8, x8, x10
	stp	x12, x13, [x0]
	str	x9, [x0, #32]
	str	x8, [x0, #56]
	stp	q2, q0, [x0, #96]
	add	sp, sp, #64
	ret
.Lfunc_end15:
	.size	"summary::seen", .Lfunc_end15-"summary::seen"
                                        // -- End function
	.section	".text.summary::fields","ax",@progbits
	.p2align	2                               // -- Begin function summary::fields
	.type	"summary::fields",@function
"summary::fields":                      // @"summary::fields"
// %bb.0:                               // %start
	cmp	x2, #7
	b.ls	.LBB16_4
// %bb.1:                               // %"records::little::little_at.exit"
	ldr	w8, [x1, #4]
	cmp	x2, #11
	b.ls	.LBB16_8
// %bb.2:                               // %"summary::atoms.exit"
	ldrb	w10, [x1, #2]
	mov	w11, #64                        // =0x40
	ldr	w9, [x1, #8]
	cmp	w10, #64
	csel	w11, w10, w11, lo
	cmp	x2, #16
	b.lo	.LBB16_21
// %bb.3:                               // %"records::little::little_at.exit58.thread"
	ldr	w10, [x1, #12]
	b	.LBB16_20
.LBB16_4:                               // %join.6.i
	cmp	x2, #5
	b.hs	.LBB16_14
// %bb.5:                               // %"records::little::little_at.exit32"
	cmp	x2, #2
	b.ls	.LBB16_27
// %bb.6:                               // %"records::little::little_at.exit58"
	ldrb	w11, [x1, #2]
	mov	w12, #64                        // =0x40
	mov	x9, xzr
	mov	x8, xzr
	mov	x10, xzr
	cmp	w11, #64
	csel	w11, w11, w12, lo
	cmp	x2, #4
	mov	x12, xzr
	b.hs	.LBB16_20
// %bb.7:                               // %"summary::byte.exit"
	mov	w11, w11
	add	x13, x9, x8
	stp	x8, x9, [x0, #16]
	stp	x11, x13, [x0]
	stp	x10, x12, [x0, #32]
	ret
.LBB16_8:                               // %join.6.i9
	cmp	x2, #8
	mov	x9, xzr
	b.eq	.LBB16_19
// %bb.9:                               // %join.6.i9
	cmp	x2, #9
	b.eq	.LBB16_13
// %bb.10:                              // %join.6.i9
	cmp	x2, #11
	b.ne	.LBB16_12
// %bb.11:                              // %"records::byte_at.exit.i.i19.1.thread"
	ldrb	w9, [x1, #10]
	lsl	x9, x9, #8
.LBB16_12:                              // %then.1.i.i.i22.2
	ldrb	w10, [x1, #9]
	orr	x9, x9, x10
	lsl	x9, x9, #8
.LBB16_13:                              // %"records::byte_at.exit.i.i19.3"
	ldrb	w10, [x1, #8]
	orr	x9, x9, x10
	b	.LBB16_19
.LBB16_14:                              // %"records::byte_at.exit.i.i"
	mov	x8, xzr
	b.eq	.LBB16_18
// %bb.15:                              // %"records::byte_at.exit.i.i"
	cmp	x2, #7
	b.ne	.LBB16_17
// %bb.16:                              // %"records::byte_at.exit.i.i.1.thread"
	ldrb	w8, [x1, #6]
	lsl	x8, x8, #8
.LBB16_17:                              // %then.1.i.i.i.2
	ldrb	w9, [x1, #5]
	orr	x8, x8, x9
	lsl	x8, x8, #8
.LBB16_18:                              // %"records::little::little_at.exit32.thread109"
	ldrb	w10, [x1, #4]
	mov	x9, xzr
	orr	x8, x8, x10
.LBB16_19:                              // %"records::little::little_at.exit58.thread140"
	ldrb	w11, [x1, #2]
	mov	w12, #64                        // =0x40
	mov	x10, xzr
	cmp	w11, #64
	csel	w11, w11, w12, lo
.LBB16_20:                              // %then.1.i.i
	ldrb	w12, [x1, #3]
	mov	w11, w11
	add	x13, x9, x8
	stp	x8, x9, [x0, #16]
	stp	x11, x13, [x0]
	stp	x10, x12, [x0, #32]
	ret
.LBB16_21:                              // %join.6.i35
	cmp	x2, #12
	mov	x10, xzr
	b.eq	.LBB16_20
// %bb.22:                              // %join.6.i35
	cmp	x2, #13
	b.eq	.LBB16_26
// %bb.23:                              // %join.6.i35
	cmp	x2, #15
	b.ne	.LBB16_25
// %bb.24:                              // %"records::byte_at.exit.i.i45.1.thread"
	ldrb	w10, [x1, #14]
	lsl	x10, x10, #8
.LBB16_25:                              // %then.1.i.i.i48.2
	ldrb	w12, [x1, #13]
	orr	x10, x10, x12
	lsl	x10, x10, #8
.LBB16_26:                              // %"records::byte_at.exit.i.i45.3"
	ldrb	w12, [x1, #12]
	orr	x10, x10, x12
	b	.LBB16_20
.LBB16_27:
	mov	w11, wzr
	add	x13, xzr, xzr
	stp	xzr, xzr, [x0, #16]
	stp	x11, x13, [x0]
	stp	xzr, xzr, [x0, #32]
	ret
.Lfunc_end16:
	.size	"summary::fields", .Lfunc_end16-"summary::fields"
                                        // -- End function
	.section	".text.sets::count","ax",@progbits
	.p2align	2                               // -- Begin function sets::count
	.type	"sets::count",@function
"sets::count":                          // @"sets::count"
// %bb.0:                               // %start
	stp	x29, x30, [sp, #-64]!           // 16-byte Folded Spill
	str	x28, [sp, #16]                  // 8-byte Spill
	mov	x29, sp
	stp	x22, x21, [sp, #32]             // 16-byte Folded Spill
	stp	x20, x19, [sp, #48]             // 16-byte Folded Spill
	sub	sp, sp, #2384
	movi	v0.2d, #0000000000000000
	mov	x21, x3
	mov	x20, x2
	mov	x22, x1
	mov	x19, x0
	add	x3, sp, #1584
	mov	x0, x1
	mov	x1, x2
	mov	x2, x21
	str	xzr, [sp]
	str	q0, [sp, #2080]
	str	q0, [sp, #2064]
	str	q0, [sp, #2048]
	str	q0, [sp, #2032]
	str	q0, [sp, #2016]
	str	q0, [sp, #2000]
	str	q0, [sp, #1984]
	str	q0, [sp, #1968]
	str	q0, [sp, #1952]
	str	q0, [sp, #1936]
	str	q0, [sp, #1920]
	str	q0, [sp, #1904]
	str	q0, [sp, #1888]
	str	q0, [sp, #1872]
	str	q0, [sp, #1856]
	str	q0, [sp, #1840]
	str	q0, [sp, #1824]
	str	q0, [sp, #1808]
	str	q0, [sp, #1792]
	str	q0, [sp, #1776]
	str	q0, [sp, #1760]
	str	q0, [sp, #1744]
	str	q0, [sp, #1728]
	str	q0, [sp, #1712]
	str	q0, [sp, #1696]
	str	q0, [sp, #1680]
	str	q0, [sp, #1664]
	str	q0, [sp, #1648]
	str	q0, [sp, #1632]
	str	q0, [sp, #1616]
	str	q0, [sp, #1600]
	str	q0, [sp, #1584]
	bl	"block::admit"
	cbz	w0, .LBB17_12
// %bb.1:                               // %arm.1.i
	cbz	x22, .LBB17_13
// %bb.2:                               // %join.7.i
	lsr	x21, x21, #1
	add	x8, x21, #1
	cmp	x8, x22
	b.ne	.LBB17_14
// %bb.3:                               // %join.10.i
	movi	v0.2d, #0000000000000000
	add	x8, sp, #1584
	add	x0, sp, #1056
	add	x8, x8, #472
	mov	w1, wzr
	mov	w2, #520                        // =0x208
	stp	q0, q0, [x8]
	str	q0, [x8, #32]
	bl	memset
	add	x0, sp, #528
	mov	w1, wzr
	mov	w2, #520                        // =0x208
	bl	memset
	mov	x0, sp
	mov	w1, wzr
	mov	w2, #520                        // =0x208
	bl	memset
	movi	v0.2d, #0000000000000000
	mov	w8, #512                        // =0x200
	str	wzr, [sp, #2368]
	str	q0, [sp, #2112]
	str	q0, [sp, #2128]
	str	q0, [sp, #2144]
	str	q0, [sp, #2160]
	str	q0, [sp, #2176]
	str	q0, [sp, #2192]
	str	q0, [sp, #2208]
	str	q0, [sp, #2224]
	str	q0, [sp, #2240]
	str	q0, [sp, #2256]
	str	q0, [sp, #2272]
	str	q0, [sp, #2288]
	str	q0, [sp, #2304]
	str	q0, [sp, #2320]
	str	q0, [sp, #2336]
	str	q0, [sp, #2352]
	str	w8, [sp, #2116]
	cbz	x21, .LBB17_6
// %bb.4:                               // %join.7.i.i.i.preheader
	add	x8, x20, #1
	mov	x9, x21
.LBB17_5:                               // %join.7.i.i.i
                                        // =>This Inner Loop Header: Depth=1
	ldurb	w10, [x8, #-1]
	add	x11, sp, #2112
	subs	x9, x9, #1
	ldrb	w12, [x8], #2
	ldr	w13, [x11, w10, uxtw #2]
	add	w13, w13, w12
	add	w13, w13, #256
	str	w13, [x11, w10, uxtw #2]
	ldr	w13, [x11, w12, uxtw #2]
	add	w10, w13, w10
	add	w10, w10, #256
	str	w10, [x11, w12, uxtw #2]
	b.ne	.LBB17_5
.LBB17_6:                               // %"sets::keyed.exit.i.i"
	mov	w8, #1                          // =0x1
	dup	v0.2d, x8
	str	x8, [sp, #2096]
	str	x8, [sp, #1568]
	str	x8, [sp, #1040]
	str	q0, [sp, #1584]
	str	q0, [sp, #1600]
	str	q0, [sp, #1616]
	str	q0, [sp, #1632]
	str	q0, [sp, #1648]
	str	q0, [sp, #1664]
	str	q0, [sp, #1680]
	str	q0, [sp, #1696]
	str	q0, [sp, #1712]
	str	q0, [sp, #1728]
	str	q0, [sp, #1744]
	str	q0, [sp, #1760]
	str	q0, [sp, #1776]
	str	q0, [sp, #1792]
	str	q0, [sp, #1808]
	str	q0, [sp, #1824]
	str	q0, [sp, #1840]
	str	q0, [sp, #1856]
	str	q0, [sp, #1872]
	str	q0, [sp, #1888]
	str	q0, [sp, #1904]
	str	q0, [sp, #1920]
	str	q0, [sp, #1936]
	str	q0, [sp, #1952]
	str	q0, [sp, #1968]
	str	q0, [sp, #1984]
	str	q0, [sp, #2000]
	str	q0, [sp, #2016]
	str	q0, [sp, #2032]
	str	q0, [sp, #2048]
	str	q0, [sp, #2064]
	str	q0, [sp, #2080]
	str	q0, [sp, #1056]
	str	q0, [sp, #1072]
	str	q0, [sp, #1088]
	str	q0, [sp, #1104]
	str	q0, [sp, #1120]
	str	q0, [sp, #1136]
	str	q0, [sp, #1152]
	str	q0, [sp, #1168]
	str	q0, [sp, #1184]
	str	q0, [sp, #1200]
	str	q0, [sp, #1216]
	str	q0, [sp, #1232]
	str	q0, [sp, #1248]
	str	q0, [sp, #1264]
	str	q0, [sp, #1280]
	str	q0, [sp, #1296]
	str	q0, [sp, #1312]
	str	q0, [sp, #1328]
	str	q0, [sp, #1344]
	str	q0, [sp, #1360]
	str	q0, [sp, #1376]
	str	q0, [sp, #1392]
	str	q0, [sp, #1408]
	str	q0, [sp, #1424]
	str	q0, [sp, #1440]
	str	q0, [sp, #1456]
	str	q0, [sp, #1472]
	str	q0, [sp, #1488]
	str	q0, [sp, #1504]
	str	q0, [sp, #1520]
	str	q0, [sp, #1536]
	str	q0, [sp, #1552]
	stp	q0, q0, [sp]
	stp	q0, q0, [sp, #32]
	stp	q0, q0, [sp, #64]
	stp	q0, q0, [sp, #96]
	stp	q0, q0, [sp, #128]
	stp	q0, q0, [sp, #160]
	stp	q0, q0, [sp, #192]
	stp	q0, q0, [sp, #224]
	stp	q0, q0, [sp, #256]
	stp	q0, q0, [sp, #288]
	stp	q0, q0, [sp, #320]
	stp	q0, q0, [sp, #352]
	stp	q0, q0, [sp, #384]
	stp	q0, q0, [sp, #416]
	stp	q0, q0, [sp, #448]
	stp	q0, q0, [sp, #480]
	stp	q0, q0, [sp, #528]
	stp	q0, q0, [sp, #560]
	stp	q0, q0, [sp, #592]
	stp	q0, q0, [sp, #624]
	stp	q0, q0, [sp, #656]
	stp	q0, q0, [sp, #688]
	stp	q0, q0, [sp, #720]
	stp	q0, q0, [sp, #752]
	stp	q0, q0, [sp, #784]
	stp	q0, q0, [sp, #816]
	stp	q0, q0, [sp, #848]
	stp	q0, q0, [sp, #880]
	stp	q0, q0, [sp, #912]
	stp	q0, q0, [sp, #944]
	stp	q0, q0, [sp, #976]
	stp	q0, q0, [sp, #1008]
	str	x8, [sp, #512]
	cbz	x21, .LBB17_11
// %bb.7:                               // %join.13.i.i.preheader
	mov	w8, #1                          // =0x1
	mov	w9, #1                          // =0x1
	b	.LBB17_9
.LBB17_8:                               // %else.15.i.i
                                        //   in Loop: Header=BB17_9 Depth=1
	add	x9, x8, #1
	mov	x8, x9
	cbz	x21, .LBB17_11
.LBB17_9:                               // %join.13.i.i
                                        // =>This Inner Loop Header: Depth=1
	add	x10, sp, #2112
	ldr	w11, [x10, x9, lsl #2]
	and	w12, w11, #0xffffff00
	cmp	w12, #256
	b.ne	.LBB17_8
// %bb.10:                              // %then.14.i.i
                                        //   in Loop: Header=BB17_9 Depth=1
	and	x11, x11, #0xff
	add	x16, sp, #528
	mov	x17, sp
	add	x12, sp, #1584
	add	x13, sp, #1056
	ldr	x18, [x17, x11, lsl #3]
	ldr	x0, [x16, x9, lsl #3]
	ldr	x2, [x17, x9, lsl #3]
	ldr	x14, [x13, x11, lsl #3]
	ldr	x15, [x12, x9, lsl #3]
	ldr	x3, [x16, x11, lsl #3]
	sub	x21, x21, #1
	mul	x18, x0, x18
	add	x0, x2, x0
	ldr	x2, [x12, x11, lsl #3]
	mul	x1, x15, x14
	mul	x15, x15, x2
	ldr	x2, [x13, x9, lsl #3]
	str	x18, [x17, x11, lsl #3]
	str	xzr, [x17, x9, lsl #3]
	mul	x0, x0, x3
	str	x1, [x13, x11, lsl #3]
	str	xzr, [x13, x9, lsl #3]
	ldr	w13, [x10, x11, lsl #2]
	madd	x14, x2, x14, x15
	sub	w13, w13, w9
	sub	w13, w13, #256
	str	x0, [x16, x11, lsl #3]
	str	w13, [x10, x11, lsl #2]
	mov	w13, #1                         // =0x1
	str	x13, [x16, x9, lsl #3]
	str	x14, [x12, x11, lsl #3]
	str	x13, [x12, x9, lsl #3]
	str	wzr, [x10, x9, lsl #2]
	mov	x9, x11
	cbnz	x21, .LBB17_9
.LBB17_11:                              // %"sets::recursion.exit.i"
	ldr	x9, [sp, #536]
	ldr	x10, [sp, #8]
	mov	x8, xzr
	ldr	x0, [sp, #1592]
	add	x1, x10, x9
	b	.LBB17_16
.LBB17_12:                              // %arm.2.i
	mov	x0, x22
	mov	x1, x20
	mov	x2, x21
	bl	"block::refusal"
	b	.LBB17_15
.LBB17_13:
	mov	x1, xzr
	mov	w0, #18                         // =0x12
	b	.LBB17_15
.LBB17_14:
	mov	x1, xzr
	mov	w0, #34                         // =0x22
.LBB17_15:                              // %"sets::count_from.exit"
	mov	w8, #1                          // =0x1
.LBB17_16:                              // %"sets::count_from.exit"
	stp	x8, x0, [x19]
	str	x1, [x19, #16]
	add	sp, sp, #2384
	ldp	x20, x19, [sp, #48]             // 16-byte Folded Reload
	ldr	x28, [sp, #16]                  // 8-byte Reload
	ldp	x22, x21, [sp, #32]             // 16-byte Folded Reload
	ldp	x29, x30, [sp], #64             // 16-byte Folded Reload
	ret
.Lfunc_end17:
	.size	"sets::count", .Lfunc_end17-"sets::count"
                                        // -- End function
	.section	".text.szeged::terms","ax",@progbits
	.p2align	2                               // -- Begin function szeged::terms
	.type	"szeged::terms",@function
"szeged::terms":                        // @"szeged::terms"
// %bb.0:                               // %start
	stp	x29, x30, [sp, #-96]!           // 16-byte Folded Spill
	stp	x28, x27, [sp, #16]             // 16-byte Folded Spill
	mov	x29, sp
	stp	x26, x25, [sp, #32]             // 16-byte Folded Spill
	stp	x24, x23, [sp, #48]             // 16-byte Folded Spill
	stp	x22, x21, [sp, #64]             // 16-byte Folded Spill
	stp	x20, x19, [sp, #80]             // 16-byte Folded Spill
	sub	sp, sp, #2464
	mov	x21, x2
	mov	x22, x1
	mov	x19, x0
	add	x0, sp, #48
	mov	w1, wzr
	mov	w2, #2016                       // =0x7e0
	str	xzr, [sp]
	mov	x23, x5
	mov	x20, x4
	mov	x24, x3
	stp	xzr, xzr, [sp, #24]
	str	xzr, [sp, #40]
	bl	memset
	add	x0, sp, #24
	add	x4, sp, #48
	mov	x1, x22
	mov	x2, x21
	mov	x3, x24
	bl	"block::halved"
	ldrb	w8, [sp, #24]
	cbz	w8, .LBB18_2
// %bb.1:                               // %arm.2
	ldur	q0, [sp, #32]
	mov	w8, #1                          // =0x1
	str	x8, [x19]
	stur	q0, [x19, #8]
	b	.LBB18_55
.LBB18_2:                               // %arm.1
	lsr	x24, x24, #1
	cmp	x23, x24
	b.hs	.LBB18_4
// %bb.3:
	mov	w23, #9                         // =0x9
	mov	w8, #1                          // =0x1
	b	.LBB18_54
.LBB18_4:                               // %join.3.i
	cbz	x24, .LBB18_53
// %bb.5:                               // %join.5.lr.ph.i.i
	add	x8, sp, #2128
	and	x10, x22, #0xfffffffffffffff8
	add	x9, sp, #2192
	add	x8, x8, #16
	mov	x23, xzr
	mov	x25, xzr
	add	x26, sp, #2064
	str	x8, [sp, #8]                    // 8-byte Spill
	add	x27, x9, #16
	neg	x8, x10
	str	x8, [sp, #16]                   // 8-byte Spill
	b	.LBB18_7
.LBB18_6:                               //   in Loop: Header=BB18_7 Depth=1
	str	xzr, [x20, x25, lsl #3]
	add	x25, x25, #1
	add	x23, xzr, x23
	cmp	x25, x24
	b.eq	.LBB18_52
.LBB18_7:                               // %join.5.i.i
                                        // =>This Loop Header: Depth=1
                                        //     Child Loop BB18_11 Depth 2
                                        //     Child Loop BB18_20 Depth 2
                                        //     Child Loop BB18_30 Depth 2
                                        //     Child Loop BB18_34 Depth 2
                                        //     Child Loop BB18_37 Depth 2
                                        //     Child Loop BB18_43 Depth 2
                                        //     Child Loop BB18_47 Depth 2
                                        //     Child Loop BB18_50 Depth 2
	add	x10, x21, x25, lsl #1
	movi	v0.2d, #0000000000000000
	ldrb	w8, [x10]
	ldrb	w28, [x10, #1]
	sub	x9, x8, #1
	cmp	x9, #64
	b.lo	.LBB18_9
// %bb.8:                               // %then.1.i.i.i.i
                                        //   in Loop: Header=BB18_7 Depth=1
	stp	q0, q0, [x26]
	stp	q0, q0, [x26, #32]
	b	.LBB18_16
.LBB18_9:                               // %join.3.i.i.i.i
                                        //   in Loop: Header=BB18_7 Depth=1
	cmp	w8, #2
	stp	q0, q0, [x26, #320]
	stp	q0, q0, [x26, #352]
	b.lo	.LBB18_13
// %bb.10:                              // %join.5.i.i.i.i.i.preheader
                                        //   in Loop: Header=BB18_7 Depth=1
	mov	x10, xzr
	mov	x11, x8
.LBB18_11:                              // %join.5.i.i.i.i.i
                                        //   Parent Loop BB18_7 Depth=1
                                        // =>  This Inner Loop Header: Depth=2
	add	x12, sp, #48
	add	x13, x10, #1
	sub	x14, x29, #80
	add	x12, x12, x11
	sub	x11, x11, x13
	cmp	x9, x13
	ldurb	w12, [x12, #-2]
	add	x11, x11, #63
	strb	w12, [x14, x10]
	mov	x10, x13
	b.ne	.LBB18_11
// %bb.12:                              // %"half::column.exit.i.i.i.i"
                                        //   in Loop: Header=BB18_7 Depth=1
	ldp	q0, q1, [x26, #320]
	cmp	w8, #63
	stp	q0, q1, [x26, #192]
	ldp	q0, q2, [x26, #352]
	stp	q0, q2, [x26, #224]
	b.ls	.LBB18_14
	b	.LBB18_15
.LBB18_13:                              // %"half::column.exit.thread.i.i.i.i"
                                        //   in Loop: Header=BB18_7 Depth=1
	stp	q0, q0, [x26, #192]
	stp	q0, q0, [x26, #224]
.LBB18_14:                              // %join.5.lr.ph.i.i.i.i.i
                                        //   in Loop: Header=BB18_7 Depth=1
	mov	w10, #128                       // =0x80
	sub	x10, x10, x8
	smull	x9, w9, w10
	add	x10, sp, #48
	add	x1, x10, x9, lsr #1
	mov	w9, #64                         // =0x40
	sub	x10, x29, #208
	sub	x2, x9, x8
	add	x0, x10, x8
	bl	memcpy
.LBB18_15:                              // %"half::along.exit.i.i.i.i"
                                        //   in Loop: Header=BB18_7 Depth=1
	ldp	q0, q1, [x26, #192]
	stp	q0, q1, [x26]
	ldp	q0, q2, [x26, #224]
	stp	q0, q2, [x26, #32]
.LBB18_16:                              // %"half::row.exit.i.i.i"
                                        //   in Loop: Header=BB18_7 Depth=1
	ldp	q0, q1, [x26]
	sub	x8, x28, #1
	cmp	x8, #64
	stp	q0, q1, [x26, #128]
	ldp	q0, q2, [x26, #32]
	stp	q0, q2, [x26, #160]
	movi	v0.2d, #0000000000000000
	b.lo	.LBB18_18
// %bb.17:                              // %then.1.i28.i.i.i
                                        //   in Loop: Header=BB18_7 Depth=1
	stp	q0, q0, [x26]
	stp	q0, q0, [x26, #32]
	ldp	q0, q1, [x26]
	stp	q0, q1, [x26, #64]
	ldp	q0, q2, [x26, #32]
	stp	q0, q2, [x26, #96]
	cbnz	x22, .LBB18_25
	b	.LBB18_6
.LBB18_18:                              // %join.3.i7.i.i.i
                                        //   in Loop: Header=BB18_7 Depth=1
	cmp	w28, #2
	stp	q0, q0, [x26, #256]
	stp	q0, q0, [x26, #288]
	b.lo	.LBB18_22
// %bb.19:                              // %join.5.i.i16.i.i.i.preheader
                                        //   in Loop: Header=BB18_7 Depth=1
	mov	x9, xzr
	mov	x10, x28
.LBB18_20:                              // %join.5.i.i16.i.i.i
                                        //   Parent Loop BB18_7 Depth=1
                                        // =>  This Inner Loop Header: Depth=2
	add	x11, sp, #48
	add	x12, x9, #1
	sub	x13, x29, #144
	add	x11, x11, x10
	sub	x10, x10, x12
	cmp	x8, x12
	ldurb	w11, [x11, #-2]
	add	x10, x10, #63
	strb	w11, [x13, x9]
	mov	x9, x12
	b.ne	.LBB18_20
// %bb.21:                              // %"half::column.exit.i26.i.i.i"
                                        //   in Loop: Header=BB18_7 Depth=1
	ldp	q0, q1, [x26, #256]
	cmp	w28, #63
	stp	q0, q1, [x26, #320]
	ldp	q0, q2, [x26, #288]
	stp	q0, q2, [x26, #352]
	b.ls	.LBB18_23
	b	.LBB18_24
.LBB18_22:                              // %"half::column.exit.thread.i9.i.i.i"
                                        //   in Loop: Header=BB18_7 Depth=1
	stp	q0, q0, [x26, #320]
	stp	q0, q0, [x26, #352]
.LBB18_23:                              // %join.5.lr.ph.i.i10.i.i.i
                                        //   in Loop: Header=BB18_7 Depth=1
	mov	w9, #128                        // =0x80
	sub	x9, x9, x28
	smull	x8, w8, w9
	add	x9, sp, #48
	add	x1, x9, x8, lsr #1
	mov	w8, #64                         // =0x40
	sub	x9, x29, #80
	sub	x2, x8, x28
	add	x0, x9, x28
	bl	memcpy
.LBB18_24:                              // %"half::along.exit.i15.i.i.i"
                                        //   in Loop: Header=BB18_7 Depth=1
	ldp	q0, q1, [x26, #320]
	stp	q0, q1, [x26]
	ldp	q0, q2, [x26, #352]
	stp	q0, q2, [x26, #32]
	ldp	q0, q1, [x26]
	stp	q0, q1, [x26, #64]
	ldp	q0, q2, [x26, #32]
	stp	q0, q2, [x26, #96]
	cbz	x22, .LBB18_6
.LBB18_25:                              // %iter.check27
                                        //   in Loop: Header=BB18_7 Depth=1
	cmp	x22, #8
	b.hs	.LBB18_27
// %bb.26:                              //   in Loop: Header=BB18_7 Depth=1
	mov	w8, wzr
	mov	x11, xzr
	b	.LBB18_36
.LBB18_27:                              // %vector.main.loop.iter.check29
                                        //   in Loop: Header=BB18_7 Depth=1
	cmp	x22, #32
	b.hs	.LBB18_29
// %bb.28:                              //   in Loop: Header=BB18_7 Depth=1
	mov	x10, xzr
	mov	w8, wzr
	b	.LBB18_33
.LBB18_29:                              // %vector.body33.preheader
                                        //   in Loop: Header=BB18_7 Depth=1
	movi	v0.2d, #0000000000000000
	movi	v1.2d, #0000000000000000
	ldr	x9, [sp, #8]                    // 8-byte Reload
	mov	x8, x27
	and	x10, x22, #0xffffffffffffffe0
.LBB18_30:                              // %vector.body33
                                        //   Parent Loop BB18_7 Depth=1
                                        // =>  This Inner Loop Header: Depth=2
	ldp	q2, q3, [x8, #-16]
	subs	x10, x10, #32
	ldp	q4, q5, [x9, #-16]
	add	x9, x9, #32
	add	x8, x8, #32
	cmhi	v2.16b, v4.16b, v2.16b
	cmhi	v3.16b, v5.16b, v3.16b
	sub	v0.16b, v0.16b, v2.16b
	sub	v1.16b, v1.16b, v3.16b
	b.ne	.LBB18_30
// %bb.31:                              // %middle.block42
                                        //   in Loop: Header=BB18_7 Depth=1
	add	v0.16b, v1.16b, v0.16b
	and	x8, x22, #0xffffffffffffffe0
	cmp	x22, x8
	addv	b0, v0.16b
	fmov	w8, s0
	b.eq	.LBB18_38
// %bb.32:                              // %vec.epilog.iter.check48
                                        //   in Loop: Header=BB18_7 Depth=1
	and	x10, x22, #0xffffffffffffffe0
	and	x11, x22, #0xffffffffffffffe0
	and	x9, x22, #0x18
	cbz	x9, .LBB18_36
.LBB18_33:                              // %vec.epilog.ph50
                                        //   in Loop: Header=BB18_7 Depth=1
	movi	v0.2d, #0000000000000000
	add	x9, sp, #2128
	add	x11, sp, #2192
	add	x9, x9, x10
	mov	v0.b[0], w8
	ldr	x8, [sp, #16]                   // 8-byte Reload
	add	x8, x8, x10
	add	x10, x11, x10
.LBB18_34:                              // %vec.epilog.vector.body53
                                        //   Parent Loop BB18_7 Depth=1
                                        // =>  This Inner Loop Header: Depth=2
	ldr	d1, [x10], #8
	adds	x8, x8, #8
	ldr	d2, [x9], #8
	cmhi	v1.8b, v2.8b, v1.8b
	sub	v0.8b, v0.8b, v1.8b
	b.ne	.LBB18_34
// %bb.35:                              // %vec.epilog.middle.block59
                                        //   in Loop: Header=BB18_7 Depth=1
	addv	b0, v0.8b
	and	x8, x22, #0xfffffffffffffff8
	and	x11, x22, #0xfffffffffffffff8
	cmp	x22, x8
	fmov	w8, s0
	b.eq	.LBB18_38
.LBB18_36:                              // %join.5.i.i.i.i.preheader
                                        //   in Loop: Header=BB18_7 Depth=1
	add	x10, sp, #2128
	add	x12, sp, #2192
	sub	x9, x22, x11
	add	x10, x10, x11
	add	x11, x12, x11
.LBB18_37:                              // %join.5.i.i.i.i
                                        //   Parent Loop BB18_7 Depth=1
                                        // =>  This Inner Loop Header: Depth=2
	ldrb	w12, [x11], #1
	ldrb	w13, [x10], #1
	cmp	w12, w13
	cinc	w8, w8, lo
	subs	x9, x9, #1
	b.ne	.LBB18_37
.LBB18_38:                              // %iter.check
                                        //   in Loop: Header=BB18_7 Depth=1
	cmp	x22, #8
	b.hs	.LBB18_40
// %bb.39:                              //   in Loop: Header=BB18_7 Depth=1
	mov	w9, wzr
	mov	x12, xzr
	b	.LBB18_49
.LBB18_40:                              // %vector.main.loop.iter.check
                                        //   in Loop: Header=BB18_7 Depth=1
	cmp	x22, #32
	b.hs	.LBB18_42
// %bb.41:                              //   in Loop: Header=BB18_7 Depth=1
	mov	x11, xzr
	mov	w9, wzr
	b	.LBB18_46
.LBB18_42:                              // %vector.body.preheader
                                        //   in Loop: Header=BB18_7 Depth=1
	movi	v0.2d, #0000000000000000
	movi	v1.2d, #0000000000000000
	ldr	x9, [sp, #8]                    // 8-byte Reload
	mov	x10, x27
	and	x11, x22, #0xffffffffffffffe0
.LBB18_43:                              // %vector.body
                                        //   Parent Loop BB18_7 Depth=1
                                        // =>  This Inner Loop Header: Depth=2
	ldp	q2, q3, [x9, #-16]
	subs	x11, x11, #32
	ldp	q4, q5, [x10, #-16]
	add	x10, x10, #32
	add	x9, x9, #32
	cmhi	v2.16b, v4.16b, v2.16b
	cmhi	v3.16b, v5.16b, v3.16b
	sub	v0.16b, v0.16b, v2.16b
	sub	v1.16b, v1.16b, v3.16b
	b.ne	.LBB18_43
// %bb.44:                              // %middle.block
                                        //   in Loop: Header=BB18_7 Depth=1
	add	v0.16b, v1.16b, v0.16b
	and	x9, x22, #0xffffffffffffffe0
	cmp	x22, x9
	addv	b0, v0.16b
	fmov	w9, s0
	b.eq	.LBB18_51
// %bb.45:                              // %vec.epilog.iter.check
                                        //   in Loop: Header=BB18_7 Depth=1
	and	x11, x22, #0xffffffffffffffe0
	and	x12, x22, #0xffffffffffffffe0
	and	x10, x22, #0x18
	cbz	x10, .LBB18_49
.LBB18_46:                              // %vec.epilog.ph
                                        //   in Loop: Header=BB18_7 Depth=1
	movi	v0.2d, #0000000000000000
	add	x10, sp, #2192
	add	x12, sp, #2128
	add	x10, x10, x11
	mov	v0.b[0], w9
	ldr	x9, [sp, #16]                   // 8-byte Reload
	add	x9, x9, x11
	add	x11, x12, x11
.LBB18_47:                              // %vec.epilog.vector.body
                                        //   Parent Loop BB18_7 Depth=1
                                        // =>  This Inner Loop Header: Depth=2
	ldr	d1, [x11], #8
	adds	x9, x9, #8
	ldr	d2, [x10], #8
	cmhi	v1.8b, v2.8b, v1.8b
	sub	v0.8b, v0.8b, v1.8b
	b.ne	.LBB18_47
// %bb.48:                              // %vec.epilog.middle.block
                                        //   in Loop: Header=BB18_7 Depth=1
	addv	b0, v0.8b
	and	x9, x22, #0xfffffffffffffff8
	and	x12, x22, #0xfffffffffffffff8
	cmp	x22, x9
	fmov	w9, s0
	b.eq	.LBB18_51
.LBB18_49:                              // %join.5.i31.i.i.i.preheader
                                        //   in Loop: Header=BB18_7 Depth=1
	add	x11, sp, #2192
	add	x13, sp, #2128
	sub	x10, x22, x12
	add	x11, x11, x12
	add	x12, x13, x12
.LBB18_50:                              // %join.5.i31.i.i.i
                                        //   Parent Loop BB18_7 Depth=1
                                        // =>  This Inner Loop Header: Depth=2
	ldrb	w13, [x12], #1
	ldrb	w14, [x11], #1
	cmp	w13, w14
	cinc	w9, w9, lo
	subs	x10, x10, #1
	b.ne	.LBB18_50
.LBB18_51:                              // %after.1.loopexit.i43.i.i.i
                                        //   in Loop: Header=BB18_7 Depth=1
	and	x8, x8, #0xff
	and	x9, x9, #0xff
	umull	x8, w9, w8
	str	x8, [x20, x25, lsl #3]
	add	x25, x25, #1
	add	x23, x8, x23
	cmp	x25, x24
	b.ne	.LBB18_7
.LBB18_52:
	mov	x8, xzr
	b	.LBB18_54
.LBB18_53:
	mov	x8, xzr
	mov	x23, xzr
.LBB18_54:                              // %"szeged::answered.exit"
	stp	x8, x23, [x19]
	str	xzr, [x19, #16]
.LBB18_55:                              // %common.ret
	add	sp, sp, #2464
	ldp	x20, x19, [sp, #80]             // 16-byte Folded Reload
	ldp	x22, x21, [sp, #64]             // 16-byte Folded Reload
	ldp	x24, x23, [sp, #48]             // 16-byte Folded Reload
	ldp	x26, x25, [sp, #32]             // 16-byte Folded Reload
	ldp	x28, x27, [sp, #16]             // 16-byte Folded Reload
	ldp	x29, x30, [sp], #96             // 16-byte Folded Reload
	ret
.Lfunc_end18:
	.size	"szeged::terms", .Lfunc_end18-"szeged::terms"
                                        // -- End function
	.section	".text.block::halved","ax",@progbits
	.p2align	2                               // -- Begin function block::halved
	.type	"block::halved",@function
"block::halved":                        // @"block::halved"
// %bb.0:                               // %start
	stp	x29, x30, [sp, #-96]!           // 16-byte Folded Spill
	str	x28, [sp, #16]                  // 8-byte Spill
	mov	x29, sp
	stp	x26, x25, [sp, #32]             // 16-byte Folded Spill
	stp	x24, x23, [sp, #48]             // 16-byte Folded Spill
	stp	x22, x21, [sp, #64]             // 16-byte Folded Spill
	stp	x20, x19, [sp, #80]             // 16-byte Folded Spill
	sub	sp, sp, #576
	movi	v0.2d, #0000000000000000
	mov	x22, x3
	mov	x23, x2
	mov	x21, x1
	mov	x19, x0
	mov	x3, sp
	mov	x0, x1
	mov	x1, x2
	mov	x2, x22
	mov	x20, x4
	stp	q0, q0, [sp]
	stp	q0, q0, [sp, #32]
	stp	q0, q0, [sp, #64]
	stp	q0, q0, [sp, #96]
	stp	q0, q0, [sp, #128]
	stp	q0, q0, [sp, #160]
	stp	q0, q0, [sp, #192]
	stp	q0, q0, [sp, #224]
	stp	q0, q0, [sp, #256]
	stp	q0, q0, [sp, #288]
	stp	q0, q0, [sp, #320]
	stp	q0, q0, [sp, #352]
	stp	q0, q0, [sp, #384]
	stp	q0, q0, [sp, #416]
	stp	q0, q0, [sp, #448]
	stp	q0, q0, [sp, #480]
	bl	"block::admit"
	tbz	w0, #0, .LBB19_9
// %bb.1:                               // %join.5
	mov	x0, x20
	mov	w1, wzr
	mov	w2, #2016                       // =0x7e0
	bl	memset
	cbz	x21, .LBB19_10
// %bb.2:                               // %join.5.lr.ph.i
	mov	w8, #64                         // =0x40
	mov	x10, #-1                        // =0xffffffffffffffff
	mov	x22, xzr
	subs	x9, x8, x21
	mov	x23, xzr
	csel	x9, xzr, x9, lo
	cmp	x21, #64
	lsr	x24, x10, x9
	csel	x25, x21, x8, lo
	b	.LBB19_4
.LBB19_3:                               // %"half::put_row.exit.i"
                                        //   in Loop: Header=BB19_4 Depth=1
	sub	x8, x22, x23, lsl #1
	cmp	x26, x21
	mov	x23, x26
	add	x22, x8, #126
	b.eq	.LBB19_10
.LBB19_4:                               // %join.5.i
                                        // =>This Loop Header: Depth=1
                                        //     Child Loop BB19_5 Depth 2
	movi	v0.2d, #0000000000000000
	mov	w10, #1                         // =0x1
	mov	x9, xzr
	lsl	x11, x10, x23
	mov	w8, wzr
	eor	x10, x11, x24
	stp	q0, q0, [x29, #-64]
	stp	q0, q0, [x29, #-32]
.LBB19_5:                               // %join.5.i.i
                                        //   Parent Loop BB19_4 Depth=1
                                        // =>  This Inner Loop Header: Depth=2
	rbit	x12, x11
	mov	x13, sp
	sub	x14, x11, #1
	ands	x11, x14, x11
	clz	x12, x12
	ldr	x13, [x13, x12, lsl #3]
	orr	x9, x13, x9
	sub	x13, x29, #64
	and	x14, x9, x10
	strb	w8, [x13, x12]
	cinc	w8, w8, eq
	eor	x12, x14, x10
	csel	x11, x11, x14, ne
	csel	x9, x9, xzr, ne
	csel	x10, x10, x12, ne
	cbnz	x11, .LBB19_5
// %bb.6:                               // %"block::search::from_atom.exit.i"
                                        //   in Loop: Header=BB19_4 Depth=1
	cmp	x23, #63
	add	x26, x23, #1
	b.hi	.LBB19_3
// %bb.7:                               // %"block::search::from_atom.exit.i"
                                        //   in Loop: Header=BB19_4 Depth=1
	cmp	x26, x25
	b.hs	.LBB19_3
// %bb.8:                               // %join.11.preheader.i.i
                                        //   in Loop: Header=BB19_4 Depth=1
	add	x0, x20, x22, lsr #1
	mvn	x8, x23
	sub	x9, x29, #64
	add	x1, x9, x26
	add	x2, x25, x8
	bl	memcpy
	b	.LBB19_3
.LBB19_9:                               // %then.3
	mov	x0, x21
	mov	x1, x23
	mov	x2, x22
	bl	"block::refusal"
	mov	w8, #1                          // =0x1
	stp	x0, x1, [x19, #8]
	strb	w8, [x19]
	b	.LBB19_11
.LBB19_10:                              // %"block::search::from_all.exit"
	strb	wzr, [x19]
	stp	xzr, xzr, [x19, #8]
.LBB19_11:                              // %"block::search::from_all.exit"
	add	sp, sp, #576
	ldp	x20, x19, [sp, #80]             // 16-byte Folded Reload
	ldr	x28, [sp, #16]                  // 8-byte Reload
	ldp	x22, x21, [sp, #64]             // 16-byte Folded Reload
	ldp	x24, x23, [sp, #48]             // 16-byte Folded Reload
	ldp	x26, x25, [sp, #32]             // 16-byte Folded Reload
	ldp	x29, x30, [sp], #96             // 16-byte Folded Reload
	ret
.Lfunc_end19:
	.size	"block::halved", .Lfunc_end19-"block::halved"
                                        // -- End function
	.section	.rodata.cst16,"aM",@progbits,16
	.p2align	4, 0x0                          // -- Begin function claiming::judged
.LCPI20_0:
	.xword	1000000000                      // 0x3b9aca00
	.xword	100000000                       // 0x5f5e100
.LCPI20_1:
	.xword	10000000                        // 0x989680
	.xword	1000000                         // 0xf4240
.LCPI20_2:
	.xword	100000                          // 0x186a0
	.xword	10000                           // 0x2710
.LCPI20_3:
	.xword	1000                            // 0x3e8
	.xword	100                             // 0x64
.LCPI20_4:
	.xword	10                              // 0xa
	.xword	1                               // 0x1
.LCPI20_5:
	.xword	0                               // 0x0
	.xword	36                              // 0x24
	.section	".text.claiming::judged","ax",@progbits
	.p2align	2
	.type	"claiming::judged",@function
"claiming::judged":                     // @"claiming::judged"
// %bb.0:                               // %start
	sub	sp, sp, #112
	str	x21, [sp, #80]                  // 8-byte Spill
	stp	x20, x19, [sp, #96]             // 16-byte Folded Spill
	cbz	x2, .LBB20_84
// %bb.1:                               // %join.3
	mov	w10, wzr
	mov	x9, xzr
	mov	x8, xzr
	mov	x11, xzr
.LBB20_2:                               // %"records::byte_at.exit.i.i"
                                        // =>This Loop Header: Depth=1
                                        //     Child Loop BB20_19 Depth 2
                                        //     Child Loop BB20_23 Depth 2
                                        //     Child Loop BB20_37 Depth 2
                                        //     Child Loop BB20_53 Depth 2
                                        //     Child Loop BB20_59 Depth 2
                                        //     Child Loop BB20_10 Depth 2
                                        //     Child Loop BB20_14 Depth 2
                                        //     Child Loop BB20_30 Depth 2
                                        //     Child Loop BB20_42 Depth 2
                                        //     Child Loop BB20_48 Depth 2
                                        //     Child Loop BB20_63 Depth 2
	ldrb	w15, [x1, x11]
	add	x8, x8, #1
	sub	x12, x15, #1
	cmp	x12, x4
	b.hs	.LBB20_85
// %bb.3:                               // %join.3.i.i
                                        //   in Loop: Header=BB20_2 Depth=1
	add	x12, x11, #1
	cmp	x12, x2
	b.hs	.LBB20_5
// %bb.4:                               // %then.1.i.i.i.i
                                        //   in Loop: Header=BB20_2 Depth=1
	ldrb	w13, [x1, x12]
	add	x13, x13, #2
	b	.LBB20_6
.LBB20_5:                               //   in Loop: Header=BB20_2 Depth=1
	mov	w13, #2                         // =0x2
.LBB20_6:                               // %"claiming::size_at.exit.i.i"
                                        //   in Loop: Header=BB20_2 Depth=1
	sub	x14, x2, x11
	cmp	x14, x13
	b.lo	.LBB20_85
// %bb.7:                               // %join.6.i.i
                                        //   in Loop: Header=BB20_2 Depth=1
	add	x11, x11, #2
	sub	x14, x13, #2
	mov	x17, xzr
	subs	x16, x2, x11
	csel	x13, x2, x11, lo
	cmp	x16, x14
	csel	x14, x16, x14, lo
	cmp	x2, x11
	add	x16, x1, x13
	csel	x14, xzr, x14, lo
	cmp	w15, #10
	b.ne	.LBB20_17
// %bb.8:                               // %then.1.i.i10.i.i
                                        //   in Loop: Header=BB20_2 Depth=1
	cbnz	x14, .LBB20_10
	b	.LBB20_12
.LBB20_9:                               // %join.8.us.i.i.i.i.i.i.i
                                        //   in Loop: Header=BB20_10 Depth=2
	add	x17, x17, #1
	cmp	x14, x17
	b.eq	.LBB20_83
.LBB20_10:                              // %join.5.us.i.i.i.i.i.i.i
                                        //   Parent Loop BB20_2 Depth=1
                                        // =>  This Inner Loop Header: Depth=2
	ldrb	w15, [x16, x17]
	cmp	w15, #32
	b.eq	.LBB20_9
// %bb.11:                              // %join.5.us.i.i.i.i.i.i.i
                                        //   in Loop: Header=BB20_10 Depth=2
	cmp	w15, #9
	b.eq	.LBB20_9
.LBB20_12:                              // %"printed::past.exit.i.i.i.i.i.i"
                                        //   in Loop: Header=BB20_2 Depth=1
	cmp	x17, x14
	mov	x7, x17
	b.hs	.LBB20_26
// %bb.13:                              // %join.5.us15.i.i.i.i.i.i.i.preheader
                                        //   in Loop: Header=BB20_2 Depth=1
	mov	x7, x17
.LBB20_14:                              // %join.5.us15.i.i.i.i.i.i.i
                                        //   Parent Loop BB20_2 Depth=1
                                        // =>  This Inner Loop Header: Depth=2
	ldrb	w15, [x16, x7]
	sub	w15, w15, #48
	cmp	w15, #9
	b.hi	.LBB20_26
// %bb.15:                              // %join.8.us19.i.i.i.i.i.i.i
                                        //   in Loop: Header=BB20_14 Depth=2
	add	x7, x7, #1
	cmp	x14, x7
	b.ne	.LBB20_14
// %bb.16:                              //   in Loop: Header=BB20_2 Depth=1
	mov	x18, x14
	mov	x7, x14
	mov	x15, x14
	b	.LBB20_33
.LBB20_17:                              // %join.3.i.i.i.i
                                        //   in Loop: Header=BB20_2 Depth=1
	cbnz	x14, .LBB20_19
	b	.LBB20_21
.LBB20_18:                              // %join.8.us.i.i.i7.i.i.i.i
                                        //   in Loop: Header=BB20_19 Depth=2
	add	x17, x17, #1
	cmp	x14, x17
	b.eq	.LBB20_83
.LBB20_19:                              // %join.5.us.i.i.i3.i.i.i.i
                                        //   Parent Loop BB20_2 Depth=1
                                        // =>  This Inner Loop Header: Depth=2
	ldrb	w18, [x16, x17]
	cmp	w18, #32
	b.eq	.LBB20_18
// %bb.20:                              // %join.5.us.i.i.i3.i.i.i.i
                                        //   in Loop: Header=BB20_19 Depth=2
	cmp	w18, #9
	b.eq	.LBB20_18
.LBB20_21:                              // %"printed::past.exit.i.i11.i.i.i.i"
                                        //   in Loop: Header=BB20_2 Depth=1
	cmp	x17, x14
	mov	x18, x17
	b.hs	.LBB20_34
// %bb.22:                              // %join.5.us15.i.i.i63.i.i.i.i.preheader
                                        //   in Loop: Header=BB20_2 Depth=1
	mov	x18, x17
.LBB20_23:                              // %join.5.us15.i.i.i63.i.i.i.i
                                        //   Parent Loop BB20_2 Depth=1
                                        // =>  This Inner Loop Header: Depth=2
	ldrb	w7, [x16, x18]
	sub	w7, w7, #48
	cmp	w7, #9
	b.hi	.LBB20_34
// %bb.24:                              // %join.8.us19.i.i.i68.i.i.i.i
                                        //   in Loop: Header=BB20_23 Depth=2
	add	x18, x18, #1
	cmp	x14, x18
	b.ne	.LBB20_23
// %bb.25:                              //   in Loop: Header=BB20_2 Depth=1
	mov	x18, x14
	b	.LBB20_39
.LBB20_26:                              // %"printed::past.exit17.i.i.i.i.i.i"
                                        //   in Loop: Header=BB20_2 Depth=1
	cmp	x7, x14
	mov	x15, x7
	b.hs	.LBB20_28
// %bb.27:                              // %"records::byte_at.exit.i.i.i.i.i.i.i"
                                        //   in Loop: Header=BB20_2 Depth=1
	ldrb	w15, [x16, x7]
	cmp	w15, #46
	cinc	x15, x7, eq
.LBB20_28:                              // %"printed::behind_point.exit.i.i.i.i.i.i"
                                        //   in Loop: Header=BB20_2 Depth=1
	cmp	x15, x14
	mov	x18, x15
	b.hs	.LBB20_40
// %bb.29:                              // %join.5.us15.i21.i.i.i.i.i.i.preheader
                                        //   in Loop: Header=BB20_2 Depth=1
	mov	x18, x15
.LBB20_30:                              // %join.5.us15.i21.i.i.i.i.i.i
                                        //   Parent Loop BB20_2 Depth=1
                                        // =>  This Inner Loop Header: Depth=2
	ldrb	w19, [x16, x18]
	sub	w19, w19, #48
	cmp	w19, #9
	b.hi	.LBB20_40
// %bb.31:                              // %join.8.us19.i26.i.i.i.i.i.i
                                        //   in Loop: Header=BB20_30 Depth=2
	add	x18, x18, #1
	cmp	x14, x18
	b.ne	.LBB20_30
// %bb.32:                              //   in Loop: Header=BB20_2 Depth=1
	mov	x18, x14
.LBB20_33:                              //   in Loop: Header=BB20_2 Depth=1
	mov	x19, x14
	b	.LBB20_44
.LBB20_34:                              // %"printed::past.exit17.i.i14.i.i.i.i"
                                        //   in Loop: Header=BB20_2 Depth=1
	cmp	x18, x14
	mov	x7, x18
	b.hs	.LBB20_36
// %bb.35:                              // %"records::byte_at.exit.i.i.i57.i.i.i.i"
                                        //   in Loop: Header=BB20_2 Depth=1
	ldrb	w7, [x16, x18]
	cmp	w7, #46
	cinc	x7, x18, eq
.LBB20_36:                              // %"printed::behind_point.exit.i.i17.i.i.i.i"
                                        //   in Loop: Header=BB20_2 Depth=1
	cmp	x7, x14
	b.hs	.LBB20_51
.LBB20_37:                              // %join.5.us26.i.i.i.i.i.i.i
                                        //   Parent Loop BB20_2 Depth=1
                                        // =>  This Inner Loop Header: Depth=2
	ldrb	w19, [x16, x7]
	cmp	w19, #48
	b.ne	.LBB20_51
// %bb.38:                              // %join.8.us30.i.i.i.i.i.i.i
                                        //   in Loop: Header=BB20_37 Depth=2
	add	x7, x7, #1
	cmp	x14, x7
	b.ne	.LBB20_37
.LBB20_39:                              //   in Loop: Header=BB20_2 Depth=1
	mov	x7, x14
	b	.LBB20_55
.LBB20_40:                              // %"printed::past.exit36.i.i.i.i.i.i"
                                        //   in Loop: Header=BB20_2 Depth=1
	mov	x19, x18
	cmp	x18, x14
	b.lo	.LBB20_42
	b	.LBB20_44
.LBB20_41:                              // %join.8.us.i44.i.i.i.i.i.i
                                        //   in Loop: Header=BB20_42 Depth=2
	add	x19, x19, #1
	cmp	x14, x19
	b.eq	.LBB20_33
.LBB20_42:                              // %join.5.us.i40.i.i.i.i.i.i
                                        //   Parent Loop BB20_2 Depth=1
                                        // =>  This Inner Loop Header: Depth=2
	ldrb	w20, [x16, x19]
	cmp	w20, #32
	b.eq	.LBB20_41
// %bb.43:                              // %join.5.us.i40.i.i.i.i.i.i
                                        //   in Loop: Header=BB20_42 Depth=2
	cmp	w20, #9
	b.eq	.LBB20_41
.LBB20_44:                              // %"printed::laid_out.exit.i.i.i.i.i"
                                        //   in Loop: Header=BB20_2 Depth=1
	cmp	x17, x7
	b.hs	.LBB20_83
// %bb.45:                              // %"printed::laid_out.exit.i.i.i.i.i"
                                        //   in Loop: Header=BB20_2 Depth=1
	cmp	x19, x14
	b.ne	.LBB20_83
// %bb.46:                              // %join.3.i.i.i.i.i
                                        //   in Loop: Header=BB20_2 Depth=1
	sub	x16, x18, x15
	add	x19, x15, #9
	cmp	x16, #9
	csel	x18, x18, x19, lo
	cmp	x7, x14
	csel	x7, x7, x14, lo
	cmp	x17, x14
	b.hs	.LBB20_61
// %bb.47:                              // %join.8.i.i.i.i.i.i.preheader
                                        //   in Loop: Header=BB20_2 Depth=1
	add	x19, x17, x13
	mov	x16, xzr
	sub	x17, x7, x17
	add	x7, x1, x19
.LBB20_48:                              // %join.8.i.i.i.i.i.i
                                        //   Parent Loop BB20_2 Depth=1
                                        // =>  This Inner Loop Header: Depth=2
	ldrb	w19, [x7], #1
	mov	x21, #-3689348814741910324      // =0xcccccccccccccccc
	movk	x21, #52429
	sub	x20, x19, #48
	cmp	w19, #48
	csel	x19, xzr, x20, lo
	mvn	x20, x19
	umulh	x20, x20, x21
	cmp	x16, x20, lsr #3
	b.hi	.LBB20_83
// %bb.49:                              // %arm.10.i.i.i.i.i.i
                                        //   in Loop: Header=BB20_48 Depth=2
	mov	w20, #10                        // =0xa
	subs	x17, x17, #1
	madd	x16, x16, x20, x19
	b.ne	.LBB20_48
// %bb.50:                              // %arm.4.i.i.i.i.i
                                        //   in Loop: Header=BB20_2 Depth=1
	cmp	x18, x14
	csel	x14, x18, x14, lo
	subs	x14, x15, x14
	b.lo	.LBB20_62
	b	.LBB20_65
.LBB20_51:                              // %"printed::past.exit36.i.i19.i.i.i.i"
                                        //   in Loop: Header=BB20_2 Depth=1
	cmp	x7, x14
	b.lo	.LBB20_53
	b	.LBB20_55
.LBB20_52:                              // %join.8.us.i44.i.i54.i.i.i.i
                                        //   in Loop: Header=BB20_53 Depth=2
	add	x7, x7, #1
	cmp	x14, x7
	b.eq	.LBB20_39
.LBB20_53:                              // %join.5.us.i40.i.i50.i.i.i.i
                                        //   Parent Loop BB20_2 Depth=1
                                        // =>  This Inner Loop Header: Depth=2
	ldrb	w19, [x16, x7]
	cmp	w19, #32
	b.eq	.LBB20_52
// %bb.54:                              // %join.5.us.i40.i.i50.i.i.i.i
                                        //   in Loop: Header=BB20_53 Depth=2
	cmp	w19, #9
	b.eq	.LBB20_52
.LBB20_55:                              // %"printed::laid_out.exit.i22.i.i.i.i"
                                        //   in Loop: Header=BB20_2 Depth=1
	cmp	x17, x18
	b.hs	.LBB20_83
// %bb.56:                              // %"printed::laid_out.exit.i22.i.i.i.i"
                                        //   in Loop: Header=BB20_2 Depth=1
	cmp	x7, x14
	b.ne	.LBB20_83
// %bb.57:                              // %join.3.i28.i.i.i.i
                                        //   in Loop: Header=BB20_2 Depth=1
	cmp	x18, x14
	csel	x16, x18, x14, lo
	cmp	x17, x14
	b.hs	.LBB20_71
// %bb.58:                              // %join.8.i.i32.i.i.i.i.preheader
                                        //   in Loop: Header=BB20_2 Depth=1
	add	x18, x17, x13
	mov	x14, xzr
	sub	x13, x16, x17
	add	x16, x1, x18
.LBB20_59:                              // %join.8.i.i32.i.i.i.i
                                        //   Parent Loop BB20_2 Depth=1
                                        // =>  This Inner Loop Header: Depth=2
	ldrb	w17, [x16], #1
	mov	x7, #-3689348814741910324       // =0xcccccccccccccccc
	movk	x7, #52429
	sub	x18, x17, #48
	cmp	w17, #48
	csel	x17, xzr, x18, lo
	mvn	x18, x17
	umulh	x18, x18, x7
	cmp	x14, x18, lsr #3
	b.hi	.LBB20_83
// %bb.60:                              // %arm.10.i.i44.i.i.i.i
                                        //   in Loop: Header=BB20_59 Depth=2
	mov	w18, #10                        // =0xa
	subs	x13, x13, #1
	madd	x14, x14, x18, x17
	b.ne	.LBB20_59
	b	.LBB20_68
.LBB20_61:                              //   in Loop: Header=BB20_2 Depth=1
	mov	x16, xzr
	cmp	x18, x14
	csel	x14, x18, x14, lo
	subs	x14, x15, x14
	b.hs	.LBB20_65
.LBB20_62:                              // %join.8.i17.i.i.i.i.i.preheader
                                        //   in Loop: Header=BB20_2 Depth=1
	add	x13, x15, x13
	add	x13, x1, x13
.LBB20_63:                              // %join.8.i17.i.i.i.i.i
                                        //   Parent Loop BB20_2 Depth=1
                                        // =>  This Inner Loop Header: Depth=2
	ldrb	w17, [x13], #1
	mov	x19, #-3689348814741910324      // =0xcccccccccccccccc
	movk	x19, #52429
	sub	x7, x17, #48
	cmp	w17, #48
	csel	x17, xzr, x7, lo
	mvn	x7, x17
	umulh	x7, x7, x19
	cmp	x16, x7, lsr #3
	b.hi	.LBB20_83
// %bb.64:                              // %arm.10.i29.i.i.i.i.i
                                        //   in Loop: Header=BB20_63 Depth=2
	mov	w7, #10                         // =0xa
	adds	x14, x14, #1
	madd	x16, x16, x7, x17
	b.lo	.LBB20_63
.LBB20_65:                              // %arm.8.i.i.i.i.i
                                        //   in Loop: Header=BB20_2 Depth=1
	adrp	x13, .LCPI20_0
	mov	x14, sp
	ldr	q0, [x13, :lo12:.LCPI20_0]
	adrp	x13, .LCPI20_1
	ldr	q1, [x13, :lo12:.LCPI20_1]
	adrp	x13, .LCPI20_2
	ldr	q2, [x13, :lo12:.LCPI20_2]
	adrp	x13, .LCPI20_3
	stp	q0, q1, [sp]
	ldr	q0, [x13, :lo12:.LCPI20_3]
	adrp	x13, .LCPI20_4
	ldr	q1, [x13, :lo12:.LCPI20_4]
	sub	x13, x18, x15
	stp	q2, q0, [sp, #32]
	str	q1, [sp, #64]
	ldr	x13, [x14, x13, lsl #3]
	cbz	x13, .LBB20_87
// %bb.66:                              // %"claiming::number.exit.i.i.i"
                                        //   in Loop: Header=BB20_2 Depth=1
	umulh	x14, x13, x16
	cmp	xzr, x14
	b.ne	.LBB20_83
// %bb.67:                              // %"claiming::number.exit.i.i.arm.6_crit_edge.i"
                                        //   in Loop: Header=BB20_2 Depth=1
	mul	x14, x13, x16
	mov	w15, #10                        // =0xa
.LBB20_68:                              // %arm.6.i
                                        //   in Loop: Header=BB20_2 Depth=1
	sub	x16, x15, #1
	cmp	x16, x4
	b.hs	.LBB20_72
.LBB20_69:                              // %join.3.i.i.i
                                        //   in Loop: Header=BB20_2 Depth=1
	add	x16, x3, x15, lsl #3
	ldur	x16, [x16, #-8]
	cmp	x15, #10
	b.eq	.LBB20_73
.LBB20_70:                              // %join.3.i15.i
                                        //   in Loop: Header=BB20_2 Depth=1
	cmp	x9, #0
	cset	w13, eq
	cmp	x14, x16
	mov	x14, x8
	b.eq	.LBB20_76
	b	.LBB20_77
.LBB20_71:                              //   in Loop: Header=BB20_2 Depth=1
	mov	x14, xzr
	mov	x13, xzr
	sub	x16, x15, #1
	cmp	x16, x4
	b.lo	.LBB20_69
.LBB20_72:                              //   in Loop: Header=BB20_2 Depth=1
	mov	x16, xzr
	cmp	x15, #10
	b.ne	.LBB20_70
.LBB20_73:                              // %then.1.i16.i
                                        //   in Loop: Header=BB20_2 Depth=1
	subs	x17, x16, x14
	csel	x17, xzr, x17, lo
	cmp	x13, x17
	b.hs	.LBB20_75
// %bb.74:                              // %"claiming::is_right.exit.thread.i"
                                        //   in Loop: Header=BB20_2 Depth=1
	cmp	x9, #0
	mov	x14, x8
	cset	w13, eq
	b	.LBB20_77
.LBB20_75:                              // %"claiming::is_right.exit.i"
                                        //   in Loop: Header=BB20_2 Depth=1
	subs	x14, x14, x16
	csel	x14, xzr, x14, lo
	subs	x13, x14, x13
	csel	x14, xzr, x13, lo
	cmp	x9, #0
	cset	w13, eq
	cmp	x14, x5
	mov	x14, x8
	b.hi	.LBB20_77
.LBB20_76:                              //   in Loop: Header=BB20_2 Depth=1
	mov	x14, xzr
.LBB20_77:                              //   in Loop: Header=BB20_2 Depth=1
	cmp	w13, #0
	and	x13, x15, #0xfe
	csel	x9, x14, x9, ne
	cmp	x13, #8
	cset	w13, eq
	cmp	x12, x2
	b.hs	.LBB20_79
// %bb.78:                              // %then.1.i.i22.i
                                        //   in Loop: Header=BB20_2 Depth=1
	ldrb	w12, [x1, x12]
	add	x11, x11, x12
.LBB20_79:                              // %"claiming::size_at.exit.i"
                                        //   in Loop: Header=BB20_2 Depth=1
	cmp	x11, x2
	orr	w10, w10, w13
	b.lo	.LBB20_2
// %bb.80:                              // %arm.5
	tbz	w10, #0, .LBB20_82
// %bb.81:                              // %join.3.i
	cbz	w6, .LBB20_86
.LBB20_82:                              // %join.6.i
	cmp	x9, #0
	mov	w10, #1                         // =0x1
	cinc	x10, x10, ne
	stp	x10, x9, [x0]
	str	xzr, [x0, #16]
	ldp	x20, x19, [sp, #96]             // 16-byte Folded Reload
	ldr	x21, [sp, #80]                  // 8-byte Reload
	add	sp, sp, #112
	ret
.LBB20_83:
	mov	w9, #37                         // =0x25
	stp	xzr, x9, [x0]
	str	x8, [x0, #16]
	ldp	x20, x19, [sp, #96]             // 16-byte Folded Reload
	ldr	x21, [sp, #80]                  // 8-byte Reload
	add	sp, sp, #112
	ret
.LBB20_84:                              // %then.1
	adrp	x8, .LCPI20_5
	str	xzr, [x0, #16]
	ldr	q0, [x8, :lo12:.LCPI20_5]
	str	q0, [x0]
	ldp	x20, x19, [sp, #96]             // 16-byte Folded Reload
	ldr	x21, [sp, #80]                  // 8-byte Reload
	add	sp, sp, #112
	ret
.LBB20_85:
	mov	w9, #35                         // =0x23
	stp	xzr, x9, [x0]
	str	x8, [x0, #16]
	ldp	x20, x19, [sp, #96]             // 16-byte Folded Reload
	ldr	x21, [sp, #80]                  // 8-byte Reload
	add	sp, sp, #112
	ret
.LBB20_86:
	mov	w9, #34                         // =0x22
	stp	xzr, x9, [x0]
	str	xzr, [x0, #16]
	ldp	x20, x19, [sp, #96]             // 16-byte Folded Reload
	ldr	x21, [sp, #80]                  // 8-byte Reload
	add	sp, sp, #112
	ret
.LBB20_87:                              // %trap.1.i.i.i.i.i.i
	brk	#0x1
.Lfunc_end20:
	.size	"claiming::judged", .Lfunc_end20-"claiming::judged"
                                        // -- End function
	.section	.rodata.cst16,"aM",@progbits,16
	.p2align	4, 0x0                          // -- Begin function library::values
.LCPI21_0:
	.xword	1                               // 0x1
	.xword	35                              // 0x23
	.section	".text.library::values","ax",@progbits
	.p2align	2
	.type	"library::values",@function
"library::values":                      // @"library::values"
// %bb.0:                               // %start
	stp	x29, x30, [sp, #-96]!           // 16-byte Folded Spill
	stp	x28, x27, [sp, #16]             // 16-byte Folded Spill
	mov	x29, sp
	stp	x26, x25, [sp, #32]             // 16-byte Folded Spill
	stp	x24, x23, [sp, #48]             // 16-byte Folded Spill
	stp	x22, x21, [sp, #64]             // 16-byte Folded Spill
	stp	x20, x19, [sp, #80]             // 16-byte Folded Spill
	sub	sp, sp, #3072
	str	xzr, [sp]
	sub	sp, sp, #3072
	str	xzr, [sp]
	sub	sp, sp, #1856
	movi	v0.2d, #0000000000000000
	mov	x20, x4
	mov	x23, x3
	mov	x19, x0
	add	x27, sp, #48
	add	x0, sp, #48
	add	x3, sp, #47
	mov	w4, #1                          // =0x1
	str	xzr, [sp]
	mov	x26, x5
	mov	x22, x2
	mov	x24, x1
	str	xzr, [x27, #240]
	stp	q0, q0, [x27, #144]
	stp	q0, q0, [x27, #176]
	stp	q0, q0, [x27, #208]
	str	q0, [x27, #128]
	stp	q0, q0, [sp, #48]
	stp	q0, q0, [sp, #80]
	stp	q0, q0, [sp, #112]
	stp	q0, q0, [sp, #144]
	bl	"catalogue::read_library"
	ldrb	w8, [sp, #48]
	cbz	w8, .LBB21_2
// %bb.1:                               // %arm.2
	ldur	q0, [sp, #56]
	mov	w8, #1                          // =0x1
	str	x8, [x19]
	stur	q0, [x19, #8]
	b	.LBB21_19
.LBB21_2:                               // %arm.1
	sub	x8, x23, #7
	cmn	x8, #6
	b.hs	.LBB21_4
// %bb.3:                               // %then.5
	adrp	x8, .LCPI21_0
	str	xzr, [x19, #16]
	ldr	q0, [x8, :lo12:.LCPI21_0]
	str	q0, [x19]
	b	.LBB21_19
.LBB21_4:                               // %join.7
	ldr	x21, [x27, #240]
	ldp	x28, x8, [x27, #160]
	ldr	x25, [sp, #72]
	add	x0, sp, #304
	mov	w1, wzr
	cmp	x21, x26
	mov	w2, #3584                       // =0xe00
	str	x8, [sp, #24]                   // 8-byte Spill
	csel	x8, x21, x26, lo
	str	x8, [sp, #32]                   // 8-byte Spill
	bl	memset
	cmp	x22, x28
	str	x20, [sp, #16]                  // 8-byte Spill
	b.hs	.LBB21_6
// %bb.5:
	mov	x26, xzr
	mov	x28, x22
	b	.LBB21_11
.LBB21_6:                               // %join.3.i.i
	cmp	x28, x22
	add	x8, x28, #4
	b.hs	.LBB21_9
// %bb.7:                               // %"records::byte_at.exit.i.i.i"
	add	x10, x28, #1
	ldrb	w9, [x24, x28]
	cmp	x10, x22
	b.hs	.LBB21_10
// %bb.8:                               // %then.1.i6.i.i.i
	ldrb	w10, [x24, x10]
	orr	x9, x9, x10, lsl #8
	b	.LBB21_10
.LBB21_9:
	mov	x9, xzr
.LBB21_10:                              // %"records::le16_at.exit.i.i"
	subs	x10, x22, x8
	csel	x28, x22, x8, lo
	cmp	x10, x9
	csel	x9, x10, x9, lo
	cmp	x22, x8
	csel	x26, xzr, x9, lo
.LBB21_11:                              // %"records::payload_at.exit.i"
	add	x0, sp, #1, lsl #12             // =4096
	add	x20, sp, #48
	add	x5, x24, x28
	add	x0, x0, #3376
	add	x3, x20, #32
	add	x7, x20, #176
	mov	x1, x24
	mov	x2, x22
	mov	x4, x25
	mov	x6, x26
	bl	"stock::core_at"
	add	x0, sp, #304
	add	x3, x20, #32
	add	x5, x24, x28
	add	x7, x20, #176
	mov	x1, x24
	mov	x2, x22
	mov	x4, x25
	mov	x6, x26
	bl	"stock::all_arms"
	add	x0, sp, #3888
	add	x1, sp, #304
	mov	w2, #3584                       // =0xe00
	add	x24, sp, #3888
	bl	memcpy
	movi	v0.2d, #0000000000000000
	ldr	x20, [sp, #16]                  // 8-byte Reload
	str	q0, [x27, #7872]
	str	q0, [x27, #7856]
	str	q0, [x27, #7840]
	str	q0, [x27, #7824]
	str	q0, [x27, #7808]
	str	q0, [x27, #7792]
	str	q0, [x27, #7776]
	str	q0, [x27, #7760]
	cbz	x21, .LBB21_18
// %bb.12:                              // %join.5.lr.ph.i.i
	sub	x8, x29, #64
	mov	x22, xzr
	add	x23, x8, x23, lsl #3
	add	x8, x24, #56
	str	x8, [sp, #8]                    // 8-byte Spill
	b	.LBB21_14
.LBB21_13:                              // %"library::last::turn_values.exit.i.i"
                                        //   in Loop: Header=BB21_14 Depth=1
	add	x22, x8, x22
	ldr	x8, [sp, #32]                   // 8-byte Reload
	cmp	x22, x8
	b.hs	.LBB21_18
.LBB21_14:                              // %join.5.i.i
                                        // =>This Loop Header: Depth=1
                                        //     Child Loop BB21_16 Depth 2
	add	x1, sp, #1, lsl #12             // =4096
	add	x8, sp, #48
	ldr	x4, [sp, #24]                   // 8-byte Reload
	sub	x0, x29, #192
	add	x1, x1, #3376
	add	x2, sp, #3888
	add	x3, x8, #176
	mov	x5, x22
	bl	"library::last::staying_at"
	ldr	x8, [x27, #7880]
	cbz	x8, .LBB21_13
// %bb.15:                              // %join.5.lr.ph.i.i.i
                                        //   in Loop: Header=BB21_14 Depth=1
	ldr	x14, [x27, #7792]
	ldr	x13, [x27, #7872]
	mov	w2, #112                        // =0x70
	ldr	x0, [x27, #7856]
	ldr	x17, [x27, #7824]
	ldr	x3, [x27, #7848]
	and	x1, x14, #0xfffffffffffffff
	ldr	x14, [x27, #7816]
	ldr	x18, [x27, #7864]
	ldr	x15, [x27, #7832]
	and	x0, x0, #0x1fffffff
	ldr	x11, [x27, #7784]
	and	x4, x14, #0x1fffffff
	ldr	x14, [sp, #8]                   // 8-byte Reload
	madd	x13, x13, x2, x14
	ldr	x10, [x27, #7776]
	ldr	x9, [x27, #7760]
	and	x14, x17, #0x1fffffff
	ldr	x12, [x27, #7800]
	ldr	x16, [x27, #7840]
	and	x17, x3, #0x1fffffff
	ldr	x3, [sp, #32]                   // 8-byte Reload
	and	x15, x15, #0x1fffffff
	and	x2, x18, #0x1fffffff
	add	x0, x1, x0
	add	x1, x20, x22, lsl #3
	and	x9, x9, #0xfffffffffffffff
	and	x10, x10, #0xfffffffffffffff
	and	x11, x11, #0xfffffffffffffff
	and	x12, x12, #0xfffffffffffffff
	and	x16, x16, #0x1fffffff
	add	x18, x4, x15
	add	x2, x2, #1
	sub	x3, x3, x22
	mov	x4, x8
.LBB21_16:                              // %join.5.i.i.i
                                        //   Parent Loop BB21_14 Depth=1
                                        // =>  This Inner Loop Header: Depth=2
	cbz	x3, .LBB21_18
// %bb.17:                              // %join.8.i.i.i
                                        //   in Loop: Header=BB21_16 Depth=2
	ldp	x5, x21, [x13, #-40]
	sub	x4, x4, #1
	ldp	x7, x6, [x13]
	sub	x3, x3, #1
	ldp	x25, x26, [x13, #16]
	and	x5, x5, #0xfffffffffffffff
	and	x21, x21, #0xfffffffffffffff
	and	x6, x6, #0x1fffffff
	add	x5, x5, x10
	and	x7, x7, #0x1fffffff
	and	x25, x25, #0x1fffffff
	umaddl	x5, w6, w15, x5
	and	x26, x26, #0x1fffffff
	umaddl	x5, w25, w14, x5
	add	x28, x25, x7
	add	x21, x21, x11
	umaddl	x5, w26, w18, x5
	add	x6, x26, x6
	umaddl	x7, w7, w15, x21
	ldur	x21, [x13, #-56]
	umaddl	x5, w28, w16, x5
	ldp	x28, x30, [x13, #-24]
	umaddl	x7, w25, w18, x7
	ldp	x25, x24, [x13, #32]
	umaddl	x7, w26, w14, x7
	ldr	x26, [x13, #48]
	and	x21, x21, #0xfffffffffffffff
	umaddl	x6, w6, w16, x7
	and	x7, x28, #0xfffffffffffffff
	and	x28, x30, #0xfffffffffffffff
	and	x25, x25, #0x1fffffff
	add	x7, x0, x7
	add	x21, x21, x9
	umaddl	x7, w25, w17, x7
	str	x21, [x27, #7888]
	and	x21, x26, #0x1fffffff
	add	x25, x6, x5
	cmp	x12, x28
	add	x21, x2, x21
	str	x25, [x27, #7896]
	csel	x25, x12, x28, hi
	and	x24, x24, #0x1fffffff
	cmp	x25, x21
	str	x5, [x27, #7904]
	add	x5, x7, x24
	str	x6, [x27, #7912]
	csel	x6, x25, x21, hi
	add	x13, x13, #112
	str	x5, [x27, #7920]
	str	x6, [x27, #7928]
	ldur	x5, [x23, #-8]
	str	x5, [x1], #8
	cbnz	x4, .LBB21_16
	b	.LBB21_13
.LBB21_18:                              // %"library::values_read.exit"
	ldr	x8, [sp, #32]                   // 8-byte Reload
	str	xzr, [x19, #16]
	stp	xzr, x8, [x19]
.LBB21_19:                              // %common.ret
	add	sp, sp, #1, lsl #12             // =4096
	add	sp, sp, #3904
	ldp	x20, x19, [sp, #80]             // 16-byte Folded Reload
	ldp	x22, x21, [sp, #64]             // 16-byte Folded Reload
	ldp	x24, x23, [sp, #48]             // 16-byte Folded Reload
	ldp	x26, x25, [sp, #32]             // 16-byte Folded Reload
	ldp	x28, x27, [sp, #16]             // 16-byte Folded Reload
	ldp	x29, x30, [sp], #96             // 16-byte Folded Reload
	ret
.Lfunc_end21:
	.size	"library::values", .Lfunc_end21-"library::values"
                                        // -- End function
	.section	.rodata.cst8,"aM",@progbits,8
	.p2align	3, 0x0                          // -- Begin function catalogue::read_library
.LCPI22_0:
	.hword	5                               // 0x5
	.hword	4                               // 0x4
	.hword	2                               // 0x2
	.hword	0                               // 0x0
	.section	.rodata.cst16,"aM",@progbits,16
	.p2align	4, 0x0
.LCPI22_1:
	.byte	1                               // 0x1
	.byte	2                               // 0x2
	.byte	4                               // 0x4
	.byte	8                               // 0x8
	.byte	16                              // 0x10
	.byte	32                              // 0x20
	.byte	64                              // 0x40
	.byte	128                             // 0x80
	.byte	1                               // 0x1
	.byte	2                               // 0x2
	.byte	4                               // 0x4
	.byte	8                               // 0x8
	.byte	16                              // 0x10
	.byte	32                              // 0x20
	.byte	64                              // 0x40
	.byte	128                             // 0x80
	.section	".text.catalogue::read_library","ax",@progbits
	.p2align	2
	.type	"catalogue::read_library",@function
"catalogue::read_library":              // @"catalogue::read_library"
// %bb.0:                               // %start
	stp	d9, d8, [sp, #-112]!            // 16-byte Folded Spill
	stp	x29, x30, [sp, #16]             // 16-byte Folded Spill
	add	x29, sp, #16
	stp	x28, x27, [sp, #32]             // 16-byte Folded Spill
	stp	x26, x25, [sp, #48]             // 16-byte Folded Spill
	stp	x24, x23, [sp, #64]             // 16-byte Folded Spill
	stp	x22, x21, [sp, #80]             // 16-byte Folded Spill
	stp	x20, x19, [sp, #96]             // 16-byte Folded Spill
	sub	sp, sp, #848
	movi	v0.2d, #0000000000000000
	adrp	x8, .LCPI22_0
	mov	x5, x4
	mov	x4, x3
	mov	x19, x0
	add	x0, sp, #240
	add	x3, sp, #224
	mov	x21, x2
	mov	x22, x1
	str	xzr, [sp, #416]
	add	x26, sp, #240
	stp	q0, q0, [sp, #256]
	stp	q0, q0, [sp, #288]
	stp	q0, q0, [sp, #320]
	stp	q0, q0, [sp, #352]
	stp	q0, q0, [sp, #384]
	str	q0, [sp, #240]
	ldr	d0, [x8, :lo12:.LCPI22_0]
	mov	w8, #1                          // =0x1
	strh	wzr, [sp, #232]
	str	d0, [sp, #224]
	strb	w8, [sp, #232]
	bl	"compose::blocks::open_deck"
	ldrb	w8, [sp, #240]
	cbz	w8, .LBB22_2
// %bb.1:                               // %arm.2
	ldur	q0, [sp, #248]
	strb	w8, [x19]
	strb	wzr, [x19, #7]
	stur	q0, [x19, #8]
	movi	v0.2d, #0000000000000000
	sturh	wzr, [x19, #5]
	stur	wzr, [x19, #1]
	stur	q0, [x19, #24]
	stur	q0, [x19, #40]
	stur	q0, [x19, #56]
	stur	q0, [x19, #72]
	stur	q0, [x19, #88]
	stur	q0, [x19, #104]
	stur	q0, [x19, #120]
	stur	q0, [x19, #136]
	stur	q0, [x19, #152]
	stur	q0, [x19, #168]
	stur	q0, [x19, #184]
	stur	q0, [x19, #200]
	stur	q0, [x19, #216]
	stur	q0, [x19, #232]
	b	.LBB22_15
.LBB22_2:                               // %join.4
	ldr	x24, [sp, #400]
	cmp	x21, x24
	b.lo	.LBB22_11
// %bb.3:                               // %join.3.i.i
	cmp	x24, x21
	add	x8, x24, #4
	b.hs	.LBB22_7
// %bb.4:                               // %"records::byte_at.exit.i.i.i"
	add	x10, x24, #1
	ldrb	w9, [x22, x24]
	cmp	x10, x21
	b.hs	.LBB22_6
// %bb.5:                               // %then.1.i6.i.i.i
	ldrb	w10, [x22, x10]
	orr	x9, x9, x10, lsl #8
.LBB22_6:                               // %"records::le16_at.exit.i.i"
	subs	x10, x21, x8
	cmp	x10, x9
	csel	x28, x10, x9, lo
	cmp	x21, x8
	b.hs	.LBB22_8
	b	.LBB22_11
.LBB22_7:
	subs	x10, x21, x8
	cmp	x10, xzr
	csel	x28, x10, xzr, lo
	cmp	x21, x8
	b.lo	.LBB22_11
.LBB22_8:                               // %"records::payload_at.exit.i"
	cmp	x28, #3
	b.lo	.LBB22_11
// %bb.9:                               // %"records::byte_at.exit.i.i4.i"
	add	x9, x22, x8
	ldr	x20, [sp, #264]
	ldr	x27, [sp, #416]
	ldrb	w25, [x9, #2]
	cmp	x28, #3
	b.ne	.LBB22_16
// %bb.10:                              // %"records::le16_at.exit.thread54.i.i"
	sub	w8, w25, #5
	cmn	w8, #4
	b.hs	.LBB22_17
.LBB22_11:                              // %"records::payload_at.exit.thread.i"
	mov	w8, #31                         // =0x1f
.LBB22_12:                              // %arm.2.i
	movi	v0.2d, #0000000000000000
	mov	x20, xzr
	mov	x25, xzr
	mov	x9, xzr
	mov	w10, #1                         // =0x1
	mov	x27, x24
	mov	x24, xzr
.LBB22_13:                              // %"catalogue::read_record.exit"
	stp	q0, q0, [sp, #432]
	stp	q0, q0, [sp, #464]
	stp	q0, q0, [sp, #496]
	stp	q0, q0, [sp, #528]
	stp	q0, q0, [sp, #560]
	stp	q0, q0, [sp, #592]
.LBB22_14:                              // %"catalogue::read_record.exit"
	ldp	q0, q1, [sp, #560]
	strb	w10, [x19]
	strb	wzr, [x19, #7]
	sturh	wzr, [x19, #5]
	stp	q0, q1, [x19, #96]
	ldp	q2, q0, [sp, #592]
	stur	wzr, [x19, #1]
	stp	x8, x27, [x19, #8]
	stp	q2, q0, [x19, #128]
	ldp	q1, q0, [sp, #496]
	str	x20, [x19, #24]
	stp	x24, x25, [x19, #160]
	stp	q1, q0, [x19, #32]
	ldp	q2, q0, [sp, #528]
	str	x9, [x19, #240]
	stp	q2, q0, [x19, #64]
	ldp	q0, q1, [sp, #432]
	stp	q0, q1, [x19, #176]
	ldp	q2, q0, [sp, #464]
	stp	q2, q0, [x19, #208]
.LBB22_15:                              // %arm.2
	add	sp, sp, #848
	ldp	x20, x19, [sp, #96]             // 16-byte Folded Reload
	ldp	x22, x21, [sp, #80]             // 16-byte Folded Reload
	ldp	x24, x23, [sp, #64]             // 16-byte Folded Reload
	ldp	x26, x25, [sp, #48]             // 16-byte Folded Reload
	ldp	x28, x27, [sp, #32]             // 16-byte Folded Reload
	ldp	x29, x30, [sp, #16]             // 16-byte Folded Reload
	ldp	d9, d8, [sp], #112              // 16-byte Folded Reload
	ret
.LBB22_16:                              // %"records::le16_at.exit.i7.i"
	ldrb	w8, [x9, #3]
	orr	x25, x25, x8, lsl #8
	sub	x8, x25, #5
	cmn	x8, #4
	b.lo	.LBB22_11
.LBB22_17:                              // %"records::byte_at.exit.i9.i.i"
	ldrh	w23, [x9]
	sub	x0, x29, #232
	add	x1, x26, #32
	mov	x2, x20
	str	x9, [sp, #208]                  // 8-byte Spill
	mov	x3, x23
	bl	"assembly::find_block"
	mov	w8, #16                         // =0x10
	cbz	x23, .LBB22_12
// %bb.18:                              // %"records::byte_at.exit.i9.i.i"
	ldurh	w9, [x29, #-232]
	cmp	x23, x9
	b.ne	.LBB22_12
// %bb.19:                              // %join.7.lr.ph.i.i.i
	ldur	x8, [x29, #-232]
	sub	x13, x29, #96
	mov	w15, #65281                     // =0xff01
	movk	w15, #1, lsl #16
	movi	v0.2d, #0000000000000000
	add	x16, x22, #16
	lsr	w10, w8, #16
	lsr	x9, x8, #47
	ubfx	x8, x8, #32, #16
	mov	x14, xzr
	str	x10, [sp, #136]                 // 8-byte Spill
	add	x10, x10, #6
	and	x9, x9, #0x1fffe
	subs	x11, x21, x10
	str	x8, [sp, #160]                  // 8-byte Spill
	csel	x12, x21, x10, lo
	cmp	x11, x9
	stp	q0, q0, [x29, #-160]
	csel	x9, x11, x9, lo
	cmp	x21, x10
	add	x10, x22, #1
	csel	x11, xzr, x9, lo
	sub	x9, x13, #16
	add	x13, x22, x12
	sub	x17, x11, #2
	stp	x9, x28, [sp, #184]             // 16-byte Folded Spill
	sub	x9, x11, #2
	str	x9, [sp, #104]                  // 8-byte Spill
	lsr	x9, x17, #1
	and	x8, x11, x15
	stp	x8, x11, [sp, #112]             // 16-byte Folded Spill
	and	x8, x11, #0x18
	ldr	x17, [sp, #208]                 // 8-byte Reload
	str	x8, [sp, #16]                   // 8-byte Spill
	add	x8, x9, #1
	and	x9, x11, #0xe0
	str	x9, [sp, #32]                   // 8-byte Spill
	and	x9, x8, #0xfffffffffffffff0
	and	x11, x11, #0xf8
	str	x9, [sp, #40]                   // 8-byte Spill
	lsl	x9, x9, #1
	str	x8, [sp, #88]                   // 8-byte Spill
	and	x8, x8, #0xfffffffffffffff8
	str	x9, [sp, #24]                   // 8-byte Spill
	lsl	x9, x8, #1
	stp	q0, q0, [x29, #-128]
	stp	x9, x8, [sp, #72]               // 16-byte Folded Spill
	neg	x8, x8
	mov	w9, #4                          // =0x4
	stp	x11, x8, [sp, #56]              // 16-byte Folded Spill
	add	x8, x10, x12
	add	x12, x16, x12
	str	x8, [sp, #96]                   // 8-byte Spill
	neg	x8, x11
	str	x8, [sp, #48]                   // 8-byte Spill
	mov	x8, #-1                         // =0xffffffffffffffff
	str	x8, [sp, #176]                  // 8-byte Spill
.LBB22_20:                              // %join.7.i.i.i
                                        // =>This Loop Header: Depth=1
                                        //     Child Loop BB22_28 Depth 2
                                        //     Child Loop BB22_95 Depth 2
                                        //     Child Loop BB22_90 Depth 2
                                        //     Child Loop BB22_99 Depth 2
                                        //     Child Loop BB22_101 Depth 2
                                        //     Child Loop BB22_105 Depth 2
                                        //     Child Loop BB22_108 Depth 2
                                        //     Child Loop BB22_44 Depth 2
                                        //       Child Loop BB22_68 Depth 3
                                        //       Child Loop BB22_63 Depth 3
                                        //       Child Loop BB22_73 Depth 3
                                        //       Child Loop BB22_75 Depth 3
                                        //       Child Loop BB22_79 Depth 3
                                        //       Child Loop BB22_82 Depth 3
	add	x11, x9, #2
	str	x14, [sp, #144]                 // 8-byte Spill
	cmp	x28, x11
	b.lo	.LBB22_119
// %bb.21:                              // %join.3.i.i.i.i
                                        //   in Loop: Header=BB22_20 Depth=1
	cmp	x9, x28
	b.hs	.LBB22_23
// %bb.22:                              // %then.1.i.i.i.i.i.i
                                        //   in Loop: Header=BB22_20 Depth=1
	ldrb	w8, [x17, x9]
	b	.LBB22_24
.LBB22_23:                              //   in Loop: Header=BB22_20 Depth=1
	mov	w8, wzr
.LBB22_24:                              // %"records::byte_at.exit.i.i.i.i.i"
                                        //   in Loop: Header=BB22_20 Depth=1
	str	x9, [sp, #152]                  // 8-byte Spill
	add	x9, x9, #1
	cmp	x9, x28
	b.hs	.LBB22_112
// %bb.25:                              // %"catalogue::sites::site_at.exit.i.i.i.i"
                                        //   in Loop: Header=BB22_20 Depth=1
	ldrb	w9, [x17, x9]
	str	x9, [sp, #168]                  // 8-byte Spill
	sub	w9, w9, #9
	cmn	w9, #8
	b.lo	.LBB22_112
// %bb.26:                              // %join.6.i.i.i.i
                                        //   in Loop: Header=BB22_20 Depth=1
	mov	w9, w8
	ldr	x10, [sp, #160]                 // 8-byte Reload
	sub	x9, x9, #1
	cmp	x9, x10
	b.hs	.LBB22_111
// %bb.27:                              // %join.9.i.i.i.i
                                        //   in Loop: Header=BB22_20 Depth=1
	ldp	q0, q1, [x29, #-160]
	str	x11, [sp, #128]                 // 8-byte Spill
	ldp	x9, x10, [sp, #176]             // 16-byte Folded Reload
	stp	q0, q1, [x29, #-96]
	ldp	q0, q2, [x29, #-128]
	stp	q0, q2, [x29, #-64]
.LBB22_28:                              // %loop.2.i.i.i.i.i
                                        //   Parent Loop BB22_20 Depth=1
                                        // =>  This Inner Loop Header: Depth=2
	adds	x9, x9, #1
	b.hs	.LBB22_30
// %bb.29:                              // %join.5.i.i.i.i.i
                                        //   in Loop: Header=BB22_28 Depth=2
	ldrb	w11, [x10], #-16
	cmp	w11, w8
	b.ne	.LBB22_28
	b	.LBB22_110
.LBB22_30:                              // %join.12.i.i.i.i
                                        //   in Loop: Header=BB22_20 Depth=1
	ldr	x9, [sp, #136]                  // 8-byte Reload
	stp	x12, x13, [sp]                  // 16-byte Folded Spill
	cmp	x21, x9
	b.lo	.LBB22_38
// %bb.31:                              // %"assembly::bonds_part.exit.i.i.i.i.i.i"
                                        //   in Loop: Header=BB22_20 Depth=1
	ldp	x9, x11, [sp, #112]             // 16-byte Folded Reload
	cbz	x9, .LBB22_35
// %bb.32:                              // %join.3.i2.i.i.i.i.i.i
                                        //   in Loop: Header=BB22_20 Depth=1
	cmp	x11, #2
	b.lo	.LBB22_38
// %bb.33:                              // %iter.check170
                                        //   in Loop: Header=BB22_20 Depth=1
	ldr	x9, [sp, #104]                  // 8-byte Reload
	cmp	x9, #14
	b.hs	.LBB22_87
// %bb.34:                              //   in Loop: Header=BB22_20 Depth=1
	mov	x9, xzr
	mov	x11, xzr
	b	.LBB22_98
.LBB22_35:                              // %then.4.i.i.i.i.i.i.i
                                        //   in Loop: Header=BB22_20 Depth=1
	cbz	x11, .LBB22_38
// %bb.36:                              // %iter.check131
                                        //   in Loop: Header=BB22_20 Depth=1
	cmp	x11, #8
	b.hs	.LBB22_92
// %bb.37:                              //   in Loop: Header=BB22_20 Depth=1
	ldr	x12, [sp, #8]                   // 8-byte Reload
	mov	w9, wzr
	mov	x11, xzr
	b	.LBB22_107
.LBB22_38:                              //   in Loop: Header=BB22_20 Depth=1
	mov	x9, xzr
.LBB22_39:                              // %"catalogue::candidates::is_full.exit.i.i.i.i.i"
                                        //   in Loop: Header=BB22_20 Depth=1
	ldr	x8, [sp, #168]                  // 8-byte Reload
	cbz	w8, .LBB22_83
// %bb.40:                              // %join.5.lr.ph.i.i.i.i.i
                                        //   in Loop: Header=BB22_20 Depth=1
	ldr	x8, [sp, #152]                  // 8-byte Reload
	ldr	x12, [sp, #168]                 // 8-byte Reload
	cmp	x9, #5
	add	x8, x8, #2
	b.ls	.LBB22_44
	b	.LBB22_114
.LBB22_41:                              // %"catalogue::candidates::ends_in.exit.loopexit.i.i.i.i.i.i.i.i.i"
                                        //   in Loop: Header=BB22_44 Depth=2
	and	x14, x12, #0xff
.LBB22_42:                              // %"catalogue::candidates::is_own_full.exit.i.i.i.i.i.i"
                                        //   in Loop: Header=BB22_44 Depth=2
	ldr	x12, [sp, #216]                 // 8-byte Reload
	cmp	x14, #6
	b.hs	.LBB22_113
.LBB22_43:                              // %join.8.i.i.i.i.i
                                        //   in Loop: Header=BB22_44 Depth=2
	ldr	x8, [sp, #200]                  // 8-byte Reload
	subs	x12, x12, #1
	b.eq	.LBB22_83
.LBB22_44:                              // %join.5.i13.i.i.i.i
                                        //   Parent Loop BB22_20 Depth=1
                                        // =>  This Loop Header: Depth=2
                                        //       Child Loop BB22_68 Depth 3
                                        //       Child Loop BB22_63 Depth 3
                                        //       Child Loop BB22_73 Depth 3
                                        //       Child Loop BB22_75 Depth 3
                                        //       Child Loop BB22_79 Depth 3
                                        //       Child Loop BB22_82 Depth 3
	add	x9, x8, #3
	cmp	x28, x9
	b.lo	.LBB22_119
// %bb.45:                              // %join.3.i.i.i.i.i.i
                                        //   in Loop: Header=BB22_44 Depth=2
	add	x28, x17, x8
	add	x9, x8, #3
	sub	x0, x29, #96
	ldrh	w23, [x28]
	add	x1, x26, #32
	mov	x2, x20
	str	x9, [sp, #200]                  // 8-byte Spill
	mov	x3, x23
	str	x12, [sp, #216]                 // 8-byte Spill
	bl	"assembly::find_block"
	mov	w8, #16                         // =0x10
	cbz	x23, .LBB22_12
// %bb.46:                              // %join.3.i.i.i.i.i.i
                                        //   in Loop: Header=BB22_44 Depth=2
	ldurh	w9, [x29, #-96]
	cmp	x23, x9
	b.ne	.LBB22_12
// %bb.47:                              // %join.6.i.i.i.i.i.i
                                        //   in Loop: Header=BB22_44 Depth=2
	ldrb	w8, [x28, #2]
	ldurh	w9, [x29, #-92]
	sub	x10, x8, #1
	cmp	x10, x9
	b.hs	.LBB22_111
// %bb.48:                              // %join.12.i.i.i.i.i.i
                                        //   in Loop: Header=BB22_44 Depth=2
	ldur	x9, [x29, #-96]
	lsr	x11, x9, #48
	lsr	w10, w9, #16
	cmp	x11, #16
	b.hi	.LBB22_51
// %bb.49:                              // %join.12.i.i.i.i.i.i
                                        //   in Loop: Header=BB22_44 Depth=2
	add	x11, x10, #38
	cmp	x21, x11
	b.lo	.LBB22_51
// %bb.50:                              // %"catalogue::candidates::is_sparse.exit.i.i.i.i.i.i.i"
                                        //   in Loop: Header=BB22_44 Depth=2
	add	x11, x22, x10
	dup	v0.16b, w8
	ldur	q1, [x11, #6]
	ldur	q2, [x11, #22]
	adrp	x11, .LCPI22_1
	cmeq	v2.16b, v2.16b, v0.16b
	cmeq	v0.16b, v1.16b, v0.16b
	ldr	q1, [x11, :lo12:.LCPI22_1]
	and	v2.16b, v2.16b, v1.16b
	and	v0.16b, v0.16b, v1.16b
	ext	v1.16b, v2.16b, v2.16b, #8
	ext	v3.16b, v0.16b, v0.16b, #8
	zip1	v1.16b, v2.16b, v1.16b
	zip1	v0.16b, v0.16b, v3.16b
	addv	h1, v1.8h
	addv	h0, v0.8h
	fmov	w11, s1
	fmov	w12, s0
	bfi	w12, w11, #16, #16
	fmov	s0, w12
	cnt	v0.8b, v0.8b
	addv	b0, v0.8b
	fmov	w11, s0
	cmp	w11, #6
	b	.LBB22_52
.LBB22_51:                              // %join.3.i.i.i.i.i.i.i
                                        //   in Loop: Header=BB22_44 Depth=2
	cmp	x21, x10
.LBB22_52:                              // %join.3.i.i.i.i.i.i.i
                                        //   in Loop: Header=BB22_44 Depth=2
	ldp	x17, x12, [sp, #208]            // 16-byte Folded Reload
	ldr	x28, [sp, #192]                 // 8-byte Reload
	b.lo	.LBB22_43
// %bb.53:                              // %"assembly::bonds_part.exit.i.i.i.i.i.i.i.i"
                                        //   in Loop: Header=BB22_44 Depth=2
	lsr	x9, x9, #47
	add	x10, x10, #6
	subs	x12, x21, x10
	and	x11, x9, #0x1fffe
	csel	x9, x21, x10, lo
	cmp	x12, x11
	csel	x11, x12, x11, lo
	cmp	x21, x10
	csel	x10, xzr, x11, lo
	mov	w11, #65281                     // =0xff01
	movk	w11, #1, lsl #16
	tst	x10, x11
	b.eq	.LBB22_57
// %bb.54:                              // %join.3.i2.i.i.i.i.i.i.i.i
                                        //   in Loop: Header=BB22_44 Depth=2
	ldr	x12, [sp, #216]                 // 8-byte Reload
	subs	x11, x10, #2
	b.lo	.LBB22_43
// %bb.55:                              // %iter.check93
                                        //   in Loop: Header=BB22_44 Depth=2
	cmp	x11, #14
	b.hs	.LBB22_60
// %bb.56:                              //   in Loop: Header=BB22_44 Depth=2
	mov	x14, xzr
	mov	x13, xzr
	b	.LBB22_72
.LBB22_57:                              // %then.4.i.i.i.i.i.i.i.i.i
                                        //   in Loop: Header=BB22_44 Depth=2
	ldr	x12, [sp, #216]                 // 8-byte Reload
	cbz	x10, .LBB22_43
// %bb.58:                              // %iter.check
                                        //   in Loop: Header=BB22_44 Depth=2
	cmp	x10, #8
	b.hs	.LBB22_65
// %bb.59:                              //   in Loop: Header=BB22_44 Depth=2
	mov	w12, wzr
	mov	x11, xzr
	b	.LBB22_81
.LBB22_60:                              // %vector.main.loop.iter.check95
                                        //   in Loop: Header=BB22_44 Depth=2
	lsr	x12, x11, #1
	cmp	x11, #30
	add	x11, x12, #1
	b.hs	.LBB22_67
// %bb.61:                              //   in Loop: Header=BB22_44 Depth=2
	mov	x12, xzr
	mov	x14, xzr
.LBB22_62:                              // %vec.epilog.ph113
                                        //   in Loop: Header=BB22_44 Depth=2
	movi	v2.2d, #0000000000000000
	movi	v0.2d, #0000000000000000
	add	x15, x9, x12, lsl #1
	dup	v1.8b, w8
	movi	v3.2d, #0000000000000000
	movi	v4.2d, #0000000000000000
	add	x15, x22, x15
	mov	v2.d[0], x14
	and	x14, x11, #0xfffffffffffffff8
	lsl	x13, x14, #1
	sub	x12, x12, x14
.LBB22_63:                              // %vec.epilog.vector.body118
                                        //   Parent Loop BB22_20 Depth=1
                                        //     Parent Loop BB22_44 Depth=2
                                        // =>    This Inner Loop Header: Depth=3
	ld2	{ v5.8b, v6.8b }, [x15], #16
	mov	w16, #1                         // =0x1
	dup	v17.2d, x16
	adds	x12, x12, #8
	cmeq	v7.8b, v5.8b, v1.8b
	cmeq	v5.8b, v6.8b, v1.8b
	ushll	v6.8h, v7.8b, #0
	ushll	v5.8h, v5.8b, #0
	ushll2	v7.4s, v6.8h, #0
	ushll	v6.4s, v6.4h, #0
	ushll	v16.4s, v5.4h, #0
	ushll2	v5.4s, v5.8h, #0
	ushll2	v18.2d, v7.4s, #0
	ushll	v7.2d, v7.2s, #0
	ushll2	v19.2d, v6.4s, #0
	ushll	v6.2d, v6.2s, #0
	ushll	v20.2d, v16.2s, #0
	ushll2	v16.2d, v16.4s, #0
	ushll	v21.2d, v5.2s, #0
	ushll2	v5.2d, v5.4s, #0
	and	v18.16b, v18.16b, v17.16b
	and	v7.16b, v7.16b, v17.16b
	and	v19.16b, v19.16b, v17.16b
	and	v6.16b, v6.16b, v17.16b
	and	v20.16b, v20.16b, v17.16b
	and	v16.16b, v16.16b, v17.16b
	and	v21.16b, v21.16b, v17.16b
	and	v5.16b, v5.16b, v17.16b
	add	v4.2d, v4.2d, v18.2d
	add	v3.2d, v3.2d, v19.2d
	add	v0.2d, v0.2d, v7.2d
	add	v2.2d, v2.2d, v6.2d
	add	v4.2d, v4.2d, v5.2d
	add	v0.2d, v0.2d, v21.2d
	add	v3.2d, v3.2d, v16.2d
	add	v2.2d, v2.2d, v20.2d
	b.ne	.LBB22_63
// %bb.64:                              // %vec.epilog.middle.block125
                                        //   in Loop: Header=BB22_44 Depth=2
	add	v0.2d, v2.2d, v0.2d
	add	v1.2d, v3.2d, v4.2d
	cmp	x11, x14
	add	v0.2d, v0.2d, v1.2d
	addp	d0, v0.2d
	fmov	x14, d0
	b.eq	.LBB22_42
	b	.LBB22_72
.LBB22_65:                              // %vector.main.loop.iter.check
                                        //   in Loop: Header=BB22_44 Depth=2
	cmp	x10, #32
	b.hs	.LBB22_74
// %bb.66:                              //   in Loop: Header=BB22_44 Depth=2
	mov	x11, xzr
	mov	w12, wzr
	b	.LBB22_78
.LBB22_67:                              // %vector.ph96
                                        //   in Loop: Header=BB22_44 Depth=2
	movi	v0.2d, #0000000000000000
	movi	v5.2d, #0000000000000000
	add	x13, x22, x9
	movi	v1.2d, #0000000000000000
	movi	v2.2d, #0000000000000000
	and	x12, x11, #0xfffffffffffffff0
	movi	v7.2d, #0000000000000000
	movi	v3.2d, #0000000000000000
	and	x14, x11, #0xfffffffffffffff0
	movi	v16.2d, #0000000000000000
	movi	v6.2d, #0000000000000000
	dup	v4.16b, w8
.LBB22_68:                              // %vector.body101
                                        //   Parent Loop BB22_20 Depth=1
                                        //     Parent Loop BB22_44 Depth=2
                                        // =>    This Inner Loop Header: Depth=3
	ld2	{ v17.16b, v18.16b }, [x13], #32
	mov	w15, #1                         // =0x1
	dup	v22.2d, x15
	subs	x14, x14, #16
	cmeq	v19.16b, v17.16b, v4.16b
	cmeq	v17.16b, v18.16b, v4.16b
	ushll2	v18.8h, v19.16b, #0
	ushll	v19.8h, v19.8b, #0
	ushll	v20.8h, v17.8b, #0
	ushll2	v17.8h, v17.16b, #0
	ushll2	v21.4s, v18.8h, #0
	ushll	v18.4s, v18.4h, #0
	ushll2	v23.4s, v19.8h, #0
	ushll	v19.4s, v19.4h, #0
	ushll	v24.4s, v20.4h, #0
	ushll2	v20.4s, v20.8h, #0
	ushll	v25.4s, v17.4h, #0
	ushll2	v17.4s, v17.8h, #0
	ushll2	v26.2d, v21.4s, #0
	ushll	v21.2d, v21.2s, #0
	ushll2	v27.2d, v18.4s, #0
	ushll2	v28.2d, v23.4s, #0
	ushll	v18.2d, v18.2s, #0
	ushll	v23.2d, v23.2s, #0
	ushll2	v29.2d, v19.4s, #0
	ushll	v19.2d, v19.2s, #0
	ushll	v30.2d, v24.2s, #0
	ushll2	v24.2d, v24.4s, #0
	ushll	v31.2d, v20.2s, #0
	ushll	v8.2d, v25.2s, #0
	ushll2	v20.2d, v20.4s, #0
	ushll2	v25.2d, v25.4s, #0
	ushll	v9.2d, v17.2s, #0
	and	v26.16b, v26.16b, v22.16b
	and	v21.16b, v21.16b, v22.16b
	and	v27.16b, v27.16b, v22.16b
	and	v28.16b, v28.16b, v22.16b
	and	v18.16b, v18.16b, v22.16b
	and	v23.16b, v23.16b, v22.16b
	and	v29.16b, v29.16b, v22.16b
	and	v19.16b, v19.16b, v22.16b
	ushll2	v17.2d, v17.4s, #0
	and	v30.16b, v30.16b, v22.16b
	and	v24.16b, v24.16b, v22.16b
	and	v31.16b, v31.16b, v22.16b
	and	v8.16b, v8.16b, v22.16b
	and	v20.16b, v20.16b, v22.16b
	and	v25.16b, v25.16b, v22.16b
	and	v9.16b, v9.16b, v22.16b
	and	v17.16b, v17.16b, v22.16b
	add	v16.2d, v16.2d, v21.2d
	add	v6.2d, v6.2d, v26.2d
	add	v7.2d, v7.2d, v18.2d
	add	v2.2d, v2.2d, v28.2d
	add	v3.2d, v3.2d, v27.2d
	add	v5.2d, v5.2d, v19.2d
	add	v0.2d, v0.2d, v29.2d
	add	v1.2d, v1.2d, v23.2d
	add	v16.2d, v16.2d, v9.2d
	add	v6.2d, v6.2d, v17.2d
	add	v2.2d, v2.2d, v20.2d
	add	v7.2d, v7.2d, v8.2d
	add	v3.2d, v3.2d, v25.2d
	add	v0.2d, v0.2d, v24.2d
	add	v5.2d, v5.2d, v30.2d
	add	v1.2d, v1.2d, v31.2d
	b.ne	.LBB22_68
// %bb.69:                              // %middle.block106
                                        //   in Loop: Header=BB22_44 Depth=2
	add	v4.2d, v5.2d, v7.2d
	add	v1.2d, v1.2d, v16.2d
	cmp	x11, x12
	add	v0.2d, v0.2d, v3.2d
	add	v2.2d, v2.2d, v6.2d
	add	v1.2d, v4.2d, v1.2d
	add	v0.2d, v0.2d, v2.2d
	add	v0.2d, v1.2d, v0.2d
	addp	d0, v0.2d
	fmov	x14, d0
	b.eq	.LBB22_42
// %bb.70:                              // %vec.epilog.iter.check111
                                        //   in Loop: Header=BB22_44 Depth=2
	tbnz	w11, #3, .LBB22_62
// %bb.71:                              //   in Loop: Header=BB22_44 Depth=2
	lsl	x13, x12, #1
.LBB22_72:                              // %join.5.i6.i.i.i.i.i.i.i.i.i.preheader
                                        //   in Loop: Header=BB22_44 Depth=2
	add	x11, x13, x9
	sub	x9, x10, x13
	add	x10, x22, #1
	add	x10, x10, x11
.LBB22_73:                              // %join.5.i6.i.i.i.i.i.i.i.i.i
                                        //   Parent Loop BB22_20 Depth=1
                                        //     Parent Loop BB22_44 Depth=2
                                        // =>    This Inner Loop Header: Depth=3
	ldurb	w11, [x10, #-1]
	ldrb	w12, [x10], #2
	sub	x9, x9, #2
	cmp	w11, w8
	cinc	x11, x14, eq
	cmp	w12, w8
	cinc	x14, x11, eq
	cmp	x9, #1
	b.hi	.LBB22_73
	b	.LBB22_42
.LBB22_74:                              // %vector.ph
                                        //   in Loop: Header=BB22_44 Depth=2
	movi	v0.2d, #0000000000000000
	movi	v1.2d, #0000000000000000
	add	x12, x22, #16
	dup	v2.16b, w8
	and	x13, x10, #0x18
	and	x11, x10, #0xe0
	add	x12, x12, x9
	and	x14, x10, #0xe0
.LBB22_75:                              // %vector.body
                                        //   Parent Loop BB22_20 Depth=1
                                        //     Parent Loop BB22_44 Depth=2
                                        // =>    This Inner Loop Header: Depth=3
	ldp	q3, q4, [x12, #-16]
	subs	x14, x14, #32
	add	x12, x12, #32
	cmeq	v3.16b, v3.16b, v2.16b
	cmeq	v4.16b, v4.16b, v2.16b
	sub	v0.16b, v0.16b, v3.16b
	sub	v1.16b, v1.16b, v4.16b
	b.ne	.LBB22_75
// %bb.76:                              // %middle.block
                                        //   in Loop: Header=BB22_44 Depth=2
	add	v0.16b, v1.16b, v0.16b
	cmp	x10, x11
	addv	b0, v0.16b
	fmov	w12, s0
	b.eq	.LBB22_41
// %bb.77:                              // %vec.epilog.iter.check
                                        //   in Loop: Header=BB22_44 Depth=2
	cbz	x13, .LBB22_81
.LBB22_78:                              // %vec.epilog.ph
                                        //   in Loop: Header=BB22_44 Depth=2
	movi	v0.2d, #0000000000000000
	dup	v1.8b, w8
	mov	v0.b[0], w12
	mov	x12, x11
	and	x11, x10, #0xf8
	add	x13, x12, x9
	sub	x12, x12, x11
	add	x13, x22, x13
.LBB22_79:                              // %vec.epilog.vector.body
                                        //   Parent Loop BB22_20 Depth=1
                                        //     Parent Loop BB22_44 Depth=2
                                        // =>    This Inner Loop Header: Depth=3
	ldr	d2, [x13], #8
	adds	x12, x12, #8
	cmeq	v2.8b, v2.8b, v1.8b
	sub	v0.8b, v0.8b, v2.8b
	b.ne	.LBB22_79
// %bb.80:                              // %vec.epilog.middle.block
                                        //   in Loop: Header=BB22_44 Depth=2
	addv	b0, v0.8b
	cmp	x10, x11
	fmov	w12, s0
	b.eq	.LBB22_41
.LBB22_81:                              // %join.5.i.i.i.i.i.i.i.i.i.i.preheader
                                        //   in Loop: Header=BB22_44 Depth=2
	add	x13, x11, x9
	sub	x9, x10, x11
	add	x10, x22, x13
.LBB22_82:                              // %join.5.i.i.i.i.i.i.i.i.i.i
                                        //   Parent Loop BB22_20 Depth=1
                                        //     Parent Loop BB22_44 Depth=2
                                        // =>    This Inner Loop Header: Depth=3
	ldrb	w11, [x10], #1
	cmp	w11, w8
	cinc	w12, w12, eq
	subs	x9, x9, #1
	b.ne	.LBB22_82
	b	.LBB22_41
.LBB22_83:                              // %join.10.i.i.i
                                        //   in Loop: Header=BB22_20 Depth=1
	ldr	x8, [sp, #152]                  // 8-byte Reload
	cmp	x8, x28
	b.hs	.LBB22_85
// %bb.84:                              // %then.1.i.i.i.i.i
                                        //   in Loop: Header=BB22_20 Depth=1
	ldrb	w8, [x17, x8]
	b	.LBB22_86
.LBB22_85:                              //   in Loop: Header=BB22_20 Depth=1
	mov	w8, wzr
.LBB22_86:                              // %"catalogue::sites::site_at.exit.i.i.i"
                                        //   in Loop: Header=BB22_20 Depth=1
	ldr	x14, [sp, #144]                 // 8-byte Reload
	sub	x9, x29, #160
	ldr	x10, [sp, #168]                 // 8-byte Reload
	ldr	x11, [sp, #128]                 // 8-byte Reload
	ldp	x12, x13, [sp]                  // 16-byte Folded Reload
	add	x9, x9, x14, lsl #4
	add	x14, x14, #1
	cmp	x14, x25
	strb	w8, [x9]
	add	x8, x10, x10, lsl #1
	strb	w10, [x9, #1]
	ldr	x10, [sp, #184]                 // 8-byte Reload
	add	x8, x8, x11
	stur	wzr, [x9, #2]
	add	x10, x10, #16
	strh	wzr, [x9, #6]
	str	x10, [sp, #184]                 // 8-byte Spill
	ldr	x10, [sp, #176]                 // 8-byte Reload
	str	x11, [x9, #8]
	mov	x9, x8
	sub	x10, x10, #1
	str	x10, [sp, #176]                 // 8-byte Spill
	b.ne	.LBB22_20
	b	.LBB22_118
.LBB22_87:                              // %vector.main.loop.iter.check172
                                        //   in Loop: Header=BB22_20 Depth=1
	cmp	x9, #30
	b.hs	.LBB22_94
// %bb.88:                              //   in Loop: Header=BB22_20 Depth=1
	mov	x10, xzr
	mov	x9, xzr
.LBB22_89:                              // %vec.epilog.ph192
                                        //   in Loop: Header=BB22_20 Depth=1
	movi	v2.2d, #0000000000000000
	movi	v0.2d, #0000000000000000
	ldr	x11, [sp, #64]                  // 8-byte Reload
	dup	v1.8b, w8
	movi	v3.2d, #0000000000000000
	movi	v4.2d, #0000000000000000
	mov	v2.d[0], x9
	ldr	x9, [sp, #8]                    // 8-byte Reload
	add	x9, x9, x10, lsl #1
	add	x10, x11, x10
.LBB22_90:                              // %vec.epilog.vector.body197
                                        //   Parent Loop BB22_20 Depth=1
                                        // =>  This Inner Loop Header: Depth=2
	ld2	{ v5.8b, v6.8b }, [x9], #16
	mov	w11, #1                         // =0x1
	dup	v17.2d, x11
	adds	x10, x10, #8
	cmeq	v7.8b, v5.8b, v1.8b
	cmeq	v5.8b, v6.8b, v1.8b
	ushll	v6.8h, v7.8b, #0
	ushll	v5.8h, v5.8b, #0
	ushll2	v7.4s, v6.8h, #0
	ushll	v6.4s, v6.4h, #0
	ushll	v16.4s, v5.4h, #0
	ushll2	v5.4s, v5.8h, #0
	ushll2	v18.2d, v7.4s, #0
	ushll	v7.2d, v7.2s, #0
	ushll2	v19.2d, v6.4s, #0
	ushll	v6.2d, v6.2s, #0
	ushll	v20.2d, v16.2s, #0
	ushll2	v16.2d, v16.4s, #0
	ushll	v21.2d, v5.2s, #0
	ushll2	v5.2d, v5.4s, #0
	and	v18.16b, v18.16b, v17.16b
	and	v7.16b, v7.16b, v17.16b
	and	v19.16b, v19.16b, v17.16b
	and	v6.16b, v6.16b, v17.16b
	and	v20.16b, v20.16b, v17.16b
	and	v16.16b, v16.16b, v17.16b
	and	v21.16b, v21.16b, v17.16b
	and	v5.16b, v5.16b, v17.16b
	add	v4.2d, v4.2d, v18.2d
	add	v3.2d, v3.2d, v19.2d
	add	v0.2d, v0.2d, v7.2d
	add	v2.2d, v2.2d, v6.2d
	add	v4.2d, v4.2d, v5.2d
	add	v0.2d, v0.2d, v21.2d
	add	v3.2d, v3.2d, v16.2d
	add	v2.2d, v2.2d, v20.2d
	b.ne	.LBB22_90
// %bb.91:                              // %vec.epilog.middle.block205
                                        //   in Loop: Header=BB22_20 Depth=1
	add	v0.2d, v2.2d, v0.2d
	add	v1.2d, v3.2d, v4.2d
	ldr	x11, [sp, #72]                  // 8-byte Reload
	ldp	x10, x9, [sp, #80]              // 16-byte Folded Reload
	add	v0.2d, v0.2d, v1.2d
	cmp	x9, x10
	addp	d0, v0.2d
	fmov	x9, d0
	b.ne	.LBB22_98
	b	.LBB22_39
.LBB22_92:                              // %vector.main.loop.iter.check133
                                        //   in Loop: Header=BB22_20 Depth=1
	ldr	x12, [sp, #8]                   // 8-byte Reload
	cmp	x11, #32
	b.hs	.LBB22_100
// %bb.93:                              //   in Loop: Header=BB22_20 Depth=1
	mov	x10, xzr
	mov	w9, wzr
	b	.LBB22_104
.LBB22_94:                              // %vector.ph173
                                        //   in Loop: Header=BB22_20 Depth=1
	movi	v0.2d, #0000000000000000
	movi	v5.2d, #0000000000000000
	ldr	x12, [sp, #88]                  // 8-byte Reload
	movi	v1.2d, #0000000000000000
	movi	v2.2d, #0000000000000000
	ldr	x10, [sp, #8]                   // 8-byte Reload
	movi	v7.2d, #0000000000000000
	movi	v3.2d, #0000000000000000
	and	x9, x12, #0xfffffffffffffff0
	movi	v16.2d, #0000000000000000
	movi	v6.2d, #0000000000000000
	dup	v4.16b, w8
.LBB22_95:                              // %vector.body178
                                        //   Parent Loop BB22_20 Depth=1
                                        // =>  This Inner Loop Header: Depth=2
	ld2	{ v17.16b, v18.16b }, [x10], #32
	mov	w11, #1                         // =0x1
	dup	v22.2d, x11
	subs	x9, x9, #16
	cmeq	v19.16b, v17.16b, v4.16b
	cmeq	v17.16b, v18.16b, v4.16b
	ushll2	v18.8h, v19.16b, #0
	ushll	v19.8h, v19.8b, #0
	ushll	v20.8h, v17.8b, #0
	ushll2	v17.8h, v17.16b, #0
	ushll2	v21.4s, v18.8h, #0
	ushll	v18.4s, v18.4h, #0
	ushll2	v23.4s, v19.8h, #0
	ushll	v19.4s, v19.4h, #0
	ushll	v24.4s, v20.4h, #0
	ushll2	v20.4s, v20.8h, #0
	ushll	v25.4s, v17.4h, #0
	ushll2	v17.4s, v17.8h, #0
	ushll2	v26.2d, v21.4s, #0
	ushll	v21.2d, v21.2s, #0
	ushll2	v27.2d, v18.4s, #0
	ushll2	v28.2d, v23.4s, #0
	ushll	v18.2d, v18.2s, #0
	ushll	v23.2d, v23.2s, #0
	ushll2	v29.2d, v19.4s, #0
	ushll	v19.2d, v19.2s, #0
	ushll	v30.2d, v24.2s, #0
	ushll2	v24.2d, v24.4s, #0
	ushll	v31.2d, v20.2s, #0
	ushll	v8.2d, v25.2s, #0
	ushll2	v20.2d, v20.4s, #0
	ushll2	v25.2d, v25.4s, #0
	ushll	v9.2d, v17.2s, #0
	and	v26.16b, v26.16b, v22.16b
	and	v21.16b, v21.16b, v22.16b
	and	v27.16b, v27.16b, v22.16b
	and	v28.16b, v28.16b, v22.16b
	and	v18.16b, v18.16b, v22.16b
	and	v23.16b, v23.16b, v22.16b
	and	v29.16b, v29.16b, v22.16b
	and	v19.16b, v19.16b, v22.16b
	ushll2	v17.2d, v17.4s, #0
	and	v30.16b, v30.16b, v22.16b
	and	v24.16b, v24.16b, v22.16b
	and	v31.16b, v31.16b, v22.16b
	and	v8.16b, v8.16b, v22.16b
	and	v20.16b, v20.16b, v22.16b
	and	v25.16b, v25.16b, v22.16b
	and	v9.16b, v9.16b, v22.16b
	and	v17.16b, v17.16b, v22.16b
	add	v16.2d, v16.2d, v21.2d
	add	v6.2d, v6.2d, v26.2d
	add	v7.2d, v7.2d, v18.2d
	add	v2.2d, v2.2d, v28.2d
	add	v3.2d, v3.2d, v27.2d
	add	v5.2d, v5.2d, v19.2d
	add	v0.2d, v0.2d, v29.2d
	add	v1.2d, v1.2d, v23.2d
	add	v16.2d, v16.2d, v9.2d
	add	v6.2d, v6.2d, v17.2d
	add	v2.2d, v2.2d, v20.2d
	add	v7.2d, v7.2d, v8.2d
	add	v3.2d, v3.2d, v25.2d
	add	v0.2d, v0.2d, v24.2d
	add	v5.2d, v5.2d, v30.2d
	add	v1.2d, v1.2d, v31.2d
	b.ne	.LBB22_95
// %bb.96:                              // %middle.block185
                                        //   in Loop: Header=BB22_20 Depth=1
	add	v4.2d, v5.2d, v7.2d
	add	v1.2d, v1.2d, v16.2d
	ldr	x9, [sp, #40]                   // 8-byte Reload
	add	v0.2d, v0.2d, v3.2d
	add	v2.2d, v2.2d, v6.2d
	cmp	x12, x9
	add	v1.2d, v4.2d, v1.2d
	add	v0.2d, v0.2d, v2.2d
	add	v0.2d, v1.2d, v0.2d
	addp	d0, v0.2d
	fmov	x9, d0
	b.eq	.LBB22_39
// %bb.97:                              // %vec.epilog.iter.check190
                                        //   in Loop: Header=BB22_20 Depth=1
	ldr	x11, [sp, #24]                  // 8-byte Reload
	and	x10, x12, #0xfffffffffffffff0
	tbnz	w12, #3, .LBB22_89
.LBB22_98:                              // %join.5.i6.i.i.i.i.i.i.i.preheader
                                        //   in Loop: Header=BB22_20 Depth=1
	ldr	x10, [sp, #120]                 // 8-byte Reload
	ldr	x12, [sp, #96]                  // 8-byte Reload
	sub	x10, x10, x11
	add	x11, x12, x11
.LBB22_99:                              // %join.5.i6.i.i.i.i.i.i.i
                                        //   Parent Loop BB22_20 Depth=1
                                        // =>  This Inner Loop Header: Depth=2
	ldurb	w12, [x11, #-1]
	ldrb	w13, [x11], #2
	sub	x10, x10, #2
	cmp	w12, w8
	cinc	x9, x9, eq
	cmp	w13, w8
	cinc	x9, x9, eq
	cmp	x10, #1
	b.hi	.LBB22_99
	b	.LBB22_39
.LBB22_100:                             // %vector.ph134
                                        //   in Loop: Header=BB22_20 Depth=1
	movi	v0.2d, #0000000000000000
	movi	v1.2d, #0000000000000000
	ldr	x9, [sp]                        // 8-byte Reload
	dup	v2.16b, w8
	and	x10, x11, #0xe0
.LBB22_101:                             // %vector.body139
                                        //   Parent Loop BB22_20 Depth=1
                                        // =>  This Inner Loop Header: Depth=2
	ldp	q3, q4, [x9, #-16]
	subs	x10, x10, #32
	add	x9, x9, #32
	cmeq	v3.16b, v3.16b, v2.16b
	cmeq	v4.16b, v4.16b, v2.16b
	sub	v0.16b, v0.16b, v3.16b
	sub	v1.16b, v1.16b, v4.16b
	b.ne	.LBB22_101
// %bb.102:                             // %middle.block146
                                        //   in Loop: Header=BB22_20 Depth=1
	add	v0.16b, v1.16b, v0.16b
	ldr	x9, [sp, #32]                   // 8-byte Reload
	cmp	x11, x9
	addv	b0, v0.16b
	fmov	w9, s0
	b.eq	.LBB22_109
// %bb.103:                             // %vec.epilog.iter.check152
                                        //   in Loop: Header=BB22_20 Depth=1
	ldr	x13, [sp, #16]                  // 8-byte Reload
	and	x10, x11, #0xe0
	and	x11, x11, #0xe0
	cbz	x13, .LBB22_107
.LBB22_104:                             // %vec.epilog.ph154
                                        //   in Loop: Header=BB22_20 Depth=1
	movi	v0.2d, #0000000000000000
	dup	v1.8b, w8
	mov	v0.b[0], w9
	ldr	x9, [sp, #48]                   // 8-byte Reload
	add	x9, x9, x10
	add	x10, x12, x10
.LBB22_105:                             // %vec.epilog.vector.body159
                                        //   Parent Loop BB22_20 Depth=1
                                        // =>  This Inner Loop Header: Depth=2
	ldr	d2, [x10], #8
	adds	x9, x9, #8
	cmeq	v2.8b, v2.8b, v1.8b
	sub	v0.8b, v0.8b, v2.8b
	b.ne	.LBB22_105
// %bb.106:                             // %vec.epilog.middle.block164
                                        //   in Loop: Header=BB22_20 Depth=1
	addv	b0, v0.8b
	ldr	x10, [sp, #120]                 // 8-byte Reload
	ldr	x9, [sp, #56]                   // 8-byte Reload
	cmp	x10, x9
	and	x11, x10, #0xf8
	fmov	w9, s0
	b.eq	.LBB22_109
.LBB22_107:                             // %join.5.i.i.i.i.i.i.i.i.preheader
                                        //   in Loop: Header=BB22_20 Depth=1
	ldr	x10, [sp, #120]                 // 8-byte Reload
	sub	x10, x10, x11
	add	x11, x12, x11
.LBB22_108:                             // %join.5.i.i.i.i.i.i.i.i
                                        //   Parent Loop BB22_20 Depth=1
                                        // =>  This Inner Loop Header: Depth=2
	ldrb	w12, [x11], #1
	cmp	w12, w8
	cinc	w9, w9, eq
	subs	x10, x10, #1
	b.ne	.LBB22_108
.LBB22_109:                             // %"catalogue::candidates::ends_in.exit.loopexit.i.i.i.i.i.i.i"
                                        //   in Loop: Header=BB22_20 Depth=1
	and	x9, x9, #0xff
	b	.LBB22_39
.LBB22_110:                             // %"catalogue::sites::is_taken.exit.thread.i.i.i.i"
	mov	w8, #33                         // =0x21
	b	.LBB22_12
.LBB22_111:
	mov	w8, #18                         // =0x12
	b	.LBB22_12
.LBB22_112:
	mov	w8, #32                         // =0x20
	b	.LBB22_12
.LBB22_113:
	mov	w8, #19                         // =0x13
	b	.LBB22_12
.LBB22_114:                             // %join.5.us.i.i.i.i.i
	ldr	x8, [sp, #152]                  // 8-byte Reload
	add	x8, x8, #5
	cmp	x28, x8
	b.lo	.LBB22_119
// %bb.115:                             // %join.3.i.us.i.i.i.i.i
	ldr	x8, [sp, #128]                  // 8-byte Reload
	cmp	x8, x28
	b.hs	.LBB22_122
// %bb.116:                             // %"records::byte_at.exit.i.i.us.i.i.i.i.i"
	ldr	x9, [sp, #208]                  // 8-byte Reload
	ldr	x10, [sp, #128]                 // 8-byte Reload
	ldr	x8, [sp, #152]                  // 8-byte Reload
	ldrb	w21, [x9, x10]
	ldr	x9, [sp, #192]                  // 8-byte Reload
	add	x8, x8, #3
	cmp	x8, x9
	b.hs	.LBB22_123
// %bb.117:                             // %then.1.i6.i.i.us.i.i.i.i.i
	ldr	x9, [sp, #208]                  // 8-byte Reload
	ldrb	w8, [x9, x8]
	orr	x21, x21, x8, lsl #8
	b	.LBB22_123
.LBB22_118:                             // %after.3.i.i.i
	cmp	x9, x28
	b.hs	.LBB22_120
.LBB22_119:
	mov	w8, #13                         // =0xd
	b	.LBB22_12
.LBB22_120:                             // %join.4.i
	ldp	q2, q0, [x29, #-144]
	cmp	x27, x21
	ldur	q1, [x29, #-160]
	ldur	q3, [x29, #-112]
	stur	q0, [x29, #-192]
	stp	q1, q2, [x29, #-160]
	stp	q0, q3, [x29, #-128]
	b.hs	.LBB22_127
// %bb.121:                             // %then.5.i
	movi	v0.2d, #0000000000000000
	mov	x20, xzr
	mov	x24, xzr
	mov	x25, xzr
	mov	x9, xzr
	mov	w10, #1                         // =0x1
	mov	w8, #11                         // =0xb
	b	.LBB22_13
.LBB22_122:
	mov	x21, xzr
.LBB22_123:                             // %"records::le16_at.exit.i.us.i.i.i.i.i"
	sub	x0, x29, #96
	add	x1, x26, #32
	mov	x2, x20
	mov	x3, x21
	bl	"assembly::find_block"
	mov	w8, #16                         // =0x10
	cbz	x21, .LBB22_12
// %bb.124:                             // %"records::le16_at.exit.i.us.i.i.i.i.i"
	ldurh	w9, [x29, #-96]
	cmp	x21, x9
	b.ne	.LBB22_12
// %bb.125:                             // %join.6.i.us.i.i.i.i.i
	ldr	x8, [sp, #152]                  // 8-byte Reload
	ldr	x9, [sp, #192]                  // 8-byte Reload
	add	x8, x8, #4
	cmp	x8, x9
	b.hs	.LBB22_129
// %bb.126:                             // %then.1.i.i.us.i.i.i.i.i
	ldr	x9, [sp, #208]                  // 8-byte Reload
	ldrb	w8, [x9, x8]
	sub	x8, x8, #1
	b	.LBB22_130
.LBB22_127:                             // %join.7.i
	ldp	q0, q1, [x29, #-160]
	cmp	x25, #2
	stp	q0, q1, [x29, #-96]
	ldp	q0, q2, [x29, #-128]
	stp	q0, q2, [x29, #-64]
	b.hs	.LBB22_131
// %bb.128:
	mov	x8, xzr
	mov	w9, #1                          // =0x1
	b	.LBB22_134
.LBB22_129:
	mov	x8, #-1                         // =0xffffffffffffffff
.LBB22_130:                             // %"records::byte_at.exit.i.us.i.i.i.i.i"
	ldurh	w9, [x29, #-92]
	cmp	x8, x9
	mov	w8, #18                         // =0x12
	cinc	x8, x8, lo
	b	.LBB22_12
.LBB22_131:                             // %vector.ph211
	sub	x9, x29, #96
	and	x8, x25, #0xfffe
	and	x11, x25, #0xfffe
	add	x10, x9, #17
	mov	w9, #1                          // =0x1
	mov	w12, #1                         // =0x1
.LBB22_132:                             // %vector.body214
                                        // =>This Inner Loop Header: Depth=1
	ldurb	w13, [x10, #-16]
	ldrb	w14, [x10], #32
	subs	x11, x11, #2
	mul	x9, x9, x13
	mul	x12, x12, x14
	b.ne	.LBB22_132
// %bb.133:                             // %middle.block219
	mul	x9, x12, x9
	cmp	x25, x8
	b.eq	.LBB22_136
.LBB22_134:                             // %join.5.i.i.preheader
	sub	x10, x29, #96
	add	x10, x10, x8, lsl #4
	sub	x8, x25, x8
	orr	x10, x10, #0x1
.LBB22_135:                             // %join.5.i.i
                                        // =>This Inner Loop Header: Depth=1
	ldrb	w11, [x10], #16
	subs	x8, x8, #1
	mul	x9, x9, x11
	b.ne	.LBB22_135
.LBB22_136:                             // %"catalogue::sites::count_of.exit.i"
	ldp	q0, q1, [x26, #96]
	mov	w10, wzr
	mov	x8, xzr
	mov	x27, xzr
	stp	q0, q1, [sp, #560]
	ldp	q0, q2, [x26, #128]
	stp	q0, q2, [sp, #592]
	ldp	q1, q0, [x26, #32]
	stp	q1, q0, [sp, #496]
	ldp	q1, q2, [x26, #64]
	stp	q1, q2, [sp, #528]
	ldp	q1, q0, [x29, #-128]
	stp	q1, q0, [sp, #464]
	ldp	q2, q0, [x29, #-160]
	stp	q2, q0, [sp, #432]
	b	.LBB22_14
.Lfunc_end22:
	.size	"catalogue::read_library", .Lfunc_end22-"catalogue::read_library"
                                        // -- End function
	.section	".text.stock::core_at","ax",@progbits
	.p2align	2                               // -- Begin function stock::core_at
	.type	"stock::core_at",@function
"stock::core_at":                       // @"stock::core_at"
// %bb.0:                               // %start
	stp	x29, x30, [sp, #-96]!           // 16-byte Folded Spill
	stp	x28, x27, [sp, #16]             // 16-byte Folded Spill
	mov	x29, sp
	stp	x26, x25, [sp, #32]             // 16-byte Folded Spill
	stp	x24, x23, [sp, #48]             // 16-byte Folded Spill
	stp	x22, x21, [sp, #64]             // 16-byte Folded Spill
	stp	x20, x19, [sp, #80]             // 16-byte Folded Spill
	sub	sp, sp, #1600
	mov	x21, x2
	mov	x20, x1
	add	x24, sp, #880
	str	xzr, [sp]
	str	x0, [sp]                        // 8-byte Spill
	cbz	x6, .LBB23_3
// %bb.1:                               // %"records::byte_at.exit.i"
	ldrb	w8, [x5]
	cmp	x6, #1
	b.eq	.LBB23_4
// %bb.2:                               // %then.1.i6.i
	ldrb	w9, [x5, #1]
	orr	x8, x8, x9, lsl #8
	b	.LBB23_4
.LBB23_3:
	mov	x8, xzr
.LBB23_4:                               // %join.3.i
	ldp	q0, q1, [x3, #64]
	add	x0, sp, #872
	ldrb	w25, [x7]
	ldrb	w26, [x7, #16]
	add	x1, sp, #880
	ldrb	w27, [x7, #32]
	ldrb	w28, [x7, #48]
	mov	x2, x4
	stp	q0, q1, [x24, #64]
	ldp	q0, q2, [x3, #96]
	stp	q0, q2, [x24, #96]
	ldp	q1, q0, [x3]
	stp	q1, q0, [x24]
	ldp	q1, q0, [x3, #32]
	mov	x3, x8
	stp	q1, q0, [x24, #32]
	bl	"assembly::find_block"
	ldrh	w8, [sp, #874]
	ldrh	w22, [sp, #876]
	cmp	x21, x8
	b.hs	.LBB23_6
// %bb.5:
	mov	x23, xzr
	b	.LBB23_7
.LBB23_6:                               // %join.3.i.i
	ldrh	w9, [sp, #878]
	add	x8, x8, #6
	subs	x10, x21, x8
	lsl	x9, x9, #1
	csel	x11, x21, x8, lo
	cmp	x10, x9
	csel	x9, x10, x9, lo
	cmp	x21, x8
	mov	x21, x11
	csel	x23, xzr, x9, lo
.LBB23_7:                               // %"assembly::bonds_part.exit.i"
	ldrh	w19, [sp, #872]
	add	x0, sp, #8
	mov	w1, wzr
	mov	w2, #528                        // =0x210
	bl	memset
	movi	v0.2d, #0000000000000000
	add	x0, sp, #1008
	add	x2, x20, x21
	add	x4, sp, #1072
	mov	x1, x22
	mov	x3, x23
	str	xzr, [sp, #1056]
	stp	q0, q0, [x24, #144]
	str	q0, [x24, #128]
	bl	"reach::opened"
	ldrb	w8, [sp, #1008]
	cbnz	w8, .LBB23_10
// %bb.8:                               // %arm.3.i.i.i
	ldur	q0, [x24, #152]
	lsr	w8, w19, #8
	ldr	x9, [sp, #1016]
	ldr	x10, [sp, #1056]
	strb	w19, [sp, #8]
	xtn	v0.2s, v0.2d
	strb	w8, [sp, #9]
	ldr	x8, [sp, #1048]
	strb	w9, [sp, #10]
	strb	w10, [sp, #11]
	str	w8, [sp, #20]
	stur	d0, [sp, #12]
	cbz	w22, .LBB23_10
// %bb.9:                               // %join.5.i.i.i.preheader.i
	lsl	x2, x22, #3
	add	x8, sp, #8
	add	x1, sp, #1072
	add	x0, x8, #16
	bl	memcpy
.LBB23_10:                              // %"stock::hold.exit"
	orr	w8, w25, w26, lsl #8
	add	x0, sp, #536
	add	x1, sp, #8
	orr	w8, w8, w27, lsl #16
	orr	w2, w8, w28, lsl #24
	bl	"arms::core_in"
	ldr	x0, [sp]                        // 8-byte Reload
	add	x1, sp, #536
	mov	w2, #336                        // =0x150
	bl	memcpy
	add	sp, sp, #1600
	ldp	x20, x19, [sp, #80]             // 16-byte Folded Reload
	ldp	x22, x21, [sp, #64]             // 16-byte Folded Reload
	ldp	x24, x23, [sp, #48]             // 16-byte Folded Reload
	ldp	x26, x25, [sp, #32]             // 16-byte Folded Reload
	ldp	x28, x27, [sp, #16]             // 16-byte Folded Reload
	ldp	x29, x30, [sp], #96             // 16-byte Folded Reload
	ret
.Lfunc_end23:
	.size	"stock::core_at", .Lfunc_end23-"stock::core_at"
                                        // -- End function
	.section	".text.arms::core_in","ax",@progbits
	.p2align	2                               // -- Begin function arms::core_in
	.type	"arms::core_in",@function
"arms::core_in":                        // @"arms::core_in"
// %bb.0:                               // %start
	str	d8, [sp, #-112]!                // 8-byte Folded Spill
	stp	x29, x30, [sp, #16]             // 16-byte Folded Spill
	add	x29, sp, #16
	stp	x28, x27, [sp, #32]             // 16-byte Folded Spill
	stp	x26, x25, [sp, #48]             // 16-byte Folded Spill
	stp	x24, x23, [sp, #64]             // 16-byte Folded Spill
	stp	x22, x21, [sp, #80]             // 16-byte Folded Spill
	stp	x20, x19, [sp, #96]             // 16-byte Folded Spill
	sub	sp, sp, #624
	ldr	w8, [x1, #4]
	movi	v0.2d, #0000000000000000
	and	w3, w2, #0xff
	sub	x21, x29, #224
	ubfx	w22, w2, #16, #8
	lsr	w9, w2, #24
	str	x8, [sp, #80]                   // 8-byte Spill
	ldrb	w8, [x1, #2]
	ubfx	w23, w2, #8, #8
	mov	x19, x0
	ldr	d8, [x1, #8]
	sub	x0, x29, #160
	str	w8, [sp, #76]                   // 4-byte Spill
	ldr	w8, [x1, #8]
	mov	w2, #528                        // =0x210
	mov	x20, x1
	stp	q0, q0, [sp, #160]
	sub	x25, x29, #160
	str	x8, [sp, #56]                   // 8-byte Spill
	ldrb	w8, [x1, #3]
	sub	w28, w3, #65
	stp	q0, q0, [sp, #192]
	sub	w26, w23, #65
	add	x24, x21, x22
	str	x8, [sp, #64]                   // 8-byte Spill
	add	x8, x21, x3
	sub	w27, w9, #65
	stur	x8, [x29, #-8]                  // 8-byte Folded Spill
	sub	w8, w22, #65
	str	w8, [sp, #44]                   // 4-byte Spill
	add	x8, x21, x9
	stp	q0, q0, [sp, #224]
	stp	q0, q0, [sp, #256]
	stp	q0, q0, [sp, #288]
	stp	q0, q0, [sp, #320]
	stp	q0, q0, [x29, #-160]
	stp	q0, q0, [x29, #-128]
	stp	q0, q0, [x29, #-96]
	stp	q0, q0, [x29, #-64]
	str	x9, [sp, #48]                   // 8-byte Spill
	str	x8, [sp, #88]                   // 8-byte Spill
	bl	"summary::seen"
	ldp	q0, q1, [x29, #-96]
	cmn	w26, #65
	stp	q0, q1, [x29, #-224]
	ldp	q0, q2, [x29, #-64]
	stp	q0, q2, [x29, #-192]
	b.hi	.LBB24_4
// %bb.1:                               // %join.7.us.preheader
	cmn	w28, #64
	b.hs	.LBB24_7
// %bb.2:
	str	wzr, [sp, #44]                  // 4-byte Spill
	sub	w26, w22, #65
	cmn	w26, #64
	b.lo	.LBB24_8
.LBB24_3:                               // %join.3.i.2.i.i.us
	ldurb	w8, [x24, #-1]
	lsl	w9, w8, #16
	cmn	w27, #64
	b.hs	.LBB24_9
	b	.LBB24_10
.LBB24_4:                               // %loop.4.preheader.split
	cmn	w27, #64
	add	x27, x21, x23
	b.hs	.LBB24_13
// %bb.5:                               // %join.7.us2.preheader
	mov	w26, w28
	cmn	w28, #64
	b.hs	.LBB24_33
// %bb.6:
	ldurb	w9, [x27, #-1]
	sub	w21, w22, #65
	cmn	w21, #64
	orr	w28, wzr, w9, lsl #8
	b.hs	.LBB24_34
	b	.LBB24_35
.LBB24_7:                               // %join.3.i.i.i.us
	ldur	x8, [x29, #-8]                  // 8-byte Folded Reload
	ldurb	w8, [x8, #-1]
	str	w8, [sp, #44]                   // 4-byte Spill
	sub	w26, w22, #65
	cmn	w26, #64
	b.hs	.LBB24_3
.LBB24_8:
	mov	w9, wzr
	cmn	w27, #64
	b.lo	.LBB24_10
.LBB24_9:                               // %join.3.i.3.i.i.us
	ldr	x8, [sp, #88]                   // 8-byte Reload
	ldurb	w8, [x8, #-1]
	orr	w9, w9, w8, lsl #24
.LBB24_10:                              // %"arms::port_in.exit.us"
	movi	v4.2d, #0000000000000000
	ldp	q0, q1, [x29, #-160]
	ldp	q2, q3, [x29, #-128]
	sub	x0, x29, #160
	mov	x1, x20
	mov	w2, #528                        // =0x210
	mov	x3, x23
	str	w9, [sp, #32]                   // 4-byte Spill
	stp	q0, q1, [sp, #96]
	stp	q2, q3, [sp, #128]
	stp	q0, q1, [sp, #352]
	stp	q2, q3, [sp, #384]
	stp	q4, q4, [x29, #-160]
	stp	q4, q4, [x29, #-128]
	stp	q4, q4, [x29, #-96]
	stp	q4, q4, [x29, #-64]
	bl	"summary::seen"
	ldp	q0, q1, [x25, #64]
	cmn	w28, #64
	stp	q0, q1, [x29, #-224]
	ldp	q0, q2, [x25, #96]
	stp	q0, q2, [x29, #-192]
	b.hs	.LBB24_16
// %bb.11:
	str	wzr, [sp, #28]                  // 4-byte Spill
	cmn	w26, #64
	b.lo	.LBB24_17
.LBB24_12:                              // %join.3.i.2.i.i.us.1
	ldurb	w8, [x24, #-1]
	lsl	w23, w8, #16
	cmn	w27, #64
	b.hs	.LBB24_18
	b	.LBB24_19
.LBB24_13:                              // %join.7.preheader
	cmn	w28, #64
	mov	x26, x24
	b.hs	.LBB24_37
// %bb.14:
	str	wzr, [sp, #28]                  // 4-byte Spill
	sub	w8, w22, #65
	cmn	w8, #64
	b.lo	.LBB24_38
.LBB24_15:                              // %join.3.i.2.i.i
	ldurb	w8, [x26, #-1]
	lsl	w8, w8, #16
	str	w8, [sp, #20]                   // 4-byte Spill
	b	.LBB24_39
.LBB24_16:                              // %join.3.i.i.i.us.1
	ldur	x8, [x29, #-8]                  // 8-byte Folded Reload
	ldurb	w8, [x8, #-1]
	str	w8, [sp, #28]                   // 4-byte Spill
	cmn	w26, #64
	b.hs	.LBB24_12
.LBB24_17:
	mov	w23, wzr
	cmn	w27, #64
	b.lo	.LBB24_19
.LBB24_18:                              // %join.3.i.3.i.i.us.1
	ldr	x8, [sp, #88]                   // 8-byte Reload
	ldurb	w8, [x8, #-1]
	orr	w23, w23, w8, lsl #24
.LBB24_19:                              // %"arms::port_in.exit.us.1"
	movi	v4.2d, #0000000000000000
	ldp	q0, q1, [x29, #-160]
	ldp	q2, q3, [x29, #-128]
	sub	x0, x29, #160
	mov	x1, x20
	mov	w2, #528                        // =0x210
	mov	x3, x22
	stp	q0, q1, [sp, #96]
	stp	q2, q3, [sp, #128]
	stp	q0, q1, [sp, #288]
	stp	q2, q3, [sp, #320]
	stp	q4, q4, [x29, #-160]
	stp	q4, q4, [x29, #-128]
	stp	q4, q4, [x29, #-96]
	stp	q4, q4, [x29, #-64]
	bl	"summary::seen"
	ldp	q0, q1, [x25, #64]
	cmn	w28, #64
	stp	q0, q1, [x29, #-224]
	ldp	q0, q2, [x25, #96]
	stp	q0, q2, [x29, #-192]
	b.hs	.LBB24_22
// %bb.20:
	mov	w22, wzr
	cmn	w26, #64
	b.lo	.LBB24_23
.LBB24_21:                              // %join.3.i.2.i.i.us.2
	ldurb	w8, [x24, #-1]
	lsl	w21, w8, #16
	cmn	w27, #64
	b.hs	.LBB24_24
	b	.LBB24_25
.LBB24_22:                              // %join.3.i.i.i.us.2
	ldur	x8, [x29, #-8]                  // 8-byte Folded Reload
	ldurb	w22, [x8, #-1]
	cmn	w26, #64
	b.hs	.LBB24_21
.LBB24_23:
	mov	w21, wzr
	cmn	w27, #64
	b.lo	.LBB24_25
.LBB24_24:                              // %join.3.i.3.i.i.us.2
	ldr	x8, [sp, #88]                   // 8-byte Reload
	ldurb	w8, [x8, #-1]
	orr	w21, w21, w8, lsl #24
.LBB24_25:                              // %"arms::port_in.exit.us.2"
	movi	v4.2d, #0000000000000000
	ldp	q0, q1, [x29, #-160]
	ldp	q2, q3, [x29, #-128]
	sub	x0, x29, #160
	ldr	x3, [sp, #48]                   // 8-byte Reload
	mov	x1, x20
	mov	w2, #528                        // =0x210
	stp	q0, q1, [sp, #96]
	stp	q2, q3, [sp, #128]
	stp	q0, q1, [sp, #224]
	stp	q2, q3, [sp, #256]
	stp	q4, q4, [x29, #-160]
	stp	q4, q4, [x29, #-128]
	stp	q4, q4, [x29, #-96]
	stp	q4, q4, [x29, #-64]
	bl	"summary::seen"
	ldp	q0, q1, [x25, #64]
	cmn	w28, #64
	stp	q0, q1, [x29, #-224]
	ldp	q0, q2, [x25, #96]
	stp	q0, q2, [x29, #-192]
	b.hs	.LBB24_28
// %bb.26:
	mov	w8, wzr
	cmn	w26, #64
	b.lo	.LBB24_29
.LBB24_27:                              // %join.3.i.2.i.i.us.3
	ldurb	w9, [x24, #-1]
	lsl	w9, w9, #16
	b	.LBB24_30
.LBB24_28:                              // %join.3.i.i.i.us.3
	ldur	x8, [x29, #-8]                  // 8-byte Folded Reload
	ldurb	w8, [x8, #-1]
	cmn	w26, #64
	b.hs	.LBB24_27
.LBB24_29:
	mov	w9, wzr
.LBB24_30:                              // %"sighted::steps.exit.2.i.i.us.3"
	ldr	w10, [sp, #44]                  // 4-byte Reload
	ldr	w11, [sp, #32]                  // 4-byte Reload
	cmn	w27, #64
	orr	w22, w21, w22
	orr	w28, w11, w10
	ldr	w10, [sp, #28]                  // 4-byte Reload
	orr	w23, w23, w10
	b.lo	.LBB24_32
// %bb.31:                              // %join.3.i.3.i.i.us.3
	ldr	x10, [sp, #88]                  // 8-byte Reload
	ldurb	w10, [x10, #-1]
	orr	w9, w9, w10, lsl #24
.LBB24_32:                              // %"arms::port_in.exit.us.3"
	ldp	q0, q1, [x29, #-160]
	ldp	q2, q3, [x29, #-128]
	stp	q0, q1, [sp, #96]
	b	.LBB24_67
.LBB24_33:                              // %join.3.i.i.i.us7
	ldur	x8, [x29, #-8]                  // 8-byte Folded Reload
	ldurb	w8, [x8, #-1]
	ldurb	w9, [x27, #-1]
	sub	w21, w22, #65
	cmn	w21, #64
	orr	w28, w8, w9, lsl #8
	b.lo	.LBB24_35
.LBB24_34:                              // %join.3.i.2.i.i.us11
	ldurb	w8, [x24, #-1]
	orr	w28, w28, w8, lsl #16
.LBB24_35:                              // %"sighted::steps.exit.2.i.i.us13"
	movi	v4.2d, #0000000000000000
	ldp	q0, q1, [x29, #-160]
	ldp	q2, q3, [x29, #-128]
	sub	x0, x29, #160
	mov	x1, x20
	mov	w2, #528                        // =0x210
	mov	x3, x23
	stp	q0, q1, [sp, #96]
	stp	q2, q3, [sp, #128]
	stp	q0, q1, [sp, #352]
	stp	q2, q3, [sp, #384]
	stp	q4, q4, [x29, #-160]
	stp	q4, q4, [x29, #-128]
	stp	q4, q4, [x29, #-96]
	stp	q4, q4, [x29, #-64]
	bl	"summary::seen"
	ldp	q0, q1, [x25, #64]
	cmn	w26, #64
	stp	q0, q1, [x29, #-224]
	ldp	q0, q2, [x25, #96]
	stp	q0, q2, [x29, #-192]
	b.hs	.LBB24_42
// %bb.36:
	ldurb	w9, [x27, #-1]
	cmn	w21, #64
	orr	w23, wzr, w9, lsl #8
	b.hs	.LBB24_43
	b	.LBB24_44
.LBB24_37:                              // %join.3.i.i.i
	ldur	x8, [x29, #-8]                  // 8-byte Folded Reload
	ldurb	w8, [x8, #-1]
	str	w8, [sp, #28]                   // 4-byte Spill
	sub	w8, w22, #65
	cmn	w8, #64
	b.hs	.LBB24_15
.LBB24_38:
	str	wzr, [sp, #20]                  // 4-byte Spill
.LBB24_39:                              // %"sighted::steps.exit.2.i.i"
	ldurb	w8, [x27, #-1]
	movi	v4.2d, #0000000000000000
	sub	x0, x29, #160
	ldp	q0, q1, [x29, #-160]
	mov	x1, x20
	str	w8, [sp, #12]                   // 4-byte Spill
	ldr	x8, [sp, #88]                   // 8-byte Reload
	mov	w2, #528                        // =0x210
	ldp	q2, q3, [x29, #-128]
	mov	x3, x23
	ldurb	w8, [x8, #-1]
	stp	q0, q1, [sp, #96]
	stp	q0, q1, [sp, #352]
	stp	q2, q3, [sp, #128]
	stp	q2, q3, [sp, #384]
	stp	q4, q4, [x29, #-160]
	stp	q4, q4, [x29, #-128]
	stp	q4, q4, [x29, #-96]
	str	w8, [sp, #16]                   // 4-byte Spill
	stp	q4, q4, [x29, #-64]
	bl	"summary::seen"
	ldp	q0, q1, [x25, #64]
	cmn	w28, #64
	stp	q0, q1, [x29, #-224]
	ldp	q0, q2, [x25, #96]
	stp	q0, q2, [x29, #-192]
	b.hs	.LBB24_46
// %bb.40:
	str	wzr, [sp, #8]                   // 4-byte Spill
	sub	w8, w22, #65
	cmn	w8, #64
	b.lo	.LBB24_47
.LBB24_41:                              // %join.3.i.2.i.i.1
	ldurb	w8, [x26, #-1]
	lsl	w8, w8, #16
	str	w8, [sp, #4]                    // 4-byte Spill
	b	.LBB24_48
.LBB24_42:                              // %join.3.i.i.i.us7.1
	ldur	x8, [x29, #-8]                  // 8-byte Folded Reload
	ldurb	w8, [x8, #-1]
	ldurb	w9, [x27, #-1]
	cmn	w21, #64
	orr	w23, w8, w9, lsl #8
	b.lo	.LBB24_44
.LBB24_43:                              // %join.3.i.2.i.i.us11.1
	ldurb	w8, [x24, #-1]
	orr	w23, w23, w8, lsl #16
.LBB24_44:                              // %"sighted::steps.exit.2.i.i.us13.1"
	movi	v4.2d, #0000000000000000
	ldp	q0, q1, [x29, #-160]
	ldp	q2, q3, [x29, #-128]
	sub	x0, x29, #160
	mov	x1, x20
	mov	w2, #528                        // =0x210
	mov	x3, x22
	stp	q0, q1, [sp, #96]
	stp	q2, q3, [sp, #128]
	stp	q0, q1, [sp, #288]
	stp	q2, q3, [sp, #320]
	stp	q4, q4, [x29, #-160]
	stp	q4, q4, [x29, #-128]
	stp	q4, q4, [x29, #-96]
	stp	q4, q4, [x29, #-64]
	bl	"summary::seen"
	ldp	q0, q1, [x25, #64]
	cmn	w26, #64
	stp	q0, q1, [x29, #-224]
	ldp	q0, q2, [x25, #96]
	stp	q0, q2, [x29, #-192]
	b.hs	.LBB24_51
// %bb.45:
	ldurb	w9, [x27, #-1]
	cmn	w21, #64
	orr	w22, wzr, w9, lsl #8
	b.hs	.LBB24_52
	b	.LBB24_53
.LBB24_46:                              // %join.3.i.i.i.1
	ldur	x8, [x29, #-8]                  // 8-byte Folded Reload
	ldurb	w8, [x8, #-1]
	str	w8, [sp, #8]                    // 4-byte Spill
	sub	w8, w22, #65
	cmn	w8, #64
	b.hs	.LBB24_41
.LBB24_47:
	str	wzr, [sp, #4]                   // 4-byte Spill
.LBB24_48:                              // %"sighted::steps.exit.2.i.i.1"
	movi	v4.2d, #0000000000000000
	ldp	q0, q1, [x29, #-160]
	ldp	q2, q3, [x29, #-128]
	sub	x0, x29, #160
	ldr	x8, [sp, #88]                   // 8-byte Reload
	ldurb	w21, [x27, #-1]
	mov	x1, x20
	mov	w2, #528                        // =0x210
	mov	x3, x22
	stp	q0, q1, [sp, #96]
	ldurb	w23, [x8, #-1]
	stp	q2, q3, [sp, #128]
	stp	q0, q1, [sp, #288]
	stp	q2, q3, [sp, #320]
	stp	q4, q4, [x29, #-160]
	stp	q4, q4, [x29, #-128]
	stp	q4, q4, [x29, #-96]
	stp	q4, q4, [x29, #-64]
	bl	"summary::seen"
	ldp	q0, q1, [x25, #64]
	cmn	w28, #64
	stp	q0, q1, [x29, #-224]
	ldp	q0, q2, [x25, #96]
	stp	q0, q2, [x29, #-192]
	b.hs	.LBB24_55
// %bb.49:
	mov	w8, wzr
	ldr	w10, [sp, #44]                  // 4-byte Reload
	ldurb	w9, [x27, #-1]
	str	w28, [sp, #24]                  // 4-byte Spill
	str	x27, [sp, #32]                  // 8-byte Spill
	cmn	w10, #64
	b.lo	.LBB24_56
.LBB24_50:                              // %join.3.i.2.i.i.2
	ldurb	w10, [x26, #-1]
	lsl	w10, w10, #16
	b	.LBB24_57
.LBB24_51:                              // %join.3.i.i.i.us7.2
	ldur	x8, [x29, #-8]                  // 8-byte Folded Reload
	ldurb	w8, [x8, #-1]
	ldurb	w9, [x27, #-1]
	cmn	w21, #64
	orr	w22, w8, w9, lsl #8
	b.lo	.LBB24_53
.LBB24_52:                              // %join.3.i.2.i.i.us11.2
	ldurb	w8, [x24, #-1]
	orr	w22, w22, w8, lsl #16
.LBB24_53:                              // %"sighted::steps.exit.2.i.i.us13.2"
	movi	v4.2d, #0000000000000000
	ldp	q0, q1, [x29, #-160]
	ldp	q2, q3, [x29, #-128]
	sub	x0, x29, #160
	ldr	x3, [sp, #48]                   // 8-byte Reload
	mov	x1, x20
	mov	w2, #528                        // =0x210
	stp	q0, q1, [sp, #96]
	stp	q2, q3, [sp, #128]
	stp	q0, q1, [sp, #224]
	stp	q2, q3, [sp, #256]
	stp	q4, q4, [x29, #-160]
	stp	q4, q4, [x29, #-128]
	stp	q4, q4, [x29, #-96]
	stp	q4, q4, [x29, #-64]
	bl	"summary::seen"
	ldp	q0, q1, [x25, #64]
	cmn	w26, #64
	stp	q0, q1, [x29, #-224]
	ldp	q0, q2, [x25, #96]
	stp	q0, q2, [x29, #-192]
	b.hs	.LBB24_59
// %bb.54:
	ldurb	w9, [x27, #-1]
	cmn	w21, #64
	orr	w8, wzr, w9, lsl #8
	b.hs	.LBB24_60
	b	.LBB24_61
.LBB24_55:                              // %join.3.i.i.i.2
	ldur	x8, [x29, #-8]                  // 8-byte Folded Reload
	ldurb	w8, [x8, #-1]
	ldr	w10, [sp, #44]                  // 4-byte Reload
	ldurb	w9, [x27, #-1]
	str	w28, [sp, #24]                  // 4-byte Spill
	str	x27, [sp, #32]                  // 8-byte Spill
	cmn	w10, #64
	b.hs	.LBB24_50
.LBB24_56:
	mov	w10, wzr
.LBB24_57:                              // %"sighted::steps.exit.2.i.i.2"
	ldr	w11, [sp, #28]                  // 4-byte Reload
	ldr	w12, [sp, #12]                  // 4-byte Reload
	movi	v4.2d, #0000000000000000
	ldp	q0, q1, [x29, #-160]
	sub	x0, x29, #160
	orr	w22, w11, w12, lsl #8
	ldp	q2, q3, [x29, #-128]
	ldp	w12, w11, [sp, #16]             // 8-byte Folded Reload
	ldr	x3, [sp, #48]                   // 8-byte Reload
	mov	x1, x20
	mov	w2, #528                        // =0x210
	stp	q0, q1, [sp, #96]
	orr	w27, w8, w9, lsl #8
	orr	w28, w11, w12, lsl #24
	ldr	x11, [sp, #88]                  // 8-byte Reload
	ldr	w12, [sp, #8]                   // 4-byte Reload
	stp	q2, q3, [sp, #128]
	ldurb	w11, [x11, #-1]
	orr	w21, w12, w21, lsl #8
	ldr	w12, [sp, #4]                   // 4-byte Reload
	stp	q0, q1, [sp, #224]
	stp	q2, q3, [sp, #256]
	orr	w23, w12, w23, lsl #24
	orr	w26, w10, w11, lsl #24
	stp	q4, q4, [x29, #-160]
	stp	q4, q4, [x29, #-128]
	stp	q4, q4, [x29, #-96]
	stp	q4, q4, [x29, #-64]
	bl	"summary::seen"
	ldp	q0, q1, [x25, #64]
	ldr	w8, [sp, #24]                   // 4-byte Reload
	cmn	w8, #64
	stp	q0, q1, [x29, #-224]
	ldp	q0, q2, [x25, #96]
	stp	q0, q2, [x29, #-192]
	b.hs	.LBB24_62
// %bb.58:
	mov	w8, wzr
	b	.LBB24_63
.LBB24_59:                              // %join.3.i.i.i.us7.3
	ldur	x8, [x29, #-8]                  // 8-byte Folded Reload
	ldurb	w8, [x8, #-1]
	ldurb	w9, [x27, #-1]
	cmn	w21, #64
	orr	w8, w8, w9, lsl #8
	b.lo	.LBB24_61
.LBB24_60:                              // %join.3.i.2.i.i.us11.3
	ldurb	w9, [x24, #-1]
	orr	w8, w8, w9, lsl #16
.LBB24_61:                              // %"sighted::steps.exit.2.i.i.us13.3"
	ldp	q0, q1, [x29, #-160]
	ldp	q2, q3, [x29, #-128]
	stp	q0, q1, [sp, #96]
	stp	q2, q3, [sp, #128]
	stp	q0, q1, [sp, #160]
	str	q2, [sp, #192]
	b	.LBB24_68
.LBB24_62:                              // %join.3.i.i.i.3
	ldur	x8, [x29, #-8]                  // 8-byte Folded Reload
	ldurb	w8, [x8, #-1]
.LBB24_63:                              // %"sighted::steps.exit.i.i.3"
	ldr	x9, [sp, #32]                   // 8-byte Reload
	orr	w28, w28, w22
	orr	w23, w23, w21
	orr	w22, w26, w27
	ldurb	w9, [x9, #-1]
	orr	w8, w8, w9, lsl #8
	ldr	w9, [sp, #44]                   // 4-byte Reload
	cmn	w9, #64
	b.hs	.LBB24_65
// %bb.64:
	mov	w9, wzr
	b	.LBB24_66
.LBB24_65:                              // %join.3.i.2.i.i.3
	ldurb	w9, [x24, #-1]
	lsl	w9, w9, #16
.LBB24_66:                              // %"sighted::steps.exit.2.i.i.3"
	ldr	x10, [sp, #88]                  // 8-byte Reload
	ldp	q0, q1, [x29, #-160]
	ldp	q2, q3, [x29, #-128]
	ldurb	w10, [x10, #-1]
	stp	q0, q1, [sp, #96]
	orr	w9, w9, w10, lsl #24
.LBB24_67:                              // %after.3
	stp	q2, q3, [sp, #128]
	str	q0, [sp, #160]
	orr	w8, w9, w8
	stp	q1, q2, [sp, #176]
.LBB24_68:                              // %after.3
	ushll	v0.2d, v8.2s, #0
	ldr	w11, [sp, #76]                  // 4-byte Reload
	mov	w9, #64                         // =0x40
	ldr	x10, [sp, #80]                  // 8-byte Reload
	str	q3, [sp, #208]
	cmp	w11, #64
	stp	w28, wzr, [x19, #112]
	stur	q0, [x19, #24]
	ldp	q1, q0, [sp, #352]
	csel	w9, w11, w9, lo
	ldr	x11, [sp, #56]                  // 8-byte Reload
	str	x10, [x19, #16]
	stp	w23, wzr, [x19, #184]
	stp	q1, q0, [x19, #48]
	ldp	q2, q0, [sp, #384]
	add	x10, x11, x10
	str	w22, [x19, #256]
	stp	x9, x10, [x19]
	ldr	x9, [sp, #64]                   // 8-byte Reload
	stp	q2, q0, [x19, #80]
	ldp	q1, q0, [sp, #320]
	str	x9, [x19, #40]
	add	x9, x19, #264
	str	wzr, [x19, #260]
	stur	q0, [x19, #168]
	ldp	q2, q0, [sp, #288]
	stur	q1, [x19, #152]
	str	w8, [x19, #328]
	stur	q0, [x19, #136]
	ldp	q0, q1, [sp, #224]
	stur	q2, [x19, #120]
	str	wzr, [x19, #332]
	stp	q0, q1, [x19, #192]
	ldp	q2, q0, [sp, #256]
	stp	q2, q0, [x19, #224]
	ldp	q1, q0, [sp, #192]
	stp	q1, q0, [x9, #32]
	ldp	q2, q0, [sp, #160]
	stp	q2, q0, [x9]
	add	sp, sp, #624
	ldp	x20, x19, [sp, #96]             // 16-byte Folded Reload
	ldp	x22, x21, [sp, #80]             // 16-byte Folded Reload
	ldp	x24, x23, [sp, #64]             // 16-byte Folded Reload
	ldp	x26, x25, [sp, #48]             // 16-byte Folded Reload
	ldp	x28, x27, [sp, #32]             // 16-byte Folded Reload
	ldp	x29, x30, [sp, #16]             // 16-byte Folded Reload
	ldr	d8, [sp], #112                  // 8-byte Folded Reload
	ret
.Lfunc_end24:
	.size	"arms::core_in", .Lfunc_end24-"arms::core_in"
                                        // -- End function
	.section	".text.stock::all_arms","ax",@progbits
	.p2align	2                               // -- Begin function stock::all_arms
	.type	"stock::all_arms",@function
"stock::all_arms":                      // @"stock::all_arms"
// %bb.0:                               // %start
	stp	x29, x30, [sp, #-96]!           // 16-byte Folded Spill
	stp	x28, x27, [sp, #16]             // 16-byte Folded Spill
	mov	x29, sp
	stp	x26, x25, [sp, #32]             // 16-byte Folded Spill
	stp	x24, x23, [sp, #48]             // 16-byte Folded Spill
	stp	x22, x21, [sp, #64]             // 16-byte Folded Spill
	stp	x20, x19, [sp, #80]             // 16-byte Folded Spill
	sub	sp, sp, #3072
	str	xzr, [sp]
	sub	sp, sp, #1408
	str	xzr, [sp]
	mov	x23, x2
	mov	x24, x1
	ldp	q0, q1, [x3, #64]
	mov	x19, x0
	add	x0, sp, #688
	mov	w1, wzr
	mov	w2, #3584                       // =0xe00
	mov	x20, x6
	mov	x21, x5
	mov	x22, x4
	stp	q0, q1, [x29, #-80]
	ldp	q2, q0, [x3, #96]
	add	x28, sp, #688
	stp	q2, q0, [x29, #-48]
	ldp	q1, q0, [x3]
	stp	q1, q0, [x29, #-144]
	ldp	q2, q0, [x3, #32]
	stp	q2, q0, [x29, #-112]
	ldp	q2, q1, [x7, #32]
	stp	q2, q1, [x29, #-176]
	ldp	q1, q0, [x7]
	stp	q1, q0, [x29, #-208]
	bl	memset
	add	x0, sp, #160
	mov	w1, wzr
	mov	w2, #528                        // =0x210
	add	x25, sp, #160
	bl	memset
	mov	x26, xzr
	mov	x27, xzr
	mov	w8, #65536                      // =0x10000
	add	x28, x28, #48
	str	x8, [sp, #152]
.LBB25_1:                               // %join.9
                                        // =>This Inner Loop Header: Depth=1
	and	x8, x26, #0x30
	sub	x9, x29, #208
	add	x10, sp, #152
	add	x8, x9, x8
	add	x0, sp, #32
	sub	x3, x29, #144
	ldr	x9, [x8, #8]
	ldrb	w7, [x8, #1]
	and	x8, x27, #0x7
	mov	x1, x24
	mov	x2, x23
	mov	x4, x22
	mov	x5, x21
	mov	x6, x20
	stp	x10, x25, [sp, #16]
	stp	x9, x8, [sp]
	bl	"stock::held_arm"
	ldp	q0, q1, [sp, #32]
	add	x27, x27, #1
	cmp	x27, #32
	add	x26, x26, #2
	stp	q0, q1, [x28, #-48]
	ldp	q0, q2, [sp, #64]
	stp	q0, q2, [x28, #-16]
	ldp	q1, q0, [sp, #96]
	ldr	q2, [sp, #128]
	stp	q1, q0, [x28, #16]
	str	q2, [x28, #48]
	add	x28, x28, #112
	b.ne	.LBB25_1
// %bb.2:                               // %after.5
	add	x1, sp, #688
	mov	x0, x19
	mov	w2, #3584                       // =0xe00
	bl	memcpy
	add	sp, sp, #1, lsl #12             // =4096
	add	sp, sp, #384
	ldp	x20, x19, [sp, #80]             // 16-byte Folded Reload
	ldp	x22, x21, [sp, #64]             // 16-byte Folded Reload
	ldp	x24, x23, [sp, #48]             // 16-byte Folded Reload
	ldp	x26, x25, [sp, #32]             // 16-byte Folded Reload
	ldp	x28, x27, [sp, #16]             // 16-byte Folded Reload
	ldp	x29, x30, [sp], #96             // 16-byte Folded Reload
	ret
.Lfunc_end25:
	.size	"stock::all_arms", .Lfunc_end25-"stock::all_arms"
                                        // -- End function
	.section	".text.stock::held_arm","ax",@progbits
	.p2align	2                               // -- Begin function stock::held_arm
	.type	"stock::held_arm",@function
"stock::held_arm":                      // @"stock::held_arm"
// %bb.0:                               // %start
	stp	x29, x30, [sp, #-96]!           // 16-byte Folded Spill
	stp	x28, x27, [sp, #16]             // 16-byte Folded Spill
	mov	x29, sp
	stp	x26, x25, [sp, #32]             // 16-byte Folded Spill
	stp	x24, x23, [sp, #48]             // 16-byte Folded Spill
	stp	x22, x21, [sp, #64]             // 16-byte Folded Spill
	stp	x20, x19, [sp, #80]             // 16-byte Folded Spill
	sub	sp, sp, #736
	ldr	x8, [x29, #96]
	mov	x19, x0
	cmp	x6, x8
	b.lo	.LBB26_5
// %bb.1:                               // %join.3
	ldr	x9, [x29, #104]
	cmp	x9, w7, uxtb
	b.hs	.LBB26_5
// %bb.2:                               // %join.6
	add	x9, x9, x9, lsl #1
	add	x24, x9, x8
	ldp	x9, x20, [x29, #112]
	cmp	x24, x6
	b.hs	.LBB26_6
// %bb.3:                               // %"records::byte_at.exit.i"
	add	x10, x24, #1
	ldrb	w8, [x5, x24]
	cmp	x10, x6
	b.hs	.LBB26_7
// %bb.4:                               // %then.1.i6.i
	ldrb	w10, [x5, x10]
	orr	x8, x8, x10, lsl #8
	b	.LBB26_7
.LBB26_5:                               // %then.1
	movi	v0.2d, #0000000000000000
	stp	q0, q0, [x19, #16]
	stp	q0, q0, [x19, #48]
	stp	q0, q0, [x19, #80]
	str	q0, [x19]
	b	.LBB26_19
.LBB26_6:
	mov	x8, xzr
.LBB26_7:                               // %"records::le16_at.exit"
	ldp	q0, q1, [x3, #64]
	add	x23, sp, #144
	ldr	x10, [x9]
	stp	q0, q1, [sp, #80]
	ldp	q0, q2, [x3, #96]
	cmp	x10, x8
	stp	q0, q2, [sp, #112]
	ldp	q1, q0, [x3]
	stp	q1, q0, [sp, #16]
	ldp	q2, q0, [x3, #32]
	stp	q2, q0, [sp, #48]
	b.eq	.LBB26_15
// %bb.8:                               // %join.3.i
	mov	x27, x1
	add	x0, sp, #8
	add	x1, sp, #16
	mov	x25, x2
	mov	x2, x4
	mov	x3, x8
	str	x6, [sp]                        // 8-byte Spill
	mov	x26, x5
	str	x8, [x9]
	bl	"assembly::find_block"
	ldrh	w9, [sp, #10]
	ldrh	w21, [sp, #12]
	cmp	x25, x9
	b.hs	.LBB26_10
// %bb.9:
	mov	x22, xzr
	b	.LBB26_11
.LBB26_10:                              // %join.3.i.i
	ldrh	w10, [sp, #14]
	add	x9, x9, #6
	mov	x8, x25
	subs	x11, x25, x9
	lsl	x10, x10, #1
	csel	x25, x25, x9, lo
	cmp	x11, x10
	csel	x10, x11, x10, lo
	cmp	x8, x9
	csel	x22, xzr, x10, lo
.LBB26_11:                              // %"assembly::bonds_part.exit.i"
	ldrh	w28, [sp, #8]
	mov	x0, x20
	mov	w1, wzr
	mov	w2, #528                        // =0x210
	bl	memset
	movi	v0.2d, #0000000000000000
	add	x0, sp, #144
	add	x2, x27, x25
	add	x4, sp, #208
	mov	x1, x21
	mov	x3, x22
	str	xzr, [sp, #192]
	stp	q0, q0, [x23, #16]
	str	q0, [x23]
	bl	"reach::opened"
	ldrb	w8, [sp, #144]
	cbnz	w8, .LBB26_14
// %bb.12:                              // %arm.3.i.i.i
	ldur	q0, [x23, #24]
	lsr	w8, w28, #8
	ldr	x9, [sp, #152]
	strb	w28, [x20]
	xtn	v0.2s, v0.2d
	strb	w8, [x20, #1]
	ldp	x8, x10, [sp, #184]
	strb	w9, [x20, #2]
	strb	w10, [x20, #3]
	stur	d0, [x20, #4]
	str	w8, [x20, #12]
	cbz	w21, .LBB26_14
// %bb.13:                              // %join.5.i.i.i.preheader.i
	lsl	x2, x21, #3
	add	x0, x20, #16
	add	x1, sp, #208
	bl	memcpy
.LBB26_14:                              // %"arms::open_in.exit.i"
	ldr	x6, [sp]                        // 8-byte Reload
	mov	x5, x26
.LBB26_15:                              // %"stock::hold.exit"
	add	x8, x24, #2
	cmp	x8, x6
	b.hs	.LBB26_17
// %bb.16:                              // %then.1.i
	ldrb	w3, [x5, x8]
	b	.LBB26_18
.LBB26_17:
	mov	x3, xzr
.LBB26_18:                              // %"records::byte_at.exit"
	movi	v0.2d, #0000000000000000
	ldrb	w8, [x20, #2]
	mov	w9, #64                         // =0x40
	ldp	w21, w22, [x20, #4]
	cmp	w8, #64
	ldr	w24, [x20, #12]
	ldrb	w25, [x20, #3]
	add	x0, sp, #208
	mov	x1, x20
	mov	w2, #528                        // =0x210
	stp	q0, q0, [x23, #64]
	csel	w26, w8, w9, lo
	add	x27, x22, x21
	stp	q0, q0, [x23, #96]
	stp	q0, q0, [x23, #128]
	stp	q0, q0, [x23, #160]
	bl	"summary::seen"
	ldp	q0, q1, [x23, #64]
	stp	x26, x27, [x19]
	stp	x21, x22, [x19, #16]
	stp	x24, x25, [x19, #32]
	stp	q0, q1, [x19, #48]
	ldp	q0, q2, [x23, #96]
	stp	q0, q2, [x19, #80]
.LBB26_19:                              // %then.1
	add	sp, sp, #736
	ldp	x20, x19, [sp, #80]             // 16-byte Folded Reload
	ldp	x22, x21, [sp, #64]             // 16-byte Folded Reload
	ldp	x24, x23, [sp, #48]             // 16-byte Folded Reload
	ldp	x26, x25, [sp, #32]             // 16-byte Folded Reload
	ldp	x28, x27, [sp, #16]             // 16-byte Folded Reload
	ldp	x29, x30, [sp], #96             // 16-byte Folded Reload
	ret
.Lfunc_end26:
	.size	"stock::held_arm", .Lfunc_end26-"stock::held_arm"
                                        // -- End function
	.section	".text.library::last::staying_at","ax",@progbits
	.p2align	2                               // -- Begin function library::last::staying_at
	.type	"library::last::staying_at",@function
"library::last::staying_at":            // @"library::last::staying_at"
// %bb.0:                               // %start
	stp	d11, d10, [sp, #-96]!           // 16-byte Folded Spill
	stp	d9, d8, [sp, #16]               // 16-byte Folded Spill
	stp	x29, x30, [sp, #32]             // 16-byte Folded Spill
	add	x29, sp, #32
	stp	x28, x23, [sp, #48]             // 16-byte Folded Spill
	stp	x22, x21, [sp, #64]             // 16-byte Folded Spill
	stp	x20, x19, [sp, #80]             // 16-byte Folded Spill
	sub	sp, sp, #1088
	mov	x21, x2
	mov	x19, x0
	add	x0, sp, #656
	mov	w2, #336                        // =0x150
	str	xzr, [sp]
	mov	x22, x5
	mov	x20, x4
	mov	x23, x3
	bl	memcpy
	ldp	q1, q2, [x23]
	movi	v0.2d, #0000000000000000
	ldr	q5, [x23, #32]
	stp	q1, q2, [sp, #592]
	ldp	q3, q1, [x23, #32]
	ldp	q4, q2, [x23]
	stp	q0, q0, [sp, #16]
	stp	q0, q0, [sp, #48]
	stp	q0, q0, [sp, #80]
	stp	q0, q0, [sp, #112]
	stp	q0, q0, [sp, #144]
	stp	q0, q0, [sp, #176]
	stp	q0, q0, [sp, #208]
	stp	q0, q0, [sp, #240]
	stp	q0, q0, [sp, #272]
	stp	q0, q0, [sp, #304]
	stp	q0, q0, [sp, #336]
	stp	q0, q0, [sp, #368]
	stp	q0, q0, [sp, #400]
	stp	q0, q0, [sp, #432]
	stp	q0, q0, [sp, #464]
	stp	q0, q0, [sp, #496]
	stp	q0, q0, [sp, #528]
	stp	q3, q1, [sp, #624]
	ldr	q1, [x23, #48]
	str	q0, [sp]
	stp	q0, q0, [x29, #-128]
	stp	q4, q2, [x29, #-96]
	stp	q5, q1, [x29, #-64]
	cbz	x20, .LBB27_5
// %bb.1:                               // %join.7.i.preheader
	sub	x8, x29, #96
	add	x9, x8, x20, lsl #4
	sub	x8, x20, #1
	sub	x9, x9, #15
.LBB27_2:                               // %join.7.i
                                        // =>This Inner Loop Header: Depth=1
	ldrb	w10, [x9], #-16
	cbz	x10, .LBB27_14
// %bb.3:                               // %ok.9.i
                                        //   in Loop: Header=BB27_2 Depth=1
	udiv	x11, x22, x10
	sub	x12, x29, #128
	msub	x10, x11, x10, x22
	mov	x22, x11
	str	x10, [x12, x8, lsl #3]
	sub	x8, x8, #1
	cmn	x8, #1
	b.ne	.LBB27_2
// %bb.4:                               // %"library::choice::choose.exit"
	ldp	x11, x10, [x29, #-128]
	movi	v0.2d, #0000000000000000
	movi	v1.2d, #0000000000000000
	movi	v2.2d, #0000000000000000
	movi	v3.2d, #0000000000000000
	movi	v4.2d, #0000000000000000
	movi	v5.2d, #0000000000000000
	movi	v6.2d, #0000000000000000
	ldp	x9, x8, [x29, #-112]
	cmp	x11, #7
	str	x11, [sp, #560]
	str	x10, [sp, #568]
	str	x9, [sp, #576]
	str	x8, [sp, #584]
	b.ls	.LBB27_6
	b	.LBB27_7
.LBB27_5:                               // %"library::choice::choose.exit.thread"
	mov	x11, xzr
	mov	x10, xzr
	mov	x9, xzr
	mov	x8, xzr
	stp	q0, q0, [sp, #560]
.LBB27_6:                               // %join.3.i.i
	mov	w12, #112                       // =0x70
	madd	x11, x11, x12, x21
	ldp	q0, q1, [x11]
	ldr	q6, [x11, #96]
	ldp	q2, q3, [x11, #32]
	ldp	q4, q5, [x11, #64]
.LBB27_7:                               // %"stock::arm_among.exit.i"
	movi	v7.2d, #0000000000000000
	movi	v16.2d, #0000000000000000
	cmp	x10, #7
	movi	v17.2d, #0000000000000000
	movi	v18.2d, #0000000000000000
	movi	v19.2d, #0000000000000000
	movi	v20.2d, #0000000000000000
	movi	v21.2d, #0000000000000000
	movi	v22.2d, #0000000000000000
	b.hi	.LBB27_9
// %bb.8:                               // %join.3.i.1.i
	mov	w11, #112                       // =0x70
	madd	x10, x10, x11, x21
	ldp	q16, q17, [x10, #896]
	ldr	q22, [x10, #992]
	ldp	q18, q19, [x10, #928]
	ldp	q20, q21, [x10, #960]
.LBB27_9:                               // %"stock::arm_among.exit.1.i"
	movi	v23.2d, #0000000000000000
	movi	v24.2d, #0000000000000000
	cmp	x9, #7
	movi	v25.2d, #0000000000000000
	movi	v26.2d, #0000000000000000
	movi	v27.2d, #0000000000000000
	movi	v28.2d, #0000000000000000
	b.hi	.LBB27_11
// %bb.10:                              // %join.3.i.2.i
	mov	w10, #112                       // =0x70
	madd	x9, x9, x10, x21
	ldr	q7, [x9, #1792]
	ldr	q23, [x9, #1808]
	ldr	q24, [x9, #1824]
	ldr	q25, [x9, #1840]
	ldr	q26, [x9, #1856]
	ldr	q27, [x9, #1872]
	ldr	q28, [x9, #1888]
.LBB27_11:                              // %"stock::arm_among.exit.2.i"
	movi	v29.2d, #0000000000000000
	movi	v30.2d, #0000000000000000
	cmp	x8, #7
	movi	v31.2d, #0000000000000000
	movi	v8.2d, #0000000000000000
	movi	v9.2d, #0000000000000000
	movi	v10.2d, #0000000000000000
	movi	v11.2d, #0000000000000000
	b.hi	.LBB27_13
// %bb.12:                              // %join.3.i.3.i
	mov	w9, #112                        // =0x70
	madd	x8, x8, x9, x21
	ldr	q29, [x8, #2688]
	ldr	q30, [x8, #2704]
	ldr	q31, [x8, #2720]
	ldr	q8, [x8, #2736]
	ldr	q9, [x8, #2752]
	ldr	q10, [x8, #2768]
	ldr	q11, [x8, #2784]
.LBB27_13:                              // %"stock::arms_among.exit"
	sub	x20, x20, #1
	mov	x0, sp
	add	x1, sp, #656
	add	x2, sp, #112
	mov	x3, x20
	stp	q0, q1, [sp, #112]
	stp	q2, q3, [sp, #144]
	stp	q4, q5, [sp, #176]
	stp	q6, q16, [sp, #208]
	stp	q17, q18, [sp, #240]
	stp	q19, q20, [sp, #272]
	stp	q21, q22, [sp, #304]
	stp	q7, q23, [sp, #336]
	stp	q24, q25, [sp, #368]
	stp	q26, q27, [sp, #400]
	stp	q28, q29, [sp, #432]
	stp	q30, q31, [sp, #464]
	stp	q8, q9, [sp, #496]
	stp	q10, q11, [sp, #528]
	bl	"arms::stem_of"
	ldp	q0, q1, [sp, #48]
	add	x8, sp, #592
	add	x8, x8, x20, lsl #4
	lsl	x9, x20, #3
	add	x10, sp, #560
	stp	q0, q1, [x19, #48]
	ldp	q0, q1, [sp, #80]
	ldr	x10, [x10, x9]
	ldrb	w8, [x8, #1]
	stp	q0, q1, [x19, #80]
	ldp	q1, q2, [sp, #16]
	ldr	q0, [sp]
	add	x9, x10, x9
	sub	x8, x8, x10
	stp	x9, x8, [x19, #112]
	stp	q0, q1, [x19]
	str	q2, [x19, #32]
	add	sp, sp, #1088
	ldp	x20, x19, [sp, #80]             // 16-byte Folded Reload
	ldp	x22, x21, [sp, #64]             // 16-byte Folded Reload
	ldp	x28, x23, [sp, #48]             // 16-byte Folded Reload
	ldp	x29, x30, [sp, #32]             // 16-byte Folded Reload
	ldp	d9, d8, [sp, #16]               // 16-byte Folded Reload
	ldp	d11, d10, [sp], #96             // 16-byte Folded Reload
	ret
.LBB27_14:                              // %trap.8.i
	brk	#0x1
.Lfunc_end27:
	.size	"library::last::staying_at", .Lfunc_end27-"library::last::staying_at"
                                        // -- End function
	.section	".text.arms::stem_of","ax",@progbits
	.p2align	2                               // -- Begin function arms::stem_of
	.type	"arms::stem_of",@function
"arms::stem_of":                        // @"arms::stem_of"
// %bb.0:                               // %start
	stp	x29, x30, [sp, #-96]!           // 16-byte Folded Spill
	stp	x28, x27, [sp, #16]             // 16-byte Folded Spill
	mov	x29, sp
	stp	x26, x25, [sp, #32]             // 16-byte Folded Spill
	stp	x24, x23, [sp, #48]             // 16-byte Folded Spill
	stp	x22, x21, [sp, #64]             // 16-byte Folded Spill
	stp	x20, x19, [sp, #80]             // 16-byte Folded Spill
	sub	sp, sp, #1088
	str	xzr, [sp]
	mov	x21, x1
	mov	x22, x0
	ldr	x8, [x1]
	ldp	x23, x19, [x1, #56]
	add	x0, sp, #336
	mov	x26, x2
	str	x8, [sp, #192]                  // 8-byte Spill
	ldp	x8, x28, [x1, #8]
	stp	x8, x3, [sp, #280]              // 16-byte Folded Spill
	ldp	x20, x8, [x1, #24]
	str	x8, [sp, #328]                  // 8-byte Spill
	ldp	x8, x27, [x1, #40]
	str	x8, [sp, #296]                  // 8-byte Spill
	ldr	x8, [x1, #72]
	str	x8, [sp, #304]                  // 8-byte Spill
	ldp	x8, x25, [x1, #80]
	str	x8, [sp, #312]                  // 8-byte Spill
	ldp	x24, x8, [x1, #96]
	str	x8, [sp, #320]                  // 8-byte Spill
	ldr	x8, [x1, #112]
	mov	x1, x2
	mov	w2, #448                        // =0x1c0
	str	x8, [sp, #176]                  // 8-byte Spill
	bl	memcpy
	ldr	x9, [sp, #288]                  // 8-byte Reload
	mov	w8, #3                          // =0x3
	cmp	x9, #3
	csel	x8, x9, x8, lo
	str	x8, [sp, #168]                  // 8-byte Spill
	cbz	x9, .LBB28_10
// %bb.1:                               // %join.5.lr.ph
	ldp	x10, x13, [x26, #168]
	mov	x3, x20
	ldp	x14, x15, [x26, #184]
	add	x11, x21, #120
	ldp	x0, x18, [x26, #56]
	add	x8, sp, #792
	and	x10, x10, #0x1fffffff
	ldr	x16, [x26, #200]
	ldr	x17, [x26, #216]
	str	x10, [sp, #104]                 // 8-byte Spill
	and	x10, x13, #0x1fffffff
	ldr	x7, [x26, #328]
	str	x10, [sp, #96]                  // 8-byte Spill
	and	x10, x14, #0x1fffffff
	and	x0, x0, #0x1fffffff
	ldp	x1, x2, [x26, #280]
	str	x10, [sp, #88]                  // 8-byte Spill
	and	x10, x15, #0x1fffffff
	str	x0, [sp, #160]                  // 8-byte Spill
	and	x18, x18, #0x1fffffff
	ldp	x5, x0, [x26, #72]
	str	x10, [sp, #80]                  // 8-byte Spill
	and	x10, x16, #0x1fffffff
	ldp	x20, x4, [x26, #296]
	str	x10, [sp, #72]                  // 8-byte Spill
	and	x10, x17, #0x1fffffff
	ldr	x21, [x26, #88]
	str	x10, [sp, #64]                  // 8-byte Spill
	and	x10, x1, #0x1fffffff
	and	x5, x5, #0x1fffffff
	str	x10, [sp, #56]                  // 8-byte Spill
	and	x10, x2, #0x1fffffff
	ldr	x6, [sp, #296]                  // 8-byte Reload
	stp	x5, x18, [sp, #144]             // 16-byte Folded Spill
	ldr	x5, [x26, #312]
	and	x0, x0, #0x1fffffff
	str	x10, [sp, #48]                  // 8-byte Spill
	and	x10, x20, #0x1fffffff
	mov	x9, xzr
	str	x10, [sp, #40]                  // 8-byte Spill
	and	x10, x4, #0x1fffffff
	add	x12, x8, #72
	str	x10, [sp, #32]                  // 8-byte Spill
	and	x10, x5, #0x1fffffff
	add	x5, x8, #128
	ldr	x18, [x26, #104]
	ldr	x26, [sp, #192]                 // 8-byte Reload
	str	x10, [sp, #24]                  // 8-byte Spill
	and	x10, x7, #0x1fffffff
	stp	x22, x10, [sp, #8]              // 16-byte Folded Spill
	add	x22, sp, #788
	and	x18, x18, #0x1fffffff
	add	x10, sp, #336
	orr	x7, x22, #0x1
	str	x0, [sp, #136]                  // 8-byte Spill
	and	x0, x21, #0x1fffffff
	add	x4, x10, #56
	stp	x18, x0, [sp, #120]             // 16-byte Folded Spill
	str	x7, [sp, #112]                  // 8-byte Spill
	b	.LBB28_4
.LBB28_2:                               //   in Loop: Header=BB28_4 Depth=1
	stp	x10, x22, [sp, #304]            // 16-byte Folded Spill
	mov	x20, x25
	str	x8, [sp, #320]                  // 8-byte Spill
.LBB28_3:                               // %"arms::sight.exit"
                                        //   in Loop: Header=BB28_4 Depth=1
	and	x10, x3, #0xfffffffffffffff
	ldr	x3, [sp, #240]                  // 8-byte Reload
	ldr	x18, [sp, #200]                 // 8-byte Reload
	and	x8, x28, #0xfffffffffffffff
	and	x0, x15, #0xfffffffffffffff
	and	x7, x3, #0x1fffffff
	ldp	x3, x1, [sp, #248]              // 16-byte Folded Reload
	and	x18, x18, #0xfffffffffffffff
	and	x15, x21, #0xfffffffffffffff
	and	x13, x13, #0x1fffffff
	add	x8, x18, x8
	and	x21, x3, #0x1fffffff
	ldp	x3, x18, [sp, #208]             // 16-byte Folded Reload
	and	x25, x6, #0xfffffffffffffff
	and	x1, x1, #0x1fffffff
	and	x6, x2, #0x1fffffff
	umaddl	x8, w13, w21, x8
	ldr	x2, [sp, #288]                  // 8-byte Reload
	and	x3, x3, #0x1fffffff
	and	x18, x18, #0x1fffffff
	add	x1, x21, x1
	umaddl	x8, w6, w7, x8
	and	x16, x16, #0xfffffffffffffff
	and	x2, x2, #0x1fffffff
	add	x28, x6, x3
	umaddl	x8, w18, w1, x8
	ldr	x22, [sp, #272]                 // 8-byte Reload
	add	x10, x16, x10
	umaddl	x28, w28, w2, x8
	and	x8, x14, #0x1fffffff
	ldr	x17, [sp, #328]                 // 8-byte Reload
	ldp	x16, x14, [sp, #224]            // 16-byte Folded Reload
	and	x30, x22, #0x1fffffff
	ldr	x22, [sp, #280]                 // 8-byte Reload
	and	x17, x17, #0xfffffffffffffff
	umaddl	x10, w3, w21, x10
	umaddl	x10, w6, w1, x10
	cmp	x25, x15
	add	x13, x18, x13
	and	x22, x22, #0x1fffffff
	and	x16, x16, #0x1fffffff
	and	x14, x14, #0x1fffffff
	add	x17, x17, x22
	add	x8, x8, x16
	umaddl	x10, w18, w7, x10
	add	x17, x17, x0
	csel	x15, x25, x15, hi
	add	x16, x8, #1
	umaddl	x14, w14, w30, x17
	ldr	x17, [sp, #296]                 // 8-byte Reload
	cmp	x15, x16
	umaddl	x3, w13, w2, x10
	ldr	x10, [sp, #264]                 // 8-byte Reload
	csinc	x6, x15, x8, hi
	ldr	x8, [sp, #168]                  // 8-byte Reload
	add	x9, x9, #1
	and	x26, x26, #0xfffffffffffffff
	and	x17, x17, #0xfffffffffffffff
	and	x10, x10, #0x1fffffff
	ldr	x7, [sp, #112]                  // 8-byte Reload
	add	x4, x4, #112
	cmp	x8, x9
	add	x5, x5, #72
	add	x8, x14, x10
	add	x26, x17, x26
	mov	x25, x20
	str	x8, [sp, #328]                  // 8-byte Spill
	b.eq	.LBB28_9
.LBB28_4:                               // %join.5
                                        // =>This Inner Loop Header: Depth=1
	ldp	q1, q0, [x11, #64]
	ldr	x8, [sp, #176]                  // 8-byte Reload
	ldr	x10, [sp, #304]                 // 8-byte Reload
	ldr	x13, [x11, #208]
	str	x19, [sp, #240]                 // 8-byte Spill
	str	x8, [sp, #856]
	and	x8, x8, #0xffffffff
	stp	q1, q0, [x12, #64]
	ldp	q0, q2, [x11, #32]
	stp	x10, x23, [sp, #248]            // 16-byte Folded Spill
	ldr	x10, [sp, #312]                 // 8-byte Reload
	str	w8, [sp, #788]
	stp	q0, q2, [x12, #32]
	ldrb	w8, [x7, x9]
	ldp	q0, q1, [x11, #128]
	stp	x24, x10, [sp, #280]            // 16-byte Folded Spill
	tst	x8, #0x1
	add	x24, x8, #1
	str	x13, [x12, #208]
	ldp	x15, x10, [sp, #136]            // 16-byte Folded Reload
	str	x25, [sp, #272]                 // 8-byte Spill
	stp	q0, q1, [x12, #128]
	ldr	q1, [x11, #192]
	ldp	q0, q2, [x11, #96]
	csel	x14, x15, x10, eq
	csel	x1, x10, x15, eq
	str	q1, [x12, #192]
	ldp	x15, x10, [sp, #152]            // 16-byte Folded Reload
	stp	q0, q2, [x12, #96]
	ldp	q1, q0, [x11, #160]
	csel	x13, x15, x10, eq
	csel	x0, x10, x15, eq
	ldr	x10, [sp, #128]                 // 8-byte Reload
	stp	q1, q0, [x12, #160]
	ldp	q2, q0, [x11]
	cmp	w8, #0
	csel	x30, x10, xzr, eq
	cmp	x8, #0
	ldur	x10, [x4, #-56]
	stp	q2, q0, [x12]
	ldp	x22, x15, [x5, #-24]
	str	x10, [sp, #296]                 // 8-byte Spill
	ldp	x16, x2, [x5, #-56]
	and	x15, x15, #0x1fffffff
	cinc	x25, x15, eq
	cmp	x8, #1
	and	x19, x16, #0x1fffffff
	ldp	x8, x16, [x4, #-40]
	and	x20, x2, #0x1fffffff
	ldp	x15, x21, [x4, #-24]
	str	x8, [sp, #200]                  // 8-byte Spill
	umaddl	x8, w1, w24, x0
	umaddl	x0, w14, w24, x13
	ldp	x10, x13, [x4]
	add	x19, x8, x19
	str	x10, [sp, #208]                 // 8-byte Spill
	ldp	x2, x10, [x4, #16]
	add	x27, x19, x0
	add	x23, x0, x20
	ldp	x0, x18, [x5, #-8]
	str	x10, [sp, #216]                 // 8-byte Spill
	ldp	x17, x10, [x5, #-40]
	and	x18, x18, #0x1fffffff
	and	x17, x17, #0x1fffffff
	and	x10, x10, #0x1fffffff
	add	x19, x8, x17
	ldr	x8, [x4, #32]
	add	x10, x14, x10
	and	x14, x22, #0x1fffffff
	and	x17, x0, #0x1fffffff
	str	x8, [sp, #232]                  // 8-byte Spill
	ldr	x8, [x4, #40]
	add	x22, x1, x14
	cinc	x14, x17, eq
	str	x8, [sp, #264]                  // 8-byte Spill
	ldr	x8, [sp, #120]                  // 8-byte Reload
	add	x0, x24, x8
	ldr	x8, [x4, #48]
	add	x24, x14, x30
	cmp	x18, x0
	ldr	x14, [sp, #320]                 // 8-byte Reload
	str	x8, [sp, #224]                  // 8-byte Spill
	csel	x8, x18, x0, hi
	cbz	x9, .LBB28_2
// %bb.5:                               // %join.5.i.1
                                        //   in Loop: Header=BB28_4 Depth=1
	ldr	w17, [sp, #928]
	and	x0, x23, #0x1fffffff
	and	x20, x10, #0x1fffffff
	ldp	x1, x10, [sp, #80]              // 16-byte Folded Reload
	stp	x28, x26, [sp, #184]            // 16-byte Folded Spill
	str	w17, [sp, #788]
	and	x17, x27, #0x1fffffff
	and	x27, x8, #0x1fffffff
	ldrb	w23, [x7, x9]
	and	x18, x25, #0x1fffffff
	and	x24, x24, #0x1fffffff
	and	x19, x19, #0x1fffffff
	tst	x23, #0x1
	add	x30, x23, #1
	csel	x8, x1, x10, eq
	csel	x10, x10, x1, eq
	ldp	x26, x1, [sp, #96]              // 16-byte Folded Reload
	csel	x25, x26, x1, eq
	csel	x28, x1, x26, eq
	ldr	x1, [sp, #72]                   // 8-byte Reload
	cmp	w23, #0
	umaddl	x25, w8, w30, x25
	csel	x26, x1, xzr, eq
	umaddl	x28, w10, w30, x28
	ldr	x1, [sp, #64]                   // 8-byte Reload
	cmp	x23, #0
	add	x30, x30, x1
	cinc	x1, x18, eq
	cmp	x23, #1
	and	x18, x22, #0x1fffffff
	cinc	x24, x24, eq
	cmp	x27, x30
	add	x22, x28, x25
	add	x23, x25, x0
	add	x19, x28, x19
	csel	x25, x27, x30, hi
	cmp	x9, #1
	add	x27, x22, x17
	add	x22, x8, x20
	add	x20, x10, x18
	add	x24, x24, x26
	b.ne	.LBB28_7
// %bb.6:                               //   in Loop: Header=BB28_4 Depth=1
	stp	x22, x20, [sp, #304]            // 16-byte Folded Spill
	mov	x20, x1
	str	x25, [sp, #320]                 // 8-byte Spill
	b	.LBB28_8
.LBB28_7:                               // %join.5.i.2
                                        //   in Loop: Header=BB28_4 Depth=1
	ldr	w8, [sp, #1000]
	add	x10, sp, #788
	and	x18, x23, #0x1fffffff
	and	x23, x24, #0x1fffffff
	and	x0, x19, #0x1fffffff
	and	x19, x22, #0x1fffffff
	str	w8, [x10]
	and	x8, x1, #0x1fffffff
	and	x10, x27, #0x1fffffff
	ldrb	w17, [x7, x9]
	ldp	x26, x1, [sp, #32]              // 16-byte Folded Reload
	and	x22, x20, #0x1fffffff
	and	x25, x25, #0x1fffffff
	tst	x17, #0x1
	add	x20, x17, #1
	csel	x24, x26, x1, eq
	csel	x26, x1, x26, eq
	ldp	x28, x1, [sp, #48]              // 16-byte Folded Reload
	add	x19, x24, x19
	str	x19, [sp, #304]                 // 8-byte Spill
	csel	x27, x28, x1, eq
	csel	x28, x1, x28, eq
	ldr	x1, [sp, #16]                   // 8-byte Reload
	umaddl	x27, w24, w20, x27
	cmp	w17, #0
	add	x30, x20, x1
	ldr	x1, [sp, #24]                   // 8-byte Reload
	umaddl	x28, w26, w20, x28
	csel	x1, x1, xzr, eq
	cmp	x17, #0
	cinc	x20, x8, eq
	cmp	x17, #1
	add	x17, x28, x27
	cinc	x8, x23, eq
	cmp	x25, x30
	add	x23, x27, x18
	add	x19, x28, x0
	add	x27, x17, x10
	add	x10, x26, x22
	add	x24, x8, x1
	csel	x8, x25, x30, hi
	stp	x10, x8, [sp, #312]             // 16-byte Folded Spill
.LBB28_8:                               // %"arms::sight.exit"
                                        //   in Loop: Header=BB28_4 Depth=1
	ldp	x28, x26, [sp, #184]            // 16-byte Folded Reload
	b	.LBB28_3
.LBB28_9:                               // %loop.2.after.1_crit_edge
	ldr	x22, [sp, #8]                   // 8-byte Reload
	ldr	x9, [sp, #304]                  // 8-byte Reload
	mov	x20, x3
	add	x10, x3, x28
	str	x26, [sp, #192]                 // 8-byte Spill
	b	.LBB28_11
.LBB28_10:
	ldp	x6, x9, [sp, #296]              // 16-byte Folded Reload
	ldr	x10, [sp, #280]                 // 8-byte Reload
.LBB28_11:                              // %after.1
	ldr	x8, [sp, #192]                  // 8-byte Reload
	stp	x28, x20, [x22, #16]
	stp	x27, x23, [x22, #48]
	stp	x8, x10, [x22]
	ldr	x8, [sp, #328]                  // 8-byte Reload
	stp	x19, x9, [x22, #64]
	stp	x8, x6, [x22, #32]
	ldr	x8, [sp, #312]                  // 8-byte Reload
	stp	x8, x25, [x22, #80]
	ldr	x8, [sp, #320]                  // 8-byte Reload
	stp	x24, x8, [x22, #96]
	add	sp, sp, #1088
	ldp	x20, x19, [sp, #80]             // 16-byte Folded Reload
	ldp	x22, x21, [sp, #64]             // 16-byte Folded Reload
	ldp	x24, x23, [sp, #48]             // 16-byte Folded Reload
	ldp	x26, x25, [sp, #32]             // 16-byte Folded Reload
	ldp	x28, x27, [sp, #16]             // 16-byte Folded Reload
	ldp	x29, x30, [sp], #96             // 16-byte Folded Reload
	ret
.Lfunc_end28:
	.size	"arms::stem_of", .Lfunc_end28-"arms::stem_of"
                                        // -- End function
	.section	".text.placing::entries::put_each","ax",@progbits
	.p2align	2                               // -- Begin function placing::entries::put_each
	.type	"placing::entries::put_each",@function
"placing::entries::put_each":           // @"placing::entries::put_each"
// %bb.0:                               // %start
	cbz	x4, .LBB29_19
// %bb.1:                               // %join.5.lr.ph
	mov	x8, xzr
	sub	x9, x5, #24
	b	.LBB29_4
.LBB29_2:                               // %else.7.i.i
                                        //   in Loop: Header=BB29_4 Depth=1
	stp	x11, x1, [x12]
	add	x7, x7, #1
	str	x10, [x12, #16]
.LBB29_3:                               // %"placing::entries::put_in.exit"
                                        //   in Loop: Header=BB29_4 Depth=1
	add	x8, x8, #1
	cmp	x8, x4
	b.eq	.LBB29_19
.LBB29_4:                               // %join.5
                                        // =>This Loop Header: Depth=1
                                        //     Child Loop BB29_14 Depth 2
                                        //     Child Loop BB29_7 Depth 2
	add	x10, x8, x3
	cmp	x7, x6
	ldr	x11, [x2, x10, lsl #3]
	b.hs	.LBB29_10
// %bb.5:                               // %then.1.i
                                        //   in Loop: Header=BB29_4 Depth=1
	cbz	x7, .LBB29_9
// %bb.6:                               // %join.5.i.i.preheader
                                        //   in Loop: Header=BB29_4 Depth=1
	mov	w12, #24                        // =0x18
	mov	x13, x7
	madd	x12, x7, x12, x5
.LBB29_7:                               // %join.5.i.i
                                        //   Parent Loop BB29_4 Depth=1
                                        // =>  This Inner Loop Header: Depth=2
	ldur	x14, [x12, #-24]
	cmp	x14, x11
	cset	w15, lo
	cmp	x11, x14
	cset	w16, lo
	cmp	w0, #0
	csel	w15, w15, w16, ne
	cmp	w15, #1
	b.ne	.LBB29_2
// %bb.8:                               // %then.6.i.i
                                        //   in Loop: Header=BB29_7 Depth=2
	ldur	q0, [x12, #-16]
	sub	x13, x13, #1
	str	x14, [x12]
	stur	q0, [x12, #8]
	sub	x12, x12, #24
	cbnz	x13, .LBB29_7
.LBB29_9:                               // %after.1.i.i
                                        //   in Loop: Header=BB29_4 Depth=1
	stp	x11, x1, [x5]
	add	x7, x7, #1
	b	.LBB29_17
.LBB29_10:                              // %join.3.i
                                        //   in Loop: Header=BB29_4 Depth=1
	cbz	x7, .LBB29_3
// %bb.11:                              // %join.6.i
                                        //   in Loop: Header=BB29_4 Depth=1
	sub	x12, x7, #1
	mov	w13, #24                        // =0x18
	mul	x13, x12, x13
	ldr	x13, [x5, x13]
	cmp	x13, x11
	cset	w14, lo
	cmp	x11, x13
	cset	w13, lo
	cmp	w0, #0
	csel	w13, w14, w13, ne
	cmp	w13, #1
	b.ne	.LBB29_3
// %bb.12:                              // %then.7.i
                                        //   in Loop: Header=BB29_4 Depth=1
	cbz	x12, .LBB29_16
// %bb.13:                              // %join.5.i7.i.preheader
                                        //   in Loop: Header=BB29_4 Depth=1
	mov	w12, #24                        // =0x18
	mov	w13, #1                         // =0x1
	madd	x12, x7, x12, x9
.LBB29_14:                              // %join.5.i7.i
                                        //   Parent Loop BB29_4 Depth=1
                                        // =>  This Inner Loop Header: Depth=2
	ldur	x14, [x12, #-24]
	cmp	x14, x11
	cset	w15, lo
	cmp	x11, x14
	cset	w16, lo
	cmp	w0, #0
	csel	w15, w15, w16, ne
	cmp	w15, #1
	b.ne	.LBB29_18
// %bb.15:                              // %then.6.i21.i
                                        //   in Loop: Header=BB29_14 Depth=2
	ldur	q0, [x12, #-16]
	add	x13, x13, #1
	str	x14, [x12]
	cmp	x7, x13
	stur	q0, [x12, #8]
	sub	x12, x12, #24
	b.ne	.LBB29_14
.LBB29_16:                              // %after.1.i31.i
                                        //   in Loop: Header=BB29_4 Depth=1
	stp	x11, x1, [x5]
.LBB29_17:                              // %"placing::entries::put_in.exit"
                                        //   in Loop: Header=BB29_4 Depth=1
	str	x10, [x5, #16]
	b	.LBB29_3
.LBB29_18:                              // %else.7.i16.i
                                        //   in Loop: Header=BB29_4 Depth=1
	stp	x11, x1, [x12]
	str	x10, [x12, #16]
	b	.LBB29_3
.LBB29_19:                              // %after.1
	mov	x0, x7
	ret
.Lfunc_end29:
	.size	"placing::entries::put_each", .Lfunc_end29-"placing::entries::put_each"
                                        // -- End function
	.section	.rodata.cst16,"aM",@progbits,16
	.p2align	4, 0x0                          // -- Begin function library::product
.LCPI30_0:
	.xword	0                               // 0x0
	.xword	1                               // 0x1
	.section	".text.library::product","ax",@progbits
	.p2align	2
	.type	"library::product",@function
"library::product":                     // @"library::product"
// %bb.0:                               // %start
	stp	x29, x30, [sp, #-96]!           // 16-byte Folded Spill
	stp	x28, x27, [sp, #16]             // 16-byte Folded Spill
	mov	x29, sp
	stp	x26, x25, [sp, #32]             // 16-byte Folded Spill
	stp	x24, x23, [sp, #48]             // 16-byte Folded Spill
	stp	x22, x21, [sp, #64]             // 16-byte Folded Spill
	stp	x20, x19, [sp, #80]             // 16-byte Folded Spill
	sub	sp, sp, #3072
	str	xzr, [sp], #-16
	movi	v0.2d, #0000000000000000
	mov	x20, x2
	mov	x21, x1
	mov	x19, x0
	add	x0, sp, #416
	mov	w1, wzr
	mov	w2, #528                        // =0x210
	mov	x28, x3
	str	xzr, [sp, #400]
	stp	q0, q0, [sp, #176]
	stp	q0, q0, [sp, #208]
	stp	q0, q0, [sp, #240]
	stp	q0, q0, [sp, #272]
	stp	q0, q0, [sp, #304]
	stp	q0, q0, [sp, #336]
	stp	q0, q0, [sp, #368]
	str	q0, [sp, #160]
	bl	memset
	add	x0, sp, #160
	add	x3, sp, #416
	mov	x1, x21
	mov	x2, x20
	mov	w4, #528                        // =0x210
	bl	"catalogue::read_library"
	ldrb	w8, [sp, #160]
	cbz	w8, .LBB30_2
// %bb.1:                               // %arm.2
	movi	v1.2d, #0000000000000000
	ldur	q0, [sp, #168]
	mov	w8, #1                          // =0x1
	str	x8, [x19]
	stur	q0, [x19, #8]
	str	xzr, [x19, #56]
	stur	q1, [x19, #24]
	stur	q1, [x19, #40]
	b	.LBB30_26
.LBB30_2:                               // %arm.1
	movi	v0.2d, #0000000000000000
	ldr	x8, [sp, #400]
	cmp	x8, x28
	b.ls	.LBB30_5
// %bb.3:                               // %join.7
	ldp	x8, x14, [sp, #320]
	ldrb	w17, [sp, #336]
	ldp	x15, x16, [sp, #184]
	ldrb	w23, [sp, #337]
	ldr	x22, [sp, #344]
	ldrb	w18, [sp, #352]
	ldrb	w7, [sp, #353]
	cmp	x20, x8
	ldr	x6, [sp, #360]
	ldrb	w0, [sp, #368]
	ldrb	w5, [sp, #369]
	ldr	x4, [sp, #376]
	ldrb	w1, [sp, #384]
	ldrb	w3, [sp, #385]
	ldr	x2, [sp, #392]
	str	q0, [sp, #1504]
	str	q0, [sp, #1520]
	str	q0, [sp, #1536]
	str	q0, [sp, #1552]
	str	q0, [sp, #1568]
	str	q0, [sp, #1584]
	str	q0, [sp, #1600]
	str	q0, [sp, #1616]
	str	q0, [sp, #1632]
	str	q0, [sp, #1648]
	str	q0, [sp, #1664]
	str	q0, [sp, #1680]
	str	q0, [sp, #1696]
	str	q0, [sp, #1712]
	str	q0, [sp, #1728]
	str	q0, [sp, #1744]
	str	q0, [sp, #1760]
	str	q0, [sp, #1776]
	str	q0, [sp, #1792]
	str	q0, [sp, #1808]
	str	q0, [sp, #1824]
	str	q0, [sp, #1488]
	str	q0, [sp, #1472]
	str	q0, [sp, #1456]
	str	q0, [sp, #1440]
	str	q0, [sp, #1424]
	str	q0, [sp, #1408]
	str	q0, [sp, #1392]
	b.hs	.LBB30_6
// %bb.4:
	mov	x27, xzr
	mov	x8, x20
	b	.LBB30_11
.LBB30_5:                               // %then.5
	stp	q0, q0, [x19]
	stp	q0, q0, [x19, #32]
	b	.LBB30_26
.LBB30_6:                               // %join.3.i.i
	cmp	x8, x20
	add	x9, x8, #4
	b.hs	.LBB30_9
// %bb.7:                               // %"records::byte_at.exit.i.i.i"
	add	x11, x8, #1
	ldrb	w10, [x21, x8]
	cmp	x11, x20
	b.hs	.LBB30_10
// %bb.8:                               // %then.1.i6.i.i.i
	ldrb	w8, [x21, x11]
	orr	x10, x10, x8, lsl #8
	b	.LBB30_10
.LBB30_9:
	mov	x10, xzr
.LBB30_10:                              // %"records::le16_at.exit.i.i"
	subs	x11, x20, x9
	csel	x8, x20, x9, lo
	cmp	x11, x10
	csel	x10, x11, x10, lo
	cmp	x20, x9
	csel	x27, xzr, x10, lo
.LBB30_11:                              // %"records::payload_at.exit.i"
	strb	w23, [sp, #1969]
	strb	w7, [sp, #1985]
	strb	w5, [sp, #2001]
	strb	w3, [sp, #2017]
	str	q0, [sp, #2496]
	str	q0, [sp, #2512]
	str	x14, [sp, #120]                 // 8-byte Spill
	stp	w18, w17, [sp, #112]            // 8-byte Folded Spill
	stp	w1, w0, [sp, #104]              // 8-byte Folded Spill
	str	x2, [sp, #96]                   // 8-byte Spill
	str	w3, [sp, #92]                   // 4-byte Spill
	str	x4, [sp, #80]                   // 8-byte Spill
	str	w5, [sp, #76]                   // 4-byte Spill
	str	x6, [sp, #152]                  // 8-byte Spill
	str	w7, [sp, #144]                  // 4-byte Spill
	str	x22, [sp, #136]                 // 8-byte Spill
	str	w23, [sp, #132]                 // 4-byte Spill
	cbz	x14, .LBB30_16
// %bb.12:                              // %join.7.i.i.preheader
	add	x9, sp, #1968
	add	x10, x9, x14, lsl #4
	sub	x9, x14, #1
	sub	x10, x10, #15
.LBB30_13:                              // %join.7.i.i
                                        // =>This Inner Loop Header: Depth=1
	ldrb	w11, [x10], #-16
	cbz	x11, .LBB30_27
// %bb.14:                              // %ok.9.i.i
                                        //   in Loop: Header=BB30_13 Depth=1
	udiv	x12, x28, x11
	add	x13, sp, #2496
	msub	x11, x12, x11, x28
	mov	x28, x12
	str	x11, [x13, x9, lsl #3]
	sub	x9, x9, #1
	cmn	x9, #1
	b.ne	.LBB30_13
// %bb.15:                              // %"library::choice::choose.exit.loopexit.i"
	ldr	x9, [sp, #2504]
	ldr	x23, [sp, #2496]
	mov	x28, x15
	str	x9, [sp, #40]                   // 8-byte Spill
	ldr	x9, [sp, #2512]
	str	x9, [sp, #48]                   // 8-byte Spill
	ldr	x9, [sp, #2520]
	str	x9, [sp, #56]                   // 8-byte Spill
	b	.LBB30_17
.LBB30_16:
	mov	x28, x15
	stp	xzr, xzr, [sp, #48]             // 16-byte Folded Spill
	mov	x23, xzr
	str	xzr, [sp, #40]                  // 8-byte Spill
.LBB30_17:                              // %"library::choice::choose.exit.i"
	add	x24, sp, #160
	sub	x10, x29, #144
	add	x0, sp, #1968
	ldur	q0, [x24, #104]
	ldur	q1, [x24, #120]
	ldur	x9, [x24, #152]
	mov	w1, wzr
	mov	w2, #528                        // =0x210
	stur	x16, [x29, #-144]
	stur	q0, [x10, #72]
	ldur	q0, [x24, #136]
	add	x26, sp, #1848
	stur	q1, [x10, #88]
	ldur	q1, [x24, #40]
	add	x22, x21, x8
	stur	q0, [x10, #104]
	ldur	q0, [x24, #56]
	add	x25, sp, #1968
	stur	q1, [x10, #8]
	ldur	q1, [x24, #72]
	stur	q0, [x10, #24]
	ldur	q0, [x24, #88]
	stur	q1, [x10, #40]
	stur	x9, [x29, #-24]
	stur	q0, [x10, #56]
	str	x16, [sp, #64]                  // 8-byte Spill
	bl	memset
	mov	w8, #65536                      // =0x10000
	ldr	w7, [sp, #132]                  // 4-byte Reload
	add	x0, sp, #1848
	str	x8, [sp, #1960]
	add	x8, sp, #1960
	sub	x3, x29, #144
	stp	x8, x25, [sp, #16]
	ldr	x8, [sp, #136]                  // 8-byte Reload
	mov	x1, x21
	mov	x2, x20
	mov	x4, x28
	mov	x5, x22
	mov	x6, x27
	add	x25, sp, #1960
	stp	x8, x23, [sp]
	bl	"stock::held_arm"
	ldp	q0, q1, [x26, #64]
	add	x8, sp, #1968
	ldr	q2, [x26, #96]
	stp	x25, x8, [sp, #16]
	add	x0, sp, #1848
	ldr	x8, [sp, #40]                   // 8-byte Reload
	ldr	w7, [sp, #144]                  // 4-byte Reload
	sub	x3, x29, #144
	str	q0, [sp, #2560]
	mov	x1, x21
	mov	x2, x20
	str	q1, [sp, #2576]
	ldp	q0, q1, [x26]
	str	q2, [sp, #2592]
	mov	x4, x28
	mov	x5, x22
	str	x8, [sp, #8]
	ldr	x8, [sp, #152]                  // 8-byte Reload
	mov	x6, x27
	str	q0, [sp, #2496]
	ldp	q0, q2, [x26, #32]
	str	q1, [sp, #2512]
	add	x23, sp, #1968
	add	x25, sp, #1960
	str	x8, [sp]
	str	q2, [sp, #2544]
	str	q0, [sp, #2528]
	bl	"stock::held_arm"
	ldp	q0, q1, [x26, #64]
	add	x0, sp, #1848
	ldr	q2, [x26, #96]
	stp	x25, x23, [sp, #16]
	sub	x3, x29, #144
	ldr	w25, [sp, #76]                  // 4-byte Reload
	ldr	x8, [sp, #48]                   // 8-byte Reload
	mov	x1, x21
	str	q0, [sp, #2672]
	ldr	x23, [sp, #80]                  // 8-byte Reload
	mov	x2, x20
	str	q1, [sp, #2688]
	ldp	q0, q1, [x26]
	str	q2, [sp, #2704]
	mov	x4, x28
	mov	x5, x22
	mov	x6, x27
	mov	w7, w25
	stp	x23, x8, [sp]
	str	q0, [sp, #2608]
	ldp	q0, q2, [x26, #32]
	str	q1, [sp, #2624]
	str	q2, [sp, #2656]
	str	q0, [sp, #2640]
	bl	"stock::held_arm"
	ldp	q0, q1, [x26, #64]
	add	x8, sp, #1968
	ldr	q2, [x26, #96]
	str	x8, [sp, #24]
	add	x8, sp, #1960
	str	x8, [sp, #16]
	ldr	x8, [sp, #56]                   // 8-byte Reload
	mov	x4, x28
	str	q0, [sp, #2784]
	mov	x5, x22
	add	x0, sp, #1848
	str	q1, [sp, #2800]
	ldp	q0, q1, [x26]
	str	q2, [sp, #2816]
	sub	x3, x29, #144
	mov	x1, x21
	stp	x28, x22, [sp, #48]             // 16-byte Folded Spill
	ldr	w28, [sp, #92]                  // 4-byte Reload
	ldr	x22, [sp, #96]                  // 8-byte Reload
	str	q0, [sp, #2720]
	ldp	q0, q2, [x26, #32]
	mov	x2, x20
	mov	x6, x27
	mov	w7, w28
	str	q1, [sp, #2736]
	str	q2, [sp, #2768]
	str	q0, [sp, #2752]
	stp	x22, x8, [sp]
	bl	"stock::held_arm"
	ldp	q0, q1, [x26, #64]
	add	x0, sp, #944
	ldr	q2, [x26, #96]
	add	x1, sp, #2496
	mov	w2, #448                        // =0x1c0
	str	q0, [sp, #2896]
	str	q1, [sp, #2912]
	ldp	q0, q1, [x26]
	str	q2, [sp, #2928]
	str	q0, [sp, #2832]
	ldp	q0, q2, [x26, #32]
	str	q1, [sp, #2848]
	str	q2, [sp, #2880]
	str	q0, [sp, #2864]
	bl	memcpy
	add	x0, sp, #1968
	add	x1, sp, #944
	mov	w2, #448                        // =0x1c0
	bl	memcpy
	ldur	w8, [x24, #178]
	ldr	w9, [sp, #132]                  // 4-byte Reload
	movi	v0.2d, #0000000000000000
	ldr	x11, [sp, #64]                  // 8-byte Reload
	strb	w25, [sp, #1881]
	stur	w8, [x26, #2]
	ldurh	w8, [x24, #182]
	strb	w9, [sp, #1849]
	ldr	w9, [sp, #144]                  // 4-byte Reload
	strh	w8, [sp, #1854]
	ldr	x8, [sp, #136]                  // 8-byte Reload
	strb	w9, [sp, #1865]
	ldurh	w9, [x24, #198]
	str	x8, [sp, #1856]
	ldur	w8, [x24, #194]
	strh	w9, [sp, #1870]
	ldur	w9, [x24, #210]
	stur	w8, [x26, #18]
	ldr	x8, [sp, #152]                  // 8-byte Reload
	ldp	w13, w12, [sp, #112]            // 8-byte Folded Reload
	str	x8, [sp, #1872]
	ldurh	w8, [x24, #214]
	ldp	w15, w14, [sp, #104]            // 8-byte Folded Reload
	strh	w8, [sp, #1886]
	ldurh	w8, [x24, #230]
	stur	w9, [x26, #34]
	ldur	w9, [x24, #226]
	strh	w8, [sp, #1902]
	and	w8, w11, #0xffff
	strb	w12, [sp, #1848]
	strb	w13, [sp, #1864]
	strb	w14, [sp, #1880]
	str	x23, [sp, #1888]
	strb	w15, [sp, #1896]
	strb	w28, [sp, #1897]
	stur	w9, [x26, #50]
	str	x22, [sp, #1904]
	str	q0, [sp, #2816]
	str	q0, [sp, #2800]
	str	q0, [sp, #2784]
	str	q0, [sp, #2768]
	str	q0, [sp, #2752]
	str	q0, [sp, #2736]
	str	q0, [sp, #2720]
	str	q0, [sp, #2704]
	str	q0, [sp, #2688]
	str	q0, [sp, #2672]
	str	q0, [sp, #2656]
	str	q0, [sp, #2640]
	str	q0, [sp, #2624]
	str	q0, [sp, #2608]
	str	q0, [sp, #2592]
	str	q0, [sp, #2576]
	str	q0, [sp, #2560]
	str	q0, [sp, #2544]
	str	q0, [sp, #2528]
	str	q0, [sp, #2512]
	str	q0, [sp, #2496]
	cbz	x27, .LBB30_20
// %bb.18:                              // %"records::byte_at.exit.i.i7.i"
	ldr	x5, [sp, #56]                   // 8-byte Reload
	cmp	x27, #1
	ldrb	w9, [x5]
	b.ne	.LBB30_22
// %bb.19:
	mov	w10, wzr
	b	.LBB30_23
.LBB30_20:
	ldr	x22, [sp, #120]                 // 8-byte Reload
	ldr	x5, [sp, #56]                   // 8-byte Reload
	cmp	wzr, w8
	b.eq	.LBB30_24
.LBB30_21:                              // %join.3.i16.i
	ldur	q0, [x24, #104]
	sub	x9, x29, #144
	ldur	q1, [x24, #120]
	ldur	x8, [x24, #152]
	ldr	x4, [sp, #48]                   // 8-byte Reload
	add	x0, sp, #2496
	stur	q0, [x9, #72]
	ldur	q0, [x24, #136]
	sub	x3, x29, #144
	stur	q1, [x9, #88]
	ldur	q1, [x24, #40]
	add	x7, sp, #1848
	stur	q0, [x9, #104]
	ldur	q0, [x24, #56]
	mov	x1, x21
	stur	q1, [x9, #8]
	ldur	q1, [x24, #72]
	mov	x2, x20
	stur	q0, [x9, #24]
	ldur	q0, [x24, #88]
	mov	x6, x27
	stur	q1, [x9, #40]
	stur	x11, [x29, #-144]
	stur	x8, [x29, #-24]
	stur	q0, [x9, #56]
	bl	"stock::core_at"
	b	.LBB30_25
.LBB30_22:                              // %then.1.i6.i.i10.i
	ldrb	w10, [x5, #1]
.LBB30_23:                              // %"records::byte_at.exit9.i.i.i"
	ldr	x22, [sp, #120]                 // 8-byte Reload
	orr	w9, w9, w10, lsl #8
	cmp	w9, w8
	b.ne	.LBB30_21
.LBB30_24:                              // %then.1.i.i
	orr	w8, w12, w13, lsl #8
	add	x0, sp, #2496
	add	x1, sp, #416
	orr	w8, w8, w14, lsl #16
	orr	w2, w8, w15, lsl #24
	bl	"arms::core_in"
.LBB30_25:                              // %"library::fields_at.exit"
	add	x0, sp, #1504
	add	x1, sp, #2496
	mov	w2, #336                        // =0x150
	bl	memcpy
	sub	x3, x22, #1
	mov	w8, #112                        // =0x70
	add	x9, sp, #1968
	madd	x8, x3, x8, x9
	add	x0, sp, #1392
	add	x1, sp, #1504
	add	x2, sp, #944
	ldr	x9, [x8, #88]
	ldr	x25, [x8]
	ldp	x26, x27, [x8, #16]
	ldp	x28, x23, [x8, #32]
	str	x9, [sp, #136]                  // 8-byte Spill
	ldp	x20, x21, [x8, #56]
	ldp	x22, x24, [x8, #72]
	ldp	x9, x8, [x8, #96]
	stp	x9, x8, [sp, #144]              // 16-byte Folded Spill
	bl	"arms::stem_of"
	ldr	x9, [sp, #1408]
	ldr	x10, [sp, #1416]
	and	x3, x26, #0xfffffffffffffff
	ldr	x16, [sp, #1456]
	ldr	x13, [sp, #1448]
	and	x4, x27, #0xfffffffffffffff
	and	x14, x9, #0xfffffffffffffff
	and	x15, x10, #0xfffffffffffffff
	ldr	x17, [sp, #1464]
	and	x16, x16, #0x1fffffff
	and	x6, x22, #0x1fffffff
	add	x14, x14, x3
	and	x3, x24, #0x1fffffff
	add	x15, x15, x4
	ldr	x18, [sp, #1472]
	and	x13, x13, #0x1fffffff
	and	x17, x17, #0x1fffffff
	and	x5, x20, #0x1fffffff
	and	x7, x21, #0x1fffffff
	umaddl	x14, w16, w6, x14
	add	x13, x17, x13
	umaddl	x15, w16, w3, x15
	and	x18, x18, #0x1fffffff
	add	x20, x6, x5
	umaddl	x14, w17, w7, x14
	ldr	x8, [sp, #1392]
	ldr	x11, [sp, #1424]
	umaddl	x15, w17, w5, x15
	add	x17, x3, x7
	ldr	x12, [sp, #1432]
	umaddl	x14, w13, w3, x14
	ldr	x1, [sp, #1488]
	ldr	x2, [sp, #1496]
	umaddl	x13, w13, w6, x15
	adrp	x15, .LCPI30_0
	umaddl	x14, w18, w20, x14
	ldr	q0, [x15, :lo12:.LCPI30_0]
	ldp	x3, x15, [sp, #144]             // 16-byte Folded Reload
	umaddl	x13, w18, w17, x13
	and	x8, x8, #0xfffffffffffffff
	and	x10, x11, #0xfffffffffffffff
	ldr	x0, [sp, #1480]
	and	x9, x12, #0xfffffffffffffff
	and	x11, x25, #0xfffffffffffffff
	and	x12, x28, #0xfffffffffffffff
	and	x1, x1, #0x1fffffff
	and	x16, x2, #0x1fffffff
	ldr	x2, [sp, #136]                  // 8-byte Reload
	and	x3, x3, #0x1fffffff
	and	x21, x23, #0xfffffffffffffff
	and	x15, x15, #0x1fffffff
	add	x12, x3, x12
	add	x10, x10, x1
	add	x8, x8, x11
	add	x11, x13, x14
	and	x0, x0, #0x1fffffff
	and	x2, x2, #0x1fffffff
	add	x10, x12, x10
	stp	x8, x11, [x19, #16]
	cmp	x9, x21
	add	x8, x15, x16
	umaddl	x10, w0, w2, x10
	csel	x9, x9, x21, hi
	add	x11, x8, #1
	str	q0, [x19]
	cmp	x9, x11
	stp	x14, x13, [x19, #32]
	csinc	x8, x9, x8, hi
	stp	x10, x8, [x19, #48]
.LBB30_26:                              // %then.5
	add	sp, sp, #3088
	ldp	x20, x19, [sp, #80]             // 16-byte Folded Reload
	ldp	x22, x21, [sp, #64]             // 16-byte Folded Reload
	ldp	x24, x23, [sp, #48]             // 16-byte Folded Reload
	ldp	x26, x25, [sp, #32]             // 16-byte Folded Reload
	ldp	x28, x27, [sp, #16]             // 16-byte Folded Reload
	ldp	x29, x30, [sp], #96             // 16-byte Folded Reload
	ret
.LBB30_27:                              // %trap.8.i.i
	brk	#0x1
.Lfunc_end30:
	.size	"library::product", .Lfunc_end30-"library::product"
                                        // -- End function
	.section	.rodata.cst8,"aM",@progbits,8
	.p2align	3, 0x0                          // -- Begin function compose::reading::read_in
.LCPI31_0:
	.hword	2                               // 0x2
	.hword	2                               // 0x2
	.hword	0                               // 0x0
	.hword	6                               // 0x6
	.section	".text.compose::reading::read_in","ax",@progbits
	.p2align	2
	.type	"compose::reading::read_in",@function
"compose::reading::read_in":            // @"compose::reading::read_in"
// %bb.0:                               // %start
	sub	sp, sp, #320
	movi	v0.2d, #0000000000000000
	adrp	x8, .LCPI31_0
	stp	x22, x21, [sp, #288]            // 16-byte Folded Spill
	mov	x21, x4
	mov	x22, x3
	stp	x20, x19, [sp, #304]            // 16-byte Folded Spill
	mov	x19, x0
	add	x0, sp, #16
	mov	x3, sp
	mov	x4, x22
	mov	x5, x21
	stp	x29, x30, [sp, #224]            // 16-byte Folded Spill
	stp	q0, q0, [sp, #32]
	add	x29, sp, #224
	mov	x20, x2
	stp	q0, q0, [sp, #64]
	stp	q0, q0, [sp, #96]
	stp	q0, q0, [sp, #128]
	stp	q0, q0, [sp, #160]
	str	q0, [sp, #16]
	ldr	d0, [x8, :lo12:.LCPI31_0]
	str	x28, [sp, #240]                 // 8-byte Spill
	stp	x26, x25, [sp, #256]            // 16-byte Folded Spill
	stp	x24, x23, [sp, #272]            // 16-byte Folded Spill
	mov	x23, x1
	add	x24, sp, #16
	str	xzr, [sp, #192]
	strh	wzr, [sp, #8]
	str	d0, [sp]
	bl	"compose::blocks::open_deck"
	ldrb	w8, [sp, #16]
	cbz	w8, .LBB31_3
// %bb.1:                               // %arm.2
	ldur	q0, [sp, #24]
	ldur	q1, [x24, #120]
	strb	w8, [x19]
.LBB31_2:                               // %common.ret
	stur	q0, [x19, #8]
	ldur	q0, [x24, #136]
	stur	q1, [x19, #120]
	ldur	q1, [x24, #152]
	stur	q0, [x19, #136]
	ldur	q0, [x24, #168]
	stur	q1, [x19, #152]
	ldur	q1, [x24, #56]
	stur	q0, [x19, #168]
	ldur	q0, [x24, #72]
	stur	q1, [x19, #56]
	ldur	q1, [x24, #88]
	stur	q0, [x19, #72]
	ldur	q0, [x24, #104]
	stur	q1, [x19, #88]
	ldur	q1, [x24, #24]
	stur	q0, [x19, #104]
	ldur	q0, [x24, #40]
	stur	q1, [x19, #24]
	stur	q0, [x19, #40]
	b	.LBB31_14
.LBB31_3:                               // %join.4
	ldr	x25, [sp, #176]
	ldr	x26, [sp, #192]
	mov	x4, xzr
	mov	x9, x20
	stp	xzr, xzr, [x29, #-24]
	cmp	x20, x25
	stur	xzr, [x29, #-8]
	b.lo	.LBB31_9
// %bb.4:                               // %join.3.i.i
	cmp	x25, x20
	add	x8, x25, #4
	b.hs	.LBB31_7
// %bb.5:                               // %"records::byte_at.exit.i.i.i"
	add	x9, x25, #1
	ldrb	w10, [x23, x25]
	cmp	x9, x20
	b.hs	.LBB31_8
// %bb.6:                               // %then.1.i6.i.i.i
	ldrb	w9, [x23, x9]
	orr	x10, x10, x9, lsl #8
	b	.LBB31_8
.LBB31_7:
	mov	x10, xzr
.LBB31_8:                               // %"records::le16_at.exit.i.i"
	subs	x11, x20, x8
	csel	x9, x20, x8, lo
	cmp	x11, x10
	csel	x10, x11, x10, lo
	cmp	x20, x8
	csel	x4, xzr, x10, lo
.LBB31_9:                               // %"compose::reading::assembly_reply.exit"
	sub	x0, x29, #24
	add	x3, x23, x9
	mov	x1, x22
	mov	x2, x21
	bl	"shelf::check"
	ldurb	w8, [x29, #-24]
	cbz	w8, .LBB31_11
// %bb.10:                              // %arm.6
	ldur	x9, [x29, #-8]
	strb	w8, [x19]
	mov	w8, #6                          // =0x6
	movi	v0.2d, #0000000000000000
	madd	x8, x9, x8, x25
	ldur	x9, [x29, #-16]
	stur	q0, [x19, #24]
	stur	q0, [x19, #40]
	stur	q0, [x19, #56]
	stur	q0, [x19, #72]
	stur	q0, [x19, #88]
	stp	x9, x8, [x19, #8]
	b	.LBB31_13
.LBB31_11:                              // %join.7
	cmp	x26, x20
	b.hs	.LBB31_15
// %bb.12:                              // %arm.9
	movi	v0.2d, #0000000000000000
	mov	w8, #1                          // =0x1
	strb	w8, [x19]
	mov	w8, #11                         // =0xb
	stp	x8, x26, [x19, #8]
	stur	q0, [x19, #24]
	stur	q0, [x19, #40]
	stur	q0, [x19, #56]
	stur	q0, [x19, #72]
	stur	q0, [x19, #88]
.LBB31_13:                              // %arm.9
	stur	q0, [x19, #104]
	stur	q0, [x19, #120]
	stur	q0, [x19, #136]
	stur	q0, [x19, #152]
	stur	q0, [x19, #168]
.LBB31_14:                              // %common.ret
	ldp	x20, x19, [sp, #304]            // 16-byte Folded Reload
	ldr	x28, [sp, #240]                 // 8-byte Reload
	ldp	x22, x21, [sp, #288]            // 16-byte Folded Reload
	ldp	x24, x23, [sp, #272]            // 16-byte Folded Reload
	ldp	x26, x25, [sp, #256]            // 16-byte Folded Reload
	ldp	x29, x30, [sp, #224]            // 16-byte Folded Reload
	add	sp, sp, #320
	ret
.LBB31_15:                              // %join.10
	ldur	q0, [sp, #24]
	ldur	q1, [x24, #120]
	strb	wzr, [x19]
	b	.LBB31_2
.Lfunc_end31:
	.size	"compose::reading::read_in", .Lfunc_end31-"compose::reading::read_in"
                                        // -- End function
	.section	.rodata.cst16,"aM",@progbits,16
	.p2align	4, 0x0                          // -- Begin function whole::bonds
.LCPI32_0:
	.xword	1                               // 0x1
	.xword	9                               // 0x9
	.section	".text.whole::bonds","ax",@progbits
	.p2align	2
	.type	"whole::bonds",@function
"whole::bonds":                         // @"whole::bonds"
// %bb.0:                               // %start
	stp	x29, x30, [sp, #-96]!           // 16-byte Folded Spill
	stp	x28, x27, [sp, #16]             // 16-byte Folded Spill
	mov	x29, sp
	stp	x26, x25, [sp, #32]             // 16-byte Folded Spill
	stp	x24, x23, [sp, #48]             // 16-byte Folded Spill
	stp	x22, x21, [sp, #64]             // 16-byte Folded Spill
	stp	x20, x19, [sp, #80]             // 16-byte Folded Spill
	sub	sp, sp, #3072
	str	xzr, [sp]
	sub	sp, sp, #3072
	str	xzr, [sp]
	sub	sp, sp, #2720
	movi	v0.2d, #0000000000000000
	mov	x22, x2
	mov	x24, x1
	mov	x21, x0
	add	x0, sp, #208
	mov	w1, wzr
	mov	w2, #8448                       // =0x2100
	str	xzr, [sp]
	mov	x20, x4
	mov	x23, x3
	sub	x19, x29, #208
	stur	xzr, [x29, #-32]
	stp	q0, q0, [x29, #-208]
	stp	q0, q0, [x29, #-176]
	stp	q0, q0, [x29, #-144]
	stp	q0, q0, [x29, #-112]
	stp	q0, q0, [x29, #-80]
	stur	q0, [x29, #-48]
	bl	memset
	sub	x0, x29, #208
	add	x3, sp, #208
	mov	x1, x24
	mov	x2, x22
	mov	w4, #8448                       // =0x2100
	bl	"compose::reading::read_in"
	ldur	q0, [x19, #120]
	ldur	q1, [x19, #136]
	ldur	q2, [x19, #152]
	ldrb	w8, [x19]
	stp	q0, q1, [sp, #144]
	ldur	q0, [x19, #168]
	ldur	q1, [x19, #56]
	stp	q2, q0, [sp, #176]
	ldur	q0, [x19, #72]
	ldur	q2, [x19, #88]
	stp	q1, q0, [sp, #80]
	ldur	q0, [x19, #104]
	ldur	q1, [x19, #24]
	stp	q2, q0, [sp, #112]
	ldur	q2, [x19, #40]
	ldur	q0, [x19, #8]
	stp	q1, q2, [sp, #48]
	cbz	w8, .LBB32_2
// %bb.1:                               // %arm.2
	mov	w8, #1                          // =0x1
	stur	q0, [x21, #8]
	str	x8, [x21]
	b	.LBB32_74
.LBB32_2:                               // %arm.1
	ldp	x8, x9, [sp, #192]
	mov	x19, xzr
	stp	x23, x21, [sp, #8]              // 16-byte Folded Spill
	stp	x9, x8, [sp, #32]               // 16-byte Folded Spill
	cbz	x8, .LBB32_21
// %bb.3:                               // %join.5.lr.ph.i
	ldr	x27, [sp, #184]
	ldr	x25, [sp, #48]
	mov	x26, xzr
	mov	w21, #8                         // =0x8
	mov	x23, x24
	add	x8, x27, #4
	add	x9, x27, #1
	subs	x28, x22, x8
	csel	x8, x22, x8, lo
	str	x8, [sp, #24]                   // 8-byte Spill
	b	.LBB32_6
.LBB32_4:                               // %join.3.i.i
                                        //   in Loop: Header=BB32_6 Depth=1
	lsr	x8, x8, #47
	add	x9, x9, #6
	subs	x10, x22, x9
	and	x8, x8, #0x1fffe
	cmp	x10, x8
	csel	x8, x10, x8, lo
	cmp	x22, x9
	lsr	x8, x8, #1
	csel	x8, xzr, x8, lo
.LBB32_5:                               // %"assembly::bonds_part.exit.i"
                                        //   in Loop: Header=BB32_6 Depth=1
	cmp	x26, #0
	ldr	x10, [sp, #40]                  // 8-byte Reload
	add	x26, x26, #1
	cinc	x9, x19, ne
	add	x23, x23, #6
	add	x21, x21, #6
	cmp	x10, x26
	add	x19, x9, x8
	add	x9, x27, #1
	b.eq	.LBB32_21
.LBB32_6:                               // %join.5.i
                                        // =>This Inner Loop Header: Depth=1
	cmp	x22, x27
	b.hs	.LBB32_8
// %bb.7:                               //   in Loop: Header=BB32_6 Depth=1
	mov	x8, xzr
	mov	x9, x22
	mov	w10, #43691                     // =0xaaab
	mul	w10, w8, w10
	lsr	w10, w10, #18
	cmp	x26, x10
	b.hi	.LBB32_17
	b	.LBB32_13
.LBB32_8:                               // %join.3.i.i.i.i
                                        //   in Loop: Header=BB32_6 Depth=1
	cmp	x27, x22
	b.hs	.LBB32_11
// %bb.9:                               // %"records::byte_at.exit.i.i.i.i.i"
                                        //   in Loop: Header=BB32_6 Depth=1
	ldrb	w8, [x24, x27]
	cmp	x9, x22
	b.hs	.LBB32_12
// %bb.10:                              // %then.1.i6.i.i.i.i.i
                                        //   in Loop: Header=BB32_6 Depth=1
	add	x9, x27, #1
	ldrb	w9, [x24, x9]
	orr	x8, x8, x9, lsl #8
	b	.LBB32_12
.LBB32_11:                              //   in Loop: Header=BB32_6 Depth=1
	mov	x8, xzr
.LBB32_12:                              // %"records::le16_at.exit.i.i.i.i"
                                        //   in Loop: Header=BB32_6 Depth=1
	cmp	x28, x8
	add	x9, x27, #4
	csel	x8, x28, x8, lo
	cmp	x22, x9
	ldr	x9, [sp, #24]                   // 8-byte Reload
	csel	x8, xzr, x8, lo
	mov	w10, #43691                     // =0xaaab
	mul	w10, w8, w10
	lsr	w10, w10, #18
	cmp	x26, x10
	b.hi	.LBB32_17
.LBB32_13:                              // %join.3.i1.i.i.i
                                        //   in Loop: Header=BB32_6 Depth=1
	cmp	x21, x8
	b.ls	.LBB32_18
// %bb.14:                              // %join.6.i.i.i.i
                                        //   in Loop: Header=BB32_6 Depth=1
	sub	x10, x21, #6
	cmp	x10, x8
	b.hs	.LBB32_17
// %bb.15:                              // %"records::byte_at.exit.i.i5.i.i.i"
                                        //   in Loop: Header=BB32_6 Depth=1
	add	x9, x23, x9
	sub	x10, x21, #5
	ldrb	w3, [x9, #2]
	cmp	x10, x8
	b.hs	.LBB32_19
// %bb.16:                              // %then.1.i6.i.i11.i.i.i
                                        //   in Loop: Header=BB32_6 Depth=1
	ldrb	w8, [x9, #3]
	orr	x3, x3, x8, lsl #8
	b	.LBB32_19
.LBB32_17:                              //   in Loop: Header=BB32_6 Depth=1
	mov	x3, xzr
	b	.LBB32_19
.LBB32_18:                              // %then.4.i.i.i.i
                                        //   in Loop: Header=BB32_6 Depth=1
	add	x8, x23, x9
	ldrh	w3, [x8, #2]
.LBB32_19:                              // %"deck::block_at.exit.i"
                                        //   in Loop: Header=BB32_6 Depth=1
	add	x8, sp, #48
	add	x0, sp, #208
	mov	x2, x25
	orr	x1, x8, #0x8
	bl	"assembly::find_block"
	ldr	x8, [sp, #208]
	lsr	w9, w8, #16
	cmp	x22, x9
	b.hs	.LBB32_4
// %bb.20:                              //   in Loop: Header=BB32_6 Depth=1
	mov	x8, xzr
	b	.LBB32_5
.LBB32_21:                              // %"whole::bond_count.exit"
	ldr	x28, [sp, #8]                   // 8-byte Reload
	cmp	x20, x19, lsl #1
	b.hs	.LBB32_23
// %bb.22:                              // %then.5
	adrp	x8, .LCPI32_0
	ldr	q0, [x8, :lo12:.LCPI32_0]
	ldr	x8, [sp, #16]                   // 8-byte Reload
	str	q0, [x8]
	str	xzr, [x8, #16]
	b	.LBB32_74
.LBB32_23:                              // %join.7
	ldr	x21, [sp, #40]                  // 8-byte Reload
	add	x2, sp, #48
	mov	x0, x24
	mov	x1, x22
	mov	w3, w21
	bl	"whole::start_of"
	ldp	q0, q1, [sp, #144]
	ldr	q2, [sp, #176]
	str	x0, [sp, #24]                   // 8-byte Spill
	stur	q2, [x29, #-80]
	stp	q0, q1, [x29, #-112]
	ldp	q0, q1, [sp, #80]
	stp	q0, q1, [x29, #-176]
	ldp	q0, q2, [sp, #112]
	stp	q0, q2, [x29, #-144]
	ldp	q0, q1, [sp, #48]
	stp	q0, q1, [x29, #-208]
	cbz	x21, .LBB32_73
// %bb.24:                              // %join.5.lr.ph.i7
	mov	x26, xzr
	mov	x25, xzr
	b	.LBB32_27
.LBB32_25:                              // %"whole::put_bond.exit.i42.i.i"
                                        //   in Loop: Header=BB32_27 Depth=1
	add	x25, x25, #2
.LBB32_26:                              // %"whole::put_placed.exit.i"
                                        //   in Loop: Header=BB32_27 Depth=1
	ldr	x21, [sp, #40]                  // 8-byte Reload
	add	x26, x26, #1
	cmp	x26, x21
	b.eq	.LBB32_73
.LBB32_27:                              // %join.5.i8
                                        // =>This Loop Header: Depth=1
                                        //     Child Loop BB32_56 Depth 2
	ldp	q2, q0, [sp, #160]
	ldr	q1, [sp, #144]
	ldr	x8, [sp, #32]                   // 8-byte Reload
	str	q1, [sp, #304]
	stp	q2, q0, [sp, #320]
	ldp	q0, q1, [sp, #80]
	ldr	x27, [sp, #344]
	stp	x21, x8, [sp, #352]
	stp	q0, q1, [sp, #240]
	ldp	q0, q2, [sp, #112]
	cmp	x22, x27
	stp	q0, q2, [sp, #272]
	ldp	q0, q1, [sp, #48]
	stp	q0, q1, [sp, #208]
	b.hs	.LBB32_29
// %bb.28:                              //   in Loop: Header=BB32_27 Depth=1
	mov	x8, xzr
	mov	x9, x22
	mov	w10, #43691                     // =0xaaab
	ldr	x2, [sp, #208]
	mul	w10, w8, w10
	lsr	w10, w10, #18
	cmp	x26, x10
	b.hi	.LBB32_38
	b	.LBB32_34
.LBB32_29:                              // %join.3.i.i.i.i.i
                                        //   in Loop: Header=BB32_27 Depth=1
	cmp	x27, x22
	b.hs	.LBB32_32
// %bb.30:                              // %"records::byte_at.exit.i.i.i.i.i.i"
                                        //   in Loop: Header=BB32_27 Depth=1
	add	x9, x27, #1
	ldrb	w8, [x24, x27]
	cmp	x9, x22
	b.hs	.LBB32_33
// %bb.31:                              // %then.1.i6.i.i.i.i.i.i
                                        //   in Loop: Header=BB32_27 Depth=1
	ldrb	w9, [x24, x9]
	orr	x8, x8, x9, lsl #8
	b	.LBB32_33
.LBB32_32:                              //   in Loop: Header=BB32_27 Depth=1
	mov	x8, xzr
.LBB32_33:                              // %"records::le16_at.exit.i.i.i.i.i"
                                        //   in Loop: Header=BB32_27 Depth=1
	add	x10, x27, #4
	subs	x11, x22, x10
	csel	x9, x22, x10, lo
	cmp	x11, x8
	csel	x8, x11, x8, lo
	cmp	x22, x10
	csel	x8, xzr, x8, lo
	mov	w10, #43691                     // =0xaaab
	ldr	x2, [sp, #208]
	mul	w10, w8, w10
	lsr	w10, w10, #18
	cmp	x26, x10
	b.hi	.LBB32_38
.LBB32_34:                              // %join.3.i1.i.i.i.i
                                        //   in Loop: Header=BB32_27 Depth=1
	add	x10, x26, x26, lsl #1
	add	x9, x24, x9
	lsl	x10, x10, #1
	add	x11, x10, #8
	cmp	x11, x8
	add	x11, x10, #2
	b.ls	.LBB32_39
// %bb.35:                              // %join.6.i.i.i.i.i
                                        //   in Loop: Header=BB32_27 Depth=1
	cmp	x11, x8
	b.hs	.LBB32_38
// %bb.36:                              // %"records::byte_at.exit.i.i5.i.i.i.i"
                                        //   in Loop: Header=BB32_27 Depth=1
	add	x10, x10, #3
	ldrb	w3, [x9, x11]
	cmp	x10, x8
	b.hs	.LBB32_40
// %bb.37:                              // %then.1.i6.i.i11.i.i.i.i
                                        //   in Loop: Header=BB32_27 Depth=1
	ldrb	w8, [x9, x10]
	orr	x3, x3, x8, lsl #8
	b	.LBB32_40
.LBB32_38:                              //   in Loop: Header=BB32_27 Depth=1
	mov	x3, xzr
	b	.LBB32_40
.LBB32_39:                              // %then.4.i.i.i.i.i
                                        //   in Loop: Header=BB32_27 Depth=1
	ldrh	w3, [x9, x11]
.LBB32_40:                              // %"deck::block_at.exit.i.i"
                                        //   in Loop: Header=BB32_27 Depth=1
	sub	x8, x29, #208
	sub	x0, x29, #24
	orr	x1, x8, #0x8
	bl	"assembly::find_block"
	ldur	x8, [x29, #-24]
	lsr	w23, w8, #16
	cmp	x22, x23
	b.lo	.LBB32_42
// %bb.41:                              // %join.3.i.i.i
                                        //   in Loop: Header=BB32_27 Depth=1
	lsr	x8, x8, #47
	add	x9, x23, #6
	subs	x10, x22, x9
	and	x8, x8, #0x1fffe
	cmp	x10, x8
	csel	x21, x10, x8, lo
	cmp	x22, x9
	b.hs	.LBB32_53
.LBB32_42:                              // %"assembly::bonds_part.exit.thread.i.i"
                                        //   in Loop: Header=BB32_27 Depth=1
	add	x2, sp, #208
	mov	x0, x24
	mov	x1, x22
	mov	w3, w26
	bl	"whole::start_of"
	mov	x21, xzr
.LBB32_43:                              // %"whole::put_block.exit.i.i"
                                        //   in Loop: Header=BB32_27 Depth=1
	and	x8, x21, #0xfffffffffffffffe
	add	x25, x8, x25
	cbz	x26, .LBB32_26
// %bb.44:                              // %join.3.i10.i.i
                                        //   in Loop: Header=BB32_27 Depth=1
	cmp	x22, x27
	b.hs	.LBB32_50
// %bb.45:                              //   in Loop: Header=BB32_27 Depth=1
	mov	x8, xzr
	mov	x9, x22
	mov	w10, #43691                     // =0xaaab
	mul	w10, w8, w10
	lsr	w10, w10, #18
	cmp	x26, x10
	b.hi	.LBB32_63
.LBB32_46:                              // %join.3.i1.i.i32.i.i
                                        //   in Loop: Header=BB32_27 Depth=1
	add	x10, x26, x26, lsl #1
	lsl	x11, x10, #1
	add	x10, x11, #8
	cmp	x10, x8
	add	x10, x24, x9
	b.ls	.LBB32_60
// %bb.47:                              // %"records::le16_at.exit.i3.i.i.i.i"
                                        //   in Loop: Header=BB32_27 Depth=1
	add	x9, x11, #4
	cmp	x9, x8
	b.hs	.LBB32_70
// %bb.48:                              // %"records::byte_at.exit.i52.i.i.i.i.i"
                                        //   in Loop: Header=BB32_27 Depth=1
	add	x12, x11, #5
	cmp	x12, x8
	b.hs	.LBB32_71
// %bb.49:                              // %then.1.i6.i63.i.i.i.i.i
                                        //   in Loop: Header=BB32_27 Depth=1
	ldrb	w12, [x10, x12]
	ldrb	w9, [x10, x9]
	orr	w9, w9, w12, lsl #8
	add	x11, x11, #6
	cmp	x11, x8
	b.hs	.LBB32_64
	b	.LBB32_72
.LBB32_50:                              // %join.3.i.i.i14.i.i
                                        //   in Loop: Header=BB32_27 Depth=1
	cmp	x27, x22
	b.hs	.LBB32_61
// %bb.51:                              // %"records::byte_at.exit.i.i.i.i51.i.i"
                                        //   in Loop: Header=BB32_27 Depth=1
	add	x9, x27, #1
	ldrb	w8, [x24, x27]
	cmp	x9, x22
	b.hs	.LBB32_62
// %bb.52:                              // %then.1.i6.i.i.i.i57.i.i
                                        //   in Loop: Header=BB32_27 Depth=1
	ldrb	w9, [x24, x9]
	orr	x8, x8, x9, lsl #8
	b	.LBB32_62
.LBB32_53:                              // %"assembly::bonds_part.exit.i.i"
                                        //   in Loop: Header=BB32_27 Depth=1
	add	x2, sp, #208
	mov	x0, x24
	mov	x1, x22
	mov	w3, w26
	bl	"whole::start_of"
	cmp	x21, #2
	b.lo	.LBB32_43
// %bb.54:                              // %join.5.i.i.i.preheader
                                        //   in Loop: Header=BB32_27 Depth=1
	add	x8, x28, #2
	add	x9, x24, #7
	mov	x10, x25
	add	x8, x8, x25, lsl #1
	add	x9, x9, x23
	mov	x11, x21
	b	.LBB32_56
.LBB32_55:                              // %"whole::put_bond.exit.i.i.i"
                                        //   in Loop: Header=BB32_56 Depth=2
	sub	x11, x11, #2
	add	x9, x9, #2
	add	x8, x8, #4
	cmp	x11, #1
	add	x10, x10, #2
	b.ls	.LBB32_43
.LBB32_56:                              // %join.5.i.i.i
                                        //   Parent Loop BB32_27 Depth=1
                                        // =>  This Inner Loop Header: Depth=2
	ldrb	w12, [x9]
	cmp	x20, x10
	b.ls	.LBB32_58
// %bb.57:                              // %join.3.i.i.i8.i.i
                                        //   in Loop: Header=BB32_56 Depth=2
	ldurb	w13, [x9, #-1]
	add	w13, w0, w13
	sturh	w13, [x8, #-2]
	add	x13, x10, #1
	cmp	x20, x13
	b.ls	.LBB32_55
	b	.LBB32_59
.LBB32_58:                              // %"whole::put.exit.i.i.i.i"
                                        //   in Loop: Header=BB32_56 Depth=2
	add	x13, x10, #1
	cmp	x20, x13
	b.ls	.LBB32_55
.LBB32_59:                              // %join.3.i4.i.i.i.i
                                        //   in Loop: Header=BB32_56 Depth=2
	add	x12, x0, x12
	strh	w12, [x8]
	b	.LBB32_55
.LBB32_60:                              // %then.4.i.i.i36.i.i
                                        //   in Loop: Header=BB32_27 Depth=1
	add	x8, x10, x11
	ldrh	w9, [x8, #4]
	ldrb	w21, [x8, #6]
	ldrb	w23, [x8, #7]
	b	.LBB32_66
.LBB32_61:                              //   in Loop: Header=BB32_27 Depth=1
	mov	x8, xzr
.LBB32_62:                              // %"records::le16_at.exit.i.i.i17.i.i"
                                        //   in Loop: Header=BB32_27 Depth=1
	add	x10, x27, #4
	subs	x11, x22, x10
	csel	x9, x22, x10, lo
	cmp	x11, x8
	csel	x8, x11, x8, lo
	cmp	x22, x10
	csel	x8, xzr, x8, lo
	mov	w10, #43691                     // =0xaaab
	mul	w10, w8, w10
	lsr	w10, w10, #18
	cmp	x26, x10
	b.ls	.LBB32_46
.LBB32_63:                              //   in Loop: Header=BB32_27 Depth=1
	mov	w9, wzr
.LBB32_64:                              // %"deck::placement.exit.i.i.i"
                                        //   in Loop: Header=BB32_27 Depth=1
	mov	x21, xzr
.LBB32_65:                              // %"deck::placement.exit.i.i.i"
                                        //   in Loop: Header=BB32_27 Depth=1
	mov	x23, xzr
.LBB32_66:                              // %"deck::placement.exit.i.i.i"
                                        //   in Loop: Header=BB32_27 Depth=1
	sub	w3, w9, #1
	add	x2, sp, #208
	mov	x0, x24
	mov	x1, x22
	bl	"whole::start_of"
	mov	x27, x0
	add	x2, sp, #208
	mov	x0, x24
	mov	x1, x22
	mov	w3, w26
	bl	"whole::start_of"
	cmp	x20, x25
	b.ls	.LBB32_68
// %bb.67:                              // %join.3.i.i6.i.i.i
                                        //   in Loop: Header=BB32_27 Depth=1
	add	w8, w27, w21
	strh	w8, [x28, x25, lsl #1]
.LBB32_68:                              // %"whole::put.exit.i.i39.i.i"
                                        //   in Loop: Header=BB32_27 Depth=1
	add	x8, x25, #1
	cmp	x20, x8
	b.ls	.LBB32_25
// %bb.69:                              // %join.3.i4.i.i43.i.i
                                        //   in Loop: Header=BB32_27 Depth=1
	add	x9, x0, x23
	strh	w9, [x28, x8, lsl #1]
	b	.LBB32_25
.LBB32_70:                              //   in Loop: Header=BB32_27 Depth=1
	mov	w9, wzr
	add	x11, x11, #6
	cmp	x11, x8
	b.hs	.LBB32_64
	b	.LBB32_72
.LBB32_71:                              //   in Loop: Header=BB32_27 Depth=1
	ldrb	w9, [x10, x9]
	orr	w9, w9, wzr, lsl #8
	add	x11, x11, #6
	cmp	x11, x8
	b.hs	.LBB32_64
.LBB32_72:                              // %then.1.i.i.i.i.i.i
                                        //   in Loop: Header=BB32_27 Depth=1
	ldrb	w21, [x10, x11]
	b	.LBB32_65
.LBB32_73:                              // %"whole::put_all.exit"
	ldp	x8, x9, [sp, #16]               // 16-byte Folded Reload
	stp	xzr, x9, [x8]
	str	x19, [x8, #16]
.LBB32_74:                              // %common.ret
	add	sp, sp, #2, lsl #12             // =8192
	add	sp, sp, #672
	ldp	x20, x19, [sp, #80]             // 16-byte Folded Reload
	ldp	x22, x21, [sp, #64]             // 16-byte Folded Reload
	ldp	x24, x23, [sp, #48]             // 16-byte Folded Reload
	ldp	x26, x25, [sp, #32]             // 16-byte Folded Reload
	ldp	x28, x27, [sp, #16]             // 16-byte Folded Reload
	ldp	x29, x30, [sp], #96             // 16-byte Folded Reload
	ret
.Lfunc_end32:
	.size	"whole::bonds", .Lfunc_end32-"whole::bonds"
                                        // -- End function
	.section	".text.whole::start_of","ax",@progbits
	.p2align	2                               // -- Begin function whole::start_of
	.type	"whole::start_of",@function
"whole::start_of":                      // @"whole::start_of"
// %bb.0:                               // %start
	sub	sp, sp, #224
                                        // kill: def $w3 killed $w3 def $x3
	tst	w3, #0xffff
	stp	x29, x30, [sp, #128]            // 16-byte Folded Spill
	add	x29, sp, #128
	str	x27, [sp, #144]                 // 8-byte Spill
	stp	x26, x25, [sp, #160]            // 16-byte Folded Spill
	stp	x24, x23, [sp, #176]            // 16-byte Folded Spill
	stp	x22, x21, [sp, #192]            // 16-byte Folded Spill
	stp	x20, x19, [sp, #208]            // 16-byte Folded Spill
	b.eq	.LBB33_4
// %bb.1:                               // %join.5.lr.ph
	ldr	x10, [x2, #136]
	mov	x21, x2
	and	x22, x3, #0xffff
	ldr	x19, [x21], #8
	cmp	x1, x10
	b.hs	.LBB33_5
// %bb.2:                               // %join.5.us.preheader
	mov	x20, xzr
.LBB33_3:                               // %join.5.us
                                        // =>This Inner Loop Header: Depth=1
	ldp	q0, q1, [x21, #64]
	add	x0, x29, #24
	mov	x1, sp
	mov	x2, x19
	mov	x3, xzr
	stp	q0, q1, [sp, #64]
	ldp	q0, q2, [x21, #96]
	stp	q0, q2, [sp, #96]
	ldp	q1, q0, [x21]
	stp	q1, q0, [sp]
	ldp	q2, q0, [x21, #32]
	stp	q2, q0, [sp, #32]
	bl	"assembly::find_block"
	ldrh	w8, [x29, #28]
	subs	x22, x22, #1
	add	x20, x8, x20
	b.ne	.LBB33_3
	b	.LBB33_18
.LBB33_4:
	mov	x20, xzr
	b	.LBB33_18
.LBB33_5:                               // %join.5.lr.ph.split
	add	x9, x10, #4
	cmp	x1, x9
	csel	x8, x1, x9, lo
	cmp	x10, x1
	b.hs	.LBB33_16
// %bb.6:                               // %join.5.lr.ph.split.split.us
	add	x12, x10, #1
	ldrb	w10, [x0, x10]
	sub	x11, x1, x9
	cmp	x12, x1
	mov	x23, xzr
	mov	x20, xzr
	b.hs	.LBB33_19
// %bb.7:                               // %join.5.lr.ph.split.split.us.split.us
	ldrb	w12, [x0, x12]
	add	x8, x8, x0
	mov	w27, #8                         // =0x8
	add	x26, x8, #3
	orr	x10, x10, x12, lsl #8
	cmp	x11, x10
	csel	x10, x11, x10, lo
	cmp	x1, x9
	mov	w9, #43691                      // =0xaaab
	csel	x24, xzr, x10, lo
	mul	w9, w24, w9
	lsr	w25, w9, #18
	b	.LBB33_10
.LBB33_8:                               //   in Loop: Header=BB33_10 Depth=1
	mov	x3, xzr
.LBB33_9:                               // %"deck::block_at.exit.us39.us"
                                        //   in Loop: Header=BB33_10 Depth=1
	ldp	q0, q1, [x21, #64]
	add	x0, x29, #24
	mov	x1, sp
	mov	x2, x19
	stp	q0, q1, [sp, #64]
	ldp	q0, q2, [x21, #96]
	stp	q0, q2, [sp, #96]
	ldp	q1, q0, [x21]
	stp	q1, q0, [sp]
	ldp	q2, q0, [x21, #32]
	stp	q2, q0, [sp, #32]
	bl	"assembly::find_block"
	ldrh	w8, [x29, #28]
	add	x23, x23, #1
	add	x26, x26, #6
	cmp	x22, x23
	add	x27, x27, #6
	add	x20, x8, x20
	b.eq	.LBB33_18
.LBB33_10:                              // %join.5.us7.us
                                        // =>This Inner Loop Header: Depth=1
	cmp	x23, x25
	b.hi	.LBB33_8
// %bb.11:                              // %join.3.i1.i.i.us14.us
                                        //   in Loop: Header=BB33_10 Depth=1
	cmp	x27, x24
	b.ls	.LBB33_15
// %bb.12:                              // %join.6.i.i.i.us28.us
                                        //   in Loop: Header=BB33_10 Depth=1
	sub	x8, x27, #6
	cmp	x8, x24
	b.hs	.LBB33_8
// %bb.13:                              // %"records::byte_at.exit.i.i5.i.i.us30.us"
                                        //   in Loop: Header=BB33_10 Depth=1
	sub	x8, x27, #5
	ldurb	w3, [x26, #-1]
	cmp	x8, x24
	b.hs	.LBB33_9
// %bb.14:                              // %then.1.i6.i.i11.i.i.us36.us
                                        //   in Loop: Header=BB33_10 Depth=1
	ldrb	w8, [x26]
	orr	x3, x3, x8, lsl #8
	b	.LBB33_9
.LBB33_15:                              // %then.4.i.i.i.us19.us
                                        //   in Loop: Header=BB33_10 Depth=1
	ldurh	w3, [x26, #-1]
	b	.LBB33_9
.LBB33_16:                              // %join.5.preheader
	mov	x20, xzr
.LBB33_17:                              // %join.5
                                        // =>This Inner Loop Header: Depth=1
	ldp	q0, q1, [x21, #64]
	add	x0, x29, #24
	mov	x1, sp
	mov	x2, x19
	mov	x3, xzr
	stp	q0, q1, [sp, #64]
	ldp	q0, q2, [x21, #96]
	stp	q0, q2, [sp, #96]
	ldp	q1, q0, [x21]
	stp	q1, q0, [sp]
	ldp	q2, q0, [x21, #32]
	stp	q2, q0, [sp, #32]
	bl	"assembly::find_block"
	ldrh	w8, [x29, #28]
	subs	x22, x22, #1
	add	x20, x8, x20
	b.ne	.LBB33_17
.LBB33_18:                              // %after.1
	mov	x0, x20
	ldp	x20, x19, [sp, #208]            // 16-byte Folded Reload
	ldp	x22, x21, [sp, #192]            // 16-byte Folded Reload
	ldr	x27, [sp, #144]                 // 8-byte Reload
	ldp	x24, x23, [sp, #176]            // 16-byte Folded Reload
	ldp	x26, x25, [sp, #160]            // 16-byte Folded Reload
	ldp	x29, x30, [sp, #128]            // 16-byte Folded Reload
	add	sp, sp, #224
	ret
.LBB33_19:                              // %join.5.lr.ph.split.split.us.split
	cmp	x11, x10
	add	x8, x8, x0
	mov	w27, #8                         // =0x8
	csel	x10, x11, x10, lo
	cmp	x1, x9
	mov	w9, #171                        // =0xab
	csel	x24, xzr, x10, lo
	add	x26, x8, #3
	mul	w9, w24, w9
	lsr	w25, w9, #10
	b	.LBB33_22
.LBB33_20:                              //   in Loop: Header=BB33_22 Depth=1
	mov	x3, xzr
.LBB33_21:                              // %"deck::block_at.exit.us39"
                                        //   in Loop: Header=BB33_22 Depth=1
	ldp	q0, q1, [x21, #64]
	add	x0, x29, #24
	mov	x1, sp
	mov	x2, x19
	stp	q0, q1, [sp, #64]
	ldp	q0, q2, [x21, #96]
	stp	q0, q2, [sp, #96]
	ldp	q1, q0, [x21]
	stp	q1, q0, [sp]
	ldp	q2, q0, [x21, #32]
	stp	q2, q0, [sp, #32]
	bl	"assembly::find_block"
	ldrh	w8, [x29, #28]
	add	x23, x23, #1
	add	x26, x26, #6
	cmp	x22, x23
	add	x27, x27, #6
	add	x20, x8, x20
	b.eq	.LBB33_18
.LBB33_22:                              // %join.5.us7
                                        // =>This Inner Loop Header: Depth=1
	cmp	x23, x25
	b.hi	.LBB33_20
// %bb.23:                              // %join.3.i1.i.i.us14
                                        //   in Loop: Header=BB33_22 Depth=1
	cmp	x27, x24
	b.ls	.LBB33_27
// %bb.24:                              // %join.6.i.i.i.us28
                                        //   in Loop: Header=BB33_22 Depth=1
	sub	x8, x27, #6
	cmp	x8, x24
	b.hs	.LBB33_20
// %bb.25:                              // %"records::byte_at.exit.i.i5.i.i.us30"
                                        //   in Loop: Header=BB33_22 Depth=1
	sub	x8, x27, #5
	ldurb	w3, [x26, #-1]
	cmp	x8, x24
	b.hs	.LBB33_21
// %bb.26:                              // %then.1.i6.i.i11.i.i.us36
                                        //   in Loop: Header=BB33_22 Depth=1
	ldrb	w8, [x26]
	orr	x3, x3, x8, lsl #8
	b	.LBB33_21
.LBB33_27:                              // %then.4.i.i.i.us19
                                        //   in Loop: Header=BB33_22 Depth=1
	ldurh	w3, [x26, #-1]
	b	.LBB33_21
.Lfunc_end33:
	.size	"whole::start_of", .Lfunc_end33-"whole::start_of"
                                        // -- End function
	.section	.rodata.cst16,"aM",@progbits,16
	.p2align	4, 0x0                          // -- Begin function compose::distance::distance_in
.LCPI34_0:
	.xword	1                               // 0x1
	.xword	18                              // 0x12
	.section	".text.compose::distance::distance_in","ax",@progbits
	.p2align	2
	.type	"compose::distance::distance_in",@function
"compose::distance::distance_in":       // @"compose::distance::distance_in"
// %bb.0:                               // %start
	sub	sp, sp, #320
	stp	x29, x30, [sp, #224]            // 16-byte Folded Spill
	add	x29, sp, #224
	movi	v0.2d, #0000000000000000
	stp	x26, x25, [sp, #256]            // 16-byte Folded Spill
	ldr	x25, [x29, #96]
	mov	x26, x3
	stp	x22, x21, [sp, #288]            // 16-byte Folded Spill
	mov	x21, x4
	mov	x3, x7
	stp	x20, x19, [sp, #304]            // 16-byte Folded Spill
	mov	x19, x0
	add	x0, sp, #16
	mov	x4, x25
	stp	x28, x27, [sp, #240]            // 16-byte Folded Spill
	mov	x22, x7
	stp	x24, x23, [sp, #272]            // 16-byte Folded Spill
	mov	x20, x6
	mov	x28, x5
	mov	x24, x2
	mov	x23, x1
	str	xzr, [sp, #192]
	str	q0, [sp, #48]
	stp	q0, q0, [sp, #16]
	stp	q0, q0, [sp, #64]
	stp	q0, q0, [sp, #96]
	stp	q0, q0, [sp, #128]
	stp	q0, q0, [sp, #160]
	bl	"compose::reading::read_in"
	ldrb	w8, [sp, #16]
	cbz	w8, .LBB34_2
// %bb.1:                               // %arm.2
	ldur	q0, [sp, #24]
	mov	w8, #1                          // =0x1
	str	x8, [x19]
	stur	q0, [x19, #8]
	b	.LBB34_35
.LBB34_2:                               // %arm.1
	str	x20, [sp, #8]                   // 8-byte Spill
	ldr	x20, [sp, #184]
	sub	x26, x26, #1
	cmp	x26, x20
	b.hs	.LBB34_34
// %bb.3:                               // %join.3.i
	ldr	x11, [sp, #176]
	ldr	x2, [sp, #40]
	cmp	x24, x11
	str	x11, [sp]                       // 8-byte Spill
	b.hs	.LBB34_5
// %bb.4:
	mov	x8, xzr
	mov	x9, x24
	mov	w10, #43691                     // =0xaaab
	mul	w10, w8, w10
	lsr	w10, w10, #18
	cmp	x26, x10
	b.hi	.LBB34_14
	b	.LBB34_10
.LBB34_5:                               // %join.3.i.i.i.i
	cmp	x11, x24
	add	x8, x11, #4
	b.hs	.LBB34_8
// %bb.6:                               // %"records::byte_at.exit.i.i.i.i.i"
	add	x9, x11, #1
	ldrb	w10, [x23, x11]
	cmp	x9, x24
	b.hs	.LBB34_9
// %bb.7:                               // %then.1.i6.i.i.i.i.i
	ldrb	w9, [x23, x9]
	orr	x10, x10, x9, lsl #8
	b	.LBB34_9
.LBB34_8:
	mov	x10, xzr
.LBB34_9:                               // %"records::le16_at.exit.i.i.i.i"
	subs	x11, x24, x8
	csel	x9, x24, x8, lo
	cmp	x11, x10
	csel	x10, x11, x10, lo
	cmp	x24, x8
	csel	x8, xzr, x10, lo
	mov	w10, #43691                     // =0xaaab
	mul	w10, w8, w10
	lsr	w10, w10, #18
	cmp	x26, x10
	b.hi	.LBB34_14
.LBB34_10:                              // %join.3.i1.i.i.i
	add	x10, x26, x26, lsl #1
	add	x9, x23, x9
	lsl	x10, x10, #1
	add	x11, x10, #8
	cmp	x11, x8
	add	x11, x10, #2
	b.ls	.LBB34_15
// %bb.11:                              // %join.6.i.i.i.i
	cmp	x11, x8
	b.hs	.LBB34_14
// %bb.12:                              // %"records::byte_at.exit.i.i5.i.i.i"
	add	x10, x10, #3
	ldrb	w3, [x9, x11]
	cmp	x10, x8
	b.hs	.LBB34_16
// %bb.13:                              // %then.1.i6.i.i11.i.i.i
	ldrb	w8, [x9, x10]
	orr	x3, x3, x8, lsl #8
	b	.LBB34_16
.LBB34_14:
	mov	x3, xzr
	b	.LBB34_16
.LBB34_15:                              // %then.4.i.i.i.i
	ldrh	w3, [x9, x11]
.LBB34_16:                              // %"deck::is_missing.exit"
	add	x8, sp, #16
	sub	x0, x29, #16
	mov	x27, x2
	add	x1, x8, #32
	bl	"assembly::find_block"
	ldurh	w8, [x29, #-12]
	sub	x9, x21, #1
	cmp	x9, x8
	b.hs	.LBB34_34
// %bb.17:                              // %else.8
	sub	x28, x28, #1
	cmp	x28, x20
	b.hs	.LBB34_34
// %bb.18:                              // %join.3.i17
	ldr	x11, [sp]                       // 8-byte Reload
	cmp	x24, x11
	b.hs	.LBB34_20
// %bb.19:
	ldr	x20, [sp, #8]                   // 8-byte Reload
	mov	x8, xzr
	mov	x9, x24
	mov	w10, #43691                     // =0xaaab
	mul	w10, w8, w10
	lsr	w10, w10, #18
	cmp	x28, x10
	b.hi	.LBB34_29
	b	.LBB34_25
.LBB34_20:                              // %join.3.i.i.i.i19
	cmp	x11, x24
	add	x8, x11, #4
	b.hs	.LBB34_23
// %bb.21:                              // %"records::byte_at.exit.i.i.i.i.i67"
	add	x9, x11, #1
	ldrb	w10, [x23, x11]
	cmp	x9, x24
	b.hs	.LBB34_24
// %bb.22:                              // %then.1.i6.i.i.i.i.i73
	ldrb	w9, [x23, x9]
	orr	x10, x10, x9, lsl #8
	b	.LBB34_24
.LBB34_23:
	mov	x10, xzr
.LBB34_24:                              // %"records::le16_at.exit.i.i.i.i22"
	subs	x11, x24, x8
	ldr	x20, [sp, #8]                   // 8-byte Reload
	csel	x9, x24, x8, lo
	cmp	x11, x10
	csel	x10, x11, x10, lo
	cmp	x24, x8
	csel	x8, xzr, x10, lo
	mov	w10, #43691                     // =0xaaab
	mul	w10, w8, w10
	lsr	w10, w10, #18
	cmp	x28, x10
	b.hi	.LBB34_29
.LBB34_25:                              // %join.3.i1.i.i.i37
	add	x10, x28, x28, lsl #1
	add	x9, x23, x9
	lsl	x10, x10, #1
	add	x11, x10, #8
	cmp	x11, x8
	add	x11, x10, #2
	b.ls	.LBB34_30
// %bb.26:                              // %join.6.i.i.i.i56
	cmp	x11, x8
	b.hs	.LBB34_29
// %bb.27:                              // %"records::byte_at.exit.i.i5.i.i.i58"
	add	x10, x10, #3
	ldrb	w3, [x9, x11]
	cmp	x10, x8
	b.hs	.LBB34_31
// %bb.28:                              // %then.1.i6.i.i11.i.i.i64
	ldrb	w8, [x9, x10]
	orr	x3, x3, x8, lsl #8
	b	.LBB34_31
.LBB34_29:
	mov	x3, xzr
	b	.LBB34_31
.LBB34_30:                              // %then.4.i.i.i.i42
	ldrh	w3, [x9, x11]
.LBB34_31:                              // %"deck::is_missing.exit76"
	add	x8, sp, #16
	sub	x0, x29, #16
	mov	x2, x27
	add	x1, x8, #32
	bl	"assembly::find_block"
	ldurh	w8, [x29, #-12]
	sub	x9, x20, #1
	cmp	x9, x8
	b.hs	.LBB34_34
// %bb.32:                              // %after.5
	ldr	x9, [sp]                        // 8-byte Reload
	cmp	x24, x9
	b.hs	.LBB34_36
// %bb.33:
	ldr	x7, [sp, #8]                    // 8-byte Reload
	mov	x3, xzr
	b	.LBB34_41
.LBB34_34:                              // %join.9
	adrp	x8, .LCPI34_0
	str	xzr, [x19, #16]
	ldr	q0, [x8, :lo12:.LCPI34_0]
	str	q0, [x19]
.LBB34_35:                              // %common.ret
	ldp	x20, x19, [sp, #304]            // 16-byte Folded Reload
	ldp	x22, x21, [sp, #288]            // 16-byte Folded Reload
	ldp	x24, x23, [sp, #272]            // 16-byte Folded Reload
	ldp	x26, x25, [sp, #256]            // 16-byte Folded Reload
	ldp	x28, x27, [sp, #240]            // 16-byte Folded Reload
	ldp	x29, x30, [sp, #224]            // 16-byte Folded Reload
	add	sp, sp, #320
	ret
.LBB34_36:                              // %join.3.i77
	cmp	x9, x24
	add	x8, x9, #4
	b.hs	.LBB34_39
// %bb.37:                              // %"records::byte_at.exit.i.i"
	add	x10, x9, #1
	ldrb	w9, [x23, x9]
	cmp	x10, x24
	b.hs	.LBB34_40
// %bb.38:                              // %then.1.i6.i.i
	ldrb	w10, [x23, x10]
	orr	x9, x9, x10, lsl #8
	b	.LBB34_40
.LBB34_39:
	mov	x9, xzr
.LBB34_40:                              // %"records::le16_at.exit.i"
	subs	x10, x24, x8
	ldr	x7, [sp, #8]                    // 8-byte Reload
	csel	x11, x24, x8, lo
	cmp	x10, x9
	csel	x9, x10, x9, lo
	cmp	x24, x8
	mov	x24, x11
	csel	x3, xzr, x9, lo
.LBB34_41:                              // %"records::payload_at.exit"
	orr	x8, x28, x26
	cmp	x8, #31
	b.hi	.LBB34_43
// %bb.42:                              // %join.6.i
	add	x2, x23, x24
	mov	x0, x22
	mov	x1, x25
	mov	x4, x26
	mov	x5, x21
	mov	x6, x28
	bl	"climb::climb"
	b	.LBB34_44
.LBB34_43:
	mov	x0, xzr
.LBB34_44:                              // %"climb::far.exit"
	stp	xzr, x0, [x19]
	str	xzr, [x19, #16]
	b	.LBB34_35
.Lfunc_end34:
	.size	"compose::distance::distance_in", .Lfunc_end34-"compose::distance::distance_in"
                                        // -- End function
	.section	".text.climb::climb","ax",@progbits
	.p2align	2                               // -- Begin function climb::climb
	.type	"climb::climb",@function
"climb::climb":                         // @"climb::climb"
// %bb.0:                               // %start
	sub	sp, sp, #144
	stp	x29, x30, [sp, #64]             // 16-byte Folded Spill
	add	x29, sp, #64
	mov	x8, x5
	stp	x26, x25, [sp, #80]             // 16-byte Folded Spill
	mov	x5, x6
	mov	x25, x4
	stp	x22, x21, [sp, #112]            // 16-byte Folded Spill
	mov	x21, x1
	mov	x22, x0
	stp	x20, x19, [sp, #128]            // 16-byte Folded Spill
	mov	x19, x3
	mov	x20, x2
	cmp	x4, x6
	mov	x26, xzr
	stp	x24, x23, [sp, #96]             // 16-byte Folded Spill
	stp	xzr, xzr, [x29, #-24]
	stur	xzr, [x29, #-8]
	stp	xzr, xzr, [sp, #24]
	str	xzr, [sp, #16]
	b.hs	.LBB35_2
.LBB35_1:                               // %then.1
                                        // =>This Inner Loop Header: Depth=1
	sub	x0, x29, #24
	mov	x1, x22
	mov	x2, x21
	mov	x3, x20
	mov	x4, x19
	mov	x6, x7
	mov	x7, x25
	mov	x23, x25
	mov	x24, x8
	str	x8, [sp]
	bl	"climb::first_leg"
	ldp	x25, x8, [x29, #-16]
	mov	x7, x24
	ldur	x9, [x29, #-24]
	mov	x5, x23
	stp	xzr, xzr, [x29, #-16]
	stur	xzr, [x29, #-24]
	add	x26, x9, x26
	cmp	x25, x23
	stp	xzr, xzr, [sp, #16]
	str	xzr, [sp, #32]
	b.lo	.LBB35_1
	b	.LBB35_3
.LBB35_2:
	mov	x23, x5
	mov	x24, x7
.LBB35_3:                               // %join.3
	add	x0, sp, #16
	mov	x1, x22
	mov	x2, x21
	mov	x3, x20
	mov	x4, x19
	mov	x5, x25
	mov	x6, x8
	mov	x7, x23
	str	x24, [sp]
	bl	"climb::first_leg"
	cmp	x25, x23
	b.ne	.LBB35_5
// %bb.4:                               // %then.4
	ldr	x8, [sp, #16]
	add	x0, x8, x26
	b	.LBB35_6
.LBB35_5:                               // %join.6
	ldp	x4, x5, [sp, #24]
	mov	x0, x22
	mov	x1, x21
	mov	x2, x20
	mov	x3, x19
	mov	x6, x23
	mov	x7, x24
	bl	"climb::climb"
	ldr	x8, [sp, #16]
	add	x8, x26, x8
	add	x0, x0, x8
.LBB35_6:                               // %common.ret
	ldp	x20, x19, [sp, #128]            // 16-byte Folded Reload
	ldp	x22, x21, [sp, #112]            // 16-byte Folded Reload
	ldp	x24, x23, [sp, #96]             // 16-byte Folded Reload
	ldp	x26, x25, [sp, #80]             // 16-byte Folded Reload
	ldp	x29, x30, [sp, #64]             // 16-byte Folded Reload
	add	sp, sp, #144
	ret
.Lfunc_end35:
	.size	"climb::climb", .Lfunc_end35-"climb::climb"
                                        // -- End function
	.section	".text.climb::first_leg","ax",@progbits
	.p2align	2                               // -- Begin function climb::first_leg
	.type	"climb::first_leg",@function
"climb::first_leg":                     // @"climb::first_leg"
// %bb.0:                               // %start
	sub	sp, sp, #336
	mov	w8, #43691                      // =0xaaab
	stp	x22, x21, [sp, #304]            // 16-byte Folded Spill
	mov	x22, x7
	movk	w8, #43690, lsl #16
	stp	x20, x19, [sp, #320]            // 16-byte Folded Spill
	mov	x20, x6
	mul	x8, x4, x8
	mov	x21, x5
	mov	x19, x0
	stp	x29, x30, [sp, #256]            // 16-byte Folded Spill
	add	x29, sp, #256
	str	x28, [sp, #272]                 // 8-byte Spill
	stp	x24, x23, [sp, #288]            // 16-byte Folded Spill
	cmp	x5, x8, lsr #34
	b.ls	.LBB36_3
// %bb.1:                               // %"assembly::placement_at.exit.thread"
	mov	w8, #63551                      // =0xf83f
	cmp	x21, x22
	mul	w8, w2, w8
	lsr	w8, w8, #25
	b.ne	.LBB36_7
// %bb.2:                               // %then.1.thread
	movi	v0.2d, #0000000000000000
	stp	q0, q0, [sp]
	stp	q0, q0, [sp, #32]
	stp	q0, q0, [sp, #64]
	stp	q0, q0, [sp, #96]
	b	.LBB36_24
.LBB36_3:                               // %join.3.i
	add	x8, x21, x21, lsl #1
	lsl	x9, x8, #1
	add	x8, x9, #8
	cmp	x8, x4
	add	x8, x9, #2
	b.ls	.LBB36_8
// %bb.4:                               // %join.6.i
	cmp	x8, x4
	b.hs	.LBB36_9
// %bb.5:                               // %"records::byte_at.exit.i.i"
	add	x10, x9, #3
	ldrb	w8, [x3, x8]
	cmp	x10, x4
	b.hs	.LBB36_12
// %bb.6:                               // %then.1.i6.i.i
	ldrb	w10, [x3, x10]
	orr	w8, w8, w10, lsl #8
	add	x10, x9, #4
	cmp	x10, x4
	b.hs	.LBB36_13
	b	.LBB36_10
.LBB36_7:                               // %join.3.thread
	movi	v0.2d, #0000000000000000
	mov	x3, xzr
	mov	w23, wzr
	mov	w24, wzr
	stp	q0, q0, [sp, #128]
	stp	q0, q0, [sp, #160]
	stp	q0, q0, [sp, #192]
	stp	q0, q0, [sp, #224]
	b	.LBB36_32
.LBB36_8:                               // %then.4.i
	add	x9, x3, x9
	ldrh	w8, [x3, x8]
	ldrh	w23, [x9, #4]
	ldrb	w24, [x9, #6]
	ldrb	w3, [x9, #7]
	b	.LBB36_18
.LBB36_9:
	mov	w8, wzr
	add	x10, x9, #4
	cmp	x10, x4
	b.hs	.LBB36_13
.LBB36_10:                              // %"records::byte_at.exit.i52.i"
	add	x11, x9, #5
	ldrb	w10, [x3, x10]
	cmp	x11, x4
	b.hs	.LBB36_15
// %bb.11:                              // %then.1.i6.i63.i
	ldrb	w11, [x3, x11]
	orr	w23, w10, w11, lsl #8
	add	x9, x9, #6
	cmp	x9, x4
	b.hs	.LBB36_16
	b	.LBB36_14
.LBB36_12:
	orr	w8, w8, wzr, lsl #8
	add	x10, x9, #4
	cmp	x10, x4
	b.lo	.LBB36_10
.LBB36_13:
	mov	w23, wzr
	add	x9, x9, #6
	cmp	x9, x4
	b.hs	.LBB36_16
.LBB36_14:                              // %then.1.i.i
	ldrb	w24, [x3, x9]
	b	.LBB36_17
.LBB36_15:
	orr	w23, w10, wzr, lsl #8
	add	x9, x9, #6
	cmp	x9, x4
	b.lo	.LBB36_14
.LBB36_16:
	mov	w24, wzr
.LBB36_17:                              // %"assembly::placement_at.exit"
	mov	x3, xzr
.LBB36_18:                              // %"assembly::placement_at.exit"
	and	w9, w2, #0xffff
	mov	w10, #63551                     // =0xf83f
	movi	v0.2d, #0000000000000000
	mul	w9, w9, w10
	cmp	x21, x22
	mov	w10, w8
	lsr	w9, w9, #25
	b.ne	.LBB36_27
// %bb.19:                              // %then.1
	stp	q0, q0, [sp]
	stp	q0, q0, [sp, #32]
	stp	q0, q0, [sp, #64]
	stp	q0, q0, [sp, #96]
	cbz	w10, .LBB36_23
// %bb.20:                              // %join.8.i.i.preheader
	mov	x8, xzr
	add	x11, x1, #1
.LBB36_21:                              // %join.8.i.i
                                        // =>This Inner Loop Header: Depth=1
	ldurh	w12, [x11, #-1]
	cmp	x12, x10
	b.eq	.LBB36_40
// %bb.22:                              // %join.11.i.i
                                        //   in Loop: Header=BB36_21 Depth=1
	add	x8, x8, #1
	add	x11, x11, #528
	cmp	x9, x8
	b.ne	.LBB36_21
.LBB36_23:
	mov	x8, x9
.LBB36_24:                              // %join.3.i.i
	add	x8, x8, x8, lsl #5
	mov	w11, #528                       // =0x210
	lsl	x8, x8, #4
	subs	x9, x2, x8
	csel	x10, x2, x8, lo
	cmp	x9, #528
	csel	x9, x9, x11, lo
	cmp	x2, x8
	mov	x2, x10
	csel	x8, xzr, x9, lo
.LBB36_25:                              // %"shelf::summary_at.exit.i"
	ldr	x21, [x29, #80]
	mov	x0, sp
	add	x1, x1, x2
	mov	x2, x8
	mov	x3, x20
	mov	x20, sp
	bl	"summary::seen"
	sub	x8, x21, #65
	cmn	x8, #64
	b.hs	.LBB36_35
// %bb.26:
	mov	x8, xzr
	b	.LBB36_36
.LBB36_27:                              // %join.3
	stp	q0, q0, [sp, #128]
	stp	q0, q0, [sp, #160]
	stp	q0, q0, [sp, #192]
	stp	q0, q0, [sp, #224]
	cbz	w10, .LBB36_31
// %bb.28:                              // %join.8.i.i22.preheader
	mov	x8, xzr
	add	x11, x1, #1
.LBB36_29:                              // %join.8.i.i22
                                        // =>This Inner Loop Header: Depth=1
	ldurh	w12, [x11, #-1]
	cmp	x12, x10
	b.eq	.LBB36_42
// %bb.30:                              // %join.11.i.i34
                                        //   in Loop: Header=BB36_29 Depth=1
	add	x8, x8, #1
	add	x11, x11, #528
	cmp	x9, x8
	b.ne	.LBB36_29
.LBB36_31:
	mov	x8, x9
.LBB36_32:                              // %join.3.i.i37
	add	x8, x8, x8, lsl #5
	mov	w11, #528                       // =0x210
	lsl	x8, x8, #4
	subs	x9, x2, x8
	csel	x10, x2, x8, lo
	cmp	x9, #528
	csel	x9, x9, x11, lo
	cmp	x2, x8
	mov	x2, x10
	csel	x8, xzr, x9, lo
.LBB36_33:                              // %"shelf::summary_at.exit.i45"
	add	x0, sp, #128
	add	x1, x1, x2
	mov	x2, x8
	add	x22, sp, #128
	bl	"summary::seen"
	sub	x8, x20, #65
	cmn	x8, #64
	b.hs	.LBB36_37
// %bb.34:
	mov	w8, #1                          // =0x1
	b	.LBB36_38
.LBB36_35:                              // %join.3.i4.i
	add	x8, x20, x21
	ldrb	w8, [x8, #63]
.LBB36_36:                              // %"climb::inside.exit"
	stp	x8, x22, [x19]
	str	x21, [x19, #16]
	b	.LBB36_39
.LBB36_37:                              // %join.3.i4.i50
	add	x8, x22, x20
	ldrb	w8, [x8, #63]
	add	x8, x8, #1
.LBB36_38:                              // %"climb::inside.exit56"
	and	x9, x23, #0xffff
	sub	x9, x9, #1
	cmp	x9, x21
	csel	x9, x9, xzr, lo
	stp	x8, x9, [x19]
	mov	w8, w24
	str	x8, [x19, #16]
.LBB36_39:                              // %common.ret
	ldp	x20, x19, [sp, #320]            // 16-byte Folded Reload
	ldr	x28, [sp, #272]                 // 8-byte Reload
	ldp	x22, x21, [sp, #304]            // 16-byte Folded Reload
	ldp	x24, x23, [sp, #288]            // 16-byte Folded Reload
	ldp	x29, x30, [sp, #256]            // 16-byte Folded Reload
	add	sp, sp, #336
	ret
.LBB36_40:                              // %"shelf::place_of.exit.i"
	cmp	x8, x9
	b.ls	.LBB36_24
// %bb.41:
	mov	x8, xzr
	b	.LBB36_25
.LBB36_42:                              // %"shelf::place_of.exit.i54"
	cmp	x8, x9
	b.ls	.LBB36_32
// %bb.43:
	mov	x8, xzr
	b	.LBB36_33
.Lfunc_end36:
	.size	"climb::first_leg", .Lfunc_end36-"climb::first_leg"
                                        // -- End function
	.section	".text.molfile::kept_bonds","ax",@progbits
	.p2align	2                               // -- Begin function molfile::kept_bonds
	.type	"molfile::kept_bonds",@function
"molfile::kept_bonds":                  // @"molfile::kept_bonds"
// %bb.0:                               // %start
	stp	x29, x30, [sp, #-80]!           // 16-byte Folded Spill
	stp	x28, x25, [sp, #16]             // 16-byte Folded Spill
	mov	x29, sp
	stp	x24, x23, [sp, #32]             // 16-byte Folded Spill
	stp	x22, x21, [sp, #48]             // 16-byte Folded Spill
	stp	x20, x19, [sp, #64]             // 16-byte Folded Spill
	sub	sp, sp, #3072
	str	xzr, [sp]
	sub	sp, sp, #3072
	str	xzr, [sp]
	sub	sp, sp, #944
	mov	x19, x0
	add	x0, sp, #8
	mov	x20, x4
	mov	x21, x3
	mov	x22, x2
	mov	x23, x1
	bl	"molfile::counts_line"
	ldp	x25, x24, [sp, #16]
	ldrb	w8, [sp, #8]
	cbz	w8, .LBB37_2
// %bb.1:                               // %arm.2
	mov	w8, #1                          // =0x1
	str	x24, [x19, #16]
	stp	x8, x25, [x19]
	b	.LBB37_20
.LBB37_2:                               // %arm.1
	ldr	x8, [sp, #32]
	add	x0, sp, #4065
	mov	w1, wzr
	mov	w2, #999                        // =0x3e7
	str	x25, [sp, #5064]
	str	x24, [sp, #5072]
	str	x8, [sp, #5080]
	stp	xzr, xzr, [sp, #48]
	str	xzr, [sp, #40]
	bl	memset
	add	x0, sp, #2066
	mov	w1, wzr
	mov	w2, #1998                       // =0x7ce
	bl	memset
	add	x0, sp, #68
	mov	w1, wzr
	mov	w2, #1998                       // =0x7ce
	bl	memset
	add	x3, sp, #1, lsl #12             // =4096
	add	x0, sp, #40
	add	x4, sp, #4065
	add	x3, x3, #968
	add	x5, sp, #2066
	add	x6, sp, #68
	mov	x1, x23
	mov	x2, x22
	bl	"molfile::lists"
	ldrb	w8, [sp, #40]
	cbz	w8, .LBB37_4
// %bb.3:                               // %arm.6.i
	ldp	x8, x9, [sp, #48]
	mov	w10, #1                         // =0x1
	b	.LBB37_19
.LBB37_4:                               // %arm.5.i
	add	x0, sp, #1, lsl #12             // =4096
	mov	w1, wzr
	mov	w2, #1998                       // =0x7ce
	add	x0, x0, #994
	bl	memset
	cbz	x24, .LBB37_7
// %bb.5:                               // %join.5.i.i.i.preheader
	add	x8, sp, #68
	add	x9, sp, #2066
	mov	x10, x24
.LBB37_6:                               // %join.5.i.i.i
                                        // =>This Inner Loop Header: Depth=1
	ldrh	w11, [x8], #2
	add	x14, sp, #4065
	ldrh	w12, [x9], #2
	add	x16, sp, #1, lsl #12            // =4096
	sub	x13, x11, #1
	add	x16, x16, #994
	ldrb	w17, [x14, x13]
	sub	x15, x12, #1
	ldrh	w18, [x16, x15, lsl #1]
	ldrb	w14, [x14, x15]
	cmp	w17, #0
	mov	w17, #1                         // =0x1
	cinc	w0, w17, ne
	cmp	w14, #0
	add	w18, w0, w18
	strh	w18, [x16, x15, lsl #1]
	cinc	w15, w17, ne
	ldrh	w14, [x16, x13, lsl #1]
	cmp	w12, w11
	csel	w11, wzr, w15, eq
	subs	x10, x10, #1
	add	w11, w11, w14
	strh	w11, [x16, x13, lsl #1]
	b.ne	.LBB37_6
.LBB37_7:                               // %"molfile::dropping::weigh.exit.i.i"
	mov	x8, xzr
	cbz	x25, .LBB37_10
// %bb.8:                               // %join.5.i1.i.i.preheader
	add	x9, sp, #1, lsl #12             // =4096
	add	x10, sp, #4065
	add	x9, x9, #994
.LBB37_9:                               // %join.5.i1.i.i
                                        // =>This Inner Loop Header: Depth=1
	ldrb	w11, [x10], #1
	ldrh	w12, [x9]
	cmp	w11, #1
	ccmp	w12, #1, #0, eq
	cinc	x8, x8, ne
	csel	w11, w8, wzr, ne
	subs	x25, x25, #1
	strh	w11, [x9], #2
	b.ne	.LBB37_9
.LBB37_10:                              // %"molfile::dropping::renumber.exit.i.i"
	mov	x9, xzr
	cbz	x24, .LBB37_18
// %bb.11:                              // %join.5.i5.i.i.preheader
	add	x10, sp, #68
	add	x11, sp, #2066
	b	.LBB37_13
.LBB37_12:                              // %"molfile::dropping::store.exit.i.i.i"
                                        //   in Loop: Header=BB37_13 Depth=1
	subs	x24, x24, #1
	b.eq	.LBB37_18
.LBB37_13:                              // %join.5.i5.i.i
                                        // =>This Inner Loop Header: Depth=1
	ldrh	w12, [x11], #2
	add	x13, sp, #1, lsl #12            // =4096
	add	x13, x13, #994
	ldrh	w14, [x10], #2
	add	x12, x13, x12, lsl #1
	add	x14, x13, x14, lsl #1
	ldurh	w13, [x12, #-2]
	ldurh	w12, [x14, #-2]
	cmp	w13, #0
	ccmp	w12, #0, #4, ne
	b.eq	.LBB37_12
// %bb.14:                              // %join.6.i.i.i.i
                                        //   in Loop: Header=BB37_13 Depth=1
	cmp	x9, x20
	b.hs	.LBB37_16
// %bb.15:                              // %then.1.i.i.i.i.i
                                        //   in Loop: Header=BB37_13 Depth=1
	strh	w13, [x21, x9, lsl #1]
	add	x9, x9, #1
.LBB37_16:                              // %"molfile::dropping::put.exit.i.i.i.i"
                                        //   in Loop: Header=BB37_13 Depth=1
	cmp	x9, x20
	b.hs	.LBB37_12
// %bb.17:                              // %then.1.i7.i.i.i.i
                                        //   in Loop: Header=BB37_13 Depth=1
	strh	w12, [x21, x9, lsl #1]
	add	x9, x9, #1
	b	.LBB37_12
.LBB37_18:                              // %"molfile::dropping::kept.exit.i"
	mov	x10, xzr
.LBB37_19:                              // %"molfile::listed.exit"
	stp	x10, x8, [x19]
	str	x9, [x19, #16]
.LBB37_20:                              // %common.ret
	add	sp, sp, #1, lsl #12             // =4096
	add	sp, sp, #2992
	ldp	x20, x19, [sp, #64]             // 16-byte Folded Reload
	ldp	x22, x21, [sp, #48]             // 16-byte Folded Reload
	ldp	x24, x23, [sp, #32]             // 16-byte Folded Reload
	ldp	x28, x25, [sp, #16]             // 16-byte Folded Reload
	ldp	x29, x30, [sp], #80             // 16-byte Folded Reload
	ret
.Lfunc_end37:
	.size	"molfile::kept_bonds", .Lfunc_end37-"molfile::kept_bonds"
                                        // -- End function
	.section	".text.molfile::counts_line","ax",@progbits
	.p2align	2                               // -- Begin function molfile::counts_line
	.type	"molfile::counts_line",@function
"molfile::counts_line":                 // @"molfile::counts_line"
// %bb.0:                               // %start
	sub	sp, sp, #80
	movi	v0.2d, #0000000000000000
	stp	x20, x19, [sp, #64]             // 16-byte Folded Spill
	mov	x20, x2
	mov	x19, x0
	stp	x29, x30, [sp, #32]             // 16-byte Folded Spill
	add	x29, sp, #32
	str	x21, [sp, #48]                  // 8-byte Spill
	stp	q0, q0, [sp]
	cbz	x2, .LBB38_4
// %bb.1:                               // %join.3.i.i
	mov	x21, x1
	mov	x0, x1
	mov	x1, x20
	mov	x2, xzr
	bl	"text::line_end"
	cmp	x20, x0
	csinc	x2, x20, x0, ls
	cmp	x20, x2
	b.ls	.LBB38_4
// %bb.2:                               // %join.3.i.1.i
	mov	x0, x21
	mov	x1, x20
	bl	"text::line_end"
	cmp	x20, x0
	csinc	x2, x20, x0, ls
	cmp	x20, x2
	b.ls	.LBB38_4
// %bb.3:                               // %arm.1
	mov	x0, x21
	mov	x1, x20
	bl	"text::line_end"
	cmp	x20, x0
	mov	x1, x21
	mov	x2, x20
	csinc	x3, x20, x0, ls
	mov	x0, sp
	bl	"molfile::two_numbers"
	ldrb	w8, [sp]
	ldur	q0, [sp, #8]
	ldr	x9, [sp, #24]
	str	x8, [x19]
	stur	q0, [x19, #8]
	str	x9, [x19, #24]
	ldp	x20, x19, [sp, #64]             // 16-byte Folded Reload
	ldr	x21, [sp, #48]                  // 8-byte Reload
	ldp	x29, x30, [sp, #32]             // 16-byte Folded Reload
	add	sp, sp, #80
	ret
.LBB38_4:                               // %arm.2
	mov	w8, #25                         // =0x19
	ldr	x9, [sp, #24]
	stp	x8, x20, [sp, #8]
	mov	w8, #1                          // =0x1
	ldur	q0, [sp, #8]
	str	x8, [x19]
	str	x9, [x19, #24]
	stur	q0, [x19, #8]
	ldp	x20, x19, [sp, #64]             // 16-byte Folded Reload
	ldr	x21, [sp, #48]                  // 8-byte Reload
	ldp	x29, x30, [sp, #32]             // 16-byte Folded Reload
	add	sp, sp, #80
	ret
.Lfunc_end38:
	.size	"molfile::counts_line", .Lfunc_end38-"molfile::counts_line"
                                        // -- End function
	.section	".text.text::line_end","ax",@progbits
	.p2align	2                               // -- Begin function text::line_end
	.type	"text::line_end",@function
"text::line_end":                       // @"text::line_end"
// %bb.0:                               // %start
	sub	sp, sp, #16
	subs	x8, x1, x2
	b.ls	.LBB39_5
// %bb.1:                               // %start
	subs	x8, x8, #16
	b.lo	.LBB39_5
.LBB39_2:                               // %join.8.i
                                        // =>This Inner Loop Header: Depth=1
	movi	v0.8b, #10
	add	x9, x0, x2
	movi	v2.4h, #10
	ldr	d1, [x9]
	cmeq	v0.8b, v1.8b, v0.8b
	ldr	s1, [x9, #8]
	ushll	v1.8h, v1.8b, #0
	umov	w10, v0.b[0]
	umov	w11, v0.b[1]
	umov	w12, v0.b[2]
	umov	w14, v0.b[7]
	cmeq	v1.4h, v1.4h, v2.4h
	and	w10, w10, #0x1
	bfi	w10, w11, #1, #1
	umov	w11, v0.b[3]
	umov	w13, v1.h[0]
	umov	w15, v1.h[1]
	umov	w16, v1.h[2]
	ubfiz	w14, w14, #7, #1
	bfi	w10, w12, #2, #1
	umov	w12, v0.b[4]
	bfi	w10, w11, #3, #1
	umov	w11, v0.b[5]
	ubfiz	w13, w13, #8, #1
	bfi	w10, w12, #4, #1
	umov	w12, v0.b[6]
	orr	w13, w14, w13
	ubfiz	w14, w16, #10, #1
	bfi	w10, w11, #5, #1
	ubfiz	w11, w15, #9, #1
	umov	w15, v1.h[3]
	bfi	w10, w12, #6, #1
	orr	w11, w13, w11
	orr	w11, w11, w14
	orr	w10, w10, w11
	ldrb	w11, [x9, #12]
	orr	w10, w10, w15, lsl #11
	and	w10, w10, #0xfff
	fmov	s0, w10
	ldrb	w10, [x9, #14]
	cmp	w10, #10
	ldrb	w10, [x9, #13]
	ldrb	w9, [x9, #15]
	cnt	v0.8b, v0.8b
	cset	w12, eq
	cmp	w11, #10
	addv	b0, v0.8b
	fmov	w13, s0
	cinc	w11, w13, eq
	cmp	w10, #10
	cinc	w10, w12, eq
	cmp	w9, #10
	add	w9, w11, w10
	cset	w10, eq
	orr	w9, w9, w10
	cbnz	w9, .LBB39_5
// %bb.3:                               // %join.11.i
                                        //   in Loop: Header=BB39_2 Depth=1
	add	x2, x2, #16
	cmp	x2, x1
	b.hs	.LBB39_5
// %bb.4:                               // %join.11.i
                                        //   in Loop: Header=BB39_2 Depth=1
	cmp	x8, #15
	sub	x8, x8, #16
	b.hi	.LBB39_2
.LBB39_5:                               // %"text::skip.exit"
	cmp	x2, x1
	b.hs	.LBB39_9
.LBB39_6:                               // %join.5
                                        // =>This Inner Loop Header: Depth=1
	ldrb	w8, [x0, x2]
	cmp	w8, #10
	b.eq	.LBB39_9
// %bb.7:                               // %join.8
                                        //   in Loop: Header=BB39_6 Depth=1
	add	x2, x2, #1
	cmp	x1, x2
	b.ne	.LBB39_6
// %bb.8:
	mov	x2, x1
.LBB39_9:                               // %common.ret
	mov	x0, x2
	add	sp, sp, #16
	ret
.Lfunc_end39:
	.size	"text::line_end", .Lfunc_end39-"text::line_end"
                                        // -- End function
	.section	.rodata.cst16,"aM",@progbits,16
	.p2align	4, 0x0                          // -- Begin function molfile::two_numbers
.LCPI40_0:
	.xword	1                               // 0x1
	.xword	26                              // 0x1a
.LCPI40_1:
	.xword	1                               // 0x1
	.xword	25                              // 0x19
	.section	".text.molfile::two_numbers","ax",@progbits
	.p2align	2
	.type	"molfile::two_numbers",@function
"molfile::two_numbers":                 // @"molfile::two_numbers"
// %bb.0:                               // %start
	stp	x29, x30, [sp, #-48]!           // 16-byte Folded Spill
	stp	x22, x21, [sp, #16]             // 16-byte Folded Spill
	mov	x21, x2
	cmp	x2, x3
	stp	x20, x19, [sp, #32]             // 16-byte Folded Spill
	mov	x19, x0
	mov	x29, sp
	b.ls	.LBB40_8
// %bb.1:                               // %join.3.i
	mov	x22, x1
	mov	x0, x1
	mov	x1, x21
	mov	x2, x3
	mov	x20, x3
	bl	"text::line_end"
	cmp	x21, x0
	sub	x8, x0, x20
	b.ls	.LBB40_6
// %bb.2:                               // %join.3.i.i
	cbz	x8, .LBB40_7
// %bb.3:                               // %join.7.i.i
	add	x9, x22, x0
	ldurb	w9, [x9, #-1]
	cmp	w9, #13
	b.ne	.LBB40_5
// %bb.4:                               // %then.8.i.i
	sub	x8, x8, #1
.LBB40_5:                               // %join.10.i.i
	add	x21, x0, #1
.LBB40_6:                               // %"text::line_at.exit.i"
	cmp	x8, #6
	b.hs	.LBB40_9
.LBB40_7:
	mov	x21, x20
.LBB40_8:                               // %arm.2
	adrp	x8, .LCPI40_1
	stp	x21, xzr, [x19, #16]
	ldr	q0, [x8, :lo12:.LCPI40_1]
	str	q0, [x19]
	ldp	x20, x19, [sp, #32]             // 16-byte Folded Reload
	ldp	x22, x21, [sp, #16]             // 16-byte Folded Reload
	ldp	x29, x30, [sp], #48             // 16-byte Folded Reload
	ret
.LBB40_9:                               // %arm.1
	add	x9, x22, x20
	ldrb	w12, [x9]
	ldrb	w11, [x9, #1]
	ldrb	w10, [x9, #2]
	cmp	w12, #32
	b.ne	.LBB40_12
// %bb.10:                              // %then.1.i.i
	cmp	w11, #32
	b.ne	.LBB40_16
// %bb.11:                              // %then.1.i.i.i
	sub	w8, w10, #48
	sub	x10, x10, #48
	cmp	w8, #10
	mov	w8, #1000                       // =0x3e8
	csel	x8, x10, x8, lo
	b	.LBB40_19
.LBB40_12:                              // %join.3.i.i7
	sub	w8, w12, #48
	cmp	w8, #9
	mov	w8, #1000                       // =0x3e8
	b.hi	.LBB40_19
// %bb.13:                              // %join.3.i.i7
	sub	w13, w11, #48
	cmp	w13, #9
	b.hi	.LBB40_19
// %bb.14:                              // %join.3.i.i7
	sub	w13, w10, #48
	cmp	w13, #9
	b.hi	.LBB40_19
// %bb.15:                              // %then.10.i.i
	mov	w8, #10                         // =0xa
	umaddl	x11, w12, w8, x11
	umaddl	x8, w11, w8, x10
	mov	x10, #-5328                     // =0xffffffffffffeb30
	add	x8, x8, x10
	b	.LBB40_19
.LBB40_16:                              // %join.3.i.i.i
	sub	w8, w11, #48
	cmp	w8, #9
	mov	w8, #1000                       // =0x3e8
	b.hi	.LBB40_19
// %bb.17:                              // %join.3.i.i.i
	sub	w12, w10, #48
	cmp	w12, #9
	b.hi	.LBB40_19
// %bb.18:                              // %then.7.i.i.i
	mov	w8, #10                         // =0xa
	umaddl	x8, w11, w8, x10
	sub	x8, x8, #528
.LBB40_19:                              // %"molfile::number_at.exit"
	ldrb	w12, [x9, #3]
	ldrb	w11, [x9, #4]
	ldrb	w9, [x9, #5]
	cmp	w12, #32
	b.ne	.LBB40_22
// %bb.20:                              // %then.1.i.i30
	cmp	w11, #32
	b.ne	.LBB40_26
// %bb.21:                              // %then.1.i.i.i41
	sub	w10, w9, #48
	sub	x9, x9, #48
	cmp	w10, #10
	mov	w10, #1000                      // =0x3e8
	csel	x10, x9, x10, lo
	b	.LBB40_29
.LBB40_22:                              // %join.3.i.i16
	sub	w10, w12, #48
	cmp	w10, #9
	mov	w10, #1000                      // =0x3e8
	b.hi	.LBB40_29
// %bb.23:                              // %join.3.i.i16
	sub	w13, w11, #48
	cmp	w13, #9
	b.hi	.LBB40_29
// %bb.24:                              // %join.3.i.i16
	sub	w13, w9, #48
	cmp	w13, #9
	b.hi	.LBB40_29
// %bb.25:                              // %then.10.i.i23
	mov	w10, #10                        // =0xa
	umaddl	x11, w12, w10, x11
	umaddl	x9, w11, w10, x9
	mov	x10, #-5328                     // =0xffffffffffffeb30
	add	x10, x9, x10
	b	.LBB40_29
.LBB40_26:                              // %join.3.i.i.i32
	sub	w10, w11, #48
	cmp	w10, #9
	mov	w10, #1000                      // =0x3e8
	b.hi	.LBB40_29
// %bb.27:                              // %join.3.i.i.i32
	sub	w12, w9, #48
	cmp	w12, #9
	b.hi	.LBB40_29
// %bb.28:                              // %then.7.i.i.i36
	mov	w10, #10                        // =0xa
	umaddl	x9, w11, w10, x9
	sub	x10, x9, #528
.LBB40_29:                              // %"molfile::number_at.exit46"
	cmp	x8, #1000
	b.eq	.LBB40_31
// %bb.30:                              // %join.7
	cmp	x10, #1000
	b.ne	.LBB40_32
.LBB40_31:                              // %then.5
	adrp	x8, .LCPI40_0
	stp	x20, xzr, [x19, #16]
	ldr	q0, [x8, :lo12:.LCPI40_0]
	str	q0, [x19]
	ldp	x20, x19, [sp, #32]             // 16-byte Folded Reload
	ldp	x22, x21, [sp, #16]             // 16-byte Folded Reload
	ldp	x29, x30, [sp], #48             // 16-byte Folded Reload
	ret
.LBB40_32:                              // %join.10
	stp	xzr, x8, [x19]
	stp	x10, x21, [x19, #16]
	ldp	x20, x19, [sp, #32]             // 16-byte Folded Reload
	ldp	x22, x21, [sp, #16]             // 16-byte Folded Reload
	ldp	x29, x30, [sp], #48             // 16-byte Folded Reload
	ret
.Lfunc_end40:
	.size	"molfile::two_numbers", .Lfunc_end40-"molfile::two_numbers"
                                        // -- End function
	.section	.rodata.cst16,"aM",@progbits,16
	.p2align	4, 0x0                          // -- Begin function molfile::lists
.LCPI41_0:
	.xword	1                               // 0x1
	.xword	25                              // 0x19
	.section	".text.molfile::lists","ax",@progbits
	.p2align	2
	.type	"molfile::lists",@function
"molfile::lists":                       // @"molfile::lists"
// %bb.0:                               // %start
	sub	sp, sp, #144
	stp	x28, x27, [sp, #64]             // 16-byte Folded Spill
	stp	x20, x19, [sp, #128]            // 16-byte Folded Spill
	ldp	x19, x28, [x3]
	stp	x22, x21, [sp, #112]            // 16-byte Folded Spill
	ldr	x22, [x3, #16]
	mov	x20, x2
	stp	x24, x23, [sp, #96]             // 16-byte Folded Spill
	mov	x23, x6
	mov	x24, x5
	mov	x21, x1
	stp	x29, x30, [sp, #48]             // 16-byte Folded Spill
	add	x29, sp, #48
	stp	x26, x25, [sp, #80]             // 16-byte Folded Spill
	str	x0, [sp, #8]                    // 8-byte Spill
	cbz	x19, .LBB41_24
// %bb.1:                               // %join.5.i.preheader
	mov	x25, x4
	mov	x27, x19
	b	.LBB41_4
.LBB41_2:                               //   in Loop: Header=BB41_4 Depth=1
	mov	w9, wzr
.LBB41_3:                               // %"molfile::mark.exit.i"
                                        //   in Loop: Header=BB41_4 Depth=1
	subs	x27, x27, #1
	strb	w9, [x25], #1
	b.eq	.LBB41_24
.LBB41_4:                               // %join.5.i
                                        // =>This Inner Loop Header: Depth=1
	cmp	x20, x22
	b.ls	.LBB41_51
// %bb.5:                               // %join.3.i.i
                                        //   in Loop: Header=BB41_4 Depth=1
	mov	x0, x21
	mov	x1, x20
	mov	x2, x22
	mov	x26, x22
	bl	"text::line_end"
	cmp	x20, x0
	sub	x8, x0, x22
	b.ls	.LBB41_10
// %bb.6:                               // %join.3.i.i.i
                                        //   in Loop: Header=BB41_4 Depth=1
	cbz	x8, .LBB41_50
// %bb.7:                               // %join.7.i.i.i
                                        //   in Loop: Header=BB41_4 Depth=1
	add	x9, x21, x0
	ldurb	w9, [x9, #-1]
	cmp	w9, #13
	b.ne	.LBB41_9
// %bb.8:                               // %then.8.i.i.i
                                        //   in Loop: Header=BB41_4 Depth=1
	sub	x8, x8, #1
.LBB41_9:                               // %join.10.i.i.i
                                        //   in Loop: Header=BB41_4 Depth=1
	add	x22, x0, #1
	cmp	x8, #32
	b.hs	.LBB41_11
	b	.LBB41_50
.LBB41_10:                              //   in Loop: Header=BB41_4 Depth=1
	mov	x22, x20
	cmp	x8, #32
	b.lo	.LBB41_50
.LBB41_11:                              // %"molfile::symbol.exit.i.i"
                                        //   in Loop: Header=BB41_4 Depth=1
	cmp	x8, #32
	add	x10, x21, x26
	b.ne	.LBB41_17
// %bb.12:                              //   in Loop: Header=BB41_4 Depth=1
	mov	w9, #32                         // =0x20
	ldrb	w10, [x10, #31]
	cmp	w10, #72
	b.eq	.LBB41_20
.LBB41_13:                              // %"molfile::symbol.exit13.i.i"
                                        //   in Loop: Header=BB41_4 Depth=1
	cmp	w10, #32
	b.ne	.LBB41_2
// %bb.14:                              // %then.7.i.i.i
                                        //   in Loop: Header=BB41_4 Depth=1
	cmp	w9, #32
	b.eq	.LBB41_22
// %bb.15:                              // %then.7.i.i.i
                                        //   in Loop: Header=BB41_4 Depth=1
	cmp	w9, #72
	b.ne	.LBB41_2
// %bb.16:                              // %then.10.i.i.i
                                        //   in Loop: Header=BB41_4 Depth=1
	cmp	w8, #32
	b.ne	.LBB41_2
	b	.LBB41_23
.LBB41_17:                              // %"molfile::symbol.exit7.i.i"
                                        //   in Loop: Header=BB41_4 Depth=1
	ldrb	w9, [x10, #32]
	cmp	x8, #34
	b.lo	.LBB41_19
// %bb.18:                              // %then.1.i10.i.i
                                        //   in Loop: Header=BB41_4 Depth=1
	ldrb	w8, [x10, #33]
	ldrb	w10, [x10, #31]
	cmp	w10, #72
	b.ne	.LBB41_13
	b	.LBB41_20
.LBB41_19:                              //   in Loop: Header=BB41_4 Depth=1
	mov	w8, #32                         // =0x20
	ldrb	w10, [x10, #31]
	cmp	w10, #72
	b.ne	.LBB41_13
.LBB41_20:                              // %"molfile::one_h.exit.i.i"
                                        //   in Loop: Header=BB41_4 Depth=1
	cmp	w9, #32
	mov	w9, wzr
	b.ne	.LBB41_3
// %bb.21:                              // %"molfile::one_h.exit.i.i"
                                        //   in Loop: Header=BB41_4 Depth=1
	cmp	w8, #32
	b.eq	.LBB41_23
	b	.LBB41_3
.LBB41_22:                              // %then.13.i.i.i
                                        //   in Loop: Header=BB41_4 Depth=1
	cmp	w8, #72
	b.ne	.LBB41_2
.LBB41_23:                              //   in Loop: Header=BB41_4 Depth=1
	mov	w9, #1                          // =0x1
	b	.LBB41_3
.LBB41_24:                              // %arm.1
	cbz	x28, .LBB41_29
.LBB41_25:                              // %join.5.i.i
                                        // =>This Inner Loop Header: Depth=1
	add	x0, sp, #16
	mov	x1, x21
	mov	x2, x20
	mov	x3, x22
	bl	"molfile::two_numbers"
	ldp	x9, x8, [sp, #24]
	ldrb	w11, [sp, #16]
	mov	x10, x9
	mov	x0, x8
	cbnz	w11, .LBB41_54
// %bb.26:                              // %arm.1.i.i.i
                                        //   in Loop: Header=BB41_25 Depth=1
	sub	x10, x9, #1
	cmp	x10, x19
	mov	w10, #27                        // =0x1b
	b.hs	.LBB41_53
// %bb.27:                              // %arm.1.i.i.i
                                        //   in Loop: Header=BB41_25 Depth=1
	sub	x11, x8, #1
	mov	x0, x22
	cmp	x11, x19
	b.hs	.LBB41_54
// %bb.28:                              // %arm.6.i.i
                                        //   in Loop: Header=BB41_25 Depth=1
	ldr	x22, [sp, #40]
	subs	x28, x28, #1
	strh	w9, [x24], #2
	strh	w8, [x23], #2
	b.ne	.LBB41_25
.LBB41_29:                              // %arm.1.i
	ldr	x19, [sp, #8]                   // 8-byte Reload
	cmp	x22, x20
	b.hs	.LBB41_52
// %bb.30:                              // %join.5.i4.i.preheader
	mov	x2, x22
	b	.LBB41_34
.LBB41_31:                              //   in Loop: Header=BB41_34 Depth=1
	mov	x8, xzr
.LBB41_32:                              // %"text::starts_with.exit.i.i"
                                        //   in Loop: Header=BB41_34 Depth=1
	cmp	x8, #4
	b.hi	.LBB41_57
.LBB41_33:                              // %join.8.i.i
                                        //   in Loop: Header=BB41_34 Depth=1
	mov	x0, x21
	mov	x1, x20
	bl	"text::line_end"
	cmp	x20, x0
	csinc	x2, x20, x0, ls
	cmp	x2, x20
	b.hs	.LBB41_52
.LBB41_34:                              // %join.5.i4.i
                                        // =>This Inner Loop Header: Depth=1
	add	x10, x21, x2
	mvn	x8, x2
	add	x9, x20, x8
	ldrb	w11, [x10]
	mov	w8, #5                          // =0x5
	cmp	x9, #5
	csel	x8, x9, x8, lo
	cmp	w11, #77
	b.ne	.LBB41_33
// %bb.35:                              // %loop.2.i.i.i
                                        //   in Loop: Header=BB41_34 Depth=1
	cbz	x9, .LBB41_32
// %bb.36:                              // %join.8.i.i.i
                                        //   in Loop: Header=BB41_34 Depth=1
	ldrb	w11, [x10, #1]
	cmp	w11, #32
	b.ne	.LBB41_31
// %bb.37:                              // %loop.2.i.i.i.1
                                        //   in Loop: Header=BB41_34 Depth=1
	cmp	x9, #1
	b.eq	.LBB41_32
// %bb.38:                              // %join.8.i.i.i.1
                                        //   in Loop: Header=BB41_34 Depth=1
	ldrb	w11, [x10, #2]
	cmp	w11, #32
	b.ne	.LBB41_46
// %bb.39:                              // %loop.2.i.i.i.2
                                        //   in Loop: Header=BB41_34 Depth=1
	cmp	x9, #2
	b.eq	.LBB41_32
// %bb.40:                              // %join.8.i.i.i.2
                                        //   in Loop: Header=BB41_34 Depth=1
	ldrb	w11, [x10, #3]
	cmp	w11, #69
	b.ne	.LBB41_47
// %bb.41:                              // %loop.2.i.i.i.3
                                        //   in Loop: Header=BB41_34 Depth=1
	cmp	x9, #3
	b.eq	.LBB41_32
// %bb.42:                              // %join.8.i.i.i.3
                                        //   in Loop: Header=BB41_34 Depth=1
	ldrb	w11, [x10, #4]
	cmp	w11, #78
	b.ne	.LBB41_48
// %bb.43:                              // %loop.2.i.i.i.4
                                        //   in Loop: Header=BB41_34 Depth=1
	cmp	x9, #4
	b.eq	.LBB41_32
// %bb.44:                              // %join.8.i.i.i.4
                                        //   in Loop: Header=BB41_34 Depth=1
	ldrb	w10, [x10, #5]
	cmp	w10, #68
	b.ne	.LBB41_49
// %bb.45:                              // %loop.2.i.i.i.5
                                        //   in Loop: Header=BB41_34 Depth=1
	cmp	x9, #4
	mov	w9, #5                          // =0x5
	csel	x8, x8, x9, hi
	b	.LBB41_32
.LBB41_46:                              //   in Loop: Header=BB41_34 Depth=1
	mov	w8, #1                          // =0x1
	b	.LBB41_32
.LBB41_47:                              //   in Loop: Header=BB41_34 Depth=1
	mov	w8, #2                          // =0x2
	b	.LBB41_32
.LBB41_48:                              //   in Loop: Header=BB41_34 Depth=1
	mov	w8, #3                          // =0x3
	b	.LBB41_32
.LBB41_49:                              //   in Loop: Header=BB41_34 Depth=1
	mov	w8, #4                          // =0x4
	b	.LBB41_32
.LBB41_50:
	mov	x20, x26
.LBB41_51:                              // %arm.2
	adrp	x8, .LCPI41_0
	ldr	q0, [x8, :lo12:.LCPI41_0]
	ldr	x8, [sp, #8]                    // 8-byte Reload
	str	q0, [x8]
	str	x20, [x8, #16]
	b	.LBB41_56
.LBB41_52:
	mov	w22, #25                        // =0x19
	mov	w8, #1                          // =0x1
	b	.LBB41_55
.LBB41_53:
	mov	x0, x22
.LBB41_54:                              // %arm.2.i3
	ldr	x19, [sp, #8]                   // 8-byte Reload
	mov	w8, #1                          // =0x1
	mov	x22, x10
	mov	x20, x0
.LBB41_55:                              // %"molfile::rest.exit"
	stp	x8, x22, [x19]
	str	x20, [x19, #16]
.LBB41_56:                              // %common.ret
	ldp	x20, x19, [sp, #128]            // 16-byte Folded Reload
	ldp	x22, x21, [sp, #112]            // 16-byte Folded Reload
	ldp	x24, x23, [sp, #96]             // 16-byte Folded Reload
	ldp	x26, x25, [sp, #80]             // 16-byte Folded Reload
	ldp	x28, x27, [sp, #64]             // 16-byte Folded Reload
	ldp	x29, x30, [sp, #48]             // 16-byte Folded Reload
	add	sp, sp, #144
	ret
.LBB41_57:
	mov	x8, xzr
	mov	x20, xzr
	b	.LBB41_55
.Lfunc_end41:
	.size	"molfile::lists", .Lfunc_end41-"molfile::lists"
                                        // -- End function
	.section	.rodata.cst16,"aM",@progbits,16
	.p2align	4, 0x0                          // -- Begin function neighbours::read
.LCPI42_0:
	.xword	1                               // 0x1
	.xword	22                              // 0x16
.LCPI42_1:
	.xword	1                               // 0x1
	.xword	21                              // 0x15
	.section	".text.neighbours::read","ax",@progbits
	.p2align	2
	.type	"neighbours::read",@function
"neighbours::read":                     // @"neighbours::read"
// %bb.0:                               // %start
	cbz	x2, .LBB42_29
// %bb.1:                               // %join.5.i.preheader
	mov	x11, xzr
	mov	x9, xzr
	mov	x8, xzr
	b	.LBB42_4
.LBB42_2:                               // %"neighbours::scan::value_after.exit.i"
                                        //   in Loop: Header=BB42_4 Depth=1
	mov	w13, #10                        // =0xa
	madd	x11, x11, x13, x12
	sub	x12, x11, #48
	mov	w11, #1000                      // =0x3e8
	cmp	x12, #1000
	csel	x11, x12, x11, lo
	cmp	x12, #999
	b.hi	.LBB42_8
// %bb.3:                               // %join.11.i
                                        //   in Loop: Header=BB42_4 Depth=1
	add	x12, x8, #1
	cmp	w10, #10
	csinc	x9, x9, x8, lo
	cmp	x2, x12
	mov	x8, x12
	b.eq	.LBB42_11
.LBB42_4:                               // %join.5.i
                                        // =>This Inner Loop Header: Depth=1
	ldrb	w12, [x1, x8]
	sub	w10, w12, #48
	cmp	w10, #10
	b.lo	.LBB42_2
// %bb.5:                               // %else.2.i.i
                                        //   in Loop: Header=BB42_4 Depth=1
	cmp	w12, #32
	b.hi	.LBB42_9
// %bb.6:                               // %else.2.i.i
                                        //   in Loop: Header=BB42_4 Depth=1
	mov	w11, #1                         // =0x1
	lsl	x11, x11, x12
	mov	x12, #9728                      // =0x2600
	movk	x12, #1, lsl #32
	tst	x11, x12
	b.eq	.LBB42_9
// %bb.7:                               //   in Loop: Header=BB42_4 Depth=1
	mov	x11, xzr
	add	x12, x8, #1
	cmp	w10, #10
	csinc	x9, x9, x8, lo
	cmp	x2, x12
	mov	x8, x12
	b.ne	.LBB42_4
	b	.LBB42_11
.LBB42_8:
	mov	x8, x9
.LBB42_9:                               // %"neighbours::scan::fault.exit"
	cmp	x8, x2
	b.hs	.LBB42_11
// %bb.10:                              // %then.1
	adrp	x9, .LCPI42_1
	str	x8, [x0, #16]
	ldr	q0, [x9, :lo12:.LCPI42_1]
	str	q0, [x0]
	ret
.LBB42_11:                              // %join.5.i.i.preheader
	mov	x8, xzr
.LBB42_12:                              // %join.5.i.i
                                        // =>This Inner Loop Header: Depth=1
	ldrb	w9, [x1, x8]
	sub	w10, w9, #48
	cmp	w10, #10
	b.lo	.LBB42_14
// %bb.13:                              // %join.8.i.i
                                        //   in Loop: Header=BB42_12 Depth=1
	add	x8, x8, #1
	cmp	x2, x8
	b.ne	.LBB42_12
	b	.LBB42_29
.LBB42_14:                              // %"neighbours::scan::skip.exit.i"
	cmp	x2, x8
	b.ls	.LBB42_29
// %bb.15:                              // %join.3.i
	stp	x29, x30, [sp, #-64]!           // 16-byte Folded Spill
	stp	x28, x23, [sp, #16]             // 16-byte Folded Spill
	mov	x29, sp
	stp	x22, x21, [sp, #32]             // 16-byte Folded Spill
	stp	x20, x19, [sp, #48]             // 16-byte Folded Spill
	sub	sp, sp, #896
	add	x8, x8, #1
	sub	x19, x9, #48
	cmp	x8, x2
	b.hs	.LBB42_19
.LBB42_16:                              // %join.5.i15.i
                                        // =>This Inner Loop Header: Depth=1
	ldrb	w9, [x1, x8]
	sub	w10, w9, #48
	cmp	w10, #9
	b.hi	.LBB42_19
// %bb.17:                              // %join.8.i18.i
                                        //   in Loop: Header=BB42_16 Depth=1
	mov	w10, #10                        // =0xa
	add	x8, x8, #1
	madd	x9, x19, x10, x9
	mov	w10, #1000                      // =0x3e8
	sub	x9, x9, #48
	cmp	x9, #1000
	csel	x19, x9, x10, lo
	cmp	x2, x8
	b.ne	.LBB42_16
// %bb.18:
	mov	x8, x2
.LBB42_19:                              // %loop.2.i.preheader
	mov	x11, xzr
	mov	x10, xzr
	mov	x9, x8
	cmp	x8, x2
	b.hs	.LBB42_22
.LBB42_20:                              // %join.5.i.i.i
                                        // =>This Inner Loop Header: Depth=1
	ldrb	w12, [x1, x9]
	sub	w12, w12, #48
	cmp	w12, #10
	b.lo	.LBB42_22
// %bb.21:                              // %join.8.i.i.i
                                        //   in Loop: Header=BB42_20 Depth=1
	add	x9, x9, #1
	cmp	x2, x9
	b.ne	.LBB42_20
	b	.LBB42_30
.LBB42_22:                              // %"neighbours::scan::skip.exit.i.i"
                                        // =>This Loop Header: Depth=1
                                        //     Child Loop BB42_24 Depth 2
	cmp	x2, x9
	b.ls	.LBB42_30
// %bb.23:                              // %join.3.i.i
                                        //   in Loop: Header=BB42_22 Depth=1
	ldrb	w12, [x1, x9]
	mov	w14, #1000                      // =0x3e8
	add	x9, x9, #1
	sub	x13, x12, #48
	cmp	x13, #1000
	csel	x13, x13, x14, lo
	cmp	w12, #48
	csel	x12, xzr, x13, lo
	cmp	x9, x2
	b.hs	.LBB42_27
.LBB42_24:                              // %join.5.i15.i.i
                                        //   Parent Loop BB42_22 Depth=1
                                        // =>  This Inner Loop Header: Depth=2
	ldrb	w13, [x1, x9]
	sub	w14, w13, #48
	cmp	w14, #9
	b.hi	.LBB42_27
// %bb.25:                              // %join.8.i18.i.i
                                        //   in Loop: Header=BB42_24 Depth=2
	mov	w14, #10                        // =0xa
	add	x9, x9, #1
	madd	x12, x12, x14, x13
	mov	w13, #1000                      // =0x3e8
	sub	x12, x12, #48
	cmp	x12, #1000
	csel	x12, x12, x13, lo
	cmp	x2, x9
	b.ne	.LBB42_24
// %bb.26:                              //   in Loop: Header=BB42_22 Depth=1
	mov	x9, x2
.LBB42_27:                              // %join.5.i17
                                        //   in Loop: Header=BB42_22 Depth=1
	orr	x13, x12, x11
	cbz	x13, .LBB42_32
// %bb.28:                              // %join.8.i
                                        //   in Loop: Header=BB42_22 Depth=1
	sub	x13, x11, #1
	cmp	x13, x12
	cinc	x10, x10, lo
	cmp	x11, #0
	csel	x11, x12, x11, eq
	cmp	x12, #0
	csel	x11, xzr, x11, eq
	cmp	x9, x2
	b.lo	.LBB42_20
	b	.LBB42_22
.LBB42_29:                              // %then.4
	adrp	x8, .LCPI42_0
	str	x2, [x0, #16]
	ldr	q0, [x8, :lo12:.LCPI42_0]
	str	q0, [x0]
	ret
.LBB42_30:
	mov	x9, x2
.LBB42_31:                              // %arm.8
	adrp	x8, .LCPI42_0
	str	x9, [x0, #16]
	ldr	q0, [x8, :lo12:.LCPI42_0]
	str	q0, [x0]
	add	sp, sp, #896
	ldp	x20, x19, [sp, #48]             // 16-byte Folded Reload
	ldp	x22, x21, [sp, #32]             // 16-byte Folded Reload
	ldp	x28, x23, [sp, #16]             // 16-byte Folded Reload
	ldp	x29, x30, [sp], #64             // 16-byte Folded Reload
	ret
.LBB42_32:                              // %then.6.i
	cmp	x9, x2
	b.hs	.LBB42_35
.LBB42_33:                              // %join.5.i.i.i.i
                                        // =>This Inner Loop Header: Depth=1
	ldrb	w11, [x1, x9]
	sub	w11, w11, #48
	cmp	w11, #10
	b.lo	.LBB42_35
// %bb.34:                              // %join.8.i.i.i.i
                                        //   in Loop: Header=BB42_33 Depth=1
	add	x9, x9, #1
	cmp	x2, x9
	b.ne	.LBB42_33
	b	.LBB42_36
.LBB42_35:                              // %"neighbours::scan::skip.exit.i.i.i"
	cmp	x2, x9
	b.hi	.LBB42_31
.LBB42_36:                              // %arm.7
	sub	x9, x19, #65
	cmn	x9, #64
	b.hs	.LBB42_38
// %bb.37:
	mov	x1, xzr
	mov	w8, #1                          // =0x1
	mov	w19, #1                         // =0x1
	b	.LBB42_62
.LBB42_38:                              // %join.6.i
	cmp	x10, #192
	b.ls	.LBB42_40
// %bb.39:
	mov	x1, xzr
	mov	w19, #2                         // =0x2
	mov	w8, #1                          // =0x1
	b	.LBB42_62
.LBB42_40:                              // %join.9.i
	movi	v0.2d, #0000000000000000
	mov	x9, xzr
	mov	x20, xzr
	mov	x21, x0
	stp	q0, q0, [sp]
	stp	q0, q0, [sp, #32]
	stp	q0, q0, [sp, #64]
	stp	q0, q0, [sp, #96]
	stp	q0, q0, [sp, #128]
	stp	q0, q0, [sp, #160]
	stp	q0, q0, [sp, #192]
	stp	q0, q0, [sp, #224]
	stp	q0, q0, [sp, #256]
	stp	q0, q0, [sp, #288]
	stp	q0, q0, [sp, #320]
	stp	q0, q0, [sp, #352]
	b	.LBB42_42
.LBB42_41:                              // %"neighbours::bonds::put.exit.i.i.i"
                                        //   in Loop: Header=BB42_42 Depth=1
	cmp	x9, #0
	csel	x9, x10, x9, eq
	cmp	x10, #0
	csel	x9, xzr, x9, eq
.LBB42_42:                              // %loop.2.i.i.i
                                        // =>This Loop Header: Depth=1
                                        //     Child Loop BB42_43 Depth 2
                                        //     Child Loop BB42_47 Depth 2
	cmp	x8, x2
	b.hs	.LBB42_45
.LBB42_43:                              // %join.5.i.i.i.i.i
                                        //   Parent Loop BB42_42 Depth=1
                                        // =>  This Inner Loop Header: Depth=2
	ldrb	w10, [x1, x8]
	sub	w10, w10, #48
	cmp	w10, #10
	b.lo	.LBB42_45
// %bb.44:                              // %join.8.i.i.i.i.i
                                        //   in Loop: Header=BB42_43 Depth=2
	add	x8, x8, #1
	cmp	x2, x8
	b.ne	.LBB42_43
	b	.LBB42_54
.LBB42_45:                              // %"neighbours::scan::skip.exit.i.i.i.i"
                                        //   in Loop: Header=BB42_42 Depth=1
	cmp	x2, x8
	b.ls	.LBB42_54
// %bb.46:                              // %join.3.i.i.i.i
                                        //   in Loop: Header=BB42_42 Depth=1
	ldrb	w10, [x1, x8]
	mov	w12, #1000                      // =0x3e8
	add	x8, x8, #1
	sub	x11, x10, #48
	cmp	x11, #1000
	csel	x11, x11, x12, lo
	cmp	w10, #48
	csel	x10, xzr, x11, lo
	cmp	x8, x2
	b.hs	.LBB42_50
.LBB42_47:                              // %join.5.i15.i.i.i.i
                                        //   Parent Loop BB42_42 Depth=1
                                        // =>  This Inner Loop Header: Depth=2
	ldrb	w11, [x1, x8]
	sub	w12, w11, #48
	cmp	w12, #9
	b.hi	.LBB42_50
// %bb.48:                              // %join.8.i18.i.i.i.i
                                        //   in Loop: Header=BB42_47 Depth=2
	mov	w12, #10                        // =0xa
	add	x8, x8, #1
	madd	x10, x10, x12, x11
	mov	w11, #1000                      // =0x3e8
	sub	x10, x10, #48
	cmp	x10, #1000
	csel	x10, x10, x11, lo
	cmp	x2, x8
	b.ne	.LBB42_47
// %bb.49:                              //   in Loop: Header=BB42_42 Depth=1
	mov	x8, x2
.LBB42_50:                              // %join.5.i.i.i20
                                        //   in Loop: Header=BB42_42 Depth=1
	cbnz	x9, .LBB42_52
// %bb.51:                              // %join.5.i.i.i20
                                        //   in Loop: Header=BB42_42 Depth=1
	cmp	x19, x10
	b.lo	.LBB42_63
.LBB42_52:                              // %join.9.i.i.i
                                        //   in Loop: Header=BB42_42 Depth=1
	sub	x11, x9, #1
	cmp	x11, x10
	b.hs	.LBB42_41
// %bb.53:                              // %then.1.i6.i.i.i
                                        //   in Loop: Header=BB42_42 Depth=1
	cmp	x9, #255
	mov	w11, #255                       // =0xff
	mov	x12, sp
	csel	x13, x9, x11, lo
	cmp	x10, #255
	add	x12, x12, x20
	csel	x11, x10, x11, lo
	add	x20, x20, #2
	strb	w13, [x12]
	strb	w11, [x12, #1]
	b	.LBB42_41
.LBB42_54:                              // %"neighbours::bonds::fill.exit.thread.i.i"
	movi	v0.2d, #0000000000000000
	mov	x22, x3
	mov	x1, sp
	add	x3, sp, #384
	mov	x0, x19
	mov	x2, x20
	mov	x23, x4
	stp	q0, q0, [sp, #384]
	stp	q0, q0, [sp, #416]
	stp	q0, q0, [sp, #448]
	stp	q0, q0, [sp, #480]
	stp	q0, q0, [sp, #512]
	stp	q0, q0, [sp, #544]
	stp	q0, q0, [sp, #576]
	stp	q0, q0, [sp, #608]
	stp	q0, q0, [sp, #640]
	stp	q0, q0, [sp, #672]
	stp	q0, q0, [sp, #704]
	stp	q0, q0, [sp, #736]
	stp	q0, q0, [sp, #768]
	stp	q0, q0, [sp, #800]
	stp	q0, q0, [sp, #832]
	stp	q0, q0, [sp, #864]
	bl	"block::admit"
	tbz	w0, #0, .LBB42_57
// %bb.55:                              // %"block::check.exit.i.i.i.thread.i"
	mov	x0, x21
	cmp	x23, x20
	b.hs	.LBB42_59
// %bb.56:
	mov	x1, xzr
	mov	w19, #9                         // =0x9
	mov	w8, #1                          // =0x1
	b	.LBB42_62
.LBB42_57:                              // %"block::check.exit.thread.i.i.i.thread.i"
	mov	x1, sp
	mov	x0, x19
	mov	x2, x20
	bl	"block::refusal"
	mov	x19, x0
.LBB42_58:                              // %"neighbours::bonds_of.exit.i"
	mov	w8, #1                          // =0x1
	mov	x0, x21
	b	.LBB42_62
.LBB42_59:                              // %join.7.i.i.i
	cbz	x20, .LBB42_61
// %bb.60:                              // %join.5.i.preheader.i.i.i
	mov	x1, sp
	mov	x0, x22
	mov	x2, x20
	bl	memcpy
	mov	x0, x21
.LBB42_61:                              // %"text::writing::put.exit.i.i.i"
	lsr	x1, x20, #1
	mov	x8, xzr
.LBB42_62:                              // %"neighbours::block_of.exit"
	stp	x8, x19, [x0]
	str	x1, [x0, #16]
	add	sp, sp, #896
	ldp	x20, x19, [sp, #48]             // 16-byte Folded Reload
	ldp	x22, x21, [sp, #32]             // 16-byte Folded Reload
	ldp	x28, x23, [sp, #16]             // 16-byte Folded Reload
	ldp	x29, x30, [sp], #64             // 16-byte Folded Reload
	ret
.LBB42_63:                              // %"neighbours::bonds::fill.exit.i.i"
	movi	v0.2d, #0000000000000000
	mov	x1, sp
	add	x3, sp, #384
	mov	x0, x19
	mov	x2, x20
	stp	q0, q0, [sp, #384]
	stp	q0, q0, [sp, #416]
	stp	q0, q0, [sp, #448]
	stp	q0, q0, [sp, #480]
	stp	q0, q0, [sp, #512]
	stp	q0, q0, [sp, #544]
	stp	q0, q0, [sp, #576]
	stp	q0, q0, [sp, #608]
	stp	q0, q0, [sp, #640]
	stp	q0, q0, [sp, #672]
	stp	q0, q0, [sp, #704]
	stp	q0, q0, [sp, #736]
	stp	q0, q0, [sp, #768]
	stp	q0, q0, [sp, #800]
	stp	q0, q0, [sp, #832]
	stp	q0, q0, [sp, #864]
	bl	"block::admit"
	tbz	w0, #0, .LBB42_65
// %bb.64:                              // %"block::check.exit.i.i.i.i"
	lsr	x8, x20, #1
	mov	w19, #3                         // =0x3
	add	x1, x8, #1
	b	.LBB42_58
.LBB42_65:                              // %"block::check.exit.thread.i.i.i.i"
	mov	x1, sp
	mov	x0, x19
	mov	x2, x20
	bl	"block::refusal"
	lsr	x8, x20, #1
	cmp	x0, #7
	mov	w9, #3                          // =0x3
	csel	x19, x9, x0, eq
	csinc	x1, x1, x8, ne
	b	.LBB42_58
.Lfunc_end42:
	.size	"neighbours::read", .Lfunc_end42-"neighbours::read"
                                        // -- End function
	.section	".text.wholefile::read_whole","ax",@progbits
	.p2align	2                               // -- Begin function wholefile::read_whole
	.type	"wholefile::read_whole",@function
"wholefile::read_whole":                // @"wholefile::read_whole"
// %bb.0:                               // %start
	str	d8, [sp, #-80]!                 // 8-byte Folded Spill
	stp	x29, x30, [sp, #16]             // 16-byte Folded Spill
	add	x29, sp, #16
	stp	x28, x23, [sp, #32]             // 16-byte Folded Spill
	stp	x22, x21, [sp, #48]             // 16-byte Folded Spill
	stp	x20, x19, [sp, #64]             // 16-byte Folded Spill
	sub	sp, sp, #3072
	str	xzr, [sp]
	sub	sp, sp, #960
	mov	x22, x2
	mov	x23, x1
	mov	x19, x0
	add	x0, sp, #36
	mov	w1, wzr
	mov	w2, #3996                       // =0xf9c
	mov	x21, x4
	mov	x20, x3
	stp	xzr, xzr, [sp, #8]
	str	xzr, [sp, #24]
	bl	memset
	add	x0, sp, #8
	add	x3, sp, #36
	mov	x1, x23
	mov	x2, x22
	mov	w4, #1998                       // =0x7ce
	bl	"molfile::kept_bonds"
	ldp	x22, x8, [sp, #16]
	ldrb	w9, [sp, #8]
	cbz	w9, .LBB43_2
// %bb.1:                               // %arm.4
	mov	w9, #1                          // =0x1
	str	x8, [x19, #16]
	stp	x9, x22, [x19]
	b	.LBB43_31
.LBB43_2:                               // %arm.3
	cbz	x22, .LBB43_22
// %bb.3:                               // %join.3.i.i
	lsr	x23, x8, #1
	cbz	x23, .LBB43_20
// %bb.4:                               // %join.5.i.i.i.preheader
	add	x11, sp, #36
	mov	x10, xzr
	mov	x9, xzr
	add	x12, x11, #2
.LBB43_5:                               // %join.5.i.i.i
                                        // =>This Loop Header: Depth=1
                                        //     Child Loop BB43_12 Depth 2
                                        //     Child Loop BB43_15 Depth 2
	add	x14, x11, x9, lsl #2
	ldrh	w13, [x14]
	ldrh	w14, [x14, #2]
	sub	x15, x13, #1
	sub	x16, x14, #1
	cmp	x15, x22
	ccmp	x16, x22, #2, lo
	b.hs	.LBB43_25
// %bb.6:                               // %after.1.i.i.i.i
                                        //   in Loop: Header=BB43_5 Depth=1
	cmp	w13, w14
	b.eq	.LBB43_26
// %bb.7:                               // %join.14.i.i.i.i
                                        //   in Loop: Header=BB43_5 Depth=1
	cbz	x9, .LBB43_10
// %bb.8:                               // %join.5.i.i.i.i.i.preheader
                                        //   in Loop: Header=BB43_5 Depth=1
	cmp	x9, #8
	b.hs	.LBB43_11
// %bb.9:                               //   in Loop: Header=BB43_5 Depth=1
	mov	w17, wzr
	mov	x16, xzr
	mov	x18, xzr
	mov	x15, xzr
	b	.LBB43_14
.LBB43_10:                              //   in Loop: Header=BB43_5 Depth=1
	mov	x16, xzr
	mov	x18, xzr
	b	.LBB43_17
.LBB43_11:                              // %vector.ph
                                        //   in Loop: Header=BB43_5 Depth=1
	movi	v0.2d, #0000000000000000
	movi	v1.2d, #0000000000000000
	and	x16, x9, #0xfffffffffffffff8
	movi	v18.2d, #0000000000000000
	movi	v17.2d, #0000000000000000
	and	x15, x9, #0x7ffffffffffffff8
	movi	v16.2d, #0000000000000000
	movi	v7.2d, #0000000000000000
	add	x17, sp, #36
	movi	v3.2d, #0000000000000000
	movi	v2.2d, #0000000000000000
	movi	v4.2d, #0000000000000000
	dup	v5.8h, w13
	dup	v6.8h, w14
.LBB43_12:                              // %vector.body
                                        //   Parent Loop BB43_5 Depth=1
                                        // =>  This Inner Loop Header: Depth=2
	ld2	{ v21.8h, v22.8h }, [x17], #32
	mov	w18, #1                         // =0x1
	dup	v19.2d, x18
	subs	x16, x16, #8
	cmeq	v23.8h, v21.8h, v5.8h
	cmeq	v20.8h, v22.8h, v6.8h
	cmeq	v24.8h, v22.8h, v5.8h
	cmeq	v21.8h, v21.8h, v6.8h
	ushll	v22.4s, v23.4h, #0
	and	v25.16b, v23.16b, v20.16b
	ushll2	v23.4s, v23.8h, #0
	and	v26.16b, v21.16b, v24.16b
	ushll2	v29.4s, v21.8h, #0
	ushll	v21.4s, v21.4h, #0
	ushll	v28.4s, v24.4h, #0
	ushll2	v24.4s, v24.8h, #0
	ushll	v30.4s, v20.4h, #0
	ushll	v27.2d, v22.2s, #0
	ushll2	v22.2d, v22.4s, #0
	ushll2	v20.4s, v20.8h, #0
	orr	v25.16b, v25.16b, v26.16b
	ushll2	v26.2d, v23.4s, #0
	ushll	v23.2d, v23.2s, #0
	ushll	v31.2d, v28.2s, #0
	ushll2	v28.2d, v28.4s, #0
	ushll	v8.2d, v24.2s, #0
	and	v27.16b, v27.16b, v19.16b
	and	v22.16b, v22.16b, v19.16b
	ushll2	v24.2d, v24.4s, #0
	and	v23.16b, v23.16b, v19.16b
	and	v26.16b, v26.16b, v19.16b
	xtn	v25.8b, v25.8h
	and	v31.16b, v31.16b, v19.16b
	and	v28.16b, v28.16b, v19.16b
	and	v8.16b, v8.16b, v19.16b
	add	v18.2d, v18.2d, v27.2d
	ushll2	v27.2d, v29.4s, #0
	ushll	v29.2d, v29.2s, #0
	add	v17.2d, v17.2d, v22.2d
	ushll2	v22.2d, v21.4s, #0
	ushll	v21.2d, v21.2s, #0
	add	v16.2d, v16.2d, v23.2d
	add	v7.2d, v7.2d, v26.2d
	ushll	v23.2d, v30.2s, #0
	ushll2	v26.2d, v30.4s, #0
	and	v27.16b, v27.16b, v19.16b
	ushll	v30.2d, v20.2s, #0
	ushll2	v20.2d, v20.4s, #0
	and	v29.16b, v29.16b, v19.16b
	and	v22.16b, v22.16b, v19.16b
	and	v21.16b, v21.16b, v19.16b
	and	v24.16b, v24.16b, v19.16b
	and	v23.16b, v23.16b, v19.16b
	and	v26.16b, v26.16b, v19.16b
	and	v30.16b, v30.16b, v19.16b
	add	v4.2d, v4.2d, v27.2d
	and	v19.16b, v20.16b, v19.16b
	add	v0.2d, v0.2d, v22.2d
	add	v2.2d, v2.2d, v29.2d
	add	v3.2d, v3.2d, v21.2d
	orr	v1.8b, v1.8b, v25.8b
	add	v7.2d, v7.2d, v24.2d
	add	v16.2d, v16.2d, v8.2d
	add	v17.2d, v17.2d, v28.2d
	add	v18.2d, v18.2d, v31.2d
	add	v4.2d, v4.2d, v19.2d
	add	v2.2d, v2.2d, v30.2d
	add	v0.2d, v0.2d, v26.2d
	add	v3.2d, v3.2d, v23.2d
	b.ne	.LBB43_12
// %bb.13:                              // %middle.block
                                        //   in Loop: Header=BB43_5 Depth=1
	shl	v1.8b, v1.8b, #7
	add	v5.2d, v18.2d, v16.2d
	cmp	x9, x15
	add	v6.2d, v17.2d, v7.2d
	add	v2.2d, v3.2d, v2.2d
	add	v0.2d, v0.2d, v4.2d
	cmlt	v1.8b, v1.8b, #0
	add	v3.2d, v5.2d, v6.2d
	add	v0.2d, v2.2d, v0.2d
	umaxv	b1, v1.8b
	addp	d2, v3.2d
	addp	d0, v0.2d
	fmov	w16, s1
	fmov	x18, d0
	and	w17, w16, #0x1
	fmov	x16, d2
	b.eq	.LBB43_16
.LBB43_14:                              // %join.5.i.i.i.i.i.preheader1
                                        //   in Loop: Header=BB43_5 Depth=1
	add	x0, x12, x15, lsl #2
	add	x15, x15, x10
.LBB43_15:                              // %join.5.i.i.i.i.i
                                        //   Parent Loop BB43_5 Depth=1
                                        // =>  This Inner Loop Header: Depth=2
	ldurh	w1, [x0, #-2]
	ldrh	w2, [x0], #4
	cmp	w1, w13
	cset	w3, eq
	cinc	x16, x16, eq
	cmp	w1, w14
	cset	w1, eq
	cinc	x18, x18, eq
	cmp	w2, w13
	csel	w1, wzr, w1, ne
	cinc	x16, x16, eq
	cmp	w2, w14
	csel	w2, wzr, w3, ne
	cinc	x18, x18, eq
	adds	x15, x15, #1
	orr	w1, w2, w1
	orr	w17, w17, w1
	b.lo	.LBB43_15
.LBB43_16:                              // %"wholefile::look_back.exit.i.i.i.i"
                                        //   in Loop: Header=BB43_5 Depth=1
	tbnz	w17, #0, .LBB43_28
.LBB43_17:                              // %"wholefile::fault.exit.i.i.i"
                                        //   in Loop: Header=BB43_5 Depth=1
	cmp	x16, #5
	mov	w13, #6                         // =0x6
	b.hi	.LBB43_29
// %bb.18:                              // %"wholefile::fault.exit.i.i.i"
                                        //   in Loop: Header=BB43_5 Depth=1
	cmp	x18, #6
	b.hs	.LBB43_29
// %bb.19:                              // %join.9.i.i.i
                                        //   in Loop: Header=BB43_5 Depth=1
	add	x9, x9, #1
	sub	x10, x10, #1
	cmp	x9, x23
	b.ne	.LBB43_5
.LBB43_20:                              // %arm.1.i
	cmp	x21, x8
	b.hs	.LBB43_23
// %bb.21:
	mov	x23, xzr
	mov	w22, #9                         // =0x9
	mov	w8, #1                          // =0x1
	b	.LBB43_30
.LBB43_22:
	mov	x23, xzr
	mov	w8, #1                          // =0x1
	mov	w22, #1                         // =0x1
	b	.LBB43_30
.LBB43_23:                              // %join.7.i
	cbz	x8, .LBB43_27
// %bb.24:                              // %join.5.i.i.preheader
	lsl	x2, x8, #1
	add	x1, sp, #36
	mov	x0, x20
	bl	memcpy
	mov	x8, xzr
	b	.LBB43_30
.LBB43_25:
	mov	w13, #3                         // =0x3
	b	.LBB43_29
.LBB43_26:
	mov	w13, #4                         // =0x4
	b	.LBB43_29
.LBB43_27:
	mov	x23, xzr
	b	.LBB43_30
.LBB43_28:
	mov	w13, #5                         // =0x5
.LBB43_29:                              // %arm.6.i.i.i
	add	x23, x9, #1
	mov	w8, #1                          // =0x1
	mov	x22, x13
.LBB43_30:                              // %"wholefile::answer.exit"
	stp	x8, x22, [x19]
	str	x23, [x19, #16]
.LBB43_31:                              // %common.ret
	add	sp, sp, #4032
	ldp	x20, x19, [sp, #64]             // 16-byte Folded Reload
	ldp	x22, x21, [sp, #48]             // 16-byte Folded Reload
	ldp	x28, x23, [sp, #32]             // 16-byte Folded Reload
	ldp	x29, x30, [sp, #16]             // 16-byte Folded Reload
	ldr	d8, [sp], #80                   // 8-byte Folded Reload
	ret
.Lfunc_end43:
	.size	"wholefile::read_whole", .Lfunc_end43-"wholefile::read_whole"
                                        // -- End function
	.section	".text.sdfile::header_from","ax",@progbits
	.p2align	2                               // -- Begin function sdfile::header_from
	.type	"sdfile::header_from",@function
"sdfile::header_from":                  // @"sdfile::header_from"
// %bb.0:                               // %start
	stp	x29, x30, [sp, #-64]!           // 16-byte Folded Spill
	stp	x20, x19, [sp, #48]             // 16-byte Folded Spill
	mov	x19, x2
	cmp	x2, x1
	stp	x24, x23, [sp, #16]             // 16-byte Folded Spill
	mov	x29, sp
	stp	x22, x21, [sp, #32]             // 16-byte Folded Spill
	b.hs	.LBB44_26
// %bb.1:                               // %join.5.lr.ph
	mov	x22, x4
	mov	x20, x1
	mov	x21, x0
	cbz	x4, .LBB44_15
// %bb.2:                               // %join.5.preheader
	mov	x23, x3
	b	.LBB44_4
.LBB44_3:                               // %join.8
                                        //   in Loop: Header=BB44_4 Depth=1
	mov	x0, x21
	mov	x1, x20
	mov	x2, x19
	bl	"text::line_end"
	cmp	x20, x0
	csinc	x19, x20, x0, ls
	cmp	x19, x20
	b.hs	.LBB44_26
.LBB44_4:                               // %join.5
                                        // =>This Loop Header: Depth=1
                                        //     Child Loop BB44_9 Depth 2
                                        //       Child Loop BB44_13 Depth 3
	add	x24, x21, x19
	ldrb	w8, [x24]
	cmp	w8, #62
	b.ne	.LBB44_3
// %bb.5:                               // %join.3.i
                                        //   in Loop: Header=BB44_4 Depth=1
	mov	x0, x21
	mov	x1, x20
	mov	x2, x19
	bl	"text::line_end"
	subs	x8, x0, x19
	b.eq	.LBB44_3
// %bb.6:                               // %join.5.i.i.preheader
                                        //   in Loop: Header=BB44_4 Depth=1
	mov	x9, xzr
	add	x10, x21, #2
	b	.LBB44_9
.LBB44_7:                               // %"sdfile::is_tag.exit.i.loopexit.i"
                                        //   in Loop: Header=BB44_9 Depth=2
	ldrb	w11, [x11, x22]
	cmp	w11, #62
	b.eq	.LBB44_26
.LBB44_8:                               // %join.8.i.i
                                        //   in Loop: Header=BB44_9 Depth=2
	cmp	x8, x9
	add	x10, x10, #1
	b.eq	.LBB44_3
.LBB44_9:                               // %join.5.i.i
                                        //   Parent Loop BB44_4 Depth=1
                                        // =>  This Loop Header: Depth=2
                                        //       Child Loop BB44_13 Depth 3
	ldrb	w11, [x24, x9]
	add	x9, x9, #1
	cmp	w11, #60
	b.ne	.LBB44_8
// %bb.10:                              // %join.5.i.i
                                        //   in Loop: Header=BB44_9 Depth=2
	sub	x11, x8, x9
	cmp	x11, x22
	b.ls	.LBB44_8
// %bb.11:                              // %join.6.i.i.i
                                        //   in Loop: Header=BB44_9 Depth=2
	add	x11, x24, x9
	ldrb	w13, [x23]
	ldrb	w12, [x11]
	cmp	w12, w13
	b.ne	.LBB44_8
// %bb.12:                              // %loop.2.i.i.i.i.preheader
                                        //   in Loop: Header=BB44_9 Depth=2
	sub	x12, x22, #1
	mov	x13, x10
	add	x14, x23, #1
.LBB44_13:                              // %loop.2.i.i.i.i
                                        //   Parent Loop BB44_4 Depth=1
                                        //     Parent Loop BB44_9 Depth=2
                                        // =>    This Inner Loop Header: Depth=3
	cbz	x12, .LBB44_7
// %bb.14:                              // %join.8.i.i.i.i
                                        //   in Loop: Header=BB44_13 Depth=3
	ldrb	w15, [x13, x19]
	ldrb	w16, [x14], #1
	add	x13, x13, #1
	sub	x12, x12, #1
	cmp	w15, w16
	b.eq	.LBB44_13
	b	.LBB44_8
.LBB44_15:                              // %join.5.us.preheader
	add	x22, x21, #1
	b	.LBB44_17
.LBB44_16:                              // %join.8.us
                                        //   in Loop: Header=BB44_17 Depth=1
	mov	x0, x21
	mov	x1, x20
	mov	x2, x19
	bl	"text::line_end"
	cmp	x20, x0
	csinc	x19, x20, x0, ls
	cmp	x19, x20
	b.hs	.LBB44_26
.LBB44_17:                              // %join.5.us
                                        // =>This Loop Header: Depth=1
                                        //     Child Loop BB44_22 Depth 2
	ldrb	w8, [x21, x19]
	cmp	w8, #62
	b.ne	.LBB44_16
// %bb.18:                              // %join.3.i.us
                                        //   in Loop: Header=BB44_17 Depth=1
	mov	x0, x21
	mov	x1, x20
	mov	x2, x19
	bl	"text::line_end"
	cmp	x0, x19
	b.eq	.LBB44_16
// %bb.19:                              // %join.5.us.i.i.us.preheader
                                        //   in Loop: Header=BB44_17 Depth=1
	mvn	x9, x19
	add	x8, x22, x19
	add	x11, x9, x0
	mov	w9, #62                         // =0x3e
	b	.LBB44_22
.LBB44_20:                              // %join.6.i.us.i.i.us
                                        //   in Loop: Header=BB44_22 Depth=2
	ldrb	w9, [x8]
	cmp	w9, #62
	b.eq	.LBB44_26
.LBB44_21:                              // %join.5.us.i.i.us.backedge
                                        //   in Loop: Header=BB44_22 Depth=2
	add	x8, x8, #1
	mov	x11, x10
.LBB44_22:                              // %join.5.us.i.i.us
                                        //   Parent Loop BB44_17 Depth=1
                                        // =>  This Inner Loop Header: Depth=2
	subs	x10, x11, #1
	cset	w12, hs
	cmp	w9, #60
	b.ne	.LBB44_24
// %bb.23:                              // %join.5.us.i.i.us
                                        //   in Loop: Header=BB44_22 Depth=2
	tbnz	w12, #0, .LBB44_20
.LBB44_24:                              // %join.8.us.i.i.us
                                        //   in Loop: Header=BB44_22 Depth=2
	cbz	x11, .LBB44_16
// %bb.25:                              // %join.8.us.i.join.5.us.i.backedge_crit_edge.i.us
                                        //   in Loop: Header=BB44_22 Depth=2
	ldrb	w9, [x8]
	b	.LBB44_21
.LBB44_26:                              // %common.ret
	mov	x0, x19
	ldp	x20, x19, [sp, #48]             // 16-byte Folded Reload
	ldp	x22, x21, [sp, #32]             // 16-byte Folded Reload
	ldp	x24, x23, [sp, #16]             // 16-byte Folded Reload
	ldp	x29, x30, [sp], #64             // 16-byte Folded Reload
	ret
.Lfunc_end44:
	.size	"sdfile::header_from", .Lfunc_end44-"sdfile::header_from"
                                        // -- End function
	.section	.text.tteuyomal_balaban,"ax",@progbits
	.globl	tteuyomal_balaban               // -- Begin function tteuyomal_balaban
	.p2align	2
	.type	tteuyomal_balaban,@function
tteuyomal_balaban:                      // @tteuyomal_balaban
// %bb.0:                               // %start
	sub	sp, sp, #80
	mov	w9, #4096                       // =0x1000
	cmp	x1, #0
	stp	x20, x19, [sp, #64]             // 16-byte Folded Spill
	mov	x19, x3
	mov	x8, x0
	csel	x10, x9, xzr, eq
	mov	x3, x2
	cmp	x19, #0
	add	x0, sp, #8
	add	x2, x1, x10
	mov	x1, x8
	stp	x29, x30, [sp, #32]             // 16-byte Folded Spill
	str	x21, [sp, #48]                  // 8-byte Spill
	add	x29, sp, #32
	mov	x20, x4
	stp	xzr, xzr, [sp, #8]
	csel	x21, x9, xzr, eq
	str	xzr, [sp, #24]
	bl	"balaban::index"
	ldrb	w8, [sp, #8]
	ldr	x0, [sp, #16]
	cmp	w8, #1
	b.ne	.LBB45_2
// %bb.1:                               // %arm.1.i.i.i.i
	ldr	x8, [sp, #24]
	bfi	x0, x8, #8, #56
	ldp	x20, x19, [sp, #64]             // 16-byte Folded Reload
	ldr	x21, [sp, #48]                  // 8-byte Reload
	ldp	x29, x30, [sp, #32]             // 16-byte Folded Reload
	add	sp, sp, #80
	ret
.LBB45_2:                               // %arm.2.i.i.i.i
	cbz	x20, .LBB45_4
// %bb.3:                               // %join.5.i.i.i.i.i.i
	str	x0, [x19, x21]
	mov	x0, xzr
	ldp	x20, x19, [sp, #64]             // 16-byte Folded Reload
	ldr	x21, [sp, #48]                  // 8-byte Reload
	ldp	x29, x30, [sp, #32]             // 16-byte Folded Reload
	add	sp, sp, #80
	ret
.LBB45_4:
	mov	w0, #9                          // =0x9
	ldp	x20, x19, [sp, #64]             // 16-byte Folded Reload
	ldr	x21, [sp, #48]                  // 8-byte Reload
	ldp	x29, x30, [sp, #32]             // 16-byte Folded Reload
	add	sp, sp, #80
	ret
.Lfunc_end45:
	.size	tteuyomal_balaban, .Lfunc_end45-tteuyomal_balaban
                                        // -- End function
	.section	.text.tteuyomal_check_block,"ax",@progbits
	.globl	tteuyomal_check_block           // -- Begin function tteuyomal_check_block
	.p2align	2
	.type	tteuyomal_check_block,@function
tteuyomal_check_block:                  // @tteuyomal_check_block
// %bb.0:                               // %start
	stp	x29, x30, [sp, #-64]!           // 16-byte Folded Spill
	str	x28, [sp, #16]                  // 8-byte Spill
	mov	x29, sp
	stp	x22, x21, [sp, #32]             // 16-byte Folded Spill
	stp	x20, x19, [sp, #48]             // 16-byte Folded Spill
	sub	sp, sp, #512
	movi	v0.2d, #0000000000000000
	cmp	x1, #0
	mov	w8, #4096                       // =0x1000
	csel	x22, x8, xzr, eq
	mov	x21, x1
	mov	x3, sp
	add	x1, x1, x22
	mov	x19, x2
	mov	x20, x0
	stp	q0, q0, [sp]
	stp	q0, q0, [sp, #32]
	stp	q0, q0, [sp, #64]
	stp	q0, q0, [sp, #96]
	stp	q0, q0, [sp, #128]
	stp	q0, q0, [sp, #160]
	stp	q0, q0, [sp, #192]
	stp	q0, q0, [sp, #224]
	stp	q0, q0, [sp, #256]
	stp	q0, q0, [sp, #288]
	stp	q0, q0, [sp, #320]
	stp	q0, q0, [sp, #352]
	stp	q0, q0, [sp, #384]
	stp	q0, q0, [sp, #416]
	stp	q0, q0, [sp, #448]
	stp	q0, q0, [sp, #480]
	bl	"block::admit"
	cbz	w0, .LBB46_2
// %bb.1:                               // %"block::check.exit.thread.i.i.i"
	mov	x0, xzr
	add	sp, sp, #512
	ldp	x20, x19, [sp, #48]             // 16-byte Folded Reload
	ldr	x28, [sp, #16]                  // 8-byte Reload
	ldp	x22, x21, [sp, #32]             // 16-byte Folded Reload
	ldp	x29, x30, [sp], #64             // 16-byte Folded Reload
	ret
.LBB46_2:                               // %arm.2.i.i.i.i
	add	x1, x21, x22
	mov	x0, x20
	mov	x2, x19
	bl	"block::refusal"
	bfi	x0, x1, #8, #56
	add	sp, sp, #512
	ldp	x20, x19, [sp, #48]             // 16-byte Folded Reload
	ldr	x28, [sp, #16]                  // 8-byte Reload
	ldp	x22, x21, [sp, #32]             // 16-byte Folded Reload
	ldp	x29, x30, [sp], #64             // 16-byte Folded Reload
	ret
.Lfunc_end46:
	.size	tteuyomal_check_block, .Lfunc_end46-tteuyomal_check_block
                                        // -- End function
	.section	.text.tteuyomal_compose,"ax",@progbits
	.globl	tteuyomal_compose               // -- Begin function tteuyomal_compose
	.p2align	2
	.type	tteuyomal_compose,@function
tteuyomal_compose:                      // @tteuyomal_compose
// %bb.0:                               // %start
	sub	sp, sp, #112
	movi	v0.2d, #0000000000000000
	mov	w9, #4096                       // =0x1000
	cmp	x0, #0
	stp	x20, x19, [sp, #96]             // 16-byte Folded Spill
	mov	x19, x2
	mov	x8, x0
	csel	x10, x9, xzr, eq
	mov	x20, x3
	mov	x2, x1
	cmp	x19, #0
	mov	x0, sp
	add	x1, x8, x10
	mov	w3, wzr
	stp	x29, x30, [sp, #64]             // 16-byte Folded Spill
	add	x29, sp, #64
	str	x21, [sp, #80]                  // 8-byte Spill
	csel	x21, x9, xzr, eq
	stp	q0, q0, [sp]
	stp	q0, q0, [sp, #32]
	bl	"compose::fields"
	ldp	x0, x8, [sp, #8]
	ldrb	w9, [sp]
	cbz	w9, .LBB47_2
// %bb.1:                               // %arm.1.i2.i.i.i
	bfi	x0, x8, #8, #56
	ldp	x20, x19, [sp, #96]             // 16-byte Folded Reload
	ldr	x21, [sp, #80]                  // 8-byte Reload
	ldp	x29, x30, [sp, #64]             // 16-byte Folded Reload
	add	sp, sp, #112
	ret
.LBB47_2:                               // %arm.2.i1.i.i.i
	cmp	x20, #5
	b.hs	.LBB47_4
// %bb.3:
	mov	w0, #9                          // =0x9
	ldp	x20, x19, [sp, #96]             // 16-byte Folded Reload
	ldr	x21, [sp, #80]                  // 8-byte Reload
	ldp	x29, x30, [sp, #64]             // 16-byte Folded Reload
	add	sp, sp, #112
	ret
.LBB47_4:                               // %join.5.i.i.preheader.i.i.i.i.i
	add	x9, x19, x21
	ldur	q0, [sp, #24]
	ldr	x10, [sp, #40]
	stp	x0, x8, [x9]
	mov	x0, xzr
	str	q0, [x9, #16]
	str	x10, [x9, #32]
	ldp	x20, x19, [sp, #96]             // 16-byte Folded Reload
	ldr	x21, [sp, #80]                  // 8-byte Reload
	ldp	x29, x30, [sp, #64]             // 16-byte Folded Reload
	add	sp, sp, #112
	ret
.Lfunc_end47:
	.size	tteuyomal_compose, .Lfunc_end47-tteuyomal_compose
                                        // -- End function
	.section	.text.tteuyomal_compose_six,"ax",@progbits
	.globl	tteuyomal_compose_six           // -- Begin function tteuyomal_compose_six
	.p2align	2
	.type	tteuyomal_compose_six,@function
tteuyomal_compose_six:                  // @tteuyomal_compose_six
// %bb.0:                               // %start
	sub	sp, sp, #112
	movi	v0.2d, #0000000000000000
	mov	w9, #4096                       // =0x1000
	cmp	x0, #0
	stp	x20, x19, [sp, #96]             // 16-byte Folded Spill
	mov	x19, x2
	mov	x8, x0
	csel	x10, x9, xzr, eq
	mov	x20, x3
	mov	x2, x1
	cmp	x19, #0
	mov	x0, sp
	add	x1, x8, x10
	mov	w3, wzr
	stp	x29, x30, [sp, #64]             // 16-byte Folded Spill
	add	x29, sp, #64
	str	x21, [sp, #80]                  // 8-byte Spill
	csel	x21, x9, xzr, eq
	stp	q0, q0, [sp]
	stp	q0, q0, [sp, #32]
	bl	"compose::fields"
	ldp	x0, x8, [sp, #8]
	ldrb	w9, [sp]
	cbz	w9, .LBB48_2
// %bb.1:                               // %arm.1.i2.i.i.i
	bfi	x0, x8, #8, #56
	ldp	x20, x19, [sp, #96]             // 16-byte Folded Reload
	ldr	x21, [sp, #80]                  // 8-byte Reload
	ldp	x29, x30, [sp, #64]             // 16-byte Folded Reload
	add	sp, sp, #112
	ret
.LBB48_2:                               // %arm.2.i1.i.i.i
	cmp	x20, #6
	b.hs	.LBB48_4
// %bb.3:
	mov	w0, #9                          // =0x9
	ldp	x20, x19, [sp, #96]             // 16-byte Folded Reload
	ldr	x21, [sp, #80]                  // 8-byte Reload
	ldp	x29, x30, [sp, #64]             // 16-byte Folded Reload
	add	sp, sp, #112
	ret
.LBB48_4:                               // %join.5.i.i.preheader.i.i.i.i.i
	add	x9, x19, x21
	ldur	q0, [sp, #24]
	ldur	q1, [sp, #40]
	stp	x0, x8, [x9]
	mov	x0, xzr
	stp	q0, q1, [x9, #16]
	ldp	x20, x19, [sp, #96]             // 16-byte Folded Reload
	ldr	x21, [sp, #80]                  // 8-byte Reload
	ldp	x29, x30, [sp, #64]             // 16-byte Folded Reload
	add	sp, sp, #112
	ret
.Lfunc_end48:
	.size	tteuyomal_compose_six, .Lfunc_end48-tteuyomal_compose_six
                                        // -- End function
	.section	.text.tteuyomal_contributions,"ax",@progbits
	.globl	tteuyomal_contributions         // -- Begin function tteuyomal_contributions
	.p2align	2
	.type	tteuyomal_contributions,@function
tteuyomal_contributions:                // @tteuyomal_contributions
// %bb.0:                               // %start
	stp	x29, x30, [sp, #-96]!           // 16-byte Folded Spill
	stp	x28, x27, [sp, #16]             // 16-byte Folded Spill
	mov	x29, sp
	stp	x26, x25, [sp, #32]             // 16-byte Folded Spill
	stp	x24, x23, [sp, #48]             // 16-byte Folded Spill
	stp	x22, x21, [sp, #64]             // 16-byte Folded Spill
	stp	x20, x19, [sp, #80]             // 16-byte Folded Spill
	sub	sp, sp, #3072
	str	xzr, [sp]
	sub	sp, sp, #3072
	str	xzr, [sp]
	sub	sp, sp, #1344
	cmp	x1, #0
	mov	w8, #4096                       // =0x1000
	mov	x23, x1
	csel	x25, x8, xzr, eq
	cmp	x3, #0
	mov	x19, x2
	csel	x28, x8, xzr, eq
	cmp	x5, #0
	mov	x20, x0
	csel	x26, x8, xzr, eq
	str	xzr, [sp]
	cbz	x6, .LBB49_10
// %bb.1:                               // %join.3.i.i.i
	movi	v0.2d, #0000000000000000
	mov	x22, x3
	add	x1, x23, x25
	add	x3, sp, #80
	mov	x0, x20
	mov	x2, x19
	mov	x21, x5
	mov	x24, x4
	stp	q0, q0, [sp, #80]
	stp	q0, q0, [sp, #112]
	stp	q0, q0, [sp, #144]
	stp	q0, q0, [sp, #176]
	stp	q0, q0, [sp, #208]
	stp	q0, q0, [sp, #240]
	stp	q0, q0, [sp, #272]
	stp	q0, q0, [sp, #304]
	stp	q0, q0, [sp, #336]
	stp	q0, q0, [sp, #368]
	stp	q0, q0, [sp, #400]
	stp	q0, q0, [sp, #432]
	stp	q0, q0, [sp, #464]
	stp	q0, q0, [sp, #496]
	stp	q0, q0, [sp, #528]
	stp	q0, q0, [sp, #560]
	bl	"block::admit"
	cbz	w0, .LBB49_12
// %bb.2:                               // %join.5.i.i.i.i.i
	add	x0, sp, #656
	mov	w1, wzr
	mov	w2, #2016                       // =0x7e0
	bl	memset
	movi	v0.2d, #0000000000000000
	lsr	x27, x19, #1
	stp	q0, q0, [sp, #592]
	stp	q0, q0, [sp, #624]
	cbz	x20, .LBB49_77
// %bb.3:                               // %join.5.lr.ph.i.i.i.i.i.i
	mov	w8, #64                         // =0x40
	mov	x10, #-1                        // =0xffffffffffffffff
	stp	x22, x21, [sp, #24]             // 16-byte Folded Spill
	subs	x9, x8, x20
	str	x24, [sp, #72]                  // 8-byte Spill
	mov	x24, xzr
	csel	x9, xzr, x9, lo
	cmp	x20, #64
	stp	x28, x26, [sp, #8]              // 16-byte Folded Spill
	lsr	x22, x10, x9
	mov	x28, xzr
	csel	x21, x20, x8, lo
	str	x19, [sp, #40]                  // 8-byte Spill
	b	.LBB49_5
.LBB49_4:                               // %"half::put_row.exit.i.i.i.i.i.i"
                                        //   in Loop: Header=BB49_5 Depth=1
	sub	x8, x28, x24, lsl #1
	add	x10, sp, #592
	sub	w9, w19, #1
	cmp	x26, x20
	strb	w9, [x10, x24]
	mov	x24, x26
	add	x28, x8, #126
	b.eq	.LBB49_13
.LBB49_5:                               // %join.5.i.i.i.i.i.i
                                        // =>This Loop Header: Depth=1
                                        //     Child Loop BB49_6 Depth 2
	movi	v0.2d, #0000000000000000
	mov	w9, #1                          // =0x1
	mov	x8, xzr
	lsl	x10, x9, x24
	mov	w19, wzr
	eor	x9, x10, x22
	str	q0, [sp, #2720]
	str	q0, [sp, #2704]
	str	q0, [sp, #2688]
	str	q0, [sp, #2672]
.LBB49_6:                               // %join.5.i.i.i.i.i.i.i
                                        //   Parent Loop BB49_5 Depth=1
                                        // =>  This Inner Loop Header: Depth=2
	rbit	x11, x10
	add	x12, sp, #80
	sub	x13, x10, #1
	ands	x10, x13, x10
	clz	x11, x11
	ldr	x12, [x12, x11, lsl #3]
	orr	x8, x12, x8
	add	x12, sp, #2672
	and	x13, x8, x9
	strb	w19, [x12, x11]
	cinc	w19, w19, eq
	eor	x11, x13, x9
	csel	x10, x10, x13, ne
	csel	x8, x8, xzr, ne
	csel	x9, x9, x11, ne
	cbnz	x10, .LBB49_6
// %bb.7:                               // %"block::search::from_atom.exit.i.i.i.i.i.i"
                                        //   in Loop: Header=BB49_5 Depth=1
	cmp	x24, #63
	add	x26, x24, #1
	b.hi	.LBB49_4
// %bb.8:                               // %"block::search::from_atom.exit.i.i.i.i.i.i"
                                        //   in Loop: Header=BB49_5 Depth=1
	cmp	x26, x21
	b.hs	.LBB49_4
// %bb.9:                               // %join.11.preheader.i.i.i.i.i.i.i
                                        //   in Loop: Header=BB49_5 Depth=1
	add	x8, sp, #656
	add	x9, sp, #2672
	add	x0, x8, x28, lsr #1
	mvn	x8, x24
	add	x1, x9, x26
	add	x2, x21, x8
	bl	memcpy
	b	.LBB49_4
.LBB49_10:                              // %then.1.i.i.i
	movi	v0.2d, #0000000000000000
	add	x1, x23, x25
	add	x3, sp, #656
	mov	x0, x20
	mov	x2, x19
	str	q0, [sp, #1152]
	str	q0, [sp, #1136]
	str	q0, [sp, #1120]
	str	q0, [sp, #1104]
	str	q0, [sp, #1088]
	str	q0, [sp, #1072]
	str	q0, [sp, #1056]
	str	q0, [sp, #1040]
	stp	q0, q0, [sp, #656]
	stp	q0, q0, [sp, #688]
	stp	q0, q0, [sp, #720]
	stp	q0, q0, [sp, #752]
	stp	q0, q0, [sp, #784]
	stp	q0, q0, [sp, #816]
	stp	q0, q0, [sp, #848]
	stp	q0, q0, [sp, #880]
	stp	q0, q0, [sp, #912]
	stp	q0, q0, [sp, #944]
	stp	q0, q0, [sp, #976]
	stp	q0, q0, [sp, #1008]
	bl	"block::admit"
	cbz	w0, .LBB49_76
// %bb.11:                              // %"block::check.exit.thread.i.i.i.i"
	mov	w0, #9                          // =0x9
	b	.LBB49_85
.LBB49_12:                              // %"shares::contributions.exit.thread.i.i.i"
	add	x1, x23, x25
	mov	x0, x20
	mov	x2, x19
	bl	"block::refusal"
	lsl	x8, x1, #8
	b	.LBB49_84
.LBB49_13:                              // %arm.3.i.i.i.i
	ldr	x8, [sp, #72]                   // 8-byte Reload
	cmp	x8, x27
	b.lo	.LBB49_78
// %bb.14:                              // %join.5.lr.ph.i.i2.i.i.i.i
	add	x0, sp, #2672
	mov	w1, wzr
	mov	w2, #1536                       // =0x600
	add	x19, sp, #2672
	bl	memset
	add	x8, x19, #8
	add	x9, sp, #1, lsl #12             // =4096
	ldr	x21, [sp, #40]                  // 8-byte Reload
	str	x8, [sp, #48]                   // 8-byte Spill
	add	x8, sp, #1, lsl #12             // =4096
	add	x9, x9, #184
	add	x8, x8, #2864
	mov	x28, xzr
	and	x22, x27, #0x7ffffffffffffffe
	add	x8, x8, #16
	mov	w26, #2                         // =0x2
	str	x8, [sp, #64]                   // 8-byte Spill
	sub	x8, x9, #8
	str	x8, [sp, #56]                   // 8-byte Spill
	add	x8, x25, x23
	mov	w23, #1                         // =0x1
	add	x8, x8, #1
	str	x8, [sp, #72]                   // 8-byte Spill
	b	.LBB49_16
.LBB49_15:                              // %"shares::flows::add_start.exit.i.i.i.i.i.i"
                                        //   in Loop: Header=BB49_16 Depth=1
	cmp	x25, x20
	add	x26, x26, #1
	mov	x28, x25
	mov	x23, x24
	b.eq	.LBB49_86
.LBB49_16:                              // %join.8.i.i.i.i.i.i
                                        // =>This Loop Header: Depth=1
                                        //     Child Loop BB49_20 Depth 2
                                        //     Child Loop BB49_26 Depth 2
                                        //     Child Loop BB49_29 Depth 2
                                        //       Child Loop BB49_32 Depth 3
                                        //     Child Loop BB49_37 Depth 2
                                        //       Child Loop BB49_41 Depth 3
                                        //     Child Loop BB49_50 Depth 2
                                        //     Child Loop BB49_53 Depth 2
                                        //     Child Loop BB49_55 Depth 2
                                        //     Child Loop BB49_61 Depth 2
                                        //     Child Loop BB49_64 Depth 2
                                        //     Child Loop BB49_67 Depth 2
                                        //       Child Loop BB49_70 Depth 3
                                        //     Child Loop BB49_75 Depth 2
	movi	v0.2d, #0000000000000000
	cmp	x28, #64
	add	x25, x28, #1
	b.lo	.LBB49_18
// %bb.17:                              // %then.1.i.i.i.i.i.i.i
                                        //   in Loop: Header=BB49_16 Depth=1
	str	q0, [sp, #4256]
	str	q0, [sp, #4240]
	str	q0, [sp, #4224]
	str	q0, [sp, #4208]
	b	.LBB49_25
.LBB49_18:                              // %join.3.i.i.i.i.i.i.i
                                        //   in Loop: Header=BB49_16 Depth=1
	str	q0, [sp, #6480]
	str	q0, [sp, #6464]
	str	q0, [sp, #6448]
	str	q0, [sp, #6432]
	cbz	x28, .LBB49_22
// %bb.19:                              // %join.5.i.i.i.i.i.i.i.i.preheader
                                        //   in Loop: Header=BB49_16 Depth=1
	mov	x8, xzr
	add	x9, x28, #1
.LBB49_20:                              // %join.5.i.i.i.i.i.i.i.i
                                        //   Parent Loop BB49_16 Depth=1
                                        // =>  This Inner Loop Header: Depth=2
	add	x10, sp, #656
	add	x11, x8, #1
	add	x12, sp, #1, lsl #12            // =4096
	add	x10, x10, x9
	add	x12, x12, #2336
	sub	x9, x9, x11
	ldurb	w10, [x10, #-2]
	cmp	x28, x11
	add	x9, x9, #63
	strb	w10, [x12, x8]
	mov	x8, x11
	b.ne	.LBB49_20
// %bb.21:                              // %"half::column.exit.i.i.i.i.i.i.i"
                                        //   in Loop: Header=BB49_16 Depth=1
	ldr	q0, [sp, #6432]
	ldr	q1, [sp, #6448]
	cmp	x28, #63
	ldr	q2, [sp, #6480]
	str	q0, [sp, #6960]
	ldr	q0, [sp, #6464]
	str	q1, [sp, #6976]
	str	q0, [sp, #6992]
	str	q2, [sp, #7008]
	b.ne	.LBB49_23
	b	.LBB49_24
.LBB49_22:                              // %"half::column.exit.thread.i.i.i.i.i.i.i"
                                        //   in Loop: Header=BB49_16 Depth=1
	str	q0, [sp, #7008]
	str	q0, [sp, #6992]
	str	q0, [sp, #6976]
	str	q0, [sp, #6960]
.LBB49_23:                              // %join.5.lr.ph.i.i.i.i.i.i.i.i
                                        //   in Loop: Header=BB49_16 Depth=1
	mov	w8, #127                        // =0x7f
	add	x9, sp, #656
	sub	x8, x8, x28
	mul	x8, x8, x28
	add	x1, x9, x8, lsr #1
	add	x9, sp, #1, lsl #12             // =4096
	mov	w8, #63                         // =0x3f
	add	x9, x9, #2864
	sub	x2, x8, x28
	add	x0, x9, x25
	bl	memcpy
.LBB49_24:                              // %"half::along.exit.i.i.i.i.i.i.i"
                                        //   in Loop: Header=BB49_16 Depth=1
	ldr	q0, [sp, #6960]
	ldr	q1, [sp, #6976]
	ldr	q2, [sp, #7008]
	str	q0, [sp, #4208]
	ldr	q0, [sp, #6992]
	str	q1, [sp, #4224]
	str	q0, [sp, #4240]
	str	q2, [sp, #4256]
.LBB49_25:                              // %"half::row.exit.i.i.i.i.i.i"
                                        //   in Loop: Header=BB49_16 Depth=1
	ldr	q0, [sp, #4208]
	ldr	q1, [sp, #4224]
	add	x0, sp, #1, lsl #12             // =4096
	ldr	q2, [sp, #4256]
	add	x0, x0, #2864
	mov	w1, wzr
	str	q0, [sp, #4800]
	ldr	q0, [sp, #4240]
	mov	w2, #520                        // =0x208
	add	x19, sp, #1, lsl #12            // =4096
	str	q1, [sp, #4816]
	str	q0, [sp, #4832]
	add	x19, x19, #2864
	str	q2, [sp, #4848]
	bl	memset
	mov	x8, xzr
.LBB49_26:                              // %join.7.i.i.i.i.i.i.i
                                        //   Parent Loop BB49_16 Depth=1
                                        // =>  This Inner Loop Header: Depth=2
	add	x9, sp, #1, lsl #12             // =4096
	mov	w10, #1                         // =0x1
	add	x9, x9, #704
	lsl	x10, x10, x8
	ldrb	w9, [x9, x8]
	add	x8, x8, #1
	cmp	x20, x8
	ldr	x11, [x19, x9, lsl #3]
	orr	x10, x11, x10
	str	x10, [x19, x9, lsl #3]
	b.ne	.LBB49_26
// %bb.27:                              // %"shares::sweeps::by_level.exit.i.i.i.i.i.i"
                                        //   in Loop: Header=BB49_16 Depth=1
	add	x0, sp, #1, lsl #12             // =4096
	add	x1, sp, #1, lsl #12             // =4096
	mov	w2, #520                        // =0x208
	add	x0, x0, #184
	add	x1, x1, #2864
	bl	memcpy
	add	x8, sp, #592
	add	x0, sp, #1, lsl #12             // =4096
	mov	w1, wzr
	ldrb	w28, [x8, x28]
	add	x0, x0, #2336
	mov	w2, #520                        // =0x208
	add	x19, sp, #1, lsl #12            // =4096
	add	x19, x19, #2336
	bl	memset
	ldr	x10, [sp, #4280]
	mov	x9, xzr
	mov	x8, xzr
	mov	w11, #1                         // =0x1
	str	x11, [x19, x25, lsl #3]
	b	.LBB49_29
.LBB49_28:                              // %else.7.i.i.i.i.i.i.i.i.i
                                        //   in Loop: Header=BB49_29 Depth=2
	add	x10, sp, #1, lsl #12            // =4096
	add	x10, x10, #184
	ldr	x9, [x10, x8, lsl #3]
	add	x8, x8, #1
	ldr	x10, [x10, x8, lsl #3]
	cmp	x8, x28
	b.hi	.LBB49_35
.LBB49_29:                              // %join.5.i.i.i.i.i.i.i.i.i
                                        //   Parent Loop BB49_16 Depth=1
                                        // =>  This Loop Header: Depth=2
                                        //       Child Loop BB49_32 Depth 3
	cbz	x10, .LBB49_28
// %bb.30:                              // %then.6.i.i.i.i.i.i.i.i.i
                                        //   in Loop: Header=BB49_29 Depth=2
	rbit	x11, x10
	add	x12, sp, #80
	clz	x11, x11
	lsl	x11, x11, #3
	ldr	x12, [x12, x11]
	ands	x13, x12, x9
	b.eq	.LBB49_33
// %bb.31:                              // %join.5.i.i.i.i.i.i.i.i.i.i.preheader
                                        //   in Loop: Header=BB49_29 Depth=2
	mov	x12, xzr
.LBB49_32:                              // %join.5.i.i.i.i.i.i.i.i.i.i
                                        //   Parent Loop BB49_16 Depth=1
                                        //     Parent Loop BB49_29 Depth=2
                                        // =>    This Inner Loop Header: Depth=3
	rbit	x14, x13
	add	x15, sp, #1, lsl #12            // =4096
	add	x15, x15, #2336
	clz	x14, x14
	add	x14, x15, x14, lsl #3
	sub	x15, x13, #1
	ands	x13, x15, x13
	ldr	x14, [x14, #8]
	add	x12, x14, x12
	b.ne	.LBB49_32
	b	.LBB49_34
.LBB49_33:                              //   in Loop: Header=BB49_29 Depth=2
	mov	x12, xzr
.LBB49_34:                              // %"shares::sweeps::pull.exit.i.i.i.i.i.i.i.i.i"
                                        //   in Loop: Header=BB49_29 Depth=2
	add	x13, sp, #1, lsl #12            // =4096
	sub	x14, x10, #1
	add	x13, x13, #2336
	and	x10, x14, x10
	add	x11, x13, x11
	ldr	x13, [x11, #8]
	add	x12, x13, x12
	mov	w13, #16961                     // =0x4241
	movk	w13, #15, lsl #16
	cmp	x12, x13
	csel	x12, x12, x13, lo
	str	x12, [x11, #8]
	cmp	x8, x28
	b.ls	.LBB49_29
.LBB49_35:                              // %"shares::sweeps::counts.exit.i.i.i.i.i.i.i"
                                        //   in Loop: Header=BB49_16 Depth=1
	add	x0, sp, #1, lsl #12             // =4096
	add	x1, sp, #1, lsl #12             // =4096
	mov	w2, #520                        // =0x208
	add	x0, x0, #776
	add	x1, x1, #2336
	bl	memcpy
	add	x0, sp, #1, lsl #12             // =4096
	add	x1, sp, #1, lsl #12             // =4096
	mov	w2, #520                        // =0x208
	add	x0, x0, #1816
	add	x1, x1, #776
	bl	memcpy
	mov	x8, x25
	mov	x24, x23
	b	.LBB49_37
.LBB49_36:                              // %"shares::common::common.exit.i.i.i.i.i.i.i.i"
                                        //   in Loop: Header=BB49_37 Depth=2
	cmp	x8, x20
	b.hs	.LBB49_43
.LBB49_37:                              // %loop.2.i.i.i.i.i.i.i.i
                                        //   Parent Loop BB49_16 Depth=1
                                        // =>  This Loop Header: Depth=2
                                        //       Child Loop BB49_41 Depth 3
	add	x8, x8, #1
	cmp	x8, x20
	b.hi	.LBB49_43
// %bb.38:                              // %join.5.i.i13.i.i.i.i.i.i
                                        //   in Loop: Header=BB49_37 Depth=2
	add	x9, sp, #1, lsl #12             // =4096
	add	x9, x9, #1816
	ldr	x9, [x9, x8, lsl #3]
	cbz	x9, .LBB49_87
// %bb.39:                              // %ok.2.i.i.i.i.i.i.i.i.i
                                        //   in Loop: Header=BB49_37 Depth=2
	udiv	x10, x24, x9
	msub	x10, x10, x9, x24
	cbz	x10, .LBB49_36
// %bb.40:                              // %ok.7.i.i.i.i.i.i.i.i.i.i.preheader
                                        //   in Loop: Header=BB49_37 Depth=2
	mov	x11, x24
	mov	x12, x9
.LBB49_41:                              // %ok.7.i.i.i.i.i.i.i.i.i.i
                                        //   Parent Loop BB49_16 Depth=1
                                        //     Parent Loop BB49_37 Depth=2
                                        // =>    This Inner Loop Header: Depth=3
	mov	x10, x12
	udiv	x12, x11, x12
	msub	x12, x12, x10, x11
	mov	x11, x10
	cbnz	x12, .LBB49_41
// %bb.42:                              // %ok.6.i.i.i.i.i.i.i.i.i
                                        //   in Loop: Header=BB49_37 Depth=2
	udiv	x10, x24, x10
	mul	x9, x10, x9
	mov	w10, #16961                     // =0x4241
	movk	w10, #15, lsl #16
	cmp	x9, x10
	csel	x24, x9, x10, lo
	b	.LBB49_36
.LBB49_43:                              // %"shares::common::common_start.exit.i.i.i.i.i.i.i"
                                        //   in Loop: Header=BB49_16 Depth=1
	mov	w8, #16960                      // =0x4240
	movk	w8, #15, lsl #16
	cmp	x24, x8
	b.hi	.LBB49_82
// %bb.44:                              // %join.3.i15.i.i.i.i.i.i
                                        //   in Loop: Header=BB49_16 Depth=1
	cbz	x23, .LBB49_87
// %bb.45:                              // %ok.5.i.i.i.i.i.i.i
                                        //   in Loop: Header=BB49_16 Depth=1
	cbz	x27, .LBB49_54
// %bb.46:                              // %ok.5.i.i.i.i.i.i.i
                                        //   in Loop: Header=BB49_16 Depth=1
	udiv	x8, x24, x23
	cmp	x8, #1
	b.eq	.LBB49_54
// %bb.47:                              // %join.8.i.i.i.i.i.i.i.i.preheader
                                        //   in Loop: Header=BB49_16 Depth=1
	cmp	x21, #4
	b.hs	.LBB49_49
// %bb.48:                              //   in Loop: Header=BB49_16 Depth=1
	mov	x10, xzr
	b	.LBB49_52
.LBB49_49:                              // %vector.body21.preheader
                                        //   in Loop: Header=BB49_16 Depth=1
	ldr	x10, [sp, #48]                  // 8-byte Reload
	and	x9, x27, #0x7ffffffffffffffe
.LBB49_50:                              // %vector.body21
                                        //   Parent Loop BB49_16 Depth=1
                                        // =>  This Inner Loop Header: Depth=2
	ldp	x11, x12, [x10, #-8]
	subs	x9, x9, #2
	mul	x11, x11, x8
	mul	x12, x12, x8
	stp	x11, x12, [x10, #-8]
	add	x10, x10, #16
	b.ne	.LBB49_50
// %bb.51:                              // %middle.block24
                                        //   in Loop: Header=BB49_16 Depth=1
	cmp	x27, x22
	and	x10, x27, #0x7ffffffffffffffe
	b.eq	.LBB49_54
.LBB49_52:                              // %join.8.i.i.i.i.i.i.i.i.preheader1
                                        //   in Loop: Header=BB49_16 Depth=1
	add	x9, sp, #2672
	add	x9, x9, x10, lsl #3
	sub	x10, x27, x10
.LBB49_53:                              // %join.8.i.i.i.i.i.i.i.i
                                        //   Parent Loop BB49_16 Depth=1
                                        // =>  This Inner Loop Header: Depth=2
	ldr	x11, [x9]
	subs	x10, x10, #1
	mul	x11, x11, x8
	str	x11, [x9], #8
	b.ne	.LBB49_53
.LBB49_54:                              // %"shares::flows::raise.exit.i.i.i.i.i.i.i"
                                        //   in Loop: Header=BB49_16 Depth=1
	add	x0, sp, #1, lsl #12             // =4096
	mov	w1, wzr
	mov	w2, #520                        // =0x208
	add	x0, x0, #2336
	bl	memset
	mov	x8, x26
.LBB49_55:                              // %loop.4.i.i.i.i.i.i.i.i
                                        //   Parent Loop BB49_16 Depth=1
                                        // =>  This Inner Loop Header: Depth=2
	cmp	x8, x20
	b.hi	.LBB49_58
// %bb.56:                              // %join.7.i.i.i.i.i.i.i.i
                                        //   in Loop: Header=BB49_55 Depth=2
	add	x9, sp, #1, lsl #12             // =4096
	add	x9, x9, #1816
	ldr	x9, [x9, x8, lsl #3]
	cbz	x9, .LBB49_87
// %bb.57:                              // %ok.9.i.i.i.i.i.i.i.i
                                        //   in Loop: Header=BB49_55 Depth=2
	udiv	x9, x24, x9
	add	x10, sp, #1, lsl #12            // =4096
	add	x11, x8, #1
	add	x10, x10, #2336
	cmp	x8, x20
	str	x9, [x10, x8, lsl #3]
	mov	x8, x11
	b.lo	.LBB49_55
.LBB49_58:                              // %"shares::flows::weights.exit.i.i.i.i.i.i.i"
                                        //   in Loop: Header=BB49_16 Depth=1
	add	x0, sp, #1, lsl #12             // =4096
	add	x1, sp, #1, lsl #12             // =4096
	mov	w2, #520                        // =0x208
	add	x0, x0, #776
	add	x1, x1, #2336
	bl	memcpy
	add	x0, sp, #1, lsl #12             // =4096
	add	x1, sp, #1, lsl #12             // =4096
	mov	w2, #520                        // =0x208
	add	x0, x0, #1296
	add	x1, x1, #776
	bl	memcpy
	add	x0, sp, #1, lsl #12             // =4096
	mov	w1, wzr
	mov	w2, #520                        // =0x208
	add	x0, x0, #2864
	add	x19, sp, #1, lsl #12            // =4096
	add	x19, x19, #2864
	bl	memset
	cmp	w28, #3
	b.hs	.LBB49_60
// %bb.59:                              //   in Loop: Header=BB49_16 Depth=1
	mov	x8, xzr
	b	.LBB49_63
.LBB49_60:                              // %vector.ph
                                        //   in Loop: Header=BB49_16 Depth=1
	ldp	x8, x11, [sp, #56]              // 16-byte Folded Reload
	add	x9, x28, #1
	and	x12, x9, #0x1fc
	add	x10, x8, x28, lsl #3
	and	x8, x9, #0x1fc
.LBB49_61:                              // %vector.body
                                        //   Parent Loop BB49_16 Depth=1
                                        // =>  This Inner Loop Header: Depth=2
	ldp	q1, q0, [x10, #-16]
	sub	x12, x12, #4
	sub	x10, x10, #32
	ext	v0.16b, v0.16b, v0.16b, #8
	ext	v1.16b, v1.16b, v1.16b, #8
	stp	q0, q1, [x11, #-16]
	add	x11, x11, #32
	cbnz	x12, .LBB49_61
// %bb.62:                              // %middle.block
                                        //   in Loop: Header=BB49_16 Depth=1
	cmp	x9, x8
	b.eq	.LBB49_65
.LBB49_63:                              // %join.7.i.i.i.i.i.i.i.i.i.preheader
                                        //   in Loop: Header=BB49_16 Depth=1
	add	x9, x19, x8, lsl #3
	sub	x8, x28, x8
.LBB49_64:                              // %join.7.i.i.i.i.i.i.i.i.i
                                        //   Parent Loop BB49_16 Depth=1
                                        // =>  This Inner Loop Header: Depth=2
	add	x10, sp, #1, lsl #12            // =4096
	add	x10, x10, #184
	ldr	x10, [x10, x8, lsl #3]
	sub	x8, x8, #1
	cmn	x8, #1
	str	x10, [x9], #8
	b.ne	.LBB49_64
.LBB49_65:                              // %"shares::sweeps::reversed.exit.i.i.i.i.i.i.i.i"
                                        //   in Loop: Header=BB49_16 Depth=1
	ldr	x10, [sp, #6960]
	mov	x8, xzr
	mov	x9, xzr
	b	.LBB49_67
.LBB49_66:                              // %else.7.i.i54.i.i.i.i.i.i.i
                                        //   in Loop: Header=BB49_67 Depth=2
	add	x10, sp, #1, lsl #12            // =4096
	add	x10, x10, #2864
	ldr	x8, [x10, x9, lsl #3]
	add	x9, x9, #1
	ldr	x10, [x10, x9, lsl #3]
	cmp	x9, x28
	b.hi	.LBB49_73
.LBB49_67:                              // %join.5.i.i18.i.i.i.i.i.i.i
                                        //   Parent Loop BB49_16 Depth=1
                                        // =>  This Loop Header: Depth=2
                                        //       Child Loop BB49_70 Depth 3
	cbz	x10, .LBB49_66
// %bb.68:                              // %then.6.i.i23.i.i.i.i.i.i.i
                                        //   in Loop: Header=BB49_67 Depth=2
	rbit	x11, x10
	add	x12, sp, #80
	clz	x11, x11
	lsl	x11, x11, #3
	ldr	x12, [x12, x11]
	ands	x13, x12, x8
	b.eq	.LBB49_71
// %bb.69:                              // %join.5.i.i.i32.i.i.i.i.i.i.i.preheader
                                        //   in Loop: Header=BB49_67 Depth=2
	mov	x12, xzr
.LBB49_70:                              // %join.5.i.i.i32.i.i.i.i.i.i.i
                                        //   Parent Loop BB49_16 Depth=1
                                        //     Parent Loop BB49_67 Depth=2
                                        // =>    This Inner Loop Header: Depth=3
	rbit	x14, x13
	add	x15, sp, #1, lsl #12            // =4096
	add	x15, x15, #1296
	clz	x14, x14
	add	x14, x15, x14, lsl #3
	sub	x15, x13, #1
	ands	x13, x15, x13
	ldr	x14, [x14, #8]
	add	x12, x14, x12
	b.ne	.LBB49_70
	b	.LBB49_72
.LBB49_71:                              //   in Loop: Header=BB49_67 Depth=2
	mov	x12, xzr
.LBB49_72:                              // %"shares::sweeps::pull.exit.i.i43.i.i.i.i.i.i.i"
                                        //   in Loop: Header=BB49_67 Depth=2
	add	x13, sp, #1, lsl #12            // =4096
	sub	x14, x10, #1
	add	x13, x13, #1296
	and	x10, x14, x10
	add	x11, x13, x11
	ldr	x13, [x11, #8]
	add	x12, x13, x12
	mov	w13, #36864                     // =0x9000
	movk	w13, #976, lsl #16
	cmp	x12, x13
	csel	x12, x12, x13, lo
	str	x12, [x11, #8]
	cmp	x9, x28
	b.ls	.LBB49_67
.LBB49_73:                              // %"shares::sweeps::onward.exit.i.i.i.i.i.i.i"
                                        //   in Loop: Header=BB49_16 Depth=1
	cbz	x27, .LBB49_15
// %bb.74:                              // %join.5.i62.i.i.i.i.i.i.i.preheader
                                        //   in Loop: Header=BB49_16 Depth=1
	ldr	x9, [sp, #72]                   // 8-byte Reload
	add	x8, sp, #2672
	mov	x10, x27
.LBB49_75:                              // %join.5.i62.i.i.i.i.i.i.i
                                        //   Parent Loop BB49_16 Depth=1
                                        // =>  This Inner Loop Header: Depth=2
	ldurb	w11, [x9, #-1]
	ldrb	w12, [x9], #2
	add	x13, sp, #1, lsl #12            // =4096
	add	x14, sp, #1, lsl #12            // =4096
	add	x17, sp, #1, lsl #12            // =4096
	add	x13, x13, #1816
	add	x14, x14, #1296
	add	x17, x17, #704
	ldr	x15, [x13, x11, lsl #3]
	ldr	x16, [x14, x12, lsl #3]
	ldr	x13, [x13, x12, lsl #3]
	ldr	x14, [x14, x11, lsl #3]
	add	x11, x17, x11
	add	x12, x17, x12
	mul	x15, x16, x15
	ldurb	w11, [x11, #-1]
	ldurb	w12, [x12, #-1]
	mul	x13, x14, x13
	add	x14, x11, #1
	cmp	x14, x12
	add	x12, x12, #1
	ldr	x14, [x8]
	csel	x15, x15, xzr, eq
	cmp	x12, x11
	add	x12, x14, x15
	csel	x11, x13, xzr, eq
	subs	x10, x10, #1
	add	x11, x12, x11
	str	x11, [x8], #8
	b.ne	.LBB49_75
	b	.LBB49_15
.LBB49_76:                              // %arm.2.i.i.i.i
	add	x1, x23, x25
	mov	x0, x20
	mov	x2, x19
	bl	"block::refusal"
	bfi	x0, x1, #8, #56
	b	.LBB49_85
.LBB49_77:                              // %arm.3.thread.i.i.i.i
	cmp	x24, x27
	b.hs	.LBB49_79
.LBB49_78:
	mov	w0, #9                          // =0x9
	b	.LBB49_83
.LBB49_79:                              // %"shares::flows::fill.exit.thread21.i.i.i.i.i"
	add	x0, sp, #2672
	mov	w1, wzr
	mov	w2, #1536                       // =0x600
	bl	memset
	mov	w24, #1                         // =0x1
	cbz	x27, .LBB49_81
.LBB49_80:                              // %join.5.i17.preheader.i.i.i.i.i
	lsl	x2, x27, #3
	add	x0, x22, x28
	add	x1, sp, #2672
	bl	memcpy
.LBB49_81:                              // %join.5.i.i.i6.i.i.i
	mov	x0, xzr
	str	x24, [x21, x26]
	b	.LBB49_85
.LBB49_82:                              // %"shares::flows::add_start.exit.i.thread.i.i.i.i.i"
	mov	w0, #8                          // =0x8
.LBB49_83:                              // %"shares::contributions.exit.thread15.i.i.i"
	mov	x8, xzr
.LBB49_84:                              // %arm.1.i.i.i.i
	and	x9, x0, #0xff
	orr	x0, x9, x8
.LBB49_85:                              // %"tteuyomal_c::blocks::tteuyomal_contributions.exit"
	add	sp, sp, #1, lsl #12             // =4096
	add	sp, sp, #3392
	ldp	x20, x19, [sp, #80]             // 16-byte Folded Reload
	ldp	x22, x21, [sp, #64]             // 16-byte Folded Reload
	ldp	x24, x23, [sp, #48]             // 16-byte Folded Reload
	ldp	x26, x25, [sp, #32]             // 16-byte Folded Reload
	ldp	x28, x27, [sp, #16]             // 16-byte Folded Reload
	ldp	x29, x30, [sp], #96             // 16-byte Folded Reload
	ret
.LBB49_86:                              // %"shares::flows::fill.exit.i.i.i.i.i"
	ldp	x22, x21, [sp, #24]             // 16-byte Folded Reload
	ldp	x28, x26, [sp, #8]              // 16-byte Folded Reload
	cbnz	x27, .LBB49_80
	b	.LBB49_81
.LBB49_87:                              // %trap.1.i.i.i.i.i.i.i.i.i
	brk	#0x1
.Lfunc_end49:
	.size	tteuyomal_contributions, .Lfunc_end49-tteuyomal_contributions
                                        // -- End function
	.section	.text.tteuyomal_count_sets,"ax",@progbits
	.globl	tteuyomal_count_sets            // -- Begin function tteuyomal_count_sets
	.p2align	2
	.type	tteuyomal_count_sets,@function
tteuyomal_count_sets:                   // @tteuyomal_count_sets
// %bb.0:                               // %start
	sub	sp, sp, #80
	mov	w9, #4096                       // =0x1000
	cmp	x1, #0
	stp	x20, x19, [sp, #64]             // 16-byte Folded Spill
	mov	x19, x3
	mov	x8, x0
	csel	x10, x9, xzr, eq
	mov	x3, x2
	cmp	x19, #0
	add	x0, sp, #8
	add	x2, x1, x10
	mov	x1, x8
	stp	x29, x30, [sp, #32]             // 16-byte Folded Spill
	str	x21, [sp, #48]                  // 8-byte Spill
	add	x29, sp, #32
	mov	x20, x4
	stp	xzr, xzr, [sp, #8]
	csel	x21, x9, xzr, eq
	str	xzr, [sp, #24]
	bl	"sets::count"
	ldrb	w8, [sp, #8]
	cmp	w8, #1
	b.ne	.LBB50_2
// %bb.1:                               // %arm.1.i.i.i
	ldrb	w8, [sp, #16]
	ldr	x9, [sp, #24]
	orr	x0, x8, x9, lsl #8
	ldp	x20, x19, [sp, #64]             // 16-byte Folded Reload
	ldr	x21, [sp, #48]                  // 8-byte Reload
	ldp	x29, x30, [sp, #32]             // 16-byte Folded Reload
	add	sp, sp, #80
	ret
.LBB50_2:                               // %arm.2.i.i.i
	cmp	x20, #2
	b.hs	.LBB50_4
// %bb.3:
	mov	w0, #9                          // =0x9
	ldp	x20, x19, [sp, #64]             // 16-byte Folded Reload
	ldr	x21, [sp, #48]                  // 8-byte Reload
	ldp	x29, x30, [sp, #32]             // 16-byte Folded Reload
	add	sp, sp, #80
	ret
.LBB50_4:                               // %join.5.i.i.preheader.i.i.i
	mov	x0, xzr
	ldur	q0, [sp, #16]
	str	q0, [x19, x21]
	ldp	x20, x19, [sp, #64]             // 16-byte Folded Reload
	ldr	x21, [sp, #48]                  // 8-byte Reload
	ldp	x29, x30, [sp, #32]             // 16-byte Folded Reload
	add	sp, sp, #80
	ret
.Lfunc_end50:
	.size	tteuyomal_count_sets, .Lfunc_end50-tteuyomal_count_sets
                                        // -- End function
	.section	.text.tteuyomal_farthest,"ax",@progbits
	.globl	tteuyomal_farthest              // -- Begin function tteuyomal_farthest
	.p2align	2
	.type	tteuyomal_farthest,@function
tteuyomal_farthest:                     // @tteuyomal_farthest
// %bb.0:                               // %start
	stp	x29, x30, [sp, #-96]!           // 16-byte Folded Spill
	str	x28, [sp, #16]                  // 8-byte Spill
	mov	x29, sp
	stp	x26, x25, [sp, #32]             // 16-byte Folded Spill
	stp	x24, x23, [sp, #48]             // 16-byte Folded Spill
	stp	x22, x21, [sp, #64]             // 16-byte Folded Spill
	stp	x20, x19, [sp, #80]             // 16-byte Folded Spill
	sub	sp, sp, #512
	movi	v0.2d, #0000000000000000
	cmp	x1, #0
	mov	w8, #4096                       // =0x1000
	csel	x26, x8, xzr, eq
	mov	x24, x3
	mov	x23, x1
	cmp	x4, #0
	add	x1, x1, x26
	mov	x3, sp
	mov	x20, x5
	mov	x19, x4
	mov	x22, x2
	mov	x21, x0
	stp	q0, q0, [sp]
	csel	x25, x8, xzr, eq
	stp	q0, q0, [sp, #32]
	stp	q0, q0, [sp, #64]
	stp	q0, q0, [sp, #96]
	stp	q0, q0, [sp, #128]
	stp	q0, q0, [sp, #160]
	stp	q0, q0, [sp, #192]
	stp	q0, q0, [sp, #224]
	stp	q0, q0, [sp, #256]
	stp	q0, q0, [sp, #288]
	stp	q0, q0, [sp, #320]
	stp	q0, q0, [sp, #352]
	stp	q0, q0, [sp, #384]
	stp	q0, q0, [sp, #416]
	stp	q0, q0, [sp, #448]
	stp	q0, q0, [sp, #480]
	bl	"block::admit"
	tbz	w0, #0, .LBB51_6
// %bb.1:                               // %join.5.i.i.i.i
	sub	x10, x24, #1
	cmp	x10, x21
	b.hs	.LBB51_7
// %bb.2:                               // %join.8.i.i.i.i
	mov	w11, #64                        // =0x40
	mov	w12, #1                         // =0x1
	mov	x14, #-1                        // =0xffffffffffffffff
	subs	x11, x11, x21
	mov	x9, xzr
	mov	w8, wzr
	csel	x13, xzr, x11, lo
	lsl	x11, x12, x10
	lsr	x10, x14, x13
	eor	x10, x11, x10
.LBB51_3:                               // %join.5.i.i.i.i.i
                                        // =>This Inner Loop Header: Depth=1
	rbit	x12, x11
	mov	x13, sp
	clz	x12, x12
	ldr	x12, [x13, x12, lsl #3]
	sub	x13, x11, #1
	ands	x11, x13, x11
	orr	x9, x12, x9
	cinc	w8, w8, eq
	and	x12, x9, x10
	csel	x9, x9, xzr, ne
	eor	x13, x12, x10
	csel	x11, x11, x12, ne
	csel	x10, x10, x13, ne
	cbnz	x11, .LBB51_3
// %bb.4:                               // %arm.2.i.i.i
	cbz	x20, .LBB51_8
// %bb.5:                               // %join.5.i.i2.i.i.i
	mov	x0, xzr
	sub	w8, w8, #1
	and	x8, x8, #0xff
	str	x8, [x19, x25]
	b	.LBB51_9
.LBB51_6:                               // %then.3.i.i.i.i
	add	x1, x23, x26
	mov	x0, x21
	mov	x2, x22
	bl	"block::refusal"
	bfi	x0, x1, #8, #56
	b	.LBB51_9
.LBB51_7:
	mov	w0, #18                         // =0x12
	b	.LBB51_9
.LBB51_8:
	mov	w0, #9                          // =0x9
.LBB51_9:                               // %"tteuyomal_c::blocks::tteuyomal_farthest.exit"
	add	sp, sp, #512
	ldp	x20, x19, [sp, #80]             // 16-byte Folded Reload
	ldr	x28, [sp, #16]                  // 8-byte Reload
	ldp	x22, x21, [sp, #64]             // 16-byte Folded Reload
	ldp	x24, x23, [sp, #48]             // 16-byte Folded Reload
	ldp	x26, x25, [sp, #32]             // 16-byte Folded Reload
	ldp	x29, x30, [sp], #96             // 16-byte Folded Reload
	ret
.Lfunc_end51:
	.size	tteuyomal_farthest, .Lfunc_end51-tteuyomal_farthest
                                        // -- End function
	.section	.text.tteuyomal_indices,"ax",@progbits
	.globl	tteuyomal_indices               // -- Begin function tteuyomal_indices
	.p2align	2
	.type	tteuyomal_indices,@function
tteuyomal_indices:                      // @tteuyomal_indices
// %bb.0:                               // %start
	stp	x29, x30, [sp, #-48]!           // 16-byte Folded Spill
	stp	x28, x21, [sp, #16]             // 16-byte Folded Spill
	mov	x29, sp
	stp	x20, x19, [sp, #32]             // 16-byte Folded Spill
	sub	sp, sp, #576
	movi	v0.2d, #0000000000000000
	mov	w9, #4096                       // =0x1000
	cmp	x1, #0
	mov	x19, x3
	mov	x8, x0
	csel	x10, x9, xzr, eq
	mov	x20, x4
	mov	x3, x2
	cmp	x19, #0
	sub	x0, x29, #64
	add	x2, x1, x10
	mov	x4, sp
	mov	x1, x8
	stp	q0, q0, [x29, #-64]
	csel	x21, x9, xzr, eq
	stur	q0, [x29, #-32]
	stur	xzr, [x29, #-16]
	bl	"reach::opened"
	ldurb	w8, [x29, #-64]
	ldur	x0, [x29, #-56]
	cmp	w8, #1
	b.ne	.LBB52_2
// %bb.1:                               // %arm.1.i.i.i.i
	ldur	x8, [x29, #-48]
	bfi	x0, x8, #8, #56
	add	sp, sp, #576
	ldp	x20, x19, [sp, #32]             // 16-byte Folded Reload
	ldp	x28, x21, [sp, #16]             // 16-byte Folded Reload
	ldp	x29, x30, [sp], #48             // 16-byte Folded Reload
	ret
.LBB52_2:                               // %arm.2.i.i.i.i
	cmp	x20, #5
	b.hs	.LBB52_4
// %bb.3:
	mov	w0, #9                          // =0x9
	add	sp, sp, #576
	ldp	x20, x19, [sp, #32]             // 16-byte Folded Reload
	ldp	x28, x21, [sp, #16]             // 16-byte Folded Reload
	ldp	x29, x30, [sp], #48             // 16-byte Folded Reload
	ret
.LBB52_4:                               // %join.5.i.i.preheader.i.i.i.i.i
	ldp	q0, q1, [x29, #-48]
	add	x8, x19, x21
	str	x0, [x8]
	mov	x0, xzr
	stur	q0, [x8, #8]
	stur	q1, [x8, #24]
	add	sp, sp, #576
	ldp	x20, x19, [sp, #32]             // 16-byte Folded Reload
	ldp	x28, x21, [sp, #16]             // 16-byte Folded Reload
	ldp	x29, x30, [sp], #48             // 16-byte Folded Reload
	ret
.Lfunc_end52:
	.size	tteuyomal_indices, .Lfunc_end52-tteuyomal_indices
                                        // -- End function
	.section	.text.tteuyomal_judge,"ax",@progbits
	.globl	tteuyomal_judge                 // -- Begin function tteuyomal_judge
	.p2align	2
	.type	tteuyomal_judge,@function
tteuyomal_judge:                        // @tteuyomal_judge
// %bb.0:                               // %start
	sub	sp, sp, #96
	movi	v0.2d, #0000000000000000
	mov	w8, #4096                       // =0x1000
	cmp	x0, #0
	csel	x8, x8, xzr, eq
	stp	x20, x19, [sp, #80]             // 16-byte Folded Spill
	mov	x20, x1
	add	x19, x0, x8
	mov	x0, sp
	mov	x2, x20
	mov	x1, x19
	mov	w3, #1                          // =0x1
	stp	x29, x30, [sp, #64]             // 16-byte Folded Spill
	add	x29, sp, #64
	stp	q0, q0, [sp]
	stp	q0, q0, [sp, #32]
	bl	"compose::fields"
	ldrb	w8, [sp]
	ldp	x0, x9, [sp, #8]
	cmp	w8, #1
	b.ne	.LBB53_3
// %bb.1:                               // %arm.1.i.i.i.i
	bfi	x0, x9, #8, #56
.LBB53_2:                               // %"tteuyomal_c::decks::tteuyomal_judge.exit"
	ldp	x20, x19, [sp, #80]             // 16-byte Folded Reload
	ldp	x29, x30, [sp, #64]             // 16-byte Folded Reload
	add	sp, sp, #96
	ret
.LBB53_3:                               // %arm.2.i.i.i.i
	ldp	x8, x14, [sp, #48]
	ldr	x10, [sp, #40]
	ldp	x12, x11, [sp, #24]
	cmp	x20, x14
	b.hs	.LBB53_5
// %bb.4:
	mov	x16, xzr
	mov	x17, xzr
	mov	x1, xzr
	mov	x2, xzr
	mov	x14, xzr
	mov	w13, #5                         // =0x5
	cmp	x0, xzr
	b.ne	.LBB53_223
	b	.LBB53_225
.LBB53_5:                               // %join.3.i.i.i.i.i.i
	add	x13, x14, #2
	cmp	x13, x20
	b.hs	.LBB53_8
// %bb.6:                               // %"records::byte_at.exit.i.i.i.i.i.i.i"
	add	x15, x14, #3
	ldrb	w13, [x19, x13]
	cmp	x15, x20
	b.hs	.LBB53_13
// %bb.7:                               // %then.1.i6.i.i.i.i.i.i.i
	ldrb	w15, [x19, x15]
	b	.LBB53_14
.LBB53_8:
	mov	w13, #5                         // =0x5
	cmp	x20, #7
	add	x15, x14, #4
	b.ls	.LBB53_15
.LBB53_9:                               // %join.3.i.i.i.i.i.i.i.i
	sub	x18, x20, #4
	sub	x2, x20, #8
	cmp	x15, x18
	b.ls	.LBB53_20
// %bb.10:                              // %join.6.i.i.i.i.i.i.i.i
	cmp	x20, x15
	b.ls	.LBB53_27
// %bb.11:                              // %join.8.i.i.i.preheader.i.i.i.i.i.i
	add	x16, x14, #7
	cmp	x16, x20
	b.hs	.LBB53_35
// %bb.12:                              // %then.1.i.i.i.i.i.i.i.i.i.i
	ldrb	w16, [x19, x16]
	lsl	x16, x16, #8
	b	.LBB53_36
.LBB53_13:
	mov	w15, wzr
.LBB53_14:                              // %"records::le16_at.exit.i.i.i.i.i.i"
	orr	w13, w13, w15, lsl #8
	cmp	w13, #4
	mov	w13, #5                         // =0x5
	cinc	x13, x13, eq
	cmp	x20, #7
	add	x15, x14, #4
	b.hi	.LBB53_9
.LBB53_15:                              // %start.split.us.i.i.i.i.i.i.i
	cmp	x20, #3
	b.ls	.LBB53_24
// %bb.16:                              // %join.5.us.preheader.i.i.i.i.i.i.i
	sub	x18, x20, #4
	cmp	x15, x18
	b.ls	.LBB53_28
// %bb.17:                              // %join.6.i.us.i.i.i.i.i.i.i
	cmp	x20, x15
	b.ls	.LBB53_46
// %bb.18:                              // %join.8.i.i.us.i.preheader.i.i.i.i.i.i
	add	x16, x14, #7
	cmp	x16, x20
	b.hs	.LBB53_151
// %bb.19:                              // %then.1.i.i.i.us.i.i.i.i.i.i.i
	ldrb	w16, [x19, x16]
	lsl	x16, x16, #8
	b	.LBB53_152
.LBB53_20:                              // %then.4.i.i.i.i.i.i.i.i
	ldr	w15, [x19, x15]
	add	x16, x14, #8
	cmp	x16, x2
	b.ls	.LBB53_41
.LBB53_21:                              // %join.6.i.1.i.i.i.i.i.i.i
	cmp	x20, x16
	b.ls	.LBB53_29
// %bb.22:                              // %join.8.i.i.1.i.preheader.i.i.i.i.i.i
	add	x17, x14, #15
	cmp	x17, x20
	b.hs	.LBB53_47
// %bb.23:                              // %then.1.i.i.i.1.i.i.i.i.i.i.i
	ldrb	w17, [x19, x17]
	lsl	x17, x17, #8
	b	.LBB53_48
.LBB53_24:                              // %join.5.us.us.preheader.i.i.i.i.i.i.i
	cmp	x20, x15
	b.ls	.LBB53_30
// %bb.25:                              // %"records::byte_at.exit.i.i.us.us.i.i.i.i.i.i.i"
	add	x16, x14, #6
	cmp	x16, x20
	b.hs	.LBB53_66
// %bb.26:                              // %then.1.i.i.i.us.us.i.1.i.i.i.i.i.i
	ldrb	w16, [x19, #2]
	lsl	x16, x16, #8
	b	.LBB53_67
.LBB53_27:
	mov	x15, xzr
	add	x16, x14, #8
	cmp	x16, x2
	b.hi	.LBB53_21
	b	.LBB53_41
.LBB53_28:                              // %then.4.i.us.i.i.i.i.i.i.i
	ldr	w15, [x19, x15]
	b	.LBB53_157
.LBB53_29:
	mov	x16, xzr
	add	x17, x14, #16
	cmp	x17, x2
	b.hi	.LBB53_42
	b	.LBB53_61
.LBB53_30:
	mov	x15, xzr
	add	x16, x14, #8
	cmp	x20, x16
	b.hi	.LBB53_70
.LBB53_31:
	mov	x16, xzr
	add	x17, x14, #16
	cmp	x20, x17
	b.hi	.LBB53_110
.LBB53_32:
	mov	x17, xzr
	add	x18, x14, #24
	cmp	x20, x18
	b.hi	.LBB53_133
.LBB53_33:
	mov	x1, xzr
	add	x18, x14, #32
	cmp	x20, x18
	b.hi	.LBB53_139
.LBB53_34:
	mov	x2, xzr
	add	x18, x14, #40
	cmp	x20, x18
	b.hi	.LBB53_145
	b	.LBB53_224
.LBB53_35:
	mov	x16, xzr
.LBB53_36:                              // %"records::byte_at.exit.i.i.i.i.i.i.i.i.i"
	add	x17, x14, #6
	cmp	x17, x20
	b.hs	.LBB53_38
// %bb.37:                              // %then.1.i.i.i.i.1.i.i.i.i.i.i
	ldrb	w17, [x19, x17]
	orr	x16, x16, x17
.LBB53_38:                              // %"records::byte_at.exit.i.i.i.1.i.i.i.i.i.i"
	add	x17, x14, #5
	lsl	x16, x16, #8
	cmp	x17, x20
	b.hs	.LBB53_40
// %bb.39:                              // %then.1.i.i.i.i.2.i.i.i.i.i.i
	ldrb	w17, [x19, x17]
	orr	x16, x16, x17
.LBB53_40:                              // %"records::byte_at.exit.i.i.i.3.i.i.i.i.i.i"
	ldrb	w15, [x19, x15]
	orr	x15, x15, x16, lsl #8
	add	x16, x14, #8
	cmp	x16, x2
	b.hi	.LBB53_21
.LBB53_41:                              // %then.1.i.1.i.i.i.i.i.i.i
	ldr	x16, [x19, x16]
	add	x17, x14, #16
	cmp	x17, x2
	b.ls	.LBB53_61
.LBB53_42:                              // %join.6.i.2.i.i.i.i.i.i.i
	cmp	x20, x17
	b.ls	.LBB53_45
// %bb.43:                              // %join.8.i.i.2.i.preheader.i.i.i.i.i.i
	add	x1, x14, #23
	cmp	x1, x20
	b.hs	.LBB53_72
// %bb.44:                              // %then.1.i.i.i.2.i.i.i.i.i.i.i
	ldrb	w1, [x19, x1]
	lsl	x1, x1, #8
	b	.LBB53_73
.LBB53_45:
	mov	x17, xzr
	add	x1, x14, #24
	cmp	x1, x2
	b.hi	.LBB53_62
	b	.LBB53_86
.LBB53_46:
	mov	x15, xzr
	b	.LBB53_157
.LBB53_47:
	mov	x17, xzr
.LBB53_48:                              // %"records::byte_at.exit.i.i.1.i.i.i.i.i.i.i"
	add	x1, x14, #14
	cmp	x1, x20
	b.hs	.LBB53_54
// %bb.49:                              // %then.1.i.i.i.1.i.1.i.i.i.i.i.i
	ldrb	w1, [x19, x1]
	orr	x17, x17, x1
	add	x1, x14, #13
	lsl	x17, x17, #8
	cmp	x1, x20
	b.lo	.LBB53_55
.LBB53_50:                              // %"records::byte_at.exit.i.i.1.i.2.i.i.i.i.i.i"
	add	x1, x14, #12
	lsl	x17, x17, #8
	cmp	x1, x20
	b.hs	.LBB53_56
.LBB53_51:                              // %then.1.i.i.i.1.i.3.i.i.i.i.i.i
	ldrb	w1, [x19, x1]
	orr	x17, x17, x1
	add	x1, x14, #11
	lsl	x17, x17, #8
	cmp	x1, x20
	b.lo	.LBB53_57
.LBB53_52:                              // %"records::byte_at.exit.i.i.1.i.4.i.i.i.i.i.i"
	add	x1, x14, #10
	lsl	x17, x17, #8
	cmp	x1, x20
	b.hs	.LBB53_58
.LBB53_53:                              // %then.1.i.i.i.1.i.5.i.i.i.i.i.i
	ldrb	w1, [x19, x1]
	orr	x17, x17, x1
	add	x1, x14, #9
	lsl	x17, x17, #8
	cmp	x1, x20
	b.lo	.LBB53_59
	b	.LBB53_60
.LBB53_54:                              // %"records::byte_at.exit.i.i.1.i.1.i.i.i.i.i.i"
	add	x1, x14, #13
	lsl	x17, x17, #8
	cmp	x1, x20
	b.hs	.LBB53_50
.LBB53_55:                              // %then.1.i.i.i.1.i.2.i.i.i.i.i.i
	ldrb	w1, [x19, x1]
	orr	x17, x17, x1
	add	x1, x14, #12
	lsl	x17, x17, #8
	cmp	x1, x20
	b.lo	.LBB53_51
.LBB53_56:                              // %"records::byte_at.exit.i.i.1.i.3.i.i.i.i.i.i"
	add	x1, x14, #11
	lsl	x17, x17, #8
	cmp	x1, x20
	b.hs	.LBB53_52
.LBB53_57:                              // %then.1.i.i.i.1.i.4.i.i.i.i.i.i
	ldrb	w1, [x19, x1]
	orr	x17, x17, x1
	add	x1, x14, #10
	lsl	x17, x17, #8
	cmp	x1, x20
	b.lo	.LBB53_53
.LBB53_58:                              // %"records::byte_at.exit.i.i.1.i.5.i.i.i.i.i.i"
	add	x1, x14, #9
	lsl	x17, x17, #8
	cmp	x1, x20
	b.hs	.LBB53_60
.LBB53_59:                              // %then.1.i.i.i.1.i.6.i.i.i.i.i.i
	ldrb	w1, [x19, x1]
	orr	x17, x17, x1
.LBB53_60:                              // %"records::byte_at.exit.i.i.1.i.7.i.i.i.i.i.i"
	ldrb	w16, [x19, x16]
	orr	x16, x16, x17, lsl #8
	add	x17, x14, #16
	cmp	x17, x2
	b.hi	.LBB53_42
.LBB53_61:                              // %then.1.i.2.i.i.i.i.i.i.i
	ldr	x17, [x19, x17]
	add	x1, x14, #24
	cmp	x1, x2
	b.ls	.LBB53_86
.LBB53_62:                              // %join.6.i.3.i.i.i.i.i.i.i
	cmp	x20, x1
	b.ls	.LBB53_65
// %bb.63:                              // %join.8.i.i.3.i.preheader.i.i.i.i.i.i
	add	x3, x14, #31
	cmp	x3, x20
	b.hs	.LBB53_91
// %bb.64:                              // %then.1.i.i.i.3.i.i.i.i.i.i.i
	ldrb	w3, [x19, x3]
	lsl	x3, x3, #8
	b	.LBB53_92
.LBB53_65:
	mov	x1, xzr
	add	x3, x14, #32
	cmp	x3, x2
	b.hi	.LBB53_87
	b	.LBB53_105
.LBB53_66:
	mov	x16, xzr
.LBB53_67:                              // %"records::byte_at.exit.i.i.us.us.i.1.i.i.i.i.i.i"
	add	x17, x14, #5
	cmp	x17, x20
	b.hs	.LBB53_69
// %bb.68:                              // %then.1.i.i.i.us.us.i.2.i.i.i.i.i.i
	ldrb	w17, [x19, x17]
	orr	x16, x16, x17
.LBB53_69:                              // %"records::byte_at.exit.i.i.us.us.i.3.i.i.i.i.i.i"
	ldrb	w15, [x19, x15]
	orr	x15, x15, x16, lsl #8
	add	x16, x14, #8
	cmp	x20, x16
	b.ls	.LBB53_31
.LBB53_70:                              // %"records::byte_at.exit.i.i.us.us.1.i.4.i.i.i.i.i.i"
	add	x17, x14, #10
	cmp	x17, x20
	b.hs	.LBB53_106
// %bb.71:                              // %then.1.i.i.i.us.us.1.i.5.i.i.i.i.i.i
	ldrb	w17, [x19, #2]
	lsl	x17, x17, #8
	b	.LBB53_107
.LBB53_72:
	mov	x1, xzr
.LBB53_73:                              // %"records::byte_at.exit.i.i.2.i.i.i.i.i.i.i"
	add	x3, x14, #22
	cmp	x3, x20
	b.hs	.LBB53_79
// %bb.74:                              // %then.1.i.i.i.2.i.1.i.i.i.i.i.i
	ldrb	w3, [x19, x3]
	orr	x1, x1, x3
	add	x3, x14, #21
	lsl	x1, x1, #8
	cmp	x3, x20
	b.lo	.LBB53_80
.LBB53_75:                              // %"records::byte_at.exit.i.i.2.i.2.i.i.i.i.i.i"
	add	x3, x14, #20
	lsl	x1, x1, #8
	cmp	x3, x20
	b.hs	.LBB53_81
.LBB53_76:                              // %then.1.i.i.i.2.i.3.i.i.i.i.i.i
	ldrb	w3, [x19, x3]
	orr	x1, x1, x3
	add	x3, x14, #19
	lsl	x1, x1, #8
	cmp	x3, x20
	b.lo	.LBB53_82
.LBB53_77:                              // %"records::byte_at.exit.i.i.2.i.4.i.i.i.i.i.i"
	add	x3, x14, #18
	lsl	x1, x1, #8
	cmp	x3, x20
	b.hs	.LBB53_83
.LBB53_78:                              // %then.1.i.i.i.2.i.5.i.i.i.i.i.i
	ldrb	w3, [x19, x3]
	orr	x1, x1, x3
	add	x3, x14, #17
	lsl	x1, x1, #8
	cmp	x3, x20
	b.lo	.LBB53_84
	b	.LBB53_85
.LBB53_79:                              // %"records::byte_at.exit.i.i.2.i.1.i.i.i.i.i.i"
	add	x3, x14, #21
	lsl	x1, x1, #8
	cmp	x3, x20
	b.hs	.LBB53_75
.LBB53_80:                              // %then.1.i.i.i.2.i.2.i.i.i.i.i.i
	ldrb	w3, [x19, x3]
	orr	x1, x1, x3
	add	x3, x14, #20
	lsl	x1, x1, #8
	cmp	x3, x20
	b.lo	.LBB53_76
.LBB53_81:                              // %"records::byte_at.exit.i.i.2.i.3.i.i.i.i.i.i"
	add	x3, x14, #19
	lsl	x1, x1, #8
	cmp	x3, x20
	b.hs	.LBB53_77
.LBB53_82:                              // %then.1.i.i.i.2.i.4.i.i.i.i.i.i
	ldrb	w3, [x19, x3]
	orr	x1, x1, x3
	add	x3, x14, #18
	lsl	x1, x1, #8
	cmp	x3, x20
	b.lo	.LBB53_78
.LBB53_83:                              // %"records::byte_at.exit.i.i.2.i.5.i.i.i.i.i.i"
	add	x3, x14, #17
	lsl	x1, x1, #8
	cmp	x3, x20
	b.hs	.LBB53_85
.LBB53_84:                              // %then.1.i.i.i.2.i.6.i.i.i.i.i.i
	ldrb	w3, [x19, x3]
	orr	x1, x1, x3
.LBB53_85:                              // %"records::byte_at.exit.i.i.2.i.7.i.i.i.i.i.i"
	ldrb	w17, [x19, x17]
	orr	x17, x17, x1, lsl #8
	add	x1, x14, #24
	cmp	x1, x2
	b.hi	.LBB53_62
.LBB53_86:                              // %then.1.i.3.i.i.i.i.i.i.i
	ldr	x1, [x19, x1]
	add	x3, x14, #32
	cmp	x3, x2
	b.ls	.LBB53_105
.LBB53_87:                              // %join.6.i.4.i.i.i.i.i.i.i
	cmp	x20, x3
	b.ls	.LBB53_90
// %bb.88:                              // %join.8.i.i.4.i.preheader.i.i.i.i.i.i
	add	x2, x14, #39
	cmp	x2, x20
	b.hs	.LBB53_112
// %bb.89:                              // %then.1.i.i.i.4.i.i.i.i.i.i.i
	ldrb	w2, [x19, x2]
	lsl	x2, x2, #8
	b	.LBB53_113
.LBB53_90:
	mov	x2, xzr
	add	x3, x14, #40
	cmp	x3, x18
	b.hi	.LBB53_126
	b	.LBB53_164
.LBB53_91:
	mov	x3, xzr
.LBB53_92:                              // %"records::byte_at.exit.i.i.3.i.i.i.i.i.i.i"
	add	x4, x14, #30
	cmp	x4, x20
	b.hs	.LBB53_98
// %bb.93:                              // %then.1.i.i.i.3.i.1.i.i.i.i.i.i
	ldrb	w4, [x19, x4]
	orr	x3, x3, x4
	add	x4, x14, #29
	lsl	x3, x3, #8
	cmp	x4, x20
	b.lo	.LBB53_99
.LBB53_94:                              // %"records::byte_at.exit.i.i.3.i.2.i.i.i.i.i.i"
	add	x4, x14, #28
	lsl	x3, x3, #8
	cmp	x4, x20
	b.hs	.LBB53_100
.LBB53_95:                              // %then.1.i.i.i.3.i.3.i.i.i.i.i.i
	ldrb	w4, [x19, x4]
	orr	x3, x3, x4
	add	x4, x14, #27
	lsl	x3, x3, #8
	cmp	x4, x20
	b.lo	.LBB53_101
.LBB53_96:                              // %"records::byte_at.exit.i.i.3.i.4.i.i.i.i.i.i"
	add	x4, x14, #26
	lsl	x3, x3, #8
	cmp	x4, x20
	b.hs	.LBB53_102
.LBB53_97:                              // %then.1.i.i.i.3.i.5.i.i.i.i.i.i
	ldrb	w4, [x19, x4]
	orr	x3, x3, x4
	add	x4, x14, #25
	lsl	x3, x3, #8
	cmp	x4, x20
	b.lo	.LBB53_103
	b	.LBB53_104
.LBB53_98:                              // %"records::byte_at.exit.i.i.3.i.1.i.i.i.i.i.i"
	add	x4, x14, #29
	lsl	x3, x3, #8
	cmp	x4, x20
	b.hs	.LBB53_94
.LBB53_99:                              // %then.1.i.i.i.3.i.2.i.i.i.i.i.i
	ldrb	w4, [x19, x4]
	orr	x3, x3, x4
	add	x4, x14, #28
	lsl	x3, x3, #8
	cmp	x4, x20
	b.lo	.LBB53_95
.LBB53_100:                             // %"records::byte_at.exit.i.i.3.i.3.i.i.i.i.i.i"
	add	x4, x14, #27
	lsl	x3, x3, #8
	cmp	x4, x20
	b.hs	.LBB53_96
.LBB53_101:                             // %then.1.i.i.i.3.i.4.i.i.i.i.i.i
	ldrb	w4, [x19, x4]
	orr	x3, x3, x4
	add	x4, x14, #26
	lsl	x3, x3, #8
	cmp	x4, x20
	b.lo	.LBB53_97
.LBB53_102:                             // %"records::byte_at.exit.i.i.3.i.5.i.i.i.i.i.i"
	add	x4, x14, #25
	lsl	x3, x3, #8
	cmp	x4, x20
	b.hs	.LBB53_104
.LBB53_103:                             // %then.1.i.i.i.3.i.6.i.i.i.i.i.i
	ldrb	w4, [x19, x4]
	orr	x3, x3, x4
.LBB53_104:                             // %"records::byte_at.exit.i.i.3.i.7.i.i.i.i.i.i"
	ldrb	w1, [x19, x1]
	orr	x1, x1, x3, lsl #8
	add	x3, x14, #32
	cmp	x3, x2
	b.hi	.LBB53_87
.LBB53_105:                             // %then.1.i.4.i.i.i.i.i.i.i
	ldr	x2, [x19, x3]
	add	x3, x14, #40
	cmp	x3, x18
	b.hi	.LBB53_126
	b	.LBB53_164
.LBB53_106:
	mov	x17, xzr
.LBB53_107:                             // %"records::byte_at.exit.i.i.us.us.1.i.5.i.i.i.i.i.i"
	add	x18, x14, #9
	cmp	x18, x20
	b.hs	.LBB53_109
// %bb.108:                             // %then.1.i.i.i.us.us.1.i.6.i.i.i.i.i.i
	ldrb	w18, [x19, x18]
	orr	x17, x17, x18
.LBB53_109:                             // %"records::byte_at.exit.i.i.us.us.1.i.7.i.i.i.i.i.i"
	ldrb	w16, [x19, x16]
	orr	x16, x16, x17, lsl #8
	add	x17, x14, #16
	cmp	x20, x17
	b.ls	.LBB53_32
.LBB53_110:                             // %"records::byte_at.exit.i.i.us.us.2.i.4.i.i.i.i.i.i"
	add	x18, x14, #18
	cmp	x18, x20
	b.hs	.LBB53_129
// %bb.111:                             // %then.1.i.i.i.us.us.2.i.5.i.i.i.i.i.i
	ldrb	w18, [x19, #2]
	lsl	x18, x18, #8
	b	.LBB53_130
.LBB53_112:
	mov	x2, xzr
.LBB53_113:                             // %"records::byte_at.exit.i.i.4.i.i.i.i.i.i.i"
	add	x4, x14, #38
	cmp	x4, x20
	b.hs	.LBB53_119
// %bb.114:                             // %then.1.i.i.i.4.i.1.i.i.i.i.i.i
	ldrb	w4, [x19, x4]
	orr	x2, x2, x4
	add	x4, x14, #37
	lsl	x2, x2, #8
	cmp	x4, x20
	b.lo	.LBB53_120
.LBB53_115:                             // %"records::byte_at.exit.i.i.4.i.2.i.i.i.i.i.i"
	add	x4, x14, #36
	lsl	x2, x2, #8
	cmp	x4, x20
	b.hs	.LBB53_121
.LBB53_116:                             // %then.1.i.i.i.4.i.3.i.i.i.i.i.i
	ldrb	w4, [x19, x4]
	orr	x2, x2, x4
	add	x4, x14, #35
	lsl	x2, x2, #8
	cmp	x4, x20
	b.lo	.LBB53_122
.LBB53_117:                             // %"records::byte_at.exit.i.i.4.i.4.i.i.i.i.i.i"
	add	x4, x14, #34
	lsl	x2, x2, #8
	cmp	x4, x20
	b.hs	.LBB53_123
.LBB53_118:                             // %then.1.i.i.i.4.i.5.i.i.i.i.i.i
	ldrb	w4, [x19, x4]
	orr	x2, x2, x4
	add	x4, x14, #33
	lsl	x2, x2, #8
	cmp	x4, x20
	b.lo	.LBB53_124
	b	.LBB53_125
.LBB53_119:                             // %"records::byte_at.exit.i.i.4.i.1.i.i.i.i.i.i"
	add	x4, x14, #37
	lsl	x2, x2, #8
	cmp	x4, x20
	b.hs	.LBB53_115
.LBB53_120:                             // %then.1.i.i.i.4.i.2.i.i.i.i.i.i
	ldrb	w4, [x19, x4]
	orr	x2, x2, x4
	add	x4, x14, #36
	lsl	x2, x2, #8
	cmp	x4, x20
	b.lo	.LBB53_116
.LBB53_121:                             // %"records::byte_at.exit.i.i.4.i.3.i.i.i.i.i.i"
	add	x4, x14, #35
	lsl	x2, x2, #8
	cmp	x4, x20
	b.hs	.LBB53_117
.LBB53_122:                             // %then.1.i.i.i.4.i.4.i.i.i.i.i.i
	ldrb	w4, [x19, x4]
	orr	x2, x2, x4
	add	x4, x14, #34
	lsl	x2, x2, #8
	cmp	x4, x20
	b.lo	.LBB53_118
.LBB53_123:                             // %"records::byte_at.exit.i.i.4.i.5.i.i.i.i.i.i"
	add	x4, x14, #33
	lsl	x2, x2, #8
	cmp	x4, x20
	b.hs	.LBB53_125
.LBB53_124:                             // %then.1.i.i.i.4.i.6.i.i.i.i.i.i
	ldrb	w4, [x19, x4]
	orr	x2, x2, x4
.LBB53_125:                             // %"records::byte_at.exit.i.i.4.i.7.i.i.i.i.i.i"
	ldrb	w3, [x19, x3]
	orr	x2, x3, x2, lsl #8
	add	x3, x14, #40
	cmp	x3, x18
	b.ls	.LBB53_164
.LBB53_126:                             // %join.6.i.5.i.i.i.i.i.i.i
	cmp	x20, x3
	b.ls	.LBB53_224
// %bb.127:                             // %join.8.i.i.5.i.preheader.i.i.i.i.i.i
	add	x18, x14, #43
	cmp	x18, x20
	b.hs	.LBB53_217
.LBB53_128:                             // %then.1.i.i.i.5.i.i.i.i.i.i.i
	ldrb	w18, [x19, x18]
	lsl	x18, x18, #8
	b	.LBB53_218
.LBB53_129:
	mov	x18, xzr
.LBB53_130:                             // %"records::byte_at.exit.i.i.us.us.2.i.5.i.i.i.i.i.i"
	add	x1, x14, #17
	cmp	x1, x20
	b.hs	.LBB53_132
// %bb.131:                             // %then.1.i.i.i.us.us.2.i.6.i.i.i.i.i.i
	ldrb	w1, [x19, x1]
	orr	x18, x18, x1
.LBB53_132:                             // %"records::byte_at.exit.i.i.us.us.2.i.7.i.i.i.i.i.i"
	ldrb	w17, [x19, x17]
	orr	x17, x17, x18, lsl #8
	add	x18, x14, #24
	cmp	x20, x18
	b.ls	.LBB53_33
.LBB53_133:                             // %"records::byte_at.exit.i.i.us.us.3.i.4.i.i.i.i.i.i"
	add	x1, x14, #26
	cmp	x1, x20
	b.hs	.LBB53_135
// %bb.134:                             // %then.1.i.i.i.us.us.3.i.5.i.i.i.i.i.i
	ldrb	w1, [x19, #2]
	lsl	x1, x1, #8
	b	.LBB53_136
.LBB53_135:
	mov	x1, xzr
.LBB53_136:                             // %"records::byte_at.exit.i.i.us.us.3.i.5.i.i.i.i.i.i"
	add	x2, x14, #25
	cmp	x2, x20
	b.hs	.LBB53_138
// %bb.137:                             // %then.1.i.i.i.us.us.3.i.6.i.i.i.i.i.i
	ldrb	w2, [x19, x2]
	orr	x1, x1, x2
.LBB53_138:                             // %"records::byte_at.exit.i.i.us.us.3.i.7.i.i.i.i.i.i"
	ldrb	w18, [x19, x18]
	orr	x1, x18, x1, lsl #8
	add	x18, x14, #32
	cmp	x20, x18
	b.ls	.LBB53_34
.LBB53_139:                             // %"records::byte_at.exit.i.i.us.us.4.i.4.i.i.i.i.i.i"
	add	x2, x14, #34
	cmp	x2, x20
	b.hs	.LBB53_141
// %bb.140:                             // %then.1.i.i.i.us.us.4.i.5.i.i.i.i.i.i
	ldrb	w2, [x19, #2]
	lsl	x2, x2, #8
	b	.LBB53_142
.LBB53_141:
	mov	x2, xzr
.LBB53_142:                             // %"records::byte_at.exit.i.i.us.us.4.i.5.i.i.i.i.i.i"
	add	x3, x14, #33
	cmp	x3, x20
	b.hs	.LBB53_144
// %bb.143:                             // %then.1.i.i.i.us.us.4.i.6.i.i.i.i.i.i
	ldrb	w3, [x19, x3]
	orr	x2, x2, x3
.LBB53_144:                             // %"records::byte_at.exit.i.i.us.us.4.i.7.i.i.i.i.i.i"
	ldrb	w18, [x19, x18]
	orr	x2, x18, x2, lsl #8
	add	x18, x14, #40
	cmp	x20, x18
	b.ls	.LBB53_224
.LBB53_145:                             // %"records::byte_at.exit.i.i.us.us.5.i.i.i.i.i.i.i"
	add	x3, x14, #42
	cmp	x3, x20
	b.hs	.LBB53_147
// %bb.146:                             // %then.1.i.i.i.us.us.5.i.1.i.i.i.i.i.i
	ldrb	w3, [x19, #2]
	lsl	x3, x3, #8
	b	.LBB53_148
.LBB53_147:
	mov	x3, xzr
.LBB53_148:                             // %"records::byte_at.exit.i.i.us.us.5.i.1.i.i.i.i.i.i"
	add	x14, x14, #41
	cmp	x14, x20
	b.hs	.LBB53_150
// %bb.149:                             // %then.1.i.i.i.us.us.5.i.2.i.i.i.i.i.i
	ldrb	w14, [x19, x14]
	orr	x3, x3, x14
.LBB53_150:                             // %"records::byte_at.exit.i.i.us.us.5.i.3.i.i.i.i.i.i"
	ldrb	w14, [x19, x18]
	orr	x14, x14, x3, lsl #8
	cmp	x0, x15
	b.ne	.LBB53_223
	b	.LBB53_225
.LBB53_151:
	mov	x16, xzr
.LBB53_152:                             // %"records::byte_at.exit.i.i.us.i.i.i.i.i.i.i"
	add	x17, x14, #6
	cmp	x17, x20
	b.hs	.LBB53_154
// %bb.153:                             // %then.1.i.i.i.us.i.1.i.i.i.i.i.i
	ldrb	w17, [x19, x17]
	orr	x16, x16, x17
.LBB53_154:                             // %"records::byte_at.exit.i.i.us.i.1.i.i.i.i.i.i"
	add	x17, x14, #5
	lsl	x16, x16, #8
	cmp	x17, x20
	b.hs	.LBB53_156
// %bb.155:                             // %then.1.i.i.i.us.i.2.i.i.i.i.i.i
	ldrb	w17, [x19, x17]
	orr	x16, x16, x17
.LBB53_156:                             // %"records::byte_at.exit.i.i.us.i.3.i.i.i.i.i.i"
	ldrb	w15, [x19, x15]
	orr	x15, x15, x16, lsl #8
.LBB53_157:                             // %join.6.i.us.1.i.i.i.i.i.i.i
	add	x16, x14, #8
	cmp	x20, x16
	b.ls	.LBB53_160
// %bb.158:                             // %"records::byte_at.exit.i.i.us.1.i.i.i.i.i.i.i"
	add	x17, x14, #14
	cmp	x17, x20
	b.hs	.LBB53_165
// %bb.159:                             // %then.1.i.i.i.us.1.i.1.i.i.i.i.i.i
	ldrb	w17, [x19, #6]
	lsl	x17, x17, #8
	b	.LBB53_166
.LBB53_160:
	mov	x16, xzr
	add	x17, x14, #16
	cmp	x20, x17
	b.hi	.LBB53_173
.LBB53_161:
	mov	x17, xzr
	add	x1, x14, #24
	cmp	x20, x1
	b.hi	.LBB53_187
.LBB53_162:
	mov	x1, xzr
	add	x2, x14, #32
	cmp	x20, x2
	b.hi	.LBB53_201
.LBB53_163:
	mov	x2, xzr
	add	x3, x14, #40
	cmp	x3, x18
	b.hi	.LBB53_215
.LBB53_164:                             // %then.4.i.us.5.i.i.i.i.i.i.i
	ldr	w14, [x19, x3]
	cmp	x0, x15
	b.ne	.LBB53_223
	b	.LBB53_225
.LBB53_165:
	mov	x17, xzr
.LBB53_166:                             // %"records::byte_at.exit.i.i.us.1.i.1.i.i.i.i.i.i"
	add	x1, x14, #13
	cmp	x1, x20
	b.hs	.LBB53_175
// %bb.167:                             // %then.1.i.i.i.us.1.i.2.i.i.i.i.i.i
	ldrb	w1, [x19, x1]
	orr	x17, x17, x1
	add	x1, x14, #12
	lsl	x17, x17, #8
	cmp	x1, x20
	b.lo	.LBB53_176
.LBB53_168:                             // %"records::byte_at.exit.i.i.us.1.i.3.i.i.i.i.i.i"
	add	x1, x14, #11
	lsl	x17, x17, #8
	cmp	x1, x20
	b.hs	.LBB53_177
.LBB53_169:                             // %then.1.i.i.i.us.1.i.4.i.i.i.i.i.i
	ldrb	w1, [x19, x1]
	orr	x17, x17, x1
	add	x1, x14, #10
	lsl	x17, x17, #8
	cmp	x1, x20
	b.lo	.LBB53_178
.LBB53_170:                             // %"records::byte_at.exit.i.i.us.1.i.5.i.i.i.i.i.i"
	add	x1, x14, #9
	lsl	x17, x17, #8
	cmp	x1, x20
	b.hs	.LBB53_172
.LBB53_171:                             // %then.1.i.i.i.us.1.i.6.i.i.i.i.i.i
	ldrb	w1, [x19, x1]
	orr	x17, x17, x1
.LBB53_172:                             // %"records::byte_at.exit.i.i.us.1.i.7.i.i.i.i.i.i"
	ldrb	w16, [x19, x16]
	orr	x16, x16, x17, lsl #8
	add	x17, x14, #16
	cmp	x20, x17
	b.ls	.LBB53_161
.LBB53_173:                             // %"records::byte_at.exit.i.i.us.2.i.i.i.i.i.i.i"
	add	x1, x14, #22
	cmp	x1, x20
	b.hs	.LBB53_179
// %bb.174:                             // %then.1.i.i.i.us.2.i.1.i.i.i.i.i.i
	ldrb	w1, [x19, #6]
	lsl	x1, x1, #8
	b	.LBB53_180
.LBB53_175:                             // %"records::byte_at.exit.i.i.us.1.i.2.i.i.i.i.i.i"
	add	x1, x14, #12
	lsl	x17, x17, #8
	cmp	x1, x20
	b.hs	.LBB53_168
.LBB53_176:                             // %then.1.i.i.i.us.1.i.3.i.i.i.i.i.i
	ldrb	w1, [x19, x1]
	orr	x17, x17, x1
	add	x1, x14, #11
	lsl	x17, x17, #8
	cmp	x1, x20
	b.lo	.LBB53_169
.LBB53_177:                             // %"records::byte_at.exit.i.i.us.1.i.4.i.i.i.i.i.i"
	add	x1, x14, #10
	lsl	x17, x17, #8
	cmp	x1, x20
	b.hs	.LBB53_170
.LBB53_178:                             // %then.1.i.i.i.us.1.i.5.i.i.i.i.i.i
	ldrb	w1, [x19, x1]
	orr	x17, x17, x1
	add	x1, x14, #9
	lsl	x17, x17, #8
	cmp	x1, x20
	b.lo	.LBB53_171
	b	.LBB53_172
.LBB53_179:
	mov	x1, xzr
.LBB53_180:                             // %"records::byte_at.exit.i.i.us.2.i.1.i.i.i.i.i.i"
	add	x2, x14, #21
	cmp	x2, x20
	b.hs	.LBB53_189
// %bb.181:                             // %then.1.i.i.i.us.2.i.2.i.i.i.i.i.i
	ldrb	w2, [x19, x2]
	orr	x1, x1, x2
	add	x2, x14, #20
	lsl	x1, x1, #8
	cmp	x2, x20
	b.lo	.LBB53_190
.LBB53_182:                             // %"records::byte_at.exit.i.i.us.2.i.3.i.i.i.i.i.i"
	add	x2, x14, #19
	lsl	x1, x1, #8
	cmp	x2, x20
	b.hs	.LBB53_191
.LBB53_183:                             // %then.1.i.i.i.us.2.i.4.i.i.i.i.i.i
	ldrb	w2, [x19, x2]
	orr	x1, x1, x2
	add	x2, x14, #18
	lsl	x1, x1, #8
	cmp	x2, x20
	b.lo	.LBB53_192
.LBB53_184:                             // %"records::byte_at.exit.i.i.us.2.i.5.i.i.i.i.i.i"
	add	x2, x14, #17
	lsl	x1, x1, #8
	cmp	x2, x20
	b.hs	.LBB53_186
.LBB53_185:                             // %then.1.i.i.i.us.2.i.6.i.i.i.i.i.i
	ldrb	w2, [x19, x2]
	orr	x1, x1, x2
.LBB53_186:                             // %"records::byte_at.exit.i.i.us.2.i.7.i.i.i.i.i.i"
	ldrb	w17, [x19, x17]
	orr	x17, x17, x1, lsl #8
	add	x1, x14, #24
	cmp	x20, x1
	b.ls	.LBB53_162
.LBB53_187:                             // %"records::byte_at.exit.i.i.us.3.i.i.i.i.i.i.i"
	add	x2, x14, #30
	cmp	x2, x20
	b.hs	.LBB53_193
// %bb.188:                             // %then.1.i.i.i.us.3.i.1.i.i.i.i.i.i
	ldrb	w2, [x19, #6]
	lsl	x2, x2, #8
	b	.LBB53_194
.LBB53_189:                             // %"records::byte_at.exit.i.i.us.2.i.2.i.i.i.i.i.i"
	add	x2, x14, #20
	lsl	x1, x1, #8
	cmp	x2, x20
	b.hs	.LBB53_182
.LBB53_190:                             // %then.1.i.i.i.us.2.i.3.i.i.i.i.i.i
	ldrb	w2, [x19, x2]
	orr	x1, x1, x2
	add	x2, x14, #19
	lsl	x1, x1, #8
	cmp	x2, x20
	b.lo	.LBB53_183
.LBB53_191:                             // %"records::byte_at.exit.i.i.us.2.i.4.i.i.i.i.i.i"
	add	x2, x14, #18
	lsl	x1, x1, #8
	cmp	x2, x20
	b.hs	.LBB53_184
.LBB53_192:                             // %then.1.i.i.i.us.2.i.5.i.i.i.i.i.i
	ldrb	w2, [x19, x2]
	orr	x1, x1, x2
	add	x2, x14, #17
	lsl	x1, x1, #8
	cmp	x2, x20
	b.lo	.LBB53_185
	b	.LBB53_186
.LBB53_193:
	mov	x2, xzr
.LBB53_194:                             // %"records::byte_at.exit.i.i.us.3.i.1.i.i.i.i.i.i"
	add	x3, x14, #29
	cmp	x3, x20
	b.hs	.LBB53_203
// %bb.195:                             // %then.1.i.i.i.us.3.i.2.i.i.i.i.i.i
	ldrb	w3, [x19, x3]
	orr	x2, x2, x3
	add	x3, x14, #28
	lsl	x2, x2, #8
	cmp	x3, x20
	b.lo	.LBB53_204
.LBB53_196:                             // %"records::byte_at.exit.i.i.us.3.i.3.i.i.i.i.i.i"
	add	x3, x14, #27
	lsl	x2, x2, #8
	cmp	x3, x20
	b.hs	.LBB53_205
.LBB53_197:                             // %then.1.i.i.i.us.3.i.4.i.i.i.i.i.i
	ldrb	w3, [x19, x3]
	orr	x2, x2, x3
	add	x3, x14, #26
	lsl	x2, x2, #8
	cmp	x3, x20
	b.lo	.LBB53_206
.LBB53_198:                             // %"records::byte_at.exit.i.i.us.3.i.5.i.i.i.i.i.i"
	add	x3, x14, #25
	lsl	x2, x2, #8
	cmp	x3, x20
	b.hs	.LBB53_200
.LBB53_199:                             // %then.1.i.i.i.us.3.i.6.i.i.i.i.i.i
	ldrb	w3, [x19, x3]
	orr	x2, x2, x3
.LBB53_200:                             // %"records::byte_at.exit.i.i.us.3.i.7.i.i.i.i.i.i"
	ldrb	w1, [x19, x1]
	orr	x1, x1, x2, lsl #8
	add	x2, x14, #32
	cmp	x20, x2
	b.ls	.LBB53_163
.LBB53_201:                             // %"records::byte_at.exit.i.i.us.4.i.i.i.i.i.i.i"
	add	x3, x14, #38
	cmp	x3, x20
	b.hs	.LBB53_207
// %bb.202:                             // %then.1.i.i.i.us.4.i.1.i.i.i.i.i.i
	ldrb	w3, [x19, #6]
	lsl	x3, x3, #8
	b	.LBB53_208
.LBB53_203:                             // %"records::byte_at.exit.i.i.us.3.i.2.i.i.i.i.i.i"
	add	x3, x14, #28
	lsl	x2, x2, #8
	cmp	x3, x20
	b.hs	.LBB53_196
.LBB53_204:                             // %then.1.i.i.i.us.3.i.3.i.i.i.i.i.i
	ldrb	w3, [x19, x3]
	orr	x2, x2, x3
	add	x3, x14, #27
	lsl	x2, x2, #8
	cmp	x3, x20
	b.lo	.LBB53_197
.LBB53_205:                             // %"records::byte_at.exit.i.i.us.3.i.4.i.i.i.i.i.i"
	add	x3, x14, #26
	lsl	x2, x2, #8
	cmp	x3, x20
	b.hs	.LBB53_198
.LBB53_206:                             // %then.1.i.i.i.us.3.i.5.i.i.i.i.i.i
	ldrb	w3, [x19, x3]
	orr	x2, x2, x3
	add	x3, x14, #25
	lsl	x2, x2, #8
	cmp	x3, x20
	b.lo	.LBB53_199
	b	.LBB53_200
.LBB53_207:
	mov	x3, xzr
.LBB53_208:                             // %"records::byte_at.exit.i.i.us.4.i.1.i.i.i.i.i.i"
	add	x4, x14, #37
	cmp	x4, x20
	b.hs	.LBB53_233
// %bb.209:                             // %then.1.i.i.i.us.4.i.2.i.i.i.i.i.i
	ldrb	w4, [x19, x4]
	orr	x3, x3, x4
	add	x4, x14, #36
	lsl	x3, x3, #8
	cmp	x4, x20
	b.lo	.LBB53_234
.LBB53_210:                             // %"records::byte_at.exit.i.i.us.4.i.3.i.i.i.i.i.i"
	add	x4, x14, #35
	lsl	x3, x3, #8
	cmp	x4, x20
	b.hs	.LBB53_235
.LBB53_211:                             // %then.1.i.i.i.us.4.i.4.i.i.i.i.i.i
	ldrb	w4, [x19, x4]
	orr	x3, x3, x4
	add	x4, x14, #34
	lsl	x3, x3, #8
	cmp	x4, x20
	b.lo	.LBB53_236
.LBB53_212:                             // %"records::byte_at.exit.i.i.us.4.i.5.i.i.i.i.i.i"
	add	x4, x14, #33
	lsl	x3, x3, #8
	cmp	x4, x20
	b.hs	.LBB53_214
.LBB53_213:                             // %then.1.i.i.i.us.4.i.6.i.i.i.i.i.i
	ldrb	w4, [x19, x4]
	orr	x3, x3, x4
.LBB53_214:                             // %"records::byte_at.exit.i.i.us.4.i.7.i.i.i.i.i.i"
	ldrb	w2, [x19, x2]
	orr	x2, x2, x3, lsl #8
	add	x3, x14, #40
	cmp	x3, x18
	b.ls	.LBB53_164
.LBB53_215:                             // %join.6.i.us.5.i.i.i.i.i.i.i
	cmp	x20, x3
	b.ls	.LBB53_224
// %bb.216:                             // %join.8.i.i.us.5.i.preheader.i.i.i.i.i.i
	add	x18, x14, #43
	cmp	x18, x20
	b.lo	.LBB53_128
.LBB53_217:
	mov	x18, xzr
.LBB53_218:                             // %"records::byte_at.exit.i.i.5.i.i.i.i.i.i.i"
	add	x4, x14, #42
	cmp	x4, x20
	b.hs	.LBB53_220
// %bb.219:                             // %then.1.i.i.i.5.i.1.i.i.i.i.i.i
	ldrb	w4, [x19, x4]
	orr	x18, x18, x4
.LBB53_220:                             // %"records::byte_at.exit.i.i.5.i.1.i.i.i.i.i.i"
	add	x4, x14, #41
	lsl	x14, x18, #8
	cmp	x4, x20
	b.hs	.LBB53_222
// %bb.221:                             // %then.1.i.i.i.5.i.2.i.i.i.i.i.i
	ldrb	w18, [x19, x4]
	orr	x14, x14, x18
.LBB53_222:                             // %"records::byte_at.exit.i.i.5.i.3.i.i.i.i.i.i"
	ldrb	w18, [x19, x3]
	orr	x14, x18, x14, lsl #8
	cmp	x0, x15
	b.eq	.LBB53_225
.LBB53_223:
	mov	w0, #511                        // =0x1ff
	ldp	x20, x19, [sp, #80]             // 16-byte Folded Reload
	ldp	x29, x30, [sp, #64]             // 16-byte Folded Reload
	add	sp, sp, #96
	ret
.LBB53_224:
	mov	x14, xzr
	cmp	x0, x15
	b.ne	.LBB53_223
.LBB53_225:                             // %join.5.i3.i.i.i.i.i.1
	cmp	x9, x16
	b.ne	.LBB53_231
// %bb.226:                             // %join.5.i3.i.i.i.i.i.2
	cmp	x12, x17
	b.ne	.LBB53_232
// %bb.227:                             // %join.5.i3.i.i.i.i.i.3
	cmp	x11, x1
	b.ne	.LBB53_237
// %bb.228:                             // %join.5.i3.i.i.i.i.i.4
	cmp	x10, x2
	b.ne	.LBB53_238
// %bb.229:                             // %join.8.i.i.i.i.i.i.4
	cmp	x13, #5
	b.ne	.LBB53_239
.LBB53_230:                             // %"judging::judge.exit.thread8.i.i.i"
	mov	x0, xzr
	ldp	x20, x19, [sp, #80]             // 16-byte Folded Reload
	ldp	x29, x30, [sp, #64]             // 16-byte Folded Reload
	add	sp, sp, #96
	ret
.LBB53_231:
	mov	w0, #767                        // =0x2ff
	ldp	x20, x19, [sp, #80]             // 16-byte Folded Reload
	ldp	x29, x30, [sp, #64]             // 16-byte Folded Reload
	add	sp, sp, #96
	ret
.LBB53_232:
	mov	w0, #1023                       // =0x3ff
	ldp	x20, x19, [sp, #80]             // 16-byte Folded Reload
	ldp	x29, x30, [sp, #64]             // 16-byte Folded Reload
	add	sp, sp, #96
	ret
.LBB53_233:                             // %"records::byte_at.exit.i.i.us.4.i.2.i.i.i.i.i.i"
	add	x4, x14, #36
	lsl	x3, x3, #8
	cmp	x4, x20
	b.hs	.LBB53_210
.LBB53_234:                             // %then.1.i.i.i.us.4.i.3.i.i.i.i.i.i
	ldrb	w4, [x19, x4]
	orr	x3, x3, x4
	add	x4, x14, #35
	lsl	x3, x3, #8
	cmp	x4, x20
	b.lo	.LBB53_211
.LBB53_235:                             // %"records::byte_at.exit.i.i.us.4.i.4.i.i.i.i.i.i"
	add	x4, x14, #34
	lsl	x3, x3, #8
	cmp	x4, x20
	b.hs	.LBB53_212
.LBB53_236:                             // %then.1.i.i.i.us.4.i.5.i.i.i.i.i.i
	ldrb	w4, [x19, x4]
	orr	x3, x3, x4
	add	x4, x14, #33
	lsl	x3, x3, #8
	cmp	x4, x20
	b.lo	.LBB53_213
	b	.LBB53_214
.LBB53_237:
	mov	w0, #1279                       // =0x4ff
	ldp	x20, x19, [sp, #80]             // 16-byte Folded Reload
	ldp	x29, x30, [sp, #64]             // 16-byte Folded Reload
	add	sp, sp, #96
	ret
.LBB53_238:
	mov	w0, #1535                       // =0x5ff
	ldp	x20, x19, [sp, #80]             // 16-byte Folded Reload
	ldp	x29, x30, [sp, #64]             // 16-byte Folded Reload
	add	sp, sp, #96
	ret
.LBB53_239:                             // %join.5.i3.i.i.i.i.i.5
	cmp	x8, x14
	b.ne	.LBB53_242
// %bb.240:                             // %join.8.i.i.i.i.i.i.5
	cmp	x13, #6
	b.eq	.LBB53_230
// %bb.241:                             // %join.8.i.i.i.i.i.i.5
                                        // implicit-def: $x0
	cbnz	w8, .LBB53_2
	b	.LBB53_230
.LBB53_242:
	mov	w0, #1791                       // =0x6ff
	ldp	x20, x19, [sp, #80]             // 16-byte Folded Reload
	ldp	x29, x30, [sp, #64]             // 16-byte Folded Reload
	add	sp, sp, #96
	ret
.Lfunc_end53:
	.size	tteuyomal_judge, .Lfunc_end53-tteuyomal_judge
                                        // -- End function
	.section	.text.tteuyomal_judge_block,"ax",@progbits
	.globl	tteuyomal_judge_block           // -- Begin function tteuyomal_judge_block
	.p2align	2
	.type	tteuyomal_judge_block,@function
tteuyomal_judge_block:                  // @tteuyomal_judge_block
// %bb.0:                               // %start
	stp	x29, x30, [sp, #-96]!           // 16-byte Folded Spill
	stp	x28, x27, [sp, #16]             // 16-byte Folded Spill
	mov	x29, sp
	stp	x26, x25, [sp, #32]             // 16-byte Folded Spill
	stp	x24, x23, [sp, #48]             // 16-byte Folded Spill
	stp	x22, x21, [sp, #64]             // 16-byte Folded Spill
	stp	x20, x19, [sp, #80]             // 16-byte Folded Spill
	sub	sp, sp, #1776
	movi	v0.2d, #0000000000000000
	mov	w8, #4096                       // =0x1000
	cmp	x1, #0
	mov	x21, x2
	mov	x20, x0
	csel	x27, x8, xzr, eq
	mov	x19, x4
	mov	x23, x3
	mov	x24, x1
	add	x28, sp, #160
	cmp	x3, #0
	add	x0, sp, #160
	add	x2, x1, x27
	add	x4, sp, #224
	mov	x1, x20
	mov	x3, x21
	str	xzr, [sp]
	csel	x26, x8, xzr, eq
	stp	xzr, xzr, [sp, #56]
	str	xzr, [sp, #72]
	stp	q0, q0, [sp, #160]
	str	q0, [x28, #32]
	str	xzr, [sp, #208]
	bl	"reach::opened"
	ldrb	w8, [sp, #160]
	ldp	x22, x25, [sp, #168]
	cmp	w8, #1
	b.eq	.LBB54_39
// %bb.1:                               // %arm.2.i.i.i.i
	ldp	x9, x8, [sp, #184]
	add	x23, x23, x26
	str	x8, [sp, #32]                   // 8-byte Spill
	ldr	x8, [sp, #200]
	str	x8, [sp, #48]                   // 8-byte Spill
	ldr	x8, [sp, #208]
	str	x8, [sp, #40]                   // 8-byte Spill
	cbz	x19, .LBB54_8
// %bb.2:                               // %"records::byte_at.exit.i.i.i.i.i.i.i.preheader"
	mov	x8, xzr
	str	x9, [sp, #24]                   // 8-byte Spill
.LBB54_3:                               // %"records::byte_at.exit.i.i.i.i.i.i.i"
                                        // =>This Inner Loop Header: Depth=1
	ldrb	w9, [x23, x8]
	cmp	w9, #7
	b.eq	.LBB54_9
// %bb.4:                               // %join.8.i.i.i.i.i.i.i
                                        //   in Loop: Header=BB54_3 Depth=1
	add	x9, x8, #1
	cmp	x9, x19
	b.hs	.LBB54_6
// %bb.5:                               // %then.1.i.i.i.i.i.i.i.i.i
                                        //   in Loop: Header=BB54_3 Depth=1
	ldrb	w9, [x23, x9]
	add	x9, x9, #2
	sub	x10, x19, x8
	mov	x26, xzr
	cmp	x10, x9
	b.hi	.LBB54_7
	b	.LBB54_10
.LBB54_6:                               //   in Loop: Header=BB54_3 Depth=1
	mov	w9, #2                          // =0x2
	sub	x10, x19, x8
	mov	x26, xzr
	cmp	x10, x9
	b.ls	.LBB54_10
.LBB54_7:                               // %"claiming::size_at.exit.i.i.i.i.i.i.i"
                                        //   in Loop: Header=BB54_3 Depth=1
	add	x8, x9, x8
	cmp	x8, x19
	b.lo	.LBB54_3
	b	.LBB54_10
.LBB54_8:
	mov	x26, xzr
	mov	x8, xzr
	movi	v0.2d, #0000000000000000
	b	.LBB54_33
.LBB54_9:                               // %then.1.i.i.i.i.i.i
	add	x0, sp, #160
	add	x2, x24, x27
	add	x4, sp, #224
	mov	x1, x20
	mov	x3, x21
	mov	w5, #192                        // =0xc0
	stp	xzr, xzr, [sp, #160]
	str	xzr, [sp, #176]
	bl	"szeged::terms"
	ldrb	w8, [sp, #160]
	ldr	x9, [sp, #168]
	cmp	w8, #1
	csel	x26, xzr, x9, eq
.LBB54_10:                              // %"claims::szeged_asked.exit.i.i.i.i.i"
	mov	x8, xzr
.LBB54_11:                              // %"records::byte_at.exit.i.i6.i.i.i.i.i"
                                        // =>This Inner Loop Header: Depth=1
	ldrb	w9, [x23, x8]
	cmp	w9, #8
	b.eq	.LBB54_23
// %bb.12:                              // %join.8.i.i11.i.i.i.i.i
                                        //   in Loop: Header=BB54_11 Depth=1
	add	x9, x8, #1
	cmp	x9, x19
	b.hs	.LBB54_14
// %bb.13:                              // %then.1.i.i.i.i21.i.i.i.i.i
                                        //   in Loop: Header=BB54_11 Depth=1
	ldrb	w9, [x23, x9]
	add	x9, x9, #2
	sub	x10, x19, x8
	cmp	x10, x9
	b.hi	.LBB54_15
	b	.LBB54_16
.LBB54_14:                              //   in Loop: Header=BB54_11 Depth=1
	mov	w9, #2                          // =0x2
	sub	x10, x19, x8
	cmp	x10, x9
	b.ls	.LBB54_16
.LBB54_15:                              // %"claiming::size_at.exit.i.i14.i.i.i.i.i"
                                        //   in Loop: Header=BB54_11 Depth=1
	add	x8, x9, x8
	cmp	x8, x19
	b.lo	.LBB54_11
.LBB54_16:                              // %"records::byte_at.exit.i4.i.i.i.i.i.i.preheader"
	mov	x8, xzr
.LBB54_17:                              // %"records::byte_at.exit.i4.i.i.i.i.i.i"
                                        // =>This Inner Loop Header: Depth=1
	ldrb	w9, [x23, x8]
	cmp	w9, #9
	b.eq	.LBB54_23
// %bb.18:                              // %join.8.i10.i.i.i.i.i.i
                                        //   in Loop: Header=BB54_17 Depth=1
	add	x9, x8, #1
	cmp	x9, x19
	b.hs	.LBB54_20
// %bb.19:                              // %then.1.i.i.i21.i.i.i.i.i.i
                                        //   in Loop: Header=BB54_17 Depth=1
	ldrb	w9, [x23, x9]
	add	x9, x9, #2
	b	.LBB54_21
.LBB54_20:                              //   in Loop: Header=BB54_17 Depth=1
	mov	w9, #2                          // =0x2
.LBB54_21:                              // %"claiming::size_at.exit.i13.i.i.i.i.i.i"
                                        //   in Loop: Header=BB54_17 Depth=1
	movi	v0.2d, #0000000000000000
	sub	x10, x19, x8
	cmp	x10, x9
	b.ls	.LBB54_24
// %bb.22:                              // %"claiming::size_at.exit.i13.i.i.i.i.i.i"
                                        //   in Loop: Header=BB54_17 Depth=1
	add	x8, x9, x8
	cmp	x8, x19
	b.lo	.LBB54_17
	b	.LBB54_24
.LBB54_23:                              // %then.5.i.i.i.i.i.i
	movi	v0.2d, #0000000000000000
	add	x0, sp, #224
	add	x2, x24, x27
	mov	x1, x20
	mov	x3, x21
	str	xzr, [sp, #240]
	str	q0, [x28, #64]
	bl	"sets::count"
	ldrb	w8, [sp, #224]
	ldur	q1, [x28, #72]
	cmp	w8, #1
	cset	w8, eq
	dup	v0.2s, w8
	ushll	v0.2d, v0.2s, #0
	shl	v0.2d, v0.2d, #63
	cmge	v0.2d, v0.2d, #0
	and	v0.16b, v0.16b, v1.16b
.LBB54_24:                              // %"claims::sets_asked.exit.i.i.i.i.i"
	mov	x8, xzr
.LBB54_25:                              // %"records::byte_at.exit.i.i27.i.i.i.i.i"
                                        // =>This Inner Loop Header: Depth=1
	ldrb	w9, [x23, x8]
	cmp	w9, #10
	b.eq	.LBB54_31
// %bb.26:                              // %join.8.i.i32.i.i.i.i.i
                                        //   in Loop: Header=BB54_25 Depth=1
	add	x9, x8, #1
	cmp	x9, x19
	b.hs	.LBB54_28
// %bb.27:                              // %then.1.i.i.i.i43.i.i.i.i.i
                                        //   in Loop: Header=BB54_25 Depth=1
	ldrb	w9, [x23, x9]
	add	x9, x9, #2
	sub	x10, x19, x8
	cmp	x10, x9
	b.hi	.LBB54_29
	b	.LBB54_30
.LBB54_28:                              //   in Loop: Header=BB54_25 Depth=1
	mov	w9, #2                          // =0x2
	sub	x10, x19, x8
	cmp	x10, x9
	b.ls	.LBB54_30
.LBB54_29:                              // %"claiming::size_at.exit.i.i35.i.i.i.i.i"
                                        //   in Loop: Header=BB54_25 Depth=1
	add	x8, x9, x8
	cmp	x8, x19
	b.lo	.LBB54_25
.LBB54_30:
	mov	x8, xzr
	b	.LBB54_32
.LBB54_31:                              // %then.1.i46.i.i.i.i.i
	add	x0, sp, #224
	add	x2, x24, x27
	mov	x1, x20
	mov	x3, x21
	stp	xzr, xzr, [sp, #224]
	str	xzr, [sp, #240]
	str	q0, [sp]                        // 16-byte Spill
	bl	"balaban::index"
	ldrb	w8, [sp, #224]
	ldr	x9, [sp, #232]
	ldr	q0, [sp]                        // 16-byte Reload
	cmp	w8, #1
	csel	x8, xzr, x9, eq
.LBB54_32:                              // %"claims::block_fields.exit.i.i.i.i"
	ldr	x9, [sp, #24]                   // 8-byte Reload
.LBB54_33:                              // %"claims::block_fields.exit.i.i.i.i"
	str	x9, [sp, #96]
	ldr	x9, [sp, #32]                   // 8-byte Reload
	ldr	x10, [sp, #48]                  // 8-byte Reload
	stp	x22, x25, [sp, #80]
	stp	x9, x10, [sp, #104]
	lsr	x9, x21, #1
	ldr	x10, [sp, #40]                  // 8-byte Reload
	stur	q0, [sp, #136]
	stp	x10, x26, [sp, #120]
	add	x10, x9, #2
	subs	x10, x10, x20
	str	x8, [sp, #152]
	b.eq	.LBB54_41
// %bb.34:                              // %"claims::of_block.exit.i.i.i"
	mul	x8, x9, x9
	add	x9, x9, #1
	add	x0, sp, #56
	cmp	x9, x20
	add	x3, sp, #80
	mov	x1, x23
	cset	w6, eq
	mov	x2, x19
	mov	w4, #10                         // =0xa
	udiv	x8, x8, x10
	add	x5, x8, #1
	bl	"claiming::judged"
	ldrb	w8, [sp, #56]
	ldr	x22, [sp, #64]
	cmp	w8, #2
	b.eq	.LBB54_37
// %bb.35:                              // %"claims::of_block.exit.i.i.i"
	cmp	w8, #1
	b.ne	.LBB54_38
// %bb.36:
	mov	x22, xzr
	b	.LBB54_40
.LBB54_37:                              // %arm.3.i.i.i.i
	mov	w8, #255                        // =0xff
	orr	x22, x8, x22, lsl #8
	b	.LBB54_40
.LBB54_38:                              // %"claims::of_block.exit.i.i.i"
	ldr	x25, [sp, #72]
.LBB54_39:                              // %arm.1.i1.i.i.i
	bfi	x22, x25, #8, #56
.LBB54_40:                              // %"tteuyomal_c::claims_printed::tteuyomal_judge_block.exit"
	mov	x0, x22
	add	sp, sp, #1776
	ldp	x20, x19, [sp, #80]             // 16-byte Folded Reload
	ldp	x22, x21, [sp, #64]             // 16-byte Folded Reload
	ldp	x24, x23, [sp, #48]             // 16-byte Folded Reload
	ldp	x26, x25, [sp, #32]             // 16-byte Folded Reload
	ldp	x28, x27, [sp, #16]             // 16-byte Folded Reload
	ldp	x29, x30, [sp], #96             // 16-byte Folded Reload
	ret
.LBB54_41:                              // %trap.1.i.i.i.i.i
	brk	#0x1
.Lfunc_end54:
	.size	tteuyomal_judge_block, .Lfunc_end54-tteuyomal_judge_block
                                        // -- End function
	.section	.text.tteuyomal_judge_claims,"ax",@progbits
	.globl	tteuyomal_judge_claims          // -- Begin function tteuyomal_judge_claims
	.p2align	2
	.type	tteuyomal_judge_claims,@function
tteuyomal_judge_claims:                 // @tteuyomal_judge_claims
// %bb.0:                               // %start
	sub	sp, sp, #176
	movi	v0.2d, #0000000000000000
	mov	w9, #4096                       // =0x1000
	cmp	x0, #0
	stp	x29, x30, [sp, #144]            // 16-byte Folded Spill
	add	x29, sp, #144
	mov	x8, x0
	csel	x9, x9, xzr, eq
	stp	x20, x19, [sp, #160]            // 16-byte Folded Spill
	mov	x19, x3
	mov	x20, x2
	mov	x2, x1
	sub	x0, x29, #64
	add	x1, x8, x9
	mov	w3, wzr
	stp	xzr, xzr, [sp, #8]
	str	xzr, [sp, #24]
	stp	q0, q0, [x29, #-64]
	stp	q0, q0, [x29, #-32]
	bl	"compose::fields"
	ldp	x0, x8, [x29, #-56]
	ldurb	w9, [x29, #-64]
	cbz	w9, .LBB55_3
.LBB55_1:                               // %arm.1.i1.i.i.i
	bfi	x0, x8, #8, #56
.LBB55_2:                               // %"tteuyomal_c::claims_printed::tteuyomal_judge_claims.exit"
	ldp	x20, x19, [sp, #160]            // 16-byte Folded Reload
	ldp	x29, x30, [sp, #144]            // 16-byte Folded Reload
	add	sp, sp, #176
	ret
.LBB55_3:                               // %"claims::of_deck.exit.i.i.i"
	stp	x0, x8, [sp, #32]
	cmp	x20, #0
	mov	w8, #4096                       // =0x1000
	ldur	q0, [x29, #-40]
	ldur	q1, [x29, #-24]
	csel	x8, x8, xzr, eq
	add	x0, sp, #8
	add	x1, x20, x8
	add	x3, sp, #32
	mov	x2, x19
	mov	w4, #6                          // =0x6
	mov	x5, xzr
	mov	w6, #1                          // =0x1
	stp	q0, q1, [sp, #48]
	bl	"claiming::judged"
	ldrb	w8, [sp, #8]
	ldr	x9, [sp, #16]
	cmp	w8, #2
	b.eq	.LBB55_6
// %bb.4:                               // %"claims::of_deck.exit.i.i.i"
	cmp	w8, #1
	mov	x0, xzr
	b.eq	.LBB55_2
// %bb.5:                               // %"claims::of_deck.exit.i.i.i"
	ldr	x8, [sp, #24]
	mov	x0, x9
	b	.LBB55_1
.LBB55_6:                               // %arm.3.i.i.i.i
	mov	w8, #255                        // =0xff
	orr	x0, x8, x9, lsl #8
	ldp	x20, x19, [sp, #160]            // 16-byte Folded Reload
	ldp	x29, x30, [sp, #144]            // 16-byte Folded Reload
	add	sp, sp, #176
	ret
.Lfunc_end55:
	.size	tteuyomal_judge_claims, .Lfunc_end55-tteuyomal_judge_claims
                                        // -- End function
	.section	.text.tteuyomal_library_best,"ax",@progbits
	.globl	tteuyomal_library_best          // -- Begin function tteuyomal_library_best
	.p2align	2
	.type	tteuyomal_library_best,@function
tteuyomal_library_best:                 // @tteuyomal_library_best
// %bb.0:                               // %start
	stp	x29, x30, [sp, #-96]!           // 16-byte Folded Spill
	sub	x9, sp, #8, lsl #12             // =32768
	stp	x28, x27, [sp, #16]             // 16-byte Folded Spill
	mov	x29, sp
	sub	x9, x9, #1024
	stp	x26, x25, [sp, #32]             // 16-byte Folded Spill
	stp	x24, x23, [sp, #48]             // 16-byte Folded Spill
	stp	x22, x21, [sp, #64]             // 16-byte Folded Spill
	stp	x20, x19, [sp, #80]             // 16-byte Folded Spill
.LBB56_1:                               // %start
                                        // =>This Inner Loop Header: Depth=1
	sub	sp, sp, #3072
	cmp	sp, x9
	str	xzr, [sp]
	b.ne	.LBB56_1
// %bb.2:                               // %start
	sub	sp, sp, #576
	cmp	x0, #0
	mov	w8, #4096                       // =0x1000
	ldr	x9, [x29, #96]
	csel	x27, x8, xzr, eq
	cmp	x5, #0
	mov	x24, x0
	csel	x25, x8, xzr, eq
	cmp	x7, #0
	mov	x21, x2
	mov	x23, x1
	csel	x26, x8, xzr, eq
	cbz	x9, .LBB56_5
// %bb.3:                               // %join.3.i.i.i
	ldr	x28, [x7, x26]
	add	x0, sp, #32
	mov	w1, wzr
	mov	w2, #32768                      // =0x8000
	mov	x22, x6
	mov	x20, x3
	stp	x4, x5, [sp, #8]                // 16-byte Folded Spill
	add	x19, sp, #8, lsl #12            // =32768
	str	x7, [sp, #24]                   // 8-byte Spill
	bl	memset
	add	x0, sp, #8, lsl #12             // =32768
	add	x1, x24, x27
	add	x4, sp, #32
	add	x0, x0, #32
	mov	x2, x23
	mov	x3, x21
	mov	w5, #4096                       // =0x1000
	stp	xzr, xzr, [x19, #32]!
	str	xzr, [x19, #16]
	bl	"library::values"
	ldrb	w8, [x19]
	ldr	x21, [x19, #8]
	cbz	w8, .LBB56_7
// %bb.4:                               // %arm.2.i.i.i.i.i
	ldr	x8, [x19, #16]
	bfi	x21, x8, #8, #56
	b	.LBB56_28
.LBB56_5:                               // %then.1.i.i.i
	add	x4, sp, #8, lsl #12             // =32768
	add	x0, sp, #32
	add	x1, x24, x27
	add	x4, x4, #56
	mov	x2, x23
	mov	x3, x21
	mov	w5, #1                          // =0x1
	stp	xzr, xzr, [sp, #32]
	str	xzr, [sp, #48]
	bl	"library::values"
	ldrb	w8, [sp, #32]
	cmp	w8, #1
	b.ne	.LBB56_8
// %bb.6:                               // %arm.1.i.i.i.i
	ldrb	w8, [sp, #40]
	ldr	x9, [sp, #48]
	orr	x21, x8, x9, lsl #8
	b	.LBB56_28
.LBB56_7:                               // %arm.1.i.i.i.i.i
	cmp	x22, #3
	b.hs	.LBB56_9
.LBB56_8:
	mov	w21, #9                         // =0x9
	b	.LBB56_28
.LBB56_9:                               // %join.7.i.i.i.i.i
	mov	x8, #-6148914691236517206       // =0xaaaaaaaaaaaaaaaa
	mov	x19, x26
	movk	x8, #43691
	umulh	x8, x22, x8
	lsr	x23, x8, #1
	ldr	x8, [sp, #16]                   // 8-byte Reload
	cmp	x23, x28
	add	x24, x8, x25
	csel	x22, x23, x28, lo
	cmp	x28, x23
	b.hs	.LBB56_11
// %bb.10:                              // %then.1.i.i.i.i.i.i.i
	ldr	x27, [sp, #8]                   // 8-byte Reload
	cmp	x21, #8
	b.hi	.LBB56_21
	b	.LBB56_26
.LBB56_11:                              // %join.3.i.i.i.i.i.i.i
	ldr	x27, [sp, #8]                   // 8-byte Reload
	cbz	x22, .LBB56_26
// %bb.12:                              // %join.6.i.i.i.i.i.i.i
	cbz	x21, .LBB56_26
// %bb.13:                              // %join.11.i.i.i.i.i.i.i.preheader
	mov	w8, #24                         // =0x18
	cmp	x21, #4
	madd	x8, x22, x8, x24
	ldur	x8, [x8, #-24]
	b.hs	.LBB56_15
// %bb.14:
	mov	x10, xzr
	mov	x9, xzr
	b	.LBB56_18
.LBB56_15:                              // %vector.ph
	movi	v0.2d, #0000000000000000
	movi	v1.2d, #0000000000000000
	add	x10, sp, #32
	dup	v2.2d, x8
	and	x9, x21, #0xfffffffffffffffc
	add	x10, x10, #16
	and	x11, x21, #0xfffffffffffffffc
.LBB56_16:                              // %vector.body
                                        // =>This Inner Loop Header: Depth=1
	movi	d3, #0000000000000000
	ldp	q5, q4, [x10, #-16]
	fmov	d6, x20
	mov	w12, #1                         // =0x1
	subs	x11, x11, #4
	add	x10, x10, #32
	cmhi	v7.2d, v4.2d, v2.2d
	cmhi	v4.2d, v2.2d, v4.2d
	cmhi	v16.2d, v5.2d, v2.2d
	cmhi	v5.2d, v2.2d, v5.2d
	cmeq	d3, d6, d3
	xtn	v6.2s, v7.2d
	xtn	v4.2s, v4.2d
	xtn	v7.2s, v16.2d
	xtn	v5.2s, v5.2d
	mvn	v3.8b, v3.8b
	bit	v4.8b, v6.8b, v3.8b
	bsl	v3.8b, v7.8b, v5.8b
	dup	v5.2d, x12
	ushll	v4.2d, v4.2s, #0
	ushll	v3.2d, v3.2s, #0
	and	v4.16b, v4.16b, v5.16b
	and	v3.16b, v3.16b, v5.16b
	add	v1.2d, v1.2d, v4.2d
	add	v0.2d, v0.2d, v3.2d
	b.ne	.LBB56_16
// %bb.17:                              // %middle.block
	add	v0.2d, v1.2d, v0.2d
	cmp	x21, x9
	addp	d0, v0.2d
	fmov	x10, d0
	b.eq	.LBB56_20
.LBB56_18:                              // %join.11.i.i.i.i.i.i.i.preheader1
	add	x11, sp, #32
	add	x11, x11, x9, lsl #3
	sub	x9, x21, x9
.LBB56_19:                              // %join.11.i.i.i.i.i.i.i
                                        // =>This Inner Loop Header: Depth=1
	ldr	x12, [x11], #8
	cmp	x8, x12
	cset	w13, lo
	cmp	x12, x8
	cset	w12, lo
	cmp	x20, #0
	csel	w12, w13, w12, ne
	subs	x9, x9, #1
	add	x10, x10, x12
	b.ne	.LBB56_19
.LBB56_20:                              // %"placing::parts::many_come.exit.i.i.i.i.i.i"
	cmp	x10, x21, lsr #3
	b.ls	.LBB56_26
.LBB56_21:                              // %then.1.i.i.i.i.i.i
	subs	x8, x22, #2
	b.lo	.LBB56_29
// %bb.22:                              // %join.5.i.i.i.i.i.i.i.preheader
	mov	x11, x24
	mov	x9, x24
.LBB56_23:                              // %join.5.i.i.i.i.i.i.i
                                        // =>This Inner Loop Header: Depth=1
	ldr	x10, [x9, #24]!
	ldr	x11, [x11]
	cmp	x11, x10
	cset	w12, lo
	cmp	x10, x11
	cset	w10, lo
	cmp	x20, #0
	csel	w10, w12, w10, ne
	tbnz	w10, #0, .LBB56_25
// %bb.24:                              // %join.5.i.i.i.i.i.i.i
                                        //   in Loop: Header=BB56_23 Depth=1
	mov	x12, x8
	sub	x8, x8, #1
	mov	x11, x9
	cbnz	x12, .LBB56_23
.LBB56_25:                              // %"placing::merge::in_order.exit.i.i.i.i.i.i"
	tbz	w10, #0, .LBB56_29
.LBB56_26:                              // %join.3.i.i.i.i.i.i
	cmp	x20, #0
	add	x2, sp, #32
	mov	x1, x27
	cset	w0, ne
	mov	x3, xzr
	mov	x4, x21
	mov	x5, x24
	mov	x6, x23
	mov	x7, x22
	bl	"placing::entries::put_each"
	mov	x22, x0
.LBB56_27:                              // %join.5.i.i.i.i.i.i
	ldr	x8, [sp, #24]                   // 8-byte Reload
	mov	x21, xzr
	str	x22, [x8, x19]
.LBB56_28:                              // %"tteuyomal_c::libraries::tteuyomal_library_best.exit"
	mov	x0, x21
	add	sp, sp, #8, lsl #12             // =32768
	add	sp, sp, #1600
	ldp	x20, x19, [sp, #80]             // 16-byte Folded Reload
	ldp	x22, x21, [sp, #64]             // 16-byte Folded Reload
	ldp	x24, x23, [sp, #48]             // 16-byte Folded Reload
	ldp	x26, x25, [sp, #32]             // 16-byte Folded Reload
	ldp	x28, x27, [sp, #16]             // 16-byte Folded Reload
	ldp	x29, x30, [sp], #96             // 16-byte Folded Reload
	ret
.LBB56_29:                              // %then.4.i.i.i.i.i.i
	add	x0, sp, #8, lsl #12             // =32768
	mov	w1, wzr
	mov	w2, #1536                       // =0x600
	add	x0, x0, #56
	bl	memset
	mov	x25, xzr
	b	.LBB56_31
.LBB56_30:                              // %"placing::merge::merge_in.exit.i.i.i.i.i.i.i.i"
                                        //   in Loop: Header=BB56_31 Depth=1
	add	x8, x0, x22
	add	x25, x26, x25
	cmp	x23, x8
	csel	x22, x23, x8, lo
	cmp	x25, x21
	b.hs	.LBB56_27
.LBB56_31:                              // %join.5.i.i.i.i.i.i.i.i
                                        // =>This Loop Header: Depth=1
                                        //     Child Loop BB56_34 Depth 2
	cmp	x20, #0
	sub	x8, x21, x25
	mov	w9, #64                         // =0x40
	cset	w0, ne
	cmp	x8, #64
	add	x5, sp, #8, lsl #12             // =32768
	csel	x26, x8, x9, lo
	add	x2, sp, #32
	add	x5, x5, #56
	mov	x1, x27
	mov	x3, x25
	mov	x4, x26
	mov	w6, #64                         // =0x40
	mov	x7, xzr
	bl	"placing::entries::put_each"
	cbz	x0, .LBB56_30
// %bb.32:                              // %join.5.i.i.i.i.i.i.i.i.i.preheader
                                        //   in Loop: Header=BB56_31 Depth=1
	mov	x8, x22
	mov	x9, x0
	b	.LBB56_34
.LBB56_33:                              // %join.8.i.i.i.i.i.i.i.i.i
                                        //   in Loop: Header=BB56_34 Depth=2
	mov	x9, x11
	cbz	x11, .LBB56_30
.LBB56_34:                              // %join.5.i.i.i.i.i.i.i.i.i
                                        //   Parent Loop BB56_31 Depth=1
                                        // =>  This Inner Loop Header: Depth=2
	sub	x11, x9, #1
	add	x10, x11, x8
	cbz	x8, .LBB56_39
// %bb.35:                              // %"placing::merge::moves_up.exit.i.i.i.i.i.i.i.i.i"
                                        //   in Loop: Header=BB56_34 Depth=2
	mov	w12, #24                        // =0x18
	add	x14, sp, #8, lsl #12            // =32768
	mul	x13, x11, x12
	add	x14, x14, #56
	madd	x12, x8, x12, x24
	ldr	x14, [x14, x13]
	ldur	x13, [x12, #-24]
	cmp	x13, x14
	cset	w15, lo
	cmp	x14, x13
	cset	w14, lo
	cmp	x20, #0
	csel	w14, w15, w14, ne
	cmp	w14, #1
	b.ne	.LBB56_39
// %bb.36:                              // %then.6.i.i.i.i.i.i.i.i.i
                                        //   in Loop: Header=BB56_34 Depth=2
	cmp	x10, x23
	b.hs	.LBB56_38
// %bb.37:                              // %then.1.i.i.i.i.i.i.i.i.i.i.i
                                        //   in Loop: Header=BB56_34 Depth=2
	mov	w11, #24                        // =0x18
	ldur	q0, [x12, #-16]
	madd	x10, x10, x11, x24
	str	x13, [x10]
	stur	q0, [x10, #8]
.LBB56_38:                              // %"placing::merge::move_last.exit.i.i.i.i.i.i.i.i.i"
                                        //   in Loop: Header=BB56_34 Depth=2
	sub	x8, x8, #1
	cbnz	x9, .LBB56_34
	b	.LBB56_30
.LBB56_39:                              // %else.7.i.i.i.i.i.i.i.i.i
                                        //   in Loop: Header=BB56_34 Depth=2
	cmp	x10, x23
	b.hs	.LBB56_33
// %bb.40:                              // %then.1.i.i14.i.i.i.i.i.i.i.i.i
                                        //   in Loop: Header=BB56_34 Depth=2
	mov	w12, #24                        // =0x18
	add	x13, sp, #8, lsl #12            // =32768
	add	x13, x13, #56
	madd	x9, x9, x12, x13
	madd	x10, x10, x12, x24
	ldur	q0, [x9, #-24]
	ldur	x9, [x9, #-8]
	str	q0, [x10]
	str	x9, [x10, #16]
	b	.LBB56_33
.Lfunc_end56:
	.size	tteuyomal_library_best, .Lfunc_end56-tteuyomal_library_best
                                        // -- End function
	.section	.text.tteuyomal_library_count,"ax",@progbits
	.globl	tteuyomal_library_count         // -- Begin function tteuyomal_library_count
	.p2align	2
	.type	tteuyomal_library_count,@function
tteuyomal_library_count:                // @tteuyomal_library_count
// %bb.0:                               // %start
	sub	sp, sp, #336
	movi	v0.2d, #0000000000000000
	cmp	x0, #0
	mov	w9, #4096                       // =0x1000
	stp	x20, x19, [sp, #320]            // 16-byte Folded Spill
	mov	x19, x2
	mov	x8, x0
	csel	x10, x9, xzr, eq
	stp	x22, x21, [sp, #304]            // 16-byte Folded Spill
	mov	x20, x3
	mov	x2, x1
	add	x21, sp, #16
	cmp	x19, #0
	add	x0, sp, #16
	add	x1, x8, x10
	add	x3, sp, #15
	mov	w4, #1                          // =0x1
	stp	x29, x30, [sp, #272]            // 16-byte Folded Spill
	add	x29, sp, #272
	str	x28, [sp, #288]                 // 8-byte Spill
	csel	x22, x9, xzr, eq
	stp	q0, q0, [sp, #16]
	stp	q0, q0, [sp, #48]
	stp	q0, q0, [sp, #80]
	stp	q0, q0, [sp, #112]
	stp	q0, q0, [x21, #128]
	stp	q0, q0, [x21, #160]
	stp	q0, q0, [x21, #192]
	str	q0, [x21, #224]
	str	xzr, [x21, #240]
	bl	"catalogue::read_library"
	ldrb	w8, [sp, #16]
	cbz	w8, .LBB57_2
// %bb.1:                               // %arm.1.i.i.i.i
	ldr	x8, [sp, #32]
	ldrb	w9, [sp, #24]
	orr	x0, x9, x8, lsl #8
	ldp	x20, x19, [sp, #320]            // 16-byte Folded Reload
	ldr	x28, [sp, #288]                 // 8-byte Reload
	ldp	x22, x21, [sp, #304]            // 16-byte Folded Reload
	ldp	x29, x30, [sp, #272]            // 16-byte Folded Reload
	add	sp, sp, #336
	ret
.LBB57_2:                               // %arm.2.i.i.i.i
	cbz	x20, .LBB57_4
// %bb.3:                               // %join.5.i.i.i.i.i.i
	mov	x0, xzr
	ldr	x8, [x21, #240]
	str	x8, [x19, x22]
	ldp	x20, x19, [sp, #320]            // 16-byte Folded Reload
	ldr	x28, [sp, #288]                 // 8-byte Reload
	ldp	x22, x21, [sp, #304]            // 16-byte Folded Reload
	ldp	x29, x30, [sp, #272]            // 16-byte Folded Reload
	add	sp, sp, #336
	ret
.LBB57_4:
	mov	w0, #9                          // =0x9
	ldp	x20, x19, [sp, #320]            // 16-byte Folded Reload
	ldr	x28, [sp, #288]                 // 8-byte Reload
	ldp	x22, x21, [sp, #304]            // 16-byte Folded Reload
	ldp	x29, x30, [sp, #272]            // 16-byte Folded Reload
	add	sp, sp, #336
	ret
.Lfunc_end57:
	.size	tteuyomal_library_count, .Lfunc_end57-tteuyomal_library_count
                                        // -- End function
	.section	.text.tteuyomal_library_run,"ax",@progbits
	.globl	tteuyomal_library_run           // -- Begin function tteuyomal_library_run
	.p2align	2
	.type	tteuyomal_library_run,@function
tteuyomal_library_run:                  // @tteuyomal_library_run
// %bb.0:                               // %start
	stp	x29, x30, [sp, #-96]!           // 16-byte Folded Spill
	stp	x28, x27, [sp, #16]             // 16-byte Folded Spill
	mov	x29, sp
	stp	x26, x25, [sp, #32]             // 16-byte Folded Spill
	stp	x24, x23, [sp, #48]             // 16-byte Folded Spill
	stp	x22, x21, [sp, #64]             // 16-byte Folded Spill
	stp	x20, x19, [sp, #80]             // 16-byte Folded Spill
	sub	sp, sp, #3072
	str	xzr, [sp]
	sub	sp, sp, #3072
	str	xzr, [sp]
	sub	sp, sp, #1872
	cmp	x0, #0
	mov	w8, #4096                       // =0x1000
	movi	v0.2d, #0000000000000000
	csel	x9, x8, xzr, eq
	cmp	x4, #0
	str	xzr, [sp]
	csel	x25, x8, xzr, eq
	cmp	x6, #0
	add	x23, x0, x9
	add	x9, sp, #112
	csel	x10, x8, xzr, eq
	stp	x2, x5, [sp, #88]               // 16-byte Folded Spill
	cbz	x7, .LBB58_5
// %bb.1:                               // %join.3.i.i.i
	cmp	x1, #8, lsl #12                 // =32768
	stp	q0, q0, [sp, #112]
	stp	q0, q0, [sp, #144]
	stp	q0, q0, [sp, #176]
	stp	q0, q0, [sp, #208]
	stp	q0, q0, [x9, #128]
	stp	q0, q0, [x9, #160]
	stp	q0, q0, [x9, #192]
	str	q0, [x9, #224]
	str	xzr, [x9, #240]
	b.hi	.LBB58_6
// %bb.2:                               // %join.3.i8.i.i.i
	ldr	x8, [sp, #88]                   // 8-byte Reload
	mov	w9, #44                         // =0x2c
	cmp	x8, #4
	mov	w8, #40                         // =0x28
	csel	x24, x9, x8, eq
	ldr	x8, [sp, #96]                   // 8-byte Reload
	cmp	x8, x24
	b.lo	.LBB58_8
// %bb.3:                               // %join.6.i10.i.i.i
	mov	x19, x3
	mov	x22, x4
	add	x0, sp, #112
	add	x3, sp, #111
	mov	x2, x1
	mov	x1, x23
	mov	w4, #1                          // =0x1
	stp	x10, x6, [sp, #8]               // 16-byte Folded Spill
	mov	x26, x2
	bl	"catalogue::read_library"
	ldrb	w8, [sp, #112]
	cbz	w8, .LBB58_12
// %bb.4:                               // %arm.8.i11.i.i.i
	ldr	x8, [sp, #128]
	ldrb	w9, [sp, #120]
	orr	x0, x9, x8, lsl #8
	b	.LBB58_9
.LBB58_5:                               // %then.1.i.i.i
	cmp	x1, #8, lsl #12                 // =32768
	str	q0, [x9, #3888]
	str	q0, [x9, #3872]
	str	q0, [x9, #3856]
	str	q0, [x9, #3840]
	b.ls	.LBB58_7
.LBB58_6:
	mov	w0, #20                         // =0x14
	b	.LBB58_9
.LBB58_7:                               // %join.3.i.i.i.i
	ldr	x8, [sp, #88]                   // 8-byte Reload
	mov	w9, #44                         // =0x2c
	cmp	x8, #4
	mov	w8, #40                         // =0x28
	csel	x8, x9, x8, eq
	ldr	x9, [sp, #96]                   // 8-byte Reload
	cmp	x9, x8
	b.hs	.LBB58_10
.LBB58_8:
	mov	w0, #9                          // =0x9
.LBB58_9:                               // %"tteuyomal_c::libraries::tteuyomal_library_run.exit"
	add	sp, sp, #1, lsl #12             // =4096
	add	sp, sp, #3920
	ldp	x20, x19, [sp, #80]             // 16-byte Folded Reload
	ldp	x22, x21, [sp, #64]             // 16-byte Folded Reload
	ldp	x24, x23, [sp, #48]             // 16-byte Folded Reload
	ldp	x26, x25, [sp, #32]             // 16-byte Folded Reload
	ldp	x28, x27, [sp, #16]             // 16-byte Folded Reload
	ldp	x29, x30, [sp], #96             // 16-byte Folded Reload
	ret
.LBB58_10:                              // %join.6.i.i.i.i
	add	x0, sp, #3952
	mov	x2, x1
	mov	x1, x23
	add	x19, sp, #112
	bl	"library::product"
	ldrb	w8, [sp, #3952]
	cmp	w8, #1
	b.ne	.LBB58_15
// %bb.11:                              // %arm.7.i.i.i.i
	ldrb	w8, [sp, #3960]
	ldr	x9, [x19, #3856]
	orr	x0, x8, x9, lsl #8
	b	.LBB58_9
.LBB58_12:                              // %arm.7.i12.i.i.i
	add	x9, sp, #112
	ldr	x10, [x9, #240]
	cmp	x10, x19
	str	x10, [sp, #40]                  // 8-byte Spill
	b.ls	.LBB58_16
// %bb.13:                              // %join.13.i.i.i.i
	ldp	x28, x8, [x9, #160]
	add	x0, sp, #368
	ldr	x21, [sp, #136]
	mov	w1, wzr
	mov	w2, #3584                       // =0xe00
	str	x8, [sp, #32]                   // 8-byte Spill
	bl	memset
	mov	x9, x26
	cmp	x26, x28
	b.hs	.LBB58_17
// %bb.14:
	mov	x27, xzr
	mov	x28, x9
	mov	x8, x22
	b	.LBB58_22
.LBB58_15:                              // %arm.8.i.i.i.i
	ldrb	w8, [sp, #3960]
	mov	w9, #254                        // =0xfe
	cmp	w8, #0
	mov	w8, #9                          // =0x9
	csel	x0, x9, x8, eq
	b	.LBB58_9
.LBB58_16:                              // %arm.2.i.thread.i.i.i
	mov	w0, #254                        // =0xfe
	b	.LBB58_9
.LBB58_17:                              // %join.3.i.i.i.i.i.i
	cmp	x28, x9
	add	x10, x28, #4
	mov	x8, x22
	b.hs	.LBB58_20
// %bb.18:                              // %"records::byte_at.exit.i.i.i.i.i.i.i"
	add	x12, x28, #1
	ldrb	w11, [x23, x28]
	cmp	x12, x9
	b.hs	.LBB58_21
// %bb.19:                              // %then.1.i6.i.i.i.i.i.i.i
	ldrb	w12, [x23, x12]
	orr	x11, x11, x12, lsl #8
	b	.LBB58_21
.LBB58_20:
	mov	x11, xzr
.LBB58_21:                              // %"records::le16_at.exit.i.i.i.i.i.i"
	subs	x12, x9, x10
	csel	x28, x9, x10, lo
	cmp	x12, x11
	csel	x11, x12, x11, lo
	cmp	x9, x10
	csel	x27, xzr, x11, lo
.LBB58_22:                              // %"records::payload_at.exit.i.i.i.i.i"
	add	x0, sp, #1, lsl #12             // =4096
	add	x20, sp, #112
	add	x9, x8, x25
	add	x0, x0, #3440
	add	x3, x20, #32
	add	x5, x23, x28
	add	x7, x20, #176
	mov	x1, x23
	mov	x2, x26
	mov	x4, x21
	mov	x6, x27
	str	x9, [sp, #72]                   // 8-byte Spill
	mov	x22, x8
	bl	"stock::core_at"
	add	x0, sp, #368
	add	x3, x20, #32
	add	x5, x23, x28
	add	x7, x20, #176
	mov	x1, x23
	mov	x2, x26
	mov	x4, x21
	mov	x6, x27
	bl	"stock::all_arms"
	add	x0, sp, #3952
	add	x1, sp, #368
	mov	w2, #3584                       // =0xe00
	bl	memcpy
	ldr	x8, [sp, #88]                   // 8-byte Reload
	mov	w9, #40                         // =0x28
	movi	v0.2d, #0000000000000000
	mov	x23, xzr
	add	x10, sp, #112
	mov	x5, x19
	cmp	x8, #4
	mov	w8, #36                         // =0x24
	csel	w8, w9, w8, eq
	ldr	x9, [sp, #96]                   // 8-byte Reload
	str	w8, [sp, #68]                   // 4-byte Spill
	mov	w8, #3                          // =0x3
	cinc	w8, w8, eq
	sub	x9, x9, #40
	str	q0, [x10, #7872]
	str	w8, [sp, #64]                   // 4-byte Spill
	add	x8, x25, x22
	add	x8, x8, #40
	str	q0, [x10, #7856]
	str	q0, [x10, #7840]
	str	q0, [x10, #7824]
	str	q0, [x10, #7808]
	str	q0, [x10, #7792]
	str	q0, [x10, #7776]
	str	x9, [sp, #24]                   // 8-byte Spill
	str	x8, [sp, #48]                   // 8-byte Spill
	str	q0, [x10, #7760]
.LBB58_23:                              // %join.8.i.i.i.i.i.i
                                        // =>This Loop Header: Depth=1
                                        //     Child Loop BB58_27 Depth 2
                                        //       Child Loop BB58_32 Depth 3
	add	x1, sp, #1, lsl #12             // =4096
	add	x8, sp, #112
	ldr	x4, [sp, #32]                   // 8-byte Reload
	sub	x0, x29, #144
	add	x1, x1, #3440
	add	x2, sp, #3952
	add	x3, x8, #176
	str	x5, [sp, #56]                   // 8-byte Spill
	bl	"library::last::staying_at"
	add	x10, sp, #112
	ldr	x9, [x10, #7880]
	cbz	x9, .LBB58_33
// %bb.24:                              // %join.5.lr.ph.i.i.i.i.i.i.i
                                        //   in Loop: Header=BB58_23 Depth=1
	ldr	x11, [x10, #7760]
	ldr	x12, [x10, #7776]
	mov	x8, xzr
	ldr	x13, [x10, #7784]
	ldr	x0, [x10, #7864]
	ldr	x14, [x10, #7792]
	str	x11, [sp, #80]                  // 8-byte Spill
	and	x12, x12, #0xfffffffffffffff
	ldr	x11, [x10, #7872]
	ldr	x18, [x10, #7848]
	and	x1, x14, #0xfffffffffffffff
	and	x13, x13, #0xfffffffffffffff
	ldr	x15, [x10, #7800]
	ldr	x16, [x10, #7824]
	ldr	x17, [x10, #7816]
	ldr	x2, [x10, #7840]
	and	x18, x18, #0x1fffffff
	ldr	x3, [x10, #7832]
	add	x10, sp, #112
	and	x14, x15, #0xfffffffffffffff
	and	x4, x17, #0x1fffffff
	ldr	x5, [x10, #7856]
	ldr	x10, [sp, #24]                  // 8-byte Reload
	and	x15, x16, #0x1fffffff
	and	x16, x3, #0x1fffffff
	and	x17, x2, #0x1fffffff
	and	x3, x0, #0x1fffffff
	and	x2, x5, #0x1fffffff
	add	x0, x4, x16
	add	x1, x1, x2
	add	x2, x3, #1
	sub	x3, x10, x23
	b	.LBB58_27
.LBB58_25:                              // %then.4.i.i.i.i.i.i.i.i.i.i
                                        //   in Loop: Header=BB58_27 Depth=2
	str	w5, [x6, #40]
.LBB58_26:                              // %"sheets::put_sheet.exit.i.i.i.i.i.i.i"
                                        //   in Loop: Header=BB58_27 Depth=2
	add	x8, x8, #1
	add	x23, x23, x24
	sub	x3, x3, x24
	cmp	x8, x9
	b.eq	.LBB58_35
.LBB58_27:                              // %join.5.i.i.i.i.i.i.i
                                        //   Parent Loop BB58_23 Depth=1
                                        // =>  This Loop Header: Depth=2
                                        //       Child Loop BB58_32 Depth 3
	ldr	x10, [sp, #96]                  // 8-byte Reload
	sub	x4, x10, x23
	cmp	x4, x24
	b.lo	.LBB58_34
// %bb.28:                              // %"sheets::put_five.exit.i.i.i.i.i.i.i.i.i"
                                        //   in Loop: Header=BB58_27 Depth=2
	add	x5, x8, x11
	mov	w6, #112                        // =0x70
	add	x7, sp, #3952
	madd	x5, x5, x6, x7
	ldr	x10, [sp, #72]                  // 8-byte Reload
	add	x6, x10, x23
	ldr	w10, [sp, #68]                  // 4-byte Reload
	strb	wzr, [x6, #1]
	strb	w10, [x6]
	ldp	x30, x25, [x5, #16]
	ldr	w7, [x5]
	ldp	x27, x19, [x5, #56]
	strb	wzr, [x6, #3]
	ldp	x21, x20, [x5, #72]
	and	x30, x30, #0xfffffffffffffff
	and	x25, x25, #0xfffffffffffffff
	and	x19, x19, #0x1fffffff
	add	x30, x30, x12
	and	x27, x27, #0x1fffffff
	ldp	x28, x26, [x5, #32]
	and	x21, x21, #0x1fffffff
	umaddl	x30, w19, w16, x30
	add	x25, x25, x13
	and	x20, x20, #0x1fffffff
	ldp	x22, x10, [x5, #88]
	umaddl	x25, w27, w16, x25
	umaddl	x30, w21, w15, x30
	and	x28, x28, #0xfffffffffffffff
	add	x19, x20, x19
	umaddl	x25, w21, w0, x25
	add	x21, x21, x27
	ldr	x5, [x5, #104]
	umaddl	x30, w20, w0, x30
	and	x22, x22, #0x1fffffff
	and	x26, x26, #0xfffffffffffffff
	umaddl	x25, w20, w15, x25
	and	x5, x5, #0x1fffffff
	cmp	x14, x26
	umaddl	x20, w21, w17, x30
	add	x21, x1, x28
	add	x5, x2, x5
	umaddl	x21, w22, w18, x21
	ldr	x22, [sp, #80]                  // 8-byte Reload
	and	x10, x10, #0x1fffffff
	umaddl	x19, w19, w17, x25
	ldr	w25, [sp, #64]                  // 4-byte Reload
	add	w7, w7, w22
	str	w7, [x6, #4]
	csel	x7, x14, x26, hi
	add	x10, x21, x10
	cmp	x7, x5
	add	x22, x19, x20
	strb	w25, [x6, #2]
	csel	x5, x7, x5, hi
	ldr	x7, [sp, #88]                   // 8-byte Reload
	stp	x22, x20, [x6, #8]
	stp	x19, x10, [x6, #24]
	cmp	x7, #4
	b.ne	.LBB58_26
// %bb.29:                              // %arm.2.i.i.i.i.i.i.i.i.i
                                        //   in Loop: Header=BB58_27 Depth=2
	cmp	x4, #44
	b.hs	.LBB58_25
// %bb.30:                              // %join.6.i.i.i.i.i.i.i.i.i.i
                                        //   in Loop: Header=BB58_27 Depth=2
	cmp	x4, #41
	b.lo	.LBB58_26
// %bb.31:                              // %join.5.i.i.preheader.i.i.i.i.i.i.i.i.i
                                        //   in Loop: Header=BB58_27 Depth=2
	ldr	x4, [sp, #48]                   // 8-byte Reload
	mov	x6, x3
.LBB58_32:                              // %join.5.i.i.i.i.i.i.i.i.i.i.i
                                        //   Parent Loop BB58_23 Depth=1
                                        //     Parent Loop BB58_27 Depth=2
                                        // =>    This Inner Loop Header: Depth=3
	strb	w5, [x4, x23]
	lsr	x5, x5, #8
	subs	x6, x6, #1
	add	x4, x4, #1
	b.ne	.LBB58_32
	b	.LBB58_26
.LBB58_33:                              //   in Loop: Header=BB58_23 Depth=1
	mov	x8, xzr
.LBB58_34:                              // %"library::last::turn.exit.i.i.i.i.i.i"
                                        //   in Loop: Header=BB58_23 Depth=1
	ldr	x5, [sp, #56]                   // 8-byte Reload
	add	x5, x8, x5
	ldr	x8, [sp, #40]                   // 8-byte Reload
	cmp	x5, x8
	b.lo	.LBB58_36
	b	.LBB58_37
.LBB58_35:                              //   in Loop: Header=BB58_23 Depth=1
	ldr	x5, [sp, #56]                   // 8-byte Reload
	add	x5, x9, x5
	ldr	x8, [sp, #40]                   // 8-byte Reload
	cmp	x5, x8
	b.hs	.LBB58_37
.LBB58_36:                              // %"library::last::turn.exit.i.i.i.i.i.i"
                                        //   in Loop: Header=BB58_23 Depth=1
	ldr	x8, [sp, #96]                   // 8-byte Reload
	sub	x8, x8, x23
	cmp	x8, x24
	b.hs	.LBB58_23
.LBB58_37:                              // %arm.6.i.i.i.i
	ldp	x9, x8, [sp, #8]                // 16-byte Folded Reload
	mov	x0, xzr
	str	x5, [x8, x9]
	b	.LBB58_9
.Lfunc_end58:
	.size	tteuyomal_library_run, .Lfunc_end58-tteuyomal_library_run
                                        // -- End function
	.section	.text.tteuyomal_library_step,"ax",@progbits
	.globl	tteuyomal_library_step          // -- Begin function tteuyomal_library_step
	.p2align	2
	.type	tteuyomal_library_step,@function
tteuyomal_library_step:                 // @tteuyomal_library_step
// %bb.0:                               // %start
	sub	sp, sp, #144
	cmp	x0, #0
	mov	w9, #4096                       // =0x1000
	movi	v0.2d, #0000000000000000
	csel	x8, x9, xzr, eq
	cmp	x4, #0
	stp	x22, x21, [sp, #112]            // 16-byte Folded Spill
	csel	x21, x9, xzr, eq
	cmp	x6, #0
	stp	x20, x19, [sp, #128]            // 16-byte Folded Spill
	csel	x19, x9, xzr, eq
	stp	x29, x30, [sp, #64]             // 16-byte Folded Spill
	add	x29, sp, #64
	str	x25, [sp, #80]                  // 8-byte Spill
	stp	x24, x23, [sp, #96]             // 16-byte Folded Spill
	cbz	x7, .LBB59_3
// %bb.1:                               // %join.3.i.i.i
	cmp	x1, #8, lsl #12                 // =32768
	stp	q0, q0, [sp]
	stp	q0, q0, [sp, #32]
	b.ls	.LBB59_5
// %bb.2:
	mov	x9, xzr
	mov	w8, #20                         // =0x14
	b	.LBB59_16
.LBB59_3:                               // %then.1.i.i.i
	cmp	x1, #8, lsl #12                 // =32768
	stp	q0, q0, [sp]
	stp	q0, q0, [sp, #32]
	b.ls	.LBB59_7
// %bb.4:
	mov	w0, #20                         // =0x14
	b	.LBB59_17
.LBB59_5:                               // %join.3.i7.i.i.i
	cmp	x2, #4
	mov	w9, #40                         // =0x28
	mov	w10, #44                        // =0x2c
	csel	x9, x10, x9, eq
	cmp	x5, x9
	b.hs	.LBB59_9
// %bb.6:
	mov	w8, #9                          // =0x9
	orr	x0, x8, xzr, lsl #8
	b	.LBB59_17
.LBB59_7:                               // %join.3.i.i.i.i
	cmp	x2, #4
	mov	w9, #40                         // =0x28
	mov	w10, #44                        // =0x2c
	csel	x9, x10, x9, eq
	cmp	x5, x9
	b.hs	.LBB59_14
// %bb.8:
	mov	w0, #9                          // =0x9
	b	.LBB59_17
.LBB59_9:                               // %join.6.i9.i.i.i
	mov	x9, x0
	mov	x24, x2
	mov	x0, sp
	mov	x2, x1
	add	x1, x9, x8
	mov	x25, x4
	mov	x20, x5
	mov	x22, x6
	mov	x23, x3
	bl	"library::product"
	ldrb	w10, [sp]
	ldrb	w8, [sp, #8]
	ldr	x9, [sp, #16]
	cbnz	w10, .LBB59_16
// %bb.10:                              // %arm.7.i11.i.i.i
	cmp	x8, #1
	b.ne	.LBB59_19
// %bb.11:                              // %"sheets::put_five.exit.i.i.i.i.i.i"
	cmp	x24, #4
	mov	w10, #36                        // =0x24
	mov	w11, #40                        // =0x28
	ldur	q0, [sp, #24]
	add	x8, x25, x21
	csel	w10, w11, w10, eq
	mov	w11, #3                         // =0x3
	strb	w10, [x8]
	ldr	x10, [sp, #56]
	stur	q0, [x8, #8]
	ldur	q0, [sp, #40]
	cinc	w11, w11, eq
	strb	wzr, [x8, #1]
	strb	w11, [x8, #2]
	strb	wzr, [x8, #3]
	str	w9, [x8, #4]
	stur	q0, [x8, #24]
	b.ne	.LBB59_24
// %bb.12:                              // %arm.2.i.i.i.i.i.i
	cmp	x20, #44
	b.lo	.LBB59_20
// %bb.13:                              // %then.4.i.i.i.i.i.i.i
	str	w10, [x8, #40]
	b	.LBB59_24
.LBB59_14:                              // %join.6.i.i.i.i
	mov	x9, x0
	mov	x0, sp
	mov	x2, x1
	add	x1, x9, x8
	bl	"library::product"
	ldrb	w8, [sp]
	cmp	w8, #1
	b.ne	.LBB59_18
// %bb.15:                              // %arm.7.i.i.i.i
	ldrb	w8, [sp, #8]
	ldr	x9, [sp, #16]
.LBB59_16:                              // %arm.1.i.i.i.i
	orr	x0, x8, x9, lsl #8
.LBB59_17:                              // %"tteuyomal_c::libraries::tteuyomal_library_step.exit"
	ldp	x20, x19, [sp, #128]            // 16-byte Folded Reload
	ldr	x25, [sp, #80]                  // 8-byte Reload
	ldp	x22, x21, [sp, #112]            // 16-byte Folded Reload
	ldp	x24, x23, [sp, #96]             // 16-byte Folded Reload
	ldp	x29, x30, [sp, #64]             // 16-byte Folded Reload
	add	sp, sp, #144
	ret
.LBB59_18:                              // %arm.8.i.i.i.i
	ldrb	w8, [sp, #8]
	mov	w9, #254                        // =0xfe
	cmp	w8, #0
	mov	w8, #9                          // =0x9
	csel	x0, x9, x8, eq
	b	.LBB59_17
.LBB59_19:                              // %arm.2.i.thread.i.i.i
	mov	w0, #254                        // =0xfe
	b	.LBB59_17
.LBB59_20:                              // %join.6.i.i.i.i.i.i.i
	cmp	x20, #41
	b.lo	.LBB59_24
// %bb.21:                              // %join.5.i.i.preheader.i.i.i.i.i.i
	sub	x9, x20, #1
	strb	w10, [x8, #40]
	cmp	x9, #40
	b.eq	.LBB59_24
// %bb.22:                              // %join.5.i.i.i.i.i.i.i.i.1
	lsr	x11, x10, #8
	cmp	x9, #41
	strb	w11, [x8, #41]
	b.eq	.LBB59_24
// %bb.23:                              // %join.5.i.i.i.i.i.i.i.i.2
	lsr	x9, x10, #16
	strb	w9, [x8, #42]
.LBB59_24:                              // %arm.6.i.i.i.i
	mov	x0, xzr
	add	x8, x23, #1
	str	x8, [x22, x19]
	b	.LBB59_17
.Lfunc_end59:
	.size	tteuyomal_library_step, .Lfunc_end59-tteuyomal_library_step
                                        // -- End function
	.section	.text.tteuyomal_matched,"ax",@progbits
	.globl	tteuyomal_matched               // -- Begin function tteuyomal_matched
	.p2align	2
	.type	tteuyomal_matched,@function
tteuyomal_matched:                      // @tteuyomal_matched
// %bb.0:                               // %start
	stp	x29, x30, [sp, #-96]!           // 16-byte Folded Spill
	sub	x9, sp, #6, lsl #12             // =24576
	stp	x28, x27, [sp, #16]             // 16-byte Folded Spill
	mov	x29, sp
	sub	x9, x9, #3072
	stp	x26, x25, [sp, #32]             // 16-byte Folded Spill
	stp	x24, x23, [sp, #48]             // 16-byte Folded Spill
	stp	x22, x21, [sp, #64]             // 16-byte Folded Spill
	stp	x20, x19, [sp, #80]             // 16-byte Folded Spill
.LBB60_1:                               // %start
                                        // =>This Inner Loop Header: Depth=1
	sub	sp, sp, #3072
	cmp	sp, x9
	str	xzr, [sp]
	b.ne	.LBB60_1
// %bb.2:                               // %start
	sub	sp, sp, #1616
	movi	v0.2d, #0000000000000000
	cmp	x0, #0
	mov	w8, #4096                       // =0x1000
	csel	x9, x8, xzr, eq
	cmp	x3, #0
	mov	x26, x2
	add	x23, x0, x9
	add	x0, sp, #1, lsl #12             // =4096
	mov	x22, x1
	csel	x28, x8, xzr, eq
	cmp	x5, #0
	add	x0, x0, #248
	mov	w1, wzr
	mov	w2, #8448                       // =0x2100
	str	xzr, [sp]
	mov	x25, x6
	mov	x24, x5
	mov	x21, x4
	mov	x20, x3
	stp	q0, q0, [sp, #240]
	add	x19, sp, #240
	stp	q0, q0, [sp, #272]
	csel	x27, x8, xzr, eq
	stp	q0, q0, [sp, #304]
	stp	q0, q0, [sp, #336]
	stp	q0, q0, [sp, #368]
	str	q0, [sp, #400]
	str	xzr, [sp, #416]
	bl	memset
	add	x3, sp, #1, lsl #12             // =4096
	add	x0, sp, #240
	mov	x1, x23
	add	x3, x3, #248
	mov	x2, x22
	mov	w4, #8448                       // =0x2100
	bl	"compose::reading::read_in"
	ldur	q0, [x19, #120]
	ldur	q1, [x19, #136]
	ldur	q2, [x19, #152]
	ldrb	w8, [sp, #240]
	ldrb	w0, [sp, #248]
	ldr	x9, [sp, #256]
	stp	q0, q1, [sp, #176]
	ldur	q0, [x19, #168]
	ldur	q1, [x19, #56]
	stp	q2, q0, [sp, #208]
	ldur	q0, [x19, #72]
	ldur	q2, [x19, #88]
	stp	q1, q0, [sp, #112]
	ldur	q0, [x19, #104]
	ldur	q1, [x19, #24]
	stp	q2, q0, [sp, #144]
	ldur	q0, [x19, #40]
	stp	q1, q0, [sp, #80]
	cbnz	w8, .LBB60_6
// %bb.3:                               // %arm.1.i.i.i.i
	cmp	x26, x25, lsr #1
	stp	x20, x28, [sp, #56]             // 16-byte Folded Spill
	str	x26, [sp, #72]                  // 8-byte Spill
	b.ls	.LBB60_5
// %bb.4:
	mov	x9, xzr
	mov	w0, #9                          // =0x9
	b	.LBB60_6
.LBB60_5:                               // %join.7.i.i.i.i
	add	x0, sp, #1, lsl #12             // =4096
	mov	w1, wzr
	mov	w2, #24704                      // =0x6080
	add	x0, x0, #248
	mov	x19, x27
	sub	x20, x29, #216
	bl	memset
	add	x0, sp, #240
	mov	w1, wzr
	mov	w2, #4096                       // =0x1000
	bl	memset
	add	x3, sp, #1, lsl #12             // =4096
	sub	x0, x29, #216
	mov	x1, x23
	add	x3, x3, #248
	mov	x2, x22
	mov	w4, #12352                      // =0x3040
	stp	xzr, xzr, [x29, #-216]
	stur	xzr, [x29, #-200]
	bl	"whole::bonds"
	ldp	x0, x9, [x29, #-208]
	ldrb	w8, [x20]
	cbz	w8, .LBB60_8
.LBB60_6:                               // %arm.1.i3.i.i.i
	bfi	x0, x9, #8, #56
.LBB60_7:                               // %"tteuyomal_c::large::tteuyomal_matched.exit"
	add	sp, sp, #7, lsl #12             // =28672
	add	sp, sp, #592
	ldp	x20, x19, [sp, #80]             // 16-byte Folded Reload
	ldp	x22, x21, [sp, #64]             // 16-byte Folded Reload
	ldp	x24, x23, [sp, #48]             // 16-byte Folded Reload
	ldp	x26, x25, [sp, #32]             // 16-byte Folded Reload
	ldp	x28, x27, [sp, #16]             // 16-byte Folded Reload
	ldp	x29, x30, [sp], #96             // 16-byte Folded Reload
	ret
.LBB60_8:                               // %arm.1.i.i.i.i.i.i
	ldr	x8, [sp, #72]                   // 8-byte Reload
	cmp	x0, x8
	b.ne	.LBB60_39
// %bb.9:                               // %join.7.i.i.i.i.i.i
	ldp	q0, q1, [sp, #176]
	stp	q0, q1, [x29, #-96]
	ldp	q0, q2, [sp, #208]
	stp	q0, q2, [x29, #-64]
	ldp	q1, q0, [sp, #112]
	stp	q1, q0, [x29, #-160]
	ldp	q2, q0, [sp, #144]
	stp	q2, q0, [x29, #-128]
	ldp	q1, q0, [sp, #80]
	stp	q1, q0, [x29, #-192]
	cbz	x8, .LBB60_41
// %bb.10:                              // %join.5.lr.ph.i.i.i.i.i.i.i.i
	ldp	x10, x25, [x29, #-56]
	mov	x27, x9
	ldur	x8, [x29, #-192]
	mov	x28, xzr
	add	x11, x10, #4
	str	x8, [sp, #48]                   // 8-byte Spill
	add	x9, x10, #1
	subs	x8, x22, x11
	stp	x21, x9, [sp, #8]               // 16-byte Folded Spill
	add	x9, x10, #4
	stp	x8, x9, [sp, #32]               // 16-byte Folded Spill
	add	x8, x19, x24
	ldr	x21, [sp, #72]                  // 8-byte Reload
	csel	x9, x22, x11, lo
	add	x24, x8, #2
	mov	x20, x10
	str	x9, [sp, #24]                   // 8-byte Spill
	b	.LBB60_12
.LBB60_11:                              //   in Loop: Header=BB60_12 Depth=1
	add	x9, sp, #240
	add	x24, x24, #4
	strh	wzr, [x9, x28, lsl #1]
	add	x28, x28, #1
	cmp	x21, x28
	b.eq	.LBB60_30
.LBB60_12:                              // %join.5.i.i.i.i.i.i.i.i
                                        // =>This Inner Loop Header: Depth=1
	ldurh	w26, [x24, #-2]
	sub	x8, x26, #1
	cmp	x8, x25
	b.hs	.LBB60_11
// %bb.13:                              // %join.3.i.i.i.i.i.i.i.i.i.i
                                        //   in Loop: Header=BB60_12 Depth=1
	cmp	x22, x10
	b.hs	.LBB60_15
// %bb.14:                              //   in Loop: Header=BB60_12 Depth=1
	mov	x9, xzr
	mov	x10, x22
	mov	w11, #43691                     // =0xaaab
	mul	w11, w9, w11
	lsr	w11, w11, #18
	cmp	x8, x11
	b.hi	.LBB60_24
	b	.LBB60_20
.LBB60_15:                              // %join.3.i.i.i.i.i.i.i.i.i.i.i.i.i
                                        //   in Loop: Header=BB60_12 Depth=1
	cmp	x10, x22
	b.hs	.LBB60_18
// %bb.16:                              // %"records::byte_at.exit.i.i.i.i.i.i.i.i.i.i.i.i.i.i"
                                        //   in Loop: Header=BB60_12 Depth=1
	ldrb	w9, [x23, x10]
	ldr	x10, [sp, #16]                  // 8-byte Reload
	cmp	x10, x22
	b.hs	.LBB60_19
// %bb.17:                              // %then.1.i6.i.i.i.i.i.i.i.i.i.i.i.i.i.i
                                        //   in Loop: Header=BB60_12 Depth=1
	ldrb	w10, [x23, x10]
	orr	x9, x9, x10, lsl #8
	b	.LBB60_19
.LBB60_18:                              //   in Loop: Header=BB60_12 Depth=1
	mov	x9, xzr
.LBB60_19:                              // %"records::le16_at.exit.i.i.i.i.i.i.i.i.i.i.i.i.i"
                                        //   in Loop: Header=BB60_12 Depth=1
	ldr	x10, [sp, #32]                  // 8-byte Reload
	cmp	x10, x9
	csel	x9, x10, x9, lo
	ldr	x10, [sp, #40]                  // 8-byte Reload
	cmp	x22, x10
	ldr	x10, [sp, #24]                  // 8-byte Reload
	csel	x9, xzr, x9, lo
	mov	w11, #43691                     // =0xaaab
	mul	w11, w9, w11
	lsr	w11, w11, #18
	cmp	x8, x11
	b.hi	.LBB60_24
.LBB60_20:                              // %join.3.i1.i.i.i.i.i.i.i.i.i.i.i.i
                                        //   in Loop: Header=BB60_12 Depth=1
	add	x8, x8, x8, lsl #1
	lsl	x11, x8, #1
	add	x8, x11, #8
	cmp	x8, x9
	add	x8, x23, x10
	add	x10, x11, #2
	b.ls	.LBB60_25
// %bb.21:                              // %join.6.i.i.i.i.i.i.i.i.i.i.i.i.i
                                        //   in Loop: Header=BB60_12 Depth=1
	cmp	x10, x9
	b.hs	.LBB60_24
// %bb.22:                              // %"records::byte_at.exit.i.i5.i.i.i.i.i.i.i.i.i.i.i.i"
                                        //   in Loop: Header=BB60_12 Depth=1
	add	x11, x11, #3
	ldrb	w3, [x8, x10]
	cmp	x11, x9
	b.hs	.LBB60_26
// %bb.23:                              // %then.1.i6.i.i11.i.i.i.i.i.i.i.i.i.i.i.i
                                        //   in Loop: Header=BB60_12 Depth=1
	ldrb	w8, [x8, x11]
	orr	x3, x3, x8, lsl #8
	b	.LBB60_26
.LBB60_24:                              //   in Loop: Header=BB60_12 Depth=1
	mov	x3, xzr
	b	.LBB60_26
.LBB60_25:                              // %then.4.i.i.i.i.i.i.i.i.i.i.i.i.i
                                        //   in Loop: Header=BB60_12 Depth=1
	ldrh	w3, [x8, x10]
.LBB60_26:                              // %"deck::is_missing.exit.i.i.i.i.i.i.i.i.i"
                                        //   in Loop: Header=BB60_12 Depth=1
	sub	x8, x29, #192
	ldr	x2, [sp, #48]                   // 8-byte Reload
	ldrh	w19, [x24]
	sub	x0, x29, #24
	orr	x1, x8, #0x8
	bl	"assembly::find_block"
	sub	x8, x29, #216
	sub	x9, x19, #1
	ldrh	w8, [x8, #196]
	cmp	x9, x8
	b.hs	.LBB60_28
// %bb.27:                              // %join.3.i.i.i.i.i.i.i.i.i
                                        //   in Loop: Header=BB60_12 Depth=1
	sub	w3, w26, #1
	add	x2, sp, #80
	mov	x0, x23
	mov	x1, x22
	bl	"whole::start_of"
	add	w8, w19, w0
	b	.LBB60_29
.LBB60_28:                              //   in Loop: Header=BB60_12 Depth=1
	mov	w8, wzr
.LBB60_29:                              // %"matched::number_in.exit.i.i.i.i.i.i.i.i"
                                        //   in Loop: Header=BB60_12 Depth=1
	mov	x10, x20
	add	x9, sp, #240
	add	x24, x24, #4
	strh	w8, [x9, x28, lsl #1]
	add	x28, x28, #1
	cmp	x21, x28
	b.ne	.LBB60_12
.LBB60_30:                              // %join.5.preheader.i.i.i.i.i.i.i.i.i
	ldr	x1, [sp, #8]                    // 8-byte Reload
	add	x8, x21, #1
	mov	x9, #-1                         // =0xffffffffffffffff
	mov	w10, #1                         // =0x1
	b	.LBB60_32
.LBB60_31:                              // %join.8.i.i.i.i.i.i.i.i.i
                                        //   in Loop: Header=BB60_32 Depth=1
	cmp	x10, x21
	add	x10, x10, #1
	add	x9, x9, #1
	b.eq	.LBB60_65
.LBB60_32:                              // %"matched::partner.exit.i.i.i.i.i.i.i.i.i.i"
                                        // =>This Loop Header: Depth=1
                                        //     Child Loop BB60_36 Depth 2
	add	x11, sp, #240
	add	x11, x11, x10, lsl #1
	ldurh	w11, [x11, #-2]
	cbz	w11, .LBB60_38
// %bb.33:                              // %else.2.i.i.i.i.i.i.i.i.i.i
                                        //   in Loop: Header=BB60_32 Depth=1
	cmp	x10, #1
	b.eq	.LBB60_31
// %bb.34:                              // %join.5.i.i.i.i.i.i.i.i.i.i.i.preheader
                                        //   in Loop: Header=BB60_32 Depth=1
	mov	x12, x9
	b	.LBB60_36
.LBB60_35:                              // %join.8.i.i.i.i.i.i.i.i.i.i.i
                                        //   in Loop: Header=BB60_36 Depth=2
	sub	x12, x12, #1
	cmn	x12, #1
	b.eq	.LBB60_31
.LBB60_36:                              // %join.5.i.i.i.i.i.i.i.i.i.i.i
                                        //   Parent Loop BB60_32 Depth=1
                                        // =>  This Inner Loop Header: Depth=2
	cmp	x12, x21
	b.hs	.LBB60_35
// %bb.37:                              // %"matched::partner.exit.i.i.i.i.i.i.i.i.i.i.i"
                                        //   in Loop: Header=BB60_36 Depth=2
	add	x13, sp, #240
	ldrh	w13, [x13, x12, lsl #1]
	cmp	w11, w13
	b.ne	.LBB60_35
.LBB60_38:
	mov	x8, x10
	b	.LBB60_40
.LBB60_39:                              // %arm.2.i2.thread.i.i.i
	mov	x8, xzr
.LBB60_40:                              // %"deck_calls::verdict_code.exit.i.i.i.i"
	mov	w9, #255                        // =0xff
	orr	x0, x9, x8, lsl #8
	b	.LBB60_7
.LBB60_41:                              // %"matched::put_partners.exit.thread.i.i.i.i.i.i.i"
	mov	w8, #1                          // =0x1
	mov	x1, x21
	lsl	x9, x9, #1
	cmp	x21, #2
	b.lo	.LBB60_66
.LBB60_42:                              // %join.5.lr.ph.i.i.i.i.i.i.i.i.i
	ldr	x2, [sp, #72]                   // 8-byte Reload
	cbz	x9, .LBB60_40
// %bb.43:                              // %join.5.us.us.i.i.i.i.i.i.i.i.i.preheader
	ldp	x20, x0, [sp, #56]              // 16-byte Folded Reload
	add	x12, sp, #1, lsl #12            // =4096
	add	x12, x12, #248
	mov	x10, xzr
	add	x12, x12, #2
	add	x11, x20, x0
.LBB60_44:                              // %join.5.us.us.i.i.i.i.i.i.i.i.i
                                        // =>This Loop Header: Depth=1
                                        //     Child Loop BB60_47 Depth 2
	add	x14, x11, x10, lsl #1
	ldrh	w13, [x14]
	ldrh	w14, [x14, #2]
	sub	x15, x13, #1
	sub	x16, x14, #1
	cmp	x15, x2
	ccmp	x16, x2, #2, lo
	b.hs	.LBB60_52
// %bb.45:                              // %"matched::partner.exit12.i.i.us.us.i.i.i.i.i.i.i.i.i"
                                        //   in Loop: Header=BB60_44 Depth=1
	add	x15, sp, #240
	mov	x16, x9
	add	x13, x15, x13, lsl #1
	add	x14, x15, x14, lsl #1
	mov	x15, x12
	ldurh	w13, [x13, #-2]
	ldurh	w14, [x14, #-2]
	b	.LBB60_47
.LBB60_46:                              // %loop.2.i.i.i.us.us.i.i.i.i.i.i.i.i.i
                                        //   in Loop: Header=BB60_47 Depth=2
	subs	x16, x16, #2
	add	x15, x15, #4
	b.eq	.LBB60_52
.LBB60_47:                              // %join.5.i.i.i.us.us.i.i.i.i.i.i.i.i.i
                                        //   Parent Loop BB60_44 Depth=1
                                        // =>  This Inner Loop Header: Depth=2
	ldurh	w18, [x15, #-2]
	ldrh	w17, [x15]
	cmp	w13, w18
	b.ne	.LBB60_49
// %bb.48:                              // %join.5.i.i.i.us.us.i.i.i.i.i.i.i.i.i
                                        //   in Loop: Header=BB60_47 Depth=2
	cmp	w14, w17
	b.eq	.LBB60_51
.LBB60_49:                              // %"matched::is_between.exit.i.i.i.us.us.i.i.i.i.i.i.i.i.i"
                                        //   in Loop: Header=BB60_47 Depth=2
	cmp	w14, w18
	b.ne	.LBB60_46
// %bb.50:                              // %"matched::is_between.exit.i.i.i.us.us.i.i.i.i.i.i.i.i.i"
                                        //   in Loop: Header=BB60_47 Depth=2
	cmp	w13, w17
	b.ne	.LBB60_46
.LBB60_51:                              // %join.8.loopexit.us.us.i.i.i.i.i.i.i.i.i
                                        //   in Loop: Header=BB60_44 Depth=1
	add	x10, x10, #2
	add	x8, x8, #1
	sub	x13, x1, x10
	cmp	x13, #1
	b.hi	.LBB60_44
	b	.LBB60_53
.LBB60_52:                              // %"matched::first_amiss.exit.i.i.i.i.i.i.i.i"
	cbnz	x8, .LBB60_40
.LBB60_53:                              // %join.6.i.i.i.i.i.i.i.i
	add	x8, x2, x1, lsr #1
	add	x11, x0, x20
	mov	x10, xzr
	add	x11, x11, #2
.LBB60_54:                              // %join.5.us29.i.i.i.i.i.i.i.i.i
                                        // =>This Loop Header: Depth=1
                                        //     Child Loop BB60_56 Depth 2
	add	x12, sp, #1, lsl #12            // =4096
	add	x8, x8, #1
	mov	x14, x11
	add	x12, x12, #248
	mov	x15, x1
	add	x13, x12, x10, lsl #1
	ldrh	w12, [x13]
	ldrh	w13, [x13, #2]
	b	.LBB60_56
.LBB60_55:                              // %loop.2.i.i.us.i.i.i.i.i.i.i.i.i
                                        //   in Loop: Header=BB60_56 Depth=2
	sub	x15, x15, #2
	cmp	x15, #1
	b.ls	.LBB60_68
.LBB60_56:                              // %join.5.i.i.us.i.i.i.i.i.i.i.i.i
                                        //   Parent Loop BB60_54 Depth=1
                                        // =>  This Inner Loop Header: Depth=2
	ldurh	w16, [x14, #-2]
	sub	x17, x16, #1
	cmp	x17, x2
	b.hs	.LBB60_59
// %bb.57:                              // %join.3.i.i8.i.us.i.i.i.i.i.i.i.i.i
                                        //   in Loop: Header=BB60_56 Depth=2
	add	x17, sp, #240
	add	x16, x17, x16, lsl #1
	ldurh	w16, [x16, #-2]
	ldrh	w17, [x14], #4
	sub	x18, x17, #1
	cmp	x18, x2
	b.lo	.LBB60_60
.LBB60_58:                              //   in Loop: Header=BB60_56 Depth=2
	mov	x17, xzr
	cmp	x16, x12
	b.eq	.LBB60_61
	b	.LBB60_62
.LBB60_59:                              //   in Loop: Header=BB60_56 Depth=2
	mov	x16, xzr
	ldrh	w17, [x14], #4
	sub	x18, x17, #1
	cmp	x18, x2
	b.hs	.LBB60_58
.LBB60_60:                              // %join.3.i14.i.i.us.i.i.i.i.i.i.i.i.i
                                        //   in Loop: Header=BB60_56 Depth=2
	add	x18, sp, #240
	add	x17, x18, x17, lsl #1
	ldurh	w17, [x17, #-2]
	cmp	x16, x12
	b.ne	.LBB60_62
.LBB60_61:                              // %"matched::partner.exit19.i.i.us.i.i.i.i.i.i.i.i.i"
                                        //   in Loop: Header=BB60_56 Depth=2
	cmp	x17, x13
	b.eq	.LBB60_64
.LBB60_62:                              // %"matched::is_between.exit.i.i.us.i.i.i.i.i.i.i.i.i"
                                        //   in Loop: Header=BB60_56 Depth=2
	cmp	x16, x13
	b.ne	.LBB60_55
// %bb.63:                              // %"matched::is_between.exit.i.i.us.i.i.i.i.i.i.i.i.i"
                                        //   in Loop: Header=BB60_56 Depth=2
	cmp	x17, x12
	b.ne	.LBB60_55
.LBB60_64:                              // %join.8.loopexit12.us.i.i.i.i.i.i.i.i.i
                                        //   in Loop: Header=BB60_54 Depth=1
	add	x10, x10, #2
	cmp	x9, x10
	b.ne	.LBB60_54
	b	.LBB60_67
.LBB60_65:
	lsl	x9, x27, #1
	cmp	x1, #2
	b.hs	.LBB60_42
.LBB60_66:                              // %join.6.thread.i.i.i.i.i.i.i.i
	cbnz	x9, .LBB60_40
.LBB60_67:                              // %arm.2.i2.thread28.i.i.i
	mov	x0, xzr
	b	.LBB60_7
.LBB60_68:                              // %arm.2.i2.i.i.i
	cbnz	x8, .LBB60_40
	b	.LBB60_67
.Lfunc_end60:
	.size	tteuyomal_matched, .Lfunc_end60-tteuyomal_matched
                                        // -- End function
	.section	.text.tteuyomal_placed_distance,"ax",@progbits
	.globl	tteuyomal_placed_distance       // -- Begin function tteuyomal_placed_distance
	.p2align	2
	.type	tteuyomal_placed_distance,@function
tteuyomal_placed_distance:              // @tteuyomal_placed_distance
// %bb.0:                               // %start
	stp	x29, x30, [sp, #-96]!           // 16-byte Folded Spill
	stp	x28, x27, [sp, #16]             // 16-byte Folded Spill
	mov	x29, sp
	stp	x26, x25, [sp, #32]             // 16-byte Folded Spill
	stp	x24, x23, [sp, #48]             // 16-byte Folded Spill
	stp	x22, x21, [sp, #64]             // 16-byte Folded Spill
	stp	x20, x19, [sp, #80]             // 16-byte Folded Spill
	sub	sp, sp, #3072
	str	xzr, [sp]
	sub	sp, sp, #3072
	str	xzr, [sp]
	sub	sp, sp, #2352
	cmp	x0, #0
	mov	w10, #4096                      // =0x1000
	mov	x20, x7
	csel	x11, x10, xzr, eq
	cmp	x6, #0
	mov	x19, x6
	mov	x21, x5
	mov	x22, x4
	mov	x23, x3
	mov	x24, x2
	mov	x25, x1
	mov	x8, xzr
	mov	x9, xzr
	add	x26, x0, x11
	csel	x27, x10, xzr, eq
	str	xzr, [sp]
	b	.LBB61_3
.LBB61_1:                               //   in Loop: Header=BB61_3 Depth=1
	mov	x10, xzr
.LBB61_2:                               // %"records::le16_at.exit26.i.i.i.i.i"
                                        //   in Loop: Header=BB61_3 Depth=1
	add	x8, x8, #1
	add	x9, x9, #4
	cmp	x8, #16
	add	x9, x9, x10
	b.eq	.LBB61_12
.LBB61_3:                               // %join.5.i.i.i.i.i
                                        // =>This Inner Loop Header: Depth=1
	add	x10, x9, #2
	cmp	x10, x25
	b.hs	.LBB61_10
// %bb.4:                               // %"records::byte_at.exit.i.i.i.i.i.i"
                                        //   in Loop: Header=BB61_3 Depth=1
	add	x11, x9, #3
	cmp	x11, x25
	b.hs	.LBB61_6
// %bb.5:                               // %then.1.i6.i.i.i.i.i.i
                                        //   in Loop: Header=BB61_3 Depth=1
	ldrb	w11, [x26, x11]
	ldrb	w10, [x26, x10]
	orr	w10, w10, w11, lsl #8
	cmp	w10, #1
	b.eq	.LBB61_7
	b	.LBB61_10
.LBB61_6:                               //   in Loop: Header=BB61_3 Depth=1
	ldrb	w10, [x26, x10]
	orr	w10, w10, wzr, lsl #8
	cmp	w10, #1
	b.ne	.LBB61_10
.LBB61_7:                               // %join.8.i.i.i.i.i
                                        //   in Loop: Header=BB61_3 Depth=1
	cmp	x9, x25
	b.hs	.LBB61_1
// %bb.8:                               // %"records::byte_at.exit.i12.i.i.i.i.i"
                                        //   in Loop: Header=BB61_3 Depth=1
	add	x11, x9, #1
	ldrb	w10, [x26, x9]
	cmp	x11, x25
	b.hs	.LBB61_2
// %bb.9:                               // %then.1.i6.i23.i.i.i.i.i
                                        //   in Loop: Header=BB61_3 Depth=1
	ldrb	w11, [x26, x11]
	orr	x10, x10, x11, lsl #8
	b	.LBB61_2
.LBB61_10:                              // %"deck::heads.exit.i.i.i.i"
	cmp	x8, #2
	b.hi	.LBB61_12
// %bb.11:                              // %then.1.i.i.i.i
	add	x0, sp, #16
	mov	w1, wzr
	mov	w2, #1056                       // =0x420
	mov	w28, #1056                      // =0x420
	b	.LBB61_13
.LBB61_12:                              // %join.3.i.i.i.i
	add	x0, sp, #16
	mov	w1, wzr
	mov	w2, #8448                       // =0x2100
	mov	w28, #8448                      // =0x2100
.LBB61_13:                              // %"compose::distance::placed_distance.exit.i.i.i"
	bl	memset
	sub	x0, x29, #32
	add	x7, sp, #16
	mov	x1, x26
	mov	x2, x25
	mov	x3, x24
	mov	x4, x23
	mov	x5, x22
	mov	x6, x21
	str	x28, [sp]
	bl	"compose::distance::distance_in"
	sub	x8, x29, #32
	ldp	x0, x9, [x29, #-24]
	ldrb	w8, [x8]
	cmp	w8, #1
	b.ne	.LBB61_15
// %bb.14:                              // %arm.1.i.i.i.i
	bfi	x0, x9, #8, #56
	b	.LBB61_18
.LBB61_15:                              // %arm.2.i.i.i.i
	cbz	x20, .LBB61_17
// %bb.16:                              // %join.5.i.i.i.i.i.i
	str	x0, [x19, x27]
	mov	x0, xzr
	b	.LBB61_18
.LBB61_17:
	mov	w0, #9                          // =0x9
.LBB61_18:                              // %"tteuyomal_c::decks::tteuyomal_placed_distance.exit"
	add	sp, sp, #2, lsl #12             // =8192
	add	sp, sp, #304
	ldp	x20, x19, [sp, #80]             // 16-byte Folded Reload
	ldp	x22, x21, [sp, #64]             // 16-byte Folded Reload
	ldp	x24, x23, [sp, #48]             // 16-byte Folded Reload
	ldp	x26, x25, [sp, #32]             // 16-byte Folded Reload
	ldp	x28, x27, [sp, #16]             // 16-byte Folded Reload
	ldp	x29, x30, [sp], #96             // 16-byte Folded Reload
	ret
.Lfunc_end61:
	.size	tteuyomal_placed_distance, .Lfunc_end61-tteuyomal_placed_distance
                                        // -- End function
	.section	.text.tteuyomal_polynomial,"ax",@progbits
	.globl	tteuyomal_polynomial            // -- Begin function tteuyomal_polynomial
	.p2align	2
	.type	tteuyomal_polynomial,@function
tteuyomal_polynomial:                   // @tteuyomal_polynomial
// %bb.0:                               // %start
	str	d8, [sp, #-96]!                 // 8-byte Folded Spill
	stp	x29, x30, [sp, #8]              // 16-byte Folded Spill
	add	x29, sp, #8
	str	x28, [sp, #24]                  // 8-byte Spill
	stp	x26, x25, [sp, #32]             // 16-byte Folded Spill
	stp	x24, x23, [sp, #48]             // 16-byte Folded Spill
	stp	x22, x21, [sp, #64]             // 16-byte Folded Spill
	stp	x20, x19, [sp, #80]             // 16-byte Folded Spill
	sub	sp, sp, #2304
	cmp	x1, #0
	mov	w8, #4096                       // =0x1000
	mov	x22, x1
	mov	x23, x2
	mov	x21, x0
	csel	x26, x8, xzr, eq
	cmp	x3, #0
	add	x0, sp, #32
	mov	w1, wzr
	mov	w2, #2016                       // =0x7e0
	str	xzr, [sp]
	mov	x19, x4
	mov	x20, x3
	fmov	d8, d0
	stp	xzr, xzr, [sp, #8]
	add	x24, sp, #32
	csel	x25, x8, xzr, eq
	str	xzr, [sp, #24]
	bl	memset
	add	x0, sp, #8
	add	x2, x22, x26
	add	x4, sp, #32
	mov	x1, x21
	mov	x3, x23
	bl	"block::halved"
	ldrb	w10, [sp, #8]
	cbz	w10, .LBB62_2
// %bb.1:                               // %"block::pair_counts.exit.i.i.i.i"
	movi	v0.2d, #0000000000000000
	ldrb	w9, [sp, #16]
	ldr	x8, [sp, #24]
	cmp	w10, #1
	str	q0, [x24, #2016]
	str	q0, [x24, #2032]
	str	q0, [x24, #2048]
	str	q0, [x24, #2064]
	str	q0, [x24, #2080]
	str	q0, [x24, #2096]
	str	q0, [x24, #2112]
	str	q0, [x24, #2128]
	b.ne	.LBB62_10
	b	.LBB62_12
.LBB62_2:                               // %join.4.i.i.i.i.i
	movi	v0.2d, #0000000000000000
	cmp	x21, #64
	mov	w8, #64                         // =0x40
	csel	x8, x21, x8, lo
	str	q0, [x24, #2128]
	str	q0, [x24, #2112]
	str	q0, [x24, #2096]
	str	q0, [x24, #2080]
	str	q0, [x24, #2064]
	str	q0, [x24, #2048]
	str	q0, [x24, #2032]
	str	q0, [x24, #2016]
	cbz	x21, .LBB62_10
// %bb.3:                               // %join.7.i.i.i.i.i.i.preheader
	mov	x9, xzr
	sub	x10, x8, #1
	add	x11, sp, #32
	mov	w12, #63                        // =0x3f
	b	.LBB62_5
.LBB62_4:                               // %"block::totals::count_run.exit.i.i.i.i.i.i"
                                        //   in Loop: Header=BB62_5 Depth=1
	ldr	q0, [x24, #2208]
	ldr	q1, [x24, #2224]
	add	x9, x9, #1
	add	x11, x11, x12
	sub	x12, x12, #1
	cmp	x9, x8
	str	q0, [x24, #2080]
	ldr	q0, [x24, #2240]
	sub	x10, x10, #1
	str	q1, [x24, #2096]
	ldr	q1, [x24, #2256]
	str	q0, [x24, #2112]
	ldr	q0, [x24, #2144]
	str	q1, [x24, #2128]
	ldr	q1, [x24, #2160]
	str	q0, [x24, #2016]
	ldr	q0, [x24, #2176]
	str	q1, [x24, #2032]
	str	q0, [x24, #2048]
	ldr	q0, [x24, #2192]
	str	q0, [x24, #2064]
	b.eq	.LBB62_10
.LBB62_5:                               // %join.7.i.i.i.i.i.i
                                        // =>This Loop Header: Depth=1
                                        //     Child Loop BB62_8 Depth 2
	ldr	q0, [x24, #2080]
	ldr	q1, [x24, #2096]
	mvn	x13, x9
	cmn	x8, x13
	str	q0, [x24, #2208]
	ldr	q0, [x24, #2112]
	str	q1, [x24, #2224]
	ldr	q1, [x24, #2128]
	str	q0, [x24, #2240]
	ldr	q0, [x24, #2016]
	str	q1, [x24, #2256]
	ldr	q1, [x24, #2032]
	str	q0, [x24, #2144]
	ldr	q0, [x24, #2048]
	str	q1, [x24, #2160]
	ldr	q1, [x24, #2064]
	str	q0, [x24, #2176]
	str	q1, [x24, #2192]
	b.eq	.LBB62_4
// %bb.6:                               // %join.5.lr.ph.i.i.i.i.i.i.i
                                        //   in Loop: Header=BB62_5 Depth=1
	mov	x13, x11
	mov	x14, x10
	b	.LBB62_8
.LBB62_7:                               // %join.8.i.i.i.i.i.i.i
                                        //   in Loop: Header=BB62_8 Depth=2
	subs	x14, x14, #1
	b.eq	.LBB62_4
.LBB62_8:                               // %join.5.i.i.i.i.i.i.i
                                        //   Parent Loop BB62_5 Depth=1
                                        // =>  This Inner Loop Header: Depth=2
	ldrb	w15, [x13], #1
	cmp	w15, #63
	b.hi	.LBB62_7
// %bb.9:                               // %then.6.i.i.i.i.i.i.i
                                        //   in Loop: Header=BB62_8 Depth=2
	sub	x16, x29, #136
	ldrh	w17, [x16, x15, lsl #1]
	add	w17, w17, #1
	strh	w17, [x16, x15, lsl #1]
	b	.LBB62_7
.LBB62_10:                              // %arm.2.i.i.i.i
	movi	d0, #0000000000000000
	fmov	d1, d8
	//ARITH_FENCE
	//ARITH_FENCE
	fcmp	d0, d1
	fmov	d0, #1.00000000
	cset	w8, pl
	//ARITH_FENCE
	fcmp	d1, d0
	//APP
	//NO_APP
	movi	d0, #0000000000000000
	cset	w9, hi
	//APP
	//NO_APP
	orr	w8, w8, w9
	cbz	w8, .LBB62_13
// %bb.11:
	mov	x8, xzr
	mov	w9, #10                         // =0xa
.LBB62_12:                              // %arm.1.i.i.i
	orr	x0, x9, x8, lsl #8
	b	.LBB62_24
.LBB62_13:                              // %then.4.i.i.i.i.i
	ldr	q1, [x24, #2080]
	ldr	q2, [x24, #2096]
	add	x8, x20, x25
	ldr	q3, [x24, #2112]
	mov	w9, #63                         // =0x3f
	stp	q1, q2, [sp, #96]
	ldr	q1, [x24, #2128]
	ldr	q2, [x24, #2016]
	str	q3, [sp, #128]
	ldr	q3, [x24, #2048]
	str	q1, [x24, #112]
	ldr	q1, [x24, #2032]
	stp	q2, q1, [sp, #32]
	ldr	q1, [x24, #2064]
	stp	q3, q1, [sp, #64]
	b	.LBB62_15
.LBB62_14:                              // %join.8.i.i.i.i.i.i
                                        //   in Loop: Header=BB62_15 Depth=1
	fadd	d0, d0, d1
	subs	x9, x9, #1
	fmul	d0, d8, d0
	b.eq	.LBB62_17
.LBB62_15:                              // %join.5.i.i.i.i.i.i
                                        // =>This Inner Loop Header: Depth=1
	movi	d1, #0000000000000000
	tbnz	w9, #0, .LBB62_14
// %bb.16:                              // %then.6.i.i.i.i.i.i
                                        //   in Loop: Header=BB62_15 Depth=1
	add	x10, sp, #32
	ldr	h1, [x10, x9, lsl #1]
	ucvtf	d1, d1
	//ARITH_FENCE
	b	.LBB62_14
.LBB62_17:                              // %"poly::value_of.exit.i.i.i.i.i"
	ldr	q1, [x24, #2080]
	ldr	q2, [x24, #2096]
	mov	w9, #63                         // =0x3f
	ldr	q3, [x24, #2112]
	ldr	q4, [x24, #2048]
	stp	q1, q2, [sp, #96]
	ldr	q1, [x24, #2128]
	ldr	q2, [x24, #2016]
	str	q3, [sp, #128]
	ldr	q3, [x24, #2032]
	str	q1, [x24, #112]
	movi	d1, #0000000000000000
	stp	q2, q3, [sp, #32]
	ldr	q2, [x24, #2064]
	stp	q4, q2, [sp, #64]
	b	.LBB62_19
.LBB62_18:                              // %join.8.i11.i.i.i.i.i
                                        //   in Loop: Header=BB62_19 Depth=1
	fadd	d1, d1, d2
	subs	x9, x9, #1
	fmul	d1, d8, d1
	b.eq	.LBB62_21
.LBB62_19:                              // %join.5.i6.i.i.i.i.i
                                        // =>This Inner Loop Header: Depth=1
	movi	d2, #0000000000000000
	tbz	w9, #0, .LBB62_18
// %bb.20:                              // %then.6.i17.i.i.i.i.i
                                        //   in Loop: Header=BB62_19 Depth=1
	add	x10, sp, #32
	ldr	h2, [x10, x9, lsl #1]
	ucvtf	d2, d2
	//ARITH_FENCE
	b	.LBB62_18
.LBB62_21:                              // %arm.2.i.i.i
	cmp	x19, #2
	b.hs	.LBB62_23
// %bb.22:
	mov	w0, #9                          // =0x9
	b	.LBB62_24
.LBB62_23:                              // %join.3.i.i.i.i
	mov	x0, xzr
	stp	d0, d1, [x8]
.LBB62_24:                              // %"tteuyomal_c::blocks::tteuyomal_polynomial.exit"
	add	sp, sp, #2304
	ldp	x20, x19, [sp, #80]             // 16-byte Folded Reload
	ldr	x28, [sp, #24]                  // 8-byte Reload
	ldp	x22, x21, [sp, #64]             // 16-byte Folded Reload
	ldp	x24, x23, [sp, #48]             // 16-byte Folded Reload
	ldp	x26, x25, [sp, #32]             // 16-byte Folded Reload
	ldp	x29, x30, [sp, #8]              // 16-byte Folded Reload
	ldr	d8, [sp], #96                   // 8-byte Folded Reload
	ret
.Lfunc_end62:
	.size	tteuyomal_polynomial, .Lfunc_end62-tteuyomal_polynomial
                                        // -- End function
	.section	.text.tteuyomal_queue_add,"ax",@progbits
	.globl	tteuyomal_queue_add             // -- Begin function tteuyomal_queue_add
	.p2align	2
	.type	tteuyomal_queue_add,@function
tteuyomal_queue_add:                    // @tteuyomal_queue_add
// %bb.0:                               // %start
	stp	x29, x30, [sp, #-96]!           // 16-byte Folded Spill
	str	x28, [sp, #16]                  // 8-byte Spill
	mov	x29, sp
	stp	x26, x25, [sp, #32]             // 16-byte Folded Spill
	stp	x24, x23, [sp, #48]             // 16-byte Folded Spill
	stp	x22, x21, [sp, #64]             // 16-byte Folded Spill
	stp	x20, x19, [sp, #80]             // 16-byte Folded Spill
	sub	sp, sp, #576
	lsr	x8, x1, #8
	cmp	x5, #0
	mov	w9, #4096                       // =0x1000
	csel	x21, x9, xzr, eq
	cmp	x8, #33
	b.hs	.LBB63_2
// %bb.1:
	mov	x1, xzr
	mov	w0, #9                          // =0x9
	b	.LBB63_31
.LBB63_2:                               // %join.3.i.i.i.i
	cmp	x0, #0
	mov	w8, #4096                       // =0x1000
	mov	x19, x4
	csel	x20, x8, xzr, eq
	cmp	x2, #0
	mov	w8, #4224                       // =0x1080
	add	x9, x0, x20
	csel	x22, xzr, x8, eq
	and	w24, w3, #0xffff
	add	x23, x9, x22
	ldrh	w8, [x23]
	cbz	w8, .LBB63_10
// %bb.3:                               // %join.8.i.i.i.i.i.i
	ldrb	w9, [x23, #528]
	ldrb	w10, [x23, #529]
	orr	w9, w10, w9
	cbz	w9, .LBB63_11
// %bb.4:                               // %join.8.1.i.i.i.i.i.i
	ldrb	w9, [x23, #1056]
	ldrb	w10, [x23, #1057]
	orr	w9, w10, w9
	cbz	w9, .LBB63_12
// %bb.5:                               // %join.8.2.i.i.i.i.i.i
	ldrb	w9, [x23, #1584]
	ldrb	w10, [x23, #1585]
	orr	w9, w10, w9
	cbz	w9, .LBB63_13
// %bb.6:                               // %join.8.3.i.i.i.i.i.i
	ldrb	w9, [x23, #2112]
	ldrb	w10, [x23, #2113]
	orr	w9, w10, w9
	cbz	w9, .LBB63_14
// %bb.7:                               // %join.8.4.i.i.i.i.i.i
	ldrb	w9, [x23, #2640]
	ldrb	w10, [x23, #2641]
	orr	w9, w10, w9
	cbz	w9, .LBB63_15
// %bb.8:                               // %join.8.5.i.i.i.i.i.i
	ldrb	w9, [x23, #3168]
	ldrb	w10, [x23, #3169]
	orr	w9, w10, w9
	cbz	w9, .LBB63_16
// %bb.9:                               // %join.8.6.i.i.i.i.i.i
	ldrb	w9, [x23, #3696]
	ldrb	w10, [x23, #3697]
	orr	w9, w10, w9
	cmp	w9, #0
	mov	w9, #7                          // =0x7
	cinc	x25, x9, ne
	b	.LBB63_17
.LBB63_10:
	mov	x25, xzr
	b	.LBB63_17
.LBB63_11:
	mov	w25, #1                         // =0x1
	b	.LBB63_17
.LBB63_12:
	mov	w25, #2                         // =0x2
	b	.LBB63_17
.LBB63_13:
	mov	w25, #3                         // =0x3
	b	.LBB63_17
.LBB63_14:
	mov	w25, #4                         // =0x4
	b	.LBB63_17
.LBB63_15:
	mov	w25, #5                         // =0x5
	b	.LBB63_17
.LBB63_16:
	mov	w25, #6                         // =0x6
.LBB63_17:                              // %"queues::places::place_of.exit.i.i.i.i.i"
	cbz	w24, .LBB63_27
// %bb.18:                              // %join.3.i.i.i.i.i.i
	cmp	w8, w24
	b.eq	.LBB63_26
// %bb.19:                              // %join.8.i.i.i.i.i.i.i
	ldrh	w8, [x23, #528]
	cmp	w8, w24
	b.eq	.LBB63_26
// %bb.20:                              // %join.8.1.i.i.i.i.i.i.i
	ldrh	w8, [x23, #1056]
	cmp	w8, w24
	b.eq	.LBB63_26
// %bb.21:                              // %join.8.2.i.i.i.i.i.i.i
	ldrh	w8, [x23, #1584]
	cmp	w8, w24
	b.eq	.LBB63_26
// %bb.22:                              // %join.8.3.i.i.i.i.i.i.i
	ldrh	w8, [x23, #2112]
	cmp	w8, w24
	b.eq	.LBB63_26
// %bb.23:                              // %join.8.4.i.i.i.i.i.i.i
	ldrh	w8, [x23, #2640]
	cmp	w8, w24
	b.eq	.LBB63_26
// %bb.24:                              // %join.8.5.i.i.i.i.i.i.i
	ldrh	w8, [x23, #3168]
	cmp	w8, w24
	b.eq	.LBB63_26
// %bb.25:                              // %join.8.6.i.i.i.i.i.i.i
	ldrh	w8, [x23, #3696]
	cmp	w8, w24
	b.ne	.LBB63_33
.LBB63_26:
	mov	w22, #29                        // =0x1d
	b	.LBB63_28
.LBB63_27:
	mov	w22, #14                        // =0xe
.LBB63_28:                              // %arm.1.i.i.i.i.i
	movi	v0.2d, #0000000000000000
	add	x1, x5, x21
	add	x3, sp, #64
	mov	x0, x19
	mov	x2, x6
	mov	x23, x5
	mov	x20, x6
	stp	q0, q0, [sp, #64]
	stp	q0, q0, [sp, #96]
	stp	q0, q0, [sp, #128]
	stp	q0, q0, [sp, #160]
	stp	q0, q0, [sp, #192]
	stp	q0, q0, [sp, #224]
	stp	q0, q0, [sp, #256]
	stp	q0, q0, [sp, #288]
	stp	q0, q0, [sp, #320]
	stp	q0, q0, [sp, #352]
	stp	q0, q0, [sp, #384]
	stp	q0, q0, [sp, #416]
	stp	q0, q0, [sp, #448]
	stp	q0, q0, [sp, #480]
	stp	q0, q0, [sp, #512]
	stp	q0, q0, [sp, #544]
	bl	"block::admit"
	cbz	w0, .LBB63_30
// %bb.29:                              // %arm.1.i.i.i.i.i.i
	mov	x1, xzr
	mov	x0, x22
	b	.LBB63_31
.LBB63_30:                              // %arm.2.i.i.i.i.i.i
	add	x1, x23, x21
	mov	x0, x19
	mov	x2, x20
	bl	"block::refusal"
.LBB63_31:                              // %arm.2.i.i.i.i
	bfi	x0, x1, #8, #56
.LBB63_32:                              // %"tteuyomal_c::two_queues::tteuyomal_queue_add.exit"
	add	sp, sp, #576
	ldp	x20, x19, [sp, #80]             // 16-byte Folded Reload
	ldr	x28, [sp, #16]                  // 8-byte Reload
	ldp	x22, x21, [sp, #64]             // 16-byte Folded Reload
	ldp	x24, x23, [sp, #48]             // 16-byte Folded Reload
	ldp	x26, x25, [sp, #32]             // 16-byte Folded Reload
	ldp	x29, x30, [sp], #96             // 16-byte Folded Reload
	ret
.LBB63_33:                              // %join.6.i.i.i.i.i.i
	cmp	x25, #8
	b.hs	.LBB63_36
// %bb.34:                              // %arm.2.i.i.i.i.i
	movi	v0.2d, #0000000000000000
	mov	x26, x0
	mov	x0, sp
	add	x2, x5, x21
	add	x4, sp, #64
	mov	x1, x19
	mov	x3, x6
	str	xzr, [sp, #48]
	stp	q0, q0, [sp, #16]
	str	q0, [sp]
	bl	"reach::opened"
	ldrb	w8, [sp]
	ldrb	w0, [sp, #8]
	cbz	w8, .LBB63_37
// %bb.35:                              // %"queues::add.exit.i.i.i"
	ldr	x1, [sp, #16]
	b	.LBB63_31
.LBB63_36:
	mov	w22, #28                        // =0x1c
	b	.LBB63_28
.LBB63_37:                              // %arm.3.i.i.i.i.i.i.i
	lsl	x8, x25, #4
	ldur	q0, [sp, #24]
	orr	x9, x8, x25, lsl #9
	lsr	w8, w24, #8
	xtn	v0.2s, v0.2d
	add	x10, x23, x9
	strb	w8, [x10, #1]
	ldp	x8, x11, [sp, #40]
	strb	w24, [x10]
	strb	w0, [x10, #2]
	strb	w11, [x10, #3]
	stur	d0, [x10, #4]
	str	w8, [x10, #12]
	cbz	x19, .LBB63_51
// %bb.38:                              // %join.5.i.i.i.i.i.i.i.i.preheader
	add	x10, x20, x22
	mov	x8, xzr
	add	x10, x26, x10
	add	x9, x10, x9
	mov	w10, #511                       // =0x1ff
	b	.LBB63_41
.LBB63_39:                              // %then.1.i.i.i.i.i.i.i.i.i
                                        //   in Loop: Header=BB63_41 Depth=1
	add	x12, x9, x8
	str	x11, [x12, #16]
.LBB63_40:                              // %"records::little::put_little.exit.i.i.i.i.i.i.i.i"
                                        //   in Loop: Header=BB63_41 Depth=1
	subs	x19, x19, #1
	sub	x10, x10, #8
	add	x8, x8, #8
	b.eq	.LBB63_51
.LBB63_41:                              // %join.5.i.i.i.i.i.i.i.i
                                        // =>This Inner Loop Header: Depth=1
	cmp	x10, #7
	mov	w11, #7                         // =0x7
	add	x14, sp, #64
	add	x13, x8, #16
	csel	x12, x10, x11, lo
	ldr	x11, [x14, x8]
	cmp	x13, #520
	b.ls	.LBB63_39
// %bb.42:                              // %join.6.i.i.i.i.i.i.i.i.i
                                        //   in Loop: Header=BB63_41 Depth=1
	cmp	x13, #527
	b.hi	.LBB63_40
// %bb.43:                              // %join.5.i.i.i.i.i.i.i.i.i.i
                                        //   in Loop: Header=BB63_41 Depth=1
	add	x12, x12, x8
	add	x14, x8, #17
	add	x13, x9, x8
	add	x12, x12, #17
	strb	w11, [x13, #16]
	cmp	x14, x12
	b.eq	.LBB63_40
// %bb.44:                              // %join.5.i.i.i.i.i.i.i.i.i.i.1
                                        //   in Loop: Header=BB63_41 Depth=1
	lsr	x14, x11, #8
	add	x15, x8, #18
	cmp	x15, x12
	strb	w14, [x13, #17]
	b.eq	.LBB63_40
// %bb.45:                              // %join.5.i.i.i.i.i.i.i.i.i.i.2
                                        //   in Loop: Header=BB63_41 Depth=1
	lsr	x14, x11, #16
	add	x15, x8, #19
	add	x13, x9, x8
	cmp	x15, x12
	strb	w14, [x13, #18]
	b.eq	.LBB63_40
// %bb.46:                              // %join.5.i.i.i.i.i.i.i.i.i.i.3
                                        //   in Loop: Header=BB63_41 Depth=1
	lsr	x14, x11, #24
	add	x15, x8, #20
	cmp	x15, x12
	strb	w14, [x13, #19]
	b.eq	.LBB63_40
// %bb.47:                              // %join.5.i.i.i.i.i.i.i.i.i.i.4
                                        //   in Loop: Header=BB63_41 Depth=1
	lsr	x14, x11, #32
	add	x15, x8, #21
	add	x13, x9, x8
	cmp	x15, x12
	strb	w14, [x13, #20]
	b.eq	.LBB63_40
// %bb.48:                              // %join.5.i.i.i.i.i.i.i.i.i.i.5
                                        //   in Loop: Header=BB63_41 Depth=1
	lsr	x14, x11, #40
	add	x15, x8, #22
	cmp	x15, x12
	strb	w14, [x13, #21]
	b.eq	.LBB63_40
// %bb.49:                              // %join.5.i.i.i.i.i.i.i.i.i.i.6
                                        //   in Loop: Header=BB63_41 Depth=1
	lsr	x14, x11, #48
	add	x15, x8, #23
	add	x13, x9, x8
	cmp	x15, x12
	strb	w14, [x13, #22]
	b.eq	.LBB63_40
// %bb.50:                              // %join.5.i.i.i.i.i.i.i.i.i.i.7
                                        //   in Loop: Header=BB63_41 Depth=1
	lsr	x11, x11, #56
	strb	w11, [x13, #23]
	b	.LBB63_40
.LBB63_51:                              // %"queues::add.exit.thread8.i.i.i"
	mov	x0, xzr
	b	.LBB63_32
.Lfunc_end63:
	.size	tteuyomal_queue_add, .Lfunc_end63-tteuyomal_queue_add
                                        // -- End function
	.section	.rodata.cst8,"aM",@progbits,8
	.p2align	3, 0x0                          // -- Begin function tteuyomal_queue_compose
.LCPI64_0:
	.hword	2                               // 0x2
	.hword	2                               // 0x2
	.hword	0                               // 0x0
	.hword	6                               // 0x6
	.section	.text.tteuyomal_queue_compose,"ax",@progbits
	.globl	tteuyomal_queue_compose
	.p2align	2
	.type	tteuyomal_queue_compose,@function
tteuyomal_queue_compose:                // @tteuyomal_queue_compose
// %bb.0:                               // %start
	sub	sp, sp, #224
	cmp	x0, #0
	mov	w9, #4096                       // =0x1000
	stp	x26, x25, [sp, #160]            // 16-byte Folded Spill
	csel	x26, x9, xzr, eq
	cmp	x4, #0
	lsr	x10, x1, #8
	csel	x8, x9, xzr, eq
	cmp	x6, #0
	stp	x20, x19, [sp, #208]            // 16-byte Folded Spill
	csel	x20, x9, xzr, eq
	cmp	x10, #33
	stp	x29, x30, [sp, #128]            // 16-byte Folded Spill
	stp	x28, x27, [sp, #144]            // 16-byte Folded Spill
	add	x29, sp, #128
	stp	x24, x23, [sp, #176]            // 16-byte Folded Spill
	stp	x22, x21, [sp, #192]            // 16-byte Folded Spill
	b.hs	.LBB64_2
// %bb.1:
	mov	x8, xzr
	mov	w0, #9                          // =0x9
	b	.LBB64_6
.LBB64_2:                               // %join.3.i.i.i.i
	cmp	x3, #4
	mov	w9, #40                         // =0x28
	mov	w10, #44                        // =0x2c
	csel	x21, x10, x9, eq
	mov	w9, #9                          // =0x9
	mov	w10, #20                        // =0x14
	cmp	x7, x21
	mov	x27, x0
	csel	x9, x9, xzr, lo
	cmp	x5, #8, lsl #12                 // =32768
	csel	x0, x10, x9, hi
	cbz	x0, .LBB64_4
// %bb.3:
	mov	x8, xzr
	b	.LBB64_6
.LBB64_4:                               // %join.6.i.i.i.i
	adrp	x9, .LCPI64_0
	add	x19, x4, x8
	mov	x28, x2
	ldr	d0, [x9, :lo12:.LCPI64_0]
	mov	x23, x3
	add	x0, sp, #40
	add	x4, sp, #24
	mov	x2, x5
	add	x5, sp, #8
	mov	x1, x19
	mov	x3, xzr
	mov	x22, x6
	mov	x24, x7
	stp	xzr, xzr, [sp, #48]
	mov	x25, x2
	str	xzr, [sp, #40]
	strh	wzr, [sp, #32]
	strh	wzr, [sp, #16]
	str	d0, [sp, #24]
	str	d0, [sp, #8]
	bl	"records::record_at"
	ldrb	w8, [sp, #40]
	cbz	w8, .LBB64_8
// %bb.5:                               // %"gathered::composed.exit.thread.i.i.i.i"
	ldrb	w0, [sp, #48]
	ldr	x8, [sp, #56]
.LBB64_6:                               // %arm.1.i.i.i.i
	bfi	x0, x8, #8, #56
.LBB64_7:                               // %"tteuyomal_c::two_queues::tteuyomal_queue_compose.exit"
	ldp	x20, x19, [sp, #208]            // 16-byte Folded Reload
	ldp	x22, x21, [sp, #192]            // 16-byte Folded Reload
	ldp	x24, x23, [sp, #176]            // 16-byte Folded Reload
	ldp	x26, x25, [sp, #160]            // 16-byte Folded Reload
	ldp	x28, x27, [sp, #144]            // 16-byte Folded Reload
	ldp	x29, x30, [sp, #128]            // 16-byte Folded Reload
	add	sp, sp, #224
	ret
.LBB64_8:                               // %arm.1.i.i.i.i.i
	add	x8, x27, x26
	mov	x10, x25
	mov	x9, x28
	cbz	x25, .LBB64_11
// %bb.9:                               // %"records::byte_at.exit.i.i.i.i.i.i.i.i.i"
	ldrb	w11, [x19]
	cmp	x10, #1
	b.eq	.LBB64_12
// %bb.10:                              // %then.1.i6.i.i.i.i.i.i.i.i.i
	ldrb	w12, [x19, #1]
	orr	x11, x11, x12, lsl #8
	b	.LBB64_12
.LBB64_11:
	mov	x11, xzr
.LBB64_12:                              // %"records::payload_at.exit.i.i.i.i.i.i.i"
	subs	x12, x10, #4
	mov	w13, #4                         // =0x4
	movi	v0.2d, #0000000000000000
	csel	x13, x10, x13, lo
	cmp	x12, x11
	mov	w14, #4224                      // =0x1080
	csel	x11, x12, x11, lo
	cmp	x10, #4
	add	x0, sp, #64
	csel	x4, xzr, x11, lo
	cmp	x9, #0
	add	x3, x19, x13
	csel	x9, xzr, x14, eq
	mov	w2, #4224                       // =0x1080
	str	xzr, [sp, #112]
	add	x1, x8, x9
	stp	q0, q0, [sp, #80]
	str	q0, [sp, #64]
	bl	"summaries::compose"
	ldrb	w9, [sp, #64]
	ldr	x0, [sp, #72]
	cbz	w9, .LBB64_15
// %bb.13:                              // %"records::payload_at.exit.i.i.i.i.i.i.i"
	ldr	x8, [sp, #80]
	cmp	w9, #1
	b.ne	.LBB64_6
// %bb.14:                              // %"core::result::ResultTry::branch::<14'block::Indices,14'reply::Refusal>.exit.i.i.i.i.i.i"
	add	x8, x8, x8, lsl #1
	lsl	x8, x8, #1
	b	.LBB64_6
.LBB64_15:                              // %arm.1.i.i.i.i.i.i
	cbz	x25, .LBB64_19
// %bb.16:                              // %"records::byte_at.exit.i.i.i.i.i.i.i.i"
	ldrb	w8, [x19]
	cmp	x25, #1
	b.eq	.LBB64_18
// %bb.17:                              // %then.1.i6.i.i.i.i.i.i.i.i
	ldrb	w9, [x19, #1]
	orr	x8, x8, x9, lsl #8
.LBB64_18:                              // %"records::byte_at.exit9.i.i.i.i.i.i.i.i"
	add	x8, x8, #4
	b	.LBB64_20
.LBB64_19:
	mov	w8, #4                          // =0x4
.LBB64_20:                              // %"records::le16_at.exit.i.i.i.i.i.i.i"
	cmp	x8, x25
	b.hs	.LBB64_22
// %bb.21:
	mov	w0, #11                         // =0xb
	b	.LBB64_6
.LBB64_22:                              // %arm.7.i.i.i.i
	cmp	x24, x21
	b.lo	.LBB64_28
// %bb.23:                              // %"sheets::put_five.exit.i.i.i.i.i.i"
	cmp	x23, #4
	mov	w9, #36                         // =0x24
	mov	w10, #40                        // =0x28
	add	x8, x22, x20
	csel	w9, w10, w9, eq
	mov	w10, #3                         // =0x3
	ldp	q0, q1, [sp, #80]
	strb	w9, [x8]
	ldr	x9, [sp, #112]
	cinc	w10, w10, eq
	strb	wzr, [x8, #1]
	strb	w10, [x8, #2]
	strb	wzr, [x8, #3]
	str	w0, [x8, #4]
	stur	q0, [x8, #8]
	stur	q1, [x8, #24]
	b.ne	.LBB64_28
// %bb.24:                              // %arm.2.i.i.i.i.i.i
	cmp	x24, #44
	b.lo	.LBB64_26
// %bb.25:                              // %then.4.i.i.i.i.i.i.i
	mov	x0, xzr
	str	w9, [x8, #40]
	b	.LBB64_7
.LBB64_26:                              // %join.6.i.i.i.i.i.i.i
	cmp	x24, #41
	b.lo	.LBB64_28
// %bb.27:                              // %join.5.i.i.preheader.i.i.i.i.i.i
	sub	x10, x24, #1
	strb	w9, [x8, #40]
	cmp	x10, #40
	b.ne	.LBB64_29
.LBB64_28:
	mov	x0, xzr
	b	.LBB64_7
.LBB64_29:                              // %join.5.i.i.i.i.i.i.i.i.1
	lsr	x11, x9, #8
	cmp	x10, #41
	mov	x0, xzr
	strb	w11, [x8, #41]
	b.eq	.LBB64_7
// %bb.30:                              // %join.5.i.i.i.i.i.i.i.i.2
	lsr	x9, x9, #16
	strb	w9, [x8, #42]
	b	.LBB64_7
.Lfunc_end64:
	.size	tteuyomal_queue_compose, .Lfunc_end64-tteuyomal_queue_compose
                                        // -- End function
	.section	.text.tteuyomal_queue_drop,"ax",@progbits
	.globl	tteuyomal_queue_drop            // -- Begin function tteuyomal_queue_drop
	.p2align	2
	.type	tteuyomal_queue_drop,@function
tteuyomal_queue_drop:                   // @tteuyomal_queue_drop
// %bb.0:                               // %start
	lsr	x8, x1, #8
	cmp	x8, #33
	b.hs	.LBB65_2
// %bb.1:
	mov	w0, #9                          // =0x9
	ret
.LBB65_2:                               // %join.3.i.i.i.i
	cmp	x0, #0
	mov	w8, #4096                       // =0x1000
	mov	w9, #4224                       // =0x1080
	csel	x8, x8, xzr, eq
	cmp	x2, #0
	add	x8, x0, x8
	csel	x9, xzr, x9, eq
	add	x8, x8, x9
	and	w9, w3, #0xffff
	ldrh	w10, [x8]
	cmp	w10, w9
	mov	x10, xzr
	b.eq	.LBB65_16
// %bb.3:                               // %join.8.i.i.i.i.i.i
	ldrh	w10, [x8, #528]
	cmp	w10, w9
	b.ne	.LBB65_5
// %bb.4:
	mov	w10, #1                         // =0x1
	b	.LBB65_16
.LBB65_5:                               // %join.8.1.i.i.i.i.i.i
	ldrh	w10, [x8, #1056]
	cmp	w10, w9
	b.ne	.LBB65_7
// %bb.6:
	mov	w10, #2                         // =0x2
	b	.LBB65_16
.LBB65_7:                               // %join.8.2.i.i.i.i.i.i
	ldrh	w10, [x8, #1584]
	cmp	w10, w9
	b.ne	.LBB65_9
// %bb.8:
	mov	w10, #3                         // =0x3
	b	.LBB65_16
.LBB65_9:                               // %join.8.3.i.i.i.i.i.i
	ldrh	w10, [x8, #2112]
	cmp	w10, w9
	b.ne	.LBB65_11
// %bb.10:
	mov	w10, #4                         // =0x4
	b	.LBB65_16
.LBB65_11:                              // %join.8.4.i.i.i.i.i.i
	ldrh	w10, [x8, #2640]
	cmp	w10, w9
	b.ne	.LBB65_13
// %bb.12:
	mov	w10, #5                         // =0x5
	b	.LBB65_16
.LBB65_13:                              // %join.8.5.i.i.i.i.i.i
	ldrh	w10, [x8, #3168]
	cmp	w10, w9
	b.ne	.LBB65_15
// %bb.14:
	mov	w10, #6                         // =0x6
	b	.LBB65_16
.LBB65_15:                              // %join.8.6.i.i.i.i.i.i
	ldrh	w10, [x8, #3696]
	cmp	w10, w9
	mov	w10, #7                         // =0x7
	cinc	x10, x10, ne
.LBB65_16:                              // %"queues::places::place_of.exit.i.i.i.i.i"
	mov	w0, #30                         // =0x1e
	cbz	w9, .LBB65_19
// %bb.17:                              // %"queues::places::place_of.exit.i.i.i.i.i"
	cmp	x10, #7
	b.hi	.LBB65_19
// %bb.18:                              // %"queues::drop.exit.i.i.i"
	mov	w9, #528                        // =0x210
	mov	x0, xzr
	umull	x9, w10, w9
	strh	wzr, [x8, x9]
.LBB65_19:                              // %"tteuyomal_c::two_queues::tteuyomal_queue_drop.exit"
	ret
.Lfunc_end65:
	.size	tteuyomal_queue_drop, .Lfunc_end65-tteuyomal_queue_drop
                                        // -- End function
	.section	.text.tteuyomal_queue_empty,"ax",@progbits
	.globl	tteuyomal_queue_empty           // -- Begin function tteuyomal_queue_empty
	.p2align	2
	.type	tteuyomal_queue_empty,@function
tteuyomal_queue_empty:                  // @tteuyomal_queue_empty
// %bb.0:                               // %start
	lsr	x8, x1, #8
	cmp	x8, #33
	b.hs	.LBB66_2
// %bb.1:
	mov	w0, #9                          // =0x9
	ret
.LBB66_2:                               // %"queues::empty.exit.thread.i.i.i"
	stp	x29, x30, [sp, #-16]!           // 16-byte Folded Spill
	cmp	x0, #0
	mov	w8, #4096                       // =0x1000
	mov	w1, wzr
	csel	x8, x8, xzr, eq
	mov	w2, #8448                       // =0x2100
	mov	x29, sp
	add	x0, x0, x8
	bl	memset
	mov	x0, xzr
	ldp	x29, x30, [sp], #16             // 16-byte Folded Reload
	ret
.Lfunc_end66:
	.size	tteuyomal_queue_empty, .Lfunc_end66-tteuyomal_queue_empty
                                        // -- End function
	.section	.text.tteuyomal_queue_look,"ax",@progbits
	.globl	tteuyomal_queue_look            // -- Begin function tteuyomal_queue_look
	.p2align	2
	.type	tteuyomal_queue_look,@function
tteuyomal_queue_look:                   // @tteuyomal_queue_look
// %bb.0:                               // %start
	lsr	x9, x1, #8
	cmp	x4, #0
	mov	w8, #4096                       // =0x1000
	csel	x8, x8, xzr, eq
	cmp	x9, #33
	b.hs	.LBB67_2
// %bb.1:
	mov	w0, #9                          // =0x9
	ret
.LBB67_2:                               // %join.3.i.i.i.i
	cmp	x0, #0
	mov	w9, #4096                       // =0x1000
	mov	w10, #4224                      // =0x1080
	csel	x9, x9, xzr, eq
	cmp	x2, #0
	add	x9, x0, x9
	csel	x10, xzr, x10, eq
	add	x9, x9, x10
	and	w10, w3, #0xffff
	ldrh	w11, [x9]
	cmp	w11, w10
	mov	x11, xzr
	b.eq	.LBB67_16
// %bb.3:                               // %join.8.i.i.i.i.i.i
	ldrh	w11, [x9, #528]
	cmp	w11, w10
	b.ne	.LBB67_5
// %bb.4:
	mov	w11, #1                         // =0x1
	b	.LBB67_16
.LBB67_5:                               // %join.8.1.i.i.i.i.i.i
	ldrh	w11, [x9, #1056]
	cmp	w11, w10
	b.ne	.LBB67_7
// %bb.6:
	mov	w11, #2                         // =0x2
	b	.LBB67_16
.LBB67_7:                               // %join.8.2.i.i.i.i.i.i
	ldrh	w11, [x9, #1584]
	cmp	w11, w10
	b.ne	.LBB67_9
// %bb.8:
	mov	w11, #3                         // =0x3
	b	.LBB67_16
.LBB67_9:                               // %join.8.3.i.i.i.i.i.i
	ldrh	w11, [x9, #2112]
	cmp	w11, w10
	b.ne	.LBB67_11
// %bb.10:
	mov	w11, #4                         // =0x4
	b	.LBB67_16
.LBB67_11:                              // %join.8.4.i.i.i.i.i.i
	ldrh	w11, [x9, #2640]
	cmp	w11, w10
	b.ne	.LBB67_13
// %bb.12:
	mov	w11, #5                         // =0x5
	b	.LBB67_16
.LBB67_13:                              // %join.8.5.i.i.i.i.i.i
	ldrh	w11, [x9, #3168]
	cmp	w11, w10
	b.ne	.LBB67_15
// %bb.14:
	mov	w11, #6                         // =0x6
	b	.LBB67_16
.LBB67_15:                              // %join.8.6.i.i.i.i.i.i
	ldrh	w11, [x9, #3696]
	cmp	w11, w10
	mov	w11, #7                         // =0x7
	cinc	x11, x11, ne
.LBB67_16:                              // %"queues::places::place_of.exit.i.i.i.i.i"
	mov	w0, #30                         // =0x1e
	cbz	w10, .LBB67_21
// %bb.17:                              // %"queues::places::place_of.exit.i.i.i.i.i"
	cmp	x11, #7
	b.hi	.LBB67_21
// %bb.18:                              // %arm.2.i.i.i.i
	cmp	x5, #6
	b.hs	.LBB67_20
// %bb.19:
	mov	w0, #9                          // =0x9
	ret
.LBB67_20:                              // %join.5.i.i.preheader.i.i.i.i.i
	mov	w10, #528                       // =0x210
	mov	x0, xzr
	add	x8, x4, x8
	umaddl	x9, w11, w10, x9
	mov	w11, #64                        // =0x40
	ldrb	w10, [x9, #2]
	ldr	d0, [x9, #8]
	cmp	w10, #64
	ushll	v0.2d, v0.2s, #0
	csel	w10, w10, w11, lo
	ldp	w12, w11, [x9, #4]
	ldrb	w9, [x9, #3]
	str	x10, [x8]
	stur	q0, [x8, #24]
	add	x11, x12, x11
	str	x9, [x8, #40]
	stp	x11, x12, [x8, #8]
.LBB67_21:                              // %"tteuyomal_c::two_queues::tteuyomal_queue_look.exit"
	ret
.Lfunc_end67:
	.size	tteuyomal_queue_look, .Lfunc_end67-tteuyomal_queue_look
                                        // -- End function
	.section	.text.tteuyomal_read_molfile,"ax",@progbits
	.globl	tteuyomal_read_molfile          // -- Begin function tteuyomal_read_molfile
	.p2align	2
	.type	tteuyomal_read_molfile,@function
tteuyomal_read_molfile:                 // @tteuyomal_read_molfile
// %bb.0:                               // %start
	stp	x29, x30, [sp, #-96]!           // 16-byte Folded Spill
	stp	x28, x27, [sp, #16]             // 16-byte Folded Spill
	mov	x29, sp
	stp	x26, x25, [sp, #32]             // 16-byte Folded Spill
	stp	x24, x23, [sp, #48]             // 16-byte Folded Spill
	stp	x22, x21, [sp, #64]             // 16-byte Folded Spill
	stp	x20, x19, [sp, #80]             // 16-byte Folded Spill
	sub	sp, sp, #1712
	cmp	x0, #0
	mov	w8, #4096                       // =0x1000
	mov	x20, x0
	csel	x27, x8, xzr, eq
	cmp	x2, #0
	mov	x19, x1
	csel	x22, x8, xzr, eq
	cmp	x4, #0
	add	x21, sp, #32
	csel	x24, x8, xzr, eq
	cmp	x5, #1
	str	xzr, [sp]
	b.hi	.LBB68_5
// %bb.1:                               // %then.1.i.i.i
	add	x0, sp, #430
	mov	w1, wzr
	mov	w2, #770                        // =0x302
	stp	xzr, xzr, [sp, #8]
	str	xzr, [sp, #24]
	bl	memset
	add	x0, sp, #8
	add	x1, x20, x27
	add	x3, sp, #430
	mov	x2, x19
	mov	w4, #385                        // =0x181
	bl	"molfile::kept_bonds"
	ldp	x0, x19, [sp, #16]
	ldrb	w8, [sp, #8]
	cbnz	w8, .LBB68_38
// %bb.2:                               // %arm.3.i.i.i.i
	movi	v0.2d, #0000000000000000
	strb	wzr, [sp, #416]
	stp	q0, q0, [x21, #128]
	stp	q0, q0, [x21, #160]
	stp	q0, q0, [x21, #192]
	stp	q0, q0, [x21, #224]
	stp	q0, q0, [x21, #256]
	stp	q0, q0, [x21, #288]
	stp	q0, q0, [x21, #320]
	stp	q0, q0, [x21, #352]
	str	q0, [x21, #112]
	stp	q0, q0, [sp, #48]
	stp	q0, q0, [sp, #80]
	stp	q0, q0, [sp, #112]
	str	q0, [sp, #32]
	cbz	x19, .LBB68_22
// %bb.3:                               // %iter.check11
	cmp	x19, #4
	b.hs	.LBB68_9
// %bb.4:
	mov	x8, xzr
	b	.LBB68_20
.LBB68_5:                               // %join.3.i.i.i
	mov	x23, x2
	add	x0, sp, #430
	mov	w1, wzr
	mov	w2, #770                        // =0x302
	mov	x26, x3
	mov	x25, x4
	stp	xzr, xzr, [sp, #8]
	str	xzr, [sp, #24]
	bl	memset
	add	x0, sp, #8
	add	x1, x20, x27
	add	x3, sp, #430
	mov	x2, x19
	mov	w4, #385                        // =0x181
	bl	"molfile::kept_bonds"
	ldp	x0, x19, [sp, #16]
	ldrb	w8, [sp, #8]
	cbnz	w8, .LBB68_38
// %bb.6:                               // %arm.3.i17.i.i.i
	movi	v0.2d, #0000000000000000
	strb	wzr, [sp, #416]
	stp	q0, q0, [x21, #128]
	stp	q0, q0, [x21, #160]
	stp	q0, q0, [x21, #192]
	stp	q0, q0, [x21, #224]
	stp	q0, q0, [x21, #256]
	stp	q0, q0, [x21, #288]
	stp	q0, q0, [x21, #320]
	stp	q0, q0, [x21, #352]
	str	q0, [x21, #112]
	stp	q0, q0, [sp, #48]
	stp	q0, q0, [sp, #80]
	stp	q0, q0, [sp, #112]
	str	q0, [sp, #32]
	cbz	x19, .LBB68_34
// %bb.7:                               // %iter.check
	cmp	x19, #4
	b.hs	.LBB68_11
// %bb.8:
	mov	x8, xzr
	b	.LBB68_32
.LBB68_9:                               // %vector.main.loop.iter.check13
	cmp	x19, #32
	b.hs	.LBB68_13
// %bb.10:
	mov	x8, xzr
	b	.LBB68_17
.LBB68_11:                              // %vector.main.loop.iter.check
	cmp	x19, #32
	b.hs	.LBB68_25
// %bb.12:
	mov	x8, xzr
	b	.LBB68_29
.LBB68_13:                              // %vector.ph14
	add	x10, sp, #32
	add	x11, sp, #430
	and	x9, x19, #0x1c
	and	x8, x19, #0xffffffffffffffe0
	add	x10, x10, #16
	add	x11, x11, #32
	and	x12, x19, #0xffffffffffffffe0
.LBB68_14:                              // %vector.body17
                                        // =>This Inner Loop Header: Depth=1
	ldp	q2, q1, [x11, #-32]
	subs	x12, x12, #32
	ldp	q4, q3, [x11], #64
	uzp1	v1.16b, v2.16b, v1.16b
	uzp1	v2.16b, v4.16b, v3.16b
	stp	q1, q2, [x10, #-16]
	add	x10, x10, #32
	b.ne	.LBB68_14
// %bb.15:                              // %middle.block22
	cmp	x19, x8
	b.eq	.LBB68_22
// %bb.16:                              // %vec.epilog.iter.check26
	cbz	x9, .LBB68_20
.LBB68_17:                              // %vec.epilog.ph28
	mov	x11, x8
	add	x9, sp, #430
	and	x8, x19, #0xfffffffffffffffc
	add	x12, sp, #32
	add	x9, x9, x11, lsl #1
	sub	x10, x11, x8
	add	x11, x12, x11
.LBB68_18:                              // %vec.epilog.vector.body31
                                        // =>This Inner Loop Header: Depth=1
	ldr	d1, [x9], #8
	adds	x10, x10, #4
	uzp1	v1.8b, v1.8b, v0.8b
	st1	{ v1.s }[0], [x11], #4
	b.ne	.LBB68_18
// %bb.19:                              // %vec.epilog.middle.block35
	cmp	x19, x8
	b.eq	.LBB68_22
.LBB68_20:                              // %join.5.i.i.i.i.i.preheader
	add	x9, sp, #430
	add	x11, sp, #32
	sub	x10, x19, x8
	add	x9, x9, x8, lsl #1
	add	x8, x11, x8
.LBB68_21:                              // %join.5.i.i.i.i.i
                                        // =>This Inner Loop Header: Depth=1
	ldrb	w11, [x9], #2
	subs	x10, x10, #1
	strb	w11, [x8], #1
	b.ne	.LBB68_21
.LBB68_22:                              // %"blockfile::narrow.exit.i.i.i.i"
	add	x1, sp, #32
	add	x3, sp, #1200
	mov	x2, x19
	str	q0, [x21, #1664]
	mov	x20, x0
	str	q0, [x21, #1648]
	str	q0, [x21, #1632]
	str	q0, [x21, #1616]
	str	q0, [x21, #1600]
	str	q0, [x21, #1584]
	str	q0, [x21, #1568]
	str	q0, [x21, #1552]
	str	q0, [x21, #1536]
	str	q0, [x21, #1520]
	str	q0, [x21, #1504]
	str	q0, [x21, #1488]
	str	q0, [x21, #1472]
	str	q0, [x21, #1456]
	str	q0, [x21, #1440]
	str	q0, [x21, #1424]
	str	q0, [x21, #1408]
	str	q0, [x21, #1392]
	str	q0, [x21, #1376]
	str	q0, [x21, #1360]
	str	q0, [x21, #1344]
	str	q0, [x21, #1328]
	str	q0, [x21, #1312]
	str	q0, [x21, #1296]
	str	q0, [x21, #1280]
	str	q0, [x21, #1264]
	str	q0, [x21, #1248]
	str	q0, [x21, #1232]
	str	q0, [x21, #1216]
	str	q0, [x21, #1200]
	str	q0, [x21, #1184]
	str	q0, [x21, #1168]
	bl	"block::admit"
	cbz	w0, .LBB68_37
// %bb.23:                              // %arm.1.i.i.i.i.i
	cmp	x19, #1
	b.hi	.LBB68_36
// %bb.24:                              // %join.7.i.i.i.i.i
	mov	w0, #9                          // =0x9
	b	.LBB68_39
.LBB68_25:                              // %vector.ph
	add	x10, sp, #32
	add	x11, sp, #430
	and	x9, x19, #0x1c
	and	x8, x19, #0xffffffffffffffe0
	add	x10, x10, #16
	add	x11, x11, #32
	and	x12, x19, #0xffffffffffffffe0
.LBB68_26:                              // %vector.body
                                        // =>This Inner Loop Header: Depth=1
	ldp	q2, q1, [x11, #-32]
	subs	x12, x12, #32
	ldp	q4, q3, [x11], #64
	uzp1	v1.16b, v2.16b, v1.16b
	uzp1	v2.16b, v4.16b, v3.16b
	stp	q1, q2, [x10, #-16]
	add	x10, x10, #32
	b.ne	.LBB68_26
// %bb.27:                              // %middle.block
	cmp	x19, x8
	b.eq	.LBB68_34
// %bb.28:                              // %vec.epilog.iter.check
	cbz	x9, .LBB68_32
.LBB68_29:                              // %vec.epilog.ph
	mov	x11, x8
	add	x9, sp, #430
	and	x8, x19, #0xfffffffffffffffc
	add	x12, sp, #32
	add	x9, x9, x11, lsl #1
	sub	x10, x11, x8
	add	x11, x12, x11
.LBB68_30:                              // %vec.epilog.vector.body
                                        // =>This Inner Loop Header: Depth=1
	ldr	d1, [x9], #8
	adds	x10, x10, #4
	uzp1	v1.8b, v1.8b, v0.8b
	st1	{ v1.s }[0], [x11], #4
	b.ne	.LBB68_30
// %bb.31:                              // %vec.epilog.middle.block
	cmp	x19, x8
	b.eq	.LBB68_34
.LBB68_32:                              // %join.5.i.i19.i.i.i.preheader
	add	x9, sp, #430
	add	x11, sp, #32
	sub	x10, x19, x8
	add	x9, x9, x8, lsl #1
	add	x8, x11, x8
.LBB68_33:                              // %join.5.i.i19.i.i.i
                                        // =>This Inner Loop Header: Depth=1
	ldrb	w11, [x9], #2
	subs	x10, x10, #1
	strb	w11, [x8], #1
	b.ne	.LBB68_33
.LBB68_34:                              // %"blockfile::narrow.exit.i28.i.i.i"
	add	x1, sp, #32
	add	x3, sp, #1200
	mov	x2, x19
	str	q0, [x21, #1664]
	mov	x20, x0
	str	q0, [x21, #1648]
	str	q0, [x21, #1632]
	str	q0, [x21, #1616]
	str	q0, [x21, #1600]
	str	q0, [x21, #1584]
	str	q0, [x21, #1568]
	str	q0, [x21, #1552]
	str	q0, [x21, #1536]
	str	q0, [x21, #1520]
	str	q0, [x21, #1504]
	str	q0, [x21, #1488]
	str	q0, [x21, #1472]
	str	q0, [x21, #1456]
	str	q0, [x21, #1440]
	str	q0, [x21, #1424]
	str	q0, [x21, #1408]
	str	q0, [x21, #1392]
	str	q0, [x21, #1376]
	str	q0, [x21, #1360]
	str	q0, [x21, #1344]
	str	q0, [x21, #1328]
	str	q0, [x21, #1312]
	str	q0, [x21, #1296]
	str	q0, [x21, #1280]
	str	q0, [x21, #1264]
	str	q0, [x21, #1248]
	str	q0, [x21, #1232]
	str	q0, [x21, #1216]
	str	q0, [x21, #1200]
	str	q0, [x21, #1184]
	str	q0, [x21, #1168]
	bl	"block::admit"
	cbz	w0, .LBB68_37
// %bb.35:                              // %arm.1.i.i40.i.i.i
	cmp	x26, x19
	b.hs	.LBB68_40
.LBB68_36:
	mov	x19, xzr
	mov	w0, #9                          // =0x9
	b	.LBB68_38
.LBB68_37:                              // %arm.2.i.i30.i.i.i
	add	x1, sp, #32
	mov	x0, x20
	mov	x2, x19
	bl	"block::refusal"
	mov	x19, x1
.LBB68_38:                              // %arm.1.i57.i.i.i
	bfi	x0, x19, #8, #56
.LBB68_39:                              // %"tteuyomal_c::texts::tteuyomal_read_molfile.exit"
	add	sp, sp, #1712
	ldp	x20, x19, [sp, #80]             // 16-byte Folded Reload
	ldp	x22, x21, [sp, #64]             // 16-byte Folded Reload
	ldp	x24, x23, [sp, #48]             // 16-byte Folded Reload
	ldp	x26, x25, [sp, #32]             // 16-byte Folded Reload
	ldp	x28, x27, [sp, #16]             // 16-byte Folded Reload
	ldp	x29, x30, [sp], #96             // 16-byte Folded Reload
	ret
.LBB68_40:                              // %join.7.i.i42.i.i.i
	add	x21, x25, x24
	cbz	x19, .LBB68_42
// %bb.41:                              // %join.5.i10.preheader.i.i43.i.i.i
	add	x0, x23, x22
	add	x1, sp, #32
	mov	x2, x19
	bl	memcpy
.LBB68_42:                              // %join.5.i.i.preheader.i54.i.i.i
	lsr	x8, x19, #1
	mov	x0, xzr
	stp	x20, x8, [x21]
	b	.LBB68_39
.Lfunc_end68:
	.size	tteuyomal_read_molfile, .Lfunc_end68-tteuyomal_read_molfile
                                        // -- End function
	.section	.text.tteuyomal_read_neighbours,"ax",@progbits
	.globl	tteuyomal_read_neighbours       // -- Begin function tteuyomal_read_neighbours
	.p2align	2
	.type	tteuyomal_read_neighbours,@function
tteuyomal_read_neighbours:              // @tteuyomal_read_neighbours
// %bb.0:                               // %start
	sub	sp, sp, #96
	cmp	x0, #0
	mov	w11, #4096                      // =0x1000
	stp	x20, x19, [sp, #80]             // 16-byte Folded Spill
	csel	x10, x11, xzr, eq
	cmp	x4, #0
	mov	x19, x4
	mov	x9, x1
	mov	x8, x0
	csel	x20, x11, xzr, eq
	cmp	x5, #1
	stp	x29, x30, [sp, #64]             // 16-byte Folded Spill
	add	x29, sp, #64
	stp	xzr, xzr, [sp, #32]
	str	xzr, [sp, #48]
	stp	xzr, xzr, [sp, #16]
	str	xzr, [sp, #8]
	b.hi	.LBB69_3
// %bb.1:                               // %then.1.i.i.i
	add	x0, sp, #32
	add	x1, x8, x10
	sub	x3, x29, #1
	mov	x2, x9
	mov	w4, #1                          // =0x1
	bl	"neighbours::read"
	ldrb	w8, [sp, #32]
	cmp	w8, #1
	b.ne	.LBB69_5
// %bb.2:                               // %arm.1.i.i.i.i
	ldr	x8, [sp, #48]
	ldrb	w9, [sp, #40]
	orr	x0, x9, x8, lsl #8
	ldp	x20, x19, [sp, #80]             // 16-byte Folded Reload
	ldp	x29, x30, [sp, #64]             // 16-byte Folded Reload
	add	sp, sp, #96
	ret
.LBB69_3:                               // %join.3.i.i.i
	cmp	x2, #0
	mov	w11, #4096                      // =0x1000
	mov	x4, x3
	csel	x11, x11, xzr, eq
	add	x0, sp, #8
	add	x1, x8, x10
	add	x3, x2, x11
	mov	x2, x9
	bl	"neighbours::read"
	ldrb	w9, [sp, #8]
	ldp	x0, x8, [sp, #16]
	cmp	w9, #1
	b.ne	.LBB69_6
// %bb.4:                               // %arm.1.i15.i.i.i
	bfi	x0, x8, #8, #56
	ldp	x20, x19, [sp, #80]             // 16-byte Folded Reload
	ldp	x29, x30, [sp, #64]             // 16-byte Folded Reload
	add	sp, sp, #96
	ret
.LBB69_5:
	mov	w0, #9                          // =0x9
	ldp	x20, x19, [sp, #80]             // 16-byte Folded Reload
	ldp	x29, x30, [sp, #64]             // 16-byte Folded Reload
	add	sp, sp, #96
	ret
.LBB69_6:                               // %join.5.i.i.preheader.i12.i.i.i
	add	x9, x19, x20
	stp	x0, x8, [x9]
	mov	x0, xzr
	ldp	x20, x19, [sp, #80]             // 16-byte Folded Reload
	ldp	x29, x30, [sp, #64]             // 16-byte Folded Reload
	add	sp, sp, #96
	ret
.Lfunc_end69:
	.size	tteuyomal_read_neighbours, .Lfunc_end69-tteuyomal_read_neighbours
                                        // -- End function
	.section	.text.tteuyomal_read_whole,"ax",@progbits
	.globl	tteuyomal_read_whole            // -- Begin function tteuyomal_read_whole
	.p2align	2
	.type	tteuyomal_read_whole,@function
tteuyomal_read_whole:                   // @tteuyomal_read_whole
// %bb.0:                               // %start
	sub	sp, sp, #96
	cmp	x0, #0
	mov	w11, #4096                      // =0x1000
	stp	x20, x19, [sp, #80]             // 16-byte Folded Spill
	csel	x10, x11, xzr, eq
	cmp	x4, #0
	mov	x19, x4
	mov	x9, x1
	mov	x8, x0
	csel	x20, x11, xzr, eq
	cmp	x5, #1
	stp	x29, x30, [sp, #64]             // 16-byte Folded Spill
	add	x29, sp, #64
	stp	xzr, xzr, [sp, #32]
	str	xzr, [sp, #48]
	stp	xzr, xzr, [sp, #16]
	str	xzr, [sp, #8]
	b.hi	.LBB70_3
// %bb.1:                               // %then.1.i.i.i
	add	x0, sp, #32
	add	x1, x8, x10
	sub	x3, x29, #2
	mov	x2, x9
	mov	w4, #1                          // =0x1
	bl	"wholefile::read_whole"
	ldrb	w8, [sp, #32]
	cmp	w8, #1
	b.ne	.LBB70_5
// %bb.2:                               // %arm.1.i.i.i.i
	ldr	x8, [sp, #48]
	ldrb	w9, [sp, #40]
	orr	x0, x9, x8, lsl #8
	ldp	x20, x19, [sp, #80]             // 16-byte Folded Reload
	ldp	x29, x30, [sp, #64]             // 16-byte Folded Reload
	add	sp, sp, #96
	ret
.LBB70_3:                               // %join.3.i.i.i
	cmp	x2, #0
	mov	w11, #4096                      // =0x1000
	mov	x4, x3
	csel	x11, x11, xzr, eq
	add	x0, sp, #8
	add	x1, x8, x10
	add	x3, x2, x11
	mov	x2, x9
	bl	"wholefile::read_whole"
	ldrb	w9, [sp, #8]
	ldp	x0, x8, [sp, #16]
	cmp	w9, #1
	b.ne	.LBB70_6
// %bb.4:                               // %arm.1.i15.i.i.i
	bfi	x0, x8, #8, #56
	ldp	x20, x19, [sp, #80]             // 16-byte Folded Reload
	ldp	x29, x30, [sp, #64]             // 16-byte Folded Reload
	add	sp, sp, #96
	ret
.LBB70_5:
	mov	w0, #9                          // =0x9
	ldp	x20, x19, [sp, #80]             // 16-byte Folded Reload
	ldp	x29, x30, [sp, #64]             // 16-byte Folded Reload
	add	sp, sp, #96
	ret
.LBB70_6:                               // %join.5.i.i.preheader.i12.i.i.i
	add	x9, x19, x20
	stp	x0, x8, [x9]
	mov	x0, xzr
	ldp	x20, x19, [sp, #80]             // 16-byte Folded Reload
	ldp	x29, x30, [sp, #64]             // 16-byte Folded Reload
	add	sp, sp, #96
	ret
.Lfunc_end70:
	.size	tteuyomal_read_whole, .Lfunc_end70-tteuyomal_read_whole
                                        // -- End function
	.section	.text.tteuyomal_sdf_item,"ax",@progbits
	.globl	tteuyomal_sdf_item              // -- Begin function tteuyomal_sdf_item
	.p2align	2
	.type	tteuyomal_sdf_item,@function
tteuyomal_sdf_item:                     // @tteuyomal_sdf_item
// %bb.0:                               // %start
	stp	d15, d14, [sp, #-160]!          // 16-byte Folded Spill
	stp	d13, d12, [sp, #16]             // 16-byte Folded Spill
	stp	d11, d10, [sp, #32]             // 16-byte Folded Spill
	stp	d9, d8, [sp, #48]               // 16-byte Folded Spill
	stp	x29, x30, [sp, #64]             // 16-byte Folded Spill
	add	x29, sp, #64
	stp	x28, x27, [sp, #80]             // 16-byte Folded Spill
	stp	x26, x25, [sp, #96]             // 16-byte Folded Spill
	stp	x24, x23, [sp, #112]            // 16-byte Folded Spill
	stp	x22, x21, [sp, #128]            // 16-byte Folded Spill
	stp	x20, x19, [sp, #144]            // 16-byte Folded Spill
	sub	sp, sp, #3072
	str	xzr, [sp]
	sub	sp, sp, #2000
	cmp	x0, #0
	mov	w9, #4096                       // =0x1000
	str	xzr, [sp]
	csel	x8, x9, xzr, eq
	cmp	x2, #0
	csel	x25, x9, xzr, eq
	cmp	x4, #0
	csel	x24, x9, xzr, eq
	cbz	x3, .LBB71_20
// %bb.1:                               // %iter.check
	mov	x20, x3
	mov	x21, x2
	mov	x19, x1
	cmp	x3, #8
	b.hs	.LBB71_3
// %bb.2:
	mov	x11, xzr
	mov	x9, xzr
	b	.LBB71_12
.LBB71_3:                               // %vector.main.loop.iter.check
	cmp	x20, #32
	b.hs	.LBB71_5
// %bb.4:
	mov	x9, xzr
	mov	x11, xzr
	b	.LBB71_9
.LBB71_5:                               // %vector.ph
	movi	v1.2d, #0000000000000000
	movi	v2.2d, #0000000000000000
	add	x11, x25, x21
	movi	v6.2d, #0000000000000000
	movi	v25.2d, #0000000000000000
	and	x10, x20, #0x18
	movi	v17.2d, #0000000000000000
	movi	v4.2d, #0000000000000000
	and	x9, x20, #0xffffffffffffffe0
	movi	v5.2d, #0000000000000000
	movi	v3.2d, #0000000000000000
	add	x11, x11, #16
	movi	v21.2d, #0000000000000000
	movi	v16.2d, #0000000000000000
	and	x12, x20, #0xffffffffffffffe0
	movi	v7.2d, #0000000000000000
	movi	v22.2d, #0000000000000000
	movi	v19.2d, #0000000000000000
	movi	v20.2d, #0000000000000000
	movi	v18.2d, #0000000000000000
	movi	v23.2d, #0000000000000000
.LBB71_6:                               // %vector.body
                                        // =>This Inner Loop Header: Depth=1
	movi	v24.16b, #60
	str	q25, [sp]                       // 16-byte Spill
	mov	w13, #1                         // =0x1
	ldp	q25, q26, [x11, #-16]
	dup	v28.2d, x13
	subs	x12, x12, #32
	add	x11, x11, #32
	cmeq	v25.16b, v25.16b, v24.16b
	cmeq	v24.16b, v26.16b, v24.16b
	ushll	v26.8h, v25.8b, #0
	ushll2	v25.8h, v25.16b, #0
	ushll	v27.8h, v24.8b, #0
	ushll2	v24.8h, v24.16b, #0
	ushll	v30.4s, v25.4h, #0
	ushll2	v25.4s, v25.8h, #0
	ushll	v29.4s, v26.4h, #0
	ushll2	v26.4s, v26.8h, #0
	ushll	v31.4s, v27.4h, #0
	ushll2	v27.4s, v27.8h, #0
	ushll	v8.4s, v24.4h, #0
	ushll2	v24.4s, v24.8h, #0
	ushll	v12.2d, v25.2s, #0
	ushll2	v25.2d, v25.4s, #0
	ushll	v9.2d, v29.2s, #0
	ushll2	v29.2d, v29.4s, #0
	ushll	v10.2d, v26.2s, #0
	ushll	v11.2d, v30.2s, #0
	ushll2	v26.2d, v26.4s, #0
	ushll2	v30.2d, v30.4s, #0
	ushll	v13.2d, v31.2s, #0
	ushll2	v31.2d, v31.4s, #0
	ushll	v14.2d, v27.2s, #0
	ushll	v15.2d, v8.2s, #0
	ushll2	v27.2d, v27.4s, #0
	ushll2	v8.2d, v8.4s, #0
	ushll	v0.2d, v24.2s, #0
	ushll2	v24.2d, v24.4s, #0
	and	v25.16b, v25.16b, v28.16b
	and	v9.16b, v9.16b, v28.16b
	and	v29.16b, v29.16b, v28.16b
	and	v10.16b, v10.16b, v28.16b
	and	v11.16b, v11.16b, v28.16b
	and	v26.16b, v26.16b, v28.16b
	and	v30.16b, v30.16b, v28.16b
	and	v12.16b, v12.16b, v28.16b
	and	v13.16b, v13.16b, v28.16b
	and	v31.16b, v31.16b, v28.16b
	and	v14.16b, v14.16b, v28.16b
	and	v15.16b, v15.16b, v28.16b
	and	v27.16b, v27.16b, v28.16b
	and	v8.16b, v8.16b, v28.16b
	and	v0.16b, v0.16b, v28.16b
	and	v24.16b, v24.16b, v28.16b
	add	v21.2d, v21.2d, v25.2d
	ldr	q25, [sp]                       // 16-byte Reload
	add	v3.2d, v3.2d, v12.2d
	add	v5.2d, v5.2d, v30.2d
	add	v17.2d, v17.2d, v26.2d
	add	v4.2d, v4.2d, v11.2d
	add	v6.2d, v6.2d, v29.2d
	add	v25.2d, v25.2d, v10.2d
	add	v2.2d, v2.2d, v9.2d
	add	v23.2d, v23.2d, v24.2d
	add	v18.2d, v18.2d, v0.2d
	add	v20.2d, v20.2d, v8.2d
	add	v22.2d, v22.2d, v27.2d
	add	v19.2d, v19.2d, v15.2d
	add	v7.2d, v7.2d, v14.2d
	add	v1.2d, v1.2d, v31.2d
	add	v16.2d, v16.2d, v13.2d
	b.ne	.LBB71_6
// %bb.7:                               // %middle.block
	add	v0.2d, v22.2d, v17.2d
	add	v17.2d, v23.2d, v21.2d
	cmp	x20, x9
	add	v1.2d, v1.2d, v6.2d
	add	v2.2d, v16.2d, v2.2d
	add	v4.2d, v19.2d, v4.2d
	add	v5.2d, v20.2d, v5.2d
	add	v6.2d, v7.2d, v25.2d
	add	v3.2d, v18.2d, v3.2d
	add	v0.2d, v0.2d, v17.2d
	add	v2.2d, v2.2d, v4.2d
	add	v3.2d, v6.2d, v3.2d
	add	v1.2d, v1.2d, v5.2d
	add	v2.2d, v2.2d, v3.2d
	add	v0.2d, v1.2d, v0.2d
	add	v0.2d, v2.2d, v0.2d
	addp	d0, v0.2d
	fmov	x11, d0
	b.eq	.LBB71_14
// %bb.8:                               // %vec.epilog.iter.check
	cbz	x10, .LBB71_12
.LBB71_9:                               // %vec.epilog.ph
	movi	v0.2d, #0000000000000000
	movi	v1.2d, #0000000000000000
	mov	x10, x9
	movi	v2.2d, #0000000000000000
	movi	v3.2d, #0000000000000000
	and	x9, x20, #0xfffffffffffffff8
	mov	v0.d[0], x11
	add	x11, x21, x10
	sub	x10, x10, x9
	add	x11, x11, x25
.LBB71_10:                              // %vec.epilog.vector.body
                                        // =>This Inner Loop Header: Depth=1
	movi	v4.8b, #60
	ldr	d5, [x11], #8
	mov	w12, #1                         // =0x1
	adds	x10, x10, #8
	dup	v6.2d, x12
	cmeq	v4.8b, v5.8b, v4.8b
	ushll	v4.8h, v4.8b, #0
	ushll2	v5.4s, v4.8h, #0
	ushll	v4.4s, v4.4h, #0
	ushll2	v7.2d, v5.4s, #0
	ushll	v16.2d, v4.2s, #0
	ushll2	v4.2d, v4.4s, #0
	ushll	v5.2d, v5.2s, #0
	and	v7.16b, v7.16b, v6.16b
	and	v16.16b, v16.16b, v6.16b
	and	v4.16b, v4.16b, v6.16b
	and	v5.16b, v5.16b, v6.16b
	add	v3.2d, v3.2d, v7.2d
	add	v2.2d, v2.2d, v4.2d
	add	v0.2d, v0.2d, v16.2d
	add	v1.2d, v1.2d, v5.2d
	b.ne	.LBB71_10
// %bb.11:                              // %vec.epilog.middle.block
	add	v0.2d, v0.2d, v1.2d
	add	v1.2d, v2.2d, v3.2d
	cmp	x20, x9
	add	v0.2d, v0.2d, v1.2d
	addp	d0, v0.2d
	fmov	x11, d0
	b.eq	.LBB71_14
.LBB71_12:                              // %join.5.i.i.i.i.i.i.preheader
	add	x10, x21, x9
	sub	x9, x20, x9
	add	x10, x10, x25
.LBB71_13:                              // %join.5.i.i.i.i.i.i
                                        // =>This Inner Loop Header: Depth=1
	ldrb	w12, [x10], #1
	cmp	w12, #60
	cinc	x11, x11, eq
	subs	x9, x9, #1
	b.ne	.LBB71_13
.LBB71_14:                              // %"sdfile::is_no_name.exit.i.i.i.i"
	cmp	x11, #16
	b.hi	.LBB71_20
// %bb.15:                              // %join.3.i.i.i.i
	add	x22, x0, x8
	add	x0, sp, #16
	mov	x2, x19
	mov	x1, x22
	mov	x26, x5
	mov	x27, x4
	add	x23, sp, #16
	bl	"molfile::counts_line"
	ldrb	w8, [sp, #16]
	cmp	w8, #1
	b.ne	.LBB71_22
// %bb.16:                              // %"molfile::ending::rest_place.exit.thread.i.i.i.i.i"
	mov	x2, x19
.LBB71_17:                              // %"sdfile::items_from.exit.i.i.i.i"
	mov	x0, x22
	mov	x1, x19
	bl	"text::line_end"
	cmp	x19, x0
	add	x3, x21, x25
	mov	x1, x19
	csinc	x2, x19, x0, ls
	mov	x0, x22
	mov	x4, x20
	bl	"sdfile::header_from"
	cmp	x19, x0
	b.ls	.LBB71_20
// %bb.18:                              // %join.6.i.i.i.i
	mov	x2, x0
	mov	x0, x22
	mov	x1, x19
	bl	"text::line_end"
	cmp	x19, x0
	add	x3, x21, x25
	mov	x1, x19
	csinc	x23, x19, x0, ls
	mov	x0, x22
	mov	x4, x20
	mov	x2, x23
	bl	"sdfile::header_from"
	cmp	x0, x19
	b.hs	.LBB71_43
// %bb.19:                              // %"sdfile::item.exit.i.i.i"
	mov	w8, #39                         // =0x27
	orr	x0, x8, x0, lsl #8
	b	.LBB71_21
.LBB71_20:
	mov	w0, #38                         // =0x26
.LBB71_21:                              // %"tteuyomal_c::claims_printed::tteuyomal_sdf_item.exit"
	add	sp, sp, #1, lsl #12             // =4096
	add	sp, sp, #976
	ldp	x20, x19, [sp, #144]            // 16-byte Folded Reload
	ldp	x22, x21, [sp, #128]            // 16-byte Folded Reload
	ldp	x24, x23, [sp, #112]            // 16-byte Folded Reload
	ldp	x26, x25, [sp, #96]             // 16-byte Folded Reload
	ldp	x28, x27, [sp, #80]             // 16-byte Folded Reload
	ldp	x29, x30, [sp, #64]             // 16-byte Folded Reload
	ldp	d9, d8, [sp, #48]               // 16-byte Folded Reload
	ldp	d11, d10, [sp, #32]             // 16-byte Folded Reload
	ldp	d13, d12, [sp, #16]             // 16-byte Folded Reload
	ldp	d15, d14, [sp], #160            // 16-byte Folded Reload
	ret
.LBB71_22:                              // %"molfile::ending::rest_place.exit.i.i.i.i.i"
	add	x0, sp, #48
	add	x3, x23, #8
	add	x4, sp, #4073
	add	x5, sp, #2074
	add	x6, sp, #76
	mov	x1, x22
	mov	x2, x19
	stp	xzr, xzr, [sp, #48]
	str	xzr, [sp, #64]
	bl	"molfile::lists"
	ldrb	w8, [sp, #48]
	ldr	x9, [sp, #56]
	cmp	w8, #1
	csel	x2, x19, x9, eq
	b	.LBB71_26
.LBB71_23:                              //   in Loop: Header=BB71_26 Depth=1
	mov	x8, xzr
.LBB71_24:                              // %"text::starts_with.exit.i.i.i.i.i.i"
                                        //   in Loop: Header=BB71_26 Depth=1
	cmp	x8, #4
	b.hi	.LBB71_17
.LBB71_25:                              // %join.8.i.i.i.i.i.i
                                        //   in Loop: Header=BB71_26 Depth=1
	mov	x0, x22
	mov	x1, x19
	bl	"text::line_end"
	cmp	x19, x0
	csinc	x2, x19, x0, ls
.LBB71_26:                              // %"molfile::ending::rest_place.exit.i.i.i.i.i"
                                        // =>This Inner Loop Header: Depth=1
	cmp	x2, x19
	b.hs	.LBB71_17
// %bb.27:                              // %join.5.i.i8.i.i.i.i
                                        //   in Loop: Header=BB71_26 Depth=1
	add	x10, x22, x2
	mvn	x8, x2
	add	x9, x19, x8
	ldrb	w11, [x10]
	mov	w8, #5                          // =0x5
	cmp	x9, #5
	csel	x8, x9, x8, lo
	cmp	w11, #77
	b.ne	.LBB71_25
// %bb.28:                              // %loop.2.i.i.i.i.i.i.i
                                        //   in Loop: Header=BB71_26 Depth=1
	cbz	x9, .LBB71_24
// %bb.29:                              // %join.8.i.i.i.i.i.i.i
                                        //   in Loop: Header=BB71_26 Depth=1
	ldrb	w11, [x10, #1]
	cmp	w11, #32
	b.ne	.LBB71_23
// %bb.30:                              // %loop.2.i.i.i.i.i.i.i.1
                                        //   in Loop: Header=BB71_26 Depth=1
	cmp	x9, #1
	b.eq	.LBB71_24
// %bb.31:                              // %join.8.i.i.i.i.i.i.i.1
                                        //   in Loop: Header=BB71_26 Depth=1
	ldrb	w11, [x10, #2]
	cmp	w11, #32
	b.ne	.LBB71_39
// %bb.32:                              // %loop.2.i.i.i.i.i.i.i.2
                                        //   in Loop: Header=BB71_26 Depth=1
	cmp	x9, #2
	b.eq	.LBB71_24
// %bb.33:                              // %join.8.i.i.i.i.i.i.i.2
                                        //   in Loop: Header=BB71_26 Depth=1
	ldrb	w11, [x10, #3]
	cmp	w11, #69
	b.ne	.LBB71_40
// %bb.34:                              // %loop.2.i.i.i.i.i.i.i.3
                                        //   in Loop: Header=BB71_26 Depth=1
	cmp	x9, #3
	b.eq	.LBB71_24
// %bb.35:                              // %join.8.i.i.i.i.i.i.i.3
                                        //   in Loop: Header=BB71_26 Depth=1
	ldrb	w11, [x10, #4]
	cmp	w11, #78
	b.ne	.LBB71_41
// %bb.36:                              // %loop.2.i.i.i.i.i.i.i.4
                                        //   in Loop: Header=BB71_26 Depth=1
	cmp	x9, #4
	b.eq	.LBB71_24
// %bb.37:                              // %join.8.i.i.i.i.i.i.i.4
                                        //   in Loop: Header=BB71_26 Depth=1
	ldrb	w10, [x10, #5]
	cmp	w10, #68
	b.ne	.LBB71_42
// %bb.38:                              // %loop.2.i.i.i.i.i.i.i.5
                                        //   in Loop: Header=BB71_26 Depth=1
	cmp	x9, #4
	mov	w9, #5                          // =0x5
	csel	x8, x8, x9, hi
	b	.LBB71_24
.LBB71_39:                              //   in Loop: Header=BB71_26 Depth=1
	mov	w8, #1                          // =0x1
	b	.LBB71_24
.LBB71_40:                              //   in Loop: Header=BB71_26 Depth=1
	mov	w8, #2                          // =0x2
	b	.LBB71_24
.LBB71_41:                              //   in Loop: Header=BB71_26 Depth=1
	mov	w8, #3                          // =0x3
	b	.LBB71_24
.LBB71_42:                              //   in Loop: Header=BB71_26 Depth=1
	mov	w8, #4                          // =0x4
	b	.LBB71_24
.LBB71_43:                              // %join.3.i.i.i.i.i
	cmp	x19, x23
	b.ls	.LBB71_49
// %bb.44:                              // %join.3.i.i.i.i.i.i
	add	x20, x22, x23
	ldrb	w8, [x20]
	cmp	w8, #62
	b.ne	.LBB71_54
// %bb.45:                              // %join.3.i.i.i.i.i.i.i
	mov	x0, x22
	mov	x1, x19
	mov	x2, x23
	bl	"text::line_end"
	subs	x10, x0, x23
	b.eq	.LBB71_54
// %bb.46:                              // %join.5.i.i.i.i.i.i.i.i.preheader
	mov	x9, x26
	mov	x8, x27
	mov	x11, xzr
.LBB71_47:                              // %join.5.i.i.i.i.i.i.i.i
                                        // =>This Inner Loop Header: Depth=1
	ldrb	w12, [x20, x11]
	cmp	w12, #60
	add	x12, x11, #1
	b.eq	.LBB71_50
// %bb.48:                              // %join.8.i.i.i.i.i.i.i.i
                                        //   in Loop: Header=BB71_47 Depth=1
	cmp	x10, x12
	mov	x11, x12
	b.ne	.LBB71_47
	b	.LBB71_54
.LBB71_49:
	mov	x10, xzr
	b	.LBB71_58
.LBB71_50:                              // %then.6.i.i.i.i.i.i.i.i
	cmp	x12, x10
	b.hs	.LBB71_54
// %bb.51:
	mvn	x13, x11
	add	x11, x12, x20
	add	x10, x13, x10
.LBB71_52:                              // %join.5.i.i.i.i.i.i.i.i.i
                                        // =>This Inner Loop Header: Depth=1
	ldrb	w12, [x11], #1
	cmp	w12, #62
	b.eq	.LBB71_61
// %bb.53:                              // %loop.2.i.i.i.i.i.i.i.i.i
                                        //   in Loop: Header=BB71_52 Depth=1
	subs	x10, x10, #1
	b.ne	.LBB71_52
.LBB71_54:                              // %join.6.i.i.i.i.i.i
	mov	x0, x22
	mov	x1, x19
	mov	x2, x23
	bl	"text::line_end"
	cmp	x19, x0
	sub	x10, x0, x23
	b.ls	.LBB71_58
// %bb.55:                              // %join.3.i5.i.i.i.i.i.i
	mov	x8, x27
	mov	x9, x26
	cbz	x10, .LBB71_59
// %bb.56:                              // %join.7.i.i.i.i.i.i.i
	add	x11, x22, x0
	ldurb	w11, [x11, #-1]
	cmp	w11, #13
	cset	w11, eq
	sub	x10, x10, x11
	cmp	x9, #2
	b.lo	.LBB71_60
.LBB71_57:                              // %join.5.i.i.preheader.i.i.i
	mov	x0, xzr
	add	x8, x8, x24
	stp	x23, x10, [x8]
	b	.LBB71_21
.LBB71_58:
	mov	x8, x27
	mov	x9, x26
.LBB71_59:                              // %arm.2.i.i.i
	cmp	x9, #2
	b.hs	.LBB71_57
.LBB71_60:
	mov	w0, #9                          // =0x9
	b	.LBB71_21
.LBB71_61:
	mov	x10, xzr
	cmp	x9, #2
	b.lo	.LBB71_60
	b	.LBB71_57
.Lfunc_end71:
	.size	tteuyomal_sdf_item, .Lfunc_end71-tteuyomal_sdf_item
                                        // -- End function
	.section	.text.tteuyomal_sdf_record,"ax",@progbits
	.globl	tteuyomal_sdf_record            // -- Begin function tteuyomal_sdf_record
	.p2align	2
	.type	tteuyomal_sdf_record,@function
tteuyomal_sdf_record:                   // @tteuyomal_sdf_record
// %bb.0:                               // %start
	mov	w9, #4096                       // =0x1000
	cmp	x0, #0
	csel	x8, x9, xzr, eq
	cmp	x3, #0
	csel	x9, x9, xzr, eq
	cmp	x2, x1
	b.hs	.LBB72_5
// %bb.1:                               // %join.5.i.i.i.i.i.preheader
	stp	x29, x30, [sp, #-64]!           // 16-byte Folded Spill
	stp	x22, x21, [sp, #32]             // 16-byte Folded Spill
	add	x21, x0, x8
	add	x22, x3, x9
	stp	x20, x19, [sp, #48]             // 16-byte Folded Spill
	mov	x20, x2
	mov	x19, x1
	mov	x8, x2
	str	x23, [sp, #16]                  // 8-byte Spill
	mov	x29, sp
.LBB72_2:                               // %join.5.i.i.i.i.i
                                        // =>This Inner Loop Header: Depth=1
	ldrb	w9, [x21, x8]
	mov	w10, #1                         // =0x1
	mov	x11, #9728                      // =0x2600
	movk	x11, #1, lsl #32
	lsl	x10, x10, x9
	cmp	w9, #32
	and	x9, x10, x11
	ccmp	x9, #0, #4, ls
	b.eq	.LBB72_6
// %bb.3:                               // %then.6.i.i.i.i.i
                                        //   in Loop: Header=BB72_2 Depth=1
	add	x8, x8, #1
	cmp	x19, x8
	b.ne	.LBB72_2
// %bb.4:
	mov	w0, #254                        // =0xfe
	ldp	x20, x19, [sp, #48]             // 16-byte Folded Reload
	ldr	x23, [sp, #16]                  // 8-byte Reload
	ldp	x22, x21, [sp, #32]             // 16-byte Folded Reload
	ldp	x29, x30, [sp], #64             // 16-byte Folded Reload
	ret
.LBB72_5:
	mov	w0, #254                        // =0xfe
	ret
.LBB72_6:
	mov	x23, x4
	mov	x2, x20
	b	.LBB72_10
.LBB72_7:                               //   in Loop: Header=BB72_10 Depth=1
	mov	x8, xzr
.LBB72_8:                               // %"text::starts_with.exit.i.i.i.i.i"
                                        //   in Loop: Header=BB72_10 Depth=1
	cmp	x8, #3
	b.eq	.LBB72_20
.LBB72_9:                               // %join.8.i.i.i.i.i
                                        //   in Loop: Header=BB72_10 Depth=1
	mov	x0, x21
	mov	x1, x19
	bl	"text::line_end"
	cmp	x19, x0
	csinc	x2, x19, x0, ls
	cmp	x2, x19
	b.hs	.LBB72_20
.LBB72_10:                              // %join.5.i10.i.i.i.i
                                        // =>This Inner Loop Header: Depth=1
	add	x10, x21, x2
	mvn	x8, x2
	add	x9, x19, x8
	ldrb	w11, [x10]
	mov	w8, #3                          // =0x3
	cmp	x9, #3
	csel	x8, x9, x8, lo
	cmp	w11, #36
	b.ne	.LBB72_9
// %bb.11:                              // %loop.2.i.i.i.i.i.i
                                        //   in Loop: Header=BB72_10 Depth=1
	cbz	x9, .LBB72_8
// %bb.12:                              // %join.8.i.i.i.i.i.i
                                        //   in Loop: Header=BB72_10 Depth=1
	ldrb	w11, [x10, #1]
	cmp	w11, #36
	b.ne	.LBB72_7
// %bb.13:                              // %loop.2.i.i.i.i.i.i.1
                                        //   in Loop: Header=BB72_10 Depth=1
	cmp	x9, #1
	b.eq	.LBB72_8
// %bb.14:                              // %join.8.i.i.i.i.i.i.1
                                        //   in Loop: Header=BB72_10 Depth=1
	ldrb	w11, [x10, #2]
	cmp	w11, #36
	b.ne	.LBB72_18
// %bb.15:                              // %loop.2.i.i.i.i.i.i.2
                                        //   in Loop: Header=BB72_10 Depth=1
	cmp	x9, #2
	b.eq	.LBB72_8
// %bb.16:                              // %join.8.i.i.i.i.i.i.2
                                        //   in Loop: Header=BB72_10 Depth=1
	ldrb	w10, [x10, #3]
	cmp	w10, #36
	b.ne	.LBB72_19
// %bb.17:                              // %loop.2.i.i.i.i.i.i.3
                                        //   in Loop: Header=BB72_10 Depth=1
	cmp	x9, #2
	mov	w9, #3                          // =0x3
	csel	x8, x8, x9, hi
	b	.LBB72_8
.LBB72_18:                              //   in Loop: Header=BB72_10 Depth=1
	mov	w8, #1                          // =0x1
	b	.LBB72_8
.LBB72_19:                              //   in Loop: Header=BB72_10 Depth=1
	mov	w8, #2                          // =0x2
	b	.LBB72_8
.LBB72_20:                              // %arm.2.i.i.i
	mov	x0, x21
	mov	x1, x19
	mov	x21, x2
	bl	"text::line_end"
	cmp	x23, #3
	b.hs	.LBB72_22
// %bb.21:
	mov	w0, #9                          // =0x9
	ldp	x20, x19, [sp, #48]             // 16-byte Folded Reload
	ldr	x23, [sp, #16]                  // 8-byte Reload
	ldp	x22, x21, [sp, #32]             // 16-byte Folded Reload
	ldp	x29, x30, [sp], #64             // 16-byte Folded Reload
	ret
.LBB72_22:                              // %join.5.i.i1.preheader.i.i.i
	mov	x8, x0
	mov	x0, xzr
	sub	x9, x21, x20
	cmp	x19, x8
	stp	x20, x9, [x22]
	csinc	x8, x19, x8, ls
	str	x8, [x22, #16]
	ldp	x20, x19, [sp, #48]             // 16-byte Folded Reload
	ldr	x23, [sp, #16]                  // 8-byte Reload
	ldp	x22, x21, [sp, #32]             // 16-byte Folded Reload
	ldp	x29, x30, [sp], #64             // 16-byte Folded Reload
	ret
.Lfunc_end72:
	.size	tteuyomal_sdf_record, .Lfunc_end72-tteuyomal_sdf_record
                                        // -- End function
	.section	.text.tteuyomal_szeged,"ax",@progbits
	.globl	tteuyomal_szeged                // -- Begin function tteuyomal_szeged
	.p2align	2
	.type	tteuyomal_szeged,@function
tteuyomal_szeged:                       // @tteuyomal_szeged
// %bb.0:                               // %start
	sub	sp, sp, #96
	cmp	x1, #0
	mov	w11, #4096                      // =0x1000
	stp	x20, x19, [sp, #80]             // 16-byte Folded Spill
	csel	x10, x11, xzr, eq
	cmp	x5, #0
	mov	x19, x5
	mov	x9, x2
	mov	x8, x0
	csel	x20, x11, xzr, eq
	stp	x29, x30, [sp, #64]             // 16-byte Folded Spill
	add	x29, sp, #64
	stp	xzr, xzr, [sp, #40]
	stp	xzr, xzr, [sp, #24]
	stp	xzr, xzr, [sp, #8]
	cbz	x6, .LBB73_3
// %bb.1:                               // %join.3.i.i.i
	cmp	x3, #0
	mov	w11, #4096                      // =0x1000
	mov	x5, x4
	csel	x11, x11, xzr, eq
	add	x0, sp, #8
	add	x2, x1, x10
	add	x4, x3, x11
	mov	x1, x8
	mov	x3, x9
	bl	"szeged::terms"
	ldrb	w8, [sp, #8]
	ldr	x0, [sp, #16]
	cmp	w8, #1
	b.ne	.LBB73_5
// %bb.2:                               // %arm.1.i10.i.i.i
	ldr	x8, [sp, #24]
	bfi	x0, x8, #8, #56
	ldp	x20, x19, [sp, #80]             // 16-byte Folded Reload
	ldp	x29, x30, [sp, #64]             // 16-byte Folded Reload
	add	sp, sp, #96
	ret
.LBB73_3:                               // %then.1.i.i.i
	add	x0, sp, #32
	add	x2, x1, x10
	sub	x4, x29, #8
	mov	x1, x8
	mov	x3, x9
	mov	x5, xzr
	bl	"szeged::terms"
	ldrb	w8, [sp, #32]
	cmp	w8, #1
	b.ne	.LBB73_6
// %bb.4:                               // %arm.1.i.i.i.i
	ldrb	w8, [sp, #40]
	ldr	x9, [sp, #48]
	orr	x0, x8, x9, lsl #8
	ldp	x20, x19, [sp, #80]             // 16-byte Folded Reload
	ldp	x29, x30, [sp, #64]             // 16-byte Folded Reload
	add	sp, sp, #96
	ret
.LBB73_5:                               // %join.5.i.i.i.i.i.i
	str	x0, [x19, x20]
	mov	x0, xzr
	ldp	x20, x19, [sp, #80]             // 16-byte Folded Reload
	ldp	x29, x30, [sp, #64]             // 16-byte Folded Reload
	add	sp, sp, #96
	ret
.LBB73_6:
	mov	w0, #9                          // =0x9
	ldp	x20, x19, [sp, #80]             // 16-byte Folded Reload
	ldp	x29, x30, [sp, #64]             // 16-byte Folded Reload
	add	sp, sp, #96
	ret
.Lfunc_end73:
	.size	tteuyomal_szeged, .Lfunc_end73-tteuyomal_szeged
                                        // -- End function
	.section	.text.tteuyomal_version,"ax",@progbits
	.globl	tteuyomal_version               // -- Begin function tteuyomal_version
	.p2align	2
	.type	tteuyomal_version,@function
tteuyomal_version:                      // @tteuyomal_version
// %bb.0:                               // %start
	mov	w0, #3304                       // =0xce8
	movk	w0, #61, lsl #16
	ret
.Lfunc_end74:
	.size	tteuyomal_version, .Lfunc_end74-tteuyomal_version
                                        // -- End function
	.section	.rodata.cst8,"aM",@progbits,8
	.p2align	3, 0x0                          // -- Begin function tteuyomal_vertex
.LCPI75_0:
	.word	1                               // 0x1
	.word	2                               // 0x2
	.section	.text.tteuyomal_vertex,"ax",@progbits
	.globl	tteuyomal_vertex
	.p2align	2
	.type	tteuyomal_vertex,@function
tteuyomal_vertex:                       // @tteuyomal_vertex
// %bb.0:                               // %start
	stp	x29, x30, [sp, #-96]!           // 16-byte Folded Spill
	str	x28, [sp, #16]                  // 8-byte Spill
	mov	x29, sp
	stp	x26, x25, [sp, #32]             // 16-byte Folded Spill
	stp	x24, x23, [sp, #48]             // 16-byte Folded Spill
	stp	x22, x21, [sp, #64]             // 16-byte Folded Spill
	stp	x20, x19, [sp, #80]             // 16-byte Folded Spill
	sub	sp, sp, #672
	movi	v0.2d, #0000000000000000
	cmp	x1, #0
	mov	w8, #4096                       // =0x1000
	csel	x26, x8, xzr, eq
	mov	x24, x3
	mov	x23, x1
	cmp	x4, #0
	add	x1, x1, x26
	add	x3, sp, #160
	mov	x19, x5
	mov	x21, x4
	mov	x22, x2
	mov	x20, x0
	stp	q0, q0, [sp]
	csel	x25, x8, xzr, eq
	stp	q0, q0, [sp, #32]
	stp	q0, q0, [sp, #64]
	stp	q0, q0, [sp, #160]
	stp	q0, q0, [sp, #192]
	stp	q0, q0, [sp, #224]
	stp	q0, q0, [sp, #256]
	stp	q0, q0, [sp, #288]
	stp	q0, q0, [sp, #320]
	stp	q0, q0, [sp, #352]
	stp	q0, q0, [sp, #384]
	stp	q0, q0, [sp, #416]
	stp	q0, q0, [sp, #448]
	stp	q0, q0, [sp, #480]
	stp	q0, q0, [sp, #512]
	stp	q0, q0, [sp, #544]
	stp	q0, q0, [sp, #576]
	stp	q0, q0, [sp, #608]
	stp	q0, q0, [sp, #640]
	bl	"block::admit"
	tbz	w0, #0, .LBB75_8
// %bb.1:                               // %join.5.i.i.i.i.i
	sub	x8, x24, #1
	cmp	x8, x20
	b.hs	.LBB75_9
// %bb.2:                               // %join.8.i.i.i.i.i
	mov	w11, #64                        // =0x40
	movi	v0.2d, #0000000000000000
	mov	w12, #1                         // =0x1
	subs	x11, x11, x20
	mov	x13, #-1                        // =0xffffffffffffffff
	lsl	x12, x12, x8
	csel	x11, xzr, x11, lo
	mov	x10, xzr
	mov	w9, wzr
	lsr	x11, x13, x11
	add	x8, x21, x25
	stp	q0, q0, [sp, #96]
	eor	x11, x12, x11
	stp	q0, q0, [sp, #128]
.LBB75_3:                               // %join.5.i.i.i.i.i.i
                                        // =>This Inner Loop Header: Depth=1
	rbit	x13, x12
	add	x14, sp, #160
	sub	x15, x12, #1
	ands	x12, x15, x12
	clz	x13, x13
	ldr	x14, [x14, x13, lsl #3]
	orr	x10, x14, x10
	add	x14, sp, #96
	and	x15, x10, x11
	strb	w9, [x14, x13]
	cinc	w9, w9, eq
	eor	x13, x15, x11
	csel	x12, x12, x15, ne
	csel	x10, x10, xzr, ne
	csel	x11, x11, x13, ne
	cbnz	x12, .LBB75_3
// %bb.4:                               // %arm.1.i.i.i.i
	ldp	q0, q1, [sp, #96]
	sub	w9, w9, #1
	mov	x14, sp
	cmp	x20, #64
	mov	w15, #64                        // =0x40
	mov	x10, xzr
	mov	x11, xzr
	mov	x13, xzr
	stur	q0, [sp, #24]
	add	x14, x14, #24
	stur	q1, [sp, #40]
	ldp	q0, q1, [sp, #128]
	strb	w9, [sp, #88]
	csel	x9, x20, x15, lo
	stur	q0, [sp, #56]
	movi	v0.2d, #0000000000000000
	stur	q1, [sp, #72]
.LBB75_5:                               // %join.5.i.i2.i.i.i.i
                                        // =>This Inner Loop Header: Depth=1
	ldrb	w15, [x14], #1
	adrp	x16, .LCPI75_0
	ldr	d2, [x16, :lo12:.LCPI75_0]
	mov	w16, #1                         // =0x1
	dup	v1.2s, w15
	add	x17, x13, x15
	tst	w15, #0x1
	csel	x13, x13, x17, ne
	cinc	x11, x11, eq
	cinc	x10, x10, ne
	cmeq	v1.2s, v1.2s, v2.2s
	dup	v2.2d, x16
	add	x16, x12, x15
	csel	x12, x16, x12, ne
	subs	x9, x9, #1
	ushll	v1.2d, v1.2s, #0
	and	v1.16b, v1.16b, v2.16b
	add	v0.2d, v0.2d, v1.2d
	b.ne	.LBB75_5
// %bb.6:                               // %arm.2.i.i.i
	cmp	x19, #7
	b.hs	.LBB75_10
// %bb.7:
	mov	w0, #9                          // =0x9
	b	.LBB75_11
.LBB75_8:                               // %then.3.i.i.i.i.i
	add	x1, x23, x26
	mov	x0, x20
	mov	x2, x22
	bl	"block::refusal"
	bfi	x0, x1, #8, #56
	b	.LBB75_11
.LBB75_9:
	mov	w0, #18                         // =0x12
	b	.LBB75_11
.LBB75_10:                              // %join.5.i.i2.preheader.i.i.i
	mov	x0, xzr
	add	x9, x12, x13
	stp	x12, x11, [x8, #16]
	stp	x9, x13, [x8]
	str	x10, [x8, #32]
	stur	q0, [x8, #40]
.LBB75_11:                              // %"tteuyomal_c::blocks::tteuyomal_vertex.exit"
	add	sp, sp, #672
	ldp	x20, x19, [sp, #80]             // 16-byte Folded Reload
	ldr	x28, [sp, #16]                  // 8-byte Reload
	ldp	x22, x21, [sp, #64]             // 16-byte Folded Reload
	ldp	x24, x23, [sp, #48]             // 16-byte Folded Reload
	ldp	x26, x25, [sp, #32]             // 16-byte Folded Reload
	ldp	x29, x30, [sp], #96             // 16-byte Folded Reload
	ret
.Lfunc_end75:
	.size	tteuyomal_vertex, .Lfunc_end75-tteuyomal_vertex
                                        // -- End function
	.section	.rodata.cst16,"aM",@progbits,16
	.p2align	4, 0x0                          // -- Begin function tteuyomal_write_molfile
.LCPI76_0:
	.byte	32                              // 0x20
	.byte	32                              // 0x20
	.byte	49                              // 0x31
	.byte	32                              // 0x20
	.byte	32                              // 0x20
	.byte	48                              // 0x30
	.byte	32                              // 0x20
	.byte	32                              // 0x20
	.byte	48                              // 0x30
	.byte	32                              // 0x20
	.byte	32                              // 0x20
	.byte	48                              // 0x30
	.byte	32                              // 0x20
	.byte	32                              // 0x20
	.byte	48                              // 0x30
	.byte	10                              // 0xa
	.section	.text.tteuyomal_write_molfile,"ax",@progbits
	.globl	tteuyomal_write_molfile
	.p2align	2
	.type	tteuyomal_write_molfile,@function
tteuyomal_write_molfile:                // @tteuyomal_write_molfile
// %bb.0:                               // %start
	stp	x29, x30, [sp, #-96]!           // 16-byte Folded Spill
	stp	x28, x27, [sp, #16]             // 16-byte Folded Spill
	mov	x29, sp
	stp	x26, x25, [sp, #32]             // 16-byte Folded Spill
	stp	x24, x23, [sp, #48]             // 16-byte Folded Spill
	stp	x22, x21, [sp, #64]             // 16-byte Folded Spill
	stp	x20, x19, [sp, #80]             // 16-byte Folded Spill
	sub	sp, sp, #544
	cmp	x1, #0
	mov	w8, #4096                       // =0x1000
	mov	x24, x2
	csel	x9, x8, xzr, eq
	cmp	x3, #0
	mov	x22, x0
	csel	x25, x8, xzr, eq
	cmp	x5, #0
	add	x21, x1, x9
	csel	x19, x8, xzr, eq
	cbz	x6, .LBB76_7
// %bb.1:                               // %join.3.i.i.i
	movi	v0.2d, #0000000000000000
	mov	x23, x3
	add	x3, sp, #16
	mov	x0, x22
	mov	x1, x21
	mov	x2, x24
	mov	x26, x5
	mov	x20, x4
	stp	q0, q0, [sp, #16]
	stp	q0, q0, [sp, #48]
	stp	q0, q0, [sp, #80]
	stp	q0, q0, [sp, #112]
	stp	q0, q0, [sp, #144]
	stp	q0, q0, [sp, #176]
	stp	q0, q0, [sp, #208]
	stp	q0, q0, [sp, #240]
	stp	q0, q0, [sp, #272]
	stp	q0, q0, [sp, #304]
	stp	q0, q0, [sp, #336]
	stp	q0, q0, [sp, #368]
	stp	q0, q0, [sp, #400]
	stp	q0, q0, [sp, #432]
	stp	q0, q0, [sp, #464]
	stp	q0, q0, [sp, #496]
	bl	"block::admit"
	cbz	w0, .LBB76_9
// %bb.2:                               // %arm.1.i.i.i.i
	lsr	x27, x24, #1
	mov	w8, #22                         // =0x16
	mov	w9, #70                         // =0x46
	mul	x8, x27, x8
	madd	x8, x22, x9, x8
	add	x8, x8, #50
	cmp	x20, x8
	b.lo	.LBB76_8
// %bb.3:                               // %join.3.i.i.i.i.i
	add	x28, x23, x25
	str	x25, [sp]                       // 8-byte Spill
	cbz	x20, .LBB76_10
// %bb.4:                               // %join.5.i.preheader.i.i.i.i.i.i
	sub	x8, x20, #1
	mov	w9, #2                          // =0x2
	cmp	x8, #2
	add	x0, x23, x25
	mov	w1, #10                         // =0xa
	csel	x8, x8, x9, lo
	add	x25, x8, #1
	mov	x2, x25
	bl	memset
	cmp	x22, #100
	b.hs	.LBB76_11
.LBB76_5:                               // %"text::writing::digit_or_blank.exit.i.i.i.i.i.i.i"
	cmp	x22, #10
	mov	w8, #32                         // =0x20
	b.hs	.LBB76_12
// %bb.6:
	mov	w9, #32                         // =0x20
	b	.LBB76_14
.LBB76_7:                               // %then.1.i.i.i
	movi	v0.2d, #0000000000000000
	add	x3, sp, #16
	mov	x0, x22
	mov	x1, x21
	mov	x2, x24
	stp	q0, q0, [sp, #16]
	stp	q0, q0, [sp, #48]
	stp	q0, q0, [sp, #80]
	stp	q0, q0, [sp, #112]
	stp	q0, q0, [sp, #144]
	stp	q0, q0, [sp, #176]
	stp	q0, q0, [sp, #208]
	stp	q0, q0, [sp, #240]
	stp	q0, q0, [sp, #272]
	stp	q0, q0, [sp, #304]
	stp	q0, q0, [sp, #336]
	stp	q0, q0, [sp, #368]
	stp	q0, q0, [sp, #400]
	stp	q0, q0, [sp, #432]
	stp	q0, q0, [sp, #464]
	stp	q0, q0, [sp, #496]
	bl	"block::admit"
	cbz	w0, .LBB76_9
.LBB76_8:                               // %"block::check.exit.thread.i.i.i.i"
	mov	w0, #9                          // =0x9
	b	.LBB76_80
.LBB76_9:                               // %arm.2.i.i.i.i
	mov	x0, x22
	mov	x1, x21
	mov	x2, x24
	bl	"block::refusal"
	bfi	x0, x1, #8, #56
	b	.LBB76_80
.LBB76_10:
	mov	x25, xzr
	cmp	x22, #100
	b.lo	.LBB76_5
.LBB76_11:                              // %"text::writing::digit_or_blank.exit.thread.i.i.i.i.i.i.i"
	mov	x9, #62915                      // =0xf5c3
	lsr	x8, x22, #2
	mov	x10, #-3689348814741910324      // =0xcccccccccccccccc
	movk	x9, #23592, lsl #16
	movk	x10, #52429
	mov	w11, #10                        // =0xa
	movk	x9, #49807, lsl #32
	umulh	x10, x22, x10
	movk	x9, #10485, lsl #48
	umulh	x8, x8, x9
	mov	x9, #-7378697629483820647       // =0x9999999999999999
	eor	x9, x9, #0x8000000000000003
	lsr	x8, x8, #2
	umulh	x9, x8, x9
	msub	w8, w9, w11, w8
	lsr	x9, x10, #3
	orr	w8, w8, #0x30
	b	.LBB76_13
.LBB76_12:
	mov	w9, #205                        // =0xcd
	mul	w9, w22, w9
	ubfx	x9, x9, #11, #5
.LBB76_13:                              // %else.2.i2.i.i.i.i.i.i.i
	mov	x10, #-7378697629483820647      // =0x9999999999999999
	mov	w11, #10                        // =0xa
	eor	x10, x10, #0x8000000000000003
	umulh	x10, x9, x10
	msub	w9, w10, w11, w9
	orr	w9, w9, #0x30
.LBB76_14:                              // %"text::writing::digit_or_blank.exit7.i.i.i.i.i.i.i"
	mov	x10, #-3689348814741910324      // =0xcccccccccccccccc
	mov	w11, #10                        // =0xa
	strb	w8, [sp, #16]
	movk	x10, #52429
	cmp	x25, x20
	strb	w9, [sp, #17]
	umulh	x10, x22, x10
	str	x19, [sp, #8]                   // 8-byte Spill
	lsr	w10, w10, #3
	msub	w10, w10, w11, w22
	orr	w8, w10, #0x30
	strb	w8, [sp, #18]
	b.hs	.LBB76_16
// %bb.15:                              // %join.5.i.preheader.i.i.i.i.i.i.i
	mvn	x8, x25
	mov	w9, #2                          // =0x2
	mov	x19, x26
	add	x8, x20, x8
	add	x0, x28, x25
	add	x1, sp, #16
	cmp	x8, #2
	csel	x8, x8, x9, lo
	add	x26, x8, #1
	mov	x2, x26
	bl	memcpy
	add	x25, x26, x25
	mov	x26, x19
.LBB76_16:                              // %"text::writing::put_three.exit.i.i.i.i.i.i"
	cmp	x24, #200
	b.hs	.LBB76_19
// %bb.17:                              // %"text::writing::digit_or_blank.exit.i31.i.i.i.i.i.i"
	cmp	x24, #20
	mov	w8, #32                         // =0x20
	b.hs	.LBB76_20
// %bb.18:
	mov	w9, #32                         // =0x20
	b	.LBB76_22
.LBB76_19:                              // %"text::writing::digit_or_blank.exit.thread.i6.i.i.i.i.i.i"
	mov	x9, #62915                      // =0xf5c3
	lsr	x8, x24, #3
	mov	x10, #-3689348814741910324      // =0xcccccccccccccccc
	movk	x9, #23592, lsl #16
	movk	x10, #52429
	mov	w11, #10                        // =0xa
	movk	x9, #49807, lsl #32
	umulh	x10, x24, x10
	movk	x9, #10485, lsl #48
	umulh	x8, x8, x9
	mov	x9, #-7378697629483820647       // =0x9999999999999999
	eor	x9, x9, #0x8000000000000003
	lsr	x8, x8, #2
	umulh	x9, x8, x9
	msub	w8, w9, w11, w8
	lsr	x9, x10, #4
	orr	w8, w8, #0x30
	b	.LBB76_21
.LBB76_20:
	lsr	w9, w24, #1
	mov	w10, #205                       // =0xcd
	mul	w9, w9, w10
	ubfx	x9, x9, #11, #5
.LBB76_21:                              // %else.2.i2.i12.i.i.i.i.i.i
	mov	x10, #-7378697629483820647      // =0x9999999999999999
	mov	w11, #10                        // =0xa
	eor	x10, x10, #0x8000000000000003
	umulh	x10, x9, x10
	msub	w9, w10, w11, w9
	orr	w9, w9, #0x30
.LBB76_22:                              // %"text::writing::digit_or_blank.exit7.i18.i.i.i.i.i.i"
	mov	x10, #7378697629483820646       // =0x6666666666666666
	mov	w11, #10                        // =0xa
	strb	w8, [sp, #16]
	movk	x10, #26215
	cmp	x25, x20
	strb	w9, [sp, #17]
	umulh	x10, x27, x10
	lsr	w10, w10, #2
	msub	w10, w10, w11, w27
	orr	w8, w10, #0x30
	strb	w8, [sp, #18]
	b.hs	.LBB76_24
// %bb.23:                              // %join.5.i.preheader.i28.i.i.i.i.i.i
	mvn	x8, x25
	mov	w9, #2                          // =0x2
	add	x0, x28, x25
	add	x8, x20, x8
	add	x1, sp, #16
	cmp	x8, #2
	csel	x8, x8, x9, lo
	add	x24, x8, #1
	mov	x2, x24
	bl	memcpy
	add	x25, x24, x25
.LBB76_24:                              // %"text::writing::put_three.exit36.i.i.i.i.i.i"
	cmp	x25, x20
	b.hs	.LBB76_33
// %bb.25:                              // %join.5.i39.i.i.i.i.i.i.preheader
	mvn	x8, x25
	add	x9, x20, x8
	mov	w8, #33                         // =0x21
	cmp	x9, #33
	csel	x8, x9, x8, lo
	cmp	x9, #15
	b.hs	.LBB76_27
// %bb.26:
	mov	x8, xzr
	b	.LBB76_30
.LBB76_27:                              // %vector.ph
	add	x9, x8, #1
	add	x10, x28, x25
	adrp	x11, .Lstatic.4
	add	x11, x11, :lo12:.Lstatic.4
	and	x8, x9, #0x70
	and	x12, x9, #0x70
	add	x25, x25, x8
.LBB76_28:                              // %vector.body
                                        // =>This Inner Loop Header: Depth=1
	ldr	q0, [x11], #16
	subs	x12, x12, #16
	str	q0, [x10], #16
	b.ne	.LBB76_28
// %bb.29:                              // %middle.block
	cmp	x9, x8
	b.eq	.LBB76_33
.LBB76_30:                              // %join.5.i39.i.i.i.i.i.i.preheader3
	adrp	x9, .Lstatic.4
	add	x9, x9, :lo12:.Lstatic.4
.LBB76_31:                              // %join.5.i39.i.i.i.i.i.i
                                        // =>This Inner Loop Header: Depth=1
	ldrb	w10, [x9, x8]
	cmp	x8, #32
	strb	w10, [x28, x25]
	add	x25, x25, #1
	b.hi	.LBB76_33
// %bb.32:                              // %join.5.i39.i.i.i.i.i.i
                                        //   in Loop: Header=BB76_31 Depth=1
	cmp	x25, x20
	add	x8, x8, #1
	b.lo	.LBB76_31
.LBB76_33:                              // %"molwriter::put_counts.exit.i.i.i.i.i"
	cbz	x22, .LBB76_45
// %bb.34:                              // %join.5.i.i.i.i.i.i.preheader
	ldr	x9, [sp]                        // 8-byte Reload
	mov	x8, xzr
	add	x9, x9, x23
	add	x9, x9, #16
	b	.LBB76_37
.LBB76_35:                              //   in Loop: Header=BB76_37 Depth=1
	mov	x23, x25
.LBB76_36:                              // %"text::writing::put.exit.i13.i.i.i.i.i"
                                        //   in Loop: Header=BB76_37 Depth=1
	add	x8, x8, #1
	mov	x25, x23
	cmp	x8, x22
	b.eq	.LBB76_46
.LBB76_37:                              // %join.5.i.i.i.i.i.i
                                        // =>This Loop Header: Depth=1
                                        //     Child Loop BB76_41 Depth 2
                                        //     Child Loop BB76_43 Depth 2
	cmp	x25, x20
	b.hs	.LBB76_35
// %bb.38:                              // %join.5.i.i.i.i.i.i.i.preheader
                                        //   in Loop: Header=BB76_37 Depth=1
	mvn	x10, x25
	add	x11, x20, x10
	mov	w10, #69                        // =0x45
	cmp	x11, #69
	csel	x10, x11, x10, lo
	cmp	x11, #31
	b.hs	.LBB76_40
// %bb.39:                              //   in Loop: Header=BB76_37 Depth=1
	mov	x10, xzr
	mov	x23, x25
	b	.LBB76_43
.LBB76_40:                              // %vector.ph7
                                        //   in Loop: Header=BB76_37 Depth=1
	add	x11, x10, #1
	add	x12, x9, x25
	adrp	x13, .Lstatic.5+16
	add	x13, x13, :lo12:.Lstatic.5+16
	and	x10, x11, #0xe0
	and	x14, x11, #0xe0
	add	x23, x25, x10
.LBB76_41:                              // %vector.body10
                                        //   Parent Loop BB76_37 Depth=1
                                        // =>  This Inner Loop Header: Depth=2
	ldp	q0, q1, [x13, #-16]
	subs	x14, x14, #32
	add	x13, x13, #32
	stp	q0, q1, [x12, #-16]
	add	x12, x12, #32
	b.ne	.LBB76_41
// %bb.42:                              // %middle.block16
                                        //   in Loop: Header=BB76_37 Depth=1
	cmp	x11, x10
	b.eq	.LBB76_36
.LBB76_43:                              // %join.5.i.i.i.i.i.i.i
                                        //   Parent Loop BB76_37 Depth=1
                                        // =>  This Inner Loop Header: Depth=2
	adrp	x11, .Lstatic.5
	add	x11, x11, :lo12:.Lstatic.5
	cmp	x10, #68
	ldrb	w11, [x11, x10]
	strb	w11, [x28, x23]
	add	x23, x23, #1
	b.hi	.LBB76_36
// %bb.44:                              // %join.5.i.i.i.i.i.i.i
                                        //   in Loop: Header=BB76_43 Depth=2
	cmp	x23, x20
	add	x10, x10, #1
	b.lo	.LBB76_43
	b	.LBB76_36
.LBB76_45:
	mov	x23, x25
.LBB76_46:                              // %"molwriter::put_atoms.exit.i.i.i.i.i"
	cbz	x27, .LBB76_67
// %bb.47:                              // %join.5.i16.i.i.i.i.i.preheader
	mov	x19, xzr
	b	.LBB76_50
.LBB76_48:                              // %vector.ph23
                                        //   in Loop: Header=BB76_50 Depth=1
	adrp	x8, .LCPI76_0
	add	x9, x23, #16
	ldr	q0, [x8, :lo12:.LCPI76_0]
	str	q0, [x28, x23]
	mov	x23, x9
.LBB76_49:                              // %"molwriter::put_bond.exit.i.i.i.i.i.i"
                                        //   in Loop: Header=BB76_50 Depth=1
	add	x19, x19, #1
	cmp	x19, x27
	b.eq	.LBB76_67
.LBB76_50:                              // %join.5.i16.i.i.i.i.i
                                        // =>This Loop Header: Depth=1
                                        //     Child Loop BB76_65 Depth 2
	add	x8, x21, x19, lsl #1
	ldrb	w9, [x8]
	cmp	w9, #100
	b.hs	.LBB76_52
// %bb.51:                              // %"text::writing::digit_or_blank.exit.i.i.i.i.i.i.i.i"
                                        //   in Loop: Header=BB76_50 Depth=1
	cmp	w9, #10
	mov	w10, #32                        // =0x20
	mov	w11, #32                        // =0x20
	b.hs	.LBB76_53
	b	.LBB76_54
.LBB76_52:                              // %"text::writing::digit_or_blank.exit.thread.i.i.i.i.i.i.i.i"
                                        //   in Loop: Header=BB76_50 Depth=1
	mov	w10, #23593                     // =0x5c29
	movk	w10, #655, lsl #16
	umull	x10, w9, w10
	lsr	x10, x10, #32
	orr	w10, w10, #0x30
.LBB76_53:                              // %else.2.i2.i.i.i.i.i.i.i.i
                                        //   in Loop: Header=BB76_50 Depth=1
	mov	w11, #39322                     // =0x999a
	mov	w13, #10                        // =0xa
	movk	w11, #6553, lsl #16
	umull	x12, w9, w11
	lsr	x12, x12, #32
	umull	x11, w12, w11
	lsr	x11, x11, #32
	msub	w11, w11, w13, w12
	orr	w11, w11, #0x30
.LBB76_54:                              // %"text::writing::digit_or_blank.exit7.i.i.i.i.i.i.i.i"
                                        //   in Loop: Header=BB76_50 Depth=1
	mov	w12, #39322                     // =0x999a
	mov	w13, #10                        // =0xa
	ldrb	w24, [x8, #1]
	movk	w12, #6553, lsl #16
	cmp	x23, x20
	strb	w10, [sp, #16]
	umull	x12, w9, w12
	strb	w11, [sp, #17]
	lsr	x12, x12, #32
	msub	w9, w12, w13, w9
	orr	w8, w9, #0x30
	strb	w8, [sp, #18]
	b.hs	.LBB76_56
// %bb.55:                              // %join.5.i.preheader.i.i.i.i.i.i.i.i
                                        //   in Loop: Header=BB76_50 Depth=1
	mvn	x8, x23
	mov	w9, #2                          // =0x2
	add	x0, x28, x23
	add	x8, x20, x8
	add	x1, sp, #16
	cmp	x8, #2
	csel	x8, x8, x9, lo
	add	x22, x8, #1
	mov	x2, x22
	bl	memcpy
	add	x23, x22, x23
.LBB76_56:                              // %"text::writing::put_three.exit.i.i.i.i.i.i.i"
                                        //   in Loop: Header=BB76_50 Depth=1
	cmp	w24, #100
	b.hs	.LBB76_58
// %bb.57:                              // %"text::writing::digit_or_blank.exit.i31.i.i.i.i.i.i.i"
                                        //   in Loop: Header=BB76_50 Depth=1
	cmp	w24, #10
	mov	w8, #32                         // =0x20
	mov	w9, #32                         // =0x20
	b.hs	.LBB76_59
	b	.LBB76_60
.LBB76_58:                              // %"text::writing::digit_or_blank.exit.thread.i7.i.i.i.i.i.i.i"
                                        //   in Loop: Header=BB76_50 Depth=1
	mov	w8, #23593                      // =0x5c29
	movk	w8, #655, lsl #16
	umull	x8, w24, w8
	lsr	x8, x8, #32
	orr	w8, w8, #0x30
.LBB76_59:                              // %else.2.i2.i12.i.i.i.i.i.i.i
                                        //   in Loop: Header=BB76_50 Depth=1
	mov	w9, #39322                      // =0x999a
	mov	w11, #10                        // =0xa
	movk	w9, #6553, lsl #16
	umull	x10, w24, w9
	lsr	x10, x10, #32
	umull	x9, w10, w9
	lsr	x9, x9, #32
	msub	w9, w9, w11, w10
	orr	w9, w9, #0x30
.LBB76_60:                              // %"text::writing::digit_or_blank.exit7.i18.i.i.i.i.i.i.i"
                                        //   in Loop: Header=BB76_50 Depth=1
	mov	w10, #39322                     // =0x999a
	mov	w11, #10                        // =0xa
	strb	w8, [sp, #16]
	movk	w10, #6553, lsl #16
	cmp	x23, x20
	strb	w9, [sp, #17]
	umull	x10, w24, w10
	lsr	x10, x10, #32
	msub	w10, w10, w11, w24
	orr	w8, w10, #0x30
	strb	w8, [sp, #18]
	b.hs	.LBB76_62
// %bb.61:                              // %join.5.i.preheader.i28.i.i.i.i.i.i.i
                                        //   in Loop: Header=BB76_50 Depth=1
	mvn	x8, x23
	mov	w9, #2                          // =0x2
	add	x0, x28, x23
	add	x8, x20, x8
	add	x1, sp, #16
	cmp	x8, #2
	csel	x8, x8, x9, lo
	add	x22, x8, #1
	mov	x2, x22
	bl	memcpy
	add	x23, x22, x23
.LBB76_62:                              // %"text::writing::put_three.exit35.i.i.i.i.i.i.i"
                                        //   in Loop: Header=BB76_50 Depth=1
	subs	x8, x23, x20
	b.hs	.LBB76_49
// %bb.63:                              // %join.5.i.i.i.i.i.i.i.i.preheader
                                        //   in Loop: Header=BB76_50 Depth=1
	cmn	x8, #15
	b.lo	.LBB76_48
// %bb.64:                              // %join.5.i.i.i.i.i.i.i.i.preheader1
                                        //   in Loop: Header=BB76_50 Depth=1
	mov	x8, xzr
.LBB76_65:                              // %join.5.i.i.i.i.i.i.i.i
                                        //   Parent Loop BB76_50 Depth=1
                                        // =>  This Inner Loop Header: Depth=2
	adrp	x9, .Lstatic.6
	add	x9, x9, :lo12:.Lstatic.6
	cmp	x8, #14
	ldrb	w9, [x9, x8]
	strb	w9, [x28, x23]
	add	x23, x23, #1
	b.hi	.LBB76_49
// %bb.66:                              // %join.5.i.i.i.i.i.i.i.i
                                        //   in Loop: Header=BB76_65 Depth=2
	cmp	x23, x20
	add	x8, x8, #1
	b.lo	.LBB76_65
	b	.LBB76_49
.LBB76_67:                              // %"molwriter::put_bonds.exit.i.i.i.i.i"
	cmp	x23, x20
	b.hs	.LBB76_75
// %bb.68:                              // %join.5.i22.i.i.i.i.i
	add	x8, x23, #1
	ldr	x12, [sp, #8]                   // 8-byte Reload
	mov	w9, #77                         // =0x4d
	cmp	x8, x20
	strb	w9, [x28, x23]
	b.hs	.LBB76_76
// %bb.69:                              // %join.5.i22.i.i.i.i.i.1
	add	x10, x23, #2
	mov	w11, #32                        // =0x20
	strb	w11, [x28, x8]
	cmp	x10, x20
	b.hs	.LBB76_77
// %bb.70:                              // %join.5.i22.i.i.i.i.i.2
	add	x9, x23, #3
	strb	w11, [x28, x10]
	cmp	x9, x20
	b.hs	.LBB76_78
// %bb.71:                              // %join.5.i22.i.i.i.i.i.3
	add	x8, x23, #4
	mov	w10, #69                        // =0x45
	strb	w10, [x28, x9]
	cmp	x8, x20
	b.hs	.LBB76_76
// %bb.72:                              // %join.5.i22.i.i.i.i.i.4
	add	x9, x23, #5
	mov	w10, #78                        // =0x4e
	strb	w10, [x28, x8]
	cmp	x9, x20
	b.hs	.LBB76_78
// %bb.73:                              // %join.5.i22.i.i.i.i.i.5
	add	x8, x23, #6
	mov	w10, #68                        // =0x44
	strb	w10, [x28, x9]
	cmp	x8, x20
	b.hs	.LBB76_76
// %bb.74:                              // %join.5.i22.i.i.i.i.i.6
	add	x23, x23, #7
	mov	w9, #10                         // =0xa
	strb	w9, [x28, x8]
	b	.LBB76_79
.LBB76_75:
	ldr	x12, [sp, #8]                   // 8-byte Reload
	b	.LBB76_79
.LBB76_76:
	mov	x23, x8
	b	.LBB76_79
.LBB76_77:
	mov	x23, x10
	b	.LBB76_79
.LBB76_78:
	mov	x23, x9
.LBB76_79:                              // %join.5.i.i.i11.i.i.i
	mov	x0, xzr
	str	x23, [x26, x12]
.LBB76_80:                              // %"tteuyomal_c::texts::tteuyomal_write_molfile.exit"
	add	sp, sp, #544
	ldp	x20, x19, [sp, #80]             // 16-byte Folded Reload
	ldp	x22, x21, [sp, #64]             // 16-byte Folded Reload
	ldp	x24, x23, [sp, #48]             // 16-byte Folded Reload
	ldp	x26, x25, [sp, #32]             // 16-byte Folded Reload
	ldp	x28, x27, [sp, #16]             // 16-byte Folded Reload
	ldp	x29, x30, [sp], #96             // 16-byte Folded Reload
	ret
.Lfunc_end76:
	.size	tteuyomal_write_molfile, .Lfunc_end76-tteuyomal_write_molfile
                                        // -- End function
	.section	.text.tteuyomal_write_neighbours,"ax",@progbits
	.globl	tteuyomal_write_neighbours      // -- Begin function tteuyomal_write_neighbours
	.p2align	2
	.type	tteuyomal_write_neighbours,@function
tteuyomal_write_neighbours:             // @tteuyomal_write_neighbours
// %bb.0:                               // %start
	stp	x29, x30, [sp, #-96]!           // 16-byte Folded Spill
	stp	x28, x27, [sp, #16]             // 16-byte Folded Spill
	mov	x29, sp
	stp	x26, x25, [sp, #32]             // 16-byte Folded Spill
	stp	x24, x23, [sp, #48]             // 16-byte Folded Spill
	stp	x22, x21, [sp, #64]             // 16-byte Folded Spill
	stp	x20, x19, [sp, #80]             // 16-byte Folded Spill
	sub	sp, sp, #1824
	cmp	x1, #0
	mov	w8, #4096                       // =0x1000
	mov	x24, x1
	csel	x25, x8, xzr, eq
	cmp	x3, #0
	mov	x23, x2
	csel	x26, x8, xzr, eq
	cmp	x5, #0
	mov	x21, x0
	csel	x27, x8, xzr, eq
	str	xzr, [sp]
	cbz	x6, .LBB77_5
// %bb.1:                               // %join.3.i.i.i
	movi	v0.2d, #0000000000000000
	mov	x20, x3
	add	x1, x24, x25
	add	x3, sp, #16
	mov	x0, x21
	mov	x2, x23
	mov	x19, x5
	mov	x22, x4
	stp	q0, q0, [sp, #16]
	stp	q0, q0, [sp, #48]
	stp	q0, q0, [sp, #80]
	stp	q0, q0, [sp, #112]
	stp	q0, q0, [sp, #144]
	stp	q0, q0, [sp, #176]
	stp	q0, q0, [sp, #208]
	stp	q0, q0, [sp, #240]
	stp	q0, q0, [sp, #272]
	stp	q0, q0, [sp, #304]
	stp	q0, q0, [sp, #336]
	stp	q0, q0, [sp, #368]
	stp	q0, q0, [sp, #400]
	stp	q0, q0, [sp, #432]
	stp	q0, q0, [sp, #464]
	stp	q0, q0, [sp, #496]
	bl	"block::admit"
	cbz	w0, .LBB77_6
// %bb.2:                               // %arm.3.i.i.i.i
	add	x0, sp, #528
	mov	w1, wzr
	mov	w2, #1280                       // =0x500
	and	w24, w21, #0xff
	add	x23, sp, #528
	bl	memset
	cmp	w24, #10
	b.hs	.LBB77_7
// %bb.3:                               // %"neighbours::writing::number.exit.i.i.i.i.i.i"
	orr	w8, w21, #0x30
	mov	w9, #10                         // =0xa
	strb	w8, [sp, #528]
	strb	w9, [sp, #529]
	cbz	x21, .LBB77_52
// %bb.4:
	mov	w24, #2                         // =0x2
	str	x27, [sp, #8]                   // 8-byte Spill
	b	.LBB77_11
.LBB77_5:                               // %then.1.i.i.i
	movi	v0.2d, #0000000000000000
	add	x1, x24, x25
	add	x3, sp, #528
	mov	x0, x21
	mov	x2, x23
	stp	q0, q0, [sp, #528]
	stp	q0, q0, [sp, #560]
	stp	q0, q0, [sp, #592]
	stp	q0, q0, [sp, #624]
	stp	q0, q0, [sp, #656]
	stp	q0, q0, [sp, #688]
	stp	q0, q0, [sp, #720]
	stp	q0, q0, [sp, #752]
	stp	q0, q0, [sp, #784]
	stp	q0, q0, [sp, #816]
	stp	q0, q0, [sp, #848]
	stp	q0, q0, [sp, #880]
	stp	q0, q0, [sp, #912]
	stp	q0, q0, [sp, #944]
	stp	q0, q0, [sp, #976]
	stp	q0, q0, [sp, #1008]
	bl	"block::admit"
	cbnz	w0, .LBB77_50
.LBB77_6:                               // %arm.2.i.i.i.i
	add	x1, x24, x25
	mov	x0, x21
	mov	x2, x23
	bl	"block::refusal"
	bfi	x0, x1, #8, #56
	b	.LBB77_54
.LBB77_7:                               // %join.3.i.i.i.i.i.i.i.i
	mov	w11, #205                       // =0xcd
	mov	w9, #10                         // =0xa
	cmp	w24, #99
	mul	w8, w24, w11
	lsr	w10, w8, #11
	mov	w8, #26                         // =0x1a
	mul	w8, w10, w8
	lsr	w8, w8, #8
	msub	w8, w8, w9, w10
	orr	w8, w8, #0x30
	b.hi	.LBB77_9
// %bb.8:                               // %then.4.i.i.i.i.i.i.i.i
	and	w10, w21, #0xff
	mov	w24, #3                         // =0x3
	mul	w10, w10, w11
	lsr	w10, w10, #11
	msub	w9, w10, w9, w21
	mov	w10, w8
	orr	w8, w9, #0x30
	orr	x9, x23, #0x2
	b	.LBB77_10
.LBB77_9:                               // %join.6.i.i.i.i.i.i.i.i
	and	w11, w21, #0xff
	mov	w12, #41                        // =0x29
	msub	w10, w10, w9, w21
	mul	w11, w11, w12
	orr	x9, x23, #0x3
	mov	w24, #4                         // =0x4
	orr	w12, w10, #0x30
	lsr	w11, w11, #12
	strb	w12, [sp, #530]
	orr	w10, w11, #0x30
.LBB77_10:                              // %"neighbours::writing::number.exit.thread.i.i.i.i.i.i"
	strb	w8, [sp, #529]
	mov	w8, #10                         // =0xa
	str	x27, [sp, #8]                   // 8-byte Spill
	strb	w10, [sp, #528]
	strb	w8, [x9]
.LBB77_11:                              // %join.5.lr.ph.i.i.lr.ph.i.i.i.i.i.i.i
	mov	w27, #1                         // =0x1
	b	.LBB77_13
.LBB77_12:                              // %"neighbours::writing::line.exit.i.i.i.i.i.i.i"
                                        //   in Loop: Header=BB77_13 Depth=1
	cmp	x27, x21
	add	x27, x27, #1
	b.eq	.LBB77_46
.LBB77_13:                              // %join.5.lr.ph.i.i.i.i.i.i.i.i.i
                                        // =>This Loop Header: Depth=1
                                        //     Child Loop BB77_15 Depth 2
                                        //     Child Loop BB77_31 Depth 2
	add	x8, sp, #16
	mov	x9, xzr
	add	x28, x8, x27, lsl #3
	mov	x8, xzr
	b	.LBB77_15
.LBB77_14:                              // %"neighbours::writing::is_greater.exit.i.i.i.i.i.i.i.i.i.i"
                                        //   in Loop: Header=BB77_15 Depth=2
	mov	w11, #1                         // =0x1
	ldur	x12, [x28, #-8]
	lsl	x9, x11, x9
	tst	x12, x9
	cset	w9, ne
	cmp	x21, x10
	add	x8, x9, x8
	mov	x9, x10
	b.eq	.LBB77_17
.LBB77_15:                              // %join.5.i.i.i.i.i.i.i.i.i
                                        //   Parent Loop BB77_13 Depth=1
                                        // =>  This Inner Loop Header: Depth=2
	add	x10, x9, #1
	cmp	x27, x10
	b.lo	.LBB77_14
// %bb.16:                              //   in Loop: Header=BB77_15 Depth=2
	cmp	x21, x10
	add	x8, xzr, x8
	mov	x9, x10
	b.ne	.LBB77_15
.LBB77_17:                              // %"neighbours::writing::count.exit.i.i.i.i.i.i.i.i"
                                        //   in Loop: Header=BB77_13 Depth=1
	cbz	x8, .LBB77_12
// %bb.18:                              // %join.3.i.i5.i.i.i.i.i.i
                                        //   in Loop: Header=BB77_13 Depth=1
	and	w10, w27, #0xff
	cmp	w10, #10
	b.hs	.LBB77_21
// %bb.19:                              // %then.1.i.i.i.i.i.i.i.i.i.i
                                        //   in Loop: Header=BB77_13 Depth=1
	cmp	x24, #1279
	b.hi	.LBB77_28
// %bb.20:                              // %then.1.i.i.i.i.i.i.i.i.i.i.i
                                        //   in Loop: Header=BB77_13 Depth=1
	add	x8, sp, #528
	orr	w9, w27, #0x30
	strb	w9, [x8, x24]
	add	x24, x24, #1
	b	.LBB77_28
.LBB77_21:                              // %join.3.i.i.i.i.i.i.i.i.i.i
                                        //   in Loop: Header=BB77_13 Depth=1
	mov	w9, #205                        // =0xcd
	cmp	w10, #99
	mul	w8, w10, w9
	lsr	w11, w8, #11
	mov	w8, #26                         // =0x1a
	mul	w8, w11, w8
	lsr	w12, w8, #8
	mov	w8, #10                         // =0xa
	msub	w12, w12, w8, w11
	orr	w10, w12, #0x30
	b.hi	.LBB77_25
// %bb.22:                              // %then.4.i.i.i.i.i.i.i.i.i.i
                                        //   in Loop: Header=BB77_13 Depth=1
	cmp	x24, #1279
	b.hi	.LBB77_28
// %bb.23:                              // %join.5.i.preheader.i.i.i.i.i.i.i.i.i.i
                                        //   in Loop: Header=BB77_13 Depth=1
	add	x11, sp, #528
	cmp	x24, #1279
	add	x11, x11, x24
	strb	w10, [x11]
	b.ne	.LBB77_27
// %bb.24:                              //   in Loop: Header=BB77_13 Depth=1
	mov	w24, #1280                      // =0x500
	b	.LBB77_28
.LBB77_25:                              // %join.6.i.i.i.i.i.i.i.i.i.i
                                        //   in Loop: Header=BB77_13 Depth=1
	and	w9, w27, #0xff
	mov	w12, #41                        // =0x29
	msub	w8, w11, w8, w27
	mul	w9, w9, w12
	cmp	x24, #1279
	sturb	w10, [x29, #-11]
	orr	w8, w8, #0x30
	lsr	w9, w9, #12
	sturb	w8, [x29, #-10]
	orr	w9, w9, #0x30
	sturb	w9, [x29, #-12]
	b.hi	.LBB77_28
// %bb.26:                              // %join.5.i28.preheader.i.i.i.i.i.i.i.i.i.i
                                        //   in Loop: Header=BB77_13 Depth=1
	mov	w8, #1279                       // =0x4ff
	mov	w9, #2                          // =0x2
	sub	x1, x29, #12
	sub	x8, x8, x24
	cmp	x8, #2
	csel	x8, x8, x9, lo
	add	x9, sp, #528
	add	x23, x8, #1
	add	x0, x9, x24
	mov	x2, x23
	bl	memcpy
	add	x24, x23, x24
	b	.LBB77_28
.LBB77_27:                              // %common.ret.loopexit.loopexit.i.i.i.i.i.i.i.i.i.i
                                        //   in Loop: Header=BB77_13 Depth=1
	and	w10, w27, #0xff
	add	x24, x24, #2
	mul	w9, w10, w9
	lsr	w9, w9, #11
	msub	w8, w9, w8, w27
	orr	w8, w8, #0x30
	strb	w8, [x11, #1]
.LBB77_28:                              // %"neighbours::writing::number.exit.i.i.i.i.i.i.i.i"
                                        //   in Loop: Header=BB77_13 Depth=1
	mov	x8, xzr
	b	.LBB77_31
.LBB77_29:                              // %then.4.i.i.i.i.i.i.i.i.i.i.i.i
                                        //   in Loop: Header=BB77_31 Depth=2
	cmp	x24, #1279
	b.ls	.LBB77_41
.LBB77_30:                              // %"neighbours::writing::neighbour.exit.i.i.i.i.i.i.i.i.i"
                                        //   in Loop: Header=BB77_31 Depth=2
	cmp	x21, x25
	mov	x8, x25
	b.eq	.LBB77_44
.LBB77_31:                              // %join.5.i8.i.i.i.i.i.i.i.i
                                        //   Parent Loop BB77_13 Depth=1
                                        // =>  This Inner Loop Header: Depth=2
	add	x25, x8, #1
	cmp	x27, x25
	b.hs	.LBB77_30
// %bb.32:                              // %"neighbours::writing::is_greater.exit.i.i13.i.i.i.i.i.i.i.i"
                                        //   in Loop: Header=BB77_31 Depth=2
	ldur	x9, [x28, #-8]
	lsr	x8, x9, x8
	tbz	w8, #0, .LBB77_30
// %bb.33:                              // %then.1.i.i17.i.i.i.i.i.i.i.i
                                        //   in Loop: Header=BB77_31 Depth=2
	cmp	x24, #1279
	b.hi	.LBB77_35
// %bb.34:                              // %then.1.i4.i.i.i.i.i.i.i.i.i.i
                                        //   in Loop: Header=BB77_31 Depth=2
	add	x8, sp, #528
	mov	w9, #32                         // =0x20
	strb	w9, [x8, x24]
	add	x24, x24, #1
.LBB77_35:                              // %"text::writing::put_byte.exit.i.i.i.i.i.i.i.i.i.i"
                                        //   in Loop: Header=BB77_31 Depth=2
	and	w10, w25, #0xff
	cmp	w10, #10
	b.hs	.LBB77_38
// %bb.36:                              // %then.1.i.i.i.i.i.i.i.i.i.i.i.i
                                        //   in Loop: Header=BB77_31 Depth=2
	cmp	x24, #1279
	b.hi	.LBB77_30
// %bb.37:                              // %then.1.i.i.i.i.i.i.i.i.i.i.i.i.i
                                        //   in Loop: Header=BB77_31 Depth=2
	add	x8, sp, #528
	orr	w9, w25, #0x30
	strb	w9, [x8, x24]
	add	x24, x24, #1
	b	.LBB77_30
.LBB77_38:                              // %join.3.i.i.i.i.i.i.i.i.i.i.i.i
                                        //   in Loop: Header=BB77_31 Depth=2
	mov	w9, #205                        // =0xcd
	cmp	w10, #99
	mul	w8, w10, w9
	lsr	w11, w8, #11
	mov	w8, #26                         // =0x1a
	mul	w8, w11, w8
	lsr	w12, w8, #8
	mov	w8, #10                         // =0xa
	msub	w12, w12, w8, w11
	orr	w10, w12, #0x30
	b.ls	.LBB77_29
// %bb.39:                              // %join.6.i.i.i.i.i.i.i.i.i.i.i.i
                                        //   in Loop: Header=BB77_31 Depth=2
	and	w9, w25, #0xff
	mov	w12, #41                        // =0x29
	msub	w8, w11, w8, w25
	mul	w9, w9, w12
	cmp	x24, #1279
	sturb	w10, [x29, #-11]
	orr	w8, w8, #0x30
	lsr	w9, w9, #12
	sturb	w8, [x29, #-10]
	orr	w9, w9, #0x30
	sturb	w9, [x29, #-12]
	b.hi	.LBB77_30
// %bb.40:                              // %join.5.i28.preheader.i.i.i.i.i.i.i.i.i.i.i.i
                                        //   in Loop: Header=BB77_31 Depth=2
	mov	w8, #1279                       // =0x4ff
	mov	w9, #2                          // =0x2
	sub	x1, x29, #12
	sub	x8, x8, x24
	cmp	x8, #2
	csel	x8, x8, x9, lo
	add	x9, sp, #528
	add	x23, x8, #1
	add	x0, x9, x24
	mov	x2, x23
	bl	memcpy
	add	x24, x23, x24
	b	.LBB77_30
.LBB77_41:                              // %join.5.i.preheader.i.i.i.i.i.i.i.i.i.i.i.i
                                        //   in Loop: Header=BB77_31 Depth=2
	add	x11, sp, #528
	cmp	x24, #1279
	add	x11, x11, x24
	strb	w10, [x11]
	b.ne	.LBB77_43
// %bb.42:                              //   in Loop: Header=BB77_31 Depth=2
	mov	w24, #1280                      // =0x500
	b	.LBB77_30
.LBB77_43:                              // %common.ret.loopexit.loopexit.i.i.i.i.i.i.i.i.i.i.i.i
                                        //   in Loop: Header=BB77_31 Depth=2
	and	w10, w25, #0xff
	add	x24, x24, #2
	mul	w9, w10, w9
	lsr	w9, w9, #11
	msub	w8, w9, w8, w25
	orr	w8, w8, #0x30
	strb	w8, [x11, #1]
	b	.LBB77_30
.LBB77_44:                              // %"neighbours::writing::neighbours.exit.i.i.i.i.i.i.i.i"
                                        //   in Loop: Header=BB77_13 Depth=1
	cmp	x24, #1279
	b.hi	.LBB77_12
// %bb.45:                              // %join.5.i20.preheader.i.i.i.i.i.i.i.i
                                        //   in Loop: Header=BB77_13 Depth=1
	mov	w8, #1279                       // =0x4ff
	mov	w9, #2                          // =0x2
	adrp	x1, .Lstatic.8
	add	x1, x1, :lo12:.Lstatic.8
	sub	x8, x8, x24
	cmp	x8, #2
	csel	x8, x8, x9, lo
	add	x9, sp, #528
	add	x23, x8, #1
	add	x0, x9, x24
	mov	x2, x23
	bl	memcpy
	add	x24, x23, x24
	b	.LBB77_12
.LBB77_46:                              // %"neighbours::writing::lines.exit.i.i.i.i.i.i"
	cmp	x24, #1279
	b.hi	.LBB77_49
// %bb.47:                              // %join.5.i.preheader.i.i.i.i.i.i
	ldr	x27, [sp, #8]                   // 8-byte Reload
	add	x8, sp, #528
	cmp	x24, #1279
	mov	w9, #48                         // =0x30
	strb	w9, [x8, x24]
	b.ne	.LBB77_51
// %bb.48:
	mov	w24, #1280                      // =0x500
	cmp	x22, x24
	b.lo	.LBB77_50
	b	.LBB77_53
.LBB77_49:
	ldr	x27, [sp, #8]                   // 8-byte Reload
	cmp	x22, x24
	b.hs	.LBB77_53
.LBB77_50:                              // %"block::check.exit.thread.i.i.i.i"
	mov	w0, #9                          // =0x9
	b	.LBB77_54
.LBB77_51:
	add	x8, x24, #1
	add	x9, sp, #528
	add	x24, x24, #2
	mov	w10, #10                        // =0xa
	strb	w10, [x9, x8]
	cmp	x22, x24
	b.lo	.LBB77_50
	b	.LBB77_53
.LBB77_52:                              // %join.5.i.preheader.thread.i.i.i.i.i.i
	mov	w8, #48                         // =0x30
	mov	w24, #2                         // =0x2
	strb	w8, [sp, #530]
	mov	w8, #3                          // =0x3
	add	x9, sp, #528
	add	x24, x24, #2
	mov	w10, #10                        // =0xa
	strb	w10, [x9, x8]
	cmp	x22, x24
	b.lo	.LBB77_50
.LBB77_53:                              // %join.5.i.i.i.i.i.i
	sub	x8, x22, #1
	sub	x9, x24, #1
	add	x0, x20, x26
	cmp	x8, x9
	add	x1, sp, #528
	csel	x8, x8, x9, lo
	add	x2, x8, #1
	bl	memcpy
	mov	x0, xzr
	str	x24, [x19, x27]
.LBB77_54:                              // %"tteuyomal_c::texts::tteuyomal_write_neighbours.exit"
	add	sp, sp, #1824
	ldp	x20, x19, [sp, #80]             // 16-byte Folded Reload
	ldp	x22, x21, [sp, #64]             // 16-byte Folded Reload
	ldp	x24, x23, [sp, #48]             // 16-byte Folded Reload
	ldp	x26, x25, [sp, #32]             // 16-byte Folded Reload
	ldp	x28, x27, [sp, #16]             // 16-byte Folded Reload
	ldp	x29, x30, [sp], #96             // 16-byte Folded Reload
	ret
.Lfunc_end77:
	.size	tteuyomal_write_neighbours, .Lfunc_end77-tteuyomal_write_neighbours
                                        // -- End function
	.section	.rodata.cst8,"aM",@progbits,8
	.p2align	3, 0x0                          // -- Begin function tteuyomal_write_sheet
.LCPI78_0:
	.byte	36                              // 0x24
	.byte	0                               // 0x0
	.byte	3                               // 0x3
	.byte	0                               // 0x0
	.zero	1
	.zero	1
	.zero	1
	.zero	1
	.section	.text.tteuyomal_write_sheet,"ax",@progbits
	.globl	tteuyomal_write_sheet
	.p2align	2
	.type	tteuyomal_write_sheet,@function
tteuyomal_write_sheet:                  // @tteuyomal_write_sheet
// %bb.0:                               // %start
	sub	sp, sp, #96
	cmp	x0, #0
	mov	w9, #4096                       // =0x1000
	stp	x20, x19, [sp, #80]             // 16-byte Folded Spill
	csel	x8, x9, xzr, eq
	cmp	x2, #0
	stp	x29, x30, [sp, #64]             // 16-byte Folded Spill
	csel	x19, x9, xzr, eq
	cmp	x1, #8, lsl #12                 // =32768
	add	x29, sp, #64
	b.ls	.LBB78_2
// %bb.1:
	mov	w0, #20                         // =0x14
	ldp	x20, x19, [sp, #80]             // 16-byte Folded Reload
	ldp	x29, x30, [sp, #64]             // 16-byte Folded Reload
	add	sp, sp, #96
	ret
.LBB78_2:                               // %join.3.i.i.i.i
	cmp	x3, #40
	b.hs	.LBB78_4
// %bb.3:
	mov	w0, #9                          // =0x9
	ldp	x20, x19, [sp, #80]             // 16-byte Folded Reload
	ldp	x29, x30, [sp, #64]             // 16-byte Folded Reload
	add	sp, sp, #96
	ret
.LBB78_4:                               // %join.6.i.i.i.i
	movi	v0.2d, #0000000000000000
	mov	x9, x0
	mov	x20, x2
	mov	x0, sp
	mov	x2, x1
	add	x1, x9, x8
	mov	w3, wzr
	stp	q0, q0, [sp]
	stp	q0, q0, [sp, #32]
	bl	"compose::fields"
	ldp	x0, x8, [sp, #8]
	ldrb	w9, [sp]
	cbz	w9, .LBB78_6
// %bb.5:                               // %arm.7.i.i.i.i
	bfi	x0, x8, #8, #56
	ldp	x20, x19, [sp, #80]             // 16-byte Folded Reload
	ldp	x29, x30, [sp, #64]             // 16-byte Folded Reload
	add	sp, sp, #96
	ret
.LBB78_6:                               // %"sheets::put_five.exit.i.i.i.i.i.i"
	add	x9, x20, x19
	adrp	x10, .LCPI78_0
	ldur	q0, [sp, #24]
	ldr	d1, [x10, :lo12:.LCPI78_0]
	str	x8, [x9, #8]
	ldr	x8, [sp, #40]
	str	w0, [x9, #4]
	mov	x0, xzr
	str	q0, [x9, #16]
	str	s1, [x9]
	str	x8, [x9, #32]
	ldp	x20, x19, [sp, #80]             // 16-byte Folded Reload
	ldp	x29, x30, [sp, #64]             // 16-byte Folded Reload
	add	sp, sp, #96
	ret
.Lfunc_end78:
	.size	tteuyomal_write_sheet, .Lfunc_end78-tteuyomal_write_sheet
                                        // -- End function
	.section	.rodata.cst8,"aM",@progbits,8
	.p2align	3, 0x0                          // -- Begin function tteuyomal_write_six
.LCPI79_0:
	.byte	40                              // 0x28
	.byte	0                               // 0x0
	.byte	4                               // 0x4
	.byte	0                               // 0x0
	.zero	1
	.zero	1
	.zero	1
	.zero	1
	.section	.text.tteuyomal_write_six,"ax",@progbits
	.globl	tteuyomal_write_six
	.p2align	2
	.type	tteuyomal_write_six,@function
tteuyomal_write_six:                    // @tteuyomal_write_six
// %bb.0:                               // %start
	sub	sp, sp, #96
	cmp	x0, #0
	mov	w9, #4096                       // =0x1000
	stp	x20, x19, [sp, #80]             // 16-byte Folded Spill
	csel	x8, x9, xzr, eq
	cmp	x2, #0
	stp	x29, x30, [sp, #64]             // 16-byte Folded Spill
	csel	x19, x9, xzr, eq
	cmp	x1, #8, lsl #12                 // =32768
	add	x29, sp, #64
	b.ls	.LBB79_2
// %bb.1:
	mov	w0, #20                         // =0x14
	ldp	x20, x19, [sp, #80]             // 16-byte Folded Reload
	ldp	x29, x30, [sp, #64]             // 16-byte Folded Reload
	add	sp, sp, #96
	ret
.LBB79_2:                               // %join.3.i.i.i.i
	cmp	x3, #44
	b.hs	.LBB79_4
// %bb.3:
	mov	w0, #9                          // =0x9
	ldp	x20, x19, [sp, #80]             // 16-byte Folded Reload
	ldp	x29, x30, [sp, #64]             // 16-byte Folded Reload
	add	sp, sp, #96
	ret
.LBB79_4:                               // %join.6.i.i.i.i
	movi	v0.2d, #0000000000000000
	mov	x9, x0
	mov	x20, x2
	mov	x0, sp
	mov	x2, x1
	add	x1, x9, x8
	mov	w3, wzr
	stp	q0, q0, [sp]
	stp	q0, q0, [sp, #32]
	bl	"compose::fields"
	ldp	x0, x8, [sp, #8]
	ldrb	w9, [sp]
	cbz	w9, .LBB79_6
// %bb.5:                               // %arm.7.i.i.i.i
	bfi	x0, x8, #8, #56
	ldp	x20, x19, [sp, #80]             // 16-byte Folded Reload
	ldp	x29, x30, [sp, #64]             // 16-byte Folded Reload
	add	sp, sp, #96
	ret
.LBB79_6:                               // %then.4.i.i.i.i.i.i.i
	add	x9, x20, x19
	adrp	x10, .LCPI79_0
	ldur	q0, [sp, #24]
	ldr	d1, [x10, :lo12:.LCPI79_0]
	str	x8, [x9, #8]
	ldp	x8, x10, [sp, #40]
	str	w0, [x9, #4]
	mov	x0, xzr
	str	q0, [x9, #16]
	str	s1, [x9]
	str	x8, [x9, #32]
	str	w10, [x9, #40]
	ldp	x20, x19, [sp, #80]             // 16-byte Folded Reload
	ldp	x29, x30, [sp, #64]             // 16-byte Folded Reload
	add	sp, sp, #96
	ret
.Lfunc_end79:
	.size	tteuyomal_write_six, .Lfunc_end79-tteuyomal_write_six
                                        // -- End function
	.section	.text.tteuyomal_written_out,"ax",@progbits
	.globl	tteuyomal_written_out           // -- Begin function tteuyomal_written_out
	.p2align	2
	.type	tteuyomal_written_out,@function
tteuyomal_written_out:                  // @tteuyomal_written_out
// %bb.0:                               // %start
	sub	sp, sp, #96
	cmp	x0, #0
	mov	w11, #4096                      // =0x1000
	stp	x20, x19, [sp, #80]             // 16-byte Folded Spill
	csel	x10, x11, xzr, eq
	cmp	x4, #0
	mov	x19, x4
	mov	x9, x1
	mov	x8, x0
	csel	x20, x11, xzr, eq
	cmp	x5, #1
	stp	x29, x30, [sp, #64]             // 16-byte Folded Spill
	add	x29, sp, #64
	stp	xzr, xzr, [sp, #32]
	str	xzr, [sp, #48]
	stp	xzr, xzr, [sp, #16]
	str	xzr, [sp, #8]
	b.hi	.LBB80_3
// %bb.1:                               // %then.1.i.i.i
	add	x0, sp, #32
	add	x1, x8, x10
	sub	x3, x29, #2
	mov	x2, x9
	mov	w4, #1                          // =0x1
	bl	"whole::bonds"
	ldrb	w8, [sp, #32]
	cmp	w8, #1
	b.ne	.LBB80_5
// %bb.2:                               // %arm.1.i.i.i.i
	ldr	x8, [sp, #48]
	ldrb	w9, [sp, #40]
	orr	x0, x9, x8, lsl #8
	ldp	x20, x19, [sp, #80]             // 16-byte Folded Reload
	ldp	x29, x30, [sp, #64]             // 16-byte Folded Reload
	add	sp, sp, #96
	ret
.LBB80_3:                               // %join.3.i.i.i
	cmp	x2, #0
	mov	w11, #4096                      // =0x1000
	mov	x4, x3
	csel	x11, x11, xzr, eq
	add	x0, sp, #8
	add	x1, x8, x10
	add	x3, x2, x11
	mov	x2, x9
	bl	"whole::bonds"
	ldrb	w9, [sp, #8]
	ldp	x0, x8, [sp, #16]
	cmp	w9, #1
	b.ne	.LBB80_6
// %bb.4:                               // %arm.1.i15.i.i.i
	bfi	x0, x8, #8, #56
	ldp	x20, x19, [sp, #80]             // 16-byte Folded Reload
	ldp	x29, x30, [sp, #64]             // 16-byte Folded Reload
	add	sp, sp, #96
	ret
.LBB80_5:
	mov	w0, #9                          // =0x9
	ldp	x20, x19, [sp, #80]             // 16-byte Folded Reload
	ldp	x29, x30, [sp, #64]             // 16-byte Folded Reload
	add	sp, sp, #96
	ret
.LBB80_6:                               // %join.5.i.i.preheader.i12.i.i.i
	add	x9, x19, x20
	stp	x0, x8, [x9]
	mov	x0, xzr
	ldp	x20, x19, [sp, #80]             // 16-byte Folded Reload
	ldp	x29, x30, [sp, #64]             // 16-byte Folded Reload
	add	sp, sp, #96
	ret
.Lfunc_end80:
	.size	tteuyomal_written_out, .Lfunc_end80-tteuyomal_written_out
                                        // -- End function
	.type	.Lstatic.4,@object              // @static.4
	.section	.rodata..Lstatic.4,"a",@progbits
.Lstatic.4:
	.ascii	"  0  0  0  0  0  0  0  0999 V2000\n"
	.size	.Lstatic.4, 34

	.type	.Lstatic.5,@object              // @static.5
	.section	.rodata..Lstatic.5,"a",@progbits
.Lstatic.5:
	.ascii	"    0.0000    0.0000    0.0000 C   0  0  0  0  0  0  0  0  0  0  0  0\n"
	.size	.Lstatic.5, 70

	.type	.Lstatic.6,@object              // @static.6
	.section	.rodata.cst16,"aM",@progbits,16
	.p2align	4, 0x0
.Lstatic.6:
	.ascii	"  1  0  0  0  0\n"
	.size	.Lstatic.6, 16

	.type	.Lstatic.8,@object              // @static.8
	.section	.rodata..Lstatic.8,"a",@progbits
.Lstatic.8:
	.ascii	" 0\n"
	.size	.Lstatic.8, 3

	.ident	"rattle logic=dac8208d650f15bf3e2dc313a14fa4c783a3acf887bdfab66e1714b038d9e11b"
	.section	".note.GNU-stack","",@progbits
