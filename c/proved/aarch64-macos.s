	.section	__TEXT,__text,regular,pure_instructions
	.p2align	2
_ZN127_$LT$wkb_raw..erased..wkb_write..items..Counted$LT$I$GT$$u20$as$u20$wkb_raw..erased..wkb_write..writable..Writable$LT$G$GT$$GT$3put17h2a282c66fbeb61b4E:
	.cfi_startproc
	sub	sp, sp, #144
	.cfi_def_cfa_offset 144
	str	x30, [sp, #48]
	stp	x28, x27, [sp, #64]
	stp	x26, x25, [sp, #80]
	stp	x24, x23, [sp, #96]
	stp	x22, x21, [sp, #112]
	stp	x20, x19, [sp, #128]
	.cfi_offset w19, -8
	.cfi_offset w20, -16
	.cfi_offset w21, -24
	.cfi_offset w22, -32
	.cfi_offset w23, -40
	.cfi_offset w24, -48
	.cfi_offset w25, -56
	.cfi_offset w26, -64
	.cfi_offset w27, -72
	.cfi_offset w28, -80
	.cfi_offset w30, -96
	.cfi_remember_state
	ldr	x25, [x1, #32]
	mov	x19, x0
	cbz	x25, LBB0_2
	ldr	x20, [x1, #40]
	mov	x8, x20
	b	LBB0_3
LBB0_2:
	ldp	x20, x8, [x1, #40]
	subs	x8, x8, x20
	csel	x8, xzr, x8, lo
LBB0_3:
	ldr	w10, [x2]
	ldp	x21, x22, [x1]
	ldrb	w9, [x2, #8]
	cmp	w10, #2
	csel	w11, w10, wzr, eq
	subs	x23, x21, #1
	strb	w9, [sp, #12]
	str	w11, [sp, #4]
	b.le	LBB0_7
	cmp	x21, #2
	b.eq	LBB0_9
	cmp	x21, #3
	b.ne	LBB0_10
	mov	w12, #3
	b	LBB0_11
LBB0_7:
	mov	w12, wzr
	cbz	x21, LBB0_11
	mov	w12, #1
	b	LBB0_11
LBB0_9:
	mov	w12, #2
	b	LBB0_11
LBB0_10:
	cmp	x22, #3
	mov	w12, #3
	cset	w11, eq
	cmp	x22, #4
	csel	w12, w12, w11, eq
LBB0_11:
	ldp	x11, x14, [x19, #16]
	tst	w10, #0x1
	mov	w13, #9
	mov	w15, #13
	csel	x13, x15, x13, ne
	sub	x15, x11, x14
	cmp	x15, x13
	b.hs	LBB0_15
	cbz	x14, LBB0_14
	ldr	x8, [x19]
	mov	w0, #1
	mov	w9, #5
	strb	w9, [x19, #32]
	strb	w0, [x8]
	b	LBB0_52
LBB0_14:
	cmp	x11, x13
	b.lo	LBB0_49
LBB0_15:
	ldr	x11, [x19, #8]
	ldr	w13, [x2, #4]
	cmp	w10, #2
	add	x15, x14, #1
	strb	w9, [x11, x14]
	b.ne	LBB0_17
	mov	w10, #1000
	cmp	w9, #0
	mul	w10, w12, w10
	mov	w12, #5
	orr	w10, w10, w12
	rev	w12, w10
	csel	w13, w10, w12, ne
	add	x12, x14, #5
	str	w13, [x11, x15]
	tbnz	w9, #0, LBB0_22
	b	LBB0_23
LBB0_17:
	cmp	w10, #1
	mov	w16, #536870912
	mov	w17, #1073741824
	csinc	w16, w16, wzr, eq
	cmp	w12, #2
	csel	w17, wzr, w17, lo
	orr	w16, w16, w17
	orr	w12, w16, w12, lsl #31
	mov	w16, #5
	orr	w16, w12, w16
	cbz	w9, LBB0_20
	add	x12, x14, #5
	str	w16, [x11, x15]
	tbz	w10, #0, LBB0_22
	mov	x15, x12
	add	x12, x12, #4
	str	w13, [x11, x15]
	tbz	w9, #0, LBB0_23
	b	LBB0_22
LBB0_20:
	add	x12, x14, #5
	rev	w16, w16
	str	w16, [x11, x15]
	tbz	w10, #0, LBB0_23
	rev	w13, w13
	mov	x15, x12
	add	x12, x12, #4
	str	w13, [x11, x15]
	tbz	w9, #0, LBB0_23
LBB0_22:
	add	x10, x12, #4
	mov	w27, w8
	str	w8, [x11, x12]
	str	x10, [x19, #24]
	cbnz	x27, LBB0_24
	b	LBB0_51
LBB0_23:
	rev	w9, w8
	add	x10, x12, #4
	mov	w27, w8
	str	w9, [x11, x12]
	str	x10, [x19, #24]
	cbz	x27, LBB0_51
LBB0_24:
	ldr	x8, [x1, #48]
	ldr	x24, [x1, #16]
	subs	x9, x8, x20
	csel	x26, xzr, x9, lo
	cbz	x25, LBB0_29
	cbz	x20, LBB0_42
	ldr	x9, [x25]
	cmp	x21, #2
	b.gt	LBB0_43
	cmp	x23, #2
	b.hs	LBB0_45
	add	x8, x8, x8, lsl #1
	add	x9, x9, x9, lsl #1
	b	LBB0_47
LBB0_29:
	lsl	x25, x20, #1
	mov	x28, xzr
	sub	x27, x27, #1
LBB0_30:
	cmp	x28, x26
	b.hs	LBB0_34
	cmp	x21, #2
	add	x8, x20, x28
	b.gt	LBB0_35
	cmp	x23, #2
	b.hs	LBB0_37
	add	x9, x8, x8, lsl #1
	mov	w8, #3
	b	LBB0_39
LBB0_34:
	mov	w10, #5
	b	LBB0_40
LBB0_35:
	cmp	x21, #3
	b.ne	LBB0_38
	lsl	x9, x8, #2
	mov	w8, #4
	b	LBB0_39
LBB0_37:
	mov	x9, x25
	mov	w8, #2
	b	LBB0_39
LBB0_38:
	mul	x9, x8, x22
	mov	x8, x22
LBB0_39:
	add	x9, x24, x9, lsl #3
	mov	x10, x21
LBB0_40:
	add	x1, sp, #16
	add	x2, sp, #4
	mov	x0, x19
	stp	x10, x22, [sp, #16]
	stp	x9, x8, [sp, #32]
	bl	_ZN131_$LT$wkb_raw..erased..wkb_write..line_string.LineStringKind$u20$as$u20$wkb_raw..erased..wkb_write..writable..Writable$LT$L$GT$$GT$3put17hc4ed07414320260dE
	tbnz	w0, #0, LBB0_52
	cmp	x27, x28
	add	x28, x28, #1
	add	x25, x25, #2
	b.ne	LBB0_30
	b	LBB0_52
LBB0_42:
	mov	w9, #5
	b	LBB0_48
LBB0_43:
	cmp	x21, #3
	b.ne	LBB0_46
	lsl	x8, x8, #2
	lsl	x9, x9, #2
	b	LBB0_47
LBB0_45:
	lsl	x8, x8, #1
	lsl	x9, x9, #1
	b	LBB0_47
LBB0_46:
	mul	x8, x8, x22
	mul	x9, x9, x22
LBB0_47:
	add	x10, x24, x8, lsl #3
	sub	x8, x9, x8
	mov	x9, x21
LBB0_48:
	add	x1, sp, #16
	add	x2, sp, #4
	mov	x0, x19
	stp	x9, x22, [sp, #16]
	stp	x10, x8, [sp, #32]
	bl	_ZN131_$LT$wkb_raw..erased..wkb_write..line_string.LineStringKind$u20$as$u20$wkb_raw..erased..wkb_write..writable..Writable$LT$L$GT$$GT$3put17hc4ed07414320260dE
	tbz	w0, #0, LBB0_50
LBB0_49:
	mov	w0, #1
	b	LBB0_52
LBB0_50:
	cmp	x27, #1
	b.ne	LBB0_53
LBB0_51:
	mov	w0, wzr
LBB0_52:
	ldp	x20, x19, [sp, #128]
	ldr	x30, [sp, #48]
	ldp	x22, x21, [sp, #112]
	ldp	x24, x23, [sp, #96]
	ldp	x26, x25, [sp, #80]
	ldp	x28, x27, [sp, #64]
	add	sp, sp, #144
	.cfi_def_cfa_offset 0
	.cfi_restore w19
	.cfi_restore w20
	.cfi_restore w21
	.cfi_restore w22
	.cfi_restore w23
	.cfi_restore w24
	.cfi_restore w25
	.cfi_restore w26
	.cfi_restore w27
	.cfi_restore w28
	.cfi_restore w30
	ret
LBB0_53:
	.cfi_restore_state
	mov	x26, xzr
	sub	x8, x27, #2
	add	x25, x25, #8
LBB0_54:
	add	x26, x26, #1
	mov	x27, x8
	cmp	x26, x20
	b.hs	LBB0_58
	ldp	x8, x9, [x25, #-8]
	cmp	x21, #2
	b.gt	LBB0_59
	cmp	x23, #2
	b.hs	LBB0_61
	add	x8, x8, x8, lsl #1
	add	x9, x9, x9, lsl #1
	b	LBB0_63
LBB0_58:
	mov	w9, #5
	b	LBB0_64
LBB0_59:
	cmp	x21, #3
	b.ne	LBB0_62
	lsl	x8, x8, #2
	lsl	x9, x9, #2
	b	LBB0_63
LBB0_61:
	lsl	x8, x8, #1
	lsl	x9, x9, #1
	b	LBB0_63
LBB0_62:
	mul	x8, x8, x22
	mul	x9, x9, x22
LBB0_63:
	add	x10, x24, x8, lsl #3
	sub	x8, x9, x8
	mov	x9, x21
LBB0_64:
	add	x1, sp, #16
	add	x2, sp, #4
	mov	x0, x19
	stp	x9, x22, [sp, #16]
	stp	x10, x8, [sp, #32]
	bl	_ZN131_$LT$wkb_raw..erased..wkb_write..line_string.LineStringKind$u20$as$u20$wkb_raw..erased..wkb_write..writable..Writable$LT$L$GT$$GT$3put17hc4ed07414320260dE
	tbnz	w0, #0, LBB0_52
	sub	x8, x27, #1
	add	x25, x25, #8
	cbnz	x27, LBB0_54
	b	LBB0_52
Lfunc_end0:
	.cfi_endproc
	.section	__TEXT,__text,regular,pure_instructions
	.p2align	2
_ZN127_$LT$wkb_raw..erased..wkb_write..items..Counted$LT$I$GT$$u20$as$u20$wkb_raw..erased..wkb_write..writable..Writable$LT$G$GT$$GT$3put17h430b41e922cb7f03E:
	.cfi_startproc
	ldr	x8, [x1]
	cmp	x8, #2
	b.gt	LBB1_6
	sub	x9, x8, #1
	cmp	x9, #2
	b.hs	LBB1_13
LBB1_2:
	ldr	x9, [x1, #24]
	mov	x10, #-6148914691236517206
	movk	x10, #43691
	umulh	x9, x9, x10
	lsr	x15, x9, #1
	ldr	w9, [x2]
	ldr	x10, [x1, #8]
	subs	x11, x8, #1
	b.le	LBB1_14
LBB1_3:
	cmp	x8, #2
	b.eq	LBB1_8
	cmp	x8, #3
	b.ne	LBB1_9
	mov	w16, #3
	b	LBB1_17
LBB1_6:
	cmp	x8, #3
	b.ne	LBB1_10
	mov	w9, #4
	b	LBB1_12
LBB1_8:
	mov	w16, #2
	b	LBB1_17
LBB1_9:
	cmp	x10, #3
	mov	w13, #3
	cset	w12, eq
	cmp	x10, #4
	csel	w16, w13, w12, eq
	b	LBB1_17
LBB1_10:
	ldr	x9, [x1, #8]
	cmp	x9, #2
	b.eq	LBB1_13
	cmp	x9, #3
	b.eq	LBB1_2
LBB1_12:
	ldr	x10, [x1, #24]
	udiv	x15, x10, x9
	ldr	w9, [x2]
	ldr	x10, [x1, #8]
	subs	x11, x8, #1
	b.gt	LBB1_3
	b	LBB1_14
LBB1_13:
	ldr	x9, [x1, #24]
	lsr	x15, x9, #1
	ldr	w9, [x2]
	ldr	x10, [x1, #8]
	subs	x11, x8, #1
	b.gt	LBB1_3
LBB1_14:
	cbnz	x8, LBB1_16
	mov	w16, wzr
	b	LBB1_17
LBB1_16:
	mov	w16, #1
LBB1_17:
	stp	x28, x27, [sp, #-80]!
	.cfi_def_cfa_offset 80
	stp	x26, x25, [sp, #16]
	stp	x24, x23, [sp, #32]
	stp	x22, x21, [sp, #48]
	stp	x20, x19, [sp, #64]
	.cfi_offset w19, -8
	.cfi_offset w20, -16
	.cfi_offset w21, -24
	.cfi_offset w22, -32
	.cfi_offset w23, -40
	.cfi_offset w24, -48
	.cfi_offset w25, -56
	.cfi_offset w26, -64
	.cfi_offset w27, -72
	.cfi_offset w28, -80
	ldp	x12, x3, [x0, #16]
	tst	w9, #0x1
	mov	w13, #9
	mov	w14, #13
	csel	x14, x14, x13, ne
	ldrb	w13, [x2, #8]
	sub	x17, x12, x3
	cmp	x17, x14
	b.hs	LBB1_23
	cbz	x3, LBB1_21
	ldr	x1, [x0]
LBB1_20:
	mov	w8, #1
	mov	w9, #5
	strb	w8, [x1]
	strb	w9, [x0, #32]
	b	LBB1_62
LBB1_21:
	cmp	x12, x14
	b.hs	LBB1_23
LBB1_22:
	mov	w8, #1
	b	LBB1_62
LBB1_23:
	ldr	x14, [x0, #8]
	ldr	w17, [x2, #4]
	cmp	w9, #2
	add	x2, x3, #1
	strb	w13, [x14, x3]
	b.ne	LBB1_25
	mov	w17, #1000
	cmp	w13, #0
	mul	w16, w16, w17
	orr	w16, w16, #0x4
	rev	w17, w16
	csel	w17, w16, w17, ne
	add	x16, x3, #5
	str	w17, [x14, x2]
	tbnz	w13, #0, LBB1_30
	b	LBB1_31
LBB1_25:
	cmp	w9, #1
	mov	w4, #536870912
	mov	w5, #1073741824
	csel	w4, w4, wzr, eq
	cmp	w16, #2
	csel	w5, wzr, w5, lo
	orr	w4, w4, w5
	orr	w16, w4, w16, lsl #31
	orr	w4, w16, #0x4
	cbz	w13, LBB1_28
	add	x16, x3, #5
	str	w4, [x14, x2]
	tbz	w9, #0, LBB1_30
	mov	x2, x16
	add	x16, x16, #4
	str	w17, [x14, x2]
	tbz	w13, #0, LBB1_31
	b	LBB1_30
LBB1_28:
	add	x16, x3, #5
	rev	w4, w4
	str	w4, [x14, x2]
	tbz	w9, #0, LBB1_31
	rev	w17, w17
	mov	x2, x16
	add	x16, x16, #4
	str	w17, [x14, x2]
	tbz	w13, #0, LBB1_31
LBB1_30:
	mov	w17, w15
	add	x23, x16, #4
	mov	w15, w15
	str	w17, [x14, x16]
	str	x23, [x0, #24]
	cbnz	x15, LBB1_32
	b	LBB1_61
LBB1_31:
	rev	w17, w15
	add	x23, x16, #4
	mov	w15, w15
	str	w17, [x14, x16]
	str	x23, [x0, #24]
	cbz	x15, LBB1_61
LBB1_32:
	cmp	x10, #3
	mov	w2, #21
	mov	w3, #29
	cset	w17, eq
	csel	x2, x3, x2, eq
	cmp	x8, #2
	mov	w4, #1
	ldr	x3, [x1, #16]
	mov	w5, #3
	cinc	w4, w4, eq
	cmp	x10, #4
	mov	w6, #37
	ldr	x1, [x0]
	mov	w21, #1
	mov	x16, xzr
	csel	w5, w5, w17, eq
	csel	x6, x6, x2, eq
	mov	w7, #24
	adrp	x19, Lswitch.table.wkb_raw_column_from_coordinates.278@PAGE
	add	x19, x19, Lswitch.table.wkb_raw_column_from_coordinates.278@PAGEOFF
	mov	w20, #1000
	movk	w21, #16384, lsl #16
	mov	x22, x3
	b	LBB1_35
LBB1_33:
	stp	x27, x24, [x26, #16]
LBB1_34:
	add	x23, x23, x25, lsl #3
	add	x16, x16, #1
	add	x22, x22, #16
	cmp	x15, x16
	str	x23, [x0, #24]
	b.eq	LBB1_61
LBB1_35:
	cmp	x11, #3
	b.hs	LBB1_38
LBB1_36:
	cmp	x11, #2
	b.hs	LBB1_42
	madd	x24, x16, x7, x3
	mov	w26, w4
	mov	w25, #29
	sub	x27, x12, x23
	cmp	x27, x25
	b.lo	LBB1_46
	b	LBB1_48
LBB1_38:
	cmp	x8, #4
	b.ne	LBB1_44
	cmp	x10, #2
	b.eq	LBB1_41
	cmp	x10, #3
	b.ne	LBB1_36
LBB1_41:
	mul	x24, x16, x10
	mov	w26, w17
	mov	x25, x2
	add	x24, x3, x24, lsl #3
	sub	x27, x12, x23
	cmp	x27, x2
	b.lo	LBB1_46
	b	LBB1_48
LBB1_42:
	cmp	x8, #4
	b.ne	LBB1_45
	mul	x24, x16, x10
	mov	w26, w5
	mov	x25, x6
	add	x24, x3, x24, lsl #3
	sub	x27, x12, x23
	cmp	x27, x6
	b.lo	LBB1_46
	b	LBB1_48
LBB1_44:
	mov	w26, wzr
	mov	x24, x22
	mov	w25, #21
	sub	x27, x12, x23
	cmp	x27, x25
	b.lo	LBB1_46
	b	LBB1_48
LBB1_45:
	add	x24, x3, x16, lsl #5
	mov	w26, #3
	mov	w25, #37
	sub	x27, x12, x23
	cmp	x27, x25
	b.hs	LBB1_48
LBB1_46:
	cbnz	x23, LBB1_20
	cmp	x12, x25
	b.lo	LBB1_22
LBB1_48:
	ldr	x25, [x19, w26, uxtw #3]
	cmp	w9, #2
	add	x27, x23, #1
	strb	w13, [x14, x23]
	b.ne	LBB1_50
	mul	w26, w26, w20
	cmp	w13, #0
	add	x23, x23, #5
	orr	w28, w26, #0x1
	rev	w28, w28
	csinc	w26, w28, w26, eq
	str	w26, [x14, x27]
	ldr	q0, [x24]
	add	x26, x14, x23
	cbz	w13, LBB1_53
	b	LBB1_54
LBB1_50:
	cmp	w26, #2
	csinc	w28, w21, wzr, hs
	orr	w26, w28, w26, lsl #31
	cbz	w13, LBB1_52
	str	w26, [x14, x27]
	add	x23, x23, #5
	ldr	q0, [x24]
	add	x26, x14, x23
	b	LBB1_54
LBB1_52:
	rev	w26, w26
	str	w26, [x14, x27]
	add	x23, x23, #5
	ldr	q0, [x24]
	add	x26, x14, x23
LBB1_53:
	rev64	v0.16b, v0.16b
LBB1_54:
	cmp	x25, #2
	str	q0, [x26]
	b.eq	LBB1_34
	cmp	x25, #3
	b.ne	LBB1_59
	ldr	x24, [x24, #16]
	cbnz	w13, LBB1_58
	rev	x24, x24
LBB1_58:
	str	x24, [x26, #16]
	b	LBB1_34
LBB1_59:
	ldp	x27, x24, [x24, #16]
	cbnz	w13, LBB1_33
	rev	x27, x27
	rev	x24, x24
	b	LBB1_33
LBB1_61:
	mov	w8, wzr
LBB1_62:
	ldp	x20, x19, [sp, #64]
	mov	w0, w8
	ldp	x22, x21, [sp, #48]
	ldp	x24, x23, [sp, #32]
	ldp	x26, x25, [sp, #16]
	ldp	x28, x27, [sp], #80
	.cfi_def_cfa_offset 0
	.cfi_restore w19
	.cfi_restore w20
	.cfi_restore w21
	.cfi_restore w22
	.cfi_restore w23
	.cfi_restore w24
	.cfi_restore w25
	.cfi_restore w26
	.cfi_restore w27
	.cfi_restore w28
	ret
Lfunc_end1:
	.cfi_endproc
	.section	__TEXT,__text,regular,pure_instructions
	.p2align	2
_ZN127_$LT$wkb_raw..erased..wkb_write..items..Counted$LT$I$GT$$u20$as$u20$wkb_raw..erased..wkb_write..writable..Writable$LT$G$GT$$GT$3put17h89d9ba509de172c4E:
	.cfi_startproc
	sub	sp, sp, #208
	.cfi_def_cfa_offset 208
	stp	x29, x30, [sp, #112]
	stp	x28, x27, [sp, #128]
	stp	x26, x25, [sp, #144]
	stp	x24, x23, [sp, #160]
	stp	x22, x21, [sp, #176]
	stp	x20, x19, [sp, #192]
	.cfi_offset w19, -8
	.cfi_offset w20, -16
	.cfi_offset w21, -24
	.cfi_offset w22, -32
	.cfi_offset w23, -40
	.cfi_offset w24, -48
	.cfi_offset w25, -56
	.cfi_offset w26, -64
	.cfi_offset w27, -72
	.cfi_offset w28, -80
	.cfi_offset w30, -88
	.cfi_offset w29, -96
	.cfi_remember_state
	ldr	x22, [x1, #56]
	mov	x19, x0
	cbz	x22, LBB2_2
	ldr	w8, [x1, #64]
	b	LBB2_3
LBB2_2:
	ldp	x9, x8, [x1, #64]
	subs	x8, x8, x9
	csel	x8, xzr, x8, lo
LBB2_3:
	ldr	w10, [x2]
	ldp	x20, x21, [x1]
	ldrb	w9, [x2, #8]
	cmp	w10, #2
	csel	w11, w10, wzr, eq
	cmp	x20, #1
	strb	w9, [sp, #52]
	str	w11, [sp, #44]
	b.le	LBB2_7
	cmp	x20, #2
	b.eq	LBB2_9
	cmp	x20, #3
	b.ne	LBB2_10
	mov	w12, #3
	b	LBB2_11
LBB2_7:
	mov	w12, wzr
	cbz	x20, LBB2_11
	mov	w12, #1
	b	LBB2_11
LBB2_9:
	mov	w12, #2
	b	LBB2_11
LBB2_10:
	cmp	x21, #3
	mov	w12, #3
	cset	w11, eq
	cmp	x21, #4
	csel	w12, w12, w11, eq
LBB2_11:
	ldp	x11, x14, [x19, #16]
	tst	w10, #0x1
	mov	w13, #9
	mov	w15, #13
	csel	x13, x15, x13, ne
	sub	x15, x11, x14
	cmp	x15, x13
	b.hs	LBB2_15
	cbz	x14, LBB2_14
	ldr	x8, [x19]
	mov	w0, #1
	mov	w9, #5
	strb	w9, [x19, #32]
	strb	w0, [x8]
	b	LBB2_46
LBB2_14:
	cmp	x11, x13
	b.lo	LBB2_40
LBB2_15:
	ldr	x11, [x19, #8]
	ldr	w13, [x2, #4]
	cmp	w10, #2
	add	x15, x14, #1
	strb	w9, [x11, x14]
	b.ne	LBB2_17
	mov	w10, #1000
	cmp	w9, #0
	mul	w10, w12, w10
	orr	w10, w10, #0x6
	rev	w12, w10
	csel	w13, w10, w12, ne
	add	x12, x14, #5
	str	w13, [x11, x15]
	tbnz	w9, #0, LBB2_22
	b	LBB2_23
LBB2_17:
	cmp	w10, #1
	mov	w16, #536870912
	mov	w17, #1073741824
	csel	w16, w16, wzr, eq
	cmp	w12, #2
	csel	w17, wzr, w17, lo
	orr	w16, w16, w17
	orr	w12, w16, w12, lsl #31
	orr	w16, w12, #0x6
	cbz	w9, LBB2_20
	add	x12, x14, #5
	str	w16, [x11, x15]
	tbz	w10, #0, LBB2_22
	mov	x15, x12
	add	x12, x12, #4
	str	w13, [x11, x15]
	tbz	w9, #0, LBB2_23
	b	LBB2_22
LBB2_20:
	add	x12, x14, #5
	rev	w16, w16
	str	w16, [x11, x15]
	tbz	w10, #0, LBB2_23
	rev	w13, w13
	mov	x15, x12
	add	x12, x12, #4
	str	w13, [x11, x15]
	tbz	w9, #0, LBB2_23
LBB2_22:
	add	x10, x12, #4
	mov	w27, w8
	str	w8, [x11, x12]
	str	x10, [x19, #24]
	cbnz	x27, LBB2_24
	b	LBB2_45
LBB2_23:
	rev	w9, w8
	add	x10, x12, #4
	mov	w27, w8
	str	w9, [x11, x12]
	str	x10, [x19, #24]
	cbz	x27, LBB2_45
LBB2_24:
	ldp	x23, x24, [x1, #16]
	add	x28, x1, #48
	ldp	x25, x29, [x1, #32]
	cbz	x22, LBB2_33
	ldr	x26, [x1, #72]
	cbz	x25, LBB2_39
	ldr	x8, [x22], #8
	ldr	x9, [x28]
	add	x1, sp, #56
	add	x2, sp, #44
	mov	x0, x19
	sub	x8, x8, x26
	stp	x20, x21, [sp, #56]
	stp	x23, x24, [sp, #72]
	stp	x25, x8, [sp, #88]
	str	x9, [sp, #104]
	bl	_ZN127_$LT$wkb_raw..erased..wkb_write..items..Counted$LT$I$GT$$u20$as$u20$wkb_raw..erased..wkb_write..writable..Writable$LT$G$GT$$GT$3put17hca56c00a2d288c9dE
	tbnz	w0, #0, LBB2_40
	cmp	x27, #1
	b.eq	LBB2_45
	sub	x10, x27, #2
LBB2_29:
	ldur	x8, [x22, #-8]
	mov	x27, x10
	mov	x10, x28
	subs	x8, x8, x26
	add	x9, x25, x8, lsl #3
	b.eq	LBB2_31
	sub	x10, x9, #8
LBB2_31:
	ldr	x11, [x22], #8
	ldr	x10, [x10]
	add	x1, sp, #56
	add	x2, sp, #44
	mov	x0, x19
	sub	x11, x11, x26
	str	x20, [sp, #56]
	sub	x8, x11, x8
	stp	x21, x23, [sp, #64]
	str	x24, [sp, #80]
	stp	x9, x8, [sp, #88]
	str	x10, [sp, #104]
	bl	_ZN127_$LT$wkb_raw..erased..wkb_write..items..Counted$LT$I$GT$$u20$as$u20$wkb_raw..erased..wkb_write..writable..Writable$LT$G$GT$$GT$3put17hca56c00a2d288c9dE
	tbnz	w0, #0, LBB2_46
	sub	x10, x27, #1
	cbnz	x27, LBB2_29
	b	LBB2_46
LBB2_33:
	cbz	x25, LBB2_41
	ldr	x8, [x28]
	mov	w9, #1
	add	x1, sp, #56
	add	x2, sp, #44
	mov	x0, x19
	stp	x20, x21, [sp, #56]
	stp	x23, x24, [sp, #72]
	stp	x25, x9, [sp, #88]
	str	x8, [sp, #104]
	bl	_ZN127_$LT$wkb_raw..erased..wkb_write..items..Counted$LT$I$GT$$u20$as$u20$wkb_raw..erased..wkb_write..writable..Writable$LT$G$GT$$GT$3put17hca56c00a2d288c9dE
	mov	w8, w0
	mov	w0, #1
	tbnz	w8, #0, LBB2_46
	cmp	x27, #1
	b.eq	LBB2_45
	sub	x8, x27, #2
	add	x22, x25, #8
	mov	w25, #1
LBB2_37:
	ldur	x9, [x22, #-8]
	add	x1, sp, #56
	add	x2, sp, #44
	mov	x0, x19
	stp	x20, x21, [sp, #56]
	mov	x26, x8
	stp	x23, x24, [sp, #72]
	stp	x22, x25, [sp, #88]
	str	x9, [sp, #104]
	bl	_ZN127_$LT$wkb_raw..erased..wkb_write..items..Counted$LT$I$GT$$u20$as$u20$wkb_raw..erased..wkb_write..writable..Writable$LT$G$GT$$GT$3put17hca56c00a2d288c9dE
	tbnz	w0, #0, LBB2_46
	sub	x8, x26, #1
	add	x22, x22, #8
	cbnz	x26, LBB2_37
	b	LBB2_46
LBB2_39:
	ldr	x8, [x22]
	add	x1, sp, #56
	add	x2, sp, #44
	mov	x0, x19
	stp	x20, x21, [sp, #56]
	sub	x8, x8, x26
	stp	x23, x24, [sp, #72]
	add	x8, x29, x8
	stp	xzr, x29, [sp, #88]
	str	x8, [sp, #104]
	bl	_ZN127_$LT$wkb_raw..erased..wkb_write..items..Counted$LT$I$GT$$u20$as$u20$wkb_raw..erased..wkb_write..writable..Writable$LT$G$GT$$GT$3put17hca56c00a2d288c9dE
	tbz	w0, #0, LBB2_44
LBB2_40:
	mov	w0, #1
	b	LBB2_46
LBB2_41:
	sub	x8, x27, #1
LBB2_42:
	add	x25, x29, #1
	add	x1, sp, #56
	add	x2, sp, #44
	mov	x0, x19
	stp	x20, x21, [sp, #56]
	mov	x22, x8
	stp	x23, x24, [sp, #72]
	stp	xzr, x29, [sp, #88]
	str	x25, [sp, #104]
	bl	_ZN127_$LT$wkb_raw..erased..wkb_write..items..Counted$LT$I$GT$$u20$as$u20$wkb_raw..erased..wkb_write..writable..Writable$LT$G$GT$$GT$3put17hca56c00a2d288c9dE
	tbnz	w0, #0, LBB2_46
	sub	x8, x22, #1
	mov	x29, x25
	cbnz	x22, LBB2_42
	b	LBB2_46
LBB2_44:
	cmp	x27, #1
	b.ne	LBB2_47
LBB2_45:
	mov	w0, wzr
LBB2_46:
	ldp	x20, x19, [sp, #192]
	ldp	x22, x21, [sp, #176]
	ldp	x24, x23, [sp, #160]
	ldp	x26, x25, [sp, #144]
	ldp	x28, x27, [sp, #128]
	ldp	x29, x30, [sp, #112]
	add	sp, sp, #208
	.cfi_def_cfa_offset 0
	.cfi_restore w19
	.cfi_restore w20
	.cfi_restore w21
	.cfi_restore w22
	.cfi_restore w23
	.cfi_restore w24
	.cfi_restore w25
	.cfi_restore w26
	.cfi_restore w27
	.cfi_restore w28
	.cfi_restore w30
	.cfi_restore w29
	ret
LBB2_47:
	.cfi_restore_state
	dup	v1.2d, x26
	dup	v0.2d, x29
	mov	x25, xzr
	sub	x26, x27, #2
	stp	q0, q1, [sp]
LBB2_48:
	ldp	q1, q2, [sp]
	add	x1, sp, #56
	ldr	q0, [x22], #8
	add	x2, sp, #44
	mov	x0, x19
	stp	x20, x21, [sp, #56]
	sub	v0.2d, v0.2d, v2.2d
	stp	x23, x24, [sp, #72]
	str	xzr, [sp, #88]
	add	v0.2d, v1.2d, v0.2d
	stur	q0, [sp, #96]
	bl	_ZN127_$LT$wkb_raw..erased..wkb_write..items..Counted$LT$I$GT$$u20$as$u20$wkb_raw..erased..wkb_write..writable..Writable$LT$G$GT$$GT$3put17hca56c00a2d288c9dE
	tbnz	w0, #0, LBB2_46
	cmp	x26, x25
	add	x25, x25, #1
	b.ne	LBB2_48
	b	LBB2_46
Lfunc_end2:
	.cfi_endproc
	.section	__TEXT,__text,regular,pure_instructions
	.p2align	2
_ZN127_$LT$wkb_raw..erased..wkb_write..items..Counted$LT$I$GT$$u20$as$u20$wkb_raw..erased..wkb_write..writable..Writable$LT$G$GT$$GT$3put17hca56c00a2d288c9dE:
	.cfi_startproc
	sub	sp, sp, #80
	.cfi_def_cfa_offset 80
	stp	x30, x23, [sp, #32]
	stp	x22, x21, [sp, #48]
	stp	x20, x19, [sp, #64]
	.cfi_offset w19, -8
	.cfi_offset w20, -16
	.cfi_offset w21, -24
	.cfi_offset w22, -32
	.cfi_offset w23, -40
	.cfi_offset w30, -48
	.cfi_remember_state
	ldr	x8, [x1, #32]
	mov	x20, x1
	mov	x19, x0
	cbz	x8, LBB3_6
	ldr	x9, [x20, #40]
	ldr	x11, [x20]
	cbz	x9, LBB3_7
LBB3_2:
	ldr	x10, [x20, #48]
	subs	x10, x10, x9
	csel	x10, xzr, x10, lo
	cmp	x8, #0
	csel	x8, x10, x9, eq
	cmp	x8, #1
	csinc	x9, x8, xzr, hi
	mov	w8, w9
	ldr	w10, [x2]
	cmp	x11, #1
	b.le	LBB3_8
LBB3_3:
	cmp	x11, #2
	b.eq	LBB3_10
	cmp	x11, #3
	b.ne	LBB3_11
	mov	w13, #3
	b	LBB3_13
LBB3_6:
	ldp	x9, x10, [x20, #40]
	subs	x10, x10, x9
	csel	x10, xzr, x10, lo
	ldr	x11, [x20]
	cbnz	x10, LBB3_2
LBB3_7:
	mov	w9, wzr
	mov	x8, xzr
	ldr	w10, [x2]
	cmp	x11, #1
	b.gt	LBB3_3
LBB3_8:
	cbnz	x11, LBB3_12
	mov	w13, wzr
	b	LBB3_13
LBB3_10:
	mov	w13, #2
	b	LBB3_13
LBB3_11:
	ldr	x11, [x20, #8]
	cmp	x11, #3
	cset	w12, eq
	cmp	x11, #4
	mov	w11, #3
	csel	w13, w11, w12, eq
	b	LBB3_13
LBB3_12:
	mov	w13, #1
LBB3_13:
	ldp	x12, x15, [x19, #16]
	tst	w10, #0x1
	mov	w11, #9
	mov	w14, #13
	csel	x14, x14, x11, ne
	ldrb	w11, [x2, #8]
	sub	x16, x12, x15
	cmp	x16, x14
	b.hs	LBB3_19
	cbz	x15, LBB3_17
	ldr	x8, [x19]
	mov	w0, #1
	mov	w9, #5
	strb	w9, [x19, #32]
	strb	w0, [x8]
LBB3_16:
	ldp	x20, x19, [sp, #64]
	ldp	x22, x21, [sp, #48]
	ldp	x30, x23, [sp, #32]
	add	sp, sp, #80
	.cfi_def_cfa_offset 0
	.cfi_restore w19
	.cfi_restore w20
	.cfi_restore w21
	.cfi_restore w22
	.cfi_restore w23
	.cfi_restore w30
	ret
LBB3_17:
	.cfi_restore_state
	.cfi_remember_state
	cmp	x12, x14
	b.hs	LBB3_19
LBB3_18:
	mov	w0, #1
	ldp	x20, x19, [sp, #64]
	ldp	x22, x21, [sp, #48]
	ldp	x30, x23, [sp, #32]
	add	sp, sp, #80
	.cfi_def_cfa_offset 0
	.cfi_restore w19
	.cfi_restore w20
	.cfi_restore w21
	.cfi_restore w22
	.cfi_restore w23
	.cfi_restore w30
	ret
LBB3_19:
	.cfi_restore_state
	.cfi_remember_state
	ldr	x12, [x19, #8]
	ldr	w14, [x2, #4]
	cmp	w10, #2
	add	x16, x15, #1
	strb	w11, [x12, x15]
	b.ne	LBB3_21
	mov	w10, #1000
	cmp	w11, #0
	mul	w10, w13, w10
	orr	w10, w10, #0x3
	rev	w13, w10
	csel	w14, w10, w13, ne
	add	x13, x15, #5
	str	w14, [x12, x16]
	tbz	w11, #0, LBB3_42
	b	LBB3_26
LBB3_21:
	cmp	w10, #1
	mov	w17, #536870912
	mov	w0, #1073741824
	csinc	w17, w17, wzr, eq
	cmp	w13, #2
	csel	w0, wzr, w0, lo
	orr	w17, w17, w0
	orr	w13, w17, w13, lsl #31
	orr	w17, w13, #0x3
	cbz	w11, LBB3_24
	add	x13, x15, #5
	str	w17, [x12, x16]
	tbz	w10, #0, LBB3_26
	mov	x16, x13
	add	x13, x13, #4
	str	w14, [x12, x16]
	tbnz	w11, #0, LBB3_26
	b	LBB3_42
LBB3_24:
	add	x13, x15, #5
	rev	w17, w17
	str	w17, [x12, x16]
	tbz	w10, #0, LBB3_42
	rev	w14, w14
	mov	x16, x13
	add	x13, x13, #4
	str	w14, [x12, x16]
	tbz	w11, #0, LBB3_42
LBB3_26:
	add	x10, x13, #4
	str	w9, [x12, x13]
	str	x10, [x19, #24]
	cbz	x8, LBB3_57
	cbz	w11, LBB3_43
	mov	x23, #-6148914691236517206
	mov	x21, xzr
	sub	x22, x8, #1
	movk	x23, #43691
LBB3_29:
	mov	x0, sp
	mov	x1, x20
	mov	x2, x21
	bl	_ZN7wkb_raw6erased9wkb_write7polygon8nth_ring17h09e28acf345114b6E
	ldr	x8, [sp]
	cmp	x8, #2
	b.gt	LBB3_32
	sub	x8, x8, #1
	cmp	x8, #2
	b.hs	LBB3_37
LBB3_31:
	ldr	x8, [sp, #24]
	umulh	x8, x8, x23
	lsr	x8, x8, #1
	ldp	x10, x9, [x19, #16]
	sub	x11, x10, x9
	cmp	x11, #3
	b.hi	LBB3_40
	b	LBB3_38
LBB3_32:
	cmp	x8, #3
	b.ne	LBB3_34
	mov	w8, #4
	b	LBB3_36
LBB3_34:
	ldr	x8, [sp, #8]
	cmp	x8, #2
	b.eq	LBB3_37
	cmp	x8, #3
	b.eq	LBB3_31
LBB3_36:
	ldr	x9, [sp, #24]
	udiv	x8, x9, x8
	ldp	x10, x9, [x19, #16]
	sub	x11, x10, x9
	cmp	x11, #3
	b.ls	LBB3_38
	b	LBB3_40
LBB3_37:
	ldr	x8, [sp, #24]
	lsr	x8, x8, #1
	ldp	x10, x9, [x19, #16]
	sub	x11, x10, x9
	cmp	x11, #3
	b.hi	LBB3_40
LBB3_38:
	cbnz	x9, LBB3_58
	cmp	x10, #4
	b.lo	LBB3_18
LBB3_40:
	ldr	x10, [x19, #8]
	add	x11, x9, #4
	mov	x1, sp
	mov	x0, x19
	mov	w2, #1
	str	x11, [x19, #24]
	str	w8, [x10, x9]
	bl	_ZN7wkb_raw6erased9wkb_write11line_string15put_coordinates17hfde6351917a1a33eE
	tbnz	w0, #0, LBB3_16
	cmp	x22, x21
	add	x21, x21, #1
	b.ne	LBB3_29
	b	LBB3_16
LBB3_42:
	add	x10, x13, #4
	rev	w9, w9
	str	w9, [x12, x13]
	str	x10, [x19, #24]
	cbz	x8, LBB3_57
LBB3_43:
	mov	x23, #-6148914691236517206
	mov	x21, xzr
	sub	x22, x8, #1
	movk	x23, #43691
LBB3_44:
	mov	x0, sp
	mov	x1, x20
	mov	x2, x21
	bl	_ZN7wkb_raw6erased9wkb_write7polygon8nth_ring17h09e28acf345114b6E
	ldr	x8, [sp]
	cmp	x8, #2
	b.gt	LBB3_47
	sub	x8, x8, #1
	cmp	x8, #2
	b.hs	LBB3_52
LBB3_46:
	ldr	x8, [sp, #24]
	umulh	x8, x8, x23
	lsr	x8, x8, #1
	ldp	x10, x9, [x19, #16]
	sub	x11, x10, x9
	cmp	x11, #3
	b.ls	LBB3_53
	b	LBB3_55
LBB3_47:
	cmp	x8, #3
	b.ne	LBB3_49
	mov	w8, #4
	b	LBB3_51
LBB3_49:
	ldr	x8, [sp, #8]
	cmp	x8, #2
	b.eq	LBB3_52
	cmp	x8, #3
	b.eq	LBB3_46
LBB3_51:
	ldr	x9, [sp, #24]
	udiv	x8, x9, x8
	ldp	x10, x9, [x19, #16]
	sub	x11, x10, x9
	cmp	x11, #3
	b.ls	LBB3_53
	b	LBB3_55
LBB3_52:
	ldr	x8, [sp, #24]
	lsr	x8, x8, #1
	ldp	x10, x9, [x19, #16]
	sub	x11, x10, x9
	cmp	x11, #3
	b.hi	LBB3_55
LBB3_53:
	cbnz	x9, LBB3_58
	cmp	x10, #3
	b.ls	LBB3_18
LBB3_55:
	ldr	x10, [x19, #8]
	add	x11, x9, #4
	mov	x1, sp
	mov	x0, x19
	mov	w2, wzr
	rev	w8, w8
	str	w8, [x10, x9]
	str	x11, [x19, #24]
	bl	_ZN7wkb_raw6erased9wkb_write11line_string15put_coordinates17hfde6351917a1a33eE
	tbnz	w0, #0, LBB3_16
	cmp	x22, x21
	add	x21, x21, #1
	b.ne	LBB3_44
	b	LBB3_16
LBB3_57:
	mov	w0, wzr
	ldp	x20, x19, [sp, #64]
	ldp	x22, x21, [sp, #48]
	ldp	x30, x23, [sp, #32]
	add	sp, sp, #80
	.cfi_def_cfa_offset 0
	.cfi_restore w19
	.cfi_restore w20
	.cfi_restore w21
	.cfi_restore w22
	.cfi_restore w23
	.cfi_restore w30
	ret
LBB3_58:
	.cfi_restore_state
	ldr	x8, [x19]
	mov	w9, #1
	mov	w10, #5
	strb	w10, [x19, #32]
	mov	w0, #1
	strb	w9, [x8]
	ldp	x20, x19, [sp, #64]
	ldp	x22, x21, [sp, #48]
	ldp	x30, x23, [sp, #32]
	add	sp, sp, #80
	.cfi_def_cfa_offset 0
	.cfi_restore w19
	.cfi_restore w20
	.cfi_restore w21
	.cfi_restore w22
	.cfi_restore w23
	.cfi_restore w30
	ret
Lfunc_end3:
	.cfi_endproc
	.section	__TEXT,__text,regular,pure_instructions
	.p2align	2
_ZN129_$LT$wkb_raw..erased..wkb_geom..error..WkbError$u20$as$u20$core..convert..From$LT$wkb_raw..erased..wkb_geom..error..Fault$GT$$GT$4from17h1a580e8f9abeed70E:
	.cfi_startproc
	cbz	x1, LBB4_3
	cmp	x1, #1
	b.ne	LBB4_4
	mov	w8, #12
	strb	wzr, [x0, #4]
	str	w8, [x0]
	ret
LBB4_3:
	str	wzr, [x0]
	str	x2, [x0, #8]
	ret
LBB4_4:
	mov	w8, #1
	mov	w9, #12
	strb	w8, [x0, #4]
	str	w9, [x0]
	ret
Lfunc_end4:
	.cfi_endproc
	.section	__TEXT,__text,regular,pure_instructions
	.p2align	2
_ZN131_$LT$wkb_raw..erased..wkb_write..line_string.LineStringKind$u20$as$u20$wkb_raw..erased..wkb_write..writable..Writable$LT$L$GT$$GT$3put17hc4ed07414320260dE:
	.cfi_startproc
	ldr	x8, [x1]
	cmp	x8, #1
	b.le	LBB5_4
	cmp	x8, #2
	b.eq	LBB5_6
	cmp	x8, #3
	b.ne	LBB5_7
	mov	w10, #3
	mov	w8, #4
	b	LBB5_9
LBB5_4:
	cbnz	x8, LBB5_11
	mov	w10, wzr
	b	LBB5_10
LBB5_6:
	mov	w10, #2
	b	LBB5_12
LBB5_7:
	ldr	x8, [x1, #8]
	mov	w10, #3
	cmp	x8, #3
	cset	w9, eq
	cmp	x8, #4
	csel	w10, w10, w9, eq
	cmp	x8, #2
	b.eq	LBB5_10
	cmp	x8, #3
	b.eq	LBB5_12
LBB5_9:
	ldr	x9, [x1, #24]
	udiv	x9, x9, x8
	b	LBB5_14
LBB5_10:
	ldr	x8, [x1, #24]
	b	LBB5_13
LBB5_11:
	mov	w10, #1
LBB5_12:
	ldr	x8, [x1, #24]
	mov	x9, #-6148914691236517206
	movk	x9, #43691
	umulh	x8, x8, x9
LBB5_13:
	lsr	x9, x8, #1
LBB5_14:
	ldr	w12, [x2]
	ldp	x8, x14, [x0, #16]
	mov	w11, #9
	mov	w13, #13
	tst	w12, #0x1
	csel	x11, x13, x11, ne
	sub	x13, x8, x14
	cmp	x13, x11
	b.hs	LBB5_19
	cbz	x14, LBB5_17
	ldr	x8, [x0]
	mov	w10, #5
	mov	w9, #1
	strb	w10, [x0, #32]
	mov	w0, #1
	strb	w9, [x8]
	ret
LBB5_17:
	cmp	x8, x11
	b.hs	LBB5_19
	mov	w0, #1
	ret
LBB5_19:
	ldr	x11, [x0, #8]
	ldrb	w8, [x2, #8]
	cmp	w12, #2
	ldr	w13, [x2, #4]
	add	x15, x14, #1
	strb	w8, [x11, x14]
	b.ne	LBB5_21
	mov	w12, #1000
	cmp	w8, #0
	mul	w10, w10, w12
	orr	w10, w10, #0x2
	rev	w12, w10
	csel	w13, w10, w12, ne
	add	x10, x14, #5
	str	w13, [x11, x15]
	tbz	w8, #0, LBB5_27
	b	LBB5_26
LBB5_21:
	cmp	w12, #1
	mov	w16, #536870912
	mov	w17, #1073741824
	csel	w16, w16, wzr, eq
	cmp	w10, #2
	csel	w17, wzr, w17, lo
	orr	w16, w17, w16
	orr	w10, w16, w10, lsl #31
	orr	w16, w10, #0x2
	cbz	w8, LBB5_24
	add	x10, x14, #5
	str	w16, [x11, x15]
	tbz	w12, #0, LBB5_26
	mov	x15, x10
	add	x10, x10, #4
	str	w13, [x11, x15]
	tbnz	w8, #0, LBB5_26
	b	LBB5_27
LBB5_24:
	add	x10, x14, #5
	rev	w16, w16
	str	w16, [x11, x15]
	tbz	w12, #0, LBB5_27
	rev	w13, w13
	mov	x15, x10
	add	x10, x10, #4
	str	w13, [x11, x15]
	tbz	w8, #0, LBB5_27
LBB5_26:
	add	x12, x10, #4
	mov	w2, w8
	str	w9, [x11, x10]
	str	x12, [x0, #24]
	b	_ZN7wkb_raw6erased9wkb_write11line_string15put_coordinates17hfde6351917a1a33eE
LBB5_27:
	rev	w9, w9
	add	x12, x10, #4
	mov	w2, w8
	str	w9, [x11, x10]
	str	x12, [x0, #24]
	b	_ZN7wkb_raw6erased9wkb_write11line_string15put_coordinates17hfde6351917a1a33eE
Lfunc_end5:
	.cfi_endproc
	.section	__TEXT,__const
	.p2align	4, 0x0
LCPI6_0:
	.quad	9218868437227405312
	.quad	-4503599627370496
LCPI6_1:
	.quad	0
	.quad	9218868437227405312
LCPI6_2:
	.quad	-4503599627370496
	.quad	0
	.section	__TEXT,__text,regular,pure_instructions
	.p2align	2
_ZN7wkb_raw6erased10wkb_bounds4scan15run_bounds_into17h553e6883e15adc3fE:
	.cfi_startproc
	tst	w0, #0xff
	b.eq	LBB6_2
	b	_ZN7wkb_raw6erased10wkb_bounds4scan21other_run_bounds_into17hbc24d97fcb0f3ba3E
LBB6_2:
	lsr	w9, w2, #1
	mov	w8, w2
	tbz	w1, #0, LBB6_15
	cbz	w9, LBB6_27
	mov	x12, xzr
	mov	x10, xzr
	mov	x15, #-4503599627370496
	mov	x16, #-9223372036854775808
	mov	x17, #-9007199254740992
	mov	w0, w9
	mov	x1, x3
	mov	x14, x8
	mov	x11, #-9223372036854775808
	mov	x13, #-4503599627370496
	b	LBB6_6
LBB6_5:
	sub	x8, x8, #1
	subs	w0, w0, #1
	add	x1, x1, #32
	b.eq	LBB6_14
LBB6_6:
	ldr	x4, [x1]
	cmp	x17, x4, lsl #1
	b.hs	LBB6_10
	sub	x14, x14, #1
	ldr	x4, [x1, #8]
	cmp	x17, x4, lsl #1
	b.lo	LBB6_11
LBB6_8:
	cmp	x4, x13
	csel	x13, x4, x13, lo
	cmp	x4, x10
	csel	x10, x4, x10, hi
	cmp	x11, x4
	csel	x11, x11, x4, gt
	ldr	x4, [x1, #16]
	cmp	x17, x4, lsl #1
	b.lo	LBB6_12
LBB6_9:
	cmp	x4, x15
	csel	x15, x4, x15, lo
	cmp	x4, x12
	csel	x12, x4, x12, hi
	cmp	x16, x4
	csel	x16, x16, x4, gt
	ldr	x4, [x1, #24]
	cmp	x17, x4, lsl #1
	b.lo	LBB6_5
	b	LBB6_13
LBB6_10:
	cmp	x4, x15
	csel	x15, x4, x15, lo
	cmp	x4, x12
	csel	x12, x4, x12, hi
	cmp	x16, x4
	csel	x16, x16, x4, gt
	ldr	x4, [x1, #8]
	cmp	x17, x4, lsl #1
	b.hs	LBB6_8
LBB6_11:
	sub	x8, x8, #1
	ldr	x4, [x1, #16]
	cmp	x17, x4, lsl #1
	b.hs	LBB6_9
LBB6_12:
	sub	x14, x14, #1
	ldr	x4, [x1, #24]
	cmp	x17, x4, lsl #1
	b.lo	LBB6_5
LBB6_13:
	cmp	x4, x13
	csel	x13, x4, x13, lo
	cmp	x4, x10
	csel	x10, x4, x10, hi
	cmp	x11, x4
	csel	x11, x11, x4, gt
	subs	w0, w0, #1
	add	x1, x1, #32
	b.ne	LBB6_6
LBB6_14:
	sub	w9, w9, #1
	and	w2, w2, #0x1
	add	x9, x3, x9, lsl #5
	add	x3, x9, #32
	cbnz	w2, LBB6_28
	b	LBB6_38
LBB6_15:
	cbz	w9, LBB6_30
	mov	x12, xzr
	mov	x10, xzr
	mov	x15, #-4503599627370496
	mov	x16, #-9223372036854775808
	mov	x17, #-9007199254740992
	mov	w0, w9
	mov	x1, x3
	mov	x14, x8
	mov	x11, #-9223372036854775808
	mov	x13, #-4503599627370496
	b	LBB6_18
LBB6_17:
	sub	x8, x8, #1
	subs	w0, w0, #1
	add	x1, x1, #32
	b.eq	LBB6_26
LBB6_18:
	ldr	x4, [x1]
	rev	x4, x4
	cmp	x17, x4, lsl #1
	b.hs	LBB6_22
	sub	x14, x14, #1
	ldr	x4, [x1, #8]
	rev	x4, x4
	cmp	x17, x4, lsl #1
	b.lo	LBB6_23
LBB6_20:
	cmp	x4, x13
	csel	x13, x4, x13, lo
	cmp	x4, x10
	csel	x10, x4, x10, hi
	cmp	x11, x4
	csel	x11, x11, x4, gt
	ldr	x4, [x1, #16]
	rev	x4, x4
	cmp	x17, x4, lsl #1
	b.lo	LBB6_24
LBB6_21:
	cmp	x4, x15
	csel	x15, x4, x15, lo
	cmp	x4, x12
	csel	x12, x4, x12, hi
	cmp	x16, x4
	csel	x16, x16, x4, gt
	ldr	x4, [x1, #24]
	rev	x4, x4
	cmp	x17, x4, lsl #1
	b.lo	LBB6_17
	b	LBB6_25
LBB6_22:
	cmp	x4, x15
	csel	x15, x4, x15, lo
	cmp	x4, x12
	csel	x12, x4, x12, hi
	cmp	x16, x4
	csel	x16, x16, x4, gt
	ldr	x4, [x1, #8]
	rev	x4, x4
	cmp	x17, x4, lsl #1
	b.hs	LBB6_20
LBB6_23:
	sub	x8, x8, #1
	ldr	x4, [x1, #16]
	rev	x4, x4
	cmp	x17, x4, lsl #1
	b.hs	LBB6_21
LBB6_24:
	sub	x14, x14, #1
	ldr	x4, [x1, #24]
	rev	x4, x4
	cmp	x17, x4, lsl #1
	b.lo	LBB6_17
LBB6_25:
	cmp	x4, x13
	csel	x13, x4, x13, lo
	cmp	x4, x10
	csel	x10, x4, x10, hi
	cmp	x11, x4
	csel	x11, x11, x4, gt
	subs	w0, w0, #1
	add	x1, x1, #32
	b.ne	LBB6_18
LBB6_26:
	sub	w9, w9, #1
	and	w2, w2, #0x1
	add	x9, x3, x9, lsl #5
	add	x3, x9, #32
	cbnz	w2, LBB6_31
	b	LBB6_38
LBB6_27:
	mov	x10, xzr
	mov	x12, xzr
	mov	x11, #-9223372036854775808
	mov	x13, #-4503599627370496
	mov	x15, #-4503599627370496
	mov	x16, #-9223372036854775808
	mov	x14, x8
	cbz	w2, LBB6_38
LBB6_28:
	ldr	x9, [x3]
	mov	x17, #-9007199254740992
	cmp	x17, x9, lsl #1
	b.hs	LBB6_33
	sub	x14, x14, #1
	ldr	x9, [x3, #8]
	cmp	x17, x9, lsl #1
	b.hs	LBB6_34
	b	LBB6_37
LBB6_30:
	mov	x10, xzr
	mov	x12, xzr
	mov	x11, #-9223372036854775808
	mov	x13, #-4503599627370496
	mov	x15, #-4503599627370496
	mov	x16, #-9223372036854775808
	mov	x14, x8
	cbz	w2, LBB6_38
LBB6_31:
	ldr	x9, [x3]
	mov	x17, #-9007199254740992
	rev	x9, x9
	cmp	x17, x9, lsl #1
	b.hs	LBB6_35
	sub	x14, x14, #1
	b	LBB6_36
LBB6_33:
	cmp	x9, x15
	csel	x15, x9, x15, lo
	cmp	x9, x12
	csel	x12, x9, x12, hi
	cmp	x16, x9
	csel	x16, x16, x9, gt
	ldr	x9, [x3, #8]
	cmp	x17, x9, lsl #1
	b.lo	LBB6_37
LBB6_34:
	cmp	x9, x13
	csel	x13, x9, x13, lo
	cmp	x9, x10
	csel	x10, x9, x10, hi
	cmp	x11, x9
	csel	x11, x11, x9, gt
	b	LBB6_38
LBB6_35:
	cmp	x9, x15
	csel	x15, x9, x15, lo
	cmp	x9, x12
	csel	x12, x9, x12, hi
	cmp	x16, x9
	csel	x16, x16, x9, gt
LBB6_36:
	ldr	x9, [x3, #8]
	rev	x9, x9
	cmp	x17, x9, lsl #1
	b.hs	LBB6_34
LBB6_37:
	sub	x8, x8, #1
LBB6_38:
	mov	x9, #9218868437227405312
	adrp	x0, LCPI6_0@PAGE
	mov	x17, #-9223372036854775808
	cmp	x15, x9
	ldr	q0, [x0, LCPI6_0@PAGEOFF]
	adrp	x1, LCPI6_1@PAGE
	csel	x0, x15, x9, lo
	cmp	x12, #0
	ldr	q1, [x1, LCPI6_1@PAGEOFF]
	csel	x12, x12, x0, mi
	cmp	x15, x17
	csel	x15, x15, x17, hi
	cmp	x16, #0
	stp	q0, q1, [x5, #48]
	csel	x15, x15, x16, mi
	cmp	x13, x9
	csel	x9, x13, x9, lo
	cmp	x10, #0
	stp	x12, x15, [x5]
	csel	x9, x10, x9, mi
	cmp	x13, x17
	adrp	x12, LCPI6_2@PAGE
	csel	x10, x13, x17, hi
	cmp	x11, #0
	ldr	q0, [x12, LCPI6_2@PAGEOFF]
	stp	x14, x9, [x5, #16]
	csel	x9, x10, x11, mi
	stp	x9, x8, [x5, #32]
	str	q0, [x5, #80]
	ret
Lfunc_end6:
	.cfi_endproc
	.section	__TEXT,__const
	.p2align	4, 0x0
LCPI7_0:
	.quad	-4503599627370496
	.quad	0
LCPI7_1:
	.quad	-9223372036854775808
	.quad	0
	.section	__TEXT,__text,regular,pure_instructions
	.p2align	2
_ZN7wkb_raw6erased10wkb_bounds4scan17front_bounds_into17hf7a37f4f4fd991b8E:
	.cfi_startproc
	sub	sp, sp, #288
	.cfi_def_cfa_offset 288
	stp	x29, x30, [sp, #192]
	stp	x28, x27, [sp, #208]
	stp	x26, x25, [sp, #224]
	stp	x24, x23, [sp, #240]
	stp	x22, x21, [sp, #256]
	stp	x20, x19, [sp, #272]
	.cfi_offset w19, -8
	.cfi_offset w20, -16
	.cfi_offset w21, -24
	.cfi_offset w22, -32
	.cfi_offset w23, -40
	.cfi_offset w24, -48
	.cfi_offset w25, -56
	.cfi_offset w26, -64
	.cfi_offset w27, -72
	.cfi_offset w28, -80
	.cfi_offset w30, -88
	.cfi_offset w29, -96
	.cfi_remember_state
	adrp	x8, LCPI7_0@PAGE
	mov	x7, x1
	mov	x21, x0
	ldr	q0, [x8, LCPI7_0@PAGEOFF]
	adrp	x8, LCPI7_1@PAGE
	cmp	x1, #5
	ldr	q1, [x8, LCPI7_1@PAGEOFF]
	str	x2, [sp, #8]
	stp	q0, q1, [sp, #64]
	stp	q0, q1, [sp, #96]
	stp	q0, q1, [sp, #128]
	stp	q0, q1, [sp, #160]
	b.lo	LBB7_6
	ldrb	w8, [x21]
	cmp	w8, #1
	b.eq	LBB7_203
	cbnz	w8, LBB7_7
	ldur	w10, [x21, #1]
	mov	w9, wzr
	rev	w10, w10
	lsr	w11, w10, #29
	cbz	w11, LBB7_204
LBB7_4:
	mov	w11, #65534
	movk	w11, #57343, lsl #16
	add	w11, w10, w11
	cmp	w11, #6
	b.lo	LBB7_205
	mov	w11, #1
	movk	w11, #8192, lsl #16
	cmp	w10, w11
	b.ne	LBB7_7
	b	LBB7_205
LBB7_6:
	ldrb	w8, [x21]
LBB7_7:
	ldur	w9, [x21, #1]
	cmp	w8, #0
	mov	w11, #-1073741824
	rev	w10, w9
	csel	w9, w10, w9, eq
	ubfx	w10, w9, #30, #1
	and	w9, w9, #0x7fffffff
	add	w11, w9, w11
	cmp	w10, #0
	csel	w9, w9, w11, eq
	mov	w11, #-536870912
	lsr	w10, w9, #29
	add	w11, w9, w11
	cmp	w10, #0
	mov	w10, #30933
	csel	w9, w11, w9, ne
	movk	w10, #9961, lsl #16
	sub	w9, w9, #1
	mul	w9, w9, w10
	mov	w10, #35127
	movk	w10, #65, lsl #16
	ror	w9, w9, #3
	cmp	w9, w10
	cbz	w8, LBB7_206
LBB7_8:
	mov	x8, xzr
	mov	x9, xzr
	mov	x27, xzr
	mov	x10, xzr
	mov	x11, xzr
	mov	x12, #-4503599627370496
	mov	x13, #-9223372036854775808
	mov	w19, #1
	mov	x14, #-9007199254740992
	mov	x15, #-9223372036854775808
	mov	x16, #-4503599627370496
	b	LBB7_13
LBB7_9:
	cmp	x17, x16
LBB7_10:
	csel	x16, x17, x16, lo
	cmp	x17, x9
	csel	x9, x17, x9, hi
	cmp	x13, x17
	csel	x13, x13, x17, gt
LBB7_11:
	stp	x12, x10, [sp, #64]
	stp	x15, x11, [sp, #80]
	stp	x16, x9, [sp, #96]
	stp	x13, x8, [sp, #112]
LBB7_12:
	cbz	x19, LBB7_59
LBB7_13:
	add	x17, x21, x27
	ldur	w0, [x17, #1]
	ldrb	w17, [x17]
	subs	w1, w0, #1
	ccmp	w17, #1, #0, eq
	b.eq	LBB7_18
	cmp	w1, #6
	mov	w1, #1
	str	w1, [sp, #52]
	b.hi	LBB7_60
	cmp	w17, #1
	b.ne	LBB7_60
	cmp	w0, #1
	add	x17, x27, #5
	b.ne	LBB7_22
	sub	x19, x19, #1
	add	x27, x27, #21
	add	x0, x21, x17
	add	x11, x11, #1
	add	x8, x8, #1
	b	LBB7_35
LBB7_18:
	add	x17, x27, x21
	ldr	x0, [x17, #5]!
	cmp	x14, x0, lsl #1
	b.lo	LBB7_20
	cmp	x0, x12
	add	x11, x11, #1
	csel	x12, x0, x12, lo
	cmp	x0, x10
	csel	x10, x0, x10, hi
	cmp	x15, x0
	csel	x15, x15, x0, gt
LBB7_20:
	ldr	x17, [x17, #8]
	sub	x19, x19, #1
	add	x27, x27, #21
	cmp	x14, x17, lsl #1
	b.lo	LBB7_11
	cmp	x17, x16
	add	x8, x8, #1
	b	LBB7_10
LBB7_22:
	ldr	w17, [x21, x17]
	cmp	w0, #3
	add	x27, x27, #9
	sub	x19, x19, #1
	b.hs	LBB7_39
	lsr	w2, w17, #1
	mov	w1, w17
	add	x0, x21, x27
	add	x11, x11, x1
	add	x8, x8, x1
	cbnz	w2, LBB7_26
	add	x27, x27, x1, lsl #4
	cbnz	w17, LBB7_35
	b	LBB7_11
LBB7_25:
	sub	x8, x8, #1
	subs	w2, w2, #1
	add	x0, x0, #32
	b.eq	LBB7_34
LBB7_26:
	ldr	x3, [x0]
	cmp	x14, x3, lsl #1
	b.hs	LBB7_30
	sub	x11, x11, #1
	ldr	x3, [x0, #8]
	cmp	x14, x3, lsl #1
	b.lo	LBB7_31
LBB7_28:
	cmp	x3, x16
	csel	x16, x3, x16, lo
	cmp	x3, x9
	csel	x9, x3, x9, hi
	cmp	x13, x3
	csel	x13, x13, x3, gt
	ldr	x3, [x0, #16]
	cmp	x14, x3, lsl #1
	b.lo	LBB7_32
LBB7_29:
	cmp	x3, x12
	csel	x12, x3, x12, lo
	cmp	x3, x10
	csel	x10, x3, x10, hi
	cmp	x15, x3
	csel	x15, x15, x3, gt
	ldr	x3, [x0, #24]
	cmp	x14, x3, lsl #1
	b.lo	LBB7_25
	b	LBB7_33
LBB7_30:
	cmp	x3, x12
	csel	x12, x3, x12, lo
	cmp	x3, x10
	csel	x10, x3, x10, hi
	cmp	x15, x3
	csel	x15, x15, x3, gt
	ldr	x3, [x0, #8]
	cmp	x14, x3, lsl #1
	b.hs	LBB7_28
LBB7_31:
	sub	x8, x8, #1
	ldr	x3, [x0, #16]
	cmp	x14, x3, lsl #1
	b.hs	LBB7_29
LBB7_32:
	sub	x11, x11, #1
	ldr	x3, [x0, #24]
	cmp	x14, x3, lsl #1
	b.lo	LBB7_25
LBB7_33:
	cmp	x3, x16
	csel	x16, x3, x16, lo
	cmp	x3, x9
	csel	x9, x3, x9, hi
	cmp	x13, x3
	csel	x13, x13, x3, gt
	subs	w2, w2, #1
	add	x0, x0, #32
	b.ne	LBB7_26
LBB7_34:
	and	w17, w17, #0x1
	add	x27, x27, x1, lsl #4
	cbz	w17, LBB7_11
LBB7_35:
	ldr	x17, [x0]
	cmp	x14, x17, lsl #1
	b.hs	LBB7_37
	sub	x11, x11, #1
	ldr	x17, [x0, #8]
	cmp	x14, x17, lsl #1
	b.hs	LBB7_9
	b	LBB7_38
LBB7_37:
	cmp	x17, x12
	csel	x12, x17, x12, lo
	cmp	x17, x10
	csel	x10, x17, x10, hi
	cmp	x15, x17
	csel	x15, x15, x17, gt
	ldr	x17, [x0, #8]
	cmp	x14, x17, lsl #1
	b.hs	LBB7_9
LBB7_38:
	sub	x8, x8, #1
	b	LBB7_11
LBB7_39:
	csel	w0, w17, wzr, ne
	add	x19, x19, x0
	b.ne	LBB7_12
	cbnz	w17, LBB7_43
	b	LBB7_12
LBB7_41:
	sub	x8, x8, #1
LBB7_42:
	add	x27, x1, x0, lsl #4
	sub	w17, w17, #1
	stp	x12, x10, [sp, #64]
	stp	x15, x11, [sp, #80]
	stp	x16, x9, [sp, #96]
	stp	x13, x8, [sp, #112]
	cbz	w17, LBB7_12
LBB7_43:
	ldr	w0, [x21, x27]
	add	x1, x27, #4
	add	x2, x21, x1
	lsr	w3, w0, #1
	add	x11, x11, x0
	add	x8, x8, x0
	cbnz	w3, LBB7_46
	cbnz	w0, LBB7_55
	b	LBB7_42
LBB7_45:
	sub	x8, x8, #1
	subs	w3, w3, #1
	add	x2, x2, #32
	b.eq	LBB7_54
LBB7_46:
	ldr	x4, [x2]
	cmp	x14, x4, lsl #1
	b.hs	LBB7_50
	sub	x11, x11, #1
	ldr	x4, [x2, #8]
	cmp	x14, x4, lsl #1
	b.lo	LBB7_51
LBB7_48:
	cmp	x4, x16
	csel	x16, x4, x16, lo
	cmp	x4, x9
	csel	x9, x4, x9, hi
	cmp	x13, x4
	csel	x13, x13, x4, gt
	ldr	x4, [x2, #16]
	cmp	x14, x4, lsl #1
	b.lo	LBB7_52
LBB7_49:
	cmp	x4, x12
	csel	x12, x4, x12, lo
	cmp	x4, x10
	csel	x10, x4, x10, hi
	cmp	x15, x4
	csel	x15, x15, x4, gt
	ldr	x4, [x2, #24]
	cmp	x14, x4, lsl #1
	b.lo	LBB7_45
	b	LBB7_53
LBB7_50:
	cmp	x4, x12
	csel	x12, x4, x12, lo
	cmp	x4, x10
	csel	x10, x4, x10, hi
	cmp	x15, x4
	csel	x15, x15, x4, gt
	ldr	x4, [x2, #8]
	cmp	x14, x4, lsl #1
	b.hs	LBB7_48
LBB7_51:
	sub	x8, x8, #1
	ldr	x4, [x2, #16]
	cmp	x14, x4, lsl #1
	b.hs	LBB7_49
LBB7_52:
	sub	x11, x11, #1
	ldr	x4, [x2, #24]
	cmp	x14, x4, lsl #1
	b.lo	LBB7_45
LBB7_53:
	cmp	x4, x16
	csel	x16, x4, x16, lo
	cmp	x4, x9
	csel	x9, x4, x9, hi
	cmp	x13, x4
	csel	x13, x13, x4, gt
	subs	w3, w3, #1
	add	x2, x2, #32
	b.ne	LBB7_46
LBB7_54:
	and	w3, w0, #0x1
	cbz	w3, LBB7_42
LBB7_55:
	ldr	x3, [x2]
	cmp	x14, x3, lsl #1
	b.hs	LBB7_57
	sub	x11, x11, #1
	ldr	x2, [x2, #8]
	cmp	x14, x2, lsl #1
	b.lo	LBB7_41
	b	LBB7_58
LBB7_57:
	cmp	x3, x12
	csel	x12, x3, x12, lo
	cmp	x3, x10
	csel	x10, x3, x10, hi
	cmp	x15, x3
	csel	x15, x15, x3, gt
	ldr	x2, [x2, #8]
	cmp	x14, x2, lsl #1
	b.lo	LBB7_41
LBB7_58:
	cmp	x2, x16
	csel	x16, x2, x16, lo
	cmp	x2, x9
	csel	x9, x2, x9, hi
	cmp	x13, x2
	csel	x13, x13, x2, gt
	b	LBB7_42
LBB7_59:
	mov	w8, #1
	str	w8, [sp, #52]
LBB7_60:
	mov	w10, wzr
	mov	w26, wzr
	mov	x20, #-9007199254740992
	str	x7, [sp, #56]
LBB7_61:
	str	x10, [sp, #40]
	and	x10, x10, #0xff
	str	x10, [sp, #32]
	mov	w10, #2
	str	x10, [sp, #16]
	b	LBB7_178
LBB7_62:
	cbz	w26, LBB7_80
	ldp	x10, x29, [sp, #32]
	adrp	x13, Lswitch.table.wkb_raw_write.374@PAGE
	add	x13, x13, Lswitch.table.wkb_raw_write.374@PAGEOFF
	ldr	w8, [x21, x27]
	ldr	w28, [sp, #52]
	sub	w26, w26, #1
	rev	w9, w8
	tst	w28, #0x1
	ldr	x11, [x13, x10, lsl #3]
	csel	w22, w8, w9, ne
	add	x10, x27, #4
	madd	x27, x11, x22, x10
LBB7_64:
	and	x8, x29, #0xff
	lsr	w16, w22, #1
	sub	x23, x7, x10
	ldr	x24, [x13, x8, lsl #3]
	add	x25, x21, x10
	mov	w12, w22
	tbz	w28, #0, LBB7_84
	ldp	x8, x13, [sp, #80]
	mov	w0, w22
	ldp	x11, x17, [sp, #112]
	ldp	x9, x10, [sp, #64]
	ldp	x14, x15, [sp, #96]
	add	x13, x13, x12
	add	x12, x17, x12
	mov	x17, x25
	cbnz	w16, LBB7_68
	cbnz	w0, LBB7_77
	b	LBB7_108
LBB7_67:
	sub	x12, x12, #1
	subs	w16, w16, #1
	add	x17, x17, x24
	b.eq	LBB7_76
LBB7_68:
	ldr	x0, [x17]
	cmp	x20, x0, lsl #1
	b.hs	LBB7_72
	sub	x13, x13, #1
	ldr	x0, [x17, #8]
	cmp	x20, x0, lsl #1
	b.lo	LBB7_73
LBB7_70:
	cmp	x0, x14
	csel	x14, x0, x14, lo
	cmp	x0, x15
	csel	x15, x0, x15, hi
	cmp	x11, x0
	csel	x11, x11, x0, gt
	add	x17, x17, x24
	ldr	x0, [x17]
	cmp	x20, x0, lsl #1
	b.lo	LBB7_74
LBB7_71:
	cmp	x0, x9
	csel	x9, x0, x9, lo
	cmp	x0, x10
	csel	x10, x0, x10, hi
	cmp	x8, x0
	csel	x8, x8, x0, gt
	ldr	x0, [x17, #8]
	cmp	x20, x0, lsl #1
	b.lo	LBB7_67
	b	LBB7_75
LBB7_72:
	cmp	x0, x9
	csel	x9, x0, x9, lo
	cmp	x0, x10
	csel	x10, x0, x10, hi
	cmp	x8, x0
	csel	x8, x8, x0, gt
	ldr	x0, [x17, #8]
	cmp	x20, x0, lsl #1
	b.hs	LBB7_70
LBB7_73:
	sub	x12, x12, #1
	add	x17, x17, x24
	ldr	x0, [x17]
	cmp	x20, x0, lsl #1
	b.hs	LBB7_71
LBB7_74:
	sub	x13, x13, #1
	ldr	x0, [x17, #8]
	cmp	x20, x0, lsl #1
	b.lo	LBB7_67
LBB7_75:
	cmp	x0, x14
	csel	x14, x0, x14, lo
	cmp	x0, x15
	csel	x15, x0, x15, hi
	cmp	x11, x0
	csel	x11, x11, x0, gt
	subs	w16, w16, #1
	add	x17, x17, x24
	b.ne	LBB7_68
LBB7_76:
	and	w0, w22, #0x1
	cbz	w0, LBB7_108
LBB7_77:
	ldr	x16, [x17]
	cmp	x20, x16, lsl #1
	b.hs	LBB7_105
	sub	x13, x13, #1
	ldr	x16, [x17, #8]
	cmp	x20, x16, lsl #1
	b.lo	LBB7_107
LBB7_79:
	cmp	x16, x14
	csel	x14, x16, x14, lo
	cmp	x16, x15
	csel	x15, x16, x15, hi
	cmp	x11, x16
	csel	x11, x11, x16, gt
	b	LBB7_108
LBB7_80:
	cbz	x19, LBB7_202
	sub	x12, x7, x27
	add	x13, x21, x27
	cmp	x12, #5
	b.hs	LBB7_98
	cmp	x7, x27
	b.eq	LBB7_155
	ldrb	w14, [x13]
	b	LBB7_146
LBB7_84:
	ldp	x8, x13, [sp, #80]
	mov	w0, w22
	ldp	x11, x17, [sp, #112]
	ldp	x9, x10, [sp, #64]
	ldp	x14, x15, [sp, #96]
	add	x13, x13, x12
	add	x12, x17, x12
	mov	x17, x25
	cbnz	w16, LBB7_87
	cbnz	w0, LBB7_96
	b	LBB7_108
LBB7_86:
	sub	x12, x12, #1
	subs	w16, w16, #1
	add	x17, x17, x24
	b.eq	LBB7_95
LBB7_87:
	ldr	x0, [x17]
	rev	x0, x0
	cmp	x20, x0, lsl #1
	b.hs	LBB7_91
	sub	x13, x13, #1
	ldr	x0, [x17, #8]
	rev	x0, x0
	cmp	x20, x0, lsl #1
	b.lo	LBB7_92
LBB7_89:
	cmp	x0, x14
	csel	x14, x0, x14, lo
	cmp	x0, x15
	csel	x15, x0, x15, hi
	cmp	x11, x0
	csel	x11, x11, x0, gt
	add	x17, x17, x24
	ldr	x0, [x17]
	rev	x0, x0
	cmp	x20, x0, lsl #1
	b.lo	LBB7_93
LBB7_90:
	cmp	x0, x9
	csel	x9, x0, x9, lo
	cmp	x0, x10
	csel	x10, x0, x10, hi
	cmp	x8, x0
	csel	x8, x8, x0, gt
	ldr	x0, [x17, #8]
	rev	x0, x0
	cmp	x20, x0, lsl #1
	b.lo	LBB7_86
	b	LBB7_94
LBB7_91:
	cmp	x0, x9
	csel	x9, x0, x9, lo
	cmp	x0, x10
	csel	x10, x0, x10, hi
	cmp	x8, x0
	csel	x8, x8, x0, gt
	ldr	x0, [x17, #8]
	rev	x0, x0
	cmp	x20, x0, lsl #1
	b.hs	LBB7_89
LBB7_92:
	sub	x12, x12, #1
	add	x17, x17, x24
	ldr	x0, [x17]
	rev	x0, x0
	cmp	x20, x0, lsl #1
	b.hs	LBB7_90
LBB7_93:
	sub	x13, x13, #1
	ldr	x0, [x17, #8]
	rev	x0, x0
	cmp	x20, x0, lsl #1
	b.lo	LBB7_86
LBB7_94:
	cmp	x0, x14
	csel	x14, x0, x14, lo
	cmp	x0, x15
	csel	x15, x0, x15, hi
	cmp	x11, x0
	csel	x11, x11, x0, gt
	subs	w16, w16, #1
	add	x17, x17, x24
	b.ne	LBB7_87
LBB7_95:
	and	w0, w22, #0x1
	cbz	w0, LBB7_108
LBB7_96:
	ldr	x16, [x17]
	rev	x16, x16
	cmp	x20, x16, lsl #1
	b.hs	LBB7_106
	sub	x13, x13, #1
	ldr	x16, [x17, #8]
	rev	x16, x16
	cmp	x20, x16, lsl #1
	b.hs	LBB7_79
	b	LBB7_107
LBB7_98:
	ldrb	w14, [x13]
	cmp	w14, #1
	b.eq	LBB7_116
	cbnz	w14, LBB7_146
	ldur	w8, [x13, #1]
	mov	w28, wzr
	rev	w11, w8
	lsr	w8, w11, #29
	cbz	w8, LBB7_117
LBB7_101:
	mov	w8, #4
	movk	w8, #8192, lsl #16
	cmp	w11, w8
	b.gt	LBB7_122
	mov	w8, #2
	mov	w9, wzr
	movk	w8, #8192, lsl #16
	cmp	w11, w8
	mov	w8, #1
	b.gt	LBB7_128
	mov	w10, #1
	movk	w10, #8192, lsl #16
	cmp	w11, w10
	b.eq	LBB7_136
	mov	w10, #2
	movk	w10, #8192, lsl #16
	cmp	w11, w10
	mov	w10, #4
	b.eq	LBB7_159
	b	LBB7_146
LBB7_105:
	cmp	x16, x9
	csel	x9, x16, x9, lo
	cmp	x16, x10
	csel	x10, x16, x10, hi
	cmp	x8, x16
	csel	x8, x8, x16, gt
	ldr	x16, [x17, #8]
	cmp	x20, x16, lsl #1
	b.lo	LBB7_107
	b	LBB7_79
LBB7_106:
	cmp	x16, x9
	csel	x9, x16, x9, lo
	cmp	x16, x10
	csel	x10, x16, x10, hi
	cmp	x8, x16
	csel	x8, x8, x16, gt
	ldr	x16, [x17, #8]
	rev	x16, x16
	cmp	x20, x16, lsl #1
	b.hs	LBB7_79
LBB7_107:
	sub	x12, x12, #1
LBB7_108:
	stp	x8, x13, [sp, #80]
	and	w8, w29, #0xff
	cmp	w8, #1
	stp	x9, x10, [sp, #64]
	stp	x14, x15, [sp, #96]
	stp	x11, x12, [sp, #112]
	b.gt	LBB7_110
	cbz	w8, LBB7_62
	b	LBB7_111
LBB7_110:
	cmp	w8, #2
	b.eq	LBB7_114
LBB7_111:
	add	x8, sp, #64
	and	w2, w28, #0x1
	mov	w1, #2
	add	x0, x8, #64
	mov	x3, x24
	mov	w4, w22
	mov	x5, x25
	mov	x6, x23
	bl	_ZN7wkb_raw6erased10wkb_bounds8extremes8Extremes5widen17hdbfb2690602312b6E
	ldr	x7, [sp, #56]
	and	w8, w29, #0xff
	cmp	w8, #1
	b.eq	LBB7_62
	cmp	w8, #3
	b.ne	LBB7_114
	add	x8, sp, #64
	and	w2, w28, #0x1
	mov	w1, #3
	b	LBB7_115
LBB7_114:
	add	x8, sp, #64
	and	w2, w28, #0x1
	mov	w1, #2
LBB7_115:
	add	x0, x8, #96
	mov	x3, x24
	mov	w4, w22
	mov	x5, x25
	mov	x6, x23
	bl	_ZN7wkb_raw6erased10wkb_bounds8extremes8Extremes5widen17hdbfb2690602312b6E
	ldr	x7, [sp, #56]
	b	LBB7_62
LBB7_116:
	ldur	w11, [x13, #1]
	mov	w28, #1
	lsr	w8, w11, #29
	cbnz	w8, LBB7_101
LBB7_117:
	cmp	w11, #4
	b.gt	LBB7_125
	mov	x10, xzr
	cmp	w11, #2
	mov	w8, wzr
	b.gt	LBB7_130
	cmp	w11, #1
	b.eq	LBB7_137
	cmp	w11, #2
	b.ne	LBB7_132
	mov	w9, w8
	b	LBB7_159
LBB7_122:
	mov	w8, #7
	movk	w8, #8192, lsl #16
	cmp	w11, w8
	b.eq	LBB7_172
	mov	w8, #6
	movk	w8, #8192, lsl #16
	cmp	w11, w8
	b.eq	LBB7_173
	mov	w8, #5
	movk	w8, #8192, lsl #16
	cmp	w11, w8
	b.eq	LBB7_174
	b	LBB7_146
LBB7_125:
	cmp	w11, #5
	b.eq	LBB7_168
	cmp	w11, #6
	b.eq	LBB7_165
	cmp	w11, #7
	b.eq	LBB7_170
	b	LBB7_132
LBB7_128:
	mov	w10, #4
	movk	w10, #8192, lsl #16
	cmp	w11, w10
	b.eq	LBB7_166
	mov	w10, #3
	movk	w10, #8192, lsl #16
	cmp	w11, w10
	mov	w10, #4
	b.ne	LBB7_146
	b	LBB7_201
LBB7_130:
	cmp	w11, #4
	b.eq	LBB7_167
	cmp	w11, #3
	b.eq	LBB7_200
LBB7_132:
	sub	w8, w11, #1001
	cmp	w8, #7
	b.hs	LBB7_138
	mov	x10, xzr
	mov	w8, wzr
	cmp	w11, #1003
	mov	w9, #1
	mov	w12, #6
	str	x12, [sp, #16]
	b.gt	LBB7_179
	cmp	w11, #1001
	adrp	x13, Lswitch.table.wkb_raw_write.374@PAGE
	add	x13, x13, Lswitch.table.wkb_raw_write.374@PAGEOFF
	b.eq	LBB7_161
	cmp	w11, #1002
	b.eq	LBB7_159
	b	LBB7_193
LBB7_136:
	mov	w10, #4
	b	LBB7_160
LBB7_137:
	mov	w9, w8
	b	LBB7_160
LBB7_138:
	sub	w8, w11, #2001
	cmp	w8, #7
	b.hs	LBB7_142
	mov	x10, xzr
	mov	w8, wzr
	cmp	w11, #2003
	mov	w9, #2
	mov	w12, #6
	str	x12, [sp, #16]
	b.gt	LBB7_183
	cmp	w11, #2001
	adrp	x13, Lswitch.table.wkb_raw_write.374@PAGE
	add	x13, x13, Lswitch.table.wkb_raw_write.374@PAGEOFF
	b.eq	LBB7_161
	cmp	w11, #2002
	b.eq	LBB7_159
	b	LBB7_196
LBB7_142:
	sub	w8, w11, #3001
	cmp	w8, #7
	b.hs	LBB7_146
	mov	x10, xzr
	mov	w8, wzr
	cmp	w11, #3003
	mov	w9, #3
	mov	w12, #6
	str	x12, [sp, #16]
	b.gt	LBB7_189
	cmp	w11, #3001
	b.eq	LBB7_160
	cmp	w11, #3002
	b.eq	LBB7_159
	b	LBB7_199
LBB7_146:
	cbz	w14, LBB7_149
	cmp	w14, #1
	b.ne	LBB7_155
	mov	w28, #1
	cmp	x12, #5
	b.hs	LBB7_150
	b	LBB7_155
LBB7_149:
	mov	w28, wzr
	cmp	x12, #5
	b.lo	LBB7_155
LBB7_150:
	ldur	w8, [x13, #1]
	cmp	w28, #0
	mov	w10, #-1073741824
	rev	w9, w8
	csel	w11, w8, w9, ne
	ubfx	w8, w11, #30, #1
	and	w9, w11, #0x7fffffff
	add	w10, w9, w10
	cmp	w8, #0
	csel	w8, w9, w10, eq
	lsr	w10, w8, #29
	cmp	w10, #0
	mov	w10, #-536870912
	add	w10, w8, w10
	csel	w12, w10, w8, ne
	cset	w8, ne
	cmp	w12, #3999
	b.hi	LBB7_155
	mov	w10, #35128
	mov	w13, #1000
	movk	w10, #65, lsl #16
	umull	x10, w12, w10
	lsr	x10, x10, #32
	msub	w10, w10, w13, w12
	sub	w13, w10, #1
	cmp	w13, #6
	b.hi	LBB7_155
	tbnz	w11, #31, LBB7_163
	mov	w11, #19923
	movk	w11, #4194, lsl #16
	umull	x11, w12, w11
	lsr	w12, w9, #30
	lsr	x9, x11, #38
	cbz	w12, LBB7_164
	lsl	w9, w9, #3
	mov	w11, #770
	movk	w11, #770, lsl #16
	lsr	w9, w11, w9
	b	LBB7_164
LBB7_155:
	ldr	w9, [sp, #28]
	mov	w28, #2
LBB7_156:
	ldr	x8, [sp, #16]
	ldr	w12, [sp, #48]
	mov	w10, #4
	and	w11, w8, #0xff
	tst	w12, #0x1
	sub	w8, w11, #3
	csel	x10, x10, xzr, ne
	cmp	w8, #4
	mov	w8, w12
	b.lo	LBB7_177
	cbz	w11, LBB7_160
	cmp	w11, #1
	b.ne	LBB7_201
LBB7_159:
	add	x10, x27, x10
	tst	w28, #0x1
	adrp	x13, Lswitch.table.wkb_raw_write.374@PAGE
	add	x13, x13, Lswitch.table.wkb_raw_write.374@PAGEOFF
	add	x11, x10, x21
	add	x10, x10, #9
	ldur	w11, [x11, #5]
	rev	w12, w11
	csel	w22, w11, w12, ne
	mov	w11, #1
	str	x11, [sp, #16]
	b	LBB7_162
LBB7_160:
	adrp	x13, Lswitch.table.wkb_raw_write.374@PAGE
	add	x13, x13, Lswitch.table.wkb_raw_write.374@PAGEOFF
LBB7_161:
	add	x10, x27, x10
	str	xzr, [sp, #16]
	mov	w22, #1
	add	x10, x10, #5
LBB7_162:
	mov	w11, w9
	mov	w12, w22
	mov	w26, wzr
	and	x11, x11, #0xff
	sub	x19, x19, #1
	mov	w29, w9
	ldr	x11, [x13, x11, lsl #3]
	str	w9, [sp, #28]
	str	w8, [sp, #48]
	madd	x27, x11, x12, x10
	b	LBB7_64
LBB7_163:
	lsr	w9, w9, #30
	cmp	w12, #2000
	ccmp	w9, #0, #0, lo
	mov	w9, #3
	csinc	w9, w9, wzr, ne
LBB7_164:
	mov	x12, #6
	lsl	w11, w10, #3
	cmp	w10, #7
	movk	x12, #513, lsl #16
	mov	w10, #6
	str	w8, [sp, #48]
	movk	x12, #1027, lsl #32
	movk	x12, #5, lsl #48
	lsr	x11, x12, x11
	csel	w10, w11, w10, lo
	str	x10, [sp, #16]
	b	LBB7_156
LBB7_165:
	mov	w8, wzr
	mov	w9, wzr
	mov	x10, xzr
	mov	w11, #5
	b	LBB7_171
LBB7_166:
	mov	w10, #3
	str	x10, [sp, #16]
	b	LBB7_176
LBB7_167:
	mov	w9, #3
	str	x9, [sp, #16]
	mov	w9, w8
	b	LBB7_177
LBB7_168:
	mov	w8, wzr
	mov	w9, wzr
	mov	x10, xzr
LBB7_169:
	mov	w11, #4
	b	LBB7_171
LBB7_170:
	mov	w8, wzr
	mov	w9, wzr
	mov	x10, xzr
	mov	w11, #6
LBB7_171:
	str	x11, [sp, #16]
	b	LBB7_177
LBB7_172:
	mov	w9, wzr
	mov	w8, #6
	b	LBB7_175
LBB7_173:
	mov	w9, wzr
	mov	w8, #5
	b	LBB7_175
LBB7_174:
	mov	w9, wzr
	mov	w8, #4
LBB7_175:
	str	x8, [sp, #16]
	mov	w8, #1
LBB7_176:
	mov	w10, #4
LBB7_177:
	add	x10, x27, x10
	tst	w28, #0x1
	mov	w26, wzr
	add	x11, x10, x21
	add	x27, x10, #9
	ldur	w11, [x11, #5]
	rev	w12, w11
	csel	w11, w11, w12, ne
	add	x10, x19, x11
	sub	x19, x10, #1
LBB7_178:
	str	w8, [sp, #48]
	str	w9, [sp, #28]
	b	LBB7_62
LBB7_179:
	cmp	w11, #1004
	b.eq	LBB7_187
	cmp	w11, #1005
	b.eq	LBB7_188
	cmp	w11, #1006
	b.ne	LBB7_177
	mov	w8, wzr
	mov	x10, xzr
	mov	w9, #1
	mov	w11, #5
	b	LBB7_171
LBB7_183:
	cmp	w11, #2004
	b.eq	LBB7_194
	cmp	w11, #2005
	b.eq	LBB7_195
	cmp	w11, #2006
	b.ne	LBB7_177
	mov	w8, wzr
	mov	x10, xzr
	mov	w9, #2
	mov	w11, #5
	b	LBB7_171
LBB7_187:
	mov	w8, wzr
	mov	x10, xzr
	mov	w9, #1
	mov	w11, #3
	b	LBB7_171
LBB7_188:
	mov	w8, wzr
	mov	x10, xzr
	mov	w9, #1
	b	LBB7_169
LBB7_189:
	cmp	w11, #3006
	b.eq	LBB7_197
	cmp	w11, #3005
	b.eq	LBB7_198
	cmp	w11, #3004
	b.ne	LBB7_177
	mov	w9, #3
	mov	w8, wzr
	mov	x10, xzr
	str	x9, [sp, #16]
	mov	w9, #3
	b	LBB7_177
LBB7_193:
	cmp	w11, #1003
	b.ne	LBB7_177
	b	LBB7_201
LBB7_194:
	mov	w8, wzr
	mov	x10, xzr
	mov	w9, #2
	mov	w11, #3
	b	LBB7_171
LBB7_195:
	mov	w8, wzr
	mov	x10, xzr
	mov	w9, #2
	b	LBB7_169
LBB7_196:
	cmp	w11, #2003
	b.ne	LBB7_177
	b	LBB7_201
LBB7_197:
	mov	w8, wzr
	mov	x10, xzr
	mov	w9, #3
	mov	w11, #5
	b	LBB7_171
LBB7_198:
	mov	w8, wzr
	mov	x10, xzr
	mov	w9, #3
	b	LBB7_169
LBB7_199:
	cmp	w11, #3003
	b.ne	LBB7_177
	b	LBB7_201
LBB7_200:
	mov	w9, w8
LBB7_201:
	add	x10, x27, x10
	tst	w28, #0x1
	sub	x19, x19, #1
	add	x11, x10, x21
	add	x27, x10, #9
	mov	w10, w9
	ldur	w11, [x11, #5]
	str	w28, [sp, #52]
	rev	w12, w11
	csel	w26, w11, w12, ne
	b	LBB7_61
LBB7_202:
	ldp	x10, x11, [sp, #64]
	mov	x9, #9218868437227405312
	ldp	x12, x8, [sp, #80]
	mov	x2, #-9223372036854775808
	ldp	x13, x14, [sp, #96]
	cmp	x10, x9
	ldp	x15, x16, [sp, #112]
	csel	x17, x10, x9, lo
	cmp	x11, #0
	csel	x11, x11, x17, mi
	cmp	x10, x2
	csel	x10, x10, x2, hi
	cmp	x12, #0
	csel	x10, x10, x12, mi
	cmp	x13, x9
	ldp	x0, x1, [sp, #128]
	csel	x12, x13, x9, lo
	cmp	x14, #0
	ldp	x3, x4, [sp, #144]
	csel	x12, x14, x12, mi
	cmp	x13, x2
	ldr	x14, [sp, #8]
	csel	x13, x13, x2, hi
	cmp	x15, #0
	stp	x11, x10, [x14]
	csel	x11, x13, x15, mi
	cmp	x0, x9
	ldp	x17, x5, [sp, #160]
	csel	x10, x0, x9, lo
	cmp	x1, #0
	stp	x8, x12, [x14, #16]
	csel	x8, x1, x10, mi
	cmp	x0, x2
	stp	x11, x16, [x14, #32]
	csel	x10, x0, x2, hi
	cmp	x3, #0
	ldp	x6, x7, [sp, #176]
	csel	x10, x10, x3, mi
	cmp	x17, x9
	stp	x8, x10, [x14, #48]
	csel	x9, x17, x9, lo
	cmp	x5, #0
	csel	x8, x5, x9, mi
	cmp	x17, x2
	csel	x9, x17, x2, hi
	cmp	x6, #0
	stp	x4, x8, [x14, #64]
	ldp	x20, x19, [sp, #272]
	csel	x9, x9, x6, mi
	ldp	x22, x21, [sp, #256]
	stp	x9, x7, [x14, #80]
	ldp	x24, x23, [sp, #240]
	ldp	x26, x25, [sp, #224]
	ldp	x28, x27, [sp, #208]
	ldp	x29, x30, [sp, #192]
	add	sp, sp, #288
	.cfi_def_cfa_offset 0
	.cfi_restore w19
	.cfi_restore w20
	.cfi_restore w21
	.cfi_restore w22
	.cfi_restore w23
	.cfi_restore w24
	.cfi_restore w25
	.cfi_restore w26
	.cfi_restore w27
	.cfi_restore w28
	.cfi_restore w30
	.cfi_restore w29
	ret
LBB7_203:
	.cfi_restore_state
	ldur	w10, [x21, #1]
	mov	w9, #1
	lsr	w11, w10, #29
	cbnz	w11, LBB7_4
LBB7_204:
	sub	w11, w10, #2
	cmp	w11, #6
	b.hs	LBB7_258
LBB7_205:
	tbnz	w9, #0, LBB7_8
LBB7_206:
	mov	w17, #1
	mov	x8, xzr
	mov	x9, xzr
	mov	x27, xzr
	mov	x10, xzr
	mov	x11, xzr
	mov	x12, #-4503599627370496
	mov	w19, #1
	mov	x13, #-9223372036854775808
	mov	w14, #16777216
	mov	x15, #-9007199254740992
	mov	w16, #50331648
	str	w17, [sp, #52]
	mov	x17, #-9223372036854775808
	mov	x0, #-4503599627370496
	b	LBB7_211
LBB7_207:
	cmp	x1, x0
LBB7_208:
	csel	x0, x1, x0, lo
	cmp	x1, x9
	csel	x9, x1, x9, hi
	cmp	x13, x1
	csel	x13, x13, x1, gt
LBB7_209:
	stp	x12, x10, [sp, #64]
	stp	x17, x11, [sp, #80]
	stp	x0, x9, [sp, #96]
	stp	x13, x8, [sp, #112]
LBB7_210:
	cbz	x19, LBB7_60
LBB7_211:
	add	x1, x21, x27
	ldur	w2, [x1, #1]
	ldrb	w1, [x1]
	cmp	w2, w14
	ccmp	w1, #0, #0, eq
	b.eq	LBB7_216
	cbnz	w1, LBB7_60
	rev	w1, w2
	sub	w3, w1, #1
	cmp	w3, #6
	b.hi	LBB7_60
	cmp	w2, w14
	add	x3, x27, #5
	b.ne	LBB7_220
	sub	x19, x19, #1
	add	x27, x27, #21
	add	x2, x21, x3
	add	x11, x11, #1
	add	x8, x8, #1
	b	LBB7_233
LBB7_216:
	add	x1, x27, x21
	ldr	x2, [x1, #5]!
	rev	x2, x2
	cmp	x15, x2, lsl #1
	b.lo	LBB7_218
	cmp	x2, x12
	add	x11, x11, #1
	csel	x12, x2, x12, lo
	cmp	x2, x10
	csel	x10, x2, x10, hi
	cmp	x17, x2
	csel	x17, x17, x2, gt
LBB7_218:
	ldr	x1, [x1, #8]
	sub	x19, x19, #1
	add	x27, x27, #21
	rev	x1, x1
	cmp	x15, x1, lsl #1
	b.lo	LBB7_209
	cmp	x1, x0
	add	x8, x8, #1
	b	LBB7_208
LBB7_220:
	ldr	w3, [x21, x3]
	cmp	w1, #3
	add	x27, x27, #9
	sub	x19, x19, #1
	rev	w1, w3
	b.hs	LBB7_237
	lsr	w3, w1, #1
	add	x2, x21, x27
	add	x11, x11, x1
	add	x8, x8, x1
	mov	w4, w1
	cbnz	w3, LBB7_224
	add	x27, x27, w1, uxtw #4
	cbnz	w4, LBB7_233
	b	LBB7_209
LBB7_223:
	sub	x8, x8, #1
	subs	w3, w3, #1
	add	x2, x2, #32
	b.eq	LBB7_232
LBB7_224:
	ldr	x4, [x2]
	rev	x4, x4
	cmp	x15, x4, lsl #1
	b.hs	LBB7_228
	sub	x11, x11, #1
	ldr	x4, [x2, #8]
	rev	x4, x4
	cmp	x15, x4, lsl #1
	b.lo	LBB7_229
LBB7_226:
	cmp	x4, x0
	csel	x0, x4, x0, lo
	cmp	x4, x9
	csel	x9, x4, x9, hi
	cmp	x13, x4
	csel	x13, x13, x4, gt
	ldr	x4, [x2, #16]
	rev	x4, x4
	cmp	x15, x4, lsl #1
	b.lo	LBB7_230
LBB7_227:
	cmp	x4, x12
	csel	x12, x4, x12, lo
	cmp	x4, x10
	csel	x10, x4, x10, hi
	cmp	x17, x4
	csel	x17, x17, x4, gt
	ldr	x4, [x2, #24]
	rev	x4, x4
	cmp	x15, x4, lsl #1
	b.lo	LBB7_223
	b	LBB7_231
LBB7_228:
	cmp	x4, x12
	csel	x12, x4, x12, lo
	cmp	x4, x10
	csel	x10, x4, x10, hi
	cmp	x17, x4
	csel	x17, x17, x4, gt
	ldr	x4, [x2, #8]
	rev	x4, x4
	cmp	x15, x4, lsl #1
	b.hs	LBB7_226
LBB7_229:
	sub	x8, x8, #1
	ldr	x4, [x2, #16]
	rev	x4, x4
	cmp	x15, x4, lsl #1
	b.hs	LBB7_227
LBB7_230:
	sub	x11, x11, #1
	ldr	x4, [x2, #24]
	rev	x4, x4
	cmp	x15, x4, lsl #1
	b.lo	LBB7_223
LBB7_231:
	cmp	x4, x0
	csel	x0, x4, x0, lo
	cmp	x4, x9
	csel	x9, x4, x9, hi
	cmp	x13, x4
	csel	x13, x13, x4, gt
	subs	w3, w3, #1
	add	x2, x2, #32
	b.ne	LBB7_224
LBB7_232:
	and	w4, w1, #0x1
	add	x27, x27, w1, uxtw #4
	cbz	w4, LBB7_209
LBB7_233:
	ldr	x1, [x2]
	rev	x1, x1
	cmp	x15, x1, lsl #1
	b.hs	LBB7_235
	sub	x11, x11, #1
	ldr	x1, [x2, #8]
	rev	x1, x1
	cmp	x15, x1, lsl #1
	b.hs	LBB7_207
	b	LBB7_236
LBB7_235:
	cmp	x1, x12
	csel	x12, x1, x12, lo
	cmp	x1, x10
	csel	x10, x1, x10, hi
	cmp	x17, x1
	csel	x17, x17, x1, gt
	ldr	x1, [x2, #8]
	rev	x1, x1
	cmp	x15, x1, lsl #1
	b.hs	LBB7_207
LBB7_236:
	sub	x8, x8, #1
	b	LBB7_209
LBB7_237:
	cmp	w2, w16
	csel	w2, wzr, w1, eq
	add	x19, x19, x2
	b.ne	LBB7_210
	cbnz	w3, LBB7_242
LBB7_239:
	str	wzr, [sp, #52]
	b	LBB7_210
LBB7_240:
	sub	x8, x8, #1
LBB7_241:
	add	x27, x3, w2, uxtw #4
	sub	w1, w1, #1
	stp	x12, x10, [sp, #64]
	stp	x17, x11, [sp, #80]
	stp	x0, x9, [sp, #96]
	stp	x13, x8, [sp, #112]
	cbz	w1, LBB7_239
LBB7_242:
	ldr	w2, [x21, x27]
	add	x3, x27, #4
	add	x4, x21, x3
	rev	w2, w2
	lsr	w5, w2, #1
	add	x11, x11, x2
	add	x8, x8, x2
	cbnz	w5, LBB7_245
	cbnz	w2, LBB7_254
	b	LBB7_241
LBB7_244:
	sub	x8, x8, #1
	subs	w5, w5, #1
	add	x4, x4, #32
	b.eq	LBB7_253
LBB7_245:
	ldr	x6, [x4]
	rev	x6, x6
	cmp	x15, x6, lsl #1
	b.hs	LBB7_249
	sub	x11, x11, #1
	ldr	x6, [x4, #8]
	rev	x6, x6
	cmp	x15, x6, lsl #1
	b.lo	LBB7_250
LBB7_247:
	cmp	x6, x0
	csel	x0, x6, x0, lo
	cmp	x6, x9
	csel	x9, x6, x9, hi
	cmp	x13, x6
	csel	x13, x13, x6, gt
	ldr	x6, [x4, #16]
	rev	x6, x6
	cmp	x15, x6, lsl #1
	b.lo	LBB7_251
LBB7_248:
	cmp	x6, x12
	csel	x12, x6, x12, lo
	cmp	x6, x10
	csel	x10, x6, x10, hi
	cmp	x17, x6
	csel	x17, x17, x6, gt
	ldr	x6, [x4, #24]
	rev	x6, x6
	cmp	x15, x6, lsl #1
	b.lo	LBB7_244
	b	LBB7_252
LBB7_249:
	cmp	x6, x12
	csel	x12, x6, x12, lo
	cmp	x6, x10
	csel	x10, x6, x10, hi
	cmp	x17, x6
	csel	x17, x17, x6, gt
	ldr	x6, [x4, #8]
	rev	x6, x6
	cmp	x15, x6, lsl #1
	b.hs	LBB7_247
LBB7_250:
	sub	x8, x8, #1
	ldr	x6, [x4, #16]
	rev	x6, x6
	cmp	x15, x6, lsl #1
	b.hs	LBB7_248
LBB7_251:
	sub	x11, x11, #1
	ldr	x6, [x4, #24]
	rev	x6, x6
	cmp	x15, x6, lsl #1
	b.lo	LBB7_244
LBB7_252:
	cmp	x6, x0
	csel	x0, x6, x0, lo
	cmp	x6, x9
	csel	x9, x6, x9, hi
	cmp	x13, x6
	csel	x13, x13, x6, gt
	subs	w5, w5, #1
	add	x4, x4, #32
	b.ne	LBB7_245
LBB7_253:
	and	w5, w2, #0x1
	cbz	w5, LBB7_241
LBB7_254:
	ldr	x5, [x4]
	rev	x5, x5
	cmp	x15, x5, lsl #1
	b.hs	LBB7_256
	sub	x11, x11, #1
	ldr	x4, [x4, #8]
	rev	x4, x4
	cmp	x15, x4, lsl #1
	b.lo	LBB7_240
	b	LBB7_257
LBB7_256:
	cmp	x5, x12
	csel	x12, x5, x12, lo
	cmp	x5, x10
	csel	x10, x5, x10, hi
	cmp	x17, x5
	csel	x17, x17, x5, gt
	ldr	x4, [x4, #8]
	rev	x4, x4
	cmp	x15, x4, lsl #1
	b.lo	LBB7_240
LBB7_257:
	cmp	x4, x0
	csel	x0, x4, x0, lo
	cmp	x4, x9
	csel	x9, x4, x9, hi
	cmp	x13, x4
	csel	x13, x13, x4, gt
	b	LBB7_241
LBB7_258:
	cmp	w10, #1
	b.eq	LBB7_205
	sub	w11, w10, #1001
	cmp	w11, #7
	b.hs	LBB7_261
	cmp	w10, #1001
	b	LBB7_205
LBB7_261:
	sub	w11, w10, #2001
	cmp	w11, #7
	b.hs	LBB7_263
	cmp	w10, #2001
	b	LBB7_205
LBB7_263:
	sub	w11, w10, #3001
	cmp	w11, #7
	b.hs	LBB7_7
	cmp	w10, #3001
	b	LBB7_205
Lfunc_end7:
	.cfi_endproc
	.section	__TEXT,__const
	.p2align	4, 0x0
LCPI8_0:
	.quad	9218868437227405312
	.quad	-4503599627370496
LCPI8_1:
	.quad	0
	.quad	9218868437227405312
LCPI8_2:
	.quad	-4503599627370496
	.quad	0
	.section	__TEXT,__text,regular,pure_instructions
	.p2align	2
_ZN7wkb_raw6erased10wkb_bounds4scan17rings_bounds_into17hcf84af8976603406E:
	.cfi_startproc
	tst	w2, #0xff
	b.eq	LBB8_2
	b	_ZN7wkb_raw6erased10wkb_bounds4scan23other_rings_bounds_into17hd70bf1d20ab9f9f1E
LBB8_2:
	cmp	w4, #0
	mov	w8, #9
	mov	w9, #5
	csel	x11, x9, x8, eq
	ldr	w12, [x0, x11]
	tbz	w3, #0, LBB8_23
	mov	x8, xzr
	cbz	w12, LBB8_46
	mov	x10, xzr
	mov	x13, xzr
	mov	x9, xzr
	add	x2, x11, #4
	mov	x14, #-4503599627370496
	mov	x11, #-9223372036854775808
	mov	x17, #-9007199254740992
	mov	x16, #-9223372036854775808
	mov	x15, #-4503599627370496
	b	LBB8_7
LBB8_5:
	sub	x8, x8, #1
LBB8_6:
	add	x2, x2, x1, lsl #4
	sub	w12, w12, #1
	cbz	w12, LBB8_43
LBB8_7:
	ldr	w1, [x0, x2]
	add	x2, x2, #4
	add	x3, x0, x2
	lsr	w4, w1, #1
	add	x9, x9, x1
	add	x8, x8, x1
	cbnz	w4, LBB8_10
	cbnz	w1, LBB8_19
	b	LBB8_6
LBB8_9:
	sub	x8, x8, #1
	subs	w4, w4, #1
	add	x3, x3, #32
	b.eq	LBB8_18
LBB8_10:
	ldr	x6, [x3]
	cmp	x17, x6, lsl #1
	b.hs	LBB8_14
	sub	x9, x9, #1
	ldr	x6, [x3, #8]
	cmp	x17, x6, lsl #1
	b.lo	LBB8_15
LBB8_12:
	cmp	x6, x15
	csel	x15, x6, x15, lo
	cmp	x6, x10
	csel	x10, x6, x10, hi
	cmp	x11, x6
	csel	x11, x11, x6, gt
	ldr	x6, [x3, #16]
	cmp	x17, x6, lsl #1
	b.lo	LBB8_16
LBB8_13:
	cmp	x6, x14
	csel	x14, x6, x14, lo
	cmp	x6, x13
	csel	x13, x6, x13, hi
	cmp	x16, x6
	csel	x16, x16, x6, gt
	ldr	x6, [x3, #24]
	cmp	x17, x6, lsl #1
	b.lo	LBB8_9
	b	LBB8_17
LBB8_14:
	cmp	x6, x14
	csel	x14, x6, x14, lo
	cmp	x6, x13
	csel	x13, x6, x13, hi
	cmp	x16, x6
	csel	x16, x16, x6, gt
	ldr	x6, [x3, #8]
	cmp	x17, x6, lsl #1
	b.hs	LBB8_12
LBB8_15:
	sub	x8, x8, #1
	ldr	x6, [x3, #16]
	cmp	x17, x6, lsl #1
	b.hs	LBB8_13
LBB8_16:
	sub	x9, x9, #1
	ldr	x6, [x3, #24]
	cmp	x17, x6, lsl #1
	b.lo	LBB8_9
LBB8_17:
	cmp	x6, x15
	csel	x15, x6, x15, lo
	cmp	x6, x10
	csel	x10, x6, x10, hi
	cmp	x11, x6
	csel	x11, x11, x6, gt
	subs	w4, w4, #1
	add	x3, x3, #32
	b.ne	LBB8_10
LBB8_18:
	and	w4, w1, #0x1
	cbz	w4, LBB8_6
LBB8_19:
	ldr	x4, [x3]
	cmp	x17, x4, lsl #1
	b.hs	LBB8_21
	sub	x9, x9, #1
	ldr	x3, [x3, #8]
	cmp	x17, x3, lsl #1
	b.lo	LBB8_5
	b	LBB8_22
LBB8_21:
	cmp	x4, x14
	csel	x14, x4, x14, lo
	cmp	x4, x13
	csel	x13, x4, x13, hi
	cmp	x16, x4
	csel	x16, x16, x4, gt
	ldr	x3, [x3, #8]
	cmp	x17, x3, lsl #1
	b.lo	LBB8_5
LBB8_22:
	cmp	x3, x15
	csel	x15, x3, x15, lo
	cmp	x3, x10
	csel	x10, x3, x10, hi
	cmp	x11, x3
	csel	x11, x11, x3, gt
	b	LBB8_6
LBB8_23:
	cbz	w12, LBB8_47
	mov	x8, xzr
	mov	x10, xzr
	mov	x13, xzr
	mov	x9, xzr
	rev	w15, w12
	add	x2, x11, #4
	mov	x12, #-4503599627370496
	mov	x11, #-9223372036854775808
	mov	x17, #-9007199254740992
	mov	x16, #-9223372036854775808
	mov	x14, #-4503599627370496
	b	LBB8_27
LBB8_25:
	sub	x8, x8, #1
LBB8_26:
	add	x2, x2, w1, uxtw #4
	sub	w15, w15, #1
	cbz	w15, LBB8_44
LBB8_27:
	ldr	w1, [x0, x2]
	add	x2, x2, #4
	add	x3, x0, x2
	rev	w1, w1
	lsr	w4, w1, #1
	add	x9, x9, x1
	add	x8, x8, x1
	cbnz	w4, LBB8_30
	cbnz	w1, LBB8_39
	b	LBB8_26
LBB8_29:
	sub	x8, x8, #1
	subs	w4, w4, #1
	add	x3, x3, #32
	b.eq	LBB8_38
LBB8_30:
	ldr	x6, [x3]
	rev	x6, x6
	cmp	x17, x6, lsl #1
	b.hs	LBB8_34
	sub	x9, x9, #1
	ldr	x6, [x3, #8]
	rev	x6, x6
	cmp	x17, x6, lsl #1
	b.lo	LBB8_35
LBB8_32:
	cmp	x6, x14
	csel	x14, x6, x14, lo
	cmp	x6, x10
	csel	x10, x6, x10, hi
	cmp	x11, x6
	csel	x11, x11, x6, gt
	ldr	x6, [x3, #16]
	rev	x6, x6
	cmp	x17, x6, lsl #1
	b.lo	LBB8_36
LBB8_33:
	cmp	x6, x12
	csel	x12, x6, x12, lo
	cmp	x6, x13
	csel	x13, x6, x13, hi
	cmp	x16, x6
	csel	x16, x16, x6, gt
	ldr	x6, [x3, #24]
	rev	x6, x6
	cmp	x17, x6, lsl #1
	b.lo	LBB8_29
	b	LBB8_37
LBB8_34:
	cmp	x6, x12
	csel	x12, x6, x12, lo
	cmp	x6, x13
	csel	x13, x6, x13, hi
	cmp	x16, x6
	csel	x16, x16, x6, gt
	ldr	x6, [x3, #8]
	rev	x6, x6
	cmp	x17, x6, lsl #1
	b.hs	LBB8_32
LBB8_35:
	sub	x8, x8, #1
	ldr	x6, [x3, #16]
	rev	x6, x6
	cmp	x17, x6, lsl #1
	b.hs	LBB8_33
LBB8_36:
	sub	x9, x9, #1
	ldr	x6, [x3, #24]
	rev	x6, x6
	cmp	x17, x6, lsl #1
	b.lo	LBB8_29
LBB8_37:
	cmp	x6, x14
	csel	x14, x6, x14, lo
	cmp	x6, x10
	csel	x10, x6, x10, hi
	cmp	x11, x6
	csel	x11, x11, x6, gt
	subs	w4, w4, #1
	add	x3, x3, #32
	b.ne	LBB8_30
LBB8_38:
	and	w4, w1, #0x1
	cbz	w4, LBB8_26
LBB8_39:
	ldr	x4, [x3]
	rev	x4, x4
	cmp	x17, x4, lsl #1
	b.hs	LBB8_41
	sub	x9, x9, #1
	ldr	x3, [x3, #8]
	rev	x3, x3
	cmp	x17, x3, lsl #1
	b.lo	LBB8_25
	b	LBB8_42
LBB8_41:
	cmp	x4, x12
	csel	x12, x4, x12, lo
	cmp	x4, x13
	csel	x13, x4, x13, hi
	cmp	x16, x4
	csel	x16, x16, x4, gt
	ldr	x3, [x3, #8]
	rev	x3, x3
	cmp	x17, x3, lsl #1
	b.lo	LBB8_25
LBB8_42:
	cmp	x3, x14
	csel	x14, x3, x14, lo
	cmp	x3, x10
	csel	x10, x3, x10, hi
	cmp	x11, x3
	csel	x11, x11, x3, gt
	b	LBB8_26
LBB8_43:
	mov	x17, #9218868437227405312
	mov	x0, #-9223372036854775808
	cmp	x14, x17
	csel	x12, x14, x17, lo
	cmp	x13, #0
	csel	x13, x13, x12, mi
	cmp	x14, x0
	csel	x12, x14, x0, hi
	cmp	x16, #0
	csel	x12, x12, x16, mi
	cmp	x15, x17
	csel	x14, x15, x17, lo
	cmp	x10, #0
	csel	x10, x10, x14, mi
	cmp	x15, x0
	csel	x14, x15, x0, hi
	b	LBB8_45
LBB8_44:
	mov	x15, #9218868437227405312
	mov	x0, #-9223372036854775808
	cmp	x12, x15
	csel	x17, x12, x15, lo
	cmp	x13, #0
	csel	x13, x13, x17, mi
	cmp	x12, x0
	csel	x12, x12, x0, hi
	cmp	x16, #0
	csel	x12, x12, x16, mi
	cmp	x14, x15
	csel	x15, x14, x15, lo
	cmp	x10, #0
	csel	x10, x10, x15, mi
	cmp	x14, x0
	csel	x14, x14, x0, hi
LBB8_45:
	cmp	x11, #0
	csel	x11, x14, x11, mi
	b	LBB8_49
LBB8_46:
	mov	x9, xzr
	b	LBB8_48
LBB8_47:
	mov	x9, xzr
	mov	x8, xzr
LBB8_48:
	mov	x12, #-4503599627370496
	mov	x10, #9218868437227405312
	mov	x13, #9218868437227405312
	mov	x11, #-4503599627370496
LBB8_49:
	stp	x9, x10, [x5, #16]
	adrp	x9, LCPI8_0@PAGE
	ldr	q0, [x9, LCPI8_0@PAGEOFF]
	adrp	x9, LCPI8_1@PAGE
	stp	x11, x8, [x5, #32]
	adrp	x8, LCPI8_2@PAGE
	ldr	q1, [x9, LCPI8_1@PAGEOFF]
	stp	x13, x12, [x5]
	ldr	q2, [x8, LCPI8_2@PAGEOFF]
	stp	q0, q1, [x5, #48]
	str	q2, [x5, #80]
	ret
Lfunc_end8:
	.cfi_endproc
	.section	__TEXT,__text,regular,pure_instructions
	.p2align	2
_ZN7wkb_raw6erased10wkb_bounds4scan18member_bounds_into17hb5f17dec8451d087E:
	.cfi_startproc
	mov	x5, x2
	cmp	x1, #5
	b.lo	LBB9_6
	ldrb	w8, [x0]
	cmp	w8, #1
	b.eq	LBB9_20
	cbnz	w8, LBB9_7
	ldur	w9, [x0, #1]
	mov	w3, wzr
	rev	w9, w9
	lsr	w10, w9, #29
	cbz	w10, LBB9_21
LBB9_4:
	mov	w10, #3
	movk	w10, #8192, lsl #16
	cmp	w9, w10
	b.le	LBB9_24
	mov	w10, #65532
	movk	w10, #57343, lsl #16
	add	w9, w9, w10
	cmp	w9, #4
	b.lo	LBB9_23
	b	LBB9_7
LBB9_6:
	ldrb	w8, [x0]
LBB9_7:
	ldur	w9, [x0, #1]
	cmp	w8, #0
	mov	w11, #-536870912
	cset	w3, ne
	mov	w13, #1000
	rev	w8, w9
	csel	w12, w9, w8, ne
	mov	w9, #-1073741824
	ubfx	w8, w12, #30, #1
	and	w10, w12, #0x7fffffff
	add	w9, w10, w9
	cmp	w8, #0
	csel	w9, w10, w9, eq
	lsr	w8, w9, #29
	add	w11, w9, w11
	cmp	w8, #0
	csel	w11, w11, w9, ne
	mov	w9, #35128
	movk	w9, #65, lsl #16
	umull	x9, w11, w9
	lsr	x9, x9, #32
	msub	w9, w9, w13, w11
	tbnz	w12, #31, LBB9_15
	mov	w12, #19923
	lsr	w10, w10, #30
	movk	w12, #4194, lsl #16
	umull	x11, w11, w12
	lsr	x2, x11, #38
	cbz	w10, LBB9_10
	lsl	w10, w2, #3
	mov	w11, #770
	movk	w11, #770, lsl #16
	lsr	w2, w11, w10
LBB9_10:
	cmp	w9, #3
	b.eq	LBB9_16
LBB9_11:
	cmp	w9, #2
	b.eq	LBB9_18
	cmp	w9, #1
	b.ne	LBB9_23
	cbz	w8, LBB9_32
LBB9_14:
	add	x8, x0, #9
	tbz	w3, #0, LBB9_42
	b	LBB9_33
LBB9_15:
	lsr	w10, w10, #30
	cmp	w11, #2000
	ccmp	w10, #0, #0, lo
	mov	w10, #3
	csinc	w2, w10, wzr, ne
	cmp	w9, #3
	b.ne	LBB9_11
LBB9_16:
	cbz	w8, LBB9_63
LBB9_17:
	mov	w4, #1
	b	_ZN7wkb_raw6erased10wkb_bounds4scan17rings_bounds_into17hcf84af8976603406E
LBB9_18:
	cbz	w8, LBB9_39
LBB9_19:
	mov	w8, #9
	b	LBB9_40
LBB9_20:
	ldur	w9, [x0, #1]
	mov	w3, #1
	lsr	w10, w9, #29
	cbnz	w10, LBB9_4
LBB9_21:
	cmp	w9, #3
	b.le	LBB9_27
	sub	w10, w9, #4
	cmp	w10, #4
	b.hs	LBB9_34
LBB9_23:
	mov	x2, x5
	b	_ZN7wkb_raw6erased10wkb_bounds4scan17front_bounds_into17hf7a37f4f4fd991b8E
LBB9_24:
	mov	w10, #1
	mov	w2, wzr
	movk	w10, #8192, lsl #16
	cmp	w9, w10
	b.eq	LBB9_14
	mov	w10, #2
	movk	w10, #8192, lsl #16
	cmp	w9, w10
	b.eq	LBB9_19
	mov	w10, #3
	movk	w10, #8192, lsl #16
	cmp	w9, w10
	b.eq	LBB9_17
	b	LBB9_7
LBB9_27:
	cmp	w9, #1
	b.eq	LBB9_31
	cmp	w9, #2
	b.eq	LBB9_38
	cmp	w9, #3
	b.ne	LBB9_34
	mov	w2, wzr
	mov	w4, wzr
	b	_ZN7wkb_raw6erased10wkb_bounds4scan17rings_bounds_into17hcf84af8976603406E
LBB9_31:
	mov	w2, wzr
LBB9_32:
	add	x8, x0, #5
	tbz	w3, #0, LBB9_42
LBB9_33:
	ldp	x10, x15, [x8]
	mov	x11, #-9007199254740991
	lsl	x9, x10, #1
	cmp	x9, x11
	mov	x9, #-4503599627370496
	mov	x11, #9218868437227405312
	cset	w17, lo
	csel	x9, x10, x9, lo
	csel	x10, x10, x11, lo
	mov	w11, #1
	b	LBB9_43
LBB9_34:
	sub	w10, w9, #1001
	cmp	w10, #7
	b.hs	LBB9_55
	cmp	w9, #1001
	mov	w2, #1
	b.eq	LBB9_32
	cmp	w9, #1002
	b.eq	LBB9_39
	cmp	w9, #1003
	b.ne	LBB9_23
	b	LBB9_63
LBB9_38:
	mov	w2, wzr
LBB9_39:
	mov	w8, #5
LBB9_40:
	ldr	w9, [x0, x8]
	cmp	w3, #0
	rev	w10, w9
	csel	w9, w9, w10, ne
	add	x10, x8, #4
	cmp	w9, #1
	add	x8, x0, x10
	b.ne	LBB9_51
	cbnz	w3, LBB9_33
LBB9_42:
	ldp	x9, x12, [x8]
	mov	x13, #-9007199254740991
	mov	w11, wzr
	rev	x10, x9
	rev	x15, x12
	lsl	x9, x10, #1
	cmp	x9, x13
	mov	x9, #-4503599627370496
	mov	x13, #9218868437227405312
	cset	w17, lo
	csel	x9, x10, x9, lo
	csel	x10, x10, x13, lo
LBB9_43:
	lsl	x13, x15, #1
	mov	x14, #-9007199254740991
	mov	x16, #-4503599627370496
	mov	x0, #9218868437227405312
	and	w1, w2, #0xff
	mov	x12, xzr
	cmp	x13, x14
	mov	w17, w17
	cset	w13, lo
	csel	x14, x15, x16, lo
	csel	x15, x15, x0, lo
	cmp	w1, #1
	b.gt	LBB9_48
	cbz	w1, LBB9_46
LBB9_45:
	ldr	x12, [x8, #16]
	cmp	w11, #0
	mov	x1, #9218868437227405312
	rev	x16, x12
	csel	x0, x12, x16, ne
	mov	x16, #-9007199254740991
	lsl	x12, x0, #1
	cmp	x12, x16
	mov	x16, #-4503599627370496
	cset	w12, lo
	csel	x16, x0, x16, lo
	csel	x0, x0, x1, lo
LBB9_46:
	and	w1, w2, #0xff
	cmp	w1, #2
	b.hs	LBB9_49
	mov	x8, xzr
	mov	x1, #9218868437227405312
	mov	x11, #-4503599627370496
	b	LBB9_54
LBB9_48:
	cmp	w1, #2
	b.ne	LBB9_45
	b	LBB9_46
LBB9_49:
	b.ne	LBB9_52
	mov	w1, #16
	b	LBB9_53
LBB9_51:
	sub	x4, x1, x10
	mov	w0, w2
	mov	w1, w3
	mov	w2, w9
	mov	x3, x8
	b	_ZN7wkb_raw6erased10wkb_bounds4scan15run_bounds_into17h553e6883e15adc3fE
LBB9_52:
	mov	w1, #24
LBB9_53:
	ldr	x8, [x8, x1]
	cmp	w11, #0
	mov	x11, #-9007199254740991
	mov	x2, #9218868437227405312
	rev	x1, x8
	csel	x1, x8, x1, ne
	lsl	x8, x1, #1
	cmp	x8, x11
	mov	x11, #-4503599627370496
	cset	w8, lo
	csel	x11, x1, x11, lo
	csel	x1, x1, x2, lo
LBB9_54:
	stp	x10, x9, [x5]
	stp	x17, x15, [x5, #16]
	stp	x14, x13, [x5, #32]
	stp	x0, x16, [x5, #48]
	stp	x12, x1, [x5, #64]
	stp	x11, x8, [x5, #80]
	ret
LBB9_55:
	sub	w10, w9, #2001
	cmp	w10, #7
	b.hs	LBB9_59
	cmp	w9, #2001
	mov	w2, #2
	b.eq	LBB9_32
	cmp	w9, #2002
	b.eq	LBB9_39
	cmp	w9, #2003
	b.ne	LBB9_23
	b	LBB9_63
LBB9_59:
	sub	w10, w9, #3001
	cmp	w10, #7
	b.hs	LBB9_7
	cmp	w9, #3001
	mov	w2, #3
	b.eq	LBB9_32
	cmp	w9, #3002
	b.eq	LBB9_39
	cmp	w9, #3003
	b.ne	LBB9_23
LBB9_63:
	mov	w4, wzr
	b	_ZN7wkb_raw6erased10wkb_bounds4scan17rings_bounds_into17hcf84af8976603406E
Lfunc_end9:
	.cfi_endproc
	.section	__TEXT,__const
	.p2align	4, 0x0
LCPI10_0:
	.quad	-4503599627370496
	.quad	0
LCPI10_1:
	.quad	-9223372036854775808
	.quad	0
	.section	__TEXT,__text,regular,pure_instructions
	.p2align	2
_ZN7wkb_raw6erased10wkb_bounds4scan21other_run_bounds_into17hbc24d97fcb0f3ba3E:
	.cfi_startproc
	sub	sp, sp, #208
	.cfi_def_cfa_offset 208
	str	x30, [sp, #128]
	stp	x26, x25, [sp, #144]
	stp	x24, x23, [sp, #160]
	stp	x22, x21, [sp, #176]
	stp	x20, x19, [sp, #192]
	.cfi_offset w19, -8
	.cfi_offset w20, -16
	.cfi_offset w21, -24
	.cfi_offset w22, -32
	.cfi_offset w23, -40
	.cfi_offset w24, -48
	.cfi_offset w25, -56
	.cfi_offset w26, -64
	.cfi_offset w30, -80
	adrp	x8, LCPI10_0@PAGE
	mov	w25, w0
	adrp	x9, Lswitch.table.wkb_raw_write.374@PAGE
	add	x9, x9, Lswitch.table.wkb_raw_write.374@PAGEOFF
	ldr	q0, [x8, LCPI10_0@PAGEOFF]
	adrp	x8, LCPI10_1@PAGE
	ldr	q1, [x8, LCPI10_1@PAGEOFF]
	and	x8, x25, #0xff
	lsr	w15, w2, #1
	ldr	x24, [x9, x8, lsl #3]
	mov	x19, x5
	mov	x20, x4
	mov	x21, x3
	mov	w22, w2
	mov	w23, w1
	mov	w8, w2
	stp	q0, q1, [sp, #64]
	stp	q0, q1, [sp, #96]
	tbz	w1, #0, LBB10_13
	cbz	w15, LBB10_25
	mov	x10, xzr
	mov	x9, xzr
	mov	x12, #-4503599627370496
	mov	x13, #-9223372036854775808
	mov	x17, #-9007199254740992
	mov	x0, x21
	mov	x16, x8
	mov	x11, #-9223372036854775808
	mov	x14, #-4503599627370496
	b	LBB10_4
LBB10_3:
	sub	x8, x8, #1
	subs	w15, w15, #1
	add	x0, x0, x24
	b.eq	LBB10_12
LBB10_4:
	ldr	x1, [x0]
	cmp	x17, x1, lsl #1
	b.hs	LBB10_8
	sub	x16, x16, #1
	ldr	x1, [x0, #8]
	cmp	x17, x1, lsl #1
	b.lo	LBB10_9
LBB10_6:
	cmp	x1, x14
	csel	x14, x1, x14, lo
	cmp	x1, x9
	csel	x9, x1, x9, hi
	cmp	x11, x1
	csel	x11, x11, x1, gt
	add	x0, x0, x24
	ldr	x1, [x0]
	cmp	x17, x1, lsl #1
	b.lo	LBB10_10
LBB10_7:
	cmp	x1, x12
	csel	x12, x1, x12, lo
	cmp	x1, x10
	csel	x10, x1, x10, hi
	cmp	x13, x1
	csel	x13, x13, x1, gt
	ldr	x1, [x0, #8]
	cmp	x17, x1, lsl #1
	b.lo	LBB10_3
	b	LBB10_11
LBB10_8:
	cmp	x1, x12
	csel	x12, x1, x12, lo
	cmp	x1, x10
	csel	x10, x1, x10, hi
	cmp	x13, x1
	csel	x13, x13, x1, gt
	ldr	x1, [x0, #8]
	cmp	x17, x1, lsl #1
	b.hs	LBB10_6
LBB10_9:
	sub	x8, x8, #1
	add	x0, x0, x24
	ldr	x1, [x0]
	cmp	x17, x1, lsl #1
	b.hs	LBB10_7
LBB10_10:
	sub	x16, x16, #1
	ldr	x1, [x0, #8]
	cmp	x17, x1, lsl #1
	b.lo	LBB10_3
LBB10_11:
	cmp	x1, x14
	csel	x14, x1, x14, lo
	cmp	x1, x9
	csel	x9, x1, x9, hi
	cmp	x11, x1
	csel	x11, x11, x1, gt
	subs	w15, w15, #1
	add	x0, x0, x24
	b.ne	LBB10_4
LBB10_12:
	and	w15, w22, #0x1
	cbnz	w15, LBB10_26
	b	LBB10_38
LBB10_13:
	cbz	w15, LBB10_29
	mov	x9, xzr
	mov	x10, xzr
	mov	x11, #-9223372036854775808
	mov	x14, #-4503599627370496
	mov	x16, #-9007199254740992
	mov	x0, x21
	mov	x17, x8
	mov	x12, #-4503599627370496
	mov	x13, #-9223372036854775808
	b	LBB10_16
LBB10_15:
	sub	x17, x17, #1
	subs	w15, w15, #1
	add	x0, x0, x24
	b.eq	LBB10_24
LBB10_16:
	ldr	x1, [x0]
	rev	x1, x1
	cmp	x16, x1, lsl #1
	b.hs	LBB10_20
	sub	x8, x8, #1
	ldr	x1, [x0, #8]
	rev	x1, x1
	cmp	x16, x1, lsl #1
	b.lo	LBB10_21
LBB10_18:
	cmp	x1, x14
	csel	x14, x1, x14, lo
	cmp	x1, x9
	csel	x9, x1, x9, hi
	cmp	x11, x1
	csel	x11, x11, x1, gt
	add	x0, x0, x24
	ldr	x1, [x0]
	rev	x1, x1
	cmp	x16, x1, lsl #1
	b.lo	LBB10_22
LBB10_19:
	cmp	x1, x12
	csel	x12, x1, x12, lo
	cmp	x1, x10
	csel	x10, x1, x10, hi
	cmp	x13, x1
	csel	x13, x13, x1, gt
	ldr	x1, [x0, #8]
	rev	x1, x1
	cmp	x16, x1, lsl #1
	b.lo	LBB10_15
	b	LBB10_23
LBB10_20:
	cmp	x1, x12
	csel	x12, x1, x12, lo
	cmp	x1, x10
	csel	x10, x1, x10, hi
	cmp	x13, x1
	csel	x13, x13, x1, gt
	ldr	x1, [x0, #8]
	rev	x1, x1
	cmp	x16, x1, lsl #1
	b.hs	LBB10_18
LBB10_21:
	sub	x17, x17, #1
	add	x0, x0, x24
	ldr	x1, [x0]
	rev	x1, x1
	cmp	x16, x1, lsl #1
	b.hs	LBB10_19
LBB10_22:
	sub	x8, x8, #1
	ldr	x1, [x0, #8]
	rev	x1, x1
	cmp	x16, x1, lsl #1
	b.lo	LBB10_15
LBB10_23:
	cmp	x1, x14
	csel	x14, x1, x14, lo
	cmp	x1, x9
	csel	x9, x1, x9, hi
	cmp	x11, x1
	csel	x11, x11, x1, gt
	subs	w15, w15, #1
	add	x0, x0, x24
	b.ne	LBB10_16
LBB10_24:
	and	w15, w22, #0x1
	cbnz	w15, LBB10_30
	b	LBB10_33
LBB10_25:
	mov	x9, xzr
	mov	x10, xzr
	mov	x11, #-9223372036854775808
	mov	x14, #-4503599627370496
	mov	x12, #-4503599627370496
	mov	x13, #-9223372036854775808
	mov	x16, x8
	mov	x0, x21
	cbz	w22, LBB10_38
LBB10_26:
	ldr	x15, [x0]
	mov	x17, #-9007199254740992
	cmp	x17, x15, lsl #1
	b.hs	LBB10_34
	sub	x16, x16, #1
	ldr	x15, [x0, #8]
	cmp	x17, x15, lsl #1
	b.lo	LBB10_35
LBB10_28:
	cmp	x15, x14
	csel	x14, x15, x14, lo
	cmp	x15, x9
	csel	x9, x15, x9, hi
	cmp	x11, x15
	csel	x11, x11, x15, gt
	b	LBB10_38
LBB10_29:
	mov	x10, xzr
	mov	x9, xzr
	mov	x12, #-4503599627370496
	mov	x13, #-9223372036854775808
	mov	x17, x8
	mov	x11, #-9223372036854775808
	mov	x14, #-4503599627370496
	mov	x0, x21
	cbz	w22, LBB10_33
LBB10_30:
	ldr	x15, [x0]
	mov	x16, #-9007199254740992
	rev	x15, x15
	cmp	x16, x15, lsl #1
	b.hs	LBB10_36
	sub	x8, x8, #1
	ldr	x15, [x0, #8]
	rev	x15, x15
	cmp	x16, x15, lsl #1
	b.lo	LBB10_37
LBB10_32:
	cmp	x15, x14
	csel	x14, x15, x14, lo
	cmp	x15, x9
	csel	x9, x15, x9, hi
	cmp	x11, x15
	csel	x11, x11, x15, gt
LBB10_33:
	mov	x16, x8
	mov	x8, x17
	b	LBB10_38
LBB10_34:
	cmp	x15, x12
	csel	x12, x15, x12, lo
	cmp	x15, x10
	csel	x10, x15, x10, hi
	cmp	x13, x15
	csel	x13, x13, x15, gt
	ldr	x15, [x0, #8]
	cmp	x17, x15, lsl #1
	b.hs	LBB10_28
LBB10_35:
	sub	x8, x8, #1
	b	LBB10_38
LBB10_36:
	cmp	x15, x12
	csel	x12, x15, x12, lo
	cmp	x15, x10
	csel	x10, x15, x10, hi
	cmp	x13, x15
	csel	x13, x13, x15, gt
	ldr	x15, [x0, #8]
	rev	x15, x15
	cmp	x16, x15, lsl #1
	b.hs	LBB10_32
LBB10_37:
	sub	x15, x17, #1
	mov	x16, x8
	mov	x8, x15
LBB10_38:
	stp	x14, x9, [sp, #32]
	and	w9, w25, #0xff
	mov	x26, sp
	cmp	w9, #1
	stp	x12, x10, [sp]
	stp	x13, x16, [sp, #16]
	stp	x11, x8, [sp, #48]
	b.gt	LBB10_40
	cbnz	w9, LBB10_41
	b	LBB10_46
LBB10_40:
	cmp	w9, #2
	b.eq	LBB10_43
LBB10_41:
	add	x0, x26, #64
	mov	w1, #2
	mov	w2, w23
	mov	x3, x24
	mov	w4, w22
	mov	x5, x21
	mov	x6, x20
	bl	_ZN7wkb_raw6erased10wkb_bounds8extremes8Extremes5widen17hdbfb2690602312b6E
	and	w8, w25, #0xff
	cmp	w8, #1
	b.eq	LBB10_46
	cmp	w8, #2
	b.ne	LBB10_44
LBB10_43:
	and	x1, x25, #0xff
	b	LBB10_45
LBB10_44:
	mov	w1, #3
LBB10_45:
	add	x0, x26, #96
	mov	w2, w23
	mov	x3, x24
	mov	w4, w22
	mov	x5, x21
	mov	x6, x20
	bl	_ZN7wkb_raw6erased10wkb_bounds8extremes8Extremes5widen17hdbfb2690602312b6E
LBB10_46:
	ldp	x10, x11, [sp]
	mov	x9, #9218868437227405312
	ldp	x12, x8, [sp, #16]
	mov	x2, #-9223372036854775808
	ldp	x13, x14, [sp, #32]
	ldr	x30, [sp, #128]
	cmp	x10, x9
	ldp	x15, x16, [sp, #48]
	csel	x17, x10, x9, lo
	cmp	x11, #0
	csel	x11, x11, x17, mi
	cmp	x10, x2
	csel	x10, x10, x2, hi
	cmp	x12, #0
	csel	x10, x10, x12, mi
	cmp	x13, x9
	ldp	x0, x1, [sp, #64]
	csel	x12, x13, x9, lo
	cmp	x14, #0
	ldp	x3, x4, [sp, #80]
	csel	x12, x14, x12, mi
	cmp	x13, x2
	stp	x11, x10, [x19]
	csel	x13, x13, x2, hi
	cmp	x15, #0
	stp	x8, x12, [x19, #16]
	csel	x11, x13, x15, mi
	cmp	x0, x9
	ldp	x17, x5, [sp, #96]
	csel	x10, x0, x9, lo
	cmp	x1, #0
	ldp	x6, x7, [sp, #112]
	csel	x8, x1, x10, mi
	cmp	x0, x2
	stp	x11, x16, [x19, #32]
	csel	x10, x0, x2, hi
	cmp	x3, #0
	csel	x10, x10, x3, mi
	cmp	x17, x9
	csel	x9, x17, x9, lo
	cmp	x5, #0
	stp	x8, x10, [x19, #48]
	csel	x8, x5, x9, mi
	cmp	x17, x2
	csel	x9, x17, x2, hi
	cmp	x6, #0
	stp	x4, x8, [x19, #64]
	csel	x9, x9, x6, mi
	ldp	x22, x21, [sp, #176]
	stp	x9, x7, [x19, #80]
	ldp	x20, x19, [sp, #192]
	ldp	x24, x23, [sp, #160]
	ldp	x26, x25, [sp, #144]
	add	sp, sp, #208
	.cfi_def_cfa_offset 0
	.cfi_restore w19
	.cfi_restore w20
	.cfi_restore w21
	.cfi_restore w22
	.cfi_restore w23
	.cfi_restore w24
	.cfi_restore w25
	.cfi_restore w26
	.cfi_restore w30
	ret
Lfunc_end10:
	.cfi_endproc
	.section	__TEXT,__const
	.p2align	4, 0x0
LCPI11_0:
	.quad	-4503599627370496
	.quad	0
LCPI11_1:
	.quad	-9223372036854775808
	.quad	0
	.section	__TEXT,__text,regular,pure_instructions
	.p2align	2
_ZN7wkb_raw6erased10wkb_bounds4scan23other_rings_bounds_into17hd70bf1d20ab9f9f1E:
	.cfi_startproc
	sub	sp, sp, #256
	.cfi_def_cfa_offset 256
	stp	x29, x30, [sp, #160]
	stp	x28, x27, [sp, #176]
	stp	x26, x25, [sp, #192]
	stp	x24, x23, [sp, #208]
	stp	x22, x21, [sp, #224]
	stp	x20, x19, [sp, #240]
	.cfi_offset w19, -8
	.cfi_offset w20, -16
	.cfi_offset w21, -24
	.cfi_offset w22, -32
	.cfi_offset w23, -40
	.cfi_offset w24, -48
	.cfi_offset w25, -56
	.cfi_offset w26, -64
	.cfi_offset w27, -72
	.cfi_offset w28, -80
	.cfi_offset w30, -88
	.cfi_offset w29, -96
	adrp	x8, LCPI11_0@PAGE
	cmp	w4, #0
	mov	w9, #5
	ldr	q0, [x8, LCPI11_0@PAGEOFF]
	adrp	x8, LCPI11_1@PAGE
	str	x1, [sp, #24]
	ldr	q1, [x8, LCPI11_1@PAGEOFF]
	mov	w8, #9
	csel	x8, x9, x8, eq
	cmp	w3, #0
	ldr	w9, [x0, x8]
	stp	q0, q1, [sp, #32]
	stp	q0, q1, [sp, #64]
	rev	w10, w9
	stp	q0, q1, [sp, #96]
	csel	w29, w9, w10, ne
	stp	q0, q1, [sp, #128]
	cbz	w29, LBB11_54
	mov	w20, w3
	mov	w21, w2
	mov	x23, x0
	add	x22, x8, #4
	mov	x19, #-9007199254740992
	mov	w8, w2
	stp	x5, x8, [sp, #8]
	b	LBB11_5
LBB11_2:
	and	x1, x21, #0xff
LBB11_3:
	add	x8, sp, #32
	mov	w2, w28
	mov	x3, x27
	add	x0, x8, #96
	mov	w4, w24
	mov	x5, x26
	mov	x6, x25
	bl	_ZN7wkb_raw6erased10wkb_bounds8extremes8Extremes5widen17hdbfb2690602312b6E
LBB11_4:
	sub	w29, w29, #1
	cbz	w29, LBB11_53
LBB11_5:
	ldr	w0, [x23, x22]
	and	w9, w21, #0xff
	cmp	w20, #0
	sub	w8, w9, #1
	rev	w1, w0
	csel	w24, w0, w1, ne
	cmp	w8, #2
	add	x8, x22, #4
	b.hs	LBB11_23
	mov	w9, #24
	add	x26, x23, x8
	mov	w27, #24
	umaddl	x22, w24, w9, x8
	ldr	x9, [sp, #24]
	sub	x25, x9, x8
	cbz	w20, LBB11_25
LBB11_7:
	ldp	x8, x10, [sp, #48]
	lsr	w16, w0, #1
	ldp	x9, x17, [sp, #80]
	ldp	x11, x13, [sp, #32]
	ldp	x12, x14, [sp, #64]
	add	x15, x10, x24
	add	x10, x17, x24
	mov	x17, x26
	cbnz	w16, LBB11_13
	cbz	w0, LBB11_22
LBB11_9:
	ldr	x16, [x17]
	cmp	x19, x16, lsl #1
	b.hs	LBB11_42
	sub	x15, x15, #1
	ldr	x16, [x17, #8]
	cmp	x19, x16, lsl #1
	b.lo	LBB11_43
LBB11_11:
	cmp	x16, x12
	mov	w28, #1
	csel	x12, x16, x12, lo
	cmp	x16, x14
	csel	x14, x16, x14, hi
	cmp	x9, x16
	csel	x9, x9, x16, gt
	b	LBB11_46
LBB11_12:
	sub	x10, x10, #1
	subs	w16, w16, #1
	add	x17, x17, x27
	b.eq	LBB11_21
LBB11_13:
	ldr	x0, [x17]
	cmp	x19, x0, lsl #1
	b.hs	LBB11_17
	sub	x15, x15, #1
	ldr	x0, [x17, #8]
	cmp	x19, x0, lsl #1
	b.lo	LBB11_18
LBB11_15:
	cmp	x0, x12
	csel	x12, x0, x12, lo
	cmp	x0, x14
	csel	x14, x0, x14, hi
	cmp	x9, x0
	csel	x9, x9, x0, gt
	add	x17, x17, x27
	ldr	x0, [x17]
	cmp	x19, x0, lsl #1
	b.lo	LBB11_19
LBB11_16:
	cmp	x0, x11
	csel	x11, x0, x11, lo
	cmp	x0, x13
	csel	x13, x0, x13, hi
	cmp	x8, x0
	csel	x8, x8, x0, gt
	ldr	x0, [x17, #8]
	cmp	x19, x0, lsl #1
	b.lo	LBB11_12
	b	LBB11_20
LBB11_17:
	cmp	x0, x11
	csel	x11, x0, x11, lo
	cmp	x0, x13
	csel	x13, x0, x13, hi
	cmp	x8, x0
	csel	x8, x8, x0, gt
	ldr	x0, [x17, #8]
	cmp	x19, x0, lsl #1
	b.hs	LBB11_15
LBB11_18:
	sub	x10, x10, #1
	add	x17, x17, x27
	ldr	x0, [x17]
	cmp	x19, x0, lsl #1
	b.hs	LBB11_16
LBB11_19:
	sub	x15, x15, #1
	ldr	x0, [x17, #8]
	cmp	x19, x0, lsl #1
	b.lo	LBB11_12
LBB11_20:
	cmp	x0, x12
	csel	x12, x0, x12, lo
	cmp	x0, x14
	csel	x14, x0, x14, hi
	cmp	x9, x0
	csel	x9, x9, x0, gt
	subs	w16, w16, #1
	add	x17, x17, x27
	b.ne	LBB11_13
LBB11_21:
	and	w0, w24, #0x1
	cbnz	w0, LBB11_9
LBB11_22:
	mov	w28, #1
	b	LBB11_46
LBB11_23:
	cmp	w9, #3
	b.ne	LBB11_41
	ldr	x9, [sp, #24]
	add	x22, x8, x24, lsl #5
	add	x26, x23, x8
	mov	w27, #32
	sub	x25, x9, x8
	tbnz	w20, #0, LBB11_7
LBB11_25:
	ldp	x8, x10, [sp, #48]
	lsr	w16, w1, #1
	ldp	x9, x17, [sp, #80]
	ldp	x11, x13, [sp, #32]
	ldp	x12, x14, [sp, #64]
	add	x15, x10, x24
	add	x10, x17, x24
	mov	x17, x26
	cbnz	w16, LBB11_31
	cbz	w1, LBB11_40
LBB11_27:
	ldr	x16, [x17]
	rev	x16, x16
	cmp	x19, x16, lsl #1
	b.hs	LBB11_44
	sub	x15, x15, #1
	ldr	x16, [x17, #8]
	rev	x16, x16
	cmp	x19, x16, lsl #1
	b.lo	LBB11_45
LBB11_29:
	cmp	x16, x12
	mov	w28, wzr
	csel	x12, x16, x12, lo
	cmp	x16, x14
	csel	x14, x16, x14, hi
	cmp	x9, x16
	csel	x9, x9, x16, gt
	b	LBB11_46
LBB11_30:
	sub	x10, x10, #1
	subs	w16, w16, #1
	add	x17, x17, x27
	b.eq	LBB11_39
LBB11_31:
	ldr	x0, [x17]
	rev	x0, x0
	cmp	x19, x0, lsl #1
	b.hs	LBB11_35
	sub	x15, x15, #1
	ldr	x0, [x17, #8]
	rev	x0, x0
	cmp	x19, x0, lsl #1
	b.hs	LBB11_36
LBB11_33:
	sub	x10, x10, #1
	add	x17, x17, x27
	ldr	x0, [x17]
	rev	x0, x0
	cmp	x19, x0, lsl #1
	b.hs	LBB11_37
LBB11_34:
	sub	x15, x15, #1
	ldr	x0, [x17, #8]
	rev	x0, x0
	cmp	x19, x0, lsl #1
	b.lo	LBB11_30
	b	LBB11_38
LBB11_35:
	cmp	x0, x11
	csel	x11, x0, x11, lo
	cmp	x0, x13
	csel	x13, x0, x13, hi
	cmp	x8, x0
	csel	x8, x8, x0, gt
	ldr	x0, [x17, #8]
	rev	x0, x0
	cmp	x19, x0, lsl #1
	b.lo	LBB11_33
LBB11_36:
	cmp	x0, x12
	csel	x12, x0, x12, lo
	cmp	x0, x14
	csel	x14, x0, x14, hi
	cmp	x9, x0
	csel	x9, x9, x0, gt
	add	x17, x17, x27
	ldr	x0, [x17]
	rev	x0, x0
	cmp	x19, x0, lsl #1
	b.lo	LBB11_34
LBB11_37:
	cmp	x0, x11
	csel	x11, x0, x11, lo
	cmp	x0, x13
	csel	x13, x0, x13, hi
	cmp	x8, x0
	csel	x8, x8, x0, gt
	ldr	x0, [x17, #8]
	rev	x0, x0
	cmp	x19, x0, lsl #1
	b.lo	LBB11_30
LBB11_38:
	cmp	x0, x12
	csel	x12, x0, x12, lo
	cmp	x0, x14
	csel	x14, x0, x14, hi
	cmp	x9, x0
	csel	x9, x9, x0, gt
	subs	w16, w16, #1
	add	x17, x17, x27
	b.ne	LBB11_31
LBB11_39:
	and	w1, w24, #0x1
	cbnz	w1, LBB11_27
LBB11_40:
	mov	w28, wzr
	b	LBB11_46
LBB11_41:
	ldr	x9, [sp, #24]
	add	x22, x8, x24, lsl #4
	add	x26, x23, x8
	mov	w27, #16
	sub	x25, x9, x8
	tbnz	w20, #0, LBB11_7
	b	LBB11_25
LBB11_42:
	cmp	x16, x11
	csel	x11, x16, x11, lo
	cmp	x16, x13
	csel	x13, x16, x13, hi
	cmp	x8, x16
	csel	x8, x8, x16, gt
	ldr	x16, [x17, #8]
	cmp	x19, x16, lsl #1
	b.hs	LBB11_11
LBB11_43:
	sub	x10, x10, #1
	mov	w28, #1
	b	LBB11_46
LBB11_44:
	cmp	x16, x11
	csel	x11, x16, x11, lo
	cmp	x16, x13
	csel	x13, x16, x13, hi
	cmp	x8, x16
	csel	x8, x8, x16, gt
	ldr	x16, [x17, #8]
	rev	x16, x16
	cmp	x19, x16, lsl #1
	b.hs	LBB11_29
LBB11_45:
	mov	w28, wzr
	sub	x10, x10, #1
LBB11_46:
	stp	x8, x15, [sp, #48]
	and	w8, w21, #0xff
	cmp	w8, #1
	stp	x11, x13, [sp, #32]
	stp	x12, x14, [sp, #64]
	stp	x9, x10, [sp, #80]
	b.gt	LBB11_48
	cbz	w8, LBB11_4
	b	LBB11_49
LBB11_48:
	cmp	w8, #2
	b.eq	LBB11_2
LBB11_49:
	add	x8, sp, #32
	mov	w1, #2
	mov	w2, w28
	add	x0, x8, #64
	mov	x3, x27
	mov	w4, w24
	mov	x5, x26
	mov	x6, x25
	bl	_ZN7wkb_raw6erased10wkb_bounds8extremes8Extremes5widen17hdbfb2690602312b6E
	and	w8, w21, #0xff
	cmp	w8, #1
	b.eq	LBB11_4
	cmp	w8, #2
	b.ne	LBB11_52
	ldr	x8, [sp, #16]
	and	x1, x8, #0xff
	b	LBB11_3
LBB11_52:
	mov	w1, #3
	b	LBB11_3
LBB11_53:
	ldp	x9, x10, [sp, #32]
	mov	x15, #9218868437227405312
	ldp	x12, x8, [sp, #48]
	mov	x1, #-9223372036854775808
	ldp	x14, x13, [sp, #64]
	ldr	x5, [sp, #8]
	cmp	x9, x15
	ldp	x17, x0, [sp, #96]
	csel	x11, x9, x15, lo
	cmp	x10, #0
	csel	x11, x10, x11, mi
	cmp	x9, x1
	csel	x9, x9, x1, hi
	cmp	x12, #0
	csel	x10, x9, x12, mi
	cmp	x14, x15
	ldp	x12, x9, [sp, #80]
	csel	x16, x14, x15, lo
	cmp	x13, #0
	ldp	x3, x4, [sp, #128]
	csel	x13, x13, x16, mi
	cmp	x14, x1
	csel	x14, x14, x1, hi
	cmp	x12, #0
	csel	x16, x14, x12, mi
	cmp	x17, x15
	ldp	x2, x12, [sp, #112]
	csel	x14, x17, x15, lo
	cmp	x0, #0
	csel	x14, x0, x14, mi
	cmp	x17, x1
	csel	x17, x17, x1, hi
	cmp	x2, #0
	csel	x0, x17, x2, mi
	cmp	x3, x15
	csel	x15, x3, x15, lo
	cmp	x4, #0
	csel	x17, x4, x15, mi
	ldp	x2, x15, [sp, #144]
	cmp	x3, x1
	csel	x1, x3, x1, hi
	cmp	x2, #0
	csel	x1, x1, x2, mi
	b	LBB11_55
LBB11_54:
	mov	x15, xzr
	mov	x12, xzr
	mov	x9, xzr
	mov	x8, xzr
	mov	x10, #-4503599627370496
	mov	x17, #9218868437227405312
	mov	x14, #9218868437227405312
	mov	x13, #9218868437227405312
	mov	x11, #9218868437227405312
	mov	x16, #-4503599627370496
	mov	x0, #-4503599627370496
	mov	x1, #-4503599627370496
LBB11_55:
	ldp	x20, x19, [sp, #240]
	stp	x11, x10, [x5]
	ldp	x22, x21, [sp, #224]
	stp	x8, x13, [x5, #16]
	stp	x16, x9, [x5, #32]
	ldp	x24, x23, [sp, #208]
	stp	x14, x0, [x5, #48]
	ldp	x26, x25, [sp, #192]
	stp	x12, x17, [x5, #64]
	ldp	x28, x27, [sp, #176]
	stp	x1, x15, [x5, #80]
	ldp	x29, x30, [sp, #160]
	add	sp, sp, #256
	.cfi_def_cfa_offset 0
	.cfi_restore w19
	.cfi_restore w20
	.cfi_restore w21
	.cfi_restore w22
	.cfi_restore w23
	.cfi_restore w24
	.cfi_restore w25
	.cfi_restore w26
	.cfi_restore w27
	.cfi_restore w28
	.cfi_restore w30
	.cfi_restore w29
	ret
Lfunc_end11:
	.cfi_endproc
	.section	__TEXT,__text,regular,pure_instructions
	.p2align	2
_ZN7wkb_raw6erased10wkb_bounds8extremes8Extremes5widen17hdbfb2690602312b6E:
	.cfi_startproc
	mov	w11, w4
	cbz	w2, LBB12_6
	ldp	x8, x12, [x0, #16]
	ldp	x9, x10, [x0]
	add	x11, x12, x11
	cbz	w4, LBB12_11
	add	x12, x5, x1, lsl #3
	mov	x13, #-9007199254740992
	b	LBB12_4
LBB12_3:
	sub	x11, x11, #1
	subs	w4, w4, #1
	add	x12, x12, x3
	b.eq	LBB12_11
LBB12_4:
	ldr	x14, [x12]
	cmp	x13, x14, lsl #1
	b.lo	LBB12_3
	cmp	x14, x9
	csel	x9, x14, x9, lo
	cmp	x14, x10
	csel	x10, x14, x10, hi
	cmp	x8, x14
	csel	x8, x8, x14, gt
	subs	w4, w4, #1
	add	x12, x12, x3
	b.ne	LBB12_4
	b	LBB12_11
LBB12_6:
	ldp	x8, x12, [x0, #16]
	ldp	x9, x10, [x0]
	add	x11, x12, x11
	cbz	w4, LBB12_11
	add	x12, x5, x1, lsl #3
	mov	x13, #-9007199254740992
	b	LBB12_9
LBB12_8:
	sub	x11, x11, #1
	subs	w4, w4, #1
	add	x12, x12, x3
	b.eq	LBB12_11
LBB12_9:
	ldr	x14, [x12]
	rev	x14, x14
	cmp	x13, x14, lsl #1
	b.lo	LBB12_8
	cmp	x14, x9
	csel	x9, x14, x9, lo
	cmp	x14, x10
	csel	x10, x14, x10, hi
	cmp	x8, x14
	csel	x8, x8, x14, gt
	subs	w4, w4, #1
	add	x12, x12, x3
	b.ne	LBB12_9
LBB12_11:
	stp	x9, x10, [x0]
	stp	x8, x11, [x0, #16]
	ret
Lfunc_end12:
	.cfi_endproc
	.section	__TEXT,__text,regular,pure_instructions
	.p2align	2
_ZN7wkb_raw6erased10wkb_levels6levels6Levels4pass17h1aff3ae131b31d0aE:
	.cfi_startproc
	ldr	x8, [x0, #64]
	cbz	x3, LBB13_3
	cbz	x8, LBB13_7
	add	x9, x8, x3, lsl #3
	sub	x9, x9, #8
	ldr	x9, [x9]
	ldr	x13, [x8, x3, lsl #3]
	ldr	x12, [x0, #40]
	cbnz	x12, LBB13_9
	b	LBB13_5
LBB13_3:
	cbz	x8, LBB13_8
	add	x9, x0, #80
	ldr	x9, [x9]
	ldr	x13, [x8, x3, lsl #3]
	ldr	x12, [x0, #40]
	cbnz	x12, LBB13_9
LBB13_5:
	ldp	x11, x8, [x0, #48]
	subs	x8, x8, x11
	csel	x10, xzr, x8, lo
	cmp	x9, x13
	mov	w8, wzr
	b.ls	LBB13_10
LBB13_6:
	mov	w0, w8
	ret
LBB13_7:
	ldr	x8, [x0, #72]
	add	x9, x8, x3
	ldr	x8, [x0, #72]
	add	x8, x3, x8
	add	x13, x8, #1
	ldr	x12, [x0, #40]
	cbnz	x12, LBB13_9
	b	LBB13_5
LBB13_8:
	ldr	x9, [x0, #72]
	ldr	x8, [x0, #72]
	add	x8, x3, x8
	add	x13, x8, #1
	ldr	x12, [x0, #40]
	cbz	x12, LBB13_5
LBB13_9:
	ldr	x11, [x0, #48]
	mov	x10, x11
	cmp	x9, x13
	mov	w8, wzr
	b.hi	LBB13_6
LBB13_10:
	cmp	x13, x10
	b.hi	LBB13_6
	cbz	x9, LBB13_14
	cbz	x12, LBB13_19
	add	x8, x12, x9, lsl #3
	ldur	x10, [x8, #-8]
	cbnz	x13, LBB13_17
	b	LBB13_20
LBB13_14:
	mov	x10, x11
	cbz	x12, LBB13_16
	ldr	x10, [x0, #56]
LBB13_16:
	cbz	x13, LBB13_20
LBB13_17:
	cbz	x12, LBB13_24
	add	x8, x12, x13, lsl #3
	ldur	x11, [x8, #-8]
	ldr	x12, [x4]
	ldr	x15, [x0, #16]
	cmp	x13, x12
	csel	x8, x13, x12, hi
	str	x8, [x4]
	cbnz	x15, LBB13_23
	b	LBB13_25
LBB13_19:
	add	x10, x11, x9
	cbnz	x13, LBB13_17
LBB13_20:
	cbz	x12, LBB13_22
	ldr	x11, [x0, #56]
LBB13_22:
	ldr	x12, [x4]
	ldr	x15, [x0, #16]
	cmp	x13, x12
	csel	x8, x13, x12, hi
	str	x8, [x4]
	cbz	x15, LBB13_25
LBB13_23:
	ldr	x13, [x0, #24]
	mov	x14, x13
	cmp	x10, x11
	mov	w8, wzr
	b.ls	LBB13_26
	b	LBB13_6
LBB13_24:
	add	x11, x11, x13
	ldr	x12, [x4]
	ldr	x15, [x0, #16]
	cmp	x13, x12
	csel	x8, x13, x12, hi
	str	x8, [x4]
	cbnz	x15, LBB13_23
LBB13_25:
	ldp	x13, x8, [x0, #24]
	subs	x8, x8, x13
	csel	x14, xzr, x8, lo
	cmp	x10, x11
	mov	w8, wzr
	b.hi	LBB13_6
LBB13_26:
	cmp	x11, x14
	b.hi	LBB13_6
	cbz	x10, LBB13_30
	cbz	x15, LBB13_35
	add	x8, x15, x10, lsl #3
	ldur	x14, [x8, #-8]
	cbnz	x11, LBB13_33
	b	LBB13_36
LBB13_30:
	mov	x14, x13
	cbz	x15, LBB13_32
	ldr	x14, [x0, #32]
LBB13_32:
	cbz	x11, LBB13_36
LBB13_33:
	cbz	x15, LBB13_41
	add	x8, x15, x11, lsl #3
	ldur	x13, [x8, #-8]
	ldr	x15, [x4, #8]
	cmp	x11, x15
	csel	x8, x11, x15, hi
	cmp	x1, #2
	str	x8, [x4, #8]
	b.le	LBB13_39
	b	LBB13_42
LBB13_35:
	add	x14, x13, x10
	cbnz	x11, LBB13_33
LBB13_36:
	cbz	x15, LBB13_38
	ldr	x13, [x0, #32]
LBB13_38:
	ldr	x15, [x4, #8]
	cmp	x11, x15
	csel	x8, x11, x15, hi
	cmp	x1, #2
	str	x8, [x4, #8]
	b.gt	LBB13_42
LBB13_39:
	sub	x8, x1, #1
	cmp	x8, #2
	b.hs	LBB13_44
	mov	w2, #3
	b	LBB13_46
LBB13_41:
	add	x13, x13, x11
	ldr	x15, [x4, #8]
	cmp	x11, x15
	csel	x8, x11, x15, hi
	cmp	x1, #2
	str	x8, [x4, #8]
	b.le	LBB13_39
LBB13_42:
	cmp	x1, #3
	b.ne	LBB13_45
	mov	w2, #4
	b	LBB13_46
LBB13_44:
	mov	w2, #2
	b	LBB13_46
LBB13_45:
	cbz	x2, LBB13_49
LBB13_46:
	cmp	x14, x13
	mov	w8, wzr
	b.hi	LBB13_6
	ldr	x11, [x0, #8]
	udiv	x11, x11, x2
	cmp	x13, x11
	b.hi	LBB13_6
	ldr	x8, [x4, #16]
	cmp	x13, x8
	csel	x11, x13, x8, hi
	cmp	x12, x9
	ccmp	x15, x10, #2, ls
	str	x11, [x4, #16]
	ccmp	x8, x14, #2, ls
	cset	w8, ls
	mov	w0, w8
	ret
LBB13_49:
	mov	w0, wzr
	ret
Lfunc_end13:
	.cfi_endproc
	.section	__TEXT,__text,regular,pure_instructions
	.p2align	2
_ZN7wkb_raw6erased11wkb_rewrite8encoding10lay_pieces17hd15cee7c31570c34E:
	.cfi_startproc
	sub	sp, sp, #144
	.cfi_def_cfa_offset 144
	stp	x29, x30, [sp, #48]
	stp	x28, x27, [sp, #64]
	stp	x26, x25, [sp, #80]
	stp	x24, x23, [sp, #96]
	stp	x22, x21, [sp, #112]
	stp	x20, x19, [sp, #128]
	.cfi_offset w19, -8
	.cfi_offset w20, -16
	.cfi_offset w21, -24
	.cfi_offset w22, -32
	.cfi_offset w23, -40
	.cfi_offset w24, -48
	.cfi_offset w25, -56
	.cfi_offset w26, -64
	.cfi_offset w27, -72
	.cfi_offset w28, -80
	.cfi_offset w30, -88
	.cfi_offset w29, -96
	mov	x19, x3
	cmp	x1, #5
	mov	x21, x0
	str	x1, [sp, #16]
	b.lo	LBB14_8
	ldrb	w9, [x21]
	cmp	w9, #1
	b.eq	LBB14_22
	cbnz	w9, LBB14_9
	ldur	w8, [x21, #1]
	rev	w11, w8
	lsr	w8, w11, #29
	mov	w10, wzr
	cbz	w8, LBB14_23
LBB14_4:
	mov	w8, #3
	movk	w8, #8192, lsl #16
	cmp	w11, w8
	mov	w8, #9
	b.le	LBB14_60
	mov	w12, #5
	movk	w12, #8192, lsl #16
	cmp	w11, w12
	b.gt	LBB14_71
	mov	w12, #4
	movk	w12, #8192, lsl #16
	cmp	w11, w12
	b.eq	LBB14_159
	mov	w12, #5
	movk	w12, #8192, lsl #16
	cmp	w11, w12
	b.eq	LBB14_28
	b	LBB14_9
LBB14_8:
	ldrb	w9, [x21]
LBB14_9:
	ldur	w8, [x21, #1]
	cmp	w9, #0
	mov	w11, #-1073741824
	cset	w12, ne
	mov	w14, #-536870912
	mov	w15, #1000
	rev	w10, w8
	csel	w13, w8, w10, ne
	ubfx	w8, w13, #30, #1
	and	w10, w13, #0x7fffffff
	add	w11, w10, w11
	cmp	w8, #0
	csel	w11, w10, w11, eq
	lsr	w8, w11, #29
	add	w14, w11, w14
	cmp	w8, #0
	csel	w11, w14, w11, ne
	mov	w14, #35128
	movk	w14, #65, lsl #16
	umull	x14, w11, w14
	lsr	x14, x14, #32
	msub	w14, w14, w15, w11
	tbnz	w13, #31, LBB14_12
	mov	w13, #19923
	movk	w13, #4194, lsl #16
	umull	x11, w11, w13
	lsr	w13, w10, #30
	lsr	x10, x11, #38
	cbz	w13, LBB14_13
	lsl	w10, w10, #3
	mov	w11, #770
	movk	w11, #770, lsl #16
	lsr	w10, w11, w10
	b	LBB14_13
LBB14_12:
	lsr	w10, w10, #30
	cmp	w11, #2000
	ccmp	w10, #0, #0, lo
	mov	w10, #3
	csinc	w10, w10, wzr, ne
LBB14_13:
	cmp	w9, #0
	mov	w11, #9
	cset	w9, ne
	cmp	w8, #0
	mov	w8, #5
	csel	x8, x11, x8, ne
	cmp	w14, #3
	b.gt	LBB14_18
	mov	w16, wzr
	cmp	w14, #1
	mov	w13, #1
	b.eq	LBB14_29
	cmp	w14, #2
	b.eq	LBB14_161
	cmp	w14, #3
	b.ne	LBB14_52
	mov	w13, wzr
	mov	w16, #1
	b	LBB14_161
LBB14_18:
	cmp	w14, #4
	b.eq	LBB14_21
	cmp	w14, #5
	b.eq	LBB14_21
	cmp	w14, #6
	b.ne	LBB14_52
LBB14_21:
	mov	w13, wzr
	mov	w16, wzr
	b	LBB14_161
LBB14_22:
	ldur	w11, [x21, #1]
	lsr	w8, w11, #29
	mov	w10, wzr
	cbnz	w8, LBB14_4
LBB14_23:
	cmp	w11, #3
	mov	w8, #5
	b.le	LBB14_63
	cmp	w11, #5
	b.gt	LBB14_73
	cmp	w11, #4
	b.eq	LBB14_159
	cmp	w11, #5
	b.ne	LBB14_98
	mov	w8, w11
LBB14_28:
	mov	w13, wzr
	mov	w16, wzr
	mov	w14, #5
	b	LBB14_160
LBB14_29:
	mov	w11, w14
	ldrb	w17, [x2, #8]
	ldp	w0, w15, [x2]
	cmp	w17, #1
	str	w0, [sp, #28]
	b.eq	LBB14_162
LBB14_30:
	tbz	w13, #0, LBB14_32
	mov	w16, w10
	adrp	x17, Lswitch.table.wkb_raw_write.374@PAGE
	add	x17, x17, Lswitch.table.wkb_raw_write.374@PAGEOFF
	and	x16, x16, #0xff
	mov	x24, xzr
	ldr	x16, [x17, x16, lsl #3]
	mov	w17, w11
	madd	x25, x16, x17, x8
	sub	w16, w14, #4
	cmp	w16, #3
	b.hs	LBB14_37
	b	LBB14_39
LBB14_32:
	tbz	w16, #0, LBB14_36
	mov	x24, xzr
	mov	w14, #3
	mov	w27, w9
	mov	w26, w10
	mov	w28, w11
	mov	x25, x8
	cmp	w0, #2
	b.eq	LBB14_40
LBB14_34:
	cmp	w0, #1
	mov	w12, #536870912
	mov	w16, #1073741824
	csel	w12, w12, wzr, eq
	tst	w10, #0xfe
	strb	wzr, [x19]
	csel	w16, wzr, w16, eq
	orr	w12, w16, w12
	orr	w12, w12, w10, lsl #31
	orr	w12, w14, w12
	rev	w12, w12
	stur	w12, [x19, #1]
	mov	w12, #5
	tbz	w0, #0, LBB14_42
	mov	w14, #9
	b	LBB14_41
LBB14_36:
	mov	w24, w11
	mov	x25, x8
	sub	w16, w14, #4
	cmp	w16, #3
	b.lo	LBB14_39
LBB14_37:
	cmp	w14, #1
	b.eq	LBB14_67
	cmp	w14, #2
	b.ne	LBB14_69
LBB14_39:
	mov	w26, wzr
	mov	w28, wzr
	mov	w27, #1
	cmp	w0, #2
	b.ne	LBB14_34
LBB14_40:
	and	w12, w10, #0xff
	mov	w15, #1000
	strb	wzr, [x19]
	mul	w12, w12, w15
	orr	w15, w14, w12
	mov	w14, #5
	mov	w12, #1
LBB14_41:
	rev	w15, w15
	str	w15, [x19, x12]
	mov	x12, x14
LBB14_42:
	add	x14, x12, #4
	rev	w15, w11
	str	w15, [x19, x12]
	cbz	w13, LBB14_46
	and	w13, w10, #0xff
	sub	w10, w13, #1
	cmp	w10, #2
	mov	w10, w11
	b.hs	LBB14_50
	add	x11, x10, x10, lsl #1
	lsl	x2, x11, #3
	mov	w11, #24
	add	x23, x14, x2
	umaddl	x10, w11, w10, x8
	add	x1, x21, x8
	add	x0, x19, x14
	cbnz	w9, LBB14_47
LBB14_45:
	bl	_memcpy
	b	LBB14_262
LBB14_46:
	mov	x2, xzr
	add	x23, x12, #4
	mov	x10, x8
	add	x1, x21, x8
	add	x0, x19, x14
	cbz	w9, LBB14_45
LBB14_47:
	sub	x9, x10, x8
	lsr	x10, x9, #4
	cbz	x10, LBB14_58
	cmp	x9, #64
	b.hs	LBB14_53
	mov	x11, xzr
	b	LBB14_56
LBB14_50:
	cmp	w13, #3
	b.ne	LBB14_70
	add	x23, x12, #4
	lsl	x2, x10, #5
	mov	w11, #32
	bfi	x23, x10, #5, #32
	umaddl	x10, w11, w10, x8
	add	x1, x21, x8
	add	x0, x19, x14
	cbnz	w9, LBB14_47
	b	LBB14_45
LBB14_52:
	mov	w13, wzr
	mov	w16, wzr
	mov	w14, #7
	b	LBB14_161
LBB14_53:
	add	x8, x8, x21
	add	x12, x12, x19
	and	x11, x10, #0x7fffffffc
	add	x8, x8, #32
	add	x12, x12, #36
	and	x13, x10, #0x7fffffffc
LBB14_54:
	ldp	q1, q0, [x8, #-32]
	subs	x13, x13, #4
	ldp	q3, q2, [x8], #64
	rev64	v0.16b, v0.16b
	rev64	v1.16b, v1.16b
	rev64	v2.16b, v2.16b
	rev64	v3.16b, v3.16b
	stp	q1, q0, [x12, #-32]
	stp	q3, q2, [x12], #64
	b.ne	LBB14_54
	cmp	x10, x11
	b.eq	LBB14_58
LBB14_56:
	lsl	x8, x11, #4
	sub	x10, x10, x11
LBB14_57:
	ldr	q0, [x1, x8]
	subs	x10, x10, #1
	rev64	v0.16b, v0.16b
	str	q0, [x0, x8]
	add	x8, x8, #16
	b.ne	LBB14_57
LBB14_58:
	tbz	w9, #3, LBB14_262
	and	x8, x9, #0x7ffffffff0
	ldr	x9, [x1, x8]
	rev	x9, x9
	str	x9, [x0, x8]
	b	LBB14_262
LBB14_60:
	mov	w12, #1
	movk	w12, #8192, lsl #16
	cmp	w11, w12
	b.eq	LBB14_129
	mov	w12, #2
	movk	w12, #8192, lsl #16
	cmp	w11, w12
	b.eq	LBB14_130
	mov	w12, #3
	movk	w12, #8192, lsl #16
	cmp	w11, w12
	b.eq	LBB14_66
	b	LBB14_9
LBB14_63:
	cmp	w11, #1
	b.eq	LBB14_129
	cmp	w11, #2
	b.eq	LBB14_130
	cmp	w11, #3
	b.ne	LBB14_98
LBB14_66:
	mov	w13, wzr
	mov	w14, #3
	mov	w16, #1
	b	LBB14_160
LBB14_67:
	cmp	w0, #2
	b.ne	LBB14_76
	and	w9, w10, #0xff
	mov	w13, #1000
	strb	wzr, [x19]
	mul	w9, w9, w13
	mov	w13, #5
	orr	w15, w9, #0x1
	mov	w9, #1
	b	LBB14_78
LBB14_69:
	mov	w26, wzr
	mov	w28, wzr
	mov	w14, #7
	mov	w27, #1
	cmp	w0, #2
	b.ne	LBB14_34
	b	LBB14_40
LBB14_70:
	lsl	x2, x10, #4
	mov	w11, #16
	add	x23, x14, x2
	umaddl	x10, w11, w10, x8
	add	x1, x21, x8
	add	x0, x19, x14
	cbnz	w9, LBB14_47
	b	LBB14_45
LBB14_71:
	mov	w12, #6
	movk	w12, #8192, lsl #16
	cmp	w11, w12
	b.eq	LBB14_158
	mov	w12, #7
	movk	w12, #8192, lsl #16
	cmp	w11, w12
	b.eq	LBB14_75
	b	LBB14_9
LBB14_73:
	cmp	w11, #6
	b.eq	LBB14_158
	cmp	w11, #7
	b.ne	LBB14_98
LBB14_75:
	mov	w13, wzr
	mov	w16, wzr
	mov	w14, #7
	b	LBB14_160
LBB14_76:
	tst	w10, #0xfe
	mov	w9, #1073741824
	mov	w13, #536870912
	csel	w9, wzr, w9, eq
	cmp	w0, #1
	strb	wzr, [x19]
	csinc	w13, w13, wzr, eq
	orr	w9, w9, w13
	orr	w9, w9, w10, lsl #31
	orr	w9, w9, #0x1
	rev	w9, w9
	stur	w9, [x19, #1]
	mov	w9, #5
	b.ne	LBB14_79
	mov	w13, #9
LBB14_78:
	rev	w14, w15
	str	w14, [x19, x9]
	mov	x9, x13
LBB14_79:
	and	w13, w10, #0xff
	add	x1, x21, x8
	add	x0, x19, x9
	sub	w10, w13, #1
	cmp	w10, #2
	mov	w10, w11
	b.hs	LBB14_89
	add	x10, x10, x10, lsl #1
	lsl	x2, x10, #3
	add	x23, x9, x2
	cbz	w11, LBB14_117
	ubfx	x10, x10, #0, #61
	mov	x13, xzr
	mov	x14, #-9007199254740992
	mov	x15, #-9007199254740991
	mov	x16, x2
	b	LBB14_84
LBB14_82:
	rev	x17, x17
	cmp	x15, x17, lsl #1
	b.hi	LBB14_116
LBB14_83:
	subs	x16, x16, #8
	add	x13, x13, #8
	b.eq	LBB14_119
LBB14_84:
	ldr	x17, [x1, x13]
	tbz	w12, #0, LBB14_82
	cmp	x14, x17, lsl #1
	b.lo	LBB14_83
	lsr	x10, x2, #4
	cbz	x10, LBB14_153
	cmp	w11, #3
	b.hs	LBB14_148
	mov	x11, xzr
	b	LBB14_151
LBB14_89:
	mov	x23, x9
	cbnz	w13, LBB14_103
	bfi	x23, x10, #4, #32
	cbz	w11, LBB14_117
	lsl	x2, x10, #4
	lsl	x13, x10, #1
	mov	x14, xzr
	mov	x15, #-9007199254740992
	mov	x16, #-9007199254740991
	mov	x17, x2
	b	LBB14_94
LBB14_92:
	rev	x3, x3
	cmp	x16, x3, lsl #1
	b.hi	LBB14_116
LBB14_93:
	subs	x17, x17, #8
	add	x14, x14, #8
	b.eq	LBB14_131
LBB14_94:
	ldr	x3, [x1, x14]
	tbz	w12, #0, LBB14_92
	cmp	x15, x3, lsl #1
	b.lo	LBB14_93
	cmp	w11, #4
	b.hs	LBB14_251
	mov	x11, xzr
	b	LBB14_254
LBB14_98:
	sub	w8, w11, #1001
	cmp	w8, #7
	b.hs	LBB14_111
	cmp	w11, #1003
	mov	w10, #1
	mov	w8, #5
	b.gt	LBB14_121
	cmp	w11, #1001
	b.eq	LBB14_129
	cmp	w11, #1002
	b.eq	LBB14_130
	cmp	w11, #1003
	b.eq	LBB14_66
	b	LBB14_75
LBB14_103:
	bfi	x23, x10, #5, #32
	cbz	w11, LBB14_117
	lsl	x2, x10, #5
	lsl	x13, x10, #2
	mov	x14, xzr
	mov	x15, #-9007199254740992
	mov	x16, #-9007199254740991
	mov	x17, x2
	b	LBB14_107
LBB14_105:
	rev	x3, x3
	cmp	x16, x3, lsl #1
	b.hi	LBB14_116
LBB14_106:
	subs	x17, x17, #8
	add	x14, x14, #8
	b.eq	LBB14_133
LBB14_107:
	ldr	x3, [x1, x14]
	tbz	w12, #0, LBB14_105
	cmp	x15, x3, lsl #1
	b.lo	LBB14_106
	lsl	x10, x10, #1
	cmp	w11, #1
	b.ne	LBB14_256
	mov	x11, xzr
	b	LBB14_259
LBB14_111:
	sub	w8, w11, #2001
	cmp	w8, #7
	b.hs	LBB14_124
	cmp	w11, #2003
	mov	w10, #2
	mov	w8, #5
	b.gt	LBB14_140
	cmp	w11, #2001
	b.eq	LBB14_129
	cmp	w11, #2002
	b.eq	LBB14_130
	cmp	w11, #2003
	b.eq	LBB14_66
	b	LBB14_75
LBB14_116:
	bl	_memcpy
LBB14_117:
	mov	w26, wzr
	mov	w28, wzr
LBB14_118:
	mov	w27, #1
	b	LBB14_262
LBB14_119:
	cmp	w11, #1
	b.ne	LBB14_135
	mov	x8, xzr
	mov	x11, xzr
	b	LBB14_138
LBB14_121:
	cmp	w11, #1004
	b.eq	LBB14_159
	cmp	w11, #1005
	b.eq	LBB14_28
	cmp	w11, #1006
	b.eq	LBB14_158
	b	LBB14_75
LBB14_124:
	sub	w8, w11, #3001
	cmp	w8, #7
	b.hs	LBB14_9
	cmp	w11, #3003
	mov	w10, #3
	mov	w8, #5
	b.gt	LBB14_155
	cmp	w11, #3001
	b.eq	LBB14_129
	cmp	w11, #3002
	b.eq	LBB14_130
	cmp	w11, #3003
	b.eq	LBB14_66
	b	LBB14_75
LBB14_129:
	mov	w16, wzr
	mov	w14, #1
	mov	w13, #1
	mov	w12, w9
	mov	w11, #1
	ldrb	w17, [x2, #8]
	ldp	w0, w15, [x2]
	cmp	w17, #1
	str	w0, [sp, #28]
	b.eq	LBB14_162
	b	LBB14_30
LBB14_130:
	mov	w16, wzr
	mov	w14, #2
	mov	w13, #1
	b	LBB14_160
LBB14_131:
	cmp	w11, #1
	b.ne	LBB14_143
	mov	x8, xzr
	mov	x10, xzr
	b	LBB14_146
LBB14_133:
	mov	w8, #63615
	mov	w27, #1
	dup	v0.2d, x8
	add	x8, x9, x19
	add	x8, x8, #16
LBB14_134:
	subs	x13, x13, #4
	stp	q0, q0, [x8, #-16]
	add	x8, x8, #32
	b.ne	LBB14_134
	b	LBB14_261
LBB14_135:
	mov	w8, #63615
	and	x11, x10, #0x3fffffffc
	add	x9, x9, x19
	dup	v0.2d, x8
	lsl	x8, x11, #3
	add	x9, x9, #16
	and	x12, x10, #0x3fffffffc
LBB14_136:
	subs	x12, x12, #4
	stp	q0, q0, [x9, #-16]
	add	x9, x9, #32
	b.ne	LBB14_136
	cmp	x10, x11
	b.eq	LBB14_117
LBB14_138:
	sub	x9, x11, x10
	mov	w10, #63615
	mov	w27, #1
LBB14_139:
	adds	x9, x9, #1
	str	x10, [x0, x8]
	add	x8, x8, #8
	b.lo	LBB14_139
	b	LBB14_261
LBB14_140:
	cmp	w11, #2004
	b.eq	LBB14_159
	cmp	w11, #2005
	b.eq	LBB14_28
	cmp	w11, #2006
	b.eq	LBB14_158
	b	LBB14_75
LBB14_143:
	mov	w8, #63615
	and	x10, x13, #0x1fffffffc
	add	x9, x9, x19
	dup	v0.2d, x8
	lsl	x8, x10, #3
	add	x9, x9, #16
	and	x11, x13, #0x1fffffffc
LBB14_144:
	subs	x11, x11, #4
	stp	q0, q0, [x9, #-16]
	add	x9, x9, #32
	b.ne	LBB14_144
	cmp	x13, x10
	b.eq	LBB14_117
LBB14_146:
	sub	x9, x10, x13
	mov	w10, #63615
	mov	w27, #1
LBB14_147:
	adds	x9, x9, #1
	str	x10, [x0, x8]
	add	x8, x8, #8
	b.lo	LBB14_147
	b	LBB14_261
LBB14_148:
	add	x8, x8, x21
	add	x9, x9, x19
	and	x11, x10, #0x1fffffffc
	add	x8, x8, #32
	add	x9, x9, #32
	and	x12, x10, #0x1fffffffc
LBB14_149:
	ldp	q1, q0, [x8, #-32]
	subs	x12, x12, #4
	ldp	q3, q2, [x8], #64
	rev64	v0.16b, v0.16b
	rev64	v1.16b, v1.16b
	rev64	v2.16b, v2.16b
	rev64	v3.16b, v3.16b
	stp	q1, q0, [x9, #-32]
	stp	q3, q2, [x9], #64
	b.ne	LBB14_149
	cmp	x10, x11
	b.eq	LBB14_153
LBB14_151:
	lsl	x8, x11, #4
	sub	x9, x10, x11
LBB14_152:
	ldr	q0, [x1, x8]
	subs	x9, x9, #1
	rev64	v0.16b, v0.16b
	str	q0, [x0, x8]
	add	x8, x8, #16
	b.ne	LBB14_152
LBB14_153:
	tbz	w2, #3, LBB14_117
	and	x8, x2, #0x1ffffffff0
	mov	w26, wzr
	mov	w28, wzr
	ldr	x9, [x1, x8]
	rev	x9, x9
	str	x9, [x0, x8]
	b	LBB14_118
LBB14_155:
	cmp	w11, #3004
	b.eq	LBB14_159
	cmp	w11, #3005
	b.eq	LBB14_28
	cmp	w11, #3006
	b.ne	LBB14_75
LBB14_158:
	mov	w13, wzr
	mov	w16, wzr
	mov	w14, #6
	b	LBB14_160
LBB14_159:
	mov	w13, wzr
	mov	w16, wzr
	mov	w14, #4
LBB14_160:
	mov	w12, w9
LBB14_161:
	ldr	w11, [x21, x8]
	tst	w12, #0x1
	add	x8, x8, #4
	rev	w15, w11
	csel	w11, w11, w15, ne
	ldrb	w17, [x2, #8]
	ldp	w0, w15, [x2]
	cmp	w17, #1
	str	w0, [sp, #28]
	b.ne	LBB14_30
LBB14_162:
	tbz	w13, #0, LBB14_164
	mov	w16, w10
	adrp	x17, Lswitch.table.wkb_raw_write.374@PAGE
	add	x17, x17, Lswitch.table.wkb_raw_write.374@PAGEOFF
	and	x16, x16, #0xff
	mov	x24, xzr
	ldr	x16, [x17, x16, lsl #3]
	mov	w17, w11
	madd	x25, x16, x17, x8
	sub	w16, w14, #4
	cmp	w16, #3
	b.hs	LBB14_169
	b	LBB14_171
LBB14_164:
	tbz	w16, #0, LBB14_168
	mov	x24, xzr
	mov	w14, #3
	mov	w20, w11
	mov	w27, w10
	mov	w26, w9
	mov	x25, x8
	cmp	w0, #2
	b.eq	LBB14_172
LBB14_166:
	cmp	w0, #1
	mov	w12, #536870912
	mov	w16, #1073741824
	csel	w12, w12, wzr, eq
	tst	w10, #0xfe
	csel	w16, wzr, w16, eq
	orr	w12, w16, w12
	mov	w16, #1
	orr	w12, w12, w10, lsl #31
	strb	w16, [x19]
	orr	w12, w14, w12
	stur	w12, [x19, #1]
	mov	w12, #5
	tbz	w0, #0, LBB14_174
	mov	w14, #9
	b	LBB14_173
LBB14_168:
	mov	w24, w11
	mov	x25, x8
	sub	w16, w14, #4
	cmp	w16, #3
	b.lo	LBB14_171
LBB14_169:
	cmp	w14, #1
	b.eq	LBB14_191
	cmp	w14, #2
	b.ne	LBB14_193
LBB14_171:
	mov	w20, wzr
	mov	w27, wzr
	mov	w26, #1
	cmp	w0, #2
	b.ne	LBB14_166
LBB14_172:
	and	w12, w10, #0xff
	mov	w15, #1000
	mul	w15, w12, w15
	mov	w12, #1
	strb	w12, [x19]
	orr	w15, w14, w15
	mov	w14, #5
LBB14_173:
	str	w15, [x19, x12]
	mov	x12, x14
LBB14_174:
	add	x14, x12, #4
	str	w11, [x19, x12]
	cbz	w13, LBB14_180
	and	w13, w10, #0xff
	sub	w10, w13, #1
	cmp	w10, #2
	mov	w10, w11
	b.hs	LBB14_182
	add	x11, x10, x10, lsl #1
	lsl	x2, x11, #3
	mov	w11, #24
	add	x28, x14, x2
	umaddl	x10, w11, w10, x8
	cmp	w9, #1
	add	x1, x21, x8
	add	x0, x19, x14
	b.eq	LBB14_181
LBB14_177:
	sub	x9, x10, x8
	lsr	x10, x9, #4
	cbz	x10, LBB14_189
	cmp	x9, #64
	b.hs	LBB14_184
	mov	x11, xzr
	b	LBB14_187
LBB14_180:
	mov	x2, xzr
	add	x28, x12, #4
	mov	x10, x8
	cmp	w9, #1
	add	x1, x21, x8
	add	x0, x19, x14
	b.ne	LBB14_177
LBB14_181:
	bl	_memcpy
	b	LBB14_531
LBB14_182:
	cmp	w13, #3
	b.ne	LBB14_194
	add	x28, x12, #4
	lsl	x2, x10, #5
	mov	w11, #32
	bfi	x28, x10, #5, #32
	umaddl	x10, w11, w10, x8
	cmp	w9, #1
	add	x1, x21, x8
	add	x0, x19, x14
	b.ne	LBB14_177
	b	LBB14_181
LBB14_184:
	add	x8, x8, x21
	add	x12, x12, x19
	and	x11, x10, #0x7fffffffc
	add	x8, x8, #32
	add	x12, x12, #36
	and	x13, x10, #0x7fffffffc
LBB14_185:
	ldp	q1, q0, [x8, #-32]
	subs	x13, x13, #4
	ldp	q3, q2, [x8], #64
	rev64	v0.16b, v0.16b
	rev64	v1.16b, v1.16b
	rev64	v2.16b, v2.16b
	rev64	v3.16b, v3.16b
	stp	q1, q0, [x12, #-32]
	stp	q3, q2, [x12], #64
	b.ne	LBB14_185
	cmp	x10, x11
	b.eq	LBB14_189
LBB14_187:
	lsl	x8, x11, #4
	sub	x10, x10, x11
LBB14_188:
	ldr	q0, [x1, x8]
	subs	x10, x10, #1
	rev64	v0.16b, v0.16b
	str	q0, [x0, x8]
	add	x8, x8, #16
	b.ne	LBB14_188
LBB14_189:
	tbz	w9, #3, LBB14_531
	and	x8, x9, #0x7ffffffff0
	ldr	x9, [x1, x8]
	rev	x9, x9
	str	x9, [x0, x8]
	b	LBB14_531
LBB14_191:
	cmp	w0, #2
	b.ne	LBB14_195
	and	w9, w10, #0xff
	mov	w13, #1000
	mul	w13, w9, w13
	mov	w9, #1
	strb	w9, [x19]
	orr	w15, w13, #0x1
	mov	w13, #5
	b	LBB14_197
LBB14_193:
	mov	w20, wzr
	mov	w27, wzr
	mov	w14, #7
	mov	w26, #1
	cmp	w0, #2
	b.ne	LBB14_166
	b	LBB14_172
LBB14_194:
	lsl	x2, x10, #4
	mov	w11, #16
	add	x28, x14, x2
	umaddl	x10, w11, w10, x8
	cmp	w9, #1
	add	x1, x21, x8
	add	x0, x19, x14
	b.ne	LBB14_177
	b	LBB14_181
LBB14_195:
	tst	w10, #0xfe
	mov	w9, #1073741824
	mov	w13, #536870912
	csel	w9, wzr, w9, eq
	cmp	w0, #1
	csinc	w13, w13, wzr, eq
	orr	w9, w9, w13
	mov	w13, #1
	orr	w9, w9, w10, lsl #31
	strb	w13, [x19]
	orr	w9, w9, #0x1
	stur	w9, [x19, #1]
	mov	w9, #5
	b.ne	LBB14_198
	mov	w13, #9
LBB14_197:
	str	w15, [x19, x9]
	mov	x9, x13
LBB14_198:
	and	w13, w10, #0xff
	add	x1, x21, x8
	add	x0, x19, x9
	sub	w10, w13, #1
	cmp	w10, #2
	mov	w10, w11
	b.hs	LBB14_208
	add	x10, x10, x10, lsl #1
	lsl	x2, x10, #3
	add	x28, x9, x2
	cbz	w11, LBB14_248
	ubfx	x10, x10, #0, #61
	mov	x13, xzr
	mov	x14, #-9007199254740991
	mov	x15, #-9007199254740992
	mov	x16, x2
	b	LBB14_203
LBB14_201:
	cmp	x14, x17, lsl #1
	b.hi	LBB14_225
LBB14_202:
	subs	x16, x16, #8
	add	x13, x13, #8
	b.eq	LBB14_226
LBB14_203:
	ldr	x17, [x1, x13]
	tbnz	w12, #0, LBB14_201
	rev	x17, x17
	cmp	x15, x17, lsl #1
	b.lo	LBB14_202
	lsr	x10, x2, #4
	cbz	x10, LBB14_247
	cmp	w11, #3
	b.hs	LBB14_242
	mov	x11, xzr
	b	LBB14_245
LBB14_208:
	mov	x28, x9
	cbnz	w13, LBB14_217
	bfi	x28, x10, #4, #32
	cbz	w11, LBB14_248
	lsl	x2, x10, #4
	lsl	x13, x10, #1
	mov	x14, xzr
	mov	x15, #-9007199254740991
	mov	x16, #-9007199254740992
	mov	x17, x2
	b	LBB14_213
LBB14_211:
	cmp	x15, x3, lsl #1
	b.hi	LBB14_225
LBB14_212:
	subs	x17, x17, #8
	add	x14, x14, #8
	b.eq	LBB14_228
LBB14_213:
	ldr	x3, [x1, x14]
	tbnz	w12, #0, LBB14_211
	rev	x3, x3
	cmp	x16, x3, lsl #1
	b.lo	LBB14_212
	cmp	w11, #4
	b.hs	LBB14_520
	mov	x11, xzr
	b	LBB14_523
LBB14_217:
	bfi	x28, x10, #5, #32
	cbz	w11, LBB14_248
	lsl	x2, x10, #5
	lsl	x13, x10, #2
	mov	x14, xzr
	mov	x15, #-9007199254740991
	mov	x16, #-9007199254740992
	mov	x17, x2
	b	LBB14_221
LBB14_219:
	cmp	x15, x3, lsl #1
	b.hi	LBB14_225
LBB14_220:
	subs	x17, x17, #8
	add	x14, x14, #8
	b.eq	LBB14_230
LBB14_221:
	ldr	x3, [x1, x14]
	tbnz	w12, #0, LBB14_219
	rev	x3, x3
	cmp	x16, x3, lsl #1
	b.lo	LBB14_220
	lsl	x10, x10, #1
	cmp	w11, #1
	b.ne	LBB14_525
	mov	x11, xzr
	b	LBB14_528
LBB14_225:
	bl	_memcpy
	b	LBB14_248
LBB14_226:
	cmp	w11, #1
	b.ne	LBB14_232
	mov	x8, xzr
	mov	x11, xzr
	b	LBB14_235
LBB14_228:
	cmp	w11, #1
	b.ne	LBB14_237
	mov	x8, xzr
	mov	x10, xzr
	b	LBB14_240
LBB14_230:
	mov	x8, #9221120237041090560
	mov	w26, #1
	dup	v0.2d, x8
	add	x8, x9, x19
	add	x8, x8, #16
LBB14_231:
	subs	x13, x13, #4
	stp	q0, q0, [x8, #-16]
	add	x8, x8, #32
	b.ne	LBB14_231
	b	LBB14_530
LBB14_232:
	mov	x8, #9221120237041090560
	and	x11, x10, #0x3fffffffc
	add	x9, x9, x19
	dup	v0.2d, x8
	lsl	x8, x11, #3
	add	x9, x9, #16
	and	x12, x10, #0x3fffffffc
LBB14_233:
	subs	x12, x12, #4
	stp	q0, q0, [x9, #-16]
	add	x9, x9, #32
	b.ne	LBB14_233
	cmp	x10, x11
	b.eq	LBB14_248
LBB14_235:
	sub	x9, x11, x10
	mov	x10, #9221120237041090560
	mov	w26, #1
LBB14_236:
	adds	x9, x9, #1
	str	x10, [x0, x8]
	add	x8, x8, #8
	b.lo	LBB14_236
	b	LBB14_530
LBB14_237:
	mov	x8, #9221120237041090560
	and	x10, x13, #0x1fffffffc
	add	x9, x9, x19
	dup	v0.2d, x8
	lsl	x8, x10, #3
	add	x9, x9, #16
	and	x11, x13, #0x1fffffffc
LBB14_238:
	subs	x11, x11, #4
	stp	q0, q0, [x9, #-16]
	add	x9, x9, #32
	b.ne	LBB14_238
	cmp	x13, x10
	b.eq	LBB14_248
LBB14_240:
	sub	x9, x10, x13
	mov	x10, #9221120237041090560
	mov	w26, #1
LBB14_241:
	adds	x9, x9, #1
	str	x10, [x0, x8]
	add	x8, x8, #8
	b.lo	LBB14_241
	b	LBB14_530
LBB14_242:
	add	x8, x8, x21
	add	x9, x9, x19
	and	x11, x10, #0x1fffffffc
	add	x8, x8, #32
	add	x9, x9, #32
	and	x12, x10, #0x1fffffffc
LBB14_243:
	ldp	q1, q0, [x8, #-32]
	subs	x12, x12, #4
	ldp	q3, q2, [x8], #64
	rev64	v0.16b, v0.16b
	rev64	v1.16b, v1.16b
	rev64	v2.16b, v2.16b
	rev64	v3.16b, v3.16b
	stp	q1, q0, [x9, #-32]
	stp	q3, q2, [x9], #64
	b.ne	LBB14_243
	cmp	x10, x11
	b.eq	LBB14_247
LBB14_245:
	lsl	x8, x11, #4
	sub	x9, x10, x11
LBB14_246:
	ldr	q0, [x1, x8]
	subs	x9, x9, #1
	rev64	v0.16b, v0.16b
	str	q0, [x0, x8]
	add	x8, x8, #16
	b.ne	LBB14_246
LBB14_247:
	tbnz	w2, #3, LBB14_250
LBB14_248:
	mov	w20, wzr
	mov	w27, wzr
LBB14_249:
	mov	w26, #1
	b	LBB14_531
LBB14_250:
	and	x8, x2, #0x1ffffffff0
	mov	w20, wzr
	mov	w27, wzr
	ldr	x9, [x1, x8]
	rev	x9, x9
	str	x9, [x0, x8]
	b	LBB14_249
LBB14_251:
	add	x12, x8, x21
	add	x13, x9, x19
	and	x11, x10, #0xfffffffc
	add	x12, x12, #32
	add	x13, x13, #32
	and	x14, x10, #0xfffffffc
LBB14_252:
	ldp	q1, q0, [x12, #-32]
	subs	x14, x14, #4
	ldp	q3, q2, [x12], #64
	rev64	v0.16b, v0.16b
	rev64	v1.16b, v1.16b
	rev64	v2.16b, v2.16b
	rev64	v3.16b, v3.16b
	stp	q1, q0, [x13, #-32]
	stp	q3, q2, [x13], #64
	b.ne	LBB14_252
	cmp	x11, x10
	b.eq	LBB14_117
LBB14_254:
	lsl	x12, x11, #4
	bfi	x9, x11, #4, #32
	add	x13, x21, x8
	sub	x8, x10, x11
	mov	w27, #1
	add	x9, x19, x9
	add	x10, x13, x12
LBB14_255:
	ldr	q0, [x10], #16
	subs	x8, x8, #1
	rev64	v0.16b, v0.16b
	str	q0, [x9], #16
	b.ne	LBB14_255
	b	LBB14_261
LBB14_256:
	add	x8, x8, x21
	add	x9, x9, x19
	and	x11, x10, #0x1fffffffc
	add	x8, x8, #32
	add	x9, x9, #32
	and	x12, x10, #0x1fffffffc
LBB14_257:
	ldp	q1, q0, [x8, #-32]
	subs	x12, x12, #4
	ldp	q3, q2, [x8], #64
	rev64	v0.16b, v0.16b
	rev64	v1.16b, v1.16b
	rev64	v2.16b, v2.16b
	rev64	v3.16b, v3.16b
	stp	q1, q0, [x9, #-32]
	stp	q3, q2, [x9], #64
	b.ne	LBB14_257
	cmp	x10, x11
	b.eq	LBB14_117
LBB14_259:
	lsl	x8, x11, #4
	sub	x9, x11, x10
	mov	w27, #1
LBB14_260:
	ldr	q0, [x1, x8]
	adds	x9, x9, #1
	rev64	v0.16b, v0.16b
	str	q0, [x0, x8]
	add	x8, x8, #16
	b.lo	LBB14_260
LBB14_261:
	mov	w26, wzr
	mov	w28, wzr
LBB14_262:
	b	LBB14_264
LBB14_263:
	bl	_memcpy
LBB14_264:
	mov	x0, x23
	cbnz	w28, LBB14_271
	cbz	x24, LBB14_271
	add	x8, x21, x25
	ldur	w10, [x8, #1]
	ldrb	w8, [x8]
	subs	w9, w10, #1
	b.ne	LBB14_274
	cmp	w8, #1
	b.ne	LBB14_274
	add	x10, x21, x25
	mov	x12, #-9007199254740991
	sub	x24, x24, #1
	ldur	x9, [x10, #5]
	ldur	x10, [x10, #13]
	add	x8, x19, x0
	add	x25, x25, #21
	mov	w11, #16777216
	add	x23, x0, #21
	cmp	x12, x9, lsl #1
	strb	wzr, [x8]
	stur	w11, [x8, #1]
	b.hi	LBB14_289
	lsl	x11, x10, #1
	cmp	x11, x12
	b.lo	LBB14_289
	mov	w9, #63615
	mov	w28, wzr
	dup	v0.2d, x9
	stur	q0, [x8, #5]
	b	LBB14_264
LBB14_271:
	cbz	w28, LBB14_278
	ldr	w8, [x21, x25]
	and	x9, x26, #0xff
	adrp	x11, Lswitch.table.wkb_raw_write.374@PAGE
	add	x11, x11, Lswitch.table.wkb_raw_write.374@PAGEOFF
	tst	w27, #0x1
	sub	w28, w28, #1
	rev	w10, w8
	ldr	x9, [x11, x9, lsl #3]
	csel	w11, w8, w10, ne
	add	x10, x25, #4
	add	x8, x0, #4
	madd	x25, x9, x11, x10
	rev	w9, w11
	str	w9, [x19, x0]
	mov	w9, w27
	and	w12, w26, #0xff
	mov	w11, w11
	sub	w13, w12, #1
	cmp	w13, #2
	b.hs	LBB14_435
LBB14_273:
	add	x12, x11, x11, lsl #1
	mov	w13, #24
	lsl	x12, x12, #3
	umull	x2, w13, w11
	add	x23, x12, x8
	tst	w9, #0xff
	add	x0, x19, x8
	add	x1, x21, x10
	b.ne	LBB14_439
	b	LBB14_263
LBB14_274:
	cmp	w9, #6
	b.hi	LBB14_279
	cmp	w8, #1
	b.ne	LBB14_279
	cmp	w10, #1
	add	x8, x25, #5
	b.ne	LBB14_290
	sub	x24, x24, #1
	mov	w22, #1
	b	LBB14_291
LBB14_278:
	cbz	x24, LBB14_786
LBB14_279:
	ldr	x8, [sp, #16]
	add	x12, x21, x25
	sub	x11, x8, x25
	cmp	x11, #5
	b.hs	LBB14_282
	cmp	x8, x25
	b.eq	LBB14_400
	ldrb	w9, [x12]
	b	LBB14_392
LBB14_282:
	ldrb	w9, [x12]
	cmp	w9, #1
	b.eq	LBB14_296
	cbnz	w9, LBB14_392
	ldur	w8, [x12, #1]
	rev	w13, w8
	lsr	w10, w13, #29
	cmp	w10, #0
	cset	w8, ne
	cbz	w10, LBB14_297
LBB14_285:
	mov	w10, #3
	movk	w10, #8192, lsl #16
	cmp	w13, w10
	mov	w10, wzr
	b.le	LBB14_304
	mov	w14, #5
	movk	w14, #8192, lsl #16
	cmp	w13, w14
	b.gt	LBB14_354
	mov	w14, #4
	movk	w14, #8192, lsl #16
	cmp	w13, w14
	b.eq	LBB14_426
	mov	w14, #5
	movk	w14, #8192, lsl #16
	cmp	w13, w14
	b.eq	LBB14_301
	b	LBB14_392
LBB14_289:
	rev	x9, x9
	rev	x10, x10
	mov	w28, wzr
	stur	x9, [x8, #5]
	stur	x10, [x8, #13]
	b	LBB14_264
LBB14_290:
	ldr	w22, [x21, x8]
	cmp	w10, #3
	add	x8, x25, #9
	sub	x24, x24, #1
	b.hs	LBB14_302
LBB14_291:
	add	x25, x8, w22, uxtw #4
	mov	w9, w22
	mov	w22, wzr
	cmp	w10, #3
	mov	w11, #117440512
	b.le	LBB14_314
LBB14_292:
	cmp	w10, #4
	b.eq	LBB14_311
	cmp	w10, #5
	b.eq	LBB14_312
	cmp	w10, #6
	b.ne	LBB14_317
	mov	w22, wzr
	mov	w11, #100663296
	b	LBB14_317
LBB14_296:
	ldur	w13, [x12, #1]
	lsr	w10, w13, #29
	cmp	w10, #0
	cset	w8, ne
	cbnz	w10, LBB14_285
LBB14_297:
	cmp	w13, #3
	b.le	LBB14_307
	cmp	w13, #5
	b.gt	LBB14_356
	cmp	w13, #4
	b.eq	LBB14_426
	cmp	w13, #5
	b.ne	LBB14_364
LBB14_301:
	mov	w12, #5
	mov	w11, #4
	b	LBB14_427
LBB14_302:
	cmp	w10, #3
	b.ne	LBB14_313
	mov	w26, wzr
	mov	w11, #50331648
	mov	w27, #1
	mov	w9, w22
	mov	x25, x8
	b	LBB14_317
LBB14_304:
	mov	w14, #1
	movk	w14, #8192, lsl #16
	cmp	w13, w14
	b.eq	LBB14_408
	mov	w14, #2
	movk	w14, #8192, lsl #16
	cmp	w13, w14
	b.eq	LBB14_409
	mov	w14, #3
	movk	w14, #8192, lsl #16
	cmp	w13, w14
	b.eq	LBB14_310
	b	LBB14_392
LBB14_307:
	cmp	w13, #1
	b.eq	LBB14_408
	cmp	w13, #2
	b.eq	LBB14_409
	cmp	w13, #3
	b.ne	LBB14_364
LBB14_310:
	mov	w29, w10
	b	LBB14_417
LBB14_311:
	mov	w22, wzr
	mov	w11, #67108864
	b	LBB14_317
LBB14_312:
	mov	w22, wzr
	mov	w11, #83886080
	b	LBB14_317
LBB14_313:
	add	x24, x24, x22
	mov	x25, x8
	mov	w9, w22
	mov	w22, wzr
	cmp	w10, #3
	mov	w11, #117440512
	b.gt	LBB14_292
LBB14_314:
	cmp	w10, #1
	b.eq	LBB14_348
	cmp	w10, #2
	b.ne	LBB14_317
	mov	w22, wzr
	mov	w11, #33554432
LBB14_317:
	add	x12, x19, x0
	add	x13, x0, #9
	rev	w14, w9
	cmp	w10, #3
	add	x23, x0, #9
	mov	x10, x8
	strb	wzr, [x12]
	stur	w11, [x12, #1]
	stur	w14, [x12, #5]
	b.hs	LBB14_319
	ubfiz	x9, x9, #4, #32
	add	x10, x9, x8
	add	x23, x13, x9
LBB14_319:
	sub	x11, x10, x8
	add	x10, x21, x8
	add	x9, x19, x13
	lsr	x12, x11, #4
	cbz	x12, LBB14_327
	cmp	x11, #64
	b.hs	LBB14_322
	mov	x13, xzr
	b	LBB14_325
LBB14_322:
	add	x14, x21, #32
	and	x13, x12, #0xffffffffffffffc
	and	x15, x12, #0xffffffffffffffc
	add	x8, x14, x8
	add	x14, x19, #41
	add	x14, x14, x0
LBB14_323:
	ldp	q1, q0, [x8, #-32]
	subs	x15, x15, #4
	ldp	q3, q2, [x8], #64
	rev64	v0.16b, v0.16b
	rev64	v1.16b, v1.16b
	rev64	v2.16b, v2.16b
	rev64	v3.16b, v3.16b
	stp	q1, q0, [x14, #-32]
	stp	q3, q2, [x14], #64
	b.ne	LBB14_323
	cmp	x12, x13
	b.eq	LBB14_327
LBB14_325:
	lsl	x8, x13, #4
	sub	x12, x12, x13
LBB14_326:
	ldr	q0, [x10, x8]
	subs	x12, x12, #1
	rev64	v0.16b, v0.16b
	str	q0, [x9, x8]
	add	x8, x8, #16
	b.ne	LBB14_326
LBB14_327:
	tbz	w11, #3, LBB14_329
	and	x8, x11, #0x7ffffffffffffff0
	ldr	x10, [x10, x8]
	rev	x10, x10
	str	x10, [x9, x8]
LBB14_329:
	mov	w28, wzr
	cbnz	w22, LBB14_332
	b	LBB14_264
LBB14_330:
	bl	_memcpy
LBB14_331:
	sub	w22, w22, #1
	cbz	w22, LBB14_347
LBB14_332:
	ldr	w9, [x21, x25]
	and	w13, w26, #0xff
	tst	w27, #0x1
	sub	w12, w13, #1
	mov	x8, x25
	mov	x10, x23
	rev	w11, w9
	csel	w9, w9, w11, ne
	cmp	w12, #2
	add	x11, x25, #4
	add	x12, x23, #4
	b.hs	LBB14_334
	add	x13, x9, x9, lsl #1
	lsl	x2, x13, #3
	rev	w13, w9
	str	w13, [x19, x10]
	mov	w13, #24
	add	x25, x2, x11
	add	x23, x2, x12
	tst	w27, #0xff
	add	x0, x19, x12
	add	x1, x21, x11
	b.ne	LBB14_337
	b	LBB14_330
LBB14_334:
	cmp	w13, #3
	b.ne	LBB14_336
	lsl	x2, x9, #5
	rev	w13, w9
	str	w13, [x19, x10]
	mov	w13, #32
	add	x25, x2, x11
	add	x23, x2, x12
	tst	w27, #0xff
	add	x0, x19, x12
	add	x1, x21, x11
	b.ne	LBB14_337
	b	LBB14_330
LBB14_336:
	lsl	x2, x9, #4
	rev	w13, w9
	str	w13, [x19, x10]
	mov	w13, #16
	add	x25, x2, x11
	add	x23, x2, x12
	tst	w27, #0xff
	add	x0, x19, x12
	add	x1, x21, x11
	b.eq	LBB14_330
LBB14_337:
	umull	x9, w13, w9
	lsr	x11, x9, #4
	cbz	x11, LBB14_345
	cmp	x9, #64
	b.hs	LBB14_340
	mov	x12, xzr
	b	LBB14_343
LBB14_340:
	add	x13, x21, #36
	and	x12, x11, #0x3fffffffc
	add	x8, x13, x8
	add	x13, x19, #36
	add	x10, x13, x10
	and	x13, x11, #0x3fffffffc
LBB14_341:
	ldp	q1, q0, [x8, #-32]
	subs	x13, x13, #4
	ldp	q3, q2, [x8], #64
	rev64	v0.16b, v0.16b
	rev64	v1.16b, v1.16b
	rev64	v2.16b, v2.16b
	rev64	v3.16b, v3.16b
	stp	q1, q0, [x10, #-32]
	stp	q3, q2, [x10], #64
	b.ne	LBB14_341
	cmp	x11, x12
	b.eq	LBB14_345
LBB14_343:
	lsl	x8, x12, #4
	sub	x10, x11, x12
LBB14_344:
	ldr	q0, [x1, x8]
	subs	x10, x10, #1
	rev64	v0.16b, v0.16b
	str	q0, [x0, x8]
	add	x8, x8, #16
	b.ne	LBB14_344
LBB14_345:
	tbz	w9, #3, LBB14_331
	and	x8, x9, #0x3ffffffff0
	ldr	x9, [x1, x8]
	rev	x9, x9
	str	x9, [x0, x8]
	b	LBB14_331
LBB14_347:
	mov	w28, wzr
	b	LBB14_264
LBB14_348:
	mov	w11, w9
	add	x10, x19, x0
	mov	w12, #16777216
	ubfiz	x14, x11, #4, #32
	add	x16, x0, #5
	stur	w12, [x10, #1]
	ubfiz	x12, x11, #1, #32
	mov	x13, xzr
	strb	wzr, [x10]
	mov	w10, w9
	add	x15, x21, x8
	add	x23, x16, x14
	add	x11, x19, x16
	mov	x17, #-9007199254740992
LBB14_349:
	cmp	x14, x13
	b.eq	LBB14_359
	ldr	x16, [x15, x13]
	add	x13, x13, #8
	cmp	x17, x16, lsl #1
	b.lo	LBB14_349
	mov	w28, wzr
	cbz	w9, LBB14_264
	cmp	w9, #4
	b.hs	LBB14_378
	mov	x9, xzr
	b	LBB14_381
LBB14_354:
	mov	w14, #6
	movk	w14, #8192, lsl #16
	cmp	w13, w14
	b.eq	LBB14_425
	mov	w14, #7
	movk	w14, #8192, lsl #16
	cmp	w13, w14
	b.eq	LBB14_358
	b	LBB14_392
LBB14_356:
	cmp	w13, #6
	b.eq	LBB14_425
	cmp	w13, #7
	b.ne	LBB14_364
LBB14_358:
	mov	w12, #7
	mov	w11, #6
	b	LBB14_427
LBB14_359:
	cmp	w9, #1
	b.eq	LBB14_374
	mov	w28, w9
	cbz	w9, LBB14_264
	and	x9, x12, #0x1fffffffc
	add	x10, x19, #21
	and	x13, x12, #0x1fffffffc
	lsl	x8, x9, #3
	add	x10, x10, x0
	mov	w14, #63615
LBB14_362:
	dup	v0.2d, x14
	subs	x13, x13, #4
	stp	q0, q0, [x10, #-16]
	add	x10, x10, #32
	b.ne	LBB14_362
	cmp	x12, x9
	mov	w28, wzr
	b.eq	LBB14_264
	b	LBB14_375
LBB14_364:
	sub	w10, w13, #1001
	cmp	w10, #7
	b.hs	LBB14_369
	cmp	w13, #1003
	mov	w10, #1
	b.gt	LBB14_384
	cmp	w13, #1001
	b.eq	LBB14_408
	cmp	w13, #1002
	b.eq	LBB14_409
	cmp	w13, #1003
	b.eq	LBB14_310
	b	LBB14_358
LBB14_369:
	sub	w10, w13, #2001
	cmp	w10, #7
	b.hs	LBB14_387
	cmp	w13, #2003
	mov	w10, #2
	b.gt	LBB14_419
	cmp	w13, #2001
	b.eq	LBB14_408
	cmp	w13, #2002
	b.eq	LBB14_409
	cmp	w13, #2003
	b.eq	LBB14_310
	b	LBB14_358
LBB14_374:
	mov	x8, xzr
	mov	x9, xzr
LBB14_375:
	sub	x9, x9, x12
	mov	w10, #63615
LBB14_376:
	adds	x9, x9, #1
	str	x10, [x11, x8]
	add	x8, x8, #8
	b.lo	LBB14_376
	mov	w28, wzr
	b	LBB14_264
LBB14_378:
	add	x11, x21, #32
	add	x12, x19, #37
	and	x9, x10, #0xfffffffc
	add	x11, x11, x8
	add	x12, x12, x0
	and	x13, x10, #0xfffffffc
LBB14_379:
	ldp	q1, q0, [x11, #-32]
	subs	x13, x13, #4
	ldp	q3, q2, [x11], #64
	rev64	v0.16b, v0.16b
	rev64	v1.16b, v1.16b
	rev64	v2.16b, v2.16b
	rev64	v3.16b, v3.16b
	stp	q1, q0, [x12, #-32]
	stp	q3, q2, [x12], #64
	b.ne	LBB14_379
	cmp	x9, x10
	mov	w28, wzr
	b.eq	LBB14_264
LBB14_381:
	lsl	x11, x9, #4
	add	x12, x19, #5
	add	x13, x21, x8
	add	x12, x12, x0
	sub	x8, x10, x9
	add	x9, x12, x11
	add	x10, x13, x11
LBB14_382:
	ldr	q0, [x10], #16
	subs	x8, x8, #1
	rev64	v0.16b, v0.16b
	str	q0, [x9], #16
	b.ne	LBB14_382
	mov	w28, wzr
	b	LBB14_264
LBB14_384:
	cmp	w13, #1004
	b.eq	LBB14_426
	cmp	w13, #1005
	b.eq	LBB14_301
	cmp	w13, #1006
	b.eq	LBB14_425
	b	LBB14_358
LBB14_387:
	sub	w10, w13, #3001
	cmp	w10, #7
	b.hs	LBB14_392
	cmp	w13, #3003
	mov	w10, #3
	b.gt	LBB14_422
	cmp	w13, #3001
	b.eq	LBB14_408
	cmp	w13, #3002
	b.eq	LBB14_409
	cmp	w13, #3003
	b.eq	LBB14_310
	b	LBB14_358
LBB14_392:
	cbz	w9, LBB14_394
	cmp	w9, #1
	b.ne	LBB14_400
LBB14_394:
	cmp	x11, #5
	b.lo	LBB14_400
	ldur	w8, [x12, #1]
	cmp	w9, #0
	rev	w10, w8
	csel	w12, w8, w10, ne
	mov	w10, #-1073741824
	ubfx	w8, w12, #30, #1
	and	w11, w12, #0x7fffffff
	add	w10, w11, w10
	cmp	w8, #0
	csel	w8, w11, w10, eq
	lsr	w10, w8, #29
	cmp	w10, #0
	mov	w10, #-536870912
	add	w10, w8, w10
	csel	w13, w10, w8, ne
	cset	w8, ne
	cmp	w13, #3999
	b.hi	LBB14_400
	mov	w10, #35128
	mov	w14, #1000
	movk	w10, #65, lsl #16
	umull	x10, w13, w10
	lsr	x10, x10, #32
	msub	w10, w10, w14, w13
	sub	w14, w10, #1
	cmp	w14, #6
	b.hi	LBB14_400
	tbnz	w12, #31, LBB14_410
	mov	w12, #19923
	lsr	w11, w11, #30
	movk	w12, #4194, lsl #16
	umull	x12, w13, w12
	lsr	x29, x12, #38
	cbz	w11, LBB14_411
	lsl	w11, w29, #3
	mov	w12, #770
	movk	w12, #770, lsl #16
	lsr	w29, w12, w11
	b	LBB14_411
LBB14_400:
	mov	w9, #2
	mov	w8, w20
	ldr	w10, [sp, #32]
	and	w10, w10, #0xff
	cmp	w10, #2
	b.le	LBB14_412
LBB14_401:
	cmp	w10, #4
	b.gt	LBB14_404
	cmp	w10, #3
	b.ne	LBB14_406
	mov	w12, #4
	b	LBB14_428
LBB14_404:
	cmp	w10, #5
	b.ne	LBB14_407
	mov	w12, #6
	b	LBB14_428
LBB14_406:
	mov	w12, #5
	b	LBB14_428
LBB14_407:
	mov	w12, #7
	b	LBB14_428
LBB14_408:
	mov	w29, w10
	b	LBB14_415
LBB14_409:
	mov	w29, w10
	b	LBB14_414
LBB14_410:
	lsr	w11, w11, #30
	cmp	w13, #2000
	ccmp	w11, #0, #0, lo
	mov	w11, #3
	csinc	w29, w11, wzr, ne
LBB14_411:
	mov	x12, #6
	lsl	w11, w10, #3
	cmp	w10, #7
	movk	x12, #513, lsl #16
	mov	w10, #6
	movk	x12, #1027, lsl #32
	movk	x12, #5, lsl #48
	lsr	x11, x12, x11
	csel	w10, w11, w10, lo
	str	w10, [sp, #32]
	mov	w10, w10
	and	w10, w10, #0xff
	cmp	w10, #2
	b.gt	LBB14_401
LBB14_412:
	cbz	w10, LBB14_415
	cmp	w10, #1
	b.ne	LBB14_417
LBB14_414:
	tst	w8, #0x1
	mov	w10, #4
	mov	w13, #1
	csel	x10, x10, xzr, ne
	tst	w9, #0x1
	str	w13, [sp, #32]
	add	x10, x25, x10
	add	x11, x10, x21
	add	x10, x10, #9
	ldur	w11, [x11, #5]
	rev	w12, w11
	csel	w11, w11, w12, ne
	mov	w12, #2
	b	LBB14_416
LBB14_415:
	tst	w8, #0x1
	mov	w10, #4
	str	wzr, [sp, #32]
	csel	x10, x10, xzr, ne
	mov	w11, #1
	mov	w12, #1
	add	x10, x25, x10
	add	x10, x10, #5
LBB14_416:
	mov	w13, w29
	adrp	x14, Lswitch.table.wkb_raw_write.374@PAGE
	add	x14, x14, Lswitch.table.wkb_raw_write.374@PAGEOFF
	and	x13, x13, #0xff
	sub	x24, x24, #1
	mov	w20, w8
	ldr	x13, [x14, x13, lsl #3]
	mov	w14, w11
	madd	x25, x13, x14, x10
	mov	w13, #1
	sub	w8, w12, #4
	cmp	w8, #3
	b.hs	LBB14_429
	b	LBB14_431
LBB14_417:
	tst	w8, #0x1
	mov	w10, #4
	mov	w13, wzr
	csel	x10, x10, xzr, ne
	tst	w9, #0x1
	sub	x24, x24, #1
	add	x10, x25, x10
	mov	w12, #3
	mov	w20, w8
	add	x11, x10, x21
	add	x10, x10, #9
	mov	w27, w9
	ldur	w11, [x11, #5]
	mov	w26, w29
	mov	x25, x10
	rev	w14, w11
	csel	w11, w11, w14, ne
	mov	w14, #2
	str	w14, [sp, #32]
	mov	w28, w11
	ldr	w8, [sp, #28]
	cmp	w8, #2
	and	w8, w29, #0xff
	b.eq	LBB14_432
LBB14_418:
	tst	w29, #0xfe
	mov	w14, #1073741824
	csel	w14, wzr, w14, eq
	orr	w8, w14, w8, lsl #31
	b	LBB14_433
LBB14_419:
	cmp	w13, #2004
	b.eq	LBB14_426
	cmp	w13, #2005
	b.eq	LBB14_301
	cmp	w13, #2006
	b.eq	LBB14_425
	b	LBB14_358
LBB14_422:
	cmp	w13, #3004
	b.eq	LBB14_426
	cmp	w13, #3005
	b.eq	LBB14_301
	cmp	w13, #3006
	b.ne	LBB14_358
LBB14_425:
	mov	w12, #6
	mov	w11, #5
	b	LBB14_427
LBB14_426:
	mov	w12, #4
	mov	w11, #3
LBB14_427:
	str	w11, [sp, #32]
	mov	w29, w10
LBB14_428:
	tst	w8, #0x1
	mov	w10, #4
	mov	w13, wzr
	csel	x10, x10, xzr, ne
	tst	w9, #0x1
	mov	w20, w8
	add	x10, x25, x10
	add	x11, x10, x21
	add	x10, x10, #9
	ldur	w11, [x11, #5]
	mov	x25, x10
	rev	w14, w11
	csel	w11, w11, w14, ne
	add	x14, x24, x11
	sub	x24, x14, #1
	sub	w8, w12, #4
	cmp	w8, #3
	b.lo	LBB14_431
LBB14_429:
	cmp	w12, #1
	b.eq	LBB14_449
	cmp	w12, #2
	b.ne	LBB14_451
LBB14_431:
	mov	w28, wzr
	ldr	w8, [sp, #28]
	cmp	w8, #2
	and	w8, w29, #0xff
	b.ne	LBB14_418
LBB14_432:
	mov	w14, #1000
	mul	w8, w8, w14
LBB14_433:
	orr	w8, w12, w8
	add	x12, x19, x0
	rev	w14, w11
	rev	w8, w8
	add	x23, x0, #9
	strb	wzr, [x12]
	stur	w8, [x12, #1]
	stur	w14, [x12, #5]
	cbz	w13, LBB14_437
	mov	x8, x23
	and	w12, w29, #0xff
	mov	w11, w11
	sub	w13, w12, #1
	cmp	w13, #2
	b.lo	LBB14_273
LBB14_435:
	cmp	w12, #3
	b.ne	LBB14_438
	lsl	x12, x11, #5
	mov	w13, #32
	umull	x2, w13, w11
	add	x23, x12, x8
	tst	w9, #0xff
	add	x0, x19, x8
	add	x1, x21, x10
	b.ne	LBB14_439
	b	LBB14_263
LBB14_437:
	mov	x2, xzr
	mov	x8, x23
	tst	w9, #0xff
	add	x0, x19, x23
	add	x1, x21, x10
	b.ne	LBB14_439
	b	LBB14_263
LBB14_438:
	lsl	x12, x11, #4
	mov	w13, #16
	umull	x2, w13, w11
	add	x23, x12, x8
	tst	w9, #0xff
	add	x0, x19, x8
	add	x1, x21, x10
	b.eq	LBB14_263
LBB14_439:
	lsr	x9, x2, #4
	cbz	x9, LBB14_447
	cmp	x2, #64
	b.hs	LBB14_442
	mov	x11, xzr
	b	LBB14_445
LBB14_442:
	add	x12, x21, #32
	and	x11, x9, #0x3fffffffc
	add	x10, x12, x10
	add	x12, x19, #32
	add	x8, x12, x8
	and	x12, x9, #0x3fffffffc
LBB14_443:
	ldp	q1, q0, [x10, #-32]
	subs	x12, x12, #4
	ldp	q3, q2, [x10], #64
	rev64	v0.16b, v0.16b
	rev64	v1.16b, v1.16b
	rev64	v2.16b, v2.16b
	rev64	v3.16b, v3.16b
	stp	q1, q0, [x8, #-32]
	stp	q3, q2, [x8], #64
	b.ne	LBB14_443
	cmp	x9, x11
	b.eq	LBB14_447
LBB14_445:
	lsl	x8, x11, #4
	sub	x9, x9, x11
LBB14_446:
	ldr	q0, [x1, x8]
	subs	x9, x9, #1
	rev64	v0.16b, v0.16b
	str	q0, [x0, x8]
	add	x8, x8, #16
	b.ne	LBB14_446
LBB14_447:
	tbz	w2, #3, LBB14_264
	and	x8, x2, #0x3ffffffff0
	ldr	x9, [x1, x8]
	rev	x9, x9
	str	x9, [x0, x8]
	b	LBB14_264
LBB14_449:
	ldr	w8, [sp, #28]
	cmp	w8, #2
	and	w8, w29, #0xff
	b.ne	LBB14_452
	mov	w12, #1000
	mul	w8, w8, w12
	b	LBB14_453
LBB14_451:
	mov	w28, wzr
	mov	w12, #7
	ldr	w8, [sp, #28]
	cmp	w8, #2
	and	w8, w29, #0xff
	b.eq	LBB14_432
	b	LBB14_418
LBB14_452:
	tst	w29, #0xfe
	mov	w12, #1073741824
	csel	w12, wzr, w12, eq
	orr	w8, w12, w8, lsl #31
LBB14_453:
	orr	w8, w8, #0x1
	and	w14, w29, #0xff
	add	x12, x19, x0
	rev	w8, w8
	sub	w15, w14, #1
	add	x13, x0, #5
	strb	wzr, [x12]
	cmp	w15, #2
	add	x1, x21, x10
	stur	w8, [x12, #1]
	mov	w12, w11
	add	x8, x19, x13
	mov	w28, wzr
	b.hs	LBB14_463
	add	x12, x12, x12, lsl #1
	lsl	x2, x12, #3
	add	x23, x13, x2
	cbz	w11, LBB14_264
	ubfx	x12, x12, #0, #61
	mov	x13, xzr
	mov	x14, x2
	mov	x16, #-9007199254740992
	mov	x17, #-9007199254740991
	b	LBB14_458
LBB14_456:
	rev	x15, x15
	cmp	x17, x15, lsl #1
	b.hi	LBB14_482
LBB14_457:
	subs	x14, x14, #8
	add	x13, x13, #8
	b.eq	LBB14_480
LBB14_458:
	ldr	x15, [x1, x13]
	tbz	w9, #0, LBB14_456
	cmp	x16, x15, lsl #1
	b.lo	LBB14_457
	lsr	x9, x2, #4
	cbz	x9, LBB14_506
	cmp	w11, #3
	b.hs	LBB14_501
	mov	x11, xzr
	b	LBB14_504
LBB14_463:
	cbnz	w14, LBB14_472
	lsl	x2, x12, #4
	mov	w29, wzr
	add	x23, x13, x2
	cbz	w11, LBB14_264
	lsl	x13, x12, #1
	mov	x14, xzr
	mov	x15, x2
	mov	x17, #-9007199254740992
	mov	x3, #-9007199254740991
	b	LBB14_468
LBB14_466:
	rev	x16, x16
	cmp	x3, x16, lsl #1
	b.hi	LBB14_494
LBB14_467:
	subs	x15, x15, #8
	add	x14, x14, #8
	b.eq	LBB14_483
LBB14_468:
	ldr	x16, [x1, x14]
	tbz	w9, #0, LBB14_466
	cmp	x17, x16, lsl #1
	b.lo	LBB14_467
	cmp	w11, #4
	b.hs	LBB14_508
	mov	x8, xzr
	b	LBB14_511
LBB14_472:
	lsl	x2, x12, #5
	mov	w29, #3
	add	x23, x13, x2
	cbz	w11, LBB14_264
	lsl	x13, x12, #2
	mov	x14, xzr
	mov	x15, x2
	mov	x17, #-9007199254740992
	mov	x3, #-9007199254740991
	b	LBB14_476
LBB14_474:
	rev	x16, x16
	cmp	x3, x16, lsl #1
	b.hi	LBB14_495
LBB14_475:
	subs	x15, x15, #8
	add	x14, x14, #8
	b.eq	LBB14_485
LBB14_476:
	ldr	x16, [x1, x14]
	tbz	w9, #0, LBB14_474
	cmp	x17, x16, lsl #1
	b.lo	LBB14_475
	lsl	x9, x12, #1
	cmp	w11, #1
	b.ne	LBB14_514
	mov	x11, xzr
	b	LBB14_517
LBB14_480:
	cmp	w11, #1
	b.ne	LBB14_488
	mov	x9, xzr
	mov	x10, xzr
	b	LBB14_491
LBB14_482:
	mov	x0, x8
	bl	_memcpy
	mov	w28, wzr
	b	LBB14_264
LBB14_483:
	cmp	w11, #1
	b.ne	LBB14_496
	mov	x9, xzr
	mov	x10, xzr
	b	LBB14_499
LBB14_485:
	add	x8, x19, #21
	mov	w9, #63615
	add	x8, x8, x0
LBB14_486:
	dup	v0.2d, x9
	subs	x13, x13, #4
	mov	w29, #3
	stp	q0, q0, [x8, #-16]
	add	x8, x8, #32
	b.ne	LBB14_486
	mov	w28, wzr
	b	LBB14_264
LBB14_488:
	and	x10, x12, #0x3fffffffc
	add	x11, x19, #21
	and	x13, x12, #0x3fffffffc
	lsl	x9, x10, #3
	add	x11, x11, x0
	mov	w14, #63615
LBB14_489:
	dup	v0.2d, x14
	subs	x13, x13, #4
	stp	q0, q0, [x11, #-16]
	add	x11, x11, #32
	b.ne	LBB14_489
	cmp	x12, x10
	mov	w28, wzr
	b.eq	LBB14_264
LBB14_491:
	sub	x10, x10, x12
	mov	w11, #63615
LBB14_492:
	adds	x10, x10, #1
	str	x11, [x8, x9]
	add	x9, x9, #8
	b.lo	LBB14_492
	mov	w28, wzr
	b	LBB14_264
LBB14_494:
	mov	x0, x8
	bl	_memcpy
	b	LBB14_513
LBB14_495:
	mov	x0, x8
	bl	_memcpy
	mov	w28, wzr
	mov	w29, #3
	b	LBB14_264
LBB14_496:
	and	x10, x13, #0x1fffffffc
	add	x11, x19, #21
	and	x12, x13, #0x1fffffffc
	lsl	x9, x10, #3
	add	x11, x11, x0
	mov	w14, #63615
LBB14_497:
	dup	v0.2d, x14
	subs	x12, x12, #4
	stp	q0, q0, [x11, #-16]
	add	x11, x11, #32
	b.ne	LBB14_497
	mov	w28, wzr
	cmp	x13, x10
	mov	w29, wzr
	b.eq	LBB14_264
LBB14_499:
	sub	x10, x10, x13
	mov	w11, #63615
LBB14_500:
	adds	x10, x10, #1
	str	x11, [x8, x9]
	add	x9, x9, #8
	b.lo	LBB14_500
	b	LBB14_513
LBB14_501:
	add	x12, x19, #37
	add	x13, x21, #32
	and	x11, x9, #0x1fffffffc
	add	x12, x12, x0
	add	x10, x13, x10
	and	x13, x9, #0x1fffffffc
LBB14_502:
	ldp	q1, q0, [x10, #-32]
	subs	x13, x13, #4
	ldp	q3, q2, [x10], #64
	rev64	v0.16b, v0.16b
	rev64	v1.16b, v1.16b
	rev64	v2.16b, v2.16b
	rev64	v3.16b, v3.16b
	stp	q1, q0, [x12, #-32]
	stp	q3, q2, [x12], #64
	b.ne	LBB14_502
	cmp	x9, x11
	b.eq	LBB14_506
LBB14_504:
	lsl	x10, x11, #4
	sub	x9, x9, x11
LBB14_505:
	ldr	q0, [x1, x10]
	subs	x9, x9, #1
	rev64	v0.16b, v0.16b
	str	q0, [x8, x10]
	add	x10, x10, #16
	b.ne	LBB14_505
LBB14_506:
	mov	w28, wzr
	tbz	w2, #3, LBB14_264
	and	x9, x2, #0x1ffffffff0
	mov	w28, wzr
	ldr	x10, [x1, x9]
	rev	x10, x10
	str	x10, [x8, x9]
	b	LBB14_264
LBB14_508:
	add	x9, x21, #32
	add	x11, x19, #37
	and	x8, x12, #0xfffffffc
	add	x9, x9, x10
	add	x11, x11, x0
	and	x13, x12, #0xfffffffc
LBB14_509:
	ldp	q1, q0, [x9, #-32]
	subs	x13, x13, #4
	ldp	q3, q2, [x9], #64
	rev64	v0.16b, v0.16b
	rev64	v1.16b, v1.16b
	rev64	v2.16b, v2.16b
	rev64	v3.16b, v3.16b
	stp	q1, q0, [x11, #-32]
	stp	q3, q2, [x11], #64
	b.ne	LBB14_509
	mov	w28, wzr
	cmp	x8, x12
	mov	w29, wzr
	b.eq	LBB14_264
LBB14_511:
	lsl	x11, x8, #4
	add	x9, x19, #5
	add	x10, x21, x10
	add	x9, x9, x0
	sub	x8, x12, x8
	add	x9, x9, x11
	add	x10, x10, x11
LBB14_512:
	ldr	q0, [x10], #16
	subs	x8, x8, #1
	rev64	v0.16b, v0.16b
	str	q0, [x9], #16
	b.ne	LBB14_512
LBB14_513:
	mov	w28, wzr
	mov	w29, wzr
	b	LBB14_264
LBB14_514:
	add	x12, x21, #32
	and	x11, x9, #0x1fffffffc
	and	x13, x9, #0x1fffffffc
	add	x10, x12, x10
	add	x12, x19, #37
	add	x12, x12, x0
LBB14_515:
	ldp	q1, q0, [x10, #-32]
	subs	x13, x13, #4
	ldp	q3, q2, [x10], #64
	rev64	v0.16b, v0.16b
	rev64	v1.16b, v1.16b
	rev64	v2.16b, v2.16b
	rev64	v3.16b, v3.16b
	stp	q1, q0, [x12, #-32]
	stp	q3, q2, [x12], #64
	b.ne	LBB14_515
	mov	w28, wzr
	cmp	x9, x11
	mov	w29, #3
	b.eq	LBB14_264
LBB14_517:
	lsl	x10, x11, #4
	sub	x9, x11, x9
LBB14_518:
	ldr	q0, [x1, x10]
	adds	x9, x9, #1
	mov	w29, #3
	rev64	v0.16b, v0.16b
	str	q0, [x8, x10]
	add	x10, x10, #16
	b.lo	LBB14_518
	mov	w28, wzr
	b	LBB14_264
LBB14_520:
	add	x12, x8, x21
	add	x13, x9, x19
	and	x11, x10, #0xfffffffc
	add	x12, x12, #32
	add	x13, x13, #32
	and	x14, x10, #0xfffffffc
LBB14_521:
	ldp	q1, q0, [x12, #-32]
	subs	x14, x14, #4
	ldp	q3, q2, [x12], #64
	rev64	v0.16b, v0.16b
	rev64	v1.16b, v1.16b
	rev64	v2.16b, v2.16b
	rev64	v3.16b, v3.16b
	stp	q1, q0, [x13, #-32]
	stp	q3, q2, [x13], #64
	b.ne	LBB14_521
	cmp	x11, x10
	b.eq	LBB14_248
LBB14_523:
	lsl	x12, x11, #4
	bfi	x9, x11, #4, #32
	add	x13, x21, x8
	sub	x8, x10, x11
	mov	w26, #1
	add	x9, x19, x9
	add	x10, x13, x12
LBB14_524:
	ldr	q0, [x10], #16
	subs	x8, x8, #1
	rev64	v0.16b, v0.16b
	str	q0, [x9], #16
	b.ne	LBB14_524
	b	LBB14_530
LBB14_525:
	add	x8, x8, x21
	add	x9, x9, x19
	and	x11, x10, #0x1fffffffc
	add	x8, x8, #32
	add	x9, x9, #32
	and	x12, x10, #0x1fffffffc
LBB14_526:
	ldp	q1, q0, [x8, #-32]
	subs	x12, x12, #4
	ldp	q3, q2, [x8], #64
	rev64	v0.16b, v0.16b
	rev64	v1.16b, v1.16b
	rev64	v2.16b, v2.16b
	rev64	v3.16b, v3.16b
	stp	q1, q0, [x9, #-32]
	stp	q3, q2, [x9], #64
	b.ne	LBB14_526
	cmp	x10, x11
	b.eq	LBB14_248
LBB14_528:
	lsl	x8, x11, #4
	sub	x9, x11, x10
	mov	w26, #1
LBB14_529:
	ldr	q0, [x1, x8]
	adds	x9, x9, #1
	rev64	v0.16b, v0.16b
	str	q0, [x0, x8]
	add	x8, x8, #16
	b.lo	LBB14_529
LBB14_530:
	mov	w20, wzr
	mov	w27, wzr
LBB14_531:
	mov	x8, #9221120237041090560
	mov	w22, #1
	dup	v4.2d, x8
	str	q4, [sp, #32]
	b	LBB14_533
LBB14_532:
	bl	_memcpy
	ldr	q4, [sp, #32]
LBB14_533:
	mov	x0, x28
	cbnz	w20, LBB14_540
	cbz	x24, LBB14_540
	add	x8, x21, x25
	mov	w10, #16777216
	ldur	w9, [x8, #1]
	ldrb	w8, [x8]
	cmp	w9, w10
	b.ne	LBB14_543
	cbnz	w8, LBB14_543
	add	x9, x21, x25
	mov	x12, #-9007199254740991
	sub	x24, x24, #1
	ldur	x10, [x9, #5]
	ldur	x9, [x9, #13]
	add	x8, x19, x0
	add	x25, x25, #21
	mov	w11, #1
	mov	w22, #1
	rev	x10, x10
	add	x28, x0, #21
	rev	x9, x9
	cmp	x12, x10, lsl #1
	strb	w11, [x8]
	stur	w11, [x8, #1]
	b.hi	LBB14_558
	lsl	x11, x9, #1
	cmp	x11, x12
	b.lo	LBB14_558
	mov	w20, wzr
	stur	q4, [x8, #5]
	b	LBB14_533
LBB14_540:
	cbz	w20, LBB14_547
	ldr	w8, [x21, x25]
	and	x9, x27, #0xff
	adrp	x11, Lswitch.table.wkb_raw_write.374@PAGE
	add	x11, x11, Lswitch.table.wkb_raw_write.374@PAGEOFF
	tst	w26, #0x1
	sub	w20, w20, #1
	rev	w10, w8
	ldr	x9, [x11, x9, lsl #3]
	csel	w11, w8, w10, ne
	add	x10, x25, #4
	add	x8, x0, #4
	madd	x25, x9, x11, x10
	mov	w9, w26
	str	w11, [x19, x0]
	and	w12, w27, #0xff
	mov	w11, w11
	sub	w13, w12, #1
	cmp	w13, #2
	b.hs	LBB14_700
LBB14_542:
	add	x12, x11, x11, lsl #1
	mov	w13, #24
	lsl	x12, x12, #3
	b	LBB14_704
LBB14_543:
	cbnz	w8, LBB14_548
	rev	w10, w9
	sub	w8, w10, #1
	cmp	w8, #6
	b.hi	LBB14_548
	mov	w8, #16777216
	cmp	w9, w8
	add	x8, x25, #5
	b.ne	LBB14_559
	sub	x24, x24, #1
	mov	w29, #1
	add	x25, x8, w29, uxtw #4
	sub	w11, w10, #4
	mov	w9, w29
	cmp	w11, #3
	b.hs	LBB14_561
	b	LBB14_586
LBB14_547:
	cbz	x24, LBB14_786
LBB14_548:
	ldr	x8, [sp, #16]
	add	x12, x21, x25
	sub	x11, x8, x25
	cmp	x11, #5
	b.hs	LBB14_551
	cmp	x8, x25
	b.eq	LBB14_665
	ldrb	w9, [x12]
	b	LBB14_657
LBB14_551:
	ldrb	w9, [x12]
	cmp	w9, #1
	b.eq	LBB14_564
	cbnz	w9, LBB14_657
	ldur	w8, [x12, #1]
	rev	w13, w8
	lsr	w10, w13, #29
	cmp	w10, #0
	cset	w8, ne
	cbz	w10, LBB14_565
LBB14_554:
	mov	w10, #3
	movk	w10, #8192, lsl #16
	cmp	w13, w10
	mov	w10, wzr
	b.le	LBB14_572
	mov	w14, #5
	movk	w14, #8192, lsl #16
	cmp	w13, w14
	b.gt	LBB14_619
	mov	w14, #4
	movk	w14, #8192, lsl #16
	cmp	w13, w14
	b.eq	LBB14_691
	mov	w14, #5
	movk	w14, #8192, lsl #16
	cmp	w13, w14
	b.eq	LBB14_569
	b	LBB14_657
LBB14_558:
	mov	w20, wzr
	stur	x10, [x8, #5]
	stur	x9, [x8, #13]
	b	LBB14_533
LBB14_559:
	ldr	w8, [x21, x8]
	cmp	w10, #3
	sub	x24, x24, #1
	rev	w29, w8
	add	x8, x25, #9
	b.hs	LBB14_570
	add	x25, x8, w29, uxtw #4
	sub	w11, w10, #4
	mov	w9, w29
	cmp	w11, #3
	b.lo	LBB14_586
LBB14_561:
	cmp	w10, #1
	mov	x17, #-9007199254740992
	b.eq	LBB14_579
	cmp	w10, #2
	b.eq	LBB14_586
	mov	w29, wzr
	mov	w11, #7
	b	LBB14_587
LBB14_564:
	ldur	w13, [x12, #1]
	lsr	w10, w13, #29
	cmp	w10, #0
	cset	w8, ne
	cbnz	w10, LBB14_554
LBB14_565:
	cmp	w13, #3
	b.le	LBB14_575
	cmp	w13, #5
	b.gt	LBB14_621
	cmp	w13, #4
	b.eq	LBB14_691
	cmp	w13, #5
	b.ne	LBB14_629
LBB14_569:
	mov	w12, #5
	mov	w11, #4
	b	LBB14_692
LBB14_570:
	mov	w11, #50331648
	cmp	w9, w11
	b.ne	LBB14_585
	mov	w27, wzr
	mov	w26, wzr
	mov	w11, #3
	mov	w9, w29
	mov	x25, x8
	b	LBB14_587
LBB14_572:
	mov	w14, #1
	movk	w14, #8192, lsl #16
	cmp	w13, w14
	b.eq	LBB14_673
	mov	w14, #2
	movk	w14, #8192, lsl #16
	cmp	w13, w14
	b.eq	LBB14_674
	mov	w14, #3
	movk	w14, #8192, lsl #16
	cmp	w13, w14
	b.eq	LBB14_578
	b	LBB14_657
LBB14_575:
	cmp	w13, #1
	b.eq	LBB14_673
	cmp	w13, #2
	b.eq	LBB14_674
	cmp	w13, #3
	b.ne	LBB14_629
LBB14_578:
	mov	w23, w10
	b	LBB14_682
LBB14_579:
	mov	w11, w9
	add	x10, x19, x0
	mov	w12, #1
	ubfiz	x14, x11, #4, #32
	strb	w12, [x10]
	add	x16, x0, #5
	stur	w12, [x10, #1]
	ubfiz	x12, x11, #1, #32
	mov	x13, xzr
	mov	w22, #1
	mov	w10, w9
	add	x15, x21, x8
	add	x28, x16, x14
	add	x11, x19, x16
LBB14_580:
	cmp	x14, x13
	b.eq	LBB14_624
	ldr	x16, [x15, x13]
	add	x13, x13, #8
	rev	x16, x16
	cmp	x17, x16, lsl #1
	b.lo	LBB14_580
	mov	w20, wzr
	cbz	w9, LBB14_533
	cmp	w9, #4
	b.hs	LBB14_643
	mov	x9, xzr
	b	LBB14_646
LBB14_585:
	add	x24, x24, w29, uxtw
	mov	x25, x8
	sub	w11, w10, #4
	mov	w9, w29
	cmp	w11, #3
	b.hs	LBB14_561
LBB14_586:
	mov	w29, wzr
	mov	w11, w10
LBB14_587:
	add	x12, x19, x0
	add	x13, x0, #9
	cmp	w10, #3
	add	x28, x0, #9
	mov	x10, x8
	strb	w22, [x12]
	stur	w11, [x12, #1]
	stur	w9, [x12, #5]
	b.hs	LBB14_589
	ubfiz	x9, x9, #4, #32
	add	x10, x9, x8
	add	x28, x13, x9
LBB14_589:
	sub	x11, x10, x8
	add	x10, x21, x8
	add	x9, x19, x13
	lsr	x12, x11, #4
	cbz	x12, LBB14_597
	cmp	x11, #64
	b.hs	LBB14_592
	mov	x13, xzr
	b	LBB14_595
LBB14_592:
	add	x14, x21, #32
	and	x13, x12, #0xffffffffffffffc
	and	x15, x12, #0xffffffffffffffc
	add	x8, x14, x8
	add	x14, x19, #41
	add	x14, x14, x0
LBB14_593:
	ldp	q1, q0, [x8, #-32]
	subs	x15, x15, #4
	ldp	q3, q2, [x8], #64
	rev64	v0.16b, v0.16b
	rev64	v1.16b, v1.16b
	rev64	v2.16b, v2.16b
	rev64	v3.16b, v3.16b
	stp	q1, q0, [x14, #-32]
	stp	q3, q2, [x14], #64
	b.ne	LBB14_593
	cmp	x12, x13
	b.eq	LBB14_597
LBB14_595:
	lsl	x8, x13, #4
	sub	x12, x12, x13
LBB14_596:
	ldr	q0, [x10, x8]
	subs	x12, x12, #1
	rev64	v0.16b, v0.16b
	str	q0, [x9, x8]
	add	x8, x8, #16
	b.ne	LBB14_596
LBB14_597:
	tbz	w11, #3, LBB14_599
	and	x8, x11, #0x7ffffffffffffff0
	ldr	x10, [x10, x8]
	rev	x10, x10
	str	x10, [x9, x8]
LBB14_599:
	mov	w20, wzr
	cbnz	w29, LBB14_602
	b	LBB14_533
LBB14_600:
	bl	_memcpy
	ldr	q4, [sp, #32]
LBB14_601:
	sub	w29, w29, #1
	cbz	w29, LBB14_618
LBB14_602:
	ldr	w9, [x21, x25]
	and	w13, w27, #0xff
	tst	w26, #0x1
	sub	w12, w13, #1
	mov	x8, x25
	mov	x10, x28
	rev	w11, w9
	csel	w9, w9, w11, ne
	cmp	w12, #2
	add	x11, x25, #4
	add	x12, x28, #4
	b.hs	LBB14_604
	add	x13, x9, x9, lsl #1
	str	w9, [x19, x10]
	lsl	x2, x13, #3
	mov	w13, #24
	b	LBB14_607
LBB14_604:
	cmp	w13, #3
	b.ne	LBB14_606
	lsl	x2, x9, #5
	str	w9, [x19, x10]
	mov	w13, #32
	b	LBB14_607
LBB14_606:
	lsl	x2, x9, #4
	str	w9, [x19, x10]
	mov	w13, #16
LBB14_607:
	add	x25, x2, x11
	add	x28, x2, x12
	and	w14, w26, #0xff
	add	x0, x19, x12
	add	x1, x21, x11
	cmp	w14, #1
	b.eq	LBB14_600
	umull	x9, w13, w9
	lsr	x11, x9, #4
	cbz	x11, LBB14_616
	cmp	x9, #64
	b.hs	LBB14_611
	mov	x12, xzr
	b	LBB14_614
LBB14_611:
	add	x13, x21, #36
	and	x12, x11, #0x3fffffffc
	add	x8, x13, x8
	add	x13, x19, #36
	add	x10, x13, x10
	and	x13, x11, #0x3fffffffc
LBB14_612:
	ldp	q1, q0, [x8, #-32]
	subs	x13, x13, #4
	ldp	q3, q2, [x8], #64
	rev64	v0.16b, v0.16b
	rev64	v1.16b, v1.16b
	rev64	v2.16b, v2.16b
	rev64	v3.16b, v3.16b
	stp	q1, q0, [x10, #-32]
	stp	q3, q2, [x10], #64
	b.ne	LBB14_612
	cmp	x11, x12
	b.eq	LBB14_616
LBB14_614:
	lsl	x8, x12, #4
	sub	x10, x11, x12
LBB14_615:
	ldr	q0, [x1, x8]
	subs	x10, x10, #1
	rev64	v0.16b, v0.16b
	str	q0, [x0, x8]
	add	x8, x8, #16
	b.ne	LBB14_615
LBB14_616:
	tbz	w9, #3, LBB14_601
	and	x8, x9, #0x3ffffffff0
	ldr	x9, [x1, x8]
	rev	x9, x9
	str	x9, [x0, x8]
	b	LBB14_601
LBB14_618:
	mov	w20, wzr
	b	LBB14_533
LBB14_619:
	mov	w14, #6
	movk	w14, #8192, lsl #16
	cmp	w13, w14
	b.eq	LBB14_690
	mov	w14, #7
	movk	w14, #8192, lsl #16
	cmp	w13, w14
	b.eq	LBB14_623
	b	LBB14_657
LBB14_621:
	cmp	w13, #6
	b.eq	LBB14_690
	cmp	w13, #7
	b.ne	LBB14_629
LBB14_623:
	mov	w12, #7
	mov	w11, #6
	b	LBB14_692
LBB14_624:
	cmp	w9, #1
	b.eq	LBB14_639
	mov	w20, w9
	cbz	w9, LBB14_533
	and	x9, x12, #0x1fffffffc
	add	x10, x19, #21
	and	x13, x12, #0x1fffffffc
	lsl	x8, x9, #3
	add	x10, x10, x0
LBB14_627:
	subs	x13, x13, #4
	stp	q4, q4, [x10, #-16]
	add	x10, x10, #32
	b.ne	LBB14_627
	cmp	x12, x9
	mov	w20, wzr
	b.eq	LBB14_533
	b	LBB14_640
LBB14_629:
	sub	w10, w13, #1001
	cmp	w10, #7
	b.hs	LBB14_634
	cmp	w13, #1003
	mov	w10, #1
	b.gt	LBB14_649
	cmp	w13, #1001
	b.eq	LBB14_673
	cmp	w13, #1002
	b.eq	LBB14_674
	cmp	w13, #1003
	b.eq	LBB14_578
	b	LBB14_623
LBB14_634:
	sub	w10, w13, #2001
	cmp	w10, #7
	b.hs	LBB14_652
	cmp	w13, #2003
	mov	w10, #2
	b.gt	LBB14_684
	cmp	w13, #2001
	b.eq	LBB14_673
	cmp	w13, #2002
	b.eq	LBB14_674
	cmp	w13, #2003
	b.eq	LBB14_578
	b	LBB14_623
LBB14_639:
	mov	x8, xzr
	mov	x9, xzr
LBB14_640:
	sub	x9, x9, x12
	mov	x10, #9221120237041090560
LBB14_641:
	adds	x9, x9, #1
	str	x10, [x11, x8]
	add	x8, x8, #8
	b.lo	LBB14_641
	mov	w20, wzr
	b	LBB14_533
LBB14_643:
	add	x11, x21, #32
	add	x12, x19, #37
	and	x9, x10, #0xfffffffc
	add	x11, x11, x8
	add	x12, x12, x0
	and	x13, x10, #0xfffffffc
LBB14_644:
	ldp	q1, q0, [x11, #-32]
	subs	x13, x13, #4
	ldp	q3, q2, [x11], #64
	rev64	v0.16b, v0.16b
	rev64	v1.16b, v1.16b
	rev64	v2.16b, v2.16b
	rev64	v3.16b, v3.16b
	stp	q1, q0, [x12, #-32]
	stp	q3, q2, [x12], #64
	b.ne	LBB14_644
	cmp	x9, x10
	mov	w20, wzr
	b.eq	LBB14_533
LBB14_646:
	lsl	x11, x9, #4
	add	x12, x19, #5
	add	x13, x21, x8
	add	x12, x12, x0
	sub	x8, x10, x9
	add	x9, x12, x11
	add	x10, x13, x11
LBB14_647:
	ldr	q0, [x10], #16
	subs	x8, x8, #1
	rev64	v0.16b, v0.16b
	str	q0, [x9], #16
	b.ne	LBB14_647
	mov	w20, wzr
	b	LBB14_533
LBB14_649:
	cmp	w13, #1004
	b.eq	LBB14_691
	cmp	w13, #1005
	b.eq	LBB14_569
	cmp	w13, #1006
	b.eq	LBB14_690
	b	LBB14_623
LBB14_652:
	sub	w10, w13, #3001
	cmp	w10, #7
	b.hs	LBB14_657
	cmp	w13, #3003
	mov	w10, #3
	b.gt	LBB14_687
	cmp	w13, #3001
	b.eq	LBB14_673
	cmp	w13, #3002
	b.eq	LBB14_674
	cmp	w13, #3003
	b.eq	LBB14_578
	b	LBB14_623
LBB14_657:
	cbz	w9, LBB14_659
	cmp	w9, #1
	b.ne	LBB14_665
LBB14_659:
	cmp	x11, #5
	b.lo	LBB14_665
	ldur	w8, [x12, #1]
	cmp	w9, #0
	rev	w10, w8
	csel	w12, w8, w10, ne
	mov	w10, #-1073741824
	ubfx	w8, w12, #30, #1
	and	w11, w12, #0x7fffffff
	add	w10, w11, w10
	cmp	w8, #0
	csel	w8, w11, w10, eq
	lsr	w10, w8, #29
	cmp	w10, #0
	mov	w10, #-536870912
	add	w10, w8, w10
	csel	w13, w10, w8, ne
	cset	w8, ne
	cmp	w13, #3999
	b.hi	LBB14_665
	mov	w10, #35128
	mov	w14, #1000
	movk	w10, #65, lsl #16
	umull	x10, w13, w10
	lsr	x10, x10, #32
	msub	w10, w10, w14, w13
	sub	w14, w10, #1
	cmp	w14, #6
	b.hi	LBB14_665
	tbnz	w12, #31, LBB14_675
	mov	w12, #19923
	lsr	w11, w11, #30
	movk	w12, #4194, lsl #16
	umull	x12, w13, w12
	lsr	x23, x12, #38
	cbz	w11, LBB14_676
	lsl	w11, w23, #3
	mov	w12, #770
	movk	w12, #770, lsl #16
	lsr	w23, w12, w11
	b	LBB14_676
LBB14_665:
	ldp	w10, w8, [sp, #8]
	mov	w9, #2
	and	w10, w10, #0xff
	cmp	w10, #2
	b.le	LBB14_677
LBB14_666:
	cmp	w10, #4
	b.gt	LBB14_669
	cmp	w10, #3
	b.ne	LBB14_671
	mov	w12, #4
	b	LBB14_693
LBB14_669:
	cmp	w10, #5
	b.ne	LBB14_672
	mov	w12, #6
	b	LBB14_693
LBB14_671:
	mov	w12, #5
	b	LBB14_693
LBB14_672:
	mov	w12, #7
	b	LBB14_693
LBB14_673:
	mov	w23, w10
	b	LBB14_680
LBB14_674:
	mov	w23, w10
	b	LBB14_679
LBB14_675:
	lsr	w11, w11, #30
	cmp	w13, #2000
	ccmp	w11, #0, #0, lo
	mov	w11, #3
	csinc	w23, w11, wzr, ne
LBB14_676:
	mov	x12, #6
	lsl	w11, w10, #3
	cmp	w10, #7
	movk	x12, #513, lsl #16
	mov	w10, #6
	movk	x12, #1027, lsl #32
	movk	x12, #5, lsl #48
	lsr	x11, x12, x11
	csel	w10, w11, w10, lo
	str	w10, [sp, #8]
	mov	w10, w10
	and	w10, w10, #0xff
	cmp	w10, #2
	b.gt	LBB14_666
LBB14_677:
	cbz	w10, LBB14_680
	cmp	w10, #1
	b.ne	LBB14_682
LBB14_679:
	tst	w8, #0x1
	mov	w10, #4
	mov	w13, #1
	csel	x10, x10, xzr, ne
	tst	w9, #0x1
	str	w13, [sp, #8]
	add	x10, x25, x10
	add	x11, x10, x21
	add	x10, x10, #9
	ldur	w11, [x11, #5]
	rev	w12, w11
	csel	w11, w11, w12, ne
	mov	w12, #2
	b	LBB14_681
LBB14_680:
	tst	w8, #0x1
	mov	w10, #4
	str	wzr, [sp, #8]
	csel	x10, x10, xzr, ne
	mov	w11, #1
	mov	w12, #1
	add	x10, x25, x10
	add	x10, x10, #5
LBB14_681:
	mov	w13, w23
	adrp	x14, Lswitch.table.wkb_raw_write.374@PAGE
	add	x14, x14, Lswitch.table.wkb_raw_write.374@PAGEOFF
	and	x13, x13, #0xff
	sub	x24, x24, #1
	str	w8, [sp, #12]
	ldr	x13, [x14, x13, lsl #3]
	mov	w14, w11
	madd	x25, x13, x14, x10
	mov	w13, #1
	sub	w8, w12, #4
	cmp	w8, #3
	b.hs	LBB14_694
	b	LBB14_696
LBB14_682:
	tst	w8, #0x1
	mov	w10, #4
	mov	w15, #2
	csel	x10, x10, xzr, ne
	tst	w9, #0x1
	mov	w13, wzr
	add	x10, x25, x10
	sub	x24, x24, #1
	mov	w12, #3
	add	x11, x10, x21
	add	x10, x10, #9
	stp	w15, w8, [sp, #8]
	ldur	w11, [x11, #5]
	mov	w27, w23
	mov	w26, w9
	mov	x25, x10
	rev	w14, w11
	csel	w11, w11, w14, ne
	mov	w20, w11
	ldr	w8, [sp, #28]
	cmp	w8, #2
	and	w8, w23, #0xff
	b.eq	LBB14_697
LBB14_683:
	tst	w23, #0xfe
	mov	w14, #1073741824
	csel	w14, wzr, w14, eq
	orr	w8, w14, w8, lsl #31
	b	LBB14_698
LBB14_684:
	cmp	w13, #2004
	b.eq	LBB14_691
	cmp	w13, #2005
	b.eq	LBB14_569
	cmp	w13, #2006
	b.eq	LBB14_690
	b	LBB14_623
LBB14_687:
	cmp	w13, #3004
	b.eq	LBB14_691
	cmp	w13, #3005
	b.eq	LBB14_569
	cmp	w13, #3006
	b.ne	LBB14_623
LBB14_690:
	mov	w12, #6
	mov	w11, #5
	b	LBB14_692
LBB14_691:
	mov	w12, #4
	mov	w11, #3
LBB14_692:
	str	w11, [sp, #8]
	mov	w23, w10
LBB14_693:
	tst	w8, #0x1
	mov	w10, #4
	mov	w13, wzr
	csel	x10, x10, xzr, ne
	tst	w9, #0x1
	str	w8, [sp, #12]
	add	x10, x25, x10
	add	x11, x10, x21
	add	x10, x10, #9
	ldur	w11, [x11, #5]
	mov	x25, x10
	rev	w14, w11
	csel	w11, w11, w14, ne
	add	x14, x24, x11
	sub	x24, x14, #1
	sub	w8, w12, #4
	cmp	w8, #3
	b.lo	LBB14_696
LBB14_694:
	cmp	w12, #1
	b.eq	LBB14_715
	cmp	w12, #2
	b.ne	LBB14_717
LBB14_696:
	mov	w20, wzr
	ldr	w8, [sp, #28]
	cmp	w8, #2
	and	w8, w23, #0xff
	b.ne	LBB14_683
LBB14_697:
	mov	w14, #1000
	mul	w8, w8, w14
LBB14_698:
	add	x14, x19, x0
	orr	w8, w12, w8
	add	x28, x0, #9
	strb	w22, [x14]
	stur	w8, [x14, #1]
	stur	w11, [x14, #5]
	cbz	w13, LBB14_702
	mov	x8, x28
	and	w12, w23, #0xff
	mov	w11, w11
	sub	w13, w12, #1
	cmp	w13, #2
	b.lo	LBB14_542
LBB14_700:
	cmp	w12, #3
	b.ne	LBB14_703
	lsl	x12, x11, #5
	mov	w13, #32
	b	LBB14_704
LBB14_702:
	mov	x2, xzr
	mov	x8, x28
	and	w9, w9, #0xff
	add	x0, x19, x28
	add	x1, x21, x10
	cmp	w9, #1
	b.ne	LBB14_705
	b	LBB14_532
LBB14_703:
	lsl	x12, x11, #4
	mov	w13, #16
LBB14_704:
	umull	x2, w13, w11
	add	x28, x12, x8
	and	w9, w9, #0xff
	add	x0, x19, x8
	add	x1, x21, x10
	cmp	w9, #1
	b.eq	LBB14_532
LBB14_705:
	lsr	x9, x2, #4
	cbz	x9, LBB14_713
	cmp	x2, #64
	b.hs	LBB14_708
	mov	x11, xzr
	b	LBB14_711
LBB14_708:
	add	x12, x21, #32
	and	x11, x9, #0x3fffffffc
	add	x10, x12, x10
	add	x12, x19, #32
	add	x8, x12, x8
	and	x12, x9, #0x3fffffffc
LBB14_709:
	ldp	q1, q0, [x10, #-32]
	subs	x12, x12, #4
	ldp	q3, q2, [x10], #64
	rev64	v0.16b, v0.16b
	rev64	v1.16b, v1.16b
	rev64	v2.16b, v2.16b
	rev64	v3.16b, v3.16b
	stp	q1, q0, [x8, #-32]
	stp	q3, q2, [x8], #64
	b.ne	LBB14_709
	cmp	x9, x11
	b.eq	LBB14_713
LBB14_711:
	lsl	x8, x11, #4
	sub	x9, x9, x11
LBB14_712:
	ldr	q0, [x1, x8]
	subs	x9, x9, #1
	rev64	v0.16b, v0.16b
	str	q0, [x0, x8]
	add	x8, x8, #16
	b.ne	LBB14_712
LBB14_713:
	tbz	w2, #3, LBB14_533
	and	x8, x2, #0x3ffffffff0
	ldr	x9, [x1, x8]
	rev	x9, x9
	str	x9, [x0, x8]
	b	LBB14_533
LBB14_715:
	ldr	w8, [sp, #28]
	cmp	w8, #2
	and	w8, w23, #0xff
	b.ne	LBB14_718
	mov	w12, #1000
	mul	w8, w8, w12
	b	LBB14_719
LBB14_717:
	mov	w20, wzr
	mov	w12, #7
	ldr	w8, [sp, #28]
	cmp	w8, #2
	and	w8, w23, #0xff
	b.eq	LBB14_697
	b	LBB14_683
LBB14_718:
	tst	w23, #0xfe
	mov	w12, #1073741824
	csel	w12, wzr, w12, eq
	orr	w8, w12, w8, lsl #31
LBB14_719:
	and	w14, w23, #0xff
	add	x12, x19, x0
	orr	w8, w8, #0x1
	sub	w15, w14, #1
	add	x13, x0, #5
	strb	w22, [x12]
	stur	w8, [x12, #1]
	cmp	w15, #2
	mov	w12, w11
	add	x1, x21, x10
	add	x8, x19, x13
	b.hs	LBB14_729
	add	x12, x12, x12, lsl #1
	mov	w20, wzr
	lsl	x2, x12, #3
	add	x28, x13, x2
	cbz	w11, LBB14_533
	ubfx	x12, x12, #0, #61
	mov	x13, xzr
	mov	x14, x2
	mov	x16, #-9007199254740991
	mov	x17, #-9007199254740992
	b	LBB14_724
LBB14_722:
	cmp	x16, x15, lsl #1
	b.hi	LBB14_748
LBB14_723:
	subs	x14, x14, #8
	add	x13, x13, #8
	b.eq	LBB14_746
LBB14_724:
	ldr	x15, [x1, x13]
	tbnz	w9, #0, LBB14_722
	rev	x15, x15
	cmp	x17, x15, lsl #1
	b.lo	LBB14_723
	lsr	x9, x2, #4
	cbz	x9, LBB14_772
	cmp	w11, #3
	b.hs	LBB14_767
	mov	x11, xzr
	b	LBB14_770
LBB14_729:
	cbnz	w14, LBB14_738
	lsl	x2, x12, #4
	mov	w23, wzr
	mov	w20, wzr
	add	x28, x13, x2
	cbz	w11, LBB14_533
	lsl	x13, x12, #1
	mov	x14, xzr
	mov	x15, x2
	mov	x17, #-9007199254740991
	mov	x3, #-9007199254740992
	b	LBB14_734
LBB14_732:
	cmp	x17, x16, lsl #1
	b.hi	LBB14_760
LBB14_733:
	subs	x15, x15, #8
	add	x14, x14, #8
	b.eq	LBB14_749
LBB14_734:
	ldr	x16, [x1, x14]
	tbnz	w9, #0, LBB14_732
	rev	x16, x16
	cmp	x3, x16, lsl #1
	b.lo	LBB14_733
	cmp	w11, #4
	b.hs	LBB14_774
	mov	x8, xzr
	b	LBB14_777
LBB14_738:
	lsl	x2, x12, #5
	mov	w20, wzr
	mov	w23, #3
	add	x28, x13, x2
	cbz	w11, LBB14_533
	lsl	x13, x12, #2
	mov	x14, xzr
	mov	x15, x2
	mov	x17, #-9007199254740991
	mov	x3, #-9007199254740992
	b	LBB14_742
LBB14_740:
	cmp	x17, x16, lsl #1
	b.hi	LBB14_761
LBB14_741:
	subs	x15, x15, #8
	add	x14, x14, #8
	b.eq	LBB14_751
LBB14_742:
	ldr	x16, [x1, x14]
	tbnz	w9, #0, LBB14_740
	rev	x16, x16
	cmp	x3, x16, lsl #1
	b.lo	LBB14_741
	lsl	x9, x12, #1
	cmp	w11, #1
	b.ne	LBB14_780
	mov	x11, xzr
	b	LBB14_783
LBB14_746:
	cmp	w11, #1
	b.ne	LBB14_754
	mov	x9, xzr
	mov	x10, xzr
	b	LBB14_757
LBB14_748:
	mov	x0, x8
	bl	_memcpy
	ldr	q4, [sp, #32]
	mov	w20, wzr
	b	LBB14_533
LBB14_749:
	cmp	w11, #1
	b.ne	LBB14_762
	mov	x9, xzr
	mov	x10, xzr
	b	LBB14_765
LBB14_751:
	add	x8, x19, #21
	add	x8, x8, x0
LBB14_752:
	subs	x13, x13, #4
	stp	q4, q4, [x8, #-16]
	add	x8, x8, #32
	mov	w23, #3
	b.ne	LBB14_752
	mov	w20, wzr
	b	LBB14_533
LBB14_754:
	and	x10, x12, #0x3fffffffc
	add	x11, x19, #21
	and	x13, x12, #0x3fffffffc
	lsl	x9, x10, #3
	add	x11, x11, x0
LBB14_755:
	subs	x13, x13, #4
	stp	q4, q4, [x11, #-16]
	add	x11, x11, #32
	b.ne	LBB14_755
	cmp	x12, x10
	mov	w20, wzr
	b.eq	LBB14_533
LBB14_757:
	sub	x10, x10, x12
	mov	x11, #9221120237041090560
LBB14_758:
	adds	x10, x10, #1
	str	x11, [x8, x9]
	add	x9, x9, #8
	b.lo	LBB14_758
	mov	w20, wzr
	b	LBB14_533
LBB14_760:
	mov	x0, x8
	bl	_memcpy
	ldr	q4, [sp, #32]
	b	LBB14_779
LBB14_761:
	mov	x0, x8
	bl	_memcpy
	ldr	q4, [sp, #32]
	mov	w20, wzr
	mov	w23, #3
	b	LBB14_533
LBB14_762:
	and	x10, x13, #0x1fffffffc
	add	x11, x19, #21
	and	x12, x13, #0x1fffffffc
	lsl	x9, x10, #3
	add	x11, x11, x0
LBB14_763:
	subs	x12, x12, #4
	stp	q4, q4, [x11, #-16]
	add	x11, x11, #32
	b.ne	LBB14_763
	mov	w23, wzr
	cmp	x13, x10
	mov	w20, wzr
	b.eq	LBB14_533
LBB14_765:
	sub	x10, x10, x13
	mov	x11, #9221120237041090560
LBB14_766:
	adds	x10, x10, #1
	str	x11, [x8, x9]
	add	x9, x9, #8
	b.lo	LBB14_766
	b	LBB14_779
LBB14_767:
	add	x12, x19, #37
	add	x13, x21, #32
	and	x11, x9, #0x1fffffffc
	add	x12, x12, x0
	add	x10, x13, x10
	and	x13, x9, #0x1fffffffc
LBB14_768:
	ldp	q1, q0, [x10, #-32]
	subs	x13, x13, #4
	ldp	q3, q2, [x10], #64
	rev64	v0.16b, v0.16b
	rev64	v1.16b, v1.16b
	rev64	v2.16b, v2.16b
	rev64	v3.16b, v3.16b
	stp	q1, q0, [x12, #-32]
	stp	q3, q2, [x12], #64
	b.ne	LBB14_768
	cmp	x9, x11
	b.eq	LBB14_772
LBB14_770:
	lsl	x10, x11, #4
	sub	x9, x9, x11
LBB14_771:
	ldr	q0, [x1, x10]
	subs	x9, x9, #1
	rev64	v0.16b, v0.16b
	str	q0, [x8, x10]
	add	x10, x10, #16
	b.ne	LBB14_771
LBB14_772:
	mov	w20, wzr
	tbz	w2, #3, LBB14_533
	and	x9, x2, #0x1ffffffff0
	mov	w20, wzr
	ldr	x10, [x1, x9]
	rev	x10, x10
	str	x10, [x8, x9]
	b	LBB14_533
LBB14_774:
	add	x9, x21, #32
	add	x11, x19, #37
	and	x8, x12, #0xfffffffc
	add	x9, x9, x10
	add	x11, x11, x0
	and	x13, x12, #0xfffffffc
LBB14_775:
	ldp	q1, q0, [x9, #-32]
	subs	x13, x13, #4
	ldp	q3, q2, [x9], #64
	rev64	v0.16b, v0.16b
	rev64	v1.16b, v1.16b
	rev64	v2.16b, v2.16b
	rev64	v3.16b, v3.16b
	stp	q1, q0, [x11, #-32]
	stp	q3, q2, [x11], #64
	b.ne	LBB14_775
	mov	w23, wzr
	cmp	x8, x12
	mov	w20, wzr
	b.eq	LBB14_533
LBB14_777:
	lsl	x11, x8, #4
	add	x9, x19, #5
	add	x10, x21, x10
	add	x9, x9, x0
	sub	x8, x12, x8
	add	x9, x9, x11
	add	x10, x10, x11
LBB14_778:
	ldr	q0, [x10], #16
	subs	x8, x8, #1
	rev64	v0.16b, v0.16b
	str	q0, [x9], #16
	b.ne	LBB14_778
LBB14_779:
	mov	w23, wzr
	mov	w20, wzr
	b	LBB14_533
LBB14_780:
	add	x12, x21, #32
	and	x11, x9, #0x1fffffffc
	and	x13, x9, #0x1fffffffc
	add	x10, x12, x10
	add	x12, x19, #37
	add	x12, x12, x0
LBB14_781:
	ldp	q1, q0, [x10, #-32]
	subs	x13, x13, #4
	ldp	q3, q2, [x10], #64
	rev64	v0.16b, v0.16b
	rev64	v1.16b, v1.16b
	rev64	v2.16b, v2.16b
	rev64	v3.16b, v3.16b
	stp	q1, q0, [x12, #-32]
	stp	q3, q2, [x12], #64
	b.ne	LBB14_781
	mov	w20, wzr
	cmp	x9, x11
	mov	w23, #3
	b.eq	LBB14_533
LBB14_783:
	lsl	x10, x11, #4
	sub	x9, x11, x9
LBB14_784:
	ldr	q0, [x1, x10]
	adds	x9, x9, #1
	mov	w23, #3
	rev64	v0.16b, v0.16b
	str	q0, [x8, x10]
	add	x10, x10, #16
	b.lo	LBB14_784
	mov	w20, wzr
	b	LBB14_533
LBB14_786:
	ldp	x20, x19, [sp, #128]
	ldp	x22, x21, [sp, #112]
	ldp	x24, x23, [sp, #96]
	ldp	x26, x25, [sp, #80]
	ldp	x28, x27, [sp, #64]
	ldp	x29, x30, [sp, #48]
	add	sp, sp, #144
	.cfi_def_cfa_offset 0
	.cfi_restore w19
	.cfi_restore w20
	.cfi_restore w21
	.cfi_restore w22
	.cfi_restore w23
	.cfi_restore w24
	.cfi_restore w25
	.cfi_restore w26
	.cfi_restore w27
	.cfi_restore w28
	.cfi_restore w30
	.cfi_restore w29
	ret
Lfunc_end14:
	.cfi_endproc
	.section	__TEXT,__text,regular,pure_instructions
	.p2align	2
_ZN7wkb_raw6erased11wkb_rewrite8encoding12encoded_size17h344095ffe8468ed4E:
	.cfi_startproc
	ldrb	w8, [x2, #32]
	cmp	w8, #4
	b.hs	LBB15_2
	ldr	w8, [x2]
	ldr	x9, [x2, #8]
	cmp	w3, #1
	mov	w10, #4
	csel	x10, x10, xzr, eq
	cmp	w8, #0
	mov	x8, #-4
	add	x9, x9, x10
	csel	x8, xzr, x8, eq
	add	x0, x9, x8
	ret
LBB15_2:
	stp	x29, x30, [sp, #-96]!
	.cfi_def_cfa_offset 96
	stp	x28, x27, [sp, #16]
	stp	x26, x25, [sp, #32]
	stp	x24, x23, [sp, #48]
	stp	x22, x21, [sp, #64]
	stp	x20, x19, [sp, #80]
	.cfi_offset w19, -8
	.cfi_offset w20, -16
	.cfi_offset w21, -24
	.cfi_offset w22, -32
	.cfi_offset w23, -40
	.cfi_offset w24, -48
	.cfi_offset w25, -56
	.cfi_offset w26, -64
	.cfi_offset w27, -72
	.cfi_offset w28, -80
	.cfi_offset w30, -88
	.cfi_offset w29, -96
	ldr	x8, [x2, #8]
	cmp	w3, #1
	mov	w9, #4
	csel	x10, x9, xzr, eq
	mov	w15, #35128
	mov	w5, #3
	mov	w6, #1
	mov	w7, #2
	mov	w19, #5
	mov	w22, #6
	mov	w20, wzr
	mov	w23, wzr
	mov	x26, xzr
	mov	w25, #1
	add	x8, x8, x10
	adrp	x10, Lswitch.table.wkb_raw_write.374@PAGE
	add	x10, x10, Lswitch.table.wkb_raw_write.374@PAGEOFF
	mov	x11, #-4
	mov	w12, #-1073741824
	mov	w13, #-536870912
	movk	w15, #65, lsl #16
	mov	w16, #1000
	movk	w5, #8192, lsl #16
	movk	w6, #8192, lsl #16
	movk	w7, #8192, lsl #16
	movk	w19, #8192, lsl #16
	movk	w22, #8192, lsl #16
	mov	w24, #1
	b	LBB15_4
LBB15_3:
	ldr	w17, [x0, x26]
	and	x3, x20, #0xff
	tst	w25, #0x1
	ldr	x3, [x10, x3, lsl #3]
	sub	w23, w23, #1
	add	x8, xzr, x8
	rev	w4, w17
	csel	w17, w17, w4, ne
	madd	x17, x3, x17, x26
	add	x26, x17, #4
	cbnz	w23, LBB15_3
LBB15_4:
	cbz	x24, LBB15_97
	sub	x2, x1, x26
	add	x3, x0, x26
	cmp	x2, #5
	b.hs	LBB15_8
	cmp	x1, x26
	b.eq	LBB15_72
	ldrb	w21, [x3]
	b	LBB15_63
LBB15_8:
	ldrb	w21, [x3]
	cmp	w21, #1
	b.eq	LBB15_16
	cbnz	w21, LBB15_63
	ldur	w17, [x3, #1]
	mov	w27, wzr
	rev	w23, w17
	lsr	w17, w23, #29
	cbz	w17, LBB15_17
LBB15_11:
	mov	w30, wzr
	cmp	w23, w5
	mov	w17, #1
	b.le	LBB15_22
	cmp	w23, w19
	b.gt	LBB15_29
	mov	w4, #4
	movk	w4, #8192, lsl #16
	cmp	w23, w4
	b.eq	LBB15_42
	cmp	w23, w19
	b.ne	LBB15_63
	mov	w30, wzr
	mov	w28, #4
	mov	w4, #4
	b	LBB15_73
LBB15_16:
	ldur	w23, [x3, #1]
	mov	w27, #1
	lsr	w17, w23, #29
	cbnz	w17, LBB15_11
LBB15_17:
	mov	x4, xzr
	cmp	w23, #3
	b.le	LBB15_25
	cmp	w23, #5
	b.gt	LBB15_32
	cmp	w23, #4
	b.eq	LBB15_43
	cmp	w23, #5
	b.ne	LBB15_37
	mov	w17, wzr
	mov	w30, wzr
	mov	x4, xzr
	mov	w28, #4
	b	LBB15_73
LBB15_22:
	cmp	w23, w6
	b.eq	LBB15_35
	cmp	w23, w7
	b.eq	LBB15_47
	cmp	w23, w5
	mov	w4, #4
	b.eq	LBB15_81
	b	LBB15_63
LBB15_25:
	cmp	w23, #1
	b.eq	LBB15_36
	cmp	w23, #2
	b.eq	LBB15_48
	cmp	w23, #3
	b.ne	LBB15_37
	mov	w30, w17
	b	LBB15_81
LBB15_29:
	cmp	w23, w22
	b.eq	LBB15_44
	mov	w17, #7
	movk	w17, #8192, lsl #16
	cmp	w23, w17
	b.ne	LBB15_63
	mov	w30, wzr
	mov	w28, #6
	mov	w17, #1
	mov	w4, #4
	b	LBB15_73
LBB15_32:
	cmp	w23, #6
	b.eq	LBB15_45
	cmp	w23, #7
	b.ne	LBB15_37
	mov	w17, wzr
	mov	w30, wzr
	mov	x4, xzr
	mov	w28, #6
	b	LBB15_73
LBB15_35:
	mov	w4, #4
	b	LBB15_79
LBB15_36:
	mov	w30, w17
	b	LBB15_79
LBB15_37:
	sub	w17, w23, #1001
	cmp	w17, #7
	b.hs	LBB15_49
	mov	x4, xzr
	mov	w17, wzr
	cmp	w23, #1003
	mov	w30, #1
	mov	w28, #6
	b.gt	LBB15_54
	cmp	w23, #1001
	b.eq	LBB15_79
	cmp	w23, #1002
	b.eq	LBB15_78
	cmp	w23, #1003
	b.eq	LBB15_81
	b	LBB15_73
LBB15_42:
	mov	w28, #3
	mov	w4, #4
	b	LBB15_73
LBB15_43:
	mov	w28, #3
	mov	w30, w17
	b	LBB15_73
LBB15_44:
	mov	w30, wzr
	mov	w28, #5
	mov	w4, #4
	b	LBB15_73
LBB15_45:
	mov	w17, wzr
	mov	w30, wzr
	mov	x4, xzr
LBB15_46:
	mov	w28, #5
	b	LBB15_73
LBB15_47:
	mov	w4, #4
	b	LBB15_78
LBB15_48:
	mov	w30, w17
	b	LBB15_78
LBB15_49:
	sub	w17, w23, #2001
	cmp	w17, #7
	b.hs	LBB15_58
	mov	x4, xzr
	mov	w17, wzr
	cmp	w23, #2003
	mov	w30, #2
	mov	w28, #6
	b.gt	LBB15_83
	cmp	w23, #2001
	b.eq	LBB15_79
	cmp	w23, #2002
	b.eq	LBB15_78
	cmp	w23, #2003
	b.eq	LBB15_81
	b	LBB15_73
LBB15_54:
	cmp	w23, #1004
	b.eq	LBB15_87
	cmp	w23, #1005
	b.eq	LBB15_88
	cmp	w23, #1006
	b.ne	LBB15_73
	mov	w17, wzr
	mov	x4, xzr
	mov	w30, #1
	b	LBB15_46
LBB15_58:
	sub	w17, w23, #3001
	cmp	w17, #7
	b.hs	LBB15_63
	mov	x4, xzr
	mov	w17, wzr
	cmp	w23, #3003
	mov	w30, #3
	mov	w28, #6
	b.gt	LBB15_89
	cmp	w23, #3001
	b.eq	LBB15_79
	cmp	w23, #3002
	b.eq	LBB15_78
	cmp	w23, #3003
	b.eq	LBB15_81
	b	LBB15_73
LBB15_63:
	cbz	w21, LBB15_66
	cmp	w21, #1
	b.ne	LBB15_72
	mov	w27, #1
	cmp	x2, #5
	b.hs	LBB15_67
	b	LBB15_72
LBB15_66:
	mov	w27, wzr
	cmp	x2, #5
	b.lo	LBB15_72
LBB15_67:
	ldur	w17, [x3, #1]
	cmp	w27, #0
	rev	w2, w17
	csel	w3, w17, w2, ne
	ubfx	w17, w3, #30, #1
	and	w4, w3, #0x7fffffff
	add	w2, w4, w12
	cmp	w17, #0
	csel	w17, w4, w2, eq
	lsr	w2, w17, #29
	cmp	w2, #0
	add	w2, w17, w13
	csel	w21, w2, w17, ne
	cset	w17, ne
	cmp	w21, #3999
	b.hi	LBB15_72
	umull	x2, w21, w15
	lsr	x2, x2, #32
	msub	w2, w2, w16, w21
	sub	w23, w2, #1
	cmp	w23, #6
	b.hi	LBB15_72
	lsr	w14, w4, #30
	tbnz	w3, #31, LBB15_74
	mov	w3, #19923
	movk	w3, #4194, lsl #16
	umull	x3, w21, w3
	lsr	x30, x3, #38
	cbz	w14, LBB15_75
	lsl	w14, w30, #3
	mov	w3, #770
	movk	w3, #770, lsl #16
	lsr	w30, w3, w14
	b	LBB15_75
LBB15_72:
	mov	w27, #2
	mov	w30, w14
	tst	w29, #0x1
	and	w14, w28, #0xff
	mov	w17, w29
	csel	x4, x9, xzr, ne
	cmp	w14, #2
	b.le	LBB15_76
LBB15_73:
	add	x14, x26, x4
	tst	w27, #0x1
	mov	w23, wzr
	add	x2, x14, x0
	add	x26, x14, #9
	ldur	w2, [x2, #5]
	rev	w3, w2
	csel	w2, w2, w3, ne
	add	x2, x24, x2
	sub	x24, x2, #1
	b	LBB15_82
LBB15_74:
	cmp	w21, #2000
	ccmp	w14, #0, #0, lo
	mov	w14, #3
	csinc	w30, w14, wzr, ne
LBB15_75:
	mov	x3, #6
	lsl	w14, w2, #3
	cmp	w2, #7
	movk	x3, #513, lsl #16
	mov	w2, #6
	movk	x3, #1027, lsl #32
	movk	x3, #5, lsl #48
	lsr	x14, x3, x14
	csel	w28, w14, w2, lo
	tst	w17, #0x1
	and	w14, w28, #0xff
	csel	x4, x9, xzr, ne
	cmp	w14, #2
	b.gt	LBB15_73
LBB15_76:
	cbz	w14, LBB15_79
	cmp	w14, #1
	b.ne	LBB15_81
LBB15_78:
	add	x14, x26, x4
	tst	w27, #0x1
	mov	w28, #1
	add	x2, x14, x0
	add	x14, x14, #9
	ldur	w2, [x2, #5]
	rev	w3, w2
	csel	w2, w2, w3, ne
	b	LBB15_80
LBB15_79:
	add	x14, x26, x4
	mov	w28, wzr
	mov	w2, #1
	add	x14, x14, #5
LBB15_80:
	mov	w3, w30
	mov	w23, wzr
	sub	x24, x24, #1
	and	x3, x3, #0xff
	ldr	x3, [x10, x3, lsl #3]
	madd	x26, x3, x2, x14
	b	LBB15_82
LBB15_81:
	add	x14, x26, x4
	tst	w27, #0x1
	sub	x24, x24, #1
	add	x2, x14, x0
	add	x26, x14, #9
	mov	w28, #2
	ldur	w2, [x2, #5]
	mov	w25, w27
	mov	w20, w30
	rev	w3, w2
	csel	w23, w2, w3, ne
LBB15_82:
	tst	w17, #0x1
	mov	w14, w30
	mov	w29, w17
	csel	x2, x11, xzr, ne
	add	x8, x2, x8
	cbnz	w23, LBB15_3
	b	LBB15_4
LBB15_83:
	cmp	w23, #2004
	b.eq	LBB15_93
	cmp	w23, #2005
	b.eq	LBB15_94
	cmp	w23, #2006
	b.ne	LBB15_73
	mov	w17, wzr
	mov	x4, xzr
	mov	w30, #2
	b	LBB15_46
LBB15_87:
	mov	w17, wzr
	mov	x4, xzr
	mov	w30, #1
	mov	w28, #3
	b	LBB15_73
LBB15_88:
	mov	w17, wzr
	mov	x4, xzr
	mov	w30, #1
	mov	w28, #4
	b	LBB15_73
LBB15_89:
	cmp	w23, #3006
	b.eq	LBB15_95
	cmp	w23, #3005
	b.eq	LBB15_96
	cmp	w23, #3004
	b.ne	LBB15_73
	mov	w17, wzr
	mov	x4, xzr
	mov	w28, #3
	mov	w30, #3
	b	LBB15_73
LBB15_93:
	mov	w17, wzr
	mov	x4, xzr
	mov	w30, #2
	mov	w28, #3
	b	LBB15_73
LBB15_94:
	mov	w17, wzr
	mov	x4, xzr
	mov	w30, #2
	mov	w28, #4
	b	LBB15_73
LBB15_95:
	mov	w17, wzr
	mov	x4, xzr
	mov	w30, #3
	b	LBB15_46
LBB15_96:
	mov	w17, wzr
	mov	x4, xzr
	mov	w30, #3
	mov	w28, #4
	b	LBB15_73
LBB15_97:
	ldp	x20, x19, [sp, #80]
	ldp	x22, x21, [sp, #64]
	ldp	x24, x23, [sp, #48]
	ldp	x26, x25, [sp, #32]
	ldp	x28, x27, [sp, #16]
	ldp	x29, x30, [sp], #96
	.cfi_def_cfa_offset 0
	.cfi_restore w19
	.cfi_restore w20
	.cfi_restore w21
	.cfi_restore w22
	.cfi_restore w23
	.cfi_restore w24
	.cfi_restore w25
	.cfi_restore w26
	.cfi_restore w27
	.cfi_restore w28
	.cfi_restore w30
	.cfi_restore w29
	mov	x0, x8
	ret
Lfunc_end15:
	.cfi_endproc
	.section	__TEXT,__text,regular,pure_instructions
	.p2align	2
_ZN7wkb_raw6erased11wkb_rewrite8encoding12lay_encoding17h07e83c5af2302165E:
	.cfi_startproc
	sub	sp, sp, #160
	.cfi_def_cfa_offset 160
	stp	x29, x30, [sp, #64]
	stp	x28, x27, [sp, #80]
	stp	x26, x25, [sp, #96]
	stp	x24, x23, [sp, #112]
	stp	x22, x21, [sp, #128]
	stp	x20, x19, [sp, #144]
	.cfi_offset w19, -8
	.cfi_offset w20, -16
	.cfi_offset w21, -24
	.cfi_offset w22, -32
	.cfi_offset w23, -40
	.cfi_offset w24, -48
	.cfi_offset w25, -56
	.cfi_offset w26, -64
	.cfi_offset w27, -72
	.cfi_offset w28, -80
	.cfi_offset w30, -88
	.cfi_offset w29, -96
	.cfi_remember_state
	ldrb	w13, [x2, #32]
	ldr	w10, [x2]
	mov	w9, #9
	ldrb	w8, [x2, #33]
	ldrb	w12, [x2, #34]
	mov	x19, x4
	cmp	w10, #0
	mov	w10, #5
	sub	w11, w13, #2
	csel	x9, x10, x9, eq
	cmp	w11, #5
	mov	x20, x0
	b.hs	LBB16_12
	ldrb	w10, [x3, #8]
	ldr	w4, [x20, x9]
	add	x23, x9, #4
	str	x1, [sp, #24]
	cmp	w12, w10
	rev	w29, w4
	b.ne	LBB16_7
	ldp	w11, w10, [x3]
	cmp	w13, #3
	cbz	w12, LBB16_21
	b.le	LBB16_44
	cmp	w13, #4
	b.eq	LBB16_86
	cmp	w13, #5
	b.ne	LBB16_348
	mov	w12, #6
	b	LBB16_353
LBB16_7:
	ldp	w14, w9, [x3]
	cmp	w13, #3
	str	w14, [sp, #16]
	cbz	w10, LBB16_25
	b.le	LBB16_46
	cmp	w13, #4
	b.eq	LBB16_87
	cmp	w13, #5
	b.ne	LBB16_349
	mov	w22, wzr
	mov	w26, wzr
	mov	w10, #6
	b	LBB16_498
LBB16_12:
	cbnz	w13, LBB16_31
	ldr	w14, [x3]
	ldrb	w10, [x3, #8]
	cmp	w14, #2
	b.ne	LBB16_34
	mov	w11, #1000
	cmp	w10, #0
	strb	w10, [x19]
	mul	w11, w8, w11
	mov	w14, #5
	orr	w13, w11, #0x1
	rev	w13, w13
	csinc	w11, w13, w11, eq
	mov	w13, #1
LBB16_15:
	str	w11, [x19, x13]
	mov	x13, x14
LBB16_16:
	sub	w11, w8, #1
	cmp	w11, #2
	add	x11, x20, x9
	add	x9, x19, x13
	b.hs	LBB16_37
	ldr	x8, [x11]
	add	x0, x13, #24
	tbz	w12, #0, LBB16_61
	mov	x13, #-9007199254740992
	cmp	x13, x8, lsl #1
	b.hs	LBB16_66
	ldr	x14, [x11, #8]
	cmp	x13, x14, lsl #1
	b.hs	LBB16_66
	ldr	x13, [x11, #16]
	b	LBB16_64
LBB16_21:
	b.le	LBB16_50
	cmp	w13, #6
	b.eq	LBB16_88
	cmp	w13, #5
	b.ne	LBB16_350
	mov	w12, #6
	b	LBB16_754
LBB16_25:
	b.le	LBB16_52
	cmp	w13, #4
	b.eq	LBB16_89
	cmp	w13, #5
	b.ne	LBB16_351
	mov	w26, wzr
	mov	w22, wzr
	mov	w10, #6
	cmp	w14, #2
	mov	w27, w4
	b.eq	LBB16_90
LBB16_29:
	cmp	w14, #1
	mov	w11, #536870912
	mov	w12, #1073741824
	csel	w11, w11, wzr, eq
	cmp	w8, #2
	strb	wzr, [x19]
	csel	w12, wzr, w12, lo
	orr	w11, w12, w11
	orr	w8, w11, w8, lsl #31
	orr	w8, w10, w8
	rev	w8, w8
	stur	w8, [x19, #1]
	mov	w8, #5
	tbz	w14, #0, LBB16_92
	mov	w10, #9
	b	LBB16_91
LBB16_31:
	ldr	w10, [x20, x9]
	ldr	w16, [x3]
	cmp	w12, #0
	ldrb	w13, [x3, #8]
	rev	w11, w10
	csel	w10, w10, w11, ne
	cmp	w16, #2
	b.ne	LBB16_41
	mov	w11, #1000
	strb	w13, [x19]
	mul	w11, w8, w11
	orr	w15, w11, #0x2
	cbz	w13, LBB16_68
	stur	w15, [x19, #1]
	b	LBB16_54
LBB16_34:
	cmp	w14, #1
	mov	w11, #536870912
	mov	w13, #1073741824
	csinc	w11, w11, wzr, eq
	cmp	w8, #2
	strb	w10, [x19]
	csel	w13, wzr, w13, lo
	orr	w11, w13, w11
	orr	w13, w11, w8, lsl #31
	ldr	w11, [x3, #4]
	orr	w13, w13, #0x1
	tbz	w10, #0, LBB16_69
	stur	w13, [x19, #1]
	mov	w13, #5
	tbz	w14, #0, LBB16_16
	mov	w14, #9
	b	LBB16_15
LBB16_37:
	cbnz	w8, LBB16_71
	ldr	x8, [x11]
	orr	x0, x13, #0x10
	tbz	w12, #0, LBB16_918
	mov	x13, #-9007199254740992
	cmp	x13, x8, lsl #1
	b.hs	LBB16_922
	ldr	x13, [x11, #8]
	b	LBB16_920
LBB16_41:
	cmp	w16, #1
	mov	w11, #536870912
	mov	w14, #1073741824
	csel	w11, w11, wzr, eq
	cmp	w8, #2
	ldr	w15, [x3, #4]
	csel	w14, wzr, w14, lo
	strb	w13, [x19]
	orr	w11, w14, w11
	orr	w11, w11, w8, lsl #31
	orr	w11, w11, #0x2
	tbz	w13, #0, LBB16_76
	stur	w11, [x19, #1]
	tbz	w16, #0, LBB16_54
	stur	w15, [x19, #5]
	mov	w11, #9
	mov	w14, #13
	sub	w15, w8, #1
	str	w10, [x19, x11]
	cmp	w15, #2
	add	x15, x9, #4
	b.lo	LBB16_80
	b	LBB16_55
LBB16_44:
	cmp	w13, #2
	b.ne	LBB16_352
	mov	w12, #3
	mov	w1, w8
	mov	w21, w4
	mov	x4, xzr
	b	LBB16_354
LBB16_46:
	cmp	w13, #2
	b.ne	LBB16_497
	mov	w27, wzr
	mov	w10, #3
	mov	w22, w29
	mov	w26, w8
	cmp	w14, #2
	mov	w28, wzr
	b.eq	LBB16_499
LBB16_48:
	cmp	w14, #1
	mov	w11, #536870912
	mov	w12, #1073741824
	csel	w11, w11, wzr, eq
	cmp	w8, #2
	csel	w12, wzr, w12, lo
	orr	w11, w12, w11
	orr	w8, w11, w8, lsl #31
	mov	w11, #1
	strb	w11, [x19]
	orr	w8, w10, w8
	stur	w8, [x19, #1]
	mov	w8, #5
	tbz	w14, #0, LBB16_501
	mov	w10, #9
	b	LBB16_500
LBB16_50:
	cmp	w13, #2
	b.ne	LBB16_753
	mov	w26, wzr
	mov	w12, #3
	mov	w25, w8
	mov	w30, w29
	mov	x29, xzr
	b	LBB16_755
LBB16_52:
	cmp	w13, #2
	b.ne	LBB16_914
	mov	w10, #3
	mov	w26, w8
	mov	w22, w4
	mov	w4, wzr
	cmp	w14, #2
	mov	w27, w4
	b.eq	LBB16_90
	b	LBB16_29
LBB16_54:
	mov	w11, #5
	mov	w14, #9
	sub	w15, w8, #1
	str	w10, [x19, x11]
	cmp	w15, #2
	add	x15, x9, #4
	b.lo	LBB16_80
LBB16_55:
	cmp	w8, #3
	b.ne	LBB16_82
	lsl	x2, x10, #5
	mov	w11, #32
	cmp	w12, w13
	add	x0, x14, x2
	add	x1, x20, x15
	add	x8, x19, x14
	b.eq	LBB16_81
LBB16_57:
	umull	x11, w11, w10
	lsr	x12, x11, #4
	and	x10, x11, #0x3ffffffff0
	tbz	w13, #0, LBB16_83
	cbz	x12, LBB16_946
	cmp	x11, #64
	b.hs	LBB16_936
	mov	x13, xzr
	b	LBB16_939
LBB16_61:
	rev	x13, x8
	mov	x14, #-9007199254740992
	cmp	x14, x13, lsl #1
	b.hs	LBB16_66
	ldr	x13, [x11, #8]
	mov	x14, #-9007199254740991
	rev	x13, x13
	cmp	x14, x13, lsl #1
	b.hi	LBB16_66
	ldr	x13, [x11, #16]
	rev	x13, x13
LBB16_64:
	mov	x14, #-9007199254740992
	cmp	x14, x13, lsl #1
	b.hs	LBB16_66
	cmp	w10, #0
	mov	w8, #63615
	mov	x10, #9221120237041090560
	csel	x8, x10, x8, ne
	stp	x8, x8, [x9]
	str	x8, [x9, #16]
	b	LBB16_948
LBB16_66:
	cmp	w12, w10
	b.ne	LBB16_915
	ldr	q0, [x11]
	ldr	x8, [x11, #16]
	str	q0, [x9]
	str	x8, [x9, #16]
	b	LBB16_948
LBB16_68:
	mov	w14, #5
	mov	w16, #9
	mov	w11, #1
	b	LBB16_78
LBB16_69:
	rev	w13, w13
	cmp	w14, #1
	stur	w13, [x19, #1]
	b.ne	LBB16_924
	rev	w11, w11
	mov	w14, #9
	mov	w13, #5
	b	LBB16_15
LBB16_71:
	ldr	x8, [x11]
	orr	x0, x13, #0x20
	tbz	w12, #0, LBB16_925
	mov	x13, #-9007199254740992
	cmp	x13, x8, lsl #1
	b.hs	LBB16_931
	ldr	x14, [x11, #8]
	cmp	x13, x14, lsl #1
	b.hs	LBB16_931
	ldr	x13, [x11, #16]
	mov	x14, #-9007199254740992
	cmp	x14, x13, lsl #1
	b.hs	LBB16_931
	ldr	x13, [x11, #24]
	b	LBB16_929
LBB16_76:
	rev	w11, w11
	mov	w14, #9
	stur	w11, [x19, #1]
	mov	w11, #5
	tbz	w16, #0, LBB16_79
	mov	w16, #13
LBB16_78:
	rev	w15, w15
	str	w15, [x19, x11]
	mov	x11, x14
	mov	x14, x16
LBB16_79:
	rev	w16, w10
	sub	w15, w8, #1
	str	w16, [x19, x11]
	cmp	w15, #2
	add	x15, x9, #4
	b.hs	LBB16_55
LBB16_80:
	add	x8, x10, x10, lsl #1
	mov	w11, #24
	lsl	x2, x8, #3
	cmp	w12, w13
	add	x0, x14, x2
	add	x1, x20, x15
	add	x8, x19, x14
	b.ne	LBB16_57
LBB16_81:
	mov	x19, x0
	mov	x0, x8
	bl	_memcpy
	mov	x0, x19
	b	LBB16_948
LBB16_82:
	lsl	x2, x10, #4
	mov	w11, #16
	cmp	w12, w13
	add	x0, x14, x2
	add	x1, x20, x15
	add	x8, x19, x14
	b.eq	LBB16_81
	b	LBB16_57
LBB16_83:
	cbz	x12, LBB16_946
	cmp	x11, #64
	b.hs	LBB16_941
	mov	x13, xzr
	b	LBB16_944
LBB16_86:
	mov	w12, #5
	b	LBB16_353
LBB16_87:
	mov	w22, wzr
	mov	w26, wzr
	mov	w10, #5
	b	LBB16_498
LBB16_88:
	mov	w12, #7
	b	LBB16_754
LBB16_89:
	mov	w26, wzr
	mov	w22, wzr
	mov	w10, #5
	cmp	w14, #2
	mov	w27, w4
	b.ne	LBB16_29
LBB16_90:
	mov	w9, #1000
	strb	wzr, [x19]
	mul	w8, w8, w9
	orr	w9, w10, w8
	mov	w10, #5
	mov	w8, #1
LBB16_91:
	rev	w9, w9
	str	w9, [x19, x8]
	mov	x8, x10
LBB16_92:
	add	x28, x8, #4
	str	w29, [x19, x8]
	mov	w25, #1
LBB16_93:
	str	x8, [sp, #56]
	b	LBB16_95
LBB16_94:
	bl	_memcpy
LBB16_95:
	mov	x0, x28
	cbnz	w22, LBB16_102
	cbz	x27, LBB16_102
	add	x8, x20, x23
	ldur	w10, [x8, #1]
	ldrb	w9, [x8]
	subs	w11, w10, #1
	b.ne	LBB16_105
	cmp	w9, #1
	b.ne	LBB16_105
	ldur	x10, [x8, #5]
	ldur	x8, [x8, #13]
	mov	x12, #-9007199254740991
	sub	x27, x27, #1
	add	x9, x19, x0
	add	x23, x23, #21
	cmp	x12, x10, lsl #1
	mov	w11, #16777216
	add	x28, x0, #21
	strb	wzr, [x9]
	stur	w11, [x9, #1]
	b.hi	LBB16_120
	lsl	x11, x8, #1
	cmp	x11, x12
	b.lo	LBB16_120
	mov	w8, #63615
	mov	w22, wzr
	dup	v0.2d, x8
	stur	q0, [x9, #5]
	b	LBB16_95
LBB16_102:
	cbz	w22, LBB16_109
	ldr	w8, [x20, x23]
	and	x9, x26, #0xff
	adrp	x11, Lswitch.table.wkb_raw_write.374@PAGE
	add	x11, x11, Lswitch.table.wkb_raw_write.374@PAGEOFF
	tst	w25, #0x1
	ldr	x16, [sp, #56]
	rev	w10, w8
	ldr	x9, [x11, x9, lsl #3]
	sub	w22, w22, #1
	csel	w11, w8, w10, ne
	add	x10, x23, #4
	add	x8, x0, #4
	madd	x23, x9, x11, x10
	rev	w9, w11
	str	w9, [x19, x0]
	mov	w9, w25
	and	w12, w26, #0xff
	str	x16, [sp, #56]
	sub	w13, w12, #1
	cmp	w13, #2
	b.hs	LBB16_264
LBB16_104:
	add	x12, x11, x11, lsl #1
	mov	w13, #24
	lsl	x12, x12, #3
	umull	x2, w13, w11
	add	x28, x12, x8
	tst	w9, #0xff
	add	x0, x19, x8
	add	x1, x20, x10
	b.ne	LBB16_268
	b	LBB16_94
LBB16_105:
	ldr	x16, [sp, #56]
	cmp	w11, #6
	b.hi	LBB16_110
	cmp	w9, #1
	b.ne	LBB16_110
	cmp	w10, #1
	add	x8, x23, #5
	b.ne	LBB16_121
	sub	x27, x27, #1
	mov	w24, #1
	b	LBB16_122
LBB16_109:
	ldr	x16, [sp, #56]
	cbz	x27, LBB16_948
LBB16_110:
	ldr	x8, [sp, #24]
	add	x12, x20, x23
	sub	x11, x8, x23
	cmp	x11, #5
	b.hs	LBB16_113
	cmp	x8, x23
	b.eq	LBB16_229
	ldrb	w9, [x12]
	b	LBB16_221
LBB16_113:
	ldrb	w9, [x12]
	cmp	w9, #1
	b.eq	LBB16_127
	cbnz	w9, LBB16_221
	ldur	w8, [x12, #1]
	rev	w13, w8
	lsr	w10, w13, #29
	cmp	w10, #0
	cset	w8, ne
	cbz	w10, LBB16_128
LBB16_116:
	mov	w10, #3
	movk	w10, #8192, lsl #16
	cmp	w13, w10
	mov	w10, wzr
	b.le	LBB16_135
	mov	w14, #5
	movk	w14, #8192, lsl #16
	cmp	w13, w14
	b.gt	LBB16_183
	mov	w14, #4
	movk	w14, #8192, lsl #16
	cmp	w13, w14
	b.eq	LBB16_255
	mov	w14, #5
	movk	w14, #8192, lsl #16
	cmp	w13, w14
	b.eq	LBB16_132
	b	LBB16_221
LBB16_120:
	rev	x10, x10
	rev	x8, x8
	mov	w22, wzr
	stur	x10, [x9, #5]
	stur	x8, [x9, #13]
	b	LBB16_95
LBB16_121:
	ldr	w24, [x20, x8]
	cmp	w10, #3
	add	x8, x23, #9
	sub	x27, x27, #1
	b.hs	LBB16_133
LBB16_122:
	add	x23, x8, w24, uxtw #4
	mov	w22, w24
	mov	w24, wzr
	cmp	w10, #3
	mov	w9, #117440512
	b.le	LBB16_145
LBB16_123:
	cmp	w10, #4
	b.eq	LBB16_142
	cmp	w10, #5
	b.eq	LBB16_143
	cmp	w10, #6
	b.ne	LBB16_148
	mov	w24, wzr
	mov	w9, #100663296
	b	LBB16_148
LBB16_127:
	ldur	w13, [x12, #1]
	lsr	w10, w13, #29
	cmp	w10, #0
	cset	w8, ne
	cbnz	w10, LBB16_116
LBB16_128:
	cmp	w13, #3
	b.le	LBB16_138
	cmp	w13, #5
	b.gt	LBB16_185
	cmp	w13, #4
	b.eq	LBB16_255
	cmp	w13, #5
	b.ne	LBB16_193
LBB16_132:
	mov	w12, #5
	mov	w11, #4
	b	LBB16_256
LBB16_133:
	cmp	w10, #3
	b.ne	LBB16_144
	mov	w26, wzr
	mov	w9, #50331648
	mov	w25, #1
	mov	w22, w24
	mov	x23, x8
	b	LBB16_148
LBB16_135:
	mov	w14, #1
	movk	w14, #8192, lsl #16
	cmp	w13, w14
	b.eq	LBB16_237
	mov	w14, #2
	movk	w14, #8192, lsl #16
	cmp	w13, w14
	b.eq	LBB16_238
	mov	w14, #3
	movk	w14, #8192, lsl #16
	cmp	w13, w14
	b.eq	LBB16_141
	b	LBB16_221
LBB16_138:
	cmp	w13, #1
	b.eq	LBB16_237
	cmp	w13, #2
	b.eq	LBB16_238
	cmp	w13, #3
	b.ne	LBB16_193
LBB16_141:
	mov	w16, w10
	b	LBB16_246
LBB16_142:
	mov	w24, wzr
	mov	w9, #67108864
	b	LBB16_148
LBB16_143:
	mov	w24, wzr
	mov	w9, #83886080
	b	LBB16_148
LBB16_144:
	add	x27, x27, x24
	mov	x23, x8
	mov	w22, w24
	mov	w24, wzr
	cmp	w10, #3
	mov	w9, #117440512
	b.gt	LBB16_123
LBB16_145:
	cmp	w10, #1
	b.eq	LBB16_178
	cmp	w10, #2
	b.ne	LBB16_148
	add	x9, x19, x0
	ubfiz	x10, x22, #4, #32
	mov	w11, #33554432
	stur	w11, [x9, #1]
	add	x13, x0, #9
	rev	w11, w22
	mov	w24, wzr
	strb	wzr, [x9]
	add	x28, x10, x13
	stur	w11, [x9, #5]
	add	x9, x10, x8
	sub	x11, x9, x8
	add	x10, x20, x8
	add	x9, x19, x13
	lsr	x12, x11, #4
	cbnz	x12, LBB16_149
	b	LBB16_156
LBB16_148:
	add	x10, x19, x0
	add	x13, x0, #9
	rev	w11, w22
	stur	w9, [x10, #1]
	add	x28, x0, #9
	strb	wzr, [x10]
	stur	w11, [x10, #5]
	sub	x11, x8, x8
	add	x10, x20, x8
	add	x9, x19, x13
	lsr	x12, x11, #4
	cbz	x12, LBB16_156
LBB16_149:
	cmp	x11, #64
	b.hs	LBB16_151
	mov	x13, xzr
	b	LBB16_154
LBB16_151:
	add	x14, x20, #32
	and	x13, x12, #0xffffffffffffffc
	and	x15, x12, #0xffffffffffffffc
	add	x8, x14, x8
	add	x14, x19, #41
	add	x14, x14, x0
LBB16_152:
	ldp	q1, q0, [x8, #-32]
	subs	x15, x15, #4
	ldp	q3, q2, [x8], #64
	rev64	v0.16b, v0.16b
	rev64	v1.16b, v1.16b
	rev64	v2.16b, v2.16b
	rev64	v3.16b, v3.16b
	stp	q1, q0, [x14, #-32]
	stp	q3, q2, [x14], #64
	b.ne	LBB16_152
	cmp	x12, x13
	b.eq	LBB16_156
LBB16_154:
	lsl	x8, x13, #4
	sub	x12, x12, x13
LBB16_155:
	ldr	q0, [x10, x8]
	subs	x12, x12, #1
	rev64	v0.16b, v0.16b
	str	q0, [x9, x8]
	add	x8, x8, #16
	b.ne	LBB16_155
LBB16_156:
	tbz	w11, #3, LBB16_158
	and	x8, x11, #0x7ffffffffffffff0
	ldr	x10, [x10, x8]
	rev	x10, x10
	str	x10, [x9, x8]
LBB16_158:
	mov	w22, wzr
	cbnz	w24, LBB16_161
	b	LBB16_95
LBB16_159:
	add	x0, x19, x29
	add	x1, x20, x21
	mov	x2, x22
	bl	_memcpy
LBB16_160:
	sub	w24, w24, #1
	add	x23, x22, x21
	add	x28, x22, x29
	cbz	w24, LBB16_177
LBB16_161:
	ldr	w9, [x20, x23]
	and	w8, w26, #0xff
	tst	w25, #0x1
	sub	w11, w8, #1
	rev	w10, w9
	csel	w10, w9, w10, ne
	cmp	w11, #2
	b.hs	LBB16_163
	add	x8, x10, x10, lsl #1
	mov	w11, #24
	lsl	x22, x8, #3
	b	LBB16_166
LBB16_163:
	cmp	w8, #3
	b.ne	LBB16_165
	lsl	x22, x10, #5
	mov	w11, #32
	b	LBB16_166
LBB16_165:
	lsl	x22, x10, #4
	mov	w11, #16
LBB16_166:
	add	x21, x23, #4
	add	x29, x28, #4
	rev	w8, w10
	tst	w25, #0xff
	str	w8, [x19, x28]
	add	x8, x19, x29
	add	x9, x20, x21
	b.eq	LBB16_159
	umull	x10, w11, w10
	lsr	x11, x10, #4
	cbz	x11, LBB16_175
	cmp	x10, #64
	b.hs	LBB16_170
	mov	x12, xzr
	b	LBB16_173
LBB16_170:
	add	x13, x20, #36
	add	x14, x19, #36
	and	x12, x11, #0x3fffffffc
	add	x13, x13, x23
	add	x14, x14, x28
	and	x15, x11, #0x3fffffffc
LBB16_171:
	ldp	q1, q0, [x13, #-32]
	subs	x15, x15, #4
	ldp	q3, q2, [x13], #64
	rev64	v0.16b, v0.16b
	rev64	v1.16b, v1.16b
	rev64	v2.16b, v2.16b
	rev64	v3.16b, v3.16b
	stp	q1, q0, [x14, #-32]
	stp	q3, q2, [x14], #64
	b.ne	LBB16_171
	cmp	x11, x12
	b.eq	LBB16_175
LBB16_173:
	lsl	x13, x12, #4
	sub	x11, x11, x12
LBB16_174:
	ldr	q0, [x9, x13]
	subs	x11, x11, #1
	rev64	v0.16b, v0.16b
	str	q0, [x8, x13]
	add	x13, x13, #16
	b.ne	LBB16_174
LBB16_175:
	tbz	w10, #3, LBB16_160
	and	x10, x10, #0x3ffffffff0
	ldr	x9, [x9, x10]
	rev	x9, x9
	str	x9, [x8, x10]
	b	LBB16_160
LBB16_177:
	mov	w22, wzr
	b	LBB16_95
LBB16_178:
	mov	w10, w22
	add	x9, x19, x0
	mov	w11, #16777216
	ubfiz	x13, x10, #4, #32
	add	x15, x0, #5
	stur	w11, [x9, #1]
	ubfiz	x11, x10, #1, #32
	mov	x12, xzr
	strb	wzr, [x9]
	mov	w9, w22
	add	x14, x20, x8
	add	x28, x13, x15
	add	x10, x19, x15
	mov	x16, #-9007199254740992
LBB16_179:
	cmp	x13, x12
	b.eq	LBB16_188
	ldr	x15, [x14, x12]
	add	x12, x12, #8
	cmp	x16, x15, lsl #1
	b.lo	LBB16_179
	cmp	w22, #4
	b.hs	LBB16_198
	mov	x10, xzr
	b	LBB16_201
LBB16_183:
	mov	w14, #6
	movk	w14, #8192, lsl #16
	cmp	w13, w14
	b.eq	LBB16_254
	mov	w14, #7
	movk	w14, #8192, lsl #16
	cmp	w13, w14
	b.eq	LBB16_187
	b	LBB16_221
LBB16_185:
	cmp	w13, #6
	b.eq	LBB16_254
	cmp	w13, #7
	b.ne	LBB16_193
LBB16_187:
	mov	w12, #7
	mov	w11, #6
	b	LBB16_256
LBB16_188:
	cmp	w22, #1
	b.eq	LBB16_209
	cbz	w22, LBB16_95
	and	x9, x11, #0x1fffffffc
	add	x12, x19, #21
	and	x13, x11, #0x1fffffffc
	lsl	x8, x9, #3
	add	x12, x12, x0
	mov	w14, #63615
LBB16_191:
	dup	v0.2d, x14
	subs	x13, x13, #4
	stp	q0, q0, [x12, #-16]
	add	x12, x12, #32
	b.ne	LBB16_191
	cmp	x11, x9
	mov	w22, wzr
	b.eq	LBB16_95
	b	LBB16_210
LBB16_193:
	sub	w10, w13, #1001
	cmp	w10, #7
	b.hs	LBB16_204
	cmp	w13, #1003
	mov	w10, #1
	b.gt	LBB16_213
	cmp	w13, #1001
	b.eq	LBB16_237
	cmp	w13, #1002
	b.eq	LBB16_238
	cmp	w13, #1003
	b.eq	LBB16_141
	b	LBB16_187
LBB16_198:
	add	x11, x20, #32
	add	x12, x19, #37
	and	x10, x9, #0xfffffffc
	add	x11, x11, x8
	add	x12, x12, x0
	and	x13, x9, #0xfffffffc
LBB16_199:
	ldp	q1, q0, [x11, #-32]
	subs	x13, x13, #4
	ldp	q3, q2, [x11], #64
	rev64	v0.16b, v0.16b
	rev64	v1.16b, v1.16b
	rev64	v2.16b, v2.16b
	rev64	v3.16b, v3.16b
	stp	q1, q0, [x12, #-32]
	stp	q3, q2, [x12], #64
	b.ne	LBB16_199
	cmp	x10, x9
	mov	w22, wzr
	b.eq	LBB16_95
LBB16_201:
	lsl	x11, x10, #4
	add	x12, x19, #5
	add	x13, x20, x8
	add	x12, x12, x0
	sub	x9, x9, x10
	add	x8, x12, x11
	add	x11, x13, x11
LBB16_202:
	ldr	q0, [x11], #16
	subs	x9, x9, #1
	rev64	v0.16b, v0.16b
	str	q0, [x8], #16
	b.ne	LBB16_202
	mov	w22, wzr
	b	LBB16_95
LBB16_204:
	sub	w10, w13, #2001
	cmp	w10, #7
	b.hs	LBB16_216
	cmp	w13, #2003
	mov	w10, #2
	b.gt	LBB16_248
	cmp	w13, #2001
	b.eq	LBB16_237
	cmp	w13, #2002
	b.eq	LBB16_238
	cmp	w13, #2003
	b.eq	LBB16_141
	b	LBB16_187
LBB16_209:
	mov	x8, xzr
	mov	x9, xzr
LBB16_210:
	sub	x9, x9, x11
	mov	w11, #63615
LBB16_211:
	adds	x9, x9, #1
	str	x11, [x10, x8]
	add	x8, x8, #8
	b.lo	LBB16_211
	mov	w22, wzr
	b	LBB16_95
LBB16_213:
	cmp	w13, #1004
	b.eq	LBB16_255
	cmp	w13, #1005
	b.eq	LBB16_132
	cmp	w13, #1006
	b.eq	LBB16_254
	b	LBB16_187
LBB16_216:
	sub	w10, w13, #3001
	cmp	w10, #7
	b.hs	LBB16_221
	cmp	w13, #3003
	mov	w10, #3
	b.gt	LBB16_251
	cmp	w13, #3001
	b.eq	LBB16_237
	cmp	w13, #3002
	b.eq	LBB16_238
	cmp	w13, #3003
	b.eq	LBB16_141
	b	LBB16_187
LBB16_221:
	cbz	w9, LBB16_223
	cmp	w9, #1
	b.ne	LBB16_229
LBB16_223:
	cmp	x11, #5
	b.lo	LBB16_229
	ldur	w8, [x12, #1]
	cmp	w9, #0
	rev	w10, w8
	csel	w12, w8, w10, ne
	mov	w10, #-1073741824
	ubfx	w8, w12, #30, #1
	and	w11, w12, #0x7fffffff
	add	w10, w11, w10
	cmp	w8, #0
	csel	w8, w11, w10, eq
	lsr	w10, w8, #29
	cmp	w10, #0
	mov	w10, #-536870912
	add	w10, w8, w10
	csel	w13, w10, w8, ne
	cset	w8, ne
	cmp	w13, #3999
	b.hi	LBB16_229
	mov	w10, #35128
	mov	w14, #1000
	movk	w10, #65, lsl #16
	umull	x10, w13, w10
	lsr	x10, x10, #32
	msub	w10, w10, w14, w13
	sub	w14, w10, #1
	cmp	w14, #6
	b.hi	LBB16_229
	tbnz	w12, #31, LBB16_239
	mov	w12, #19923
	lsr	w11, w11, #30
	movk	w12, #4194, lsl #16
	umull	x12, w13, w12
	lsr	x16, x12, #38
	cbz	w11, LBB16_240
	lsl	w11, w16, #3
	mov	w12, #770
	movk	w12, #770, lsl #16
	lsr	w16, w12, w11
	b	LBB16_240
LBB16_229:
	ldr	w8, [sp, #32]
	mov	w9, #2
	ldr	w10, [sp, #8]
	and	w10, w10, #0xff
	cmp	w10, #2
	b.le	LBB16_241
LBB16_230:
	cmp	w10, #4
	b.gt	LBB16_233
	cmp	w10, #3
	b.ne	LBB16_235
	mov	w12, #4
	b	LBB16_257
LBB16_233:
	cmp	w10, #5
	b.ne	LBB16_236
	mov	w12, #6
	b	LBB16_257
LBB16_235:
	mov	w12, #5
	b	LBB16_257
LBB16_236:
	mov	w12, #7
	b	LBB16_257
LBB16_237:
	mov	w16, w10
	b	LBB16_244
LBB16_238:
	mov	w16, w10
	b	LBB16_243
LBB16_239:
	lsr	w11, w11, #30
	cmp	w13, #2000
	ccmp	w11, #0, #0, lo
	mov	w11, #3
	csinc	w16, w11, wzr, ne
LBB16_240:
	mov	x12, #6
	lsl	w11, w10, #3
	cmp	w10, #7
	movk	x12, #513, lsl #16
	mov	w10, #6
	movk	x12, #1027, lsl #32
	movk	x12, #5, lsl #48
	lsr	x11, x12, x11
	csel	w10, w11, w10, lo
	str	w10, [sp, #8]
	mov	w10, w10
	and	w10, w10, #0xff
	cmp	w10, #2
	b.gt	LBB16_230
LBB16_241:
	cbz	w10, LBB16_244
	cmp	w10, #1
	b.ne	LBB16_246
LBB16_243:
	tst	w8, #0x1
	mov	w10, #4
	mov	w13, #1
	csel	x10, x10, xzr, ne
	tst	w9, #0x1
	str	w13, [sp, #8]
	add	x10, x23, x10
	add	x11, x10, x20
	add	x10, x10, #9
	ldur	w11, [x11, #5]
	rev	w12, w11
	csel	w11, w11, w12, ne
	mov	w12, #2
	b	LBB16_245
LBB16_244:
	tst	w8, #0x1
	mov	w10, #4
	str	wzr, [sp, #8]
	csel	x10, x10, xzr, ne
	mov	w11, #1
	mov	w12, #1
	add	x10, x23, x10
	add	x10, x10, #5
LBB16_245:
	mov	w13, w16
	adrp	x14, Lswitch.table.wkb_raw_write.374@PAGE
	add	x14, x14, Lswitch.table.wkb_raw_write.374@PAGEOFF
	and	x13, x13, #0xff
	sub	x27, x27, #1
	str	w8, [sp, #32]
	ldr	x13, [x14, x13, lsl #3]
	mov	w14, w11
	madd	x23, x13, x14, x10
	mov	w13, #1
	sub	w8, w12, #4
	cmp	w8, #3
	b.hs	LBB16_258
	b	LBB16_260
LBB16_246:
	tst	w8, #0x1
	mov	w10, #4
	mov	w13, wzr
	csel	x10, x10, xzr, ne
	tst	w9, #0x1
	sub	x27, x27, #1
	add	x10, x23, x10
	mov	w12, #3
	str	w8, [sp, #32]
	add	x11, x10, x20
	add	x10, x10, #9
	mov	w25, w9
	ldur	w11, [x11, #5]
	mov	w26, w16
	mov	x23, x10
	rev	w14, w11
	csel	w11, w11, w14, ne
	mov	w14, #2
	str	w14, [sp, #8]
	mov	w22, w11
	ldr	w8, [sp, #16]
	cmp	w8, #2
	and	w8, w16, #0xff
	b.eq	LBB16_261
LBB16_247:
	tst	w16, #0xfe
	mov	w14, #1073741824
	csel	w14, wzr, w14, eq
	orr	w8, w14, w8, lsl #31
	b	LBB16_262
LBB16_248:
	cmp	w13, #2004
	b.eq	LBB16_255
	cmp	w13, #2005
	b.eq	LBB16_132
	cmp	w13, #2006
	b.eq	LBB16_254
	b	LBB16_187
LBB16_251:
	cmp	w13, #3004
	b.eq	LBB16_255
	cmp	w13, #3005
	b.eq	LBB16_132
	cmp	w13, #3006
	b.ne	LBB16_187
LBB16_254:
	mov	w12, #6
	mov	w11, #5
	b	LBB16_256
LBB16_255:
	mov	w12, #4
	mov	w11, #3
LBB16_256:
	str	w11, [sp, #8]
	mov	w16, w10
LBB16_257:
	tst	w8, #0x1
	mov	w10, #4
	mov	w13, wzr
	csel	x10, x10, xzr, ne
	tst	w9, #0x1
	str	w8, [sp, #32]
	add	x10, x23, x10
	add	x11, x10, x20
	add	x10, x10, #9
	ldur	w11, [x11, #5]
	mov	x23, x10
	rev	w14, w11
	csel	w11, w11, w14, ne
	add	x14, x27, x11
	sub	x27, x14, #1
	sub	w8, w12, #4
	cmp	w8, #3
	b.lo	LBB16_260
LBB16_258:
	cmp	w12, #1
	b.eq	LBB16_278
	cmp	w12, #2
	b.ne	LBB16_280
LBB16_260:
	mov	w22, wzr
	ldr	w8, [sp, #16]
	cmp	w8, #2
	and	w8, w16, #0xff
	b.ne	LBB16_247
LBB16_261:
	mov	w14, #1000
	mul	w8, w8, w14
LBB16_262:
	orr	w8, w8, w12
	add	x12, x19, x0
	rev	w14, w11
	rev	w8, w8
	add	x28, x0, #9
	strb	wzr, [x12]
	stur	w8, [x12, #1]
	stur	w14, [x12, #5]
	cbz	w13, LBB16_266
	mov	w11, w11
	mov	x8, x28
	and	w12, w16, #0xff
	str	x16, [sp, #56]
	sub	w13, w12, #1
	cmp	w13, #2
	b.lo	LBB16_104
LBB16_264:
	cmp	w12, #3
	b.ne	LBB16_267
	lsl	x12, x11, #5
	mov	w13, #32
	umull	x2, w13, w11
	add	x28, x12, x8
	tst	w9, #0xff
	add	x0, x19, x8
	add	x1, x20, x10
	b.ne	LBB16_268
	b	LBB16_94
LBB16_266:
	str	x16, [sp, #56]
	mov	x2, xzr
	mov	x8, x28
	tst	w9, #0xff
	add	x0, x19, x28
	add	x1, x20, x10
	b.ne	LBB16_268
	b	LBB16_94
LBB16_267:
	lsl	x12, x11, #4
	mov	w13, #16
	umull	x2, w13, w11
	add	x28, x12, x8
	tst	w9, #0xff
	add	x0, x19, x8
	add	x1, x20, x10
	b.eq	LBB16_94
LBB16_268:
	lsr	x9, x2, #4
	cbz	x9, LBB16_276
	cmp	x2, #64
	b.hs	LBB16_271
	mov	x11, xzr
	b	LBB16_274
LBB16_271:
	add	x12, x20, #32
	and	x11, x9, #0x3fffffffc
	add	x10, x12, x10
	add	x12, x19, #32
	add	x8, x12, x8
	and	x12, x9, #0x3fffffffc
LBB16_272:
	ldp	q1, q0, [x10, #-32]
	subs	x12, x12, #4
	ldp	q3, q2, [x10], #64
	rev64	v0.16b, v0.16b
	rev64	v1.16b, v1.16b
	rev64	v2.16b, v2.16b
	rev64	v3.16b, v3.16b
	stp	q1, q0, [x8, #-32]
	stp	q3, q2, [x8], #64
	b.ne	LBB16_272
	cmp	x9, x11
	b.eq	LBB16_276
LBB16_274:
	lsl	x8, x11, #4
	sub	x9, x9, x11
LBB16_275:
	ldr	q0, [x1, x8]
	subs	x9, x9, #1
	rev64	v0.16b, v0.16b
	str	q0, [x0, x8]
	add	x8, x8, #16
	b.ne	LBB16_275
LBB16_276:
	tbz	w2, #3, LBB16_95
	and	x8, x2, #0x3ffffffff0
	ldr	x9, [x1, x8]
	rev	x9, x9
	str	x9, [x0, x8]
	b	LBB16_95
LBB16_278:
	ldr	w8, [sp, #16]
	cmp	w8, #2
	and	w8, w16, #0xff
	b.ne	LBB16_281
	mov	w12, #1000
	mul	w8, w8, w12
	b	LBB16_282
LBB16_280:
	mov	w22, wzr
	mov	w12, #7
	ldr	w8, [sp, #16]
	cmp	w8, #2
	and	w8, w16, #0xff
	b.eq	LBB16_261
	b	LBB16_247
LBB16_281:
	tst	w16, #0xfe
	mov	w12, #1073741824
	csel	w12, wzr, w12, eq
	orr	w8, w12, w8, lsl #31
LBB16_282:
	orr	w8, w8, #0x1
	and	w14, w16, #0xff
	add	x12, x19, x0
	rev	w8, w8
	sub	w15, w14, #1
	add	x13, x0, #5
	strb	wzr, [x12]
	cmp	w15, #2
	add	x1, x20, x10
	stur	w8, [x12, #1]
	mov	w12, w11
	add	x8, x19, x13
	b.hs	LBB16_292
	add	x12, x12, x12, lsl #1
	mov	w22, wzr
	str	x16, [sp, #56]
	lsl	x2, x12, #3
	add	x28, x2, x13
	cbz	w11, LBB16_95
	ubfx	x12, x12, #0, #61
	mov	x13, xzr
	mov	x15, #-9007199254740992
	mov	x16, #-9007199254740991
	b	LBB16_287
LBB16_285:
	rev	x14, x14
	cmp	x16, x14, lsl #1
	b.hi	LBB16_311
LBB16_286:
	add	x13, x13, #8
	cmp	x2, x13
	b.eq	LBB16_309
LBB16_287:
	ldr	x14, [x1, x13]
	tbz	w9, #0, LBB16_285
	cmp	x15, x14, lsl #1
	b.lo	LBB16_286
	lsr	x9, x2, #4
	cbz	x9, LBB16_333
	cmp	w11, #3
	b.hs	LBB16_328
	mov	x11, xzr
	b	LBB16_331
LBB16_292:
	mov	w22, wzr
	cbnz	w14, LBB16_301
	lsl	x2, x12, #4
	str	xzr, [sp, #56]
	add	x28, x2, x13
	cbz	w11, LBB16_95
	lsl	x13, x12, #1
	mov	x14, xzr
	mov	x16, #-9007199254740992
	mov	x17, #-9007199254740991
	b	LBB16_297
LBB16_295:
	rev	x15, x15
	cmp	x17, x15, lsl #1
	b.hi	LBB16_322
LBB16_296:
	add	x14, x14, #8
	cmp	x2, x14
	b.eq	LBB16_312
LBB16_297:
	ldr	x15, [x1, x14]
	tbz	w9, #0, LBB16_295
	cmp	x16, x15, lsl #1
	b.lo	LBB16_296
	cmp	w11, #4
	b.hs	LBB16_335
	mov	x8, xzr
	b	LBB16_338
LBB16_301:
	lsl	x2, x12, #5
	add	x28, x2, x13
	mov	w13, #3
	str	x13, [sp, #56]
	cbz	w11, LBB16_95
	lsl	x13, x12, #2
	mov	x14, xzr
	mov	x16, #-9007199254740992
	mov	x17, #-9007199254740991
	b	LBB16_305
LBB16_303:
	rev	x15, x15
	cmp	x17, x15, lsl #1
	b.hi	LBB16_347
LBB16_304:
	add	x14, x14, #8
	cmp	x2, x14
	b.eq	LBB16_314
LBB16_305:
	ldr	x15, [x1, x14]
	tbz	w9, #0, LBB16_303
	cmp	x16, x15, lsl #1
	b.lo	LBB16_304
	lsl	x9, x12, #1
	cmp	w11, #1
	b.ne	LBB16_341
	mov	x11, xzr
	b	LBB16_344
LBB16_309:
	cmp	w11, #1
	b.ne	LBB16_316
	mov	x9, xzr
	mov	x10, xzr
	b	LBB16_319
LBB16_311:
	mov	x0, x8
	bl	_memcpy
	mov	w22, wzr
	b	LBB16_95
LBB16_312:
	cmp	w11, #1
	b.ne	LBB16_323
	mov	x9, xzr
	mov	x10, xzr
	b	LBB16_326
LBB16_314:
	add	x8, x19, #21
	mov	w9, #63615
	add	x8, x8, x0
LBB16_315:
	dup	v0.2d, x9
	subs	x13, x13, #4
	stp	q0, q0, [x8, #-16]
	add	x8, x8, #32
	b.ne	LBB16_315
	b	LBB16_346
LBB16_316:
	and	x10, x12, #0x3fffffffc
	add	x11, x19, #21
	and	x13, x12, #0x3fffffffc
	lsl	x9, x10, #3
	add	x11, x11, x0
	mov	w14, #63615
LBB16_317:
	dup	v0.2d, x14
	subs	x13, x13, #4
	stp	q0, q0, [x11, #-16]
	add	x11, x11, #32
	b.ne	LBB16_317
	cmp	x12, x10
	mov	w22, wzr
	b.eq	LBB16_95
LBB16_319:
	sub	x10, x10, x12
	mov	w11, #63615
LBB16_320:
	adds	x10, x10, #1
	str	x11, [x8, x9]
	add	x9, x9, #8
	b.lo	LBB16_320
	mov	w22, wzr
	b	LBB16_95
LBB16_322:
	mov	x0, x8
	bl	_memcpy
	b	LBB16_340
LBB16_323:
	and	x10, x13, #0x1fffffffc
	add	x11, x19, #21
	and	x12, x13, #0x1fffffffc
	lsl	x9, x10, #3
	add	x11, x11, x0
	mov	w14, #63615
LBB16_324:
	dup	v0.2d, x14
	subs	x12, x12, #4
	stp	q0, q0, [x11, #-16]
	add	x11, x11, #32
	b.ne	LBB16_324
	mov	w22, wzr
	cmp	x13, x10
	str	xzr, [sp, #56]
	b.eq	LBB16_95
LBB16_326:
	sub	x10, x10, x13
	mov	w11, #63615
LBB16_327:
	adds	x10, x10, #1
	str	x11, [x8, x9]
	add	x9, x9, #8
	b.lo	LBB16_327
	b	LBB16_340
LBB16_328:
	add	x12, x19, #37
	add	x13, x20, #32
	and	x11, x9, #0x1fffffffc
	add	x12, x12, x0
	add	x10, x13, x10
	and	x13, x9, #0x1fffffffc
LBB16_329:
	ldp	q1, q0, [x10, #-32]
	subs	x13, x13, #4
	ldp	q3, q2, [x10], #64
	rev64	v0.16b, v0.16b
	rev64	v1.16b, v1.16b
	rev64	v2.16b, v2.16b
	rev64	v3.16b, v3.16b
	stp	q1, q0, [x12, #-32]
	stp	q3, q2, [x12], #64
	b.ne	LBB16_329
	cmp	x9, x11
	b.eq	LBB16_333
LBB16_331:
	lsl	x10, x11, #4
	sub	x9, x9, x11
LBB16_332:
	ldr	q0, [x1, x10]
	subs	x9, x9, #1
	rev64	v0.16b, v0.16b
	str	q0, [x8, x10]
	add	x10, x10, #16
	b.ne	LBB16_332
LBB16_333:
	mov	w22, wzr
	tbz	w2, #3, LBB16_95
	and	x9, x2, #0x1ffffffff0
	mov	w22, wzr
	ldr	x10, [x1, x9]
	rev	x10, x10
	str	x10, [x8, x9]
	b	LBB16_95
LBB16_335:
	add	x9, x20, #32
	add	x11, x19, #37
	and	x8, x12, #0xfffffffc
	add	x9, x9, x10
	add	x11, x11, x0
	and	x13, x12, #0xfffffffc
LBB16_336:
	ldp	q1, q0, [x9, #-32]
	subs	x13, x13, #4
	ldp	q3, q2, [x9], #64
	rev64	v0.16b, v0.16b
	rev64	v1.16b, v1.16b
	rev64	v2.16b, v2.16b
	rev64	v3.16b, v3.16b
	stp	q1, q0, [x11, #-32]
	stp	q3, q2, [x11], #64
	b.ne	LBB16_336
	mov	w22, wzr
	cmp	x8, x12
	str	xzr, [sp, #56]
	b.eq	LBB16_95
LBB16_338:
	lsl	x11, x8, #4
	add	x9, x19, #5
	add	x10, x20, x10
	add	x9, x9, x0
	sub	x8, x12, x8
	add	x9, x9, x11
	add	x10, x10, x11
LBB16_339:
	ldr	q0, [x10], #16
	subs	x8, x8, #1
	rev64	v0.16b, v0.16b
	str	q0, [x9], #16
	b.ne	LBB16_339
LBB16_340:
	mov	w22, wzr
	str	xzr, [sp, #56]
	b	LBB16_95
LBB16_341:
	add	x12, x20, #32
	and	x11, x9, #0x1fffffffc
	and	x13, x9, #0x1fffffffc
	add	x10, x12, x10
	add	x12, x19, #37
	add	x12, x12, x0
LBB16_342:
	ldp	q1, q0, [x10, #-32]
	subs	x13, x13, #4
	ldp	q3, q2, [x10], #64
	rev64	v0.16b, v0.16b
	rev64	v1.16b, v1.16b
	rev64	v2.16b, v2.16b
	rev64	v3.16b, v3.16b
	stp	q1, q0, [x12, #-32]
	stp	q3, q2, [x12], #64
	b.ne	LBB16_342
	mov	w22, wzr
	cmp	x9, x11
	mov	w10, #3
	str	x10, [sp, #56]
	b.eq	LBB16_95
LBB16_344:
	lsl	x10, x11, #4
	sub	x9, x11, x9
LBB16_345:
	ldr	q0, [x1, x10]
	adds	x9, x9, #1
	rev64	v0.16b, v0.16b
	str	q0, [x8, x10]
	add	x10, x10, #16
	b.lo	LBB16_345
LBB16_346:
	mov	w8, #3
	mov	w22, wzr
	str	x8, [sp, #56]
	b	LBB16_95
LBB16_347:
	mov	x0, x8
	bl	_memcpy
	mov	w22, wzr
	mov	w8, #3
	b	LBB16_93
LBB16_348:
	mov	w12, #7
	b	LBB16_353
LBB16_349:
	mov	w22, wzr
	mov	w26, wzr
	mov	w10, #7
	b	LBB16_498
LBB16_350:
	mov	w12, #5
	b	LBB16_754
LBB16_351:
	mov	w26, wzr
	mov	w22, wzr
	mov	w10, #7
	cmp	w14, #2
	mov	w27, w4
	b.ne	LBB16_29
	b	LBB16_90
LBB16_352:
	mov	w12, #4
LBB16_353:
	mov	w1, wzr
	mov	w21, wzr
LBB16_354:
	mov	w27, #3
	mov	w30, #5
	mov	w0, #4
	mov	w16, #6
	mov	w17, #7
	mov	w13, #1
	mov	x14, #-9007199254740991
	mov	x15, #-9007199254740992
	adrp	x24, Lswitch.table.wkb_raw_write.374@PAGE
	add	x24, x24, Lswitch.table.wkb_raw_write.374@PAGEOFF
	mov	w25, #4
	mov	w26, #1073741824
	movk	w27, #8192, lsl #16
	movk	w30, #8192, lsl #16
	movk	w0, #8192, lsl #16
	movk	w16, #8192, lsl #16
	movk	w17, #8192, lsl #16
	str	x6, [sp, #56]
LBB16_355:
	mov	w6, w1
LBB16_356:
	mov	w1, w6
	cbz	w21, LBB16_359
	and	x6, x1, #0xff
	ldr	x6, [x24, x6, lsl #3]
LBB16_358:
	ldr	w7, [x20, x23]
	subs	w21, w21, #1
	madd	x7, x6, x7, x23
	add	x23, x7, #4
	b.ne	LBB16_358
LBB16_359:
	cbz	x4, LBB16_496
	sub	x7, x13, x4
	b	LBB16_362
LBB16_361:
	add	x7, x7, #1
	add	x23, x23, #21
	cmp	x7, #1
	b.eq	LBB16_496
LBB16_362:
	add	x21, x20, x23
	ldur	w6, [x21, #1]
	ldrb	w4, [x21]
	subs	w22, w6, #1
	ccmp	w4, #1, #0, eq
	b.ne	LBB16_365
	ldur	x4, [x21, #5]
	cmp	x14, x4, lsl #1
	b.hi	LBB16_361
	add	x4, x20, x23
	ldur	x4, [x4, #13]
	cmp	x15, x4, lsl #1
	b.hs	LBB16_361
	b	LBB16_906
LBB16_365:
	cmp	w22, #6
	b.hi	LBB16_375
	cmp	w4, #1
	b.ne	LBB16_375
	cmp	w6, #1
	b.ne	LBB16_370
	add	x22, x20, x23
	mov	w21, wzr
	add	x23, x23, #21
	ldur	x4, [x22, #5]
	mov	w6, w1
	cmp	x14, x4, lsl #1
	neg	x4, x7
	b.hi	LBB16_356
	ldur	x6, [x22, #13]
	mov	w21, wzr
	cmp	x15, x6, lsl #1
	mov	w6, w1
	b.hs	LBB16_356
	b	LBB16_906
LBB16_370:
	add	x4, x20, x23
	cmp	w6, #3
	ldur	w21, [x4, #5]
	neg	x4, x7
	b.hs	LBB16_372
	add	x6, x23, x21, lsl #4
	add	x23, x6, #9
	b	LBB16_374
LBB16_372:
	mov	w6, wzr
	add	x23, x23, #9
	b.eq	LBB16_356
	sub	x4, x21, x7
LBB16_374:
	mov	w6, w1
	mov	w21, wzr
	b	LBB16_356
LBB16_375:
	ldr	x21, [sp, #24]
	ldr	w22, [sp, #32]
	sub	x21, x21, x23
	mov	x29, x21
	cmp	x21, #5
	b.hs	LBB16_385
LBB16_376:
	mov	w28, wzr
	cbz	w4, LBB16_379
	cmp	w4, #1
	b.ne	LBB16_389
	mov	w28, #1
LBB16_379:
	cmp	x29, #5
	b.lo	LBB16_388
	rev	w4, w6
	tst	w28, #0x1
	mov	w22, #-1073741824
	csel	w21, w6, w4, ne
	ubfx	w4, w21, #30, #1
	and	w29, w21, #0x7fffffff
	add	w22, w29, w22
	cmp	w4, #0
	csel	w4, w29, w22, eq
	lsr	w22, w4, #29
	cmp	w22, #0
	mov	w22, #-536870912
	add	w22, w4, w22
	cset	w29, ne
	csel	w4, w22, w4, ne
	cmp	w4, #3999
	b.hi	LBB16_401
	mov	w22, #35128
	str	w28, [sp, #16]
	mov	w28, #1000
	movk	w22, #65, lsl #16
	umull	x22, w4, w22
	lsr	x22, x22, #32
	msub	w28, w22, w28, w4
	sub	w22, w28, #1
	cmp	w22, #6
	b.hi	LBB16_401
	and	w22, w21, #0x7fffffff
	str	w28, [sp, #32]
	lsr	w22, w22, #30
	tbnz	w21, #31, LBB16_429
	mov	w21, #19923
	ldr	w28, [sp, #16]
	movk	w21, #4194, lsl #16
	umull	x4, w4, w21
	lsr	x4, x4, #38
	str	x4, [sp, #56]
	cbz	w22, LBB16_431
	ldr	x4, [sp, #56]
	mov	w21, #770
	movk	w21, #770, lsl #16
	lsl	w4, w4, #3
	lsr	w4, w21, w4
	b	LBB16_430
LBB16_385:
	cmp	w4, #1
	b.eq	LBB16_390
	cbnz	w4, LBB16_388
	rev	w21, w6
	b	LBB16_391
LBB16_388:
	mov	w28, wzr
LBB16_389:
	mov	w4, #2
	b	LBB16_432
LBB16_390:
	mov	w21, w6
LBB16_391:
	lsr	w22, w21, #29
	cmp	w22, #0
	cset	w28, ne
	cbz	w22, LBB16_396
	cmp	w21, w27
	mov	w22, wzr
	b.le	LBB16_402
	cmp	w21, w30
	b.gt	LBB16_409
	cmp	w21, w0
	b.eq	LBB16_422
	str	w22, [sp, #8]
	ldr	w22, [sp, #32]
	cmp	w21, w30
	b.eq	LBB16_400
	b	LBB16_376
LBB16_396:
	cmp	w21, #3
	b.le	LBB16_405
	cmp	w21, #5
	b.gt	LBB16_411
	cmp	w21, #4
	b.eq	LBB16_421
	cmp	w21, #5
	str	wzr, [sp, #8]
	b.ne	LBB16_416
LBB16_400:
	mov	w21, #5
	str	w21, [sp, #16]
	mov	w21, #4
	b	LBB16_425
LBB16_401:
	ldr	w22, [sp, #32]
	mov	w28, wzr
	mov	w4, #2
	b	LBB16_432
LBB16_402:
	str	w22, [sp, #8]
	mov	w22, #1
	movk	w22, #8192, lsl #16
	cmp	w21, w22
	b.eq	LBB16_414
	mov	w22, #2
	movk	w22, #8192, lsl #16
	cmp	w21, w22
	b.eq	LBB16_426
	ldr	w22, [sp, #32]
	cmp	w21, w27
	b.eq	LBB16_408
	b	LBB16_376
LBB16_405:
	cmp	w21, #1
	b.eq	LBB16_415
	cmp	w21, #2
	b.eq	LBB16_427
	cmp	w21, #3
	str	wzr, [sp, #8]
	b.ne	LBB16_416
LBB16_408:
	ldr	w1, [sp, #8]
	str	x1, [sp, #56]
	b	LBB16_441
LBB16_409:
	cmp	w21, w16
	str	w22, [sp, #8]
	b.eq	LBB16_424
	ldr	w22, [sp, #32]
	cmp	w21, w17
	b.eq	LBB16_413
	b	LBB16_376
LBB16_411:
	cmp	w21, #6
	b.eq	LBB16_423
	cmp	w21, #7
	str	wzr, [sp, #8]
	b.ne	LBB16_416
LBB16_413:
	mov	w21, #7
	str	w21, [sp, #16]
	mov	w21, #6
	b	LBB16_425
LBB16_414:
	ldr	w22, [sp, #8]
	mov	w28, #1
	mov	w21, #4
	b	LBB16_445
LBB16_415:
	mov	w28, wzr
	mov	w22, wzr
	mov	x21, xzr
	b	LBB16_445
LBB16_416:
	sub	w22, w21, #1001
	cmp	w22, #7
	b.hs	LBB16_463
	cmp	w21, #1003
	b.gt	LBB16_468
	cmp	w21, #1001
	b.eq	LBB16_480
	cmp	w21, #1002
	b.eq	LBB16_481
	cmp	w21, #1003
	mov	w21, #1
	b	LBB16_476
LBB16_421:
	mov	w22, wzr
LBB16_422:
	mov	w21, #4
	str	w21, [sp, #16]
	mov	w21, #3
	str	w21, [sp, #32]
	mov	w21, w22
	str	x21, [sp, #56]
	b	LBB16_456
LBB16_423:
	str	wzr, [sp, #8]
LBB16_424:
	mov	w21, #6
	str	w21, [sp, #16]
	mov	w21, #5
LBB16_425:
	str	w21, [sp, #32]
	ldr	w21, [sp, #8]
	str	x21, [sp, #56]
	b	LBB16_456
LBB16_426:
	ldr	w21, [sp, #8]
	b	LBB16_428
LBB16_427:
	mov	w21, wzr
LBB16_428:
	str	x21, [sp, #56]
	b	LBB16_438
LBB16_429:
	cmp	w4, #2000
	mov	w4, #3
	ldr	w28, [sp, #16]
	ccmp	w22, #0, #0, lo
	csinc	w4, w4, wzr, ne
LBB16_430:
	str	x4, [sp, #56]
LBB16_431:
	ldr	w22, [sp, #32]
	mov	x21, #6
	movk	x21, #513, lsl #16
	lsl	w4, w22, #3
	movk	x21, #1027, lsl #32
	cmp	w22, #7
	movk	x21, #5, lsl #48
	lsr	x4, x21, x4
	mov	w21, #6
	csel	w22, w4, w21, lo
	mov	w4, w28
	mov	w28, w29
LBB16_432:
	and	w21, w22, #0xff
	cmp	w21, #2
	b.le	LBB16_436
	cmp	w21, #4
	str	w22, [sp, #32]
	b.gt	LBB16_439
	cmp	w21, #3
	b.ne	LBB16_453
	mov	w21, #4
	b	LBB16_455
LBB16_436:
	cbz	w21, LBB16_444
	cmp	w21, #1
	b.ne	LBB16_441
LBB16_438:
	cmp	w28, #0
	mov	w21, w28
	mov	w29, #2
	csel	x22, x25, xzr, ne
	tst	w4, #0x1
	add	x22, x22, x23
	add	x23, x22, x20
	ldur	w23, [x23, #5]
	rev	w28, w23
	csel	w23, w23, w28, ne
	mov	w28, w21
	add	x21, x22, #9
	mov	w22, #1
	stp	x21, x23, [sp, #8]
	mov	w21, wzr
	str	w22, [sp, #32]
	b	LBB16_446
LBB16_439:
	cmp	w21, #5
	b.ne	LBB16_454
	mov	w21, #6
	b	LBB16_455
LBB16_441:
	cmp	w28, #0
	csel	x1, x25, xzr, ne
	tst	w4, #0x1
	add	x1, x1, x23
	add	x21, x1, x20
	ldur	w21, [x21, #5]
	rev	w22, w21
	csel	w21, w21, w22, ne
	tbnz	w28, #0, LBB16_906
	cmp	w4, #1
	b.ne	LBB16_906
	neg	x4, x7
	ldr	x7, [sp, #56]
	add	x23, x1, #9
	mov	w1, #2
	mov	w29, #3
	str	w1, [sp, #32]
	mov	w1, w7
	b	LBB16_459
LBB16_444:
	cmp	w28, #0
	ldr	x22, [sp, #56]
	csel	x21, x25, xzr, ne
LBB16_445:
	add	x21, x21, x23
	mov	w23, #1
	mov	w29, #1
	add	x21, x21, #5
	str	wzr, [sp, #32]
	stp	x21, x23, [sp, #8]
	mov	w21, w22
	str	x21, [sp, #56]
	mov	w21, #1
LBB16_446:
	cmp	w4, #1
	b.ne	LBB16_906
	ldr	x4, [sp, #56]
	and	x4, x4, #0xff
	ldr	x4, [x24, x4, lsl #3]
	str	x4, [sp]
	cbz	w21, LBB16_451
	ldr	x4, [sp, #56]
	ldr	x22, [sp, #16]
	mov	x21, xzr
	and	x4, x4, #0xff
	ldr	x4, [x24, x4, lsl #3]
	mul	x4, x4, x22
	lsr	x23, x4, #3
	ldr	x4, [sp, #8]
	add	x4, x20, x4
LBB16_449:
	cbz	x23, LBB16_906
	ldr	x22, [x4, x21]
	add	x21, x21, #8
	sub	x23, x23, #1
	cmp	x15, x22, lsl #1
	b.lo	LBB16_449
LBB16_451:
	tbnz	w28, #0, LBB16_906
	ldp	x22, x4, [sp, #8]
	mov	w21, wzr
	ldr	x23, [sp]
	madd	x23, x23, x4, x22
	neg	x4, x7
	ldr	x7, [sp, #56]
	b	LBB16_459
LBB16_453:
	mov	w21, #5
	b	LBB16_455
LBB16_454:
	mov	w21, #7
LBB16_455:
	str	w21, [sp, #16]
LBB16_456:
	cmp	w28, #0
	mov	w29, w28
	csel	x21, x25, xzr, ne
	tst	w4, #0x1
	add	x22, x21, x23
	add	x21, x22, x20
	ldur	w21, [x21, #5]
	rev	w23, w21
	csel	w28, w21, w23, ne
	tbnz	w29, #0, LBB16_906
	cmp	w4, #1
	b.ne	LBB16_906
	sub	x4, x28, x7
	ldr	x7, [sp, #56]
	ldr	w29, [sp, #16]
	mov	w21, wzr
	add	x23, x22, #9
LBB16_459:
	mov	x22, x7
	cmp	w11, #2
	and	w7, w22, #0xff
	str	x22, [sp, #56]
	b.ne	LBB16_461
	mov	w22, #1000
	mul	w7, w7, w22
	b	LBB16_462
LBB16_461:
	tst	w22, #0xfe
	csel	w22, wzr, w26, eq
	orr	w7, w22, w7, lsl #31
LBB16_462:
	orr	w7, w7, w29
	cmp	w6, w7
	b.eq	LBB16_355
	b	LBB16_906
LBB16_463:
	sub	w22, w21, #2001
	cmp	w22, #7
	b.hs	LBB16_471
	cmp	w21, #2003
	b.gt	LBB16_477
	cmp	w21, #2001
	b.eq	LBB16_488
	cmp	w21, #2002
	b.eq	LBB16_489
	cmp	w21, #2003
	mov	w21, #2
	b	LBB16_476
LBB16_468:
	cmp	w21, #1004
	b.eq	LBB16_482
	cmp	w21, #1005
	b.eq	LBB16_483
	cmp	w21, #1006
	mov	w21, #1
	b	LBB16_487
LBB16_471:
	sub	w22, w21, #3001
	cmp	w22, #7
	ldr	w22, [sp, #32]
	b.hs	LBB16_376
	cmp	w21, #3003
	b.gt	LBB16_484
	cmp	w21, #3001
	b.eq	LBB16_492
	cmp	w21, #3002
	b.eq	LBB16_493
	cmp	w21, #3003
	mov	w21, #3
LBB16_476:
	str	w21, [sp, #8]
	b.eq	LBB16_408
	b	LBB16_413
LBB16_477:
	cmp	w21, #2004
	b.eq	LBB16_490
	cmp	w21, #2005
	b.eq	LBB16_491
	cmp	w21, #2006
	mov	w21, #2
	b	LBB16_487
LBB16_480:
	mov	w28, wzr
	mov	x21, xzr
	mov	w22, #1
	b	LBB16_445
LBB16_481:
	mov	w21, #1
	b	LBB16_428
LBB16_482:
	mov	w22, #1
	b	LBB16_422
LBB16_483:
	mov	w21, #1
	str	w21, [sp, #8]
	b	LBB16_400
LBB16_484:
	cmp	w21, #3004
	b.eq	LBB16_494
	cmp	w21, #3005
	b.eq	LBB16_495
	cmp	w21, #3006
	mov	w21, #3
LBB16_487:
	str	w21, [sp, #8]
	b.eq	LBB16_424
	b	LBB16_413
LBB16_488:
	mov	w28, wzr
	mov	x21, xzr
	mov	w22, #2
	b	LBB16_445
LBB16_489:
	mov	w21, #2
	b	LBB16_428
LBB16_490:
	mov	w22, #2
	b	LBB16_422
LBB16_491:
	mov	w21, #2
	str	w21, [sp, #8]
	b	LBB16_400
LBB16_492:
	mov	w28, wzr
	mov	x21, xzr
	mov	w22, #3
	b	LBB16_445
LBB16_493:
	mov	w21, #3
	b	LBB16_428
LBB16_494:
	mov	w22, #3
	b	LBB16_422
LBB16_495:
	mov	w21, #3
	str	w21, [sp, #8]
	b	LBB16_400
LBB16_496:
	mov	w13, #1
	sub	w14, w12, #1
	cmp	w14, #6
	mov	w14, #7
	csel	w12, w12, w14, lo
	cmp	w11, #3
	b.eq	LBB16_906
	b	LBB16_907
LBB16_497:
	mov	w22, wzr
	mov	w26, wzr
	mov	w10, #4
LBB16_498:
	mov	w27, #1
	cmp	w14, #2
	mov	w28, w29
	b.ne	LBB16_48
LBB16_499:
	mov	w9, #1000
	mul	w9, w8, w9
	mov	w8, #1
	strb	w8, [x19]
	orr	w9, w10, w9
	mov	w10, #5
LBB16_500:
	str	w9, [x19, x8]
	mov	x8, x10
LBB16_501:
	add	x24, x8, #4
	str	w29, [x19, x8]
	mov	x8, #9221120237041090560
	dup	v4.2d, x8
	str	x8, [sp, #56]
	str	q4, [sp, #32]
	b	LBB16_503
LBB16_502:
	bl	_memcpy
	ldr	q4, [sp, #32]
LBB16_503:
	mov	x0, x24
	cbnz	w22, LBB16_510
	cbz	x28, LBB16_510
	add	x8, x20, x23
	mov	w11, #16777216
	ldur	w10, [x8, #1]
	ldrb	w9, [x8]
	cmp	w10, w11
	b.ne	LBB16_513
	cbnz	w9, LBB16_513
	ldur	x10, [x8, #5]
	ldur	x8, [x8, #13]
	mov	x12, #-9007199254740991
	sub	x28, x28, #1
	add	x9, x19, x0
	add	x23, x23, #21
	rev	x10, x10
	mov	w11, #1
	add	x24, x0, #21
	cmp	x12, x10, lsl #1
	rev	x8, x8
	strb	w11, [x9]
	stur	w11, [x9, #1]
	b.hi	LBB16_531
	lsl	x11, x8, #1
	cmp	x11, x12
	b.lo	LBB16_531
	mov	w22, wzr
	stur	q4, [x9, #5]
	b	LBB16_503
LBB16_510:
	cbz	w22, LBB16_520
	ldr	w8, [x20, x23]
	and	x9, x26, #0xff
	adrp	x11, Lswitch.table.wkb_raw_write.374@PAGE
	add	x11, x11, Lswitch.table.wkb_raw_write.374@PAGEOFF
	tst	w27, #0x1
	ldr	x16, [sp, #56]
	rev	w10, w8
	ldr	x9, [x11, x9, lsl #3]
	sub	w22, w22, #1
	csel	w11, w8, w10, ne
	add	x10, x23, #4
	add	x8, x0, #4
	madd	x23, x9, x11, x10
	str	w11, [x19, x0]
	mov	w9, w27
	and	w12, w26, #0xff
	str	x16, [sp, #56]
	sub	w13, w12, #1
	cmp	w13, #2
	b.hs	LBB16_668
LBB16_512:
	add	x12, x11, x11, lsl #1
	mov	w13, #24
	lsl	x12, x12, #3
	b	LBB16_672
LBB16_513:
	ldr	x16, [sp, #56]
	cbnz	w9, LBB16_521
	rev	w9, w10
	sub	w8, w9, #1
	cmp	w8, #6
	b.hi	LBB16_521
	mov	w8, #16777216
	cmp	w10, w8
	add	x8, x23, #5
	b.ne	LBB16_532
	sub	x28, x28, #1
	mov	w25, #1
	add	x23, x8, w25, uxtw #4
	sub	w10, w9, #4
	mov	w22, w25
	cmp	w10, #3
	b.lo	LBB16_534
LBB16_517:
	cmp	w9, #1
	mov	x16, #-9007199254740992
	b.eq	LBB16_550
	cmp	w9, #2
	b.ne	LBB16_555
	add	x9, x19, x0
	ubfiz	x10, x22, #4, #32
	mov	w11, #1
	strb	w11, [x9]
	mov	w11, #2
	add	x13, x0, #9
	mov	w25, wzr
	stur	w11, [x9, #1]
	add	x24, x10, x13
	stur	w22, [x9, #5]
	add	x9, x10, x8
	sub	x11, x9, x8
	add	x10, x20, x8
	add	x9, x19, x13
	lsr	x12, x11, #4
	cbnz	x12, LBB16_557
	b	LBB16_564
LBB16_520:
	ldr	x16, [sp, #56]
	cbz	x28, LBB16_948
LBB16_521:
	ldr	x8, [sp, #24]
	add	x12, x20, x23
	sub	x11, x8, x23
	cmp	x11, #5
	b.hs	LBB16_524
	cmp	x8, x23
	b.eq	LBB16_633
	ldrb	w9, [x12]
	b	LBB16_625
LBB16_524:
	ldrb	w9, [x12]
	cmp	w9, #1
	b.eq	LBB16_535
	cbnz	w9, LBB16_625
	ldur	w8, [x12, #1]
	rev	w13, w8
	lsr	w10, w13, #29
	cmp	w10, #0
	cset	w8, ne
	cbz	w10, LBB16_536
LBB16_527:
	mov	w10, #3
	movk	w10, #8192, lsl #16
	cmp	w13, w10
	mov	w10, wzr
	b.le	LBB16_543
	mov	w14, #5
	movk	w14, #8192, lsl #16
	cmp	w13, w14
	b.gt	LBB16_587
	mov	w14, #4
	movk	w14, #8192, lsl #16
	cmp	w13, w14
	b.eq	LBB16_659
	mov	w14, #5
	movk	w14, #8192, lsl #16
	cmp	w13, w14
	b.eq	LBB16_540
	b	LBB16_625
LBB16_531:
	mov	w22, wzr
	stur	x10, [x9, #5]
	stur	x8, [x9, #13]
	b	LBB16_503
LBB16_532:
	ldr	w8, [x20, x8]
	cmp	w9, #3
	sub	x28, x28, #1
	rev	w25, w8
	add	x8, x23, #9
	b.hs	LBB16_541
	add	x23, x8, w25, uxtw #4
	sub	w10, w9, #4
	mov	w22, w25
	cmp	w10, #3
	b.hs	LBB16_517
LBB16_534:
	mov	w25, wzr
	b	LBB16_556
LBB16_535:
	ldur	w13, [x12, #1]
	lsr	w10, w13, #29
	cmp	w10, #0
	cset	w8, ne
	cbnz	w10, LBB16_527
LBB16_536:
	cmp	w13, #3
	b.le	LBB16_546
	cmp	w13, #5
	b.gt	LBB16_589
	cmp	w13, #4
	b.eq	LBB16_659
	cmp	w13, #5
	b.ne	LBB16_597
LBB16_540:
	mov	w12, #5
	mov	w11, #4
	b	LBB16_660
LBB16_541:
	mov	w11, #50331648
	cmp	w10, w11
	b.ne	LBB16_586
	mov	w26, wzr
	mov	w27, wzr
	mov	w9, #3
	mov	w22, w25
	mov	x23, x8
	b	LBB16_556
LBB16_543:
	mov	w14, #1
	movk	w14, #8192, lsl #16
	cmp	w13, w14
	b.eq	LBB16_641
	mov	w14, #2
	movk	w14, #8192, lsl #16
	cmp	w13, w14
	b.eq	LBB16_642
	mov	w14, #3
	movk	w14, #8192, lsl #16
	cmp	w13, w14
	b.eq	LBB16_549
	b	LBB16_625
LBB16_546:
	cmp	w13, #1
	b.eq	LBB16_641
	cmp	w13, #2
	b.eq	LBB16_642
	cmp	w13, #3
	b.ne	LBB16_597
LBB16_549:
	mov	w16, w10
	b	LBB16_650
LBB16_550:
	mov	w10, w22
	add	x9, x19, x0
	mov	w11, #1
	ubfiz	x13, x10, #4, #32
	strb	w11, [x9]
	add	x15, x0, #5
	stur	w11, [x9, #1]
	ubfiz	x11, x10, #1, #32
	mov	x12, xzr
	mov	w9, w22
	add	x14, x20, x8
	add	x24, x13, x15
	add	x10, x19, x15
LBB16_551:
	cmp	x13, x12
	b.eq	LBB16_592
	ldr	x15, [x14, x12]
	add	x12, x12, #8
	rev	x15, x15
	cmp	x16, x15, lsl #1
	b.lo	LBB16_551
	cmp	w22, #4
	b.hs	LBB16_602
	mov	x10, xzr
	b	LBB16_605
LBB16_555:
	mov	w25, wzr
	mov	w9, #7
LBB16_556:
	add	x10, x19, x0
	mov	w11, #1
	add	x13, x0, #9
	strb	w11, [x10]
	add	x24, x0, #9
	stur	w9, [x10, #1]
	stur	w22, [x10, #5]
	sub	x11, x8, x8
	add	x10, x20, x8
	add	x9, x19, x13
	lsr	x12, x11, #4
	cbz	x12, LBB16_564
LBB16_557:
	cmp	x11, #64
	b.hs	LBB16_559
	mov	x13, xzr
	b	LBB16_562
LBB16_559:
	add	x14, x20, #32
	and	x13, x12, #0xffffffffffffffc
	and	x15, x12, #0xffffffffffffffc
	add	x8, x14, x8
	add	x14, x19, #41
	add	x14, x14, x0
LBB16_560:
	ldp	q1, q0, [x8, #-32]
	subs	x15, x15, #4
	ldp	q3, q2, [x8], #64
	rev64	v0.16b, v0.16b
	rev64	v1.16b, v1.16b
	rev64	v2.16b, v2.16b
	rev64	v3.16b, v3.16b
	stp	q1, q0, [x14, #-32]
	stp	q3, q2, [x14], #64
	b.ne	LBB16_560
	cmp	x12, x13
	b.eq	LBB16_564
LBB16_562:
	lsl	x8, x13, #4
	sub	x12, x12, x13
LBB16_563:
	ldr	q0, [x10, x8]
	subs	x12, x12, #1
	rev64	v0.16b, v0.16b
	str	q0, [x9, x8]
	add	x8, x8, #16
	b.ne	LBB16_563
LBB16_564:
	tbz	w11, #3, LBB16_566
	and	x8, x11, #0x7ffffffffffffff0
	ldr	x10, [x10, x8]
	rev	x10, x10
	str	x10, [x9, x8]
LBB16_566:
	mov	w22, wzr
	cbnz	w25, LBB16_569
	b	LBB16_503
LBB16_567:
	add	x0, x19, x21
	add	x1, x20, x29
	mov	x2, x22
	bl	_memcpy
	ldr	q4, [sp, #32]
LBB16_568:
	sub	w25, w25, #1
	add	x23, x22, x29
	add	x24, x22, x21
	cbz	w25, LBB16_585
LBB16_569:
	ldr	w9, [x20, x23]
	and	w8, w26, #0xff
	tst	w27, #0x1
	sub	w11, w8, #1
	rev	w10, w9
	csel	w10, w9, w10, ne
	cmp	w11, #2
	b.hs	LBB16_571
	add	x8, x10, x10, lsl #1
	mov	w11, #24
	lsl	x22, x8, #3
	b	LBB16_574
LBB16_571:
	cmp	w8, #3
	b.ne	LBB16_573
	lsl	x22, x10, #5
	mov	w11, #32
	b	LBB16_574
LBB16_573:
	lsl	x22, x10, #4
	mov	w11, #16
LBB16_574:
	and	w8, w27, #0xff
	add	x29, x23, #4
	add	x21, x24, #4
	cmp	w8, #1
	add	x8, x19, x21
	add	x9, x20, x29
	str	w10, [x19, x24]
	b.eq	LBB16_567
	umull	x10, w11, w10
	lsr	x11, x10, #4
	cbz	x11, LBB16_583
	cmp	x10, #64
	b.hs	LBB16_578
	mov	x12, xzr
	b	LBB16_581
LBB16_578:
	add	x13, x20, #36
	add	x14, x19, #36
	and	x12, x11, #0x3fffffffc
	add	x13, x13, x23
	add	x14, x14, x24
	and	x15, x11, #0x3fffffffc
LBB16_579:
	ldp	q1, q0, [x13, #-32]
	subs	x15, x15, #4
	ldp	q3, q2, [x13], #64
	rev64	v0.16b, v0.16b
	rev64	v1.16b, v1.16b
	rev64	v2.16b, v2.16b
	rev64	v3.16b, v3.16b
	stp	q1, q0, [x14, #-32]
	stp	q3, q2, [x14], #64
	b.ne	LBB16_579
	cmp	x11, x12
	b.eq	LBB16_583
LBB16_581:
	lsl	x13, x12, #4
	sub	x11, x11, x12
LBB16_582:
	ldr	q0, [x9, x13]
	subs	x11, x11, #1
	rev64	v0.16b, v0.16b
	str	q0, [x8, x13]
	add	x13, x13, #16
	b.ne	LBB16_582
LBB16_583:
	tbz	w10, #3, LBB16_568
	and	x10, x10, #0x3ffffffff0
	ldr	x9, [x9, x10]
	rev	x9, x9
	str	x9, [x8, x10]
	b	LBB16_568
LBB16_585:
	mov	w22, wzr
	b	LBB16_503
LBB16_586:
	add	x28, x28, w25, uxtw
	mov	x23, x8
	sub	w10, w9, #4
	mov	w22, w25
	cmp	w10, #3
	b.lo	LBB16_534
	b	LBB16_517
LBB16_587:
	mov	w14, #6
	movk	w14, #8192, lsl #16
	cmp	w13, w14
	b.eq	LBB16_658
	mov	w14, #7
	movk	w14, #8192, lsl #16
	cmp	w13, w14
	b.eq	LBB16_591
	b	LBB16_625
LBB16_589:
	cmp	w13, #6
	b.eq	LBB16_658
	cmp	w13, #7
	b.ne	LBB16_597
LBB16_591:
	mov	w12, #7
	mov	w11, #6
	b	LBB16_660
LBB16_592:
	cmp	w22, #1
	b.eq	LBB16_613
	cbz	w22, LBB16_503
	and	x9, x11, #0x1fffffffc
	add	x12, x19, #21
	and	x13, x11, #0x1fffffffc
	lsl	x8, x9, #3
	add	x12, x12, x0
LBB16_595:
	subs	x13, x13, #4
	stp	q4, q4, [x12, #-16]
	add	x12, x12, #32
	b.ne	LBB16_595
	cmp	x11, x9
	mov	w22, wzr
	b.eq	LBB16_503
	b	LBB16_614
LBB16_597:
	sub	w10, w13, #1001
	cmp	w10, #7
	b.hs	LBB16_608
	cmp	w13, #1003
	mov	w10, #1
	b.gt	LBB16_617
	cmp	w13, #1001
	b.eq	LBB16_641
	cmp	w13, #1002
	b.eq	LBB16_642
	cmp	w13, #1003
	b.eq	LBB16_549
	b	LBB16_591
LBB16_602:
	add	x11, x20, #32
	add	x12, x19, #37
	and	x10, x9, #0xfffffffc
	add	x11, x11, x8
	add	x12, x12, x0
	and	x13, x9, #0xfffffffc
LBB16_603:
	ldp	q1, q0, [x11, #-32]
	subs	x13, x13, #4
	ldp	q3, q2, [x11], #64
	rev64	v0.16b, v0.16b
	rev64	v1.16b, v1.16b
	rev64	v2.16b, v2.16b
	rev64	v3.16b, v3.16b
	stp	q1, q0, [x12, #-32]
	stp	q3, q2, [x12], #64
	b.ne	LBB16_603
	cmp	x10, x9
	mov	w22, wzr
	b.eq	LBB16_503
LBB16_605:
	lsl	x11, x10, #4
	add	x12, x19, #5
	add	x13, x20, x8
	add	x12, x12, x0
	sub	x9, x9, x10
	add	x8, x12, x11
	add	x11, x13, x11
LBB16_606:
	ldr	q0, [x11], #16
	subs	x9, x9, #1
	rev64	v0.16b, v0.16b
	str	q0, [x8], #16
	b.ne	LBB16_606
	mov	w22, wzr
	b	LBB16_503
LBB16_608:
	sub	w10, w13, #2001
	cmp	w10, #7
	b.hs	LBB16_620
	cmp	w13, #2003
	mov	w10, #2
	b.gt	LBB16_652
	cmp	w13, #2001
	b.eq	LBB16_641
	cmp	w13, #2002
	b.eq	LBB16_642
	cmp	w13, #2003
	b.eq	LBB16_549
	b	LBB16_591
LBB16_613:
	mov	x8, xzr
	mov	x9, xzr
LBB16_614:
	sub	x9, x9, x11
	mov	x11, #9221120237041090560
LBB16_615:
	adds	x9, x9, #1
	str	x11, [x10, x8]
	add	x8, x8, #8
	b.lo	LBB16_615
	mov	w22, wzr
	b	LBB16_503
LBB16_617:
	cmp	w13, #1004
	b.eq	LBB16_659
	cmp	w13, #1005
	b.eq	LBB16_540
	cmp	w13, #1006
	b.eq	LBB16_658
	b	LBB16_591
LBB16_620:
	sub	w10, w13, #3001
	cmp	w10, #7
	b.hs	LBB16_625
	cmp	w13, #3003
	mov	w10, #3
	b.gt	LBB16_655
	cmp	w13, #3001
	b.eq	LBB16_641
	cmp	w13, #3002
	b.eq	LBB16_642
	cmp	w13, #3003
	b.eq	LBB16_549
	b	LBB16_591
LBB16_625:
	cbz	w9, LBB16_627
	cmp	w9, #1
	b.ne	LBB16_633
LBB16_627:
	cmp	x11, #5
	b.lo	LBB16_633
	ldur	w8, [x12, #1]
	cmp	w9, #0
	rev	w10, w8
	csel	w12, w8, w10, ne
	mov	w10, #-1073741824
	ubfx	w8, w12, #30, #1
	and	w11, w12, #0x7fffffff
	add	w10, w11, w10
	cmp	w8, #0
	csel	w8, w11, w10, eq
	lsr	w10, w8, #29
	cmp	w10, #0
	mov	w10, #-536870912
	add	w10, w8, w10
	csel	w13, w10, w8, ne
	cset	w8, ne
	cmp	w13, #3999
	b.hi	LBB16_633
	mov	w10, #35128
	mov	w14, #1000
	movk	w10, #65, lsl #16
	umull	x10, w13, w10
	lsr	x10, x10, #32
	msub	w10, w10, w14, w13
	sub	w14, w10, #1
	cmp	w14, #6
	b.hi	LBB16_633
	tbnz	w12, #31, LBB16_643
	mov	w12, #19923
	lsr	w11, w11, #30
	movk	w12, #4194, lsl #16
	umull	x12, w13, w12
	lsr	x16, x12, #38
	cbz	w11, LBB16_644
	lsl	w11, w16, #3
	mov	w12, #770
	movk	w12, #770, lsl #16
	lsr	w16, w12, w11
	b	LBB16_644
LBB16_633:
	ldr	w8, [sp, #8]
	mov	w9, #2
	ldr	w10, [sp]
	and	w10, w10, #0xff
	cmp	w10, #2
	b.le	LBB16_645
LBB16_634:
	cmp	w10, #4
	b.gt	LBB16_637
	cmp	w10, #3
	b.ne	LBB16_639
	mov	w12, #4
	b	LBB16_661
LBB16_637:
	cmp	w10, #5
	b.ne	LBB16_640
	mov	w12, #6
	b	LBB16_661
LBB16_639:
	mov	w12, #5
	b	LBB16_661
LBB16_640:
	mov	w12, #7
	b	LBB16_661
LBB16_641:
	mov	w16, w10
	b	LBB16_648
LBB16_642:
	mov	w16, w10
	b	LBB16_647
LBB16_643:
	lsr	w11, w11, #30
	cmp	w13, #2000
	ccmp	w11, #0, #0, lo
	mov	w11, #3
	csinc	w16, w11, wzr, ne
LBB16_644:
	mov	x12, #6
	lsl	w11, w10, #3
	cmp	w10, #7
	movk	x12, #513, lsl #16
	mov	w10, #6
	movk	x12, #1027, lsl #32
	movk	x12, #5, lsl #48
	lsr	x11, x12, x11
	csel	w10, w11, w10, lo
	str	w10, [sp]
	mov	w10, w10
	and	w10, w10, #0xff
	cmp	w10, #2
	b.gt	LBB16_634
LBB16_645:
	cbz	w10, LBB16_648
	cmp	w10, #1
	b.ne	LBB16_650
LBB16_647:
	tst	w8, #0x1
	mov	w10, #4
	mov	w13, #1
	csel	x10, x10, xzr, ne
	tst	w9, #0x1
	str	w13, [sp]
	add	x10, x23, x10
	add	x11, x10, x20
	add	x10, x10, #9
	ldur	w11, [x11, #5]
	rev	w12, w11
	csel	w11, w11, w12, ne
	mov	w12, #2
	b	LBB16_649
LBB16_648:
	tst	w8, #0x1
	mov	w10, #4
	str	wzr, [sp]
	csel	x10, x10, xzr, ne
	mov	w11, #1
	mov	w12, #1
	add	x10, x23, x10
	add	x10, x10, #5
LBB16_649:
	mov	w13, w16
	adrp	x14, Lswitch.table.wkb_raw_write.374@PAGE
	add	x14, x14, Lswitch.table.wkb_raw_write.374@PAGEOFF
	and	x13, x13, #0xff
	sub	x28, x28, #1
	str	w8, [sp, #8]
	ldr	x13, [x14, x13, lsl #3]
	mov	w14, w11
	madd	x23, x13, x14, x10
	mov	w13, #1
	sub	w8, w12, #4
	cmp	w8, #3
	b.hs	LBB16_662
	b	LBB16_664
LBB16_650:
	tst	w8, #0x1
	mov	w10, #4
	mov	w15, #2
	csel	x10, x10, xzr, ne
	tst	w9, #0x1
	mov	w13, wzr
	add	x10, x23, x10
	sub	x28, x28, #1
	mov	w12, #3
	add	x11, x10, x20
	add	x10, x10, #9
	str	w15, [sp]
	ldur	w11, [x11, #5]
	str	w8, [sp, #8]
	mov	w26, w16
	mov	w27, w9
	mov	x23, x10
	rev	w14, w11
	csel	w11, w11, w14, ne
	mov	w22, w11
	ldr	w8, [sp, #16]
	cmp	w8, #2
	and	w8, w16, #0xff
	b.eq	LBB16_665
LBB16_651:
	tst	w16, #0xfe
	mov	w14, #1073741824
	csel	w14, wzr, w14, eq
	orr	w8, w14, w8, lsl #31
	b	LBB16_666
LBB16_652:
	cmp	w13, #2004
	b.eq	LBB16_659
	cmp	w13, #2005
	b.eq	LBB16_540
	cmp	w13, #2006
	b.eq	LBB16_658
	b	LBB16_591
LBB16_655:
	cmp	w13, #3004
	b.eq	LBB16_659
	cmp	w13, #3005
	b.eq	LBB16_540
	cmp	w13, #3006
	b.ne	LBB16_591
LBB16_658:
	mov	w12, #6
	mov	w11, #5
	b	LBB16_660
LBB16_659:
	mov	w12, #4
	mov	w11, #3
LBB16_660:
	str	w11, [sp]
	mov	w16, w10
LBB16_661:
	tst	w8, #0x1
	mov	w10, #4
	mov	w13, wzr
	csel	x10, x10, xzr, ne
	tst	w9, #0x1
	str	w8, [sp, #8]
	add	x10, x23, x10
	add	x11, x10, x20
	add	x10, x10, #9
	ldur	w11, [x11, #5]
	mov	x23, x10
	rev	w14, w11
	csel	w11, w11, w14, ne
	add	x14, x28, x11
	sub	x28, x14, #1
	sub	w8, w12, #4
	cmp	w8, #3
	b.lo	LBB16_664
LBB16_662:
	cmp	w12, #1
	b.eq	LBB16_683
	cmp	w12, #2
	b.ne	LBB16_685
LBB16_664:
	mov	w22, wzr
	ldr	w8, [sp, #16]
	cmp	w8, #2
	and	w8, w16, #0xff
	b.ne	LBB16_651
LBB16_665:
	mov	w14, #1000
	mul	w8, w8, w14
LBB16_666:
	add	x14, x19, x0
	orr	w8, w8, w12
	mov	w12, #1
	add	x24, x0, #9
	strb	w12, [x14]
	stur	w8, [x14, #1]
	stur	w11, [x14, #5]
	cbz	w13, LBB16_670
	mov	w11, w11
	mov	x8, x24
	and	w12, w16, #0xff
	str	x16, [sp, #56]
	sub	w13, w12, #1
	cmp	w13, #2
	b.lo	LBB16_512
LBB16_668:
	cmp	w12, #3
	b.ne	LBB16_671
	lsl	x12, x11, #5
	mov	w13, #32
	b	LBB16_672
LBB16_670:
	str	x16, [sp, #56]
	mov	x2, xzr
	mov	x8, x24
	and	w9, w9, #0xff
	add	x0, x19, x24
	add	x1, x20, x10
	cmp	w9, #1
	b.ne	LBB16_673
	b	LBB16_502
LBB16_671:
	lsl	x12, x11, #4
	mov	w13, #16
LBB16_672:
	umull	x2, w13, w11
	add	x24, x12, x8
	and	w9, w9, #0xff
	add	x0, x19, x8
	add	x1, x20, x10
	cmp	w9, #1
	b.eq	LBB16_502
LBB16_673:
	lsr	x9, x2, #4
	cbz	x9, LBB16_681
	cmp	x2, #64
	b.hs	LBB16_676
	mov	x11, xzr
	b	LBB16_679
LBB16_676:
	add	x12, x20, #32
	and	x11, x9, #0x3fffffffc
	add	x10, x12, x10
	add	x12, x19, #32
	add	x8, x12, x8
	and	x12, x9, #0x3fffffffc
LBB16_677:
	ldp	q1, q0, [x10, #-32]
	subs	x12, x12, #4
	ldp	q3, q2, [x10], #64
	rev64	v0.16b, v0.16b
	rev64	v1.16b, v1.16b
	rev64	v2.16b, v2.16b
	rev64	v3.16b, v3.16b
	stp	q1, q0, [x8, #-32]
	stp	q3, q2, [x8], #64
	b.ne	LBB16_677
	cmp	x9, x11
	b.eq	LBB16_681
LBB16_679:
	lsl	x8, x11, #4
	sub	x9, x9, x11
LBB16_680:
	ldr	q0, [x1, x8]
	subs	x9, x9, #1
	rev64	v0.16b, v0.16b
	str	q0, [x0, x8]
	add	x8, x8, #16
	b.ne	LBB16_680
LBB16_681:
	tbz	w2, #3, LBB16_503
	and	x8, x2, #0x3ffffffff0
	ldr	x9, [x1, x8]
	rev	x9, x9
	str	x9, [x0, x8]
	b	LBB16_503
LBB16_683:
	ldr	w8, [sp, #16]
	cmp	w8, #2
	and	w8, w16, #0xff
	b.ne	LBB16_686
	mov	w12, #1000
	mul	w8, w8, w12
	b	LBB16_687
LBB16_685:
	mov	w22, wzr
	mov	w12, #7
	ldr	w8, [sp, #16]
	cmp	w8, #2
	and	w8, w16, #0xff
	b.eq	LBB16_665
	b	LBB16_651
LBB16_686:
	tst	w16, #0xfe
	mov	w12, #1073741824
	csel	w12, wzr, w12, eq
	orr	w8, w12, w8, lsl #31
LBB16_687:
	add	x12, x19, x0
	and	w14, w16, #0xff
	mov	w13, #1
	orr	w8, w8, #0x1
	strb	w13, [x12]
	sub	w15, w14, #1
	add	x13, x0, #5
	stur	w8, [x12, #1]
	cmp	w15, #2
	mov	w12, w11
	add	x1, x20, x10
	add	x8, x19, x13
	b.hs	LBB16_697
	add	x12, x12, x12, lsl #1
	mov	w22, wzr
	str	x16, [sp, #56]
	lsl	x2, x12, #3
	add	x24, x2, x13
	cbz	w11, LBB16_503
	ubfx	x12, x12, #0, #61
	mov	x13, xzr
	mov	x15, #-9007199254740991
	mov	x16, #-9007199254740992
	b	LBB16_692
LBB16_690:
	cmp	x15, x14, lsl #1
	b.hi	LBB16_716
LBB16_691:
	add	x13, x13, #8
	cmp	x2, x13
	b.eq	LBB16_714
LBB16_692:
	ldr	x14, [x1, x13]
	tbnz	w9, #0, LBB16_690
	rev	x14, x14
	cmp	x16, x14, lsl #1
	b.lo	LBB16_691
	lsr	x9, x2, #4
	cbz	x9, LBB16_739
	cmp	w11, #3
	b.hs	LBB16_734
	mov	x11, xzr
	b	LBB16_737
LBB16_697:
	mov	w22, wzr
	cbnz	w14, LBB16_706
	lsl	x2, x12, #4
	str	xzr, [sp, #56]
	add	x24, x2, x13
	cbz	w11, LBB16_503
	lsl	x13, x12, #1
	mov	x14, xzr
	mov	x16, #-9007199254740991
	mov	x17, #-9007199254740992
	b	LBB16_702
LBB16_700:
	cmp	x16, x15, lsl #1
	b.hi	LBB16_727
LBB16_701:
	add	x14, x14, #8
	cmp	x2, x14
	b.eq	LBB16_717
LBB16_702:
	ldr	x15, [x1, x14]
	tbnz	w9, #0, LBB16_700
	rev	x15, x15
	cmp	x17, x15, lsl #1
	b.lo	LBB16_701
	cmp	w11, #4
	b.hs	LBB16_741
	mov	x8, xzr
	b	LBB16_744
LBB16_706:
	lsl	x2, x12, #5
	add	x24, x2, x13
	mov	w13, #3
	str	x13, [sp, #56]
	cbz	w11, LBB16_503
	lsl	x13, x12, #2
	mov	x14, xzr
	mov	x16, #-9007199254740991
	mov	x17, #-9007199254740992
	b	LBB16_710
LBB16_708:
	cmp	x16, x15, lsl #1
	b.hi	LBB16_728
LBB16_709:
	add	x14, x14, #8
	cmp	x2, x14
	b.eq	LBB16_719
LBB16_710:
	ldr	x15, [x1, x14]
	tbnz	w9, #0, LBB16_708
	rev	x15, x15
	cmp	x17, x15, lsl #1
	b.lo	LBB16_709
	lsl	x9, x12, #1
	cmp	w11, #1
	b.ne	LBB16_747
	mov	x11, xzr
	b	LBB16_750
LBB16_714:
	cmp	w11, #1
	b.ne	LBB16_721
	mov	x9, xzr
	mov	x10, xzr
	b	LBB16_724
LBB16_716:
	mov	x0, x8
	bl	_memcpy
	ldr	q4, [sp, #32]
	mov	w22, wzr
	b	LBB16_503
LBB16_717:
	cmp	w11, #1
	b.ne	LBB16_729
	mov	x9, xzr
	mov	x10, xzr
	b	LBB16_732
LBB16_719:
	add	x8, x19, #21
	add	x8, x8, x0
LBB16_720:
	subs	x13, x13, #4
	stp	q4, q4, [x8, #-16]
	add	x8, x8, #32
	b.ne	LBB16_720
	b	LBB16_752
LBB16_721:
	and	x10, x12, #0x3fffffffc
	add	x11, x19, #21
	and	x13, x12, #0x3fffffffc
	lsl	x9, x10, #3
	add	x11, x11, x0
LBB16_722:
	subs	x13, x13, #4
	stp	q4, q4, [x11, #-16]
	add	x11, x11, #32
	b.ne	LBB16_722
	cmp	x12, x10
	mov	w22, wzr
	b.eq	LBB16_503
LBB16_724:
	sub	x10, x10, x12
	mov	x11, #9221120237041090560
LBB16_725:
	adds	x10, x10, #1
	str	x11, [x8, x9]
	add	x9, x9, #8
	b.lo	LBB16_725
	mov	w22, wzr
	b	LBB16_503
LBB16_727:
	mov	x0, x8
	bl	_memcpy
	ldr	q4, [sp, #32]
	b	LBB16_746
LBB16_728:
	mov	x0, x8
	bl	_memcpy
	ldr	q4, [sp, #32]
	mov	w8, #3
	mov	w22, wzr
	str	x8, [sp, #56]
	b	LBB16_503
LBB16_729:
	and	x10, x13, #0x1fffffffc
	add	x11, x19, #21
	and	x12, x13, #0x1fffffffc
	lsl	x9, x10, #3
	add	x11, x11, x0
LBB16_730:
	subs	x12, x12, #4
	stp	q4, q4, [x11, #-16]
	add	x11, x11, #32
	b.ne	LBB16_730
	mov	w22, wzr
	cmp	x13, x10
	str	xzr, [sp, #56]
	b.eq	LBB16_503
LBB16_732:
	sub	x10, x10, x13
	mov	x11, #9221120237041090560
LBB16_733:
	adds	x10, x10, #1
	str	x11, [x8, x9]
	add	x9, x9, #8
	b.lo	LBB16_733
	b	LBB16_746
LBB16_734:
	add	x12, x19, #37
	add	x13, x20, #32
	and	x11, x9, #0x1fffffffc
	add	x12, x12, x0
	add	x10, x13, x10
	and	x13, x9, #0x1fffffffc
LBB16_735:
	ldp	q1, q0, [x10, #-32]
	subs	x13, x13, #4
	ldp	q3, q2, [x10], #64
	rev64	v0.16b, v0.16b
	rev64	v1.16b, v1.16b
	rev64	v2.16b, v2.16b
	rev64	v3.16b, v3.16b
	stp	q1, q0, [x12, #-32]
	stp	q3, q2, [x12], #64
	b.ne	LBB16_735
	cmp	x9, x11
	b.eq	LBB16_739
LBB16_737:
	lsl	x10, x11, #4
	sub	x9, x9, x11
LBB16_738:
	ldr	q0, [x1, x10]
	subs	x9, x9, #1
	rev64	v0.16b, v0.16b
	str	q0, [x8, x10]
	add	x10, x10, #16
	b.ne	LBB16_738
LBB16_739:
	mov	w22, wzr
	tbz	w2, #3, LBB16_503
	and	x9, x2, #0x1ffffffff0
	mov	w22, wzr
	ldr	x10, [x1, x9]
	rev	x10, x10
	str	x10, [x8, x9]
	b	LBB16_503
LBB16_741:
	add	x9, x20, #32
	add	x11, x19, #37
	and	x8, x12, #0xfffffffc
	add	x9, x9, x10
	add	x11, x11, x0
	and	x13, x12, #0xfffffffc
LBB16_742:
	ldp	q1, q0, [x9, #-32]
	subs	x13, x13, #4
	ldp	q3, q2, [x9], #64
	rev64	v0.16b, v0.16b
	rev64	v1.16b, v1.16b
	rev64	v2.16b, v2.16b
	rev64	v3.16b, v3.16b
	stp	q1, q0, [x11, #-32]
	stp	q3, q2, [x11], #64
	b.ne	LBB16_742
	mov	w22, wzr
	cmp	x8, x12
	str	xzr, [sp, #56]
	b.eq	LBB16_503
LBB16_744:
	lsl	x11, x8, #4
	add	x9, x19, #5
	add	x10, x20, x10
	add	x9, x9, x0
	sub	x8, x12, x8
	add	x9, x9, x11
	add	x10, x10, x11
LBB16_745:
	ldr	q0, [x10], #16
	subs	x8, x8, #1
	rev64	v0.16b, v0.16b
	str	q0, [x9], #16
	b.ne	LBB16_745
LBB16_746:
	mov	w22, wzr
	str	xzr, [sp, #56]
	b	LBB16_503
LBB16_747:
	add	x12, x20, #32
	and	x11, x9, #0x1fffffffc
	and	x13, x9, #0x1fffffffc
	add	x10, x12, x10
	add	x12, x19, #37
	add	x12, x12, x0
LBB16_748:
	ldp	q1, q0, [x10, #-32]
	subs	x13, x13, #4
	ldp	q3, q2, [x10], #64
	rev64	v0.16b, v0.16b
	rev64	v1.16b, v1.16b
	rev64	v2.16b, v2.16b
	rev64	v3.16b, v3.16b
	stp	q1, q0, [x12, #-32]
	stp	q3, q2, [x12], #64
	b.ne	LBB16_748
	mov	w22, wzr
	cmp	x9, x11
	mov	w10, #3
	str	x10, [sp, #56]
	b.eq	LBB16_503
LBB16_750:
	lsl	x10, x11, #4
	sub	x9, x11, x9
LBB16_751:
	ldr	q0, [x1, x10]
	adds	x9, x9, #1
	rev64	v0.16b, v0.16b
	str	q0, [x8, x10]
	add	x10, x10, #16
	b.lo	LBB16_751
LBB16_752:
	mov	w8, #3
	mov	w22, wzr
	str	x8, [sp, #56]
	b	LBB16_503
LBB16_753:
	mov	w12, #4
LBB16_754:
	mov	w25, wzr
	mov	w30, wzr
	mov	w26, #1
LBB16_755:
	mov	w24, #7
	mov	w13, #1
	mov	w14, #16777216
	mov	x15, #-9007199254740991
	mov	x16, #-9007199254740992
	mov	w17, #7
	mov	w0, #50331648
	adrp	x27, Lswitch.table.wkb_raw_write.374@PAGE
	add	x27, x27, Lswitch.table.wkb_raw_write.374@PAGEOFF
	mov	w28, #4
	mov	w22, #1073741824
	movk	w24, #8192, lsl #16
	str	x1, [sp, #56]
LBB16_756:
	cbz	w30, LBB16_762
	cbnz	w26, LBB16_906
	ldr	w4, [x20, x23]
	and	x6, x25, #0xff
	ldr	x6, [x27, x6, lsl #3]
	rev	w4, w4
	madd	x6, x6, x4, x23
	subs	w4, w30, #1
	add	x23, x6, #4
	b.eq	LBB16_761
	mov	w6, w25
	and	x6, x6, #0xff
	ldr	x6, [x27, x6, lsl #3]
LBB16_760:
	ldr	w7, [x20, x23]
	subs	w4, w4, #1
	rev	w7, w7
	madd	x7, x6, x7, x23
	add	x23, x7, #4
	b.ne	LBB16_760
LBB16_761:
	mov	w26, wzr
LBB16_762:
	cbz	x29, LBB16_905
	sub	x6, x13, x29
	b	LBB16_765
LBB16_764:
	add	x6, x6, #1
	add	x23, x23, #21
	cmp	x6, #1
	b.eq	LBB16_905
LBB16_765:
	add	x4, x20, x23
	ldur	w7, [x4, #1]
	ldrb	w1, [x4]
	cmp	w7, w14
	ccmp	w1, #0, #0, eq
	b.ne	LBB16_768
	ldur	x1, [x4, #5]
	rev	x1, x1
	cmp	x15, x1, lsl #1
	b.hi	LBB16_764
	add	x1, x20, x23
	ldur	x1, [x1, #13]
	rev	x1, x1
	cmp	x16, x1, lsl #1
	b.hs	LBB16_764
	b	LBB16_906
LBB16_768:
	rev	w21, w7
	cbnz	w1, LBB16_781
	sub	w4, w21, #1
	cmp	w4, #6
	b.hi	LBB16_781
	cmp	w7, w14
	b.ne	LBB16_773
	add	x7, x20, x23
	neg	x29, x6
	add	x23, x23, #21
	ldur	x1, [x7, #5]
	rev	x1, x1
	cmp	x15, x1, lsl #1
	b.hi	LBB16_778
	ldur	x6, [x7, #13]
	rev	x6, x6
	cmp	x16, x6, lsl #1
	b.hs	LBB16_778
	b	LBB16_906
LBB16_773:
	add	x1, x20, x23
	cmp	w21, #3
	neg	x29, x6
	ldur	w1, [x1, #5]
	rev	w30, w1
	b.hs	LBB16_775
	add	x4, x23, w30, uxtw #4
	mov	w30, wzr
	add	x23, x4, #9
	mov	w4, #2
	b	LBB16_780
LBB16_775:
	cmp	w7, w0
	add	x23, x23, #9
	b.ne	LBB16_777
	mov	w25, wzr
	mov	w26, wzr
	b	LBB16_779
LBB16_777:
	sub	x29, x30, x6
LBB16_778:
	mov	w30, wzr
LBB16_779:
	cmp	w4, #6
	csel	w4, w21, w17, lo
LBB16_780:
	cmp	w21, w4
	b.eq	LBB16_756
	b	LBB16_906
LBB16_781:
	ldr	x4, [sp, #24]
	sub	x4, x4, x23
	cmp	x4, #5
	str	x4, [sp, #16]
	b.hs	LBB16_785
LBB16_782:
	mov	w30, wzr
	cbz	w1, LBB16_788
	ldr	w4, [sp, #32]
	cmp	w1, #1
	b.ne	LBB16_797
	mov	w30, #1
	b	LBB16_789
LBB16_785:
	cbz	w1, LBB16_798
	cmp	w1, #1
	b.ne	LBB16_796
	mov	w30, w7
	b	LBB16_799
LBB16_788:
	ldr	w4, [sp, #32]
LBB16_789:
	ldr	x1, [sp, #16]
	cmp	x1, #5
	b.hs	LBB16_791
	mov	w29, wzr
	mov	w1, #2
	b	LBB16_843
LBB16_791:
	tst	w30, #0x1
	mov	w29, w30
	mov	w4, #-1073741824
	csel	w30, w7, w21, ne
	ubfx	w1, w30, #30, #1
	and	w7, w30, #0x7fffffff
	add	w4, w7, w4
	cmp	w1, #0
	csel	w1, w7, w4, eq
	lsr	w4, w1, #29
	cmp	w4, #0
	mov	w4, #-536870912
	add	w4, w1, w4
	csel	w4, w4, w1, ne
	cset	w1, ne
	cmp	w4, #3999
	b.hi	LBB16_796
	str	w1, [sp, #16]
	mov	w1, #35128
	movk	w1, #65, lsl #16
	str	w29, [sp, #8]
	mov	w29, #1000
	umull	x1, w4, w1
	lsr	x1, x1, #32
	msub	w29, w1, w29, w4
	sub	w1, w29, #1
	cmp	w1, #6
	b.hi	LBB16_796
	tbnz	w30, #31, LBB16_840
	mov	w1, #19923
	movk	w1, #4194, lsl #16
	umull	x1, w4, w1
	lsr	w4, w7, #30
	ldr	w7, [sp, #8]
	lsr	x1, x1, #38
	str	x1, [sp, #56]
	cbz	w4, LBB16_842
	ldr	x1, [sp, #56]
	mov	w4, #770
	movk	w4, #770, lsl #16
	lsl	w1, w1, #3
	lsr	w1, w4, w1
	b	LBB16_841
LBB16_796:
	ldr	w4, [sp, #32]
	mov	w29, wzr
	mov	w1, #2
	b	LBB16_843
LBB16_797:
	mov	w1, #2
	mov	w29, w30
	b	LBB16_843
LBB16_798:
	mov	w30, w21
LBB16_799:
	lsr	w4, w30, #29
	cmp	w4, #0
	cset	w29, ne
	str	w29, [sp, #8]
	cbz	w4, LBB16_804
	mov	w4, #3
	str	wzr, [sp]
	movk	w4, #8192, lsl #16
	cmp	w30, w4
	b.le	LBB16_809
	mov	w4, #5
	movk	w4, #8192, lsl #16
	cmp	w30, w4
	b.gt	LBB16_816
	mov	w4, #4
	movk	w4, #8192, lsl #16
	cmp	w30, w4
	b.eq	LBB16_828
	mov	w4, #5
	ldr	w29, [sp]
	movk	w4, #8192, lsl #16
	cmp	w30, w4
	b.eq	LBB16_808
	b	LBB16_782
LBB16_804:
	cmp	w30, #3
	b.le	LBB16_812
	cmp	w30, #5
	b.gt	LBB16_818
	cmp	w30, #4
	b.eq	LBB16_829
	cmp	w30, #5
	mov	w29, wzr
	b.ne	LBB16_823
LBB16_808:
	mov	w4, #5
	str	w4, [sp, #16]
	mov	w4, #4
	b	LBB16_835
LBB16_809:
	mov	w4, #1
	movk	w4, #8192, lsl #16
	cmp	w30, w4
	b.eq	LBB16_821
	mov	w4, #2
	movk	w4, #8192, lsl #16
	cmp	w30, w4
	b.eq	LBB16_836
	mov	w4, #3
	ldr	w29, [sp]
	movk	w4, #8192, lsl #16
	cmp	w30, w4
	b.eq	LBB16_815
	b	LBB16_782
LBB16_812:
	cmp	w30, #1
	b.eq	LBB16_822
	cmp	w30, #2
	b.eq	LBB16_837
	cmp	w30, #3
	mov	w29, wzr
	b.ne	LBB16_823
LBB16_815:
	mov	w4, w29
	ldr	w29, [sp, #8]
	str	x4, [sp, #56]
	b	LBB16_852
LBB16_816:
	mov	w4, #6
	movk	w4, #8192, lsl #16
	cmp	w30, w4
	b.eq	LBB16_832
	ldr	w29, [sp]
	cmp	w30, w24
	b.eq	LBB16_820
	b	LBB16_782
LBB16_818:
	cmp	w30, #6
	b.eq	LBB16_833
	cmp	w30, #7
	mov	w29, wzr
	b.ne	LBB16_823
LBB16_820:
	mov	w4, #7
	str	w4, [sp, #16]
	mov	w4, #6
	b	LBB16_835
LBB16_821:
	ldr	w7, [sp]
	mov	w29, #1
	mov	w4, #4
	b	LBB16_856
LBB16_822:
	mov	w29, wzr
	mov	w7, wzr
	mov	x4, xzr
	b	LBB16_856
LBB16_823:
	sub	w4, w30, #1001
	cmp	w4, #7
	b.hs	LBB16_874
	cmp	w30, #1003
	b.gt	LBB16_879
	cmp	w30, #1001
	b.eq	LBB16_890
	cmp	w30, #1002
	b.eq	LBB16_891
	cmp	w30, #1003
	mov	w29, #1
	b.eq	LBB16_815
	b	LBB16_820
LBB16_828:
	ldr	w7, [sp]
	b	LBB16_830
LBB16_829:
	mov	w7, wzr
LBB16_830:
	ldr	w29, [sp, #8]
LBB16_831:
	mov	w4, #4
	str	w4, [sp, #16]
	mov	w4, #3
	str	w4, [sp, #32]
	mov	w4, w7
	str	x4, [sp, #56]
	b	LBB16_867
LBB16_832:
	ldr	w29, [sp]
	b	LBB16_834
LBB16_833:
	mov	w29, wzr
LBB16_834:
	mov	w4, #6
	str	w4, [sp, #16]
	mov	w4, #5
LBB16_835:
	str	w4, [sp, #32]
	mov	w4, w29
	ldr	w29, [sp, #8]
	str	x4, [sp, #56]
	b	LBB16_867
LBB16_836:
	ldr	w4, [sp]
	b	LBB16_838
LBB16_837:
	mov	w4, wzr
LBB16_838:
	ldr	w29, [sp, #8]
LBB16_839:
	str	x4, [sp, #56]
	b	LBB16_849
LBB16_840:
	lsr	w1, w7, #30
	cmp	w4, #2000
	ldr	w7, [sp, #8]
	ccmp	w1, #0, #0, lo
	mov	w1, #3
	csinc	w1, w1, wzr, ne
LBB16_841:
	str	x1, [sp, #56]
LBB16_842:
	mov	x4, #6
	lsl	w1, w29, #3
	cmp	w29, #7
	movk	x4, #513, lsl #16
	ldr	w29, [sp, #16]
	movk	x4, #1027, lsl #32
	movk	x4, #5, lsl #48
	lsr	x1, x4, x1
	mov	w4, #6
	csel	w4, w1, w4, lo
	mov	w1, w7
LBB16_843:
	str	w4, [sp, #32]
	and	w4, w4, #0xff
	cmp	w4, #2
	b.le	LBB16_847
	cmp	w4, #4
	b.gt	LBB16_850
	cmp	w4, #3
	b.ne	LBB16_864
	mov	w4, #4
	b	LBB16_866
LBB16_847:
	cbz	w4, LBB16_855
	cmp	w4, #1
	b.ne	LBB16_852
LBB16_849:
	cmp	w29, #0
	mov	w30, wzr
	csel	x4, x28, xzr, ne
	tst	w1, #0x1
	add	x4, x4, x23
	add	x7, x4, x20
	add	x4, x4, #9
	ldur	w7, [x7, #5]
	rev	w23, w7
	csel	w7, w7, w23, ne
	stp	x4, x7, [sp]
	mov	w4, #2
	str	w4, [sp, #16]
	mov	w4, #1
	str	w4, [sp, #32]
	b	LBB16_857
LBB16_850:
	cmp	w4, #5
	b.ne	LBB16_865
	mov	w4, #6
	b	LBB16_866
LBB16_852:
	cmp	w29, #0
	csel	x4, x28, xzr, ne
	tst	w1, #0x1
	add	x4, x4, x23
	add	x7, x4, x20
	ldur	w7, [x7, #5]
	rev	w23, w7
	csel	w30, w7, w23, ne
	tbnz	w29, #0, LBB16_906
	cbnz	w1, LBB16_906
	mov	w1, #2
	mov	w26, wzr
	add	x23, x4, #9
	str	w1, [sp, #32]
	ldr	x1, [sp, #56]
	neg	x29, x6
	mov	w7, #3
	mov	w25, w1
	b	LBB16_871
LBB16_855:
	cmp	w29, #0
	ldr	x7, [sp, #56]
	csel	x4, x28, xzr, ne
LBB16_856:
	add	x4, x4, x23
	mov	w23, #1
	mov	w30, #1
	add	x4, x4, #5
	str	wzr, [sp, #32]
	stp	x4, x23, [sp]
	mov	w4, w7
	str	x4, [sp, #56]
	mov	w4, #1
	str	w4, [sp, #16]
LBB16_857:
	cbnz	w1, LBB16_906
	ldr	x1, [sp, #56]
	and	x1, x1, #0xff
	ldr	x1, [x27, x1, lsl #3]
	cbz	w30, LBB16_862
	ldr	x7, [sp, #56]
	ldr	x4, [sp, #8]
	mov	x23, xzr
	and	x7, x7, #0xff
	ldr	x7, [x27, x7, lsl #3]
	mul	x7, x7, x4
	ldr	x4, [sp]
	lsr	x30, x7, #3
	add	x7, x20, x4
LBB16_860:
	cbz	x30, LBB16_906
	ldr	x4, [x7, x23]
	add	x23, x23, #8
	sub	x30, x30, #1
	rev	x4, x4
	cmp	x16, x4, lsl #1
	b.lo	LBB16_860
LBB16_862:
	tbnz	w29, #0, LBB16_906
	ldp	x7, x4, [sp]
	mov	w30, wzr
	neg	x29, x6
	madd	x23, x1, x4, x7
	b	LBB16_870
LBB16_864:
	mov	w4, #5
	b	LBB16_866
LBB16_865:
	mov	w4, #7
LBB16_866:
	str	w4, [sp, #16]
LBB16_867:
	cmp	w29, #0
	csel	x4, x28, xzr, ne
	tst	w1, #0x1
	add	x4, x4, x23
	add	x7, x4, x20
	ldur	w7, [x7, #5]
	rev	w23, w7
	csel	w7, w7, w23, ne
	tbnz	w29, #0, LBB16_906
	cbnz	w1, LBB16_906
	mov	w30, wzr
	add	x23, x4, #9
	sub	x29, x7, x6
LBB16_870:
	ldr	x1, [sp, #56]
	ldr	w7, [sp, #16]
LBB16_871:
	cmp	w11, #2
	and	w4, w1, #0xff
	str	x1, [sp, #56]
	b.ne	LBB16_873
	mov	w1, #1000
	mul	w4, w4, w1
	orr	w4, w4, w7
	b	LBB16_780
LBB16_873:
	tst	w1, #0xfe
	csel	w6, wzr, w22, eq
	orr	w4, w6, w4, lsl #31
	orr	w4, w4, w7
	b	LBB16_780
LBB16_874:
	sub	w4, w30, #2001
	cmp	w4, #7
	b.hs	LBB16_882
	cmp	w30, #2003
	b.gt	LBB16_887
	cmp	w30, #2001
	b.eq	LBB16_897
	cmp	w30, #2002
	b.eq	LBB16_898
	cmp	w30, #2003
	mov	w29, #2
	b.eq	LBB16_815
	b	LBB16_820
LBB16_879:
	cmp	w30, #1004
	b.eq	LBB16_892
	cmp	w30, #1005
	b.eq	LBB16_893
	cmp	w30, #1006
	mov	w29, #1
	b.eq	LBB16_834
	b	LBB16_820
LBB16_882:
	sub	w4, w30, #3001
	cmp	w4, #7
	b.hs	LBB16_782
	cmp	w30, #3003
	b.gt	LBB16_894
	cmp	w30, #3001
	b.eq	LBB16_901
	cmp	w30, #3002
	b.eq	LBB16_902
	cmp	w30, #3003
	mov	w29, #3
	b.eq	LBB16_815
	b	LBB16_820
LBB16_887:
	cmp	w30, #2004
	b.eq	LBB16_899
	cmp	w30, #2005
	b.eq	LBB16_900
	cmp	w30, #2006
	mov	w29, #2
	b.eq	LBB16_834
	b	LBB16_820
LBB16_890:
	mov	w29, wzr
	mov	x4, xzr
	mov	w7, #1
	b	LBB16_856
LBB16_891:
	ldr	w29, [sp, #8]
	mov	w4, #1
	b	LBB16_839
LBB16_892:
	ldr	w29, [sp, #8]
	mov	w7, #1
	b	LBB16_831
LBB16_893:
	mov	w29, #1
	b	LBB16_808
LBB16_894:
	cmp	w30, #3004
	b.eq	LBB16_903
	cmp	w30, #3005
	b.eq	LBB16_904
	cmp	w30, #3006
	mov	w29, #3
	b.eq	LBB16_834
	b	LBB16_820
LBB16_897:
	mov	w29, wzr
	mov	x4, xzr
	mov	w7, #2
	b	LBB16_856
LBB16_898:
	ldr	w29, [sp, #8]
	mov	w4, #2
	b	LBB16_839
LBB16_899:
	ldr	w29, [sp, #8]
	mov	w7, #2
	b	LBB16_831
LBB16_900:
	mov	w29, #2
	b	LBB16_808
LBB16_901:
	mov	w29, wzr
	mov	x4, xzr
	mov	w7, #3
	b	LBB16_856
LBB16_902:
	ldr	w29, [sp, #8]
	mov	w4, #3
	b	LBB16_839
LBB16_903:
	ldr	w29, [sp, #8]
	mov	w7, #3
	b	LBB16_831
LBB16_904:
	mov	w29, #3
	b	LBB16_808
LBB16_905:
	mov	w13, wzr
	sub	w14, w12, #1
	cmp	w14, #6
	mov	w14, #7
	csel	w12, w12, w14, lo
	cmp	w11, #3
	b.ne	LBB16_907
LBB16_906:
	mov	x0, x20
	mov	x2, x3
	mov	x3, x19
	ldp	x20, x19, [sp, #144]
	ldr	x1, [sp, #24]
	ldp	x22, x21, [sp, #128]
	mov	x4, x5
	ldp	x24, x23, [sp, #112]
	ldp	x26, x25, [sp, #96]
	ldp	x28, x27, [sp, #80]
	ldp	x29, x30, [sp, #64]
	add	sp, sp, #160
	.cfi_def_cfa_offset 0
	.cfi_restore w19
	.cfi_restore w20
	.cfi_restore w21
	.cfi_restore w22
	.cfi_restore w23
	.cfi_restore w24
	.cfi_restore w25
	.cfi_restore w26
	.cfi_restore w27
	.cfi_restore w28
	.cfi_restore w30
	.cfi_restore w29
	b	_ZN7wkb_raw6erased11wkb_rewrite8encoding10lay_pieces17hd15cee7c31570c34E
LBB16_907:
	.cfi_restore_state
	ldr	x14, [x2, #8]
	cmp	w11, #2
	sub	x2, x14, x9
	b.ne	LBB16_911
	mov	w10, #1000
	cmp	w13, #0
	strb	w13, [x19]
	mul	w8, w8, w10
	mov	w11, #5
	orr	w8, w8, w12
	rev	w10, w8
	csel	w10, w8, w10, ne
	mov	w8, #1
LBB16_909:
	str	w10, [x19, x8]
	mov	x8, x11
LBB16_910:
	add	x0, x19, x8
	add	x1, x20, x9
	add	x21, x8, x2
	bl	_memcpy
	mov	x0, x21
	b	LBB16_948
LBB16_911:
	cmp	w11, #1
	mov	w14, #536870912
	mov	w15, #1073741824
	csel	w14, w14, wzr, eq
	cmp	w8, #2
	strb	w13, [x19]
	csel	w15, wzr, w15, lo
	orr	w14, w15, w14
	orr	w8, w14, w8, lsl #31
	orr	w8, w8, w12
	tbz	w13, #0, LBB16_916
	stur	w8, [x19, #1]
	mov	w8, #5
	tbz	w11, #0, LBB16_910
	mov	w11, #9
	b	LBB16_909
LBB16_914:
	mov	w26, wzr
	mov	w22, wzr
	mov	w10, #4
	cmp	w14, #2
	mov	w27, w4
	b.eq	LBB16_90
	b	LBB16_29
LBB16_915:
	ldur	q0, [x11, #8]
	rev	x8, x8
	str	x8, [x9]
	rev64	v0.16b, v0.16b
	stur	q0, [x9, #8]
	b	LBB16_948
LBB16_916:
	rev	w8, w8
	stur	w8, [x19, #1]
	tbz	w11, #0, LBB16_934
	rev	w10, w10
	mov	w11, #9
	mov	w8, #5
	b	LBB16_909
LBB16_918:
	rev	x13, x8
	mov	x14, #-9007199254740991
	cmp	x14, x13, lsl #1
	b.hi	LBB16_922
	ldr	x13, [x11, #8]
	rev	x13, x13
LBB16_920:
	mov	x14, #-9007199254740992
	cmp	x14, x13, lsl #1
	b.hs	LBB16_922
	cmp	w10, #0
	mov	w8, #63615
	mov	x10, #9221120237041090560
	csel	x8, x10, x8, ne
	stp	x8, x8, [x9]
	b	LBB16_948
LBB16_922:
	cmp	w12, w10
	b.ne	LBB16_935
	ldr	q0, [x11]
	str	q0, [x9]
	b	LBB16_948
LBB16_924:
	mov	w13, #5
	b	LBB16_16
LBB16_925:
	rev	x14, x8
	mov	x13, #-9007199254740992
	cmp	x13, x14, lsl #1
	b.hs	LBB16_931
	ldr	x14, [x11, #8]
	rev	x14, x14
	cmp	x13, x14, lsl #1
	b.hs	LBB16_931
	ldr	x13, [x11, #16]
	mov	x14, #-9007199254740991
	rev	x13, x13
	cmp	x14, x13, lsl #1
	b.hi	LBB16_931
	ldr	x13, [x11, #24]
	rev	x13, x13
LBB16_929:
	mov	x14, #-9007199254740992
	cmp	x14, x13, lsl #1
	b.hs	LBB16_931
	cmp	w10, #0
	mov	w8, #63615
	mov	x10, #9221120237041090560
	csel	x8, x10, x8, ne
	dup	v0.2d, x8
	stp	q0, q0, [x9]
	b	LBB16_948
LBB16_931:
	cmp	w12, w10
	b.ne	LBB16_933
	ldp	q0, q1, [x11]
	stp	q0, q1, [x9]
	b	LBB16_948
LBB16_933:
	ldur	q0, [x11, #8]
	ldr	x10, [x11, #24]
	rev	x8, x8
	str	x8, [x9]
	rev64	v0.16b, v0.16b
	rev	x8, x10
	str	x8, [x9, #24]
	stur	q0, [x9, #8]
	b	LBB16_948
LBB16_934:
	mov	w8, #5
	b	LBB16_910
LBB16_935:
	ldr	x10, [x11, #8]
	rev	x8, x8
	rev	x10, x10
	stp	x8, x10, [x9]
	b	LBB16_948
LBB16_936:
	add	x9, x9, x20
	add	x14, x14, x19
	and	x13, x12, #0x3fffffffc
	add	x9, x9, #36
	add	x14, x14, #32
	and	x15, x12, #0x3fffffffc
LBB16_937:
	ldp	q1, q0, [x9, #-32]
	subs	x15, x15, #4
	ldp	q3, q2, [x9], #64
	rev64	v0.16b, v0.16b
	rev64	v1.16b, v1.16b
	rev64	v2.16b, v2.16b
	rev64	v3.16b, v3.16b
	stp	q1, q0, [x14, #-32]
	stp	q3, q2, [x14], #64
	b.ne	LBB16_937
	cmp	x12, x13
	b.eq	LBB16_946
LBB16_939:
	lsl	x9, x13, #4
	sub	x12, x12, x13
LBB16_940:
	ldr	q0, [x1, x9]
	subs	x12, x12, #1
	rev64	v0.16b, v0.16b
	str	q0, [x8, x9]
	add	x9, x9, #16
	b.ne	LBB16_940
	b	LBB16_946
LBB16_941:
	add	x9, x9, x20
	add	x14, x14, x19
	and	x13, x12, #0x3fffffffc
	add	x9, x9, #36
	add	x14, x14, #32
	and	x15, x12, #0x3fffffffc
LBB16_942:
	ldp	q1, q0, [x9, #-32]
	subs	x15, x15, #4
	ldp	q3, q2, [x9], #64
	rev64	v0.16b, v0.16b
	rev64	v1.16b, v1.16b
	rev64	v2.16b, v2.16b
	rev64	v3.16b, v3.16b
	stp	q1, q0, [x14, #-32]
	stp	q3, q2, [x14], #64
	b.ne	LBB16_942
	cmp	x12, x13
	b.eq	LBB16_946
LBB16_944:
	lsl	x9, x13, #4
	sub	x12, x12, x13
LBB16_945:
	ldr	q0, [x1, x9]
	subs	x12, x12, #1
	rev64	v0.16b, v0.16b
	str	q0, [x8, x9]
	add	x9, x9, #16
	b.ne	LBB16_945
LBB16_946:
	tbz	w11, #3, LBB16_948
	ldr	x9, [x1, x10]
	rev	x9, x9
	str	x9, [x8, x10]
LBB16_948:
	ldp	x20, x19, [sp, #144]
	ldp	x22, x21, [sp, #128]
	ldp	x24, x23, [sp, #112]
	ldp	x26, x25, [sp, #96]
	ldp	x28, x27, [sp, #80]
	ldp	x29, x30, [sp, #64]
	add	sp, sp, #160
	.cfi_def_cfa_offset 0
	.cfi_restore w19
	.cfi_restore w20
	.cfi_restore w21
	.cfi_restore w22
	.cfi_restore w23
	.cfi_restore w24
	.cfi_restore w25
	.cfi_restore w26
	.cfi_restore w27
	.cfi_restore w28
	.cfi_restore w30
	.cfi_restore w29
	ret
Lfunc_end16:
	.cfi_endproc
	.section	__TEXT,__text,regular,pure_instructions
	.p2align	2
_ZN7wkb_raw6erased5wkb_c12column_found8find_any17hfa16764fde2e1a5cE:
	.cfi_startproc
	sub	sp, sp, #80
	.cfi_def_cfa_offset 80
	str	x30, [sp, #48]
	stp	x20, x19, [sp, #64]
	.cfi_offset w19, -8
	.cfi_offset w20, -16
	.cfi_offset w30, -32
	.cfi_remember_state
	mov	x20, x0
	mov	x19, x2
	mov	x2, x1
	add	x0, sp, #8
	mov	x1, x20
	bl	_ZN7wkb_raw6erased7wkb_abi6column9check_row17h3e84d1932f31260dE
	ldp	w8, w0, [sp, #8]
	cmp	w8, #2
	b.ne	LBB17_2
	movi	v0.2d, #0000000000000000
	stp	q0, q0, [x19]
	stp	q0, q0, [x19, #32]
	ldp	x20, x19, [sp, #64]
	ldr	x30, [sp, #48]
	add	sp, sp, #80
	.cfi_def_cfa_offset 0
	.cfi_restore w19
	.cfi_restore w20
	.cfi_restore w30
	ret
LBB17_2:
	.cfi_restore_state
	ldrb	w12, [sp, #40]
	ldur	q0, [sp, #16]
	ldr	x11, [sp, #32]
	ldrb	w9, [sp, #41]
	ldrb	w10, [sp, #42]
	cmp	w12, #2
	b.le	LBB17_6
	cmp	w12, #4
	b.gt	LBB17_9
	cmp	w12, #3
	b.ne	LBB17_13
	mov	w12, #4
	b	LBB17_15
LBB17_6:
	cbz	w12, LBB17_11
	cmp	w12, #1
	b.ne	LBB17_12
	mov	w12, #2
	b	LBB17_15
LBB17_9:
	cmp	w12, #5
	b.ne	LBB17_14
	mov	w12, #6
	b	LBB17_15
LBB17_11:
	cmp	w8, #0
	mov	w12, #9
	mov	w13, #5
	csel	x13, x13, x12, eq
	mov	w12, #1
	mov	w14, #1
	b	LBB17_16
LBB17_12:
	mov	w12, #3
	b	LBB17_15
LBB17_13:
	mov	w12, #5
	b	LBB17_15
LBB17_14:
	mov	w12, #7
LBB17_15:
	cmp	w8, #0
	mov	w13, #9
	mov	w14, #5
	csel	x13, x14, x13, eq
	tst	w10, #0x1
	ldr	w14, [x20, x13]
	add	x13, x13, #4
	rev	w15, w14
	csel	w14, w14, w15, ne
LBB17_16:
	tst	w8, #0x1
	stp	x11, x13, [x19, #16]
	csel	w11, w0, wzr, ne
	mov	w0, wzr
	str	q0, [x19]
	stp	w11, w8, [x19, #40]
	adrp	x11, Lswitch.table.wkb_raw_parts.323@PAGE
	add	x11, x11, Lswitch.table.wkb_raw_parts.323@PAGEOFF
	ldr	w8, [x11, x9, lsl #2]
	str	x14, [x19, #32]
	stp	w12, w9, [x19, #48]
	stp	w8, w10, [x19, #56]
	ldp	x20, x19, [sp, #64]
	ldr	x30, [sp, #48]
	add	sp, sp, #80
	.cfi_def_cfa_offset 0
	.cfi_restore w19
	.cfi_restore w20
	.cfi_restore w30
	ret
Lfunc_end17:
	.cfi_endproc
	.section	__TEXT,__text,regular,pure_instructions
	.p2align	2
_ZN7wkb_raw6erased5wkb_c12column_write13write_any_row17h738d4f460915821bE:
	.cfi_startproc
	sub	sp, sp, #112
	.cfi_def_cfa_offset 112
	str	x30, [sp, #48]
	stp	x24, x23, [sp, #64]
	stp	x22, x21, [sp, #80]
	stp	x20, x19, [sp, #96]
	.cfi_offset w19, -8
	.cfi_offset w20, -16
	.cfi_offset w21, -24
	.cfi_offset w22, -32
	.cfi_offset w23, -40
	.cfi_offset w24, -48
	.cfi_offset w30, -64
	.cfi_remember_state
	ldr	w8, [x2]
	mov	x20, x0
	mov	w0, #3
	cmp	w8, #1
	b.hi	LBB18_4
	ldr	w8, [x2, #4]
	cmp	w8, #3
	b.hi	LBB18_4
	mov	x19, x1
	mov	x24, x2
	add	x0, sp, #8
	mov	x1, x20
	mov	x2, x19
	mov	x23, x3
	mov	x22, x4
	mov	x21, x5
	bl	_ZN7wkb_raw6erased7wkb_abi6column9check_row17h3e84d1932f31260dE
	ldr	w8, [sp, #8]
	cmp	w8, #2
	b.ne	LBB18_5
	ldr	w0, [sp, #12]
LBB18_4:
	ldp	x20, x19, [sp, #96]
	ldr	x30, [sp, #48]
	ldp	x22, x21, [sp, #80]
	ldp	x24, x23, [sp, #64]
	add	sp, sp, #112
	.cfi_def_cfa_offset 0
	.cfi_restore w19
	.cfi_restore w20
	.cfi_restore w21
	.cfi_restore w22
	.cfi_restore w23
	.cfi_restore w24
	.cfi_restore w30
	ret
LBB18_5:
	.cfi_restore_state
	add	x2, sp, #8
	mov	x0, x20
	mov	x1, x19
	mov	x3, x24
	mov	x4, x23
	mov	x5, x22
	mov	x6, x21
	bl	_ZN7wkb_raw6erased5wkb_c5write12write_others17h761b2ce34ffe351dE
	ldp	x20, x19, [sp, #96]
	ldr	x30, [sp, #48]
	ldp	x22, x21, [sp, #80]
	ldp	x24, x23, [sp, #64]
	add	sp, sp, #112
	.cfi_def_cfa_offset 0
	.cfi_restore w19
	.cfi_restore w20
	.cfi_restore w21
	.cfi_restore w22
	.cfi_restore w23
	.cfi_restore w24
	.cfi_restore w30
	ret
Lfunc_end18:
	.cfi_endproc
	.section	__TEXT,__text,regular,pure_instructions
	.p2align	2
_ZN7wkb_raw6erased5wkb_c13column_bounds16bounds_or_status17h88d0952a48bdaeeeE:
	.cfi_startproc
	stp	x29, x30, [sp, #-96]!
	.cfi_def_cfa_offset 96
	stp	x28, x27, [sp, #16]
	stp	x26, x25, [sp, #32]
	stp	x24, x23, [sp, #48]
	stp	x22, x21, [sp, #64]
	stp	x20, x19, [sp, #80]
	mov	x29, sp
	.cfi_def_cfa w29, 96
	.cfi_offset w19, -8
	.cfi_offset w20, -16
	.cfi_offset w21, -24
	.cfi_offset w22, -32
	.cfi_offset w23, -40
	.cfi_offset w24, -48
	.cfi_offset w25, -56
	.cfi_offset w26, -64
	.cfi_offset w27, -72
	.cfi_offset w28, -80
	.cfi_offset w30, -88
	.cfi_offset w29, -96
	sub	x9, sp, #96
	and	sp, x9, #0xffffffffffffffe0
	cmp	x1, #5
	b.hs	LBB19_3
	cbz	x1, LBB19_64
	ldrb	w9, [x0]
	b	LBB19_61
LBB19_3:
	ldrb	w9, [x0]
	cmp	w9, #1
	b.eq	LBB19_10
	cbnz	w9, LBB19_61
	ldur	w8, [x0, #1]
	rev	w11, w8
	lsr	w8, w11, #29
	cmp	w8, #0
	cset	w10, ne
	cbz	w8, LBB19_11
LBB19_6:
	mov	w8, #3
	movk	w8, #8192, lsl #16
	cmp	w11, w8
	mov	w8, wzr
	b.le	LBB19_16
	mov	w12, #5
	movk	w12, #8192, lsl #16
	cmp	w11, w12
	b.gt	LBB19_23
	mov	w8, #4
	movk	w8, #8192, lsl #16
	cmp	w11, w8
	b.eq	LBB19_29
	mov	w8, #5
	movk	w8, #8192, lsl #16
	cmp	w11, w8
	b.eq	LBB19_15
	b	LBB19_61
LBB19_10:
	ldur	w11, [x0, #1]
	lsr	w8, w11, #29
	cmp	w8, #0
	cset	w10, ne
	cbnz	w8, LBB19_6
LBB19_11:
	cmp	w11, #3
	b.le	LBB19_19
	cmp	w11, #5
	b.gt	LBB19_25
	cmp	w11, #4
	b.eq	LBB19_29
	cmp	w11, #5
	b.ne	LBB19_27
LBB19_15:
	mov	w8, wzr
	mov	w12, #4
	b	LBB19_32
LBB19_16:
	mov	w12, #1
	movk	w12, #8192, lsl #16
	cmp	w11, w12
	mov	w12, w8
	b.eq	LBB19_32
	mov	w8, #2
	movk	w8, #8192, lsl #16
	cmp	w11, w8
	b.eq	LBB19_31
	mov	w8, #3
	movk	w8, #8192, lsl #16
	cmp	w11, w8
	b.eq	LBB19_22
	b	LBB19_61
LBB19_19:
	cmp	w11, #1
	mov	w12, w8
	b.eq	LBB19_32
	cmp	w11, #2
	b.eq	LBB19_31
	cmp	w11, #3
	b.ne	LBB19_27
LBB19_22:
	mov	w8, wzr
	mov	w12, #2
	b	LBB19_32
LBB19_23:
	mov	w12, #6
	movk	w12, #8192, lsl #16
	cmp	w11, w12
	b.eq	LBB19_30
	mov	w10, #7
	movk	w10, #8192, lsl #16
	cmp	w11, w10
	b.eq	LBB19_60
	b	LBB19_61
LBB19_25:
	cmp	w11, #6
	b.eq	LBB19_30
	cmp	w11, #7
	b.eq	LBB19_60
LBB19_27:
	sub	w12, w11, #1001
	cmp	w12, #7
	b.hs	LBB19_50
	mov	w8, #1
	b	LBB19_59
LBB19_29:
	mov	w8, wzr
	mov	w12, #3
	b	LBB19_32
LBB19_30:
	mov	w8, wzr
	mov	w12, #5
	b	LBB19_32
LBB19_31:
	mov	w8, wzr
	mov	w12, #1
LBB19_32:
	tst	w11, #0xe0000000
	stp	xzr, xzr, [sp, #16]
	cset	w11, ne
	str	x1, [sp, #32]
	strb	w11, [sp, #65]
	mov	w11, #1
	strb	w9, [sp, #64]
	strb	w12, [sp, #66]
	strb	w8, [sp, #67]
	str	w11, [sp, #72]
	and	w11, w12, #0xff
	cmp	w11, #2
	b.gt	LBB19_75
LBB19_33:
	cbz	w11, LBB19_38
	cmp	w11, #1
	b.ne	LBB19_40
	cmp	w10, #0
	mov	w11, #5
	mov	w12, #9
	csel	x11, x12, x11, ne
	add	x12, x11, #4
	cmp	x1, x12
	b.lo	LBB19_110
	ldr	w11, [x0, x11]
	adrp	x12, Lswitch.table.wkb_raw_write.374@PAGE
	add	x12, x12, Lswitch.table.wkb_raw_write.374@PAGEOFF
	tst	w9, #0x1
	and	x8, x8, #0xff
	rev	w9, w11
	ldr	x12, [x12, x8, lsl #3]
	csel	w8, w11, w9, ne
	cmp	w10, #0
	mov	w9, #9
	mov	w10, #13
	csel	x9, x10, x9, ne
	madd	x9, x12, x8, x9
	cmp	x1, x9
	b.hs	LBB19_49
	mov	w24, #4
	cmp	w24, #7
	b.lo	LBB19_199
	b	LBB19_197
LBB19_38:
	adrp	x11, Lswitch.table.wkb_raw_write.374@PAGE
	add	x11, x11, Lswitch.table.wkb_raw_write.374@PAGEOFF
	cmp	w10, #0
	and	x8, x8, #0xff
	mov	w9, #5
	mov	w10, #9
	ldr	x8, [x11, x8, lsl #3]
	csel	x9, x10, x9, ne
	add	x8, x8, x9
	cmp	x1, x8
	b.hs	LBB19_48
	mov	w24, #3
	cmp	w24, #7
	b.lo	LBB19_199
	b	LBB19_197
LBB19_40:
	cmp	w10, #0
	mov	w10, #5
	mov	w11, #9
	csel	x10, x11, x10, ne
	add	x11, x10, #4
	cmp	x1, x11
	b.lo	LBB19_110
	add	x11, x0, x10
	tst	w9, #0x1
	ldr	w12, [x11], #4
	rev	w13, w12
	csel	w14, w12, w13, ne
	cbz	w14, LBB19_52
	sub	x14, x1, x10
	sub	x10, x14, #4
	cmp	x14, #8
	tbz	w9, #0, LBB19_54
	b.lo	LBB19_55
	adrp	x13, Lswitch.table.wkb_raw_write.374@PAGE
	add	x13, x13, Lswitch.table.wkb_raw_write.374@PAGEOFF
	mov	x9, xzr
	and	x8, x8, #0xff
	mov	w24, #7
	ldr	x13, [x13, x8, lsl #3]
	mov	x8, x10
LBB19_45:
	ldr	w15, [x11]
	mul	x10, x13, x15
	orr	x14, x10, #0x4
	subs	x10, x8, x14
	b.lo	LBB19_190
	subs	w12, w12, #1
	add	x9, x9, x15
	b.eq	LBB19_53
	cmp	x10, #4
	add	x11, x11, x14
	mov	x8, x10
	b.hs	LBB19_45
	b	LBB19_195
LBB19_48:
	mov	w8, #1
	str	x8, [sp, #24]
	b	LBB19_185
LBB19_49:
	str	x8, [sp, #24]
	b	LBB19_185
LBB19_50:
	sub	w12, w11, #2001
	cmp	w12, #7
	b.hs	LBB19_57
	mov	w8, #2
	b	LBB19_59
LBB19_52:
	mov	x9, xzr
	mov	x8, x1
LBB19_53:
	stp	x9, x8, [sp, #24]
	b	LBB19_185
LBB19_54:
	b.hs	LBB19_186
LBB19_55:
	mov	x9, xzr
LBB19_56:
	mov	w24, #7
	b	LBB19_195
LBB19_57:
	sub	w12, w11, #3001
	cmp	w12, #7
	b.hs	LBB19_61
	mov	w8, #3
LBB19_59:
	cmp	w12, #6
	b.lo	LBB19_32
LBB19_60:
	tst	w11, #0xe0000000
	strb	w9, [sp, #64]
	mov	w9, #6
	cset	w10, ne
	strb	w8, [sp, #67]
	mov	w8, #1
	mov	x19, x0
	mov	x21, x2
	stp	xzr, xzr, [sp, #16]
	mov	x20, x1
	str	x1, [sp, #32]
	strb	w10, [sp, #65]
	strb	w9, [sp, #66]
	str	w8, [sp, #72]
	b	LBB19_153
LBB19_61:
	cbz	w9, LBB19_63
	cmp	w9, #1
	b.ne	LBB19_70
LBB19_63:
	cmp	x1, #5
	b.hs	LBB19_65
LBB19_64:
	mov	w0, #1
	mov	w1, #32
	b	LBB19_201
LBB19_65:
	ldur	w8, [x0, #1]
	cmp	w9, #0
	mov	w12, #-1073741824
	rev	w10, w8
	csel	w11, w8, w10, ne
	ubfx	w10, w11, #30, #1
	and	w8, w11, #0x7fffffff
	add	w12, w8, w12
	cmp	w10, #0
	csel	w13, w8, w12, eq
	mov	w12, #-536870912
	lsr	w10, w13, #29
	cmp	w10, #0
	add	w10, w13, w12
	csel	w14, w10, w13, ne
	cset	w10, ne
	cmp	w14, #3999
	b.hi	LBB19_71
	ubfx	w12, w14, #3, #13
	mov	w15, #8389
	mul	w12, w12, w15
	mov	w15, #1000
	lsr	w12, w12, #20
	msub	w12, w12, w15, w14
	sub	w12, w12, #1
	and	w15, w12, #0xffff
	cmp	w15, #7
	b.hs	LBB19_71
	lsr	w15, w8, #30
	tbnz	w11, #31, LBB19_72
	mov	w8, #19923
	movk	w8, #4194, lsl #16
	umull	x8, w14, w8
	lsr	x8, x8, #38
	cbz	w15, LBB19_73
	lsl	w8, w8, #3
	mov	w14, #770
	movk	w14, #770, lsl #16
	lsr	w8, w14, w8
	b	LBB19_73
LBB19_70:
	mov	w0, #1
	mov	w1, #33
	b	LBB19_201
LBB19_71:
	mov	w0, #1
	mov	w1, #34
	b	LBB19_201
LBB19_72:
	cmp	w14, #2000
	mov	w8, #3
	ccmp	w15, #0, #0, lo
	csinc	w8, w8, wzr, ne
LBB19_73:
	and	w14, w12, #0xffff
	cmp	w14, #6
	b.hs	LBB19_152
	tst	w13, #0xe0000000
	stp	xzr, xzr, [sp, #16]
	cset	w13, ne
	str	x1, [sp, #32]
	strb	w13, [sp, #65]
	mov	w13, #1
	strb	w9, [sp, #64]
	strb	w12, [sp, #66]
	strb	w8, [sp, #67]
	stp	w13, w11, [sp, #72]
	and	w11, w12, #0xff
	cmp	w11, #2
	b.le	LBB19_33
LBB19_75:
	cmp	w11, #3
	b.eq	LBB19_106
	cmp	w11, #4
	b.ne	LBB19_109
	cmp	w10, #0
	mov	w10, #5
	mov	w11, #9
	csel	x10, x11, x10, ne
	add	x11, x10, #4
	cmp	x1, x11
	b.lo	LBB19_110
	add	x14, x0, x10
	tst	w9, #0x1
	mov	x9, xzr
	ldr	w11, [x14], #4
	rev	w12, w11
	csel	w11, w11, w12, ne
	cbz	w11, LBB19_178
	and	w15, w8, #0xff
	mov	w12, #1000
	sub	x10, x1, x10
	mul	w5, w15, w12
	mov	w13, #770
	mov	w4, w8
	mov	w17, #19923
	mov	w3, #35128
	movk	w13, #770, lsl #16
	mov	w15, #-1073741824
	mov	w16, #-536870912
	movk	w17, #4194, lsl #16
	movk	w3, #65, lsl #16
	sub	x10, x10, #4
	and	x4, x4, #0xff
	orr	w5, w5, #0x2
	mov	w6, #3
	mov	w7, #5
	mov	w19, #9
	mov	w20, #13
	adrp	x21, Lswitch.table.wkb_raw_write.374@PAGE
	add	x21, x21, Lswitch.table.wkb_raw_write.374@PAGEOFF
LBB19_80:
	cmp	x10, #5
	b.hs	LBB19_83
	cbz	x10, LBB19_56
	ldrb	w23, [x14]
	b	LBB19_89
LBB19_83:
	ldrb	w23, [x14]
	cmp	w23, #1
	b.eq	LBB19_86
	cbnz	w23, LBB19_89
	ldur	w24, [x14, #1]
	mov	w22, wzr
	rev	w24, w24
	b	LBB19_87
LBB19_86:
	ldur	w24, [x14, #1]
	mov	w22, #1
LBB19_87:
	cmp	w24, w5
	b.ne	LBB19_89
	mov	w23, #9
	mov	w24, #5
	b	LBB19_103
LBB19_89:
	cbz	w23, LBB19_92
	cmp	w23, #1
	b.ne	LBB19_192
	mov	w22, #1
	b	LBB19_93
LBB19_92:
	mov	w22, wzr
LBB19_93:
	cmp	x10, #5
	b.lo	LBB19_56
	ldur	w23, [x14, #1]
	cmp	w22, #0
	rev	w24, w23
	csel	w26, w23, w24, ne
	ubfx	w23, w26, #30, #1
	and	w25, w26, #0x7fffffff
	add	w24, w25, w15
	cmp	w23, #0
	csel	w24, w25, w24, eq
	lsr	w23, w24, #29
	add	w27, w24, w16
	cmp	w23, #0
	csel	w27, w27, w24, ne
	cmp	w27, #3999
	b.hi	LBB19_180
	umull	x24, w27, w3
	lsr	x24, x24, #32
	msub	w24, w24, w12, w27
	sub	w28, w24, #1
	cmp	w28, #6
	b.hi	LBB19_180
	tbnz	w26, #31, LBB19_99
	umull	x26, w27, w17
	lsr	w27, w25, #30
	lsr	x25, x26, #38
	cbz	w27, LBB19_100
	lsl	w25, w25, #3
	lsr	w25, w13, w25
	b	LBB19_100
LBB19_99:
	lsr	w25, w25, #30
	cmp	w27, #2000
	ccmp	w25, #0, #0, lo
	csinc	w25, w6, wzr, ne
LBB19_100:
	cmp	w24, #2
	mov	w24, #9
	b.ne	LBB19_195
	and	w25, w25, #0xff
	cmp	w25, w8, uxtb
	b.ne	LBB19_195
	cmp	w23, #0
	csel	x24, x19, x7, ne
	csel	x23, x20, x19, ne
LBB19_103:
	add	x25, x24, #4
	cmp	x10, x25
	b.lo	LBB19_56
	ldr	w24, [x14, x24]
	cmp	w22, #0
	ldr	x22, [x21, x4, lsl #3]
	rev	w25, w24
	csel	w24, w24, w25, ne
	madd	x23, x22, x24, x23
	subs	x22, x10, x23
	b.lo	LBB19_191
	add	x9, x9, x24
	subs	w11, w11, #1
	add	x14, x14, x23
	mov	x23, x10
	mov	x10, x22
	b.ne	LBB19_80
	b	LBB19_179
LBB19_106:
	cmp	w10, #0
	mov	w11, #5
	mov	w12, #9
	csel	x14, x12, x11, ne
	add	x11, x14, #4
	cmp	x1, x11
	b.lo	LBB19_110
	add	x15, x0, x14
	mov	w13, w8
	adrp	x12, Lswitch.table.wkb_raw_write.371@PAGE
	add	x12, x12, Lswitch.table.wkb_raw_write.371@PAGEOFF
	ldr	w11, [x15], #4
	tst	w9, #0x1
	and	x9, x13, #0xff
	rev	w13, w11
	ldr	x9, [x12, x9, lsl #3]
	csel	w11, w11, w13, ne
	cmp	w10, #0
	mov	w10, #9
	mov	w13, #13
	csel	x10, x13, x10, ne
	madd	x9, x9, x11, x10
	cmp	x1, x9
	b.hs	LBB19_155
	mov	w24, #6
	cmp	w24, #7
	b.lo	LBB19_199
	b	LBB19_197
LBB19_109:
	cmp	w10, #0
	mov	w10, #5
	mov	w11, #9
	csel	x10, x11, x10, ne
	add	x11, x10, #4
	cmp	x1, x11
	b.hs	LBB19_111
LBB19_110:
	mov	w24, #7
	cmp	w24, #7
	b.lo	LBB19_199
	b	LBB19_197
LBB19_111:
	add	x14, x0, x10
	tst	w9, #0x1
	ldr	w11, [x14], #4
	rev	w12, w11
	csel	w11, w11, w12, ne
	cbz	w11, LBB19_185
	and	w15, w8, #0xff
	mov	w13, #1000
	sub	x10, x1, x10
	mul	w5, w15, w13
	mov	w4, w8
	mov	w17, #19923
	mov	w6, #35128
	mov	w12, wzr
	mov	x3, xzr
	mov	x9, xzr
	mov	w15, #-1073741824
	mov	w16, #-536870912
	sub	x25, x10, #4
	movk	w17, #4194, lsl #16
	and	x4, x4, #0xff
	orr	w5, w5, #0x3
	movk	w6, #65, lsl #16
	mov	w7, #3
	mov	w19, #5
	mov	w20, #9
	adrp	x22, Lswitch.table.wkb_raw_write.374@PAGE
	add	x22, x22, Lswitch.table.wkb_raw_write.374@PAGEOFF
LBB19_113:
	cmp	x25, #5
	str	x25, [sp, #32]
	b.hs	LBB19_116
	cbz	x25, LBB19_110
	ldrb	w10, [x14]
	b	LBB19_122
LBB19_116:
	ldrb	w10, [x14]
	cmp	w10, #1
	b.eq	LBB19_119
	cbnz	w10, LBB19_122
	ldur	w24, [x14, #1]
	mov	w26, wzr
	rev	w24, w24
	b	LBB19_120
LBB19_119:
	ldur	w24, [x14, #1]
	mov	w26, #1
LBB19_120:
	cmp	w24, w5
	b.ne	LBB19_122
	mov	w10, #5
	b	LBB19_136
LBB19_122:
	cbz	w10, LBB19_125
	cmp	w10, #1
	b.ne	LBB19_198
	mov	w26, #1
	b	LBB19_126
LBB19_125:
	mov	w26, wzr
LBB19_126:
	cmp	x25, #5
	b.lo	LBB19_110
	ldur	w10, [x14, #1]
	cmp	w26, #0
	rev	w24, w10
	csel	w28, w10, w24, ne
	ubfx	w10, w28, #30, #1
	and	w27, w28, #0x7fffffff
	add	w24, w27, w15
	cmp	w10, #0
	csel	w24, w27, w24, eq
	lsr	w10, w24, #29
	add	w30, w24, w16
	cmp	w10, #0
	csel	w30, w30, w24, ne
	cmp	w30, #3999
	b.hi	LBB19_193
	umull	x24, w30, w6
	lsr	x24, x24, #32
	msub	w24, w24, w13, w30
	sub	w21, w24, #1
	cmp	w21, #6
	b.hi	LBB19_193
	tbnz	w28, #31, LBB19_132
	umull	x21, w30, w17
	lsr	w28, w27, #30
	lsr	x27, x21, #38
	cbz	w28, LBB19_133
	lsl	w21, w27, #3
	mov	w27, #770
	movk	w27, #770, lsl #16
	lsr	w27, w27, w21
	b	LBB19_133
LBB19_132:
	lsr	w21, w27, #30
	cmp	w30, #2000
	ccmp	w21, #0, #0, lo
	csinc	w27, w7, wzr, ne
LBB19_133:
	cmp	w24, #3
	mov	w24, #9
	b.ne	LBB19_196
	and	w21, w27, #0xff
	cmp	w21, w8, uxtb
	b.ne	LBB19_196
	cmp	w10, #0
	csel	x10, x20, x19, ne
LBB19_136:
	add	x21, x10, #4
	cmp	x25, x21
	b.lo	LBB19_110
	add	x14, x14, x10
	cmp	w26, #0
	sub	x28, x25, x10
	ldr	w24, [x14], #4
	sub	x10, x28, #4
	rev	w27, w24
	csel	w21, w24, w27, ne
	cbz	w21, LBB19_144
	add	x3, x3, #2
	cmp	x28, #8
	cbz	w26, LBB19_145
	b.lt	LBB19_56
	sub	w21, w24, #1
	ldr	x25, [x22, x4, lsl #3]
	add	x3, x3, x21
LBB19_141:
	ldr	w27, [x14]
	mul	x21, x25, x27
	orr	x28, x21, #0x4
	subs	x26, x10, x28
	b.lo	LBB19_181
	and	x21, x23, #0xffffffff00000000
	subs	w24, w24, #1
	add	x9, x9, x27
	orr	x23, x21, x27
	add	x14, x14, x28
	b.eq	LBB19_150
	cmp	x26, #4
	mov	x10, x26
	b.hs	LBB19_141
	b	LBB19_182
LBB19_144:
	add	x3, x3, #1
	b	LBB19_151
LBB19_145:
	b.lt	LBB19_56
	sub	w21, w27, #1
	ldr	x24, [x22, x4, lsl #3]
	add	x3, x3, x21
LBB19_147:
	ldr	w21, [x14]
	rev	w25, w21
	mul	x21, x24, x25
	orr	x28, x21, #0x4
	subs	x26, x10, x28
	b.lo	LBB19_181
	and	x21, x23, #0xffffffff00000000
	subs	w27, w27, #1
	add	x9, x9, x25
	orr	x23, x21, x25
	add	x14, x14, x28
	b.eq	LBB19_150
	cmp	x26, #4
	mov	x10, x26
	b.hs	LBB19_147
	b	LBB19_182
LBB19_150:
	mov	x25, x10
	mov	x10, x26
LBB19_151:
	add	w12, w12, #1
	str	x25, [sp, #32]
	mov	x25, x10
	cmp	w12, w11
	stp	x3, x9, [sp, #16]
	b.ne	LBB19_113
	b	LBB19_185
LBB19_152:
	tst	w13, #0xe0000000
	mov	x19, x0
	mov	x21, x2
	mov	x20, x1
	cset	w10, ne
	strb	w9, [sp, #64]
	mov	w9, #6
	strb	w8, [sp, #67]
	mov	w8, #1
	stp	xzr, xzr, [sp, #16]
	str	x1, [sp, #32]
	strb	w10, [sp, #65]
	strb	w9, [sp, #66]
	stp	w8, w11, [sp, #72]
LBB19_153:
	add	x0, sp, #40
	add	x2, sp, #64
	add	x5, sp, #16
	mov	x1, xzr
	mov	x3, x19
	mov	x4, x20
	bl	_ZN7wkb_raw6erased9wkb_check6nested15skip_collection17h3e96ec52d62a4ff3E
	ldr	w24, [sp, #40]
	cmp	w24, #11
	b.ne	LBB19_196
	mov	x2, x21
	mov	x1, x20
	mov	x0, x19
	b	LBB19_185
LBB19_155:
	cbz	w11, LBB19_183
	and	w10, w8, #0xff
	mov	w13, #1000
	sub	x3, x1, x14
	mul	w10, w10, w13
	mov	w14, #770
	mov	w4, w8
	mov	w5, #19923
	mov	w6, #35128
	mov	x9, xzr
	movk	w14, #770, lsl #16
	mov	w16, #-1073741824
	mov	w17, #-536870912
	sub	x19, x3, #4
	and	x3, x4, #0xff
	orr	w4, w10, #0x1
	movk	w5, #4194, lsl #16
	movk	w6, #65, lsl #16
	mov	w7, #3
LBB19_157:
	mov	x10, x19
	cmp	x19, #5
	b.hs	LBB19_160
	cbz	x10, LBB19_56
	ldrb	w19, [x15]
	b	LBB19_165
LBB19_160:
	ldrb	w19, [x15]
	cmp	w19, #1
	b.eq	LBB19_163
	cbnz	w19, LBB19_165
	ldur	w20, [x15, #1]
	rev	w20, w20
	b	LBB19_164
LBB19_163:
	ldur	w20, [x15, #1]
LBB19_164:
	cmp	w20, w4
	b.eq	LBB19_176
LBB19_165:
	cbz	w19, LBB19_167
	cmp	w19, #1
	b.ne	LBB19_192
LBB19_167:
	cmp	x10, #5
	b.lo	LBB19_56
	ldur	w20, [x15, #1]
	cmp	w19, #0
	rev	w21, w20
	csel	w22, w20, w21, ne
	ubfx	w19, w22, #30, #1
	and	w21, w22, #0x7fffffff
	add	w20, w21, w16
	cmp	w19, #0
	csel	w20, w21, w20, eq
	lsr	w19, w20, #29
	add	w23, w20, w17
	cmp	w19, #0
	csel	w23, w23, w20, ne
	cmp	w23, #3999
	b.hi	LBB19_180
	umull	x20, w23, w6
	lsr	x20, x20, #32
	msub	w20, w20, w13, w23
	sub	w24, w20, #1
	cmp	w24, #6
	b.hi	LBB19_180
	tbnz	w22, #31, LBB19_173
	umull	x22, w23, w5
	lsr	w23, w21, #30
	lsr	x21, x22, #38
	cbz	w23, LBB19_174
	lsl	w21, w21, #3
	lsr	w21, w14, w21
	b	LBB19_174
LBB19_173:
	lsr	w21, w21, #30
	cmp	w23, #2000
	ccmp	w21, #0, #0, lo
	csinc	w21, w7, wzr, ne
LBB19_174:
	and	w21, w21, #0xff
	mov	w24, #9
	cmp	w21, w8, uxtb
	b.ne	LBB19_195
	cmp	w20, #1
	ccmp	w19, #0, #0, eq
	b.ne	LBB19_195
LBB19_176:
	ldr	x20, [x12, x3, lsl #3]
	subs	x19, x10, x20
	b.lo	LBB19_194
	add	x9, x9, #1
	add	x15, x15, x20
	cmp	w11, w9
	b.ne	LBB19_157
	b	LBB19_184
LBB19_178:
	mov	x23, x1
LBB19_179:
	stp	x9, x23, [sp, #24]
	b	LBB19_185
LBB19_180:
	mov	w24, #1
	b	LBB19_195
LBB19_181:
	mov	w24, #5
	b	LBB19_195
LBB19_182:
	mov	w24, #7
	mov	x10, x26
	b	LBB19_195
LBB19_183:
	mov	x11, xzr
	mov	x10, x1
LBB19_184:
	stp	x11, x10, [sp, #24]
LBB19_185:
	bl	_ZN7wkb_raw6erased10wkb_bounds4scan17front_bounds_into17hf7a37f4f4fd991b8E
	mov	w0, wzr
	b	LBB19_201
LBB19_186:
	adrp	x12, Lswitch.table.wkb_raw_write.374@PAGE
	add	x12, x12, Lswitch.table.wkb_raw_write.374@PAGEOFF
	mov	x9, xzr
	and	x8, x8, #0xff
	mov	w24, #7
	ldr	x12, [x12, x8, lsl #3]
	mov	x8, x10
LBB19_187:
	ldr	w10, [x11]
	rev	w15, w10
	mul	x10, x12, x15
	orr	x14, x10, #0x4
	subs	x10, x8, x14
	b.lo	LBB19_190
	subs	w13, w13, #1
	add	x9, x9, x15
	b.eq	LBB19_53
	cmp	x10, #4
	add	x11, x11, x14
	mov	x8, x10
	b.hs	LBB19_187
	b	LBB19_195
LBB19_190:
	mov	w24, #5
	mov	x10, x8
	b	LBB19_195
LBB19_191:
	mov	w24, #4
	b	LBB19_195
LBB19_192:
	mov	w24, #2
	b	LBB19_195
LBB19_193:
	mov	w24, #1
	cmp	w24, #7
	b.lo	LBB19_199
	b	LBB19_197
LBB19_194:
	mov	w24, #3
LBB19_195:
	stp	x9, x10, [sp, #24]
LBB19_196:
	cmp	w24, #7
	b.lo	LBB19_199
LBB19_197:
	adrp	x8, Lswitch.table._ZN7wkb_raw6erased7wkb_abi6column9check_row17h3e84d1932f31260dE.187@PAGE
	add	x8, x8, Lswitch.table._ZN7wkb_raw6erased7wkb_abi6column9check_row17h3e84d1932f31260dE.187@PAGEOFF
	add	x8, x8, w24, uxtw #2
	ldur	w1, [x8, #-28]
	b	LBB19_200
LBB19_198:
	mov	w24, #2
	cmp	w24, #7
	b.hs	LBB19_197
LBB19_199:
	adrp	x8, Lswitch.table._ZN7wkb_raw6erased7wkb_abi6column9check_row17h3e84d1932f31260dE.188@PAGE
	add	x8, x8, Lswitch.table._ZN7wkb_raw6erased7wkb_abi6column9check_row17h3e84d1932f31260dE.188@PAGEOFF
	ldr	w1, [x8, w24, uxtw #2]
LBB19_200:
	mov	w0, #1
LBB19_201:
	mov	sp, x29
	.cfi_def_cfa wsp, 96
	ldp	x20, x19, [sp, #80]
	ldp	x22, x21, [sp, #64]
	ldp	x24, x23, [sp, #48]
	ldp	x26, x25, [sp, #32]
	ldp	x28, x27, [sp, #16]
	ldp	x29, x30, [sp], #96
	.cfi_def_cfa_offset 0
	.cfi_restore w19
	.cfi_restore w20
	.cfi_restore w21
	.cfi_restore w22
	.cfi_restore w23
	.cfi_restore w24
	.cfi_restore w25
	.cfi_restore w26
	.cfi_restore w27
	.cfi_restore w28
	.cfi_restore w30
	.cfi_restore w29
	ret
Lfunc_end19:
	.cfi_endproc
	.section	__TEXT,__text,regular,pure_instructions
	.p2align	2
_ZN7wkb_raw6erased5wkb_c18column_coordinates15any_levels_into17h04a62653480ba2a5E:
	.cfi_startproc
	stp	x29, x30, [sp, #-96]!
	.cfi_def_cfa_offset 96
	stp	x28, x27, [sp, #16]
	stp	x26, x25, [sp, #32]
	stp	x24, x23, [sp, #48]
	stp	x22, x21, [sp, #64]
	stp	x20, x19, [sp, #80]
	mov	x29, sp
	.cfi_def_cfa w29, 96
	.cfi_offset w19, -8
	.cfi_offset w20, -16
	.cfi_offset w21, -24
	.cfi_offset w22, -32
	.cfi_offset w23, -40
	.cfi_offset w24, -48
	.cfi_offset w25, -56
	.cfi_offset w26, -64
	.cfi_offset w27, -72
	.cfi_offset w28, -80
	.cfi_offset w30, -88
	.cfi_offset w29, -96
	.cfi_remember_state
	sub	x9, sp, #224
	and	sp, x9, #0xffffffffffffffe0
	cmp	x1, #5
	b.hs	LBB20_3
	cbz	x1, LBB20_60
	ldrb	w22, [x0]
	b	LBB20_57
LBB20_3:
	ldrb	w22, [x0]
	cmp	w22, #1
	b.eq	LBB20_10
	cbnz	w22, LBB20_57
	ldur	w8, [x0, #1]
	rev	w9, w8
	lsr	w8, w9, #29
	cmp	w8, #0
	cset	w23, ne
	cbz	w8, LBB20_11
LBB20_6:
	mov	w8, #3
	movk	w8, #8192, lsl #16
	cmp	w9, w8
	mov	w8, wzr
	b.le	LBB20_16
	mov	w10, #5
	movk	w10, #8192, lsl #16
	cmp	w9, w10
	b.gt	LBB20_23
	mov	w8, #4
	movk	w8, #8192, lsl #16
	cmp	w9, w8
	b.eq	LBB20_28
	mov	w8, #5
	movk	w8, #8192, lsl #16
	cmp	w9, w8
	b.eq	LBB20_15
	b	LBB20_57
LBB20_10:
	ldur	w9, [x0, #1]
	lsr	w8, w9, #29
	cmp	w8, #0
	cset	w23, ne
	cbnz	w8, LBB20_6
LBB20_11:
	cmp	w9, #3
	b.le	LBB20_19
	cmp	w9, #5
	b.gt	LBB20_25
	cmp	w9, #4
	b.eq	LBB20_28
	cmp	w9, #5
	b.ne	LBB20_46
LBB20_15:
	mov	w19, wzr
	mov	w8, #4
	b	LBB20_31
LBB20_16:
	mov	w10, #1
	mov	w19, w8
	movk	w10, #8192, lsl #16
	cmp	w9, w10
	b.eq	LBB20_31
	mov	w8, #2
	movk	w8, #8192, lsl #16
	cmp	w9, w8
	b.eq	LBB20_30
	mov	w8, #3
	movk	w8, #8192, lsl #16
	cmp	w9, w8
	b.eq	LBB20_22
	b	LBB20_57
LBB20_19:
	cmp	w9, #1
	mov	w19, w8
	b.eq	LBB20_31
	cmp	w9, #2
	b.eq	LBB20_30
	cmp	w9, #3
	b.ne	LBB20_46
LBB20_22:
	mov	w19, wzr
	mov	w8, #2
	b	LBB20_31
LBB20_23:
	mov	w10, #6
	movk	w10, #8192, lsl #16
	cmp	w9, w10
	b.eq	LBB20_29
	mov	w10, #7
	movk	w10, #8192, lsl #16
	cmp	w9, w10
	b.eq	LBB20_27
	b	LBB20_57
LBB20_25:
	cmp	w9, #6
	b.eq	LBB20_29
	cmp	w9, #7
	b.ne	LBB20_46
LBB20_27:
	tst	w9, #0xe0000000
	mov	x25, x3
	mov	x20, x0
	cset	w9, ne
	mov	x26, x2
	mov	x28, x4
	strb	w9, [sp, #129]
	mov	w9, #6
	mov	x21, x1
	strb	w9, [sp, #130]
	mov	w9, #1
	mov	w19, w8
	stp	xzr, xzr, [sp, #192]
	str	x1, [sp, #208]
	strb	w22, [sp, #128]
	strb	w8, [sp, #131]
	str	w9, [sp, #136]
	b	LBB20_149
LBB20_28:
	mov	w19, wzr
	mov	w8, #3
	b	LBB20_31
LBB20_29:
	mov	w19, wzr
	mov	w8, #5
	b	LBB20_31
LBB20_30:
	mov	w19, wzr
	mov	w8, #1
LBB20_31:
	tst	w9, #0xe0000000
	stp	xzr, xzr, [sp, #192]
	cset	w9, ne
	str	x1, [sp, #208]
	strb	w9, [sp, #129]
	mov	w9, #1
	strb	w22, [sp, #128]
	strb	w8, [sp, #130]
	strb	w19, [sp, #131]
	str	w9, [sp, #136]
	and	w9, w8, #0xff
	cmp	w9, #2
	b.gt	LBB20_71
LBB20_32:
	cbz	w9, LBB20_37
	cmp	w9, #1
	b.ne	LBB20_39
	cmp	w23, #0
	mov	w9, #5
	mov	w10, #9
	csel	x9, x10, x9, ne
	add	x10, x9, #4
	cmp	x1, x10
	b.lo	LBB20_106
	ldr	w9, [x0, x9]
	mov	w10, w19
	adrp	x11, Lswitch.table.wkb_raw_write.374@PAGE
	add	x11, x11, Lswitch.table.wkb_raw_write.374@PAGEOFF
	and	x10, x10, #0xff
	tst	w22, #0x1
	rev	w12, w9
	ldr	x10, [x11, x10, lsl #3]
	mov	w11, #9
	csel	w9, w9, w12, ne
	cmp	w23, #0
	mov	w12, #13
	csel	x11, x12, x11, ne
	madd	x10, x10, x9, x11
	cmp	x1, x10
	b.hs	LBB20_49
	mov	w30, #4
	cmp	w30, #7
	b.lo	LBB20_302
	b	LBB20_267
LBB20_37:
	mov	w9, w19
	adrp	x12, Lswitch.table.wkb_raw_write.374@PAGE
	add	x12, x12, Lswitch.table.wkb_raw_write.374@PAGEOFF
	and	x9, x9, #0xff
	cmp	w23, #0
	mov	w10, #5
	mov	w11, #9
	ldr	x9, [x12, x9, lsl #3]
	csel	x10, x11, x10, ne
	add	x9, x9, x10
	cmp	x1, x9
	b.hs	LBB20_45
	mov	w30, #3
	cmp	w30, #7
	b.lo	LBB20_302
	b	LBB20_267
LBB20_39:
	cmp	w23, #0
	mov	w9, #5
	mov	w10, #9
	csel	x11, x10, x9, ne
	add	x9, x11, #4
	cmp	x1, x9
	b.lo	LBB20_106
	add	x10, x0, x11
	tst	w22, #0x1
	ldr	w9, [x10], #4
	rev	w12, w9
	csel	w12, w9, w12, ne
	cbz	w12, LBB20_153
	sub	x11, x1, x11
	mov	w13, w19
	mov	x9, xzr
	sub	x11, x11, #4
	and	x13, x13, #0xff
	adrp	x14, Lswitch.table.wkb_raw_write.374@PAGE
	add	x14, x14, Lswitch.table.wkb_raw_write.374@PAGEOFF
	mov	w15, w12
LBB20_42:
	mov	x26, x11
	cmp	x11, #4
	b.lo	LBB20_189
	ldr	w11, [x10]
	tst	w22, #0x1
	ldr	x17, [x14, x13, lsl #3]
	rev	w16, w11
	csel	w16, w11, w16, ne
	mul	x11, x17, x16
	orr	x17, x11, #0x4
	subs	x11, x26, x17
	b.lo	LBB20_190
	subs	w15, w15, #1
	add	x9, x9, x16
	add	x10, x10, x17
	b.ne	LBB20_42
	b	LBB20_154
LBB20_45:
	mov	w10, #1
	str	x10, [sp, #200]
	add	x10, x0, x9
	ldp	x11, x9, [sp, #192]
	str	x10, [sp, #96]
	add	x10, x11, #1
	tbnz	w23, #0, LBB20_156
	b	LBB20_195
LBB20_46:
	sub	w8, w9, #1001
	cmp	w8, #7
	b.hs	LBB20_50
	cmp	w8, #6
	b.hs	LBB20_53
	mov	w19, #1
	b	LBB20_31
LBB20_49:
	str	x9, [sp, #200]
	add	x10, x0, x10
	ldp	x11, x9, [sp, #192]
	str	x10, [sp, #96]
	add	x10, x11, #1
	tbnz	w23, #0, LBB20_156
	b	LBB20_195
LBB20_50:
	sub	w8, w9, #2001
	cmp	w8, #7
	b.hs	LBB20_54
	cmp	w8, #6
	b.hs	LBB20_249
	mov	w19, #2
	b	LBB20_31
LBB20_53:
	mov	w8, #1
	b	LBB20_27
LBB20_54:
	sub	w8, w9, #3001
	cmp	w8, #7
	b.hs	LBB20_57
	cmp	w8, #6
	b.hs	LBB20_263
	mov	w19, #3
	b	LBB20_31
LBB20_57:
	cbz	w22, LBB20_59
	cmp	w22, #1
	b.ne	LBB20_66
LBB20_59:
	cmp	x1, #5
	b.hs	LBB20_61
LBB20_60:
	mov	w0, #32
	b	LBB20_303
LBB20_61:
	ldur	w8, [x0, #1]
	cmp	w22, #0
	mov	w10, #-1073741824
	mov	w12, #-536870912
	rev	w9, w8
	csel	w9, w8, w9, ne
	ubfx	w8, w9, #30, #1
	and	w11, w9, #0x7fffffff
	add	w10, w11, w10
	cmp	w8, #0
	csel	w10, w11, w10, eq
	lsr	w8, w10, #29
	cmp	w8, #0
	add	w8, w10, w12
	csel	w12, w8, w10, ne
	cset	w23, ne
	cmp	w12, #3999
	b.hi	LBB20_67
	ubfx	w8, w12, #3, #13
	mov	w13, #8389
	mul	w8, w8, w13
	mov	w13, #1000
	lsr	w8, w8, #20
	msub	w8, w8, w13, w12
	sub	w8, w8, #1
	and	w13, w8, #0xffff
	cmp	w13, #7
	b.hs	LBB20_67
	lsr	w11, w11, #30
	tbnz	w9, #31, LBB20_68
	mov	w13, #19923
	movk	w13, #4194, lsl #16
	umull	x12, w12, w13
	lsr	x19, x12, #38
	cbz	w11, LBB20_69
	lsl	w11, w19, #3
	mov	w12, #770
	movk	w12, #770, lsl #16
	lsr	w19, w12, w11
	b	LBB20_69
LBB20_66:
	mov	w0, #33
	b	LBB20_303
LBB20_67:
	mov	w0, #34
	b	LBB20_303
LBB20_68:
	cmp	w12, #2000
	ccmp	w11, #0, #0, lo
	mov	w11, #3
	csinc	w19, w11, wzr, ne
LBB20_69:
	and	w11, w8, #0xffff
	cmp	w11, #6
	b.hs	LBB20_148
	tst	w10, #0xe0000000
	stp	xzr, xzr, [sp, #192]
	cset	w10, ne
	str	x1, [sp, #208]
	strb	w10, [sp, #129]
	mov	w10, #1
	strb	w22, [sp, #128]
	strb	w8, [sp, #130]
	strb	w19, [sp, #131]
	stp	w10, w9, [sp, #136]
	and	w9, w8, #0xff
	cmp	w9, #2
	b.le	LBB20_32
LBB20_71:
	cmp	w9, #3
	b.eq	LBB20_102
	cmp	w9, #4
	b.ne	LBB20_105
	cmp	w23, #0
	mov	w9, #5
	mov	w10, #9
	csel	x11, x10, x9, ne
	add	x9, x11, #4
	cmp	x1, x9
	b.lo	LBB20_106
	add	x10, x0, x11
	tst	w22, #0x1
	ldr	w9, [x10], #4
	rev	w12, w9
	csel	w12, w9, w12, ne
	cbz	w12, LBB20_153
	and	w14, w19, #0xff
	mov	w13, #1000
	sub	x11, x1, x11
	mul	w17, w14, w13
	mov	w6, w19
	mov	w5, #35128
	mov	x9, xzr
	mov	w15, #-1073741824
	mov	w16, #-536870912
	movk	w5, #65, lsl #16
	sub	x14, x11, #4
	and	x7, x6, #0xff
	orr	w20, w17, #0x2
	mov	w24, #9
	adrp	x11, Lswitch.table.wkb_raw_write.374@PAGE
	add	x11, x11, Lswitch.table.wkb_raw_write.374@PAGEOFF
	mov	w27, w12
LBB20_76:
	mov	x26, x14
	cmp	x14, #5
	b.hs	LBB20_79
	cbz	x26, LBB20_189
	ldrb	w14, [x10]
	b	LBB20_85
LBB20_79:
	ldrb	w14, [x10]
	cmp	w14, #1
	b.eq	LBB20_82
	cbnz	w14, LBB20_85
	ldur	w17, [x10, #1]
	mov	w28, wzr
	rev	w17, w17
	b	LBB20_83
LBB20_82:
	ldur	w17, [x10, #1]
	mov	w28, #1
LBB20_83:
	cmp	w17, w20
	b.ne	LBB20_85
	mov	w14, #9
	mov	w17, #5
	b	LBB20_99
LBB20_85:
	cbz	w14, LBB20_88
	cmp	w14, #1
	b.ne	LBB20_261
	mov	w28, #1
	b	LBB20_89
LBB20_88:
	mov	w28, wzr
LBB20_89:
	cmp	x26, #5
	b.lo	LBB20_189
	ldur	w14, [x10, #1]
	cmp	w28, #0
	rev	w17, w14
	csel	w17, w14, w17, ne
	ubfx	w14, w17, #30, #1
	and	w6, w17, #0x7fffffff
	add	w21, w6, w15
	cmp	w14, #0
	csel	w21, w6, w21, eq
	lsr	w14, w21, #29
	add	w30, w21, w16
	cmp	w14, #0
	csel	w21, w30, w21, ne
	cmp	w21, #3999
	b.hi	LBB20_191
	umull	x30, w21, w5
	lsr	x30, x30, #32
	msub	w30, w30, w13, w21
	sub	w25, w30, #1
	cmp	w25, #6
	b.hi	LBB20_191
	tbnz	w17, #31, LBB20_95
	mov	w17, #19923
	lsr	w6, w6, #30
	movk	w17, #4194, lsl #16
	umull	x17, w21, w17
	lsr	x17, x17, #38
	cbz	w6, LBB20_96
	lsl	w17, w17, #3
	mov	w6, #770
	movk	w6, #770, lsl #16
	lsr	w17, w6, w17
	b	LBB20_96
LBB20_95:
	lsr	w17, w6, #30
	cmp	w21, #2000
	ccmp	w17, #0, #0, lo
	mov	w17, #3
	csinc	w17, w17, wzr, ne
LBB20_96:
	cmp	w30, #2
	mov	w30, #9
	b.ne	LBB20_265
	and	w17, w17, #0xff
	cmp	w17, w19, uxtb
	b.ne	LBB20_265
	cmp	w14, #0
	mov	w14, #5
	csel	x17, x24, x14, ne
	mov	w14, #13
	csel	x14, x14, x24, ne
LBB20_99:
	add	x6, x17, #4
	cmp	x26, x6
	b.lo	LBB20_189
	ldr	w17, [x10, x17]
	cmp	w28, #0
	ldr	x21, [x11, x7, lsl #3]
	rev	w6, w17
	csel	w17, w17, w6, ne
	madd	x6, x21, x17, x14
	subs	x14, x26, x6
	b.lo	LBB20_250
	subs	w27, w27, #1
	add	x9, x9, x17
	add	x10, x10, x6
	b.ne	LBB20_76
	b	LBB20_154
LBB20_102:
	cmp	w23, #0
	mov	w9, #5
	mov	w10, #9
	csel	x11, x10, x9, ne
	add	x9, x11, #4
	cmp	x1, x9
	b.lo	LBB20_106
	add	x9, x0, x11
	mov	w12, w19
	adrp	x13, Lswitch.table.wkb_raw_write.371@PAGE
	add	x13, x13, Lswitch.table.wkb_raw_write.371@PAGEOFF
	ldr	w10, [x9]
	tst	w22, #0x1
	and	x12, x12, #0xff
	rev	w14, w10
	ldr	x15, [x13, x12, lsl #3]
	csel	w12, w10, w14, ne
	cmp	w23, #0
	mov	w10, #9
	mov	w14, #13
	csel	x10, x14, x10, ne
	madd	x10, x15, x12, x10
	cmp	x1, x10
	b.hs	LBB20_164
	mov	w30, #6
	cmp	w30, #7
	b.lo	LBB20_302
	b	LBB20_267
LBB20_105:
	cmp	w23, #0
	mov	w9, #5
	mov	w10, #9
	csel	x11, x10, x9, ne
	add	x9, x11, #4
	cmp	x1, x9
	b.hs	LBB20_107
LBB20_106:
	mov	w30, #7
	cmp	w30, #7
	b.lo	LBB20_302
	b	LBB20_267
LBB20_107:
	add	x10, x0, x11
	tst	w22, #0x1
	ldr	w9, [x10], #4
	rev	w12, w9
	csel	w12, w9, w12, ne
	cbz	w12, LBB20_155
	and	w15, w19, #0xff
	mov	w14, #1000
	sub	x11, x1, x11
	mul	w17, w15, w14
	mov	w6, w19
	mov	w5, #35128
	mov	w13, wzr
	mov	x20, xzr
	mov	x9, xzr
	mov	w15, #-1073741824
	mov	w16, #-536870912
	movk	w5, #65, lsl #16
	sub	x27, x11, #4
	and	x6, x6, #0xff
	orr	w7, w17, #0x3
LBB20_109:
	cmp	x27, #5
	str	x27, [sp, #208]
	b.hs	LBB20_112
	cbz	x27, LBB20_106
	ldrb	w11, [x10]
	b	LBB20_118
LBB20_112:
	ldrb	w11, [x10]
	cmp	w11, #1
	b.eq	LBB20_115
	cbnz	w11, LBB20_118
	ldur	w17, [x10, #1]
	mov	w21, wzr
	rev	w17, w17
	b	LBB20_116
LBB20_115:
	ldur	w17, [x10, #1]
	mov	w21, #1
LBB20_116:
	cmp	w17, w7
	b.ne	LBB20_118
	mov	w11, #5
	b	LBB20_132
LBB20_118:
	cbz	w11, LBB20_121
	cmp	w11, #1
	b.ne	LBB20_301
	mov	w21, #1
	b	LBB20_122
LBB20_121:
	mov	w21, wzr
LBB20_122:
	cmp	x27, #5
	b.lo	LBB20_106
	ldur	w11, [x10, #1]
	cmp	w21, #0
	rev	w17, w11
	csel	w30, w11, w17, ne
	ubfx	w11, w30, #30, #1
	and	w26, w30, #0x7fffffff
	add	w17, w26, w15
	cmp	w11, #0
	csel	w17, w26, w17, eq
	lsr	w11, w17, #29
	add	w24, w17, w16
	cmp	w11, #0
	csel	w24, w24, w17, ne
	cmp	w24, #3999
	b.hi	LBB20_262
	umull	x17, w24, w5
	lsr	x17, x17, #32
	msub	w17, w17, w14, w24
	sub	w25, w17, #1
	cmp	w25, #6
	b.hi	LBB20_262
	tbnz	w30, #31, LBB20_128
	mov	w25, #19923
	movk	w25, #4194, lsl #16
	umull	x24, w24, w25
	lsr	w25, w26, #30
	lsr	x26, x24, #38
	cbz	w25, LBB20_129
	lsl	w24, w26, #3
	mov	w25, #770
	movk	w25, #770, lsl #16
	lsr	w26, w25, w24
	b	LBB20_129
LBB20_128:
	lsr	w25, w26, #30
	cmp	w24, #2000
	mov	w24, #3
	ccmp	w25, #0, #0, lo
	csinc	w26, w24, wzr, ne
LBB20_129:
	cmp	w17, #3
	mov	w30, #9
	b.ne	LBB20_266
	and	w17, w26, #0xff
	cmp	w17, w19, uxtb
	b.ne	LBB20_266
	cmp	w11, #0
	mov	w11, #5
	mov	w17, #9
	csel	x11, x17, x11, ne
LBB20_132:
	add	x17, x11, #4
	cmp	x27, x17
	b.lo	LBB20_106
	add	x10, x10, x11
	cmp	w21, #0
	sub	x24, x27, x11
	ldr	w30, [x10], #4
	sub	x26, x24, #4
	rev	w17, w30
	csel	w11, w30, w17, ne
	cbz	w11, LBB20_140
	add	x11, x20, #2
	cmp	x24, #8
	cbz	w21, LBB20_141
	b.lt	LBB20_189
	adrp	x17, Lswitch.table.wkb_raw_write.374@PAGE
	add	x17, x17, Lswitch.table.wkb_raw_write.374@PAGEOFF
	sub	w20, w30, #1
	ldr	x17, [x17, x6, lsl #3]
	add	x20, x11, x20
LBB20_137:
	ldr	w21, [x10]
	mul	x11, x17, x21
	orr	x24, x11, #0x4
	subs	x11, x26, x24
	b.lo	LBB20_190
	and	x25, x28, #0xffffffff00000000
	subs	w30, w30, #1
	add	x9, x9, x21
	orr	x28, x25, x21
	add	x10, x10, x24
	b.eq	LBB20_146
	cmp	x11, #4
	mov	x26, x11
	b.hs	LBB20_137
	b	LBB20_192
LBB20_140:
	add	x20, x20, #1
	b	LBB20_147
LBB20_141:
	b.lt	LBB20_189
	adrp	x21, Lswitch.table.wkb_raw_write.374@PAGE
	add	x21, x21, Lswitch.table.wkb_raw_write.374@PAGEOFF
	sub	w20, w17, #1
	ldr	x21, [x21, x6, lsl #3]
	add	x20, x11, x20
LBB20_143:
	ldr	w11, [x10]
	rev	w24, w11
	mul	x11, x21, x24
	orr	x27, x11, #0x4
	subs	x11, x26, x27
	b.lo	LBB20_190
	and	x25, x28, #0xffffffff00000000
	subs	w17, w17, #1
	add	x9, x9, x24
	orr	x28, x25, x24
	add	x10, x10, x27
	b.eq	LBB20_146
	cmp	x11, #4
	mov	x26, x11
	b.hs	LBB20_143
	b	LBB20_192
LBB20_146:
	mov	x27, x26
	mov	x26, x11
LBB20_147:
	add	w13, w13, #1
	str	x27, [sp, #208]
	mov	x27, x26
	cmp	w13, w12
	stp	x20, x9, [sp, #192]
	b.ne	LBB20_109
	b	LBB20_155
LBB20_148:
	tst	w10, #0xe0000000
	mov	x25, x3
	mov	x20, x0
	cset	w8, ne
	mov	x26, x2
	mov	x28, x4
	strb	w8, [sp, #129]
	mov	w8, #6
	mov	x21, x1
	strb	w8, [sp, #130]
	mov	w8, #1
	stp	xzr, xzr, [sp, #192]
	str	x1, [sp, #208]
	strb	w22, [sp, #128]
	strb	w19, [sp, #131]
	stp	w8, w9, [sp, #136]
LBB20_149:
	add	x0, sp, #88
	add	x2, sp, #128
	add	x5, sp, #192
	mov	x1, xzr
	mov	x3, x20
	mov	x4, x21
	bl	_ZN7wkb_raw6erased9wkb_check6nested15skip_collection17h3e96ec52d62a4ff3E
	ldr	w30, [sp, #88]
	cmp	w30, #11
	b.ne	LBB20_266
	ldp	x8, x9, [sp, #192]
	add	x10, x8, #1
	tbz	w23, #0, LBB20_152
	mov	w8, #6
	mov	x4, x28
	mov	x2, x26
	mov	x1, x21
	mov	x0, x20
	mov	x3, x25
	b	LBB20_156
LBB20_152:
	mov	w11, wzr
	mov	w24, #7
	mov	w27, w22
	mov	x4, x28
	mov	x2, x26
	mov	x1, x21
	mov	x0, x20
	mov	x3, x25
	b	LBB20_203
LBB20_153:
	mov	x9, xzr
	mov	x12, xzr
	mov	x26, x1
LBB20_154:
	stp	x9, x26, [sp, #200]
	str	x12, [sp, #192]
LBB20_155:
	ldp	x11, x9, [sp, #192]
	str	x10, [sp, #96]
	add	x10, x11, #1
	tbz	w23, #0, LBB20_195
LBB20_156:
	ldur	w11, [x0, #5]
	tst	w22, #0x1
	rev	w12, w11
	csel	w12, w11, w12, ne
	mov	w11, #1
	and	w13, w8, #0xff
	and	w8, w22, #0x1
	cmp	w13, #2
	b.le	LBB20_196
LBB20_157:
	cmp	w13, #4
	b.gt	LBB20_160
	cmp	w13, #3
	b.ne	LBB20_162
	mov	w24, #4
	b	LBB20_201
LBB20_160:
	cmp	w13, #5
	b.ne	LBB20_163
	mov	w24, #6
	b	LBB20_201
LBB20_162:
	mov	w24, #5
	b	LBB20_201
LBB20_163:
	mov	w24, #7
	b	LBB20_201
LBB20_164:
	add	x10, x9, #4
	cbz	w12, LBB20_193
	and	w15, w19, #0xff
	mov	w14, #1000
	sub	x11, x1, x11
	mul	w6, w15, w14
	mov	w15, #770
	mov	w5, w19
	mov	w7, #19923
	mov	w20, #35128
	mov	x9, xzr
	movk	w15, #770, lsl #16
	mov	w16, #-1073741824
	mov	w17, #-536870912
	sub	x11, x11, #4
	and	x5, x5, #0xff
	orr	w6, w6, #0x1
	movk	w7, #4194, lsl #16
	movk	w20, #65, lsl #16
	mov	w21, #3
LBB20_166:
	mov	x26, x11
	cmp	x11, #5
	b.hs	LBB20_169
	cbz	x26, LBB20_189
	ldrb	w24, [x10]
	b	LBB20_174
LBB20_169:
	ldrb	w24, [x10]
	cmp	w24, #1
	b.eq	LBB20_172
	cbnz	w24, LBB20_174
	ldur	w11, [x10, #1]
	rev	w11, w11
	b	LBB20_173
LBB20_172:
	ldur	w11, [x10, #1]
LBB20_173:
	cmp	w11, w6
	b.eq	LBB20_187
LBB20_174:
	cbz	w24, LBB20_177
	cmp	w24, #1
	b.ne	LBB20_261
	mov	w11, #1
	b	LBB20_178
LBB20_177:
	mov	w11, wzr
LBB20_178:
	cmp	x26, #5
	b.lo	LBB20_189
	ldur	w24, [x10, #1]
	cmp	w11, #0
	rev	w25, w24
	csel	w27, w24, w25, ne
	ubfx	w24, w27, #30, #1
	and	w11, w27, #0x7fffffff
	add	w25, w11, w16
	cmp	w24, #0
	csel	w25, w11, w25, eq
	lsr	w24, w25, #29
	add	w28, w25, w17
	cmp	w24, #0
	csel	w28, w28, w25, ne
	cmp	w28, #3999
	b.hi	LBB20_191
	umull	x25, w28, w20
	lsr	x25, x25, #32
	msub	w25, w25, w14, w28
	sub	w30, w25, #1
	cmp	w30, #6
	b.hi	LBB20_191
	tbnz	w27, #31, LBB20_184
	umull	x27, w28, w7
	lsr	w28, w11, #30
	lsr	x11, x27, #38
	cbz	w28, LBB20_185
	lsl	w11, w11, #3
	lsr	w11, w15, w11
	b	LBB20_185
LBB20_184:
	lsr	w11, w11, #30
	cmp	w28, #2000
	ccmp	w11, #0, #0, lo
	csinc	w11, w21, wzr, ne
LBB20_185:
	and	w11, w11, #0xff
	mov	w30, #9
	cmp	w11, w19, uxtb
	b.ne	LBB20_265
	cmp	w25, #1
	ccmp	w24, #0, #0, eq
	b.ne	LBB20_265
LBB20_187:
	ldr	x24, [x13, x5, lsl #3]
	subs	x11, x26, x24
	b.lo	LBB20_264
	add	x9, x9, #1
	add	x10, x10, x24
	cmp	w12, w9
	b.ne	LBB20_166
	b	LBB20_194
LBB20_189:
	mov	w30, #7
	b	LBB20_265
LBB20_190:
	mov	w30, #5
	b	LBB20_265
LBB20_191:
	mov	w30, #1
	b	LBB20_265
LBB20_192:
	mov	w30, #7
	mov	x26, x11
	b	LBB20_265
LBB20_193:
	mov	x12, xzr
	mov	x26, x1
LBB20_194:
	stp	x12, x26, [sp, #200]
	str	x12, [sp, #192]
	ldp	x11, x9, [sp, #192]
	str	x10, [sp, #96]
	add	x10, x11, #1
	tbnz	w23, #0, LBB20_156
LBB20_195:
	mov	w11, wzr
	and	w13, w8, #0xff
	and	w8, w22, #0x1
	cmp	w13, #2
	b.gt	LBB20_157
LBB20_196:
	cbz	w13, LBB20_199
	cmp	w13, #1
	b.ne	LBB20_200
	mov	w27, w22
	mov	w24, #2
	b	LBB20_202
LBB20_199:
	cmp	w11, #0
	mov	w13, #5
	mov	w14, #9
	csel	x25, x14, x13, ne
	mov	w24, #1
	mov	w27, w22
	mov	w21, #1
	b	LBB20_204
LBB20_200:
	mov	w24, #3
LBB20_201:
	mov	w27, w22
LBB20_202:
	mov	w22, w8
LBB20_203:
	cmp	w11, #0
	mov	w8, #5
	mov	w13, #9
	csel	x8, x13, x8, ne
	tst	w27, #0x1
	ldr	w13, [x0, x8]
	add	x25, x8, #4
	mov	w8, w22
	rev	w14, w13
	csel	w21, w13, w14, ne
LBB20_204:
	strb	w8, [sp, #120]
	ldr	q0, [x3]
	ldr	x8, [x3, #16]
	cmp	w24, #6
	strb	w19, [sp, #121]
	stp	w11, w12, [sp, #88]
	stp	w24, w21, [sp, #112]
	stp	xzr, x25, [sp, #96]
	str	q0, [sp, #192]
	str	x8, [sp, #208]
	b.ls	LBB20_206
	mov	x20, x0
	mov	x22, x1
	add	x0, sp, #128
	mov	x23, x4
	add	x4, sp, #88
	mov	x1, x3
	mov	x26, x2
	mov	x2, x20
	mov	x28, x3
	mov	x3, x22
	bl	_ZN7wkb_raw6erased7wkb_abi6totals6Totals10after_walk17h45c5ce6eed5cc5eeE
	mov	x3, x28
	mov	x0, x20
	mov	x1, x22
	mov	x2, x26
	mov	x4, x23
	b	LBB20_211
LBB20_206:
	ldr	q0, [x3]
	ldr	x8, [x3, #16]
	cmp	w24, #3
	mov	w11, w21
	b.hs	LBB20_208
	mov	w12, #1
	b	LBB20_210
LBB20_208:
	cmp	w24, #6
	mov	x12, x11
	b.ne	LBB20_210
	add	x12, x11, #1
	subs	x10, x10, x12
	csel	x12, xzr, x10, lo
LBB20_210:
	fmov	d1, x9
	cmp	w24, #4
	csinc	x9, x11, xzr, hs
	adds	x8, x8, x9
	mov	v1.d[1], x12
	csinv	x8, x8, xzr, lo
	str	x8, [sp, #144]
	uqadd	v0.2d, v0.2d, v1.2d
	str	q0, [sp, #128]
LBB20_211:
	ldr	q0, [sp, #128]
	and	w9, w2, #0xff
	ldr	x10, [sp, #144]
	sub	w11, w9, #1
	ldr	x7, [x4, #8]
	str	q0, [x3]
	cmp	w11, #2
	ldr	x8, [x3]
	str	x10, [x3, #16]
	b.hs	LBB20_213
	mov	x9, #-6148914691236517206
	movk	x9, #43691
	umulh	x9, x7, x9
	lsr	x9, x9, #1
	cmp	x8, x9
	b.ls	LBB20_216
	b	LBB20_218
LBB20_213:
	cmp	w9, #3
	b.ne	LBB20_215
	lsr	x9, x7, #2
	cmp	x8, x9
	b.hi	LBB20_218
	b	LBB20_216
LBB20_215:
	lsr	x9, x7, #1
	cmp	x8, x9
	b.hi	LBB20_218
LBB20_216:
	ldr	x8, [x3, #8]
	ldr	x9, [x4, #24]
	cmp	x8, x9
	b.hi	LBB20_218
	ldr	x8, [x3, #16]
	ldr	x9, [x4, #40]
	cmp	x8, x9
	b.ls	LBB20_219
LBB20_218:
	mov	w0, #2
	b	LBB20_303
LBB20_219:
	cmp	w24, #4
	b.lo	LBB20_225
	cmp	w21, #1
	b.ne	LBB20_225
	add	x26, x0, x25
	ands	w12, w27, #0x1
	ldur	w10, [x26, #1]
	ldrb	w8, [x26]
	rev	w11, w10
	csel	w9, w10, w11, ne
	cmp	w8, w12
	b.ne	LBB20_243
	sub	w12, w9, #1
	cmp	w12, #6
	b.hi	LBB20_243
	cmp	w9, #1
	b.ne	LBB20_259
	mov	w22, #1
	mov	w28, #5
	b	LBB20_260
LBB20_225:
	cmp	w24, #3
	b.hs	LBB20_233
	mov	w8, w2
	adrp	x9, Lswitch.table.wkb_raw_column_from_coordinates.278@PAGE
	add	x9, x9, Lswitch.table.wkb_raw_column_from_coordinates.278@PAGEOFF
	and	x8, x8, #0xff
	ldr	x22, [sp, #192]
	ldr	x6, [x4]
	ldr	x8, [x9, x8, lsl #3]
	ldr	x23, [x4, #16]
	cmp	w24, #1
	add	x0, x0, x25
	mul	x8, x22, x8
	b.ne	LBB20_251
	cmp	w21, #1
	b.ne	LBB20_251
	add	x10, x6, x8, lsl #3
	tbz	w27, #0, LBB20_276
	ldr	q0, [x0]
	and	w9, w2, #0xff
	cmp	w9, #1
	str	q0, [x10]
	b.gt	LBB20_294
	cbz	w9, LBB20_370
	and	w11, w19, #0xff
	mov	x9, #9221120237041090560
	mov	w10, #2
	cmp	w11, #1
	b.gt	LBB20_327
	cbnz	w11, LBB20_328
	b	LBB20_369
LBB20_233:
	b.ne	LBB20_253
	and	w8, w19, #0xff
	cmp	w8, w2, uxtb
	cset	w8, eq
	and	w9, w8, w27
	mov	w8, w21
	tbz	w9, #0, LBB20_269
	ldp	x20, x9, [sp, #200]
	ldr	x10, [x4, #32]
	ldr	x19, [x4]
	ldr	x22, [x4, #16]
	add	x8, x20, x8
	str	x8, [x10, x9, lsl #3]
	cbz	w21, LBB20_433
	ldr	x23, [sp, #192]
	b	LBB20_239
LBB20_237:
	add	x8, x26, x26, lsl #1
	mov	w9, #3
	lsl	x8, x8, #3
LBB20_238:
	mul	x3, x9, x23
	mov	x27, x0
	mov	x2, x19
	sub	w21, w21, #1
	umull	x1, w9, w26
	add	x9, x25, #4
	add	x0, x0, x9
	add	x25, x8, x9
	bl	_ZN7wkb_raw6erased7wkb_abi12level_slices9lay_words17h891fea4f68a17320E
	adds	x9, x23, x26
	mov	x0, x27
	mov	w8, wzr
	str	x9, [x22, x20, lsl #3]
	csinv	x23, x9, xzr, lo
	add	x20, x20, #1
	mov	x2, x24
	cbz	w21, LBB20_275
LBB20_239:
	and	w8, w2, #0xff
	ldr	w26, [x0, x25]
	mov	x24, x2
	sub	w9, w8, #1
	cmp	w9, #2
	b.lo	LBB20_237
	cmp	w8, #3
	b.ne	LBB20_242
	lsl	x8, x26, #5
	mov	w9, #4
	b	LBB20_238
LBB20_242:
	lsl	x8, x26, #4
	mov	w9, #2
	b	LBB20_238
LBB20_243:
	cmp	w8, #0
	csel	w9, w11, w10, eq
	lsr	w12, w9, #29
	cbz	w12, LBB20_254
	mov	w12, #3
	movk	w12, #8192, lsl #16
	cmp	w9, w12
	b.le	LBB20_280
	mov	w12, #5
	movk	w12, #8192, lsl #16
	cmp	w9, w12
	b.gt	LBB20_288
	mov	w12, #4
	movk	w12, #8192, lsl #16
	cmp	w9, w12
	b.eq	LBB20_311
	mov	w12, #5
	movk	w12, #8192, lsl #16
	cmp	w9, w12
	b.ne	LBB20_345
	mov	w24, wzr
	mov	w9, #5
	b	LBB20_320
LBB20_249:
	mov	w8, #2
	b	LBB20_27
LBB20_250:
	mov	w30, #4
	b	LBB20_265
LBB20_251:
	and	w10, w19, #0xff
	mov	x24, x4
	cmp	w10, w2, uxtb
	cset	w10, eq
	and	w10, w10, w27
	tbz	w10, #0, LBB20_268
	mov	w10, w2
	mov	w19, w21
	mov	x2, x6
	and	x10, x10, #0xff
	mov	x3, x8
	ldr	x9, [x9, x10, lsl #3]
	mul	x1, x9, x19
	bl	_ZN7wkb_raw6erased7wkb_abi12level_slices9lay_words17h891fea4f68a17320E
	mov	x4, x24
	b	LBB20_371
LBB20_253:
	mov	x8, x2
	add	x2, sp, #88
	add	x3, sp, #192
	mov	x5, x4
	mov	w4, w8
	bl	_ZN7wkb_raw6erased7wkb_abi12level_slices10lay_walked17h0fd2640570ce7428E
	mov	w0, wzr
	b	LBB20_303
LBB20_254:
	cmp	w9, #3
	mov	w24, wzr
	b.le	LBB20_284
	cmp	w9, #5
	b.gt	LBB20_291
	cmp	w9, #4
	b.eq	LBB20_402
	cmp	w9, #5
	b.ne	LBB20_306
LBB20_258:
	mov	w12, #5
	mov	w10, wzr
	mov	w27, w8
	mov	w9, w12
	b	LBB20_406
LBB20_259:
	ldur	w10, [x26, #5]
	tst	w27, #0x1
	mov	w28, #9
	rev	w11, w10
	csel	w22, w10, w11, ne
LBB20_260:
	mov	w24, wzr
	str	wzr, [sp, #128]
	stp	xzr, x28, [sp, #136]
	stp	w9, w22, [sp, #152]
	strb	w8, [sp, #160]
	strb	wzr, [sp, #161]
	b	LBB20_408
LBB20_261:
	mov	w30, #2
	b	LBB20_265
LBB20_262:
	mov	w30, #1
	cmp	w30, #7
	b.lo	LBB20_302
	b	LBB20_267
LBB20_263:
	mov	w8, #3
	b	LBB20_27
LBB20_264:
	mov	w30, #3
LBB20_265:
	stp	x9, x26, [sp, #200]
LBB20_266:
	cmp	w30, #7
	b.lo	LBB20_302
LBB20_267:
	adrp	x8, Lswitch.table._ZN7wkb_raw6erased7wkb_abi6column9check_row17h3e84d1932f31260dE.187@PAGE
	add	x8, x8, Lswitch.table._ZN7wkb_raw6erased7wkb_abi6column9check_row17h3e84d1932f31260dE.187@PAGEOFF
	add	x8, x8, w30, uxtw #2
	ldur	w0, [x8, #-28]
	b	LBB20_303
LBB20_268:
	sub	x1, x1, x25
	and	w3, w27, #0x1
	mov	x5, x2
	mov	w2, w21
	mov	w4, w19
	str	x8, [sp]
	bl	_ZN7wkb_raw6erased7wkb_abi12level_slices20lay_many_coordinates17h7050539c17cbcb44E
	mov	w19, w21
	mov	x4, x24
	b	LBB20_371
LBB20_269:
	ldr	x11, [x4]
	ldp	x26, x9, [sp, #200]
	ldr	x10, [x4, #32]
	str	x11, [sp, #80]
	ldr	x11, [x4, #16]
	add	x8, x26, x8
	str	x8, [x10, x9, lsl #3]
	str	x11, [sp, #72]
	cbz	w21, LBB20_433
	and	w8, w19, #0xff
	mov	w9, w19
	mov	w10, w2
	cmp	w8, w2, uxtb
	and	x8, x9, #0xff
	adrp	x9, Lswitch.table.wkb_raw_write.374@PAGE
	add	x9, x9, Lswitch.table.wkb_raw_write.374@PAGEOFF
	ldr	x28, [sp, #192]
	cset	w11, eq
	ldr	x8, [x9, x8, lsl #3]
	adrp	x9, Lswitch.table.wkb_raw_column_from_coordinates.278@PAGE
	add	x9, x9, Lswitch.table.wkb_raw_column_from_coordinates.278@PAGEOFF
	str	x8, [sp, #64]
	and	x8, x10, #0xff
	stp	x8, x7, [sp, #32]
	ldr	x8, [x9, x8, lsl #3]
	str	x8, [sp, #56]
	and	w8, w11, w27
	str	w8, [sp, #48]
	b	LBB20_273
LBB20_271:
	ldr	x10, [sp, #32]
	adrp	x11, Lswitch.table.wkb_raw_column_from_coordinates.278@PAGE
	add	x11, x11, Lswitch.table.wkb_raw_column_from_coordinates.278@PAGEOFF
	mov	x20, x1
	ldr	x2, [sp, #80]
	mov	x22, x0
	ldr	x10, [x11, x10, lsl #3]
	add	x0, x0, x25
	mov	x3, x8
	mul	x1, x10, x9
	bl	_ZN7wkb_raw6erased7wkb_abi12level_slices9lay_words17h891fea4f68a17320E
LBB20_272:
	ldp	x9, x10, [sp, #64]
	mov	w8, wzr
	sub	w21, w21, #1
	mov	x2, x23
	mov	x1, x20
	mov	x0, x22
	madd	x25, x9, x24, x25
	adds	x9, x28, x24
	str	x9, [x10, x26, lsl #3]
	csinv	x28, x9, xzr, lo
	add	x26, x26, #1
	cbz	w21, LBB20_275
LBB20_273:
	ldr	x8, [sp, #56]
	ldr	w9, [x0, x25]
	tst	w27, #0x1
	mov	x23, x2
	add	x25, x25, #4
	mul	x8, x8, x28
	rev	w10, w9
	csel	w24, w9, w10, ne
	ldr	w10, [sp, #48]
	tbnz	w10, #0, LBB20_271
	ldr	x6, [sp, #80]
	ldr	x7, [sp, #40]
	mov	x22, x0
	add	x0, x0, x25
	mov	x20, x1
	sub	x1, x1, x25
	and	w3, w27, #0x1
	mov	w2, w24
	mov	w4, w19
	mov	w5, w23
	str	x8, [sp]
	bl	_ZN7wkb_raw6erased7wkb_abi12level_slices20lay_many_coordinates17h7050539c17cbcb44E
	b	LBB20_272
LBB20_275:
	mov	w0, w8
	b	LBB20_303
LBB20_276:
	ldr	q0, [x0]
	and	w9, w2, #0xff
	cmp	w9, #1
	rev64	v0.16b, v0.16b
	str	q0, [x10]
	b.gt	LBB20_298
	cbz	w9, LBB20_370
	and	w11, w19, #0xff
	mov	x9, #9221120237041090560
	mov	w10, #2
	cmp	w11, #1
	b.gt	LBB20_329
	cbnz	w11, LBB20_330
	b	LBB20_369
LBB20_280:
	mov	w12, #1
	movk	w12, #8192, lsl #16
	cmp	w9, w12
	b.eq	LBB20_304
	mov	w12, #2
	movk	w12, #8192, lsl #16
	cmp	w9, w12
	b.eq	LBB20_319
	mov	w12, #3
	movk	w12, #8192, lsl #16
	cmp	w9, w12
	b.ne	LBB20_345
	mov	w24, wzr
	mov	w9, #3
	b	LBB20_320
LBB20_284:
	cmp	w9, #1
	b.eq	LBB20_399
	cmp	w9, #2
	b.eq	LBB20_404
	cmp	w9, #3
	b.ne	LBB20_306
LBB20_287:
	mov	w10, wzr
	mov	w9, #3
	b	LBB20_405
LBB20_288:
	mov	w12, #6
	movk	w12, #8192, lsl #16
	cmp	w9, w12
	b.eq	LBB20_312
	mov	w12, #7
	movk	w12, #8192, lsl #16
	cmp	w9, w12
	b.ne	LBB20_345
	mov	w24, wzr
	mov	w9, #7
	b	LBB20_320
LBB20_291:
	cmp	w9, #6
	b.eq	LBB20_393
	cmp	w9, #7
	b.ne	LBB20_306
LBB20_293:
	mov	w10, wzr
	mov	w9, #7
	b	LBB20_405
LBB20_294:
	cmp	w9, #2
	b.ne	LBB20_313
	and	w9, w19, #0xff
	cmp	w9, #2
	b.lo	LBB20_300
	b.ne	LBB20_358
	mov	w9, #16
	b	LBB20_359
LBB20_298:
	cmp	w9, #2
	b.ne	LBB20_316
	and	w9, w19, #0xff
	cmp	w9, #2
	b.hs	LBB20_331
LBB20_300:
	mov	x9, #9221120237041090560
	mov	w10, #2
	b	LBB20_369
LBB20_301:
	mov	w30, #2
	cmp	w30, #7
	b.hs	LBB20_267
LBB20_302:
	adrp	x8, Lswitch.table._ZN7wkb_raw6erased7wkb_abi6column9check_row17h3e84d1932f31260dE.188@PAGE
	add	x8, x8, Lswitch.table._ZN7wkb_raw6erased7wkb_abi6column9check_row17h3e84d1932f31260dE.188@PAGEOFF
	ldr	w0, [x8, w30, uxtw #2]
LBB20_303:
	mov	sp, x29
	.cfi_def_cfa wsp, 96
	ldp	x20, x19, [sp, #80]
	ldp	x22, x21, [sp, #64]
	ldp	x24, x23, [sp, #48]
	ldp	x26, x25, [sp, #32]
	ldp	x28, x27, [sp, #16]
	ldp	x29, x30, [sp], #96
	.cfi_def_cfa_offset 0
	.cfi_restore w19
	.cfi_restore w20
	.cfi_restore w21
	.cfi_restore w22
	.cfi_restore w23
	.cfi_restore w24
	.cfi_restore w25
	.cfi_restore w26
	.cfi_restore w27
	.cfi_restore w28
	.cfi_restore w30
	.cfi_restore w29
	ret
LBB20_304:
	.cfi_restore_state
	mov	w24, wzr
	mov	w27, w8
LBB20_305:
	ldur	w9, [x26, #5]
	tst	w27, #0x1
	mov	w10, #1
	mov	w28, #9
	rev	w11, w9
	csel	w11, w9, w11, ne
	mov	w9, #1
	b	LBB20_400
LBB20_306:
	sub	w12, w9, #1001
	cmp	w12, #7
	b.hs	LBB20_322
	mov	x20, x7
	cmp	w9, #1003
	b.gt	LBB20_337
	cmp	w9, #1001
	b.eq	LBB20_386
	cmp	w9, #1002
	b.eq	LBB20_388
	cmp	w9, #1003
	mov	x7, x20
	mov	w24, #1
	b.eq	LBB20_287
	b	LBB20_293
LBB20_311:
	mov	w24, wzr
	mov	w9, #4
	b	LBB20_320
LBB20_312:
	mov	w24, wzr
	mov	w9, #6
	b	LBB20_320
LBB20_313:
	and	w9, w19, #0xff
	cmp	w9, #1
	b.gt	LBB20_333
	cbz	w9, LBB20_318
	ldr	x9, [x0, #16]
	b	LBB20_361
LBB20_316:
	and	w9, w19, #0xff
	cmp	w9, #1
	b.gt	LBB20_335
	cbnz	w9, LBB20_360
LBB20_318:
	mov	x9, #9221120237041090560
	str	x9, [x10, #16]
	b	LBB20_368
LBB20_319:
	mov	w24, wzr
	mov	w9, #2
LBB20_320:
	mov	w27, w8
LBB20_321:
	ldur	w10, [x26, #5]
	tst	w27, #0x1
	mov	w12, #9
	rev	w11, w10
	csel	w11, w10, w11, ne
	mov	w10, #1
	b	LBB20_406
LBB20_322:
	sub	w12, w9, #2001
	cmp	w12, #7
	b.hs	LBB20_340
	mov	x20, x7
	cmp	w9, #2003
	b.gt	LBB20_381
	cmp	w9, #2001
	b.eq	LBB20_394
	cmp	w9, #2002
	b.eq	LBB20_396
	cmp	w9, #2003
	mov	x7, x20
	mov	w24, #2
	b.eq	LBB20_287
	b	LBB20_293
LBB20_327:
	cmp	w11, #2
	b.eq	LBB20_369
LBB20_328:
	ldr	x9, [x0, #16]
	mov	w10, #2
	b	LBB20_369
LBB20_329:
	cmp	w11, #2
	b.eq	LBB20_369
LBB20_330:
	ldr	x9, [x0, #16]
	b	LBB20_364
LBB20_331:
	b.ne	LBB20_362
	mov	w9, #16
	b	LBB20_363
LBB20_333:
	cmp	w9, #2
	b.ne	LBB20_365
	mov	x9, #9221120237041090560
	str	x9, [x10, #16]
	mov	w10, #3
	ldr	x9, [x0, #16]
	b	LBB20_369
LBB20_335:
	cmp	w9, #2
	b.ne	LBB20_366
	mov	x9, #9221120237041090560
	str	x9, [x10, #16]
	ldr	x9, [x0, #16]
	b	LBB20_367
LBB20_337:
	cmp	w9, #1004
	b.eq	LBB20_387
	cmp	w9, #1005
	b.eq	LBB20_389
	cmp	w9, #1006
	mov	x7, x20
	mov	w24, #1
	b.eq	LBB20_393
	b	LBB20_293
LBB20_340:
	sub	w12, w9, #3001
	cmp	w12, #7
	b.hs	LBB20_345
	mov	x20, x7
	cmp	w9, #3003
	b.gt	LBB20_390
	cmp	w9, #3001
	b.eq	LBB20_398
	cmp	w9, #3002
	b.eq	LBB20_403
	cmp	w9, #3003
	mov	x7, x20
	mov	w24, #3
	b.eq	LBB20_287
	b	LBB20_293
LBB20_345:
	cmp	w8, #0
	mov	w12, #-536870912
	mov	w14, #1000
	csel	w13, w10, w11, ne
	mov	w10, #-1073741824
	cset	w27, ne
	ubfx	w9, w13, #30, #1
	and	w11, w13, #0x7fffffff
	add	w10, w11, w10
	cmp	w9, #0
	csel	w9, w11, w10, eq
	lsr	w10, w9, #29
	add	w12, w9, w12
	cmp	w10, #0
	csel	w12, w12, w9, ne
	mov	w9, #35128
	movk	w9, #65, lsl #16
	umull	x9, w12, w9
	lsr	x9, x9, #32
	msub	w9, w9, w14, w12
	tbnz	w13, #31, LBB20_348
	mov	w13, #19923
	lsr	w11, w11, #30
	movk	w13, #4194, lsl #16
	umull	x12, w12, w13
	lsr	x15, x12, #38
	cbz	w11, LBB20_349
	lsl	w11, w15, #3
	mov	w12, #770
	movk	w12, #770, lsl #16
	lsr	w15, w12, w11
	b	LBB20_349
LBB20_348:
	lsr	w11, w11, #30
	cmp	w12, #2000
	ccmp	w11, #0, #0, lo
	mov	w11, #3
	csinc	w15, w11, wzr, ne
LBB20_349:
	cmp	w8, #0
	mov	x20, x7
	cset	w8, ne
	cmp	w9, #3
	b.gt	LBB20_354
	cmp	w9, #1
	b.eq	LBB20_372
	cmp	w9, #2
	b.eq	LBB20_376
	cmp	w9, #3
	b.ne	LBB20_375
	mov	w9, #3
	cbz	w10, LBB20_377
	b	LBB20_380
LBB20_354:
	cmp	w9, #4
	b.eq	LBB20_374
	cmp	w9, #5
	b.eq	LBB20_379
	cmp	w9, #6
	b.ne	LBB20_375
	mov	w9, #6
	cbz	w10, LBB20_377
	b	LBB20_380
LBB20_358:
	mov	w9, #24
LBB20_359:
	ldr	x9, [x0, x9]
	mov	w10, #2
	b	LBB20_369
LBB20_360:
	ldr	x9, [x0, #16]
	rev	x9, x9
LBB20_361:
	str	x9, [x10, #16]
	mov	x9, #9221120237041090560
	b	LBB20_368
LBB20_362:
	mov	w9, #24
LBB20_363:
	ldr	x9, [x0, x9]
LBB20_364:
	rev	x9, x9
	mov	w10, #2
	b	LBB20_369
LBB20_365:
	ldr	x9, [x0, #16]
	str	x9, [x10, #16]
	mov	w10, #3
	ldr	x9, [x0, #24]
	b	LBB20_369
LBB20_366:
	ldr	x9, [x0, #16]
	rev	x9, x9
	str	x9, [x10, #16]
	ldr	x9, [x0, #24]
LBB20_367:
	rev	x9, x9
LBB20_368:
	mov	w10, #3
LBB20_369:
	add	x8, x8, x10
	str	x9, [x6, x8, lsl #3]
LBB20_370:
	mov	w19, #1
LBB20_371:
	ldp	x9, x10, [sp, #200]
	add	x12, x22, x19
	ldr	x11, [x4, #32]
	mov	w0, wzr
	str	x12, [x23, x9, lsl #3]
	add	x9, x9, #1
	str	x9, [x11, x10, lsl #3]
	b	LBB20_303
LBB20_372:
	cbz	w10, LBB20_384
	mov	x7, x20
	mov	x24, x15
	b	LBB20_305
LBB20_374:
	mov	w9, #4
	cbz	w10, LBB20_377
	b	LBB20_380
LBB20_375:
	mov	w9, #7
	cbz	w10, LBB20_377
	b	LBB20_380
LBB20_376:
	mov	w9, #2
	cbnz	w10, LBB20_380
LBB20_377:
	mov	w12, #5
LBB20_378:
	mov	x7, x20
	mov	x24, x15
	b	LBB20_406
LBB20_379:
	mov	w9, #5
	cbz	w10, LBB20_385
LBB20_380:
	mov	x7, x20
	mov	x24, x15
	b	LBB20_321
LBB20_381:
	cmp	w9, #2004
	b.eq	LBB20_395
	cmp	w9, #2005
	b.eq	LBB20_397
	cmp	w9, #2006
	mov	x7, x20
	mov	w24, #2
	b.eq	LBB20_393
	b	LBB20_293
LBB20_384:
	mov	w9, #1
	mov	w28, #5
	mov	w22, #1
	mov	x7, x20
	mov	x24, x15
	b	LBB20_407
LBB20_385:
	mov	w12, #5
	b	LBB20_378
LBB20_386:
	mov	x7, x20
	mov	w24, #1
	b	LBB20_399
LBB20_387:
	mov	x7, x20
	mov	w24, #1
	b	LBB20_402
LBB20_388:
	mov	x7, x20
	mov	w24, #1
	b	LBB20_404
LBB20_389:
	mov	x7, x20
	mov	w24, #1
	b	LBB20_258
LBB20_390:
	cmp	w9, #3004
	b.eq	LBB20_401
	cmp	w9, #3005
	b.eq	LBB20_475
	cmp	w9, #3006
	mov	x7, x20
	mov	w24, #3
	b.ne	LBB20_293
LBB20_393:
	mov	w10, wzr
	mov	w9, #6
	b	LBB20_405
LBB20_394:
	mov	x7, x20
	mov	w24, #2
	b	LBB20_399
LBB20_395:
	mov	x7, x20
	mov	w24, #2
	b	LBB20_402
LBB20_396:
	mov	x7, x20
	mov	w24, #2
	b	LBB20_404
LBB20_397:
	mov	x7, x20
	mov	w24, #2
	b	LBB20_258
LBB20_398:
	mov	x7, x20
	mov	w24, #3
LBB20_399:
	mov	w10, wzr
	mov	w9, #1
	mov	w28, #5
	mov	w27, w8
LBB20_400:
	mov	w22, #1
	b	LBB20_407
LBB20_401:
	mov	x7, x20
	mov	w24, #3
LBB20_402:
	mov	w10, wzr
	mov	w9, #4
	b	LBB20_405
LBB20_403:
	mov	x7, x20
	mov	w24, #3
LBB20_404:
	mov	w10, wzr
	mov	w9, #2
LBB20_405:
	mov	w12, #5
	mov	w27, w8
LBB20_406:
	ldr	w13, [x26, x12]
	tst	w27, #0x1
	add	x28, x12, #4
	rev	w14, w13
	csel	w22, w13, w14, ne
LBB20_407:
	strb	w24, [sp, #161]
	strb	w8, [sp, #160]
	stp	w10, w11, [sp, #128]
	stp	w9, w22, [sp, #152]
	stp	xzr, x28, [sp, #136]
LBB20_408:
	cmp	w9, #3
	sub	x1, x1, x25
	b.hs	LBB20_416
	and	x8, x2, #0xff
	adrp	x10, Lswitch.table.wkb_raw_column_from_coordinates.278@PAGE
	add	x10, x10, Lswitch.table.wkb_raw_column_from_coordinates.278@PAGEOFF
	ldr	x8, [x10, x8, lsl #3]
	ldr	x23, [sp, #192]
	ldr	x6, [x4]
	ldr	x25, [x4, #16]
	cmp	w9, #1
	add	x0, x26, x28
	mul	x8, x23, x8
	b.ne	LBB20_426
	cmp	w22, #1
	b.ne	LBB20_426
	add	x10, x6, x8, lsl #3
	tbz	w27, #0, LBB20_434
	ldr	q0, [x0]
	and	w9, w2, #0xff
	cmp	w9, #1
	str	q0, [x10]
	b.gt	LBB20_438
	cbz	w9, LBB20_473
	and	w11, w24, #0xff
	mov	x9, #9221120237041090560
	mov	w10, #2
	cmp	w11, #1
	b.gt	LBB20_451
	cbnz	w11, LBB20_452
	b	LBB20_472
LBB20_416:
	b.ne	LBB20_428
	and	w8, w24, #0xff
	str	x2, [sp, #80]
	cmp	w8, w2, uxtb
	cset	w8, eq
	and	w9, w8, w27
	mov	w8, w22
	tbz	w9, #0, LBB20_430
	ldp	x21, x9, [sp, #200]
	ldr	x10, [x4, #32]
	ldr	x20, [x4]
	ldr	x24, [x4, #16]
	add	x8, x21, x8
	str	x8, [x10, x9, lsl #3]
	cbz	w22, LBB20_433
	ldr	x25, [sp, #192]
	b	LBB20_422
LBB20_420:
	add	x8, x19, x19, lsl #1
	mov	w9, #3
	lsl	x8, x8, #3
LBB20_421:
	mul	x3, x9, x25
	mov	x2, x20
	sub	w22, w22, #1
	umull	x1, w9, w19
	add	x9, x28, #4
	add	x0, x26, x9
	add	x28, x8, x9
	bl	_ZN7wkb_raw6erased7wkb_abi12level_slices9lay_words17h891fea4f68a17320E
	adds	x8, x25, x19
	str	x8, [x24, x21, lsl #3]
	add	x21, x21, #1
	csinv	x25, x8, xzr, lo
	cbz	w22, LBB20_433
LBB20_422:
	ldr	x8, [sp, #80]
	ldr	w19, [x26, x28]
	and	w8, w8, #0xff
	sub	w9, w8, #1
	cmp	w9, #2
	b.lo	LBB20_420
	cmp	w8, #3
	b.ne	LBB20_425
	lsl	x8, x19, #5
	mov	w9, #4
	b	LBB20_421
LBB20_425:
	lsl	x8, x19, #4
	mov	w9, #2
	b	LBB20_421
LBB20_426:
	and	w9, w24, #0xff
	mov	x19, x4
	cmp	w9, w2, uxtb
	cset	w9, eq
	and	w9, w27, w9
	tbz	w9, #0, LBB20_429
	mov	w9, w2
	mov	w20, w22
	mov	x2, x6
	and	x9, x9, #0xff
	mov	x3, x8
	ldr	x9, [x10, x9, lsl #3]
	mul	x1, x9, x20
	bl	_ZN7wkb_raw6erased7wkb_abi12level_slices9lay_words17h891fea4f68a17320E
	mov	x4, x19
	b	LBB20_474
LBB20_428:
	mov	x8, x2
	add	x2, sp, #128
	add	x3, sp, #192
	mov	x0, x26
	mov	x5, x4
	mov	w4, w8
	bl	_ZN7wkb_raw6erased7wkb_abi12level_slices10lay_walked17h0fd2640570ce7428E
	mov	w0, wzr
	b	LBB20_303
LBB20_429:
	sub	x1, x1, x28
	and	w3, w27, #0x1
	mov	x5, x2
	mov	w2, w22
	mov	w4, w24
	str	x8, [sp]
	bl	_ZN7wkb_raw6erased7wkb_abi12level_slices20lay_many_coordinates17h7050539c17cbcb44E
	mov	w20, w22
	mov	x4, x19
	b	LBB20_474
LBB20_430:
	ldp	x21, x9, [sp, #200]
	mov	w20, w27
	ldr	x10, [x4, #32]
	ldr	x27, [x4]
	ldr	x19, [x4, #16]
	add	x8, x21, x8
	str	x8, [x10, x9, lsl #3]
	cbz	w22, LBB20_433
	mov	w9, w24
	ldr	x8, [sp, #80]
	adrp	x10, Lswitch.table.wkb_raw_write.374@PAGE
	add	x10, x10, Lswitch.table.wkb_raw_write.374@PAGEOFF
	and	x9, x9, #0xff
	ldr	x23, [sp, #192]
	and	x8, x8, #0xff
	ldr	x11, [x10, x9, lsl #3]
	adrp	x9, Lswitch.table.wkb_raw_column_from_coordinates.278@PAGE
	add	x9, x9, Lswitch.table.wkb_raw_column_from_coordinates.278@PAGEOFF
	str	x26, [sp, #72]
	ldr	x8, [x9, x8, lsl #3]
	stp	x8, x11, [sp, #48]
LBB20_432:
	ldr	w8, [x26, x28]
	ands	w3, w20, #0x1
	mov	x25, x1
	ldp	x10, x5, [sp, #72]
	mov	w4, w24
	rev	w9, w8
	mov	x6, x27
	sub	w22, w22, #1
	csel	w26, w8, w9, ne
	ldr	x9, [sp, #56]
	add	x8, x28, #4
	sub	x1, x1, x8
	add	x0, x10, x8
	mov	w2, w26
	madd	x9, x9, x26, x8
	mov	x28, x7
	str	x9, [sp, #64]
	ldr	x9, [sp, #48]
	mul	x9, x9, x23
	str	x9, [sp]
	bl	_ZN7wkb_raw6erased7wkb_abi12level_slices20lay_many_coordinates17h7050539c17cbcb44E
	mov	x7, x28
	adds	x8, x23, x26
	mov	x1, x25
	ldp	x28, x26, [sp, #64]
	str	x8, [x19, x21, lsl #3]
	add	x21, x21, #1
	csinv	x23, x8, xzr, lo
	cbnz	w22, LBB20_432
LBB20_433:
	mov	w0, wzr
	b	LBB20_303
LBB20_434:
	ldr	q0, [x0]
	and	w9, w2, #0xff
	cmp	w9, #1
	rev64	v0.16b, v0.16b
	str	q0, [x10]
	b.gt	LBB20_442
	cbz	w9, LBB20_473
	and	w11, w24, #0xff
	mov	x9, #9221120237041090560
	mov	w10, #2
	cmp	w11, #1
	b.gt	LBB20_453
	cbnz	w11, LBB20_454
	b	LBB20_472
LBB20_438:
	cmp	w9, #2
	b.ne	LBB20_445
	and	w9, w24, #0xff
	cmp	w9, #2
	b.lo	LBB20_444
	b.ne	LBB20_461
	mov	w9, #16
	b	LBB20_462
LBB20_442:
	cmp	w9, #2
	b.ne	LBB20_448
	and	w9, w24, #0xff
	cmp	w9, #2
	b.hs	LBB20_455
LBB20_444:
	mov	x9, #9221120237041090560
	mov	w10, #2
	b	LBB20_472
LBB20_445:
	and	w9, w24, #0xff
	cmp	w9, #1
	b.gt	LBB20_457
	cbz	w9, LBB20_450
	ldr	x9, [x0, #16]
	b	LBB20_464
LBB20_448:
	and	w9, w24, #0xff
	cmp	w9, #1
	b.gt	LBB20_459
	cbnz	w9, LBB20_463
LBB20_450:
	mov	x9, #9221120237041090560
	str	x9, [x10, #16]
	b	LBB20_471
LBB20_451:
	cmp	w11, #2
	b.eq	LBB20_472
LBB20_452:
	ldr	x9, [x0, #16]
	mov	w10, #2
	b	LBB20_472
LBB20_453:
	cmp	w11, #2
	b.eq	LBB20_472
LBB20_454:
	ldr	x9, [x0, #16]
	b	LBB20_467
LBB20_455:
	b.ne	LBB20_465
	mov	w9, #16
	b	LBB20_466
LBB20_457:
	cmp	w9, #2
	b.ne	LBB20_468
	mov	x9, #9221120237041090560
	str	x9, [x10, #16]
	mov	w10, #3
	ldr	x9, [x0, #16]
	b	LBB20_472
LBB20_459:
	cmp	w9, #2
	b.ne	LBB20_469
	mov	x9, #9221120237041090560
	str	x9, [x10, #16]
	ldr	x9, [x0, #16]
	b	LBB20_470
LBB20_461:
	mov	w9, #24
LBB20_462:
	ldr	x9, [x0, x9]
	mov	w10, #2
	b	LBB20_472
LBB20_463:
	ldr	x9, [x0, #16]
	rev	x9, x9
LBB20_464:
	str	x9, [x10, #16]
	mov	x9, #9221120237041090560
	b	LBB20_471
LBB20_465:
	mov	w9, #24
LBB20_466:
	ldr	x9, [x0, x9]
LBB20_467:
	rev	x9, x9
	mov	w10, #2
	b	LBB20_472
LBB20_468:
	ldr	x9, [x0, #16]
	str	x9, [x10, #16]
	mov	w10, #3
	ldr	x9, [x0, #24]
	b	LBB20_472
LBB20_469:
	ldr	x9, [x0, #16]
	rev	x9, x9
	str	x9, [x10, #16]
	ldr	x9, [x0, #24]
LBB20_470:
	rev	x9, x9
LBB20_471:
	mov	w10, #3
LBB20_472:
	add	x8, x8, x10
	str	x9, [x6, x8, lsl #3]
LBB20_473:
	mov	w20, #1
LBB20_474:
	ldp	x8, x9, [sp, #200]
	add	x11, x23, x20
	ldr	x10, [x4, #32]
	mov	w0, wzr
	str	x11, [x25, x8, lsl #3]
	add	x8, x8, #1
	str	x8, [x10, x9, lsl #3]
	b	LBB20_303
LBB20_475:
	mov	x7, x20
	mov	w24, #3
	b	LBB20_258
Lfunc_end20:
	.cfi_endproc
	.section	__TEXT,__text,regular,pure_instructions
	.p2align	2
_ZN7wkb_raw6erased5wkb_c18column_coordinates17other_levels_into17h63ea27d5ebeb79afE:
	.cfi_startproc
	sub	sp, sp, #240
	.cfi_def_cfa_offset 240
	stp	x29, x30, [sp, #144]
	stp	x28, x27, [sp, #160]
	stp	x26, x25, [sp, #176]
	stp	x24, x23, [sp, #192]
	stp	x22, x21, [sp, #208]
	stp	x20, x19, [sp, #224]
	.cfi_offset w19, -8
	.cfi_offset w20, -16
	.cfi_offset w21, -24
	.cfi_offset w22, -32
	.cfi_offset w23, -40
	.cfi_offset w24, -48
	.cfi_offset w25, -56
	.cfi_offset w26, -64
	.cfi_offset w27, -72
	.cfi_offset w28, -80
	.cfi_offset w30, -88
	.cfi_offset w29, -96
	.cfi_remember_state
	ldrb	w9, [x2, #2]
	cmp	w9, #6
	b.ne	LBB21_2
LBB21_1:
	ldp	x20, x19, [sp, #224]
	mov	w2, w3
	ldp	x22, x21, [sp, #208]
	mov	x3, x4
	ldp	x24, x23, [sp, #192]
	mov	x4, x5
	ldp	x26, x25, [sp, #176]
	ldp	x28, x27, [sp, #160]
	ldp	x29, x30, [sp, #144]
	add	sp, sp, #240
	.cfi_def_cfa_offset 0
	.cfi_restore w19
	.cfi_restore w20
	.cfi_restore w21
	.cfi_restore w22
	.cfi_restore w23
	.cfi_restore w24
	.cfi_restore w25
	.cfi_restore w26
	.cfi_restore w27
	.cfi_restore w28
	.cfi_restore w30
	.cfi_restore w29
	b	_ZN7wkb_raw6erased5wkb_c18column_coordinates15any_levels_into17h04a62653480ba2a5E
LBB21_2:
	.cfi_restore_state
	.cfi_remember_state
	ldrb	w8, [x2, #1]
	ldrb	w20, [x2, #3]
	cmp	w9, #2
	ldrb	w19, [x2]
	tbz	w8, #0, LBB21_9
	b.gt	LBB21_15
	cbz	w9, LBB21_77
	cmp	w9, #1
	b.ne	LBB21_133
	cmp	x1, #13
	b.lo	LBB21_1
	ldur	w10, [x0, #9]
	adrp	x12, Lswitch.table.wkb_raw_write.374@PAGE
	add	x12, x12, Lswitch.table.wkb_raw_write.374@PAGEOFF
	cmp	w19, #0
	ldr	x12, [x12, x20, lsl #3]
	rev	w11, w10
	csel	w11, w10, w11, ne
	mov	x10, #13
	madd	x10, x12, x11, x10
	cmp	x1, x10
	b.lo	LBB21_1
	mov	x10, xzr
	b	LBB21_225
LBB21_9:
	b.gt	LBB21_46
	cbz	w9, LBB21_79
	cmp	w9, #1
	b.ne	LBB21_139
	cmp	x1, #9
	b.lo	LBB21_1
	ldur	w9, [x0, #5]
	adrp	x11, Lswitch.table.wkb_raw_write.374@PAGE
	add	x11, x11, Lswitch.table.wkb_raw_write.374@PAGEOFF
	cmp	w19, #0
	ldr	x12, [x11, x20, lsl #3]
	rev	w10, w9
	csel	w11, w9, w10, ne
	mov	x9, #9
	madd	x9, x12, x11, x9
	cmp	x1, x9
	b.lo	LBB21_1
	mov	w27, wzr
	mov	w9, #2
	b	LBB21_241
LBB21_15:
	cmp	w9, #3
	b.eq	LBB21_81
	cmp	w9, #4
	b.ne	LBB21_146
	subs	x12, x1, #13
	b.lo	LBB21_1
	ldur	w10, [x0, #9]
	cmp	w19, #0
	rev	w11, w10
	csel	w10, w10, w11, ne
	cbz	w10, LBB21_224
	mov	w13, #1000
	mov	w6, #35128
	mov	x11, xzr
	mul	w14, w20, w13
	add	x15, x0, #13
	mov	w16, #-1073741824
	mov	w17, #-536870912
	movk	w6, #65, lsl #16
	mov	w21, #5
	mov	w22, #9
	mov	w23, #13
	adrp	x25, Lswitch.table.wkb_raw_write.374@PAGE
	add	x25, x25, Lswitch.table.wkb_raw_write.374@PAGEOFF
	orr	w24, w14, #0x2
	mov	x26, x10
LBB21_20:
	cmp	x12, #5
	b.hs	LBB21_23
	cbz	x12, LBB21_1
	ldrb	w28, [x15]
	b	LBB21_29
LBB21_23:
	ldrb	w28, [x15]
	cmp	w28, #1
	b.eq	LBB21_26
	cbnz	w28, LBB21_29
	ldur	w14, [x15, #1]
	mov	w27, wzr
	rev	w14, w14
	b	LBB21_27
LBB21_26:
	ldur	w14, [x15, #1]
	mov	w27, #1
LBB21_27:
	cmp	w14, w24
	b.ne	LBB21_29
	mov	w28, #9
	mov	w14, #5
	b	LBB21_43
LBB21_29:
	cbz	w28, LBB21_32
	cmp	w28, #1
	b.ne	LBB21_1
	mov	w27, #1
	b	LBB21_33
LBB21_32:
	mov	w27, wzr
LBB21_33:
	cmp	x12, #5
	b.lo	LBB21_1
	ldur	w14, [x15, #1]
	cmp	w27, #0
	rev	w2, w14
	csel	w30, w14, w2, ne
	ubfx	w2, w30, #30, #1
	and	w14, w30, #0x7fffffff
	add	w7, w14, w16
	cmp	w2, #0
	csel	w2, w14, w7, eq
	lsr	w28, w2, #29
	add	w7, w2, w17
	cmp	w28, #0
	csel	w7, w7, w2, ne
	cmp	w7, #3999
	b.hi	LBB21_1
	umull	x2, w7, w6
	lsr	x2, x2, #32
	msub	w29, w2, w13, w7
	sub	w2, w29, #1
	cmp	w2, #6
	b.hi	LBB21_1
	lsr	w2, w14, #30
	tbnz	w30, #31, LBB21_39
	mov	w14, #19923
	movk	w14, #4194, lsl #16
	umull	x14, w7, w14
	lsr	x14, x14, #38
	cbz	w2, LBB21_40
	lsl	w14, w14, #3
	mov	w2, #770
	movk	w2, #770, lsl #16
	lsr	w14, w2, w14
	b	LBB21_40
LBB21_39:
	cmp	w7, #2000
	mov	w14, #3
	ccmp	w2, #0, #0, lo
	csinc	w14, w14, wzr, ne
LBB21_40:
	cmp	w29, #2
	b.ne	LBB21_1
	cmp	w20, w14, uxtb
	b.ne	LBB21_1
	cmp	w28, #0
	csel	x14, x22, x21, ne
	csel	x28, x23, x22, ne
LBB21_43:
	add	x2, x14, #4
	cmp	x12, x2
	b.lo	LBB21_1
	ldr	w14, [x15, x14]
	cmp	w27, #0
	ldr	x7, [x25, x20, lsl #3]
	rev	w2, w14
	csel	w14, w14, w2, ne
	madd	x7, x7, x14, x28
	subs	x12, x12, x7
	b.lo	LBB21_1
	subs	x26, x26, #1
	add	x11, x11, x14
	add	x15, x15, x7
	b.ne	LBB21_20
	b	LBB21_225
LBB21_46:
	cmp	w9, #3
	b.eq	LBB21_107
	cmp	w9, #4
	b.ne	LBB21_185
	subs	x12, x1, #9
	b.lo	LBB21_1
	ldur	w10, [x0, #5]
	cmp	w19, #0
	rev	w11, w10
	csel	w10, w10, w11, ne
	cbz	w10, LBB21_237
	mov	w13, #1000
	mov	w6, #35128
	mov	x11, xzr
	mul	w14, w20, w13
	add	x15, x0, #9
	mov	w16, #-1073741824
	mov	w17, #-536870912
	movk	w6, #65, lsl #16
	mov	w21, #5
	mov	w22, #9
	mov	w23, #13
	adrp	x25, Lswitch.table.wkb_raw_write.374@PAGE
	add	x25, x25, Lswitch.table.wkb_raw_write.374@PAGEOFF
	orr	w24, w14, #0x2
	mov	x26, x10
LBB21_51:
	cmp	x12, #5
	b.hs	LBB21_54
	cbz	x12, LBB21_1
	ldrb	w28, [x15]
	b	LBB21_60
LBB21_54:
	ldrb	w28, [x15]
	cmp	w28, #1
	b.eq	LBB21_57
	cbnz	w28, LBB21_60
	ldur	w14, [x15, #1]
	mov	w27, wzr
	rev	w14, w14
	b	LBB21_58
LBB21_57:
	ldur	w14, [x15, #1]
	mov	w27, #1
LBB21_58:
	cmp	w14, w24
	b.ne	LBB21_60
	mov	w28, #9
	mov	w14, #5
	b	LBB21_74
LBB21_60:
	cbz	w28, LBB21_63
	cmp	w28, #1
	b.ne	LBB21_1
	mov	w27, #1
	b	LBB21_64
LBB21_63:
	mov	w27, wzr
LBB21_64:
	cmp	x12, #5
	b.lo	LBB21_1
	ldur	w14, [x15, #1]
	cmp	w27, #0
	rev	w2, w14
	csel	w30, w14, w2, ne
	ubfx	w2, w30, #30, #1
	and	w14, w30, #0x7fffffff
	add	w7, w14, w16
	cmp	w2, #0
	csel	w2, w14, w7, eq
	lsr	w28, w2, #29
	add	w7, w2, w17
	cmp	w28, #0
	csel	w7, w7, w2, ne
	cmp	w7, #3999
	b.hi	LBB21_1
	umull	x2, w7, w6
	lsr	x2, x2, #32
	msub	w29, w2, w13, w7
	sub	w2, w29, #1
	cmp	w2, #6
	b.hi	LBB21_1
	lsr	w2, w14, #30
	tbnz	w30, #31, LBB21_70
	mov	w14, #19923
	movk	w14, #4194, lsl #16
	umull	x14, w7, w14
	lsr	x14, x14, #38
	cbz	w2, LBB21_71
	lsl	w14, w14, #3
	mov	w2, #770
	movk	w2, #770, lsl #16
	lsr	w14, w2, w14
	b	LBB21_71
LBB21_70:
	cmp	w7, #2000
	mov	w14, #3
	ccmp	w2, #0, #0, lo
	csinc	w14, w14, wzr, ne
LBB21_71:
	cmp	w29, #2
	b.ne	LBB21_1
	cmp	w20, w14, uxtb
	b.ne	LBB21_1
	cmp	w28, #0
	csel	x14, x22, x21, ne
	csel	x28, x23, x22, ne
LBB21_74:
	add	x2, x14, #4
	cmp	x12, x2
	b.lo	LBB21_1
	ldr	w14, [x15, x14]
	cmp	w27, #0
	ldr	x7, [x25, x20, lsl #3]
	rev	w2, w14
	csel	w14, w14, w2, ne
	madd	x7, x7, x14, x28
	subs	x12, x12, x7
	b.lo	LBB21_1
	subs	x26, x26, #1
	add	x11, x11, x14
	add	x15, x15, x7
	b.ne	LBB21_51
	b	LBB21_145
LBB21_77:
	adrp	x10, Lswitch.table.wkb_raw_same.347@PAGE
	add	x10, x10, Lswitch.table.wkb_raw_same.347@PAGEOFF
	ldr	x10, [x10, x20, lsl #3]
	cmp	x1, x10
	b.lo	LBB21_1
	mov	x10, xzr
	mov	w11, #1
	b	LBB21_225
LBB21_79:
	adrp	x9, Lswitch.table.wkb_raw_write.371@PAGE
	add	x9, x9, Lswitch.table.wkb_raw_write.371@PAGEOFF
	ldr	x9, [x9, x20, lsl #3]
	cmp	x1, x9
	b.lo	LBB21_1
	mov	w27, wzr
	mov	w10, #1
	mov	w11, #1
	b	LBB21_233
LBB21_81:
	subs	x11, x1, #13
	b.lo	LBB21_1
	ldur	w10, [x0, #9]
	adrp	x12, Lswitch.table.wkb_raw_write.371@PAGE
	add	x12, x12, Lswitch.table.wkb_raw_write.371@PAGEOFF
	cmp	w19, #0
	ldr	x14, [x12, x20, lsl #3]
	rev	w13, w10
	csel	w10, w10, w13, ne
	mov	x13, #13
	madd	x13, x14, x10, x13
	cmp	x1, x13
	b.lo	LBB21_1
	cbz	w10, LBB21_224
	mov	w13, #1000
	mov	w14, #770
	mov	w2, #19923
	mul	w6, w20, w13
	mov	w7, #35128
	movk	w14, #770, lsl #16
	add	x15, x0, #13
	mov	w16, #-1073741824
	mov	w17, #-536870912
	movk	w2, #4194, lsl #16
	movk	w7, #65, lsl #16
	mov	w21, #3
	orr	w6, w6, #0x1
	mov	x22, x10
LBB21_85:
	cmp	x11, #5
	b.hs	LBB21_88
	cbz	x11, LBB21_1
	ldrb	w23, [x15]
	b	LBB21_93
LBB21_88:
	ldrb	w23, [x15]
	cmp	w23, #1
	b.eq	LBB21_91
	cbnz	w23, LBB21_93
	ldur	w24, [x15, #1]
	rev	w24, w24
	b	LBB21_92
LBB21_91:
	ldur	w24, [x15, #1]
LBB21_92:
	cmp	w24, w6
	b.eq	LBB21_104
LBB21_93:
	cbz	w23, LBB21_95
	cmp	w23, #1
	b.ne	LBB21_1
LBB21_95:
	cmp	x11, #5
	b.lo	LBB21_1
	ldur	w24, [x15, #1]
	cmp	w23, #0
	rev	w25, w24
	csel	w26, w24, w25, ne
	ubfx	w23, w26, #30, #1
	and	w25, w26, #0x7fffffff
	add	w24, w25, w16
	cmp	w23, #0
	csel	w24, w25, w24, eq
	lsr	w23, w24, #29
	add	w27, w24, w17
	cmp	w23, #0
	csel	w27, w27, w24, ne
	cmp	w27, #3999
	b.hi	LBB21_1
	umull	x24, w27, w7
	lsr	x24, x24, #32
	msub	w24, w24, w13, w27
	sub	w28, w24, #1
	cmp	w28, #6
	b.hi	LBB21_1
	tbnz	w26, #31, LBB21_101
	umull	x26, w27, w2
	lsr	w27, w25, #30
	lsr	x25, x26, #38
	cbz	w27, LBB21_102
	lsl	w25, w25, #3
	lsr	w25, w14, w25
	b	LBB21_102
LBB21_101:
	lsr	w25, w25, #30
	cmp	w27, #2000
	ccmp	w25, #0, #0, lo
	csinc	w25, w21, wzr, ne
LBB21_102:
	cmp	w20, w25, uxtb
	b.ne	LBB21_1
	cmp	w24, #1
	ccmp	w23, #0, #0, eq
	b.ne	LBB21_1
LBB21_104:
	ldr	x23, [x12, x20, lsl #3]
	subs	x11, x11, x23
	b.lo	LBB21_1
	subs	x22, x22, #1
	add	x15, x15, x23
	b.ne	LBB21_85
	mov	x11, x10
	b	LBB21_225
LBB21_107:
	subs	x11, x1, #9
	b.lo	LBB21_1
	ldur	w10, [x0, #5]
	adrp	x12, Lswitch.table.wkb_raw_write.371@PAGE
	add	x12, x12, Lswitch.table.wkb_raw_write.371@PAGEOFF
	cmp	w19, #0
	ldr	x14, [x12, x20, lsl #3]
	rev	w13, w10
	csel	w10, w10, w13, ne
	mov	x13, #9
	madd	x13, x14, x10, x13
	cmp	x1, x13
	b.lo	LBB21_1
	cbz	w10, LBB21_240
	mov	w13, #1000
	mov	w14, #770
	mov	w2, #19923
	mul	w6, w20, w13
	mov	w7, #35128
	movk	w14, #770, lsl #16
	add	x15, x0, #9
	mov	w16, #-1073741824
	mov	w17, #-536870912
	movk	w2, #4194, lsl #16
	movk	w7, #65, lsl #16
	mov	w21, #3
	orr	w6, w6, #0x1
	mov	x22, x10
LBB21_111:
	cmp	x11, #5
	b.hs	LBB21_114
	cbz	x11, LBB21_1
	ldrb	w23, [x15]
	b	LBB21_119
LBB21_114:
	ldrb	w23, [x15]
	cmp	w23, #1
	b.eq	LBB21_117
	cbnz	w23, LBB21_119
	ldur	w24, [x15, #1]
	rev	w24, w24
	b	LBB21_118
LBB21_117:
	ldur	w24, [x15, #1]
LBB21_118:
	cmp	w24, w6
	b.eq	LBB21_130
LBB21_119:
	cbz	w23, LBB21_121
	cmp	w23, #1
	b.ne	LBB21_1
LBB21_121:
	cmp	x11, #5
	b.lo	LBB21_1
	ldur	w24, [x15, #1]
	cmp	w23, #0
	rev	w25, w24
	csel	w26, w24, w25, ne
	ubfx	w23, w26, #30, #1
	and	w25, w26, #0x7fffffff
	add	w24, w25, w16
	cmp	w23, #0
	csel	w24, w25, w24, eq
	lsr	w23, w24, #29
	add	w27, w24, w17
	cmp	w23, #0
	csel	w27, w27, w24, ne
	cmp	w27, #3999
	b.hi	LBB21_1
	umull	x24, w27, w7
	lsr	x24, x24, #32
	msub	w24, w24, w13, w27
	sub	w28, w24, #1
	cmp	w28, #6
	b.hi	LBB21_1
	tbnz	w26, #31, LBB21_127
	umull	x26, w27, w2
	lsr	w27, w25, #30
	lsr	x25, x26, #38
	cbz	w27, LBB21_128
	lsl	w25, w25, #3
	lsr	w25, w14, w25
	b	LBB21_128
LBB21_127:
	lsr	w25, w25, #30
	cmp	w27, #2000
	ccmp	w25, #0, #0, lo
	csinc	w25, w21, wzr, ne
LBB21_128:
	cmp	w20, w25, uxtb
	b.ne	LBB21_1
	cmp	w24, #1
	ccmp	w23, #0, #0, eq
	b.ne	LBB21_1
LBB21_130:
	ldr	x23, [x12, x20, lsl #3]
	subs	x11, x11, x23
	b.lo	LBB21_1
	subs	x22, x22, #1
	add	x15, x15, x23
	b.ne	LBB21_111
	mov	w27, wzr
	mov	x11, x10
	b	LBB21_226
LBB21_133:
	subs	x12, x1, #13
	b.lo	LBB21_1
	ldur	w10, [x0, #9]
	cmp	w19, #0
	rev	w11, w10
	csel	w10, w10, w11, ne
	cbz	w10, LBB21_224
	mov	x11, xzr
	add	x13, x0, #13
	adrp	x14, Lswitch.table.wkb_raw_write.374@PAGE
	add	x14, x14, Lswitch.table.wkb_raw_write.374@PAGEOFF
	mov	x15, x10
LBB21_136:
	cmp	x12, #4
	b.lo	LBB21_1
	ldr	w16, [x13]
	cmp	w19, #0
	ldr	x2, [x14, x20, lsl #3]
	rev	w17, w16
	csel	w16, w16, w17, ne
	mul	x17, x2, x16
	orr	x17, x17, #0x4
	subs	x12, x12, x17
	b.lo	LBB21_1
	subs	x15, x15, #1
	add	x11, x11, x16
	add	x13, x13, x17
	b.ne	LBB21_136
	b	LBB21_225
LBB21_139:
	subs	x12, x1, #9
	b.lo	LBB21_1
	ldur	w10, [x0, #5]
	cmp	w19, #0
	rev	w11, w10
	csel	w10, w10, w11, ne
	cbz	w10, LBB21_238
	mov	x11, xzr
	add	x13, x0, #9
	adrp	x14, Lswitch.table.wkb_raw_write.374@PAGE
	add	x14, x14, Lswitch.table.wkb_raw_write.374@PAGEOFF
	mov	x15, x10
LBB21_142:
	cmp	x12, #4
	b.lo	LBB21_1
	ldr	w16, [x13]
	cmp	w19, #0
	ldr	x2, [x14, x20, lsl #3]
	rev	w17, w16
	csel	w16, w16, w17, ne
	mul	x17, x2, x16
	orr	x17, x17, #0x4
	subs	x12, x12, x17
	b.lo	LBB21_1
	subs	x15, x15, #1
	add	x11, x11, x16
	add	x13, x13, x17
	b.ne	LBB21_142
LBB21_145:
	mov	w27, wzr
	b	LBB21_226
LBB21_146:
	subs	x12, x1, #13
	b.lo	LBB21_1
	ldur	w10, [x0, #9]
	cmp	w19, #0
	rev	w11, w10
	csel	w13, w10, w11, ne
	cbz	w13, LBB21_224
	mov	w15, #1000
	mov	w7, #35128
	mov	w14, wzr
	mul	w21, w20, w15
	mov	x11, xzr
	mov	x10, xzr
	add	x16, x0, #13
	mov	w17, #-1073741824
	mov	w2, #-536870912
	movk	w7, #65, lsl #16
	mov	w22, #5
	mov	w23, #9
	orr	w24, w21, #0x3
	adrp	x26, Lswitch.table.wkb_raw_write.374@PAGE
	add	x26, x26, Lswitch.table.wkb_raw_write.374@PAGEOFF
LBB21_149:
	cmp	x12, #5
	b.hs	LBB21_152
	cbz	x12, LBB21_1
	ldrb	w28, [x16]
	b	LBB21_158
LBB21_152:
	ldrb	w28, [x16]
	cmp	w28, #1
	b.eq	LBB21_155
	cbnz	w28, LBB21_158
	ldur	w21, [x16, #1]
	mov	w27, wzr
	rev	w21, w21
	b	LBB21_156
LBB21_155:
	ldur	w21, [x16, #1]
	mov	w27, #1
LBB21_156:
	cmp	w21, w24
	b.ne	LBB21_158
	mov	w21, #5
	b	LBB21_172
LBB21_158:
	cbz	w28, LBB21_161
	cmp	w28, #1
	b.ne	LBB21_1
	mov	w27, #1
	b	LBB21_162
LBB21_161:
	mov	w27, wzr
LBB21_162:
	cmp	x12, #5
	b.lo	LBB21_1
	ldur	w21, [x16, #1]
	cmp	w27, #0
	rev	w25, w21
	csel	w30, w21, w25, ne
	ubfx	w21, w30, #30, #1
	and	w25, w30, #0x7fffffff
	add	w28, w25, w17
	cmp	w21, #0
	csel	w21, w25, w28, eq
	lsr	w28, w21, #29
	add	w29, w21, w2
	cmp	w28, #0
	csel	w21, w29, w21, ne
	cmp	w21, #3999
	b.hi	LBB21_1
	umull	x29, w21, w7
	lsr	x29, x29, #32
	msub	w29, w29, w15, w21
	sub	w6, w29, #1
	cmp	w6, #6
	b.hi	LBB21_1
	lsr	w25, w25, #30
	tbnz	w30, #31, LBB21_168
	mov	w6, #19923
	movk	w6, #4194, lsl #16
	umull	x6, w21, w6
	lsr	x21, x6, #38
	cbz	w25, LBB21_169
	lsl	w6, w21, #3
	mov	w21, #770
	movk	w21, #770, lsl #16
	lsr	w21, w21, w6
	b	LBB21_169
LBB21_168:
	cmp	w21, #2000
	mov	w6, #3
	ccmp	w25, #0, #0, lo
	csinc	w21, w6, wzr, ne
LBB21_169:
	cmp	w29, #3
	b.ne	LBB21_1
	cmp	w20, w21, uxtb
	b.ne	LBB21_1
	cmp	w28, #0
	csel	x21, x23, x22, ne
LBB21_172:
	add	x6, x21, #4
	cmp	x12, x6
	b.lo	LBB21_1
	add	x16, x16, x21
	cmp	w27, #0
	sub	x12, x12, x21
	ldr	w25, [x16], #4
	sub	x12, x12, #4
	rev	w29, w25
	csel	w28, w25, w29, ne
	cbz	w28, LBB21_179
	add	x10, x10, #2
	tbz	w27, #0, LBB21_180
	sub	w6, w25, #1
	add	x10, x10, x6
LBB21_176:
	cmp	x12, #4
	b.lo	LBB21_1
	ldr	w21, [x16]
	ldr	x6, [x26, x20, lsl #3]
	mul	x6, x6, x21
	orr	x25, x6, #0x4
	subs	x12, x12, x25
	b.lo	LBB21_1
	subs	w28, w28, #1
	add	x11, x11, x21
	add	x16, x16, x25
	b.ne	LBB21_176
	b	LBB21_184
LBB21_179:
	add	x10, x10, #1
	b	LBB21_184
LBB21_180:
	sub	w6, w29, #1
	add	x10, x10, x6
LBB21_181:
	cmp	x12, #4
	b.lo	LBB21_1
	ldr	w6, [x16]
	ldr	x25, [x26, x20, lsl #3]
	rev	w21, w6
	mul	x6, x25, x21
	orr	x25, x6, #0x4
	subs	x12, x12, x25
	b.lo	LBB21_1
	subs	w28, w28, #1
	add	x11, x11, x21
	add	x16, x16, x25
	b.ne	LBB21_181
LBB21_184:
	add	w14, w14, #1
	cmp	w14, w13
	b.ne	LBB21_149
	b	LBB21_225
LBB21_185:
	subs	x12, x1, #9
	b.lo	LBB21_1
	ldur	w10, [x0, #5]
	cmp	w19, #0
	rev	w11, w10
	csel	w13, w10, w11, ne
	cbz	w13, LBB21_239
	mov	w15, #1000
	mov	w7, #35128
	mov	w14, wzr
	mul	w21, w20, w15
	mov	x11, xzr
	mov	x10, xzr
	add	x16, x0, #9
	mov	w17, #-1073741824
	mov	w2, #-536870912
	movk	w7, #65, lsl #16
	mov	w22, #5
	mov	w23, #9
	orr	w24, w21, #0x3
	adrp	x26, Lswitch.table.wkb_raw_write.374@PAGE
	add	x26, x26, Lswitch.table.wkb_raw_write.374@PAGEOFF
LBB21_188:
	cmp	x12, #5
	b.hs	LBB21_191
	cbz	x12, LBB21_1
	ldrb	w28, [x16]
	b	LBB21_197
LBB21_191:
	ldrb	w28, [x16]
	cmp	w28, #1
	b.eq	LBB21_194
	cbnz	w28, LBB21_197
	ldur	w21, [x16, #1]
	mov	w27, wzr
	rev	w21, w21
	b	LBB21_195
LBB21_194:
	ldur	w21, [x16, #1]
	mov	w27, #1
LBB21_195:
	cmp	w21, w24
	b.ne	LBB21_197
	mov	w21, #5
	b	LBB21_211
LBB21_197:
	cbz	w28, LBB21_200
	cmp	w28, #1
	b.ne	LBB21_1
	mov	w27, #1
	b	LBB21_201
LBB21_200:
	mov	w27, wzr
LBB21_201:
	cmp	x12, #5
	b.lo	LBB21_1
	ldur	w21, [x16, #1]
	cmp	w27, #0
	rev	w25, w21
	csel	w30, w21, w25, ne
	ubfx	w21, w30, #30, #1
	and	w25, w30, #0x7fffffff
	add	w28, w25, w17
	cmp	w21, #0
	csel	w21, w25, w28, eq
	lsr	w28, w21, #29
	add	w29, w21, w2
	cmp	w28, #0
	csel	w21, w29, w21, ne
	cmp	w21, #3999
	b.hi	LBB21_1
	umull	x29, w21, w7
	lsr	x29, x29, #32
	msub	w29, w29, w15, w21
	sub	w6, w29, #1
	cmp	w6, #6
	b.hi	LBB21_1
	lsr	w25, w25, #30
	tbnz	w30, #31, LBB21_207
	mov	w6, #19923
	movk	w6, #4194, lsl #16
	umull	x6, w21, w6
	lsr	x21, x6, #38
	cbz	w25, LBB21_208
	lsl	w6, w21, #3
	mov	w21, #770
	movk	w21, #770, lsl #16
	lsr	w21, w21, w6
	b	LBB21_208
LBB21_207:
	cmp	w21, #2000
	mov	w6, #3
	ccmp	w25, #0, #0, lo
	csinc	w21, w6, wzr, ne
LBB21_208:
	cmp	w29, #3
	b.ne	LBB21_1
	cmp	w20, w21, uxtb
	b.ne	LBB21_1
	cmp	w28, #0
	csel	x21, x23, x22, ne
LBB21_211:
	add	x6, x21, #4
	cmp	x12, x6
	b.lo	LBB21_1
	add	x16, x16, x21
	cmp	w27, #0
	sub	x12, x12, x21
	ldr	w25, [x16], #4
	sub	x12, x12, #4
	rev	w29, w25
	csel	w28, w25, w29, ne
	cbz	w28, LBB21_218
	add	x10, x10, #2
	tbz	w27, #0, LBB21_219
	sub	w6, w25, #1
	add	x10, x10, x6
LBB21_215:
	cmp	x12, #4
	b.lo	LBB21_1
	ldr	w21, [x16]
	ldr	x6, [x26, x20, lsl #3]
	mul	x6, x6, x21
	orr	x25, x6, #0x4
	subs	x12, x12, x25
	b.lo	LBB21_1
	subs	w28, w28, #1
	add	x11, x11, x21
	add	x16, x16, x25
	b.ne	LBB21_215
	b	LBB21_223
LBB21_218:
	add	x10, x10, #1
	b	LBB21_223
LBB21_219:
	sub	w6, w29, #1
	add	x10, x10, x6
LBB21_220:
	cmp	x12, #4
	b.lo	LBB21_1
	ldr	w6, [x16]
	ldr	x25, [x26, x20, lsl #3]
	rev	w21, w6
	mul	x6, x25, x21
	orr	x25, x6, #0x4
	subs	x12, x12, x25
	b.lo	LBB21_1
	subs	w28, w28, #1
	add	x11, x11, x21
	add	x16, x16, x25
	b.ne	LBB21_220
LBB21_223:
	add	w14, w14, #1
	mov	w27, wzr
	cmp	w14, w13
	b.ne	LBB21_188
	b	LBB21_226
LBB21_224:
	mov	x10, xzr
	mov	x11, xzr
LBB21_225:
	ldur	w12, [x0, #5]
	cmp	w19, #0
	mov	w27, #1
	rev	w13, w12
	csel	w28, w12, w13, ne
LBB21_226:
	cmp	w9, #2
	add	x10, x10, #1
	b.gt	LBB21_230
	cbz	w9, LBB21_233
	cmp	w9, #1
	b.ne	LBB21_235
	mov	w9, #2
	b	LBB21_242
LBB21_230:
	cmp	w9, #3
	b.eq	LBB21_234
	cmp	w9, #4
	b.ne	LBB21_236
	mov	w9, #5
	b	LBB21_242
LBB21_233:
	cmp	w8, #0
	mov	w8, #5
	mov	w9, #9
	csel	x26, x9, x8, ne
	mov	w9, #1
	mov	w23, #1
	b	LBB21_243
LBB21_234:
	mov	w9, #4
	b	LBB21_242
LBB21_235:
	mov	w9, #3
	b	LBB21_242
LBB21_236:
	mov	w9, #6
	b	LBB21_242
LBB21_237:
	mov	x11, xzr
	mov	w27, wzr
	mov	w9, #5
	b	LBB21_241
LBB21_238:
	mov	x11, xzr
	mov	w27, wzr
	mov	w9, #3
	b	LBB21_241
LBB21_239:
	mov	x11, xzr
	mov	w27, wzr
	mov	w9, #6
	b	LBB21_241
LBB21_240:
	mov	x11, xzr
	mov	w27, wzr
	mov	w9, #4
LBB21_241:
	mov	w10, #1
LBB21_242:
	cmp	w8, #0
	mov	w8, #5
	mov	w12, #9
	csel	x8, x12, x8, ne
	cmp	w19, #0
	ldr	w12, [x0, x8]
	add	x26, x8, #4
	rev	w13, w12
	csel	w23, w12, w13, ne
LBB21_243:
	ldr	q0, [x4]
	ldr	x8, [x4, #16]
	cmp	w9, #3
	mov	w25, w23
	strb	w20, [sp, #73]
	str	q0, [sp, #80]
	ldr	q0, [x4]
	strb	w19, [sp, #72]
	stp	w27, w28, [sp, #40]
	stp	w9, w23, [sp, #64]
	stp	xzr, x26, [sp, #48]
	str	x8, [sp, #96]
	b.hs	LBB21_245
	mov	w12, #1
	b	LBB21_247
LBB21_245:
	cmp	w9, #6
	mov	x12, x25
	b.ne	LBB21_247
	add	x12, x25, #1
	subs	x10, x10, x12
	csel	x12, xzr, x10, lo
LBB21_247:
	fmov	d1, x11
	cmp	w9, #4
	ldr	x7, [x5, #8]
	csinc	x10, x25, xzr, hs
	adds	x8, x8, x10
	and	w10, w3, #0xff
	mov	v1.d[1], x12
	csinv	x11, x8, xzr, lo
	sub	w12, w10, #1
	cmp	w12, #2
	str	x11, [x4, #16]
	uqadd	v0.2d, v0.2d, v1.2d
	str	q0, [x4]
	ldr	x8, [x4]
	b.hs	LBB21_249
	mov	x10, #-6148914691236517206
	movk	x10, #43691
	umulh	x10, x7, x10
	lsr	x10, x10, #1
	cmp	x8, x10
	b.ls	LBB21_252
	b	LBB21_254
LBB21_249:
	cmp	w10, #3
	b.ne	LBB21_251
	lsr	x10, x7, #2
	cmp	x8, x10
	b.hi	LBB21_254
	b	LBB21_252
LBB21_251:
	lsr	x10, x7, #1
	cmp	x8, x10
	b.hi	LBB21_254
LBB21_252:
	ldr	x8, [x4, #8]
	ldr	x10, [x5, #24]
	cmp	x8, x10
	b.hi	LBB21_254
	ldr	x8, [x4, #16]
	ldr	x10, [x5, #40]
	cmp	x8, x10
	b.ls	LBB21_256
LBB21_254:
	mov	w8, #2
LBB21_255:
	ldp	x20, x19, [sp, #224]
	mov	w0, w8
	ldp	x22, x21, [sp, #208]
	ldp	x24, x23, [sp, #192]
	ldp	x26, x25, [sp, #176]
	ldp	x28, x27, [sp, #160]
	ldp	x29, x30, [sp, #144]
	add	sp, sp, #240
	.cfi_def_cfa_offset 0
	.cfi_restore w19
	.cfi_restore w20
	.cfi_restore w21
	.cfi_restore w22
	.cfi_restore w23
	.cfi_restore w24
	.cfi_restore w25
	.cfi_restore w26
	.cfi_restore w27
	.cfi_restore w28
	.cfi_restore w30
	.cfi_restore w29
	ret
LBB21_256:
	.cfi_restore_state
	cmp	w9, #4
	str	x3, [sp, #32]
	b.lo	LBB21_262
	cmp	w23, #1
	b.ne	LBB21_262
	add	x27, x0, x26
	cmp	w19, #0
	ldur	w10, [x27, #1]
	ldrb	w8, [x27]
	rev	w11, w10
	csel	w9, w10, w11, ne
	cmp	w8, w19
	b.ne	LBB21_280
	sub	w12, w9, #1
	cmp	w12, #6
	b.hi	LBB21_280
	cmp	w9, #1
	b.ne	LBB21_294
	mov	w24, #1
	mov	w28, #5
	b	LBB21_295
LBB21_262:
	cmp	w9, #3
	b.hs	LBB21_270
	mov	w8, w3
	adrp	x10, Lswitch.table.wkb_raw_column_from_coordinates.278@PAGE
	add	x10, x10, Lswitch.table.wkb_raw_column_from_coordinates.278@PAGEOFF
	and	x8, x8, #0xff
	ldr	x21, [sp, #80]
	ldr	x6, [x5]
	ldr	x8, [x10, x8, lsl #3]
	ldr	x24, [x5, #16]
	cmp	w9, #1
	add	x0, x0, x26
	mul	x8, x21, x8
	b.ne	LBB21_286
	cmp	w23, #1
	b.ne	LBB21_286
	add	x10, x6, x8, lsl #3
	cbz	w19, LBB21_300
	ldr	q0, [x0]
	and	w9, w3, #0xff
	cmp	w9, #1
	str	q0, [x10]
	b.gt	LBB21_318
	cbz	w9, LBB21_391
	cmp	w20, #1
	mov	x9, #9221120237041090560
	mov	w10, #2
	b.gt	LBB21_348
	cbnz	w20, LBB21_349
	b	LBB21_390
LBB21_270:
	b.ne	LBB21_288
	cmp	w20, w3, uxtb
	mov	x27, x0
	csel	w8, wzr, w19, ne
	tbz	w8, #0, LBB21_297
	ldp	x20, x8, [sp, #88]
	ldr	x9, [x5, #32]
	ldr	x19, [x5]
	ldr	x22, [x5, #16]
	add	x10, x20, x25
	str	x10, [x9, x8, lsl #3]
	cbz	w23, LBB21_454
	ldr	x24, [sp, #80]
	b	LBB21_276
LBB21_274:
	add	x8, x21, x21, lsl #1
	mov	w9, #3
	lsl	x8, x8, #3
LBB21_275:
	mul	x3, x9, x24
	mov	x2, x19
	sub	w23, w23, #1
	umull	x1, w9, w21
	add	x9, x26, #4
	add	x0, x27, x9
	add	x26, x8, x9
	bl	_ZN7wkb_raw6erased7wkb_abi12level_slices9lay_words17h891fea4f68a17320E
	adds	x9, x24, x21
	mov	x0, x27
	mov	w8, wzr
	str	x9, [x22, x20, lsl #3]
	csinv	x24, x9, xzr, lo
	add	x20, x20, #1
	cbz	w23, LBB21_255
LBB21_276:
	ldr	x8, [sp, #32]
	ldr	w21, [x0, x26]
	and	w8, w8, #0xff
	sub	w9, w8, #1
	cmp	w9, #2
	b.lo	LBB21_274
	cmp	w8, #3
	b.ne	LBB21_279
	lsl	x8, x21, #5
	mov	w9, #4
	b	LBB21_275
LBB21_279:
	lsl	x8, x21, #4
	mov	w9, #2
	b	LBB21_275
LBB21_280:
	cmp	w8, #0
	csel	w9, w11, w10, eq
	lsr	w12, w9, #29
	cbz	w12, LBB21_289
	mov	w12, #3
	movk	w12, #8192, lsl #16
	cmp	w9, w12
	b.le	LBB21_304
	mov	w12, #5
	movk	w12, #8192, lsl #16
	cmp	w9, w12
	b.gt	LBB21_312
	mov	w12, #4
	movk	w12, #8192, lsl #16
	cmp	w9, w12
	b.eq	LBB21_332
	mov	w12, #5
	movk	w12, #8192, lsl #16
	cmp	w9, w12
	b.ne	LBB21_366
	mov	w23, wzr
	mov	w9, #5
	b	LBB21_341
LBB21_286:
	cmp	w20, w3, uxtb
	mov	x27, x5
	csel	w9, wzr, w19, ne
	tbz	w9, #0, LBB21_296
	mov	w9, w3
	mov	x2, x6
	mov	x3, x8
	and	x9, x9, #0xff
	ldr	x9, [x10, x9, lsl #3]
	mul	x1, x9, x25
	bl	_ZN7wkb_raw6erased7wkb_abi12level_slices9lay_words17h891fea4f68a17320E
	mov	x5, x27
	b	LBB21_392
LBB21_288:
	add	x2, sp, #40
	mov	x4, x3
	add	x3, sp, #80
	bl	_ZN7wkb_raw6erased7wkb_abi12level_slices10lay_walked17h0fd2640570ce7428E
	mov	w8, wzr
	b	LBB21_255
LBB21_289:
	cmp	w9, #3
	mov	w23, wzr
	b.le	LBB21_308
	cmp	w9, #5
	b.gt	LBB21_315
	cmp	w9, #4
	b.eq	LBB21_423
	cmp	w9, #5
	b.ne	LBB21_327
LBB21_293:
	mov	w12, #5
	mov	w10, wzr
	mov	w19, w8
	mov	w9, w12
	b	LBB21_427
LBB21_294:
	ldur	w8, [x27, #5]
	cmp	w19, #0
	mov	w28, #9
	rev	w10, w8
	csel	w24, w8, w10, ne
LBB21_295:
	mov	w23, wzr
	str	wzr, [sp, #104]
	stp	xzr, x28, [sp, #112]
	stp	w9, w24, [sp, #128]
	strb	w19, [sp, #136]
	strb	wzr, [sp, #137]
	b	LBB21_429
LBB21_296:
	sub	x1, x1, x26
	mov	w2, w23
	mov	x5, x3
	mov	w3, w19
	mov	w4, w20
	str	x8, [sp]
	bl	_ZN7wkb_raw6erased7wkb_abi12level_slices20lay_many_coordinates17h7050539c17cbcb44E
	mov	x5, x27
	b	LBB21_392
LBB21_297:
	ldp	x28, x8, [sp, #88]
	ldr	x9, [x5, #32]
	ldr	x29, [x5]
	ldr	x21, [x5, #16]
	add	x10, x28, x25
	str	x10, [x9, x8, lsl #3]
	cbz	w23, LBB21_454
	adrp	x8, Lswitch.table.wkb_raw_write.374@PAGE
	add	x8, x8, Lswitch.table.wkb_raw_write.374@PAGEOFF
	mov	w9, w3
	ldr	x10, [x8, x20, lsl #3]
	and	x8, x9, #0xff
	adrp	x9, Lswitch.table.wkb_raw_column_from_coordinates.278@PAGE
	add	x9, x9, Lswitch.table.wkb_raw_column_from_coordinates.278@PAGEOFF
	ldr	x24, [sp, #80]
	str	x7, [sp, #8]
	ldr	x8, [x9, x8, lsl #3]
	stp	x8, x10, [sp, #16]
LBB21_299:
	ldr	w8, [x0, x26]
	cmp	w19, #0
	ldr	x7, [sp, #8]
	mov	x22, x1
	mov	w3, w19
	mov	w4, w20
	rev	w9, w8
	ldr	x5, [sp, #32]
	mov	x6, x29
	csel	w25, w8, w9, ne
	ldp	x8, x10, [sp, #16]
	add	x9, x26, #4
	mov	w2, w25
	sub	w23, w23, #1
	add	x0, x27, x9
	madd	x26, x10, x25, x9
	mul	x10, x8, x24
	sub	x8, x1, x9
	mov	x1, x8
	str	x10, [sp]
	bl	_ZN7wkb_raw6erased7wkb_abi12level_slices20lay_many_coordinates17h7050539c17cbcb44E
	adds	x9, x24, x25
	mov	x0, x27
	mov	x1, x22
	mov	w8, wzr
	str	x9, [x21, x28, lsl #3]
	csinv	x24, x9, xzr, lo
	add	x28, x28, #1
	cbnz	w23, LBB21_299
	b	LBB21_255
LBB21_300:
	ldr	q0, [x0]
	and	w9, w3, #0xff
	cmp	w9, #1
	rev64	v0.16b, v0.16b
	str	q0, [x10]
	b.gt	LBB21_322
	cbz	w9, LBB21_391
	cmp	w20, #1
	mov	x9, #9221120237041090560
	mov	w10, #2
	b.gt	LBB21_350
	cbnz	w20, LBB21_351
	b	LBB21_390
LBB21_304:
	mov	w12, #1
	movk	w12, #8192, lsl #16
	cmp	w9, w12
	b.eq	LBB21_325
	mov	w12, #2
	movk	w12, #8192, lsl #16
	cmp	w9, w12
	b.eq	LBB21_340
	mov	w12, #3
	movk	w12, #8192, lsl #16
	cmp	w9, w12
	b.ne	LBB21_366
	mov	w23, wzr
	mov	w9, #3
	b	LBB21_341
LBB21_308:
	cmp	w9, #1
	b.eq	LBB21_420
	cmp	w9, #2
	b.eq	LBB21_425
	cmp	w9, #3
	b.ne	LBB21_327
LBB21_311:
	mov	w10, wzr
	mov	w9, #3
	b	LBB21_426
LBB21_312:
	mov	w12, #6
	movk	w12, #8192, lsl #16
	cmp	w9, w12
	b.eq	LBB21_333
	mov	w12, #7
	movk	w12, #8192, lsl #16
	cmp	w9, w12
	b.ne	LBB21_366
	mov	w23, wzr
	mov	w9, #7
	b	LBB21_341
LBB21_315:
	cmp	w9, #6
	b.eq	LBB21_414
	cmp	w9, #7
	b.ne	LBB21_327
LBB21_317:
	mov	w10, wzr
	mov	w9, #7
	b	LBB21_426
LBB21_318:
	cmp	w9, #2
	b.ne	LBB21_334
	cmp	w20, #2
	b.lo	LBB21_324
	b.ne	LBB21_379
	mov	w9, #16
	b	LBB21_380
LBB21_322:
	cmp	w9, #2
	b.ne	LBB21_337
	cmp	w20, #2
	b.hs	LBB21_352
LBB21_324:
	mov	x9, #9221120237041090560
	mov	w10, #2
	b	LBB21_390
LBB21_325:
	mov	w23, wzr
	mov	w19, w8
LBB21_326:
	ldur	w9, [x27, #5]
	tst	w19, #0x1
	mov	w10, #1
	mov	w28, #9
	rev	w11, w9
	csel	w11, w9, w11, ne
	mov	w9, #1
	b	LBB21_421
LBB21_327:
	sub	w12, w9, #1001
	cmp	w12, #7
	b.hs	LBB21_343
	mov	x22, x7
	cmp	w9, #1003
	b.gt	LBB21_358
	cmp	w9, #1001
	b.eq	LBB21_407
	cmp	w9, #1002
	b.eq	LBB21_409
	ldr	x3, [sp, #32]
	cmp	w9, #1003
	mov	x7, x22
	mov	w23, #1
	b.eq	LBB21_311
	b	LBB21_317
LBB21_332:
	mov	w23, wzr
	mov	w9, #4
	b	LBB21_341
LBB21_333:
	mov	w23, wzr
	mov	w9, #6
	b	LBB21_341
LBB21_334:
	cmp	w20, #1
	b.gt	LBB21_354
	cbz	w20, LBB21_339
	ldr	x9, [x0, #16]
	b	LBB21_382
LBB21_337:
	cmp	w20, #1
	b.gt	LBB21_356
	cbnz	w20, LBB21_381
LBB21_339:
	mov	x9, #9221120237041090560
	str	x9, [x10, #16]
	b	LBB21_389
LBB21_340:
	mov	w23, wzr
	mov	w9, #2
LBB21_341:
	mov	w19, w8
LBB21_342:
	ldur	w10, [x27, #5]
	tst	w19, #0x1
	mov	w12, #9
	rev	w11, w10
	csel	w11, w10, w11, ne
	mov	w10, #1
	b	LBB21_427
LBB21_343:
	sub	w12, w9, #2001
	cmp	w12, #7
	b.hs	LBB21_361
	mov	x22, x7
	cmp	w9, #2003
	b.gt	LBB21_402
	cmp	w9, #2001
	b.eq	LBB21_415
	cmp	w9, #2002
	b.eq	LBB21_417
	ldr	x3, [sp, #32]
	cmp	w9, #2003
	mov	x7, x22
	mov	w23, #2
	b.eq	LBB21_311
	b	LBB21_317
LBB21_348:
	cmp	w20, #2
	b.eq	LBB21_390
LBB21_349:
	ldr	x9, [x0, #16]
	mov	w10, #2
	b	LBB21_390
LBB21_350:
	cmp	w20, #2
	b.eq	LBB21_390
LBB21_351:
	ldr	x9, [x0, #16]
	b	LBB21_385
LBB21_352:
	b.ne	LBB21_383
	mov	w9, #16
	b	LBB21_384
LBB21_354:
	cmp	w20, #2
	b.ne	LBB21_386
	ldr	x9, [x0, #16]
	mov	x11, #9221120237041090560
	b	LBB21_387
LBB21_356:
	cmp	w20, #2
	b.ne	LBB21_388
	ldr	x9, [x0, #16]
	mov	x11, #9221120237041090560
	str	x11, [x10, #16]
	mov	w10, #3
	rev	x9, x9
	b	LBB21_390
LBB21_358:
	cmp	w9, #1004
	b.eq	LBB21_408
	cmp	w9, #1005
	b.eq	LBB21_410
	ldr	x3, [sp, #32]
	cmp	w9, #1006
	mov	x7, x22
	mov	w23, #1
	b.eq	LBB21_414
	b	LBB21_317
LBB21_361:
	sub	w12, w9, #3001
	cmp	w12, #7
	b.hs	LBB21_366
	mov	x22, x7
	cmp	w9, #3003
	b.gt	LBB21_411
	cmp	w9, #3001
	b.eq	LBB21_419
	cmp	w9, #3002
	b.eq	LBB21_424
	ldr	x3, [sp, #32]
	cmp	w9, #3003
	mov	x7, x22
	mov	w23, #3
	b.eq	LBB21_311
	b	LBB21_317
LBB21_366:
	cmp	w8, #0
	mov	w14, #1000
	csel	w13, w10, w11, ne
	mov	w10, #-1073741824
	cset	w19, ne
	ubfx	w9, w13, #30, #1
	and	w12, w13, #0x7fffffff
	mov	w11, #-536870912
	add	w10, w12, w10
	cmp	w9, #0
	csel	w9, w12, w10, eq
	lsr	w12, w12, #30
	lsr	w10, w9, #29
	add	w11, w9, w11
	cmp	w10, #0
	csel	w11, w11, w9, ne
	mov	w9, #35128
	movk	w9, #65, lsl #16
	umull	x9, w11, w9
	lsr	x9, x9, #32
	msub	w9, w9, w14, w11
	tbnz	w13, #31, LBB21_369
	mov	w13, #19923
	movk	w13, #4194, lsl #16
	umull	x11, w11, w13
	lsr	x4, x11, #38
	cbz	w12, LBB21_370
	lsl	w11, w4, #3
	mov	w12, #770
	movk	w12, #770, lsl #16
	lsr	w4, w12, w11
	b	LBB21_370
LBB21_369:
	cmp	w11, #2000
	mov	w11, #3
	ccmp	w12, #0, #0, lo
	csinc	w4, w11, wzr, ne
LBB21_370:
	cmp	w8, #0
	mov	x22, x7
	cset	w8, ne
	cmp	w9, #3
	b.gt	LBB21_375
	cmp	w9, #1
	b.eq	LBB21_393
	cmp	w9, #2
	b.eq	LBB21_397
	cmp	w9, #3
	b.ne	LBB21_396
	mov	w9, #3
	cbz	w10, LBB21_398
	b	LBB21_401
LBB21_375:
	cmp	w9, #4
	b.eq	LBB21_395
	cmp	w9, #5
	b.eq	LBB21_400
	cmp	w9, #6
	b.ne	LBB21_396
	mov	w9, #6
	cbz	w10, LBB21_398
	b	LBB21_401
LBB21_379:
	mov	w9, #24
LBB21_380:
	ldr	x9, [x0, x9]
	mov	w10, #2
	b	LBB21_390
LBB21_381:
	ldr	x9, [x0, #16]
	rev	x9, x9
LBB21_382:
	str	x9, [x10, #16]
	mov	x9, #9221120237041090560
	b	LBB21_389
LBB21_383:
	mov	w9, #24
LBB21_384:
	ldr	x9, [x0, x9]
LBB21_385:
	rev	x9, x9
	mov	w10, #2
	b	LBB21_390
LBB21_386:
	ldp	x11, x9, [x0, #16]
LBB21_387:
	str	x11, [x10, #16]
	b	LBB21_389
LBB21_388:
	ldp	x9, x11, [x0, #16]
	rev	x9, x9
	str	x9, [x10, #16]
	rev	x9, x11
LBB21_389:
	mov	w10, #3
LBB21_390:
	add	x8, x8, x10
	str	x9, [x6, x8, lsl #3]
LBB21_391:
	mov	w25, #1
LBB21_392:
	ldp	x9, x10, [sp, #88]
	mov	w8, wzr
	ldr	x11, [x5, #32]
	add	x12, x21, x25
	str	x12, [x24, x9, lsl #3]
	add	x9, x9, #1
	str	x9, [x11, x10, lsl #3]
	b	LBB21_255
LBB21_393:
	cbz	w10, LBB21_405
	ldr	x3, [sp, #32]
	mov	x7, x22
	mov	x23, x4
	b	LBB21_326
LBB21_395:
	mov	w9, #4
	cbz	w10, LBB21_398
	b	LBB21_401
LBB21_396:
	mov	w9, #7
	cbz	w10, LBB21_398
	b	LBB21_401
LBB21_397:
	mov	w9, #2
	cbnz	w10, LBB21_401
LBB21_398:
	mov	w12, #5
LBB21_399:
	ldr	x3, [sp, #32]
	mov	x7, x22
	mov	x23, x4
	b	LBB21_427
LBB21_400:
	mov	w9, #5
	cbz	w10, LBB21_406
LBB21_401:
	ldr	x3, [sp, #32]
	mov	x7, x22
	mov	x23, x4
	b	LBB21_342
LBB21_402:
	cmp	w9, #2004
	b.eq	LBB21_416
	cmp	w9, #2005
	b.eq	LBB21_418
	ldr	x3, [sp, #32]
	cmp	w9, #2006
	mov	x7, x22
	mov	w23, #2
	b.eq	LBB21_414
	b	LBB21_317
LBB21_405:
	ldr	x3, [sp, #32]
	mov	w9, #1
	mov	w28, #5
	mov	w24, #1
	mov	x7, x22
	mov	x23, x4
	b	LBB21_428
LBB21_406:
	mov	w12, #5
	b	LBB21_399
LBB21_407:
	ldr	x3, [sp, #32]
	mov	x7, x22
	mov	w23, #1
	b	LBB21_420
LBB21_408:
	ldr	x3, [sp, #32]
	mov	x7, x22
	mov	w23, #1
	b	LBB21_423
LBB21_409:
	ldr	x3, [sp, #32]
	mov	x7, x22
	mov	w23, #1
	b	LBB21_425
LBB21_410:
	ldr	x3, [sp, #32]
	mov	x7, x22
	mov	w23, #1
	b	LBB21_293
LBB21_411:
	cmp	w9, #3004
	b.eq	LBB21_422
	cmp	w9, #3005
	b.eq	LBB21_496
	ldr	x3, [sp, #32]
	cmp	w9, #3006
	mov	x7, x22
	mov	w23, #3
	b.ne	LBB21_317
LBB21_414:
	mov	w10, wzr
	mov	w9, #6
	b	LBB21_426
LBB21_415:
	ldr	x3, [sp, #32]
	mov	x7, x22
	mov	w23, #2
	b	LBB21_420
LBB21_416:
	ldr	x3, [sp, #32]
	mov	x7, x22
	mov	w23, #2
	b	LBB21_423
LBB21_417:
	ldr	x3, [sp, #32]
	mov	x7, x22
	mov	w23, #2
	b	LBB21_425
LBB21_418:
	ldr	x3, [sp, #32]
	mov	x7, x22
	mov	w23, #2
	b	LBB21_293
LBB21_419:
	ldr	x3, [sp, #32]
	mov	x7, x22
	mov	w23, #3
LBB21_420:
	mov	w10, wzr
	mov	w9, #1
	mov	w28, #5
	mov	w19, w8
LBB21_421:
	mov	w24, #1
	b	LBB21_428
LBB21_422:
	ldr	x3, [sp, #32]
	mov	x7, x22
	mov	w23, #3
LBB21_423:
	mov	w10, wzr
	mov	w9, #4
	b	LBB21_426
LBB21_424:
	ldr	x3, [sp, #32]
	mov	x7, x22
	mov	w23, #3
LBB21_425:
	mov	w10, wzr
	mov	w9, #2
LBB21_426:
	mov	w12, #5
	mov	w19, w8
LBB21_427:
	ldr	w13, [x27, x12]
	tst	w19, #0x1
	add	x28, x12, #4
	rev	w14, w13
	csel	w24, w13, w14, ne
LBB21_428:
	strb	w23, [sp, #137]
	strb	w8, [sp, #136]
	stp	w10, w11, [sp, #104]
	stp	w9, w24, [sp, #128]
	stp	xzr, x28, [sp, #112]
LBB21_429:
	cmp	w9, #3
	sub	x1, x1, x26
	b.hs	LBB21_437
	and	x8, x3, #0xff
	adrp	x10, Lswitch.table.wkb_raw_column_from_coordinates.278@PAGE
	add	x10, x10, Lswitch.table.wkb_raw_column_from_coordinates.278@PAGEOFF
	ldr	x8, [x10, x8, lsl #3]
	ldr	x21, [sp, #80]
	ldr	x6, [x5]
	ldr	x26, [x5, #16]
	cmp	w9, #1
	add	x0, x27, x28
	mul	x8, x21, x8
	b.ne	LBB21_447
	cmp	w24, #1
	b.ne	LBB21_447
	add	x10, x6, x8, lsl #3
	tbz	w19, #0, LBB21_455
	ldr	q0, [x0]
	and	w9, w3, #0xff
	cmp	w9, #1
	str	q0, [x10]
	b.gt	LBB21_459
	cbz	w9, LBB21_494
	and	w11, w23, #0xff
	mov	x9, #9221120237041090560
	mov	w10, #2
	cmp	w11, #1
	b.gt	LBB21_472
	cbnz	w11, LBB21_473
	b	LBB21_493
LBB21_437:
	b.ne	LBB21_449
	and	w8, w23, #0xff
	cmp	w8, w3, uxtb
	cset	w8, eq
	and	w9, w8, w19
	mov	w8, w24
	tbz	w9, #0, LBB21_451
	ldp	x22, x9, [sp, #88]
	ldr	x10, [x5, #32]
	ldr	x19, [x5]
	ldr	x23, [x5, #16]
	add	x8, x22, x8
	str	x8, [x10, x9, lsl #3]
	cbz	w24, LBB21_454
	ldr	x25, [sp, #80]
	b	LBB21_443
LBB21_441:
	add	x8, x20, x20, lsl #1
	mov	w9, #3
	lsl	x8, x8, #3
LBB21_442:
	mul	x3, x9, x25
	mov	x2, x19
	sub	w24, w24, #1
	umull	x1, w9, w20
	add	x9, x28, #4
	add	x0, x27, x9
	add	x28, x8, x9
	bl	_ZN7wkb_raw6erased7wkb_abi12level_slices9lay_words17h891fea4f68a17320E
	adds	x8, x25, x20
	str	x8, [x23, x22, lsl #3]
	add	x22, x22, #1
	csinv	x25, x8, xzr, lo
	cbz	w24, LBB21_454
LBB21_443:
	ldr	x8, [sp, #32]
	ldr	w20, [x27, x28]
	and	w8, w8, #0xff
	sub	w9, w8, #1
	cmp	w9, #2
	b.lo	LBB21_441
	cmp	w8, #3
	b.ne	LBB21_446
	lsl	x8, x20, #5
	mov	w9, #4
	b	LBB21_442
LBB21_446:
	lsl	x8, x20, #4
	mov	w9, #2
	b	LBB21_442
LBB21_447:
	and	w9, w23, #0xff
	mov	x20, x5
	cmp	w9, w3, uxtb
	cset	w9, eq
	and	w9, w19, w9
	tbz	w9, #0, LBB21_450
	mov	w9, w3
	mov	w19, w24
	mov	x2, x6
	and	x9, x9, #0xff
	mov	x3, x8
	ldr	x9, [x10, x9, lsl #3]
	mul	x1, x9, x19
	bl	_ZN7wkb_raw6erased7wkb_abi12level_slices9lay_words17h891fea4f68a17320E
	mov	x5, x20
	b	LBB21_495
LBB21_449:
	add	x2, sp, #104
	mov	x4, x3
	add	x3, sp, #80
	mov	x0, x27
	bl	_ZN7wkb_raw6erased7wkb_abi12level_slices10lay_walked17h0fd2640570ce7428E
	mov	w8, wzr
	b	LBB21_255
LBB21_450:
	sub	x1, x1, x28
	mov	x5, x3
	and	w3, w19, #0x1
	mov	w2, w24
	mov	w4, w23
	str	x8, [sp]
	bl	_ZN7wkb_raw6erased7wkb_abi12level_slices20lay_many_coordinates17h7050539c17cbcb44E
	mov	w19, w24
	mov	x5, x20
	b	LBB21_495
LBB21_451:
	ldp	x29, x9, [sp, #88]
	ldr	x10, [x5, #32]
	ldr	x25, [x5]
	ldr	x22, [x5, #16]
	add	x8, x29, x8
	str	x8, [x10, x9, lsl #3]
	cbz	w24, LBB21_454
	mov	w9, w23
	ldr	x8, [sp, #32]
	adrp	x10, Lswitch.table.wkb_raw_write.374@PAGE
	add	x10, x10, Lswitch.table.wkb_raw_write.374@PAGEOFF
	and	x9, x9, #0xff
	ldr	x20, [sp, #80]
	and	x8, x8, #0xff
	ldr	x11, [x10, x9, lsl #3]
	adrp	x9, Lswitch.table.wkb_raw_column_from_coordinates.278@PAGE
	add	x9, x9, Lswitch.table.wkb_raw_column_from_coordinates.278@PAGEOFF
	ldr	x8, [x9, x8, lsl #3]
	stp	x8, x11, [sp, #8]
LBB21_453:
	ldr	w8, [x27, x28]
	ands	w3, w19, #0x1
	mov	x26, x27
	mov	x21, x1
	mov	w4, w23
	ldr	x5, [sp, #32]
	rev	w9, w8
	mov	x6, x25
	sub	w24, w24, #1
	csel	w27, w8, w9, ne
	ldr	x9, [sp, #16]
	add	x8, x28, #4
	sub	x1, x1, x8
	add	x0, x26, x8
	mov	w2, w27
	madd	x9, x9, x27, x8
	mov	w28, w19
	mov	x19, x7
	str	x9, [sp, #24]
	ldr	x9, [sp, #8]
	mul	x9, x9, x20
	str	x9, [sp]
	bl	_ZN7wkb_raw6erased7wkb_abi12level_slices20lay_many_coordinates17h7050539c17cbcb44E
	mov	x7, x19
	mov	w19, w28
	ldr	x28, [sp, #24]
	adds	x8, x20, x27
	mov	x1, x21
	mov	x27, x26
	str	x8, [x22, x29, lsl #3]
	add	x29, x29, #1
	csinv	x20, x8, xzr, lo
	cbnz	w24, LBB21_453
LBB21_454:
	mov	w8, wzr
	b	LBB21_255
LBB21_455:
	ldr	q0, [x0]
	and	w9, w3, #0xff
	cmp	w9, #1
	rev64	v0.16b, v0.16b
	str	q0, [x10]
	b.gt	LBB21_463
	cbz	w9, LBB21_494
	and	w11, w23, #0xff
	mov	x9, #9221120237041090560
	mov	w10, #2
	cmp	w11, #1
	b.gt	LBB21_474
	cbnz	w11, LBB21_475
	b	LBB21_493
LBB21_459:
	cmp	w9, #2
	b.ne	LBB21_466
	and	w9, w23, #0xff
	cmp	w9, #2
	b.lo	LBB21_465
	b.ne	LBB21_482
	mov	w9, #16
	b	LBB21_483
LBB21_463:
	cmp	w9, #2
	b.ne	LBB21_469
	and	w9, w23, #0xff
	cmp	w9, #2
	b.hs	LBB21_476
LBB21_465:
	mov	x9, #9221120237041090560
	mov	w10, #2
	b	LBB21_493
LBB21_466:
	and	w9, w23, #0xff
	cmp	w9, #1
	b.gt	LBB21_478
	cbz	w9, LBB21_471
	ldr	x9, [x0, #16]
	b	LBB21_485
LBB21_469:
	and	w9, w23, #0xff
	cmp	w9, #1
	b.gt	LBB21_480
	cbnz	w9, LBB21_484
LBB21_471:
	mov	x9, #9221120237041090560
	str	x9, [x10, #16]
	b	LBB21_492
LBB21_472:
	cmp	w11, #2
	b.eq	LBB21_493
LBB21_473:
	ldr	x9, [x0, #16]
	mov	w10, #2
	b	LBB21_493
LBB21_474:
	cmp	w11, #2
	b.eq	LBB21_493
LBB21_475:
	ldr	x9, [x0, #16]
	b	LBB21_488
LBB21_476:
	b.ne	LBB21_486
	mov	w9, #16
	b	LBB21_487
LBB21_478:
	cmp	w9, #2
	b.ne	LBB21_489
	ldr	x9, [x0, #16]
	mov	x11, #9221120237041090560
	b	LBB21_490
LBB21_480:
	cmp	w9, #2
	b.ne	LBB21_491
	ldr	x9, [x0, #16]
	mov	x11, #9221120237041090560
	str	x11, [x10, #16]
	mov	w10, #3
	rev	x9, x9
	b	LBB21_493
LBB21_482:
	mov	w9, #24
LBB21_483:
	ldr	x9, [x0, x9]
	mov	w10, #2
	b	LBB21_493
LBB21_484:
	ldr	x9, [x0, #16]
	rev	x9, x9
LBB21_485:
	str	x9, [x10, #16]
	mov	x9, #9221120237041090560
	b	LBB21_492
LBB21_486:
	mov	w9, #24
LBB21_487:
	ldr	x9, [x0, x9]
LBB21_488:
	rev	x9, x9
	mov	w10, #2
	b	LBB21_493
LBB21_489:
	ldp	x11, x9, [x0, #16]
LBB21_490:
	str	x11, [x10, #16]
	b	LBB21_492
LBB21_491:
	ldp	x9, x11, [x0, #16]
	rev	x9, x9
	str	x9, [x10, #16]
	rev	x9, x11
LBB21_492:
	mov	w10, #3
LBB21_493:
	add	x8, x8, x10
	str	x9, [x6, x8, lsl #3]
LBB21_494:
	mov	w19, #1
LBB21_495:
	ldp	x8, x9, [sp, #88]
	add	x11, x21, x19
	ldr	x10, [x5, #32]
	str	x11, [x26, x8, lsl #3]
	add	x8, x8, #1
	str	x8, [x10, x9, lsl #3]
	mov	w8, wzr
	b	LBB21_255
LBB21_496:
	ldr	x3, [sp, #32]
	mov	x7, x22
	mov	w23, #3
	b	LBB21_293
Lfunc_end21:
	.cfi_endproc
	.section	__TEXT,__text,regular,pure_instructions
	.p2align	2
_ZN7wkb_raw6erased5wkb_c18column_coordinates19polygon_levels_into17h7f55bbd3bad0298aE:
	.cfi_startproc
	sub	sp, sp, #144
	.cfi_def_cfa_offset 144
	stp	x29, x30, [sp, #48]
	stp	x28, x27, [sp, #64]
	stp	x26, x25, [sp, #80]
	stp	x24, x23, [sp, #96]
	stp	x22, x21, [sp, #112]
	stp	x20, x19, [sp, #128]
	.cfi_offset w19, -8
	.cfi_offset w20, -16
	.cfi_offset w21, -24
	.cfi_offset w22, -32
	.cfi_offset w23, -40
	.cfi_offset w24, -48
	.cfi_offset w25, -56
	.cfi_offset w26, -64
	.cfi_offset w27, -72
	.cfi_offset w28, -80
	.cfi_offset w30, -88
	.cfi_offset w29, -96
	.cfi_remember_state
	mov	w24, w3
	mov	w22, w2
	mov	x20, x0
	tbz	w4, #0, LBB22_10
	subs	x10, x1, #13
	b.lo	LBB22_11
	ldur	w8, [x20, #9]
	cmp	w22, #0
	rev	w9, w8
	csel	w23, w8, w9, ne
	cbz	w23, LBB22_20
	mov	w8, w24
	add	x11, x20, #13
	mov	x9, xzr
	and	x12, x8, #0xff
	adrp	x13, Lswitch.table.wkb_raw_write.374@PAGE
	add	x13, x13, Lswitch.table.wkb_raw_write.374@PAGEOFF
	mov	w8, #9
	mov	w14, w23
	tbz	w22, #0, LBB22_7
LBB22_4:
	cmp	x10, #4
	b.lo	LBB22_11
	ldr	w15, [x11]
	ldr	x16, [x13, x12, lsl #3]
	mul	x16, x16, x15
	orr	x16, x16, #0x4
	subs	x10, x10, x16
	b.lo	LBB22_11
	subs	w14, w14, #1
	add	x9, x9, x15
	add	x11, x11, x16
	b.ne	LBB22_4
	b	LBB22_22
LBB22_7:
	cmp	x10, #4
	b.lo	LBB22_11
	ldr	w15, [x11]
	ldr	x16, [x13, x12, lsl #3]
	rev	w15, w15
	mul	x16, x16, x15
	orr	x16, x16, #0x4
	subs	x10, x10, x16
	b.lo	LBB22_11
	subs	w14, w14, #1
	add	x9, x9, x15
	add	x11, x11, x16
	b.ne	LBB22_7
	b	LBB22_22
LBB22_10:
	subs	x10, x1, #9
	b.hs	LBB22_12
LBB22_11:
	mov	x0, x20
	ldp	x20, x19, [sp, #128]
	ldp	x22, x21, [sp, #112]
	mov	w2, w5
	ldp	x24, x23, [sp, #96]
	mov	x3, x6
	ldp	x26, x25, [sp, #80]
	mov	x4, x7
	ldp	x28, x27, [sp, #64]
	ldp	x29, x30, [sp, #48]
	add	sp, sp, #144
	.cfi_def_cfa_offset 0
	.cfi_restore w19
	.cfi_restore w20
	.cfi_restore w21
	.cfi_restore w22
	.cfi_restore w23
	.cfi_restore w24
	.cfi_restore w25
	.cfi_restore w26
	.cfi_restore w27
	.cfi_restore w28
	.cfi_restore w30
	.cfi_restore w29
	b	_ZN7wkb_raw6erased5wkb_c18column_coordinates15any_levels_into17h04a62653480ba2a5E
LBB22_12:
	.cfi_restore_state
	.cfi_remember_state
	ldur	w8, [x20, #5]
	cmp	w22, #0
	rev	w9, w8
	csel	w23, w8, w9, ne
	cbz	w23, LBB22_21
	add	x11, x20, #9
	and	x12, x24, #0xff
	mov	x9, xzr
	adrp	x13, Lswitch.table.wkb_raw_write.374@PAGE
	add	x13, x13, Lswitch.table.wkb_raw_write.374@PAGEOFF
	mov	w8, #5
	mov	w14, w23
	tbz	w22, #0, LBB22_17
LBB22_14:
	cmp	x10, #4
	b.lo	LBB22_11
	ldr	w15, [x11]
	ldr	x16, [x13, x12, lsl #3]
	mul	x16, x16, x15
	orr	x16, x16, #0x4
	subs	x10, x10, x16
	b.lo	LBB22_11
	subs	w14, w14, #1
	add	x9, x9, x15
	add	x11, x11, x16
	b.ne	LBB22_14
	b	LBB22_22
LBB22_17:
	cmp	x10, #4
	b.lo	LBB22_11
	ldr	w15, [x11]
	ldr	x16, [x13, x12, lsl #3]
	rev	w15, w15
	mul	x16, x16, x15
	orr	x16, x16, #0x4
	subs	x10, x10, x16
	b.lo	LBB22_11
	subs	w14, w14, #1
	add	x9, x9, x15
	add	x11, x11, x16
	b.ne	LBB22_17
	b	LBB22_22
LBB22_20:
	mov	x9, xzr
	mov	w8, #9
	b	LBB22_22
LBB22_21:
	mov	x9, xzr
	mov	w8, #5
LBB22_22:
	ldp	x29, x27, [x6]
	mov	w11, w23
	ldr	x10, [x6, #16]
	and	w14, w5, #0xff
	sub	w15, w14, #1
	adds	x9, x29, x9
	csinv	x9, x9, xzr, lo
	adds	x12, x27, x11
	csinv	x13, x12, xzr, lo
	adds	x12, x10, #1
	csinv	x12, x12, xzr, lo
	cmp	w15, #2
	ldr	x15, [x7, #8]
	stp	x9, x13, [x6]
	str	x12, [x6, #16]
	b.hs	LBB22_24
	mov	x14, #-6148914691236517206
	movk	x14, #43691
	umulh	x14, x15, x14
	lsr	x14, x14, #1
	cmp	x9, x14
	b.ls	LBB22_27
	b	LBB22_29
LBB22_24:
	cmp	w14, #3
	b.ne	LBB22_26
	lsr	x14, x15, #2
	cmp	x9, x14
	b.hi	LBB22_29
	b	LBB22_27
LBB22_26:
	lsr	x14, x15, #1
	cmp	x9, x14
	b.hi	LBB22_29
LBB22_27:
	ldr	x9, [x7, #24]
	cmp	x13, x9
	b.hi	LBB22_29
	ldr	x9, [x7, #40]
	cmp	x12, x9
	b.ls	LBB22_31
LBB22_29:
	mov	w0, #2
LBB22_30:
	ldp	x20, x19, [sp, #128]
	ldp	x22, x21, [sp, #112]
	ldp	x24, x23, [sp, #96]
	ldp	x26, x25, [sp, #80]
	ldp	x28, x27, [sp, #64]
	ldp	x29, x30, [sp, #48]
	add	sp, sp, #144
	.cfi_def_cfa_offset 0
	.cfi_restore w19
	.cfi_restore w20
	.cfi_restore w21
	.cfi_restore w22
	.cfi_restore w23
	.cfi_restore w24
	.cfi_restore w25
	.cfi_restore w26
	.cfi_restore w27
	.cfi_restore w28
	.cfi_restore w30
	.cfi_restore w29
	ret
LBB22_31:
	.cfi_restore_state
	add	x28, x8, #4
	add	x8, x27, x11
	cbz	w22, LBB22_40
	and	w9, w24, #0xff
	cmp	w9, w5, uxtb
	b.ne	LBB22_40
	ldr	x9, [x7, #32]
	ldr	x21, [x7]
	ldr	x22, [x7, #16]
	str	x8, [x9, x10, lsl #3]
	cbnz	w23, LBB22_36
	b	LBB22_43
LBB22_34:
	add	x8, x19, x19, lsl #1
	mov	w9, #3
	lsl	x8, x8, #3
LBB22_35:
	mul	x3, x9, x29
	mov	x2, x21
	sub	w23, w23, #1
	umull	x1, w9, w19
	add	x9, x28, #4
	add	x0, x20, x9
	add	x28, x8, x9
	bl	_ZN7wkb_raw6erased7wkb_abi12level_slices9lay_words17h891fea4f68a17320E
	adds	x8, x29, x19
	str	x8, [x22, x27, lsl #3]
	add	x27, x27, #1
	csinv	x29, x8, xzr, lo
	cbz	w23, LBB22_43
LBB22_36:
	and	w8, w24, #0xff
	ldr	w19, [x20, x28]
	sub	w9, w8, #1
	cmp	w9, #2
	b.lo	LBB22_34
	cmp	w8, #3
	b.ne	LBB22_39
	lsl	x8, x19, #5
	mov	w9, #4
	b	LBB22_35
LBB22_39:
	lsl	x8, x19, #4
	mov	w9, #2
	b	LBB22_35
LBB22_40:
	ldr	x9, [x7, #32]
	ldr	x21, [x7]
	ldr	x11, [x7, #16]
	str	x8, [x9, x10, lsl #3]
	cbz	w23, LBB22_43
	mov	w8, w24
	adrp	x9, Lswitch.table.wkb_raw_write.374@PAGE
	add	x9, x9, Lswitch.table.wkb_raw_write.374@PAGEOFF
	and	x8, x8, #0xff
	and	x10, x5, #0xff
	ldr	x8, [x9, x8, lsl #3]
	str	x8, [sp, #24]
	adrp	x8, Lswitch.table.wkb_raw_column_from_coordinates.278@PAGE
	add	x8, x8, Lswitch.table.wkb_raw_column_from_coordinates.278@PAGEOFF
	ldr	x8, [x8, x10, lsl #3]
	str	x8, [sp, #16]
LBB22_42:
	ldr	w8, [x20, x28]
	cmp	w22, #0
	sub	w23, w23, #1
	str	w23, [sp, #44]
	mov	x23, x1
	mov	w3, w22
	rev	w9, w8
	mov	w4, w24
	mov	x6, x21
	csel	w25, w8, w9, ne
	ldr	x8, [sp, #24]
	add	x9, x28, #4
	add	x0, x20, x9
	mov	w2, w25
	mov	x7, x15
	madd	x8, x8, x25, x9
	mov	x19, x24
	mov	x24, x5
	mov	x26, x20
	mov	x20, x15
	mov	x28, x11
	str	x8, [sp, #32]
	ldr	x8, [sp, #16]
	mul	x10, x8, x29
	sub	x8, x1, x9
	mov	x1, x8
	str	x10, [sp]
	bl	_ZN7wkb_raw6erased7wkb_abi12level_slices20lay_many_coordinates17h7050539c17cbcb44E
	mov	x11, x28
	mov	x1, x23
	ldr	w23, [sp, #44]
	ldr	x28, [sp, #32]
	adds	x8, x29, x25
	mov	x15, x20
	mov	x20, x26
	mov	x5, x24
	mov	x24, x19
	str	x8, [x11, x27, lsl #3]
	add	x27, x27, #1
	csinv	x29, x8, xzr, lo
	cbnz	w23, LBB22_42
LBB22_43:
	mov	w0, wzr
	b	LBB22_30
Lfunc_end22:
	.cfi_endproc
	.section	__TEXT,__text,regular,pure_instructions
	.p2align	2
_ZN7wkb_raw6erased5wkb_c18column_coordinates25multi_polygon_levels_into17h98469985e9fe953bE:
	.cfi_startproc
	sub	sp, sp, #240
	.cfi_def_cfa_offset 240
	stp	x29, x30, [sp, #144]
	stp	x28, x27, [sp, #160]
	stp	x26, x25, [sp, #176]
	stp	x24, x23, [sp, #192]
	stp	x22, x21, [sp, #208]
	stp	x20, x19, [sp, #224]
	.cfi_offset w19, -8
	.cfi_offset w20, -16
	.cfi_offset w21, -24
	.cfi_offset w22, -32
	.cfi_offset w23, -40
	.cfi_offset w24, -48
	.cfi_offset w25, -56
	.cfi_offset w26, -64
	.cfi_offset w27, -72
	.cfi_offset w28, -80
	.cfi_offset w30, -88
	.cfi_offset w29, -96
	.cfi_remember_state
	tbz	w4, #0, LBB23_39
	subs	x12, x1, #13
	b.lo	LBB23_40
	ldur	w8, [x0, #9]
	cmp	w2, #0
	rev	w10, w8
	csel	w13, w8, w10, ne
	cbz	w13, LBB23_78
	and	w17, w3, #0xff
	mov	w15, #1000
	mov	w20, w3
	mul	w19, w17, w15
	mov	w21, #35128
	mov	w14, wzr
	mov	x9, xzr
	mov	x11, xzr
	add	x16, x0, #13
	mov	w17, #-1073741824
	mov	w4, #-536870912
	and	x20, x20, #0xff
	movk	w21, #65, lsl #16
	orr	w23, w19, #0x3
	mov	w25, #9
	adrp	x27, Lswitch.table.wkb_raw_write.374@PAGE
	add	x27, x27, Lswitch.table.wkb_raw_write.374@PAGEOFF
LBB23_4:
	cmp	x12, #5
	b.hs	LBB23_7
	cbz	x12, LBB23_40
	ldrb	w29, [x16]
	b	LBB23_12
LBB23_7:
	ldrb	w29, [x16]
	cmp	w29, #1
	b.eq	LBB23_11
	cbnz	w29, LBB23_12
	ldur	w19, [x16, #1]
	mov	w28, wzr
	rev	w19, w19
	cmp	w19, w23
	b.ne	LBB23_12
LBB23_10:
	mov	w19, #5
	b	LBB23_26
LBB23_11:
	ldur	w19, [x16, #1]
	mov	w28, #1
	cmp	w19, w23
	b.eq	LBB23_10
LBB23_12:
	cbz	w29, LBB23_15
	cmp	w29, #1
	b.ne	LBB23_40
	mov	w28, #1
	b	LBB23_16
LBB23_15:
	mov	w28, wzr
LBB23_16:
	cmp	x12, #5
	b.lo	LBB23_40
	ldur	w19, [x16, #1]
	cmp	w28, #0
	rev	w22, w19
	csel	w22, w19, w22, ne
	ubfx	w19, w22, #30, #1
	and	w26, w22, #0x7fffffff
	add	w29, w26, w17
	cmp	w19, #0
	csel	w19, w26, w29, eq
	lsr	w29, w19, #29
	add	w30, w19, w4
	cmp	w29, #0
	csel	w19, w30, w19, ne
	cmp	w19, #3999
	b.hi	LBB23_40
	umull	x30, w19, w21
	lsr	x30, x30, #32
	msub	w30, w30, w15, w19
	sub	w24, w30, #1
	cmp	w24, #6
	b.hi	LBB23_40
	tbnz	w22, #31, LBB23_22
	mov	w22, #19923
	movk	w22, #4194, lsl #16
	umull	x19, w19, w22
	lsr	w22, w26, #30
	lsr	x19, x19, #38
	cbz	w22, LBB23_23
	lsl	w19, w19, #3
	mov	w22, #770
	movk	w22, #770, lsl #16
	lsr	w19, w22, w19
	b	LBB23_23
LBB23_22:
	lsr	w22, w26, #30
	cmp	w19, #2000
	mov	w19, #3
	ccmp	w22, #0, #0, lo
	csinc	w19, w19, wzr, ne
LBB23_23:
	cmp	w30, #3
	b.ne	LBB23_40
	and	w19, w19, #0xff
	cmp	w19, w3, uxtb
	b.ne	LBB23_40
	cmp	w29, #0
	mov	w19, #5
	csel	x19, x25, x19, ne
LBB23_26:
	add	x22, x19, #4
	cmp	x12, x22
	b.lo	LBB23_40
	add	x16, x16, x19
	cmp	w28, #0
	sub	x12, x12, x19
	ldr	w22, [x16], #4
	sub	x12, x12, #4
	rev	w26, w22
	csel	w29, w22, w26, ne
	cbz	w29, LBB23_33
	add	x11, x11, #2
	tbz	w28, #0, LBB23_34
	sub	w19, w22, #1
	add	x11, x11, x19
LBB23_30:
	cmp	x12, #4
	b.lo	LBB23_40
	ldr	w19, [x16]
	ldr	x22, [x27, x20, lsl #3]
	mul	x22, x22, x19
	orr	x22, x22, #0x4
	subs	x12, x12, x22
	b.lo	LBB23_40
	subs	w29, w29, #1
	add	x9, x9, x19
	add	x16, x16, x22
	b.ne	LBB23_30
	b	LBB23_38
LBB23_33:
	add	x11, x11, #1
	b	LBB23_38
LBB23_34:
	sub	w19, w26, #1
	add	x11, x11, x19
LBB23_35:
	cmp	x12, #4
	b.lo	LBB23_40
	ldr	w19, [x16]
	ldr	x22, [x27, x20, lsl #3]
	rev	w19, w19
	mul	x22, x22, x19
	orr	x22, x22, #0x4
	subs	x12, x12, x22
	b.lo	LBB23_40
	subs	w29, w29, #1
	add	x9, x9, x19
	add	x16, x16, x22
	b.ne	LBB23_35
LBB23_38:
	add	w14, w14, #1
	cmp	w14, w13
	b.ne	LBB23_4
	b	LBB23_79
LBB23_39:
	subs	x12, x1, #9
	b.hs	LBB23_41
LBB23_40:
	ldp	x20, x19, [sp, #224]
	mov	w2, w5
	ldp	x22, x21, [sp, #208]
	mov	x3, x6
	ldp	x24, x23, [sp, #192]
	mov	x4, x7
	ldp	x26, x25, [sp, #176]
	ldp	x28, x27, [sp, #160]
	ldp	x29, x30, [sp, #144]
	add	sp, sp, #240
	.cfi_def_cfa_offset 0
	.cfi_restore w19
	.cfi_restore w20
	.cfi_restore w21
	.cfi_restore w22
	.cfi_restore w23
	.cfi_restore w24
	.cfi_restore w25
	.cfi_restore w26
	.cfi_restore w27
	.cfi_restore w28
	.cfi_restore w30
	.cfi_restore w29
	b	_ZN7wkb_raw6erased5wkb_c18column_coordinates15any_levels_into17h04a62653480ba2a5E
LBB23_41:
	.cfi_restore_state
	.cfi_remember_state
	ldur	w8, [x0, #5]
	cmp	w2, #0
	rev	w10, w8
	csel	w13, w8, w10, ne
	cbz	w13, LBB23_80
	and	w17, w3, #0xff
	mov	w15, #1000
	mov	w21, #35128
	mul	w20, w17, w15
	mov	w14, wzr
	mov	x9, xzr
	mov	x11, xzr
	add	x16, x0, #9
	and	x17, x3, #0xff
	mov	w4, #-1073741824
	mov	w19, #-536870912
	movk	w21, #65, lsl #16
	orr	w24, w20, #0x3
	mov	w25, #9
	adrp	x27, Lswitch.table.wkb_raw_write.374@PAGE
	add	x27, x27, Lswitch.table.wkb_raw_write.374@PAGEOFF
LBB23_43:
	cmp	x12, #5
	b.hs	LBB23_46
	cbz	x12, LBB23_40
	ldrb	w29, [x16]
	b	LBB23_51
LBB23_46:
	ldrb	w29, [x16]
	cmp	w29, #1
	b.eq	LBB23_50
	cbnz	w29, LBB23_51
	ldur	w20, [x16, #1]
	mov	w28, wzr
	rev	w20, w20
	cmp	w20, w24
	b.ne	LBB23_51
LBB23_49:
	mov	w20, #5
	b	LBB23_65
LBB23_50:
	ldur	w20, [x16, #1]
	mov	w28, #1
	cmp	w20, w24
	b.eq	LBB23_49
LBB23_51:
	cbz	w29, LBB23_54
	cmp	w29, #1
	b.ne	LBB23_40
	mov	w28, #1
	b	LBB23_55
LBB23_54:
	mov	w28, wzr
LBB23_55:
	cmp	x12, #5
	b.lo	LBB23_40
	ldur	w20, [x16, #1]
	cmp	w28, #0
	rev	w22, w20
	csel	w22, w20, w22, ne
	ubfx	w20, w22, #30, #1
	and	w26, w22, #0x7fffffff
	add	w29, w26, w4
	cmp	w20, #0
	csel	w20, w26, w29, eq
	lsr	w29, w20, #29
	add	w30, w20, w19
	cmp	w29, #0
	csel	w20, w30, w20, ne
	cmp	w20, #3999
	b.hi	LBB23_40
	umull	x30, w20, w21
	lsr	x30, x30, #32
	msub	w30, w30, w15, w20
	sub	w23, w30, #1
	cmp	w23, #7
	b.hs	LBB23_40
	tbnz	w22, #31, LBB23_61
	mov	w22, #19923
	movk	w22, #4194, lsl #16
	umull	x20, w20, w22
	lsr	w22, w26, #30
	lsr	x20, x20, #38
	cbz	w22, LBB23_62
	lsl	w20, w20, #3
	mov	w22, #770
	movk	w22, #770, lsl #16
	lsr	w20, w22, w20
	b	LBB23_62
LBB23_61:
	lsr	w22, w26, #30
	cmp	w20, #2000
	mov	w20, #3
	ccmp	w22, #0, #0, lo
	csinc	w20, w20, wzr, ne
LBB23_62:
	cmp	w30, #3
	b.ne	LBB23_40
	and	w20, w20, #0xff
	cmp	w20, w3, uxtb
	b.ne	LBB23_40
	cmp	w29, #0
	mov	w20, #5
	csel	x20, x25, x20, ne
LBB23_65:
	add	x22, x20, #4
	cmp	x12, x22
	b.lo	LBB23_40
	add	x16, x16, x20
	cmp	w28, #0
	sub	x12, x12, x20
	ldr	w22, [x16], #4
	sub	x12, x12, #4
	rev	w26, w22
	csel	w29, w22, w26, ne
	cbz	w29, LBB23_72
	add	x11, x11, #2
	tbz	w28, #0, LBB23_73
	sub	w20, w22, #1
	add	x11, x11, x20
LBB23_69:
	cmp	x12, #4
	b.lo	LBB23_40
	ldr	w20, [x16]
	ldr	x22, [x27, x17, lsl #3]
	mul	x22, x22, x20
	orr	x22, x22, #0x4
	subs	x12, x12, x22
	b.lo	LBB23_40
	subs	w29, w29, #1
	add	x9, x9, x20
	add	x16, x16, x22
	b.ne	LBB23_69
	b	LBB23_77
LBB23_72:
	add	x11, x11, #1
	b	LBB23_77
LBB23_73:
	sub	w20, w26, #1
	add	x11, x11, x20
LBB23_74:
	cmp	x12, #4
	b.lo	LBB23_40
	ldr	w20, [x16]
	ldr	x22, [x27, x17, lsl #3]
	rev	w20, w20
	mul	x22, x22, x20
	orr	x22, x22, #0x4
	subs	x12, x12, x22
	b.lo	LBB23_40
	subs	w29, w29, #1
	add	x9, x9, x20
	add	x16, x16, x22
	b.ne	LBB23_74
LBB23_77:
	add	w14, w14, #1
	cmp	w14, w13
	b.ne	LBB23_43
	b	LBB23_81
LBB23_78:
	mov	x11, xzr
	mov	x9, xzr
LBB23_79:
	ldur	w12, [x0, #5]
	cmp	w2, #0
	rev	w13, w12
	csel	w14, w12, w13, ne
	mov	w12, #1
	mov	w13, #9
	b	LBB23_82
LBB23_80:
	mov	x11, xzr
	mov	x9, xzr
LBB23_81:
	mov	w12, wzr
	mov	w13, #5
LBB23_82:
	ldr	q0, [x6]
	cmp	w2, #0
	stp	w12, w14, [sp, #40]
	csel	w10, w8, w10, ne
	add	x11, x11, #1
	ldr	x26, [x6, #16]
	str	q0, [sp, #80]
	add	x12, x10, #1
	add	x8, x13, #4
	ldp	x25, x27, [sp, #80]
	subs	x11, x11, x12
	csel	x12, xzr, x11, lo
	and	w13, w5, #0xff
	ldr	x16, [x7, #8]
	sub	w14, w13, #1
	mov	w15, #6
	strb	w3, [sp, #73]
	adds	x9, x25, x9
	stp	w15, w10, [sp, #64]
	csinv	x11, x9, xzr, lo
	adds	x9, x27, x12
	strb	w2, [sp, #72]
	csinv	x9, x9, xzr, lo
	adds	x12, x26, x10
	stp	xzr, x8, [sp, #48]
	csinv	x12, x12, xzr, lo
	cmp	w14, #2
	str	x26, [sp, #96]
	stp	x11, x9, [x6]
	str	x12, [x6, #16]
	b.hs	LBB23_84
	mov	x13, #-6148914691236517206
	movk	x13, #43691
	umulh	x13, x16, x13
	lsr	x13, x13, #1
	cmp	x11, x13
	b.ls	LBB23_87
	b	LBB23_89
LBB23_84:
	cmp	w13, #3
	b.ne	LBB23_86
	lsr	x13, x16, #2
	cmp	x11, x13
	b.hi	LBB23_89
	b	LBB23_87
LBB23_86:
	lsr	x13, x16, #1
	cmp	x11, x13
	b.hi	LBB23_89
LBB23_87:
	ldr	x11, [x7, #24]
	cmp	x9, x11
	b.hi	LBB23_89
	ldr	x9, [x7, #40]
	cmp	x12, x9
	b.ls	LBB23_91
LBB23_89:
	mov	w0, #2
LBB23_90:
	ldp	x20, x19, [sp, #224]
	ldp	x22, x21, [sp, #208]
	ldp	x24, x23, [sp, #192]
	ldp	x26, x25, [sp, #176]
	ldp	x28, x27, [sp, #160]
	ldp	x29, x30, [sp, #144]
	add	sp, sp, #240
	.cfi_def_cfa_offset 0
	.cfi_restore w19
	.cfi_restore w20
	.cfi_restore w21
	.cfi_restore w22
	.cfi_restore w23
	.cfi_restore w24
	.cfi_restore w25
	.cfi_restore w26
	.cfi_restore w27
	.cfi_restore w28
	.cfi_restore w30
	.cfi_restore w29
	ret
LBB23_91:
	.cfi_restore_state
	cmp	w10, #1
	b.ne	LBB23_96
	add	x24, x0, x8
	cmp	w2, #0
	str	x5, [sp, #32]
	ldur	w11, [x24, #1]
	ldrb	w9, [x24]
	rev	w12, w11
	csel	w10, w11, w12, ne
	cmp	w9, w2
	b.ne	LBB23_98
	sub	w13, w10, #1
	cmp	w13, #6
	b.hi	LBB23_98
	cmp	w10, #1
	b.ne	LBB23_109
	mov	w23, #1
	mov	w28, #5
	b	LBB23_110
LBB23_96:
	add	x2, sp, #40
	add	x3, sp, #80
LBB23_97:
	mov	w4, w5
	mov	x5, x7
	bl	_ZN7wkb_raw6erased7wkb_abi12level_slices10lay_walked17h0fd2640570ce7428E
	b	LBB23_257
LBB23_98:
	cmp	w9, #0
	csel	w10, w12, w11, eq
	lsr	w13, w10, #29
	cbz	w13, LBB23_104
	mov	w13, #3
	movk	w13, #8192, lsl #16
	cmp	w10, w13
	b.le	LBB23_111
	mov	w13, #5
	movk	w13, #8192, lsl #16
	cmp	w10, w13
	b.gt	LBB23_119
	mov	w13, #4
	movk	w13, #8192, lsl #16
	cmp	w10, w13
	b.eq	LBB23_132
	mov	w13, #5
	movk	w13, #8192, lsl #16
	cmp	w10, w13
	b.ne	LBB23_150
	mov	w22, wzr
	mov	w10, #5
	b	LBB23_135
LBB23_104:
	cmp	w10, #3
	mov	w22, wzr
	b.le	LBB23_115
	cmp	w10, #5
	b.gt	LBB23_122
	cmp	w10, #4
	b.eq	LBB23_186
	cmp	w10, #5
	b.ne	LBB23_127
LBB23_108:
	mov	w13, #5
	mov	w11, wzr
	mov	w2, w9
	mov	w10, w13
	b	LBB23_190
LBB23_109:
	ldur	w9, [x24, #5]
	cmp	w2, #0
	mov	w28, #9
	rev	w11, w9
	csel	w23, w9, w11, ne
LBB23_110:
	mov	w22, wzr
	str	wzr, [sp, #104]
	stp	xzr, x28, [sp, #112]
	stp	w10, w23, [sp, #128]
	strb	w2, [sp, #136]
	strb	wzr, [sp, #137]
	b	LBB23_192
LBB23_111:
	mov	w13, #1
	movk	w13, #8192, lsl #16
	cmp	w10, w13
	b.eq	LBB23_125
	mov	w13, #2
	movk	w13, #8192, lsl #16
	cmp	w10, w13
	b.eq	LBB23_134
	mov	w13, #3
	movk	w13, #8192, lsl #16
	cmp	w10, w13
	b.ne	LBB23_150
	mov	w22, wzr
	mov	w10, #3
	b	LBB23_135
LBB23_115:
	cmp	w10, #1
	b.eq	LBB23_183
	cmp	w10, #2
	b.eq	LBB23_188
	cmp	w10, #3
	b.ne	LBB23_127
LBB23_118:
	mov	w11, wzr
	mov	w10, #3
	b	LBB23_189
LBB23_119:
	mov	w13, #6
	movk	w13, #8192, lsl #16
	cmp	w10, w13
	b.eq	LBB23_133
	mov	w13, #7
	movk	w13, #8192, lsl #16
	cmp	w10, w13
	b.ne	LBB23_150
	mov	w22, wzr
	mov	w10, #7
	b	LBB23_135
LBB23_122:
	cmp	w10, #6
	b.eq	LBB23_177
	cmp	w10, #7
	b.ne	LBB23_127
LBB23_124:
	mov	w11, wzr
	mov	w10, #7
	b	LBB23_189
LBB23_125:
	mov	w22, wzr
	mov	w2, w9
LBB23_126:
	ldur	w10, [x24, #5]
	tst	w2, #0x1
	mov	w11, #1
	mov	w28, #9
	rev	w12, w10
	csel	w12, w10, w12, ne
	mov	w10, #1
	b	LBB23_184
LBB23_127:
	sub	w13, w10, #1001
	cmp	w13, #7
	b.hs	LBB23_137
	cmp	w10, #1003
	mov	w22, #1
	b.gt	LBB23_142
	cmp	w10, #1001
	b.eq	LBB23_183
	cmp	w10, #1002
	b.eq	LBB23_188
	cmp	w10, #1003
	b.eq	LBB23_118
	b	LBB23_124
LBB23_132:
	mov	w22, wzr
	mov	w10, #4
	b	LBB23_135
LBB23_133:
	mov	w22, wzr
	mov	w10, #6
	b	LBB23_135
LBB23_134:
	mov	w22, wzr
	mov	w10, #2
LBB23_135:
	mov	w2, w9
LBB23_136:
	ldur	w11, [x24, #5]
	tst	w2, #0x1
	mov	w13, #9
	rev	w12, w11
	csel	w12, w11, w12, ne
	mov	w11, #1
	b	LBB23_190
LBB23_137:
	sub	w13, w10, #2001
	cmp	w13, #7
	b.hs	LBB23_145
	cmp	w10, #2003
	b.gt	LBB23_171
	cmp	w10, #2001
	b.eq	LBB23_178
	cmp	w10, #2002
	b.eq	LBB23_180
	ldr	x5, [sp, #32]
	cmp	w10, #2003
	mov	w22, #2
	b.eq	LBB23_118
	b	LBB23_124
LBB23_142:
	cmp	w10, #1004
	b.eq	LBB23_186
	cmp	w10, #1005
	b.eq	LBB23_108
	cmp	w10, #1006
	b.eq	LBB23_177
	b	LBB23_124
LBB23_145:
	sub	w13, w10, #3001
	cmp	w13, #7
	b.hs	LBB23_150
	cmp	w10, #3003
	b.gt	LBB23_174
	cmp	w10, #3001
	b.eq	LBB23_182
	cmp	w10, #3002
	b.eq	LBB23_187
	ldr	x5, [sp, #32]
	cmp	w10, #3003
	mov	w22, #3
	b.eq	LBB23_118
	b	LBB23_124
LBB23_150:
	cmp	w9, #0
	mov	w13, #-536870912
	mov	w15, #1000
	csel	w14, w11, w12, ne
	mov	w11, #-1073741824
	cset	w2, ne
	ubfx	w10, w14, #30, #1
	and	w12, w14, #0x7fffffff
	add	w11, w12, w11
	cmp	w10, #0
	csel	w10, w12, w11, eq
	lsr	w11, w10, #29
	add	w13, w10, w13
	cmp	w11, #0
	csel	w13, w13, w10, ne
	mov	w10, #35128
	movk	w10, #65, lsl #16
	umull	x10, w13, w10
	lsr	x10, x10, #32
	msub	w10, w10, w15, w13
	tbnz	w14, #31, LBB23_153
	mov	w14, #19923
	lsr	w12, w12, #30
	movk	w14, #4194, lsl #16
	umull	x13, w13, w14
	lsr	x22, x13, #38
	cbz	w12, LBB23_154
	lsl	w12, w22, #3
	mov	w13, #770
	movk	w13, #770, lsl #16
	lsr	w22, w13, w12
	b	LBB23_154
LBB23_153:
	lsr	w12, w12, #30
	cmp	w13, #2000
	ccmp	w12, #0, #0, lo
	mov	w12, #3
	csinc	w22, w12, wzr, ne
LBB23_154:
	cmp	w9, #0
	cset	w9, ne
	cmp	w10, #3
	b.gt	LBB23_159
	cmp	w10, #1
	b.eq	LBB23_163
	cmp	w10, #2
	b.eq	LBB23_167
	cmp	w10, #3
	b.ne	LBB23_166
	mov	w10, #3
	cbnz	w11, LBB23_136
	b	LBB23_168
LBB23_159:
	cmp	w10, #4
	b.eq	LBB23_165
	cmp	w10, #5
	b.eq	LBB23_169
	cmp	w10, #6
	b.ne	LBB23_166
	mov	w10, #6
	cbnz	w11, LBB23_136
	b	LBB23_168
LBB23_163:
	cbnz	w11, LBB23_126
	mov	w10, #1
	mov	w28, #5
	b	LBB23_184
LBB23_165:
	mov	w10, #4
	cbnz	w11, LBB23_136
	b	LBB23_168
LBB23_166:
	mov	w10, #7
	cbnz	w11, LBB23_136
	b	LBB23_168
LBB23_167:
	mov	w10, #2
	cbnz	w11, LBB23_136
LBB23_168:
	mov	w13, #5
	b	LBB23_190
LBB23_169:
	mov	w10, #5
	cbnz	w11, LBB23_136
	mov	w13, #5
	b	LBB23_190
LBB23_171:
	cmp	w10, #2004
	b.eq	LBB23_179
	cmp	w10, #2005
	b.eq	LBB23_181
	ldr	x5, [sp, #32]
	cmp	w10, #2006
	mov	w22, #2
	b.eq	LBB23_177
	b	LBB23_124
LBB23_174:
	cmp	w10, #3004
	b.eq	LBB23_185
	cmp	w10, #3005
	b.eq	LBB23_258
	ldr	x5, [sp, #32]
	cmp	w10, #3006
	mov	w22, #3
	b.ne	LBB23_124
LBB23_177:
	mov	w11, wzr
	mov	w10, #6
	b	LBB23_189
LBB23_178:
	ldr	x5, [sp, #32]
	mov	w22, #2
	b	LBB23_183
LBB23_179:
	ldr	x5, [sp, #32]
	mov	w22, #2
	b	LBB23_186
LBB23_180:
	ldr	x5, [sp, #32]
	mov	w22, #2
	b	LBB23_188
LBB23_181:
	ldr	x5, [sp, #32]
	mov	w22, #2
	b	LBB23_108
LBB23_182:
	ldr	x5, [sp, #32]
	mov	w22, #3
LBB23_183:
	mov	w11, wzr
	mov	w10, #1
	mov	w28, #5
	mov	w2, w9
LBB23_184:
	mov	w23, #1
	b	LBB23_191
LBB23_185:
	ldr	x5, [sp, #32]
	mov	w22, #3
LBB23_186:
	mov	w11, wzr
	mov	w10, #4
	b	LBB23_189
LBB23_187:
	ldr	x5, [sp, #32]
	mov	w22, #3
LBB23_188:
	mov	w11, wzr
	mov	w10, #2
LBB23_189:
	mov	w13, #5
	mov	w2, w9
LBB23_190:
	ldr	w14, [x24, x13]
	tst	w2, #0x1
	add	x28, x13, #4
	rev	w15, w14
	csel	w23, w14, w15, ne
LBB23_191:
	strb	w22, [sp, #137]
	strb	w9, [sp, #136]
	stp	w11, w12, [sp, #104]
	stp	w10, w23, [sp, #128]
	stp	xzr, x28, [sp, #112]
LBB23_192:
	cmp	w10, #3
	sub	x20, x1, x8
	b.hs	LBB23_200
	and	x8, x5, #0xff
	adrp	x9, Lswitch.table.wkb_raw_column_from_coordinates.278@PAGE
	add	x9, x9, Lswitch.table.wkb_raw_column_from_coordinates.278@PAGEOFF
	ldr	x8, [x9, x8, lsl #3]
	ldr	x6, [x7]
	ldr	x21, [x7, #16]
	cmp	w10, #1
	add	x0, x24, x28
	mul	x8, x25, x8
	b.ne	LBB23_209
	cmp	w23, #1
	b.ne	LBB23_209
	add	x10, x6, x8, lsl #3
	tbz	w2, #0, LBB23_216
	ldr	q0, [x0]
	and	w9, w5, #0xff
	cmp	w9, #1
	str	q0, [x10]
	b.gt	LBB23_220
	cbz	w9, LBB23_255
	and	w11, w22, #0xff
	mov	x9, #9221120237041090560
	mov	w10, #2
	cmp	w11, #1
	b.gt	LBB23_233
	cbnz	w11, LBB23_234
	b	LBB23_254
LBB23_200:
	b.ne	LBB23_211
	and	w8, w22, #0xff
	cmp	w8, w5, uxtb
	cset	w8, eq
	and	w9, w8, w2
	add	x8, x27, w23, uxtw
	tbz	w9, #0, LBB23_213
	ldr	x9, [x7, #32]
	ldr	x20, [x7]
	ldr	x22, [x7, #16]
	str	x8, [x9, x26, lsl #3]
	cbnz	w23, LBB23_205
	b	LBB23_257
LBB23_203:
	add	x8, x19, x19, lsl #1
	mov	w9, #3
	lsl	x8, x8, #3
LBB23_204:
	mul	x3, x9, x25
	mov	x2, x20
	sub	w23, w23, #1
	umull	x1, w9, w19
	add	x9, x28, #4
	add	x0, x24, x9
	add	x28, x8, x9
	bl	_ZN7wkb_raw6erased7wkb_abi12level_slices9lay_words17h891fea4f68a17320E
	adds	x8, x25, x19
	ldr	x5, [sp, #32]
	str	x8, [x22, x27, lsl #3]
	add	x27, x27, #1
	csinv	x25, x8, xzr, lo
	cbz	w23, LBB23_257
LBB23_205:
	and	w8, w5, #0xff
	ldr	w19, [x24, x28]
	sub	w9, w8, #1
	cmp	w9, #2
	b.lo	LBB23_203
	cmp	w8, #3
	b.ne	LBB23_208
	lsl	x8, x19, #5
	mov	w9, #4
	b	LBB23_204
LBB23_208:
	lsl	x8, x19, #4
	mov	w9, #2
	b	LBB23_204
LBB23_209:
	and	w10, w22, #0xff
	mov	x19, x7
	cmp	w10, w5, uxtb
	cset	w10, eq
	and	w10, w2, w10
	tbz	w10, #0, LBB23_212
	mov	w10, w5
	mov	w20, w23
	mov	x2, x6
	and	x10, x10, #0xff
	mov	x3, x8
	ldr	x9, [x9, x10, lsl #3]
	mul	x1, x9, x20
	bl	_ZN7wkb_raw6erased7wkb_abi12level_slices9lay_words17h891fea4f68a17320E
	mov	x7, x19
	b	LBB23_256
LBB23_211:
	add	x2, sp, #104
	add	x3, sp, #80
	mov	x0, x24
	mov	x1, x20
	b	LBB23_97
LBB23_212:
	sub	x1, x20, x28
	and	w3, w2, #0x1
	mov	w2, w23
	mov	w4, w22
	mov	x7, x16
	str	x8, [sp]
	bl	_ZN7wkb_raw6erased7wkb_abi12level_slices20lay_many_coordinates17h7050539c17cbcb44E
	mov	w20, w23
	mov	x7, x19
	b	LBB23_256
LBB23_213:
	ldr	x9, [x7, #32]
	ldr	x19, [x7]
	ldr	x11, [x7, #16]
	str	x8, [x9, x26, lsl #3]
	cbz	w23, LBB23_257
	mov	w8, w22
	adrp	x9, Lswitch.table.wkb_raw_write.374@PAGE
	add	x9, x9, Lswitch.table.wkb_raw_write.374@PAGEOFF
	and	x8, x8, #0xff
	mov	w10, w5
	ldr	x8, [x9, x8, lsl #3]
	and	x10, x10, #0xff
	str	x8, [sp, #16]
	adrp	x8, Lswitch.table.wkb_raw_column_from_coordinates.278@PAGE
	add	x8, x8, Lswitch.table.wkb_raw_column_from_coordinates.278@PAGEOFF
	ldr	x8, [x8, x10, lsl #3]
	str	x8, [sp, #8]
LBB23_215:
	ldr	w8, [x24, x28]
	ands	w3, w2, #0x1
	mov	x29, x27
	mov	x27, x25
	mov	w4, w22
	ldr	x5, [sp, #32]
	rev	w9, w8
	mov	x6, x19
	mov	x7, x16
	csel	w26, w8, w9, ne
	ldr	x9, [sp, #16]
	add	x8, x28, #4
	sub	x1, x20, x8
	add	x0, x24, x8
	sub	w23, w23, #1
	madd	x9, x9, x26, x8
	mov	x21, x16
	mov	x28, x11
	str	x9, [sp, #24]
	ldr	x9, [sp, #8]
	mul	x9, x9, x25
	mov	x25, x24
	mov	w24, w2
	mov	w2, w26
	str	x9, [sp]
	bl	_ZN7wkb_raw6erased7wkb_abi12level_slices20lay_many_coordinates17h7050539c17cbcb44E
	mov	x11, x28
	ldr	x28, [sp, #24]
	adds	x8, x27, x26
	mov	x16, x21
	mov	w2, w24
	mov	x24, x25
	add	x27, x29, #1
	csinv	x25, x8, xzr, lo
	str	x8, [x11, x29, lsl #3]
	cbnz	w23, LBB23_215
	b	LBB23_257
LBB23_216:
	ldr	q0, [x0]
	and	w9, w5, #0xff
	cmp	w9, #1
	rev64	v0.16b, v0.16b
	str	q0, [x10]
	b.gt	LBB23_224
	cbz	w9, LBB23_255
	and	w11, w22, #0xff
	mov	x9, #9221120237041090560
	mov	w10, #2
	cmp	w11, #1
	b.gt	LBB23_235
	cbnz	w11, LBB23_236
	b	LBB23_254
LBB23_220:
	cmp	w9, #2
	b.ne	LBB23_227
	and	w9, w22, #0xff
	cmp	w9, #2
	b.lo	LBB23_226
	b.ne	LBB23_243
	mov	w9, #16
	b	LBB23_244
LBB23_224:
	cmp	w9, #2
	b.ne	LBB23_230
	and	w9, w22, #0xff
	cmp	w9, #2
	b.hs	LBB23_237
LBB23_226:
	mov	x9, #9221120237041090560
	mov	w10, #2
	b	LBB23_254
LBB23_227:
	and	w9, w22, #0xff
	cmp	w9, #1
	b.gt	LBB23_239
	cbz	w9, LBB23_232
	ldr	x9, [x0, #16]
	b	LBB23_246
LBB23_230:
	and	w9, w22, #0xff
	cmp	w9, #1
	b.gt	LBB23_241
	cbnz	w9, LBB23_245
LBB23_232:
	mov	x9, #9221120237041090560
	str	x9, [x10, #16]
	b	LBB23_253
LBB23_233:
	cmp	w11, #2
	b.eq	LBB23_254
LBB23_234:
	ldr	x9, [x0, #16]
	mov	w10, #2
	b	LBB23_254
LBB23_235:
	cmp	w11, #2
	b.eq	LBB23_254
LBB23_236:
	ldr	x9, [x0, #16]
	b	LBB23_249
LBB23_237:
	b.ne	LBB23_247
	mov	w9, #16
	b	LBB23_248
LBB23_239:
	cmp	w9, #2
	b.ne	LBB23_250
	ldr	x9, [x0, #16]
	mov	x11, #9221120237041090560
	b	LBB23_251
LBB23_241:
	cmp	w9, #2
	b.ne	LBB23_252
	ldr	x9, [x0, #16]
	mov	x11, #9221120237041090560
	str	x11, [x10, #16]
	mov	w10, #3
	rev	x9, x9
	b	LBB23_254
LBB23_243:
	mov	w9, #24
LBB23_244:
	ldr	x9, [x0, x9]
	mov	w10, #2
	b	LBB23_254
LBB23_245:
	ldr	x9, [x0, #16]
	rev	x9, x9
LBB23_246:
	str	x9, [x10, #16]
	mov	x9, #9221120237041090560
	b	LBB23_253
LBB23_247:
	mov	w9, #24
LBB23_248:
	ldr	x9, [x0, x9]
LBB23_249:
	rev	x9, x9
	mov	w10, #2
	b	LBB23_254
LBB23_250:
	ldp	x11, x9, [x0, #16]
LBB23_251:
	str	x11, [x10, #16]
	b	LBB23_253
LBB23_252:
	ldp	x9, x11, [x0, #16]
	rev	x9, x9
	str	x9, [x10, #16]
	rev	x9, x11
LBB23_253:
	mov	w10, #3
LBB23_254:
	add	x8, x8, x10
	str	x9, [x6, x8, lsl #3]
LBB23_255:
	mov	w20, #1
LBB23_256:
	ldr	x8, [x7, #32]
	add	x9, x25, x20
	str	x9, [x21, x27, lsl #3]
	add	x9, x27, #1
	str	x9, [x8, x26, lsl #3]
LBB23_257:
	mov	w0, wzr
	b	LBB23_90
LBB23_258:
	ldr	x5, [sp, #32]
	mov	w22, #3
	b	LBB23_108
Lfunc_end23:
	.cfi_endproc
	.section	__TEXT,__text,regular,pure_instructions
	.p2align	2
_ZN7wkb_raw6erased5wkb_c5check11check_input17h063429354f07f5e3E:
	.cfi_startproc
	stp	x29, x30, [sp, #-96]!
	.cfi_def_cfa_offset 96
	stp	x28, x27, [sp, #16]
	stp	x26, x25, [sp, #32]
	stp	x24, x23, [sp, #48]
	stp	x22, x21, [sp, #64]
	stp	x20, x19, [sp, #80]
	mov	x29, sp
	.cfi_def_cfa w29, 96
	.cfi_offset w19, -8
	.cfi_offset w20, -16
	.cfi_offset w21, -24
	.cfi_offset w22, -32
	.cfi_offset w23, -40
	.cfi_offset w24, -48
	.cfi_offset w25, -56
	.cfi_offset w26, -64
	.cfi_offset w27, -72
	.cfi_offset w28, -80
	.cfi_offset w30, -88
	.cfi_offset w29, -96
	.cfi_remember_state
	sub	x9, sp, #96
	and	sp, x9, #0xffffffffffffffe0
	cmp	x2, #5
	b.hs	LBB24_3
	cbz	x2, LBB24_10
	ldrb	w21, [x1]
	b	LBB24_60
LBB24_3:
	ldrb	w21, [x1]
	cmp	w21, #1
	b.eq	LBB24_11
	cbnz	w21, LBB24_60
	ldur	w8, [x1, #1]
	rev	w9, w8
	lsr	w8, w9, #29
	cmp	w8, #0
	cset	w22, ne
	cbz	w8, LBB24_12
LBB24_6:
	mov	w8, #3
	mov	w23, wzr
	movk	w8, #8192, lsl #16
	cmp	w9, w8
	b.le	LBB24_17
	mov	w8, #5
	movk	w8, #8192, lsl #16
	cmp	w9, w8
	b.gt	LBB24_24
	mov	w8, #4
	movk	w8, #8192, lsl #16
	cmp	w9, w8
	b.eq	LBB24_30
	mov	w8, #5
	movk	w8, #8192, lsl #16
	cmp	w9, w8
	b.eq	LBB24_16
	b	LBB24_60
LBB24_10:
	mov	x8, xzr
	mov	x11, xzr
	mov	w9, wzr
	movi	v0.2d, #0000000000000000
	mov	w10, #32
	b	LBB24_243
LBB24_11:
	ldur	w9, [x1, #1]
	lsr	w8, w9, #29
	cmp	w8, #0
	cset	w22, ne
	cbnz	w8, LBB24_6
LBB24_12:
	cmp	w9, #3
	mov	w23, wzr
	b.le	LBB24_20
	cmp	w9, #5
	b.gt	LBB24_26
	cmp	w9, #4
	b.eq	LBB24_30
	cmp	w9, #5
	b.ne	LBB24_28
LBB24_16:
	mov	w23, wzr
	mov	w8, #4
	b	LBB24_33
LBB24_17:
	mov	w8, #1
	movk	w8, #8192, lsl #16
	cmp	w9, w8
	mov	w8, w23
	b.eq	LBB24_33
	mov	w8, #2
	movk	w8, #8192, lsl #16
	cmp	w9, w8
	b.eq	LBB24_32
	mov	w8, #3
	movk	w8, #8192, lsl #16
	cmp	w9, w8
	b.eq	LBB24_23
	b	LBB24_60
LBB24_20:
	cmp	w9, #1
	mov	w8, w23
	b.eq	LBB24_33
	cmp	w9, #2
	b.eq	LBB24_32
	cmp	w9, #3
	b.ne	LBB24_28
LBB24_23:
	mov	w23, wzr
	mov	w8, #2
	b	LBB24_33
LBB24_24:
	mov	w8, #6
	movk	w8, #8192, lsl #16
	cmp	w9, w8
	b.eq	LBB24_31
	mov	w8, #7
	movk	w8, #8192, lsl #16
	cmp	w9, w8
	b.eq	LBB24_59
	b	LBB24_60
LBB24_26:
	cmp	w9, #6
	b.eq	LBB24_31
	cmp	w9, #7
	b.eq	LBB24_59
LBB24_28:
	sub	w8, w9, #1001
	cmp	w8, #7
	b.hs	LBB24_51
	mov	w23, #1
	b	LBB24_58
LBB24_30:
	mov	w23, wzr
	mov	w8, #3
	b	LBB24_33
LBB24_31:
	mov	w23, wzr
	mov	w8, #5
	b	LBB24_33
LBB24_32:
	mov	w23, wzr
	mov	w8, #1
LBB24_33:
	tst	w9, #0xe0000000
	stp	xzr, xzr, [sp, #16]
	cset	w9, ne
	str	x2, [sp, #32]
	strb	w9, [sp, #65]
	mov	w9, #1
	strb	w21, [sp, #64]
	strb	w8, [sp, #66]
	strb	w23, [sp, #67]
	str	w9, [sp, #72]
	and	w9, w8, #0xff
	cmp	w9, #2
	b.gt	LBB24_77
LBB24_34:
	cbz	w9, LBB24_39
	cmp	w9, #1
	b.ne	LBB24_41
	cmp	w22, #0
	mov	w9, #5
	mov	w10, #9
	csel	x9, x10, x9, ne
	add	x10, x9, #4
	cmp	x2, x10
	b.lo	LBB24_109
	ldr	w9, [x1, x9]
	mov	w10, w23
	adrp	x11, Lswitch.table.wkb_raw_write.374@PAGE
	add	x11, x11, Lswitch.table.wkb_raw_write.374@PAGEOFF
	and	x10, x10, #0xff
	tst	w21, #0x1
	rev	w12, w9
	ldr	x11, [x11, x10, lsl #3]
	csel	w10, w9, w12, ne
	cmp	w22, #0
	mov	w9, #9
	mov	w12, #13
	csel	x9, x12, x9, ne
	madd	x11, x11, x10, x9
	subs	x9, x2, x11
	b.hs	LBB24_50
	mov	w10, #4
	b	LBB24_110
LBB24_39:
	mov	w9, w23
	adrp	x12, Lswitch.table.wkb_raw_write.374@PAGE
	add	x12, x12, Lswitch.table.wkb_raw_write.374@PAGEOFF
	and	x9, x9, #0xff
	cmp	w22, #0
	mov	w10, #5
	mov	w11, #9
	ldr	x9, [x12, x9, lsl #3]
	csel	x10, x11, x10, ne
	add	x11, x9, x10
	subs	x9, x2, x11
	b.hs	LBB24_49
	mov	w10, #3
	b	LBB24_110
LBB24_41:
	cmp	w22, #0
	mov	w9, #5
	mov	w10, #9
	csel	x9, x10, x9, ne
	add	x10, x9, #4
	cmp	x2, x10
	b.lo	LBB24_112
	add	x13, x1, x9
	tst	w21, #0x1
	sub	x11, x2, x9
	ldr	w16, [x13], #4
	sub	x9, x11, #4
	rev	w17, w16
	csel	w10, w16, w17, ne
	cbz	w10, LBB24_53
	cmp	x11, #8
	tbz	w21, #0, LBB24_54
	b.lo	LBB24_55
	mov	w12, w23
	adrp	x14, Lswitch.table.wkb_raw_write.374@PAGE
	add	x14, x14, Lswitch.table.wkb_raw_write.374@PAGEOFF
	and	x12, x12, #0xff
	mov	x11, xzr
	ldr	x17, [x14, x12, lsl #3]
	mov	w12, #1
LBB24_46:
	ldr	w5, [x13]
	mul	x15, x17, x5
	orr	x15, x15, #0x4
	subs	x4, x9, x15
	b.lo	LBB24_200
	cmp	w16, w12
	add	x11, x11, x5
	b.eq	LBB24_202
	and	x9, x14, #0xffffffff00000000
	add	x13, x13, x15
	cmp	x4, #4
	orr	x14, x9, x5
	add	x12, x12, #1
	mov	x9, x4
	b.hs	LBB24_46
	b	LBB24_197
LBB24_49:
	mov	w10, #1
LBB24_50:
	str	x10, [sp, #24]
	b	LBB24_204
LBB24_51:
	sub	w8, w9, #2001
	cmp	w8, #7
	b.hs	LBB24_56
	mov	w23, #2
	b	LBB24_58
LBB24_53:
	mov	x11, xzr
	mov	x12, x2
	b	LBB24_203
LBB24_54:
	b.hs	LBB24_193
LBB24_55:
	mov	x11, xzr
	mov	w10, #7
	mov	w12, #1
	b	LBB24_201
LBB24_56:
	sub	w8, w9, #3001
	cmp	w8, #7
	b.hs	LBB24_60
	mov	w23, #3
LBB24_58:
	cmp	w8, #6
	b.lo	LBB24_33
LBB24_59:
	tst	w9, #0xe0000000
	mov	x19, x1
	mov	x24, x3
	cset	w8, ne
	mov	x25, x0
	stp	xzr, xzr, [sp, #16]
	strb	w8, [sp, #65]
	mov	w8, #6
	mov	x20, x2
	strb	w8, [sp, #66]
	mov	w8, #1
	str	x2, [sp, #32]
	strb	w21, [sp, #64]
	strb	w23, [sp, #67]
	str	w8, [sp, #72]
	b	LBB24_157
LBB24_60:
	movi	v0.2d, #0000000000000000
	cbz	w21, LBB24_63
	cmp	w21, #1
	b.ne	LBB24_71
	mov	w21, #1
LBB24_63:
	cmp	x2, #5
	b.hs	LBB24_66
	mov	x8, xzr
	mov	x11, xzr
LBB24_65:
	mov	w9, wzr
	mov	w10, #32
	b	LBB24_243
LBB24_66:
	ldur	w8, [x1, #1]
	cmp	w21, #0
	mov	w10, #-1073741824
	mov	w12, #-536870912
	rev	w9, w8
	csel	w9, w8, w9, ne
	ubfx	w8, w9, #30, #1
	and	w11, w9, #0x7fffffff
	add	w10, w11, w10
	cmp	w8, #0
	csel	w10, w11, w10, eq
	lsr	w8, w10, #29
	cmp	w8, #0
	add	w8, w10, w12
	csel	w12, w8, w10, ne
	cset	w22, ne
	cmp	w12, #3999
	b.hi	LBB24_73
	ubfx	w8, w12, #3, #13
	mov	w13, #8389
	mul	w8, w8, w13
	mov	w13, #1000
	lsr	w8, w8, #20
	msub	w8, w8, w13, w12
	sub	w8, w8, #1
	and	w13, w8, #0xffff
	cmp	w13, #7
	b.hs	LBB24_73
	lsr	w11, w11, #30
	tbnz	w9, #31, LBB24_74
	mov	w13, #19923
	movk	w13, #4194, lsl #16
	umull	x12, w12, w13
	lsr	x12, x12, #38
	mov	w23, w12
	cbz	w11, LBB24_75
	lsl	w11, w12, #3
	mov	w12, #770
	movk	w12, #770, lsl #16
	lsr	w23, w12, w11
	b	LBB24_75
LBB24_71:
	mov	x8, xzr
	mov	x11, xzr
LBB24_72:
	mov	w9, wzr
	mov	w10, #33
	b	LBB24_243
LBB24_73:
	mov	x8, xzr
	mov	x11, xzr
	mov	w10, #34
	b	LBB24_243
LBB24_74:
	cmp	w12, #2000
	ccmp	w11, #0, #0, lo
	mov	w11, #3
	csinc	w23, w11, wzr, ne
LBB24_75:
	and	w11, w8, #0xffff
	cmp	w11, #6
	b.hs	LBB24_156
	tst	w10, #0xe0000000
	stp	xzr, xzr, [sp, #16]
	cset	w10, ne
	str	x2, [sp, #32]
	strb	w10, [sp, #65]
	mov	w10, #1
	strb	w21, [sp, #64]
	strb	w8, [sp, #66]
	strb	w23, [sp, #67]
	stp	w10, w9, [sp, #72]
	and	w9, w8, #0xff
	cmp	w9, #2
	b.le	LBB24_34
LBB24_77:
	cmp	w9, #3
	b.eq	LBB24_108
	cmp	w9, #4
	b.ne	LBB24_111
	cmp	w22, #0
	mov	w9, #5
	mov	w10, #9
	csel	x9, x10, x9, ne
	add	x10, x9, #4
	cmp	x2, x10
	b.lo	LBB24_112
	add	x10, x1, x9
	tst	w21, #0x1
	sub	x9, x2, x9
	ldr	w11, [x10]
	sub	x9, x9, #4
	rev	w12, w11
	csel	w14, w11, w12, ne
	mov	x11, xzr
	cbz	w14, LBB24_183
	and	w12, w23, #0xff
	mov	w15, #1000
	add	x17, x10, #4
	mul	w10, w12, w15
	mov	w13, w23
	mov	w12, #1
	mov	w7, #-536870912
	and	x25, x13, #0xff
	mov	w28, #9
	adrp	x16, Lswitch.table.wkb_raw_write.374@PAGE
	add	x16, x16, Lswitch.table.wkb_raw_write.374@PAGEOFF
	mov	w24, w14
	orr	w26, w10, #0x2
LBB24_82:
	mov	x13, x9
	cmp	x9, #5
	b.hs	LBB24_85
	cbz	x13, LBB24_199
	ldrb	w10, [x17]
	b	LBB24_91
LBB24_85:
	ldrb	w10, [x17]
	cmp	w10, #1
	b.eq	LBB24_88
	cbnz	w10, LBB24_91
	ldur	w19, [x17, #1]
	mov	w9, wzr
	rev	w19, w19
	b	LBB24_89
LBB24_88:
	ldur	w19, [x17, #1]
	mov	w9, #1
LBB24_89:
	cmp	w19, w26
	b.ne	LBB24_91
	mov	w10, #9
	mov	w19, #5
	b	LBB24_105
LBB24_91:
	cbz	w10, LBB24_94
	cmp	w10, #1
	b.ne	LBB24_216
	mov	w9, #1
	b	LBB24_95
LBB24_94:
	mov	w9, wzr
LBB24_95:
	cmp	x13, #5
	b.lo	LBB24_199
	ldur	w10, [x17, #1]
	cmp	w9, #0
	mov	w6, #-1073741824
	rev	w19, w10
	csel	w19, w10, w19, ne
	ubfx	w10, w19, #30, #1
	and	w30, w19, #0x7fffffff
	add	w20, w30, w6
	cmp	w10, #0
	csel	w10, w30, w20, eq
	lsr	w27, w10, #29
	add	w20, w10, w7
	cmp	w27, #0
	csel	w20, w20, w10, ne
	cmp	w20, #3999
	b.hi	LBB24_198
	mov	w10, #35128
	movk	w10, #65, lsl #16
	umull	x10, w20, w10
	lsr	x10, x10, #32
	msub	w10, w10, w15, w20
	sub	w6, w10, #1
	cmp	w6, #6
	b.hi	LBB24_198
	tbnz	w19, #31, LBB24_101
	mov	w6, #19923
	movk	w6, #4194, lsl #16
	umull	x6, w20, w6
	lsr	w20, w30, #30
	lsr	x19, x6, #38
	cbz	w20, LBB24_102
	lsl	w6, w19, #3
	mov	w19, #770
	movk	w19, #770, lsl #16
	lsr	w19, w19, w6
	b	LBB24_102
LBB24_101:
	lsr	w6, w30, #30
	cmp	w20, #2000
	ccmp	w6, #0, #0, lo
	mov	w6, #3
	csinc	w19, w6, wzr, ne
LBB24_102:
	cmp	w10, #2
	mov	w10, #9
	b.ne	LBB24_217
	and	w6, w19, #0xff
	cmp	w6, w23, uxtb
	b.ne	LBB24_218
	cmp	w27, #0
	mov	w10, #5
	csel	x19, x28, x10, ne
	mov	w10, #13
	csel	x10, x10, x28, ne
LBB24_105:
	add	x6, x19, #4
	cmp	x13, x6
	b.lo	LBB24_209
	ldr	w4, [x17, x19]
	cmp	w9, #0
	ldr	x9, [x16, x25, lsl #3]
	rev	w6, w4
	csel	w19, w4, w6, ne
	madd	x4, x9, x19, x10
	subs	x9, x13, x4
	b.lo	LBB24_210
	and	x10, x5, #0xffffffff00000000
	subs	w24, w24, #1
	add	x11, x11, x19
	orr	x5, x10, x19
	add	x17, x17, x4
	add	x12, x12, #1
	b.ne	LBB24_82
	b	LBB24_184
LBB24_108:
	cmp	w22, #0
	mov	w9, #5
	mov	w10, #9
	csel	x9, x10, x9, ne
	add	x10, x9, #4
	cmp	x2, x10
	b.hs	LBB24_113
LBB24_109:
	mov	w10, #7
LBB24_110:
	str	w10, [sp, #40]
	stp	x11, x2, [sp, #48]
	b	LBB24_225
LBB24_111:
	cmp	w22, #0
	mov	w9, #5
	mov	w10, #9
	csel	x10, x10, x9, ne
	add	x9, x10, #4
	cmp	x2, x9
	b.hs	LBB24_115
LBB24_112:
	mov	w10, #7
	str	w10, [sp, #40]
	b	LBB24_225
LBB24_113:
	add	x10, x1, x9
	mov	w12, w23
	adrp	x14, Lswitch.table.wkb_raw_write.371@PAGE
	add	x14, x14, Lswitch.table.wkb_raw_write.371@PAGEOFF
	ldr	w11, [x10]
	tst	w21, #0x1
	and	x12, x12, #0xff
	mov	w15, #13
	rev	w13, w11
	ldr	x12, [x14, x12, lsl #3]
	csel	w13, w11, w13, ne
	cmp	w22, #0
	mov	w11, #9
	csel	x11, x15, x11, ne
	madd	x11, x12, x13, x11
	cmp	x2, x11
	b.hs	LBB24_160
	mov	w10, #6
	b	LBB24_110
LBB24_115:
	add	x9, x1, x10
	tst	w21, #0x1
	sub	x10, x2, x10
	ldr	w11, [x9]
	sub	x27, x10, #4
	rev	w12, w11
	csel	w14, w11, w12, ne
	cbz	w14, LBB24_185
	and	w10, w23, #0xff
	mov	w16, #1000
	add	x12, x9, #4
	mul	w9, w10, w16
	mov	w10, w23
	mov	w15, wzr
	mov	x20, xzr
	mov	x11, xzr
	mov	w5, #-536870912
	and	x7, x10, #0xff
	orr	w24, w9, #0x3
LBB24_117:
	add	x30, x20, #1
	cmp	x27, #5
	str	x27, [sp, #32]
	str	x30, [sp, #16]
	b.hs	LBB24_120
	cbz	x27, LBB24_214
	ldrb	w10, [x12]
	b	LBB24_126
LBB24_120:
	ldrb	w10, [x12]
	cmp	w10, #1
	b.eq	LBB24_123
	cbnz	w10, LBB24_126
	ldur	w19, [x12, #1]
	mov	w6, wzr
	rev	w19, w19
	b	LBB24_124
LBB24_123:
	ldur	w19, [x12, #1]
	mov	w6, #1
LBB24_124:
	cmp	w19, w24
	b.ne	LBB24_126
	mov	w10, #5
	b	LBB24_140
LBB24_126:
	cbz	w10, LBB24_129
	cmp	w10, #1
	b.ne	LBB24_246
	mov	w6, #1
	b	LBB24_130
LBB24_129:
	mov	w6, wzr
LBB24_130:
	cmp	x27, #5
	b.lo	LBB24_214
	ldur	w10, [x12, #1]
	cmp	w6, #0
	mov	w4, #-1073741824
	rev	w19, w10
	csel	w28, w10, w19, ne
	ubfx	w10, w28, #30, #1
	and	w26, w28, #0x7fffffff
	add	w19, w26, w4
	cmp	w10, #0
	csel	w10, w26, w19, eq
	lsr	w25, w10, #29
	add	w19, w10, w5
	cmp	w25, #0
	csel	w19, w19, w10, ne
	cmp	w19, #3999
	b.hi	LBB24_213
	mov	w10, #35128
	movk	w10, #65, lsl #16
	umull	x10, w19, w10
	lsr	x10, x10, #32
	msub	w10, w10, w16, w19
	sub	w4, w10, #1
	cmp	w4, #6
	b.hi	LBB24_213
	tbnz	w28, #31, LBB24_136
	mov	w4, #19923
	movk	w4, #4194, lsl #16
	umull	x4, w19, w4
	lsr	w19, w26, #30
	lsr	x26, x4, #38
	cbz	w19, LBB24_137
	lsl	w4, w26, #3
	mov	w19, #770
	movk	w19, #770, lsl #16
	lsr	w26, w19, w4
	b	LBB24_137
LBB24_136:
	lsr	w4, w26, #30
	cmp	w19, #2000
	ccmp	w4, #0, #0, lo
	mov	w4, #3
	csinc	w26, w4, wzr, ne
LBB24_137:
	cmp	w10, #3
	mov	w10, #9
	b.ne	LBB24_247
	and	w4, w26, #0xff
	cmp	w4, w23, uxtb
	b.ne	LBB24_190
	cmp	w25, #0
	mov	w10, #5
	mov	w4, #9
	csel	x10, x4, x10, ne
LBB24_140:
	add	x4, x10, #4
	cmp	x27, x4
	b.lo	LBB24_220
	add	x12, x12, x10
	cmp	w6, #0
	sub	x10, x27, x10
	ldr	w25, [x12], #4
	sub	x9, x10, #4
	rev	w19, w25
	csel	w4, w25, w19, ne
	cbz	w4, LBB24_148
	add	x27, x20, #2
	cmp	x10, #8
	cbz	w6, LBB24_149
	b.lt	LBB24_245
	adrp	x17, Lswitch.table.wkb_raw_write.374@PAGE
	add	x17, x17, Lswitch.table.wkb_raw_write.374@PAGEOFF
	sub	w10, w25, #1
	ldr	x6, [x17, x7, lsl #3]
	add	x20, x27, x10
LBB24_145:
	ldr	w19, [x12]
	mul	x17, x6, x19
	orr	x17, x17, #0x4
	subs	x25, x9, x17
	b.lo	LBB24_186
	and	x13, x13, #0xffffffff00000000
	add	x11, x11, x19
	add	x12, x12, x17
	orr	x13, x13, x19
	cbz	w10, LBB24_154
	cmp	x25, #4
	add	x27, x27, #1
	sub	w10, w10, #1
	mov	x9, x25
	b.hs	LBB24_145
	b	LBB24_187
LBB24_148:
	mov	x20, x30
	b	LBB24_155
LBB24_149:
	b.lt	LBB24_245
	adrp	x17, Lswitch.table.wkb_raw_write.374@PAGE
	add	x17, x17, Lswitch.table.wkb_raw_write.374@PAGEOFF
	sub	w10, w19, #1
	ldr	x6, [x17, x7, lsl #3]
	add	x20, x27, x10
LBB24_151:
	ldr	w17, [x12]
	rev	w19, w17
	mul	x17, x6, x19
	orr	x17, x17, #0x4
	subs	x25, x9, x17
	b.lo	LBB24_186
	and	x13, x13, #0xffffffff00000000
	add	x11, x11, x19
	add	x12, x12, x17
	orr	x13, x13, x19
	cbz	w10, LBB24_154
	cmp	x25, #4
	add	x27, x27, #1
	sub	w10, w10, #1
	mov	x9, x25
	b.hs	LBB24_151
	b	LBB24_187
LBB24_154:
	mov	x27, x9
	mov	x9, x25
LBB24_155:
	add	w15, w15, #1
	str	x27, [sp, #32]
	mov	x27, x9
	cmp	w15, w14
	stp	x20, x11, [sp, #16]
	b.ne	LBB24_117
	b	LBB24_204
LBB24_156:
	tst	w10, #0xe0000000
	mov	x19, x1
	mov	x24, x3
	cset	w8, ne
	mov	x25, x0
	mov	x20, x2
	strb	w8, [sp, #65]
	mov	w8, #6
	strb	w8, [sp, #66]
	mov	w8, #1
	stp	xzr, xzr, [sp, #16]
	str	x2, [sp, #32]
	strb	w21, [sp, #64]
	strb	w23, [sp, #67]
	stp	w8, w9, [sp, #72]
LBB24_157:
	add	x0, sp, #40
	add	x2, sp, #64
	add	x5, sp, #16
	mov	x1, xzr
	mov	x3, x19
	mov	x4, x20
	bl	_ZN7wkb_raw6erased9wkb_check6nested15skip_collection17h3e96ec52d62a4ff3E
	ldr	w10, [sp, #40]
	mov	x2, x20
	mov	x0, x25
	mov	x3, x24
	cmp	w10, #11
	b.ne	LBB24_225
	ldp	x11, x10, [sp, #16]
	ldr	x8, [sp, #56]
	sub	x9, x2, x8
	mov	w8, #6
	add	x11, x11, #1
	cbz	w22, LBB24_206
	mov	x1, x19
	b	LBB24_205
LBB24_160:
	sub	x9, x2, x9
	sub	x9, x9, #4
	cbz	w13, LBB24_191
	and	w12, w23, #0xff
	mov	w15, #1000
	mov	w16, #770
	mul	w12, w12, w15
	add	x17, x10, #4
	mov	w10, w23
	mov	w19, #19923
	mov	w20, #35128
	mov	x11, xzr
	movk	w16, #770, lsl #16
	mov	w4, #-1073741824
	mov	w5, #-536870912
	and	x6, x10, #0xff
	orr	w7, w12, #0x1
	movk	w19, #4194, lsl #16
	movk	w20, #65, lsl #16
	mov	w24, #3
LBB24_162:
	mov	x12, x9
	cmp	x9, #5
	b.hs	LBB24_165
	cbz	x12, LBB24_212
	ldrb	w9, [x17]
	b	LBB24_170
LBB24_165:
	ldrb	w9, [x17]
	cmp	w9, #1
	b.eq	LBB24_168
	cbnz	w9, LBB24_170
	ldur	w10, [x17, #1]
	rev	w10, w10
	b	LBB24_169
LBB24_168:
	ldur	w10, [x17, #1]
LBB24_169:
	cmp	w10, w7
	b.eq	LBB24_181
LBB24_170:
	cbz	w9, LBB24_172
	cmp	w9, #1
	b.ne	LBB24_221
LBB24_172:
	cmp	x12, #5
	b.lo	LBB24_212
	ldur	w10, [x17, #1]
	cmp	w9, #0
	rev	w25, w10
	csel	w9, w10, w25, ne
	ubfx	w25, w9, #30, #1
	and	w10, w9, #0x7fffffff
	add	w26, w10, w4
	cmp	w25, #0
	csel	w26, w10, w26, eq
	lsr	w25, w26, #29
	add	w27, w26, w5
	cmp	w25, #0
	csel	w27, w27, w26, ne
	cmp	w27, #3999
	b.hi	LBB24_208
	umull	x26, w27, w20
	lsr	x26, x26, #32
	msub	w26, w26, w15, w27
	sub	w28, w26, #1
	cmp	w28, #6
	b.hi	LBB24_208
	tbnz	w9, #31, LBB24_178
	umull	x9, w27, w19
	lsr	w10, w10, #30
	lsr	x9, x9, #38
	cbz	w10, LBB24_179
	lsl	w9, w9, #3
	lsr	w9, w16, w9
	b	LBB24_179
LBB24_178:
	lsr	w9, w10, #30
	cmp	w27, #2000
	ccmp	w9, #0, #0, lo
	csinc	w9, w24, wzr, ne
LBB24_179:
	and	w9, w9, #0xff
	mov	w10, #9
	cmp	w9, w23, uxtb
	b.ne	LBB24_222
	cmp	w26, #1
	ccmp	w25, #0, #0, eq
	b.ne	LBB24_223
LBB24_181:
	ldr	x25, [x14, x6, lsl #3]
	subs	x9, x12, x25
	b.lo	LBB24_215
	add	x11, x11, #1
	add	x17, x17, x25
	cmp	w13, w11
	b.ne	LBB24_162
	b	LBB24_192
LBB24_183:
	mov	x14, xzr
	mov	x13, x2
LBB24_184:
	stp	x11, x13, [sp, #24]
	str	x14, [sp, #16]
	b	LBB24_204
LBB24_185:
	mov	x9, x27
	b	LBB24_204
LBB24_186:
	mov	w10, #5
	mov	x13, x17
	mov	x17, x9
	b	LBB24_188
LBB24_187:
	mov	w10, #7
	mov	x9, x25
LBB24_188:
	str	x9, [sp, #32]
	mov	x9, x17
	mov	x12, x13
	stp	x27, x11, [sp, #16]
LBB24_189:
LBB24_190:
	stp	w10, w28, [sp, #40]
	stp	x12, x9, [sp, #48]
	b	LBB24_225
LBB24_191:
	mov	x13, xzr
	mov	x12, x2
LBB24_192:
	stp	x13, x12, [sp, #24]
	str	x13, [sp, #16]
	b	LBB24_204
LBB24_193:
	mov	w12, w23
	adrp	x14, Lswitch.table.wkb_raw_write.374@PAGE
	add	x14, x14, Lswitch.table.wkb_raw_write.374@PAGEOFF
	and	x12, x12, #0xff
	mov	x11, xzr
	ldr	x16, [x14, x12, lsl #3]
	mov	w12, #1
LBB24_194:
	ldr	w15, [x13]
	rev	w5, w15
	mul	x15, x16, x5
	orr	x15, x15, #0x4
	subs	x4, x9, x15
	b.lo	LBB24_200
	cmp	w17, w12
	add	x11, x11, x5
	b.eq	LBB24_202
	and	x9, x14, #0xffffffff00000000
	add	x13, x13, x15
	cmp	x4, #4
	orr	x14, x9, x5
	add	x12, x12, #1
	mov	x9, x4
	b.hs	LBB24_194
LBB24_197:
	mov	w10, #7
	mov	x9, x4
	b	LBB24_201
LBB24_198:
	mov	w10, #1
	b	LBB24_218
LBB24_199:
	mov	w10, #7
	b	LBB24_217
LBB24_200:
	mov	w10, #5
	mov	x14, x15
	mov	x15, x9
LBB24_201:
	stp	x11, x9, [sp, #24]
	str	x12, [sp, #16]
	str	w10, [sp, #40]
	stp	x14, x15, [sp, #48]
	b	LBB24_225
LBB24_202:
	mov	x12, x9
	mov	x9, x4
LBB24_203:
	stp	x11, x12, [sp, #24]
	str	x10, [sp, #16]
LBB24_204:
	ldp	x11, x10, [sp, #16]
	str	x9, [sp, #56]
	sub	x9, x2, x9
	add	x11, x11, #1
	tbz	w22, #0, LBB24_206
LBB24_205:
	ldur	w12, [x1, #5]
	tst	w21, #0x1
	rev	w13, w12
	csel	w12, w12, w13, ne
	mov	w13, #1
	b	LBB24_207
LBB24_206:
	mov	w13, wzr
LBB24_207:
	and	x8, x8, #0xff
	stp	w13, w12, [x0]
	bfi	x8, x23, #8, #8
	stp	x9, x11, [x0, #8]
	bfi	x8, x21, #16, #1
	stp	x10, x8, [x0, #24]
	b	LBB24_244
LBB24_208:
	mov	w10, #1
	b	LBB24_223
LBB24_209:
	mov	w10, #7
	b	LBB24_211
LBB24_210:
	mov	w10, #4
	mov	x5, x4
	mov	x4, x13
LBB24_211:
	str	x12, [sp, #16]
	b	LBB24_219
LBB24_212:
	mov	w10, #7
	b	LBB24_222
LBB24_213:
	mov	w10, #1
	b	LBB24_190
LBB24_214:
	mov	w10, #7
	b	LBB24_189
LBB24_215:
	add	x8, x11, #1
	str	x12, [sp, #32]
	mov	w10, #3
	str	x8, [sp, #16]
	b	LBB24_224
LBB24_216:
	mov	w10, #2
LBB24_217:
LBB24_218:
	str	x12, [sp, #16]
LBB24_219:
	stp	x11, x13, [sp, #24]
	stp	w10, w19, [sp, #40]
	stp	x5, x4, [sp, #48]
	b	LBB24_225
LBB24_220:
	mov	w10, #7
	b	LBB24_189
LBB24_221:
	mov	w10, #2
LBB24_222:
LBB24_223:
	add	x8, x11, #1
	str	x12, [sp, #32]
	str	x8, [sp, #16]
LBB24_224:
	str	x11, [sp, #24]
	stp	w10, w9, [sp, #40]
	stp	x25, x12, [sp, #48]
LBB24_225:
	movi	v0.2d, #0000000000000000
	ldr	x8, [sp, #32]
	ldr	x11, [sp, #16]
	cmp	w10, #6
	sub	x8, x2, x8
	b.hi	LBB24_231
	ldur	q1, [sp, #48]
	cmp	w10, #3
	b.gt	LBB24_234
	cbz	w10, LBB24_233
	cmp	w10, #1
	b.eq	LBB24_240
	cmp	w10, #3
	b.ne	LBB24_72
	mov	w9, wzr
	mov	w10, #48
	b	LBB24_242
LBB24_231:
	cmp	w10, #7
	b.eq	LBB24_65
	cmp	w10, #9
	b.ne	LBB24_238
LBB24_233:
	mov	w9, wzr
	mov	w10, #35
	b	LBB24_243
LBB24_234:
	cmp	w10, #4
	b.eq	LBB24_239
	cmp	w10, #5
	b.eq	LBB24_241
	cmp	w10, #6
	b.ne	LBB24_72
	mov	w9, wzr
	mov	w10, #50
	b	LBB24_242
LBB24_238:
	mov	w9, wzr
	mov	w10, #36
	b	LBB24_243
LBB24_239:
	mov	w9, wzr
	mov	w10, #49
	b	LBB24_242
LBB24_240:
	ldr	w9, [sp, #44]
	mov	w10, #34
	b	LBB24_243
LBB24_241:
	mov	w9, wzr
	mov	w10, #51
LBB24_242:
	mov	v0.16b, v1.16b
LBB24_243:
	stp	x11, x8, [x3]
	mov	w8, #2
	str	q0, [x3, #16]
	stp	w9, w10, [x3, #32]
	stp	w8, w10, [x0]
LBB24_244:
	mov	sp, x29
	.cfi_def_cfa wsp, 96
	ldp	x20, x19, [sp, #80]
	ldp	x22, x21, [sp, #64]
	ldp	x24, x23, [sp, #48]
	ldp	x26, x25, [sp, #32]
	ldp	x28, x27, [sp, #16]
	ldp	x29, x30, [sp], #96
	.cfi_def_cfa_offset 0
	.cfi_restore w19
	.cfi_restore w20
	.cfi_restore w21
	.cfi_restore w22
	.cfi_restore w23
	.cfi_restore w24
	.cfi_restore w25
	.cfi_restore w26
	.cfi_restore w27
	.cfi_restore w28
	.cfi_restore w30
	.cfi_restore w29
	ret
LBB24_245:
	.cfi_restore_state
	mov	w10, #7
	b	LBB24_188
LBB24_246:
	mov	w10, #2
LBB24_247:
	b	LBB24_189
Lfunc_end24:
	.cfi_endproc
	.section	__TEXT,__text,regular,pure_instructions
	.p2align	2
_ZN7wkb_raw6erased5wkb_c5check9check_any17h92583dc257635947E:
	.cfi_startproc
	stp	x29, x30, [sp, #-96]!
	.cfi_def_cfa_offset 96
	stp	x28, x27, [sp, #16]
	stp	x26, x25, [sp, #32]
	stp	x24, x23, [sp, #48]
	stp	x22, x21, [sp, #64]
	stp	x20, x19, [sp, #80]
	mov	x29, sp
	.cfi_def_cfa w29, 96
	.cfi_offset w19, -8
	.cfi_offset w20, -16
	.cfi_offset w21, -24
	.cfi_offset w22, -32
	.cfi_offset w23, -40
	.cfi_offset w24, -48
	.cfi_offset w25, -56
	.cfi_offset w26, -64
	.cfi_offset w27, -72
	.cfi_offset w28, -80
	.cfi_offset w30, -88
	.cfi_offset w29, -96
	.cfi_remember_state
	sub	x9, sp, #96
	and	sp, x9, #0xffffffffffffffe0
	cmp	x1, #5
	b.hs	LBB25_3
	cbz	x1, LBB25_10
	ldrb	w21, [x0]
	b	LBB25_60
LBB25_3:
	ldrb	w21, [x0]
	cmp	w21, #1
	b.eq	LBB25_11
	cbnz	w21, LBB25_60
	ldur	w8, [x0, #1]
	rev	w9, w8
	lsr	w8, w9, #29
	cmp	w8, #0
	cset	w23, ne
	cbz	w8, LBB25_12
LBB25_6:
	mov	w8, #3
	mov	w22, wzr
	movk	w8, #8192, lsl #16
	cmp	w9, w8
	b.le	LBB25_17
	mov	w8, #5
	movk	w8, #8192, lsl #16
	cmp	w9, w8
	b.gt	LBB25_24
	mov	w8, #4
	movk	w8, #8192, lsl #16
	cmp	w9, w8
	b.eq	LBB25_30
	mov	w8, #5
	movk	w8, #8192, lsl #16
	cmp	w9, w8
	b.eq	LBB25_16
	b	LBB25_60
LBB25_10:
	mov	x8, xzr
	mov	x11, xzr
	mov	w9, wzr
	movi	v0.2d, #0000000000000000
	mov	w0, #32
	b	LBB25_258
LBB25_11:
	ldur	w9, [x0, #1]
	lsr	w8, w9, #29
	cmp	w8, #0
	cset	w23, ne
	cbnz	w8, LBB25_6
LBB25_12:
	cmp	w9, #3
	mov	w22, wzr
	b.le	LBB25_20
	cmp	w9, #5
	b.gt	LBB25_26
	cmp	w9, #4
	b.eq	LBB25_30
	cmp	w9, #5
	b.ne	LBB25_28
LBB25_16:
	mov	w22, wzr
	mov	w8, #4
	b	LBB25_33
LBB25_17:
	mov	w8, #1
	movk	w8, #8192, lsl #16
	cmp	w9, w8
	mov	w8, w22
	b.eq	LBB25_33
	mov	w8, #2
	movk	w8, #8192, lsl #16
	cmp	w9, w8
	b.eq	LBB25_32
	mov	w8, #3
	movk	w8, #8192, lsl #16
	cmp	w9, w8
	b.eq	LBB25_23
	b	LBB25_60
LBB25_20:
	cmp	w9, #1
	mov	w8, w22
	b.eq	LBB25_33
	cmp	w9, #2
	b.eq	LBB25_32
	cmp	w9, #3
	b.ne	LBB25_28
LBB25_23:
	mov	w22, wzr
	mov	w8, #2
	b	LBB25_33
LBB25_24:
	mov	w8, #6
	movk	w8, #8192, lsl #16
	cmp	w9, w8
	b.eq	LBB25_31
	mov	w8, #7
	movk	w8, #8192, lsl #16
	cmp	w9, w8
	b.eq	LBB25_59
	b	LBB25_60
LBB25_26:
	cmp	w9, #6
	b.eq	LBB25_31
	cmp	w9, #7
	b.eq	LBB25_59
LBB25_28:
	sub	w8, w9, #1001
	cmp	w8, #7
	b.hs	LBB25_51
	mov	w22, #1
	b	LBB25_58
LBB25_30:
	mov	w22, wzr
	mov	w8, #3
	b	LBB25_33
LBB25_31:
	mov	w22, wzr
	mov	w8, #5
	b	LBB25_33
LBB25_32:
	mov	w22, wzr
	mov	w8, #1
LBB25_33:
	tst	w9, #0xe0000000
	stp	xzr, xzr, [sp, #16]
	cset	w9, ne
	str	x1, [sp, #32]
	strb	w9, [sp, #65]
	mov	w9, #1
	strb	w21, [sp, #64]
	strb	w8, [sp, #66]
	strb	w22, [sp, #67]
	str	w9, [sp, #72]
	and	w9, w8, #0xff
	cmp	w9, #2
	b.gt	LBB25_76
LBB25_34:
	cbz	w9, LBB25_39
	cmp	w9, #1
	b.ne	LBB25_41
	cmp	w23, #0
	mov	w9, #5
	mov	w10, #9
	csel	x9, x10, x9, ne
	add	x10, x9, #4
	cmp	x1, x10
	b.lo	LBB25_108
	ldr	w9, [x0, x9]
	mov	w10, w22
	adrp	x11, Lswitch.table.wkb_raw_write.374@PAGE
	add	x11, x11, Lswitch.table.wkb_raw_write.374@PAGEOFF
	and	x10, x10, #0xff
	tst	w21, #0x1
	rev	w12, w9
	ldr	x11, [x11, x10, lsl #3]
	csel	w10, w9, w12, ne
	cmp	w23, #0
	mov	w9, #9
	mov	w12, #13
	csel	x9, x12, x9, ne
	madd	x11, x11, x10, x9
	subs	x9, x1, x11
	b.hs	LBB25_50
	mov	w10, #4
	b	LBB25_109
LBB25_39:
	mov	w9, w22
	adrp	x12, Lswitch.table.wkb_raw_write.374@PAGE
	add	x12, x12, Lswitch.table.wkb_raw_write.374@PAGEOFF
	and	x9, x9, #0xff
	cmp	w23, #0
	mov	w10, #5
	mov	w11, #9
	ldr	x9, [x12, x9, lsl #3]
	csel	x10, x11, x10, ne
	add	x11, x9, x10
	subs	x9, x1, x11
	b.hs	LBB25_49
	mov	w10, #3
	b	LBB25_109
LBB25_41:
	cmp	w23, #0
	mov	w9, #5
	mov	w10, #9
	csel	x9, x10, x9, ne
	add	x10, x9, #4
	cmp	x1, x10
	b.lo	LBB25_111
	add	x13, x0, x9
	tst	w21, #0x1
	sub	x11, x1, x9
	ldr	w16, [x13], #4
	sub	x9, x11, #4
	rev	w17, w16
	csel	w10, w16, w17, ne
	cbz	w10, LBB25_53
	cmp	x11, #8
	tbz	w21, #0, LBB25_54
	b.lo	LBB25_55
	mov	w12, w22
	adrp	x14, Lswitch.table.wkb_raw_write.374@PAGE
	add	x14, x14, Lswitch.table.wkb_raw_write.374@PAGEOFF
	and	x12, x12, #0xff
	mov	x11, xzr
	ldr	x17, [x14, x12, lsl #3]
	mov	w12, #1
LBB25_46:
	ldr	w5, [x13]
	mul	x15, x17, x5
	orr	x15, x15, #0x4
	subs	x4, x9, x15
	b.lo	LBB25_200
	cmp	w16, w12
	add	x11, x11, x5
	b.eq	LBB25_202
	and	x9, x14, #0xffffffff00000000
	add	x13, x13, x15
	cmp	x4, #4
	orr	x14, x9, x5
	add	x12, x12, #1
	mov	x9, x4
	b.hs	LBB25_46
	b	LBB25_197
LBB25_49:
	mov	w10, #1
LBB25_50:
	str	x10, [sp, #24]
	b	LBB25_204
LBB25_51:
	sub	w8, w9, #2001
	cmp	w8, #7
	b.hs	LBB25_56
	mov	w22, #2
	b	LBB25_58
LBB25_53:
	mov	x11, xzr
	mov	x12, x1
	b	LBB25_203
LBB25_54:
	b.hs	LBB25_193
LBB25_55:
	mov	x11, xzr
	mov	w10, #7
	mov	w12, #1
	b	LBB25_201
LBB25_56:
	sub	w8, w9, #3001
	cmp	w8, #7
	b.hs	LBB25_60
	mov	w22, #3
LBB25_58:
	cmp	w8, #6
	b.lo	LBB25_33
LBB25_59:
	tst	w9, #0xe0000000
	mov	x19, x0
	mov	x24, x2
	cset	w8, ne
	mov	x25, x3
	stp	xzr, xzr, [sp, #16]
	strb	w8, [sp, #65]
	mov	w8, #6
	mov	x20, x1
	strb	w8, [sp, #66]
	mov	w8, #1
	str	x1, [sp, #32]
	strb	w21, [sp, #64]
	strb	w22, [sp, #67]
	str	w8, [sp, #72]
	b	LBB25_156
LBB25_60:
	movi	v0.2d, #0000000000000000
	cbz	w21, LBB25_62
	cmp	w21, #1
	b.ne	LBB25_70
LBB25_62:
	cmp	x1, #5
	b.hs	LBB25_65
	mov	x8, xzr
	mov	x11, xzr
LBB25_64:
	mov	w9, wzr
	mov	w0, #32
	b	LBB25_258
LBB25_65:
	ldur	w8, [x0, #1]
	cmp	w21, #0
	mov	w10, #-1073741824
	mov	w12, #-536870912
	rev	w9, w8
	csel	w9, w8, w9, ne
	ubfx	w8, w9, #30, #1
	and	w11, w9, #0x7fffffff
	add	w10, w11, w10
	cmp	w8, #0
	csel	w10, w11, w10, eq
	lsr	w8, w10, #29
	cmp	w8, #0
	add	w8, w10, w12
	csel	w12, w8, w10, ne
	cset	w23, ne
	cmp	w12, #3999
	b.hi	LBB25_72
	ubfx	w8, w12, #3, #13
	mov	w13, #8389
	mul	w8, w8, w13
	mov	w13, #1000
	lsr	w8, w8, #20
	msub	w8, w8, w13, w12
	sub	w8, w8, #1
	and	w13, w8, #0xffff
	cmp	w13, #7
	b.hs	LBB25_72
	lsr	w11, w11, #30
	tbnz	w9, #31, LBB25_73
	mov	w13, #19923
	movk	w13, #4194, lsl #16
	umull	x12, w12, w13
	lsr	x22, x12, #38
	cbz	w11, LBB25_74
	lsl	w11, w22, #3
	mov	w12, #770
	movk	w12, #770, lsl #16
	lsr	w22, w12, w11
	b	LBB25_74
LBB25_70:
	mov	x8, xzr
	mov	x11, xzr
LBB25_71:
	mov	w9, wzr
	mov	w0, #33
	b	LBB25_258
LBB25_72:
	mov	x8, xzr
	mov	x11, xzr
	mov	w0, #34
	b	LBB25_258
LBB25_73:
	cmp	w12, #2000
	ccmp	w11, #0, #0, lo
	mov	w11, #3
	csinc	w22, w11, wzr, ne
LBB25_74:
	and	w11, w8, #0xffff
	cmp	w11, #6
	b.hs	LBB25_155
	tst	w10, #0xe0000000
	stp	xzr, xzr, [sp, #16]
	cset	w10, ne
	str	x1, [sp, #32]
	strb	w10, [sp, #65]
	mov	w10, #1
	strb	w21, [sp, #64]
	strb	w8, [sp, #66]
	strb	w22, [sp, #67]
	stp	w10, w9, [sp, #72]
	and	w9, w8, #0xff
	cmp	w9, #2
	b.le	LBB25_34
LBB25_76:
	cmp	w9, #3
	b.eq	LBB25_107
	cmp	w9, #4
	b.ne	LBB25_110
	cmp	w23, #0
	mov	w9, #5
	mov	w10, #9
	csel	x9, x10, x9, ne
	add	x10, x9, #4
	cmp	x1, x10
	b.lo	LBB25_111
	add	x10, x0, x9
	tst	w21, #0x1
	sub	x9, x1, x9
	ldr	w11, [x10]
	sub	x9, x9, #4
	rev	w12, w11
	csel	w14, w11, w12, ne
	mov	x11, xzr
	cbz	w14, LBB25_183
	and	w12, w22, #0xff
	mov	w15, #1000
	add	x17, x10, #4
	mul	w10, w12, w15
	mov	w13, w22
	mov	w12, #1
	mov	w7, #-536870912
	and	x25, x13, #0xff
	mov	w28, #9
	adrp	x16, Lswitch.table.wkb_raw_write.374@PAGE
	add	x16, x16, Lswitch.table.wkb_raw_write.374@PAGEOFF
	mov	w24, w14
	orr	w26, w10, #0x2
LBB25_81:
	mov	x13, x9
	cmp	x9, #5
	b.hs	LBB25_84
	cbz	x13, LBB25_199
	ldrb	w10, [x17]
	b	LBB25_90
LBB25_84:
	ldrb	w10, [x17]
	cmp	w10, #1
	b.eq	LBB25_87
	cbnz	w10, LBB25_90
	ldur	w19, [x17, #1]
	mov	w9, wzr
	rev	w19, w19
	b	LBB25_88
LBB25_87:
	ldur	w19, [x17, #1]
	mov	w9, #1
LBB25_88:
	cmp	w19, w26
	b.ne	LBB25_90
	mov	w10, #9
	mov	w19, #5
	b	LBB25_104
LBB25_90:
	cbz	w10, LBB25_93
	cmp	w10, #1
	b.ne	LBB25_231
	mov	w9, #1
	b	LBB25_94
LBB25_93:
	mov	w9, wzr
LBB25_94:
	cmp	x13, #5
	b.lo	LBB25_199
	ldur	w10, [x17, #1]
	cmp	w9, #0
	mov	w6, #-1073741824
	rev	w19, w10
	csel	w19, w10, w19, ne
	ubfx	w10, w19, #30, #1
	and	w30, w19, #0x7fffffff
	add	w20, w30, w6
	cmp	w10, #0
	csel	w10, w30, w20, eq
	lsr	w27, w10, #29
	add	w20, w10, w7
	cmp	w27, #0
	csel	w20, w20, w10, ne
	cmp	w20, #3999
	b.hi	LBB25_198
	mov	w10, #35128
	movk	w10, #65, lsl #16
	umull	x10, w20, w10
	lsr	x10, x10, #32
	msub	w10, w10, w15, w20
	sub	w6, w10, #1
	cmp	w6, #6
	b.hi	LBB25_198
	tbnz	w19, #31, LBB25_100
	mov	w6, #19923
	movk	w6, #4194, lsl #16
	umull	x6, w20, w6
	lsr	w20, w30, #30
	lsr	x19, x6, #38
	cbz	w20, LBB25_101
	lsl	w6, w19, #3
	mov	w19, #770
	movk	w19, #770, lsl #16
	lsr	w19, w19, w6
	b	LBB25_101
LBB25_100:
	lsr	w6, w30, #30
	cmp	w20, #2000
	ccmp	w6, #0, #0, lo
	mov	w6, #3
	csinc	w19, w6, wzr, ne
LBB25_101:
	cmp	w10, #2
	mov	w10, #9
	b.ne	LBB25_232
	and	w6, w19, #0xff
	cmp	w6, w22, uxtb
	b.ne	LBB25_233
	cmp	w27, #0
	mov	w10, #5
	csel	x19, x28, x10, ne
	mov	w10, #13
	csel	x10, x10, x28, ne
LBB25_104:
	add	x6, x19, #4
	cmp	x13, x6
	b.lo	LBB25_224
	ldr	w4, [x17, x19]
	cmp	w9, #0
	ldr	x9, [x16, x25, lsl #3]
	rev	w6, w4
	csel	w19, w4, w6, ne
	madd	x4, x9, x19, x10
	subs	x9, x13, x4
	b.lo	LBB25_225
	and	x10, x5, #0xffffffff00000000
	subs	w24, w24, #1
	add	x11, x11, x19
	orr	x5, x10, x19
	add	x17, x17, x4
	add	x12, x12, #1
	b.ne	LBB25_81
	b	LBB25_184
LBB25_107:
	cmp	w23, #0
	mov	w9, #5
	mov	w10, #9
	csel	x9, x10, x9, ne
	add	x10, x9, #4
	cmp	x1, x10
	b.hs	LBB25_112
LBB25_108:
	mov	w10, #7
LBB25_109:
	str	w10, [sp, #40]
	stp	x11, x1, [sp, #48]
	b	LBB25_240
LBB25_110:
	cmp	w23, #0
	mov	w9, #5
	mov	w10, #9
	csel	x10, x10, x9, ne
	add	x9, x10, #4
	cmp	x1, x9
	b.hs	LBB25_114
LBB25_111:
	mov	w10, #7
	str	w10, [sp, #40]
	b	LBB25_240
LBB25_112:
	add	x10, x0, x9
	mov	w12, w22
	adrp	x14, Lswitch.table.wkb_raw_write.371@PAGE
	add	x14, x14, Lswitch.table.wkb_raw_write.371@PAGEOFF
	ldr	w11, [x10]
	tst	w21, #0x1
	and	x12, x12, #0xff
	mov	w15, #13
	rev	w13, w11
	ldr	x12, [x14, x12, lsl #3]
	csel	w13, w11, w13, ne
	cmp	w23, #0
	mov	w11, #9
	csel	x11, x15, x11, ne
	madd	x11, x12, x13, x11
	cmp	x1, x11
	b.hs	LBB25_160
	mov	w10, #6
	b	LBB25_109
LBB25_114:
	add	x9, x0, x10
	tst	w21, #0x1
	sub	x10, x1, x10
	ldr	w11, [x9]
	sub	x27, x10, #4
	rev	w12, w11
	csel	w14, w11, w12, ne
	cbz	w14, LBB25_185
	and	w10, w22, #0xff
	mov	w16, #1000
	add	x12, x9, #4
	mul	w9, w10, w16
	mov	w10, w22
	mov	w15, wzr
	mov	x20, xzr
	mov	x11, xzr
	mov	w5, #-536870912
	and	x7, x10, #0xff
	orr	w24, w9, #0x3
LBB25_116:
	add	x30, x20, #1
	cmp	x27, #5
	str	x27, [sp, #32]
	str	x30, [sp, #16]
	b.hs	LBB25_119
	cbz	x27, LBB25_229
	ldrb	w10, [x12]
	b	LBB25_125
LBB25_119:
	ldrb	w10, [x12]
	cmp	w10, #1
	b.eq	LBB25_122
	cbnz	w10, LBB25_125
	ldur	w19, [x12, #1]
	mov	w6, wzr
	rev	w19, w19
	b	LBB25_123
LBB25_122:
	ldur	w19, [x12, #1]
	mov	w6, #1
LBB25_123:
	cmp	w19, w24
	b.ne	LBB25_125
	mov	w10, #5
	b	LBB25_139
LBB25_125:
	cbz	w10, LBB25_128
	cmp	w10, #1
	b.ne	LBB25_261
	mov	w6, #1
	b	LBB25_129
LBB25_128:
	mov	w6, wzr
LBB25_129:
	cmp	x27, #5
	b.lo	LBB25_229
	ldur	w10, [x12, #1]
	cmp	w6, #0
	mov	w4, #-1073741824
	rev	w19, w10
	csel	w28, w10, w19, ne
	ubfx	w10, w28, #30, #1
	and	w26, w28, #0x7fffffff
	add	w19, w26, w4
	cmp	w10, #0
	csel	w10, w26, w19, eq
	lsr	w25, w10, #29
	add	w19, w10, w5
	cmp	w25, #0
	csel	w19, w19, w10, ne
	cmp	w19, #3999
	b.hi	LBB25_228
	mov	w10, #35128
	movk	w10, #65, lsl #16
	umull	x10, w19, w10
	lsr	x10, x10, #32
	msub	w10, w10, w16, w19
	sub	w4, w10, #1
	cmp	w4, #6
	b.hi	LBB25_228
	tbnz	w28, #31, LBB25_135
	mov	w4, #19923
	movk	w4, #4194, lsl #16
	umull	x4, w19, w4
	lsr	w19, w26, #30
	lsr	x26, x4, #38
	cbz	w19, LBB25_136
	lsl	w4, w26, #3
	mov	w19, #770
	movk	w19, #770, lsl #16
	lsr	w26, w19, w4
	b	LBB25_136
LBB25_135:
	lsr	w4, w26, #30
	cmp	w19, #2000
	ccmp	w4, #0, #0, lo
	mov	w4, #3
	csinc	w26, w4, wzr, ne
LBB25_136:
	cmp	w10, #3
	mov	w10, #9
	b.ne	LBB25_262
	and	w4, w26, #0xff
	cmp	w4, w22, uxtb
	b.ne	LBB25_190
	cmp	w25, #0
	mov	w10, #5
	mov	w4, #9
	csel	x10, x4, x10, ne
LBB25_139:
	add	x4, x10, #4
	cmp	x27, x4
	b.lo	LBB25_235
	add	x12, x12, x10
	cmp	w6, #0
	sub	x10, x27, x10
	ldr	w25, [x12], #4
	sub	x9, x10, #4
	rev	w19, w25
	csel	w4, w25, w19, ne
	cbz	w4, LBB25_147
	add	x27, x20, #2
	cmp	x10, #8
	cbz	w6, LBB25_148
	b.lt	LBB25_260
	adrp	x17, Lswitch.table.wkb_raw_write.374@PAGE
	add	x17, x17, Lswitch.table.wkb_raw_write.374@PAGEOFF
	sub	w10, w25, #1
	ldr	x6, [x17, x7, lsl #3]
	add	x20, x27, x10
LBB25_144:
	ldr	w19, [x12]
	mul	x17, x6, x19
	orr	x17, x17, #0x4
	subs	x25, x9, x17
	b.lo	LBB25_186
	and	x13, x13, #0xffffffff00000000
	add	x11, x11, x19
	add	x12, x12, x17
	orr	x13, x13, x19
	cbz	w10, LBB25_153
	cmp	x25, #4
	add	x27, x27, #1
	sub	w10, w10, #1
	mov	x9, x25
	b.hs	LBB25_144
	b	LBB25_187
LBB25_147:
	mov	x20, x30
	b	LBB25_154
LBB25_148:
	b.lt	LBB25_260
	adrp	x17, Lswitch.table.wkb_raw_write.374@PAGE
	add	x17, x17, Lswitch.table.wkb_raw_write.374@PAGEOFF
	sub	w10, w19, #1
	ldr	x6, [x17, x7, lsl #3]
	add	x20, x27, x10
LBB25_150:
	ldr	w17, [x12]
	rev	w19, w17
	mul	x17, x6, x19
	orr	x17, x17, #0x4
	subs	x25, x9, x17
	b.lo	LBB25_186
	and	x13, x13, #0xffffffff00000000
	add	x11, x11, x19
	add	x12, x12, x17
	orr	x13, x13, x19
	cbz	w10, LBB25_153
	cmp	x25, #4
	add	x27, x27, #1
	sub	w10, w10, #1
	mov	x9, x25
	b.hs	LBB25_150
	b	LBB25_187
LBB25_153:
	mov	x27, x9
	mov	x9, x25
LBB25_154:
	add	w15, w15, #1
	str	x27, [sp, #32]
	mov	x27, x9
	cmp	w15, w14
	stp	x20, x11, [sp, #16]
	b.ne	LBB25_116
	b	LBB25_204
LBB25_155:
	tst	w10, #0xe0000000
	mov	x19, x0
	mov	x24, x2
	cset	w8, ne
	mov	x25, x3
	mov	x20, x1
	strb	w8, [sp, #65]
	mov	w8, #6
	strb	w8, [sp, #66]
	mov	w8, #1
	stp	xzr, xzr, [sp, #16]
	str	x1, [sp, #32]
	strb	w21, [sp, #64]
	strb	w22, [sp, #67]
	stp	w8, w9, [sp, #72]
LBB25_156:
	add	x0, sp, #40
	add	x2, sp, #64
	add	x5, sp, #16
	mov	x1, xzr
	mov	x3, x19
	mov	x4, x20
	bl	_ZN7wkb_raw6erased9wkb_check6nested15skip_collection17h3e96ec52d62a4ff3E
	ldr	w10, [sp, #40]
	mov	x1, x20
	mov	x3, x25
	cmp	w10, #11
	b.ne	LBB25_240
	ldp	x11, x10, [sp, #16]
	ldr	x8, [sp, #56]
	sub	x9, x1, x8
	add	x11, x11, #1
	tbz	w23, #0, LBB25_159
	mov	w8, #6
	mov	x2, x24
	mov	x0, x19
	b	LBB25_205
LBB25_159:
	mov	w12, wzr
	mov	w8, #7
	mov	w15, w21
	mov	x2, x24
	mov	x0, x19
	b	LBB25_221
LBB25_160:
	sub	x9, x1, x9
	sub	x9, x9, #4
	cbz	w13, LBB25_191
	and	w12, w22, #0xff
	mov	w15, #1000
	mov	w16, #770
	mul	w12, w12, w15
	add	x17, x10, #4
	mov	w10, w22
	mov	w19, #19923
	mov	w20, #35128
	mov	x11, xzr
	movk	w16, #770, lsl #16
	mov	w4, #-1073741824
	mov	w5, #-536870912
	and	x6, x10, #0xff
	orr	w7, w12, #0x1
	movk	w19, #4194, lsl #16
	movk	w20, #65, lsl #16
	mov	w24, #3
LBB25_162:
	mov	x12, x9
	cmp	x9, #5
	b.hs	LBB25_165
	cbz	x12, LBB25_227
	ldrb	w9, [x17]
	b	LBB25_170
LBB25_165:
	ldrb	w9, [x17]
	cmp	w9, #1
	b.eq	LBB25_168
	cbnz	w9, LBB25_170
	ldur	w10, [x17, #1]
	rev	w10, w10
	b	LBB25_169
LBB25_168:
	ldur	w10, [x17, #1]
LBB25_169:
	cmp	w10, w7
	b.eq	LBB25_181
LBB25_170:
	cbz	w9, LBB25_172
	cmp	w9, #1
	b.ne	LBB25_236
LBB25_172:
	cmp	x12, #5
	b.lo	LBB25_227
	ldur	w10, [x17, #1]
	cmp	w9, #0
	rev	w25, w10
	csel	w9, w10, w25, ne
	ubfx	w25, w9, #30, #1
	and	w10, w9, #0x7fffffff
	add	w26, w10, w4
	cmp	w25, #0
	csel	w26, w10, w26, eq
	lsr	w25, w26, #29
	add	w27, w26, w5
	cmp	w25, #0
	csel	w27, w27, w26, ne
	cmp	w27, #3999
	b.hi	LBB25_223
	umull	x26, w27, w20
	lsr	x26, x26, #32
	msub	w26, w26, w15, w27
	sub	w28, w26, #1
	cmp	w28, #6
	b.hi	LBB25_223
	tbnz	w9, #31, LBB25_178
	umull	x9, w27, w19
	lsr	w10, w10, #30
	lsr	x9, x9, #38
	cbz	w10, LBB25_179
	lsl	w9, w9, #3
	lsr	w9, w16, w9
	b	LBB25_179
LBB25_178:
	lsr	w9, w10, #30
	cmp	w27, #2000
	ccmp	w9, #0, #0, lo
	csinc	w9, w24, wzr, ne
LBB25_179:
	and	w9, w9, #0xff
	mov	w10, #9
	cmp	w9, w22, uxtb
	b.ne	LBB25_237
	cmp	w26, #1
	ccmp	w25, #0, #0, eq
	b.ne	LBB25_238
LBB25_181:
	ldr	x25, [x14, x6, lsl #3]
	subs	x9, x12, x25
	b.lo	LBB25_230
	add	x11, x11, #1
	add	x17, x17, x25
	cmp	w13, w11
	b.ne	LBB25_162
	b	LBB25_192
LBB25_183:
	mov	x14, xzr
	mov	x13, x1
LBB25_184:
	stp	x11, x13, [sp, #24]
	str	x14, [sp, #16]
	b	LBB25_204
LBB25_185:
	mov	x9, x27
	b	LBB25_204
LBB25_186:
	mov	w10, #5
	mov	x13, x17
	mov	x17, x9
	b	LBB25_188
LBB25_187:
	mov	w10, #7
	mov	x9, x25
LBB25_188:
	str	x9, [sp, #32]
	mov	x9, x17
	mov	x12, x13
	stp	x27, x11, [sp, #16]
LBB25_189:
LBB25_190:
	stp	w10, w28, [sp, #40]
	stp	x12, x9, [sp, #48]
	b	LBB25_240
LBB25_191:
	mov	x13, xzr
	mov	x12, x1
LBB25_192:
	stp	x13, x12, [sp, #24]
	str	x13, [sp, #16]
	b	LBB25_204
LBB25_193:
	mov	w12, w22
	adrp	x14, Lswitch.table.wkb_raw_write.374@PAGE
	add	x14, x14, Lswitch.table.wkb_raw_write.374@PAGEOFF
	and	x12, x12, #0xff
	mov	x11, xzr
	ldr	x16, [x14, x12, lsl #3]
	mov	w12, #1
LBB25_194:
	ldr	w15, [x13]
	rev	w5, w15
	mul	x15, x16, x5
	orr	x15, x15, #0x4
	subs	x4, x9, x15
	b.lo	LBB25_200
	cmp	w17, w12
	add	x11, x11, x5
	b.eq	LBB25_202
	and	x9, x14, #0xffffffff00000000
	add	x13, x13, x15
	cmp	x4, #4
	orr	x14, x9, x5
	add	x12, x12, #1
	mov	x9, x4
	b.hs	LBB25_194
LBB25_197:
	mov	w10, #7
	mov	x9, x4
	b	LBB25_201
LBB25_198:
	mov	w10, #1
	b	LBB25_233
LBB25_199:
	mov	w10, #7
	b	LBB25_232
LBB25_200:
	mov	w10, #5
	mov	x14, x15
	mov	x15, x9
LBB25_201:
	stp	x11, x9, [sp, #24]
	str	x12, [sp, #16]
	str	w10, [sp, #40]
	stp	x14, x15, [sp, #48]
	b	LBB25_240
LBB25_202:
	mov	x12, x9
	mov	x9, x4
LBB25_203:
	stp	x11, x12, [sp, #24]
	str	x10, [sp, #16]
LBB25_204:
	ldp	x11, x10, [sp, #16]
	str	x9, [sp, #56]
	sub	x9, x1, x9
	add	x11, x11, #1
	tbz	w23, #0, LBB25_209
LBB25_205:
	ldur	w12, [x0, #5]
	tst	w21, #0x1
	rev	w13, w12
	csel	w13, w12, w13, ne
	mov	w12, #1
	and	w8, w8, #0xff
	and	w14, w21, #0x1
	cmp	w8, #2
	b.le	LBB25_210
LBB25_206:
	cmp	w8, #4
	b.gt	LBB25_213
	cmp	w8, #3
	b.ne	LBB25_217
	mov	w8, #4
	b	LBB25_219
LBB25_209:
	mov	w12, wzr
	and	w8, w8, #0xff
	and	w14, w21, #0x1
	cmp	w8, #2
	b.gt	LBB25_206
LBB25_210:
	cbz	w8, LBB25_215
	cmp	w8, #1
	b.ne	LBB25_216
	mov	w15, w21
	mov	w8, #2
	b	LBB25_220
LBB25_213:
	cmp	w8, #5
	b.ne	LBB25_218
	mov	w8, #6
	b	LBB25_219
LBB25_215:
	cmp	w12, #0
	mov	w8, #5
	mov	w15, #9
	csel	x15, x15, x8, ne
	mov	w8, #1
	mov	w16, #1
	b	LBB25_222
LBB25_216:
	mov	w8, #3
	b	LBB25_219
LBB25_217:
	mov	w8, #5
	b	LBB25_219
LBB25_218:
	mov	w8, #7
LBB25_219:
	mov	w15, w21
LBB25_220:
	mov	w21, w14
LBB25_221:
	cmp	w12, #0
	mov	w14, #5
	mov	w16, #9
	csel	x14, x16, x14, ne
	tst	w15, #0x1
	ldr	w16, [x0, x14]
	add	x15, x14, #4
	mov	w14, w21
	rev	w17, w16
	csel	w16, w16, w17, ne
LBB25_222:
	cmp	w12, #0
	stp	x9, x11, [x2]
	mov	w0, wzr
	stp	x10, x15, [x2, #16]
	csel	w9, w13, wzr, ne
	mov	w10, w22
	and	x10, x10, #0xff
	stp	w9, w12, [x2, #40]
	adrp	x9, Lswitch.table.wkb_raw_parts.323@PAGE
	add	x9, x9, Lswitch.table.wkb_raw_parts.323@PAGEOFF
	str	x16, [x2, #32]
	ldr	w9, [x9, x10, lsl #2]
	and	w10, w22, #0xff
	stp	w8, w10, [x2, #48]
	stp	w9, w14, [x2, #56]
	b	LBB25_259
LBB25_223:
	mov	w10, #1
	b	LBB25_238
LBB25_224:
	mov	w10, #7
	b	LBB25_226
LBB25_225:
	mov	w10, #4
	mov	x5, x4
	mov	x4, x13
LBB25_226:
	str	x12, [sp, #16]
	b	LBB25_234
LBB25_227:
	mov	w10, #7
	b	LBB25_237
LBB25_228:
	mov	w10, #1
	b	LBB25_190
LBB25_229:
	mov	w10, #7
	b	LBB25_189
LBB25_230:
	add	x8, x11, #1
	str	x12, [sp, #32]
	mov	w10, #3
	str	x8, [sp, #16]
	b	LBB25_239
LBB25_231:
	mov	w10, #2
LBB25_232:
LBB25_233:
	str	x12, [sp, #16]
LBB25_234:
	stp	x11, x13, [sp, #24]
	stp	w10, w19, [sp, #40]
	stp	x5, x4, [sp, #48]
	b	LBB25_240
LBB25_235:
	mov	w10, #7
	b	LBB25_189
LBB25_236:
	mov	w10, #2
LBB25_237:
LBB25_238:
	add	x8, x11, #1
	str	x12, [sp, #32]
	str	x8, [sp, #16]
LBB25_239:
	str	x11, [sp, #24]
	stp	w10, w9, [sp, #40]
	stp	x25, x12, [sp, #48]
LBB25_240:
	movi	v0.2d, #0000000000000000
	ldr	x8, [sp, #32]
	ldr	x11, [sp, #16]
	cmp	w10, #6
	sub	x8, x1, x8
	b.hi	LBB25_246
	ldur	q1, [sp, #48]
	cmp	w10, #3
	b.gt	LBB25_249
	cbz	w10, LBB25_248
	cmp	w10, #1
	b.eq	LBB25_255
	cmp	w10, #3
	b.ne	LBB25_71
	mov	w9, wzr
	mov	w0, #48
	b	LBB25_257
LBB25_246:
	cmp	w10, #7
	b.eq	LBB25_64
	cmp	w10, #9
	b.ne	LBB25_253
LBB25_248:
	mov	w9, wzr
	mov	w0, #35
	b	LBB25_258
LBB25_249:
	cmp	w10, #4
	b.eq	LBB25_254
	cmp	w10, #5
	b.eq	LBB25_256
	cmp	w10, #6
	b.ne	LBB25_71
	mov	w9, wzr
	mov	w0, #50
	b	LBB25_257
LBB25_253:
	mov	w9, wzr
	mov	w0, #36
	b	LBB25_258
LBB25_254:
	mov	w9, wzr
	mov	w0, #49
	b	LBB25_257
LBB25_255:
	ldr	w9, [sp, #44]
	mov	w0, #34
	b	LBB25_258
LBB25_256:
	mov	w9, wzr
	mov	w0, #51
LBB25_257:
	mov	v0.16b, v1.16b
LBB25_258:
	stp	x11, x8, [x3]
	str	q0, [x3, #16]
	stp	w9, w0, [x3, #32]
LBB25_259:
	mov	sp, x29
	.cfi_def_cfa wsp, 96
	ldp	x20, x19, [sp, #80]
	ldp	x22, x21, [sp, #64]
	ldp	x24, x23, [sp, #48]
	ldp	x26, x25, [sp, #32]
	ldp	x28, x27, [sp, #16]
	ldp	x29, x30, [sp], #96
	.cfi_def_cfa_offset 0
	.cfi_restore w19
	.cfi_restore w20
	.cfi_restore w21
	.cfi_restore w22
	.cfi_restore w23
	.cfi_restore w24
	.cfi_restore w25
	.cfi_restore w26
	.cfi_restore w27
	.cfi_restore w28
	.cfi_restore w30
	.cfi_restore w29
	ret
LBB25_260:
	.cfi_restore_state
	mov	w10, #7
	b	LBB25_188
LBB25_261:
	mov	w10, #2
LBB25_262:
	b	LBB25_189
Lfunc_end25:
	.cfi_endproc
	.section	__TEXT,__text,regular,pure_instructions
	.p2align	2
_ZN7wkb_raw6erased5wkb_c5write12write_others17h761b2ce34ffe351dE:
	.cfi_startproc
	sub	sp, sp, #80
	.cfi_def_cfa_offset 80
	str	x30, [sp, #16]
	stp	x24, x23, [sp, #32]
	stp	x22, x21, [sp, #48]
	stp	x20, x19, [sp, #64]
	.cfi_offset w19, -8
	.cfi_offset w20, -16
	.cfi_offset w21, -24
	.cfi_offset w22, -32
	.cfi_offset w23, -40
	.cfi_offset w24, -48
	.cfi_offset w30, -64
	ldr	w8, [x3]
	mov	x19, x6
	cbz	w8, LBB26_6
	cmp	w8, #1
	b.ne	LBB26_10
	mov	w9, #1
	ldr	w10, [x3, #4]
	mov	w8, #3
	cmp	w10, #1
	b.gt	LBB26_7
LBB26_3:
	cbz	w10, LBB26_11
	cmp	w10, #1
	b.ne	LBB26_17
	ldr	d0, [x2]
	ldr	w3, [x2]
	strb	w9, [sp, #8]
	str	d0, [sp]
	add	x8, x1, #4
	cmp	x5, x8
	b.lo	LBB26_13
	b	LBB26_15
LBB26_6:
	mov	w9, wzr
	ldr	w10, [x3, #4]
	mov	w8, #3
	cmp	w10, #1
	b.le	LBB26_3
LBB26_7:
	cmp	w10, #3
	b.eq	LBB26_12
	cmp	w10, #2
	b.ne	LBB26_17
	ldr	w8, [x3, #8]
	mov	w3, #1
	stp	w3, w8, [sp]
	strb	w9, [sp, #8]
	add	x8, x1, #4
	cmp	x5, x8
	b.lo	LBB26_13
	b	LBB26_15
LBB26_10:
	mov	w8, #3
	b	LBB26_17
LBB26_11:
	mov	w3, #2
	stp	w3, w8, [sp]
	strb	w9, [sp, #8]
	add	x8, x1, #4
	cmp	x5, x8
	b.lo	LBB26_13
	b	LBB26_15
LBB26_12:
	mov	w3, wzr
	stp	wzr, w8, [sp]
	strb	w9, [sp, #8]
	add	x8, x1, #4
	cmp	x5, x8
	b.hs	LBB26_15
LBB26_13:
	mov	x20, x0
	mov	x21, x1
	mov	x22, x2
	mov	x23, x5
	mov	x24, x4
	bl	_ZN7wkb_raw6erased11wkb_rewrite8encoding12encoded_size17h344095ffe8468ed4E
	mov	x8, x0
	mov	x1, x21
	mov	x2, x22
	mov	x4, x24
	mov	x5, x23
	mov	x0, x20
	cmp	x23, x8
	b.hs	LBB26_15
	mov	x9, x8
	mov	w8, #2
	mov	x0, x9
	b	LBB26_16
LBB26_15:
	mov	x3, sp
	bl	_ZN7wkb_raw6erased11wkb_rewrite8encoding12lay_encoding17h07e83c5af2302165E
	mov	w8, wzr
LBB26_16:
	str	x0, [x19]
LBB26_17:
	ldp	x20, x19, [sp, #64]
	mov	w0, w8
	ldp	x22, x21, [sp, #48]
	ldr	x30, [sp, #16]
	ldp	x24, x23, [sp, #32]
	add	sp, sp, #80
	.cfi_def_cfa_offset 0
	.cfi_restore w19
	.cfi_restore w20
	.cfi_restore w21
	.cfi_restore w22
	.cfi_restore w23
	.cfi_restore w24
	.cfi_restore w30
	ret
Lfunc_end26:
	.cfi_endproc
	.section	__TEXT,__text,regular,pure_instructions
	.p2align	2
_ZN7wkb_raw6erased5wkb_c5write13write_polygon17hb05cd7360faa7d52E:
	.cfi_startproc
	str	x30, [sp, #-16]!
	.cfi_def_cfa_offset 16
	.cfi_offset w30, -16
	.cfi_remember_state
	ldr	w8, [x3]
	cbz	w8, LBB27_6
	cmp	w8, #1
	b.ne	LBB27_11
	mov	w13, #1
	ldr	w9, [x3, #4]
	mov	w8, #3
	cmp	w9, #1
	b.gt	LBB27_7
LBB27_3:
	cbz	w9, LBB27_13
	cmp	w9, #1
	b.ne	LBB27_12
	ldp	w8, w12, [x2]
	ldr	x16, [x2, #8]
	lsr	w10, w12, #8
	mov	w14, w8
	b	LBB27_15
LBB27_6:
	mov	w13, wzr
	ldr	w9, [x3, #4]
	mov	w8, #3
	cmp	w9, #1
	b.le	LBB27_3
LBB27_7:
	cmp	w9, #3
	b.eq	LBB27_14
	cmp	w9, #2
	b.ne	LBB27_12
	ldr	w12, [x3, #8]
	mov	w14, #1
	lsr	w10, w12, #8
	ldr	w8, [x2]
	ldr	x16, [x2, #8]
	b	LBB27_15
LBB27_10:
	mov	x9, xzr
	mov	w14, #2
	b	LBB27_16
LBB27_11:
	mov	w8, #3
LBB27_12:
	mov	w0, w8
	ldr	x30, [sp], #16
	.cfi_def_cfa_offset 0
	.cfi_restore w30
	ret
LBB27_13:
	.cfi_restore_state
	.cfi_remember_state
	mov	w14, #2
	mov	w9, #1
	lsr	w10, w12, #8
	ldr	w8, [x2]
	ldr	x16, [x2, #8]
	tbz	w9, #0, LBB27_15
	b	LBB27_10
LBB27_14:
	mov	w14, wzr
	lsr	w10, w12, #8
	ldr	w8, [x2]
	ldr	x16, [x2, #8]
LBB27_15:
	cmp	w14, #1
	mov	w9, #4
	csel	x9, x9, xzr, eq
LBB27_16:
	cmp	w8, #0
	mov	x11, #-4
	add	x9, x16, x9
	csel	x11, xzr, x11, eq
	add	x9, x9, x11
	cmp	x5, x9
	str	x9, [x6]
	b.hs	LBB27_18
	mov	w8, #2
	mov	w0, w8
	ldr	x30, [sp], #16
	.cfi_def_cfa_offset 0
	.cfi_restore w30
	ret
LBB27_18:
	.cfi_restore_state
	.cfi_remember_state
	cmp	w8, #0
	mov	w8, #9
	mov	w9, #5
	csel	x15, x9, x8, eq
	ldrb	w11, [x2, #34]
	ldrb	w8, [x2, #33]
	ldr	w9, [x0, x15]
	bfi	w12, w10, #8, #24
	add	x10, x15, #4
	cmp	w11, #1
	rev	w11, w9
	b.ne	LBB27_22
	tbnz	w13, #0, LBB27_25
	cmp	w14, #2
	b.ne	LBB27_33
	mov	w12, #1000
	mov	w14, #5
	mov	w13, #1
	mul	w12, w8, w12
	strb	wzr, [x4]
	orr	w12, w12, #0x3
	b	LBB27_35
LBB27_22:
	tbz	w13, #0, LBB27_25
	cmp	w14, #2
	b.ne	LBB27_54
	mov	w12, #1000
	mov	w13, #1
	mov	w14, #5
	mul	w12, w8, w12
	strb	w13, [x4]
	orr	w12, w12, #0x3
	b	LBB27_56
LBB27_25:
	cmp	w14, #2
	sub	x2, x16, x15
	b.ne	LBB27_30
	mov	w10, #1000
	cmp	w13, #0
	mov	x9, x0
	mul	w8, w8, w10
	strb	w13, [x4]
	orr	w8, w8, #0x3
	rev	w10, w8
	csel	w12, w8, w10, ne
	mov	w10, #5
	mov	w8, #1
LBB27_27:
	str	w12, [x4, x8]
	mov	x8, x10
LBB27_28:
	add	x0, x4, x8
	add	x1, x9, x15
	bl	_memcpy
LBB27_29:
	mov	w8, wzr
	mov	w0, w8
	ldr	x30, [sp], #16
	.cfi_def_cfa_offset 0
	.cfi_restore w30
	ret
LBB27_30:
	.cfi_restore_state
	cmp	w14, #1
	mov	w9, #536870912
	mov	w10, #1073741824
	csinc	w9, w9, wzr, eq
	cmp	w8, #2
	strb	w13, [x4]
	csel	w10, wzr, w10, lo
	orr	w9, w9, w10
	orr	w8, w9, w8, lsl #31
	orr	w8, w8, #0x3
	tbz	w13, #0, LBB27_75
	stur	w8, [x4, #1]
	mov	w8, #5
	mov	x9, x0
	tbz	w14, #0, LBB27_28
	mov	w10, #9
	b	LBB27_27
LBB27_33:
	cmp	w14, #1
	mov	w13, #536870912
	mov	w15, #1073741824
	csinc	w13, w13, wzr, eq
	cmp	w8, #2
	strb	wzr, [x4]
	csel	w15, wzr, w15, lo
	orr	w13, w13, w15
	orr	w13, w13, w8, lsl #31
	orr	w13, w13, #0x3
	rev	w13, w13
	stur	w13, [x4, #1]
	mov	w13, #5
	tbz	w14, #0, LBB27_36
	mov	w14, #9
LBB27_35:
	rev	w12, w12
	str	w12, [x4, x13]
	mov	x13, x14
LBB27_36:
	str	w11, [x4, x13]
	cbz	w9, LBB27_29
	add	x16, x13, #4
	add	x11, x0, #36
	add	x12, x4, #36
	sub	w13, w8, #1
	b	LBB27_39
LBB27_38:
	sub	w9, w9, #1
	mov	x16, x15
	mov	x10, x14
	cbz	w9, LBB27_29
LBB27_39:
	ldr	w17, [x0, x10]
	cmp	w13, #2
	add	x2, x10, #4
	add	x5, x16, #4
	b.hs	LBB27_41
	add	x14, x17, x17, lsl #1
	mov	w1, #24
	lsl	x15, x14, #3
	rev	w14, w17
	str	w14, [x4, x16]
	b	LBB27_44
LBB27_41:
	cmp	w8, #3
	b.ne	LBB27_43
	lsl	x15, x17, #5
	rev	w14, w17
	str	w14, [x4, x16]
	mov	w1, #32
	b	LBB27_44
LBB27_43:
	lsl	x15, x17, #4
	rev	w14, w17
	str	w14, [x4, x16]
	mov	w1, #16
LBB27_44:
	add	x14, x15, x2
	add	x15, x15, x5
	umull	x1, w1, w17
	add	x17, x4, x5
	add	x2, x0, x2
	lsr	x3, x1, #4
	cbz	x3, LBB27_52
	cmp	x1, #64
	b.hs	LBB27_47
	mov	x5, xzr
	b	LBB27_50
LBB27_47:
	and	x5, x3, #0x3fffffffc
	add	x10, x11, x10
	add	x16, x12, x16
	and	x6, x3, #0x3fffffffc
LBB27_48:
	ldp	q1, q0, [x10, #-32]
	subs	x6, x6, #4
	ldp	q3, q2, [x10], #64
	rev64	v0.16b, v0.16b
	rev64	v1.16b, v1.16b
	rev64	v2.16b, v2.16b
	rev64	v3.16b, v3.16b
	stp	q1, q0, [x16, #-32]
	stp	q3, q2, [x16], #64
	b.ne	LBB27_48
	cmp	x3, x5
	b.eq	LBB27_52
LBB27_50:
	lsl	x10, x5, #4
	sub	x16, x3, x5
LBB27_51:
	ldr	q0, [x2, x10]
	subs	x16, x16, #1
	rev64	v0.16b, v0.16b
	str	q0, [x17, x10]
	add	x10, x10, #16
	b.ne	LBB27_51
LBB27_52:
	tbz	w1, #3, LBB27_38
	and	x10, x1, #0x3ffffffff0
	ldr	x16, [x2, x10]
	rev	x16, x16
	str	x16, [x17, x10]
	b	LBB27_38
LBB27_54:
	cmp	w14, #1
	mov	w13, #536870912
	mov	w15, #1073741824
	csinc	w13, w13, wzr, eq
	cmp	w8, #2
	csel	w15, wzr, w15, lo
	orr	w13, w13, w15
	mov	w15, #1
	orr	w13, w13, w8, lsl #31
	strb	w15, [x4]
	orr	w13, w13, #0x3
	stur	w13, [x4, #1]
	mov	w13, #5
	tbz	w14, #0, LBB27_57
	mov	w14, #9
LBB27_56:
	str	w12, [x4, x13]
	mov	x13, x14
LBB27_57:
	str	w11, [x4, x13]
	cbz	w9, LBB27_29
	add	x17, x13, #4
	add	x9, x0, #36
	add	x12, x4, #36
	sub	w13, w8, #1
	b	LBB27_60
LBB27_59:
	sub	w11, w11, #1
	mov	x17, x15
	mov	x10, x14
	cbz	w11, LBB27_29
LBB27_60:
	ldr	w14, [x0, x10]
	cmp	w13, #2
	add	x2, x10, #4
	add	x5, x17, #4
	rev	w16, w14
	b.hs	LBB27_62
	add	x14, x16, x16, lsl #1
	mov	w1, #24
	str	w16, [x4, x17]
	lsl	x15, x14, #3
	b	LBB27_65
LBB27_62:
	cmp	w8, #3
	b.ne	LBB27_64
	lsl	x15, x16, #5
	str	w16, [x4, x17]
	mov	w1, #32
	b	LBB27_65
LBB27_64:
	lsl	x15, x16, #4
	str	w16, [x4, x17]
	mov	w1, #16
LBB27_65:
	add	x14, x15, x2
	add	x15, x15, x5
	umull	x1, w1, w16
	add	x16, x4, x5
	add	x2, x0, x2
	lsr	x3, x1, #4
	cbz	x3, LBB27_73
	cmp	x1, #64
	b.hs	LBB27_68
	mov	x5, xzr
	b	LBB27_71
LBB27_68:
	and	x5, x3, #0x3fffffffc
	add	x10, x9, x10
	add	x17, x12, x17
	and	x6, x3, #0x3fffffffc
LBB27_69:
	ldp	q1, q0, [x10, #-32]
	subs	x6, x6, #4
	ldp	q3, q2, [x10], #64
	rev64	v0.16b, v0.16b
	rev64	v1.16b, v1.16b
	rev64	v2.16b, v2.16b
	rev64	v3.16b, v3.16b
	stp	q1, q0, [x17, #-32]
	stp	q3, q2, [x17], #64
	b.ne	LBB27_69
	cmp	x3, x5
	b.eq	LBB27_73
LBB27_71:
	lsl	x10, x5, #4
	sub	x17, x3, x5
LBB27_72:
	ldr	q0, [x2, x10]
	subs	x17, x17, #1
	rev64	v0.16b, v0.16b
	str	q0, [x16, x10]
	add	x10, x10, #16
	b.ne	LBB27_72
LBB27_73:
	tbz	w1, #3, LBB27_59
	and	x10, x1, #0x3ffffffff0
	ldr	x17, [x2, x10]
	rev	x17, x17
	str	x17, [x16, x10]
	b	LBB27_59
LBB27_75:
	rev	w8, w8
	cmp	w14, #1
	mov	x9, x0
	stur	w8, [x4, #1]
	b.ne	LBB27_77
	rev	w12, w12
	mov	w10, #9
	mov	w8, #5
	b	LBB27_27
LBB27_77:
	mov	w8, #5
	b	LBB27_28
Lfunc_end27:
	.cfi_endproc
	.section	__TEXT,__text,regular,pure_instructions
	.p2align	2
_ZN7wkb_raw6erased5wkb_c5write15write_one_piece17h050e3f427a46dcddE:
	.cfi_startproc
	ldr	w8, [x3]
	cbz	w8, LBB28_6
	cmp	w8, #1
	b.ne	LBB28_11
	mov	w10, #1
	ldr	w9, [x3, #4]
	mov	w8, #3
	cmp	w9, #1
	b.gt	LBB28_7
LBB28_3:
	cbz	w9, LBB28_13
	cmp	w9, #1
	b.ne	LBB28_12
	ldp	w11, w8, [x2]
	ldrb	w9, [x2, #32]
	ldr	x12, [x2, #8]
	lsr	w15, w8, #8
	mov	w13, w11
	b	LBB28_15
LBB28_6:
	mov	w10, wzr
	ldr	w9, [x3, #4]
	mov	w8, #3
	cmp	w9, #1
	b.le	LBB28_3
LBB28_7:
	cmp	w9, #3
	b.eq	LBB28_14
	cmp	w9, #2
	b.ne	LBB28_12
	ldr	w8, [x3, #8]
	mov	w13, #1
	lsr	w15, w8, #8
	ldrb	w9, [x2, #32]
	ldr	w11, [x2]
	ldr	x12, [x2, #8]
	b	LBB28_15
LBB28_10:
	mov	x14, xzr
	mov	w13, #2
	b	LBB28_16
LBB28_11:
	mov	w0, #3
	ret
LBB28_12:
	mov	w0, w8
	ret
LBB28_13:
	mov	w13, #2
	mov	w14, #1
	lsr	w15, w8, #8
	ldrb	w9, [x2, #32]
	ldr	w11, [x2]
	ldr	x12, [x2, #8]
	tbz	w14, #0, LBB28_15
	b	LBB28_10
LBB28_14:
	mov	w13, wzr
	lsr	w15, w8, #8
	ldrb	w9, [x2, #32]
	ldr	w11, [x2]
	ldr	x12, [x2, #8]
LBB28_15:
	cmp	w13, #1
	mov	w14, #4
	csel	x14, x14, xzr, eq
LBB28_16:
	cmp	w11, #0
	mov	x16, #-4
	add	x12, x12, x14
	csel	x16, xzr, x16, eq
	add	x12, x12, x16
	cmp	x5, x12
	str	x12, [x6]
	b.hs	LBB28_18
	mov	w0, #2
	ret
LBB28_18:
	cbz	w9, LBB28_22
	cmp	w11, #0
	mov	w11, #9
	mov	w12, #5
	csel	x11, x12, x11, eq
	ldrb	w12, [x2, #34]
	ldrb	w16, [x2, #33]
	ldr	w14, [x0, x11]
	cmp	w12, #0
	rev	w17, w14
	csel	w14, w14, w17, ne
	cmp	w13, #2
	b.ne	LBB28_30
	mov	w8, #1000
	strb	w10, [x4]
	mul	w8, w16, w8
	orr	w8, w9, w8
	add	w8, w8, #1
	cbz	w10, LBB28_46
	stur	w8, [x4, #1]
	b	LBB28_33
LBB28_22:
	ldrb	w14, [x2, #33]
	cmp	w11, #0
	mov	w9, #9
	mov	w12, #5
	ldrb	w11, [x2, #34]
	csel	x9, x12, x9, eq
	cmp	w13, #2
	b.ne	LBB28_39
	mov	w8, #1000
	cmp	w10, #0
	strb	w10, [x4]
	mul	w8, w14, w8
	mov	w15, #1
	orr	w12, w8, #0x1
	rev	w12, w12
	csinc	w8, w12, w8, eq
	mov	w12, #5
LBB28_24:
	str	w8, [x4, x15]
	mov	x15, x12
LBB28_25:
	sub	w8, w14, #1
	add	x12, x0, x9
	add	x9, x4, x15
	cmp	w8, #2
	b.hs	LBB28_42
	ldr	x13, [x12]
	tbz	w11, #0, LBB28_58
	mov	x8, #-9007199254740992
	cmp	x8, x13, lsl #1
	b.hs	LBB28_64
	ldr	x14, [x12, #8]
	cmp	x8, x14, lsl #1
	b.hs	LBB28_64
	ldr	x8, [x12, #16]
	b	LBB28_61
LBB28_30:
	cmp	w13, #1
	mov	w17, #536870912
	mov	w1, #1073741824
	csel	w17, w17, wzr, eq
	cmp	w16, #2
	bfi	w8, w15, #8, #24
	csel	w1, wzr, w1, lo
	strb	w10, [x4]
	orr	w17, w17, w1
	orr	w17, w17, w16, lsl #31
	orr	w15, w9, w17
	add	w15, w15, #1
	tbz	w10, #0, LBB28_47
	stur	w15, [x4, #1]
	tbz	w13, #0, LBB28_33
	stur	w8, [x4, #5]
	mov	w17, #9
	mov	w15, #13
	cmp	w9, #1
	add	x8, x11, #4
	str	w14, [x4, x17]
	b.eq	LBB28_51
	b	LBB28_34
LBB28_33:
	mov	w17, #5
	mov	w15, #9
	cmp	w9, #1
	add	x8, x11, #4
	str	w14, [x4, x17]
	b.eq	LBB28_51
LBB28_34:
	mov	x2, xzr
	add	x13, x11, #4
	str	x30, [sp, #-16]!
	.cfi_def_cfa_offset 16
	.cfi_offset w30, -16
	cmp	w12, w10
	add	x1, x0, x8
	add	x9, x4, x15
	b.eq	LBB28_76
LBB28_35:
	sub	x8, x13, x8
	lsr	x13, x8, #4
	and	x12, x8, #0x7ffffffffffffff0
	tbz	w10, #0, LBB28_53
	cbz	x13, LBB28_87
	cmp	x8, #64
	b.hs	LBB28_77
	mov	x10, xzr
	b	LBB28_80
LBB28_39:
	cmp	w13, #1
	mov	w12, #536870912
	mov	w16, #1073741824
	csinc	w12, w12, wzr, eq
	cmp	w14, #2
	bfi	w8, w15, #8, #24
	csel	w16, wzr, w16, lo
	strb	w10, [x4]
	orr	w12, w12, w16
	orr	w12, w12, w14, lsl #31
	orr	w12, w12, #0x1
	tbz	w10, #0, LBB28_66
	mov	w15, #5
	stur	w12, [x4, #1]
	tbz	w13, #0, LBB28_25
	mov	w12, #9
	b	LBB28_24
LBB28_42:
	cbnz	w14, LBB28_68
	ldr	x13, [x12]
	tbz	w11, #0, LBB28_90
	mov	x8, #-9007199254740992
	cmp	x8, x13, lsl #1
	b.hs	LBB28_95
	ldr	x8, [x12, #8]
	b	LBB28_92
LBB28_46:
	mov	w15, #5
	mov	w13, #9
	mov	w17, #1
	b	LBB28_49
LBB28_47:
	rev	w15, w15
	mov	w17, #5
	stur	w15, [x4, #1]
	mov	w15, #9
	tbz	w13, #0, LBB28_50
	mov	w13, #13
LBB28_49:
	rev	w8, w8
	str	w8, [x4, x17]
	mov	x17, x15
	mov	x15, x13
LBB28_50:
	rev	w13, w14
	cmp	w9, #1
	add	x8, x11, #4
	str	w13, [x4, x17]
	b.ne	LBB28_34
LBB28_51:
	sub	w9, w16, #1
	cmp	w9, #2
	b.hs	LBB28_56
	add	x9, x14, x14, lsl #1
	lsl	x2, x9, #3
	mov	w9, #24
	b	LBB28_75
LBB28_53:
	cbz	x13, LBB28_87
	cmp	x8, #64
	b.hs	LBB28_82
	mov	x10, xzr
	b	LBB28_85
LBB28_56:
	cmp	w16, #3
	b.ne	LBB28_74
	lsl	x2, x14, #5
	mov	w9, #32
	b	LBB28_75
LBB28_58:
	rev	x8, x13
	mov	x14, #-9007199254740992
	cmp	x14, x8, lsl #1
	b.hs	LBB28_64
	ldr	x8, [x12, #8]
	mov	x14, #-9007199254740991
	rev	x8, x8
	cmp	x14, x8, lsl #1
	b.hi	LBB28_64
	ldr	x8, [x12, #16]
	rev	x8, x8
LBB28_61:
	mov	x14, #-9007199254740992
	cmp	x14, x8, lsl #1
	b.hs	LBB28_64
	mov	w8, wzr
	tbz	w10, #0, LBB28_109
	mov	x10, #9221120237041090560
	dup	v0.2d, x10
	mov	w0, w8
	str	q0, [x9]
	str	x10, [x9, #16]
	ret
LBB28_64:
	cmp	w11, w10
	b.ne	LBB28_73
	ldr	q0, [x12]
	ldr	x10, [x12, #16]
	mov	w8, wzr
	mov	w0, w8
	str	q0, [x9]
	str	x10, [x9, #16]
	ret
LBB28_66:
	rev	w12, w12
	cmp	w13, #1
	stur	w12, [x4, #1]
	b.ne	LBB28_97
	rev	w8, w8
	mov	w12, #9
	mov	w15, #5
	b	LBB28_24
LBB28_68:
	ldr	x13, [x12]
	tbz	w11, #0, LBB28_98
	mov	x8, #-9007199254740992
	cmp	x8, x13, lsl #1
	b.hs	LBB28_105
	ldr	x14, [x12, #8]
	cmp	x8, x14, lsl #1
	b.hs	LBB28_105
	ldr	x8, [x12, #16]
	mov	x14, #-9007199254740992
	cmp	x14, x8, lsl #1
	b.hs	LBB28_105
	ldr	x8, [x12, #24]
	b	LBB28_102
LBB28_73:
	ldur	q0, [x12, #8]
	rev	x10, x13
	mov	w0, wzr
	str	x10, [x9]
	rev64	v0.16b, v0.16b
	stur	q0, [x9, #8]
	ret
LBB28_74:
	lsl	x2, x14, #4
	mov	w9, #16
LBB28_75:
	umaddl	x13, w9, w14, x8
	str	x30, [sp, #-16]!
	.cfi_def_cfa_offset 16
	.cfi_offset w30, -16
	cmp	w12, w10
	add	x1, x0, x8
	add	x9, x4, x15
	b.ne	LBB28_35
LBB28_76:
	.cfi_def_cfa wsp, 0
	.cfi_same_value w30
	mov	x0, x9
	bl	_memcpy
	mov	w8, wzr
	ldr	x30, [sp], #16
	.cfi_def_cfa_offset 0
	.cfi_restore w30
	mov	w0, w8
	ret
LBB28_77:
	add	x11, x11, x0
	add	x14, x15, x4
	and	x10, x13, #0xffffffffffffffc
	add	x11, x11, #36
	add	x14, x14, #32
	and	x15, x13, #0xffffffffffffffc
LBB28_78:
	.cfi_def_cfa wsp, 0
	.cfi_same_value w30
	ldp	q1, q0, [x11, #-32]
	subs	x15, x15, #4
	ldp	q3, q2, [x11], #64
	rev64	v0.16b, v0.16b
	rev64	v1.16b, v1.16b
	rev64	v2.16b, v2.16b
	rev64	v3.16b, v3.16b
	stp	q1, q0, [x14, #-32]
	stp	q3, q2, [x14], #64
	b.ne	LBB28_78
	.cfi_def_cfa wsp, 0
	.cfi_same_value w30
	cmp	x13, x10
	b.eq	LBB28_87
LBB28_80:
	.cfi_def_cfa wsp, 0
	.cfi_same_value w30
	lsl	x11, x10, #4
	sub	x10, x13, x10
LBB28_81:
	.cfi_def_cfa wsp, 0
	.cfi_same_value w30
	ldr	q0, [x1, x11]
	subs	x10, x10, #1
	rev64	v0.16b, v0.16b
	str	q0, [x9, x11]
	add	x11, x11, #16
	b.ne	LBB28_81
	b	LBB28_87
LBB28_82:
	.cfi_def_cfa wsp, 0
	.cfi_same_value w30
	add	x11, x11, x0
	add	x14, x15, x4
	and	x10, x13, #0xffffffffffffffc
	add	x11, x11, #36
	add	x14, x14, #32
	and	x15, x13, #0xffffffffffffffc
LBB28_83:
	.cfi_def_cfa wsp, 0
	.cfi_same_value w30
	ldp	q1, q0, [x11, #-32]
	subs	x15, x15, #4
	ldp	q3, q2, [x11], #64
	rev64	v0.16b, v0.16b
	rev64	v1.16b, v1.16b
	rev64	v2.16b, v2.16b
	rev64	v3.16b, v3.16b
	stp	q1, q0, [x14, #-32]
	stp	q3, q2, [x14], #64
	b.ne	LBB28_83
	.cfi_def_cfa wsp, 0
	.cfi_same_value w30
	cmp	x13, x10
	b.eq	LBB28_87
LBB28_85:
	.cfi_def_cfa wsp, 0
	.cfi_same_value w30
	lsl	x11, x10, #4
	sub	x10, x13, x10
LBB28_86:
	.cfi_def_cfa wsp, 0
	.cfi_same_value w30
	ldr	q0, [x1, x11]
	subs	x10, x10, #1
	rev64	v0.16b, v0.16b
	str	q0, [x9, x11]
	add	x11, x11, #16
	b.ne	LBB28_86
LBB28_87:
	.cfi_def_cfa wsp, 0
	.cfi_same_value w30
	tbnz	w8, #3, LBB28_89
	.cfi_def_cfa wsp, 0
	.cfi_same_value w30
	mov	w8, wzr
	ldr	x30, [sp], #16
	.cfi_def_cfa_offset 0
	.cfi_restore w30
	mov	w0, w8
	ret
LBB28_89:
	ldr	x10, [x1, x12]
	mov	w8, wzr
	rev	x10, x10
	str	x10, [x9, x12]
	ldr	x30, [sp], #16
	.cfi_def_cfa_offset 0
	.cfi_restore w30
	mov	w0, w8
	ret
LBB28_90:
	rev	x8, x13
	mov	x14, #-9007199254740991
	cmp	x14, x8, lsl #1
	b.hi	LBB28_95
	ldr	x8, [x12, #8]
	rev	x8, x8
LBB28_92:
	mov	x14, #-9007199254740992
	cmp	x14, x8, lsl #1
	b.hs	LBB28_95
	mov	w8, wzr
	tbz	w10, #0, LBB28_110
	mov	x10, #9221120237041090560
	dup	v0.2d, x10
	mov	w0, w8
	str	q0, [x9]
	ret
LBB28_95:
	cmp	w11, w10
	b.ne	LBB28_108
	ldr	q0, [x12]
	mov	w0, wzr
	str	q0, [x9]
	ret
LBB28_97:
	mov	w15, #5
	b	LBB28_25
LBB28_98:
	rev	x14, x13
	mov	x8, #-9007199254740992
	cmp	x8, x14, lsl #1
	b.hs	LBB28_105
	ldr	x14, [x12, #8]
	rev	x14, x14
	cmp	x8, x14, lsl #1
	b.hs	LBB28_105
	ldr	x8, [x12, #16]
	mov	x14, #-9007199254740991
	rev	x8, x8
	cmp	x14, x8, lsl #1
	b.hi	LBB28_105
	ldr	x8, [x12, #24]
	rev	x8, x8
LBB28_102:
	mov	x14, #-9007199254740992
	cmp	x14, x8, lsl #1
	b.hs	LBB28_105
	mov	w8, wzr
	tbz	w10, #0, LBB28_111
	mov	x10, #9221120237041090560
	dup	v0.2d, x10
	mov	w0, w8
	stp	q0, q0, [x9]
	ret
LBB28_105:
	cmp	w11, w10
	b.ne	LBB28_107
	ldp	q0, q1, [x12]
	mov	w0, wzr
	stp	q0, q1, [x9]
	ret
LBB28_107:
	ldur	q0, [x12, #8]
	ldr	x11, [x12, #24]
	rev	x10, x13
	str	x10, [x9]
	mov	w0, wzr
	rev64	v0.16b, v0.16b
	rev	x10, x11
	str	x10, [x9, #24]
	stur	q0, [x9, #8]
	ret
LBB28_108:
	ldr	x10, [x12, #8]
	rev	x11, x13
	mov	w0, wzr
	rev	x10, x10
	stp	x11, x10, [x9]
	ret
LBB28_109:
	mov	w10, #63615
	dup	v0.2d, x10
	mov	w0, w8
	str	q0, [x9]
	str	x10, [x9, #16]
	ret
LBB28_110:
	mov	w10, #63615
	dup	v0.2d, x10
	mov	w0, w8
	str	q0, [x9]
	ret
LBB28_111:
	mov	w10, #63615
	dup	v0.2d, x10
	mov	w0, w8
	stp	q0, q0, [x9]
	ret
Lfunc_end28:
	.cfi_endproc
	.section	__TEXT,__text,regular,pure_instructions
	.p2align	2
_ZN7wkb_raw6erased5wkb_c5write9write_any17h038886a4ea916b63E:
	.cfi_startproc
	sub	sp, sp, #192
	.cfi_def_cfa_offset 192
	str	x30, [sp, #112]
	stp	x26, x25, [sp, #128]
	stp	x24, x23, [sp, #144]
	stp	x22, x21, [sp, #160]
	stp	x20, x19, [sp, #176]
	.cfi_offset w19, -8
	.cfi_offset w20, -16
	.cfi_offset w21, -24
	.cfi_offset w22, -32
	.cfi_offset w23, -40
	.cfi_offset w24, -48
	.cfi_offset w25, -56
	.cfi_offset w26, -64
	.cfi_offset w30, -80
	ldr	w8, [x2]
	mov	x19, x5
	mov	x20, x4
	mov	x21, x1
	mov	x22, x0
	cbz	w8, LBB29_7
	cmp	w8, #1
	b.ne	LBB29_11
	mov	w25, #1
	ldr	w8, [x2, #4]
	mov	w0, #3
	cmp	w8, #1
	b.gt	LBB29_8
LBB29_3:
	cbz	w8, LBB29_12
	cmp	w8, #1
	b.ne	LBB29_22
	mov	x23, x3
	add	x0, sp, #8
	mov	x1, x22
	mov	x2, x21
	mov	x3, x6
	bl	_ZN7wkb_raw6erased5wkb_c5check11check_input17h063429354f07f5e3E
	ldr	w8, [sp, #8]
	cmp	w8, #2
	b.eq	LBB29_16
	ldur	q0, [sp, #8]
	ldur	q1, [sp, #24]
	ldr	x8, [sp, #40]
	stp	q0, q1, [sp, #48]
	ldp	w24, w26, [sp, #48]
	str	x8, [sp, #80]
	add	x8, x21, #4
	cmp	x20, x8
	strb	w25, [sp, #108]
	stp	w24, w26, [sp, #100]
	b.lo	LBB29_18
	b	LBB29_20
LBB29_7:
	mov	w25, wzr
	ldr	w8, [x2, #4]
	mov	w0, #3
	cmp	w8, #1
	b.le	LBB29_3
LBB29_8:
	cmp	w8, #3
	b.eq	LBB29_13
	cmp	w8, #2
	b.ne	LBB29_22
	ldr	w26, [x2, #8]
	mov	x23, x3
	mov	w24, #1
	b	LBB29_15
LBB29_11:
	mov	w0, #3
	b	LBB29_22
LBB29_12:
	mov	x23, x3
	mov	w24, #2
	b	LBB29_14
LBB29_13:
	mov	x23, x3
	mov	w24, wzr
LBB29_14:
LBB29_15:
	add	x0, sp, #8
	mov	x1, x22
	mov	x2, x21
	mov	x3, x6
	bl	_ZN7wkb_raw6erased5wkb_c5check11check_input17h063429354f07f5e3E
	ldr	w8, [sp, #8]
	cmp	w8, #2
	b.ne	LBB29_17
LBB29_16:
	ldr	w0, [sp, #12]
	b	LBB29_22
LBB29_17:
	ldur	q0, [sp, #8]
	ldur	q1, [sp, #24]
	ldr	x8, [sp, #40]
	stp	q0, q1, [sp, #48]
	str	x8, [sp, #80]
	add	x8, x21, #4
	cmp	x20, x8
	strb	w25, [sp, #108]
	stp	w24, w26, [sp, #100]
	b.hs	LBB29_20
LBB29_18:
	add	x2, sp, #48
	mov	x0, x22
	mov	x1, x21
	mov	w3, w24
	bl	_ZN7wkb_raw6erased11wkb_rewrite8encoding12encoded_size17h344095ffe8468ed4E
	cmp	x20, x0
	b.hs	LBB29_20
	mov	x8, x0
	mov	w0, #2
	b	LBB29_21
LBB29_20:
	add	x2, sp, #48
	add	x3, sp, #100
	mov	x0, x22
	mov	x1, x21
	mov	x4, x23
	mov	x5, x20
	bl	_ZN7wkb_raw6erased11wkb_rewrite8encoding12lay_encoding17h07e83c5af2302165E
	mov	x8, x0
	mov	w0, wzr
LBB29_21:
	str	x8, [x19]
LBB29_22:
	ldp	x20, x19, [sp, #176]
	ldr	x30, [sp, #112]
	ldp	x22, x21, [sp, #160]
	ldp	x24, x23, [sp, #144]
	ldp	x26, x25, [sp, #128]
	add	sp, sp, #192
	.cfi_def_cfa_offset 0
	.cfi_restore w19
	.cfi_restore w20
	.cfi_restore w21
	.cfi_restore w22
	.cfi_restore w23
	.cfi_restore w24
	.cfi_restore w25
	.cfi_restore w26
	.cfi_restore w30
	ret
Lfunc_end29:
	.cfi_endproc
	.section	__TEXT,__text,regular,pure_instructions
	.p2align	2
_ZN7wkb_raw6erased5wkb_c6bounds15bounds_or_fault17hf26ecc66f1bd461bE:
	.cfi_startproc
	stp	x29, x30, [sp, #-96]!
	.cfi_def_cfa_offset 96
	stp	x28, x27, [sp, #16]
	stp	x26, x25, [sp, #32]
	stp	x24, x23, [sp, #48]
	stp	x22, x21, [sp, #64]
	stp	x20, x19, [sp, #80]
	mov	x29, sp
	.cfi_def_cfa w29, 96
	.cfi_offset w19, -8
	.cfi_offset w20, -16
	.cfi_offset w21, -24
	.cfi_offset w22, -32
	.cfi_offset w23, -40
	.cfi_offset w24, -48
	.cfi_offset w25, -56
	.cfi_offset w26, -64
	.cfi_offset w27, -72
	.cfi_offset w28, -80
	.cfi_offset w30, -88
	.cfi_offset w29, -96
	.cfi_remember_state
	sub	x9, sp, #96
	and	sp, x9, #0xffffffffffffffe0
	cmp	x1, #5
	b.hs	LBB30_3
	cbz	x1, LBB30_10
	ldrb	w9, [x0]
	b	LBB30_64
LBB30_3:
	ldrb	w9, [x0]
	cmp	w9, #1
	b.eq	LBB30_11
	cbnz	w9, LBB30_64
	ldur	w8, [x0, #1]
	rev	w11, w8
	lsr	w8, w11, #29
	cmp	w8, #0
	cset	w10, ne
	cbz	w8, LBB30_12
LBB30_6:
	mov	w8, #3
	movk	w8, #8192, lsl #16
	cmp	w11, w8
	mov	w8, wzr
	b.le	LBB30_17
	mov	w12, #5
	movk	w12, #8192, lsl #16
	cmp	w11, w12
	b.gt	LBB30_24
	mov	w8, #4
	movk	w8, #8192, lsl #16
	cmp	w11, w8
	b.eq	LBB30_30
	mov	w8, #5
	movk	w8, #8192, lsl #16
	cmp	w11, w8
	b.eq	LBB30_16
	b	LBB30_64
LBB30_10:
	mov	x8, xzr
	mov	x10, xzr
	mov	w11, wzr
	movi	v0.2d, #0000000000000000
	mov	w0, #32
	b	LBB30_239
LBB30_11:
	ldur	w11, [x0, #1]
	lsr	w8, w11, #29
	cmp	w8, #0
	cset	w10, ne
	cbnz	w8, LBB30_6
LBB30_12:
	cmp	w11, #3
	b.le	LBB30_20
	cmp	w11, #5
	b.gt	LBB30_26
	cmp	w11, #4
	b.eq	LBB30_30
	cmp	w11, #5
	b.ne	LBB30_28
LBB30_16:
	mov	w8, wzr
	mov	w12, #4
	b	LBB30_33
LBB30_17:
	mov	w12, #1
	movk	w12, #8192, lsl #16
	cmp	w11, w12
	mov	w12, w8
	b.eq	LBB30_33
	mov	w8, #2
	movk	w8, #8192, lsl #16
	cmp	w11, w8
	b.eq	LBB30_32
	mov	w8, #3
	movk	w8, #8192, lsl #16
	cmp	w11, w8
	b.eq	LBB30_23
	b	LBB30_64
LBB30_20:
	cmp	w11, #1
	mov	w12, w8
	b.eq	LBB30_33
	cmp	w11, #2
	b.eq	LBB30_32
	cmp	w11, #3
	b.ne	LBB30_28
LBB30_23:
	mov	w8, wzr
	mov	w12, #2
	b	LBB30_33
LBB30_24:
	mov	w12, #6
	movk	w12, #8192, lsl #16
	cmp	w11, w12
	b.eq	LBB30_31
	mov	w10, #7
	movk	w10, #8192, lsl #16
	cmp	w11, w10
	b.eq	LBB30_63
	b	LBB30_64
LBB30_26:
	cmp	w11, #6
	b.eq	LBB30_31
	cmp	w11, #7
	b.eq	LBB30_63
LBB30_28:
	sub	w12, w11, #1001
	cmp	w12, #7
	b.hs	LBB30_54
	mov	w8, #1
	b	LBB30_62
LBB30_30:
	mov	w8, wzr
	mov	w12, #3
	b	LBB30_33
LBB30_31:
	mov	w8, wzr
	mov	w12, #5
	b	LBB30_33
LBB30_32:
	mov	w8, wzr
	mov	w12, #1
LBB30_33:
	tst	w11, #0xe0000000
	stp	xzr, xzr, [sp, #16]
	cset	w11, ne
	str	x1, [sp, #32]
	strb	w11, [sp, #65]
	mov	w11, #1
	strb	w9, [sp, #64]
	strb	w12, [sp, #66]
	strb	w8, [sp, #67]
	str	w11, [sp, #72]
	and	w11, w12, #0xff
	cmp	w11, #2
	b.gt	LBB30_80
LBB30_34:
	cbz	w11, LBB30_38
	cmp	w11, #1
	b.ne	LBB30_40
	cmp	w10, #0
	mov	w11, #5
	mov	w12, #9
	csel	x11, x12, x11, ne
	add	x12, x11, #4
	cmp	x1, x12
	b.hs	LBB30_50
	mov	w9, #7
	b	LBB30_52
LBB30_38:
	adrp	x11, Lswitch.table.wkb_raw_write.374@PAGE
	add	x11, x11, Lswitch.table.wkb_raw_write.374@PAGEOFF
	cmp	w10, #0
	and	x8, x8, #0xff
	mov	w9, #5
	mov	w10, #9
	ldr	x8, [x11, x8, lsl #3]
	csel	x9, x10, x9, ne
	add	x8, x8, x9
	cmp	x1, x8
	b.hs	LBB30_49
	mov	w9, #3
	b	LBB30_52
LBB30_40:
	cmp	w10, #0
	mov	w10, #5
	mov	w11, #9
	csel	x10, x11, x10, ne
	add	x11, x10, #4
	cmp	x1, x11
	b.lo	LBB30_114
	add	x12, x0, x10
	tst	w9, #0x1
	ldr	w15, [x12], #4
	rev	w16, w15
	csel	w11, w15, w16, ne
	cbz	w11, LBB30_56
	sub	x10, x1, x10
	sub	x11, x10, #4
	cmp	x10, #8
	tbz	w9, #0, LBB30_58
	b.lo	LBB30_59
	adrp	x9, Lswitch.table.wkb_raw_write.374@PAGE
	add	x9, x9, Lswitch.table.wkb_raw_write.374@PAGEOFF
	mov	x10, xzr
	and	x8, x8, #0xff
	ldr	x9, [x9, x8, lsl #3]
	mov	w8, #1
LBB30_45:
	ldr	w17, [x12]
	mul	x14, x9, x17
	orr	x14, x14, #0x4
	subs	x16, x11, x14
	b.lo	LBB30_202
	cmp	w15, w8
	add	x10, x10, x17
	b.eq	LBB30_57
	and	x11, x13, #0xffffffff00000000
	add	x12, x12, x14
	cmp	x16, #4
	orr	x13, x11, x17
	add	x8, x8, #1
	mov	x11, x16
	b.hs	LBB30_45
	mov	w9, #7
	mov	x11, x16
	b	LBB30_203
LBB30_49:
	mov	w8, #1
	str	x8, [sp, #24]
	b	LBB30_194
LBB30_50:
	ldr	w11, [x0, x11]
	adrp	x12, Lswitch.table.wkb_raw_write.374@PAGE
	add	x12, x12, Lswitch.table.wkb_raw_write.374@PAGEOFF
	and	x8, x8, #0xff
	tst	w9, #0x1
	rev	w9, w11
	ldr	x8, [x12, x8, lsl #3]
	csel	w9, w11, w9, ne
	cmp	w10, #0
	mov	w10, #9
	mov	w11, #13
	csel	x10, x11, x10, ne
	madd	x8, x8, x9, x10
	cmp	x1, x8
	b.hs	LBB30_53
	mov	w9, #4
LBB30_52:
	str	w9, [sp, #40]
	stp	x8, x1, [sp, #48]
	b	LBB30_221
LBB30_53:
	str	x9, [sp, #24]
	b	LBB30_194
LBB30_54:
	sub	w12, w11, #2001
	cmp	w12, #7
	b.hs	LBB30_60
	mov	w8, #2
	b	LBB30_62
LBB30_56:
	mov	x10, xzr
	mov	x11, x1
LBB30_57:
	stp	x10, x11, [sp, #24]
	b	LBB30_194
LBB30_58:
	b.hs	LBB30_195
LBB30_59:
	mov	x10, xzr
	mov	w9, #7
	mov	w8, #1
	b	LBB30_203
LBB30_60:
	sub	w12, w11, #3001
	cmp	w12, #7
	b.hs	LBB30_64
	mov	w8, #3
LBB30_62:
	cmp	w12, #6
	b.lo	LBB30_33
LBB30_63:
	tst	w11, #0xe0000000
	strb	w9, [sp, #64]
	mov	w9, #6
	cset	w10, ne
	strb	w8, [sp, #67]
	mov	w8, #1
	mov	x19, x0
	mov	x21, x2
	mov	x22, x3
	stp	xzr, xzr, [sp, #16]
	mov	x20, x1
	str	x1, [sp, #32]
	strb	w10, [sp, #65]
	strb	w9, [sp, #66]
	str	w8, [sp, #72]
	b	LBB30_160
LBB30_64:
	movi	v0.2d, #0000000000000000
	cbz	w9, LBB30_66
	cmp	w9, #1
	b.ne	LBB30_74
LBB30_66:
	cmp	x1, #5
	b.hs	LBB30_69
	mov	x8, xzr
	mov	x10, xzr
LBB30_68:
	mov	w11, wzr
	mov	w0, #32
	b	LBB30_239
LBB30_69:
	ldur	w8, [x0, #1]
	cmp	w9, #0
	mov	w12, #-1073741824
	rev	w10, w8
	csel	w11, w8, w10, ne
	ubfx	w10, w11, #30, #1
	and	w8, w11, #0x7fffffff
	add	w12, w8, w12
	cmp	w10, #0
	csel	w13, w8, w12, eq
	mov	w12, #-536870912
	lsr	w10, w13, #29
	cmp	w10, #0
	add	w10, w13, w12
	csel	w14, w10, w13, ne
	cset	w10, ne
	cmp	w14, #3999
	b.hi	LBB30_76
	ubfx	w12, w14, #3, #13
	mov	w15, #8389
	mul	w12, w12, w15
	mov	w15, #1000
	lsr	w12, w12, #20
	msub	w12, w12, w15, w14
	sub	w12, w12, #1
	and	w15, w12, #0xffff
	cmp	w15, #7
	b.hs	LBB30_76
	lsr	w15, w8, #30
	tbnz	w11, #31, LBB30_77
	mov	w8, #19923
	movk	w8, #4194, lsl #16
	umull	x8, w14, w8
	lsr	x8, x8, #38
	cbz	w15, LBB30_78
	lsl	w8, w8, #3
	mov	w14, #770
	movk	w14, #770, lsl #16
	lsr	w8, w14, w8
	b	LBB30_78
LBB30_74:
	mov	x8, xzr
	mov	x10, xzr
LBB30_75:
	mov	w11, wzr
	mov	w0, #33
	b	LBB30_239
LBB30_76:
	mov	x8, xzr
	mov	x10, xzr
	mov	w0, #34
	b	LBB30_239
LBB30_77:
	cmp	w14, #2000
	mov	w8, #3
	ccmp	w15, #0, #0, lo
	csinc	w8, w8, wzr, ne
LBB30_78:
	and	w14, w12, #0xffff
	cmp	w14, #6
	b.hs	LBB30_159
	tst	w13, #0xe0000000
	stp	xzr, xzr, [sp, #16]
	cset	w13, ne
	str	x1, [sp, #32]
	strb	w13, [sp, #65]
	mov	w13, #1
	strb	w9, [sp, #64]
	strb	w12, [sp, #66]
	strb	w8, [sp, #67]
	stp	w13, w11, [sp, #72]
	and	w11, w12, #0xff
	cmp	w11, #2
	b.le	LBB30_34
LBB30_80:
	cmp	w11, #3
	b.eq	LBB30_111
	cmp	w11, #4
	b.ne	LBB30_113
	cmp	w10, #0
	mov	w10, #5
	mov	w11, #9
	csel	x12, x11, x10, ne
	add	x10, x12, #4
	cmp	x1, x10
	b.lo	LBB30_114
	add	x11, x0, x12
	tst	w9, #0x1
	ldr	w10, [x11]
	rev	w13, w10
	csel	w13, w10, w13, ne
	cbz	w13, LBB30_185
	sub	x9, x1, x12
	and	w12, w8, #0xff
	mov	w14, #1000
	mul	w15, w12, w14
	mov	w17, w8
	mov	w21, #35128
	mov	x10, xzr
	add	x16, x11, #4
	mov	w11, #1
	mov	w5, #-1073741824
	mov	w6, #-536870912
	sub	x12, x9, #4
	and	x19, x17, #0xff
	orr	w20, w15, #0x2
	movk	w21, #65, lsl #16
	mov	w23, #5
	mov	w24, #9
	mov	w25, #13
	adrp	x26, Lswitch.table.wkb_raw_write.374@PAGE
	add	x26, x26, Lswitch.table.wkb_raw_write.374@PAGEOFF
LBB30_85:
	cmp	x12, #5
	b.hs	LBB30_88
	cbz	x12, LBB30_201
	ldrb	w9, [x16]
	b	LBB30_94
LBB30_88:
	ldrb	w9, [x16]
	cmp	w9, #1
	b.eq	LBB30_91
	cbnz	w9, LBB30_94
	ldur	w15, [x16, #1]
	mov	w27, wzr
	rev	w15, w15
	b	LBB30_92
LBB30_91:
	ldur	w15, [x16, #1]
	mov	w27, #1
LBB30_92:
	cmp	w15, w20
	b.ne	LBB30_94
	mov	w9, #9
	mov	w15, #5
	b	LBB30_108
LBB30_94:
	cbz	w9, LBB30_97
	cmp	w9, #1
	b.ne	LBB30_212
	mov	w27, #1
	b	LBB30_98
LBB30_97:
	mov	w27, wzr
LBB30_98:
	cmp	x12, #5
	b.lo	LBB30_201
	ldur	w9, [x16, #1]
	cmp	w27, #0
	rev	w15, w9
	csel	w28, w9, w15, ne
	ubfx	w9, w28, #30, #1
	and	w15, w28, #0x7fffffff
	add	w22, w15, w5
	cmp	w9, #0
	csel	w9, w15, w22, eq
	lsr	w30, w9, #29
	add	w22, w9, w6
	cmp	w30, #0
	csel	w22, w22, w9, ne
	cmp	w22, #3999
	b.hi	LBB30_200
	umull	x9, w22, w21
	lsr	x9, x9, #32
	msub	w9, w9, w14, w22
	sub	w7, w9, #1
	cmp	w7, #6
	b.hi	LBB30_200
	tbnz	w28, #31, LBB30_104
	mov	w7, #19923
	movk	w7, #4194, lsl #16
	umull	x7, w22, w7
	lsr	w22, w15, #30
	lsr	x15, x7, #38
	cbz	w22, LBB30_105
	lsl	w15, w15, #3
	mov	w7, #770
	movk	w7, #770, lsl #16
	lsr	w15, w7, w15
	b	LBB30_105
LBB30_104:
	lsr	w15, w15, #30
	cmp	w22, #2000
	ccmp	w15, #0, #0, lo
	mov	w15, #3
	csinc	w15, w15, wzr, ne
LBB30_105:
	cmp	w9, #2
	mov	w9, #9
	b.ne	LBB30_213
	and	w15, w15, #0xff
	cmp	w15, w8, uxtb
	b.ne	LBB30_214
	cmp	w30, #0
	csel	x15, x24, x23, ne
	csel	x9, x25, x24, ne
LBB30_108:
	add	x7, x15, #4
	cmp	x12, x7
	b.lo	LBB30_205
	ldr	w15, [x16, x15]
	cmp	w27, #0
	ldr	x7, [x26, x19, lsl #3]
	rev	w17, w15
	csel	w15, w15, w17, ne
	madd	x17, x7, x15, x9
	subs	x9, x12, x17
	b.lo	LBB30_206
	and	x4, x4, #0xffffffff00000000
	add	x10, x10, x15
	add	x16, x16, x17
	subs	w13, w13, #1
	orr	x4, x4, x15
	add	x11, x11, #1
	mov	x15, x12
	mov	x12, x9
	b.ne	LBB30_85
	b	LBB30_186
LBB30_111:
	cmp	w10, #0
	mov	w11, #5
	mov	w12, #9
	csel	x11, x12, x11, ne
	add	x12, x11, #4
	cmp	x1, x12
	b.hs	LBB30_115
	mov	w9, #7
	b	LBB30_117
LBB30_113:
	cmp	w10, #0
	mov	w10, #5
	mov	w11, #9
	csel	x11, x11, x10, ne
	add	x10, x11, #4
	cmp	x1, x10
	b.hs	LBB30_118
LBB30_114:
	mov	w9, #7
	str	w9, [sp, #40]
	b	LBB30_221
LBB30_115:
	add	x16, x0, x11
	mov	w14, w8
	adrp	x13, Lswitch.table.wkb_raw_write.371@PAGE
	add	x13, x13, Lswitch.table.wkb_raw_write.371@PAGEOFF
	ldr	w12, [x16], #4
	tst	w9, #0x1
	and	x9, x14, #0xff
	rev	w14, w12
	ldr	x9, [x13, x9, lsl #3]
	csel	w12, w12, w14, ne
	cmp	w10, #0
	mov	w10, #9
	mov	w14, #13
	csel	x10, x14, x10, ne
	madd	x10, x9, x12, x10
	cmp	x1, x10
	b.hs	LBB30_162
	mov	w9, #6
LBB30_117:
	str	w9, [sp, #40]
	stp	x10, x1, [sp, #48]
	b	LBB30_221
LBB30_118:
	add	x12, x0, x11
	tst	w9, #0x1
	ldr	w10, [x12]
	rev	w13, w10
	csel	w14, w10, w13, ne
	cbz	w14, LBB30_194
	and	w9, w8, #0xff
	mov	w16, #1000
	sub	x13, x1, x11
	mul	w9, w9, w16
	add	x11, x12, #4
	mov	w12, w8
	mov	w20, #35128
	mov	w15, wzr
	mov	x23, xzr
	mov	x10, xzr
	mov	w17, #-1073741824
	mov	w5, #-536870912
	sub	x27, x13, #4
	and	x7, x12, #0xff
	orr	w19, w9, #0x3
	movk	w20, #65, lsl #16
	mov	w24, #9
LBB30_120:
	add	x28, x23, #1
	cmp	x27, #5
	str	x27, [sp, #32]
	str	x28, [sp, #16]
	b.hs	LBB30_123
	cbz	x27, LBB30_210
	ldrb	w9, [x11]
	b	LBB30_129
LBB30_123:
	ldrb	w9, [x11]
	cmp	w9, #1
	b.eq	LBB30_126
	cbnz	w9, LBB30_129
	ldur	w6, [x11, #1]
	mov	w30, wzr
	rev	w6, w6
	b	LBB30_127
LBB30_126:
	ldur	w6, [x11, #1]
	mov	w30, #1
LBB30_127:
	cmp	w6, w19
	b.ne	LBB30_129
	mov	w9, #5
	b	LBB30_143
LBB30_129:
	cbz	w9, LBB30_132
	cmp	w9, #1
	b.ne	LBB30_242
	mov	w30, #1
	b	LBB30_133
LBB30_132:
	mov	w30, wzr
LBB30_133:
	cmp	x27, #5
	b.lo	LBB30_210
	ldur	w9, [x11, #1]
	cmp	w30, #0
	rev	w6, w9
	csel	w25, w9, w6, ne
	ubfx	w9, w25, #30, #1
	and	w6, w25, #0x7fffffff
	add	w21, w6, w17
	cmp	w9, #0
	csel	w9, w6, w21, eq
	lsr	w21, w9, #29
	add	w26, w9, w5
	cmp	w21, #0
	csel	w26, w26, w9, ne
	cmp	w26, #3999
	b.hi	LBB30_209
	umull	x9, w26, w20
	lsr	x9, x9, #32
	msub	w9, w9, w16, w26
	sub	w22, w9, #1
	cmp	w22, #6
	b.hi	LBB30_209
	tbnz	w25, #31, LBB30_139
	mov	w22, #19923
	lsr	w25, w6, #30
	movk	w22, #4194, lsl #16
	umull	x22, w26, w22
	lsr	x6, x22, #38
	cbz	w25, LBB30_140
	lsl	w6, w6, #3
	mov	w22, #770
	movk	w22, #770, lsl #16
	lsr	w6, w22, w6
	b	LBB30_140
LBB30_139:
	lsr	w6, w6, #30
	cmp	w26, #2000
	ccmp	w6, #0, #0, lo
	mov	w6, #3
	csinc	w6, w6, wzr, ne
LBB30_140:
	cmp	w9, #3
	mov	w9, #9
	b.ne	LBB30_243
	and	w6, w6, #0xff
	cmp	w6, w8, uxtb
	b.ne	LBB30_191
	cmp	w21, #0
	mov	w9, #5
	csel	x9, x24, x9, ne
LBB30_143:
	add	x6, x9, #4
	cmp	x27, x6
	b.lo	LBB30_216
	add	x11, x11, x9
	cmp	w30, #0
	sub	x9, x27, x9
	ldr	w6, [x11], #4
	sub	x12, x9, #4
	rev	w21, w6
	csel	w22, w6, w21, ne
	cbz	w22, LBB30_151
	add	x27, x23, #2
	cmp	x9, #8
	cbz	w30, LBB30_152
	b.lt	LBB30_241
	adrp	x4, Lswitch.table.wkb_raw_write.374@PAGE
	add	x4, x4, Lswitch.table.wkb_raw_write.374@PAGEOFF
	sub	w9, w6, #1
	ldr	x21, [x4, x7, lsl #3]
	add	x23, x27, x9
LBB30_148:
	ldr	w6, [x11]
	mul	x4, x21, x6
	orr	x4, x4, #0x4
	subs	x25, x12, x4
	b.lo	LBB30_187
	and	x13, x13, #0xffffffff00000000
	add	x10, x10, x6
	add	x11, x11, x4
	orr	x13, x13, x6
	cbz	w9, LBB30_157
	cmp	x25, #4
	add	x27, x27, #1
	sub	w9, w9, #1
	mov	x12, x25
	b.hs	LBB30_148
	b	LBB30_188
LBB30_151:
	mov	x23, x28
	b	LBB30_158
LBB30_152:
	b.lt	LBB30_241
	adrp	x4, Lswitch.table.wkb_raw_write.374@PAGE
	add	x4, x4, Lswitch.table.wkb_raw_write.374@PAGEOFF
	sub	w9, w21, #1
	ldr	x21, [x4, x7, lsl #3]
	add	x23, x27, x9
LBB30_154:
	ldr	w4, [x11]
	rev	w6, w4
	mul	x4, x21, x6
	orr	x4, x4, #0x4
	subs	x25, x12, x4
	b.lo	LBB30_187
	and	x13, x13, #0xffffffff00000000
	add	x10, x10, x6
	add	x11, x11, x4
	orr	x13, x13, x6
	cbz	w9, LBB30_157
	cmp	x25, #4
	add	x27, x27, #1
	sub	w9, w9, #1
	mov	x12, x25
	b.hs	LBB30_154
	b	LBB30_188
LBB30_157:
	mov	x27, x12
	mov	x12, x25
LBB30_158:
	add	w15, w15, #1
	str	x27, [sp, #32]
	mov	x27, x12
	cmp	w15, w14
	stp	x23, x10, [sp, #16]
	b.ne	LBB30_120
	b	LBB30_194
LBB30_159:
	tst	w13, #0xe0000000
	mov	x19, x0
	mov	x21, x2
	mov	x22, x3
	mov	x20, x1
	cset	w10, ne
	strb	w9, [sp, #64]
	mov	w9, #6
	strb	w8, [sp, #67]
	mov	w8, #1
	stp	xzr, xzr, [sp, #16]
	str	x1, [sp, #32]
	strb	w10, [sp, #65]
	strb	w9, [sp, #66]
	stp	w8, w11, [sp, #72]
LBB30_160:
	add	x0, sp, #40
	add	x2, sp, #64
	add	x5, sp, #16
	mov	x1, xzr
	mov	x3, x19
	mov	x4, x20
	bl	_ZN7wkb_raw6erased9wkb_check6nested15skip_collection17h3e96ec52d62a4ff3E
	ldr	w9, [sp, #40]
	mov	x1, x20
	mov	x3, x22
	cmp	w9, #11
	b.ne	LBB30_221
	mov	x2, x21
	mov	x0, x19
	b	LBB30_194
LBB30_162:
	cbz	w12, LBB30_192
	and	w9, w8, #0xff
	mov	w14, #1000
	mov	w15, #770
	mul	w6, w9, w14
	sub	x9, x1, x11
	mov	w11, w8
	mov	w7, #19923
	mov	w19, #35128
	mov	x10, xzr
	movk	w15, #770, lsl #16
	mov	w17, #-1073741824
	mov	w4, #-536870912
	sub	x9, x9, #4
	and	x5, x11, #0xff
	orr	w6, w6, #0x1
	movk	w7, #4194, lsl #16
	movk	w19, #65, lsl #16
	mov	w20, #3
LBB30_164:
	mov	x11, x9
	cmp	x9, #5
	b.hs	LBB30_167
	cbz	x11, LBB30_208
	ldrb	w9, [x16]
	b	LBB30_172
LBB30_167:
	ldrb	w9, [x16]
	cmp	w9, #1
	b.eq	LBB30_170
	cbnz	w9, LBB30_172
	ldur	w21, [x16, #1]
	rev	w21, w21
	b	LBB30_171
LBB30_170:
	ldur	w21, [x16, #1]
LBB30_171:
	cmp	w21, w6
	b.eq	LBB30_183
LBB30_172:
	cbz	w9, LBB30_174
	cmp	w9, #1
	b.ne	LBB30_217
LBB30_174:
	cmp	x11, #5
	b.lo	LBB30_208
	ldur	w21, [x16, #1]
	cmp	w9, #0
	rev	w22, w21
	csel	w21, w21, w22, ne
	ubfx	w22, w21, #30, #1
	and	w9, w21, #0x7fffffff
	add	w23, w9, w17
	cmp	w22, #0
	csel	w23, w9, w23, eq
	lsr	w22, w23, #29
	add	w24, w23, w4
	cmp	w22, #0
	csel	w24, w24, w23, ne
	cmp	w24, #3999
	b.hi	LBB30_204
	umull	x23, w24, w19
	lsr	x23, x23, #32
	msub	w23, w23, w14, w24
	sub	w25, w23, #1
	cmp	w25, #6
	b.hi	LBB30_204
	tbnz	w21, #31, LBB30_180
	umull	x21, w24, w7
	lsr	w24, w9, #30
	lsr	x9, x21, #38
	cbz	w24, LBB30_181
	lsl	w9, w9, #3
	lsr	w9, w15, w9
	b	LBB30_181
LBB30_180:
	lsr	w9, w9, #30
	cmp	w24, #2000
	ccmp	w9, #0, #0, lo
	csinc	w9, w20, wzr, ne
LBB30_181:
	and	w9, w9, #0xff
	cmp	w9, w8, uxtb
	mov	w9, #9
	b.ne	LBB30_218
	cmp	w23, #1
	ccmp	w22, #0, #0, eq
	b.ne	LBB30_219
LBB30_183:
	ldr	x22, [x13, x5, lsl #3]
	subs	x9, x11, x22
	b.lo	LBB30_211
	add	x10, x10, #1
	add	x16, x16, x22
	cmp	w12, w10
	b.ne	LBB30_164
	b	LBB30_193
LBB30_185:
	mov	x10, xzr
	mov	x15, x1
LBB30_186:
	stp	x10, x15, [sp, #24]
	b	LBB30_194
LBB30_187:
	mov	w9, #5
	mov	x13, x4
	mov	x4, x12
	b	LBB30_189
LBB30_188:
	mov	w9, #7
	mov	x12, x25
LBB30_189:
	str	x12, [sp, #32]
	mov	x12, x4
	mov	x11, x13
	stp	x27, x10, [sp, #16]
LBB30_190:
LBB30_191:
	stp	w9, w25, [sp, #40]
	stp	x11, x12, [sp, #48]
	b	LBB30_221
LBB30_192:
	mov	x12, xzr
	mov	x11, x1
LBB30_193:
	stp	x12, x11, [sp, #24]
LBB30_194:
	bl	_ZN7wkb_raw6erased10wkb_bounds4scan17front_bounds_into17hf7a37f4f4fd991b8E
	mov	w0, wzr
	b	LBB30_240
LBB30_195:
	adrp	x9, Lswitch.table.wkb_raw_write.374@PAGE
	add	x9, x9, Lswitch.table.wkb_raw_write.374@PAGEOFF
	mov	x10, xzr
	and	x8, x8, #0xff
	ldr	x9, [x9, x8, lsl #3]
	mov	w8, #1
LBB30_196:
	ldr	w14, [x12]
	rev	w17, w14
	mul	x14, x9, x17
	orr	x14, x14, #0x4
	subs	x15, x11, x14
	b.lo	LBB30_202
	cmp	w16, w8
	add	x10, x10, x17
	b.eq	LBB30_57
	and	x11, x13, #0xffffffff00000000
	add	x12, x12, x14
	cmp	x15, #4
	orr	x13, x11, x17
	add	x8, x8, #1
	mov	x11, x15
	b.hs	LBB30_196
	mov	w9, #7
	mov	x11, x15
	b	LBB30_203
LBB30_200:
	mov	w9, #1
	b	LBB30_214
LBB30_201:
	mov	w9, #7
	b	LBB30_213
LBB30_202:
	mov	w9, #5
	mov	x13, x14
	mov	x14, x11
LBB30_203:
	stp	x10, x11, [sp, #24]
	str	x8, [sp, #16]
	str	w9, [sp, #40]
	stp	x13, x14, [sp, #48]
	b	LBB30_221
LBB30_204:
	mov	w9, #1
	b	LBB30_219
LBB30_205:
	mov	w9, #7
	b	LBB30_207
LBB30_206:
	mov	w9, #4
	mov	x4, x17
	mov	x17, x12
LBB30_207:
	str	x11, [sp, #16]
	b	LBB30_215
LBB30_208:
	mov	w9, #7
	b	LBB30_218
LBB30_209:
	mov	w9, #1
	b	LBB30_191
LBB30_210:
	mov	w9, #7
	b	LBB30_190
LBB30_211:
	add	x8, x10, #1
	str	x11, [sp, #32]
	mov	w9, #3
	str	x8, [sp, #16]
	b	LBB30_220
LBB30_212:
	mov	w9, #2
LBB30_213:
LBB30_214:
	str	x11, [sp, #16]
LBB30_215:
	stp	x10, x12, [sp, #24]
	stp	w9, w28, [sp, #40]
	stp	x4, x17, [sp, #48]
	b	LBB30_221
LBB30_216:
	mov	w9, #7
	b	LBB30_190
LBB30_217:
	mov	w9, #2
LBB30_218:
LBB30_219:
	add	x8, x10, #1
	str	x11, [sp, #32]
	str	x8, [sp, #16]
LBB30_220:
	str	x10, [sp, #24]
	stp	w9, w21, [sp, #40]
	stp	x22, x11, [sp, #48]
LBB30_221:
	movi	v0.2d, #0000000000000000
	ldr	x8, [sp, #32]
	ldr	x10, [sp, #16]
	cmp	w9, #6
	sub	x8, x1, x8
	b.hi	LBB30_227
	ldur	q1, [sp, #48]
	cmp	w9, #3
	b.gt	LBB30_230
	cbz	w9, LBB30_229
	cmp	w9, #1
	b.eq	LBB30_236
	cmp	w9, #3
	b.ne	LBB30_75
	mov	w11, wzr
	mov	w0, #48
	b	LBB30_238
LBB30_227:
	cmp	w9, #7
	b.eq	LBB30_68
	cmp	w9, #9
	b.ne	LBB30_234
LBB30_229:
	mov	w11, wzr
	mov	w0, #35
	b	LBB30_239
LBB30_230:
	cmp	w9, #4
	b.eq	LBB30_235
	cmp	w9, #5
	b.eq	LBB30_237
	cmp	w9, #6
	b.ne	LBB30_75
	mov	w11, wzr
	mov	w0, #50
	b	LBB30_238
LBB30_234:
	mov	w11, wzr
	mov	w0, #36
	b	LBB30_239
LBB30_235:
	mov	w11, wzr
	mov	w0, #49
	b	LBB30_238
LBB30_236:
	ldr	w11, [sp, #44]
	mov	w0, #34
	b	LBB30_239
LBB30_237:
	mov	w11, wzr
	mov	w0, #51
LBB30_238:
	mov	v0.16b, v1.16b
LBB30_239:
	stp	x10, x8, [x3]
	str	q0, [x3, #16]
	stp	w11, w0, [x3, #32]
LBB30_240:
	mov	sp, x29
	.cfi_def_cfa wsp, 96
	ldp	x20, x19, [sp, #80]
	ldp	x22, x21, [sp, #64]
	ldp	x24, x23, [sp, #48]
	ldp	x26, x25, [sp, #32]
	ldp	x28, x27, [sp, #16]
	ldp	x29, x30, [sp], #96
	.cfi_def_cfa_offset 0
	.cfi_restore w19
	.cfi_restore w20
	.cfi_restore w21
	.cfi_restore w22
	.cfi_restore w23
	.cfi_restore w24
	.cfi_restore w25
	.cfi_restore w26
	.cfi_restore w27
	.cfi_restore w28
	.cfi_restore w30
	.cfi_restore w29
	ret
LBB30_241:
	.cfi_restore_state
	mov	w9, #7
	b	LBB30_189
LBB30_242:
	mov	w9, #2
LBB30_243:
	b	LBB30_190
Lfunc_end30:
	.cfi_endproc
	.section	__TEXT,__text,regular,pure_instructions
	.p2align	2
_ZN7wkb_raw6erased5wkb_c7collect11write_found17h7f96bd3b1c4fc4a9E:
	.cfi_startproc
	sub	sp, sp, #80
	.cfi_def_cfa_offset 80
	str	x30, [sp, #16]
	stp	x24, x23, [sp, #32]
	stp	x22, x21, [sp, #48]
	stp	x20, x19, [sp, #64]
	.cfi_offset w19, -8
	.cfi_offset w20, -16
	.cfi_offset w21, -24
	.cfi_offset w22, -32
	.cfi_offset w23, -40
	.cfi_offset w24, -48
	.cfi_offset w30, -64
	.cfi_remember_state
	ldr	w10, [x4, #12]
	mov	x20, x3
	mov	x19, x0
	cmp	w10, #6
	b.ls	LBB31_5
LBB31_1:
	ldr	w8, [x4]
	ldrb	w9, [x4, #8]
	add	x10, x2, #4
	cmp	w8, #2
	strb	w9, [sp, #12]
	csel	w3, w8, wzr, eq
	cmp	x6, x10
	str	w3, [sp, #4]
	b.hs	LBB31_3
	mov	x0, x1
	mov	x21, x1
	mov	x1, x2
	mov	x22, x2
	mov	x2, x20
	mov	x23, x6
	mov	x24, x5
	bl	_ZN7wkb_raw6erased11wkb_rewrite8encoding12encoded_size17h344095ffe8468ed4E
	mov	x1, x21
	mov	x2, x22
	mov	x5, x24
	mov	x6, x23
	cmp	x23, x0
	b.lo	LBB31_4
LBB31_3:
	add	x3, sp, #4
	mov	x0, x1
	mov	x1, x2
	mov	x2, x20
	mov	x4, x5
	mov	x5, x6
	bl	_ZN7wkb_raw6erased11wkb_rewrite8encoding12lay_encoding17h07e83c5af2302165E
LBB31_4:
	mov	w8, wzr
	str	x0, [x19, #8]
	b	LBB31_7
LBB31_5:
	ldrb	w11, [x20, #32]
	cmp	w11, #2
	b.le	LBB31_8
LBB31_6:
	movi	v0.2d, #0000000000000000
	mov	x8, #150323855360
	str	x8, [x7, #32]
	mov	w8, #35
	str	w8, [x19, #4]
	mov	w8, #1
	stp	q0, q0, [x7]
LBB31_7:
	str	w8, [x19]
	ldp	x20, x19, [sp, #64]
	ldp	x22, x21, [sp, #48]
	ldr	x30, [sp, #16]
	ldp	x24, x23, [sp, #32]
	add	sp, sp, #80
	.cfi_def_cfa_offset 0
	.cfi_restore w19
	.cfi_restore w20
	.cfi_restore w21
	.cfi_restore w22
	.cfi_restore w23
	.cfi_restore w24
	.cfi_restore w30
	ret
LBB31_8:
	.cfi_restore_state
	ldrb	w8, [x20, #33]
	ldrb	w9, [x4, #16]
	cbz	w11, LBB31_11
	cmp	w11, #1
	b.ne	LBB31_12
	cmp	w10, #5
	b.eq	LBB31_13
	b	LBB31_6
LBB31_11:
	cmp	w10, #4
	b.eq	LBB31_13
	b	LBB31_6
LBB31_12:
	cmp	w10, #6
	b.ne	LBB31_6
LBB31_13:
	cmp	w8, w9
	b.eq	LBB31_1
	b	LBB31_6
Lfunc_end31:
	.cfi_endproc
	.section	__TEXT,__text,regular,pure_instructions
	.p2align	2
_ZN7wkb_raw6erased5wkb_c7collect12plain_member17h6d780dd3067d5ff1E:
	.cfi_startproc
	stp	x29, x30, [sp, #-96]!
	.cfi_def_cfa_offset 96
	stp	x28, x27, [sp, #16]
	stp	x26, x25, [sp, #32]
	stp	x24, x23, [sp, #48]
	stp	x22, x21, [sp, #64]
	stp	x20, x19, [sp, #80]
	.cfi_offset w19, -8
	.cfi_offset w20, -16
	.cfi_offset w21, -24
	.cfi_offset w22, -32
	.cfi_offset w23, -40
	.cfi_offset w24, -48
	.cfi_offset w25, -56
	.cfi_offset w26, -64
	.cfi_offset w27, -72
	.cfi_offset w28, -80
	.cfi_offset w30, -88
	.cfi_offset w29, -96
	.cfi_remember_state
	cmp	x2, #5
	b.hs	LBB32_3
	cbz	x2, LBB32_271
	ldrb	w11, [x1]
	b	LBB32_116
LBB32_3:
	ldrb	w11, [x1]
	cmp	w11, #1
	b.eq	LBB32_39
	cbnz	w11, LBB32_116
	ldur	w9, [x1, #1]
	mov	w8, wzr
	rev	w10, w9
	lsr	w9, w10, #29
	cbz	w9, LBB32_40
LBB32_6:
	mov	w9, #3
	movk	w9, #8192, lsl #16
	cmp	w10, w9
	mov	w9, wzr
	b.le	LBB32_74
	mov	w12, #5
	movk	w12, #8192, lsl #16
	cmp	w10, w12
	b.gt	LBB32_94
	mov	w12, #4
	movk	w12, #8192, lsl #16
	cmp	w10, w12
	b.eq	LBB32_180
	mov	w12, #5
	movk	w12, #8192, lsl #16
	cmp	w10, w12
	b.ne	LBB32_116
LBB32_10:
	subs	x10, x2, #13
	b.lo	LBB32_271
	ldur	w11, [x1, #9]
	cmp	w8, #0
	rev	w12, w11
	csel	w12, w11, w12, ne
	cbz	w12, LBB32_217
	and	w16, w9, #0xff
	mov	w15, #1000
	mov	w13, #770
	mul	w19, w16, w15
	mov	w5, w9
	mov	w3, #19923
	mov	w4, #35128
	mov	x11, xzr
	movk	w13, #770, lsl #16
	add	x14, x1, #13
	mov	w16, #-1073741824
	mov	w17, #-536870912
	movk	w3, #4194, lsl #16
	movk	w4, #65, lsl #16
	and	x5, x5, #0xff
	mov	w6, #3
	mov	w7, #5
	orr	w19, w19, #0x2
	mov	w20, #9
	mov	w21, #13
	adrp	x22, Lswitch.table.wkb_raw_write.374@PAGE
	add	x22, x22, Lswitch.table.wkb_raw_write.374@PAGEOFF
	mov	x23, x12
LBB32_13:
	cmp	x10, #5
	b.hs	LBB32_16
	cbz	x10, LBB32_271
	ldrb	w25, [x14]
	b	LBB32_22
LBB32_16:
	ldrb	w25, [x14]
	cmp	w25, #1
	b.eq	LBB32_19
	cbnz	w25, LBB32_22
	ldur	w26, [x14, #1]
	mov	w24, wzr
	rev	w26, w26
	b	LBB32_20
LBB32_19:
	ldur	w26, [x14, #1]
	mov	w24, #1
LBB32_20:
	cmp	w26, w19
	b.ne	LBB32_22
	mov	w25, #9
	mov	w26, #5
	b	LBB32_36
LBB32_22:
	cbz	w25, LBB32_25
	cmp	w25, #1
	b.ne	LBB32_271
	mov	w24, #1
	b	LBB32_26
LBB32_25:
	mov	w24, wzr
LBB32_26:
	cmp	x10, #5
	b.lo	LBB32_271
	ldur	w25, [x14, #1]
	cmp	w24, #0
	rev	w26, w25
	csel	w28, w25, w26, ne
	ubfx	w25, w28, #30, #1
	and	w27, w28, #0x7fffffff
	add	w26, w27, w16
	cmp	w25, #0
	csel	w26, w27, w26, eq
	lsr	w25, w26, #29
	add	w29, w26, w17
	cmp	w25, #0
	csel	w29, w29, w26, ne
	cmp	w29, #3999
	b.hi	LBB32_271
	umull	x26, w29, w4
	lsr	x26, x26, #32
	msub	w26, w26, w15, w29
	sub	w30, w26, #1
	cmp	w30, #6
	b.hi	LBB32_271
	tbnz	w28, #31, LBB32_32
	umull	x28, w29, w3
	lsr	w29, w27, #30
	lsr	x27, x28, #38
	cbz	w29, LBB32_33
	lsl	w27, w27, #3
	lsr	w27, w13, w27
	b	LBB32_33
LBB32_32:
	lsr	w27, w27, #30
	cmp	w29, #2000
	ccmp	w27, #0, #0, lo
	csinc	w27, w6, wzr, ne
LBB32_33:
	cmp	w26, #2
	b.ne	LBB32_271
	and	w26, w27, #0xff
	cmp	w26, w9, uxtb
	b.ne	LBB32_271
	cmp	w25, #0
	csel	x26, x20, x7, ne
	csel	x25, x21, x20, ne
LBB32_36:
	add	x27, x26, #4
	cmp	x10, x27
	b.lo	LBB32_271
	ldr	w26, [x14, x26]
	cmp	w24, #0
	ldr	x28, [x22, x5, lsl #3]
	rev	w27, w26
	csel	w24, w26, w27, ne
	madd	x25, x28, x24, x25
	subs	x10, x10, x25
	b.lo	LBB32_271
	subs	x23, x23, #1
	add	x11, x11, x24
	add	x14, x14, x25
	mov	w24, #4
	b.ne	LBB32_13
	b	LBB32_226
LBB32_39:
	ldur	w10, [x1, #1]
	mov	w8, #1
	lsr	w9, w10, #29
	cbnz	w9, LBB32_6
LBB32_40:
	cmp	w10, #3
	b.le	LBB32_84
	cmp	w10, #5
	b.gt	LBB32_96
	cmp	w10, #4
	b.eq	LBB32_269
	cmp	w10, #5
	b.ne	LBB32_98
LBB32_44:
	subs	x10, x2, #9
	b.lo	LBB32_271
	ldur	w11, [x1, #5]
	cmp	w8, #0
	rev	w12, w11
	csel	w12, w11, w12, ne
	cbz	w12, LBB32_215
	and	w16, w9, #0xff
	mov	w15, #1000
	mov	w13, #770
	mul	w7, w16, w15
	add	x14, x1, #9
	mov	w4, w9
	mov	w1, #19923
	mov	w3, #35128
	mov	x11, xzr
	movk	w13, #770, lsl #16
	mov	w16, #-1073741824
	mov	w17, #-536870912
	movk	w1, #4194, lsl #16
	movk	w3, #65, lsl #16
	and	x4, x4, #0xff
	mov	w5, #3
	mov	w6, #5
	orr	w7, w7, #0x2
	mov	w19, #9
	mov	w20, #13
	adrp	x21, Lswitch.table.wkb_raw_write.374@PAGE
	add	x21, x21, Lswitch.table.wkb_raw_write.374@PAGEOFF
	mov	x22, x12
LBB32_47:
	cmp	x10, #5
	b.hs	LBB32_50
	cbz	x10, LBB32_271
	ldrb	w24, [x14]
	b	LBB32_56
LBB32_50:
	ldrb	w24, [x14]
	cmp	w24, #1
	b.eq	LBB32_53
	cbnz	w24, LBB32_56
	ldur	w25, [x14, #1]
	mov	w23, wzr
	rev	w25, w25
	b	LBB32_54
LBB32_53:
	ldur	w25, [x14, #1]
	mov	w23, #1
LBB32_54:
	cmp	w25, w7
	b.ne	LBB32_56
	mov	w24, #9
	mov	w25, #5
	b	LBB32_70
LBB32_56:
	cbz	w24, LBB32_59
	cmp	w24, #1
	b.ne	LBB32_271
	mov	w23, #1
	b	LBB32_60
LBB32_59:
	mov	w23, wzr
LBB32_60:
	cmp	x10, #5
	b.lo	LBB32_271
	ldur	w24, [x14, #1]
	cmp	w23, #0
	rev	w25, w24
	csel	w26, w24, w25, ne
	ubfx	w24, w26, #30, #1
	and	w27, w26, #0x7fffffff
	add	w25, w27, w16
	cmp	w24, #0
	csel	w25, w27, w25, eq
	lsr	w24, w25, #29
	add	w28, w25, w17
	cmp	w24, #0
	csel	w28, w28, w25, ne
	cmp	w28, #3999
	b.hi	LBB32_271
	umull	x25, w28, w3
	lsr	x25, x25, #32
	msub	w25, w25, w15, w28
	sub	w29, w25, #1
	cmp	w29, #6
	b.hi	LBB32_271
	lsr	w27, w27, #30
	tbnz	w26, #31, LBB32_66
	umull	x26, w28, w1
	lsr	x26, x26, #38
	cbz	w27, LBB32_67
	lsl	w26, w26, #3
	lsr	w26, w13, w26
	b	LBB32_67
LBB32_66:
	cmp	w28, #2000
	ccmp	w27, #0, #0, lo
	csinc	w26, w5, wzr, ne
LBB32_67:
	cmp	w25, #2
	b.ne	LBB32_271
	and	w25, w26, #0xff
	cmp	w25, w9, uxtb
	b.ne	LBB32_271
	cmp	w24, #0
	csel	x25, x19, x6, ne
	csel	x24, x20, x19, ne
LBB32_70:
	add	x26, x25, #4
	cmp	x10, x26
	b.lo	LBB32_271
	ldr	w25, [x14, x25]
	cmp	w23, #0
	ldr	x27, [x21, x4, lsl #3]
	rev	w26, w25
	csel	w23, w25, w26, ne
	madd	x24, x27, x23, x24
	subs	x10, x10, x24
	b.lo	LBB32_271
	subs	x22, x22, #1
	add	x11, x11, x23
	add	x14, x14, x24
	mov	w24, #4
	b.ne	LBB32_47
LBB32_73:
	mov	w13, wzr
	b	LBB32_299
LBB32_74:
	mov	w12, #1
	movk	w12, #8192, lsl #16
	cmp	w10, w12
	b.eq	LBB32_224
	mov	w12, #2
	movk	w12, #8192, lsl #16
	cmp	w10, w12
	b.eq	LBB32_207
	mov	w12, #3
	movk	w12, #8192, lsl #16
	cmp	w10, w12
	b.ne	LBB32_116
LBB32_77:
	subs	x10, x2, #13
	b.lo	LBB32_271
	ldur	w11, [x1, #9]
	cmp	w8, #0
	rev	w12, w11
	csel	w12, w11, w12, ne
	cbz	w12, LBB32_218
	mov	w14, w9
	mov	x11, xzr
	add	x13, x1, #13
	and	x14, x14, #0xff
	adrp	x15, Lswitch.table.wkb_raw_write.374@PAGE
	add	x15, x15, Lswitch.table.wkb_raw_write.374@PAGEOFF
	mov	x16, x12
LBB32_80:
	cmp	x10, #4
	b.lo	LBB32_271
	ldr	w17, [x13]
	cmp	w8, #0
	ldr	x4, [x15, x14, lsl #3]
	rev	w3, w17
	csel	w17, w17, w3, ne
	mul	x3, x4, x17
	orr	x3, x3, #0x4
	subs	x10, x10, x3
	b.lo	LBB32_271
	subs	x16, x16, #1
	add	x11, x11, x17
	add	x13, x13, x3
	b.ne	LBB32_80
	mov	w24, #2
	b	LBB32_226
LBB32_84:
	cmp	w10, #1
	b.eq	LBB32_177
	cmp	w10, #2
	b.eq	LBB32_210
	cmp	w10, #3
	b.ne	LBB32_98
LBB32_87:
	subs	x10, x2, #9
	b.lo	LBB32_271
	ldur	w11, [x1, #5]
	cmp	w8, #0
	rev	w12, w11
	csel	w12, w11, w12, ne
	cbz	w12, LBB32_214
	mov	w14, w9
	mov	x11, xzr
	add	x13, x1, #9
	and	x14, x14, #0xff
	adrp	x15, Lswitch.table.wkb_raw_write.374@PAGE
	add	x15, x15, Lswitch.table.wkb_raw_write.374@PAGEOFF
	mov	x16, x12
LBB32_90:
	cmp	x10, #4
	b.lo	LBB32_271
	ldr	w17, [x13]
	cmp	w8, #0
	ldr	x3, [x15, x14, lsl #3]
	rev	w1, w17
	csel	w17, w17, w1, ne
	mul	x1, x3, x17
	orr	x1, x1, #0x4
	subs	x10, x10, x1
	b.lo	LBB32_271
	subs	x16, x16, #1
	add	x11, x11, x17
	add	x13, x13, x1
	b.ne	LBB32_90
	mov	w13, wzr
	mov	w24, #2
	b	LBB32_299
LBB32_94:
	mov	w12, #6
	movk	w12, #8192, lsl #16
	cmp	w10, w12
	b.eq	LBB32_135
	mov	w8, #7
	movk	w8, #8192, lsl #16
	cmp	w10, w8
	b.eq	LBB32_271
	b	LBB32_116
LBB32_96:
	cmp	w10, #6
	b.eq	LBB32_230
	cmp	w10, #7
	b.eq	LBB32_271
LBB32_98:
	sub	w9, w10, #1001
	cmp	w9, #7
	b.hs	LBB32_103
	cmp	w10, #1003
	mov	w9, #1
	b.gt	LBB32_108
	cmp	w10, #1001
	b.eq	LBB32_177
	cmp	w10, #1002
	b.eq	LBB32_210
	cmp	w10, #1003
	b.eq	LBB32_87
	b	LBB32_271
LBB32_103:
	sub	w9, w10, #2001
	cmp	w9, #7
	b.hs	LBB32_111
	cmp	w10, #2003
	mov	w9, #2
	b.gt	LBB32_219
	cmp	w10, #2001
	b.eq	LBB32_177
	cmp	w10, #2002
	b.eq	LBB32_210
	cmp	w10, #2003
	b.eq	LBB32_87
	b	LBB32_271
LBB32_108:
	cmp	w10, #1004
	b.eq	LBB32_269
	cmp	w10, #1005
	b.eq	LBB32_44
	cmp	w10, #1006
	b.eq	LBB32_230
	b	LBB32_271
LBB32_111:
	sub	w9, w10, #3001
	cmp	w9, #7
	b.hs	LBB32_116
	cmp	w10, #3003
	mov	w9, #3
	b.gt	LBB32_227
	cmp	w10, #3001
	b.eq	LBB32_177
	cmp	w10, #3002
	b.eq	LBB32_210
	cmp	w10, #3003
	b.eq	LBB32_87
	b	LBB32_271
LBB32_116:
	cbz	w11, LBB32_119
	cmp	w11, #1
	b.ne	LBB32_271
	mov	w8, #1
	cmp	x2, #5
	b.hs	LBB32_120
	b	LBB32_271
LBB32_119:
	mov	w8, wzr
	cmp	x2, #5
	b.lo	LBB32_271
LBB32_120:
	ldur	w9, [x1, #1]
	cmp	w8, #0
	mov	w11, #-1073741824
	mov	w13, #-536870912
	rev	w10, w9
	csel	w9, w9, w10, ne
	ubfx	w10, w9, #30, #1
	and	w12, w9, #0x7fffffff
	add	w11, w12, w11
	cmp	w10, #0
	csel	w11, w12, w11, eq
	lsr	w10, w11, #29
	add	w13, w11, w13
	cmp	w10, #0
	csel	w13, w13, w11, ne
	cmp	w13, #3999
	b.hi	LBB32_271
	mov	w11, #35128
	mov	w14, #1000
	movk	w11, #65, lsl #16
	umull	x11, w13, w11
	lsr	x11, x11, #32
	msub	w11, w11, w14, w13
	sub	w14, w11, #1
	cmp	w14, #7
	b.hs	LBB32_271
	lsr	w12, w12, #30
	tbnz	w9, #31, LBB32_125
	mov	w9, #19923
	movk	w9, #4194, lsl #16
	umull	x9, w13, w9
	lsr	x13, x9, #38
	mov	w9, w13
	cbz	w12, LBB32_126
	lsl	w9, w13, #3
	mov	w12, #770
	movk	w12, #770, lsl #16
	lsr	w9, w12, w9
	b	LBB32_126
LBB32_125:
	cmp	w13, #2000
	mov	w9, #3
	ccmp	w12, #0, #0, lo
	csinc	w9, w9, wzr, ne
LBB32_126:
	cmp	w11, #3
	b.gt	LBB32_131
	cmp	w11, #1
	b.eq	LBB32_174
	cmp	w11, #2
	b.eq	LBB32_206
	cmp	w11, #3
	b.ne	LBB32_271
	cbnz	w10, LBB32_77
	b	LBB32_87
LBB32_131:
	cmp	w11, #4
	b.eq	LBB32_179
	cmp	w11, #5
	b.eq	LBB32_213
	cmp	w11, #6
	b.ne	LBB32_271
	cbz	w10, LBB32_230
LBB32_135:
	subs	x10, x2, #13
	b.lo	LBB32_271
	ldur	w11, [x1, #9]
	cmp	w8, #0
	rev	w12, w11
	csel	w13, w11, w12, ne
	cbz	w13, LBB32_216
	and	w17, w9, #0xff
	mov	w15, #1000
	mov	w5, w9
	mul	w19, w17, w15
	mov	w4, #19923
	mov	w6, #35128
	mov	w22, #770
	mov	w14, wzr
	mov	x12, xzr
	mov	x11, xzr
	add	x16, x1, #13
	mov	w17, #-1073741824
	mov	w3, #-536870912
	movk	w4, #4194, lsl #16
	and	x5, x5, #0xff
	movk	w6, #65, lsl #16
	mov	w7, #3
	orr	w19, w19, #0x3
	mov	w20, #5
	mov	w21, #9
	movk	w22, #770, lsl #16
	adrp	x23, Lswitch.table.wkb_raw_write.374@PAGE
	add	x23, x23, Lswitch.table.wkb_raw_write.374@PAGEOFF
LBB32_138:
	cmp	x10, #5
	b.hs	LBB32_141
	cbz	x10, LBB32_271
	ldrb	w25, [x16]
	b	LBB32_147
LBB32_141:
	ldrb	w25, [x16]
	cmp	w25, #1
	b.eq	LBB32_144
	cbnz	w25, LBB32_147
	ldur	w26, [x16, #1]
	mov	w24, wzr
	rev	w26, w26
	b	LBB32_145
LBB32_144:
	ldur	w26, [x16, #1]
	mov	w24, #1
LBB32_145:
	cmp	w26, w19
	b.ne	LBB32_147
	mov	w25, #5
	b	LBB32_161
LBB32_147:
	cbz	w25, LBB32_150
	cmp	w25, #1
	b.ne	LBB32_271
	mov	w24, #1
	b	LBB32_151
LBB32_150:
	mov	w24, wzr
LBB32_151:
	cmp	x10, #5
	b.lo	LBB32_271
	ldur	w25, [x16, #1]
	cmp	w24, #0
	rev	w26, w25
	csel	w27, w25, w26, ne
	ubfx	w25, w27, #30, #1
	and	w28, w27, #0x7fffffff
	add	w26, w28, w17
	cmp	w25, #0
	csel	w26, w28, w26, eq
	lsr	w25, w26, #29
	add	w29, w26, w3
	cmp	w25, #0
	csel	w29, w29, w26, ne
	cmp	w29, #3999
	b.hi	LBB32_271
	umull	x26, w29, w6
	lsr	x26, x26, #32
	msub	w26, w26, w15, w29
	sub	w30, w26, #1
	cmp	w30, #6
	b.hi	LBB32_271
	lsr	w28, w28, #30
	tbnz	w27, #31, LBB32_157
	umull	x27, w29, w4
	lsr	x27, x27, #38
	cbz	w28, LBB32_158
	lsl	w27, w27, #3
	lsr	w27, w22, w27
	b	LBB32_158
LBB32_157:
	cmp	w29, #2000
	ccmp	w28, #0, #0, lo
	csinc	w27, w7, wzr, ne
LBB32_158:
	cmp	w26, #3
	b.ne	LBB32_271
	and	w26, w27, #0xff
	cmp	w26, w9, uxtb
	b.ne	LBB32_271
	cmp	w25, #0
	csel	x25, x21, x20, ne
LBB32_161:
	add	x26, x25, #4
	cmp	x10, x26
	b.lo	LBB32_271
	add	x16, x16, x25
	cmp	w24, #0
	sub	x10, x10, x25
	ldr	w26, [x16], #4
	sub	x10, x10, #4
	rev	w27, w26
	csel	w25, w26, w27, ne
	cbz	w25, LBB32_168
	add	x12, x12, #2
	tbz	w24, #0, LBB32_169
	sub	w24, w26, #1
	add	x12, x12, x24
LBB32_165:
	cmp	x10, #4
	b.lo	LBB32_271
	ldr	w24, [x16]
	ldr	x26, [x23, x5, lsl #3]
	mul	x26, x26, x24
	orr	x26, x26, #0x4
	subs	x10, x10, x26
	b.lo	LBB32_271
	subs	w25, w25, #1
	add	x11, x11, x24
	add	x16, x16, x26
	b.ne	LBB32_165
	b	LBB32_173
LBB32_168:
	add	x12, x12, #1
	b	LBB32_173
LBB32_169:
	sub	w24, w27, #1
	add	x12, x12, x24
LBB32_170:
	cmp	x10, #4
	b.lo	LBB32_271
	ldr	w24, [x16]
	ldr	x26, [x23, x5, lsl #3]
	rev	w24, w24
	mul	x26, x26, x24
	orr	x26, x26, #0x4
	subs	x10, x10, x26
	b.lo	LBB32_271
	subs	w25, w25, #1
	add	x11, x11, x24
	add	x16, x16, x26
	b.ne	LBB32_170
LBB32_173:
	add	w14, w14, #1
	mov	w24, #5
	cmp	w14, w13
	b.ne	LBB32_138
	b	LBB32_226
LBB32_174:
	cbz	w10, LBB32_177
	and	w10, w9, #0xff
	sub	w11, w10, #1
	cmp	w11, #2
	b.hs	LBB32_223
	mov	w10, #33
	subs	x10, x2, x10
	b.lo	LBB32_271
	b	LBB32_225
LBB32_177:
	and	x10, x9, #0xff
	adrp	x11, Lswitch.table.wkb_raw_write.371@PAGE
	add	x11, x11, Lswitch.table.wkb_raw_write.371@PAGEOFF
	ldr	x10, [x11, x10, lsl #3]
	subs	x10, x2, x10
	b.lo	LBB32_271
	mov	w24, wzr
	mov	x12, xzr
	mov	w13, wzr
	mov	w11, #1
	b	LBB32_299
LBB32_179:
	cbz	w10, LBB32_269
LBB32_180:
	subs	x10, x2, #13
	b.lo	LBB32_271
	ldur	w11, [x1, #9]
	mov	w12, w9
	cmp	w8, #0
	and	x13, x12, #0xff
	adrp	x12, Lswitch.table.wkb_raw_write.371@PAGE
	add	x12, x12, Lswitch.table.wkb_raw_write.371@PAGEOFF
	rev	w14, w11
	ldr	x13, [x12, x13, lsl #3]
	csel	w11, w11, w14, ne
	mov	x14, #13
	madd	x13, x13, x11, x14
	cmp	x2, x13
	b.lo	LBB32_271
	mov	w13, #3
	cbz	w11, LBB32_222
	and	w15, w9, #0xff
	mov	w14, #1000
	mov	w4, w9
	mul	w5, w15, w14
	mov	w15, #770
	mov	w6, #19923
	mov	w7, #35128
	movk	w15, #770, lsl #16
	add	x16, x1, #13
	mov	w17, #-1073741824
	mov	w3, #-536870912
	and	x4, x4, #0xff
	orr	w5, w5, #0x1
	movk	w6, #4194, lsl #16
	movk	w7, #65, lsl #16
	mov	x19, x11
LBB32_184:
	cmp	x10, #5
	b.hs	LBB32_187
	cbz	x10, LBB32_271
	ldrb	w20, [x16]
	b	LBB32_192
LBB32_187:
	ldrb	w20, [x16]
	cmp	w20, #1
	b.eq	LBB32_190
	cbnz	w20, LBB32_192
	ldur	w21, [x16, #1]
	rev	w21, w21
	b	LBB32_191
LBB32_190:
	ldur	w21, [x16, #1]
LBB32_191:
	cmp	w21, w5
	b.eq	LBB32_203
LBB32_192:
	cbz	w20, LBB32_194
	cmp	w20, #1
	b.ne	LBB32_271
LBB32_194:
	cmp	x10, #5
	b.lo	LBB32_271
	ldur	w21, [x16, #1]
	cmp	w20, #0
	rev	w22, w21
	csel	w23, w21, w22, ne
	ubfx	w20, w23, #30, #1
	and	w22, w23, #0x7fffffff
	add	w21, w22, w17
	cmp	w20, #0
	csel	w21, w22, w21, eq
	lsr	w20, w21, #29
	add	w24, w21, w3
	cmp	w20, #0
	csel	w24, w24, w21, ne
	cmp	w24, #3999
	b.hi	LBB32_271
	umull	x21, w24, w7
	lsr	x21, x21, #32
	msub	w21, w21, w14, w24
	sub	w25, w21, #1
	cmp	w25, #6
	b.hi	LBB32_271
	tbnz	w23, #31, LBB32_200
	umull	x23, w24, w6
	lsr	w24, w22, #30
	lsr	x22, x23, #38
	cbz	w24, LBB32_201
	lsl	w22, w22, #3
	lsr	w22, w15, w22
	b	LBB32_201
LBB32_200:
	lsr	w22, w22, #30
	cmp	w24, #2000
	ccmp	w22, #0, #0, lo
	csinc	w22, w13, wzr, ne
LBB32_201:
	and	w22, w22, #0xff
	cmp	w22, w9, uxtb
	b.ne	LBB32_271
	cmp	w21, #1
	ccmp	w20, #0, #0, eq
	b.ne	LBB32_271
LBB32_203:
	ldr	x20, [x12, x4, lsl #3]
	subs	x10, x10, x20
	b.lo	LBB32_271
	subs	x19, x19, #1
	add	x16, x16, x20
	mov	w24, #3
	b.ne	LBB32_184
	mov	x12, x11
	b	LBB32_226
LBB32_206:
	cbz	w10, LBB32_210
LBB32_207:
	cmp	x2, #13
	b.lo	LBB32_271
	ldur	w10, [x1, #9]
	mov	w11, w9
	adrp	x13, Lswitch.table.wkb_raw_write.374@PAGE
	add	x13, x13, Lswitch.table.wkb_raw_write.374@PAGEOFF
	and	x11, x11, #0xff
	cmp	w8, #0
	rev	w12, w10
	ldr	x13, [x13, x11, lsl #3]
	csel	w11, w10, w12, ne
	mov	x10, #13
	madd	x10, x13, x11, x10
	subs	x10, x2, x10
	b.lo	LBB32_271
	mov	x12, xzr
	mov	w24, #1
	b	LBB32_226
LBB32_210:
	cmp	x2, #9
	b.lo	LBB32_271
	ldur	w10, [x1, #5]
	mov	w11, w9
	adrp	x13, Lswitch.table.wkb_raw_write.374@PAGE
	add	x13, x13, Lswitch.table.wkb_raw_write.374@PAGEOFF
	and	x11, x11, #0xff
	cmp	w8, #0
	rev	w12, w10
	ldr	x13, [x13, x11, lsl #3]
	csel	w11, w10, w12, ne
	mov	x10, #9
	madd	x10, x13, x11, x10
	subs	x10, x2, x10
	b.lo	LBB32_271
	mov	x12, xzr
	mov	w13, wzr
	mov	w24, #1
	b	LBB32_299
LBB32_213:
	cbnz	w10, LBB32_10
	b	LBB32_44
LBB32_214:
	mov	x12, xzr
	mov	w13, wzr
	mov	x11, xzr
	mov	w24, #2
	b	LBB32_299
LBB32_215:
	mov	x12, xzr
	mov	w13, wzr
	mov	x11, xzr
	mov	w24, #4
	b	LBB32_299
LBB32_216:
	mov	x11, xzr
	mov	x12, xzr
	mov	w24, #5
	b	LBB32_226
LBB32_217:
	mov	x11, xzr
	mov	x12, xzr
	mov	w24, #4
	b	LBB32_226
LBB32_218:
	mov	x11, xzr
	mov	x12, xzr
	mov	w24, #2
	b	LBB32_226
LBB32_219:
	cmp	w10, #2004
	b.eq	LBB32_269
	cmp	w10, #2005
	b.eq	LBB32_44
	cmp	w10, #2006
	b.eq	LBB32_230
	b	LBB32_271
LBB32_222:
	mov	x11, xzr
	mov	x12, xzr
	mov	w24, #3
	b	LBB32_226
LBB32_223:
	cbnz	w10, LBB32_301
LBB32_224:
	mov	w10, #25
	subs	x10, x2, x10
	b.lo	LBB32_271
LBB32_225:
	mov	w24, wzr
	mov	x12, xzr
	mov	w11, #1
LBB32_226:
	ldur	w13, [x1, #5]
	cmp	w8, #0
	rev	w14, w13
	csel	w14, w13, w14, ne
	mov	w13, #1
	b	LBB32_300
LBB32_227:
	cmp	w10, #3004
	b.eq	LBB32_269
	cmp	w10, #3005
	b.eq	LBB32_44
	cmp	w10, #3006
	b.ne	LBB32_271
LBB32_230:
	subs	x10, x2, #9
	b.lo	LBB32_271
	ldur	w11, [x1, #5]
	cmp	w8, #0
	rev	w12, w11
	csel	w13, w11, w12, ne
	cbz	w13, LBB32_297
	and	w17, w9, #0xff
	mov	w15, #1000
	mov	w4, w9
	mul	w7, w17, w15
	mov	w3, #19923
	mov	w5, #35128
	mov	w21, #770
	mov	w14, wzr
	mov	x12, xzr
	mov	x11, xzr
	add	x16, x1, #9
	mov	w17, #-1073741824
	mov	w1, #-536870912
	movk	w3, #4194, lsl #16
	and	x4, x4, #0xff
	movk	w5, #65, lsl #16
	mov	w6, #3
	orr	w7, w7, #0x3
	mov	w19, #5
	mov	w20, #9
	movk	w21, #770, lsl #16
	adrp	x22, Lswitch.table.wkb_raw_write.374@PAGE
	add	x22, x22, Lswitch.table.wkb_raw_write.374@PAGEOFF
LBB32_233:
	cmp	x10, #5
	b.hs	LBB32_236
	cbz	x10, LBB32_271
	ldrb	w24, [x16]
	b	LBB32_242
LBB32_236:
	ldrb	w24, [x16]
	cmp	w24, #1
	b.eq	LBB32_239
	cbnz	w24, LBB32_242
	ldur	w25, [x16, #1]
	mov	w23, wzr
	rev	w25, w25
	b	LBB32_240
LBB32_239:
	ldur	w25, [x16, #1]
	mov	w23, #1
LBB32_240:
	cmp	w25, w7
	b.ne	LBB32_242
	mov	w24, #5
	b	LBB32_256
LBB32_242:
	cbz	w24, LBB32_245
	cmp	w24, #1
	b.ne	LBB32_271
	mov	w23, #1
	b	LBB32_246
LBB32_245:
	mov	w23, wzr
LBB32_246:
	cmp	x10, #5
	b.lo	LBB32_271
	ldur	w24, [x16, #1]
	cmp	w23, #0
	rev	w25, w24
	csel	w26, w24, w25, ne
	ubfx	w24, w26, #30, #1
	and	w27, w26, #0x7fffffff
	add	w25, w27, w17
	cmp	w24, #0
	csel	w25, w27, w25, eq
	lsr	w24, w25, #29
	add	w28, w25, w1
	cmp	w24, #0
	csel	w28, w28, w25, ne
	cmp	w28, #3999
	b.hi	LBB32_271
	umull	x25, w28, w5
	lsr	x25, x25, #32
	msub	w25, w25, w15, w28
	sub	w29, w25, #1
	cmp	w29, #6
	b.hi	LBB32_271
	lsr	w27, w27, #30
	tbnz	w26, #31, LBB32_252
	umull	x26, w28, w3
	lsr	x26, x26, #38
	cbz	w27, LBB32_253
	lsl	w26, w26, #3
	lsr	w26, w21, w26
	b	LBB32_253
LBB32_252:
	cmp	w28, #2000
	ccmp	w27, #0, #0, lo
	csinc	w26, w6, wzr, ne
LBB32_253:
	cmp	w25, #3
	b.ne	LBB32_271
	and	w25, w26, #0xff
	cmp	w25, w9, uxtb
	b.ne	LBB32_271
	cmp	w24, #0
	csel	x24, x20, x19, ne
LBB32_256:
	add	x25, x24, #4
	cmp	x10, x25
	b.lo	LBB32_271
	add	x16, x16, x24
	cmp	w23, #0
	sub	x10, x10, x24
	ldr	w25, [x16], #4
	sub	x10, x10, #4
	rev	w26, w25
	csel	w24, w25, w26, ne
	cbz	w24, LBB32_263
	add	x12, x12, #2
	tbz	w23, #0, LBB32_264
	sub	w23, w25, #1
	add	x12, x12, x23
LBB32_260:
	cmp	x10, #4
	b.lo	LBB32_271
	ldr	w23, [x16]
	ldr	x25, [x22, x4, lsl #3]
	mul	x25, x25, x23
	orr	x25, x25, #0x4
	subs	x10, x10, x25
	b.lo	LBB32_271
	subs	w24, w24, #1
	add	x11, x11, x23
	add	x16, x16, x25
	b.ne	LBB32_260
	b	LBB32_268
LBB32_263:
	add	x12, x12, #1
	b	LBB32_268
LBB32_264:
	sub	w23, w26, #1
	add	x12, x12, x23
LBB32_265:
	cmp	x10, #4
	b.lo	LBB32_271
	ldr	w23, [x16]
	ldr	x25, [x22, x4, lsl #3]
	rev	w23, w23
	mul	x25, x25, x23
	orr	x25, x25, #0x4
	subs	x10, x10, x25
	b.lo	LBB32_271
	subs	w24, w24, #1
	add	x11, x11, x23
	add	x16, x16, x25
	b.ne	LBB32_265
LBB32_268:
	add	w14, w14, #1
	mov	w24, #5
	cmp	w14, w13
	b.ne	LBB32_233
	b	LBB32_73
LBB32_269:
	subs	x10, x2, #9
	b.lo	LBB32_271
	ldur	w12, [x1, #5]
	mov	w11, w9
	cmp	w8, #0
	and	x13, x11, #0xff
	adrp	x11, Lswitch.table.wkb_raw_write.371@PAGE
	add	x11, x11, Lswitch.table.wkb_raw_write.371@PAGEOFF
	rev	w14, w12
	ldr	x13, [x11, x13, lsl #3]
	csel	w12, w12, w14, ne
	mov	x14, #9
	madd	x13, x13, x12, x14
	cmp	x2, x13
	b.hs	LBB32_273
LBB32_271:
	mov	w8, #2
	str	w8, [x0]
LBB32_272:
	ldp	x20, x19, [sp, #80]
	ldp	x22, x21, [sp, #64]
	ldp	x24, x23, [sp, #48]
	ldp	x26, x25, [sp, #32]
	ldp	x28, x27, [sp, #16]
	ldp	x29, x30, [sp], #96
	.cfi_def_cfa_offset 0
	.cfi_restore w19
	.cfi_restore w20
	.cfi_restore w21
	.cfi_restore w22
	.cfi_restore w23
	.cfi_restore w24
	.cfi_restore w25
	.cfi_restore w26
	.cfi_restore w27
	.cfi_restore w28
	.cfi_restore w30
	.cfi_restore w29
	ret
LBB32_273:
	.cfi_restore_state
	mov	w13, #3
	cbz	w12, LBB32_298
	and	w15, w9, #0xff
	mov	w14, #1000
	mov	w3, w9
	mul	w4, w15, w14
	mov	w15, #770
	mov	w5, #19923
	mov	w6, #35128
	movk	w15, #770, lsl #16
	add	x16, x1, #9
	mov	w17, #-1073741824
	mov	w1, #-536870912
	and	x3, x3, #0xff
	orr	w4, w4, #0x1
	movk	w5, #4194, lsl #16
	movk	w6, #65, lsl #16
	mov	x7, x12
LBB32_275:
	cmp	x10, #5
	b.hs	LBB32_278
	cbz	x10, LBB32_271
	ldrb	w19, [x16]
	b	LBB32_283
LBB32_278:
	ldrb	w19, [x16]
	cmp	w19, #1
	b.eq	LBB32_281
	cbnz	w19, LBB32_283
	ldur	w20, [x16, #1]
	rev	w20, w20
	b	LBB32_282
LBB32_281:
	ldur	w20, [x16, #1]
LBB32_282:
	cmp	w20, w4
	b.eq	LBB32_294
LBB32_283:
	cbz	w19, LBB32_285
	cmp	w19, #1
	b.ne	LBB32_271
LBB32_285:
	cmp	x10, #5
	b.lo	LBB32_271
	ldur	w20, [x16, #1]
	cmp	w19, #0
	rev	w21, w20
	csel	w21, w20, w21, ne
	ubfx	w19, w21, #30, #1
	and	w22, w21, #0x7fffffff
	add	w20, w22, w17
	cmp	w19, #0
	csel	w20, w22, w20, eq
	lsr	w19, w20, #29
	add	w23, w20, w1
	cmp	w19, #0
	csel	w23, w23, w20, ne
	cmp	w23, #3999
	b.hi	LBB32_271
	umull	x20, w23, w6
	lsr	x20, x20, #32
	msub	w20, w20, w14, w23
	sub	w24, w20, #1
	cmp	w24, #6
	b.hi	LBB32_271
	lsr	w22, w22, #30
	tbnz	w21, #31, LBB32_291
	umull	x21, w23, w5
	lsr	x21, x21, #38
	cbz	w22, LBB32_292
	lsl	w21, w21, #3
	lsr	w21, w15, w21
	b	LBB32_292
LBB32_291:
	cmp	w23, #2000
	ccmp	w22, #0, #0, lo
	csinc	w21, w13, wzr, ne
LBB32_292:
	and	w21, w21, #0xff
	cmp	w21, w9, uxtb
	b.ne	LBB32_271
	cmp	w20, #1
	ccmp	w19, #0, #0, eq
	b.ne	LBB32_271
LBB32_294:
	ldr	x19, [x11, x3, lsl #3]
	subs	x10, x10, x19
	b.lo	LBB32_271
	subs	x7, x7, #1
	add	x16, x16, x19
	mov	w24, #3
	b.ne	LBB32_275
	mov	w13, wzr
	mov	x11, x12
	b	LBB32_300
LBB32_297:
	mov	x12, xzr
	mov	x11, xzr
	mov	w24, #5
	b	LBB32_299
LBB32_298:
	mov	x12, xzr
	mov	w13, wzr
	mov	x11, xzr
	mov	w24, #3
LBB32_299:
LBB32_300:
	sub	x10, x2, x10
	add	x12, x12, #1
	stp	w13, w14, [x0]
	stp	x10, x12, [x0, #8]
	str	x11, [x0, #24]
	strb	w24, [x0, #32]
	strb	w9, [x0, #33]
	strb	w8, [x0, #34]
	b	LBB32_272
LBB32_301:
	mov	w10, #41
	subs	x10, x2, x10
	b.lo	LBB32_271
	b	LBB32_225
Lfunc_end32:
	.cfi_endproc
	.section	__TEXT,__text,regular,pure_instructions
	.p2align	2
_ZN7wkb_raw6erased5wkb_c7collect13write_members17hf9b9c22d6bdc85eaE:
	.cfi_startproc
	sub	sp, sp, #208
	.cfi_def_cfa_offset 208
	stp	x29, x30, [sp, #112]
	stp	x28, x27, [sp, #128]
	stp	x26, x25, [sp, #144]
	stp	x24, x23, [sp, #160]
	stp	x22, x21, [sp, #176]
	stp	x20, x19, [sp, #192]
	.cfi_offset w19, -8
	.cfi_offset w20, -16
	.cfi_offset w21, -24
	.cfi_offset w22, -32
	.cfi_offset w23, -40
	.cfi_offset w24, -48
	.cfi_offset w25, -56
	.cfi_offset w26, -64
	.cfi_offset w27, -72
	.cfi_offset w28, -80
	.cfi_offset w30, -88
	.cfi_offset w29, -96
	mov	x20, x0
	stp	x3, x4, [sp, #8]
	str	xzr, [sp, #24]
	cbz	x2, LBB33_11
	mov	x21, x6
	mov	x22, x5
	mov	x23, x2
	mov	x26, x1
	mov	x24, xzr
	mov	x27, xzr
	str	x7, [sp]
LBB33_2:
	cmp	x22, x24
	add	x0, sp, #72
	add	x3, sp, #24
	mov	x1, x26
	mov	x2, x27
	csel	x25, x22, x24, lo
	bl	_ZN7wkb_raw6erased5wkb_c7collect6row_of17hce15a9a66752ab18E
	ldr	x28, [sp, #72]
	cbz	x28, LBB33_6
	ldr	x19, [sp, #80]
	add	x0, sp, #32
	mov	x1, x28
	sub	x29, x22, x25
	mov	x2, x19
	bl	_ZN7wkb_raw6erased5wkb_c7collect12plain_member17h6d780dd3067d5ff1E
	ldr	w8, [sp, #32]
	cmp	w8, #2
	b.ne	LBB33_7
	add	x0, sp, #72
	mov	x1, x28
	mov	x2, x19
	mov	x3, x21
	bl	_ZN7wkb_raw6erased5wkb_c7collect16check_member_row17heaeeda39526af6b8E
	ldr	w8, [sp, #72]
	cmp	w8, #2
	b.ne	LBB33_8
	ldr	w9, [sp, #76]
	mov	w8, #1
	stp	w8, w9, [x20]
	mov	w8, w8
	tbz	w8, #0, LBB33_10
	b	LBB33_13
LBB33_6:
	ldr	w9, [sp, #80]
	mov	w8, #1
	stp	w8, w9, [x20]
	mov	w8, w8
	tbz	w8, #0, LBB33_10
	b	LBB33_13
LBB33_7:
	add	x3, sp, #32
	b	LBB33_9
LBB33_8:
	add	x3, sp, #72
LBB33_9:
	ldp	x4, x8, [sp, #8]
	mov	x0, x20
	mov	x1, x28
	mov	x2, x19
	mov	x6, x29
	mov	x7, x21
	add	x5, x8, x25
	bl	_ZN7wkb_raw6erased5wkb_c7collect11write_found17h7f96bd3b1c4fc4a9E
	ldr	w8, [x20]
	tbnz	w8, #0, LBB33_13
LBB33_10:
	ldr	x8, [x20, #8]
	add	x27, x27, #1
	cmp	x23, x27
	add	x24, x8, x24
	b.ne	LBB33_2
	b	LBB33_12
LBB33_11:
	mov	x24, xzr
LBB33_12:
	str	x24, [x20, #8]
	str	wzr, [x20]
	b	LBB33_14
LBB33_13:
	ldr	x8, [sp]
	str	x27, [x8]
LBB33_14:
	ldp	x20, x19, [sp, #192]
	ldp	x22, x21, [sp, #176]
	ldp	x24, x23, [sp, #160]
	ldp	x26, x25, [sp, #144]
	ldp	x28, x27, [sp, #128]
	ldp	x29, x30, [sp, #112]
	add	sp, sp, #208
	.cfi_def_cfa_offset 0
	.cfi_restore w19
	.cfi_restore w20
	.cfi_restore w21
	.cfi_restore w22
	.cfi_restore w23
	.cfi_restore w24
	.cfi_restore w25
	.cfi_restore w26
	.cfi_restore w27
	.cfi_restore w28
	.cfi_restore w30
	.cfi_restore w29
	ret
Lfunc_end33:
	.cfi_endproc
	.section	__TEXT,__text,regular,pure_instructions
	.p2align	2
_ZN7wkb_raw6erased5wkb_c7collect16check_member_row17heaeeda39526af6b8E:
	.cfi_startproc
	stp	x29, x30, [sp, #-96]!
	.cfi_def_cfa_offset 96
	stp	x28, x27, [sp, #16]
	stp	x26, x25, [sp, #32]
	stp	x24, x23, [sp, #48]
	stp	x22, x21, [sp, #64]
	stp	x20, x19, [sp, #80]
	mov	x29, sp
	.cfi_def_cfa w29, 96
	.cfi_offset w19, -8
	.cfi_offset w20, -16
	.cfi_offset w21, -24
	.cfi_offset w22, -32
	.cfi_offset w23, -40
	.cfi_offset w24, -48
	.cfi_offset w25, -56
	.cfi_offset w26, -64
	.cfi_offset w27, -72
	.cfi_offset w28, -80
	.cfi_offset w30, -88
	.cfi_offset w29, -96
	sub	x9, sp, #96
	and	sp, x9, #0xffffffffffffffe0
	cmp	x2, #5
	b.hs	LBB34_3
	cbz	x2, LBB34_42
	ldrb	w21, [x1]
	b	LBB34_38
LBB34_3:
	ldrb	w21, [x1]
	cmp	w21, #1
	b.eq	LBB34_10
	cbnz	w21, LBB34_38
	ldur	w8, [x1, #1]
	rev	w9, w8
	lsr	w8, w9, #29
	cmp	w8, #0
	cset	w22, ne
	cbz	w8, LBB34_11
LBB34_6:
	mov	w8, #3
	mov	w23, wzr
	movk	w8, #8192, lsl #16
	cmp	w9, w8
	b.le	LBB34_16
	mov	w8, #5
	movk	w8, #8192, lsl #16
	cmp	w9, w8
	b.gt	LBB34_23
	mov	w8, #4
	movk	w8, #8192, lsl #16
	cmp	w9, w8
	b.eq	LBB34_29
	mov	w8, #5
	movk	w8, #8192, lsl #16
	cmp	w9, w8
	b.eq	LBB34_15
	b	LBB34_38
LBB34_10:
	ldur	w9, [x1, #1]
	lsr	w8, w9, #29
	cmp	w8, #0
	cset	w22, ne
	cbnz	w8, LBB34_6
LBB34_11:
	cmp	w9, #3
	mov	w23, wzr
	b.le	LBB34_19
	cmp	w9, #5
	b.gt	LBB34_25
	cmp	w9, #4
	b.eq	LBB34_29
	cmp	w9, #5
	b.ne	LBB34_27
LBB34_15:
	mov	w23, wzr
	mov	w8, #4
	b	LBB34_68
LBB34_16:
	mov	w8, #1
	movk	w8, #8192, lsl #16
	cmp	w9, w8
	mov	w8, w23
	b.eq	LBB34_68
	mov	w8, #2
	movk	w8, #8192, lsl #16
	cmp	w9, w8
	b.eq	LBB34_31
	mov	w8, #3
	movk	w8, #8192, lsl #16
	cmp	w9, w8
	b.eq	LBB34_22
	b	LBB34_38
LBB34_19:
	cmp	w9, #1
	mov	w8, w23
	b.eq	LBB34_68
	cmp	w9, #2
	b.eq	LBB34_31
	cmp	w9, #3
	b.ne	LBB34_27
LBB34_22:
	mov	w23, wzr
	mov	w8, #2
	b	LBB34_68
LBB34_23:
	mov	w8, #6
	movk	w8, #8192, lsl #16
	cmp	w9, w8
	b.eq	LBB34_30
	mov	w8, #7
	movk	w8, #8192, lsl #16
	cmp	w9, w8
	b.eq	LBB34_37
	b	LBB34_38
LBB34_25:
	cmp	w9, #6
	b.eq	LBB34_30
	cmp	w9, #7
	b.eq	LBB34_37
LBB34_27:
	sub	w8, w9, #1001
	cmp	w8, #7
	b.hs	LBB34_32
	mov	w23, #1
	b	LBB34_36
LBB34_29:
	mov	w23, wzr
	mov	w8, #3
	b	LBB34_68
LBB34_30:
	mov	w23, wzr
	mov	w8, #5
	b	LBB34_68
LBB34_31:
	mov	w23, wzr
	mov	w8, #1
	b	LBB34_68
LBB34_32:
	sub	w8, w9, #2001
	cmp	w8, #7
	b.hs	LBB34_34
	mov	w23, #2
	b	LBB34_36
LBB34_34:
	sub	w8, w9, #3001
	cmp	w8, #7
	b.hs	LBB34_38
	mov	w23, #3
LBB34_36:
	cmp	w8, #6
	b.ne	LBB34_68
LBB34_37:
	tst	w9, #0xe0000000
	mov	x19, x1
	mov	x25, x3
	cset	w8, ne
	mov	x24, x0
	mov	x20, x2
	strb	w8, [sp, #65]
	mov	w8, #6
	strb	w8, [sp, #66]
	mov	w8, #1
	stp	xzr, xzr, [sp, #16]
	str	x2, [sp, #32]
	strb	w21, [sp, #64]
	strb	w23, [sp, #67]
	str	w8, [sp, #72]
	b	LBB34_65
LBB34_38:
	cbz	w21, LBB34_41
	cmp	w21, #1
	b.ne	LBB34_56
	mov	w21, #1
LBB34_41:
	cmp	x2, #5
	b.hs	LBB34_51
LBB34_42:
	mov	x8, xzr
	mov	x10, xzr
	mov	w15, #7
	cmp	w15, #6
	b.hi	LBB34_251
LBB34_43:
	cmp	w15, #3
	b.le	LBB34_48
	cmp	w15, #4
	b.eq	LBB34_58
	cmp	w15, #5
	b.eq	LBB34_59
	cmp	w15, #6
	b.ne	LBB34_61
	mov	w16, wzr
	mov	w9, #50
	b	LBB34_252
LBB34_48:
	cmp	w15, #1
	b.eq	LBB34_60
	cmp	w15, #3
	b.ne	LBB34_61
	mov	w16, wzr
	mov	w9, #48
	b	LBB34_252
LBB34_51:
	ldur	w8, [x1, #1]
	cmp	w21, #0
	mov	w10, #-1073741824
	mov	w11, #-536870912
	rev	w9, w8
	csel	w16, w8, w9, ne
	ubfx	w9, w16, #30, #1
	and	w8, w16, #0x7fffffff
	add	w10, w8, w10
	cmp	w9, #0
	csel	w9, w8, w10, eq
	lsr	w10, w9, #29
	cmp	w10, #0
	add	w10, w9, w11
	csel	w10, w10, w9, ne
	cset	w22, ne
	cmp	w10, #3999
	b.hi	LBB34_57
	ubfx	w11, w10, #3, #13
	mov	w12, #8389
	mov	w13, #65535
	mul	w11, w11, w12
	mov	w12, #1000
	lsr	w11, w11, #20
	mul	w11, w11, w12
	sub	w12, w11, w10
	bic	w12, w13, w12
	cmp	w12, #7
	b.hs	LBB34_57
	mvn	w12, w11
	lsr	w11, w8, #30
	add	w8, w12, w10
	tbnz	w16, #31, LBB34_62
	mov	w12, #19923
	movk	w12, #4194, lsl #16
	umull	x10, w10, w12
	lsr	x10, x10, #38
	mov	w23, w10
	cbz	w11, LBB34_63
	lsl	w10, w10, #3
	mov	w11, #770
	movk	w11, #770, lsl #16
	lsr	w23, w11, w10
	b	LBB34_63
LBB34_56:
	mov	x8, xzr
	mov	x10, xzr
	mov	w15, #2
	cmp	w15, #6
	b.hi	LBB34_251
	b	LBB34_43
LBB34_57:
	mov	x8, xzr
	mov	x10, xzr
	mov	w15, #1
	cmp	w15, #6
	b.ls	LBB34_43
	b	LBB34_251
LBB34_58:
	mov	w16, wzr
	mov	w9, #49
	b	LBB34_252
LBB34_59:
	mov	w16, wzr
	mov	w9, #51
	b	LBB34_252
LBB34_60:
	mov	x13, xzr
	mov	x11, xzr
	mov	w9, #34
	b	LBB34_252
LBB34_61:
	cmp	w15, #0
	mov	w9, #33
	mov	w12, #35
	mov	x13, xzr
	mov	x11, xzr
	mov	w16, wzr
	csel	w9, w12, w9, eq
	b	LBB34_252
LBB34_62:
	cmp	w10, #2000
	mov	w10, #3
	ccmp	w11, #0, #0, lo
	csinc	w23, w10, wzr, ne
LBB34_63:
	and	w10, w8, #0xffff
	cmp	w10, #6
	b.ne	LBB34_68
	tst	w9, #0xe0000000
	mov	x19, x1
	mov	x25, x3
	cset	w8, ne
	mov	x24, x0
	stp	xzr, xzr, [sp, #16]
	strb	w8, [sp, #65]
	mov	w8, #6
	mov	x20, x2
	strb	w8, [sp, #66]
	mov	w8, #1
	str	x2, [sp, #32]
	strb	w21, [sp, #64]
	strb	w23, [sp, #67]
	stp	w8, w16, [sp, #72]
LBB34_65:
	add	x0, sp, #40
	add	x2, sp, #64
	add	x5, sp, #16
	mov	w1, #1
	mov	x3, x19
	mov	x4, x20
	bl	_ZN7wkb_raw6erased9wkb_check6nested15skip_collection17h3e96ec52d62a4ff3E
	ldr	w15, [sp, #40]
	ldr	x10, [sp, #16]
	cmp	w15, #11
	b.ne	LBB34_122
	ldr	x8, [sp, #56]
	ldr	x9, [sp, #24]
	add	x10, x10, #1
	mov	x0, x24
	sub	x11, x20, x8
	mov	w8, #6
	cbz	w22, LBB34_227
	mov	x1, x19
	b	LBB34_226
LBB34_68:
	and	w9, w8, #0xff
	cmp	w9, #2
	b.gt	LBB34_74
	cbz	w9, LBB34_105
	cmp	w9, #1
	b.ne	LBB34_109
	cmp	w22, #0
	mov	w9, #5
	mov	w10, #9
	csel	x9, x10, x9, ne
	add	x10, x9, #4
	cmp	x2, x10
	b.lo	LBB34_108
	ldr	w9, [x1, x9]
	mov	w10, w23
	adrp	x11, Lswitch.table.wkb_raw_write.374@PAGE
	add	x11, x11, Lswitch.table.wkb_raw_write.374@PAGEOFF
	tst	w21, #0x1
	and	x10, x10, #0xff
	rev	w12, w9
	ldr	x10, [x11, x10, lsl #3]
	mov	w11, #9
	csel	w9, w9, w12, ne
	cmp	w22, #0
	mov	w12, #13
	csel	x11, x12, x11, ne
	madd	x11, x10, x9, x11
	subs	x28, x2, x11
	b.hs	LBB34_199
	mov	x10, xzr
	mov	w15, #4
	b	LBB34_126
LBB34_74:
	cmp	w9, #3
	b.eq	LBB34_107
	cmp	w9, #4
	b.ne	LBB34_120
	cmp	w22, #0
	mov	w9, #5
	mov	w10, #9
	csel	x9, x10, x9, ne
	add	x10, x9, #4
	cmp	x2, x10
	b.lo	LBB34_121
	add	x10, x1, x9
	tst	w21, #0x1
	sub	x9, x2, x9
	ldr	w11, [x10]
	rev	w12, w11
	csel	w14, w11, w12, ne
	sub	x12, x9, #4
	mov	x9, xzr
	cbz	w14, LBB34_200
	and	w11, w23, #0xff
	mov	w17, #1000
	mov	w13, w23
	mul	w11, w11, w17
	add	x5, x10, #4
	neg	x6, x14
	mov	w10, #1
	mov	w19, #-536870912
	and	x25, x13, #0xff
	mov	w30, #9
	adrp	x27, Lswitch.table.wkb_raw_write.374@PAGE
	add	x27, x27, Lswitch.table.wkb_raw_write.374@PAGEOFF
	orr	w26, w11, #0x2
LBB34_79:
	mov	x28, x12
	cmp	x12, #5
	b.hs	LBB34_82
	cbz	x28, LBB34_220
	ldrb	w13, [x5]
	b	LBB34_88
LBB34_82:
	ldrb	w13, [x5]
	cmp	w13, #1
	b.eq	LBB34_85
	cbnz	w13, LBB34_88
	ldur	w15, [x5, #1]
	mov	w12, wzr
	rev	w15, w15
	b	LBB34_86
LBB34_85:
	ldur	w15, [x5, #1]
	mov	w12, #1
LBB34_86:
	cmp	w15, w26
	b.ne	LBB34_88
	mov	w13, #9
	mov	w15, #5
	b	LBB34_102
LBB34_88:
	cbz	w13, LBB34_91
	cmp	w13, #1
	b.ne	LBB34_236
	mov	w12, #1
	b	LBB34_92
LBB34_91:
	mov	w12, wzr
LBB34_92:
	cmp	x28, #5
	b.lo	LBB34_220
	ldur	w13, [x5, #1]
	cmp	w12, #0
	mov	w4, #-1073741824
	rev	w15, w13
	csel	w16, w13, w15, ne
	ubfx	w13, w16, #30, #1
	and	w15, w16, #0x7fffffff
	add	w4, w15, w4
	cmp	w13, #0
	csel	w13, w15, w4, eq
	lsr	w4, w13, #29
	add	w24, w13, w19
	cmp	w4, #0
	csel	w24, w24, w13, ne
	cmp	w24, #3999
	b.hi	LBB34_219
	mov	w13, #35128
	movk	w13, #65, lsl #16
	umull	x13, w24, w13
	lsr	x13, x13, #32
	msub	w13, w13, w17, w24
	sub	w7, w13, #1
	cmp	w7, #6
	b.hi	LBB34_219
	tbnz	w16, #31, LBB34_98
	mov	w16, #19923
	lsr	w15, w15, #30
	movk	w16, #4194, lsl #16
	umull	x16, w24, w16
	lsr	x16, x16, #38
	cbz	w15, LBB34_99
	lsl	w15, w16, #3
	mov	w16, #770
	movk	w16, #770, lsl #16
	lsr	w16, w16, w15
	b	LBB34_99
LBB34_98:
	lsr	w15, w15, #30
	cmp	w24, #2000
	ccmp	w15, #0, #0, lo
	mov	w15, #3
	csinc	w16, w15, wzr, ne
LBB34_99:
	cmp	w13, #2
	mov	w15, #9
	b.ne	LBB34_237
	and	w13, w16, #0xff
	cmp	w13, w23, uxtb
	b.ne	LBB34_239
	cmp	w4, #0
	mov	w13, #5
	csel	x15, x30, x13, ne
	mov	w13, #13
	csel	x13, x13, x30, ne
LBB34_102:
	add	x16, x15, #4
	cmp	x28, x16
	b.lo	LBB34_230
	ldr	w15, [x5, x15]
	cmp	w12, #0
	ldr	x12, [x27, x25, lsl #3]
	rev	w16, w15
	csel	w15, w15, w16, ne
	madd	x20, x12, x15, x13
	subs	x12, x28, x20
	b.lo	LBB34_231
	add	x10, x10, #1
	and	x11, x11, #0xffffffff00000000
	add	x9, x9, x15
	add	x13, x6, x10
	orr	x11, x11, x15
	add	x5, x5, x20
	cmp	x13, #1
	b.ne	LBB34_79
	b	LBB34_201
LBB34_105:
	mov	w9, w23
	adrp	x12, Lswitch.table.wkb_raw_write.374@PAGE
	add	x12, x12, Lswitch.table.wkb_raw_write.374@PAGEOFF
	and	x9, x9, #0xff
	cmp	w22, #0
	mov	w10, #5
	mov	w11, #9
	ldr	x9, [x12, x9, lsl #3]
	csel	x10, x11, x10, ne
	add	x11, x9, x10
	subs	x28, x2, x11
	b.hs	LBB34_123
	mov	x10, xzr
	mov	w15, #3
	b	LBB34_126
LBB34_107:
	cmp	w22, #0
	mov	w9, #5
	mov	w10, #9
	csel	x12, x10, x9, ne
	add	x9, x12, #4
	cmp	x2, x9
	b.hs	LBB34_124
LBB34_108:
	mov	x10, xzr
	mov	w15, #7
	mov	x13, x2
	mov	x28, x2
	b	LBB34_250
LBB34_109:
	cmp	w22, #0
	mov	w9, #5
	mov	w10, #9
	csel	x9, x10, x9, ne
	add	x10, x9, #4
	cmp	x2, x10
	b.lo	LBB34_121
	add	x12, x1, x9
	tst	w21, #0x1
	sub	x9, x2, x9
	ldr	w15, [x12], #4
	sub	x28, x9, #4
	rev	w16, w15
	csel	w14, w15, w16, ne
	cbz	w14, LBB34_202
	cmp	x9, #8
	tbz	w21, #0, LBB34_204
	b.lo	LBB34_205
	mov	w10, w23
	mov	x9, xzr
	adrp	x17, Lswitch.table._ZN7wkb_raw6erased5wkb_c7collect16check_member_row17heaeeda39526af6b8E.166@PAGE
	add	x17, x17, Lswitch.table._ZN7wkb_raw6erased5wkb_c7collect16check_member_row17heaeeda39526af6b8E.166@PAGEOFF
	and	x16, x10, #0xff
	mov	w10, #1
LBB34_114:
	and	w13, w23, #0xff
	cmp	w13, #2
	b.hi	LBB34_116
	ldr	x13, [x17, x16, lsl #3]
	b	LBB34_117
LBB34_116:
	mov	w13, #32
LBB34_117:
	ldr	w5, [x12]
	mul	x13, x13, x5
	orr	x13, x13, #0x4
	subs	x4, x28, x13
	b.lo	LBB34_221
	cmp	w15, w10
	add	x9, x9, x5
	b.eq	LBB34_223
	and	x11, x11, #0xffffffff00000000
	add	x12, x12, x13
	cmp	x4, #4
	orr	x11, x11, x5
	add	x10, x10, #1
	mov	x28, x4
	b.hs	LBB34_114
	b	LBB34_218
LBB34_120:
	cmp	w22, #0
	mov	w9, #5
	mov	w10, #9
	csel	x9, x10, x9, ne
	add	x10, x9, #4
	cmp	x2, x10
	b.hs	LBB34_127
LBB34_121:
	mov	x10, xzr
	mov	w15, #7
	mov	x28, x2
	b	LBB34_250
LBB34_122:
	ldp	x11, x13, [sp, #48]
	mov	x0, x24
	ldr	x28, [sp, #32]
	ldr	w16, [sp, #44]
	mov	x3, x25
	mov	x2, x20
	b	LBB34_250
LBB34_123:
	mov	w9, #1
	mov	x14, xzr
	str	x9, [sp, #24]
	b	LBB34_225
LBB34_124:
	add	x15, x1, x12
	mov	w11, w23
	adrp	x10, Lswitch.table.wkb_raw_write.371@PAGE
	add	x10, x10, Lswitch.table.wkb_raw_write.371@PAGEOFF
	ldr	w9, [x15]
	and	x11, x11, #0xff
	tst	w21, #0x1
	ldr	x11, [x10, x11, lsl #3]
	mov	w14, #13
	rev	w13, w9
	csel	w9, w9, w13, ne
	cmp	w22, #0
	mov	w13, #9
	csel	x13, x14, x13, ne
	madd	x11, x11, x9, x13
	cmp	x2, x11
	b.hs	LBB34_175
	mov	x10, xzr
	mov	w15, #6
LBB34_126:
	mov	x13, x2
	mov	x28, x2
	b	LBB34_250
LBB34_127:
	add	x10, x1, x9
	tst	w21, #0x1
	sub	x9, x2, x9
	ldr	w11, [x10]
	sub	x28, x9, #4
	rev	w12, w11
	csel	w4, w11, w12, ne
	cbz	w4, LBB34_203
	and	w12, w23, #0xff
	mov	w6, #1000
	add	x11, x10, #4
	mul	w10, w12, w6
	mov	w12, w23
	mov	w5, wzr
	mov	x14, xzr
	mov	x9, xzr
	mov	w19, #-536870912
	and	x24, x12, #0xff
	adrp	x26, Lswitch.table._ZN7wkb_raw6erased5wkb_c7collect16check_member_row17heaeeda39526af6b8E.166@PAGE
	add	x26, x26, Lswitch.table._ZN7wkb_raw6erased5wkb_c7collect16check_member_row17heaeeda39526af6b8E.166@PAGEOFF
	orr	w27, w10, #0x3
LBB34_129:
	cmp	x28, #5
	add	x10, x14, #1
	b.hs	LBB34_132
	cbz	x28, LBB34_234
	ldrb	w12, [x11]
	b	LBB34_138
LBB34_132:
	ldrb	w12, [x11]
	cmp	w12, #1
	b.eq	LBB34_135
	cbnz	w12, LBB34_138
	ldur	w15, [x11, #1]
	mov	w20, wzr
	rev	w15, w15
	b	LBB34_136
LBB34_135:
	ldur	w15, [x11, #1]
	mov	w20, #1
LBB34_136:
	cmp	w15, w27
	b.ne	LBB34_138
	mov	w12, #5
	b	LBB34_152
LBB34_138:
	cbz	w12, LBB34_141
	cmp	w12, #1
	b.ne	LBB34_246
	mov	w20, #1
	b	LBB34_142
LBB34_141:
	mov	w20, wzr
LBB34_142:
	cmp	x28, #5
	b.lo	LBB34_234
	ldur	w12, [x11, #1]
	cmp	w20, #0
	rev	w15, w12
	csel	w16, w12, w15, ne
	mov	w15, #-1073741824
	ubfx	w12, w16, #30, #1
	and	w30, w16, #0x7fffffff
	add	w15, w30, w15
	cmp	w12, #0
	csel	w15, w30, w15, eq
	lsr	w12, w15, #29
	add	w25, w15, w19
	cmp	w12, #0
	csel	w25, w25, w15, ne
	cmp	w25, #3999
	b.hi	LBB34_233
	mov	w15, #35128
	movk	w15, #65, lsl #16
	umull	x15, w25, w15
	lsr	x15, x15, #32
	msub	w15, w15, w6, w25
	sub	w7, w15, #1
	cmp	w7, #6
	b.hi	LBB34_233
	tbnz	w16, #31, LBB34_148
	mov	w16, #19923
	lsr	w7, w30, #30
	movk	w16, #4194, lsl #16
	umull	x16, w25, w16
	lsr	x16, x16, #38
	cbz	w7, LBB34_149
	lsl	w16, w16, #3
	mov	w7, #770
	movk	w7, #770, lsl #16
	lsr	w16, w7, w16
	b	LBB34_149
LBB34_148:
	lsr	w16, w30, #30
	cmp	w25, #2000
	ccmp	w16, #0, #0, lo
	mov	w16, #3
	csinc	w16, w16, wzr, ne
LBB34_149:
	cmp	w15, #3
	mov	w15, #9
	b.ne	LBB34_247
	and	w16, w16, #0xff
	cmp	w16, w23, uxtb
	b.ne	LBB34_249
	cmp	w12, #0
	mov	w12, #5
	mov	w15, #9
	csel	x12, x15, x12, ne
LBB34_152:
	add	x15, x12, #4
	cmp	x28, x15
	b.lo	LBB34_240
	add	x11, x11, x12
	cmp	w20, #0
	sub	x25, x28, x12
	ldr	w15, [x11], #4
	sub	x12, x25, #4
	rev	w16, w15
	csel	w7, w15, w16, ne
	cbz	w7, LBB34_163
	add	x10, x14, #2
	cmp	x25, #8
	cbz	w20, LBB34_164
	b.lt	LBB34_245
	sub	w15, w15, #1
	add	x14, x10, x15
LBB34_157:
	and	w13, w23, #0xff
	cmp	w13, #2
	b.hi	LBB34_159
	ldr	x13, [x26, x24, lsl #3]
	b	LBB34_160
LBB34_159:
	mov	w13, #32
LBB34_160:
	ldr	w16, [x11]
	mul	x13, x13, x16
	orr	x13, x13, #0x4
	subs	x28, x12, x13
	b.lo	LBB34_206
	and	x17, x17, #0xffffffff00000000
	add	x9, x9, x16
	add	x11, x11, x13
	orr	x17, x17, x16
	cbz	w15, LBB34_172
	cmp	x28, #4
	add	x10, x10, #1
	sub	w15, w15, #1
	mov	x12, x28
	b.hs	LBB34_157
	b	LBB34_207
LBB34_163:
	mov	x15, x28
	mov	x14, x10
	mov	x28, x12
	b	LBB34_173
LBB34_164:
	b.lt	LBB34_245
	sub	w15, w16, #1
	add	x14, x10, x15
LBB34_166:
	and	w13, w23, #0xff
	cmp	w13, #2
	b.hi	LBB34_168
	ldr	x13, [x26, x24, lsl #3]
	b	LBB34_169
LBB34_168:
	mov	w13, #32
LBB34_169:
	ldr	w16, [x11]
	rev	w16, w16
	mul	x13, x13, x16
	orr	x13, x13, #0x4
	subs	x28, x12, x13
	b.lo	LBB34_206
	and	x17, x17, #0xffffffff00000000
	add	x9, x9, x16
	add	x11, x11, x13
	orr	x17, x17, x16
	cbz	w15, LBB34_172
	cmp	x28, #4
	add	x10, x10, #1
	sub	w15, w15, #1
	mov	x12, x28
	b.hs	LBB34_166
	b	LBB34_207
LBB34_172:
	mov	x15, x12
LBB34_173:
	add	w5, w5, #1
	str	x9, [sp, #24]
	cmp	w5, w4
	b.ne	LBB34_129
	str	x15, [sp, #32]
	b	LBB34_225
LBB34_175:
	sub	x11, x2, x12
	sub	x13, x11, #4
	cbz	w9, LBB34_209
	and	w11, w23, #0xff
	mov	w12, #1000
	mov	w17, #770
	mul	w11, w11, w12
	add	x4, x15, #4
	mov	w15, w23
	mov	w20, #19923
	mov	w24, #35128
	mov	x14, xzr
	movk	w17, #770, lsl #16
	mov	w5, #-1073741824
	mov	w6, #-536870912
	and	x7, x15, #0xff
	orr	w19, w11, #0x1
	movk	w20, #4194, lsl #16
	movk	w24, #65, lsl #16
	mov	w25, #3
LBB34_177:
	cmp	x13, #5
	b.hs	LBB34_180
	cbz	x13, LBB34_232
	ldrb	w11, [x4]
	b	LBB34_185
LBB34_180:
	ldrb	w11, [x4]
	cmp	w11, #1
	b.eq	LBB34_183
	cbnz	w11, LBB34_185
	ldur	w15, [x4, #1]
	rev	w15, w15
	b	LBB34_184
LBB34_183:
	ldur	w15, [x4, #1]
LBB34_184:
	cmp	w15, w19
	b.eq	LBB34_197
LBB34_185:
	cbz	w11, LBB34_187
	cmp	w11, #1
	b.ne	LBB34_241
LBB34_187:
	cmp	x13, #5
	b.lo	LBB34_232
	ldur	w15, [x4, #1]
	cmp	w11, #0
	rev	w16, w15
	csel	w16, w15, w16, ne
	ubfx	w11, w16, #30, #1
	and	w15, w16, #0x7fffffff
	add	w26, w15, w5
	cmp	w11, #0
	csel	w26, w15, w26, eq
	lsr	w11, w26, #29
	add	w27, w26, w6
	cmp	w11, #0
	csel	w27, w27, w26, ne
	cmp	w27, #3999
	b.hi	LBB34_229
	umull	x26, w27, w24
	lsr	x26, x26, #32
	msub	w26, w26, w12, w27
	sub	w28, w26, #1
	cmp	w28, #6
	b.hi	LBB34_229
	tbnz	w16, #31, LBB34_193
	umull	x16, w27, w20
	lsr	w15, w15, #30
	lsr	x16, x16, #38
	cbz	w15, LBB34_194
	lsl	w15, w16, #3
	lsr	w16, w17, w15
	b	LBB34_194
LBB34_193:
	lsr	w15, w15, #30
	cmp	w27, #2000
	ccmp	w15, #0, #0, lo
	csinc	w16, w25, wzr, ne
LBB34_194:
	mov	w15, #9
	cbnz	w11, LBB34_242
	cmp	w26, #1
	b.ne	LBB34_242
	and	w11, w16, #0xff
	cmp	w11, w23, uxtb
	b.ne	LBB34_244
LBB34_197:
	ldr	x11, [x10, x7, lsl #3]
	subs	x28, x13, x11
	b.lo	LBB34_235
	add	x14, x14, #1
	add	x4, x4, x11
	mov	x11, x13
	cmp	x9, x14
	mov	x13, x28
	b.ne	LBB34_177
	b	LBB34_210
LBB34_199:
	mov	x14, xzr
	str	x9, [sp, #24]
	b	LBB34_225
LBB34_200:
	mov	x14, xzr
	mov	x28, x2
LBB34_201:
	stp	x9, x28, [sp, #24]
	mov	x28, x12
	b	LBB34_225
LBB34_202:
	mov	x9, xzr
	mov	x10, x2
	b	LBB34_224
LBB34_203:
	mov	x9, xzr
	mov	x14, xzr
	b	LBB34_225
LBB34_204:
	b.hs	LBB34_211
LBB34_205:
	mov	x9, xzr
	mov	w15, #7
	mov	w10, #1
	b	LBB34_222
LBB34_206:
	mov	w15, #5
	mov	x17, x13
	mov	x13, x12
	b	LBB34_208
LBB34_207:
	mov	w15, #7
	mov	x12, x28
LBB34_208:
	stp	x9, x12, [sp, #24]
	mov	x11, x17
	mov	x28, x12
	b	LBB34_250
LBB34_209:
	mov	x11, x2
	mov	x28, x13
LBB34_210:
	stp	x9, x11, [sp, #24]
	mov	x14, x9
	b	LBB34_225
LBB34_211:
	mov	w10, w23
	mov	x9, xzr
	adrp	x17, Lswitch.table._ZN7wkb_raw6erased5wkb_c7collect16check_member_row17heaeeda39526af6b8E.166@PAGE
	add	x17, x17, Lswitch.table._ZN7wkb_raw6erased5wkb_c7collect16check_member_row17heaeeda39526af6b8E.166@PAGEOFF
	and	x15, x10, #0xff
	mov	w10, #1
LBB34_212:
	and	w13, w23, #0xff
	cmp	w13, #2
	b.hi	LBB34_214
	ldr	x13, [x17, x15, lsl #3]
	b	LBB34_215
LBB34_214:
	mov	w13, #32
LBB34_215:
	ldr	w4, [x12]
	rev	w5, w4
	mul	x13, x13, x5
	orr	x13, x13, #0x4
	subs	x4, x28, x13
	b.lo	LBB34_221
	cmp	w16, w10
	add	x9, x9, x5
	b.eq	LBB34_223
	and	x11, x11, #0xffffffff00000000
	add	x12, x12, x13
	cmp	x4, #4
	orr	x11, x11, x5
	add	x10, x10, #1
	mov	x28, x4
	b.hs	LBB34_212
LBB34_218:
	mov	w15, #7
	mov	x28, x4
	b	LBB34_222
LBB34_219:
	mov	w15, #1
	b	LBB34_238
LBB34_220:
	mov	w15, #7
	b	LBB34_237
LBB34_221:
	mov	w15, #5
	mov	x11, x13
	mov	x13, x28
LBB34_222:
	stp	x9, x28, [sp, #24]
	b	LBB34_250
LBB34_223:
	mov	x10, x28
	mov	x28, x4
LBB34_224:
	stp	x9, x10, [sp, #24]
LBB34_225:
	sub	x11, x2, x28
	add	x10, x14, #1
	tbz	w22, #0, LBB34_227
LBB34_226:
	ldur	w12, [x1, #5]
	tst	w21, #0x1
	rev	w13, w12
	csel	w12, w12, w13, ne
	mov	w13, #1
	b	LBB34_228
LBB34_227:
	mov	w13, wzr
LBB34_228:
	and	x8, x8, #0xff
	stp	w13, w12, [x0]
	bfi	x8, x23, #8, #8
	stp	x11, x10, [x0, #8]
	bfi	x8, x21, #16, #1
	stp	x9, x8, [x0, #24]
	b	LBB34_253
LBB34_229:
	mov	w15, #1
	b	LBB34_244
LBB34_230:
	mov	w15, #7
	mov	x13, x20
	b	LBB34_239
LBB34_231:
	mov	w15, #4
	mov	x13, x28
	mov	x11, x20
	b	LBB34_239
LBB34_232:
	mov	w15, #7
	b	LBB34_242
LBB34_233:
	mov	w15, #1
	b	LBB34_249
LBB34_234:
	mov	w15, #7
	b	LBB34_247
LBB34_235:
	mov	w15, #3
	b	LBB34_243
LBB34_236:
	mov	w15, #2
LBB34_237:
LBB34_238:
LBB34_239:
	stp	x9, x28, [sp, #24]
	b	LBB34_250
LBB34_240:
	mov	w15, #7
	b	LBB34_248
LBB34_241:
	mov	w15, #2
LBB34_242:
LBB34_243:
LBB34_244:
	stp	x14, x13, [sp, #24]
	add	x10, x14, #1
	mov	x28, x13
	b	LBB34_250
LBB34_245:
	mov	w15, #7
	b	LBB34_208
LBB34_246:
	mov	w15, #2
LBB34_247:
LBB34_248:
LBB34_249:
	str	x28, [sp, #32]
	mov	x13, x28
LBB34_250:
	sub	x8, x2, x28
	cmp	w15, #6
	b.ls	LBB34_43
LBB34_251:
	adrp	x9, Lswitch.table._ZN7wkb_raw6erased7wkb_abi6column9check_row17h3e84d1932f31260dE.187@PAGE
	add	x9, x9, Lswitch.table._ZN7wkb_raw6erased7wkb_abi6column9check_row17h3e84d1932f31260dE.187@PAGEOFF
	mov	x13, xzr
	add	x9, x9, w15, sxtw #2
	mov	x11, xzr
	mov	w16, wzr
	ldur	w9, [x9, #-28]
LBB34_252:
	stp	x10, x8, [x3]
	mov	w8, #2
	stp	x11, x13, [x3, #16]
	stp	w16, w9, [x3, #32]
	stp	w8, w9, [x0]
LBB34_253:
	mov	sp, x29
	.cfi_def_cfa wsp, 96
	ldp	x20, x19, [sp, #80]
	ldp	x22, x21, [sp, #64]
	ldp	x24, x23, [sp, #48]
	ldp	x26, x25, [sp, #32]
	ldp	x28, x27, [sp, #16]
	ldp	x29, x30, [sp], #96
	.cfi_def_cfa_offset 0
	.cfi_restore w19
	.cfi_restore w20
	.cfi_restore w21
	.cfi_restore w22
	.cfi_restore w23
	.cfi_restore w24
	.cfi_restore w25
	.cfi_restore w26
	.cfi_restore w27
	.cfi_restore w28
	.cfi_restore w30
	.cfi_restore w29
	ret
Lfunc_end34:
	.cfi_endproc
	.section	__TEXT,__text,regular,pure_instructions
	.p2align	2
_ZN7wkb_raw6erased5wkb_c7collect6row_of17hce15a9a66752ab18E:
	.cfi_startproc
	ldr	x8, [x1, #48]
	cbz	x8, LBB35_3
	ldr	x9, [x1, #56]
	and	x11, x2, #0x7
	lsr	x10, x9, #3
	and	x9, x9, #0x7
	add	x9, x9, x11
	add	x10, x10, x2, lsr #3
	add	x10, x10, x9, lsr #3
	cmp	x10, x8
	b.hs	LBB35_7
	ldr	x8, [x1, #40]
	and	x9, x9, #0x7
	ldrb	w8, [x8, x10]
	eor	w8, w8, #0xff
	lsr	w8, w8, w9
LBB35_3:
	ldp	x10, x13, [x1, #24]
	ldr	x12, [x1, #16]
	ldp	x9, x11, [x1]
	cmp	x13, #4
	b.eq	LBB35_8
LBB35_4:
	cmp	x13, #8
	b.ne	LBB35_14
	add	x13, x2, #1
	cmp	x13, x10, lsr #3
	b.hs	LBB35_14
	ldr	x10, [x12, x2, lsl #3]
	ldr	x12, [x12, x13, lsl #3]
	cmp	x12, x10
	b.hs	LBB35_11
	b	LBB35_14
LBB35_7:
	mov	w8, wzr
	ldp	x10, x13, [x1, #24]
	ldr	x12, [x1, #16]
	ldp	x9, x11, [x1]
	cmp	x13, #4
	b.ne	LBB35_4
LBB35_8:
	add	x13, x2, #1
	cmp	x13, x10, lsr #2
	b.hs	LBB35_14
	ldr	w10, [x12, x2, lsl #2]
	ldr	w12, [x12, x13, lsl #2]
	cmp	w12, w10
	b.lo	LBB35_14
	tbnz	w12, #31, LBB35_14
LBB35_11:
	cmp	x11, x12
	b.lo	LBB35_14
	ldr	x11, [x3]
	cmp	x12, x11
	csel	x13, x12, x11, hi
	str	x13, [x3]
	tbz	w8, #0, LBB35_15
	mov	w8, #16
	str	w8, [x0, #8]
	str	xzr, [x0]
	ret
LBB35_14:
	tst	w8, #0x1
	mov	w8, #16
	cinc	w8, w8, eq
	str	w8, [x0, #8]
	str	xzr, [x0]
	ret
LBB35_15:
	cmp	x10, x11
	b.hs	LBB35_17
	mov	w8, #17
	str	w8, [x0, #8]
	str	xzr, [x0]
	ret
LBB35_17:
	add	x8, x9, x10
	sub	x9, x12, x10
	stp	x8, x9, [x0]
	ret
Lfunc_end35:
	.cfi_endproc
	.section	__TEXT,__text,regular,pure_instructions
	.p2align	2
_ZN7wkb_raw6erased7wkb_abi12level_slices10lay_walked17h0fd2640570ce7428E:
	.cfi_startproc
	sub	sp, sp, #192
	.cfi_def_cfa_offset 192
	stp	x29, x30, [sp, #96]
	stp	x28, x27, [sp, #112]
	stp	x26, x25, [sp, #128]
	stp	x24, x23, [sp, #144]
	stp	x22, x21, [sp, #160]
	stp	x20, x19, [sp, #176]
	.cfi_offset w19, -8
	.cfi_offset w20, -16
	.cfi_offset w21, -24
	.cfi_offset w22, -32
	.cfi_offset w23, -40
	.cfi_offset w24, -48
	.cfi_offset w25, -56
	.cfi_offset w26, -64
	.cfi_offset w27, -72
	.cfi_offset w28, -80
	.cfi_offset w30, -88
	.cfi_offset w29, -96
	ldr	w20, [x2, #24]
	ldr	x10, [x2, #16]
	mov	w22, w4
	mov	x21, x0
	adrp	x16, Lswitch.table.wkb_raw_write.374@PAGE
	add	x16, x16, Lswitch.table.wkb_raw_write.374@PAGEOFF
	cmp	w20, #2
	adrp	x17, Lswitch.table.wkb_raw_column_from_coordinates.278@PAGE
	add	x17, x17, Lswitch.table.wkb_raw_column_from_coordinates.278@PAGEOFF
	b.hi	LBB36_8
	ldrb	w4, [x2, #33]
	and	x9, x22, #0xff
	ldr	w25, [x2, #28]
	ldr	x19, [x3]
	ldr	x9, [x17, x9, lsl #3]
	cmp	w20, #1
	ldr	x8, [x16, x4, lsl #3]
	add	x0, x21, x10
	madd	x27, x8, x25, x10
	mul	x8, x19, x9
	ldp	x11, x9, [x5]
	str	x9, [sp, #48]
	ldr	x9, [x5, #16]
	stp	x9, x11, [sp, #80]
	ldrb	w9, [x2, #32]
	b.ne	LBB36_10
	cmp	w25, #1
	b.ne	LBB36_10
	ldr	x10, [sp, #88]
	add	x10, x10, x8, lsl #3
	cbz	w9, LBB36_17
	ldr	q0, [x0]
	and	w9, w22, #0xff
	cmp	w9, #1
	str	q0, [x10]
	b.gt	LBB36_21
	cbz	w9, LBB36_56
	cmp	w4, #1
	mov	x9, #9221120237041090560
	mov	w10, #2
	b.gt	LBB36_34
	cbnz	w4, LBB36_35
	b	LBB36_55
LBB36_8:
	ldr	w9, [x2, #28]
	cmp	w20, #3
	mov	w25, w9
	b.ne	LBB36_13
	ldrb	w8, [x2, #33]
	ldrb	w2, [x2, #32]
	mov	x12, xzr
	mov	w24, w25
	str	x8, [sp, #64]
	b	LBB36_14
LBB36_10:
	mov	x23, x5
	mov	x24, x3
	cmp	w4, w22, uxtb
	b.ne	LBB36_15
	tbz	w9, #0, LBB36_15
	mov	w9, w22
	mov	x26, x1
	ldr	x2, [sp, #88]
	and	x9, x9, #0xff
	mov	x3, x8
	ldr	x9, [x17, x9, lsl #3]
	mul	x1, x9, x25
	bl	_ZN7wkb_raw6erased7wkb_abi12level_slices9lay_words17h891fea4f68a17320E
	b	LBB36_16
LBB36_13:
	mov	w24, wzr
	mov	w2, #1
	mov	x12, x9
	str	xzr, [sp, #64]
LBB36_14:
	ldp	x11, x8, [x5]
	mov	x27, x10
	str	x8, [sp, #48]
	ldr	x8, [x5, #16]
	stp	x8, x11, [sp, #80]
	ldp	x8, x10, [x3, #8]
	sub	w11, w20, #1
	ldr	x13, [x5, #32]
	cmp	w11, #2
	str	x13, [sp, #8]
	b.ls	LBB36_57
	b	LBB36_58
LBB36_15:
	ldr	x6, [sp, #88]
	ldr	x7, [sp, #48]
	mov	x26, x1
	sub	x1, x1, x10
	mov	w2, w25
	mov	w3, w9
	mov	w5, w22
	str	x8, [sp]
	bl	_ZN7wkb_raw6erased7wkb_abi12level_slices20lay_many_coordinates17h7050539c17cbcb44E
LBB36_16:
	adrp	x17, Lswitch.table.wkb_raw_column_from_coordinates.278@PAGE
	add	x17, x17, Lswitch.table.wkb_raw_column_from_coordinates.278@PAGEOFF
	mov	x1, x26
	mov	x3, x24
	mov	x5, x23
	adrp	x16, Lswitch.table.wkb_raw_write.374@PAGE
	add	x16, x16, Lswitch.table.wkb_raw_write.374@PAGEOFF
	b	LBB36_56
LBB36_17:
	ldr	q0, [x0]
	and	w9, w22, #0xff
	cmp	w9, #1
	rev64	v0.16b, v0.16b
	str	q0, [x10]
	b.gt	LBB36_25
	cbz	w9, LBB36_56
	cmp	w4, #1
	mov	x9, #9221120237041090560
	mov	w10, #2
	b.gt	LBB36_36
	cbnz	w4, LBB36_37
	b	LBB36_55
LBB36_21:
	cmp	w9, #2
	b.ne	LBB36_28
	cmp	w4, #2
	b.lo	LBB36_27
	b.ne	LBB36_44
	mov	w9, #16
	b	LBB36_45
LBB36_25:
	cmp	w9, #2
	b.ne	LBB36_31
	cmp	w4, #2
	b.hs	LBB36_38
LBB36_27:
	mov	x9, #9221120237041090560
	mov	w10, #2
	b	LBB36_55
LBB36_28:
	cmp	w4, #1
	b.gt	LBB36_40
	cbz	w4, LBB36_33
	ldr	x9, [x0, #16]
	b	LBB36_47
LBB36_31:
	cmp	w4, #1
	b.gt	LBB36_42
	cbnz	w4, LBB36_46
LBB36_33:
	mov	x9, #9221120237041090560
	str	x9, [x10, #16]
	b	LBB36_54
LBB36_34:
	cmp	w4, #2
	b.eq	LBB36_55
LBB36_35:
	ldr	x9, [x0, #16]
	mov	w10, #2
	b	LBB36_55
LBB36_36:
	cmp	w4, #2
	b.eq	LBB36_55
LBB36_37:
	ldr	x9, [x0, #16]
	b	LBB36_50
LBB36_38:
	cmp	w4, #2
	b.ne	LBB36_48
	mov	w9, #16
	b	LBB36_49
LBB36_40:
	cmp	w4, #2
	b.ne	LBB36_51
	ldr	x9, [x0, #16]
	mov	x11, #9221120237041090560
	b	LBB36_52
LBB36_42:
	cmp	w4, #2
	b.ne	LBB36_53
	ldr	x9, [x0, #16]
	mov	x11, #9221120237041090560
	str	x11, [x10, #16]
	rev	x9, x9
	b	LBB36_54
LBB36_44:
	mov	w9, #24
LBB36_45:
	ldr	x9, [x0, x9]
	mov	w10, #2
	b	LBB36_55
LBB36_46:
	ldr	x9, [x0, #16]
	rev	x9, x9
LBB36_47:
	str	x9, [x10, #16]
	mov	x9, #9221120237041090560
	b	LBB36_54
LBB36_48:
	mov	w9, #24
LBB36_49:
	ldr	x9, [x0, x9]
LBB36_50:
	rev	x9, x9
	mov	w10, #2
	b	LBB36_55
LBB36_51:
	ldp	x11, x9, [x0, #16]
LBB36_52:
	str	x11, [x10, #16]
	b	LBB36_54
LBB36_53:
	ldp	x9, x11, [x0, #16]
	rev	x9, x9
	str	x9, [x10, #16]
	rev	x9, x11
LBB36_54:
	mov	w10, #3
LBB36_55:
	add	x8, x8, x10
	ldr	x10, [sp, #88]
	str	x9, [x10, x8, lsl #3]
LBB36_56:
	ldr	x8, [x3, #8]
	ldr	x10, [sp, #80]
	add	x9, x19, x25
	mov	w24, wzr
	mov	x12, xzr
	mov	w2, #1
	str	x9, [x10, x8, lsl #3]
	mov	w9, #1
	str	xzr, [sp, #64]
	sub	w11, w20, #1
	ldr	x10, [x3, #16]
	ldr	x13, [x5, #32]
	cmp	w11, #2
	str	x13, [sp, #8]
	b.hi	LBB36_58
LBB36_57:
	ldr	x11, [sp, #8]
	add	x9, x8, x9
	str	x9, [x11, x10, lsl #3]
LBB36_58:
	ldr	x9, [x3]
	str	x12, [sp, #40]
	mov	w11, w22
	and	x0, x11, #0xff
	str	x1, [sp, #56]
	adds	x12, x9, w25, uxtw
	str	x0, [sp, #72]
	csinv	x12, x12, xzr, lo
	cmp	w20, #3
	cset	w13, lo
	csel	x23, x12, x9, lo
	adds	x8, x8, x13
	csinv	x19, x8, xzr, lo
	cmp	w20, #4
	cset	w8, lo
	adds	x8, x10, x8
	csinv	x8, x8, xzr, lo
	cmp	w20, #0
	csel	x8, x10, x8, eq
	str	x8, [sp, #32]
	str	x8, [sp, #16]
	b	LBB36_63
LBB36_59:
	mov	w8, #3
LBB36_60:
	str	x8, [sp, #16]
	mov	w8, #4
LBB36_61:
	add	x8, x27, x8
	tst	w9, #0x1
	ldr	x13, [sp, #32]
	add	x11, x8, x21
	mov	x10, xzr
	mov	w24, wzr
	ldur	w11, [x11, #5]
	add	x27, x8, #9
	rev	w12, w11
	csel	w9, w11, w12, ne
	add	x9, x28, x9
	sub	x28, x9, #1
LBB36_62:
	adds	x8, x13, x10
	stp	w29, w26, [sp, #24]
	csinv	x8, x8, xzr, lo
	stp	x8, x28, [sp, #32]
LBB36_63:
	ldr	x9, [sp, #64]
	mov	x26, x22
	mov	w20, w2
	and	w8, w9, #0xff
	and	x28, x9, #0xff
	cmp	w8, w22, uxtb
	cset	w8, eq
	and	w29, w2, w8
	b	LBB36_66
LBB36_64:
	ldr	x10, [x17, x0, lsl #3]
	ldr	x2, [sp, #88]
	add	x0, x21, x27
	mov	x3, x8
	mul	x1, x10, x9
	bl	_ZN7wkb_raw6erased7wkb_abi12level_slices9lay_words17h891fea4f68a17320E
LBB36_65:
	ldp	x0, x9, [sp, #72]
	adds	x8, x23, x25
	madd	x27, x22, x25, x27
	csinv	x23, x8, xzr, lo
	sub	w24, w24, #1
	adrp	x16, Lswitch.table.wkb_raw_write.374@PAGE
	add	x16, x16, Lswitch.table.wkb_raw_write.374@PAGEOFF
	adrp	x17, Lswitch.table.wkb_raw_column_from_coordinates.278@PAGE
	add	x17, x17, Lswitch.table.wkb_raw_column_from_coordinates.278@PAGEOFF
	str	x8, [x9, x19, lsl #3]
	add	x19, x19, #1
	mov	w2, w20
LBB36_66:
	cbz	w24, LBB36_69
	ldr	x8, [x17, x0, lsl #3]
	ldr	w9, [x21, x27]
	tst	w2, #0x1
	ldr	x22, [x16, x28, lsl #3]
	add	x27, x27, #4
	mul	x8, x8, x23
	rev	w10, w9
	csel	w25, w9, w10, ne
	tbnz	w29, #0, LBB36_64
	ldp	x9, x4, [sp, #56]
	add	x0, x21, x27
	ldr	x6, [sp, #88]
	ldr	x7, [sp, #48]
	and	w3, w2, #0x1
	mov	w2, w25
	mov	w5, w26
	str	x8, [sp]
	sub	x1, x9, x27
	bl	_ZN7wkb_raw6erased7wkb_abi12level_slices20lay_many_coordinates17h7050539c17cbcb44E
	b	LBB36_65
LBB36_69:
	ldr	x28, [sp, #40]
	cbz	x28, LBB36_212
	ldr	x15, [sp, #56]
	add	x12, x21, x27
	sub	x11, x15, x27
	cmp	x11, #5
	b.hs	LBB36_73
	cmp	x15, x27
	mov	x22, x26
	b.ne	LBB36_81
	ldp	w29, w26, [sp, #24]
	b	LBB36_98
LBB36_73:
	ldrb	w13, [x12]
	mov	x22, x26
	cmp	w13, #1
	b.eq	LBB36_85
	cbnz	w13, LBB36_82
	ldur	w8, [x12, #1]
	mov	w9, wzr
	rev	w10, w8
	lsr	w8, w10, #29
	cbz	w8, LBB36_86
LBB36_76:
	mov	w8, #3
	mov	w29, wzr
	mov	w26, #1
	movk	w8, #8192, lsl #16
	cmp	w10, w8
	b.le	LBB36_103
	mov	w8, #5
	movk	w8, #8192, lsl #16
	cmp	w10, w8
	b.gt	LBB36_111
	mov	w8, #4
	movk	w8, #8192, lsl #16
	cmp	w10, w8
	b.eq	LBB36_59
	mov	w8, #5
	movk	w8, #8192, lsl #16
	cmp	w10, w8
	b.ne	LBB36_82
	mov	w29, wzr
	mov	w8, #4
	b	LBB36_60
LBB36_81:
	ldrb	w13, [x12]
LBB36_82:
	ldr	w26, [sp, #28]
	cbz	w13, LBB36_91
	cmp	w13, #1
	b.ne	LBB36_97
	mov	w9, #1
	cmp	x11, #5
	b.hs	LBB36_92
	b	LBB36_97
LBB36_85:
	ldur	w10, [x12, #1]
	mov	w9, #1
	lsr	w8, w10, #29
	cbnz	w8, LBB36_76
LBB36_86:
	mov	x8, xzr
	cmp	w10, #3
	mov	w26, wzr
	b.le	LBB36_106
	cmp	w10, #5
	b.gt	LBB36_114
	cmp	w10, #4
	b.eq	LBB36_147
	cmp	w10, #5
	b.ne	LBB36_142
	mov	w26, wzr
	mov	w29, wzr
	mov	x8, xzr
	mov	w10, #4
	b	LBB36_151
LBB36_91:
	mov	w9, wzr
	cmp	x11, #5
	b.lo	LBB36_97
LBB36_92:
	ldur	w8, [x12, #1]
	cmp	w9, #0
	rev	w10, w8
	csel	w12, w8, w10, ne
	mov	w10, #-1073741824
	ubfx	w8, w12, #30, #1
	and	w11, w12, #0x7fffffff
	add	w10, w11, w10
	cmp	w8, #0
	csel	w8, w11, w10, eq
	lsr	w10, w8, #29
	cmp	w10, #0
	mov	w10, #-536870912
	add	w10, w8, w10
	csel	w13, w10, w8, ne
	cset	w8, ne
	cmp	w13, #3999
	b.hi	LBB36_97
	mov	w10, #35128
	mov	w14, #1000
	movk	w10, #65, lsl #16
	umull	x10, w13, w10
	lsr	x10, x10, #32
	msub	w10, w10, w14, w13
	sub	w14, w10, #1
	cmp	w14, #6
	b.hi	LBB36_97
	tbnz	w12, #31, LBB36_160
	mov	w12, #19923
	lsr	w11, w11, #30
	movk	w12, #4194, lsl #16
	umull	x12, w13, w12
	lsr	x12, x12, #38
	mov	w29, w12
	cbz	w11, LBB36_161
	lsl	w11, w12, #3
	mov	w12, #770
	movk	w12, #770, lsl #16
	lsr	w29, w12, w11
	b	LBB36_161
LBB36_97:
	ldr	w29, [sp, #24]
LBB36_98:
	mov	w9, #2
LBB36_99:
	ldr	x8, [sp, #16]
	tst	w26, #0x1
	and	w10, w8, #0xff
	mov	w8, #4
	csel	x8, x8, xzr, ne
	cmp	w10, #2
	b.gt	LBB36_61
	cbz	w10, LBB36_119
	cmp	w10, #1
	b.ne	LBB36_110
LBB36_102:
	add	x8, x27, x8
	tst	w9, #0x1
	mov	w12, wzr
	add	x10, x8, x21
	add	x27, x8, #9
	mov	w8, #1
	ldur	w10, [x10, #5]
	str	x8, [sp, #16]
	rev	w11, w10
	csel	w11, w10, w11, ne
	b	LBB36_120
LBB36_103:
	mov	w8, #1
	movk	w8, #8192, lsl #16
	cmp	w10, w8
	b.eq	LBB36_117
	mov	w8, #2
	movk	w8, #8192, lsl #16
	cmp	w10, w8
	b.eq	LBB36_152
	mov	w8, #3
	movk	w8, #8192, lsl #16
	cmp	w10, w8
	mov	w8, #4
	b.eq	LBB36_110
	b	LBB36_82
LBB36_106:
	cmp	w10, #1
	b.eq	LBB36_118
	cmp	w10, #2
	b.eq	LBB36_153
	cmp	w10, #3
	b.ne	LBB36_142
	mov	w29, w26
LBB36_110:
	add	x8, x27, x8
	tst	w9, #0x1
	ldr	x13, [sp, #32]
	add	x10, x8, x21
	add	x27, x8, #9
	sub	x28, x28, #1
	ldur	w10, [x10, #5]
	mov	w12, #2
	mov	w2, w9
	str	x12, [sp, #16]
	rev	w11, w10
	csel	w24, w10, w11, ne
	ldr	x10, [sp, #8]
	add	x8, x24, x19
	str	x8, [x10, x13, lsl #3]
	mov	w10, #1
	mov	w8, w29
	str	x8, [sp, #64]
	b	LBB36_62
LBB36_111:
	mov	w8, #6
	movk	w8, #8192, lsl #16
	cmp	w10, w8
	b.eq	LBB36_148
	mov	w8, #7
	movk	w8, #8192, lsl #16
	cmp	w10, w8
	b.ne	LBB36_82
	mov	w29, wzr
	mov	w8, #6
	b	LBB36_60
LBB36_114:
	cmp	w10, #6
	b.eq	LBB36_149
	cmp	w10, #7
	b.ne	LBB36_142
	mov	w26, wzr
	mov	w29, wzr
	mov	x8, xzr
	mov	w10, #6
	b	LBB36_151
LBB36_117:
	mov	w8, #4
	b	LBB36_119
LBB36_118:
	mov	w29, w26
LBB36_119:
	add	x8, x27, x8
	str	xzr, [sp, #16]
	mov	w11, #1
	add	x27, x8, #5
	mov	w12, #1
LBB36_120:
	ldr	x8, [x17, x0, lsl #3]
	and	x10, x29, #0xff
	mov	w25, w11
	ldr	x14, [x16, x10, lsl #3]
	add	x10, x21, x27
	mul	x8, x8, x23
	cbz	w12, LBB36_127
	cmp	w11, #1
	b.ne	LBB36_127
	ldr	x11, [sp, #88]
	add	x11, x11, x8, lsl #3
	tbz	w9, #0, LBB36_131
	ldr	q0, [x10]
	and	w9, w22, #0xff
	ldr	x13, [sp, #32]
	cmp	w9, #1
	str	q0, [x11]
	b.gt	LBB36_135
	cbz	w9, LBB36_197
	and	w12, w29, #0xff
	mov	x9, #9221120237041090560
	cmp	w12, #1
	b.gt	LBB36_167
	mov	w11, #2
	cbnz	w12, LBB36_168
	b	LBB36_196
LBB36_127:
	and	w10, w29, #0xff
	mov	x24, x14
	cmp	w10, w22, uxtb
	cset	w10, eq
	and	w10, w9, w10
	tbz	w10, #0, LBB36_129
	ldr	x9, [x17, x0, lsl #3]
	ldr	x2, [sp, #88]
	add	x0, x21, x27
	mov	x3, x8
	mul	x1, x9, x25
	bl	_ZN7wkb_raw6erased7wkb_abi12level_slices9lay_words17h891fea4f68a17320E
	b	LBB36_130
LBB36_129:
	ldr	x6, [sp, #88]
	ldr	x7, [sp, #48]
	add	x0, x21, x27
	sub	x1, x15, x27
	and	w3, w9, #0x1
	mov	w2, w25
	mov	w4, w29
	mov	w5, w22
	str	x8, [sp]
	bl	_ZN7wkb_raw6erased7wkb_abi12level_slices20lay_many_coordinates17h7050539c17cbcb44E
LBB36_130:
	ldr	x0, [sp, #72]
	ldr	x13, [sp, #32]
	adrp	x17, Lswitch.table.wkb_raw_column_from_coordinates.278@PAGE
	add	x17, x17, Lswitch.table.wkb_raw_column_from_coordinates.278@PAGEOFF
	adrp	x16, Lswitch.table.wkb_raw_write.374@PAGE
	add	x16, x16, Lswitch.table.wkb_raw_write.374@PAGEOFF
	mov	w2, w20
	mov	x14, x24
	b	LBB36_197
LBB36_131:
	ldr	q0, [x10]
	and	w9, w22, #0xff
	ldr	x13, [sp, #32]
	cmp	w9, #1
	rev64	v0.16b, v0.16b
	str	q0, [x11]
	b.gt	LBB36_139
	cbz	w9, LBB36_197
	and	w12, w29, #0xff
	mov	x9, #9221120237041090560
	cmp	w12, #1
	b.gt	LBB36_169
	mov	w11, #2
	cbnz	w12, LBB36_170
	b	LBB36_196
LBB36_135:
	cmp	w9, #2
	b.ne	LBB36_154
	and	w9, w29, #0xff
	cmp	w9, #2
	b.lo	LBB36_141
	b.ne	LBB36_186
	mov	w9, #16
	b	LBB36_187
LBB36_139:
	cmp	w9, #2
	b.ne	LBB36_157
	and	w9, w29, #0xff
	cmp	w9, #2
	b.hs	LBB36_171
LBB36_141:
	mov	x9, #9221120237041090560
	mov	w11, #2
	b	LBB36_196
LBB36_142:
	sub	w8, w10, #1001
	cmp	w8, #7
	b.hs	LBB36_162
	mov	x8, xzr
	mov	w26, wzr
	cmp	w10, #1003
	mov	w29, #1
	mov	w11, #6
	str	x11, [sp, #16]
	b.gt	LBB36_177
	cmp	w10, #1001
	b.eq	LBB36_119
	cmp	w10, #1002
	b.eq	LBB36_102
	cmp	w10, #1003
	b.eq	LBB36_110
	b	LBB36_61
LBB36_147:
	mov	w10, #3
	mov	w29, w26
	str	x10, [sp, #16]
	b	LBB36_61
LBB36_148:
	mov	w29, wzr
	mov	w8, #5
	b	LBB36_60
LBB36_149:
	mov	w26, wzr
	mov	w29, wzr
	mov	x8, xzr
LBB36_150:
	mov	w10, #5
LBB36_151:
	str	x10, [sp, #16]
	b	LBB36_61
LBB36_152:
	mov	w8, #4
	b	LBB36_102
LBB36_153:
	mov	w29, w26
	b	LBB36_102
LBB36_154:
	and	w9, w29, #0xff
	cmp	w9, #1
	b.gt	LBB36_173
	cbz	w9, LBB36_159
	ldr	x9, [x10, #16]
	b	LBB36_189
LBB36_157:
	and	w9, w29, #0xff
	cmp	w9, #1
	b.gt	LBB36_175
	cbnz	w9, LBB36_188
LBB36_159:
	mov	x9, #9221120237041090560
	str	x9, [x11, #16]
	b	LBB36_195
LBB36_160:
	lsr	w11, w11, #30
	cmp	w13, #2000
	ccmp	w11, #0, #0, lo
	mov	w11, #3
	csinc	w29, w11, wzr, ne
LBB36_161:
	mov	x12, #6
	lsl	w11, w10, #3
	cmp	w10, #7
	movk	x12, #513, lsl #16
	mov	w10, #6
	mov	w26, w8
	movk	x12, #1027, lsl #32
	movk	x12, #5, lsl #48
	lsr	x11, x12, x11
	csel	w10, w11, w10, lo
	str	x10, [sp, #16]
	b	LBB36_99
LBB36_162:
	sub	w8, w10, #2001
	cmp	w8, #7
	b.hs	LBB36_181
	mov	x8, xzr
	mov	w26, wzr
	cmp	w10, #2003
	mov	w29, #2
	mov	w11, #6
	str	x11, [sp, #16]
	b.gt	LBB36_198
	cmp	w10, #2001
	b.eq	LBB36_119
	cmp	w10, #2002
	b.eq	LBB36_102
	cmp	w10, #2003
	b.eq	LBB36_110
	b	LBB36_61
LBB36_167:
	cmp	w12, #2
	mov	w11, #2
	b.eq	LBB36_196
LBB36_168:
	ldr	x9, [x10, #16]
	mov	w11, #2
	b	LBB36_196
LBB36_169:
	cmp	w12, #2
	mov	w11, #2
	b.eq	LBB36_196
LBB36_170:
	ldr	x9, [x10, #16]
	b	LBB36_192
LBB36_171:
	b.ne	LBB36_190
	mov	w9, #16
	b	LBB36_191
LBB36_173:
	cmp	w9, #2
	b.ne	LBB36_193
	ldr	x9, [x10, #16]
	mov	x10, #9221120237041090560
	str	x10, [x11, #16]
	b	LBB36_195
LBB36_175:
	cmp	w9, #2
	b.ne	LBB36_194
	ldr	x9, [x10, #16]
	mov	x10, #9221120237041090560
	str	x10, [x11, #16]
	rev	x9, x9
	b	LBB36_195
LBB36_177:
	cmp	w10, #1004
	b.eq	LBB36_202
	cmp	w10, #1005
	b.eq	LBB36_203
	cmp	w10, #1006
	b.ne	LBB36_61
	mov	w26, wzr
	mov	x8, xzr
	mov	w29, #1
	b	LBB36_150
LBB36_181:
	sub	w8, w10, #3001
	cmp	w8, #7
	b.hs	LBB36_82
	mov	x8, xzr
	mov	w26, wzr
	cmp	w10, #3003
	mov	w29, #3
	mov	w11, #6
	str	x11, [sp, #16]
	b.gt	LBB36_204
	cmp	w10, #3001
	b.eq	LBB36_119
	cmp	w10, #3002
	b.eq	LBB36_102
	cmp	w10, #3003
	b.eq	LBB36_110
	b	LBB36_61
LBB36_186:
	mov	w9, #24
LBB36_187:
	ldr	x9, [x10, x9]
	mov	w11, #2
	b	LBB36_196
LBB36_188:
	ldr	x9, [x10, #16]
	rev	x9, x9
LBB36_189:
	str	x9, [x11, #16]
	mov	x9, #9221120237041090560
	b	LBB36_195
LBB36_190:
	mov	w9, #24
LBB36_191:
	ldr	x9, [x10, x9]
LBB36_192:
	rev	x9, x9
	mov	w11, #2
	b	LBB36_196
LBB36_193:
	ldp	x12, x9, [x10, #16]
	str	x12, [x11, #16]
	b	LBB36_195
LBB36_194:
	ldp	x9, x10, [x10, #16]
	rev	x9, x9
	str	x9, [x11, #16]
	rev	x9, x10
LBB36_195:
	mov	w11, #3
LBB36_196:
	ldr	x10, [sp, #88]
	add	x8, x8, x11
	str	x9, [x10, x8, lsl #3]
LBB36_197:
	ldr	x9, [sp, #80]
	adds	x8, x23, x25
	mov	w24, wzr
	csinv	x23, x8, xzr, lo
	madd	x27, x14, x25, x27
	sub	x28, x28, #1
	str	x8, [x9, x19, lsl #3]
	ldr	x9, [sp, #8]
	adds	x8, x19, #1
	csinv	x19, x8, xzr, lo
	mov	w10, #1
	str	x8, [x9, x13, lsl #3]
	b	LBB36_62
LBB36_198:
	cmp	w10, #2004
	b.eq	LBB36_208
	cmp	w10, #2005
	b.eq	LBB36_209
	cmp	w10, #2006
	b.ne	LBB36_61
	mov	w26, wzr
	mov	x8, xzr
	mov	w29, #2
	b	LBB36_150
LBB36_202:
	mov	w26, wzr
	mov	x8, xzr
	mov	w29, #1
	mov	w10, #3
	b	LBB36_151
LBB36_203:
	mov	w26, wzr
	mov	x8, xzr
	mov	w29, #1
	mov	w10, #4
	b	LBB36_151
LBB36_204:
	cmp	w10, #3006
	b.eq	LBB36_210
	cmp	w10, #3005
	b.eq	LBB36_211
	cmp	w10, #3004
	b.ne	LBB36_61
	mov	w10, #3
	mov	w26, wzr
	mov	x8, xzr
	str	x10, [sp, #16]
	mov	w29, #3
	b	LBB36_61
LBB36_208:
	mov	w26, wzr
	mov	x8, xzr
	mov	w29, #2
	mov	w10, #3
	b	LBB36_151
LBB36_209:
	mov	w26, wzr
	mov	x8, xzr
	mov	w29, #2
	mov	w10, #4
	b	LBB36_151
LBB36_210:
	mov	w26, wzr
	mov	x8, xzr
	mov	w29, #3
	b	LBB36_150
LBB36_211:
	mov	w26, wzr
	mov	x8, xzr
	mov	w29, #3
	mov	w10, #4
	b	LBB36_151
LBB36_212:
	ldp	x20, x19, [sp, #176]
	ldp	x22, x21, [sp, #160]
	ldp	x24, x23, [sp, #144]
	ldp	x26, x25, [sp, #128]
	ldp	x28, x27, [sp, #112]
	ldp	x29, x30, [sp, #96]
	add	sp, sp, #192
	.cfi_def_cfa_offset 0
	.cfi_restore w19
	.cfi_restore w20
	.cfi_restore w21
	.cfi_restore w22
	.cfi_restore w23
	.cfi_restore w24
	.cfi_restore w25
	.cfi_restore w26
	.cfi_restore w27
	.cfi_restore w28
	.cfi_restore w30
	.cfi_restore w29
	ret
Lfunc_end36:
	.cfi_endproc
	.section	__TEXT,__text,regular,pure_instructions
	.p2align	2
_ZN7wkb_raw6erased7wkb_abi12level_slices20lay_many_coordinates17h7050539c17cbcb44E:
	.cfi_startproc
	ldr	x8, [sp]
	cbz	w3, LBB37_26
	cbz	w2, LBB37_83
	mov	x9, xzr
	and	x10, x4, #0xff
	and	x11, x5, #0xff
	adrp	x12, Lswitch.table.wkb_raw_write.374@PAGE
	add	x12, x12, Lswitch.table.wkb_raw_write.374@PAGEOFF
	adrp	x13, Lswitch.table.wkb_raw_column_from_coordinates.278@PAGE
	add	x13, x13, Lswitch.table.wkb_raw_column_from_coordinates.278@PAGEOFF
	mov	x14, #9221120237041090560
	b	LBB37_7
LBB37_3:
	ldp	x17, x15, [x15, #16]
	str	x17, [x16, #16]
LBB37_4:
	mov	w16, #3
LBB37_5:
	add	x16, x8, x16
	str	x15, [x6, x16, lsl #3]
LBB37_6:
	ldr	x15, [x12, x10, lsl #3]
	ldr	x16, [x13, x11, lsl #3]
	subs	w2, w2, #1
	add	x9, x15, x9
	add	x8, x16, x8
	b.eq	LBB37_83
LBB37_7:
	lsl	x16, x8, #3
	and	w15, w5, #0xff
	ldr	q0, [x0, x9]
	cmp	w15, #1
	str	q0, [x6, x16]
	b.gt	LBB37_11
	cbz	w15, LBB37_6
	and	w17, w4, #0xff
	mov	x15, #9221120237041090560
	cmp	w17, #1
	b.gt	LBB37_17
	mov	w16, #2
	cbz	w17, LBB37_5
	b	LBB37_18
LBB37_11:
	cmp	w15, #2
	b.ne	LBB37_14
	and	w15, w4, #0xff
	cmp	w15, #2
	b.hs	LBB37_19
	mov	x15, #9221120237041090560
	mov	w16, #2
	b	LBB37_5
LBB37_14:
	and	w15, w4, #0xff
	cmp	w15, #1
	b.gt	LBB37_21
	cbnz	w15, LBB37_23
	add	x16, x6, x8, lsl #3
	mov	x15, #9221120237041090560
	str	x15, [x16, #16]
	b	LBB37_4
LBB37_17:
	cmp	w17, #2
	mov	w16, #2
	b.eq	LBB37_5
LBB37_18:
	add	x15, x9, x0
	mov	w16, #2
	ldr	x15, [x15, #16]
	b	LBB37_5
LBB37_19:
	b.ne	LBB37_24
	mov	w15, #16
	b	LBB37_25
LBB37_21:
	add	x16, x6, x8, lsl #3
	cmp	w15, #2
	add	x15, x9, x0
	b.ne	LBB37_3
	ldr	x15, [x15, #16]
	str	x14, [x16, #16]
	b	LBB37_4
LBB37_23:
	add	x15, x9, x0
	add	x16, x6, x8, lsl #3
	ldr	x15, [x15, #16]
	str	x15, [x16, #16]
	mov	x15, #9221120237041090560
	b	LBB37_4
LBB37_24:
	mov	w15, #24
LBB37_25:
	add	x15, x9, x15
	mov	w16, #2
	ldr	x15, [x0, x15]
	b	LBB37_5
LBB37_26:
	and	w9, w4, #0xff
	cmp	w9, #1
	b.gt	LBB37_32
	cbnz	w9, LBB37_37
	tst	w5, #0xff
	b.ne	LBB37_41
	cbz	w2, LBB37_83
	cmp	w2, #1
	b.ne	LBB37_78
	mov	x9, xzr
	mov	w10, wzr
	mov	x11, x8
	b	LBB37_81
LBB37_32:
	cmp	w9, #2
	b.eq	LBB37_41
	and	w9, w5, #0xff
	cmp	w9, #3
	b.ne	LBB37_41
	cbz	w2, LBB37_83
	cmp	w2, #1
	b.ne	LBB37_68
	mov	x9, xzr
	mov	w10, wzr
	mov	x11, x8
	b	LBB37_71
LBB37_37:
	and	w9, w5, #0xff
	cmp	w9, #1
	b.ne	LBB37_41
	cbz	w2, LBB37_83
	cmp	w2, #1
	b.ne	LBB37_73
	mov	x10, xzr
	mov	w9, wzr
	b	LBB37_76
LBB37_41:
	cbz	w2, LBB37_83
	mov	w10, w4
	mov	w11, w5
	mov	x9, xzr
	and	x10, x10, #0xff
	and	x11, x11, #0xff
	adrp	x12, Lswitch.table.wkb_raw_write.374@PAGE
	add	x12, x12, Lswitch.table.wkb_raw_write.374@PAGEOFF
	adrp	x13, Lswitch.table.wkb_raw_column_from_coordinates.278@PAGE
	add	x13, x13, Lswitch.table.wkb_raw_column_from_coordinates.278@PAGEOFF
	mov	x14, #9221120237041090560
	b	LBB37_48
LBB37_43:
	ldp	x17, x16, [x16, #16]
	rev	x17, x17
	str	x17, [x15, #16]
LBB37_44:
	rev	x15, x16
LBB37_45:
	mov	w16, #3
LBB37_46:
	add	x16, x8, x16
	str	x15, [x6, x16, lsl #3]
LBB37_47:
	ldr	x15, [x12, x10, lsl #3]
	ldr	x16, [x13, x11, lsl #3]
	subs	w2, w2, #1
	add	x9, x15, x9
	add	x8, x16, x8
	b.eq	LBB37_83
LBB37_48:
	ldr	q0, [x0, x9]
	lsl	x16, x8, #3
	and	w15, w5, #0xff
	cmp	w15, #1
	rev64	v0.16b, v0.16b
	str	q0, [x6, x16]
	b.gt	LBB37_52
	cbz	w15, LBB37_47
	and	w17, w4, #0xff
	mov	x15, #9221120237041090560
	cmp	w17, #1
	b.gt	LBB37_58
	mov	w16, #2
	cbz	w17, LBB37_46
	b	LBB37_59
LBB37_52:
	cmp	w15, #2
	b.ne	LBB37_55
	and	w15, w4, #0xff
	cmp	w15, #2
	b.hs	LBB37_60
	mov	x15, #9221120237041090560
	mov	w16, #2
	b	LBB37_46
LBB37_55:
	and	w15, w4, #0xff
	cmp	w15, #1
	b.gt	LBB37_62
	cbnz	w15, LBB37_64
	add	x16, x6, x8, lsl #3
	mov	x15, #9221120237041090560
	str	x15, [x16, #16]
	b	LBB37_45
LBB37_58:
	cmp	w17, #2
	mov	w16, #2
	b.eq	LBB37_46
LBB37_59:
	add	x15, x9, x0
	ldr	x15, [x15, #16]
	b	LBB37_67
LBB37_60:
	b.ne	LBB37_65
	mov	w15, #16
	b	LBB37_66
LBB37_62:
	cmp	w15, #2
	add	x15, x6, x8, lsl #3
	add	x16, x9, x0
	b.ne	LBB37_43
	ldr	x16, [x16, #16]
	str	x14, [x15, #16]
	b	LBB37_44
LBB37_64:
	add	x15, x9, x0
	add	x16, x6, x8, lsl #3
	ldr	x15, [x15, #16]
	rev	x15, x15
	str	x15, [x16, #16]
	mov	x15, #9221120237041090560
	b	LBB37_45
LBB37_65:
	mov	w15, #24
LBB37_66:
	add	x15, x9, x15
	ldr	x15, [x0, x15]
LBB37_67:
	rev	x15, x15
	mov	w16, #2
	b	LBB37_46
LBB37_68:
	mov	w12, w2
	mov	x14, x0
	and	x10, x12, #0xfffffffe
	and	x13, x12, #0xfffffffe
	add	x11, x8, x10, lsl #2
	lsl	x9, x10, #5
	add	x8, x6, x8, lsl #3
LBB37_69:
	ldp	q1, q0, [x14, #32]
	subs	x13, x13, #2
	ldp	q3, q2, [x14], #64
	rev64	v0.16b, v0.16b
	rev64	v1.16b, v1.16b
	rev64	v2.16b, v2.16b
	rev64	v3.16b, v3.16b
	stp	q1, q0, [x8, #32]
	stp	q3, q2, [x8], #64
	b.ne	LBB37_69
	cmp	x10, x12
	b.eq	LBB37_83
LBB37_71:
	add	x11, x6, x11, lsl #3
	sub	w8, w2, w10
	add	x10, x11, #16
	add	x11, x0, #16
LBB37_72:
	add	x12, x11, x9
	subs	w8, w8, #1
	add	x9, x9, #32
	ldp	q0, q1, [x12, #-16]
	rev64	v0.16b, v0.16b
	rev64	v1.16b, v1.16b
	stp	q0, q1, [x10, #-16]
	add	x10, x10, #32
	b.ne	LBB37_72
	b	LBB37_83
LBB37_73:
	mov	w11, w2
	add	x12, x6, x8, lsl #3
	and	x9, x11, #0xfffffffe
	and	x14, x11, #0xfffffffe
	add	x13, x9, x9, lsl #1
	lsl	x10, x13, #3
	add	x8, x8, x13
	mov	x13, x0
LBB37_74:
	ldp	q1, q0, [x13, #16]
	subs	x14, x14, #2
	ldr	q2, [x13], #48
	rev64	v0.16b, v0.16b
	rev64	v1.16b, v1.16b
	rev64	v2.16b, v2.16b
	stp	q1, q0, [x12, #16]
	str	q2, [x12], #48
	b.ne	LBB37_74
	cmp	x9, x11
	b.eq	LBB37_83
LBB37_76:
	add	x8, x6, x8, lsl #3
	mov	x11, xzr
	add	x10, x0, x10
	sub	w9, w2, w9
LBB37_77:
	add	x12, x10, x11
	add	x13, x8, x11
	subs	w9, w9, #1
	ldr	q0, [x12]
	ldr	x12, [x12, #16]
	add	x11, x11, #24
	rev64	v0.16b, v0.16b
	rev	x12, x12
	str	x12, [x13, #16]
	str	q0, [x13]
	b.ne	LBB37_77
	b	LBB37_83
LBB37_78:
	mov	w12, w2
	mov	x14, x0
	and	x10, x12, #0xfffffffe
	and	x13, x12, #0xfffffffe
	add	x11, x8, x10, lsl #1
	lsl	x9, x10, #4
	add	x8, x6, x8, lsl #3
LBB37_79:
	ldp	q1, q0, [x14], #32
	subs	x13, x13, #2
	rev64	v0.16b, v0.16b
	rev64	v1.16b, v1.16b
	stp	q1, q0, [x8], #32
	b.ne	LBB37_79
	cmp	x10, x12
	b.eq	LBB37_83
LBB37_81:
	add	x8, x6, x11, lsl #3
	sub	w10, w2, w10
LBB37_82:
	ldr	q0, [x0, x9]
	subs	w10, w10, #1
	add	x9, x9, #16
	rev64	v0.16b, v0.16b
	str	q0, [x8], #16
	b.ne	LBB37_82
LBB37_83:
	ret
Lfunc_end37:
	.cfi_endproc
	.section	__TEXT,__text,regular,pure_instructions
	.p2align	2
_ZN7wkb_raw6erased7wkb_abi12level_slices9lay_words17h891fea4f68a17320E:
	.cfi_startproc
	cbz	x1, LBB38_2
	mov	x8, x0
	add	x0, x2, x3, lsl #3
	lsl	x2, x1, #3
	mov	x1, x8
	b	_memcpy
LBB38_2:
	ret
Lfunc_end38:
	.cfi_endproc
	.section	__TEXT,__text,regular,pure_instructions
	.p2align	2
_ZN7wkb_raw6erased7wkb_abi5parts14lay_geometries17hceb80ed4adcfb7b9E:
	.cfi_startproc
	cbz	w2, LBB39_127
	stp	x29, x30, [sp, #-96]!
	.cfi_def_cfa_offset 96
	stp	x28, x27, [sp, #16]
	stp	x26, x25, [sp, #32]
	stp	x24, x23, [sp, #48]
	stp	x22, x21, [sp, #64]
	stp	x20, x19, [sp, #80]
	.cfi_offset w19, -8
	.cfi_offset w20, -16
	.cfi_offset w21, -24
	.cfi_offset w22, -32
	.cfi_offset w23, -40
	.cfi_offset w24, -48
	.cfi_offset w25, -56
	.cfi_offset w26, -64
	.cfi_offset w27, -72
	.cfi_offset w28, -80
	.cfi_offset w30, -88
	.cfi_offset w29, -96
	mov	x19, x4
	mov	w20, w2
	mov	x21, x3
	mov	x22, x1
	mov	x23, x0
	mov	w24, wzr
	adrp	x26, Lswitch.table.wkb_raw_parts.323@PAGE
	add	x26, x26, Lswitch.table.wkb_raw_parts.323@PAGEOFF
	b	LBB39_4
LBB39_2:
	mov	x0, x23
	mov	x1, x22
	mov	x3, x21
	mov	x4, x19
	mov	x5, x9
	mov	x6, x8
	bl	_ZN7wkb_raw6erased7wkb_abi5parts14lay_geometries17hceb80ed4adcfb7b9E
	mov	x9, x0
	mov	x8, x1
LBB39_3:
	add	w24, w24, #1
	mov	x5, x9
	mov	x6, x8
	cmp	w24, w20
	str	x8, [x27, #8]
	str	x9, [x27, #32]
	b.eq	LBB39_126
LBB39_4:
	sub	x9, x22, x6
	add	x27, x21, x5, lsl #6
	add	x8, x23, x6
	cmp	x9, #5
	b.hs	LBB39_7
	cmp	x22, x6
	b.eq	LBB39_73
	ldrb	w10, [x8]
	b	LBB39_65
LBB39_7:
	ldrb	w10, [x8]
	cmp	w10, #1
	b.eq	LBB39_15
	cbnz	w10, LBB39_65
	ldur	w11, [x8, #1]
	rev	w11, w11
	lsr	w12, w11, #29
	cbz	w12, LBB39_16
LBB39_10:
	mov	w12, #3
	movk	w12, #8192, lsl #16
	cmp	w11, w12
	b.le	LBB39_21
	mov	w12, #5
	movk	w12, #8192, lsl #16
	cmp	w11, w12
	b.gt	LBB39_29
	mov	w12, #4
	movk	w12, #8192, lsl #16
	cmp	w11, w12
	b.eq	LBB39_43
	mov	w12, #5
	movk	w12, #8192, lsl #16
	cmp	w11, w12
	b.ne	LBB39_65
	mov	w11, wzr
	mov	w13, wzr
	mov	w28, wzr
	mov	w25, #4
	mov	w12, #5
	b	LBB39_92
LBB39_15:
	ldur	w11, [x8, #1]
	lsr	w12, w11, #29
	cbnz	w12, LBB39_10
LBB39_16:
	cmp	w11, #3
	b.le	LBB39_25
	cmp	w11, #5
	b.gt	LBB39_32
	cmp	w11, #4
	b.eq	LBB39_44
	cmp	w11, #5
	mov	w13, wzr
	b.ne	LBB39_38
LBB39_20:
	mov	w11, wzr
	mov	w25, #4
	mov	w12, #5
	mov	w28, w13
	b	LBB39_93
LBB39_21:
	mov	w12, #1
	movk	w12, #8192, lsl #16
	cmp	w11, w12
	b.eq	LBB39_35
	mov	w12, #2
	movk	w12, #8192, lsl #16
	cmp	w11, w12
	b.eq	LBB39_49
	mov	w12, #3
	movk	w12, #8192, lsl #16
	cmp	w11, w12
	b.ne	LBB39_65
	mov	w13, wzr
	mov	w28, wzr
	mov	w25, #2
	mov	w11, #1
	mov	w12, #3
	b	LBB39_92
LBB39_25:
	cmp	w11, #1
	b.eq	LBB39_36
	cmp	w11, #2
	b.eq	LBB39_50
	cmp	w11, #3
	mov	w13, wzr
	b.ne	LBB39_38
LBB39_28:
	mov	w25, #2
	mov	w11, #1
	mov	w12, #3
	mov	w28, w13
	b	LBB39_93
LBB39_29:
	mov	w12, #6
	movk	w12, #8192, lsl #16
	cmp	w11, w12
	b.eq	LBB39_46
	mov	w12, #7
	movk	w12, #8192, lsl #16
	cmp	w11, w12
	b.ne	LBB39_65
	mov	w11, wzr
	mov	w13, wzr
	mov	w28, wzr
	mov	w25, #6
	mov	w12, #7
	b	LBB39_92
LBB39_32:
	cmp	w11, #6
	b.eq	LBB39_47
	cmp	w11, #7
	mov	w13, wzr
	b.ne	LBB39_38
LBB39_34:
	mov	w11, wzr
	mov	w25, #6
	mov	w12, #7
	mov	w28, w13
	b	LBB39_93
LBB39_35:
	mov	w28, wzr
	b	LBB39_89
LBB39_36:
	mov	w14, wzr
	mov	w13, wzr
LBB39_37:
	mov	w29, wzr
	mov	w8, #5
	b	LBB39_112
LBB39_38:
	sub	w12, w11, #1001
	cmp	w12, #7
	b.hs	LBB39_52
	cmp	w11, #1003
	mov	w13, #1
	b.gt	LBB39_57
	cmp	w11, #1001
	b.eq	LBB39_119
	cmp	w11, #1002
	b.eq	LBB39_51
	cmp	w11, #1003
	b.eq	LBB39_28
	b	LBB39_34
LBB39_43:
	mov	w11, wzr
	mov	w13, wzr
	mov	w28, wzr
	mov	w25, #3
	mov	w12, #4
	b	LBB39_92
LBB39_44:
	mov	w13, wzr
LBB39_45:
	mov	w11, wzr
	mov	w25, #3
	mov	w12, #4
	mov	w28, w13
	b	LBB39_93
LBB39_46:
	mov	w11, wzr
	mov	w13, wzr
	mov	w28, wzr
	mov	w25, #5
	mov	w12, #6
	b	LBB39_92
LBB39_47:
	mov	w13, wzr
LBB39_48:
	mov	w11, wzr
	mov	w25, #5
	mov	w12, #6
	mov	w28, w13
	b	LBB39_93
LBB39_49:
	mov	w11, wzr
	mov	w28, wzr
	b	LBB39_87
LBB39_50:
	mov	w13, wzr
LBB39_51:
	mov	w28, w13
	b	LBB39_110
LBB39_52:
	sub	w12, w11, #2001
	cmp	w12, #7
	b.hs	LBB39_60
	cmp	w11, #2003
	mov	w13, #2
	b.gt	LBB39_120
	cmp	w11, #2001
	b.eq	LBB39_119
	cmp	w11, #2002
	b.eq	LBB39_51
	cmp	w11, #2003
	b.eq	LBB39_28
	b	LBB39_34
LBB39_57:
	cmp	w11, #1004
	b.eq	LBB39_45
	cmp	w11, #1005
	b.eq	LBB39_20
	cmp	w11, #1006
	b.eq	LBB39_48
	b	LBB39_34
LBB39_60:
	sub	w12, w11, #3001
	cmp	w12, #7
	b.hs	LBB39_65
	cmp	w11, #3003
	mov	w13, #3
	b.gt	LBB39_123
	cmp	w11, #3001
	b.eq	LBB39_119
	cmp	w11, #3002
	b.eq	LBB39_51
	cmp	w11, #3003
	b.eq	LBB39_28
	b	LBB39_34
LBB39_65:
	cbz	w10, LBB39_67
	cmp	w10, #1
	b.ne	LBB39_73
LBB39_67:
	cmp	x9, #5
	b.lo	LBB39_73
	ldur	w9, [x8, #1]
	cmp	w10, #0
	rev	w11, w9
	csel	w13, w9, w11, ne
	mov	w11, #-1073741824
	ubfx	w9, w13, #30, #1
	and	w12, w13, #0x7fffffff
	add	w11, w12, w11
	cmp	w9, #0
	csel	w9, w12, w11, eq
	lsr	w11, w9, #29
	cmp	w11, #0
	mov	w11, #-536870912
	add	w11, w9, w11
	csel	w14, w11, w9, ne
	cset	w9, ne
	cmp	w14, #3999
	b.hi	LBB39_73
	mov	w11, #35128
	mov	w15, #1000
	movk	w11, #65, lsl #16
	umull	x11, w14, w11
	lsr	x11, x11, #32
	msub	w11, w11, w15, w14
	sub	w15, w11, #1
	cmp	w15, #6
	b.hi	LBB39_73
	tbnz	w13, #31, LBB39_81
	mov	w13, #19923
	lsr	w12, w12, #30
	movk	w13, #4194, lsl #16
	umull	x13, w14, w13
	lsr	x13, x13, #38
	mov	w28, w13
	cbz	w12, LBB39_82
	lsl	w12, w13, #3
	mov	w13, #770
	movk	w13, #770, lsl #16
	lsr	w28, w13, w12
	b	LBB39_82
LBB39_73:
	mov	w10, #2
	and	w9, w25, #0xff
	cmp	w9, #2
	b.le	LBB39_83
LBB39_74:
	cmp	w9, #4
	b.gt	LBB39_77
	cmp	w9, #3
	b.ne	LBB39_79
	mov	w11, wzr
	mov	w13, wzr
	mov	w25, #3
	mov	w12, #4
	tbnz	w29, #0, LBB39_92
	b	LBB39_93
LBB39_77:
	cmp	w9, #5
	b.ne	LBB39_80
	mov	w11, wzr
	mov	w13, wzr
	mov	w25, #5
	mov	w12, #6
	tbnz	w29, #0, LBB39_92
	b	LBB39_93
LBB39_79:
	mov	w11, wzr
	mov	w13, wzr
	mov	w25, #4
	mov	w12, #5
	tbnz	w29, #0, LBB39_92
	b	LBB39_93
LBB39_80:
	mov	w11, wzr
	mov	w13, wzr
	mov	w25, #6
	mov	w12, #7
	tbnz	w29, #0, LBB39_92
	b	LBB39_93
LBB39_81:
	lsr	w12, w12, #30
	cmp	w14, #2000
	ccmp	w12, #0, #0, lo
	mov	w12, #3
	csinc	w28, w12, wzr, ne
LBB39_82:
	mov	x13, #6
	lsl	w12, w11, #3
	cmp	w11, #7
	movk	x13, #513, lsl #16
	mov	w11, #6
	mov	w29, w9
	movk	x13, #1027, lsl #32
	movk	x13, #5, lsl #48
	lsr	x12, x13, x12
	csel	w25, w12, w11, lo
	and	w9, w25, #0xff
	cmp	w9, #2
	b.gt	LBB39_74
LBB39_83:
	cbz	w9, LBB39_88
	cmp	w9, #1
	b.ne	LBB39_90
	tbz	w29, #0, LBB39_110
	mov	w11, wzr
LBB39_87:
	mov	w13, #1
	mov	w12, #2
	mov	w25, #1
	b	LBB39_92
LBB39_88:
	tbz	w29, #0, LBB39_111
LBB39_89:
	ldur	w8, [x8, #5]
	tst	w10, #0x1
	mov	w14, #1
	mov	w13, w28
	mov	w29, #1
	rev	w9, w8
	csel	w15, w8, w9, ne
	mov	w8, #9
	b	LBB39_112
LBB39_90:
	mov	w25, #2
	mov	w11, #1
	mov	w12, #3
	tbz	w29, #0, LBB39_93
	mov	w13, wzr
LBB39_92:
	add	x9, x6, x23
	ldur	w14, [x8, #5]
	tst	w10, #0x1
	ldur	w9, [x9, #9]
	add	x8, x6, #13
	mov	w29, #1
	rev	w15, w14
	rev	w16, w9
	csel	w15, w14, w15, ne
	mov	w14, #1
	csel	w2, w9, w16, ne
	add	x9, x5, #1
	tbz	w13, #0, LBB39_94
	b	LBB39_113
LBB39_93:
	add	x8, x6, x23
	tst	w10, #0x1
	mov	w29, wzr
	ldur	w8, [x8, #5]
	rev	w9, w8
	csel	w2, w8, w9, ne
	add	x8, x6, #9
	add	x9, x5, #1
LBB39_94:
	cmp	w29, #0
	mov	w13, w2
	stp	x6, x8, [x27]
	stp	x8, x13, [x27, #16]
	csel	w14, w15, wzr, ne
	and	x13, x28, #0xff
	stp	w14, w29, [x27, #40]
	ldr	w14, [x26, x13, lsl #2]
	and	w13, w28, #0xff
	stp	w12, w13, [x27, #48]
	stp	w14, w10, [x27, #56]
	tbz	w11, #0, LBB39_2
	cbz	w2, LBB39_3
	add	x9, x21, #124
	add	x11, x5, #2
	add	x9, x9, x5, lsl #6
	tbnz	w10, #0, LBB39_99
	b	LBB39_105
LBB39_97:
	add	x14, x12, x12, lsl #1
	lsl	x15, x14, #3
	mov	w14, #3
LBB39_98:
	add	x16, x8, #4
	stur	x8, [x9, #-60]
	subs	w2, w2, #1
	add	x8, x15, x16
	stur	x16, [x9, #-44]
	stur	x8, [x9, #-52]
	stur	x12, [x9, #-36]
	stur	x11, [x9, #-28]
	add	x11, x11, #1
	stur	xzr, [x9, #-20]
	stp	wzr, w13, [x9, #-12]
	stp	w14, w10, [x9, #-4]
	add	x9, x9, #64
	b.eq	LBB39_109
LBB39_99:
	and	w14, w28, #0xff
	ldr	w12, [x23, x8]
	sub	w15, w14, #1
	cmp	w15, #2
	b.lo	LBB39_97
	cbnz	w14, LBB39_102
	lsl	x15, x12, #4
	mov	w14, #2
	b	LBB39_98
LBB39_102:
	lsl	x15, x12, #5
	mov	w14, #4
	b	LBB39_98
LBB39_103:
	add	x14, x12, x12, lsl #1
	lsl	x15, x14, #3
	mov	w14, #3
LBB39_104:
	add	x16, x8, #4
	stur	x8, [x9, #-60]
	subs	w2, w2, #1
	add	x8, x15, x16
	stur	x16, [x9, #-44]
	stur	x8, [x9, #-52]
	stur	x12, [x9, #-36]
	stur	x11, [x9, #-28]
	add	x11, x11, #1
	stur	xzr, [x9, #-20]
	stp	wzr, w13, [x9, #-12]
	stp	w14, w10, [x9, #-4]
	add	x9, x9, #64
	b.eq	LBB39_109
LBB39_105:
	and	w14, w28, #0xff
	ldr	w12, [x23, x8]
	sub	w15, w14, #1
	cmp	w15, #2
	rev	w12, w12
	b.lo	LBB39_103
	cmp	w14, #3
	b.ne	LBB39_108
	lsl	x15, x12, #5
	mov	w14, #4
	b	LBB39_104
LBB39_108:
	lsl	x15, x12, #4
	mov	w14, #2
	b	LBB39_104
LBB39_109:
	sub	x9, x11, #1
	b	LBB39_3
LBB39_110:
	add	x8, x6, x23
	tst	w10, #0x1
	mov	w29, wzr
	ldur	w9, [x8, #5]
	mov	w14, wzr
	add	x8, x6, #9
	mov	w25, #1
	mov	w12, #2
	rev	w11, w9
	csel	w2, w9, w11, ne
	add	x9, x5, #1
	b	LBB39_113
LBB39_111:
	mov	w14, wzr
	mov	w29, wzr
	mov	w8, #5
	mov	w13, w28
LBB39_112:
	mov	w25, wzr
	add	x8, x6, x8
	add	x9, x5, #1
	mov	w2, #1
	mov	w12, #1
	mov	w28, w13
LBB39_113:
	and	w16, w28, #0xff
	cmp	w14, #0
	sub	w13, w16, #1
	csel	w11, w15, wzr, ne
	cmp	w13, #2
	mov	w13, w2
	b.hs	LBB39_115
	add	x15, x13, x13, lsl #1
	mov	w16, #3
	lsl	x15, x15, #3
	b	LBB39_118
LBB39_115:
	cmp	w16, #3
	b.ne	LBB39_117
	lsl	x15, x13, #5
	mov	w16, #4
	b	LBB39_118
LBB39_117:
	lsl	x15, x13, #4
	mov	w16, #2
LBB39_118:
	stp	w11, w14, [x27, #40]
	and	w11, w28, #0xff
	str	x6, [x27]
	stp	x8, x13, [x27, #16]
	add	x8, x15, x8
	stp	w12, w11, [x27, #48]
	stp	w16, w10, [x27, #56]
	b	LBB39_3
LBB39_119:
	mov	w14, wzr
	b	LBB39_37
LBB39_120:
	cmp	w11, #2004
	b.eq	LBB39_45
	cmp	w11, #2005
	b.eq	LBB39_20
	cmp	w11, #2006
	b.eq	LBB39_48
	b	LBB39_34
LBB39_123:
	cmp	w11, #3004
	b.eq	LBB39_45
	cmp	w11, #3005
	b.eq	LBB39_20
	cmp	w11, #3006
	b.eq	LBB39_48
	b	LBB39_34
LBB39_126:
	ldp	x20, x19, [sp, #80]
	ldp	x22, x21, [sp, #64]
	ldp	x24, x23, [sp, #48]
	ldp	x26, x25, [sp, #32]
	ldp	x28, x27, [sp, #16]
	ldp	x29, x30, [sp], #96
	.cfi_def_cfa_offset 0
	.cfi_restore w19
	.cfi_restore w20
	.cfi_restore w21
	.cfi_restore w22
	.cfi_restore w23
	.cfi_restore w24
	.cfi_restore w25
	.cfi_restore w26
	.cfi_restore w27
	.cfi_restore w28
	.cfi_restore w30
	.cfi_restore w29
	mov	x0, x9
	mov	x1, x8
	ret
LBB39_127:
	mov	x8, x6
	mov	x9, x5
	mov	x0, x9
	mov	x1, x8
	ret
Lfunc_end39:
	.cfi_endproc
	.section	__TEXT,__text,regular,pure_instructions
	.p2align	2
_ZN7wkb_raw6erased7wkb_abi6column9check_row17h3e84d1932f31260dE:
	.cfi_startproc
	stp	x29, x30, [sp, #-96]!
	.cfi_def_cfa_offset 96
	stp	x28, x27, [sp, #16]
	stp	x26, x25, [sp, #32]
	stp	x24, x23, [sp, #48]
	stp	x22, x21, [sp, #64]
	stp	x20, x19, [sp, #80]
	mov	x29, sp
	.cfi_def_cfa w29, 96
	.cfi_offset w19, -8
	.cfi_offset w20, -16
	.cfi_offset w21, -24
	.cfi_offset w22, -32
	.cfi_offset w23, -40
	.cfi_offset w24, -48
	.cfi_offset w25, -56
	.cfi_offset w26, -64
	.cfi_offset w27, -72
	.cfi_offset w28, -80
	.cfi_offset w30, -88
	.cfi_offset w29, -96
	sub	x9, sp, #96
	and	sp, x9, #0xffffffffffffffe0
	cmp	x2, #5
	b.hs	LBB40_3
	cbz	x2, LBB40_64
	ldrb	w21, [x1]
	b	LBB40_60
LBB40_3:
	ldrb	w21, [x1]
	cmp	w21, #1
	b.eq	LBB40_10
	cbnz	w21, LBB40_60
	ldur	w8, [x1, #1]
	rev	w9, w8
	lsr	w8, w9, #29
	cmp	w8, #0
	cset	w22, ne
	cbz	w8, LBB40_11
LBB40_6:
	mov	w8, #3
	mov	w23, wzr
	movk	w8, #8192, lsl #16
	cmp	w9, w8
	b.le	LBB40_16
	mov	w8, #5
	movk	w8, #8192, lsl #16
	cmp	w9, w8
	b.gt	LBB40_23
	mov	w8, #4
	movk	w8, #8192, lsl #16
	cmp	w9, w8
	b.eq	LBB40_29
	mov	w8, #5
	movk	w8, #8192, lsl #16
	cmp	w9, w8
	b.eq	LBB40_15
	b	LBB40_60
LBB40_10:
	ldur	w9, [x1, #1]
	lsr	w8, w9, #29
	cmp	w8, #0
	cset	w22, ne
	cbnz	w8, LBB40_6
LBB40_11:
	cmp	w9, #3
	mov	w23, wzr
	b.le	LBB40_19
	cmp	w9, #5
	b.gt	LBB40_25
	cmp	w9, #4
	b.eq	LBB40_29
	cmp	w9, #5
	b.ne	LBB40_27
LBB40_15:
	mov	w23, wzr
	mov	w8, #4
	b	LBB40_32
LBB40_16:
	mov	w8, #1
	movk	w8, #8192, lsl #16
	cmp	w9, w8
	mov	w8, w23
	b.eq	LBB40_32
	mov	w8, #2
	movk	w8, #8192, lsl #16
	cmp	w9, w8
	b.eq	LBB40_31
	mov	w8, #3
	movk	w8, #8192, lsl #16
	cmp	w9, w8
	b.eq	LBB40_22
	b	LBB40_60
LBB40_19:
	cmp	w9, #1
	mov	w8, w23
	b.eq	LBB40_32
	cmp	w9, #2
	b.eq	LBB40_31
	cmp	w9, #3
	b.ne	LBB40_27
LBB40_22:
	mov	w23, wzr
	mov	w8, #2
	b	LBB40_32
LBB40_23:
	mov	w8, #6
	movk	w8, #8192, lsl #16
	cmp	w9, w8
	b.eq	LBB40_30
	mov	w8, #7
	movk	w8, #8192, lsl #16
	cmp	w9, w8
	b.eq	LBB40_59
	b	LBB40_60
LBB40_25:
	cmp	w9, #6
	b.eq	LBB40_30
	cmp	w9, #7
	b.eq	LBB40_59
LBB40_27:
	sub	w8, w9, #1001
	cmp	w8, #7
	b.hs	LBB40_49
	mov	w23, #1
	b	LBB40_58
LBB40_29:
	mov	w23, wzr
	mov	w8, #3
	b	LBB40_32
LBB40_30:
	mov	w23, wzr
	mov	w8, #5
	b	LBB40_32
LBB40_31:
	mov	w23, wzr
	mov	w8, #1
LBB40_32:
	tst	w9, #0xe0000000
	stp	xzr, xzr, [sp, #16]
	cset	w9, ne
	str	x2, [sp, #32]
	strb	w9, [sp, #65]
	mov	w9, #1
	strb	w21, [sp, #64]
	strb	w8, [sp, #66]
	strb	w23, [sp, #67]
	str	w9, [sp, #72]
	and	w9, w8, #0xff
	cmp	w9, #2
	b.gt	LBB40_75
LBB40_33:
	cbz	w9, LBB40_38
	cmp	w9, #1
	b.ne	LBB40_40
	cmp	w22, #0
	mov	w9, #5
	mov	w10, #9
	csel	x9, x10, x9, ne
	add	x10, x9, #4
	cmp	x2, x10
	b.lo	LBB40_110
	ldr	w9, [x1, x9]
	mov	w10, w23
	adrp	x11, Lswitch.table.wkb_raw_write.374@PAGE
	add	x11, x11, Lswitch.table.wkb_raw_write.374@PAGEOFF
	and	x10, x10, #0xff
	tst	w21, #0x1
	rev	w12, w9
	ldr	x10, [x11, x10, lsl #3]
	mov	w11, #9
	csel	w9, w9, w12, ne
	cmp	w22, #0
	mov	w12, #13
	csel	x11, x12, x11, ne
	madd	x10, x10, x9, x11
	subs	x10, x2, x10
	b.hs	LBB40_181
	mov	w27, #4
	cmp	w27, #7
	b.lo	LBB40_205
	b	LBB40_203
LBB40_38:
	mov	w9, w23
	adrp	x12, Lswitch.table.wkb_raw_write.374@PAGE
	add	x12, x12, Lswitch.table.wkb_raw_write.374@PAGEOFF
	and	x9, x9, #0xff
	cmp	w22, #0
	mov	w10, #5
	mov	w11, #9
	ldr	x9, [x12, x9, lsl #3]
	csel	x10, x11, x10, ne
	add	x9, x9, x10
	subs	x10, x2, x9
	b.hs	LBB40_48
	mov	w27, #3
	cmp	w27, #7
	b.lo	LBB40_205
	b	LBB40_203
LBB40_40:
	cmp	w22, #0
	mov	w9, #5
	mov	w10, #9
	csel	x9, x10, x9, ne
	add	x10, x9, #4
	cmp	x2, x10
	b.lo	LBB40_110
	add	x12, x1, x9
	tst	w21, #0x1
	sub	x9, x2, x9
	ldr	w14, [x12], #4
	sub	x10, x9, #4
	rev	w15, w14
	csel	w11, w14, w15, ne
	cbz	w11, LBB40_51
	cmp	x9, #8
	tbz	w21, #0, LBB40_53
	b.lo	LBB40_54
	mov	w13, w23
	adrp	x15, Lswitch.table.wkb_raw_write.374@PAGE
	add	x15, x15, Lswitch.table.wkb_raw_write.374@PAGEOFF
	and	x13, x13, #0xff
	mov	x9, xzr
	mov	w27, #7
	ldr	x15, [x15, x13, lsl #3]
	mov	x13, x10
LBB40_45:
	ldr	w17, [x12]
	mul	x10, x15, x17
	orr	x16, x10, #0x4
	subs	x10, x13, x16
	b.lo	LBB40_196
	subs	w14, w14, #1
	add	x9, x9, x17
	b.eq	LBB40_52
	cmp	x10, #4
	add	x12, x12, x16
	mov	x13, x10
	b.hs	LBB40_45
	b	LBB40_201
LBB40_48:
	mov	w9, #1
	b	LBB40_181
LBB40_49:
	sub	w8, w9, #2001
	cmp	w8, #7
	b.hs	LBB40_56
	mov	w23, #2
	b	LBB40_58
LBB40_51:
	mov	x9, xzr
	mov	x13, x2
LBB40_52:
	str	x13, [sp, #32]
	str	x11, [sp, #16]
	b	LBB40_181
LBB40_53:
	b.hs	LBB40_192
LBB40_54:
	mov	x9, xzr
LBB40_55:
	mov	w27, #7
	b	LBB40_201
LBB40_56:
	sub	w8, w9, #3001
	cmp	w8, #7
	b.hs	LBB40_60
	mov	w23, #3
LBB40_58:
	cmp	w8, #6
	b.lo	LBB40_32
LBB40_59:
	tst	w9, #0xe0000000
	mov	x19, x1
	mov	x24, x0
	cset	w8, ne
	stp	xzr, xzr, [sp, #16]
	mov	x20, x2
	strb	w8, [sp, #65]
	mov	w8, #6
	strb	w8, [sp, #66]
	mov	w8, #1
	str	x2, [sp, #32]
	strb	w21, [sp, #64]
	strb	w23, [sp, #67]
	str	w8, [sp, #72]
	b	LBB40_153
LBB40_60:
	cbz	w21, LBB40_63
	cmp	w21, #1
	b.ne	LBB40_70
	mov	w21, #1
LBB40_63:
	cmp	x2, #5
	b.hs	LBB40_65
LBB40_64:
	mov	w8, #32
	b	LBB40_206
LBB40_65:
	ldur	w8, [x1, #1]
	cmp	w21, #0
	mov	w10, #-1073741824
	mov	w12, #-536870912
	rev	w9, w8
	csel	w9, w8, w9, ne
	ubfx	w8, w9, #30, #1
	and	w11, w9, #0x7fffffff
	add	w10, w11, w10
	cmp	w8, #0
	csel	w10, w11, w10, eq
	lsr	w8, w10, #29
	cmp	w8, #0
	add	w8, w10, w12
	csel	w12, w8, w10, ne
	cset	w22, ne
	cmp	w12, #3999
	b.hi	LBB40_71
	ubfx	w8, w12, #3, #13
	mov	w13, #8389
	mul	w8, w8, w13
	mov	w13, #1000
	lsr	w8, w8, #20
	msub	w8, w8, w13, w12
	sub	w8, w8, #1
	and	w13, w8, #0xffff
	cmp	w13, #7
	b.hs	LBB40_71
	lsr	w11, w11, #30
	tbnz	w9, #31, LBB40_72
	mov	w13, #19923
	movk	w13, #4194, lsl #16
	umull	x12, w12, w13
	lsr	x12, x12, #38
	mov	w23, w12
	cbz	w11, LBB40_73
	lsl	w11, w12, #3
	mov	w12, #770
	movk	w12, #770, lsl #16
	lsr	w23, w12, w11
	b	LBB40_73
LBB40_70:
	mov	w8, #33
	b	LBB40_206
LBB40_71:
	mov	w8, #34
	b	LBB40_206
LBB40_72:
	cmp	w12, #2000
	ccmp	w11, #0, #0, lo
	mov	w11, #3
	csinc	w23, w11, wzr, ne
LBB40_73:
	and	w11, w8, #0xffff
	cmp	w11, #6
	b.hs	LBB40_152
	tst	w10, #0xe0000000
	stp	xzr, xzr, [sp, #16]
	cset	w10, ne
	str	x2, [sp, #32]
	strb	w10, [sp, #65]
	mov	w10, #1
	strb	w21, [sp, #64]
	strb	w8, [sp, #66]
	strb	w23, [sp, #67]
	stp	w10, w9, [sp, #72]
	and	w9, w8, #0xff
	cmp	w9, #2
	b.le	LBB40_33
LBB40_75:
	cmp	w9, #3
	b.eq	LBB40_106
	cmp	w9, #4
	b.ne	LBB40_109
	cmp	w22, #0
	mov	w9, #5
	mov	w10, #9
	csel	x9, x10, x9, ne
	add	x10, x9, #4
	cmp	x2, x10
	b.lo	LBB40_110
	add	x10, x1, x9
	tst	w21, #0x1
	sub	x9, x2, x9
	ldr	w11, [x10]
	sub	x26, x9, #4
	mov	x9, xzr
	rev	w12, w11
	csel	w11, w11, w12, ne
	cbz	w11, LBB40_179
	add	x13, x10, #4
	and	w10, w23, #0xff
	mov	w14, #1000
	mul	w10, w10, w14
	mov	w12, w23
	mov	w3, #35128
	mov	w15, #-1073741824
	mov	w16, #-536870912
	movk	w3, #65, lsl #16
	and	x4, x12, #0xff
	mov	w6, #5
	mov	w19, #9
	orr	w7, w10, #0x2
	mov	w20, #13
	adrp	x24, Lswitch.table.wkb_raw_write.374@PAGE
	add	x24, x24, Lswitch.table.wkb_raw_write.374@PAGEOFF
	mov	w25, w11
LBB40_80:
	mov	x10, x26
	cmp	x26, #5
	b.hs	LBB40_83
	cbz	x10, LBB40_55
	ldrb	w27, [x13]
	b	LBB40_89
LBB40_83:
	ldrb	w27, [x13]
	cmp	w27, #1
	b.eq	LBB40_86
	cbnz	w27, LBB40_89
	ldur	w12, [x13, #1]
	mov	w26, wzr
	rev	w12, w12
	b	LBB40_87
LBB40_86:
	ldur	w12, [x13, #1]
	mov	w26, #1
LBB40_87:
	cmp	w12, w7
	b.ne	LBB40_89
	mov	w12, #9
	mov	w5, #5
	b	LBB40_103
LBB40_89:
	cbz	w27, LBB40_92
	cmp	w27, #1
	b.ne	LBB40_198
	mov	w26, #1
	b	LBB40_93
LBB40_92:
	mov	w26, wzr
LBB40_93:
	cmp	x10, #5
	b.lo	LBB40_55
	ldur	w12, [x13, #1]
	cmp	w26, #0
	rev	w5, w12
	csel	w12, w12, w5, ne
	ubfx	w5, w12, #30, #1
	and	w30, w12, #0x7fffffff
	add	w27, w30, w15
	cmp	w5, #0
	csel	w5, w30, w27, eq
	lsr	w28, w5, #29
	add	w27, w5, w16
	cmp	w28, #0
	csel	w5, w27, w5, ne
	cmp	w5, #3999
	b.hi	LBB40_187
	umull	x27, w5, w3
	lsr	x27, x27, #32
	msub	w27, w27, w14, w5
	sub	w17, w27, #1
	cmp	w17, #6
	b.hi	LBB40_187
	tbnz	w12, #31, LBB40_99
	mov	w12, #19923
	lsr	w17, w30, #30
	movk	w12, #4194, lsl #16
	umull	x12, w5, w12
	lsr	x12, x12, #38
	cbz	w17, LBB40_100
	lsl	w12, w12, #3
	mov	w17, #770
	movk	w17, #770, lsl #16
	lsr	w12, w17, w12
	b	LBB40_100
LBB40_99:
	lsr	w12, w30, #30
	cmp	w5, #2000
	ccmp	w12, #0, #0, lo
	mov	w12, #3
	csinc	w12, w12, wzr, ne
LBB40_100:
	cmp	w27, #2
	mov	w27, #9
	b.ne	LBB40_201
	and	w12, w12, #0xff
	cmp	w12, w23, uxtb
	b.ne	LBB40_201
	cmp	w28, #0
	csel	x5, x19, x6, ne
	csel	x12, x20, x19, ne
LBB40_103:
	add	x17, x5, #4
	cmp	x10, x17
	b.lo	LBB40_55
	ldr	w17, [x13, x5]
	cmp	w26, #0
	ldr	x26, [x24, x4, lsl #3]
	rev	w5, w17
	csel	w5, w17, w5, ne
	madd	x12, x26, x5, x12
	subs	x26, x10, x12
	b.lo	LBB40_197
	subs	w25, w25, #1
	add	x9, x9, x5
	add	x13, x13, x12
	b.ne	LBB40_80
	b	LBB40_180
LBB40_106:
	cmp	w22, #0
	mov	w9, #5
	mov	w10, #9
	csel	x9, x10, x9, ne
	add	x10, x9, #4
	cmp	x2, x10
	b.lo	LBB40_110
	add	x10, x1, x9
	mov	w13, w23
	adrp	x12, Lswitch.table.wkb_raw_write.371@PAGE
	add	x12, x12, Lswitch.table.wkb_raw_write.371@PAGEOFF
	ldr	w11, [x10]
	and	x13, x13, #0xff
	tst	w21, #0x1
	ldr	x13, [x12, x13, lsl #3]
	mov	w15, #13
	rev	w14, w11
	csel	w11, w11, w14, ne
	cmp	w22, #0
	mov	w14, #9
	csel	x14, x15, x14, ne
	madd	x13, x13, x11, x14
	cmp	x2, x13
	b.hs	LBB40_156
	mov	w27, #6
	cmp	w27, #7
	b.lo	LBB40_205
	b	LBB40_203
LBB40_109:
	cmp	w22, #0
	mov	w9, #5
	mov	w10, #9
	csel	x9, x10, x9, ne
	add	x10, x9, #4
	cmp	x2, x10
	b.hs	LBB40_111
LBB40_110:
	mov	w27, #7
	cmp	w27, #7
	b.lo	LBB40_205
	b	LBB40_203
LBB40_111:
	add	x10, x1, x9
	tst	w21, #0x1
	sub	x9, x2, x9
	ldr	w11, [x10]
	sub	x28, x9, #4
	rev	w12, w11
	csel	w11, w11, w12, ne
	cbz	w11, LBB40_186
	and	w15, w23, #0xff
	mov	w13, #1000
	add	x14, x10, #4
	mul	w10, w15, w13
	mov	w17, w23
	mov	w4, #35128
	mov	w12, wzr
	mov	x19, xzr
	mov	x9, xzr
	mov	w15, #-1073741824
	mov	w16, #-536870912
	and	x3, x17, #0xff
	movk	w4, #65, lsl #16
	orr	w6, w10, #0x3
	mov	w7, #5
	mov	w20, #9
LBB40_113:
	cmp	x28, #5
	str	x28, [sp, #32]
	b.hs	LBB40_116
	cbz	x28, LBB40_110
	ldrb	w10, [x14]
	b	LBB40_122
LBB40_116:
	ldrb	w10, [x14]
	cmp	w10, #1
	b.eq	LBB40_119
	cbnz	w10, LBB40_122
	ldur	w17, [x14, #1]
	mov	w30, wzr
	rev	w17, w17
	b	LBB40_120
LBB40_119:
	ldur	w17, [x14, #1]
	mov	w30, #1
LBB40_120:
	cmp	w17, w6
	b.ne	LBB40_122
	mov	w10, #5
	b	LBB40_136
LBB40_122:
	cbz	w10, LBB40_125
	cmp	w10, #1
	b.ne	LBB40_204
	mov	w30, #1
	b	LBB40_126
LBB40_125:
	mov	w30, wzr
LBB40_126:
	cmp	x28, #5
	b.lo	LBB40_110
	ldur	w10, [x14, #1]
	cmp	w30, #0
	rev	w17, w10
	csel	w5, w10, w17, ne
	ubfx	w10, w5, #30, #1
	and	w27, w5, #0x7fffffff
	add	w17, w27, w15
	cmp	w10, #0
	csel	w17, w27, w17, eq
	lsr	w10, w17, #29
	add	w24, w17, w16
	cmp	w10, #0
	csel	w17, w24, w17, ne
	cmp	w17, #3999
	b.hi	LBB40_199
	umull	x24, w17, w4
	lsr	x24, x24, #32
	msub	w24, w24, w13, w17
	sub	w25, w24, #1
	cmp	w25, #6
	b.hi	LBB40_199
	tbnz	w5, #31, LBB40_132
	mov	w5, #19923
	lsr	w25, w27, #30
	movk	w5, #4194, lsl #16
	umull	x17, w17, w5
	lsr	x5, x17, #38
	cbz	w25, LBB40_133
	lsl	w17, w5, #3
	mov	w5, #770
	movk	w5, #770, lsl #16
	lsr	w5, w5, w17
	b	LBB40_133
LBB40_132:
	lsr	w5, w27, #30
	cmp	w17, #2000
	mov	w17, #3
	ccmp	w5, #0, #0, lo
	csinc	w5, w17, wzr, ne
LBB40_133:
	cmp	w24, #3
	mov	w27, #9
	b.ne	LBB40_202
	and	w17, w5, #0xff
	cmp	w17, w23, uxtb
	b.ne	LBB40_202
	cmp	w10, #0
	csel	x10, x20, x7, ne
LBB40_136:
	add	x17, x10, #4
	cmp	x28, x17
	b.lo	LBB40_110
	add	x14, x14, x10
	cmp	w30, #0
	sub	x17, x28, x10
	ldr	w27, [x14], #4
	sub	x10, x17, #4
	rev	w24, w27
	csel	w5, w27, w24, ne
	cbz	w5, LBB40_144
	add	x5, x19, #2
	cmp	x17, #8
	cbz	w30, LBB40_145
	b.lt	LBB40_55
	adrp	x19, Lswitch.table.wkb_raw_write.374@PAGE
	add	x19, x19, Lswitch.table.wkb_raw_write.374@PAGEOFF
	sub	w17, w27, #1
	ldr	x24, [x19, x3, lsl #3]
	add	x19, x5, x17
LBB40_141:
	ldr	w17, [x14]
	mul	x5, x24, x17
	orr	x5, x5, #0x4
	subs	x30, x10, x5
	b.lo	LBB40_188
	and	x25, x26, #0xffffffff00000000
	subs	w27, w27, #1
	add	x9, x9, x17
	orr	x26, x25, x17
	add	x14, x14, x5
	b.eq	LBB40_150
	cmp	x30, #4
	mov	x10, x30
	b.hs	LBB40_141
	b	LBB40_189
LBB40_144:
	add	x19, x19, #1
	b	LBB40_151
LBB40_145:
	b.lt	LBB40_55
	adrp	x19, Lswitch.table.wkb_raw_write.374@PAGE
	add	x19, x19, Lswitch.table.wkb_raw_write.374@PAGEOFF
	sub	w17, w24, #1
	ldr	x27, [x19, x3, lsl #3]
	add	x19, x5, x17
LBB40_147:
	ldr	w17, [x14]
	rev	w17, w17
	mul	x5, x27, x17
	orr	x5, x5, #0x4
	subs	x30, x10, x5
	b.lo	LBB40_188
	and	x25, x26, #0xffffffff00000000
	subs	w24, w24, #1
	add	x9, x9, x17
	orr	x26, x25, x17
	add	x14, x14, x5
	b.eq	LBB40_150
	cmp	x30, #4
	mov	x10, x30
	b.hs	LBB40_147
	b	LBB40_189
LBB40_150:
	mov	x28, x10
	mov	x10, x30
LBB40_151:
	add	w12, w12, #1
	str	x28, [sp, #32]
	mov	x28, x10
	cmp	w12, w11
	stp	x19, x9, [sp, #16]
	b.ne	LBB40_113
	b	LBB40_182
LBB40_152:
	tst	w10, #0xe0000000
	mov	x19, x1
	mov	x24, x0
	cset	w8, ne
	mov	x20, x2
	stp	xzr, xzr, [sp, #16]
	strb	w8, [sp, #65]
	mov	w8, #6
	strb	w8, [sp, #66]
	mov	w8, #1
	str	x2, [sp, #32]
	strb	w21, [sp, #64]
	strb	w23, [sp, #67]
	stp	w8, w9, [sp, #72]
LBB40_153:
	add	x0, sp, #40
	add	x2, sp, #64
	add	x5, sp, #16
	mov	x1, xzr
	mov	x3, x19
	mov	x4, x20
	bl	_ZN7wkb_raw6erased9wkb_check6nested15skip_collection17h3e96ec52d62a4ff3E
	ldr	w27, [sp, #40]
	mov	x0, x24
	cmp	w27, #11
	b.ne	LBB40_202
	ldp	x11, x9, [sp, #16]
	ldr	x8, [sp, #56]
	sub	x10, x20, x8
	mov	w8, #6
	add	x11, x11, #1
	cbz	w22, LBB40_184
	mov	x1, x19
	b	LBB40_183
LBB40_156:
	sub	x9, x2, x9
	sub	x19, x9, #4
	cbz	w11, LBB40_190
	and	w14, w23, #0xff
	mov	w13, #1000
	add	x15, x10, #4
	mul	w4, w14, w13
	mov	w14, #770
	mov	w10, w23
	mov	w5, #19923
	mov	w6, #35128
	mov	x9, xzr
	movk	w14, #770, lsl #16
	mov	w16, #-1073741824
	mov	w17, #-536870912
	and	x3, x10, #0xff
	orr	w4, w4, #0x1
	movk	w5, #4194, lsl #16
	movk	w6, #65, lsl #16
	mov	w7, #3
LBB40_158:
	mov	x10, x19
	cmp	x19, #5
	b.hs	LBB40_161
	cbz	x10, LBB40_55
	ldrb	w19, [x15]
	b	LBB40_166
LBB40_161:
	ldrb	w19, [x15]
	cmp	w19, #1
	b.eq	LBB40_164
	cbnz	w19, LBB40_166
	ldur	w20, [x15, #1]
	rev	w20, w20
	b	LBB40_165
LBB40_164:
	ldur	w20, [x15, #1]
LBB40_165:
	cmp	w20, w4
	b.eq	LBB40_177
LBB40_166:
	cbz	w19, LBB40_168
	cmp	w19, #1
	b.ne	LBB40_198
LBB40_168:
	cmp	x10, #5
	b.lo	LBB40_55
	ldur	w20, [x15, #1]
	cmp	w19, #0
	rev	w24, w20
	csel	w25, w20, w24, ne
	ubfx	w19, w25, #30, #1
	and	w24, w25, #0x7fffffff
	add	w20, w24, w16
	cmp	w19, #0
	csel	w20, w24, w20, eq
	lsr	w19, w20, #29
	add	w26, w20, w17
	cmp	w19, #0
	csel	w26, w26, w20, ne
	cmp	w26, #3999
	b.hi	LBB40_187
	umull	x20, w26, w6
	lsr	x20, x20, #32
	msub	w20, w20, w13, w26
	sub	w27, w20, #1
	cmp	w27, #6
	b.hi	LBB40_187
	tbnz	w25, #31, LBB40_174
	umull	x25, w26, w5
	lsr	w26, w24, #30
	lsr	x24, x25, #38
	cbz	w26, LBB40_175
	lsl	w24, w24, #3
	lsr	w24, w14, w24
	b	LBB40_175
LBB40_174:
	lsr	w24, w24, #30
	cmp	w26, #2000
	ccmp	w24, #0, #0, lo
	csinc	w24, w7, wzr, ne
LBB40_175:
	and	w24, w24, #0xff
	mov	w27, #9
	cmp	w24, w23, uxtb
	b.ne	LBB40_201
	cmp	w20, #1
	ccmp	w19, #0, #0, eq
	b.ne	LBB40_201
LBB40_177:
	ldr	x20, [x12, x3, lsl #3]
	subs	x19, x10, x20
	b.lo	LBB40_200
	add	x9, x9, #1
	add	x15, x15, x20
	cmp	w11, w9
	b.ne	LBB40_158
	b	LBB40_191
LBB40_179:
	mov	x11, xzr
	mov	x10, x2
LBB40_180:
	str	x11, [sp, #16]
	str	x10, [sp, #32]
	mov	x10, x26
LBB40_181:
	str	x9, [sp, #24]
LBB40_182:
	ldp	x11, x9, [sp, #16]
	str	x10, [sp, #56]
	sub	x10, x2, x10
	add	x11, x11, #1
	tbz	w22, #0, LBB40_184
LBB40_183:
	ldur	w12, [x1, #5]
	tst	w21, #0x1
	rev	w13, w12
	csel	w12, w12, w13, ne
	mov	w13, #1
	b	LBB40_185
LBB40_184:
	mov	w13, wzr
LBB40_185:
	and	x8, x8, #0xff
	stp	w13, w12, [x0]
	bfi	x8, x23, #8, #8
	stp	x10, x11, [x0, #8]
	bfi	x8, x21, #16, #1
	stp	x9, x8, [x0, #24]
	b	LBB40_207
LBB40_186:
	mov	x10, x28
	b	LBB40_182
LBB40_187:
	mov	w27, #1
	b	LBB40_201
LBB40_188:
	mov	w27, #5
	b	LBB40_201
LBB40_189:
	mov	w27, #7
	mov	x10, x30
	b	LBB40_201
LBB40_190:
	mov	x11, xzr
	mov	x10, x2
LBB40_191:
	stp	x11, x11, [sp, #16]
	str	x10, [sp, #32]
	mov	x10, x19
	b	LBB40_182
LBB40_192:
	mov	w13, w23
	adrp	x14, Lswitch.table.wkb_raw_write.374@PAGE
	add	x14, x14, Lswitch.table.wkb_raw_write.374@PAGEOFF
	and	x13, x13, #0xff
	mov	x9, xzr
	mov	w27, #7
	ldr	x14, [x14, x13, lsl #3]
	mov	x13, x10
LBB40_193:
	ldr	w10, [x12]
	rev	w17, w10
	mul	x10, x14, x17
	orr	x16, x10, #0x4
	subs	x10, x13, x16
	b.lo	LBB40_196
	subs	w15, w15, #1
	add	x9, x9, x17
	b.eq	LBB40_52
	cmp	x10, #4
	add	x12, x12, x16
	mov	x13, x10
	b.hs	LBB40_193
	b	LBB40_201
LBB40_196:
	mov	w27, #5
	mov	x10, x13
	b	LBB40_201
LBB40_197:
	mov	w27, #4
	b	LBB40_201
LBB40_198:
	mov	w27, #2
	b	LBB40_201
LBB40_199:
	mov	w27, #1
	cmp	w27, #7
	b.lo	LBB40_205
	b	LBB40_203
LBB40_200:
	mov	w27, #3
LBB40_201:
	stp	x9, x10, [sp, #24]
LBB40_202:
	cmp	w27, #7
	b.lo	LBB40_205
LBB40_203:
	adrp	x8, Lswitch.table._ZN7wkb_raw6erased7wkb_abi6column9check_row17h3e84d1932f31260dE.187@PAGE
	add	x8, x8, Lswitch.table._ZN7wkb_raw6erased7wkb_abi6column9check_row17h3e84d1932f31260dE.187@PAGEOFF
	add	x8, x8, w27, uxtw #2
	ldur	w8, [x8, #-28]
	b	LBB40_206
LBB40_204:
	mov	w27, #2
	cmp	w27, #7
	b.hs	LBB40_203
LBB40_205:
	adrp	x8, Lswitch.table._ZN7wkb_raw6erased7wkb_abi6column9check_row17h3e84d1932f31260dE.188@PAGE
	add	x8, x8, Lswitch.table._ZN7wkb_raw6erased7wkb_abi6column9check_row17h3e84d1932f31260dE.188@PAGEOFF
	ldr	w8, [x8, w27, uxtw #2]
LBB40_206:
	mov	w9, #2
	stp	w9, w8, [x0]
LBB40_207:
	mov	sp, x29
	.cfi_def_cfa wsp, 96
	ldp	x20, x19, [sp, #80]
	ldp	x22, x21, [sp, #64]
	ldp	x24, x23, [sp, #48]
	ldp	x26, x25, [sp, #32]
	ldp	x28, x27, [sp, #16]
	ldp	x29, x30, [sp], #96
	.cfi_def_cfa_offset 0
	.cfi_restore w19
	.cfi_restore w20
	.cfi_restore w21
	.cfi_restore w22
	.cfi_restore w23
	.cfi_restore w24
	.cfi_restore w25
	.cfi_restore w26
	.cfi_restore w27
	.cfi_restore w28
	.cfi_restore w30
	.cfi_restore w29
	ret
Lfunc_end40:
	.cfi_endproc
	.section	__TEXT,__text,regular,pure_instructions
	.p2align	2
_ZN7wkb_raw6erased7wkb_abi6totals6Totals10after_walk17h45c5ce6eed5cc5eeE:
	.cfi_startproc
	stp	x29, x30, [sp, #-96]!
	.cfi_def_cfa_offset 96
	stp	x28, x27, [sp, #16]
	stp	x26, x25, [sp, #32]
	stp	x24, x23, [sp, #48]
	stp	x22, x21, [sp, #64]
	stp	x20, x19, [sp, #80]
	.cfi_offset w19, -8
	.cfi_offset w20, -16
	.cfi_offset w21, -24
	.cfi_offset w22, -32
	.cfi_offset w23, -40
	.cfi_offset w24, -48
	.cfi_offset w25, -56
	.cfi_offset w26, -64
	.cfi_offset w27, -72
	.cfi_offset w28, -80
	.cfi_offset w30, -88
	.cfi_offset w29, -96
	ldp	w13, w9, [x4, #24]
	ldp	x8, x10, [x1]
	ldr	x24, [x4, #16]
	adds	x11, x8, x9
	csinv	x11, x11, xzr, lo
	cmp	w13, #3
	cset	w12, lo
	csel	x8, x11, x8, lo
	ldr	x11, [x1, #16]
	adds	x10, x10, x12
	csinv	x10, x10, xzr, lo
	cmp	w13, #4
	cset	w12, lo
	adds	x12, x11, x12
	csinv	x12, x12, xzr, lo
	cmp	w13, #0
	csel	x11, x11, x12, eq
	cmp	w13, #2
	adrp	x12, Lswitch.table.wkb_raw_write.374@PAGE
	add	x12, x12, Lswitch.table.wkb_raw_write.374@PAGEOFF
	b.hi	LBB41_2
	ldrb	w13, [x4, #33]
	mov	w23, wzr
	mov	w6, wzr
	mov	w28, #1
	ldr	x13, [x12, x13, lsl #3]
	madd	x24, x13, x9, x24
	b	LBB41_4
LBB41_2:
	cmp	w13, #3
	b.ne	LBB41_5
	ldrb	w23, [x4, #33]
	ldrb	w28, [x4, #32]
	mov	w6, w9
LBB41_4:
	mov	x9, xzr
	b	LBB41_6
LBB41_5:
	mov	w23, wzr
	mov	w6, wzr
	mov	w28, #1
LBB41_6:
	mov	w17, #35128
	mov	w19, #3
	mov	w20, #1
	mov	w22, #5
	mov	w13, #4
	mov	w14, #-1073741824
	mov	w15, #-536870912
	movk	w17, #65, lsl #16
	mov	w1, #1000
	movk	w19, #8192, lsl #16
	movk	w20, #8192, lsl #16
	movk	w22, #8192, lsl #16
	and	x16, x23, #0xff
	cbnz	w6, LBB41_10
	b	LBB41_11
LBB41_7:
	mov	w21, wzr
	mov	x5, xzr
	mov	w29, w4
LBB41_8:
	add	x4, x24, x5
	tst	w30, #0x1
	mov	w6, wzr
	add	x5, x4, x2
	ldur	w5, [x5, #5]
	rev	w24, w5
	csel	w5, w5, w24, ne
	add	x24, x4, #9
	add	x9, x9, x5
	sub	x9, x9, #1
LBB41_9:
	adds	x4, x8, x5
	csinv	x4, x4, xzr, lo
	cmp	w16, #3
	cset	w5, lo
	csel	x8, x4, x8, lo
	mov	w4, w29
	adds	x10, x10, x5
	csinv	x10, x10, xzr, lo
	cmp	w16, #4
	cset	w16, lo
	adds	x11, x11, x16
	csinv	x11, x11, xzr, lo
	and	x16, x23, #0xff
	cbz	w6, LBB41_11
LBB41_10:
	ldr	w5, [x2, x24]
	tst	w28, #0x1
	ldr	x26, [x12, x16, lsl #3]
	sub	w6, w6, #1
	rev	w25, w5
	csel	w5, w5, w25, ne
	madd	x24, x26, x5, x24
	adds	x8, x8, x5
	csinv	x8, x8, xzr, lo
	adds	x10, x10, #1
	csinv	x10, x10, xzr, lo
	add	x24, x24, #4
	cbnz	w6, LBB41_10
LBB41_11:
	cbz	x9, LBB41_113
	sub	x6, x3, x24
	add	x25, x2, x24
	cmp	x6, #5
	b.hs	LBB41_15
	cmp	x3, x24
	b.eq	LBB41_77
	ldrb	w26, [x25]
	b	LBB41_68
LBB41_15:
	ldrb	w26, [x25]
	cmp	w26, #1
	b.eq	LBB41_23
	cbnz	w26, LBB41_68
	ldur	w16, [x25, #1]
	mov	w30, wzr
	rev	w16, w16
	lsr	w5, w16, #29
	cbz	w5, LBB41_24
LBB41_18:
	mov	w29, wzr
	cmp	w16, w19
	mov	w5, #4
	b.le	LBB41_29
	cmp	w16, w22
	b.gt	LBB41_36
	mov	w5, #4
	movk	w5, #8192, lsl #16
	cmp	w16, w5
	b.eq	LBB41_49
	cmp	w16, w22
	b.ne	LBB41_68
	mov	w29, wzr
	mov	w7, #4
	mov	w16, #5
	b	LBB41_86
LBB41_23:
	ldur	w16, [x25, #1]
	mov	w30, #1
	lsr	w5, w16, #29
	cbnz	w5, LBB41_18
LBB41_24:
	mov	x5, xzr
	cmp	w16, #3
	mov	w29, wzr
	b.le	LBB41_32
	cmp	w16, #5
	b.gt	LBB41_39
	cmp	w16, #4
	b.eq	LBB41_50
	cmp	w16, #5
	b.ne	LBB41_44
LBB41_28:
	mov	w21, wzr
	mov	x5, xzr
	mov	w7, #4
	mov	w16, #5
	b	LBB41_8
LBB41_29:
	cmp	w16, w20
	mov	w27, #1
	b.eq	LBB41_42
	mov	w17, #2
	movk	w17, #8192, lsl #16
	cmp	w16, w17
	b.eq	LBB41_52
	mov	w17, #35128
	cmp	w16, w19
	movk	w17, #65, lsl #16
	b.eq	LBB41_97
	b	LBB41_68
LBB41_32:
	cmp	w16, #1
	b.eq	LBB41_43
	cmp	w16, #2
	b.eq	LBB41_53
	cmp	w16, #3
	b.ne	LBB41_44
	mov	w27, w29
	b	LBB41_97
LBB41_36:
	mov	w5, #6
	movk	w5, #8192, lsl #16
	cmp	w16, w5
	b.eq	LBB41_51
	mov	w5, #7
	movk	w5, #8192, lsl #16
	cmp	w16, w5
	b.ne	LBB41_68
	mov	w29, wzr
	mov	w7, #6
	mov	w16, #7
	b	LBB41_86
LBB41_39:
	cmp	w16, #6
	b.eq	LBB41_107
	cmp	w16, #7
	b.ne	LBB41_44
LBB41_41:
	mov	w21, wzr
	mov	x5, xzr
	mov	w7, #6
	mov	w16, #7
	b	LBB41_8
LBB41_42:
	mov	w21, #1
	mov	w4, w29
	b	LBB41_94
LBB41_43:
	mov	w21, w29
	mov	w4, w29
	b	LBB41_94
LBB41_44:
	sub	w5, w16, #1001
	cmp	w5, #7
	b.hs	LBB41_54
	mov	x5, xzr
	mov	w21, wzr
	cmp	w16, #1003
	mov	w29, #1
	b.gt	LBB41_59
	cmp	w16, #1001
	b.eq	LBB41_102
	cmp	w16, #1002
	b.eq	LBB41_103
	cmp	w16, #1003
	b.eq	LBB41_67
	b	LBB41_41
LBB41_49:
	mov	w7, #3
	mov	w16, #4
	b	LBB41_86
LBB41_50:
	mov	w7, #3
	mov	w21, w29
	b	LBB41_8
LBB41_51:
	mov	w29, wzr
	mov	w7, #5
	mov	w16, #6
	b	LBB41_86
LBB41_52:
	mov	w17, #35128
	mov	w21, #1
	mov	w4, w29
	movk	w17, #65, lsl #16
	b	LBB41_92
LBB41_53:
	mov	w21, w29
	mov	w4, w29
	b	LBB41_92
LBB41_54:
	sub	w5, w16, #2001
	cmp	w5, #7
	b.hs	LBB41_62
	mov	x5, xzr
	mov	w21, wzr
	cmp	w16, #2003
	mov	w29, #2
	b.gt	LBB41_98
	cmp	w16, #2001
	b.eq	LBB41_108
	cmp	w16, #2002
	b.eq	LBB41_109
	cmp	w16, #2003
	b.eq	LBB41_67
	b	LBB41_41
LBB41_59:
	cmp	w16, #1004
	b.eq	LBB41_101
	cmp	w16, #1005
	b.eq	LBB41_28
	cmp	w16, #1006
	b.eq	LBB41_107
	b	LBB41_41
LBB41_62:
	sub	w5, w16, #3001
	cmp	w5, #7
	b.hs	LBB41_68
	mov	x5, xzr
	mov	w21, wzr
	cmp	w16, #3003
	mov	w29, #3
	b.gt	LBB41_104
	cmp	w16, #3001
	b.eq	LBB41_110
	cmp	w16, #3002
	b.eq	LBB41_112
	cmp	w16, #3003
	b.ne	LBB41_41
LBB41_67:
	mov	w27, w21
	b	LBB41_97
LBB41_68:
	cbz	w26, LBB41_71
	cmp	w26, #1
	b.ne	LBB41_77
	mov	w30, #1
	cmp	x6, #5
	b.hs	LBB41_72
	b	LBB41_77
LBB41_71:
	mov	w30, wzr
	cmp	x6, #5
	b.lo	LBB41_77
LBB41_72:
	ldur	w16, [x25, #1]
	cmp	w30, #0
	rev	w5, w16
	csel	w25, w16, w5, ne
	ubfx	w16, w25, #30, #1
	and	w6, w25, #0x7fffffff
	add	w5, w6, w14
	cmp	w16, #0
	csel	w16, w6, w5, eq
	lsr	w5, w16, #29
	cmp	w5, #0
	add	w5, w16, w15
	csel	w26, w5, w16, ne
	cset	w16, ne
	cmp	w26, #3999
	b.hi	LBB41_77
	umull	x5, w26, w17
	lsr	x5, x5, #32
	msub	w5, w5, w1, w26
	sub	w27, w5, #1
	cmp	w27, #6
	b.hi	LBB41_77
	tbnz	w25, #31, LBB41_87
	mov	w4, #19923
	lsr	w6, w6, #30
	movk	w4, #4194, lsl #16
	umull	x4, w26, w4
	lsr	x4, x4, #38
	cbz	w6, LBB41_88
	lsl	w4, w4, #3
	mov	w6, #770
	movk	w6, #770, lsl #16
	lsr	w4, w6, w4
	b	LBB41_88
LBB41_77:
	mov	w30, #2
	and	w16, w7, #0xff
	cmp	w16, #2
	b.le	LBB41_89
LBB41_78:
	cmp	w16, #4
	b.gt	LBB41_81
	cmp	w16, #3
	b.ne	LBB41_83
	mov	w7, #3
	mov	w16, #4
	tbnz	w21, #0, LBB41_85
	b	LBB41_7
LBB41_81:
	cmp	w16, #5
	b.ne	LBB41_84
	mov	w7, #5
	mov	w16, #6
	tbnz	w21, #0, LBB41_85
	b	LBB41_7
LBB41_83:
	mov	w7, #4
	mov	w16, #5
	tbnz	w21, #0, LBB41_85
	b	LBB41_7
LBB41_84:
	mov	w7, #6
	mov	w16, #7
	tbz	w21, #0, LBB41_7
LBB41_85:
	mov	w29, w4
LBB41_86:
	mov	w21, #1
	mov	w5, #4
	b	LBB41_8
LBB41_87:
	lsr	w4, w6, #30
	cmp	w26, #2000
	ccmp	w4, #0, #0, lo
	mov	w4, #3
	csinc	w4, w4, wzr, ne
LBB41_88:
	mov	x7, #6
	lsl	w6, w5, #3
	cmp	w5, #7
	movk	x7, #513, lsl #16
	mov	w5, #6
	mov	w21, w16
	movk	x7, #1027, lsl #32
	movk	x7, #5, lsl #48
	lsr	x6, x7, x6
	csel	w7, w6, w5, lo
	and	w16, w7, #0xff
	cmp	w16, #2
	b.gt	LBB41_78
LBB41_89:
	cbz	w16, LBB41_93
	cmp	w16, #1
	b.ne	LBB41_96
	tst	w21, #0x1
	csel	x5, x13, xzr, ne
LBB41_92:
	add	x16, x24, x5
	tst	w30, #0x1
	mov	w7, #1
	add	x5, x16, x2
	add	x24, x16, #9
	mov	w16, #2
	ldur	w5, [x5, #5]
	rev	w6, w5
	csel	w5, w5, w6, ne
	b	LBB41_95
LBB41_93:
	tst	w21, #0x1
	csel	x5, x13, xzr, ne
LBB41_94:
	add	x16, x24, x5
	mov	w7, wzr
	mov	w5, #1
	add	x24, x16, #5
	mov	w16, #1
LBB41_95:
	mov	w25, w4
	mov	w6, wzr
	sub	x9, x9, #1
	and	x25, x25, #0xff
	mov	w29, w4
	ldr	x25, [x12, x25, lsl #3]
	madd	x24, x25, x5, x24
	b	LBB41_9
LBB41_96:
	tst	w21, #0x1
	mov	w27, w21
	mov	w29, w4
	csel	x5, x13, xzr, ne
LBB41_97:
	add	x16, x24, x5
	tst	w30, #0x1
	sub	x9, x9, #1
	add	x4, x16, x2
	add	x24, x16, #9
	mov	w16, #3
	ldur	w4, [x4, #5]
	mov	w7, #2
	mov	w21, w27
	mov	w28, w30
	mov	w23, w29
	rev	w5, w4
	csel	w5, w4, w5, ne
	mov	w6, w5
	b	LBB41_9
LBB41_98:
	cmp	w16, #2004
	b.eq	LBB41_101
	cmp	w16, #2005
	b.eq	LBB41_28
	cmp	w16, #2006
	b.eq	LBB41_107
	b	LBB41_41
LBB41_101:
	mov	w7, #3
	mov	w16, #4
	b	LBB41_8
LBB41_102:
	mov	w4, #1
	b	LBB41_94
LBB41_103:
	mov	w4, #1
	b	LBB41_92
LBB41_104:
	cmp	w16, #3004
	b.eq	LBB41_111
	cmp	w16, #3005
	b.eq	LBB41_28
	cmp	w16, #3006
	b.ne	LBB41_41
LBB41_107:
	mov	w21, wzr
	mov	x5, xzr
	mov	w7, #5
	mov	w16, #6
	b	LBB41_8
LBB41_108:
	mov	w4, #2
	b	LBB41_94
LBB41_109:
	mov	w4, #2
	b	LBB41_92
LBB41_110:
	mov	w4, #3
	b	LBB41_94
LBB41_111:
	mov	w16, #4
	mov	w7, #3
	b	LBB41_8
LBB41_112:
	mov	w4, #3
	b	LBB41_92
LBB41_113:
	ldp	x20, x19, [sp, #80]
	stp	x8, x10, [x0]
	ldp	x22, x21, [sp, #64]
	str	x11, [x0, #16]
	ldp	x24, x23, [sp, #48]
	ldp	x26, x25, [sp, #32]
	ldp	x28, x27, [sp, #16]
	ldp	x29, x30, [sp], #96
	.cfi_def_cfa_offset 0
	.cfi_restore w19
	.cfi_restore w20
	.cfi_restore w21
	.cfi_restore w22
	.cfi_restore w23
	.cfi_restore w24
	.cfi_restore w25
	.cfi_restore w26
	.cfi_restore w27
	.cfi_restore w28
	.cfi_restore w30
	.cfi_restore w29
	ret
Lfunc_end41:
	.cfi_endproc
	.section	__TEXT,__text,regular,pure_instructions
	.p2align	2
_ZN7wkb_raw6erased9wkb_check6nested15skip_collection17h3e96ec52d62a4ff3E:
	.cfi_startproc
	stp	x29, x30, [sp, #-96]!
	.cfi_def_cfa_offset 96
	stp	x28, x27, [sp, #16]
	stp	x26, x25, [sp, #32]
	stp	x24, x23, [sp, #48]
	stp	x22, x21, [sp, #64]
	stp	x20, x19, [sp, #80]
	.cfi_offset w19, -8
	.cfi_offset w20, -16
	.cfi_offset w21, -24
	.cfi_offset w22, -32
	.cfi_offset w23, -40
	.cfi_offset w24, -48
	.cfi_offset w25, -56
	.cfi_offset w26, -64
	.cfi_offset w27, -72
	.cfi_offset w28, -80
	.cfi_offset w30, -88
	.cfi_offset w29, -96
	sub	sp, sp, #608
	.cfi_def_cfa_offset 704
	movi	v0.2d, #0000000000000000
	ldp	x27, x9, [x5]
	ldrb	w25, [x2]
	ldrb	w20, [x2, #2]
	add	x10, sp, #80
	ldrb	w24, [x2, #3]
	ldrb	w16, [x2, #1]
	mov	w6, #770
	str	x1, [sp, #592]
	sub	x11, x10, #4
	mov	w12, #5
	mov	w13, #9
	adrp	x22, Lswitch.table.wkb_raw_write.374@PAGE
	add	x22, x22, Lswitch.table.wkb_raw_write.374@PAGEOFF
	adrp	x19, Lswitch.table.wkb_raw_write.371@PAGE
	add	x19, x19, Lswitch.table.wkb_raw_write.371@PAGEOFF
	mov	w21, #13
	movk	w6, #770, lsl #16
	mov	w29, #1000
	stp	q0, q0, [sp, #80]
	stp	q0, q0, [sp, #112]
	stp	q0, q0, [sp, #144]
	stp	q0, q0, [sp, #176]
	stp	q0, q0, [sp, #208]
	stp	q0, q0, [sp, #240]
	stp	q0, q0, [sp, #272]
	stp	q0, q0, [sp, #304]
	stp	q0, q0, [sp, #336]
	stp	q0, q0, [sp, #368]
	stp	q0, q0, [sp, #400]
	stp	q0, q0, [sp, #432]
	stp	q0, q0, [sp, #464]
	stp	q0, q0, [sp, #496]
	stp	q0, q0, [sp, #528]
	stp	q0, q0, [sp, #560]
	and	w14, w20, #0xff
	cmp	w14, #3
	b.le	LBB42_77
LBB42_1:
	cmp	w14, #6
	b.ne	LBB42_5
	ldr	x14, [sp, #592]
	cmp	x14, #127
	b.hi	LBB42_230
	tst	w16, #0x1
	csel	x15, x13, x12, ne
	add	x16, x15, #4
	cmp	x4, x16
	b.lo	LBB42_223
	add	x3, x3, x15
	sub	x15, x4, x15
	tst	w25, #0x1
	ldr	w16, [x3], #4
	add	x4, x14, #1
	rev	w17, w16
	csel	w16, w16, w17, ne
	str	w16, [x10, x14, lsl #2]
	str	x4, [sp, #592]
	sub	x4, x15, #4
	ldr	x14, [sp, #592]
	cbnz	x14, LBB42_121
	b	LBB42_218
LBB42_5:
	cmp	w14, #4
	b.ne	LBB42_35
	tst	w16, #0x1
	csel	x14, x13, x12, ne
	add	x15, x14, #4
	cmp	x4, x15
	b.lo	LBB42_223
	add	x3, x3, x14
	tst	w25, #0x1
	sub	x14, x4, x14
	ldr	w15, [x3], #4
	sub	x4, x14, #4
	rev	w16, w15
	csel	w15, w15, w16, ne
	cbz	w15, LBB42_120
	and	w14, w24, #0xff
	add	x23, x27, #1
	sub	w16, w15, #1
	mul	w14, w14, w29
	mov	w17, w24
	mov	x6, x22
	add	x27, x23, x16
	and	x29, x17, #0xff
	orr	w10, w14, #0x2
	str	w10, [sp, #52]
	ldp	x14, x10, [sp, #16]
LBB42_9:
	mov	x25, x4
	cmp	x4, #5
	b.hs	LBB42_12
	cbz	x25, LBB42_233
	ldrb	w16, [x3]
	b	LBB42_17
LBB42_12:
	ldrb	w16, [x3]
	cmp	w16, #1
	b.eq	LBB42_16
	cbnz	w16, LBB42_17
	ldur	w17, [x3, #1]
	mov	w4, wzr
	rev	w17, w17
	ldr	w12, [sp, #52]
	cmp	w17, w12
	b.ne	LBB42_17
LBB42_15:
	mov	w16, #9
	mov	w17, #5
	b	LBB42_31
LBB42_16:
	ldur	w17, [x3, #1]
	mov	w4, #1
	ldr	w12, [sp, #52]
	cmp	w17, w12
	b.eq	LBB42_15
LBB42_17:
	cbz	w16, LBB42_20
	cmp	w16, #1
	b.ne	LBB42_250
	mov	w4, #1
	b	LBB42_21
LBB42_20:
	mov	w4, wzr
LBB42_21:
	cmp	x25, #5
	b.lo	LBB42_233
	ldur	w16, [x3, #1]
	cmp	w4, #0
	mov	x12, x14
	mov	x14, x10
	mov	w10, #-1073741824
	mov	w13, #5
	rev	w17, w16
	csel	w17, w16, w17, ne
	ubfx	w16, w17, #30, #1
	and	w20, w17, #0x7fffffff
	add	w7, w20, w10
	mov	w10, #-536870912
	cmp	w16, #0
	csel	w16, w20, w7, eq
	lsr	w22, w16, #29
	add	w7, w16, w10
	cmp	w22, #0
	csel	w7, w7, w16, ne
	cmp	w7, #3999
	b.hi	LBB42_232
	mov	w10, #35128
	mov	x21, x19
	movk	w10, #65, lsl #16
	umull	x16, w7, w10
	mov	w10, #1000
	lsr	x16, x16, #32
	msub	w16, w16, w10, w7
	sub	w19, w16, #1
	cmp	w19, #6
	b.hi	LBB42_232
	mov	x19, x21
	tbnz	w17, #31, LBB42_27
	mov	w10, #19923
	mov	w21, #13
	movk	w10, #4194, lsl #16
	umull	x17, w7, w10
	lsr	w7, w20, #30
	lsr	x17, x17, #38
	cbz	w7, LBB42_28
	lsl	w17, w17, #3
	mov	w10, #770
	movk	w10, #770, lsl #16
	lsr	w17, w10, w17
	b	LBB42_28
LBB42_27:
	lsr	w17, w20, #30
	cmp	w7, #2000
	mov	w10, #3
	mov	w21, #13
	ccmp	w17, #0, #0, lo
	csinc	w17, w10, wzr, ne
LBB42_28:
	cmp	w16, #2
	mov	w16, #9
	b.ne	LBB42_251
	and	w17, w17, #0xff
	mov	x10, x14
	cmp	w17, w24, uxtb
	b.ne	LBB42_253
	cmp	w22, #0
	mov	w14, #9
	csel	x17, x14, x13, ne
	mov	w13, #9
	mov	x14, x12
	csel	x16, x21, x13, ne
LBB42_31:
	add	x7, x17, #4
	cmp	x25, x7
	b.lo	LBB42_237
	ldr	w17, [x3, x17]
	cmp	w4, #0
	ldr	x4, [x6, x29, lsl #3]
	rev	w7, w17
	csel	w17, w17, w7, ne
	madd	x14, x4, x17, x16
	subs	x4, x25, x14
	b.lo	LBB42_238
	and	x16, x10, #0xffffffff00000000
	add	x9, x9, x17
	subs	w15, w15, #1
	orr	x10, x16, x17
	add	x3, x3, x14
	add	x23, x23, #1
	mov	w12, #5
	str	x9, [x5, #8]
	b.ne	LBB42_9
	stp	x14, x10, [sp, #16]
	mov	x22, x6
	str	x27, [x5]
	str	x25, [x5, #16]
	b	LBB42_117
LBB42_35:
	tst	w16, #0x1
	csel	x14, x13, x12, ne
	add	x15, x14, #4
	cmp	x4, x15
	b.lo	LBB42_223
	add	x3, x3, x14
	tst	w25, #0x1
	sub	x14, x4, x14
	ldr	w15, [x3], #4
	sub	x4, x14, #4
	rev	w16, w15
	csel	w15, w15, w16, ne
	str	w15, [sp, #52]
	cbz	w15, LBB42_120
	and	w14, w24, #0xff
	mov	w15, w24
	ldr	x7, [sp, #56]
	mul	w14, w14, w29
	mov	w23, wzr
	orr	w10, w14, #0x3
	str	w10, [sp, #36]
	and	x10, x15, #0xff
	str	x10, [sp, #40]
LBB42_38:
	cmp	x4, #5
	add	x14, x27, #1
	str	x7, [sp, #56]
	b.hs	LBB42_41
	cbz	x4, LBB42_249
	mov	w10, #770
	ldrb	w15, [x3]
	mov	w20, #1000
	movk	w10, #770, lsl #16
	mov	x6, x22
	b	LBB42_47
LBB42_41:
	ldrb	w15, [x3]
	mov	w10, #770
	mov	w20, #1000
	movk	w10, #770, lsl #16
	mov	x6, x22
	cmp	w15, #1
	b.eq	LBB42_44
	cbnz	w15, LBB42_47
	ldur	w16, [x3, #1]
	mov	w29, wzr
	rev	w16, w16
	b	LBB42_45
LBB42_44:
	ldur	w16, [x3, #1]
	mov	w29, #1
LBB42_45:
	ldr	w17, [sp, #36]
	cmp	w16, w17
	b.ne	LBB42_47
	mov	w15, #5
	b	LBB42_61
LBB42_47:
	cbz	w15, LBB42_50
	cmp	w15, #1
	b.ne	LBB42_257
	mov	w29, #1
	b	LBB42_51
LBB42_50:
	mov	w29, wzr
LBB42_51:
	cmp	x4, #5
	b.lo	LBB42_249
	ldur	w15, [x3, #1]
	cmp	w29, #0
	mov	w7, #-536870912
	rev	w16, w15
	csel	w17, w15, w16, ne
	mov	w16, #-1073741824
	ubfx	w15, w17, #30, #1
	and	w22, w17, #0x7fffffff
	add	w16, w22, w16
	cmp	w15, #0
	csel	w16, w22, w16, eq
	lsr	w15, w16, #29
	add	w7, w16, w7
	cmp	w15, #0
	csel	w25, w7, w16, ne
	cmp	w25, #3999
	b.hi	LBB42_248
	mov	w16, #35128
	movk	w16, #65, lsl #16
	umull	x16, w25, w16
	lsr	x16, x16, #32
	msub	w16, w16, w20, w25
	sub	w7, w16, #1
	cmp	w7, #6
	b.hi	LBB42_248
	lsr	w7, w22, #30
	tbnz	w17, #31, LBB42_57
	mov	w17, #19923
	movk	w17, #4194, lsl #16
	umull	x17, w25, w17
	lsr	x17, x17, #38
	cbz	w7, LBB42_58
	lsl	w17, w17, #3
	lsr	w17, w10, w17
	b	LBB42_58
LBB42_57:
	cmp	w25, #2000
	mov	w10, #3
	ccmp	w7, #0, #0, lo
	csinc	w17, w10, wzr, ne
LBB42_58:
	cmp	w16, #3
	mov	w16, #9
	b.ne	LBB42_258
	and	w17, w17, #0xff
	cmp	w17, w24, uxtb
	b.ne	LBB42_259
	cmp	w15, #0
	csel	x15, x13, x12, ne
LBB42_61:
	add	x16, x15, #4
	cmp	x4, x16
	b.lo	LBB42_255
	add	x3, x3, x15
	cmp	w29, #0
	sub	x7, x4, x15
	ldr	w16, [x3], #4
	mov	x25, x19
	sub	x15, x7, #4
	rev	w17, w16
	csel	w19, w16, w17, ne
	cbz	w19, LBB42_69
	add	x14, x27, #2
	cmp	x7, #8
	cbz	w29, LBB42_70
	b.lt	LBB42_256
	ldr	x8, [sp, #40]
	sub	w16, w16, #1
	mov	x22, x6
	add	x27, x14, x16
	add	x10, sp, #80
	mov	w29, #1000
	ldr	x17, [x6, x8, lsl #3]
	mov	w6, #770
	movk	w6, #770, lsl #16
LBB42_66:
	ldr	w7, [x3]
	mul	x8, x17, x7
	orr	x8, x8, #0x4
	subs	x4, x15, x8
	b.lo	LBB42_227
	and	x19, x26, #0xffffffff00000000
	add	x9, x9, x7
	add	x3, x3, x8
	orr	x26, x19, x7
	str	x9, [x5, #8]
	cbz	w16, LBB42_75
	cmp	x4, #4
	add	x14, x14, #1
	sub	w16, w16, #1
	mov	x15, x4
	b.hs	LBB42_66
	b	LBB42_228
LBB42_69:
	mov	x22, x6
	mov	w6, #770
	mov	x16, x4
	mov	x27, x14
	mov	x4, x15
	mov	x19, x25
	movk	w6, #770, lsl #16
	add	x10, sp, #80
	mov	w29, #1000
	ldr	w14, [sp, #52]
	add	w23, w23, #1
	mov	x7, x3
	str	x15, [sp, #8]
	cmp	w23, w14
	b.ne	LBB42_38
	b	LBB42_76
LBB42_70:
	b.lt	LBB42_256
	ldr	x8, [sp, #40]
	sub	w16, w17, #1
	mov	x22, x6
	add	x27, x14, x16
	add	x10, sp, #80
	mov	w29, #1000
	ldr	x17, [x6, x8, lsl #3]
	mov	w6, #770
	movk	w6, #770, lsl #16
LBB42_72:
	ldr	w8, [x3]
	rev	w7, w8
	mul	x8, x17, x7
	orr	x8, x8, #0x4
	subs	x4, x15, x8
	b.lo	LBB42_227
	and	x19, x26, #0xffffffff00000000
	add	x9, x9, x7
	add	x3, x3, x8
	orr	x26, x19, x7
	str	x9, [x5, #8]
	cbz	w16, LBB42_75
	cmp	x4, #4
	add	x14, x14, #1
	sub	w16, w16, #1
	mov	x15, x4
	b.hs	LBB42_72
	b	LBB42_228
LBB42_75:
	mov	x16, x15
	mov	x19, x25
	ldr	w14, [sp, #52]
	add	w23, w23, #1
	mov	x7, x3
	str	x4, [sp, #8]
	cmp	w23, w14
	b.ne	LBB42_38
LBB42_76:
	str	x27, [x5]
	str	x3, [sp, #56]
	str	x4, [sp, #8]
	str	x16, [x5, #16]
	ldr	x14, [sp, #592]
	cbnz	x14, LBB42_121
	b	LBB42_218
LBB42_77:
	cmp	w14, #1
	b.gt	LBB42_81
	cbnz	w14, LBB42_89
	and	x14, x24, #0xff
	tst	w16, #0x1
	ldr	x14, [x22, x14, lsl #3]
	csel	x15, x13, x12, ne
	add	x15, x14, x15
	subs	x14, x4, x15
	b.lo	LBB42_243
	add	x9, x9, #1
	add	x3, x3, x15
	mov	x4, x14
	str	x9, [x5, #8]
	ldr	x14, [sp, #592]
	cbnz	x14, LBB42_121
	b	LBB42_218
LBB42_81:
	cmp	w14, #2
	b.ne	LBB42_92
	tst	w16, #0x1
	csel	x14, x13, x12, ne
	add	x15, x14, #4
	cmp	x4, x15
	b.lo	LBB42_223
	add	x3, x3, x14
	tst	w25, #0x1
	sub	x15, x4, x14
	ldr	w16, [x3], #4
	sub	x14, x15, #4
	rev	w17, w16
	csel	w16, w16, w17, ne
	cbz	w16, LBB42_118
	cmp	x15, #8
	add	x15, x27, #1
	b.lt	LBB42_254
	and	x17, x24, #0xff
	sub	w16, w16, #1
	ldr	x17, [x22, x17, lsl #3]
	add	x27, x15, x16
LBB42_86:
	ldr	w1, [x3]
	tst	w25, #0x1
	rev	w4, w1
	csel	w7, w1, w4, ne
	mul	x1, x17, x7
	orr	x1, x1, #0x4
	subs	x4, x14, x1
	b.lo	LBB42_219
	and	x20, x30, #0xffffffff00000000
	add	x9, x9, x7
	add	x3, x3, x1
	orr	x30, x20, x7
	str	x9, [x5, #8]
	cbz	w16, LBB42_149
	cmp	x4, #4
	add	x15, x15, #1
	sub	w16, w16, #1
	mov	x14, x4
	b.hs	LBB42_86
	b	LBB42_220
LBB42_89:
	tst	w16, #0x1
	csel	x14, x13, x12, ne
	add	x15, x14, #4
	cmp	x4, x15
	b.lo	LBB42_242
	ldr	w14, [x3, x14]
	and	x15, x24, #0xff
	tst	w25, #0x1
	ldr	x7, [x22, x15, lsl #3]
	rev	w17, w14
	csel	w15, w14, w17, ne
	tst	w16, #0x1
	csel	x14, x21, x13, ne
	madd	x17, x7, x15, x14
	subs	x14, x4, x17
	b.lo	LBB42_245
	ldr	x16, [sp, #72]
	add	x9, x9, x15
	add	x3, x3, x17
	str	x9, [x5, #8]
	mov	x4, x14
	and	x16, x16, #0xffffffff00000000
	orr	x15, x16, x15
	stp	x17, x15, [sp, #64]
	ldr	x14, [sp, #592]
	cbnz	x14, LBB42_121
	b	LBB42_218
LBB42_92:
	tst	w16, #0x1
	csel	x14, x13, x12, ne
	add	x15, x14, #4
	cmp	x4, x15
	b.lo	LBB42_244
	add	x17, x3, x14
	mov	w3, w24
	tst	w25, #0x1
	ldr	w15, [x17]
	and	x3, x3, #0xff
	ldr	x3, [x19, x3, lsl #3]
	rev	w7, w15
	csel	w15, w15, w7, ne
	tst	w16, #0x1
	csel	x16, x21, x13, ne
	madd	x3, x3, x15, x16
	cmp	x4, x3
	b.lo	LBB42_246
	sub	x14, x4, x14
	add	x3, x17, #4
	sub	x4, x14, #4
	cbz	w15, LBB42_119
	and	w14, w24, #0xff
	mov	w10, #770
	sub	w17, w15, #1
	mul	w16, w14, w29
	add	x14, x27, #1
	mov	w7, w24
	movk	w10, #770, lsl #16
	mov	w6, #1000
	add	x27, x14, x17
	and	x25, x7, #0xff
	mov	w29, w15
	orr	w23, w16, #0x1
LBB42_96:
	mov	x20, x4
	cmp	x4, #5
	b.hs	LBB42_99
	cbz	x20, LBB42_224
	ldrb	w16, [x3]
	b	LBB42_103
LBB42_99:
	ldrb	w16, [x3]
	cmp	w16, #1
	b.eq	LBB42_102
	cbnz	w16, LBB42_103
	ldur	w17, [x3, #1]
	rev	w17, w17
	cmp	w17, w23
	b.ne	LBB42_103
	b	LBB42_114
LBB42_102:
	ldur	w17, [x3, #1]
	cmp	w17, w23
	b.eq	LBB42_114
LBB42_103:
	cbz	w16, LBB42_105
	cmp	w16, #1
	b.ne	LBB42_234
LBB42_105:
	cmp	x20, #5
	b.lo	LBB42_224
	ldur	w17, [x3, #1]
	cmp	w16, #0
	mov	w7, #-536870912
	rev	w4, w17
	csel	w28, w17, w4, ne
	mov	w4, #-1073741824
	ubfx	w17, w28, #30, #1
	and	w16, w28, #0x7fffffff
	add	w4, w16, w4
	cmp	w17, #0
	csel	w4, w16, w4, eq
	lsr	w17, w4, #29
	add	w7, w4, w7
	cmp	w17, #0
	csel	w7, w7, w4, ne
	cmp	w7, #3999
	b.hi	LBB42_222
	mov	w4, #35128
	movk	w4, #65, lsl #16
	umull	x4, w7, w4
	lsr	x4, x4, #32
	msub	w4, w4, w6, w7
	sub	w22, w4, #1
	cmp	w22, #6
	b.hi	LBB42_222
	lsr	w22, w16, #30
	tbnz	w28, #31, LBB42_111
	mov	w16, #19923
	movk	w16, #4194, lsl #16
	umull	x16, w7, w16
	lsr	x16, x16, #38
	cbz	w22, LBB42_112
	lsl	w16, w16, #3
	lsr	w16, w10, w16
	b	LBB42_112
LBB42_111:
	cmp	w7, #2000
	mov	w16, #3
	ccmp	w22, #0, #0, lo
	csinc	w16, w16, wzr, ne
LBB42_112:
	and	w16, w16, #0xff
	cmp	w16, w24, uxtb
	mov	w16, #9
	b.ne	LBB42_235
	cmp	w4, #1
	ccmp	w17, #0, #0, eq
	b.ne	LBB42_236
LBB42_114:
	ldr	x17, [x19, x25, lsl #3]
	subs	x4, x20, x17
	b.lo	LBB42_231
	add	x9, x9, #1
	subs	w29, w29, #1
	add	x3, x3, x17
	add	x14, x14, #1
	str	x9, [x5, #8]
	b.ne	LBB42_96
	mov	w28, w15
	adrp	x22, Lswitch.table.wkb_raw_write.374@PAGE
	add	x22, x22, Lswitch.table.wkb_raw_write.374@PAGEOFF
	str	x27, [x5]
	str	x20, [x5, #16]
LBB42_117:
	mov	w6, #770
	add	x10, sp, #80
	mov	w29, #1000
	movk	w6, #770, lsl #16
	ldr	x14, [sp, #592]
	cbnz	x14, LBB42_121
	b	LBB42_218
LBB42_118:
	mov	x4, x14
	ldr	x14, [sp, #592]
	cbnz	x14, LBB42_121
	b	LBB42_218
LBB42_119:
	mov	w28, wzr
LBB42_120:
	ldr	x14, [sp, #592]
	cbz	x14, LBB42_218
LBB42_121:
	lsr	x23, x3, #32
LBB42_122:
	ldr	w15, [x11, x14, lsl #2]
	cbnz	w15, LBB42_124
	sub	x14, x14, #1
	cbnz	x14, LBB42_122
	b	LBB42_218
LBB42_124:
	add	x27, x27, #1
	cmp	x4, #5
	str	x14, [sp, #592]
	sub	w15, w15, #1
	str	w15, [x11, x14, lsl #2]
	str	x27, [x5]
	str	x4, [x5, #16]
	b.hs	LBB42_127
	cbz	x4, LBB42_226
	ldrb	w25, [x3]
	b	LBB42_187
LBB42_127:
	ldrb	w25, [x3]
	cmp	w25, #1
	b.eq	LBB42_135
	cbnz	w25, LBB42_187
	ldur	w14, [x3, #1]
	rev	w14, w14
	lsr	w15, w14, #29
	cbz	w15, LBB42_136
LBB42_130:
	mov	w15, #3
	movk	w15, #8192, lsl #16
	cmp	w14, w15
	b.le	LBB42_141
	mov	w15, #5
	movk	w15, #8192, lsl #16
	cmp	w14, w15
	b.gt	LBB42_150
	mov	w15, #4
	movk	w15, #8192, lsl #16
	cmp	w14, w15
	b.eq	LBB42_164
	mov	w15, #5
	movk	w15, #8192, lsl #16
	cmp	w14, w15
	b.ne	LBB42_187
	mov	w24, wzr
	mov	w16, #1
	mov	w20, #4
	b	LBB42_197
LBB42_135:
	ldur	w14, [x3, #1]
	lsr	w15, w14, #29
	cbnz	w15, LBB42_130
LBB42_136:
	cmp	w14, #3
	b.le	LBB42_145
	cmp	w14, #5
	b.gt	LBB42_153
	cmp	w14, #4
	b.eq	LBB42_165
	cmp	w14, #5
	b.ne	LBB42_158
	mov	w24, wzr
	mov	w16, wzr
	mov	w20, #4
	b	LBB42_197
LBB42_141:
	mov	w15, #1
	movk	w15, #8192, lsl #16
	cmp	w14, w15
	b.eq	LBB42_156
	mov	w15, #2
	movk	w15, #8192, lsl #16
	cmp	w14, w15
	b.eq	LBB42_168
	mov	w15, #3
	movk	w15, #8192, lsl #16
	cmp	w14, w15
	b.ne	LBB42_187
	mov	w24, wzr
	mov	w16, #1
	mov	w20, #2
	b	LBB42_197
LBB42_145:
	cmp	w14, #1
	b.eq	LBB42_157
	cmp	w14, #2
	b.eq	LBB42_169
	cmp	w14, #3
	b.ne	LBB42_158
	mov	w24, wzr
	mov	w16, wzr
	mov	w20, #2
	b	LBB42_197
LBB42_149:
	str	x27, [x5]
	str	x14, [x5, #16]
	ldr	x14, [sp, #592]
	cbnz	x14, LBB42_121
	b	LBB42_218
LBB42_150:
	mov	w15, #6
	movk	w15, #8192, lsl #16
	cmp	w14, w15
	b.eq	LBB42_166
	mov	w15, #7
	movk	w15, #8192, lsl #16
	cmp	w14, w15
	b.ne	LBB42_187
	mov	w24, wzr
	mov	w16, #1
	mov	w20, #6
	b	LBB42_197
LBB42_153:
	cmp	w14, #6
	b.eq	LBB42_167
	cmp	w14, #7
	b.ne	LBB42_158
	mov	w24, wzr
	mov	w16, wzr
	mov	w20, #6
	b	LBB42_197
LBB42_156:
	mov	w24, wzr
	mov	w20, wzr
	mov	w16, #1
	b	LBB42_197
LBB42_157:
	mov	w24, wzr
	mov	w20, wzr
	mov	w16, wzr
	b	LBB42_197
LBB42_158:
	sub	w15, w14, #1001
	cmp	w15, #7
	b.hs	LBB42_171
	mov	w16, wzr
	cmp	w14, #1003
	mov	w20, #6
	mov	w24, #1
	b.gt	LBB42_177
	cmp	w14, #1001
	b.eq	LBB42_202
	cmp	w14, #1002
	b.eq	LBB42_204
	cmp	w14, #1003
	b.ne	LBB42_197
	mov	w16, wzr
	mov	w20, #2
	mov	w24, #1
	b	LBB42_197
LBB42_164:
	mov	w24, wzr
	mov	w16, #1
	mov	w20, #3
	b	LBB42_197
LBB42_165:
	mov	w24, wzr
	mov	w16, wzr
	mov	w20, #3
	b	LBB42_197
LBB42_166:
	mov	w24, wzr
	mov	w16, #1
	mov	w20, #5
	b	LBB42_197
LBB42_167:
	mov	w24, wzr
	mov	w16, wzr
	mov	w20, #5
	b	LBB42_197
LBB42_168:
	mov	w24, wzr
	mov	w20, #1
	mov	w16, #1
	b	LBB42_197
LBB42_169:
	mov	w24, wzr
	mov	w16, wzr
LBB42_170:
	mov	w20, #1
	b	LBB42_197
LBB42_171:
	sub	w15, w14, #2001
	cmp	w15, #7
	b.hs	LBB42_181
	mov	w16, wzr
	cmp	w14, #2003
	mov	w20, #6
	mov	w24, #2
	b.gt	LBB42_198
	cmp	w14, #2001
	b.eq	LBB42_210
	cmp	w14, #2002
	b.eq	LBB42_212
	cmp	w14, #2003
	b.ne	LBB42_197
	mov	w16, wzr
	mov	w24, #2
	mov	w20, #2
	b	LBB42_197
LBB42_177:
	cmp	w14, #1004
	b.eq	LBB42_203
	cmp	w14, #1005
	b.eq	LBB42_205
	cmp	w14, #1006
	b.ne	LBB42_197
	mov	w16, wzr
	mov	w20, #5
	mov	w24, #1
	b	LBB42_197
LBB42_181:
	sub	w15, w14, #3001
	cmp	w15, #7
	b.hs	LBB42_187
	mov	w16, wzr
	cmp	w14, #3003
	mov	w20, #6
	mov	w24, #3
	b.gt	LBB42_206
	cmp	w14, #3001
	b.eq	LBB42_214
	cmp	w14, #3002
	b.eq	LBB42_216
	cmp	w14, #3003
	b.ne	LBB42_197
	mov	w16, wzr
	mov	w20, #2
	mov	w24, #3
	b	LBB42_197
LBB42_187:
	cbz	w25, LBB42_189
	cmp	w25, #1
	b.ne	LBB42_239
LBB42_189:
	cmp	x4, #5
	b.lo	LBB42_226
	ldur	w14, [x3, #1]
	cmp	w25, #0
	mov	w16, #-1073741824
	rev	w15, w14
	csel	w14, w14, w15, ne
	ubfx	w15, w14, #30, #1
	and	w17, w14, #0x7fffffff
	add	w16, w17, w16
	cmp	w15, #0
	csel	w15, w17, w16, eq
	lsr	w16, w15, #29
	cmp	w16, #0
	mov	w16, #-536870912
	add	w16, w15, w16
	csel	w20, w16, w15, ne
	cset	w16, ne
	cmp	w20, #3999
	b.hi	LBB42_225
	mov	w15, #35128
	movk	w15, #65, lsl #16
	umull	x15, w20, w15
	lsr	x15, x15, #32
	msub	w15, w15, w29, w20
	sub	w7, w15, #1
	cmp	w7, #6
	b.hi	LBB42_225
	lsr	w17, w17, #30
	tbnz	w14, #31, LBB42_195
	mov	w14, #19923
	movk	w14, #4194, lsl #16
	umull	x14, w20, w14
	lsr	x14, x14, #38
	mov	w24, w14
	cbz	w17, LBB42_196
	lsl	w14, w14, #3
	lsr	w24, w6, w14
	b	LBB42_196
LBB42_195:
	cmp	w20, #2000
	mov	w14, #3
	ccmp	w17, #0, #0, lo
	csinc	w24, w14, wzr, ne
LBB42_196:
	mov	x17, #6
	lsl	w14, w15, #3
	cmp	w15, #7
	movk	x17, #513, lsl #16
	mov	w15, #6
	movk	x17, #1027, lsl #32
	movk	x17, #5, lsl #48
	lsr	x14, x17, x14
	csel	w20, w14, w15, lo
LBB42_197:
	strb	w25, [x2]
	strb	w16, [x2, #1]
	strb	w20, [x2, #2]
	strb	w24, [x2, #3]
	and	w14, w20, #0xff
	cmp	w14, #3
	b.gt	LBB42_1
	b	LBB42_77
LBB42_198:
	cmp	w14, #2004
	b.eq	LBB42_211
	cmp	w14, #2005
	b.eq	LBB42_213
	cmp	w14, #2006
	b.ne	LBB42_197
	mov	w16, wzr
	mov	w20, #5
	mov	w24, #2
	b	LBB42_197
LBB42_202:
	mov	w20, wzr
	mov	w16, wzr
	mov	w24, #1
	b	LBB42_197
LBB42_203:
	mov	w16, wzr
	mov	w20, #3
	mov	w24, #1
	b	LBB42_197
LBB42_204:
	mov	w16, wzr
	mov	w24, #1
	b	LBB42_170
LBB42_205:
	mov	w16, wzr
	mov	w20, #4
	mov	w24, #1
	b	LBB42_197
LBB42_206:
	cmp	w14, #3004
	b.eq	LBB42_215
	cmp	w14, #3005
	b.eq	LBB42_217
	cmp	w14, #3006
	b.ne	LBB42_197
	mov	w16, wzr
	mov	w20, #5
	mov	w24, #3
	b	LBB42_197
LBB42_210:
	mov	w20, wzr
	mov	w16, wzr
	mov	w24, #2
	b	LBB42_197
LBB42_211:
	mov	w16, wzr
	mov	w20, #3
	mov	w24, #2
	b	LBB42_197
LBB42_212:
	mov	w16, wzr
	mov	w20, #1
	mov	w24, #2
	b	LBB42_197
LBB42_213:
	mov	w16, wzr
	mov	w20, #4
	mov	w24, #2
	b	LBB42_197
LBB42_214:
	mov	w20, wzr
	mov	w16, wzr
	mov	w24, #3
	b	LBB42_197
LBB42_215:
	mov	w16, wzr
	mov	w24, #3
	mov	w20, #3
	b	LBB42_197
LBB42_216:
	mov	w16, wzr
	mov	w20, #1
	mov	w24, #3
	b	LBB42_197
LBB42_217:
	mov	w16, wzr
	mov	w20, #4
	mov	w24, #3
	b	LBB42_197
LBB42_218:
	mov	w8, #11
	stp	x3, x4, [x0, #8]
	str	w8, [x0]
	b	LBB42_264
LBB42_219:
	mov	w16, #5
	mov	x30, x1
	mov	x1, x14
	b	LBB42_221
LBB42_220:
	mov	w16, #7
	mov	x14, x4
LBB42_221:
	lsr	x23, x30, #32
	str	x15, [x5]
	mov	w3, w30
	str	x14, [x5, #16]
	mov	x20, x1
	b	LBB42_263
LBB42_222:
	mov	w16, #1
	b	LBB42_236
LBB42_223:
	mov	w16, #7
	mov	x20, x4
	b	LBB42_263
LBB42_224:
	mov	w16, #7
	b	LBB42_235
LBB42_225:
	mov	w8, #1
	b	LBB42_241
LBB42_226:
	mov	w8, #7
	b	LBB42_240
LBB42_227:
	mov	w16, #5
	mov	x26, x8
	mov	x8, x15
	b	LBB42_229
LBB42_228:
	mov	w16, #7
	mov	x15, x4
LBB42_229:
	str	x14, [x5]
	mov	x20, x8
	str	x15, [x5, #16]
	b	LBB42_261
LBB42_230:
	mov	w23, wzr
	mov	w16, #10
	mov	w3, #128
	mov	x20, x4
	b	LBB42_263
LBB42_231:
	mov	w23, wzr
	str	x14, [x5]
	mov	w16, #3
	mov	w3, w17
	str	x20, [x5, #16]
	b	LBB42_263
LBB42_232:
	mov	w16, #1
	b	LBB42_252
LBB42_233:
	mov	w16, #7
	b	LBB42_251
LBB42_234:
	mov	w16, #2
LBB42_235:
LBB42_236:
	mov	w23, wzr
	str	x14, [x5]
	str	x20, [x5, #16]
	b	LBB42_263
LBB42_237:
	mov	w16, #7
	mov	x20, x14
	b	LBB42_253
LBB42_238:
	mov	w16, #4
	mov	x20, x25
	mov	x10, x14
	b	LBB42_253
LBB42_239:
	mov	w8, #2
LBB42_240:
LBB42_241:
	stp	w8, w14, [x0]
	b	LBB42_264
LBB42_242:
	ldp	x20, x3, [sp, #64]
	mov	w16, #7
	lsr	x23, x3, #32
	b	LBB42_263
LBB42_243:
	mov	w23, wzr
	mov	w16, #3
	mov	w3, w15
	mov	x20, x4
	b	LBB42_263
LBB42_244:
	mov	w16, #7
	b	LBB42_247
LBB42_245:
	mov	x3, x17
	lsr	x23, x17, #32
	mov	w16, #4
	mov	x20, x4
	b	LBB42_263
LBB42_246:
	mov	w16, #6
LBB42_247:
	lsr	x23, x3, #32
	mov	x20, x4
	b	LBB42_263
LBB42_248:
	mov	w16, #1
	b	LBB42_259
LBB42_249:
	mov	w16, #7
	b	LBB42_258
LBB42_250:
	mov	w16, #2
LBB42_251:
LBB42_252:
LBB42_253:
	str	x23, [x5]
	lsr	x23, x10, #32
	mov	w3, w10
	str	x25, [x5, #16]
	b	LBB42_262
LBB42_254:
	mov	w16, #7
	b	LBB42_221
LBB42_255:
	ldr	x26, [sp, #56]
	ldr	x20, [sp, #8]
	mov	w16, #7
	str	x14, [x5]
	b	LBB42_260
LBB42_256:
	mov	w16, #7
	b	LBB42_229
LBB42_257:
	mov	w16, #2
LBB42_258:
LBB42_259:
	str	x14, [x5]
LBB42_260:
	str	x4, [x5, #16]
LBB42_261:
	lsr	x23, x26, #32
	mov	w3, w26
LBB42_262:
	mov	w28, w17
LBB42_263:
	mov	w8, w3
	stp	w16, w28, [x0]
	orr	x8, x8, x23, lsl #32
	stp	x8, x20, [x0, #8]
LBB42_264:
	add	sp, sp, #608
	.cfi_def_cfa_offset 96
	ldp	x20, x19, [sp, #80]
	ldp	x22, x21, [sp, #64]
	ldp	x24, x23, [sp, #48]
	ldp	x26, x25, [sp, #32]
	ldp	x28, x27, [sp, #16]
	ldp	x29, x30, [sp], #96
	.cfi_def_cfa_offset 0
	.cfi_restore w19
	.cfi_restore w20
	.cfi_restore w21
	.cfi_restore w22
	.cfi_restore w23
	.cfi_restore w24
	.cfi_restore w25
	.cfi_restore w26
	.cfi_restore w27
	.cfi_restore w28
	.cfi_restore w30
	.cfi_restore w29
	ret
Lfunc_end42:
	.cfi_endproc
	.section	__TEXT,__text,regular,pure_instructions
	.p2align	2
_ZN7wkb_raw6erased9wkb_write11line_string15put_coordinates17hfde6351917a1a33eE:
	.cfi_startproc
	ldr	x8, [x1]
	cmp	x8, #2
	b.gt	LBB43_31
	sub	x9, x8, #1
	cmp	x9, #2
	b.hs	LBB43_65
LBB43_2:
	ldr	x9, [x1, #24]
	mov	x10, #-6148914691236517206
	movk	x10, #43691
	umulh	x9, x9, x10
	lsr	x9, x9, #1
	ldr	x10, [x1, #8]
	cmp	x8, #2
	b.gt	LBB43_66
LBB43_3:
	sub	x11, x8, #1
	cmp	x11, #2
	b.hs	LBB43_60
	mov	w11, #24
	cbz	x9, LBB43_61
LBB43_5:
	stp	x20, x19, [sp, #-16]!
	.cfi_def_cfa_offset 16
	.cfi_offset w19, -8
	.cfi_offset w20, -16
	.cfi_remember_state
	ldp	x12, x13, [x0]
	ldr	x14, [x1, #16]
	ldp	x15, x16, [x0, #16]
	tbz	w2, #0, LBB43_33
	mov	x2, xzr
	sub	x17, x8, #1
	b	LBB43_8
LBB43_7:
	add	x16, x16, x2, lsl #3
	cmp	x1, x9
	mov	x2, x1
	str	x16, [x0, #24]
	b.hs	LBB43_59
LBB43_8:
	sub	x3, x15, x16
	cmp	x3, x11
	b.hs	LBB43_11
	cbnz	x16, LBB43_69
	cmp	x15, x11
	str	xzr, [x0, #24]
	b.lo	LBB43_70
LBB43_11:
	sub	x1, x9, x2
	mul	x1, x1, x11
	cmp	x1, x3
	mov	x1, x9
	b.ls	LBB43_13
	udiv	x1, x3, x11
	add	x1, x1, x2
LBB43_13:
	cmp	x8, #2
	b.gt	LBB43_16
	cmp	x17, #2
	b.hs	LBB43_18
	mov	w3, #3
	b	LBB43_19
LBB43_16:
	cmp	x8, #3
	mov	x3, x10
	b.ne	LBB43_19
	mov	w3, #4
	b	LBB43_19
LBB43_18:
	mov	w3, #2
LBB43_19:
	mul	x4, x3, x2
	neg	x2, x4
	add	x4, x14, x4, lsl #3
	madd	x2, x3, x1, x2
	add	x3, x13, x16
	lsr	x5, x2, #1
	cbz	x5, LBB43_26
	cmp	x2, #8
	b.lo	LBB43_23
	lsl	x6, x5, #4
	add	x7, x4, x6
	cmp	x3, x7
	b.hs	LBB43_28
	add	x7, x13, x16
	add	x6, x7, x6
	cmp	x4, x6
	b.hs	LBB43_28
LBB43_23:
	mov	x6, xzr
LBB43_24:
	lsl	x7, x6, #4
	sub	x5, x5, x6
LBB43_25:
	ldr	q0, [x4, x7]
	subs	x5, x5, #1
	str	q0, [x3, x7]
	add	x7, x7, #16
	b.ne	LBB43_25
LBB43_26:
	and	x5, x2, #0xffffffffffffffe
	cmp	x5, x2
	b.eq	LBB43_7
	ldr	x4, [x4, x5, lsl #3]
	str	x4, [x3, x5, lsl #3]
	b	LBB43_7
LBB43_28:
	and	x6, x5, #0x7ffffffffffffffe
	and	x7, x5, #0x7ffffffffffffffe
	add	x19, x13, x16
	mov	x20, x4
LBB43_29:
	ldp	q1, q0, [x20], #32
	subs	x7, x7, #2
	stp	q1, q0, [x19], #32
	b.ne	LBB43_29
	cmp	x5, x6
	b.eq	LBB43_26
	b	LBB43_24
LBB43_31:
	.cfi_def_cfa wsp, 0
	.cfi_same_value w19
	.cfi_same_value w20
	cmp	x8, #3
	b.ne	LBB43_62
	mov	w9, #4
	ldr	x10, [x1, #24]
	udiv	x9, x10, x9
	ldr	x10, [x1, #8]
	cmp	x8, #2
	b.le	LBB43_3
	b	LBB43_66
LBB43_33:
	.cfi_restore_state
	.cfi_remember_state
	mov	x2, xzr
	sub	x17, x8, #1
	b	LBB43_35
LBB43_34:
	add	x16, x16, x2, lsl #3
	cmp	x1, x9
	mov	x2, x1
	str	x16, [x0, #24]
	b.hs	LBB43_59
LBB43_35:
	sub	x3, x15, x16
	cmp	x3, x11
	b.hs	LBB43_38
	cbnz	x16, LBB43_69
	cmp	x15, x11
	str	xzr, [x0, #24]
	b.lo	LBB43_70
LBB43_38:
	sub	x1, x9, x2
	mul	x1, x1, x11
	cmp	x1, x3
	mov	x1, x9
	b.ls	LBB43_40
	udiv	x1, x3, x11
	add	x1, x1, x2
LBB43_40:
	cmp	x8, #2
	b.gt	LBB43_43
	cmp	x17, #2
	b.hs	LBB43_45
	mov	w3, #3
	b	LBB43_47
LBB43_43:
	cmp	x8, #3
	b.ne	LBB43_46
	mov	w3, #4
	b	LBB43_47
LBB43_45:
	mov	w3, #2
	b	LBB43_47
LBB43_46:
	mov	x3, x10
LBB43_47:
	mul	x4, x3, x2
	neg	x2, x4
	add	x4, x14, x4, lsl #3
	madd	x2, x3, x1, x2
	add	x3, x13, x16
	lsr	x5, x2, #1
	cbz	x5, LBB43_54
	cmp	x2, #8
	b.lo	LBB43_51
	lsl	x6, x5, #4
	add	x7, x4, x6
	cmp	x3, x7
	b.hs	LBB43_56
	add	x7, x13, x16
	add	x6, x7, x6
	cmp	x4, x6
	b.hs	LBB43_56
LBB43_51:
	mov	x6, xzr
LBB43_52:
	lsl	x7, x6, #4
	sub	x5, x5, x6
LBB43_53:
	ldr	q0, [x4, x7]
	subs	x5, x5, #1
	rev64	v0.16b, v0.16b
	str	q0, [x3, x7]
	add	x7, x7, #16
	b.ne	LBB43_53
LBB43_54:
	and	x5, x2, #0xffffffffffffffe
	cmp	x5, x2
	b.eq	LBB43_34
	ldr	x4, [x4, x5, lsl #3]
	rev	x4, x4
	str	x4, [x3, x5, lsl #3]
	b	LBB43_34
LBB43_56:
	and	x6, x5, #0x7ffffffffffffffe
	and	x7, x5, #0x7ffffffffffffffe
	add	x19, x13, x16
	mov	x20, x4
LBB43_57:
	ldp	q1, q0, [x20], #32
	subs	x7, x7, #2
	rev64	v0.16b, v0.16b
	rev64	v1.16b, v1.16b
	stp	q1, q0, [x19], #32
	b.ne	LBB43_57
	cmp	x5, x6
	b.eq	LBB43_54
	b	LBB43_52
LBB43_59:
	mov	w0, wzr
	ldp	x20, x19, [sp], #16
	.cfi_def_cfa_offset 0
	.cfi_restore w19
	.cfi_restore w20
	ret
LBB43_60:
	mov	w11, #16
	cbnz	x9, LBB43_5
LBB43_61:
	mov	w0, wzr
	ret
LBB43_62:
	ldr	x9, [x1, #8]
	cmp	x9, #2
	b.eq	LBB43_65
	cmp	x9, #3
	b.eq	LBB43_2
	ldr	x10, [x1, #24]
	udiv	x9, x10, x9
	ldr	x10, [x1, #8]
	cmp	x8, #2
	b.le	LBB43_3
	b	LBB43_66
LBB43_65:
	ldr	x9, [x1, #24]
	lsr	x9, x9, #1
	ldr	x10, [x1, #8]
	cmp	x8, #2
	b.le	LBB43_3
LBB43_66:
	cmp	x8, #3
	b.ne	LBB43_68
	mov	w11, #32
	cbnz	x9, LBB43_5
	b	LBB43_61
LBB43_68:
	lsl	x11, x10, #3
	cbnz	x9, LBB43_5
	b	LBB43_61
LBB43_69:
	.cfi_restore_state
	mov	w8, #1
	mov	w9, #5
	strb	w8, [x12]
	strb	w9, [x0, #32]
LBB43_70:
	mov	w0, #1
	ldp	x20, x19, [sp], #16
	.cfi_def_cfa_offset 0
	.cfi_restore w19
	.cfi_restore w20
	ret
Lfunc_end43:
	.cfi_endproc
	.section	__TEXT,__text,regular,pure_instructions
	.p2align	2
_ZN7wkb_raw6erased9wkb_write5items12measure_each17h2f3075515aa29621E:
	.cfi_startproc
	ldr	x8, [x0, #32]
	cbz	x8, LBB44_2
	ldr	x14, [x0, #40]
	mov	x9, x14
	lsr	x10, x14, #32
	cbz	x10, LBB44_3
	b	LBB44_17
LBB44_2:
	ldp	x14, x9, [x0, #40]
	subs	x9, x9, x14
	csel	x9, xzr, x9, lo
	lsr	x10, x9, #32
	cbnz	x10, LBB44_17
LBB44_3:
	add	x10, x9, x9, lsl #2
	add	x1, x10, #4
	cbz	x9, LBB44_54
	ldp	x11, x10, [x0]
	mov	w12, #4
	cmp	x10, #4
	csel	x12, x10, x12, lo
	cmp	x11, #2
	b.gt	LBB44_10
	sub	x13, x11, #1
	cmp	x13, #2
	b.hs	LBB44_19
	mov	w13, #3
	cbnz	x8, LBB44_13
LBB44_7:
	add	x16, x14, #1
	mul	x16, x16, x13
	cmp	x11, #2
	msub	x13, x14, x13, x16
	b.le	LBB44_14
LBB44_8:
	cmp	x11, #3
	b.ne	LBB44_20
	mov	w15, #4
	b	LBB44_22
LBB44_10:
	cmp	x11, #3
	mov	x13, x10
	b.ne	LBB44_12
	mov	w13, #4
LBB44_12:
	cbz	x8, LBB44_7
LBB44_13:
	ldr	x15, [x0, #48]
	ldr	x16, [x8]
	mul	x16, x16, x13
	cmp	x11, #2
	msub	x13, x15, x13, x16
	b.gt	LBB44_8
LBB44_14:
	sub	x15, x11, #1
	cmp	x15, #2
	b.hs	LBB44_16
LBB44_15:
	mov	x15, #-6148914691236517206
	movk	x15, #43691
	umulh	x13, x13, x15
LBB44_16:
	lsr	x13, x13, #1
	lsr	x15, x13, #32
	cbz	x15, LBB44_23
LBB44_17:
	mov	w0, #2
LBB44_18:
	ret
LBB44_19:
	mov	w13, #2
	cbnz	x8, LBB44_13
	b	LBB44_7
LBB44_20:
	cmp	x10, #2
	b.eq	LBB44_16
	cmp	x10, #3
	mov	x15, x10
	b.eq	LBB44_15
LBB44_22:
	udiv	x13, x13, x15
	lsr	x15, x13, #32
	cbnz	x15, LBB44_17
LBB44_23:
	cmp	x11, #2
	b.gt	LBB44_51
	sub	x15, x11, #1
	cmp	x15, #2
	b.hs	LBB44_56
	mov	w15, #3
	mul	x13, x13, x15
	cmp	x9, #1
	add	x13, x1, x13, lsl #3
	add	x1, x13, #4
	b.eq	LBB44_54
LBB44_26:
	mov	x2, #-6148914691236517206
	mov	x13, xzr
	add	x14, x14, #2
	add	x15, x8, #8
	mov	w16, #1
	mov	w0, #2
	sub	x17, x11, #1
	movk	x2, #43691
	mov	w3, #4
	b	LBB44_29
LBB44_27:
	mov	w5, #3
LBB44_28:
	mul	x4, x4, x5
	add	x16, x16, #1
	add	x14, x14, #1
	add	x15, x15, #8
	orr	x4, x3, x4, lsl #3
	adds	x1, x1, x4
	cinc	x13, x13, hs
	cmp	x9, x16
	b.eq	LBB44_55
LBB44_29:
	cmp	x11, #2
	b.gt	LBB44_36
	cmp	x17, #2
	b.hs	LBB44_38
	mov	w4, #3
	cbz	x8, LBB44_39
LBB44_32:
	ldp	x5, x6, [x15, #-8]
	mul	x6, x6, x4
	cmp	x11, #2
	msub	x4, x5, x4, x6
	b.gt	LBB44_40
LBB44_33:
	cmp	x17, #2
	b.hs	LBB44_35
LBB44_34:
	umulh	x4, x4, x2
LBB44_35:
	lsr	x4, x4, #1
	lsr	x5, x4, #32
	cbz	x5, LBB44_46
	b	LBB44_18
LBB44_36:
	cmp	x11, #3
	b.ne	LBB44_43
	mov	w4, #4
	cbnz	x8, LBB44_32
	b	LBB44_39
LBB44_38:
	mov	w4, #2
	cbnz	x8, LBB44_32
LBB44_39:
	sub	x5, x14, #1
	mul	x6, x14, x4
	cmp	x11, #2
	msub	x4, x5, x4, x6
	b.le	LBB44_33
LBB44_40:
	cmp	x11, #4
	b.ne	LBB44_44
	cmp	x10, #3
	b.eq	LBB44_34
	cmp	x10, #2
	mov	x5, x10
	b.eq	LBB44_35
	b	LBB44_45
LBB44_43:
	mov	x4, x10
	cbnz	x8, LBB44_32
	b	LBB44_39
LBB44_44:
	mov	w5, #4
LBB44_45:
	udiv	x4, x4, x5
	lsr	x5, x4, #32
	cbnz	x5, LBB44_18
LBB44_46:
	cmp	x11, #2
	b.gt	LBB44_49
	cmp	x17, #2
	b.lo	LBB44_27
	mov	w5, #2
	b	LBB44_28
LBB44_49:
	cmp	x11, #3
	mov	x5, x12
	b.ne	LBB44_28
	mov	w5, #4
	b	LBB44_28
LBB44_51:
	cmp	x11, #3
	mov	x15, x12
	b.ne	LBB44_53
	mov	w15, #4
LBB44_53:
	mul	x13, x13, x15
	cmp	x9, #1
	add	x13, x1, x13, lsl #3
	add	x1, x13, #4
	b.ne	LBB44_26
LBB44_54:
	mov	x0, xzr
	ret
LBB44_55:
	cmp	x13, #0
	mov	x0, xzr
	csinv	x1, x1, xzr, eq
	ret
LBB44_56:
	mov	w15, #2
	mul	x13, x13, x15
	cmp	x9, #1
	add	x13, x1, x13, lsl #3
	add	x1, x13, #4
	b.eq	LBB44_54
	b	LBB44_26
Lfunc_end44:
	.cfi_endproc
	.section	__TEXT,__text,regular,pure_instructions
	.p2align	2
_ZN7wkb_raw6erased9wkb_write5items12measure_each17h7fd4cf8fb1b3bceeE:
	.cfi_startproc
	sub	sp, sp, #96
	.cfi_def_cfa_offset 96
	stp	x30, x25, [sp, #32]
	stp	x24, x23, [sp, #48]
	stp	x22, x21, [sp, #64]
	stp	x20, x19, [sp, #80]
	.cfi_offset w19, -8
	.cfi_offset w20, -16
	.cfi_offset w21, -24
	.cfi_offset w22, -32
	.cfi_offset w23, -40
	.cfi_offset w24, -48
	.cfi_offset w25, -56
	.cfi_offset w30, -64
	.cfi_remember_state
	ldr	x8, [x0, #32]
	mov	x19, x0
	cbz	x8, LBB45_4
	ldr	x9, [x19, #40]
	cbz	x9, LBB45_5
LBB45_2:
	ldr	x10, [x19, #48]
	subs	x10, x10, x9
	csel	x10, xzr, x10, lo
	cmp	x8, #0
	csel	x8, x10, x9, eq
	lsr	x9, x8, #32
	cmp	x8, #1
	csinc	x21, x8, xzr, hi
	cbz	x9, LBB45_6
LBB45_3:
	mov	w0, #2
	ldp	x20, x19, [sp, #80]
	ldp	x22, x21, [sp, #64]
	ldp	x24, x23, [sp, #48]
	ldp	x30, x25, [sp, #32]
	add	sp, sp, #96
	.cfi_def_cfa_offset 0
	.cfi_restore w19
	.cfi_restore w20
	.cfi_restore w21
	.cfi_restore w22
	.cfi_restore w23
	.cfi_restore w24
	.cfi_restore w25
	.cfi_restore w30
	ret
LBB45_4:
	.cfi_restore_state
	.cfi_remember_state
	ldp	x9, x10, [x19, #40]
	subs	x10, x10, x9
	csel	x10, xzr, x10, lo
	cbnz	x10, LBB45_2
LBB45_5:
	mov	x0, xzr
	mov	w1, #4
	ldp	x20, x19, [sp, #80]
	ldp	x22, x21, [sp, #64]
	ldp	x24, x23, [sp, #48]
	ldp	x30, x25, [sp, #32]
	add	sp, sp, #96
	.cfi_def_cfa_offset 0
	.cfi_restore w19
	.cfi_restore w20
	.cfi_restore w21
	.cfi_restore w22
	.cfi_restore w23
	.cfi_restore w24
	.cfi_restore w25
	.cfi_restore w30
	ret
LBB45_6:
	.cfi_restore_state
	mov	x24, #-6148914691236517206
	mov	x20, xzr
	mov	x22, xzr
	mov	w23, #4
	movk	x24, #43691
	mov	w25, #4
	b	LBB45_9
LBB45_7:
	mov	w8, #3
LBB45_8:
	mul	x8, x9, x8
	add	x20, x20, #1
	orr	x8, x23, x8, lsl #3
	adds	x25, x25, x8
	cinc	x22, x22, hs
	cmp	x21, x20
	b.eq	LBB45_24
LBB45_9:
	mov	x0, sp
	mov	x1, x19
	mov	x2, x20
	bl	_ZN7wkb_raw6erased9wkb_write7polygon8nth_ring17h09e28acf345114b6E
	ldr	x8, [sp]
	cmp	x8, #2
	b.gt	LBB45_12
	sub	x9, x8, #1
	cmp	x9, #2
	b.hs	LBB45_17
LBB45_11:
	ldr	x9, [sp, #24]
	umulh	x9, x9, x24
	lsr	x9, x9, #1
	lsr	x10, x9, #32
	cbz	x10, LBB45_18
	b	LBB45_3
LBB45_12:
	cmp	x8, #3
	b.ne	LBB45_14
	mov	w9, #4
	ldr	x10, [sp, #24]
	udiv	x9, x10, x9
	lsr	x10, x9, #32
	cbz	x10, LBB45_18
	b	LBB45_3
LBB45_14:
	ldr	x9, [sp, #8]
	cmp	x9, #2
	b.eq	LBB45_17
	cmp	x9, #3
	b.eq	LBB45_11
	ldr	x10, [sp, #24]
	udiv	x9, x10, x9
	lsr	x10, x9, #32
	cbz	x10, LBB45_18
	b	LBB45_3
LBB45_17:
	ldr	x9, [sp, #24]
	lsr	x9, x9, #1
	lsr	x10, x9, #32
	cbnz	x10, LBB45_3
LBB45_18:
	cmp	x8, #2
	b.gt	LBB45_21
	sub	x8, x8, #1
	cmp	x8, #2
	b.lo	LBB45_7
	mov	w8, #2
	b	LBB45_8
LBB45_21:
	cmp	x8, #3
	b.ne	LBB45_23
	mov	w8, #4
	b	LBB45_8
LBB45_23:
	ldr	x8, [sp, #8]
	cmp	x8, #4
	csel	x8, x8, x23, lo
	b	LBB45_8
LBB45_24:
	cmp	x22, #0
	mov	x0, xzr
	csinv	x1, x25, xzr, eq
	ldp	x20, x19, [sp, #80]
	ldp	x22, x21, [sp, #64]
	ldp	x24, x23, [sp, #48]
	ldp	x30, x25, [sp, #32]
	add	sp, sp, #96
	.cfi_def_cfa_offset 0
	.cfi_restore w19
	.cfi_restore w20
	.cfi_restore w21
	.cfi_restore w22
	.cfi_restore w23
	.cfi_restore w24
	.cfi_restore w25
	.cfi_restore w30
	ret
Lfunc_end45:
	.cfi_endproc
	.section	__TEXT,__text,regular,pure_instructions
	.p2align	2
_ZN7wkb_raw6erased9wkb_write5items12measure_each17hbb5dcb0cb4b8b721E:
	.cfi_startproc
	sub	sp, sp, #176
	.cfi_def_cfa_offset 176
	stp	x29, x30, [sp, #80]
	stp	x28, x27, [sp, #96]
	stp	x26, x25, [sp, #112]
	stp	x24, x23, [sp, #128]
	stp	x22, x21, [sp, #144]
	stp	x20, x19, [sp, #160]
	.cfi_offset w19, -8
	.cfi_offset w20, -16
	.cfi_offset w21, -24
	.cfi_offset w22, -32
	.cfi_offset w23, -40
	.cfi_offset w24, -48
	.cfi_offset w25, -56
	.cfi_offset w26, -64
	.cfi_offset w27, -72
	.cfi_offset w28, -80
	.cfi_offset w30, -88
	.cfi_offset w29, -96
	.cfi_remember_state
	ldr	x26, [x0, #56]
	cbz	x26, LBB46_3
	ldr	x20, [x0, #64]
	lsr	x8, x20, #32
	cbz	x8, LBB46_4
LBB46_2:
	mov	w0, #2
	b	LBB46_16
LBB46_3:
	ldp	x9, x8, [x0, #64]
	subs	x8, x8, x9
	csel	x20, xzr, x8, lo
	lsr	x8, x20, #32
	cbnz	x8, LBB46_2
LBB46_4:
	add	x8, x20, x20, lsl #2
	add	x19, x8, #4
	cbz	x20, LBB46_14
	ldp	x8, x9, [x0]
	add	x21, x0, #48
	ldp	x23, x24, [x0, #16]
	ldp	x28, x29, [x0, #32]
	stp	x9, x8, [sp, #8]
	cbz	x26, LBB46_17
	ldr	x27, [x0, #72]
	cbz	x28, LBB46_23
	ldr	x29, [x26]
	stp	x8, x9, [sp, #24]
	add	x0, sp, #24
	ldr	x9, [x21]
	stp	x23, x24, [sp, #40]
	sub	x8, x29, x27
	stp	x28, x8, [sp, #56]
	str	x9, [sp, #72]
	bl	_ZN7wkb_raw6erased9wkb_write5items12measure_each17h7fd4cf8fb1b3bceeE
	cbnz	x0, LBB46_16
	adds	x19, x19, x1
	cset	w25, hs
	cmp	x20, #1
	b.eq	LBB46_15
	mov	w22, #1
LBB46_10:
	subs	x8, x29, x27
	mov	x10, x21
	add	x9, x28, x8, lsl #3
	b.eq	LBB46_12
	sub	x10, x9, #8
LBB46_12:
	ldr	x11, [sp, #16]
	ldr	x29, [x26, x22, lsl #3]
	add	x0, sp, #24
	ldr	x10, [x10]
	str	x24, [sp, #48]
	str	x11, [sp, #24]
	ldr	x11, [sp, #8]
	str	x10, [sp, #72]
	stp	x11, x23, [sp, #32]
	sub	x11, x29, x27
	sub	x8, x11, x8
	stp	x9, x8, [sp, #56]
	bl	_ZN7wkb_raw6erased9wkb_write5items12measure_each17h7fd4cf8fb1b3bceeE
	cbnz	x0, LBB46_16
	add	x22, x22, #1
	adds	x19, x19, x1
	cinc	x25, x25, hs
	cmp	x20, x22
	b.ne	LBB46_10
	b	LBB46_15
LBB46_14:
	mov	x25, xzr
LBB46_15:
	cmp	x25, #0
	mov	x0, xzr
	csinv	x1, x19, xzr, eq
LBB46_16:
	ldp	x20, x19, [sp, #160]
	ldp	x22, x21, [sp, #144]
	ldp	x24, x23, [sp, #128]
	ldp	x26, x25, [sp, #112]
	ldp	x28, x27, [sp, #96]
	ldp	x29, x30, [sp, #80]
	add	sp, sp, #176
	.cfi_def_cfa_offset 0
	.cfi_restore w19
	.cfi_restore w20
	.cfi_restore w21
	.cfi_restore w22
	.cfi_restore w23
	.cfi_restore w24
	.cfi_restore w25
	.cfi_restore w26
	.cfi_restore w27
	.cfi_restore w28
	.cfi_restore w30
	.cfi_restore w29
	ret
LBB46_17:
	.cfi_restore_state
	cbz	x28, LBB46_28
	stp	x8, x9, [sp, #24]
	ldr	x8, [x21]
	mov	w9, #1
	add	x0, sp, #24
	stp	x23, x24, [sp, #40]
	stp	x28, x9, [sp, #56]
	str	x8, [sp, #72]
	bl	_ZN7wkb_raw6erased9wkb_write5items12measure_each17h7fd4cf8fb1b3bceeE
	cbnz	x0, LBB46_16
	adds	x19, x19, x1
	cset	w25, hs
	cmp	x20, #1
	b.eq	LBB46_15
	add	x21, x28, #8
	mov	w22, #1
	mov	w26, #1
LBB46_21:
	ldp	x8, x9, [sp, #8]
	add	x0, sp, #24
	stp	x23, x24, [sp, #40]
	stp	x21, x22, [sp, #56]
	stp	x9, x8, [sp, #24]
	ldur	x8, [x21, #-8]
	str	x8, [sp, #72]
	bl	_ZN7wkb_raw6erased9wkb_write5items12measure_each17h7fd4cf8fb1b3bceeE
	cbnz	x0, LBB46_16
	add	x26, x26, #1
	adds	x19, x19, x1
	add	x21, x21, #8
	cinc	x25, x25, hs
	cmp	x20, x26
	b.ne	LBB46_21
	b	LBB46_15
LBB46_23:
	ldr	x21, [x26]
	stp	x8, x9, [sp, #24]
	add	x0, sp, #24
	stp	x23, x24, [sp, #40]
	sub	x8, x21, x27
	stp	xzr, x29, [sp, #56]
	add	x8, x29, x8
	str	x8, [sp, #72]
	bl	_ZN7wkb_raw6erased9wkb_write5items12measure_each17h7fd4cf8fb1b3bceeE
	cbnz	x0, LBB46_16
	adds	x19, x19, x1
	cset	w25, hs
	cmp	x20, #1
	b.eq	LBB46_15
	mov	w22, #1
LBB46_26:
	ldp	x8, x9, [sp, #8]
	add	x0, sp, #24
	stp	x23, x24, [sp, #40]
	stp	x9, x8, [sp, #24]
	sub	x8, x21, x27
	ldr	x21, [x26, x22, lsl #3]
	add	x8, x29, x8
	sub	x9, x21, x27
	stp	xzr, x8, [sp, #56]
	add	x9, x29, x9
	str	x9, [sp, #72]
	bl	_ZN7wkb_raw6erased9wkb_write5items12measure_each17h7fd4cf8fb1b3bceeE
	cbnz	x0, LBB46_16
	add	x22, x22, #1
	adds	x19, x19, x1
	cinc	x25, x25, hs
	cmp	x20, x22
	b.ne	LBB46_26
	b	LBB46_15
LBB46_28:
	mov	x25, xzr
LBB46_29:
	ldp	x8, x9, [sp, #8]
	add	x21, x29, #1
	add	x0, sp, #24
	stp	x23, x24, [sp, #40]
	stp	xzr, x29, [sp, #56]
	stp	x9, x8, [sp, #24]
	str	x21, [sp, #72]
	bl	_ZN7wkb_raw6erased9wkb_write5items12measure_each17h7fd4cf8fb1b3bceeE
	cbnz	x0, LBB46_16
	adds	x19, x19, x1
	mov	x29, x21
	cinc	x25, x25, hs
	subs	x20, x20, #1
	b.ne	LBB46_29
	b	LBB46_15
Lfunc_end46:
	.cfi_endproc
	.section	__TEXT,__text,regular,pure_instructions
	.p2align	2
_ZN7wkb_raw6erased9wkb_write7polygon8nth_ring17h09e28acf345114b6E:
	.cfi_startproc
	cbz	x2, LBB47_3
	ldr	x9, [x1, #32]
	sub	x10, x2, #1
	cbz	x9, LBB47_5
	ldr	x11, [x1, #40]
	cmp	x11, #0
	cset	w12, ne
	sub	x8, x11, x12
	cmp	x10, x8
	b.lo	LBB47_6
	b	LBB47_13
LBB47_3:
	ldr	x10, [x1, #32]
	cbz	x10, LBB47_9
	ldr	x9, [x1, #40]
	cbnz	x9, LBB47_10
	b	LBB47_13
LBB47_5:
	ldp	x11, x8, [x1, #40]
	subs	x8, x8, x11
	csel	x8, xzr, x8, lo
	cmp	x8, #0
	cset	w12, ne
	sub	x8, x8, x12
	cmp	x10, x8
	b.hs	LBB47_13
LBB47_6:
	ldr	x8, [x1]
	cmp	x8, #2
	b.gt	LBB47_14
	sub	x12, x8, #1
	cmp	x12, #2
	b.hs	LBB47_18
	mov	w12, #3
	cbnz	x9, LBB47_19
	b	LBB47_21
LBB47_9:
	ldp	x9, x8, [x1, #40]
	subs	x8, x8, x9
	csel	x8, xzr, x8, lo
	cbz	x8, LBB47_13
LBB47_10:
	ldr	x8, [x1]
	cmp	x8, #2
	b.gt	LBB47_16
	sub	x11, x8, #1
	cmp	x11, #2
	b.hs	LBB47_23
	mov	w11, #3
	cbnz	x10, LBB47_24
	b	LBB47_26
LBB47_13:
	mov	w8, #5
	stp	x8, x10, [x0]
	stp	x11, x9, [x0, #16]
	ret
LBB47_14:
	cmp	x8, #3
	b.ne	LBB47_20
	mov	w12, #4
	cbnz	x9, LBB47_19
	b	LBB47_21
LBB47_16:
	cmp	x8, #3
	b.ne	LBB47_25
	mov	w11, #4
	cbnz	x10, LBB47_24
	b	LBB47_26
LBB47_18:
	mov	w12, #2
	cbz	x9, LBB47_21
LBB47_19:
	ldr	x10, [x9, x10, lsl #3]
	ldr	x9, [x9, x2, lsl #3]
	b	LBB47_22
LBB47_20:
	ldr	x12, [x1, #8]
	cbnz	x9, LBB47_19
LBB47_21:
	add	x10, x11, x2
	add	x9, x10, #1
LBB47_22:
	mul	x11, x10, x12
	neg	x10, x11
	madd	x9, x9, x12, x10
	ldp	x10, x12, [x1, #8]
	add	x11, x12, x11, lsl #3
	stp	x8, x10, [x0]
	stp	x11, x9, [x0, #16]
	ret
LBB47_23:
	mov	w11, #2
	cbz	x10, LBB47_26
LBB47_24:
	ldr	x9, [x1, #48]
	ldr	x10, [x10]
	b	LBB47_27
LBB47_25:
	ldr	x11, [x1, #8]
	cbnz	x10, LBB47_24
LBB47_26:
	add	x10, x9, #1
LBB47_27:
	mul	x12, x9, x11
	neg	x9, x12
	madd	x9, x10, x11, x9
	ldp	x10, x11, [x1, #8]
	add	x11, x11, x12, lsl #3
	stp	x8, x10, [x0]
	stp	x11, x9, [x0, #16]
	ret
Lfunc_end47:
	.cfi_endproc
	.section	__TEXT,__text,regular,pure_instructions
	.private_extern	_wkb_raw_bounds
	.globl	_wkb_raw_bounds
	.p2align	2
_wkb_raw_bounds:
	.cfi_startproc
	hint	#34
	stp	x29, x30, [sp, #-96]!
	.cfi_def_cfa_offset 96
	stp	x28, x27, [sp, #16]
	stp	x26, x25, [sp, #32]
	stp	x24, x23, [sp, #48]
	stp	x22, x21, [sp, #64]
	stp	x20, x19, [sp, #80]
	.cfi_offset w19, -8
	.cfi_offset w20, -16
	.cfi_offset w21, -24
	.cfi_offset w22, -32
	.cfi_offset w23, -40
	.cfi_offset w24, -48
	.cfi_offset w25, -56
	.cfi_offset w26, -64
	.cfi_offset w27, -72
	.cfi_offset w28, -80
	.cfi_offset w30, -88
	.cfi_offset w29, -96
	.cfi_remember_state
	mov	x8, x3
	mov	x5, x2
	cmp	x1, #5
	b.hs	LBB48_3
	cbz	x1, LBB48_277
	ldrb	w10, [x0]
	b	LBB48_115
LBB48_3:
	ldrb	w10, [x0]
	cmp	w10, #1
	b.eq	LBB48_39
	cbnz	w10, LBB48_115
	ldur	w9, [x0, #1]
	mov	w3, wzr
	rev	w9, w9
	lsr	w11, w9, #29
	cbz	w11, LBB48_40
LBB48_6:
	mov	w11, #3
	mov	w2, wzr
	movk	w11, #8192, lsl #16
	cmp	w9, w11
	b.le	LBB48_73
	mov	w11, #5
	movk	w11, #8192, lsl #16
	cmp	w9, w11
	b.gt	LBB48_93
	mov	w11, #4
	movk	w11, #8192, lsl #16
	cmp	w9, w11
	b.eq	LBB48_174
	mov	w11, #5
	movk	w11, #8192, lsl #16
	cmp	w9, w11
	b.ne	LBB48_115
LBB48_10:
	subs	x12, x1, #13
	b.lo	LBB48_277
	ldur	w9, [x0, #9]
	cmp	w3, #0
	rev	w10, w9
	csel	w13, w9, w10, ne
	cbz	w13, LBB48_200
	and	w11, w2, #0xff
	mov	w15, #1000
	mov	w21, w2
	mul	w22, w11, w15
	mov	w6, #19923
	mov	w7, #35128
	add	x16, x0, #13
	mov	w17, #-1073741824
	mov	w4, #-536870912
	movk	w6, #4194, lsl #16
	movk	w7, #65, lsl #16
	mov	w19, #3
	mov	w20, #5
	mov	w11, #9
	and	x21, x21, #0xff
	orr	w22, w22, #0x2
	mov	w23, #13
	adrp	x24, Lswitch.table.wkb_raw_write.374@PAGE
	add	x24, x24, Lswitch.table.wkb_raw_write.374@PAGEOFF
LBB48_13:
	cmp	x12, #5
	b.hs	LBB48_16
	cbz	x12, LBB48_277
	ldrb	w26, [x16]
	b	LBB48_22
LBB48_16:
	ldrb	w26, [x16]
	cmp	w26, #1
	b.eq	LBB48_19
	cbnz	w26, LBB48_22
	ldur	w27, [x16, #1]
	mov	w25, wzr
	rev	w27, w27
	b	LBB48_20
LBB48_19:
	ldur	w27, [x16, #1]
	mov	w25, #1
LBB48_20:
	cmp	w27, w22
	b.ne	LBB48_22
	mov	w26, #9
	mov	w27, #5
	b	LBB48_36
LBB48_22:
	cbz	w26, LBB48_25
	cmp	w26, #1
	b.ne	LBB48_277
	mov	w25, #1
	b	LBB48_26
LBB48_25:
	mov	w25, wzr
LBB48_26:
	cmp	x12, #5
	b.lo	LBB48_277
	ldur	w26, [x16, #1]
	cmp	w25, #0
	rev	w27, w26
	csel	w29, w26, w27, ne
	ubfx	w26, w29, #30, #1
	and	w28, w29, #0x7fffffff
	add	w27, w28, w17
	cmp	w26, #0
	csel	w27, w28, w27, eq
	lsr	w26, w27, #29
	add	w30, w27, w4
	cmp	w26, #0
	csel	w30, w30, w27, ne
	cmp	w30, #3999
	b.hi	LBB48_277
	umull	x27, w30, w7
	lsr	x27, x27, #32
	msub	w27, w27, w15, w30
	sub	w14, w27, #1
	cmp	w14, #6
	b.hi	LBB48_277
	tbnz	w29, #31, LBB48_32
	umull	x14, w30, w6
	lsr	w29, w28, #30
	lsr	x28, x14, #38
	cbz	w29, LBB48_33
	lsl	w14, w28, #3
	mov	w28, #770
	movk	w28, #770, lsl #16
	lsr	w28, w28, w14
	b	LBB48_33
LBB48_32:
	lsr	w14, w28, #30
	cmp	w30, #2000
	ccmp	w14, #0, #0, lo
	csinc	w28, w19, wzr, ne
LBB48_33:
	cmp	w27, #2
	b.ne	LBB48_277
	and	w14, w28, #0xff
	cmp	w14, w2, uxtb
	b.ne	LBB48_277
	cmp	w26, #0
	csel	x27, x11, x20, ne
	csel	x26, x23, x11, ne
LBB48_36:
	add	x14, x27, #4
	cmp	x12, x14
	b.lo	LBB48_277
	ldr	w14, [x16, x27]
	cmp	w25, #0
	ldr	x25, [x24, x21, lsl #3]
	rev	w27, w14
	csel	w14, w14, w27, ne
	madd	x25, x25, x14, x26
	subs	x12, x12, x25
	b.lo	LBB48_277
	subs	w13, w13, #1
	add	x16, x16, x25
	b.ne	LBB48_13
	b	LBB48_303
LBB48_39:
	ldur	w9, [x0, #1]
	mov	w3, #1
	lsr	w11, w9, #29
	cbnz	w11, LBB48_6
LBB48_40:
	cmp	w9, #3
	mov	w2, wzr
	b.le	LBB48_83
	cmp	w9, #5
	b.gt	LBB48_95
	cmp	w9, #4
	b.eq	LBB48_275
	cmp	w9, #5
	b.ne	LBB48_97
LBB48_44:
	subs	x12, x1, #9
	b.lo	LBB48_277
	ldur	w9, [x0, #5]
	cmp	w3, #0
	rev	w10, w9
	csel	w13, w9, w10, ne
	cbz	w13, LBB48_302
	and	w11, w2, #0xff
	mov	w15, #1000
	mov	w21, w2
	mul	w22, w11, w15
	mov	w6, #19923
	mov	w7, #35128
	add	x16, x0, #9
	mov	w17, #-1073741824
	mov	w4, #-536870912
	movk	w6, #4194, lsl #16
	movk	w7, #65, lsl #16
	mov	w19, #3
	mov	w11, #5
	mov	w20, #9
	and	x21, x21, #0xff
	orr	w22, w22, #0x2
	mov	w23, #13
	adrp	x24, Lswitch.table.wkb_raw_write.374@PAGE
	add	x24, x24, Lswitch.table.wkb_raw_write.374@PAGEOFF
LBB48_47:
	cmp	x12, #5
	b.hs	LBB48_50
	cbz	x12, LBB48_277
	ldrb	w26, [x16]
	b	LBB48_56
LBB48_50:
	ldrb	w26, [x16]
	cmp	w26, #1
	b.eq	LBB48_53
	cbnz	w26, LBB48_56
	ldur	w27, [x16, #1]
	mov	w25, wzr
	rev	w27, w27
	b	LBB48_54
LBB48_53:
	ldur	w27, [x16, #1]
	mov	w25, #1
LBB48_54:
	cmp	w27, w22
	b.ne	LBB48_56
	mov	w26, #9
	mov	w27, #5
	b	LBB48_70
LBB48_56:
	cbz	w26, LBB48_59
	cmp	w26, #1
	b.ne	LBB48_277
	mov	w25, #1
	b	LBB48_60
LBB48_59:
	mov	w25, wzr
LBB48_60:
	cmp	x12, #5
	b.lo	LBB48_277
	ldur	w26, [x16, #1]
	cmp	w25, #0
	rev	w27, w26
	csel	w28, w26, w27, ne
	ubfx	w26, w28, #30, #1
	and	w29, w28, #0x7fffffff
	add	w27, w29, w17
	cmp	w26, #0
	csel	w27, w29, w27, eq
	lsr	w26, w27, #29
	add	w30, w27, w4
	cmp	w26, #0
	csel	w30, w30, w27, ne
	cmp	w30, #3999
	b.hi	LBB48_277
	umull	x27, w30, w7
	lsr	x27, x27, #32
	msub	w27, w27, w15, w30
	sub	w14, w27, #1
	cmp	w14, #6
	b.hi	LBB48_277
	lsr	w29, w29, #30
	tbnz	w28, #31, LBB48_66
	umull	x14, w30, w6
	lsr	x28, x14, #38
	cbz	w29, LBB48_67
	lsl	w14, w28, #3
	mov	w28, #770
	movk	w28, #770, lsl #16
	lsr	w28, w28, w14
	b	LBB48_67
LBB48_66:
	cmp	w30, #2000
	ccmp	w29, #0, #0, lo
	csinc	w28, w19, wzr, ne
LBB48_67:
	cmp	w27, #2
	b.ne	LBB48_277
	and	w14, w28, #0xff
	cmp	w14, w2, uxtb
	b.ne	LBB48_277
	cmp	w26, #0
	csel	x27, x20, x11, ne
	csel	x26, x23, x20, ne
LBB48_70:
	add	x14, x27, #4
	cmp	x12, x14
	b.lo	LBB48_277
	ldr	w14, [x16, x27]
	cmp	w25, #0
	ldr	x25, [x24, x21, lsl #3]
	rev	w27, w14
	csel	w14, w14, w27, ne
	madd	x25, x25, x14, x26
	subs	x12, x12, x25
	b.lo	LBB48_277
	subs	w13, w13, #1
	add	x16, x16, x25
	b.ne	LBB48_47
	b	LBB48_303
LBB48_73:
	mov	w11, #1
	movk	w11, #8192, lsl #16
	cmp	w9, w11
	b.eq	LBB48_218
	mov	w11, #2
	movk	w11, #8192, lsl #16
	cmp	w9, w11
	b.eq	LBB48_202
	mov	w11, #3
	movk	w11, #8192, lsl #16
	cmp	w9, w11
	b.ne	LBB48_115
LBB48_76:
	subs	x9, x1, #13
	b.lo	LBB48_277
	ldur	w10, [x0, #9]
	cmp	w3, #0
	rev	w11, w10
	csel	w10, w10, w11, ne
	cbz	w10, LBB48_82
	mov	w12, w2
	add	x11, x0, #13
	adrp	x13, Lswitch.table.wkb_raw_write.374@PAGE
	add	x13, x13, Lswitch.table.wkb_raw_write.374@PAGEOFF
	and	x12, x12, #0xff
LBB48_79:
	cmp	x9, #4
	b.lo	LBB48_277
	ldr	w14, [x11]
	cmp	w3, #0
	ldr	x16, [x13, x12, lsl #3]
	rev	w15, w14
	csel	w14, w14, w15, ne
	mul	x14, x16, x14
	orr	x14, x14, #0x4
	subs	x9, x9, x14
	b.lo	LBB48_277
	subs	w10, w10, #1
	add	x11, x11, x14
	b.ne	LBB48_79
LBB48_82:
	mov	w4, #1
	bl	_ZN7wkb_raw6erased10wkb_bounds4scan17rings_bounds_into17hcf84af8976603406E
	b	LBB48_306
LBB48_83:
	cmp	w9, #1
	b.eq	LBB48_222
	cmp	w9, #2
	b.eq	LBB48_205
	cmp	w9, #3
	b.ne	LBB48_97
LBB48_86:
	subs	x9, x1, #9
	b.lo	LBB48_277
	ldur	w10, [x0, #5]
	cmp	w3, #0
	rev	w11, w10
	csel	w10, w10, w11, ne
	cbz	w10, LBB48_92
	mov	w12, w2
	add	x11, x0, #9
	adrp	x13, Lswitch.table.wkb_raw_write.374@PAGE
	add	x13, x13, Lswitch.table.wkb_raw_write.374@PAGEOFF
	and	x12, x12, #0xff
LBB48_89:
	cmp	x9, #4
	b.lo	LBB48_277
	ldr	w14, [x11]
	cmp	w3, #0
	ldr	x16, [x13, x12, lsl #3]
	rev	w15, w14
	csel	w14, w14, w15, ne
	mul	x14, x16, x14
	orr	x14, x14, #0x4
	subs	x9, x9, x14
	b.lo	LBB48_277
	subs	w10, w10, #1
	add	x11, x11, x14
	b.ne	LBB48_89
LBB48_92:
	mov	w4, wzr
	bl	_ZN7wkb_raw6erased10wkb_bounds4scan17rings_bounds_into17hcf84af8976603406E
	b	LBB48_306
LBB48_93:
	mov	w11, #6
	movk	w11, #8192, lsl #16
	cmp	w9, w11
	b.eq	LBB48_134
	mov	w11, #7
	movk	w11, #8192, lsl #16
	cmp	w9, w11
	b.eq	LBB48_277
	b	LBB48_115
LBB48_95:
	cmp	w9, #6
	b.eq	LBB48_239
	cmp	w9, #7
	b.eq	LBB48_277
LBB48_97:
	sub	w11, w9, #1001
	cmp	w11, #7
	b.hs	LBB48_102
	cmp	w9, #1003
	mov	w2, #1
	b.gt	LBB48_107
	cmp	w9, #1001
	b.eq	LBB48_213
	cmp	w9, #1002
	b.eq	LBB48_205
	cmp	w9, #1003
	b.eq	LBB48_86
	b	LBB48_277
LBB48_102:
	sub	w11, w9, #2001
	cmp	w11, #7
	b.hs	LBB48_110
	cmp	w9, #2003
	mov	w2, #2
	b.gt	LBB48_214
	cmp	w9, #2001
	b.eq	LBB48_213
	cmp	w9, #2002
	b.eq	LBB48_205
	cmp	w9, #2003
	b.eq	LBB48_86
	b	LBB48_277
LBB48_107:
	cmp	w9, #1004
	b.eq	LBB48_275
	cmp	w9, #1005
	b.eq	LBB48_44
	cmp	w9, #1006
	b.eq	LBB48_239
	b	LBB48_277
LBB48_110:
	sub	w11, w9, #3001
	cmp	w11, #7
	b.hs	LBB48_115
	cmp	w9, #3003
	mov	w2, #3
	b.gt	LBB48_236
	cmp	w9, #3001
	b.eq	LBB48_307
	cmp	w9, #3002
	b.eq	LBB48_205
	cmp	w9, #3003
	b.eq	LBB48_86
	b	LBB48_277
LBB48_115:
	cbz	w10, LBB48_118
	cmp	w10, #1
	b.ne	LBB48_277
	mov	w3, #1
	cmp	x1, #5
	b.lo	LBB48_277
	b	LBB48_119
LBB48_118:
	mov	w3, wzr
	cmp	x1, #5
	b.lo	LBB48_277
LBB48_119:
	ldur	w9, [x0, #1]
	cmp	w3, #0
	mov	w13, #-536870912
	rev	w10, w9
	csel	w11, w9, w10, ne
	mov	w10, #-1073741824
	ubfx	w9, w11, #30, #1
	and	w12, w11, #0x7fffffff
	add	w10, w12, w10
	cmp	w9, #0
	csel	w10, w12, w10, eq
	lsr	w9, w10, #29
	add	w13, w10, w13
	cmp	w9, #0
	csel	w13, w13, w10, ne
	cmp	w13, #3999
	b.hi	LBB48_277
	mov	w10, #35128
	mov	w14, #1000
	movk	w10, #65, lsl #16
	umull	x10, w13, w10
	lsr	x10, x10, #32
	msub	w10, w10, w14, w13
	sub	w14, w10, #1
	cmp	w14, #7
	b.hs	LBB48_277
	lsr	w12, w12, #30
	tbnz	w11, #31, LBB48_124
	mov	w11, #19923
	movk	w11, #4194, lsl #16
	umull	x11, w13, w11
	lsr	x2, x11, #38
	cbz	w12, LBB48_125
	lsl	w11, w2, #3
	mov	w12, #770
	movk	w12, #770, lsl #16
	lsr	w2, w12, w11
	b	LBB48_125
LBB48_124:
	cmp	w13, #2000
	mov	w11, #3
	ccmp	w12, #0, #0, lo
	csinc	w2, w11, wzr, ne
LBB48_125:
	cmp	w10, #3
	b.gt	LBB48_130
	cmp	w10, #1
	b.eq	LBB48_170
	cmp	w10, #2
	b.eq	LBB48_201
	cmp	w10, #3
	b.ne	LBB48_277
	cbnz	w9, LBB48_76
	b	LBB48_86
LBB48_130:
	cmp	w10, #4
	b.eq	LBB48_173
	cmp	w10, #5
	b.eq	LBB48_211
	cmp	w10, #6
	b.ne	LBB48_277
	cbz	w9, LBB48_239
LBB48_134:
	subs	x12, x1, #13
	b.lo	LBB48_277
	ldur	w9, [x0, #9]
	cmp	w3, #0
	rev	w10, w9
	csel	w13, w9, w10, ne
	cbz	w13, LBB48_200
	and	w11, w2, #0xff
	mov	w15, #1000
	mov	w21, w2
	mul	w22, w11, w15
	mov	w6, #19923
	mov	w7, #35128
	mov	w14, wzr
	add	x16, x0, #13
	mov	w17, #-1073741824
	mov	w4, #-536870912
	movk	w6, #4194, lsl #16
	movk	w7, #65, lsl #16
	mov	w19, #3
	mov	w20, #5
	mov	w11, #9
	and	x21, x21, #0xff
	orr	w22, w22, #0x3
	adrp	x24, Lswitch.table.wkb_raw_write.374@PAGE
	add	x24, x24, Lswitch.table.wkb_raw_write.374@PAGEOFF
LBB48_137:
	cmp	x12, #5
	b.hs	LBB48_140
	cbz	x12, LBB48_277
	ldrb	w26, [x16]
	b	LBB48_146
LBB48_140:
	ldrb	w26, [x16]
	cmp	w26, #1
	b.eq	LBB48_143
	cbnz	w26, LBB48_146
	ldur	w27, [x16, #1]
	mov	w25, wzr
	rev	w27, w27
	b	LBB48_144
LBB48_143:
	ldur	w27, [x16, #1]
	mov	w25, #1
LBB48_144:
	cmp	w27, w22
	b.ne	LBB48_146
	mov	w26, #5
	b	LBB48_160
LBB48_146:
	cbz	w26, LBB48_149
	cmp	w26, #1
	b.ne	LBB48_277
	mov	w25, #1
	b	LBB48_150
LBB48_149:
	mov	w25, wzr
LBB48_150:
	cmp	x12, #5
	b.lo	LBB48_277
	ldur	w26, [x16, #1]
	cmp	w25, #0
	rev	w27, w26
	csel	w28, w26, w27, ne
	ubfx	w26, w28, #30, #1
	and	w29, w28, #0x7fffffff
	add	w27, w29, w17
	cmp	w26, #0
	csel	w27, w29, w27, eq
	lsr	w26, w27, #29
	add	w30, w27, w4
	cmp	w26, #0
	csel	w30, w30, w27, ne
	cmp	w30, #3999
	b.hi	LBB48_277
	umull	x27, w30, w7
	lsr	x27, x27, #32
	msub	w27, w27, w15, w30
	sub	w23, w27, #1
	cmp	w23, #6
	b.hi	LBB48_277
	lsr	w29, w29, #30
	tbnz	w28, #31, LBB48_156
	umull	x23, w30, w6
	lsr	x28, x23, #38
	cbz	w29, LBB48_157
	lsl	w23, w28, #3
	mov	w28, #770
	movk	w28, #770, lsl #16
	lsr	w28, w28, w23
	b	LBB48_157
LBB48_156:
	cmp	w30, #2000
	ccmp	w29, #0, #0, lo
	csinc	w28, w19, wzr, ne
LBB48_157:
	cmp	w27, #3
	b.ne	LBB48_277
	and	w23, w28, #0xff
	cmp	w23, w2, uxtb
	b.ne	LBB48_277
	cmp	w26, #0
	csel	x26, x11, x20, ne
LBB48_160:
	add	x23, x26, #4
	cmp	x12, x23
	b.lo	LBB48_277
	add	x16, x16, x26
	cmp	w25, #0
	sub	x12, x12, x26
	ldr	w23, [x16], #4
	sub	x12, x12, #4
	rev	w27, w23
	csel	w26, w23, w27, ne
	cbz	w26, LBB48_169
	tbz	w25, #0, LBB48_166
LBB48_163:
	cmp	x12, #4
	b.lo	LBB48_277
	ldr	w23, [x16]
	ldr	x25, [x24, x21, lsl #3]
	mul	x23, x25, x23
	orr	x25, x23, #0x4
	subs	x12, x12, x25
	b.lo	LBB48_277
	subs	w26, w26, #1
	add	x16, x16, x25
	b.ne	LBB48_163
	b	LBB48_169
LBB48_166:
	cmp	x12, #4
	b.lo	LBB48_277
	ldr	w23, [x16]
	ldr	x25, [x24, x21, lsl #3]
	rev	w23, w23
	mul	x23, x25, x23
	orr	x25, x23, #0x4
	subs	x12, x12, x25
	b.lo	LBB48_277
	subs	w26, w26, #1
	add	x16, x16, x25
	b.ne	LBB48_166
LBB48_169:
	add	w14, w14, #1
	cmp	w14, w13
	b.ne	LBB48_137
	b	LBB48_303
LBB48_170:
	cbz	w9, LBB48_212
	and	w9, w2, #0xff
	sub	w10, w9, #1
	cmp	w10, #2
	b.hs	LBB48_217
	mov	w9, #33
	cmp	x1, x9
	b.lo	LBB48_277
	b	LBB48_219
LBB48_173:
	cbz	w9, LBB48_275
LBB48_174:
	subs	x12, x1, #13
	b.lo	LBB48_277
	ldur	w9, [x0, #9]
	mov	w10, w2
	adrp	x13, Lswitch.table.wkb_raw_write.371@PAGE
	add	x13, x13, Lswitch.table.wkb_raw_write.371@PAGEOFF
	and	x11, x10, #0xff
	cmp	w3, #0
	rev	w10, w9
	ldr	x11, [x13, x11, lsl #3]
	mov	x15, #13
	csel	w14, w9, w10, ne
	madd	x11, x11, x14, x15
	cmp	x1, x11
	b.lo	LBB48_277
	cbz	w14, LBB48_200
	and	w11, w2, #0xff
	mov	w15, #1000
	mov	w16, #770
	mul	w11, w11, w15
	mov	w19, w2
	mov	w7, #19923
	mov	w21, #35128
	movk	w16, #770, lsl #16
	add	x17, x0, #13
	mov	w4, #-1073741824
	mov	w6, #-536870912
	movk	w7, #4194, lsl #16
	and	x19, x19, #0xff
	orr	w20, w11, #0x1
	movk	w21, #65, lsl #16
	mov	w22, #3
	mov	w11, #9
LBB48_178:
	cmp	x12, #5
	b.hs	LBB48_181
	cbz	x12, LBB48_277
	ldrb	w23, [x17]
	b	LBB48_186
LBB48_181:
	ldrb	w23, [x17]
	cmp	w23, #1
	b.eq	LBB48_184
	cbnz	w23, LBB48_186
	ldur	w24, [x17, #1]
	rev	w24, w24
	b	LBB48_185
LBB48_184:
	ldur	w24, [x17, #1]
LBB48_185:
	cmp	w24, w20
	b.eq	LBB48_198
LBB48_186:
	cbz	w23, LBB48_188
	cmp	w23, #1
	b.ne	LBB48_277
LBB48_188:
	cmp	x12, #5
	b.lo	LBB48_277
	ldur	w24, [x17, #1]
	cmp	w23, #0
	rev	w25, w24
	csel	w26, w24, w25, ne
	ubfx	w23, w26, #30, #1
	and	w25, w26, #0x7fffffff
	add	w24, w25, w4
	cmp	w23, #0
	csel	w24, w25, w24, eq
	lsr	w23, w24, #29
	add	w27, w24, w6
	cmp	w23, #0
	csel	w27, w27, w24, ne
	cmp	w27, #3999
	b.hi	LBB48_277
	umull	x24, w27, w21
	lsr	x24, x24, #32
	msub	w24, w24, w15, w27
	sub	w28, w24, #1
	cmp	w28, #6
	b.hi	LBB48_277
	tbnz	w26, #31, LBB48_194
	umull	x26, w27, w7
	lsr	w27, w25, #30
	lsr	x25, x26, #38
	cbz	w27, LBB48_195
	lsl	w25, w25, #3
	lsr	w25, w16, w25
	b	LBB48_195
LBB48_194:
	lsr	w25, w25, #30
	cmp	w27, #2000
	ccmp	w25, #0, #0, lo
	csinc	w25, w22, wzr, ne
LBB48_195:
	cbnz	w23, LBB48_277
	cmp	w24, #1
	b.ne	LBB48_277
	and	w23, w25, #0xff
	cmp	w23, w2, uxtb
	b.ne	LBB48_277
LBB48_198:
	ldr	x23, [x13, x19, lsl #3]
	subs	x12, x12, x23
	b.lo	LBB48_277
	subs	w14, w14, #1
	add	x17, x17, x23
	b.ne	LBB48_178
	b	LBB48_303
LBB48_200:
	mov	w11, #9
	b	LBB48_303
LBB48_201:
	cbz	w9, LBB48_205
LBB48_202:
	cmp	x1, #13
	b.lo	LBB48_277
	ldur	w9, [x0, #9]
	mov	w10, w2
	adrp	x12, Lswitch.table.wkb_raw_write.374@PAGE
	add	x12, x12, Lswitch.table.wkb_raw_write.374@PAGEOFF
	and	x11, x10, #0xff
	cmp	w3, #0
	rev	w10, w9
	ldr	x11, [x12, x11, lsl #3]
	mov	x13, #13
	csel	w12, w9, w10, ne
	madd	x11, x11, x12, x13
	cmp	x1, x11
	b.lo	LBB48_277
	mov	w8, #9
	b	LBB48_208
LBB48_205:
	cmp	x1, #9
	b.lo	LBB48_277
	ldur	w9, [x0, #5]
	mov	w10, w2
	adrp	x12, Lswitch.table.wkb_raw_write.374@PAGE
	add	x12, x12, Lswitch.table.wkb_raw_write.374@PAGEOFF
	and	x11, x10, #0xff
	cmp	w3, #0
	rev	w10, w9
	ldr	x11, [x12, x11, lsl #3]
	mov	x13, #9
	csel	w12, w9, w10, ne
	madd	x11, x11, x12, x13
	cmp	x1, x11
	b.lo	LBB48_277
	mov	w8, #5
LBB48_208:
	cmp	w3, #0
	csel	w9, w9, w10, ne
	add	x10, x8, #4
	cmp	w9, #1
	add	x8, x0, x10
	b.ne	LBB48_210
	cbz	w3, LBB48_220
	b	LBB48_224
LBB48_210:
	sub	x4, x1, x10
	mov	w0, w2
	mov	w1, w3
	mov	w2, w9
	mov	x3, x8
	bl	_ZN7wkb_raw6erased10wkb_bounds4scan15run_bounds_into17h553e6883e15adc3fE
	b	LBB48_306
LBB48_211:
	cbnz	w9, LBB48_10
	b	LBB48_44
LBB48_212:
	and	w9, w2, #0xff
	sub	w10, w9, #1
	cmp	w10, #2
	b.hs	LBB48_221
LBB48_213:
	mov	w9, #29
	cmp	x1, x9
	b.lo	LBB48_277
	b	LBB48_223
LBB48_214:
	cmp	w9, #2004
	b.eq	LBB48_275
	cmp	w9, #2005
	b.eq	LBB48_44
	cmp	w9, #2006
	b.eq	LBB48_239
	b	LBB48_277
LBB48_217:
	cbnz	w9, LBB48_308
LBB48_218:
	mov	w9, #25
	cmp	x1, x9
	b.lo	LBB48_277
LBB48_219:
	add	x8, x0, #9
	tbnz	w3, #0, LBB48_224
LBB48_220:
	ldp	x9, x12, [x8]
	mov	x13, #-9007199254740991
	mov	w11, wzr
	rev	x10, x9
	rev	x15, x12
	lsl	x9, x10, #1
	cmp	x9, x13
	mov	x9, #-4503599627370496
	mov	x13, #9218868437227405312
	cset	w17, lo
	csel	x9, x10, x9, lo
	csel	x10, x10, x13, lo
	b	LBB48_225
LBB48_221:
	cbnz	w9, LBB48_307
LBB48_222:
	mov	w9, #21
	cmp	x1, x9
	b.lo	LBB48_277
LBB48_223:
	add	x8, x0, #5
	tbz	w3, #0, LBB48_220
LBB48_224:
	ldp	x10, x15, [x8]
	mov	x11, #-9007199254740991
	lsl	x9, x10, #1
	cmp	x9, x11
	mov	x9, #-4503599627370496
	mov	x11, #9218868437227405312
	cset	w17, lo
	csel	x9, x10, x9, lo
	csel	x10, x10, x11, lo
	mov	w11, #1
LBB48_225:
	lsl	x13, x15, #1
	mov	x14, #-9007199254740991
	mov	x16, #-4503599627370496
	mov	x0, #9218868437227405312
	and	w1, w2, #0xff
	mov	x12, xzr
	cmp	x13, x14
	mov	w17, w17
	cset	w13, lo
	csel	x14, x15, x16, lo
	csel	x15, x15, x0, lo
	cmp	w1, #1
	b.gt	LBB48_230
	cbz	w1, LBB48_228
LBB48_227:
	ldr	x12, [x8, #16]
	cmp	w11, #0
	mov	x1, #9218868437227405312
	rev	x16, x12
	csel	x0, x12, x16, ne
	mov	x16, #-9007199254740991
	lsl	x12, x0, #1
	cmp	x12, x16
	mov	x16, #-4503599627370496
	cset	w12, lo
	csel	x16, x0, x16, lo
	csel	x0, x0, x1, lo
LBB48_228:
	and	w1, w2, #0xff
	cmp	w1, #2
	b.hs	LBB48_231
	mov	x8, xzr
	mov	x1, #9218868437227405312
	mov	x11, #-4503599627370496
	b	LBB48_235
LBB48_230:
	cmp	w1, #2
	b.ne	LBB48_227
	b	LBB48_228
LBB48_231:
	b.ne	LBB48_233
	mov	w1, #16
	b	LBB48_234
LBB48_233:
	mov	w1, #24
LBB48_234:
	ldr	x8, [x8, x1]
	cmp	w11, #0
	mov	x11, #-9007199254740991
	mov	x2, #9218868437227405312
	rev	x1, x8
	csel	x1, x8, x1, ne
	lsl	x8, x1, #1
	cmp	x8, x11
	mov	x11, #-4503599627370496
	cset	w8, lo
	csel	x11, x1, x11, lo
	csel	x1, x1, x2, lo
LBB48_235:
	stp	x10, x9, [x5]
	stp	x17, x15, [x5, #16]
	stp	x14, x13, [x5, #32]
	stp	x0, x16, [x5, #48]
	stp	x12, x1, [x5, #64]
	stp	x11, x8, [x5, #80]
	b	LBB48_306
LBB48_236:
	cmp	w9, #3004
	b.eq	LBB48_275
	cmp	w9, #3005
	b.eq	LBB48_44
	cmp	w9, #3006
	b.ne	LBB48_277
LBB48_239:
	subs	x12, x1, #9
	b.lo	LBB48_277
	ldur	w9, [x0, #5]
	cmp	w3, #0
	rev	w10, w9
	csel	w13, w9, w10, ne
	cbz	w13, LBB48_302
	and	w11, w2, #0xff
	mov	w15, #1000
	mov	w21, w2
	mul	w22, w11, w15
	mov	w6, #19923
	mov	w7, #35128
	mov	w14, wzr
	add	x16, x0, #9
	mov	w17, #-1073741824
	mov	w4, #-536870912
	movk	w6, #4194, lsl #16
	movk	w7, #65, lsl #16
	mov	w19, #3
	mov	w11, #5
	mov	w20, #9
	and	x21, x21, #0xff
	orr	w22, w22, #0x3
	adrp	x24, Lswitch.table.wkb_raw_write.374@PAGE
	add	x24, x24, Lswitch.table.wkb_raw_write.374@PAGEOFF
LBB48_242:
	cmp	x12, #5
	b.hs	LBB48_245
	cbz	x12, LBB48_277
	ldrb	w26, [x16]
	b	LBB48_251
LBB48_245:
	ldrb	w26, [x16]
	cmp	w26, #1
	b.eq	LBB48_248
	cbnz	w26, LBB48_251
	ldur	w27, [x16, #1]
	mov	w25, wzr
	rev	w27, w27
	b	LBB48_249
LBB48_248:
	ldur	w27, [x16, #1]
	mov	w25, #1
LBB48_249:
	cmp	w27, w22
	b.ne	LBB48_251
	mov	w26, #5
	b	LBB48_265
LBB48_251:
	cbz	w26, LBB48_254
	cmp	w26, #1
	b.ne	LBB48_277
	mov	w25, #1
	b	LBB48_255
LBB48_254:
	mov	w25, wzr
LBB48_255:
	cmp	x12, #5
	b.lo	LBB48_277
	ldur	w26, [x16, #1]
	cmp	w25, #0
	rev	w27, w26
	csel	w28, w26, w27, ne
	ubfx	w26, w28, #30, #1
	and	w29, w28, #0x7fffffff
	add	w27, w29, w17
	cmp	w26, #0
	csel	w27, w29, w27, eq
	lsr	w26, w27, #29
	add	w30, w27, w4
	cmp	w26, #0
	csel	w30, w30, w27, ne
	cmp	w30, #3999
	b.hi	LBB48_277
	umull	x27, w30, w7
	lsr	x27, x27, #32
	msub	w27, w27, w15, w30
	sub	w23, w27, #1
	cmp	w23, #6
	b.hi	LBB48_277
	lsr	w29, w29, #30
	tbnz	w28, #31, LBB48_261
	umull	x23, w30, w6
	lsr	x28, x23, #38
	cbz	w29, LBB48_262
	lsl	w23, w28, #3
	mov	w28, #770
	movk	w28, #770, lsl #16
	lsr	w28, w28, w23
	b	LBB48_262
LBB48_261:
	cmp	w30, #2000
	ccmp	w29, #0, #0, lo
	csinc	w28, w19, wzr, ne
LBB48_262:
	cmp	w27, #3
	b.ne	LBB48_277
	and	w23, w28, #0xff
	cmp	w23, w2, uxtb
	b.ne	LBB48_277
	cmp	w26, #0
	csel	x26, x20, x11, ne
LBB48_265:
	add	x23, x26, #4
	cmp	x12, x23
	b.lo	LBB48_277
	add	x16, x16, x26
	cmp	w25, #0
	sub	x12, x12, x26
	ldr	w23, [x16], #4
	sub	x12, x12, #4
	rev	w27, w23
	csel	w26, w23, w27, ne
	cbz	w26, LBB48_274
	tbz	w25, #0, LBB48_271
LBB48_268:
	cmp	x12, #4
	b.lo	LBB48_277
	ldr	w23, [x16]
	ldr	x25, [x24, x21, lsl #3]
	mul	x23, x25, x23
	orr	x25, x23, #0x4
	subs	x12, x12, x25
	b.lo	LBB48_277
	subs	w26, w26, #1
	add	x16, x16, x25
	b.ne	LBB48_268
	b	LBB48_274
LBB48_271:
	cmp	x12, #4
	b.lo	LBB48_277
	ldr	w23, [x16]
	ldr	x25, [x24, x21, lsl #3]
	rev	w23, w23
	mul	x23, x25, x23
	orr	x25, x23, #0x4
	subs	x12, x12, x25
	b.lo	LBB48_277
	subs	w26, w26, #1
	add	x16, x16, x25
	b.ne	LBB48_271
LBB48_274:
	add	w14, w14, #1
	cmp	w14, w13
	b.ne	LBB48_242
	b	LBB48_303
LBB48_275:
	subs	x12, x1, #9
	b.lo	LBB48_277
	ldur	w9, [x0, #5]
	mov	w10, w2
	adrp	x13, Lswitch.table.wkb_raw_write.371@PAGE
	add	x13, x13, Lswitch.table.wkb_raw_write.371@PAGEOFF
	and	x11, x10, #0xff
	cmp	w3, #0
	rev	w10, w9
	ldr	x11, [x13, x11, lsl #3]
	mov	x15, #9
	csel	w14, w9, w10, ne
	madd	x11, x11, x14, x15
	cmp	x1, x11
	b.hs	LBB48_278
LBB48_277:
	ldp	x20, x19, [sp, #80]
	mov	x2, x5
	ldp	x22, x21, [sp, #64]
	mov	x3, x8
	ldp	x24, x23, [sp, #48]
	ldp	x26, x25, [sp, #32]
	ldp	x28, x27, [sp, #16]
	ldp	x29, x30, [sp], #96
	.cfi_def_cfa_offset 0
	.cfi_restore w19
	.cfi_restore w20
	.cfi_restore w21
	.cfi_restore w22
	.cfi_restore w23
	.cfi_restore w24
	.cfi_restore w25
	.cfi_restore w26
	.cfi_restore w27
	.cfi_restore w28
	.cfi_restore w30
	.cfi_restore w29
	b	_ZN7wkb_raw6erased5wkb_c6bounds15bounds_or_fault17hf26ecc66f1bd461bE
LBB48_278:
	.cfi_restore_state
	.cfi_remember_state
	cbz	w14, LBB48_302
	and	w11, w2, #0xff
	mov	w15, #1000
	mov	w16, #770
	mul	w11, w11, w15
	mov	w19, w2
	mov	w7, #19923
	mov	w21, #35128
	movk	w16, #770, lsl #16
	add	x17, x0, #9
	mov	w4, #-1073741824
	mov	w6, #-536870912
	movk	w7, #4194, lsl #16
	and	x19, x19, #0xff
	orr	w20, w11, #0x1
	movk	w21, #65, lsl #16
	mov	w22, #3
	mov	w11, #5
LBB48_280:
	cmp	x12, #5
	b.hs	LBB48_283
	cbz	x12, LBB48_277
	ldrb	w23, [x17]
	b	LBB48_288
LBB48_283:
	ldrb	w23, [x17]
	cmp	w23, #1
	b.eq	LBB48_286
	cbnz	w23, LBB48_288
	ldur	w24, [x17, #1]
	rev	w24, w24
	b	LBB48_287
LBB48_286:
	ldur	w24, [x17, #1]
LBB48_287:
	cmp	w24, w20
	b.eq	LBB48_300
LBB48_288:
	cbz	w23, LBB48_290
	cmp	w23, #1
	b.ne	LBB48_277
LBB48_290:
	cmp	x12, #5
	b.lo	LBB48_277
	ldur	w24, [x17, #1]
	cmp	w23, #0
	rev	w25, w24
	csel	w26, w24, w25, ne
	ubfx	w23, w26, #30, #1
	and	w25, w26, #0x7fffffff
	add	w24, w25, w4
	cmp	w23, #0
	csel	w24, w25, w24, eq
	lsr	w23, w24, #29
	add	w27, w24, w6
	cmp	w23, #0
	csel	w27, w27, w24, ne
	cmp	w27, #3999
	b.hi	LBB48_277
	umull	x24, w27, w21
	lsr	x24, x24, #32
	msub	w24, w24, w15, w27
	sub	w28, w24, #1
	cmp	w28, #6
	b.hi	LBB48_277
	tbnz	w26, #31, LBB48_296
	umull	x26, w27, w7
	lsr	w27, w25, #30
	lsr	x25, x26, #38
	cbz	w27, LBB48_297
	lsl	w25, w25, #3
	lsr	w25, w16, w25
	b	LBB48_297
LBB48_296:
	lsr	w25, w25, #30
	cmp	w27, #2000
	ccmp	w25, #0, #0, lo
	csinc	w25, w22, wzr, ne
LBB48_297:
	cbnz	w23, LBB48_277
	cmp	w24, #1
	b.ne	LBB48_277
	and	w23, w25, #0xff
	cmp	w23, w2, uxtb
	b.ne	LBB48_277
LBB48_300:
	ldr	x23, [x13, x19, lsl #3]
	subs	x12, x12, x23
	b.lo	LBB48_277
	subs	w14, w14, #1
	add	x17, x17, x23
	b.ne	LBB48_280
	b	LBB48_303
LBB48_302:
	mov	w11, #5
LBB48_303:
	cmp	w3, #0
	csel	w8, w9, w10, ne
	cmp	w8, #1
	b.ne	LBB48_305
	add	x8, x11, #4
	mov	x2, x5
	sub	x1, x1, x8
	add	x0, x0, x8
	bl	_ZN7wkb_raw6erased10wkb_bounds4scan18member_bounds_into17hb5f17dec8451d087E
	b	LBB48_306
LBB48_305:
	mov	x2, x5
	bl	_ZN7wkb_raw6erased10wkb_bounds4scan17front_bounds_into17hf7a37f4f4fd991b8E
LBB48_306:
	ldp	x20, x19, [sp, #80]
	mov	w0, wzr
	ldp	x22, x21, [sp, #64]
	ldp	x24, x23, [sp, #48]
	ldp	x26, x25, [sp, #32]
	ldp	x28, x27, [sp, #16]
	ldp	x29, x30, [sp], #96
	.cfi_def_cfa_offset 0
	.cfi_restore w19
	.cfi_restore w20
	.cfi_restore w21
	.cfi_restore w22
	.cfi_restore w23
	.cfi_restore w24
	.cfi_restore w25
	.cfi_restore w26
	.cfi_restore w27
	.cfi_restore w28
	.cfi_restore w30
	.cfi_restore w29
	ret
LBB48_307:
	.cfi_restore_state
	mov	w9, #37
	cmp	x1, x9
	b.lo	LBB48_277
	b	LBB48_223
LBB48_308:
	mov	w9, #41
	cmp	x1, x9
	b.lo	LBB48_277
	b	LBB48_219
Lfunc_end48:
	.cfi_endproc
	.section	__TEXT,__text,regular,pure_instructions
	.private_extern	_wkb_raw_check
	.globl	_wkb_raw_check
	.p2align	2
_wkb_raw_check:
	.cfi_startproc
	hint	#34
	stp	x29, x30, [sp, #-96]!
	.cfi_def_cfa_offset 96
	stp	x28, x27, [sp, #16]
	stp	x26, x25, [sp, #32]
	stp	x24, x23, [sp, #48]
	stp	x22, x21, [sp, #64]
	stp	x20, x19, [sp, #80]
	.cfi_offset w19, -8
	.cfi_offset w20, -16
	.cfi_offset w21, -24
	.cfi_offset w22, -32
	.cfi_offset w23, -40
	.cfi_offset w24, -48
	.cfi_offset w25, -56
	.cfi_offset w26, -64
	.cfi_offset w27, -72
	.cfi_offset w28, -80
	.cfi_offset w30, -88
	.cfi_offset w29, -96
	.cfi_remember_state
	cmp	x1, #5
	b.hs	LBB49_3
	cbz	x1, LBB49_282
	ldrb	w11, [x0]
	b	LBB49_117
LBB49_3:
	ldrb	w11, [x0]
	cmp	w11, #1
	b.eq	LBB49_40
	cbnz	w11, LBB49_117
	ldur	w9, [x0, #1]
	mov	w8, wzr
	rev	w10, w9
	lsr	w9, w10, #29
	cbz	w9, LBB49_41
LBB49_6:
	mov	w9, #3
	movk	w9, #8192, lsl #16
	cmp	w10, w9
	mov	w9, wzr
	b.le	LBB49_75
	mov	w12, #5
	movk	w12, #8192, lsl #16
	cmp	w10, w12
	b.gt	LBB49_95
	mov	w12, #4
	movk	w12, #8192, lsl #16
	cmp	w10, w12
	b.eq	LBB49_180
	mov	w12, #5
	movk	w12, #8192, lsl #16
	cmp	w10, w12
	b.ne	LBB49_117
LBB49_10:
	subs	x12, x1, #13
	b.lo	LBB49_282
	ldur	w10, [x0, #9]
	cmp	w8, #0
	rev	w11, w10
	csel	w11, w10, w11, ne
	cbz	w11, LBB49_221
	and	w16, w9, #0xff
	mov	w15, #1000
	mov	w6, w9
	mul	w20, w16, w15
	mov	w4, #19923
	mov	w5, #35128
	mov	x10, xzr
	add	x14, x0, #13
	mov	w16, #-1073741824
	mov	w17, #-536870912
	movk	w4, #4194, lsl #16
	movk	w5, #65, lsl #16
	and	x6, x6, #0xff
	mov	w7, #3
	mov	w19, #5
	orr	w20, w20, #0x2
	mov	w21, #9
	mov	w22, #13
	adrp	x23, Lswitch.table.wkb_raw_write.374@PAGE
	add	x23, x23, Lswitch.table.wkb_raw_write.374@PAGEOFF
	mov	x24, x11
LBB49_13:
	cmp	x12, #5
	b.hs	LBB49_16
	cbz	x12, LBB49_282
	ldrb	w26, [x14]
	b	LBB49_22
LBB49_16:
	ldrb	w26, [x14]
	cmp	w26, #1
	b.eq	LBB49_19
	cbnz	w26, LBB49_22
	ldur	w27, [x14, #1]
	mov	w25, wzr
	rev	w27, w27
	b	LBB49_20
LBB49_19:
	ldur	w27, [x14, #1]
	mov	w25, #1
LBB49_20:
	cmp	w27, w20
	b.ne	LBB49_22
	mov	w26, #9
	mov	w27, #5
	b	LBB49_36
LBB49_22:
	cbz	w26, LBB49_25
	cmp	w26, #1
	b.ne	LBB49_282
	mov	w25, #1
	b	LBB49_26
LBB49_25:
	mov	w25, wzr
LBB49_26:
	cmp	x12, #5
	b.lo	LBB49_282
	ldur	w26, [x14, #1]
	cmp	w25, #0
	rev	w27, w26
	csel	w29, w26, w27, ne
	ubfx	w26, w29, #30, #1
	and	w28, w29, #0x7fffffff
	add	w27, w28, w16
	cmp	w26, #0
	csel	w27, w28, w27, eq
	lsr	w26, w27, #29
	add	w30, w27, w17
	cmp	w26, #0
	csel	w30, w30, w27, ne
	cmp	w30, #3999
	b.hi	LBB49_282
	umull	x27, w30, w5
	lsr	x27, x27, #32
	msub	w27, w27, w15, w30
	sub	w13, w27, #1
	cmp	w13, #6
	b.hi	LBB49_282
	tbnz	w29, #31, LBB49_32
	umull	x13, w30, w4
	lsr	w29, w28, #30
	lsr	x28, x13, #38
	cbz	w29, LBB49_33
	lsl	w13, w28, #3
	mov	w28, #770
	movk	w28, #770, lsl #16
	lsr	w28, w28, w13
	b	LBB49_33
LBB49_32:
	lsr	w13, w28, #30
	cmp	w30, #2000
	ccmp	w13, #0, #0, lo
	csinc	w28, w7, wzr, ne
LBB49_33:
	cmp	w27, #2
	b.ne	LBB49_282
	and	w13, w28, #0xff
	cmp	w13, w9, uxtb
	b.ne	LBB49_282
	cmp	w26, #0
	csel	x27, x21, x19, ne
	csel	x26, x22, x21, ne
LBB49_36:
	add	x13, x27, #4
	cmp	x12, x13
	b.lo	LBB49_282
	ldr	w13, [x14, x27]
	cmp	w25, #0
	ldr	x28, [x23, x6, lsl #3]
	rev	w27, w13
	csel	w25, w13, w27, ne
	madd	x26, x28, x25, x26
	subs	x12, x12, x26
	b.lo	LBB49_282
	subs	x24, x24, #1
	add	x10, x10, x25
	add	x14, x14, x26
	b.ne	LBB49_13
	add	x13, x11, #1
	b	LBB49_222
LBB49_40:
	ldur	w10, [x0, #1]
	mov	w8, #1
	lsr	w9, w10, #29
	cbnz	w9, LBB49_6
LBB49_41:
	cmp	w10, #3
	b.le	LBB49_85
	cmp	w10, #5
	b.gt	LBB49_97
	cmp	w10, #4
	b.eq	LBB49_280
	cmp	w10, #5
	b.ne	LBB49_99
LBB49_45:
	subs	x12, x1, #9
	b.lo	LBB49_282
	ldur	w10, [x0, #5]
	cmp	w8, #0
	rev	w11, w10
	csel	w11, w10, w11, ne
	cbz	w11, LBB49_217
	and	w16, w9, #0xff
	mov	w15, #1000
	mov	w6, w9
	mul	w20, w16, w15
	mov	w4, #19923
	mov	w5, #35128
	mov	x10, xzr
	add	x14, x0, #9
	mov	w16, #-1073741824
	mov	w17, #-536870912
	movk	w4, #4194, lsl #16
	movk	w5, #65, lsl #16
	and	x6, x6, #0xff
	mov	w7, #3
	mov	w19, #5
	orr	w20, w20, #0x2
	mov	w21, #9
	mov	w22, #13
	adrp	x23, Lswitch.table.wkb_raw_write.374@PAGE
	add	x23, x23, Lswitch.table.wkb_raw_write.374@PAGEOFF
	mov	x24, x11
LBB49_48:
	cmp	x12, #5
	b.hs	LBB49_51
	cbz	x12, LBB49_282
	ldrb	w26, [x14]
	b	LBB49_57
LBB49_51:
	ldrb	w26, [x14]
	cmp	w26, #1
	b.eq	LBB49_54
	cbnz	w26, LBB49_57
	ldur	w27, [x14, #1]
	mov	w25, wzr
	rev	w27, w27
	b	LBB49_55
LBB49_54:
	ldur	w27, [x14, #1]
	mov	w25, #1
LBB49_55:
	cmp	w27, w20
	b.ne	LBB49_57
	mov	w26, #9
	mov	w27, #5
	b	LBB49_71
LBB49_57:
	cbz	w26, LBB49_60
	cmp	w26, #1
	b.ne	LBB49_282
	mov	w25, #1
	b	LBB49_61
LBB49_60:
	mov	w25, wzr
LBB49_61:
	cmp	x12, #5
	b.lo	LBB49_282
	ldur	w26, [x14, #1]
	cmp	w25, #0
	rev	w27, w26
	csel	w28, w26, w27, ne
	ubfx	w26, w28, #30, #1
	and	w29, w28, #0x7fffffff
	add	w27, w29, w16
	cmp	w26, #0
	csel	w27, w29, w27, eq
	lsr	w26, w27, #29
	add	w30, w27, w17
	cmp	w26, #0
	csel	w30, w30, w27, ne
	cmp	w30, #3999
	b.hi	LBB49_282
	umull	x27, w30, w5
	lsr	x27, x27, #32
	msub	w27, w27, w15, w30
	sub	w13, w27, #1
	cmp	w13, #6
	b.hi	LBB49_282
	lsr	w29, w29, #30
	tbnz	w28, #31, LBB49_67
	umull	x13, w30, w4
	lsr	x28, x13, #38
	cbz	w29, LBB49_68
	lsl	w13, w28, #3
	mov	w28, #770
	movk	w28, #770, lsl #16
	lsr	w28, w28, w13
	b	LBB49_68
LBB49_67:
	cmp	w30, #2000
	ccmp	w29, #0, #0, lo
	csinc	w28, w7, wzr, ne
LBB49_68:
	cmp	w27, #2
	b.ne	LBB49_282
	and	w13, w28, #0xff
	cmp	w13, w9, uxtb
	b.ne	LBB49_282
	cmp	w26, #0
	csel	x27, x21, x19, ne
	csel	x26, x22, x21, ne
LBB49_71:
	add	x13, x27, #4
	cmp	x12, x13
	b.lo	LBB49_282
	ldr	w13, [x14, x27]
	cmp	w25, #0
	ldr	x28, [x23, x6, lsl #3]
	rev	w27, w13
	csel	w25, w13, w27, ne
	madd	x26, x28, x25, x26
	subs	x12, x12, x26
	b.lo	LBB49_282
	subs	x24, x24, #1
	add	x10, x10, x25
	add	x14, x14, x26
	b.ne	LBB49_48
	add	x13, x11, #1
	b	LBB49_218
LBB49_75:
	mov	w12, #1
	movk	w12, #8192, lsl #16
	cmp	w10, w12
	b.eq	LBB49_231
	mov	w12, #2
	movk	w12, #8192, lsl #16
	cmp	w10, w12
	b.eq	LBB49_208
	mov	w12, #3
	movk	w12, #8192, lsl #16
	cmp	w10, w12
	b.ne	LBB49_117
LBB49_78:
	subs	x12, x1, #13
	b.lo	LBB49_282
	ldur	w10, [x0, #9]
	cmp	w8, #0
	rev	w11, w10
	csel	w11, w10, w11, ne
	cbz	w11, LBB49_223
	mov	w14, w9
	mov	x10, xzr
	add	x13, x0, #13
	and	x14, x14, #0xff
	adrp	x15, Lswitch.table.wkb_raw_write.374@PAGE
	add	x15, x15, Lswitch.table.wkb_raw_write.374@PAGEOFF
	mov	x16, x11
LBB49_81:
	cmp	x12, #4
	b.lo	LBB49_282
	ldr	w17, [x13]
	cmp	w8, #0
	ldr	x5, [x15, x14, lsl #3]
	rev	w4, w17
	csel	w17, w17, w4, ne
	mul	x4, x5, x17
	orr	x4, x4, #0x4
	subs	x12, x12, x4
	b.lo	LBB49_282
	subs	x16, x16, #1
	add	x10, x10, x17
	add	x13, x13, x4
	b.ne	LBB49_81
	add	x13, x11, #1
	b	LBB49_224
LBB49_85:
	cmp	w10, #1
	b.eq	LBB49_234
	cmp	w10, #2
	b.eq	LBB49_211
	cmp	w10, #3
	b.ne	LBB49_99
LBB49_88:
	subs	x12, x1, #9
	b.lo	LBB49_282
	ldur	w10, [x0, #5]
	cmp	w8, #0
	rev	w11, w10
	csel	w11, w10, w11, ne
	cbz	w11, LBB49_215
	mov	w14, w9
	mov	x10, xzr
	add	x13, x0, #9
	and	x14, x14, #0xff
	adrp	x15, Lswitch.table.wkb_raw_write.374@PAGE
	add	x15, x15, Lswitch.table.wkb_raw_write.374@PAGEOFF
	mov	x16, x11
LBB49_91:
	cmp	x12, #4
	b.lo	LBB49_282
	ldr	w17, [x13]
	cmp	w8, #0
	ldr	x5, [x15, x14, lsl #3]
	rev	w4, w17
	csel	w17, w17, w4, ne
	mul	x4, x5, x17
	orr	x4, x4, #0x4
	subs	x12, x12, x4
	b.lo	LBB49_282
	subs	x16, x16, #1
	add	x10, x10, x17
	add	x13, x13, x4
	b.ne	LBB49_91
	add	x13, x11, #1
	b	LBB49_216
LBB49_95:
	mov	w12, #6
	movk	w12, #8192, lsl #16
	cmp	w10, w12
	b.eq	LBB49_136
	mov	w8, #7
	movk	w8, #8192, lsl #16
	cmp	w10, w8
	b.eq	LBB49_282
	b	LBB49_117
LBB49_97:
	cmp	w10, #6
	b.eq	LBB49_240
	cmp	w10, #7
	b.eq	LBB49_282
LBB49_99:
	sub	w9, w10, #1001
	cmp	w9, #7
	b.hs	LBB49_104
	cmp	w10, #1003
	mov	w9, #1
	b.gt	LBB49_109
	cmp	w10, #1001
	b.eq	LBB49_226
	cmp	w10, #1002
	b.eq	LBB49_211
	cmp	w10, #1003
	b.eq	LBB49_88
	b	LBB49_282
LBB49_104:
	sub	w9, w10, #2001
	cmp	w9, #7
	b.hs	LBB49_112
	cmp	w10, #2003
	mov	w9, #2
	b.gt	LBB49_227
	cmp	w10, #2001
	b.eq	LBB49_226
	cmp	w10, #2002
	b.eq	LBB49_211
	cmp	w10, #2003
	b.eq	LBB49_88
	b	LBB49_282
LBB49_109:
	cmp	w10, #1004
	b.eq	LBB49_280
	cmp	w10, #1005
	b.eq	LBB49_45
	cmp	w10, #1006
	b.eq	LBB49_240
	b	LBB49_282
LBB49_112:
	sub	w9, w10, #3001
	cmp	w9, #7
	b.hs	LBB49_117
	cmp	w10, #3003
	mov	w9, #3
	b.gt	LBB49_237
	cmp	w10, #3001
	b.eq	LBB49_312
	cmp	w10, #3002
	b.eq	LBB49_211
	cmp	w10, #3003
	b.eq	LBB49_88
	b	LBB49_282
LBB49_117:
	cbz	w11, LBB49_120
	cmp	w11, #1
	b.ne	LBB49_282
	mov	w8, #1
	cmp	x1, #5
	b.lo	LBB49_282
	b	LBB49_121
LBB49_120:
	mov	w8, wzr
	cmp	x1, #5
	b.lo	LBB49_282
LBB49_121:
	ldur	w9, [x0, #1]
	cmp	w8, #0
	mov	w11, #-1073741824
	mov	w13, #-536870912
	rev	w10, w9
	csel	w9, w9, w10, ne
	ubfx	w10, w9, #30, #1
	and	w12, w9, #0x7fffffff
	add	w11, w12, w11
	cmp	w10, #0
	csel	w11, w12, w11, eq
	lsr	w10, w11, #29
	add	w13, w11, w13
	cmp	w10, #0
	csel	w13, w13, w11, ne
	cmp	w13, #3999
	b.hi	LBB49_282
	mov	w11, #35128
	mov	w14, #1000
	movk	w11, #65, lsl #16
	umull	x11, w13, w11
	lsr	x11, x11, #32
	msub	w11, w11, w14, w13
	sub	w14, w11, #1
	cmp	w14, #7
	b.hs	LBB49_282
	lsr	w12, w12, #30
	tbnz	w9, #31, LBB49_126
	mov	w9, #19923
	movk	w9, #4194, lsl #16
	umull	x9, w13, w9
	lsr	x9, x9, #38
	cbz	w12, LBB49_127
	lsl	w9, w9, #3
	mov	w12, #770
	movk	w12, #770, lsl #16
	lsr	w9, w12, w9
	b	LBB49_127
LBB49_126:
	cmp	w13, #2000
	mov	w9, #3
	ccmp	w12, #0, #0, lo
	csinc	w9, w9, wzr, ne
LBB49_127:
	cmp	w11, #3
	b.gt	LBB49_132
	cmp	w11, #1
	b.eq	LBB49_176
	cmp	w11, #2
	b.eq	LBB49_207
	cmp	w11, #3
	b.ne	LBB49_282
	cbnz	w10, LBB49_78
	b	LBB49_88
LBB49_132:
	cmp	w11, #4
	b.eq	LBB49_179
	cmp	w11, #5
	b.eq	LBB49_214
	cmp	w11, #6
	b.ne	LBB49_282
	cbz	w10, LBB49_240
LBB49_136:
	subs	x12, x1, #13
	b.lo	LBB49_282
	ldur	w10, [x0, #9]
	cmp	w8, #0
	rev	w11, w10
	csel	w11, w10, w11, ne
	cbz	w11, LBB49_219
	and	w17, w9, #0xff
	mov	w14, #1000
	mov	w6, w9
	mul	w20, w17, w14
	mov	w5, #19923
	mov	w7, #35128
	mov	w13, wzr
	mov	x16, xzr
	mov	x10, xzr
	add	x15, x0, #13
	mov	w17, #-1073741824
	mov	w4, #-536870912
	movk	w5, #4194, lsl #16
	and	x6, x6, #0xff
	movk	w7, #65, lsl #16
	mov	w19, #3
	orr	w20, w20, #0x3
	mov	w21, #5
	mov	w22, #9
	adrp	x24, Lswitch.table.wkb_raw_write.374@PAGE
	add	x24, x24, Lswitch.table.wkb_raw_write.374@PAGEOFF
LBB49_139:
	cmp	x12, #5
	b.hs	LBB49_142
	cbz	x12, LBB49_282
	ldrb	w26, [x15]
	b	LBB49_148
LBB49_142:
	ldrb	w26, [x15]
	cmp	w26, #1
	b.eq	LBB49_145
	cbnz	w26, LBB49_148
	ldur	w27, [x15, #1]
	mov	w25, wzr
	rev	w27, w27
	b	LBB49_146
LBB49_145:
	ldur	w27, [x15, #1]
	mov	w25, #1
LBB49_146:
	cmp	w27, w20
	b.ne	LBB49_148
	mov	w26, #5
	b	LBB49_162
LBB49_148:
	cbz	w26, LBB49_151
	cmp	w26, #1
	b.ne	LBB49_282
	mov	w25, #1
	b	LBB49_152
LBB49_151:
	mov	w25, wzr
LBB49_152:
	cmp	x12, #5
	b.lo	LBB49_282
	ldur	w26, [x15, #1]
	cmp	w25, #0
	rev	w27, w26
	csel	w28, w26, w27, ne
	ubfx	w26, w28, #30, #1
	and	w29, w28, #0x7fffffff
	add	w27, w29, w17
	cmp	w26, #0
	csel	w27, w29, w27, eq
	lsr	w26, w27, #29
	add	w30, w27, w4
	cmp	w26, #0
	csel	w30, w30, w27, ne
	cmp	w30, #3999
	b.hi	LBB49_282
	umull	x27, w30, w7
	lsr	x27, x27, #32
	msub	w27, w27, w14, w30
	sub	w23, w27, #1
	cmp	w23, #6
	b.hi	LBB49_282
	lsr	w29, w29, #30
	tbnz	w28, #31, LBB49_158
	umull	x23, w30, w5
	lsr	x28, x23, #38
	cbz	w29, LBB49_159
	lsl	w23, w28, #3
	mov	w28, #770
	movk	w28, #770, lsl #16
	lsr	w28, w28, w23
	b	LBB49_159
LBB49_158:
	cmp	w30, #2000
	ccmp	w29, #0, #0, lo
	csinc	w28, w19, wzr, ne
LBB49_159:
	cmp	w27, #3
	b.ne	LBB49_282
	and	w23, w28, #0xff
	cmp	w23, w9, uxtb
	b.ne	LBB49_282
	cmp	w26, #0
	csel	x26, x22, x21, ne
LBB49_162:
	add	x23, x26, #4
	cmp	x12, x23
	b.lo	LBB49_282
	add	x15, x15, x26
	cmp	w25, #0
	sub	x12, x12, x26
	ldr	w27, [x15], #4
	sub	x12, x12, #4
	rev	w28, w27
	csel	w26, w27, w28, ne
	cbz	w26, LBB49_169
	add	x16, x16, #2
	tbz	w25, #0, LBB49_170
	sub	w23, w27, #1
	add	x16, x16, x23
LBB49_166:
	cmp	x12, #4
	b.lo	LBB49_282
	ldr	w25, [x15]
	ldr	x23, [x24, x6, lsl #3]
	mul	x23, x23, x25
	orr	x27, x23, #0x4
	subs	x12, x12, x27
	b.lo	LBB49_282
	subs	w26, w26, #1
	add	x10, x10, x25
	add	x15, x15, x27
	b.ne	LBB49_166
	b	LBB49_174
LBB49_169:
	add	x16, x16, #1
	b	LBB49_174
LBB49_170:
	sub	w23, w28, #1
	add	x16, x16, x23
LBB49_171:
	cmp	x12, #4
	b.lo	LBB49_282
	ldr	w23, [x15]
	ldr	x27, [x24, x6, lsl #3]
	rev	w25, w23
	mul	x23, x27, x25
	orr	x27, x23, #0x4
	subs	x12, x12, x27
	b.lo	LBB49_282
	subs	w26, w26, #1
	add	x10, x10, x25
	add	x15, x15, x27
	b.ne	LBB49_171
LBB49_174:
	add	w13, w13, #1
	cmp	w13, w11
	b.ne	LBB49_139
	add	x13, x16, #1
	b	LBB49_220
LBB49_176:
	cbz	w10, LBB49_225
	and	w10, w9, #0xff
	sub	w11, w10, #1
	cmp	w11, #2
	b.hs	LBB49_230
	mov	w12, #33
	cmp	x1, x12
	b.lo	LBB49_282
	b	LBB49_232
LBB49_179:
	cbz	w10, LBB49_280
LBB49_180:
	subs	x11, x1, #13
	b.lo	LBB49_282
	ldur	w10, [x0, #9]
	mov	w12, w9
	cmp	w8, #0
	and	x13, x12, #0xff
	adrp	x12, Lswitch.table.wkb_raw_write.371@PAGE
	add	x12, x12, Lswitch.table.wkb_raw_write.371@PAGEOFF
	rev	w14, w10
	ldr	x13, [x12, x13, lsl #3]
	csel	w10, w10, w14, ne
	mov	x14, #13
	madd	x13, x13, x10, x14
	cmp	x1, x13
	b.lo	LBB49_282
	cbz	w10, LBB49_206
	and	w14, w9, #0xff
	mov	w13, #1000
	mov	w5, w9
	mul	w6, w14, w13
	mov	w14, #770
	mov	w4, #19923
	mov	w7, #35128
	movk	w14, #770, lsl #16
	add	x15, x0, #13
	mov	w16, #-1073741824
	mov	w17, #-536870912
	movk	w4, #4194, lsl #16
	and	x5, x5, #0xff
	orr	w6, w6, #0x1
	movk	w7, #65, lsl #16
	mov	w19, #3
	mov	x20, x10
LBB49_184:
	cmp	x11, #5
	b.hs	LBB49_187
	cbz	x11, LBB49_282
	ldrb	w21, [x15]
	b	LBB49_192
LBB49_187:
	ldrb	w21, [x15]
	cmp	w21, #1
	b.eq	LBB49_190
	cbnz	w21, LBB49_192
	ldur	w22, [x15, #1]
	rev	w22, w22
	b	LBB49_191
LBB49_190:
	ldur	w22, [x15, #1]
LBB49_191:
	cmp	w22, w6
	b.eq	LBB49_204
LBB49_192:
	cbz	w21, LBB49_194
	cmp	w21, #1
	b.ne	LBB49_282
LBB49_194:
	cmp	x11, #5
	b.lo	LBB49_282
	ldur	w22, [x15, #1]
	cmp	w21, #0
	rev	w23, w22
	csel	w24, w22, w23, ne
	ubfx	w21, w24, #30, #1
	and	w23, w24, #0x7fffffff
	add	w22, w23, w16
	cmp	w21, #0
	csel	w22, w23, w22, eq
	lsr	w21, w22, #29
	add	w25, w22, w17
	cmp	w21, #0
	csel	w25, w25, w22, ne
	cmp	w25, #3999
	b.hi	LBB49_282
	umull	x22, w25, w7
	lsr	x22, x22, #32
	msub	w22, w22, w13, w25
	sub	w26, w22, #1
	cmp	w26, #6
	b.hi	LBB49_282
	tbnz	w24, #31, LBB49_200
	umull	x24, w25, w4
	lsr	w25, w23, #30
	lsr	x23, x24, #38
	cbz	w25, LBB49_201
	lsl	w23, w23, #3
	lsr	w23, w14, w23
	b	LBB49_201
LBB49_200:
	lsr	w23, w23, #30
	cmp	w25, #2000
	ccmp	w23, #0, #0, lo
	csinc	w23, w19, wzr, ne
LBB49_201:
	cbnz	w21, LBB49_282
	cmp	w22, #1
	b.ne	LBB49_282
	and	w21, w23, #0xff
	cmp	w21, w9, uxtb
	b.ne	LBB49_282
LBB49_204:
	ldr	x21, [x12, x5, lsl #3]
	subs	x11, x11, x21
	b.lo	LBB49_282
	subs	x20, x20, #1
	add	x15, x15, x21
	b.ne	LBB49_184
LBB49_206:
	ldur	w15, [x0, #5]
	cmp	w8, #0
	add	x13, x10, #1
	sub	x12, x1, x11
	mov	w14, #1
	mov	w17, #9
	rev	w16, w15
	mov	w11, w10
	csel	w16, w15, w16, ne
	mov	w15, #4
	b	LBB49_310
LBB49_207:
	cbz	w10, LBB49_211
LBB49_208:
	cmp	x1, #13
	b.lo	LBB49_282
	ldur	w10, [x0, #9]
	mov	w11, w9
	adrp	x13, Lswitch.table.wkb_raw_write.374@PAGE
	add	x13, x13, Lswitch.table.wkb_raw_write.374@PAGEOFF
	and	x11, x11, #0xff
	cmp	w8, #0
	rev	w12, w10
	ldr	x11, [x13, x11, lsl #3]
	csel	w10, w10, w12, ne
	mov	x12, #13
	madd	x12, x11, x10, x12
	cmp	x1, x12
	b.lo	LBB49_282
	ldur	w11, [x0, #5]
	cmp	w8, #0
	mov	w14, #1
	mov	w15, #2
	mov	w17, #9
	rev	w13, w11
	csel	w16, w11, w13, ne
	mov	w11, w10
	mov	w13, #1
	b	LBB49_310
LBB49_211:
	cmp	x1, #9
	b.lo	LBB49_282
	ldur	w10, [x0, #5]
	mov	w11, w9
	adrp	x13, Lswitch.table.wkb_raw_write.374@PAGE
	add	x13, x13, Lswitch.table.wkb_raw_write.374@PAGEOFF
	and	x11, x11, #0xff
	cmp	w8, #0
	rev	w12, w10
	ldr	x11, [x13, x11, lsl #3]
	csel	w10, w10, w12, ne
	mov	x12, #9
	madd	x12, x11, x10, x12
	cmp	x1, x12
	b.lo	LBB49_282
	mov	w14, wzr
	mov	w15, #2
	mov	w17, #5
	mov	w13, #1
	mov	w11, w10
	b	LBB49_309
LBB49_214:
	cbnz	w10, LBB49_10
	b	LBB49_45
LBB49_215:
	mov	x10, xzr
	mov	w13, #1
LBB49_216:
	mov	w14, wzr
	sub	x12, x1, x12
	mov	w15, #3
	mov	w17, #5
	b	LBB49_309
LBB49_217:
	mov	x10, xzr
	mov	w13, #1
LBB49_218:
	mov	w14, wzr
	sub	x12, x1, x12
	mov	w15, #5
	mov	w17, #5
	b	LBB49_310
LBB49_219:
	mov	x10, xzr
	mov	w13, #1
LBB49_220:
	ldur	w14, [x0, #5]
	cmp	w8, #0
	sub	x12, x1, x12
	mov	w17, #9
	rev	w15, w14
	csel	w16, w14, w15, ne
	mov	w14, #1
	mov	w15, #6
	b	LBB49_310
LBB49_221:
	mov	x10, xzr
	mov	w13, #1
LBB49_222:
	ldur	w15, [x0, #5]
	cmp	w8, #0
	sub	x12, x1, x12
	mov	w14, #1
	mov	w17, #9
	rev	w16, w15
	csel	w16, w15, w16, ne
	mov	w15, #5
	b	LBB49_310
LBB49_223:
	mov	x10, xzr
	mov	w13, #1
LBB49_224:
	ldur	w15, [x0, #5]
	cmp	w8, #0
	sub	x12, x1, x12
	mov	w14, #1
	mov	w17, #9
	rev	w16, w15
	csel	w16, w15, w16, ne
	mov	w15, #3
	b	LBB49_310
LBB49_225:
	and	w10, w9, #0xff
	sub	w11, w10, #1
	cmp	w11, #2
	b.hs	LBB49_233
LBB49_226:
	mov	w12, #29
	cmp	x1, x12
	b.lo	LBB49_282
	b	LBB49_235
LBB49_227:
	cmp	w10, #2004
	b.eq	LBB49_280
	cmp	w10, #2005
	b.eq	LBB49_45
	cmp	w10, #2006
	b.eq	LBB49_240
	b	LBB49_282
LBB49_230:
	cbnz	w10, LBB49_313
LBB49_231:
	mov	w12, #25
	cmp	x1, x12
	b.lo	LBB49_282
LBB49_232:
	ldur	w11, [x0, #5]
	cmp	w8, #0
	mov	w13, #1
	mov	w17, #9
	mov	w10, #1
	rev	w14, w11
	csel	w16, w11, w14, ne
	mov	w14, w13
	b	LBB49_236
LBB49_233:
	cbnz	w10, LBB49_312
LBB49_234:
	mov	w12, #21
	cmp	x1, x12
	b.lo	LBB49_282
LBB49_235:
	mov	w14, wzr
	mov	w13, #1
	mov	w17, #5
	mov	w10, #1
LBB49_236:
	mov	w15, w13
	mov	w11, #1
	b	LBB49_311
LBB49_237:
	cmp	w10, #3004
	b.eq	LBB49_280
	cmp	w10, #3005
	b.eq	LBB49_45
	cmp	w10, #3006
	b.ne	LBB49_282
LBB49_240:
	subs	x12, x1, #9
	b.lo	LBB49_282
	ldur	w10, [x0, #5]
	cmp	w8, #0
	rev	w11, w10
	csel	w11, w10, w11, ne
	cbz	w11, LBB49_308
	and	w17, w9, #0xff
	mov	w14, #1000
	mov	w6, w9
	mul	w20, w17, w14
	mov	w5, #19923
	mov	w7, #35128
	mov	w13, wzr
	mov	x15, xzr
	mov	x10, xzr
	add	x16, x0, #9
	mov	w17, #-1073741824
	mov	w4, #-536870912
	movk	w5, #4194, lsl #16
	and	x6, x6, #0xff
	movk	w7, #65, lsl #16
	mov	w19, #3
	orr	w20, w20, #0x3
	mov	w21, #5
	mov	w22, #9
	adrp	x24, Lswitch.table.wkb_raw_write.374@PAGE
	add	x24, x24, Lswitch.table.wkb_raw_write.374@PAGEOFF
LBB49_243:
	cmp	x12, #5
	b.hs	LBB49_246
	cbz	x12, LBB49_282
	ldrb	w26, [x16]
	b	LBB49_252
LBB49_246:
	ldrb	w26, [x16]
	cmp	w26, #1
	b.eq	LBB49_249
	cbnz	w26, LBB49_252
	ldur	w27, [x16, #1]
	mov	w25, wzr
	rev	w27, w27
	b	LBB49_250
LBB49_249:
	ldur	w27, [x16, #1]
	mov	w25, #1
LBB49_250:
	cmp	w27, w20
	b.ne	LBB49_252
	mov	w26, #5
	b	LBB49_266
LBB49_252:
	cbz	w26, LBB49_255
	cmp	w26, #1
	b.ne	LBB49_282
	mov	w25, #1
	b	LBB49_256
LBB49_255:
	mov	w25, wzr
LBB49_256:
	cmp	x12, #5
	b.lo	LBB49_282
	ldur	w26, [x16, #1]
	cmp	w25, #0
	rev	w27, w26
	csel	w28, w26, w27, ne
	ubfx	w26, w28, #30, #1
	and	w29, w28, #0x7fffffff
	add	w27, w29, w17
	cmp	w26, #0
	csel	w27, w29, w27, eq
	lsr	w26, w27, #29
	add	w30, w27, w4
	cmp	w26, #0
	csel	w30, w30, w27, ne
	cmp	w30, #3999
	b.hi	LBB49_282
	umull	x27, w30, w7
	lsr	x27, x27, #32
	msub	w27, w27, w14, w30
	sub	w23, w27, #1
	cmp	w23, #6
	b.hi	LBB49_282
	lsr	w29, w29, #30
	tbnz	w28, #31, LBB49_262
	umull	x23, w30, w5
	lsr	x28, x23, #38
	cbz	w29, LBB49_263
	lsl	w23, w28, #3
	mov	w28, #770
	movk	w28, #770, lsl #16
	lsr	w28, w28, w23
	b	LBB49_263
LBB49_262:
	cmp	w30, #2000
	ccmp	w29, #0, #0, lo
	csinc	w28, w19, wzr, ne
LBB49_263:
	cmp	w27, #3
	b.ne	LBB49_282
	and	w23, w28, #0xff
	cmp	w23, w9, uxtb
	b.ne	LBB49_282
	cmp	w26, #0
	csel	x26, x22, x21, ne
LBB49_266:
	add	x23, x26, #4
	cmp	x12, x23
	b.lo	LBB49_282
	add	x16, x16, x26
	cmp	w25, #0
	sub	x12, x12, x26
	ldr	w27, [x16], #4
	sub	x12, x12, #4
	rev	w28, w27
	csel	w26, w27, w28, ne
	cbz	w26, LBB49_273
	add	x15, x15, #2
	tbz	w25, #0, LBB49_274
	sub	w23, w27, #1
	add	x15, x15, x23
LBB49_270:
	cmp	x12, #4
	b.lo	LBB49_282
	ldr	w25, [x16]
	ldr	x23, [x24, x6, lsl #3]
	mul	x23, x23, x25
	orr	x27, x23, #0x4
	subs	x12, x12, x27
	b.lo	LBB49_282
	subs	w26, w26, #1
	add	x10, x10, x25
	add	x16, x16, x27
	b.ne	LBB49_270
	b	LBB49_278
LBB49_273:
	add	x15, x15, #1
	b	LBB49_278
LBB49_274:
	sub	w23, w28, #1
	add	x15, x15, x23
LBB49_275:
	cmp	x12, #4
	b.lo	LBB49_282
	ldr	w23, [x16]
	ldr	x27, [x24, x6, lsl #3]
	rev	w25, w23
	mul	x23, x27, x25
	orr	x27, x23, #0x4
	subs	x12, x12, x27
	b.lo	LBB49_282
	subs	w26, w26, #1
	add	x10, x10, x25
	add	x16, x16, x27
	b.ne	LBB49_275
LBB49_278:
	add	w13, w13, #1
	cmp	w13, w11
	b.ne	LBB49_243
	mov	w14, wzr
	add	x13, x15, #1
	sub	x12, x1, x12
	mov	w15, #6
	mov	w17, #5
	b	LBB49_309
LBB49_280:
	subs	x10, x1, #9
	b.lo	LBB49_282
	ldur	w11, [x0, #5]
	mov	w12, w9
	cmp	w8, #0
	and	x13, x12, #0xff
	adrp	x12, Lswitch.table.wkb_raw_write.371@PAGE
	add	x12, x12, Lswitch.table.wkb_raw_write.371@PAGEOFF
	rev	w14, w11
	ldr	x13, [x12, x13, lsl #3]
	csel	w11, w11, w14, ne
	mov	x14, #9
	madd	x13, x13, x11, x14
	cmp	x1, x13
	b.hs	LBB49_283
LBB49_282:
	ldp	x20, x19, [sp, #80]
	ldp	x22, x21, [sp, #64]
	ldp	x24, x23, [sp, #48]
	ldp	x26, x25, [sp, #32]
	ldp	x28, x27, [sp, #16]
	ldp	x29, x30, [sp], #96
	.cfi_def_cfa_offset 0
	.cfi_restore w19
	.cfi_restore w20
	.cfi_restore w21
	.cfi_restore w22
	.cfi_restore w23
	.cfi_restore w24
	.cfi_restore w25
	.cfi_restore w26
	.cfi_restore w27
	.cfi_restore w28
	.cfi_restore w30
	.cfi_restore w29
	b	_ZN7wkb_raw6erased5wkb_c5check9check_any17h92583dc257635947E
LBB49_283:
	.cfi_restore_state
	.cfi_remember_state
	cbz	w11, LBB49_307
	and	w14, w9, #0xff
	mov	w13, #1000
	mov	w5, w9
	mul	w6, w14, w13
	mov	w14, #770
	mov	w4, #19923
	mov	w7, #35128
	movk	w14, #770, lsl #16
	add	x15, x0, #9
	mov	w16, #-1073741824
	mov	w17, #-536870912
	movk	w4, #4194, lsl #16
	and	x5, x5, #0xff
	orr	w6, w6, #0x1
	movk	w7, #65, lsl #16
	mov	w19, #3
	mov	x20, x11
LBB49_285:
	cmp	x10, #5
	b.hs	LBB49_288
	cbz	x10, LBB49_282
	ldrb	w21, [x15]
	b	LBB49_293
LBB49_288:
	ldrb	w21, [x15]
	cmp	w21, #1
	b.eq	LBB49_291
	cbnz	w21, LBB49_293
	ldur	w22, [x15, #1]
	rev	w22, w22
	b	LBB49_292
LBB49_291:
	ldur	w22, [x15, #1]
LBB49_292:
	cmp	w22, w6
	b.eq	LBB49_305
LBB49_293:
	cbz	w21, LBB49_295
	cmp	w21, #1
	b.ne	LBB49_282
LBB49_295:
	cmp	x10, #5
	b.lo	LBB49_282
	ldur	w22, [x15, #1]
	cmp	w21, #0
	rev	w23, w22
	csel	w24, w22, w23, ne
	ubfx	w21, w24, #30, #1
	and	w23, w24, #0x7fffffff
	add	w22, w23, w16
	cmp	w21, #0
	csel	w22, w23, w22, eq
	lsr	w21, w22, #29
	add	w25, w22, w17
	cmp	w21, #0
	csel	w25, w25, w22, ne
	cmp	w25, #3999
	b.hi	LBB49_282
	umull	x22, w25, w7
	lsr	x22, x22, #32
	msub	w22, w22, w13, w25
	sub	w26, w22, #1
	cmp	w26, #6
	b.hi	LBB49_282
	tbnz	w24, #31, LBB49_301
	umull	x24, w25, w4
	lsr	w25, w23, #30
	lsr	x23, x24, #38
	cbz	w25, LBB49_302
	lsl	w23, w23, #3
	lsr	w23, w14, w23
	b	LBB49_302
LBB49_301:
	lsr	w23, w23, #30
	cmp	w25, #2000
	ccmp	w23, #0, #0, lo
	csinc	w23, w19, wzr, ne
LBB49_302:
	cbnz	w21, LBB49_282
	cmp	w22, #1
	b.ne	LBB49_282
	and	w21, w23, #0xff
	cmp	w21, w9, uxtb
	b.ne	LBB49_282
LBB49_305:
	ldr	x21, [x12, x5, lsl #3]
	subs	x10, x10, x21
	b.lo	LBB49_282
	subs	x20, x20, #1
	add	x15, x15, x21
	b.ne	LBB49_285
LBB49_307:
	mov	w14, wzr
	add	x13, x11, #1
	sub	x12, x1, x10
	mov	w15, #4
	mov	w17, #5
	mov	x10, x11
	b	LBB49_310
LBB49_308:
	mov	w14, wzr
	mov	x10, xzr
	mov	w15, #6
	mov	w17, #5
	mov	w12, #9
	mov	w13, #1
LBB49_309:
LBB49_310:
	add	x17, x17, #4
	mov	w11, w11
LBB49_311:
	cmp	w14, #0
	stp	x12, x13, [x2]
	mov	w12, w9
	stp	x10, x17, [x2, #16]
	csel	w10, w16, wzr, ne
	and	w9, w9, #0xff
	str	x11, [x2, #32]
	and	x11, x12, #0xff
	mov	w0, wzr
	stp	w10, w14, [x2, #40]
	adrp	x10, Lswitch.table.wkb_raw_parts.323@PAGE
	add	x10, x10, Lswitch.table.wkb_raw_parts.323@PAGEOFF
	ldr	w10, [x10, x11, lsl #2]
	ldp	x20, x19, [sp, #80]
	ldp	x22, x21, [sp, #64]
	stp	w15, w9, [x2, #48]
	ldp	x24, x23, [sp, #48]
	stp	w10, w8, [x2, #56]
	ldp	x26, x25, [sp, #32]
	ldp	x28, x27, [sp, #16]
	ldp	x29, x30, [sp], #96
	.cfi_def_cfa_offset 0
	.cfi_restore w19
	.cfi_restore w20
	.cfi_restore w21
	.cfi_restore w22
	.cfi_restore w23
	.cfi_restore w24
	.cfi_restore w25
	.cfi_restore w26
	.cfi_restore w27
	.cfi_restore w28
	.cfi_restore w30
	.cfi_restore w29
	ret
LBB49_312:
	.cfi_restore_state
	mov	w12, #37
	cmp	x1, x12
	b.lo	LBB49_282
	b	LBB49_235
LBB49_313:
	mov	w12, #41
	cmp	x1, x12
	b.lo	LBB49_282
	b	LBB49_232
Lfunc_end49:
	.cfi_endproc
	.section	__TEXT,__text,regular,pure_instructions
	.private_extern	_wkb_raw_collect
	.globl	_wkb_raw_collect
	.p2align	2
_wkb_raw_collect:
	.cfi_startproc
	hint	#34
	sub	sp, sp, #288
	.cfi_def_cfa_offset 288
	stp	x29, x30, [sp, #192]
	stp	x28, x27, [sp, #208]
	stp	x26, x25, [sp, #224]
	stp	x24, x23, [sp, #240]
	stp	x22, x21, [sp, #256]
	stp	x20, x19, [sp, #272]
	.cfi_offset w19, -8
	.cfi_offset w20, -16
	.cfi_offset w21, -24
	.cfi_offset w22, -32
	.cfi_offset w23, -40
	.cfi_offset w24, -48
	.cfi_offset w25, -56
	.cfi_offset w26, -64
	.cfi_offset w27, -72
	.cfi_offset w28, -80
	.cfi_offset w30, -88
	.cfi_offset w29, -96
	ldr	q0, [x0]
	ldr	x9, [x0, #16]
	and	w8, w2, #0xfffffffc
	cmp	w8, #4
	str	q0, [sp, #32]
	ldur	q0, [x0, #24]
	str	x9, [sp, #48]
	ldr	x9, [x0, #40]
	stur	q0, [sp, #56]
	ldr	q0, [x0, #48]
	mov	w0, #3
	str	x9, [sp, #72]
	str	q0, [sp, #80]
	b.ne	LBB50_30
	cmp	w3, #3
	b.hi	LBB50_30
	ldr	w8, [x4]
	cbz	w8, LBB50_7
	cmp	w8, #1
	b.ne	LBB50_30
	mov	w21, #1
	ldr	w23, [x4, #4]
	cmp	w23, #1
	b.gt	LBB50_8
LBB50_5:
	cbz	w23, LBB50_13
	cmp	w23, #1
	b.eq	LBB50_11
	b	LBB50_30
LBB50_7:
	mov	w21, wzr
	ldr	w23, [x4, #4]
	cmp	w23, #1
	b.le	LBB50_5
LBB50_8:
	cmp	w23, #3
	b.eq	LBB50_11
	cmp	w23, #2
	b.ne	LBB50_30
	ldr	w22, [x4, #8]
	mov	w25, wzr
	mov	w24, #1
	mov	w23, #536870912
	lsr	x8, x1, #32
	stp	w24, w22, [sp, #100]
	strb	w21, [sp, #108]
	str	w2, [sp, #112]
	strb	w3, [sp, #116]
	cbnz	x8, LBB50_12
	b	LBB50_14
LBB50_11:
	mov	w22, wzr
	mov	w25, wzr
	mov	w23, wzr
	mov	w24, wzr
	lsr	x8, x1, #32
	stp	wzr, wzr, [sp, #100]
	strb	w21, [sp, #108]
	str	w2, [sp, #112]
	strb	w3, [sp, #116]
	cbz	x8, LBB50_14
LBB50_12:
	mov	w0, #4
	b	LBB50_30
LBB50_13:
	mov	w24, #2
	mov	w25, #1
	lsr	x8, x1, #32
	stp	w24, w22, [sp, #100]
	strb	w21, [sp, #108]
	str	w2, [sp, #112]
	strb	w3, [sp, #116]
	cbnz	x8, LBB50_12
LBB50_14:
	mov	x26, x7
	mov	x27, x6
	mov	w28, w2
	ldp	x6, x7, [sp, #288]
	mov	w29, w3
	mov	x20, x5
	add	x0, sp, #120
	mov	x2, x1
	add	x1, sp, #32
	add	x3, sp, #100
	mov	w4, #1
	mov	x5, xzr
	mov	x19, x2
	stp	x6, x7, [sp, #16]
	bl	_ZN7wkb_raw6erased5wkb_c7collect13write_members17hf9b9c22d6bdc85eaE
	ldr	w8, [sp, #120]
	cmp	w8, #1
	b.ne	LBB50_16
	ldr	w0, [sp, #124]
	b	LBB50_30
LBB50_16:
	ldr	x9, [sp, #128]
	stur	wzr, [sp, #145]
	stur	xzr, [sp, #137]
	strb	w21, [sp, #136]
	tbz	w25, #0, LBB50_19
	mov	w10, #1000
	cmp	w21, #0
	mov	w8, w29
	mul	w10, w29, w10
	mov	w13, #5
	mov	x12, x26
	orr	w10, w10, w28
	rev	w11, w10
	csel	w10, w10, w11, ne
	stur	w10, [sp, #137]
	mov	x10, x27
	tbz	w21, #0, LBB50_26
	mov	w14, w19
	b	LBB50_27
LBB50_19:
	lsl	w10, w29, #29
	mov	w8, w29
	mov	x12, x26
	and	w10, w10, #0x40000000
	orr	w10, w10, w23
	orr	w10, w10, w29, lsl #31
	orr	w13, w10, w28
	mov	x10, x27
	cbz	w21, LBB50_22
	cmp	w24, #1
	stur	w13, [sp, #137]
	b.ne	LBB50_24
	stur	w22, [sp, #141]
	mov	w13, #9
	mov	w14, w19
	b	LBB50_27
LBB50_22:
	rev	w13, w13
	cmp	w24, #1
	stur	w13, [sp, #137]
	b.ne	LBB50_25
	rev	w13, w22
	stur	w13, [sp, #141]
	mov	w13, #9
	b	LBB50_26
LBB50_24:
	mov	w13, #5
	mov	w14, w19
	b	LBB50_27
LBB50_25:
	mov	w13, #5
LBB50_26:
	rev	w14, w19
LBB50_27:
	add	x21, x13, #4
	add	x15, sp, #136
	add	x9, x21, x9
	str	w14, [x15, x13]
	cmp	x10, x9
	str	x9, [x12]
	b.hs	LBB50_29
	mov	w0, #2
	b	LBB50_30
LBB50_29:
	add	x1, sp, #136
	mov	x0, x20
	mov	x2, x21
	mov	x22, x19
	mov	x19, x20
	mov	x20, x10
	mov	w23, w8
	bl	_memcpy
	ldp	x6, x7, [sp, #16]
	mov	w8, #7
	ldur	x9, [sp, #100]
	ldr	w10, [sp, #108]
	sub	x5, x20, x21
	add	x0, sp, #176
	add	x1, sp, #32
	add	x3, sp, #152
	add	x4, x19, x21
	mov	x2, x22
	strb	w23, [sp, #168]
	stp	w10, w8, [sp, #160]
	str	x9, [sp, #152]
	bl	_ZN7wkb_raw6erased5wkb_c7collect13write_members17hf9b9c22d6bdc85eaE
	mov	w0, wzr
LBB50_30:
	ldp	x20, x19, [sp, #272]
	ldp	x22, x21, [sp, #256]
	ldp	x24, x23, [sp, #240]
	ldp	x26, x25, [sp, #224]
	ldp	x28, x27, [sp, #208]
	ldp	x29, x30, [sp, #192]
	add	sp, sp, #288
	.cfi_def_cfa_offset 0
	.cfi_restore w19
	.cfi_restore w20
	.cfi_restore w21
	.cfi_restore w22
	.cfi_restore w23
	.cfi_restore w24
	.cfi_restore w25
	.cfi_restore w26
	.cfi_restore w27
	.cfi_restore w28
	.cfi_restore w30
	.cfi_restore w29
	ret
Lfunc_end50:
	.cfi_endproc
	.section	__TEXT,__const
	.p2align	4, 0x0
LCPI51_0:
	.quad	9218868437227405312
	.quad	-4503599627370496
LCPI51_1:
	.quad	0
	.quad	9218868437227405312
LCPI51_2:
	.quad	-4503599627370496
	.quad	0
	.section	__TEXT,__text,regular,pure_instructions
	.private_extern	_wkb_raw_column_bounds
	.globl	_wkb_raw_column_bounds
	.p2align	2
_wkb_raw_column_bounds:
	.cfi_startproc
	hint	#34
	sub	sp, sp, #208
	.cfi_def_cfa_offset 208
	stp	x29, x30, [sp, #112]
	stp	x28, x27, [sp, #128]
	stp	x26, x25, [sp, #144]
	stp	x24, x23, [sp, #160]
	stp	x22, x21, [sp, #176]
	stp	x20, x19, [sp, #192]
	.cfi_offset w19, -8
	.cfi_offset w20, -16
	.cfi_offset w21, -24
	.cfi_offset w22, -32
	.cfi_offset w23, -40
	.cfi_offset w24, -48
	.cfi_offset w25, -56
	.cfi_offset w26, -64
	.cfi_offset w27, -72
	.cfi_offset w28, -80
	.cfi_offset w30, -88
	.cfi_offset w29, -96
	cmp	x2, x4
	csel	x21, x2, x4, lo
	cbz	x21, LBB51_330
	ldp	x10, x13, [x0]
	adrp	x11, LCPI51_2@PAGE
	ldp	x22, x9, [x0, #48]
	mov	x19, x3
	ldp	x27, x14, [x0, #32]
	mov	x20, x1
	str	x10, [sp, #104]
	ldp	x25, x10, [x0, #16]
	and	x26, x9, #0x7
	lsr	x29, x9, #3
	adrp	x9, LCPI51_0@PAGE
	ldr	q0, [x9, LCPI51_0@PAGEOFF]
	ldr	q2, [x11, LCPI51_2@PAGEOFF]
	mov	x23, xzr
	lsr	x15, x10, #3
	lsr	x16, x10, #2
	adrp	x10, LCPI51_1@PAGE
	ldr	q1, [x10, LCPI51_1@PAGEOFF]
	mov	x8, xzr
	mov	w17, #96
	mov	w4, #16
	stp	x14, x13, [sp, #88]
	stp	x16, x15, [sp, #72]
	stp	q1, q0, [sp, #32]
	str	q2, [sp, #16]
	b	LBB51_4
LBB51_2:
	tst	w9, #0x1
	mov	x28, x8
	cinc	w12, w4, eq
LBB51_3:
	cmp	x23, x21
	mov	x8, x28
	strb	w12, [x19, x24]
	b.eq	LBB51_330
LBB51_4:
	madd	x5, x23, x17, x20
	mov	x24, x23
	stp	q0, q1, [x5]
	stp	q2, q0, [x5, #32]
	stp	q1, q2, [x5, #64]
	cbz	x22, LBB51_10
	and	x9, x24, #0x7
	add	x10, x29, x24, lsr #3
	add	x9, x9, x26
	add	x10, x10, x9, lsr #3
	cmp	x10, x22
	b.hs	LBB51_10
	ldrb	w10, [x14, x10]
	and	x9, x9, #0x7
	eor	w10, w10, #0xff
	lsr	w9, w10, w9
	cmp	x27, #4
	add	x23, x24, #1
	b.ne	LBB51_11
LBB51_7:
	cmp	x16, x23
	b.ls	LBB51_2
	ldr	w10, [x25, x24, lsl #2]
	ldr	w11, [x25, x23, lsl #2]
	cmp	w11, w10
	b.lo	LBB51_2
	tbz	w11, #31, LBB51_14
	b	LBB51_2
LBB51_10:
	mov	w9, wzr
	cmp	x27, #4
	add	x23, x24, #1
	b.eq	LBB51_7
LBB51_11:
	cmp	x27, #8
	b.ne	LBB51_2
	cmp	x15, x23
	b.ls	LBB51_2
	ldr	x10, [x25, x24, lsl #3]
	ldr	x11, [x25, x23, lsl #3]
	cmp	x11, x10
	b.lo	LBB51_2
LBB51_14:
	cmp	x13, x11
	b.lo	LBB51_2
	cmp	x11, x8
	csel	x28, x11, x8, hi
	tbz	w9, #0, LBB51_17
	mov	w12, #16
	b	LBB51_3
LBB51_17:
	cmp	x10, x8
	b.hs	LBB51_19
	mov	w12, #17
	b	LBB51_3
LBB51_19:
	ldr	x8, [sp, #104]
	sub	x1, x11, x10
	cmp	x1, #5
	add	x0, x8, x10
	b.hs	LBB51_22
	cmp	x11, x10
	b.eq	LBB51_298
	ldrb	w9, [x0]
	b	LBB51_135
LBB51_22:
	ldrb	w9, [x0]
	cmp	w9, #1
	b.eq	LBB51_58
	cbnz	w9, LBB51_135
	ldur	w8, [x0, #1]
	mov	w3, wzr
	rev	w8, w8
	lsr	w10, w8, #29
	cbz	w10, LBB51_59
LBB51_25:
	mov	w10, #3
	mov	w2, wzr
	movk	w10, #8192, lsl #16
	cmp	w8, w10
	b.le	LBB51_92
	mov	w10, #5
	movk	w10, #8192, lsl #16
	cmp	w8, w10
	b.gt	LBB51_113
	mov	w10, #4
	movk	w10, #8192, lsl #16
	cmp	w8, w10
	b.eq	LBB51_194
	mov	w10, #5
	movk	w10, #8192, lsl #16
	cmp	w8, w10
	b.ne	LBB51_135
LBB51_29:
	subs	x10, x1, #13
	b.lo	LBB51_298
	ldur	w8, [x0, #9]
	cmp	w3, #0
	rev	w9, w8
	csel	w11, w8, w9, ne
	cbz	w11, LBB51_220
	and	w12, w2, #0xff
	mov	w13, #1000
	mov	w14, w2
	mul	w13, w12, w13
	add	x12, x0, #13
	and	x14, x14, #0xff
	orr	w13, w13, #0x2
LBB51_32:
	cmp	x10, #5
	b.hs	LBB51_35
	cbz	x10, LBB51_298
	ldrb	w16, [x12]
	b	LBB51_41
LBB51_35:
	ldrb	w16, [x12]
	cmp	w16, #1
	b.eq	LBB51_38
	cbnz	w16, LBB51_41
	ldur	w17, [x12, #1]
	mov	w15, wzr
	rev	w17, w17
	b	LBB51_39
LBB51_38:
	ldur	w17, [x12, #1]
	mov	w15, #1
LBB51_39:
	cmp	w17, w13
	b.ne	LBB51_41
	mov	w16, #9
	mov	w17, #5
	b	LBB51_55
LBB51_41:
	cbz	w16, LBB51_44
	cmp	w16, #1
	b.ne	LBB51_298
	mov	w15, #1
	b	LBB51_45
LBB51_44:
	mov	w15, wzr
LBB51_45:
	cmp	x10, #5
	b.lo	LBB51_298
	ldur	w16, [x12, #1]
	cmp	w15, #0
	mov	w7, #-536870912
	rev	w17, w16
	csel	w6, w16, w17, ne
	mov	w17, #-1073741824
	ubfx	w16, w6, #30, #1
	and	w4, w6, #0x7fffffff
	add	w17, w4, w17
	cmp	w16, #0
	csel	w17, w4, w17, eq
	lsr	w16, w17, #29
	add	w7, w17, w7
	cmp	w16, #0
	csel	w7, w7, w17, ne
	cmp	w7, #3999
	b.hi	LBB51_298
	mov	w17, #35128
	mov	w30, #1000
	movk	w17, #65, lsl #16
	umull	x17, w7, w17
	lsr	x17, x17, #32
	msub	w17, w17, w30, w7
	sub	w30, w17, #1
	cmp	w30, #6
	b.hi	LBB51_298
	tbnz	w6, #31, LBB51_51
	mov	w6, #19923
	movk	w6, #4194, lsl #16
	umull	x6, w7, w6
	lsr	w7, w4, #30
	lsr	x4, x6, #38
	cbz	w7, LBB51_52
	lsl	w4, w4, #3
	mov	w6, #770
	movk	w6, #770, lsl #16
	lsr	w4, w6, w4
	b	LBB51_52
LBB51_51:
	lsr	w4, w4, #30
	cmp	w7, #2000
	ccmp	w4, #0, #0, lo
	mov	w4, #3
	csinc	w4, w4, wzr, ne
LBB51_52:
	cmp	w17, #2
	b.ne	LBB51_298
	and	w17, w4, #0xff
	cmp	w17, w2, uxtb
	b.ne	LBB51_298
	cmp	w16, #0
	mov	w16, #9
	mov	w17, #5
	mov	w4, #13
	csel	x17, x16, x17, ne
	csel	x16, x4, x16, ne
LBB51_55:
	add	x4, x17, #4
	cmp	x10, x4
	b.lo	LBB51_298
	ldr	w17, [x12, x17]
	cmp	w15, #0
	adrp	x15, Lswitch.table.wkb_raw_write.374@PAGE
	add	x15, x15, Lswitch.table.wkb_raw_write.374@PAGEOFF
	rev	w4, w17
	ldr	x15, [x15, x14, lsl #3]
	csel	w17, w17, w4, ne
	madd	x15, x15, x17, x16
	subs	x10, x10, x15
	b.lo	LBB51_298
	subs	w11, w11, #1
	add	x12, x12, x15
	b.ne	LBB51_32
	b	LBB51_220
LBB51_58:
	ldur	w8, [x0, #1]
	mov	w3, #1
	lsr	w10, w8, #29
	cbnz	w10, LBB51_25
LBB51_59:
	cmp	w8, #3
	mov	w2, wzr
	b.le	LBB51_102
	cmp	w8, #5
	b.gt	LBB51_115
	cmp	w8, #4
	b.eq	LBB51_296
	cmp	w8, #5
	b.ne	LBB51_117
LBB51_63:
	subs	x10, x1, #9
	b.lo	LBB51_298
	ldur	w8, [x0, #5]
	cmp	w3, #0
	rev	w9, w8
	csel	w11, w8, w9, ne
	cbz	w11, LBB51_324
	and	w12, w2, #0xff
	mov	w13, #1000
	mov	w14, w2
	mul	w13, w12, w13
	add	x12, x0, #9
	and	x14, x14, #0xff
	orr	w13, w13, #0x2
LBB51_66:
	cmp	x10, #5
	b.hs	LBB51_69
	cbz	x10, LBB51_298
	ldrb	w16, [x12]
	b	LBB51_75
LBB51_69:
	ldrb	w16, [x12]
	cmp	w16, #1
	b.eq	LBB51_72
	cbnz	w16, LBB51_75
	ldur	w17, [x12, #1]
	mov	w15, wzr
	rev	w17, w17
	b	LBB51_73
LBB51_72:
	ldur	w17, [x12, #1]
	mov	w15, #1
LBB51_73:
	cmp	w17, w13
	b.ne	LBB51_75
	mov	w16, #9
	mov	w17, #5
	b	LBB51_89
LBB51_75:
	cbz	w16, LBB51_78
	cmp	w16, #1
	b.ne	LBB51_298
	mov	w15, #1
	b	LBB51_79
LBB51_78:
	mov	w15, wzr
LBB51_79:
	cmp	x10, #5
	b.lo	LBB51_298
	ldur	w16, [x12, #1]
	cmp	w15, #0
	mov	w7, #-536870912
	rev	w17, w16
	csel	w4, w16, w17, ne
	mov	w17, #-1073741824
	ubfx	w16, w4, #30, #1
	and	w6, w4, #0x7fffffff
	add	w17, w6, w17
	cmp	w16, #0
	csel	w17, w6, w17, eq
	lsr	w16, w17, #29
	add	w7, w17, w7
	cmp	w16, #0
	csel	w7, w7, w17, ne
	cmp	w7, #3999
	b.hi	LBB51_298
	mov	w17, #35128
	mov	w30, #1000
	movk	w17, #65, lsl #16
	umull	x17, w7, w17
	lsr	x17, x17, #32
	msub	w17, w17, w30, w7
	sub	w30, w17, #1
	cmp	w30, #6
	b.hi	LBB51_298
	lsr	w6, w6, #30
	tbnz	w4, #31, LBB51_85
	mov	w4, #19923
	movk	w4, #4194, lsl #16
	umull	x4, w7, w4
	lsr	x4, x4, #38
	cbz	w6, LBB51_86
	lsl	w4, w4, #3
	mov	w6, #770
	movk	w6, #770, lsl #16
	lsr	w4, w6, w4
	b	LBB51_86
LBB51_85:
	cmp	w7, #2000
	mov	w4, #3
	ccmp	w6, #0, #0, lo
	csinc	w4, w4, wzr, ne
LBB51_86:
	cmp	w17, #2
	b.ne	LBB51_298
	and	w17, w4, #0xff
	cmp	w17, w2, uxtb
	b.ne	LBB51_298
	cmp	w16, #0
	mov	w16, #9
	mov	w17, #5
	mov	w4, #13
	csel	x17, x16, x17, ne
	csel	x16, x4, x16, ne
LBB51_89:
	add	x4, x17, #4
	cmp	x10, x4
	b.lo	LBB51_298
	ldr	w17, [x12, x17]
	cmp	w15, #0
	adrp	x15, Lswitch.table.wkb_raw_write.374@PAGE
	add	x15, x15, Lswitch.table.wkb_raw_write.374@PAGEOFF
	rev	w4, w17
	ldr	x15, [x15, x14, lsl #3]
	csel	w17, w17, w4, ne
	madd	x15, x15, x17, x16
	subs	x10, x10, x15
	b.lo	LBB51_298
	subs	w11, w11, #1
	add	x12, x12, x15
	b.ne	LBB51_66
	b	LBB51_324
LBB51_92:
	mov	w10, #1
	movk	w10, #8192, lsl #16
	cmp	w8, w10
	b.eq	LBB51_239
	mov	w10, #2
	movk	w10, #8192, lsl #16
	cmp	w8, w10
	b.eq	LBB51_222
	mov	w10, #3
	movk	w10, #8192, lsl #16
	cmp	w8, w10
	b.ne	LBB51_135
LBB51_95:
	subs	x8, x1, #13
	b.lo	LBB51_298
	ldur	w9, [x0, #9]
	cmp	w3, #0
	rev	w10, w9
	csel	w9, w9, w10, ne
	cbz	w9, LBB51_101
	mov	w11, w2
	add	x10, x0, #13
	and	x11, x11, #0xff
LBB51_98:
	cmp	x8, #4
	b.lo	LBB51_298
	ldr	w12, [x10]
	adrp	x14, Lswitch.table.wkb_raw_write.374@PAGE
	add	x14, x14, Lswitch.table.wkb_raw_write.374@PAGEOFF
	cmp	w3, #0
	ldr	x14, [x14, x11, lsl #3]
	rev	w13, w12
	csel	w12, w12, w13, ne
	mul	x12, x14, x12
	orr	x12, x12, #0x4
	subs	x8, x8, x12
	b.lo	LBB51_298
	subs	w9, w9, #1
	add	x10, x10, x12
	b.ne	LBB51_98
LBB51_101:
	mov	w4, #1
	b	LBB51_112
LBB51_102:
	cmp	w8, #1
	b.eq	LBB51_242
	cmp	w8, #2
	b.eq	LBB51_225
	cmp	w8, #3
	b.ne	LBB51_117
LBB51_105:
	subs	x8, x1, #9
	b.lo	LBB51_298
	ldur	w9, [x0, #5]
	cmp	w3, #0
	rev	w10, w9
	csel	w9, w9, w10, ne
	cbz	w9, LBB51_111
	mov	w11, w2
	add	x10, x0, #9
	and	x11, x11, #0xff
LBB51_108:
	cmp	x8, #4
	b.lo	LBB51_298
	ldr	w12, [x10]
	adrp	x14, Lswitch.table.wkb_raw_write.374@PAGE
	add	x14, x14, Lswitch.table.wkb_raw_write.374@PAGEOFF
	cmp	w3, #0
	ldr	x14, [x14, x11, lsl #3]
	rev	w13, w12
	csel	w12, w12, w13, ne
	mul	x12, x14, x12
	orr	x12, x12, #0x4
	subs	x8, x8, x12
	b.lo	LBB51_298
	subs	w9, w9, #1
	add	x10, x10, x12
	b.ne	LBB51_108
LBB51_111:
	mov	w4, wzr
LBB51_112:
	bl	_ZN7wkb_raw6erased10wkb_bounds4scan17rings_bounds_into17hcf84af8976603406E
	mov	w12, wzr
	b	LBB51_299
LBB51_113:
	mov	w10, #6
	movk	w10, #8192, lsl #16
	cmp	w8, w10
	b.eq	LBB51_154
	mov	w10, #7
	movk	w10, #8192, lsl #16
	cmp	w8, w10
	b.eq	LBB51_298
	b	LBB51_135
LBB51_115:
	cmp	w8, #6
	b.eq	LBB51_260
	cmp	w8, #7
	b.eq	LBB51_298
LBB51_117:
	sub	w10, w8, #1001
	cmp	w10, #7
	b.hs	LBB51_122
	cmp	w8, #1003
	mov	w2, #1
	b.gt	LBB51_127
	cmp	w8, #1001
	b.eq	LBB51_234
	cmp	w8, #1002
	b.eq	LBB51_225
	cmp	w8, #1003
	b.eq	LBB51_105
	b	LBB51_298
LBB51_122:
	sub	w10, w8, #2001
	cmp	w10, #7
	b.hs	LBB51_130
	cmp	w8, #2003
	mov	w2, #2
	b.gt	LBB51_235
	cmp	w8, #2001
	b.eq	LBB51_234
	cmp	w8, #2002
	b.eq	LBB51_225
	cmp	w8, #2003
	b.eq	LBB51_105
	b	LBB51_298
LBB51_127:
	cmp	w8, #1004
	b.eq	LBB51_296
	cmp	w8, #1005
	b.eq	LBB51_63
	cmp	w8, #1006
	b.eq	LBB51_260
	b	LBB51_298
LBB51_130:
	sub	w10, w8, #3001
	cmp	w10, #7
	b.hs	LBB51_135
	cmp	w8, #3003
	mov	w2, #3
	b.gt	LBB51_257
	cmp	w8, #3001
	b.eq	LBB51_328
	cmp	w8, #3002
	b.eq	LBB51_225
	cmp	w8, #3003
	b.eq	LBB51_105
	b	LBB51_298
LBB51_135:
	cbz	w9, LBB51_138
	cmp	w9, #1
	b.ne	LBB51_298
	mov	w3, #1
	cmp	x1, #5
	b.hs	LBB51_139
	b	LBB51_298
LBB51_138:
	mov	w3, wzr
	cmp	x1, #5
	b.lo	LBB51_298
LBB51_139:
	ldur	w8, [x0, #1]
	cmp	w3, #0
	mov	w12, #-536870912
	rev	w9, w8
	csel	w11, w8, w9, ne
	mov	w9, #-1073741824
	ubfx	w8, w11, #30, #1
	and	w10, w11, #0x7fffffff
	add	w9, w10, w9
	cmp	w8, #0
	csel	w9, w10, w9, eq
	lsr	w8, w9, #29
	add	w12, w9, w12
	cmp	w8, #0
	csel	w12, w12, w9, ne
	cmp	w12, #3999
	b.hi	LBB51_298
	mov	w9, #35128
	mov	w13, #1000
	movk	w9, #65, lsl #16
	umull	x9, w12, w9
	lsr	x9, x9, #32
	msub	w9, w9, w13, w12
	sub	w13, w9, #1
	cmp	w13, #7
	b.hs	LBB51_298
	tbnz	w11, #31, LBB51_144
	mov	w11, #19923
	lsr	w10, w10, #30
	movk	w11, #4194, lsl #16
	umull	x11, w12, w11
	lsr	x2, x11, #38
	cbz	w10, LBB51_145
	lsl	w10, w2, #3
	mov	w11, #770
	movk	w11, #770, lsl #16
	lsr	w2, w11, w10
	b	LBB51_145
LBB51_144:
	lsr	w10, w10, #30
	cmp	w12, #2000
	ccmp	w10, #0, #0, lo
	mov	w10, #3
	csinc	w2, w10, wzr, ne
LBB51_145:
	cmp	w9, #3
	b.gt	LBB51_150
	cmp	w9, #1
	b.eq	LBB51_190
	cmp	w9, #2
	b.eq	LBB51_221
	cmp	w9, #3
	b.ne	LBB51_298
	cbnz	w8, LBB51_95
	b	LBB51_105
LBB51_150:
	cmp	w9, #4
	b.eq	LBB51_193
	cmp	w9, #5
	b.eq	LBB51_232
	cmp	w9, #6
	b.ne	LBB51_298
	cbz	w8, LBB51_260
LBB51_154:
	subs	x10, x1, #13
	b.lo	LBB51_298
	ldur	w8, [x0, #9]
	cmp	w3, #0
	rev	w9, w8
	csel	w11, w8, w9, ne
	cbz	w11, LBB51_220
	and	w13, w2, #0xff
	mov	w14, #1000
	mov	w15, w2
	mul	w14, w13, w14
	mov	w12, wzr
	add	x13, x0, #13
	and	x15, x15, #0xff
	orr	w14, w14, #0x3
	str	w14, [sp, #12]
LBB51_157:
	cmp	x10, #5
	b.hs	LBB51_160
	cbz	x10, LBB51_298
	ldrb	w17, [x13]
	b	LBB51_166
LBB51_160:
	ldrb	w17, [x13]
	cmp	w17, #1
	b.eq	LBB51_163
	cbnz	w17, LBB51_166
	ldur	w4, [x13, #1]
	mov	w16, wzr
	rev	w4, w4
	b	LBB51_164
LBB51_163:
	ldur	w4, [x13, #1]
	mov	w16, #1
LBB51_164:
	ldr	w14, [sp, #12]
	cmp	w4, w14
	b.ne	LBB51_166
	mov	w17, #5
	b	LBB51_180
LBB51_166:
	cbz	w17, LBB51_169
	cmp	w17, #1
	b.ne	LBB51_298
	mov	w16, #1
	b	LBB51_170
LBB51_169:
	mov	w16, wzr
LBB51_170:
	cmp	x10, #5
	b.lo	LBB51_298
	ldur	w17, [x13, #1]
	cmp	w16, #0
	mov	w14, #-1073741824
	rev	w4, w17
	csel	w7, w17, w4, ne
	ubfx	w17, w7, #30, #1
	and	w6, w7, #0x7fffffff
	add	w4, w6, w14
	mov	w14, #-536870912
	cmp	w17, #0
	csel	w4, w6, w4, eq
	lsr	w17, w4, #29
	add	w30, w4, w14
	cmp	w17, #0
	csel	w30, w30, w4, ne
	cmp	w30, #3999
	b.hi	LBB51_298
	mov	w14, #35128
	movk	w14, #65, lsl #16
	umull	x4, w30, w14
	mov	w14, #1000
	lsr	x4, x4, #32
	msub	w4, w4, w14, w30
	sub	w14, w4, #1
	cmp	w14, #6
	b.hi	LBB51_298
	tbnz	w7, #31, LBB51_176
	mov	w14, #19923
	lsr	w7, w6, #30
	movk	w14, #4194, lsl #16
	umull	x14, w30, w14
	lsr	x6, x14, #38
	cbz	w7, LBB51_177
	lsl	w14, w6, #3
	mov	w6, #770
	movk	w6, #770, lsl #16
	lsr	w6, w6, w14
	b	LBB51_177
LBB51_176:
	lsr	w14, w6, #30
	cmp	w30, #2000
	ccmp	w14, #0, #0, lo
	mov	w14, #3
	csinc	w6, w14, wzr, ne
LBB51_177:
	cmp	w4, #3
	b.ne	LBB51_298
	and	w14, w6, #0xff
	cmp	w14, w2, uxtb
	b.ne	LBB51_298
	cmp	w17, #0
	mov	w14, #9
	mov	w17, #5
	csel	x17, x14, x17, ne
LBB51_180:
	add	x14, x17, #4
	cmp	x10, x14
	b.lo	LBB51_298
	add	x13, x13, x17
	cmp	w16, #0
	sub	x10, x10, x17
	ldr	w14, [x13], #4
	sub	x10, x10, #4
	rev	w4, w14
	csel	w17, w14, w4, ne
	cbz	w17, LBB51_189
	tbz	w16, #0, LBB51_186
LBB51_183:
	cmp	x10, #4
	b.lo	LBB51_298
	adrp	x16, Lswitch.table.wkb_raw_write.374@PAGE
	add	x16, x16, Lswitch.table.wkb_raw_write.374@PAGEOFF
	ldr	w14, [x13]
	ldr	x16, [x16, x15, lsl #3]
	mul	x14, x16, x14
	orr	x16, x14, #0x4
	subs	x10, x10, x16
	b.lo	LBB51_298
	subs	w17, w17, #1
	add	x13, x13, x16
	b.ne	LBB51_183
	b	LBB51_189
LBB51_186:
	cmp	x10, #4
	b.lo	LBB51_298
	ldr	w14, [x13]
	adrp	x16, Lswitch.table.wkb_raw_write.374@PAGE
	add	x16, x16, Lswitch.table.wkb_raw_write.374@PAGEOFF
	ldr	x16, [x16, x15, lsl #3]
	rev	w14, w14
	mul	x14, x16, x14
	orr	x16, x14, #0x4
	subs	x10, x10, x16
	b.lo	LBB51_298
	subs	w17, w17, #1
	add	x13, x13, x16
	b.ne	LBB51_186
LBB51_189:
	add	w12, w12, #1
	cmp	w12, w11
	b.ne	LBB51_157
	b	LBB51_220
LBB51_190:
	cbz	w8, LBB51_233
	and	w8, w2, #0xff
	sub	w9, w8, #1
	cmp	w9, #2
	b.hs	LBB51_238
	mov	w8, #33
	cmp	x1, x8
	b.lo	LBB51_298
	b	LBB51_240
LBB51_193:
	cbz	w8, LBB51_296
LBB51_194:
	subs	x10, x1, #13
	b.lo	LBB51_298
	ldur	w8, [x0, #9]
	mov	w9, w2
	adrp	x12, Lswitch.table.wkb_raw_write.371@PAGE
	add	x12, x12, Lswitch.table.wkb_raw_write.371@PAGEOFF
	and	x11, x9, #0xff
	cmp	w3, #0
	rev	w9, w8
	ldr	x12, [x12, x11, lsl #3]
	mov	x13, #13
	csel	w11, w8, w9, ne
	madd	x12, x12, x11, x13
	cmp	x1, x12
	b.lo	LBB51_298
	cbz	w11, LBB51_220
	and	w12, w2, #0xff
	mov	w13, #1000
	mov	w14, w2
	mul	w13, w12, w13
	add	x12, x0, #13
	and	x14, x14, #0xff
	orr	w13, w13, #0x1
LBB51_198:
	cmp	x10, #5
	b.hs	LBB51_201
	cbz	x10, LBB51_298
	ldrb	w15, [x12]
	b	LBB51_206
LBB51_201:
	ldrb	w15, [x12]
	cmp	w15, #1
	b.eq	LBB51_204
	cbnz	w15, LBB51_206
	ldur	w16, [x12, #1]
	rev	w16, w16
	b	LBB51_205
LBB51_204:
	ldur	w16, [x12, #1]
LBB51_205:
	cmp	w16, w13
	b.eq	LBB51_218
LBB51_206:
	cbz	w15, LBB51_208
	cmp	w15, #1
	b.ne	LBB51_298
LBB51_208:
	cmp	x10, #5
	b.lo	LBB51_298
	ldur	w16, [x12, #1]
	cmp	w15, #0
	mov	w6, #-536870912
	rev	w17, w16
	csel	w4, w16, w17, ne
	mov	w16, #-1073741824
	ubfx	w15, w4, #30, #1
	and	w17, w4, #0x7fffffff
	add	w16, w17, w16
	cmp	w15, #0
	csel	w16, w17, w16, eq
	lsr	w15, w16, #29
	add	w6, w16, w6
	cmp	w15, #0
	csel	w6, w6, w16, ne
	cmp	w6, #3999
	b.hi	LBB51_298
	mov	w16, #35128
	mov	w7, #1000
	movk	w16, #65, lsl #16
	umull	x16, w6, w16
	lsr	x16, x16, #32
	msub	w16, w16, w7, w6
	sub	w7, w16, #1
	cmp	w7, #6
	b.hi	LBB51_298
	tbnz	w4, #31, LBB51_214
	mov	w4, #19923
	movk	w4, #4194, lsl #16
	umull	x4, w6, w4
	lsr	w6, w17, #30
	lsr	x17, x4, #38
	cbz	w6, LBB51_215
	lsl	w17, w17, #3
	mov	w4, #770
	movk	w4, #770, lsl #16
	lsr	w17, w4, w17
	b	LBB51_215
LBB51_214:
	lsr	w17, w17, #30
	cmp	w6, #2000
	ccmp	w17, #0, #0, lo
	mov	w17, #3
	csinc	w17, w17, wzr, ne
LBB51_215:
	cbnz	w15, LBB51_298
	cmp	w16, #1
	b.ne	LBB51_298
	and	w15, w17, #0xff
	cmp	w15, w2, uxtb
	b.ne	LBB51_298
LBB51_218:
	adrp	x15, Lswitch.table.wkb_raw_write.371@PAGE
	add	x15, x15, Lswitch.table.wkb_raw_write.371@PAGEOFF
	ldr	x15, [x15, x14, lsl #3]
	subs	x10, x10, x15
	b.lo	LBB51_298
	subs	w11, w11, #1
	add	x12, x12, x15
	b.ne	LBB51_198
LBB51_220:
	mov	w10, #9
	b	LBB51_325
LBB51_221:
	cbz	w8, LBB51_225
LBB51_222:
	cmp	x1, #13
	b.lo	LBB51_298
	ldur	w8, [x0, #9]
	mov	w9, w2
	adrp	x11, Lswitch.table.wkb_raw_write.374@PAGE
	add	x11, x11, Lswitch.table.wkb_raw_write.374@PAGEOFF
	and	x10, x9, #0xff
	cmp	w3, #0
	rev	w9, w8
	ldr	x10, [x11, x10, lsl #3]
	mov	x12, #13
	csel	w11, w8, w9, ne
	madd	x10, x10, x11, x12
	cmp	x1, x10
	b.lo	LBB51_298
	mov	w10, #9
	b	LBB51_228
LBB51_225:
	cmp	x1, #9
	b.lo	LBB51_298
	ldur	w8, [x0, #5]
	mov	w9, w2
	adrp	x11, Lswitch.table.wkb_raw_write.374@PAGE
	add	x11, x11, Lswitch.table.wkb_raw_write.374@PAGEOFF
	and	x10, x9, #0xff
	cmp	w3, #0
	rev	w9, w8
	ldr	x10, [x11, x10, lsl #3]
	mov	x12, #9
	csel	w11, w8, w9, ne
	madd	x10, x10, x11, x12
	cmp	x1, x10
	b.lo	LBB51_298
	mov	w10, #5
LBB51_228:
	cmp	w3, #0
	add	x10, x10, #4
	csel	w9, w8, w9, ne
	add	x8, x0, x10
	cmp	w9, #1
	b.ne	LBB51_231
	ldp	q1, q0, [sp, #32]
	mov	w4, #16
	ldr	q2, [sp, #16]
	mov	x14, #-9007199254740991
	cbnz	w3, LBB51_245
LBB51_230:
	ldp	x9, x13, [x8]
	mov	x10, #-4503599627370496
	mov	x15, #9218868437227405312
	mov	w12, wzr
	rev	x11, x9
	rev	x16, x13
	lsl	x9, x11, #1
	cmp	x9, x14
	cset	w9, lo
	csel	x10, x11, x10, lo
	csel	x11, x11, x15, lo
	b	LBB51_246
LBB51_231:
	sub	x4, x1, x10
	mov	w0, w2
	mov	w1, w3
	mov	w2, w9
	mov	x3, x8
	bl	_ZN7wkb_raw6erased10wkb_bounds4scan15run_bounds_into17h553e6883e15adc3fE
	mov	w12, wzr
	b	LBB51_299
LBB51_232:
	cbnz	w8, LBB51_29
	b	LBB51_63
LBB51_233:
	and	w8, w2, #0xff
	sub	w9, w8, #1
	cmp	w9, #2
	b.hs	LBB51_241
LBB51_234:
	mov	w8, #29
	cmp	x1, x8
	b.lo	LBB51_298
	b	LBB51_243
LBB51_235:
	cmp	w8, #2004
	b.eq	LBB51_296
	cmp	w8, #2005
	b.eq	LBB51_63
	cmp	w8, #2006
	b.eq	LBB51_260
	b	LBB51_298
LBB51_238:
	cbnz	w8, LBB51_329
LBB51_239:
	mov	w8, #25
	cmp	x1, x8
	b.lo	LBB51_298
LBB51_240:
	add	x8, x0, #9
	b	LBB51_244
LBB51_241:
	cbnz	w8, LBB51_328
LBB51_242:
	mov	w8, #21
	cmp	x1, x8
	b.lo	LBB51_298
LBB51_243:
	add	x8, x0, #5
LBB51_244:
	ldp	q1, q0, [sp, #32]
	mov	w4, #16
	ldr	q2, [sp, #16]
	mov	x14, #-9007199254740991
	tbz	w3, #0, LBB51_230
LBB51_245:
	ldp	x11, x16, [x8]
	mov	x10, #-4503599627370496
	mov	x12, #9218868437227405312
	lsl	x9, x11, #1
	cmp	x9, x14
	cset	w9, lo
	csel	x10, x11, x10, lo
	csel	x11, x11, x12, lo
	mov	w12, #1
LBB51_246:
	lsl	x13, x16, #1
	mov	x15, #-4503599627370496
	mov	x17, #9218868437227405312
	and	w1, w2, #0xff
	mov	x3, #-9007199254740991
	mov	x0, xzr
	cmp	x13, x14
	cset	w13, lo
	csel	x14, x16, x15, lo
	csel	x16, x16, x17, lo
	cmp	w1, #1
	b.gt	LBB51_251
	cbz	w1, LBB51_249
LBB51_248:
	ldr	x15, [x8, #16]
	cmp	w12, #0
	mov	x1, #9218868437227405312
	rev	x17, x15
	csel	x17, x15, x17, ne
	lsl	x15, x17, #1
	cmp	x15, x3
	mov	x15, #-4503599627370496
	cset	w0, lo
	csel	x15, x17, x15, lo
	csel	x17, x17, x1, lo
LBB51_249:
	and	w1, w2, #0xff
	cmp	w1, #2
	b.hs	LBB51_252
	mov	x8, xzr
	mov	x2, #9218868437227405312
	mov	x1, #-4503599627370496
	b	LBB51_256
LBB51_251:
	cmp	w1, #2
	b.ne	LBB51_248
	b	LBB51_249
LBB51_252:
	b.ne	LBB51_254
	mov	w1, #16
	b	LBB51_255
LBB51_254:
	mov	w1, #24
LBB51_255:
	ldr	x8, [x8, x1]
	cmp	w12, #0
	mov	x2, #9218868437227405312
	rev	x1, x8
	csel	x12, x8, x1, ne
	mov	x1, #-4503599627370496
	lsl	x8, x12, #1
	cmp	x8, x3
	cset	w8, lo
	csel	x1, x12, x1, lo
	csel	x2, x12, x2, lo
LBB51_256:
	mov	w9, w9
	stp	x14, x13, [x5, #32]
	mov	w12, wzr
	stp	x9, x16, [x5, #16]
	ldp	x14, x13, [sp, #88]
	stp	x17, x15, [x5, #48]
	ldp	x16, x15, [sp, #72]
	mov	w17, #96
	stp	x11, x10, [x5]
	stp	x0, x2, [x5, #64]
	stp	x1, x8, [x5, #80]
	b	LBB51_3
LBB51_257:
	cmp	w8, #3004
	b.eq	LBB51_296
	cmp	w8, #3005
	b.eq	LBB51_63
	cmp	w8, #3006
	b.ne	LBB51_298
LBB51_260:
	subs	x10, x1, #9
	b.lo	LBB51_298
	ldur	w8, [x0, #5]
	cmp	w3, #0
	rev	w9, w8
	csel	w11, w8, w9, ne
	cbz	w11, LBB51_324
	and	w13, w2, #0xff
	mov	w14, #1000
	mov	w15, w2
	mul	w14, w13, w14
	mov	w12, wzr
	add	x13, x0, #9
	and	x15, x15, #0xff
	orr	w14, w14, #0x3
	str	w14, [sp, #12]
LBB51_263:
	cmp	x10, #5
	b.hs	LBB51_266
	cbz	x10, LBB51_298
	ldrb	w17, [x13]
	b	LBB51_272
LBB51_266:
	ldrb	w17, [x13]
	cmp	w17, #1
	b.eq	LBB51_269
	cbnz	w17, LBB51_272
	ldur	w4, [x13, #1]
	mov	w16, wzr
	rev	w4, w4
	b	LBB51_270
LBB51_269:
	ldur	w4, [x13, #1]
	mov	w16, #1
LBB51_270:
	ldr	w14, [sp, #12]
	cmp	w4, w14
	b.ne	LBB51_272
	mov	w17, #5
	b	LBB51_286
LBB51_272:
	cbz	w17, LBB51_275
	cmp	w17, #1
	b.ne	LBB51_298
	mov	w16, #1
	b	LBB51_276
LBB51_275:
	mov	w16, wzr
LBB51_276:
	cmp	x10, #5
	b.lo	LBB51_298
	ldur	w17, [x13, #1]
	cmp	w16, #0
	mov	w14, #-1073741824
	rev	w4, w17
	csel	w6, w17, w4, ne
	ubfx	w17, w6, #30, #1
	and	w7, w6, #0x7fffffff
	add	w4, w7, w14
	mov	w14, #-536870912
	cmp	w17, #0
	csel	w4, w7, w4, eq
	lsr	w17, w4, #29
	add	w30, w4, w14
	cmp	w17, #0
	csel	w30, w30, w4, ne
	cmp	w30, #3999
	b.hi	LBB51_298
	mov	w14, #35128
	movk	w14, #65, lsl #16
	umull	x4, w30, w14
	mov	w14, #1000
	lsr	x4, x4, #32
	msub	w4, w4, w14, w30
	sub	w14, w4, #1
	cmp	w14, #6
	b.hi	LBB51_298
	lsr	w7, w7, #30
	tbnz	w6, #31, LBB51_282
	mov	w14, #19923
	movk	w14, #4194, lsl #16
	umull	x14, w30, w14
	lsr	x6, x14, #38
	cbz	w7, LBB51_283
	lsl	w14, w6, #3
	mov	w6, #770
	movk	w6, #770, lsl #16
	lsr	w6, w6, w14
	b	LBB51_283
LBB51_282:
	cmp	w30, #2000
	mov	w14, #3
	ccmp	w7, #0, #0, lo
	csinc	w6, w14, wzr, ne
LBB51_283:
	cmp	w4, #3
	b.ne	LBB51_298
	and	w14, w6, #0xff
	cmp	w14, w2, uxtb
	b.ne	LBB51_298
	cmp	w17, #0
	mov	w14, #9
	mov	w17, #5
	csel	x17, x14, x17, ne
LBB51_286:
	add	x14, x17, #4
	cmp	x10, x14
	b.lo	LBB51_298
	add	x13, x13, x17
	cmp	w16, #0
	sub	x10, x10, x17
	ldr	w14, [x13], #4
	sub	x10, x10, #4
	rev	w4, w14
	csel	w17, w14, w4, ne
	cbz	w17, LBB51_295
	tbz	w16, #0, LBB51_292
LBB51_289:
	cmp	x10, #4
	b.lo	LBB51_298
	adrp	x16, Lswitch.table.wkb_raw_write.374@PAGE
	add	x16, x16, Lswitch.table.wkb_raw_write.374@PAGEOFF
	ldr	w14, [x13]
	ldr	x16, [x16, x15, lsl #3]
	mul	x14, x16, x14
	orr	x16, x14, #0x4
	subs	x10, x10, x16
	b.lo	LBB51_298
	subs	w17, w17, #1
	add	x13, x13, x16
	b.ne	LBB51_289
	b	LBB51_295
LBB51_292:
	cmp	x10, #4
	b.lo	LBB51_298
	ldr	w14, [x13]
	adrp	x16, Lswitch.table.wkb_raw_write.374@PAGE
	add	x16, x16, Lswitch.table.wkb_raw_write.374@PAGEOFF
	ldr	x16, [x16, x15, lsl #3]
	rev	w14, w14
	mul	x14, x16, x14
	orr	x16, x14, #0x4
	subs	x10, x10, x16
	b.lo	LBB51_298
	subs	w17, w17, #1
	add	x13, x13, x16
	b.ne	LBB51_292
LBB51_295:
	add	w12, w12, #1
	cmp	w12, w11
	b.ne	LBB51_263
	b	LBB51_324
LBB51_296:
	subs	x10, x1, #9
	b.lo	LBB51_298
	ldur	w8, [x0, #5]
	mov	w9, w2
	adrp	x12, Lswitch.table.wkb_raw_write.371@PAGE
	add	x12, x12, Lswitch.table.wkb_raw_write.371@PAGEOFF
	and	x11, x9, #0xff
	cmp	w3, #0
	rev	w9, w8
	ldr	x12, [x12, x11, lsl #3]
	mov	x13, #9
	csel	w11, w8, w9, ne
	madd	x12, x12, x11, x13
	cmp	x1, x12
	b.hs	LBB51_300
LBB51_298:
	mov	x2, x5
	bl	_ZN7wkb_raw6erased5wkb_c13column_bounds16bounds_or_status17h88d0952a48bdaeeeE
	tst	w0, #0x1
	csel	w12, w1, wzr, ne
LBB51_299:
	ldp	x14, x13, [sp, #88]
	mov	w17, #96
	ldp	x16, x15, [sp, #72]
	mov	w4, #16
	ldp	q1, q0, [sp, #32]
	ldr	q2, [sp, #16]
	b	LBB51_3
LBB51_300:
	cbz	w11, LBB51_324
	and	w12, w2, #0xff
	mov	w13, #1000
	mov	w14, w2
	mul	w13, w12, w13
	add	x12, x0, #9
	and	x14, x14, #0xff
	orr	w13, w13, #0x1
LBB51_302:
	cmp	x10, #5
	b.hs	LBB51_305
	cbz	x10, LBB51_298
	ldrb	w15, [x12]
	b	LBB51_310
LBB51_305:
	ldrb	w15, [x12]
	cmp	w15, #1
	b.eq	LBB51_308
	cbnz	w15, LBB51_310
	ldur	w16, [x12, #1]
	rev	w16, w16
	b	LBB51_309
LBB51_308:
	ldur	w16, [x12, #1]
LBB51_309:
	cmp	w16, w13
	b.eq	LBB51_322
LBB51_310:
	cbz	w15, LBB51_312
	cmp	w15, #1
	b.ne	LBB51_298
LBB51_312:
	cmp	x10, #5
	b.lo	LBB51_298
	ldur	w16, [x12, #1]
	cmp	w15, #0
	mov	w6, #-536870912
	rev	w17, w16
	csel	w4, w16, w17, ne
	mov	w16, #-1073741824
	ubfx	w15, w4, #30, #1
	and	w17, w4, #0x7fffffff
	add	w16, w17, w16
	cmp	w15, #0
	csel	w16, w17, w16, eq
	lsr	w15, w16, #29
	add	w6, w16, w6
	cmp	w15, #0
	csel	w6, w6, w16, ne
	cmp	w6, #3999
	b.hi	LBB51_298
	mov	w16, #35128
	mov	w7, #1000
	movk	w16, #65, lsl #16
	umull	x16, w6, w16
	lsr	x16, x16, #32
	msub	w16, w16, w7, w6
	sub	w7, w16, #1
	cmp	w7, #6
	b.hi	LBB51_298
	tbnz	w4, #31, LBB51_318
	mov	w4, #19923
	movk	w4, #4194, lsl #16
	umull	x4, w6, w4
	lsr	w6, w17, #30
	lsr	x17, x4, #38
	cbz	w6, LBB51_319
	lsl	w17, w17, #3
	mov	w4, #770
	movk	w4, #770, lsl #16
	lsr	w17, w4, w17
	b	LBB51_319
LBB51_318:
	lsr	w17, w17, #30
	cmp	w6, #2000
	ccmp	w17, #0, #0, lo
	mov	w17, #3
	csinc	w17, w17, wzr, ne
LBB51_319:
	cbnz	w15, LBB51_298
	cmp	w16, #1
	b.ne	LBB51_298
	and	w15, w17, #0xff
	cmp	w15, w2, uxtb
	b.ne	LBB51_298
LBB51_322:
	adrp	x15, Lswitch.table.wkb_raw_write.371@PAGE
	add	x15, x15, Lswitch.table.wkb_raw_write.371@PAGEOFF
	ldr	x15, [x15, x14, lsl #3]
	subs	x10, x10, x15
	b.lo	LBB51_298
	subs	w11, w11, #1
	add	x12, x12, x15
	b.ne	LBB51_302
LBB51_324:
	mov	w10, #5
LBB51_325:
	cmp	w3, #0
	csel	w8, w8, w9, ne
	cmp	w8, #1
	b.ne	LBB51_327
	add	x8, x10, #4
	mov	x2, x5
	sub	x1, x1, x8
	add	x0, x0, x8
	bl	_ZN7wkb_raw6erased10wkb_bounds4scan18member_bounds_into17hb5f17dec8451d087E
	mov	w12, wzr
	b	LBB51_299
LBB51_327:
	mov	x2, x5
	bl	_ZN7wkb_raw6erased10wkb_bounds4scan17front_bounds_into17hf7a37f4f4fd991b8E
	mov	w12, wzr
	b	LBB51_299
LBB51_328:
	mov	w8, #37
	cmp	x1, x8
	b.lo	LBB51_298
	b	LBB51_243
LBB51_329:
	mov	w8, #41
	cmp	x1, x8
	b.lo	LBB51_298
	b	LBB51_240
LBB51_330:
	ldp	x20, x19, [sp, #192]
	ldp	x22, x21, [sp, #176]
	ldp	x24, x23, [sp, #160]
	ldp	x26, x25, [sp, #144]
	ldp	x28, x27, [sp, #128]
	ldp	x29, x30, [sp, #112]
	add	sp, sp, #208
	.cfi_def_cfa_offset 0
	.cfi_restore w19
	.cfi_restore w20
	.cfi_restore w21
	.cfi_restore w22
	.cfi_restore w23
	.cfi_restore w24
	.cfi_restore w25
	.cfi_restore w26
	.cfi_restore w27
	.cfi_restore w28
	.cfi_restore w30
	.cfi_restore w29
	ret
Lfunc_end51:
	.cfi_endproc
	.section	__TEXT,__text,regular,pure_instructions
	.private_extern	_wkb_raw_column_check
	.globl	_wkb_raw_column_check
	.p2align	2
_wkb_raw_column_check:
	.cfi_startproc
	hint	#34
	cbz	x2, LBB52_300
	sub	sp, sp, #176
	.cfi_def_cfa_offset 176
	stp	x29, x30, [sp, #80]
	stp	x28, x27, [sp, #96]
	stp	x26, x25, [sp, #112]
	stp	x24, x23, [sp, #128]
	stp	x22, x21, [sp, #144]
	stp	x20, x19, [sp, #160]
	.cfi_offset w19, -8
	.cfi_offset w20, -16
	.cfi_offset w21, -24
	.cfi_offset w22, -32
	.cfi_offset w23, -40
	.cfi_offset w24, -48
	.cfi_offset w25, -56
	.cfi_offset w26, -64
	.cfi_offset w27, -72
	.cfi_offset w28, -80
	.cfi_offset w30, -88
	.cfi_offset w29, -96
	ldp	x21, x9, [x0, #48]
	mov	x19, x2
	ldp	x22, x10, [x0, #16]
	mov	x20, x1
	ldp	x11, x12, [x0]
	mov	x29, xzr
	ldp	x26, x13, [x0, #32]
	lsr	x28, x9, #3
	lsr	x14, x10, #3
	lsr	x16, x10, #2
	mov	x8, xzr
	and	x25, x9, #0x7
	mov	w24, #16
	stp	x12, x11, [sp, #24]
	stp	x14, x13, [sp, #8]
	str	x16, [sp]
	b	LBB52_4
LBB52_2:
	tst	w9, #0x1
	mov	x23, x8
	cinc	w15, w24, eq
LBB52_3:
	cmp	x29, x19
	mov	x8, x23
	strb	w15, [x20, x27]
	b.eq	LBB52_299
LBB52_4:
	mov	x27, x29
	cbz	x21, LBB52_10
	and	x9, x27, #0x7
	add	x10, x28, x27, lsr #3
	add	x9, x9, x25
	add	x10, x10, x9, lsr #3
	cmp	x10, x21
	b.hs	LBB52_10
	ldrb	w10, [x13, x10]
	and	x9, x9, #0x7
	eor	w10, w10, #0xff
	lsr	w9, w10, w9
	cmp	x26, #4
	add	x29, x27, #1
	b.ne	LBB52_11
LBB52_7:
	cmp	x16, x29
	b.ls	LBB52_2
	ldr	w10, [x22, x27, lsl #2]
	ldr	w11, [x22, x29, lsl #2]
	cmp	w11, w10
	b.lo	LBB52_2
	tbz	w11, #31, LBB52_14
	b	LBB52_2
LBB52_10:
	mov	w9, wzr
	cmp	x26, #4
	add	x29, x27, #1
	b.eq	LBB52_7
LBB52_11:
	cmp	x26, #8
	b.ne	LBB52_2
	cmp	x14, x29
	b.ls	LBB52_2
	ldr	x10, [x22, x27, lsl #3]
	ldr	x11, [x22, x29, lsl #3]
	cmp	x11, x10
	b.lo	LBB52_2
LBB52_14:
	cmp	x12, x11
	b.lo	LBB52_2
	cmp	x11, x8
	csel	x23, x11, x8, hi
	tbz	w9, #0, LBB52_17
	mov	w15, #16
	b	LBB52_3
LBB52_17:
	cmp	x10, x8
	b.hs	LBB52_19
	mov	w15, #17
	b	LBB52_3
LBB52_19:
	ldr	x8, [sp, #32]
	sub	x2, x11, x10
	cmp	x2, #5
	add	x1, x8, x10
	b.hs	LBB52_22
	cmp	x11, x10
	b.eq	LBB52_271
	ldrb	w11, [x1]
	b	LBB52_135
LBB52_22:
	ldrb	w11, [x1]
	cmp	w11, #1
	b.eq	LBB52_58
	cbnz	w11, LBB52_135
	ldur	w8, [x1, #1]
	mov	w9, wzr
	rev	w10, w8
	lsr	w8, w10, #29
	cbz	w8, LBB52_59
LBB52_25:
	mov	w8, #3
	movk	w8, #8192, lsl #16
	cmp	w10, w8
	mov	w8, wzr
	b.le	LBB52_92
	mov	w15, #5
	movk	w15, #8192, lsl #16
	cmp	w10, w15
	b.gt	LBB52_110
	mov	w12, #4
	movk	w12, #8192, lsl #16
	cmp	w10, w12
	b.eq	LBB52_193
	mov	w12, #5
	movk	w12, #8192, lsl #16
	cmp	w10, w12
	b.ne	LBB52_135
LBB52_29:
	subs	x10, x2, #13
	b.lo	LBB52_271
	ldur	w11, [x1, #9]
	cmp	w9, #0
	rev	w12, w11
	csel	w9, w11, w12, ne
	cbz	w9, LBB52_297
	and	w11, w8, #0xff
	mov	w12, #1000
	mov	w13, w8
	mul	w12, w11, w12
	add	x11, x1, #13
	and	x13, x13, #0xff
	orr	w12, w12, #0x2
LBB52_32:
	cmp	x10, #5
	b.hs	LBB52_35
	cbz	x10, LBB52_271
	ldrb	w15, [x11]
	b	LBB52_41
LBB52_35:
	ldrb	w15, [x11]
	cmp	w15, #1
	b.eq	LBB52_38
	cbnz	w15, LBB52_41
	ldur	w16, [x11, #1]
	mov	w14, wzr
	rev	w16, w16
	b	LBB52_39
LBB52_38:
	ldur	w16, [x11, #1]
	mov	w14, #1
LBB52_39:
	cmp	w16, w12
	b.ne	LBB52_41
	mov	w15, #9
	mov	w16, #5
	b	LBB52_55
LBB52_41:
	cbz	w15, LBB52_44
	cmp	w15, #1
	b.ne	LBB52_271
	mov	w14, #1
	b	LBB52_45
LBB52_44:
	mov	w14, wzr
LBB52_45:
	cmp	x10, #5
	b.lo	LBB52_271
	ldur	w15, [x11, #1]
	cmp	w14, #0
	mov	w3, #-536870912
	rev	w16, w15
	csel	w0, w15, w16, ne
	mov	w16, #-1073741824
	ubfx	w15, w0, #30, #1
	and	w17, w0, #0x7fffffff
	add	w16, w17, w16
	cmp	w15, #0
	csel	w16, w17, w16, eq
	lsr	w15, w16, #29
	add	w3, w16, w3
	cmp	w15, #0
	csel	w3, w3, w16, ne
	cmp	w3, #3999
	b.hi	LBB52_271
	mov	w16, #35128
	mov	w4, #1000
	movk	w16, #65, lsl #16
	umull	x16, w3, w16
	lsr	x16, x16, #32
	msub	w16, w16, w4, w3
	sub	w4, w16, #1
	cmp	w4, #6
	b.hi	LBB52_271
	tbnz	w0, #31, LBB52_51
	mov	w0, #19923
	movk	w0, #4194, lsl #16
	umull	x0, w3, w0
	lsr	w3, w17, #30
	lsr	x17, x0, #38
	cbz	w3, LBB52_52
	lsl	w17, w17, #3
	mov	w0, #770
	movk	w0, #770, lsl #16
	lsr	w17, w0, w17
	b	LBB52_52
LBB52_51:
	lsr	w17, w17, #30
	cmp	w3, #2000
	ccmp	w17, #0, #0, lo
	mov	w17, #3
	csinc	w17, w17, wzr, ne
LBB52_52:
	cmp	w16, #2
	b.ne	LBB52_271
	and	w16, w17, #0xff
	cmp	w16, w8, uxtb
	b.ne	LBB52_271
	cmp	w15, #0
	mov	w15, #5
	mov	w17, #9
	csel	x16, x17, x15, ne
	mov	w15, #13
	csel	x15, x15, x17, ne
LBB52_55:
	add	x17, x16, #4
	cmp	x10, x17
	b.lo	LBB52_271
	ldr	w16, [x11, x16]
	cmp	w14, #0
	adrp	x14, Lswitch.table.wkb_raw_write.374@PAGE
	add	x14, x14, Lswitch.table.wkb_raw_write.374@PAGEOFF
	rev	w17, w16
	ldr	x14, [x14, x13, lsl #3]
	csel	w16, w16, w17, ne
	madd	x14, x14, x16, x15
	subs	x10, x10, x14
	b.lo	LBB52_271
	mov	w15, wzr
	subs	x9, x9, #1
	add	x11, x11, x14
	b.ne	LBB52_32
	b	LBB52_272
LBB52_58:
	ldur	w10, [x1, #1]
	mov	w9, #1
	lsr	w8, w10, #29
	cbnz	w8, LBB52_25
LBB52_59:
	cmp	w10, #3
	b.le	LBB52_101
	cmp	w10, #5
	b.gt	LBB52_112
	cmp	w10, #4
	b.eq	LBB52_269
	cmp	w10, #5
	b.ne	LBB52_114
LBB52_63:
	subs	x10, x2, #9
	b.lo	LBB52_271
	ldur	w11, [x1, #5]
	cmp	w9, #0
	rev	w12, w11
	csel	w9, w11, w12, ne
	cbz	w9, LBB52_297
	and	w11, w8, #0xff
	mov	w12, #1000
	mov	w13, w8
	mul	w12, w11, w12
	add	x11, x1, #9
	and	x13, x13, #0xff
	orr	w12, w12, #0x2
LBB52_66:
	cmp	x10, #5
	b.hs	LBB52_69
	cbz	x10, LBB52_271
	ldrb	w15, [x11]
	b	LBB52_75
LBB52_69:
	ldrb	w15, [x11]
	cmp	w15, #1
	b.eq	LBB52_72
	cbnz	w15, LBB52_75
	ldur	w16, [x11, #1]
	mov	w14, wzr
	rev	w16, w16
	b	LBB52_73
LBB52_72:
	ldur	w16, [x11, #1]
	mov	w14, #1
LBB52_73:
	cmp	w16, w12
	b.ne	LBB52_75
	mov	w15, #9
	mov	w16, #5
	b	LBB52_89
LBB52_75:
	cbz	w15, LBB52_78
	cmp	w15, #1
	b.ne	LBB52_271
	mov	w14, #1
	b	LBB52_79
LBB52_78:
	mov	w14, wzr
LBB52_79:
	cmp	x10, #5
	b.lo	LBB52_271
	ldur	w15, [x11, #1]
	cmp	w14, #0
	mov	w3, #-536870912
	rev	w16, w15
	csel	w17, w15, w16, ne
	mov	w16, #-1073741824
	ubfx	w15, w17, #30, #1
	and	w0, w17, #0x7fffffff
	add	w16, w0, w16
	cmp	w15, #0
	csel	w16, w0, w16, eq
	lsr	w15, w16, #29
	add	w3, w16, w3
	cmp	w15, #0
	csel	w3, w3, w16, ne
	cmp	w3, #3999
	b.hi	LBB52_271
	mov	w16, #35128
	mov	w4, #1000
	movk	w16, #65, lsl #16
	umull	x16, w3, w16
	lsr	x16, x16, #32
	msub	w16, w16, w4, w3
	sub	w4, w16, #1
	cmp	w4, #6
	b.hi	LBB52_271
	lsr	w0, w0, #30
	tbnz	w17, #31, LBB52_85
	mov	w17, #19923
	movk	w17, #4194, lsl #16
	umull	x17, w3, w17
	lsr	x17, x17, #38
	cbz	w0, LBB52_86
	lsl	w17, w17, #3
	mov	w0, #770
	movk	w0, #770, lsl #16
	lsr	w17, w0, w17
	b	LBB52_86
LBB52_85:
	cmp	w3, #2000
	mov	w17, #3
	ccmp	w0, #0, #0, lo
	csinc	w17, w17, wzr, ne
LBB52_86:
	cmp	w16, #2
	b.ne	LBB52_271
	and	w16, w17, #0xff
	cmp	w16, w8, uxtb
	b.ne	LBB52_271
	cmp	w15, #0
	mov	w15, #5
	mov	w17, #9
	csel	x16, x17, x15, ne
	mov	w15, #13
	csel	x15, x15, x17, ne
LBB52_89:
	add	x17, x16, #4
	cmp	x10, x17
	b.lo	LBB52_271
	ldr	w16, [x11, x16]
	cmp	w14, #0
	adrp	x14, Lswitch.table.wkb_raw_write.374@PAGE
	add	x14, x14, Lswitch.table.wkb_raw_write.374@PAGEOFF
	rev	w17, w16
	ldr	x14, [x14, x13, lsl #3]
	csel	w16, w16, w17, ne
	madd	x14, x14, x16, x15
	subs	x10, x10, x14
	b.lo	LBB52_271
	mov	w15, wzr
	subs	x9, x9, #1
	add	x11, x11, x14
	b.ne	LBB52_66
	b	LBB52_272
LBB52_92:
	mov	w15, #1
	movk	w15, #8192, lsl #16
	cmp	w10, w15
	b.eq	LBB52_119
	mov	w12, #2
	movk	w12, #8192, lsl #16
	cmp	w10, w12
	b.eq	LBB52_220
	mov	w12, #3
	movk	w12, #8192, lsl #16
	cmp	w10, w12
	b.ne	LBB52_135
LBB52_95:
	subs	x10, x2, #13
	b.lo	LBB52_271
	ldur	w11, [x1, #9]
	cmp	w9, #0
	rev	w12, w11
	csel	w11, w11, w12, ne
	cbz	w11, LBB52_297
	mov	w12, w8
	add	x8, x1, #13
	and	x12, x12, #0xff
LBB52_98:
	cmp	x10, #4
	b.lo	LBB52_271
	ldr	w13, [x8]
	adrp	x15, Lswitch.table.wkb_raw_write.374@PAGE
	add	x15, x15, Lswitch.table.wkb_raw_write.374@PAGEOFF
	cmp	w9, #0
	ldr	x15, [x15, x12, lsl #3]
	rev	w14, w13
	csel	w13, w13, w14, ne
	mul	x13, x15, x13
	orr	x13, x13, #0x4
	subs	x10, x10, x13
	b.lo	LBB52_271
	mov	w15, wzr
	subs	x11, x11, #1
	add	x8, x8, x13
	b.ne	LBB52_98
	b	LBB52_272
LBB52_101:
	cmp	w10, #1
	b.eq	LBB52_120
	cmp	w10, #2
	b.eq	LBB52_222
	cmp	w10, #3
	b.ne	LBB52_114
LBB52_104:
	subs	x10, x2, #9
	b.lo	LBB52_271
	ldur	w11, [x1, #5]
	cmp	w9, #0
	rev	w12, w11
	csel	w11, w11, w12, ne
	cbz	w11, LBB52_297
	mov	w12, w8
	add	x8, x1, #9
	and	x12, x12, #0xff
LBB52_107:
	cmp	x10, #4
	b.lo	LBB52_271
	ldr	w13, [x8]
	adrp	x15, Lswitch.table.wkb_raw_write.374@PAGE
	add	x15, x15, Lswitch.table.wkb_raw_write.374@PAGEOFF
	cmp	w9, #0
	ldr	x15, [x15, x12, lsl #3]
	rev	w14, w13
	csel	w13, w13, w14, ne
	mul	x13, x15, x13
	orr	x13, x13, #0x4
	subs	x10, x10, x13
	b.lo	LBB52_271
	mov	w15, wzr
	subs	x11, x11, #1
	add	x8, x8, x13
	b.ne	LBB52_107
	b	LBB52_272
LBB52_110:
	mov	w12, #6
	movk	w12, #8192, lsl #16
	cmp	w10, w12
	b.eq	LBB52_154
	mov	w8, #7
	movk	w8, #8192, lsl #16
	cmp	w10, w8
	b.eq	LBB52_271
	b	LBB52_135
LBB52_112:
	cmp	w10, #6
	b.eq	LBB52_233
	cmp	w10, #7
	b.eq	LBB52_271
LBB52_114:
	sub	w8, w10, #1001
	cmp	w8, #7
	b.hs	LBB52_122
	cmp	w10, #1003
	mov	w8, #1
	b.gt	LBB52_127
	cmp	w10, #1001
	b.eq	LBB52_229
	cmp	w10, #1002
	b.eq	LBB52_222
	cmp	w10, #1003
	b.eq	LBB52_104
	b	LBB52_271
LBB52_119:
	mov	w8, #25
	cmp	x2, x8
	b.hs	LBB52_297
	b	LBB52_271
LBB52_120:
	mov	w8, #21
LBB52_121:
	cmp	x2, x8
	b.hs	LBB52_297
	b	LBB52_271
LBB52_122:
	sub	w8, w10, #2001
	cmp	w8, #7
	b.hs	LBB52_130
	cmp	w10, #2003
	mov	w8, #2
	b.gt	LBB52_226
	cmp	w10, #2001
	b.eq	LBB52_229
	cmp	w10, #2002
	b.eq	LBB52_222
	cmp	w10, #2003
	b.eq	LBB52_104
	b	LBB52_271
LBB52_127:
	cmp	w10, #1004
	b.eq	LBB52_269
	cmp	w10, #1005
	b.eq	LBB52_63
	cmp	w10, #1006
	b.eq	LBB52_233
	b	LBB52_271
LBB52_130:
	sub	w8, w10, #3001
	cmp	w8, #7
	b.hs	LBB52_135
	cmp	w10, #3003
	mov	w8, #3
	b.gt	LBB52_230
	cmp	w10, #3001
	b.eq	LBB52_298
	cmp	w10, #3002
	b.eq	LBB52_222
	cmp	w10, #3003
	b.eq	LBB52_104
	b	LBB52_271
LBB52_135:
	cbz	w11, LBB52_138
	cmp	w11, #1
	b.ne	LBB52_271
	mov	w9, #1
	cmp	x2, #5
	b.hs	LBB52_139
	b	LBB52_271
LBB52_138:
	mov	w9, wzr
	cmp	x2, #5
	b.lo	LBB52_271
LBB52_139:
	ldur	w8, [x1, #1]
	cmp	w9, #0
	mov	w11, #-1073741824
	mov	w13, #-536870912
	rev	w10, w8
	csel	w12, w8, w10, ne
	ubfx	w10, w12, #30, #1
	and	w8, w12, #0x7fffffff
	add	w11, w8, w11
	cmp	w10, #0
	csel	w11, w8, w11, eq
	lsr	w10, w11, #29
	add	w13, w11, w13
	cmp	w10, #0
	csel	w13, w13, w11, ne
	cmp	w13, #3999
	b.hi	LBB52_271
	mov	w11, #35128
	mov	w14, #1000
	movk	w11, #65, lsl #16
	umull	x11, w13, w11
	lsr	x11, x11, #32
	msub	w11, w11, w14, w13
	sub	w14, w11, #1
	cmp	w14, #6
	b.hi	LBB52_271
	tbnz	w12, #31, LBB52_144
	mov	w12, #19923
	movk	w12, #4194, lsl #16
	umull	x12, w13, w12
	lsr	w13, w8, #30
	lsr	x8, x12, #38
	cbz	w13, LBB52_145
	lsl	w8, w8, #3
	mov	w12, #770
	movk	w12, #770, lsl #16
	lsr	w8, w12, w8
	b	LBB52_145
LBB52_144:
	lsr	w8, w8, #30
	cmp	w13, #2000
	ccmp	w8, #0, #0, lo
	mov	w8, #3
	csinc	w8, w8, wzr, ne
LBB52_145:
	cmp	w11, #3
	b.gt	LBB52_150
	cmp	w11, #1
	b.eq	LBB52_190
	cmp	w11, #2
	b.eq	LBB52_219
	cmp	w11, #3
	b.ne	LBB52_271
	cbnz	w10, LBB52_95
	b	LBB52_104
LBB52_150:
	cmp	w11, #4
	b.eq	LBB52_192
	cmp	w11, #5
	b.eq	LBB52_224
	cmp	w11, #6
	b.ne	LBB52_271
	cbz	w10, LBB52_233
LBB52_154:
	subs	x10, x2, #13
	b.lo	LBB52_271
	ldur	w11, [x1, #9]
	cmp	w9, #0
	rev	w12, w11
	csel	w9, w11, w12, ne
	cbz	w9, LBB52_297
	and	w12, w8, #0xff
	mov	w13, #1000
	mov	w14, w8
	mul	w13, w12, w13
	mov	w11, wzr
	add	x12, x1, #13
	and	x14, x14, #0xff
	orr	w13, w13, #0x3
LBB52_157:
	cmp	x10, #5
	b.hs	LBB52_160
	cbz	x10, LBB52_271
	ldrb	w16, [x12]
	b	LBB52_166
LBB52_160:
	ldrb	w16, [x12]
	cmp	w16, #1
	b.eq	LBB52_163
	cbnz	w16, LBB52_166
	ldur	w17, [x12, #1]
	mov	w15, wzr
	rev	w17, w17
	b	LBB52_164
LBB52_163:
	ldur	w17, [x12, #1]
	mov	w15, #1
LBB52_164:
	cmp	w17, w13
	b.ne	LBB52_166
	mov	w16, #5
	b	LBB52_180
LBB52_166:
	cbz	w16, LBB52_169
	cmp	w16, #1
	b.ne	LBB52_271
	mov	w15, #1
	b	LBB52_170
LBB52_169:
	mov	w15, wzr
LBB52_170:
	cmp	x10, #5
	b.lo	LBB52_271
	ldur	w16, [x12, #1]
	cmp	w15, #0
	mov	w4, #-536870912
	rev	w17, w16
	csel	w3, w16, w17, ne
	mov	w17, #-1073741824
	ubfx	w16, w3, #30, #1
	and	w0, w3, #0x7fffffff
	add	w17, w0, w17
	cmp	w16, #0
	csel	w17, w0, w17, eq
	lsr	w16, w17, #29
	add	w4, w17, w4
	cmp	w16, #0
	csel	w4, w4, w17, ne
	cmp	w4, #3999
	b.hi	LBB52_271
	mov	w17, #35128
	mov	w5, #1000
	movk	w17, #65, lsl #16
	umull	x17, w4, w17
	lsr	x17, x17, #32
	msub	w17, w17, w5, w4
	sub	w5, w17, #1
	cmp	w5, #6
	b.hi	LBB52_271
	tbnz	w3, #31, LBB52_176
	mov	w3, #19923
	movk	w3, #4194, lsl #16
	umull	x3, w4, w3
	lsr	w4, w0, #30
	lsr	x0, x3, #38
	cbz	w4, LBB52_177
	lsl	w0, w0, #3
	mov	w3, #770
	movk	w3, #770, lsl #16
	lsr	w0, w3, w0
	b	LBB52_177
LBB52_176:
	lsr	w0, w0, #30
	cmp	w4, #2000
	ccmp	w0, #0, #0, lo
	mov	w0, #3
	csinc	w0, w0, wzr, ne
LBB52_177:
	cmp	w17, #3
	b.ne	LBB52_271
	and	w17, w0, #0xff
	cmp	w17, w8, uxtb
	b.ne	LBB52_271
	cmp	w16, #0
	mov	w16, #5
	mov	w17, #9
	csel	x16, x17, x16, ne
LBB52_180:
	add	x17, x16, #4
	cmp	x10, x17
	b.lo	LBB52_271
	add	x12, x12, x16
	cmp	w15, #0
	sub	x10, x10, x16
	ldr	w17, [x12], #4
	sub	x10, x10, #4
	rev	w0, w17
	csel	w16, w17, w0, ne
	cbz	w16, LBB52_189
	tbz	w15, #0, LBB52_186
LBB52_183:
	cmp	x10, #4
	b.lo	LBB52_271
	adrp	x17, Lswitch.table.wkb_raw_write.374@PAGE
	add	x17, x17, Lswitch.table.wkb_raw_write.374@PAGEOFF
	ldr	w15, [x12]
	ldr	x17, [x17, x14, lsl #3]
	mul	x15, x17, x15
	orr	x15, x15, #0x4
	subs	x10, x10, x15
	b.lo	LBB52_271
	subs	w16, w16, #1
	add	x12, x12, x15
	b.ne	LBB52_183
	b	LBB52_189
LBB52_186:
	cmp	x10, #4
	b.lo	LBB52_271
	ldr	w15, [x12]
	adrp	x17, Lswitch.table.wkb_raw_write.374@PAGE
	add	x17, x17, Lswitch.table.wkb_raw_write.374@PAGEOFF
	ldr	x17, [x17, x14, lsl #3]
	rev	w15, w15
	mul	x15, x17, x15
	orr	x15, x15, #0x4
	subs	x10, x10, x15
	b.lo	LBB52_271
	subs	w16, w16, #1
	add	x12, x12, x15
	b.ne	LBB52_186
LBB52_189:
	add	w11, w11, #1
	mov	w15, wzr
	cmp	w11, w9
	b.ne	LBB52_157
	b	LBB52_272
LBB52_190:
	and	x8, x8, #0xff
	cbz	w10, LBB52_225
	adrp	x9, Lswitch.table.wkb_raw_same.347@PAGE
	add	x9, x9, Lswitch.table.wkb_raw_same.347@PAGEOFF
	ldr	x8, [x9, x8, lsl #3]
	cmp	x2, x8
	b.lo	LBB52_271
	b	LBB52_297
LBB52_192:
	cbz	w10, LBB52_269
LBB52_193:
	subs	x10, x2, #13
	b.lo	LBB52_271
	ldur	w11, [x1, #9]
	mov	w12, w8
	cmp	w9, #0
	and	x12, x12, #0xff
	adrp	x9, Lswitch.table.wkb_raw_write.371@PAGE
	add	x9, x9, Lswitch.table.wkb_raw_write.371@PAGEOFF
	rev	w13, w11
	ldr	x12, [x9, x12, lsl #3]
	csel	w9, w11, w13, ne
	mov	x11, #13
	madd	x11, x12, x9, x11
	cmp	x2, x11
	b.lo	LBB52_271
	cbz	w9, LBB52_297
	and	w11, w8, #0xff
	mov	w12, #1000
	mov	w13, w8
	mul	w12, w11, w12
	add	x11, x1, #13
	and	x13, x13, #0xff
	orr	w12, w12, #0x1
LBB52_197:
	cmp	x10, #5
	b.hs	LBB52_200
	cbz	x10, LBB52_271
	ldrb	w14, [x11]
	b	LBB52_205
LBB52_200:
	ldrb	w14, [x11]
	cmp	w14, #1
	b.eq	LBB52_203
	cbnz	w14, LBB52_205
	ldur	w15, [x11, #1]
	rev	w15, w15
	b	LBB52_204
LBB52_203:
	ldur	w15, [x11, #1]
LBB52_204:
	cmp	w15, w12
	b.eq	LBB52_217
LBB52_205:
	cbz	w14, LBB52_207
	cmp	w14, #1
	b.ne	LBB52_271
LBB52_207:
	cmp	x10, #5
	b.lo	LBB52_271
	ldur	w15, [x11, #1]
	cmp	w14, #0
	mov	w0, #-536870912
	rev	w16, w15
	csel	w17, w15, w16, ne
	mov	w15, #-1073741824
	ubfx	w14, w17, #30, #1
	and	w16, w17, #0x7fffffff
	add	w15, w16, w15
	cmp	w14, #0
	csel	w15, w16, w15, eq
	lsr	w14, w15, #29
	add	w0, w15, w0
	cmp	w14, #0
	csel	w0, w0, w15, ne
	cmp	w0, #3999
	b.hi	LBB52_271
	mov	w15, #35128
	mov	w3, #1000
	movk	w15, #65, lsl #16
	umull	x15, w0, w15
	lsr	x15, x15, #32
	msub	w15, w15, w3, w0
	sub	w3, w15, #1
	cmp	w3, #6
	b.hi	LBB52_271
	tbnz	w17, #31, LBB52_213
	mov	w17, #19923
	movk	w17, #4194, lsl #16
	umull	x17, w0, w17
	lsr	w0, w16, #30
	lsr	x16, x17, #38
	cbz	w0, LBB52_214
	lsl	w16, w16, #3
	mov	w17, #770
	movk	w17, #770, lsl #16
	lsr	w16, w17, w16
	b	LBB52_214
LBB52_213:
	lsr	w16, w16, #30
	cmp	w0, #2000
	ccmp	w16, #0, #0, lo
	mov	w16, #3
	csinc	w16, w16, wzr, ne
LBB52_214:
	cbnz	w14, LBB52_271
	cmp	w15, #1
	b.ne	LBB52_271
	and	w14, w16, #0xff
	cmp	w14, w8, uxtb
	b.ne	LBB52_271
LBB52_217:
	adrp	x14, Lswitch.table.wkb_raw_write.371@PAGE
	add	x14, x14, Lswitch.table.wkb_raw_write.371@PAGEOFF
	ldr	x14, [x14, x13, lsl #3]
	subs	x10, x10, x14
	b.lo	LBB52_271
	mov	w15, wzr
	subs	x9, x9, #1
	add	x11, x11, x14
	b.ne	LBB52_197
	b	LBB52_272
LBB52_219:
	cbz	w10, LBB52_222
LBB52_220:
	cmp	x2, #13
	b.lo	LBB52_271
	ldur	w10, [x1, #9]
	cmp	w9, #0
	adrp	x9, Lswitch.table.wkb_raw_write.374@PAGE
	add	x9, x9, Lswitch.table.wkb_raw_write.374@PAGEOFF
	and	x8, x8, #0xff
	rev	w11, w10
	ldr	x8, [x9, x8, lsl #3]
	csel	w9, w10, w11, ne
	mov	x10, #13
	madd	x8, x8, x9, x10
	cmp	x2, x8
	b.hs	LBB52_297
	b	LBB52_271
LBB52_222:
	cmp	x2, #9
	b.lo	LBB52_271
	ldur	w10, [x1, #5]
	cmp	w9, #0
	adrp	x9, Lswitch.table.wkb_raw_write.374@PAGE
	add	x9, x9, Lswitch.table.wkb_raw_write.374@PAGEOFF
	and	x8, x8, #0xff
	rev	w11, w10
	ldr	x8, [x9, x8, lsl #3]
	csel	w9, w10, w11, ne
	mov	x10, #9
	madd	x8, x8, x9, x10
	cmp	x2, x8
	b.hs	LBB52_297
	b	LBB52_271
LBB52_224:
	cbnz	w10, LBB52_29
	b	LBB52_63
LBB52_225:
	adrp	x9, Lswitch.table.wkb_raw_write.371@PAGE
	add	x9, x9, Lswitch.table.wkb_raw_write.371@PAGEOFF
	ldr	x8, [x9, x8, lsl #3]
	b	LBB52_121
LBB52_226:
	cmp	w10, #2004
	b.eq	LBB52_269
	cmp	w10, #2005
	b.eq	LBB52_63
	cmp	w10, #2006
	b.eq	LBB52_233
	b	LBB52_271
LBB52_229:
	mov	w8, #29
	b	LBB52_121
LBB52_230:
	cmp	w10, #3004
	b.eq	LBB52_269
	cmp	w10, #3005
	b.eq	LBB52_63
	cmp	w10, #3006
	b.ne	LBB52_271
LBB52_233:
	subs	x10, x2, #9
	b.lo	LBB52_271
	ldur	w11, [x1, #5]
	cmp	w9, #0
	rev	w12, w11
	csel	w9, w11, w12, ne
	cbz	w9, LBB52_297
	and	w12, w8, #0xff
	mov	w13, #1000
	mov	w14, w8
	mul	w13, w12, w13
	mov	w11, wzr
	add	x12, x1, #9
	and	x14, x14, #0xff
	orr	w13, w13, #0x3
LBB52_236:
	cmp	x10, #5
	b.hs	LBB52_239
	cbz	x10, LBB52_271
	ldrb	w16, [x12]
	b	LBB52_245
LBB52_239:
	ldrb	w16, [x12]
	cmp	w16, #1
	b.eq	LBB52_242
	cbnz	w16, LBB52_245
	ldur	w17, [x12, #1]
	mov	w15, wzr
	rev	w17, w17
	b	LBB52_243
LBB52_242:
	ldur	w17, [x12, #1]
	mov	w15, #1
LBB52_243:
	cmp	w17, w13
	b.ne	LBB52_245
	mov	w16, #5
	b	LBB52_259
LBB52_245:
	cbz	w16, LBB52_248
	cmp	w16, #1
	b.ne	LBB52_271
	mov	w15, #1
	b	LBB52_249
LBB52_248:
	mov	w15, wzr
LBB52_249:
	cmp	x10, #5
	b.lo	LBB52_271
	ldur	w16, [x12, #1]
	cmp	w15, #0
	mov	w4, #-536870912
	rev	w17, w16
	csel	w0, w16, w17, ne
	mov	w17, #-1073741824
	ubfx	w16, w0, #30, #1
	and	w3, w0, #0x7fffffff
	add	w17, w3, w17
	cmp	w16, #0
	csel	w17, w3, w17, eq
	lsr	w16, w17, #29
	add	w4, w17, w4
	cmp	w16, #0
	csel	w4, w4, w17, ne
	cmp	w4, #3999
	b.hi	LBB52_271
	mov	w17, #35128
	mov	w5, #1000
	movk	w17, #65, lsl #16
	umull	x17, w4, w17
	lsr	x17, x17, #32
	msub	w17, w17, w5, w4
	sub	w5, w17, #1
	cmp	w5, #6
	b.hi	LBB52_271
	lsr	w3, w3, #30
	tbnz	w0, #31, LBB52_255
	mov	w0, #19923
	movk	w0, #4194, lsl #16
	umull	x0, w4, w0
	lsr	x0, x0, #38
	cbz	w3, LBB52_256
	lsl	w0, w0, #3
	mov	w3, #770
	movk	w3, #770, lsl #16
	lsr	w0, w3, w0
	b	LBB52_256
LBB52_255:
	cmp	w4, #2000
	mov	w0, #3
	ccmp	w3, #0, #0, lo
	csinc	w0, w0, wzr, ne
LBB52_256:
	cmp	w17, #3
	b.ne	LBB52_271
	and	w17, w0, #0xff
	cmp	w17, w8, uxtb
	b.ne	LBB52_271
	cmp	w16, #0
	mov	w16, #5
	mov	w17, #9
	csel	x16, x17, x16, ne
LBB52_259:
	add	x17, x16, #4
	cmp	x10, x17
	b.lo	LBB52_271
	add	x12, x12, x16
	cmp	w15, #0
	sub	x10, x10, x16
	ldr	w17, [x12], #4
	sub	x10, x10, #4
	rev	w0, w17
	csel	w16, w17, w0, ne
	cbz	w16, LBB52_268
	tbz	w15, #0, LBB52_265
LBB52_262:
	cmp	x10, #4
	b.lo	LBB52_271
	adrp	x17, Lswitch.table.wkb_raw_write.374@PAGE
	add	x17, x17, Lswitch.table.wkb_raw_write.374@PAGEOFF
	ldr	w15, [x12]
	ldr	x17, [x17, x14, lsl #3]
	mul	x15, x17, x15
	orr	x15, x15, #0x4
	subs	x10, x10, x15
	b.lo	LBB52_271
	subs	w16, w16, #1
	add	x12, x12, x15
	b.ne	LBB52_262
	b	LBB52_268
LBB52_265:
	cmp	x10, #4
	b.lo	LBB52_271
	ldr	w15, [x12]
	adrp	x17, Lswitch.table.wkb_raw_write.374@PAGE
	add	x17, x17, Lswitch.table.wkb_raw_write.374@PAGEOFF
	ldr	x17, [x17, x14, lsl #3]
	rev	w15, w15
	mul	x15, x17, x15
	orr	x15, x15, #0x4
	subs	x10, x10, x15
	b.lo	LBB52_271
	subs	w16, w16, #1
	add	x12, x12, x15
	b.ne	LBB52_265
LBB52_268:
	add	w11, w11, #1
	mov	w15, wzr
	cmp	w11, w9
	b.ne	LBB52_236
	b	LBB52_272
LBB52_269:
	subs	x10, x2, #9
	b.lo	LBB52_271
	ldur	w11, [x1, #5]
	mov	w12, w8
	cmp	w9, #0
	and	x12, x12, #0xff
	adrp	x9, Lswitch.table.wkb_raw_write.371@PAGE
	add	x9, x9, Lswitch.table.wkb_raw_write.371@PAGEOFF
	rev	w13, w11
	ldr	x12, [x9, x12, lsl #3]
	csel	w9, w11, w13, ne
	mov	x11, #9
	madd	x11, x12, x9, x11
	cmp	x2, x11
	b.hs	LBB52_273
LBB52_271:
	add	x0, sp, #40
	bl	_ZN7wkb_raw6erased7wkb_abi6column9check_row17h3e84d1932f31260dE
	ldp	w8, w9, [sp, #40]
	cmp	w8, #2
	csel	w15, w9, wzr, eq
LBB52_272:
	ldp	x13, x12, [sp, #16]
	ldp	x16, x14, [sp]
	b	LBB52_3
LBB52_273:
	cbz	w9, LBB52_297
	and	w11, w8, #0xff
	mov	w12, #1000
	mov	w13, w8
	mul	w12, w11, w12
	add	x11, x1, #9
	and	x13, x13, #0xff
	orr	w12, w12, #0x1
LBB52_275:
	cmp	x10, #5
	b.hs	LBB52_278
	cbz	x10, LBB52_271
	ldrb	w14, [x11]
	b	LBB52_283
LBB52_278:
	ldrb	w14, [x11]
	cmp	w14, #1
	b.eq	LBB52_281
	cbnz	w14, LBB52_283
	ldur	w15, [x11, #1]
	rev	w15, w15
	b	LBB52_282
LBB52_281:
	ldur	w15, [x11, #1]
LBB52_282:
	cmp	w15, w12
	b.eq	LBB52_295
LBB52_283:
	cbz	w14, LBB52_285
	cmp	w14, #1
	b.ne	LBB52_271
LBB52_285:
	cmp	x10, #5
	b.lo	LBB52_271
	ldur	w15, [x11, #1]
	cmp	w14, #0
	mov	w0, #-536870912
	rev	w16, w15
	csel	w17, w15, w16, ne
	mov	w15, #-1073741824
	ubfx	w14, w17, #30, #1
	and	w16, w17, #0x7fffffff
	add	w15, w16, w15
	cmp	w14, #0
	csel	w15, w16, w15, eq
	lsr	w14, w15, #29
	add	w0, w15, w0
	cmp	w14, #0
	csel	w0, w0, w15, ne
	cmp	w0, #3999
	b.hi	LBB52_271
	mov	w15, #35128
	mov	w3, #1000
	movk	w15, #65, lsl #16
	umull	x15, w0, w15
	lsr	x15, x15, #32
	msub	w15, w15, w3, w0
	sub	w3, w15, #1
	cmp	w3, #6
	b.hi	LBB52_271
	tbnz	w17, #31, LBB52_291
	mov	w17, #19923
	movk	w17, #4194, lsl #16
	umull	x17, w0, w17
	lsr	w0, w16, #30
	lsr	x16, x17, #38
	cbz	w0, LBB52_292
	lsl	w16, w16, #3
	mov	w17, #770
	movk	w17, #770, lsl #16
	lsr	w16, w17, w16
	b	LBB52_292
LBB52_291:
	lsr	w16, w16, #30
	cmp	w0, #2000
	ccmp	w16, #0, #0, lo
	mov	w16, #3
	csinc	w16, w16, wzr, ne
LBB52_292:
	cbnz	w14, LBB52_271
	cmp	w15, #1
	b.ne	LBB52_271
	and	w14, w16, #0xff
	cmp	w14, w8, uxtb
	b.ne	LBB52_271
LBB52_295:
	adrp	x14, Lswitch.table.wkb_raw_write.371@PAGE
	add	x14, x14, Lswitch.table.wkb_raw_write.371@PAGEOFF
	ldr	x14, [x14, x13, lsl #3]
	subs	x10, x10, x14
	b.lo	LBB52_271
	mov	w15, wzr
	subs	x9, x9, #1
	add	x11, x11, x14
	b.ne	LBB52_275
	b	LBB52_272
LBB52_297:
	mov	w15, wzr
	b	LBB52_272
LBB52_298:
	mov	w8, #37
	b	LBB52_121
LBB52_299:
	ldp	x20, x19, [sp, #160]
	ldp	x22, x21, [sp, #144]
	ldp	x24, x23, [sp, #128]
	ldp	x26, x25, [sp, #112]
	ldp	x28, x27, [sp, #96]
	ldp	x29, x30, [sp, #80]
	add	sp, sp, #176
	.cfi_def_cfa_offset 0
	.cfi_restore w19
	.cfi_restore w20
	.cfi_restore w21
	.cfi_restore w22
	.cfi_restore w23
	.cfi_restore w24
	.cfi_restore w25
	.cfi_restore w26
	.cfi_restore w27
	.cfi_restore w28
	.cfi_restore w30
	.cfi_restore w29
LBB52_300:
	ret
Lfunc_end52:
	.cfi_endproc
	.section	__TEXT,__text,regular,pure_instructions
	.private_extern	_wkb_raw_column_coordinates
	.globl	_wkb_raw_column_coordinates
	.p2align	2
_wkb_raw_column_coordinates:
	.cfi_startproc
	hint	#34
	stp	x29, x30, [sp, #-96]!
	.cfi_def_cfa_offset 96
	stp	x28, x27, [sp, #16]
	stp	x26, x25, [sp, #32]
	stp	x24, x23, [sp, #48]
	stp	x22, x21, [sp, #64]
	stp	x20, x19, [sp, #80]
	mov	x29, sp
	.cfi_def_cfa w29, 96
	.cfi_offset w19, -8
	.cfi_offset w20, -16
	.cfi_offset w21, -24
	.cfi_offset w22, -32
	.cfi_offset w23, -40
	.cfi_offset w24, -48
	.cfi_offset w25, -56
	.cfi_offset w26, -64
	.cfi_offset w27, -72
	.cfi_offset w28, -80
	.cfi_offset w30, -88
	.cfi_offset w29, -96
	sub	x9, sp, #320
	and	sp, x9, #0xffffffffffffffe0
	mov	x21, x3
	mov	w23, w1
	cmp	x4, x7
	ldp	x16, x17, [x2]
	csel	x7, x4, x7, lo
	ldp	x30, x1, [x2, #16]
	stp	xzr, xzr, [sp, #264]
	ldp	x12, x2, [x2, #32]
	str	xzr, [sp, #280]
	ldp	x15, x13, [x0]
	stp	x16, x17, [sp, #216]
	ldp	x14, x9, [x0, #16]
	stp	x30, x1, [sp, #232]
	stp	x12, x2, [sp, #248]
	ldp	x27, x3, [x0, #32]
	ldp	x22, x10, [x0, #48]
	cbz	x7, LBB53_193
	and	x4, x10, #0x7
	lsr	x10, x10, #3
	mov	x11, #-6148914691236517206
	movk	x11, #43691
	mov	x20, xzr
	mov	x19, xzr
	str	x10, [sp, #208]
	lsr	x10, x9, #3
	lsr	x9, x9, #2
	mov	x8, xzr
	mov	w28, #4
	mov	w26, #8
	stp	x9, x10, [sp, #192]
	umulh	x10, x17, x11
	lsr	x11, x17, #2
	lsr	x9, x17, #1
	stp	x11, x9, [sp, #80]
	lsr	x9, x10, #1
	str	x9, [sp, #96]
	b	LBB53_4
LBB53_2:
	tst	w9, #0x1
	mov	w9, #16
	mov	x25, x8
	cinc	w0, w9, eq
LBB53_3:
	ldr	x20, [sp, #280]
	strb	w0, [x6, x19]
	add	x28, x28, #4
	cmp	x7, x24
	str	x20, [x21, x19, lsl #3]
	add	x26, x26, #8
	mov	x19, x24
	mov	x8, x25
	b.eq	LBB53_193
LBB53_4:
	cbz	x22, LBB53_10
	ldr	x10, [sp, #208]
	and	x9, x19, #0x7
	add	x9, x9, x4
	add	x10, x10, x19, lsr #3
	add	x10, x10, x9, lsr #3
	cmp	x10, x22
	b.hs	LBB53_10
	ldrb	w10, [x3, x10]
	and	x9, x9, #0x7
	eor	w10, w10, #0xff
	lsr	w9, w10, w9
	cmp	x27, #4
	add	x24, x19, #1
	b.ne	LBB53_11
LBB53_7:
	ldr	x10, [sp, #192]
	cmp	x10, x24
	b.ls	LBB53_2
	add	x11, x14, x28
	ldp	w10, w11, [x11, #-4]
	cmp	w11, w10
	b.lo	LBB53_2
	tbz	w11, #31, LBB53_14
	b	LBB53_2
LBB53_10:
	mov	w9, wzr
	cmp	x27, #4
	add	x24, x19, #1
	b.eq	LBB53_7
LBB53_11:
	cmp	x27, #8
	b.ne	LBB53_2
	ldr	x10, [sp, #200]
	cmp	x10, x24
	b.ls	LBB53_2
	add	x11, x14, x26
	ldp	x10, x11, [x11, #-8]
	cmp	x11, x10
	b.lo	LBB53_2
LBB53_14:
	cmp	x13, x11
	b.lo	LBB53_2
	cmp	x11, x8
	csel	x25, x11, x8, hi
	tbz	w9, #0, LBB53_17
	mov	w0, #16
	b	LBB53_3
LBB53_17:
	cmp	x10, x8
	b.hs	LBB53_19
	mov	w0, #17
	b	LBB53_3
LBB53_19:
	cmp	w23, #3
	b.hi	LBB53_23
	stp	x4, x1, [sp, #176]
	sub	x1, x11, x10
	add	x0, x15, x10
	cmp	x1, #5
	stp	x17, x5, [sp, #112]
	stp	x12, x15, [sp, #160]
	stp	x14, x13, [sp, #144]
	stp	x7, x3, [sp, #128]
	b.hs	LBB53_24
	cmp	x11, x10
	b.eq	LBB53_156
	ldrb	w9, [x0]
	b	LBB53_72
LBB53_23:
	mov	w0, #3
	b	LBB53_3
LBB53_24:
	ldrb	w9, [x0]
	cmp	w9, #1
	b.eq	LBB53_31
	cbnz	w9, LBB53_72
	ldur	w8, [x0, #1]
	rev	w8, w8
	lsr	w10, w8, #29
	cmp	w10, #0
	cset	w4, ne
	cbz	w10, LBB53_32
LBB53_27:
	mov	w10, #3
	mov	w3, wzr
	movk	w10, #8192, lsl #16
	cmp	w8, w10
	b.le	LBB53_37
	mov	w10, #5
	movk	w10, #8192, lsl #16
	cmp	w8, w10
	b.gt	LBB53_43
	mov	w10, #4
	movk	w10, #8192, lsl #16
	cmp	w8, w10
	b.eq	LBB53_162
	mov	w10, #5
	movk	w10, #8192, lsl #16
	cmp	w8, w10
	b.eq	LBB53_36
	b	LBB53_72
LBB53_31:
	ldur	w8, [x0, #1]
	lsr	w10, w8, #29
	cmp	w10, #0
	cset	w4, ne
	cbnz	w10, LBB53_27
LBB53_32:
	cmp	w8, #3
	mov	w3, wzr
	b.le	LBB53_40
	cmp	w8, #5
	b.gt	LBB53_45
	cmp	w8, #4
	b.eq	LBB53_162
	cmp	w8, #5
	b.ne	LBB53_47
LBB53_36:
	mov	w3, wzr
	mov	w10, #4
	b	LBB53_163
LBB53_37:
	mov	w10, #1
	movk	w10, #8192, lsl #16
	cmp	w8, w10
	b.eq	LBB53_52
	mov	w10, #2
	movk	w10, #8192, lsl #16
	cmp	w8, w10
	b.eq	LBB53_55
	mov	w10, #3
	movk	w10, #8192, lsl #16
	cmp	w8, w10
	b.eq	LBB53_88
	b	LBB53_72
LBB53_40:
	cmp	w8, #1
	b.eq	LBB53_80
	cmp	w8, #2
	b.eq	LBB53_127
	cmp	w8, #3
	b.eq	LBB53_88
	b	LBB53_47
LBB53_43:
	mov	w10, #6
	movk	w10, #8192, lsl #16
	cmp	w8, w10
	b.eq	LBB53_160
	mov	w10, #7
	movk	w10, #8192, lsl #16
	cmp	w8, w10
	b.eq	LBB53_156
	b	LBB53_72
LBB53_45:
	cmp	w8, #6
	b.eq	LBB53_160
	cmp	w8, #7
	b.eq	LBB53_156
LBB53_47:
	sub	w10, w8, #1001
	cmp	w10, #7
	b.hs	LBB53_59
	cmp	w8, #1003
	mov	w3, #1
	b.gt	LBB53_64
	cmp	w8, #1001
	b.eq	LBB53_80
	cmp	w8, #1002
	b.eq	LBB53_126
	cmp	w8, #1003
	b.eq	LBB53_88
	b	LBB53_156
LBB53_52:
	mov	w10, #1
	add	x8, sp, #34
	stp	x30, x16, [sp, #40]
	str	x6, [sp, #56]
	mov	w3, wzr
	strb	w9, [sp, #288]
	sturh	w10, [x8, #255]
	mov	w8, #25
	strb	wzr, [sp, #291]
	str	w10, [sp, #296]
LBB53_53:
	cmp	x1, x8
	b.lo	LBB53_82
	mov	w12, #9
	b	LBB53_94
LBB53_55:
	mov	w8, #257
	add	x10, sp, #34
	mov	w3, wzr
	sturh	w8, [x10, #255]
	mov	w8, #1
	str	x2, [sp, #104]
	strb	w9, [sp, #288]
	strb	wzr, [sp, #291]
	str	w8, [sp, #296]
LBB53_56:
	cmp	x1, #13
	b.lo	LBB53_130
	ldur	w8, [x0, #9]
	mov	w10, w3
	adrp	x12, Lswitch.table.wkb_raw_write.374@PAGE
	add	x12, x12, Lswitch.table.wkb_raw_write.374@PAGEOFF
	and	x10, x10, #0xff
	tst	w9, #0x1
	rev	w11, w8
	ldr	x10, [x12, x10, lsl #3]
	csel	w2, w8, w11, ne
	mov	x8, #13
	madd	x8, x10, x2, x8
	cmp	x1, x8
	b.lo	LBB53_130
	mov	w10, #9
	b	LBB53_132
LBB53_59:
	sub	w10, w8, #2001
	cmp	w10, #7
	b.hs	LBB53_67
	cmp	w8, #2003
	mov	w3, #2
	b.gt	LBB53_123
	cmp	w8, #2001
	b.eq	LBB53_80
	cmp	w8, #2002
	b.eq	LBB53_126
	cmp	w8, #2003
	b.eq	LBB53_88
	b	LBB53_156
LBB53_64:
	cmp	w8, #1004
	b.eq	LBB53_162
	cmp	w8, #1005
	b.eq	LBB53_149
	cmp	w8, #1006
	b.eq	LBB53_160
	b	LBB53_156
LBB53_67:
	sub	w10, w8, #3001
	cmp	w10, #7
	b.hs	LBB53_72
	cmp	w8, #3003
	mov	w3, #3
	b.gt	LBB53_152
	cmp	w8, #3001
	b.eq	LBB53_80
	cmp	w8, #3002
	b.eq	LBB53_126
	cmp	w8, #3003
	b.eq	LBB53_88
	b	LBB53_156
LBB53_72:
	cbz	w9, LBB53_74
	cmp	w9, #1
	b.ne	LBB53_156
LBB53_74:
	cmp	x1, #5
	b.lo	LBB53_156
	ldur	w8, [x0, #1]
	cmp	w9, #0
	mov	w11, #-1073741824
	mov	w12, #-536870912
	rev	w10, w8
	csel	w8, w8, w10, ne
	ubfx	w10, w8, #30, #1
	and	w13, w8, #0x7fffffff
	add	w11, w13, w11
	cmp	w10, #0
	csel	w11, w13, w11, eq
	lsr	w10, w11, #29
	add	w12, w11, w12
	cmp	w10, #0
	csel	w14, w12, w11, ne
	cset	w4, ne
	cmp	w14, #3999
	b.hi	LBB53_156
	mov	w12, #35128
	mov	w15, #1000
	movk	w12, #65, lsl #16
	umull	x12, w14, w12
	lsr	x12, x12, #32
	msub	w12, w12, w15, w14
	sub	w15, w12, #1
	cmp	w15, #7
	b.hs	LBB53_156
	tbnz	w8, #31, LBB53_83
	mov	w15, #19923
	lsr	w13, w13, #30
	movk	w15, #4194, lsl #16
	umull	x14, w14, w15
	lsr	x14, x14, #38
	mov	w3, w14
	cbz	w13, LBB53_84
	lsl	w13, w14, #3
	mov	w14, #770
	movk	w14, #770, lsl #16
	lsr	w3, w14, w13
	b	LBB53_84
LBB53_80:
	add	x8, sp, #34
	stp	x30, x16, [sp, #40]
	sturh	wzr, [x8, #255]
	mov	w8, #1
	str	x6, [sp, #56]
	strb	w9, [sp, #288]
	strb	w3, [sp, #291]
	str	w8, [sp, #296]
LBB53_81:
	and	x8, x3, #0xff
	adrp	x10, Lswitch.table.wkb_raw_write.371@PAGE
	add	x10, x10, Lswitch.table.wkb_raw_write.371@PAGEOFF
	ldr	x8, [x10, x8, lsl #3]
	cmp	x1, x8
	b.hs	LBB53_93
LBB53_82:
	add	x3, sp, #264
	add	x4, sp, #216
	mov	x20, x2
	mov	w2, w23
	bl	_ZN7wkb_raw6erased5wkb_c18column_coordinates15any_levels_into17h04a62653480ba2a5E
	b	LBB53_165
LBB53_83:
	lsr	w13, w13, #30
	cmp	w14, #2000
	ccmp	w13, #0, #0, lo
	mov	w13, #3
	csinc	w3, w13, wzr, ne
LBB53_84:
	cmp	w12, #3
	b.gt	LBB53_89
	cmp	w12, #1
	b.eq	LBB53_110
	cmp	w12, #2
	b.eq	LBB53_115
	cmp	w12, #3
	b.ne	LBB53_156
LBB53_88:
	str	x2, [sp, #104]
	and	w2, w9, #0x1
	add	x7, sp, #216
	stp	x16, x6, [sp, #48]
	add	x6, sp, #264
	mov	w5, w23
	mov	x20, x17
	str	x30, [sp, #40]
	bl	_ZN7wkb_raw6erased5wkb_c18column_coordinates19polygon_levels_into17h7f55bbd3bad0298aE
	ldp	x30, x16, [sp, #40]
	mov	x17, x20
	ldr	x7, [sp, #128]
	ldr	x2, [sp, #104]
	ldr	x6, [sp, #56]
	b	LBB53_157
LBB53_89:
	cmp	w12, #4
	b.eq	LBB53_113
	cmp	w12, #6
	b.eq	LBB53_160
	cmp	w12, #5
	b.ne	LBB53_156
	mov	w10, #4
	b	LBB53_114
LBB53_93:
	mov	w12, #5
LBB53_94:
	ldp	x10, x8, [sp, #264]
	sub	w15, w23, #1
	ldp	x17, x5, [sp, #112]
	ldr	x30, [sp, #40]
	ldp	x16, x6, [sp, #48]
	ldr	x7, [sp, #128]
	adds	x11, x10, #1
	ldp	x4, x1, [sp, #176]
	csinv	x13, x11, xzr, lo
	adds	x11, x8, #1
	csinv	x11, x11, xzr, lo
	adds	x14, x20, #1
	csinv	x14, x14, xzr, lo
	cmp	w15, #2
	ldr	x15, [sp, #96]
	stp	x13, x11, [sp, #264]
	str	x14, [sp, #280]
	b.lo	LBB53_97
	ldr	x15, [sp, #88]
	cbz	w23, LBB53_97
	ldr	x15, [sp, #80]
LBB53_97:
	cmp	x14, x2
	b.hi	LBB53_105
	cmp	x13, x15
	b.hi	LBB53_105
	cmp	x11, x1
	b.hi	LBB53_105
	adrp	x11, Lswitch.table.wkb_raw_column_from_coordinates.278@PAGE
	add	x11, x11, Lswitch.table.wkb_raw_column_from_coordinates.278@PAGEOFF
	add	x12, x0, x12
	ldr	x11, [x11, w23, uxtw #3]
	mul	x11, x11, x10
	add	x13, x16, x11, lsl #3
	tbz	w9, #0, LBB53_106
	ldr	q0, [x12]
	cmp	w23, #1
	str	q0, [x13]
	b.gt	LBB53_116
	cbz	w23, LBB53_190
	and	w14, w3, #0xff
	mov	x9, #9221120237041090560
	cmp	w14, #1
	b.gt	LBB53_167
	mov	w13, #2
	cbnz	w14, LBB53_168
	b	LBB53_189
LBB53_105:
	ldr	x12, [sp, #160]
	mov	w0, #2
	b	LBB53_191
LBB53_106:
	ldr	q0, [x12]
	cmp	w23, #1
	rev64	v0.16b, v0.16b
	str	q0, [x13]
	b.gt	LBB53_120
	cbz	w23, LBB53_190
	and	w14, w3, #0xff
	mov	x9, #9221120237041090560
	cmp	w14, #1
	b.gt	LBB53_169
	mov	w13, #2
	cbnz	w14, LBB53_170
	b	LBB53_189
LBB53_110:
	cmp	w10, #0
	strb	w9, [sp, #288]
	cset	w11, ne
	strb	wzr, [sp, #290]
	strb	w11, [sp, #289]
	mov	w11, #1
	strb	w3, [sp, #291]
	str	w11, [sp, #296]
	str	w8, [sp, #300]
	stp	x16, x6, [sp, #48]
	str	x30, [sp, #40]
	cbz	w10, LBB53_81
	and	w8, w3, #0xff
	sub	w10, w8, #1
	cmp	w10, #2
	b.hs	LBB53_150
	mov	w8, #33
	b	LBB53_53
LBB53_113:
	mov	w10, #3
LBB53_114:
	tst	w11, #0xe0000000
	strb	w9, [sp, #288]
	mov	x20, x2
	cset	w9, ne
	stp	x30, x16, [sp, #40]
	strb	w9, [sp, #289]
	mov	w9, #1
	str	x6, [sp, #56]
	strb	w10, [sp, #290]
	strb	w3, [sp, #291]
	str	w9, [sp, #296]
	str	w8, [sp, #300]
	b	LBB53_164
LBB53_115:
	cmp	w10, #0
	ldr	x15, [sp, #168]
	mov	w12, #1
	cset	w11, ne
	str	x2, [sp, #104]
	strb	w9, [sp, #288]
	strb	w12, [sp, #290]
	strb	w11, [sp, #289]
	strb	w3, [sp, #291]
	str	w12, [sp, #296]
	str	w8, [sp, #300]
	cbnz	w10, LBB53_56
	b	LBB53_128
LBB53_116:
	and	w9, w3, #0xff
	cmp	w23, #2
	b.ne	LBB53_143
	cmp	w9, #2
	b.lo	LBB53_122
	b.ne	LBB53_179
	mov	w9, #16
	b	LBB53_180
LBB53_120:
	and	w9, w3, #0xff
	cmp	w23, #2
	b.ne	LBB53_146
	cmp	w9, #2
	b.hs	LBB53_171
LBB53_122:
	mov	x9, #9221120237041090560
	mov	w13, #2
	b	LBB53_189
LBB53_123:
	cmp	w8, #2004
	b.eq	LBB53_162
	cmp	w8, #2005
	b.eq	LBB53_177
	cmp	w8, #2006
	b.eq	LBB53_160
	b	LBB53_156
LBB53_126:
	ldr	x15, [sp, #168]
LBB53_127:
	mov	w8, #256
	add	x10, sp, #34
	str	x2, [sp, #104]
	sturh	w8, [x10, #255]
	mov	w8, #1
	strb	w9, [sp, #288]
	strb	w3, [sp, #291]
	str	w8, [sp, #296]
LBB53_128:
	cmp	x1, #9
	b.lo	LBB53_130
	ldur	w8, [x0, #5]
	mov	w10, w3
	adrp	x12, Lswitch.table.wkb_raw_write.374@PAGE
	add	x12, x12, Lswitch.table.wkb_raw_write.374@PAGEOFF
	and	x10, x10, #0xff
	tst	w9, #0x1
	rev	w11, w8
	ldr	x10, [x12, x10, lsl #3]
	csel	w2, w8, w11, ne
	mov	x8, #9
	madd	x8, x10, x2, x8
	cmp	x1, x8
	b.hs	LBB53_131
LBB53_130:
	add	x3, sp, #264
	add	x4, sp, #216
	mov	w2, w23
	str	w23, [sp, #72]
	mov	x23, x16
	mov	x20, x30
	str	x21, [sp, #64]
	mov	x21, x6
	bl	_ZN7wkb_raw6erased5wkb_c18column_coordinates15any_levels_into17h04a62653480ba2a5E
	ldp	x5, x7, [sp, #120]
	mov	x16, x23
	ldp	x12, x15, [sp, #160]
	mov	x6, x21
	ldp	x2, x17, [sp, #104]
	mov	x30, x20
	ldr	x21, [sp, #64]
	ldr	w23, [sp, #72]
	b	LBB53_158
LBB53_131:
	mov	w10, #5
LBB53_132:
	ldp	x8, x12, [sp, #264]
	sub	w13, w23, #1
	ldr	x4, [sp, #176]
	stp	x12, x8, [sp, #64]
	adds	x8, x8, x2
	csinv	x11, x8, xzr, lo
	adds	x8, x12, #1
	csinv	x8, x8, xzr, lo
	adds	x12, x20, #1
	csinv	x12, x12, xzr, lo
	cmp	w13, #2
	ldr	x13, [sp, #96]
	stp	x11, x8, [sp, #264]
	str	x12, [sp, #280]
	b.lo	LBB53_135
	ldr	x13, [sp, #88]
	cbz	w23, LBB53_135
	ldr	x13, [sp, #80]
LBB53_135:
	ldr	x14, [sp, #104]
	cmp	x12, x14
	b.hi	LBB53_140
	cmp	x11, x13
	b.hi	LBB53_140
	ldr	x11, [sp, #184]
	cmp	x8, x11
	b.hi	LBB53_140
	adrp	x12, Lswitch.table.wkb_raw_column_from_coordinates.278@PAGE
	add	x12, x12, Lswitch.table.wkb_raw_column_from_coordinates.278@PAGEOFF
	ldr	x11, [sp, #72]
	ldr	x8, [x12, w23, uxtw #3]
	add	x10, x10, #4
	mov	w13, w2
	stp	x30, x16, [sp, #40]
	mul	x8, x8, x11
	and	w11, w3, #0xff
	str	x6, [sp, #56]
	cmp	w11, w23, uxtb
	str	x13, [sp, #32]
	cset	w11, eq
	and	w11, w11, w9
	tbz	w11, #0, LBB53_141
	ldr	x9, [x12, w23, uxtw #3]
	add	x0, x0, x10
	mov	x2, x16
	mov	x3, x8
	mul	x1, x9, x13
	bl	_ZN7wkb_raw6erased7wkb_abi12level_slices9lay_words17h891fea4f68a17320E
	b	LBB53_142
LBB53_140:
	ldr	x1, [sp, #184]
	ldr	x12, [sp, #160]
	mov	w0, #2
	ldr	x2, [sp, #104]
	b	LBB53_192
LBB53_141:
	sub	x1, x1, x10
	add	x0, x0, x10
	mov	x4, x3
	and	w3, w9, #0x1
	mov	w5, w23
	mov	x6, x16
	mov	x7, x17
	str	x8, [sp]
	bl	_ZN7wkb_raw6erased7wkb_abi12level_slices20lay_many_coordinates17h7050539c17cbcb44E
LBB53_142:
	ldp	x9, x30, [sp, #32]
	mov	w0, wzr
	ldr	x8, [sp, #72]
	ldp	x17, x5, [sp, #112]
	ldr	x12, [sp, #160]
	ldr	x16, [sp, #48]
	ldr	x1, [sp, #184]
	add	x8, x9, x8
	ldp	x6, x9, [sp, #56]
	str	x8, [x30, x9, lsl #3]
	add	x8, x9, #1
	str	x8, [x12, x20, lsl #3]
	b	LBB53_161
LBB53_143:
	cmp	w9, #1
	b.gt	LBB53_173
	cbz	w9, LBB53_148
	ldr	x9, [x12, #16]
	b	LBB53_182
LBB53_146:
	cmp	w9, #1
	b.gt	LBB53_175
	cbnz	w9, LBB53_181
LBB53_148:
	mov	x9, #9221120237041090560
	str	x9, [x13, #16]
	b	LBB53_188
LBB53_149:
	mov	w10, #4
	mov	w3, #1
	b	LBB53_163
LBB53_150:
	cbnz	w8, LBB53_178
	mov	w8, #25
	b	LBB53_53
LBB53_152:
	cmp	w8, #3004
	b.eq	LBB53_162
	cmp	w8, #3006
	b.eq	LBB53_160
	cmp	w8, #3005
	b.ne	LBB53_156
	mov	w10, #4
	mov	w3, #3
	b	LBB53_163
LBB53_156:
	add	x3, sp, #264
	add	x4, sp, #216
	str	x2, [sp, #104]
	mov	w2, w23
	str	w23, [sp, #72]
	mov	x23, x16
	str	x21, [sp, #64]
	mov	x21, x6
	mov	x20, x30
	bl	_ZN7wkb_raw6erased5wkb_c18column_coordinates15any_levels_into17h04a62653480ba2a5E
	ldp	x2, x17, [sp, #104]
	mov	x16, x23
	ldr	x7, [sp, #128]
	mov	x6, x21
	ldr	x21, [sp, #64]
	ldr	w23, [sp, #72]
	mov	x30, x20
LBB53_157:
	ldp	x12, x15, [sp, #160]
	ldr	x5, [sp, #120]
LBB53_158:
	ldr	x1, [sp, #184]
	ldp	x14, x13, [sp, #144]
	ldr	x3, [sp, #136]
LBB53_159:
	ldr	x4, [sp, #176]
	b	LBB53_3
LBB53_160:
	str	x2, [sp, #104]
	mov	x20, x5
	and	w2, w9, #0x1
	str	x6, [sp, #56]
	add	x6, sp, #264
	add	x7, sp, #216
	mov	w5, w23
	stp	x30, x16, [sp, #40]
	bl	_ZN7wkb_raw6erased5wkb_c18column_coordinates25multi_polygon_levels_into17h98469985e9fe953bE
	ldp	x16, x6, [sp, #48]
	mov	x5, x20
	ldr	x17, [sp, #112]
	ldr	x30, [sp, #40]
	ldr	x1, [sp, #184]
	ldr	x12, [sp, #160]
LBB53_161:
	ldr	x2, [sp, #104]
	b	LBB53_166
LBB53_162:
	mov	w10, #3
LBB53_163:
	tst	w8, #0xe0000000
	mov	x20, x2
	stp	x30, x16, [sp, #40]
	cset	w8, ne
	str	x6, [sp, #56]
	strb	w8, [sp, #289]
	mov	w8, #1
	strb	w9, [sp, #288]
	strb	w10, [sp, #290]
	strb	w3, [sp, #291]
	str	w8, [sp, #296]
LBB53_164:
	add	x2, sp, #288
	add	x4, sp, #264
	add	x5, sp, #216
	mov	w3, w23
	bl	_ZN7wkb_raw6erased5wkb_c18column_coordinates17other_levels_into17h63ea27d5ebeb79afE
LBB53_165:
	ldp	x17, x5, [sp, #112]
	mov	x2, x20
	ldp	x16, x6, [sp, #48]
	ldr	x30, [sp, #40]
	ldr	x1, [sp, #184]
	ldr	x12, [sp, #160]
LBB53_166:
	ldp	x14, x13, [sp, #144]
	ldr	x15, [sp, #168]
	ldp	x7, x3, [sp, #128]
	b	LBB53_159
LBB53_167:
	cmp	w14, #2
	mov	w13, #2
	b.eq	LBB53_189
LBB53_168:
	ldr	x9, [x12, #16]
	mov	w13, #2
	b	LBB53_189
LBB53_169:
	cmp	w14, #2
	mov	w13, #2
	b.eq	LBB53_189
LBB53_170:
	ldr	x9, [x12, #16]
	b	LBB53_185
LBB53_171:
	b.ne	LBB53_183
	mov	w9, #16
	b	LBB53_184
LBB53_173:
	cmp	w9, #2
	b.ne	LBB53_186
	ldr	x9, [x12, #16]
	mov	x12, #9221120237041090560
	str	x12, [x13, #16]
	b	LBB53_188
LBB53_175:
	cmp	w9, #2
	b.ne	LBB53_187
	ldr	x9, [x12, #16]
	mov	x12, #9221120237041090560
	str	x12, [x13, #16]
	rev	x9, x9
	b	LBB53_188
LBB53_177:
	mov	w10, #4
	mov	w3, #2
	b	LBB53_163
LBB53_178:
	mov	w8, #41
	b	LBB53_53
LBB53_179:
	mov	w9, #24
LBB53_180:
	ldr	x9, [x12, x9]
	mov	w13, #2
	b	LBB53_189
LBB53_181:
	ldr	x9, [x12, #16]
	rev	x9, x9
LBB53_182:
	str	x9, [x13, #16]
	mov	x9, #9221120237041090560
	b	LBB53_188
LBB53_183:
	mov	w9, #24
LBB53_184:
	ldr	x9, [x12, x9]
LBB53_185:
	rev	x9, x9
	mov	w13, #2
	b	LBB53_189
LBB53_186:
	ldp	x14, x9, [x12, #16]
	str	x14, [x13, #16]
	b	LBB53_188
LBB53_187:
	ldp	x9, x12, [x12, #16]
	rev	x9, x9
	str	x9, [x13, #16]
	rev	x9, x12
LBB53_188:
	mov	w13, #3
LBB53_189:
	add	x11, x13, x11
	str	x9, [x16, x11, lsl #3]
LBB53_190:
	ldr	x12, [sp, #160]
	mov	w0, wzr
	add	x9, x10, #1
	str	x9, [x30, x8, lsl #3]
	add	x8, x8, #1
	str	x8, [x12, x20, lsl #3]
LBB53_191:
	ldr	x15, [sp, #168]
LBB53_192:
	ldp	x14, x13, [sp, #144]
	ldr	x3, [sp, #136]
	b	LBB53_3
LBB53_193:
	add	x8, sp, #9
	ldur	q0, [x8, #255]
	ldr	x8, [sp, #280]
	str	q0, [x5]
	str	x8, [x5, #16]
	mov	sp, x29
	.cfi_def_cfa wsp, 96
	ldp	x20, x19, [sp, #80]
	ldp	x22, x21, [sp, #64]
	ldp	x24, x23, [sp, #48]
	ldp	x26, x25, [sp, #32]
	ldp	x28, x27, [sp, #16]
	ldp	x29, x30, [sp], #96
	.cfi_def_cfa_offset 0
	.cfi_restore w19
	.cfi_restore w20
	.cfi_restore w21
	.cfi_restore w22
	.cfi_restore w23
	.cfi_restore w24
	.cfi_restore w25
	.cfi_restore w26
	.cfi_restore w27
	.cfi_restore w28
	.cfi_restore w30
	.cfi_restore w29
	ret
Lfunc_end53:
	.cfi_endproc
	.section	__TEXT,__text,regular,pure_instructions
	.private_extern	_wkb_raw_column_found
	.globl	_wkb_raw_column_found
	.p2align	2
_wkb_raw_column_found:
	.cfi_startproc
	hint	#34
	sub	sp, sp, #144
	.cfi_def_cfa_offset 144
	stp	x29, x30, [sp, #48]
	stp	x28, x27, [sp, #64]
	stp	x26, x25, [sp, #80]
	stp	x24, x23, [sp, #96]
	stp	x22, x21, [sp, #112]
	stp	x20, x19, [sp, #128]
	.cfi_offset w19, -8
	.cfi_offset w20, -16
	.cfi_offset w21, -24
	.cfi_offset w22, -32
	.cfi_offset w23, -40
	.cfi_offset w24, -48
	.cfi_offset w25, -56
	.cfi_offset w26, -64
	.cfi_offset w27, -72
	.cfi_offset w28, -80
	.cfi_offset w30, -88
	.cfi_offset w29, -96
	cmp	x2, x4
	csel	x21, x2, x4, lo
	cbz	x21, LBB54_340
	ldp	x22, x9, [x0, #48]
	movi	v0.2d, #0000000000000000
	ldp	x25, x10, [x0, #16]
	mov	x19, x3
	ldp	x11, x12, [x0]
	mov	x20, x1
	ldp	x27, x13, [x0, #32]
	lsr	x29, x9, #3
	lsr	x14, x10, #3
	lsr	x15, x10, #2
	mov	x24, xzr
	mov	x8, xzr
	and	x26, x9, #0x7
	mov	w16, #16
	stp	x13, x12, [sp, #32]
	str	x14, [sp, #24]
	stp	x11, x15, [sp, #8]
LBB54_2:
	mov	x23, x24
	cbz	x22, LBB54_8
	and	x9, x23, #0x7
	add	x10, x29, x23, lsr #3
	add	x9, x9, x26
	add	x10, x10, x9, lsr #3
	cmp	x10, x22
	b.hs	LBB54_8
	ldrb	w10, [x13, x10]
	and	x9, x9, #0x7
	eor	w10, w10, #0xff
	lsr	w9, w10, w9
	add	x2, x20, x23, lsl #6
	cmp	x27, #4
	add	x24, x23, #1
	b.ne	LBB54_9
LBB54_5:
	cmp	x15, x24
	b.ls	LBB54_15
	ldr	w10, [x25, x23, lsl #2]
	ldr	w11, [x25, x24, lsl #2]
	cmp	w11, w10
	b.lo	LBB54_15
	tbz	w11, #31, LBB54_12
	b	LBB54_15
LBB54_8:
	mov	w9, wzr
	add	x2, x20, x23, lsl #6
	cmp	x27, #4
	add	x24, x23, #1
	b.eq	LBB54_5
LBB54_9:
	cmp	x27, #8
	b.ne	LBB54_15
	cmp	x14, x24
	b.ls	LBB54_15
	ldr	x10, [x25, x23, lsl #3]
	ldr	x11, [x25, x24, lsl #3]
	cmp	x11, x10
	b.lo	LBB54_15
LBB54_12:
	cmp	x12, x11
	b.lo	LBB54_15
	cmp	x11, x8
	csel	x28, x11, x8, hi
	tbz	w9, #0, LBB54_18
	mov	w0, #16
	b	LBB54_20
LBB54_15:
	tst	w9, #0x1
	cinc	w0, w16, eq
LBB54_16:
	stp	q0, q0, [x2]
	mov	x28, x8
	stp	q0, q0, [x2, #32]
LBB54_17:
	cmp	x24, x21
	mov	x8, x28
	strb	w0, [x19, x23]
	b.ne	LBB54_2
	b	LBB54_340
LBB54_18:
	cmp	x10, x8
	b.hs	LBB54_21
	mov	w0, #17
LBB54_20:
	mov	x8, x28
	b	LBB54_16
LBB54_21:
	ldr	x8, [sp, #8]
	sub	x1, x11, x10
	cmp	x1, #5
	add	x0, x8, x10
	b.hs	LBB54_24
	cmp	x11, x10
	b.eq	LBB54_306
	ldrb	w11, [x0]
	b	LBB54_138
LBB54_24:
	ldrb	w11, [x0]
	cmp	w11, #1
	b.eq	LBB54_61
	cbnz	w11, LBB54_138
	ldur	w9, [x0, #1]
	mov	w8, wzr
	rev	w10, w9
	lsr	w9, w10, #29
	cbz	w9, LBB54_62
LBB54_27:
	mov	w9, #3
	movk	w9, #8192, lsl #16
	cmp	w10, w9
	mov	w9, wzr
	b.le	LBB54_96
	mov	w16, #5
	movk	w16, #8192, lsl #16
	cmp	w10, w16
	b.gt	LBB54_116
	mov	w12, #4
	movk	w12, #8192, lsl #16
	cmp	w10, w12
	b.eq	LBB54_201
	mov	w12, #5
	movk	w12, #8192, lsl #16
	cmp	w10, w12
	b.ne	LBB54_138
LBB54_31:
	subs	x12, x1, #13
	b.lo	LBB54_306
	ldur	w10, [x0, #9]
	cmp	w8, #0
	rev	w11, w10
	csel	w11, w10, w11, ne
	cbz	w11, LBB54_241
	and	w13, w9, #0xff
	mov	w14, #1000
	mov	w15, w9
	mul	w14, w13, w14
	mov	x10, xzr
	add	x13, x0, #13
	and	x15, x15, #0xff
	mov	x16, x11
	orr	w14, w14, #0x2
LBB54_34:
	cmp	x12, #5
	b.hs	LBB54_37
	cbz	x12, LBB54_306
	ldrb	w3, [x13]
	b	LBB54_43
LBB54_37:
	ldrb	w3, [x13]
	cmp	w3, #1
	b.eq	LBB54_40
	cbnz	w3, LBB54_43
	ldur	w4, [x13, #1]
	mov	w17, wzr
	rev	w4, w4
	b	LBB54_41
LBB54_40:
	ldur	w4, [x13, #1]
	mov	w17, #1
LBB54_41:
	cmp	w4, w14
	b.ne	LBB54_43
	mov	w3, #9
	mov	w4, #5
	b	LBB54_57
LBB54_43:
	cbz	w3, LBB54_46
	cmp	w3, #1
	b.ne	LBB54_306
	mov	w17, #1
	b	LBB54_47
LBB54_46:
	mov	w17, wzr
LBB54_47:
	cmp	x12, #5
	b.lo	LBB54_306
	ldur	w3, [x13, #1]
	cmp	w17, #0
	mov	w7, #-536870912
	rev	w4, w3
	csel	w6, w3, w4, ne
	mov	w4, #-1073741824
	ubfx	w3, w6, #30, #1
	and	w5, w6, #0x7fffffff
	add	w4, w5, w4
	cmp	w3, #0
	csel	w4, w5, w4, eq
	lsr	w3, w4, #29
	add	w7, w4, w7
	cmp	w3, #0
	csel	w7, w7, w4, ne
	cmp	w7, #3999
	b.hi	LBB54_306
	mov	w4, #35128
	mov	w30, #1000
	movk	w4, #65, lsl #16
	umull	x4, w7, w4
	lsr	x4, x4, #32
	msub	w4, w4, w30, w7
	sub	w30, w4, #1
	cmp	w30, #6
	b.hi	LBB54_306
	tbnz	w6, #31, LBB54_53
	mov	w6, #19923
	movk	w6, #4194, lsl #16
	umull	x6, w7, w6
	lsr	w7, w5, #30
	lsr	x5, x6, #38
	cbz	w7, LBB54_54
	lsl	w5, w5, #3
	mov	w6, #770
	movk	w6, #770, lsl #16
	lsr	w5, w6, w5
	b	LBB54_54
LBB54_53:
	lsr	w5, w5, #30
	cmp	w7, #2000
	ccmp	w5, #0, #0, lo
	mov	w5, #3
	csinc	w5, w5, wzr, ne
LBB54_54:
	cmp	w4, #2
	b.ne	LBB54_306
	and	w4, w5, #0xff
	cmp	w4, w9, uxtb
	b.ne	LBB54_306
	cmp	w3, #0
	mov	w3, #9
	mov	w4, #5
	mov	w5, #13
	csel	x4, x3, x4, ne
	csel	x3, x5, x3, ne
LBB54_57:
	add	x5, x4, #4
	cmp	x12, x5
	b.lo	LBB54_306
	ldr	w4, [x13, x4]
	cmp	w17, #0
	adrp	x17, Lswitch.table.wkb_raw_write.374@PAGE
	add	x17, x17, Lswitch.table.wkb_raw_write.374@PAGEOFF
	rev	w5, w4
	ldr	x6, [x17, x15, lsl #3]
	csel	w17, w4, w5, ne
	madd	x3, x6, x17, x3
	subs	x12, x12, x3
	b.lo	LBB54_306
	movi	v0.2d, #0000000000000000
	subs	x16, x16, #1
	add	x10, x10, x17
	add	x13, x13, x3
	b.ne	LBB54_34
	add	x13, x11, #1
	b	LBB54_242
LBB54_61:
	ldur	w10, [x0, #1]
	mov	w8, #1
	lsr	w9, w10, #29
	cbnz	w9, LBB54_27
LBB54_62:
	cmp	w10, #3
	b.le	LBB54_106
	cmp	w10, #5
	b.gt	LBB54_118
	cmp	w10, #4
	b.eq	LBB54_304
	cmp	w10, #5
	b.ne	LBB54_120
LBB54_66:
	subs	x12, x1, #9
	b.lo	LBB54_306
	ldur	w10, [x0, #5]
	cmp	w8, #0
	rev	w11, w10
	csel	w11, w10, w11, ne
	cbz	w11, LBB54_237
	and	w13, w9, #0xff
	mov	w14, #1000
	mov	w15, w9
	mul	w14, w13, w14
	mov	x10, xzr
	add	x13, x0, #9
	and	x15, x15, #0xff
	mov	x16, x11
	orr	w14, w14, #0x2
LBB54_69:
	cmp	x12, #5
	b.hs	LBB54_72
	cbz	x12, LBB54_306
	ldrb	w3, [x13]
	b	LBB54_78
LBB54_72:
	ldrb	w3, [x13]
	cmp	w3, #1
	b.eq	LBB54_75
	cbnz	w3, LBB54_78
	ldur	w4, [x13, #1]
	mov	w17, wzr
	rev	w4, w4
	b	LBB54_76
LBB54_75:
	ldur	w4, [x13, #1]
	mov	w17, #1
LBB54_76:
	cmp	w4, w14
	b.ne	LBB54_78
	mov	w3, #9
	mov	w4, #5
	b	LBB54_92
LBB54_78:
	cbz	w3, LBB54_81
	cmp	w3, #1
	b.ne	LBB54_306
	mov	w17, #1
	b	LBB54_82
LBB54_81:
	mov	w17, wzr
LBB54_82:
	cmp	x12, #5
	b.lo	LBB54_306
	ldur	w3, [x13, #1]
	cmp	w17, #0
	mov	w7, #-536870912
	rev	w4, w3
	csel	w5, w3, w4, ne
	mov	w4, #-1073741824
	ubfx	w3, w5, #30, #1
	and	w6, w5, #0x7fffffff
	add	w4, w6, w4
	cmp	w3, #0
	csel	w4, w6, w4, eq
	lsr	w3, w4, #29
	add	w7, w4, w7
	cmp	w3, #0
	csel	w7, w7, w4, ne
	cmp	w7, #3999
	b.hi	LBB54_306
	mov	w4, #35128
	mov	w30, #1000
	movk	w4, #65, lsl #16
	umull	x4, w7, w4
	lsr	x4, x4, #32
	msub	w4, w4, w30, w7
	sub	w30, w4, #1
	cmp	w30, #6
	b.hi	LBB54_306
	lsr	w6, w6, #30
	tbnz	w5, #31, LBB54_88
	mov	w5, #19923
	movk	w5, #4194, lsl #16
	umull	x5, w7, w5
	lsr	x5, x5, #38
	cbz	w6, LBB54_89
	lsl	w5, w5, #3
	mov	w6, #770
	movk	w6, #770, lsl #16
	lsr	w5, w6, w5
	b	LBB54_89
LBB54_88:
	cmp	w7, #2000
	mov	w5, #3
	ccmp	w6, #0, #0, lo
	csinc	w5, w5, wzr, ne
LBB54_89:
	cmp	w4, #2
	b.ne	LBB54_306
	and	w4, w5, #0xff
	cmp	w4, w9, uxtb
	b.ne	LBB54_306
	cmp	w3, #0
	mov	w3, #9
	mov	w4, #5
	mov	w5, #13
	csel	x4, x3, x4, ne
	csel	x3, x5, x3, ne
LBB54_92:
	add	x5, x4, #4
	cmp	x12, x5
	b.lo	LBB54_306
	ldr	w4, [x13, x4]
	cmp	w17, #0
	adrp	x17, Lswitch.table.wkb_raw_write.374@PAGE
	add	x17, x17, Lswitch.table.wkb_raw_write.374@PAGEOFF
	rev	w5, w4
	ldr	x6, [x17, x15, lsl #3]
	csel	w17, w4, w5, ne
	madd	x3, x6, x17, x3
	subs	x12, x12, x3
	b.lo	LBB54_306
	movi	v0.2d, #0000000000000000
	subs	x16, x16, #1
	add	x10, x10, x17
	add	x13, x13, x3
	b.ne	LBB54_69
	add	x13, x11, #1
	b	LBB54_238
LBB54_96:
	mov	w16, #1
	movk	w16, #8192, lsl #16
	cmp	w10, w16
	b.eq	LBB54_255
	mov	w12, #2
	movk	w12, #8192, lsl #16
	cmp	w10, w12
	b.eq	LBB54_228
	mov	w12, #3
	movk	w12, #8192, lsl #16
	cmp	w10, w12
	b.ne	LBB54_138
LBB54_99:
	subs	x12, x1, #13
	b.lo	LBB54_306
	ldur	w10, [x0, #9]
	cmp	w8, #0
	rev	w11, w10
	csel	w11, w10, w11, ne
	cbz	w11, LBB54_243
	mov	w14, w9
	mov	x10, xzr
	add	x13, x0, #13
	and	x14, x14, #0xff
	mov	x15, x11
LBB54_102:
	cmp	x12, #4
	b.lo	LBB54_306
	ldr	w16, [x13]
	adrp	x3, Lswitch.table.wkb_raw_write.374@PAGE
	add	x3, x3, Lswitch.table.wkb_raw_write.374@PAGEOFF
	cmp	w8, #0
	ldr	x3, [x3, x14, lsl #3]
	rev	w17, w16
	csel	w16, w16, w17, ne
	mul	x17, x3, x16
	orr	x17, x17, #0x4
	subs	x12, x12, x17
	b.lo	LBB54_306
	subs	x15, x15, #1
	add	x10, x10, x16
	add	x13, x13, x17
	b.ne	LBB54_102
	add	x13, x11, #1
	b	LBB54_244
LBB54_106:
	cmp	w10, #1
	b.eq	LBB54_258
	cmp	w10, #2
	b.eq	LBB54_231
	cmp	w10, #3
	b.ne	LBB54_120
LBB54_109:
	subs	x12, x1, #9
	b.lo	LBB54_306
	ldur	w10, [x0, #5]
	cmp	w8, #0
	rev	w11, w10
	csel	w11, w10, w11, ne
	cbz	w11, LBB54_235
	mov	w14, w9
	mov	x10, xzr
	add	x13, x0, #9
	and	x14, x14, #0xff
	mov	x15, x11
LBB54_112:
	cmp	x12, #4
	b.lo	LBB54_306
	ldr	w16, [x13]
	adrp	x3, Lswitch.table.wkb_raw_write.374@PAGE
	add	x3, x3, Lswitch.table.wkb_raw_write.374@PAGEOFF
	cmp	w8, #0
	ldr	x3, [x3, x14, lsl #3]
	rev	w17, w16
	csel	w16, w16, w17, ne
	mul	x17, x3, x16
	orr	x17, x17, #0x4
	subs	x12, x12, x17
	b.lo	LBB54_306
	subs	x15, x15, #1
	add	x10, x10, x16
	add	x13, x13, x17
	b.ne	LBB54_112
	add	x13, x11, #1
	b	LBB54_236
LBB54_116:
	mov	w12, #6
	movk	w12, #8192, lsl #16
	cmp	w10, w12
	b.eq	LBB54_157
	mov	w8, #7
	movk	w8, #8192, lsl #16
	cmp	w10, w8
	b.eq	LBB54_306
	b	LBB54_138
LBB54_118:
	cmp	w10, #6
	b.eq	LBB54_264
	cmp	w10, #7
	b.eq	LBB54_306
LBB54_120:
	sub	w9, w10, #1001
	cmp	w9, #7
	b.hs	LBB54_125
	cmp	w10, #1003
	mov	w9, #1
	b.gt	LBB54_130
	cmp	w10, #1001
	b.eq	LBB54_247
	cmp	w10, #1002
	b.eq	LBB54_231
	cmp	w10, #1003
	b.eq	LBB54_109
	b	LBB54_306
LBB54_125:
	sub	w9, w10, #2001
	cmp	w9, #7
	b.hs	LBB54_133
	cmp	w10, #2003
	mov	w9, #2
	b.gt	LBB54_248
	cmp	w10, #2001
	b.eq	LBB54_247
	cmp	w10, #2002
	b.eq	LBB54_231
	cmp	w10, #2003
	b.eq	LBB54_109
	b	LBB54_306
LBB54_130:
	cmp	w10, #1004
	b.eq	LBB54_304
	cmp	w10, #1005
	b.eq	LBB54_66
	cmp	w10, #1006
	b.eq	LBB54_264
	b	LBB54_306
LBB54_133:
	sub	w9, w10, #3001
	cmp	w9, #7
	b.hs	LBB54_138
	cmp	w10, #3003
	mov	w9, #3
	b.gt	LBB54_261
	cmp	w10, #3001
	b.eq	LBB54_338
	cmp	w10, #3002
	b.eq	LBB54_231
	cmp	w10, #3003
	b.eq	LBB54_109
	b	LBB54_306
LBB54_138:
	cbz	w11, LBB54_141
	cmp	w11, #1
	b.ne	LBB54_306
	mov	w8, #1
	cmp	x1, #5
	b.hs	LBB54_142
	b	LBB54_306
LBB54_141:
	mov	w8, wzr
	cmp	x1, #5
	b.lo	LBB54_306
LBB54_142:
	ldur	w9, [x0, #1]
	cmp	w8, #0
	mov	w11, #-1073741824
	mov	w13, #-536870912
	rev	w10, w9
	csel	w12, w9, w10, ne
	ubfx	w10, w12, #30, #1
	and	w9, w12, #0x7fffffff
	add	w11, w9, w11
	cmp	w10, #0
	csel	w11, w9, w11, eq
	lsr	w10, w11, #29
	add	w13, w11, w13
	cmp	w10, #0
	csel	w13, w13, w11, ne
	cmp	w13, #3999
	b.hi	LBB54_306
	mov	w11, #35128
	mov	w14, #1000
	movk	w11, #65, lsl #16
	umull	x11, w13, w11
	lsr	x11, x11, #32
	msub	w11, w11, w14, w13
	sub	w14, w11, #1
	cmp	w14, #7
	b.hs	LBB54_306
	tbnz	w12, #31, LBB54_147
	mov	w12, #19923
	movk	w12, #4194, lsl #16
	umull	x12, w13, w12
	lsr	w13, w9, #30
	lsr	x12, x12, #38
	mov	w9, w12
	cbz	w13, LBB54_148
	lsl	w9, w12, #3
	mov	w12, #770
	movk	w12, #770, lsl #16
	lsr	w9, w12, w9
	b	LBB54_148
LBB54_147:
	lsr	w9, w9, #30
	cmp	w13, #2000
	ccmp	w9, #0, #0, lo
	mov	w9, #3
	csinc	w9, w9, wzr, ne
LBB54_148:
	cmp	w11, #3
	b.gt	LBB54_153
	cmp	w11, #1
	b.eq	LBB54_197
	cmp	w11, #2
	b.eq	LBB54_227
	cmp	w11, #3
	b.ne	LBB54_306
	cbnz	w10, LBB54_99
	b	LBB54_109
LBB54_153:
	cmp	w11, #4
	b.eq	LBB54_200
	cmp	w11, #5
	b.eq	LBB54_234
	cmp	w11, #6
	b.ne	LBB54_306
	cbz	w10, LBB54_264
LBB54_157:
	subs	x12, x1, #13
	b.lo	LBB54_306
	ldur	w10, [x0, #9]
	cmp	w8, #0
	rev	w11, w10
	csel	w11, w10, w11, ne
	cbz	w11, LBB54_239
	and	w14, w9, #0xff
	mov	w16, #1000
	mov	w17, w9
	mul	w16, w14, w16
	mov	w13, wzr
	mov	x15, xzr
	mov	x10, xzr
	add	x14, x0, #13
	and	x17, x17, #0xff
	orr	w16, w16, #0x3
	str	w16, [sp, #4]
LBB54_160:
	cmp	x12, #5
	b.hs	LBB54_163
	cbz	x12, LBB54_306
	ldrb	w4, [x14]
	b	LBB54_169
LBB54_163:
	ldrb	w4, [x14]
	cmp	w4, #1
	b.eq	LBB54_166
	cbnz	w4, LBB54_169
	ldur	w5, [x14, #1]
	mov	w3, wzr
	rev	w5, w5
	b	LBB54_167
LBB54_166:
	ldur	w5, [x14, #1]
	mov	w3, #1
LBB54_167:
	ldr	w16, [sp, #4]
	cmp	w5, w16
	b.ne	LBB54_169
	mov	w4, #5
	b	LBB54_183
LBB54_169:
	cbz	w4, LBB54_172
	cmp	w4, #1
	b.ne	LBB54_306
	mov	w3, #1
	b	LBB54_173
LBB54_172:
	mov	w3, wzr
LBB54_173:
	cmp	x12, #5
	b.lo	LBB54_306
	ldur	w4, [x14, #1]
	cmp	w3, #0
	mov	w16, #-1073741824
	rev	w5, w4
	csel	w7, w4, w5, ne
	ubfx	w4, w7, #30, #1
	and	w6, w7, #0x7fffffff
	add	w5, w6, w16
	mov	w16, #-536870912
	cmp	w4, #0
	csel	w5, w6, w5, eq
	lsr	w4, w5, #29
	add	w30, w5, w16
	cmp	w4, #0
	csel	w30, w30, w5, ne
	cmp	w30, #3999
	b.hi	LBB54_306
	mov	w16, #35128
	movk	w16, #65, lsl #16
	umull	x5, w30, w16
	mov	w16, #1000
	lsr	x5, x5, #32
	msub	w5, w5, w16, w30
	sub	w16, w5, #1
	cmp	w16, #6
	b.hi	LBB54_306
	tbnz	w7, #31, LBB54_179
	mov	w16, #19923
	lsr	w7, w6, #30
	movk	w16, #4194, lsl #16
	umull	x16, w30, w16
	lsr	x6, x16, #38
	cbz	w7, LBB54_180
	lsl	w16, w6, #3
	mov	w6, #770
	movk	w6, #770, lsl #16
	lsr	w6, w6, w16
	b	LBB54_180
LBB54_179:
	lsr	w16, w6, #30
	cmp	w30, #2000
	ccmp	w16, #0, #0, lo
	mov	w16, #3
	csinc	w6, w16, wzr, ne
LBB54_180:
	cmp	w5, #3
	b.ne	LBB54_306
	and	w16, w6, #0xff
	cmp	w16, w9, uxtb
	b.ne	LBB54_306
	cmp	w4, #0
	mov	w16, #9
	mov	w4, #5
	csel	x4, x16, x4, ne
LBB54_183:
	add	x16, x4, #4
	cmp	x12, x16
	b.lo	LBB54_306
	add	x14, x14, x4
	cmp	w3, #0
	sub	x12, x12, x4
	ldr	w5, [x14], #4
	sub	x12, x12, #4
	rev	w6, w5
	csel	w4, w5, w6, ne
	cbz	w4, LBB54_190
	add	x15, x15, #2
	tbz	w3, #0, LBB54_191
	sub	w16, w5, #1
	add	x15, x15, x16
LBB54_187:
	cmp	x12, #4
	b.lo	LBB54_306
	adrp	x16, Lswitch.table.wkb_raw_write.374@PAGE
	add	x16, x16, Lswitch.table.wkb_raw_write.374@PAGEOFF
	ldr	w3, [x14]
	ldr	x16, [x16, x17, lsl #3]
	mul	x16, x16, x3
	orr	x5, x16, #0x4
	subs	x12, x12, x5
	b.lo	LBB54_306
	subs	w4, w4, #1
	add	x10, x10, x3
	add	x14, x14, x5
	b.ne	LBB54_187
	b	LBB54_195
LBB54_190:
	add	x15, x15, #1
	b	LBB54_195
LBB54_191:
	sub	w16, w6, #1
	add	x15, x15, x16
LBB54_192:
	cmp	x12, #4
	b.lo	LBB54_306
	ldr	w16, [x14]
	adrp	x3, Lswitch.table.wkb_raw_write.374@PAGE
	add	x3, x3, Lswitch.table.wkb_raw_write.374@PAGEOFF
	ldr	x5, [x3, x17, lsl #3]
	rev	w3, w16
	mul	x16, x5, x3
	orr	x5, x16, #0x4
	subs	x12, x12, x5
	b.lo	LBB54_306
	subs	w4, w4, #1
	add	x10, x10, x3
	add	x14, x14, x5
	b.ne	LBB54_192
LBB54_195:
	movi	v0.2d, #0000000000000000
	add	w13, w13, #1
	cmp	w13, w11
	b.ne	LBB54_160
	add	x13, x15, #1
	b	LBB54_240
LBB54_197:
	cbz	w10, LBB54_246
	and	w10, w9, #0xff
	sub	w11, w10, #1
	cmp	w11, #2
	b.hs	LBB54_254
	mov	w12, #33
	cmp	x1, x12
	b.lo	LBB54_306
	b	LBB54_256
LBB54_200:
	cbz	w10, LBB54_304
LBB54_201:
	subs	x11, x1, #13
	b.lo	LBB54_306
	ldur	w10, [x0, #9]
	mov	w12, w9
	adrp	x14, Lswitch.table.wkb_raw_write.371@PAGE
	add	x14, x14, Lswitch.table.wkb_raw_write.371@PAGEOFF
	and	x12, x12, #0xff
	cmp	w8, #0
	rev	w13, w10
	ldr	x12, [x14, x12, lsl #3]
	csel	w10, w10, w13, ne
	mov	x13, #13
	madd	x12, x12, x10, x13
	cmp	x1, x12
	b.lo	LBB54_306
	cbz	w10, LBB54_251
	and	w12, w9, #0xff
	mov	w13, #1000
	mov	w14, w9
	mul	w13, w12, w13
	add	x12, x0, #13
	and	x14, x14, #0xff
	mov	x15, x10
	orr	w13, w13, #0x1
LBB54_205:
	cmp	x11, #5
	b.hs	LBB54_208
	cbz	x11, LBB54_306
	ldrb	w16, [x12]
	b	LBB54_213
LBB54_208:
	ldrb	w16, [x12]
	cmp	w16, #1
	b.eq	LBB54_211
	cbnz	w16, LBB54_213
	ldur	w17, [x12, #1]
	rev	w17, w17
	b	LBB54_212
LBB54_211:
	ldur	w17, [x12, #1]
LBB54_212:
	cmp	w17, w13
	b.eq	LBB54_225
LBB54_213:
	cbz	w16, LBB54_215
	cmp	w16, #1
	b.ne	LBB54_306
LBB54_215:
	cmp	x11, #5
	b.lo	LBB54_306
	ldur	w17, [x12, #1]
	cmp	w16, #0
	mov	w5, #-536870912
	rev	w3, w17
	csel	w4, w17, w3, ne
	mov	w17, #-1073741824
	ubfx	w16, w4, #30, #1
	and	w3, w4, #0x7fffffff
	add	w17, w3, w17
	cmp	w16, #0
	csel	w17, w3, w17, eq
	lsr	w16, w17, #29
	add	w5, w17, w5
	cmp	w16, #0
	csel	w5, w5, w17, ne
	cmp	w5, #3999
	b.hi	LBB54_306
	mov	w17, #35128
	mov	w6, #1000
	movk	w17, #65, lsl #16
	umull	x17, w5, w17
	lsr	x17, x17, #32
	msub	w17, w17, w6, w5
	sub	w6, w17, #1
	cmp	w6, #6
	b.hi	LBB54_306
	tbnz	w4, #31, LBB54_221
	mov	w4, #19923
	movk	w4, #4194, lsl #16
	umull	x4, w5, w4
	lsr	w5, w3, #30
	lsr	x3, x4, #38
	cbz	w5, LBB54_222
	lsl	w3, w3, #3
	mov	w4, #770
	movk	w4, #770, lsl #16
	lsr	w3, w4, w3
	b	LBB54_222
LBB54_221:
	lsr	w3, w3, #30
	cmp	w5, #2000
	ccmp	w3, #0, #0, lo
	mov	w3, #3
	csinc	w3, w3, wzr, ne
LBB54_222:
	cbnz	w16, LBB54_306
	cmp	w17, #1
	b.ne	LBB54_306
	and	w16, w3, #0xff
	cmp	w16, w9, uxtb
	b.ne	LBB54_306
LBB54_225:
	adrp	x16, Lswitch.table.wkb_raw_write.371@PAGE
	add	x16, x16, Lswitch.table.wkb_raw_write.371@PAGEOFF
	ldr	x16, [x16, x14, lsl #3]
	subs	x11, x11, x16
	b.lo	LBB54_306
	movi	v0.2d, #0000000000000000
	subs	x15, x15, #1
	add	x12, x12, x16
	b.ne	LBB54_205
	b	LBB54_252
LBB54_227:
	cbz	w10, LBB54_231
LBB54_228:
	cmp	x1, #13
	b.lo	LBB54_306
	ldur	w10, [x0, #9]
	mov	w11, w9
	adrp	x13, Lswitch.table.wkb_raw_write.374@PAGE
	add	x13, x13, Lswitch.table.wkb_raw_write.374@PAGEOFF
	and	x11, x11, #0xff
	cmp	w8, #0
	rev	w12, w10
	ldr	x11, [x13, x11, lsl #3]
	csel	w10, w10, w12, ne
	mov	x12, #13
	madd	x12, x11, x10, x12
	cmp	x1, x12
	b.lo	LBB54_306
	ldur	w11, [x0, #5]
	cmp	w8, #0
	mov	w15, #1
	mov	w14, #2
	rev	w13, w11
	csel	w16, w11, w13, ne
	mov	w11, w10
	mov	w13, #1
	b	LBB54_245
LBB54_231:
	cmp	x1, #9
	b.lo	LBB54_306
	ldur	w10, [x0, #5]
	mov	w11, w9
	adrp	x13, Lswitch.table.wkb_raw_write.374@PAGE
	add	x13, x13, Lswitch.table.wkb_raw_write.374@PAGEOFF
	and	x11, x11, #0xff
	cmp	w8, #0
	rev	w12, w10
	ldr	x11, [x13, x11, lsl #3]
	csel	w10, w10, w12, ne
	mov	x12, #9
	madd	x12, x11, x10, x12
	cmp	x1, x12
	b.lo	LBB54_306
	mov	w15, wzr
	mov	w14, #2
	mov	w11, w10
	mov	w13, #1
	b	LBB54_332
LBB54_234:
	cbnz	w10, LBB54_31
	b	LBB54_66
LBB54_235:
	mov	x10, xzr
	mov	w13, #1
LBB54_236:
	mov	w15, wzr
	sub	x12, x1, x12
	mov	w14, #3
	b	LBB54_332
LBB54_237:
	mov	x10, xzr
	mov	w13, #1
	movi	v0.2d, #0000000000000000
LBB54_238:
	mov	w15, wzr
	sub	x12, x1, x12
	mov	w14, #5
	mov	w17, #5
	b	LBB54_334
LBB54_239:
	mov	x10, xzr
	mov	w13, #1
	movi	v0.2d, #0000000000000000
LBB54_240:
	ldur	w14, [x0, #5]
	cmp	w8, #0
	sub	x12, x1, x12
	rev	w15, w14
	csel	w16, w14, w15, ne
	mov	w15, #1
	mov	w14, #6
	b	LBB54_253
LBB54_241:
	mov	x10, xzr
	mov	w13, #1
	movi	v0.2d, #0000000000000000
LBB54_242:
	ldur	w14, [x0, #5]
	cmp	w8, #0
	sub	x12, x1, x12
	mov	w15, #1
	rev	w16, w14
	csel	w16, w14, w16, ne
	mov	w14, #5
	b	LBB54_253
LBB54_243:
	mov	x10, xzr
	mov	w13, #1
LBB54_244:
	ldur	w14, [x0, #5]
	cmp	w8, #0
	sub	x12, x1, x12
	mov	w15, #1
	rev	w16, w14
	csel	w16, w14, w16, ne
	mov	w14, #3
LBB54_245:
	mov	w17, #9
	b	LBB54_333
LBB54_246:
	and	w10, w9, #0xff
	sub	w11, w10, #1
	cmp	w11, #2
	b.hs	LBB54_257
LBB54_247:
	mov	w12, #29
	cmp	x1, x12
	b.lo	LBB54_306
	b	LBB54_259
LBB54_248:
	cmp	w10, #2004
	b.eq	LBB54_304
	cmp	w10, #2005
	b.eq	LBB54_66
	cmp	w10, #2006
	b.eq	LBB54_264
	b	LBB54_306
LBB54_251:
	movi	v0.2d, #0000000000000000
LBB54_252:
	ldur	w14, [x0, #5]
	cmp	w8, #0
	add	x13, x10, #1
	sub	x12, x1, x11
	mov	w15, #1
	mov	w11, w10
	rev	w16, w14
	csel	w16, w14, w16, ne
	mov	w14, #4
LBB54_253:
	mov	w17, #9
	b	LBB54_334
LBB54_254:
	cbnz	w10, LBB54_339
LBB54_255:
	mov	w12, #25
	cmp	x1, x12
	b.lo	LBB54_306
LBB54_256:
	ldur	w11, [x0, #5]
	cmp	w8, #0
	mov	w13, #1
	mov	w10, #1
	mov	w15, w13
	mov	w17, #9
	rev	w14, w11
	csel	w16, w11, w14, ne
	mov	w14, w13
	b	LBB54_260
LBB54_257:
	cbnz	w10, LBB54_338
LBB54_258:
	mov	w12, #21
	cmp	x1, x12
	b.lo	LBB54_306
LBB54_259:
	mov	w13, #1
	mov	w15, wzr
	mov	w10, #1
	mov	w14, w13
	mov	w17, #5
LBB54_260:
	mov	w11, #1
	movi	v0.2d, #0000000000000000
	b	LBB54_335
LBB54_261:
	cmp	w10, #3004
	b.eq	LBB54_304
	cmp	w10, #3005
	b.eq	LBB54_66
	cmp	w10, #3006
	b.ne	LBB54_306
LBB54_264:
	subs	x12, x1, #9
	b.lo	LBB54_306
	ldur	w10, [x0, #5]
	cmp	w8, #0
	rev	w11, w10
	csel	w11, w10, w11, ne
	cbz	w11, LBB54_331
	and	w15, w9, #0xff
	mov	w16, #1000
	mov	w17, w9
	mul	w16, w15, w16
	mov	w13, wzr
	mov	x14, xzr
	mov	x10, xzr
	add	x15, x0, #9
	and	x17, x17, #0xff
	orr	w16, w16, #0x3
	str	w16, [sp, #4]
LBB54_267:
	cmp	x12, #5
	b.hs	LBB54_270
	cbz	x12, LBB54_306
	ldrb	w4, [x15]
	b	LBB54_276
LBB54_270:
	ldrb	w4, [x15]
	cmp	w4, #1
	b.eq	LBB54_273
	cbnz	w4, LBB54_276
	ldur	w5, [x15, #1]
	mov	w3, wzr
	rev	w5, w5
	b	LBB54_274
LBB54_273:
	ldur	w5, [x15, #1]
	mov	w3, #1
LBB54_274:
	ldr	w16, [sp, #4]
	cmp	w5, w16
	b.ne	LBB54_276
	mov	w4, #5
	b	LBB54_290
LBB54_276:
	cbz	w4, LBB54_279
	cmp	w4, #1
	b.ne	LBB54_306
	mov	w3, #1
	b	LBB54_280
LBB54_279:
	mov	w3, wzr
LBB54_280:
	cmp	x12, #5
	b.lo	LBB54_306
	ldur	w4, [x15, #1]
	cmp	w3, #0
	mov	w16, #-1073741824
	rev	w5, w4
	csel	w6, w4, w5, ne
	ubfx	w4, w6, #30, #1
	and	w7, w6, #0x7fffffff
	add	w5, w7, w16
	mov	w16, #-536870912
	cmp	w4, #0
	csel	w5, w7, w5, eq
	lsr	w4, w5, #29
	add	w30, w5, w16
	cmp	w4, #0
	csel	w30, w30, w5, ne
	cmp	w30, #3999
	b.hi	LBB54_306
	mov	w16, #35128
	movk	w16, #65, lsl #16
	umull	x5, w30, w16
	mov	w16, #1000
	lsr	x5, x5, #32
	msub	w5, w5, w16, w30
	sub	w16, w5, #1
	cmp	w16, #6
	b.hi	LBB54_306
	lsr	w7, w7, #30
	tbnz	w6, #31, LBB54_286
	mov	w16, #19923
	movk	w16, #4194, lsl #16
	umull	x16, w30, w16
	lsr	x6, x16, #38
	cbz	w7, LBB54_287
	lsl	w16, w6, #3
	mov	w6, #770
	movk	w6, #770, lsl #16
	lsr	w6, w6, w16
	b	LBB54_287
LBB54_286:
	cmp	w30, #2000
	mov	w16, #3
	ccmp	w7, #0, #0, lo
	csinc	w6, w16, wzr, ne
LBB54_287:
	cmp	w5, #3
	b.ne	LBB54_306
	and	w16, w6, #0xff
	cmp	w16, w9, uxtb
	b.ne	LBB54_306
	cmp	w4, #0
	mov	w16, #9
	mov	w4, #5
	csel	x4, x16, x4, ne
LBB54_290:
	add	x16, x4, #4
	cmp	x12, x16
	b.lo	LBB54_306
	add	x15, x15, x4
	cmp	w3, #0
	sub	x12, x12, x4
	ldr	w5, [x15], #4
	sub	x12, x12, #4
	rev	w6, w5
	csel	w4, w5, w6, ne
	cbz	w4, LBB54_297
	add	x14, x14, #2
	tbz	w3, #0, LBB54_298
	sub	w16, w5, #1
	add	x14, x14, x16
LBB54_294:
	cmp	x12, #4
	b.lo	LBB54_306
	adrp	x16, Lswitch.table.wkb_raw_write.374@PAGE
	add	x16, x16, Lswitch.table.wkb_raw_write.374@PAGEOFF
	ldr	w3, [x15]
	ldr	x16, [x16, x17, lsl #3]
	mul	x16, x16, x3
	orr	x5, x16, #0x4
	subs	x12, x12, x5
	b.lo	LBB54_306
	subs	w4, w4, #1
	add	x10, x10, x3
	add	x15, x15, x5
	b.ne	LBB54_294
	b	LBB54_302
LBB54_297:
	add	x14, x14, #1
	b	LBB54_302
LBB54_298:
	sub	w16, w6, #1
	add	x14, x14, x16
LBB54_299:
	cmp	x12, #4
	b.lo	LBB54_306
	ldr	w16, [x15]
	adrp	x3, Lswitch.table.wkb_raw_write.374@PAGE
	add	x3, x3, Lswitch.table.wkb_raw_write.374@PAGEOFF
	ldr	x5, [x3, x17, lsl #3]
	rev	w3, w16
	mul	x16, x5, x3
	orr	x5, x16, #0x4
	subs	x12, x12, x5
	b.lo	LBB54_306
	subs	w4, w4, #1
	add	x10, x10, x3
	add	x15, x15, x5
	b.ne	LBB54_299
LBB54_302:
	movi	v0.2d, #0000000000000000
	add	w13, w13, #1
	cmp	w13, w11
	b.ne	LBB54_267
	mov	w15, wzr
	add	x13, x14, #1
	sub	x12, x1, x12
	mov	w14, #6
	mov	w17, #5
	b	LBB54_334
LBB54_304:
	subs	x10, x1, #9
	b.lo	LBB54_306
	ldur	w11, [x0, #5]
	mov	w12, w9
	adrp	x14, Lswitch.table.wkb_raw_write.371@PAGE
	add	x14, x14, Lswitch.table.wkb_raw_write.371@PAGEOFF
	and	x12, x12, #0xff
	cmp	w8, #0
	rev	w13, w11
	ldr	x12, [x14, x12, lsl #3]
	csel	w11, w11, w13, ne
	mov	x13, #9
	madd	x12, x12, x11, x13
	cmp	x1, x12
	b.hs	LBB54_307
LBB54_306:
	bl	_ZN7wkb_raw6erased5wkb_c12column_found8find_any17hfa16764fde2e1a5cE
	ldp	x13, x12, [sp, #32]
	mov	w16, #16
	ldp	x15, x14, [sp, #16]
	movi	v0.2d, #0000000000000000
	b	LBB54_17
LBB54_307:
	cbz	w11, LBB54_336
	and	w12, w9, #0xff
	mov	w13, #1000
	mov	w14, w9
	mul	w13, w12, w13
	add	x12, x0, #9
	and	x14, x14, #0xff
	mov	x15, x11
	orr	w13, w13, #0x1
LBB54_309:
	cmp	x10, #5
	b.hs	LBB54_312
	cbz	x10, LBB54_306
	ldrb	w16, [x12]
	b	LBB54_317
LBB54_312:
	ldrb	w16, [x12]
	cmp	w16, #1
	b.eq	LBB54_315
	cbnz	w16, LBB54_317
	ldur	w17, [x12, #1]
	rev	w17, w17
	b	LBB54_316
LBB54_315:
	ldur	w17, [x12, #1]
LBB54_316:
	cmp	w17, w13
	b.eq	LBB54_329
LBB54_317:
	cbz	w16, LBB54_319
	cmp	w16, #1
	b.ne	LBB54_306
LBB54_319:
	cmp	x10, #5
	b.lo	LBB54_306
	ldur	w17, [x12, #1]
	cmp	w16, #0
	mov	w5, #-536870912
	rev	w3, w17
	csel	w4, w17, w3, ne
	mov	w17, #-1073741824
	ubfx	w16, w4, #30, #1
	and	w3, w4, #0x7fffffff
	add	w17, w3, w17
	cmp	w16, #0
	csel	w17, w3, w17, eq
	lsr	w16, w17, #29
	add	w5, w17, w5
	cmp	w16, #0
	csel	w5, w5, w17, ne
	cmp	w5, #3999
	b.hi	LBB54_306
	mov	w17, #35128
	mov	w6, #1000
	movk	w17, #65, lsl #16
	umull	x17, w5, w17
	lsr	x17, x17, #32
	msub	w17, w17, w6, w5
	sub	w6, w17, #1
	cmp	w6, #6
	b.hi	LBB54_306
	tbnz	w4, #31, LBB54_325
	mov	w4, #19923
	movk	w4, #4194, lsl #16
	umull	x4, w5, w4
	lsr	w5, w3, #30
	lsr	x3, x4, #38
	cbz	w5, LBB54_326
	lsl	w3, w3, #3
	mov	w4, #770
	movk	w4, #770, lsl #16
	lsr	w3, w4, w3
	b	LBB54_326
LBB54_325:
	lsr	w3, w3, #30
	cmp	w5, #2000
	ccmp	w3, #0, #0, lo
	mov	w3, #3
	csinc	w3, w3, wzr, ne
LBB54_326:
	cbnz	w16, LBB54_306
	cmp	w17, #1
	b.ne	LBB54_306
	and	w16, w3, #0xff
	cmp	w16, w9, uxtb
	b.ne	LBB54_306
LBB54_329:
	adrp	x16, Lswitch.table.wkb_raw_write.371@PAGE
	add	x16, x16, Lswitch.table.wkb_raw_write.371@PAGEOFF
	ldr	x16, [x16, x14, lsl #3]
	subs	x10, x10, x16
	b.lo	LBB54_306
	movi	v0.2d, #0000000000000000
	subs	x15, x15, #1
	add	x12, x12, x16
	b.ne	LBB54_309
	b	LBB54_337
LBB54_331:
	mov	w15, wzr
	mov	x10, xzr
	mov	w14, #6
	mov	w13, #1
	mov	w12, #9
LBB54_332:
	mov	w17, #5
LBB54_333:
	movi	v0.2d, #0000000000000000
LBB54_334:
	add	x17, x17, #4
	mov	w11, w11
LBB54_335:
	and	x1, x9, #0xff
	adrp	x3, Lswitch.table.wkb_raw_parts.323@PAGE
	add	x3, x3, Lswitch.table.wkb_raw_parts.323@PAGEOFF
	cmp	w15, #0
	ldr	w1, [x3, x1, lsl #2]
	stp	x10, x17, [x2, #16]
	csel	w10, w16, wzr, ne
	and	w9, w9, #0xff
	stp	x12, x13, [x2]
	stp	w10, w15, [x2, #40]
	ldp	x13, x12, [sp, #32]
	stp	w14, w9, [x2, #48]
	ldp	x15, x14, [sp, #16]
	mov	w0, wzr
	mov	w16, #16
	str	x11, [x2, #32]
	stp	w1, w8, [x2, #56]
	b	LBB54_17
LBB54_336:
	movi	v0.2d, #0000000000000000
LBB54_337:
	mov	w15, wzr
	add	x13, x11, #1
	sub	x12, x1, x10
	mov	w14, #4
	mov	x10, x11
	mov	w17, #5
	b	LBB54_334
LBB54_338:
	mov	w12, #37
	cmp	x1, x12
	b.lo	LBB54_306
	b	LBB54_259
LBB54_339:
	mov	w12, #41
	cmp	x1, x12
	b.lo	LBB54_306
	b	LBB54_256
LBB54_340:
	ldp	x20, x19, [sp, #128]
	ldp	x22, x21, [sp, #112]
	ldp	x24, x23, [sp, #96]
	ldp	x26, x25, [sp, #80]
	ldp	x28, x27, [sp, #64]
	ldp	x29, x30, [sp, #48]
	add	sp, sp, #144
	.cfi_def_cfa_offset 0
	.cfi_restore w19
	.cfi_restore w20
	.cfi_restore w21
	.cfi_restore w22
	.cfi_restore w23
	.cfi_restore w24
	.cfi_restore w25
	.cfi_restore w26
	.cfi_restore w27
	.cfi_restore w28
	.cfi_restore w30
	.cfi_restore w29
	ret
Lfunc_end54:
	.cfi_endproc
	.section	__TEXT,__const
	.p2align	4, 0x0
LCPI55_0:
	.quad	5
	.quad	2
LCPI55_1:
	.quad	5
	.quad	4
LCPI55_2:
	.quad	5
	.quad	3
LCPI55_3:
	.quad	5
	.quad	1
LCPI55_4:
	.quad	3
	.quad	0
LCPI55_5:
	.quad	5
	.quad	0
	.section	__TEXT,__text,regular,pure_instructions
	.private_extern	_wkb_raw_column_from_coordinates
	.globl	_wkb_raw_column_from_coordinates
	.p2align	2
_wkb_raw_column_from_coordinates:
	.cfi_startproc
	hint	#34
	stp	x29, x30, [sp, #-96]!
	.cfi_def_cfa_offset 96
	stp	x28, x27, [sp, #16]
	stp	x26, x25, [sp, #32]
	stp	x24, x23, [sp, #48]
	stp	x22, x21, [sp, #64]
	stp	x20, x19, [sp, #80]
	.cfi_offset w19, -8
	.cfi_offset w20, -16
	.cfi_offset w21, -24
	.cfi_offset w22, -32
	.cfi_offset w23, -40
	.cfi_offset w24, -48
	.cfi_offset w25, -56
	.cfi_offset w26, -64
	.cfi_offset w27, -72
	.cfi_offset w28, -80
	.cfi_offset w30, -88
	.cfi_offset w29, -96
	sub	sp, sp, #624
	.cfi_def_cfa_offset 720
	.cfi_remember_state
	ldp	x11, x10, [x0, #32]
	sub	w17, w1, #1
	ldr	x9, [x0, #48]
	ldp	x13, x14, [x0]
	ldp	x15, x16, [x0, #16]
	mov	x19, x6
	stp	x10, x9, [sp, #272]
	mov	x20, x5
	cmp	w17, #6
	ldp	x10, x9, [x0, #56]
	ldr	x8, [sp, #728]
	str	x4, [sp, #224]
	str	x9, [sp, #288]
	ldr	x9, [x0, #72]
	str	x9, [sp, #304]
	ldr	x9, [x0, #80]
	b.hs	LBB55_11
	cmp	w2, #4
	b.hs	LBB55_11
	ldr	w12, [x3]
	cbz	w12, LBB55_7
	cmp	w12, #1
	b.ne	LBB55_11
	mov	w1, #1
	ldr	w12, [x3, #4]
	mov	w4, wzr
	cmp	w12, #1
	b.gt	LBB55_8
LBB55_5:
	cbz	w12, LBB55_255
	cmp	w12, #1
	mov	w5, w4
	b.eq	LBB55_256
	b	LBB55_11
LBB55_7:
	mov	w1, wzr
	ldr	w12, [x3, #4]
	mov	w4, wzr
	cmp	w12, #1
	b.le	LBB55_5
LBB55_8:
	cmp	w12, #3
	mov	w5, w4
	b.eq	LBB55_256
	cmp	w12, #2
	b.ne	LBB55_11
	ldr	w5, [x3, #8]
	mov	w4, #1
	b	LBB55_256
LBB55_11:
	mov	w22, #5
	str	x22, [sp, #320]
LBB55_12:
	cmp	x16, #0
	str	x13, [sp, #216]
	csel	x12, xzr, x15, eq
	stp	x13, x14, [sp, #352]
	csel	x11, x11, xzr, eq
	stp	x12, x16, [sp, #368]
	ldp	x12, x13, [sp, #272]
	stp	x14, x16, [sp, #248]
	str	x15, [sp, #232]
	cmp	x13, #0
	stp	xzr, xzr, [sp, #448]
	csel	x12, xzr, x12, eq
	csel	x10, x10, xzr, eq
	stp	x11, x12, [sp, #384]
	ldr	x12, [sp, #304]
	ldr	x11, [sp, #288]
	stp	x13, x10, [sp, #400]
	cmp	x12, #0
	csel	x11, xzr, x11, eq
	csel	x10, x9, xzr, eq
	csel	x9, x9, x12, eq
	cmp	x7, x8
	stp	x10, xzr, [sp, #432]
	csel	x10, x7, x8, lo
	ldp	x8, x26, [x0, #88]
	cmp	x9, x10
	stp	x11, x12, [sp, #416]
	csel	x29, x9, x10, lo
	str	x8, [sp, #296]
	ldr	x8, [x0, #104]
	cbz	x29, LBB55_254
	and	x11, x8, #0x7
	lsl	x9, x22, #3
	add	x10, sp, #352
	str	x11, [sp, #312]
	mov	w11, #256
	lsr	x27, x8, #3
	movk	w11, #770, lsl #16
	ldr	w13, [sp, #200]
	add	x16, x10, #32
	lsr	x8, x11, x9
	str	x16, [sp, #208]
	add	x16, x10, #56
	add	x10, x10, #80
	tst	w13, #0x1
	mov	w15, #5
	mov	w9, #9
	and	w11, w8, #0x3
	mov	w12, #1000
	str	x10, [sp, #264]
	ldr	w10, [sp, #196]
	mul	w11, w11, w12
	csel	x9, x9, x15, ne
	add	x14, sp, #464
	cmp	w13, #1
	str	x9, [sp, #184]
	mov	w9, #536870912
	rev	w10, w10
	csinc	w9, w9, wzr, eq
	str	w10, [sp, #44]
	orr	x10, x14, #0x8
	str	x10, [sp, #48]
	orr	w9, w9, w8, lsl #31
	orr	w10, w11, #0x1
	and	x8, x8, #0x3
	ldr	x21, [sp, #720]
	mov	x28, xzr
	str	x8, [sp, #120]
	rev	w8, w10
	ldr	w10, [sp, #204]
	orr	w9, w9, #0x1
	mov	x23, xzr
	str	x16, [sp, #240]
	tst	w10, #0x1
	csinc	w8, w8, w11, eq
	stp	w8, w9, [sp, #56]
	adrp	x8, LCPI55_0@PAGE
	adrp	x9, LCPI55_1@PAGE
	ldr	q0, [x8, LCPI55_0@PAGEOFF]
	adrp	x8, LCPI55_5@PAGE
	str	q0, [sp, #160]
	ldr	q0, [x8, LCPI55_5@PAGEOFF]
	adrp	x8, LCPI55_4@PAGE
	str	q0, [sp, #80]
	ldr	q0, [x8, LCPI55_4@PAGEOFF]
	adrp	x8, LCPI55_3@PAGE
	str	q0, [sp, #64]
	ldr	q0, [x8, LCPI55_3@PAGEOFF]
	adrp	x8, LCPI55_2@PAGE
	str	q0, [sp, #128]
	ldr	q0, [x8, LCPI55_2@PAGEOFF]
	str	q0, [sp, #96]
	ldr	q0, [x9, LCPI55_1@PAGEOFF]
	str	q0, [sp, #144]
	b	LBB55_16
LBB55_14:
	mov	x2, xzr
	mov	w8, #18
LBB55_15:
	adds	x9, x28, x2
	strb	w8, [x21, x23]
	csinv	x28, x9, xzr, lo
	cmp	x25, x29
	str	x28, [x19, x23, lsl #3]
	mov	x23, x25
	b.eq	LBB55_254
LBB55_16:
	add	x25, x23, #1
	cbz	x26, LBB55_20
	ldr	x10, [sp, #312]
	and	x8, x23, #0x7
	add	x9, x27, x23, lsr #3
	add	x8, x8, x10
	add	x9, x9, x8, lsr #3
	cmp	x9, x26
	b.hs	LBB55_20
	ldr	x10, [sp, #296]
	and	w8, w8, #0x7
	cmp	x22, #5
	ldrb	w9, [x10, x9]
	mov	w10, #1
	lsl	w8, w10, w8
	and	w8, w9, w8
	b.ne	LBB55_22
	cmp	w8, #0
	mov	w8, #3
	mov	w9, #16
	mov	x2, xzr
	csel	w8, w9, w8, eq
	b	LBB55_15
LBB55_20:
	cmp	x22, #5
	b.ne	LBB55_23
	mov	x2, xzr
	mov	w8, #3
	b	LBB55_15
LBB55_22:
	cbz	w8, LBB55_58
LBB55_23:
	cmp	x20, x28
	add	x0, sp, #352
	add	x4, sp, #440
	mov	x1, x22
	mov	x2, xzr
	mov	x3, x23
	csel	x24, x20, x28, lo
	bl	_ZN7wkb_raw6erased10wkb_levels6levels6Levels4pass17h1aff3ae131b31d0aE
	cbz	w0, LBB55_14
	cbz	x23, LBB55_27
	ldr	x8, [sp, #304]
	cbz	x8, LBB55_29
	ldr	x8, [sp, #288]
	add	x8, x8, x23, lsl #3
	ldr	x9, [x8, #-8]!
	ldr	x8, [sp, #288]
	ldr	x8, [x8, x23, lsl #3]
	cmp	x8, x9
	b.lo	LBB55_14
	b	LBB55_30
LBB55_27:
	ldr	x8, [sp, #264]
	ldr	x9, [sp, #304]
	cbz	x9, LBB55_29
	ldr	x9, [x8]
	ldr	x8, [sp, #288]
	ldr	x8, [x8, x23, lsl #3]
	cmp	x8, x9
	b.lo	LBB55_14
	b	LBB55_30
LBB55_29:
	ldr	x8, [sp, #304]
	mov	x9, x23
	add	x8, x25, x8
	cmp	x8, x23
	b.lo	LBB55_14
LBB55_30:
	ldr	x10, [sp, #280]
	cbz	x10, LBB55_59
	cmp	x10, x8
	b.lo	LBB55_14
	ldr	x10, [sp, #272]
	add	x11, x10, x9, lsl #3
	ldr	x10, [sp, #240]
	cbz	x9, LBB55_34
	sub	x10, x11, #8
LBB55_34:
	ldr	x12, [x10]
	subs	x9, x8, x9
	b.eq	LBB55_70
	ldr	x10, [sp, #272]
	add	x8, x10, x8, lsl #3
	ldur	x8, [x8, #-8]
	cmp	x8, x12
	b.lo	LBB55_14
	mov	x13, x12
	ldr	x10, [sp, #256]
	cbz	x10, LBB55_61
LBB55_37:
	cmp	x10, x8
	b.lo	LBB55_14
	ldr	x10, [sp, #232]
	add	x3, x10, x13, lsl #3
	ldr	x10, [sp, #208]
	cbz	x13, LBB55_40
	sub	x10, x3, #8
LBB55_40:
	ldr	x14, [x10]
	sub	x10, x8, x13
	mov	x8, x14
	cmp	x22, #2
	b.gt	LBB55_63
LBB55_41:
	sub	x14, x22, #1
	cmp	x14, #2
	b.hs	LBB55_76
	mov	w14, #3
	ldr	x15, [sp, #248]
	udiv	x14, x15, x14
	cbz	x3, LBB55_77
LBB55_43:
	mov	x16, x8
	cbz	x10, LBB55_49
	lsl	x17, x10, #3
	mov	x16, x8
	sub	x0, x17, #8
	mvn	w15, w0
	tst	x15, #0x18
	mov	x15, x3
	b.eq	LBB55_48
	lsr	w15, w0, #3
	mov	x2, x8
	add	w15, w15, #1
	and	x15, x15, #0x3
	neg	x1, x15
	mov	x15, x3
LBB55_46:
	ldr	x16, [x15], #8
	cmp	x16, x2
	b.lo	LBB55_14
	adds	x1, x1, #1
	mov	x2, x16
	b.lo	LBB55_46
LBB55_48:
	cmp	x0, #24
	add	x17, x3, x17
	b.hs	LBB55_65
LBB55_49:
	cmp	x16, x14
	mov	x14, x10
	b.hi	LBB55_14
	add	x13, x14, x13
	ldr	x14, [sp, #280]
	cbz	x14, LBB55_80
LBB55_51:
	mov	x15, x12
	cbz	x9, LBB55_57
	lsl	x16, x9, #3
	mov	x15, x12
	sub	x17, x16, #8
	mvn	w14, w17
	tst	x14, #0x18
	mov	x14, x11
	b.eq	LBB55_56
	lsr	w14, w17, #3
	mov	x1, x12
	add	w14, w14, #1
	and	x14, x14, #0x3
	neg	x0, x14
	mov	x14, x11
LBB55_54:
	ldr	x15, [x14], #8
	cmp	x15, x1
	b.lo	LBB55_14
	adds	x0, x0, #1
	mov	x1, x15
	b.lo	LBB55_54
LBB55_56:
	cmp	x17, #24
	add	x16, x11, x16
	b.hs	LBB55_71
LBB55_57:
	cmp	x15, x13
	b.hi	LBB55_14
	b	LBB55_82
LBB55_58:
	add	x0, sp, #352
	add	x4, sp, #440
	mov	x1, x22
	mov	x3, x23
	bl	_ZN7wkb_raw6erased10wkb_levels6levels6Levels4pass17h1aff3ae131b31d0aE
	mov	x2, xzr
	mov	w8, #16
	b	LBB55_15
LBB55_59:
	ldr	x10, [sp, #408]
	cmp	x10, x8
	b.lo	LBB55_14
	mov	x11, xzr
	mov	x12, x8
	mov	x13, x9
	ldr	x10, [sp, #256]
	cbnz	x10, LBB55_37
LBB55_61:
	ldr	x10, [sp, #384]
	cmp	x10, x8
	b.lo	LBB55_14
	mov	x3, xzr
	mov	x10, x13
	cmp	x22, #2
	b.le	LBB55_41
LBB55_63:
	cmp	x22, #3
	b.ne	LBB55_14
	mov	w14, #4
	ldr	x15, [sp, #248]
	udiv	x14, x15, x14
	cbnz	x3, LBB55_43
	b	LBB55_77
LBB55_65:
	ldr	x0, [x15]
	cmp	x0, x16
	b.lo	LBB55_14
	ldr	x16, [x15, #8]
	cmp	x16, x0
	b.lo	LBB55_14
	ldr	x0, [x15, #16]
	cmp	x0, x16
	b.lo	LBB55_14
	ldr	x16, [x15, #24]
	cmp	x16, x0
	b.lo	LBB55_14
	add	x15, x15, #32
	cmp	x15, x17
	b.ne	LBB55_65
	b	LBB55_49
LBB55_70:
	mov	x8, x12
	mov	x13, x12
	ldr	x10, [sp, #256]
	cbnz	x10, LBB55_37
	b	LBB55_61
LBB55_71:
	ldr	x17, [x14]
	cmp	x17, x15
	b.lo	LBB55_14
	ldr	x15, [x14, #8]
	cmp	x15, x17
	b.lo	LBB55_14
	ldr	x17, [x14, #16]
	cmp	x17, x15
	b.lo	LBB55_14
	ldr	x15, [x14, #24]
	cmp	x15, x17
	b.lo	LBB55_14
	add	x14, x14, #32
	cmp	x14, x16
	b.ne	LBB55_71
	b	LBB55_57
LBB55_76:
	mov	w14, #2
	ldr	x15, [sp, #248]
	udiv	x14, x15, x14
	cbnz	x3, LBB55_43
LBB55_77:
	cmp	x10, x14
	b.hi	LBB55_14
	cmp	x8, x14
	b.hi	LBB55_14
	subs	x14, x8, x10
	csel	x14, xzr, x14, lo
	add	x13, x14, x13
	ldr	x14, [sp, #280]
	cbnz	x14, LBB55_51
LBB55_80:
	cmp	x9, x13
	b.hi	LBB55_14
	cmp	x12, x13
	b.hi	LBB55_14
LBB55_82:
	ldr	w13, [sp, #40]
	ldr	x14, [sp, #224]
	sub	x15, x20, x24
	and	w13, w13, #0xff
	add	x24, x14, x24
	cmp	w13, #2
	b.eq	LBB55_90
	cmp	w13, #5
	b.ne	LBB55_93
	ldr	x14, [sp, #216]
	ldr	x13, [sp, #248]
	add	x0, sp, #464
	str	x24, [sp, #32]
	mov	x24, x15
	stp	x22, xzr, [sp, #464]
	stp	x14, x13, [sp, #480]
	stp	x3, x10, [sp, #496]
	str	x8, [sp, #512]
	str	x11, [sp, #520]
	str	x9, [sp, #528]
	str	x12, [sp, #536]
	bl	_ZN7wkb_raw6erased9wkb_write5items12measure_each17hbb5dcb0cb4b8b721E
	mov	x2, x1
	cbnz	x0, LBB55_132
	ldr	x8, [sp, #184]
	adds	x2, x2, x8
	b.hs	LBB55_159
	cmp	x24, x2
	b.hs	LBB55_98
LBB55_87:
	add	x0, sp, #464
	bl	_ZN7wkb_raw6erased9wkb_write5items12measure_each17hbb5dcb0cb4b8b721E
	mov	x2, x1
	cbz	x0, LBB55_199
	cmp	x0, #1
	b.eq	LBB55_205
	cmp	x0, #2
	b.eq	LBB55_203
	b	LBB55_204
LBB55_90:
	cbz	x11, LBB55_102
	cmp	x9, #1
	b.ne	LBB55_14
	ldr	x11, [x11]
	b	LBB55_104
LBB55_93:
	cbz	x11, LBB55_115
	lsl	x13, x9, #3
LBB55_95:
	cbz	x13, LBB55_116
	ldr	x14, [x11], #8
	subs	x12, x14, x12
	b.ls	LBB55_14
	cmp	x12, #1
	sub	x13, x13, #8
	mov	x12, x14
	b.eq	LBB55_95
	b	LBB55_14
LBB55_98:
	add	x8, sp, #580
	str	x2, [sp, #600]
	add	x0, sp, #584
	str	x8, [sp, #584]
	ldr	x8, [sp, #32]
	add	x1, sp, #464
	mov	x24, x2
	strb	wzr, [sp, #580]
	str	x8, [sp, #592]
	mov	w8, #5
	strb	w8, [sp, #616]
	add	x8, sp, #320
	add	x2, x8, #16
	str	xzr, [sp, #608]
	bl	_ZN127_$LT$wkb_raw..erased..wkb_write..items..Counted$LT$I$GT$$u20$as$u20$wkb_raw..erased..wkb_write..writable..Writable$LT$G$GT$$GT$3put17h89d9ba509de172c4E
LBB55_99:
	mov	x2, x24
LBB55_100:
	str	x2, [sp, #560]
LBB55_101:
	ldr	x2, [sp, #560]
	mov	w8, wzr
	b	LBB55_15
LBB55_102:
	subs	x11, x12, x9
	csel	x11, xzr, x11, lo
	cmp	x11, #1
	b.ne	LBB55_14
	add	x11, x9, #1
	mov	x12, x9
LBB55_104:
	sub	x9, x11, x12
	str	x15, [sp, #16]
	str	x24, [sp, #32]
	cbnz	x3, LBB55_106
	add	x8, x9, x10
	mov	x9, x10
LBB55_106:
	ldr	q0, [sp, #160]
	ldr	x10, [sp, #216]
	ldr	x24, [sp, #248]
	str	x8, [sp, #528]
	add	x8, sp, #464
	add	x0, x8, #16
	str	q0, [sp, #464]
	stp	x22, xzr, [sp, #480]
	stp	x10, x24, [sp, #496]
	str	x3, [sp, #24]
	str	x3, [sp, #512]
	str	x9, [sp, #520]
	bl	_ZN7wkb_raw6erased9wkb_write5items12measure_each17h7fd4cf8fb1b3bceeE
	mov	x11, x24
	ldr	x24, [sp, #32]
	ldr	x15, [sp, #16]
	mov	x2, x1
	mov	w13, #2
LBB55_107:
	cbnz	x0, LBB55_147
	ldr	x8, [sp, #184]
	adds	x2, x2, x8
	b.hs	LBB55_253
	ldr	x12, [sp, #24]
	cmp	x15, x2
	b.hs	LBB55_118
	mov	w8, #11
	str	w8, [sp, #552]
	mov	w8, #1
	strb	w8, [sp, #556]
	cmp	x13, #1
	b.le	LBB55_164
LBB55_111:
	cmp	x13, #2
	b.eq	LBB55_153
	cmp	x13, #3
	b.ne	LBB55_154
	sub	x8, x22, #1
	cmp	x8, #2
	b.hs	LBB55_168
	mov	x9, #-6148914691236517206
	movk	x9, #43691
	umulh	x9, x11, x9
	lsr	x9, x9, #1
	b	LBB55_189
LBB55_115:
	subs	x9, x12, x9
	csel	x9, xzr, x9, lo
LBB55_116:
	cbz	x3, LBB55_122
	mov	x10, x8
	b	LBB55_123
LBB55_118:
	add	x8, sp, #580
	cmp	x13, #1
	strb	wzr, [sp, #580]
	str	x8, [sp, #584]
	mov	w8, #5
	str	x24, [sp, #592]
	str	x2, [sp, #600]
	str	xzr, [sp, #608]
	strb	w8, [sp, #616]
	b.le	LBB55_135
	cmp	x13, #2
	b.eq	LBB55_156
	add	x8, sp, #464
	mov	x24, x2
	add	x0, sp, #584
	add	x1, x8, #16
	add	x8, sp, #320
	cmp	x13, #3
	add	x2, x8, #16
	b.ne	LBB55_157
	bl	_ZN127_$LT$wkb_raw..erased..wkb_write..items..Counted$LT$I$GT$$u20$as$u20$wkb_raw..erased..wkb_write..writable..Writable$LT$G$GT$$GT$3put17h430b41e922cb7f03E
	b	LBB55_99
LBB55_122:
	add	x8, x9, x10
	mov	x9, x10
LBB55_123:
	ldr	w11, [sp, #40]
	and	w11, w11, #0xff
	cmp	w11, #2
	b.gt	LBB55_129
	cbz	w11, LBB55_139
	cmp	w11, #1
	b.ne	LBB55_14
	subs	x10, x8, x9
	csel	x10, xzr, x10, lo
	cmp	x3, #0
	csel	x10, x10, x9, eq
	cmp	x10, #1
	b.ne	LBB55_14
	cbz	x3, LBB55_183
	ldr	x10, [x3]
	b	LBB55_184
LBB55_129:
	cmp	w11, #3
	b.eq	LBB55_142
	cmp	w11, #4
	b.ne	LBB55_14
	ldr	q0, [sp, #144]
	ldr	x11, [sp, #216]
	ldr	x10, [sp, #248]
	str	x8, [sp, #528]
	add	x8, sp, #464
	add	x0, x8, #16
	str	q0, [sp, #464]
	stp	x22, xzr, [sp, #480]
	stp	x3, x24, [sp, #24]
	mov	x24, x15
	stp	x11, x10, [sp, #496]
	str	x3, [sp, #512]
	str	x9, [sp, #520]
	bl	_ZN7wkb_raw6erased9wkb_write5items12measure_each17h2f3075515aa29621E
	mov	x15, x24
	ldr	x11, [sp, #248]
	ldr	x24, [sp, #32]
	mov	x2, x1
	mov	w13, #4
	b	LBB55_107
LBB55_132:
	cmp	x0, #1
	b.eq	LBB55_160
	cmp	x0, #2
	b.ne	LBB55_159
	mov	w1, #1
	add	x0, sp, #552
	bl	_ZN129_$LT$wkb_raw..erased..wkb_geom..error..WkbError$u20$as$u20$core..convert..From$LT$wkb_raw..erased..wkb_geom..error..Fault$GT$$GT$4from17h1a580e8f9abeed70E
	ldr	w8, [sp, #552]
	cmp	w8, #14
	b.ne	LBB55_87
	b	LBB55_101
LBB55_135:
	cbnz	x13, LBB55_158
	adrp	x8, Lswitch.table.wkb_raw_column_from_coordinates.275@PAGE
	add	x8, x8, Lswitch.table.wkb_raw_column_from_coordinates.275@PAGEOFF
	ldr	x9, [sp, #184]
	ldr	x8, [x8, x22, lsl #3]
	add	x8, x8, x9
	cmp	x2, x8
	b.lo	LBB55_100
	adrp	x8, Lswitch.table.wkb_raw_column_from_coordinates.274@PAGE
	add	x8, x8, Lswitch.table.wkb_raw_column_from_coordinates.274@PAGEOFF
	adrp	x10, Lswitch.table.wkb_raw_column_from_coordinates.278@PAGE
	add	x10, x10, Lswitch.table.wkb_raw_column_from_coordinates.278@PAGEOFF
	ldr	w9, [x8, x22, lsl #2]
	ldr	x8, [sp, #120]
	ldr	x8, [x10, x8, lsl #3]
	ldp	w11, w10, [sp, #200]
	cmp	w11, #2
	strb	w10, [x24]
	b.ne	LBB55_212
	ldr	w9, [sp, #56]
	stur	w9, [x24, #1]
	add	x9, x24, #5
	ldr	q0, [x12]
	tbz	w10, #0, LBB55_240
	b	LBB55_241
LBB55_139:
	subs	x10, x8, x9
	csel	x10, xzr, x10, lo
	cmp	x3, #0
	csel	x10, x10, x9, eq
	cmp	x10, #1
	b.ne	LBB55_14
	cbz	x3, LBB55_174
	ldr	x10, [x3]
	b	LBB55_175
LBB55_142:
	cbz	x3, LBB55_150
	lsl	x11, x9, #3
	mov	x12, x3
	mov	x14, x8
LBB55_144:
	cbz	x11, LBB55_150
	ldr	x13, [x12], #8
	subs	x14, x13, x14
	b.ls	LBB55_14
	cmp	x14, #1
	sub	x11, x11, #8
	mov	x14, x13
	b.eq	LBB55_144
	b	LBB55_14
LBB55_147:
	cmp	x0, #1
	mov	x24, x11
	str	x13, [sp, #32]
	b.eq	LBB55_161
	cmp	x0, #2
	b.ne	LBB55_162
	mov	w1, #1
	add	x0, sp, #552
	bl	_ZN129_$LT$wkb_raw..erased..wkb_geom..error..WkbError$u20$as$u20$core..convert..From$LT$wkb_raw..erased..wkb_geom..error..Fault$GT$$GT$4from17h1a580e8f9abeed70E
	ldr	w8, [sp, #552]
	cmp	w8, #14
	b.eq	LBB55_101
	b	LBB55_163
LBB55_150:
	subs	x8, x8, x9
	csel	x8, xzr, x8, lo
	cmp	x3, #0
	csel	x8, x8, x9, eq
	cmp	x22, #2
	b.gt	LBB55_172
	sub	x9, x22, #1
	cmp	x9, #2
	b.hs	LBB55_208
	mov	w9, #3
	b	LBB55_209
LBB55_153:
	add	x8, sp, #464
	add	x0, x8, #16
	bl	_ZN7wkb_raw6erased9wkb_write5items12measure_each17h7fd4cf8fb1b3bceeE
	b	LBB55_155
LBB55_154:
	add	x8, sp, #464
	add	x0, x8, #16
	bl	_ZN7wkb_raw6erased9wkb_write5items12measure_each17h2f3075515aa29621E
LBB55_155:
	mov	x2, x1
	b	LBB55_198
LBB55_156:
	add	x8, sp, #464
	add	x0, sp, #584
	mov	x24, x2
	add	x1, x8, #16
	add	x8, sp, #320
	add	x2, x8, #16
	bl	_ZN127_$LT$wkb_raw..erased..wkb_write..items..Counted$LT$I$GT$$u20$as$u20$wkb_raw..erased..wkb_write..writable..Writable$LT$G$GT$$GT$3put17hca56c00a2d288c9dE
	b	LBB55_99
LBB55_157:
	bl	_ZN127_$LT$wkb_raw..erased..wkb_write..items..Counted$LT$I$GT$$u20$as$u20$wkb_raw..erased..wkb_write..writable..Writable$LT$G$GT$$GT$3put17h2a282c66fbeb61b4E
	b	LBB55_99
LBB55_158:
	add	x8, sp, #464
	add	x0, sp, #584
	mov	x24, x2
	add	x1, x8, #16
	add	x8, sp, #320
	add	x2, x8, #16
	bl	_ZN131_$LT$wkb_raw..erased..wkb_write..line_string.LineStringKind$u20$as$u20$wkb_raw..erased..wkb_write..writable..Writable$LT$L$GT$$GT$3put17hc4ed07414320260dE
	b	LBB55_99
LBB55_159:
	mov	w1, #2
	add	x0, sp, #552
	bl	_ZN129_$LT$wkb_raw..erased..wkb_geom..error..WkbError$u20$as$u20$core..convert..From$LT$wkb_raw..erased..wkb_geom..error..Fault$GT$$GT$4from17h1a580e8f9abeed70E
	ldr	w8, [sp, #552]
	cmp	w8, #14
	b.ne	LBB55_87
	b	LBB55_101
LBB55_160:
	mov	x1, xzr
	add	x0, sp, #552
	bl	_ZN129_$LT$wkb_raw..erased..wkb_geom..error..WkbError$u20$as$u20$core..convert..From$LT$wkb_raw..erased..wkb_geom..error..Fault$GT$$GT$4from17h1a580e8f9abeed70E
	ldr	w8, [sp, #552]
	cmp	w8, #14
	b.ne	LBB55_87
	b	LBB55_101
LBB55_161:
	mov	x1, xzr
	add	x0, sp, #552
	bl	_ZN129_$LT$wkb_raw..erased..wkb_geom..error..WkbError$u20$as$u20$core..convert..From$LT$wkb_raw..erased..wkb_geom..error..Fault$GT$$GT$4from17h1a580e8f9abeed70E
	ldr	w8, [sp, #552]
	cmp	w8, #14
	b.eq	LBB55_101
	b	LBB55_163
LBB55_162:
	mov	w1, #2
	add	x0, sp, #552
	bl	_ZN129_$LT$wkb_raw..erased..wkb_geom..error..WkbError$u20$as$u20$core..convert..From$LT$wkb_raw..erased..wkb_geom..error..Fault$GT$$GT$4from17h1a580e8f9abeed70E
	ldr	w8, [sp, #552]
	cmp	w8, #14
	b.eq	LBB55_101
LBB55_163:
	ldr	x13, [sp, #32]
	mov	x11, x24
	cmp	x13, #1
	b.gt	LBB55_111
LBB55_164:
	cbnz	x13, LBB55_166
	adrp	x8, Lswitch.table.wkb_raw_column_from_coordinates.277@PAGE
	add	x8, x8, Lswitch.table.wkb_raw_column_from_coordinates.277@PAGEOFF
	mov	x0, xzr
	ldr	x2, [x8, x22, lsl #3]
	b	LBB55_198
LBB55_166:
	sub	x8, x22, #1
	cmp	x8, #2
	b.hs	LBB55_170
	mov	x8, #-6148914691236517206
	movk	x8, #43691
	umulh	x8, x11, x8
	lsr	x8, x8, #1
	b	LBB55_195
LBB55_168:
	cbnz	x22, LBB55_188
	lsr	x9, x11, #1
	b	LBB55_189
LBB55_170:
	cmp	x22, #3
	b.ne	LBB55_194
	lsr	x8, x11, #2
	b	LBB55_195
LBB55_172:
	cmp	x22, #4
	b.eq	LBB55_14
	mov	w9, #4
	b	LBB55_209
LBB55_174:
	add	x10, x9, #1
	mov	x8, x9
LBB55_175:
	adrp	x9, Lswitch.table.wkb_raw_column_from_coordinates.272@PAGE
	add	x9, x9, Lswitch.table.wkb_raw_column_from_coordinates.272@PAGEOFF
	ldr	x9, [x9, x22, lsl #3]
	mul	x8, x8, x9
	neg	x11, x8
	madd	x10, x10, x9, x11
	sub	x9, x22, #1
	cmp	x9, #2
	b.hs	LBB55_177
	mov	x11, #-6148914691236517206
	movk	x11, #43691
	umulh	x10, x10, x11
	b	LBB55_179
LBB55_177:
	cmp	x22, #3
	b.ne	LBB55_179
	lsr	x10, x10, #2
	b	LBB55_180
LBB55_179:
	lsr	x10, x10, #1
LBB55_180:
	cmp	x10, #1
	b.ne	LBB55_14
	cmp	x9, #2
	b.hs	LBB55_215
	ldr	q0, [sp, #80]
	mov	w9, #3
	mov	w2, #24
	stp	x22, xzr, [sp, #480]
	str	q0, [sp, #464]
	stp	x22, xzr, [sp, #496]
	b	LBB55_228
LBB55_183:
	add	x10, x9, #1
	mov	x8, x9
LBB55_184:
	adrp	x9, Lswitch.table.wkb_raw_column_from_coordinates.272@PAGE
	add	x9, x9, Lswitch.table.wkb_raw_column_from_coordinates.272@PAGEOFF
	ldr	x9, [x9, x22, lsl #3]
	mul	x8, x8, x9
	neg	x11, x8
	madd	x11, x10, x9, x11
	ldr	x10, [sp, #216]
	sub	x9, x22, #1
	cmp	x9, #2
	add	x8, x10, x8, lsl #3
	b.hs	LBB55_186
	mov	x9, #-6148914691236517206
	ldr	q0, [sp, #128]
	stp	x22, xzr, [sp, #480]
	movk	x9, #43691
	umulh	x9, x11, x9
	str	q0, [sp, #464]
	lsr	x9, x9, #1
	b	LBB55_218
LBB55_186:
	cmp	x22, #3
	b.ne	LBB55_217
	ldr	q1, [sp, #128]
	ldr	q0, [sp, #64]
	lsr	x9, x11, #2
	stp	q1, q0, [sp, #464]
	b	LBB55_218
LBB55_188:
	lsr	x9, x11, #2
LBB55_189:
	lsr	x10, x9, #32
	cbnz	x10, LBB55_196
	add	x10, x9, x9, lsl #2
	add	x2, x10, #4
	cbz	x9, LBB55_193
	cmp	x8, #2
	b.hs	LBB55_223
	mov	w8, #24
	madd	x2, x9, x8, x2
LBB55_193:
	mov	x0, xzr
	b	LBB55_198
LBB55_194:
	lsr	x8, x11, #1
LBB55_195:
	lsr	x9, x8, #32
	cbz	x9, LBB55_197
LBB55_196:
	mov	w0, #2
	b	LBB55_198
LBB55_197:
	adrp	x9, Lswitch.table.wkb_raw_column_from_coordinates.278@PAGE
	add	x9, x9, Lswitch.table.wkb_raw_column_from_coordinates.278@PAGEOFF
	mov	x0, xzr
	ldr	x9, [x9, x22, lsl #3]
	mul	x8, x8, x9
	mov	w9, #4
	orr	x2, x9, x8, lsl #3
LBB55_198:
	cbnz	x0, LBB55_201
LBB55_199:
	ldr	x8, [sp, #184]
	adds	x2, x2, x8
	b.hs	LBB55_204
LBB55_200:
	mov	w8, #2
	b	LBB55_15
LBB55_201:
	cmp	x0, #1
	b.eq	LBB55_205
	cmp	x0, #2
	b.ne	LBB55_204
LBB55_203:
	mov	w1, #1
	b	LBB55_206
LBB55_204:
	mov	w1, #2
	b	LBB55_206
LBB55_205:
	mov	x1, xzr
LBB55_206:
	add	x0, sp, #584
	bl	_ZN129_$LT$wkb_raw..erased..wkb_geom..error..WkbError$u20$as$u20$core..convert..From$LT$wkb_raw..erased..wkb_geom..error..Fault$GT$$GT$4from17h1a580e8f9abeed70E
	ldr	w8, [sp, #584]
	cmp	w8, #14
	b.ne	LBB55_14
	ldr	x2, [sp, #592]
	b	LBB55_200
LBB55_208:
	mov	w9, #2
LBB55_209:
	mul	x11, x9, x8
	udiv	x8, x11, x9
	msub	x8, x8, x9, x11
	cbnz	x8, LBB55_14
	mul	x8, x9, x10
	ldr	x9, [sp, #216]
	ldr	q0, [sp, #96]
	stp	x22, xzr, [sp, #480]
	str	q0, [sp, #464]
	add	x9, x9, x8, lsl #3
	sub	x8, x22, #1
	cmp	x8, #2
	stp	x9, x11, [sp, #496]
	b.hs	LBB55_221
	mov	x9, #-6148914691236517206
	movk	x9, #43691
	umulh	x9, x11, x9
	lsr	x9, x9, #1
	b	LBB55_230
LBB55_212:
	ldr	w11, [sp, #60]
	orr	w9, w9, w11
	tbz	w10, #0, LBB55_225
	stur	w9, [x24, #1]
	ldr	w9, [sp, #200]
	tbz	w9, #0, LBB55_236
	ldr	w9, [sp, #196]
	stur	w9, [x24, #5]
	mov	w9, #9
	b	LBB55_237
LBB55_215:
	cmp	x22, #3
	b.ne	LBB55_227
	ldp	q0, q1, [sp, #64]
	mov	w9, #4
	mov	w2, #32
	stp	q1, q0, [sp, #464]
	str	q0, [sp, #496]
	b	LBB55_228
LBB55_217:
	ldr	q0, [sp, #128]
	add	x9, sp, #464
	stp	xzr, xzr, [x9, #16]
	lsr	x9, x11, #1
	str	q0, [sp, #464]
LBB55_218:
	stp	x8, x11, [sp, #496]
	lsr	x8, x9, #32
	cbz	x8, LBB55_220
	mov	w0, #2
	mov	w13, #1
	b	LBB55_107
LBB55_220:
	adrp	x8, Lswitch.table.wkb_raw_column_from_coordinates.278@PAGE
	add	x8, x8, Lswitch.table.wkb_raw_column_from_coordinates.278@PAGEOFF
	mov	x0, xzr
	ldr	x8, [x8, x22, lsl #3]
	mov	w13, #1
	mul	x8, x9, x8
	mov	w9, #4
	orr	x2, x9, x8, lsl #3
	b	LBB55_107
LBB55_221:
	cmp	x22, #3
	b.ne	LBB55_229
	lsr	x9, x11, #2
	b	LBB55_230
LBB55_223:
	cbnz	x22, LBB55_235
	add	x2, x2, x9, lsl #4
	mov	x0, xzr
	b	LBB55_198
LBB55_225:
	rev	w9, w9
	stur	w9, [x24, #1]
	ldr	w9, [sp, #200]
	tbz	w9, #0, LBB55_238
	ldr	w9, [sp, #44]
	stur	w9, [x24, #5]
	mov	w9, #9
	b	LBB55_239
LBB55_227:
	movi	v0.2d, #0000000000000000
	ldr	x10, [sp, #48]
	mov	w9, #5
	str	x9, [sp, #464]
	mov	w9, #2
	mov	w2, #16
	str	xzr, [x10, #32]
	stp	q0, q0, [x10]
LBB55_228:
	ldr	x10, [sp, #216]
	mov	x13, xzr
	mov	x11, xzr
	mov	x0, xzr
	str	x9, [sp, #520]
	add	x8, x10, x8, lsl #3
	str	x8, [sp, #24]
	str	x8, [sp, #512]
	b	LBB55_107
LBB55_229:
	lsr	x9, x11, #1
LBB55_230:
	lsr	x10, x9, #32
	cbz	x10, LBB55_232
	mov	w0, #2
	mov	w13, #3
	b	LBB55_107
LBB55_232:
	add	x10, x9, x9, lsl #2
	add	x2, x10, #4
	cbz	x9, LBB55_252
	cmp	x8, #2
	b.hs	LBB55_249
	mov	w8, #24
	madd	x2, x9, x8, x2
	b	LBB55_252
LBB55_235:
	add	x2, x2, x9, lsl #5
	mov	x0, xzr
	b	LBB55_198
LBB55_236:
	mov	w9, #5
LBB55_237:
	ldr	q0, [x12]
	add	x9, x24, x9
	b	LBB55_241
LBB55_238:
	mov	w9, #5
LBB55_239:
	ldr	q0, [x12]
	add	x9, x24, x9
LBB55_240:
	rev64	v0.16b, v0.16b
LBB55_241:
	cmp	x8, #2
	str	q0, [x9]
	b.eq	LBB55_100
	cmp	x8, #3
	b.ne	LBB55_245
	ldr	x8, [x12, #16]
	ldr	w10, [sp, #204]
	tbz	w10, #0, LBB55_248
	str	x8, [x9, #16]
	b	LBB55_100
LBB55_245:
	ldp	x10, x8, [x12, #16]
	ldr	w11, [sp, #204]
	tbnz	w11, #0, LBB55_247
	rev	x10, x10
	rev	x8, x8
LBB55_247:
	stp	x10, x8, [x9, #16]
	b	LBB55_100
LBB55_248:
	rev	x8, x8
	str	x8, [x9, #16]
	b	LBB55_100
LBB55_249:
	cbnz	x22, LBB55_251
	add	x2, x2, x9, lsl #4
	b	LBB55_252
LBB55_251:
	add	x2, x2, x9, lsl #5
LBB55_252:
	mov	x0, xzr
	mov	w13, #3
	b	LBB55_107
LBB55_253:
	str	x13, [sp, #32]
	mov	x24, x11
	mov	w1, #2
	add	x0, sp, #552
	bl	_ZN129_$LT$wkb_raw..erased..wkb_geom..error..WkbError$u20$as$u20$core..convert..From$LT$wkb_raw..erased..wkb_geom..error..Fault$GT$$GT$4from17h1a580e8f9abeed70E
	ldr	w8, [sp, #552]
	cmp	w8, #14
	b.eq	LBB55_101
	b	LBB55_163
LBB55_254:
	add	sp, sp, #624
	.cfi_def_cfa_offset 96
	ldp	x20, x19, [sp, #80]
	ldp	x22, x21, [sp, #64]
	ldp	x24, x23, [sp, #48]
	ldp	x26, x25, [sp, #32]
	ldp	x28, x27, [sp, #16]
	ldp	x29, x30, [sp], #96
	.cfi_def_cfa_offset 0
	.cfi_restore w19
	.cfi_restore w20
	.cfi_restore w21
	.cfi_restore w22
	.cfi_restore w23
	.cfi_restore w24
	.cfi_restore w25
	.cfi_restore w26
	.cfi_restore w27
	.cfi_restore w28
	.cfi_restore w30
	.cfi_restore w29
	ret
LBB55_255:
	.cfi_restore_state
	mov	w4, #2
LBB55_256:
	mov	w22, w2
	stp	w5, w4, [sp, #196]
	str	x22, [sp, #320]
	str	w4, [sp, #336]
	str	w5, [sp, #340]
	str	w1, [sp, #204]
	strb	w1, [sp, #344]
	str	w17, [sp, #40]
	strb	w17, [sp, #348]
	b	LBB55_12
Lfunc_end55:
	.cfi_endproc
	.section	__TEXT,__text,regular,pure_instructions
	.private_extern	_wkb_raw_column_parts
	.globl	_wkb_raw_column_parts
	.p2align	2
_wkb_raw_column_parts:
	.cfi_startproc
	hint	#34
	sub	sp, sp, #224
	.cfi_def_cfa_offset 224
	stp	x29, x30, [sp, #128]
	stp	x28, x27, [sp, #144]
	stp	x26, x25, [sp, #160]
	stp	x24, x23, [sp, #176]
	stp	x22, x21, [sp, #192]
	stp	x20, x19, [sp, #208]
	.cfi_offset w19, -8
	.cfi_offset w20, -16
	.cfi_offset w21, -24
	.cfi_offset w22, -32
	.cfi_offset w23, -40
	.cfi_offset w24, -48
	.cfi_offset w25, -56
	.cfi_offset w26, -64
	.cfi_offset w27, -72
	.cfi_offset w28, -80
	.cfi_offset w30, -88
	.cfi_offset w29, -96
	cmp	x4, x6
	str	x1, [sp]
	csel	x25, x4, x6, lo
	cbz	x25, LBB56_356
	mov	x7, x2
	ldp	x27, x8, [x0, #48]
	ldp	x2, x10, [x0, #16]
	mov	x19, x5
	ldp	x11, x12, [x0]
	mov	x20, x3
	ldp	x28, x13, [x0, #32]
	lsr	x1, x8, #3
	lsr	x15, x10, #3
	lsr	x16, x10, #2
	mov	x26, xzr
	mov	x29, xzr
	mov	x9, xzr
	and	x14, x8, #0x7
	mov	w17, #16
	stp	x12, x7, [sp, #64]
	stp	x14, x13, [sp, #48]
	stp	x16, x15, [sp, #32]
	str	x1, [sp, #24]
	stp	x11, x2, [sp, #8]
	b	LBB56_4
LBB56_2:
	tst	w8, #0x1
	mov	x23, xzr
	cinc	w10, w17, eq
LBB56_3:
	adds	x8, x26, x23
	strb	w10, [x19, x21]
	csinv	x26, x8, xzr, lo
	cmp	x29, x25
	str	x26, [x20, x21, lsl #3]
	b.eq	LBB56_356
LBB56_4:
	mov	x21, x29
	cbz	x27, LBB56_10
	and	x8, x21, #0x7
	add	x10, x1, x21, lsr #3
	add	x8, x8, x14
	add	x10, x10, x8, lsr #3
	cmp	x10, x27
	b.hs	LBB56_10
	ldrb	w10, [x13, x10]
	and	x8, x8, #0x7
	eor	w10, w10, #0xff
	lsr	w8, w10, w8
	cmp	x28, #4
	add	x29, x21, #1
	b.ne	LBB56_11
LBB56_7:
	cmp	x16, x29
	b.ls	LBB56_2
	ldr	w10, [x2, x21, lsl #2]
	ldr	w11, [x2, x29, lsl #2]
	cmp	w11, w10
	b.lo	LBB56_2
	tbz	w11, #31, LBB56_14
	b	LBB56_2
LBB56_10:
	mov	w8, wzr
	cmp	x28, #4
	add	x29, x21, #1
	b.eq	LBB56_7
LBB56_11:
	cmp	x28, #8
	b.ne	LBB56_2
	cmp	x15, x29
	b.ls	LBB56_2
	ldr	x10, [x2, x21, lsl #3]
	ldr	x11, [x2, x29, lsl #3]
	cmp	x11, x10
	b.lo	LBB56_2
LBB56_14:
	cmp	x12, x11
	b.lo	LBB56_2
	cmp	x11, x9
	csel	x0, x11, x9, hi
	tbz	w8, #0, LBB56_17
	mov	x23, xzr
	mov	w10, #16
	mov	x9, x0
	b	LBB56_3
LBB56_17:
	cmp	x10, x9
	b.hs	LBB56_19
	mov	x23, xzr
	mov	w10, #17
	mov	x9, x0
	b	LBB56_3
LBB56_19:
	ldr	x8, [sp, #8]
	sub	x5, x11, x10
	cmp	x7, x26
	csel	x24, x7, x26, lo
	cmp	x5, #5
	str	x0, [sp, #80]
	add	x6, x8, x10
	b.hs	LBB56_22
	cmp	x11, x10
	b.eq	LBB56_305
	ldrb	w11, [x6]
	b	LBB56_136
LBB56_22:
	ldrb	w11, [x6]
	cmp	w11, #1
	b.eq	LBB56_59
	cbnz	w11, LBB56_136
	ldur	w9, [x6, #1]
	mov	w8, wzr
	rev	w10, w9
	lsr	w9, w10, #29
	cbz	w9, LBB56_60
LBB56_25:
	mov	w9, #3
	movk	w9, #8192, lsl #16
	cmp	w10, w9
	mov	w9, wzr
	b.le	LBB56_94
	mov	w17, #5
	movk	w17, #8192, lsl #16
	cmp	w10, w17
	b.gt	LBB56_114
	mov	w12, #4
	movk	w12, #8192, lsl #16
	cmp	w10, w12
	b.eq	LBB56_198
	mov	w12, #5
	movk	w12, #8192, lsl #16
	cmp	w10, w12
	b.ne	LBB56_136
LBB56_29:
	subs	x12, x5, #13
	b.lo	LBB56_305
	ldur	w10, [x6, #9]
	cmp	w8, #0
	rev	w11, w10
	csel	w11, w10, w11, ne
	cbz	w11, LBB56_239
	and	w10, w9, #0xff
	mov	w13, #1000
	mov	w14, w9
	mul	w13, w10, w13
	add	x10, x6, #13
	and	x14, x14, #0xff
	mov	x15, x11
	orr	w13, w13, #0x2
LBB56_32:
	cmp	x12, #5
	b.hs	LBB56_35
	cbz	x12, LBB56_305
	ldrb	w17, [x10]
	b	LBB56_41
LBB56_35:
	ldrb	w17, [x10]
	cmp	w17, #1
	b.eq	LBB56_38
	cbnz	w17, LBB56_41
	ldur	w0, [x10, #1]
	mov	w16, wzr
	rev	w0, w0
	b	LBB56_39
LBB56_38:
	ldur	w0, [x10, #1]
	mov	w16, #1
LBB56_39:
	cmp	w0, w13
	b.ne	LBB56_41
	mov	w17, #9
	mov	w0, #5
	b	LBB56_55
LBB56_41:
	cbz	w17, LBB56_44
	cmp	w17, #1
	b.ne	LBB56_305
	mov	w16, #1
	b	LBB56_45
LBB56_44:
	mov	w16, wzr
LBB56_45:
	cmp	x12, #5
	b.lo	LBB56_305
	ldur	w17, [x10, #1]
	cmp	w16, #0
	mov	w3, #-536870912
	rev	w0, w17
	csel	w2, w17, w0, ne
	mov	w0, #-1073741824
	ubfx	w17, w2, #30, #1
	and	w1, w2, #0x7fffffff
	add	w0, w1, w0
	cmp	w17, #0
	csel	w0, w1, w0, eq
	lsr	w17, w0, #29
	add	w3, w0, w3
	cmp	w17, #0
	csel	w3, w3, w0, ne
	cmp	w3, #3999
	b.hi	LBB56_305
	mov	w0, #35128
	mov	w4, #1000
	movk	w0, #65, lsl #16
	umull	x0, w3, w0
	lsr	x0, x0, #32
	msub	w0, w0, w4, w3
	sub	w4, w0, #1
	cmp	w4, #6
	b.hi	LBB56_305
	tbnz	w2, #31, LBB56_51
	mov	w2, #19923
	movk	w2, #4194, lsl #16
	umull	x2, w3, w2
	lsr	w3, w1, #30
	lsr	x1, x2, #38
	cbz	w3, LBB56_52
	lsl	w1, w1, #3
	mov	w2, #770
	movk	w2, #770, lsl #16
	lsr	w1, w2, w1
	b	LBB56_52
LBB56_51:
	lsr	w1, w1, #30
	cmp	w3, #2000
	ccmp	w1, #0, #0, lo
	mov	w1, #3
	csinc	w1, w1, wzr, ne
LBB56_52:
	cmp	w0, #2
	b.ne	LBB56_305
	and	w0, w1, #0xff
	cmp	w0, w9, uxtb
	b.ne	LBB56_305
	cmp	w17, #0
	mov	w17, #9
	mov	w0, #5
	mov	w1, #13
	csel	x0, x17, x0, ne
	csel	x17, x1, x17, ne
LBB56_55:
	add	x1, x0, #4
	cmp	x12, x1
	b.lo	LBB56_305
	ldr	w0, [x10, x0]
	cmp	w16, #0
	adrp	x16, Lswitch.table.wkb_raw_write.374@PAGE
	add	x16, x16, Lswitch.table.wkb_raw_write.374@PAGEOFF
	rev	w1, w0
	ldr	x16, [x16, x14, lsl #3]
	csel	w0, w0, w1, ne
	madd	x16, x16, x0, x17
	subs	x12, x12, x16
	b.lo	LBB56_305
	subs	x15, x15, #1
	add	x10, x10, x16
	b.ne	LBB56_32
	mov	x10, x11
	b	LBB56_240
LBB56_59:
	ldur	w10, [x6, #1]
	mov	w8, #1
	lsr	w9, w10, #29
	cbnz	w9, LBB56_25
LBB56_60:
	cmp	w10, #3
	b.le	LBB56_104
	cmp	w10, #5
	b.gt	LBB56_116
	cmp	w10, #4
	b.eq	LBB56_303
	cmp	w10, #5
	b.ne	LBB56_118
LBB56_64:
	subs	x12, x5, #9
	b.lo	LBB56_305
	ldur	w10, [x6, #5]
	cmp	w8, #0
	rev	w11, w10
	csel	w11, w10, w11, ne
	cbz	w11, LBB56_235
	and	w10, w9, #0xff
	mov	w13, #1000
	mov	w14, w9
	mul	w13, w10, w13
	add	x10, x6, #9
	and	x14, x14, #0xff
	mov	x15, x11
	orr	w13, w13, #0x2
LBB56_67:
	cmp	x12, #5
	b.hs	LBB56_70
	cbz	x12, LBB56_305
	ldrb	w17, [x10]
	b	LBB56_76
LBB56_70:
	ldrb	w17, [x10]
	cmp	w17, #1
	b.eq	LBB56_73
	cbnz	w17, LBB56_76
	ldur	w0, [x10, #1]
	mov	w16, wzr
	rev	w0, w0
	b	LBB56_74
LBB56_73:
	ldur	w0, [x10, #1]
	mov	w16, #1
LBB56_74:
	cmp	w0, w13
	b.ne	LBB56_76
	mov	w17, #9
	mov	w0, #5
	b	LBB56_90
LBB56_76:
	cbz	w17, LBB56_79
	cmp	w17, #1
	b.ne	LBB56_305
	mov	w16, #1
	b	LBB56_80
LBB56_79:
	mov	w16, wzr
LBB56_80:
	cmp	x12, #5
	b.lo	LBB56_305
	ldur	w17, [x10, #1]
	cmp	w16, #0
	mov	w3, #-536870912
	rev	w0, w17
	csel	w1, w17, w0, ne
	mov	w0, #-1073741824
	ubfx	w17, w1, #30, #1
	and	w2, w1, #0x7fffffff
	add	w0, w2, w0
	cmp	w17, #0
	csel	w0, w2, w0, eq
	lsr	w17, w0, #29
	add	w3, w0, w3
	cmp	w17, #0
	csel	w3, w3, w0, ne
	cmp	w3, #3999
	b.hi	LBB56_305
	mov	w0, #35128
	mov	w4, #1000
	movk	w0, #65, lsl #16
	umull	x0, w3, w0
	lsr	x0, x0, #32
	msub	w0, w0, w4, w3
	sub	w4, w0, #1
	cmp	w4, #6
	b.hi	LBB56_305
	lsr	w2, w2, #30
	tbnz	w1, #31, LBB56_86
	mov	w1, #19923
	movk	w1, #4194, lsl #16
	umull	x1, w3, w1
	lsr	x1, x1, #38
	cbz	w2, LBB56_87
	lsl	w1, w1, #3
	mov	w2, #770
	movk	w2, #770, lsl #16
	lsr	w1, w2, w1
	b	LBB56_87
LBB56_86:
	cmp	w3, #2000
	mov	w1, #3
	ccmp	w2, #0, #0, lo
	csinc	w1, w1, wzr, ne
LBB56_87:
	cmp	w0, #2
	b.ne	LBB56_305
	and	w0, w1, #0xff
	cmp	w0, w9, uxtb
	b.ne	LBB56_305
	cmp	w17, #0
	mov	w17, #9
	mov	w0, #5
	mov	w1, #13
	csel	x0, x17, x0, ne
	csel	x17, x1, x17, ne
LBB56_90:
	add	x1, x0, #4
	cmp	x12, x1
	b.lo	LBB56_305
	ldr	w0, [x10, x0]
	cmp	w16, #0
	adrp	x16, Lswitch.table.wkb_raw_write.374@PAGE
	add	x16, x16, Lswitch.table.wkb_raw_write.374@PAGEOFF
	rev	w1, w0
	ldr	x16, [x16, x14, lsl #3]
	csel	w0, w0, w1, ne
	madd	x16, x16, x0, x17
	subs	x12, x12, x16
	b.lo	LBB56_305
	subs	x15, x15, #1
	add	x10, x10, x16
	b.ne	LBB56_67
	mov	x10, x11
	b	LBB56_236
LBB56_94:
	mov	w17, #1
	movk	w17, #8192, lsl #16
	cmp	w10, w17
	b.eq	LBB56_255
	mov	w12, #2
	movk	w12, #8192, lsl #16
	cmp	w10, w12
	b.eq	LBB56_226
	mov	w12, #3
	movk	w12, #8192, lsl #16
	cmp	w10, w12
	b.ne	LBB56_136
LBB56_97:
	subs	x12, x5, #13
	b.lo	LBB56_305
	ldur	w10, [x6, #9]
	cmp	w8, #0
	rev	w11, w10
	csel	w11, w10, w11, ne
	cbz	w11, LBB56_241
	mov	w13, w9
	add	x10, x6, #13
	mov	x14, x11
	and	x13, x13, #0xff
LBB56_100:
	cmp	x12, #4
	b.lo	LBB56_305
	ldr	w15, [x10]
	adrp	x17, Lswitch.table.wkb_raw_write.374@PAGE
	add	x17, x17, Lswitch.table.wkb_raw_write.374@PAGEOFF
	cmp	w8, #0
	ldr	x17, [x17, x13, lsl #3]
	rev	w16, w15
	csel	w15, w15, w16, ne
	mul	x15, x17, x15
	orr	x15, x15, #0x4
	subs	x12, x12, x15
	b.lo	LBB56_305
	subs	x14, x14, #1
	add	x10, x10, x15
	b.ne	LBB56_100
	mov	x10, x11
	b	LBB56_242
LBB56_104:
	cmp	w10, #1
	b.eq	LBB56_258
	cmp	w10, #2
	b.eq	LBB56_229
	cmp	w10, #3
	b.ne	LBB56_118
LBB56_107:
	subs	x12, x5, #9
	b.lo	LBB56_305
	ldur	w10, [x6, #5]
	cmp	w8, #0
	rev	w11, w10
	csel	w11, w10, w11, ne
	cbz	w11, LBB56_233
	mov	w13, w9
	add	x10, x6, #9
	mov	x14, x11
	and	x13, x13, #0xff
LBB56_110:
	cmp	x12, #4
	b.lo	LBB56_305
	ldr	w15, [x10]
	adrp	x17, Lswitch.table.wkb_raw_write.374@PAGE
	add	x17, x17, Lswitch.table.wkb_raw_write.374@PAGEOFF
	cmp	w8, #0
	ldr	x17, [x17, x13, lsl #3]
	rev	w16, w15
	csel	w15, w15, w16, ne
	mul	x15, x17, x15
	orr	x15, x15, #0x4
	subs	x12, x12, x15
	b.lo	LBB56_305
	subs	x14, x14, #1
	add	x10, x10, x15
	b.ne	LBB56_110
	mov	x10, x11
	b	LBB56_234
LBB56_114:
	mov	w12, #6
	movk	w12, #8192, lsl #16
	cmp	w10, w12
	b.eq	LBB56_155
	mov	w8, #7
	movk	w8, #8192, lsl #16
	cmp	w10, w8
	b.eq	LBB56_305
	b	LBB56_136
LBB56_116:
	cmp	w10, #6
	b.eq	LBB56_263
	cmp	w10, #7
	b.eq	LBB56_305
LBB56_118:
	sub	w9, w10, #1001
	cmp	w9, #7
	b.hs	LBB56_123
	cmp	w10, #1003
	mov	w9, #1
	b.gt	LBB56_128
	cmp	w10, #1001
	b.eq	LBB56_250
	cmp	w10, #1002
	b.eq	LBB56_229
	cmp	w10, #1003
	b.eq	LBB56_107
	b	LBB56_305
LBB56_123:
	sub	w9, w10, #2001
	cmp	w9, #7
	b.hs	LBB56_131
	cmp	w10, #2003
	mov	w9, #2
	b.gt	LBB56_251
	cmp	w10, #2001
	b.eq	LBB56_250
	cmp	w10, #2002
	b.eq	LBB56_229
	cmp	w10, #2003
	b.eq	LBB56_107
	b	LBB56_305
LBB56_128:
	cmp	w10, #1004
	b.eq	LBB56_303
	cmp	w10, #1005
	b.eq	LBB56_64
	cmp	w10, #1006
	b.eq	LBB56_263
	b	LBB56_305
LBB56_131:
	sub	w9, w10, #3001
	cmp	w9, #7
	b.hs	LBB56_136
	cmp	w10, #3003
	mov	w9, #3
	b.gt	LBB56_260
	cmp	w10, #3001
	b.eq	LBB56_354
	cmp	w10, #3002
	b.eq	LBB56_229
	cmp	w10, #3003
	b.eq	LBB56_107
	b	LBB56_305
LBB56_136:
	cbz	w11, LBB56_139
	cmp	w11, #1
	b.ne	LBB56_305
	mov	w8, #1
	cmp	x5, #5
	b.hs	LBB56_140
	b	LBB56_305
LBB56_139:
	mov	w8, wzr
	cmp	x5, #5
	b.lo	LBB56_305
LBB56_140:
	ldur	w9, [x6, #1]
	cmp	w8, #0
	mov	w11, #-1073741824
	mov	w13, #-536870912
	rev	w10, w9
	csel	w12, w9, w10, ne
	ubfx	w10, w12, #30, #1
	and	w9, w12, #0x7fffffff
	add	w11, w9, w11
	cmp	w10, #0
	csel	w11, w9, w11, eq
	lsr	w10, w11, #29
	add	w13, w11, w13
	cmp	w10, #0
	csel	w13, w13, w11, ne
	cmp	w13, #3999
	b.hi	LBB56_305
	mov	w11, #35128
	mov	w14, #1000
	movk	w11, #65, lsl #16
	umull	x11, w13, w11
	lsr	x11, x11, #32
	msub	w11, w11, w14, w13
	sub	w14, w11, #1
	cmp	w14, #7
	b.hs	LBB56_305
	tbnz	w12, #31, LBB56_145
	mov	w12, #19923
	movk	w12, #4194, lsl #16
	umull	x12, w13, w12
	lsr	w13, w9, #30
	lsr	x9, x12, #38
	cbz	w13, LBB56_146
	lsl	w9, w9, #3
	mov	w12, #770
	movk	w12, #770, lsl #16
	lsr	w9, w12, w9
	b	LBB56_146
LBB56_145:
	lsr	w9, w9, #30
	cmp	w13, #2000
	ccmp	w9, #0, #0, lo
	mov	w9, #3
	csinc	w9, w9, wzr, ne
LBB56_146:
	cmp	w11, #3
	b.gt	LBB56_151
	cmp	w11, #1
	b.eq	LBB56_194
	cmp	w11, #2
	b.eq	LBB56_225
	cmp	w11, #3
	b.ne	LBB56_305
	cbnz	w10, LBB56_97
	b	LBB56_107
LBB56_151:
	cmp	w11, #4
	b.eq	LBB56_197
	cmp	w11, #5
	b.eq	LBB56_232
	cmp	w11, #6
	b.ne	LBB56_305
	cbz	w10, LBB56_263
LBB56_155:
	subs	x12, x5, #13
	b.lo	LBB56_305
	ldur	w10, [x6, #9]
	cmp	w8, #0
	rev	w11, w10
	csel	w11, w10, w11, ne
	cbz	w11, LBB56_237
	and	w14, w9, #0xff
	mov	w15, #1000
	mov	w16, w9
	mul	w15, w14, w15
	mov	w13, wzr
	mov	x10, xzr
	add	x14, x6, #13
	and	x16, x16, #0xff
	orr	w15, w15, #0x3
LBB56_158:
	cmp	x12, #5
	b.hs	LBB56_161
	cbz	x12, LBB56_305
	ldrb	w0, [x14]
	b	LBB56_167
LBB56_161:
	ldrb	w0, [x14]
	cmp	w0, #1
	b.eq	LBB56_164
	cbnz	w0, LBB56_167
	ldur	w1, [x14, #1]
	mov	w17, wzr
	rev	w1, w1
	b	LBB56_165
LBB56_164:
	ldur	w1, [x14, #1]
	mov	w17, #1
LBB56_165:
	cmp	w1, w15
	b.ne	LBB56_167
	mov	w0, #5
	b	LBB56_181
LBB56_167:
	cbz	w0, LBB56_170
	cmp	w0, #1
	b.ne	LBB56_305
	mov	w17, #1
	b	LBB56_171
LBB56_170:
	mov	w17, wzr
LBB56_171:
	cmp	x12, #5
	b.lo	LBB56_305
	ldur	w0, [x14, #1]
	cmp	w17, #0
	mov	w4, #-536870912
	rev	w1, w0
	csel	w3, w0, w1, ne
	mov	w1, #-1073741824
	ubfx	w0, w3, #30, #1
	and	w2, w3, #0x7fffffff
	add	w1, w2, w1
	cmp	w0, #0
	csel	w1, w2, w1, eq
	lsr	w0, w1, #29
	add	w4, w1, w4
	cmp	w0, #0
	csel	w4, w4, w1, ne
	cmp	w4, #3999
	b.hi	LBB56_305
	mov	w1, #35128
	mov	x22, x5
	mov	w5, #1000
	movk	w1, #65, lsl #16
	umull	x1, w4, w1
	lsr	x1, x1, #32
	msub	w1, w1, w5, w4
	sub	w5, w1, #1
	cmp	w5, #6
	mov	x5, x22
	b.hi	LBB56_305
	tbnz	w3, #31, LBB56_177
	mov	w3, #19923
	movk	w3, #4194, lsl #16
	umull	x3, w4, w3
	lsr	w4, w2, #30
	lsr	x2, x3, #38
	cbz	w4, LBB56_178
	lsl	w2, w2, #3
	mov	w3, #770
	movk	w3, #770, lsl #16
	lsr	w2, w3, w2
	b	LBB56_178
LBB56_177:
	lsr	w2, w2, #30
	cmp	w4, #2000
	ccmp	w2, #0, #0, lo
	mov	w2, #3
	csinc	w2, w2, wzr, ne
LBB56_178:
	cmp	w1, #3
	b.ne	LBB56_305
	and	w1, w2, #0xff
	cmp	w1, w9, uxtb
	b.ne	LBB56_305
	cmp	w0, #0
	mov	w0, #9
	mov	w1, #5
	csel	x0, x0, x1, ne
LBB56_181:
	add	x1, x0, #4
	cmp	x12, x1
	b.lo	LBB56_305
	add	x14, x14, x0
	cmp	w17, #0
	sub	x12, x12, x0
	ldr	w1, [x14], #4
	sub	x12, x12, #4
	rev	w2, w1
	csel	w0, w1, w2, ne
	cbz	w0, LBB56_188
	add	x10, x10, #2
	tbz	w17, #0, LBB56_189
	sub	w17, w1, #1
	add	x10, x10, x17
LBB56_185:
	cmp	x12, #4
	b.lo	LBB56_305
	adrp	x1, Lswitch.table.wkb_raw_write.374@PAGE
	add	x1, x1, Lswitch.table.wkb_raw_write.374@PAGEOFF
	ldr	w17, [x14]
	ldr	x1, [x1, x16, lsl #3]
	mul	x17, x1, x17
	orr	x17, x17, #0x4
	subs	x12, x12, x17
	b.lo	LBB56_305
	subs	w0, w0, #1
	add	x14, x14, x17
	b.ne	LBB56_185
	b	LBB56_193
LBB56_188:
	add	x10, x10, #1
	b	LBB56_193
LBB56_189:
	sub	w17, w2, #1
	add	x10, x10, x17
LBB56_190:
	cmp	x12, #4
	b.lo	LBB56_305
	ldr	w17, [x14]
	adrp	x1, Lswitch.table.wkb_raw_write.374@PAGE
	add	x1, x1, Lswitch.table.wkb_raw_write.374@PAGEOFF
	ldr	x1, [x1, x16, lsl #3]
	rev	w17, w17
	mul	x17, x1, x17
	orr	x17, x17, #0x4
	subs	x12, x12, x17
	b.lo	LBB56_305
	subs	w0, w0, #1
	add	x14, x14, x17
	b.ne	LBB56_190
LBB56_193:
	add	w13, w13, #1
	cmp	w13, w11
	b.ne	LBB56_158
	b	LBB56_238
LBB56_194:
	cbz	w10, LBB56_249
	and	w10, w9, #0xff
	sub	w11, w10, #1
	cmp	w11, #2
	b.hs	LBB56_254
	mov	w12, #33
	cmp	x5, x12
	b.lo	LBB56_305
	b	LBB56_256
LBB56_197:
	cbz	w10, LBB56_303
LBB56_198:
	subs	x11, x5, #13
	b.lo	LBB56_305
	ldur	w10, [x6, #9]
	mov	w12, w9
	adrp	x14, Lswitch.table.wkb_raw_write.371@PAGE
	add	x14, x14, Lswitch.table.wkb_raw_write.371@PAGEOFF
	and	x12, x12, #0xff
	cmp	w8, #0
	rev	w13, w10
	ldr	x12, [x14, x12, lsl #3]
	csel	w10, w10, w13, ne
	mov	x13, #13
	madd	x12, x12, x10, x13
	cmp	x5, x12
	b.lo	LBB56_305
	cbz	w10, LBB56_224
	and	w12, w9, #0xff
	mov	w13, #1000
	mov	w14, w9
	mul	w13, w12, w13
	add	x12, x6, #13
	and	x14, x14, #0xff
	mov	x15, x10
	orr	w13, w13, #0x1
LBB56_202:
	cmp	x11, #5
	b.hs	LBB56_205
	cbz	x11, LBB56_305
	ldrb	w16, [x12]
	b	LBB56_210
LBB56_205:
	ldrb	w16, [x12]
	cmp	w16, #1
	b.eq	LBB56_208
	cbnz	w16, LBB56_210
	ldur	w17, [x12, #1]
	rev	w17, w17
	b	LBB56_209
LBB56_208:
	ldur	w17, [x12, #1]
LBB56_209:
	cmp	w17, w13
	b.eq	LBB56_222
LBB56_210:
	cbz	w16, LBB56_212
	cmp	w16, #1
	b.ne	LBB56_305
LBB56_212:
	cmp	x11, #5
	b.lo	LBB56_305
	ldur	w17, [x12, #1]
	cmp	w16, #0
	mov	w2, #-536870912
	rev	w0, w17
	csel	w1, w17, w0, ne
	mov	w17, #-1073741824
	ubfx	w16, w1, #30, #1
	and	w0, w1, #0x7fffffff
	add	w17, w0, w17
	cmp	w16, #0
	csel	w17, w0, w17, eq
	lsr	w16, w17, #29
	add	w2, w17, w2
	cmp	w16, #0
	csel	w2, w2, w17, ne
	cmp	w2, #3999
	b.hi	LBB56_305
	mov	w17, #35128
	mov	w3, #1000
	movk	w17, #65, lsl #16
	umull	x17, w2, w17
	lsr	x17, x17, #32
	msub	w17, w17, w3, w2
	sub	w3, w17, #1
	cmp	w3, #6
	b.hi	LBB56_305
	tbnz	w1, #31, LBB56_218
	mov	w1, #19923
	movk	w1, #4194, lsl #16
	umull	x1, w2, w1
	lsr	w2, w0, #30
	lsr	x0, x1, #38
	cbz	w2, LBB56_219
	lsl	w0, w0, #3
	mov	w1, #770
	movk	w1, #770, lsl #16
	lsr	w0, w1, w0
	b	LBB56_219
LBB56_218:
	lsr	w0, w0, #30
	cmp	w2, #2000
	ccmp	w0, #0, #0, lo
	mov	w0, #3
	csinc	w0, w0, wzr, ne
LBB56_219:
	cbnz	w16, LBB56_305
	cmp	w17, #1
	b.ne	LBB56_305
	and	w16, w0, #0xff
	cmp	w16, w9, uxtb
	b.ne	LBB56_305
LBB56_222:
	adrp	x16, Lswitch.table.wkb_raw_write.371@PAGE
	add	x16, x16, Lswitch.table.wkb_raw_write.371@PAGEOFF
	ldr	x16, [x16, x14, lsl #3]
	subs	x11, x11, x16
	b.lo	LBB56_305
	subs	x15, x15, #1
	add	x12, x12, x16
	b.ne	LBB56_202
LBB56_224:
	ldur	w14, [x6, #5]
	cmp	w8, #0
	add	x23, x10, #1
	sub	x12, x5, x11
	mov	w13, #1
	mov	w11, w10
	rev	w15, w14
	csel	w15, w14, w15, ne
	mov	w14, #4
	b	LBB56_243
LBB56_225:
	cbz	w10, LBB56_229
LBB56_226:
	cmp	x5, #13
	b.lo	LBB56_305
	ldur	w10, [x6, #9]
	mov	w11, w9
	adrp	x13, Lswitch.table.wkb_raw_write.374@PAGE
	add	x13, x13, Lswitch.table.wkb_raw_write.374@PAGEOFF
	and	x11, x11, #0xff
	cmp	w8, #0
	rev	w12, w10
	ldr	x13, [x13, x11, lsl #3]
	csel	w11, w10, w12, ne
	mov	x10, #13
	madd	x12, x13, x11, x10
	cmp	x5, x12
	b.lo	LBB56_305
	ldur	w15, [x6, #5]
	cmp	w8, #0
	mov	x10, xzr
	mov	w13, #1
	mov	w14, #2
	mov	w23, #1
	rev	w16, w15
	csel	w15, w15, w16, ne
	b	LBB56_243
LBB56_229:
	cmp	x5, #9
	b.lo	LBB56_305
	ldur	w10, [x6, #5]
	mov	w11, w9
	adrp	x13, Lswitch.table.wkb_raw_write.374@PAGE
	add	x13, x13, Lswitch.table.wkb_raw_write.374@PAGEOFF
	and	x11, x11, #0xff
	cmp	w8, #0
	rev	w12, w10
	ldr	x13, [x13, x11, lsl #3]
	csel	w11, w10, w12, ne
	mov	x10, #9
	madd	x12, x13, x11, x10
	cmp	x5, x12
	b.lo	LBB56_305
	mov	x10, xzr
	mov	w13, wzr
	mov	w14, #2
	mov	w23, #1
	mov	w16, #5
	b	LBB56_244
LBB56_232:
	cbnz	w10, LBB56_29
	b	LBB56_64
LBB56_233:
	mov	x10, xzr
LBB56_234:
	mov	w13, wzr
	add	x23, x10, #1
	sub	x12, x5, x12
	mov	w14, #3
	mov	w16, #5
	b	LBB56_244
LBB56_235:
	mov	x10, xzr
LBB56_236:
	mov	w13, wzr
	add	x23, x10, #1
	sub	x12, x5, x12
	mov	w14, #5
	mov	w16, #5
	b	LBB56_244
LBB56_237:
	mov	x10, xzr
LBB56_238:
	ldur	w13, [x6, #5]
	cmp	w8, #0
	add	x23, x10, #1
	sub	x12, x5, x12
	rev	w14, w13
	csel	w15, w13, w14, ne
	mov	w13, #1
	mov	w14, #6
	b	LBB56_243
LBB56_239:
	mov	x10, xzr
LBB56_240:
	ldur	w14, [x6, #5]
	cmp	w8, #0
	add	x23, x10, #1
	sub	x12, x5, x12
	mov	w13, #1
	rev	w15, w14
	csel	w15, w14, w15, ne
	mov	w14, #5
	b	LBB56_243
LBB56_241:
	mov	x10, xzr
LBB56_242:
	ldur	w14, [x6, #5]
	cmp	w8, #0
	add	x23, x10, #1
	sub	x12, x5, x12
	mov	w13, #1
	rev	w15, w14
	csel	w15, w14, w15, ne
	mov	w14, #3
LBB56_243:
	mov	w16, #9
LBB56_244:
	cmp	x10, #0
	add	x16, x16, #4
	mov	w11, w11
	cset	w10, eq
LBB56_245:
	sub	x4, x7, x24
	cmp	w13, #0
	csel	w15, w15, wzr, ne
	cmp	x4, x23
	b.lo	LBB56_325
	ldr	x17, [sp]
	add	x3, x17, x24, lsl #6
	cbz	w10, LBB56_248
	mov	w17, w9
	adrp	x0, Lswitch.table.wkb_raw_parts.323@PAGE
	add	x0, x0, Lswitch.table.wkb_raw_parts.323@PAGEOFF
	and	x17, x17, #0xff
	mov	w10, wzr
	and	w9, w9, #0xff
	ldr	w17, [x0, x17, lsl #2]
	stp	x16, x11, [x3, #16]
	mov	w11, #1
	stp	xzr, x12, [x3]
	str	x11, [x3, #32]
	stp	w15, w13, [x3, #40]
	stp	w14, w9, [x3, #48]
	b	LBB56_319
LBB56_248:
	mov	x0, x6
	mov	x1, x5
	b	LBB56_320
LBB56_249:
	and	w10, w9, #0xff
	sub	w11, w10, #1
	cmp	w11, #2
	b.hs	LBB56_257
LBB56_250:
	mov	w12, #29
	cmp	x5, x12
	b.lo	LBB56_305
	b	LBB56_259
LBB56_251:
	cmp	w10, #2004
	b.eq	LBB56_303
	cmp	w10, #2005
	b.eq	LBB56_64
	cmp	w10, #2006
	b.eq	LBB56_263
	b	LBB56_305
LBB56_254:
	cbnz	w10, LBB56_355
LBB56_255:
	mov	w12, #25
	cmp	x5, x12
	b.lo	LBB56_305
LBB56_256:
	ldur	w11, [x6, #5]
	cmp	w8, #0
	mov	w23, #1
	mov	w10, #1
	mov	w13, w23
	mov	w16, #9
	rev	w14, w11
	csel	w15, w11, w14, ne
	mov	w14, w23
	mov	w11, #1
	b	LBB56_245
LBB56_257:
	cbnz	w10, LBB56_354
LBB56_258:
	mov	w12, #21
	cmp	x5, x12
	b.lo	LBB56_305
LBB56_259:
	mov	w23, #1
	mov	w13, wzr
	mov	w10, #1
	mov	w14, w23
	mov	w16, #5
	mov	w11, #1
	b	LBB56_245
LBB56_260:
	cmp	w10, #3004
	b.eq	LBB56_303
	cmp	w10, #3005
	b.eq	LBB56_64
	cmp	w10, #3006
	b.ne	LBB56_305
LBB56_263:
	subs	x12, x5, #9
	b.lo	LBB56_305
	ldur	w10, [x6, #5]
	cmp	w8, #0
	rev	w11, w10
	csel	w11, w10, w11, ne
	cbz	w11, LBB56_353
	and	w14, w9, #0xff
	mov	w15, #1000
	mov	w16, w9
	mul	w15, w14, w15
	mov	w13, wzr
	mov	x10, xzr
	add	x14, x6, #9
	and	x16, x16, #0xff
	orr	w15, w15, #0x3
LBB56_266:
	cmp	x12, #5
	b.hs	LBB56_269
	cbz	x12, LBB56_305
	ldrb	w0, [x14]
	b	LBB56_275
LBB56_269:
	ldrb	w0, [x14]
	cmp	w0, #1
	b.eq	LBB56_272
	cbnz	w0, LBB56_275
	ldur	w1, [x14, #1]
	mov	w17, wzr
	rev	w1, w1
	b	LBB56_273
LBB56_272:
	ldur	w1, [x14, #1]
	mov	w17, #1
LBB56_273:
	cmp	w1, w15
	b.ne	LBB56_275
	mov	w0, #5
	b	LBB56_289
LBB56_275:
	cbz	w0, LBB56_278
	cmp	w0, #1
	b.ne	LBB56_305
	mov	w17, #1
	b	LBB56_279
LBB56_278:
	mov	w17, wzr
LBB56_279:
	cmp	x12, #5
	b.lo	LBB56_305
	ldur	w0, [x14, #1]
	cmp	w17, #0
	mov	w4, #-536870912
	rev	w1, w0
	csel	w2, w0, w1, ne
	mov	w1, #-1073741824
	ubfx	w0, w2, #30, #1
	and	w3, w2, #0x7fffffff
	add	w1, w3, w1
	cmp	w0, #0
	csel	w1, w3, w1, eq
	lsr	w0, w1, #29
	add	w4, w1, w4
	cmp	w0, #0
	csel	w4, w4, w1, ne
	cmp	w4, #3999
	b.hi	LBB56_305
	mov	w1, #35128
	mov	x22, x5
	mov	w5, #1000
	movk	w1, #65, lsl #16
	umull	x1, w4, w1
	lsr	x1, x1, #32
	msub	w1, w1, w5, w4
	sub	w5, w1, #1
	cmp	w5, #6
	mov	x5, x22
	b.hi	LBB56_305
	lsr	w3, w3, #30
	tbnz	w2, #31, LBB56_285
	mov	w2, #19923
	movk	w2, #4194, lsl #16
	umull	x2, w4, w2
	lsr	x2, x2, #38
	cbz	w3, LBB56_286
	lsl	w2, w2, #3
	mov	w3, #770
	movk	w3, #770, lsl #16
	lsr	w2, w3, w2
	b	LBB56_286
LBB56_285:
	cmp	w4, #2000
	mov	w2, #3
	ccmp	w3, #0, #0, lo
	csinc	w2, w2, wzr, ne
LBB56_286:
	cmp	w1, #3
	b.ne	LBB56_305
	and	w1, w2, #0xff
	cmp	w1, w9, uxtb
	b.ne	LBB56_305
	cmp	w0, #0
	mov	w0, #9
	mov	w1, #5
	csel	x0, x0, x1, ne
LBB56_289:
	add	x1, x0, #4
	cmp	x12, x1
	b.lo	LBB56_305
	add	x14, x14, x0
	cmp	w17, #0
	sub	x12, x12, x0
	ldr	w1, [x14], #4
	sub	x12, x12, #4
	rev	w2, w1
	csel	w0, w1, w2, ne
	cbz	w0, LBB56_296
	add	x10, x10, #2
	tbz	w17, #0, LBB56_297
	sub	w17, w1, #1
	add	x10, x10, x17
LBB56_293:
	cmp	x12, #4
	b.lo	LBB56_305
	adrp	x1, Lswitch.table.wkb_raw_write.374@PAGE
	add	x1, x1, Lswitch.table.wkb_raw_write.374@PAGEOFF
	ldr	w17, [x14]
	ldr	x1, [x1, x16, lsl #3]
	mul	x17, x1, x17
	orr	x17, x17, #0x4
	subs	x12, x12, x17
	b.lo	LBB56_305
	subs	w0, w0, #1
	add	x14, x14, x17
	b.ne	LBB56_293
	b	LBB56_301
LBB56_296:
	add	x10, x10, #1
	b	LBB56_301
LBB56_297:
	sub	w17, w2, #1
	add	x10, x10, x17
LBB56_298:
	cmp	x12, #4
	b.lo	LBB56_305
	ldr	w17, [x14]
	adrp	x1, Lswitch.table.wkb_raw_write.374@PAGE
	add	x1, x1, Lswitch.table.wkb_raw_write.374@PAGEOFF
	ldr	x1, [x1, x16, lsl #3]
	rev	w17, w17
	mul	x17, x1, x17
	orr	x17, x17, #0x4
	subs	x12, x12, x17
	b.lo	LBB56_305
	subs	w0, w0, #1
	add	x14, x14, x17
	b.ne	LBB56_298
LBB56_301:
	add	w13, w13, #1
	cmp	w13, w11
	b.ne	LBB56_266
	mov	w13, wzr
	add	x23, x10, #1
	sub	x12, x5, x12
	mov	w14, #6
	mov	w16, #5
	b	LBB56_244
LBB56_303:
	subs	x10, x5, #9
	b.lo	LBB56_305
	ldur	w11, [x6, #5]
	mov	w12, w9
	adrp	x14, Lswitch.table.wkb_raw_write.371@PAGE
	add	x14, x14, Lswitch.table.wkb_raw_write.371@PAGEOFF
	and	x12, x12, #0xff
	cmp	w8, #0
	rev	w13, w11
	ldr	x12, [x14, x12, lsl #3]
	csel	w11, w11, w13, ne
	mov	x13, #9
	madd	x12, x12, x11, x13
	cmp	x5, x12
	b.hs	LBB56_328
LBB56_305:
	add	x0, sp, #88
	mov	x1, x6
	mov	x2, x5
	mov	x23, x6
	mov	x22, x5
	bl	_ZN7wkb_raw6erased7wkb_abi6column9check_row17h3e84d1932f31260dE
	ldp	w9, w10, [sp, #88]
	cmp	w9, #2
	b.ne	LBB56_307
	ldp	x7, x9, [sp, #72]
	mov	x23, xzr
	b	LBB56_327
LBB56_307:
	ldrb	w11, [sp, #120]
	ldrb	w8, [sp, #122]
	cmp	w11, #2
	b.le	LBB56_311
	ldr	x7, [sp, #72]
	cmp	w11, #4
	mov	x0, x23
	b.gt	LBB56_314
	cmp	w11, #3
	mov	x1, x22
	b.ne	LBB56_322
	mov	w11, #4
	b	LBB56_324
LBB56_311:
	ldr	x7, [sp, #72]
	mov	x0, x23
	cbz	w11, LBB56_316
	cmp	w11, #1
	mov	x1, x22
	b.ne	LBB56_321
	mov	w11, #2
	b	LBB56_324
LBB56_314:
	cmp	w11, #5
	mov	x1, x22
	b.ne	LBB56_323
	mov	w11, #6
	b	LBB56_324
LBB56_316:
	cmp	w9, #0
	mov	w11, #9
	mov	w12, #5
	mov	x1, x22
	csel	x12, x12, x11, eq
	mov	w11, #1
	mov	w13, #1
	ldr	x23, [sp, #104]
	sub	x4, x7, x24
	tst	w9, #0x1
	csel	w14, w10, wzr, ne
	cmp	x4, x23
	b.lo	LBB56_325
LBB56_317:
	ldr	x10, [sp]
	cmp	x23, #1
	add	x3, x10, x24, lsl #6
	b.ne	LBB56_320
	ldrb	w15, [sp, #121]
	ldr	x16, [sp, #96]
	adrp	x17, Lswitch.table.wkb_raw_parts.323@PAGE
	add	x17, x17, Lswitch.table.wkb_raw_parts.323@PAGEOFF
	mov	w10, wzr
	ldr	w17, [x17, x15, lsl #2]
	stp	x12, x13, [x3, #16]
	mov	w12, #1
	stp	xzr, x16, [x3]
	str	x12, [x3, #32]
	stp	w14, w9, [x3, #40]
	stp	w11, w15, [x3, #48]
LBB56_319:
	ldr	x9, [sp, #80]
	stp	w17, w8, [x3, #56]
	b	LBB56_327
LBB56_320:
	mov	w2, #1
	mov	x5, xzr
	mov	x6, xzr
	bl	_ZN7wkb_raw6erased7wkb_abi5parts14lay_geometries17hceb80ed4adcfb7b9E
	ldr	x7, [sp, #72]
	mov	w10, wzr
	b	LBB56_326
LBB56_321:
	mov	w11, #3
	b	LBB56_324
LBB56_322:
	mov	w11, #5
	b	LBB56_324
LBB56_323:
	mov	w11, #7
LBB56_324:
	cmp	w9, #0
	mov	w12, #9
	mov	w13, #5
	csel	x12, x13, x12, eq
	tst	w8, #0x1
	ldr	w13, [x0, x12]
	add	x12, x12, #4
	rev	w14, w13
	csel	w13, w13, w14, ne
	ldr	x23, [sp, #104]
	sub	x4, x7, x24
	tst	w9, #0x1
	csel	w14, w10, wzr, ne
	cmp	x4, x23
	b.hs	LBB56_317
LBB56_325:
	mov	w10, #2
LBB56_326:
	ldr	x9, [sp, #80]
LBB56_327:
	ldp	x13, x12, [sp, #56]
	mov	w17, #16
	ldp	x15, x14, [sp, #40]
	ldr	x2, [sp, #16]
	ldp	x1, x16, [sp, #24]
	b	LBB56_3
LBB56_328:
	cbz	w11, LBB56_352
	and	w12, w9, #0xff
	mov	w13, #1000
	mov	w14, w9
	mul	w13, w12, w13
	add	x12, x6, #9
	and	x14, x14, #0xff
	mov	x15, x11
	orr	w13, w13, #0x1
LBB56_330:
	cmp	x10, #5
	b.hs	LBB56_333
	cbz	x10, LBB56_305
	ldrb	w16, [x12]
	b	LBB56_338
LBB56_333:
	ldrb	w16, [x12]
	cmp	w16, #1
	b.eq	LBB56_336
	cbnz	w16, LBB56_338
	ldur	w17, [x12, #1]
	rev	w17, w17
	b	LBB56_337
LBB56_336:
	ldur	w17, [x12, #1]
LBB56_337:
	cmp	w17, w13
	b.eq	LBB56_350
LBB56_338:
	cbz	w16, LBB56_340
	cmp	w16, #1
	b.ne	LBB56_305
LBB56_340:
	cmp	x10, #5
	b.lo	LBB56_305
	ldur	w17, [x12, #1]
	cmp	w16, #0
	mov	w2, #-536870912
	rev	w0, w17
	csel	w1, w17, w0, ne
	mov	w17, #-1073741824
	ubfx	w16, w1, #30, #1
	and	w0, w1, #0x7fffffff
	add	w17, w0, w17
	cmp	w16, #0
	csel	w17, w0, w17, eq
	lsr	w16, w17, #29
	add	w2, w17, w2
	cmp	w16, #0
	csel	w2, w2, w17, ne
	cmp	w2, #3999
	b.hi	LBB56_305
	mov	w17, #35128
	mov	w3, #1000
	movk	w17, #65, lsl #16
	umull	x17, w2, w17
	lsr	x17, x17, #32
	msub	w17, w17, w3, w2
	sub	w3, w17, #1
	cmp	w3, #6
	b.hi	LBB56_305
	tbnz	w1, #31, LBB56_346
	mov	w1, #19923
	movk	w1, #4194, lsl #16
	umull	x1, w2, w1
	lsr	w2, w0, #30
	lsr	x0, x1, #38
	cbz	w2, LBB56_347
	lsl	w0, w0, #3
	mov	w1, #770
	movk	w1, #770, lsl #16
	lsr	w0, w1, w0
	b	LBB56_347
LBB56_346:
	lsr	w0, w0, #30
	cmp	w2, #2000
	ccmp	w0, #0, #0, lo
	mov	w0, #3
	csinc	w0, w0, wzr, ne
LBB56_347:
	cbnz	w16, LBB56_305
	cmp	w17, #1
	b.ne	LBB56_305
	and	w16, w0, #0xff
	cmp	w16, w9, uxtb
	b.ne	LBB56_305
LBB56_350:
	adrp	x16, Lswitch.table.wkb_raw_write.371@PAGE
	add	x16, x16, Lswitch.table.wkb_raw_write.371@PAGEOFF
	ldr	x16, [x16, x14, lsl #3]
	subs	x10, x10, x16
	b.lo	LBB56_305
	subs	x15, x15, #1
	add	x12, x12, x16
	b.ne	LBB56_330
LBB56_352:
	mov	w13, wzr
	add	x23, x11, #1
	sub	x12, x5, x10
	mov	w14, #4
	mov	x10, x11
	mov	w16, #5
	b	LBB56_244
LBB56_353:
	mov	x10, xzr
	mov	w13, wzr
	mov	w14, #6
	mov	w23, #1
	mov	w12, #9
	mov	w16, #5
	b	LBB56_244
LBB56_354:
	mov	w12, #37
	cmp	x5, x12
	b.lo	LBB56_305
	b	LBB56_259
LBB56_355:
	mov	w12, #41
	cmp	x5, x12
	b.lo	LBB56_305
	b	LBB56_256
LBB56_356:
	ldp	x20, x19, [sp, #208]
	ldp	x22, x21, [sp, #192]
	ldp	x24, x23, [sp, #176]
	ldp	x26, x25, [sp, #160]
	ldp	x28, x27, [sp, #144]
	ldp	x29, x30, [sp, #128]
	add	sp, sp, #224
	.cfi_def_cfa_offset 0
	.cfi_restore w19
	.cfi_restore w20
	.cfi_restore w21
	.cfi_restore w22
	.cfi_restore w23
	.cfi_restore w24
	.cfi_restore w25
	.cfi_restore w26
	.cfi_restore w27
	.cfi_restore w28
	.cfi_restore w30
	.cfi_restore w29
	ret
Lfunc_end56:
	.cfi_endproc
	.section	__TEXT,__text,regular,pure_instructions
	.private_extern	_wkb_raw_column_write
	.globl	_wkb_raw_column_write
	.p2align	2
_wkb_raw_column_write:
	.cfi_startproc
	hint	#34
	sub	sp, sp, #224
	.cfi_def_cfa_offset 224
	stp	x29, x30, [sp, #128]
	stp	x28, x27, [sp, #144]
	stp	x26, x25, [sp, #160]
	stp	x24, x23, [sp, #176]
	stp	x22, x21, [sp, #192]
	stp	x20, x19, [sp, #208]
	.cfi_offset w19, -8
	.cfi_offset w20, -16
	.cfi_offset w21, -24
	.cfi_offset w22, -32
	.cfi_offset w23, -40
	.cfi_offset w24, -48
	.cfi_offset w25, -56
	.cfi_offset w26, -64
	.cfi_offset w27, -72
	.cfi_offset w28, -80
	.cfi_offset w30, -88
	.cfi_offset w29, -96
	cmp	x5, x7
	stp	x2, x3, [sp, #64]
	csel	x24, x5, x7, lo
	str	x1, [sp, #56]
	cbz	x24, LBB57_336
	ldp	x26, x9, [x0, #16]
	mov	x19, x6
	ldp	x27, x10, [x0, #48]
	mov	x20, x4
	ldp	x11, x13, [x0]
	mov	x25, xzr
	ldp	x28, x14, [x0, #32]
	lsr	x16, x9, #3
	lsr	x21, x10, #3
	lsr	x17, x9, #2
	mov	x29, xzr
	mov	x8, xzr
	and	x15, x10, #0x7
	mov	w12, #16
	stp	x14, x13, [sp, #40]
	stp	x16, x15, [sp, #24]
	stp	x11, x17, [sp, #8]
	b	LBB57_4
LBB57_2:
	tst	w9, #0x1
	mov	x10, xzr
	mov	x23, x8
	cinc	w0, w12, eq
LBB57_3:
	adds	x8, x25, x10
	strb	w0, [x19, x22]
	csinv	x25, x8, xzr, lo
	cmp	x29, x24
	mov	x8, x23
	str	x25, [x20, x22, lsl #3]
	b.eq	LBB57_336
LBB57_4:
	mov	x22, x29
	cbz	x27, LBB57_10
	and	x9, x22, #0x7
	add	x10, x21, x22, lsr #3
	add	x9, x9, x15
	add	x10, x10, x9, lsr #3
	cmp	x10, x27
	b.hs	LBB57_10
	ldrb	w10, [x14, x10]
	and	x9, x9, #0x7
	eor	w10, w10, #0xff
	lsr	w9, w10, w9
	cmp	x28, #4
	add	x29, x22, #1
	b.ne	LBB57_11
LBB57_7:
	cmp	x17, x29
	b.ls	LBB57_2
	ldr	w10, [x26, x22, lsl #2]
	ldr	w11, [x26, x29, lsl #2]
	cmp	w11, w10
	b.lo	LBB57_2
	tbz	w11, #31, LBB57_14
	b	LBB57_2
LBB57_10:
	mov	w9, wzr
	cmp	x28, #4
	add	x29, x22, #1
	b.eq	LBB57_7
LBB57_11:
	cmp	x28, #8
	b.ne	LBB57_2
	cmp	x16, x29
	b.ls	LBB57_2
	ldr	x10, [x26, x22, lsl #3]
	ldr	x11, [x26, x29, lsl #3]
	cmp	x11, x10
	b.lo	LBB57_2
LBB57_14:
	cmp	x13, x11
	b.lo	LBB57_2
	cmp	x11, x8
	csel	x23, x11, x8, hi
	tbz	w9, #0, LBB57_17
	mov	x10, xzr
	mov	w0, #16
	b	LBB57_3
LBB57_17:
	cmp	x10, x8
	b.hs	LBB57_19
	mov	x10, xzr
	mov	w0, #17
	b	LBB57_3
LBB57_19:
	ldr	x8, [sp, #72]
	ldr	x9, [sp, #8]
	sub	x1, x11, x10
	str	xzr, [sp, #80]
	cmp	x8, x25
	add	x0, x9, x10
	csel	x8, x8, x25, lo
	cmp	x1, #5
	b.hs	LBB57_22
	cmp	x11, x10
	b.eq	LBB57_303
	ldrb	w12, [x0]
	b	LBB57_136
LBB57_22:
	ldrb	w12, [x0]
	cmp	w12, #1
	b.eq	LBB57_59
	cbnz	w12, LBB57_136
	ldur	w10, [x0, #1]
	mov	w9, wzr
	rev	w11, w10
	lsr	w10, w11, #29
	cbz	w10, LBB57_60
LBB57_25:
	mov	w10, #3
	movk	w10, #8192, lsl #16
	cmp	w11, w10
	mov	w10, wzr
	b.le	LBB57_94
	mov	w2, #5
	movk	w2, #8192, lsl #16
	cmp	w11, w2
	b.gt	LBB57_114
	mov	w13, #4
	movk	w13, #8192, lsl #16
	cmp	w11, w13
	b.eq	LBB57_198
	mov	w13, #5
	movk	w13, #8192, lsl #16
	cmp	w11, w13
	b.ne	LBB57_136
LBB57_29:
	subs	x11, x1, #13
	b.lo	LBB57_303
	ldur	w12, [x0, #9]
	cmp	w9, #0
	rev	w13, w12
	csel	w13, w12, w13, ne
	cbz	w13, LBB57_238
	and	w14, w10, #0xff
	mov	w15, #1000
	mov	w16, w10
	mul	w15, w14, w15
	mov	x12, xzr
	add	x14, x0, #13
	and	x16, x16, #0xff
	mov	x17, x13
	orr	w15, w15, #0x2
LBB57_32:
	cmp	x11, #5
	b.hs	LBB57_35
	cbz	x11, LBB57_303
	ldrb	w3, [x14]
	b	LBB57_41
LBB57_35:
	ldrb	w3, [x14]
	cmp	w3, #1
	b.eq	LBB57_38
	cbnz	w3, LBB57_41
	ldur	w4, [x14, #1]
	mov	w2, wzr
	rev	w4, w4
	b	LBB57_39
LBB57_38:
	ldur	w4, [x14, #1]
	mov	w2, #1
LBB57_39:
	cmp	w4, w15
	b.ne	LBB57_41
	mov	w3, #9
	mov	w4, #5
	b	LBB57_55
LBB57_41:
	cbz	w3, LBB57_44
	cmp	w3, #1
	b.ne	LBB57_303
	mov	w2, #1
	b	LBB57_45
LBB57_44:
	mov	w2, wzr
LBB57_45:
	cmp	x11, #5
	b.lo	LBB57_303
	ldur	w3, [x14, #1]
	cmp	w2, #0
	mov	w7, #-536870912
	rev	w4, w3
	csel	w6, w3, w4, ne
	mov	w4, #-1073741824
	ubfx	w3, w6, #30, #1
	and	w5, w6, #0x7fffffff
	add	w4, w5, w4
	cmp	w3, #0
	csel	w4, w5, w4, eq
	lsr	w3, w4, #29
	add	w7, w4, w7
	cmp	w3, #0
	csel	w7, w7, w4, ne
	cmp	w7, #3999
	b.hi	LBB57_303
	mov	w4, #35128
	mov	w30, #1000
	movk	w4, #65, lsl #16
	umull	x4, w7, w4
	lsr	x4, x4, #32
	msub	w4, w4, w30, w7
	sub	w30, w4, #1
	cmp	w30, #6
	b.hi	LBB57_303
	tbnz	w6, #31, LBB57_51
	mov	w6, #19923
	movk	w6, #4194, lsl #16
	umull	x6, w7, w6
	lsr	w7, w5, #30
	lsr	x5, x6, #38
	cbz	w7, LBB57_52
	lsl	w5, w5, #3
	mov	w6, #770
	movk	w6, #770, lsl #16
	lsr	w5, w6, w5
	b	LBB57_52
LBB57_51:
	lsr	w5, w5, #30
	cmp	w7, #2000
	ccmp	w5, #0, #0, lo
	mov	w5, #3
	csinc	w5, w5, wzr, ne
LBB57_52:
	cmp	w4, #2
	b.ne	LBB57_303
	and	w4, w5, #0xff
	cmp	w4, w10, uxtb
	b.ne	LBB57_303
	cmp	w3, #0
	mov	w3, #5
	mov	w5, #9
	csel	x4, x5, x3, ne
	mov	w3, #13
	csel	x3, x3, x5, ne
LBB57_55:
	add	x5, x4, #4
	cmp	x11, x5
	b.lo	LBB57_303
	ldr	w4, [x14, x4]
	cmp	w2, #0
	adrp	x2, Lswitch.table.wkb_raw_write.374@PAGE
	add	x2, x2, Lswitch.table.wkb_raw_write.374@PAGEOFF
	rev	w5, w4
	ldr	x6, [x2, x16, lsl #3]
	csel	w2, w4, w5, ne
	madd	x3, x6, x2, x3
	subs	x11, x11, x3
	b.lo	LBB57_303
	subs	x17, x17, #1
	add	x12, x12, x2
	add	x14, x14, x3
	b.ne	LBB57_32
	mov	w14, #4
	b	LBB57_248
LBB57_59:
	ldur	w11, [x0, #1]
	mov	w9, #1
	lsr	w10, w11, #29
	cbnz	w10, LBB57_25
LBB57_60:
	cmp	w11, #3
	b.le	LBB57_104
	cmp	w11, #5
	b.gt	LBB57_116
	cmp	w11, #4
	b.eq	LBB57_301
	cmp	w11, #5
	b.ne	LBB57_118
LBB57_64:
	subs	x11, x1, #9
	b.lo	LBB57_303
	ldur	w12, [x0, #5]
	cmp	w9, #0
	rev	w13, w12
	csel	w13, w12, w13, ne
	cbz	w13, LBB57_235
	and	w14, w10, #0xff
	mov	w15, #1000
	mov	w16, w10
	mul	w15, w14, w15
	mov	x12, xzr
	add	x14, x0, #9
	and	x16, x16, #0xff
	mov	x17, x13
	orr	w15, w15, #0x2
LBB57_67:
	cmp	x11, #5
	b.hs	LBB57_70
	cbz	x11, LBB57_303
	ldrb	w3, [x14]
	b	LBB57_76
LBB57_70:
	ldrb	w3, [x14]
	cmp	w3, #1
	b.eq	LBB57_73
	cbnz	w3, LBB57_76
	ldur	w4, [x14, #1]
	mov	w2, wzr
	rev	w4, w4
	b	LBB57_74
LBB57_73:
	ldur	w4, [x14, #1]
	mov	w2, #1
LBB57_74:
	cmp	w4, w15
	b.ne	LBB57_76
	mov	w3, #9
	mov	w4, #5
	b	LBB57_90
LBB57_76:
	cbz	w3, LBB57_79
	cmp	w3, #1
	b.ne	LBB57_303
	mov	w2, #1
	b	LBB57_80
LBB57_79:
	mov	w2, wzr
LBB57_80:
	cmp	x11, #5
	b.lo	LBB57_303
	ldur	w3, [x14, #1]
	cmp	w2, #0
	mov	w7, #-536870912
	rev	w4, w3
	csel	w5, w3, w4, ne
	mov	w4, #-1073741824
	ubfx	w3, w5, #30, #1
	and	w6, w5, #0x7fffffff
	add	w4, w6, w4
	cmp	w3, #0
	csel	w4, w6, w4, eq
	lsr	w3, w4, #29
	add	w7, w4, w7
	cmp	w3, #0
	csel	w7, w7, w4, ne
	cmp	w7, #3999
	b.hi	LBB57_303
	mov	w4, #35128
	mov	w30, #1000
	movk	w4, #65, lsl #16
	umull	x4, w7, w4
	lsr	x4, x4, #32
	msub	w4, w4, w30, w7
	sub	w30, w4, #1
	cmp	w30, #6
	b.hi	LBB57_303
	lsr	w6, w6, #30
	tbnz	w5, #31, LBB57_86
	mov	w5, #19923
	movk	w5, #4194, lsl #16
	umull	x5, w7, w5
	lsr	x5, x5, #38
	cbz	w6, LBB57_87
	lsl	w5, w5, #3
	mov	w6, #770
	movk	w6, #770, lsl #16
	lsr	w5, w6, w5
	b	LBB57_87
LBB57_86:
	cmp	w7, #2000
	mov	w5, #3
	ccmp	w6, #0, #0, lo
	csinc	w5, w5, wzr, ne
LBB57_87:
	cmp	w4, #2
	b.ne	LBB57_303
	and	w4, w5, #0xff
	cmp	w4, w10, uxtb
	b.ne	LBB57_303
	cmp	w3, #0
	mov	w3, #5
	mov	w5, #9
	csel	x4, x5, x3, ne
	mov	w3, #13
	csel	x3, x3, x5, ne
LBB57_90:
	add	x5, x4, #4
	cmp	x11, x5
	b.lo	LBB57_303
	ldr	w4, [x14, x4]
	cmp	w2, #0
	adrp	x2, Lswitch.table.wkb_raw_write.374@PAGE
	add	x2, x2, Lswitch.table.wkb_raw_write.374@PAGEOFF
	rev	w5, w4
	ldr	x6, [x2, x16, lsl #3]
	csel	w2, w4, w5, ne
	madd	x3, x6, x2, x3
	subs	x11, x11, x3
	b.lo	LBB57_303
	subs	x17, x17, #1
	add	x12, x12, x2
	add	x14, x14, x3
	b.ne	LBB57_67
	mov	w14, #4
	b	LBB57_332
LBB57_94:
	mov	w2, #1
	movk	w2, #8192, lsl #16
	cmp	w11, w2
	b.eq	LBB57_250
	mov	w13, #2
	movk	w13, #8192, lsl #16
	cmp	w11, w13
	b.eq	LBB57_226
	mov	w13, #3
	movk	w13, #8192, lsl #16
	cmp	w11, w13
	b.ne	LBB57_136
LBB57_97:
	subs	x11, x1, #13
	b.lo	LBB57_303
	ldur	w12, [x0, #9]
	cmp	w9, #0
	rev	w13, w12
	csel	w13, w12, w13, ne
	cbz	w13, LBB57_239
	mov	w15, w10
	mov	x12, xzr
	add	x14, x0, #13
	and	x15, x15, #0xff
	mov	x16, x13
LBB57_100:
	cmp	x11, #4
	b.lo	LBB57_303
	ldr	w17, [x14]
	adrp	x3, Lswitch.table.wkb_raw_write.374@PAGE
	add	x3, x3, Lswitch.table.wkb_raw_write.374@PAGEOFF
	cmp	w9, #0
	ldr	x3, [x3, x15, lsl #3]
	rev	w2, w17
	csel	w17, w17, w2, ne
	mul	x2, x3, x17
	orr	x2, x2, #0x4
	subs	x11, x11, x2
	b.lo	LBB57_303
	subs	x16, x16, #1
	add	x12, x12, x17
	add	x14, x14, x2
	b.ne	LBB57_100
	add	x13, x13, #1
	b	LBB57_240
LBB57_104:
	cmp	w11, #1
	b.eq	LBB57_254
	cmp	w11, #2
	b.eq	LBB57_229
	cmp	w11, #3
	b.ne	LBB57_118
LBB57_107:
	subs	x11, x1, #9
	b.lo	LBB57_303
	ldur	w12, [x0, #5]
	cmp	w9, #0
	rev	w13, w12
	csel	w13, w12, w13, ne
	cbz	w13, LBB57_233
	mov	w15, w10
	mov	x12, xzr
	add	x14, x0, #9
	and	x15, x15, #0xff
	mov	x16, x13
LBB57_110:
	cmp	x11, #4
	b.lo	LBB57_303
	ldr	w17, [x14]
	adrp	x3, Lswitch.table.wkb_raw_write.374@PAGE
	add	x3, x3, Lswitch.table.wkb_raw_write.374@PAGEOFF
	cmp	w9, #0
	ldr	x3, [x3, x15, lsl #3]
	rev	w2, w17
	csel	w17, w17, w2, ne
	mul	x2, x3, x17
	orr	x2, x2, #0x4
	subs	x11, x11, x2
	b.lo	LBB57_303
	subs	x16, x16, #1
	add	x12, x12, x17
	add	x14, x14, x2
	b.ne	LBB57_110
	add	x13, x13, #1
	b	LBB57_234
LBB57_114:
	mov	w13, #6
	movk	w13, #8192, lsl #16
	cmp	w11, w13
	b.eq	LBB57_155
	mov	w9, #7
	movk	w9, #8192, lsl #16
	cmp	w11, w9
	b.eq	LBB57_303
	b	LBB57_136
LBB57_116:
	cmp	w11, #6
	b.eq	LBB57_261
	cmp	w11, #7
	b.eq	LBB57_303
LBB57_118:
	sub	w10, w11, #1001
	cmp	w10, #7
	b.hs	LBB57_123
	cmp	w11, #1003
	mov	w10, #1
	b.gt	LBB57_128
	cmp	w11, #1001
	b.eq	LBB57_243
	cmp	w11, #1002
	b.eq	LBB57_229
	cmp	w11, #1003
	b.eq	LBB57_107
	b	LBB57_303
LBB57_123:
	sub	w10, w11, #2001
	cmp	w10, #7
	b.hs	LBB57_131
	cmp	w11, #2003
	mov	w10, #2
	b.gt	LBB57_244
	cmp	w11, #2001
	b.eq	LBB57_243
	cmp	w11, #2002
	b.eq	LBB57_229
	cmp	w11, #2003
	b.eq	LBB57_107
	b	LBB57_303
LBB57_128:
	cmp	w11, #1004
	b.eq	LBB57_301
	cmp	w11, #1005
	b.eq	LBB57_64
	cmp	w11, #1006
	b.eq	LBB57_261
	b	LBB57_303
LBB57_131:
	sub	w10, w11, #3001
	cmp	w10, #7
	b.hs	LBB57_136
	cmp	w11, #3003
	mov	w10, #3
	b.gt	LBB57_258
	cmp	w11, #3001
	b.eq	LBB57_334
	cmp	w11, #3002
	b.eq	LBB57_229
	cmp	w11, #3003
	b.eq	LBB57_107
	b	LBB57_303
LBB57_136:
	cbz	w12, LBB57_139
	cmp	w12, #1
	b.ne	LBB57_303
	mov	w9, #1
	cmp	x1, #5
	b.hs	LBB57_140
	b	LBB57_303
LBB57_139:
	mov	w9, wzr
	cmp	x1, #5
	b.lo	LBB57_303
LBB57_140:
	ldur	w10, [x0, #1]
	cmp	w9, #0
	mov	w12, #-1073741824
	mov	w14, #-536870912
	rev	w11, w10
	csel	w13, w10, w11, ne
	ubfx	w11, w13, #30, #1
	and	w10, w13, #0x7fffffff
	add	w12, w10, w12
	cmp	w11, #0
	csel	w12, w10, w12, eq
	lsr	w11, w12, #29
	add	w14, w12, w14
	cmp	w11, #0
	csel	w14, w14, w12, ne
	cmp	w14, #3999
	b.hi	LBB57_303
	mov	w12, #35128
	mov	w15, #1000
	movk	w12, #65, lsl #16
	umull	x12, w14, w12
	lsr	x12, x12, #32
	msub	w12, w12, w15, w14
	sub	w15, w12, #1
	cmp	w15, #7
	b.hs	LBB57_303
	tbnz	w13, #31, LBB57_145
	mov	w13, #19923
	movk	w13, #4194, lsl #16
	umull	x13, w14, w13
	lsr	w14, w10, #30
	lsr	x10, x13, #38
	cbz	w14, LBB57_146
	lsl	w10, w10, #3
	mov	w13, #770
	movk	w13, #770, lsl #16
	lsr	w10, w13, w10
	b	LBB57_146
LBB57_145:
	lsr	w10, w10, #30
	cmp	w14, #2000
	ccmp	w10, #0, #0, lo
	mov	w10, #3
	csinc	w10, w10, wzr, ne
LBB57_146:
	cmp	w12, #3
	b.gt	LBB57_151
	cmp	w12, #1
	b.eq	LBB57_194
	cmp	w12, #2
	b.eq	LBB57_225
	cmp	w12, #3
	b.ne	LBB57_303
	cbnz	w11, LBB57_97
	b	LBB57_107
LBB57_151:
	cmp	w12, #4
	b.eq	LBB57_197
	cmp	w12, #5
	b.eq	LBB57_232
	cmp	w12, #6
	b.ne	LBB57_303
	cbz	w11, LBB57_261
LBB57_155:
	subs	x11, x1, #13
	b.lo	LBB57_303
	ldur	w12, [x0, #9]
	cmp	w9, #0
	rev	w13, w12
	csel	w14, w12, w13, ne
	cbz	w14, LBB57_236
	and	w16, w10, #0xff
	mov	w17, #1000
	mov	w2, w10
	mul	w17, w16, w17
	mov	w15, wzr
	mov	x13, xzr
	mov	x12, xzr
	add	x16, x0, #13
	and	x2, x2, #0xff
	orr	w17, w17, #0x3
	str	w17, [sp, #4]
LBB57_158:
	cmp	x11, #5
	b.hs	LBB57_161
	cbz	x11, LBB57_303
	ldrb	w4, [x16]
	b	LBB57_167
LBB57_161:
	ldrb	w4, [x16]
	cmp	w4, #1
	b.eq	LBB57_164
	cbnz	w4, LBB57_167
	ldur	w5, [x16, #1]
	mov	w3, wzr
	rev	w5, w5
	b	LBB57_165
LBB57_164:
	ldur	w5, [x16, #1]
	mov	w3, #1
LBB57_165:
	ldr	w17, [sp, #4]
	cmp	w5, w17
	b.ne	LBB57_167
	mov	w4, #5
	b	LBB57_181
LBB57_167:
	cbz	w4, LBB57_170
	cmp	w4, #1
	b.ne	LBB57_303
	mov	w3, #1
	b	LBB57_171
LBB57_170:
	mov	w3, wzr
LBB57_171:
	cmp	x11, #5
	b.lo	LBB57_303
	ldur	w4, [x16, #1]
	cmp	w3, #0
	mov	w17, #-1073741824
	rev	w5, w4
	csel	w7, w4, w5, ne
	ubfx	w4, w7, #30, #1
	and	w6, w7, #0x7fffffff
	add	w5, w6, w17
	mov	w17, #-536870912
	cmp	w4, #0
	csel	w5, w6, w5, eq
	lsr	w4, w5, #29
	add	w30, w5, w17
	cmp	w4, #0
	csel	w30, w30, w5, ne
	cmp	w30, #3999
	b.hi	LBB57_303
	mov	w17, #35128
	movk	w17, #65, lsl #16
	umull	x5, w30, w17
	mov	w17, #1000
	lsr	x5, x5, #32
	msub	w5, w5, w17, w30
	sub	w17, w5, #1
	cmp	w17, #6
	b.hi	LBB57_303
	tbnz	w7, #31, LBB57_177
	mov	w17, #19923
	lsr	w7, w6, #30
	movk	w17, #4194, lsl #16
	umull	x17, w30, w17
	lsr	x6, x17, #38
	cbz	w7, LBB57_178
	lsl	w17, w6, #3
	mov	w6, #770
	movk	w6, #770, lsl #16
	lsr	w6, w6, w17
	b	LBB57_178
LBB57_177:
	lsr	w17, w6, #30
	cmp	w30, #2000
	ccmp	w17, #0, #0, lo
	mov	w17, #3
	csinc	w6, w17, wzr, ne
LBB57_178:
	cmp	w5, #3
	b.ne	LBB57_303
	and	w17, w6, #0xff
	cmp	w17, w10, uxtb
	b.ne	LBB57_303
	cmp	w4, #0
	mov	w17, #5
	mov	w4, #9
	csel	x4, x4, x17, ne
LBB57_181:
	add	x17, x4, #4
	cmp	x11, x17
	b.lo	LBB57_303
	add	x16, x16, x4
	cmp	w3, #0
	sub	x11, x11, x4
	ldr	w5, [x16], #4
	sub	x11, x11, #4
	rev	w6, w5
	csel	w4, w5, w6, ne
	cbz	w4, LBB57_188
	add	x13, x13, #2
	tbz	w3, #0, LBB57_189
	sub	w17, w5, #1
	add	x13, x13, x17
LBB57_185:
	cmp	x11, #4
	b.lo	LBB57_303
	adrp	x17, Lswitch.table.wkb_raw_write.374@PAGE
	add	x17, x17, Lswitch.table.wkb_raw_write.374@PAGEOFF
	ldr	w3, [x16]
	ldr	x17, [x17, x2, lsl #3]
	mul	x17, x17, x3
	orr	x5, x17, #0x4
	subs	x11, x11, x5
	b.lo	LBB57_303
	subs	w4, w4, #1
	add	x12, x12, x3
	add	x16, x16, x5
	b.ne	LBB57_185
	b	LBB57_193
LBB57_188:
	add	x13, x13, #1
	b	LBB57_193
LBB57_189:
	sub	w17, w6, #1
	add	x13, x13, x17
LBB57_190:
	cmp	x11, #4
	b.lo	LBB57_303
	ldr	w17, [x16]
	adrp	x3, Lswitch.table.wkb_raw_write.374@PAGE
	add	x3, x3, Lswitch.table.wkb_raw_write.374@PAGEOFF
	ldr	x5, [x3, x2, lsl #3]
	rev	w3, w17
	mul	x17, x5, x3
	orr	x5, x17, #0x4
	subs	x11, x11, x5
	b.lo	LBB57_303
	subs	w4, w4, #1
	add	x12, x12, x3
	add	x16, x16, x5
	b.ne	LBB57_190
LBB57_193:
	add	w15, w15, #1
	cmp	w15, w14
	b.ne	LBB57_158
	b	LBB57_237
LBB57_194:
	cbz	w11, LBB57_242
	and	w11, w10, #0xff
	sub	w12, w11, #1
	cmp	w12, #2
	b.hs	LBB57_249
	mov	w11, #33
	cmp	x1, x11
	b.lo	LBB57_303
	b	LBB57_251
LBB57_197:
	cbz	w11, LBB57_301
LBB57_198:
	subs	x11, x1, #13
	b.lo	LBB57_303
	ldur	w12, [x0, #9]
	mov	w13, w10
	adrp	x15, Lswitch.table.wkb_raw_write.371@PAGE
	add	x15, x15, Lswitch.table.wkb_raw_write.371@PAGEOFF
	and	x13, x13, #0xff
	cmp	w9, #0
	rev	w14, w12
	ldr	x13, [x15, x13, lsl #3]
	csel	w12, w12, w14, ne
	mov	x14, #13
	madd	x13, x13, x12, x14
	cmp	x1, x13
	b.lo	LBB57_303
	cbz	w12, LBB57_247
	and	w13, w10, #0xff
	mov	w14, #1000
	mov	w15, w10
	mul	w14, w13, w14
	add	x13, x0, #13
	and	x15, x15, #0xff
	mov	x16, x12
	orr	w14, w14, #0x1
LBB57_202:
	cmp	x11, #5
	b.hs	LBB57_205
	cbz	x11, LBB57_303
	ldrb	w17, [x13]
	b	LBB57_210
LBB57_205:
	ldrb	w17, [x13]
	cmp	w17, #1
	b.eq	LBB57_208
	cbnz	w17, LBB57_210
	ldur	w2, [x13, #1]
	rev	w2, w2
	b	LBB57_209
LBB57_208:
	ldur	w2, [x13, #1]
LBB57_209:
	cmp	w2, w14
	b.eq	LBB57_222
LBB57_210:
	cbz	w17, LBB57_212
	cmp	w17, #1
	b.ne	LBB57_303
LBB57_212:
	cmp	x11, #5
	b.lo	LBB57_303
	ldur	w2, [x13, #1]
	cmp	w17, #0
	mov	w5, #-536870912
	rev	w3, w2
	csel	w4, w2, w3, ne
	mov	w2, #-1073741824
	ubfx	w17, w4, #30, #1
	and	w3, w4, #0x7fffffff
	add	w2, w3, w2
	cmp	w17, #0
	csel	w2, w3, w2, eq
	lsr	w17, w2, #29
	add	w5, w2, w5
	cmp	w17, #0
	csel	w5, w5, w2, ne
	cmp	w5, #3999
	b.hi	LBB57_303
	mov	w2, #35128
	mov	w6, #1000
	movk	w2, #65, lsl #16
	umull	x2, w5, w2
	lsr	x2, x2, #32
	msub	w2, w2, w6, w5
	sub	w6, w2, #1
	cmp	w6, #6
	b.hi	LBB57_303
	tbnz	w4, #31, LBB57_218
	mov	w4, #19923
	movk	w4, #4194, lsl #16
	umull	x4, w5, w4
	lsr	w5, w3, #30
	lsr	x3, x4, #38
	cbz	w5, LBB57_219
	lsl	w3, w3, #3
	mov	w4, #770
	movk	w4, #770, lsl #16
	lsr	w3, w4, w3
	b	LBB57_219
LBB57_218:
	lsr	w3, w3, #30
	cmp	w5, #2000
	ccmp	w3, #0, #0, lo
	mov	w3, #3
	csinc	w3, w3, wzr, ne
LBB57_219:
	cbnz	w17, LBB57_303
	cmp	w2, #1
	b.ne	LBB57_303
	and	w17, w3, #0xff
	cmp	w17, w10, uxtb
	b.ne	LBB57_303
LBB57_222:
	adrp	x17, Lswitch.table.wkb_raw_write.371@PAGE
	add	x17, x17, Lswitch.table.wkb_raw_write.371@PAGEOFF
	ldr	x17, [x17, x15, lsl #3]
	subs	x11, x11, x17
	b.lo	LBB57_303
	subs	x16, x16, #1
	add	x13, x13, x17
	b.ne	LBB57_202
	mov	w14, #3
	mov	x13, x12
	b	LBB57_248
LBB57_225:
	cbz	w11, LBB57_229
LBB57_226:
	cmp	x1, #13
	b.lo	LBB57_303
	ldur	w11, [x0, #9]
	mov	w12, w10
	adrp	x14, Lswitch.table.wkb_raw_write.374@PAGE
	add	x14, x14, Lswitch.table.wkb_raw_write.374@PAGEOFF
	and	x12, x12, #0xff
	cmp	w9, #0
	rev	w13, w11
	ldr	x14, [x14, x12, lsl #3]
	csel	w12, w11, w13, ne
	mov	x11, #13
	madd	x11, x14, x12, x11
	cmp	x1, x11
	b.lo	LBB57_303
	mov	w13, #1
	b	LBB57_252
LBB57_229:
	cmp	x1, #9
	b.lo	LBB57_303
	ldur	w11, [x0, #5]
	mov	w12, w10
	adrp	x14, Lswitch.table.wkb_raw_write.374@PAGE
	add	x14, x14, Lswitch.table.wkb_raw_write.374@PAGEOFF
	and	x12, x12, #0xff
	cmp	w9, #0
	rev	w13, w11
	ldr	x14, [x14, x12, lsl #3]
	csel	w12, w11, w13, ne
	mov	x11, #9
	madd	x11, x14, x12, x11
	cmp	x1, x11
	b.lo	LBB57_303
	mov	w13, #1
	b	LBB57_256
LBB57_232:
	cbnz	w11, LBB57_29
	b	LBB57_64
LBB57_233:
	mov	x12, xzr
	mov	w13, #1
LBB57_234:
	str	wzr, [sp, #88]
	b	LBB57_241
LBB57_235:
	mov	x13, xzr
	mov	x12, xzr
	mov	w14, #4
	b	LBB57_332
LBB57_236:
	mov	x12, xzr
	mov	x13, xzr
LBB57_237:
	mov	w14, #5
	b	LBB57_248
LBB57_238:
	mov	x12, xzr
	mov	x13, xzr
	mov	w14, #4
	b	LBB57_248
LBB57_239:
	mov	x12, xzr
	mov	w13, #1
LBB57_240:
	ldur	w14, [x0, #5]
	cmp	w9, #0
	rev	w15, w14
	csel	w14, w14, w15, ne
	mov	w15, #1
	stp	w15, w14, [sp, #88]
LBB57_241:
	strb	w9, [sp, #122]
	ldp	x3, x9, [sp, #56]
	strb	w10, [sp, #121]
	sub	x11, x1, x11
	add	x2, sp, #88
	ldr	x10, [sp, #72]
	stp	x11, x13, [sp, #96]
	mov	w11, #2
	add	x4, x9, x8
	add	x6, sp, #80
	str	x12, [sp, #112]
	sub	x5, x10, x8
	strb	w11, [sp, #120]
	bl	_ZN7wkb_raw6erased5wkb_c5write13write_polygon17hb05cd7360faa7d52E
	b	LBB57_304
LBB57_242:
	and	w11, w10, #0xff
	sub	w12, w11, #1
	cmp	w12, #2
	b.hs	LBB57_253
LBB57_243:
	mov	w11, #29
	cmp	x1, x11
	b.lo	LBB57_303
	b	LBB57_255
LBB57_244:
	cmp	w11, #2004
	b.eq	LBB57_301
	cmp	w11, #2005
	b.eq	LBB57_64
	cmp	w11, #2006
	b.eq	LBB57_261
	b	LBB57_303
LBB57_247:
	mov	x12, xzr
	mov	x13, xzr
	mov	w14, #3
LBB57_248:
	ldur	w15, [x0, #5]
	cmp	w9, #0
	rev	w16, w15
	csel	w15, w15, w16, ne
	mov	w16, #1
	stp	w16, w15, [sp, #88]
	b	LBB57_333
LBB57_249:
	cbnz	w11, LBB57_335
LBB57_250:
	mov	w11, #25
	cmp	x1, x11
	b.lo	LBB57_303
LBB57_251:
	mov	w13, wzr
	mov	w12, #1
LBB57_252:
	ldur	w14, [x0, #5]
	cmp	w9, #0
	rev	w15, w14
	csel	w14, w14, w15, ne
	mov	w15, #1
	stp	w15, w14, [sp, #88]
	b	LBB57_257
LBB57_253:
	cbnz	w11, LBB57_334
LBB57_254:
	mov	w11, #21
	cmp	x1, x11
	b.lo	LBB57_303
LBB57_255:
	mov	w13, wzr
	mov	w12, #1
LBB57_256:
	mov	w15, #1
	str	wzr, [sp, #88]
LBB57_257:
	strb	w9, [sp, #122]
	ldp	x3, x9, [sp, #56]
	strb	w10, [sp, #121]
	add	x2, sp, #88
	add	x6, sp, #80
	ldr	x10, [sp, #72]
	stp	x11, x15, [sp, #96]
	add	x4, x9, x8
	str	x12, [sp, #112]
	sub	x5, x10, x8
	strb	w13, [sp, #120]
	bl	_ZN7wkb_raw6erased5wkb_c5write15write_one_piece17h050e3f427a46dcddE
	b	LBB57_304
LBB57_258:
	cmp	w11, #3004
	b.eq	LBB57_301
	cmp	w11, #3005
	b.eq	LBB57_64
	cmp	w11, #3006
	b.ne	LBB57_303
LBB57_261:
	subs	x11, x1, #9
	b.lo	LBB57_303
	ldur	w12, [x0, #5]
	cmp	w9, #0
	rev	w13, w12
	csel	w14, w12, w13, ne
	cbz	w14, LBB57_330
	and	w16, w10, #0xff
	mov	w17, #1000
	mov	w2, w10
	mul	w17, w16, w17
	mov	w15, wzr
	mov	x13, xzr
	mov	x12, xzr
	add	x16, x0, #9
	and	x2, x2, #0xff
	orr	w17, w17, #0x3
	str	w17, [sp, #4]
LBB57_264:
	cmp	x11, #5
	b.hs	LBB57_267
	cbz	x11, LBB57_303
	ldrb	w4, [x16]
	b	LBB57_273
LBB57_267:
	ldrb	w4, [x16]
	cmp	w4, #1
	b.eq	LBB57_270
	cbnz	w4, LBB57_273
	ldur	w5, [x16, #1]
	mov	w3, wzr
	rev	w5, w5
	b	LBB57_271
LBB57_270:
	ldur	w5, [x16, #1]
	mov	w3, #1
LBB57_271:
	ldr	w17, [sp, #4]
	cmp	w5, w17
	b.ne	LBB57_273
	mov	w4, #5
	b	LBB57_287
LBB57_273:
	cbz	w4, LBB57_276
	cmp	w4, #1
	b.ne	LBB57_303
	mov	w3, #1
	b	LBB57_277
LBB57_276:
	mov	w3, wzr
LBB57_277:
	cmp	x11, #5
	b.lo	LBB57_303
	ldur	w4, [x16, #1]
	cmp	w3, #0
	mov	w17, #-1073741824
	rev	w5, w4
	csel	w6, w4, w5, ne
	ubfx	w4, w6, #30, #1
	and	w7, w6, #0x7fffffff
	add	w5, w7, w17
	mov	w17, #-536870912
	cmp	w4, #0
	csel	w5, w7, w5, eq
	lsr	w4, w5, #29
	add	w30, w5, w17
	cmp	w4, #0
	csel	w30, w30, w5, ne
	cmp	w30, #3999
	b.hi	LBB57_303
	mov	w17, #35128
	movk	w17, #65, lsl #16
	umull	x5, w30, w17
	mov	w17, #1000
	lsr	x5, x5, #32
	msub	w5, w5, w17, w30
	sub	w17, w5, #1
	cmp	w17, #6
	b.hi	LBB57_303
	lsr	w7, w7, #30
	tbnz	w6, #31, LBB57_283
	mov	w17, #19923
	movk	w17, #4194, lsl #16
	umull	x17, w30, w17
	lsr	x6, x17, #38
	cbz	w7, LBB57_284
	lsl	w17, w6, #3
	mov	w6, #770
	movk	w6, #770, lsl #16
	lsr	w6, w6, w17
	b	LBB57_284
LBB57_283:
	cmp	w30, #2000
	mov	w17, #3
	ccmp	w7, #0, #0, lo
	csinc	w6, w17, wzr, ne
LBB57_284:
	cmp	w5, #3
	b.ne	LBB57_303
	and	w17, w6, #0xff
	cmp	w17, w10, uxtb
	b.ne	LBB57_303
	cmp	w4, #0
	mov	w17, #5
	mov	w4, #9
	csel	x4, x4, x17, ne
LBB57_287:
	add	x17, x4, #4
	cmp	x11, x17
	b.lo	LBB57_303
	add	x16, x16, x4
	cmp	w3, #0
	sub	x11, x11, x4
	ldr	w5, [x16], #4
	sub	x11, x11, #4
	rev	w6, w5
	csel	w4, w5, w6, ne
	cbz	w4, LBB57_294
	add	x13, x13, #2
	tbz	w3, #0, LBB57_295
	sub	w17, w5, #1
	add	x13, x13, x17
LBB57_291:
	cmp	x11, #4
	b.lo	LBB57_303
	adrp	x17, Lswitch.table.wkb_raw_write.374@PAGE
	add	x17, x17, Lswitch.table.wkb_raw_write.374@PAGEOFF
	ldr	w3, [x16]
	ldr	x17, [x17, x2, lsl #3]
	mul	x17, x17, x3
	orr	x5, x17, #0x4
	subs	x11, x11, x5
	b.lo	LBB57_303
	subs	w4, w4, #1
	add	x12, x12, x3
	add	x16, x16, x5
	b.ne	LBB57_291
	b	LBB57_299
LBB57_294:
	add	x13, x13, #1
	b	LBB57_299
LBB57_295:
	sub	w17, w6, #1
	add	x13, x13, x17
LBB57_296:
	cmp	x11, #4
	b.lo	LBB57_303
	ldr	w17, [x16]
	adrp	x3, Lswitch.table.wkb_raw_write.374@PAGE
	add	x3, x3, Lswitch.table.wkb_raw_write.374@PAGEOFF
	ldr	x5, [x3, x2, lsl #3]
	rev	w3, w17
	mul	x17, x5, x3
	orr	x5, x17, #0x4
	subs	x11, x11, x5
	b.lo	LBB57_303
	subs	w4, w4, #1
	add	x12, x12, x3
	add	x16, x16, x5
	b.ne	LBB57_296
LBB57_299:
	add	w15, w15, #1
	cmp	w15, w14
	b.ne	LBB57_264
	str	wzr, [sp, #88]
	mov	w14, #5
	b	LBB57_333
LBB57_301:
	subs	x11, x1, #9
	b.lo	LBB57_303
	ldur	w12, [x0, #5]
	mov	w13, w10
	adrp	x15, Lswitch.table.wkb_raw_write.371@PAGE
	add	x15, x15, Lswitch.table.wkb_raw_write.371@PAGEOFF
	and	x13, x13, #0xff
	cmp	w9, #0
	rev	w14, w12
	ldr	x15, [x15, x13, lsl #3]
	csel	w13, w12, w14, ne
	mov	x12, #9
	madd	x12, x15, x13, x12
	cmp	x1, x12
	b.hs	LBB57_305
LBB57_303:
	ldp	x9, x10, [sp, #64]
	add	x5, sp, #80
	ldr	x2, [sp, #56]
	sub	x4, x10, x8
	add	x3, x9, x8
	bl	_ZN7wkb_raw6erased5wkb_c12column_write13write_any_row17h738d4f460915821bE
LBB57_304:
	ldp	x14, x13, [sp, #40]
	mov	w12, #16
	ldp	x16, x15, [sp, #24]
	ldr	x10, [sp, #80]
	ldr	x17, [sp, #16]
	b	LBB57_3
LBB57_305:
	cbz	w13, LBB57_331
	and	w12, w10, #0xff
	mov	w14, #1000
	mov	w15, w10
	mul	w14, w12, w14
	add	x12, x0, #9
	and	x15, x15, #0xff
	mov	x16, x13
	orr	w14, w14, #0x1
LBB57_307:
	cmp	x11, #5
	b.hs	LBB57_310
	cbz	x11, LBB57_303
	ldrb	w17, [x12]
	b	LBB57_315
LBB57_310:
	ldrb	w17, [x12]
	cmp	w17, #1
	b.eq	LBB57_313
	cbnz	w17, LBB57_315
	ldur	w2, [x12, #1]
	rev	w2, w2
	b	LBB57_314
LBB57_313:
	ldur	w2, [x12, #1]
LBB57_314:
	cmp	w2, w14
	b.eq	LBB57_327
LBB57_315:
	cbz	w17, LBB57_317
	cmp	w17, #1
	b.ne	LBB57_303
LBB57_317:
	cmp	x11, #5
	b.lo	LBB57_303
	ldur	w2, [x12, #1]
	cmp	w17, #0
	mov	w5, #-536870912
	rev	w3, w2
	csel	w4, w2, w3, ne
	mov	w2, #-1073741824
	ubfx	w17, w4, #30, #1
	and	w3, w4, #0x7fffffff
	add	w2, w3, w2
	cmp	w17, #0
	csel	w2, w3, w2, eq
	lsr	w17, w2, #29
	add	w5, w2, w5
	cmp	w17, #0
	csel	w5, w5, w2, ne
	cmp	w5, #3999
	b.hi	LBB57_303
	mov	w2, #35128
	mov	w6, #1000
	movk	w2, #65, lsl #16
	umull	x2, w5, w2
	lsr	x2, x2, #32
	msub	w2, w2, w6, w5
	sub	w6, w2, #1
	cmp	w6, #6
	b.hi	LBB57_303
	tbnz	w4, #31, LBB57_323
	mov	w4, #19923
	movk	w4, #4194, lsl #16
	umull	x4, w5, w4
	lsr	w5, w3, #30
	lsr	x3, x4, #38
	cbz	w5, LBB57_324
	lsl	w3, w3, #3
	mov	w4, #770
	movk	w4, #770, lsl #16
	lsr	w3, w4, w3
	b	LBB57_324
LBB57_323:
	lsr	w3, w3, #30
	cmp	w5, #2000
	ccmp	w3, #0, #0, lo
	mov	w3, #3
	csinc	w3, w3, wzr, ne
LBB57_324:
	cbnz	w17, LBB57_303
	cmp	w2, #1
	b.ne	LBB57_303
	and	w17, w3, #0xff
	cmp	w17, w10, uxtb
	b.ne	LBB57_303
LBB57_327:
	adrp	x17, Lswitch.table.wkb_raw_write.371@PAGE
	add	x17, x17, Lswitch.table.wkb_raw_write.371@PAGEOFF
	ldr	x17, [x17, x15, lsl #3]
	subs	x11, x11, x17
	b.lo	LBB57_303
	subs	x16, x16, #1
	add	x12, x12, x17
	b.ne	LBB57_307
	mov	w14, #3
	mov	x12, x13
	b	LBB57_332
LBB57_330:
	mov	x13, xzr
	mov	x12, xzr
	mov	w14, #5
	b	LBB57_332
LBB57_331:
	mov	x13, xzr
	mov	x12, xzr
	mov	w14, #3
LBB57_332:
	str	wzr, [sp, #88]
LBB57_333:
	strb	w9, [sp, #122]
	ldp	x3, x9, [sp, #56]
	strb	w10, [sp, #121]
	sub	x11, x1, x11
	add	x13, x13, #1
	ldr	x10, [sp, #72]
	add	x2, sp, #88
	add	x6, sp, #80
	add	x4, x9, x8
	stp	x11, x13, [sp, #96]
	sub	x5, x10, x8
	str	x12, [sp, #112]
	strb	w14, [sp, #120]
	bl	_ZN7wkb_raw6erased5wkb_c5write12write_others17h761b2ce34ffe351dE
	b	LBB57_304
LBB57_334:
	mov	w11, #37
	cmp	x1, x11
	b.lo	LBB57_303
	b	LBB57_255
LBB57_335:
	mov	w11, #41
	cmp	x1, x11
	b.lo	LBB57_303
	b	LBB57_251
LBB57_336:
	ldp	x20, x19, [sp, #208]
	ldp	x22, x21, [sp, #192]
	ldp	x24, x23, [sp, #176]
	ldp	x26, x25, [sp, #160]
	ldp	x28, x27, [sp, #144]
	ldp	x29, x30, [sp, #128]
	add	sp, sp, #224
	.cfi_def_cfa_offset 0
	.cfi_restore w19
	.cfi_restore w20
	.cfi_restore w21
	.cfi_restore w22
	.cfi_restore w23
	.cfi_restore w24
	.cfi_restore w25
	.cfi_restore w26
	.cfi_restore w27
	.cfi_restore w28
	.cfi_restore w30
	.cfi_restore w29
	ret
Lfunc_end57:
	.cfi_endproc
	.section	__TEXT,__text,regular,pure_instructions
	.private_extern	_wkb_raw_next_part
	.globl	_wkb_raw_next_part
	.p2align	2
_wkb_raw_next_part:
	.cfi_startproc
	hint	#34
	ldr	x14, [x2, #8]
	ldr	x16, [x2, #32]
	mov	w9, #-1
	ldr	w15, [x2, #60]
	ldr	w11, [x2, #52]
	cmp	x1, x14
	csel	x8, x1, x14, lo
	cmp	x16, x9
	csel	x10, x16, x9, lo
	cmp	w15, #0
	sub	x13, x1, x8
	cset	w9, ne
	cmp	w11, #4
	add	x12, x0, x8
	csel	w11, w11, wzr, lo
	cbz	x16, LBB58_9
	cmp	x13, #4
	b.lo	LBB58_91
	ldr	w12, [x12]
	cmp	w15, #0
	mov	w0, wzr
	mov	w14, wzr
	mov	w15, #4
	rev	w13, w12
	csel	w12, w12, w13, ne
LBB58_3:
	add	x15, x15, x8
LBB58_4:
	and	x17, x11, #0xff
	adrp	x16, Lswitch.table.wkb_raw_write.374@PAGE
	add	x16, x16, Lswitch.table.wkb_raw_write.374@PAGEOFF
	ldr	x3, [x16, x17, lsl #3]
	mov	w17, w12
	sub	x1, x1, x15
	mul	x3, x3, x17
	cmp	x3, x1
	b.hi	LBB58_91
	mov	w1, w11
	and	x1, x1, #0xff
	ldr	x16, [x16, x1, lsl #3]
	madd	x16, x16, x17, x15
LBB58_6:
	cmp	w10, #0
	cset	w17, ne
	sub	w10, w10, w17
LBB58_7:
	stp	x8, x16, [x2]
	mov	w8, w12
	cmp	w0, #0
	stp	x15, x8, [x2, #16]
	mov	w10, w10
	csel	w8, w13, wzr, ne
	mov	w12, w11
	str	x10, [x2, #32]
	and	x10, x12, #0xff
	stp	w8, w0, [x2, #40]
	adrp	x8, Lswitch.table.wkb_raw_parts.323@PAGE
	add	x8, x8, Lswitch.table.wkb_raw_parts.323@PAGEOFF
	mov	w0, #1
	ldr	w8, [x8, x10, lsl #2]
	and	w10, w11, #0xff
	stp	w14, w10, [x2, #48]
	stp	w8, w9, [x2, #56]
LBB58_8:
	ret
LBB58_9:
	cmp	x13, #5
	b.hs	LBB58_12
	cmp	x1, x14
	b.ls	LBB58_91
	ldrb	w9, [x12]
	b	LBB58_72
LBB58_12:
	ldrb	w9, [x12]
	cmp	w9, #1
	b.eq	LBB58_20
	cbnz	w9, LBB58_72
	ldur	w11, [x12, #1]
	rev	w14, w11
	lsr	w11, w14, #29
	cbz	w11, LBB58_21
LBB58_15:
	mov	w11, #3
	movk	w11, #8192, lsl #16
	cmp	w14, w11
	b.le	LBB58_26
	mov	w11, #5
	movk	w11, #8192, lsl #16
	cmp	w14, w11
	b.gt	LBB58_34
	mov	w11, #4
	movk	w11, #8192, lsl #16
	cmp	w14, w11
	b.eq	LBB58_50
	mov	w11, #5
	movk	w11, #8192, lsl #16
	cmp	w14, w11
	b.ne	LBB58_72
	mov	w11, wzr
	mov	w14, #5
	b	LBB58_90
LBB58_20:
	ldur	w14, [x12, #1]
	lsr	w11, w14, #29
	cbnz	w11, LBB58_15
LBB58_21:
	cmp	w14, #3
	b.le	LBB58_30
	cmp	w14, #5
	b.gt	LBB58_37
	cmp	w14, #4
	b.eq	LBB58_51
	cmp	w14, #5
	mov	w11, wzr
	b.ne	LBB58_45
LBB58_25:
	mov	w14, #5
	b	LBB58_92
LBB58_26:
	mov	w11, #1
	movk	w11, #8192, lsl #16
	cmp	w14, w11
	b.eq	LBB58_40
	mov	w11, #2
	movk	w11, #8192, lsl #16
	cmp	w14, w11
	b.eq	LBB58_56
	mov	w11, #3
	movk	w11, #8192, lsl #16
	cmp	w14, w11
	b.ne	LBB58_72
	mov	w11, wzr
	mov	w14, #3
	b	LBB58_90
LBB58_30:
	cmp	w14, #1
	b.eq	LBB58_44
	cmp	w14, #2
	b.eq	LBB58_57
	cmp	w14, #3
	mov	w11, wzr
	b.ne	LBB58_45
LBB58_33:
	mov	w14, #3
	b	LBB58_92
LBB58_34:
	mov	w11, #6
	movk	w11, #8192, lsl #16
	cmp	w14, w11
	b.eq	LBB58_53
	mov	w11, #7
	movk	w11, #8192, lsl #16
	cmp	w14, w11
	b.ne	LBB58_72
	mov	w11, wzr
	mov	w14, #7
	b	LBB58_90
LBB58_37:
	cmp	w14, #6
	b.eq	LBB58_54
	cmp	w14, #7
	mov	w11, wzr
	b.ne	LBB58_45
LBB58_39:
	mov	w14, #7
	b	LBB58_92
LBB58_40:
	mov	w11, wzr
LBB58_41:
	cmp	x13, #9
	b.lo	LBB58_91
	ldur	w12, [x12, #5]
	tst	w9, #0x1
	mov	w0, #1
	mov	w15, #9
	rev	w13, w12
	csel	w13, w12, w13, ne
LBB58_43:
	mov	w14, #1
	mov	w12, #1
	b	LBB58_3
LBB58_44:
	mov	w0, wzr
	mov	w11, wzr
	mov	w15, #5
	mov	w12, w14
	b	LBB58_3
LBB58_45:
	sub	w11, w14, #1001
	cmp	w11, #7
	b.hs	LBB58_59
	cmp	w14, #1003
	mov	w11, #1
	b.gt	LBB58_64
	cmp	w14, #1001
	b.eq	LBB58_105
	cmp	w14, #1002
	b.eq	LBB58_58
	cmp	w14, #1003
	b.eq	LBB58_33
	b	LBB58_39
LBB58_50:
	mov	w11, wzr
	mov	w14, #4
	b	LBB58_90
LBB58_51:
	mov	w11, wzr
LBB58_52:
	mov	w14, #4
	b	LBB58_92
LBB58_53:
	mov	w11, wzr
	mov	w14, #6
	b	LBB58_90
LBB58_54:
	mov	w11, wzr
LBB58_55:
	mov	w14, #6
	b	LBB58_92
LBB58_56:
	mov	w11, wzr
	mov	w14, #2
	b	LBB58_90
LBB58_57:
	mov	w11, wzr
LBB58_58:
	mov	w14, #2
	b	LBB58_92
LBB58_59:
	sub	w11, w14, #2001
	cmp	w11, #7
	b.hs	LBB58_67
	cmp	w14, #2003
	mov	w11, #2
	b.gt	LBB58_102
	cmp	w14, #2001
	b.eq	LBB58_101
	cmp	w14, #2002
	b.eq	LBB58_58
	cmp	w14, #2003
	b.eq	LBB58_33
	b	LBB58_39
LBB58_64:
	cmp	w14, #1004
	b.eq	LBB58_52
	cmp	w14, #1005
	b.eq	LBB58_25
	cmp	w14, #1006
	b.eq	LBB58_55
	b	LBB58_39
LBB58_67:
	sub	w11, w14, #3001
	cmp	w11, #7
	b.hs	LBB58_72
	cmp	w14, #3003
	mov	w11, #3
	b.gt	LBB58_106
	cmp	w14, #3001
	b.eq	LBB58_101
	cmp	w14, #3002
	b.eq	LBB58_58
	cmp	w14, #3003
	b.eq	LBB58_33
	b	LBB58_39
LBB58_72:
	cbz	w9, LBB58_74
	cmp	w9, #1
	b.ne	LBB58_91
LBB58_74:
	cmp	x13, #5
	b.lo	LBB58_91
	ldur	w11, [x12, #1]
	cmp	w9, #0
	mov	w15, #-1073741824
	mov	w17, #-536870912
	rev	w14, w11
	csel	w16, w11, w14, ne
	ubfx	w14, w16, #30, #1
	and	w11, w16, #0x7fffffff
	add	w15, w11, w15
	cmp	w14, #0
	csel	w14, w11, w15, eq
	lsr	w15, w14, #29
	add	w17, w14, w17
	cmp	w15, #0
	csel	w17, w17, w14, ne
	cmp	w17, #3999
	b.hi	LBB58_91
	mov	w14, #35128
	mov	w0, #1000
	movk	w14, #65, lsl #16
	umull	x14, w17, w14
	lsr	x14, x14, #32
	msub	w14, w14, w0, w17
	sub	w0, w14, #1
	cmp	w0, #6
	b.hi	LBB58_91
	tbnz	w16, #31, LBB58_80
	mov	w16, #19923
	movk	w16, #4194, lsl #16
	umull	x16, w17, w16
	lsr	w17, w11, #30
	lsr	x16, x16, #38
	mov	w11, w16
	cbz	w17, LBB58_81
	lsl	w11, w16, #3
	mov	w16, #770
	movk	w16, #770, lsl #16
	lsr	w11, w16, w11
	b	LBB58_81
LBB58_80:
	lsr	w11, w11, #30
	cmp	w17, #2000
	ccmp	w11, #0, #0, lo
	mov	w11, #3
	csinc	w11, w11, wzr, ne
LBB58_81:
	cmp	w14, #3
	b.gt	LBB58_85
	cmp	w14, #1
	b.eq	LBB58_100
	cmp	w14, #2
	b.eq	LBB58_89
	cmp	w14, #3
	b.eq	LBB58_89
	b	LBB58_88
LBB58_85:
	cmp	w14, #4
	b.eq	LBB58_89
	cmp	w14, #5
	b.eq	LBB58_89
	cmp	w14, #6
	b.eq	LBB58_89
LBB58_88:
	mov	w14, #7
LBB58_89:
	cbz	w15, LBB58_92
LBB58_90:
	cmp	x13, #13
	b.hs	LBB58_94
LBB58_91:
	mov	w0, wzr
	ret
LBB58_92:
	cmp	x13, #9
	mov	w0, wzr
	b.lo	LBB58_8
	mov	w15, #5
	b	LBB58_95
LBB58_94:
	ldur	w13, [x12, #5]
	tst	w9, #0x1
	mov	w0, #1
	rev	w15, w13
	csel	w13, w13, w15, ne
	mov	w15, #9
LBB58_95:
	ldr	w12, [x12, x15]
	tst	w9, #0x1
	add	x15, x8, x15
	add	x15, x15, #4
	rev	w16, w12
	csel	w12, w12, w16, ne
	cmp	w14, #3
	b.hs	LBB58_97
	mov	w14, #2
	b	LBB58_4
LBB58_97:
	b.ne	LBB58_99
	mov	w14, #3
	mov	w10, w12
	mov	x16, x15
	b	LBB58_7
LBB58_99:
	mov	x16, x15
	b	LBB58_6
LBB58_100:
	cbnz	w15, LBB58_41
LBB58_101:
	mov	w0, wzr
	mov	w14, #1
	mov	w15, #5
	mov	w12, #1
	b	LBB58_3
LBB58_102:
	cmp	w14, #2004
	b.eq	LBB58_52
	cmp	w14, #2005
	b.eq	LBB58_25
	cmp	w14, #2006
	b.eq	LBB58_55
	b	LBB58_39
LBB58_105:
	mov	w0, wzr
	mov	w15, #5
	b	LBB58_43
LBB58_106:
	cmp	w14, #3004
	b.eq	LBB58_52
	cmp	w14, #3005
	b.eq	LBB58_25
	cmp	w14, #3006
	b.eq	LBB58_55
	b	LBB58_39
Lfunc_end58:
	.cfi_endproc
	.section	__TEXT,__text,regular,pure_instructions
	.private_extern	_wkb_raw_parts
	.globl	_wkb_raw_parts
	.p2align	2
_wkb_raw_parts:
	.cfi_startproc
	hint	#34
	sub	sp, sp, #144
	.cfi_def_cfa_offset 144
	stp	x29, x30, [sp, #48]
	stp	x28, x27, [sp, #64]
	stp	x26, x25, [sp, #80]
	stp	x24, x23, [sp, #96]
	stp	x22, x21, [sp, #112]
	stp	x20, x19, [sp, #128]
	.cfi_offset w19, -8
	.cfi_offset w20, -16
	.cfi_offset w21, -24
	.cfi_offset w22, -32
	.cfi_offset w23, -40
	.cfi_offset w24, -48
	.cfi_offset w25, -56
	.cfi_offset w26, -64
	.cfi_offset w27, -72
	.cfi_offset w28, -80
	.cfi_offset w30, -88
	.cfi_offset w29, -96
	.cfi_remember_state
	mov	x23, x4
	mov	x20, x3
	mov	x21, x1
	mov	x19, x2
	cmp	x1, #5
	mov	x22, x0
	b.hs	LBB59_3
	cbz	x21, LBB59_281
	ldrb	w11, [x22]
	b	LBB59_117
LBB59_3:
	ldrb	w11, [x22]
	cmp	w11, #1
	b.eq	LBB59_40
	cbnz	w11, LBB59_117
	ldur	w9, [x22, #1]
	mov	w8, wzr
	rev	w10, w9
	lsr	w9, w10, #29
	cbz	w9, LBB59_41
LBB59_6:
	mov	w9, #3
	movk	w9, #8192, lsl #16
	cmp	w10, w9
	mov	w9, wzr
	b.le	LBB59_75
	mov	w12, #5
	movk	w12, #8192, lsl #16
	cmp	w10, w12
	b.gt	LBB59_95
	mov	w12, #4
	movk	w12, #8192, lsl #16
	cmp	w10, w12
	b.eq	LBB59_179
	mov	w12, #5
	movk	w12, #8192, lsl #16
	cmp	w10, w12
	b.ne	LBB59_117
LBB59_10:
	subs	x12, x21, #13
	b.lo	LBB59_281
	ldur	w10, [x22, #9]
	cmp	w8, #0
	rev	w11, w10
	csel	w11, w10, w11, ne
	cbz	w11, LBB59_220
	and	w10, w9, #0xff
	mov	w14, #1000
	mov	w4, w9
	mul	w10, w10, w14
	mov	w17, #19923
	mov	w0, #35128
	add	x13, x22, #13
	mov	w15, #-1073741824
	mov	w16, #-536870912
	movk	w17, #4194, lsl #16
	movk	w0, #65, lsl #16
	mov	w2, #5
	mov	w3, #9
	and	x4, x4, #0xff
	orr	w6, w10, #0x2
	mov	w7, #13
	adrp	x24, Lswitch.table.wkb_raw_write.374@PAGE
	add	x24, x24, Lswitch.table.wkb_raw_write.374@PAGEOFF
	mov	x25, x11
LBB59_13:
	cmp	x12, #5
	b.hs	LBB59_16
	cbz	x12, LBB59_281
	ldrb	w27, [x13]
	b	LBB59_22
LBB59_16:
	ldrb	w27, [x13]
	cmp	w27, #1
	b.eq	LBB59_19
	cbnz	w27, LBB59_22
	ldur	w10, [x13, #1]
	mov	w26, wzr
	rev	w10, w10
	b	LBB59_20
LBB59_19:
	ldur	w10, [x13, #1]
	mov	w26, #1
LBB59_20:
	cmp	w10, w6
	b.ne	LBB59_22
	mov	w27, #9
	mov	w10, #5
	b	LBB59_36
LBB59_22:
	cbz	w27, LBB59_25
	cmp	w27, #1
	b.ne	LBB59_281
	mov	w26, #1
	b	LBB59_26
LBB59_25:
	mov	w26, wzr
LBB59_26:
	cmp	x12, #5
	b.lo	LBB59_281
	ldur	w10, [x13, #1]
	cmp	w26, #0
	rev	w27, w10
	csel	w30, w10, w27, ne
	ubfx	w10, w30, #30, #1
	and	w29, w30, #0x7fffffff
	add	w27, w29, w15
	cmp	w10, #0
	csel	w10, w29, w27, eq
	lsr	w27, w10, #29
	add	w28, w10, w16
	cmp	w27, #0
	csel	w10, w28, w10, ne
	cmp	w10, #3999
	b.hi	LBB59_281
	umull	x28, w10, w0
	lsr	x28, x28, #32
	msub	w28, w28, w14, w10
	sub	w1, w28, #1
	cmp	w1, #6
	b.hi	LBB59_281
	tbnz	w30, #31, LBB59_32
	umull	x10, w10, w17
	lsr	w1, w29, #30
	lsr	x10, x10, #38
	cbz	w1, LBB59_33
	lsl	w10, w10, #3
	mov	w1, #770
	movk	w1, #770, lsl #16
	lsr	w10, w1, w10
	b	LBB59_33
LBB59_32:
	lsr	w1, w29, #30
	cmp	w10, #2000
	mov	w10, #3
	ccmp	w1, #0, #0, lo
	csinc	w10, w10, wzr, ne
LBB59_33:
	cmp	w28, #2
	b.ne	LBB59_281
	and	w10, w10, #0xff
	cmp	w10, w9, uxtb
	b.ne	LBB59_281
	cmp	w27, #0
	csel	x10, x3, x2, ne
	csel	x27, x7, x3, ne
LBB59_36:
	add	x1, x10, #4
	cmp	x12, x1
	b.lo	LBB59_281
	ldr	w10, [x13, x10]
	cmp	w26, #0
	ldr	x26, [x24, x4, lsl #3]
	rev	w1, w10
	csel	w10, w10, w1, ne
	madd	x10, x26, x10, x27
	subs	x12, x12, x10
	b.lo	LBB59_281
	subs	x25, x25, #1
	add	x13, x13, x10
	b.ne	LBB59_13
	mov	x10, x11
	b	LBB59_221
LBB59_40:
	ldur	w10, [x22, #1]
	mov	w8, #1
	lsr	w9, w10, #29
	cbnz	w9, LBB59_6
LBB59_41:
	cmp	w10, #3
	b.le	LBB59_85
	cmp	w10, #5
	b.gt	LBB59_97
	cmp	w10, #4
	b.eq	LBB59_279
	cmp	w10, #5
	b.ne	LBB59_99
LBB59_45:
	subs	x12, x21, #9
	b.lo	LBB59_281
	ldur	w10, [x22, #5]
	cmp	w8, #0
	rev	w11, w10
	csel	w11, w10, w11, ne
	cbz	w11, LBB59_216
	and	w10, w9, #0xff
	mov	w14, #1000
	mov	w4, w9
	mul	w10, w10, w14
	mov	w17, #19923
	mov	w0, #35128
	add	x13, x22, #9
	mov	w15, #-1073741824
	mov	w16, #-536870912
	movk	w17, #4194, lsl #16
	movk	w0, #65, lsl #16
	mov	w2, #5
	mov	w3, #9
	and	x4, x4, #0xff
	orr	w6, w10, #0x2
	mov	w7, #13
	adrp	x24, Lswitch.table.wkb_raw_write.374@PAGE
	add	x24, x24, Lswitch.table.wkb_raw_write.374@PAGEOFF
	mov	x25, x11
LBB59_48:
	cmp	x12, #5
	b.hs	LBB59_51
	cbz	x12, LBB59_281
	ldrb	w27, [x13]
	b	LBB59_57
LBB59_51:
	ldrb	w27, [x13]
	cmp	w27, #1
	b.eq	LBB59_54
	cbnz	w27, LBB59_57
	ldur	w10, [x13, #1]
	mov	w26, wzr
	rev	w10, w10
	b	LBB59_55
LBB59_54:
	ldur	w10, [x13, #1]
	mov	w26, #1
LBB59_55:
	cmp	w10, w6
	b.ne	LBB59_57
	mov	w27, #9
	mov	w10, #5
	b	LBB59_71
LBB59_57:
	cbz	w27, LBB59_60
	cmp	w27, #1
	b.ne	LBB59_281
	mov	w26, #1
	b	LBB59_61
LBB59_60:
	mov	w26, wzr
LBB59_61:
	cmp	x12, #5
	b.lo	LBB59_281
	ldur	w10, [x13, #1]
	cmp	w26, #0
	rev	w27, w10
	csel	w29, w10, w27, ne
	ubfx	w10, w29, #30, #1
	and	w30, w29, #0x7fffffff
	add	w27, w30, w15
	cmp	w10, #0
	csel	w10, w30, w27, eq
	lsr	w27, w10, #29
	add	w28, w10, w16
	cmp	w27, #0
	csel	w10, w28, w10, ne
	cmp	w10, #3999
	b.hi	LBB59_281
	umull	x28, w10, w0
	lsr	x28, x28, #32
	msub	w28, w28, w14, w10
	sub	w1, w28, #1
	cmp	w1, #6
	b.hi	LBB59_281
	lsr	w30, w30, #30
	tbnz	w29, #31, LBB59_67
	umull	x10, w10, w17
	lsr	x10, x10, #38
	cbz	w30, LBB59_68
	lsl	w10, w10, #3
	mov	w1, #770
	movk	w1, #770, lsl #16
	lsr	w10, w1, w10
	b	LBB59_68
LBB59_67:
	cmp	w10, #2000
	mov	w10, #3
	ccmp	w30, #0, #0, lo
	csinc	w10, w10, wzr, ne
LBB59_68:
	cmp	w28, #2
	b.ne	LBB59_281
	and	w10, w10, #0xff
	cmp	w10, w9, uxtb
	b.ne	LBB59_281
	cmp	w27, #0
	csel	x10, x3, x2, ne
	csel	x27, x7, x3, ne
LBB59_71:
	add	x1, x10, #4
	cmp	x12, x1
	b.lo	LBB59_281
	ldr	w10, [x13, x10]
	cmp	w26, #0
	ldr	x26, [x24, x4, lsl #3]
	rev	w1, w10
	csel	w10, w10, w1, ne
	madd	x10, x26, x10, x27
	subs	x12, x12, x10
	b.lo	LBB59_281
	subs	x25, x25, #1
	add	x13, x13, x10
	b.ne	LBB59_48
	mov	x10, x11
	b	LBB59_217
LBB59_75:
	mov	w12, #1
	movk	w12, #8192, lsl #16
	cmp	w10, w12
	b.eq	LBB59_230
	mov	w12, #2
	movk	w12, #8192, lsl #16
	cmp	w10, w12
	b.eq	LBB59_207
	mov	w12, #3
	movk	w12, #8192, lsl #16
	cmp	w10, w12
	b.ne	LBB59_117
LBB59_78:
	subs	x12, x21, #13
	b.lo	LBB59_281
	ldur	w10, [x22, #9]
	cmp	w8, #0
	rev	w11, w10
	csel	w11, w10, w11, ne
	cbz	w11, LBB59_222
	mov	w13, w9
	add	x10, x22, #13
	adrp	x14, Lswitch.table.wkb_raw_write.374@PAGE
	add	x14, x14, Lswitch.table.wkb_raw_write.374@PAGEOFF
	and	x13, x13, #0xff
	mov	x15, x11
LBB59_81:
	cmp	x12, #4
	b.lo	LBB59_281
	ldr	w16, [x10]
	cmp	w8, #0
	ldr	x0, [x14, x13, lsl #3]
	rev	w17, w16
	csel	w16, w16, w17, ne
	mul	x16, x0, x16
	orr	x16, x16, #0x4
	subs	x12, x12, x16
	b.lo	LBB59_281
	subs	x15, x15, #1
	add	x10, x10, x16
	b.ne	LBB59_81
	mov	x10, x11
	b	LBB59_223
LBB59_85:
	cmp	w10, #1
	b.eq	LBB59_233
	cmp	w10, #2
	b.eq	LBB59_210
	cmp	w10, #3
	b.ne	LBB59_99
LBB59_88:
	subs	x12, x21, #9
	b.lo	LBB59_281
	ldur	w10, [x22, #5]
	cmp	w8, #0
	rev	w11, w10
	csel	w11, w10, w11, ne
	cbz	w11, LBB59_214
	mov	w13, w9
	add	x10, x22, #9
	adrp	x14, Lswitch.table.wkb_raw_write.374@PAGE
	add	x14, x14, Lswitch.table.wkb_raw_write.374@PAGEOFF
	and	x13, x13, #0xff
	mov	x15, x11
LBB59_91:
	cmp	x12, #4
	b.lo	LBB59_281
	ldr	w16, [x10]
	cmp	w8, #0
	ldr	x0, [x14, x13, lsl #3]
	rev	w17, w16
	csel	w16, w16, w17, ne
	mul	x16, x0, x16
	orr	x16, x16, #0x4
	subs	x12, x12, x16
	b.lo	LBB59_281
	subs	x15, x15, #1
	add	x10, x10, x16
	b.ne	LBB59_91
	mov	x10, x11
	b	LBB59_215
LBB59_95:
	mov	w12, #6
	movk	w12, #8192, lsl #16
	cmp	w10, w12
	b.eq	LBB59_136
	mov	w8, #7
	movk	w8, #8192, lsl #16
	cmp	w10, w8
	b.eq	LBB59_281
	b	LBB59_117
LBB59_97:
	cmp	w10, #6
	b.eq	LBB59_239
	cmp	w10, #7
	b.eq	LBB59_281
LBB59_99:
	sub	w9, w10, #1001
	cmp	w9, #7
	b.hs	LBB59_104
	cmp	w10, #1003
	mov	w9, #1
	b.gt	LBB59_109
	cmp	w10, #1001
	b.eq	LBB59_225
	cmp	w10, #1002
	b.eq	LBB59_210
	cmp	w10, #1003
	b.eq	LBB59_88
	b	LBB59_281
LBB59_104:
	sub	w9, w10, #2001
	cmp	w9, #7
	b.hs	LBB59_112
	cmp	w10, #2003
	mov	w9, #2
	b.gt	LBB59_226
	cmp	w10, #2001
	b.eq	LBB59_225
	cmp	w10, #2002
	b.eq	LBB59_210
	cmp	w10, #2003
	b.eq	LBB59_88
	b	LBB59_281
LBB59_109:
	cmp	w10, #1004
	b.eq	LBB59_279
	cmp	w10, #1005
	b.eq	LBB59_45
	cmp	w10, #1006
	b.eq	LBB59_239
	b	LBB59_281
LBB59_112:
	sub	w9, w10, #3001
	cmp	w9, #7
	b.hs	LBB59_117
	cmp	w10, #3003
	mov	w9, #3
	b.gt	LBB59_236
	cmp	w10, #3001
	b.eq	LBB59_333
	cmp	w10, #3002
	b.eq	LBB59_210
	cmp	w10, #3003
	b.eq	LBB59_88
	b	LBB59_281
LBB59_117:
	cbz	w11, LBB59_120
	cmp	w11, #1
	b.ne	LBB59_281
	mov	w8, #1
	cmp	x21, #5
	b.hs	LBB59_121
	b	LBB59_281
LBB59_120:
	mov	w8, wzr
	cmp	x21, #5
	b.lo	LBB59_281
LBB59_121:
	ldur	w9, [x22, #1]
	cmp	w8, #0
	mov	w11, #-1073741824
	mov	w13, #-536870912
	rev	w10, w9
	csel	w9, w9, w10, ne
	ubfx	w10, w9, #30, #1
	and	w12, w9, #0x7fffffff
	add	w11, w12, w11
	cmp	w10, #0
	csel	w11, w12, w11, eq
	lsr	w10, w11, #29
	add	w13, w11, w13
	cmp	w10, #0
	csel	w13, w13, w11, ne
	cmp	w13, #3999
	b.hi	LBB59_281
	mov	w11, #35128
	mov	w14, #1000
	movk	w11, #65, lsl #16
	umull	x11, w13, w11
	lsr	x11, x11, #32
	msub	w11, w11, w14, w13
	sub	w14, w11, #1
	cmp	w14, #7
	b.hs	LBB59_281
	lsr	w12, w12, #30
	tbnz	w9, #31, LBB59_126
	mov	w9, #19923
	movk	w9, #4194, lsl #16
	umull	x9, w13, w9
	lsr	x13, x9, #38
	mov	w9, w13
	cbz	w12, LBB59_127
	lsl	w9, w13, #3
	mov	w12, #770
	movk	w12, #770, lsl #16
	lsr	w9, w12, w9
	b	LBB59_127
LBB59_126:
	cmp	w13, #2000
	mov	w9, #3
	ccmp	w12, #0, #0, lo
	csinc	w9, w9, wzr, ne
LBB59_127:
	cmp	w11, #3
	b.gt	LBB59_132
	cmp	w11, #1
	b.eq	LBB59_175
	cmp	w11, #2
	b.eq	LBB59_206
	cmp	w11, #3
	b.ne	LBB59_281
	cbnz	w10, LBB59_78
	b	LBB59_88
LBB59_132:
	cmp	w11, #4
	b.eq	LBB59_178
	cmp	w11, #5
	b.eq	LBB59_213
	cmp	w11, #6
	b.ne	LBB59_281
	cbz	w10, LBB59_239
LBB59_136:
	subs	x12, x21, #13
	b.lo	LBB59_281
	ldur	w10, [x22, #9]
	cmp	w8, #0
	rev	w11, w10
	csel	w11, w10, w11, ne
	cbz	w11, LBB59_218
	and	w16, w9, #0xff
	mov	w14, #1000
	mov	w4, w9
	mul	w6, w16, w14
	mov	w0, #19923
	mov	w1, #35128
	mov	w13, wzr
	mov	x10, xzr
	add	x15, x22, #13
	mov	w16, #-1073741824
	mov	w17, #-536870912
	movk	w0, #4194, lsl #16
	movk	w1, #65, lsl #16
	mov	w3, #5
	and	x4, x4, #0xff
	orr	w6, w6, #0x3
	mov	w7, #9
	adrp	x25, Lswitch.table.wkb_raw_write.374@PAGE
	add	x25, x25, Lswitch.table.wkb_raw_write.374@PAGEOFF
LBB59_139:
	cmp	x12, #5
	b.hs	LBB59_142
	cbz	x12, LBB59_281
	ldrb	w27, [x15]
	b	LBB59_148
LBB59_142:
	ldrb	w27, [x15]
	cmp	w27, #1
	b.eq	LBB59_145
	cbnz	w27, LBB59_148
	ldur	w24, [x15, #1]
	mov	w26, wzr
	rev	w24, w24
	b	LBB59_146
LBB59_145:
	ldur	w24, [x15, #1]
	mov	w26, #1
LBB59_146:
	cmp	w24, w6
	b.ne	LBB59_148
	mov	w24, #5
	b	LBB59_162
LBB59_148:
	cbz	w27, LBB59_151
	cmp	w27, #1
	b.ne	LBB59_281
	mov	w26, #1
	b	LBB59_152
LBB59_151:
	mov	w26, wzr
LBB59_152:
	cmp	x12, #5
	b.lo	LBB59_281
	ldur	w24, [x15, #1]
	cmp	w26, #0
	rev	w27, w24
	csel	w29, w24, w27, ne
	ubfx	w24, w29, #30, #1
	and	w30, w29, #0x7fffffff
	add	w27, w30, w16
	cmp	w24, #0
	csel	w24, w30, w27, eq
	lsr	w27, w24, #29
	add	w28, w24, w17
	cmp	w27, #0
	csel	w24, w28, w24, ne
	cmp	w24, #3999
	b.hi	LBB59_281
	umull	x28, w24, w1
	lsr	x28, x28, #32
	msub	w28, w28, w14, w24
	sub	w2, w28, #1
	cmp	w2, #6
	b.hi	LBB59_281
	lsr	w30, w30, #30
	tbnz	w29, #31, LBB59_158
	umull	x2, w24, w0
	lsr	x24, x2, #38
	cbz	w30, LBB59_159
	lsl	w2, w24, #3
	mov	w24, #770
	movk	w24, #770, lsl #16
	lsr	w24, w24, w2
	b	LBB59_159
LBB59_158:
	cmp	w24, #2000
	mov	w2, #3
	ccmp	w30, #0, #0, lo
	csinc	w24, w2, wzr, ne
LBB59_159:
	cmp	w28, #3
	b.ne	LBB59_281
	and	w2, w24, #0xff
	cmp	w2, w9, uxtb
	b.ne	LBB59_281
	cmp	w27, #0
	csel	x24, x7, x3, ne
LBB59_162:
	add	x2, x24, #4
	cmp	x12, x2
	b.lo	LBB59_281
	add	x15, x15, x24
	cmp	w26, #0
	sub	x12, x12, x24
	ldr	w28, [x15], #4
	sub	x12, x12, #4
	rev	w29, w28
	csel	w27, w28, w29, ne
	cbz	w27, LBB59_169
	add	x10, x10, #2
	tbz	w26, #0, LBB59_170
	sub	w2, w28, #1
	add	x10, x10, x2
LBB59_166:
	cmp	x12, #4
	b.lo	LBB59_281
	ldr	w2, [x15]
	ldr	x24, [x25, x4, lsl #3]
	mul	x2, x24, x2
	orr	x24, x2, #0x4
	subs	x12, x12, x24
	b.lo	LBB59_281
	subs	w27, w27, #1
	add	x15, x15, x24
	b.ne	LBB59_166
	b	LBB59_174
LBB59_169:
	add	x10, x10, #1
	b	LBB59_174
LBB59_170:
	sub	w2, w29, #1
	add	x10, x10, x2
LBB59_171:
	cmp	x12, #4
	b.lo	LBB59_281
	ldr	w2, [x15]
	ldr	x24, [x25, x4, lsl #3]
	rev	w2, w2
	mul	x2, x24, x2
	orr	x24, x2, #0x4
	subs	x12, x12, x24
	b.lo	LBB59_281
	subs	w27, w27, #1
	add	x15, x15, x24
	b.ne	LBB59_171
LBB59_174:
	add	w13, w13, #1
	cmp	w13, w11
	b.ne	LBB59_139
	b	LBB59_219
LBB59_175:
	cbz	w10, LBB59_224
	and	w10, w9, #0xff
	sub	w11, w10, #1
	cmp	w11, #2
	b.hs	LBB59_229
	mov	w12, #33
	cmp	x21, x12
	b.lo	LBB59_281
	b	LBB59_231
LBB59_178:
	cbz	w10, LBB59_279
LBB59_179:
	subs	x11, x21, #13
	b.lo	LBB59_281
	ldur	w10, [x22, #9]
	mov	w12, w9
	cmp	w8, #0
	and	x13, x12, #0xff
	adrp	x12, Lswitch.table.wkb_raw_write.371@PAGE
	add	x12, x12, Lswitch.table.wkb_raw_write.371@PAGEOFF
	rev	w14, w10
	ldr	x13, [x12, x13, lsl #3]
	csel	w10, w10, w14, ne
	mov	x14, #13
	madd	x13, x13, x10, x14
	cmp	x21, x13
	b.lo	LBB59_281
	cbz	w10, LBB59_205
	and	w14, w9, #0xff
	mov	w13, #1000
	mov	w1, w9
	mul	w2, w14, w13
	mov	w14, #770
	mov	w0, #19923
	mov	w3, #35128
	movk	w14, #770, lsl #16
	add	x15, x22, #13
	mov	w16, #-1073741824
	mov	w17, #-536870912
	movk	w0, #4194, lsl #16
	and	x1, x1, #0xff
	orr	w2, w2, #0x1
	movk	w3, #65, lsl #16
	mov	w4, #3
	mov	x6, x10
LBB59_183:
	cmp	x11, #5
	b.hs	LBB59_186
	cbz	x11, LBB59_281
	ldrb	w7, [x15]
	b	LBB59_191
LBB59_186:
	ldrb	w7, [x15]
	cmp	w7, #1
	b.eq	LBB59_189
	cbnz	w7, LBB59_191
	ldur	w24, [x15, #1]
	rev	w24, w24
	b	LBB59_190
LBB59_189:
	ldur	w24, [x15, #1]
LBB59_190:
	cmp	w24, w2
	b.eq	LBB59_203
LBB59_191:
	cbz	w7, LBB59_193
	cmp	w7, #1
	b.ne	LBB59_281
LBB59_193:
	cmp	x11, #5
	b.lo	LBB59_281
	ldur	w24, [x15, #1]
	cmp	w7, #0
	rev	w25, w24
	csel	w26, w24, w25, ne
	ubfx	w7, w26, #30, #1
	and	w25, w26, #0x7fffffff
	add	w24, w25, w16
	cmp	w7, #0
	csel	w24, w25, w24, eq
	lsr	w7, w24, #29
	add	w27, w24, w17
	cmp	w7, #0
	csel	w27, w27, w24, ne
	cmp	w27, #3999
	b.hi	LBB59_281
	umull	x24, w27, w3
	lsr	x24, x24, #32
	msub	w24, w24, w13, w27
	sub	w28, w24, #1
	cmp	w28, #6
	b.hi	LBB59_281
	tbnz	w26, #31, LBB59_199
	umull	x26, w27, w0
	lsr	w27, w25, #30
	lsr	x25, x26, #38
	cbz	w27, LBB59_200
	lsl	w25, w25, #3
	lsr	w25, w14, w25
	b	LBB59_200
LBB59_199:
	lsr	w25, w25, #30
	cmp	w27, #2000
	ccmp	w25, #0, #0, lo
	csinc	w25, w4, wzr, ne
LBB59_200:
	cbnz	w7, LBB59_281
	cmp	w24, #1
	b.ne	LBB59_281
	and	w7, w25, #0xff
	cmp	w7, w9, uxtb
	b.ne	LBB59_281
LBB59_203:
	ldr	x7, [x12, x1, lsl #3]
	subs	x11, x11, x7
	b.lo	LBB59_281
	subs	x6, x6, #1
	add	x15, x15, x7
	b.ne	LBB59_183
LBB59_205:
	ldur	w15, [x22, #5]
	cmp	w8, #0
	add	x14, x10, #1
	sub	x12, x21, x11
	mov	w13, #1
	mov	w17, #9
	rev	w16, w15
	mov	w11, w10
	csel	w16, w15, w16, ne
	mov	w15, #4
	b	LBB59_327
LBB59_206:
	cbz	w10, LBB59_210
LBB59_207:
	cmp	x21, #13
	b.lo	LBB59_281
	ldur	w10, [x22, #9]
	mov	w11, w9
	adrp	x13, Lswitch.table.wkb_raw_write.374@PAGE
	add	x13, x13, Lswitch.table.wkb_raw_write.374@PAGEOFF
	and	x11, x11, #0xff
	cmp	w8, #0
	rev	w12, w10
	ldr	x13, [x13, x11, lsl #3]
	csel	w11, w10, w12, ne
	mov	x10, #13
	madd	x12, x13, x11, x10
	cmp	x21, x12
	b.lo	LBB59_281
	ldur	w14, [x22, #5]
	cmp	w8, #0
	mov	x10, xzr
	mov	w13, #1
	mov	w15, #2
	mov	w17, #9
	rev	w16, w14
	csel	w16, w14, w16, ne
	mov	w14, #1
	b	LBB59_327
LBB59_210:
	cmp	x21, #9
	b.lo	LBB59_281
	ldur	w10, [x22, #5]
	mov	w11, w9
	adrp	x13, Lswitch.table.wkb_raw_write.374@PAGE
	add	x13, x13, Lswitch.table.wkb_raw_write.374@PAGEOFF
	and	x11, x11, #0xff
	cmp	w8, #0
	rev	w12, w10
	ldr	x13, [x13, x11, lsl #3]
	csel	w11, w10, w12, ne
	mov	x10, #9
	madd	x12, x13, x11, x10
	cmp	x21, x12
	b.lo	LBB59_281
	mov	x10, xzr
	mov	w13, wzr
	mov	w15, #2
	mov	w17, #5
	mov	w14, #1
	b	LBB59_326
LBB59_213:
	cbnz	w10, LBB59_10
	b	LBB59_45
LBB59_214:
	mov	x10, xzr
LBB59_215:
	mov	w13, wzr
	add	x14, x10, #1
	sub	x12, x21, x12
	mov	w15, #3
	mov	w17, #5
	b	LBB59_326
LBB59_216:
	mov	x10, xzr
LBB59_217:
	mov	w13, wzr
	add	x14, x10, #1
	sub	x12, x21, x12
	mov	w15, #5
	mov	w17, #5
	b	LBB59_327
LBB59_218:
	mov	x10, xzr
LBB59_219:
	ldur	w13, [x22, #5]
	cmp	w8, #0
	add	x14, x10, #1
	sub	x12, x21, x12
	mov	w17, #9
	rev	w15, w13
	csel	w16, w13, w15, ne
	mov	w13, #1
	mov	w15, #6
	b	LBB59_327
LBB59_220:
	mov	x10, xzr
LBB59_221:
	ldur	w15, [x22, #5]
	cmp	w8, #0
	add	x14, x10, #1
	sub	x12, x21, x12
	mov	w13, #1
	mov	w17, #9
	rev	w16, w15
	csel	w16, w15, w16, ne
	mov	w15, #5
	b	LBB59_327
LBB59_222:
	mov	x10, xzr
LBB59_223:
	ldur	w15, [x22, #5]
	cmp	w8, #0
	add	x14, x10, #1
	sub	x12, x21, x12
	mov	w13, #1
	mov	w17, #9
	rev	w16, w15
	csel	w16, w15, w16, ne
	mov	w15, #3
	b	LBB59_327
LBB59_224:
	and	w10, w9, #0xff
	sub	w11, w10, #1
	cmp	w11, #2
	b.hs	LBB59_232
LBB59_225:
	mov	w12, #29
	cmp	x21, x12
	b.lo	LBB59_281
	b	LBB59_234
LBB59_226:
	cmp	w10, #2004
	b.eq	LBB59_279
	cmp	w10, #2005
	b.eq	LBB59_45
	cmp	w10, #2006
	b.eq	LBB59_239
	b	LBB59_281
LBB59_229:
	cbnz	w10, LBB59_334
LBB59_230:
	mov	w12, #25
	cmp	x21, x12
	b.lo	LBB59_281
LBB59_231:
	ldur	w11, [x22, #5]
	cmp	w8, #0
	mov	w14, #1
	mov	w10, #9
	mov	w13, w14
	rev	w15, w11
	csel	w16, w11, w15, ne
	b	LBB59_235
LBB59_232:
	cbnz	w10, LBB59_333
LBB59_233:
	mov	w12, #21
	cmp	x21, x12
	b.lo	LBB59_281
LBB59_234:
	mov	w13, wzr
	mov	w14, #1
	mov	w10, #5
LBB59_235:
	mov	w17, #1
	mov	w15, w14
	mov	w11, #1
	b	LBB59_328
LBB59_236:
	cmp	w10, #3004
	b.eq	LBB59_279
	cmp	w10, #3005
	b.eq	LBB59_45
	cmp	w10, #3006
	b.ne	LBB59_281
LBB59_239:
	subs	x12, x21, #9
	b.lo	LBB59_281
	ldur	w10, [x22, #5]
	cmp	w8, #0
	rev	w11, w10
	csel	w11, w10, w11, ne
	cbz	w11, LBB59_325
	and	w16, w9, #0xff
	mov	w14, #1000
	mov	w4, w9
	mul	w6, w16, w14
	mov	w0, #19923
	mov	w1, #35128
	mov	w13, wzr
	mov	x10, xzr
	add	x15, x22, #9
	mov	w16, #-1073741824
	mov	w17, #-536870912
	movk	w0, #4194, lsl #16
	movk	w1, #65, lsl #16
	mov	w3, #5
	and	x4, x4, #0xff
	orr	w6, w6, #0x3
	mov	w7, #9
	adrp	x25, Lswitch.table.wkb_raw_write.374@PAGE
	add	x25, x25, Lswitch.table.wkb_raw_write.374@PAGEOFF
LBB59_242:
	cmp	x12, #5
	b.hs	LBB59_245
	cbz	x12, LBB59_281
	ldrb	w27, [x15]
	b	LBB59_251
LBB59_245:
	ldrb	w27, [x15]
	cmp	w27, #1
	b.eq	LBB59_248
	cbnz	w27, LBB59_251
	ldur	w24, [x15, #1]
	mov	w26, wzr
	rev	w24, w24
	b	LBB59_249
LBB59_248:
	ldur	w24, [x15, #1]
	mov	w26, #1
LBB59_249:
	cmp	w24, w6
	b.ne	LBB59_251
	mov	w24, #5
	b	LBB59_265
LBB59_251:
	cbz	w27, LBB59_254
	cmp	w27, #1
	b.ne	LBB59_281
	mov	w26, #1
	b	LBB59_255
LBB59_254:
	mov	w26, wzr
LBB59_255:
	cmp	x12, #5
	b.lo	LBB59_281
	ldur	w24, [x15, #1]
	cmp	w26, #0
	rev	w27, w24
	csel	w29, w24, w27, ne
	ubfx	w24, w29, #30, #1
	and	w30, w29, #0x7fffffff
	add	w27, w30, w16
	cmp	w24, #0
	csel	w24, w30, w27, eq
	lsr	w27, w24, #29
	add	w28, w24, w17
	cmp	w27, #0
	csel	w24, w28, w24, ne
	cmp	w24, #3999
	b.hi	LBB59_281
	umull	x28, w24, w1
	lsr	x28, x28, #32
	msub	w28, w28, w14, w24
	sub	w2, w28, #1
	cmp	w2, #6
	b.hi	LBB59_281
	lsr	w30, w30, #30
	tbnz	w29, #31, LBB59_261
	umull	x2, w24, w0
	lsr	x24, x2, #38
	cbz	w30, LBB59_262
	lsl	w2, w24, #3
	mov	w24, #770
	movk	w24, #770, lsl #16
	lsr	w24, w24, w2
	b	LBB59_262
LBB59_261:
	cmp	w24, #2000
	mov	w2, #3
	ccmp	w30, #0, #0, lo
	csinc	w24, w2, wzr, ne
LBB59_262:
	cmp	w28, #3
	b.ne	LBB59_281
	and	w2, w24, #0xff
	cmp	w2, w9, uxtb
	b.ne	LBB59_281
	cmp	w27, #0
	csel	x24, x7, x3, ne
LBB59_265:
	add	x2, x24, #4
	cmp	x12, x2
	b.lo	LBB59_281
	add	x15, x15, x24
	cmp	w26, #0
	sub	x12, x12, x24
	ldr	w28, [x15], #4
	sub	x12, x12, #4
	rev	w29, w28
	csel	w27, w28, w29, ne
	cbz	w27, LBB59_272
	add	x10, x10, #2
	tbz	w26, #0, LBB59_273
	sub	w2, w28, #1
	add	x10, x10, x2
LBB59_269:
	cmp	x12, #4
	b.lo	LBB59_281
	ldr	w2, [x15]
	ldr	x24, [x25, x4, lsl #3]
	mul	x2, x24, x2
	orr	x24, x2, #0x4
	subs	x12, x12, x24
	b.lo	LBB59_281
	subs	w27, w27, #1
	add	x15, x15, x24
	b.ne	LBB59_269
	b	LBB59_277
LBB59_272:
	add	x10, x10, #1
	b	LBB59_277
LBB59_273:
	sub	w2, w29, #1
	add	x10, x10, x2
LBB59_274:
	cmp	x12, #4
	b.lo	LBB59_281
	ldr	w2, [x15]
	ldr	x24, [x25, x4, lsl #3]
	rev	w2, w2
	mul	x2, x24, x2
	orr	x24, x2, #0x4
	subs	x12, x12, x24
	b.lo	LBB59_281
	subs	w27, w27, #1
	add	x15, x15, x24
	b.ne	LBB59_274
LBB59_277:
	add	w13, w13, #1
	cmp	w13, w11
	b.ne	LBB59_242
	mov	w13, wzr
	add	x14, x10, #1
	sub	x12, x21, x12
	mov	w15, #6
	mov	w17, #5
	b	LBB59_326
LBB59_279:
	subs	x10, x21, #9
	b.lo	LBB59_281
	ldur	w11, [x22, #5]
	mov	w12, w9
	cmp	w8, #0
	and	x13, x12, #0xff
	adrp	x12, Lswitch.table.wkb_raw_write.371@PAGE
	add	x12, x12, Lswitch.table.wkb_raw_write.371@PAGEOFF
	rev	w14, w11
	ldr	x13, [x12, x13, lsl #3]
	csel	w11, w11, w14, ne
	mov	x14, #9
	madd	x13, x13, x11, x14
	cmp	x21, x13
	b.hs	LBB59_300
LBB59_281:
	add	x0, sp, #8
	mov	x1, x22
	mov	x2, x21
	mov	x3, x5
	bl	_ZN7wkb_raw6erased5wkb_c5check11check_input17h063429354f07f5e3E
	ldp	w8, w0, [sp, #8]
	cmp	w8, #2
	b.eq	LBB59_332
	ldrb	w12, [sp, #40]
	ldr	x11, [sp, #24]
	ldrb	w9, [sp, #41]
	ldrb	w10, [sp, #42]
	cmp	w12, #2
	b.le	LBB59_286
	cmp	w12, #4
	b.gt	LBB59_289
	cmp	w12, #3
	b.ne	LBB59_293
	mov	w12, #4
	b	LBB59_295
LBB59_286:
	cbz	w12, LBB59_291
	cmp	w12, #1
	b.ne	LBB59_292
	mov	w12, #2
	b	LBB59_295
LBB59_289:
	cmp	w12, #5
	b.ne	LBB59_294
	mov	w12, #6
	b	LBB59_295
LBB59_291:
	cmp	w8, #0
	mov	w12, #9
	mov	w13, #5
	csel	x13, x13, x12, eq
	mov	w12, #1
	mov	w14, #1
	b	LBB59_296
LBB59_292:
	mov	w12, #3
	b	LBB59_295
LBB59_293:
	mov	w12, #5
	b	LBB59_295
LBB59_294:
	mov	w12, #7
LBB59_295:
	cmp	w8, #0
	mov	w13, #9
	mov	w14, #5
	csel	x13, x14, x13, eq
	tst	w10, #0x1
	ldr	w14, [x22, x13]
	add	x13, x13, #4
	rev	w15, w14
	csel	w14, w14, w15, ne
LBB59_296:
	adrp	x15, Lswitch.table.wkb_raw_parts.323@PAGE
	add	x15, x15, Lswitch.table.wkb_raw_parts.323@PAGEOFF
	ldr	x17, [sp, #16]
	tst	w8, #0x1
	ldr	w15, [x15, x9, lsl #2]
	str	x11, [x23]
	csel	w16, w0, wzr, ne
	cmp	x20, x11
	b.hs	LBB59_298
LBB59_297:
	mov	w0, #2
	b	LBB59_332
LBB59_298:
	cmp	x11, #1
	b.ne	LBB59_331
	mov	w0, wzr
	stp	xzr, x17, [x19]
	stp	x13, x14, [x19, #16]
	str	x11, [x19, #32]
	stp	w16, w8, [x19, #40]
	stp	w12, w9, [x19, #48]
	stp	w15, w10, [x19, #56]
	b	LBB59_332
LBB59_300:
	cbz	w11, LBB59_324
	and	w14, w9, #0xff
	mov	w13, #1000
	mov	w1, w9
	mul	w2, w14, w13
	mov	w14, #770
	mov	w0, #19923
	mov	w3, #35128
	movk	w14, #770, lsl #16
	add	x15, x22, #9
	mov	w16, #-1073741824
	mov	w17, #-536870912
	movk	w0, #4194, lsl #16
	and	x1, x1, #0xff
	orr	w2, w2, #0x1
	movk	w3, #65, lsl #16
	mov	w4, #3
	mov	x6, x11
LBB59_302:
	cmp	x10, #5
	b.hs	LBB59_305
	cbz	x10, LBB59_281
	ldrb	w7, [x15]
	b	LBB59_310
LBB59_305:
	ldrb	w7, [x15]
	cmp	w7, #1
	b.eq	LBB59_308
	cbnz	w7, LBB59_310
	ldur	w24, [x15, #1]
	rev	w24, w24
	b	LBB59_309
LBB59_308:
	ldur	w24, [x15, #1]
LBB59_309:
	cmp	w24, w2
	b.eq	LBB59_322
LBB59_310:
	cbz	w7, LBB59_312
	cmp	w7, #1
	b.ne	LBB59_281
LBB59_312:
	cmp	x10, #5
	b.lo	LBB59_281
	ldur	w24, [x15, #1]
	cmp	w7, #0
	rev	w25, w24
	csel	w26, w24, w25, ne
	ubfx	w7, w26, #30, #1
	and	w25, w26, #0x7fffffff
	add	w24, w25, w16
	cmp	w7, #0
	csel	w24, w25, w24, eq
	lsr	w7, w24, #29
	add	w27, w24, w17
	cmp	w7, #0
	csel	w27, w27, w24, ne
	cmp	w27, #3999
	b.hi	LBB59_281
	umull	x24, w27, w3
	lsr	x24, x24, #32
	msub	w24, w24, w13, w27
	sub	w28, w24, #1
	cmp	w28, #6
	b.hi	LBB59_281
	tbnz	w26, #31, LBB59_318
	umull	x26, w27, w0
	lsr	w27, w25, #30
	lsr	x25, x26, #38
	cbz	w27, LBB59_319
	lsl	w25, w25, #3
	lsr	w25, w14, w25
	b	LBB59_319
LBB59_318:
	lsr	w25, w25, #30
	cmp	w27, #2000
	ccmp	w25, #0, #0, lo
	csinc	w25, w4, wzr, ne
LBB59_319:
	cbnz	w7, LBB59_281
	cmp	w24, #1
	b.ne	LBB59_281
	and	w7, w25, #0xff
	cmp	w7, w9, uxtb
	b.ne	LBB59_281
LBB59_322:
	ldr	x7, [x12, x1, lsl #3]
	subs	x10, x10, x7
	b.lo	LBB59_281
	subs	x6, x6, #1
	add	x15, x15, x7
	b.ne	LBB59_302
LBB59_324:
	mov	w13, wzr
	add	x14, x11, #1
	sub	x12, x21, x10
	mov	w15, #4
	mov	w17, #5
	mov	x10, x11
	b	LBB59_326
LBB59_325:
	mov	x10, xzr
	mov	w13, wzr
	mov	w15, #6
	mov	w17, #5
	mov	w12, #9
	mov	w14, #1
LBB59_326:
LBB59_327:
	cmp	x10, #0
	add	x10, x17, #4
	mov	w11, w11
	cset	w17, eq
LBB59_328:
	cmp	w13, #0
	and	x0, x9, #0xff
	adrp	x2, Lswitch.table.wkb_raw_parts.323@PAGE
	add	x2, x2, Lswitch.table.wkb_raw_parts.323@PAGEOFF
	csel	w1, w16, wzr, ne
	cmp	x20, x14
	ldr	w16, [x2, x0, lsl #2]
	str	x14, [x23]
	b.lo	LBB59_297
	cbz	w17, LBB59_331
	stp	x10, x11, [x19, #16]
	mov	w10, #1
	and	w9, w9, #0xff
	mov	w0, wzr
	stp	xzr, x12, [x19]
	str	x10, [x19, #32]
	stp	w1, w13, [x19, #40]
	stp	w15, w9, [x19, #48]
	stp	w16, w8, [x19, #56]
	b	LBB59_332
LBB59_331:
	mov	x0, x22
	mov	x1, x21
	mov	w2, #1
	mov	x3, x19
	mov	x4, x20
	mov	x5, xzr
	mov	x6, xzr
	bl	_ZN7wkb_raw6erased7wkb_abi5parts14lay_geometries17hceb80ed4adcfb7b9E
	mov	w0, wzr
LBB59_332:
	ldp	x20, x19, [sp, #128]
	ldp	x22, x21, [sp, #112]
	ldp	x24, x23, [sp, #96]
	ldp	x26, x25, [sp, #80]
	ldp	x28, x27, [sp, #64]
	ldp	x29, x30, [sp, #48]
	add	sp, sp, #144
	.cfi_def_cfa_offset 0
	.cfi_restore w19
	.cfi_restore w20
	.cfi_restore w21
	.cfi_restore w22
	.cfi_restore w23
	.cfi_restore w24
	.cfi_restore w25
	.cfi_restore w26
	.cfi_restore w27
	.cfi_restore w28
	.cfi_restore w30
	.cfi_restore w29
	ret
LBB59_333:
	.cfi_restore_state
	mov	w12, #37
	cmp	x21, x12
	b.lo	LBB59_281
	b	LBB59_234
LBB59_334:
	mov	w12, #41
	cmp	x21, x12
	b.lo	LBB59_281
	b	LBB59_231
Lfunc_end59:
	.cfi_endproc
	.section	__TEXT,__text,regular,pure_instructions
	.private_extern	_wkb_raw_same
	.globl	_wkb_raw_same
	.p2align	2
_wkb_raw_same:
	.cfi_startproc
	hint	#34
	sub	sp, sp, #272
	.cfi_def_cfa_offset 272
	stp	x29, x30, [sp, #176]
	stp	x28, x27, [sp, #192]
	stp	x26, x25, [sp, #208]
	stp	x24, x23, [sp, #224]
	stp	x22, x21, [sp, #240]
	stp	x20, x19, [sp, #256]
	.cfi_offset w19, -8
	.cfi_offset w20, -16
	.cfi_offset w21, -24
	.cfi_offset w22, -32
	.cfi_offset w23, -40
	.cfi_offset w24, -48
	.cfi_offset w25, -56
	.cfi_offset w26, -64
	.cfi_offset w27, -72
	.cfi_offset w28, -80
	.cfi_offset w30, -88
	.cfi_offset w29, -96
	.cfi_remember_state
	mov	x24, x6
	mov	x25, x5
	mov	x27, x4
	mov	x26, x1
	mov	x29, x3
	mov	x28, x2
	cmp	x1, #5
	mov	x30, x0
	b.hs	LBB60_3
	cbz	x26, LBB60_252
	ldrb	w11, [x30]
	b	LBB60_115
LBB60_3:
	ldrb	w11, [x30]
	cmp	w11, #1
	b.eq	LBB60_39
	cbnz	w11, LBB60_115
	ldur	w8, [x30, #1]
	mov	w9, wzr
	rev	w10, w8
	lsr	w8, w10, #29
	cbz	w8, LBB60_40
LBB60_6:
	mov	w8, #3
	movk	w8, #8192, lsl #16
	cmp	w10, w8
	mov	w8, wzr
	b.le	LBB60_73
	mov	w12, #5
	movk	w12, #8192, lsl #16
	cmp	w10, w12
	b.gt	LBB60_91
	mov	w12, #4
	movk	w12, #8192, lsl #16
	cmp	w10, w12
	b.eq	LBB60_173
	mov	w12, #5
	movk	w12, #8192, lsl #16
	cmp	w10, w12
	b.ne	LBB60_115
LBB60_10:
	subs	x10, x26, #13
	b.lo	LBB60_252
	ldur	w11, [x30, #9]
	cmp	w9, #0
	rev	w12, w11
	csel	w9, w11, w12, ne
	cbz	w9, LBB60_279
	and	w14, w8, #0xff
	mov	w12, #1000
	mov	w3, w8
	mul	w4, w14, w12
	mov	w16, #19923
	mov	w17, #35128
	add	x13, x30, #13
	mov	w14, #-1073741824
	mov	w15, #-536870912
	movk	w16, #4194, lsl #16
	movk	w17, #65, lsl #16
	mov	w0, #3
	mov	w1, #5
	mov	w2, #9
	and	x3, x3, #0xff
	orr	w4, w4, #0x2
	mov	w5, #13
	adrp	x6, Lswitch.table.wkb_raw_write.374@PAGE
	add	x6, x6, Lswitch.table.wkb_raw_write.374@PAGEOFF
LBB60_13:
	cmp	x10, #5
	b.hs	LBB60_16
	cbz	x10, LBB60_252
	ldrb	w19, [x13]
	b	LBB60_22
LBB60_16:
	ldrb	w19, [x13]
	cmp	w19, #1
	b.eq	LBB60_19
	cbnz	w19, LBB60_22
	ldur	w20, [x13, #1]
	mov	w7, wzr
	rev	w20, w20
	b	LBB60_20
LBB60_19:
	ldur	w20, [x13, #1]
	mov	w7, #1
LBB60_20:
	cmp	w20, w4
	b.ne	LBB60_22
	mov	w19, #9
	mov	w20, #5
	b	LBB60_36
LBB60_22:
	cbz	w19, LBB60_25
	cmp	w19, #1
	b.ne	LBB60_252
	mov	w7, #1
	b	LBB60_26
LBB60_25:
	mov	w7, wzr
LBB60_26:
	cmp	x10, #5
	b.lo	LBB60_252
	ldur	w19, [x13, #1]
	cmp	w7, #0
	rev	w20, w19
	csel	w22, w19, w20, ne
	ubfx	w19, w22, #30, #1
	and	w21, w22, #0x7fffffff
	add	w20, w21, w14
	cmp	w19, #0
	csel	w20, w21, w20, eq
	lsr	w19, w20, #29
	add	w23, w20, w15
	cmp	w19, #0
	csel	w23, w23, w20, ne
	cmp	w23, #3999
	b.hi	LBB60_252
	umull	x20, w23, w17
	mov	x11, x30
	mov	x30, x26
	lsr	x20, x20, #32
	msub	w20, w20, w12, w23
	sub	w26, w20, #1
	cmp	w26, #6
	mov	x26, x30
	mov	x30, x11
	b.hi	LBB60_252
	tbnz	w22, #31, LBB60_32
	umull	x22, w23, w16
	lsr	w23, w21, #30
	lsr	x21, x22, #38
	cbz	w23, LBB60_33
	lsl	w21, w21, #3
	mov	w11, #770
	movk	w11, #770, lsl #16
	lsr	w21, w11, w21
	b	LBB60_33
LBB60_32:
	lsr	w21, w21, #30
	cmp	w23, #2000
	ccmp	w21, #0, #0, lo
	csinc	w21, w0, wzr, ne
LBB60_33:
	cmp	w20, #2
	b.ne	LBB60_252
	and	w20, w21, #0xff
	cmp	w20, w8, uxtb
	b.ne	LBB60_252
	cmp	w19, #0
	csel	x20, x2, x1, ne
	csel	x19, x5, x2, ne
LBB60_36:
	add	x21, x20, #4
	cmp	x10, x21
	b.lo	LBB60_252
	ldr	w20, [x13, x20]
	cmp	w7, #0
	ldr	x7, [x6, x3, lsl #3]
	rev	w21, w20
	csel	w20, w20, w21, ne
	madd	x7, x7, x20, x19
	subs	x10, x10, x7
	b.lo	LBB60_252
	subs	w9, w9, #1
	add	x13, x13, x7
	b.ne	LBB60_13
	b	LBB60_279
LBB60_39:
	ldur	w10, [x30, #1]
	mov	w9, #1
	lsr	w8, w10, #29
	cbnz	w8, LBB60_6
LBB60_40:
	cmp	w10, #3
	b.le	LBB60_82
	cmp	w10, #5
	b.gt	LBB60_93
	cmp	w10, #4
	b.eq	LBB60_250
	cmp	w10, #5
	b.ne	LBB60_95
LBB60_44:
	subs	x10, x26, #9
	b.lo	LBB60_252
	ldur	w11, [x30, #5]
	cmp	w9, #0
	rev	w12, w11
	csel	w9, w11, w12, ne
	cbz	w9, LBB60_279
	and	w14, w8, #0xff
	mov	w12, #1000
	mov	w3, w8
	mul	w4, w14, w12
	mov	w16, #19923
	mov	w17, #35128
	add	x13, x30, #9
	mov	w14, #-1073741824
	mov	w15, #-536870912
	movk	w16, #4194, lsl #16
	movk	w17, #65, lsl #16
	mov	w0, #3
	mov	w1, #5
	mov	w2, #9
	and	x3, x3, #0xff
	orr	w4, w4, #0x2
	mov	w5, #13
	adrp	x6, Lswitch.table.wkb_raw_write.374@PAGE
	add	x6, x6, Lswitch.table.wkb_raw_write.374@PAGEOFF
LBB60_47:
	cmp	x10, #5
	b.hs	LBB60_50
	cbz	x10, LBB60_252
	ldrb	w19, [x13]
	b	LBB60_56
LBB60_50:
	ldrb	w19, [x13]
	cmp	w19, #1
	b.eq	LBB60_53
	cbnz	w19, LBB60_56
	ldur	w20, [x13, #1]
	mov	w7, wzr
	rev	w20, w20
	b	LBB60_54
LBB60_53:
	ldur	w20, [x13, #1]
	mov	w7, #1
LBB60_54:
	cmp	w20, w4
	b.ne	LBB60_56
	mov	w19, #9
	mov	w20, #5
	b	LBB60_70
LBB60_56:
	cbz	w19, LBB60_59
	cmp	w19, #1
	b.ne	LBB60_252
	mov	w7, #1
	b	LBB60_60
LBB60_59:
	mov	w7, wzr
LBB60_60:
	cmp	x10, #5
	b.lo	LBB60_252
	ldur	w19, [x13, #1]
	cmp	w7, #0
	rev	w20, w19
	csel	w21, w19, w20, ne
	ubfx	w19, w21, #30, #1
	and	w22, w21, #0x7fffffff
	add	w20, w22, w14
	cmp	w19, #0
	csel	w20, w22, w20, eq
	lsr	w19, w20, #29
	add	w23, w20, w15
	cmp	w19, #0
	csel	w23, w23, w20, ne
	cmp	w23, #3999
	b.hi	LBB60_252
	umull	x20, w23, w17
	mov	x11, x30
	mov	x30, x26
	lsr	x20, x20, #32
	msub	w20, w20, w12, w23
	sub	w26, w20, #1
	cmp	w26, #6
	mov	x26, x30
	mov	x30, x11
	b.hi	LBB60_252
	lsr	w22, w22, #30
	tbnz	w21, #31, LBB60_66
	umull	x21, w23, w16
	lsr	x21, x21, #38
	cbz	w22, LBB60_67
	lsl	w21, w21, #3
	mov	w11, #770
	movk	w11, #770, lsl #16
	lsr	w21, w11, w21
	b	LBB60_67
LBB60_66:
	cmp	w23, #2000
	ccmp	w22, #0, #0, lo
	csinc	w21, w0, wzr, ne
LBB60_67:
	cmp	w20, #2
	b.ne	LBB60_252
	and	w20, w21, #0xff
	cmp	w20, w8, uxtb
	b.ne	LBB60_252
	cmp	w19, #0
	csel	x20, x2, x1, ne
	csel	x19, x5, x2, ne
LBB60_70:
	add	x21, x20, #4
	cmp	x10, x21
	b.lo	LBB60_252
	ldr	w20, [x13, x20]
	cmp	w7, #0
	ldr	x7, [x6, x3, lsl #3]
	rev	w21, w20
	csel	w20, w20, w21, ne
	madd	x7, x7, x20, x19
	subs	x10, x10, x7
	b.lo	LBB60_252
	subs	w9, w9, #1
	add	x13, x13, x7
	b.ne	LBB60_47
	b	LBB60_279
LBB60_73:
	mov	w12, #1
	movk	w12, #8192, lsl #16
	cmp	w10, w12
	b.eq	LBB60_100
	mov	w12, #2
	movk	w12, #8192, lsl #16
	cmp	w10, w12
	b.eq	LBB60_200
	mov	w12, #3
	movk	w12, #8192, lsl #16
	cmp	w10, w12
	b.ne	LBB60_115
LBB60_76:
	subs	x10, x26, #13
	b.lo	LBB60_252
	ldur	w11, [x30, #9]
	cmp	w9, #0
	rev	w12, w11
	csel	w11, w11, w12, ne
	cbz	w11, LBB60_279
	add	x12, x30, #13
	adrp	x13, Lswitch.table.wkb_raw_write.374@PAGE
	add	x13, x13, Lswitch.table.wkb_raw_write.374@PAGEOFF
	and	x8, x8, #0xff
LBB60_79:
	cmp	x10, #4
	b.lo	LBB60_252
	ldr	w14, [x12]
	cmp	w9, #0
	ldr	x16, [x13, x8, lsl #3]
	rev	w15, w14
	csel	w14, w14, w15, ne
	mul	x14, x16, x14
	orr	x14, x14, #0x4
	subs	x10, x10, x14
	b.lo	LBB60_252
	subs	w11, w11, #1
	add	x12, x12, x14
	b.ne	LBB60_79
	b	LBB60_279
LBB60_82:
	cmp	w10, #1
	b.eq	LBB60_101
	cmp	w10, #2
	b.eq	LBB60_202
	cmp	w10, #3
	b.ne	LBB60_95
LBB60_85:
	subs	x10, x26, #9
	b.lo	LBB60_252
	ldur	w11, [x30, #5]
	cmp	w9, #0
	rev	w12, w11
	csel	w11, w11, w12, ne
	cbz	w11, LBB60_279
	add	x12, x30, #9
	adrp	x13, Lswitch.table.wkb_raw_write.374@PAGE
	add	x13, x13, Lswitch.table.wkb_raw_write.374@PAGEOFF
	and	x8, x8, #0xff
LBB60_88:
	cmp	x10, #4
	b.lo	LBB60_252
	ldr	w14, [x12]
	cmp	w9, #0
	ldr	x16, [x13, x8, lsl #3]
	rev	w15, w14
	csel	w14, w14, w15, ne
	mul	x14, x16, x14
	orr	x14, x14, #0x4
	subs	x10, x10, x14
	b.lo	LBB60_252
	subs	w11, w11, #1
	add	x12, x12, x14
	b.ne	LBB60_88
	b	LBB60_279
LBB60_91:
	mov	w12, #6
	movk	w12, #8192, lsl #16
	cmp	w10, w12
	b.eq	LBB60_134
	mov	w8, #7
	movk	w8, #8192, lsl #16
	cmp	w10, w8
	b.eq	LBB60_252
	b	LBB60_115
LBB60_93:
	cmp	w10, #6
	b.eq	LBB60_214
	cmp	w10, #7
	b.eq	LBB60_252
LBB60_95:
	sub	w8, w10, #1001
	cmp	w8, #7
	b.hs	LBB60_102
	cmp	w10, #1003
	mov	w8, #1
	b.gt	LBB60_107
	cmp	w10, #1001
	b.eq	LBB60_210
	cmp	w10, #1002
	b.eq	LBB60_202
	cmp	w10, #1003
	b.eq	LBB60_85
	b	LBB60_252
LBB60_100:
	mov	w8, #25
	cmp	x26, x8
	b.lo	LBB60_252
	b	LBB60_279
LBB60_101:
	mov	w8, #21
	cmp	x26, x8
	b.lo	LBB60_252
	b	LBB60_279
LBB60_102:
	sub	w8, w10, #2001
	cmp	w8, #7
	b.hs	LBB60_110
	cmp	w10, #2003
	mov	w8, #2
	b.gt	LBB60_207
	cmp	w10, #2001
	b.eq	LBB60_210
	cmp	w10, #2002
	b.eq	LBB60_202
	cmp	w10, #2003
	b.eq	LBB60_85
	b	LBB60_252
LBB60_107:
	cmp	w10, #1004
	b.eq	LBB60_250
	cmp	w10, #1005
	b.eq	LBB60_44
	cmp	w10, #1006
	b.eq	LBB60_214
	b	LBB60_252
LBB60_110:
	sub	w8, w10, #3001
	cmp	w8, #7
	b.hs	LBB60_115
	cmp	w10, #3003
	mov	w8, #3
	b.gt	LBB60_211
	cmp	w10, #3001
	b.eq	LBB60_278
	cmp	w10, #3002
	b.eq	LBB60_202
	cmp	w10, #3003
	b.eq	LBB60_85
	b	LBB60_252
LBB60_115:
	cbz	w11, LBB60_118
	cmp	w11, #1
	b.ne	LBB60_252
	mov	w9, #1
	cmp	x26, #5
	b.hs	LBB60_119
	b	LBB60_252
LBB60_118:
	mov	w9, wzr
	cmp	x26, #5
	b.lo	LBB60_252
LBB60_119:
	ldur	w8, [x30, #1]
	cmp	w9, #0
	mov	w11, #-1073741824
	mov	w13, #-536870912
	rev	w10, w8
	csel	w12, w8, w10, ne
	ubfx	w10, w12, #30, #1
	and	w8, w12, #0x7fffffff
	add	w11, w8, w11
	cmp	w10, #0
	csel	w11, w8, w11, eq
	lsr	w10, w11, #29
	add	w13, w11, w13
	cmp	w10, #0
	csel	w13, w13, w11, ne
	cmp	w13, #3999
	b.hi	LBB60_252
	mov	w11, #35128
	mov	w14, #1000
	movk	w11, #65, lsl #16
	umull	x11, w13, w11
	lsr	x11, x11, #32
	msub	w11, w11, w14, w13
	sub	w14, w11, #1
	cmp	w14, #6
	b.hi	LBB60_252
	tbnz	w12, #31, LBB60_124
	mov	w12, #19923
	movk	w12, #4194, lsl #16
	umull	x12, w13, w12
	lsr	w13, w8, #30
	lsr	x8, x12, #38
	cbz	w13, LBB60_125
	lsl	w8, w8, #3
	mov	w12, #770
	movk	w12, #770, lsl #16
	lsr	w8, w12, w8
	b	LBB60_125
LBB60_124:
	lsr	w8, w8, #30
	cmp	w13, #2000
	ccmp	w8, #0, #0, lo
	mov	w8, #3
	csinc	w8, w8, wzr, ne
LBB60_125:
	cmp	w11, #3
	b.gt	LBB60_130
	cmp	w11, #1
	b.eq	LBB60_170
	cmp	w11, #2
	b.eq	LBB60_199
	cmp	w11, #3
	b.ne	LBB60_252
	cbnz	w10, LBB60_76
	b	LBB60_85
LBB60_130:
	cmp	w11, #4
	b.eq	LBB60_172
	cmp	w11, #5
	b.eq	LBB60_204
	cmp	w11, #6
	b.ne	LBB60_252
	cbz	w10, LBB60_214
LBB60_134:
	subs	x10, x26, #13
	b.lo	LBB60_252
	ldur	w11, [x30, #9]
	cmp	w9, #0
	rev	w12, w11
	csel	w9, w11, w12, ne
	cbz	w9, LBB60_279
	and	w14, w8, #0xff
	mov	w12, #1000
	mov	w3, w8
	mul	w4, w14, w12
	mov	w16, #19923
	mov	w17, #35128
	mov	w11, wzr
	add	x13, x30, #13
	mov	w14, #-1073741824
	mov	w15, #-536870912
	movk	w16, #4194, lsl #16
	movk	w17, #65, lsl #16
	mov	w0, #3
	mov	w1, #5
	mov	w2, #9
	and	x3, x3, #0xff
	orr	w4, w4, #0x3
	adrp	x6, Lswitch.table.wkb_raw_write.374@PAGE
	add	x6, x6, Lswitch.table.wkb_raw_write.374@PAGEOFF
LBB60_137:
	cmp	x10, #5
	b.hs	LBB60_140
	cbz	x10, LBB60_252
	ldrb	w19, [x13]
	b	LBB60_146
LBB60_140:
	ldrb	w19, [x13]
	cmp	w19, #1
	b.eq	LBB60_143
	cbnz	w19, LBB60_146
	ldur	w20, [x13, #1]
	mov	w7, wzr
	rev	w20, w20
	b	LBB60_144
LBB60_143:
	ldur	w20, [x13, #1]
	mov	w7, #1
LBB60_144:
	cmp	w20, w4
	b.ne	LBB60_146
	mov	w19, #5
	b	LBB60_160
LBB60_146:
	cbz	w19, LBB60_149
	cmp	w19, #1
	b.ne	LBB60_252
	mov	w7, #1
	b	LBB60_150
LBB60_149:
	mov	w7, wzr
LBB60_150:
	cmp	x10, #5
	b.lo	LBB60_252
	ldur	w19, [x13, #1]
	cmp	w7, #0
	rev	w20, w19
	csel	w22, w19, w20, ne
	ubfx	w19, w22, #30, #1
	and	w21, w22, #0x7fffffff
	add	w20, w21, w14
	cmp	w19, #0
	csel	w20, w21, w20, eq
	lsr	w19, w20, #29
	add	w23, w20, w15
	cmp	w19, #0
	csel	w23, w23, w20, ne
	cmp	w23, #3999
	b.hi	LBB60_252
	umull	x20, w23, w17
	mov	x5, x30
	mov	x30, x26
	lsr	x20, x20, #32
	msub	w20, w20, w12, w23
	sub	w26, w20, #1
	cmp	w26, #6
	mov	x26, x30
	mov	x30, x5
	b.hi	LBB60_252
	tbnz	w22, #31, LBB60_156
	umull	x22, w23, w16
	lsr	w23, w21, #30
	lsr	x21, x22, #38
	cbz	w23, LBB60_157
	lsl	w21, w21, #3
	mov	w5, #770
	movk	w5, #770, lsl #16
	lsr	w21, w5, w21
	b	LBB60_157
LBB60_156:
	lsr	w21, w21, #30
	cmp	w23, #2000
	ccmp	w21, #0, #0, lo
	csinc	w21, w0, wzr, ne
LBB60_157:
	cmp	w20, #3
	b.ne	LBB60_252
	and	w20, w21, #0xff
	cmp	w20, w8, uxtb
	b.ne	LBB60_252
	cmp	w19, #0
	csel	x19, x2, x1, ne
LBB60_160:
	add	x20, x19, #4
	cmp	x10, x20
	b.lo	LBB60_252
	add	x13, x13, x19
	cmp	w7, #0
	sub	x10, x10, x19
	ldr	w20, [x13], #4
	sub	x10, x10, #4
	rev	w21, w20
	csel	w19, w20, w21, ne
	cbz	w19, LBB60_169
	tbz	w7, #0, LBB60_166
LBB60_163:
	cmp	x10, #4
	b.lo	LBB60_252
	ldr	w7, [x13]
	ldr	x20, [x6, x3, lsl #3]
	mul	x7, x20, x7
	orr	x7, x7, #0x4
	subs	x10, x10, x7
	b.lo	LBB60_252
	subs	w19, w19, #1
	add	x13, x13, x7
	b.ne	LBB60_163
	b	LBB60_169
LBB60_166:
	cmp	x10, #4
	b.lo	LBB60_252
	ldr	w7, [x13]
	ldr	x20, [x6, x3, lsl #3]
	rev	w7, w7
	mul	x7, x20, x7
	orr	x7, x7, #0x4
	subs	x10, x10, x7
	b.lo	LBB60_252
	subs	w19, w19, #1
	add	x13, x13, x7
	b.ne	LBB60_166
LBB60_169:
	add	w11, w11, #1
	cmp	w11, w9
	b.ne	LBB60_137
	b	LBB60_279
LBB60_170:
	and	x8, x8, #0xff
	cbz	w10, LBB60_205
	adrp	x9, Lswitch.table.wkb_raw_same.347@PAGE
	add	x9, x9, Lswitch.table.wkb_raw_same.347@PAGEOFF
	b	LBB60_206
LBB60_172:
	cbz	w10, LBB60_250
LBB60_173:
	subs	x10, x26, #13
	b.lo	LBB60_252
	ldur	w11, [x30, #9]
	mov	w12, w8
	cmp	w9, #0
	and	x12, x12, #0xff
	adrp	x9, Lswitch.table.wkb_raw_write.371@PAGE
	add	x9, x9, Lswitch.table.wkb_raw_write.371@PAGEOFF
	rev	w13, w11
	ldr	x12, [x9, x12, lsl #3]
	csel	w11, w11, w13, ne
	mov	x13, #13
	madd	x12, x12, x11, x13
	cmp	x26, x12
	b.lo	LBB60_252
	cbz	w11, LBB60_279
	and	w13, w8, #0xff
	mov	w12, #1000
	mov	w17, w8
	mul	w0, w13, w12
	mov	w13, #770
	mov	w1, #19923
	mov	w2, #35128
	movk	w13, #770, lsl #16
	add	x14, x30, #13
	mov	w15, #-1073741824
	mov	w16, #-536870912
	and	x17, x17, #0xff
	orr	w0, w0, #0x1
	movk	w1, #4194, lsl #16
	movk	w2, #65, lsl #16
	mov	w3, #3
LBB60_177:
	cmp	x10, #5
	b.hs	LBB60_180
	cbz	x10, LBB60_252
	ldrb	w4, [x14]
	b	LBB60_185
LBB60_180:
	ldrb	w4, [x14]
	cmp	w4, #1
	b.eq	LBB60_183
	cbnz	w4, LBB60_185
	ldur	w5, [x14, #1]
	rev	w5, w5
	b	LBB60_184
LBB60_183:
	ldur	w5, [x14, #1]
LBB60_184:
	cmp	w5, w0
	b.eq	LBB60_197
LBB60_185:
	cbz	w4, LBB60_187
	cmp	w4, #1
	b.ne	LBB60_252
LBB60_187:
	cmp	x10, #5
	b.lo	LBB60_252
	ldur	w5, [x14, #1]
	cmp	w4, #0
	rev	w6, w5
	csel	w6, w5, w6, ne
	ubfx	w4, w6, #30, #1
	and	w7, w6, #0x7fffffff
	add	w5, w7, w15
	cmp	w4, #0
	csel	w5, w7, w5, eq
	lsr	w4, w5, #29
	add	w19, w5, w16
	cmp	w4, #0
	csel	w19, w19, w5, ne
	cmp	w19, #3999
	b.hi	LBB60_252
	umull	x5, w19, w2
	lsr	x5, x5, #32
	msub	w5, w5, w12, w19
	sub	w20, w5, #1
	cmp	w20, #6
	b.hi	LBB60_252
	lsr	w7, w7, #30
	tbnz	w6, #31, LBB60_193
	umull	x6, w19, w1
	lsr	x6, x6, #38
	cbz	w7, LBB60_194
	lsl	w6, w6, #3
	lsr	w6, w13, w6
	b	LBB60_194
LBB60_193:
	cmp	w19, #2000
	ccmp	w7, #0, #0, lo
	csinc	w6, w3, wzr, ne
LBB60_194:
	cbnz	w4, LBB60_252
	cmp	w5, #1
	b.ne	LBB60_252
	and	w4, w6, #0xff
	cmp	w4, w8, uxtb
	b.ne	LBB60_252
LBB60_197:
	ldr	x4, [x9, x17, lsl #3]
	subs	x10, x10, x4
	b.lo	LBB60_252
	subs	w11, w11, #1
	add	x14, x14, x4
	b.ne	LBB60_177
	b	LBB60_279
LBB60_199:
	cbz	w10, LBB60_202
LBB60_200:
	cmp	x26, #13
	b.lo	LBB60_252
	ldur	w10, [x30, #9]
	adrp	x11, Lswitch.table.wkb_raw_write.374@PAGE
	add	x11, x11, Lswitch.table.wkb_raw_write.374@PAGEOFF
	and	x8, x8, #0xff
	cmp	w9, #0
	rev	w9, w10
	ldr	x8, [x11, x8, lsl #3]
	csel	w9, w10, w9, ne
	mov	x10, #13
	madd	x8, x8, x9, x10
	cmp	x26, x8
	b.lo	LBB60_252
	b	LBB60_279
LBB60_202:
	cmp	x26, #9
	b.lo	LBB60_252
	ldur	w10, [x30, #5]
	adrp	x11, Lswitch.table.wkb_raw_write.374@PAGE
	add	x11, x11, Lswitch.table.wkb_raw_write.374@PAGEOFF
	and	x8, x8, #0xff
	cmp	w9, #0
	rev	w9, w10
	ldr	x8, [x11, x8, lsl #3]
	csel	w9, w10, w9, ne
	mov	x10, #9
	madd	x8, x8, x9, x10
	cmp	x26, x8
	b.lo	LBB60_252
	b	LBB60_279
LBB60_204:
	cbnz	w10, LBB60_10
	b	LBB60_44
LBB60_205:
	adrp	x9, Lswitch.table.wkb_raw_write.371@PAGE
	add	x9, x9, Lswitch.table.wkb_raw_write.371@PAGEOFF
LBB60_206:
	ldr	x8, [x9, x8, lsl #3]
	cmp	x26, x8
	b.lo	LBB60_252
	b	LBB60_279
LBB60_207:
	cmp	w10, #2004
	b.eq	LBB60_250
	cmp	w10, #2005
	b.eq	LBB60_44
	cmp	w10, #2006
	b.eq	LBB60_214
	b	LBB60_252
LBB60_210:
	mov	w8, #29
	cmp	x26, x8
	b.lo	LBB60_252
	b	LBB60_279
LBB60_211:
	cmp	w10, #3004
	b.eq	LBB60_250
	cmp	w10, #3005
	b.eq	LBB60_44
	cmp	w10, #3006
	b.ne	LBB60_252
LBB60_214:
	subs	x10, x26, #9
	b.lo	LBB60_252
	ldur	w11, [x30, #5]
	cmp	w9, #0
	rev	w12, w11
	csel	w9, w11, w12, ne
	cbz	w9, LBB60_279
	and	w14, w8, #0xff
	mov	w12, #1000
	mov	w3, w8
	mul	w4, w14, w12
	mov	w16, #19923
	mov	w17, #35128
	mov	w11, wzr
	add	x13, x30, #9
	mov	w14, #-1073741824
	mov	w15, #-536870912
	movk	w16, #4194, lsl #16
	movk	w17, #65, lsl #16
	mov	w0, #3
	mov	w1, #5
	mov	w2, #9
	and	x3, x3, #0xff
	orr	w4, w4, #0x3
	adrp	x6, Lswitch.table.wkb_raw_write.374@PAGE
	add	x6, x6, Lswitch.table.wkb_raw_write.374@PAGEOFF
LBB60_217:
	cmp	x10, #5
	b.hs	LBB60_220
	cbz	x10, LBB60_252
	ldrb	w19, [x13]
	b	LBB60_226
LBB60_220:
	ldrb	w19, [x13]
	cmp	w19, #1
	b.eq	LBB60_223
	cbnz	w19, LBB60_226
	ldur	w20, [x13, #1]
	mov	w7, wzr
	rev	w20, w20
	b	LBB60_224
LBB60_223:
	ldur	w20, [x13, #1]
	mov	w7, #1
LBB60_224:
	cmp	w20, w4
	b.ne	LBB60_226
	mov	w19, #5
	b	LBB60_240
LBB60_226:
	cbz	w19, LBB60_229
	cmp	w19, #1
	b.ne	LBB60_252
	mov	w7, #1
	b	LBB60_230
LBB60_229:
	mov	w7, wzr
LBB60_230:
	cmp	x10, #5
	b.lo	LBB60_252
	ldur	w19, [x13, #1]
	cmp	w7, #0
	rev	w20, w19
	csel	w22, w19, w20, ne
	ubfx	w19, w22, #30, #1
	and	w21, w22, #0x7fffffff
	add	w20, w21, w14
	cmp	w19, #0
	csel	w20, w21, w20, eq
	lsr	w19, w20, #29
	add	w23, w20, w15
	cmp	w19, #0
	csel	w23, w23, w20, ne
	cmp	w23, #3999
	b.hi	LBB60_252
	umull	x20, w23, w17
	mov	x5, x30
	mov	x30, x26
	lsr	x20, x20, #32
	msub	w20, w20, w12, w23
	sub	w26, w20, #1
	cmp	w26, #6
	mov	x26, x30
	mov	x30, x5
	b.hi	LBB60_252
	tbnz	w22, #31, LBB60_236
	umull	x22, w23, w16
	lsr	w23, w21, #30
	lsr	x21, x22, #38
	cbz	w23, LBB60_237
	lsl	w21, w21, #3
	mov	w5, #770
	movk	w5, #770, lsl #16
	lsr	w21, w5, w21
	b	LBB60_237
LBB60_236:
	lsr	w21, w21, #30
	cmp	w23, #2000
	ccmp	w21, #0, #0, lo
	csinc	w21, w0, wzr, ne
LBB60_237:
	cmp	w20, #3
	b.ne	LBB60_252
	and	w20, w21, #0xff
	cmp	w20, w8, uxtb
	b.ne	LBB60_252
	cmp	w19, #0
	csel	x19, x2, x1, ne
LBB60_240:
	add	x20, x19, #4
	cmp	x10, x20
	b.lo	LBB60_252
	add	x13, x13, x19
	cmp	w7, #0
	sub	x10, x10, x19
	ldr	w20, [x13], #4
	sub	x10, x10, #4
	rev	w21, w20
	csel	w19, w20, w21, ne
	cbz	w19, LBB60_249
	tbz	w7, #0, LBB60_246
LBB60_243:
	cmp	x10, #4
	b.lo	LBB60_252
	ldr	w7, [x13]
	ldr	x20, [x6, x3, lsl #3]
	mul	x7, x20, x7
	orr	x7, x7, #0x4
	subs	x10, x10, x7
	b.lo	LBB60_252
	subs	w19, w19, #1
	add	x13, x13, x7
	b.ne	LBB60_243
	b	LBB60_249
LBB60_246:
	cmp	x10, #4
	b.lo	LBB60_252
	ldr	w7, [x13]
	ldr	x20, [x6, x3, lsl #3]
	rev	w7, w7
	mul	x7, x20, x7
	orr	x7, x7, #0x4
	subs	x10, x10, x7
	b.lo	LBB60_252
	subs	w19, w19, #1
	add	x13, x13, x7
	b.ne	LBB60_246
LBB60_249:
	add	w11, w11, #1
	cmp	w11, w9
	b.ne	LBB60_217
	b	LBB60_279
LBB60_250:
	subs	x10, x26, #9
	b.lo	LBB60_252
	ldur	w11, [x30, #5]
	mov	w12, w8
	cmp	w9, #0
	and	x12, x12, #0xff
	adrp	x9, Lswitch.table.wkb_raw_write.371@PAGE
	add	x9, x9, Lswitch.table.wkb_raw_write.371@PAGEOFF
	rev	w13, w11
	ldr	x12, [x9, x12, lsl #3]
	csel	w11, w11, w13, ne
	mov	x13, #9
	madd	x12, x12, x11, x13
	cmp	x26, x12
	b.hs	LBB60_254
LBB60_252:
	add	x0, sp, #136
	mov	x1, x30
	mov	x2, x26
	mov	x3, x25
	mov	x19, x30
	bl	_ZN7wkb_raw6erased5wkb_c5check11check_input17h063429354f07f5e3E
	ldr	w8, [sp, #136]
	mov	x30, x19
	cmp	w8, #2
	b.ne	LBB60_279
	ldr	w0, [sp, #140]
	mov	w8, #1
	str	w8, [x24]
	b	LBB60_828
LBB60_254:
	cbz	w11, LBB60_279
	and	w13, w8, #0xff
	mov	w12, #1000
	mov	w17, w8
	mul	w0, w13, w12
	mov	w13, #770
	mov	w1, #19923
	mov	w2, #35128
	movk	w13, #770, lsl #16
	add	x14, x30, #9
	mov	w15, #-1073741824
	mov	w16, #-536870912
	and	x17, x17, #0xff
	orr	w0, w0, #0x1
	movk	w1, #4194, lsl #16
	movk	w2, #65, lsl #16
	mov	w3, #3
LBB60_256:
	cmp	x10, #5
	b.hs	LBB60_259
	cbz	x10, LBB60_252
	ldrb	w4, [x14]
	b	LBB60_264
LBB60_259:
	ldrb	w4, [x14]
	cmp	w4, #1
	b.eq	LBB60_262
	cbnz	w4, LBB60_264
	ldur	w5, [x14, #1]
	rev	w5, w5
	b	LBB60_263
LBB60_262:
	ldur	w5, [x14, #1]
LBB60_263:
	cmp	w5, w0
	b.eq	LBB60_276
LBB60_264:
	cbz	w4, LBB60_266
	cmp	w4, #1
	b.ne	LBB60_252
LBB60_266:
	cmp	x10, #5
	b.lo	LBB60_252
	ldur	w5, [x14, #1]
	cmp	w4, #0
	rev	w6, w5
	csel	w6, w5, w6, ne
	ubfx	w4, w6, #30, #1
	and	w7, w6, #0x7fffffff
	add	w5, w7, w15
	cmp	w4, #0
	csel	w5, w7, w5, eq
	lsr	w4, w5, #29
	add	w19, w5, w16
	cmp	w4, #0
	csel	w19, w19, w5, ne
	cmp	w19, #3999
	b.hi	LBB60_252
	umull	x5, w19, w2
	lsr	x5, x5, #32
	msub	w5, w5, w12, w19
	sub	w20, w5, #1
	cmp	w20, #6
	b.hi	LBB60_252
	lsr	w7, w7, #30
	tbnz	w6, #31, LBB60_272
	umull	x6, w19, w1
	lsr	x6, x6, #38
	cbz	w7, LBB60_273
	lsl	w6, w6, #3
	lsr	w6, w13, w6
	b	LBB60_273
LBB60_272:
	cmp	w19, #2000
	ccmp	w7, #0, #0, lo
	csinc	w6, w3, wzr, ne
LBB60_273:
	cbnz	w4, LBB60_252
	cmp	w5, #1
	b.ne	LBB60_252
	and	w4, w6, #0xff
	cmp	w4, w8, uxtb
	b.ne	LBB60_252
LBB60_276:
	ldr	x4, [x9, x17, lsl #3]
	subs	x10, x10, x4
	b.lo	LBB60_252
	subs	w11, w11, #1
	add	x14, x14, x4
	b.ne	LBB60_256
	b	LBB60_279
LBB60_278:
	mov	w8, #37
	cmp	x26, x8
	b.lo	LBB60_252
LBB60_279:
	cmp	x29, #5
	b.hs	LBB60_282
	cbz	x29, LBB60_531
	ldrb	w11, [x28]
	b	LBB60_394
LBB60_282:
	ldrb	w11, [x28]
	cmp	w11, #1
	b.eq	LBB60_318
	cbnz	w11, LBB60_394
	ldur	w8, [x28, #1]
	mov	w9, wzr
	rev	w10, w8
	lsr	w8, w10, #29
	cbz	w8, LBB60_319
LBB60_285:
	mov	w8, #3
	movk	w8, #8192, lsl #16
	cmp	w10, w8
	mov	w8, wzr
	b.le	LBB60_352
	mov	w12, #5
	movk	w12, #8192, lsl #16
	cmp	w10, w12
	b.gt	LBB60_370
	mov	w12, #4
	movk	w12, #8192, lsl #16
	cmp	w10, w12
	b.eq	LBB60_452
	mov	w12, #5
	movk	w12, #8192, lsl #16
	cmp	w10, w12
	b.ne	LBB60_394
LBB60_289:
	subs	x10, x29, #13
	b.lo	LBB60_531
	ldur	w11, [x28, #9]
	cmp	w9, #0
	rev	w12, w11
	csel	w9, w11, w12, ne
	cbz	w9, LBB60_558
	and	w14, w8, #0xff
	mov	w12, #1000
	mov	w3, w8
	mul	w4, w14, w12
	mov	w16, #19923
	mov	w17, #35128
	add	x13, x28, #13
	mov	w14, #-1073741824
	mov	w15, #-536870912
	movk	w16, #4194, lsl #16
	movk	w17, #65, lsl #16
	mov	w0, #3
	mov	w1, #5
	mov	w2, #9
	and	x3, x3, #0xff
	orr	w4, w4, #0x2
	mov	w5, #13
	adrp	x6, Lswitch.table.wkb_raw_write.374@PAGE
	add	x6, x6, Lswitch.table.wkb_raw_write.374@PAGEOFF
LBB60_292:
	cmp	x10, #5
	b.hs	LBB60_295
	cbz	x10, LBB60_531
	ldrb	w19, [x13]
	b	LBB60_301
LBB60_295:
	ldrb	w19, [x13]
	cmp	w19, #1
	b.eq	LBB60_298
	cbnz	w19, LBB60_301
	ldur	w20, [x13, #1]
	mov	w7, wzr
	rev	w20, w20
	b	LBB60_299
LBB60_298:
	ldur	w20, [x13, #1]
	mov	w7, #1
LBB60_299:
	cmp	w20, w4
	b.ne	LBB60_301
	mov	w19, #9
	mov	w20, #5
	b	LBB60_315
LBB60_301:
	cbz	w19, LBB60_304
	cmp	w19, #1
	b.ne	LBB60_531
	mov	w7, #1
	b	LBB60_305
LBB60_304:
	mov	w7, wzr
LBB60_305:
	cmp	x10, #5
	b.lo	LBB60_531
	ldur	w19, [x13, #1]
	cmp	w7, #0
	rev	w20, w19
	csel	w21, w19, w20, ne
	ubfx	w19, w21, #30, #1
	and	w22, w21, #0x7fffffff
	add	w20, w22, w14
	cmp	w19, #0
	csel	w20, w22, w20, eq
	lsr	w19, w20, #29
	add	w23, w20, w15
	cmp	w19, #0
	csel	w23, w23, w20, ne
	cmp	w23, #3999
	b.hi	LBB60_531
	umull	x20, w23, w17
	mov	x11, x30
	mov	x30, x26
	lsr	x20, x20, #32
	msub	w20, w20, w12, w23
	sub	w26, w20, #1
	cmp	w26, #6
	mov	x26, x30
	mov	x30, x11
	b.hi	LBB60_531
	lsr	w22, w22, #30
	tbnz	w21, #31, LBB60_311
	umull	x21, w23, w16
	lsr	x21, x21, #38
	cbz	w22, LBB60_312
	lsl	w21, w21, #3
	mov	w11, #770
	movk	w11, #770, lsl #16
	lsr	w21, w11, w21
	b	LBB60_312
LBB60_311:
	cmp	w23, #2000
	ccmp	w22, #0, #0, lo
	csinc	w21, w0, wzr, ne
LBB60_312:
	cmp	w20, #2
	b.ne	LBB60_531
	and	w20, w21, #0xff
	cmp	w20, w8, uxtb
	b.ne	LBB60_531
	cmp	w19, #0
	csel	x20, x2, x1, ne
	csel	x19, x5, x2, ne
LBB60_315:
	add	x21, x20, #4
	cmp	x10, x21
	b.lo	LBB60_531
	ldr	w20, [x13, x20]
	cmp	w7, #0
	ldr	x7, [x6, x3, lsl #3]
	rev	w21, w20
	csel	w20, w20, w21, ne
	madd	x7, x7, x20, x19
	subs	x10, x10, x7
	b.lo	LBB60_531
	subs	w9, w9, #1
	add	x13, x13, x7
	b.ne	LBB60_292
	b	LBB60_558
LBB60_318:
	ldur	w10, [x28, #1]
	mov	w9, #1
	lsr	w8, w10, #29
	cbnz	w8, LBB60_285
LBB60_319:
	cmp	w10, #3
	b.le	LBB60_361
	cmp	w10, #5
	b.gt	LBB60_372
	cmp	w10, #4
	b.eq	LBB60_529
	cmp	w10, #5
	b.ne	LBB60_374
LBB60_323:
	subs	x10, x29, #9
	b.lo	LBB60_531
	ldur	w11, [x28, #5]
	cmp	w9, #0
	rev	w12, w11
	csel	w9, w11, w12, ne
	cbz	w9, LBB60_558
	and	w14, w8, #0xff
	mov	w12, #1000
	mov	w3, w8
	mul	w4, w14, w12
	mov	w16, #19923
	mov	w17, #35128
	add	x13, x28, #9
	mov	w14, #-1073741824
	mov	w15, #-536870912
	movk	w16, #4194, lsl #16
	movk	w17, #65, lsl #16
	mov	w0, #3
	mov	w1, #5
	mov	w2, #9
	and	x3, x3, #0xff
	orr	w4, w4, #0x2
	mov	w5, #13
	adrp	x6, Lswitch.table.wkb_raw_write.374@PAGE
	add	x6, x6, Lswitch.table.wkb_raw_write.374@PAGEOFF
LBB60_326:
	cmp	x10, #5
	b.hs	LBB60_329
	cbz	x10, LBB60_531
	ldrb	w19, [x13]
	b	LBB60_335
LBB60_329:
	ldrb	w19, [x13]
	cmp	w19, #1
	b.eq	LBB60_332
	cbnz	w19, LBB60_335
	ldur	w20, [x13, #1]
	mov	w7, wzr
	rev	w20, w20
	b	LBB60_333
LBB60_332:
	ldur	w20, [x13, #1]
	mov	w7, #1
LBB60_333:
	cmp	w20, w4
	b.ne	LBB60_335
	mov	w19, #9
	mov	w20, #5
	b	LBB60_349
LBB60_335:
	cbz	w19, LBB60_338
	cmp	w19, #1
	b.ne	LBB60_531
	mov	w7, #1
	b	LBB60_339
LBB60_338:
	mov	w7, wzr
LBB60_339:
	cmp	x10, #5
	b.lo	LBB60_531
	ldur	w19, [x13, #1]
	cmp	w7, #0
	rev	w20, w19
	csel	w22, w19, w20, ne
	ubfx	w19, w22, #30, #1
	and	w21, w22, #0x7fffffff
	add	w20, w21, w14
	cmp	w19, #0
	csel	w20, w21, w20, eq
	lsr	w19, w20, #29
	add	w23, w20, w15
	cmp	w19, #0
	csel	w23, w23, w20, ne
	cmp	w23, #3999
	b.hi	LBB60_531
	umull	x20, w23, w17
	mov	x11, x30
	mov	x30, x26
	lsr	x20, x20, #32
	msub	w20, w20, w12, w23
	sub	w26, w20, #1
	cmp	w26, #6
	mov	x26, x30
	mov	x30, x11
	b.hi	LBB60_531
	tbnz	w22, #31, LBB60_345
	umull	x22, w23, w16
	lsr	w23, w21, #30
	lsr	x21, x22, #38
	cbz	w23, LBB60_346
	lsl	w21, w21, #3
	mov	w11, #770
	movk	w11, #770, lsl #16
	lsr	w21, w11, w21
	b	LBB60_346
LBB60_345:
	lsr	w21, w21, #30
	cmp	w23, #2000
	ccmp	w21, #0, #0, lo
	csinc	w21, w0, wzr, ne
LBB60_346:
	cmp	w20, #2
	b.ne	LBB60_531
	and	w20, w21, #0xff
	cmp	w20, w8, uxtb
	b.ne	LBB60_531
	cmp	w19, #0
	csel	x20, x2, x1, ne
	csel	x19, x5, x2, ne
LBB60_349:
	add	x21, x20, #4
	cmp	x10, x21
	b.lo	LBB60_531
	ldr	w20, [x13, x20]
	cmp	w7, #0
	ldr	x7, [x6, x3, lsl #3]
	rev	w21, w20
	csel	w20, w20, w21, ne
	madd	x7, x7, x20, x19
	subs	x10, x10, x7
	b.lo	LBB60_531
	subs	w9, w9, #1
	add	x13, x13, x7
	b.ne	LBB60_326
	b	LBB60_558
LBB60_352:
	mov	w12, #1
	movk	w12, #8192, lsl #16
	cmp	w10, w12
	b.eq	LBB60_379
	mov	w12, #2
	movk	w12, #8192, lsl #16
	cmp	w10, w12
	b.eq	LBB60_479
	mov	w12, #3
	movk	w12, #8192, lsl #16
	cmp	w10, w12
	b.ne	LBB60_394
LBB60_355:
	subs	x10, x29, #13
	b.lo	LBB60_531
	ldur	w11, [x28, #9]
	cmp	w9, #0
	rev	w12, w11
	csel	w11, w11, w12, ne
	cbz	w11, LBB60_558
	add	x12, x28, #13
	adrp	x13, Lswitch.table.wkb_raw_write.374@PAGE
	add	x13, x13, Lswitch.table.wkb_raw_write.374@PAGEOFF
	and	x8, x8, #0xff
LBB60_358:
	cmp	x10, #4
	b.lo	LBB60_531
	ldr	w14, [x12]
	cmp	w9, #0
	ldr	x16, [x13, x8, lsl #3]
	rev	w15, w14
	csel	w14, w14, w15, ne
	mul	x14, x16, x14
	orr	x14, x14, #0x4
	subs	x10, x10, x14
	b.lo	LBB60_531
	subs	w11, w11, #1
	add	x12, x12, x14
	b.ne	LBB60_358
	b	LBB60_558
LBB60_361:
	cmp	w10, #1
	b.eq	LBB60_380
	cmp	w10, #2
	b.eq	LBB60_481
	cmp	w10, #3
	b.ne	LBB60_374
LBB60_364:
	subs	x10, x29, #9
	b.lo	LBB60_531
	ldur	w11, [x28, #5]
	cmp	w9, #0
	rev	w12, w11
	csel	w11, w11, w12, ne
	cbz	w11, LBB60_558
	add	x12, x28, #9
	adrp	x13, Lswitch.table.wkb_raw_write.374@PAGE
	add	x13, x13, Lswitch.table.wkb_raw_write.374@PAGEOFF
	and	x8, x8, #0xff
LBB60_367:
	cmp	x10, #4
	b.lo	LBB60_531
	ldr	w14, [x12]
	cmp	w9, #0
	ldr	x16, [x13, x8, lsl #3]
	rev	w15, w14
	csel	w14, w14, w15, ne
	mul	x14, x16, x14
	orr	x14, x14, #0x4
	subs	x10, x10, x14
	b.lo	LBB60_531
	subs	w11, w11, #1
	add	x12, x12, x14
	b.ne	LBB60_367
	b	LBB60_558
LBB60_370:
	mov	w12, #6
	movk	w12, #8192, lsl #16
	cmp	w10, w12
	b.eq	LBB60_413
	mov	w8, #7
	movk	w8, #8192, lsl #16
	cmp	w10, w8
	b.eq	LBB60_531
	b	LBB60_394
LBB60_372:
	cmp	w10, #6
	b.eq	LBB60_493
	cmp	w10, #7
	b.eq	LBB60_531
LBB60_374:
	sub	w8, w10, #1001
	cmp	w8, #7
	b.hs	LBB60_381
	cmp	w10, #1003
	mov	w8, #1
	b.gt	LBB60_386
	cmp	w10, #1001
	b.eq	LBB60_489
	cmp	w10, #1002
	b.eq	LBB60_481
	cmp	w10, #1003
	b.eq	LBB60_364
	b	LBB60_531
LBB60_379:
	mov	w8, #25
	cmp	x29, x8
	b.lo	LBB60_531
	b	LBB60_558
LBB60_380:
	mov	w8, #21
	cmp	x29, x8
	b.lo	LBB60_531
	b	LBB60_558
LBB60_381:
	sub	w8, w10, #2001
	cmp	w8, #7
	b.hs	LBB60_389
	cmp	w10, #2003
	mov	w8, #2
	b.gt	LBB60_486
	cmp	w10, #2001
	b.eq	LBB60_489
	cmp	w10, #2002
	b.eq	LBB60_481
	cmp	w10, #2003
	b.eq	LBB60_364
	b	LBB60_531
LBB60_386:
	cmp	w10, #1004
	b.eq	LBB60_529
	cmp	w10, #1005
	b.eq	LBB60_323
	cmp	w10, #1006
	b.eq	LBB60_493
	b	LBB60_531
LBB60_389:
	sub	w8, w10, #3001
	cmp	w8, #7
	b.hs	LBB60_394
	cmp	w10, #3003
	mov	w8, #3
	b.gt	LBB60_490
	cmp	w10, #3001
	b.eq	LBB60_557
	cmp	w10, #3002
	b.eq	LBB60_481
	cmp	w10, #3003
	b.eq	LBB60_364
	b	LBB60_531
LBB60_394:
	cbz	w11, LBB60_397
	cmp	w11, #1
	b.ne	LBB60_531
	mov	w9, #1
	cmp	x29, #5
	b.hs	LBB60_398
	b	LBB60_531
LBB60_397:
	mov	w9, wzr
	cmp	x29, #5
	b.lo	LBB60_531
LBB60_398:
	ldur	w8, [x28, #1]
	cmp	w9, #0
	mov	w11, #-1073741824
	mov	w13, #-536870912
	rev	w10, w8
	csel	w12, w8, w10, ne
	ubfx	w10, w12, #30, #1
	and	w8, w12, #0x7fffffff
	add	w11, w8, w11
	cmp	w10, #0
	csel	w11, w8, w11, eq
	lsr	w10, w11, #29
	add	w13, w11, w13
	cmp	w10, #0
	csel	w13, w13, w11, ne
	cmp	w13, #3999
	b.hi	LBB60_531
	mov	w11, #35128
	mov	w14, #1000
	movk	w11, #65, lsl #16
	umull	x11, w13, w11
	lsr	x11, x11, #32
	msub	w11, w11, w14, w13
	sub	w14, w11, #1
	cmp	w14, #6
	b.hi	LBB60_531
	tbnz	w12, #31, LBB60_403
	mov	w12, #19923
	movk	w12, #4194, lsl #16
	umull	x12, w13, w12
	lsr	w13, w8, #30
	lsr	x8, x12, #38
	cbz	w13, LBB60_404
	lsl	w8, w8, #3
	mov	w12, #770
	movk	w12, #770, lsl #16
	lsr	w8, w12, w8
	b	LBB60_404
LBB60_403:
	lsr	w8, w8, #30
	cmp	w13, #2000
	ccmp	w8, #0, #0, lo
	mov	w8, #3
	csinc	w8, w8, wzr, ne
LBB60_404:
	cmp	w11, #3
	b.gt	LBB60_409
	cmp	w11, #1
	b.eq	LBB60_449
	cmp	w11, #2
	b.eq	LBB60_478
	cmp	w11, #3
	b.ne	LBB60_531
	cbnz	w10, LBB60_355
	b	LBB60_364
LBB60_409:
	cmp	w11, #4
	b.eq	LBB60_451
	cmp	w11, #5
	b.eq	LBB60_483
	cmp	w11, #6
	b.ne	LBB60_531
	cbz	w10, LBB60_493
LBB60_413:
	subs	x10, x29, #13
	b.lo	LBB60_531
	ldur	w11, [x28, #9]
	cmp	w9, #0
	rev	w12, w11
	csel	w9, w11, w12, ne
	cbz	w9, LBB60_558
	and	w14, w8, #0xff
	mov	w12, #1000
	mov	w3, w8
	mul	w4, w14, w12
	mov	w16, #19923
	mov	w17, #35128
	mov	w11, wzr
	add	x13, x28, #13
	mov	w14, #-1073741824
	mov	w15, #-536870912
	movk	w16, #4194, lsl #16
	movk	w17, #65, lsl #16
	mov	w0, #3
	mov	w1, #5
	mov	w2, #9
	and	x3, x3, #0xff
	orr	w4, w4, #0x3
	adrp	x6, Lswitch.table.wkb_raw_write.374@PAGE
	add	x6, x6, Lswitch.table.wkb_raw_write.374@PAGEOFF
LBB60_416:
	cmp	x10, #5
	b.hs	LBB60_419
	cbz	x10, LBB60_531
	ldrb	w19, [x13]
	b	LBB60_425
LBB60_419:
	ldrb	w19, [x13]
	cmp	w19, #1
	b.eq	LBB60_422
	cbnz	w19, LBB60_425
	ldur	w20, [x13, #1]
	mov	w7, wzr
	rev	w20, w20
	b	LBB60_423
LBB60_422:
	ldur	w20, [x13, #1]
	mov	w7, #1
LBB60_423:
	cmp	w20, w4
	b.ne	LBB60_425
	mov	w19, #5
	b	LBB60_439
LBB60_425:
	cbz	w19, LBB60_428
	cmp	w19, #1
	b.ne	LBB60_531
	mov	w7, #1
	b	LBB60_429
LBB60_428:
	mov	w7, wzr
LBB60_429:
	cmp	x10, #5
	b.lo	LBB60_531
	ldur	w19, [x13, #1]
	cmp	w7, #0
	rev	w20, w19
	csel	w21, w19, w20, ne
	ubfx	w19, w21, #30, #1
	and	w22, w21, #0x7fffffff
	add	w20, w22, w14
	cmp	w19, #0
	csel	w20, w22, w20, eq
	lsr	w19, w20, #29
	add	w23, w20, w15
	cmp	w19, #0
	csel	w23, w23, w20, ne
	cmp	w23, #3999
	b.hi	LBB60_531
	umull	x20, w23, w17
	mov	x5, x30
	mov	x30, x26
	lsr	x20, x20, #32
	msub	w20, w20, w12, w23
	sub	w26, w20, #1
	cmp	w26, #6
	mov	x26, x30
	mov	x30, x5
	b.hi	LBB60_531
	lsr	w22, w22, #30
	tbnz	w21, #31, LBB60_435
	umull	x21, w23, w16
	lsr	x21, x21, #38
	cbz	w22, LBB60_436
	lsl	w21, w21, #3
	mov	w5, #770
	movk	w5, #770, lsl #16
	lsr	w21, w5, w21
	b	LBB60_436
LBB60_435:
	cmp	w23, #2000
	ccmp	w22, #0, #0, lo
	csinc	w21, w0, wzr, ne
LBB60_436:
	cmp	w20, #3
	b.ne	LBB60_531
	and	w20, w21, #0xff
	cmp	w20, w8, uxtb
	b.ne	LBB60_531
	cmp	w19, #0
	csel	x19, x2, x1, ne
LBB60_439:
	add	x20, x19, #4
	cmp	x10, x20
	b.lo	LBB60_531
	add	x13, x13, x19
	cmp	w7, #0
	sub	x10, x10, x19
	ldr	w20, [x13], #4
	sub	x10, x10, #4
	rev	w21, w20
	csel	w19, w20, w21, ne
	cbz	w19, LBB60_448
	tbz	w7, #0, LBB60_445
LBB60_442:
	cmp	x10, #4
	b.lo	LBB60_531
	ldr	w7, [x13]
	ldr	x20, [x6, x3, lsl #3]
	mul	x7, x20, x7
	orr	x7, x7, #0x4
	subs	x10, x10, x7
	b.lo	LBB60_531
	subs	w19, w19, #1
	add	x13, x13, x7
	b.ne	LBB60_442
	b	LBB60_448
LBB60_445:
	cmp	x10, #4
	b.lo	LBB60_531
	ldr	w7, [x13]
	ldr	x20, [x6, x3, lsl #3]
	rev	w7, w7
	mul	x7, x20, x7
	orr	x7, x7, #0x4
	subs	x10, x10, x7
	b.lo	LBB60_531
	subs	w19, w19, #1
	add	x13, x13, x7
	b.ne	LBB60_445
LBB60_448:
	add	w11, w11, #1
	cmp	w11, w9
	b.ne	LBB60_416
	b	LBB60_558
LBB60_449:
	and	x8, x8, #0xff
	cbz	w10, LBB60_484
	adrp	x9, Lswitch.table.wkb_raw_same.347@PAGE
	add	x9, x9, Lswitch.table.wkb_raw_same.347@PAGEOFF
	b	LBB60_485
LBB60_451:
	cbz	w10, LBB60_529
LBB60_452:
	subs	x10, x29, #13
	b.lo	LBB60_531
	ldur	w11, [x28, #9]
	mov	w12, w8
	cmp	w9, #0
	and	x12, x12, #0xff
	adrp	x9, Lswitch.table.wkb_raw_write.371@PAGE
	add	x9, x9, Lswitch.table.wkb_raw_write.371@PAGEOFF
	rev	w13, w11
	ldr	x12, [x9, x12, lsl #3]
	csel	w11, w11, w13, ne
	mov	x13, #13
	madd	x12, x12, x11, x13
	cmp	x29, x12
	b.lo	LBB60_531
	cbz	w11, LBB60_558
	and	w13, w8, #0xff
	mov	w12, #1000
	mov	w17, w8
	mul	w0, w13, w12
	mov	w13, #770
	mov	w1, #19923
	mov	w2, #35128
	movk	w13, #770, lsl #16
	add	x14, x28, #13
	mov	w15, #-1073741824
	mov	w16, #-536870912
	and	x17, x17, #0xff
	orr	w0, w0, #0x1
	movk	w1, #4194, lsl #16
	movk	w2, #65, lsl #16
	mov	w3, #3
LBB60_456:
	cmp	x10, #5
	b.hs	LBB60_459
	cbz	x10, LBB60_531
	ldrb	w4, [x14]
	b	LBB60_464
LBB60_459:
	ldrb	w4, [x14]
	cmp	w4, #1
	b.eq	LBB60_462
	cbnz	w4, LBB60_464
	ldur	w5, [x14, #1]
	rev	w5, w5
	b	LBB60_463
LBB60_462:
	ldur	w5, [x14, #1]
LBB60_463:
	cmp	w5, w0
	b.eq	LBB60_476
LBB60_464:
	cbz	w4, LBB60_466
	cmp	w4, #1
	b.ne	LBB60_531
LBB60_466:
	cmp	x10, #5
	b.lo	LBB60_531
	ldur	w5, [x14, #1]
	cmp	w4, #0
	rev	w6, w5
	csel	w7, w5, w6, ne
	ubfx	w4, w7, #30, #1
	and	w6, w7, #0x7fffffff
	add	w5, w6, w15
	cmp	w4, #0
	csel	w5, w6, w5, eq
	lsr	w4, w5, #29
	add	w19, w5, w16
	cmp	w4, #0
	csel	w19, w19, w5, ne
	cmp	w19, #3999
	b.hi	LBB60_531
	umull	x5, w19, w2
	lsr	x5, x5, #32
	msub	w5, w5, w12, w19
	sub	w20, w5, #1
	cmp	w20, #6
	b.hi	LBB60_531
	tbnz	w7, #31, LBB60_472
	umull	x7, w19, w1
	lsr	w19, w6, #30
	lsr	x6, x7, #38
	cbz	w19, LBB60_473
	lsl	w6, w6, #3
	lsr	w6, w13, w6
	b	LBB60_473
LBB60_472:
	lsr	w6, w6, #30
	cmp	w19, #2000
	ccmp	w6, #0, #0, lo
	csinc	w6, w3, wzr, ne
LBB60_473:
	cbnz	w4, LBB60_531
	cmp	w5, #1
	b.ne	LBB60_531
	and	w4, w6, #0xff
	cmp	w4, w8, uxtb
	b.ne	LBB60_531
LBB60_476:
	ldr	x4, [x9, x17, lsl #3]
	subs	x10, x10, x4
	b.lo	LBB60_531
	subs	w11, w11, #1
	add	x14, x14, x4
	b.ne	LBB60_456
	b	LBB60_558
LBB60_478:
	cbz	w10, LBB60_481
LBB60_479:
	cmp	x29, #13
	b.lo	LBB60_531
	ldur	w10, [x28, #9]
	adrp	x11, Lswitch.table.wkb_raw_write.374@PAGE
	add	x11, x11, Lswitch.table.wkb_raw_write.374@PAGEOFF
	and	x8, x8, #0xff
	cmp	w9, #0
	rev	w9, w10
	ldr	x8, [x11, x8, lsl #3]
	csel	w9, w10, w9, ne
	mov	x10, #13
	madd	x8, x8, x9, x10
	cmp	x29, x8
	b.lo	LBB60_531
	b	LBB60_558
LBB60_481:
	cmp	x29, #9
	b.lo	LBB60_531
	ldur	w10, [x28, #5]
	adrp	x11, Lswitch.table.wkb_raw_write.374@PAGE
	add	x11, x11, Lswitch.table.wkb_raw_write.374@PAGEOFF
	and	x8, x8, #0xff
	cmp	w9, #0
	rev	w9, w10
	ldr	x8, [x11, x8, lsl #3]
	csel	w9, w10, w9, ne
	mov	x10, #9
	madd	x8, x8, x9, x10
	cmp	x29, x8
	b.lo	LBB60_531
	b	LBB60_558
LBB60_483:
	cbnz	w10, LBB60_289
	b	LBB60_323
LBB60_484:
	adrp	x9, Lswitch.table.wkb_raw_write.371@PAGE
	add	x9, x9, Lswitch.table.wkb_raw_write.371@PAGEOFF
LBB60_485:
	ldr	x8, [x9, x8, lsl #3]
	cmp	x29, x8
	b.lo	LBB60_531
	b	LBB60_558
LBB60_486:
	cmp	w10, #2004
	b.eq	LBB60_529
	cmp	w10, #2005
	b.eq	LBB60_323
	cmp	w10, #2006
	b.eq	LBB60_493
	b	LBB60_531
LBB60_489:
	mov	w8, #29
	cmp	x29, x8
	b.lo	LBB60_531
	b	LBB60_558
LBB60_490:
	cmp	w10, #3004
	b.eq	LBB60_529
	cmp	w10, #3005
	b.eq	LBB60_323
	cmp	w10, #3006
	b.ne	LBB60_531
LBB60_493:
	subs	x10, x29, #9
	b.lo	LBB60_531
	ldur	w11, [x28, #5]
	cmp	w9, #0
	rev	w12, w11
	csel	w9, w11, w12, ne
	cbz	w9, LBB60_558
	and	w14, w8, #0xff
	mov	w12, #1000
	mov	w3, w8
	mul	w4, w14, w12
	mov	w16, #19923
	mov	w17, #35128
	mov	w11, wzr
	add	x13, x28, #9
	mov	w14, #-1073741824
	mov	w15, #-536870912
	movk	w16, #4194, lsl #16
	movk	w17, #65, lsl #16
	mov	w0, #3
	mov	w1, #5
	mov	w2, #9
	and	x3, x3, #0xff
	orr	w4, w4, #0x3
	adrp	x6, Lswitch.table.wkb_raw_write.374@PAGE
	add	x6, x6, Lswitch.table.wkb_raw_write.374@PAGEOFF
LBB60_496:
	cmp	x10, #5
	b.hs	LBB60_499
	cbz	x10, LBB60_531
	ldrb	w19, [x13]
	b	LBB60_505
LBB60_499:
	ldrb	w19, [x13]
	cmp	w19, #1
	b.eq	LBB60_502
	cbnz	w19, LBB60_505
	ldur	w20, [x13, #1]
	mov	w7, wzr
	rev	w20, w20
	b	LBB60_503
LBB60_502:
	ldur	w20, [x13, #1]
	mov	w7, #1
LBB60_503:
	cmp	w20, w4
	b.ne	LBB60_505
	mov	w19, #5
	b	LBB60_519
LBB60_505:
	cbz	w19, LBB60_508
	cmp	w19, #1
	b.ne	LBB60_531
	mov	w7, #1
	b	LBB60_509
LBB60_508:
	mov	w7, wzr
LBB60_509:
	cmp	x10, #5
	b.lo	LBB60_531
	ldur	w19, [x13, #1]
	cmp	w7, #0
	rev	w20, w19
	csel	w22, w19, w20, ne
	ubfx	w19, w22, #30, #1
	and	w21, w22, #0x7fffffff
	add	w20, w21, w14
	cmp	w19, #0
	csel	w20, w21, w20, eq
	lsr	w19, w20, #29
	add	w23, w20, w15
	cmp	w19, #0
	csel	w23, w23, w20, ne
	cmp	w23, #3999
	b.hi	LBB60_531
	umull	x20, w23, w17
	mov	x5, x30
	mov	x30, x26
	lsr	x20, x20, #32
	msub	w20, w20, w12, w23
	sub	w26, w20, #1
	cmp	w26, #6
	mov	x26, x30
	mov	x30, x5
	b.hi	LBB60_531
	tbnz	w22, #31, LBB60_515
	umull	x22, w23, w16
	lsr	w23, w21, #30
	lsr	x21, x22, #38
	cbz	w23, LBB60_516
	lsl	w21, w21, #3
	mov	w5, #770
	movk	w5, #770, lsl #16
	lsr	w21, w5, w21
	b	LBB60_516
LBB60_515:
	lsr	w21, w21, #30
	cmp	w23, #2000
	ccmp	w21, #0, #0, lo
	csinc	w21, w0, wzr, ne
LBB60_516:
	cmp	w20, #3
	b.ne	LBB60_531
	and	w20, w21, #0xff
	cmp	w20, w8, uxtb
	b.ne	LBB60_531
	cmp	w19, #0
	csel	x19, x2, x1, ne
LBB60_519:
	add	x20, x19, #4
	cmp	x10, x20
	b.lo	LBB60_531
	add	x13, x13, x19
	cmp	w7, #0
	sub	x10, x10, x19
	ldr	w20, [x13], #4
	sub	x10, x10, #4
	rev	w21, w20
	csel	w19, w20, w21, ne
	cbz	w19, LBB60_528
	tbz	w7, #0, LBB60_525
LBB60_522:
	cmp	x10, #4
	b.lo	LBB60_531
	ldr	w7, [x13]
	ldr	x20, [x6, x3, lsl #3]
	mul	x7, x20, x7
	orr	x7, x7, #0x4
	subs	x10, x10, x7
	b.lo	LBB60_531
	subs	w19, w19, #1
	add	x13, x13, x7
	b.ne	LBB60_522
	b	LBB60_528
LBB60_525:
	cmp	x10, #4
	b.lo	LBB60_531
	ldr	w7, [x13]
	ldr	x20, [x6, x3, lsl #3]
	rev	w7, w7
	mul	x7, x20, x7
	orr	x7, x7, #0x4
	subs	x10, x10, x7
	b.lo	LBB60_531
	subs	w19, w19, #1
	add	x13, x13, x7
	b.ne	LBB60_525
LBB60_528:
	add	w11, w11, #1
	cmp	w11, w9
	b.ne	LBB60_496
	b	LBB60_558
LBB60_529:
	subs	x10, x29, #9
	b.lo	LBB60_531
	ldur	w11, [x28, #5]
	mov	w12, w8
	cmp	w9, #0
	and	x12, x12, #0xff
	adrp	x9, Lswitch.table.wkb_raw_write.371@PAGE
	add	x9, x9, Lswitch.table.wkb_raw_write.371@PAGEOFF
	rev	w13, w11
	ldr	x12, [x9, x12, lsl #3]
	csel	w11, w11, w13, ne
	mov	x13, #9
	madd	x12, x12, x11, x13
	cmp	x29, x12
	b.hs	LBB60_533
LBB60_531:
	add	x0, sp, #136
	mov	x1, x28
	mov	x2, x29
	mov	x3, x25
	mov	x19, x30
	bl	_ZN7wkb_raw6erased5wkb_c5check11check_input17h063429354f07f5e3E
	ldr	w8, [sp, #136]
	mov	x30, x19
	cmp	w8, #2
	b.ne	LBB60_558
	ldr	w0, [sp, #140]
	str	w8, [x24]
	b	LBB60_828
LBB60_533:
	cbz	w11, LBB60_558
	and	w13, w8, #0xff
	mov	w12, #1000
	mov	w17, w8
	mul	w0, w13, w12
	mov	w13, #770
	mov	w1, #19923
	mov	w2, #35128
	movk	w13, #770, lsl #16
	add	x14, x28, #9
	mov	w15, #-1073741824
	mov	w16, #-536870912
	and	x17, x17, #0xff
	orr	w0, w0, #0x1
	movk	w1, #4194, lsl #16
	movk	w2, #65, lsl #16
	mov	w3, #3
LBB60_535:
	cmp	x10, #5
	b.hs	LBB60_538
	cbz	x10, LBB60_531
	ldrb	w4, [x14]
	b	LBB60_543
LBB60_538:
	ldrb	w4, [x14]
	cmp	w4, #1
	b.eq	LBB60_541
	cbnz	w4, LBB60_543
	ldur	w5, [x14, #1]
	rev	w5, w5
	b	LBB60_542
LBB60_541:
	ldur	w5, [x14, #1]
LBB60_542:
	cmp	w5, w0
	b.eq	LBB60_555
LBB60_543:
	cbz	w4, LBB60_545
	cmp	w4, #1
	b.ne	LBB60_531
LBB60_545:
	cmp	x10, #5
	b.lo	LBB60_531
	ldur	w5, [x14, #1]
	cmp	w4, #0
	rev	w6, w5
	csel	w7, w5, w6, ne
	ubfx	w4, w7, #30, #1
	and	w6, w7, #0x7fffffff
	add	w5, w6, w15
	cmp	w4, #0
	csel	w5, w6, w5, eq
	lsr	w4, w5, #29
	add	w19, w5, w16
	cmp	w4, #0
	csel	w19, w19, w5, ne
	cmp	w19, #3999
	b.hi	LBB60_531
	umull	x5, w19, w2
	lsr	x5, x5, #32
	msub	w5, w5, w12, w19
	sub	w20, w5, #1
	cmp	w20, #6
	b.hi	LBB60_531
	tbnz	w7, #31, LBB60_551
	umull	x7, w19, w1
	lsr	w19, w6, #30
	lsr	x6, x7, #38
	cbz	w19, LBB60_552
	lsl	w6, w6, #3
	lsr	w6, w13, w6
	b	LBB60_552
LBB60_551:
	lsr	w6, w6, #30
	cmp	w19, #2000
	ccmp	w6, #0, #0, lo
	csinc	w6, w3, wzr, ne
LBB60_552:
	cbnz	w4, LBB60_531
	cmp	w5, #1
	b.ne	LBB60_531
	and	w4, w6, #0xff
	cmp	w4, w8, uxtb
	b.ne	LBB60_531
LBB60_555:
	ldr	x4, [x9, x17, lsl #3]
	subs	x10, x10, x4
	b.lo	LBB60_531
	subs	w11, w11, #1
	add	x14, x14, x4
	b.ne	LBB60_535
	b	LBB60_558
LBB60_557:
	mov	w8, #37
	cmp	x29, x8
	b.lo	LBB60_531
LBB60_558:
	cmp	x26, x29
	str	x27, [sp, #88]
	b.ne	LBB60_560
	mov	x0, x30
	mov	x1, x28
	mov	x2, x26
	mov	x19, x30
	bl	_memcmp
	mov	x30, x19
	cbz	w0, LBB60_826
LBB60_560:
	mov	w8, #1
	mov	x7, #6
	stp	x29, x26, [sp, #64]
	str	x8, [sp, #104]
	movk	x7, #513, lsl #16
	mov	w26, #3
	movk	x7, #1027, lsl #32
	str	x28, [sp, #128]
	mov	w15, wzr
	str	x8, [sp, #96]
	mov	w5, wzr
	mov	x28, xzr
	mov	w21, wzr
	mov	w6, wzr
	mov	x19, xzr
	adrp	x17, Lswitch.table.wkb_raw_write.374@PAGE
	add	x17, x17, Lswitch.table.wkb_raw_write.374@PAGEOFF
	mov	w1, #4
	mov	w3, #-1073741824
	mov	w4, #-536870912
	movk	x7, #5, lsl #48
	movk	w26, #8192, lsl #16
	mov	x29, #-9007199254740992
	mov	w16, #1
	mov	w22, #1
	mov	w23, #1
	str	x8, [sp, #80]
LBB60_561:
	cbz	w6, LBB60_564
	ldr	w8, [x30, x19]
	and	x9, x21, #0xff
	tst	w22, #0x1
	ldr	x9, [x17, x9, lsl #3]
	mov	w20, wzr
	sub	w6, w6, #1
	rev	w10, w8
	mov	w2, w21
	mov	w25, w22
	csel	w10, w8, w10, ne
	add	x8, x19, #4
	madd	x19, x9, x10, x8
	mov	w9, w10
	cbz	w5, LBB60_643
LBB60_563:
	ldr	x11, [sp, #128]
	ldr	x0, [sp, #104]
	and	x12, x15, #0xff
	ldr	x14, [x17, x12, lsl #3]
	add	x12, x28, #4
	mov	w10, wzr
	ldr	w11, [x11, x28]
	tst	w0, #0x1
	sub	w5, w5, #1
	rev	w13, w11
	csel	w13, w11, w13, ne
	mov	w11, w15
	madd	x28, x14, x13, x12
	b	LBB60_778
LBB60_564:
	cbz	x23, LBB60_819
	ldr	x8, [sp, #72]
	add	x10, x30, x19
	sub	x9, x8, x19
	cmp	x9, #5
	b.hs	LBB60_568
	cmp	x8, x19
	b.eq	LBB60_632
	ldrb	w11, [x10]
	b	LBB60_623
LBB60_568:
	ldrb	w11, [x10]
	cmp	w11, #1
	b.eq	LBB60_576
	cbnz	w11, LBB60_623
	ldur	w8, [x10, #1]
	mov	w25, wzr
	rev	w20, w8
	lsr	w8, w20, #29
	cbz	w8, LBB60_577
LBB60_571:
	mov	w2, wzr
	cmp	w20, w26
	mov	w8, #4
	b.le	LBB60_582
	mov	w8, #5
	movk	w8, #8192, lsl #16
	cmp	w20, w8
	b.gt	LBB60_589
	mov	w8, #4
	movk	w8, #8192, lsl #16
	cmp	w20, w8
	b.eq	LBB60_603
	mov	w8, #5
	movk	w8, #8192, lsl #16
	cmp	w20, w8
	b.ne	LBB60_623
	mov	w8, #4
	mov	w2, wzr
	mov	w20, #5
	str	w8, [sp, #56]
	b	LBB60_641
LBB60_576:
	ldur	w20, [x10, #1]
	mov	w25, #1
	lsr	w8, w20, #29
	cbnz	w8, LBB60_571
LBB60_577:
	mov	x8, xzr
	cmp	w20, #3
	mov	w2, wzr
	b.le	LBB60_585
	cmp	w20, #5
	b.gt	LBB60_592
	cmp	w20, #4
	b.eq	LBB60_604
	cmp	w20, #5
	b.ne	LBB60_598
LBB60_581:
	mov	w9, #4
	mov	x8, xzr
	mov	w20, #5
	stp	w9, wzr, [sp, #56]
	b	LBB60_642
LBB60_582:
	mov	w12, #1
	movk	w12, #8192, lsl #16
	cmp	w20, w12
	mov	w12, #1
	b.eq	LBB60_595
	mov	w13, #2
	movk	w13, #8192, lsl #16
	cmp	w20, w13
	b.eq	LBB60_606
	cmp	w20, w26
	b.eq	LBB60_737
	b	LBB60_623
LBB60_585:
	cmp	w20, #1
	b.eq	LBB60_597
	cmp	w20, #2
	b.eq	LBB60_608
	cmp	w20, #3
	b.ne	LBB60_598
	mov	w12, w2
	b	LBB60_737
LBB60_589:
	mov	w8, #6
	movk	w8, #8192, lsl #16
	cmp	w20, w8
	b.eq	LBB60_605
	mov	w8, #7
	movk	w8, #8192, lsl #16
	cmp	w20, w8
	b.ne	LBB60_623
	mov	w8, #6
	mov	w2, wzr
	mov	w20, #7
	str	w8, [sp, #56]
	b	LBB60_641
LBB60_592:
	cmp	w20, #6
	b.eq	LBB60_769
	cmp	w20, #7
	b.ne	LBB60_598
LBB60_594:
	mov	w9, #6
	mov	x8, xzr
	mov	w20, #7
	stp	w9, wzr, [sp, #56]
	b	LBB60_642
LBB60_595:
	mov	w9, #1
	str	w9, [sp, #60]
LBB60_596:
	mov	w9, w2
	str	x9, [sp, #96]
	b	LBB60_734
LBB60_597:
	mov	w9, w2
	str	w2, [sp, #60]
	str	x9, [sp, #96]
	b	LBB60_734
LBB60_598:
	sub	w8, w20, #1001
	cmp	w8, #7
	b.hs	LBB60_609
	mov	x8, xzr
	mov	w9, wzr
	cmp	w20, #1003
	mov	w2, #1
	b.gt	LBB60_614
	cmp	w20, #1001
	str	w9, [sp, #60]
	b.eq	LBB60_596
	cmp	w20, #1002
	b.eq	LBB60_607
	cmp	w20, #1003
	b.eq	LBB60_622
	b	LBB60_594
LBB60_603:
	mov	w8, #3
	mov	w20, #4
	str	w8, [sp, #56]
	b	LBB60_641
LBB60_604:
	mov	w9, #3
	stp	w9, w2, [sp, #56]
	b	LBB60_642
LBB60_605:
	mov	w2, wzr
	mov	w8, #5
	mov	w20, #6
	str	w8, [sp, #56]
	b	LBB60_641
LBB60_606:
	mov	w9, #1
	str	w9, [sp, #60]
LBB60_607:
	mov	w9, w2
	str	x9, [sp, #96]
	b	LBB60_732
LBB60_608:
	mov	w9, w2
	str	w2, [sp, #60]
	str	x9, [sp, #96]
	b	LBB60_732
LBB60_609:
	sub	w8, w20, #2001
	cmp	w8, #7
	b.hs	LBB60_617
	mov	x8, xzr
	mov	w9, wzr
	cmp	w20, #2003
	mov	w2, #2
	b.gt	LBB60_756
	cmp	w20, #2001
	str	w9, [sp, #60]
	b.eq	LBB60_596
	cmp	w20, #2002
	b.eq	LBB60_607
	cmp	w20, #2003
	b.eq	LBB60_622
	b	LBB60_594
LBB60_614:
	cmp	w20, #1004
	b.eq	LBB60_770
	cmp	w20, #1005
	b.eq	LBB60_581
	cmp	w20, #1006
	b.eq	LBB60_769
	b	LBB60_594
LBB60_617:
	sub	w8, w20, #3001
	cmp	w8, #7
	b.hs	LBB60_623
	mov	x8, xzr
	mov	w9, wzr
	cmp	w20, #3003
	mov	w2, #3
	b.gt	LBB60_766
	cmp	w20, #3001
	str	w9, [sp, #60]
	b.eq	LBB60_596
	cmp	w20, #3002
	b.eq	LBB60_607
	cmp	w20, #3003
	b.ne	LBB60_594
LBB60_622:
	ldr	w12, [sp, #60]
	b	LBB60_737
LBB60_623:
	cbz	w11, LBB60_626
	cmp	w11, #1
	b.ne	LBB60_632
	mov	w25, #1
	cmp	x9, #5
	b.hs	LBB60_627
	b	LBB60_632
LBB60_626:
	mov	w25, wzr
	cmp	x9, #5
	b.lo	LBB60_632
LBB60_627:
	ldur	w8, [x10, #1]
	cmp	w25, #0
	rev	w9, w8
	csel	w11, w8, w9, ne
	ubfx	w8, w11, #30, #1
	and	w10, w11, #0x7fffffff
	add	w9, w10, w3
	cmp	w8, #0
	csel	w8, w10, w9, eq
	lsr	w9, w8, #29
	cmp	w9, #0
	add	w9, w8, w4
	csel	w12, w9, w8, ne
	cset	w8, ne
	cmp	w12, #3999
	b.hi	LBB60_632
	mov	w9, #35128
	mov	w13, #1000
	movk	w9, #65, lsl #16
	umull	x9, w12, w9
	lsr	x9, x9, #32
	msub	w9, w9, w13, w12
	sub	w13, w9, #1
	cmp	w13, #6
	b.hi	LBB60_632
	tbnz	w11, #31, LBB60_726
	mov	w11, #19923
	lsr	w10, w10, #30
	movk	w11, #4194, lsl #16
	umull	x11, w12, w11
	lsr	x11, x11, #38
	str	x11, [sp, #96]
	cbz	w10, LBB60_728
	ldr	x10, [sp, #96]
	mov	w11, #770
	movk	w11, #770, lsl #16
	lsl	w10, w10, #3
	lsr	w10, w11, w10
	b	LBB60_727
LBB60_632:
	ldp	w9, w12, [sp, #56]
	mov	w25, #2
	and	w8, w9, #0xff
	cmp	w8, #2
	b.le	LBB60_729
LBB60_633:
	ldr	x9, [sp, #96]
	cmp	w8, #4
	b.gt	LBB60_636
	cmp	w8, #3
	b.ne	LBB60_639
	mov	w20, #4
	mov	w8, #3
	tbz	w12, #0, LBB60_638
	b	LBB60_640
LBB60_636:
	cmp	w8, #5
	b.ne	LBB60_676
	mov	w20, #6
	mov	w8, #5
	tbnz	w12, #0, LBB60_640
LBB60_638:
	stp	w8, wzr, [sp, #56]
	mov	x8, xzr
	mov	w2, w9
	b	LBB60_642
LBB60_639:
	mov	w20, #5
	mov	w8, #4
	tbz	w12, #0, LBB60_638
LBB60_640:
	str	w8, [sp, #56]
	mov	w2, w9
LBB60_641:
	mov	w8, #1
	str	w8, [sp, #60]
	mov	w8, #4
LBB60_642:
	add	x8, x19, x8
	tst	w25, #0x1
	mov	w6, wzr
	add	x9, x8, x30
	add	x8, x8, #9
	ldur	w9, [x9, #5]
	rev	w10, w9
	csel	w9, w9, w10, ne
	add	x10, x23, x9
	sub	x23, x10, #1
	mov	w10, w2
	str	x10, [sp, #96]
	mov	x19, x8
	cbnz	w5, LBB60_563
LBB60_643:
	cbz	x16, LBB60_820
	ldr	x11, [sp, #64]
	ldr	x10, [sp, #128]
	sub	x13, x11, x28
	add	x14, x10, x28
	cmp	x13, #5
	b.hs	LBB60_647
	cmp	x11, x28
	b.eq	LBB60_696
	mov	x24, x19
	mov	x19, x15
	ldrb	w15, [x14]
	b	LBB60_655
LBB60_647:
	mov	x24, x19
	mov	x19, x15
	ldrb	w15, [x14]
	cmp	w15, #1
	b.eq	LBB60_659
	cbnz	w15, LBB60_655
	ldur	w10, [x14, #1]
	mov	w0, wzr
	rev	w10, w10
	lsr	w11, w10, #29
	cbz	w11, LBB60_660
LBB60_650:
	mov	w5, w20
	mov	x20, x2
	mov	w11, wzr
	cmp	w10, w26
	mov	w12, #4
	b.le	LBB60_682
	mov	w12, #5
	mov	x2, x16
	movk	w12, #8192, lsl #16
	cmp	w10, w12
	b.gt	LBB60_689
	mov	w12, #4
	movk	w12, #8192, lsl #16
	cmp	w10, w12
	b.eq	LBB60_718
	mov	w11, #5
	movk	w11, #8192, lsl #16
	cmp	w10, w11
	b.ne	LBB60_656
	mov	w11, wzr
	mov	w12, #4
	mov	w10, #5
	b	LBB60_722
LBB60_655:
	mov	w5, w20
	mov	x20, x2
	mov	x2, x16
LBB60_656:
	cbz	w15, LBB60_665
	cmp	w15, #1
	mov	x16, x2
	b.ne	LBB60_671
	mov	w0, #1
	mov	x15, x19
	mov	x2, x20
	cmp	x13, #5
	mov	x19, x24
	mov	w20, w5
	b.hs	LBB60_666
	b	LBB60_696
LBB60_659:
	ldur	w10, [x14, #1]
	mov	w0, #1
	lsr	w11, w10, #29
	cbnz	w11, LBB60_650
LBB60_660:
	mov	x12, xzr
	cmp	w10, #3
	b.le	LBB60_685
	mov	w5, w20
	cmp	w10, #5
	b.gt	LBB60_692
	cmp	w10, #4
	b.eq	LBB60_719
	mov	x20, x2
	cmp	w10, #5
	b.ne	LBB60_713
LBB60_664:
	mov	w10, #4
	mov	x12, xzr
	stp	w10, wzr, [sp, #48]
	mov	w10, #5
	b	LBB60_775
LBB60_665:
	mov	w0, wzr
	mov	x16, x2
	mov	x15, x19
	mov	x2, x20
	cmp	x13, #5
	mov	x19, x24
	mov	w20, w5
	b.lo	LBB60_696
LBB60_666:
	ldur	w10, [x14, #1]
	cmp	w0, #0
	rev	w11, w10
	csel	w13, w10, w11, ne
	ubfx	w10, w13, #30, #1
	and	w12, w13, #0x7fffffff
	add	w11, w12, w3
	cmp	w10, #0
	csel	w10, w12, w11, eq
	lsr	w11, w10, #29
	cmp	w11, #0
	add	w11, w10, w4
	csel	w14, w11, w10, ne
	cset	w10, ne
	cmp	w14, #3999
	b.hi	LBB60_696
	mov	w11, #35128
	mov	w5, w0
	mov	x0, x15
	movk	w11, #65, lsl #16
	mov	w15, #1000
	umull	x11, w14, w11
	lsr	x11, x11, #32
	msub	w11, w11, w15, w14
	sub	w15, w11, #1
	cmp	w15, #6
	b.hi	LBB60_695
	tbnz	w13, #31, LBB60_738
	mov	w13, #19923
	lsr	w12, w12, #30
	mov	x15, x0
	movk	w13, #4194, lsl #16
	umull	x13, w14, w13
	lsr	x13, x13, #38
	str	x13, [sp, #80]
	cbz	w12, LBB60_740
	ldr	x12, [sp, #80]
	mov	w13, #770
	movk	w13, #770, lsl #16
	lsl	w12, w12, #3
	lsr	w12, w13, w12
	b	LBB60_739
LBB60_671:
	ldp	w12, w11, [sp, #48]
	mov	w0, #2
	mov	x15, x19
	mov	x19, x24
	mov	x2, x20
	mov	w20, w5
	and	w10, w12, #0xff
	cmp	w10, #2
	b.gt	LBB60_697
LBB60_672:
	cbz	w10, LBB60_677
	cmp	w10, #1
	b.ne	LBB60_680
	tst	w11, #0x1
	str	w11, [sp, #52]
	csel	x12, x1, xzr, ne
LBB60_675:
	ldr	x11, [sp, #128]
	add	x10, x28, x12
	tst	w0, #0x1
	mov	w27, w0
	ldr	x0, [sp, #80]
	add	x11, x10, x11
	ldur	w11, [x11, #5]
	rev	w12, w11
	csel	w13, w11, w12, ne
	mov	w11, #1
	add	x12, x10, #9
	mov	w10, #2
	str	w11, [sp, #48]
	b	LBB60_679
LBB60_676:
	mov	w20, #7
	mov	w8, #6
	tbz	w12, #0, LBB60_638
	b	LBB60_640
LBB60_677:
	mov	w27, w0
	tst	w11, #0x1
	ldr	x0, [sp, #80]
	csel	x12, x1, xzr, ne
	str	w11, [sp, #52]
LBB60_678:
	add	x10, x28, x12
	mov	w13, #1
	str	wzr, [sp, #48]
	add	x12, x10, #5
	mov	w10, #1
LBB60_679:
	mov	w11, w0
	mov	w14, w13
	mov	w5, wzr
	and	x11, x11, #0xff
	sub	x16, x16, #1
	str	x0, [sp, #80]
	ldr	x11, [x17, x11, lsl #3]
	madd	x28, x11, x14, x12
	mov	w11, w0
	mov	w0, w27
	b	LBB60_778
LBB60_680:
	ldr	x10, [sp, #80]
	tst	w11, #0x1
	mov	w5, w20
	mov	x20, x2
	mov	x24, x19
	mov	x2, x16
	csel	x12, x1, xzr, ne
	mov	w16, w11
	mov	w11, w10
LBB60_681:
	ldr	x10, [sp, #128]
	add	x12, x28, x12
	tst	w0, #0x1
	sub	x2, x2, #1
	mov	w15, w11
	mov	x19, x24
	add	x10, x12, x10
	add	x12, x12, #9
	ldur	w13, [x10, #5]
	mov	w10, #2
	mov	x28, x12
	stp	w10, w16, [sp, #48]
	mov	w10, #3
	mov	x16, x2
	rev	w14, w13
	mov	x2, x20
	mov	w20, w5
	csel	w13, w13, w14, ne
	mov	w14, w11
	str	x14, [sp, #80]
	mov	w14, w0
	mov	w5, w13
	str	x14, [sp, #104]
	b	LBB60_778
LBB60_682:
	mov	x2, x16
	mov	w16, #1
	mov	w27, w0
	movk	w16, #8192, lsl #16
	cmp	w10, w16
	mov	w16, #1
	b.eq	LBB60_710
	mov	w0, #2
	movk	w0, #8192, lsl #16
	cmp	w10, w0
	b.eq	LBB60_724
	cmp	w10, w26
	mov	w0, w27
	b.eq	LBB60_681
	b	LBB60_656
LBB60_685:
	cmp	w10, #1
	b.eq	LBB60_712
	cmp	w10, #2
	b.eq	LBB60_725
	mov	w5, w20
	mov	x20, x2
	cmp	w10, #3
	b.ne	LBB60_713
	mov	x2, x16
	mov	w16, w11
	b	LBB60_681
LBB60_689:
	mov	w11, #6
	movk	w11, #8192, lsl #16
	cmp	w10, w11
	b.eq	LBB60_721
	mov	w11, #7
	movk	w11, #8192, lsl #16
	cmp	w10, w11
	b.ne	LBB60_656
	mov	w11, wzr
	mov	w12, #6
	mov	w10, #7
	b	LBB60_722
LBB60_692:
	mov	x20, x2
	cmp	w10, #6
	b.eq	LBB60_774
	cmp	w10, #7
	b.ne	LBB60_713
LBB60_694:
	mov	w10, #6
	mov	x12, xzr
	stp	w10, wzr, [sp, #48]
	mov	w10, #7
	b	LBB60_775
LBB60_695:
	mov	x15, x0
LBB60_696:
	ldp	w12, w11, [sp, #48]
	mov	w0, #2
	and	w10, w12, #0xff
	cmp	w10, #2
	b.le	LBB60_672
LBB60_697:
	cmp	w10, #4
	b.gt	LBB60_701
	cmp	w10, #3
	b.ne	LBB60_704
	mov	w12, #3
	mov	w10, #4
	tbnz	w11, #0, LBB60_707
	mov	w11, #3
	b	LBB60_709
LBB60_701:
	cmp	w10, #5
	b.ne	LBB60_706
	mov	w12, #5
	mov	w10, #6
	tbnz	w11, #0, LBB60_707
	mov	w11, #5
	b	LBB60_709
LBB60_704:
	mov	w12, #4
	mov	w10, #5
	tbnz	w11, #0, LBB60_707
	mov	w11, #4
	b	LBB60_709
LBB60_706:
	mov	w12, #6
	mov	w10, #7
	tbz	w11, #0, LBB60_708
LBB60_707:
	ldr	x11, [sp, #80]
	b	LBB60_723
LBB60_708:
	mov	w11, #6
LBB60_709:
	stp	w11, wzr, [sp, #48]
	ldr	x11, [sp, #80]
	mov	x12, xzr
	b	LBB60_777
LBB60_710:
	mov	w10, #1
	mov	w0, w11
	mov	x16, x2
	str	w10, [sp, #52]
LBB60_711:
	mov	x15, x19
	mov	x19, x24
	mov	x2, x20
	mov	w20, w5
	b	LBB60_678
LBB60_712:
	mov	w27, w0
	str	w11, [sp, #52]
	mov	w0, w11
	mov	x15, x19
	mov	x19, x24
	b	LBB60_678
LBB60_713:
	sub	w11, w10, #1001
	cmp	w11, #7
	b.hs	LBB60_741
	mov	x12, xzr
	mov	w13, wzr
	cmp	w10, #1003
	mov	w11, #1
	b.gt	LBB60_747
	cmp	w10, #1001
	mov	x15, x19
	mov	x2, x20
	str	w13, [sp, #52]
	b.eq	LBB60_762
	cmp	w10, #1002
	b.eq	LBB60_765
	mov	x20, x2
	cmp	w10, #1003
	b.eq	LBB60_746
	b	LBB60_694
LBB60_718:
	mov	w12, #3
	mov	w10, #4
	b	LBB60_722
LBB60_719:
	mov	w13, #3
	mov	x15, x19
	stp	w13, w11, [sp, #48]
LBB60_720:
	mov	x19, x24
	b	LBB60_776
LBB60_721:
	mov	w11, wzr
	mov	w12, #5
	mov	w10, #6
LBB60_722:
	mov	x16, x2
	mov	x15, x19
	mov	x19, x24
	mov	x2, x20
	mov	w20, w5
LBB60_723:
	str	w12, [sp, #48]
	mov	w12, #1
	str	w12, [sp, #52]
	mov	w12, #4
	b	LBB60_777
LBB60_724:
	mov	w10, #1
	mov	x16, x2
	mov	x15, x19
	str	w10, [sp, #52]
	mov	w10, w11
	mov	x19, x24
	str	x10, [sp, #80]
	mov	x2, x20
	mov	w20, w5
	mov	w0, w27
	b	LBB60_675
LBB60_725:
	mov	w10, w11
	str	w11, [sp, #52]
	mov	x15, x19
	str	x10, [sp, #80]
	mov	x19, x24
	b	LBB60_675
LBB60_726:
	lsr	w10, w10, #30
	cmp	w12, #2000
	ccmp	w10, #0, #0, lo
	mov	w10, #3
	csinc	w10, w10, wzr, ne
LBB60_727:
	str	x10, [sp, #96]
LBB60_728:
	lsl	w10, w9, #3
	cmp	w9, #7
	mov	w9, #6
	mov	w12, w8
	lsr	x10, x7, x10
	csel	w9, w10, w9, lo
	and	w8, w9, #0xff
	cmp	w8, #2
	b.gt	LBB60_633
LBB60_729:
	ldr	x9, [sp, #96]
	cbz	w8, LBB60_733
	cmp	w8, #1
	b.ne	LBB60_736
	tst	w12, #0x1
	str	w12, [sp, #60]
	csel	x8, x1, xzr, ne
LBB60_732:
	add	x8, x19, x8
	tst	w25, #0x1
	mov	w20, #2
	add	x9, x8, x30
	add	x8, x8, #9
	ldur	w9, [x9, #5]
	rev	w10, w9
	csel	w9, w9, w10, ne
	mov	w10, #1
	str	w10, [sp, #56]
	b	LBB60_735
LBB60_733:
	tst	w12, #0x1
	str	w12, [sp, #60]
	csel	x8, x1, xzr, ne
LBB60_734:
	add	x8, x19, x8
	mov	w9, #1
	mov	w20, #1
	add	x8, x8, #5
	str	wzr, [sp, #56]
LBB60_735:
	ldr	x12, [sp, #96]
	mov	w11, w9
	mov	w6, wzr
	sub	x23, x23, #1
	mov	w10, w12
	mov	w2, w12
	and	x10, x10, #0xff
	ldr	x10, [x17, x10, lsl #3]
	madd	x19, x10, x11, x8
	cbnz	w5, LBB60_563
	b	LBB60_643
LBB60_736:
	tst	w12, #0x1
	mov	w2, w9
	csel	x8, x1, xzr, ne
LBB60_737:
	add	x8, x19, x8
	tst	w25, #0x1
	mov	w11, #2
	add	x9, x8, x30
	sub	x23, x23, #1
	mov	w20, #3
	ldur	w9, [x9, #5]
	stp	w11, w12, [sp, #56]
	add	x8, x8, #9
	mov	w22, w25
	mov	w21, w2
	rev	w10, w9
	csel	w9, w9, w10, ne
	mov	w10, w2
	str	x10, [sp, #96]
	mov	w6, w9
	mov	x19, x8
	cbnz	w5, LBB60_563
	b	LBB60_643
LBB60_738:
	lsr	w12, w12, #30
	cmp	w14, #2000
	mov	x15, x0
	ccmp	w12, #0, #0, lo
	mov	w12, #3
	csinc	w12, w12, wzr, ne
LBB60_739:
	str	x12, [sp, #80]
LBB60_740:
	lsl	w12, w11, #3
	cmp	w11, #7
	mov	w11, #6
	mov	w0, w5
	lsr	x12, x7, x12
	csel	w12, w12, w11, lo
	mov	w11, w10
	and	w10, w12, #0xff
	cmp	w10, #2
	b.gt	LBB60_697
	b	LBB60_672
LBB60_741:
	sub	w11, w10, #2001
	cmp	w11, #7
	b.hs	LBB60_750
	mov	x12, xzr
	mov	w13, wzr
	cmp	w10, #2003
	mov	w11, #2
	mov	x15, x19
	mov	x2, x20
	b.gt	LBB60_759
	cmp	w10, #2001
	mov	w20, w5
	str	w13, [sp, #52]
	b.eq	LBB60_814
	cmp	w10, #2002
	b.eq	LBB60_815
	mov	w5, w20
	mov	x20, x2
	cmp	w10, #2003
	b.ne	LBB60_694
LBB60_746:
	mov	x2, x16
	ldr	w16, [sp, #52]
	b	LBB60_681
LBB60_747:
	cmp	w10, #1004
	mov	x2, x20
	b.eq	LBB60_763
	mov	x20, x2
	cmp	w10, #1005
	b.eq	LBB60_664
	cmp	w10, #1006
	b.eq	LBB60_774
	b	LBB60_694
LBB60_750:
	sub	w11, w10, #3001
	mov	x2, x16
	cmp	w11, #7
	b.hs	LBB60_656
	mov	x12, xzr
	mov	w13, wzr
	cmp	w10, #3003
	mov	w11, #3
	b.gt	LBB60_771
	cmp	w10, #3001
	mov	x16, x2
	str	w13, [sp, #52]
	b.eq	LBB60_816
	cmp	w10, #3002
	b.eq	LBB60_818
	cmp	w10, #3003
	b.ne	LBB60_694
	ldr	w16, [sp, #52]
	b	LBB60_681
LBB60_756:
	cmp	w20, #2004
	b.eq	LBB60_770
	cmp	w20, #2005
	b.eq	LBB60_581
	cmp	w20, #2006
	b.eq	LBB60_769
	b	LBB60_594
LBB60_759:
	cmp	w10, #2004
	b.eq	LBB60_764
	mov	x20, x2
	cmp	w10, #2005
	b.eq	LBB60_664
	cmp	w10, #2006
	b.eq	LBB60_774
	b	LBB60_694
LBB60_762:
	mov	w27, w0
	mov	w0, #1
	mov	x19, x24
	mov	w20, w5
	b	LBB60_678
LBB60_763:
	mov	x15, x19
LBB60_764:
	mov	w10, #3
	stp	w10, w13, [sp, #48]
	mov	w10, #4
	b	LBB60_720
LBB60_765:
	mov	w10, #1
	mov	x19, x24
	mov	w20, w5
	str	x10, [sp, #80]
	b	LBB60_675
LBB60_766:
	cmp	w20, #3004
	b.eq	LBB60_770
	cmp	w20, #3005
	b.eq	LBB60_581
	cmp	w20, #3006
	b.ne	LBB60_594
LBB60_769:
	mov	w9, #5
	mov	x8, xzr
	mov	w20, #6
	stp	w9, wzr, [sp, #56]
	b	LBB60_642
LBB60_770:
	str	w9, [sp, #60]
	mov	w9, #3
	mov	w20, #4
	str	w9, [sp, #56]
	b	LBB60_642
LBB60_771:
	cmp	w10, #3004
	mov	x16, x2
	b.eq	LBB60_817
	cmp	w10, #3005
	b.eq	LBB60_664
	cmp	w10, #3006
	b.ne	LBB60_694
LBB60_774:
	mov	w10, #5
	mov	x12, xzr
	stp	w10, wzr, [sp, #48]
	mov	w10, #6
LBB60_775:
	mov	x15, x19
	mov	x19, x24
	mov	x2, x20
LBB60_776:
	mov	w20, w5
LBB60_777:
	ldr	x13, [sp, #128]
	add	x12, x28, x12
	tst	w0, #0x1
	mov	w5, wzr
	add	x13, x12, x13
	add	x12, x12, #9
	ldur	w13, [x13, #5]
	mov	x28, x12
	rev	w14, w13
	csel	w13, w13, w14, ne
	add	x14, x16, x13
	sub	x16, x14, #1
	mov	w14, w11
	str	x14, [sp, #80]
LBB60_778:
	cmp	w20, w10
	mov	w10, wzr
	b.ne	LBB60_827
	and	w14, w2, #0xff
	cmp	w14, w11, uxtb
	b.ne	LBB60_827
	cmp	w9, w13
	b.ne	LBB60_827
	cmp	w20, #2
	mov	w13, w9
	str	x2, [sp, #112]
	b.hi	LBB60_783
	mov	w9, w2
	and	x9, x9, #0xff
	ldr	x9, [x17, x9, lsl #3]
	mul	x2, x9, x13
	add	x9, x2, x12
	b	LBB60_784
LBB60_783:
	mov	x2, xzr
	mov	x9, x12
LBB60_784:
	stp	w0, w25, [sp, #120]
	and	w11, w25, #0x1
	add	x25, x30, x8
	ldr	x8, [sp, #128]
	and	w10, w0, #0x1
	cmp	w11, w10
	add	x24, x8, x12
	b.eq	LBB60_791
	lsr	x8, x2, #3
	cbz	x8, LBB60_561
	ldr	w9, [sp, #124]
	tbz	w9, #0, LBB60_804
	ldr	w9, [sp, #120]
	tbz	w9, #0, LBB60_808
	mov	x9, xzr
LBB60_789:
	ldr	x10, [x25, x9]
	ldr	x11, [x24, x9]
	cmp	x10, x11
	b.ne	LBB60_793
	subs	x8, x8, #1
	add	x9, x9, #8
	b.ne	LBB60_789
	b	LBB60_561
LBB60_791:
	sub	x8, x9, x12
	cmp	x2, x8
	b.ne	LBB60_793
	mov	x0, x25
	mov	x1, x24
	mov	x26, x30
	mov	x27, x17
	stp	w22, w20, [sp, #32]
	mov	x20, x7
	str	x19, [sp, #40]
	mov	x29, x21
	mov	x21, x15
	stp	x23, x28, [sp, #16]
	mov	x23, x16
	mov	w19, w5
	mov	w22, w6
	mov	x28, x13
	bl	_memcmp
	mov	x13, x28
	mov	w6, w22
	mov	x16, x23
	ldp	x23, x28, [sp, #16]
	mov	x7, x20
	ldp	w22, w20, [sp, #32]
	mov	w5, w19
	ldr	x19, [sp, #40]
	mov	x30, x26
	mov	w26, #3
	mov	x15, x21
	mov	x21, x29
	mov	x29, #-9007199254740992
	mov	w4, #-536870912
	mov	w3, #-1073741824
	mov	w1, #4
	mov	x17, x27
	movk	w26, #8192, lsl #16
	cbz	w0, LBB60_561
LBB60_793:
	cmp	w20, #1
	b.ne	LBB60_820
	mov	x11, x28
	ldr	x28, [sp, #112]
	ldr	w9, [sp, #124]
	and	x8, x28, #0xff
	ldr	x8, [x17, x8, lsl #3]
	mul	x8, x8, x13
	lsr	x8, x8, #3
	tbz	w9, #0, LBB60_798
	ldr	w12, [sp, #120]
	mov	x9, xzr
LBB60_796:
	cbz	x8, LBB60_801
	ldr	x10, [x25, x9]
	add	x9, x9, #8
	sub	x8, x8, #1
	cmp	x29, x10, lsl #1
	b.lo	LBB60_796
	b	LBB60_820
LBB60_798:
	ldr	w12, [sp, #120]
	mov	x9, xzr
LBB60_799:
	cbz	x8, LBB60_801
	ldr	x10, [x25, x9]
	add	x9, x9, #8
	sub	x8, x8, #1
	rev	x10, x10
	cmp	x29, x10, lsl #1
	b.lo	LBB60_799
	b	LBB60_820
LBB60_801:
	and	x8, x28, #0xff
	mov	x9, xzr
	ldr	x8, [x17, x8, lsl #3]
	mov	x28, x11
	mul	x8, x8, x13
	lsr	x8, x8, #3
LBB60_802:
	cbz	x8, LBB60_561
	ldr	x10, [x24, x9]
	tst	w12, #0x1
	add	x9, x9, #8
	sub	x8, x8, #1
	rev	x11, x10
	csel	x10, x10, x11, ne
	cmp	x29, x10, lsl #1
	b.lo	LBB60_802
	b	LBB60_820
LBB60_804:
	ldr	w9, [sp, #120]
	tbz	w9, #0, LBB60_811
	mov	x9, xzr
LBB60_806:
	ldr	x10, [x25, x9]
	ldr	x11, [x24, x9]
	rev	x10, x10
	cmp	x10, x11
	b.ne	LBB60_793
	subs	x8, x8, #1
	add	x9, x9, #8
	b.ne	LBB60_806
	b	LBB60_561
LBB60_808:
	mov	x9, xzr
LBB60_809:
	ldr	x10, [x24, x9]
	ldr	x11, [x25, x9]
	rev	x10, x10
	cmp	x11, x10
	b.ne	LBB60_793
	subs	x8, x8, #1
	add	x9, x9, #8
	b.ne	LBB60_809
	b	LBB60_561
LBB60_811:
	mov	x9, xzr
LBB60_812:
	ldr	x10, [x25, x9]
	ldr	x11, [x24, x9]
	cmp	x10, x11
	b.ne	LBB60_793
	subs	x8, x8, #1
	add	x9, x9, #8
	b.ne	LBB60_812
	b	LBB60_561
LBB60_814:
	mov	w27, w0
	mov	w0, #2
	mov	x19, x24
	b	LBB60_678
LBB60_815:
	mov	w10, #2
	mov	x19, x24
	str	x10, [sp, #80]
	b	LBB60_675
LBB60_816:
	mov	w27, w0
	mov	w0, #3
	b	LBB60_711
LBB60_817:
	str	w13, [sp, #52]
	mov	w10, #4
	mov	w13, #3
	str	w13, [sp, #48]
	b	LBB60_775
LBB60_818:
	mov	w10, #3
	mov	x15, x19
	mov	x19, x24
	str	x10, [sp, #80]
	mov	x2, x20
	mov	w20, w5
	b	LBB60_675
LBB60_819:
	cbz	w5, LBB60_821
LBB60_820:
	mov	w10, wzr
	b	LBB60_827
LBB60_821:
	cbz	x16, LBB60_826
	ldr	x8, [sp, #64]
	sub	x8, x8, x28
	cmp	x8, #5
	b.lo	LBB60_820
	ldr	x8, [sp, #128]
	add	x8, x8, x28
	ldrb	w9, [x8]
	cmp	w9, #1
	b.eq	LBB60_829
	cbnz	w9, LBB60_820
	ldur	w8, [x8, #1]
	rev	w8, w8
	b	LBB60_830
LBB60_826:
	mov	w10, #1
LBB60_827:
	ldr	x8, [sp, #88]
	mov	w0, wzr
	str	w10, [x8]
LBB60_828:
	ldp	x20, x19, [sp, #256]
	ldp	x22, x21, [sp, #240]
	ldp	x24, x23, [sp, #224]
	ldp	x26, x25, [sp, #208]
	ldp	x28, x27, [sp, #192]
	ldp	x29, x30, [sp, #176]
	add	sp, sp, #272
	.cfi_def_cfa_offset 0
	.cfi_restore w19
	.cfi_restore w20
	.cfi_restore w21
	.cfi_restore w22
	.cfi_restore w23
	.cfi_restore w24
	.cfi_restore w25
	.cfi_restore w26
	.cfi_restore w27
	.cfi_restore w28
	.cfi_restore w30
	.cfi_restore w29
	ret
LBB60_829:
	.cfi_restore_state
	ldur	w8, [x8, #1]
LBB60_830:
	lsr	w9, w8, #29
	cbz	w9, LBB60_832
	mov	w9, #-536870913
	add	w8, w8, w9
	cmp	w8, #7
	b	LBB60_820
LBB60_832:
	sub	w9, w8, #1
	cmp	w9, #7
	b.lo	LBB60_820
	sub	w9, w8, #1001
	cmp	w9, #7
	b.lo	LBB60_820
	sub	w9, w8, #2001
	cmp	w9, #7
	b.lo	LBB60_820
	sub	w8, w8, #3001
	cmp	w8, #7
	b	LBB60_820
Lfunc_end60:
	.cfi_endproc
	.section	__TEXT,__text,regular,pure_instructions
	.private_extern	_wkb_raw_write
	.globl	_wkb_raw_write
	.p2align	2
_wkb_raw_write:
	.cfi_startproc
	hint	#34
	sub	sp, sp, #144
	.cfi_def_cfa_offset 144
	stp	x29, x30, [sp, #48]
	stp	x28, x27, [sp, #64]
	stp	x26, x25, [sp, #80]
	stp	x24, x23, [sp, #96]
	stp	x22, x21, [sp, #112]
	stp	x20, x19, [sp, #128]
	.cfi_offset w19, -8
	.cfi_offset w20, -16
	.cfi_offset w21, -24
	.cfi_offset w22, -32
	.cfi_offset w23, -40
	.cfi_offset w24, -48
	.cfi_offset w25, -56
	.cfi_offset w26, -64
	.cfi_offset w27, -72
	.cfi_offset w28, -80
	.cfi_offset w30, -88
	.cfi_offset w29, -96
	.cfi_remember_state
	mov	x8, x5
	mov	x5, x4
	mov	x4, x3
	mov	x3, x2
	cmp	x1, #5
	b.hs	LBB61_3
	cbz	x1, LBB61_284
	ldrb	w12, [x0]
	b	LBB61_117
LBB61_3:
	ldrb	w12, [x0]
	cmp	w12, #1
	b.eq	LBB61_40
	cbnz	w12, LBB61_117
	ldur	w10, [x0, #1]
	mov	w9, wzr
	rev	w11, w10
	lsr	w10, w11, #29
	cbz	w10, LBB61_41
LBB61_6:
	mov	w10, #3
	movk	w10, #8192, lsl #16
	cmp	w11, w10
	mov	w10, wzr
	b.le	LBB61_75
	mov	w13, #5
	movk	w13, #8192, lsl #16
	cmp	w11, w13
	b.gt	LBB61_95
	mov	w13, #4
	movk	w13, #8192, lsl #16
	cmp	w11, w13
	b.eq	LBB61_179
	mov	w13, #5
	movk	w13, #8192, lsl #16
	cmp	w11, w13
	b.ne	LBB61_117
LBB61_10:
	subs	x11, x1, #13
	b.lo	LBB61_284
	ldur	w12, [x0, #9]
	cmp	w9, #0
	rev	w13, w12
	csel	w13, w12, w13, ne
	cbz	w13, LBB61_219
	and	w14, w10, #0xff
	mov	w16, #1000
	mov	w7, w10
	mul	w14, w14, w16
	mov	w19, #35128
	mov	x12, xzr
	add	x15, x0, #13
	mov	w17, #-1073741824
	mov	w2, #-536870912
	movk	w19, #65, lsl #16
	and	x20, x7, #0xff
	mov	w24, #9
	orr	w23, w14, #0x2
	mov	w25, #13
	adrp	x26, Lswitch.table.wkb_raw_write.374@PAGE
	add	x26, x26, Lswitch.table.wkb_raw_write.374@PAGEOFF
	mov	x27, x13
LBB61_13:
	cmp	x11, #5
	b.hs	LBB61_16
	cbz	x11, LBB61_284
	ldrb	w29, [x15]
	b	LBB61_22
LBB61_16:
	ldrb	w29, [x15]
	cmp	w29, #1
	b.eq	LBB61_19
	cbnz	w29, LBB61_22
	ldur	w14, [x15, #1]
	mov	w28, wzr
	rev	w14, w14
	b	LBB61_20
LBB61_19:
	ldur	w14, [x15, #1]
	mov	w28, #1
LBB61_20:
	cmp	w14, w23
	b.ne	LBB61_22
	mov	w14, #9
	mov	w7, #5
	b	LBB61_36
LBB61_22:
	cbz	w29, LBB61_25
	cmp	w29, #1
	b.ne	LBB61_284
	mov	w28, #1
	b	LBB61_26
LBB61_25:
	mov	w28, wzr
LBB61_26:
	cmp	x11, #5
	b.lo	LBB61_284
	ldur	w14, [x15, #1]
	cmp	w28, #0
	rev	w7, w14
	csel	w21, w14, w7, ne
	ubfx	w7, w21, #30, #1
	and	w14, w21, #0x7fffffff
	add	w29, w14, w17
	cmp	w7, #0
	csel	w7, w14, w29, eq
	lsr	w29, w7, #29
	add	w30, w7, w2
	cmp	w29, #0
	csel	w7, w30, w7, ne
	cmp	w7, #3999
	b.hi	LBB61_284
	umull	x30, w7, w19
	lsr	x30, x30, #32
	msub	w30, w30, w16, w7
	sub	w22, w30, #1
	cmp	w22, #6
	b.hi	LBB61_284
	tbnz	w21, #31, LBB61_32
	mov	w21, #19923
	movk	w21, #4194, lsl #16
	umull	x7, w7, w21
	lsr	w21, w14, #30
	lsr	x14, x7, #38
	cbz	w21, LBB61_33
	lsl	w14, w14, #3
	mov	w7, #770
	movk	w7, #770, lsl #16
	lsr	w14, w7, w14
	b	LBB61_33
LBB61_32:
	lsr	w14, w14, #30
	cmp	w7, #2000
	ccmp	w14, #0, #0, lo
	mov	w14, #3
	csinc	w14, w14, wzr, ne
LBB61_33:
	cmp	w30, #2
	b.ne	LBB61_284
	and	w14, w14, #0xff
	cmp	w14, w10, uxtb
	b.ne	LBB61_284
	cmp	w29, #0
	mov	w14, #5
	csel	x7, x24, x14, ne
	csel	x14, x25, x24, ne
LBB61_36:
	add	x21, x7, #4
	cmp	x11, x21
	b.lo	LBB61_284
	ldr	w7, [x15, x7]
	cmp	w28, #0
	ldr	x22, [x26, x20, lsl #3]
	rev	w21, w7
	csel	w7, w7, w21, ne
	madd	x14, x22, x7, x14
	subs	x11, x11, x14
	b.lo	LBB61_284
	subs	x27, x27, #1
	add	x12, x12, x7
	add	x15, x15, x14
	b.ne	LBB61_13
	mov	w14, #4
	b	LBB61_229
LBB61_40:
	ldur	w11, [x0, #1]
	mov	w9, #1
	lsr	w10, w11, #29
	cbnz	w10, LBB61_6
LBB61_41:
	cmp	w11, #3
	b.le	LBB61_85
	cmp	w11, #5
	b.gt	LBB61_97
	cmp	w11, #4
	b.eq	LBB61_282
	cmp	w11, #5
	b.ne	LBB61_99
LBB61_45:
	subs	x11, x1, #9
	b.lo	LBB61_284
	ldur	w12, [x0, #5]
	cmp	w9, #0
	rev	w13, w12
	csel	w13, w12, w13, ne
	cbz	w13, LBB61_216
	and	w14, w10, #0xff
	mov	w16, #1000
	mov	w7, w10
	mul	w14, w14, w16
	mov	w19, #35128
	mov	x12, xzr
	add	x15, x0, #9
	mov	w17, #-1073741824
	mov	w2, #-536870912
	movk	w19, #65, lsl #16
	and	x20, x7, #0xff
	mov	w24, #9
	orr	w23, w14, #0x2
	mov	w25, #13
	adrp	x26, Lswitch.table.wkb_raw_write.374@PAGE
	add	x26, x26, Lswitch.table.wkb_raw_write.374@PAGEOFF
	mov	x27, x13
LBB61_48:
	cmp	x11, #5
	b.hs	LBB61_51
	cbz	x11, LBB61_284
	ldrb	w29, [x15]
	b	LBB61_57
LBB61_51:
	ldrb	w29, [x15]
	cmp	w29, #1
	b.eq	LBB61_54
	cbnz	w29, LBB61_57
	ldur	w14, [x15, #1]
	mov	w28, wzr
	rev	w14, w14
	b	LBB61_55
LBB61_54:
	ldur	w14, [x15, #1]
	mov	w28, #1
LBB61_55:
	cmp	w14, w23
	b.ne	LBB61_57
	mov	w14, #9
	mov	w7, #5
	b	LBB61_71
LBB61_57:
	cbz	w29, LBB61_60
	cmp	w29, #1
	b.ne	LBB61_284
	mov	w28, #1
	b	LBB61_61
LBB61_60:
	mov	w28, wzr
LBB61_61:
	cmp	x11, #5
	b.lo	LBB61_284
	ldur	w14, [x15, #1]
	cmp	w28, #0
	rev	w7, w14
	csel	w14, w14, w7, ne
	ubfx	w7, w14, #30, #1
	and	w21, w14, #0x7fffffff
	add	w29, w21, w17
	cmp	w7, #0
	csel	w7, w21, w29, eq
	lsr	w29, w7, #29
	add	w30, w7, w2
	cmp	w29, #0
	csel	w7, w30, w7, ne
	cmp	w7, #3999
	b.hi	LBB61_284
	umull	x30, w7, w19
	lsr	x30, x30, #32
	msub	w30, w30, w16, w7
	sub	w22, w30, #1
	cmp	w22, #6
	b.hi	LBB61_284
	lsr	w21, w21, #30
	tbnz	w14, #31, LBB61_67
	mov	w14, #19923
	movk	w14, #4194, lsl #16
	umull	x14, w7, w14
	lsr	x14, x14, #38
	cbz	w21, LBB61_68
	lsl	w14, w14, #3
	mov	w7, #770
	movk	w7, #770, lsl #16
	lsr	w14, w7, w14
	b	LBB61_68
LBB61_67:
	cmp	w7, #2000
	mov	w14, #3
	ccmp	w21, #0, #0, lo
	csinc	w14, w14, wzr, ne
LBB61_68:
	cmp	w30, #2
	b.ne	LBB61_284
	and	w14, w14, #0xff
	cmp	w14, w10, uxtb
	b.ne	LBB61_284
	cmp	w29, #0
	mov	w14, #5
	csel	x7, x24, x14, ne
	csel	x14, x25, x24, ne
LBB61_71:
	add	x21, x7, #4
	cmp	x11, x21
	b.lo	LBB61_284
	ldr	w7, [x15, x7]
	cmp	w28, #0
	ldr	x22, [x26, x20, lsl #3]
	rev	w21, w7
	csel	w7, w7, w21, ne
	madd	x14, x22, x7, x14
	subs	x11, x11, x14
	b.lo	LBB61_284
	subs	x27, x27, #1
	add	x12, x12, x7
	add	x15, x15, x14
	b.ne	LBB61_48
	mov	w14, #4
	b	LBB61_312
LBB61_75:
	mov	w13, #1
	movk	w13, #8192, lsl #16
	cmp	w11, w13
	b.eq	LBB61_231
	mov	w13, #2
	movk	w13, #8192, lsl #16
	cmp	w11, w13
	b.eq	LBB61_207
	mov	w13, #3
	movk	w13, #8192, lsl #16
	cmp	w11, w13
	b.ne	LBB61_117
LBB61_78:
	subs	x11, x1, #13
	b.lo	LBB61_284
	ldur	w12, [x0, #9]
	cmp	w9, #0
	rev	w13, w12
	csel	w14, w12, w13, ne
	mov	w13, #1
	mov	x12, xzr
	cbz	w14, LBB61_220
	mov	w16, w10
	add	x15, x0, #13
	adrp	x17, Lswitch.table.wkb_raw_write.374@PAGE
	add	x17, x17, Lswitch.table.wkb_raw_write.374@PAGEOFF
	and	x16, x16, #0xff
	mov	x2, x14
LBB61_81:
	cmp	x11, #4
	b.lo	LBB61_284
	ldr	w7, [x15]
	cmp	w9, #0
	ldr	x20, [x17, x16, lsl #3]
	rev	w19, w7
	csel	w7, w7, w19, ne
	mul	x19, x20, x7
	orr	x19, x19, #0x4
	subs	x11, x11, x19
	b.lo	LBB61_284
	subs	x2, x2, #1
	add	x12, x12, x7
	add	x15, x15, x19
	b.ne	LBB61_81
	add	x14, x14, #1
	b	LBB61_221
LBB61_85:
	cmp	w11, #1
	b.eq	LBB61_235
	cmp	w11, #2
	b.eq	LBB61_210
	cmp	w11, #3
	b.ne	LBB61_99
LBB61_88:
	subs	x11, x1, #9
	b.lo	LBB61_284
	ldur	w12, [x0, #5]
	cmp	w9, #0
	rev	w13, w12
	csel	w13, w12, w13, ne
	cbz	w13, LBB61_214
	mov	w15, w10
	mov	x12, xzr
	add	x14, x0, #9
	and	x15, x15, #0xff
	adrp	x16, Lswitch.table.wkb_raw_write.374@PAGE
	add	x16, x16, Lswitch.table.wkb_raw_write.374@PAGEOFF
	mov	x17, x13
LBB61_91:
	cmp	x11, #4
	b.lo	LBB61_284
	ldr	w2, [x14]
	cmp	w9, #0
	ldr	x19, [x16, x15, lsl #3]
	rev	w7, w2
	csel	w2, w2, w7, ne
	mul	x7, x19, x2
	orr	x7, x7, #0x4
	subs	x11, x11, x7
	b.lo	LBB61_284
	subs	x17, x17, #1
	add	x12, x12, x2
	add	x14, x14, x7
	b.ne	LBB61_91
	add	x14, x13, #1
	b	LBB61_215
LBB61_95:
	mov	w13, #6
	movk	w13, #8192, lsl #16
	cmp	w11, w13
	b.eq	LBB61_136
	mov	w9, #7
	movk	w9, #8192, lsl #16
	cmp	w11, w9
	b.eq	LBB61_284
	b	LBB61_117
LBB61_97:
	cmp	w11, #6
	b.eq	LBB61_242
	cmp	w11, #7
	b.eq	LBB61_284
LBB61_99:
	sub	w10, w11, #1001
	cmp	w10, #7
	b.hs	LBB61_104
	cmp	w11, #1003
	mov	w10, #1
	b.gt	LBB61_109
	cmp	w11, #1001
	b.eq	LBB61_224
	cmp	w11, #1002
	b.eq	LBB61_210
	cmp	w11, #1003
	b.eq	LBB61_88
	b	LBB61_284
LBB61_104:
	sub	w10, w11, #2001
	cmp	w10, #7
	b.hs	LBB61_112
	cmp	w11, #2003
	mov	w10, #2
	b.gt	LBB61_225
	cmp	w11, #2001
	b.eq	LBB61_224
	cmp	w11, #2002
	b.eq	LBB61_210
	cmp	w11, #2003
	b.eq	LBB61_88
	b	LBB61_284
LBB61_109:
	cmp	w11, #1004
	b.eq	LBB61_282
	cmp	w11, #1005
	b.eq	LBB61_45
	cmp	w11, #1006
	b.eq	LBB61_242
	b	LBB61_284
LBB61_112:
	sub	w10, w11, #3001
	cmp	w10, #7
	b.hs	LBB61_117
	cmp	w11, #3003
	mov	w10, #3
	b.gt	LBB61_239
	cmp	w11, #3001
	b.eq	LBB61_315
	cmp	w11, #3002
	b.eq	LBB61_210
	cmp	w11, #3003
	b.eq	LBB61_88
	b	LBB61_284
LBB61_117:
	cbz	w12, LBB61_120
	cmp	w12, #1
	b.ne	LBB61_284
	mov	w9, #1
	cmp	x1, #5
	b.lo	LBB61_284
	b	LBB61_121
LBB61_120:
	mov	w9, wzr
	cmp	x1, #5
	b.lo	LBB61_284
LBB61_121:
	ldur	w10, [x0, #1]
	cmp	w9, #0
	mov	w12, #-1073741824
	mov	w14, #-536870912
	rev	w11, w10
	csel	w10, w10, w11, ne
	ubfx	w11, w10, #30, #1
	and	w13, w10, #0x7fffffff
	add	w12, w13, w12
	cmp	w11, #0
	csel	w12, w13, w12, eq
	lsr	w11, w12, #29
	add	w14, w12, w14
	cmp	w11, #0
	csel	w14, w14, w12, ne
	cmp	w14, #3999
	b.hi	LBB61_284
	mov	w12, #35128
	mov	w15, #1000
	movk	w12, #65, lsl #16
	umull	x12, w14, w12
	lsr	x12, x12, #32
	msub	w12, w12, w15, w14
	sub	w15, w12, #1
	cmp	w15, #7
	b.hs	LBB61_284
	lsr	w13, w13, #30
	tbnz	w10, #31, LBB61_126
	mov	w10, #19923
	movk	w10, #4194, lsl #16
	umull	x10, w14, w10
	lsr	x10, x10, #38
	cbz	w13, LBB61_127
	lsl	w10, w10, #3
	mov	w13, #770
	movk	w13, #770, lsl #16
	lsr	w10, w13, w10
	b	LBB61_127
LBB61_126:
	cmp	w14, #2000
	mov	w10, #3
	ccmp	w13, #0, #0, lo
	csinc	w10, w10, wzr, ne
LBB61_127:
	cmp	w12, #3
	b.gt	LBB61_132
	cmp	w12, #1
	b.eq	LBB61_175
	cmp	w12, #2
	b.eq	LBB61_206
	cmp	w12, #3
	b.ne	LBB61_284
	cbnz	w11, LBB61_78
	b	LBB61_88
LBB61_132:
	cmp	w12, #4
	b.eq	LBB61_178
	cmp	w12, #5
	b.eq	LBB61_213
	cmp	w12, #6
	b.ne	LBB61_284
	cbz	w11, LBB61_242
LBB61_136:
	subs	x11, x1, #13
	b.lo	LBB61_284
	ldur	w12, [x0, #9]
	cmp	w9, #0
	rev	w13, w12
	csel	w14, w12, w13, ne
	cbz	w14, LBB61_217
	and	w2, w10, #0xff
	mov	w16, #1000
	mov	w20, w10
	mul	w19, w2, w16
	mov	w21, #35128
	mov	w15, wzr
	mov	x13, xzr
	mov	x12, xzr
	add	x17, x0, #13
	mov	w2, #-1073741824
	mov	w7, #-536870912
	and	x20, x20, #0xff
	movk	w21, #65, lsl #16
	orr	w23, w19, #0x3
	mov	w25, #9
	adrp	x27, Lswitch.table.wkb_raw_write.374@PAGE
	add	x27, x27, Lswitch.table.wkb_raw_write.374@PAGEOFF
LBB61_139:
	cmp	x11, #5
	b.hs	LBB61_142
	cbz	x11, LBB61_284
	ldrb	w29, [x17]
	b	LBB61_148
LBB61_142:
	ldrb	w29, [x17]
	cmp	w29, #1
	b.eq	LBB61_145
	cbnz	w29, LBB61_148
	ldur	w19, [x17, #1]
	mov	w28, wzr
	rev	w19, w19
	b	LBB61_146
LBB61_145:
	ldur	w19, [x17, #1]
	mov	w28, #1
LBB61_146:
	cmp	w19, w23
	b.ne	LBB61_148
	mov	w19, #5
	b	LBB61_162
LBB61_148:
	cbz	w29, LBB61_151
	cmp	w29, #1
	b.ne	LBB61_284
	mov	w28, #1
	b	LBB61_152
LBB61_151:
	mov	w28, wzr
LBB61_152:
	cmp	x11, #5
	b.lo	LBB61_284
	ldur	w19, [x17, #1]
	cmp	w28, #0
	rev	w22, w19
	csel	w26, w19, w22, ne
	ubfx	w19, w26, #30, #1
	and	w22, w26, #0x7fffffff
	add	w29, w22, w2
	cmp	w19, #0
	csel	w19, w22, w29, eq
	lsr	w29, w19, #29
	add	w30, w19, w7
	cmp	w29, #0
	csel	w19, w30, w19, ne
	cmp	w19, #3999
	b.hi	LBB61_284
	umull	x30, w19, w21
	lsr	x30, x30, #32
	msub	w30, w30, w16, w19
	sub	w24, w30, #1
	cmp	w24, #6
	b.hi	LBB61_284
	lsr	w22, w22, #30
	tbnz	w26, #31, LBB61_158
	mov	w24, #19923
	movk	w24, #4194, lsl #16
	umull	x19, w19, w24
	lsr	x19, x19, #38
	cbz	w22, LBB61_159
	lsl	w19, w19, #3
	mov	w22, #770
	movk	w22, #770, lsl #16
	lsr	w19, w22, w19
	b	LBB61_159
LBB61_158:
	cmp	w19, #2000
	mov	w19, #3
	ccmp	w22, #0, #0, lo
	csinc	w19, w19, wzr, ne
LBB61_159:
	cmp	w30, #3
	b.ne	LBB61_284
	and	w19, w19, #0xff
	cmp	w19, w10, uxtb
	b.ne	LBB61_284
	cmp	w29, #0
	mov	w19, #5
	csel	x19, x25, x19, ne
LBB61_162:
	add	x22, x19, #4
	cmp	x11, x22
	b.lo	LBB61_284
	add	x17, x17, x19
	cmp	w28, #0
	sub	x11, x11, x19
	ldr	w22, [x17], #4
	sub	x11, x11, #4
	rev	w26, w22
	csel	w29, w22, w26, ne
	cbz	w29, LBB61_169
	add	x13, x13, #2
	tbz	w28, #0, LBB61_170
	sub	w19, w22, #1
	add	x13, x13, x19
LBB61_166:
	cmp	x11, #4
	b.lo	LBB61_284
	ldr	w19, [x17]
	ldr	x22, [x27, x20, lsl #3]
	mul	x22, x22, x19
	orr	x22, x22, #0x4
	subs	x11, x11, x22
	b.lo	LBB61_284
	subs	w29, w29, #1
	add	x12, x12, x19
	add	x17, x17, x22
	b.ne	LBB61_166
	b	LBB61_174
LBB61_169:
	add	x13, x13, #1
	b	LBB61_174
LBB61_170:
	sub	w19, w26, #1
	add	x13, x13, x19
LBB61_171:
	cmp	x11, #4
	b.lo	LBB61_284
	ldr	w19, [x17]
	ldr	x22, [x27, x20, lsl #3]
	rev	w19, w19
	mul	x22, x22, x19
	orr	x22, x22, #0x4
	subs	x11, x11, x22
	b.lo	LBB61_284
	subs	w29, w29, #1
	add	x12, x12, x19
	add	x17, x17, x22
	b.ne	LBB61_171
LBB61_174:
	add	w15, w15, #1
	cmp	w15, w14
	b.ne	LBB61_139
	b	LBB61_218
LBB61_175:
	cbz	w11, LBB61_223
	and	w11, w10, #0xff
	sub	w12, w11, #1
	cmp	w12, #2
	b.hs	LBB61_230
	mov	w11, #33
	cmp	x1, x11
	b.lo	LBB61_284
	b	LBB61_232
LBB61_178:
	cbz	w11, LBB61_282
LBB61_179:
	subs	x11, x1, #13
	b.lo	LBB61_284
	ldur	w12, [x0, #9]
	mov	w13, w10
	cmp	w9, #0
	and	x14, x13, #0xff
	adrp	x13, Lswitch.table.wkb_raw_write.371@PAGE
	add	x13, x13, Lswitch.table.wkb_raw_write.371@PAGEOFF
	rev	w15, w12
	ldr	x14, [x13, x14, lsl #3]
	csel	w12, w12, w15, ne
	mov	x15, #13
	madd	x14, x14, x12, x15
	cmp	x1, x14
	b.lo	LBB61_284
	mov	w14, #3
	cbz	w12, LBB61_228
	and	w16, w10, #0xff
	mov	w15, #1000
	mov	w19, w10
	mul	w20, w16, w15
	mov	w16, #770
	mov	w21, #19923
	mov	w22, #35128
	movk	w16, #770, lsl #16
	add	x17, x0, #13
	mov	w2, #-1073741824
	mov	w7, #-536870912
	and	x19, x19, #0xff
	orr	w20, w20, #0x1
	movk	w21, #4194, lsl #16
	movk	w22, #65, lsl #16
	mov	x23, x12
LBB61_183:
	cmp	x11, #5
	b.hs	LBB61_186
	cbz	x11, LBB61_284
	ldrb	w24, [x17]
	b	LBB61_191
LBB61_186:
	ldrb	w24, [x17]
	cmp	w24, #1
	b.eq	LBB61_189
	cbnz	w24, LBB61_191
	ldur	w25, [x17, #1]
	rev	w25, w25
	b	LBB61_190
LBB61_189:
	ldur	w25, [x17, #1]
LBB61_190:
	cmp	w25, w20
	b.eq	LBB61_203
LBB61_191:
	cbz	w24, LBB61_193
	cmp	w24, #1
	b.ne	LBB61_284
LBB61_193:
	cmp	x11, #5
	b.lo	LBB61_284
	ldur	w25, [x17, #1]
	cmp	w24, #0
	rev	w26, w25
	csel	w27, w25, w26, ne
	ubfx	w24, w27, #30, #1
	and	w26, w27, #0x7fffffff
	add	w25, w26, w2
	cmp	w24, #0
	csel	w25, w26, w25, eq
	lsr	w24, w25, #29
	add	w28, w25, w7
	cmp	w24, #0
	csel	w28, w28, w25, ne
	cmp	w28, #3999
	b.hi	LBB61_284
	umull	x25, w28, w22
	lsr	x25, x25, #32
	msub	w25, w25, w15, w28
	sub	w29, w25, #1
	cmp	w29, #6
	b.hi	LBB61_284
	tbnz	w27, #31, LBB61_199
	umull	x27, w28, w21
	lsr	w28, w26, #30
	lsr	x26, x27, #38
	cbz	w28, LBB61_200
	lsl	w26, w26, #3
	lsr	w26, w16, w26
	b	LBB61_200
LBB61_199:
	lsr	w26, w26, #30
	cmp	w28, #2000
	ccmp	w26, #0, #0, lo
	csinc	w26, w14, wzr, ne
LBB61_200:
	cbnz	w24, LBB61_284
	cmp	w25, #1
	b.ne	LBB61_284
	and	w24, w26, #0xff
	cmp	w24, w10, uxtb
	b.ne	LBB61_284
LBB61_203:
	ldr	x24, [x13, x19, lsl #3]
	subs	x11, x11, x24
	b.lo	LBB61_284
	subs	x23, x23, #1
	add	x17, x17, x24
	b.ne	LBB61_183
	mov	w14, #3
	mov	x13, x12
	b	LBB61_229
LBB61_206:
	cbz	w11, LBB61_210
LBB61_207:
	cmp	x1, #13
	b.lo	LBB61_284
	ldur	w11, [x0, #9]
	mov	w12, w10
	adrp	x14, Lswitch.table.wkb_raw_write.374@PAGE
	add	x14, x14, Lswitch.table.wkb_raw_write.374@PAGEOFF
	and	x12, x12, #0xff
	cmp	w9, #0
	rev	w13, w11
	ldr	x14, [x14, x12, lsl #3]
	csel	w12, w11, w13, ne
	mov	x11, #13
	madd	x11, x14, x12, x11
	cmp	x1, x11
	b.lo	LBB61_284
	mov	w13, #1
	b	LBB61_233
LBB61_210:
	cmp	x1, #9
	b.lo	LBB61_284
	ldur	w11, [x0, #5]
	mov	w12, w10
	adrp	x14, Lswitch.table.wkb_raw_write.374@PAGE
	add	x14, x14, Lswitch.table.wkb_raw_write.374@PAGEOFF
	and	x12, x12, #0xff
	cmp	w9, #0
	rev	w13, w11
	ldr	x14, [x14, x12, lsl #3]
	csel	w12, w11, w13, ne
	mov	x11, #9
	madd	x11, x14, x12, x11
	cmp	x1, x11
	b.lo	LBB61_284
	mov	w13, #1
	b	LBB61_237
LBB61_213:
	cbnz	w11, LBB61_10
	b	LBB61_45
LBB61_214:
	mov	x12, xzr
	mov	w14, #1
LBB61_215:
	str	wzr, [sp, #8]
	b	LBB61_222
LBB61_216:
	mov	x13, xzr
	mov	x12, xzr
	mov	w14, #4
	b	LBB61_312
LBB61_217:
	mov	x12, xzr
	mov	x13, xzr
LBB61_218:
	mov	w14, #5
	b	LBB61_229
LBB61_219:
	mov	x12, xzr
	mov	x13, xzr
	mov	w14, #4
	b	LBB61_229
LBB61_220:
	mov	w14, #1
LBB61_221:
	ldur	w15, [x0, #5]
	cmp	w9, #0
	rev	w16, w15
	csel	w15, w15, w16, ne
	stp	w13, w15, [sp, #8]
LBB61_222:
	sub	x11, x1, x11
	add	x2, sp, #8
	mov	x6, x8
	stp	x11, x14, [sp, #16]
	mov	w11, #2
	str	x12, [sp, #32]
	strb	w11, [sp, #40]
	strb	w10, [sp, #41]
	strb	w9, [sp, #42]
	bl	_ZN7wkb_raw6erased5wkb_c5write13write_polygon17hb05cd7360faa7d52E
	b	LBB61_314
LBB61_223:
	and	w11, w10, #0xff
	sub	w12, w11, #1
	cmp	w12, #2
	b.hs	LBB61_234
LBB61_224:
	mov	w11, #29
	cmp	x1, x11
	b.lo	LBB61_284
	b	LBB61_236
LBB61_225:
	cmp	w11, #2004
	b.eq	LBB61_282
	cmp	w11, #2005
	b.eq	LBB61_45
	cmp	w11, #2006
	b.eq	LBB61_242
	b	LBB61_284
LBB61_228:
	mov	x12, xzr
	mov	x13, xzr
LBB61_229:
	ldur	w15, [x0, #5]
	cmp	w9, #0
	mov	w17, #1
	rev	w16, w15
	csel	w15, w15, w16, ne
	stp	w17, w15, [sp, #8]
	b	LBB61_313
LBB61_230:
	cbnz	w11, LBB61_316
LBB61_231:
	mov	w11, #25
	cmp	x1, x11
	b.lo	LBB61_284
LBB61_232:
	mov	w13, wzr
	mov	w12, #1
LBB61_233:
	ldur	w14, [x0, #5]
	cmp	w9, #0
	mov	w16, #1
	rev	w15, w14
	csel	w14, w14, w15, ne
	stp	w16, w14, [sp, #8]
	b	LBB61_238
LBB61_234:
	cbnz	w11, LBB61_315
LBB61_235:
	mov	w11, #21
	cmp	x1, x11
	b.lo	LBB61_284
LBB61_236:
	mov	w13, wzr
	mov	w12, #1
LBB61_237:
	str	wzr, [sp, #8]
LBB61_238:
	mov	w14, #1
	add	x2, sp, #8
	mov	x6, x8
	stp	x11, x14, [sp, #16]
	str	x12, [sp, #32]
	strb	w13, [sp, #40]
	strb	w10, [sp, #41]
	strb	w9, [sp, #42]
	bl	_ZN7wkb_raw6erased5wkb_c5write15write_one_piece17h050e3f427a46dcddE
	b	LBB61_314
LBB61_239:
	cmp	w11, #3004
	b.eq	LBB61_282
	cmp	w11, #3005
	b.eq	LBB61_45
	cmp	w11, #3006
	b.ne	LBB61_284
LBB61_242:
	subs	x11, x1, #9
	b.lo	LBB61_284
	ldur	w12, [x0, #5]
	cmp	w9, #0
	rev	w13, w12
	csel	w14, w12, w13, ne
	cbz	w14, LBB61_310
	and	w2, w10, #0xff
	mov	w16, #1000
	mov	w20, w10
	mul	w19, w2, w16
	mov	w21, #35128
	mov	w15, wzr
	mov	x13, xzr
	mov	x12, xzr
	add	x17, x0, #9
	mov	w2, #-1073741824
	mov	w7, #-536870912
	and	x20, x20, #0xff
	movk	w21, #65, lsl #16
	orr	w23, w19, #0x3
	mov	w25, #9
	adrp	x27, Lswitch.table.wkb_raw_write.374@PAGE
	add	x27, x27, Lswitch.table.wkb_raw_write.374@PAGEOFF
LBB61_245:
	cmp	x11, #5
	b.hs	LBB61_248
	cbz	x11, LBB61_284
	ldrb	w29, [x17]
	b	LBB61_254
LBB61_248:
	ldrb	w29, [x17]
	cmp	w29, #1
	b.eq	LBB61_251
	cbnz	w29, LBB61_254
	ldur	w19, [x17, #1]
	mov	w28, wzr
	rev	w19, w19
	b	LBB61_252
LBB61_251:
	ldur	w19, [x17, #1]
	mov	w28, #1
LBB61_252:
	cmp	w19, w23
	b.ne	LBB61_254
	mov	w19, #5
	b	LBB61_268
LBB61_254:
	cbz	w29, LBB61_257
	cmp	w29, #1
	b.ne	LBB61_284
	mov	w28, #1
	b	LBB61_258
LBB61_257:
	mov	w28, wzr
LBB61_258:
	cmp	x11, #5
	b.lo	LBB61_284
	ldur	w19, [x17, #1]
	cmp	w28, #0
	rev	w22, w19
	csel	w26, w19, w22, ne
	ubfx	w19, w26, #30, #1
	and	w22, w26, #0x7fffffff
	add	w29, w22, w2
	cmp	w19, #0
	csel	w19, w22, w29, eq
	lsr	w29, w19, #29
	add	w30, w19, w7
	cmp	w29, #0
	csel	w19, w30, w19, ne
	cmp	w19, #3999
	b.hi	LBB61_284
	umull	x30, w19, w21
	lsr	x30, x30, #32
	msub	w30, w30, w16, w19
	sub	w24, w30, #1
	cmp	w24, #6
	b.hi	LBB61_284
	lsr	w22, w22, #30
	tbnz	w26, #31, LBB61_264
	mov	w24, #19923
	movk	w24, #4194, lsl #16
	umull	x19, w19, w24
	lsr	x19, x19, #38
	cbz	w22, LBB61_265
	lsl	w19, w19, #3
	mov	w22, #770
	movk	w22, #770, lsl #16
	lsr	w19, w22, w19
	b	LBB61_265
LBB61_264:
	cmp	w19, #2000
	mov	w19, #3
	ccmp	w22, #0, #0, lo
	csinc	w19, w19, wzr, ne
LBB61_265:
	cmp	w30, #3
	b.ne	LBB61_284
	and	w19, w19, #0xff
	cmp	w19, w10, uxtb
	b.ne	LBB61_284
	cmp	w29, #0
	mov	w19, #5
	csel	x19, x25, x19, ne
LBB61_268:
	add	x22, x19, #4
	cmp	x11, x22
	b.lo	LBB61_284
	add	x17, x17, x19
	cmp	w28, #0
	sub	x11, x11, x19
	ldr	w22, [x17], #4
	sub	x11, x11, #4
	rev	w26, w22
	csel	w29, w22, w26, ne
	cbz	w29, LBB61_275
	add	x13, x13, #2
	tbz	w28, #0, LBB61_276
	sub	w19, w22, #1
	add	x13, x13, x19
LBB61_272:
	cmp	x11, #4
	b.lo	LBB61_284
	ldr	w19, [x17]
	ldr	x22, [x27, x20, lsl #3]
	mul	x22, x22, x19
	orr	x22, x22, #0x4
	subs	x11, x11, x22
	b.lo	LBB61_284
	subs	w29, w29, #1
	add	x12, x12, x19
	add	x17, x17, x22
	b.ne	LBB61_272
	b	LBB61_280
LBB61_275:
	add	x13, x13, #1
	b	LBB61_280
LBB61_276:
	sub	w19, w26, #1
	add	x13, x13, x19
LBB61_277:
	cmp	x11, #4
	b.lo	LBB61_284
	ldr	w19, [x17]
	ldr	x22, [x27, x20, lsl #3]
	rev	w19, w19
	mul	x22, x22, x19
	orr	x22, x22, #0x4
	subs	x11, x11, x22
	b.lo	LBB61_284
	subs	w29, w29, #1
	add	x12, x12, x19
	add	x17, x17, x22
	b.ne	LBB61_277
LBB61_280:
	add	w15, w15, #1
	cmp	w15, w14
	b.ne	LBB61_245
	str	wzr, [sp, #8]
	mov	w14, #5
	b	LBB61_313
LBB61_282:
	subs	x11, x1, #9
	b.lo	LBB61_284
	ldur	w13, [x0, #5]
	mov	w12, w10
	cmp	w9, #0
	and	x14, x12, #0xff
	adrp	x12, Lswitch.table.wkb_raw_write.371@PAGE
	add	x12, x12, Lswitch.table.wkb_raw_write.371@PAGEOFF
	rev	w15, w13
	ldr	x14, [x12, x14, lsl #3]
	csel	w13, w13, w15, ne
	mov	x15, #9
	madd	x14, x14, x13, x15
	cmp	x1, x14
	b.hs	LBB61_285
LBB61_284:
	ldp	x20, x19, [sp, #128]
	mov	x2, x3
	ldp	x22, x21, [sp, #112]
	mov	x3, x4
	ldp	x24, x23, [sp, #96]
	mov	x4, x5
	ldp	x26, x25, [sp, #80]
	mov	x5, x8
	ldp	x28, x27, [sp, #64]
	ldp	x29, x30, [sp, #48]
	add	sp, sp, #144
	.cfi_def_cfa_offset 0
	.cfi_restore w19
	.cfi_restore w20
	.cfi_restore w21
	.cfi_restore w22
	.cfi_restore w23
	.cfi_restore w24
	.cfi_restore w25
	.cfi_restore w26
	.cfi_restore w27
	.cfi_restore w28
	.cfi_restore w30
	.cfi_restore w29
	b	_ZN7wkb_raw6erased5wkb_c5write9write_any17h038886a4ea916b63E
LBB61_285:
	.cfi_restore_state
	.cfi_remember_state
	mov	w14, #3
	cbz	w13, LBB61_311
	and	w16, w10, #0xff
	mov	w15, #1000
	mov	w19, w10
	mul	w20, w16, w15
	mov	w16, #770
	mov	w21, #19923
	mov	w22, #35128
	movk	w16, #770, lsl #16
	add	x17, x0, #9
	mov	w2, #-1073741824
	mov	w7, #-536870912
	and	x19, x19, #0xff
	orr	w20, w20, #0x1
	movk	w21, #4194, lsl #16
	movk	w22, #65, lsl #16
	mov	x23, x13
LBB61_287:
	cmp	x11, #5
	b.hs	LBB61_290
	cbz	x11, LBB61_284
	ldrb	w24, [x17]
	b	LBB61_295
LBB61_290:
	ldrb	w24, [x17]
	cmp	w24, #1
	b.eq	LBB61_293
	cbnz	w24, LBB61_295
	ldur	w25, [x17, #1]
	rev	w25, w25
	b	LBB61_294
LBB61_293:
	ldur	w25, [x17, #1]
LBB61_294:
	cmp	w25, w20
	b.eq	LBB61_307
LBB61_295:
	cbz	w24, LBB61_297
	cmp	w24, #1
	b.ne	LBB61_284
LBB61_297:
	cmp	x11, #5
	b.lo	LBB61_284
	ldur	w25, [x17, #1]
	cmp	w24, #0
	rev	w26, w25
	csel	w27, w25, w26, ne
	ubfx	w24, w27, #30, #1
	and	w26, w27, #0x7fffffff
	add	w25, w26, w2
	cmp	w24, #0
	csel	w25, w26, w25, eq
	lsr	w24, w25, #29
	add	w28, w25, w7
	cmp	w24, #0
	csel	w28, w28, w25, ne
	cmp	w28, #3999
	b.hi	LBB61_284
	umull	x25, w28, w22
	lsr	x25, x25, #32
	msub	w25, w25, w15, w28
	sub	w29, w25, #1
	cmp	w29, #6
	b.hi	LBB61_284
	tbnz	w27, #31, LBB61_303
	umull	x27, w28, w21
	lsr	w28, w26, #30
	lsr	x26, x27, #38
	cbz	w28, LBB61_304
	lsl	w26, w26, #3
	lsr	w26, w16, w26
	b	LBB61_304
LBB61_303:
	lsr	w26, w26, #30
	cmp	w28, #2000
	ccmp	w26, #0, #0, lo
	csinc	w26, w14, wzr, ne
LBB61_304:
	cbnz	w24, LBB61_284
	cmp	w25, #1
	b.ne	LBB61_284
	and	w24, w26, #0xff
	cmp	w24, w10, uxtb
	b.ne	LBB61_284
LBB61_307:
	ldr	x24, [x12, x19, lsl #3]
	subs	x11, x11, x24
	b.lo	LBB61_284
	subs	x23, x23, #1
	add	x17, x17, x24
	b.ne	LBB61_287
	mov	w14, #3
	mov	x12, x13
	b	LBB61_312
LBB61_310:
	mov	x13, xzr
	mov	x12, xzr
	mov	w14, #5
	b	LBB61_312
LBB61_311:
	mov	x13, xzr
	mov	x12, xzr
LBB61_312:
	str	wzr, [sp, #8]
LBB61_313:
	sub	x11, x1, x11
	add	x13, x13, #1
	add	x2, sp, #8
	mov	x6, x8
	stp	x11, x13, [sp, #16]
	str	x12, [sp, #32]
	strb	w14, [sp, #40]
	strb	w10, [sp, #41]
	strb	w9, [sp, #42]
	bl	_ZN7wkb_raw6erased5wkb_c5write12write_others17h761b2ce34ffe351dE
LBB61_314:
	ldp	x20, x19, [sp, #128]
	ldp	x22, x21, [sp, #112]
	ldp	x24, x23, [sp, #96]
	ldp	x26, x25, [sp, #80]
	ldp	x28, x27, [sp, #64]
	ldp	x29, x30, [sp, #48]
	add	sp, sp, #144
	.cfi_def_cfa_offset 0
	.cfi_restore w19
	.cfi_restore w20
	.cfi_restore w21
	.cfi_restore w22
	.cfi_restore w23
	.cfi_restore w24
	.cfi_restore w25
	.cfi_restore w26
	.cfi_restore w27
	.cfi_restore w28
	.cfi_restore w30
	.cfi_restore w29
	ret
LBB61_315:
	.cfi_restore_state
	mov	w11, #37
	cmp	x1, x11
	b.lo	LBB61_284
	b	LBB61_236
LBB61_316:
	mov	w11, #41
	cmp	x1, x11
	b.lo	LBB61_284
	b	LBB61_232
Lfunc_end61:
	.cfi_endproc
	.section	__TEXT,__const
	.p2align	3, 0x0
Lswitch.table._ZN7wkb_raw6erased5wkb_c7collect16check_member_row17heaeeda39526af6b8E.166:
	.quad	16
	.quad	24
	.quad	24
	.section	__TEXT,__const
	.p2align	2, 0x0
Lswitch.table._ZN7wkb_raw6erased7wkb_abi6column9check_row17h3e84d1932f31260dE.187:
	.long	32
	.zero	4
	.long	35
	.long	36
	.section	__TEXT,__const
	.p2align	2, 0x0
Lswitch.table._ZN7wkb_raw6erased7wkb_abi6column9check_row17h3e84d1932f31260dE.188:
	.long	35
	.long	34
	.long	33
	.long	48
	.long	49
	.long	51
	.long	50
	.p2align	3, 0x0
Lswitch.table.wkb_raw_column_from_coordinates.272:
	.quad	2
	.quad	3
	.quad	3
	.quad	4
	.quad	0
	.p2align	2, 0x0
Lswitch.table.wkb_raw_column_from_coordinates.274:
	.long	0
	.long	0
	.long	1073741824
	.long	1073741824
	.long	0
	.p2align	3, 0x0
Lswitch.table.wkb_raw_column_from_coordinates.275:
	.quad	16
	.quad	24
	.quad	24
	.quad	32
	.quad	16
	.p2align	3, 0x0
Lswitch.table.wkb_raw_column_from_coordinates.277:
	.quad	16
	.quad	24
	.quad	24
	.quad	32
	.quad	0
	.section	__TEXT,__const
	.p2align	3, 0x0
Lswitch.table.wkb_raw_column_from_coordinates.278:
	.quad	2
	.quad	3
	.quad	3
	.quad	4
	.section	__TEXT,__const
	.p2align	2, 0x0
Lswitch.table.wkb_raw_parts.323:
	.long	2
	.long	3
	.long	3
	.long	4
	.section	__TEXT,__const
	.p2align	3, 0x0
Lswitch.table.wkb_raw_same.347:
	.quad	25
	.quad	33
	.quad	33
	.quad	41
	.p2align	3, 0x0
Lswitch.table.wkb_raw_write.371:
	.quad	21
	.quad	29
	.quad	29
	.quad	37
	.p2align	3, 0x0
Lswitch.table.wkb_raw_write.374:
	.quad	16
	.quad	24
	.quad	24
	.quad	32
