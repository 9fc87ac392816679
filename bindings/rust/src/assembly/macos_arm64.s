	.build_version macos, 11, 0
	.section	__TEXT,__text,regular,pure_instructions
	.p2align	2
"_noise_state::cipher::CipherState::decrypt":
	.cfi_startproc
	ldrb	w8, [x1]
	cmp	w8, #1
	b.ne	Lnoise_BB0_2
	ldr	x9, [x1, #40]
	cmn	x9, #1
	b.eq	Lnoise_BB0_10
Lnoise_BB0_2:
	lsr	x9, x5, #16
	cbz	x9, Lnoise_BB0_4
	mov	w8, #3
	mov	w9, #1
	strb	w9, [x0]
	strb	w8, [x0, #1]
	str	xzr, [x0, #8]
	ret
Lnoise_BB0_4:
	cmp	x5, #15
	b.hi	Lnoise_BB0_7
	cmp	w8, #1
	b.ne	Lnoise_BB0_7
	mov	w8, #2
	mov	w9, #1
	strb	w9, [x0]
	strb	w8, [x0, #1]
	str	xzr, [x0, #8]
	ret
Lnoise_BB0_7:
	cmp	w8, #1
	b.ne	Lnoise_BB0_11
	sub	sp, sp, #464
	.cfi_def_cfa_offset 464
	stp	x28, x27, [sp, #368]
	stp	x26, x25, [sp, #384]
	stp	x24, x23, [sp, #400]
	stp	x22, x21, [sp, #416]
	stp	x20, x19, [sp, #432]
	stp	x29, x30, [sp, #448]
	add	x29, sp, #448
	.cfi_def_cfa w29, 16
	.cfi_offset w30, -8
	.cfi_offset w29, -16
	.cfi_offset w19, -24
	.cfi_offset w20, -32
	.cfi_offset w21, -40
	.cfi_offset w22, -48
	.cfi_offset w23, -56
	.cfi_offset w24, -64
	.cfi_offset w25, -72
	.cfi_offset w26, -80
	.cfi_offset w27, -88
	.cfi_offset w28, -96
	.cfi_remember_state
	mov	x23, x0
	ldr	x8, [x1, #40]
	sub	x19, x5, #16
	add	x9, x4, x19
	ldp	x24, x25, [x9]
	add	x9, sp, #48
	movi.2d	v0, #0000000000000000
	stp	q0, q0, [sp, #96]
	stp	q0, q0, [sp, #128]
	stp	q0, q0, [sp, #160]
	stp	q0, q0, [sp, #192]
	stp	q0, q0, [sp, #224]
	stp	q0, q0, [sp, #256]
	stp	q0, q0, [sp, #288]
	stp	q0, q0, [sp, #320]
	ldur	q0, [x1, #1]
	mov	x26, x1
	ldur	q1, [x1, #17]
	stp	q0, q1, [sp, #48]
	stp	x8, xzr, [sp, #80]
	mov	w10, #64
	str	x10, [sp, #352]
	add	x0, sp, #48
	mov	x20, x3
	add	x3, x9, #48
	mov	x1, #0
	mov	x21, x2
	mov	x2, x8
	mov	x22, x4
	bl	"_rand_chacha::guts::refill4"
	ldr	x8, [sp, #88]
	add	x8, x8, #4
	ldp	d0, d1, [sp, #96]
	ldr	w9, [sp, #124]
	ldr	q2, [sp, #112]
	mov	w10, #16
	mov.d	v0[1], v1[0]
	str	x8, [sp, #88]
	str	x10, [sp, #352]
	str	q0, [sp, #16]
	str	d2, [sp, #32]
	mov	s0, v2[2]
	str	s0, [sp, #40]
	strb	w9, [sp, #44]
	mov	b0, v2[13]
	stur	b0, [sp, #45]
	mov	b0, v2[14]
	stur	b0, [sp, #46]
	mov	b0, v2[15]
	stur	b0, [sp, #47]
	mov	x0, sp
	add	x1, sp, #16
	mov	x2, x21
	mov	x3, x20
	mov	x20, x22
	mov	x4, x22
	mov	x5, x19
	bl	"_noise_aead::authenticator::tag"
	ldp	x8, x9, [sp]
	cmp	x9, x25
	ccmp	x8, x24, #0, eq
	b.ne	Lnoise_BB0_12
	add	x0, sp, #48
	mov	x1, x20
	mov	x2, x19
	bl	"_noise_aead::keystream::apply"
	ldr	x8, [x26, #40]
	add	x8, x8, #1
	str	x8, [x26, #40]
	strh	wzr, [x23]
	str	x19, [x23, #8]
	b	Lnoise_BB0_13
Lnoise_BB0_10:
	.cfi_def_cfa wsp, 0
	.cfi_same_value w30
	.cfi_same_value w29
	.cfi_same_value w19
	.cfi_same_value w20
	.cfi_same_value w21
	.cfi_same_value w22
	.cfi_same_value w23
	.cfi_same_value w24
	.cfi_same_value w25
	.cfi_same_value w26
	.cfi_same_value w27
	.cfi_same_value w28
	mov	w8, #0
	mov	w9, #1
	strb	w9, [x0]
	strb	w8, [x0, #1]
	str	xzr, [x0, #8]
	ret
Lnoise_BB0_11:
	strh	wzr, [x0]
	str	x5, [x0, #8]
	ret
Lnoise_BB0_12:
	.cfi_restore_state
	mov	w8, #257
	strh	w8, [x23]
	str	xzr, [x23, #8]
Lnoise_BB0_13:
	.cfi_def_cfa wsp, 464
	ldp	x29, x30, [sp, #448]
	ldp	x20, x19, [sp, #432]
	ldp	x22, x21, [sp, #416]
	ldp	x24, x23, [sp, #400]
	ldp	x26, x25, [sp, #384]
	ldp	x28, x27, [sp, #368]
	add	sp, sp, #464
	.cfi_def_cfa_offset 0
	.cfi_restore w30
	.cfi_restore w29
	.cfi_restore w19
	.cfi_restore w20
	.cfi_restore w21
	.cfi_restore w22
	.cfi_restore w23
	.cfi_restore w24
	.cfi_restore w25
	.cfi_restore w26
	.cfi_restore w27
	.cfi_restore w28
	ret
	.cfi_endproc

	.section	__TEXT,__literal16,16byte_literals
	.p2align	4, 0x0
lnoise_CPI1_0:
	.quad	2
	.quad	3
lnoise_CPI1_1:
	.quad	0
	.quad	1
	.section	__TEXT,__text,regular,pure_instructions
	.p2align	2
"_rand_chacha::guts::refill4":
	.cfi_startproc
	stp	d15, d14, [sp, #-64]!
	.cfi_def_cfa_offset 64
	stp	d13, d12, [sp, #16]
	stp	d11, d10, [sp, #32]
	stp	d9, d8, [sp, #48]
	.cfi_offset b8, -8
	.cfi_offset b9, -16
	.cfi_offset b10, -24
	.cfi_offset b11, -32
	.cfi_offset b12, -40
	.cfi_offset b13, -48
	.cfi_offset b14, -56
	.cfi_offset b15, -64
	add	x8, x0, #8
	add	x9, x0, #12
	add	x10, x0, #16
	add	x11, x0, #20
	add	x12, x0, #24
	add	x13, x0, #28
	ld1r.4s	{ v16 }, [x0], #4
	ld1r.4s	{ v17 }, [x0]
	ld1r.4s	{ v18 }, [x8]
	ld1r.4s	{ v19 }, [x9]
	ld1r.4s	{ v3 }, [x10]
	ld1r.4s	{ v4 }, [x11]
	ld1r.4s	{ v5 }, [x12]
	ld1r.4s	{ v6 }, [x13]
Lnoise_loh0:
	adrp	x8, lnoise_CPI1_0@PAGE
Lnoise_loh1:
	ldr	q2, [x8, lnoise_CPI1_0@PAGEOFF]
	dup.2d	v7, x1
	add.2d	v0, v7, v2
Lnoise_loh2:
	adrp	x8, lnoise_CPI1_1@PAGE
Lnoise_loh3:
	ldr	q1, [x8, lnoise_CPI1_1@PAGEOFF]
	add.2d	v20, v7, v1
	uzp1.4s	v0, v20, v0
	addhn.2s	v1, v7, v1
	addhn2.4s	v1, v7, v2
	dup.4s	v2, w2
	lsr	x9, x2, #32
	mov	w8, #25972
	movk	w8, #27424, lsl #16
	dup.4s	v29, w8
	mov	w8, #11570
	movk	w8, #31074, lsl #16
	dup.4s	v8, w8
	mov	w8, #25710
	movk	w8, #13088, lsl #16
	dup.4s	v9, w8
	mov	w8, #30821
	movk	w8, #24944, lsl #16
	dup.4s	v10, w8
	mov	w8, #10
	mov.16b	v11, v16
	mov.16b	v26, v17
	mov.16b	v27, v18
	mov.16b	v28, v19
	mov.16b	v30, v3
	mov.16b	v31, v4
	mov.16b	v21, v5
	mov.16b	v22, v6
	dup.4s	v7, w9
	mov.16b	v23, v0
	mov.16b	v24, v1
	mov.16b	v25, v2
	mov.16b	v20, v7
Lnoise_BB1_1:
	add.4s	v10, v11, v10
	eor.16b	v23, v23, v10
	rev32.8h	v23, v23
	add.4s	v30, v23, v30
	eor.16b	v11, v30, v11
	shl.4s	v12, v11, #12
	usra.4s	v12, v11, #20
	add.4s	v10, v12, v10
	eor.16b	v11, v10, v23
	shl.4s	v23, v11, #8
	usra.4s	v23, v11, #24
	add.4s	v30, v23, v30
	eor.16b	v12, v30, v12
	shl.4s	v11, v12, #7
	usra.4s	v11, v12, #25
	add.4s	v9, v26, v9
	eor.16b	v24, v24, v9
	rev32.8h	v24, v24
	add.4s	v31, v24, v31
	eor.16b	v26, v31, v26
	shl.4s	v12, v26, #12
	usra.4s	v12, v26, #20
	add.4s	v9, v12, v9
	eor.16b	v26, v9, v24
	shl.4s	v24, v26, #8
	usra.4s	v24, v26, #24
	add.4s	v31, v24, v31
	eor.16b	v26, v31, v12
	shl.4s	v12, v26, #7
	usra.4s	v12, v26, #25
	add.4s	v26, v27, v8
	eor.16b	v25, v25, v26
	rev32.8h	v25, v25
	add.4s	v21, v25, v21
	eor.16b	v27, v21, v27
	shl.4s	v8, v27, #12
	usra.4s	v8, v27, #20
	add.4s	v13, v8, v26
	eor.16b	v26, v13, v25
	shl.4s	v25, v26, #8
	usra.4s	v25, v26, #24
	add.4s	v21, v25, v21
	eor.16b	v26, v21, v8
	shl.4s	v27, v26, #7
	usra.4s	v27, v26, #25
	add.4s	v26, v28, v29
	eor.16b	v20, v20, v26
	rev32.8h	v20, v20
	add.4s	v22, v20, v22
	eor.16b	v28, v22, v28
	shl.4s	v29, v28, #12
	usra.4s	v29, v28, #20
	add.4s	v14, v29, v26
	eor.16b	v20, v14, v20
	shl.4s	v26, v20, #8
	usra.4s	v26, v20, #24
	add.4s	v22, v26, v22
	eor.16b	v20, v22, v29
	shl.4s	v28, v20, #7
	usra.4s	v28, v20, #25
	add.4s	v20, v12, v10
	eor.16b	v26, v20, v26
	rev32.8h	v26, v26
	add.4s	v21, v26, v21
	eor.16b	v29, v21, v12
	shl.4s	v8, v29, #12
	usra.4s	v8, v29, #20
	add.4s	v10, v8, v20
	eor.16b	v26, v10, v26
	shl.4s	v20, v26, #8
	usra.4s	v20, v26, #24
	add.4s	v21, v20, v21
	eor.16b	v29, v21, v8
	shl.4s	v26, v29, #7
	usra.4s	v26, v29, #25
	add.4s	v29, v27, v9
	eor.16b	v23, v29, v23
	rev32.8h	v23, v23
	add.4s	v22, v23, v22
	eor.16b	v27, v22, v27
	shl.4s	v8, v27, #12
	usra.4s	v8, v27, #20
	add.4s	v9, v8, v29
	eor.16b	v27, v9, v23
	shl.4s	v23, v27, #8
	usra.4s	v23, v27, #24
	add.4s	v22, v23, v22
	eor.16b	v29, v22, v8
	shl.4s	v27, v29, #7
	usra.4s	v27, v29, #25
	add.4s	v29, v28, v13
	eor.16b	v24, v29, v24
	rev32.8h	v24, v24
	add.4s	v30, v24, v30
	eor.16b	v28, v30, v28
	shl.4s	v12, v28, #12
	usra.4s	v12, v28, #20
	add.4s	v8, v12, v29
	eor.16b	v28, v8, v24
	shl.4s	v24, v28, #8
	usra.4s	v24, v28, #24
	add.4s	v30, v24, v30
	eor.16b	v29, v30, v12
	shl.4s	v28, v29, #7
	usra.4s	v28, v29, #25
	add.4s	v29, v11, v14
	eor.16b	v25, v29, v25
	rev32.8h	v25, v25
	add.4s	v31, v25, v31
	eor.16b	v11, v31, v11
	shl.4s	v12, v11, #12
	usra.4s	v12, v11, #20
	add.4s	v29, v12, v29
	eor.16b	v11, v29, v25
	shl.4s	v25, v11, #8
	usra.4s	v25, v11, #24
	add.4s	v31, v25, v31
	eor.16b	v12, v31, v12
	shl.4s	v11, v12, #7
	usra.4s	v11, v12, #25
	subs	w8, w8, #1
	b.ne	Lnoise_BB1_1
	mov	w8, #30821
	movk	w8, #24944, lsl #16
	dup.4s	v12, w8
	mov	w8, #25710
	movk	w8, #13088, lsl #16
	dup.4s	v13, w8
	mov	w8, #11570
	movk	w8, #31074, lsl #16
	dup.4s	v14, w8
	add.4s	v12, v10, v12
	add.4s	v9, v9, v13
	add.4s	v13, v8, v14
	zip1.4s	v14, v12, v9
	mov.s	v14[2], v13[0]
	trn2.4s	v10, v12, v9
	mov.s	v10[2], v13[1]
	zip2.4s	v8, v12, v9
	mov.s	v8[2], v13[2]
	uzp2.4s	v9, v12, v9
	uzp2.4s	v9, v9, v12
	mov.s	v9[2], v13[3]
	mov	w8, #25972
	movk	w8, #27424, lsl #16
	dup.4s	v12, w8
	add.4s	v29, v29, v12
	mov.s	v14[3], v29[0]
	mov.s	v10[3], v29[1]
	mov.s	v8[3], v29[2]
	mov.s	v9[3], v29[3]
	add.4s	v16, v16, v11
	add.4s	v17, v17, v26
	add.4s	v18, v18, v27
	add.4s	v19, v19, v28
	zip1.4s	v26, v16, v17
	mov.s	v26[2], v18[0]
	mov.s	v26[3], v19[0]
	trn2.4s	v27, v16, v17
	mov.s	v27[2], v18[1]
	stp	q14, q26, [x3]
	mov.s	v27[3], v19[1]
	zip2.4s	v26, v16, v17
	mov.s	v26[2], v18[2]
	mov.s	v26[3], v19[2]
	uzp2.4s	v17, v16, v17
	uzp2.4s	v16, v17, v16
	mov.s	v16[2], v18[3]
	mov.s	v16[3], v19[3]
	add.4s	v3, v3, v30
	add.4s	v4, v4, v31
	add.4s	v5, v5, v21
	add.4s	v6, v6, v22
	zip1.4s	v17, v3, v4
	mov.s	v17[2], v5[0]
	mov.s	v17[3], v6[0]
	stp	q10, q27, [x3, #64]
	trn2.4s	v18, v3, v4
	mov.s	v18[2], v5[1]
	mov.s	v18[3], v6[1]
	zip2.4s	v19, v3, v4
	mov.s	v19[2], v5[2]
	mov.s	v19[3], v6[2]
	stp	q8, q26, [x3, #128]
	uzp2.4s	v4, v3, v4
	uzp2.4s	v3, v4, v3
	mov.s	v3[2], v5[3]
	stp	q9, q16, [x3, #192]
	mov.s	v3[3], v6[3]
	add.4s	v0, v23, v0
	add.4s	v1, v24, v1
	add.4s	v2, v2, v25
	add.4s	v4, v7, v20
	zip1.4s	v5, v0, v1
	mov.s	v5[2], v2[0]
	mov.s	v5[3], v4[0]
	trn2.4s	v6, v0, v1
	mov.s	v6[2], v2[1]
	mov.s	v6[3], v4[1]
	stp	q17, q5, [x3, #32]
	stp	q18, q6, [x3, #96]
	zip2.4s	v5, v0, v1
	mov.s	v5[2], v2[2]
	mov.s	v5[3], v4[2]
	stp	q19, q5, [x3, #160]
	uzp2.4s	v1, v0, v1
	uzp2.4s	v0, v1, v0
	mov.s	v0[2], v2[3]
	mov.s	v0[3], v4[3]
	stp	q3, q0, [x3, #224]
	ldp	d9, d8, [sp, #48]
	ldp	d11, d10, [sp, #32]
	ldp	d13, d12, [sp, #16]
	ldp	d15, d14, [sp], #64
	.cfi_def_cfa_offset 0
	.cfi_restore b8
	.cfi_restore b9
	.cfi_restore b10
	.cfi_restore b11
	.cfi_restore b12
	.cfi_restore b13
	.cfi_restore b14
	.cfi_restore b15
	ret
	.loh AdrpLdr	Lnoise_loh2, Lnoise_loh3
	.loh AdrpAdrp	Lnoise_loh0, Lnoise_loh2
	.loh AdrpLdr	Lnoise_loh0, Lnoise_loh1
	.cfi_endproc

	.p2align	2
"_noise_aead::authenticator::tag":
	.cfi_startproc
	sub	sp, sp, #272
	.cfi_def_cfa_offset 272
	stp	x28, x27, [sp, #176]
	stp	x26, x25, [sp, #192]
	stp	x24, x23, [sp, #208]
	stp	x22, x21, [sp, #224]
	stp	x20, x19, [sp, #240]
	stp	x29, x30, [sp, #256]
	add	x29, sp, #256
	.cfi_def_cfa w29, 16
	.cfi_offset w30, -8
	.cfi_offset w29, -16
	.cfi_offset w19, -24
	.cfi_offset w20, -32
	.cfi_offset w21, -40
	.cfi_offset w22, -48
	.cfi_offset w23, -56
	.cfi_offset w24, -64
	.cfi_offset w25, -72
	.cfi_offset w26, -80
	.cfi_offset w27, -88
	.cfi_offset w28, -96
	mov	x20, x5
	mov	x21, x4
	mov	x22, x3
	mov	x19, x0
	ldp	x9, x8, [x1]
	ldr	q0, [x1, #16]
	and	x9, x9, #0xfffffffffffffff
	and	x9, x9, #0xfffffffc0fffffff
	movi.2d	v1, #0000000000000000
	stp	q1, q1, [sp, #16]
	and	x8, x8, #0xffffffc0ffffffc
	stp	x9, x8, [sp, #48]
	stp	q0, q1, [sp, #64]
	str	q1, [sp, #96]
	add	x0, sp, #16
	mov	x1, x2
	mov	x2, x3
	bl	"_noise_poly::Poly1305::update"
	neg	w8, w22
Lnoise_loh4:
	adrp	x23, lnoise__static.0@PAGE
Lnoise_loh5:
	add	x23, x23, lnoise__static.0@PAGEOFF
	add	x0, sp, #16
	and	x2, x8, #0xf
	mov	x1, x23
	bl	"_noise_poly::Poly1305::update"
	add	x0, sp, #16
	mov	x1, x21
	mov	x2, x20
	bl	"_noise_poly::Poly1305::update"
	neg	w8, w20
	add	x0, sp, #16
	and	x2, x8, #0xf
	mov	x1, x23
	bl	"_noise_poly::Poly1305::update"
	stp	x22, x20, [sp]
	add	x0, sp, #16
	mov	x1, sp
	mov	w2, #16
	bl	"_noise_poly::Poly1305::update"
	ldp	x24, x23, [sp, #16]
	ldr	x25, [sp, #32]
	ldp	x26, x27, [sp, #48]
	ldp	x22, x21, [sp, #64]
	ldp	q1, q0, [sp, #80]
	stp	q1, q0, [sp, #112]
	ldr	x20, [sp, #128]
	cbz	x20, Lnoise_BB2_2
	mov	w8, #16
	sub	x8, x8, x20
	cmp	x20, #15
	csel	x1, xzr, x8, hi
	sub	x28, x29, #112
	add	x0, x28, x20
	bl	_bzero
	sub	x0, x29, #112
	add	x1, sp, #112
	mov	x2, x20
	bl	_memcpy
	mov	w8, #1
	strb	w8, [x28, x20]
	ldp	x9, x8, [x29, #-112]
	adds	x9, x9, x24
	adcs	x8, x8, x23
	cinc	x10, x25, hs
	add	x11, x27, x27, lsr #2
	umulh	x12, x9, x26
	mul	x13, x9, x26
	umulh	x14, x8, x11
	mul	x15, x8, x11
	adds	x13, x15, x13
	adc	x12, x14, x12
	umulh	x14, x9, x27
	mul	x9, x9, x27
	umulh	x15, x8, x26
	mul	x8, x8, x26
	adds	x8, x9, x8
	adc	x9, x14, x15
	mul	x11, x10, x11
	adds	x8, x8, x11
	cinc	x9, x9, hs
	mul	x10, x10, x26
	adds	x11, x8, x12
	adc	x9, x10, x9
	lsr	x10, x9, #2
	add	x10, x10, x10, lsl #2
	adds	x24, x10, x13
	adc	x23, x8, x12
	adcs	xzr, x11, xzr
	and	x8, x9, #0x3
	cinc	x25, x8, hs
Lnoise_BB2_2:
	lsr	x8, x25, #2
	add	x8, x8, x8, lsl #2
	add	x8, x8, #5
	cmn	x8, x24
	adcs	xzr, x23, xzr
	cinc	x8, x25, hs
	lsr	x8, x8, #2
	add	x8, x8, x8, lsl #2
	adds	x9, x24, x22
	adc	x10, x23, x21
	adds	x8, x9, x8
	cinc	x9, x10, hs
	lsr	x10, x9, #8
	lsr	x11, x8, #8
	lsr	x12, x9, #24
	lsr	x13, x9, #16
	lsr	x14, x8, #24
	extr	x15, x9, x8, #56
	lsr	x16, x8, #16
	extr	x17, x9, x8, #48
	extr	x0, x9, x8, #40
	lsr	x1, x9, #56
	lsr	x2, x9, #40
	lsr	x3, x9, #32
	lsr	x4, x8, #32
	fmov	s0, w8
	mov.b	v0[1], w11
	mov.b	v0[2], w16
	mov.b	v0[3], w14
	mov.b	v0[4], w4
	mov.b	v0[5], w0
	mov.b	v0[6], w17
	mov.b	v0[7], w15
	mov.b	v0[8], w9
	mov.b	v0[9], w10
	mov.b	v0[10], w13
	mov.b	v0[11], w12
	mov.b	v0[12], w3
	mov.b	v0[13], w2
	lsr	x8, x9, #48
	mov.b	v0[14], w8
	mov.b	v0[15], w1
	str	q0, [x19]
	.cfi_def_cfa wsp, 272
	ldp	x29, x30, [sp, #256]
	ldp	x20, x19, [sp, #240]
	ldp	x22, x21, [sp, #224]
	ldp	x24, x23, [sp, #208]
	ldp	x26, x25, [sp, #192]
	ldp	x28, x27, [sp, #176]
	add	sp, sp, #272
	.cfi_def_cfa_offset 0
	.cfi_restore w30
	.cfi_restore w29
	.cfi_restore w19
	.cfi_restore w20
	.cfi_restore w21
	.cfi_restore w22
	.cfi_restore w23
	.cfi_restore w24
	.cfi_restore w25
	.cfi_restore w26
	.cfi_restore w27
	.cfi_restore w28
	ret
	.loh AdrpAdd	Lnoise_loh4, Lnoise_loh5
	.cfi_endproc

	.p2align	2
"_noise_poly::Poly1305::update":
	.cfi_startproc
	stp	x22, x21, [sp, #-48]!
	.cfi_def_cfa_offset 48
	stp	x20, x19, [sp, #16]
	stp	x29, x30, [sp, #32]
	add	x29, sp, #32
	.cfi_def_cfa w29, 16
	.cfi_offset w30, -8
	.cfi_offset w29, -16
	.cfi_offset w19, -24
	.cfi_offset w20, -32
	.cfi_offset w21, -40
	.cfi_offset w22, -48
	.cfi_remember_state
	cbz	x2, Lnoise_BB3_18
	ldr	x21, [x0, #80]
	cbz	x21, Lnoise_BB3_9
	mov	w8, #16
	sub	x20, x8, x21
	subs	x19, x2, x20
	b.hs	Lnoise_BB3_10
	add	x8, x0, x21
	add	x8, x8, #64
	sub	x9, x8, x1
	cmp	x9, x2
	b.hs	Lnoise_BB3_16
	cmp	x2, #7
	b.ls	Lnoise_BB3_6
	add	x8, x21, x0
	sub	x8, x8, x1
	add	x8, x8, #64
	cmp	x8, #32
	b.hs	Lnoise_BB3_22
Lnoise_BB3_6:
	mov	x8, #0
Lnoise_BB3_7:
	sub	x9, x2, x8
	add	x10, x1, x8
	add	x8, x8, x21
	add	x8, x8, x0
	add	x8, x8, #64
Lnoise_BB3_8:
	ldrb	w11, [x10], #1
	strb	w11, [x8], #1
	subs	x9, x9, #1
	b.ne	Lnoise_BB3_8
	b	Lnoise_BB3_17
Lnoise_BB3_9:
	.cfi_def_cfa wsp, 48
	b	Lnoise_BB3_21
Lnoise_BB3_10:
	.cfi_restore_state
	.cfi_remember_state
	add	x9, x0, #64
	add	x8, x9, x21
	sub	x10, x8, x1
	cmp	x10, x20
	b.hs	Lnoise_BB3_19
	cmp	x20, #7
	b.ls	Lnoise_BB3_13
	add	x8, x21, x0
	sub	x8, x8, x1
	add	x8, x8, #64
	cmp	x8, #32
	b.hs	Lnoise_BB3_24
Lnoise_BB3_13:
	mov	x8, #0
Lnoise_BB3_14:
	add	x10, x8, x21
	add	x8, x1, x8
Lnoise_BB3_15:
	ldrb	w11, [x8], #1
	strb	w11, [x9, x10]
	add	x10, x10, #1
	cmp	x10, #16
	b.ne	Lnoise_BB3_15
	b	Lnoise_BB3_20
Lnoise_BB3_16:
	mov	x20, x0
	mov	x0, x8
	mov	x19, x2
	bl	_memmove
	mov	x2, x19
	mov	x0, x20
Lnoise_BB3_17:
	add	x8, x21, x2
	str	x8, [x0, #80]
Lnoise_BB3_18:
	.cfi_def_cfa wsp, 48
	ldp	x29, x30, [sp, #32]
	ldp	x20, x19, [sp, #16]
	ldp	x22, x21, [sp], #48
	.cfi_def_cfa_offset 0
	.cfi_restore w30
	.cfi_restore w29
	.cfi_restore w19
	.cfi_restore w20
	.cfi_restore w21
	.cfi_restore w22
	ret
Lnoise_BB3_19:
	.cfi_restore_state
	.cfi_remember_state
	mov	x22, x0
	mov	x0, x8
	mov	x21, x1
	mov	x2, x20
	bl	_memmove
	mov	x1, x21
	mov	x0, x22
Lnoise_BB3_20:
	ldp	x9, x8, [x0]
	ldr	x10, [x0, #16]
	ldp	x12, x11, [x0, #64]
	ldp	x13, x14, [x0, #32]
	adds	x9, x9, x12
	adcs	x8, x8, x11
	mov	w11, #1
	adc	x10, x10, x11
	add	x11, x14, x14, lsr #2
	umulh	x12, x9, x13
	mul	x15, x9, x13
	umulh	x16, x8, x11
	mul	x17, x8, x11
	adds	x15, x17, x15
	adc	x12, x16, x12
	umulh	x16, x9, x14
	mul	x9, x9, x14
	umulh	x14, x8, x13
	mul	x8, x8, x13
	adds	x8, x9, x8
	adc	x9, x16, x14
	mul	x11, x10, x11
	adds	x8, x8, x11
	cinc	x9, x9, hs
	mul	x10, x10, x13
	adds	x11, x8, x12
	adc	x9, x10, x9
	lsr	x10, x9, #2
	add	x10, x10, x10, lsl #2
	adds	x10, x10, x15
	adc	x8, x8, x12
	adcs	xzr, x11, xzr
	and	x9, x9, #0x3
	cinc	x9, x9, hs
	stp	x10, x8, [x0]
	stp	x9, xzr, [x0, #16]
	str	xzr, [x0, #80]
	add	x1, x1, x20
	mov	x2, x19
	.cfi_def_cfa wsp, 48
Lnoise_BB3_21:
	ldp	x29, x30, [sp, #32]
	ldp	x20, x19, [sp, #16]
	ldp	x22, x21, [sp], #48
	.cfi_def_cfa_offset 0
	.cfi_restore w30
	.cfi_restore w29
	.cfi_restore w19
	.cfi_restore w20
	.cfi_restore w21
	.cfi_restore w22
	b	"_noise_poly::Poly1305::take_aligned"
Lnoise_BB3_22:
	.cfi_restore_state
	cmp	x2, #32
	b.hs	Lnoise_BB3_26
	mov	x8, #0
	b	Lnoise_BB3_30
Lnoise_BB3_24:
	cmp	x20, #32
	b.hs	Lnoise_BB3_33
	mov	x8, #0
	b	Lnoise_BB3_37
Lnoise_BB3_26:
	and	x9, x2, #0x18
	and	x8, x2, #0xffffffffffffffe0
	add	x10, x1, #16
	add	x11, x21, x0
	add	x11, x11, #80
	and	x12, x2, #0xffffffffffffffe0
Lnoise_BB3_27:
	ldp	q0, q1, [x10, #-16]
	stp	q0, q1, [x11, #-16]
	add	x10, x10, #32
	add	x11, x11, #32
	subs	x12, x12, #32
	b.ne	Lnoise_BB3_27
	cmp	x2, x8
	b.eq	Lnoise_BB3_17
	cbz	x9, Lnoise_BB3_7
Lnoise_BB3_30:
	mov	x11, x8
	and	x8, x2, #0xfffffffffffffff8
	sub	x9, x11, x8
	add	x10, x1, x11
	add	x11, x11, x21
	add	x11, x11, x0
	add	x11, x11, #64
Lnoise_BB3_31:
	ldr	d0, [x10], #8
	str	d0, [x11], #8
	adds	x9, x9, #8
	b.ne	Lnoise_BB3_31
	cmp	x2, x8
	b.ne	Lnoise_BB3_7
	b	Lnoise_BB3_17
Lnoise_BB3_33:
	and	x10, x20, #0x18
	and	x8, x20, #0xffffffffffffffe0
	add	x11, x1, #16
	add	x12, x21, x0
	add	x12, x12, #80
	and	x13, x20, #0xffffffffffffffe0
Lnoise_BB3_34:
	ldp	q0, q1, [x11, #-16]
	stp	q0, q1, [x12, #-16]
	add	x11, x11, #32
	add	x12, x12, #32
	subs	x13, x13, #32
	b.ne	Lnoise_BB3_34
	cmp	x20, x8
	b.eq	Lnoise_BB3_20
	cbz	x10, Lnoise_BB3_14
Lnoise_BB3_37:
	mov	x12, x8
	and	x8, x20, #0xfffffffffffffff8
	sub	x10, x12, x8
	add	x11, x1, x12
	add	x12, x12, x21
	add	x12, x12, x0
	add	x12, x12, #64
Lnoise_BB3_38:
	ldr	d0, [x11], #8
	str	d0, [x12], #8
	adds	x10, x10, #8
	b.ne	Lnoise_BB3_38
	cmp	x20, x8
	b.ne	Lnoise_BB3_14
	b	Lnoise_BB3_20
	.cfi_endproc

	.p2align	2
"_noise_poly::Poly1305::take_aligned":
	.cfi_startproc
	cmp	x2, #1023
	b.hi	Lnoise_BB4_3
	stp	x22, x21, [sp, #-48]!
	.cfi_def_cfa_offset 48
	stp	x20, x19, [sp, #16]
	stp	x29, x30, [sp, #32]
	add	x29, sp, #32
	.cfi_def_cfa w29, 16
	.cfi_offset w30, -8
	.cfi_offset w29, -16
	.cfi_offset w19, -24
	.cfi_offset w20, -32
	.cfi_offset w21, -40
	.cfi_offset w22, -48
	.cfi_remember_state
	ldp	x9, x8, [x0]
	ldr	x10, [x0, #16]
	cmp	x2, #16
	b.hs	Lnoise_BB4_5
	ldr	x11, [x0, #24]
	b	Lnoise_BB4_8
Lnoise_BB4_3:
	.cfi_def_cfa wsp, 0
	.cfi_same_value w30
	.cfi_same_value w29
	.cfi_same_value w19
	.cfi_same_value w20
	.cfi_same_value w21
	.cfi_same_value w22
	lsr	x8, x2, #16
	cbnz	x8, Lnoise_BB4_14
	b	"_noise_poly::Poly1305::take_fours"
Lnoise_BB4_5:
	.cfi_restore_state
	.cfi_remember_state
	ldp	x11, x12, [x0, #32]
	add	x13, x12, x12, lsr #2
Lnoise_BB4_6:
	ldp	x15, x14, [x1], #16
	adds	x9, x15, x9
	adcs	x8, x14, x8
	mov	w14, #1
	adc	x10, x10, x14
	umulh	x14, x9, x11
	mul	x15, x9, x11
	umulh	x16, x8, x13
	mul	x17, x8, x13
	adds	x15, x15, x17
	adc	x14, x14, x16
	umulh	x16, x9, x12
	mul	x9, x9, x12
	umulh	x17, x8, x11
	mul	x8, x8, x11
	adds	x8, x9, x8
	adc	x9, x16, x17
	mul	x16, x10, x13
	adds	x8, x8, x16
	cinc	x9, x9, hs
	mul	x10, x10, x11
	adds	x16, x8, x14
	adc	x10, x10, x9
	lsr	x9, x10, #2
	add	x9, x9, x9, lsl #2
	adds	x9, x9, x15
	adc	x8, x8, x14
	adcs	xzr, x16, xzr
	and	x10, x10, #0x3
	cinc	x10, x10, hs
	sub	x2, x2, #16
	cmp	x2, #15
	b.hi	Lnoise_BB4_6
	mov	x11, #0
Lnoise_BB4_8:
	stp	x9, x8, [x0]
	stp	x10, x11, [x0, #16]
	ldr	x20, [x0, #80]
	add	x8, x0, x20
	add	x8, x8, #64
	sub	x9, x8, x1
	cmp	x9, x2
	b.hs	Lnoise_BB4_15
	cmp	x2, #7
	b.ls	Lnoise_BB4_11
	add	x9, x20, x0
	sub	x9, x9, x1
	add	x9, x9, #64
	cmp	x9, #32
	b.hs	Lnoise_BB4_17
Lnoise_BB4_11:
	mov	x9, #0
Lnoise_BB4_12:
	sub	x8, x2, x9
	add	x10, x1, x9
	add	x9, x9, x20
	add	x9, x9, x0
	add	x9, x9, #64
Lnoise_BB4_13:
	ldrb	w11, [x10], #1
	strb	w11, [x9], #1
	subs	x8, x8, #1
	b.ne	Lnoise_BB4_13
	b	Lnoise_BB4_16
Lnoise_BB4_14:
	.cfi_def_cfa wsp, 0
	.cfi_same_value w30
	.cfi_same_value w29
	.cfi_same_value w19
	.cfi_same_value w20
	.cfi_same_value w21
	.cfi_same_value w22
	b	"_noise_poly::Poly1305::take_eights"
Lnoise_BB4_15:
	.cfi_restore_state
	.cfi_remember_state
	mov	x21, x0
	mov	x0, x8
	mov	x19, x2
	bl	_memmove
	mov	x0, x21
	mov	x2, x19
Lnoise_BB4_16:
	add	x8, x20, x2
	str	x8, [x0, #80]
	.cfi_def_cfa wsp, 48
	ldp	x29, x30, [sp, #32]
	ldp	x20, x19, [sp, #16]
	ldp	x22, x21, [sp], #48
	.cfi_def_cfa_offset 0
	.cfi_restore w30
	.cfi_restore w29
	.cfi_restore w19
	.cfi_restore w20
	.cfi_restore w21
	.cfi_restore w22
	ret
Lnoise_BB4_17:
	.cfi_restore_state
	and	x9, x2, #0x8
	mov	x10, x1
	and	x11, x2, #0x8
Lnoise_BB4_18:
	ldr	d0, [x10], #8
	str	d0, [x8], #8
	subs	x11, x11, #8
	b.ne	Lnoise_BB4_18
	cmp	x2, x9
	b.ne	Lnoise_BB4_12
	b	Lnoise_BB4_16
	.cfi_endproc

	.section	__TEXT,__literal16,16byte_literals
	.p2align	4, 0x0
lnoise_CPI5_0:
	.long	67108863
	.long	0
	.long	67108863
	.long	0
lnoise_CPI5_1:
	.quad	0
	.quad	-26
	.section	__TEXT,__text,regular,pure_instructions
	.p2align	2
"_noise_poly::Poly1305::take_fours":
	.cfi_startproc
	sub	sp, sp, #400
	.cfi_def_cfa_offset 400
	stp	d15, d14, [sp, #240]
	stp	d13, d12, [sp, #256]
	stp	d11, d10, [sp, #272]
	stp	d9, d8, [sp, #288]
	stp	x28, x27, [sp, #304]
	stp	x26, x25, [sp, #320]
	stp	x24, x23, [sp, #336]
	stp	x22, x21, [sp, #352]
	stp	x20, x19, [sp, #368]
	stp	x29, x30, [sp, #384]
	add	x29, sp, #384
	.cfi_def_cfa w29, 16
	.cfi_offset w30, -8
	.cfi_offset w29, -16
	.cfi_offset w19, -24
	.cfi_offset w20, -32
	.cfi_offset w21, -40
	.cfi_offset w22, -48
	.cfi_offset w23, -56
	.cfi_offset w24, -64
	.cfi_offset w25, -72
	.cfi_offset w26, -80
	.cfi_offset w27, -88
	.cfi_offset w28, -96
	.cfi_offset b8, -104
	.cfi_offset b9, -112
	.cfi_offset b10, -120
	.cfi_offset b11, -128
	.cfi_offset b12, -136
	.cfi_offset b13, -144
	.cfi_offset b14, -152
	.cfi_offset b15, -160
	.cfi_remember_state
	mov	x19, x0
	ldp	x9, x8, [x0, #32]
	and	w17, w9, #0x3ffffff
	ubfx	x12, x9, #26, #26
	extr	x10, x8, x9, #52
	and	w0, w10, #0x3ffffff
	ubfx	x14, x8, #14, #26
	lsr	x15, x8, #40
	add	w16, w12, w12, lsl #2
	add	w13, w0, w0, lsl #2
	add	w11, w14, w14, lsl #2
	add	w10, w15, w15, lsl #2
	umull	x3, w12, w10
	umaddl	x3, w17, w17, x3
	umaddl	x3, w11, w0, x3
	umaddl	x3, w13, w14, x3
	str	w16, [sp, #84]
	umaddl	x3, w15, w16, x3
	ubfiz	x4, x17, #1, #32
	umull	x5, w4, w12
	umaddl	x5, w0, w10, x5
	umaddl	x5, w11, w14, x5
	umaddl	x5, w15, w13, x5
	umull	x4, w4, w0
	umaddl	x4, w12, w12, x4
	umaddl	x4, w14, w10, x4
	umaddl	x4, w15, w11, x4
	umull	x6, w12, w0
	umaddl	x6, w14, w17, x6
	lsl	x6, x6, #1
	umaddl	x6, w15, w10, x6
	and	x7, x3, #0x3ffffff
	and	x20, x6, #0x3ffffff
	lsr	x6, x6, #26
	add	x3, x5, x3, lsr #26
	and	w5, w3, #0x3ffffff
	umull	x21, w15, w17
	umaddl	x21, w12, w14, x21
	umaddl	x6, w0, w0, x6
	add	x6, x6, x21, lsl #1
	and	w21, w6, #0x3ffffff
	lsr	x6, x6, #26
	add	x23, x4, x3, lsr #26
	and	w3, w23, #0x3ffffff
	add	x4, x6, x6, lsl #2
	add	x7, x4, x7
	add	x25, x20, x23, lsr #26
	and	w6, w25, #0x3ffffff
	add	x20, x5, x7, lsr #26
	add	x21, x21, x25, lsr #26
	add	w22, w3, w3, lsl #2
	add	w4, w6, w6, lsl #2
	add	w5, w21, w21, lsl #2
	and	x24, x7, #0x3ffffff
	umull	x26, w24, w24
	and	x23, x23, #0x3ffffff
	mov	w27, #67108863
	dup.2d	v24, x27
	and	x25, x25, #0x3ffffff
	umaddl	x26, w25, w22, x26
	umaddl	x26, w23, w4, x26
	umull	x27, w24, w20
	lsl	x27, x27, #1
	ldp	x30, x28, [x19]
	and	x16, x30, #0x3ffffff
	movi.2d	v0, #0000000000000000
	mov.d	v0[0], x16
	ubfx	x16, x30, #26, #26
	movi.2d	v1, #0000000000000000
	mov.d	v1[0], x16
	umull	x16, w23, w24
	extr	x30, x28, x30, #52
	and	x30, x30, #0x3ffffff
	movi.2d	v17, #0000000000000000
	mov.d	v17[0], x30
	ldur	w30, [x19, #13]
	movi.2d	v2, #0000000000000000
	ubfx	x28, x28, #14, #26
	mov.d	v2[0], x28
	mov	w28, #16777216
	add	x30, x30, x28
	dup.2d	v27, x28
	mov.d	v27[0], x30
	umull	x28, w25, w24
	umaddl	x28, w23, w20, x28
	lsl	x28, x28, #1
	umaddl	x28, w5, w21, x28
	umull	x30, w25, w20
	umaddl	x24, w24, w21, x30
	lsr	x30, x28, #26
	umaddl	x27, w25, w4, x27
	umaddl	x27, w21, w22, x27
	umaddl	x27, w23, w5, x27
	umaddl	x23, w23, w23, x30
	add	x24, x23, x24, lsl #1
	add	w23, w20, w20, lsl #2
	umaddl	x26, w21, w23, x26
	umaddl	x26, w5, w20, x26
	lsl	x16, x16, #1
	umaddl	x16, w20, w20, x16
	and	x28, x28, #0x3ffffff
	add	x27, x27, x26, lsr #26
	umaddl	x16, w21, w4, x16
	umaddl	x16, w25, w5, x16
	and	w25, w24, #0x3ffffff
	add	x16, x16, x27, lsr #26
	add	x28, x28, x16, lsr #26
	and	w16, w16, #0x3ffffff
	add	x25, x25, x28, lsr #26
	and	w28, w28, #0x3ffffff
	stp	w16, w28, [sp, #96]
	stp	w16, w28, [sp, #132]
	stp	w16, w28, [sp, #168]
	stp	w16, w28, [sp, #204]
	add	w16, w16, w16, lsl #2
	add	w28, w28, w28, lsl #2
	str	w16, [sp, #112]
	str	w16, [sp, #148]
	str	w16, [sp, #184]
	str	w16, [sp, #220]
	and	x16, x26, #0x3ffffff
	lsr	x24, x24, #26
	add	x24, x24, x24, lsl #2
	add	x16, x24, x16
	and	w24, w27, #0x3ffffff
	add	x24, x24, x16, lsr #26
	str	w24, [sp, #128]
	str	w24, [sp, #200]
	str	w24, [sp, #92]
	str	w24, [sp, #164]
	add	w24, w24, w24, lsl #2
	stp	w25, w24, [sp, #140]
	stp	w25, w24, [sp, #212]
	stp	w25, w24, [sp, #176]
	stp	w25, w24, [sp, #104]
	add	w24, w25, w25, lsl #2
	stp	w28, w24, [sp, #116]
	stp	w28, w24, [sp, #152]
	stp	w28, w24, [sp, #188]
	stp	w28, w24, [sp, #224]
	and	w7, w7, #0x3ffffff
	dup.4s	v5, w7
	dup.4s	v26, w20
	dup.4s	v23, w3
	dup.4s	v25, w6
	dup.4s	v4, w21
	dup.4s	v28, w23
	dup.4s	v6, w22
	and	w16, w16, #0x3ffffff
	str	w16, [sp, #88]
	str	w16, [sp, #160]
	str	w16, [sp, #196]
	str	w16, [sp, #124]
	dup.4s	v7, w4
	dup.4s	v16, w5
	mov	w16, #2147483647
	dup.2d	v21, x16
	mov	w16, #536870911
	dup.2d	v20, x16
	ldp	q22, q18, [x1]
	zip2.2d	v19, v22, v18
	mov.d	v22[1], v18[0]
	and.16b	v3, v22, v24
	add.2d	v30, v3, v0
	ushr.2d	v0, v22, #26
	and.16b	v0, v0, v24
	add.2d	v3, v0, v1
	shl.2d	v0, v19, #12
	usra.2d	v0, v22, #52
	and.16b	v0, v0, v24
	add.2d	v0, v0, v17
	ushr.2d	v1, v19, #14
	and.16b	v1, v1, v24
	add	x3, x1, #32
	add.2d	v1, v1, v2
	usra.2d	v27, v19, #40
	and.16b	v17, v5, v24
	and.16b	v18, v16, v21
	and.16b	v19, v7, v20
	and.16b	v20, v6, v20
	stp	q28, q26, [sp]
	and.16b	v21, v28, v21
	movi.2d	v2, #0x000000ffffffff
	and.16b	v22, v26, v2
	stp	q23, q25, [sp, #32]
	and.16b	v23, v23, v24
	and.16b	v24, v25, v24
	str	q4, [sp, #64]
	and.16b	v25, v4, v2
	add	x2, x2, #32
Lnoise_BB5_1:
	mov	x1, x2
	sub	x2, x2, #64
	ubfx	x16, x2, #6, #2
	mov	w4, #36
	add	x5, sp, #88
	umaddl	x5, w16, w4, x5
	usra.2d	v3, v30, #26
	usra.2d	v27, v1, #26
	usra.2d	v0, v3, #26
	mov	w16, #67108863
	dup.2d	v26, x16
	and.16b	v2, v30, v26
	ushr.2d	v28, v27, #26
	usra.2d	v2, v27, #26
	shl.2d	v28, v28, #2
	add.2d	v2, v2, v28
	and.16b	v28, v1, v26
	usra.2d	v28, v0, #26
	bic.4s	v3, #252, lsl #24
	ushr.2d	v1, v2, #26
	add.4s	v1, v3, v1
	bic.4s	v27, #252, lsl #24
	ushr.2d	v3, v28, #26
	add.4s	v27, v27, v3
	add	x16, x5, #8
	add	x6, x5, #12
	add	x4, x5, #16
	add	x7, x5, #20
	add	x20, x5, #24
	add	x21, x5, #28
	add	x22, x5, #32
	bic.4s	v2, #252, lsl #24
	ext.16b	v3, v2, v2, #8
	zip1.2s	v30, v2, v3
	ld1r.2s	{ v14 }, [x5], #4
	ext.16b	v2, v1, v1, #8
	zip1.2s	v31, v1, v2
	ld1r.2s	{ v8 }, [x22]
	bic.4s	v0, #252, lsl #24
	ext.16b	v1, v0, v0, #8
	zip1.2s	v9, v0, v1
	ld1r.2s	{ v3 }, [x21]
	bic.4s	v28, #252, lsl #24
	ext.16b	v0, v28, v28, #8
	ld1r.2s	{ v1 }, [x20]
	zip1.2s	v13, v28, v0
	ext.16b	v0, v27, v27, #8
	zip1.2s	v10, v27, v0
	ld1r.2s	{ v0 }, [x7]
	umull.2d	v27, v0, v10
	ld1r.2s	{ v0 }, [x5]
	umull.2d	v28, v0, v30
	ld1r.2s	{ v11 }, [x16]
	umull.2d	v29, v0, v31
	ldp	q2, q12, [x3]
	zip2.2d	v15, v2, v12
	mov.d	v2[1], v12[0]
	ld1r.2s	{ v12 }, [x6]
	umlal.2d	v27, v14, v30
	umlal.2d	v27, v1, v13
	umlal.2d	v28, v14, v31
	umlal.2d	v28, v1, v10
	umull.2d	v1, v0, v9
	umlal.2d	v27, v3, v9
	umlal.2d	v28, v3, v13
	umlal.2d	v29, v14, v9
	umlal.2d	v29, v11, v30
	umlal.2d	v29, v3, v10
	ld1r.2s	{ v3 }, [x4]
	umlal.2d	v1, v14, v13
	umull.2d	v14, v14, v10
	umlal.2d	v14, v0, v13
	and.16b	v0, v2, v26
	xtn.2s	v4, v0
	umlal.2d	v29, v8, v13
	shl.2d	v13, v15, #12
	usra.2d	v13, v2, #52
	ushr.2d	v0, v2, #26
	and.16b	v0, v0, v26
	xtn.2s	v0, v0
	and.16b	v2, v13, v26
	xtn.2s	v13, v2
	mov	w16, #16777216
	umlal.2d	v28, v8, v9
	umlal.2d	v14, v11, v9
	dup.2d	v2, x16
	umlal.2d	v1, v11, v31
	mov.16b	v9, v2
	usra.2d	v9, v15, #40
	ushr.2d	v11, v15, #14
	and.16b	v11, v11, v26
	xtn.2s	v11, v11
	xtn.2s	v9, v9
	umlal.2d	v1, v12, v30
	umlal.2d	v1, v8, v10
	xtn.2s	v10, v17
	umlal.2d	v27, v8, v31
	xtn.2s	v8, v19
	umlal.2d	v14, v12, v31
	xtn.2s	v31, v20
	umlal.2d	v14, v3, v30
	ldp	q3, q30, [x3, #32]
	zip2.2d	v12, v3, v30
	mov.d	v3[1], v30[0]
	xtn.2s	v30, v21
	umlal.2d	v27, v4, v10
	umlal.2d	v27, v9, v30
	xtn.2s	v30, v22
	umlal.2d	v27, v11, v31
	umlal.2d	v28, v4, v30
	umlal.2d	v28, v0, v10
	umlal.2d	v28, v9, v31
	xtn.2s	v31, v23
	umlal.2d	v27, v13, v8
	umlal.2d	v28, v11, v8
	umlal.2d	v29, v4, v31
	umlal.2d	v29, v13, v10
	umlal.2d	v29, v0, v30
	umlal.2d	v29, v9, v8
	xtn.2s	v8, v25
	umlal.2d	v14, v4, v8
	xtn.2s	v8, v24
	umlal.2d	v1, v4, v8
	umlal.2d	v1, v11, v10
	umlal.2d	v14, v9, v10
	xtn.2s	v4, v18
	umlal.2d	v29, v11, v4
	umlal.2d	v14, v11, v30
	umlal.2d	v1, v13, v30
	umlal.2d	v28, v13, v4
	umlal.2d	v14, v13, v31
	umlal.2d	v1, v0, v31
	umlal.2d	v1, v9, v4
	umlal.2d	v27, v0, v4
	and.16b	v4, v3, v26
	umlal.2d	v14, v0, v8
	ushr.2d	v0, v3, #26
	and.16b	v0, v0, v26
	shl.2d	v30, v12, #12
	usra.2d	v30, v3, #52
	and.16b	v31, v30, v26
	ushr.2d	v3, v12, #14
	and.16b	v26, v3, v26
	add.2d	v30, v27, v4
	add.2d	v3, v28, v0
	add.2d	v0, v29, v31
	add.2d	v1, v1, v26
	usra.2d	v14, v12, #40
	add.2d	v27, v14, v2
	sub	x16, x1, #128
	add	x1, x3, #64
	mov	x3, x1
	cmp	x16, #63
	b.hi	Lnoise_BB5_1
	usra.2d	v3, v30, #26
	usra.2d	v27, v1, #26
	mov	w16, #67108863
	dup.2d	v4, x16
	usra.2d	v0, v3, #26
	and.16b	v2, v30, v4
	ushr.2d	v17, v27, #26
	usra.2d	v2, v27, #26
	shl.2d	v17, v17, #2
	add.2d	v2, v2, v17
	and.16b	v17, v1, v4
	usra.2d	v17, v0, #26
	and.16b	v1, v2, v4
	xtn.2s	v1, v1
Lnoise_loh6:
	adrp	x16, lnoise_CPI5_0@PAGE
Lnoise_loh7:
	ldr	q18, [x16, lnoise_CPI5_0@PAGEOFF]
	and.16b	v3, v3, v18
	ushr.2d	v2, v2, #26
	add.4s	v3, v3, v2
	and.16b	v0, v0, v4
	xtn.2s	v2, v0
	and.16b	v0, v17, v4
	xtn.2s	v0, v0
	and.16b	v4, v27, v18
	ushr.2d	v17, v17, #26
	add.4s	v4, v4, v17
	mov.s	v5[2], w17
	ldp	q19, q22, [sp, #16]
	mov.s	v19[2], w12
	mov.s	v22[2], w0
	ldp	q20, q21, [sp, #48]
	mov.s	v20[2], w14
	mov.s	v21[2], w15
	ldr	w12, [sp, #84]
	ldr	q18, [sp]
	mov.s	v18[2], w12
	mov.s	v6[2], w13
	mov.s	v7[2], w11
	mov.s	v16[2], w10
	xtn.2s	v5, v5
	xtn.2s	v3, v3
	xtn.2s	v16, v16
	xtn.2s	v7, v7
	umull.2d	v17, v2, v7
	xtn.2s	v6, v6
	xtn.2s	v4, v4
	xtn.2s	v18, v18
	umlal.2d	v17, v1, v5
	umlal.2d	v17, v0, v6
	umlal.2d	v17, v3, v16
	umlal.2d	v17, v4, v18
	xtn.2s	v18, v19
	umull.2d	v19, v2, v16
	umlal.2d	v19, v1, v18
	umlal.2d	v19, v0, v7
	umlal.2d	v19, v3, v5
	umlal.2d	v19, v4, v6
	addp.2d	v6, v19, v17
	xtn.2s	v17, v22
	umull.2d	v19, v2, v5
	umlal.2d	v19, v1, v17
	umlal.2d	v19, v0, v16
	umlal.2d	v19, v3, v18
	umlal.2d	v19, v4, v7
	xtn.2s	v7, v20
	umull.2d	v20, v2, v18
	umlal.2d	v20, v1, v7
	umlal.2d	v20, v0, v5
	umlal.2d	v20, v3, v17
	umlal.2d	v20, v4, v16
	xtn.2s	v16, v21
	umull.2d	v2, v2, v17
	umlal.2d	v2, v1, v16
	umlal.2d	v2, v0, v18
	umlal.2d	v2, v3, v7
	umlal.2d	v2, v4, v5
	addp.2d	v0, v2, v20
	mov.d	x10, v6[1]
	and	x10, x10, #0x3ffffff
	mov.d	x11, v0[1]
	and	x12, x11, #0x3ffffff
	zip2.2d	v1, v19, v6
Lnoise_loh8:
	adrp	x13, lnoise_CPI5_1@PAGE
Lnoise_loh9:
	ldr	q2, [x13, lnoise_CPI5_1@PAGEOFF]
	ushl.2d	v1, v1, v2
	zip1.2d	v2, v19, v6
	add.2d	v1, v2, v1
	mov.d	x13, v1[1]
	and	w14, w13, #0x3ffffff
	fmov	x15, d0
	add	x11, x15, x11, lsr #26
	and	w15, w11, #0x3ffffff
	lsr	x11, x11, #26
	fmov	x16, d1
	add	x13, x16, x13, lsr #26
	add	x11, x11, x11, lsl #2
	add	x10, x11, x10
	add	x11, x12, x13, lsr #26
	add	x12, x14, x10, lsr #26
	add	x14, x15, x11, lsr #26
	and	x10, x10, #0x3ffffff
	mov	w12, w12
	ubfx	x15, x13, #12, #14
	ubfiz	x11, x11, #14, #26
	orr	x10, x10, x13, lsl #52
	adds	x10, x10, x12, lsl #26
	adc	x11, x11, x15
	adds	x11, x11, x14, lsl #40
	lsr	w12, w14, #24
	cinc	x12, x12, hs
	lsr	x13, x12, #2
	add	x13, x13, x13, lsl #2
	adds	x10, x10, x13
	adcs	x11, x11, xzr
	and	x12, x12, #0x3
	stp	x10, x11, [x19]
	cinc	x13, x12, hs
	stp	x13, xzr, [x19, #16]
	sub	x20, x2, #64
	cmp	x2, #80
	b.lo	Lnoise_BB5_5
	add	x12, x8, x8, lsr #2
Lnoise_BB5_4:
	ldp	x15, x14, [x1], #16
	adds	x10, x15, x10
	adcs	x11, x14, x11
	mov	w14, #1
	adc	x13, x13, x14
	umulh	x14, x10, x9
	mul	x15, x10, x9
	umulh	x16, x11, x12
	mul	x17, x11, x12
	adds	x15, x15, x17
	adc	x14, x14, x16
	umulh	x16, x10, x8
	mul	x10, x10, x8
	umulh	x17, x11, x9
	mul	x11, x11, x9
	adds	x10, x10, x11
	adc	x11, x16, x17
	mul	x16, x13, x12
	adds	x16, x10, x16
	cinc	x10, x11, hs
	mul	x11, x13, x9
	adds	x13, x16, x14
	adc	x17, x11, x10
	lsr	x10, x17, #2
	add	x10, x10, x10, lsl #2
	adds	x10, x10, x15
	adc	x11, x16, x14
	adcs	xzr, x13, xzr
	and	x13, x17, #0x3
	cinc	x13, x13, hs
	sub	x20, x20, #16
	cmp	x20, #15
	b.hi	Lnoise_BB5_4
Lnoise_BB5_5:
	stp	x10, x11, [x19]
	stp	x13, xzr, [x19, #16]
	ldr	x21, [x19, #80]
	add	x8, x19, x21
	add	x0, x8, #64
	sub	x8, x0, x1
	cmp	x8, x20
	b.hs	Lnoise_BB5_11
	cmp	x20, #7
	b.ls	Lnoise_BB5_8
	add	x8, x21, x19
	sub	x8, x8, x1
	add	x8, x8, #64
	cmp	x8, #32
	b.hs	Lnoise_BB5_13
Lnoise_BB5_8:
	mov	x8, #0
Lnoise_BB5_9:
	sub	x9, x20, x8
	add	x10, x1, x8
	add	x8, x8, x21
	add	x8, x8, x19
	add	x8, x8, #64
Lnoise_BB5_10:
	ldrb	w11, [x10], #1
	strb	w11, [x8], #1
	subs	x9, x9, #1
	b.ne	Lnoise_BB5_10
	b	Lnoise_BB5_12
Lnoise_BB5_11:
	mov	x2, x20
	bl	_memmove
Lnoise_BB5_12:
	add	x8, x21, x20
	str	x8, [x19, #80]
	.cfi_def_cfa wsp, 400
	ldp	x29, x30, [sp, #384]
	ldp	x20, x19, [sp, #368]
	ldp	x22, x21, [sp, #352]
	ldp	x24, x23, [sp, #336]
	ldp	x26, x25, [sp, #320]
	ldp	x28, x27, [sp, #304]
	ldp	d9, d8, [sp, #288]
	ldp	d11, d10, [sp, #272]
	ldp	d13, d12, [sp, #256]
	ldp	d15, d14, [sp, #240]
	add	sp, sp, #400
	.cfi_def_cfa_offset 0
	.cfi_restore w30
	.cfi_restore w29
	.cfi_restore w19
	.cfi_restore w20
	.cfi_restore w21
	.cfi_restore w22
	.cfi_restore w23
	.cfi_restore w24
	.cfi_restore w25
	.cfi_restore w26
	.cfi_restore w27
	.cfi_restore w28
	.cfi_restore b8
	.cfi_restore b9
	.cfi_restore b10
	.cfi_restore b11
	.cfi_restore b12
	.cfi_restore b13
	.cfi_restore b14
	.cfi_restore b15
	ret
Lnoise_BB5_13:
	.cfi_restore_state
	cmp	x20, #32
	b.hs	Lnoise_BB5_15
	mov	x8, #0
	b	Lnoise_BB5_19
Lnoise_BB5_15:
	and	x9, x20, #0x18
	and	x8, x20, #0x20
	add	x10, x1, #16
	add	x11, x21, x19
	add	x11, x11, #80
	and	x12, x20, #0x20
Lnoise_BB5_16:
	ldp	q0, q1, [x10, #-16]
	stp	q0, q1, [x11, #-16]
	add	x10, x10, #32
	add	x11, x11, #32
	subs	x12, x12, #32
	b.ne	Lnoise_BB5_16
	cmp	x20, x8
	b.eq	Lnoise_BB5_12
	cbz	x9, Lnoise_BB5_9
Lnoise_BB5_19:
	mov	x11, x8
	and	x8, x20, #0x38
	sub	x9, x11, x8
	add	x10, x1, x11
	add	x11, x11, x21
	add	x11, x11, x19
	add	x11, x11, #64
Lnoise_BB5_20:
	ldr	d0, [x10], #8
	str	d0, [x11], #8
	adds	x9, x9, #8
	b.ne	Lnoise_BB5_20
	cmp	x20, x8
	b.ne	Lnoise_BB5_9
	b	Lnoise_BB5_12
	.loh AdrpLdr	Lnoise_loh8, Lnoise_loh9
	.loh AdrpLdr	Lnoise_loh6, Lnoise_loh7
	.cfi_endproc

	.p2align	2
"_noise_poly::Poly1305::take_eights":
	.cfi_startproc
	stp	d15, d14, [sp, #-160]!
	.cfi_def_cfa_offset 160
	stp	d13, d12, [sp, #16]
	stp	d11, d10, [sp, #32]
	stp	d9, d8, [sp, #48]
	stp	x28, x27, [sp, #64]
	stp	x26, x25, [sp, #80]
	stp	x24, x23, [sp, #96]
	stp	x22, x21, [sp, #112]
	stp	x20, x19, [sp, #128]
	stp	x29, x30, [sp, #144]
	add	x29, sp, #144
	.cfi_def_cfa w29, 16
	.cfi_offset w30, -8
	.cfi_offset w29, -16
	.cfi_offset w19, -24
	.cfi_offset w20, -32
	.cfi_offset w21, -40
	.cfi_offset w22, -48
	.cfi_offset w23, -56
	.cfi_offset w24, -64
	.cfi_offset w25, -72
	.cfi_offset w26, -80
	.cfi_offset w27, -88
	.cfi_offset w28, -96
	.cfi_offset b8, -104
	.cfi_offset b9, -112
	.cfi_offset b10, -120
	.cfi_offset b11, -128
	.cfi_offset b12, -136
	.cfi_offset b13, -144
	.cfi_offset b14, -152
	.cfi_offset b15, -160
	.cfi_remember_state
	sub	sp, sp, #384
	mov	x19, x0
	ldp	x9, x8, [x0, #32]
	and	x10, x9, #0x3ffffff
	extr	x11, x8, x9, #52
	ubfx	x17, x9, #26, #26
	and	w14, w11, #0x3ffffff
	ubfx	x0, x8, #14, #26
	lsr	x15, x8, #40
	add	w16, w17, w17, lsl #2
	add	w12, w14, w14, lsl #2
	add	w11, w0, w0, lsl #2
	add	x13, x15, x15, lsl #2
	ldp	q2, q0, [x1]
	zip2.2d	v3, v2, v0
	mov	w3, #16777216
	dup.2d	v30, x3
	mov.16b	v26, v30
	usra.2d	v30, v3, #40
	ldp	x3, x4, [x19]
	ldur	w5, [x19, #13]
	fmov	x6, d30
	add	x5, x5, x6
	mov.d	v30[0], x5
	ushr.2d	v4, v3, #14
	mov	w5, #67108863
	dup.2d	v1, x5
	and.16b	v8, v4, v1
	fmov	x5, d8
	ubfx	x6, x4, #14, #26
	add	x5, x5, x6
	mov.d	v8[0], x5
	mov.d	v2[1], v0[0]
	shl.2d	v0, v3, #12
	usra.2d	v0, v2, #52
	and.16b	v27, v0, v1
	fmov	x5, d27
	extr	x4, x4, x3, #52
	and	x4, x4, #0x3ffffff
	add	x4, x5, x4
	mov.d	v27[0], x4
	ushr.2d	v0, v2, #26
	and.16b	v11, v0, v1
	fmov	x4, d11
	ubfx	x5, x3, #26, #26
	add	x4, x4, x5
	mov.d	v11[0], x4
	and.16b	v0, v2, v1
	fmov	x4, d0
	and	x3, x3, #0x3ffffff
	add	x3, x4, x3
	mov.d	v0[0], x3
	umull	x3, w10, w0
	umaddl	x3, w17, w14, x3
	lsl	x3, x3, #1
	umaddl	x3, w13, w15, x3
	lsr	x4, x3, #26
	umaddl	x4, w14, w14, x4
	umull	x5, w10, w15
	umaddl	x5, w17, w0, x5
	add	x4, x4, x5, lsl #1
	and	w5, w4, #0x3ffffff
	lsl	x6, x10, #1
	umull	x7, w6, w14
	umaddl	x7, w17, w17, x7
	umaddl	x7, w13, w0, x7
	umaddl	x7, w15, w11, x7
	umull	x20, w13, w14
	umaddl	x6, w6, w17, x20
	umaddl	x6, w11, w0, x6
	umaddl	x6, w15, w12, x6
	umull	x20, w10, w10
	umaddl	x20, w13, w17, x20
	umaddl	x20, w11, w14, x20
	umaddl	x20, w12, w0, x20
	umaddl	x20, w15, w16, x20
	add	x6, x6, x20, lsr #26
	add	x7, x7, x6, lsr #26
	and	x3, x3, #0x3ffffff
	add	x3, x3, x7, lsr #26
	add	x5, x5, x3, lsr #26
	add	w21, w5, w5, lsl #2
	and	x7, x7, #0x3ffffff
	and	w6, w6, #0x3ffffff
	lsr	x4, x4, #26
	add	x4, x4, x4, lsl #2
	and	x20, x20, #0x3ffffff
	add	x4, x4, x20
	add	x6, x6, x4, lsr #26
	and	x3, x3, #0x3ffffff
	and	x4, x4, #0x3ffffff
	umull	x20, w3, w4
	umaddl	x20, w7, w6, x20
	lsl	x20, x20, #1
	umaddl	x20, w21, w5, x20
	lsr	x22, x20, #26
	umaddl	x22, w7, w7, x22
	umull	x23, w3, w6
	umaddl	x23, w4, w5, x23
	add	x22, x22, x23, lsl #1
	and	w23, w22, #0x3ffffff
	umull	x24, w7, w4
	lsl	x24, x24, #1
	umaddl	x24, w6, w6, x24
	add	x25, x3, x3, lsl #2
	umaddl	x24, w25, w5, x24
	umaddl	x24, w3, w21, x24
	umull	x26, w4, w6
	lsl	x26, x26, #1
	umaddl	x26, w25, w3, x26
	add	x27, x7, x7, lsl #2
	umaddl	x26, w27, w5, x26
	umaddl	x26, w7, w21, x26
	umull	x4, w4, w4
	umaddl	x3, w3, w27, x4
	umaddl	x3, w25, w7, x3
	add	w4, w6, w6, lsl #2
	umaddl	x3, w5, w4, x3
	umaddl	x6, w21, w6, x3
	add	x7, x26, x6, lsr #26
	add	x4, x24, x7, lsr #26
	and	x3, x20, #0x3ffffff
	add	x20, x3, x4, lsr #26
	add	x3, x23, x20, lsr #26
	add	w5, w3, w3, lsl #2
	and	x4, x4, #0x3ffffff
	and	w7, w7, #0x3ffffff
	lsr	x21, x22, #26
	add	x21, x21, x21, lsl #2
	and	x6, x6, #0x3ffffff
	add	x21, x21, x6
	add	x6, x7, x21, lsr #26
	and	x7, x20, #0x3ffffff
	and	x20, x21, #0x3ffffff
	umull	x21, w7, w20
	umaddl	x21, w4, w6, x21
	lsl	x21, x21, #1
	umaddl	x24, w5, w3, x21
	lsr	x21, x24, #26
	umaddl	x21, w4, w4, x21
	umull	x22, w7, w6
	umaddl	x22, w20, w3, x22
	add	x25, x21, x22, lsl #1
	lsl	x26, x20, #1
	add	x21, x7, x7, lsl #2
	umull	x22, w21, w7
	umaddl	x23, w26, w6, x22
	add	x22, x4, x4, lsl #2
	umaddl	x23, w22, w3, x23
	umaddl	x27, w4, w5, x23
	umull	x23, w20, w20
	umaddl	x23, w7, w22, x23
	umaddl	x28, w21, w4, x23
	add	w23, w6, w6, lsl #2
	umaddl	x28, w3, w23, x28
	umaddl	x28, w5, w6, x28
	add	x27, x27, x28, lsr #26
	lsr	x30, x25, #26
	add	x30, x30, x30, lsl #2
	and	x28, x28, #0x3ffffff
	add	x28, x30, x28
	and	x30, x28, #0x3ffffff
	dup.2d	v2, x30
	stur	q2, [x29, #-256]
	and	w25, w25, #0x3ffffff
	umull	x26, w26, w4
	umaddl	x26, w6, w6, x26
	umaddl	x26, w21, w3, x26
	umaddl	x26, w7, w5, x26
	add	x26, x26, x27, lsr #26
	and	x24, x24, #0x3ffffff
	add	x24, x24, x26, lsr #26
	add	x25, x25, x24, lsr #26
	and	w27, w27, #0x3ffffff
	add	x27, x27, x28, lsr #26
	add	w28, w25, w25, lsl #2
	and	x24, x24, #0x3ffffff
	dup.2d	v2, x28
	str	q2, [sp, #256]
	add	x28, x24, x24, lsl #2
	and	x26, x26, #0x3ffffff
	dup.2d	v2, x28
	str	q2, [sp, #240]
	add	x28, x26, x26, lsl #2
	dup.2d	v2, x28
	str	q2, [sp, #224]
	add	w28, w27, w27, lsl #2
	dup.2d	v2, x28
	str	q2, [sp, #208]
	mov	w27, w27
	dup.2d	v2, x27
	str	q2, [sp, #192]
	dup.2d	v2, x26
	str	q2, [sp, #176]
	dup.2d	v2, x24
	str	q2, [sp, #160]
	mov	w24, w25
	dup.2d	v2, x24
	str	q2, [sp, #144]
	dup.2d	v2, x20
	str	q2, [sp, #128]
	dup.2d	v2, x5
	str	q2, [sp, #112]
	dup.2d	v2, x21
	str	q2, [sp, #96]
	dup.2d	v2, x22
	str	q2, [sp, #80]
	dup.2d	v2, x23
	str	q2, [sp, #64]
	mov	w5, w6
	dup.2d	v2, x5
	str	q2, [sp, #48]
	dup.2d	v2, x4
	str	q2, [sp, #32]
	dup.2d	v2, x7
	str	q2, [sp, #16]
	mov	w3, w3
	dup.2d	v2, x3
	str	q2, [sp]
	ldp	q4, q2, [x1, #32]
	zip2.2d	v5, v4, v2
	usra.2d	v26, v5, #40
	ushr.2d	v3, v5, #14
	and.16b	v3, v3, v1
	mov.d	v4[1], v2[0]
	shl.2d	v2, v5, #12
	usra.2d	v2, v4, #52
	and.16b	v29, v2, v1
	ushr.2d	v2, v4, #26
	and.16b	v2, v2, v1
	and.16b	v1, v4, v1
	mov	w17, w17
	mov	w0, w0
	sub	x20, x2, #64
	add	x2, x1, #64
Lnoise_BB6_1:
	usra.2d	v11, v0, #26
	usra.2d	v2, v1, #26
	usra.2d	v26, v3, #26
	usra.2d	v30, v8, #26
	mov	w1, #67108863
	dup.2d	v28, x1
	usra.2d	v29, v2, #26
	usra.2d	v27, v11, #26
	and.16b	v0, v0, v28
	and.16b	v1, v1, v28
	ushr.2d	v4, v30, #26
	ushr.2d	v5, v26, #26
	usra.2d	v1, v26, #26
	usra.2d	v0, v30, #26
	shl.2d	v5, v5, #2
	shl.2d	v4, v4, #2
	add.2d	v0, v0, v4
	add.2d	v1, v1, v5
	and.16b	v5, v3, v28
	and.16b	v6, v8, v28
	usra.2d	v6, v27, #26
	usra.2d	v5, v29, #26
	and.16b	v3, v1, v28
	and.16b	v4, v0, v28
	xtn.2s	v3, v3
	and.16b	v2, v2, v28
	and.16b	v7, v11, v28
	usra.2d	v7, v0, #26
	usra.2d	v2, v1, #26
	and.16b	v0, v27, v28
	xtn.2s	v21, v4
	xtn.2s	v15, v0
	and.16b	v0, v29, v28
	xtn.2s	v18, v0
	and.16b	v0, v5, v28
	xtn.2s	v0, v0
	stur	d0, [x29, #-216]
	xtn.2s	v16, v7
	and.16b	v0, v6, v28
	xtn.2s	v11, v0
	and.16b	v0, v26, v28
	and.16b	v1, v30, v28
	usra.2d	v1, v6, #26
	xtn.2s	v17, v2
	xtn.2s	v1, v1
	usra.2d	v0, v5, #26
	xtn.2s	v2, v0
	ldur	q0, [x29, #-256]
	xtn.2s	v14, v0
	ldr	q0, [sp, #256]
	xtn.2s	v13, v0
	umull.2d	v26, v17, v13
	umull.2d	v27, v16, v13
	ldr	q0, [sp, #240]
	xtn.2s	v12, v0
	ldr	q0, [sp, #224]
	xtn.2s	v24, v0
	ldr	q0, [sp, #208]
	xtn.2s	v6, v0
	ldr	q0, [sp, #192]
	xtn.2s	v7, v0
	umull.2d	v29, v17, v14
	ldr	q0, [sp, #176]
	xtn.2s	v20, v0
	ldr	q0, [sp, #160]
	xtn.2s	v19, v0
	ldr	q0, [sp, #144]
	xtn.2s	v0, v0
	umull.2d	v30, v21, v0
	umull.2d	v31, v3, v0
	umull.2d	v8, v16, v14
	ldp	q22, q0, [x2]
	ldp	q25, q23, [x2, #32]
	zip2.2d	v4, v22, v0
	umull.2d	v9, v17, v7
	mov.d	v22[1], v0[0]
	zip2.2d	v5, v25, v23
	umull.2d	v10, v16, v7
	mov.d	v25[1], v23[0]
	and.16b	v23, v25, v28
	umlal.2d	v27, v21, v14
	umlal.2d	v26, v3, v14
	umlal.2d	v26, v18, v12
	umlal.2d	v27, v15, v12
	mov.16b	v0, v11
	stp	d2, d11, [x29, #-176]
	umlal.2d	v27, v11, v24
	ldur	d11, [x29, #-216]
	umlal.2d	v26, v11, v24
	umlal.2d	v26, v2, v6
	stur	d1, [x29, #-184]
	umlal.2d	v27, v1, v6
	umull.2d	v6, v16, v20
	xtn.2s	v23, v23
	stur	d23, [x29, #-160]
	umlal.2d	v8, v21, v7
	umlal.2d	v29, v3, v7
	umlal.2d	v29, v18, v13
	umlal.2d	v8, v15, v13
	umlal.2d	v8, v0, v12
	umlal.2d	v29, v11, v12
	mov.16b	v23, v11
	umlal.2d	v29, v2, v24
	umlal.2d	v8, v1, v24
	and.16b	v0, v22, v28
	xtn.2s	v11, v0
	umlal.2d	v10, v21, v20
	umlal.2d	v6, v21, v19
	shl.2d	v0, v5, #12
	usra.2d	v0, v25, #52
	ushr.2d	v21, v25, #26
	umlal.2d	v31, v17, v19
	umull.2d	v17, v17, v20
	umlal.2d	v30, v16, v19
	shl.2d	v25, v4, #12
	usra.2d	v25, v22, #52
	ushr.2d	v16, v22, #26
	and.16b	v22, v16, v28
	and.16b	v1, v21, v28
	and.16b	v2, v0, v28
	mov	w1, #16777216
	umlal.2d	v17, v3, v19
	dup.2d	v0, x1
	xtn.2s	v21, v22
	and.16b	v16, v25, v28
	stur	q16, [x29, #-240]
	umlal.2d	v9, v3, v20
	stur	q0, [x29, #-208]
	mov.16b	v3, v0
	usra.2d	v3, v5, #40
	ushr.2d	v19, v5, #14
	umlal.2d	v9, v18, v14
	umlal.2d	v17, v18, v7
	umlal.2d	v31, v18, v20
	mov.16b	v16, v0
	usra.2d	v16, v4, #40
	ushr.2d	v4, v4, #14
	xtn.2s	v18, v1
	and.16b	v1, v4, v28
	xtn.2s	v22, v1
	and.16b	v1, v19, v28
	xtn.2s	v19, v1
	xtn.2s	v3, v3
	xtn.2s	v25, v2
	xtn.2s	v24, v16
	umlal.2d	v10, v15, v14
	ldp	d0, d16, [x29, #-176]
	umlal.2d	v10, v16, v13
	umlal.2d	v9, v23, v13
	umlal.2d	v9, v0, v12
	ldur	d2, [x29, #-184]
	umlal.2d	v10, v2, v12
	ldr	q1, [sp, #128]
	xtn.2s	v5, v1
	umlal.2d	v30, v15, v20
	ldr	q1, [sp, #112]
	xtn.2s	v20, v1
	umlal.2d	v6, v15, v7
	ldr	q1, [sp, #96]
	xtn.2s	v15, v1
	umlal.2d	v6, v16, v14
	umlal.2d	v30, v16, v7
	ldr	q1, [sp, #80]
	xtn.2s	v16, v1
	umlal.2d	v31, v23, v7
	ldr	q1, [sp, #64]
	xtn.2s	v7, v1
	umlal.2d	v17, v23, v14
	umlal.2d	v17, v0, v13
	umlal.2d	v31, v0, v14
	ldp	q4, q12, [x2, #64]
	umlal.2d	v30, v2, v14
	mov.16b	v23, v2
	ldp	q2, q14, [x2, #96]
	umlal.2d	v6, v23, v13
	zip2.2d	v13, v2, v14
	mov.d	v2[1], v14[0]
	ldur	q0, [x29, #-240]
	xtn.2s	v14, v0
	zip2.2d	v23, v4, v12
	mov.d	v4[1], v12[0]
	ldr	q0, [sp, #48]
	xtn.2s	v12, v0
	umlal.2d	v27, v11, v5
	ldur	d1, [x29, #-160]
	umlal.2d	v26, v1, v5
	umlal.2d	v26, v18, v20
	umlal.2d	v27, v21, v20
	umlal.2d	v27, v14, v15
	umlal.2d	v26, v25, v15
	umlal.2d	v26, v19, v16
	umlal.2d	v27, v22, v16
	umlal.2d	v27, v24, v7
	umlal.2d	v26, v3, v7
	ldr	q0, [sp, #32]
	xtn.2s	v7, v0
	umlal.2d	v8, v11, v12
	umlal.2d	v29, v1, v12
	umlal.2d	v29, v18, v5
	umlal.2d	v8, v21, v5
	umlal.2d	v8, v14, v20
	umlal.2d	v29, v25, v20
	umlal.2d	v29, v19, v15
	umlal.2d	v8, v22, v15
	umlal.2d	v8, v24, v16
	umlal.2d	v29, v3, v16
	ldr	q0, [sp, #16]
	xtn.2s	v16, v0
	umlal.2d	v10, v11, v7
	umlal.2d	v6, v11, v16
	ldr	q0, [sp]
	xtn.2s	v0, v0
	umlal.2d	v30, v11, v0
	umlal.2d	v31, v1, v0
	umlal.2d	v9, v1, v7
	umlal.2d	v17, v1, v16
	umlal.2d	v9, v18, v12
	umlal.2d	v17, v18, v7
	umlal.2d	v31, v18, v16
	umlal.2d	v30, v21, v16
	umlal.2d	v10, v21, v12
	umlal.2d	v6, v21, v7
	umlal.2d	v10, v14, v5
	umlal.2d	v6, v14, v12
	umlal.2d	v30, v14, v7
	umlal.2d	v9, v25, v5
	umlal.2d	v9, v19, v20
	umlal.2d	v10, v22, v20
	umlal.2d	v10, v24, v15
	umlal.2d	v9, v3, v15
	umlal.2d	v31, v25, v7
	umlal.2d	v17, v25, v12
	umlal.2d	v17, v19, v5
	umlal.2d	v31, v19, v12
	umlal.2d	v30, v22, v12
	and.16b	v0, v4, v28
	umlal.2d	v6, v22, v5
	and.16b	v19, v2, v28
	umlal.2d	v6, v24, v20
	umlal.2d	v17, v3, v20
	shl.2d	v7, v13, #12
	usra.2d	v7, v2, #52
	ushr.2d	v2, v2, #26
	umlal.2d	v31, v3, v5
	shl.2d	v3, v23, #12
	usra.2d	v3, v4, #52
	ushr.2d	v1, v4, #26
	and.16b	v16, v1, v28
	and.16b	v2, v2, v28
	and.16b	v3, v3, v28
	umlal.2d	v30, v24, v5
	ushr.2d	v1, v13, #14
	ushr.2d	v5, v23, #14
	and.16b	v7, v7, v28
	and.16b	v5, v5, v28
	and.16b	v18, v1, v28
	add.2d	v1, v26, v19
	add.2d	v0, v27, v0
	add.2d	v2, v29, v2
	add.2d	v11, v8, v16
	add.2d	v29, v9, v7
	add.2d	v27, v10, v3
	add.2d	v3, v17, v18
	usra.2d	v30, v23, #40
	usra.2d	v31, v13, #40
	add.2d	v8, v6, v5
	ldur	q4, [x29, #-208]
	add.2d	v26, v31, v4
	add.2d	v30, v30, v4
	add	x1, x2, #128
	sub	x20, x20, #128
	mov	x2, x1
	cmp	x20, #127
	b.hi	Lnoise_BB6_1
	usra.2d	v11, v0, #26
	usra.2d	v30, v8, #26
	usra.2d	v27, v11, #26
	mov	w2, #67108863
	dup.2d	v5, x2
	and.16b	v0, v0, v5
	ushr.2d	v4, v30, #26
	usra.2d	v0, v30, #26
	shl.2d	v4, v4, #2
	add.2d	v6, v0, v4
	and.16b	v4, v8, v5
	usra.2d	v4, v27, #26
	and.16b	v7, v11, v5
	usra.2d	v7, v6, #26
	and.16b	v0, v30, v5
	usra.2d	v0, v4, #26
	bic.4s	v6, #252, lsl #24
	mov.s	w3, v6[2]
	fmov	w4, s6
	mov.s	w2, v7[2]
	fmov	w5, s7
	bic.4s	v27, #252, lsl #24
	fmov	w6, s27
	bic.4s	v4, #252, lsl #24
	umull	x7, w10, w4
	umaddl	x7, w13, w5, x7
	umull	x21, w17, w4
	umaddl	x21, w10, w5, x21
	umull	x22, w14, w4
	umaddl	x22, w17, w5, x22
	umull	x23, w0, w4
	umaddl	x23, w14, w5, x23
	umull	x4, w15, w4
	umaddl	x5, w0, w5, x4
	mov.s	w4, v4[2]
	umaddl	x7, w11, w6, x7
	umaddl	x21, w13, w6, x21
	umaddl	x22, w10, w6, x22
	umaddl	x23, w17, w6, x23
	umaddl	x5, w14, w6, x5
	fmov	w6, s4
	umaddl	x7, w12, w6, x7
	umaddl	x21, w11, w6, x21
	umaddl	x22, w13, w6, x22
	umaddl	x23, w10, w6, x23
	umaddl	x5, w17, w6, x5
	fmov	w6, s0
	umaddl	x7, w16, w6, x7
	umaddl	x21, w12, w6, x21
	umaddl	x22, w11, w6, x22
	umaddl	x23, w13, w6, x23
	umaddl	x5, w10, w6, x5
	and	x6, x7, #0x3ffffff
	add	x7, x21, x7, lsr #26
	add	x5, x5, x23, lsr #26
	lsr	x21, x5, #26
	add	x21, x21, x21, lsl #2
	add	x6, x21, x6
	and	w21, w6, #0x3ffffff
	add	w3, w21, w3
	mov.s	w21, v0[2]
	usra.2d	v2, v1, #26
	usra.2d	v26, v3, #26
	usra.2d	v29, v2, #26
	and.16b	v0, v1, v5
	ushr.2d	v1, v26, #26
	usra.2d	v0, v26, #26
	shl.2d	v1, v1, #2
	add.2d	v4, v0, v1
	and.16b	v1, v3, v5
	usra.2d	v1, v29, #26
	and.16b	v2, v2, v5
	usra.2d	v2, v4, #26
	and.16b	v0, v26, v5
	usra.2d	v0, v1, #26
	bic.4s	v4, #252, lsl #24
	add	x22, x22, x7, lsr #26
	and	w7, w7, #0x3ffffff
	add	w2, w7, w2
	mov.s	w7, v27[2]
	and	x23, x23, #0x3ffffff
	and	w5, w5, #0x3ffffff
	add	x23, x23, x22, lsr #26
	and	w22, w22, #0x3ffffff
	add	x2, x2, x6, lsr #26
	and	w6, w23, #0x3ffffff
	add	w7, w22, w7
	add	w4, w6, w4
	add	w5, w5, w21
	add	x5, x5, x23, lsr #26
	umull	x6, w11, w7
	umaddl	x6, w10, w3, x6
	umull	x21, w13, w7
	umull	x22, w10, w7
	umull	x23, w17, w7
	umaddl	x23, w0, w3, x23
	umull	x7, w14, w7
	umaddl	x21, w17, w3, x21
	umaddl	x7, w15, w3, x7
	umaddl	x3, w14, w3, x22
	fmov	w22, s4
	umaddl	x6, w13, w2, x6
	umaddl	x23, w14, w2, x23
	umaddl	x21, w10, w2, x21
	umaddl	x7, w0, w2, x7
	umaddl	x2, w17, w2, x3
	fmov	w3, s2
	bic.4s	v29, #252, lsl #24
	umaddl	x6, w12, w4, x6
	umaddl	x23, w10, w4, x23
	umaddl	x21, w11, w4, x21
	umaddl	x7, w17, w4, x7
	umaddl	x2, w13, w4, x2
	fmov	w4, s29
	bic.4s	v1, #252, lsl #24
	umaddl	x6, w16, w5, x6
	umaddl	x23, w13, w5, x23
	umaddl	x21, w12, w5, x21
	add	x21, x21, x6, lsr #26
	and	x6, x6, #0x3ffffff
	umaddl	x7, w10, w5, x7
	add	x7, x7, x23, lsr #26
	umaddl	x2, w11, w5, x2
	lsr	x5, x7, #26
	add	x5, x5, x5, lsl #2
	add	x5, x5, x6
	and	w6, w5, #0x3ffffff
	add	w6, w6, w22
	fmov	w22, s1
	add	x2, x2, x21, lsr #26
	and	w21, w21, #0x3ffffff
	add	w3, w21, w3
	fmov	w21, s0
	and	x23, x23, #0x3ffffff
	and	w7, w7, #0x3ffffff
	add	x23, x23, x2, lsr #26
	and	w2, w2, #0x3ffffff
	add	x3, x3, x5, lsr #26
	and	w5, w23, #0x3ffffff
	add	w2, w2, w4
	add	w4, w5, w22
	add	w5, w7, w21
	add	x5, x5, x23, lsr #26
	umull	x7, w11, w2
	umaddl	x7, w10, w6, x7
	umull	x21, w13, w2
	umull	x22, w10, w2
	umull	x23, w17, w2
	umaddl	x23, w0, w6, x23
	umull	x2, w14, w2
	umaddl	x21, w17, w6, x21
	umaddl	x2, w15, w6, x2
	umaddl	x6, w14, w6, x22
	umaddl	x7, w13, w3, x7
	umaddl	x22, w14, w3, x23
	umaddl	x21, w10, w3, x21
	umaddl	x2, w0, w3, x2
	umaddl	x3, w17, w3, x6
	umaddl	x6, w12, w4, x7
	umaddl	x7, w10, w4, x22
	umaddl	x21, w11, w4, x21
	umaddl	x2, w17, w4, x2
	umaddl	x3, w13, w4, x3
	mov.s	w4, v4[2]
	umaddl	x6, w16, w5, x6
	umaddl	x7, w13, w5, x7
	umaddl	x21, w12, w5, x21
	add	x21, x21, x6, lsr #26
	and	x6, x6, #0x3ffffff
	umaddl	x2, w10, w5, x2
	add	x2, x2, x7, lsr #26
	umaddl	x3, w11, w5, x3
	lsr	x5, x2, #26
	add	x5, x5, x5, lsl #2
	add	x5, x5, x6
	and	w6, w5, #0x3ffffff
	add	w4, w6, w4
	mov.s	w6, v2[2]
	add	x3, x3, x21, lsr #26
	and	w21, w21, #0x3ffffff
	add	w6, w21, w6
	mov.s	w21, v1[2]
	add	x5, x6, x5, lsr #26
	mov.s	w6, v29[2]
	and	x7, x7, #0x3ffffff
	add	x7, x7, x3, lsr #26
	and	w3, w3, #0x3ffffff
	add	w3, w3, w6
	and	w6, w7, #0x3ffffff
	add	w6, w6, w21
	mov.s	w21, v0[2]
	and	w2, w2, #0x3ffffff
	add	w2, w2, w21
	add	x2, x2, x7, lsr #26
	umull	x7, w11, w3
	umaddl	x7, w10, w4, x7
	umaddl	x7, w13, w5, x7
	umaddl	x7, w12, w6, x7
	umaddl	x16, w16, w2, x7
	umull	x7, w10, w3
	umull	x21, w14, w3
	umaddl	x15, w15, w4, x21
	umull	x21, w17, w3
	umaddl	x21, w0, w4, x21
	umaddl	x21, w14, w5, x21
	umaddl	x14, w14, w4, x7
	umull	x3, w13, w3
	umaddl	x3, w17, w4, x3
	umaddl	x15, w0, w5, x15
	umaddl	x0, w10, w5, x3
	umaddl	x14, w17, w5, x14
	umaddl	x15, w17, w6, x15
	umaddl	x17, w10, w6, x21
	umaddl	x17, w13, w2, x17
	umaddl	x13, w13, w6, x14
	umaddl	x14, w11, w6, x0
	umaddl	x12, w12, w2, x14
	umaddl	x10, w10, w2, x15
	umaddl	x11, w11, w2, x13
	and	x13, x16, #0x3ffffff
	add	x12, x12, x16, lsr #26
	add	x10, x10, x17, lsr #26
	lsr	x14, x10, #26
	add	x14, x14, x14, lsl #2
	add	x13, x14, x13
	add	x11, x11, x12, lsr #26
	and	w12, w12, #0x3ffffff
	add	x12, x12, x13, lsr #26
	and	x13, x13, #0x3ffffff
	mov	w12, w12
	orr	x13, x13, x11, lsl #52
	adds	x12, x13, x12, lsl #26
	and	x13, x17, #0x3ffffff
	and	w10, w10, #0x3ffffff
	add	x13, x13, x11, lsr #26
	add	x10, x10, x13, lsr #26
	ubfx	x11, x11, #12, #14
	ubfiz	x13, x13, #14, #26
	adc	x11, x13, x11
	adds	x11, x11, x10, lsl #40
	lsr	w10, w10, #24
	cinc	x13, x10, hs
	lsr	x10, x13, #2
	add	x10, x10, x10, lsl #2
	adds	x10, x12, x10
	adcs	x11, x11, xzr
	and	x12, x13, #0x3
	stp	x10, x11, [x19]
	cinc	x13, x12, hs
	stp	x13, xzr, [x19, #16]
	cmp	x20, #16
	b.lo	Lnoise_BB6_5
	add	x12, x8, x8, lsr #2
Lnoise_BB6_4:
	ldp	x15, x14, [x1], #16
	adds	x10, x15, x10
	adcs	x11, x14, x11
	mov	w14, #1
	adc	x13, x13, x14
	umulh	x14, x10, x9
	mul	x15, x10, x9
	umulh	x16, x11, x12
	mul	x17, x11, x12
	adds	x15, x15, x17
	adc	x14, x14, x16
	umulh	x16, x10, x8
	mul	x10, x10, x8
	umulh	x17, x11, x9
	mul	x11, x11, x9
	adds	x10, x10, x11
	adc	x11, x16, x17
	mul	x16, x13, x12
	adds	x16, x10, x16
	cinc	x10, x11, hs
	mul	x11, x13, x9
	adds	x13, x16, x14
	adc	x17, x11, x10
	lsr	x10, x17, #2
	add	x10, x10, x10, lsl #2
	adds	x10, x10, x15
	adc	x11, x16, x14
	adcs	xzr, x13, xzr
	and	x13, x17, #0x3
	cinc	x13, x13, hs
	sub	x20, x20, #16
	cmp	x20, #15
	b.hi	Lnoise_BB6_4
Lnoise_BB6_5:
	stp	x10, x11, [x19]
	stp	x13, xzr, [x19, #16]
	ldr	x21, [x19, #80]
	add	x8, x19, x21
	add	x0, x8, #64
	sub	x8, x0, x1
	cmp	x8, x20
	b.hs	Lnoise_BB6_11
	cmp	x20, #7
	b.ls	Lnoise_BB6_8
	add	x8, x21, x19
	sub	x8, x8, x1
	add	x8, x8, #64
	cmp	x8, #32
	b.hs	Lnoise_BB6_13
Lnoise_BB6_8:
	mov	x8, #0
Lnoise_BB6_9:
	sub	x9, x20, x8
	add	x10, x1, x8
	add	x8, x8, x21
	add	x8, x8, x19
	add	x8, x8, #64
Lnoise_BB6_10:
	ldrb	w11, [x10], #1
	strb	w11, [x8], #1
	subs	x9, x9, #1
	b.ne	Lnoise_BB6_10
	b	Lnoise_BB6_12
Lnoise_BB6_11:
	mov	x2, x20
	bl	_memmove
Lnoise_BB6_12:
	add	x8, x21, x20
	str	x8, [x19, #80]
	add	sp, sp, #384
	.cfi_def_cfa wsp, 160
	ldp	x29, x30, [sp, #144]
	ldp	x20, x19, [sp, #128]
	ldp	x22, x21, [sp, #112]
	ldp	x24, x23, [sp, #96]
	ldp	x26, x25, [sp, #80]
	ldp	x28, x27, [sp, #64]
	ldp	d9, d8, [sp, #48]
	ldp	d11, d10, [sp, #32]
	ldp	d13, d12, [sp, #16]
	ldp	d15, d14, [sp], #160
	.cfi_def_cfa_offset 0
	.cfi_restore w30
	.cfi_restore w29
	.cfi_restore w19
	.cfi_restore w20
	.cfi_restore w21
	.cfi_restore w22
	.cfi_restore w23
	.cfi_restore w24
	.cfi_restore w25
	.cfi_restore w26
	.cfi_restore w27
	.cfi_restore w28
	.cfi_restore b8
	.cfi_restore b9
	.cfi_restore b10
	.cfi_restore b11
	.cfi_restore b12
	.cfi_restore b13
	.cfi_restore b14
	.cfi_restore b15
	ret
Lnoise_BB6_13:
	.cfi_restore_state
	and	x8, x20, #0x8
	mov	x9, x1
	and	x10, x20, #0x8
Lnoise_BB6_14:
	ldr	d0, [x9], #8
	str	d0, [x0], #8
	subs	x10, x10, #8
	b.ne	Lnoise_BB6_14
	cmp	x20, x8
	b.ne	Lnoise_BB6_9
	b	Lnoise_BB6_12
	.cfi_endproc

	.section	__TEXT,__literal16,16byte_literals
	.p2align	4, 0x0
lnoise_CPI7_0:
	.byte	255
	.byte	255
	.byte	255
	.byte	255
	.byte	255
	.byte	255
	.byte	255
	.byte	255
	.byte	255
	.byte	255
	.byte	255
	.byte	255
	.byte	255
	.byte	0
	.byte	0
	.byte	0
	.section	__TEXT,__text,regular,pure_instructions
	.p2align	2
"_noise_aead::keystream::apply":
	.cfi_startproc
	sub	sp, sp, #240
	.cfi_def_cfa_offset 240
	stp	x28, x27, [sp, #144]
	stp	x26, x25, [sp, #160]
	stp	x24, x23, [sp, #176]
	stp	x22, x21, [sp, #192]
	stp	x20, x19, [sp, #208]
	stp	x29, x30, [sp, #224]
	add	x29, sp, #224
	.cfi_def_cfa w29, 16
	.cfi_offset w30, -8
	.cfi_offset w29, -16
	.cfi_offset w19, -24
	.cfi_offset w20, -32
	.cfi_offset w21, -40
	.cfi_offset w22, -48
	.cfi_offset w23, -56
	.cfi_offset w24, -64
	.cfi_offset w25, -72
	.cfi_offset w26, -80
	.cfi_offset w27, -88
	.cfi_offset w28, -96
	.cfi_remember_state
	stp	x1, x2, [sp, #64]
	mov	x21, x0
	lsr	x8, x2, #6
	mov	w9, #3
	cmp	x8, #3
	csel	x9, x8, x9, lo
	str	x9, [sp, #56]
	sub	x9, x8, x9
	str	x9, [sp, #48]
	lsr	x25, x9, #2
	adrp	x22, lnoise_CPI7_0@PAGE
	cbz	x8, Lnoise_BB7_49
	add	x26, x21, #48
	ldp	x28, x27, [sp, #56]
Lnoise_BB7_2:
	ldr	x8, [x21, #304]
	cmp	x8, #64
	b.lo	Lnoise_BB7_4
	ldp	x2, x1, [x21, #32]
	add	x3, x21, #48
	mov	x0, x21
	bl	"_rand_chacha::guts::refill4"
	ldr	x8, [x21, #40]
	add	x8, x8, #4
	str	x8, [x21, #40]
	ldr	w11, [x21, #48]
	mov	w9, #1
	b	Lnoise_BB7_6
Lnoise_BB7_4:
	ldr	w11, [x26, x8, lsl #2]
	add	x9, x8, #1
	str	x9, [x21, #304]
	cmp	x8, #63
	b.ne	Lnoise_BB7_15
	ldp	x2, x1, [x21, #32]
	add	x3, x21, #48
	mov	x0, x21
	mov	x19, x11
	bl	"_rand_chacha::guts::refill4"
	mov	x11, x19
	mov	x9, #0
	ldr	x8, [x21, #40]
	add	x8, x8, #4
	str	x8, [x21, #40]
Lnoise_BB7_6:
	add	x8, x26, x9, lsl #2
	ldp	w12, w13, [x8], #8
	add	x9, x9, #3
Lnoise_BB7_7:
	ldr	w14, [x8]
	str	x9, [x21, #304]
	ldr	w15, [x26, x9, lsl #2]
	add	x8, x9, #1
	str	x8, [x21, #304]
	add	x9, x9, #2
Lnoise_BB7_8:
	ldr	w16, [x26, x8, lsl #2]
	str	x9, [x21, #304]
	ldr	w17, [x26, x9, lsl #2]
	add	x8, x9, #1
	str	x8, [x21, #304]
	add	x9, x9, #2
Lnoise_BB7_9:
	ldr	w0, [x26, x8, lsl #2]
	str	x9, [x21, #304]
	ldr	w1, [x26, x9, lsl #2]
	add	x8, x9, #1
	str	x8, [x21, #304]
	add	x9, x9, #2
Lnoise_BB7_10:
	ldr	w2, [x26, x8, lsl #2]
	str	x9, [x21, #304]
	ldr	w19, [x26, x9, lsl #2]
	add	x8, x9, #1
	str	x8, [x21, #304]
	add	x9, x9, #2
Lnoise_BB7_11:
	ldr	w20, [x26, x8, lsl #2]
	str	x9, [x21, #304]
	ldr	w24, [x26, x9, lsl #2]
	add	x8, x9, #1
	str	x8, [x21, #304]
	add	x9, x9, #2
Lnoise_BB7_12:
	ldr	w23, [x26, x8, lsl #2]
	str	x9, [x21, #304]
	ldr	w22, [x26, x9, lsl #2]
	add	x9, x9, #1
Lnoise_BB7_13:
	str	x9, [x21, #304]
Lnoise_BB7_14:
	ldr	w8, [x26, x9, lsl #2]
	fmov	s0, w24
	mov.s	v0[1], w23
	mov.s	v0[2], w22
	mov.s	v0[3], w8
	fmov	s1, w11
	mov.s	v1[1], w12
	mov.s	v1[2], w13
	mov.s	v1[3], w14
	fmov	s2, w15
	mov.s	v2[1], w16
	mov.s	v2[2], w17
	add	x9, x9, #1
	mov.s	v2[3], w0
	fmov	s3, w1
	mov.s	v3[1], w2
	str	x9, [x21, #304]
	mov.s	v3[2], w19
	mov.s	v3[3], w20
	ldp	q4, q5, [x27]
	ldp	q6, q7, [x27, #32]
	movi.2d	v16, #0000000000000000
	mov.b	v16[0], v0[0]
	mov.b	v16[1], v0[1]
	mov.b	v16[2], v0[2]
	mov.b	v16[3], v0[3]
	mov.b	v16[4], v0[4]
	mov.b	v16[5], v0[5]
	mov.b	v16[6], v0[6]
	mov.b	v16[7], v0[7]
	mov.b	v16[8], v0[8]
	mov.b	v16[9], v0[9]
	mov.b	v16[10], v0[10]
	mov.b	v16[11], v0[11]
	mov.b	v16[12], w8
	adrp	x22, lnoise_CPI7_0@PAGE
	ldr	q17, [x22, lnoise_CPI7_0@PAGEOFF]
	bit.16b	v0, v16, v17
	eor.16b	v0, v0, v7
	eor.16b	v3, v3, v6
	eor.16b	v2, v2, v5
	eor.16b	v1, v1, v4
	stp	q1, q2, [x27]
	stp	q3, q0, [x27, #32]
	add	x27, x27, #64
	subs	x28, x28, #1
	b.ne	Lnoise_BB7_2
	b	Lnoise_BB7_49
Lnoise_BB7_15:
	ldr	w12, [x26, x9, lsl #2]
	add	x9, x8, #2
	str	x9, [x21, #304]
	cmp	x8, #62
	b.lo	Lnoise_BB7_17
	mov	x20, x12
	mov	x19, x11
	ldp	x2, x1, [x21, #32]
	add	x3, x21, #48
	mov	x0, x21
	bl	"_rand_chacha::guts::refill4"
	ldr	x8, [x21, #40]
	add	x8, x8, #4
	str	x8, [x21, #40]
	ldr	w13, [x21, #48]
	mov	w9, #1
	b	Lnoise_BB7_19
Lnoise_BB7_17:
	ldr	w13, [x26, x9, lsl #2]
	add	x10, x8, #3
	str	x10, [x21, #304]
	cmp	x8, #61
	b.ne	Lnoise_BB7_20
	mov	x20, x12
	mov	x19, x11
	ldp	x2, x1, [x21, #32]
	add	x3, x21, #48
	mov	x0, x21
	mov	x22, x13
	bl	"_rand_chacha::guts::refill4"
	mov	x13, x22
	mov	x9, #0
	ldr	x8, [x21, #40]
	add	x8, x8, #4
	str	x8, [x21, #40]
Lnoise_BB7_19:
	add	x8, x26, x9, lsl #2
	add	x9, x9, #1
	mov	x11, x19
	mov	x12, x20
	b	Lnoise_BB7_7
Lnoise_BB7_20:
	ldr	w14, [x26, x10, lsl #2]
	add	x10, x8, #4
	str	x10, [x21, #304]
	cmp	x9, #62
	b.ne	Lnoise_BB7_22
	mov	x23, x14
	mov	x22, x13
	mov	x20, x12
	mov	x19, x11
	ldp	x2, x1, [x21, #32]
	add	x3, x21, #48
	mov	x0, x21
	bl	"_rand_chacha::guts::refill4"
	ldr	x8, [x21, #40]
	add	x8, x8, #4
	str	x8, [x21, #40]
	ldr	w15, [x21, #48]
	mov	w8, #1
	b	Lnoise_BB7_24
Lnoise_BB7_22:
	ldr	w15, [x26, x10, lsl #2]
	add	x9, x8, #5
	str	x9, [x21, #304]
	cmp	x8, #59
	b.lo	Lnoise_BB7_25
	mov	x23, x14
	mov	x22, x13
	mov	x20, x12
	mov	x19, x11
	ldp	x2, x1, [x21, #32]
	add	x3, x21, #48
	mov	x0, x21
	mov	x24, x15
	bl	"_rand_chacha::guts::refill4"
	mov	x15, x24
	mov	x8, #0
	ldr	x9, [x21, #40]
	add	x9, x9, #4
	str	x9, [x21, #40]
Lnoise_BB7_24:
	add	x9, x8, #1
	mov	x11, x19
	mov	x12, x20
	mov	x13, x22
	mov	x14, x23
	b	Lnoise_BB7_8
Lnoise_BB7_25:
	ldr	w16, [x26, x9, lsl #2]
	add	x9, x8, #6
	str	x9, [x21, #304]
	cmp	x10, #62
	str	w16, [sp, #44]
	b.ne	Lnoise_BB7_27
	mov	x24, x15
	str	w14, [sp, #40]
	mov	x22, x13
	mov	x20, x12
	mov	x19, x11
	ldp	x2, x1, [x21, #32]
	add	x3, x21, #48
	mov	x0, x21
	bl	"_rand_chacha::guts::refill4"
	ldr	x8, [x21, #40]
	add	x8, x8, #4
	str	x8, [x21, #40]
	ldr	w17, [x21, #48]
	mov	w8, #1
	b	Lnoise_BB7_29
Lnoise_BB7_27:
	ldr	w17, [x26, x9, lsl #2]
	add	x10, x8, #7
	str	x10, [x21, #304]
	cmp	x8, #57
	b.lo	Lnoise_BB7_30
	mov	x24, x15
	str	w14, [sp, #40]
	mov	x22, x13
	mov	x20, x12
	mov	x19, x11
	ldp	x2, x1, [x21, #32]
	add	x3, x21, #48
	mov	x0, x21
	mov	x23, x17
	bl	"_rand_chacha::guts::refill4"
	mov	x17, x23
	mov	x8, #0
	ldr	x9, [x21, #40]
	add	x9, x9, #4
	str	x9, [x21, #40]
Lnoise_BB7_29:
	add	x9, x8, #1
	mov	x11, x19
	mov	x12, x20
	mov	x13, x22
	ldp	w14, w16, [sp, #40]
	mov	x15, x24
	b	Lnoise_BB7_9
Lnoise_BB7_30:
	ldr	w0, [x26, x10, lsl #2]
	add	x10, x8, #8
	str	x10, [x21, #304]
	cmp	x9, #62
	stp	w0, w17, [sp, #32]
	b.ne	Lnoise_BB7_32
	mov	x24, x15
	mov	x23, x14
	mov	x22, x13
	mov	x20, x12
	mov	x19, x11
	ldp	x2, x1, [x21, #32]
	add	x3, x21, #48
	mov	x0, x21
	bl	"_rand_chacha::guts::refill4"
	ldr	x8, [x21, #40]
	add	x8, x8, #4
	str	x8, [x21, #40]
	ldr	w1, [x21, #48]
	mov	w8, #1
	b	Lnoise_BB7_34
Lnoise_BB7_32:
	ldr	w1, [x26, x10, lsl #2]
	add	x9, x8, #9
	str	x9, [x21, #304]
	cmp	x8, #55
	str	w1, [sp, #28]
	b.lo	Lnoise_BB7_35
	mov	x24, x15
	mov	x23, x14
	mov	x22, x13
	mov	x20, x12
	mov	x19, x11
	ldp	x2, x1, [x21, #32]
	add	x3, x21, #48
	mov	x0, x21
	bl	"_rand_chacha::guts::refill4"
	ldr	w1, [sp, #28]
	mov	x8, #0
	ldr	x9, [x21, #40]
	add	x9, x9, #4
	str	x9, [x21, #40]
Lnoise_BB7_34:
	add	x9, x8, #1
	mov	x11, x19
	mov	x12, x20
	mov	x13, x22
	mov	x14, x23
	mov	x15, x24
	ldr	w16, [sp, #44]
	ldp	w0, w17, [sp, #32]
	b	Lnoise_BB7_10
Lnoise_BB7_35:
	ldr	w2, [x26, x9, lsl #2]
	add	x9, x8, #10
	str	x9, [x21, #304]
	cmp	x10, #62
	stp	w2, w15, [sp, #20]
	b.ne	Lnoise_BB7_37
	mov	x24, x14
	mov	x23, x13
	mov	x22, x12
	mov	x20, x11
	ldp	x2, x1, [x21, #32]
	add	x3, x21, #48
	mov	x0, x21
	bl	"_rand_chacha::guts::refill4"
	ldr	x8, [x21, #40]
	add	x8, x8, #4
	str	x8, [x21, #40]
	ldr	w19, [x21, #48]
	mov	w8, #1
	b	Lnoise_BB7_39
Lnoise_BB7_37:
	ldr	w19, [x26, x9, lsl #2]
	add	x10, x8, #11
	str	x10, [x21, #304]
	cmp	x8, #53
	b.lo	Lnoise_BB7_40
	mov	x24, x14
	mov	x23, x13
	mov	x22, x12
	mov	x20, x11
	ldp	x2, x1, [x21, #32]
	add	x3, x21, #48
	mov	x0, x21
	bl	"_rand_chacha::guts::refill4"
	mov	x8, #0
	ldr	x9, [x21, #40]
	add	x9, x9, #4
	str	x9, [x21, #40]
Lnoise_BB7_39:
	add	x9, x8, #1
	mov	x11, x20
	mov	x12, x22
	mov	x13, x23
	mov	x14, x24
	ldp	w15, w1, [sp, #24]
	ldr	w16, [sp, #44]
	ldp	w0, w17, [sp, #32]
	ldr	w2, [sp, #20]
	b	Lnoise_BB7_11
Lnoise_BB7_40:
	ldr	w20, [x26, x10, lsl #2]
	add	x10, x8, #12
	str	x10, [x21, #304]
	cmp	x9, #62
	str	w13, [sp, #16]
	str	w14, [sp, #40]
	b.ne	Lnoise_BB7_42
	mov	x23, x12
	mov	x22, x11
	ldp	x2, x1, [x21, #32]
	add	x3, x21, #48
	mov	x0, x21
	bl	"_rand_chacha::guts::refill4"
	ldr	x8, [x21, #40]
	add	x8, x8, #4
	str	x8, [x21, #40]
	ldr	w24, [x21, #48]
	mov	w8, #1
	b	Lnoise_BB7_44
Lnoise_BB7_42:
	ldr	w24, [x26, x10, lsl #2]
	add	x9, x8, #13
	str	x9, [x21, #304]
	cmp	x8, #51
	b.lo	Lnoise_BB7_45
	mov	x23, x12
	mov	x22, x11
	ldp	x2, x1, [x21, #32]
	add	x3, x21, #48
	mov	x0, x21
	bl	"_rand_chacha::guts::refill4"
	mov	x8, #0
	ldr	x9, [x21, #40]
	add	x9, x9, #4
	str	x9, [x21, #40]
Lnoise_BB7_44:
	add	x9, x8, #1
	mov	x11, x22
	mov	x12, x23
	ldp	w13, w2, [sp, #16]
	ldp	w14, w16, [sp, #40]
	ldp	w15, w1, [sp, #24]
	ldp	w0, w17, [sp, #32]
	b	Lnoise_BB7_12
Lnoise_BB7_45:
	ldr	w23, [x26, x9, lsl #2]
	add	x9, x8, #14
	str	x9, [x21, #304]
	cmp	x10, #62
	b.ne	Lnoise_BB7_47
	ldp	x2, x1, [x21, #32]
	add	x3, x21, #48
	mov	x0, x21
	str	w11, [sp, #12]
	mov	x22, x12
	bl	"_rand_chacha::guts::refill4"
	ldp	w2, w15, [sp, #20]
	ldp	w1, w0, [sp, #28]
	ldp	w17, w14, [sp, #36]
	ldr	w16, [sp, #44]
	ldp	w11, w13, [sp, #12]
	mov	x12, x22
	ldr	x8, [x21, #40]
	add	x8, x8, #4
	str	x8, [x21, #40]
	ldr	w22, [x21, #48]
	mov	w9, #1
	b	Lnoise_BB7_13
Lnoise_BB7_47:
	ldr	w22, [x26, x9, lsl #2]
	add	x9, x8, #15
	str	x9, [x21, #304]
	cmp	x8, #49
	b.lo	Lnoise_BB7_14
	ldp	x2, x1, [x21, #32]
	add	x3, x21, #48
	mov	x0, x21
	stp	w12, w11, [sp, #8]
	bl	"_rand_chacha::guts::refill4"
	ldp	w2, w15, [sp, #20]
	ldp	w1, w0, [sp, #28]
	ldp	w17, w14, [sp, #36]
	ldr	w16, [sp, #44]
	ldp	w11, w13, [sp, #12]
	ldr	w12, [sp, #8]
	mov	x9, #0
	ldr	x8, [x21, #40]
	add	x8, x8, #4
	str	x8, [x21, #40]
	b	Lnoise_BB7_14
Lnoise_BB7_49:
	cbz	x25, Lnoise_BB7_52
	ldp	x8, x9, [sp, #56]
	lsl	x8, x8, #6
	add	x8, x8, x9
	add	x19, x8, #128
Lnoise_BB7_51:
	ldr	x8, [x21, #304]
	ldp	x2, x9, [x21, #32]
	add	x8, x9, x8, lsr #4
	sub	x1, x8, #4
	str	x1, [x21, #40]
	movi.2d	v0, #0000000000000000
	stp	q0, q0, [x21, #48]
	stp	q0, q0, [x21, #80]
	stp	q0, q0, [x21, #112]
	stp	q0, q0, [x21, #144]
	stp	q0, q0, [x21, #176]
	stp	q0, q0, [x21, #208]
	stp	q0, q0, [x21, #240]
	stp	q0, q0, [x21, #272]
	mov	w20, #64
	str	x20, [x21, #304]
	add	x3, x21, #48
	mov	x0, x21
	bl	"_rand_chacha::guts::refill4"
	ldr	x11, [x21, #40]
	add	x8, x21, #108
	ldp	q21, q22, [x21, #48]
	ldp	q27, q19, [x21, #80]
	add	x9, x21, #172
	ldp	q16, q17, [x21, #112]
	ldp	q18, q20, [x21, #144]
	add	x10, x21, #236
	ldp	q3, q4, [x21, #176]
	ldp	q6, q7, [x21, #208]
	str	x20, [x21, #304]
	add	x12, x11, #4
	add	x11, x21, #300
	ldp	q0, q1, [x21, #240]
	ldp	q2, q5, [x21, #272]
	str	x12, [x21, #40]
	ldp	q25, q26, [x19, #-128]
	movi.2d	v23, #0000000000000000
	mov.b	v23[0], v19[0]
	ldp	q29, q24, [x19, #-96]
	mov.b	v23[1], v19[1]
	mov.b	v23[2], v19[2]
	mov.b	v23[3], v19[3]
	movi.2d	v28, #0000000000000000
	mov.b	v28[0], v20[0]
	mov.b	v23[4], v19[4]
	mov.b	v28[1], v20[1]
	mov.b	v28[2], v20[2]
	mov.b	v23[5], v19[5]
	mov.b	v28[3], v20[3]
	mov.b	v28[4], v20[4]
	mov.b	v23[6], v19[6]
	mov.b	v28[5], v20[5]
	mov.b	v28[6], v20[6]
	mov.b	v23[7], v19[7]
	eor.16b	v27, v29, v27
	mov.b	v28[7], v20[7]
	movi.2d	v29, #0000000000000000
	mov.b	v23[8], v19[8]
	mov.b	v29[0], v7[0]
	mov.b	v29[1], v7[1]
	mov.b	v28[8], v20[8]
	mov.b	v29[2], v7[2]
	mov.b	v29[3], v7[3]
	mov.b	v23[9], v19[9]
	mov.b	v29[4], v7[4]
	mov.b	v29[5], v7[5]
	mov.b	v28[9], v20[9]
	mov.b	v29[6], v7[6]
	mov.b	v29[7], v7[7]
	mov.b	v23[10], v19[10]
	mov.b	v29[8], v7[8]
	mov.b	v29[9], v7[9]
	mov.b	v28[10], v20[10]
	mov.b	v29[10], v7[10]
	movi.2d	v31, #0000000000000000
	mov.b	v31[0], v5[0]
	mov.b	v23[11], v19[11]
	mov.b	v31[1], v5[1]
	mov.b	v31[2], v5[2]
	mov.b	v28[11], v20[11]
	mov.b	v31[3], v5[3]
	mov.b	v31[4], v5[4]
	mov.b	v29[11], v7[11]
	mov.b	v31[5], v5[5]
	mov.b	v31[6], v5[6]
	ld1.b	{ v23 }[12], [x8]
	mov.b	v31[7], v5[7]
	mov.b	v31[8], v5[8]
	ld1.b	{ v28 }[12], [x9]
	mov.b	v31[9], v5[9]
	mov.b	v31[10], v5[10]
	ld1.b	{ v29 }[12], [x10]
	ldr	q30, [x22, lnoise_CPI7_0@PAGEOFF]
	mov.b	v31[11], v5[11]
	ld1.b	{ v31 }[12], [x11]
	eor.16b	v22, v26, v22
	eor.16b	v21, v25, v21
	stp	q21, q22, [x19, #-128]
	ldp	q21, q22, [x19, #-64]
	bit.16b	v19, v23, v30
	ldp	q23, q25, [x19, #-32]
	bit.16b	v20, v28, v30
	eor.16b	v18, v23, v18
	eor.16b	v17, v22, v17
	eor.16b	v19, v24, v19
	eor.16b	v16, v21, v16
	stp	q16, q17, [x19, #-64]
	ldp	q16, q17, [x19]
	eor.16b	v20, v25, v20
	ldp	q21, q22, [x19, #32]
	bit.16b	v7, v29, v30
	eor.16b	v6, v21, v6
	eor.16b	v4, v17, v4
	eor.16b	v7, v22, v7
	eor.16b	v3, v16, v3
	stp	q3, q4, [x19]
	ldp	q3, q4, [x19, #64]
	stp	q27, q19, [x19, #-96]
	ldp	q16, q17, [x19, #96]
	bit.16b	v5, v31, v30
	stp	q18, q20, [x19, #-32]
	eor.16b	v5, v17, v5
	eor.16b	v2, v16, v2
	eor.16b	v1, v4, v1
	eor.16b	v0, v3, v0
	stp	q6, q7, [x19, #32]
	stp	q0, q1, [x19, #64]
	stp	q2, q5, [x19, #96]
	add	x19, x19, #256
	subs	x25, x25, #1
	b.ne	Lnoise_BB7_51
Lnoise_BB7_52:
	ldp	x8, x9, [sp, #48]
	and	x8, x8, #0x3fffffffffffffc
	orr	x8, x8, x9
	lsl	x8, x8, #6
	ldr	x9, [sp, #72]
	sub	x9, x9, x8
	lsr	x23, x9, #6
	cbz	x23, Lnoise_BB7_101
	ldr	x9, [sp, #64]
	add	x24, x9, x8
	add	x25, x21, #48
Lnoise_BB7_54:
	ldr	x8, [x21, #304]
	cmp	x8, #64
	b.lo	Lnoise_BB7_56
	ldp	x2, x1, [x21, #32]
	add	x3, x21, #48
	mov	x0, x21
	bl	"_rand_chacha::guts::refill4"
	ldr	x8, [x21, #40]
	add	x8, x8, #4
	str	x8, [x21, #40]
	ldr	w11, [x21, #48]
	mov	w9, #1
	b	Lnoise_BB7_58
Lnoise_BB7_56:
	ldr	w11, [x25, x8, lsl #2]
	add	x9, x8, #1
	str	x9, [x21, #304]
	cmp	x8, #63
	b.ne	Lnoise_BB7_67
	ldp	x2, x1, [x21, #32]
	add	x3, x21, #48
	mov	x0, x21
	mov	x19, x11
	bl	"_rand_chacha::guts::refill4"
	mov	x11, x19
	mov	x9, #0
	ldr	x8, [x21, #40]
	add	x8, x8, #4
	str	x8, [x21, #40]
Lnoise_BB7_58:
	add	x8, x25, x9, lsl #2
	ldp	w12, w13, [x8], #8
	add	x9, x9, #3
Lnoise_BB7_59:
	ldr	w14, [x8]
	str	x9, [x21, #304]
	ldr	w15, [x25, x9, lsl #2]
	add	x8, x9, #1
	str	x8, [x21, #304]
	add	x9, x9, #2
Lnoise_BB7_60:
	ldr	w16, [x25, x8, lsl #2]
	str	x9, [x21, #304]
	ldr	w17, [x25, x9, lsl #2]
	add	x8, x9, #1
	str	x8, [x21, #304]
	add	x9, x9, #2
Lnoise_BB7_61:
	ldr	w0, [x25, x8, lsl #2]
	str	x9, [x21, #304]
	ldr	w1, [x25, x9, lsl #2]
	add	x8, x9, #1
	str	x8, [x21, #304]
	add	x9, x9, #2
Lnoise_BB7_62:
	ldr	w27, [x25, x8, lsl #2]
	str	x9, [x21, #304]
	ldr	w22, [x25, x9, lsl #2]
	add	x8, x9, #1
	str	x8, [x21, #304]
	add	x9, x9, #2
Lnoise_BB7_63:
	ldr	w28, [x25, x8, lsl #2]
	str	x9, [x21, #304]
	ldr	w19, [x25, x9, lsl #2]
	add	x8, x9, #1
	str	x8, [x21, #304]
	add	x9, x9, #2
Lnoise_BB7_64:
	ldr	w20, [x25, x8, lsl #2]
	str	x9, [x21, #304]
	ldr	w26, [x25, x9, lsl #2]
	add	x9, x9, #1
Lnoise_BB7_65:
	str	x9, [x21, #304]
Lnoise_BB7_66:
	ldr	w8, [x25, x9, lsl #2]
	fmov	s0, w19
	mov.s	v0[1], w20
	mov.s	v0[2], w26
	mov.s	v0[3], w8
	fmov	s1, w11
	mov.s	v1[1], w12
	mov.s	v1[2], w13
	mov.s	v1[3], w14
	fmov	s2, w15
	mov.s	v2[1], w16
	mov.s	v2[2], w17
	add	x9, x9, #1
	mov.s	v2[3], w0
	fmov	s3, w1
	mov.s	v3[1], w27
	str	x9, [x21, #304]
	mov.s	v3[2], w22
	mov.s	v3[3], w28
	ldp	q4, q5, [x24]
	ldp	q6, q7, [x24, #32]
	movi.2d	v16, #0000000000000000
	mov.b	v16[0], v0[0]
	mov.b	v16[1], v0[1]
	mov.b	v16[2], v0[2]
	mov.b	v16[3], v0[3]
	mov.b	v16[4], v0[4]
	mov.b	v16[5], v0[5]
	mov.b	v16[6], v0[6]
	mov.b	v16[7], v0[7]
	mov.b	v16[8], v0[8]
	mov.b	v16[9], v0[9]
	mov.b	v16[10], v0[10]
	mov.b	v16[11], v0[11]
	mov.b	v16[12], w8
Lnoise_loh10:
	adrp	x8, lnoise_CPI7_0@PAGE
Lnoise_loh11:
	ldr	q17, [x8, lnoise_CPI7_0@PAGEOFF]
	bit.16b	v0, v16, v17
	eor.16b	v0, v0, v7
	eor.16b	v3, v3, v6
	eor.16b	v2, v2, v5
	eor.16b	v1, v1, v4
	stp	q1, q2, [x24]
	stp	q3, q0, [x24, #32]
	add	x24, x24, #64
	subs	x23, x23, #1
	b.ne	Lnoise_BB7_54
	b	Lnoise_BB7_101
Lnoise_BB7_67:
	ldr	w12, [x25, x9, lsl #2]
	add	x9, x8, #2
	str	x9, [x21, #304]
	cmp	x8, #62
	b.lo	Lnoise_BB7_69
	mov	x20, x12
	mov	x19, x11
	ldp	x2, x1, [x21, #32]
	add	x3, x21, #48
	mov	x0, x21
	bl	"_rand_chacha::guts::refill4"
	ldr	x8, [x21, #40]
	add	x8, x8, #4
	str	x8, [x21, #40]
	ldr	w13, [x21, #48]
	mov	w9, #1
	b	Lnoise_BB7_71
Lnoise_BB7_69:
	ldr	w13, [x25, x9, lsl #2]
	add	x10, x8, #3
	str	x10, [x21, #304]
	cmp	x8, #61
	b.ne	Lnoise_BB7_72
	mov	x20, x12
	mov	x19, x11
	ldp	x2, x1, [x21, #32]
	add	x3, x21, #48
	mov	x0, x21
	mov	x22, x13
	bl	"_rand_chacha::guts::refill4"
	mov	x13, x22
	mov	x9, #0
	ldr	x8, [x21, #40]
	add	x8, x8, #4
	str	x8, [x21, #40]
Lnoise_BB7_71:
	add	x8, x25, x9, lsl #2
	add	x9, x9, #1
	mov	x11, x19
	mov	x12, x20
	b	Lnoise_BB7_59
Lnoise_BB7_72:
	ldr	w14, [x25, x10, lsl #2]
	add	x10, x8, #4
	str	x10, [x21, #304]
	cmp	x9, #62
	b.ne	Lnoise_BB7_74
	mov	x26, x14
	mov	x22, x13
	mov	x20, x12
	mov	x19, x11
	ldp	x2, x1, [x21, #32]
	add	x3, x21, #48
	mov	x0, x21
	bl	"_rand_chacha::guts::refill4"
	ldr	x8, [x21, #40]
	add	x8, x8, #4
	str	x8, [x21, #40]
	ldr	w15, [x21, #48]
	mov	w8, #1
	b	Lnoise_BB7_76
Lnoise_BB7_74:
	ldr	w15, [x25, x10, lsl #2]
	add	x9, x8, #5
	str	x9, [x21, #304]
	cmp	x8, #59
	b.lo	Lnoise_BB7_77
	mov	x26, x14
	mov	x22, x13
	mov	x20, x12
	mov	x19, x11
	ldp	x2, x1, [x21, #32]
	add	x3, x21, #48
	mov	x0, x21
	mov	x27, x15
	bl	"_rand_chacha::guts::refill4"
	mov	x15, x27
	mov	x8, #0
	ldr	x9, [x21, #40]
	add	x9, x9, #4
	str	x9, [x21, #40]
Lnoise_BB7_76:
	add	x9, x8, #1
	mov	x11, x19
	mov	x12, x20
	mov	x13, x22
	mov	x14, x26
	b	Lnoise_BB7_60
Lnoise_BB7_77:
	ldr	w16, [x25, x9, lsl #2]
	add	x9, x8, #6
	str	x9, [x21, #304]
	cmp	x10, #62
	b.ne	Lnoise_BB7_79
	str	w16, [sp, #56]
	mov	x27, x15
	mov	x26, x14
	mov	x22, x13
	mov	x20, x12
	mov	x19, x11
	ldp	x2, x1, [x21, #32]
	add	x3, x21, #48
	mov	x0, x21
	bl	"_rand_chacha::guts::refill4"
	ldr	x8, [x21, #40]
	add	x8, x8, #4
	str	x8, [x21, #40]
	ldr	w17, [x21, #48]
	mov	w8, #1
	b	Lnoise_BB7_81
Lnoise_BB7_79:
	ldr	w17, [x25, x9, lsl #2]
	add	x10, x8, #7
	str	x10, [x21, #304]
	cmp	x8, #57
	b.lo	Lnoise_BB7_82
	str	w16, [sp, #56]
	mov	x27, x15
	mov	x26, x14
	mov	x22, x13
	mov	x20, x12
	mov	x19, x11
	ldp	x2, x1, [x21, #32]
	add	x3, x21, #48
	mov	x0, x21
	mov	x28, x17
	bl	"_rand_chacha::guts::refill4"
	mov	x17, x28
	mov	x8, #0
	ldr	x9, [x21, #40]
	add	x9, x9, #4
	str	x9, [x21, #40]
Lnoise_BB7_81:
	add	x9, x8, #1
	mov	x11, x19
	mov	x12, x20
	mov	x13, x22
	mov	x14, x26
	mov	x15, x27
	ldr	w16, [sp, #56]
	b	Lnoise_BB7_61
Lnoise_BB7_82:
	ldr	w0, [x25, x10, lsl #2]
	add	x10, x8, #8
	str	x10, [x21, #304]
	cmp	x9, #62
	stp	w0, w17, [sp, #44]
	b.ne	Lnoise_BB7_84
	mov	x28, x16
	mov	x27, x15
	mov	x26, x14
	mov	x22, x13
	mov	x20, x12
	mov	x19, x11
	ldp	x2, x1, [x21, #32]
	add	x3, x21, #48
	mov	x0, x21
	bl	"_rand_chacha::guts::refill4"
	ldr	x8, [x21, #40]
	add	x8, x8, #4
	str	x8, [x21, #40]
	ldr	w1, [x21, #48]
	mov	w8, #1
	b	Lnoise_BB7_86
Lnoise_BB7_84:
	ldr	w1, [x25, x10, lsl #2]
	add	x9, x8, #9
	str	x9, [x21, #304]
	cmp	x8, #55
	str	w1, [sp, #40]
	b.lo	Lnoise_BB7_87
	mov	x28, x16
	mov	x27, x15
	mov	x26, x14
	mov	x22, x13
	mov	x20, x12
	mov	x19, x11
	ldp	x2, x1, [x21, #32]
	add	x3, x21, #48
	mov	x0, x21
	bl	"_rand_chacha::guts::refill4"
	ldr	w1, [sp, #40]
	mov	x8, #0
	ldr	x9, [x21, #40]
	add	x9, x9, #4
	str	x9, [x21, #40]
Lnoise_BB7_86:
	add	x9, x8, #1
	mov	x11, x19
	mov	x12, x20
	mov	x13, x22
	mov	x14, x26
	mov	x15, x27
	mov	x16, x28
	ldp	w0, w17, [sp, #44]
	b	Lnoise_BB7_62
Lnoise_BB7_87:
	ldr	w27, [x25, x9, lsl #2]
	add	x9, x8, #10
	str	x9, [x21, #304]
	cmp	x10, #62
	str	w15, [sp, #36]
	str	w16, [sp, #56]
	b.ne	Lnoise_BB7_89
	mov	x28, x14
	mov	x26, x13
	mov	x20, x12
	mov	x19, x11
	ldp	x2, x1, [x21, #32]
	add	x3, x21, #48
	mov	x0, x21
	bl	"_rand_chacha::guts::refill4"
	ldr	x8, [x21, #40]
	add	x8, x8, #4
	str	x8, [x21, #40]
	ldr	w22, [x21, #48]
	mov	w8, #1
	b	Lnoise_BB7_91
Lnoise_BB7_89:
	ldr	w22, [x25, x9, lsl #2]
	add	x10, x8, #11
	str	x10, [x21, #304]
	cmp	x8, #53
	b.lo	Lnoise_BB7_92
	mov	x28, x14
	mov	x26, x13
	mov	x20, x12
	mov	x19, x11
	ldp	x2, x1, [x21, #32]
	add	x3, x21, #48
	mov	x0, x21
	bl	"_rand_chacha::guts::refill4"
	mov	x8, #0
	ldr	x9, [x21, #40]
	add	x9, x9, #4
	str	x9, [x21, #40]
Lnoise_BB7_91:
	add	x9, x8, #1
	mov	x11, x19
	mov	x12, x20
	mov	x13, x26
	mov	x14, x28
	ldp	w15, w1, [sp, #36]
	ldr	w16, [sp, #56]
	ldp	w0, w17, [sp, #44]
	b	Lnoise_BB7_63
Lnoise_BB7_92:
	ldr	w28, [x25, x10, lsl #2]
	add	x10, x8, #12
	str	x10, [x21, #304]
	cmp	x9, #62
	stp	w14, w13, [sp, #28]
	b.ne	Lnoise_BB7_94
	mov	x26, x12
	mov	x20, x11
	ldp	x2, x1, [x21, #32]
	add	x3, x21, #48
	mov	x0, x21
	bl	"_rand_chacha::guts::refill4"
	ldr	x8, [x21, #40]
	add	x8, x8, #4
	str	x8, [x21, #40]
	ldr	w19, [x21, #48]
	mov	w8, #1
	b	Lnoise_BB7_96
Lnoise_BB7_94:
	ldr	w19, [x25, x10, lsl #2]
	add	x9, x8, #13
	str	x9, [x21, #304]
	cmp	x8, #51
	b.lo	Lnoise_BB7_97
	mov	x26, x12
	mov	x20, x11
	ldp	x2, x1, [x21, #32]
	add	x3, x21, #48
	mov	x0, x21
	bl	"_rand_chacha::guts::refill4"
	mov	x8, #0
	ldr	x9, [x21, #40]
	add	x9, x9, #4
	str	x9, [x21, #40]
Lnoise_BB7_96:
	add	x9, x8, #1
	mov	x11, x20
	mov	x12, x26
	ldp	w14, w13, [sp, #28]
	ldp	w15, w1, [sp, #36]
	ldr	w16, [sp, #56]
	ldp	w0, w17, [sp, #44]
	b	Lnoise_BB7_64
Lnoise_BB7_97:
	ldr	w20, [x25, x9, lsl #2]
	add	x9, x8, #14
	str	x9, [x21, #304]
	cmp	x10, #62
	b.ne	Lnoise_BB7_99
	ldp	x2, x1, [x21, #32]
	add	x3, x21, #48
	mov	x0, x21
	str	w11, [sp, #24]
	mov	x26, x12
	bl	"_rand_chacha::guts::refill4"
	ldp	w1, w0, [sp, #40]
	ldr	w17, [sp, #48]
	ldr	w16, [sp, #56]
	ldp	w13, w15, [sp, #32]
	ldp	w11, w14, [sp, #24]
	mov	x12, x26
	ldr	x8, [x21, #40]
	add	x8, x8, #4
	str	x8, [x21, #40]
	ldr	w26, [x21, #48]
	mov	w9, #1
	b	Lnoise_BB7_65
Lnoise_BB7_99:
	ldr	w26, [x25, x9, lsl #2]
	add	x9, x8, #15
	str	x9, [x21, #304]
	cmp	x8, #49
	b.lo	Lnoise_BB7_66
	ldp	x2, x1, [x21, #32]
	add	x3, x21, #48
	mov	x0, x21
	stp	w12, w11, [sp, #20]
	bl	"_rand_chacha::guts::refill4"
	ldp	w1, w0, [sp, #40]
	ldr	w17, [sp, #48]
	ldr	w16, [sp, #56]
	ldp	w13, w15, [sp, #32]
	ldp	w11, w14, [sp, #24]
	ldr	w12, [sp, #20]
	mov	x9, #0
	ldr	x8, [x21, #40]
	add	x8, x8, #4
	str	x8, [x21, #40]
	b	Lnoise_BB7_66
Lnoise_BB7_101:
	ldr	x8, [sp, #72]
	ands	x22, x8, #0x3f
	b.eq	Lnoise_BB7_128
	movi.2d	v0, #0000000000000000
	stp	q0, q0, [sp, #112]
	stp	q0, q0, [sp, #80]
	ldr	x8, [x21, #304]
	cmp	x8, #64
	b.lo	Lnoise_BB7_104
	ldp	x2, x1, [x21, #32]
	add	x23, x21, #48
	add	x3, x21, #48
	mov	x0, x21
	bl	"_rand_chacha::guts::refill4"
	ldr	x8, [x21, #40]
	add	x8, x8, #4
	str	x8, [x21, #40]
	ldr	w11, [x21, #48]
	mov	w8, #1
	b	Lnoise_BB7_106
Lnoise_BB7_104:
	add	x23, x21, #48
	ldr	w11, [x23, x8, lsl #2]
	add	x9, x8, #1
	str	x9, [x21, #304]
	cmp	x8, #63
	b.ne	Lnoise_BB7_117
	ldp	x2, x1, [x21, #32]
	add	x3, x21, #48
	mov	x0, x21
	mov	x19, x11
	bl	"_rand_chacha::guts::refill4"
	mov	x11, x19
	mov	x8, #0
	ldr	x9, [x21, #40]
	add	x9, x9, #4
	str	x9, [x21, #40]
Lnoise_BB7_106:
	add	x9, x21, #48
	add	x10, x9, x8, lsl #2
	ldp	w12, w13, [x10]
	orr	x10, x8, #0x2
	str	x10, [x21, #304]
	add	x9, x9, x10, lsl #2
	add	x8, x8, #3
Lnoise_BB7_107:
	ldr	w14, [x9]
	str	x8, [x21, #304]
	ldr	w15, [x23, x8, lsl #2]
	add	x9, x8, #1
	str	x9, [x21, #304]
	add	x9, x23, x9, lsl #2
	add	x8, x8, #2
Lnoise_BB7_108:
	ldr	w16, [x9]
	str	x8, [x21, #304]
	ldr	w17, [x23, x8, lsl #2]
	add	x9, x8, #1
	str	x9, [x21, #304]
	add	x9, x23, x9, lsl #2
	add	x8, x8, #2
Lnoise_BB7_109:
	ldr	w0, [x9]
	str	x8, [x21, #304]
	ldr	w25, [x23, x8, lsl #2]
	add	x9, x8, #1
	str	x9, [x21, #304]
	add	x9, x23, x9, lsl #2
	add	x8, x8, #2
Lnoise_BB7_110:
	ldr	w19, [x9]
	str	x8, [x21, #304]
	ldr	w20, [x23, x8, lsl #2]
	add	x9, x8, #1
	str	x9, [x21, #304]
	add	x9, x23, x9, lsl #2
	add	x8, x8, #2
Lnoise_BB7_111:
	ldr	w26, [x9]
	str	x8, [x21, #304]
	ldr	w27, [x23, x8, lsl #2]
	add	x9, x8, #1
	str	x9, [x21, #304]
	add	x9, x23, x9, lsl #2
	add	x8, x8, #2
Lnoise_BB7_112:
	ldr	w28, [x9]
	str	x8, [x21, #304]
	ldr	w24, [x23, x8, lsl #2]
	add	x9, x8, #1
	str	x9, [x21, #304]
Lnoise_BB7_113:
	ldr	w10, [x23, x9, lsl #2]
	ldr	x8, [sp, #72]
	and	x8, x8, #0xffffffffffffffc0
	dup.4s	v0, w10
	fmov	s1, w11
	mov.s	v1[1], w12
	add	x9, x9, #1
	mov.s	v1[2], w13
	mov.s	v1[3], w14
	fmov	s2, w15
	mov.s	v2[1], w16
	mov.s	v2[2], w17
	mov.s	v2[3], w0
	str	x9, [x21, #304]
	stp	q1, q2, [sp, #80]
	fmov	s1, w25
	mov.s	v1[1], w19
	mov.s	v1[2], w20
	mov.s	v1[3], w26
	str	q1, [sp, #112]
	fmov	s1, w27
	mov.s	v1[1], w28
	str	d1, [sp, #128]
	str	w24, [sp, #136]
	strb	w10, [sp, #140]
	mov	b1, v0[13]
	stur	b1, [sp, #141]
	mov	b1, v0[14]
	stur	b1, [sp, #142]
	mov	b0, v0[15]
	stur	b0, [sp, #143]
	cmp	x22, #8
	b.hs	Lnoise_BB7_115
	mov	x9, #0
	b	Lnoise_BB7_126
Lnoise_BB7_115:
	cmp	x22, #32
	b.hs	Lnoise_BB7_119
	mov	x9, #0
	b	Lnoise_BB7_123
Lnoise_BB7_117:
	ldr	w12, [x23, x9, lsl #2]
	add	x9, x8, #2
	str	x9, [x21, #304]
	cmp	x8, #62
	b.lo	Lnoise_BB7_129
	mov	x20, x12
	mov	x19, x11
	ldp	x2, x1, [x21, #32]
	add	x3, x21, #48
	mov	x0, x21
	bl	"_rand_chacha::guts::refill4"
	ldr	x8, [x21, #40]
	add	x8, x8, #4
	str	x8, [x21, #40]
	ldr	w13, [x21, #48]
	mov	w8, #1
	str	x8, [x21, #304]
	b	Lnoise_BB7_131
Lnoise_BB7_119:
	ldp	x12, x13, [sp, #64]
	and	x10, x13, #0x18
	and	x9, x13, #0x20
	add	x11, sp, #80
	add	x11, x11, #16
	add	x12, x8, x12
	add	x12, x12, #16
	and	x13, x13, #0x20
Lnoise_BB7_120:
	ldp	q0, q1, [x11, #-16]
	ldp	q2, q3, [x12, #-16]
	eor.16b	v0, v2, v0
	eor.16b	v1, v3, v1
	stp	q0, q1, [x12, #-16]
	add	x11, x11, #32
	add	x12, x12, #32
	subs	x13, x13, #32
	b.ne	Lnoise_BB7_120
	cmp	x22, x9
	b.eq	Lnoise_BB7_128
	cbz	x10, Lnoise_BB7_126
Lnoise_BB7_123:
	mov	x12, x9
	ldp	x13, x9, [sp, #64]
	and	x9, x9, #0x38
	sub	x10, x12, x9
	add	x11, sp, #80
	add	x11, x11, x12
	add	x12, x12, x8
	add	x12, x13, x12
Lnoise_BB7_124:
	ldr	d0, [x11], #8
	ldr	d1, [x12]
	eor.8b	v0, v1, v0
	str	d0, [x12], #8
	adds	x10, x10, #8
	b.ne	Lnoise_BB7_124
	cmp	x22, x9
	b.eq	Lnoise_BB7_128
Lnoise_BB7_126:
	sub	x10, x22, x9
	add	x11, sp, #80
	add	x11, x11, x9
	add	x8, x9, x8
	ldr	x9, [sp, #64]
	add	x8, x9, x8
Lnoise_BB7_127:
	ldrb	w9, [x11], #1
	ldrb	w12, [x8]
	eor	w9, w12, w9
	strb	w9, [x8], #1
	subs	x10, x10, #1
	b.ne	Lnoise_BB7_127
Lnoise_BB7_128:
	.cfi_def_cfa wsp, 240
	ldp	x29, x30, [sp, #224]
	ldp	x20, x19, [sp, #208]
	ldp	x22, x21, [sp, #192]
	ldp	x24, x23, [sp, #176]
	ldp	x26, x25, [sp, #160]
	ldp	x28, x27, [sp, #144]
	add	sp, sp, #240
	.cfi_def_cfa_offset 0
	.cfi_restore w30
	.cfi_restore w29
	.cfi_restore w19
	.cfi_restore w20
	.cfi_restore w21
	.cfi_restore w22
	.cfi_restore w23
	.cfi_restore w24
	.cfi_restore w25
	.cfi_restore w26
	.cfi_restore w27
	.cfi_restore w28
	ret
Lnoise_BB7_129:
	.cfi_restore_state
	ldr	w13, [x23, x9, lsl #2]
	add	x10, x8, #3
	str	x10, [x21, #304]
	cmp	x8, #61
	b.ne	Lnoise_BB7_132
	mov	x20, x12
	mov	x19, x11
	ldp	x2, x1, [x21, #32]
	add	x3, x21, #48
	mov	x0, x21
	mov	x24, x13
	bl	"_rand_chacha::guts::refill4"
	mov	x13, x24
	mov	x8, #0
	ldr	x9, [x21, #40]
	add	x9, x9, #4
	str	x9, [x21, #40]
Lnoise_BB7_131:
	add	x9, x23, x8, lsl #2
	add	x8, x8, #1
	mov	x11, x19
	mov	x12, x20
	b	Lnoise_BB7_107
Lnoise_BB7_132:
	ldr	w14, [x23, x10, lsl #2]
	add	x10, x8, #4
	str	x10, [x21, #304]
	cmp	x9, #62
	b.ne	Lnoise_BB7_134
	mov	x25, x14
	mov	x24, x13
	mov	x20, x12
	mov	x19, x11
	ldp	x2, x1, [x21, #32]
	add	x3, x21, #48
	mov	x0, x21
	bl	"_rand_chacha::guts::refill4"
	ldr	x8, [x21, #40]
	add	x8, x8, #4
	str	x8, [x21, #40]
	ldr	w15, [x21, #48]
	mov	w8, #1
	str	x8, [x21, #304]
	b	Lnoise_BB7_136
Lnoise_BB7_134:
	ldr	w15, [x23, x10, lsl #2]
	add	x9, x8, #5
	str	x9, [x21, #304]
	cmp	x8, #59
	b.lo	Lnoise_BB7_137
	mov	x25, x14
	mov	x24, x13
	mov	x20, x12
	mov	x19, x11
	ldp	x2, x1, [x21, #32]
	add	x3, x21, #48
	mov	x0, x21
	mov	x26, x15
	bl	"_rand_chacha::guts::refill4"
	mov	x15, x26
	mov	x8, #0
	ldr	x9, [x21, #40]
	add	x9, x9, #4
	str	x9, [x21, #40]
Lnoise_BB7_136:
	add	x9, x23, x8, lsl #2
	add	x8, x8, #1
	mov	x11, x19
	mov	x12, x20
	mov	x13, x24
	mov	x14, x25
	b	Lnoise_BB7_108
Lnoise_BB7_137:
	ldr	w27, [x23, x9, lsl #2]
	add	x9, x8, #6
	str	x9, [x21, #304]
	cmp	x10, #62
	b.ne	Lnoise_BB7_139
	mov	x26, x15
	mov	x25, x14
	mov	x24, x13
	mov	x20, x12
	mov	x19, x11
	ldp	x2, x1, [x21, #32]
	add	x3, x21, #48
	mov	x0, x21
	bl	"_rand_chacha::guts::refill4"
	ldr	x8, [x21, #40]
	add	x8, x8, #4
	str	x8, [x21, #40]
	ldr	w17, [x21, #48]
	mov	w8, #1
	str	x8, [x21, #304]
	b	Lnoise_BB7_141
Lnoise_BB7_139:
	ldr	w16, [x23, x9, lsl #2]
	add	x10, x8, #7
	str	x10, [x21, #304]
	cmp	x8, #57
	b.lo	Lnoise_BB7_142
	mov	x26, x15
	mov	x25, x14
	mov	x24, x13
	mov	x20, x12
	mov	x19, x11
	ldp	x2, x1, [x21, #32]
	add	x3, x21, #48
	mov	x0, x21
	mov	x28, x16
	bl	"_rand_chacha::guts::refill4"
	mov	x17, x28
	mov	x8, #0
	ldr	x9, [x21, #40]
	add	x9, x9, #4
	str	x9, [x21, #40]
Lnoise_BB7_141:
	add	x9, x23, x8, lsl #2
	add	x8, x8, #1
	mov	x11, x19
	mov	x12, x20
	mov	x13, x24
	mov	x14, x25
	mov	x15, x26
	mov	x16, x27
	b	Lnoise_BB7_109
Lnoise_BB7_142:
	ldr	w17, [x23, x10, lsl #2]
	add	x10, x8, #8
	str	x10, [x21, #304]
	cmp	x9, #62
	str	w16, [sp, #56]
	str	w17, [sp, #48]
	b.ne	Lnoise_BB7_144
	mov	x28, x27
	mov	x27, x15
	mov	x26, x14
	mov	x24, x13
	mov	x20, x12
	mov	x19, x11
	ldp	x2, x1, [x21, #32]
	add	x3, x21, #48
	mov	x0, x21
	bl	"_rand_chacha::guts::refill4"
	ldr	x8, [x21, #40]
	add	x8, x8, #4
	str	x8, [x21, #40]
	ldr	w25, [x21, #48]
	mov	w8, #1
	str	x8, [x21, #304]
	b	Lnoise_BB7_146
Lnoise_BB7_144:
	ldr	w25, [x23, x10, lsl #2]
	add	x9, x8, #9
	str	x9, [x21, #304]
	cmp	x8, #55
	b.lo	Lnoise_BB7_147
	mov	x28, x27
	mov	x27, x15
	mov	x26, x14
	mov	x24, x13
	mov	x20, x12
	mov	x19, x11
	ldp	x2, x1, [x21, #32]
	add	x3, x21, #48
	mov	x0, x21
	bl	"_rand_chacha::guts::refill4"
	mov	x8, #0
	ldr	x9, [x21, #40]
	add	x9, x9, #4
	str	x9, [x21, #40]
Lnoise_BB7_146:
	add	x9, x23, x8, lsl #2
	add	x8, x8, #1
	mov	x11, x19
	mov	x12, x20
	mov	x13, x24
	mov	x14, x26
	mov	x15, x27
	mov	x16, x28
	ldr	w17, [sp, #56]
	ldr	w0, [sp, #48]
	b	Lnoise_BB7_110
Lnoise_BB7_147:
	ldr	w19, [x23, x9, lsl #2]
	add	x9, x8, #10
	str	x9, [x21, #304]
	cmp	x10, #62
	stp	w27, w15, [sp, #40]
	b.ne	Lnoise_BB7_149
	mov	x28, x14
	mov	x27, x13
	mov	x26, x12
	mov	x24, x11
	ldp	x2, x1, [x21, #32]
	add	x3, x21, #48
	mov	x0, x21
	bl	"_rand_chacha::guts::refill4"
	ldr	x8, [x21, #40]
	add	x8, x8, #4
	str	x8, [x21, #40]
	ldr	w20, [x21, #48]
	mov	w8, #1
	str	x8, [x21, #304]
	b	Lnoise_BB7_151
Lnoise_BB7_149:
	ldr	w20, [x23, x9, lsl #2]
	add	x10, x8, #11
	str	x10, [x21, #304]
	cmp	x8, #53
	b.lo	Lnoise_BB7_152
	mov	x28, x14
	mov	x27, x13
	mov	x26, x12
	mov	x24, x11
	ldp	x2, x1, [x21, #32]
	add	x3, x21, #48
	mov	x0, x21
	bl	"_rand_chacha::guts::refill4"
	mov	x8, #0
	ldr	x9, [x21, #40]
	add	x9, x9, #4
	str	x9, [x21, #40]
Lnoise_BB7_151:
	add	x9, x23, x8, lsl #2
	add	x8, x8, #1
	mov	x11, x24
	mov	x12, x26
	mov	x13, x27
	mov	x14, x28
	ldp	w16, w15, [sp, #40]
	ldr	w17, [sp, #56]
	ldr	w0, [sp, #48]
	b	Lnoise_BB7_111
Lnoise_BB7_152:
	stp	w14, w13, [sp, #24]
	stp	w12, w11, [sp, #32]
	ldr	w26, [x23, x10, lsl #2]
	add	x10, x8, #12
	str	x10, [x21, #304]
	cmp	x9, #62
	b.ne	Lnoise_BB7_154
	ldp	x2, x1, [x21, #32]
	add	x3, x21, #48
	mov	x0, x21
	bl	"_rand_chacha::guts::refill4"
	ldr	x8, [x21, #40]
	add	x8, x8, #4
	str	x8, [x21, #40]
	ldr	w27, [x21, #48]
	mov	w8, #1
	str	x8, [x21, #304]
	b	Lnoise_BB7_156
Lnoise_BB7_154:
	ldr	w27, [x23, x10, lsl #2]
	add	x9, x8, #13
	str	x9, [x21, #304]
	cmp	x8, #51
	b.lo	Lnoise_BB7_157
	ldp	x2, x1, [x21, #32]
	add	x3, x21, #48
	mov	x0, x21
	bl	"_rand_chacha::guts::refill4"
	mov	x8, #0
	ldr	x9, [x21, #40]
	add	x9, x9, #4
	str	x9, [x21, #40]
Lnoise_BB7_156:
	add	x9, x23, x8, lsl #2
	add	x8, x8, #1
	ldp	w12, w11, [sp, #32]
	ldp	w14, w13, [sp, #24]
	ldp	w16, w15, [sp, #40]
	ldr	w17, [sp, #56]
	ldr	w0, [sp, #48]
	b	Lnoise_BB7_112
Lnoise_BB7_157:
	ldr	w28, [x23, x9, lsl #2]
	add	x9, x8, #14
	str	x9, [x21, #304]
	cmp	x10, #62
	b.ne	Lnoise_BB7_159
	ldp	x2, x1, [x21, #32]
	add	x3, x21, #48
	mov	x0, x21
	bl	"_rand_chacha::guts::refill4"
	ldr	x8, [x21, #40]
	add	x8, x8, #4
	str	x8, [x21, #40]
	ldr	w24, [x21, #48]
	mov	w9, #1
	str	x9, [x21, #304]
	b	Lnoise_BB7_161
Lnoise_BB7_159:
	ldr	w24, [x23, x9, lsl #2]
	add	x9, x8, #15
	str	x9, [x21, #304]
	cmp	x8, #49
	b.lo	Lnoise_BB7_161
	ldp	x2, x1, [x21, #32]
	add	x3, x21, #48
	mov	x0, x21
	bl	"_rand_chacha::guts::refill4"
	mov	x9, #0
	ldr	x8, [x21, #40]
	add	x8, x8, #4
	str	x8, [x21, #40]
Lnoise_BB7_161:
	ldp	w12, w11, [sp, #32]
	ldp	w14, w13, [sp, #24]
	ldp	w16, w15, [sp, #40]
	ldr	w17, [sp, #56]
	ldr	w0, [sp, #48]
	b	Lnoise_BB7_113
	.loh AdrpLdr	Lnoise_loh10, Lnoise_loh11
	.cfi_endproc

	.p2align	2
"_noise_state::cipher::CipherState::encrypt":
	.cfi_startproc
	ldrb	w8, [x1]
	cmp	w8, #1
	b.ne	Lnoise_BB8_4
	ldr	x8, [x1, #40]
	cmn	x8, #1
	b.eq	Lnoise_BB8_5
	lsr	x9, x5, #4
	cmp	x9, #4095
	b.lo	Lnoise_BB8_6
	mov	w8, #769
	strh	w8, [x0]
	str	xzr, [x0, #8]
	ret
Lnoise_BB8_4:
	lsr	x8, x5, #16
	cmp	x8, #0
	csel	x8, xzr, x5, ne
	cset	w9, ne
	mov	w10, #3
	strb	w9, [x0]
	csel	w9, w10, wzr, ne
	strb	w9, [x0, #1]
	str	x8, [x0, #8]
	ret
Lnoise_BB8_5:
	mov	w8, #1
	strh	w8, [x0]
	str	xzr, [x0, #8]
	ret
Lnoise_BB8_6:
	sub	sp, sp, #464
	.cfi_def_cfa_offset 464
	stp	x28, x27, [sp, #384]
	stp	x24, x23, [sp, #400]
	stp	x22, x21, [sp, #416]
	stp	x20, x19, [sp, #432]
	stp	x29, x30, [sp, #448]
	add	x29, sp, #448
	.cfi_def_cfa w29, 16
	.cfi_offset w30, -8
	.cfi_offset w29, -16
	.cfi_offset w19, -24
	.cfi_offset w20, -32
	.cfi_offset w21, -40
	.cfi_offset w22, -48
	.cfi_offset w23, -56
	.cfi_offset w24, -64
	.cfi_offset w27, -72
	.cfi_offset w28, -80
	ldur	q0, [x1, #1]
	ldur	q1, [x1, #17]
	add	x9, sp, #48
	movi.2d	v2, #0000000000000000
	stp	q2, q2, [sp, #96]
	stp	q2, q2, [sp, #128]
	stp	q2, q2, [sp, #160]
	stp	q2, q2, [sp, #192]
	stp	q2, q2, [sp, #224]
	stp	q2, q2, [sp, #256]
	stp	q2, q2, [sp, #288]
	stp	q2, q2, [sp, #320]
	stp	q0, q1, [sp, #48]
	stp	x8, xzr, [sp, #80]
	mov	w10, #64
	str	x10, [sp, #352]
	mov	x23, x0
	add	x0, sp, #48
	mov	x19, x3
	add	x3, x9, #48
	mov	x24, x1
	mov	x1, #0
	mov	x20, x2
	mov	x2, x8
	mov	x21, x5
	mov	x22, x4
	bl	"_rand_chacha::guts::refill4"
	ldr	x8, [sp, #88]
	add	x8, x8, #4
	ldp	d0, d1, [sp, #96]
	ldr	w9, [sp, #124]
	ldr	q2, [sp, #112]
	mov	w10, #16
	mov.d	v0[1], v1[0]
	str	x8, [sp, #88]
	str	x10, [sp, #352]
	str	q0, [sp, #16]
	str	d2, [sp, #32]
	mov	s0, v2[2]
	str	s0, [sp, #40]
	strb	w9, [sp, #44]
	mov	b0, v2[13]
	stur	b0, [sp, #45]
	mov	b0, v2[14]
	stur	b0, [sp, #46]
	mov	b0, v2[15]
	stur	b0, [sp, #47]
	add	x0, sp, #48
	mov	x1, x22
	mov	x2, x21
	bl	"_noise_aead::keystream::apply"
	sub	x0, x29, #80
	add	x1, sp, #16
	mov	x2, x20
	mov	x3, x19
	mov	x4, x22
	mov	x5, x21
	bl	"_noise_aead::authenticator::tag"
	ldur	q0, [x29, #-80]
	str	q0, [sp]
	str	q0, [x22, x21]
	add	x8, x21, #16
	ldr	x9, [x24, #40]
	add	x9, x9, #1
	str	x9, [x24, #40]
	strh	wzr, [x23]
	str	x8, [x23, #8]
	.cfi_def_cfa wsp, 464
	ldp	x29, x30, [sp, #448]
	ldp	x20, x19, [sp, #432]
	ldp	x22, x21, [sp, #416]
	ldp	x24, x23, [sp, #400]
	ldp	x28, x27, [sp, #384]
	add	sp, sp, #464
	.cfi_def_cfa_offset 0
	.cfi_restore w30
	.cfi_restore w29
	.cfi_restore w19
	.cfi_restore w20
	.cfi_restore w21
	.cfi_restore w22
	.cfi_restore w23
	.cfi_restore w24
	.cfi_restore w27
	.cfi_restore w28
	ret
	.cfi_endproc

	.p2align	2
"_noise_state::cipher::CipherState::rekey":
	.cfi_startproc
	ldrb	w8, [x0]
	cmp	w8, #1
	b.ne	Lnoise_BB9_10
	sub	sp, sp, #448
	.cfi_def_cfa_offset 448
	stp	x28, x27, [sp, #352]
	stp	x26, x25, [sp, #368]
	stp	x24, x23, [sp, #384]
	stp	x22, x21, [sp, #400]
	stp	x20, x19, [sp, #416]
	stp	x29, x30, [sp, #432]
	add	x29, sp, #432
	.cfi_def_cfa w29, 16
	.cfi_offset w30, -8
	.cfi_offset w29, -16
	.cfi_offset w19, -24
	.cfi_offset w20, -32
	.cfi_offset w21, -40
	.cfi_offset w22, -48
	.cfi_offset w23, -56
	.cfi_offset w24, -64
	.cfi_offset w25, -72
	.cfi_offset w26, -80
	.cfi_offset w27, -88
	.cfi_offset w28, -96
	.cfi_remember_state
	mov	x19, x0
	ldur	q0, [x0, #1]
	ldur	q1, [x0, #17]
	stp	q0, q1, [sp]
	add	x20, sp, #32
	add	x0, sp, #32
	mov	x1, sp
	mov	w2, #0
	mov	x3, #-1
	bl	"_noise_aead::keystream::generator_apart"
	ldr	x8, [sp, #336]
	cmp	x8, #64
	b.lo	Lnoise_BB9_3
	ldp	x2, x1, [sp, #64]
	add	x20, x20, #48
	add	x0, sp, #32
	mov	x3, x20
	bl	"_rand_chacha::guts::refill4"
	ldr	x8, [sp, #72]
	add	x8, x8, #4
	str	x8, [sp, #72]
	mov	w8, #1
	ldr	w21, [sp, #80]
	b	Lnoise_BB9_5
Lnoise_BB9_3:
	add	x20, x20, #48
	ldr	w21, [x20, x8, lsl #2]
	add	x9, x8, #1
	str	x9, [sp, #336]
	cmp	x8, #63
	b.ne	Lnoise_BB9_11
	ldp	x2, x1, [sp, #64]
	add	x0, sp, #32
	mov	x3, x20
	bl	"_rand_chacha::guts::refill4"
	mov	x8, #0
	ldr	x9, [sp, #72]
	add	x9, x9, #4
	str	x9, [sp, #72]
Lnoise_BB9_5:
	add	x9, sp, #32
	orr	x9, x9, x8, lsl #2
	ldp	w22, w23, [x9, #48]
	add	x9, x9, #56
	add	x8, x8, #3
Lnoise_BB9_6:
	ldr	w24, [x9]
	str	x8, [sp, #336]
	ldr	w25, [x20, x8, lsl #2]
	add	x9, x8, #1
	str	x9, [sp, #336]
	add	x9, x20, x9, lsl #2
	add	x8, x8, #2
Lnoise_BB9_7:
	ldr	w26, [x9]
	str	x8, [sp, #336]
	ldr	w27, [x20, x8, lsl #2]
	add	x8, x8, #1
	str	x8, [sp, #336]
	add	x8, x20, x8, lsl #2
Lnoise_BB9_8:
	ldr	w28, [x8]
Lnoise_BB9_9:
	dup.4s	v0, w28
	mov	w8, #1
	fmov	s1, w21
	mov.s	v1[1], w22
	strb	w8, [x19]
	mov.s	v1[2], w23
	mov.s	v1[3], w24
	stur	q1, [x19, #1]
	fmov	s1, w25
	mov.s	v1[1], w26
	stur	d1, [x19, #17]
	stur	w27, [x19, #25]
	strb	w28, [x19, #29]
	mov	b1, v0[13]
	stur	b1, [x19, #30]
	mov	b1, v0[14]
	stur	b1, [x19, #31]
	mov	b0, v0[15]
	stur	b0, [x19, #32]
	.cfi_def_cfa wsp, 448
	ldp	x29, x30, [sp, #432]
	ldp	x20, x19, [sp, #416]
	ldp	x22, x21, [sp, #400]
	ldp	x24, x23, [sp, #384]
	ldp	x26, x25, [sp, #368]
	ldp	x28, x27, [sp, #352]
	add	sp, sp, #448
	.cfi_def_cfa_offset 0
	.cfi_restore w30
	.cfi_restore w29
	.cfi_restore w19
	.cfi_restore w20
	.cfi_restore w21
	.cfi_restore w22
	.cfi_restore w23
	.cfi_restore w24
	.cfi_restore w25
	.cfi_restore w26
	.cfi_restore w27
	.cfi_restore w28
Lnoise_BB9_10:
	ret
Lnoise_BB9_11:
	.cfi_restore_state
	ldr	w22, [x20, x9, lsl #2]
	add	x9, x8, #2
	str	x9, [sp, #336]
	cmp	x8, #62
	b.lo	Lnoise_BB9_13
	ldp	x2, x1, [sp, #64]
	add	x0, sp, #32
	mov	x3, x20
	bl	"_rand_chacha::guts::refill4"
	ldr	x8, [sp, #72]
	add	x8, x8, #4
	str	x8, [sp, #72]
	mov	w8, #1
	ldr	w23, [sp, #80]
	b	Lnoise_BB9_15
Lnoise_BB9_13:
	ldr	w23, [x20, x9, lsl #2]
	add	x10, x8, #3
	str	x10, [sp, #336]
	cmp	x8, #61
	b.ne	Lnoise_BB9_16
	ldp	x2, x1, [sp, #64]
	add	x0, sp, #32
	mov	x3, x20
	bl	"_rand_chacha::guts::refill4"
	mov	x8, #0
	ldr	x9, [sp, #72]
	add	x9, x9, #4
	str	x9, [sp, #72]
Lnoise_BB9_15:
	add	x9, x20, x8, lsl #2
	add	x8, x8, #1
	b	Lnoise_BB9_6
Lnoise_BB9_16:
	ldr	w24, [x20, x10, lsl #2]
	add	x10, x8, #4
	str	x10, [sp, #336]
	cmp	x9, #62
	b.ne	Lnoise_BB9_18
	ldp	x2, x1, [sp, #64]
	add	x0, sp, #32
	mov	x3, x20
	bl	"_rand_chacha::guts::refill4"
	ldr	x8, [sp, #72]
	add	x9, x8, #4
	ldr	w25, [sp, #80]
	mov	w8, #1
	str	x9, [sp, #72]
	str	x8, [sp, #336]
	b	Lnoise_BB9_20
Lnoise_BB9_18:
	ldr	w25, [x20, x10, lsl #2]
	add	x9, x8, #5
	str	x9, [sp, #336]
	cmp	x8, #59
	b.lo	Lnoise_BB9_21
	ldp	x2, x1, [sp, #64]
	add	x0, sp, #32
	mov	x3, x20
	bl	"_rand_chacha::guts::refill4"
	mov	x8, #0
	ldr	x9, [sp, #72]
	add	x9, x9, #4
	str	x9, [sp, #72]
Lnoise_BB9_20:
	add	x9, x20, x8, lsl #2
	add	x8, x8, #1
	b	Lnoise_BB9_7
Lnoise_BB9_21:
	ldr	w26, [x20, x9, lsl #2]
	add	x9, x8, #6
	str	x9, [sp, #336]
	cmp	x10, #62
	b.ne	Lnoise_BB9_23
	ldp	x2, x1, [sp, #64]
	add	x0, sp, #32
	mov	x3, x20
	bl	"_rand_chacha::guts::refill4"
	ldr	x8, [sp, #72]
	add	x8, x8, #4
	ldr	w27, [sp, #80]
	mov	w9, #1
	str	x8, [sp, #72]
	str	x9, [sp, #336]
	mov	w8, #4
	b	Lnoise_BB9_25
Lnoise_BB9_23:
	ldr	w27, [x20, x9, lsl #2]
	add	x10, x8, #7
	str	x10, [sp, #336]
	cmp	x8, #57
	b.lo	Lnoise_BB9_26
	ldp	x2, x1, [sp, #64]
	add	x0, sp, #32
	mov	x3, x20
	bl	"_rand_chacha::guts::refill4"
	mov	x8, #0
	ldr	x9, [sp, #72]
	add	x9, x9, #4
	str	x9, [sp, #72]
Lnoise_BB9_25:
	add	x8, x20, x8
	b	Lnoise_BB9_8
Lnoise_BB9_26:
	ldr	w28, [x20, x10, lsl #2]
	add	x10, x8, #8
	str	x10, [sp, #336]
	cmp	x9, #62
	b.eq	Lnoise_BB9_34
	add	x9, x8, #9
	str	x9, [sp, #336]
	cmp	x8, #55
	b.hs	Lnoise_BB9_34
	add	x9, x8, #10
	str	x9, [sp, #336]
	cmp	x10, #62
	b.eq	Lnoise_BB9_34
	add	x10, x8, #11
	str	x10, [sp, #336]
	cmp	x8, #53
	b.hs	Lnoise_BB9_34
	add	x10, x8, #12
	str	x10, [sp, #336]
	cmp	x9, #62
	b.eq	Lnoise_BB9_34
	add	x9, x8, #13
	str	x9, [sp, #336]
	cmp	x8, #51
	b.hs	Lnoise_BB9_34
	add	x9, x8, #14
	str	x9, [sp, #336]
	cmp	x10, #62
	b.eq	Lnoise_BB9_34
	add	x9, x8, #15
	str	x9, [sp, #336]
	cmp	x8, #49
	b.lo	Lnoise_BB9_9
Lnoise_BB9_34:
	ldp	x2, x1, [sp, #64]
	add	x0, sp, #32
	mov	x3, x20
	bl	"_rand_chacha::guts::refill4"
	b	Lnoise_BB9_9
	.cfi_endproc

	.p2align	2
"_noise_aead::keystream::generator_apart":
	.cfi_startproc
	ldp	q0, q1, [x1]
	mov	w8, #1
	orr	x8, x8, x2, lsl #32
	stp	q0, q1, [x0]
	stp	x3, x8, [x0, #32]
	movi.2d	v0, #0000000000000000
	stp	q0, q0, [x0, #48]
	stp	q0, q0, [x0, #80]
	stp	q0, q0, [x0, #112]
	stp	q0, q0, [x0, #144]
	stp	q0, q0, [x0, #176]
	stp	q0, q0, [x0, #208]
	stp	q0, q0, [x0, #240]
	stp	q0, q0, [x0, #272]
	mov	w8, #64
	str	x8, [x0, #304]
	ret
	.cfi_endproc

	.p2align	2
"_noise_c::patterns::pattern_of":
	.cfi_startproc
	stp	x22, x21, [sp, #-48]!
	.cfi_def_cfa_offset 48
	stp	x20, x19, [sp, #16]
	stp	x29, x30, [sp, #32]
	add	x29, sp, #32
	.cfi_def_cfa w29, 16
	.cfi_offset w30, -8
	.cfi_offset w29, -16
	.cfi_offset w19, -24
	.cfi_offset w20, -32
	.cfi_offset w21, -40
	.cfi_offset w22, -48
	.cfi_remember_state
	sub	sp, sp, #2032
	mov	x19, x0
	cbz	x2, Lnoise_BB11_4
	add	x8, x1, x2
	ldurb	w8, [x8, #-1]
	cmp	w8, #10
	b.ne	Lnoise_BB11_4
	movi.2d	v0, #0000000000000000
	str	q0, [sp, #1104]
	str	q0, [sp, #1120]
	str	q0, [sp, #1136]
	str	q0, [sp, #1152]
	str	q0, [sp, #1168]
	str	q0, [sp, #1184]
	str	q0, [sp, #1200]
	str	q0, [sp, #1216]
	str	q0, [sp, #1232]
	str	q0, [sp, #1248]
	str	q0, [sp, #1264]
	str	q0, [sp, #1280]
	str	q0, [sp, #1296]
	str	q0, [sp, #1312]
	str	q0, [sp, #1328]
	str	q0, [sp, #1344]
	str	q0, [sp, #1360]
	str	xzr, [sp, #1376]
	str	q0, [sp, #1920]
	str	q0, [sp, #1904]
	str	q0, [sp, #1888]
	str	q0, [sp, #1872]
	str	q0, [sp, #1856]
	str	q0, [sp, #1840]
	str	q0, [sp, #1824]
	str	q0, [sp, #1808]
	str	q0, [sp, #1792]
	str	q0, [sp, #1776]
	str	q0, [sp, #1760]
	str	q0, [sp, #1744]
	str	q0, [sp, #1728]
	str	q0, [sp, #1712]
	str	q0, [sp, #1696]
	str	q0, [sp, #1680]
	str	q0, [sp, #1664]
	str	xzr, [sp, #816]
	stp	q0, q0, [sp, #784]
	stp	q0, q0, [sp, #752]
	stp	q0, q0, [sp, #720]
	stp	q0, q0, [sp, #688]
	stp	q0, q0, [sp, #656]
	stp	q0, q0, [sp, #624]
	stp	q0, q0, [sp, #592]
	stp	q0, q0, [sp, #560]
	str	q0, [sp, #544]
	str	q0, [sp, #1648]
	str	q0, [sp, #1632]
	str	q0, [sp, #1616]
	str	q0, [sp, #1600]
	str	q0, [sp, #1584]
	str	q0, [sp, #1568]
	str	q0, [sp, #1552]
	str	q0, [sp, #1536]
	str	q0, [sp, #1520]
	str	q0, [sp, #1504]
	str	q0, [sp, #1488]
	str	q0, [sp, #1472]
	str	q0, [sp, #1456]
	str	q0, [sp, #1440]
	str	q0, [sp, #1424]
	str	q0, [sp, #1408]
	str	q0, [sp, #1392]
	add	x20, sp, #1104
	add	x0, sp, #1104
	bl	"_noise_names::pattern::Pattern::parse_text"
	ldrb	w8, [sp, #1104]
	cbz	w8, Lnoise_BB11_13
	mov	w21, #2
	mov	w20, #1
	b	Lnoise_BB11_31
Lnoise_BB11_4:
	movi.2d	v0, #0000000000000000
	stp	q0, q0, [x29, #-128]
	stur	q0, [x29, #-96]
	str	q0, [sp, #1664]
	str	q0, [sp, #1680]
	str	q0, [sp, #1696]
	str	q0, [sp, #1712]
	str	q0, [sp, #1728]
	str	q0, [sp, #1744]
	str	q0, [sp, #1760]
	str	q0, [sp, #1776]
	str	q0, [sp, #1792]
	str	q0, [sp, #1808]
	str	q0, [sp, #1824]
	str	q0, [sp, #1840]
	str	q0, [sp, #1856]
	str	q0, [sp, #1872]
	str	q0, [sp, #1888]
	str	q0, [sp, #1904]
	str	q0, [sp, #1920]
	str	xzr, [sp, #1376]
	str	q0, [sp, #1360]
	str	q0, [sp, #1344]
	str	q0, [sp, #1328]
	str	q0, [sp, #1312]
	str	q0, [sp, #1296]
	str	q0, [sp, #1280]
	str	q0, [sp, #1264]
	str	q0, [sp, #1248]
	str	q0, [sp, #1232]
	str	q0, [sp, #1216]
	str	q0, [sp, #1200]
	str	q0, [sp, #1184]
	str	q0, [sp, #1168]
	str	q0, [sp, #1152]
	str	q0, [sp, #1136]
	str	q0, [sp, #1120]
	str	q0, [sp, #1104]
	str	q0, [sp, #1088]
	str	q0, [sp, #1072]
	str	q0, [sp, #1056]
	str	q0, [sp, #1040]
	stp	q0, q0, [sp, #1008]
	stp	q0, q0, [sp, #976]
	stp	q0, q0, [sp, #944]
	stp	q0, q0, [sp, #912]
	stp	q0, q0, [sp, #880]
	stp	q0, q0, [sp, #848]
	str	q0, [sp, #832]
	str	xzr, [sp, #816]
	stp	q0, q0, [sp, #784]
	stp	q0, q0, [sp, #752]
	stp	q0, q0, [sp, #720]
	stp	q0, q0, [sp, #688]
	stp	q0, q0, [sp, #656]
	stp	q0, q0, [sp, #624]
	stp	q0, q0, [sp, #592]
	stp	q0, q0, [sp, #560]
	stp	q0, q0, [sp, #528]
	stp	q0, q0, [sp, #496]
	stp	q0, q0, [sp, #464]
	stp	q0, q0, [sp, #432]
	stp	q0, q0, [sp, #400]
	stp	q0, q0, [sp, #368]
	stp	q0, q0, [sp, #336]
	stp	q0, q0, [sp, #304]
	stp	q0, q0, [sp, #272]
	sub	x0, x29, #128
	bl	"_noise_names::name::ProtocolName::parse"
	ldurb	w8, [x29, #-128]
	cbz	w8, Lnoise_BB11_6
Lnoise_BB11_5:
	movi.2d	v0, #0000000000000000
	stp	q0, q0, [sp, #240]
	stp	q0, q0, [sp, #208]
	stp	q0, q0, [sp, #176]
	stp	q0, q0, [sp, #144]
	stp	q0, q0, [sp, #112]
	stp	q0, q0, [sp, #80]
	stp	q0, q0, [sp, #48]
	stp	q0, q0, [sp, #16]
	mov	w20, #1
	mov	w21, #1
	str	q0, [sp]
	b	Lnoise_BB11_58
Lnoise_BB11_6:
	sub	x8, x29, #128
	ldur	q0, [x8, #8]
	ldur	q1, [x8, #24]
	stp	q0, q1, [x29, #-80]
	ldur	x9, [x29, #-88]
	stur	x9, [x29, #-48]
	ldur	x8, [x29, #-72]
	cbz	x9, Lnoise_BB11_15
	cbz	x8, Lnoise_BB11_5
	cmp	x8, #1
	b.ne	Lnoise_BB11_21
	ldurb	w8, [x29, #-80]
	cmp	w8, #88
	b.eq	Lnoise_BB11_43
	cmp	w8, #78
	b.eq	Lnoise_BB11_42
	cmp	w8, #75
	b.ne	Lnoise_BB11_5
	mov	w1, #1
	b	Lnoise_BB11_44
Lnoise_BB11_13:
	add	x21, sp, #544
	add	x0, sp, #544
	orr	x1, x20, #0x8
	bl	"_noise_names::pattern::Pattern::check"
	ldrb	w20, [sp, #544]
	cbz	w20, Lnoise_BB11_29
	mov	w21, #2
	b	Lnoise_BB11_30
Lnoise_BB11_15:
	cbz	x8, Lnoise_BB11_41
	cmp	x8, #1
	b.ne	Lnoise_BB11_33
	ldurb	w8, [x29, #-80]
	cmp	w8, #88
	b.eq	Lnoise_BB11_55
	cmp	w8, #78
	b.eq	Lnoise_BB11_54
	cmp	w8, #75
	b.ne	Lnoise_BB11_41
	mov	w1, #1
	b	Lnoise_BB11_56
Lnoise_BB11_21:
	cmp	x8, #2
	b.hi	Lnoise_BB11_5
	ldurb	w8, [x29, #-80]
	cmp	w8, #77
	b.gt	Lnoise_BB11_48
	cmp	w8, #73
	b.eq	Lnoise_BB11_68
	cmp	w8, #75
	b.ne	Lnoise_BB11_5
	ldurb	w8, [x29, #-79]
	cmp	w8, #88
	b.eq	Lnoise_BB11_88
	cmp	w8, #78
	b.eq	Lnoise_BB11_84
	cmp	w8, #75
	b.ne	Lnoise_BB11_5
	mov	w1, #7
	b	Lnoise_BB11_44
Lnoise_BB11_29:
	add	x0, sp, #1392
	orr	x1, x21, #0x8
	mov	w2, #272
	bl	_memcpy
	mov	w21, #0
Lnoise_BB11_30:
	add	x0, sp, #1664
	add	x1, sp, #1392
	mov	w2, #272
	bl	_memcpy
Lnoise_BB11_31:
	mov	x0, sp
	add	x1, sp, #1664
Lnoise_BB11_32:
	mov	w2, #272
	bl	_memcpy
	b	Lnoise_BB11_58
Lnoise_BB11_33:
	cmp	x8, #2
	b.hi	Lnoise_BB11_41
	ldurb	w8, [x29, #-80]
	mov	w20, #1
	cmp	w8, #77
	b.gt	Lnoise_BB11_59
	cmp	w8, #73
	b.eq	Lnoise_BB11_76
	cmp	w8, #75
	b.ne	Lnoise_BB11_57
	ldurb	w8, [x29, #-79]
	cmp	w8, #88
	b.eq	Lnoise_BB11_96
	cmp	w8, #78
	b.eq	Lnoise_BB11_92
	cmp	w8, #75
	b.ne	Lnoise_BB11_57
	mov	w1, #7
	b	Lnoise_BB11_56
Lnoise_BB11_41:
	mov	w20, #1
	b	Lnoise_BB11_57
Lnoise_BB11_42:
	mov	w1, #0
	b	Lnoise_BB11_44
Lnoise_BB11_43:
	mov	w1, #2
Lnoise_BB11_44:
	sub	x21, x29, #80
	add	x0, sp, #1392
	bl	"_noise_names::table::row"
	add	x20, sp, #1104
	add	x0, sp, #1104
	add	x1, sp, #1392
	add	x2, x21, #16
	bl	"_noise_names::pattern::Pattern::with_psks"
	ldrb	w8, [sp, #1104]
	cbz	w8, Lnoise_BB11_46
	mov	w20, #1
	mov	w21, #1
	b	Lnoise_BB11_67
Lnoise_BB11_46:
	add	x21, sp, #544
	add	x0, sp, #544
	orr	x1, x20, #0x8
	bl	"_noise_names::pattern::Pattern::check"
	ldrb	w20, [sp, #544]
	cbz	w20, Lnoise_BB11_65
	mov	w21, #2
	b	Lnoise_BB11_66
Lnoise_BB11_48:
	cmp	w8, #88
	b.eq	Lnoise_BB11_72
	cmp	w8, #78
	b.ne	Lnoise_BB11_5
	ldurb	w8, [x29, #-79]
	cmp	w8, #88
	b.eq	Lnoise_BB11_89
	cmp	w8, #78
	b.eq	Lnoise_BB11_85
	cmp	w8, #75
	b.ne	Lnoise_BB11_5
	mov	w1, #4
	b	Lnoise_BB11_44
Lnoise_BB11_54:
	mov	w1, #0
	b	Lnoise_BB11_56
Lnoise_BB11_55:
	mov	w1, #2
Lnoise_BB11_56:
	add	x0, sp, #1664
	bl	"_noise_names::table::row"
	mov	w20, #0
Lnoise_BB11_57:
	mov	x0, sp
	add	x1, sp, #1664
	mov	w2, #272
	bl	_memcpy
	mov	x21, x20
Lnoise_BB11_58:
	stp	w20, w21, [x19]
	add	x0, x19, #8
	mov	x1, sp
	mov	w2, #272
	bl	_memcpy
	add	sp, sp, #2032
	.cfi_def_cfa wsp, 48
	ldp	x29, x30, [sp, #32]
	ldp	x20, x19, [sp, #16]
	ldp	x22, x21, [sp], #48
	.cfi_def_cfa_offset 0
	.cfi_restore w30
	.cfi_restore w29
	.cfi_restore w19
	.cfi_restore w20
	.cfi_restore w21
	.cfi_restore w22
	ret
Lnoise_BB11_59:
	.cfi_restore_state
	cmp	w8, #88
	b.eq	Lnoise_BB11_80
	cmp	w8, #78
	b.ne	Lnoise_BB11_57
	ldurb	w8, [x29, #-79]
	cmp	w8, #88
	b.eq	Lnoise_BB11_97
	cmp	w8, #78
	b.eq	Lnoise_BB11_93
	cmp	w8, #75
	b.ne	Lnoise_BB11_57
	mov	w1, #4
	b	Lnoise_BB11_56
Lnoise_BB11_65:
	add	x0, sp, #272
	orr	x1, x21, #0x8
	mov	w2, #272
	bl	_memcpy
	mov	w21, #0
Lnoise_BB11_66:
	add	x0, sp, #832
	add	x1, sp, #272
	mov	w2, #272
	bl	_memcpy
Lnoise_BB11_67:
	mov	x0, sp
	add	x1, sp, #832
	b	Lnoise_BB11_32
Lnoise_BB11_68:
	ldurb	w8, [x29, #-79]
	cmp	w8, #88
	b.eq	Lnoise_BB11_90
	cmp	w8, #78
	b.eq	Lnoise_BB11_86
	cmp	w8, #75
	b.ne	Lnoise_BB11_5
	mov	w1, #13
	b	Lnoise_BB11_44
Lnoise_BB11_72:
	ldurb	w8, [x29, #-79]
	cmp	w8, #88
	b.eq	Lnoise_BB11_91
	cmp	w8, #78
	b.eq	Lnoise_BB11_87
	cmp	w8, #75
	b.ne	Lnoise_BB11_5
	mov	w1, #10
	b	Lnoise_BB11_44
Lnoise_BB11_76:
	ldurb	w8, [x29, #-79]
	cmp	w8, #88
	b.eq	Lnoise_BB11_98
	cmp	w8, #78
	b.eq	Lnoise_BB11_94
	cmp	w8, #75
	b.ne	Lnoise_BB11_57
	mov	w1, #13
	b	Lnoise_BB11_56
Lnoise_BB11_80:
	ldurb	w8, [x29, #-79]
	cmp	w8, #88
	b.eq	Lnoise_BB11_99
	cmp	w8, #78
	b.eq	Lnoise_BB11_95
	cmp	w8, #75
	b.ne	Lnoise_BB11_57
	mov	w1, #10
	b	Lnoise_BB11_56
Lnoise_BB11_84:
	mov	w1, #6
	b	Lnoise_BB11_44
Lnoise_BB11_85:
	mov	w1, #3
	b	Lnoise_BB11_44
Lnoise_BB11_86:
	mov	w1, #12
	b	Lnoise_BB11_44
Lnoise_BB11_87:
	mov	w1, #9
	b	Lnoise_BB11_44
Lnoise_BB11_88:
	mov	w1, #8
	b	Lnoise_BB11_44
Lnoise_BB11_89:
	mov	w1, #5
	b	Lnoise_BB11_44
Lnoise_BB11_90:
	mov	w1, #14
	b	Lnoise_BB11_44
Lnoise_BB11_91:
	mov	w1, #11
	b	Lnoise_BB11_44
Lnoise_BB11_92:
	mov	w1, #6
	b	Lnoise_BB11_56
Lnoise_BB11_93:
	mov	w1, #3
	b	Lnoise_BB11_56
Lnoise_BB11_94:
	mov	w1, #12
	b	Lnoise_BB11_56
Lnoise_BB11_95:
	mov	w1, #9
	b	Lnoise_BB11_56
Lnoise_BB11_96:
	mov	w1, #8
	b	Lnoise_BB11_56
Lnoise_BB11_97:
	mov	w1, #5
	b	Lnoise_BB11_56
Lnoise_BB11_98:
	mov	w1, #14
	b	Lnoise_BB11_56
Lnoise_BB11_99:
	mov	w1, #11
	b	Lnoise_BB11_56
	.cfi_endproc

	.p2align	2
"_noise_names::pattern::Pattern::parse_text":
	.cfi_startproc
	stp	x28, x27, [sp, #-96]!
	.cfi_def_cfa_offset 96
	stp	x26, x25, [sp, #16]
	stp	x24, x23, [sp, #32]
	stp	x22, x21, [sp, #48]
	stp	x20, x19, [sp, #64]
	stp	x29, x30, [sp, #80]
	add	x29, sp, #80
	.cfi_def_cfa w29, 16
	.cfi_offset w30, -8
	.cfi_offset w29, -16
	.cfi_offset w19, -24
	.cfi_offset w20, -32
	.cfi_offset w21, -40
	.cfi_offset w22, -48
	.cfi_offset w23, -56
	.cfi_offset w24, -64
	.cfi_offset w25, -72
	.cfi_offset w26, -80
	.cfi_offset w27, -88
	.cfi_offset w28, -96
	.cfi_remember_state
	sub	sp, sp, #1, lsl #12
	sub	sp, sp, #576
	mov	x20, x2
	mov	x21, x1
	mov	x19, x0
	add	x25, sp, #616
	stur	wzr, [x25, #3]
	str	wzr, [sp, #616]
	add	x27, sp, #344
	movi.2d	v0, #0000000000000000
	stur	q0, [x27, #8]
	stur	q0, [x27, #24]
	add	x24, sp, #2288
	add	x8, sp, #2280
	stur	q0, [x27, #40]
	add	x22, sp, #1456
	add	x23, sp, #888
	stur	q0, [x27, #56]
	add	x28, sp, #80
	stur	q0, [x27, #72]
	stur	q0, [x27, #88]
	stur	q0, [x27, #104]
	stur	q0, [x27, #120]
	stur	q0, [x27, #136]
	stur	q0, [x27, #152]
	stur	q0, [x27, #168]
	stur	q0, [x27, #184]
	stur	q0, [x27, #200]
	stur	q0, [x27, #216]
	stur	q0, [x27, #232]
	stur	q0, [x27, #248]
	stur	wzr, [x27, #3]
	str	wzr, [sp, #344]
	stp	q0, q0, [x28, #224]
	stp	q0, q0, [x28, #192]
	stp	q0, q0, [x28, #160]
	stp	q0, q0, [x28, #128]
	stp	q0, q0, [sp, #176]
	stp	q0, q0, [sp, #144]
	stp	q0, q0, [sp, #112]
	stp	q0, q0, [sp, #80]
	stur	wzr, [sp, #75]
	str	wzr, [sp, #72]
	stp	q0, q0, [x24, #560]
	stp	q0, q0, [x24, #592]
	stp	q0, q0, [x24, #624]
	stp	q0, q0, [x24, #656]
	stp	q0, q0, [x24, #688]
	stp	q0, q0, [x24, #720]
	stp	q0, q0, [x24, #752]
	stp	q0, q0, [x24, #784]
	str	q0, [x24, #816]
	str	xzr, [sp, #2832]
	stp	q0, q0, [x24, #512]
	stp	q0, q0, [x24, #480]
	stp	q0, q0, [x24, #448]
	stp	q0, q0, [x24, #416]
	stp	q0, q0, [x24, #384]
	stp	q0, q0, [x24, #352]
	stp	q0, q0, [x24, #320]
	stp	q0, q0, [x24, #288]
	str	xzr, [sp, #2560]
	stp	q0, q0, [x24, #240]
	stp	q0, q0, [x24, #208]
	stp	q0, q0, [x24, #176]
	stp	q0, q0, [x24, #144]
	stp	q0, q0, [x24, #112]
	stp	q0, q0, [x24, #80]
	stp	q0, q0, [x24, #48]
	stp	q0, q0, [x24, #16]
	str	q0, [x24]
	stur	wzr, [x8, #3]
	str	wzr, [sp, #2280]
	stp	q0, q0, [x22, #560]
	stp	q0, q0, [x22, #592]
	stp	q0, q0, [x22, #624]
	stp	q0, q0, [x22, #656]
	stp	q0, q0, [x22, #688]
	stp	q0, q0, [x22, #720]
	stp	q0, q0, [x22, #752]
	stp	q0, q0, [x22, #784]
	add	x0, sp, #1456
	mov	w1, #552
	bl	_bzero
	add	x0, sp, #896
	mov	w1, #552
	bl	_bzero
	stur	wzr, [x23, #3]
	str	wzr, [sp, #888]
	movi.2d	v0, #0000000000000000
	stur	q0, [x25, #8]
	stur	q0, [x25, #24]
	stur	q0, [x25, #40]
	stur	q0, [x25, #56]
	stur	q0, [x25, #72]
	stur	q0, [x25, #88]
	stur	q0, [x25, #104]
	stur	q0, [x25, #120]
	stur	q0, [x25, #136]
	stur	q0, [x25, #152]
	stur	q0, [x25, #168]
	stur	q0, [x25, #184]
	stur	q0, [x25, #200]
	stur	q0, [x25, #216]
	stur	q0, [x25, #232]
	stur	q0, [x25, #248]
	str	q0, [x24, #1456]
	str	q0, [x24, #1440]
	str	q0, [x24, #1424]
	cbz	x20, Lnoise_BB12_11
	mov	x23, #0
Lnoise_BB12_2:
	ldrb	w8, [x21, x23]
	cmp	w8, #58
	b.eq	Lnoise_BB12_4
	add	x23, x23, #1
	cmp	x20, x23
	b.ne	Lnoise_BB12_2
	b	Lnoise_BB12_11
Lnoise_BB12_4:
	subs	x26, x20, x23
	b.eq	Lnoise_BB12_11
	add	x8, x21, x23
	ldrb	w8, [x8]
	cmp	w8, #58
	b.ne	Lnoise_BB12_11
	add	x0, sp, #3712
	mov	x1, x21
	mov	x2, x23
	bl	"_noise_names::section::parse_section"
	ldrb	w8, [sp, #3712]
	cbnz	w8, Lnoise_BB12_11
	sub	x8, x20, #1
	add	x9, sp, #3712
	ldur	q0, [x9, #8]
	ldur	q1, [x9, #24]
	stp	q0, q1, [x24, #832]
	ldr	x9, [sp, #3752]
	str	x9, [sp, #3152]
	cmp	x8, x23
	b.eq	Lnoise_BB12_11
	add	x8, x21, x23
	ldrb	w8, [x8, #1]
	cmp	w8, #10
	b.ne	Lnoise_BB12_11
	ldr	x1, [sp, #3128]
	str	xzr, [sp, #3424]
	movi.2d	v0, #0000000000000000
	str	q0, [x24, #1120]
	str	q0, [x24, #1104]
	str	q0, [x24, #1088]
	str	q0, [x24, #1072]
	str	q0, [x24, #1056]
	str	q0, [x24, #1040]
	stp	q0, q0, [x24, #1008]
	stp	q0, q0, [x24, #976]
	stp	q0, q0, [x24, #944]
	stp	q0, q0, [x24, #912]
	stp	q0, q0, [x24, #880]
	add	x0, sp, #3120
	str	x1, [sp, #24]
	bl	"_noise_names::table::place_of"
	tbz	w0, #0, Lnoise_BB12_29
	add	x0, sp, #3712
	bl	"_noise_names::table::row"
	add	x0, sp, #3440
	add	x1, sp, #3712
	mov	w2, #264
	bl	_memcpy
	ldr	x23, [sp, #3976]
	add	x0, sp, #2576
	add	x1, sp, #3440
	mov	w2, #264
	bl	_memcpy
	b	Lnoise_BB12_176
Lnoise_BB12_11:
	stur	wzr, [x25, #3]
	str	wzr, [sp, #616]
Lnoise_BB12_12:
	movi.2d	v0, #0000000000000000
	stur	q0, [x27, #8]
	stur	q0, [x27, #24]
	stur	q0, [x27, #40]
	stur	q0, [x27, #56]
	stur	q0, [x27, #72]
	stur	q0, [x27, #88]
	stur	q0, [x27, #104]
	stur	q0, [x27, #120]
	stur	q0, [x27, #136]
	stur	q0, [x27, #152]
	stur	q0, [x27, #168]
	stur	q0, [x27, #184]
	stur	q0, [x27, #200]
	stur	q0, [x27, #216]
	stur	q0, [x27, #232]
	stur	q0, [x27, #248]
Lnoise_BB12_13:
	movi.2d	v0, #0000000000000000
	stp	q0, q0, [x22, #16]
	str	q0, [x22]
	cbz	x20, Lnoise_BB12_20
	mov	x23, #0
Lnoise_BB12_15:
	ldrb	w8, [x21, x23]
	cmp	w8, #58
	b.eq	Lnoise_BB12_17
	add	x23, x23, #1
	cmp	x20, x23
	b.ne	Lnoise_BB12_15
	b	Lnoise_BB12_20
Lnoise_BB12_17:
	subs	x25, x20, x23
	b.eq	Lnoise_BB12_20
	add	x26, x21, x23
	ldrb	w8, [x26]
	cmp	w8, #58
	b.ne	Lnoise_BB12_20
	add	x0, sp, #1456
	mov	x1, x21
	mov	x2, x23
	bl	"_noise_names::section::parse_section"
	ldrb	w8, [sp, #1456]
	cbz	w8, Lnoise_BB12_24
Lnoise_BB12_20:
	mov	w8, #0
Lnoise_BB12_21:
	mov	w26, #1
Lnoise_BB12_22:
	ldr	w9, [sp, #72]
	str	w9, [sp, #344]
	ldur	w9, [sp, #75]
	stur	w9, [x27, #3]
	mov	w9, #1
Lnoise_BB12_23:
	ldp	q0, q1, [x28, #192]
	stur	q0, [x19, #216]
	stur	q1, [x19, #232]
	ldp	q0, q1, [x28, #224]
	stur	q0, [x19, #248]
	ldp	q0, q2, [x28, #128]
	stur	q0, [x19, #152]
	stur	q2, [x19, #168]
	ldp	q0, q2, [x28, #160]
	stur	q0, [x19, #184]
	stur	q2, [x19, #200]
	ldp	q0, q2, [sp, #144]
	stur	q0, [x19, #88]
	stur	q2, [x19, #104]
	ldp	q0, q2, [sp, #176]
	stur	q0, [x19, #120]
	stur	q2, [x19, #136]
	ldp	q0, q2, [sp, #80]
	stur	q0, [x19, #24]
	stur	q2, [x19, #40]
	ldp	q0, q2, [sp, #112]
	stur	q0, [x19, #56]
	stur	q2, [x19, #72]
	stp	x9, x26, [x19]
	strb	w8, [x19, #16]
	ldr	w8, [sp, #344]
	stur	w8, [x19, #17]
	ldur	w8, [x27, #3]
	str	w8, [x19, #20]
	add	x8, x19, #24
	str	q1, [x8, #240]
	add	sp, sp, #1, lsl #12
	add	sp, sp, #576
	.cfi_def_cfa wsp, 96
	ldp	x29, x30, [sp, #80]
	ldp	x20, x19, [sp, #64]
	ldp	x22, x21, [sp, #48]
	ldp	x24, x23, [sp, #32]
	ldp	x26, x25, [sp, #16]
	ldp	x28, x27, [sp], #96
	.cfi_def_cfa_offset 0
	.cfi_restore w30
	.cfi_restore w29
	.cfi_restore w19
	.cfi_restore w20
	.cfi_restore w21
	.cfi_restore w22
	.cfi_restore w23
	.cfi_restore w24
	.cfi_restore w25
	.cfi_restore w26
	.cfi_restore w27
	.cfi_restore w28
	ret
Lnoise_BB12_24:
	.cfi_restore_state
	sub	x8, x20, #1
	ldur	q0, [x22, #8]
	ldur	q1, [x22, #24]
	stp	q0, q1, [x24]
	ldr	x9, [sp, #1496]
	str	x9, [sp, #2320]
	cmp	x8, x23
	b.ne	Lnoise_BB12_26
	mov	w8, #8
	b	Lnoise_BB12_21
Lnoise_BB12_26:
	ldrb	w8, [x26, #1]
	add	x9, x21, x23
	add	x0, x9, #2
	sub	x25, x25, #2
	cmp	w8, #10
	csel	x24, x0, xzr, eq
	csel	x21, x25, xzr, eq
	b.ne	Lnoise_BB12_20
	sub	x8, x20, #2
	cmp	x8, x23
	b.ne	Lnoise_BB12_31
	mov	w26, #2
	mov	w8, #8
	b	Lnoise_BB12_22
Lnoise_BB12_29:
	add	x8, x21, x23
	str	xzr, [sp, #3696]
	add	x2, x8, #2
	sub	x3, x26, #2
	movi.2d	v0, #0000000000000000
	str	q0, [x24, #1392]
	str	q0, [x24, #1376]
	str	q0, [x24, #1360]
	str	q0, [x24, #1344]
	str	q0, [x24, #1328]
	str	q0, [x24, #1312]
	str	q0, [x24, #1296]
	str	q0, [x24, #1280]
	str	q0, [x24, #1264]
	str	q0, [x24, #1248]
	str	q0, [x24, #1232]
	str	q0, [x24, #1216]
	str	q0, [x24, #1200]
	str	q0, [x24, #1184]
	str	q0, [x24, #1168]
	str	q0, [x24, #1152]
	stp	xzr, xzr, [x29, #-256]
	str	xzr, [sp, #4488]
	str	xzr, [sp, #4480]
	add	x23, sp, #3712
	stp	q0, q0, [x23, #736]
	stp	q0, q0, [x23, #544]
	stp	q0, q0, [x23, #576]
	stp	q0, q0, [x23, #608]
	stp	q0, q0, [x23, #640]
	stp	q0, q0, [x23, #672]
	stp	q0, q0, [x23, #704]
	str	xzr, [sp, #4240]
	stp	q0, q0, [x23, #496]
	stp	q0, q0, [x23, #464]
	stp	q0, q0, [x23, #432]
	stp	q0, q0, [x23, #400]
	stp	q0, q0, [x23, #368]
	stp	q0, q0, [x23, #336]
	stp	q0, q0, [x23, #304]
	stp	q0, q0, [x23, #272]
	stp	xzr, xzr, [x29, #-224]
	stp	q0, q0, [x23, #848]
	str	xzr, [sp, #3744]
	stp	q0, q0, [x23]
	add	x0, sp, #3712
	mov	w1, #0
	mov	x26, x2
	str	x3, [sp, #64]
	bl	"_noise_names::text::read::read_line"
	ldrb	w8, [sp, #3712]
	cmp	w8, #1
	str	x26, [sp, #56]
	b.ne	Lnoise_BB12_41
	ldr	x2, [sp, #3736]
	ldr	x26, [sp, #3744]
	ldur	q0, [x23, #8]
	str	q0, [x23, #800]
	b	Lnoise_BB12_42
Lnoise_BB12_31:
	add	x8, sp, #2288
	add	x8, x8, #16
	str	x8, [sp, #56]
	ldr	x8, [sp, #2320]
	str	x8, [sp, #48]
	mov	w17, #8224
	movk	w17, #11822, lsl #16
Lnoise_BB12_32:
	mov	x20, #0
Lnoise_BB12_33:
	ldrb	w8, [x0, x20]
	cmp	w8, #10
	b.eq	Lnoise_BB12_36
	add	x20, x20, #1
	cmp	x25, x20
	b.ne	Lnoise_BB12_33
	mov	x20, x25
Lnoise_BB12_36:
	add	x8, x0, x20
	cmp	x25, x20
	cinc	x26, x8, ne
	cmp	x20, #5
	b.ne	Lnoise_BB12_39
	ldr	w8, [x0]
	cmp	w8, w17
	b.ne	Lnoise_BB12_39
Lnoise_loh12:
	adrp	x2, lnoise__static.96@PAGE
Lnoise_loh13:
	add	x2, x2, lnoise__static.96@PAGEOFF
	mov	w1, #5
	bl	"_core::cmp::slices::groups_equal::<i8,31'core::cmp::numbers::U8PartialEq{}>"
	mov	w17, #8224
	movk	w17, #11822, lsl #16
	tbnz	w0, #0, Lnoise_BB12_69
Lnoise_BB12_39:
	mov	w23, #0
	cmp	x25, x20
	b.eq	Lnoise_BB12_70
	mvn	x8, x20
	mov	x0, x26
	add	x25, x25, x8
	cbnz	x25, Lnoise_BB12_32
	b	Lnoise_BB12_70
Lnoise_BB12_41:
	stp	xzr, xzr, [x29, #-240]
	mov	x2, x26
	ldr	x26, [sp, #64]
Lnoise_BB12_42:
	add	x8, sp, #3712
	movi.2d	v0, #0000000000000000
	stp	q0, q0, [x8]
	str	xzr, [sp, #3744]
	add	x0, sp, #3712
	mov	w1, #1
	mov	x23, x2
	mov	x3, x26
	bl	"_noise_names::text::read::read_line"
	ldrb	w8, [sp, #3712]
	cmp	w8, #1
	b.ne	Lnoise_BB12_44
	ldr	x23, [sp, #3736]
	ldr	x26, [sp, #3744]
	add	x8, sp, #3712
	ldur	q0, [x8, #8]
	str	q0, [x8, #912]
	b	Lnoise_BB12_45
Lnoise_BB12_44:
	stp	xzr, xzr, [x29, #-128]
Lnoise_BB12_45:
	add	x8, sp, #3712
	ldr	q0, [x8, #912]
	str	q0, [x8, #816]
	subs	x8, x26, #6
	b.hs	Lnoise_BB12_47
Lnoise_BB12_46:
	movi.2d	v0, #0000000000000000
	add	x9, sp, #3712
	stp	q0, q0, [x9, #848]
	ldp	x2, x3, [sp, #56]
	b	Lnoise_BB12_51
Lnoise_BB12_47:
	ldur	w9, [x23, #2]
	mov	w10, #11822
	movk	w10, #2606, lsl #16
	cmp	w9, w10
	b.ne	Lnoise_BB12_46
	ldrb	w9, [x23]
	cmp	w9, #32
	b.ne	Lnoise_BB12_46
	ldrb	w9, [x23, #1]
	cmp	w9, #32
	b.ne	Lnoise_BB12_46
	add	x2, x23, #6
	add	x9, sp, #3712
	ldp	q0, q1, [x9, #800]
	stp	q0, q1, [x9, #848]
	mov	x3, x8
Lnoise_BB12_51:
	ldp	q0, q1, [x9, #848]
	stp	q0, q1, [x9, #736]
	stp	q1, q0, [x9, #768]
	movi.2d	v0, #0000000000000000
	stp	q0, q0, [x9, #848]
	stur	xzr, [x29, #-160]
	stp	q0, q0, [x9]
	stp	q0, q0, [x9, #32]
	stp	q0, q0, [x9, #64]
	stp	q0, q0, [x9, #96]
	stp	q0, q0, [x9, #128]
	stp	q0, q0, [x9, #160]
	str	xzr, [sp, #3904]
	sub	x26, x29, #192
	sub	x0, x29, #192
	mov	w1, #0
	bl	"_noise_names::text::read::read_line"
	add	x9, sp, #3712
	ldrb	w8, [x9, #848]
	cmp	w8, #1
	b.ne	Lnoise_BB12_56
	mov	w23, #0
	orr	x8, x26, #0x8
	str	x8, [sp, #32]
	ldr	x26, [sp, #3904]
	add	x8, x26, x26, lsl #1
	lsl	x10, x8, #3
Lnoise_BB12_53:
	ldr	x8, [sp, #32]
	ldr	q0, [x8]
	str	q0, [x9, #896]
	mov	x8, x26
	ldur	x26, [x29, #-136]
	cmp	x26, #0
	str	x8, [sp, #56]
	ccmp	x8, #8, #4, ne
	b.eq	Lnoise_BB12_58
	ldur	x8, [x29, #-168]
	str	x8, [sp, #48]
	ldur	x8, [x29, #-160]
	str	x8, [sp, #40]
	stp	xzr, xzr, [x29, #-128]
	cmp	x26, #11
	str	x10, [sp, #64]
	b.hs	Lnoise_BB12_201
	sub	x0, x29, #128
	sub	x1, x29, #144
	mov	x2, x26
	bl	_memcpy
	stur	x26, [x29, #-208]
	add	x8, sp, #3712
	ldr	q0, [x8, #912]
	str	q0, [x8, #816]
	add	x8, sp, #3712
	ldr	x9, [sp, #64]
	add	x8, x8, x9
	str	x26, [x8, #16]
	str	q0, [x8]
	ldp	x2, x26, [sp, #48]
	add	x26, x26, #1
	eor	w23, w23, #0x1
	sub	x0, x29, #192
	mov	x1, x23
	ldr	x3, [sp, #40]
	bl	"_noise_names::text::read::read_line"
	add	x9, sp, #3712
	ldrb	w8, [x9, #848]
	ldr	x10, [sp, #64]
	add	x10, x10, #24
	cmp	w8, #1
	b.eq	Lnoise_BB12_53
	b	Lnoise_BB12_57
Lnoise_BB12_56:
	ldr	x26, [sp, #3904]
Lnoise_BB12_57:
	ldp	q0, q1, [x9, #128]
	stp	q0, q1, [x9, #672]
	ldp	q0, q1, [x9, #160]
	stp	q0, q1, [x9, #704]
	ldp	q0, q1, [x9, #64]
	stp	q0, q1, [x9, #608]
	ldp	q0, q1, [x9, #96]
	stp	q0, q1, [x9, #640]
	ldp	q0, q1, [x9]
	stp	q0, q1, [x9, #544]
	ldp	q0, q1, [x9, #32]
	stp	q0, q1, [x9, #576]
	b	Lnoise_BB12_59
Lnoise_BB12_58:
	ldp	q0, q1, [x9, #128]
	stp	q0, q1, [x9, #672]
	ldp	q0, q1, [x9, #160]
	stp	q0, q1, [x9, #704]
	ldp	q0, q1, [x9, #64]
	stp	q0, q1, [x9, #608]
	ldp	q0, q1, [x9, #96]
	stp	q0, q1, [x9, #640]
	ldp	q0, q1, [x9]
	stp	q0, q1, [x9, #544]
	ldp	q0, q1, [x9, #32]
	stp	q0, q1, [x9, #576]
	ldr	x26, [sp, #56]
Lnoise_BB12_59:
	str	x26, [sp, #56]
	cbz	x26, Lnoise_BB12_178
	ldur	x26, [x29, #-248]
	ldr	x10, [sp, #4488]
	cbz	x26, Lnoise_BB12_66
	cmp	x26, #1
	b.ne	Lnoise_BB12_63
	ldrb	w8, [x9, #784]
	cmp	w8, #2
	b.lo	Lnoise_BB12_66
	b	Lnoise_BB12_178
Lnoise_BB12_63:
	cmp	x26, #2
	b.hi	Lnoise_BB12_178
	ldrb	w8, [x9, #784]
	cbnz	w8, Lnoise_BB12_178
	ldrb	w8, [x9, #785]
	cmp	w8, #1
	b.ne	Lnoise_BB12_178
Lnoise_BB12_66:
	cbz	x10, Lnoise_BB12_174
	cmp	x10, #1
	b.ne	Lnoise_BB12_171
	ldrb	w8, [x9, #768]
	cmp	w8, #2
	b.hs	Lnoise_BB12_178
	b	Lnoise_BB12_174
Lnoise_BB12_69:
	mov	w23, #1
Lnoise_BB12_70:
	mov	w7, #0
	mov	w6, #0
	add	x8, sp, #1456
	add	x0, x8, #24
	orr	x1, x8, #0x1
	add	x2, sp, #896
	mov	w26, #2
Lnoise_BB12_71:
	mov	x25, #0
Lnoise_BB12_72:
	ldrb	w8, [x24, x25]
	cmp	w8, #10
	b.eq	Lnoise_BB12_75
	add	x25, x25, #1
	cmp	x21, x25
	b.ne	Lnoise_BB12_72
	mov	x25, x21
Lnoise_BB12_75:
	add	x8, x24, x25
	cmp	x21, x25
	cinc	x3, x8, ne
	and	w20, w7, #0xff0000
	bfi	w20, w6, #24, #8
	and	w8, w7, #0xff00
	orr	w4, w20, w8
	lsr	w30, w4, #8
	lsr	w9, w20, #16
	cmp	x25, #5
	str	w9, [sp, #64]
	b.ne	Lnoise_BB12_79
	ldr	w8, [x24]
	cmp	w8, w17
	b.ne	Lnoise_BB12_81
	stp	w6, w30, [sp, #8]
	str	w7, [sp, #4]
	str	w4, [sp, #40]
	stp	x3, x1, [sp, #16]
	str	x0, [sp, #32]
Lnoise_loh14:
	adrp	x2, lnoise__static.96@PAGE
Lnoise_loh15:
	add	x2, x2, lnoise__static.96@PAGEOFF
	mov	x0, x24
	mov	w1, #5
	bl	"_core::cmp::slices::groups_equal::<i8,31'core::cmp::numbers::U8PartialEq{}>"
	tbz	w0, #0, Lnoise_BB12_82
	ldr	w8, [sp, #12]
	ldr	w9, [sp, #64]
	orr	w8, w8, w9
	and	w8, w23, w8
	ldr	w23, [sp, #40]
	mov	w17, #8224
	movk	w17, #11822, lsl #16
	ldp	x1, x0, [sp, #24]
	add	x2, sp, #896
	ldr	x3, [sp, #16]
	tbnz	w8, #0, Lnoise_BB12_163
	b	Lnoise_BB12_196
Lnoise_BB12_79:
	b.lo	Lnoise_BB12_191
	ldrb	w13, [x24]
	ldrb	w12, [x24, #1]
	ldrb	w10, [x24, #2]
	ldrb	w11, [x24, #3]
	b	Lnoise_BB12_83
Lnoise_BB12_81:
	ldrb	w11, [x24, #3]
	ldrb	w10, [x24, #2]
	ldrb	w12, [x24, #1]
	ldrb	w13, [x24]
	b	Lnoise_BB12_83
Lnoise_BB12_82:
	mov	w12, #32
	mov	w11, #46
	mov	w10, #46
	mov	w13, #32
	mov	w17, #8224
	movk	w17, #11822, lsl #16
	ldp	x1, x0, [sp, #24]
	add	x2, sp, #896
	ldr	x3, [sp, #16]
	ldr	w4, [sp, #40]
	ldp	w7, w6, [sp, #4]
	ldr	w30, [sp, #12]
Lnoise_BB12_83:
	cmp	w11, #62
	ldrb	w14, [x24, #4]
	mov	w8, #45
	ccmp	w10, w8, #0, eq
	mov	w8, #32
	ccmp	w14, w8, #0, eq
	ccmp	w12, w8, #0, eq
	ccmp	w13, w8, #0, eq
	cset	w9, eq
	b.eq	Lnoise_BB12_89
	mov	w8, #1
	cmp	w13, #32
	b.ne	Lnoise_BB12_22
	cmp	w12, #32
	b.ne	Lnoise_BB12_22
	cmp	w11, #45
	b.ne	Lnoise_BB12_22
	cmp	w10, #60
	b.ne	Lnoise_BB12_22
	cmp	w14, #32
	b.ne	Lnoise_BB12_22
Lnoise_BB12_89:
	movi.2d	v0, #0000000000000000
	stp	q0, q0, [x22, #16]
	str	q0, [x22]
	subs	x8, x25, #5
	b.eq	Lnoise_BB12_170
	mov	x11, #0
	lsl	w10, w6, #24
	and	w5, w23, #0xff
	add	x12, x24, #5
Lnoise_BB12_91:
	mov	x13, #0
Lnoise_BB12_92:
	ldrb	w14, [x12, x13]
	sub	w14, w14, #97
	cmp	w14, #25
	b.hi	Lnoise_BB12_95
	add	x13, x13, #1
	cmp	x8, x13
	b.ne	Lnoise_BB12_92
	mov	x13, x8
Lnoise_BB12_95:
	cmp	x13, #1
	b.eq	Lnoise_BB12_103
	cbz	x13, Lnoise_BB12_170
	cmp	x13, #2
	b.hi	Lnoise_BB12_106
	ldrb	w14, [x12]
	cmp	w14, #115
	b.eq	Lnoise_BB12_122
	cmp	w14, #101
	b.ne	Lnoise_BB12_170
	ldrb	w14, [x12, #1]
	cmp	w14, #101
	b.eq	Lnoise_BB12_126
	cmp	w14, #115
	b.ne	Lnoise_BB12_170
	mov	w15, #0
	mov	w14, #3
	b	Lnoise_BB12_112
Lnoise_BB12_103:
	ldrb	w14, [x12]
	cmp	w14, #101
	b.eq	Lnoise_BB12_111
	cmp	w14, #115
	b.ne	Lnoise_BB12_170
	mov	w15, #0
	mov	w14, #1
	b	Lnoise_BB12_112
Lnoise_BB12_106:
	cmp	x13, #3
	b.ne	Lnoise_BB12_170
	ldrb	w14, [x12]
	cmp	w14, #112
	b.ne	Lnoise_BB12_170
	ldrb	w14, [x12, #1]
	cmp	w14, #115
	b.ne	Lnoise_BB12_170
	ldrb	w14, [x12, #2]
	cmp	w14, #107
	b.ne	Lnoise_BB12_170
	mov	w14, #6
	mov	w15, #1
	b	Lnoise_BB12_112
Lnoise_BB12_111:
	mov	w15, #0
	mov	w14, #0
Lnoise_BB12_112:
	cmp	x11, #11
	b.eq	Lnoise_BB12_114
	add	x16, sp, #1456
	strb	w14, [x16, x11]
	add	x11, x11, #1
	str	x11, [sp, #1472]
Lnoise_BB12_114:
	tbnz	w15, #0, Lnoise_BB12_117
	ldr	x15, [sp, #1496]
	cmp	x15, #9
	b.eq	Lnoise_BB12_117
	strb	w14, [x0, x15]
	add	x14, x15, #1
	str	x14, [sp, #1496]
Lnoise_BB12_117:
	cmp	x8, x13
	b.eq	Lnoise_BB12_127
	sub	x8, x8, x13
	subs	x8, x8, #2
	b.lo	Lnoise_BB12_170
	add	x12, x12, x13
	ldrb	w13, [x12]
	cmp	w13, #44
	b.ne	Lnoise_BB12_170
	ldrb	w13, [x12, #1]
	cmp	w13, #32
	b.ne	Lnoise_BB12_170
	add	x12, x12, #2
	cbnz	x8, Lnoise_BB12_91
	b	Lnoise_BB12_170
Lnoise_BB12_122:
	ldrb	w14, [x12, #1]
	cmp	w14, #101
	b.eq	Lnoise_BB12_125
	cmp	w14, #115
	b.ne	Lnoise_BB12_170
	mov	w15, #0
	mov	w14, #5
	b	Lnoise_BB12_112
Lnoise_BB12_125:
	mov	w15, #0
	mov	w14, #4
	b	Lnoise_BB12_112
Lnoise_BB12_126:
	mov	w15, #0
	mov	w14, #2
	b	Lnoise_BB12_112
Lnoise_BB12_127:
	ldp	q0, q1, [x22]
	add	x8, sp, #888
	stur	q0, [x8, #8]
	stur	q1, [x8, #24]
	ldr	q0, [x22, #32]
	stur	q0, [x8, #40]
	tbz	w23, #0, Lnoise_BB12_130
	cbz	w9, Lnoise_BB12_136
	ldr	w8, [sp, #64]
	orr	w8, w30, w8
	tbz	w8, #0, Lnoise_BB12_137
	b	Lnoise_BB12_196
Lnoise_BB12_130:
	and	w8, w6, #0x1
	cmp	w9, w8
	b.eq	Lnoise_BB12_198
	and	w8, w6, #0xff
	cmp	w8, #7
	b.hi	Lnoise_BB12_200
	mov	w8, #7
	ldr	x23, [sp, #936]
	cbz	x23, Lnoise_BB12_22
	cmp	x23, #9
	b.eq	Lnoise_BB12_22
	str	x0, [sp, #32]
	add	w9, w6, #1
	add	w8, w6, #1
	str	w8, [sp, #12]
	strb	w9, [sp, #2848]
	str	xzr, [sp, #1464]
	str	xzr, [sp, #1456]
	tst	w6, #0xff
	str	w5, [sp, #64]
	str	w4, [sp, #40]
	b.eq	Lnoise_BB12_140
	mov	x24, #0
	add	x0, sp, #1456
	b	Lnoise_BB12_148
Lnoise_BB12_136:
	tbnz	w20, #16, Lnoise_BB12_196
Lnoise_BB12_137:
	ldr	x11, [sp, #912]
	cbz	x11, Lnoise_BB12_145
	cmp	x11, #1
	b.ne	Lnoise_BB12_142
	ldrb	w8, [sp, #896]
	cmp	w8, #2
	b.lo	Lnoise_BB12_145
	b	Lnoise_BB12_196
Lnoise_BB12_140:
	str	x3, [sp, #16]
	mov	x20, x1
Lnoise_loh16:
	adrp	x2, lnoise__static.2@PAGE
Lnoise_loh17:
	add	x2, x2, lnoise__static.2@PAGEOFF
	ldp	x1, x0, [sp, #48]
	bl	"_core::slice::reads::slice+T::contains::<i8,31'core::cmp::numbers::U8PartialEq{}>"
	cbz	w0, Lnoise_BB12_146
	mov	w8, #6
	strb	w8, [sp, #1456]
	mov	w24, #1
	mov	x1, x20
	mov	x0, x20
	b	Lnoise_BB12_147
Lnoise_BB12_142:
	mov	w8, #3
	cmp	x11, #2
	b.hi	Lnoise_BB12_22
	ldrb	w11, [sp, #896]
	cbnz	w11, Lnoise_BB12_22
	ldrb	w11, [sp, #897]
	cmp	w11, #1
	b.ne	Lnoise_BB12_22
Lnoise_BB12_145:
	and	w8, w7, #0x100
	and	w11, w7, #0x10000
	orr	w11, w11, #0x100
	orr	w8, w8, #0x10000
	cmp	w9, #0
	csel	w8, w11, w8, ne
	orr	w8, w8, w10
	b	Lnoise_BB12_162
Lnoise_BB12_146:
	mov	x24, #0
	add	x0, sp, #1456
	mov	x1, x20
Lnoise_BB12_147:
	add	x2, sp, #896
	ldr	x3, [sp, #16]
Lnoise_BB12_148:
	str	x1, [sp, #24]
	mov	w8, #10
	sub	x8, x8, x24
	cmp	x8, x23
	b.lo	Lnoise_BB12_201
	mov	x20, x3
	add	x1, x2, #24
	mov	x2, x23
	bl	_memcpy
	add	x23, x24, x23
	str	x23, [sp, #1472]
	add	x2, sp, #2848
	ldp	x1, x0, [sp, #48]
	bl	"_core::slice::reads::slice+T::contains::<i8,31'core::cmp::numbers::U8PartialEq{}>"
	tbz	w0, #0, Lnoise_BB12_151
	add	x8, sp, #1456
	mov	w9, #6
	strb	w9, [x8, x23]
	add	x8, x23, #1
	str	x8, [sp, #1472]
Lnoise_BB12_151:
	ldr	q0, [x22]
	add	x8, sp, #3712
	str	q0, [x8]
	ldr	x1, [sp, #1472]
	str	x1, [sp, #3728]
	ldr	x8, [sp, #912]
	cmp	x1, x8
	b.ne	Lnoise_BB12_197
	cmp	x1, #4
	b.hs	Lnoise_BB12_157
	cbz	x1, Lnoise_BB12_156
	ldrb	w8, [sp, #3712]
	ldrb	w9, [sp, #896]
	cmp	w8, w9
	b.ne	Lnoise_BB12_159
	cmp	x1, #1
	b.ne	Lnoise_BB12_165
Lnoise_BB12_156:
	add	x2, sp, #896
	mov	x3, x20
	ldr	w8, [sp, #40]
	ldr	w5, [sp, #64]
	b	Lnoise_BB12_161
Lnoise_BB12_157:
	ldr	w8, [sp, #3712]
	ldr	w9, [sp, #896]
	cmp	w8, w9
	b.ne	Lnoise_BB12_197
	add	x0, sp, #3712
	add	x2, sp, #896
	bl	"_core::cmp::slices::groups_equal::<#1549cde59530a8ca>"
	add	x2, sp, #896
	mov	x3, x20
	ldr	w8, [sp, #40]
	ldr	w5, [sp, #64]
	cbnz	w0, Lnoise_BB12_161
	b	Lnoise_BB12_197
Lnoise_BB12_159:
	mov	x8, #0
Lnoise_BB12_160:
	cmp	x8, x1
	add	x2, sp, #896
	mov	x3, x20
	ldr	w8, [sp, #40]
	ldr	w5, [sp, #64]
	b.lo	Lnoise_BB12_197
Lnoise_BB12_161:
	and	w8, w8, #0xffff00
	ldr	w9, [sp, #12]
	orr	w8, w8, w9, lsl #24
	mov	w17, #8224
	movk	w17, #11822, lsl #16
	ldp	x1, x0, [sp, #24]
Lnoise_BB12_162:
	orr	w23, w8, w5
Lnoise_BB12_163:
	cmp	x21, x25
	b.eq	Lnoise_BB12_195
	mvn	x8, x25
	lsr	w6, w23, #24
	add	x26, x26, #1
	mov	x24, x3
	mov	x7, x23
	add	x21, x21, x8
	cbnz	x21, Lnoise_BB12_71
	b	Lnoise_BB12_192
Lnoise_BB12_165:
	ldrb	w8, [sp, #3713]
	ldrb	w9, [sp, #897]
	cmp	w8, w9
	b.ne	Lnoise_BB12_169
	cmp	x1, #2
	b.eq	Lnoise_BB12_156
	ldrb	w8, [sp, #3714]
	ldrb	w9, [sp, #898]
	cmp	w8, w9
	b.eq	Lnoise_BB12_156
	mov	w8, #2
	b	Lnoise_BB12_160
Lnoise_BB12_169:
	mov	w8, #1
	b	Lnoise_BB12_160
Lnoise_BB12_170:
	mov	w8, #2
	b	Lnoise_BB12_22
Lnoise_BB12_171:
	cmp	x10, #2
	b.hi	Lnoise_BB12_178
	ldrb	w8, [x9, #768]
	cbnz	w8, Lnoise_BB12_178
	ldrb	w8, [x9, #769]
	cmp	w8, #1
	b.ne	Lnoise_BB12_178
Lnoise_BB12_174:
	str	x10, [sp, #64]
	stur	xzr, [x29, #-192]
	ldr	x23, [sp, #24]
	cmp	x23, #9
	b.hs	Lnoise_BB12_201
	sub	x0, x29, #192
	add	x1, sp, #3120
	mov	x2, x23
	bl	_memcpy
	stur	x23, [x29, #-184]
	stur	xzr, [x29, #-128]
	sub	x0, x29, #128
	sub	x1, x29, #256
	mov	x2, x26
	bl	_memcpy
	stur	x26, [x29, #-120]
	stur	xzr, [x29, #-224]
	sub	x0, x29, #224
	add	x1, sp, #1, lsl #12
	add	x1, x1, #384
	ldr	x23, [sp, #64]
	mov	x2, x23
	bl	_memcpy
	stur	x23, [x29, #-216]
	add	x8, sp, #3712
	ldr	q0, [x8, #848]
	str	q0, [x8]
	ldr	q0, [x8, #912]
	stur	q0, [x8, #40]
	ldr	q0, [x8, #816]
	stur	q0, [x8, #56]
	ldp	q1, q0, [x8, #576]
	stur	q0, [x8, #120]
	stur	q1, [x8, #104]
	ldp	q1, q0, [x8, #544]
	stur	q0, [x8, #88]
	stur	q1, [x8, #72]
	ldp	q1, q0, [x8, #640]
	stur	q0, [x8, #184]
	stur	q1, [x8, #168]
	ldp	q1, q0, [x8, #608]
	stur	q0, [x8, #152]
	stur	q1, [x8, #136]
	ldp	q1, q0, [x8, #704]
	stur	q0, [x8, #248]
	stur	q1, [x8, #232]
	ldp	q1, q0, [x8, #672]
	stur	q0, [x8, #216]
	str	xzr, [sp, #3744]
	str	xzr, [sp, #3728]
	str	xzr, [sp, #3736]
	stur	q1, [x8, #200]
	add	x0, sp, #3984
	add	x1, sp, #3712
	mov	w2, #264
	bl	_memcpy
	add	x0, sp, #3168
	add	x1, sp, #3984
	mov	w2, #264
	bl	_memcpy
	add	x0, sp, #2576
	add	x1, sp, #3168
	mov	w2, #264
	bl	_memcpy
	ldr	x23, [sp, #56]
Lnoise_BB12_176:
	add	x0, sp, #2848
	add	x1, sp, #2576
	mov	w2, #264
	bl	_memcpy
	str	x23, [sp, #3112]
	add	x8, sp, #3120
	add	x23, sp, #2288
	add	x0, sp, #2288
	add	x1, sp, #2848
	add	x2, x8, #16
	bl	"_noise_names::pattern::Pattern::with_psks"
	ldrb	w8, [sp, #2288]
	cbz	w8, Lnoise_BB12_179
	ldp	q0, q1, [x22, #752]
	stur	q0, [x27, #200]
	stur	q1, [x27, #216]
	ldp	q0, q1, [x22, #784]
	stur	q0, [x27, #232]
	stur	q1, [x27, #248]
	ldp	q0, q1, [x22, #688]
	stur	q0, [x27, #136]
	stur	q1, [x27, #152]
	ldp	q0, q1, [x22, #720]
	stur	q0, [x27, #168]
	stur	q1, [x27, #184]
	ldp	q0, q1, [x22, #624]
	stur	q0, [x27, #72]
	stur	q1, [x27, #88]
	ldp	q0, q1, [x22, #656]
	stur	q0, [x27, #104]
	stur	q1, [x27, #120]
	ldp	q0, q1, [x22, #560]
	stur	q0, [x27, #8]
	stur	q1, [x27, #24]
	ldp	q0, q1, [x22, #592]
	stur	q0, [x27, #40]
	ldr	w8, [sp, #2280]
	str	w8, [sp, #616]
	add	x8, sp, #2280
	ldur	w8, [x8, #3]
	stur	w8, [x25, #3]
	stur	q1, [x27, #56]
	b	Lnoise_BB12_13
Lnoise_BB12_178:
	str	wzr, [sp, #616]
	stur	wzr, [x25, #3]
	b	Lnoise_BB12_12
Lnoise_BB12_179:
	add	x0, sp, #1456
	orr	x1, x23, #0x8
	bl	"_noise_names::text::write::text"
	add	x0, sp, #896
	add	x1, sp, #1456
	mov	w2, #552
	bl	_memcpy
	ldr	x8, [sp, #1440]
	cmp	x8, x20
	b.ne	Lnoise_BB12_186
	cmp	x20, #3
	b.hi	Lnoise_BB12_184
	mov	x8, #0
Lnoise_BB12_182:
	add	x9, sp, #896
	ldrb	w9, [x9, x8]
	ldrb	w10, [x21, x8]
	cmp	w9, w10
	b.ne	Lnoise_BB12_187
	add	x8, x8, #1
	cmp	x20, x8
	b.ne	Lnoise_BB12_182
	b	Lnoise_BB12_188
Lnoise_BB12_184:
	ldr	w8, [sp, #896]
	ldr	w9, [x21]
	cmp	w8, w9
	b.ne	Lnoise_BB12_186
	add	x0, sp, #896
	mov	x1, x20
	mov	x2, x21
	bl	"_core::cmp::slices::groups_equal::<i8,31'core::cmp::numbers::U8PartialEq{}>"
	cbnz	w0, Lnoise_BB12_188
Lnoise_BB12_186:
	mov	x26, #0
	mov	w8, #0
	mov	w9, #0
	b	Lnoise_BB12_189
Lnoise_BB12_187:
	cmp	x8, x20
	b.lo	Lnoise_BB12_186
Lnoise_BB12_188:
	ldr	x26, [sp, #2296]
	ldrb	w8, [sp, #2304]
	ldur	w9, [x24, #17]
	str	w9, [sp, #888]
	ldr	w9, [sp, #2308]
	add	x10, sp, #888
	stur	w9, [x10, #3]
	add	x9, sp, #2288
	add	x9, x9, #24
	ldur	q0, [x24, #216]
	stur	q0, [x25, #200]
	ldur	q0, [x24, #232]
	stur	q0, [x25, #216]
	ldur	q0, [x24, #248]
	stur	q0, [x25, #232]
	ldur	q0, [x24, #152]
	stur	q0, [x25, #136]
	ldur	q0, [x24, #168]
	stur	q0, [x25, #152]
	ldur	q0, [x24, #184]
	stur	q0, [x25, #168]
	ldur	q0, [x24, #200]
	stur	q0, [x25, #184]
	ldur	q0, [x24, #88]
	stur	q0, [x25, #72]
	ldur	q0, [x24, #104]
	stur	q0, [x25, #88]
	ldur	q0, [x24, #120]
	stur	q0, [x25, #104]
	ldur	q0, [x24, #136]
	stur	q0, [x25, #120]
	ldur	q0, [x24, #24]
	stur	q0, [x25, #8]
	ldur	q0, [x24, #40]
	stur	q0, [x25, #24]
	ldur	q0, [x24, #56]
	stur	q0, [x25, #40]
	ldur	q0, [x24, #72]
	stur	q0, [x25, #56]
	ldr	q0, [x9, #240]
	mov	w9, #1
	stur	q0, [x25, #248]
Lnoise_BB12_189:
	ldr	w10, [sp, #888]
	str	w10, [sp, #616]
	add	x10, sp, #888
	ldur	w10, [x10, #3]
	stur	w10, [x25, #3]
	ldur	q0, [x25, #200]
	stur	q0, [x27, #200]
	ldur	q0, [x25, #216]
	stur	q0, [x27, #216]
	ldur	q0, [x25, #232]
	stur	q0, [x27, #232]
	ldur	q0, [x25, #248]
	stur	q0, [x27, #248]
	ldur	q0, [x25, #136]
	stur	q0, [x27, #136]
	ldur	q0, [x25, #152]
	stur	q0, [x27, #152]
	ldur	q0, [x25, #168]
	stur	q0, [x27, #168]
	ldur	q0, [x25, #184]
	stur	q0, [x27, #184]
	ldur	q0, [x25, #72]
	stur	q0, [x27, #72]
	ldur	q0, [x25, #88]
	stur	q0, [x27, #88]
	ldur	q0, [x25, #104]
	stur	q0, [x27, #104]
	ldur	q0, [x25, #120]
	stur	q0, [x27, #120]
	ldur	q0, [x25, #8]
	stur	q0, [x27, #8]
	ldur	q0, [x25, #24]
	stur	q0, [x27, #24]
	ldur	q0, [x25, #40]
	stur	q0, [x27, #40]
	ldur	q0, [x25, #56]
	stur	q0, [x27, #56]
	cbz	w9, Lnoise_BB12_13
	mov	x9, #0
	ldr	w10, [sp, #616]
	str	w10, [sp, #344]
	ldur	w10, [x25, #3]
	stur	w10, [x27, #3]
	ldur	q0, [x27, #200]
	ldur	q1, [x27, #216]
	stp	q0, q1, [x28, #192]
	ldur	q0, [x27, #232]
	ldur	q1, [x27, #248]
	stp	q0, q1, [x28, #224]
	ldur	q0, [x27, #136]
	ldur	q1, [x27, #152]
	stp	q0, q1, [x28, #128]
	ldur	q0, [x27, #168]
	ldur	q1, [x27, #184]
	stp	q0, q1, [x28, #160]
	ldur	q0, [x27, #72]
	ldur	q1, [x27, #88]
	stp	q0, q1, [sp, #144]
	ldur	q0, [x27, #104]
	ldur	q1, [x27, #120]
	stp	q0, q1, [sp, #176]
	ldur	q0, [x27, #8]
	ldur	q1, [x27, #24]
	stp	q0, q1, [sp, #80]
	ldur	q0, [x27, #40]
	ldur	q1, [x27, #56]
	stp	q0, q1, [sp, #112]
	b	Lnoise_BB12_23
Lnoise_BB12_191:
	mov	w8, #1
	b	Lnoise_BB12_22
Lnoise_BB12_192:
	ldp	x11, x10, [sp, #48]
	cbz	w6, Lnoise_BB12_195
Lnoise_BB12_193:
	cbz	x11, Lnoise_BB12_199
	ldrb	w9, [x10], #1
	sub	x11, x11, #1
	mov	w8, #5
	mov	w26, #1
	cmp	w9, w23, lsr #24
	b.ls	Lnoise_BB12_193
	b	Lnoise_BB12_22
Lnoise_BB12_195:
	mov	w8, #8
	b	Lnoise_BB12_22
Lnoise_BB12_196:
	mov	w8, #3
	b	Lnoise_BB12_22
Lnoise_BB12_197:
	mov	w8, #5
	b	Lnoise_BB12_22
Lnoise_BB12_198:
	mov	w8, #4
	b	Lnoise_BB12_22
Lnoise_BB12_199:
	mov	w8, #6
	b	Lnoise_BB12_21
Lnoise_BB12_200:
	mov	w8, #7
	b	Lnoise_BB12_22
Lnoise_BB12_201:
	brk	#0x1
	.loh AdrpAdd	Lnoise_loh12, Lnoise_loh13
	.loh AdrpAdd	Lnoise_loh14, Lnoise_loh15
	.loh AdrpAdd	Lnoise_loh16, Lnoise_loh17
	.cfi_endproc

	.p2align	2
"_noise_names::section::parse_section":
	.cfi_startproc
	sub	sp, sp, #272
	.cfi_def_cfa_offset 272
	stp	x28, x27, [sp, #208]
	stp	x22, x21, [sp, #224]
	stp	x20, x19, [sp, #240]
	stp	x29, x30, [sp, #256]
	add	x29, sp, #256
	.cfi_def_cfa w29, 16
	.cfi_offset w30, -8
	.cfi_offset w29, -16
	.cfi_offset w19, -24
	.cfi_offset w20, -32
	.cfi_offset w21, -40
	.cfi_offset w22, -48
	.cfi_offset w27, -56
	.cfi_offset w28, -64
	.cfi_remember_state
	stp	xzr, xzr, [sp, #48]
	stur	xzr, [sp, #70]
	str	xzr, [sp, #64]
	cbz	x2, Lnoise_BB13_15
	mov	x19, #0
	sub	x21, x29, #120
Lnoise_BB13_2:
	ldrb	w8, [x1, x19]
	cmp	w8, #48
	b.lo	Lnoise_BB13_6
	sub	w9, w8, #65
	cmp	w8, #58
	ccmp	w9, #25, #0, hs
	b.hi	Lnoise_BB13_6
	add	x19, x19, #1
	cmp	x2, x19
	b.ne	Lnoise_BB13_2
	mov	x19, x2
Lnoise_BB13_6:
	cbz	x19, Lnoise_BB13_15
	ldrb	w8, [x1]
	sub	w8, w8, #65
	cmp	w8, #25
	b.hi	Lnoise_BB13_15
	add	x9, x1, x19
	sub	x10, x2, x19
	mov	w8, #1
Lnoise_BB13_9:
	cmp	x19, x8
	b.eq	Lnoise_BB13_12
	ldrb	w11, [x1, x8]
	cmp	w11, #48
	b.lo	Lnoise_BB13_15
	sub	w12, w11, #65
	add	x8, x8, #1
	cmp	w11, #58
	ccmp	w12, #26, #0, hs
	b.lo	Lnoise_BB13_9
	b	Lnoise_BB13_15
Lnoise_BB13_12:
	cmp	x19, #9
	b.hs	Lnoise_BB13_15
	cbz	x10, Lnoise_BB13_31
	mov	x8, #0
	stp	xzr, xzr, [sp, #112]
	str	xzr, [sp, #128]
	b	Lnoise_BB13_20
Lnoise_BB13_15:
	mov	w8, #513
	strh	w8, [x0]
Lnoise_BB13_16:
	movi.2d	v0, #0000000000000000
	stur	q0, [x0, #8]
	stur	q0, [x0, #24]
	str	xzr, [x0, #40]
	.cfi_def_cfa wsp, 272
Lnoise_BB13_17:
	ldp	x29, x30, [sp, #256]
	ldp	x20, x19, [sp, #240]
	ldp	x22, x21, [sp, #224]
	ldp	x28, x27, [sp, #208]
	add	sp, sp, #272
	.cfi_def_cfa_offset 0
	.cfi_restore w30
	.cfi_restore w29
	.cfi_restore w19
	.cfi_restore w20
	.cfi_restore w21
	.cfi_restore w22
	.cfi_restore w27
	.cfi_restore w28
	ret
Lnoise_BB13_18:
	.cfi_restore_state
	.cfi_remember_state
	sub	w11, w11, #48
	add	x12, sp, #112
	strb	w11, [x12, x8]
	add	x8, x8, #1
	str	x8, [sp, #128]
	cmp	x10, #4
	b.eq	Lnoise_BB13_33
	ldrb	w11, [x9, #4]
	add	x9, x9, #5
	sub	x10, x10, #5
	cmp	w11, #43
	b.ne	Lnoise_BB13_29
Lnoise_BB13_20:
	cmp	x10, #3
	b.lo	Lnoise_BB13_29
	cmp	x10, #3
	b.eq	Lnoise_BB13_29
	ldrb	w11, [x9]
	cmp	w11, #112
	b.ne	Lnoise_BB13_29
	ldrb	w11, [x9, #1]
	cmp	w11, #115
	b.ne	Lnoise_BB13_29
	ldrb	w11, [x9, #2]
	cmp	w11, #107
	b.ne	Lnoise_BB13_29
	ldrb	w11, [x9, #3]
	sub	w12, w11, #57
	and	w12, w12, #0xff
	cmp	w12, #247
	b.lo	Lnoise_BB13_29
	cmp	x8, #10
	b.ne	Lnoise_BB13_18
	cmp	x10, #4
	b.eq	Lnoise_BB13_34
	mov	w8, #10
	ldrb	w11, [x9, #4]
	add	x9, x9, #5
	sub	x10, x10, #5
	cmp	w11, #43
	b.eq	Lnoise_BB13_20
Lnoise_BB13_29:
	mov	w8, #3
Lnoise_BB13_30:
	mov	w9, #1
	strb	w9, [x0]
	strb	w8, [x0, #1]
	b	Lnoise_BB13_16
Lnoise_BB13_31:
	mov	x20, x1
	mov	x22, x0
	stur	xzr, [sp, #62]
	stur	xzr, [sp, #54]
	stur	xzr, [sp, #70]
Lnoise_BB13_32:
	mov	w8, #16
	sub	x1, x8, x19
	sub	x8, x29, #120
	add	x0, x8, x19
	bl	_bzero
	sub	x0, x29, #120
	mov	x1, x20
	mov	x2, x19
	bl	_memcpy
	stur	x19, [x29, #-112]
	ldr	q0, [x21]
	ldur	x8, [sp, #70]
	ldur	q1, [sp, #54]
	str	x8, [sp, #32]
	stp	q0, q1, [sp]
	strh	wzr, [x22]
	stur	q0, [x22, #8]
	stur	q1, [x22, #24]
	str	x8, [x22, #40]
	.cfi_def_cfa wsp, 272
	b	Lnoise_BB13_17
Lnoise_BB13_33:
	.cfi_restore_state
	stp	xzr, xzr, [x29, #-120]
	stur	xzr, [x29, #-104]
	cbnz	x8, Lnoise_BB13_35
	b	Lnoise_BB13_38
Lnoise_BB13_34:
	stp	xzr, xzr, [x29, #-120]
	mov	w8, #10
Lnoise_BB13_35:
	mov	x9, #0
	mov	w10, #0
Lnoise_BB13_36:
	add	x11, sp, #112
	ldrb	w11, [x11, x9]
	cmp	w11, w10
	ccmp	w11, #8, #2, hs
	b.hi	Lnoise_BB13_39
	sub	x10, x29, #120
	strb	w11, [x10, x9]
	add	x9, x9, #1
	stur	x9, [x29, #-104]
	add	w10, w11, #1
	cmp	x8, x9
	b.ne	Lnoise_BB13_36
Lnoise_BB13_38:
	mov	x20, x1
	mov	x22, x0
	ldr	q0, [x21]
	str	q0, [sp, #80]
	ldur	x8, [x29, #-104]
	stur	q0, [sp, #54]
	stur	x8, [sp, #70]
	b	Lnoise_BB13_32
Lnoise_BB13_39:
	mov	w8, #4
	b	Lnoise_BB13_30
	.cfi_endproc

	.p2align	2
"_noise_names::table::place_of":
	.cfi_startproc
	cbz	x1, Lnoise_BB14_30
	cmp	x1, #1
	b.ne	Lnoise_BB14_6
	ldrb	w8, [x0]
	cmp	w8, #88
	b.eq	Lnoise_BB14_15
	cmp	w8, #78
	b.eq	Lnoise_BB14_14
	cmp	w8, #75
	b.ne	Lnoise_BB14_30
	mov	w1, #1
	mov	w0, #1
	ret
Lnoise_BB14_6:
	cmp	x1, #2
	b.hi	Lnoise_BB14_30
	ldrb	w8, [x0]
	cmp	w8, #77
	b.gt	Lnoise_BB14_16
	cmp	w8, #73
	b.eq	Lnoise_BB14_22
	cmp	w8, #75
	b.ne	Lnoise_BB14_30
	ldrb	w8, [x0, #1]
	cmp	w8, #88
	b.eq	Lnoise_BB14_35
	cmp	w8, #78
	b.eq	Lnoise_BB14_31
	cmp	w8, #75
	b.ne	Lnoise_BB14_30
	mov	w0, #1
	mov	w1, #7
	ret
Lnoise_BB14_14:
	mov	w1, #0
	mov	w0, #1
	ret
Lnoise_BB14_15:
	mov	w0, #1
	mov	w1, #2
	ret
Lnoise_BB14_16:
	cmp	w8, #88
	b.eq	Lnoise_BB14_26
	cmp	w8, #78
	b.ne	Lnoise_BB14_30
	ldrb	w8, [x0, #1]
	cmp	w8, #88
	b.eq	Lnoise_BB14_36
	cmp	w8, #78
	b.eq	Lnoise_BB14_32
	cmp	w8, #75
	b.ne	Lnoise_BB14_30
	mov	w0, #1
	mov	w1, #4
	ret
Lnoise_BB14_22:
	ldrb	w8, [x0, #1]
	cmp	w8, #88
	b.eq	Lnoise_BB14_37
	cmp	w8, #78
	b.eq	Lnoise_BB14_33
	cmp	w8, #75
	b.ne	Lnoise_BB14_30
	mov	w0, #1
	mov	w1, #13
	ret
Lnoise_BB14_26:
	ldrb	w8, [x0, #1]
	cmp	w8, #88
	b.eq	Lnoise_BB14_38
	cmp	w8, #78
	b.eq	Lnoise_BB14_34
	cmp	w8, #75
	b.ne	Lnoise_BB14_30
	mov	w0, #1
	mov	w1, #10
	ret
Lnoise_BB14_30:
	mov	w1, #0
	mov	w0, #0
	ret
Lnoise_BB14_31:
	mov	w0, #1
	mov	w1, #6
	ret
Lnoise_BB14_32:
	mov	w0, #1
	mov	w1, #3
	ret
Lnoise_BB14_33:
	mov	w0, #1
	mov	w1, #12
	ret
Lnoise_BB14_34:
	mov	w0, #1
	mov	w1, #9
	ret
Lnoise_BB14_35:
	mov	w0, #1
	mov	w1, #8
	ret
Lnoise_BB14_36:
	mov	w0, #1
	mov	w1, #5
	ret
Lnoise_BB14_37:
	mov	w0, #1
	mov	w1, #14
	ret
Lnoise_BB14_38:
	mov	w0, #1
	mov	w1, #11
	ret
	.cfi_endproc

	.section	__TEXT,__literal16,16byte_literals
	.p2align	4, 0x0
lnoise_CPI15_0:
	.quad	0
	.quad	1
lnoise_CPI15_1:
	.quad	19273
	.quad	2
lnoise_CPI15_2:
	.quad	20041
	.quad	2
lnoise_CPI15_3:
	.quad	22616
	.quad	2
lnoise_CPI15_4:
	.quad	19288
	.quad	2
lnoise_CPI15_5:
	.quad	20056
	.quad	2
lnoise_CPI15_6:
	.quad	1
	.quad	0
lnoise_CPI15_7:
	.quad	22603
	.quad	2
lnoise_CPI15_8:
	.quad	19275
	.quad	2
lnoise_CPI15_9:
	.quad	20043
	.quad	2
lnoise_CPI15_10:
	.quad	22606
	.quad	2
lnoise_CPI15_11:
	.quad	19278
	.quad	2
lnoise_CPI15_12:
	.quad	20046
	.quad	2
lnoise_CPI15_13:
	.quad	88
	.quad	1
lnoise_CPI15_14:
	.quad	75
	.quad	1
lnoise_CPI15_15:
	.quad	78
	.quad	1
lnoise_CPI15_16:
	.quad	22601
	.quad	2
	.section	__TEXT,__text,regular,pure_instructions
	.p2align	2
"_noise_names::table::row":
	.cfi_startproc
	stp	x28, x27, [sp, #-16]!
	.cfi_def_cfa_offset 16
	.cfi_offset w27, -8
	.cfi_offset w28, -16
	sub	sp, sp, #2960
	.cfi_def_cfa_offset 2976
	add	x8, sp, #168
	stp	xzr, xzr, [sp, #168]
	and	w9, w1, #0xff
	str	xzr, [sp, #184]
	str	xzr, [sp, #152]
	str	wzr, [sp, #160]
	str	xzr, [sp, #136]
	str	wzr, [sp, #144]
	stp	xzr, xzr, [sp, #112]
	str	wzr, [sp, #128]
	movi.2d	v0, #0000000000000000
	stp	q0, q0, [sp]
	stp	q0, q0, [sp, #32]
	stp	q0, q0, [sp, #64]
	str	q0, [sp, #96]
	cmp	w9, #13
	b.hi	Lnoise_BB15_16
	and	x9, x1, #0xff
Lnoise_loh18:
	adrp	x10, Lnoise_JTI15_0@PAGE
Lnoise_loh19:
	add	x10, x10, Lnoise_JTI15_0@PAGEOFF
	adr	x11, Lnoise_BB15_2
	ldrh	w12, [x10, x9, lsl #1]
	add	x11, x11, x12, lsl #2
	br	x11
Lnoise_BB15_2:
	mov	w13, #0
	mov	x10, #0
	mov	w9, #0
	mov	w16, #0
	mov	x17, #0
	mov	w11, #0
	mov	x12, #0
	str	wzr, [sp, #376]
	str	xzr, [sp, #368]
	str	xzr, [sp, #336]
	str	wzr, [sp, #344]
	str	xzr, [sp, #320]
	str	wzr, [sp, #328]
	stp	q0, q0, [sp, #192]
	stp	q0, q0, [sp, #224]
	stp	q0, q0, [sp, #256]
	str	q0, [sp, #288]
	str	xzr, [sp, #304]
	str	xzr, [sp, #352]
	str	wzr, [sp, #360]
	stp	xzr, xzr, [sp, #176]
	str	xzr, [sp, #168]
	str	wzr, [sp, #160]
	str	xzr, [sp, #152]
	str	wzr, [sp, #144]
	str	xzr, [sp, #136]
	str	wzr, [sp, #128]
	ldr	x14, [sp, #320]
	str	x14, [sp, #120]
	ldp	q0, q1, [sp, #192]
	ldp	q2, q3, [sp, #224]
	stp	q2, q3, [sp, #32]
	stp	q0, q1, [sp]
	ldp	q2, q3, [sp, #256]
	ldr	q0, [sp, #288]
	ldr	x14, [sp, #304]
	str	x14, [sp, #112]
	str	q0, [sp, #96]
Lnoise_loh20:
	adrp	x14, lnoise_CPI15_0@PAGE
Lnoise_loh21:
	ldr	q0, [x14, lnoise_CPI15_0@PAGEOFF]
Lnoise_loh22:
	adrp	x14, lnoise_CPI15_15@PAGE
Lnoise_loh23:
	ldr	q1, [x14, lnoise_CPI15_15@PAGEOFF]
	mov	w14, #768
	mov	w1, #1
	mov	w2, #2
	mov	w15, #1
	b	Lnoise_BB15_18
Lnoise_BB15_3:
	mov	w11, #0
	mov	w14, #0
	mov	x12, #0
	mov	x15, #0
	str	xzr, [sp, #2384]
	str	wzr, [sp, #2392]
	str	xzr, [sp, #2368]
	str	wzr, [sp, #2376]
	str	xzr, [sp, #2352]
	str	wzr, [sp, #2360]
	str	q0, [sp, #2224]
	str	q0, [sp, #2240]
	str	q0, [sp, #2256]
	str	q0, [sp, #2272]
	str	q0, [sp, #2288]
	str	q0, [sp, #2304]
	str	q0, [sp, #2320]
	str	xzr, [sp, #2336]
	str	wzr, [sp, #2952]
	str	xzr, [sp, #2944]
	str	wzr, [sp, #2760]
	str	xzr, [sp, #2752]
	str	wzr, [sp, #2376]
	str	xzr, [sp, #2368]
	str	wzr, [sp, #2952]
	str	xzr, [sp, #2944]
	str	wzr, [sp, #2760]
	str	xzr, [sp, #2752]
	str	wzr, [sp, #2360]
	str	xzr, [sp, #2352]
	str	xzr, [sp, #184]
	str	q0, [x8]
	ldr	x9, [sp, #2384]
	ldr	w10, [sp, #2392]
	str	w10, [sp, #160]
	str	x9, [sp, #152]
	ldr	x9, [sp, #2368]
	ldr	w10, [sp, #2376]
	str	w10, [sp, #144]
	str	x9, [sp, #136]
	ldr	x9, [sp, #2352]
	ldr	w10, [sp, #2360]
	str	w10, [sp, #128]
	str	x9, [sp, #120]
	ldr	q1, [sp, #2224]
	ldr	q2, [sp, #2240]
	ldr	q3, [sp, #2256]
	ldr	q4, [sp, #2272]
	stp	q3, q4, [sp, #32]
	stp	q1, q2, [sp]
	ldr	q2, [sp, #2288]
	ldr	q3, [sp, #2304]
	ldr	q1, [sp, #2320]
	ldr	x9, [sp, #2336]
	str	x9, [sp, #112]
	mov	w16, #512
	str	q1, [sp, #96]
	mov	w9, #1025
Lnoise_loh24:
	adrp	x10, lnoise_CPI15_3@PAGE
Lnoise_loh25:
	ldr	q1, [x10, lnoise_CPI15_3@PAGEOFF]
	mov	w13, #769
	mov	w1, #3
	mov	w2, #1
	mov	w17, #4
	mov	w10, #2
	b	Lnoise_BB15_18
Lnoise_BB15_4:
	mov	w13, #0
	mov	x10, #0
	mov	w9, #0
	mov	w11, #0
	mov	x12, #0
	str	xzr, [sp, #2752]
	str	wzr, [sp, #2760]
	str	xzr, [sp, #1088]
	str	wzr, [sp, #1096]
	stp	q0, q0, [sp, #960]
	stp	q0, q0, [sp, #992]
	str	q0, [sp, #1024]
	str	q0, [sp, #1040]
	str	q0, [sp, #1056]
	str	xzr, [sp, #1072]
	str	wzr, [sp, #1128]
	str	xzr, [sp, #1120]
	str	wzr, [sp, #2952]
	str	xzr, [sp, #2944]
	str	wzr, [sp, #2760]
	str	xzr, [sp, #2752]
	str	wzr, [sp, #1112]
	str	xzr, [sp, #1104]
	stp	xzr, xzr, [sp, #168]
	str	xzr, [sp, #184]
	str	wzr, [sp, #160]
	str	xzr, [sp, #152]
	ldr	x14, [sp, #1104]
	ldr	w15, [sp, #1112]
	str	w15, [sp, #144]
	str	x14, [sp, #136]
	ldr	x14, [sp, #1088]
	ldr	w15, [sp, #1096]
	str	w15, [sp, #128]
	str	x14, [sp, #120]
	ldp	q0, q1, [sp, #960]
	ldp	q2, q3, [sp, #992]
	stp	q2, q3, [sp, #32]
	stp	q0, q1, [sp]
	ldr	q2, [sp, #1024]
	ldr	q3, [sp, #1040]
	ldr	q0, [sp, #1056]
	ldr	x14, [sp, #1072]
	str	x14, [sp, #112]
	str	q0, [sp, #96]
Lnoise_loh26:
	adrp	x14, lnoise_CPI15_0@PAGE
Lnoise_loh27:
	ldr	q0, [x14, lnoise_CPI15_0@PAGEOFF]
	mov	w14, #768
Lnoise_loh28:
	adrp	x15, lnoise_CPI15_11@PAGE
Lnoise_loh29:
	ldr	q1, [x15, lnoise_CPI15_11@PAGEOFF]
	mov	w16, #512
	mov	w15, #1
	mov	w17, #2
	mov	w2, #2
	b	Lnoise_BB15_17
Lnoise_BB15_5:
	mov	x10, #0
	mov	w9, #0
	mov	w11, #0
	mov	x12, #0
	mov	x15, #0
	str	xzr, [sp, #2752]
	str	wzr, [sp, #2760]
	str	xzr, [sp, #2528]
	str	wzr, [sp, #2536]
	str	q0, [sp, #2400]
	str	q0, [sp, #2416]
	str	q0, [sp, #2432]
	str	q0, [sp, #2448]
	str	q0, [sp, #2464]
	str	q0, [sp, #2480]
	str	q0, [sp, #2496]
	str	xzr, [sp, #2512]
	str	wzr, [sp, #2568]
	str	xzr, [sp, #2560]
	str	wzr, [sp, #2952]
	str	xzr, [sp, #2944]
	str	wzr, [sp, #2760]
	str	xzr, [sp, #2752]
	str	wzr, [sp, #2552]
	str	xzr, [sp, #2544]
	str	xzr, [sp, #184]
	str	q0, [x8]
	str	wzr, [sp, #160]
	str	xzr, [sp, #152]
	ldr	x13, [sp, #2544]
	ldr	w14, [sp, #2552]
	str	w14, [sp, #144]
	str	x13, [sp, #136]
	ldr	x13, [sp, #2528]
	ldr	w14, [sp, #2536]
	str	w14, [sp, #128]
	str	x13, [sp, #120]
	ldr	q1, [sp, #2400]
	ldr	q2, [sp, #2416]
	ldr	q3, [sp, #2432]
	ldr	q4, [sp, #2448]
	stp	q3, q4, [sp, #32]
	stp	q1, q2, [sp]
	ldr	q2, [sp, #2464]
	ldr	q3, [sp, #2480]
	ldr	q1, [sp, #2496]
	ldr	x13, [sp, #2512]
	str	x13, [sp, #112]
	str	q1, [sp, #96]
	mov	w14, #256
Lnoise_loh30:
	adrp	x13, lnoise_CPI15_2@PAGE
Lnoise_loh31:
	ldr	q1, [x13, lnoise_CPI15_2@PAGEOFF]
	mov	w16, #512
	mov	w13, #4
	mov	w2, #2
	mov	w17, #3
	b	Lnoise_BB15_17
Lnoise_BB15_6:
	mov	w13, #0
	mov	w11, #0
	mov	w14, #0
	mov	x12, #0
	mov	x15, #0
	str	xzr, [sp, #2032]
	str	wzr, [sp, #2040]
	str	xzr, [sp, #2016]
	str	wzr, [sp, #2024]
	str	xzr, [sp, #2000]
	str	wzr, [sp, #2008]
	str	q0, [sp, #1872]
	str	q0, [sp, #1888]
	str	q0, [sp, #1904]
	str	q0, [sp, #1920]
	str	q0, [sp, #1936]
	str	q0, [sp, #1952]
	str	q0, [sp, #1968]
	str	xzr, [sp, #1984]
	str	wzr, [sp, #2952]
	str	xzr, [sp, #2944]
	str	wzr, [sp, #2760]
	str	xzr, [sp, #2752]
	str	wzr, [sp, #2024]
	str	xzr, [sp, #2016]
	str	wzr, [sp, #2952]
	str	xzr, [sp, #2944]
	str	wzr, [sp, #2760]
	str	xzr, [sp, #2752]
	str	wzr, [sp, #2008]
	str	xzr, [sp, #2000]
	str	xzr, [sp, #184]
	str	q0, [x8]
	ldr	x9, [sp, #2032]
	ldr	w10, [sp, #2040]
	str	w10, [sp, #160]
	str	x9, [sp, #152]
	ldr	x9, [sp, #2016]
	ldr	w10, [sp, #2024]
	str	w10, [sp, #144]
	str	x9, [sp, #136]
	ldr	x9, [sp, #2000]
	ldr	w10, [sp, #2008]
	str	w10, [sp, #128]
	str	x9, [sp, #120]
	ldr	q1, [sp, #1872]
	ldr	q2, [sp, #1888]
	ldr	q3, [sp, #1904]
	ldr	q4, [sp, #1920]
	stp	q3, q4, [sp, #32]
	stp	q1, q2, [sp]
	ldr	q2, [sp, #1936]
	ldr	q3, [sp, #1952]
	ldr	q1, [sp, #1968]
	ldr	x9, [sp, #1984]
	str	x9, [sp, #112]
	str	q1, [sp, #96]
	mov	w16, #512
Lnoise_loh32:
	adrp	x9, lnoise_CPI15_5@PAGE
Lnoise_loh33:
	ldr	q1, [x9, lnoise_CPI15_5@PAGEOFF]
	mov	w9, #1025
	mov	w1, #3
	mov	w2, #1
	mov	w10, #2
	mov	w17, #2
	b	Lnoise_BB15_18
Lnoise_BB15_7:
	mov	w13, #0
	mov	x10, #0
	mov	w9, #0
	mov	w16, #0
	mov	x17, #0
	mov	x12, #0
	str	wzr, [sp, #760]
	str	xzr, [sp, #752]
	str	xzr, [sp, #720]
	str	wzr, [sp, #728]
	str	xzr, [sp, #704]
	str	wzr, [sp, #712]
	stp	q0, q0, [sp, #576]
	stp	q0, q0, [sp, #608]
	stp	q0, q0, [sp, #640]
	str	q0, [sp, #672]
	str	xzr, [sp, #688]
	str	xzr, [sp, #736]
	str	wzr, [sp, #744]
	stp	xzr, xzr, [sp, #176]
	str	xzr, [sp, #168]
	str	wzr, [sp, #160]
	str	xzr, [sp, #152]
	str	wzr, [sp, #144]
	str	xzr, [sp, #136]
	str	wzr, [sp, #128]
	ldr	x11, [sp, #704]
	str	x11, [sp, #120]
	ldp	q0, q1, [sp, #576]
	ldp	q2, q3, [sp, #608]
	stp	q2, q3, [sp, #32]
	stp	q0, q1, [sp]
	ldp	q2, q3, [sp, #640]
	ldr	q0, [sp, #672]
	ldr	x11, [sp, #688]
	str	x11, [sp, #112]
	str	q0, [sp, #96]
Lnoise_loh34:
	adrp	x11, lnoise_CPI15_0@PAGE
Lnoise_loh35:
	ldr	q0, [x11, lnoise_CPI15_0@PAGEOFF]
Lnoise_loh36:
	adrp	x11, lnoise_CPI15_13@PAGE
Lnoise_loh37:
	ldr	q1, [x11, lnoise_CPI15_13@PAGEOFF]
	mov	w14, #768
	mov	w11, #1281
	mov	w1, #1
	mov	w2, #4
	mov	w15, #1
	b	Lnoise_BB15_18
Lnoise_BB15_8:
	mov	w13, #0
	mov	x10, #0
	mov	w9, #0
	mov	w11, #0
	mov	w14, #0
	mov	x12, #0
	mov	x15, #0
	str	wzr, [sp, #936]
	str	xzr, [sp, #928]
	str	xzr, [sp, #912]
	str	wzr, [sp, #920]
	str	xzr, [sp, #896]
	str	wzr, [sp, #904]
	stp	q0, q0, [sp, #768]
	stp	q0, q0, [sp, #800]
	stp	q0, q0, [sp, #832]
	str	q0, [sp, #864]
	str	xzr, [sp, #880]
	str	xzr, [sp, #944]
	str	wzr, [sp, #952]
	str	q0, [x8]
	str	xzr, [sp, #184]
	str	wzr, [sp, #160]
	str	xzr, [sp, #152]
	str	wzr, [sp, #144]
	str	xzr, [sp, #136]
	str	wzr, [sp, #128]
	ldr	x16, [sp, #896]
	str	x16, [sp, #120]
	ldp	q1, q2, [sp, #768]
	ldp	q3, q4, [sp, #800]
	stp	q3, q4, [sp, #32]
	stp	q1, q2, [sp]
	ldp	q2, q3, [sp, #832]
	ldr	q1, [sp, #864]
	ldr	x16, [sp, #880]
	str	x16, [sp, #112]
	str	q1, [sp, #96]
Lnoise_loh38:
	adrp	x16, lnoise_CPI15_12@PAGE
Lnoise_loh39:
	ldr	q1, [x16, lnoise_CPI15_12@PAGEOFF]
	mov	w16, #512
	mov	w2, #1
	mov	w17, #2
	b	Lnoise_BB15_17
Lnoise_BB15_9:
	mov	x10, #0
	mov	w9, #0
	str	xzr, [sp, #2752]
	str	wzr, [sp, #2760]
	str	xzr, [sp, #1648]
	str	wzr, [sp, #1656]
	str	q0, [sp, #1520]
	str	q0, [sp, #1536]
	str	q0, [sp, #1552]
	str	q0, [sp, #1568]
	str	q0, [sp, #1584]
	str	q0, [sp, #1600]
	str	q0, [sp, #1616]
	str	xzr, [sp, #1632]
	str	wzr, [sp, #1688]
	str	xzr, [sp, #1680]
	str	wzr, [sp, #2952]
	str	xzr, [sp, #2944]
	str	wzr, [sp, #2760]
	str	xzr, [sp, #2752]
	str	wzr, [sp, #1672]
	str	xzr, [sp, #1664]
	stp	xzr, xzr, [sp, #168]
	str	xzr, [sp, #184]
	str	wzr, [sp, #160]
	str	xzr, [sp, #152]
	ldr	x11, [sp, #1664]
	ldr	w12, [sp, #1672]
	str	w12, [sp, #144]
	str	x11, [sp, #136]
	ldr	x11, [sp, #1648]
	ldr	w12, [sp, #1656]
	str	w12, [sp, #128]
	str	x11, [sp, #120]
	ldr	q0, [sp, #1520]
	ldr	q1, [sp, #1536]
	ldr	q2, [sp, #1552]
	ldr	q3, [sp, #1568]
	stp	q2, q3, [sp, #32]
	stp	q0, q1, [sp]
	ldr	q0, [sp, #1584]
	ldr	q1, [sp, #1600]
	ldr	q2, [sp, #1616]
	ldr	x11, [sp, #1632]
	str	x11, [sp, #112]
	mov	w12, #1
	stp	q1, q2, [sp, #80]
	mov	w14, #768
	mov	w11, #5
	mov	w16, #512
	mov	w13, #4
	str	q0, [sp, #64]
	mov	w1, #2
Lnoise_loh40:
	adrp	x15, lnoise_CPI15_8@PAGE
Lnoise_loh41:
	ldr	q1, [x15, lnoise_CPI15_8@PAGEOFF]
	mov	w17, #3
	mov	w2, #3
	mov	w15, #1
	dup.2d	v0, x12
	b	Lnoise_BB15_19
Lnoise_BB15_10:
	mov	w13, #0
	mov	x10, #0
	mov	w9, #0
	mov	w16, #0
	mov	x17, #0
	str	wzr, [sp, #568]
	str	xzr, [sp, #560]
	str	xzr, [sp, #528]
	str	wzr, [sp, #536]
	str	xzr, [sp, #512]
	str	wzr, [sp, #520]
	stp	q0, q0, [sp, #384]
	stp	q0, q0, [sp, #416]
	stp	q0, q0, [sp, #448]
	str	q0, [sp, #480]
	str	xzr, [sp, #496]
	str	xzr, [sp, #544]
	str	wzr, [sp, #552]
	stp	xzr, xzr, [sp, #176]
	str	xzr, [sp, #168]
	str	wzr, [sp, #160]
	str	xzr, [sp, #152]
	str	wzr, [sp, #144]
	str	xzr, [sp, #136]
	str	wzr, [sp, #128]
	ldr	x11, [sp, #512]
	str	x11, [sp, #120]
	ldp	q0, q1, [sp, #384]
	ldp	q2, q3, [sp, #416]
	stp	q2, q3, [sp, #32]
	stp	q0, q1, [sp]
	ldp	q0, q1, [sp, #448]
	ldr	q2, [sp, #480]
	ldr	x11, [sp, #496]
	str	x11, [sp, #112]
	stp	q1, q2, [sp, #80]
	mov	w1, #1
	mov	w14, #768
	str	q0, [sp, #64]
	mov	w11, #5
Lnoise_loh42:
	adrp	x12, lnoise_CPI15_14@PAGE
Lnoise_loh43:
	ldr	q1, [x12, lnoise_CPI15_14@PAGEOFF]
	mov	w2, #3
	mov	w12, #1
	mov	w15, #1
	dup.2d	v0, x1
	b	Lnoise_BB15_19
Lnoise_BB15_11:
	mov	x10, #0
	mov	w9, #0
	mov	w11, #0
	mov	w14, #0
	mov	x12, #0
	mov	x15, #0
	str	wzr, [sp, #1304]
	str	xzr, [sp, #1296]
	str	xzr, [sp, #1280]
	str	wzr, [sp, #1288]
	str	xzr, [sp, #1264]
	str	wzr, [sp, #1272]
	str	q0, [sp, #1136]
	str	q0, [sp, #1152]
	str	q0, [sp, #1168]
	str	q0, [sp, #1184]
	str	q0, [sp, #1200]
	str	q0, [sp, #1216]
	str	q0, [sp, #1232]
	str	xzr, [sp, #1248]
	str	xzr, [sp, #1312]
	str	wzr, [sp, #1320]
	str	q0, [x8]
	str	xzr, [sp, #184]
	str	wzr, [sp, #160]
	str	xzr, [sp, #152]
	str	wzr, [sp, #144]
	ldr	x13, [sp, #1280]
	str	x13, [sp, #136]
	ldr	w13, [sp, #1272]
	str	w13, [sp, #128]
	ldr	x13, [sp, #1264]
	str	x13, [sp, #120]
	ldr	q1, [sp, #1136]
	ldr	q2, [sp, #1152]
	ldr	q3, [sp, #1168]
	ldr	q4, [sp, #1184]
	stp	q3, q4, [sp, #32]
	stp	q1, q2, [sp]
	ldr	q2, [sp, #1200]
	ldr	q3, [sp, #1216]
	ldr	q1, [sp, #1232]
	ldr	x13, [sp, #1248]
	str	x13, [sp, #112]
	str	q1, [sp, #96]
Lnoise_loh44:
	adrp	x13, lnoise_CPI15_10@PAGE
Lnoise_loh45:
	ldr	q1, [x13, lnoise_CPI15_10@PAGEOFF]
	mov	w16, #512
	mov	w13, #769
	mov	w1, #2
	mov	w2, #1
	mov	w17, #4
	b	Lnoise_BB15_18
Lnoise_BB15_12:
	mov	x10, #0
	mov	w9, #0
	mov	x12, #0
	str	xzr, [sp, #2752]
	str	wzr, [sp, #2760]
	str	xzr, [sp, #2704]
	str	wzr, [sp, #2712]
	str	q0, [sp, #2576]
	str	q0, [sp, #2592]
	str	q0, [sp, #2608]
	str	q0, [sp, #2624]
	str	q0, [sp, #2640]
	str	q0, [sp, #2656]
	str	q0, [sp, #2672]
	str	xzr, [sp, #2688]
	str	wzr, [sp, #2744]
	str	xzr, [sp, #2736]
	str	wzr, [sp, #2952]
	str	xzr, [sp, #2944]
	str	wzr, [sp, #2760]
	str	xzr, [sp, #2752]
	str	wzr, [sp, #2728]
	str	xzr, [sp, #2720]
	stp	xzr, xzr, [sp, #168]
	str	xzr, [sp, #184]
	str	wzr, [sp, #160]
	str	xzr, [sp, #152]
	ldr	x11, [sp, #2720]
	ldr	w13, [sp, #2728]
	str	w13, [sp, #144]
	str	x11, [sp, #136]
	ldr	x11, [sp, #2704]
	ldr	w13, [sp, #2712]
	str	w13, [sp, #128]
	str	x11, [sp, #120]
	ldr	q0, [sp, #2576]
	ldr	q1, [sp, #2592]
	ldr	q2, [sp, #2608]
	ldr	q3, [sp, #2624]
	stp	q2, q3, [sp, #32]
	stp	q0, q1, [sp]
	ldr	q2, [sp, #2640]
	ldr	q3, [sp, #2656]
	ldr	q0, [sp, #2672]
	ldr	x11, [sp, #2688]
	str	x11, [sp, #112]
	mov	w14, #768
	str	q0, [sp, #96]
	mov	w11, #1281
Lnoise_loh46:
	adrp	x13, lnoise_CPI15_0@PAGE
Lnoise_loh47:
	ldr	q0, [x13, lnoise_CPI15_0@PAGEOFF]
	mov	w16, #512
Lnoise_loh48:
	adrp	x13, lnoise_CPI15_1@PAGE
Lnoise_loh49:
	ldr	q1, [x13, lnoise_CPI15_1@PAGEOFF]
	mov	w13, #4
	mov	w15, #1
	mov	w1, #2
	mov	w17, #3
	mov	w2, #4
	b	Lnoise_BB15_18
Lnoise_BB15_13:
	mov	x10, #0
	mov	w9, #0
	mov	w11, #0
	mov	w14, #0
	mov	x15, #0
	str	wzr, [sp, #1496]
	str	xzr, [sp, #1488]
	str	xzr, [sp, #1472]
	str	wzr, [sp, #1480]
	str	xzr, [sp, #1456]
	str	wzr, [sp, #1464]
	str	q0, [sp, #1328]
	str	q0, [sp, #1344]
	str	q0, [sp, #1360]
	str	q0, [sp, #1376]
	str	q0, [sp, #1392]
	str	q0, [sp, #1408]
	str	q0, [sp, #1424]
	str	xzr, [sp, #1440]
	str	xzr, [sp, #1504]
	str	wzr, [sp, #1512]
	stp	xzr, xzr, [sp, #168]
	str	xzr, [sp, #184]
	str	wzr, [sp, #160]
	str	xzr, [sp, #152]
	str	wzr, [sp, #144]
	ldr	x12, [sp, #1472]
	str	x12, [sp, #136]
	ldr	w12, [sp, #1464]
	str	w12, [sp, #128]
	ldr	x12, [sp, #1456]
	str	x12, [sp, #120]
	ldr	q0, [sp, #1328]
	ldr	q1, [sp, #1344]
	ldr	q2, [sp, #1360]
	ldr	q3, [sp, #1376]
	stp	q2, q3, [sp, #32]
	stp	q0, q1, [sp]
	ldr	q2, [sp, #1392]
	ldr	q3, [sp, #1408]
	ldr	q0, [sp, #1424]
	ldr	x12, [sp, #1440]
	str	x12, [sp, #112]
	str	q0, [sp, #96]
Lnoise_loh50:
	adrp	x12, lnoise_CPI15_6@PAGE
Lnoise_loh51:
	ldr	q0, [x12, lnoise_CPI15_6@PAGEOFF]
	mov	w16, #512
Lnoise_loh52:
	adrp	x12, lnoise_CPI15_9@PAGE
Lnoise_loh53:
	ldr	q1, [x12, lnoise_CPI15_9@PAGEOFF]
	mov	w13, #4
	mov	w1, #2
	mov	w2, #1
	mov	w17, #3
	mov	w12, #1
	b	Lnoise_BB15_18
Lnoise_BB15_14:
	mov	w13, #0
	mov	w11, #0
	mov	x12, #0
	str	xzr, [sp, #2752]
	str	wzr, [sp, #2760]
	str	q0, [sp, #2048]
	str	q0, [sp, #2064]
	str	q0, [sp, #2080]
	str	q0, [sp, #2096]
	str	q0, [sp, #2112]
	str	q0, [sp, #2128]
	str	q0, [sp, #2144]
	str	xzr, [sp, #2160]
	str	wzr, [sp, #2216]
	str	xzr, [sp, #2208]
	str	wzr, [sp, #2952]
	str	xzr, [sp, #2944]
	str	wzr, [sp, #2760]
	str	xzr, [sp, #2752]
	str	wzr, [sp, #2200]
	str	xzr, [sp, #2192]
	str	wzr, [sp, #2952]
	str	xzr, [sp, #2944]
	str	wzr, [sp, #2760]
	str	xzr, [sp, #2752]
	str	wzr, [sp, #2184]
	str	xzr, [sp, #2176]
	stp	xzr, xzr, [sp, #168]
	str	xzr, [sp, #184]
	ldr	w10, [sp, #2216]
	str	w10, [sp, #160]
	str	xzr, [sp, #152]
	ldr	x9, [sp, #2192]
	ldr	w10, [sp, #2200]
	str	w10, [sp, #144]
	str	x9, [sp, #136]
	ldr	x9, [sp, #2176]
	ldr	w10, [sp, #2184]
	str	w10, [sp, #128]
	str	x9, [sp, #120]
	ldr	q0, [sp, #2048]
	ldr	q1, [sp, #2064]
	ldr	q2, [sp, #2080]
	ldr	q3, [sp, #2096]
	stp	q2, q3, [sp, #32]
	stp	q0, q1, [sp]
	ldr	q2, [sp, #2112]
	ldr	q3, [sp, #2128]
	ldr	q0, [sp, #2144]
	ldr	x9, [sp, #2160]
	str	x9, [sp, #112]
	mov	w14, #768
	str	q0, [sp, #96]
	mov	w16, #512
Lnoise_loh54:
	adrp	x9, lnoise_CPI15_0@PAGE
Lnoise_loh55:
	ldr	q0, [x9, lnoise_CPI15_0@PAGEOFF]
	mov	w9, #1025
Lnoise_loh56:
	adrp	x10, lnoise_CPI15_4@PAGE
Lnoise_loh57:
	ldr	q1, [x10, lnoise_CPI15_4@PAGEOFF]
	mov	w15, #1
	mov	w1, #3
	mov	w10, #2
	mov	w17, #2
	mov	w2, #2
	b	Lnoise_BB15_18
Lnoise_BB15_15:
	mov	x10, #0
	mov	w9, #0
	mov	w11, #0
	mov	w14, #0
	mov	x15, #0
	str	wzr, [sp, #1856]
	str	xzr, [sp, #1848]
	str	xzr, [sp, #1832]
	add	x12, sp, #1860
	str	wzr, [sp, #1840]
	str	xzr, [sp, #1816]
	str	wzr, [sp, #1824]
	str	q0, [sp, #1696]
	str	q0, [sp, #1712]
	str	q0, [sp, #1728]
	str	q0, [sp, #1744]
	str	q0, [sp, #1760]
	str	q0, [sp, #1776]
	str	q0, [sp, #1792]
	str	xzr, [sp, #1808]
	stur	xzr, [x12, #1]
	str	wzr, [sp, #1868]
	mov	w13, #3
	strb	w13, [sp, #1860]
	ldr	x12, [x12]
	str	wzr, [sp, #1840]
	str	x12, [sp, #1832]
	stp	xzr, xzr, [sp, #168]
	str	xzr, [sp, #184]
	ldr	x12, [sp, #1848]
	ldr	w13, [sp, #1856]
	str	w13, [sp, #160]
	str	x12, [sp, #152]
	ldr	x12, [sp, #1832]
	ldr	w13, [sp, #1840]
	str	w13, [sp, #144]
	str	x12, [sp, #136]
	ldr	x12, [sp, #1816]
	ldr	w13, [sp, #1824]
	str	w13, [sp, #128]
	str	x12, [sp, #120]
	ldr	q0, [sp, #1696]
	ldr	q1, [sp, #1712]
	ldr	q2, [sp, #1728]
	ldr	q3, [sp, #1744]
	stp	q2, q3, [sp, #32]
	stp	q0, q1, [sp]
	ldr	q2, [sp, #1760]
	ldr	q3, [sp, #1776]
	ldr	q0, [sp, #1792]
	ldr	x12, [sp, #1808]
	str	x12, [sp, #112]
	str	q0, [sp, #96]
Lnoise_loh58:
	adrp	x12, lnoise_CPI15_6@PAGE
Lnoise_loh59:
	ldr	q0, [x12, lnoise_CPI15_6@PAGEOFF]
	mov	w16, #512
Lnoise_loh60:
	adrp	x12, lnoise_CPI15_7@PAGE
Lnoise_loh61:
	ldr	q1, [x12, lnoise_CPI15_7@PAGEOFF]
	mov	w13, #260
	mov	w1, #2
	mov	w2, #1
	mov	w17, #5
	mov	w12, #1
	b	Lnoise_BB15_18
Lnoise_BB15_16:
	mov	x10, #0
	mov	w9, #0
	mov	w11, #0
	mov	x12, #0
	mov	x15, #0
	str	xzr, [sp, #2752]
	str	wzr, [sp, #2760]
	str	xzr, [sp, #2896]
	str	wzr, [sp, #2904]
	str	q0, [sp, #2768]
	str	q0, [sp, #2784]
	str	q0, [sp, #2800]
	str	q0, [sp, #2816]
	str	q0, [sp, #2832]
	str	q0, [sp, #2848]
	str	q0, [sp, #2864]
	str	xzr, [sp, #2880]
	str	xzr, [sp, #2928]
	str	wzr, [sp, #2936]
	add	x13, sp, #2690
	stur	xzr, [x13, #255]
	str	wzr, [sp, #2952]
	mov	w13, #3
	strb	w13, [sp, #2944]
	ldr	x13, [sp, #2944]
	str	wzr, [sp, #2760]
	str	x13, [sp, #2752]
	str	wzr, [sp, #2920]
	str	x13, [sp, #2912]
	str	xzr, [sp, #184]
	str	q0, [x8]
	str	wzr, [sp, #160]
	str	xzr, [sp, #152]
	ldr	x13, [sp, #2912]
	ldr	w14, [sp, #2920]
	str	w14, [sp, #144]
	str	x13, [sp, #136]
	ldr	x13, [sp, #2896]
	ldr	w14, [sp, #2904]
	str	w14, [sp, #128]
	str	x13, [sp, #120]
	ldr	q1, [sp, #2768]
	ldr	q2, [sp, #2784]
	ldr	q3, [sp, #2800]
	ldr	q4, [sp, #2816]
	stp	q3, q4, [sp, #32]
	stp	q1, q2, [sp]
	ldr	q2, [sp, #2832]
	ldr	q3, [sp, #2848]
	ldr	q1, [sp, #2864]
	ldr	x13, [sp, #2880]
	str	x13, [sp, #112]
	str	q1, [sp, #96]
	mov	w14, #256
Lnoise_loh62:
	adrp	x13, lnoise_CPI15_16@PAGE
Lnoise_loh63:
	ldr	q1, [x13, lnoise_CPI15_16@PAGEOFF]
	mov	w16, #512
	mov	w13, #260
	mov	w2, #2
	mov	w17, #5
Lnoise_BB15_17:
	mov	w1, #2
Lnoise_BB15_18:
	stp	q2, q3, [sp, #64]
Lnoise_BB15_19:
	ldr	q2, [x8]
	stp	q1, q2, [x0]
	ldr	x8, [sp, #184]
	stp	x8, x12, [x0, #32]
	str	q0, [x0, #48]
	str	x15, [x0, #64]
	strh	w14, [x0, #72]
	strh	w11, [x0, #74]
	ldr	x8, [sp, #152]
	stur	x8, [x0, #76]
	ldr	w8, [sp, #160]
	str	w8, [x0, #84]
	str	x2, [x0, #88]
	strh	w16, [x0, #96]
	strh	w13, [x0, #98]
	ldr	x8, [sp, #136]
	ldr	w11, [sp, #144]
	str	w11, [x0, #108]
	stur	x8, [x0, #100]
	str	x17, [x0, #112]
	strh	w9, [x0, #120]
	strh	wzr, [x0, #122]
	ldr	x8, [sp, #120]
	stur	x8, [x0, #124]
	ldr	w8, [sp, #128]
	str	w8, [x0, #132]
	str	x10, [x0, #136]
	ldp	q0, q1, [sp, #64]
	stp	q0, q1, [x0, #208]
	ldr	q0, [sp, #96]
	str	q0, [x0, #240]
	ldr	x8, [sp, #112]
	ldp	q0, q1, [sp]
	stp	q0, q1, [x0, #144]
	ldp	q0, q1, [sp, #32]
	stp	q0, q1, [x0, #176]
	stp	x8, x1, [x0, #256]
	add	sp, sp, #2960
	.cfi_def_cfa_offset 16
	ldp	x28, x27, [sp], #16
	.cfi_def_cfa_offset 0
	.cfi_restore w27
	.cfi_restore w28
	ret
	.loh AdrpAdd	Lnoise_loh18, Lnoise_loh19
	.loh AdrpLdr	Lnoise_loh22, Lnoise_loh23
	.loh AdrpAdrp	Lnoise_loh20, Lnoise_loh22
	.loh AdrpLdr	Lnoise_loh20, Lnoise_loh21
	.loh AdrpLdr	Lnoise_loh24, Lnoise_loh25
	.loh AdrpLdr	Lnoise_loh28, Lnoise_loh29
	.loh AdrpLdr	Lnoise_loh26, Lnoise_loh27
	.loh AdrpLdr	Lnoise_loh30, Lnoise_loh31
	.loh AdrpLdr	Lnoise_loh32, Lnoise_loh33
	.loh AdrpLdr	Lnoise_loh36, Lnoise_loh37
	.loh AdrpAdrp	Lnoise_loh34, Lnoise_loh36
	.loh AdrpLdr	Lnoise_loh34, Lnoise_loh35
	.loh AdrpLdr	Lnoise_loh38, Lnoise_loh39
	.loh AdrpLdr	Lnoise_loh40, Lnoise_loh41
	.loh AdrpLdr	Lnoise_loh42, Lnoise_loh43
	.loh AdrpLdr	Lnoise_loh44, Lnoise_loh45
	.loh AdrpLdr	Lnoise_loh48, Lnoise_loh49
	.loh AdrpAdrp	Lnoise_loh46, Lnoise_loh48
	.loh AdrpLdr	Lnoise_loh46, Lnoise_loh47
	.loh AdrpLdr	Lnoise_loh52, Lnoise_loh53
	.loh AdrpAdrp	Lnoise_loh50, Lnoise_loh52
	.loh AdrpLdr	Lnoise_loh50, Lnoise_loh51
	.loh AdrpLdr	Lnoise_loh56, Lnoise_loh57
	.loh AdrpLdr	Lnoise_loh54, Lnoise_loh55
	.loh AdrpLdr	Lnoise_loh60, Lnoise_loh61
	.loh AdrpAdrp	Lnoise_loh58, Lnoise_loh60
	.loh AdrpLdr	Lnoise_loh58, Lnoise_loh59
	.loh AdrpLdr	Lnoise_loh62, Lnoise_loh63
	.cfi_endproc
	.section	__TEXT,__const
	.p2align	1, 0x0
Lnoise_JTI15_0:
	.short	(Lnoise_BB15_2-Lnoise_BB15_2)>>2
	.short	(Lnoise_BB15_10-Lnoise_BB15_2)>>2
	.short	(Lnoise_BB15_7-Lnoise_BB15_2)>>2
	.short	(Lnoise_BB15_8-Lnoise_BB15_2)>>2
	.short	(Lnoise_BB15_4-Lnoise_BB15_2)>>2
	.short	(Lnoise_BB15_11-Lnoise_BB15_2)>>2
	.short	(Lnoise_BB15_13-Lnoise_BB15_2)>>2
	.short	(Lnoise_BB15_9-Lnoise_BB15_2)>>2
	.short	(Lnoise_BB15_15-Lnoise_BB15_2)>>2
	.short	(Lnoise_BB15_6-Lnoise_BB15_2)>>2
	.short	(Lnoise_BB15_14-Lnoise_BB15_2)>>2
	.short	(Lnoise_BB15_3-Lnoise_BB15_2)>>2
	.short	(Lnoise_BB15_5-Lnoise_BB15_2)>>2
	.short	(Lnoise_BB15_12-Lnoise_BB15_2)>>2

	.section	__TEXT,__text,regular,pure_instructions
	.p2align	2
"_noise_names::text::read::read_line":
	.cfi_startproc
	sub	sp, sp, #32
	.cfi_def_cfa_offset 32
	.cfi_remember_state
	subs	x8, x3, #5
	b.lo	Lnoise_BB16_49
	ldrb	w13, [x2]
	ldrb	w12, [x2, #1]
	ldrb	w11, [x2, #2]
	ldrb	w10, [x2, #3]
	ldrb	w9, [x2, #4]
	cmp	w13, #32
	b.ne	Lnoise_BB16_7
	cmp	w12, #32
	b.ne	Lnoise_BB16_7
	cmp	w11, #45
	b.ne	Lnoise_BB16_7
	cmp	w10, #62
	b.ne	Lnoise_BB16_7
	cmp	w9, #32
	b.ne	Lnoise_BB16_7
	mov	w9, #0
	and	w10, w1, #0xff
	cmp	w9, w10
	b.eq	Lnoise_BB16_13
	b	Lnoise_BB16_49
Lnoise_BB16_7:
	cmp	w13, #32
	b.ne	Lnoise_BB16_49
	cmp	w12, #32
	b.ne	Lnoise_BB16_49
	cmp	w11, #60
	b.ne	Lnoise_BB16_49
	cmp	w10, #45
	b.ne	Lnoise_BB16_49
	cmp	w9, #32
	b.ne	Lnoise_BB16_49
	mov	w9, #1
	and	w10, w1, #0xff
	cmp	w9, w10
	b.ne	Lnoise_BB16_49
Lnoise_BB16_13:
	mov	x10, #0
	add	x9, x2, #5
	stp	xzr, xzr, [sp, #16]
Lnoise_BB16_14:
	cbz	x8, Lnoise_BB16_45
	mov	x11, #0
Lnoise_BB16_16:
	ldrb	w12, [x9, x11]
	sub	w12, w12, #97
	cmp	w12, #25
	b.hi	Lnoise_BB16_19
	add	x11, x11, #1
	cmp	x8, x11
	b.ne	Lnoise_BB16_16
	mov	x11, x8
Lnoise_BB16_19:
	cmp	x11, #1
	b.eq	Lnoise_BB16_27
	cbz	x11, Lnoise_BB16_45
	cmp	x11, #2
	b.hi	Lnoise_BB16_30
	ldrb	w12, [x9]
	cmp	w12, #115
	b.eq	Lnoise_BB16_40
	cmp	w12, #101
	b.ne	Lnoise_BB16_45
	ldrb	w12, [x9, #1]
	cmp	w12, #101
	b.eq	Lnoise_BB16_44
	cmp	w12, #115
	b.ne	Lnoise_BB16_45
	mov	w12, #3
	b	Lnoise_BB16_35
Lnoise_BB16_27:
	ldrb	w12, [x9]
	cmp	w12, #101
	b.eq	Lnoise_BB16_34
	cmp	w12, #115
	b.ne	Lnoise_BB16_45
	mov	w12, #1
	b	Lnoise_BB16_35
Lnoise_BB16_30:
	cmp	x11, #3
	b.ne	Lnoise_BB16_45
	ldrb	w12, [x9]
	cmp	w12, #112
	b.ne	Lnoise_BB16_45
	ldrb	w12, [x9, #1]
	cmp	w12, #115
	b.ne	Lnoise_BB16_45
	ldrb	w12, [x9, #2]
	cmp	w12, #107
	b.eq	Lnoise_BB16_37
	b	Lnoise_BB16_45
Lnoise_BB16_34:
	mov	w12, #0
Lnoise_BB16_35:
	cmp	x10, #8
	b.eq	Lnoise_BB16_37
	add	x13, sp, #16
	strb	w12, [x13, x10]
	add	x10, x10, #1
	str	x10, [sp, #24]
Lnoise_BB16_37:
	add	x12, x9, x11
	sub	x11, x8, x11
	subs	x8, x11, #2
	b.lo	Lnoise_BB16_46
	ldrb	w9, [x12]
	cmp	w9, #44
	b.ne	Lnoise_BB16_46
	ldrb	w13, [x12, #1]
	add	x9, x12, #2
	cmp	w13, #32
	b.eq	Lnoise_BB16_14
	b	Lnoise_BB16_46
Lnoise_BB16_40:
	ldrb	w12, [x9, #1]
	cmp	w12, #101
	b.eq	Lnoise_BB16_43
	cmp	w12, #115
	b.ne	Lnoise_BB16_45
	mov	w12, #5
	b	Lnoise_BB16_35
Lnoise_BB16_43:
	mov	w12, #4
	b	Lnoise_BB16_35
Lnoise_BB16_44:
	mov	w12, #2
	b	Lnoise_BB16_35
Lnoise_BB16_45:
	ldr	q0, [sp, #16]
	str	q0, [sp]
	cbnz	x8, Lnoise_BB16_47
	b	Lnoise_BB16_49
Lnoise_BB16_46:
	ldr	q0, [sp, #16]
	str	q0, [sp]
	mov	x9, x12
	mov	x8, x11
	cbz	x11, Lnoise_BB16_49
Lnoise_BB16_47:
	ldrb	w10, [x9], #1
	cmp	w10, #10
	b.ne	Lnoise_BB16_49
	sub	x8, x8, #1
	mov	w10, #1
	str	x10, [x0]
	ldr	q0, [sp]
	stur	q0, [x0, #8]
	stp	x9, x8, [x0, #24]
	add	sp, sp, #32
	.cfi_def_cfa_offset 0
	ret
Lnoise_BB16_49:
	.cfi_restore_state
	str	xzr, [x0, #32]
	movi.2d	v0, #0000000000000000
	stp	q0, q0, [x0]
	add	sp, sp, #32
	.cfi_def_cfa_offset 0
	ret
	.cfi_endproc

	.p2align	2
"_noise_names::pattern::Pattern::with_psks":
	.cfi_startproc
	stp	x28, x27, [sp, #-96]!
	.cfi_def_cfa_offset 96
	stp	x26, x25, [sp, #16]
	stp	x24, x23, [sp, #32]
	stp	x22, x21, [sp, #48]
	stp	x20, x19, [sp, #64]
	stp	x29, x30, [sp, #80]
	add	x29, sp, #80
	.cfi_def_cfa w29, 16
	.cfi_offset w30, -8
	.cfi_offset w29, -16
	.cfi_offset w19, -24
	.cfi_offset w20, -32
	.cfi_offset w21, -40
	.cfi_offset w22, -48
	.cfi_offset w23, -56
	.cfi_offset w24, -64
	.cfi_offset w25, -72
	.cfi_offset w26, -80
	.cfi_offset w27, -88
	.cfi_offset w28, -96
	.cfi_remember_state
	sub	sp, sp, #576
	mov	x21, x2
	mov	x19, x0
	mov	x9, #0
	stp	xzr, xzr, [sp, #64]
	stur	xzr, [sp, #79]
	stp	xzr, xzr, [sp, #48]
	stp	xzr, xzr, [sp, #32]
	stp	xzr, xzr, [sp, #16]
	ldr	x22, [x2, #16]
	sub	x8, x29, #120
	orr	x8, x8, #0x1
	str	x8, [sp, #8]
	ldr	x8, [x1, #264]
Lnoise_BB17_1:
	cmp	x22, x9
	b.eq	Lnoise_BB17_4
	ldrb	w10, [x21, x9]
	add	x9, x9, #1
	cmp	x8, x10
	b.hs	Lnoise_BB17_1
	mov	w8, #1
	strb	w8, [x19]
	strb	w10, [x19, #1]
	movi.2d	v0, #0000000000000000
	stur	q0, [x19, #24]
	stur	q0, [x19, #40]
	stur	q0, [x19, #56]
	stur	q0, [x19, #72]
	stur	q0, [x19, #88]
	stur	q0, [x19, #104]
	stur	q0, [x19, #120]
	stur	q0, [x19, #136]
	stur	q0, [x19, #152]
	stur	q0, [x19, #168]
	stur	q0, [x19, #184]
	stur	q0, [x19, #200]
	stur	q0, [x19, #216]
	stur	q0, [x19, #232]
	stur	q0, [x19, #248]
	str	q0, [x19, #8]!
	str	q0, [x19, #256]
	b	Lnoise_BB17_23
Lnoise_BB17_4:
	str	x1, [sp]
	movi.2d	v0, #0000000000000000
	stp	q0, q0, [sp, #336]
	stp	q0, q0, [sp, #368]
	stp	q0, q0, [sp, #400]
	stp	q0, q0, [sp, #432]
	stp	q0, q0, [sp, #464]
	stp	q0, q0, [sp, #496]
	str	xzr, [sp, #528]
	cbz	x8, Lnoise_BB17_14
	neg	x26, x8
	ldr	x8, [sp]
	add	x27, x8, #88
	add	x28, sp, #336
	mov	w20, #1
	b	Lnoise_BB17_7
Lnoise_BB17_6:
	ldur	q0, [x29, #-120]
	str	q0, [sp, #304]
	ldur	x8, [x29, #-104]
	str	x8, [sp, #320]
	str	q0, [x28]
	str	x8, [x28, #16]
	str	x20, [sp, #528]
	add	x20, x20, #1
	add	x28, x28, #24
	add	x8, x26, x20
	add	x27, x27, #24
	cmp	x8, #1
	b.eq	Lnoise_BB17_14
Lnoise_BB17_7:
	mov	x24, x27
	ldr	x23, [x24], #-16
	and	w8, w20, #0xff
	sturb	w20, [x29, #-92]
	stp	xzr, xzr, [x29, #-120]
	cmp	w8, #1
	b.ne	Lnoise_BB17_10
Lnoise_loh64:
	adrp	x2, lnoise__static.2@PAGE
Lnoise_loh65:
	add	x2, x2, lnoise__static.2@PAGEOFF
	mov	x0, x21
	mov	x1, x22
	bl	"_core::slice::reads::slice+T::contains::<i8,31'core::cmp::numbers::U8PartialEq{}>"
	cbz	w0, Lnoise_BB17_10
	mov	w8, #6
	sturb	w8, [x29, #-120]
	mov	w25, #1
	ldr	x0, [sp, #8]
	b	Lnoise_BB17_11
Lnoise_BB17_10:
	mov	x25, #0
	sub	x0, x29, #120
Lnoise_BB17_11:
	mov	w8, #10
	sub	x8, x8, x25
	cmp	x8, x23
	b.lo	Lnoise_BB17_24
	mov	x1, x24
	mov	x2, x23
	bl	_memcpy
	add	x23, x25, x23
	stur	x23, [x29, #-104]
	sub	x2, x29, #92
	mov	x0, x21
	mov	x1, x22
	bl	"_core::slice::reads::slice+T::contains::<i8,31'core::cmp::numbers::U8PartialEq{}>"
	tbz	w0, #0, Lnoise_BB17_6
	sub	x8, x29, #120
	mov	w9, #6
	strb	w9, [x8, x23]
	add	x8, x23, #1
	stur	x8, [x29, #-104]
	b	Lnoise_BB17_6
Lnoise_BB17_14:
	ldp	q0, q1, [sp, #496]
	stp	q0, q1, [sp, #256]
	ldr	x8, [sp, #528]
	str	x8, [sp, #288]
	ldp	q0, q1, [sp, #432]
	stp	q0, q1, [sp, #192]
	ldp	q1, q0, [sp, #464]
	stp	q1, q0, [sp, #224]
	ldp	q0, q1, [sp, #368]
	stp	q0, q1, [sp, #128]
	ldp	q1, q0, [sp, #400]
	stp	q1, q0, [sp, #160]
	ldp	q1, q0, [sp, #336]
	stp	q1, q0, [sp, #96]
	stp	xzr, xzr, [sp, #336]
	str	xzr, [sp, #352]
	cbz	x22, Lnoise_BB17_18
	mov	x8, #0
	ldr	x24, [sp]
Lnoise_BB17_16:
	ldrb	w9, [x21, x8]
	add	x10, sp, #336
	strb	w9, [x10, x8]
	add	x8, x8, #1
	str	x8, [sp, #352]
	cmp	x22, x8
	b.ne	Lnoise_BB17_16
	ldrb	w20, [sp, #336]
	b	Lnoise_BB17_19
Lnoise_BB17_18:
	mov	w20, #0
	ldr	x24, [sp]
Lnoise_BB17_19:
	add	x8, sp, #82
	ldur	q0, [x8, #255]
	str	q0, [sp, #64]
	ldr	x8, [sp, #352]
	stur	x8, [sp, #79]
	ldr	x22, [x24, #48]
	ldr	x21, [x24, #64]
	ldr	x23, [x24, #8]
	str	xzr, [sp, #336]
	cmp	x23, #8
	b.hi	Lnoise_BB17_24
	add	x0, sp, #336
	mov	x1, x24
	mov	x2, x23
	bl	_memcpy
	str	x23, [sp, #344]
	stur	xzr, [x29, #-120]
	cmp	x22, #2
	b.hi	Lnoise_BB17_24
	sub	x0, x29, #120
	add	x1, x24, #40
	mov	x2, x22
	bl	_memcpy
	stur	x22, [x29, #-112]
	str	xzr, [sp, #304]
	cmp	x21, #2
	b.hi	Lnoise_BB17_24
	add	x0, sp, #304
	add	x1, x24, #56
	mov	x2, x21
	bl	_memcpy
	str	x21, [sp, #312]
	ldr	q0, [sp, #336]
	ldur	q1, [x29, #-120]
	stp	q1, q0, [sp, #32]
	ldr	q1, [sp, #304]
	str	q1, [sp, #16]
	strh	wzr, [x19]
	stur	q0, [x19, #8]
	strb	w20, [x19, #24]
	ldr	q0, [sp, #64]
	stur	q0, [x19, #25]
	ldur	x8, [sp, #79]
	str	x8, [x19, #40]
	ldp	q1, q0, [sp, #16]
	stp	q0, q1, [x19, #48]
	ldp	q0, q1, [sp, #96]
	ldp	q2, q3, [sp, #128]
	stp	q2, q3, [x19, #112]
	stp	q0, q1, [x19, #80]
	ldp	q0, q1, [sp, #160]
	ldp	q2, q3, [sp, #192]
	stp	q2, q3, [x19, #176]
	stp	q0, q1, [x19, #144]
	ldp	q0, q1, [sp, #224]
	ldp	q2, q3, [sp, #256]
	ldr	x8, [sp, #288]
	str	x8, [x19, #272]
	stp	q2, q3, [x19, #240]
	stp	q0, q1, [x19, #208]
Lnoise_BB17_23:
	add	sp, sp, #576
	.cfi_def_cfa wsp, 96
	ldp	x29, x30, [sp, #80]
	ldp	x20, x19, [sp, #64]
	ldp	x22, x21, [sp, #48]
	ldp	x24, x23, [sp, #32]
	ldp	x26, x25, [sp, #16]
	ldp	x28, x27, [sp], #96
	.cfi_def_cfa_offset 0
	.cfi_restore w30
	.cfi_restore w29
	.cfi_restore w19
	.cfi_restore w20
	.cfi_restore w21
	.cfi_restore w22
	.cfi_restore w23
	.cfi_restore w24
	.cfi_restore w25
	.cfi_restore w26
	.cfi_restore w27
	.cfi_restore w28
	ret
Lnoise_BB17_24:
	.cfi_restore_state
	brk	#0x1
	.loh AdrpAdd	Lnoise_loh64, Lnoise_loh65
	.cfi_endproc

	.section	__TEXT,__literal16,16byte_literals
	.p2align	4, 0x0
lnoise_CPI18_0:
	.byte	1
	.byte	2
	.byte	4
	.byte	8
	.byte	16
	.byte	32
	.byte	64
	.byte	128
	.byte	1
	.byte	2
	.byte	4
	.byte	8
	.byte	16
	.byte	32
	.byte	64
	.byte	128
	.section	__TEXT,__text,regular,pure_instructions
	.p2align	2
"_core::slice::reads::slice+T::contains::<i8,31'core::cmp::numbers::U8PartialEq{}>":
	.cfi_startproc
	cmp	x1, #3
	b.hi	Lnoise_BB18_3
	cbz	x1, Lnoise_BB18_7
	ldrb	w8, [x2]
	ldrb	w9, [x0]
	lsr	x10, x1, #1
	ldrb	w10, [x0, x10]
	cmp	w9, w8
	add	x9, x0, x1
	ldurb	w9, [x9, #-1]
	ccmp	w10, w8, #4, ne
	ccmp	w9, w8, #4, ne
	cset	w0, eq
	ret
Lnoise_BB18_3:
	subs	x8, x1, #8
	b.hi	Lnoise_BB18_5
	add	x8, x0, x1
	sub	x8, x8, #4
	ldr	s0, [x0]
	ld1.s	{ v0 }[1], [x8]
	ld1r.8b	{ v1 }, [x2]
	cmeq.8b	v0, v0, v1
	umaxv.8b	b0, v0
	fmov	w8, s0
	and	w0, w8, #0x1
	ret
Lnoise_BB18_5:
	cmp	x1, #32
	b.hi	Lnoise_BB18_8
	mov	w9, #8
	cmp	x8, #8
	csel	x9, x8, x9, lo
	mov	w10, #16
	cmp	x8, #16
	csel	x10, x8, x10, lo
	ldr	d0, [x0]
	ldr	d1, [x0, x9]
	ldr	d2, [x0, x10]
	ldr	d3, [x0, x8]
	mov.d	v0[1], v1[0]
	mov.d	v2[1], v3[0]
	ld1r.16b	{ v1 }, [x2]
	cmeq.16b	v2, v2, v1
	cmeq.16b	v0, v0, v1
	orr.16b	v0, v0, v2
	umaxv.16b	b0, v0
	fmov	w8, s0
	and	w0, w8, #0x1
	ret
Lnoise_BB18_7:
	mov	w0, #0
	ret
Lnoise_BB18_8:
	ldrb	w9, [x2]
	cmp	x1, #64
	b.hi	Lnoise_BB18_10
	add	x8, x0, x1
	ldp	q1, q0, [x0]
	ldp	q3, q2, [x8, #-32]
	dup.16b	v4, w9
	cmeq.16b	v1, v1, v4
	cmeq.16b	v3, v3, v4
	cmeq.16b	v0, v0, v4
	cmeq.16b	v2, v2, v4
	orr.16b	v0, v0, v2
	orr.16b	v1, v1, v3
	orr.16b	v0, v1, v0
	umaxv.16b	b0, v0
	fmov	w8, s0
	and	w0, w8, #0x1
	ret
Lnoise_BB18_10:
	mov	x8, #0
	dup.16b	v1, w9
	mov	x9, x1
Lnoise_BB18_11:
	add	x10, x0, x8
	ldp	q3, q2, [x10]
	ldp	q0, q4, [x10, #32]
	cmeq.16b	v5, v0, v1
Lnoise_loh66:
	adrp	x10, lnoise_CPI18_0@PAGE
Lnoise_loh67:
	ldr	q0, [x10, lnoise_CPI18_0@PAGEOFF]
	and.16b	v5, v5, v0
	ext.16b	v6, v5, v5, #8
	zip1.16b	v5, v5, v6
	addv.8h	h5, v5
	fmov	w10, s5
	cmeq.16b	v3, v3, v1
	and.16b	v3, v3, v0
	ext.16b	v5, v3, v3, #8
	zip1.16b	v3, v3, v5
	addv.8h	h3, v3
	fmov	w11, s3
	orr	w10, w11, w10
	cmeq.16b	v2, v2, v1
	and.16b	v2, v2, v0
	ext.16b	v3, v2, v2, #8
	zip1.16b	v2, v2, v3
	addv.8h	h2, v2
	fmov	w11, s2
	cmeq.16b	v2, v4, v1
	and.16b	v2, v2, v0
	ext.16b	v3, v2, v2, #8
	zip1.16b	v2, v2, v3
	addv.8h	h2, v2
	fmov	w12, s2
	orr	w11, w11, w12
	orr	w10, w10, w11
	tst	w10, #0xffff
	b.ne	Lnoise_BB18_14
	add	x8, x8, #64
	sub	x9, x9, #64
	cmp	x9, #63
	b.hi	Lnoise_BB18_11
	and	x8, x1, #0xffffffffffffffc0
Lnoise_BB18_14:
	sub	x9, x1, x8
	cmp	x9, #32
	b.lo	Lnoise_BB18_20
	ld1r.16b	{ v1 }, [x2]
	add	x8, x0, x8
Lnoise_BB18_16:
	ldp	q2, q3, [x8], #32
	cmeq.16b	v3, v3, v1
	and.16b	v3, v3, v0
	ext.16b	v4, v3, v3, #8
	zip1.16b	v3, v3, v4
	addv.8h	h3, v3
	fmov	w10, s3
	cmeq.16b	v2, v2, v1
	and.16b	v2, v2, v0
	ext.16b	v3, v2, v2, #8
	zip1.16b	v2, v2, v3
	addv.8h	h2, v2
	fmov	w11, s2
	orr	w10, w11, w10
	tst	w10, #0xffff
	b.ne	Lnoise_BB18_18
	sub	x9, x9, #32
	cmp	x9, #32
	b.hs	Lnoise_BB18_16
	b	Lnoise_BB18_20
Lnoise_BB18_18:
	cmp	x9, #31
	b.ls	Lnoise_BB18_20
	mov	w0, #1
	ret
Lnoise_BB18_20:
	add	x8, x0, x1
	ldp	q0, q1, [x8, #-32]
	ld1r.16b	{ v2 }, [x2]
	cmeq.16b	v1, v1, v2
	cmeq.16b	v0, v0, v2
	orr.16b	v0, v0, v1
	umaxv.16b	b0, v0
	fmov	w8, s0
	and	w0, w8, #0x1
	ret
	.loh AdrpLdr	Lnoise_loh66, Lnoise_loh67
	.cfi_endproc

	.section	__TEXT,__literal8,8byte_literals
	.p2align	3, 0x0
lnoise_CPI19_0:
	.byte	32
	.byte	32
	.byte	46
	.byte	46
	.space	1
	.space	1
	.space	1
	.space	1
	.section	__TEXT,__text,regular,pure_instructions
	.p2align	2
"_noise_names::text::write::text":
	.cfi_startproc
	stp	x24, x23, [sp, #-64]!
	.cfi_def_cfa_offset 64
	stp	x22, x21, [sp, #16]
	stp	x20, x19, [sp, #32]
	stp	x29, x30, [sp, #48]
	add	x29, sp, #48
	.cfi_def_cfa w29, 16
	.cfi_offset w30, -8
	.cfi_offset w29, -16
	.cfi_offset w19, -24
	.cfi_offset w20, -32
	.cfi_offset w21, -40
	.cfi_offset w22, -48
	.cfi_offset w23, -56
	.cfi_offset w24, -64
	.cfi_remember_state
	sub	sp, sp, #1360
	mov	x20, x1
	mov	x19, x0
	add	x23, sp, #1088
	ldr	x22, [x1, #264]
	add	x0, sp, #536
	mov	w1, #552
	bl	_bzero
	ldr	x21, [x20, #8]
	movi.2d	v0, #0000000000000000
	stp	q0, q0, [x23, #224]
	stp	q0, q0, [x23, #192]
	stp	q0, q0, [x23, #160]
	stp	q0, q0, [x23, #128]
	stp	q0, q0, [x23, #96]
	stp	q0, q0, [x23, #64]
	stp	q0, q0, [x23, #32]
	stp	q0, q0, [x23]
	cmp	x21, #255
	b.hi	Lnoise_BB19_28
	add	x23, sp, #1088
	add	x0, sp, #1088
	mov	x1, x20
	mov	x2, x21
	bl	_memcpy
	ldr	x9, [x20, #32]
	cbz	x9, Lnoise_BB19_14
	cmp	x21, #252
	b.hi	Lnoise_BB19_28
	add	x10, sp, #1088
Lnoise_loh68:
	adrp	x8, lnoise__static.51@PAGE
Lnoise_loh69:
	add	x8, x8, lnoise__static.51@PAGEOFF
	add	x10, x10, x21
	sub	x11, x10, x8
	cmp	x11, #3
	b.hs	Lnoise_BB19_11
	mov	w11, #29552
	strh	w11, [x10]
	mov	w11, #107
	strb	w11, [x10, #2]
	ldrb	w11, [x20, #16]
	add	w11, w11, #48
	strb	w11, [x10, #3]
	subs	x9, x9, #1
	b.eq	Lnoise_BB19_12
Lnoise_BB19_5:
	sub	x10, x21, #248
	add	x11, x20, #17
	b	Lnoise_BB19_8
Lnoise_BB19_6:
	mov	w13, #107
	strb	w13, [x12, #2]
	mov	w13, #29552
	strh	w13, [x12]
Lnoise_BB19_7:
	ldrb	w12, [x11], #1
	add	w12, w12, #48
	add	x13, sp, #1088
	add	x13, x13, x10
	strb	w12, [x13, #256]
	add	x10, x10, #5
	subs	x9, x9, #1
	b.eq	Lnoise_BB19_13
Lnoise_BB19_8:
	add	x12, sp, #1088
	add	x12, x12, x10
	mov	w13, #43
	strb	w13, [x12, #252]
	cmp	x10, #3
	b.lo	Lnoise_BB19_28
	add	x12, x12, #253
	sub	x13, x12, x8
	cmp	x13, #2
	b.hi	Lnoise_BB19_6
	mov	w13, #112
	strb	w13, [x12]
	add	x12, sp, #1088
	add	x12, x12, x10
	mov	w13, #27507
	strh	w13, [x12, #254]
	b	Lnoise_BB19_7
Lnoise_BB19_11:
	mov	w11, #107
	strb	w11, [x10, #2]
	mov	w11, #29552
	strh	w11, [x10]
	ldrb	w11, [x20, #16]
	add	w11, w11, #48
	strb	w11, [x10, #3]
	subs	x9, x9, #1
	b.ne	Lnoise_BB19_5
Lnoise_BB19_12:
	add	x21, x21, #4
	b	Lnoise_BB19_14
Lnoise_BB19_13:
	add	x21, x10, #252
Lnoise_BB19_14:
	mov	w8, #2618
	strh	w8, [x23, x21]
	add	x8, x21, #2
	str	x8, [sp, #1344]
	add	x0, sp, #272
	add	x1, sp, #1088
	mov	w2, #264
	bl	_memcpy
	add	x0, sp, #8
	add	x1, sp, #272
	mov	w2, #264
	bl	_memcpy
	ldr	x21, [sp, #264]
	ldr	x23, [sp, #1080]
	mov	w8, #541
	sub	x8, x8, x23
	cmp	x8, x21
	b.lo	Lnoise_BB19_28
	add	x8, sp, #536
	add	x0, x8, x23
	add	x1, sp, #8
	mov	x2, x21
	bl	_memcpy
	add	x8, x23, x21
	str	x8, [sp, #1080]
	ldr	x3, [x20, #48]
	ldr	x21, [x20, #64]
	cbz	x3, Lnoise_BB19_17
	add	x0, sp, #536
	add	x2, x20, #40
	mov	w1, #0
	bl	"_noise_names::text::write::push_token_line"
	cbnz	x21, Lnoise_BB19_18
	b	Lnoise_BB19_19
Lnoise_BB19_17:
	cbz	x21, Lnoise_BB19_24
Lnoise_BB19_18:
	add	x0, sp, #536
	add	x2, x20, #56
	mov	w1, #1
	mov	x3, x21
	bl	"_noise_names::text::write::push_token_line"
Lnoise_BB19_19:
	ldr	x8, [sp, #1080]
	sub	x9, x8, #536
	cmp	x9, #6
	b.lo	Lnoise_BB19_28
	add	x9, sp, #536
Lnoise_loh70:
	adrp	x10, lnoise__static.82@PAGE
Lnoise_loh71:
	add	x10, x10, lnoise__static.82@PAGEOFF
	add	x9, x9, x8
	sub	x10, x9, x10
	cmp	x10, #5
	b.hi	Lnoise_BB19_22
Lnoise_loh72:
	adrp	x10, lnoise_CPI19_0@PAGE
Lnoise_loh73:
	ldr	d0, [x10, lnoise_CPI19_0@PAGEOFF]
	str	s0, [x9]
	mov	w10, #2606
	strh	w10, [x9, #4]
	b	Lnoise_BB19_23
Lnoise_BB19_22:
	mov	w10, #2606
	strh	w10, [x9, #4]
	mov	w10, #8224
	movk	w10, #11822, lsl #16
	str	w10, [x9]
Lnoise_BB19_23:
	add	x8, x8, #6
	str	x8, [sp, #1080]
Lnoise_BB19_24:
	cbz	x22, Lnoise_BB19_27
	mov	w21, #0
	add	x20, x20, #72
Lnoise_BB19_26:
	ldr	x3, [x20, #16]
	add	x0, sp, #536
	mov	x1, x21
	mov	x2, x20
	bl	"_noise_names::text::write::push_token_line"
	eor	w21, w21, #0x1
	add	x20, x20, #24
	subs	x22, x22, #1
	b.ne	Lnoise_BB19_26
Lnoise_BB19_27:
	add	x1, sp, #536
	mov	x0, x19
	mov	w2, #552
	bl	_memcpy
	add	sp, sp, #1360
	.cfi_def_cfa wsp, 64
	ldp	x29, x30, [sp, #48]
	ldp	x20, x19, [sp, #32]
	ldp	x22, x21, [sp, #16]
	ldp	x24, x23, [sp], #64
	.cfi_def_cfa_offset 0
	.cfi_restore w30
	.cfi_restore w29
	.cfi_restore w19
	.cfi_restore w20
	.cfi_restore w21
	.cfi_restore w22
	.cfi_restore w23
	.cfi_restore w24
	ret
Lnoise_BB19_28:
	.cfi_restore_state
	brk	#0x1
	.loh AdrpAdd	Lnoise_loh68, Lnoise_loh69
	.loh AdrpAdd	Lnoise_loh70, Lnoise_loh71
	.loh AdrpLdr	Lnoise_loh72, Lnoise_loh73
	.cfi_endproc

	.p2align	2
"_noise_names::text::write::push_token_line":
	.cfi_startproc
	stp	x28, x27, [sp, #-96]!
	.cfi_def_cfa_offset 96
	stp	x26, x25, [sp, #16]
	stp	x24, x23, [sp, #32]
	stp	x22, x21, [sp, #48]
	stp	x20, x19, [sp, #64]
	stp	x29, x30, [sp, #80]
	add	x29, sp, #80
	.cfi_def_cfa w29, 16
	.cfi_offset w30, -8
	.cfi_offset w29, -16
	.cfi_offset w19, -24
	.cfi_offset w20, -32
	.cfi_offset w21, -40
	.cfi_offset w22, -48
	.cfi_offset w23, -56
	.cfi_offset w24, -64
	.cfi_offset w25, -72
	.cfi_offset w26, -80
	.cfi_offset w27, -88
	.cfi_offset w28, -96
	.cfi_remember_state
	ldr	x8, [x0, #544]
	and	x10, x8, #0xfffffffffffffffe
	cmp	x10, #540
	b.eq	Lnoise_BB20_23
	mov	x19, x0
	mov	w9, #8224
	strh	w9, [x0, x8]
Lnoise_loh74:
	adrp	x9, lnoise__static.88@PAGE
Lnoise_loh75:
	add	x9, x9, lnoise__static.88@PAGEOFF
Lnoise_loh76:
	adrp	x11, lnoise__static.89@PAGE
Lnoise_loh77:
	add	x11, x11, lnoise__static.89@PAGEOFF
	tst	w1, #0x1
	csel	x9, x11, x9, ne
	cmp	x10, #538
	b.eq	Lnoise_BB20_23
	mov	x20, x2
	add	x10, x19, x8
	add	x11, x10, #2
	sub	x12, x11, x9
	cmp	x12, #1
	b.hi	Lnoise_BB20_4
	ldrb	w9, [x9]
	strb	w9, [x10, #2]
	tst	w1, #0x1
	mov	w9, #62
	mov	w11, #45
	csel	w9, w11, w9, ne
	strb	w9, [x10, #3]
	b	Lnoise_BB20_5
Lnoise_BB20_4:
	ldrh	w9, [x9]
	strh	w9, [x11]
Lnoise_BB20_5:
	cmp	x8, #537
	b.eq	Lnoise_BB20_23
	add	x9, x19, x8
	mov	w10, #32
	strb	w10, [x9, #4]
	add	x25, x8, #5
	str	x25, [x19, #544]
	cbz	x3, Lnoise_BB20_21
	ldrb	w9, [x20], #1
Lnoise_loh78:
	adrp	x22, "l_switch.table.noise_names::text::write::push_token_line.199"@PAGE
Lnoise_loh79:
	add	x22, x22, "l_switch.table.noise_names::text::write::push_token_line.199"@PAGEOFF
	ldr	x21, [x22, x9, lsl #3]
	mov	w10, #536
	sub	x8, x10, x8
	cmp	x8, x21
	b.lo	Lnoise_BB20_23
Lnoise_loh80:
	adrp	x23, "l_switch.table.noise_names::text::write::push_token_line.200"@PAGE
Lnoise_loh81:
	add	x23, x23, "l_switch.table.noise_names::text::write::push_token_line.200"@PAGEOFF
	sub	x24, x3, #1
	ldr	x1, [x23, x9, lsl #3]
	add	x8, x19, x25
	sub	x9, x8, x1
	cmp	x9, x21
	b.hs	Lnoise_BB20_12
	mov	x9, x21
Lnoise_BB20_10:
	ldrb	w10, [x1], #1
	strb	w10, [x8], #1
	subs	x9, x9, #1
	b.ne	Lnoise_BB20_10
	add	x25, x21, x25
	cbnz	x24, Lnoise_BB20_13
	b	Lnoise_BB20_21
Lnoise_BB20_12:
	add	x0, x19, x25
	mov	x2, x21
	bl	_memcpy
	add	x25, x21, x25
	cbz	x24, Lnoise_BB20_21
Lnoise_BB20_13:
	mov	x26, #0
	b	Lnoise_BB20_16
Lnoise_BB20_14:
	add	x0, x19, x27
	mov	x2, x21
	bl	_memcpy
Lnoise_BB20_15:
	add	x25, x21, x27
	str	x25, [x19, #544]
	add	x26, x26, #1
	cmp	x26, x24
	b.eq	Lnoise_BB20_21
Lnoise_BB20_16:
	and	x8, x25, #0xfffffffffffffffe
	cmp	x8, #540
	b.eq	Lnoise_BB20_23
Lnoise_loh82:
	adrp	x9, lnoise__static.85@PAGE
Lnoise_loh83:
	add	x9, x9, lnoise__static.85@PAGEOFF
	add	x8, x19, x25
	sub	x9, x8, x9
	cmp	x9, #1
	mov	w9, #8236
	strh	w9, [x8]
	add	x27, x25, #2
	str	x27, [x19, #544]
	ldrb	w8, [x20, x26]
	ldr	x21, [x22, x8, lsl #3]
	mov	w9, #539
	sub	x9, x9, x25
	cmp	x9, x21
	b.lo	Lnoise_BB20_23
	ldr	x1, [x23, x8, lsl #3]
	add	x8, x19, x27
	sub	x9, x8, x1
	cmp	x9, x21
	b.hs	Lnoise_BB20_14
	mov	x9, x21
Lnoise_BB20_20:
	ldrb	w10, [x1], #1
	strb	w10, [x8], #1
	subs	x9, x9, #1
	b.ne	Lnoise_BB20_20
	b	Lnoise_BB20_15
Lnoise_BB20_21:
	cmp	x25, #541
	b.eq	Lnoise_BB20_23
	mov	w8, #10
	strb	w8, [x19, x25]
	add	x8, x25, #1
	str	x8, [x19, #544]
	.cfi_def_cfa wsp, 96
	ldp	x29, x30, [sp, #80]
	ldp	x20, x19, [sp, #64]
	ldp	x22, x21, [sp, #48]
	ldp	x24, x23, [sp, #32]
	ldp	x26, x25, [sp, #16]
	ldp	x28, x27, [sp], #96
	.cfi_def_cfa_offset 0
	.cfi_restore w30
	.cfi_restore w29
	.cfi_restore w19
	.cfi_restore w20
	.cfi_restore w21
	.cfi_restore w22
	.cfi_restore w23
	.cfi_restore w24
	.cfi_restore w25
	.cfi_restore w26
	.cfi_restore w27
	.cfi_restore w28
	ret
Lnoise_BB20_23:
	.cfi_restore_state
	brk	#0x1
	.loh AdrpAdd	Lnoise_loh76, Lnoise_loh77
	.loh AdrpAdd	Lnoise_loh74, Lnoise_loh75
	.loh AdrpAdd	Lnoise_loh78, Lnoise_loh79
	.loh AdrpAdd	Lnoise_loh80, Lnoise_loh81
	.loh AdrpAdd	Lnoise_loh82, Lnoise_loh83
	.cfi_endproc

	.section	__TEXT,__literal16,16byte_literals
	.p2align	4, 0x0
lnoise_CPI21_0:
	.byte	1
	.byte	2
	.byte	4
	.byte	8
	.byte	16
	.byte	32
	.byte	64
	.byte	128
	.byte	1
	.byte	2
	.byte	4
	.byte	8
	.byte	16
	.byte	32
	.byte	64
	.byte	128
	.section	__TEXT,__text,regular,pure_instructions
	.p2align	2
"_core::cmp::slices::groups_equal::<i8,31'core::cmp::numbers::U8PartialEq{}>":
	.cfi_startproc
	subs	x9, x1, #8
	b.hi	Lnoise_BB21_2
	sub	x8, x1, #4
	add	x9, x0, x8
	add	x8, x2, x8
	ldr	s0, [x0]
	ld1.s	{ v0 }[1], [x9]
	fmov	x9, d0
	ldr	s0, [x2]
	ld1.s	{ v0 }[1], [x8]
	fmov	x8, d0
	cmp	x9, x8
	cset	w8, ne
	eor	w0, w8, #0x1
	ret
Lnoise_BB21_2:
	subs	x8, x1, #32
	b.hi	Lnoise_BB21_4
	mov	w8, #8
	cmp	x9, #8
	csel	x8, x9, x8, lo
	mov	w10, #16
	cmp	x9, #16
	csel	x10, x9, x10, lo
	ldr	d0, [x0]
	ldr	d1, [x0, x8]
	ldr	d2, [x2, x8]
	ldr	d3, [x0, x10]
	ldr	d4, [x2, x10]
	ldr	d5, [x0, x9]
	ldr	d6, [x2, x9]
	mov.d	v0[1], v1[0]
	mov.d	v3[1], v5[0]
	ldr	d1, [x2]
	mov.d	v1[1], v2[0]
	mov.d	v4[1], v6[0]
	cmeq.16b	v2, v3, v4
	cmeq.16b	v0, v0, v1
	mvn.16b	v0, v0
	orn.16b	v0, v0, v2
	umaxv.16b	b0, v0
	fmov	w8, s0
	and	w8, w8, #0x1
	eor	w0, w8, #0x1
	ret
Lnoise_BB21_4:
	cmp	x1, #65
	b.hs	Lnoise_BB21_6
	add	x9, x0, x8
	add	x8, x2, x8
	ldp	q1, q0, [x0]
	ldp	q3, q2, [x2]
	ldp	q5, q4, [x9]
	ldp	q7, q6, [x8]
	cmeq.16b	v5, v5, v7
	cmeq.16b	v4, v4, v6
	cmeq.16b	v1, v1, v3
	mvn.16b	v1, v1
	cmeq.16b	v0, v0, v2
	mvn.16b	v0, v0
	orn.16b	v0, v0, v4
	orn.16b	v1, v1, v5
	orr.16b	v0, v1, v0
	umaxv.16b	b0, v0
	fmov	w8, s0
	and	w8, w8, #0x1
	eor	w0, w8, #0x1
	ret
Lnoise_BB21_6:
	mov	x9, #0
	add	x10, x2, #48
	mov	x11, x1
Lnoise_BB21_7:
	add	x12, x0, x9
	add	x13, x10, x9
	ldp	q0, q1, [x12]
	ldp	q2, q3, [x13, #-48]
	cmeq.16b	v0, v0, v2
	mvn.16b	v0, v0
	cmeq.16b	v1, v1, v3
	mvn.16b	v1, v1
	ldp	q2, q3, [x12, #32]
	ldp	q4, q5, [x13, #-16]
	cmeq.16b	v2, v2, v4
	cmeq.16b	v3, v3, v5
	orn.16b	v0, v0, v2
	orn.16b	v1, v1, v3
	orr.16b	v0, v1, v0
	umaxv.16b	b0, v0
	fmov	w12, s0
	tbnz	w12, #0, Lnoise_BB21_10
	add	x9, x9, #64
	sub	x11, x11, #64
	cmp	x11, #63
	b.hi	Lnoise_BB21_7
	and	x9, x1, #0xffffffffffffffc0
Lnoise_BB21_10:
	sub	x10, x1, x9
	cmp	x10, #32
	b.lo	Lnoise_BB21_16
	add	x11, x2, x9
	add	x9, x0, x9
Lnoise_BB21_12:
	ldp	q0, q1, [x9], #32
	ldp	q2, q3, [x11], #32
	cmeq.16b	v1, v1, v3
Lnoise_loh84:
	adrp	x12, lnoise_CPI21_0@PAGE
Lnoise_loh85:
	ldr	q3, [x12, lnoise_CPI21_0@PAGEOFF]
	bic.16b	v1, v3, v1
	ext.16b	v4, v1, v1, #8
	zip1.16b	v1, v1, v4
	addv.8h	h1, v1
	fmov	w12, s1
	cmeq.16b	v0, v0, v2
	bic.16b	v0, v3, v0
	ext.16b	v1, v0, v0, #8
	zip1.16b	v0, v0, v1
	addv.8h	h0, v0
	fmov	w13, s0
	orr	w12, w13, w12
	tst	w12, #0xffff
	b.ne	Lnoise_BB21_14
	sub	x10, x10, #32
	cmp	x10, #31
	b.hi	Lnoise_BB21_12
	b	Lnoise_BB21_16
Lnoise_BB21_14:
	cmp	x10, #31
	b.ls	Lnoise_BB21_16
	mov	w8, #1
	eor	w0, w8, #0x1
	ret
Lnoise_BB21_16:
	add	x9, x0, x8
	add	x8, x2, x8
	ldp	q0, q1, [x9]
	ldp	q2, q3, [x8]
	cmeq.16b	v1, v1, v3
	cmeq.16b	v0, v0, v2
	mvn.16b	v0, v0
	orn.16b	v0, v0, v1
	umaxv.16b	b0, v0
	fmov	w8, s0
	and	w8, w8, #0x1
	eor	w0, w8, #0x1
	ret
	.loh AdrpLdr	Lnoise_loh84, Lnoise_loh85
	.cfi_endproc

	.section	__TEXT,__literal16,16byte_literals
	.p2align	4, 0x0
lnoise_CPI22_0:
	.byte	1
	.byte	2
	.byte	4
	.byte	8
	.byte	16
	.byte	32
	.byte	64
	.byte	128
	.byte	1
	.byte	2
	.byte	4
	.byte	8
	.byte	16
	.byte	32
	.byte	64
	.byte	128
	.section	__TEXT,__text,regular,pure_instructions
	.p2align	2
"_core::cmp::slices::groups_equal::<#1549cde59530a8ca>":
	.cfi_startproc
	subs	x9, x1, #8
	b.hi	Lnoise_BB22_2
	sub	x8, x1, #4
	add	x9, x0, x8
	add	x8, x2, x8
	ldr	s0, [x0]
	ld1.s	{ v0 }[1], [x9]
	fmov	x9, d0
	ldr	s0, [x2]
	ld1.s	{ v0 }[1], [x8]
	fmov	x8, d0
	cmp	x9, x8
	cset	w8, ne
	eor	w0, w8, #0x1
	ret
Lnoise_BB22_2:
	subs	x8, x1, #32
	b.hi	Lnoise_BB22_4
	mov	w8, #8
	cmp	x9, #8
	csel	x8, x9, x8, lo
	mov	w10, #16
	cmp	x9, #16
	csel	x10, x9, x10, lo
	ldr	d0, [x0]
	ldr	d1, [x0, x8]
	ldr	d2, [x2, x8]
	ldr	d3, [x0, x10]
	ldr	d4, [x2, x10]
	ldr	d5, [x0, x9]
	ldr	d6, [x2, x9]
	mov.d	v0[1], v1[0]
	mov.d	v3[1], v5[0]
	ldr	d1, [x2]
	mov.d	v1[1], v2[0]
	mov.d	v4[1], v6[0]
	cmeq.16b	v2, v3, v4
	cmeq.16b	v0, v0, v1
	mvn.16b	v0, v0
	orn.16b	v0, v0, v2
	umaxv.16b	b0, v0
	fmov	w8, s0
	and	w8, w8, #0x1
	eor	w0, w8, #0x1
	ret
Lnoise_BB22_4:
	cmp	x1, #65
	b.hs	Lnoise_BB22_6
	add	x9, x0, x8
	add	x8, x2, x8
	ldp	q1, q0, [x0]
	ldp	q3, q2, [x2]
	ldp	q5, q4, [x9]
	ldp	q7, q6, [x8]
	cmeq.16b	v5, v5, v7
	cmeq.16b	v4, v4, v6
	cmeq.16b	v1, v1, v3
	mvn.16b	v1, v1
	cmeq.16b	v0, v0, v2
	mvn.16b	v0, v0
	orn.16b	v0, v0, v4
	orn.16b	v1, v1, v5
	orr.16b	v0, v1, v0
	umaxv.16b	b0, v0
	fmov	w8, s0
	and	w8, w8, #0x1
	eor	w0, w8, #0x1
	ret
Lnoise_BB22_6:
	mov	x9, #0
	add	x10, x2, #48
	mov	x11, x1
Lnoise_BB22_7:
	add	x12, x0, x9
	add	x13, x10, x9
	ldp	q0, q1, [x12]
	ldp	q2, q3, [x13, #-48]
	cmeq.16b	v0, v0, v2
	mvn.16b	v0, v0
	cmeq.16b	v1, v1, v3
	mvn.16b	v1, v1
	ldp	q2, q3, [x12, #32]
	ldp	q4, q5, [x13, #-16]
	cmeq.16b	v2, v2, v4
	cmeq.16b	v3, v3, v5
	orn.16b	v0, v0, v2
	orn.16b	v1, v1, v3
	orr.16b	v0, v1, v0
	umaxv.16b	b0, v0
	fmov	w12, s0
	tbnz	w12, #0, Lnoise_BB22_10
	add	x9, x9, #64
	sub	x11, x11, #64
	cmp	x11, #63
	b.hi	Lnoise_BB22_7
	and	x9, x1, #0xffffffffffffffc0
Lnoise_BB22_10:
	sub	x10, x1, x9
	cmp	x10, #32
	b.lo	Lnoise_BB22_16
	add	x11, x2, x9
	add	x9, x0, x9
Lnoise_BB22_12:
	ldp	q0, q1, [x9], #32
	ldp	q2, q3, [x11], #32
	cmeq.16b	v1, v1, v3
Lnoise_loh86:
	adrp	x12, lnoise_CPI22_0@PAGE
Lnoise_loh87:
	ldr	q3, [x12, lnoise_CPI22_0@PAGEOFF]
	bic.16b	v1, v3, v1
	ext.16b	v4, v1, v1, #8
	zip1.16b	v1, v1, v4
	addv.8h	h1, v1
	fmov	w12, s1
	cmeq.16b	v0, v0, v2
	bic.16b	v0, v3, v0
	ext.16b	v1, v0, v0, #8
	zip1.16b	v0, v0, v1
	addv.8h	h0, v0
	fmov	w13, s0
	orr	w12, w13, w12
	tst	w12, #0xffff
	b.ne	Lnoise_BB22_14
	sub	x10, x10, #32
	cmp	x10, #32
	b.hs	Lnoise_BB22_12
	b	Lnoise_BB22_16
Lnoise_BB22_14:
	cmp	x10, #31
	b.ls	Lnoise_BB22_16
	mov	w8, #1
	eor	w0, w8, #0x1
	ret
Lnoise_BB22_16:
	add	x9, x0, x8
	add	x8, x2, x8
	ldp	q0, q1, [x9]
	ldp	q2, q3, [x8]
	cmeq.16b	v1, v1, v3
	cmeq.16b	v0, v0, v2
	mvn.16b	v0, v0
	orn.16b	v0, v0, v1
	umaxv.16b	b0, v0
	fmov	w8, s0
	and	w8, w8, #0x1
	eor	w0, w8, #0x1
	ret
	.loh AdrpLdr	Lnoise_loh86, Lnoise_loh87
	.cfi_endproc

	.p2align	2
"_noise_names::pattern::Pattern::check":
	.cfi_startproc
	stp	x28, x27, [sp, #-96]!
	.cfi_def_cfa_offset 96
	stp	x26, x25, [sp, #16]
	stp	x24, x23, [sp, #32]
	stp	x22, x21, [sp, #48]
	stp	x20, x19, [sp, #64]
	stp	x29, x30, [sp, #80]
	add	x29, sp, #80
	.cfi_def_cfa w29, 16
	.cfi_offset w30, -8
	.cfi_offset w29, -16
	.cfi_offset w19, -24
	.cfi_offset w20, -32
	.cfi_offset w21, -40
	.cfi_offset w22, -48
	.cfi_offset w23, -56
	.cfi_offset w24, -64
	.cfi_offset w25, -72
	.cfi_offset w26, -80
	.cfi_offset w27, -88
	.cfi_offset w28, -96
	.cfi_remember_state
	sub	sp, sp, #576
	mov	x20, x1
	mov	x19, x0
	sub	x25, x29, #100
	add	x21, sp, #8
	add	x0, sp, #8
	mov	w2, #272
	bl	_memcpy
	stur	wzr, [x29, #-100]
	stur	xzr, [x29, #-96]
	sturb	wzr, [x29, #-88]
	ldr	x26, [sp, #272]
	ldr	x5, [sp, #56]
	sub	x0, x29, #100
	sub	x1, x29, #96
	add	x4, x21, #40
	mov	w2, #0
	mov	w3, #0
	bl	"_noise_names::seen::Seen::walk_tokens"
	ldurb	w8, [x29, #-100]
	cbnz	w8, Lnoise_BB23_2
	ldr	x5, [sp, #72]
	sub	x0, x29, #100
	sub	x1, x29, #96
	add	x4, x21, #56
	mov	w2, #1
	mov	w3, #0
	bl	"_noise_names::seen::Seen::walk_tokens"
	ldurb	w8, [x29, #-100]
	cbz	w8, Lnoise_BB23_5
Lnoise_BB23_2:
	ldurb	w8, [x29, #-97]
	ldurh	w9, [x25, #1]
	orr	w9, w9, w8, lsl #16
Lnoise_BB23_3:
	mov	w8, #1
	strb	w8, [x19]
	lsr	w8, w9, #16
	strb	w8, [x19, #3]
	sturh	w9, [x19, #1]
	movi.2d	v0, #0000000000000000
	stur	q0, [x19, #24]
	stur	q0, [x19, #40]
	stur	q0, [x19, #56]
	stur	q0, [x19, #72]
	stur	q0, [x19, #88]
	stur	q0, [x19, #104]
	stur	q0, [x19, #120]
	stur	q0, [x19, #136]
	stur	q0, [x19, #152]
	stur	q0, [x19, #168]
	stur	q0, [x19, #184]
	stur	q0, [x19, #200]
	stur	q0, [x19, #216]
	stur	q0, [x19, #232]
	stur	q0, [x19, #248]
	str	q0, [x19, #8]!
	str	q0, [x19, #256]
Lnoise_BB23_4:
	add	sp, sp, #576
	.cfi_def_cfa wsp, 96
	ldp	x29, x30, [sp, #80]
	ldp	x20, x19, [sp, #64]
	ldp	x22, x21, [sp, #48]
	ldp	x24, x23, [sp, #32]
	ldp	x26, x25, [sp, #16]
	ldp	x28, x27, [sp], #96
	.cfi_def_cfa_offset 0
	.cfi_restore w30
	.cfi_restore w29
	.cfi_restore w19
	.cfi_restore w20
	.cfi_restore w21
	.cfi_restore w22
	.cfi_restore w23
	.cfi_restore w24
	.cfi_restore w25
	.cfi_restore w26
	.cfi_restore w27
	.cfi_restore w28
	ret
Lnoise_BB23_5:
	.cfi_restore_state
	cbz	x26, Lnoise_BB23_19
	mov	w23, #0
	add	x24, x21, #72
	mov	w21, #1
	mov	x27, x26
	b	Lnoise_BB23_8
Lnoise_BB23_7:
	eor	w23, w23, #0x1
	add	w21, w21, #1
	add	x24, x24, #24
	subs	x27, x27, #1
	b.eq	Lnoise_BB23_20
Lnoise_BB23_8:
	stur	wzr, [x29, #-84]
	ldr	x22, [x24, #16]
	sub	x0, x29, #84
	sub	x1, x29, #96
	mov	x2, x23
	mov	x3, x21
	mov	x4, x24
	mov	x5, x22
	bl	"_noise_names::seen::Seen::walk_tokens"
	ldurb	w8, [x29, #-84]
	cbnz	w8, Lnoise_BB23_27
	ldurb	w8, [x29, #-92]
	tbz	w23, #0, Lnoise_BB23_13
	ldurb	w9, [x29, #-91]
	cmp	w9, #1
	ccmp	w8, #0, #0, eq
	b.eq	Lnoise_BB23_26
	ldurb	w10, [x29, #-89]
	ldurb	w9, [x29, #-90]
	cmp	w10, #1
	b.ne	Lnoise_BB23_16
	tbnz	w9, #0, Lnoise_BB23_16
	b	Lnoise_BB23_26
Lnoise_BB23_13:
	ldurb	w9, [x29, #-90]
	cmp	w9, #1
	ccmp	w8, #0, #0, eq
	b.eq	Lnoise_BB23_26
	ldurb	w10, [x29, #-89]
	cmp	w10, #1
	b.ne	Lnoise_BB23_16
	ldurb	w10, [x29, #-91]
	tbz	w10, #0, Lnoise_BB23_26
Lnoise_BB23_16:
	ldurb	w10, [x29, #-88]
	tbz	w10, #0, Lnoise_BB23_7
	and	x10, x23, #0xff
	lsl	x10, x10, #1
	sub	x11, x29, #96
	ldrb	w10, [x11, x10]
	tbnz	w10, #0, Lnoise_BB23_7
	mov	w8, #5
	b	Lnoise_BB23_28
Lnoise_BB23_19:
	ldurb	w8, [x29, #-92]
	ldurb	w9, [x29, #-90]
Lnoise_BB23_20:
	add	w10, w26, #1
	tbz	w9, #0, Lnoise_BB23_22
	tbz	w8, #0, Lnoise_BB23_24
Lnoise_BB23_22:
	ldurb	w11, [x29, #-89]
	eor	w13, w11, #0x1
	ldurb	w11, [x29, #-91]
	tbnz	w13, #0, Lnoise_BB23_29
	cbnz	w11, Lnoise_BB23_29
Lnoise_BB23_24:
	mov	w8, #4
Lnoise_BB23_25:
	sturb	w8, [x29, #-99]
	sturb	w10, [x29, #-98]
	sturb	wzr, [x29, #-97]
	ldurh	w9, [x25, #1]
	b	Lnoise_BB23_3
Lnoise_BB23_26:
	mov	w8, #4
	b	Lnoise_BB23_28
Lnoise_BB23_27:
	ldurb	w9, [x29, #-81]
	ldurh	w8, [x25, #17]
	bfi	w8, w9, #16, #8
	lsr	w21, w8, #8
	uxth	w22, w9
Lnoise_BB23_28:
	lsl	w9, w22, #16
	bfi	w9, w21, #8, #8
	bfxil	w9, w8, #0, #8
	b	Lnoise_BB23_3
Lnoise_BB23_29:
	ldurb	w12, [x29, #-88]
	eor	w12, w12, #0x1
	tbnz	w12, #0, Lnoise_BB23_32
	ldurb	w14, [x29, #-96]
	tbnz	w14, #0, Lnoise_BB23_32
	mov	w8, #5
	b	Lnoise_BB23_25
Lnoise_BB23_32:
	cmp	x26, #1
	b.ne	Lnoise_BB23_34
Lnoise_BB23_33:
	add	x0, sp, #284
	mov	x1, x20
	mov	w2, #272
	bl	_memcpy
	strb	wzr, [x19]
	strb	wzr, [x19, #3]
	sturh	wzr, [x19, #1]
	add	x0, x19, #8
	add	x1, sp, #284
	mov	w2, #272
	bl	_memcpy
	b	Lnoise_BB23_4
Lnoise_BB23_34:
	orr	w13, w9, w13
	mov	w9, #4
	tbz	w13, #0, Lnoise_BB23_38
	eor	w11, w11, #0x1
	orr	w8, w11, w8
	tbz	w8, #0, Lnoise_BB23_38
	ldurb	w8, [x29, #-94]
	orr	w8, w12, w8
	tbnz	w8, #0, Lnoise_BB23_33
	mov	w9, #5
Lnoise_BB23_38:
	bfi	w9, w10, #8, #8
	orr	w9, w9, #0x10000
	b	Lnoise_BB23_3
	.cfi_endproc

	.p2align	2
"_noise_names::seen::Seen::walk_tokens":
	.cfi_startproc
	cbz	x5, Lnoise_BB24_52
	mov	x8, #0
	tst	w2, #0x1
	mov	w9, #3
	csinc	x9, x9, xzr, ne
	ubfiz	x10, x2, #1, #8
	b	Lnoise_BB24_4
Lnoise_BB24_2:
	mov	w11, #1
	strb	w11, [x1, #8]
Lnoise_BB24_3:
	add	x8, x8, #1
	cmp	x5, x8
	b.eq	Lnoise_BB24_52
Lnoise_BB24_4:
	ldrb	w11, [x4, x8]
	cmp	w11, #2
	b.le	Lnoise_BB24_9
	cmp	w11, #4
	b.gt	Lnoise_BB24_16
	cmp	w11, #3
	b.ne	Lnoise_BB24_22
	ldrb	w12, [x1]
	cmp	w12, #1
	b.ne	Lnoise_BB24_53
	ldrb	w12, [x1, #3]
	ldrb	w13, [x1, #5]
	b	Lnoise_BB24_24
Lnoise_BB24_9:
	cbz	w11, Lnoise_BB24_19
	cmp	w11, #1
	b.ne	Lnoise_BB24_20
	tbz	w2, #0, Lnoise_BB24_39
	ldrb	w12, [x1, #5]
	cmp	w12, #1
	b.ne	Lnoise_BB24_14
	ldrb	w12, [x1, #4]
	cmp	w12, #1
	b.ne	Lnoise_BB24_46
Lnoise_BB24_14:
	ldrb	w12, [x1, #7]
	cmp	w12, #1
	b.ne	Lnoise_BB24_43
	ldrb	w12, [x1, #6]
	cmp	w12, #1
	b.eq	Lnoise_BB24_43
	b	Lnoise_BB24_46
Lnoise_BB24_16:
	cmp	w11, #5
	b.ne	Lnoise_BB24_2
	ldrb	w12, [x1, #1]
	cmp	w12, #1
	b.ne	Lnoise_BB24_53
	ldrb	w12, [x1, #3]
	ldrb	w13, [x1, #7]
	b	Lnoise_BB24_24
Lnoise_BB24_19:
	ldrb	w13, [x1, x10]
	lsl	w12, w13, #1
	b	Lnoise_BB24_25
Lnoise_BB24_20:
	ldrb	w12, [x1]
	cmp	w12, #1
	b.ne	Lnoise_BB24_53
	ldrb	w12, [x1, #2]
	ldrb	w13, [x1, #4]
	b	Lnoise_BB24_24
Lnoise_BB24_22:
	ldrb	w12, [x1, #1]
	cmp	w12, #1
	b.ne	Lnoise_BB24_53
	ldrb	w12, [x1, #2]
	ldrb	w13, [x1, #6]
Lnoise_BB24_24:
	mov	w14, #3
	cmp	w13, #0
	csel	w14, w14, wzr, ne
	orn	w13, w13, w12
	and	w13, w13, #0x1
	cmp	w12, #0
	csinc	w12, w14, wzr, ne
Lnoise_BB24_25:
	cbnz	w13, Lnoise_BB24_51
	cmp	w11, #2
	b.gt	Lnoise_BB24_31
	cbz	w11, Lnoise_BB24_34
	cmp	w11, #1
	b.ne	Lnoise_BB24_37
	mov	w11, #1
	tst	w2, #0xff
	b.eq	Lnoise_BB24_48
	strb	w11, [x1, #3]
	b	Lnoise_BB24_3
Lnoise_BB24_31:
	cmp	w11, #3
	b.eq	Lnoise_BB24_36
	cmp	w11, #4
	b.ne	Lnoise_BB24_38
	mov	w11, #1
	strb	w11, [x1, #6]
	b	Lnoise_BB24_3
Lnoise_BB24_34:
	mov	w11, #1
	tst	w2, #0xff
	b.eq	Lnoise_BB24_47
	strb	w11, [x1, #2]
	b	Lnoise_BB24_3
Lnoise_BB24_36:
	mov	w11, #1
	strb	w11, [x1, #5]
	b	Lnoise_BB24_3
Lnoise_BB24_37:
	mov	w11, #1
	strb	w11, [x1, #4]
	b	Lnoise_BB24_3
Lnoise_BB24_38:
	mov	w11, #1
	strb	w11, [x1, #7]
	b	Lnoise_BB24_3
Lnoise_BB24_39:
	ldrb	w12, [x1, #6]
	cmp	w12, #1
	b.ne	Lnoise_BB24_41
	ldrb	w12, [x1, #4]
	cmp	w12, #1
	b.ne	Lnoise_BB24_46
Lnoise_BB24_41:
	ldrb	w12, [x1, #7]
	cmp	w12, #1
	b.ne	Lnoise_BB24_43
	ldrb	w12, [x1, #5]
	tbz	w12, #0, Lnoise_BB24_46
Lnoise_BB24_43:
	ldrb	w12, [x1, #8]
	cmp	w12, #1
	b.ne	Lnoise_BB24_45
	ldrb	w12, [x1, x10]
	cmp	w12, #1
	b.ne	Lnoise_BB24_49
Lnoise_BB24_45:
	mov	w13, #0
	mov	w12, #0
	ldrb	w14, [x1, x9]
	tbz	w14, #0, Lnoise_BB24_25
	b	Lnoise_BB24_50
Lnoise_BB24_46:
	mov	w12, #4
	mov	w13, #1
	ldrb	w14, [x1, x9]
	tbz	w14, #0, Lnoise_BB24_25
	b	Lnoise_BB24_50
Lnoise_BB24_47:
	strb	w11, [x1]
	b	Lnoise_BB24_3
Lnoise_BB24_48:
	strb	w11, [x1, #1]
	b	Lnoise_BB24_3
Lnoise_BB24_49:
	mov	w12, #5
	mov	w13, #1
	ldrb	w14, [x1, x9]
	tbz	w14, #0, Lnoise_BB24_25
Lnoise_BB24_50:
	mov	w12, #2
Lnoise_BB24_51:
	mov	w9, #1
	strb	w9, [x0]
	orr	w9, w12, w3, lsl #8
	strb	w8, [x0, #3]
	sturh	w9, [x0, #1]
	ret
Lnoise_BB24_52:
	strb	wzr, [x0]
	strb	wzr, [x0, #3]
	sturh	wzr, [x0, #1]
	ret
Lnoise_BB24_53:
	mov	w12, #1
	mov	w9, #1
	strb	w9, [x0]
	orr	w9, w12, w3, lsl #8
	strb	w8, [x0, #3]
	sturh	w9, [x0, #1]
	ret
	.cfi_endproc

	.p2align	2
"_noise_names::name::ProtocolName::parse":
	.cfi_startproc
	sub	sp, sp, #160
	.cfi_def_cfa_offset 160
	stp	x24, x23, [sp, #96]
	stp	x22, x21, [sp, #112]
	stp	x20, x19, [sp, #128]
	stp	x29, x30, [sp, #144]
	add	x29, sp, #144
	.cfi_def_cfa w29, 16
	.cfi_offset w30, -8
	.cfi_offset w29, -16
	.cfi_offset w19, -24
	.cfi_offset w20, -32
	.cfi_offset w21, -40
	.cfi_offset w22, -48
	.cfi_offset w23, -56
	.cfi_offset w24, -64
	.cfi_remember_state
	movi.2d	v0, #0000000000000000
	stur	q0, [sp, #30]
	stp	q0, q0, [sp]
	stp	q0, q0, [sp, #64]
	str	q0, [sp, #48]
	cmp	x2, #256
	b.lo	Lnoise_BB25_2
	mov	w8, #0
	stur	xzr, [sp, #38]
	stur	q0, [sp, #22]
	mov	w9, #1
	stur	q0, [sp, #6]
	b	Lnoise_BB25_11
Lnoise_BB25_2:
	subs	x8, x2, #6
	b.lo	Lnoise_BB25_10
	ldrb	w9, [x1]
	ldrb	w10, [x1, #1]
	ldur	w11, [x1, #2]
	cmp	w10, #111
	cset	w10, eq
	mov	w12, #29545
	movk	w12, #24421, lsl #16
	cmp	w11, w12
	mov	w11, #78
	ccmp	w9, w11, #0, eq
	cset	w11, eq
	add	x9, x1, #6
	ands	w10, w11, w10
	csel	x19, x9, xzr, ne
	csel	x22, x8, xzr, ne
	cmp	w10, #1
	b.ne	Lnoise_BB25_10
	mov	x21, x0
	mov	x20, #0
	cbz	x8, Lnoise_BB25_8
Lnoise_BB25_5:
	ldrb	w10, [x9, x20]
	cmp	w10, #95
	b.eq	Lnoise_BB25_8
	add	x20, x20, #1
	cmp	x8, x20
	b.ne	Lnoise_BB25_5
	mov	x20, x22
Lnoise_BB25_8:
	add	x23, sp, #48
	add	x0, sp, #48
	mov	x1, x19
	mov	x2, x20
	bl	"_noise_names::section::parse_section"
	ldrb	w8, [sp, #48]
	cbz	w8, Lnoise_BB25_12
	ldrb	w8, [sp, #49]
	movi.2d	v0, #0000000000000000
	stur	q0, [sp, #6]
	stur	q0, [sp, #22]
	stur	xzr, [sp, #38]
	mov	w9, #1
	mov	x0, x21
	b	Lnoise_BB25_11
Lnoise_BB25_10:
	stur	xzr, [sp, #38]
	stur	q0, [sp, #22]
	stur	q0, [sp, #6]
	mov	w9, #1
	mov	w8, #1
Lnoise_BB25_11:
	strb	w9, [x0]
	strb	w8, [x0, #1]
	ldur	q0, [sp, #6]
	stur	q0, [x0, #8]
	ldur	q0, [sp, #22]
	stur	q0, [x0, #24]
	ldur	x8, [sp, #38]
	str	x8, [x0, #40]
	.cfi_def_cfa wsp, 160
	ldp	x29, x30, [sp, #144]
	ldp	x20, x19, [sp, #128]
	ldp	x22, x21, [sp, #112]
	ldp	x24, x23, [sp, #96]
	add	sp, sp, #160
	.cfi_def_cfa_offset 0
	.cfi_restore w30
	.cfi_restore w29
	.cfi_restore w19
	.cfi_restore w20
	.cfi_restore w21
	.cfi_restore w22
	.cfi_restore w23
	.cfi_restore w24
	ret
Lnoise_BB25_12:
	.cfi_restore_state
	sub	x8, x22, x20
	cmp	x8, #24
	mov	x0, x21
	b.ne	Lnoise_BB25_16
	ldr	w8, [x19, x20]
	mov	w9, #12895
	movk	w9, #13621, lsl #16
	cmp	w8, w9
	b.ne	Lnoise_BB25_16
Lnoise_loh88:
	adrp	x2, lnoise__static.98@PAGE
Lnoise_loh89:
	add	x2, x2, lnoise__static.98@PAGEOFF
	add	x0, x19, x20
	mov	w1, #24
	bl	"_core::cmp::slices::groups_equal::<i8,31'core::cmp::numbers::U8PartialEq{}>"
	mov	x8, x0
	mov	x0, x21
	tbz	w8, #0, Lnoise_BB25_16
	mov	w9, #0
	mov	w8, #0
	orr	x10, x23, #0x8
	ldp	q0, q1, [x10]
	stur	q0, [sp, #6]
	stur	q1, [sp, #22]
	ldr	x10, [x10, #32]
	stur	x10, [sp, #38]
	b	Lnoise_BB25_11
Lnoise_BB25_16:
	stur	xzr, [sp, #38]
	movi.2d	v0, #0000000000000000
	stur	q0, [sp, #22]
	stur	q0, [sp, #6]
	mov	w8, #5
	mov	w9, #1
	b	Lnoise_BB25_11
	.loh AdrpAdd	Lnoise_loh88, Lnoise_loh89
	.cfi_endproc

	.p2align	2
"_noise_c::from_c::restored":
	.cfi_startproc
	stp	x28, x27, [sp, #-96]!
	.cfi_def_cfa_offset 96
	stp	x26, x25, [sp, #16]
	stp	x24, x23, [sp, #32]
	stp	x22, x21, [sp, #48]
	stp	x20, x19, [sp, #64]
	stp	x29, x30, [sp, #80]
	add	x29, sp, #80
	.cfi_def_cfa w29, 16
	.cfi_offset w30, -8
	.cfi_offset w29, -16
	.cfi_offset w19, -24
	.cfi_offset w20, -32
	.cfi_offset w21, -40
	.cfi_offset w22, -48
	.cfi_offset w23, -56
	.cfi_offset w24, -64
	.cfi_offset w25, -72
	.cfi_offset w26, -80
	.cfi_offset w27, -88
	.cfi_offset w28, -96
	.cfi_remember_state
	sub	sp, sp, #3856
	mov	x19, x2
	str	x0, [sp, #64]
	add	x23, sp, #816
	movi.2d	v0, #0000000000000000
	stp	q0, q0, [x23, #624]
	stp	q0, q0, [x23, #592]
	add	x11, sp, #3344
	add	x20, sp, #1552
	add	x9, sp, #632
	add	x10, sp, #272
	stp	q0, q0, [x23, #560]
	stp	q0, q0, [x23, #528]
	stp	q0, q0, [x23, #496]
	stp	q0, q0, [x23, #464]
	stp	q0, q0, [x23, #432]
	stp	q0, q0, [x23, #400]
	str	q0, [x23, #384]
	strh	wzr, [sp, #1196]
	str	wzr, [sp, #1192]
	stp	q0, q0, [x23, #336]
	stp	q0, q0, [x23, #304]
	add	x8, x23, #286
	str	q0, [x8]
	stur	q0, [x9, #184]
	stur	q0, [x9, #200]
	stur	q0, [x9, #216]
	stur	q0, [x9, #232]
	stur	q0, [x9, #248]
	stp	q0, q0, [x23, #80]
	stp	q0, q0, [x23, #112]
	stp	q0, q0, [x23, #144]
	stp	q0, q0, [x23, #176]
	stp	q0, q0, [x23, #208]
	stp	q0, q0, [x23, #240]
	str	q0, [x23, #272]
	stur	xzr, [x9, #166]
	stur	q0, [x9, #152]
	stur	q0, [x9, #136]
	stur	q0, [x9, #120]
	str	wzr, [sp, #744]
	strb	wzr, [sp, #748]
	stur	q0, [x9, #40]
	stur	q0, [x9, #56]
	stur	q0, [x9, #72]
	stur	q0, [x9, #88]
	stur	q0, [x9, #8]
	stur	q0, [x9, #24]
	str	wzr, [sp, #632]
	stur	wzr, [x9, #3]
	stp	q0, q0, [x10, #80]
	stp	q0, q0, [x10, #112]
	stp	q0, q0, [x10, #144]
	stp	q0, q0, [x10, #176]
	stp	q0, q0, [x10, #208]
	stp	q0, q0, [x10, #240]
	stp	q0, q0, [x10, #272]
	stp	q0, q0, [x10, #304]
	str	q0, [x10, #336]
	stur	wzr, [x10, #75]
	str	wzr, [sp, #344]
	stp	q0, q0, [x10, #32]
	str	q0, [sp, #272]
	str	q0, [x10, #16]
	stp	q0, q0, [sp, #192]
	stp	q0, q0, [sp, #224]
	str	wzr, [sp, #256]
	stp	q0, q0, [sp, #160]
	str	wzr, [sp, #152]
	stur	wzr, [sp, #155]
	ldrb	w9, [x1, #557]
	stp	q0, q0, [x11, #432]
	stp	q0, q0, [x20, #672]
	stp	q0, q0, [x20, #704]
	str	q0, [x20, #1296]
	str	q0, [x20, #1312]
	str	q0, [x20, #1328]
	str	q0, [x20, #1344]
	str	wzr, [sp, #2912]
	ldrb	w21, [x1, #422]
	ldrb	w8, [x1, #846]
	str	x8, [sp, #104]
	stp	q0, q0, [x11, #64]
	ldrb	w8, [x1, #491]
	str	w8, [sp, #80]
	cbz	w8, Lnoise_BB26_5
	add	x8, x1, #492
	ldp	q1, q2, [x8]
	stp	q1, q2, [x11, #64]
	mov	w8, #1
	str	w8, [sp, #100]
	ldp	q1, q2, [x11, #64]
	stp	q1, q2, [x20, #64]
	stp	q0, q0, [x11, #64]
	ldrb	w8, [x1, #524]
	str	w8, [sp, #76]
	cbz	w8, Lnoise_BB26_3
Lnoise_BB26_2:
	add	x8, x1, #525
	ldp	q0, q1, [x8]
	stp	q0, q1, [x11, #64]
	mov	w8, #1
Lnoise_BB26_3:
	str	w8, [sp, #132]
	lsl	x10, x9, #5
	add	x24, sp, #2848
	ldp	q0, q1, [x11, #64]
	stp	q0, q1, [x20, #368]
	ldrb	w27, [x1, #424]
	ldrb	w8, [x1, #423]
	movi.2d	v0, #0000000000000000
	stp	q0, q0, [x11, #64]
	ldrb	w12, [x1, #1431]
	str	x27, [sp, #136]
	str	x9, [sp, #40]
	cbz	w12, Lnoise_BB26_6
	add	x9, x1, #1432
	ldp	q0, q1, [x9]
	stp	q0, q1, [x11, #64]
	mov	w9, #1
	str	w9, [sp, #148]
	b	Lnoise_BB26_7
Lnoise_BB26_5:
	str	wzr, [sp, #100]
	ldp	q1, q2, [x11, #64]
	stp	q1, q2, [x20, #64]
	stp	q0, q0, [x11, #64]
	ldrb	w8, [x1, #524]
	str	w8, [sp, #76]
	cbnz	w8, Lnoise_BB26_2
	b	Lnoise_BB26_3
Lnoise_BB26_6:
	str	wzr, [sp, #148]
Lnoise_BB26_7:
	sub	x9, x1, x10
	stp	x9, x10, [sp, #16]
	str	w12, [sp, #60]
	cmp	w12, #0
	cset	w9, ne
	str	w9, [sp, #36]
	ldp	q0, q1, [x11, #64]
	add	x9, x1, #1399
	add	x10, x1, #1367
	cmp	w8, #0
	cset	w8, ne
	str	w8, [sp, #116]
	stp	q0, q1, [x11, #432]
	add	x27, sp, #3344
	add	x22, x1, #847
	add	x8, x1, #458
	str	x8, [sp, #88]
	ldr	x8, [x1, #1464]
	str	x8, [sp, #120]
	add	x28, x1, #425
	cmp	w21, #0
	cset	w26, ne
	ldp	q0, q1, [x10]
	stp	q0, q1, [x20, #672]
	ldp	q2, q3, [x9]
	stp	q2, q3, [x20, #704]
	stur	q2, [x24, #36]
	stur	q3, [x24, #52]
	stur	q1, [x24, #20]
	stur	q0, [x24, #4]
	add	x0, sp, #352
	mov	x1, x19
	mov	w2, #272
	bl	_memcpy
	ldp	q0, q1, [x20, #64]
	add	x25, sp, #272
	stp	q0, q1, [x25, #32]
	ldp	q1, q2, [x20, #368]
	str	q1, [sp, #272]
	str	wzr, [sp, #344]
	stur	wzr, [x25, #75]
	str	q2, [x25, #16]
	ldp	q0, q1, [x24, #32]
	stp	q0, q1, [sp, #224]
	ldr	w8, [sp, #2912]
	str	w8, [sp, #256]
	ldp	q1, q0, [x24]
	stp	q1, q0, [sp, #192]
	ldp	q0, q1, [x27, #432]
	stp	q0, q1, [sp, #160]
	str	wzr, [sp, #152]
	stur	wzr, [sp, #155]
	movi.2d	v0, #0000000000000000
	stp	q0, q0, [x20, #368]
	stp	q0, q0, [x20, #400]
	stp	q0, q0, [x20, #432]
	stp	q0, q0, [x20, #464]
	stp	q0, q0, [x20, #496]
	stp	q0, q0, [x20, #528]
	stp	q0, q0, [x20, #560]
	stp	q0, q0, [x20, #592]
	stp	q0, q0, [x20, #624]
	str	xzr, [sp, #2208]
	add	x8, sp, #1616
	add	x8, x8, #286
	str	q0, [x8]
	stp	q0, q0, [x20, #320]
	stp	q0, q0, [x20, #288]
	stp	q0, q0, [x20, #256]
	stp	q0, q0, [x20, #224]
	stp	q0, q0, [x20, #192]
	stp	q0, q0, [x20, #160]
	stp	q0, q0, [x20, #128]
	stp	q0, q0, [x20, #96]
	stp	q0, q0, [x20, #64]
	stur	xzr, [x20, #46]
	stp	q0, q0, [x20, #16]
	str	q0, [x20]
	str	wzr, [sp, #1544]
	strb	wzr, [sp, #1548]
	stp	q0, q0, [x23, #656]
	stp	q0, q0, [x23, #688]
	add	x24, sp, #2224
	add	x0, sp, #2224
	mov	x1, x19
	mov	w2, #272
	bl	_memcpy
	mov	x7, x28
	ldr	x6, [sp, #88]
	strb	w26, [sp, #2496]
	add	x8, x24, #273
	str	wzr, [x8]
	str	wzr, [sp, #2500]
	str	x28, [sp, #2504]
	str	x6, [sp, #2512]
	str	x22, [sp, #48]
	str	x22, [sp, #2520]
	ldr	x8, [sp, #104]
	str	x8, [sp, #2528]
	ldr	w8, [sp, #100]
	strb	w8, [sp, #2536]
	add	x8, x24, #313
	ldp	q1, q0, [x25, #32]
	ldr	q2, [x25, #16]
	stp	q1, q0, [x8]
	ldr	w8, [sp, #132]
	strb	w8, [sp, #2569]
	add	x8, x24, #346
	ldr	q0, [sp, #272]
	stp	q0, q2, [x8]
	ldr	x22, [sp, #136]
	ldr	w28, [sp, #116]
	ldr	x25, [sp, #120]
	strb	w22, [sp, #2602]
	strb	w28, [sp, #2603]
	add	x8, x24, #380
	ldp	q0, q1, [sp, #224]
	stp	q0, q1, [x8, #32]
	ldp	q1, q0, [sp, #192]
	stp	q1, q0, [x8]
	ldr	w8, [sp, #256]
	str	w8, [sp, #2668]
	ldr	w8, [sp, #148]
	strb	w8, [sp, #2672]
	add	x8, x24, #449
	ldp	q0, q1, [sp, #160]
	stp	q0, q1, [x8]
	add	x8, x24, #481
	str	wzr, [x8]
	str	wzr, [sp, #2708]
	str	x25, [sp, #2712]
	ldr	x9, [sp, #2488]
	subs	x10, x9, x22
	add	x30, sp, #632
	b.lo	Lnoise_BB26_103
	mov	x8, #0
	b.eq	Lnoise_BB26_15
	mov	w11, #24
	add	x12, sp, #2224
	umaddl	x11, w22, w11, x12
	add	x11, x11, #72
	b	Lnoise_BB26_11
Lnoise_BB26_10:
	add	x11, x11, #24
	add	x8, x12, x8
	subs	x10, x10, #1
	b.eq	Lnoise_BB26_15
Lnoise_BB26_11:
	mov	x12, #0
	ldr	x13, [x11, #16]
	mov	x14, x11
Lnoise_BB26_12:
	cbz	x13, Lnoise_BB26_10
	ldrb	w15, [x14], #1
	sub	x13, x13, #1
	cmp	w15, #6
	b.ne	Lnoise_BB26_12
	add	x12, x12, #1
	b	Lnoise_BB26_12
Lnoise_BB26_15:
	cmp	w21, #0
	cset	w12, eq
	add	x10, sp, #2224
	add	x13, x10, #40
	add	x10, x10, #56
	csel	x15, x10, x13, ne
	ldr	x14, [sp, #2272]
	ldr	x11, [sp, #2288]
	csel	x16, x11, x14, ne
	mov	x17, x15
	mov	x0, x16
Lnoise_BB26_16:
	cbz	x0, Lnoise_BB26_18
	ldrb	w1, [x17], #1
	sub	x0, x0, #1
	cbnz	w1, Lnoise_BB26_16
	b	Lnoise_BB26_25
Lnoise_BB26_18:
	cbz	x9, Lnoise_BB26_26
	mov	w17, #0
	add	x0, sp, #2224
	add	x0, x0, #72
	mov	x1, x9
	b	Lnoise_BB26_21
Lnoise_BB26_20:
	add	x0, x0, #24
	eor	w17, w17, #0x1
	sub	x1, x1, #1
	cbz	x1, Lnoise_BB26_26
Lnoise_BB26_21:
	cmp	w26, w17, uxtb
	b.ne	Lnoise_BB26_20
	mov	x2, #0
	ldr	x3, [x0, #16]
Lnoise_BB26_23:
	cmp	x3, x2
	b.eq	Lnoise_BB26_20
	ldrb	w4, [x0, x2]
	add	x2, x2, #1
	cbnz	w4, Lnoise_BB26_23
Lnoise_BB26_25:
	ldrb	w17, [x7]
	cbz	w17, Lnoise_BB26_103
Lnoise_BB26_26:
	cbz	x16, Lnoise_BB26_28
	ldrb	w17, [x15], #1
	sub	x16, x16, #1
	cmp	w17, #1
	b.ne	Lnoise_BB26_26
	b	Lnoise_BB26_35
Lnoise_BB26_28:
	cbz	x9, Lnoise_BB26_36
	mov	w15, #0
	add	x16, sp, #2224
	add	x16, x16, #72
	mov	x17, x9
	b	Lnoise_BB26_31
Lnoise_BB26_30:
	add	x16, x16, #24
	eor	w15, w15, #0x1
	sub	x17, x17, #1
	cbz	x17, Lnoise_BB26_36
Lnoise_BB26_31:
	cmp	w26, w15, uxtb
	b.ne	Lnoise_BB26_30
	mov	x0, #0
	ldr	x1, [x16, #16]
Lnoise_BB26_33:
	cmp	x1, x0
	b.eq	Lnoise_BB26_30
	ldrb	w2, [x16, x0]
	add	x0, x0, #1
	cmp	w2, #1
	b.ne	Lnoise_BB26_33
Lnoise_BB26_35:
	ldrb	w15, [x6]
	cbz	w15, Lnoise_BB26_103
Lnoise_BB26_36:
	cmp	w21, #0
	csel	x15, x13, x10, ne
	csel	x16, x14, x11, ne
	mov	x17, x15
	mov	x0, x16
Lnoise_BB26_37:
	cbz	x0, Lnoise_BB26_39
	ldrb	w1, [x17], #1
	sub	x0, x0, #1
	cbnz	w1, Lnoise_BB26_37
	b	Lnoise_BB26_46
Lnoise_BB26_39:
	cbz	w22, Lnoise_BB26_63
	mov	w17, #0
	add	x0, sp, #2224
	add	x0, x0, #72
	mov	x1, x22
	b	Lnoise_BB26_42
Lnoise_BB26_41:
	add	x0, x0, #24
	eor	w17, w17, #0x1
	sub	x1, x1, #1
	cbz	x1, Lnoise_BB26_63
Lnoise_BB26_42:
	cmp	w12, w17, uxtb
	b.ne	Lnoise_BB26_41
	mov	x2, #0
	ldr	x3, [x0, #16]
Lnoise_BB26_44:
	cmp	x3, x2
	b.eq	Lnoise_BB26_41
	ldrb	w4, [x0, x2]
	add	x2, x2, #1
	cbnz	w4, Lnoise_BB26_44
Lnoise_BB26_46:
	ldr	w17, [sp, #80]
	cbz	w17, Lnoise_BB26_103
Lnoise_BB26_47:
	cbz	x16, Lnoise_BB26_49
	ldrb	w17, [x15], #1
	sub	x16, x16, #1
	cmp	w17, #1
	b.ne	Lnoise_BB26_47
	b	Lnoise_BB26_56
Lnoise_BB26_49:
	cbz	w22, Lnoise_BB26_98
	mov	w15, #0
	add	x16, sp, #2224
	add	x16, x16, #72
	mov	x17, x22
	b	Lnoise_BB26_52
Lnoise_BB26_51:
	add	x16, x16, #24
	eor	w15, w15, #0x1
	sub	x17, x17, #1
	cbz	x17, Lnoise_BB26_98
Lnoise_BB26_52:
	cmp	w12, w15, uxtb
	b.ne	Lnoise_BB26_51
	mov	x0, #0
	ldr	x1, [x16, #16]
Lnoise_BB26_54:
	cmp	x1, x0
	b.eq	Lnoise_BB26_51
	ldrb	w2, [x16, x0]
	add	x0, x0, #1
	cmp	w2, #1
	b.ne	Lnoise_BB26_54
Lnoise_BB26_56:
	ldr	w12, [sp, #76]
	cbz	w12, Lnoise_BB26_103
Lnoise_BB26_57:
	add	x12, sp, #2224
	add	x12, x12, #72
	cbz	x9, Lnoise_BB26_65
	mov	x15, #0
	mov	x16, x12
	b	Lnoise_BB26_60
Lnoise_BB26_59:
	add	x15, x15, #1
	add	x16, x16, #24
	cmp	x15, x9
	b.eq	Lnoise_BB26_65
Lnoise_BB26_60:
	mov	w17, #24
	madd	x17, x15, x17, x12
	ldr	x17, [x17, #16]
	mov	x0, x16
	cbz	x17, Lnoise_BB26_59
Lnoise_BB26_61:
	ldrb	w1, [x0], #1
	cmp	w1, #6
	b.eq	Lnoise_BB26_64
	subs	x17, x17, #1
	b.ne	Lnoise_BB26_61
	b	Lnoise_BB26_59
Lnoise_BB26_63:
	ldr	w17, [sp, #80]
	cbnz	w17, Lnoise_BB26_103
	b	Lnoise_BB26_47
Lnoise_BB26_64:
	mov	w15, #1
	b	Lnoise_BB26_66
Lnoise_BB26_65:
	mov	w15, #0
Lnoise_BB26_66:
	mov	w16, #0
	mov	w17, #0
	mov	w0, #0
	mov	w1, #0
	mov	w3, #0
	mov	w2, #0
	cbnz	x14, Lnoise_BB26_73
Lnoise_BB26_67:
	str	x7, [sp, #8]
	mov	w13, #0
	cbz	x11, Lnoise_BB26_69
Lnoise_BB26_68:
	ldrb	w14, [x10], #1
	cmp	w14, #5
	csinc	w4, w3, wzr, ne
	csinc	w5, w2, wzr, eq
	cmp	w14, #3
	csinc	w6, w0, wzr, ne
	csinc	w7, w1, wzr, eq
	cmp	w14, #4
	csel	w6, w0, w6, gt
	csel	w7, w1, w7, gt
	csel	w4, w4, w3, gt
	csel	w5, w5, w2, gt
	cmp	w14, #1
	csinc	w21, w17, wzr, eq
	cmp	w14, #0
	csel	w21, w17, w21, eq
	csinc	w24, w13, wzr, ne
	cmp	w14, #2
	csel	w13, w13, w24, gt
	csel	w17, w17, w21, gt
	csel	w0, w6, w0, gt
	csel	w1, w7, w1, gt
	csel	w3, w4, w3, gt
	csel	w2, w5, w2, gt
	subs	x11, x11, #1
	b.ne	Lnoise_BB26_68
Lnoise_BB26_69:
	cbz	x9, Lnoise_BB26_84
	mov	x10, #0
	mov	x11, x12
	b	Lnoise_BB26_80
Lnoise_BB26_71:
	cmp	w4, #1
	csinc	w5, w17, wzr, eq
	cmp	w4, #0
	csel	w17, w17, w5, eq
	csinc	w16, w16, wzr, ne
Lnoise_BB26_72:
	subs	x14, x14, #1
	b.eq	Lnoise_BB26_67
Lnoise_BB26_73:
	ldrb	w4, [x13], #1
	cmp	w4, #2
	b.le	Lnoise_BB26_71
	cmp	w4, #4
	b.gt	Lnoise_BB26_76
	cmp	w4, #3
	csinc	w0, w0, wzr, ne
	csinc	w1, w1, wzr, eq
	b	Lnoise_BB26_72
Lnoise_BB26_76:
	cmp	w4, #6
	b.ne	Lnoise_BB26_78
	mov	w2, #1
	b	Lnoise_BB26_72
Lnoise_BB26_78:
	mov	w3, #1
	b	Lnoise_BB26_72
Lnoise_BB26_79:
	add	x10, x10, #1
	add	x11, x11, #24
	cmp	x10, x9
	b.eq	Lnoise_BB26_131
Lnoise_BB26_80:
	mov	w14, #24
	madd	x14, x10, x14, x12
	ldr	x14, [x14, #16]
	mov	x4, x11
	cbz	x14, Lnoise_BB26_79
Lnoise_BB26_81:
	ldrb	w5, [x4], #1
	cmp	w5, #6
	b.eq	Lnoise_BB26_83
	subs	x14, x14, #1
	b.ne	Lnoise_BB26_81
	b	Lnoise_BB26_79
Lnoise_BB26_83:
	mov	w9, #1
Lnoise_BB26_84:
	orr	w10, w17, w0
	orr	w11, w1, w3
	orr	w10, w10, w11
	orn	w11, w2, w9
	orr	w9, w2, w9
	orr	w13, w16, w13
	tst	w11, #0x1
	csel	w9, w9, w13, ne
	tst	w10, #0x1
	csinc	w9, w9, wzr, eq
	cbz	w22, Lnoise_BB26_99
	and	w9, w9, #0x1
	mov	x10, #0
	mov	x11, x22
	tbnz	w15, #0, Lnoise_BB26_87
	b	Lnoise_BB26_91
Lnoise_BB26_86:
	add	x12, x12, #24
	add	x10, x10, w9, uxtb
	sub	x11, x11, #1
	cbz	x11, Lnoise_BB26_100
Lnoise_BB26_87:
	ldr	x13, [x12, #16]
	cbz	x13, Lnoise_BB26_86
	mov	x14, #0
Lnoise_BB26_89:
	ldrb	w15, [x12, x14]
	add	x10, x10, w9, uxtb
	cmp	w15, #1
	csinc	w9, w9, wzr, eq
	csel	x10, x10, xzr, eq
	add	x14, x14, #1
	cmp	x13, x14
	b.ne	Lnoise_BB26_89
	b	Lnoise_BB26_86
Lnoise_BB26_90:
	add	x12, x12, #24
	add	x10, x10, w9, uxtb
	sub	x11, x11, #1
	cbz	x11, Lnoise_BB26_100
Lnoise_BB26_91:
	ldr	x13, [x12, #16]
	cbz	x13, Lnoise_BB26_90
	mov	x14, #0
	b	Lnoise_BB26_95
Lnoise_BB26_93:
	mov	x10, #0
	mov	w9, #1
Lnoise_BB26_94:
	add	x14, x14, #1
	cmp	x13, x14
	b.eq	Lnoise_BB26_90
Lnoise_BB26_95:
	ldrb	w15, [x12, x14]
	sub	w16, w15, #2
	cmp	w16, #5
	b.lo	Lnoise_BB26_93
	cbz	w15, Lnoise_BB26_94
	add	x10, x10, w9, uxtb
	b	Lnoise_BB26_94
Lnoise_BB26_98:
	ldr	w12, [sp, #76]
	cbnz	w12, Lnoise_BB26_103
	b	Lnoise_BB26_57
Lnoise_BB26_99:
	mov	x10, #0
Lnoise_BB26_100:
	ldr	w11, [sp, #60]
	cmp	w11, #0
	cset	w11, eq
	and	w9, w9, #0x1
	cmp	w11, w9
	b.eq	Lnoise_BB26_103
	cmp	x25, x10
	b.ne	Lnoise_BB26_103
	ldr	x21, [sp, #40]
	cmp	x8, x21
	b.hs	Lnoise_BB26_105
Lnoise_BB26_103:
	mov	x22, #0
	mov	x27, #0
	mov	x25, #0
	mov	x28, #0
	mov	x8, #0
	mov	w21, #0
	mov	w24, #0
	mov	w20, #0
	str	wzr, [sp, #132]
	str	xzr, [sp, #136]
	str	wzr, [sp, #116]
	str	wzr, [sp, #76]
	str	xzr, [sp, #80]
	str	wzr, [sp, #148]
	str	xzr, [sp, #120]
	movi.2d	v0, #0000000000000000
	add	x9, sp, #816
	add	x9, x9, #286
	str	q0, [x9]
	stp	q0, q0, [x23, #624]
	stp	q0, q0, [x23, #592]
	stp	q0, q0, [x23, #560]
	stp	q0, q0, [x23, #528]
	stp	q0, q0, [x23, #496]
	stp	q0, q0, [x23, #464]
	stp	q0, q0, [x23, #432]
	stp	q0, q0, [x23, #400]
	str	q0, [x23, #384]
	strh	wzr, [sp, #1196]
	str	wzr, [sp, #1192]
	stp	q0, q0, [x23, #336]
	stp	q0, q0, [x23, #304]
	stp	q0, q0, [x23]
	stp	q0, q0, [x23, #32]
	stp	q0, q0, [x23, #64]
	stp	q0, q0, [x23, #96]
	stp	q0, q0, [x23, #128]
	stp	q0, q0, [x23, #160]
	stp	q0, q0, [x23, #192]
	stp	q0, q0, [x23, #224]
	stp	q0, q0, [x23, #256]
	stur	xzr, [x30, #166]
	stur	q0, [x30, #152]
	stur	q0, [x30, #136]
	stur	q0, [x30, #120]
	str	wzr, [sp, #744]
	strb	wzr, [sp, #748]
	stur	q0, [x30, #40]
	stur	q0, [x30, #56]
	stur	q0, [x30, #72]
	stur	q0, [x30, #88]
	stur	q0, [x30, #8]
	stur	q0, [x30, #24]
	str	wzr, [sp, #632]
	stur	wzr, [x30, #3]
	add	x26, sp, #632
Lnoise_BB26_104:
	ldr	x19, [sp, #64]
	str	x8, [x19]
	add	x0, x19, #8
	add	x1, sp, #1200
	mov	w2, #272
	bl	_memcpy
	stp	x22, x27, [x19, #280]
	stp	x25, x28, [x19, #296]
	strb	w21, [x19, #312]
	strb	w24, [x19, #313]
	add	x8, x19, #314
	ldr	w9, [sp, #1192]
	str	w9, [x8]
	ldrh	w8, [sp, #1196]
	strh	w8, [x19, #318]
	strb	w20, [x19, #320]
	add	x8, x19, #321
	ldp	q0, q1, [x23, #336]
	stp	q0, q1, [x8]
	ldr	w8, [sp, #132]
	strb	w8, [x19, #353]
	add	x8, x19, #354
	ldp	q0, q1, [x23, #304]
	stp	q0, q1, [x8]
	add	x0, x19, #386
	add	x1, sp, #816
	mov	w2, #302
	bl	_memcpy
	str	xzr, [x19, #688]
	ldr	x8, [sp, #136]
	strb	w8, [x19, #696]
	ldr	w8, [sp, #116]
	strb	w8, [x19, #697]
	add	x8, x19, #698
	ldur	q0, [x26, #120]
	ldur	q1, [x26, #136]
	stp	q0, q1, [x8]
	ldur	q0, [x26, #152]
	str	q0, [x8, #32]
	ldur	x8, [x26, #166]
	str	x8, [x19, #744]
	ldr	w8, [sp, #76]
	strh	w8, [x19, #752]
	ldr	x8, [sp, #80]
	strb	w8, [x19, #754]
	add	x8, x19, #755
	ldr	w9, [sp, #744]
	str	w9, [x8]
	ldrb	w8, [sp, #748]
	strb	w8, [x19, #759]
	add	x8, x19, #760
	ldur	q0, [x26, #40]
	ldur	q1, [x26, #56]
	ldur	q2, [x26, #72]
	ldur	q3, [x26, #88]
	stp	q2, q3, [x8, #32]
	stp	q0, q1, [x8]
	ldr	w8, [sp, #148]
	strb	w8, [x19, #824]
	add	x8, x19, #825
	ldur	q0, [x26, #24]
	ldur	q1, [x26, #8]
	stp	q1, q0, [x8]
	add	x8, x19, #857
	ldur	w9, [x26, #3]
	str	w9, [x19, #860]
	ldr	w9, [sp, #632]
	str	w9, [x8]
	ldr	x8, [sp, #120]
	str	x8, [x19, #864]
	add	sp, sp, #3856
	.cfi_def_cfa wsp, 96
	ldp	x29, x30, [sp, #80]
	ldp	x20, x19, [sp, #64]
	ldp	x22, x21, [sp, #48]
	ldp	x24, x23, [sp, #32]
	ldp	x26, x25, [sp, #16]
	ldp	x28, x27, [sp], #96
	.cfi_def_cfa_offset 0
	.cfi_restore w30
	.cfi_restore w29
	.cfi_restore w19
	.cfi_restore w20
	.cfi_restore w21
	.cfi_restore w22
	.cfi_restore w23
	.cfi_restore w24
	.cfi_restore w25
	.cfi_restore w26
	.cfi_restore w27
	.cfi_restore w28
	ret
Lnoise_BB26_105:
	.cfi_restore_state
	movi.2d	v0, #0000000000000000
	stp	q0, q0, [x20, #624]
	stp	q0, q0, [x20, #592]
	stp	q0, q0, [x20, #560]
	stp	q0, q0, [x20, #528]
	stp	q0, q0, [x20, #496]
	stp	q0, q0, [x20, #464]
	stp	q0, q0, [x20, #432]
	stp	q0, q0, [x20, #400]
	stp	q0, q0, [x20, #368]
	cmp	w21, #9
	b.hi	Lnoise_BB26_133
	add	x0, sp, #1920
	ldp	x8, x2, [sp, #16]
	add	x1, x8, #846
	bl	_memcpy
	str	x21, [sp, #2208]
	add	x8, sp, #3408
	add	x8, x8, #286
	movi.2d	v0, #0000000000000000
	str	q0, [x8]
	add	x22, sp, #3344
	stp	q0, q0, [x22, #64]
	stp	q0, q0, [x22, #96]
	stp	q0, q0, [x22, #128]
	stp	q0, q0, [x22, #160]
	stp	q0, q0, [x22, #192]
	stp	q0, q0, [x22, #224]
	stp	q0, q0, [x22, #256]
	stp	q0, q0, [x22, #288]
	stp	q0, q0, [x22, #320]
	stur	xzr, [x22, #46]
	stp	q0, q0, [x22, #16]
	str	q0, [x22]
	str	q0, [x20, #1248]
	str	q0, [x20, #1264]
	str	q0, [x20, #1280]
	str	wzr, [sp, #2792]
	strb	wzr, [sp, #2796]
	str	q0, [x20, #1168]
	str	q0, [x20, #1184]
	str	q0, [x20, #1200]
	str	q0, [x20, #1216]
	add	x21, sp, #2848
	add	x0, sp, #2848
	add	x1, sp, #352
	mov	w2, #272
	bl	_memcpy
	strb	w26, [sp, #3120]
	add	x8, x21, #273
	ldr	w9, [sp, #344]
	str	w9, [x8]
	add	x9, sp, #272
	ldur	w8, [x9, #75]
	str	w8, [sp, #3124]
	ldr	x8, [sp, #8]
	str	x8, [sp, #3128]
	ldr	x8, [sp, #88]
	str	x8, [sp, #3136]
	ldr	x8, [sp, #48]
	str	x8, [sp, #3144]
	ldr	x17, [sp, #104]
	str	x17, [sp, #3152]
	ldr	w8, [sp, #100]
	strb	w8, [sp, #3160]
	add	x8, x21, #313
	ldp	q1, q0, [x9, #32]
	ldr	q2, [x9, #16]
	stp	q1, q0, [x8]
	ldr	w8, [sp, #132]
	strb	w8, [sp, #3193]
	add	x8, x21, #346
	ldr	q0, [sp, #272]
	stp	q0, q2, [x8]
	ldr	x15, [sp, #136]
	strb	w15, [sp, #3226]
	strb	w28, [sp, #3227]
	add	x8, x21, #380
	ldp	q0, q1, [sp, #224]
	stp	q0, q1, [x8, #32]
	ldp	q1, q0, [sp, #192]
	stp	q1, q0, [x8]
	ldr	w8, [sp, #256]
	str	w8, [sp, #3292]
	ldp	w8, w10, [sp, #148]
	strb	w8, [sp, #3296]
	add	x8, x21, #449
	ldp	q0, q1, [sp, #160]
	stp	q0, q1, [x8]
	add	x8, x21, #481
	ldur	w9, [sp, #155]
	str	w10, [x8]
	str	w9, [sp, #3332]
	str	x25, [sp, #3336]
	add	x8, x21, #72
	ldr	x9, [sp, #3112]
	cbz	x9, Lnoise_BB26_113
	mov	x10, #0
	mov	x11, x8
	ldr	w16, [sp, #36]
	b	Lnoise_BB26_109
Lnoise_BB26_108:
	add	x10, x10, #1
	add	x11, x11, #24
	cmp	x10, x9
	b.eq	Lnoise_BB26_132
Lnoise_BB26_109:
	mov	w12, #24
	madd	x12, x10, x12, x8
	ldr	x12, [x12, #16]
	mov	x13, x11
	cbz	x12, Lnoise_BB26_108
Lnoise_BB26_110:
	ldrb	w14, [x13], #1
	cmp	w14, #6
	b.eq	Lnoise_BB26_112
	subs	x12, x12, #1
	b.ne	Lnoise_BB26_110
	b	Lnoise_BB26_108
Lnoise_BB26_112:
	mov	w24, #1
	b	Lnoise_BB26_114
Lnoise_BB26_113:
	mov	w24, #0
	ldr	w16, [sp, #36]
Lnoise_BB26_114:
	movi.2d	v0, #0000000000000000
	stp	q0, q0, [x22, #384]
	str	q0, [x22, #416]
	stur	wzr, [x29, #-216]
	sturb	wzr, [x29, #-212]
	mov	w10, #24
	umaddl	x11, w15, w10, x8
	cmp	x9, x15
	csel	x8, x11, xzr, hi
	b.ls	Lnoise_BB26_123
	ldr	x9, [x11, #16]
	stp	q0, q0, [x22, #448]
	str	q0, [x22, #432]
	cbz	x9, Lnoise_BB26_124
	mov	x12, #0
	mov	w10, #0
	b	Lnoise_BB26_119
Lnoise_BB26_117:
	mov	w13, #0
	orr	w14, w14, w10, lsl #16
	sub	x15, x29, #160
	str	w14, [x15, x12, lsl #2]
	add	x14, x12, #1
	stur	x14, [x29, #-120]
	mov	w16, #1
Lnoise_BB26_118:
	add	w10, w10, w13
	add	x12, x12, #1
	cmp	x9, x12
	b.eq	Lnoise_BB26_125
Lnoise_BB26_119:
	ldrb	w14, [x11, x12]
	sub	w13, w14, #2
	cmp	w13, #5
	b.lo	Lnoise_BB26_117
	cmp	w14, #1
	b.ne	Lnoise_BB26_122
	tst	w16, #0x1
	mov	w13, #32
	mov	w14, #48
	csel	w13, w14, w13, ne
	mov	w14, #8192
	mov	w15, #12288
	csel	w14, w15, w14, ne
	orr	w14, w14, w10, lsl #16
	orr	w14, w14, #0x1
	sub	x15, x29, #160
	str	w14, [x15, x12, lsl #2]
	add	x14, x12, #1
	stur	x14, [x29, #-120]
	b	Lnoise_BB26_118
Lnoise_BB26_122:
	mov	w13, #8192
	orr	w13, w13, w10, lsl #16
	sub	x14, x29, #160
	str	w13, [x14, x12, lsl #2]
	add	x13, x12, #1
	stur	x13, [x29, #-120]
	orr	w16, w24, w16
	mov	w13, #32
	b	Lnoise_BB26_118
Lnoise_BB26_123:
	mov	x21, x26
	str	wzr, [sp, #76]
	str	xzr, [sp, #80]
	b	Lnoise_BB26_130
Lnoise_BB26_124:
	mov	w10, #0
Lnoise_BB26_125:
	mov	x12, #0
Lnoise_BB26_126:
	cbz	x9, Lnoise_BB26_129
	ldrb	w11, [x8], #1
	sub	x9, x9, #1
	cmp	w11, #6
	b.ne	Lnoise_BB26_126
	add	x12, x12, #1
	b	Lnoise_BB26_126
Lnoise_BB26_129:
	str	x12, [sp, #80]
	mov	x21, x26
	tst	w16, #0x1
	mov	w8, #16
	csel	w8, w8, wzr, ne
	add	w8, w10, w8
	str	w8, [sp, #76]
	ldp	q0, q1, [x22, #432]
	stp	q0, q1, [x22, #384]
	ldr	q0, [x22, #464]
	str	q0, [x22, #416]
	stur	wzr, [x29, #-216]
	sturb	wzr, [x29, #-212]
Lnoise_BB26_130:
	ldp	q0, q1, [x22, #384]
	str	q0, [x20, #1248]
	str	q1, [x20, #1264]
	ldr	q0, [x22, #416]
	str	q0, [x20, #1280]
	ldur	w8, [x29, #-216]
	str	w8, [sp, #2792]
	ldurb	w8, [x29, #-212]
	strb	w8, [sp, #2796]
	ldur	q0, [sp, #196]
	ldur	q1, [sp, #212]
	stp	q0, q1, [x22, #432]
	ldur	q2, [sp, #228]
	ldur	q3, [sp, #244]
	stp	q2, q3, [x22, #464]
	str	q3, [x20, #1216]
	str	q2, [x20, #1200]
	str	q1, [x20, #1184]
	add	x8, sp, #3408
	str	q0, [x20, #1168]
	orr	x0, x8, #0x6
	add	x1, sp, #1920
	mov	w2, #296
	bl	_memcpy
	ldr	q0, [x20, #1248]
	stur	q0, [x22, #6]
	ldr	q0, [x20, #1264]
	stur	q0, [x22, #22]
	ldr	q0, [x20, #1280]
	stur	q0, [x22, #38]
	add	x0, sp, #1616
	add	x1, sp, #3408
	mov	w2, #302
	bl	_memcpy
	ldp	q0, q1, [x22]
	stp	q0, q1, [x20]
	ldr	q0, [x22, #32]
	str	q0, [x20, #32]
	ldur	x8, [x22, #46]
	stur	x8, [x20, #46]
	ldr	w8, [sp, #2792]
	str	w8, [sp, #1544]
	ldrb	w8, [sp, #2796]
	strb	w8, [sp, #1548]
	ldr	q0, [x20, #1216]
	ldr	q1, [x20, #1200]
	stp	q1, q0, [x23, #688]
	ldr	q0, [x20, #1184]
	ldr	q1, [x20, #1168]
	stp	q1, q0, [x23, #656]
	add	x0, sp, #1200
	add	x1, sp, #352
	mov	w2, #272
	bl	_memcpy
	str	wzr, [sp, #1192]
	strh	wzr, [sp, #1196]
	add	x8, sp, #272
	ldp	q1, q0, [x8, #32]
	ldr	q2, [x8, #16]
	stp	q1, q0, [x23, #336]
	ldr	q0, [sp, #272]
	stp	q0, q2, [x23, #304]
	add	x0, sp, #816
	add	x1, sp, #1616
	mov	w2, #302
	bl	_memcpy
	ldp	q0, q1, [x20]
	add	x26, sp, #632
	stur	q0, [x26, #120]
	stur	q1, [x26, #136]
	ldr	q0, [x20, #32]
	stur	q0, [x26, #152]
	ldp	q1, q0, [x23, #688]
	stur	q0, [x26, #88]
	stur	q1, [x26, #72]
	ldp	q1, q0, [x23, #656]
	stur	q0, [x26, #56]
	stur	q1, [x26, #40]
	ldp	q0, q1, [sp, #160]
	stur	q0, [x26, #8]
	ldur	x8, [x20, #46]
	stur	x8, [x26, #166]
	ldr	w8, [sp, #1544]
	str	w8, [sp, #744]
	ldrb	w8, [sp, #1548]
	strb	w8, [sp, #748]
	stur	q1, [x26, #24]
	str	wzr, [sp, #632]
	mov	w8, #1
	stur	wzr, [x26, #3]
	ldr	w20, [sp, #100]
	ldr	x27, [sp, #88]
	ldr	x25, [sp, #48]
	ldr	x22, [sp, #8]
	ldr	x28, [sp, #104]
	b	Lnoise_BB26_104
Lnoise_BB26_131:
	mov	w9, #0
	b	Lnoise_BB26_84
Lnoise_BB26_132:
	mov	w24, #0
	b	Lnoise_BB26_114
Lnoise_BB26_133:
	brk	#0x1
	.cfi_endproc

	.p2align	2
"_noise_names::valid::ValidPattern::seen_after":
	.cfi_startproc
	stp	x26, x25, [sp, #-64]!
	.cfi_def_cfa_offset 64
	stp	x24, x23, [sp, #16]
	stp	x22, x21, [sp, #32]
	stp	x20, x19, [sp, #48]
	.cfi_offset w19, -8
	.cfi_offset w20, -16
	.cfi_offset w21, -24
	.cfi_offset w22, -32
	.cfi_offset w23, -40
	.cfi_offset w24, -48
	.cfi_offset w25, -56
	.cfi_offset w26, -64
	ldr	x15, [x1, #48]
	cbz	x15, Lnoise_BB27_10
	mov	w8, #0
	mov	w10, #0
	mov	w9, #0
	mov	w11, #0
	mov	w12, #0
	mov	w14, #0
	mov	w13, #0
	add	x16, x1, #40
	b	Lnoise_BB27_4
Lnoise_BB27_2:
	cmp	w17, #1
	csinc	w3, w10, wzr, ne
	csinc	w4, w9, wzr, eq
	cmp	w17, #0
	csel	w10, w10, w3, eq
	csinc	w8, w8, wzr, ne
	csel	w9, w9, w4, eq
Lnoise_BB27_3:
	subs	x15, x15, #1
	b.eq	Lnoise_BB27_11
Lnoise_BB27_4:
	ldrb	w17, [x16], #1
	cmp	w17, #2
	b.le	Lnoise_BB27_2
	cmp	w17, #4
	b.gt	Lnoise_BB27_7
	cmp	w17, #3
	csinc	w11, w11, wzr, ne
	csinc	w12, w12, wzr, eq
	b	Lnoise_BB27_3
Lnoise_BB27_7:
	cmp	w17, #6
	b.ne	Lnoise_BB27_9
	mov	w13, #1
	b	Lnoise_BB27_3
Lnoise_BB27_9:
	mov	w14, #1
	b	Lnoise_BB27_3
Lnoise_BB27_10:
	mov	w8, #0
	mov	w10, #0
	mov	w9, #0
	mov	w11, #0
	mov	w12, #0
	mov	w14, #0
	mov	w13, #0
Lnoise_BB27_11:
	ldr	x17, [x1, #64]
	cbz	x17, Lnoise_BB27_15
	mov	w15, #0
	mov	w16, #0
	add	x3, x1, #56
Lnoise_BB27_13:
	ldrb	w4, [x3], #1
	cmp	w4, #5
	csinc	w5, w14, wzr, ne
	csinc	w6, w13, wzr, eq
	cmp	w4, #3
	csinc	w7, w11, wzr, ne
	csinc	w19, w12, wzr, eq
	cmp	w4, #4
	csel	w7, w11, w7, gt
	csel	w19, w12, w19, gt
	csel	w5, w5, w14, gt
	csel	w6, w6, w13, gt
	cmp	w4, #1
	csinc	w20, w16, wzr, ne
	csinc	w21, w9, wzr, eq
	cmp	w4, #0
	csel	w20, w16, w20, eq
	csinc	w22, w15, wzr, ne
	csel	w21, w9, w21, eq
	cmp	w4, #2
	csel	w15, w15, w22, gt
	csel	w16, w16, w20, gt
	csel	w9, w9, w21, gt
	csel	w11, w7, w11, gt
	csel	w12, w19, w12, gt
	csel	w14, w5, w14, gt
	csel	w13, w6, w13, gt
	subs	x17, x17, #1
	b.ne	Lnoise_BB27_13
	mov	w17, #0
	cbnz	x2, Lnoise_BB27_16
	b	Lnoise_BB27_31
Lnoise_BB27_15:
	mov	w15, #0
	mov	w16, #0
	mov	w17, #0
	cbz	x2, Lnoise_BB27_31
Lnoise_BB27_16:
	mov	x3, #0
	add	x1, x1, #72
	mov	x4, x1
	b	Lnoise_BB27_18
Lnoise_BB27_17:
	eor	w17, w17, #0x1
	add	x3, x3, #1
	add	x4, x4, #24
	cmp	x3, x2
	b.eq	Lnoise_BB27_31
Lnoise_BB27_18:
	mov	w5, #24
	madd	x5, x3, x5, x1
	ldr	x5, [x5, #16]
	cbz	x5, Lnoise_BB27_17
	cbz	w17, Lnoise_BB27_22
	mov	x6, x4
Lnoise_BB27_21:
	ldrb	w7, [x6], #1
	cmp	w7, #5
	csinc	w19, w14, wzr, ne
	csinc	w20, w13, wzr, eq
	cmp	w7, #3
	csinc	w21, w11, wzr, ne
	csinc	w22, w12, wzr, eq
	cmp	w7, #4
	csel	w21, w11, w21, gt
	csel	w22, w12, w22, gt
	csel	w19, w19, w14, gt
	csel	w20, w20, w13, gt
	cmp	w7, #1
	csinc	w23, w16, wzr, ne
	csinc	w24, w9, wzr, eq
	cmp	w7, #0
	csel	w23, w16, w23, eq
	csinc	w25, w15, wzr, ne
	csel	w24, w9, w24, eq
	cmp	w7, #2
	csel	w15, w15, w25, gt
	csel	w16, w16, w23, gt
	csel	w9, w9, w24, gt
	csel	w11, w21, w11, gt
	csel	w12, w22, w12, gt
	csel	w14, w19, w14, gt
	csel	w13, w20, w13, gt
	subs	x5, x5, #1
	b.ne	Lnoise_BB27_21
	b	Lnoise_BB27_17
Lnoise_BB27_22:
	mov	x6, #0
	b	Lnoise_BB27_25
Lnoise_BB27_23:
	cmp	w7, #1
	csinc	w19, w10, wzr, ne
	csinc	w20, w9, wzr, eq
	cmp	w7, #0
	csel	w10, w10, w19, eq
	csinc	w8, w8, wzr, ne
	csel	w9, w9, w20, eq
Lnoise_BB27_24:
	add	x6, x6, #1
	cmp	x5, x6
	b.eq	Lnoise_BB27_17
Lnoise_BB27_25:
	ldrb	w7, [x4, x6]
	cmp	w7, #2
	b.le	Lnoise_BB27_23
	cmp	w7, #4
	b.gt	Lnoise_BB27_28
	cmp	w7, #3
	csinc	w11, w11, wzr, ne
	csinc	w12, w12, wzr, eq
	b	Lnoise_BB27_24
Lnoise_BB27_28:
	cmp	w7, #6
	b.ne	Lnoise_BB27_30
	mov	w13, #1
	b	Lnoise_BB27_24
Lnoise_BB27_30:
	mov	w14, #1
	b	Lnoise_BB27_24
Lnoise_BB27_31:
	strb	w8, [x0]
	strb	w10, [x0, #1]
	strb	w15, [x0, #2]
	strb	w16, [x0, #3]
	strb	w9, [x0, #4]
	strb	w11, [x0, #5]
	strb	w12, [x0, #6]
	strb	w14, [x0, #7]
	strb	w13, [x0, #8]
	strb	w17, [x0, #9]
	ldp	x20, x19, [sp, #48]
	ldp	x22, x21, [sp, #32]
	ldp	x24, x23, [sp, #16]
	ldp	x26, x25, [sp], #64
	.cfi_def_cfa_offset 0
	.cfi_restore w19
	.cfi_restore w20
	.cfi_restore w21
	.cfi_restore w22
	.cfi_restore w23
	.cfi_restore w24
	.cfi_restore w25
	.cfi_restore w26
	ret
	.cfi_endproc

	.section	__TEXT,__literal16,16byte_literals
	.p2align	4, 0x0
lnoise_CPI28_0:
	.quad	-16
	.quad	-24
lnoise_CPI28_1:
	.quad	0
	.quad	-8
lnoise_CPI28_2:
	.quad	-48
	.quad	-56
lnoise_CPI28_3:
	.quad	-32
	.quad	-40
	.section	__TEXT,__text,regular,pure_instructions
	.p2align	2
"_noise_c::messages::read_next":
	.cfi_startproc
	stp	x28, x27, [sp, #-96]!
	.cfi_def_cfa_offset 96
	stp	x26, x25, [sp, #16]
	stp	x24, x23, [sp, #32]
	stp	x22, x21, [sp, #48]
	stp	x20, x19, [sp, #64]
	stp	x29, x30, [sp, #80]
	add	x29, sp, #80
	.cfi_def_cfa w29, 16
	.cfi_offset w30, -8
	.cfi_offset w29, -16
	.cfi_offset w19, -24
	.cfi_offset w20, -32
	.cfi_offset w21, -40
	.cfi_offset w22, -48
	.cfi_offset w23, -56
	.cfi_offset w24, -64
	.cfi_offset w25, -72
	.cfi_offset w26, -80
	.cfi_offset w27, -88
	.cfi_offset w28, -96
	.cfi_remember_state
	sub	sp, sp, #3216
	mov	x19, x3
	mov	x23, x2
	mov	x22, x1
	mov	x21, x0
	add	x0, sp, #904
	mov	w1, #864
	bl	_bzero
	add	x0, sp, #2048
	mov	w1, #872
	bl	_bzero
	ldr	w8, [x21]
	mov	w9, #257
	movk	w9, #20079, lsl #16
	cmp	w8, w9
	b.ne	Lnoise_BB28_8
	ldrh	w2, [x21, #420]
	cmp	x2, #416
	b.hi	Lnoise_BB28_8
	ldrb	w8, [x21, #846]
	cmp	w8, #8
	b.hi	Lnoise_BB28_8
	ldrb	w8, [x21, #557]
	cmp	w8, #9
	b.hi	Lnoise_BB28_8
	add	x20, sp, #1768
	add	x0, sp, #1768
	add	x1, x21, #4
	bl	"_noise_c::patterns::pattern_of"
	ldrb	w8, [sp, #1768]
	cbnz	w8, Lnoise_BB28_8
	add	x24, sp, #2048
	add	x0, sp, #2048
	add	x2, x20, #8
	mov	x1, x21
	bl	"_noise_c::from_c::restored"
	ldrb	w20, [sp, #2048]
	add	x0, sp, #40
	add	x1, x24, #8
	mov	w2, #864
	bl	_memcpy
	cmp	w20, #1
	b.ne	Lnoise_BB28_8
	add	x0, sp, #904
	add	x1, sp, #40
	mov	w2, #864
	bl	_memcpy
	cmp	x23, #16, lsl #12
	b.lo	Lnoise_BB28_10
	mov	w0, #24
	b	Lnoise_BB28_9
Lnoise_BB28_8:
	mov	w0, #23
Lnoise_BB28_9:
	add	sp, sp, #3216
	.cfi_def_cfa wsp, 96
	ldp	x29, x30, [sp, #80]
	ldp	x20, x19, [sp, #64]
	ldp	x22, x21, [sp, #48]
	ldp	x24, x23, [sp, #32]
	ldp	x26, x25, [sp, #16]
	ldp	x28, x27, [sp], #96
	.cfi_def_cfa_offset 0
	.cfi_restore w30
	.cfi_restore w29
	.cfi_restore w19
	.cfi_restore w20
	.cfi_restore w21
	.cfi_restore w22
	.cfi_restore w23
	.cfi_restore w24
	.cfi_restore w25
	.cfi_restore w26
	.cfi_restore w27
	.cfi_restore w28
	ret
Lnoise_BB28_10:
	.cfi_restore_state
	ldrb	w8, [sp, #1593]
	tbz	w8, #0, Lnoise_BB28_12
	mov	w0, #13
	b	Lnoise_BB28_9
Lnoise_BB28_12:
	ldrb	w8, [sp, #1592]
	ldr	x9, [sp, #1168]
	cmp	x9, x8
	b.ne	Lnoise_BB28_14
	mov	w0, #12
	b	Lnoise_BB28_9
Lnoise_BB28_14:
	ldrb	w9, [sp, #1208]
	cmp	w9, #0
	cset	w9, eq
	eor	w8, w9, w8
	tbz	w8, #0, Lnoise_BB28_16
	mov	w0, #10
	b	Lnoise_BB28_9
Lnoise_BB28_16:
	add	x20, sp, #2928
	add	x26, sp, #2048
	add	x24, sp, #1768
	add	x9, sp, #904
	add	x28, x9, #696
	ldr	x1, [sp, #1640]
	ldr	x8, [sp, #1576]
	ldr	x27, [sp, #1584]
	sub	x25, x8, x27
	add	x0, x9, #696
	str	x1, [sp, #32]
	mov	x2, x25
	bl	"_noise_handshake::layout::psk_after"
	tst	w0, #0xff
	b.eq	Lnoise_BB28_24
	and	w8, w0, #0xff
	stur	xzr, [x29, #-176]
	and	x9, x1, #0xff
	cmp	w8, #1
	sturh	wzr, [x29, #-168]
	csel	x7, x9, xzr, eq
	stur	xzr, [x29, #-216]
	sturb	wzr, [x29, #-208]
	stur	wzr, [x20, #227]
	stur	wzr, [x29, #-144]
	add	x12, sp, #904
	add	x8, x12, x27, lsl #5
	str	xzr, [sp, #3016]
	str	xzr, [sp, #3008]
	str	xzr, [sp, #3024]
	add	x9, sp, #537
	ldur	q0, [x9, #255]
	add	x9, sp, #553
	ldur	q1, [x9, #255]
	stp	q0, q1, [x26, #880]
	add	x9, sp, #569
	ldur	q2, [x9, #255]
	add	x9, sp, #585
	ldur	q3, [x9, #255]
	stp	q2, q3, [x26, #912]
	ldrb	w9, [sp, #1720]
	ldr	x10, [sp, #1760]
	stp	q2, q3, [x26, #32]
	stp	q0, q1, [x26]
	strb	w9, [sp, #2112]
	add	x9, sp, #40
	add	x11, x9, #817
	ldp	q0, q1, [x11]
	stur	q1, [x26, #81]
	stur	q0, [x26, #65]
	str	wzr, [sp, #2148]
	stur	wzr, [x26, #97]
	str	x10, [sp, #2152]
	ldrb	w10, [sp, #1216]
	ldrb	w11, [sp, #1249]
	strb	w10, [sp, #1768]
	add	x10, x9, #313
	ldp	q0, q1, [x10]
	stur	q1, [x24, #17]
	stur	q0, [x24, #1]
	strb	w11, [sp, #1801]
	add	x9, x9, #346
	ldp	q0, q1, [x9]
	stur	q1, [x24, #50]
	stur	q0, [x24, #34]
	stp	x22, x23, [sp]
	add	x0, sp, #3008
	add	x1, sp, #2048
	add	x2, sp, #1768
	add	x3, x12, #272
	add	x4, x8, #384
	mov	x5, x25
	mov	x6, x28
	bl	"_noise_handshake::reader::read_tokens::<#3dfcfe118667ed30>"
	ldrb	w8, [sp, #3008]
	cmp	w8, #0
	cset	w0, ne
	add	x3, sp, #2928
	add	x2, sp, #1768
	cbz	w8, Lnoise_BB28_31
	ldr	x13, [sp, #3016]
	ldrb	w17, [sp, #3024]
	ldrb	w8, [sp, #1208]
	stur	wzr, [x3, #235]
	stur	wzr, [x29, #-136]
	cmp	w17, #2
	b.ne	Lnoise_BB28_85
	movi.2d	v0, #0000000000000000
	ldr	x9, [sp, #32]
	cmp	x13, x9
	b.hs	Lnoise_BB28_37
	add	x1, sp, #2928
	lsl	x9, x13, #2
	ldrb	w15, [x28, x9]
	cbz	w8, Lnoise_BB28_47
	and	w8, w15, #0xfe
	cmp	w8, #4
	b.ne	Lnoise_BB28_54
	ldrb	w14, [sp, #1801]
	ldrb	w8, [sp, #1802]
	ldrb	w9, [sp, #1803]
	ldrb	w10, [sp, #1804]
	add	x3, sp, #1768
	ldur	q1, [x3, #37]
	ldrb	w12, [sp, #1821]
	ldrb	w11, [sp, #1822]
	ldur	w16, [x3, #55]
	stur	w16, [x29, #-192]
	add	x2, sp, #1768
	ldur	w16, [x3, #58]
	stur	w16, [x1, #179]
	cmp	w14, #1
	b.ne	Lnoise_BB28_78
	ldur	w14, [x2, #62]
	b	Lnoise_BB28_56
Lnoise_BB28_24:
	add	x12, sp, #904
	add	x28, x12, #696
	strh	wzr, [sp, #2992]
	movi.2d	v1, #0000000000000000
	stp	q1, q1, [x26, #912]
	stp	q1, q1, [x26, #880]
	movi.2d	v0, #0000000000000000
	str	q0, [sp, #16]
	add	x8, x12, x27, lsl #5
	add	x9, sp, #537
	ldur	q0, [x9, #255]
	add	x9, sp, #553
	ldur	q1, [x9, #255]
	stp	q0, q1, [x20, #80]
	add	x9, sp, #569
	ldur	q2, [x9, #255]
	add	x9, sp, #585
	ldur	q3, [x9, #255]
	stp	q2, q3, [x20, #112]
	ldrb	w9, [sp, #1720]
	ldr	x10, [sp, #1760]
	stp	q2, q3, [x26, #32]
	stp	q0, q1, [x26]
	strb	w9, [sp, #2112]
	add	x9, sp, #40
	add	x11, x9, #817
	ldp	q0, q1, [x11]
	stur	q1, [x26, #81]
	stur	q0, [x26, #65]
	str	wzr, [sp, #2148]
	stur	wzr, [x26, #97]
	str	x10, [sp, #2152]
	ldrb	w10, [sp, #1216]
	ldrb	w11, [sp, #1249]
	strb	w10, [sp, #1768]
	add	x10, x9, #313
	ldp	q0, q1, [x10]
	stur	q1, [x24, #17]
	stur	q0, [x24, #1]
	strb	w11, [sp, #1801]
	add	x9, x9, #346
	ldp	q0, q1, [x9]
	stur	q1, [x24, #50]
	stur	q0, [x24, #34]
	stp	xzr, xzr, [x29, #-216]
	stur	xzr, [x29, #-200]
	stp	x22, x23, [sp]
	sub	x0, x29, #216
	add	x1, sp, #2048
	add	x2, sp, #1768
	add	x3, x12, #272
	add	x4, x8, #384
	add	x6, x12, #696
	mov	x5, x25
	ldr	x20, [sp, #32]
	mov	x7, x20
	bl	"_noise_handshake::reader::read_tokens::<#3dfcfe118667ed30>"
	ldurb	w8, [x29, #-216]
	ldur	x25, [x29, #-208]
	cbz	w8, Lnoise_BB28_32
	mov	w13, #0
	mov	x14, #0
	ldurb	w17, [x29, #-200]
	cmp	w17, #2
	b.ne	Lnoise_BB28_36
	cmp	x25, x20
	b.hs	Lnoise_BB28_36
	ldrb	w8, [sp, #1208]
	lsl	x9, x25, #2
	ldrb	w0, [x28, x9]
	cbz	w8, Lnoise_BB28_42
	and	w8, w0, #0xfe
	cmp	w8, #4
	b.ne	Lnoise_BB28_50
	ldrb	w8, [sp, #1801]
	cmp	w8, #1
	b.ne	Lnoise_BB28_69
	ldrb	w8, [sp, #1802]
	ldrb	w9, [sp, #1803]
	ldrb	w10, [sp, #1804]
	add	x14, sp, #1768
	ldur	q0, [x14, #37]
	str	q0, [sp, #16]
	ldrb	w12, [sp, #1821]
	ldrb	w11, [sp, #1822]
	ldrb	w16, [sp, #1823]
	ldrb	w15, [sp, #1824]
	ldrb	w13, [sp, #1825]
	ldur	x14, [x14, #58]
	b	Lnoise_BB28_52
Lnoise_BB28_31:
	ldrb	w1, [sp, #1801]
	ldrb	w8, [sp, #1802]
	ldrb	w9, [sp, #1803]
	ldrb	w10, [sp, #1804]
	ldur	q0, [x2, #37]
	ldrb	w12, [sp, #1821]
	ldrb	w11, [sp, #1822]
	ldrb	w16, [sp, #1823]
	ldrb	w15, [sp, #1824]
	ldrb	w13, [sp, #1825]
	ldrb	w14, [sp, #1833]
	ldur	w17, [x2, #58]
	stur	w17, [x29, #-144]
	ldur	w17, [x2, #61]
	stur	w17, [x3, #227]
	ldur	w17, [x29, #-144]
	ldur	w2, [x3, #227]
	stur	w2, [x3, #155]
	stur	w17, [x29, #-216]
	sturh	w14, [x3, #159]
	ldur	x14, [x29, #-216]
	b	Lnoise_BB28_83
Lnoise_BB28_32:
	add	x20, sp, #2048
	add	x27, sp, #904
	sub	x23, x23, x25
	stp	xzr, xzr, [x29, #-192]
	ldrb	w8, [sp, #2112]
	cmp	w8, #1
	b.ne	Lnoise_BB28_38
	lsr	x8, x23, #16
	cbnz	x8, Lnoise_BB28_91
	ldr	x8, [sp, #2152]
	cmn	x8, #1
	b.eq	Lnoise_BB28_91
	cmp	x23, #15
	b.hi	Lnoise_BB28_39
	b	Lnoise_BB28_41
Lnoise_BB28_36:
	mov	x15, x13
	mov	x16, x13
	mov	x11, x13
	mov	x12, x13
	mov	x10, x13
	mov	x9, x13
	mov	x8, x13
	mov	x1, x13
	mov	x0, x13
	b	Lnoise_BB28_72
Lnoise_BB28_37:
	mov	w8, #0
	mov	w9, #0
	mov	w10, #0
	mov	w12, #0
	mov	w11, #0
	mov	w14, #0
	mov	w15, #0
	mov	w1, #0
	b	Lnoise_BB28_81
Lnoise_BB28_38:
	lsr	x8, x23, #16
	cbnz	x8, Lnoise_BB28_91
Lnoise_BB28_39:
	add	x24, sp, #2048
	sub	x0, x29, #176
	add	x1, x24, #32
	add	x2, x22, x25
	mov	x3, x23
	bl	"_noise_state::symmetric::hash_of_both"
	sub	x0, x29, #192
	add	x1, x20, #64
	add	x2, x24, #32
	add	x4, x22, x25
	mov	x5, x23
	mov	w3, #32
	bl	"_noise_state::cipher::CipherState::decrypt"
	ldurb	w8, [x29, #-192]
	cbz	w8, Lnoise_BB28_45
	ldurb	w8, [x29, #-191]
	sub	w8, w8, #1
	cmp	w8, #2
	b.hs	Lnoise_BB28_91
Lnoise_BB28_41:
	mov	x14, #0
	mov	w13, #0
	mov	w15, #0
	mov	w16, #0
	mov	w11, #0
	mov	w12, #0
	mov	w10, #0
	mov	w9, #0
	mov	w8, #0
	mov	w1, #0
	mov	w0, #0
	cmp	x23, #15
	cset	w17, hi
	ldr	x25, [sp, #32]
	b	Lnoise_BB28_72
Lnoise_BB28_42:
	mov	w8, #1
	lsl	w8, w8, w0
	mov	w9, #87
	tst	w8, w9
	b.eq	Lnoise_BB28_65
	ldrb	w8, [sp, #1768]
	cmp	w8, #1
	b.ne	Lnoise_BB28_69
	ldrb	w8, [sp, #1769]
	ldrb	w9, [sp, #1770]
	ldrb	w10, [sp, #1771]
	add	x14, sp, #1768
	ldur	q0, [x14, #4]
	str	q0, [sp, #16]
	ldrb	w12, [sp, #1788]
	ldrb	w11, [sp, #1789]
	ldrb	w16, [sp, #1790]
	ldrb	w15, [sp, #1791]
	ldrb	w13, [sp, #1792]
	ldur	x14, [x14, #25]
	b	Lnoise_BB28_67
Lnoise_BB28_45:
	add	x11, sp, #1768
	orr	x8, x11, #0x1
	ldur	x20, [x29, #-184]
	add	x10, sp, #2928
	ldp	q0, q1, [x10, #192]
	stp	q0, q1, [x24, #32]
	ldrb	w9, [sp, #1768]
	strb	w9, [sp, #2928]
	ldp	q0, q1, [x8]
	stur	q0, [x10, #1]
	stur	q1, [x10, #17]
	ldrb	w8, [sp, #1801]
	strb	w8, [sp, #2961]
	ldur	q0, [x11, #34]
	ldur	q1, [x11, #50]
	stur	q1, [x10, #50]
	stur	q0, [x10, #34]
	add	x0, sp, #904
	add	x1, sp, #2048
	add	x2, sp, #2928
	bl	"_noise_handshake::handshake::Handshake::go_on::<#9bbb2dae5a99aff0>"
	stp	x25, x20, [x19]
	ldr	w9, [sp, #1576]
	ldr	w11, [sp, #1584]
	ldrb	w14, [sp, #1216]
	ldrb	w10, [sp, #1249]
	cmp	w14, #1
	b.ne	Lnoise_BB28_57
	add	x8, x27, #313
	ldp	q0, q1, [x8]
	add	x8, sp, #2928
	stp	q0, q1, [x8, #240]
	b	Lnoise_BB28_58
Lnoise_BB28_47:
	mov	w8, #1
	lsl	w8, w8, w15
	mov	w9, #87
	tst	w8, w9
	b.eq	Lnoise_BB28_74
	ldrb	w14, [sp, #1768]
	ldrb	w8, [sp, #1769]
	ldrb	w9, [sp, #1770]
	ldrb	w10, [sp, #1771]
	add	x3, sp, #1768
	ldur	q1, [x3, #4]
	ldrb	w12, [sp, #1788]
	ldrb	w11, [sp, #1789]
	ldur	w16, [x3, #22]
	stur	w16, [x29, #-192]
	add	x2, sp, #1768
	ldur	w16, [x3, #25]
	stur	w16, [x1, #179]
	cmp	w14, #1
	b.ne	Lnoise_BB28_78
	ldur	w14, [x2, #29]
	b	Lnoise_BB28_76
Lnoise_BB28_50:
	ldrb	w8, [sp, #1768]
	cmp	w8, #1
	b.ne	Lnoise_BB28_69
	ldrb	w8, [sp, #1769]
	ldrb	w9, [sp, #1770]
	ldrb	w10, [sp, #1771]
	add	x14, sp, #1768
	ldur	q0, [x14, #4]
	str	q0, [sp, #16]
	ldrb	w12, [sp, #1788]
	ldrb	w11, [sp, #1789]
	ldrb	w16, [sp, #1790]
	ldrb	w15, [sp, #1791]
	ldrb	w13, [sp, #1792]
	ldur	x14, [x14, #25]
Lnoise_BB28_52:
	mov	w1, #1
	mov	w17, #2
	lsl	w0, w1, w0
	mov	w2, #87
	tst	w0, w2
	b.ne	Lnoise_BB28_70
	mov	w0, #1
	b	Lnoise_BB28_72
Lnoise_BB28_54:
	ldrb	w14, [sp, #1768]
	ldrb	w8, [sp, #1769]
	ldrb	w9, [sp, #1770]
	ldrb	w10, [sp, #1771]
	add	x3, sp, #1768
	ldur	q1, [x3, #4]
	ldrb	w12, [sp, #1788]
	ldrb	w11, [sp, #1789]
	ldur	w16, [x3, #22]
	stur	w16, [x29, #-192]
	add	x2, sp, #1768
	ldur	w16, [x3, #25]
	stur	w16, [x1, #179]
	cmp	w14, #1
	b.ne	Lnoise_BB28_78
	ldur	w14, [x2, #29]
Lnoise_BB28_56:
	mov	w1, #1
	lsl	w15, w1, w15
	mov	w16, #87
	tst	w15, w16
	b.ne	Lnoise_BB28_79
	b	Lnoise_BB28_80
Lnoise_BB28_57:
	movi.2d	v0, #0000000000000000
	add	x8, sp, #2928
	stp	q0, q0, [x8, #240]
Lnoise_BB28_58:
	ldrb	w8, [sp, #1720]
	sub	w11, w9, w11
	ldrb	w12, [sp, #1592]
	ldrb	w13, [sp, #1593]
	ldr	x9, [sp, #1760]
	strb	w14, [x21, #491]
	add	x14, x21, #492
	add	x15, sp, #2928
	ldp	q0, q1, [x15, #240]
	stp	q0, q1, [x14]
	cmp	w10, #1
	b.ne	Lnoise_BB28_60
	add	x14, x27, #346
	ldp	q0, q1, [x14]
	stp	q0, q1, [x26]
	b	Lnoise_BB28_61
Lnoise_BB28_60:
	movi.2d	v0, #0000000000000000
	stp	q0, q0, [x26]
Lnoise_BB28_61:
	ldp	q0, q1, [x26]
	add	x14, sp, #2928
	stp	q0, q1, [x14, #240]
	strb	w10, [x21, #524]
	add	x10, x21, #525
	stp	q0, q1, [x10]
	strb	w11, [x21, #557]
	strb	w12, [x21, #424]
	strb	w13, [x21, #423]
	add	x10, x21, #1367
	add	x12, sp, #904
	ldp	q0, q1, [x12, #752]
	stp	q0, q1, [x10]
	add	x10, x21, #1399
	ldp	q0, q1, [x12, #784]
	add	x11, sp, #904
	stp	q0, q1, [x10]
	cmp	w8, #1
	b.ne	Lnoise_BB28_63
	add	x10, x11, #817
	ldp	q0, q1, [x10]
	stp	q0, q1, [x26]
	b	Lnoise_BB28_64
Lnoise_BB28_63:
	movi.2d	v0, #0000000000000000
	stp	q0, q0, [x26]
Lnoise_BB28_64:
	mov	w0, #0
	ldp	q0, q1, [x26]
	add	x10, sp, #2928
	stp	q0, q1, [x10, #240]
	strb	w8, [x21, #1431]
	add	x8, x21, #1432
	stp	q0, q1, [x8]
	str	x9, [x21, #1464]
	b	Lnoise_BB28_9
Lnoise_BB28_65:
	ldrb	w8, [sp, #1801]
	cmp	w8, #1
	b.ne	Lnoise_BB28_69
	ldrb	w8, [sp, #1802]
	ldrb	w9, [sp, #1803]
	ldrb	w10, [sp, #1804]
	add	x14, sp, #1768
	ldur	q0, [x14, #37]
	str	q0, [sp, #16]
	ldrb	w12, [sp, #1821]
	ldrb	w11, [sp, #1822]
	ldrb	w16, [sp, #1823]
	ldrb	w15, [sp, #1824]
	ldrb	w13, [sp, #1825]
	ldur	x14, [x14, #58]
Lnoise_BB28_67:
	and	w17, w0, #0xfe
	cmp	w17, #4
	b.ne	Lnoise_BB28_70
	mov	w1, #1
	mov	w17, #2
	mov	w0, #1
	b	Lnoise_BB28_72
Lnoise_BB28_69:
	mov	x14, #0
	mov	w13, #0
	mov	w15, #0
	mov	w16, #0
	mov	w11, #0
	mov	w12, #0
	mov	w10, #0
	mov	w9, #0
	mov	w8, #0
	mov	w1, #0
	mov	w0, #0
	b	Lnoise_BB28_71
Lnoise_BB28_70:
	mov	w1, #0
	mov	w0, #1
Lnoise_BB28_71:
	mov	w17, #2
Lnoise_BB28_72:
	tbz	w0, #0, Lnoise_BB28_86
	ldr	q1, [sp, #16]
	dup.2d	v0, v1[1]
	dup.2d	v1, v1[0]
Lnoise_loh90:
	adrp	x17, lnoise_CPI28_0@PAGE
Lnoise_loh91:
	ldr	q2, [x17, lnoise_CPI28_0@PAGEOFF]
	ushl.2d	v3, v1, v2
Lnoise_loh92:
	adrp	x17, lnoise_CPI28_1@PAGE
Lnoise_loh93:
	ldr	q4, [x17, lnoise_CPI28_1@PAGEOFF]
	ushl.2d	v5, v1, v4
Lnoise_loh94:
	adrp	x17, lnoise_CPI28_2@PAGE
Lnoise_loh95:
	ldr	q6, [x17, lnoise_CPI28_2@PAGEOFF]
	ushl.2d	v7, v1, v6
Lnoise_loh96:
	adrp	x17, lnoise_CPI28_3@PAGE
Lnoise_loh97:
	ldr	q16, [x17, lnoise_CPI28_3@PAGEOFF]
	ushl.2d	v1, v1, v16
	ushl.2d	v2, v0, v2
	ushl.2d	v4, v0, v4
	ushl.2d	v6, v0, v6
	ushl.2d	v0, v0, v16
	uzp1.4s	v0, v0, v6
	uzp1.4s	v2, v4, v2
	uzp1.8h	v0, v2, v0
	uzp1.4s	v1, v1, v7
	uzp1.4s	v2, v5, v3
	uzp1.8h	v1, v2, v1
	uzp1.16b	v0, v1, v0
	mov	w0, #1
	b	Lnoise_BB28_83
Lnoise_BB28_74:
	ldrb	w14, [sp, #1801]
	ldrb	w8, [sp, #1802]
	ldrb	w9, [sp, #1803]
	ldrb	w10, [sp, #1804]
	add	x3, sp, #1768
	ldur	q1, [x3, #37]
	ldrb	w12, [sp, #1821]
	ldrb	w11, [sp, #1822]
	ldur	w16, [x3, #55]
	stur	w16, [x29, #-192]
	add	x2, sp, #1768
	ldur	w16, [x3, #58]
	stur	w16, [x1, #179]
	cmp	w14, #1
	b.ne	Lnoise_BB28_78
	ldur	w14, [x2, #62]
Lnoise_BB28_76:
	and	w15, w15, #0xfe
	cmp	w15, #4
	b.ne	Lnoise_BB28_79
	mov	w1, #1
	b	Lnoise_BB28_80
Lnoise_BB28_78:
	mov	w8, #0
	mov	w9, #0
	mov	w10, #0
	mov	w12, #0
	mov	w11, #0
	mov	w14, #0
	mov	w15, #0
	mov	w1, #0
	add	x3, sp, #2928
	stur	wzr, [x3, #235]
	stur	wzr, [x29, #-136]
	b	Lnoise_BB28_81
Lnoise_BB28_79:
	mov	w1, #0
Lnoise_BB28_80:
	ldur	w15, [x29, #-192]
	stur	w15, [x29, #-136]
	add	x3, sp, #2928
	ldur	w15, [x3, #179]
	stur	w15, [x3, #235]
	mov	w15, #1
	mov.16b	v0, v1
Lnoise_BB28_81:
	ldur	w16, [x29, #-136]
	stur	w16, [x29, #-144]
	ldur	w16, [x3, #235]
	stur	w16, [x3, #227]
	ldur	w16, [x29, #-144]
	stur	w16, [x29, #-216]
	ldur	w16, [x3, #227]
	stur	w16, [x3, #155]
	sturh	w14, [x3, #159]
	cbz	w15, Lnoise_BB28_85
	ldur	x15, [x3, #153]
	ldurb	w16, [x29, #-216]
	lsr	w13, w14, #16
	stur	x15, [x29, #-176]
	sturh	w13, [x29, #-168]
	lsr	x13, x15, #8
	ldur	x14, [x3, #194]
Lnoise_BB28_83:
	ext.16b	v1, v0, v0, #1
	umov.b	w17, v0[15]
	lsl	x17, x17, #48
	orr	x12, x17, x12, lsl #56
	umov.b	w17, v0[14]
	orr	x12, x12, x17, lsl #40
	umov.b	w17, v0[13]
	orr	x12, x12, x17, lsl #32
	umov.b	w17, v0[12]
	lsl	w17, w17, #24
	orr	x17, x12, x17
	umov.b	w2, v0[11]
	umov.b	w3, v0[10]
	fmov	x12, d1
	bfi	x17, x2, #16, #8
	umov.b	w2, v0[9]
	bfi	x17, x3, #8, #8
	orr	x17, x17, x2
	cbz	w0, Lnoise_BB28_87
	strb	w1, [x19, #17]
	strb	w8, [x19, #18]
	strb	w9, [x19, #19]
	strb	w10, [x19, #20]
	stur	b0, [x19, #21]
	stur	x12, [x19, #22]
	stur	x17, [x19, #30]
	strb	w11, [x19, #38]
	strb	w16, [x19, #39]
	strb	w15, [x19, #40]
	strb	w13, [x19, #41]
	mov	w0, #20
	stur	x14, [x19, #42]
	b	Lnoise_BB28_9
Lnoise_BB28_85:
	mov	x25, x13
Lnoise_BB28_86:
Lnoise_loh98:
	adrp	x8, "l_switch.table.noise_c::messages::read_next"@PAGE
Lnoise_loh99:
	add	x8, x8, "l_switch.table.noise_c::messages::read_next"@PAGEOFF
	ldr	w0, [x8, w17, uxtw #2]
	strb	w25, [x19, #16]
	b	Lnoise_BB28_9
Lnoise_BB28_87:
	cmp	w1, #1
	b.ne	Lnoise_BB28_89
	umov.b	w0, v0[0]
	b	Lnoise_BB28_90
Lnoise_BB28_89:
	mov	x14, #0
	mov	w13, #0
	mov	w15, #0
	mov	w16, #0
	mov	w11, #0
	mov	x17, #0
	mov	x12, #0
	mov	w0, #0
	mov	w10, #0
	mov	w9, #0
	mov	w8, #0
Lnoise_BB28_90:
	strb	w8, [x19, #18]
	strb	w9, [x19, #19]
	strb	w10, [x19, #20]
	strb	w0, [x19, #21]
	stur	x12, [x19, #22]
	stur	x17, [x19, #30]
	strb	w11, [x19, #38]
	strb	w16, [x19, #39]
	strb	w15, [x19, #40]
	strb	w13, [x19, #41]
	stur	x14, [x19, #42]
	mov	w0, #40
	strb	w1, [x19, #50]
	b	Lnoise_BB28_9
Lnoise_BB28_91:
	brk	#0x1
	.loh AdrpLdr	Lnoise_loh96, Lnoise_loh97
	.loh AdrpAdrp	Lnoise_loh94, Lnoise_loh96
	.loh AdrpLdr	Lnoise_loh94, Lnoise_loh95
	.loh AdrpAdrp	Lnoise_loh92, Lnoise_loh94
	.loh AdrpLdr	Lnoise_loh92, Lnoise_loh93
	.loh AdrpAdrp	Lnoise_loh90, Lnoise_loh92
	.loh AdrpLdr	Lnoise_loh90, Lnoise_loh91
	.loh AdrpAdd	Lnoise_loh98, Lnoise_loh99
	.cfi_endproc

	.p2align	2
"_noise_handshake::layout::psk_after":
	.cfi_startproc
	stp	x29, x30, [sp, #-16]!
	.cfi_def_cfa_offset 16
	mov	x29, sp
	.cfi_def_cfa w29, 16
	.cfi_offset w30, -8
	.cfi_offset w29, -16
	cbz	x1, Lnoise_BB29_5
	ldrb	w8, [x0], #4
	sub	x1, x1, #1
	cmp	w8, #6
	b.ne	Lnoise_BB29_4
	cbz	x2, Lnoise_BB29_6
	sub	x2, x2, #1
Lnoise_BB29_4:
	bl	"_noise_handshake::layout::psk_after"
	tst	w0, #0x1
	csinc	x1, xzr, x1, eq
	b	Lnoise_BB29_7
Lnoise_BB29_5:
	mov	w0, #0
	b	Lnoise_BB29_7
Lnoise_BB29_6:
	mov	x1, #0
	mov	w0, #1
Lnoise_BB29_7:
	.cfi_def_cfa wsp, 16
	ldp	x29, x30, [sp], #16
	.cfi_def_cfa_offset 0
	.cfi_restore w30
	.cfi_restore w29
	ret
	.cfi_endproc

	.section	__TEXT,__literal16,16byte_literals
	.p2align	4, 0x0
lnoise_CPI30_0:
	.quad	1
	.quad	0
	.section	__TEXT,__text,regular,pure_instructions
	.p2align	2
"_noise_handshake::reader::read_tokens::<#3dfcfe118667ed30>":
	.cfi_startproc
	stp	x28, x27, [sp, #-96]!
	.cfi_def_cfa_offset 96
	stp	x26, x25, [sp, #16]
	stp	x24, x23, [sp, #32]
	stp	x22, x21, [sp, #48]
	stp	x20, x19, [sp, #64]
	stp	x29, x30, [sp, #80]
	add	x29, sp, #80
	.cfi_def_cfa w29, 16
	.cfi_offset w30, -8
	.cfi_offset w29, -16
	.cfi_offset w19, -24
	.cfi_offset w20, -32
	.cfi_offset w21, -40
	.cfi_offset w22, -48
	.cfi_offset w23, -56
	.cfi_offset w24, -64
	.cfi_offset w25, -72
	.cfi_offset w26, -80
	.cfi_offset w27, -88
	.cfi_offset w28, -96
	.cfi_remember_state
	sub	sp, sp, #624
	mov	x19, x0
	stur	wzr, [sp, #91]
	str	wzr, [sp, #88]
	stp	xzr, xzr, [sp, #72]
	str	xzr, [sp, #64]
	str	wzr, [sp, #56]
	stur	wzr, [sp, #59]
	str	wzr, [sp, #48]
	stur	wzr, [sp, #51]
	cbz	x7, Lnoise_BB30_7
	ldp	x22, x23, [x29, #16]
	ldr	w28, [x6]
	and	w8, w28, #0xff
	cmp	w8, #1
	b.le	Lnoise_BB30_8
	sub	w9, w8, #2
	cmp	w9, #4
	b.hs	Lnoise_BB30_20
	ldrb	w9, [x3, #32]
	cbz	w9, Lnoise_BB30_11
	and	w8, w8, #0xfe
	cmp	w8, #4
	b.ne	Lnoise_BB30_15
	ldrb	w8, [x2, #33]
	cmp	w8, #1
	b.ne	Lnoise_BB30_30
	mov	x20, x1
	ldur	q0, [x2, #34]
	ldur	q1, [x2, #50]
	b	Lnoise_BB30_17
Lnoise_BB30_7:
	stp	xzr, xzr, [x19]
	str	xzr, [x19, #16]
	b	Lnoise_BB30_35
Lnoise_BB30_8:
	ldrh	w9, [x6, #2]
	add	x21, x22, x9
	sub	x9, x23, x9
	cbnz	w8, Lnoise_BB30_18
	mov	w24, #1
	cmp	x9, #32
	b.hs	Lnoise_BB30_36
	mov	x20, #0
	cbnz	w24, Lnoise_BB30_37
	b	Lnoise_BB30_28
Lnoise_BB30_11:
	cmp	w8, #3
	b.gt	Lnoise_BB30_21
	cmp	w8, #2
	b.eq	Lnoise_BB30_22
Lnoise_BB30_13:
	ldrb	w9, [x2, #33]
	cmp	w9, #1
	b.ne	Lnoise_BB30_30
	mov	x20, x1
	ldur	q0, [x2, #34]
	ldur	q1, [x2, #50]
	b	Lnoise_BB30_24
Lnoise_BB30_15:
	ldrb	w8, [x2]
	cmp	w8, #1
	b.ne	Lnoise_BB30_30
	mov	x20, x1
	ldur	q0, [x2, #1]
	ldur	q1, [x2, #17]
Lnoise_BB30_17:
	stp	q0, q1, [x29, #-160]
	str	x22, [sp, #40]
	mov	x24, x7
	mov	x21, x5
	mov	x27, x4
	mov	x25, x2
	mov	x26, x6
	lsl	w8, w28, #3
	add	w8, w8, #2032
	and	w8, w8, #0x7f8
	mov	w9, #16777472
	lsr	w8, w9, w8
	b	Lnoise_BB30_25
Lnoise_BB30_18:
	ubfx	x20, x28, #8, #8
	cmp	x9, x20
	b.hs	Lnoise_BB30_38
	mov	w8, #0
	mov	x20, #0
	mov	w9, #1
	cbnz	w9, Lnoise_BB30_31
	b	Lnoise_BB30_28
Lnoise_BB30_20:
	mov	x24, x7
	mov	x21, x5
	mov	x25, x2
	mov	x26, x6
	mov	x28, x3
	mov	x0, x1
	mov	x20, x1
	mov	x27, x4
	mov	x1, x4
	bl	"_noise_state::symmetric::SymmetricState::mix_key_and_hash"
	mov	x1, x20
	b	Lnoise_BB30_27
Lnoise_BB30_21:
	cmp	w8, #4
	b.ne	Lnoise_BB30_13
Lnoise_BB30_22:
	ldrb	w9, [x2]
	cmp	w9, #1
	b.ne	Lnoise_BB30_30
	mov	x20, x1
	ldur	q0, [x2, #1]
	ldur	q1, [x2, #17]
Lnoise_BB30_24:
	stp	q0, q1, [x29, #-160]
	str	x22, [sp, #40]
	mov	x24, x7
	mov	x21, x5
	mov	x27, x4
	mov	x25, x2
	mov	x26, x6
	and	w8, w8, #0xfe
	cmp	w8, #4
	cset	w8, eq
Lnoise_BB30_25:
	add	x22, sp, #176
	ldp	x1, x2, [x3, #16]
	mov	x28, x3
	add	x0, sp, #176
	sub	x4, x29, #160
	mov	x3, x8
	bl	"_noise_c::supplied_keys::result_for"
	ldrb	w8, [sp, #176]
	ldur	q0, [x22, #1]
	ldur	q1, [x22, #17]
	stp	q0, q1, [sp, #96]
	cmp	w8, #1
	b.ne	Lnoise_BB30_30
	ldp	q0, q1, [sp, #96]
	stp	q0, q1, [sp, #128]
	add	x8, sp, #128
	mov	w22, #32
	stp	x8, x22, [sp, #160]
	movi.2d	v0, #0000000000000000
	stp	q0, q0, [sp, #384]
	add	x0, sp, #176
	mov	x1, x20
	bl	"_noise_kdf::keyed::Hmac::new"
	add	x0, sp, #384
	add	x1, sp, #176
	add	x2, sp, #160
	mov	w3, #1
	bl	"_noise_kdf::keyed::Hmac::code"
	add	x0, sp, #176
	add	x1, sp, #384
	bl	"_noise_kdf::keyed::Hmac::new"
	movi.2d	v0, #0000000000000000
	stp	q0, q0, [x29, #-224]
	stp	q0, q0, [x29, #-256]
Lnoise_loh100:
	adrp	x2, lnoise__static.102@PAGE
Lnoise_loh101:
	add	x2, x2, lnoise__static.102@PAGEOFF
	sub	x0, x29, #256
	add	x1, sp, #176
	mov	w3, #1
	bl	"_noise_kdf::keyed::Hmac::code"
	ldp	q0, q1, [x29, #-256]
	stp	q0, q1, [x29, #-192]
	sub	x8, x29, #192
	stp	x8, x22, [sp, #416]
Lnoise_loh102:
	adrp	x8, lnoise__static.103@PAGE
Lnoise_loh103:
	add	x8, x8, lnoise__static.103@PAGEOFF
	str	x8, [sp, #432]
	mov	w8, #1
	str	x8, [sp, #440]
	mov	w22, #1
	sub	x0, x29, #224
	add	x1, sp, #176
	add	x2, sp, #416
	mov	w3, #2
	bl	"_noise_kdf::keyed::Hmac::code"
	mov	x1, x20
	ldp	q1, q0, [x29, #-192]
	stp	q1, q0, [x29, #-160]
	ldp	q2, q3, [x29, #-224]
	stp	q2, q3, [x29, #-128]
	stp	q1, q0, [x20]
	strb	w22, [x20, #64]
	ldp	q0, q1, [x29, #-128]
	stur	q0, [x20, #65]
	stur	q1, [x20, #81]
	str	xzr, [x20, #104]
	ldr	x22, [sp, #40]
Lnoise_BB30_27:
	mov	x20, #0
	mov	x3, x28
	mov	x6, x26
	mov	x2, x25
	mov	x4, x27
	mov	x5, x21
	mov	x7, x24
Lnoise_BB30_28:
	sub	x7, x7, #1
	ldrb	w8, [x6], #4
	cmp	w8, #6
	cset	w8, eq
	mov	w9, #32
	csel	x9, x9, xzr, eq
	sub	x5, x5, x8
	stp	x22, x23, [sp]
	add	x0, sp, #64
	add	x4, x4, x9
	bl	"_noise_handshake::reader::read_tokens::<#3dfcfe118667ed30>"
	ldrb	w8, [sp, #64]
	ldr	x9, [sp, #72]
	cbz	x8, Lnoise_BB30_32
	ldrb	w10, [sp, #80]
	ldr	w11, [sp, #48]
	str	w11, [sp, #56]
	ldur	w11, [sp, #51]
	stur	w11, [sp, #59]
	mov	w20, #1
	b	Lnoise_BB30_33
Lnoise_BB30_30:
	mov	w8, #2
Lnoise_BB30_31:
Lnoise_loh104:
	adrp	x9, lnoise_CPI30_0@PAGE
Lnoise_loh105:
	ldr	q0, [x9, lnoise_CPI30_0@PAGEOFF]
	str	q0, [x19]
	strb	w8, [x19, #16]
	ldr	w8, [sp, #88]
	stur	w8, [x19, #17]
	ldur	w8, [sp, #91]
	b	Lnoise_BB30_34
Lnoise_BB30_32:
	mov	w10, #0
Lnoise_BB30_33:
	add	x9, x9, x20
	stp	x8, x9, [x19]
	strb	w10, [x19, #16]
	ldr	w8, [sp, #56]
	stur	w8, [x19, #17]
	ldur	w8, [sp, #59]
Lnoise_BB30_34:
	str	w8, [x19, #20]
Lnoise_BB30_35:
	add	sp, sp, #624
	.cfi_def_cfa wsp, 96
	ldp	x29, x30, [sp, #80]
	ldp	x20, x19, [sp, #64]
	ldp	x22, x21, [sp, #48]
	ldp	x24, x23, [sp, #32]
	ldp	x26, x25, [sp, #16]
	ldp	x28, x27, [sp], #96
	.cfi_def_cfa_offset 0
	.cfi_restore w30
	.cfi_restore w29
	.cfi_restore w19
	.cfi_restore w20
	.cfi_restore w21
	.cfi_restore w22
	.cfi_restore w23
	.cfi_restore w24
	.cfi_restore w25
	.cfi_restore w26
	.cfi_restore w27
	.cfi_restore w28
	ret
Lnoise_BB30_36:
	.cfi_restore_state
	ldrb	w8, [x3, #33]
	mov	x0, x1
	mov	x20, x1
	mov	x1, x8
	mov	x25, x2
	mov	x2, x21
	mov	x26, x3
	stp	x23, x22, [sp, #32]
	mov	x22, x6
	mov	x27, x4
	mov	x23, x5
	mov	x28, x7
	bl	"_noise_handshake::tokens::mix_ephemeral"
	mov	x7, x28
	mov	x5, x23
	mov	x4, x27
	mov	x1, x20
	mov	x2, x25
	mov	x6, x22
	ldp	x23, x22, [sp, #32]
	mov	x3, x26
	ldp	q0, q1, [x21]
	stp	q0, q1, [sp, #176]
	strb	w24, [x25]
	stur	q0, [x25, #1]
	stur	q1, [x25, #17]
	mov	w20, #32
	mov	w24, #0
	cbz	w24, Lnoise_BB30_28
Lnoise_BB30_37:
	mov	w8, #0
	b	Lnoise_BB30_31
Lnoise_BB30_38:
	stp	x4, x7, [sp, #32]
	str	x5, [sp, #24]
	mov	x25, x2
	mov	x27, x6
	mov	x24, x3
	movi.2d	v0, #0000000000000000
	stp	q0, q0, [sp, #192]
	str	q0, [sp, #176]
	add	x0, sp, #176
	mov	x26, x1
	mov	x1, x21
	mov	x2, x20
	bl	_memcpy
	mov	x1, x26
	stp	xzr, xzr, [x29, #-192]
	mov	x21, x26
	ldrb	w8, [x21, #64]!
	cmp	w8, #1
	b.ne	Lnoise_BB30_41
	ldr	x8, [x1, #104]
	cmn	x8, #1
	b.eq	Lnoise_BB30_46
	tst	w28, #0xf000
	b.eq	Lnoise_BB30_45
Lnoise_BB30_41:
	mov	x28, x22
	sub	x0, x29, #160
	mov	x22, x1
	add	x1, x1, #32
	add	x2, sp, #176
	mov	x3, x20
	bl	"_noise_state::symmetric::hash_of_both"
	sub	x0, x29, #192
	add	x2, x22, #32
	add	x4, sp, #176
	mov	x1, x21
	mov	w3, #32
	mov	x5, x20
	bl	"_noise_state::cipher::CipherState::decrypt"
	ldurb	w8, [x29, #-192]
	cbz	w8, Lnoise_BB30_44
	ldurb	w8, [x29, #-191]
	sub	w8, w8, #1
	cmp	w8, #2
	ldp	x5, x4, [sp, #24]
	ldr	x7, [sp, #40]
	b.hs	Lnoise_BB30_46
	mov	x3, x24
	mov	x6, x27
	mov	x2, x25
	mov	x22, x28
	mov	x20, #0
	mov	w9, #1
	mov	w8, #1
	mov	x1, x26
	cbnz	w9, Lnoise_BB30_31
	b	Lnoise_BB30_28
Lnoise_BB30_44:
	ldp	q0, q1, [x29, #-160]
	mov	x1, x26
	stp	q0, q1, [x26, #32]
	mov	w10, #1
	mov	x2, x25
	strb	w10, [x25, #33]
	ldp	q0, q1, [sp, #176]
	stur	q0, [x25, #34]
	stur	q1, [x25, #50]
	mov	x3, x24
	mov	x6, x27
	ldp	x5, x4, [sp, #24]
	ldr	x7, [sp, #40]
	mov	x22, x28
	b	Lnoise_BB30_28
Lnoise_BB30_45:
	mov	x20, #0
	mov	w9, #1
	mov	w8, #1
	mov	x3, x24
	mov	x6, x27
	mov	x2, x25
	ldp	x5, x4, [sp, #24]
	ldr	x7, [sp, #40]
	cbnz	w9, Lnoise_BB30_31
	b	Lnoise_BB30_28
Lnoise_BB30_46:
	brk	#0x1
	.loh AdrpAdd	Lnoise_loh102, Lnoise_loh103
	.loh AdrpAdd	Lnoise_loh100, Lnoise_loh101
	.loh AdrpLdr	Lnoise_loh104, Lnoise_loh105
	.cfi_endproc

	.p2align	2
"_noise_handshake::tokens::mix_ephemeral":
	.cfi_startproc
	sub	sp, sp, #496
	.cfi_def_cfa_offset 496
	stp	x22, x21, [sp, #448]
	stp	x20, x19, [sp, #464]
	stp	x29, x30, [sp, #480]
	add	x29, sp, #480
	.cfi_def_cfa w29, 16
	.cfi_offset w30, -8
	.cfi_offset w29, -16
	.cfi_offset w19, -24
	.cfi_offset w20, -32
	.cfi_offset w21, -40
	.cfi_offset w22, -48
	mov	x20, x2
	mov	x21, x1
	mov	x19, x0
	add	x0, sp, #16
	add	x1, x19, #32
	mov	w3, #32
	bl	"_noise_state::symmetric::hash_of_both"
	ldp	q0, q1, [sp, #16]
	stp	q0, q1, [x19, #32]
	cbz	w21, Lnoise_BB31_2
	mov	w21, #32
	stp	x20, x21, [sp]
	movi.2d	v0, #0000000000000000
	stp	q0, q0, [sp, #224]
	add	x0, sp, #16
	mov	x1, x19
	bl	"_noise_kdf::keyed::Hmac::new"
	mov	w20, #1
	add	x0, sp, #224
	add	x1, sp, #16
	mov	x2, sp
	mov	w3, #1
	bl	"_noise_kdf::keyed::Hmac::code"
	add	x0, sp, #16
	add	x1, sp, #224
	bl	"_noise_kdf::keyed::Hmac::new"
	movi.2d	v0, #0000000000000000
	stp	q0, q0, [x29, #-160]
	stp	q0, q0, [x29, #-192]
Lnoise_loh106:
	adrp	x2, lnoise__static.102@PAGE
Lnoise_loh107:
	add	x2, x2, lnoise__static.102@PAGEOFF
	sub	x0, x29, #192
	add	x1, sp, #16
	mov	w3, #1
	bl	"_noise_kdf::keyed::Hmac::code"
	ldp	q0, q1, [x29, #-192]
	stp	q0, q1, [x29, #-128]
	sub	x8, x29, #128
	stp	x8, x21, [x29, #-224]
Lnoise_loh108:
	adrp	x8, lnoise__static.103@PAGE
Lnoise_loh109:
	add	x8, x8, lnoise__static.103@PAGEOFF
	stp	x8, x20, [x29, #-208]
	sub	x0, x29, #160
	add	x1, sp, #16
	sub	x2, x29, #224
	mov	w3, #2
	bl	"_noise_kdf::keyed::Hmac::code"
	ldp	q1, q0, [x29, #-128]
	stp	q1, q0, [x29, #-96]
	ldp	q2, q3, [x29, #-160]
	stp	q2, q3, [x29, #-64]
	stp	q1, q0, [x19]
	strb	w20, [x19, #64]
	ldp	q0, q1, [x29, #-64]
	stur	q0, [x19, #65]
	stur	q1, [x19, #81]
	str	xzr, [x19, #104]
Lnoise_BB31_2:
	.cfi_def_cfa wsp, 496
	ldp	x29, x30, [sp, #480]
	ldp	x20, x19, [sp, #464]
	ldp	x22, x21, [sp, #448]
	add	sp, sp, #496
	.cfi_def_cfa_offset 0
	.cfi_restore w30
	.cfi_restore w29
	.cfi_restore w19
	.cfi_restore w20
	.cfi_restore w21
	.cfi_restore w22
	ret
	.loh AdrpAdd	Lnoise_loh108, Lnoise_loh109
	.loh AdrpAdd	Lnoise_loh106, Lnoise_loh107
	.cfi_endproc

	.section	__TEXT,__literal16,16byte_literals
	.p2align	4, 0x0
lnoise_CPI32_0:
	.long	1779033703
	.long	3144134277
	.long	1013904242
	.long	2773480762
lnoise_CPI32_1:
	.long	1359893119
	.long	2600822924
	.long	528734635
	.long	1541459225
	.section	__TEXT,__text,regular,pure_instructions
	.p2align	2
"_noise_state::symmetric::hash_of_both":
	.cfi_startproc
	sub	sp, sp, #288
	.cfi_def_cfa_offset 288
	stp	x24, x23, [sp, #224]
	stp	x22, x21, [sp, #240]
	stp	x20, x19, [sp, #256]
	stp	x29, x30, [sp, #272]
	add	x29, sp, #272
	.cfi_def_cfa w29, 16
	.cfi_offset w30, -8
	.cfi_offset w29, -16
	.cfi_offset w19, -24
	.cfi_offset w20, -32
	.cfi_offset w21, -40
	.cfi_offset w22, -48
	.cfi_offset w23, -56
	.cfi_offset w24, -64
	mov	x20, x3
	mov	x21, x2
	mov	x19, x0
Lnoise_loh110:
	adrp	x8, lnoise_CPI32_0@PAGE
Lnoise_loh111:
	ldr	q0, [x8, lnoise_CPI32_0@PAGEOFF]
Lnoise_loh112:
	adrp	x8, lnoise_CPI32_1@PAGE
Lnoise_loh113:
	ldr	q1, [x8, lnoise_CPI32_1@PAGEOFF]
	stp	q0, q1, [sp]
	movi.2d	v0, #0000000000000000
	stp	q0, q0, [sp, #32]
	stp	q0, q0, [sp, #64]
	str	xzr, [sp, #96]
	mov	x0, sp
	mov	w2, #32
	bl	"_sha2::block256::Core256::update"
	mov	x0, sp
	mov	x1, x21
	mov	x2, x20
	bl	"_sha2::block256::Core256::update"
	ldr	x20, [sp, #96]
	str	x20, [sp, #208]
	ldp	q0, q1, [sp, #64]
	stp	q0, q1, [sp, #176]
	ldp	q1, q0, [sp, #32]
	stp	q1, q0, [sp, #144]
	lsr	x21, x20, #21
	lsr	x22, x20, #13
	ldp	q0, q1, [sp]
	lsl	x23, x20, #3
	mov	w8, #55
	sub	w8, w8, w20
	and	x8, x8, #0x3f
	stp	q0, q1, [sp, #112]
Lnoise_loh114:
	adrp	x1, lnoise__static.100@PAGE
Lnoise_loh115:
	add	x1, x1, lnoise__static.100@PAGEOFF
	add	x0, sp, #112
	add	x2, x8, #1
	bl	"_sha2::block256::Core256::update"
	lsl	x8, x20, #43
	and	x8, x8, #0xff000000000000
	orr	x8, x8, x20, lsl #59
	bfi	x8, x22, #40, #8
	bfi	x8, x21, #32, #8
	lsr	x9, x20, #5
	and	x9, x9, #0xff000000
	and	x10, x21, #0xff0000
	lsr	x11, x20, #37
	and	x11, x11, #0xff00
	orr	x9, x9, x10
	orr	x9, x9, x11
	orr	x8, x8, x9
	orr	x8, x8, x23, lsr #56
	str	x8, [sp, #104]
	add	x0, sp, #112
	add	x1, sp, #104
	mov	w2, #8
	bl	"_sha2::block256::Core256::update"
	ldp	q0, q1, [sp, #112]
	rev32.16b	v0, v0
	rev32.16b	v1, v1
	stp	q0, q1, [x19]
	.cfi_def_cfa wsp, 288
	ldp	x29, x30, [sp, #272]
	ldp	x20, x19, [sp, #256]
	ldp	x22, x21, [sp, #240]
	ldp	x24, x23, [sp, #224]
	add	sp, sp, #288
	.cfi_def_cfa_offset 0
	.cfi_restore w30
	.cfi_restore w29
	.cfi_restore w19
	.cfi_restore w20
	.cfi_restore w21
	.cfi_restore w22
	.cfi_restore w23
	.cfi_restore w24
	ret
	.loh AdrpAdd	Lnoise_loh114, Lnoise_loh115
	.loh AdrpLdr	Lnoise_loh112, Lnoise_loh113
	.loh AdrpAdrp	Lnoise_loh110, Lnoise_loh112
	.loh AdrpLdr	Lnoise_loh110, Lnoise_loh111
	.cfi_endproc

	.p2align	2
"_sha2::block256::Core256::update":
	.cfi_startproc
	stp	x26, x25, [sp, #-80]!
	.cfi_def_cfa_offset 80
	stp	x24, x23, [sp, #16]
	stp	x22, x21, [sp, #32]
	stp	x20, x19, [sp, #48]
	stp	x29, x30, [sp, #64]
	add	x29, sp, #64
	.cfi_def_cfa w29, 16
	.cfi_offset w30, -8
	.cfi_offset w29, -16
	.cfi_offset w19, -24
	.cfi_offset w20, -32
	.cfi_offset w21, -40
	.cfi_offset w22, -48
	.cfi_offset w23, -56
	.cfi_offset w24, -64
	.cfi_offset w25, -72
	.cfi_offset w26, -80
	.cfi_remember_state
	mov	x21, x2
	mov	x20, x1
	mov	x19, x0
	ldr	x8, [x0, #96]
	add	x9, x8, x2
	str	x9, [x0, #96]
	ands	x8, x8, #0x3f
	b.eq	Lnoise_BB33_8
	mov	w11, #64
	add	x9, x19, #32
	add	x0, x9, x8
	sub	x10, x0, x20
	sub	x22, x11, x8
	cmp	x21, x22
	b.hs	Lnoise_BB33_9
	cmp	x10, x21
	b.hs	Lnoise_BB33_15
	cmp	x21, #7
	b.ls	Lnoise_BB33_5
	add	x9, x8, x19
	sub	x9, x9, x20
	add	x9, x9, #32
	cmp	x9, #32
	b.hs	Lnoise_BB33_38
Lnoise_BB33_5:
	mov	x9, #0
Lnoise_BB33_6:
	sub	x10, x21, x9
	add	x11, x20, x9
	add	x8, x9, x8
	add	x8, x8, x19
	add	x8, x8, #32
Lnoise_BB33_7:
	ldrb	w9, [x11], #1
	strb	w9, [x8], #1
	subs	x10, x10, #1
	b.ne	Lnoise_BB33_7
	b	Lnoise_BB33_26
Lnoise_BB33_8:
	mov	x22, #0
	sub	x24, x21, x22
	lsr	x25, x24, #6
	cbnz	x25, Lnoise_BB33_18
	b	Lnoise_BB33_20
Lnoise_BB33_9:
	cmp	x10, x22
	b.hs	Lnoise_BB33_16
	cmp	x8, #61
	b.hs	Lnoise_BB33_12
	add	x10, x8, x19
	sub	x10, x10, x20
	add	x10, x10, #32
	cmp	x10, #16
	b.hs	Lnoise_BB33_40
Lnoise_BB33_12:
	mov	x10, #0
Lnoise_BB33_13:
	add	x8, x10, x8
	add	x10, x20, x10
Lnoise_BB33_14:
	ldrb	w11, [x10], #1
	strb	w11, [x9, x8]
	add	x8, x8, #1
	cmp	x8, #64
	b.ne	Lnoise_BB33_14
	b	Lnoise_BB33_17
Lnoise_BB33_15:
	mov	x1, x20
	mov	x2, x21
	.cfi_def_cfa wsp, 80
	b	Lnoise_BB33_28
Lnoise_BB33_16:
	.cfi_restore_state
	.cfi_remember_state
	mov	x1, x20
	mov	x2, x22
	bl	_memmove
Lnoise_BB33_17:
	add	x1, x19, #32
	mov	x0, x19
	bl	"_sha2::block256::compress"
	sub	x24, x21, x22
	lsr	x25, x24, #6
	cbz	x25, Lnoise_BB33_20
Lnoise_BB33_18:
	add	x23, x20, x22
Lnoise_BB33_19:
	mov	x0, x19
	mov	x1, x23
	bl	"_sha2::block256::compress"
	add	x23, x23, #64
	subs	x25, x25, #1
	b.ne	Lnoise_BB33_19
Lnoise_BB33_20:
	and	x8, x24, #0xffffffffffffffc0
	add	x9, x8, x22
	add	x1, x20, x9
	sub	x2, x21, x9
	add	x0, x19, #32
	sub	x9, x0, x1
	cmp	x9, x2
	b.hs	Lnoise_BB33_27
	cmp	x2, #7
	b.ls	Lnoise_BB33_23
	add	x9, x22, x20
	add	x9, x9, x8
	sub	x9, x19, x9
	add	x9, x9, #32
	cmp	x9, #32
	b.hs	Lnoise_BB33_29
Lnoise_BB33_23:
	mov	x9, #0
Lnoise_BB33_24:
	add	x10, x9, x22
	add	x10, x10, x8
	sub	x8, x10, x21
	add	x10, x20, x10
	add	x9, x9, x19
	add	x9, x9, #32
Lnoise_BB33_25:
	ldrb	w11, [x10], #1
	strb	w11, [x9], #1
	adds	x8, x8, #1
	b.lo	Lnoise_BB33_25
Lnoise_BB33_26:
	.cfi_def_cfa wsp, 80
	ldp	x29, x30, [sp, #64]
	ldp	x20, x19, [sp, #48]
	ldp	x22, x21, [sp, #32]
	ldp	x24, x23, [sp, #16]
	ldp	x26, x25, [sp], #80
	.cfi_def_cfa_offset 0
	.cfi_restore w30
	.cfi_restore w29
	.cfi_restore w19
	.cfi_restore w20
	.cfi_restore w21
	.cfi_restore w22
	.cfi_restore w23
	.cfi_restore w24
	.cfi_restore w25
	.cfi_restore w26
	ret
Lnoise_BB33_27:
	.cfi_restore_state
	.cfi_remember_state
	.cfi_def_cfa wsp, 80
Lnoise_BB33_28:
	ldp	x29, x30, [sp, #64]
	ldp	x20, x19, [sp, #48]
	ldp	x22, x21, [sp, #32]
	ldp	x24, x23, [sp, #16]
	ldp	x26, x25, [sp], #80
	.cfi_def_cfa_offset 0
	.cfi_restore w30
	.cfi_restore w29
	.cfi_restore w19
	.cfi_restore w20
	.cfi_restore w21
	.cfi_restore w22
	.cfi_restore w23
	.cfi_restore w24
	.cfi_restore w25
	.cfi_restore w26
	b	_memmove
Lnoise_BB33_29:
	.cfi_restore_state
	cmp	x2, #32
	b.hs	Lnoise_BB33_31
	mov	x9, #0
	b	Lnoise_BB33_35
Lnoise_BB33_31:
	and	x10, x2, #0x18
	and	x9, x2, #0xffffffffffffffe0
	add	x11, x19, #48
	add	x12, x22, x8
	add	x12, x12, x20
	add	x12, x12, #16
	and	x13, x2, #0xffffffffffffffe0
Lnoise_BB33_32:
	ldp	q0, q1, [x12, #-16]
	stp	q0, q1, [x11, #-16]
	add	x11, x11, #32
	add	x12, x12, #32
	subs	x13, x13, #32
	b.ne	Lnoise_BB33_32
	cmp	x2, x9
	b.eq	Lnoise_BB33_26
	cbz	x10, Lnoise_BB33_24
Lnoise_BB33_35:
	mov	x12, x9
	and	x9, x2, #0xfffffffffffffff8
	sub	x10, x12, x9
	add	x11, x12, x22
	add	x11, x11, x8
	add	x11, x20, x11
	add	x12, x12, x19
	add	x12, x12, #32
Lnoise_BB33_36:
	ldr	d0, [x11], #8
	str	d0, [x12], #8
	adds	x10, x10, #8
	b.ne	Lnoise_BB33_36
	cmp	x2, x9
	b.ne	Lnoise_BB33_24
	b	Lnoise_BB33_26
Lnoise_BB33_38:
	cmp	x21, #32
	b.hs	Lnoise_BB33_42
	mov	x9, #0
	b	Lnoise_BB33_46
Lnoise_BB33_40:
	cmp	x8, #48
	b.ls	Lnoise_BB33_49
	mov	x10, #0
	b	Lnoise_BB33_54
Lnoise_BB33_42:
	and	x10, x21, #0x18
	and	x9, x21, #0xffffffffffffffe0
	add	x11, x20, #16
	add	x12, x8, x19
	add	x12, x12, #48
	and	x13, x21, #0xffffffffffffffe0
Lnoise_BB33_43:
	ldp	q0, q1, [x11, #-16]
	stp	q0, q1, [x12, #-16]
	add	x11, x11, #32
	add	x12, x12, #32
	subs	x13, x13, #32
	b.ne	Lnoise_BB33_43
	cmp	x21, x9
	b.eq	Lnoise_BB33_26
	cbz	x10, Lnoise_BB33_6
Lnoise_BB33_46:
	mov	x12, x9
	and	x9, x21, #0xfffffffffffffff8
	sub	x10, x12, x9
	add	x11, x20, x12
	add	x12, x12, x8
	add	x12, x12, x19
	add	x12, x12, #32
Lnoise_BB33_47:
	ldr	d0, [x11], #8
	str	d0, [x12], #8
	adds	x10, x10, #8
	b.ne	Lnoise_BB33_47
	cmp	x21, x9
	b.ne	Lnoise_BB33_6
	b	Lnoise_BB33_26
Lnoise_BB33_49:
	and	x10, x22, #0x70
	ldp	d0, d1, [x20]
	stp	d0, d1, [x0]
	cmp	x10, #16
	b.eq	Lnoise_BB33_52
	ldp	d0, d1, [x20, #16]
	stp	d0, d1, [x0, #16]
	cmp	x10, #32
	b.eq	Lnoise_BB33_52
	ldp	d0, d1, [x20, #32]
	stp	d0, d1, [x0, #32]
Lnoise_BB33_52:
	cmp	x22, x10
	b.eq	Lnoise_BB33_17
	and	x11, x22, #0xc
	cbz	x11, Lnoise_BB33_13
Lnoise_BB33_54:
	mov	x13, x10
	and	x10, x22, #0x7c
	sub	x11, x13, x10
	add	x12, x20, x13
	add	x13, x13, x19
	add	x13, x13, x8
	add	x13, x13, #32
Lnoise_BB33_55:
	ldr	w14, [x12], #4
	str	w14, [x13], #4
	adds	x11, x11, #4
	b.ne	Lnoise_BB33_55
	cmp	x22, x10
	b.ne	Lnoise_BB33_13
	b	Lnoise_BB33_17
	.cfi_endproc

	.p2align	2
"_sha2::block256::compress":
	.cfi_startproc
	sub	sp, sp, #192
	.cfi_def_cfa_offset 192
	stp	x28, x27, [sp, #96]
	stp	x26, x25, [sp, #112]
	stp	x24, x23, [sp, #128]
	stp	x22, x21, [sp, #144]
	stp	x20, x19, [sp, #160]
	stp	x29, x30, [sp, #176]
	.cfi_offset w30, -8
	.cfi_offset w29, -16
	.cfi_offset w19, -24
	.cfi_offset w20, -32
	.cfi_offset w21, -40
	.cfi_offset w22, -48
	.cfi_offset w23, -56
	.cfi_offset w24, -64
	.cfi_offset w25, -72
	.cfi_offset w26, -80
	.cfi_offset w27, -88
	.cfi_offset w28, -96
	ldp	w8, w9, [x1]
	rev	w15, w8
	rev	w11, w9
	ldp	w8, w10, [x1, #8]
	rev	w9, w8
	rev	w13, w10
	ldp	w8, w12, [x1, #16]
	rev	w10, w8
	rev	w19, w12
	ldp	w8, w14, [x1, #24]
	rev	w12, w8
	rev	w24, w14
	ldp	w8, w14, [x1, #32]
	rev	w23, w8
	rev	w14, w14
	ldp	w21, w7, [x0]
	ldp	w5, w3, [x0, #8]
	ldp	w20, w6, [x0, #16]
	str	x0, [sp, #32]
	ldp	w4, w0, [x0, #24]
	eor	w8, w20, w20, ror #14
	eor	w8, w20, w8, ror #5
	ror	w8, w8, #6
	bic	w16, w4, w20
	and	w17, w6, w20
	orr	w16, w17, w16
	stp	w3, w0, [sp, #24]
	add	w17, w0, w15
	add	w16, w17, w16
	mov	w17, #12184
	movk	w17, #17034, lsl #16
	add	w16, w16, w17
	add	w16, w16, w8
	eor	w8, w21, w21, ror #9
	eor	w8, w21, w8, ror #11
	ror	w8, w8, #2
	eor	w17, w7, w21
	bic	w0, w7, w17
	and	w2, w5, w17
	orr	w0, w2, w0
	add	w8, w8, w0
	add	w8, w8, w16
	add	w2, w16, w3
	bic	w16, w6, w2
	eor	w0, w2, w2, ror #14
	eor	w0, w2, w0, ror #5
	ror	w0, w0, #6
	and	w3, w20, w2
	orr	w16, w3, w16
	str	w11, [sp, #84]
	str	w4, [sp, #12]
	add	w3, w4, w11
	add	w16, w3, w16
	mov	w3, #17553
	movk	w3, #28983, lsl #16
	eor	w4, w8, w8, ror #9
	eor	w4, w8, w4, ror #11
	ror	w4, w4, #2
	add	w16, w16, w3
	add	w16, w16, w0
	eor	w0, w8, w21
	and	w17, w0, w17
	eor	w17, w17, w21
	add	w17, w4, w17
	add	w17, w17, w16
	str	w5, [sp]
	add	w4, w16, w5
	bic	w16, w20, w4
	eor	w3, w4, w4, ror #14
	eor	w3, w4, w3, ror #5
	ror	w3, w3, #6
	and	w5, w2, w4
	orr	w16, w5, w16
	str	w9, [sp, #88]
	str	w6, [sp, #16]
	add	w5, w6, w9
	add	w16, w5, w16
	mov	w5, #64463
	movk	w5, #46528, lsl #16
	add	w16, w16, w5
	add	w16, w16, w3
	eor	w3, w17, w17, ror #9
	eor	w3, w17, w3, ror #11
	ror	w3, w3, #2
	eor	w6, w17, w8
	and	w0, w6, w0
	eor	w0, w0, w8
	add	w0, w3, w0
	add	w0, w0, w16
	str	w7, [sp, #4]
	add	w5, w16, w7
	bic	w16, w2, w5
	eor	w3, w5, w5, ror #14
	eor	w3, w5, w3, ror #5
	ror	w3, w3, #6
	and	w7, w4, w5
	orr	w16, w7, w16
	str	w13, [sp, #76]
	str	w20, [sp, #20]
	add	w7, w20, w13
	add	w16, w7, w16
	mov	w7, #56229
	movk	w7, #59829, lsl #16
	add	w16, w16, w7
	add	w3, w16, w3
	eor	w16, w0, w0, ror #9
	eor	w16, w0, w16, ror #11
	ror	w16, w16, #2
	eor	w7, w0, w17
	and	w6, w7, w6
	eor	w6, w6, w17
	add	w16, w16, w6
	add	w16, w16, w3
	str	w21, [sp, #8]
	add	w6, w3, w21
	bic	w3, w4, w6
	and	w21, w5, w6
	orr	w3, w21, w3
	eor	w21, w6, w6, ror #14
	eor	w21, w6, w21, ror #5
	ror	w21, w21, #6
	str	w10, [sp, #80]
	add	w2, w10, w2
	add	w2, w2, w3
	mov	w3, #49755
	movk	w3, #14678, lsl #16
	add	w2, w2, w3
	eor	w3, w16, w16, ror #9
	eor	w3, w16, w3, ror #11
	ror	w3, w3, #2
	add	w2, w2, w21
	eor	w21, w16, w0
	and	w7, w21, w7
	eor	w7, w7, w0
	add	w3, w3, w7
	add	w3, w3, w2
	add	w7, w2, w8
	bic	w8, w5, w7
	and	w2, w6, w7
	orr	w8, w2, w8
	eor	w2, w7, w7, ror #14
	eor	w2, w7, w2, ror #5
	ror	w2, w2, #6
	str	w19, [sp, #64]
	add	w4, w19, w4
	add	w8, w4, w8
	mov	w4, #4593
	movk	w4, #23025, lsl #16
	add	w8, w8, w4
	add	w8, w8, w2
	eor	w2, w3, w3, ror #9
	eor	w2, w3, w2, ror #11
	ror	w2, w2, #2
	eor	w22, w3, w16
	and	w4, w22, w21
	eor	w4, w4, w16
	add	w2, w2, w4
	add	w4, w2, w8
	add	w21, w8, w17
	bic	w8, w6, w21
	and	w17, w7, w21
	orr	w8, w17, w8
	eor	w17, w21, w21, ror #14
	eor	w17, w21, w17, ror #5
	ror	w17, w17, #6
	str	w12, [sp, #72]
	add	w2, w12, w5
	add	w8, w2, w8
	mov	w2, #33444
	movk	w2, #37439, lsl #16
	add	w8, w8, w2
	add	w17, w8, w17
	eor	w8, w4, w4, ror #9
	eor	w8, w4, w8, ror #11
	ror	w8, w8, #2
	eor	w2, w4, w3
	and	w5, w2, w22
	eor	w5, w5, w3
	add	w8, w8, w5
	add	w8, w8, w17
	add	w0, w17, w0
	bic	w17, w7, w0
	and	w5, w21, w0
	orr	w17, w5, w17
	eor	w5, w0, w0, ror #14
	eor	w5, w0, w5, ror #5
	ror	w5, w5, #6
	add	w6, w24, w6
	add	w17, w6, w17
	mov	w6, #24277
	movk	w6, #43804, lsl #16
	add	w17, w17, w6
	eor	w6, w8, w8, ror #9
	eor	w6, w8, w6, ror #11
	ror	w6, w6, #2
	add	w17, w17, w5
	eor	w5, w8, w4
	and	w2, w5, w2
	eor	w2, w2, w4
	add	w2, w6, w2
	add	w2, w2, w17
	add	w6, w17, w16
	bic	w16, w21, w6
	and	w17, w0, w6
	orr	w16, w17, w16
	eor	w17, w6, w6, ror #14
	eor	w17, w6, w17, ror #5
	ror	w17, w17, #6
	str	w23, [sp, #68]
	add	w7, w23, w7
	add	w16, w7, w16
	mov	w7, #43672
	movk	w7, #55303, lsl #16
	add	w16, w16, w7
	add	w16, w16, w17
	eor	w17, w2, w2, ror #9
	eor	w17, w2, w17, ror #11
	ror	w17, w17, #2
	eor	w7, w2, w8
	and	w5, w7, w5
	eor	w5, w5, w8
	add	w17, w17, w5
	add	w17, w17, w16
	add	w5, w16, w3
	bic	w16, w0, w5
	and	w3, w6, w5
	orr	w16, w3, w16
	eor	w3, w5, w5, ror #14
	eor	w3, w5, w3, ror #5
	ror	w3, w3, #6
	add	w21, w14, w21
	add	w16, w21, w16
	mov	w21, #23297
	movk	w21, #4739, lsl #16
	add	w16, w16, w21
	add	w3, w16, w3
	eor	w16, w17, w17, ror #9
	eor	w16, w17, w16, ror #11
	ror	w16, w16, #2
	eor	w21, w17, w2
	and	w7, w21, w7
	eor	w7, w7, w2
	add	w16, w16, w7
	add	w16, w16, w3
	add	w4, w3, w4
	bic	w3, w6, w4
	and	w7, w5, w4
	orr	w3, w7, w3
	ldp	w7, w23, [x1, #40]
	rev	w22, w7
	add	w0, w22, w0
	add	w0, w0, w3
	eor	w3, w4, w4, ror #14
	eor	w3, w4, w3, ror #5
	ror	w3, w3, #6
	mov	w7, #34238
	movk	w7, #9265, lsl #16
	add	w0, w0, w7
	add	w3, w0, w3
	eor	w0, w16, w16, ror #9
	eor	w0, w16, w0, ror #11
	ror	w0, w0, #2
	eor	w7, w16, w17
	and	w21, w7, w21
	eor	w21, w21, w17
	add	w0, w0, w21
	add	w0, w0, w3
	add	w3, w3, w8
	bic	w8, w5, w3
	and	w21, w4, w3
	orr	w8, w21, w8
	mov	x21, x24
	rev	w20, w23
	add	w6, w20, w6
	add	w8, w6, w8
	eor	w6, w3, w3, ror #14
	eor	w6, w3, w6, ror #5
	ror	w6, w6, #6
	mov	w23, #32195
	movk	w23, #21772, lsl #16
	add	w8, w8, w23
	add	w6, w8, w6
	eor	w8, w0, w0, ror #9
	eor	w8, w0, w8, ror #11
	ror	w8, w8, #2
	eor	w23, w0, w16
	and	w7, w23, w7
	eor	w7, w7, w16
	add	w8, w8, w7
	add	w8, w8, w6
	add	w2, w6, w2
	bic	w6, w4, w2
	and	w7, w3, w2
	orr	w6, w7, w6
	ldp	w7, w25, [x1, #48]
	rev	w9, w7
	add	w5, w9, w5
	add	w5, w5, w6
	eor	w6, w2, w2, ror #14
	eor	w6, w2, w6, ror #5
	ror	w6, w6, #6
	mov	w7, #23924
	movk	w7, #29374, lsl #16
	add	w5, w5, w7
	add	w5, w5, w6
	eor	w6, w8, w8, ror #9
	eor	w6, w8, w6, ror #11
	ror	w6, w6, #2
	eor	w7, w8, w0
	and	w23, w7, w23
	eor	w23, w23, w0
	add	w6, w6, w23
	add	w28, w6, w5
	add	w6, w5, w17
	bic	w17, w3, w6
	and	w5, w2, w6
	orr	w17, w5, w17
	rev	w19, w25
	add	w4, w19, w4
	add	w17, w4, w17
	eor	w4, w6, w6, ror #14
	eor	w4, w6, w4, ror #5
	ror	w4, w4, #6
	mov	w5, #45566
	movk	w5, #32990, lsl #16
	add	w17, w17, w5
	add	w17, w17, w4
	eor	w4, w28, w28, ror #9
	eor	w4, w28, w4, ror #11
	ror	w4, w4, #2
	eor	w5, w28, w8
	and	w7, w5, w7
	eor	w7, w7, w8
	add	w4, w4, w7
	add	w30, w4, w17
	add	w16, w17, w16
	bic	w17, w2, w16
	and	w4, w6, w16
	orr	w17, w4, w17
	ldp	w4, w7, [x1, #56]
	mov	x1, x9
	rev	w13, w4
	add	w3, w13, w3
	add	w17, w3, w17
	eor	w3, w16, w16, ror #14
	eor	w3, w16, w3, ror #5
	ror	w3, w3, #6
	mov	w4, #1703
	movk	w4, #39900, lsl #16
	add	w17, w17, w4
	add	w3, w17, w3
	eor	w17, w30, w30, ror #9
	eor	w17, w30, w17, ror #11
	ror	w17, w17, #2
	eor	w26, w30, w28
	and	w4, w26, w5
	eor	w4, w4, w28
	add	w17, w17, w4
	add	w17, w17, w3
	add	w4, w3, w0
	bic	w0, w6, w4
	and	w3, w16, w4
	orr	w0, w3, w0
	rev	w23, w7
	add	w2, w23, w2
	add	w0, w2, w0
	eor	w2, w4, w4, ror #14
	eor	w2, w4, w2, ror #5
	ror	w2, w2, #6
	mov	w3, #61812
	movk	w3, #49563, lsl #16
	add	w0, w0, w3
	add	w0, w0, w2
	and	w2, w17, w26
	bic	w3, w30, w26
	orr	w2, w2, w3
	eor	w3, w17, w17, ror #9
	eor	w3, w17, w3, ror #11
	ror	w3, w3, #2
	add	w2, w3, w2
	add	w24, w2, w0
	add	w3, w0, w8
Lnoise_loh116:
	adrp	x26, lnoise__static.99@PAGE+124
Lnoise_loh117:
	add	x26, x26, lnoise__static.99@PAGEOFF+124
	mov	w8, #3
Lnoise_BB34_1:
	str	w1, [sp, #40]
	str	w13, [sp, #92]
	str	x8, [sp, #56]
	eor	w8, w13, w13, ror #2
	ror	w8, w8, #17
	eor	w8, w8, w13, lsr #10
	ldr	w13, [sp, #84]
	eor	w0, w13, w13, ror #11
	ror	w0, w0, #7
	eor	w2, w3, w3, ror #14
	eor	w27, w0, w13, lsr #3
	eor	w0, w3, w2, ror #5
	ror	w5, w0, #6
	bic	w0, w16, w3
	add	w15, w15, w14
	add	w15, w15, w8
	and	w8, w4, w3
	orr	w8, w8, w0
	ldp	w0, w2, [x26, #-60]
	add	w8, w6, w8
	add	w8, w8, w0
	eor	w0, w24, w24, ror #9
	eor	w0, w24, w0, ror #11
	eor	w6, w17, w24
	add	w15, w15, w27
	add	w27, w21, w15
	add	w8, w5, w8
	bic	w5, w17, w6
	and	w9, w30, w6
	eor	w10, w23, w23, ror #2
	ror	w10, w10, #17
	add	w8, w8, w15
	orr	w9, w9, w5
	str	w19, [sp, #44]
	ldr	w12, [sp, #88]
	eor	w5, w12, w12, ror #11
	ror	w5, w5, #7
	ror	w0, w0, #2
	eor	w10, w10, w23, lsr #10
	eor	w11, w5, w12, lsr #3
	add	w5, w22, w13
	add	w10, w5, w10
	add	w9, w0, w9
	add	w5, w9, w8
	add	w28, w8, w28
	bic	w8, w4, w28
	eor	w9, w28, w28, ror #14
	eor	w9, w28, w9, ror #5
	ror	w9, w9, #6
	mov	x25, x22
	mov	x22, x14
	add	w14, w10, w11
	and	w10, w3, w28
	add	w11, w2, w16
	add	w11, w11, w14
	eor	w16, w5, w5, ror #9
	orr	w8, w10, w8
	eor	w10, w5, w16, ror #11
	eor	w16, w5, w24
	and	w0, w16, w6
	eor	w0, w0, w24
	ror	w10, w10, #2
	str	w15, [sp, #48]
	eor	w2, w15, w15, ror #2
	ror	w2, w2, #17
	eor	w2, w2, w15, lsr #10
	add	w8, w11, w8
	add	w9, w8, w9
	ldr	w15, [sp, #76]
	eor	w8, w15, w15, ror #11
	ror	w8, w8, #7
	eor	w11, w8, w15, lsr #3
	add	w8, w10, w0
	add	w8, w8, w9
	add	w10, w20, w12
	add	w10, w10, w11
	add	w12, w10, w2
	ldp	w10, w6, [x26, #-52]
	add	w30, w9, w30
	bic	w9, w3, w30
	eor	w11, w30, w30, ror #14
	eor	w11, w30, w11, ror #5
	ror	w11, w11, #6
	and	w0, w28, w30
	orr	w9, w0, w9
	add	w10, w10, w4
	add	w10, w10, w12
	eor	w0, w8, w8, ror #9
	eor	w0, w8, w0, ror #11
	add	w9, w10, w9
	eor	w10, w8, w5
	and	w16, w10, w16
	eor	w2, w14, w14, ror #2
	ror	w2, w2, #17
	add	w9, w9, w11
	eor	w11, w16, w5
	ldr	w7, [sp, #80]
	eor	w16, w7, w7, ror #11
	ror	w16, w16, #7
	ror	w0, w0, #2
	eor	w4, w2, w14, lsr #10
	eor	w16, w16, w7, lsr #3
	add	w2, w1, w15
	add	w16, w2, w16
	add	w11, w0, w11
	add	w0, w11, w9
	add	w2, w9, w17
	bic	w9, w28, w2
	eor	w11, w2, w2, ror #14
	eor	w11, w2, w11, ror #5
	ror	w11, w11, #6
	str	w23, [sp, #52]
	mov	x1, x20
	add	w20, w16, w4
	and	w16, w30, w2
	add	w17, w6, w3
	add	w17, w17, w20
	eor	w3, w0, w0, ror #9
	orr	w9, w16, w9
	eor	w16, w0, w3, ror #11
	eor	w3, w0, w8
	and	w10, w3, w10
	eor	w10, w10, w8
	ror	w16, w16, #2
	eor	w4, w12, w12, ror #2
	ror	w4, w4, #17
	eor	w4, w4, w12, lsr #10
	add	w9, w17, w9
	add	w9, w9, w11
	ldr	w13, [sp, #64]
	eor	w11, w13, w13, ror #11
	ror	w11, w11, #7
	eor	w11, w11, w13, lsr #3
	add	w10, w16, w10
	add	w16, w10, w9
	add	w10, w19, w7
	add	w10, w10, w11
	add	w15, w10, w4
	add	w6, w9, w24
	bic	w9, w30, w6
	eor	w11, w6, w6, ror #14
	eor	w11, w6, w11, ror #5
	ror	w11, w11, #6
	and	w17, w2, w6
	orr	w9, w17, w9
	ldp	w10, w17, [x26, #-44]
	add	w10, w10, w28
	add	w10, w10, w15
	eor	w4, w16, w16, ror #9
	eor	w4, w16, w4, ror #11
	add	w9, w10, w9
	eor	w10, w16, w0
	and	w3, w10, w3
	eor	w7, w20, w20, ror #2
	ror	w7, w7, #17
	add	w9, w9, w11
	eor	w11, w3, w0
	ldr	w19, [sp, #72]
	eor	w3, w19, w19, ror #11
	ror	w3, w3, #7
	ror	w4, w4, #2
	eor	w7, w7, w20, lsr #10
	eor	w3, w3, w19, lsr #3
	ldr	w24, [sp, #92]
	add	w13, w13, w24
	add	w13, w13, w3
	add	w11, w4, w11
	add	w3, w11, w9
	add	w4, w9, w5
	bic	w9, w2, w4
	eor	w11, w4, w4, ror #14
	eor	w11, w4, w11, ror #5
	ror	w11, w11, #6
	add	w24, w13, w7
	and	w5, w6, w4
	add	w17, w17, w30
	add	w17, w17, w24
	eor	w7, w3, w3, ror #9
	orr	w9, w5, w9
	eor	w5, w3, w7, ror #11
	eor	w28, w3, w16
	and	w10, w28, w10
	eor	w10, w10, w16
	ror	w5, w5, #2
	eor	w7, w15, w15, ror #2
	ror	w7, w7, #17
	eor	w7, w7, w15, lsr #10
	add	w9, w17, w9
	add	w9, w9, w11
	eor	w11, w21, w21, ror #11
	ror	w11, w11, #7
	eor	w11, w11, w21, lsr #3
	add	w10, w5, w10
	add	w17, w10, w9
	add	w10, w19, w23
	add	w10, w10, w11
	add	w13, w10, w7
	add	w7, w9, w8
	bic	w8, w6, w7
	eor	w9, w7, w7, ror #14
	eor	w9, w7, w9, ror #5
	and	w11, w4, w7
	orr	w8, w11, w8
	ror	w9, w9, #6
	ldp	w10, w11, [x26, #-36]
	add	w10, w2, w10
	add	w10, w10, w13
	eor	w2, w17, w17, ror #9
	eor	w2, w17, w2, ror #11
	eor	w30, w17, w3
	and	w5, w30, w28
	eor	w19, w24, w24, ror #2
	ror	w19, w19, #17
	add	w8, w10, w8
	add	w8, w8, w9
	eor	w9, w5, w3
	ldr	w28, [sp, #68]
	eor	w10, w28, w28, ror #11
	ror	w10, w10, #7
	ror	w2, w2, #2
	eor	w5, w19, w24, lsr #10
	mov	x19, x24
	eor	w10, w10, w28, lsr #3
	add	w10, w27, w10
	add	w21, w10, w5
	add	w9, w2, w9
	add	w2, w9, w8
	add	w8, w8, w0
	bic	w9, w4, w8
	eor	w10, w8, w8, ror #14
	eor	w10, w8, w10, ror #5
	ror	w10, w10, #6
	and	w0, w7, w8
	add	w11, w21, w11
	add	w11, w11, w6
	eor	w5, w2, w2, ror #9
	eor	w5, w2, w5, ror #11
	orr	w9, w0, w9
	ror	w0, w5, #2
	eor	w5, w2, w17
	and	w6, w5, w30
	add	w9, w11, w9
	add	w9, w9, w10
	eor	w10, w13, w13, ror #2
	ror	w10, w10, #17
	eor	w10, w10, w13, lsr #10
	eor	w11, w22, w22, ror #11
	eor	w6, w6, w17
	ror	w11, w11, #7
	eor	w11, w11, w22, lsr #3
	add	w11, w11, w28
	add	w0, w0, w6
	add	w0, w0, w9
	str	w14, [sp, #84]
	add	w11, w14, w11
	ldp	w6, w28, [x26, #-28]
	add	w24, w11, w10
	add	w27, w9, w16
	bic	w9, w7, w27
	eor	w10, w27, w27, ror #14
	eor	w10, w27, w10, ror #5
	and	w11, w8, w27
	orr	w9, w11, w9
	ror	w10, w10, #6
	add	w11, w24, w6
	add	w11, w11, w4
	eor	w16, w0, w0, ror #9
	eor	w16, w0, w16, ror #11
	ror	w16, w16, #2
	add	w9, w11, w9
	eor	w11, w0, w2
	and	w4, w11, w5
	eor	w4, w4, w2
	add	w9, w9, w10
	add	w5, w9, w3
	eor	w10, w21, w21, ror #2
	eor	w3, w25, w25, ror #11
	ror	w3, w3, #7
	ror	w10, w10, #17
	eor	w10, w10, w21, lsr #10
	eor	w3, w3, w25, lsr #3
	add	w14, w3, w22
	str	w12, [sp, #88]
	add	w14, w14, w12
	add	w16, w16, w4
	add	w6, w16, w9
	add	w14, w14, w10
	eor	w9, w5, w5, ror #14
	bic	w10, w8, w5
	and	w16, w27, w5
	orr	w10, w16, w10
	eor	w9, w5, w9, ror #5
	add	w16, w14, w28
	add	w16, w16, w7
	add	w10, w16, w10
	eor	w16, w6, w6, ror #9
	ror	w9, w9, #6
	eor	w16, w6, w16, ror #11
	eor	w3, w6, w0
	and	w11, w3, w11
	eor	w11, w11, w0
	ror	w4, w16, #2
	eor	w16, w24, w24, ror #2
	ror	w16, w16, #17
	eor	w7, w16, w24, lsr #10
	add	w9, w10, w9
	add	w16, w9, w17
	eor	w10, w1, w1, ror #11
	ror	w10, w10, #7
	eor	w10, w10, w1, lsr #3
	add	w11, w4, w11
	add	w17, w11, w9
	add	w9, w10, w25
	str	w20, [sp, #76]
	add	w9, w9, w20
	eor	w10, w16, w16, ror #14
	ldp	w11, w28, [x26, #-20]
	add	w22, w9, w7
	eor	w9, w16, w10, ror #5
	bic	w10, w27, w16
	and	w4, w5, w16
	orr	w10, w4, w10
	ror	w9, w9, #6
	add	w11, w22, w11
	add	w8, w11, w8
	eor	w11, w17, w17, ror #9
	eor	w11, w17, w11, ror #11
	ror	w11, w11, #2
	add	w8, w8, w10
	eor	w10, w17, w6
	and	w3, w10, w3
	eor	w4, w3, w6
	add	w8, w8, w9
	add	w3, w8, w2
	eor	w9, w14, w14, ror #2
	ldr	w23, [sp, #40]
	eor	w2, w23, w23, ror #11
	ror	w2, w2, #7
	ror	w9, w9, #17
	eor	w9, w9, w14, lsr #10
	eor	w2, w2, w23, lsr #3
	add	w2, w2, w1
	str	w15, [sp, #80]
	add	w2, w2, w15
	ldr	w15, [sp, #48]
	add	w11, w11, w4
	add	w4, w11, w8
	add	w20, w2, w9
	eor	w8, w3, w3, ror #14
	bic	w9, w5, w3
	and	w11, w16, w3
	orr	w9, w11, w9
	eor	w8, w3, w8, ror #5
	add	w11, w20, w28
	add	w11, w11, w27
	add	w9, w11, w9
	eor	w11, w4, w4, ror #9
	ror	w2, w8, #6
	eor	w11, w4, w11, ror #11
	eor	w8, w4, w17
	and	w10, w8, w10
	eor	w10, w10, w17
	ror	w11, w11, #2
	eor	w7, w22, w22, ror #2
	ror	w7, w7, #17
	eor	w27, w7, w22, lsr #10
	add	w9, w9, w2
	add	w0, w9, w0
	ldr	w12, [sp, #44]
	eor	w2, w12, w12, ror #11
	ror	w2, w2, #7
	eor	w7, w2, w12, lsr #3
	add	w10, w11, w10
	add	w2, w10, w9
	add	w9, w7, w23
	str	w19, [sp, #64]
	add	w9, w9, w19
	eor	w10, w0, w0, ror #14
	ldp	w11, w7, [x26, #-12]
	add	w1, w9, w27
	eor	w9, w0, w10, ror #5
	bic	w10, w16, w0
	and	w27, w3, w0
	orr	w10, w27, w10
	ror	w9, w9, #6
	add	w11, w1, w11
	add	w11, w11, w5
	eor	w5, w2, w2, ror #9
	eor	w5, w2, w5, ror #11
	ror	w27, w5, #2
	add	w10, w11, w10
	eor	w5, w2, w4
	and	w8, w5, w8
	eor	w8, w8, w4
	add	w9, w10, w9
	add	w6, w9, w6
	eor	w10, w20, w20, ror #2
	ldr	w23, [sp, #92]
	eor	w11, w23, w23, ror #11
	ror	w11, w11, #7
	ror	w10, w10, #17
	eor	w10, w10, w20, lsr #10
	eor	w11, w11, w23, lsr #3
	add	w11, w12, w11
	str	w13, [sp, #72]
	add	w11, w11, w13
	add	w8, w27, w8
	add	w28, w8, w9
	add	w19, w11, w10
	eor	w8, w6, w6, ror #14
	bic	w9, w3, w6
	and	w10, w0, w6
	orr	w9, w10, w9
	eor	w8, w6, w8, ror #5
	eor	w10, w28, w28, ror #9
	eor	w11, w1, w1, ror #2
	ror	w11, w11, #17
	ror	w8, w8, #6
	eor	w10, w28, w10, ror #11
	ldr	w25, [sp, #52]
	eor	w27, w25, w25, ror #11
	ror	w27, w27, #7
	ror	w10, w10, #2
	eor	w11, w11, w1, lsr #10
	eor	w27, w27, w25, lsr #3
	add	w7, w19, w7
	add	w16, w7, w16
	add	w9, w16, w9
	add	w8, w9, w8
	add	w16, w8, w17
	eor	w9, w16, w16, ror #14
	eor	w17, w28, w2
	and	w5, w17, w5
	eor	w5, w5, w2
	eor	w9, w16, w9, ror #5
	add	w10, w10, w5
	add	w30, w10, w8
	eor	w8, w30, w30, ror #9
	add	w10, w27, w23
	add	w10, w10, w21
	eor	w8, w30, w8, ror #11
	eor	w5, w19, w19, ror #2
	ldur	w7, [x26, #-4]
	add	w13, w10, w11
	bic	w10, w0, w16
	and	w11, w6, w16
	orr	w10, w11, w10
	eor	w11, w15, w15, ror #11
	ror	w11, w11, #7
	add	w7, w13, w7
	ror	w9, w9, #6
	add	w3, w7, w3
	add	w10, w3, w10
	eor	w11, w11, w15, lsr #3
	eor	w3, w30, w28
	ror	w8, w8, #2
	and	w17, w3, w17
	eor	w17, w17, w28
	add	w9, w10, w9
	add	w4, w9, w4
	add	w8, w8, w17
	add	w17, w8, w9
	add	w8, w11, w25
	str	w24, [sp, #68]
	add	w8, w8, w24
	ldr	w9, [x26], #64
	ror	w10, w5, #17
	bic	w11, w6, w4
	and	w5, w16, w4
	eor	w10, w10, w19, lsr #10
	add	w23, w8, w10
	add	w8, w23, w9
	eor	w9, w4, w4, ror #14
	orr	w10, w5, w11
	add	w8, w8, w0
	add	w8, w8, w10
	and	w10, w17, w3
	eor	w9, w4, w9, ror #5
	ror	w9, w9, #6
	bic	w11, w30, w3
	eor	w0, w17, w17, ror #9
	eor	w0, w17, w0, ror #11
	ror	w0, w0, #2
	orr	w10, w10, w11
	add	w8, w8, w9
	add	w3, w8, w2
	add	w9, w0, w10
	add	w24, w9, w8
	ldr	x8, [sp, #56]
	subs	x8, x8, #1
	b.ne	Lnoise_BB34_1
	ldp	w9, w8, [sp, #4]
	add	w8, w24, w8
	add	w9, w17, w9
	ldr	w10, [sp]
	add	w10, w30, w10
	ldr	x13, [sp, #32]
	stp	w8, w9, [x13]
	ldp	w9, w8, [sp, #20]
	add	w8, w28, w8
	add	w9, w3, w9
	ldp	w12, w11, [sp, #12]
	add	w11, w4, w11
	add	w12, w16, w12
	stp	w10, w8, [x13, #8]
	ldr	w8, [sp, #28]
	add	w8, w6, w8
	stp	w9, w11, [x13, #16]
	stp	w12, w8, [x13, #24]
	ldp	x29, x30, [sp, #176]
	ldp	x20, x19, [sp, #160]
	ldp	x22, x21, [sp, #144]
	ldp	x24, x23, [sp, #128]
	ldp	x26, x25, [sp, #112]
	ldp	x28, x27, [sp, #96]
	add	sp, sp, #192
	.cfi_def_cfa_offset 0
	.cfi_restore w30
	.cfi_restore w29
	.cfi_restore w19
	.cfi_restore w20
	.cfi_restore w21
	.cfi_restore w22
	.cfi_restore w23
	.cfi_restore w24
	.cfi_restore w25
	.cfi_restore w26
	.cfi_restore w27
	.cfi_restore w28
	ret
	.loh AdrpAdd	Lnoise_loh116, Lnoise_loh117
	.cfi_endproc

	.p2align	2
"_noise_state::symmetric::SymmetricState::mix_key_and_hash":
	.cfi_startproc
	stp	x28, x27, [sp, #-64]!
	.cfi_def_cfa_offset 64
	stp	x22, x21, [sp, #16]
	stp	x20, x19, [sp, #32]
	stp	x29, x30, [sp, #48]
	add	x29, sp, #48
	.cfi_def_cfa w29, 16
	.cfi_offset w30, -8
	.cfi_offset w29, -16
	.cfi_offset w19, -24
	.cfi_offset w20, -32
	.cfi_offset w21, -40
	.cfi_offset w22, -48
	.cfi_offset w27, -56
	.cfi_offset w28, -64
	sub	sp, sp, #640
	mov	x19, x0
	movi.2d	v0, #0000000000000000
	stp	q0, q0, [sp, #80]
	mov	w21, #32
	stp	x1, x21, [sp, #64]
	stp	q0, q0, [sp, #416]
	add	x0, sp, #208
	mov	x1, x19
	bl	"_noise_kdf::keyed::Hmac::new"
	mov	w20, #1
	add	x0, sp, #416
	add	x1, sp, #208
	add	x2, sp, #64
	mov	w3, #1
	bl	"_noise_kdf::keyed::Hmac::code"
	add	x0, sp, #208
	add	x1, sp, #416
	bl	"_noise_kdf::keyed::Hmac::new"
	movi.2d	v0, #0000000000000000
	stp	q0, q0, [x29, #-176]
	stp	q0, q0, [x29, #-208]
Lnoise_loh118:
	adrp	x2, lnoise__static.102@PAGE
Lnoise_loh119:
	add	x2, x2, lnoise__static.102@PAGEOFF
	sub	x0, x29, #208
	add	x1, sp, #208
	mov	w3, #1
	bl	"_noise_kdf::keyed::Hmac::code"
	ldp	q0, q1, [x29, #-208]
	stp	q0, q1, [x29, #-144]
	sub	x22, x29, #144
	stp	x22, x21, [x29, #-240]
Lnoise_loh120:
	adrp	x8, lnoise__static.103@PAGE
Lnoise_loh121:
	add	x8, x8, lnoise__static.103@PAGEOFF
	stp	x8, x20, [x29, #-224]
	sub	x0, x29, #176
	add	x1, sp, #208
	sub	x2, x29, #240
	mov	w3, #2
	bl	"_noise_kdf::keyed::Hmac::code"
	ldp	q1, q0, [x29, #-144]
	stp	q1, q0, [x29, #-112]
	ldp	q2, q3, [x29, #-176]
	stp	q2, q3, [x29, #-80]
	stp	q1, q0, [sp, #176]
	stp	q2, q3, [x29, #-144]
	stp	x22, x21, [x29, #-176]
Lnoise_loh122:
	adrp	x8, lnoise__static.101@PAGE
Lnoise_loh123:
	add	x8, x8, lnoise__static.101@PAGEOFF
	stp	x8, x20, [x29, #-160]
	add	x0, sp, #80
	add	x1, sp, #208
	sub	x2, x29, #176
	mov	w3, #2
	bl	"_noise_kdf::keyed::Hmac::code"
	ldp	q1, q0, [x29, #-144]
	stp	q1, q0, [sp, #144]
	ldp	q2, q3, [sp, #80]
	stp	q2, q3, [sp, #112]
	stp	q1, q0, [sp, #32]
	ldp	q0, q1, [sp, #176]
	stp	q0, q1, [x19]
	mov	x0, sp
	add	x1, x19, #32
	add	x2, sp, #32
	mov	w3, #32
	bl	"_noise_state::symmetric::hash_of_both"
	ldp	q0, q1, [sp]
	stp	q0, q1, [x19, #32]
	strb	w20, [x19, #64]
	ldp	q0, q1, [sp, #112]
	stur	q0, [x19, #65]
	stur	q1, [x19, #81]
	str	xzr, [x19, #104]
	add	sp, sp, #640
	.cfi_def_cfa wsp, 64
	ldp	x29, x30, [sp, #48]
	ldp	x20, x19, [sp, #32]
	ldp	x22, x21, [sp, #16]
	ldp	x28, x27, [sp], #64
	.cfi_def_cfa_offset 0
	.cfi_restore w30
	.cfi_restore w29
	.cfi_restore w19
	.cfi_restore w20
	.cfi_restore w21
	.cfi_restore w22
	.cfi_restore w27
	.cfi_restore w28
	ret
	.loh AdrpAdd	Lnoise_loh122, Lnoise_loh123
	.loh AdrpAdd	Lnoise_loh120, Lnoise_loh121
	.loh AdrpAdd	Lnoise_loh118, Lnoise_loh119
	.cfi_endproc

	.section	__TEXT,__literal16,16byte_literals
	.p2align	4, 0x0
lnoise_CPI36_0:
	.long	1779033703
	.long	3144134277
	.long	1013904242
	.long	2773480762
lnoise_CPI36_1:
	.long	1359893119
	.long	2600822924
	.long	528734635
	.long	1541459225
	.section	__TEXT,__text,regular,pure_instructions
	.p2align	2
"_noise_kdf::keyed::Hmac::new":
	.cfi_startproc
	stp	x28, x27, [sp, #-48]!
	.cfi_def_cfa_offset 48
	stp	x20, x19, [sp, #16]
	stp	x29, x30, [sp, #32]
	add	x29, sp, #32
	.cfi_def_cfa w29, 16
	.cfi_offset w30, -8
	.cfi_offset w29, -16
	.cfi_offset w19, -24
	.cfi_offset w20, -32
	.cfi_offset w27, -40
	.cfi_offset w28, -48
	sub	sp, sp, #560
	mov	x19, x0
Lnoise_loh124:
	adrp	x8, lnoise_CPI36_0@PAGE
Lnoise_loh125:
	ldr	q0, [x8, lnoise_CPI36_0@PAGEOFF]
	str	q0, [sp, #48]
	add	x20, sp, #64
Lnoise_loh126:
	adrp	x8, lnoise_CPI36_1@PAGE
Lnoise_loh127:
	ldr	q1, [x8, lnoise_CPI36_1@PAGEOFF]
	str	q1, [sp, #32]
	stp	q0, q1, [sp, #272]
	movi.2d	v0, #0000000000000000
	stp	q0, q0, [sp, #304]
	stp	q0, q0, [sp, #336]
	str	xzr, [sp, #368]
	movi.16b	v0, #54
	ldp	q1, q3, [x1]
	stp	q1, q3, [sp]
	eor.16b	v1, v1, v0
	eor.16b	v2, v3, v0
	stp	q1, q2, [x29, #-96]
	stp	q0, q0, [x29, #-64]
	add	x0, sp, #272
	sub	x1, x29, #96
	mov	w2, #64
	bl	"_sha2::block256::Core256::update"
	ldr	q0, [sp, #48]
	stur	q0, [x29, #-208]
	ldp	q2, q0, [sp, #16]
	stur	q0, [x29, #-192]
	movi.2d	v0, #0000000000000000
	stp	q0, q0, [x29, #-176]
	stp	q0, q0, [x29, #-144]
	stur	xzr, [x29, #-112]
	movi.16b	v0, #92
	ldr	q1, [sp]
	eor.16b	v1, v1, v0
	eor.16b	v2, v2, v0
	stp	q1, q2, [x29, #-96]
	stp	q0, q0, [x29, #-64]
	sub	x0, x29, #208
	sub	x1, x29, #96
	mov	w2, #64
	bl	"_sha2::block256::Core256::update"
	ldp	q0, q1, [sp, #336]
	stp	q0, q1, [sp, #128]
	ldr	x8, [sp, #368]
	str	x8, [sp, #160]
	ldp	q0, q1, [sp, #272]
	stp	q0, q1, [sp, #64]
	ldp	q1, q0, [sp, #304]
	stp	q1, q0, [sp, #96]
	ldp	q0, q1, [x29, #-208]
	ldp	q2, q3, [x29, #-176]
	stur	q2, [x20, #136]
	stur	q1, [sp, #184]
	stur	q0, [sp, #168]
	ldp	q0, q1, [x29, #-144]
	ldur	x8, [x29, #-112]
	str	x8, [sp, #264]
	stur	q1, [x20, #184]
	stur	q0, [x20, #168]
	stur	q3, [x20, #152]
	ldp	q0, q1, [sp, #64]
	ldp	q2, q3, [sp, #96]
	stp	q2, q3, [x19, #32]
	stp	q0, q1, [x19]
	ldp	q0, q1, [sp, #128]
	ldp	q2, q3, [sp, #160]
	stp	q2, q3, [x19, #96]
	stp	q0, q1, [x19, #64]
	ldp	q0, q1, [sp, #192]
	ldp	q3, q2, [sp, #240]
	stp	q3, q2, [x19, #176]
	ldr	q2, [sp, #224]
	stp	q1, q2, [x19, #144]
	str	q0, [x19, #128]
	add	sp, sp, #560
	.cfi_def_cfa wsp, 48
	ldp	x29, x30, [sp, #32]
	ldp	x20, x19, [sp, #16]
	ldp	x28, x27, [sp], #48
	.cfi_def_cfa_offset 0
	.cfi_restore w30
	.cfi_restore w29
	.cfi_restore w19
	.cfi_restore w20
	.cfi_restore w27
	.cfi_restore w28
	ret
	.loh AdrpLdr	Lnoise_loh126, Lnoise_loh127
	.loh AdrpAdrp	Lnoise_loh124, Lnoise_loh126
	.loh AdrpLdr	Lnoise_loh124, Lnoise_loh125
	.cfi_endproc

	.p2align	2
"_noise_kdf::keyed::Hmac::code":
	.cfi_startproc
	stp	x28, x27, [sp, #-96]!
	.cfi_def_cfa_offset 96
	stp	x26, x25, [sp, #16]
	stp	x24, x23, [sp, #32]
	stp	x22, x21, [sp, #48]
	stp	x20, x19, [sp, #64]
	stp	x29, x30, [sp, #80]
	add	x29, sp, #80
	.cfi_def_cfa w29, 16
	.cfi_offset w30, -8
	.cfi_offset w29, -16
	.cfi_offset w19, -24
	.cfi_offset w20, -32
	.cfi_offset w21, -40
	.cfi_offset w22, -48
	.cfi_offset w23, -56
	.cfi_offset w24, -64
	.cfi_offset w25, -72
	.cfi_offset w26, -80
	.cfi_offset w27, -88
	.cfi_offset w28, -96
	sub	sp, sp, #528
	mov	x22, x3
	mov	x21, x2
	mov	x20, x1
	mov	x19, x0
	ldrb	w8, [x1]
	add	x23, sp, #304
	ldp	q0, q1, [x1, #16]
	add	x25, sp, #104
	stur	q0, [x25, #119]
	ldur	q0, [x1, #1]
	str	q0, [sp, #208]
	stur	q1, [x25, #135]
	ldp	q1, q0, [x1, #64]
	stur	q0, [x25, #183]
	ldr	q2, [x1, #48]
	stur	q1, [x25, #167]
	stur	q2, [x25, #151]
	ldr	x9, [x1, #96]
	strb	w8, [sp, #104]
	orr	x24, x25, #0x1
	ldp	q1, q2, [sp, #208]
	stur	q2, [sp, #121]
	stur	q1, [sp, #105]
	ldp	q1, q2, [sp, #240]
	ldr	q3, [sp, #272]
	str	q0, [x25, #80]
	stur	q3, [x25, #65]
	stur	q2, [x25, #49]
	stur	q1, [x25, #33]
	str	x9, [sp, #200]
	ldp	x1, x2, [x2]
	add	x0, sp, #104
	bl	"_sha2::block256::Core256::update"
	cmp	x22, #1
	b.eq	Lnoise_BB37_2
	ldp	x1, x2, [x21, #16]
	add	x0, sp, #104
	bl	"_sha2::block256::Core256::update"
Lnoise_BB37_2:
	ldrb	w8, [x20, #104]
	ldur	q0, [x20, #120]
	stur	q0, [x25, #215]
	ldur	q0, [x20, #105]
	str	q0, [sp, #304]
	ldur	q0, [x20, #136]
	stur	q0, [x25, #231]
	ldur	q0, [x20, #184]
	stur	q0, [x23, #79]
	ldur	q1, [x20, #168]
	stur	q1, [x23, #63]
	ldur	q1, [x20, #152]
	stur	q1, [x23, #47]
	ldr	x9, [x20, #200]
	strb	w8, [sp]
	ldp	q1, q2, [sp, #304]
	stur	q2, [sp, #17]
	stur	q1, [sp, #1]
	ldp	q1, q2, [sp, #336]
	ldr	q3, [sp, #368]
	str	q0, [sp, #80]
	stur	q3, [sp, #65]
	stur	q2, [sp, #49]
	stur	q1, [sp, #33]
	str	x9, [sp, #96]
	ldrb	w8, [sp, #104]
	ldr	x22, [sp, #200]
	lsr	x25, x22, #21
	lsr	x26, x22, #13
	sturb	w8, [x29, #-192]
	ldp	q0, q1, [x24, #32]
	stur	q0, [x23, #145]
	stur	q1, [x23, #161]
	ldr	q0, [x24, #64]
	stur	q0, [x23, #177]
	ldur	q0, [x24, #79]
	stur	q0, [x29, #-112]
	ldp	q0, q1, [x24]
	stur	q0, [x23, #113]
	lsl	x24, x22, #3
	stur	q1, [x23, #129]
	mov	w21, #55
	sub	w8, w21, w22
	and	x8, x8, #0x3f
	stur	x22, [x29, #-96]
Lnoise_loh128:
	adrp	x20, lnoise__static.100@PAGE
Lnoise_loh129:
	add	x20, x20, lnoise__static.100@PAGEOFF
	sub	x0, x29, #192
	add	x2, x8, #1
	mov	x1, x20
	bl	"_sha2::block256::Core256::update"
	lsl	x8, x22, #43
	and	x8, x8, #0xff000000000000
	orr	x8, x8, x22, lsl #59
	bfi	x8, x26, #40, #8
	bfi	x8, x25, #32, #8
	lsr	x9, x22, #5
	and	x9, x9, #0xff000000
	and	x10, x25, #0xff0000
	lsr	x11, x22, #37
	and	x11, x11, #0xff00
	orr	x9, x9, x10
	orr	x9, x9, x11
	orr	x8, x8, x9
	orr	x8, x8, x24, lsr #56
	stur	x8, [x29, #-200]
	sub	x0, x29, #192
	sub	x1, x29, #200
	mov	w2, #8
	bl	"_sha2::block256::Core256::update"
	ldp	q0, q1, [x29, #-192]
	rev32.16b	v0, v0
	rev32.16b	v1, v1
	stp	q0, q1, [x29, #-192]
	mov	x0, sp
	sub	x1, x29, #192
	mov	w2, #32
	bl	"_sha2::block256::Core256::update"
	ldrb	w8, [sp]
	ldr	x22, [sp, #96]
	lsr	x24, x22, #21
	lsr	x25, x22, #13
	sturb	w8, [x29, #-192]
	ldur	q0, [sp, #33]
	stur	q0, [x23, #145]
	ldur	q0, [sp, #49]
	stur	q0, [x23, #161]
	ldur	q0, [sp, #65]
	stur	q0, [x23, #177]
	ldr	q0, [sp, #80]
	stur	q0, [x29, #-112]
	ldur	q0, [sp, #1]
	stur	q0, [x23, #113]
	ldur	q0, [sp, #17]
	stur	q0, [x23, #129]
	lsl	x23, x22, #3
	sub	w8, w21, w22
	and	x8, x8, #0x3f
	stur	x22, [x29, #-96]
	sub	x0, x29, #192
	add	x2, x8, #1
	mov	x1, x20
	bl	"_sha2::block256::Core256::update"
	lsl	x8, x22, #43
	and	x8, x8, #0xff000000000000
	orr	x8, x8, x22, lsl #59
	bfi	x8, x25, #40, #8
	bfi	x8, x24, #32, #8
	lsr	x9, x22, #5
	and	x9, x9, #0xff000000
	and	x10, x24, #0xff0000
	lsr	x11, x22, #37
	and	x11, x11, #0xff00
	orr	x9, x9, x10
	orr	x9, x9, x11
	orr	x8, x8, x9
	orr	x8, x8, x23, lsr #56
	stur	x8, [x29, #-200]
	sub	x0, x29, #192
	sub	x1, x29, #200
	mov	w2, #8
	bl	"_sha2::block256::Core256::update"
	ldp	q0, q1, [x29, #-192]
	rev32.16b	v0, v0
	rev32.16b	v1, v1
	stp	q0, q1, [x19]
	add	sp, sp, #528
	.cfi_def_cfa wsp, 96
	ldp	x29, x30, [sp, #80]
	ldp	x20, x19, [sp, #64]
	ldp	x22, x21, [sp, #48]
	ldp	x24, x23, [sp, #32]
	ldp	x26, x25, [sp, #16]
	ldp	x28, x27, [sp], #96
	.cfi_def_cfa_offset 0
	.cfi_restore w30
	.cfi_restore w29
	.cfi_restore w19
	.cfi_restore w20
	.cfi_restore w21
	.cfi_restore w22
	.cfi_restore w23
	.cfi_restore w24
	.cfi_restore w25
	.cfi_restore w26
	.cfi_restore w27
	.cfi_restore w28
	ret
	.loh AdrpAdd	Lnoise_loh128, Lnoise_loh129
	.cfi_endproc

	.section	__TEXT,__literal16,16byte_literals
	.p2align	4, 0x0
lnoise_CPI38_0:
	.byte	1
	.byte	2
	.byte	4
	.byte	8
	.byte	16
	.byte	32
	.byte	64
	.byte	128
	.byte	1
	.byte	2
	.byte	4
	.byte	8
	.byte	16
	.byte	32
	.byte	64
	.byte	128
	.section	__TEXT,__text,regular,pure_instructions
	.p2align	2
"_noise_c::supplied_keys::result_for":
	.cfi_startproc
	sub	sp, sp, #80
	.cfi_def_cfa_offset 80
	stp	x20, x19, [sp, #48]
	stp	x29, x30, [sp, #64]
	add	x29, sp, #64
	.cfi_def_cfa w29, 16
	.cfi_offset w30, -8
	.cfi_offset w29, -16
	.cfi_offset w19, -24
	.cfi_offset w20, -32
	.cfi_remember_state
	mov	x19, x0
	strb	wzr, [sp, #32]
	movi.2d	v0, #0000000000000000
	stp	q0, q0, [sp]
	cbz	x2, Lnoise_BB38_5
	mov	x8, x1
	ldrb	w9, [x8], #65
	cmp	w9, #0
	cset	w9, ne
	cmp	w9, w3, uxtb
	b.ne	Lnoise_BB38_3
	ldur	q0, [x1, #1]
	ldur	q1, [x1, #17]
	ldp	q2, q3, [x4]
	cmeq.16b	v1, v1, v3
Lnoise_loh130:
	adrp	x9, lnoise_CPI38_0@PAGE
Lnoise_loh131:
	ldr	q3, [x9, lnoise_CPI38_0@PAGEOFF]
	bic.16b	v1, v3, v1
	ext.16b	v4, v1, v1, #8
	zip1.16b	v1, v1, v4
	addv.8h	h1, v1
	fmov	w9, s1
	cmeq.16b	v0, v0, v2
	bic.16b	v0, v3, v0
	ext.16b	v1, v0, v0, #8
	zip1.16b	v0, v0, v1
	addv.8h	h0, v0
	fmov	w10, s0
	orr	w9, w10, w9
	tst	w9, #0xffff
	b.eq	Lnoise_BB38_7
Lnoise_BB38_3:
	sub	x2, x2, #1
	mov	x0, sp
	mov	x1, x8
	bl	"_noise_c::supplied_keys::result_for"
	ldrb	w8, [sp]
Lnoise_BB38_4:
	strb	w8, [x19]
	ldur	q0, [sp, #1]
	stur	q0, [x19, #1]
	ldur	q0, [sp, #17]
	stur	q0, [x19, #17]
	.cfi_def_cfa wsp, 80
	b	Lnoise_BB38_6
Lnoise_BB38_5:
	.cfi_restore_state
	.cfi_remember_state
	strb	wzr, [x19, #32]
	stp	q0, q0, [x19]
	.cfi_def_cfa wsp, 80
Lnoise_BB38_6:
	ldp	x29, x30, [sp, #64]
	ldp	x20, x19, [sp, #48]
	add	sp, sp, #80
	.cfi_def_cfa_offset 0
	.cfi_restore w30
	.cfi_restore w29
	.cfi_restore w19
	.cfi_restore w20
	ret
Lnoise_BB38_7:
	.cfi_restore_state
	ldur	q0, [x1, #33]
	stur	q0, [sp, #1]
	ldur	q0, [x1, #49]
	stur	q0, [sp, #17]
	mov	w8, #1
	b	Lnoise_BB38_4
	.loh AdrpLdr	Lnoise_loh130, Lnoise_loh131
	.cfi_endproc

	.p2align	2
"_noise_handshake::handshake::Handshake::go_on::<#9bbb2dae5a99aff0>":
	.cfi_startproc
	sub	sp, sp, #368
	.cfi_def_cfa_offset 368
	stp	x28, x27, [sp, #352]
	.cfi_offset w27, -8
	.cfi_offset w28, -16
	ldrb	w11, [x1, #64]
	ldrb	w9, [x2]
	add	x8, sp, #112
	cmp	w11, #1
	ldur	q0, [x2, #1]
	cset	w12, eq
	ldur	q1, [x2, #17]
	stp	q0, q1, [x8, #96]
	ldrb	w10, [x2, #33]
	ldur	q0, [x2, #34]
	ldur	q1, [x2, #50]
	stp	q0, q1, [x8, #64]
	movi.2d	v0, #0000000000000000
	stp	q0, q0, [sp, #16]
	str	wzr, [sp, #8]
	strb	wzr, [sp, #12]
	ldp	q1, q2, [x1]
	ldp	q3, q4, [x1, #32]
	stp	q3, q4, [x8, #32]
	stp	q1, q2, [sp, #112]
	ldur	q1, [x1, #65]
	ldur	q2, [x1, #81]
	stp	q0, q1, [sp, #48]
	str	q2, [sp, #80]
	ldr	q1, [x1, #96]
	stur	q1, [sp, #95]
	ldr	x13, [x0, #680]
	ldrb	w14, [x0, #746]
	add	x13, x13, x14
	str	x13, [x0, #680]
	ldrb	w13, [x0, #688]
	add	w13, w13, #1
	strb	w13, [x0, #688]
	ldrb	w16, [x0, #305]
	stp	q0, q0, [x8, #144]
	str	q0, [x8, #176]
	and	x13, x13, #0xff
	str	wzr, [sp, #248]
	mov	w14, #24
	umaddl	x14, w13, w14, x0
	ldr	x15, [x0, #264]
	add	x17, x14, #72
	cmp	x15, x13
	csel	x13, x17, xzr, hi
	strb	wzr, [sp, #252]
	b.ls	Lnoise_BB39_9
	ldr	x14, [x17, #16]
	stp	q0, q0, [x8, #208]
	str	q0, [x8, #192]
	cbz	x14, Lnoise_BB39_10
	mov	x1, #0
	mov	w15, #0
	b	Lnoise_BB39_5
Lnoise_BB39_3:
	mov	w2, #0
	orr	w12, w3, w15, lsl #16
	add	x3, sp, #304
	str	w12, [x3, x1, lsl #2]
	add	x12, x1, #1
	str	x12, [sp, #344]
	mov	w12, #1
Lnoise_BB39_4:
	add	w15, w15, w2
	add	x1, x1, #1
	cmp	x14, x1
	b.eq	Lnoise_BB39_11
Lnoise_BB39_5:
	ldrb	w3, [x17, x1]
	sub	w2, w3, #2
	cmp	w2, #5
	b.lo	Lnoise_BB39_3
	cmp	w3, #1
	b.ne	Lnoise_BB39_8
	tst	w12, #0x1
	mov	w2, #32
	mov	w3, #48
	csel	w2, w3, w2, ne
	mov	w3, #8192
	mov	w4, #12288
	csel	w3, w4, w3, ne
	orr	w3, w3, w15, lsl #16
	orr	w3, w3, #0x1
	add	x4, sp, #304
	str	w3, [x4, x1, lsl #2]
	add	x3, x1, #1
	str	x3, [sp, #344]
	b	Lnoise_BB39_4
Lnoise_BB39_8:
	mov	w2, #8192
	orr	w2, w2, w15, lsl #16
	add	x3, sp, #304
	str	w2, [x3, x1, lsl #2]
	add	x2, x1, #1
	str	x2, [sp, #344]
	orr	w12, w12, w16
	mov	w2, #32
	b	Lnoise_BB39_4
Lnoise_BB39_9:
	mov	w12, #0
	mov	w16, #0
	b	Lnoise_BB39_16
Lnoise_BB39_10:
	mov	w15, #0
Lnoise_BB39_11:
	mov	x16, #0
Lnoise_BB39_12:
	cbz	x14, Lnoise_BB39_15
	ldrb	w17, [x13], #1
	sub	x14, x14, #1
	cmp	w17, #6
	b.ne	Lnoise_BB39_12
	add	x16, x16, #1
	b	Lnoise_BB39_12
Lnoise_BB39_15:
	tst	w12, #0x1
	mov	w12, #16
	csel	w12, w12, wzr, ne
	add	w12, w15, w12
	ldp	q0, q1, [x8, #192]
	stp	q0, q1, [x8, #144]
	ldr	q0, [x8, #224]
	str	q0, [x8, #176]
	str	wzr, [sp, #248]
	strb	wzr, [sp, #252]
Lnoise_BB39_16:
	add	x13, x0, #696
	ldp	q0, q1, [x8, #144]
	stp	q0, q1, [sp, #16]
	ldr	q2, [x8, #176]
	str	q2, [sp, #48]
	ldr	w14, [sp, #248]
	str	w14, [sp, #8]
	ldrb	w15, [sp, #252]
	strb	w15, [sp, #12]
	stp	q0, q1, [x13]
	str	q2, [x13, #32]
	strh	w12, [x0, #744]
	strb	w16, [x0, #746]
	add	x12, x0, #747
	str	w14, [x12]
	strb	w15, [x0, #751]
	ldp	q1, q0, [x8, #32]
	stp	q1, q0, [x0, #784]
	ldp	q1, q0, [sp, #112]
	stp	q1, q0, [x0, #752]
	strb	w11, [x0, #816]
	add	x11, x0, #817
	ldp	q0, q1, [sp, #64]
	ldur	q2, [sp, #95]
	str	q2, [x0, #848]
	stp	q0, q1, [x11]
	strb	w9, [x0, #312]
	add	x9, x0, #313
	ldp	q0, q1, [x8, #96]
	stp	q0, q1, [x9]
	strb	w10, [x0, #345]
	add	x9, x0, #346
	ldp	q0, q1, [x8, #64]
	stp	q0, q1, [x9]
	ldp	x28, x27, [sp, #352]
	add	sp, sp, #368
	.cfi_def_cfa_offset 0
	.cfi_restore w27
	.cfi_restore w28
	ret
	.cfi_endproc

	.p2align	2
"_noise_handshake::setup::mix_premessage":
	.cfi_startproc
	sub	sp, sp, #160
	.cfi_def_cfa_offset 160
	stp	x24, x23, [sp, #96]
	stp	x22, x21, [sp, #112]
	stp	x20, x19, [sp, #128]
	stp	x29, x30, [sp, #144]
	add	x29, sp, #144
	.cfi_def_cfa w29, 16
	.cfi_offset w30, -8
	.cfi_offset w29, -16
	.cfi_offset w19, -24
	.cfi_offset w20, -32
	.cfi_offset w21, -40
	.cfi_offset w22, -48
	.cfi_offset w23, -56
	.cfi_offset w24, -64
	.cfi_remember_state
	movi.2d	v0, #0000000000000000
	stp	q0, q0, [sp, #32]
	cbz	x4, Lnoise_BB40_3
	ldrb	w8, [x3], #1
	sub	w9, w8, #2
	cmp	w9, #5
	b.hs	Lnoise_BB40_4
Lnoise_BB40_2:
	sub	x4, x4, #1
	bl	"_noise_handshake::setup::mix_premessage"
Lnoise_BB40_3:
	.cfi_def_cfa wsp, 160
	ldp	x29, x30, [sp, #144]
	ldp	x20, x19, [sp, #128]
	ldp	x22, x21, [sp, #112]
	ldp	x24, x23, [sp, #96]
	add	sp, sp, #160
	.cfi_def_cfa_offset 0
	.cfi_restore w30
	.cfi_restore w29
	.cfi_restore w19
	.cfi_restore w20
	.cfi_restore w21
	.cfi_restore w22
	.cfi_restore w23
	.cfi_restore w24
	ret
Lnoise_BB40_4:
	.cfi_restore_state
	cbnz	w8, Lnoise_BB40_7
	ldrb	w8, [x2]
	cmp	w8, #1
	b.ne	Lnoise_BB40_9
	mov	x21, x4
	mov	x22, x3
	ldur	q0, [x2, #1]
	ldur	q1, [x2, #17]
	stp	q0, q1, [sp, #32]
	mov	x23, x2
	add	x2, sp, #32
	mov	x19, x0
	mov	x20, x1
	bl	"_noise_handshake::tokens::mix_ephemeral"
	mov	x0, x19
	mov	x1, x20
	mov	x2, x23
	mov	x3, x22
	mov	x4, x21
	b	Lnoise_BB40_2
Lnoise_BB40_7:
	ldrb	w8, [x2, #33]
	cmp	w8, #1
	b.ne	Lnoise_BB40_9
	mov	x19, x4
	mov	x20, x3
	ldur	q0, [x2, #34]
	ldur	q1, [x2, #50]
	stp	q0, q1, [sp]
	mov	x21, x0
	add	x0, sp, #64
	mov	x22, x1
	add	x1, x21, #32
	mov	x23, x2
	mov	x2, sp
	mov	w3, #32
	bl	"_noise_state::symmetric::hash_of_both"
	mov	x0, x21
	mov	x1, x22
	mov	x2, x23
	ldp	q0, q1, [sp, #64]
	stp	q0, q1, [x21, #32]
	mov	x3, x20
	mov	x4, x19
	b	Lnoise_BB40_2
Lnoise_BB40_9:
	brk	#0x1
	.cfi_endproc

	.p2align	2
"_noise_names::valid::ValidPattern::overhead":
	.cfi_startproc
	sub	sp, sp, #64
	.cfi_def_cfa_offset 64
	stp	x20, x19, [sp, #32]
	stp	x29, x30, [sp, #48]
	add	x29, sp, #48
	.cfi_def_cfa w29, 16
	.cfi_offset w30, -8
	.cfi_offset w29, -16
	.cfi_offset w19, -24
	.cfi_offset w20, -32
	.cfi_remember_state
	mov	x20, x0
	strh	wzr, [sp, #8]
	str	xzr, [sp]
	and	x8, x1, #0xff
	sub	x19, x8, #1
	mov	x0, sp
	mov	x1, x20
	mov	x2, x19
	bl	"_noise_names::valid::ValidPattern::seen_after"
	ldr	x8, [sp]
	str	x8, [sp, #16]
	ldrb	w8, [sp, #8]
	strb	w8, [sp, #24]
	ldrb	w2, [sp, #9]
	add	x8, x20, #72
	ldr	x9, [x20, #264]
	cbz	x9, Lnoise_BB41_7
	mov	x10, #0
	mov	x11, x8
	b	Lnoise_BB41_3
Lnoise_BB41_2:
	add	x10, x10, #1
	add	x11, x11, #24
	cmp	x10, x9
	b.eq	Lnoise_BB41_7
Lnoise_BB41_3:
	mov	w12, #24
	madd	x12, x10, x12, x8
	ldr	x12, [x12, #16]
	mov	x13, x11
	cbz	x12, Lnoise_BB41_2
Lnoise_BB41_4:
	ldrb	w14, [x13], #1
	cmp	w14, #6
	b.eq	Lnoise_BB41_6
	subs	x12, x12, #1
	b.ne	Lnoise_BB41_4
	b	Lnoise_BB41_2
Lnoise_BB41_6:
	mov	w20, #1
	b	Lnoise_BB41_8
Lnoise_BB41_7:
	mov	w20, #0
Lnoise_BB41_8:
	mov	w9, #24
	smaddl	x3, w19, w9, x8
	ldr	x4, [x3, #16]
	add	x0, sp, #16
	mov	x1, x20
	bl	"_noise_names::seen::Seen::tokens_len"
	ldr	s0, [sp, #20]
	ushll.8h	v0, v0, #0
	shl.4h	v0, v0, #15
	cmlt.4h	v0, v0, #0
	umaxv.4h	h0, v0
	fmov	w8, s0
	tbz	w8, #0, Lnoise_BB41_11
Lnoise_BB41_9:
	mov	w8, #16
Lnoise_BB41_10:
	add	w0, w8, w0
	.cfi_def_cfa wsp, 64
	ldp	x29, x30, [sp, #48]
	ldp	x20, x19, [sp, #32]
	add	sp, sp, #64
	.cfi_def_cfa_offset 0
	.cfi_restore w30
	.cfi_restore w29
	.cfi_restore w19
	.cfi_restore w20
	ret
Lnoise_BB41_11:
	.cfi_restore_state
	ldrb	w8, [sp, #24]
	cbz	w20, Lnoise_BB41_15
	tbnz	w8, #0, Lnoise_BB41_15
	ldrb	w8, [sp, #16]
	tbnz	w8, #0, Lnoise_BB41_9
	ldrb	w8, [sp, #18]
	tbz	w8, #0, Lnoise_BB41_16
	b	Lnoise_BB41_9
Lnoise_BB41_15:
	orr	w8, w20, w8
	tbnz	w8, #0, Lnoise_BB41_9
Lnoise_BB41_16:
	mov	w8, #0
	b	Lnoise_BB41_10
	.cfi_endproc

	.p2align	2
"_noise_names::seen::Seen::tokens_len":
	.cfi_startproc
	cbz	x4, Lnoise_BB42_27
	tbz	w1, #0, Lnoise_BB42_29
	tst	w2, #0xff
	b.eq	Lnoise_BB42_54
	mov	w8, #0
	b	Lnoise_BB42_6
Lnoise_BB42_4:
	add	w8, w8, #32
	mov	w9, #1
	strb	w9, [x0, #2]
Lnoise_BB42_5:
	subs	x4, x4, #1
	b.eq	Lnoise_BB42_28
Lnoise_BB42_6:
	ldrb	w9, [x3], #1
	cmp	w9, #2
	b.le	Lnoise_BB42_10
	cmp	w9, #4
	b.gt	Lnoise_BB42_21
	cmp	w9, #3
	b.ne	Lnoise_BB42_24
	mov	w9, #1
	strb	w9, [x0, #5]
	b	Lnoise_BB42_5
Lnoise_BB42_10:
	cbz	w9, Lnoise_BB42_4
	cmp	w9, #1
	b.ne	Lnoise_BB42_23
	ldrb	w9, [x0, #4]
	tbnz	w9, #0, Lnoise_BB42_19
	ldrb	w9, [x0, #5]
	tbnz	w9, #0, Lnoise_BB42_19
	ldrb	w9, [x0, #6]
	tbnz	w9, #0, Lnoise_BB42_19
	ldrb	w9, [x0, #7]
	tbnz	w9, #0, Lnoise_BB42_19
	ldrb	w9, [x0, #8]
	tbnz	w9, #0, Lnoise_BB42_19
	ldrb	w9, [x0]
	tbnz	w9, #0, Lnoise_BB42_19
	ldrb	w9, [x0, #2]
	cmp	w9, #1
	b.ne	Lnoise_BB42_26
Lnoise_BB42_19:
	mov	w9, #48
Lnoise_BB42_20:
	add	w8, w9, w8
	mov	w9, #1
	strb	w9, [x0, #3]
	b	Lnoise_BB42_5
Lnoise_BB42_21:
	cmp	w9, #5
	b.ne	Lnoise_BB42_25
	mov	w9, #1
	strb	w9, [x0, #7]
	b	Lnoise_BB42_5
Lnoise_BB42_23:
	mov	w9, #1
	strb	w9, [x0, #4]
	b	Lnoise_BB42_5
Lnoise_BB42_24:
	mov	w9, #1
	strb	w9, [x0, #6]
	b	Lnoise_BB42_5
Lnoise_BB42_25:
	mov	w9, #1
	strb	w9, [x0, #8]
	b	Lnoise_BB42_5
Lnoise_BB42_26:
	mov	w9, #32
	b	Lnoise_BB42_20
Lnoise_BB42_27:
	mov	w8, #0
Lnoise_BB42_28:
	mov	x0, x8
	ret
Lnoise_BB42_29:
	mov	w8, #0
	b	Lnoise_BB42_32
Lnoise_BB42_30:
	mov	w9, #1
	strb	w9, [x0, #4]
Lnoise_BB42_31:
	subs	x4, x4, #1
	b.eq	Lnoise_BB42_28
Lnoise_BB42_32:
	ldrb	w9, [x3], #1
	cmp	w9, #2
	b.le	Lnoise_BB42_36
	cmp	w9, #4
	b.gt	Lnoise_BB42_45
	cmp	w9, #3
	b.ne	Lnoise_BB42_49
	mov	w9, #1
	strb	w9, [x0, #5]
	b	Lnoise_BB42_31
Lnoise_BB42_36:
	cbz	w9, Lnoise_BB42_47
	cmp	w9, #1
	b.ne	Lnoise_BB42_30
	ldrb	w9, [x0, #4]
	tbnz	w9, #0, Lnoise_BB42_43
	ldrb	w9, [x0, #5]
	tbnz	w9, #0, Lnoise_BB42_43
	ldrb	w9, [x0, #6]
	tbnz	w9, #0, Lnoise_BB42_43
	ldrb	w9, [x0, #7]
	tbnz	w9, #0, Lnoise_BB42_43
	ldrb	w9, [x0, #8]
	cmp	w9, #1
	b.ne	Lnoise_BB42_52
Lnoise_BB42_43:
	mov	w9, #48
	add	w8, w9, w8
	mov	w9, #1
	tst	w2, #0xff
	b.eq	Lnoise_BB42_53
Lnoise_BB42_44:
	strb	w9, [x0, #3]
	b	Lnoise_BB42_31
Lnoise_BB42_45:
	cmp	w9, #5
	b.ne	Lnoise_BB42_50
	mov	w9, #1
	strb	w9, [x0, #7]
	b	Lnoise_BB42_31
Lnoise_BB42_47:
	add	w8, w8, #32
	mov	w9, #1
	tst	w2, #0xff
	b.eq	Lnoise_BB42_51
	strb	w9, [x0, #2]
	b	Lnoise_BB42_31
Lnoise_BB42_49:
	mov	w9, #1
	strb	w9, [x0, #6]
	b	Lnoise_BB42_31
Lnoise_BB42_50:
	mov	w9, #1
	strb	w9, [x0, #8]
	b	Lnoise_BB42_31
Lnoise_BB42_51:
	strb	w9, [x0]
	b	Lnoise_BB42_31
Lnoise_BB42_52:
	mov	w9, #32
	add	w8, w9, w8
	mov	w9, #1
	tst	w2, #0xff
	b.ne	Lnoise_BB42_44
Lnoise_BB42_53:
	strb	w9, [x0, #1]
	b	Lnoise_BB42_31
Lnoise_BB42_54:
	mov	w8, #0
	b	Lnoise_BB42_57
Lnoise_BB42_55:
	add	w8, w8, #32
	mov	w9, #1
	strb	w9, [x0]
Lnoise_BB42_56:
	subs	x4, x4, #1
	b.eq	Lnoise_BB42_28
Lnoise_BB42_57:
	ldrb	w9, [x3], #1
	cmp	w9, #2
	b.le	Lnoise_BB42_61
	cmp	w9, #4
	b.gt	Lnoise_BB42_72
	cmp	w9, #3
	b.ne	Lnoise_BB42_75
	mov	w9, #1
	strb	w9, [x0, #5]
	b	Lnoise_BB42_56
Lnoise_BB42_61:
	cbz	w9, Lnoise_BB42_55
	cmp	w9, #1
	b.ne	Lnoise_BB42_74
	ldrb	w9, [x0, #4]
	tbnz	w9, #0, Lnoise_BB42_70
	ldrb	w9, [x0, #5]
	tbnz	w9, #0, Lnoise_BB42_70
	ldrb	w9, [x0, #6]
	tbnz	w9, #0, Lnoise_BB42_70
	ldrb	w9, [x0, #7]
	tbnz	w9, #0, Lnoise_BB42_70
	ldrb	w9, [x0, #8]
	tbnz	w9, #0, Lnoise_BB42_70
	ldrb	w9, [x0]
	tbnz	w9, #0, Lnoise_BB42_70
	ldrb	w9, [x0, #2]
	cmp	w9, #1
	b.ne	Lnoise_BB42_77
Lnoise_BB42_70:
	mov	w9, #48
Lnoise_BB42_71:
	add	w8, w9, w8
	mov	w9, #1
	strb	w9, [x0, #1]
	b	Lnoise_BB42_56
Lnoise_BB42_72:
	cmp	w9, #5
	b.ne	Lnoise_BB42_76
	mov	w9, #1
	strb	w9, [x0, #7]
	b	Lnoise_BB42_56
Lnoise_BB42_74:
	mov	w9, #1
	strb	w9, [x0, #4]
	b	Lnoise_BB42_56
Lnoise_BB42_75:
	mov	w9, #1
	strb	w9, [x0, #6]
	b	Lnoise_BB42_56
Lnoise_BB42_76:
	mov	w9, #1
	strb	w9, [x0, #8]
	b	Lnoise_BB42_56
Lnoise_BB42_77:
	mov	w9, #32
	b	Lnoise_BB42_71
	.cfi_endproc

	.p2align	2
"_noise_c::message_layout::piece":
	.cfi_startproc
	sub	sp, sp, #144
	.cfi_def_cfa_offset 144
	stp	x28, x27, [sp, #48]
	stp	x26, x25, [sp, #64]
	stp	x24, x23, [sp, #80]
	stp	x22, x21, [sp, #96]
	stp	x20, x19, [sp, #112]
	stp	x29, x30, [sp, #128]
	add	x29, sp, #128
	.cfi_def_cfa w29, 16
	.cfi_offset w30, -8
	.cfi_offset w29, -16
	.cfi_offset w19, -24
	.cfi_offset w20, -32
	.cfi_offset w21, -40
	.cfi_offset w22, -48
	.cfi_offset w23, -56
	.cfi_offset w24, -64
	.cfi_offset w25, -72
	.cfi_offset w26, -80
	.cfi_offset w27, -88
	.cfi_offset w28, -96
	mov	x19, x6
	mov	x23, x5
	mov	x21, x4
	mov	x22, x3
	mov	x24, x1
	mov	x20, x0
	strh	wzr, [sp, #24]
	str	xzr, [sp, #16]
	and	x8, x2, #0xff
	sub	x25, x8, #1
	add	x0, sp, #16
	mov	x2, x25
	bl	"_noise_names::valid::ValidPattern::seen_after"
	ldr	x8, [sp, #16]
	str	x8, [sp, #32]
	ldrb	w8, [sp, #24]
	strb	w8, [sp, #40]
	ldrb	w2, [sp, #25]
	add	x27, x24, #72
	ldr	x28, [x24, #264]
	cbz	x28, Lnoise_BB43_7
	mov	x8, #0
	add	x9, x24, #72
	b	Lnoise_BB43_3
Lnoise_BB43_2:
	add	x8, x8, #1
	add	x9, x9, #24
	cmp	x8, x28
	b.eq	Lnoise_BB43_7
Lnoise_BB43_3:
	mov	w10, #24
	madd	x10, x8, x10, x27
	ldr	x10, [x10, #16]
	mov	x11, x9
	cbz	x10, Lnoise_BB43_2
Lnoise_BB43_4:
	ldrb	w12, [x11], #1
	cmp	w12, #6
	b.eq	Lnoise_BB43_6
	subs	x10, x10, #1
	b.ne	Lnoise_BB43_4
	b	Lnoise_BB43_2
Lnoise_BB43_6:
	mov	w1, #1
	b	Lnoise_BB43_8
Lnoise_BB43_7:
	mov	w1, #0
Lnoise_BB43_8:
	mov	w8, #24
	smaddl	x26, w25, w8, x27
	add	x0, sp, #32
	and	x4, x22, #0xff
	mov	x3, x26
	bl	"_noise_names::seen::Seen::tokens_len"
	ldrb	w8, [sp, #32]
	ldrb	w9, [sp, #34]
	ldr	s0, [sp, #36]
	ushll.8h	v0, v0, #0
	ldrb	w10, [sp, #40]
	str	w19, [sp, #12]
	cbz	x28, Lnoise_BB43_15
	mov	x11, #0
	add	x12, x24, #72
	b	Lnoise_BB43_11
Lnoise_BB43_10:
	add	x11, x11, #1
	add	x12, x12, #24
	cmp	x11, x28
	b.eq	Lnoise_BB43_15
Lnoise_BB43_11:
	mov	w13, #24
	madd	x13, x11, x13, x27
	ldr	x13, [x13, #16]
	mov	x14, x12
	cbz	x13, Lnoise_BB43_10
Lnoise_BB43_12:
	ldrb	w15, [x14], #1
	cmp	w15, #6
	b.eq	Lnoise_BB43_14
	subs	x13, x13, #1
	b.ne	Lnoise_BB43_12
	b	Lnoise_BB43_10
Lnoise_BB43_14:
	mov	w11, #1
	b	Lnoise_BB43_16
Lnoise_BB43_15:
	mov	w11, #0
Lnoise_BB43_16:
	shl.4h	v0, v0, #15
	cmlt.4h	v0, v0, #0
	umaxv.4h	h0, v0
	fmov	w12, s0
	eor	w13, w11, #0x1
	orr	w11, w11, w10
	orr	w8, w8, w9
	tst	w13, #0x1
	csel	w8, w11, w8, ne
	tst	w10, #0x1
	csel	w8, w11, w8, ne
	tst	w12, #0x1
	csinc	w19, w8, wzr, eq
	strh	wzr, [sp, #24]
	str	xzr, [sp, #16]
	add	x0, sp, #16
	mov	x1, x24
	mov	x2, x25
	bl	"_noise_names::valid::ValidPattern::seen_after"
	ldr	x8, [sp, #16]
	str	x8, [sp, #32]
	ldrb	w8, [sp, #24]
	strb	w8, [sp, #40]
	ldrb	w2, [sp, #25]
	cbz	x28, Lnoise_BB43_23
	mov	x8, #0
	mov	x9, x27
	b	Lnoise_BB43_19
Lnoise_BB43_18:
	add	x8, x8, #1
	add	x9, x9, #24
	cmp	x8, x28
	b.eq	Lnoise_BB43_23
Lnoise_BB43_19:
	mov	w10, #24
	madd	x10, x8, x10, x27
	ldr	x10, [x10, #16]
	mov	x11, x9
	cbz	x10, Lnoise_BB43_18
Lnoise_BB43_20:
	ldrb	w12, [x11], #1
	cmp	w12, #6
	b.eq	Lnoise_BB43_22
	subs	x10, x10, #1
	b.ne	Lnoise_BB43_20
	b	Lnoise_BB43_18
Lnoise_BB43_22:
	mov	w1, #1
	b	Lnoise_BB43_24
Lnoise_BB43_23:
	mov	w1, #0
Lnoise_BB43_24:
	ands	w19, w23, w19
	mov	w8, #16
	csel	w23, w8, wzr, ne
	add	x0, sp, #32
	and	x4, x22, #0xff
	mov	x3, x26
	bl	"_noise_names::seen::Seen::tokens_len"
	strb	w21, [x20]
	and	w8, w0, #0xffff
	ldr	w9, [sp, #12]
	add	w9, w23, w9
	strb	w19, [x20, #1]
	strh	wzr, [x20, #2]
	stp	w8, w9, [x20, #4]
	.cfi_def_cfa wsp, 144
	ldp	x29, x30, [sp, #128]
	ldp	x20, x19, [sp, #112]
	ldp	x22, x21, [sp, #96]
	ldp	x24, x23, [sp, #80]
	ldp	x26, x25, [sp, #64]
	ldp	x28, x27, [sp, #48]
	add	sp, sp, #144
	.cfi_def_cfa_offset 0
	.cfi_restore w30
	.cfi_restore w29
	.cfi_restore w19
	.cfi_restore w20
	.cfi_restore w21
	.cfi_restore w22
	.cfi_restore w23
	.cfi_restore w24
	.cfi_restore w25
	.cfi_restore w26
	.cfi_restore w27
	.cfi_restore w28
	ret
	.cfi_endproc

	.p2align	2
"_noise_c::split::finished":
	.cfi_startproc
	stp	x28, x27, [sp, #-96]!
	.cfi_def_cfa_offset 96
	stp	x26, x25, [sp, #16]
	stp	x24, x23, [sp, #32]
	stp	x22, x21, [sp, #48]
	stp	x20, x19, [sp, #64]
	stp	x29, x30, [sp, #80]
	add	x29, sp, #80
	.cfi_def_cfa w29, 16
	.cfi_offset w30, -8
	.cfi_offset w29, -16
	.cfi_offset w19, -24
	.cfi_offset w20, -32
	.cfi_offset w21, -40
	.cfi_offset w22, -48
	.cfi_offset w23, -56
	.cfi_offset w24, -64
	.cfi_offset w25, -72
	.cfi_offset w26, -80
	.cfi_offset w27, -88
	.cfi_offset w28, -96
	.cfi_remember_state
	sub	sp, sp, #2224
	mov	x20, x1
	mov	x19, x0
	add	x21, sp, #144
	movi.2d	v0, #0000000000000000
	stp	q0, q0, [x21, #176]
	sub	x22, x29, #224
	add	x23, sp, #592
	add	x26, sp, #408
	stp	q0, q0, [x21, #144]
	str	wzr, [sp, #280]
	strb	wzr, [sp, #284]
	stp	q0, q0, [x21, #96]
	str	wzr, [sp, #232]
	stur	wzr, [x21, #91]
	stp	q0, q0, [x21, #48]
	str	wzr, [sp, #184]
	stur	wzr, [x21, #43]
	stp	q0, q0, [x21]
	stp	q0, q0, [sp, #112]
	strb	wzr, [sp, #108]
	str	wzr, [sp, #104]
	stp	q0, q0, [sp, #64]
	str	wzr, [sp, #56]
	stur	wzr, [sp, #59]
	stp	q0, q0, [sp, #16]
	str	wzr, [sp, #8]
	stur	wzr, [sp, #11]
	stur	q0, [x26, #152]
	stur	q0, [x26, #168]
	stur	q0, [x26, #120]
	stur	q0, [x26, #136]
	stur	q0, [x26, #88]
	stur	q0, [x26, #104]
	stur	q0, [x26, #56]
	stur	q0, [x26, #72]
	str	wzr, [sp, #456]
	strb	wzr, [sp, #460]
	stur	q0, [x26, #8]
	stur	q0, [x26, #24]
	stur	wzr, [x26, #3]
	str	wzr, [sp, #408]
	stp	q0, q0, [x21, #224]
	stur	wzr, [x21, #219]
	str	wzr, [sp, #360]
	add	x0, sp, #1088
	mov	w1, #872
	bl	_bzero
	ldr	w8, [x20]
	mov	w9, #257
	movk	w9, #20079, lsl #16
	cmp	w8, w9
	b.ne	Lnoise_BB44_8
	ldrh	w2, [x20, #420]
	cmp	x2, #416
	b.hi	Lnoise_BB44_8
	ldrb	w8, [x20, #846]
	cmp	w8, #8
	b.hi	Lnoise_BB44_8
	ldrb	w8, [x20, #557]
	cmp	w8, #9
	b.hi	Lnoise_BB44_8
	add	x24, sp, #800
	add	x0, sp, #800
	add	x1, x20, #4
	bl	"_noise_c::patterns::pattern_of"
	ldrb	w8, [sp, #800]
	cbnz	w8, Lnoise_BB44_8
	add	x25, sp, #1088
	add	x0, sp, #1088
	add	x2, x24, #8
	mov	x1, x20
	bl	"_noise_c::from_c::restored"
	ldrb	w10, [sp, #1088]
	ldr	x28, [sp, #1360]
	ldrb	w12, [sp, #1400]
	ldrb	w24, [sp, #1441]
	add	x8, x25, #354
	ldp	q0, q1, [x8]
	stp	q0, q1, [x23, #176]
	ldrb	w9, [sp, #1784]
	ldrb	w8, [sp, #1785]
	add	x11, x25, #698
	ldp	q0, q1, [x11, #128]
	stp	q0, q1, [x23, #128]
	ldur	q0, [x11, #158]
	stur	q0, [x23, #158]
	ldp	q0, q1, [x11, #64]
	stp	q0, q1, [x23, #64]
	ldp	q1, q0, [x11, #96]
	stp	q1, q0, [x23, #96]
	ldp	q0, q1, [x11]
	stp	q0, q1, [x23]
	ldp	q1, q0, [x11, #32]
	stp	q1, q0, [x23, #32]
	cmp	w10, #1
	b.ne	Lnoise_BB44_8
	cmp	x28, x9
	cset	w9, hi
	orr	w25, w8, w9
	tbz	w25, #0, Lnoise_BB44_15
	mov	w13, #0
	mov	w9, #0
	mov	w14, #0
	mov	w27, #0
	ldrb	w8, [x20, #423]
	mov	w10, #13
	mov	w11, #19
	cmp	w8, #0
	csel	w8, w11, w10, eq
	b	Lnoise_BB44_16
Lnoise_BB44_8:
	mov	w10, #0
	mov	w13, #0
	mov	w9, #0
	mov	w14, #0
	mov	w27, #0
	movi.2d	v0, #0000000000000000
	stp	q0, q0, [x21]
	stp	q0, q0, [sp, #112]
	str	wzr, [sp, #104]
	strb	wzr, [sp, #108]
	stp	q0, q0, [sp, #64]
	str	wzr, [sp, #56]
	stur	wzr, [sp, #59]
	stp	q0, q0, [sp, #16]
	str	wzr, [sp, #8]
	mov	w8, #23
	stur	wzr, [sp, #11]
Lnoise_BB44_9:
	mov	w24, #0
	mov	w26, #0
	mov	w25, #0
	mov	w28, #0
	movi.2d	v0, #0000000000000000
	stp	q0, q0, [x23, #496]
	stp	q0, q0, [x23, #208]
	stur	wzr, [x29, #-256]
	sturb	wzr, [x29, #-252]
	stp	q0, q0, [x23]
	stur	wzr, [x29, #-192]
	stur	wzr, [x22, #35]
	stp	q0, q0, [x22, #64]
	stur	wzr, [x29, #-224]
	stur	wzr, [x22, #3]
	tbz	w10, #0, Lnoise_BB44_11
	mov	w8, #0
	ldp	q0, q1, [x21]
	stp	q0, q1, [x23, #496]
	ldp	q0, q1, [sp, #112]
	stp	q0, q1, [x23, #208]
	ldr	w11, [sp, #104]
	stur	w11, [x29, #-256]
	ldrb	w11, [sp, #108]
	sturb	w11, [x29, #-252]
	ldp	q1, q0, [sp, #64]
	stp	q1, q0, [x23]
	ldur	w11, [sp, #59]
	stur	w11, [x22, #35]
	ldr	w11, [sp, #56]
	stur	w11, [x29, #-192]
	ldp	q1, q0, [sp, #16]
	stp	q1, q0, [x22, #64]
	ldur	w11, [sp, #11]
	stur	w11, [x22, #3]
	mov	x24, x13
	ldr	w11, [sp, #8]
	mov	x26, x9
	mov	x25, x14
	mov	x28, x27
	stur	w11, [x29, #-224]
Lnoise_BB44_11:
	ldp	q0, q1, [x23, #496]
	stp	q0, q1, [x21, #176]
	ldp	q0, q1, [x23, #208]
	stp	q0, q1, [x21, #144]
	ldur	w9, [x29, #-256]
	str	w9, [sp, #280]
	ldurb	w9, [x29, #-252]
	strb	w9, [sp, #284]
	ldp	q1, q0, [x23]
	stp	q1, q0, [x21, #96]
	ldur	w9, [x29, #-192]
	ldur	w11, [x22, #35]
	stur	w11, [x21, #91]
	str	w9, [sp, #232]
	ldp	q0, q1, [x22, #64]
	stp	q0, q1, [x21, #48]
	ldur	w9, [x29, #-224]
	str	w9, [sp, #184]
	ldur	w9, [x22, #3]
	stur	w9, [x21, #43]
	tbz	w10, #0, Lnoise_BB44_13
	mov	w8, #1
	strb	w8, [x20, #423]
	add	x8, x20, #1432
	movi.2d	v0, #0000000000000000
	stp	q0, q0, [x8]
	add	x0, x20, #557
	mov	w1, #842
	bl	_bzero
	ldp	q0, q1, [x21, #176]
	stur	q0, [x19, #10]
	stur	q1, [x19, #26]
	ldp	q0, q1, [x21, #144]
	stur	q0, [x19, #43]
	stur	q1, [x19, #59]
	ldp	q1, q0, [x21, #96]
	stur	q0, [x19, #97]
	stur	q1, [x19, #81]
	ldp	q0, q1, [x21, #48]
	stur	q0, [x19, #129]
	str	xzr, [x19]
	strb	w24, [x19, #8]
	ldr	w8, [sp, #280]
	stur	w8, [x19, #75]
	ldrb	w8, [sp, #284]
	strb	w8, [x19, #79]
	ldr	w8, [sp, #232]
	ldur	w9, [x21, #91]
	str	w9, [x19, #116]
	stur	w8, [x19, #113]
	stur	q1, [x19, #145]
	ldr	w8, [sp, #184]
	stur	w8, [x19, #161]
	ldur	w8, [x21, #43]
	str	w8, [x19, #164]
	b	Lnoise_BB44_14
Lnoise_BB44_13:
	mov	w26, #0
	mov	w25, #0
	mov	w28, #0
	mov	w9, #1
	stp	w9, w8, [x19]
	strb	wzr, [x19, #8]
	movi.2d	v0, #0000000000000000
	stur	q0, [x19, #10]
	stur	q0, [x19, #26]
	stur	q0, [x19, #43]
	stur	q0, [x19, #59]
	str	xzr, [x19, #72]
	stur	q0, [x19, #81]
	stur	q0, [x19, #97]
	str	xzr, [x19, #112]
	stur	q0, [x19, #129]
	stur	q0, [x19, #145]
	str	xzr, [x19, #160]
Lnoise_BB44_14:
	strb	w26, [x19, #9]
	strb	w25, [x19, #42]
	strb	w28, [x19, #80]
	str	xzr, [x19, #120]
	strb	w28, [x19, #128]
	str	xzr, [x19, #168]
	add	sp, sp, #2224
	.cfi_def_cfa wsp, 96
	ldp	x29, x30, [sp, #80]
	ldp	x20, x19, [sp, #64]
	ldp	x22, x21, [sp, #48]
	ldp	x24, x23, [sp, #32]
	ldp	x26, x25, [sp, #16]
	ldp	x28, x27, [sp], #96
	.cfi_def_cfa_offset 0
	.cfi_restore w30
	.cfi_restore w29
	.cfi_restore w19
	.cfi_restore w20
	.cfi_restore w21
	.cfi_restore w22
	.cfi_restore w23
	.cfi_restore w24
	.cfi_restore w25
	.cfi_restore w26
	.cfi_restore w27
	.cfi_restore w28
	ret
Lnoise_BB44_15:
	.cfi_restore_state
	ldur	q0, [x23, #110]
	ldur	q1, [x23, #126]
	ldur	q2, [x23, #142]
	stp	q1, q2, [x23, #272]
	ldur	q1, [x23, #158]
	str	q1, [x23, #304]
	ldur	q1, [x23, #62]
	ldur	q2, [x23, #78]
	stp	q1, q2, [x23, #208]
	ldur	q1, [x23, #94]
Lnoise_loh132:
	adrp	x8, lnoise__static.1@PAGE
Lnoise_loh133:
	add	x8, x8, lnoise__static.1@PAGEOFF
	stp	q1, q0, [x23, #240]
	str	x8, [sp, #1968]
	str	xzr, [sp, #1976]
	movi.2d	v0, #0000000000000000
	str	q0, [x23, #1392]
	str	q0, [x23, #1408]
	add	x0, sp, #1088
	add	x1, sp, #800
	str	w12, [sp, #4]
	bl	"_noise_kdf::keyed::Hmac::new"
	mov	w27, #1
	add	x0, sp, #1984
	add	x1, sp, #1088
	add	x2, sp, #1968
	mov	w3, #1
	bl	"_noise_kdf::keyed::Hmac::code"
	add	x0, sp, #1088
	add	x1, sp, #1984
	bl	"_noise_kdf::keyed::Hmac::new"
	movi.2d	v0, #0000000000000000
	str	q0, [x23, #1488]
	str	q0, [x23, #1504]
	str	q0, [x23, #1456]
	str	q0, [x23, #1472]
Lnoise_loh134:
	adrp	x2, lnoise__static.102@PAGE
Lnoise_loh135:
	add	x2, x2, lnoise__static.102@PAGEOFF
	sub	x0, x29, #256
	add	x1, sp, #1088
	mov	w3, #1
	bl	"_noise_kdf::keyed::Hmac::code"
	ldr	q0, [x23, #1456]
	ldr	q1, [x23, #1472]
	stp	q0, q1, [x22, #32]
	sub	x8, x29, #192
	mov	w9, #32
	str	x8, [sp, #2016]
	str	x9, [sp, #2024]
Lnoise_loh136:
	adrp	x8, lnoise__static.103@PAGE
Lnoise_loh137:
	add	x8, x8, lnoise__static.103@PAGEOFF
	str	x8, [sp, #2032]
	str	x27, [sp, #2040]
	sub	x0, x29, #224
	add	x1, sp, #1088
	add	x2, sp, #2016
	mov	w3, #2
	bl	"_noise_kdf::keyed::Hmac::code"
	mov	x14, x24
	ldr	w13, [sp, #4]
	mov	w8, #0
	ldp	q1, q0, [x22, #32]
	stp	q1, q0, [x22, #64]
	ldr	q2, [x23, #1488]
	ldr	q3, [x23, #1504]
	stp	q2, q3, [x22, #96]
	stur	q0, [x26, #168]
	stur	q1, [x26, #152]
	ldp	q0, q1, [x22, #96]
	stur	q1, [x26, #136]
	stur	q0, [x26, #120]
	cmp	x28, #1
	cset	w9, eq
	ldur	q0, [x23, #94]
	ldur	q1, [x23, #110]
	stur	q1, [x26, #104]
	stur	q0, [x26, #88]
	ldp	q0, q1, [x23, #176]
	stur	q1, [x26, #72]
	stur	q0, [x26, #56]
	strb	wzr, [sp, #460]
	str	wzr, [sp, #456]
	ldur	q0, [x26, #152]
	ldur	q1, [x26, #168]
	stur	q1, [x26, #24]
	stur	q0, [x26, #8]
	stur	wzr, [x26, #3]
	str	wzr, [sp, #408]
	ldur	q0, [x26, #120]
	ldur	q1, [x26, #136]
	stp	q0, q1, [x21, #224]
	stur	wzr, [x21, #219]
	str	wzr, [sp, #360]
Lnoise_BB44_16:
	eor	w10, w25, #0x1
	ldur	q0, [x26, #88]
	ldur	q1, [x26, #104]
	stp	q0, q1, [x21]
	ldur	q0, [x26, #56]
	ldur	q1, [x26, #72]
	stp	q0, q1, [sp, #112]
	ldr	w11, [sp, #456]
	str	w11, [sp, #104]
	ldrb	w11, [sp, #460]
	strb	w11, [sp, #108]
	ldur	q0, [x26, #24]
	ldur	q1, [x26, #8]
	stp	q1, q0, [sp, #64]
	ldr	w11, [sp, #408]
	ldur	w12, [x26, #3]
	stur	w12, [sp, #59]
	str	w11, [sp, #56]
	ldp	q0, q1, [x21, #224]
	stp	q0, q1, [sp, #16]
	ldr	w11, [sp, #360]
	str	w11, [sp, #8]
	ldur	w11, [x21, #219]
	stur	w11, [sp, #11]
	b	Lnoise_BB44_9
	.loh AdrpAdd	Lnoise_loh136, Lnoise_loh137
	.loh AdrpAdd	Lnoise_loh134, Lnoise_loh135
	.loh AdrpAdd	Lnoise_loh132, Lnoise_loh133
	.cfi_endproc

	.p2align	2
"_noise_handshake::writer::write_lacking::<#9bbb2dae5a99aff0>":
	.cfi_startproc
	sub	sp, sp, #208
	.cfi_def_cfa_offset 208
	stp	x26, x25, [sp, #128]
	stp	x24, x23, [sp, #144]
	stp	x22, x21, [sp, #160]
	stp	x20, x19, [sp, #176]
	stp	x29, x30, [sp, #192]
	add	x29, sp, #192
	.cfi_def_cfa w29, 16
	.cfi_offset w30, -8
	.cfi_offset w29, -16
	.cfi_offset w19, -24
	.cfi_offset w20, -32
	.cfi_offset w21, -40
	.cfi_offset w22, -48
	.cfi_offset w23, -56
	.cfi_offset w24, -64
	.cfi_offset w25, -72
	.cfi_offset w26, -80
	.cfi_remember_state
	mov	x19, x0
	strh	wzr, [sp, #32]
	movi.2d	v0, #0000000000000000
	stp	q0, q0, [sp]
	cbz	x6, Lnoise_BB45_7
	ldrb	w20, [x5], #4
	cmp	w20, #1
	b.le	Lnoise_BB45_8
	sub	w8, w20, #2
	cmp	w8, #4
	b.hs	Lnoise_BB45_23
	ldrb	w8, [x2, #32]
	cbz	w8, Lnoise_BB45_10
	and	w8, w20, #0xfe
	cmp	w8, #4
	b.ne	Lnoise_BB45_14
	ldrb	w8, [x1, #33]
	cmp	w8, #1
	b.ne	Lnoise_BB45_24
	mov	x21, x6
	mov	x23, x4
	mov	x22, x3
	mov	x24, x5
	ldur	q0, [x1, #34]
	ldur	q1, [x1, #50]
	b	Lnoise_BB45_16
Lnoise_BB45_7:
	strh	wzr, [x19, #32]
	stp	q0, q0, [x19]
	.cfi_def_cfa wsp, 208
	b	Lnoise_BB45_36
Lnoise_BB45_8:
	.cfi_restore_state
	cbnz	w20, Lnoise_BB45_17
	ldr	x8, [x2]
	ldrb	w8, [x8]
	cbnz	w8, Lnoise_BB45_23
	b	Lnoise_BB45_24
Lnoise_BB45_10:
	cmp	w20, #3
	b.gt	Lnoise_BB45_18
	cmp	w20, #2
	b.eq	Lnoise_BB45_19
Lnoise_BB45_12:
	ldrb	w8, [x1, #33]
	cmp	w8, #1
	b.ne	Lnoise_BB45_24
	mov	x21, x6
	mov	x23, x4
	mov	x22, x3
	mov	x24, x5
	ldur	q0, [x1, #34]
	ldur	q1, [x1, #50]
	b	Lnoise_BB45_21
Lnoise_BB45_14:
	ldrb	w8, [x1]
	cmp	w8, #1
	b.ne	Lnoise_BB45_24
	mov	x21, x6
	mov	x23, x4
	mov	x22, x3
	mov	x24, x5
	ldur	q0, [x1, #1]
	ldur	q1, [x1, #17]
Lnoise_BB45_16:
	stp	q0, q1, [sp, #48]
	mov	x25, x1
	lsl	w8, w20, #3
	sub	w8, w8, #16
	and	w8, w8, #0x7f8
	mov	w9, #16777472
	lsr	w3, w9, w8
	b	Lnoise_BB45_22
Lnoise_BB45_17:
	ldr	x8, [x2, #8]
	ldrb	w8, [x8]
	cbnz	w8, Lnoise_BB45_23
	b	Lnoise_BB45_24
Lnoise_BB45_18:
	cmp	w20, #4
	b.ne	Lnoise_BB45_12
Lnoise_BB45_19:
	ldrb	w8, [x1]
	cmp	w8, #1
	b.ne	Lnoise_BB45_24
	mov	x21, x6
	mov	x23, x4
	mov	x22, x3
	mov	x24, x5
	ldur	q0, [x1, #1]
	ldur	q1, [x1, #17]
Lnoise_BB45_21:
	stp	q0, q1, [sp, #48]
	mov	x25, x1
	and	w8, w20, #0xfe
	cmp	w8, #4
	cset	w3, eq
Lnoise_BB45_22:
	ldp	x1, x8, [x2, #16]
	add	x0, sp, #80
	add	x4, sp, #48
	mov	x26, x2
	mov	x2, x8
	bl	"_noise_c::supplied_keys::result_for"
	mov	x2, x26
	ldrb	w8, [sp, #80]
	cmp	w8, #1
	mov	x1, x25
	mov	x5, x24
	mov	x3, x22
	mov	x4, x23
	mov	x6, x21
	b.ne	Lnoise_BB45_24
Lnoise_BB45_23:
	sub	x6, x6, #1
	cmp	w20, #6
	cset	w8, eq
	mov	w9, #32
	csel	x9, x9, xzr, eq
	sub	x4, x4, x8
	mov	x0, sp
	add	x3, x3, x9
	bl	"_noise_handshake::writer::write_lacking::<#9bbb2dae5a99aff0>"
	ldrb	w8, [sp]
	b	Lnoise_BB45_35
Lnoise_BB45_24:
	ldrb	w8, [x2, #32]
	cbz	w8, Lnoise_BB45_27
	and	w8, w20, #0xfe
	cmp	w8, #4
	b.ne	Lnoise_BB45_29
	ldrb	w8, [x1, #33]
	ldur	q0, [x1, #34]
	ldur	q1, [x1, #50]
	stp	q0, q1, [sp, #80]
	cmp	w8, #1
	b.eq	Lnoise_BB45_30
	b	Lnoise_BB45_34
Lnoise_BB45_27:
	mov	w8, #1
	lsl	w8, w8, w20
	mov	w9, #23
	tst	w8, w9
	b.eq	Lnoise_BB45_31
	ldrb	w8, [x1]
	ldur	q0, [x1, #1]
	ldur	q1, [x1, #17]
	stp	q0, q1, [sp, #80]
	cmp	w8, #1
	b.eq	Lnoise_BB45_32
	b	Lnoise_BB45_34
Lnoise_BB45_29:
	ldrb	w8, [x1]
	ldur	q0, [x1, #1]
	ldur	q1, [x1, #17]
	stp	q0, q1, [sp, #80]
	cmp	w8, #1
	b.ne	Lnoise_BB45_34
Lnoise_BB45_30:
	ubfiz	x8, x20, #3, #32
	mov	x9, #16777216
	movk	x9, #256, lsl #32
	lsr	x8, x9, x8
	b	Lnoise_BB45_33
Lnoise_BB45_31:
	ldrb	w8, [x1, #33]
	ldur	q0, [x1, #34]
	ldur	q1, [x1, #50]
	stp	q0, q1, [sp, #80]
	cmp	w8, #1
	b.ne	Lnoise_BB45_34
Lnoise_BB45_32:
	and	w8, w20, #0xfe
	cmp	w8, #4
	cset	w8, eq
Lnoise_BB45_33:
	strb	w8, [sp, #1]
	ldp	q0, q1, [sp, #80]
	stur	q0, [sp, #2]
	stur	q1, [sp, #18]
	mov	w8, #1
	b	Lnoise_BB45_35
Lnoise_BB45_34:
	mov	w8, #0
	strh	wzr, [sp, #32]
	movi.2d	v0, #0000000000000000
	stp	q0, q0, [sp]
Lnoise_BB45_35:
	strb	w8, [x19]
	ldur	q0, [sp, #1]
	stur	q0, [x19, #1]
	ldur	q0, [sp, #17]
	stur	q0, [x19, #17]
	ldrb	w8, [sp, #33]
	strb	w8, [x19, #33]
	.cfi_def_cfa wsp, 208
Lnoise_BB45_36:
	ldp	x29, x30, [sp, #192]
	ldp	x20, x19, [sp, #176]
	ldp	x22, x21, [sp, #160]
	ldp	x24, x23, [sp, #144]
	ldp	x26, x25, [sp, #128]
	add	sp, sp, #208
	.cfi_def_cfa_offset 0
	.cfi_restore w30
	.cfi_restore w29
	.cfi_restore w19
	.cfi_restore w20
	.cfi_restore w21
	.cfi_restore w22
	.cfi_restore w23
	.cfi_restore w24
	.cfi_restore w25
	.cfi_restore w26
	ret
	.cfi_endproc

	.p2align	2
"_noise_handshake::writer::write_tokens::<#3dfcfe118667ed30>":
	.cfi_startproc
	stp	x28, x27, [sp, #-96]!
	.cfi_def_cfa_offset 96
	stp	x26, x25, [sp, #16]
	stp	x24, x23, [sp, #32]
	stp	x22, x21, [sp, #48]
	stp	x20, x19, [sp, #64]
	stp	x29, x30, [sp, #80]
	add	x29, sp, #80
	.cfi_def_cfa w29, 16
	.cfi_offset w30, -8
	.cfi_offset w29, -16
	.cfi_offset w19, -24
	.cfi_offset w20, -32
	.cfi_offset w21, -40
	.cfi_offset w22, -48
	.cfi_offset w23, -56
	.cfi_offset w24, -64
	.cfi_offset w25, -72
	.cfi_offset w26, -80
	.cfi_offset w27, -88
	.cfi_offset w28, -96
	.cfi_remember_state
	sub	sp, sp, #576
	cbz	x6, Lnoise_BB46_7
	mov	x19, x7
	mov	x25, x6
	mov	x24, x5
	mov	x23, x4
	mov	x22, x3
	mov	x21, x0
	mov	x20, x5
	ldrb	w8, [x20], #4
	cmp	w8, #1
	b.le	Lnoise_BB46_8
	sub	w9, w8, #2
	cmp	w9, #4
	b.hs	Lnoise_BB46_21
	ldrb	w9, [x2, #32]
	cbz	w9, Lnoise_BB46_11
	and	w9, w8, #0xfe
	cmp	w9, #4
	b.ne	Lnoise_BB46_15
	ldrb	w9, [x1, #33]
	cmp	w9, #1
	b.ne	Lnoise_BB46_29
	ldur	q0, [x1, #34]
	ldur	q1, [x1, #50]
	b	Lnoise_BB46_17
Lnoise_BB46_7:
	mov	x1, #0
	mov	w0, #0
	b	Lnoise_BB46_30
Lnoise_BB46_8:
	cbnz	w8, Lnoise_BB46_18
	ldr	x8, [x2]
	ldrb	w9, [x8]
	cbz	w9, Lnoise_BB46_31
	mov	x28, x1
	ldur	q0, [x8, #1]
	ldur	q1, [x8, #17]
	stp	q0, q1, [sp, #80]
	mov	x26, x2
	ldrb	w1, [x2, #33]
	add	x27, sp, #80
	add	x2, sp, #80
	mov	x0, x21
	bl	"_noise_handshake::tokens::mix_ephemeral"
	sub	x8, x19, x27
	cmp	x8, #31
	ldp	q0, q1, [sp, #80]
	stp	q0, q1, [x19]
	mov	w27, #32
	mov	x1, x28
	b	Lnoise_BB46_28
Lnoise_BB46_11:
	cmp	w8, #3
	b.gt	Lnoise_BB46_22
	cmp	w8, #2
	b.eq	Lnoise_BB46_23
Lnoise_BB46_13:
	ldrb	w9, [x1, #33]
	cmp	w9, #1
	b.ne	Lnoise_BB46_29
	ldur	q0, [x1, #34]
	ldur	q1, [x1, #50]
	b	Lnoise_BB46_25
Lnoise_BB46_15:
	ldrb	w9, [x1]
	cmp	w9, #1
	b.ne	Lnoise_BB46_29
	ldur	q0, [x1, #1]
	ldur	q1, [x1, #17]
Lnoise_BB46_17:
	stp	q0, q1, [x29, #-160]
	str	x1, [sp, #8]
	lsl	w8, w8, #3
	sub	w8, w8, #16
	and	w8, w8, #0x7f8
	mov	w9, #16777472
	lsr	w3, w9, w8
	b	Lnoise_BB46_26
Lnoise_BB46_18:
	ldr	x8, [x2, #8]
	ldrb	w9, [x8]
	cbz	w9, Lnoise_BB46_31
	mov	x28, x1
	mov	x26, x2
	ldur	q0, [x8, #1]
	ldur	q1, [x8, #17]
	stp	q0, q1, [x19]
	stp	xzr, xzr, [x29, #-160]
	sub	x0, x29, #160
	add	x1, x21, #64
	add	x2, x21, #32
	mov	w3, #32
	mov	x4, x19
	mov	w5, #32
	bl	"_noise_state::cipher::CipherState::encrypt"
	ldurb	w8, [x29, #-160]
	cbnz	w8, Lnoise_BB46_31
	ldur	x27, [x29, #-152]
	add	x0, sp, #128
	add	x1, x21, #32
	mov	x2, x19
	mov	x3, x27
	bl	"_noise_state::symmetric::hash_of_both"
	ldp	q0, q1, [sp, #128]
	stp	q0, q1, [x21, #32]
	mov	x1, x28
	b	Lnoise_BB46_28
Lnoise_BB46_21:
	mov	x26, x2
	mov	x0, x21
	mov	x27, x1
	mov	x1, x22
	bl	"_noise_state::symmetric::SymmetricState::mix_key_and_hash"
	mov	x1, x27
	mov	x27, #0
	b	Lnoise_BB46_28
Lnoise_BB46_22:
	cmp	w8, #4
	b.ne	Lnoise_BB46_13
Lnoise_BB46_23:
	ldrb	w9, [x1]
	cmp	w9, #1
	b.ne	Lnoise_BB46_29
	ldur	q0, [x1, #1]
	ldur	q1, [x1, #17]
Lnoise_BB46_25:
	stp	q0, q1, [x29, #-160]
	str	x1, [sp, #8]
	and	w8, w8, #0xfe
	cmp	w8, #4
	cset	w3, eq
Lnoise_BB46_26:
	mov	x26, x2
	ldp	x1, x2, [x2, #16]
	add	x0, sp, #128
	sub	x4, x29, #160
	bl	"_noise_c::supplied_keys::result_for"
	ldrb	w8, [sp, #128]
	ldur	q0, [sp, #129]
	ldur	q1, [sp, #145]
	stp	q0, q1, [sp, #16]
	cmp	w8, #1
	b.ne	Lnoise_BB46_29
	ldp	q0, q1, [sp, #16]
	stp	q0, q1, [sp, #48]
	add	x8, sp, #48
	mov	w27, #32
	stp	x8, x27, [sp, #112]
	movi.2d	v0, #0000000000000000
	stp	q0, q0, [sp, #336]
	add	x0, sp, #128
	mov	x1, x21
	bl	"_noise_kdf::keyed::Hmac::new"
	add	x0, sp, #336
	add	x1, sp, #128
	add	x2, sp, #112
	mov	w3, #1
	bl	"_noise_kdf::keyed::Hmac::code"
	add	x0, sp, #128
	add	x1, sp, #336
	bl	"_noise_kdf::keyed::Hmac::new"
	movi.2d	v0, #0000000000000000
	stp	q0, q0, [x29, #-224]
	stp	q0, q0, [x29, #-256]
Lnoise_loh138:
	adrp	x2, lnoise__static.102@PAGE
Lnoise_loh139:
	add	x2, x2, lnoise__static.102@PAGEOFF
	sub	x0, x29, #256
	add	x1, sp, #128
	mov	w3, #1
	bl	"_noise_kdf::keyed::Hmac::code"
	ldp	q0, q1, [x29, #-256]
	stp	q0, q1, [x29, #-192]
	sub	x8, x29, #192
	stp	x8, x27, [sp, #368]
Lnoise_loh140:
	adrp	x8, lnoise__static.103@PAGE
Lnoise_loh141:
	add	x8, x8, lnoise__static.103@PAGEOFF
	str	x8, [sp, #384]
	mov	w8, #1
	str	x8, [sp, #392]
	mov	w28, #1
	sub	x0, x29, #224
	add	x1, sp, #128
	add	x2, sp, #368
	mov	w3, #2
	bl	"_noise_kdf::keyed::Hmac::code"
	mov	x27, #0
	strb	w28, [x21, #64]
	ldp	q1, q0, [x29, #-192]
	stp	q1, q0, [x29, #-160]
	ldp	q2, q3, [x29, #-224]
	stp	q2, q3, [x29, #-128]
	stp	q1, q0, [x21]
	ldp	q0, q1, [x29, #-128]
	stur	q0, [x21, #65]
	stur	q1, [x21, #81]
	str	xzr, [x21, #104]
	ldr	x1, [sp, #8]
Lnoise_BB46_28:
	ldr	x8, [x29, #16]
	sub	x6, x25, #1
	ldrb	w9, [x24]
	cmp	w9, #6
	cset	w9, eq
	mov	w10, #32
	csel	x10, x10, xzr, eq
	sub	x4, x23, x9
	sub	x8, x8, x27
	str	x8, [sp]
	add	x3, x22, x10
	add	x7, x19, x27
	mov	x0, x21
	mov	x2, x26
	mov	x5, x20
	bl	"_noise_handshake::writer::write_tokens::<#3dfcfe118667ed30>"
	tst	w0, #0xff
	csinc	x8, x27, xzr, eq
	add	x1, x8, x1
	b	Lnoise_BB46_30
Lnoise_BB46_29:
	mov	x1, #0
	mov	w0, #1
Lnoise_BB46_30:
	add	sp, sp, #576
	.cfi_def_cfa wsp, 96
	ldp	x29, x30, [sp, #80]
	ldp	x20, x19, [sp, #64]
	ldp	x22, x21, [sp, #48]
	ldp	x24, x23, [sp, #32]
	ldp	x26, x25, [sp, #16]
	ldp	x28, x27, [sp], #96
	.cfi_def_cfa_offset 0
	.cfi_restore w30
	.cfi_restore w29
	.cfi_restore w19
	.cfi_restore w20
	.cfi_restore w21
	.cfi_restore w22
	.cfi_restore w23
	.cfi_restore w24
	.cfi_restore w25
	.cfi_restore w26
	.cfi_restore w27
	.cfi_restore w28
	ret
Lnoise_BB46_31:
	.cfi_restore_state
	brk	#0x1
	.loh AdrpAdd	Lnoise_loh140, Lnoise_loh141
	.loh AdrpAdd	Lnoise_loh138, Lnoise_loh139
	.cfi_endproc

	.globl	_noise_cipher_decrypt
	.p2align	2
_noise_cipher_decrypt:
	.cfi_startproc
	sub	sp, sp, #96
	.cfi_def_cfa_offset 96
	stp	x20, x19, [sp, #64]
	stp	x29, x30, [sp, #80]
	add	x29, sp, #80
	.cfi_def_cfa w29, 16
	.cfi_offset w30, -8
	.cfi_offset w29, -16
	.cfi_offset w19, -24
	.cfi_offset w20, -32
	.cfi_remember_state
	mov	w8, #4096
	cmp	x1, #0
	csel	x9, x8, xzr, eq
	cmp	x3, #0
	csel	x10, x8, xzr, eq
	str	xzr, [sp, #48]
	stp	xzr, xzr, [sp]
	ldr	w8, [x0]
	mov	w11, #2305
	movk	w11, #20079, lsl #16
	cmp	w8, w11
	b.ne	Lnoise_BB47_3
	ldrb	w8, [x0, #4]
	cbz	w8, Lnoise_BB47_5
	mov	w0, #22
	b	Lnoise_BB47_4
Lnoise_BB47_3:
	mov	w0, #23
Lnoise_BB47_4:
	.cfi_def_cfa wsp, 96
	ldp	x29, x30, [sp, #80]
	ldp	x20, x19, [sp, #64]
	add	sp, sp, #96
	.cfi_def_cfa_offset 0
	.cfi_restore w30
	.cfi_restore w29
	.cfi_restore w19
	.cfi_restore w20
	ret
Lnoise_BB47_5:
	.cfi_restore_state
	ldr	x8, [x0, #40]
	mov	w11, #1
	strb	w11, [sp, #16]
	ldur	q0, [x0, #5]
	stur	q0, [sp, #17]
	ldur	q0, [x0, #21]
	stur	q0, [sp, #33]
	str	x8, [sp, #56]
	lsr	x8, x2, #16
	cbz	x8, Lnoise_BB47_7
	mov	w0, #24
	b	Lnoise_BB47_4
Lnoise_BB47_7:
	mov	x19, x0
	mov	x20, x5
	mov	x0, sp
	mov	x11, x1
	add	x1, sp, #16
	mov	x8, x2
	add	x2, x11, x9
	mov	x5, x4
	add	x4, x3, x10
	mov	x3, x8
	bl	"_noise_state::cipher::CipherState::decrypt"
	ldrb	w8, [sp]
	cbz	w8, Lnoise_BB47_9
	ldrb	w8, [sp, #1]
Lnoise_loh142:
	adrp	x9, lnoise__switch.table.noise_cipher_encrypt@PAGE
Lnoise_loh143:
	add	x9, x9, lnoise__switch.table.noise_cipher_encrypt@PAGEOFF
	ldr	w0, [x9, x8, lsl #2]
	b	Lnoise_BB47_4
Lnoise_BB47_9:
	mov	w0, #0
	ldr	x8, [sp, #8]
	stp	xzr, x8, [x20]
	ldr	x8, [sp, #56]
	str	x8, [x19, #40]
	b	Lnoise_BB47_4
	.loh AdrpAdd	Lnoise_loh142, Lnoise_loh143
	.cfi_endproc

	.globl	_noise_cipher_encrypt
	.p2align	2
_noise_cipher_encrypt:
	.cfi_startproc
	sub	sp, sp, #96
	.cfi_def_cfa_offset 96
	stp	x20, x19, [sp, #64]
	stp	x29, x30, [sp, #80]
	add	x29, sp, #80
	.cfi_def_cfa w29, 16
	.cfi_offset w30, -8
	.cfi_offset w29, -16
	.cfi_offset w19, -24
	.cfi_offset w20, -32
	.cfi_remember_state
	mov	w8, #4096
	cmp	x1, #0
	csel	x9, x8, xzr, eq
	cmp	x3, #0
	csel	x10, x8, xzr, eq
	str	xzr, [sp, #48]
	stp	xzr, xzr, [sp]
	ldr	w8, [x0]
	mov	w11, #2049
	movk	w11, #20079, lsl #16
	cmp	w8, w11
	b.ne	Lnoise_BB48_3
	ldrb	w8, [x0, #4]
	cbz	w8, Lnoise_BB48_5
	mov	w8, #22
	b	Lnoise_BB48_4
Lnoise_BB48_3:
	mov	w8, #23
Lnoise_BB48_4:
	mov	x0, x8
	.cfi_def_cfa wsp, 96
	ldp	x29, x30, [sp, #80]
	ldp	x20, x19, [sp, #64]
	add	sp, sp, #96
	.cfi_def_cfa_offset 0
	.cfi_restore w30
	.cfi_restore w29
	.cfi_restore w19
	.cfi_restore w20
	ret
Lnoise_BB48_5:
	.cfi_restore_state
	ldr	x8, [x0, #40]
	mov	w11, #1
	strb	w11, [sp, #16]
	ldur	q0, [x0, #5]
	stur	q0, [sp, #17]
	ldur	q0, [x0, #21]
	stur	q0, [sp, #33]
	str	x8, [sp, #56]
	lsr	x8, x2, #16
	cbz	x8, Lnoise_BB48_7
	mov	w8, #24
	b	Lnoise_BB48_4
Lnoise_BB48_7:
	mov	w8, #18
	subs	x11, x4, #16
	b.lo	Lnoise_BB48_4
	cmp	x11, x5
	b.lo	Lnoise_BB48_4
	mov	x19, x0
	mov	x20, x6
	mov	x0, sp
	mov	x11, x1
	add	x1, sp, #16
	mov	x8, x2
	add	x2, x11, x9
	add	x4, x3, x10
	mov	x3, x8
	bl	"_noise_state::cipher::CipherState::encrypt"
	ldrb	w8, [sp]
	cbz	w8, Lnoise_BB48_11
	ldrb	w8, [sp, #1]
Lnoise_loh144:
	adrp	x9, lnoise__switch.table.noise_cipher_encrypt@PAGE
Lnoise_loh145:
	add	x9, x9, lnoise__switch.table.noise_cipher_encrypt@PAGEOFF
	ldr	w8, [x9, x8, lsl #2]
	b	Lnoise_BB48_4
Lnoise_BB48_11:
	ldr	x9, [sp, #8]
	stp	xzr, x9, [x20]
	ldr	x9, [sp, #56]
	str	x9, [x19, #40]
	b	Lnoise_BB48_4
	.loh AdrpAdd	Lnoise_loh144, Lnoise_loh145
	.cfi_endproc

	.globl	_noise_cipher_nonce
	.p2align	2
_noise_cipher_nonce:
	.cfi_startproc
	ldr	w8, [x0]
	and	w8, w8, #0xfffffeff
	mov	w9, #2049
	movk	w9, #20079, lsl #16
	cmp	w8, w9
	b.ne	Lnoise_BB49_3
	ldrb	w8, [x0, #4]
	cbz	w8, Lnoise_BB49_4
	mov	w0, #22
	ret
Lnoise_BB49_3:
	mov	w0, #23
	ret
Lnoise_BB49_4:
	mov	x8, x0
	mov	w0, #0
	ldr	x8, [x8, #40]
	str	x8, [x1]
	ret
	.cfi_endproc

	.globl	_noise_cipher_rekey
	.p2align	2
_noise_cipher_rekey:
	.cfi_startproc
	sub	sp, sp, #80
	.cfi_def_cfa_offset 80
	stp	x20, x19, [sp, #48]
	stp	x29, x30, [sp, #64]
	add	x29, sp, #64
	.cfi_def_cfa w29, 16
	.cfi_offset w30, -8
	.cfi_offset w29, -16
	.cfi_offset w19, -24
	.cfi_offset w20, -32
	.cfi_remember_state
	str	xzr, [sp, #32]
	ldr	w8, [x0]
	and	w8, w8, #0xfffffeff
	mov	w9, #2049
	movk	w9, #20079, lsl #16
	cmp	w8, w9
	b.ne	Lnoise_BB50_3
	ldrb	w8, [x0, #4]
	cbz	w8, Lnoise_BB50_5
	mov	w0, #22
	b	Lnoise_BB50_4
Lnoise_BB50_3:
	mov	w0, #23
Lnoise_BB50_4:
	.cfi_def_cfa wsp, 80
	ldp	x29, x30, [sp, #64]
	ldp	x20, x19, [sp, #48]
	add	sp, sp, #80
	.cfi_def_cfa_offset 0
	.cfi_restore w30
	.cfi_restore w29
	.cfi_restore w19
	.cfi_restore w20
	ret
Lnoise_BB50_5:
	.cfi_restore_state
	ldr	x8, [x0, #40]
	mov	w9, #1
	strb	w9, [sp]
	mov	x20, sp
	ldur	q0, [x0, #5]
	stur	q0, [sp, #1]
	mov	x19, x0
	ldur	q0, [x0, #21]
	stur	q0, [sp, #17]
	str	x8, [sp, #40]
	mov	x0, sp
	bl	"_noise_state::cipher::CipherState::rekey"
	ldrb	w8, [sp]
	cmp	w8, #1
	b.ne	Lnoise_BB50_7
	mov	w0, #0
	orr	x8, x20, #0x1
	ldp	q0, q1, [x8]
	stur	q0, [x19, #5]
	stur	q1, [x19, #21]
	b	Lnoise_BB50_4
Lnoise_BB50_7:
	mov	w0, #0
	b	Lnoise_BB50_4
	.cfi_endproc

	.globl	_noise_cipher_set_nonce
	.p2align	2
_noise_cipher_set_nonce:
	.cfi_startproc
	ldr	w8, [x0]
	and	w8, w8, #0xfffffeff
	mov	w9, #2049
	movk	w9, #20079, lsl #16
	cmp	w8, w9
	b.ne	Lnoise_BB51_3
	ldrb	w8, [x0, #4]
	cbz	w8, Lnoise_BB51_4
	mov	w0, #22
	ret
Lnoise_BB51_3:
	mov	w0, #23
	ret
Lnoise_BB51_4:
	mov	x8, x0
	mov	w0, #0
	str	x1, [x8, #40]
	ret
	.cfi_endproc

	.globl	_noise_cipher_size
	.p2align	2
_noise_cipher_size:
	.cfi_startproc
	mov	w0, #48
	ret
	.cfi_endproc

	.globl	_noise_datagram_receiver_size
	.p2align	2
_noise_datagram_receiver_size:
	.cfi_startproc
	mov	w0, #192
	ret
	.cfi_endproc

	.globl	_noise_datagram_sender_size
	.p2align	2
_noise_datagram_sender_size:
	.cfi_startproc
	mov	w0, #48
	ret
	.cfi_endproc

	.globl	_noise_frame_find
	.p2align	2
_noise_frame_find:
	.cfi_startproc
	cmp	x1, #2
	b.hs	Lnoise_BB55_2
	mov	w8, #2
	sub	x8, x8, x1
	str	x8, [x2, #24]
	mov	w0, #42
	ret
Lnoise_BB55_2:
	mov	w8, #4096
	cmp	x0, #0
	csel	x8, x8, xzr, eq
	ldrh	w8, [x0, x8]
	rev16	w9, w8
	add	x8, x9, #2
	cmp	x1, x8
	b.hs	Lnoise_BB55_4
	sub	x8, x8, x1
	str	x8, [x2, #24]
	mov	w0, #42
	ret
Lnoise_BB55_4:
	mov	w0, #0
	mov	w10, #2
	stp	x10, x9, [x2]
	str	x8, [x2, #16]
	ret
	.cfi_endproc

	.globl	_noise_frame_message
	.p2align	2
_noise_frame_message:
	.cfi_startproc
	mov	w8, #4096
	cmp	x0, #0
	csel	x8, x8, xzr, eq
	lsr	x9, x2, #16
	cbz	x9, Lnoise_BB56_2
	mov	w0, #24
	ret
Lnoise_BB56_2:
	mov	x9, x0
	mov	w0, #18
	subs	x10, x1, #2
	b.lo	Lnoise_BB56_5
	cmp	x10, x2
	b.lo	Lnoise_BB56_5
	mov	w0, #0
	rev	w10, w2
	lsr	w10, w10, #16
	strh	w10, [x9, x8]
	add	x8, x2, #2
	str	x8, [x3, #8]
Lnoise_BB56_5:
	ret
	.cfi_endproc

	.globl	_noise_handshake_size
	.p2align	2
_noise_handshake_size:
	.cfi_startproc
	mov	w0, #1472
	ret
	.cfi_endproc

	.globl	_noise_receiver_size
	.p2align	2
_noise_receiver_size:
	.cfi_startproc
	mov	w0, #56
	ret
	.cfi_endproc

	.globl	_noise_sender_size
	.p2align	2
_noise_sender_size:
	.cfi_startproc
	mov	w0, #56
	ret
	.cfi_endproc

	.globl	_noise_stream_receiver_size
	.p2align	2
_noise_stream_receiver_size:
	.cfi_startproc
	mov	w0, #64
	ret
	.cfi_endproc

	.globl	_noise_stream_sender_size
	.p2align	2
_noise_stream_sender_size:
	.cfi_startproc
	mov	w0, #64
	ret
	.cfi_endproc

	.globl	_noise_version
	.p2align	2
_noise_version:
	.cfi_startproc
	mov	w0, #65536
	ret
	.cfi_endproc

	.globl	_noise_answer
	.p2align	2
_noise_answer:
	.cfi_startproc
	ldr	w8, [x0]
	mov	w9, #257
	movk	w9, #20079, lsl #16
	cmp	w8, w9
	b.ne	Lnoise_BB63_2
	ldrb	w8, [x0, #846]
	cmp	w8, #8
	b.ls	Lnoise_BB63_3
Lnoise_BB63_2:
	mov	w0, #23
	ret
Lnoise_BB63_3:
	sub	sp, sp, #128
	.cfi_def_cfa_offset 128
	ldp	q0, q1, [x2]
	stp	q0, q1, [sp, #32]
	ldp	q0, q1, [x3]
	stp	q0, q1, [sp]
	cmp	w8, #8
	b.ne	Lnoise_BB63_5
	ldp	q0, q1, [x2]
	add	x9, x0, #847
	stp	q0, q1, [sp, #96]
	ldp	q0, q1, [x3]
	stp	q0, q1, [sp, #64]
	ldp	q0, q1, [x0, #944]
	stp	q0, q1, [x9, #32]
	ldrb	w10, [x0, #976]
	strb	w10, [x0, #911]
	ldp	q1, q0, [x0, #912]
	stp	q1, q0, [x9]
	add	x9, x0, #977
	ldp	q0, q1, [x9]
	stp	q0, q1, [x0, #912]
	ldp	q0, q1, [x9, #32]
	stp	q0, q1, [x0, #944]
	ldrb	w10, [x0, #1041]
	strb	w10, [x0, #976]
	ldrb	w10, [x0, #1106]
	strb	w10, [x0, #1041]
	add	x10, x0, #1042
	ldp	q0, q1, [x10]
	ldp	q2, q3, [x10, #32]
	stp	q2, q3, [x9, #32]
	stp	q0, q1, [x9]
	ldrb	w9, [x0, #1171]
	strb	w9, [x0, #1106]
	add	x9, x0, #1107
	ldp	q0, q1, [x9]
	ldp	q2, q3, [x9, #32]
	stp	q2, q3, [x10, #32]
	stp	q0, q1, [x10]
	ldrb	w10, [x0, #1236]
	strb	w10, [x0, #1171]
	add	x10, x0, #1172
	ldp	q0, q1, [x10]
	ldp	q2, q3, [x10, #32]
	stp	q2, q3, [x9, #32]
	stp	q0, q1, [x9]
	ldrb	w9, [x0, #1301]
	strb	w9, [x0, #1236]
	add	x9, x0, #1237
	ldp	q0, q1, [x9]
	ldp	q2, q3, [x9, #32]
	stp	q2, q3, [x10, #32]
	stp	q0, q1, [x10]
	add	x10, x0, #1302
	ldp	q0, q1, [x10]
	ldp	q2, q3, [x10, #32]
	ldrb	w10, [x0, #1366]
	strb	w10, [x0, #1301]
	stp	q2, q3, [x9, #32]
	stp	q0, q1, [x9]
	strb	w1, [x0, #1302]
	add	x9, x0, #1303
	ldp	q0, q1, [sp, #96]
	stp	q0, q1, [x9]
	add	x9, x0, #1335
	mov	w0, #0
	ldp	q0, q1, [sp, #64]
	stp	q0, q1, [x9]
	b	Lnoise_BB63_6
Lnoise_BB63_5:
	add	x10, x8, x8, lsl #6
	add	x10, x0, x10
	strb	w1, [x10, #847]
	ldp	q0, q1, [sp, #32]
	stp	q0, q1, [x10, #848]
	ldp	q0, q1, [sp]
	stp	q0, q1, [x10, #880]
	add	w8, w8, #1
	strb	w8, [x0, #846]
	mov	w0, #0
Lnoise_BB63_6:
	add	sp, sp, #128
	.cfi_def_cfa_offset 0
	ret
	.cfi_endproc

	.globl	_noise_datagram_sender_nonce
	.p2align	2
_noise_datagram_sender_nonce:
	.cfi_startproc
	ldr	w8, [x0]
	mov	w9, #1537
	movk	w9, #20079, lsl #16
	cmp	w8, w9
	b.ne	Lnoise_BB64_3
	ldrb	w8, [x0, #4]
	sub	w8, w8, #1
	cmp	w8, #1
	b.hi	Lnoise_BB64_3
	mov	x8, x0
	mov	w0, #0
	ldr	x8, [x8, #40]
	str	x8, [x1]
	ret
Lnoise_BB64_3:
	mov	w0, #23
	ret
	.cfi_endproc

	.globl	_noise_receiver_nonce
	.p2align	2
_noise_receiver_nonce:
	.cfi_startproc
	ldr	w8, [x0]
	mov	w9, #1025
	movk	w9, #20079, lsl #16
	cmp	w8, w9
	b.ne	Lnoise_BB65_3
	ldrb	w8, [x0, #4]
	sub	w8, w8, #1
	cmp	w8, #1
	b.hi	Lnoise_BB65_3
	mov	x8, x0
	mov	w0, #0
	ldr	x8, [x8, #48]
	str	x8, [x1]
	ret
Lnoise_BB65_3:
	mov	w0, #23
	ret
	.cfi_endproc

	.globl	_noise_sender_nonce
	.p2align	2
_noise_sender_nonce:
	.cfi_startproc
	ldr	w8, [x0]
	mov	w9, #769
	movk	w9, #20079, lsl #16
	cmp	w8, w9
	b.ne	Lnoise_BB66_3
	ldrb	w8, [x0, #4]
	sub	w8, w8, #1
	cmp	w8, #1
	b.hi	Lnoise_BB66_3
	mov	x8, x0
	mov	w0, #0
	ldr	x8, [x8, #48]
	str	x8, [x1]
	ret
Lnoise_BB66_3:
	mov	w0, #23
	ret
	.cfi_endproc

	.globl	_noise_open
	.p2align	2
_noise_open:
	.cfi_startproc
	sub	sp, sp, #144
	.cfi_def_cfa_offset 144
	stp	x24, x23, [sp, #80]
	stp	x22, x21, [sp, #96]
	stp	x20, x19, [sp, #112]
	stp	x29, x30, [sp, #128]
	add	x29, sp, #128
	.cfi_def_cfa w29, 16
	.cfi_offset w30, -8
	.cfi_offset w29, -16
	.cfi_offset w19, -24
	.cfi_offset w20, -32
	.cfi_offset w21, -40
	.cfi_offset w22, -48
	.cfi_offset w23, -56
	.cfi_offset w24, -64
	.cfi_remember_state
	mov	w19, #1025
	movk	w19, #20079, lsl #16
	mov	w8, #4096
	cmp	x1, #0
	csel	x8, x8, xzr, eq
	ldr	w9, [x0]
	cmp	w9, w19
	b.ne	Lnoise_BB67_5
	mov	x5, x2
	ldrb	w9, [x0, #4]
	cmp	w9, #1
	b.eq	Lnoise_BB67_7
	cmp	w9, #2
	b.ne	Lnoise_BB67_5
	mov	w10, #0
	mov	w9, #1
	lsr	x11, x5, #16
	cbz	x11, Lnoise_BB67_8
Lnoise_BB67_4:
	mov	w0, #24
	b	Lnoise_BB67_6
Lnoise_BB67_5:
	mov	w0, #23
Lnoise_BB67_6:
	.cfi_def_cfa wsp, 144
	ldp	x29, x30, [sp, #128]
	ldp	x20, x19, [sp, #112]
	ldp	x22, x21, [sp, #96]
	ldp	x24, x23, [sp, #80]
	add	sp, sp, #144
	.cfi_def_cfa_offset 0
	.cfi_restore w30
	.cfi_restore w29
	.cfi_restore w19
	.cfi_restore w20
	.cfi_restore w21
	.cfi_restore w22
	.cfi_restore w23
	.cfi_restore w24
	ret
Lnoise_BB67_7:
	.cfi_restore_state
	mov	w9, #0
	mov	w10, #1
	lsr	x11, x5, #16
	cbnz	x11, Lnoise_BB67_4
Lnoise_BB67_8:
	ldp	x12, x11, [x0, #40]
	ldrb	w13, [x0, #5]
	cmp	w13, #0
	csel	w10, wzr, w10, eq
	cset	w13, ne
	strb	w9, [sp]
	strb	w13, [sp, #1]
	stur	wzr, [sp, #2]
	strh	wzr, [sp, #6]
	str	x12, [sp, #8]
	mov	w9, #1
	strb	w9, [sp, #16]
	ldur	q0, [x0, #6]
	stur	q0, [sp, #17]
	ldur	q0, [x0, #22]
	stur	q0, [sp, #33]
	stur	wzr, [sp, #49]
	str	wzr, [sp, #52]
	stp	x11, xzr, [sp, #56]
	str	xzr, [sp, #72]
	tbz	w10, #0, Lnoise_BB67_10
	mov	w0, #22
	b	Lnoise_BB67_6
Lnoise_BB67_10:
	mov	x21, x3
	mov	x22, x0
	mov	x20, sp
Lnoise_loh146:
	adrp	x2, lnoise__static.1@PAGE
Lnoise_loh147:
	add	x2, x2, lnoise__static.1@PAGEOFF
	add	x0, sp, #64
	mov	x9, x1
	add	x1, x20, #16
	add	x4, x9, x8
	mov	x3, #0
	bl	"_noise_state::cipher::CipherState::decrypt"
	ldrb	w8, [sp, #64]
	cbz	w8, Lnoise_BB67_14
	ldrb	w8, [sp, #65]
	cmp	w8, #1
	b.gt	Lnoise_BB67_17
	cbnz	w8, Lnoise_BB67_19
	mov	w0, #17
	b	Lnoise_BB67_6
Lnoise_BB67_14:
	ldr	x23, [sp, #72]
	ldr	x9, [sp, #8]
	ldr	x8, [sp, #56]
	cbz	x9, Lnoise_BB67_20
	udiv	x10, x8, x9
	msub	x12, x10, x9, x8
	mov	x10, x22
	mov	x11, x21
	cbnz	x12, Lnoise_BB67_21
	add	x0, x20, #16
	bl	"_noise_state::cipher::CipherState::rekey"
	mov	x11, x21
	mov	x10, x22
	ldr	x9, [sp, #8]
	ldr	x8, [sp, #56]
	b	Lnoise_BB67_21
Lnoise_BB67_17:
	cmp	w8, #2
	b.ne	Lnoise_BB67_23
	mov	w0, #15
	b	Lnoise_BB67_6
Lnoise_BB67_19:
	mov	w0, #16
	b	Lnoise_BB67_6
Lnoise_BB67_20:
	mov	x10, x22
	mov	x11, x21
Lnoise_BB67_21:
	stp	xzr, x23, [x11]
	ldrb	w11, [sp, #16]
	cmp	w11, #1
	b.ne	Lnoise_BB67_23
	mov	w0, #0
	ldrb	w11, [sp]
	cmp	w11, #0
	ldrb	w11, [sp, #1]
	and	w11, w11, #0x1
	str	w19, [x10]
	mov	w12, #1
	cinc	w12, w12, ne
	strb	w12, [x10, #4]
	strb	w11, [x10, #5]
	ldur	q0, [x20, #17]
	stur	q0, [x10, #6]
	ldur	q0, [x20, #33]
	stur	q0, [x10, #22]
	strh	wzr, [x10, #38]
	stp	x9, x8, [x10, #40]
	b	Lnoise_BB67_6
Lnoise_BB67_23:
	brk	#0x1
	.loh AdrpAdd	Lnoise_loh146, Lnoise_loh147
	.cfi_endproc

	.globl	_noise_datagram_seal
	.p2align	2
_noise_datagram_seal:
	.cfi_startproc
	sub	sp, sp, #160
	.cfi_def_cfa_offset 160
	stp	x26, x25, [sp, #80]
	stp	x24, x23, [sp, #96]
	stp	x22, x21, [sp, #112]
	stp	x20, x19, [sp, #128]
	stp	x29, x30, [sp, #144]
	add	x29, sp, #144
	.cfi_def_cfa w29, 16
	.cfi_offset w30, -8
	.cfi_offset w29, -16
	.cfi_offset w19, -24
	.cfi_offset w20, -32
	.cfi_offset w21, -40
	.cfi_offset w22, -48
	.cfi_offset w23, -56
	.cfi_offset w24, -64
	.cfi_offset w25, -72
	.cfi_offset w26, -80
	.cfi_remember_state
	mov	w20, #1537
	movk	w20, #20079, lsl #16
	mov	w8, #4096
	cmp	x1, #0
	csel	x10, x8, xzr, eq
	cmp	x3, #0
	csel	x9, x8, xzr, eq
	ldr	w8, [x0]
	cmp	w8, w20
	b.ne	Lnoise_BB68_4
	ldrb	w8, [x0, #4]
	cmp	w8, #1
	b.eq	Lnoise_BB68_6
	cmp	w8, #2
	b.ne	Lnoise_BB68_4
	mov	w11, #1
	mov	w8, #1
	b	Lnoise_BB68_7
Lnoise_BB68_4:
	mov	w8, #23
Lnoise_BB68_5:
	mov	x0, x8
	.cfi_def_cfa wsp, 160
	ldp	x29, x30, [sp, #144]
	ldp	x20, x19, [sp, #128]
	ldp	x22, x21, [sp, #112]
	ldp	x24, x23, [sp, #96]
	ldp	x26, x25, [sp, #80]
	add	sp, sp, #160
	.cfi_def_cfa_offset 0
	.cfi_restore w30
	.cfi_restore w29
	.cfi_restore w19
	.cfi_restore w20
	.cfi_restore w21
	.cfi_restore w22
	.cfi_restore w23
	.cfi_restore w24
	.cfi_restore w25
	.cfi_restore w26
	ret
Lnoise_BB68_6:
	.cfi_restore_state
	mov	w11, #0
	mov	w8, #0
Lnoise_BB68_7:
	ldrb	w12, [x0, #5]
	cmp	w12, #0
	cset	w13, ne
	ldr	x21, [x0, #40]
	strb	w8, [sp]
	strb	w13, [sp, #1]
	stur	xzr, [sp, #2]
	str	xzr, [sp, #8]
	mov	w8, #1
	strb	w8, [sp, #16]
	ldur	q0, [x0, #6]
	stur	q0, [sp, #17]
	ldur	q0, [x0, #22]
	stur	q0, [sp, #33]
	stur	wzr, [sp, #49]
	str	wzr, [sp, #52]
	str	x21, [sp, #56]
	mov	w8, #18
	subs	x13, x4, #24
	b.lo	Lnoise_BB68_5
	cmp	x13, x2
	b.lo	Lnoise_BB68_5
	cmp	w12, #0
	csel	w8, wzr, w11, eq
	tbz	w8, #0, Lnoise_BB68_11
	mov	w8, #22
	b	Lnoise_BB68_5
Lnoise_BB68_11:
	lsr	x8, x2, #4
	cmp	x8, #4094
	b.ls	Lnoise_BB68_13
	mov	w8, #11
	b	Lnoise_BB68_5
Lnoise_BB68_13:
	cmn	x21, #1
	b.eq	Lnoise_BB68_20
	add	x23, x3, x9
	mov	x22, sp
	add	x11, x23, #8
	add	x8, x1, x10
	sub	x11, x11, x8
	cmp	x11, x2
	b.hs	Lnoise_BB68_21
	cmp	x2, #7
	b.ls	Lnoise_BB68_17
	add	x8, x9, x3
	add	x11, x10, x1
	sub	x8, x8, x11
	add	x8, x8, #8
	cmp	x8, #32
	b.hs	Lnoise_BB68_28
Lnoise_BB68_17:
	mov	x24, x5
	mov	x25, x0
	mov	x8, #0
Lnoise_BB68_18:
	sub	x11, x2, x8
	add	x10, x10, x8
	add	x10, x1, x10
	add	x8, x9, x8
	add	x8, x8, x3
	add	x8, x8, #8
Lnoise_BB68_19:
	ldrb	w9, [x10], #1
	strb	w9, [x8], #1
	subs	x11, x11, #1
	b.ne	Lnoise_BB68_19
	b	Lnoise_BB68_22
Lnoise_BB68_20:
	mov	w8, #17
	b	Lnoise_BB68_5
Lnoise_BB68_21:
	mov	x24, x5
	mov	x25, x0
	add	x0, x23, #8
	mov	x1, x8
	mov	x19, x2
	bl	_memmove
	mov	x2, x19
Lnoise_BB68_22:
	stp	xzr, xzr, [sp, #64]
Lnoise_loh148:
	adrp	x8, lnoise__static.1@PAGE
Lnoise_loh149:
	add	x8, x8, lnoise__static.1@PAGEOFF
	add	x0, sp, #64
	add	x1, x22, #16
	add	x4, x23, #8
	mov	x5, x2
	mov	x2, x8
	mov	x3, #0
	bl	"_noise_state::cipher::CipherState::encrypt"
	ldrb	w8, [sp, #64]
	cbnz	w8, Lnoise_BB68_37
	ldr	x19, [sp, #72]
	ldr	x8, [sp, #8]
	ldr	x9, [sp, #56]
	cbz	x8, Lnoise_BB68_26
	udiv	x10, x9, x8
	msub	x8, x10, x8, x9
	cbnz	x8, Lnoise_BB68_26
	add	x0, x22, #16
	bl	"_noise_state::cipher::CipherState::rekey"
	ldr	x9, [sp, #56]
Lnoise_BB68_26:
	rev	x8, x21
	str	x8, [x23]
	add	x8, x19, #8
	stp	xzr, x8, [x24]
	ldrb	w8, [sp, #16]
	cmp	w8, #1
	b.ne	Lnoise_BB68_37
	mov	w8, #0
	ldrb	w10, [sp]
	cmp	w10, #0
	ldrb	w10, [sp, #1]
	str	w20, [x25]
	mov	w11, #1
	cinc	w11, w11, ne
	and	w10, w10, #0x1
	strb	w11, [x25, #4]
	strb	w10, [x25, #5]
	ldur	q0, [x22, #17]
	stur	q0, [x25, #6]
	ldur	q0, [x22, #33]
	stur	q0, [x25, #22]
	strh	wzr, [x25, #38]
	str	x9, [x25, #40]
	b	Lnoise_BB68_5
Lnoise_BB68_28:
	mov	x24, x5
	mov	x25, x0
	cmp	x2, #32
	b.hs	Lnoise_BB68_30
	mov	x8, #0
	b	Lnoise_BB68_34
Lnoise_BB68_30:
	and	x11, x2, #0x18
	and	x8, x2, #0xffe0
	add	x12, x10, x1
	add	x12, x12, #16
	add	x13, x9, x3
	add	x13, x13, #24
	and	x14, x2, #0xffe0
Lnoise_BB68_31:
	ldp	q0, q1, [x12, #-16]
	stp	q0, q1, [x13, #-16]
	add	x12, x12, #32
	add	x13, x13, #32
	subs	x14, x14, #32
	b.ne	Lnoise_BB68_31
	cmp	x2, x8
	b.eq	Lnoise_BB68_22
	cbz	x11, Lnoise_BB68_18
Lnoise_BB68_34:
	mov	x13, x8
	and	x8, x2, #0xfff8
	sub	x11, x13, x8
	add	x12, x10, x13
	add	x12, x1, x12
	add	x13, x9, x13
	add	x13, x13, x3
	add	x13, x13, #8
Lnoise_BB68_35:
	ldr	d0, [x12], #8
	str	d0, [x13], #8
	adds	x11, x11, #8
	b.ne	Lnoise_BB68_35
	cmp	x2, x8
	b.ne	Lnoise_BB68_18
	b	Lnoise_BB68_22
Lnoise_BB68_37:
	brk	#0x1
	.loh AdrpAdd	Lnoise_loh148, Lnoise_loh149
	.cfi_endproc

	.globl	_noise_datagram_seal_in_place
	.p2align	2
_noise_datagram_seal_in_place:
	.cfi_startproc
	sub	sp, sp, #160
	.cfi_def_cfa_offset 160
	stp	x26, x25, [sp, #80]
	stp	x24, x23, [sp, #96]
	stp	x22, x21, [sp, #112]
	stp	x20, x19, [sp, #128]
	stp	x29, x30, [sp, #144]
	add	x29, sp, #144
	.cfi_def_cfa w29, 16
	.cfi_offset w30, -8
	.cfi_offset w29, -16
	.cfi_offset w19, -24
	.cfi_offset w20, -32
	.cfi_offset w21, -40
	.cfi_offset w22, -48
	.cfi_offset w23, -56
	.cfi_offset w24, -64
	.cfi_offset w25, -72
	.cfi_offset w26, -80
	.cfi_remember_state
	mov	w19, #1537
	movk	w19, #20079, lsl #16
	mov	w8, #4096
	cmp	x1, #0
	csel	x9, x8, xzr, eq
	ldr	w8, [x0]
	cmp	w8, w19
	b.ne	Lnoise_BB69_4
	mov	x5, x3
	ldrb	w8, [x0, #4]
	cmp	w8, #1
	b.eq	Lnoise_BB69_6
	cmp	w8, #2
	b.ne	Lnoise_BB69_4
	mov	w10, #1
	mov	w8, #1
	b	Lnoise_BB69_7
Lnoise_BB69_4:
	mov	w8, #23
Lnoise_BB69_5:
	mov	x0, x8
	.cfi_def_cfa wsp, 160
	ldp	x29, x30, [sp, #144]
	ldp	x20, x19, [sp, #128]
	ldp	x22, x21, [sp, #112]
	ldp	x24, x23, [sp, #96]
	ldp	x26, x25, [sp, #80]
	add	sp, sp, #160
	.cfi_def_cfa_offset 0
	.cfi_restore w30
	.cfi_restore w29
	.cfi_restore w19
	.cfi_restore w20
	.cfi_restore w21
	.cfi_restore w22
	.cfi_restore w23
	.cfi_restore w24
	.cfi_restore w25
	.cfi_restore w26
	ret
Lnoise_BB69_6:
	.cfi_restore_state
	mov	w10, #0
	mov	w8, #0
Lnoise_BB69_7:
	ldrb	w11, [x0, #5]
	cmp	w11, #0
	cset	w12, ne
	ldr	x20, [x0, #40]
	strb	w8, [sp]
	strb	w12, [sp, #1]
	stur	xzr, [sp, #2]
	str	xzr, [sp, #8]
	mov	w8, #1
	strb	w8, [sp, #16]
	ldur	q0, [x0, #6]
	stur	q0, [sp, #17]
	ldur	q0, [x0, #22]
	stur	q0, [sp, #33]
	stur	wzr, [sp, #49]
	str	wzr, [sp, #52]
	str	x20, [sp, #56]
	mov	w8, #18
	subs	x12, x2, #24
	b.lo	Lnoise_BB69_5
	cmp	x12, x5
	b.lo	Lnoise_BB69_5
	cmp	w11, #0
	csel	w8, wzr, w10, eq
	tbz	w8, #0, Lnoise_BB69_11
	mov	w8, #22
	b	Lnoise_BB69_5
Lnoise_BB69_11:
	lsr	x8, x5, #4
	cmp	x8, #4094
	b.ls	Lnoise_BB69_13
	mov	w8, #11
	b	Lnoise_BB69_5
Lnoise_BB69_13:
	cmn	x20, #1
	b.eq	Lnoise_BB69_20
	mov	x24, x4
	mov	x23, x0
	add	x22, x1, x9
	mov	x21, sp
	stp	xzr, xzr, [sp, #64]
Lnoise_loh150:
	adrp	x2, lnoise__static.1@PAGE
Lnoise_loh151:
	add	x2, x2, lnoise__static.1@PAGEOFF
	add	x0, sp, #64
	add	x1, x21, #16
	add	x4, x22, #8
	mov	x3, #0
	bl	"_noise_state::cipher::CipherState::encrypt"
	ldrb	w8, [sp, #64]
	cbnz	w8, Lnoise_BB69_21
	ldr	x25, [sp, #72]
	ldr	x11, [sp, #8]
	ldr	x9, [sp, #56]
	mov	x10, x23
	mov	x8, x24
	cbz	x11, Lnoise_BB69_18
	udiv	x12, x9, x11
	msub	x11, x12, x11, x9
	cbnz	x11, Lnoise_BB69_18
	add	x0, x21, #16
	bl	"_noise_state::cipher::CipherState::rekey"
	mov	x8, x24
	mov	x10, x23
	ldr	x9, [sp, #56]
Lnoise_BB69_18:
	rev	x11, x20
	str	x11, [x22]
	add	x11, x25, #8
	stp	xzr, x11, [x8]
	ldrb	w8, [sp, #16]
	cmp	w8, #1
	b.ne	Lnoise_BB69_21
	mov	w8, #0
	ldrb	w11, [sp]
	cmp	w11, #0
	ldrb	w11, [sp, #1]
	str	w19, [x10]
	mov	w12, #1
	cinc	w12, w12, ne
	and	w11, w11, #0x1
	strb	w12, [x10, #4]
	strb	w11, [x10, #5]
	ldur	q0, [x21, #17]
	stur	q0, [x10, #6]
	ldur	q0, [x21, #33]
	stur	q0, [x10, #22]
	strh	wzr, [x10, #38]
	str	x9, [x10, #40]
	b	Lnoise_BB69_5
Lnoise_BB69_20:
	mov	w8, #17
	b	Lnoise_BB69_5
Lnoise_BB69_21:
	brk	#0x1
	.loh AdrpAdd	Lnoise_loh150, Lnoise_loh151
	.cfi_endproc

	.globl	_noise_seal
	.p2align	2
_noise_seal:
	.cfi_startproc
	sub	sp, sp, #144
	.cfi_def_cfa_offset 144
	stp	x24, x23, [sp, #80]
	stp	x22, x21, [sp, #96]
	stp	x20, x19, [sp, #112]
	stp	x29, x30, [sp, #128]
	add	x29, sp, #128
	.cfi_def_cfa w29, 16
	.cfi_offset w30, -8
	.cfi_offset w29, -16
	.cfi_offset w19, -24
	.cfi_offset w20, -32
	.cfi_offset w21, -40
	.cfi_offset w22, -48
	.cfi_offset w23, -56
	.cfi_offset w24, -64
	.cfi_remember_state
	mov	w21, #769
	movk	w21, #20079, lsl #16
	mov	w8, #4096
	cmp	x1, #0
	csel	x10, x8, xzr, eq
	cmp	x3, #0
	csel	x9, x8, xzr, eq
	ldr	w8, [x0]
	cmp	w8, w21
	b.ne	Lnoise_BB70_4
	ldrb	w8, [x0, #4]
	cmp	w8, #1
	b.eq	Lnoise_BB70_6
	cmp	w8, #2
	b.ne	Lnoise_BB70_4
	mov	w11, #1
	mov	w12, #1
	mov	w8, #18
	subs	x13, x4, #16
	b.hs	Lnoise_BB70_7
	b	Lnoise_BB70_5
Lnoise_BB70_4:
	mov	w8, #23
Lnoise_BB70_5:
	mov	x0, x8
	.cfi_def_cfa wsp, 144
	ldp	x29, x30, [sp, #128]
	ldp	x20, x19, [sp, #112]
	ldp	x22, x21, [sp, #96]
	ldp	x24, x23, [sp, #80]
	add	sp, sp, #144
	.cfi_def_cfa_offset 0
	.cfi_restore w30
	.cfi_restore w29
	.cfi_restore w19
	.cfi_restore w20
	.cfi_restore w21
	.cfi_restore w22
	.cfi_restore w23
	.cfi_restore w24
	ret
Lnoise_BB70_6:
	.cfi_restore_state
	mov	w11, #0
	mov	w12, #0
	mov	w8, #18
	subs	x13, x4, #16
	b.lo	Lnoise_BB70_5
Lnoise_BB70_7:
	cmp	x13, x2
	b.lo	Lnoise_BB70_5
	ldp	x13, x8, [x0, #40]
	ldrb	w14, [x0, #5]
	cmp	w14, #0
	csel	w11, wzr, w11, eq
	cset	w14, ne
	strb	w12, [sp]
	strb	w14, [sp, #1]
	stur	wzr, [sp, #2]
	strh	wzr, [sp, #6]
	str	x13, [sp, #8]
	mov	w12, #1
	strb	w12, [sp, #16]
	ldur	q0, [x0, #6]
	stur	q0, [sp, #17]
	ldur	q0, [x0, #22]
	stur	q0, [sp, #33]
	stur	wzr, [sp, #49]
	str	wzr, [sp, #52]
	str	x8, [sp, #56]
	tbz	w11, #0, Lnoise_BB70_10
	mov	w8, #22
	b	Lnoise_BB70_5
Lnoise_BB70_10:
	lsr	x11, x2, #4
	cmp	x11, #4094
	b.ls	Lnoise_BB70_12
	mov	w8, #11
	b	Lnoise_BB70_5
Lnoise_BB70_12:
	cmn	x8, #1
	b.eq	Lnoise_BB70_19
	add	x8, x1, x10
	mov	x22, sp
	add	x19, x3, x9
	sub	x11, x19, x8
	cmp	x11, x2
	b.hs	Lnoise_BB70_20
	cmp	x2, #7
	b.ls	Lnoise_BB70_16
	add	x8, x9, x3
	add	x11, x10, x1
	sub	x8, x8, x11
	cmp	x8, #32
	b.hs	Lnoise_BB70_27
Lnoise_BB70_16:
	mov	x23, x5
	mov	x24, x0
	mov	x8, #0
Lnoise_BB70_17:
	sub	x11, x2, x8
	add	x10, x10, x8
	add	x10, x1, x10
	add	x8, x9, x8
	add	x8, x3, x8
Lnoise_BB70_18:
	ldrb	w9, [x10], #1
	strb	w9, [x8], #1
	subs	x11, x11, #1
	b.ne	Lnoise_BB70_18
	b	Lnoise_BB70_21
Lnoise_BB70_19:
	mov	w8, #17
	b	Lnoise_BB70_5
Lnoise_BB70_20:
	mov	x23, x5
	mov	x24, x0
	mov	x0, x19
	mov	x1, x8
	mov	x20, x2
	bl	_memmove
	mov	x2, x20
Lnoise_BB70_21:
	stp	xzr, xzr, [sp, #64]
Lnoise_loh152:
	adrp	x8, lnoise__static.1@PAGE
Lnoise_loh153:
	add	x8, x8, lnoise__static.1@PAGEOFF
	add	x0, sp, #64
	add	x1, x22, #16
	mov	x5, x2
	mov	x2, x8
	mov	x3, #0
	mov	x4, x19
	bl	"_noise_state::cipher::CipherState::encrypt"
	ldrb	w8, [sp, #64]
	cbnz	w8, Lnoise_BB70_36
	ldr	x19, [sp, #72]
	ldr	x10, [sp, #8]
	ldr	x9, [sp, #56]
	cbz	x10, Lnoise_BB70_25
	udiv	x8, x9, x10
	msub	x8, x8, x10, x9
	cbnz	x8, Lnoise_BB70_25
	add	x0, x22, #16
	bl	"_noise_state::cipher::CipherState::rekey"
	ldr	x10, [sp, #8]
	ldr	x9, [sp, #56]
Lnoise_BB70_25:
	stp	xzr, x19, [x23]
	ldrb	w8, [sp, #16]
	cmp	w8, #1
	b.ne	Lnoise_BB70_36
	mov	w8, #0
	ldrb	w11, [sp]
	cmp	w11, #0
	ldrb	w11, [sp, #1]
	and	w11, w11, #0x1
	str	w21, [x24]
	mov	w12, #1
	cinc	w12, w12, ne
	strb	w12, [x24, #4]
	strb	w11, [x24, #5]
	ldur	q0, [x22, #17]
	stur	q0, [x24, #6]
	ldur	q0, [x22, #33]
	stur	q0, [x24, #22]
	strh	wzr, [x24, #38]
	stp	x10, x9, [x24, #40]
	b	Lnoise_BB70_5
Lnoise_BB70_27:
	mov	x23, x5
	mov	x24, x0
	cmp	x2, #32
	b.hs	Lnoise_BB70_29
	mov	x8, #0
	b	Lnoise_BB70_33
Lnoise_BB70_29:
	and	x11, x2, #0x18
	and	x8, x2, #0xffe0
	add	x12, x10, x1
	add	x12, x12, #16
	add	x13, x9, x3
	add	x13, x13, #16
	and	x14, x2, #0xffe0
Lnoise_BB70_30:
	ldp	q0, q1, [x12, #-16]
	stp	q0, q1, [x13, #-16]
	add	x12, x12, #32
	add	x13, x13, #32
	subs	x14, x14, #32
	b.ne	Lnoise_BB70_30
	cmp	x2, x8
	b.eq	Lnoise_BB70_21
	cbz	x11, Lnoise_BB70_17
Lnoise_BB70_33:
	mov	x13, x8
	and	x8, x2, #0xfff8
	sub	x11, x13, x8
	add	x12, x10, x13
	add	x12, x1, x12
	add	x13, x9, x13
	add	x13, x3, x13
Lnoise_BB70_34:
	ldr	d0, [x12], #8
	str	d0, [x13], #8
	adds	x11, x11, #8
	b.ne	Lnoise_BB70_34
	cmp	x2, x8
	b.ne	Lnoise_BB70_17
	b	Lnoise_BB70_21
Lnoise_BB70_36:
	brk	#0x1
	.loh AdrpAdd	Lnoise_loh152, Lnoise_loh153
	.cfi_endproc

	.globl	_noise_seal_in_place
	.p2align	2
_noise_seal_in_place:
	.cfi_startproc
	sub	sp, sp, #144
	.cfi_def_cfa_offset 144
	stp	x24, x23, [sp, #80]
	stp	x22, x21, [sp, #96]
	stp	x20, x19, [sp, #112]
	stp	x29, x30, [sp, #128]
	add	x29, sp, #128
	.cfi_def_cfa w29, 16
	.cfi_offset w30, -8
	.cfi_offset w29, -16
	.cfi_offset w19, -24
	.cfi_offset w20, -32
	.cfi_offset w21, -40
	.cfi_offset w22, -48
	.cfi_offset w23, -56
	.cfi_offset w24, -64
	.cfi_remember_state
	mov	w19, #769
	movk	w19, #20079, lsl #16
	mov	w8, #4096
	cmp	x1, #0
	csel	x9, x8, xzr, eq
	ldr	w8, [x0]
	cmp	w8, w19
	b.ne	Lnoise_BB71_4
	mov	x5, x3
	ldrb	w8, [x0, #4]
	cmp	w8, #1
	b.eq	Lnoise_BB71_6
	cmp	w8, #2
	b.ne	Lnoise_BB71_4
	mov	w10, #1
	mov	w11, #1
	mov	w8, #18
	subs	x12, x2, #16
	b.hs	Lnoise_BB71_7
	b	Lnoise_BB71_5
Lnoise_BB71_4:
	mov	w8, #23
Lnoise_BB71_5:
	mov	x0, x8
	.cfi_def_cfa wsp, 144
	ldp	x29, x30, [sp, #128]
	ldp	x20, x19, [sp, #112]
	ldp	x22, x21, [sp, #96]
	ldp	x24, x23, [sp, #80]
	add	sp, sp, #144
	.cfi_def_cfa_offset 0
	.cfi_restore w30
	.cfi_restore w29
	.cfi_restore w19
	.cfi_restore w20
	.cfi_restore w21
	.cfi_restore w22
	.cfi_restore w23
	.cfi_restore w24
	ret
Lnoise_BB71_6:
	.cfi_restore_state
	mov	w10, #0
	mov	w11, #0
	mov	w8, #18
	subs	x12, x2, #16
	b.lo	Lnoise_BB71_5
Lnoise_BB71_7:
	cmp	x12, x5
	b.lo	Lnoise_BB71_5
	ldp	x12, x8, [x0, #40]
	ldrb	w13, [x0, #5]
	cmp	w13, #0
	csel	w10, wzr, w10, eq
	cset	w13, ne
	strb	w11, [sp]
	strb	w13, [sp, #1]
	stur	wzr, [sp, #2]
	strh	wzr, [sp, #6]
	str	x12, [sp, #8]
	mov	w11, #1
	strb	w11, [sp, #16]
	ldur	q0, [x0, #6]
	stur	q0, [sp, #17]
	ldur	q0, [x0, #22]
	stur	q0, [sp, #33]
	stur	wzr, [sp, #49]
	str	wzr, [sp, #52]
	str	x8, [sp, #56]
	tbz	w10, #0, Lnoise_BB71_10
	mov	w8, #22
	b	Lnoise_BB71_5
Lnoise_BB71_10:
	lsr	x10, x5, #4
	cmp	x10, #4094
	b.ls	Lnoise_BB71_12
	mov	w8, #11
	b	Lnoise_BB71_5
Lnoise_BB71_12:
	cmn	x8, #1
	b.eq	Lnoise_BB71_19
	mov	x22, x4
	mov	x21, x0
	mov	x20, sp
	stp	xzr, xzr, [sp, #64]
Lnoise_loh154:
	adrp	x2, lnoise__static.1@PAGE
Lnoise_loh155:
	add	x2, x2, lnoise__static.1@PAGEOFF
	add	x0, sp, #64
	mov	x8, x1
	add	x1, x20, #16
	add	x4, x8, x9
	mov	x3, #0
	bl	"_noise_state::cipher::CipherState::encrypt"
	ldrb	w8, [sp, #64]
	cbnz	w8, Lnoise_BB71_20
	ldr	x23, [sp, #72]
	ldr	x11, [sp, #8]
	ldr	x10, [sp, #56]
	mov	x9, x21
	mov	x8, x22
	cbz	x11, Lnoise_BB71_17
	udiv	x12, x10, x11
	msub	x12, x12, x11, x10
	cbnz	x12, Lnoise_BB71_17
	add	x0, x20, #16
	bl	"_noise_state::cipher::CipherState::rekey"
	mov	x8, x22
	mov	x9, x21
	ldr	x11, [sp, #8]
	ldr	x10, [sp, #56]
Lnoise_BB71_17:
	stp	xzr, x23, [x8]
	ldrb	w8, [sp, #16]
	cmp	w8, #1
	b.ne	Lnoise_BB71_20
	mov	w8, #0
	ldrb	w12, [sp]
	cmp	w12, #0
	ldrb	w12, [sp, #1]
	and	w12, w12, #0x1
	str	w19, [x9]
	mov	w13, #1
	cinc	w13, w13, ne
	strb	w13, [x9, #4]
	strb	w12, [x9, #5]
	ldur	q0, [x20, #17]
	stur	q0, [x9, #6]
	ldur	q0, [x20, #33]
	stur	q0, [x9, #22]
	strh	wzr, [x9, #38]
	stp	x11, x10, [x9, #40]
	b	Lnoise_BB71_5
Lnoise_BB71_19:
	mov	w8, #17
	b	Lnoise_BB71_5
Lnoise_BB71_20:
	brk	#0x1
	.loh AdrpAdd	Lnoise_loh154, Lnoise_loh155
	.cfi_endproc

	.globl	_noise_sentence
	.p2align	2
_noise_sentence:
	.cfi_startproc
	cmp	w0, #45
	b.hi	Lnoise_BB72_2
Lnoise_loh156:
	adrp	x8, lnoise__switch.table.noise_sentence@PAGE
Lnoise_loh157:
	add	x8, x8, lnoise__switch.table.noise_sentence@PAGEOFF
	mov	x9, x0
	ldr	x0, [x8, w0, uxtw #3]
Lnoise_loh158:
	adrp	x8, lnoise__switch.table.noise_sentence.201.rel@PAGE
Lnoise_loh159:
	add	x8, x8, lnoise__switch.table.noise_sentence.201.rel@PAGEOFF
	ldrsw	x9, [x8, w9, uxtw #2]
	add	x8, x8, x9
	str	x8, [x1]
	ret
Lnoise_BB72_2:
Lnoise_loh160:
	adrp	x8, lnoise__static.47@PAGE
Lnoise_loh161:
	add	x8, x8, lnoise__static.47@PAGEOFF
	mov	w0, #41
	str	x8, [x1]
	ret
	.loh AdrpAdd	Lnoise_loh158, Lnoise_loh159
	.loh AdrpAdd	Lnoise_loh156, Lnoise_loh157
	.loh AdrpAdd	Lnoise_loh160, Lnoise_loh161
	.cfi_endproc

	.globl	_noise_hash
	.p2align	2
_noise_hash:
	.cfi_startproc
	stp	x22, x21, [sp, #-48]!
	.cfi_def_cfa_offset 48
	stp	x20, x19, [sp, #16]
	stp	x29, x30, [sp, #32]
	add	x29, sp, #32
	.cfi_def_cfa w29, 16
	.cfi_offset w30, -8
	.cfi_offset w29, -16
	.cfi_offset w19, -24
	.cfi_offset w20, -32
	.cfi_offset w21, -40
	.cfi_offset w22, -48
	sub	sp, sp, #1152
	mov	x19, x1
	mov	x20, x0
	add	x0, sp, #280
	mov	w1, #872
	bl	_bzero
	ldr	w8, [x20]
	mov	w9, #257
	movk	w9, #20079, lsl #16
	cmp	w8, w9
	b.ne	Lnoise_BB73_7
	ldrh	w2, [x20, #420]
	cmp	x2, #416
	b.hi	Lnoise_BB73_7
	ldrb	w8, [x20, #846]
	cmp	w8, #8
	b.hi	Lnoise_BB73_7
	ldrb	w8, [x20, #557]
	cmp	w8, #9
	b.hi	Lnoise_BB73_7
	mov	x21, sp
	mov	x0, sp
	add	x1, x20, #4
	bl	"_noise_c::patterns::pattern_of"
	ldrb	w8, [sp]
	cbnz	w8, Lnoise_BB73_7
	add	x0, sp, #280
	add	x2, x21, #8
	mov	x1, x20
	bl	"_noise_c::from_c::restored"
	ldrb	w8, [sp, #280]
	cmp	w8, #1
	b.ne	Lnoise_BB73_7
	mov	w0, #0
	add	x8, x20, #1399
	ldp	q0, q1, [x8]
	stp	q0, q1, [x19]
	b	Lnoise_BB73_8
Lnoise_BB73_7:
	mov	w0, #23
Lnoise_BB73_8:
	add	sp, sp, #1152
	.cfi_def_cfa wsp, 48
	ldp	x29, x30, [sp, #32]
	ldp	x20, x19, [sp, #16]
	ldp	x22, x21, [sp], #48
	.cfi_def_cfa_offset 0
	.cfi_restore w30
	.cfi_restore w29
	.cfi_restore w19
	.cfi_restore w20
	.cfi_restore w21
	.cfi_restore w22
	ret
	.cfi_endproc

	.globl	_noise_message_len
	.p2align	2
_noise_message_len:
	.cfi_startproc
	stp	x28, x27, [sp, #-64]!
	.cfi_def_cfa_offset 64
	stp	x22, x21, [sp, #16]
	stp	x20, x19, [sp, #32]
	stp	x29, x30, [sp, #48]
	add	x29, sp, #48
	.cfi_def_cfa w29, 16
	.cfi_offset w30, -8
	.cfi_offset w29, -16
	.cfi_offset w19, -24
	.cfi_offset w20, -32
	.cfi_offset w21, -40
	.cfi_offset w22, -48
	.cfi_offset w27, -56
	.cfi_offset w28, -64
	sub	sp, sp, #1152
	mov	x19, x2
	mov	x20, x1
	mov	x21, x0
	add	x0, sp, #280
	mov	w1, #872
	bl	_bzero
	ldr	w8, [x21]
	mov	w9, #257
	movk	w9, #20079, lsl #16
	cmp	w8, w9
	b.ne	Lnoise_BB74_11
	ldrh	w2, [x21, #420]
	cmp	x2, #416
	b.hi	Lnoise_BB74_11
	ldrb	w8, [x21, #846]
	cmp	w8, #8
	b.hi	Lnoise_BB74_11
	ldrb	w8, [x21, #557]
	cmp	w8, #9
	b.hi	Lnoise_BB74_11
	mov	x22, sp
	mov	x0, sp
	add	x1, x21, #4
	bl	"_noise_c::patterns::pattern_of"
	ldrb	w8, [sp]
	cbnz	w8, Lnoise_BB74_11
	add	x0, sp, #280
	add	x2, x22, #8
	mov	x1, x21
	bl	"_noise_c::from_c::restored"
	ldrb	w8, [sp, #280]
	cmp	w8, #1
	b.ne	Lnoise_BB74_11
	ldrb	w8, [sp, #592]
	ldrb	w9, [sp, #977]
	cmp	w8, #0
	cset	w8, ne
	mov	w0, #29
	tbnz	w9, #0, Lnoise_BB74_12
	ldr	x10, [sp, #552]
	ldrb	w9, [sp, #976]
	cmp	x10, x9
	b.eq	Lnoise_BB74_12
	eor	w8, w8, w9
	tbnz	w8, #0, Lnoise_BB74_12
	ldrh	w8, [sp, #1032]
	mvn	w9, w8
	and	x9, x9, #0xffff
	cmp	x20, x9
	b.hi	Lnoise_BB74_12
	mov	w0, #0
	add	x8, x20, x8
	str	x8, [x19]
	b	Lnoise_BB74_12
Lnoise_BB74_11:
	mov	w0, #23
Lnoise_BB74_12:
	add	sp, sp, #1152
	.cfi_def_cfa wsp, 64
	ldp	x29, x30, [sp, #48]
	ldp	x20, x19, [sp, #32]
	ldp	x22, x21, [sp, #16]
	ldp	x28, x27, [sp], #64
	.cfi_def_cfa_offset 0
	.cfi_restore w30
	.cfi_restore w29
	.cfi_restore w19
	.cfi_restore w20
	.cfi_restore w21
	.cfi_restore w22
	.cfi_restore w27
	.cfi_restore w28
	ret
	.cfi_endproc

	.globl	_noise_remote_static
	.p2align	2
_noise_remote_static:
	.cfi_startproc
	stp	x28, x27, [sp, #-64]!
	.cfi_def_cfa_offset 64
	stp	x22, x21, [sp, #16]
	stp	x20, x19, [sp, #32]
	stp	x29, x30, [sp, #48]
	add	x29, sp, #48
	.cfi_def_cfa w29, 16
	.cfi_offset w30, -8
	.cfi_offset w29, -16
	.cfi_offset w19, -24
	.cfi_offset w20, -32
	.cfi_offset w21, -40
	.cfi_offset w22, -48
	.cfi_offset w27, -56
	.cfi_offset w28, -64
	.cfi_remember_state
	sub	sp, sp, #1200
	mov	x19, x1
	mov	x20, x0
	add	x0, sp, #320
	mov	w1, #872
	bl	_bzero
	ldr	w8, [x20]
	mov	w9, #257
	movk	w9, #20079, lsl #16
	cmp	w8, w9
	b.ne	Lnoise_BB75_8
	ldrh	w2, [x20, #420]
	cmp	x2, #416
	b.hi	Lnoise_BB75_8
	ldrb	w8, [x20, #846]
	cmp	w8, #8
	b.hi	Lnoise_BB75_8
	ldrb	w8, [x20, #557]
	cmp	w8, #9
	b.hi	Lnoise_BB75_8
	add	x21, sp, #32
	add	x0, sp, #32
	add	x1, x20, #4
	bl	"_noise_c::patterns::pattern_of"
	ldrb	w8, [sp, #32]
	cbnz	w8, Lnoise_BB75_8
	add	x22, sp, #320
	add	x0, sp, #320
	add	x2, x21, #8
	mov	x1, x20
	bl	"_noise_c::from_c::restored"
	ldrb	w9, [sp, #320]
	ldrb	w8, [sp, #673]
	add	x10, x22, #354
	ldp	q0, q1, [x10]
	stp	q0, q1, [sp]
	cmp	w9, #1
	b.ne	Lnoise_BB75_8
	cmp	w8, #1
	b.ne	Lnoise_BB75_10
	ldp	q0, q1, [sp]
	stp	q0, q1, [sp, #320]
	b	Lnoise_BB75_11
Lnoise_BB75_8:
	mov	w0, #23
Lnoise_BB75_9:
	add	sp, sp, #1200
	.cfi_def_cfa wsp, 64
	ldp	x29, x30, [sp, #48]
	ldp	x20, x19, [sp, #32]
	ldp	x22, x21, [sp, #16]
	ldp	x28, x27, [sp], #64
	.cfi_def_cfa_offset 0
	.cfi_restore w30
	.cfi_restore w29
	.cfi_restore w19
	.cfi_restore w20
	.cfi_restore w21
	.cfi_restore w22
	.cfi_restore w27
	.cfi_restore w28
	ret
Lnoise_BB75_10:
	.cfi_restore_state
	movi.2d	v0, #0000000000000000
	stp	q0, q0, [sp, #320]
Lnoise_BB75_11:
	mov	w0, #0
	ldp	q0, q1, [sp, #320]
	stp	q0, q1, [sp, #32]
	strb	w8, [x19]
	stur	q0, [x19, #1]
	stur	q1, [x19, #17]
	b	Lnoise_BB75_9
	.cfi_endproc

	.globl	_noise_stage
	.p2align	2
_noise_stage:
	.cfi_startproc
	stp	x22, x21, [sp, #-48]!
	.cfi_def_cfa_offset 48
	stp	x20, x19, [sp, #16]
	stp	x29, x30, [sp, #32]
	add	x29, sp, #32
	.cfi_def_cfa w29, 16
	.cfi_offset w30, -8
	.cfi_offset w29, -16
	.cfi_offset w19, -24
	.cfi_offset w20, -32
	.cfi_offset w21, -40
	.cfi_offset w22, -48
	sub	sp, sp, #1152
	mov	x19, x1
	mov	x20, x0
	add	x0, sp, #280
	mov	w1, #872
	bl	_bzero
	ldr	w8, [x20]
	mov	w9, #257
	movk	w9, #20079, lsl #16
	cmp	w8, w9
	b.ne	Lnoise_BB76_7
	ldrh	w2, [x20, #420]
	cmp	x2, #416
	b.hi	Lnoise_BB76_7
	ldrb	w8, [x20, #846]
	cmp	w8, #8
	b.hi	Lnoise_BB76_7
	ldrb	w8, [x20, #557]
	cmp	w8, #9
	b.hi	Lnoise_BB76_7
	mov	x21, sp
	mov	x0, sp
	add	x1, x20, #4
	bl	"_noise_c::patterns::pattern_of"
	ldrb	w8, [sp]
	cbnz	w8, Lnoise_BB76_7
	add	x0, sp, #280
	add	x2, x21, #8
	mov	x1, x20
	bl	"_noise_c::from_c::restored"
	ldrb	w8, [sp, #280]
	cmp	w8, #1
	b.ne	Lnoise_BB76_7
	mov	w0, #0
	ldr	x8, [sp, #552]
	ldrb	w9, [sp, #592]
	ldrb	w10, [sp, #976]
	ldrb	w11, [sp, #977]
	strb	w8, [x19]
	strb	w10, [x19, #1]
	strb	w11, [x19, #2]
	cmp	w9, #0
	cset	w8, eq
	eor	w8, w8, w10
	and	w8, w8, #0x1
	strb	w8, [x19, #3]
	b	Lnoise_BB76_8
Lnoise_BB76_7:
	mov	w0, #23
Lnoise_BB76_8:
	add	sp, sp, #1152
	.cfi_def_cfa wsp, 48
	ldp	x29, x30, [sp, #32]
	ldp	x20, x19, [sp, #16]
	ldp	x22, x21, [sp], #48
	.cfi_def_cfa_offset 0
	.cfi_restore w30
	.cfi_restore w29
	.cfi_restore w19
	.cfi_restore w20
	.cfi_restore w21
	.cfi_restore w22
	ret
	.cfi_endproc

	.globl	_noise_read
	.p2align	2
_noise_read:
	.cfi_startproc
	stp	x20, x19, [sp, #-32]!
	.cfi_def_cfa_offset 32
	stp	x29, x30, [sp, #16]
	add	x29, sp, #16
	.cfi_def_cfa w29, 16
	.cfi_offset w30, -8
	.cfi_offset w29, -16
	.cfi_offset w19, -24
	.cfi_offset w20, -32
	mov	x19, x0
	mov	w8, #4096
	cmp	x1, #0
	csel	x8, x8, xzr, eq
	add	x1, x1, x8
	bl	"_noise_c::messages::read_next"
	sub	w8, w0, #15
	cmp	w8, #1
	b.hi	Lnoise_BB77_2
	mov	w8, #1
	strb	w8, [x19, #423]
Lnoise_BB77_2:
	.cfi_def_cfa wsp, 32
	ldp	x29, x30, [sp, #16]
	ldp	x20, x19, [sp], #32
	.cfi_def_cfa_offset 0
	.cfi_restore w30
	.cfi_restore w29
	.cfi_restore w19
	.cfi_restore w20
	ret
	.cfi_endproc

	.globl	_noise_try_read
	.p2align	2
_noise_try_read:
	.cfi_startproc
	mov	w8, #4096
	cmp	x1, #0
	csel	x8, x8, xzr, eq
	add	x1, x1, x8
	b	"_noise_c::messages::read_next"
	.cfi_endproc

	.globl	_noise_set_psk
	.p2align	2
_noise_set_psk:
	.cfi_startproc
	stp	x28, x27, [sp, #-64]!
	.cfi_def_cfa_offset 64
	stp	x22, x21, [sp, #16]
	stp	x20, x19, [sp, #32]
	stp	x29, x30, [sp, #48]
	add	x29, sp, #48
	.cfi_def_cfa w29, 16
	.cfi_offset w30, -8
	.cfi_offset w29, -16
	.cfi_offset w19, -24
	.cfi_offset w20, -32
	.cfi_offset w21, -40
	.cfi_offset w22, -48
	.cfi_offset w27, -56
	.cfi_offset w28, -64
	.cfi_remember_state
	sub	sp, sp, #2016
	mov	x20, x1
	mov	x19, x0
	add	x0, sp, #1144
	mov	w1, #872
	bl	_bzero
	ldr	w8, [x19]
	mov	w9, #257
	movk	w9, #20079, lsl #16
	cmp	w8, w9
	b.ne	Lnoise_BB79_8
	ldrh	w2, [x19, #420]
	cmp	x2, #416
	b.hi	Lnoise_BB79_8
	ldrb	w8, [x19, #846]
	cmp	w8, #8
	b.hi	Lnoise_BB79_8
	ldrb	w8, [x19, #557]
	cmp	w8, #9
	b.hi	Lnoise_BB79_8
	add	x21, sp, #864
	add	x0, sp, #864
	add	x1, x19, #4
	bl	"_noise_c::patterns::pattern_of"
	ldrb	w8, [sp, #864]
	cbnz	w8, Lnoise_BB79_8
	add	x22, sp, #1144
	add	x0, sp, #1144
	add	x2, x21, #8
	mov	x1, x19
	bl	"_noise_c::from_c::restored"
	ldrb	w21, [sp, #1144]
	mov	x0, sp
	add	x1, x22, #8
	mov	w2, #864
	bl	_memcpy
	cmp	w21, #1
	b.ne	Lnoise_BB79_8
	add	x21, sp, #1144
	add	x0, sp, #1144
	mov	x1, sp
	mov	w2, #864
	bl	_memcpy
	ldr	x8, [sp, #1408]
	ldrb	w10, [sp, #1832]
	subs	x9, x8, x10
	b.eq	Lnoise_BB79_15
	mov	x8, #0
	mov	w11, #24
	umaddl	x10, w10, w11, x21
	add	x10, x10, #72
	b	Lnoise_BB79_11
Lnoise_BB79_8:
	mov	w0, #23
Lnoise_BB79_9:
	add	sp, sp, #2016
	.cfi_def_cfa wsp, 64
	ldp	x29, x30, [sp, #48]
	ldp	x20, x19, [sp, #32]
	ldp	x22, x21, [sp, #16]
	ldp	x28, x27, [sp], #64
	.cfi_def_cfa_offset 0
	.cfi_restore w30
	.cfi_restore w29
	.cfi_restore w19
	.cfi_restore w20
	.cfi_restore w21
	.cfi_restore w22
	.cfi_restore w27
	.cfi_restore w28
	ret
Lnoise_BB79_10:
	.cfi_restore_state
	add	x10, x10, #24
	add	x8, x11, x8
	subs	x9, x9, #1
	b.eq	Lnoise_BB79_16
Lnoise_BB79_11:
	mov	x11, #0
	ldr	x12, [x10, #16]
	mov	x13, x10
Lnoise_BB79_12:
	cbz	x12, Lnoise_BB79_10
	ldrb	w14, [x13], #1
	sub	x12, x12, #1
	cmp	w14, #6
	b.ne	Lnoise_BB79_12
	add	x11, x11, #1
	b	Lnoise_BB79_12
Lnoise_BB79_15:
	mov	x8, #0
Lnoise_BB79_16:
	ldr	x9, [sp, #1816]
	ldr	x10, [sp, #1824]
	sub	x9, x9, x10
	cmp	x9, #9
	b.hi	Lnoise_BB79_20
	cmp	x9, x8
	b.ne	Lnoise_BB79_19
	mov	w0, #8
	b	Lnoise_BB79_9
Lnoise_BB79_19:
	mov	w0, #0
	add	x8, x19, #558
	add	x9, x19, #590
	ldp	q0, q1, [x9]
	stp	q0, q1, [x8]
	add	x8, x19, #622
	ldp	q0, q1, [x8]
	stp	q0, q1, [x9]
	add	x9, x19, #654
	ldp	q0, q1, [x9]
	stp	q0, q1, [x8]
	add	x8, x19, #686
	ldp	q1, q0, [x8]
	stp	q1, q0, [x9]
	add	x9, x19, #718
	ldp	q1, q0, [x9]
	stp	q1, q0, [x8]
	add	x8, x19, #750
	ldp	q0, q1, [x8]
	stp	q0, q1, [x9]
	add	x9, x19, #782
	ldp	q0, q1, [x9]
	stp	q0, q1, [x8]
	add	x8, x19, #814
	ldp	q0, q1, [x8]
	stp	q0, q1, [x9]
	ldp	q0, q1, [x20]
	stp	q0, q1, [x8]
	ldrb	w8, [x19, #557]
	add	w8, w8, #1
	strb	w8, [x19, #557]
	b	Lnoise_BB79_9
Lnoise_BB79_20:
	brk	#0x1
	.cfi_endproc

	.section	__TEXT,__literal16,16byte_literals
	.p2align	4, 0x0
lnoise_CPI80_0:
	.long	1779033703
	.long	3144134277
	.long	1013904242
	.long	2773480762
lnoise_CPI80_1:
	.long	1359893119
	.long	2600822924
	.long	528734635
	.long	1541459225
	.section	__TEXT,__text,regular,pure_instructions
	.globl	_noise_start
	.p2align	2
_noise_start:
	.cfi_startproc
	stp	x28, x27, [sp, #-96]!
	.cfi_def_cfa_offset 96
	stp	x26, x25, [sp, #16]
	stp	x24, x23, [sp, #32]
	stp	x22, x21, [sp, #48]
	stp	x20, x19, [sp, #64]
	stp	x29, x30, [sp, #80]
	add	x29, sp, #80
	.cfi_def_cfa w29, 16
	.cfi_offset w30, -8
	.cfi_offset w29, -16
	.cfi_offset w19, -24
	.cfi_offset w20, -32
	.cfi_offset w21, -40
	.cfi_offset w22, -48
	.cfi_offset w23, -56
	.cfi_offset w24, -64
	.cfi_offset w25, -72
	.cfi_offset w26, -80
	.cfi_offset w27, -88
	.cfi_offset w28, -96
	.cfi_remember_state
	sub	sp, sp, #3088
	mov	x28, x5
	mov	x24, x4
	mov	x26, x3
	mov	x20, x2
	mov	x22, x1
	mov	x19, x0
	movi.2d	v0, #0000000000000000
	stp	q0, q0, [sp, #208]
	stp	q0, q0, [sp, #176]
	mov	w8, #4096
	cmp	x1, #0
	csel	x27, x8, xzr, eq
	stp	q0, q0, [sp, #112]
	cmp	x3, #0
	csel	x23, x8, xzr, eq
	stp	q0, q0, [sp, #144]
	stp	q0, q0, [sp, #64]
	stur	xzr, [sp, #95]
	add	x0, sp, #248
	add	x1, x1, x27
	bl	"_noise_c::patterns::pattern_of"
	ldrb	w8, [sp, #248]
	cbz	w8, Lnoise_BB80_2
	ldr	w0, [sp, #252]
	b	Lnoise_BB80_97
Lnoise_BB80_2:
	lsr	x8, x24, #16
	cbz	x8, Lnoise_BB80_4
	mov	w0, #24
	b	Lnoise_BB80_97
Lnoise_BB80_4:
	ldrb	w25, [x28, #133]
	cmp	x25, #9
	b.ls	Lnoise_BB80_6
	mov	w0, #8
	b	Lnoise_BB80_97
Lnoise_BB80_6:
	add	x9, sp, #592
	movi.2d	v0, #0000000000000000
	stp	q0, q0, [sp, #736]
	stp	q0, q0, [sp, #704]
	stp	q0, q0, [sp, #640]
	stp	q0, q0, [sp, #672]
	stp	q0, q0, [sp, #592]
	stur	xzr, [x9, #31]
	str	q0, [sp, #1472]
	str	q0, [sp, #1456]
	ldrb	w10, [x28, #67]
	cbz	w10, Lnoise_BB80_8
	ldur	q1, [x28, #68]
	ldur	q2, [x28, #84]
	str	q1, [sp, #1456]
	str	q2, [sp, #1472]
	mov	w8, #1
	str	w8, [sp, #36]
	b	Lnoise_BB80_9
Lnoise_BB80_8:
	str	wzr, [sp, #36]
Lnoise_BB80_9:
	ldr	q1, [sp, #1456]
	ldr	q2, [sp, #1472]
	stp	q1, q2, [sp, #560]
	str	q0, [sp, #1472]
	str	q0, [sp, #1456]
	ldrb	w8, [x28, #100]
	str	w8, [sp, #40]
	stp	x24, x23, [sp, #16]
	str	w10, [sp, #48]
	mov	x21, x19
	cbz	w8, Lnoise_BB80_11
	ldur	q0, [x28, #101]
	ldur	q1, [x28, #117]
	str	q0, [sp, #1456]
	str	q1, [sp, #1472]
	mov	w8, #1
	str	w8, [sp, #32]
	b	Lnoise_BB80_12
Lnoise_BB80_11:
	str	wzr, [sp, #32]
Lnoise_BB80_12:
	ldr	q0, [sp, #1456]
	ldr	q1, [sp, #1472]
	stp	q0, q1, [sp, #528]
	str	x28, [sp, #56]
	mov	x24, x28
	ldrb	w28, [x24], #134
	cmp	w28, #0
	cset	w19, ne
	movi.2d	v0, #0000000000000000
	stp	q0, q0, [sp, #912]
	stp	q0, q0, [sp, #880]
	stp	q0, q0, [sp, #816]
	stp	q0, q0, [sp, #848]
	stp	q0, q0, [sp, #768]
	stur	xzr, [x9, #207]
	add	x23, sp, #944
	add	x0, sp, #944
	add	x8, sp, #248
	add	x1, x8, #8
	mov	w2, #272
	bl	_memcpy
	add	x9, x23, #72
	ldr	x10, [sp, #1208]
	cbz	x10, Lnoise_BB80_26
	mov	x11, #0
	mov	x8, x10
	mov	x12, x9
	mov	x6, x19
	mov	x19, x21
	mov	x21, x20
	ldr	x7, [sp, #56]
	b	Lnoise_BB80_15
Lnoise_BB80_14:
	add	x12, x12, #24
	add	x11, x13, x11
	subs	x8, x8, #1
	b.eq	Lnoise_BB80_19
Lnoise_BB80_15:
	mov	x13, #0
	ldr	x14, [x12, #16]
	mov	x15, x12
Lnoise_BB80_16:
	cbz	x14, Lnoise_BB80_14
	ldrb	w16, [x15], #1
	sub	x14, x14, #1
	cmp	w16, #6
	b.ne	Lnoise_BB80_16
	add	x13, x13, #1
	b	Lnoise_BB80_16
Lnoise_BB80_19:
	add	x12, sp, #944
	add	x13, x12, #64
	add	x14, x12, #48
	ldr	x12, [sp, #1008]
	ldr	x15, [sp, #992]
	mov	x16, x10
	mov	x17, x9
	b	Lnoise_BB80_21
Lnoise_BB80_20:
	add	x17, x17, #24
	add	x8, x0, x8
	subs	x16, x16, #1
	b.eq	Lnoise_BB80_25
Lnoise_BB80_21:
	mov	x0, #0
	ldr	x1, [x17, #16]
	mov	x2, x17
Lnoise_BB80_22:
	cbz	x1, Lnoise_BB80_20
	ldrb	w3, [x2], #1
	sub	x1, x1, #1
	cmp	w3, #6
	b.ne	Lnoise_BB80_22
	add	x0, x0, #1
	b	Lnoise_BB80_22
Lnoise_BB80_25:
	cmp	x11, x25
	csel	x25, x11, x25, hi
	add	x11, sp, #944
	add	x16, x11, #56
	add	x17, x11, #40
	cmp	w28, #0
	csel	x11, x17, x16, ne
	csel	x12, x15, x12, ne
	b	Lnoise_BB80_27
Lnoise_BB80_26:
	mov	x8, #0
	add	x16, x23, #56
	add	x17, x23, #40
	cmp	w28, #0
	csel	x11, x17, x16, ne
	add	x13, x23, #64
	add	x14, x23, #48
	csel	x12, x14, x13, ne
	ldr	x12, [x12]
	mov	x6, x19
	mov	x19, x21
	mov	x21, x20
	ldr	x7, [sp, #56]
Lnoise_BB80_27:
	add	x3, sp, #1280
	cmp	w28, #0
	csel	x15, x16, x17, ne
	csel	x13, x13, x14, ne
	ldr	x13, [x13]
	mov	x14, x15
	mov	x16, x13
Lnoise_BB80_28:
	cbz	x16, Lnoise_BB80_30
	ldrb	w17, [x14], #1
	sub	x16, x16, #1
	cbnz	w17, Lnoise_BB80_28
	b	Lnoise_BB80_37
Lnoise_BB80_30:
	cbz	x10, Lnoise_BB80_38
	mov	w14, #0
	mov	x16, x10
	mov	x17, x9
	b	Lnoise_BB80_33
Lnoise_BB80_32:
	add	x17, x17, #24
	eor	w14, w14, #0x1
	sub	x16, x16, #1
	cbz	x16, Lnoise_BB80_38
Lnoise_BB80_33:
	cmp	w6, w14, uxtb
	b.ne	Lnoise_BB80_32
	mov	x0, #0
	ldr	x1, [x17, #16]
Lnoise_BB80_35:
	cmp	x1, x0
	b.eq	Lnoise_BB80_32
	ldrb	w2, [x17, x0]
	add	x0, x0, #1
	cbnz	w2, Lnoise_BB80_35
Lnoise_BB80_37:
	ldurb	w14, [x7, #1]
	cbz	w14, Lnoise_BB80_66
Lnoise_BB80_38:
	cbz	x13, Lnoise_BB80_40
	ldrb	w14, [x15], #1
	sub	x13, x13, #1
	cmp	w14, #1
	b.ne	Lnoise_BB80_38
	b	Lnoise_BB80_47
Lnoise_BB80_40:
	cbz	x10, Lnoise_BB80_48
	mov	w13, #0
	b	Lnoise_BB80_43
Lnoise_BB80_42:
	add	x9, x9, #24
	eor	w13, w13, #0x1
	sub	x10, x10, #1
	cbz	x10, Lnoise_BB80_48
Lnoise_BB80_43:
	cmp	w6, w13, uxtb
	b.ne	Lnoise_BB80_42
	mov	x14, #0
	ldr	x15, [x9, #16]
Lnoise_BB80_45:
	cmp	x15, x14
	b.eq	Lnoise_BB80_42
	ldrb	w16, [x9, x14]
	add	x14, x14, #1
	cmp	w16, #1
	b.ne	Lnoise_BB80_45
Lnoise_BB80_47:
	ldurb	w9, [x7, #34]
	cbz	w9, Lnoise_BB80_67
Lnoise_BB80_48:
	mov	x9, x11
	mov	x10, x12
	ldr	w14, [sp, #48]
Lnoise_BB80_49:
	cbz	x10, Lnoise_BB80_52
	ldrb	w13, [x9], #1
	sub	x10, x10, #1
	cbnz	w13, Lnoise_BB80_49
	cbz	w14, Lnoise_BB80_69
Lnoise_BB80_52:
	mov	x9, x11
	mov	x10, x12
Lnoise_BB80_53:
	cbz	x10, Lnoise_BB80_56
	ldrb	w13, [x9], #1
	sub	x10, x10, #1
	cmp	w13, #1
	b.ne	Lnoise_BB80_53
	ldr	w9, [sp, #40]
	cbz	w9, Lnoise_BB80_69
Lnoise_BB80_56:
	cbz	w14, Lnoise_BB80_60
	mov	x9, x11
	mov	x10, x12
Lnoise_BB80_58:
	cbz	x10, Lnoise_BB80_68
	ldrb	w13, [x9], #1
	sub	x10, x10, #1
	cbnz	w13, Lnoise_BB80_58
Lnoise_BB80_60:
	ldr	w9, [sp, #40]
	cbz	w9, Lnoise_BB80_63
Lnoise_BB80_61:
	cbz	x12, Lnoise_BB80_68
	ldrb	w9, [x11], #1
	sub	x12, x12, #1
	cmp	w9, #1
	b.ne	Lnoise_BB80_61
Lnoise_BB80_63:
	cmp	x25, x8
	b.ne	Lnoise_BB80_74
	movi.2d	v0, #0000000000000000
	str	q0, [sp, #1328]
	str	q0, [sp, #1344]
	str	q0, [sp, #1360]
	str	q0, [sp, #1376]
	str	q0, [sp, #1280]
	str	q0, [sp, #1296]
	stur	xzr, [x3, #31]
	add	x23, sp, #1456
	add	x0, sp, #1456
	add	x8, sp, #248
	add	x1, x8, #8
	mov	w2, #272
	bl	_memcpy
	add	x2, sp, #2544
	add	x14, sp, #1728
	ldp	q0, q1, [sp, #560]
	str	q0, [sp, #1424]
	str	q1, [sp, #1440]
	ldp	q0, q1, [sp, #528]
	str	q0, [sp, #1392]
	str	q1, [sp, #1408]
	add	x10, x23, #72
	ldr	x0, [sp, #1720]
	ldr	w16, [sp, #36]
	ldr	x15, [sp, #56]
	cbz	x0, Lnoise_BB80_98
	mov	x8, #0
	mov	x9, x10
	b	Lnoise_BB80_71
Lnoise_BB80_66:
	mov	w0, #4
	b	Lnoise_BB80_75
Lnoise_BB80_67:
	mov	w0, #5
	b	Lnoise_BB80_75
Lnoise_BB80_68:
	mov	w0, #7
	b	Lnoise_BB80_75
Lnoise_BB80_69:
	mov	w0, #6
	b	Lnoise_BB80_75
Lnoise_BB80_70:
	add	x8, x8, #1
	add	x9, x9, #24
	cmp	x8, x0
	b.eq	Lnoise_BB80_98
Lnoise_BB80_71:
	mov	w11, #24
	madd	x11, x8, x11, x10
	ldr	x11, [x11, #16]
	mov	x12, x9
	cbz	x11, Lnoise_BB80_70
Lnoise_BB80_72:
	ldrb	w13, [x12], #1
	cmp	w13, #6
	b.eq	Lnoise_BB80_98
	subs	x11, x11, #1
	b.ne	Lnoise_BB80_72
	b	Lnoise_BB80_70
Lnoise_BB80_74:
	mov	w0, #8
Lnoise_BB80_75:
	mov	x23, #0
	mov	w8, #0
	mov	w28, #0
	mov	w26, #0
	mov	w25, #0
	movi.2d	v0, #0000000000000000
	stp	q0, q0, [sp, #736]
	stp	q0, q0, [sp, #704]
	stp	q0, q0, [sp, #640]
	stp	q0, q0, [sp, #672]
	stp	q0, q0, [sp, #592]
	add	x9, sp, #592
	stur	xzr, [x9, #31]
Lnoise_BB80_76:
	ldp	q0, q1, [sp, #736]
	stp	q0, q1, [sp, #208]
	ldp	q0, q1, [sp, #704]
	stp	q0, q1, [sp, #176]
	ldp	q1, q0, [sp, #672]
	stp	q1, q0, [sp, #144]
	ldp	q1, q0, [sp, #640]
	stp	q1, q0, [sp, #112]
	ldur	x9, [x9, #31]
	stur	x9, [sp, #95]
	ldp	q1, q0, [sp, #592]
	stp	q1, q0, [sp, #64]
	cbz	w8, Lnoise_BB80_97
	ldr	x8, [sp, #56]
	ldrb	w8, [x8, #133]
	mov	w9, #257
	movk	w9, #20079, lsl #16
	str	w9, [x19]
	add	x9, x19, #558
	lsl	x2, x8, #5
	sub	x10, x9, x2
	add	x0, x10, #288
	movi.2d	v0, #0000000000000000
	stp	q0, q0, [x9]
	stp	q0, q0, [x9, #32]
	stp	q0, q0, [x9, #64]
	stp	q0, q0, [x9, #96]
	stp	q0, q0, [x9, #128]
	stp	q0, q0, [x9, #160]
	stp	q0, q0, [x9, #192]
	stp	q0, q0, [x9, #224]
	sub	x10, x0, x24
	cmp	x10, x2
	stp	q0, q0, [x9, #256]
	b.hs	Lnoise_BB80_85
Lnoise_BB80_78:
	ldp	q0, q1, [x24], #32
	stp	q0, q1, [x0], #32
	subs	x8, x8, #1
	b.ne	Lnoise_BB80_78
	add	x8, x19, #4
	add	x1, x22, x27
	sub	x8, x8, x1
	cmp	x8, x21
	b.hs	Lnoise_BB80_86
Lnoise_BB80_80:
	cmp	x21, #7
	b.ls	Lnoise_BB80_82
	add	x8, x27, x22
	sub	x8, x19, x8
	add	x8, x8, #4
	cmp	x8, #32
	b.hs	Lnoise_BB80_108
Lnoise_BB80_82:
	mov	x8, #0
Lnoise_BB80_83:
	sub	x9, x21, x8
	add	x10, x27, x8
	add	x10, x22, x10
	add	x8, x8, x19
	add	x8, x8, #4
Lnoise_BB80_84:
	ldrb	w11, [x10], #1
	strb	w11, [x8], #1
	subs	x9, x9, #1
	b.ne	Lnoise_BB80_84
	b	Lnoise_BB80_87
Lnoise_BB80_85:
	mov	x1, x24
	bl	_memmove
	add	x8, x19, #4
	add	x1, x22, x27
	sub	x8, x8, x1
	cmp	x8, x21
	b.lo	Lnoise_BB80_80
Lnoise_BB80_86:
	add	x0, x19, #4
	mov	x2, x21
	bl	_memmove
Lnoise_BB80_87:
	strh	w21, [x19, #420]
	ldr	x10, [sp, #56]
	ldrb	w8, [x10]
	strb	w8, [x19, #422]
	add	x8, x19, #425
	ldur	q0, [x10, #1]
	ldur	q1, [x10, #17]
	ldurb	w9, [x10, #33]
	strb	w9, [x19, #457]
	stp	q0, q1, [x8]
	add	x8, x19, #458
	ldur	q0, [x10, #34]
	ldur	q1, [x10, #50]
	ldurb	w9, [x10, #66]
	strb	w9, [x19, #490]
	stp	q0, q1, [x8]
	add	x0, x19, #846
	mov	w1, #521
	bl	_bzero
	cbz	w28, Lnoise_BB80_89
	ldp	q0, q1, [sp, #208]
	stp	q0, q1, [sp, #944]
	b	Lnoise_BB80_90
Lnoise_BB80_89:
	movi.2d	v0, #0000000000000000
	stp	q0, q0, [sp, #944]
Lnoise_BB80_90:
	add	x8, sp, #112
	ldr	x9, [sp, #56]
	ldrb	w9, [x9, #133]
	strb	w28, [x19, #491]
	add	x10, x19, #492
	ldp	q0, q1, [sp, #944]
	stp	q0, q1, [x10]
	cbz	w26, Lnoise_BB80_92
	ldp	q0, q1, [sp, #176]
	str	q0, [sp, #1456]
	str	q1, [sp, #1472]
	b	Lnoise_BB80_93
Lnoise_BB80_92:
	movi.2d	v0, #0000000000000000
	str	q0, [sp, #1472]
	str	q0, [sp, #1456]
Lnoise_BB80_93:
	ldr	q0, [sp, #1456]
	ldr	q1, [sp, #1472]
	stp	q0, q1, [sp, #944]
	strb	w26, [x19, #524]
	add	x10, x19, #525
	stp	q0, q1, [x10]
	strb	w9, [x19, #557]
	add	x9, x19, #423
	strh	wzr, [x9]
	add	x9, x19, #1367
	ldp	q0, q1, [sp, #112]
	stp	q0, q1, [x9]
	add	x9, x19, #1399
	ldp	q0, q1, [x8, #32]
	stp	q0, q1, [x9]
	cmp	w25, #1
	b.ne	Lnoise_BB80_95
	ldp	q0, q1, [sp, #64]
	str	q0, [sp, #1456]
	str	q1, [sp, #1472]
	b	Lnoise_BB80_96
Lnoise_BB80_95:
	movi.2d	v0, #0000000000000000
	str	q0, [sp, #1472]
	str	q0, [sp, #1456]
Lnoise_BB80_96:
	mov	w0, #0
	ldr	q0, [sp, #1456]
	ldr	q1, [sp, #1472]
	stp	q0, q1, [sp, #944]
	strb	w25, [x19, #1431]
	add	x8, x19, #1432
	stp	q0, q1, [x8]
	str	x23, [x19, #1464]
Lnoise_BB80_97:
	add	sp, sp, #3088
	.cfi_def_cfa wsp, 96
	ldp	x29, x30, [sp, #80]
	ldp	x20, x19, [sp, #64]
	ldp	x22, x21, [sp, #48]
	ldp	x24, x23, [sp, #32]
	ldp	x26, x25, [sp, #16]
	ldp	x28, x27, [sp], #96
	.cfi_def_cfa_offset 0
	.cfi_restore w30
	.cfi_restore w29
	.cfi_restore w19
	.cfi_restore w20
	.cfi_restore w21
	.cfi_restore w22
	.cfi_restore w23
	.cfi_restore w24
	.cfi_restore w25
	.cfi_restore w26
	.cfi_restore w27
	.cfi_restore w28
	ret
Lnoise_BB80_98:
	.cfi_restore_state
	movi.2d	v0, #0000000000000000
	str	q0, [sp, #2288]
	str	q0, [sp, #2272]
	ldurb	w8, [x15, #1]
	cbz	w8, Lnoise_BB80_100
	ldur	q0, [x15, #2]
	ldur	q1, [x15, #18]
	str	q0, [sp, #2272]
	str	q1, [sp, #2288]
	mov	w8, #1
Lnoise_BB80_100:
	sub	x1, x29, #208
	movi.2d	v0, #0000000000000000
	str	q0, [sp, #2704]
	str	q0, [sp, #2688]
	ldurb	w9, [x15, #34]
	cbz	w9, Lnoise_BB80_102
	ldur	q1, [x15, #35]
	ldur	q2, [x15, #51]
	str	q1, [sp, #2688]
	str	q2, [sp, #2704]
	mov	w9, #1
Lnoise_BB80_102:
	ldr	q1, [sp, #2272]
	ldr	q2, [sp, #2288]
	str	q1, [sp, #1248]
	str	q2, [sp, #1264]
	ldr	q1, [sp, #2688]
	ldr	q2, [sp, #2704]
	str	q1, [sp, #1216]
	str	q2, [sp, #1232]
	str	q0, [sp, #2544]
	str	q0, [sp, #2560]
	str	q0, [sp, #2576]
	str	q0, [sp, #2592]
	strh	wzr, [sp, #2608]
	str	q0, [sp, #2272]
	str	q0, [sp, #2288]
	str	q0, [sp, #2304]
	str	q0, [sp, #2320]
	str	q0, [sp, #2336]
	str	q0, [sp, #2352]
	str	q0, [sp, #2368]
	str	q0, [sp, #2384]
	str	q0, [sp, #2400]
	str	q0, [sp, #2416]
	str	q0, [sp, #2432]
	str	q0, [sp, #2448]
	str	q0, [sp, #2464]
	str	q0, [sp, #2480]
	str	q0, [sp, #2496]
	str	q0, [sp, #2512]
	str	xzr, [sp, #2528]
	str	q0, [sp, #2256]
	str	q0, [sp, #2240]
	str	q0, [sp, #2224]
	str	q0, [sp, #2208]
	str	q0, [sp, #2192]
	str	q0, [sp, #2176]
	str	q0, [sp, #2160]
	str	q0, [sp, #1824]
	str	q0, [sp, #1840]
	str	q0, [sp, #1856]
	str	q0, [sp, #1872]
	str	q0, [sp, #1888]
	str	q0, [sp, #1904]
	str	q0, [sp, #1920]
	str	q0, [sp, #1936]
	str	q0, [sp, #1952]
	str	q0, [sp, #1968]
	str	q0, [sp, #1984]
	str	q0, [sp, #2000]
	str	q0, [sp, #2016]
	str	q0, [sp, #2032]
	str	q0, [sp, #2048]
	str	q0, [sp, #2064]
	str	xzr, [sp, #2080]
	str	xzr, [sp, #1816]
	str	xzr, [sp, #1808]
	str	xzr, [sp, #1784]
	str	xzr, [sp, #1776]
	stur	xzr, [x14, #63]
	str	q0, [sp, #1728]
	str	q0, [sp, #1744]
	str	xzr, [sp, #1760]
	cbz	x0, Lnoise_BB80_111
	mov	x11, #0
	mov	x12, x10
	b	Lnoise_BB80_105
Lnoise_BB80_104:
	add	x11, x11, #1
	add	x12, x12, #24
	cmp	x11, x0
	b.eq	Lnoise_BB80_111
Lnoise_BB80_105:
	mov	w13, #24
	madd	x13, x11, x13, x10
	ldr	x13, [x13, #16]
	mov	x14, x12
	cbz	x13, Lnoise_BB80_104
Lnoise_BB80_106:
	ldrb	w15, [x14], #1
	cmp	w15, #6
	b.eq	Lnoise_BB80_110
	subs	x13, x13, #1
	b.ne	Lnoise_BB80_106
	b	Lnoise_BB80_104
Lnoise_BB80_108:
	cmp	x21, #32
	b.hs	Lnoise_BB80_114
	mov	x8, #0
	b	Lnoise_BB80_118
Lnoise_BB80_110:
	mov	w25, #1
	b	Lnoise_BB80_112
Lnoise_BB80_111:
	mov	w25, #0
Lnoise_BB80_112:
	cbz	w28, Lnoise_BB80_121
	ldp	q0, q1, [sp, #560]
	str	q0, [sp, #2688]
	str	q1, [sp, #2704]
	ldp	q0, q1, [sp, #528]
	stp	q0, q1, [x29, #-208]
	mov	x11, x16
	ldr	w10, [sp, #32]
	b	Lnoise_BB80_122
Lnoise_BB80_114:
	and	x9, x21, #0x18
	and	x8, x21, #0xffffffffffffffe0
	add	x10, x27, x22
	add	x10, x10, #16
	add	x11, x19, #20
	and	x12, x21, #0xffffffffffffffe0
Lnoise_BB80_115:
	ldp	q0, q1, [x10, #-16]
	stp	q0, q1, [x11, #-16]
	add	x10, x10, #32
	add	x11, x11, #32
	subs	x12, x12, #32
	b.ne	Lnoise_BB80_115
	cmp	x21, x8
	b.eq	Lnoise_BB80_87
	cbz	x9, Lnoise_BB80_83
Lnoise_BB80_118:
	mov	x11, x8
	and	x8, x21, #0xfffffffffffffff8
	sub	x9, x11, x8
	add	x10, x27, x11
	add	x10, x22, x10
	add	x11, x11, x19
	add	x11, x11, #4
Lnoise_BB80_119:
	ldr	d0, [x10], #8
	str	d0, [x11], #8
	adds	x9, x9, #8
	b.ne	Lnoise_BB80_119
	cmp	x21, x8
	b.ne	Lnoise_BB80_83
	b	Lnoise_BB80_87
Lnoise_BB80_121:
	ldr	q0, [sp, #1248]
	ldr	q1, [sp, #1264]
	str	q0, [sp, #2688]
	str	q1, [sp, #2704]
	ldr	q0, [sp, #1216]
	ldr	q1, [sp, #1232]
	stp	q0, q1, [x29, #-208]
	mov	x11, x8
	mov	x10, x9
Lnoise_BB80_122:
	ldr	q0, [sp, #2688]
	ldr	q1, [sp, #2704]
	str	q0, [sp, #2128]
	str	q1, [sp, #2144]
	ldp	q2, q3, [x29, #-208]
	str	q2, [sp, #2096]
	str	q3, [sp, #2112]
	strb	w11, [sp, #2620]
	stur	q0, [x2, #77]
	stur	q1, [x2, #93]
	strb	w10, [sp, #2653]
	stur	q2, [x2, #110]
	stur	q3, [x2, #126]
	cbz	w28, Lnoise_BB80_124
	ldr	q0, [sp, #1248]
	ldr	q1, [sp, #1264]
	str	q0, [sp, #2688]
	str	q1, [sp, #2704]
	ldr	q0, [sp, #1216]
	ldr	q1, [sp, #1232]
	stp	q0, q1, [x29, #-208]
	b	Lnoise_BB80_125
Lnoise_BB80_124:
	ldp	q0, q1, [sp, #560]
	str	q0, [sp, #2688]
	str	q1, [sp, #2704]
	ldp	q0, q1, [sp, #528]
	stp	q0, q1, [x29, #-208]
	mov	x8, x16
	ldr	w9, [sp, #32]
Lnoise_BB80_125:
	ldr	q0, [sp, #2688]
	ldr	q1, [sp, #2704]
	str	q0, [sp, #2128]
	str	q1, [sp, #2144]
	ldp	q2, q3, [x29, #-208]
	str	q2, [sp, #2096]
	str	q3, [sp, #2112]
	strb	w8, [sp, #2544]
	stur	q0, [x2, #1]
	stur	q1, [x2, #17]
	strb	w9, [sp, #2577]
	stur	q2, [x2, #34]
	stur	q3, [x2, #50]
	ldr	x8, [sp, #1504]
	str	x8, [sp, #8]
	ldr	x8, [sp, #1520]
	str	x8, [sp, #40]
	ldr	x20, [sp, #1464]
	ldr	x8, [sp, #1488]
	str	xzr, [sp, #2696]
	str	xzr, [sp, #2688]
	str	xzr, [sp, #2704]
	cbz	x8, Lnoise_BB80_129
	mov	x9, #0
	add	x10, sp, #1456
	add	x10, x10, #16
Lnoise_BB80_127:
	ldrb	w11, [x10, x9]
	add	x12, sp, #2688
	strb	w11, [x12, x9]
	add	x9, x9, #1
	str	x9, [sp, #2704]
	cmp	x8, x9
	b.ne	Lnoise_BB80_127
	ldrb	w23, [sp, #2688]
	b	Lnoise_BB80_130
Lnoise_BB80_129:
	mov	w23, #0
Lnoise_BB80_130:
	str	x0, [sp, #48]
	ldur	q0, [x2, #145]
	stur	q0, [x29, #-208]
	ldr	x8, [sp, #2704]
	stur	x8, [x1, #15]
	str	xzr, [sp, #2688]
	cmp	x20, #9
	sub	x28, x29, #208
	b.hs	Lnoise_BB80_154
	add	x0, sp, #2688
	add	x1, sp, #1456
	mov	x2, x20
	bl	_memcpy
	str	x20, [sp, #2696]
	ldr	q0, [sp, #2688]
	str	q0, [sp, #1808]
	ldur	x8, [x28, #15]
	add	x9, sp, #1728
	stur	x8, [x9, #63]
	ldur	q1, [x29, #-208]
	str	q1, [sp, #1776]
	str	q0, [sp, #1728]
	strb	w23, [sp, #1744]
	ldr	q0, [sp, #1776]
	stur	q0, [x9, #17]
	ldur	x8, [x9, #63]
	str	x8, [sp, #1760]
	movi.2d	v0, #0000000000000000
	str	q0, [sp, #2928]
	add	x8, sp, #2688
	stur	q0, [x8, #230]
	stur	q0, [x8, #214]
	stur	q0, [x8, #198]
	stur	q0, [x8, #182]
	stur	q0, [x8, #166]
	stur	q0, [x8, #150]
	stur	q0, [x8, #134]
	stur	q0, [x8, #118]
	stur	q0, [x8, #102]
	stur	q0, [x8, #86]
	stur	q0, [x8, #70]
	stur	q0, [x8, #54]
	stur	q0, [x8, #38]
	stur	q0, [x8, #22]
	stur	q0, [x8, #6]
	mov	w8, #28494
	movk	w8, #29545, lsl #16
	str	w8, [sp, #2688]
	mov	w8, #24421
	strh	w8, [sp, #2692]
	ldr	x20, [sp, #1736]
	cmp	x20, #249
	b.hi	Lnoise_BB80_154
	add	x8, sp, #2688
	orr	x0, x8, #0x6
	add	x1, sp, #1728
	mov	x2, x20
	bl	_memcpy
	add	x9, x20, #6
	ldr	x10, [sp, #1760]
	cbz	x10, Lnoise_BB80_146
	cmp	x20, #246
	b.hi	Lnoise_BB80_154
	add	x11, sp, #2688
Lnoise_loh162:
	adrp	x8, lnoise__static.51@PAGE
Lnoise_loh163:
	add	x8, x8, lnoise__static.51@PAGEOFF
	add	x9, x11, x9
	sub	x11, x9, x8
	cmp	x11, #3
	b.hs	Lnoise_BB80_136
	mov	w11, #29552
	strh	w11, [x9]
	mov	w11, #107
	strb	w11, [x9, #2]
	b	Lnoise_BB80_137
Lnoise_BB80_136:
	mov	w11, #107
	strb	w11, [x9, #2]
	mov	w11, #29552
	strh	w11, [x9]
Lnoise_BB80_137:
	add	w9, w23, #48
	add	x11, sp, #2688
	add	x11, x11, x20
	strb	w9, [x11, #9]
	subs	x9, x10, #1
	b.ne	Lnoise_BB80_139
	add	x9, x20, #10
	b	Lnoise_BB80_146
Lnoise_BB80_139:
	sub	x10, x20, #242
	add	x11, sp, #1728
	add	x11, x11, #17
	b	Lnoise_BB80_142
Lnoise_BB80_140:
	mov	w13, #107
	strb	w13, [x12, #2]
	mov	w13, #29552
	strh	w13, [x12]
Lnoise_BB80_141:
	ldrb	w12, [x11], #1
	add	w12, w12, #48
	add	x13, sp, #2688
	add	x13, x13, x10
	strb	w12, [x13, #256]
	add	x10, x10, #5
	subs	x9, x9, #1
	b.eq	Lnoise_BB80_145
Lnoise_BB80_142:
	add	x12, sp, #2688
	add	x12, x12, x10
	mov	w13, #43
	strb	w13, [x12, #252]
	cmp	x10, #3
	b.lo	Lnoise_BB80_154
	add	x12, x12, #253
	sub	x13, x12, x8
	cmp	x13, #2
	b.hi	Lnoise_BB80_140
	mov	w13, #112
	strb	w13, [x12]
	add	x12, sp, #2688
	add	x12, x12, x10
	mov	w13, #27507
	strh	w13, [x12, #254]
	b	Lnoise_BB80_141
Lnoise_BB80_145:
	add	x9, x10, #252
Lnoise_BB80_146:
	sub	x8, x9, #232
	cmp	x8, #23
	b.ls	Lnoise_BB80_154
	add	x8, sp, #2688
	add	x8, x8, x9
Lnoise_loh164:
	adrp	x10, lnoise__static.98@PAGE
Lnoise_loh165:
	add	x10, x10, lnoise__static.98@PAGEOFF
	ldr	q0, [x10]
	str	q0, [x8]
	ldr	x10, [x10, #16]
	str	x10, [x8, #16]
	add	x8, x9, #24
	str	x8, [sp, #2944]
	add	x0, sp, #1824
	add	x1, sp, #2688
	mov	w2, #264
	bl	_memcpy
	add	x0, sp, #2272
	add	x1, sp, #1824
	mov	w2, #264
	bl	_memcpy
	ldr	x2, [sp, #2528]
	cmp	x2, #33
	b.lo	Lnoise_BB80_149
	stur	xzr, [x29, #-112]
	movi.2d	v0, #0000000000000000
	stp	q0, q0, [x29, #-144]
	stp	q0, q0, [x29, #-176]
Lnoise_loh166:
	adrp	x8, lnoise_CPI80_0@PAGE
Lnoise_loh167:
	ldr	q0, [x8, lnoise_CPI80_0@PAGEOFF]
Lnoise_loh168:
	adrp	x8, lnoise_CPI80_1@PAGE
Lnoise_loh169:
	ldr	q1, [x8, lnoise_CPI80_1@PAGEOFF]
	stp	q0, q1, [x29, #-208]
	sub	x0, x29, #208
	add	x1, sp, #2272
	bl	"_sha2::block256::Core256::update"
	ldur	x23, [x29, #-112]
	str	x23, [sp, #2784]
	ldp	q0, q1, [x29, #-144]
	str	q0, [sp, #2752]
	str	q1, [sp, #2768]
	ldp	q0, q1, [x29, #-208]
	str	q0, [sp, #2688]
	str	q1, [sp, #2704]
	lsr	x28, x23, #21
	ldp	q1, q0, [x29, #-176]
	lsr	x8, x23, #13
	str	x8, [sp]
	lsl	x20, x23, #3
	mov	w8, #55
	sub	w8, w8, w23
	and	x8, x8, #0x3f
	str	q0, [sp, #2736]
	str	q1, [sp, #2720]
Lnoise_loh170:
	adrp	x1, lnoise__static.100@PAGE
Lnoise_loh171:
	add	x1, x1, lnoise__static.100@PAGEOFF
	add	x0, sp, #2688
	add	x2, x8, #1
	bl	"_sha2::block256::Core256::update"
	lsl	x8, x23, #43
	and	x8, x8, #0xff000000000000
	orr	x8, x8, x23, lsl #59
	ldr	x9, [sp]
	bfi	x8, x9, #40, #8
	bfi	x8, x28, #32, #8
	lsr	x9, x23, #5
	and	x9, x9, #0xff000000
	and	x10, x28, #0xff0000
	lsr	x11, x23, #37
	and	x11, x11, #0xff00
	orr	x9, x9, x10
	orr	x9, x9, x11
	orr	x8, x8, x9
	orr	x8, x8, x20, lsr #56
	stur	x8, [x29, #-104]
	add	x0, sp, #2688
	sub	x1, x29, #104
	mov	w2, #8
	bl	"_sha2::block256::Core256::update"
	ldr	q0, [sp, #2688]
	ldr	q1, [sp, #2704]
	rev32.16b	v0, v0
	rev32.16b	v1, v1
	b	Lnoise_BB80_150
Lnoise_BB80_149:
	movi.2d	v0, #0000000000000000
	str	q0, [sp, #2704]
	str	q0, [sp, #2688]
	add	x0, sp, #2688
	add	x1, sp, #2272
	bl	_memcpy
	ldr	q0, [sp, #2688]
	ldr	q1, [sp, #2704]
Lnoise_BB80_150:
	ldr	w28, [sp, #36]
	add	x23, sp, #1456
	str	q0, [sp, #2160]
	str	q1, [sp, #2176]
	add	x8, sp, #2160
	str	q0, [sp, #2192]
	str	q1, [sp, #2208]
	movi.2d	v0, #0000000000000000
	str	q0, [sp, #2224]
	str	q0, [sp, #2240]
	str	q0, [sp, #2256]
	add	x0, sp, #2688
	add	x1, x8, #32
	ldp	x3, x8, [sp, #16]
	add	x2, x26, x8
	bl	"_noise_state::symmetric::hash_of_both"
	ldr	q0, [sp, #2688]
	ldr	q1, [sp, #2704]
	str	q0, [sp, #2192]
	str	q1, [sp, #2208]
	add	x0, sp, #2160
	add	x2, sp, #2620
	add	x3, x23, #40
	mov	x1, x25
	ldr	x4, [sp, #8]
	bl	"_noise_handshake::setup::mix_premessage"
	add	x0, sp, #2160
	add	x2, sp, #2544
	add	x3, x23, #56
	mov	x1, x25
	ldr	x4, [sp, #40]
	bl	"_noise_handshake::setup::mix_premessage"
	ldr	q0, [sp, #2160]
	ldr	q1, [sp, #2176]
	str	q0, [sp, #1328]
	str	q1, [sp, #1344]
	ldr	q0, [sp, #2192]
	ldr	q1, [sp, #2208]
	str	q0, [sp, #1360]
	str	q1, [sp, #1376]
	add	x8, sp, #2160
	ldur	q0, [x8, #65]
	ldur	q1, [x8, #81]
	str	q0, [sp, #1280]
	str	q1, [sp, #1296]
	ldr	x8, [sp, #2256]
	ldr	x23, [sp, #2264]
	add	x10, sp, #1280
	stur	x8, [x10, #31]
	ldrb	w25, [sp, #2224]
	ldr	w26, [sp, #32]
	add	x9, sp, #592
	ldr	x8, [sp, #48]
	cbz	x8, Lnoise_BB80_153
	ldr	x8, [sp, #1544]
	cbz	x8, Lnoise_BB80_153
Lnoise_BB80_152:
	sub	x8, x8, #1
	cbnz	x8, Lnoise_BB80_152
Lnoise_BB80_153:
	ldr	q0, [sp, #1424]
	ldr	q1, [sp, #1440]
	stp	q0, q1, [sp, #912]
	ldr	q0, [sp, #1392]
	ldr	q1, [sp, #1408]
	stp	q0, q1, [sp, #880]
	ldr	q0, [sp, #1328]
	ldr	q1, [sp, #1344]
	stp	q0, q1, [sp, #816]
	ldr	q0, [sp, #1360]
	ldr	q1, [sp, #1376]
	stp	q0, q1, [sp, #848]
	ldr	q0, [sp, #1280]
	ldr	q1, [sp, #1296]
	ldur	x8, [x10, #31]
	stur	x8, [x9, #207]
	stp	q0, q1, [sp, #768]
	ldp	q1, q0, [sp, #912]
	stp	q1, q0, [sp, #736]
	ldp	q0, q1, [sp, #880]
	stp	q0, q1, [sp, #704]
	ldp	q0, q1, [sp, #816]
	ldp	q2, q3, [sp, #848]
	stp	q2, q3, [sp, #672]
	stp	q0, q1, [sp, #640]
	ldp	q0, q1, [sp, #768]
	ldur	x8, [x9, #207]
	stur	x8, [x9, #31]
	mov	w0, #4
	mov	w8, #1
	stp	q0, q1, [sp, #592]
	b	Lnoise_BB80_76
Lnoise_BB80_154:
	brk	#0x1
	.loh AdrpAdd	Lnoise_loh162, Lnoise_loh163
	.loh AdrpAdd	Lnoise_loh164, Lnoise_loh165
	.loh AdrpAdd	Lnoise_loh170, Lnoise_loh171
	.loh AdrpLdr	Lnoise_loh168, Lnoise_loh169
	.loh AdrpAdrp	Lnoise_loh166, Lnoise_loh168
	.loh AdrpLdr	Lnoise_loh166, Lnoise_loh167
	.cfi_endproc

	.globl	_noise_stream_is_cut
	.p2align	2
_noise_stream_is_cut:
	.cfi_startproc
	ldr	w8, [x0]
	mov	w9, #2817
	movk	w9, #20079, lsl #16
	cmp	w8, w9
	b.ne	Lnoise_BB81_10
	ldrb	w8, [x0, #4]
	cmp	w8, #1
	b.eq	Lnoise_BB81_9
	cmp	w8, #2
	b.ne	Lnoise_BB81_10
	mov	w9, #0
	ldrb	w8, [x0, #56]
	cmp	w8, #2
	b.hi	Lnoise_BB81_10
Lnoise_BB81_4:
	cmp	w8, #1
	b.ne	Lnoise_BB81_7
	ldrb	w10, [x0, #5]
	ldr	x11, [x0, #48]
	cmp	w10, #0
	csel	w9, wzr, w9, eq
	mov	w0, #23
	cbz	x11, Lnoise_BB81_8
	tbnz	w9, #0, Lnoise_BB81_8
Lnoise_BB81_7:
	cmp	w8, #1
	ccmp	x1, #0, #0, eq
	mov	w8, #44
	csel	w0, w8, wzr, ne
Lnoise_BB81_8:
	ret
Lnoise_BB81_9:
	mov	w9, #1
	ldrb	w8, [x0, #56]
	cmp	w8, #2
	b.ls	Lnoise_BB81_4
Lnoise_BB81_10:
	mov	w0, #23
	ret
	.cfi_endproc

	.globl	_noise_stream_read
	.p2align	2
_noise_stream_read:
	.cfi_startproc
	sub	sp, sp, #160
	.cfi_def_cfa_offset 160
	stp	x24, x23, [sp, #96]
	stp	x22, x21, [sp, #112]
	stp	x20, x19, [sp, #128]
	stp	x29, x30, [sp, #144]
	add	x29, sp, #144
	.cfi_def_cfa w29, 16
	.cfi_offset w30, -8
	.cfi_offset w29, -16
	.cfi_offset w19, -24
	.cfi_offset w20, -32
	.cfi_offset w21, -40
	.cfi_offset w22, -48
	.cfi_offset w23, -56
	.cfi_offset w24, -64
	.cfi_remember_state
	mov	w19, #2817
	movk	w19, #20079, lsl #16
	mov	w8, #4096
	cmp	x1, #0
	csel	x10, x8, xzr, eq
	ldr	w8, [x0]
	cmp	w8, w19
	b.ne	Lnoise_BB82_10
	ldrb	w8, [x0, #4]
	cmp	w8, #1
	b.eq	Lnoise_BB82_9
	cmp	w8, #2
	b.ne	Lnoise_BB82_10
	mov	w9, #0
	mov	w12, #1
	ldrb	w11, [x0, #5]
	cmp	w11, #0
	cset	w15, ne
	ldrb	w13, [x0, #56]
	cmp	w13, #2
	b.hi	Lnoise_BB82_10
Lnoise_BB82_4:
	ldp	x16, x14, [x0, #40]
	cmp	w13, #1
	b.ne	Lnoise_BB82_7
	cmp	w11, #0
	csel	w17, wzr, w9, eq
	mov	w8, #23
	tbnz	w17, #0, Lnoise_BB82_11
	cbz	x14, Lnoise_BB82_11
Lnoise_BB82_7:
	strb	w12, [sp, #8]
	strb	w15, [sp, #9]
	stur	wzr, [sp, #10]
	strh	wzr, [sp, #14]
	str	x16, [sp, #16]
	mov	w8, #1
	strb	w8, [sp, #24]
	ldur	q0, [x0, #6]
	stur	q0, [sp, #25]
	ldur	q0, [x0, #22]
	stur	q0, [sp, #41]
	stur	wzr, [sp, #57]
	str	wzr, [sp, #60]
	str	x14, [sp, #64]
	strb	w13, [sp, #72]
	stur	wzr, [sp, #73]
	str	wzr, [sp, #76]
	cbz	w13, Lnoise_BB82_12
	mov	w8, #43
	b	Lnoise_BB82_11
Lnoise_BB82_9:
	mov	w12, #0
	mov	w9, #1
	ldrb	w11, [x0, #5]
	cmp	w11, #0
	cset	w15, ne
	ldrb	w13, [x0, #56]
	cmp	w13, #2
	b.ls	Lnoise_BB82_4
Lnoise_BB82_10:
	mov	w8, #23
Lnoise_BB82_11:
	mov	x0, x8
	.cfi_def_cfa wsp, 160
	ldp	x29, x30, [sp, #144]
	ldp	x20, x19, [sp, #128]
	ldp	x22, x21, [sp, #112]
	ldp	x24, x23, [sp, #96]
	add	sp, sp, #160
	.cfi_def_cfa_offset 0
	.cfi_restore w30
	.cfi_restore w29
	.cfi_restore w19
	.cfi_restore w20
	.cfi_restore w21
	.cfi_restore w22
	.cfi_restore w23
	.cfi_restore w24
	ret
Lnoise_BB82_12:
	.cfi_restore_state
	cmp	x2, #2
	b.hs	Lnoise_BB82_14
	mov	w21, #2
	b	Lnoise_BB82_15
Lnoise_BB82_14:
	add	x8, x1, x10
	ldrh	w10, [x8]
	rev16	w5, w10
	add	x21, x5, #2
	cmp	x2, x21
	b.hs	Lnoise_BB82_16
Lnoise_BB82_15:
	sub	x8, x21, x2
	str	x8, [x3, #24]
	mov	w8, #42
	b	Lnoise_BB82_11
Lnoise_BB82_16:
	add	x20, sp, #8
	stp	xzr, xzr, [x29, #-64]
	cmp	w11, #0
	csel	w9, wzr, w9, eq
	tbz	w9, #0, Lnoise_BB82_20
	mov	w8, #3
Lnoise_BB82_18:
	ldrb	w9, [sp, #24]
	cmp	w9, #1
	b.ne	Lnoise_BB82_35
	ldr	x9, [sp, #64]
	ldr	x10, [sp, #16]
	ldrb	w11, [sp, #9]
	ldrb	w12, [sp, #8]
	and	w11, w11, #0x1
	cmp	w12, #0
	mov	w12, #1
	cinc	w12, w12, ne
	str	w19, [x0]
	strb	w12, [x0, #4]
	strb	w11, [x0, #5]
	ldur	q0, [x20, #17]
	stur	q0, [x0, #6]
	ldur	q0, [x20, #33]
	stur	q0, [x0, #22]
	strh	wzr, [x0, #38]
	stp	x10, x9, [x0, #40]
	mov	w9, #2
	strb	w9, [x0, #56]
	stur	wzr, [x0, #57]
Lnoise_loh172:
	adrp	x9, lnoise__switch.table.noise_stream_read@PAGE
Lnoise_loh173:
	add	x9, x9, lnoise__switch.table.noise_stream_read@PAGEOFF
	str	wzr, [x0, #60]
	ldr	w8, [x9, x8, lsl #2]
	b	Lnoise_BB82_11
Lnoise_BB82_20:
	mov	x23, x3
	mov	x22, x0
Lnoise_loh174:
	adrp	x2, lnoise__static.1@PAGE
Lnoise_loh175:
	add	x2, x2, lnoise__static.1@PAGEOFF
	sub	x0, x29, #64
	add	x1, x20, #16
	add	x4, x8, #2
	mov	x3, #0
	bl	"_noise_state::cipher::CipherState::decrypt"
	ldurb	w8, [x29, #-64]
	cbz	w8, Lnoise_BB82_24
	ldurb	w8, [x29, #-63]
	cmp	w8, #1
	b.gt	Lnoise_BB82_30
	mov	x0, x22
	cbnz	w8, Lnoise_BB82_32
	mov	w8, #2
	b	Lnoise_BB82_18
Lnoise_BB82_24:
	ldur	x24, [x29, #-56]
	ldr	x8, [sp, #16]
	cbz	x8, Lnoise_BB82_27
	ldr	x9, [sp, #64]
	udiv	x10, x9, x8
	msub	x8, x10, x8, x9
	cbnz	x8, Lnoise_BB82_27
	add	x0, x20, #16
	bl	"_noise_state::cipher::CipherState::rekey"
Lnoise_BB82_27:
	cbz	x24, Lnoise_BB82_33
	mov	w8, #2
	stp	x8, x24, [x23]
	str	x21, [x23, #16]
	ldrb	w8, [sp, #24]
	cmp	w8, #1
	b.ne	Lnoise_BB82_35
	mov	w8, #0
	ldrb	w9, [sp, #72]
	ldr	x10, [sp, #64]
	ldr	x11, [sp, #16]
	ldrb	w12, [sp, #8]
	cmp	w12, #0
	ldrb	w12, [sp, #9]
	and	w12, w12, #0x1
	str	w19, [x22]
	mov	w13, #1
	cinc	w13, w13, ne
	strb	w13, [x22, #4]
	strb	w12, [x22, #5]
	ldur	q0, [x20, #17]
	stur	q0, [x22, #6]
	ldur	q0, [x20, #33]
	stur	q0, [x22, #22]
	strh	wzr, [x22, #38]
	stp	x11, x10, [x22, #40]
	strb	w9, [x22, #56]
	str	wzr, [x22, #60]
	stur	wzr, [x22, #57]
	b	Lnoise_BB82_11
Lnoise_BB82_30:
	cmp	w8, #2
	b.ne	Lnoise_BB82_35
	mov	x0, x22
	mov	x8, #0
	b	Lnoise_BB82_18
Lnoise_BB82_32:
	mov	w8, #1
	b	Lnoise_BB82_18
Lnoise_BB82_33:
	str	x21, [x23, #16]
	ldrb	w8, [sp, #24]
	cmp	w8, #1
	b.ne	Lnoise_BB82_35
	ldr	x8, [sp, #64]
	ldr	x9, [sp, #16]
	ldrb	w10, [sp, #9]
	ldrb	w11, [sp, #8]
	and	w10, w10, #0x1
	cmp	w11, #0
	mov	w11, #1
	cinc	w12, w11, ne
	str	w19, [x22]
	strb	w12, [x22, #4]
	strb	w10, [x22, #5]
	ldur	q0, [x20, #17]
	stur	q0, [x22, #6]
	ldur	q0, [x20, #33]
	stur	q0, [x22, #22]
	strh	wzr, [x22, #38]
	stp	x9, x8, [x22, #40]
	strb	w11, [x22, #56]
	stur	wzr, [x22, #57]
	mov	w8, #41
	str	wzr, [x22, #60]
	b	Lnoise_BB82_11
Lnoise_BB82_35:
	brk	#0x1
	.loh AdrpAdd	Lnoise_loh172, Lnoise_loh173
	.loh AdrpAdd	Lnoise_loh174, Lnoise_loh175
	.cfi_endproc

	.globl	_noise_stream_end
	.p2align	2
_noise_stream_end:
	.cfi_startproc
	sub	sp, sp, #160
	.cfi_def_cfa_offset 160
	stp	x24, x23, [sp, #96]
	stp	x22, x21, [sp, #112]
	stp	x20, x19, [sp, #128]
	stp	x29, x30, [sp, #144]
	add	x29, sp, #144
	.cfi_def_cfa w29, 16
	.cfi_offset w30, -8
	.cfi_offset w29, -16
	.cfi_offset w19, -24
	.cfi_offset w20, -32
	.cfi_offset w21, -40
	.cfi_offset w22, -48
	.cfi_offset w23, -56
	.cfi_offset w24, -64
	.cfi_remember_state
	mov	w19, #2561
	movk	w19, #20079, lsl #16
	mov	w8, #4096
	cmp	x1, #0
	csel	x9, x8, xzr, eq
	ldr	w8, [x0]
	cmp	w8, w19
	b.ne	Lnoise_BB83_12
	ldrb	w8, [x0, #4]
	cmp	w8, #1
	b.eq	Lnoise_BB83_6
	cmp	w8, #2
	b.ne	Lnoise_BB83_12
	mov	w10, #1
	mov	w14, #1
	ldrb	w11, [x0, #5]
	cmp	w11, #0
	cset	w16, ne
	ldp	x15, x12, [x0, #40]
	ldrb	w13, [x0, #56]
	cbz	w13, Lnoise_BB83_7
Lnoise_BB83_4:
	cmp	w11, #0
	csel	w17, wzr, w10, eq
	mov	w8, #23
	tbnz	w17, #0, Lnoise_BB83_13
	cbnz	x12, Lnoise_BB83_8
	b	Lnoise_BB83_13
Lnoise_BB83_6:
	mov	w10, #0
	mov	w14, #0
	ldrb	w11, [x0, #5]
	cmp	w11, #0
	cset	w16, ne
	ldp	x15, x12, [x0, #40]
	ldrb	w13, [x0, #56]
	cbnz	w13, Lnoise_BB83_4
Lnoise_BB83_7:
	cmn	x12, #1
	b.eq	Lnoise_BB83_12
Lnoise_BB83_8:
	cmp	w13, #0
	strb	w14, [sp, #8]
	cset	w8, ne
	strb	w16, [sp, #9]
	stur	wzr, [sp, #10]
	strh	wzr, [sp, #14]
	str	x15, [sp, #16]
	mov	w14, #1
	strb	w14, [sp, #24]
	ldur	q0, [x0, #6]
	stur	q0, [sp, #25]
	ldur	q0, [x0, #22]
	stur	q0, [sp, #41]
	stur	wzr, [sp, #57]
	str	wzr, [sp, #60]
	str	x12, [sp, #64]
	strb	w8, [sp, #72]
	stur	wzr, [sp, #73]
	str	wzr, [sp, #76]
	cmp	x2, #18
	mov	w8, #43
	mov	w14, #18
	csel	w8, w14, w8, lo
	b.lo	Lnoise_BB83_13
	cbnz	w13, Lnoise_BB83_13
	cmp	w11, #0
	csel	w8, wzr, w10, eq
	tbz	w8, #0, Lnoise_BB83_14
	mov	w8, #22
	b	Lnoise_BB83_13
Lnoise_BB83_12:
	mov	w8, #23
Lnoise_BB83_13:
	mov	x0, x8
	.cfi_def_cfa wsp, 160
	ldp	x29, x30, [sp, #144]
	ldp	x20, x19, [sp, #128]
	ldp	x22, x21, [sp, #112]
	ldp	x24, x23, [sp, #96]
	add	sp, sp, #160
	.cfi_def_cfa_offset 0
	.cfi_restore w30
	.cfi_restore w29
	.cfi_restore w19
	.cfi_restore w20
	.cfi_restore w21
	.cfi_restore w22
	.cfi_restore w23
	.cfi_restore w24
	ret
Lnoise_BB83_14:
	.cfi_restore_state
	cmn	x12, #1
	b.eq	Lnoise_BB83_21
	mov	x23, x3
	mov	x22, x0
	add	x21, x1, x9
	add	x20, sp, #8
	stp	xzr, xzr, [x29, #-64]
Lnoise_loh176:
	adrp	x2, lnoise__static.1@PAGE
Lnoise_loh177:
	add	x2, x2, lnoise__static.1@PAGEOFF
	sub	x0, x29, #64
	add	x1, x20, #16
	add	x4, x21, #2
	mov	x3, #0
	mov	x5, #0
	bl	"_noise_state::cipher::CipherState::encrypt"
	ldurb	w8, [x29, #-64]
	cbnz	w8, Lnoise_BB83_21
	ldur	x24, [x29, #-56]
	ldr	x11, [sp, #16]
	ldr	x10, [sp, #64]
	mov	x9, x22
	mov	x8, x23
	cbz	x11, Lnoise_BB83_19
	udiv	x12, x10, x11
	msub	x12, x12, x11, x10
	cbnz	x12, Lnoise_BB83_19
	add	x0, x20, #16
	bl	"_noise_state::cipher::CipherState::rekey"
	mov	x8, x23
	mov	x9, x22
	ldr	x11, [sp, #16]
	ldr	x10, [sp, #64]
Lnoise_BB83_19:
	rev	w12, w24
	lsr	w12, w12, #16
	strh	w12, [x21]
	add	x12, x24, #2
	str	x12, [x8, #8]
	ldrb	w8, [sp, #24]
	cmp	w8, #1
	b.ne	Lnoise_BB83_21
	mov	w8, #0
	ldrb	w12, [sp, #9]
	ldrb	w13, [sp, #8]
	and	w12, w12, #0x1
	cmp	w13, #0
	mov	w13, #1
	str	w19, [x9]
	cinc	w14, w13, ne
	strb	w14, [x9, #4]
	strb	w12, [x9, #5]
	ldur	q0, [x20, #17]
	stur	q0, [x9, #6]
	ldur	q0, [x20, #33]
	stur	q0, [x9, #22]
	strh	wzr, [x9, #38]
	stp	x11, x10, [x9, #40]
	strb	w13, [x9, #56]
	stur	wzr, [x9, #57]
	str	wzr, [x9, #60]
	b	Lnoise_BB83_13
Lnoise_BB83_21:
	brk	#0x1
	.loh AdrpAdd	Lnoise_loh176, Lnoise_loh177
	.cfi_endproc

	.globl	_noise_stream_write
	.p2align	2
_noise_stream_write:
	.cfi_startproc
	sub	sp, sp, #176
	.cfi_def_cfa_offset 176
	stp	x26, x25, [sp, #96]
	stp	x24, x23, [sp, #112]
	stp	x22, x21, [sp, #128]
	stp	x20, x19, [sp, #144]
	stp	x29, x30, [sp, #160]
	add	x29, sp, #160
	.cfi_def_cfa w29, 16
	.cfi_offset w30, -8
	.cfi_offset w29, -16
	.cfi_offset w19, -24
	.cfi_offset w20, -32
	.cfi_offset w21, -40
	.cfi_offset w22, -48
	.cfi_offset w23, -56
	.cfi_offset w24, -64
	.cfi_offset w25, -72
	.cfi_offset w26, -80
	.cfi_remember_state
	mov	w20, #2561
	movk	w20, #20079, lsl #16
	mov	w8, #4096
	cmp	x1, #0
	csel	x10, x8, xzr, eq
	cmp	x3, #0
	csel	x9, x8, xzr, eq
	ldr	w8, [x0]
	cmp	w8, w20
	b.ne	Lnoise_BB84_14
	ldrb	w8, [x0, #4]
	cmp	w8, #1
	b.eq	Lnoise_BB84_6
	cmp	w8, #2
	b.ne	Lnoise_BB84_14
	mov	w15, #1
	mov	w13, #1
	ldrb	w16, [x0, #5]
	cmp	w16, #0
	cset	w14, ne
	ldp	x12, x11, [x0, #40]
	ldrb	w17, [x0, #56]
	cbz	w17, Lnoise_BB84_7
Lnoise_BB84_4:
	cmp	w16, #0
	csel	w6, wzr, w15, eq
	mov	w8, #23
	tbnz	w6, #0, Lnoise_BB84_15
	cbnz	x11, Lnoise_BB84_8
	b	Lnoise_BB84_15
Lnoise_BB84_6:
	mov	w15, #0
	mov	w13, #0
	ldrb	w16, [x0, #5]
	cmp	w16, #0
	cset	w14, ne
	ldp	x12, x11, [x0, #40]
	ldrb	w17, [x0, #56]
	cbnz	w17, Lnoise_BB84_4
Lnoise_BB84_7:
	cmn	x11, #1
	b.eq	Lnoise_BB84_14
Lnoise_BB84_8:
	cmp	w17, #0
	strb	w13, [sp, #8]
	cset	w8, ne
	strb	w14, [sp, #9]
	stur	wzr, [sp, #10]
	strh	wzr, [sp, #14]
	str	x12, [sp, #16]
	mov	w6, #1
	strb	w6, [sp, #24]
	ldur	q0, [x0, #6]
	stur	q0, [sp, #25]
	ldur	q0, [x0, #22]
	stur	q0, [sp, #41]
	stur	wzr, [sp, #57]
	str	wzr, [sp, #60]
	cmp	x2, #0
	cset	w6, ne
	str	x11, [sp, #64]
	strb	w8, [sp, #72]
	mov	w8, #65519
	cmp	x2, x8
	csel	x19, x2, x8, lo
	add	x8, x19, #18
	stur	wzr, [sp, #73]
	str	wzr, [sp, #76]
	cmp	x8, x4
	cset	w8, hi
	ands	w4, w6, w8
	mov	w8, #43
	mov	w6, #18
	csel	w8, w6, w8, ne
	tbnz	w4, #0, Lnoise_BB84_15
	cbnz	w17, Lnoise_BB84_15
	add	x21, sp, #8
	cbz	x2, Lnoise_BB84_24
	cbz	w16, Lnoise_BB84_16
	tbz	w15, #0, Lnoise_BB84_16
	mov	w8, #22
	b	Lnoise_BB84_15
Lnoise_BB84_14:
	mov	w8, #23
Lnoise_BB84_15:
	mov	x0, x8
	.cfi_def_cfa wsp, 176
	ldp	x29, x30, [sp, #160]
	ldp	x20, x19, [sp, #144]
	ldp	x22, x21, [sp, #128]
	ldp	x24, x23, [sp, #112]
	ldp	x26, x25, [sp, #96]
	add	sp, sp, #176
	.cfi_def_cfa_offset 0
	.cfi_restore w30
	.cfi_restore w29
	.cfi_restore w19
	.cfi_restore w20
	.cfi_restore w21
	.cfi_restore w22
	.cfi_restore w23
	.cfi_restore w24
	.cfi_restore w25
	.cfi_restore w26
	ret
Lnoise_BB84_16:
	.cfi_restore_state
	cmn	x11, #2
	b.eq	Lnoise_BB84_25
	cmn	x11, #1
	b.eq	Lnoise_BB84_43
	add	x22, x3, x9
	add	x11, x22, #2
	add	x8, x1, x10
	sub	x11, x11, x8
	cmp	x11, x19
	b.hs	Lnoise_BB84_26
	cmp	x2, #7
	b.ls	Lnoise_BB84_21
	add	x8, x9, x3
	add	x11, x10, x1
	sub	x8, x8, x11
	add	x8, x8, #2
	cmp	x8, #32
	b.hs	Lnoise_BB84_34
Lnoise_BB84_21:
	mov	x23, x5
	mov	x24, x0
	mov	x8, #0
Lnoise_BB84_22:
	sub	x11, x19, x8
	add	x10, x10, x8
	add	x10, x1, x10
	add	x8, x9, x8
	add	x8, x8, x3
	add	x8, x8, #2
Lnoise_BB84_23:
	ldrb	w9, [x10], #1
	strb	w9, [x8], #1
	subs	x11, x11, #1
	b.ne	Lnoise_BB84_23
	b	Lnoise_BB84_27
Lnoise_BB84_24:
	mov	w9, #0
	stp	xzr, xzr, [x5, #8]
	b	Lnoise_BB84_33
Lnoise_BB84_25:
	mov	w8, #17
	b	Lnoise_BB84_15
Lnoise_BB84_26:
	mov	x23, x5
	mov	x24, x0
	add	x0, x22, #2
	mov	x1, x8
	mov	x2, x19
	bl	_memmove
Lnoise_BB84_27:
	stp	xzr, xzr, [sp, #80]
Lnoise_loh178:
	adrp	x2, lnoise__static.1@PAGE
Lnoise_loh179:
	add	x2, x2, lnoise__static.1@PAGEOFF
	add	x0, sp, #80
	add	x1, x21, #16
	add	x4, x22, #2
	mov	x3, #0
	mov	x5, x19
	bl	"_noise_state::cipher::CipherState::encrypt"
	ldrb	w8, [sp, #80]
	cbnz	w8, Lnoise_BB84_43
	ldr	x25, [sp, #88]
	ldr	x12, [sp, #16]
	ldr	x11, [sp, #64]
	mov	x0, x24
	cbz	x12, Lnoise_BB84_31
	udiv	x8, x11, x12
	msub	x8, x8, x12, x11
	cbnz	x8, Lnoise_BB84_31
	mov	x24, x0
	add	x0, x21, #16
	bl	"_noise_state::cipher::CipherState::rekey"
	mov	x0, x24
	ldr	x12, [sp, #16]
	ldr	x11, [sp, #64]
Lnoise_BB84_31:
	rev	w8, w25
	lsr	w8, w8, #16
	strh	w8, [x22]
	add	x9, x25, #2
	ldrb	w13, [sp, #8]
	ldrb	w14, [sp, #9]
	ldrb	w10, [sp, #24]
	ldrb	w8, [sp, #72]
	stp	x9, x19, [x23, #8]
	cmp	w10, #1
	b.ne	Lnoise_BB84_43
	and	w9, w8, #0x1
Lnoise_BB84_33:
	mov	w8, #0
	str	w20, [x0]
	cmp	w13, #0
	mov	w10, #1
	cinc	w10, w10, ne
	strb	w10, [x0, #4]
	and	w10, w14, #0x1
	strb	w10, [x0, #5]
	ldur	q0, [x21, #17]
	stur	q0, [x0, #6]
	ldur	q0, [x21, #33]
	stur	q0, [x0, #22]
	strh	wzr, [x0, #38]
	stp	x12, x11, [x0, #40]
	strb	w9, [x0, #56]
	stur	wzr, [x0, #57]
	str	wzr, [x0, #60]
	b	Lnoise_BB84_15
Lnoise_BB84_34:
	mov	x23, x5
	mov	x24, x0
	cmp	x2, #32
	b.hs	Lnoise_BB84_36
	mov	x8, #0
	b	Lnoise_BB84_40
Lnoise_BB84_36:
	and	x11, x19, #0x18
	and	x8, x19, #0xffe0
	add	x12, x10, x1
	add	x12, x12, #16
	add	x13, x9, x3
	add	x13, x13, #18
	and	x14, x19, #0xffe0
Lnoise_BB84_37:
	ldp	q0, q1, [x12, #-16]
	stp	q0, q1, [x13, #-16]
	add	x12, x12, #32
	add	x13, x13, #32
	subs	x14, x14, #32
	b.ne	Lnoise_BB84_37
	cmp	x2, x8
	b.eq	Lnoise_BB84_27
	cbz	x11, Lnoise_BB84_22
Lnoise_BB84_40:
	mov	x13, x8
	and	x8, x19, #0xfff8
	sub	x11, x13, x8
	add	x12, x10, x13
	add	x12, x1, x12
	add	x13, x9, x13
	add	x13, x13, x3
	add	x13, x13, #2
Lnoise_BB84_41:
	ldr	d0, [x12], #8
	str	d0, [x13], #8
	adds	x11, x11, #8
	b.ne	Lnoise_BB84_41
	cmp	x19, x8
	b.ne	Lnoise_BB84_22
	b	Lnoise_BB84_27
Lnoise_BB84_43:
	brk	#0x1
	.loh AdrpAdd	Lnoise_loh178, Lnoise_loh179
	.cfi_endproc

	.globl	_noise_unset_psk
	.p2align	2
_noise_unset_psk:
	.cfi_startproc
	stp	x28, x27, [sp, #-48]!
	.cfi_def_cfa_offset 48
	stp	x20, x19, [sp, #16]
	stp	x29, x30, [sp, #32]
	add	x29, sp, #32
	.cfi_def_cfa w29, 16
	.cfi_offset w30, -8
	.cfi_offset w29, -16
	.cfi_offset w19, -24
	.cfi_offset w20, -32
	.cfi_offset w27, -40
	.cfi_offset w28, -48
	.cfi_remember_state
	sub	sp, sp, #1152
	mov	x19, x0
	add	x0, sp, #280
	mov	w1, #872
	bl	_bzero
	ldr	w8, [x19]
	mov	w9, #257
	movk	w9, #20079, lsl #16
	cmp	w8, w9
	b.ne	Lnoise_BB85_8
	ldrh	w2, [x19, #420]
	cmp	x2, #416
	b.hi	Lnoise_BB85_8
	ldrb	w8, [x19, #846]
	cmp	w8, #8
	b.hi	Lnoise_BB85_8
	ldrb	w8, [x19, #557]
	cmp	w8, #9
	b.hi	Lnoise_BB85_8
	mov	x20, sp
	mov	x0, sp
	add	x1, x19, #4
	bl	"_noise_c::patterns::pattern_of"
	ldrb	w8, [sp]
	cbnz	w8, Lnoise_BB85_8
	add	x0, sp, #280
	add	x2, x20, #8
	mov	x1, x19
	bl	"_noise_c::from_c::restored"
	ldrb	w8, [sp, #280]
	cmp	w8, #1
	b.ne	Lnoise_BB85_8
	ldrb	w8, [x19, #557]
	cbz	w8, Lnoise_BB85_10
	mov	w0, #0
	add	x9, x19, #782
	add	x10, x19, #814
	ldp	q0, q1, [x9]
	stp	q0, q1, [x10]
	add	x10, x19, #750
	ldp	q0, q1, [x10]
	stp	q0, q1, [x9]
	add	x9, x19, #718
	ldp	q0, q1, [x9]
	stp	q0, q1, [x10]
	add	x10, x19, #686
	ldp	q1, q0, [x10]
	stp	q1, q0, [x9]
	add	x9, x19, #654
	ldp	q1, q0, [x9]
	stp	q1, q0, [x10]
	add	x10, x19, #622
	ldp	q0, q1, [x10]
	stp	q0, q1, [x9]
	add	x9, x19, #590
	ldp	q0, q1, [x9]
	stp	q0, q1, [x10]
	add	x10, x19, #558
	ldp	q0, q1, [x10]
	stp	q0, q1, [x9]
	movi.2d	v0, #0000000000000000
	stp	q0, q0, [x10]
	sub	w8, w8, #1
	strb	w8, [x19, #557]
	b	Lnoise_BB85_9
Lnoise_BB85_8:
	mov	w0, #23
Lnoise_BB85_9:
	add	sp, sp, #1152
	.cfi_def_cfa wsp, 48
	ldp	x29, x30, [sp, #32]
	ldp	x20, x19, [sp, #16]
	ldp	x28, x27, [sp], #48
	.cfi_def_cfa_offset 0
	.cfi_restore w30
	.cfi_restore w29
	.cfi_restore w19
	.cfi_restore w20
	.cfi_restore w27
	.cfi_restore w28
	ret
Lnoise_BB85_10:
	.cfi_restore_state
	mov	w0, #0
	b	Lnoise_BB85_9
	.cfi_endproc

	.globl	_noise_check_pattern
	.p2align	2
_noise_check_pattern:
	.cfi_startproc
	stp	x28, x27, [sp, #-48]!
	.cfi_def_cfa_offset 48
	stp	x20, x19, [sp, #16]
	stp	x29, x30, [sp, #32]
	add	x29, sp, #32
	.cfi_def_cfa w29, 16
	.cfi_offset w30, -8
	.cfi_offset w29, -16
	.cfi_offset w19, -24
	.cfi_offset w20, -32
	.cfi_offset w27, -40
	.cfi_offset w28, -48
	sub	sp, sp, #560
	mov	x19, x2
	mov	x2, x1
	mov	x8, x0
	str	xzr, [sp, #544]
	movi.2d	v0, #0000000000000000
	stp	q0, q0, [sp, #512]
	mov	w9, #4096
	cmp	x0, #0
	csel	x9, x9, xzr, eq
	stp	q0, q0, [sp, #480]
	stp	q0, q0, [sp, #448]
	stp	q0, q0, [sp, #416]
	stp	q0, q0, [sp, #384]
	stp	q0, q0, [sp, #352]
	stp	q0, q0, [sp, #320]
	stp	q0, q0, [sp, #288]
	str	q0, [sp, #272]
	add	x20, sp, #272
	add	x0, sp, #272
	add	x1, x8, x9
	bl	"_noise_names::pattern::Pattern::parse_text"
	ldrb	w8, [sp, #272]
	cbz	w8, Lnoise_BB86_2
	ldr	x8, [sp, #280]
	ldrb	w9, [sp, #288]
	str	x8, [x19]
	add	w0, w9, #30
	b	Lnoise_BB86_5
Lnoise_BB86_2:
	mov	x0, sp
	orr	x1, x20, #0x8
	mov	w2, #272
	bl	_memcpy
	str	xzr, [sp, #544]
	movi.2d	v0, #0000000000000000
	stp	q0, q0, [sp, #512]
	stp	q0, q0, [sp, #480]
	stp	q0, q0, [sp, #448]
	stp	q0, q0, [sp, #416]
	stp	q0, q0, [sp, #384]
	stp	q0, q0, [sp, #352]
	stp	q0, q0, [sp, #320]
	stp	q0, q0, [sp, #288]
	str	q0, [sp, #272]
	add	x0, sp, #272
	mov	x1, sp
	bl	"_noise_names::pattern::Pattern::check"
	ldrb	w8, [sp, #272]
	cbz	w8, Lnoise_BB86_4
	add	x8, sp, #18
	ldurh	w8, [x8, #255]
	ldrb	w9, [sp, #275]
	strh	w8, [x19, #8]
	strb	w9, [x19, #10]
	mov	w0, #39
	b	Lnoise_BB86_5
Lnoise_BB86_4:
	mov	w0, #0
	ldr	x8, [sp, #544]
	strb	w8, [x19, #11]
Lnoise_BB86_5:
	add	sp, sp, #560
	.cfi_def_cfa wsp, 48
	ldp	x29, x30, [sp, #32]
	ldp	x20, x19, [sp, #16]
	ldp	x28, x27, [sp], #48
	.cfi_def_cfa_offset 0
	.cfi_restore w30
	.cfi_restore w29
	.cfi_restore w19
	.cfi_restore w20
	.cfi_restore w27
	.cfi_restore w28
	ret
	.cfi_endproc

	.globl	_noise_pattern
	.p2align	2
_noise_pattern:
	.cfi_startproc
	stp	x28, x27, [sp, #-96]!
	.cfi_def_cfa_offset 96
	stp	x26, x25, [sp, #16]
	stp	x24, x23, [sp, #32]
	stp	x22, x21, [sp, #48]
	stp	x20, x19, [sp, #64]
	stp	x29, x30, [sp, #80]
	add	x29, sp, #80
	.cfi_def_cfa w29, 16
	.cfi_offset w30, -8
	.cfi_offset w29, -16
	.cfi_offset w19, -24
	.cfi_offset w20, -32
	.cfi_offset w21, -40
	.cfi_offset w22, -48
	.cfi_offset w23, -56
	.cfi_offset w24, -64
	.cfi_offset w25, -72
	.cfi_offset w26, -80
	.cfi_offset w27, -88
	.cfi_offset w28, -96
	.cfi_remember_state
	sub	sp, sp, #1904
	mov	x19, x3
	mov	x20, x2
	mov	x2, x1
	movi.2d	v0, #0000000000000000
	stp	q0, q0, [sp, #688]
	add	x21, sp, #1504
	mov	w8, #4096
	stp	q0, q0, [sp, #720]
	cmp	x0, #0
	csel	x8, x8, xzr, eq
	add	x1, x0, x8
	stp	q0, q0, [sp, #752]
	stp	q0, q0, [sp, #784]
	stp	q0, q0, [sp, #816]
	stp	q0, q0, [sp, #848]
	stp	q0, q0, [sp, #880]
	stp	q0, q0, [sp, #912]
	str	q0, [sp, #944]
	stp	q0, q0, [sp, #656]
	stp	q0, q0, [sp, #624]
	stp	q0, q0, [sp, #592]
	stp	q0, q0, [sp, #560]
	stp	q0, q0, [sp, #528]
	stp	q0, q0, [sp, #496]
	stp	q0, q0, [sp, #464]
	stp	q0, q0, [sp, #432]
	str	q0, [sp, #416]
	cbz	x2, Lnoise_BB87_4
	add	x8, x1, x2
	ldurb	w8, [x8, #-1]
	cmp	w8, #10
	b.ne	Lnoise_BB87_4
	str	xzr, [sp, #1872]
	str	q0, [sp, #1856]
	str	q0, [sp, #1840]
	str	q0, [sp, #1824]
	str	q0, [sp, #1808]
	str	q0, [sp, #1792]
	str	q0, [sp, #1776]
	str	q0, [sp, #1760]
	str	q0, [sp, #1744]
	str	q0, [sp, #1728]
	str	q0, [sp, #1712]
	str	q0, [sp, #1696]
	str	q0, [sp, #1680]
	str	q0, [sp, #1664]
	str	q0, [sp, #1648]
	str	q0, [sp, #1632]
	str	q0, [sp, #1616]
	str	q0, [sp, #1600]
	add	x22, sp, #1600
	add	x0, sp, #1600
	bl	"_noise_names::pattern::Pattern::parse_text"
	ldrb	w8, [sp, #1600]
	cbz	w8, Lnoise_BB87_24
	ldr	x8, [sp, #1608]
	ldrb	w9, [sp, #1616]
	str	x8, [x19]
	add	w0, w9, #30
	b	Lnoise_BB87_6
Lnoise_BB87_4:
	str	q0, [sp, #1504]
	str	q0, [sp, #1520]
	str	q0, [sp, #1536]
	str	q0, [sp, #1600]
	str	q0, [sp, #1616]
	str	q0, [sp, #1632]
	str	q0, [sp, #1648]
	str	q0, [sp, #1664]
	str	q0, [sp, #1680]
	str	q0, [sp, #1696]
	str	q0, [sp, #1712]
	str	q0, [sp, #1728]
	str	q0, [sp, #1744]
	str	q0, [sp, #1760]
	str	q0, [sp, #1776]
	str	q0, [sp, #1792]
	str	q0, [sp, #1808]
	str	q0, [sp, #1824]
	str	q0, [sp, #1840]
	str	q0, [sp, #1856]
	str	xzr, [sp, #1872]
	add	x0, sp, #1504
	bl	"_noise_names::name::ProtocolName::parse"
	ldrb	w8, [sp, #1504]
	cbz	w8, Lnoise_BB87_7
Lnoise_BB87_5:
	mov	w0, #1
Lnoise_BB87_6:
	add	sp, sp, #1904
	.cfi_def_cfa wsp, 96
	ldp	x29, x30, [sp, #80]
	ldp	x20, x19, [sp, #64]
	ldp	x22, x21, [sp, #48]
	ldp	x24, x23, [sp, #32]
	ldp	x26, x25, [sp, #16]
	ldp	x28, x27, [sp], #96
	.cfi_def_cfa_offset 0
	.cfi_restore w30
	.cfi_restore w29
	.cfi_restore w19
	.cfi_restore w20
	.cfi_restore w21
	.cfi_restore w22
	.cfi_restore w23
	.cfi_restore w24
	.cfi_restore w25
	.cfi_restore w26
	.cfi_restore w27
	.cfi_restore w28
	ret
Lnoise_BB87_7:
	.cfi_restore_state
	ldur	q0, [x21, #8]
	ldur	q1, [x21, #24]
	str	q0, [sp, #1552]
	str	q1, [sp, #1568]
	ldr	x8, [sp, #1544]
	str	x8, [sp, #1584]
	ldr	x8, [sp, #1560]
	cbz	x8, Lnoise_BB87_5
	cmp	x8, #1
	b.ne	Lnoise_BB87_13
	ldrb	w8, [sp, #1512]
	cmp	w8, #88
	b.eq	Lnoise_BB87_22
	cmp	w8, #78
	b.eq	Lnoise_BB87_21
	cmp	w8, #75
	b.ne	Lnoise_BB87_5
	mov	w1, #1
	b	Lnoise_BB87_23
Lnoise_BB87_13:
	cmp	x8, #2
	b.hi	Lnoise_BB87_5
	ldrb	w8, [sp, #1512]
	cmp	w8, #77
	b.gt	Lnoise_BB87_33
	cmp	w8, #73
	b.eq	Lnoise_BB87_140
	cmp	w8, #75
	b.ne	Lnoise_BB87_5
	ldrb	w8, [sp, #1513]
	cmp	w8, #88
	b.eq	Lnoise_BB87_195
	cmp	w8, #78
	b.eq	Lnoise_BB87_191
	cmp	w8, #75
	b.ne	Lnoise_BB87_5
	mov	w1, #7
	b	Lnoise_BB87_23
Lnoise_BB87_21:
	mov	w1, #0
	b	Lnoise_BB87_23
Lnoise_BB87_22:
	mov	w1, #2
Lnoise_BB87_23:
	add	x0, sp, #1232
	bl	"_noise_names::table::row"
	add	x8, sp, #1552
	add	x22, sp, #1600
	add	x0, sp, #1600
	add	x1, sp, #1232
	add	x2, x8, #16
	bl	"_noise_names::pattern::Pattern::with_psks"
	ldrb	w8, [sp, #1600]
	cbnz	w8, Lnoise_BB87_5
Lnoise_BB87_24:
	add	x0, sp, #960
	orr	x1, x22, #0x8
	mov	w2, #272
	bl	_memcpy
	add	x0, sp, #1232
	add	x1, sp, #960
	mov	w2, #272
	bl	_memcpy
	str	xzr, [sp, #1872]
	movi.2d	v0, #0000000000000000
	str	q0, [sp, #1856]
	str	q0, [sp, #1840]
	str	q0, [sp, #1824]
	str	q0, [sp, #1808]
	str	q0, [sp, #1792]
	str	q0, [sp, #1776]
	str	q0, [sp, #1760]
	str	q0, [sp, #1744]
	str	q0, [sp, #1728]
	str	q0, [sp, #1712]
	str	q0, [sp, #1696]
	str	q0, [sp, #1680]
	str	q0, [sp, #1664]
	str	q0, [sp, #1648]
	str	q0, [sp, #1632]
	str	q0, [sp, #1616]
	str	q0, [sp, #1600]
	add	x22, sp, #1600
	add	x0, sp, #1600
	add	x1, sp, #1232
	bl	"_noise_names::pattern::Pattern::check"
	ldrb	w8, [sp, #1600]
	cbz	w8, Lnoise_BB87_26
	ldurh	w8, [x21, #97]
	ldrb	w9, [sp, #1603]
	strh	w8, [x19, #8]
	strb	w9, [x19, #10]
	mov	w0, #39
	b	Lnoise_BB87_6
Lnoise_BB87_26:
	add	x0, sp, #416
	orr	x1, x22, #0x8
	mov	w2, #272
	bl	_memcpy
	add	x21, sp, #688
	add	x0, sp, #688
	add	x1, sp, #416
	mov	w2, #272
	bl	_memcpy
	add	x11, x21, #72
	ldr	x23, [sp, #952]
	cbz	x23, Lnoise_BB87_39
	mov	x9, #0
	mov	x10, x23
	add	x12, x21, #72
	b	Lnoise_BB87_29
Lnoise_BB87_28:
	add	x12, x12, #24
	add	x9, x13, x9
	subs	x10, x10, #1
	b.eq	Lnoise_BB87_40
Lnoise_BB87_29:
	mov	x13, #0
	ldr	x14, [x12, #16]
	mov	x15, x12
Lnoise_BB87_30:
	cbz	x14, Lnoise_BB87_28
	ldrb	w16, [x15], #1
	sub	x14, x14, #1
	cmp	w16, #6
	b.ne	Lnoise_BB87_30
	add	x13, x13, #1
	b	Lnoise_BB87_30
Lnoise_BB87_33:
	cmp	w8, #88
	b.eq	Lnoise_BB87_144
	cmp	w8, #78
	b.ne	Lnoise_BB87_5
	ldrb	w8, [sp, #1513]
	cmp	w8, #88
	b.eq	Lnoise_BB87_196
	cmp	w8, #78
	b.eq	Lnoise_BB87_192
	cmp	w8, #75
	b.ne	Lnoise_BB87_5
	mov	w1, #4
	b	Lnoise_BB87_23
Lnoise_BB87_39:
	mov	w9, #0
Lnoise_BB87_40:
	mov	x15, #0
	add	x14, x21, #56
	add	x13, x21, #40
	ldr	x10, [sp, #752]
	ldr	x12, [sp, #736]
	str	x19, [sp, #248]
Lnoise_BB87_41:
	cmp	x12, x15
	b.eq	Lnoise_BB87_43
	ldrb	w16, [x13, x15]
	add	x15, x15, #1
	cbnz	w16, Lnoise_BB87_41
	b	Lnoise_BB87_50
Lnoise_BB87_43:
	cbz	x23, Lnoise_BB87_51
	mov	w15, #0
	mov	x16, x23
	mov	x17, x11
	b	Lnoise_BB87_46
Lnoise_BB87_45:
	add	x17, x17, #24
	eor	w15, w15, #0x1
	sub	x16, x16, #1
	cbz	x16, Lnoise_BB87_51
Lnoise_BB87_46:
	cbnz	w15, Lnoise_BB87_45
	mov	x0, #0
	ldr	x1, [x17, #16]
Lnoise_BB87_48:
	cmp	x1, x0
	b.eq	Lnoise_BB87_45
	ldrb	w2, [x17, x0]
	add	x0, x0, #1
	cbnz	w2, Lnoise_BB87_48
Lnoise_BB87_50:
	mov	w26, #1
	b	Lnoise_BB87_52
Lnoise_BB87_51:
	mov	x26, #0
Lnoise_BB87_52:
	mov	x15, #0
Lnoise_BB87_53:
	cmp	x12, x15
	b.eq	Lnoise_BB87_55
	ldrb	w16, [x13, x15]
	add	x15, x15, #1
	cmp	w16, #1
	b.ne	Lnoise_BB87_53
	b	Lnoise_BB87_62
Lnoise_BB87_55:
	cbz	x23, Lnoise_BB87_63
	mov	w15, #0
	mov	x16, x23
	mov	x17, x11
	b	Lnoise_BB87_58
Lnoise_BB87_57:
	add	x17, x17, #24
	eor	w15, w15, #0x1
	sub	x16, x16, #1
	cbz	x16, Lnoise_BB87_63
Lnoise_BB87_58:
	cbnz	w15, Lnoise_BB87_57
	mov	x0, #0
	ldr	x1, [x17, #16]
Lnoise_BB87_60:
	cmp	x1, x0
	b.eq	Lnoise_BB87_57
	ldrb	w2, [x17, x0]
	add	x0, x0, #1
	cmp	w2, #1
	b.ne	Lnoise_BB87_60
Lnoise_BB87_62:
	mov	w15, #256
	str	x15, [sp, #336]
	b	Lnoise_BB87_64
Lnoise_BB87_63:
	str	xzr, [sp, #336]
Lnoise_BB87_64:
	mov	x16, #0
Lnoise_BB87_65:
	mov	x15, x16
	cmp	x10, x16
	b.eq	Lnoise_BB87_67
	ldrb	w17, [x14, x15]
	add	x16, x15, #1
	cbnz	w17, Lnoise_BB87_65
Lnoise_BB87_67:
	mov	x17, #0
Lnoise_BB87_68:
	mov	x16, x17
	cmp	x10, x17
	b.eq	Lnoise_BB87_70
	ldrb	w0, [x14, x16]
	add	x17, x16, #1
	cmp	w0, #1
	b.ne	Lnoise_BB87_68
Lnoise_BB87_70:
	mov	x17, #0
Lnoise_BB87_71:
	cmp	x10, x17
	b.eq	Lnoise_BB87_73
	ldrb	w0, [x14, x17]
	add	x17, x17, #1
	cbnz	w0, Lnoise_BB87_71
	b	Lnoise_BB87_80
Lnoise_BB87_73:
	cbz	x23, Lnoise_BB87_81
	mov	w17, #0
	mov	x0, x23
	mov	x1, x11
	b	Lnoise_BB87_76
Lnoise_BB87_75:
	add	x1, x1, #24
	eor	w17, w17, #0x1
	sub	x0, x0, #1
	cbz	x0, Lnoise_BB87_81
Lnoise_BB87_76:
	cmp	w17, #1
	b.ne	Lnoise_BB87_75
	mov	x2, #0
	ldr	x3, [x1, #16]
Lnoise_BB87_78:
	cmp	x3, x2
	b.eq	Lnoise_BB87_75
	ldrb	w4, [x1, x2]
	add	x2, x2, #1
	cbnz	w4, Lnoise_BB87_78
Lnoise_BB87_80:
	mov	x17, #4294967296
	str	x17, [sp, #328]
	b	Lnoise_BB87_82
Lnoise_BB87_81:
	str	xzr, [sp, #328]
Lnoise_BB87_82:
	mov	x17, #0
Lnoise_BB87_83:
	cmp	x10, x17
	b.eq	Lnoise_BB87_85
	ldrb	w0, [x14, x17]
	add	x17, x17, #1
	cmp	w0, #1
	b.ne	Lnoise_BB87_83
	b	Lnoise_BB87_92
Lnoise_BB87_85:
	cbz	x23, Lnoise_BB87_93
	mov	w14, #0
	mov	x17, x23
	b	Lnoise_BB87_88
Lnoise_BB87_87:
	add	x11, x11, #24
	eor	w14, w14, #0x1
	sub	x17, x17, #1
	cbz	x17, Lnoise_BB87_93
Lnoise_BB87_88:
	cmp	w14, #1
	b.ne	Lnoise_BB87_87
	mov	x0, #0
	ldr	x1, [x11, #16]
Lnoise_BB87_90:
	cmp	x1, x0
	b.eq	Lnoise_BB87_87
	ldrb	w2, [x11, x0]
	add	x0, x0, #1
	cmp	w2, #1
	b.ne	Lnoise_BB87_90
Lnoise_BB87_92:
	mov	x11, #1099511627776
	str	x11, [sp, #304]
	b	Lnoise_BB87_94
Lnoise_BB87_93:
	str	xzr, [sp, #304]
Lnoise_BB87_94:
	mov	x14, #0
Lnoise_BB87_95:
	mov	x11, x14
	cmp	x12, x14
	b.eq	Lnoise_BB87_97
	ldrb	w17, [x13, x11]
	add	x14, x11, #1
	cbnz	w17, Lnoise_BB87_95
Lnoise_BB87_97:
	mov	x14, #0
Lnoise_BB87_98:
	cmp	x12, x14
	b.eq	Lnoise_BB87_101
	ldrb	w17, [x13, x14]
	add	x14, x14, #1
	cmp	w17, #1
	b.ne	Lnoise_BB87_98
	mov	x13, #72057594037927936
	str	x13, [sp, #296]
	b	Lnoise_BB87_102
Lnoise_BB87_101:
	str	xzr, [sp, #296]
Lnoise_BB87_102:
	mov	w13, #16777216
	cmp	x10, x16
	csel	x27, xzr, x13, eq
	mov	w13, #65536
	cmp	x10, x15
	csel	x13, xzr, x13, eq
	str	x13, [sp, #280]
	mov	x13, #281474976710656
	cmp	x12, x11
	csel	x11, xzr, x13, eq
	str	x11, [sp, #288]
	cbz	x12, Lnoise_BB87_105
	ldrb	w11, [sp, #728]
	add	w11, w11, #1
	str	w11, [sp, #324]
	cmp	x12, #1
	b.ne	Lnoise_BB87_106
	str	wzr, [sp, #320]
	b	Lnoise_BB87_107
Lnoise_BB87_105:
	str	xzr, [sp, #320]
	b	Lnoise_BB87_107
Lnoise_BB87_106:
	ldrb	w11, [sp, #729]
	lsl	w11, w11, #8
	add	w11, w11, #256
	and	w11, w11, #0xff00
	str	w11, [sp, #320]
Lnoise_BB87_107:
	cbz	x10, Lnoise_BB87_110
	ldrb	w11, [sp, #744]
	add	w11, w11, #1
	str	w11, [sp, #316]
	cmp	x10, #1
	b.ne	Lnoise_BB87_111
	str	wzr, [sp, #312]
	b	Lnoise_BB87_112
Lnoise_BB87_110:
	str	xzr, [sp, #312]
	b	Lnoise_BB87_112
Lnoise_BB87_111:
	ldrb	w10, [sp, #745]
	lsl	w10, w10, #8
	add	w10, w10, #256
	and	w10, w10, #0xff00
	str	w10, [sp, #312]
Lnoise_BB87_112:
	str	x23, [sp, #272]
	cbz	x23, Lnoise_BB87_116
	ldr	x10, [sp, #776]
	cbz	x10, Lnoise_BB87_117
	ldrb	w11, [sp, #760]
	add	w13, w11, #1
	cmp	x10, #1
	b.ne	Lnoise_BB87_118
	mov	w15, #0
	b	Lnoise_BB87_127
Lnoise_BB87_116:
	str	wzr, [sp, #164]
	str	wzr, [sp, #348]
	str	wzr, [sp, #352]
	str	xzr, [sp, #360]
	str	wzr, [sp, #372]
	str	xzr, [sp, #168]
	str	wzr, [sp, #388]
	str	xzr, [sp, #392]
	str	wzr, [sp, #176]
	stp	xzr, xzr, [sp, #184]
	str	xzr, [sp, #200]
	str	wzr, [sp, #412]
	str	wzr, [sp, #208]
	str	wzr, [sp, #228]
	stp	xzr, xzr, [sp, #232]
	str	wzr, [sp, #404]
	stp	xzr, xzr, [sp, #256]
	mov	w11, #0
	mov	w16, #0
	mov	w14, #0
	mov	w2, #0
	mov	w12, #0
	mov	w1, #0
	mov	w10, #0
	mov	w17, #0
	mov	w15, #0
	mov	w13, #0
	mov	w3, #0
	mov	w4, #0
	mov	w28, #0
	mov	w5, #0
	mov	w6, #0
	mov	w7, #0
	mov	w30, #0
	mov	w21, #0
	mov	w8, #0
	mov	w22, #0
	str	wzr, [sp, #224]
	str	xzr, [sp, #216]
	str	wzr, [sp, #212]
	mov	w19, #0
	str	wzr, [sp, #400]
	str	xzr, [sp, #376]
	mov	w25, #0
	str	wzr, [sp, #180]
	str	wzr, [sp, #160]
	str	wzr, [sp, #408]
	str	wzr, [sp, #384]
	stp	xzr, xzr, [sp, #144]
	str	wzr, [sp, #368]
	mov	w24, #0
	str	wzr, [sp, #356]
	stp	xzr, xzr, [sp, #128]
	stp	xzr, xzr, [sp, #112]
	str	wzr, [sp, #108]
	b	Lnoise_BB87_187
Lnoise_BB87_117:
	mov	w13, #0
	mov	w15, #0
	mov	w17, #0
	mov	w0, #0
	mov	w1, #0
	mov	w12, #0
	mov	w2, #0
	mov	w14, #0
	mov	w11, #0
	b	Lnoise_BB87_135
Lnoise_BB87_118:
	ldrb	w11, [sp, #761]
	add	w15, w11, #1
	cmp	x10, #3
	b.lo	Lnoise_BB87_127
	ldrb	w11, [sp, #762]
	add	w17, w11, #1
	cmp	x10, #3
	b.eq	Lnoise_BB87_128
	ldrb	w11, [sp, #763]
	add	w0, w11, #1
	cmp	x10, #5
	b.lo	Lnoise_BB87_129
	ldrb	w11, [sp, #764]
	add	w1, w11, #1
	cmp	x10, #5
	b.eq	Lnoise_BB87_130
	ldrb	w11, [sp, #765]
	add	w12, w11, #1
	cmp	x10, #7
	b.lo	Lnoise_BB87_131
	ldrb	w11, [sp, #766]
	add	w2, w11, #1
	cmp	x10, #7
	b.eq	Lnoise_BB87_132
	ldrb	w11, [sp, #767]
	add	w14, w11, #1
	cmp	x10, #9
	b.lo	Lnoise_BB87_133
	ldrb	w11, [sp, #768]
	add	w11, w11, #1
	cmp	x10, #9
	b.eq	Lnoise_BB87_134
	ldrb	w10, [sp, #769]
	add	w10, w10, #1
	b	Lnoise_BB87_135
Lnoise_BB87_127:
	mov	w17, #0
Lnoise_BB87_128:
	mov	w0, #0
Lnoise_BB87_129:
	mov	w1, #0
Lnoise_BB87_130:
	mov	w12, #0
Lnoise_BB87_131:
	mov	w2, #0
Lnoise_BB87_132:
	mov	w14, #0
Lnoise_BB87_133:
	mov	w11, #0
Lnoise_BB87_134:
	mov	w10, #0
Lnoise_BB87_135:
	stp	w10, w11, [sp, #100]
	cmp	x23, #1
	b.ne	Lnoise_BB87_137
	str	wzr, [sp, #164]
	str	wzr, [sp, #348]
	str	wzr, [sp, #352]
	str	xzr, [sp, #360]
	str	wzr, [sp, #372]
	str	xzr, [sp, #168]
	str	wzr, [sp, #388]
	stp	xzr, xzr, [sp, #392]
	str	wzr, [sp, #176]
	stp	xzr, xzr, [sp, #184]
	str	xzr, [sp, #200]
	str	wzr, [sp, #412]
	stp	wzr, wzr, [sp, #208]
	stp	xzr, xzr, [sp, #224]
	str	xzr, [sp, #240]
	stp	xzr, xzr, [sp, #256]
	mov	w3, #0
	mov	w4, #0
	mov	w28, #0
	mov	w5, #0
	mov	w6, #0
	mov	w7, #0
	mov	w30, #0
	mov	w21, #0
	mov	w8, #0
	mov	w22, #0
	str	xzr, [sp, #216]
	mov	w19, #0
	mov	w23, #0
	str	xzr, [sp, #376]
	mov	w25, #0
	str	wzr, [sp, #180]
	str	wzr, [sp, #160]
	str	wzr, [sp, #408]
	str	wzr, [sp, #384]
	stp	xzr, xzr, [sp, #144]
	mov	x10, x0
	str	wzr, [sp, #368]
	mov	w24, #0
	str	wzr, [sp, #356]
	stp	xzr, xzr, [sp, #128]
	stp	xzr, xzr, [sp, #112]
	str	wzr, [sp, #108]
	ldp	w11, w16, [sp, #100]
	b	Lnoise_BB87_187
Lnoise_BB87_137:
	ldr	x10, [sp, #800]
	cbz	x10, Lnoise_BB87_148
	ldrb	w11, [sp, #784]
	add	w3, w11, #1
	cmp	x10, #1
	b.ne	Lnoise_BB87_149
	mov	w4, #0
	b	Lnoise_BB87_158
Lnoise_BB87_140:
	ldrb	w8, [sp, #1513]
	cmp	w8, #88
	b.eq	Lnoise_BB87_197
	cmp	w8, #78
	b.eq	Lnoise_BB87_193
	cmp	w8, #75
	b.ne	Lnoise_BB87_5
	mov	w1, #13
	b	Lnoise_BB87_23
Lnoise_BB87_144:
	ldrb	w8, [sp, #1513]
	cmp	w8, #88
	b.eq	Lnoise_BB87_198
	cmp	w8, #78
	b.eq	Lnoise_BB87_194
	cmp	w8, #75
	b.ne	Lnoise_BB87_5
	mov	w1, #10
	b	Lnoise_BB87_23
Lnoise_BB87_148:
	mov	w3, #0
	mov	w4, #0
	mov	w16, #0
	mov	w5, #0
	mov	w6, #0
	mov	w7, #0
	mov	w21, #0
	mov	w22, #0
	mov	w8, #0
	b	Lnoise_BB87_166
Lnoise_BB87_149:
	ldrb	w11, [sp, #785]
	add	w4, w11, #1
	cmp	x10, #3
	b.lo	Lnoise_BB87_158
	ldrb	w11, [sp, #786]
	add	w16, w11, #1
	cmp	x10, #3
	b.eq	Lnoise_BB87_159
	ldrb	w11, [sp, #787]
	add	w5, w11, #1
	cmp	x10, #5
	b.lo	Lnoise_BB87_160
	ldrb	w11, [sp, #788]
	add	w6, w11, #1
	cmp	x10, #5
	b.eq	Lnoise_BB87_161
	ldrb	w11, [sp, #789]
	add	w7, w11, #1
	cmp	x10, #7
	b.lo	Lnoise_BB87_162
	ldrb	w11, [sp, #790]
	add	w21, w11, #1
	cmp	x10, #7
	b.eq	Lnoise_BB87_163
	ldrb	w11, [sp, #791]
	add	w22, w11, #1
	cmp	x10, #9
	b.lo	Lnoise_BB87_164
	ldrb	w11, [sp, #792]
	add	w8, w11, #1
	cmp	x10, #9
	b.eq	Lnoise_BB87_165
	ldrb	w10, [sp, #793]
	add	w10, w10, #1
	b	Lnoise_BB87_166
Lnoise_BB87_158:
	mov	w16, #0
Lnoise_BB87_159:
	mov	w5, #0
Lnoise_BB87_160:
	mov	w6, #0
Lnoise_BB87_161:
	mov	w7, #0
Lnoise_BB87_162:
	mov	w21, #0
Lnoise_BB87_163:
	mov	w22, #0
Lnoise_BB87_164:
	mov	w8, #0
Lnoise_BB87_165:
	mov	w10, #0
Lnoise_BB87_166:
	stp	w10, w8, [sp, #84]
	stp	w22, w21, [sp, #92]
	cmp	x23, #3
	b.lo	Lnoise_BB87_170
	ldr	x10, [sp, #824]
	cbz	x10, Lnoise_BB87_171
	ldrb	w11, [sp, #808]
	add	w24, w11, #1
	cmp	x10, #1
	b.ne	Lnoise_BB87_172
	str	wzr, [sp, #264]
	b	Lnoise_BB87_179
Lnoise_BB87_170:
	str	wzr, [sp, #164]
	str	wzr, [sp, #348]
	str	wzr, [sp, #352]
	str	xzr, [sp, #360]
	str	wzr, [sp, #372]
	str	xzr, [sp, #168]
	str	wzr, [sp, #388]
	str	xzr, [sp, #392]
	str	wzr, [sp, #176]
	stp	xzr, xzr, [sp, #184]
	str	xzr, [sp, #200]
	str	wzr, [sp, #412]
	str	wzr, [sp, #208]
	str	wzr, [sp, #228]
	stp	xzr, xzr, [sp, #232]
	str	wzr, [sp, #404]
	stp	xzr, xzr, [sp, #256]
	b	Lnoise_BB87_186
Lnoise_BB87_171:
	mov	w24, #0
	str	wzr, [sp, #264]
	mov	w22, #0
	mov	w8, #0
	mov	w21, #0
	mov	w25, #0
	mov	w28, #0
	mov	w30, #0
	mov	w11, #0
	b	Lnoise_BB87_184
Lnoise_BB87_172:
	ldrb	w11, [sp, #809]
	add	w19, w11, #1
	cmp	x10, #3
	str	w19, [sp, #264]
	b.lo	Lnoise_BB87_179
	ldrb	w11, [sp, #810]
	add	w22, w11, #1
	cmp	x10, #3
	b.eq	Lnoise_BB87_180
	ldrb	w11, [sp, #811]
	add	w8, w11, #1
	cmp	x10, #5
	b.lo	Lnoise_BB87_181
	ldrb	w11, [sp, #812]
	add	w21, w11, #1
	cmp	x10, #5
	b.eq	Lnoise_BB87_182
	ldrb	w11, [sp, #813]
	add	w25, w11, #1
	cmp	x10, #7
	b.lo	Lnoise_BB87_183
	mov	x19, x24
	ldrb	w11, [sp, #814]
	add	w28, w11, #1
	cmp	x10, #7
	b.ne	Lnoise_BB87_266
	mov	w30, #0
	mov	w11, #0
	mov	w10, #0
	mov	x24, x19
	b	Lnoise_BB87_184
Lnoise_BB87_179:
	mov	w22, #0
Lnoise_BB87_180:
	mov	w8, #0
Lnoise_BB87_181:
	mov	w21, #0
Lnoise_BB87_182:
	mov	w25, #0
Lnoise_BB87_183:
	mov	w28, #0
	mov	w30, #0
	mov	w11, #0
	mov	w10, #0
Lnoise_BB87_184:
	stp	w10, w11, [sp, #228]
	stp	w30, w28, [sp, #236]
	str	w25, [sp, #244]
	cmp	x23, #3
	str	w24, [sp, #268]
	str	w22, [sp, #260]
	str	w8, [sp, #256]
	str	w21, [sp, #404]
	b.ne	Lnoise_BB87_188
	str	wzr, [sp, #164]
	str	wzr, [sp, #348]
	str	wzr, [sp, #352]
	str	xzr, [sp, #360]
	str	wzr, [sp, #372]
	str	xzr, [sp, #168]
	str	wzr, [sp, #388]
	str	xzr, [sp, #392]
	str	wzr, [sp, #176]
	stp	xzr, xzr, [sp, #184]
	str	xzr, [sp, #200]
	str	wzr, [sp, #412]
	str	wzr, [sp, #208]
Lnoise_BB87_186:
	str	wzr, [sp, #224]
	str	xzr, [sp, #216]
	str	wzr, [sp, #212]
	mov	w19, #0
	mov	w23, #0
	str	wzr, [sp, #400]
	str	xzr, [sp, #376]
	mov	w25, #0
	str	wzr, [sp, #180]
	str	wzr, [sp, #160]
	str	wzr, [sp, #408]
	str	wzr, [sp, #384]
	stp	xzr, xzr, [sp, #144]
	mov	x10, x0
	str	wzr, [sp, #368]
	mov	w24, #0
	str	wzr, [sp, #356]
	stp	xzr, xzr, [sp, #128]
	stp	xzr, xzr, [sp, #112]
	str	wzr, [sp, #108]
	mov	x28, x16
	ldp	w11, w16, [sp, #100]
	ldp	w21, w30, [sp, #92]
	ldp	w22, w8, [sp, #84]
Lnoise_BB87_187:
	mov	w0, #0
	strb	w9, [x20, #2]
	ldr	x9, [sp, #336]
	orr	x9, x9, x26
	ldr	x26, [sp, #280]
	orr	x9, x9, x26
	strb	w13, [x20, #15]
	ldr	x26, [sp, #328]
	orr	x26, x27, x26
	orr	x9, x9, x26
	strb	w15, [x20, #16]
	ldr	x26, [sp, #304]
	ldr	x27, [sp, #288]
	orr	x26, x26, x27
	ldr	x27, [sp, #296]
	orr	x26, x26, x27
	strb	w17, [x20, #17]
	orr	x9, x9, x26
	stur	x9, [x20, #3]
	strb	w10, [x20, #18]
	strb	w1, [x20, #19]
	strb	w12, [x20, #20]
	strb	w2, [x20, #21]
	strb	w14, [x20, #22]
	strb	w16, [x20, #23]
	strb	w11, [x20, #24]
	strb	w3, [x20, #25]
	strb	w4, [x20, #26]
	strb	w28, [x20, #27]
	strb	w5, [x20, #28]
	strb	w6, [x20, #29]
	strb	w7, [x20, #30]
	strb	w30, [x20, #31]
	strb	w21, [x20, #32]
	strb	w8, [x20, #33]
	strb	w22, [x20, #34]
	ldr	w8, [sp, #268]
	strb	w8, [x20, #35]
	ldr	w8, [sp, #264]
	strb	w8, [x20, #36]
	ldr	w8, [sp, #260]
	strb	w8, [x20, #37]
	ldr	w8, [sp, #256]
	strb	w8, [x20, #38]
	ldr	w8, [sp, #404]
	strb	w8, [x20, #39]
	ldr	w8, [sp, #244]
	strb	w8, [x20, #40]
	ldr	w8, [sp, #240]
	strb	w8, [x20, #41]
	ldr	w8, [sp, #236]
	strb	w8, [x20, #42]
	ldr	w8, [sp, #232]
	strb	w8, [x20, #43]
	ldr	w8, [sp, #228]
	strb	w8, [x20, #44]
	ldr	w8, [sp, #224]
	strb	w8, [x20, #45]
	ldr	w8, [sp, #220]
	strb	w8, [x20, #46]
	ldr	w8, [sp, #216]
	strb	w8, [x20, #47]
	ldr	w8, [sp, #212]
	strb	w8, [x20, #48]
	strb	w19, [x20, #49]
	strb	w23, [x20, #50]
	ldr	w8, [sp, #400]
	strb	w8, [x20, #51]
	ldr	w8, [sp, #376]
	strb	w8, [x20, #52]
	strb	w25, [x20, #53]
	ldr	w8, [sp, #180]
	strb	w8, [x20, #54]
	ldr	w8, [sp, #208]
	strb	w8, [x20, #55]
	ldr	w8, [sp, #412]
	strb	w8, [x20, #56]
	ldr	w8, [sp, #204]
	strb	w8, [x20, #57]
	ldr	w8, [sp, #200]
	strb	w8, [x20, #58]
	ldr	w8, [sp, #196]
	strb	w8, [x20, #59]
	ldr	w8, [sp, #192]
	strb	w8, [x20, #60]
	ldr	w8, [sp, #188]
	strb	w8, [x20, #61]
	ldr	w8, [sp, #184]
	strb	w8, [x20, #62]
	ldr	w8, [sp, #176]
	strb	w8, [x20, #63]
	ldr	w8, [sp, #172]
	strb	w8, [x20, #64]
	ldr	w8, [sp, #160]
	strb	w8, [x20, #65]
	ldr	w8, [sp, #408]
	strb	w8, [x20, #66]
	ldr	w8, [sp, #384]
	strb	w8, [x20, #67]
	ldr	w8, [sp, #152]
	strb	w8, [x20, #68]
	ldr	w8, [sp, #380]
	strb	w8, [x20, #69]
	ldr	w8, [sp, #368]
	strb	w8, [x20, #70]
	strb	w24, [x20, #71]
	ldr	x8, [sp, #272]
	cmp	x8, #1
	ldr	w9, [sp, #316]
	and	w9, w9, #0xff
	ldr	w11, [sp, #312]
	orr	w9, w11, w9
	cset	w11, eq
	ldr	w12, [sp, #324]
	and	w12, w12, #0xff
	ldr	w14, [sp, #320]
	orr	w12, w14, w12
	orr	w9, w12, w9, lsl #16
	strb	w8, [x20]
	strb	w11, [x20, #1]
	stur	w9, [x20, #11]
	ldr	w9, [sp, #356]
	strb	w9, [x20, #72]
	ldr	w9, [sp, #156]
	strb	w9, [x20, #73]
	ldr	w9, [sp, #148]
	strb	w9, [x20, #74]
	ldr	w9, [sp, #396]
	strb	w9, [x20, #75]
	ldr	w9, [sp, #392]
	strb	w9, [x20, #76]
	ldr	w9, [sp, #388]
	strb	w9, [x20, #77]
	ldr	w9, [sp, #168]
	strb	w9, [x20, #78]
	ldr	w9, [sp, #372]
	strb	w9, [x20, #79]
	ldr	w9, [sp, #364]
	strb	w9, [x20, #80]
	ldr	w9, [sp, #360]
	strb	w9, [x20, #81]
	ldr	w9, [sp, #352]
	strb	w9, [x20, #82]
	ldr	w9, [sp, #348]
	strb	w9, [x20, #83]
	ldr	w9, [sp, #164]
	strb	w9, [x20, #84]
	ldr	w9, [sp, #144]
	strb	w9, [x20, #85]
	ldr	w9, [sp, #140]
	strb	w9, [x20, #86]
	ldr	w9, [sp, #136]
	strb	w9, [x20, #87]
	ldr	w9, [sp, #132]
	strb	w9, [x20, #88]
	ldr	w9, [sp, #128]
	strb	w9, [x20, #89]
	ldr	w9, [sp, #124]
	strb	w9, [x20, #90]
	ldr	w9, [sp, #120]
	strb	w9, [x20, #91]
	ldr	w9, [sp, #116]
	strb	w9, [x20, #92]
	ldr	w9, [sp, #112]
	strb	w9, [x20, #93]
	ldr	w9, [sp, #108]
	strb	w9, [x20, #94]
	ldr	x9, [sp, #248]
	strb	w8, [x9, #11]
	b	Lnoise_BB87_6
Lnoise_BB87_188:
	ldr	x10, [sp, #848]
	cbz	x10, Lnoise_BB87_199
	ldrb	w11, [sp, #832]
	add	w19, w11, #1
	cmp	x10, #1
	str	w19, [sp, #224]
	b.ne	Lnoise_BB87_200
	str	xzr, [sp, #216]
	str	wzr, [sp, #212]
	b	Lnoise_BB87_204
Lnoise_BB87_191:
	mov	w1, #6
	b	Lnoise_BB87_23
Lnoise_BB87_192:
	mov	w1, #3
	b	Lnoise_BB87_23
Lnoise_BB87_193:
	mov	w1, #12
	b	Lnoise_BB87_23
Lnoise_BB87_194:
	mov	w1, #9
	b	Lnoise_BB87_23
Lnoise_BB87_195:
	mov	w1, #8
	b	Lnoise_BB87_23
Lnoise_BB87_196:
	mov	w1, #5
	b	Lnoise_BB87_23
Lnoise_BB87_197:
	mov	w1, #14
	b	Lnoise_BB87_23
Lnoise_BB87_198:
	mov	w1, #11
	b	Lnoise_BB87_23
Lnoise_BB87_199:
	str	wzr, [sp, #224]
	str	xzr, [sp, #216]
	str	wzr, [sp, #212]
	mov	w19, #0
	b	Lnoise_BB87_206
Lnoise_BB87_200:
	ldrb	w11, [sp, #833]
	add	w25, w11, #1
	cmp	x10, #3
	str	w25, [sp, #220]
	b.lo	Lnoise_BB87_203
	ldrb	w11, [sp, #834]
	add	w28, w11, #1
	cmp	x10, #3
	str	w28, [sp, #216]
	b.ne	Lnoise_BB87_216
	str	wzr, [sp, #212]
	b	Lnoise_BB87_204
Lnoise_BB87_203:
	stp	wzr, wzr, [sp, #212]
Lnoise_BB87_204:
	mov	w19, #0
Lnoise_BB87_205:
	mov	w10, #0
Lnoise_BB87_206:
	mov	w11, #0
	mov	w28, #0
	mov	w25, #0
	mov	w30, #0
Lnoise_BB87_207:
	stp	w19, w10, [sp, #76]
	cmp	x23, #5
	str	w11, [sp, #400]
	str	w28, [sp, #376]
	str	w30, [sp, #180]
	b.lo	Lnoise_BB87_211
	ldr	x10, [sp, #872]
	cbz	x10, Lnoise_BB87_212
	mov	x30, x25
	ldrb	w11, [sp, #856]
	add	w11, w11, #1
	str	w11, [sp, #208]
	cmp	x10, #1
	b.ne	Lnoise_BB87_213
	mov	w10, #0
	stp	xzr, xzr, [sp, #192]
	str	xzr, [sp, #184]
	stp	wzr, wzr, [sp, #172]
	b	Lnoise_BB87_225
Lnoise_BB87_211:
	stp	xzr, xzr, [sp, #160]
	str	wzr, [sp, #348]
	str	xzr, [sp, #352]
	stp	xzr, xzr, [sp, #360]
	stp	xzr, xzr, [sp, #384]
	str	wzr, [sp, #176]
	stp	xzr, xzr, [sp, #184]
	str	xzr, [sp, #200]
	str	xzr, [sp, #408]
	str	wzr, [sp, #208]
	stp	xzr, xzr, [sp, #144]
	str	wzr, [sp, #380]
	mov	x10, x0
	mov	w24, #0
	stp	xzr, xzr, [sp, #128]
	stp	xzr, xzr, [sp, #112]
	str	wzr, [sp, #108]
	mov	x28, x16
	ldp	w11, w16, [sp, #100]
	b	Lnoise_BB87_228
Lnoise_BB87_212:
	str	wzr, [sp, #208]
	stp	xzr, xzr, [sp, #192]
	str	xzr, [sp, #184]
	stp	wzr, wzr, [sp, #172]
	b	Lnoise_BB87_226
Lnoise_BB87_213:
	ldrb	w11, [sp, #857]
	add	w11, w11, #1
	str	w11, [sp, #412]
	cmp	x10, #3
	b.lo	Lnoise_BB87_221
	ldrb	w11, [sp, #858]
	add	w11, w11, #1
	str	w11, [sp, #204]
	cmp	x10, #3
	b.ne	Lnoise_BB87_238
	str	wzr, [sp, #200]
	stp	xzr, xzr, [sp, #184]
	b	Lnoise_BB87_223
Lnoise_BB87_216:
	ldrb	w11, [sp, #835]
	add	w30, w11, #1
	cmp	x10, #5
	str	w30, [sp, #212]
	b.lo	Lnoise_BB87_204
	ldrb	w11, [sp, #836]
	add	w19, w11, #1
	cmp	x10, #5
	b.eq	Lnoise_BB87_205
	ldrb	w11, [sp, #837]
	add	w11, w11, #1
	str	w11, [sp, #80]
	cmp	x10, #7
	b.lo	Lnoise_BB87_269
	ldrb	w11, [sp, #838]
	add	w11, w11, #1
	str	w11, [sp, #400]
	cmp	x10, #7
	b.ne	Lnoise_BB87_282
	mov	w28, #0
	mov	w30, #0
	mov	w25, #0
	ldr	w10, [sp, #80]
	ldr	w11, [sp, #400]
	b	Lnoise_BB87_207
Lnoise_BB87_221:
	stp	xzr, xzr, [sp, #192]
Lnoise_BB87_222:
	str	xzr, [sp, #184]
Lnoise_BB87_223:
	stp	wzr, wzr, [sp, #172]
Lnoise_BB87_224:
	ldr	w10, [sp, #412]
Lnoise_BB87_225:
	mov	x25, x30
Lnoise_BB87_226:
	str	w16, [sp, #72]
	cmp	x23, #5
	str	w10, [sp, #412]
	b.ne	Lnoise_BB87_229
	stp	xzr, xzr, [sp, #152]
	str	wzr, [sp, #348]
	stp	xzr, xzr, [sp, #352]
	str	xzr, [sp, #368]
	str	wzr, [sp, #168]
	stp	xzr, xzr, [sp, #384]
	str	wzr, [sp, #408]
	str	wzr, [sp, #380]
	mov	x10, x0
	mov	w24, #0
	stp	xzr, xzr, [sp, #136]
	stp	xzr, xzr, [sp, #120]
	str	xzr, [sp, #112]
	str	wzr, [sp, #108]
	ldp	w11, w16, [sp, #100]
	ldr	w28, [sp, #72]
Lnoise_BB87_228:
	ldp	w21, w30, [sp, #92]
	ldp	w22, w8, [sp, #84]
	ldp	w19, w23, [sp, #76]
	b	Lnoise_BB87_187
Lnoise_BB87_229:
	ldr	x16, [sp, #896]
	stp	w15, w13, [sp, #60]
	stp	w0, w17, [sp, #52]
	stp	w12, w1, [sp, #44]
	stp	w14, w2, [sp, #36]
	stp	w4, w3, [sp, #28]
	cbz	x16, Lnoise_BB87_232
	str	w25, [sp, #24]
	ldrb	w10, [sp, #880]
	add	w19, w10, #1
	cmp	x16, #1
	b.ne	Lnoise_BB87_233
	mov	w12, #0
	mov	w2, #0
	mov	w14, #0
	mov	w1, #0
	mov	w17, #0
	mov	w15, #0
	mov	w13, #0
	mov	w4, #0
	mov	w16, #0
	ldr	w25, [sp, #24]
	b	Lnoise_BB87_243
Lnoise_BB87_232:
	mov	w19, #0
	mov	w12, #0
	mov	w2, #0
	mov	w14, #0
	mov	w1, #0
	mov	w17, #0
	mov	w15, #0
	mov	w13, #0
	mov	w4, #0
	b	Lnoise_BB87_243
Lnoise_BB87_233:
	ldrb	w10, [sp, #881]
	add	w10, w10, #1
	str	w10, [sp, #408]
	cmp	x16, #3
	b.lo	Lnoise_BB87_241
	ldrb	w10, [sp, #882]
	add	w2, w10, #1
	cmp	x16, #3
	b.eq	Lnoise_BB87_242
	ldrb	w10, [sp, #883]
	add	w3, w10, #1
	cmp	x16, #5
	b.lo	Lnoise_BB87_270
	str	w2, [sp, #384]
	ldrb	w10, [sp, #884]
	add	w10, w10, #1
	str	w10, [sp, #380]
	cmp	x16, #5
	b.ne	Lnoise_BB87_285
	mov	w15, #0
	mov	w13, #0
	mov	w4, #0
	mov	w16, #0
	mov	w17, #0
	ldr	w25, [sp, #24]
	ldr	w12, [sp, #408]
	ldr	w2, [sp, #384]
	mov	x14, x3
	ldr	w1, [sp, #380]
	b	Lnoise_BB87_243
Lnoise_BB87_238:
	ldrb	w11, [sp, #859]
	add	w11, w11, #1
	str	w11, [sp, #200]
	cmp	x10, #5
	b.lo	Lnoise_BB87_260
	ldrb	w11, [sp, #860]
	add	w11, w11, #1
	str	w11, [sp, #196]
	cmp	x10, #5
	b.ne	Lnoise_BB87_271
	str	wzr, [sp, #192]
	b	Lnoise_BB87_222
Lnoise_BB87_241:
	mov	w2, #0
Lnoise_BB87_242:
	mov	w14, #0
	mov	w1, #0
	mov	w17, #0
	mov	w15, #0
	mov	w13, #0
	mov	w4, #0
	mov	w16, #0
	ldr	w25, [sp, #24]
	ldr	w12, [sp, #408]
Lnoise_BB87_243:
	str	w15, [sp, #68]
	cmp	x23, #7
	str	w13, [sp, #356]
	stp	w4, w19, [sp, #156]
	str	w12, [sp, #408]
	str	w2, [sp, #384]
	stp	w16, w14, [sp, #148]
	str	w1, [sp, #380]
	str	w17, [sp, #368]
	b.lo	Lnoise_BB87_247
	ldr	x0, [sp, #920]
	cbz	x0, Lnoise_BB87_248
	ldrb	w3, [sp, #904]
	add	w17, w3, #1
	cmp	x0, #1
	b.ne	Lnoise_BB87_249
	mov	w1, #0
	b	Lnoise_BB87_252
Lnoise_BB87_247:
	stp	wzr, wzr, [sp, #164]
	str	wzr, [sp, #348]
	str	wzr, [sp, #352]
	str	xzr, [sp, #360]
	str	wzr, [sp, #372]
	str	wzr, [sp, #388]
	str	xzr, [sp, #392]
	b	Lnoise_BB87_258
Lnoise_BB87_248:
	mov	w17, #0
	mov	w1, #0
	mov	w2, #0
	mov	w4, #0
	b	Lnoise_BB87_253
Lnoise_BB87_249:
	ldrb	w3, [sp, #905]
	add	w1, w3, #1
	cmp	x0, #3
	b.lo	Lnoise_BB87_252
	str	w25, [sp, #24]
	ldrb	w3, [sp, #906]
	add	w2, w3, #1
	cmp	x0, #3
	b.ne	Lnoise_BB87_274
	mov	w4, #0
	mov	w0, #0
	mov	w3, #0
	mov	w19, #0
	mov	w12, #0
	mov	w13, #0
	mov	w14, #0
	ldr	w25, [sp, #24]
	b	Lnoise_BB87_254
Lnoise_BB87_252:
	mov	w2, #0
	mov	w4, #0
	mov	w0, #0
Lnoise_BB87_253:
	mov	w3, #0
	mov	w19, #0
	mov	w12, #0
	mov	w13, #0
	mov	w14, #0
Lnoise_BB87_254:
	str	w0, [sp, #372]
	cmp	x23, #7
	str	w17, [sp, #396]
	str	w1, [sp, #392]
	str	w2, [sp, #388]
	stp	w14, w4, [sp, #164]
	str	w3, [sp, #364]
	str	w19, [sp, #360]
	str	w12, [sp, #352]
	str	w13, [sp, #348]
	b.eq	Lnoise_BB87_258
	ldr	x0, [sp, #944]
	cbz	x0, Lnoise_BB87_258
	stp	w5, w25, [sp, #20]
	stp	w7, w6, [sp, #12]
	ldrb	w3, [sp, #928]
	add	w8, w3, #1
	str	w8, [sp, #144]
	cmp	x0, #1
	b.ne	Lnoise_BB87_261
	stp	xzr, xzr, [sp, #128]
	stp	xzr, xzr, [sp, #112]
	b	Lnoise_BB87_280
Lnoise_BB87_258:
	str	wzr, [sp, #144]
	stp	xzr, xzr, [sp, #128]
	stp	xzr, xzr, [sp, #112]
	str	wzr, [sp, #108]
	ldp	w15, w13, [sp, #60]
	ldp	w10, w17, [sp, #52]
	ldp	w12, w1, [sp, #44]
	ldp	w14, w2, [sp, #36]
	ldp	w11, w16, [sp, #100]
	ldp	w4, w3, [sp, #28]
	ldp	w28, w19, [sp, #72]
	ldp	w21, w30, [sp, #92]
	ldp	w22, w8, [sp, #84]
	ldr	w23, [sp, #80]
Lnoise_BB87_259:
	ldr	w24, [sp, #68]
	b	Lnoise_BB87_187
Lnoise_BB87_260:
	stp	xzr, xzr, [sp, #184]
	b	Lnoise_BB87_223
Lnoise_BB87_261:
	ldrb	w4, [sp, #929]
	add	w8, w4, #1
	str	w8, [sp, #140]
	cmp	x0, #3
	b.lo	Lnoise_BB87_277
	ldrb	w5, [sp, #930]
	add	w8, w5, #1
	str	w8, [sp, #136]
	cmp	x0, #3
	b.eq	Lnoise_BB87_278
	ldrb	w6, [sp, #931]
	add	w8, w6, #1
	str	w8, [sp, #132]
	cmp	x0, #5
	b.lo	Lnoise_BB87_290
	ldrb	w7, [sp, #932]
	add	w8, w7, #1
	str	w8, [sp, #128]
	cmp	x0, #5
	b.ne	Lnoise_BB87_301
	stp	xzr, xzr, [sp, #112]
	b	Lnoise_BB87_280
Lnoise_BB87_266:
	str	w21, [sp, #404]
	mov	x24, x8
	ldrb	w11, [sp, #815]
	add	w30, w11, #1
	cmp	x10, #9
	b.lo	Lnoise_BB87_288
	ldrb	w11, [sp, #816]
	add	w11, w11, #1
	cmp	x10, #9
	b.ne	Lnoise_BB87_291
	mov	w10, #0
	b	Lnoise_BB87_292
Lnoise_BB87_269:
	mov	w11, #0
	mov	w28, #0
	mov	w25, #0
	mov	w30, #0
	ldr	w10, [sp, #80]
	b	Lnoise_BB87_207
Lnoise_BB87_270:
	mov	w1, #0
	mov	w17, #0
	mov	w15, #0
	mov	w13, #0
	mov	w4, #0
	mov	w16, #0
	ldr	w25, [sp, #24]
	ldr	w12, [sp, #408]
	mov	x14, x3
	b	Lnoise_BB87_243
Lnoise_BB87_271:
	ldrb	w11, [sp, #861]
	add	w11, w11, #1
	str	w11, [sp, #192]
	cmp	x10, #7
	b.lo	Lnoise_BB87_222
	ldrb	w11, [sp, #862]
	add	w11, w11, #1
	str	w11, [sp, #188]
	cmp	x10, #7
	b.ne	Lnoise_BB87_293
	str	wzr, [sp, #184]
	b	Lnoise_BB87_223
Lnoise_BB87_274:
	str	w2, [sp, #388]
	str	w1, [sp, #392]
	str	w17, [sp, #396]
	ldrb	w3, [sp, #907]
	add	w4, w3, #1
	cmp	x0, #5
	b.lo	Lnoise_BB87_289
	ldrb	w3, [sp, #908]
	add	w3, w3, #1
	str	w3, [sp, #372]
	cmp	x0, #5
	b.ne	Lnoise_BB87_296
	mov	w3, #0
	mov	w19, #0
	mov	w12, #0
	mov	w13, #0
	mov	w14, #0
	ldr	w25, [sp, #24]
	ldr	w17, [sp, #396]
	ldr	w1, [sp, #392]
	ldr	w2, [sp, #388]
	ldr	w0, [sp, #372]
	b	Lnoise_BB87_254
Lnoise_BB87_277:
	str	wzr, [sp, #136]
Lnoise_BB87_278:
	stp	xzr, xzr, [sp, #120]
Lnoise_BB87_279:
	str	xzr, [sp, #112]
Lnoise_BB87_280:
	str	wzr, [sp, #108]
Lnoise_BB87_281:
	ldp	w15, w13, [sp, #60]
	ldp	w10, w17, [sp, #52]
	ldp	w12, w1, [sp, #44]
	ldp	w14, w2, [sp, #36]
	ldp	w11, w16, [sp, #100]
	ldp	w4, w3, [sp, #28]
	ldp	w28, w19, [sp, #72]
	ldp	w6, w5, [sp, #16]
	ldr	w7, [sp, #12]
	ldp	w21, w30, [sp, #92]
	ldp	w22, w8, [sp, #84]
	ldr	w23, [sp, #80]
	ldr	w25, [sp, #24]
	b	Lnoise_BB87_259
Lnoise_BB87_282:
	ldrb	w11, [sp, #839]
	add	w11, w11, #1
	str	w11, [sp, #376]
	cmp	x10, #9
	b.lo	Lnoise_BB87_299
	ldrb	w11, [sp, #840]
	add	w11, w11, #1
	str	w11, [sp, #24]
	cmp	x10, #9
	b.ne	Lnoise_BB87_306
	mov	w30, #0
	b	Lnoise_BB87_307
Lnoise_BB87_285:
	ldrb	w10, [sp, #885]
	add	w10, w10, #1
	str	w10, [sp, #368]
	cmp	x16, #7
	b.lo	Lnoise_BB87_300
	ldrb	w10, [sp, #886]
	add	w10, w10, #1
	str	w10, [sp, #68]
	cmp	x16, #7
	b.ne	Lnoise_BB87_308
	mov	w13, #0
	mov	w4, #0
	mov	w16, #0
	ldr	w25, [sp, #24]
	b	Lnoise_BB87_320
Lnoise_BB87_288:
	mov	w11, #0
	mov	w10, #0
	b	Lnoise_BB87_292
Lnoise_BB87_289:
	mov	w0, #0
	mov	w3, #0
	mov	w19, #0
	mov	w12, #0
	mov	w13, #0
	mov	w14, #0
	ldr	w25, [sp, #24]
	ldr	w17, [sp, #396]
	ldr	w1, [sp, #392]
	ldr	w2, [sp, #388]
	b	Lnoise_BB87_254
Lnoise_BB87_290:
	str	wzr, [sp, #128]
	stp	xzr, xzr, [sp, #112]
	b	Lnoise_BB87_280
Lnoise_BB87_291:
	ldrb	w10, [sp, #817]
	add	w10, w10, #1
Lnoise_BB87_292:
	mov	x8, x24
	mov	x24, x19
	ldr	w21, [sp, #404]
	b	Lnoise_BB87_184
Lnoise_BB87_293:
	ldrb	w11, [sp, #863]
	add	w11, w11, #1
	str	w11, [sp, #184]
	cmp	x10, #9
	b.lo	Lnoise_BB87_223
	ldrb	w11, [sp, #864]
	add	w11, w11, #1
	str	w11, [sp, #176]
	cmp	x10, #9
	b.ne	Lnoise_BB87_312
	str	wzr, [sp, #172]
	b	Lnoise_BB87_224
Lnoise_BB87_296:
	ldrb	w3, [sp, #909]
	add	w3, w3, #1
	str	w3, [sp, #364]
	cmp	x0, #7
	b.lo	Lnoise_BB87_311
	ldrb	w3, [sp, #910]
	add	w3, w3, #1
	str	w3, [sp, #360]
	cmp	x0, #7
	b.ne	Lnoise_BB87_313
	mov	w12, #0
	mov	w13, #0
	mov	w14, #0
	ldr	w25, [sp, #24]
	ldr	w17, [sp, #396]
	ldr	w1, [sp, #392]
	ldr	w2, [sp, #388]
	ldr	w0, [sp, #372]
	ldr	w3, [sp, #364]
	ldr	w19, [sp, #360]
	b	Lnoise_BB87_254
Lnoise_BB87_299:
	mov	w30, #0
	mov	w25, #0
	ldr	w10, [sp, #80]
	ldr	w11, [sp, #400]
	ldr	w28, [sp, #376]
	b	Lnoise_BB87_207
Lnoise_BB87_300:
	mov	w15, #0
	mov	w13, #0
	mov	w4, #0
	mov	w16, #0
	ldr	w25, [sp, #24]
	ldr	w12, [sp, #408]
	ldr	w2, [sp, #384]
	mov	x14, x3
	ldr	w1, [sp, #380]
	ldr	w17, [sp, #368]
	b	Lnoise_BB87_243
Lnoise_BB87_301:
	ldrb	w21, [sp, #933]
	add	w8, w21, #1
	str	w8, [sp, #124]
	cmp	x0, #7
	b.lo	Lnoise_BB87_316
	ldrb	w22, [sp, #934]
	add	w8, w22, #1
	str	w8, [sp, #120]
	cmp	x0, #7
	b.eq	Lnoise_BB87_279
	ldrb	w23, [sp, #935]
	add	w8, w23, #1
	str	w8, [sp, #116]
	cmp	x0, #9
	b.lo	Lnoise_BB87_322
	ldrb	w24, [sp, #936]
	add	w8, w24, #1
	str	w8, [sp, #112]
	cmp	x0, #9
	b.eq	Lnoise_BB87_280
	ldrb	w0, [sp, #937]
	add	w8, w0, #1
	str	w8, [sp, #108]
	b	Lnoise_BB87_281
Lnoise_BB87_306:
	ldrb	w10, [sp, #841]
	add	w30, w10, #1
Lnoise_BB87_307:
	ldr	w10, [sp, #80]
	ldr	w11, [sp, #400]
	ldr	w28, [sp, #376]
	ldr	w25, [sp, #24]
	b	Lnoise_BB87_207
Lnoise_BB87_308:
	ldrb	w10, [sp, #887]
	add	w10, w10, #1
	str	w10, [sp, #356]
	cmp	x16, #9
	b.lo	Lnoise_BB87_317
	ldrb	w13, [sp, #888]
	add	w4, w13, #1
	cmp	x16, #9
	b.ne	Lnoise_BB87_318
	mov	w16, #0
	b	Lnoise_BB87_319
Lnoise_BB87_311:
	mov	w19, #0
	mov	w12, #0
	mov	w13, #0
	mov	w14, #0
	ldr	w25, [sp, #24]
	ldr	w17, [sp, #396]
	ldr	w1, [sp, #392]
	ldr	w2, [sp, #388]
	ldr	w0, [sp, #372]
	ldr	w3, [sp, #364]
	b	Lnoise_BB87_254
Lnoise_BB87_312:
	ldrb	w10, [sp, #865]
	add	w10, w10, #1
	str	w10, [sp, #172]
	b	Lnoise_BB87_224
Lnoise_BB87_313:
	ldrb	w3, [sp, #911]
	add	w3, w3, #1
	str	w3, [sp, #352]
	cmp	x0, #9
	b.lo	Lnoise_BB87_321
	ldrb	w3, [sp, #912]
	add	w12, w3, #1
	str	w12, [sp, #348]
	cmp	x0, #9
	b.ne	Lnoise_BB87_323
	mov	w14, #0
	b	Lnoise_BB87_324
Lnoise_BB87_316:
	str	wzr, [sp, #120]
	b	Lnoise_BB87_279
Lnoise_BB87_317:
	mov	w4, #0
	mov	w16, #0
	b	Lnoise_BB87_319
Lnoise_BB87_318:
	ldrb	w16, [sp, #889]
	add	w16, w16, #1
Lnoise_BB87_319:
	ldr	w25, [sp, #24]
	ldr	w13, [sp, #356]
Lnoise_BB87_320:
	ldr	w12, [sp, #408]
	ldr	w2, [sp, #384]
	mov	x14, x3
	ldr	w1, [sp, #380]
	ldr	w17, [sp, #368]
	ldr	w15, [sp, #68]
	b	Lnoise_BB87_243
Lnoise_BB87_321:
	mov	w13, #0
	mov	w14, #0
	ldr	w25, [sp, #24]
	ldr	w17, [sp, #396]
	ldr	w1, [sp, #392]
	ldr	w2, [sp, #388]
	ldr	w0, [sp, #372]
	ldr	w3, [sp, #364]
	ldr	w19, [sp, #360]
	ldr	w12, [sp, #352]
	b	Lnoise_BB87_254
Lnoise_BB87_322:
	stp	wzr, wzr, [sp, #108]
	b	Lnoise_BB87_281
Lnoise_BB87_323:
	ldrb	w0, [sp, #913]
	add	w14, w0, #1
Lnoise_BB87_324:
	ldr	w25, [sp, #24]
	ldr	w17, [sp, #396]
	ldr	w1, [sp, #392]
	ldr	w2, [sp, #388]
	ldr	w0, [sp, #372]
	ldr	w3, [sp, #364]
	ldr	w19, [sp, #360]
	ldr	w12, [sp, #352]
	ldr	w13, [sp, #348]
	b	Lnoise_BB87_254
	.cfi_endproc

	.globl	_noise_layout
	.p2align	2
_noise_layout:
	.cfi_startproc
	stp	x28, x27, [sp, #-96]!
	.cfi_def_cfa_offset 96
	stp	x26, x25, [sp, #16]
	stp	x24, x23, [sp, #32]
	stp	x22, x21, [sp, #48]
	stp	x20, x19, [sp, #64]
	stp	x29, x30, [sp, #80]
	add	x29, sp, #80
	.cfi_def_cfa w29, 16
	.cfi_offset w30, -8
	.cfi_offset w29, -16
	.cfi_offset w19, -24
	.cfi_offset w20, -32
	.cfi_offset w21, -40
	.cfi_offset w22, -48
	.cfi_offset w23, -56
	.cfi_offset w24, -64
	.cfi_offset w25, -72
	.cfi_offset w26, -80
	.cfi_offset w27, -88
	.cfi_offset w28, -96
	.cfi_remember_state
	sub	sp, sp, #1168
	mov	x19, x4
	mov	x20, x3
	mov	x22, x2
	mov	x2, x1
	mov	x8, x0
	strh	wzr, [sp, #132]
	strb	wzr, [sp, #134]
	mov	w9, #4096
	movi.2d	v0, #0000000000000000
	stp	q0, q0, [sp]
	cmp	x0, #0
	csel	x9, x9, xzr, eq
	stp	q0, q0, [sp, #32]
	stp	q0, q0, [sp, #64]
	stp	q0, q0, [sp, #96]
	str	wzr, [sp, #128]
	add	x25, sp, #136
	add	x0, sp, #136
	add	x1, x8, x9
	bl	"_noise_c::patterns::pattern_of"
	ldrb	w8, [sp, #136]
	cbz	w8, Lnoise_BB88_3
	ldr	w0, [sp, #140]
Lnoise_BB88_2:
	add	sp, sp, #1168
	.cfi_def_cfa wsp, 96
	ldp	x29, x30, [sp, #80]
	ldp	x20, x19, [sp, #64]
	ldp	x22, x21, [sp, #48]
	ldp	x24, x23, [sp, #32]
	ldp	x26, x25, [sp, #16]
	ldp	x28, x27, [sp], #96
	.cfi_def_cfa_offset 0
	.cfi_restore w30
	.cfi_restore w29
	.cfi_restore w19
	.cfi_restore w20
	.cfi_restore w21
	.cfi_restore w22
	.cfi_restore w23
	.cfi_restore w24
	.cfi_restore w25
	.cfi_restore w26
	.cfi_restore w27
	.cfi_restore w28
	ret
Lnoise_BB88_3:
	.cfi_restore_state
	add	x0, sp, #416
	add	x1, x25, #8
	mov	w2, #272
	bl	_memcpy
	mov	w0, #29
	tst	w22, #0xff
	b.eq	Lnoise_BB88_2
	and	x21, x22, #0xff
	ldr	x8, [sp, #680]
	cmp	x8, x21
	b.lo	Lnoise_BB88_2
	add	x0, x25, #8
	mov	x1, x22
	bl	"_noise_names::valid::ValidPattern::overhead"
	mov	x8, x0
	mov	w0, #29
	lsr	x9, x20, #16
	cbnz	x9, Lnoise_BB88_2
	add	x8, x20, w8, uxth
	cmp	x8, #16, lsl #12
	b.hs	Lnoise_BB88_2
	add	x23, sp, #688
	strh	wzr, [sp, #972]
	strb	wzr, [sp, #974]
	str	xzr, [sp, #960]
	str	wzr, [sp, #968]
	str	xzr, [sp, #944]
	str	wzr, [sp, #952]
	str	xzr, [sp, #928]
	str	wzr, [sp, #936]
	str	xzr, [sp, #912]
	str	wzr, [sp, #920]
	str	wzr, [sp, #904]
	str	xzr, [sp, #896]
	str	wzr, [sp, #888]
	str	xzr, [sp, #880]
	str	wzr, [sp, #872]
	str	xzr, [sp, #864]
	str	wzr, [sp, #856]
	str	xzr, [sp, #848]
	str	wzr, [sp, #840]
	str	xzr, [sp, #832]
	str	wzr, [sp, #816]
	movi.2d	v0, #0000000000000000
	stp	q0, q0, [sp, #784]
	stp	q0, q0, [sp, #752]
	stp	q0, q0, [sp, #720]
	mov	w8, #24
	add	x9, sp, #416
	stp	q0, q0, [sp, #688]
	umaddl	x26, w21, w8, x9
	ldr	x24, [x26, #64]
	add	x0, x25, #8
	mov	x1, x22
	bl	"_noise_names::valid::ValidPattern::overhead"
	mov	x21, x0
	stur	wzr, [x29, #-88]
	stur	xzr, [x29, #-96]
	cbz	x24, Lnoise_BB88_10
	ldrb	w8, [x26, #48]
	str	xzr, [sp, #976]
	str	wzr, [sp, #984]
	cmp	w8, #1
	cset	w5, eq
	mov	w27, #32
	cmp	w8, #2
	csel	w6, w27, wzr, lo
	add	x0, sp, #976
	add	x1, x25, #8
	add	w4, w8, #1
	mov	x2, x22
	mov	w3, #0
	bl	"_noise_c::message_layout::piece"
	stur	wzr, [x29, #-88]
	stur	xzr, [x29, #-96]
	cmp	x24, #1
	b.ne	Lnoise_BB88_22
	sub	x0, x29, #96
	add	x1, x25, #8
	mov	x2, x22
	mov	w3, #1
	mov	w4, #8
	mov	x6, x20
	mov	w5, #1
	bl	"_noise_c::message_layout::piece"
	b	Lnoise_BB88_11
Lnoise_BB88_10:
	sub	x0, x29, #96
	add	x1, x25, #8
	mov	x2, x22
	mov	w3, #0
	mov	w4, #8
	mov	w5, #1
	mov	x6, x20
	bl	"_noise_c::message_layout::piece"
	ldur	x8, [x29, #-96]
	str	x8, [sp, #976]
	ldur	w8, [x29, #-88]
	str	w8, [sp, #984]
	stur	wzr, [x29, #-88]
	stur	xzr, [x29, #-96]
Lnoise_BB88_11:
	ldur	x8, [x29, #-96]
	str	x8, [sp, #960]
	ldur	w8, [x29, #-88]
	str	w8, [sp, #968]
	stur	wzr, [x29, #-88]
	stur	xzr, [x29, #-96]
Lnoise_BB88_12:
	ldur	x8, [x29, #-96]
	str	x8, [sp, #944]
	ldur	w8, [x29, #-88]
	str	w8, [sp, #952]
	stur	wzr, [x29, #-88]
	stur	xzr, [x29, #-96]
Lnoise_BB88_13:
	ldur	x8, [x29, #-96]
	str	x8, [sp, #928]
	ldur	w8, [x29, #-88]
	str	w8, [sp, #936]
	stur	wzr, [x29, #-88]
	stur	xzr, [x29, #-96]
Lnoise_BB88_14:
	ldur	x8, [x29, #-96]
	str	x8, [sp, #912]
	ldur	w8, [x29, #-88]
	str	w8, [sp, #920]
	stur	wzr, [x29, #-88]
	stur	xzr, [x29, #-96]
Lnoise_BB88_15:
	ldur	x8, [x29, #-96]
	str	x8, [sp, #896]
	ldur	w8, [x29, #-88]
	str	w8, [sp, #904]
	stur	wzr, [x29, #-88]
	stur	xzr, [x29, #-96]
Lnoise_BB88_16:
	ldur	x8, [x29, #-96]
	str	x8, [sp, #880]
	ldur	w8, [x29, #-88]
	str	w8, [sp, #888]
	stur	wzr, [x29, #-88]
	stur	xzr, [x29, #-96]
Lnoise_BB88_17:
	ldur	x8, [x29, #-96]
	str	x8, [sp, #864]
	ldur	w8, [x29, #-88]
	str	w8, [sp, #872]
	stur	wzr, [x29, #-88]
	stur	xzr, [x29, #-96]
Lnoise_BB88_18:
	ldur	x8, [x29, #-96]
	str	x8, [sp, #848]
	ldur	w8, [x29, #-88]
	str	w8, [sp, #856]
	stur	wzr, [x29, #-88]
	stur	xzr, [x29, #-96]
Lnoise_BB88_19:
	ldur	x8, [x29, #-96]
	str	x8, [sp, #832]
	ldur	w8, [x29, #-88]
	str	w8, [sp, #840]
	stur	wzr, [x29, #-104]
	stur	xzr, [x29, #-112]
Lnoise_BB88_20:
	ldur	x8, [x29, #-112]
	stur	x8, [x29, #-96]
	ldur	w8, [x29, #-104]
	stur	w8, [x29, #-88]
Lnoise_BB88_21:
	mov	w0, #0
	ldr	x8, [sp, #976]
	str	x8, [sp, #688]
	add	w8, w20, w21, uxth
	add	w9, w24, #1
	ldr	w10, [sp, #984]
	ldr	x11, [sp, #960]
	stur	x11, [x23, #12]
	ldr	w11, [sp, #968]
	str	w10, [sp, #696]
	str	w11, [sp, #708]
	ldr	x10, [sp, #944]
	str	x10, [sp, #712]
	ldr	w10, [sp, #952]
	ldr	w11, [sp, #936]
	str	w10, [sp, #720]
	str	w11, [sp, #732]
	ldr	x10, [sp, #928]
	stur	x10, [x23, #36]
	ldr	x10, [sp, #912]
	ldr	w11, [sp, #920]
	str	x10, [sp, #736]
	ldr	x10, [sp, #896]
	stur	x10, [x23, #60]
	ldr	w10, [sp, #904]
	str	w11, [sp, #744]
	str	w10, [sp, #756]
	ldr	x10, [sp, #880]
	str	x10, [sp, #760]
	ldr	w10, [sp, #888]
	ldr	x11, [sp, #864]
	stur	x11, [x23, #84]
	ldr	w11, [sp, #872]
	str	w10, [sp, #768]
	str	w11, [sp, #780]
	ldr	w10, [sp, #856]
	ldr	x11, [sp, #848]
	str	x11, [sp, #784]
	ldr	w11, [sp, #840]
	str	w10, [sp, #792]
	str	w11, [sp, #804]
	ldr	x10, [sp, #832]
	stur	x10, [x23, #108]
	ldur	x10, [x29, #-96]
	str	x10, [sp, #808]
	ldur	w10, [x29, #-88]
	str	w10, [sp, #816]
	ldrb	w11, [sp, #974]
	strb	w11, [sp, #134]
	ldrh	w11, [sp, #972]
	strh	w11, [sp, #132]
	ldp	q0, q1, [sp, #688]
	ldp	q2, q3, [sp, #720]
	stp	q2, q3, [sp, #32]
	stp	q0, q1, [sp]
	ldp	q0, q1, [sp, #752]
	ldp	q2, q3, [sp, #784]
	str	w10, [sp, #128]
	stp	q2, q3, [sp, #96]
	stp	q0, q1, [sp, #64]
	strb	w9, [x19]
	and	w9, w11, #0xffff
	sturh	w9, [x19, #1]
	ldrb	w9, [sp, #134]
	strb	w9, [x19, #3]
	str	w8, [x19, #4]
	ldp	q1, q0, [sp, #64]
	stur	q0, [x19, #88]
	ldp	q0, q2, [sp, #96]
	stur	q0, [x19, #104]
	stur	q2, [x19, #120]
	str	w10, [x19, #136]
	ldp	q2, q0, [sp]
	stur	q0, [x19, #24]
	ldp	q0, q3, [sp, #32]
	stur	q0, [x19, #40]
	stur	q3, [x19, #56]
	stur	q1, [x19, #72]
	stur	q2, [x19, #8]
	b	Lnoise_BB88_2
Lnoise_BB88_22:
	ldrb	w8, [x26, #49]
	stur	xzr, [x29, #-256]
	stur	wzr, [x29, #-248]
	cmp	w8, #1
	cset	w5, eq
	cmp	w8, #2
	csel	w6, w27, wzr, lo
	sub	x0, x29, #256
	add	x1, x25, #8
	add	w4, w8, #1
	mov	x2, x22
	mov	w3, #1
	bl	"_noise_c::message_layout::piece"
	ldur	x8, [x29, #-256]
	str	x8, [sp, #960]
	ldur	w8, [x29, #-248]
	str	w8, [sp, #968]
	stur	wzr, [x29, #-88]
	stur	xzr, [x29, #-96]
	cmp	x24, #2
	b.ls	Lnoise_BB88_25
	ldrb	w8, [x26, #50]
	stur	xzr, [x29, #-240]
	stur	wzr, [x29, #-232]
	cmp	w8, #1
	cset	w5, eq
	cmp	w8, #2
	csel	w6, w27, wzr, lo
	sub	x0, x29, #240
	add	x1, x25, #8
	add	w4, w8, #1
	mov	x2, x22
	mov	w3, #2
	bl	"_noise_c::message_layout::piece"
	ldur	x8, [x29, #-240]
	str	x8, [sp, #944]
	ldur	w8, [x29, #-232]
	str	w8, [sp, #952]
	stur	wzr, [x29, #-88]
	stur	xzr, [x29, #-96]
	cmp	x24, #3
	b.ne	Lnoise_BB88_26
	sub	x0, x29, #96
	add	x1, x25, #8
	mov	x2, x22
	mov	w3, #3
	mov	w4, #8
	mov	x6, x20
	mov	w5, #1
	bl	"_noise_c::message_layout::piece"
	b	Lnoise_BB88_13
Lnoise_BB88_25:
	sub	x0, x29, #96
	add	x1, x25, #8
	mov	x2, x22
	mov	w3, #2
	mov	w4, #8
	mov	x6, x20
	mov	w5, #1
	bl	"_noise_c::message_layout::piece"
	b	Lnoise_BB88_12
Lnoise_BB88_26:
	ldrb	w8, [x26, #51]
	stur	xzr, [x29, #-224]
	stur	wzr, [x29, #-216]
	cmp	w8, #1
	cset	w5, eq
	cmp	w8, #2
	csel	w6, w27, wzr, lo
	sub	x0, x29, #224
	add	x1, x25, #8
	add	w4, w8, #1
	mov	x2, x22
	mov	w3, #3
	bl	"_noise_c::message_layout::piece"
	ldur	x8, [x29, #-224]
	str	x8, [sp, #928]
	ldur	w8, [x29, #-216]
	str	w8, [sp, #936]
	stur	wzr, [x29, #-88]
	stur	xzr, [x29, #-96]
	cmp	x24, #4
	b.ls	Lnoise_BB88_29
	ldrb	w8, [x26, #52]
	stur	xzr, [x29, #-208]
	stur	wzr, [x29, #-200]
	cmp	w8, #1
	cset	w5, eq
	cmp	w8, #2
	csel	w6, w27, wzr, lo
	sub	x0, x29, #208
	add	x1, x25, #8
	add	w4, w8, #1
	mov	x2, x22
	mov	w3, #4
	bl	"_noise_c::message_layout::piece"
	ldur	x8, [x29, #-208]
	str	x8, [sp, #912]
	ldur	w8, [x29, #-200]
	str	w8, [sp, #920]
	stur	wzr, [x29, #-88]
	stur	xzr, [x29, #-96]
	cmp	x24, #5
	b.ne	Lnoise_BB88_30
	sub	x0, x29, #96
	add	x1, x25, #8
	mov	x2, x22
	mov	w3, #5
	mov	w4, #8
	mov	x6, x20
	mov	w5, #1
	bl	"_noise_c::message_layout::piece"
	b	Lnoise_BB88_15
Lnoise_BB88_29:
	sub	x0, x29, #96
	add	x1, x25, #8
	mov	x2, x22
	mov	w3, #4
	mov	w4, #8
	mov	x6, x20
	mov	w5, #1
	bl	"_noise_c::message_layout::piece"
	b	Lnoise_BB88_14
Lnoise_BB88_30:
	ldrb	w8, [x26, #53]
	stur	xzr, [x29, #-192]
	stur	wzr, [x29, #-184]
	cmp	w8, #1
	cset	w5, eq
	cmp	w8, #2
	csel	w6, w27, wzr, lo
	sub	x0, x29, #192
	add	x1, x25, #8
	add	w4, w8, #1
	mov	x2, x22
	mov	w3, #5
	bl	"_noise_c::message_layout::piece"
	ldur	x8, [x29, #-192]
	str	x8, [sp, #896]
	ldur	w8, [x29, #-184]
	str	w8, [sp, #904]
	stur	wzr, [x29, #-88]
	stur	xzr, [x29, #-96]
	cmp	x24, #6
	b.ls	Lnoise_BB88_33
	ldrb	w8, [x26, #54]
	stur	xzr, [x29, #-176]
	stur	wzr, [x29, #-168]
	cmp	w8, #1
	cset	w5, eq
	cmp	w8, #2
	csel	w6, w27, wzr, lo
	sub	x0, x29, #176
	add	x1, x25, #8
	add	w4, w8, #1
	mov	x2, x22
	mov	w3, #6
	bl	"_noise_c::message_layout::piece"
	ldur	x8, [x29, #-176]
	str	x8, [sp, #880]
	ldur	w8, [x29, #-168]
	str	w8, [sp, #888]
	stur	wzr, [x29, #-88]
	stur	xzr, [x29, #-96]
	cmp	x24, #7
	b.ne	Lnoise_BB88_34
	sub	x0, x29, #96
	add	x1, x25, #8
	mov	x2, x22
	mov	w3, #7
	mov	w4, #8
	mov	x6, x20
	mov	w5, #1
	bl	"_noise_c::message_layout::piece"
	b	Lnoise_BB88_17
Lnoise_BB88_33:
	sub	x0, x29, #96
	add	x1, x25, #8
	mov	x2, x22
	mov	w3, #6
	mov	w4, #8
	mov	x6, x20
	mov	w5, #1
	bl	"_noise_c::message_layout::piece"
	b	Lnoise_BB88_16
Lnoise_BB88_34:
	ldrb	w8, [x26, #55]
	stur	xzr, [x29, #-160]
	stur	wzr, [x29, #-152]
	cmp	w8, #1
	cset	w5, eq
	cmp	w8, #2
	csel	w6, w27, wzr, lo
	sub	x0, x29, #160
	add	x1, x25, #8
	add	w4, w8, #1
	mov	x2, x22
	mov	w3, #7
	bl	"_noise_c::message_layout::piece"
	ldur	x8, [x29, #-160]
	str	x8, [sp, #864]
	ldur	w8, [x29, #-152]
	str	w8, [sp, #872]
	stur	wzr, [x29, #-88]
	stur	xzr, [x29, #-96]
	cmp	x24, #8
	b.ls	Lnoise_BB88_37
	ldrb	w8, [x26, #56]
	stur	xzr, [x29, #-144]
	stur	wzr, [x29, #-136]
	cmp	w8, #1
	cset	w5, eq
	cmp	w8, #2
	csel	w6, w27, wzr, lo
	sub	x0, x29, #144
	add	x1, x25, #8
	add	w4, w8, #1
	mov	x2, x22
	mov	w3, #8
	bl	"_noise_c::message_layout::piece"
	ldur	x8, [x29, #-144]
	str	x8, [sp, #848]
	ldur	w8, [x29, #-136]
	str	w8, [sp, #856]
	stur	wzr, [x29, #-88]
	stur	xzr, [x29, #-96]
	cmp	x24, #9
	b.ne	Lnoise_BB88_38
	sub	x0, x29, #96
	add	x1, x25, #8
	mov	x2, x22
	mov	w3, #9
	mov	w4, #8
	mov	x6, x20
	mov	w5, #1
	bl	"_noise_c::message_layout::piece"
	b	Lnoise_BB88_19
Lnoise_BB88_37:
	sub	x0, x29, #96
	add	x1, x25, #8
	mov	x2, x22
	mov	w3, #8
	mov	w4, #8
	mov	x6, x20
	mov	w5, #1
	bl	"_noise_c::message_layout::piece"
	b	Lnoise_BB88_18
Lnoise_BB88_38:
	ldrb	w8, [x26, #57]
	stur	xzr, [x29, #-128]
	stur	wzr, [x29, #-120]
	cmp	w8, #1
	cset	w5, eq
	cmp	w8, #2
	csel	w6, w27, wzr, lo
	sub	x0, x29, #128
	add	x1, x25, #8
	add	w4, w8, #1
	mov	x2, x22
	mov	w3, #9
	bl	"_noise_c::message_layout::piece"
	ldur	x8, [x29, #-128]
	str	x8, [sp, #832]
	ldur	w8, [x29, #-120]
	str	w8, [sp, #840]
	stur	wzr, [x29, #-104]
	stur	xzr, [x29, #-112]
	cmp	x24, #10
	b.ne	Lnoise_BB88_40
	sub	x0, x29, #112
	add	x1, x25, #8
	mov	x2, x22
	mov	w3, #10
	mov	w4, #8
	mov	x6, x20
	mov	w5, #1
	bl	"_noise_c::message_layout::piece"
	b	Lnoise_BB88_20
Lnoise_BB88_40:
	ldrb	w8, [x26, #58]
	stur	xzr, [x29, #-96]
	stur	wzr, [x29, #-88]
	cmp	w8, #1
	cset	w5, eq
	mov	w9, #32
	cmp	w8, #2
	csel	w6, w9, wzr, lo
	sub	x0, x29, #96
	add	x1, x25, #8
	add	w4, w8, #1
	mov	x2, x22
	mov	w3, #10
	bl	"_noise_c::message_layout::piece"
	b	Lnoise_BB88_21
	.cfi_endproc

	.globl	_noise_finish
	.p2align	2
_noise_finish:
	.cfi_startproc
	sub	sp, sp, #304
	.cfi_def_cfa_offset 304
	stp	x28, x27, [sp, #240]
	stp	x22, x21, [sp, #256]
	stp	x20, x19, [sp, #272]
	stp	x29, x30, [sp, #288]
	add	x29, sp, #288
	.cfi_def_cfa w29, 16
	.cfi_offset w30, -8
	.cfi_offset w29, -16
	.cfi_offset w19, -24
	.cfi_offset w20, -32
	.cfi_offset w21, -40
	.cfi_offset w22, -48
	.cfi_offset w27, -56
	.cfi_offset w28, -64
	.cfi_remember_state
	mov	x19, x3
	mov	x21, x2
	mov	x20, x1
	mov	x1, x0
	mov	x22, sp
	mov	x0, sp
	bl	"_noise_c::split::finished"
	ldrb	w8, [sp]
	cbz	w8, Lnoise_BB89_2
	ldr	w0, [sp, #4]
	b	Lnoise_BB89_7
Lnoise_BB89_2:
	ldrb	w10, [sp, #8]
	ldrb	w12, [sp, #80]
	ldr	x13, [sp, #120]
	ldrb	w9, [sp, #128]
	ldr	x8, [sp, #168]
	cbz	w10, Lnoise_BB89_4
	ldur	q0, [x22, #129]
	ldur	q1, [x22, #145]
	stp	q0, q1, [x29, #-80]
	ldur	q0, [x22, #81]
	ldur	q1, [x22, #97]
	stp	q0, q1, [x29, #-112]
	mov	x14, x9
	mov	x11, x8
	mov	x9, x12
	mov	x8, x13
	cmp	w14, #1
	b.eq	Lnoise_BB89_5
	b	Lnoise_BB89_8
Lnoise_BB89_4:
	ldur	q0, [x22, #81]
	ldur	q1, [x22, #97]
	stp	q0, q1, [x29, #-80]
	ldur	q0, [x22, #129]
	ldur	q1, [x22, #145]
	stp	q0, q1, [x29, #-112]
	mov	x14, x12
	mov	x11, x13
	cmp	w14, #1
	b.ne	Lnoise_BB89_8
Lnoise_BB89_5:
	ldp	q0, q1, [x29, #-80]
	stur	q0, [x21, #6]
	ldrb	w12, [sp, #9]
	and	w12, w12, #0x1
	mov	w13, #769
	movk	w13, #20079, lsl #16
	cmp	w10, #0
	mov	w10, #1
	cinc	w10, w10, ne
	str	w13, [x21]
	strb	w10, [x21, #4]
	strb	w12, [x21, #5]
	stur	q1, [x21, #22]
	strh	wzr, [x21, #38]
	stp	x20, x11, [x21, #40]
	cmp	w9, #1
	b.ne	Lnoise_BB89_8
	mov	w0, #0
	add	w9, w13, #256
	str	w9, [x19]
	strb	w10, [x19, #4]
	strb	w12, [x19, #5]
	ldp	q0, q1, [x29, #-112]
	stur	q0, [x19, #6]
	stur	q1, [x19, #22]
	strh	wzr, [x19, #38]
	stp	x20, x8, [x19, #40]
Lnoise_BB89_7:
	.cfi_def_cfa wsp, 304
	ldp	x29, x30, [sp, #288]
	ldp	x20, x19, [sp, #272]
	ldp	x22, x21, [sp, #256]
	ldp	x28, x27, [sp, #240]
	add	sp, sp, #304
	.cfi_def_cfa_offset 0
	.cfi_restore w30
	.cfi_restore w29
	.cfi_restore w19
	.cfi_restore w20
	.cfi_restore w21
	.cfi_restore w22
	.cfi_restore w27
	.cfi_restore w28
	ret
Lnoise_BB89_8:
	.cfi_restore_state
	brk	#0x1
	.cfi_endproc

	.globl	_noise_finish_ciphers
	.p2align	2
_noise_finish_ciphers:
	.cfi_startproc
	sub	sp, sp, #304
	.cfi_def_cfa_offset 304
	stp	x22, x21, [sp, #256]
	stp	x20, x19, [sp, #272]
	stp	x29, x30, [sp, #288]
	add	x29, sp, #288
	.cfi_def_cfa w29, 16
	.cfi_offset w30, -8
	.cfi_offset w29, -16
	.cfi_offset w19, -24
	.cfi_offset w20, -32
	.cfi_offset w21, -40
	.cfi_offset w22, -48
	mov	x19, x2
	mov	x20, x1
	mov	x1, x0
	add	x21, sp, #8
	add	x0, sp, #8
	bl	"_noise_c::split::finished"
	ldrb	w8, [sp, #8]
	cbz	w8, Lnoise_BB90_2
	ldr	w0, [sp, #12]
	b	Lnoise_BB90_18
Lnoise_BB90_2:
	ldrb	w9, [sp, #16]
	ldrb	w11, [sp, #17]
	ldrb	w13, [sp, #88]
	ldr	x12, [sp, #128]
	ldrb	w14, [sp, #136]
	ldr	x8, [sp, #176]
	cbz	w9, Lnoise_BB90_7
	cmp	w14, #1
	b.ne	Lnoise_BB90_9
	tbnz	w11, #0, Lnoise_BB90_9
	mov	w10, #0
	ldur	q0, [x21, #129]
	ldur	q1, [x21, #145]
	stp	q0, q1, [x29, #-96]
	mov	x9, x8
	cmp	w13, #1
	b.eq	Lnoise_BB90_10
Lnoise_BB90_6:
	mov	x12, #0
	movi.2d	v0, #0000000000000000
	stp	q0, q0, [x29, #-64]
	mov	w11, #1
	b	Lnoise_BB90_11
Lnoise_BB90_7:
	cmp	w13, #1
	b.ne	Lnoise_BB90_12
	mov	w10, #0
	ldur	q0, [x21, #81]
	ldur	q1, [x21, #97]
	stp	q0, q1, [x29, #-96]
	mov	x9, x12
	cmp	w14, #1
	b.eq	Lnoise_BB90_13
	b	Lnoise_BB90_15
Lnoise_BB90_9:
	mov	x9, #0
	movi.2d	v0, #0000000000000000
	stp	q0, q0, [x29, #-96]
	mov	w10, #1
	cmp	w13, #1
	b.ne	Lnoise_BB90_6
Lnoise_BB90_10:
	mov	w11, #0
	ldur	q0, [x21, #81]
	ldur	q1, [x21, #97]
	stp	q0, q1, [x29, #-64]
Lnoise_BB90_11:
	sturb	wzr, [x29, #-98]
	sturh	wzr, [x29, #-100]
	sturh	wzr, [x29, #-104]
	mov	x8, x12
	b	Lnoise_BB90_17
Lnoise_BB90_12:
	mov	x9, #0
	movi.2d	v0, #0000000000000000
	stp	q0, q0, [x29, #-96]
	mov	w10, #1
	cmp	w14, #1
	b.ne	Lnoise_BB90_15
Lnoise_BB90_13:
	tbnz	w11, #0, Lnoise_BB90_15
	mov	w11, #0
	ldur	q0, [x21, #129]
	ldur	q1, [x21, #145]
	stp	q0, q1, [x29, #-64]
	b	Lnoise_BB90_16
Lnoise_BB90_15:
	mov	x8, #0
	movi.2d	v0, #0000000000000000
	stp	q0, q0, [x29, #-64]
	mov	w11, #1
Lnoise_BB90_16:
	sturb	wzr, [x29, #-98]
	sturh	wzr, [x29, #-100]
	sturh	wzr, [x29, #-104]
Lnoise_BB90_17:
	sturb	wzr, [x29, #-102]
	mov	w0, #0
	ldurh	w12, [x29, #-100]
	ldurb	w13, [x29, #-98]
	strb	w10, [x20, #4]
	mov	w10, #2049
	movk	w10, #20079, lsl #16
	str	w10, [x20]
	ldp	q1, q0, [x29, #-96]
	stur	q0, [x20, #21]
	stur	q1, [x20, #5]
	sturh	w12, [x20, #37]
	strb	w13, [x20, #39]
	str	x9, [x20, #40]
	ldp	q0, q1, [x29, #-64]
	stur	q0, [x19, #5]
	strh	w12, [sp, #4]
	strb	w13, [sp, #6]
	ldurh	w9, [x29, #-104]
	strh	w9, [sp]
	and	w9, wzr, #0xff
	strb	w9, [sp, #2]
	orr	w9, w10, #0x100
	str	w9, [x19]
	strb	w11, [x19, #4]
	stur	q1, [x19, #21]
	ldrh	w9, [sp]
	sturh	w9, [x19, #37]
	ldrb	w9, [sp, #2]
	strb	w9, [x19, #39]
	str	x8, [x19, #40]
Lnoise_BB90_18:
	.cfi_def_cfa wsp, 304
	ldp	x29, x30, [sp, #288]
	ldp	x20, x19, [sp, #272]
	ldp	x22, x21, [sp, #256]
	add	sp, sp, #304
	.cfi_def_cfa_offset 0
	.cfi_restore w30
	.cfi_restore w29
	.cfi_restore w19
	.cfi_restore w20
	.cfi_restore w21
	.cfi_restore w22
	ret
	.cfi_endproc

	.globl	_noise_finish_stream
	.p2align	2
_noise_finish_stream:
	.cfi_startproc
	sub	sp, sp, #368
	.cfi_def_cfa_offset 368
	stp	x28, x27, [sp, #304]
	stp	x22, x21, [sp, #320]
	stp	x20, x19, [sp, #336]
	stp	x29, x30, [sp, #352]
	add	x29, sp, #352
	.cfi_def_cfa w29, 16
	.cfi_offset w30, -8
	.cfi_offset w29, -16
	.cfi_offset w19, -24
	.cfi_offset w20, -32
	.cfi_offset w21, -40
	.cfi_offset w22, -48
	.cfi_offset w27, -56
	.cfi_offset w28, -64
	.cfi_remember_state
	mov	x19, x3
	mov	x21, x2
	mov	x20, x1
	mov	x1, x0
	add	x22, sp, #64
	add	x0, sp, #64
	bl	"_noise_c::split::finished"
	ldrb	w8, [sp, #64]
	cbz	w8, Lnoise_BB91_2
	ldr	w0, [sp, #68]
	b	Lnoise_BB91_8
Lnoise_BB91_2:
	ldrb	w10, [sp, #72]
	ldrb	w12, [sp, #144]
	ldr	x13, [sp, #184]
	ldrb	w9, [sp, #192]
	ldr	x8, [sp, #232]
	cbz	w10, Lnoise_BB91_4
	ldur	q0, [x22, #129]
	ldur	q1, [x22, #145]
	stp	q0, q1, [x29, #-80]
	ldur	q0, [x22, #81]
	ldur	q1, [x22, #97]
	stp	q0, q1, [x29, #-112]
	mov	x14, x9
	mov	x11, x8
	mov	x9, x12
	mov	x8, x13
	b	Lnoise_BB91_5
Lnoise_BB91_4:
	ldur	q0, [x22, #81]
	ldur	q1, [x22, #97]
	stp	q0, q1, [x29, #-80]
	ldur	q0, [x22, #129]
	ldur	q1, [x22, #145]
	stp	q0, q1, [x29, #-112]
	mov	x14, x12
	mov	x11, x13
Lnoise_BB91_5:
	ldrb	w12, [sp, #73]
	ldp	q0, q1, [x29, #-80]
	stp	q0, q1, [sp, #32]
	ldp	q0, q1, [x29, #-112]
	stp	q0, q1, [sp]
	cmp	w14, #1
	b.ne	Lnoise_BB91_9
	ldp	q0, q1, [sp, #32]
	stur	q0, [x21, #6]
	and	w12, w12, #0x1
	mov	w13, #2561
	movk	w13, #20079, lsl #16
	cmp	w10, #0
	mov	w10, #1
	cinc	w10, w10, ne
	str	w13, [x21]
	strb	w10, [x21, #4]
	strb	w12, [x21, #5]
	stur	q1, [x21, #22]
	strh	wzr, [x21, #38]
	stp	x20, x11, [x21, #40]
	str	xzr, [x21, #56]
	cmp	w9, #1
	b.ne	Lnoise_BB91_9
	mov	w0, #0
	add	w9, w13, #256
	str	w9, [x19]
	strb	w10, [x19, #4]
	strb	w12, [x19, #5]
	ldp	q0, q1, [sp]
	stur	q0, [x19, #6]
	stur	q1, [x19, #22]
	strh	wzr, [x19, #38]
	stp	x20, x8, [x19, #40]
	str	xzr, [x19, #56]
Lnoise_BB91_8:
	.cfi_def_cfa wsp, 368
	ldp	x29, x30, [sp, #352]
	ldp	x20, x19, [sp, #336]
	ldp	x22, x21, [sp, #320]
	ldp	x28, x27, [sp, #304]
	add	sp, sp, #368
	.cfi_def_cfa_offset 0
	.cfi_restore w30
	.cfi_restore w29
	.cfi_restore w19
	.cfi_restore w20
	.cfi_restore w21
	.cfi_restore w22
	.cfi_restore w27
	.cfi_restore w28
	ret
Lnoise_BB91_9:
	.cfi_restore_state
	brk	#0x1
	.cfi_endproc

	.globl	_noise_datagram_open
	.p2align	2
_noise_datagram_open:
	.cfi_startproc
	sub	sp, sp, #464
	.cfi_def_cfa_offset 464
	stp	x28, x27, [sp, #368]
	stp	x26, x25, [sp, #384]
	stp	x24, x23, [sp, #400]
	stp	x22, x21, [sp, #416]
	stp	x20, x19, [sp, #432]
	stp	x29, x30, [sp, #448]
	add	x29, sp, #448
	.cfi_def_cfa w29, 16
	.cfi_offset w30, -8
	.cfi_offset w29, -16
	.cfi_offset w19, -24
	.cfi_offset w20, -32
	.cfi_offset w21, -40
	.cfi_offset w22, -48
	.cfi_offset w23, -56
	.cfi_offset w24, -64
	.cfi_offset w25, -72
	.cfi_offset w26, -80
	.cfi_offset w27, -88
	.cfi_offset w28, -96
	.cfi_remember_state
	mov	w19, #1793
	movk	w19, #20079, lsl #16
	mov	w8, #4096
	cmp	x1, #0
	csel	x11, x8, xzr, eq
	str	xzr, [sp, #56]
	ldr	w8, [x0]
	cmp	w8, w19
	b.ne	Lnoise_BB92_15
	ldrb	w8, [x0, #4]
	cmp	w8, #1
	b.eq	Lnoise_BB92_7
	cmp	w8, #2
	b.ne	Lnoise_BB92_15
	mov	w8, #0
	mov	w9, #1
	ldrb	w10, [x0, #5]
	ldr	w12, [x0, #8]
	cmp	w12, #64
	b.eq	Lnoise_BB92_8
Lnoise_BB92_4:
	cmp	w12, #1024
	b.eq	Lnoise_BB92_9
	cmp	w12, #256
	b.ne	Lnoise_BB92_15
	mov	w14, #1
	b	Lnoise_BB92_10
Lnoise_BB92_7:
	mov	w9, #0
	ldrb	w10, [x0, #5]
	ldr	w12, [x0, #8]
	cmp	w12, #64
	b.ne	Lnoise_BB92_4
Lnoise_BB92_8:
	mov	w14, #0
	b	Lnoise_BB92_10
Lnoise_BB92_9:
	mov	w14, #2
Lnoise_BB92_10:
	add	x12, sp, #216
	ldr	x15, [x0, #48]
	cmp	w10, #0
	cset	w13, ne
	ldur	q0, [x0, #136]
	ldur	q1, [x0, #152]
	ldur	q2, [x0, #168]
	stp	q1, q2, [x12, #112]
	ldr	x16, [x0, #184]
	str	x16, [sp, #360]
	ldur	q1, [x0, #72]
	ldur	q2, [x0, #88]
	ldur	q3, [x0, #104]
	stp	q2, q3, [x12, #48]
	ldur	q2, [x0, #120]
	stp	q2, q0, [x12, #80]
	ldur	q0, [x0, #56]
	stp	q0, q1, [x12, #16]
	stp	xzr, x15, [sp, #216]
	strb	w14, [sp, #216]
	cmn	x15, #1
	b.eq	Lnoise_BB92_15
	add	x16, sp, #216
Lnoise_loh180:
	adrp	x26, lnoise__switch.table.noise_datagram_open.205@PAGE
Lnoise_loh181:
	add	x26, x26, lnoise__switch.table.noise_datagram_open.205@PAGEOFF
	add	x17, x16, #16
	ldr	x4, [x26, w14, uxtw #3]
	lsr	x16, x15, #6
	udiv	x5, x16, x4
	msub	x4, x5, x4, x16
	ldr	x17, [x17, x4, lsl #3]
	lsr	x4, x17, x15
	orr	x15, x17, x15
	cmp	x4, #1
	ccmp	x15, #0, #4, ne
	b.ne	Lnoise_BB92_15
	add	x11, x1, x11
	ldr	x14, [x26, w14, uxtw #3]
	add	x15, x16, #1
	cmp	x15, x14
	csinc	x14, x14, x16, hs
	add	x14, x14, #2
Lnoise_BB92_13:
	cmp	x14, #19
	b.eq	Lnoise_BB92_17
	add	x15, sp, #216
	ldr	x15, [x15, x14, lsl #3]
	add	x14, x14, #1
	cbz	x15, Lnoise_BB92_13
Lnoise_BB92_15:
	mov	w0, #23
Lnoise_BB92_16:
	.cfi_def_cfa wsp, 464
	ldp	x29, x30, [sp, #448]
	ldp	x20, x19, [sp, #432]
	ldp	x22, x21, [sp, #416]
	ldp	x24, x23, [sp, #400]
	ldp	x26, x25, [sp, #384]
	ldp	x28, x27, [sp, #368]
	add	sp, sp, #464
	.cfi_def_cfa_offset 0
	.cfi_restore w30
	.cfi_restore w29
	.cfi_restore w19
	.cfi_restore w20
	.cfi_restore w21
	.cfi_restore w22
	.cfi_restore w23
	.cfi_restore w24
	.cfi_restore w25
	.cfi_restore w26
	.cfi_restore w27
	.cfi_restore w28
	ret
Lnoise_BB92_17:
	.cfi_restore_state
	ldr	x14, [sp, #360]
	str	x14, [sp, #208]
	ldp	q0, q1, [x12, #96]
	stp	q0, q1, [sp, #160]
	ldr	q0, [x12, #128]
	str	q0, [sp, #192]
	ldp	q0, q1, [x12, #32]
	stp	q0, q1, [sp, #96]
	ldp	q0, q1, [x12, #64]
	stp	q0, q1, [sp, #128]
	ldp	q0, q1, [x12]
	stp	q0, q1, [sp, #64]
	strb	w9, [sp]
	strb	w13, [sp, #1]
	stur	xzr, [sp, #2]
	str	xzr, [sp, #8]
	mov	w9, #1
	strb	w9, [sp, #16]
	ldur	q0, [x0, #12]
	stur	q0, [sp, #17]
	ldur	q0, [x0, #28]
	stur	q0, [sp, #33]
	stur	wzr, [sp, #49]
	cmp	w10, #0
	csel	w8, wzr, w8, eq
	str	wzr, [sp, #52]
	tbz	w8, #0, Lnoise_BB92_19
	mov	w0, #22
	b	Lnoise_BB92_16
Lnoise_BB92_19:
	cmp	x2, #24
	b.hs	Lnoise_BB92_21
	mov	w0, #15
	b	Lnoise_BB92_16
Lnoise_BB92_21:
	mov	w8, #7
	movk	w8, #1, lsl #16
	cmp	x2, x8
	b.ls	Lnoise_BB92_23
	mov	w0, #11
	b	Lnoise_BB92_16
Lnoise_BB92_23:
	ldr	x8, [x11]
	cmn	x8, #1
	b.eq	Lnoise_BB92_30
	rev	x21, x8
	ldrb	w8, [sp, #64]
Lnoise_loh182:
	adrp	x10, lnoise__switch.table.noise_datagram_open.203@PAGE
Lnoise_loh183:
	add	x10, x10, lnoise__switch.table.noise_datagram_open.203@PAGEOFF
	ldr	x9, [sp, #72]
	ldr	x10, [x10, x8, lsl #3]
	subs	x12, x9, x21
	csel	x12, xzr, x12, lo
	cmp	x10, x12
	b.ls	Lnoise_BB92_31
	lsr	x22, x21, #6
	cmp	x21, x9
	b.hi	Lnoise_BB92_27
	ldr	x8, [x26, x8, lsl #3]
	udiv	x9, x22, x8
	msub	x8, x9, x8, x22
	mov	x9, sp
	add	x8, x9, x8, lsl #3
	ldr	x8, [x8, #80]
	lsr	x8, x8, x21
	tbnz	w8, #0, Lnoise_BB92_41
Lnoise_BB92_27:
	mov	x23, x3
	mov	x25, x0
	mov	x20, sp
	str	x21, [sp, #56]
	sub	x5, x2, #8
	stp	xzr, xzr, [sp, #216]
Lnoise_loh184:
	adrp	x2, lnoise__static.1@PAGE
Lnoise_loh185:
	add	x2, x2, lnoise__static.1@PAGEOFF
	add	x0, sp, #216
	add	x1, x20, #16
	add	x4, x11, #8
	mov	x3, #0
	bl	"_noise_state::cipher::CipherState::decrypt"
	ldrb	w8, [sp, #216]
	cbz	w8, Lnoise_BB92_32
	ldrb	w8, [sp, #217]
	cmp	w8, #3
	b.eq	Lnoise_BB92_73
	mov	w0, #16
	b	Lnoise_BB92_16
Lnoise_BB92_30:
	mov	w0, #26
	b	Lnoise_BB92_16
Lnoise_BB92_31:
	mov	w0, #27
	b	Lnoise_BB92_16
Lnoise_BB92_32:
	ldr	x24, [sp, #224]
	ldr	x8, [sp, #8]
	cbz	x8, Lnoise_BB92_35
	ldr	x9, [sp, #56]
	udiv	x10, x9, x8
	msub	x8, x10, x8, x9
	cbnz	x8, Lnoise_BB92_35
	add	x0, x20, #16
	bl	"_noise_state::cipher::CipherState::rekey"
Lnoise_BB92_35:
	ldr	x10, [sp, #72]
	ldrb	w8, [sp, #64]
	cmp	x10, x21
	b.hs	Lnoise_BB92_38
	ldr	x9, [x26, x8, lsl #3]
	subs	x11, x22, x10, lsr #6
	cmp	x9, x11
	csel	x9, x9, x11, lo
	subs	x11, x22, x10, lsr #6
	b.ne	Lnoise_BB92_43
	mov	x10, x21
Lnoise_BB92_38:
	cbz	w8, Lnoise_BB92_42
	cmp	w8, #2
	b.ne	Lnoise_BB92_47
	mov	w9, #17
	b	Lnoise_BB92_71
Lnoise_BB92_41:
	mov	w0, #28
	b	Lnoise_BB92_16
Lnoise_BB92_42:
	mov	w9, #2
	b	Lnoise_BB92_71
Lnoise_BB92_43:
	cbz	w8, Lnoise_BB92_48
	cmp	w8, #1
	b.ne	Lnoise_BB92_50
	cmp	x11, #1
	b.hi	Lnoise_BB92_52
	mov	x10, #0
	b	Lnoise_BB92_55
Lnoise_BB92_47:
	mov	w9, #5
	b	Lnoise_BB92_71
Lnoise_BB92_48:
	mov	x10, sp
	add	x10, x10, #80
	cmp	x11, #2
	b.hs	Lnoise_BB92_58
	mov	x11, #0
	b	Lnoise_BB92_61
Lnoise_BB92_50:
	cmp	x11, #1
	b.hi	Lnoise_BB92_64
	mov	x10, #0
	b	Lnoise_BB92_67
Lnoise_BB92_52:
	and	x10, x9, #0x1e
	mov	x11, sp
	add	x12, x11, x22, lsl #3
	add	x11, x12, #80
	add	x12, x12, #72
	sub	x13, x22, #1
	mov	x14, x22
	and	x15, x9, #0x1e
Lnoise_BB92_53:
	mov	x16, #-3689348814741910324
	movk	x16, #52429
	umulh	x17, x14, x16
	lsr	x17, x17, #2
	mov	x0, #-40
	mul	x17, x17, x0
	umulh	x16, x13, x16
	lsr	x16, x16, #2
	mul	x16, x16, x0
	str	xzr, [x11, x17]
	str	xzr, [x12, x16]
	sub	x11, x11, #16
	sub	x14, x14, #2
	sub	x12, x12, #16
	sub	x13, x13, #2
	sub	x15, x15, #2
	cbnz	x15, Lnoise_BB92_53
	cmp	x9, x10
	b.eq	Lnoise_BB92_57
Lnoise_BB92_55:
	sub	x9, x9, x10
	mov	x11, sp
	sub	x11, x11, x10, lsl #3
	add	x11, x11, x22, lsl #3
	add	x11, x11, #80
	sub	x10, x22, x10
Lnoise_BB92_56:
	mov	x12, #-3689348814741910324
	movk	x12, #52429
	umulh	x12, x10, x12
	lsr	x12, x12, #2
	mov	x13, #-40
	mul	x12, x12, x13
	str	xzr, [x11, x12]
	sub	x11, x11, #8
	sub	x10, x10, #1
	sub	x9, x9, #1
	cbnz	x9, Lnoise_BB92_56
Lnoise_BB92_57:
	mov	w9, #5
	b	Lnoise_BB92_70
Lnoise_BB92_58:
	and	x11, x9, #0x1e
	ubfiz	x12, x22, #3, #1
	eor	x13, x12, #0x8
	and	x14, x9, #0x1e
Lnoise_BB92_59:
	str	xzr, [x10, x12]
	str	xzr, [x10, x13]
	subs	x14, x14, #2
	b.ne	Lnoise_BB92_59
	cmp	x9, x11
	b.eq	Lnoise_BB92_63
Lnoise_BB92_61:
	sub	x9, x9, x11
	lsl	x12, x22, #3
	sub	x11, x12, x11, lsl #3
Lnoise_BB92_62:
	and	x12, x11, #0x8
	str	xzr, [x10, x12]
	sub	x11, x11, #8
	sub	x9, x9, #1
	cbnz	x9, Lnoise_BB92_62
Lnoise_BB92_63:
	mov	w9, #2
	b	Lnoise_BB92_70
Lnoise_BB92_64:
	and	x10, x9, #0x1e
	mov	x11, sp
	add	x12, x11, x22, lsl #3
	add	x11, x12, #80
	add	x12, x12, #72
	sub	x13, x22, #1
	mov	x14, x22
	and	x15, x9, #0x1e
Lnoise_BB92_65:
	mov	x16, #-1085102592571150096
	movk	x16, #61681
	umulh	x17, x14, x16
	lsr	x17, x17, #4
	mov	x0, #-136
	mul	x17, x17, x0
	umulh	x16, x13, x16
	lsr	x16, x16, #4
	mul	x16, x16, x0
	str	xzr, [x11, x17]
	str	xzr, [x12, x16]
	sub	x11, x11, #16
	sub	x14, x14, #2
	sub	x12, x12, #16
	sub	x13, x13, #2
	sub	x15, x15, #2
	cbnz	x15, Lnoise_BB92_65
	cmp	x9, x10
	b.eq	Lnoise_BB92_69
Lnoise_BB92_67:
	sub	x9, x9, x10
	mov	x11, sp
	sub	x11, x11, x10, lsl #3
	add	x11, x11, x22, lsl #3
	add	x11, x11, #80
	sub	x10, x22, x10
Lnoise_BB92_68:
	mov	x12, #-1085102592571150096
	movk	x12, #61681
	umulh	x12, x10, x12
	lsr	x12, x12, #4
	mov	x13, #-136
	mul	x12, x12, x13
	str	xzr, [x11, x12]
	sub	x11, x11, #8
	sub	x10, x10, #1
	sub	x9, x9, #1
	cbnz	x9, Lnoise_BB92_68
Lnoise_BB92_69:
	mov	w9, #17
Lnoise_BB92_70:
	mov	x10, x21
Lnoise_BB92_71:
	mov	w11, #1
	lsl	x12, x11, x21
	udiv	x13, x22, x9
	msub	x13, x13, x9, x22
	mov	x9, sp
	add	x9, x9, #80
	ldr	x14, [x9, x13, lsl #3]
	orr	x12, x14, x12
	str	x12, [x9, x13, lsl #3]
	mov	w12, #8
	stp	x12, x24, [x23]
	ldrb	w12, [sp, #16]
	cmp	w12, #1
	b.ne	Lnoise_BB92_73
	mov	w0, #0
Lnoise_loh186:
	adrp	x12, lnoise__switch.table.noise_finish_datagrams@PAGE
Lnoise_loh187:
	add	x12, x12, lnoise__switch.table.noise_finish_datagrams@PAGEOFF
	ldrb	w13, [sp, #1]
	ldr	w8, [x12, x8, lsl #2]
	ldrb	w12, [sp]
	and	w13, w13, #0x1
	cmp	w12, #0
	cinc	w11, w11, ne
	str	w19, [x25]
	strb	w11, [x25, #4]
	strb	w13, [x25, #5]
	strh	wzr, [x25, #6]
	str	w8, [x25, #8]
	ldur	q0, [x20, #17]
	stur	q0, [x25, #12]
	ldur	q0, [x20, #33]
	stur	q0, [x25, #28]
	str	wzr, [x25, #44]
	str	x10, [x25, #48]
	ldp	q0, q1, [x9]
	stur	q0, [x25, #56]
	ldp	q0, q2, [x9, #64]
	stur	q0, [x25, #120]
	ldp	q0, q3, [x9, #32]
	stur	q3, [x25, #104]
	stur	q0, [x25, #88]
	stur	q1, [x25, #72]
	ldp	q0, q1, [x9, #96]
	ldr	x8, [x9, #128]
	stur	x8, [x25, #184]
	stur	q1, [x25, #168]
	stur	q0, [x25, #152]
	stur	q2, [x25, #136]
	b	Lnoise_BB92_16
Lnoise_BB92_73:
	brk	#0x1
	.loh AdrpAdd	Lnoise_loh180, Lnoise_loh181
	.loh AdrpAdd	Lnoise_loh182, Lnoise_loh183
	.loh AdrpAdd	Lnoise_loh184, Lnoise_loh185
	.loh AdrpAdd	Lnoise_loh186, Lnoise_loh187
	.cfi_endproc

	.globl	_noise_finish_datagrams
	.p2align	2
_noise_finish_datagrams:
	.cfi_startproc
	sub	sp, sp, #304
	.cfi_def_cfa_offset 304
	stp	x28, x27, [sp, #240]
	stp	x22, x21, [sp, #256]
	stp	x20, x19, [sp, #272]
	stp	x29, x30, [sp, #288]
	add	x29, sp, #288
	.cfi_def_cfa w29, 16
	.cfi_offset w30, -8
	.cfi_offset w29, -16
	.cfi_offset w19, -24
	.cfi_offset w20, -32
	.cfi_offset w21, -40
	.cfi_offset w22, -48
	.cfi_offset w27, -56
	.cfi_offset w28, -64
	.cfi_remember_state
	mov	x19, x3
	mov	x20, x2
	mov	x8, x0
	cmp	w1, #64
	b.eq	Lnoise_BB93_6
	cmp	w1, #1024
	b.eq	Lnoise_BB93_4
	cmp	w1, #256
	b.ne	Lnoise_BB93_9
	mov	w21, #1
	mov	x22, sp
	mov	x0, sp
	mov	x1, x8
	bl	"_noise_c::split::finished"
	ldrb	w8, [sp]
	cbnz	w8, Lnoise_BB93_5
	b	Lnoise_BB93_7
Lnoise_BB93_4:
	mov	w21, #2
	mov	x22, sp
	mov	x0, sp
	mov	x1, x8
	bl	"_noise_c::split::finished"
	ldrb	w8, [sp]
	cbz	w8, Lnoise_BB93_7
Lnoise_BB93_5:
	ldr	w0, [sp, #4]
	b	Lnoise_BB93_13
Lnoise_BB93_6:
	mov	x21, #0
	mov	x22, sp
	mov	x0, sp
	mov	x1, x8
	bl	"_noise_c::split::finished"
	ldrb	w8, [sp]
	cbnz	w8, Lnoise_BB93_5
Lnoise_BB93_7:
	ldrb	w9, [sp, #8]
	ldrb	w11, [sp, #80]
	ldrb	w8, [sp, #128]
	cbz	w9, Lnoise_BB93_10
	ldr	x10, [sp, #168]
	ldur	q0, [x22, #129]
	ldur	q1, [x22, #145]
	stp	q0, q1, [x29, #-80]
	ldur	q0, [x22, #81]
	ldur	q1, [x22, #97]
	stp	q0, q1, [x29, #-112]
	mov	x12, x8
	mov	x8, x11
	cmp	w12, #1
	b.eq	Lnoise_BB93_11
	b	Lnoise_BB93_14
Lnoise_BB93_9:
	mov	w0, #25
	b	Lnoise_BB93_13
Lnoise_BB93_10:
	ldr	x10, [sp, #120]
	ldur	q0, [x22, #81]
	ldur	q1, [x22, #97]
	stp	q0, q1, [x29, #-80]
	ldur	q0, [x22, #129]
	ldur	q1, [x22, #145]
	stp	q0, q1, [x29, #-112]
	mov	x12, x11
	cmp	w12, #1
	b.ne	Lnoise_BB93_14
Lnoise_BB93_11:
	ldp	q0, q1, [x29, #-80]
	stur	q0, [x20, #6]
	ldrb	w11, [sp, #9]
	and	w11, w11, #0x1
	mov	w12, #1537
	movk	w12, #20079, lsl #16
	cmp	w9, #0
	mov	w9, #1
	cinc	w9, w9, ne
	str	w12, [x20]
	strb	w9, [x20, #4]
	strb	w11, [x20, #5]
	stur	q1, [x20, #22]
	strh	wzr, [x20, #38]
	str	x10, [x20, #40]
	cmp	w8, #1
	b.ne	Lnoise_BB93_14
	mov	w0, #0
	ldp	q0, q1, [x29, #-112]
	stur	q0, [x19, #12]
Lnoise_loh188:
	adrp	x8, lnoise__switch.table.noise_finish_datagrams@PAGE
Lnoise_loh189:
	add	x8, x8, lnoise__switch.table.noise_finish_datagrams@PAGEOFF
	ldr	w8, [x8, x21, lsl #2]
	add	w10, w12, #256
	str	w10, [x19]
	strb	w9, [x19, #4]
	strb	w11, [x19, #5]
	strh	wzr, [x19, #6]
	str	w8, [x19, #8]
	stur	q1, [x19, #28]
	movi.2d	v0, #0000000000000000
	stur	q0, [x19, #44]
	stur	q0, [x19, #60]
	stur	q0, [x19, #76]
	stur	q0, [x19, #92]
	stur	q0, [x19, #108]
	stur	q0, [x19, #124]
	stur	q0, [x19, #140]
	stur	q0, [x19, #156]
	stur	q0, [x19, #172]
	str	wzr, [x19, #188]
Lnoise_BB93_13:
	.cfi_def_cfa wsp, 304
	ldp	x29, x30, [sp, #288]
	ldp	x20, x19, [sp, #272]
	ldp	x22, x21, [sp, #256]
	ldp	x28, x27, [sp, #240]
	add	sp, sp, #304
	.cfi_def_cfa_offset 0
	.cfi_restore w30
	.cfi_restore w29
	.cfi_restore w19
	.cfi_restore w20
	.cfi_restore w21
	.cfi_restore w22
	.cfi_restore w27
	.cfi_restore w28
	ret
Lnoise_BB93_14:
	.cfi_restore_state
	brk	#0x1
	.loh AdrpAdd	Lnoise_loh188, Lnoise_loh189
	.cfi_endproc

	.globl	_noise_write
	.p2align	2
_noise_write:
	.cfi_startproc
	stp	x28, x27, [sp, #-96]!
	.cfi_def_cfa_offset 96
	stp	x26, x25, [sp, #16]
	stp	x24, x23, [sp, #32]
	stp	x22, x21, [sp, #48]
	stp	x20, x19, [sp, #64]
	stp	x29, x30, [sp, #80]
	add	x29, sp, #80
	.cfi_def_cfa w29, 16
	.cfi_offset w30, -8
	.cfi_offset w29, -16
	.cfi_offset w19, -24
	.cfi_offset w20, -32
	.cfi_offset w21, -40
	.cfi_offset w22, -48
	.cfi_offset w23, -56
	.cfi_offset w24, -64
	.cfi_offset w25, -72
	.cfi_offset w26, -80
	.cfi_offset w27, -88
	.cfi_offset w28, -96
	.cfi_remember_state
	sub	sp, sp, #3248
	mov	x19, x5
	mov	x24, x4
	mov	x22, x3
	mov	x21, x2
	mov	x23, x1
	mov	x20, x0
	str	xzr, [sp, #952]
	str	xzr, [sp, #944]
	mov	w8, #4096
	str	wzr, [sp, #960]
	cmp	x1, #0
	csel	x27, x8, xzr, eq
	stp	xzr, xzr, [sp, #48]
	cmp	x3, #0
	csel	x28, x8, xzr, eq
	str	wzr, [sp, #64]
	add	x0, sp, #2128
	mov	w1, #872
	bl	_bzero
	ldr	w8, [x20]
	mov	w9, #257
	movk	w9, #20079, lsl #16
	cmp	w8, w9
	b.ne	Lnoise_BB94_8
	ldrh	w2, [x20, #420]
	cmp	x2, #416
	b.hi	Lnoise_BB94_8
	ldrb	w8, [x20, #846]
	cmp	w8, #8
	b.hi	Lnoise_BB94_8
	ldrb	w8, [x20, #557]
	cmp	w8, #9
	b.hi	Lnoise_BB94_8
	add	x25, sp, #1840
	add	x0, sp, #1840
	add	x1, x20, #4
	bl	"_noise_c::patterns::pattern_of"
	ldrb	w8, [sp, #1840]
	cbnz	w8, Lnoise_BB94_8
	add	x26, sp, #2128
	add	x0, sp, #2128
	add	x2, x25, #8
	mov	x1, x20
	bl	"_noise_c::from_c::restored"
	ldrb	w25, [sp, #2128]
	add	x0, sp, #80
	add	x1, x26, #8
	mov	w2, #864
	bl	_memcpy
	cmp	w25, #1
	b.ne	Lnoise_BB94_8
	add	x0, sp, #976
	add	x1, sp, #80
	mov	w2, #864
	bl	_memcpy
	ldrb	w8, [sp, #1665]
	tbz	w8, #0, Lnoise_BB94_10
	mov	w0, #13
	b	Lnoise_BB94_9
Lnoise_BB94_8:
	mov	w0, #23
Lnoise_BB94_9:
	add	sp, sp, #3248
	.cfi_def_cfa wsp, 96
	ldp	x29, x30, [sp, #80]
	ldp	x20, x19, [sp, #64]
	ldp	x22, x21, [sp, #48]
	ldp	x24, x23, [sp, #32]
	ldp	x26, x25, [sp, #16]
	ldp	x28, x27, [sp], #96
	.cfi_def_cfa_offset 0
	.cfi_restore w30
	.cfi_restore w29
	.cfi_restore w19
	.cfi_restore w20
	.cfi_restore w21
	.cfi_restore w22
	.cfi_restore w23
	.cfi_restore w24
	.cfi_restore w25
	.cfi_restore w26
	.cfi_restore w27
	.cfi_restore w28
	ret
Lnoise_BB94_10:
	.cfi_restore_state
	ldrb	w8, [sp, #1664]
	ldr	x9, [sp, #1240]
	cmp	x9, x8
	b.ne	Lnoise_BB94_12
	mov	w0, #12
	b	Lnoise_BB94_9
Lnoise_BB94_12:
	ldrb	w9, [sp, #1280]
	cmp	w9, #0
	cset	w9, eq
	and	w8, w8, #0x1
	cmp	w9, w8
	b.eq	Lnoise_BB94_15
	ldrh	w8, [sp, #1720]
	mvn	w9, w8
	cmp	x21, w9, uxth
	b.ls	Lnoise_BB94_16
	mov	w0, #11
	b	Lnoise_BB94_9
Lnoise_BB94_15:
	mov	w0, #10
	b	Lnoise_BB94_9
Lnoise_BB94_16:
	add	x8, x21, x8
	cmp	x24, x8
	b.hs	Lnoise_BB94_18
	str	x8, [x19, #8]
	mov	w0, #18
	b	Lnoise_BB94_9
Lnoise_BB94_18:
	add	x9, sp, #976
	ldr	x26, [sp, #1712]
	ldr	x8, [sp, #1648]
	ldr	x25, [sp, #1656]
	sub	x2, x8, x25
	add	x0, x9, #696
	mov	x1, x26
	str	x2, [sp, #40]
	bl	"_noise_handshake::layout::psk_after"
	tst	w0, #0xff
	b.eq	Lnoise_BB94_21
	and	w8, w0, #0xff
	and	x9, x1, #0xff
	cmp	w8, #1
	csel	x6, x9, xzr, eq
	add	x9, sp, #976
	add	x8, x9, x25, lsl #5
	strh	wzr, [sp, #2160]
	movi.2d	v0, #0000000000000000
	str	q0, [sp, #2144]
	str	q0, [sp, #2128]
	add	x0, sp, #2128
	add	x1, x9, #312
	add	x2, x9, #272
	add	x3, x8, #384
	add	x5, x9, #696
	ldr	x4, [sp, #40]
	bl	"_noise_handshake::writer::write_lacking::<#9bbb2dae5a99aff0>"
	ldrb	w11, [sp, #2128]
	ldrb	w8, [sp, #2129]
	add	x12, sp, #2128
	ldur	w9, [x12, #2]
	ldur	x10, [x12, #6]
	ldur	q0, [x12, #14]
	str	q0, [sp, #3040]
	ldur	w12, [x12, #30]
	str	w12, [sp, #3056]
	cmp	w11, #1
	b.ne	Lnoise_BB94_24
	ldr	w11, [sp, #3056]
	ldr	q0, [sp, #3040]
	b	Lnoise_BB94_23
Lnoise_BB94_21:
	strh	wzr, [sp, #2160]
	movi.2d	v0, #0000000000000000
	str	q0, [sp, #2144]
	str	q0, [sp, #2128]
	add	x8, sp, #976
	add	x9, x8, #384
	add	x3, x9, x25, lsl #5
	add	x25, x8, #384
	add	x0, sp, #2128
	add	x1, x8, #312
	add	x2, x8, #272
	add	x5, x8, #696
	ldr	x4, [sp, #40]
	mov	x6, x26
	bl	"_noise_handshake::writer::write_lacking::<#9bbb2dae5a99aff0>"
	ldrb	w11, [sp, #2128]
	ldrb	w8, [sp, #2129]
	add	x13, sp, #2128
	ldur	w9, [x13, #2]
	ldur	x10, [x13, #6]
	ldur	q0, [x13, #14]
	str	q0, [sp, #1840]
	ldur	w12, [x13, #30]
	str	w12, [sp, #1856]
	cmp	w11, #1
	b.ne	Lnoise_BB94_26
	ldr	w11, [sp, #1856]
	ldr	q0, [sp, #1840]
Lnoise_BB94_23:
	str	q0, [sp, #48]
	str	w11, [sp, #64]
	str	q0, [sp, #944]
	str	w11, [sp, #960]
	strb	w8, [x19, #17]
	stur	w9, [x19, #18]
	stur	x10, [x19, #22]
	ldr	q0, [sp, #944]
	stur	q0, [x19, #30]
	stur	w11, [x19, #46]
	mov	w0, #20
	b	Lnoise_BB94_9
Lnoise_BB94_24:
	ldrb	w8, [sp, #1321]
	cmp	w8, #1
	b.ne	Lnoise_BB94_28
	add	x9, sp, #976
	add	x9, x9, #346
	ldr	w10, [x9]
	ldur	x9, [x9, #4]
	add	x11, sp, #976
	add	x11, x11, #358
	ldr	q0, [x11]
	str	q0, [sp, #2128]
	ldr	w11, [x11, #16]
	str	w11, [sp, #2144]
	b	Lnoise_BB94_29
Lnoise_BB94_26:
	add	x8, sp, #1840
	strh	wzr, [sp, #3104]
	movi.2d	v0, #0000000000000000
	str	q0, [sp, #3088]
	str	q0, [sp, #3072]
	str	q0, [sp, #3056]
	str	q0, [sp, #3040]
	ldr	x9, [sp, #1648]
	ldr	x10, [sp, #1656]
	add	x3, x25, x10, lsl #5
	sub	x4, x9, x10
	add	x11, sp, #976
	ldr	q0, [sp, #1728]
	ldr	q1, [sp, #1744]
	stp	q0, q1, [x29, #-208]
	ldr	q0, [sp, #1776]
	ldr	q1, [sp, #1760]
	stp	q1, q0, [x29, #-176]
	ldrb	w9, [sp, #1792]
	add	x12, x11, #817
	ldr	x10, [sp, #1832]
	ldp	q0, q1, [x29, #-208]
	ldp	q2, q3, [x29, #-176]
	str	q3, [sp, #2176]
	str	q2, [sp, #2160]
	str	q1, [sp, #2144]
	str	q0, [sp, #2128]
	strb	w9, [sp, #2192]
	ldp	q0, q1, [x12]
	add	x9, x11, #817
	str	x9, [sp, #32]
	stur	q1, [x13, #81]
	stur	q0, [x13, #65]
	str	wzr, [sp, #2228]
	stur	wzr, [x13, #97]
	str	x10, [sp, #2232]
	ldrb	w25, [sp, #1288]
	add	x10, x11, #313
	ldrb	w26, [sp, #1321]
	add	x9, x11, #346
	strb	w25, [sp, #1840]
	ldp	q0, q1, [x10]
	stp	x10, x9, [sp, #16]
	stur	q1, [x8, #17]
	stur	q0, [x8, #1]
	strb	w26, [sp, #1873]
	ldp	q0, q1, [x9]
	stur	q1, [x8, #50]
	stur	q0, [x8, #34]
	ldr	x6, [sp, #1712]
	str	x24, [sp]
	add	x0, sp, #2128
	add	x1, sp, #1840
	add	x8, sp, #976
	add	x2, x8, #272
	add	x5, x8, #696
	add	x7, x22, x28
	bl	"_noise_handshake::writer::write_tokens::<#3dfcfe118667ed30>"
	tst	w0, #0xff
	b.eq	Lnoise_BB94_30
	mov	w0, #14
	b	Lnoise_BB94_9
Lnoise_BB94_28:
	mov	x9, #0
	mov	w10, #0
	str	xzr, [sp, #2136]
	str	xzr, [sp, #2128]
	str	wzr, [sp, #2144]
Lnoise_BB94_29:
	stur	w10, [x19, #18]
	stur	x9, [x19, #22]
	ldr	q0, [sp, #2128]
	stur	q0, [x19, #30]
	ldr	w9, [sp, #2144]
	stur	w9, [x19, #46]
	strb	w8, [x19, #50]
	mov	w0, #40
	b	Lnoise_BB94_9
Lnoise_BB94_30:
	mov	x24, x1
	add	x1, x23, x27
	add	x8, x22, x28
	add	x8, x8, x24
	str	x8, [sp, #40]
	sub	x8, x8, x1
	cmp	x8, x21
	b.hs	Lnoise_BB94_36
	cmp	x21, #7
	b.ls	Lnoise_BB94_33
	add	x8, x24, x28
	add	x8, x8, x22
	add	x9, x27, x23
	sub	x8, x8, x9
	cmp	x8, #32
	b.hs	Lnoise_BB94_48
Lnoise_BB94_33:
	mov	x8, #0
Lnoise_BB94_34:
	sub	x9, x21, x8
	add	x10, x27, x8
	add	x10, x23, x10
	add	x11, x24, x28
	add	x8, x22, x8
	add	x8, x8, x11
Lnoise_BB94_35:
	ldrb	w11, [x10], #1
	strb	w11, [x8], #1
	subs	x9, x9, #1
	b.ne	Lnoise_BB94_35
	b	Lnoise_BB94_37
Lnoise_BB94_36:
	ldr	x0, [sp, #40]
	mov	x2, x21
	bl	_memmove
Lnoise_BB94_37:
	stp	xzr, xzr, [x29, #-112]
	add	x22, sp, #2128
	sub	x0, x29, #112
	add	x8, sp, #2128
	add	x1, x8, #64
	add	x2, x22, #32
	mov	w3, #32
	ldr	x4, [sp, #40]
	mov	x5, x21
	bl	"_noise_state::cipher::CipherState::encrypt"
	ldurb	w8, [x29, #-112]
	cbnz	w8, Lnoise_BB94_57
	add	x23, sp, #3040
	add	x28, sp, #1840
	orr	x27, x28, #0x1
	ldur	x21, [x29, #-104]
	sub	x0, x29, #144
	add	x1, x22, #32
	ldr	x2, [sp, #40]
	mov	x3, x21
	bl	"_noise_state::symmetric::hash_of_both"
	ldp	q0, q1, [x29, #-144]
	stp	q0, q1, [x22, #32]
	ldp	q0, q1, [x27]
	stur	q0, [x23, #1]
	add	x21, x21, x24
	strb	w25, [sp, #3040]
	stur	q1, [x23, #17]
	strb	w26, [sp, #3073]
	ldur	q0, [x28, #34]
	stur	q0, [x23, #34]
	ldur	q0, [x28, #50]
	stur	q0, [x23, #50]
	add	x0, sp, #976
	add	x1, sp, #2128
	add	x2, sp, #3040
	bl	"_noise_handshake::handshake::Handshake::go_on::<#9bbb2dae5a99aff0>"
	stp	xzr, x21, [x19]
	ldr	w9, [sp, #1648]
	ldr	w11, [sp, #1656]
	ldrb	w14, [sp, #1288]
	ldrb	w10, [sp, #1321]
	cmp	w14, #1
	b.ne	Lnoise_BB94_40
	ldr	x8, [sp, #16]
	ldp	q0, q1, [x8]
	str	q0, [sp, #1840]
	str	q1, [sp, #1856]
	b	Lnoise_BB94_41
Lnoise_BB94_40:
	movi.2d	v0, #0000000000000000
	str	q0, [sp, #1856]
	str	q0, [sp, #1840]
Lnoise_BB94_41:
	ldrb	w8, [sp, #1792]
	sub	w11, w9, w11
	ldrb	w12, [sp, #1664]
	ldrb	w13, [sp, #1665]
	ldr	x9, [sp, #1832]
	strb	w14, [x20, #491]
	add	x14, x20, #492
	ldr	q0, [sp, #1840]
	ldr	q1, [sp, #1856]
	stp	q0, q1, [x14]
	cmp	w10, #1
	b.ne	Lnoise_BB94_43
	ldr	x14, [sp, #24]
	ldp	q0, q1, [x14]
	str	q0, [sp, #2128]
	str	q1, [sp, #2144]
	b	Lnoise_BB94_44
Lnoise_BB94_43:
	movi.2d	v0, #0000000000000000
	str	q0, [sp, #2144]
	str	q0, [sp, #2128]
Lnoise_BB94_44:
	ldr	q0, [sp, #2128]
	ldr	q1, [sp, #2144]
	str	q0, [sp, #1840]
	str	q1, [sp, #1856]
	strb	w10, [x20, #524]
	add	x10, x20, #525
	stp	q0, q1, [x10]
	strb	w11, [x20, #557]
	strb	w12, [x20, #424]
	strb	w13, [x20, #423]
	add	x10, x20, #1367
	add	x11, sp, #976
	ldp	q0, q1, [x11, #752]
	stp	q0, q1, [x10]
	add	x10, x20, #1399
	ldp	q0, q1, [x11, #784]
	stp	q0, q1, [x10]
	cmp	w8, #1
	b.ne	Lnoise_BB94_46
	ldr	x10, [sp, #32]
	ldp	q0, q1, [x10]
	str	q0, [sp, #2128]
	str	q1, [sp, #2144]
	b	Lnoise_BB94_47
Lnoise_BB94_46:
	movi.2d	v0, #0000000000000000
	str	q0, [sp, #2144]
	str	q0, [sp, #2128]
Lnoise_BB94_47:
	mov	w0, #0
	ldr	q0, [sp, #2128]
	ldr	q1, [sp, #2144]
	str	q0, [sp, #1840]
	str	q1, [sp, #1856]
	strb	w8, [x20, #1431]
	add	x8, x20, #1432
	stp	q0, q1, [x8]
	str	x9, [x20, #1464]
	b	Lnoise_BB94_9
Lnoise_BB94_48:
	cmp	x21, #32
	b.hs	Lnoise_BB94_50
	mov	x8, #0
	b	Lnoise_BB94_54
Lnoise_BB94_50:
	and	x9, x21, #0x18
	and	x8, x21, #0xffffffffffffffe0
	add	x10, x27, x23
	add	x10, x10, #16
	add	x11, x24, x28
	add	x11, x11, x22
	add	x11, x11, #16
	and	x12, x21, #0xffffffffffffffe0
Lnoise_BB94_51:
	ldp	q0, q1, [x10, #-16]
	stp	q0, q1, [x11, #-16]
	add	x10, x10, #32
	add	x11, x11, #32
	subs	x12, x12, #32
	b.ne	Lnoise_BB94_51
	cmp	x21, x8
	b.eq	Lnoise_BB94_37
	cbz	x9, Lnoise_BB94_34
Lnoise_BB94_54:
	mov	x11, x8
	and	x8, x21, #0xfffffffffffffff8
	sub	x9, x11, x8
	add	x10, x27, x11
	add	x10, x23, x10
	add	x12, x24, x28
	add	x11, x22, x11
	add	x11, x11, x12
Lnoise_BB94_55:
	ldr	d0, [x10], #8
	str	d0, [x11], #8
	adds	x9, x9, #8
	b.ne	Lnoise_BB94_55
	cmp	x21, x8
	b.ne	Lnoise_BB94_34
	b	Lnoise_BB94_37
Lnoise_BB94_57:
	brk	#0x1
	.cfi_endproc

	.section	__TEXT,__const
lnoise__static.0:
	.space	15

lnoise__static.1:
	.byte	0

	.section	__TEXT,__cstring,cstring_literals
lnoise__static.2:
	.space	1

	.section	__TEXT,__const
lnoise__static.4:
	.asciz	"The call succeeded.\000\000\000\000\000\000\000\000\000\000\000\000\000\000\000\000\000\000\000\000\000\000\000\000\000\000\000\000\000\000\000\000\000\000\000\000\000\000\000\000\000\000\000\000\000\000\000\000\000\000\000\000\000\000\000\000\000\000\000\000"

lnoise__static.5:
	.asciz	"No fundamental pattern with 25519, ChaChaPoly, SHA256 has this name.\000\000\000\000\000\000\000\000\000\000\000"

lnoise__static.6:
	.asciz	"The pattern text has a fault: noise_check_pattern says where.\000\000\000\000\000\000\000\000\000\000\000\000\000\000\000\000\000\000"

lnoise__static.7:
	.asciz	"The setup lacks this party's ephemeral public key.\000\000\000\000\000\000\000\000\000\000\000\000\000\000\000\000\000\000\000\000\000\000\000\000\000\000\000\000\000"

lnoise__static.8:
	.asciz	"The setup lacks this party's static public key.\000\000\000\000\000\000\000\000\000\000\000\000\000\000\000\000\000\000\000\000\000\000\000\000\000\000\000\000\000\000\000\000"

lnoise__static.9:
	.asciz	"The setup lacks a key of the other party's pre-message.\000\000\000\000\000\000\000\000\000\000\000\000\000\000\000\000\000\000\000\000\000\000\000\000"

lnoise__static.10:
	.asciz	"The setup has a remote key that isn't in a pre-message.\000\000\000\000\000\000\000\000\000\000\000\000\000\000\000\000\000\000\000\000\000\000\000\000"

lnoise__static.11:
	.asciz	"There are more psks than psk tokens.\000\000\000\000\000\000\000\000\000\000\000\000\000\000\000\000\000\000\000\000\000\000\000\000\000\000\000\000\000\000\000\000\000\000\000\000\000\000\000\000\000\000\000"

lnoise__static.12:
	.asciz	"It is the other party's turn.\000\000\000\000\000\000\000\000\000\000\000\000\000\000\000\000\000\000\000\000\000\000\000\000\000\000\000\000\000\000\000\000\000\000\000\000\000\000\000\000\000\000\000\000\000\000\000\000\000\000"

lnoise__static.13:
	.asciz	"The message would be or is too long.\000\000\000\000\000\000\000\000\000\000\000\000\000\000\000\000\000\000\000\000\000\000\000\000\000\000\000\000\000\000\000\000\000\000\000\000\000\000\000\000\000\000\000"

lnoise__static.14:
	.asciz	"All messages of the handshake have passed.\000\000\000\000\000\000\000\000\000\000\000\000\000\000\000\000\000\000\000\000\000\000\000\000\000\000\000\000\000\000\000\000\000\000\000\000\000"

lnoise__static.15:
	.asciz	"The handshake has ended: a message was refused, or it was finished.\000\000\000\000\000\000\000\000\000\000\000\000"

lnoise__static.16:
	.asciz	"A result of X25519 is missing in a struct that was changed.\000\000\000\000\000\000\000\000\000\000\000\000\000\000\000\000\000\000\000\000"

lnoise__static.17:
	.asciz	"The message has too few bytes.\000\000\000\000\000\000\000\000\000\000\000\000\000\000\000\000\000\000\000\000\000\000\000\000\000\000\000\000\000\000\000\000\000\000\000\000\000\000\000\000\000\000\000\000\000\000\000\000\000"

lnoise__static.18:
	.asciz	"A tag is wrong: keys, psks or prologues differ, or bytes changed.\000\000\000\000\000\000\000\000\000\000\000\000\000\000"

lnoise__static.19:
	.asciz	"The nonce is 2^64 - 1: this key encrypts and decrypts no more.\000\000\000\000\000\000\000\000\000\000\000\000\000\000\000\000\000"

lnoise__static.20:
	.asciz	"The buffer is too short for the message.\000\000\000\000\000\000\000\000\000\000\000\000\000\000\000\000\000\000\000\000\000\000\000\000\000\000\000\000\000\000\000\000\000\000\000\000\000\000\000"

lnoise__static.21:
	.asciz	"Messages of the handshake are still due.\000\000\000\000\000\000\000\000\000\000\000\000\000\000\000\000\000\000\000\000\000\000\000\000\000\000\000\000\000\000\000\000\000\000\000\000\000\000\000"

lnoise__static.22:
	.asciz	"A result of X25519 is needed: pass it to noise_answer; call again.\000\000\000\000\000\000\000\000\000\000\000\000\000"

lnoise__static.23:
	.asciz	"In a one-way pattern only the initiator sends.\000\000\000\000\000\000\000\000\000\000\000\000\000\000\000\000\000\000\000\000\000\000\000\000\000\000\000\000\000\000\000\000\000"

lnoise__static.24:
	.asciz	"The struct holds no state that a call could have made.\000\000\000\000\000\000\000\000\000\000\000\000\000\000\000\000\000\000\000\000\000\000\000\000\000"

lnoise__static.25:
	.asciz	"The prologue, message or associated data has more than 65535 bytes.\000\000\000\000\000\000\000\000\000\000\000\000"

lnoise__static.26:
	.asciz	"The window is not 64, 256 or 1024.\000\000\000\000\000\000\000\000\000\000\000\000\000\000\000\000\000\000\000\000\000\000\000\000\000\000\000\000\000\000\000\000\000\000\000\000\000\000\000\000\000\000\000\000\000"

lnoise__static.27:
	.asciz	"The datagram has the nonce 2^64 - 1, which no datagram may have.\000\000\000\000\000\000\000\000\000\000\000\000\000\000\000"

lnoise__static.28:
	.asciz	"The datagram is older than the window.\000\000\000\000\000\000\000\000\000\000\000\000\000\000\000\000\000\000\000\000\000\000\000\000\000\000\000\000\000\000\000\000\000\000\000\000\000\000\000\000\000"

lnoise__static.29:
	.asciz	"A datagram with this nonce was opened before.\000\000\000\000\000\000\000\000\000\000\000\000\000\000\000\000\000\000\000\000\000\000\000\000\000\000\000\000\000\000\000\000\000\000"

lnoise__static.30:
	.asciz	"A payload of this length can not be written now.\000\000\000\000\000\000\000\000\000\000\000\000\000\000\000\000\000\000\000\000\000\000\000\000\000\000\000\000\000\000\000"

lnoise__static.31:
	.asciz	"Line 1 isn't a base name, its modifiers in order, and a colon.\000\000\000\000\000\000\000\000\000\000\000\000\000\000\000\000\000"

lnoise__static.32:
	.asciz	"The line does not begin with two spaces, an arrow and a space.\000\000\000\000\000\000\000\000\000\000\000\000\000\000\000\000\000"

lnoise__static.33:
	.asciz	"A word of the line is not a token.\000\000\000\000\000\000\000\000\000\000\000\000\000\000\000\000\000\000\000\000\000\000\000\000\000\000\000\000\000\000\000\000\000\000\000\000\000\000\000\000\000\000\000\000\000"

lnoise__static.34:
	.asciz	"A pre-message has tokens other than e and s, or is misplaced.\000\000\000\000\000\000\000\000\000\000\000\000\000\000\000\000\000\000"

lnoise__static.35:
	.asciz	"The line is a message of the wrong party.\000\000\000\000\000\000\000\000\000\000\000\000\000\000\000\000\000\000\000\000\000\000\000\000\000\000\000\000\000\000\000\000\000\000\000\000\000\000"

lnoise__static.36:
	.asciz	"The psk tokens are not where the heading says.\000\000\000\000\000\000\000\000\000\000\000\000\000\000\000\000\000\000\000\000\000\000\000\000\000\000\000\000\000\000\000\000\000"

lnoise__static.37:
	.asciz	"The base name is that of another pattern, a fundamental one.\000\000\000\000\000\000\000\000\000\000\000\000\000\000\000\000\000\000\000"

lnoise__static.38:
	.asciz	"A ninth message, no token but psk, or more than eight others.\000\000\000\000\000\000\000\000\000\000\000\000\000\000\000\000\000\000"

lnoise__static.39:
	.asciz	"The line has no line feed, or there is no message.\000\000\000\000\000\000\000\000\000\000\000\000\000\000\000\000\000\000\000\000\000\000\000\000\000\000\000\000\000"

lnoise__static.40:
	.asciz	"The pattern breaks a rule of validity.\000\000\000\000\000\000\000\000\000\000\000\000\000\000\000\000\000\000\000\000\000\000\000\000\000\000\000\000\000\000\000\000\000\000\000\000\000\000\000\000\000"

lnoise__static.41:
	.asciz	"A psk is needed: pass it to noise_set_psk; call again.\000\000\000\000\000\000\000\000\000\000\000\000\000\000\000\000\000\000\000\000\000\000\000\000\000"

lnoise__static.42:
	.asciz	"The other party has ended the stream, and all of it came.\000\000\000\000\000\000\000\000\000\000\000\000\000\000\000\000\000\000\000\000\000\000"

lnoise__static.43:
	.asciz	"The frame is not complete.\000\000\000\000\000\000\000\000\000\000\000\000\000\000\000\000\000\000\000\000\000\000\000\000\000\000\000\000\000\000\000\000\000\000\000\000\000\000\000\000\000\000\000\000\000\000\000\000\000\000\000\000\000"

lnoise__static.44:
	.asciz	"The stream was ended or refused before.\000\000\000\000\000\000\000\000\000\000\000\000\000\000\000\000\000\000\000\000\000\000\000\000\000\000\000\000\000\000\000\000\000\000\000\000\000\000\000\000"

lnoise__static.45:
	.asciz	"The connection ended before the stream did.\000\000\000\000\000\000\000\000\000\000\000\000\000\000\000\000\000\000\000\000\000\000\000\000\000\000\000\000\000\000\000\000\000\000\000\000"

lnoise__static.46:
	.asciz	"A buffer that the call writes to overlaps another of its buffers.\000\000\000\000\000\000\000\000\000\000\000\000\000\000"

lnoise__static.47:
	.asciz	"This number is not a code of the library.\000\000\000\000\000\000\000\000\000\000\000\000\000\000\000\000\000\000\000\000\000\000\000\000\000\000\000\000\000\000\000\000\000\000\000\000\000\000"

lnoise__static.51:
	.ascii	"psk"

lnoise__static.82:
	.ascii	"  ...\n"

lnoise__static.85:
	.ascii	", "

lnoise__static.88:
	.ascii	"->"

lnoise__static.89:
	.ascii	"<-"

lnoise__static.90:
	.byte	101

lnoise__static.91:
	.byte	115

lnoise__static.92:
	.space	2,101

lnoise__static.93:
	.ascii	"es"

lnoise__static.94:
	.ascii	"se"

lnoise__static.95:
	.space	2,115

lnoise__static.96:
	.ascii	"  ..."

lnoise__static.97:
	.ascii	"Noise_"

lnoise__static.98:
	.ascii	"_25519_ChaChaPoly_SHA256"

	.p2align	2, 0x0
lnoise__static.99:
	.ascii	"\230/\212B\221D7q\317\373\300\265\245\333\265\351[\302V9\361\021\361Y\244\202?\222\325^\034\253\230\252\007\330\001[\203\022\276\2051$\303}\fUt]\276r\376\261\336\200\247\006\334\233t\361\233\301\301i\233\344\206G\276\357\306\235\301\017\314\241\f$o,\351-\252\204tJ\334\251\260\\\332\210\371vRQ>\230m\3061\250\310'\003\260\307\177Y\277\363\013\340\306G\221\247\325Qc\312\006g))\024\205\n\267'8!\033.\374m,M\023\r8STs\ne\273\njv.\311\302\201\205,r\222\241\350\277\242Kf\032\250p\213K\302\243Ql\307\031\350\222\321$\006\231\326\2055\016\364p\240j\020\026\301\244\031\bl7\036LwH'\265\274\2604\263\f\0349J\252\330NO\312\234[\363o.h\356\202\217toc\245x\024x\310\204\b\002\307\214\372\377\276\220\353lP\244\367\243\371\276\362xq\306"

lnoise__static.100:
	.asciz	"\200\000\000\000\000\000\000\000\000\000\000\000\000\000\000\000\000\000\000\000\000\000\000\000\000\000\000\000\000\000\000\000\000\000\000\000\000\000\000\000\000\000\000\000\000\000\000\000\000\000\000\000\000\000\000\000\000\000\000\000\000\000\000"

lnoise__static.101:
	.byte	3

	.section	__DATA,__const
	.p2align	3, 0x0
lnoise__static.102:
	.quad	lnoise__static.102+16
	.asciz	"\001\000\000\000\000\000\000\000\001\000\000\000\000\000\000"

	.section	__TEXT,__const
lnoise__static.103:
	.byte	2

	.p2align	3, 0x0
"l_switch.table.noise_names::text::write::push_token_line.199":
	.quad	1
	.quad	1
	.quad	2
	.quad	2
	.quad	2
	.quad	2
	.quad	3

	.section	__DATA,__const
	.p2align	3, 0x0
"l_switch.table.noise_names::text::write::push_token_line.200":
	.quad	lnoise__static.90
	.quad	lnoise__static.91
	.quad	lnoise__static.92
	.quad	lnoise__static.93
	.quad	lnoise__static.94
	.quad	lnoise__static.95
	.quad	lnoise__static.51

	.section	__TEXT,__const
	.p2align	2, 0x0
"l_switch.table.noise_c::messages::read_next":
	.long	15
	.long	16
	.long	14

	.section	__TEXT,__literal16,16byte_literals
	.p2align	2, 0x0
lnoise__switch.table.noise_cipher_encrypt:
	.long	17
	.long	16
	.long	15
	.long	11

	.section	__TEXT,__const
	.p2align	3, 0x0
lnoise__switch.table.noise_sentence:
	.quad	19
	.quad	68
	.quad	61
	.quad	41
	.quad	50
	.quad	47
	.quad	55
	.quad	55
	.quad	36
	.quad	41
	.quad	29
	.quad	36
	.quad	42
	.quad	67
	.quad	59
	.quad	30
	.quad	65
	.quad	62
	.quad	40
	.quad	40
	.quad	66
	.quad	41
	.quad	46
	.quad	54
	.quad	67
	.quad	34
	.quad	64
	.quad	38
	.quad	45
	.quad	48
	.quad	62
	.quad	62
	.quad	34
	.quad	61
	.quad	41
	.quad	46
	.quad	60
	.quad	61
	.quad	50
	.quad	38
	.quad	54
	.quad	57
	.quad	26
	.quad	39
	.quad	43
	.quad	65

	.p2align	2, 0x0
lnoise__switch.table.noise_sentence.201.rel:
	.long	lnoise__static.4-lnoise__switch.table.noise_sentence.201.rel
	.long	lnoise__static.5-lnoise__switch.table.noise_sentence.201.rel
	.long	lnoise__static.6-lnoise__switch.table.noise_sentence.201.rel
	.long	lnoise__static.47-lnoise__switch.table.noise_sentence.201.rel
	.long	lnoise__static.7-lnoise__switch.table.noise_sentence.201.rel
	.long	lnoise__static.8-lnoise__switch.table.noise_sentence.201.rel
	.long	lnoise__static.9-lnoise__switch.table.noise_sentence.201.rel
	.long	lnoise__static.10-lnoise__switch.table.noise_sentence.201.rel
	.long	lnoise__static.11-lnoise__switch.table.noise_sentence.201.rel
	.long	lnoise__static.47-lnoise__switch.table.noise_sentence.201.rel
	.long	lnoise__static.12-lnoise__switch.table.noise_sentence.201.rel
	.long	lnoise__static.13-lnoise__switch.table.noise_sentence.201.rel
	.long	lnoise__static.14-lnoise__switch.table.noise_sentence.201.rel
	.long	lnoise__static.15-lnoise__switch.table.noise_sentence.201.rel
	.long	lnoise__static.16-lnoise__switch.table.noise_sentence.201.rel
	.long	lnoise__static.17-lnoise__switch.table.noise_sentence.201.rel
	.long	lnoise__static.18-lnoise__switch.table.noise_sentence.201.rel
	.long	lnoise__static.19-lnoise__switch.table.noise_sentence.201.rel
	.long	lnoise__static.20-lnoise__switch.table.noise_sentence.201.rel
	.long	lnoise__static.21-lnoise__switch.table.noise_sentence.201.rel
	.long	lnoise__static.22-lnoise__switch.table.noise_sentence.201.rel
	.long	lnoise__static.47-lnoise__switch.table.noise_sentence.201.rel
	.long	lnoise__static.23-lnoise__switch.table.noise_sentence.201.rel
	.long	lnoise__static.24-lnoise__switch.table.noise_sentence.201.rel
	.long	lnoise__static.25-lnoise__switch.table.noise_sentence.201.rel
	.long	lnoise__static.26-lnoise__switch.table.noise_sentence.201.rel
	.long	lnoise__static.27-lnoise__switch.table.noise_sentence.201.rel
	.long	lnoise__static.28-lnoise__switch.table.noise_sentence.201.rel
	.long	lnoise__static.29-lnoise__switch.table.noise_sentence.201.rel
	.long	lnoise__static.30-lnoise__switch.table.noise_sentence.201.rel
	.long	lnoise__static.31-lnoise__switch.table.noise_sentence.201.rel
	.long	lnoise__static.32-lnoise__switch.table.noise_sentence.201.rel
	.long	lnoise__static.33-lnoise__switch.table.noise_sentence.201.rel
	.long	lnoise__static.34-lnoise__switch.table.noise_sentence.201.rel
	.long	lnoise__static.35-lnoise__switch.table.noise_sentence.201.rel
	.long	lnoise__static.36-lnoise__switch.table.noise_sentence.201.rel
	.long	lnoise__static.37-lnoise__switch.table.noise_sentence.201.rel
	.long	lnoise__static.38-lnoise__switch.table.noise_sentence.201.rel
	.long	lnoise__static.39-lnoise__switch.table.noise_sentence.201.rel
	.long	lnoise__static.40-lnoise__switch.table.noise_sentence.201.rel
	.long	lnoise__static.41-lnoise__switch.table.noise_sentence.201.rel
	.long	lnoise__static.42-lnoise__switch.table.noise_sentence.201.rel
	.long	lnoise__static.43-lnoise__switch.table.noise_sentence.201.rel
	.long	lnoise__static.44-lnoise__switch.table.noise_sentence.201.rel
	.long	lnoise__static.45-lnoise__switch.table.noise_sentence.201.rel
	.long	lnoise__static.46-lnoise__switch.table.noise_sentence.201.rel

	.section	__TEXT,__literal16,16byte_literals
	.p2align	2, 0x0
lnoise__switch.table.noise_stream_read:
	.long	15
	.long	16
	.long	17
	.long	22

	.section	__TEXT,__const
	.p2align	3, 0x0
lnoise__switch.table.noise_datagram_open.203:
	.quad	64
	.quad	256
	.quad	1024

	.p2align	3, 0x0
lnoise__switch.table.noise_datagram_open.205:
	.quad	2
	.quad	5
	.quad	17

	.p2align	2, 0x0
lnoise__switch.table.noise_finish_datagrams:
	.long	64
	.long	256
	.long	1024

.subsections_via_symbols
