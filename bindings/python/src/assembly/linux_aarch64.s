	.file	"rattle"
	.section	".text.noise_state::cipher::CipherState::decrypt","ax",@progbits
	.p2align	2
	.type	"noise_state::cipher::CipherState::decrypt",@function
"noise_state::cipher::CipherState::decrypt":
	.cfi_startproc
	ldrb	w8, [x1]
	cmp	w8, #1
	b.ne	.Lnoise_BB0_2
	ldr	x9, [x1, #40]
	cmn	x9, #1
	b.eq	.Lnoise_BB0_10
.Lnoise_BB0_2:
	lsr	x9, x5, #16
	cbz	x9, .Lnoise_BB0_4
	mov	w8, #3
	mov	w9, #1
	strb	w8, [x0, #1]
	strb	w9, [x0]
	str	xzr, [x0, #8]
	ret
.Lnoise_BB0_4:
	cmp	x5, #15
	b.hi	.Lnoise_BB0_7
	cmp	w8, #1
	b.ne	.Lnoise_BB0_7
	mov	w8, #2
	mov	w9, #1
	strb	w8, [x0, #1]
	strb	w9, [x0]
	str	xzr, [x0, #8]
	ret
.Lnoise_BB0_7:
	cmp	w8, #1
	b.ne	.Lnoise_BB0_11
	sub	sp, sp, #464
	stp	x29, x30, [sp, #368]
	str	x28, [sp, #384]
	stp	x26, x25, [sp, #400]
	stp	x24, x23, [sp, #416]
	stp	x22, x21, [sp, #432]
	stp	x20, x19, [sp, #448]
	add	x29, sp, #368
	.cfi_def_cfa w29, 96
	.cfi_offset w19, -8
	.cfi_offset w20, -16
	.cfi_offset w21, -24
	.cfi_offset w22, -32
	.cfi_offset w23, -40
	.cfi_offset w24, -48
	.cfi_offset w25, -56
	.cfi_offset w26, -64
	.cfi_offset w28, -80
	.cfi_offset w30, -88
	.cfi_offset w29, -96
	movi	v0.2d, #0000000000000000
	sub	x19, x5, #16
	ldr	x8, [x1, #40]
	add	x9, x4, x19
	ldur	q1, [x1, #1]
	add	x10, sp, #48
	ldp	x25, x26, [x9]
	mov	x23, x0
	mov	x24, x1
	mov	w9, #64
	add	x0, sp, #48
	stp	q0, q0, [sp, #96]
	mov	x20, x3
	add	x3, x10, #48
	stp	q0, q0, [sp, #128]
	mov	x21, x2
	mov	x2, x8
	stp	q0, q0, [sp, #160]
	mov	x22, x4
	stp	q0, q0, [sp, #192]
	stp	q0, q0, [sp, #224]
	stp	q0, q0, [sp, #256]
	stp	q0, q0, [sp, #288]
	stp	q0, q0, [sp, #320]
	ldur	q0, [x1, #17]
	mov	x1, xzr
	stp	x8, xzr, [sp, #80]
	stp	q1, q0, [sp, #48]
	str	x9, [sp, #352]
	bl	"rand_chacha::guts::refill4"
	ldp	d0, d1, [sp, #96]
	mov	x0, sp
	ldr	q2, [sp, #112]
	ldr	w8, [sp, #124]
	add	x1, sp, #16
	ldr	x9, [sp, #88]
	mov	x2, x21
	mov	x3, x20
	mov	v0.d[1], v1.d[0]
	mov	s1, v2.s[2]
	str	d2, [sp, #32]
	strb	w8, [sp, #44]
	add	x8, x9, #4
	mov	w9, #16
	mov	x4, x22
	mov	x5, x19
	str	x8, [sp, #88]
	str	x9, [sp, #352]
	mov	x20, x22
	str	q0, [sp, #16]
	mov	b0, v2.b[13]
	str	s1, [sp, #40]
	mov	b1, v2.b[14]
	mov	b2, v2.b[15]
	stur	b0, [sp, #45]
	stur	b1, [sp, #46]
	stur	b2, [sp, #47]
	bl	"noise_aead::authenticator::tag"
	ldp	x9, x8, [sp]
	cmp	x8, x26
	ccmp	x9, x25, #0, eq
	b.ne	.Lnoise_BB0_12
	add	x0, sp, #48
	mov	x1, x20
	mov	x2, x19
	bl	"noise_aead::keystream::apply"
	ldr	x8, [x24, #40]
	add	x8, x8, #1
	str	x8, [x24, #40]
	strh	wzr, [x23]
	str	x19, [x23, #8]
	b	.Lnoise_BB0_13
.Lnoise_BB0_10:
	mov	w9, #1
	strb	wzr, [x0, #1]
	strb	w9, [x0]
	str	xzr, [x0, #8]
	ret
.Lnoise_BB0_11:
	strh	wzr, [x0]
	str	x5, [x0, #8]
	ret
.Lnoise_BB0_12:
	mov	w8, #257
	str	xzr, [x23, #8]
	strh	w8, [x23]
.Lnoise_BB0_13:
	ldp	x20, x19, [sp, #448]
	ldr	x28, [sp, #384]
	ldp	x22, x21, [sp, #432]
	ldp	x24, x23, [sp, #416]
	ldp	x26, x25, [sp, #400]
	ldp	x29, x30, [sp, #368]
	add	sp, sp, #464
	ret
.Lnoise_func_end0:
	.size	"noise_state::cipher::CipherState::decrypt", .Lnoise_func_end0-"noise_state::cipher::CipherState::decrypt"
	.cfi_endproc

	.section	.rodata.cst16,"aM",@progbits,16
	.p2align	4, 0x0
.Lnoise_CPI1_0:
	.xword	2
	.xword	3
.Lnoise_CPI1_1:
	.xword	0
	.xword	1
	.section	".text.rand_chacha::guts::refill4","ax",@progbits
	.p2align	2
	.type	"rand_chacha::guts::refill4",@function
"rand_chacha::guts::refill4":
	.cfi_startproc
	sub	sp, sp, #96
	stp	d15, d14, [sp, #32]
	stp	d13, d12, [sp, #48]
	stp	d11, d10, [sp, #64]
	stp	d9, d8, [sp, #80]
	.cfi_def_cfa_offset 96
	.cfi_offset b8, -8
	.cfi_offset b9, -16
	.cfi_offset b10, -24
	.cfi_offset b11, -32
	.cfi_offset b12, -40
	.cfi_offset b13, -48
	.cfi_offset b14, -56
	.cfi_offset b15, -64
	dup	v1.2d, x1
	adrp	x11, .Lnoise_CPI1_1
	adrp	x13, .Lnoise_CPI1_0
	ldr	q0, [x11, :lo12:.Lnoise_CPI1_1]
	ldr	q4, [x13, :lo12:.Lnoise_CPI1_0]
	add	x9, x0, #12
	mov	x13, x0
	add	x8, x0, #8
	add	x10, x0, #16
	addhn	v3.2s, v1.2d, v0.2d
	add	v5.2d, v1.2d, v4.2d
	add	v20.2d, v1.2d, v0.2d
	ld1r	{ v17.4s }, [x13], #4
	ld1r	{ v16.4s }, [x9]
	mov	w9, #25972
	add	x12, x0, #20
	add	x11, x0, #24
	movk	w9, #27424, lsl #16
	uzp1	v5.4s, v20.4s, v5.4s
	ld1r	{ v19.4s }, [x13]
	addhn2	v3.4s, v1.2d, v4.2d
	dup	v26.4s, w9
	mov	w9, #11570
	ld1r	{ v18.4s }, [x8]
	ld1r	{ v6.4s }, [x10]
	ld1r	{ v7.4s }, [x12]
	ld1r	{ v2.4s }, [x11]
	dup	v4.4s, w2
	movk	w9, #31074, lsl #16
	lsr	x8, x2, #32
	mov	w10, #25710
	dup	v30.4s, w9
	mov	w9, #30821
	add	x14, x0, #28
	movk	w10, #13088, lsl #16
	movk	w9, #24944, lsl #16
	ld1r	{ v21.4s }, [x14]
	dup	v10.4s, w10
	dup	v11.4s, w9
	dup	v20.4s, w8
	mov	v9.16b, v17.16b
	mov	v8.16b, v19.16b
	mov	v31.16b, v18.16b
	mov	v29.16b, v16.16b
	mov	v27.16b, v6.16b
	mov	v28.16b, v7.16b
	mov	v22.16b, v2.16b
	mov	v24.16b, v5.16b
	mov	v25.16b, v3.16b
	mov	v23.16b, v4.16b
	mov	w8, #10
	stp	q20, q21, [sp]
.Lnoise_BB1_1:
	add	v10.4s, v8.4s, v10.4s
	add	v11.4s, v9.4s, v11.4s
	subs	w8, w8, #1
	add	v30.4s, v31.4s, v30.4s
	add	v26.4s, v29.4s, v26.4s
	eor	v25.16b, v25.16b, v10.16b
	eor	v24.16b, v24.16b, v11.16b
	eor	v23.16b, v23.16b, v30.16b
	eor	v20.16b, v20.16b, v26.16b
	rev32	v25.8h, v25.8h
	rev32	v24.8h, v24.8h
	rev32	v23.8h, v23.8h
	rev32	v12.8h, v20.8h
	add	v28.4s, v25.4s, v28.4s
	add	v27.4s, v24.4s, v27.4s
	add	v13.4s, v23.4s, v22.4s
	add	v14.4s, v12.4s, v21.4s
	eor	v20.16b, v28.16b, v8.16b
	eor	v21.16b, v27.16b, v9.16b
	eor	v22.16b, v13.16b, v31.16b
	eor	v29.16b, v14.16b, v29.16b
	shl	v31.4s, v20.4s, #12
	shl	v8.4s, v21.4s, #12
	shl	v9.4s, v22.4s, #12
	shl	v15.4s, v29.4s, #12
	usra	v31.4s, v20.4s, #20
	usra	v8.4s, v21.4s, #20
	usra	v9.4s, v22.4s, #20
	usra	v15.4s, v29.4s, #20
	add	v0.4s, v31.4s, v10.4s
	add	v11.4s, v8.4s, v11.4s
	add	v10.4s, v9.4s, v30.4s
	add	v20.4s, v15.4s, v26.4s
	eor	v22.16b, v0.16b, v25.16b
	eor	v25.16b, v11.16b, v24.16b
	eor	v26.16b, v10.16b, v23.16b
	eor	v30.16b, v20.16b, v12.16b
	shl	v21.4s, v22.4s, #8
	shl	v24.4s, v25.4s, #8
	shl	v23.4s, v26.4s, #8
	shl	v29.4s, v30.4s, #8
	usra	v21.4s, v22.4s, #24
	usra	v24.4s, v25.4s, #24
	usra	v23.4s, v26.4s, #24
	usra	v29.4s, v30.4s, #24
	add	v22.4s, v21.4s, v28.4s
	add	v25.4s, v24.4s, v27.4s
	add	v28.4s, v23.4s, v13.4s
	add	v30.4s, v29.4s, v14.4s
	eor	v26.16b, v22.16b, v31.16b
	eor	v12.16b, v25.16b, v8.16b
	eor	v13.16b, v28.16b, v9.16b
	eor	v14.16b, v30.16b, v15.16b
	shl	v31.4s, v26.4s, #7
	shl	v27.4s, v12.4s, #7
	shl	v8.4s, v13.4s, #7
	shl	v9.4s, v14.4s, #7
	usra	v31.4s, v26.4s, #25
	usra	v27.4s, v12.4s, #25
	usra	v8.4s, v13.4s, #25
	usra	v9.4s, v14.4s, #25
	add	v26.4s, v31.4s, v11.4s
	add	v20.4s, v27.4s, v20.4s
	add	v0.4s, v8.4s, v0.4s
	add	v12.4s, v9.4s, v10.4s
	eor	v29.16b, v26.16b, v29.16b
	eor	v23.16b, v20.16b, v23.16b
	eor	v24.16b, v0.16b, v24.16b
	eor	v21.16b, v12.16b, v21.16b
	rev32	v29.8h, v29.8h
	rev32	v23.8h, v23.8h
	rev32	v24.8h, v24.8h
	rev32	v21.8h, v21.8h
	add	v28.4s, v29.4s, v28.4s
	add	v15.4s, v23.4s, v22.4s
	add	v13.4s, v24.4s, v30.4s
	add	v14.4s, v21.4s, v25.4s
	eor	v22.16b, v28.16b, v31.16b
	eor	v27.16b, v15.16b, v27.16b
	eor	v25.16b, v13.16b, v8.16b
	eor	v30.16b, v14.16b, v9.16b
	shl	v31.4s, v22.4s, #12
	shl	v1.4s, v27.4s, #12
	shl	v8.4s, v25.4s, #12
	shl	v9.4s, v30.4s, #12
	usra	v31.4s, v22.4s, #20
	usra	v1.4s, v27.4s, #20
	usra	v8.4s, v25.4s, #20
	usra	v9.4s, v30.4s, #20
	add	v11.4s, v31.4s, v26.4s
	add	v26.4s, v1.4s, v20.4s
	add	v10.4s, v8.4s, v0.4s
	add	v30.4s, v9.4s, v12.4s
	eor	v0.16b, v11.16b, v29.16b
	eor	v27.16b, v26.16b, v23.16b
	eor	v22.16b, v10.16b, v24.16b
	eor	v21.16b, v30.16b, v21.16b
	shl	v20.4s, v0.4s, #8
	shl	v23.4s, v27.4s, #8
	shl	v24.4s, v22.4s, #8
	shl	v25.4s, v21.4s, #8
	usra	v20.4s, v0.4s, #24
	usra	v23.4s, v27.4s, #24
	usra	v24.4s, v22.4s, #24
	usra	v25.4s, v21.4s, #24
	add	v22.4s, v20.4s, v28.4s
	add	v28.4s, v23.4s, v15.4s
	add	v21.4s, v24.4s, v13.4s
	add	v27.4s, v25.4s, v14.4s
	eor	v0.16b, v22.16b, v31.16b
	eor	v1.16b, v28.16b, v1.16b
	eor	v12.16b, v21.16b, v8.16b
	eor	v13.16b, v27.16b, v9.16b
	shl	v8.4s, v0.4s, #7
	shl	v9.4s, v1.4s, #7
	shl	v31.4s, v12.4s, #7
	shl	v29.4s, v13.4s, #7
	usra	v8.4s, v0.4s, #25
	usra	v9.4s, v1.4s, #25
	usra	v31.4s, v12.4s, #25
	usra	v29.4s, v13.4s, #25
	b.ne	.Lnoise_BB1_1
	mov	w8, #30821
	mov	w9, #25710
	add	v9.4s, v17.4s, v9.4s
	movk	w8, #24944, lsl #16
	movk	w9, #13088, lsl #16
	add	v7.4s, v7.4s, v28.4s
	dup	v12.4s, w8
	mov	w8, #11570
	dup	v13.4s, w9
	movk	w8, #31074, lsl #16
	add	v5.4s, v24.4s, v5.4s
	add	v3.4s, v25.4s, v3.4s
	dup	v17.4s, w8
	mov	w8, #25972
	add	v4.4s, v4.4s, v23.4s
	movk	w8, #27424, lsl #16
	add	v11.4s, v11.4s, v12.4s
	add	v12.4s, v10.4s, v13.4s
	add	v13.4s, v19.4s, v8.4s
	add	v19.4s, v18.4s, v31.4s
	add	v18.4s, v16.4s, v29.4s
	add	v14.4s, v30.4s, v17.4s
	dup	v17.4s, w8
	uzp2	v23.4s, v5.4s, v3.4s
	uzp2	v15.4s, v11.4s, v12.4s
	ldp	q1, q0, [sp]
	zip1	v31.4s, v9.4s, v13.4s
	trn2	v10.4s, v9.4s, v13.4s
	zip1	v8.4s, v11.4s, v12.4s
	add	v29.4s, v26.4s, v17.4s
	add	v26.4s, v6.4s, v27.4s
	uzp2	v27.4s, v9.4s, v13.4s
	zip2	v6.4s, v9.4s, v13.4s
	trn2	v30.4s, v11.4s, v12.4s
	zip2	v17.4s, v11.4s, v12.4s
	ldp	d13, d12, [sp, #48]
	uzp2	v16.4s, v15.4s, v11.4s
	uzp2	v28.4s, v26.4s, v7.4s
	mov	v31.s[2], v19.s[0]
	mov	v10.s[2], v19.s[1]
	uzp2	v25.4s, v27.4s, v9.4s
	zip1	v24.4s, v26.4s, v7.4s
	add	v2.4s, v2.4s, v22.4s
	mov	v6.s[2], v19.s[2]
	zip1	v22.4s, v5.4s, v3.4s
	trn2	v27.4s, v26.4s, v7.4s
	zip2	v7.4s, v26.4s, v7.4s
	add	v0.4s, v0.4s, v21.4s
	mov	v8.s[2], v14.s[0]
	uzp2	v21.4s, v28.4s, v26.4s
	mov	v30.s[2], v14.s[1]
	mov	v17.s[2], v14.s[2]
	mov	v25.s[2], v19.s[3]
	trn2	v19.4s, v5.4s, v3.4s
	zip2	v3.4s, v5.4s, v3.4s
	uzp2	v5.4s, v23.4s, v5.4s
	mov	v16.s[2], v14.s[3]
	mov	v24.s[2], v2.s[0]
	ldp	d15, d14, [sp, #32]
	mov	v22.s[2], v4.s[0]
	mov	v27.s[2], v2.s[1]
	mov	v7.s[2], v2.s[2]
	mov	v21.s[2], v2.s[3]
	mov	v19.s[2], v4.s[1]
	mov	v3.s[2], v4.s[2]
	add	v1.4s, v1.4s, v20.4s
	mov	v5.s[2], v4.s[3]
	mov	v8.s[3], v29.s[0]
	mov	v31.s[3], v18.s[0]
	mov	v30.s[3], v29.s[1]
	mov	v10.s[3], v18.s[1]
	mov	v17.s[3], v29.s[2]
	mov	v16.s[3], v29.s[3]
	mov	v6.s[3], v18.s[2]
	mov	v25.s[3], v18.s[3]
	mov	v24.s[3], v0.s[0]
	mov	v22.s[3], v1.s[0]
	mov	v27.s[3], v0.s[1]
	stp	q8, q31, [x3]
	ldp	d9, d8, [sp, #80]
	stp	q30, q10, [x3, #64]
	ldp	d11, d10, [sp, #64]
	stp	q17, q6, [x3, #128]
	mov	v19.s[3], v1.s[1]
	mov	v7.s[3], v0.s[2]
	stp	q24, q22, [x3, #32]
	mov	v3.s[3], v1.s[2]
	mov	v21.s[3], v0.s[3]
	stp	q16, q25, [x3, #192]
	mov	v5.s[3], v1.s[3]
	stp	q27, q19, [x3, #96]
	stp	q7, q3, [x3, #160]
	stp	q21, q5, [x3, #224]
	add	sp, sp, #96
	ret
.Lnoise_func_end1:
	.size	"rand_chacha::guts::refill4", .Lnoise_func_end1-"rand_chacha::guts::refill4"
	.cfi_endproc

	.section	".text.noise_aead::authenticator::tag","ax",@progbits
	.p2align	2
	.type	"noise_aead::authenticator::tag",@function
"noise_aead::authenticator::tag":
	.cfi_startproc
	sub	sp, sp, #256
	stp	x29, x30, [sp, #160]
	stp	x28, x27, [sp, #176]
	stp	x26, x25, [sp, #192]
	stp	x24, x23, [sp, #208]
	stp	x22, x21, [sp, #224]
	stp	x20, x19, [sp, #240]
	add	x29, sp, #160
	.cfi_def_cfa w29, 96
	.cfi_offset w19, -8
	.cfi_offset w20, -16
	.cfi_offset w21, -24
	.cfi_offset w22, -32
	.cfi_offset w23, -40
	.cfi_offset w24, -48
	.cfi_offset w25, -56
	.cfi_offset w26, -64
	.cfi_offset w27, -72
	.cfi_offset w28, -80
	.cfi_offset w30, -88
	.cfi_offset w29, -96
	ldp	x9, x8, [x1]
	movi	v0.2d, #0000000000000000
	ldr	q1, [x1, #16]
	mov	x19, x0
	add	x0, sp, #16
	mov	x1, x2
	mov	x2, x3
	mov	x20, x5
	and	x9, x9, #0xfffffffffffffff
	and	x8, x8, #0xffffffc0ffffffc
	mov	x21, x4
	and	x9, x9, #0xfffffffc0fffffff
	mov	x22, x3
	stp	q0, q0, [sp, #16]
	stp	x9, x8, [sp, #48]
	stp	q1, q0, [sp, #64]
	str	q0, [sp, #96]
	bl	"noise_poly::Poly1305::update"
	neg	w8, w22
	adrp	x23, .Lnoise_static.0
	add	x23, x23, :lo12:.Lnoise_static.0
	add	x0, sp, #16
	and	x2, x8, #0xf
	mov	x1, x23
	bl	"noise_poly::Poly1305::update"
	add	x0, sp, #16
	mov	x1, x21
	mov	x2, x20
	bl	"noise_poly::Poly1305::update"
	neg	w8, w20
	add	x0, sp, #16
	mov	x1, x23
	and	x2, x8, #0xf
	bl	"noise_poly::Poly1305::update"
	add	x0, sp, #16
	mov	x1, sp
	mov	w2, #16
	stp	x22, x20, [sp]
	bl	"noise_poly::Poly1305::update"
	ldp	q1, q0, [sp, #80]
	ldr	x24, [sp, #32]
	ldp	x25, x23, [sp, #16]
	ldp	x26, x27, [sp, #48]
	stp	q1, q0, [x29, #-48]
	ldp	x22, x21, [sp, #64]
	ldur	x20, [x29, #-32]
	cbz	x20, .Lnoise_BB2_2
	mov	w8, #16
	cmp	x20, #15
	sub	x28, x29, #16
	sub	x8, x8, x20
	add	x0, x28, x20
	mov	w1, wzr
	csel	x2, xzr, x8, hi
	bl	memset
	sub	x0, x29, #16
	sub	x1, x29, #48
	mov	x2, x20
	bl	memcpy
	mov	w8, #1
	strb	w8, [x28, x20]
	add	x11, x27, x27, lsr #2
	ldp	x8, x10, [x29, #-16]
	adds	x8, x8, x25
	adcs	x10, x10, x23
	mul	x12, x8, x26
	cinc	x17, x24, hs
	mul	x14, x10, x11
	umulh	x9, x8, x26
	umulh	x13, x10, x11
	adds	x12, x14, x12
	umulh	x15, x8, x27
	mul	x8, x8, x27
	adc	x9, x13, x9
	umulh	x16, x10, x26
	mul	x10, x10, x26
	mul	x11, x17, x11
	mul	x17, x17, x26
	adds	x8, x8, x10
	adc	x10, x15, x16
	adds	x8, x8, x11
	cinc	x10, x10, hs
	adds	x11, x8, x9
	adc	x10, x17, x10
	lsr	x13, x10, #2
	add	x13, x13, x13, lsl #2
	adds	x25, x13, x12
	adc	x23, x8, x9
	adcs	xzr, x11, xzr
	and	x8, x10, #0x3
	cinc	x24, x8, hs
.Lnoise_BB2_2:
	lsr	x8, x24, #2
	ldp	x28, x27, [sp, #176]
	ldp	x29, x30, [sp, #160]
	add	x8, x8, x8, lsl #2
	add	x8, x8, #5
	cmn	x8, x25
	adcs	xzr, x23, xzr
	cinc	x8, x24, hs
	adds	x9, x25, x22
	lsr	x8, x8, #2
	adc	x10, x23, x21
	ldp	x22, x21, [sp, #224]
	add	x8, x8, x8, lsl #2
	ldp	x24, x23, [sp, #208]
	ldp	x26, x25, [sp, #192]
	adds	x8, x9, x8
	fmov	s0, w8
	lsr	x9, x8, #8
	mov	v0.b[1], w9
	lsr	x9, x8, #16
	mov	v0.b[2], w9
	lsr	x9, x8, #24
	mov	v0.b[3], w9
	lsr	x9, x8, #32
	mov	v0.b[4], w9
	cinc	x9, x10, hs
	extr	x10, x9, x8, #40
	mov	v0.b[5], w10
	extr	x10, x9, x8, #48
	extr	x8, x9, x8, #56
	mov	v0.b[6], w10
	mov	v0.b[7], w8
	lsr	x8, x9, #8
	mov	v0.b[8], w9
	mov	v0.b[9], w8
	lsr	x8, x9, #16
	mov	v0.b[10], w8
	lsr	x8, x9, #24
	mov	v0.b[11], w8
	lsr	x8, x9, #32
	mov	v0.b[12], w8
	lsr	x8, x9, #40
	mov	v0.b[13], w8
	lsr	x8, x9, #48
	mov	v0.b[14], w8
	lsr	x8, x9, #56
	mov	v0.b[15], w8
	str	q0, [x19]
	ldp	x20, x19, [sp, #240]
	add	sp, sp, #256
	ret
.Lnoise_func_end2:
	.size	"noise_aead::authenticator::tag", .Lnoise_func_end2-"noise_aead::authenticator::tag"
	.cfi_endproc

	.section	".text.noise_poly::Poly1305::update","ax",@progbits
	.p2align	2
	.type	"noise_poly::Poly1305::update",@function
"noise_poly::Poly1305::update":
	.cfi_startproc
	stp	x29, x30, [sp, #-48]!
	stp	x22, x21, [sp, #16]
	stp	x20, x19, [sp, #32]
	mov	x29, sp
	.cfi_def_cfa w29, 48
	.cfi_offset w19, -8
	.cfi_offset w20, -16
	.cfi_offset w21, -24
	.cfi_offset w22, -32
	.cfi_offset w30, -40
	.cfi_offset w29, -48
	cbz	x2, .Lnoise_BB3_17
	ldr	x21, [x0, #80]
	cbz	x21, .Lnoise_BB3_20
	mov	w8, #16
	sub	x20, x8, x21
	subs	x19, x2, x20
	b.hs	.Lnoise_BB3_9
	add	x8, x0, x21
	add	x8, x8, #64
	sub	x9, x8, x1
	cmp	x9, x2
	b.hs	.Lnoise_BB3_15
	cmp	x2, #7
	b.ls	.Lnoise_BB3_6
	add	x8, x21, x0
	sub	x8, x8, x1
	add	x8, x8, #64
	cmp	x8, #32
	b.hs	.Lnoise_BB3_21
.Lnoise_BB3_6:
	mov	x8, xzr
.Lnoise_BB3_7:
	add	x9, x8, x21
	add	x10, x9, x0
	sub	x9, x2, x8
	add	x8, x1, x8
	add	x10, x10, #64
.Lnoise_BB3_8:
	ldrb	w11, [x8], #1
	subs	x9, x9, #1
	strb	w11, [x10], #1
	b.ne	.Lnoise_BB3_8
	b	.Lnoise_BB3_16
.Lnoise_BB3_9:
	add	x9, x0, #64
	add	x8, x9, x21
	sub	x10, x8, x1
	cmp	x10, x20
	b.hs	.Lnoise_BB3_18
	cmp	x20, #7
	b.ls	.Lnoise_BB3_12
	add	x8, x21, x0
	sub	x8, x8, x1
	add	x8, x8, #64
	cmp	x8, #32
	b.hs	.Lnoise_BB3_23
.Lnoise_BB3_12:
	mov	x8, xzr
.Lnoise_BB3_13:
	add	x10, x8, x21
	add	x8, x1, x8
.Lnoise_BB3_14:
	ldrb	w11, [x8], #1
	strb	w11, [x9, x10]
	add	x10, x10, #1
	cmp	x10, #16
	b.ne	.Lnoise_BB3_14
	b	.Lnoise_BB3_19
.Lnoise_BB3_15:
	mov	x20, x0
	mov	x0, x8
	mov	x19, x2
	bl	memmove
	mov	x2, x19
	mov	x0, x20
.Lnoise_BB3_16:
	add	x8, x21, x2
	str	x8, [x0, #80]
.Lnoise_BB3_17:
	ldp	x20, x19, [sp, #32]
	ldp	x22, x21, [sp, #16]
	ldp	x29, x30, [sp], #48
	ret
.Lnoise_BB3_18:
	mov	x22, x0
	mov	x0, x8
	mov	x2, x20
	mov	x21, x1
	bl	memmove
	mov	x1, x21
	mov	x0, x22
.Lnoise_BB3_19:
	ldp	x8, x12, [x0]
	mov	w2, #1
	ldp	x9, x13, [x0, #64]
	add	x1, x1, x20
	ldr	x18, [x0, #16]
	str	xzr, [x0, #80]
	adds	x8, x8, x9
	ldp	x10, x9, [x0, #32]
	adcs	x12, x12, x13
	adc	x18, x18, x2
	mov	x2, x19
	add	x14, x9, x9, lsr #2
	mul	x15, x8, x10
	mul	x16, x12, x14
	umulh	x11, x8, x10
	umulh	x13, x12, x14
	adds	x15, x16, x15
	umulh	x17, x8, x9
	mul	x8, x8, x9
	adc	x11, x13, x11
	umulh	x9, x12, x10
	mul	x12, x12, x10
	mul	x14, x18, x14
	mul	x10, x18, x10
	adds	x8, x8, x12
	adc	x9, x17, x9
	adds	x8, x8, x14
	cinc	x9, x9, hs
	adds	x12, x8, x11
	adc	x9, x10, x9
	lsr	x10, x9, #2
	and	x9, x9, #0x3
	add	x10, x10, x10, lsl #2
	adds	x10, x10, x15
	adc	x8, x8, x11
	adcs	xzr, x12, xzr
	cinc	x9, x9, hs
	stp	x10, x8, [x0]
	stp	x9, xzr, [x0, #16]
.Lnoise_BB3_20:
	ldp	x20, x19, [sp, #32]
	ldp	x22, x21, [sp, #16]
	ldp	x29, x30, [sp], #48
	b	"noise_poly::Poly1305::take_aligned"
.Lnoise_BB3_21:
	cmp	x2, #32
	b.hs	.Lnoise_BB3_25
	mov	x8, xzr
	b	.Lnoise_BB3_29
.Lnoise_BB3_23:
	cmp	x20, #32
	b.hs	.Lnoise_BB3_32
	mov	x8, xzr
	b	.Lnoise_BB3_36
.Lnoise_BB3_25:
	add	x11, x21, x0
	and	x9, x2, #0x18
	and	x8, x2, #0xffffffffffffffe0
	add	x10, x1, #16
	add	x11, x11, #80
	and	x12, x2, #0xffffffffffffffe0
.Lnoise_BB3_26:
	ldp	q0, q1, [x10, #-16]
	subs	x12, x12, #32
	add	x10, x10, #32
	stp	q0, q1, [x11, #-16]
	add	x11, x11, #32
	b.ne	.Lnoise_BB3_26
	cmp	x2, x8
	b.eq	.Lnoise_BB3_16
	cbz	x9, .Lnoise_BB3_7
.Lnoise_BB3_29:
	mov	x10, x8
	and	x8, x2, #0xfffffffffffffff8
	add	x9, x10, x21
	add	x11, x9, x0
	sub	x9, x10, x8
	add	x10, x1, x10
	add	x11, x11, #64
.Lnoise_BB3_30:
	ldr	d0, [x10], #8
	adds	x9, x9, #8
	str	d0, [x11], #8
	b.ne	.Lnoise_BB3_30
	cmp	x2, x8
	b.ne	.Lnoise_BB3_7
	b	.Lnoise_BB3_16
.Lnoise_BB3_32:
	add	x12, x21, x0
	and	x10, x20, #0x18
	and	x8, x20, #0xffffffffffffffe0
	add	x11, x1, #16
	add	x12, x12, #80
	and	x13, x20, #0xffffffffffffffe0
.Lnoise_BB3_33:
	ldp	q0, q1, [x11, #-16]
	subs	x13, x13, #32
	add	x11, x11, #32
	stp	q0, q1, [x12, #-16]
	add	x12, x12, #32
	b.ne	.Lnoise_BB3_33
	cmp	x20, x8
	b.eq	.Lnoise_BB3_19
	cbz	x10, .Lnoise_BB3_13
.Lnoise_BB3_36:
	mov	x11, x8
	and	x8, x20, #0xfffffffffffffff8
	add	x10, x11, x21
	add	x12, x10, x0
	sub	x10, x11, x8
	add	x11, x1, x11
	add	x12, x12, #64
.Lnoise_BB3_37:
	ldr	d0, [x11], #8
	adds	x10, x10, #8
	str	d0, [x12], #8
	b.ne	.Lnoise_BB3_37
	cmp	x20, x8
	b.ne	.Lnoise_BB3_13
	b	.Lnoise_BB3_19
.Lnoise_func_end3:
	.size	"noise_poly::Poly1305::update", .Lnoise_func_end3-"noise_poly::Poly1305::update"
	.cfi_endproc

	.section	".text.noise_poly::Poly1305::take_aligned","ax",@progbits
	.p2align	2
	.type	"noise_poly::Poly1305::take_aligned",@function
"noise_poly::Poly1305::take_aligned":
	.cfi_startproc
	cmp	x2, #1023
	b.hi	.Lnoise_BB4_3
	stp	x29, x30, [sp, #-48]!
	str	x21, [sp, #16]
	stp	x20, x19, [sp, #32]
	mov	x29, sp
	.cfi_def_cfa w29, 48
	.cfi_offset w19, -8
	.cfi_offset w20, -16
	.cfi_offset w21, -32
	.cfi_offset w30, -40
	.cfi_offset w29, -48
	ldp	x11, x9, [x0]
	cmp	x2, #16
	ldr	x10, [x0, #16]
	b.hs	.Lnoise_BB4_5
	ldr	x12, [x0, #24]
	b	.Lnoise_BB4_8
.Lnoise_BB4_3:
	lsr	x8, x2, #16
	cbnz	x8, .Lnoise_BB4_15
	b	"noise_poly::Poly1305::take_fours"
.Lnoise_BB4_5:
	ldp	x12, x8, [x0, #32]
	add	x13, x8, x8, lsr #2
.Lnoise_BB4_6:
	ldp	x14, x15, [x1], #16
	mov	w4, #1
	sub	x2, x2, #16
	adds	x11, x14, x11
	adcs	x9, x15, x9
	mul	x16, x11, x12
	adc	x10, x10, x4
	mul	x17, x9, x13
	umulh	x14, x11, x12
	umulh	x15, x9, x13
	adds	x16, x16, x17
	umulh	x18, x11, x8
	mul	x11, x11, x8
	adc	x14, x14, x15
	umulh	x3, x9, x12
	mul	x9, x9, x12
	mul	x4, x10, x13
	mul	x10, x10, x12
	adds	x9, x11, x9
	adc	x11, x18, x3
	adds	x9, x9, x4
	cinc	x11, x11, hs
	adds	x15, x9, x14
	adc	x10, x10, x11
	lsr	x11, x10, #2
	and	x10, x10, #0x3
	add	x11, x11, x11, lsl #2
	adds	x11, x11, x16
	adc	x9, x9, x14
	adcs	xzr, x15, xzr
	cinc	x10, x10, hs
	cmp	x2, #15
	b.hi	.Lnoise_BB4_6
	mov	x12, xzr
.Lnoise_BB4_8:
	ldr	x20, [x0, #80]
	stp	x11, x9, [x0]
	stp	x10, x12, [x0, #16]
	add	x8, x0, x20
	add	x8, x8, #64
	sub	x9, x8, x1
	cmp	x9, x2
	b.hs	.Lnoise_BB4_16
	cmp	x2, #7
	b.ls	.Lnoise_BB4_11
	add	x9, x20, x0
	sub	x9, x9, x1
	add	x9, x9, #64
	cmp	x9, #32
	b.hs	.Lnoise_BB4_17
.Lnoise_BB4_11:
	mov	x9, xzr
.Lnoise_BB4_12:
	add	x8, x9, x20
	add	x10, x8, x0
	sub	x8, x2, x9
	add	x9, x1, x9
	add	x10, x10, #64
.Lnoise_BB4_13:
	ldrb	w11, [x9], #1
	subs	x8, x8, #1
	strb	w11, [x10], #1
	b.ne	.Lnoise_BB4_13
.Lnoise_BB4_14:
	add	x8, x20, x2
	ldp	x20, x19, [sp, #32]
	ldr	x21, [sp, #16]
	str	x8, [x0, #80]
	ldp	x29, x30, [sp], #48
	ret
.Lnoise_BB4_15:
	b	"noise_poly::Poly1305::take_eights"
.Lnoise_BB4_16:
	mov	x21, x0
	mov	x0, x8
	mov	x19, x2
	bl	memmove
	mov	x0, x21
	add	x8, x20, x19
	ldp	x20, x19, [sp, #32]
	ldr	x21, [sp, #16]
	str	x8, [x0, #80]
	ldp	x29, x30, [sp], #48
	ret
.Lnoise_BB4_17:
	and	x9, x2, #0x8
	mov	x10, x1
	and	x11, x2, #0x8
.Lnoise_BB4_18:
	ldr	d0, [x10], #8
	subs	x11, x11, #8
	str	d0, [x8], #8
	b.ne	.Lnoise_BB4_18
	cmp	x2, x9
	b.ne	.Lnoise_BB4_12
	b	.Lnoise_BB4_14
.Lnoise_func_end4:
	.size	"noise_poly::Poly1305::take_aligned", .Lnoise_func_end4-"noise_poly::Poly1305::take_aligned"
	.cfi_endproc

	.section	.rodata.cst16,"aM",@progbits,16
	.p2align	4, 0x0
.Lnoise_CPI5_0:
	.word	67108863
	.word	0
	.word	67108863
	.word	0
.Lnoise_CPI5_1:
	.xword	0
	.xword	-26
	.section	".text.noise_poly::Poly1305::take_fours","ax",@progbits
	.p2align	2
	.type	"noise_poly::Poly1305::take_fours",@function
"noise_poly::Poly1305::take_fours":
	.cfi_startproc
	sub	sp, sp, #384
	stp	d15, d14, [sp, #224]
	stp	d13, d12, [sp, #240]
	stp	d11, d10, [sp, #256]
	stp	d9, d8, [sp, #272]
	stp	x29, x30, [sp, #288]
	stp	x28, x27, [sp, #304]
	stp	x26, x25, [sp, #320]
	stp	x24, x23, [sp, #336]
	stp	x22, x21, [sp, #352]
	stp	x20, x19, [sp, #368]
	add	x29, sp, #288
	.cfi_def_cfa w29, 96
	.cfi_offset w19, -8
	.cfi_offset w20, -16
	.cfi_offset w21, -24
	.cfi_offset w22, -32
	.cfi_offset w23, -40
	.cfi_offset w24, -48
	.cfi_offset w25, -56
	.cfi_offset w26, -64
	.cfi_offset w27, -72
	.cfi_offset w28, -80
	.cfi_offset w30, -88
	.cfi_offset w29, -96
	.cfi_offset b8, -104
	.cfi_offset b9, -112
	.cfi_offset b10, -120
	.cfi_offset b11, -128
	.cfi_offset b12, -136
	.cfi_offset b13, -144
	.cfi_offset b14, -152
	.cfi_offset b15, -160
	ldp	x9, x8, [x0, #32]
	mov	x19, x0
	ldp	q16, q1, [x1]
	movi	v17.2d, #0000000000000000
	movi	v18.2d, #0000000000000000
	movi	v19.2d, #0000000000000000
	movi	v20.2d, #0000000000000000
	extr	x10, x8, x9, #52
	ubfx	x13, x9, #26, #26
	ubfx	x15, x8, #14, #26
	and	w12, w9, #0x3ffffff
	lsr	x11, x8, #40
	zip2	v21.2d, v16.2d, v1.2d
	and	w14, w10, #0x3ffffff
	ubfiz	x16, x12, #1, #32
	mov	v16.d[1], v1.d[0]
	umull	x0, w13, w14
	add	w17, w11, w11, lsl #2
	movi	v10.2d, #0x000000ffffffff
	umaddl	x0, w15, w12, x0
	umull	x10, w16, w13
	shl	v22.2d, v21.2d, #12
	ushr	v25.2d, v21.2d, #14
	umull	x16, w16, w14
	ushr	v23.2d, v16.2d, #26
	umull	x18, w11, w12
	umaddl	x5, w13, w13, x16
	lsl	x16, x0, #1
	usra	v22.2d, v16.2d, #52
	umaddl	x0, w11, w17, x16
	add	w16, w14, w14, lsl #2
	umaddl	x3, w13, w15, x18
	add	w18, w15, w15, lsl #2
	umull	x4, w13, w17
	umaddl	x10, w14, w17, x10
	umaddl	x4, w12, w12, x4
	umaddl	x6, w18, w15, x10
	lsr	x10, x0, #26
	umaddl	x4, w18, w14, x4
	umaddl	x7, w14, w14, x10
	add	w10, w13, w13, lsl #2
	umaddl	x4, w16, w15, x4
	umaddl	x6, w11, w16, x6
	str	w10, [sp, #68]
	umaddl	x4, w11, w10, x4
	add	x21, x7, x3, lsl #1
	and	x7, x0, #0x3ffffff
	umaddl	x3, w15, w17, x5
	umaddl	x3, w11, w18, x3
	lsr	x5, x21, #26
	and	w21, w21, #0x3ffffff
	add	x6, x6, x4, lsr #26
	and	x4, x4, #0x3ffffff
	add	x5, x5, x5, lsl #2
	add	x3, x3, x6, lsr #26
	add	x0, x5, x4
	and	w5, w6, #0x3ffffff
	add	x22, x7, x3, lsr #26
	and	x23, x0, #0x3ffffff
	add	x7, x5, x0, lsr #26
	and	x24, x3, #0x3ffffff
	and	w4, w3, #0x3ffffff
	umull	x6, w23, w23
	and	x25, x22, #0x3ffffff
	umull	x26, w24, w23
	add	x21, x21, x22, lsr #26
	umull	x5, w25, w23
	add	w3, w4, w4, lsl #2
	and	w20, w22, #0x3ffffff
	umaddl	x30, w24, w7, x5
	add	w5, w21, w21, lsl #2
	add	w22, w7, w7, lsl #2
	umull	x28, w23, w7
	lsl	x26, x26, #1
	dup	v5.4s, w7
	umaddl	x27, w25, w3, x6
	add	w6, w20, w20, lsl #2
	dup	v3.4s, w4
	lsl	x30, x30, #1
	umaddl	x26, w7, w7, x26
	dup	v2.4s, w20
	lsl	x28, x28, #1
	umaddl	x30, w5, w21, x30
	dup	v1.4s, w21
	umaddl	x27, w24, w6, x27
	dup	v0.4s, w22
	dup	v4.4s, w3
	umaddl	x28, w25, w6, x28
	dup	v7.4s, w6
	stp	q3, q2, [sp]
	umaddl	x26, w21, w6, x26
	umaddl	x27, w21, w22, x27
	stp	q1, q0, [sp, #32]
	umaddl	x28, w21, w3, x28
	add	x3, x1, #32
	umaddl	x26, w25, w5, x26
	umull	x25, w25, w7
	umaddl	x27, w5, w7, x27
	umaddl	x28, w24, w5, x28
	umaddl	x23, w23, w21, x25
	and	x25, x30, #0x3ffffff
	lsr	x30, x30, #26
	umaddl	x24, w24, w24, x30
	add	x28, x28, x27, lsr #26
	and	x27, x27, #0x3ffffff
	add	x23, x24, x23, lsl #1
	add	x26, x26, x28, lsr #26
	and	w28, w28, #0x3ffffff
	lsr	x10, x23, #26
	add	x30, x25, x26, lsr #26
	and	w26, w26, #0x3ffffff
	and	w24, w23, #0x3ffffff
	add	w25, w26, w26, lsl #2
	add	x10, x10, x10, lsl #2
	and	w18, w30, #0x3ffffff
	add	x24, x24, x30, lsr #26
	stp	w26, w18, [sp, #80]
	add	w23, w18, w18, lsl #2
	add	x10, x10, x27
	stp	w26, w18, [sp, #152]
	stp	w26, w18, [sp, #116]
	stp	w26, w18, [sp, #188]
	and	w18, w10, #0x3ffffff
	add	x10, x28, x10, lsr #26
	stp	w18, w10, [sp, #72]
	add	w27, w10, w10, lsl #2
	stp	w18, w10, [sp, #108]
	stp	w18, w10, [sp, #144]
	stp	w18, w10, [sp, #180]
	ldp	x26, x10, [x19]
	stp	w27, w25, [sp, #164]
	mov	w18, #67108863
	stp	w27, w25, [sp, #92]
	dup	v24.2d, x18
	ldur	w18, [x19, #13]
	stp	w27, w25, [sp, #128]
	extr	x28, x10, x26, #52
	ubfx	x10, x10, #14, #26
	stp	w27, w25, [sp, #200]
	and	x27, x26, #0x3ffffff
	ubfx	x25, x26, #26, #26
	mov	w26, #16777216
	and	x28, x28, #0x3ffffff
	mov	v17.d[0], x10
	dup	v27.2d, x26
	add	x10, x18, x26
	mov	w18, #2147483647
	mov	v18.d[0], x27
	mov	v19.d[0], x25
	mov	v20.d[0], x28
	dup	v8.2d, x18
	mov	w18, #536870911
	and	v26.16b, v16.16b, v24.16b
	mov	v27.d[0], x10
	and	w10, w0, #0x3ffffff
	and	v23.16b, v23.16b, v24.16b
	dup	v6.4s, w10
	and	v22.16b, v22.16b, v24.16b
	dup	v16.4s, w5
	and	v25.16b, v25.16b, v24.16b
	dup	v9.2d, x18
	add	v31.2d, v26.2d, v18.2d
	add	v28.2d, v23.2d, v19.2d
	and	v23.16b, v3.16b, v24.16b
	add	w10, w24, w24, lsl #2
	add	v30.2d, v22.2d, v20.2d
	usra	v27.2d, v21.2d, #40
	and	v18.16b, v16.16b, v8.16b
	add	v29.2d, v25.2d, v17.2d
	and	v17.16b, v6.16b, v24.16b
	and	v19.16b, v7.16b, v9.16b
	and	v20.16b, v4.16b, v9.16b
	and	v21.16b, v0.16b, v8.16b
	and	v22.16b, v5.16b, v10.16b
	and	v24.16b, v2.16b, v24.16b
	and	v25.16b, v1.16b, v10.16b
	add	x0, x2, #32
	str	w24, [sp, #88]
	str	w24, [sp, #160]
	stp	w23, w10, [sp, #100]
	str	w24, [sp, #124]
	str	w24, [sp, #196]
	stp	w23, w10, [sp, #136]
	stp	w23, w10, [sp, #172]
	stp	w23, w10, [sp, #208]
.Lnoise_BB5_1:
	mov	w10, #67108863
	usra	v28.2d, v31.2d, #26
	usra	v27.2d, v29.2d, #26
	dup	v26.2d, x10
	mov	x1, x0
	sub	x0, x0, #64
	ubfx	x10, x0, #6, #2
	mov	w18, #36
	add	x2, sp, #72
	usra	v30.2d, v28.2d, #26
	ushr	v8.2d, v27.2d, #26
	bic	v28.4s, #252, lsl #24
	and	v29.16b, v29.16b, v26.16b
	and	v31.16b, v31.16b, v26.16b
	umaddl	x10, w10, w18, x2
	shl	v8.2d, v8.2d, #2
	usra	v29.2d, v30.2d, #26
	usra	v31.2d, v27.2d, #26
	bic	v27.4s, #252, lsl #24
	bic	v30.4s, #252, lsl #24
	add	x20, x10, #8
	add	x6, x10, #12
	add	x2, x10, #16
	add	x18, x10, #20
	add	x7, x10, #24
	ushr	v9.2d, v29.2d, #26
	add	v8.2d, v31.2d, v8.2d
	bic	v29.4s, #252, lsl #24
	ext	v11.16b, v30.16b, v30.16b, #8
	add	x4, x10, #28
	add	x5, x10, #32
	ld1r	{ v10.2s }, [x10], #4
	ld1r	{ v1.2s }, [x6]
	add	v27.4s, v27.4s, v9.4s
	ushr	v31.2d, v8.2d, #26
	bic	v8.4s, #252, lsl #24
	ext	v12.16b, v29.16b, v29.16b, #8
	ld1r	{ v2.2s }, [x7]
	ldp	q15, q0, [x3]
	ext	v9.16b, v27.16b, v27.16b, #8
	add	v13.4s, v28.4s, v31.4s
	zip1	v28.2s, v30.2s, v11.2s
	ld1r	{ v11.2s }, [x10]
	mov	w10, #16777216
	zip1	v30.2s, v29.2s, v12.2s
	ld1r	{ v12.2s }, [x18]
	zip2	v3.2d, v15.2d, v0.2d
	ext	v14.16b, v13.16b, v13.16b, #8
	mov	v15.d[1], v0.d[0]
	ld1r	{ v0.2s }, [x2]
	zip1	v31.2s, v27.2s, v9.2s
	ext	v9.16b, v8.16b, v8.16b, #8
	umull	v29.2d, v11.2s, v28.2s
	umull	v27.2d, v10.2s, v31.2s
	zip1	v9.2s, v8.2s, v9.2s
	zip1	v8.2s, v13.2s, v14.2s
	umull	v12.2d, v12.2s, v31.2s
	ld1r	{ v14.2s }, [x20]
	umlal	v29.2d, v10.2s, v30.2s
	umlal	v27.2d, v11.2s, v30.2s
	umull	v13.2d, v11.2s, v9.2s
	umull	v11.2d, v11.2s, v8.2s
	umlal	v12.2d, v10.2s, v9.2s
	umlal	v29.2d, v14.2s, v8.2s
	umlal	v27.2d, v14.2s, v28.2s
	umlal	v13.2d, v10.2s, v8.2s
	umlal	v11.2d, v10.2s, v28.2s
	umlal	v12.2d, v2.2s, v30.2s
	dup	v10.2d, x10
	umlal	v29.2d, v1.2s, v9.2s
	sub	x10, x1, #128
	add	x1, x3, #64
	cmp	x10, #63
	umlal	v27.2d, v1.2s, v8.2s
	umlal	v13.2d, v2.2s, v31.2s
	ld1r	{ v2.2s }, [x4]
	umlal	v11.2d, v14.2s, v9.2s
	ld1r	{ v14.2s }, [x5]
	xtn	v1.2s, v17.2d
	umlal	v12.2d, v2.2s, v28.2s
	umlal	v27.2d, v0.2s, v9.2s
	mov	v0.16b, v10.16b
	umlal	v13.2d, v2.2s, v30.2s
	umlal	v11.2d, v2.2s, v31.2s
	and	v2.16b, v15.16b, v26.16b
	shl	v9.2d, v3.2d, #12
	umlal	v29.2d, v14.2s, v31.2s
	xtn	v31.2s, v22.2d
	usra	v0.2d, v3.2d, #40
	ushr	v3.2d, v3.2d, #14
	umlal	v12.2d, v14.2s, v8.2s
	xtn	v8.2s, v25.2d
	xtn	v2.2s, v2.2d
	usra	v9.2d, v15.2d, #52
	ushr	v15.2d, v15.2d, #26
	umlal	v13.2d, v14.2s, v28.2s
	xtn	v28.2s, v24.2d
	and	v3.16b, v3.16b, v26.16b
	umlal	v11.2d, v14.2s, v30.2s
	xtn	v30.2s, v23.2d
	and	v9.16b, v9.16b, v26.16b
	xtn	v0.2s, v0.2d
	and	v14.16b, v15.16b, v26.16b
	umlal	v27.2d, v2.2s, v8.2s
	xtn	v15.2s, v21.2d
	xtn	v3.2s, v3.2d
	umlal	v29.2d, v2.2s, v28.2s
	umlal	v12.2d, v2.2s, v1.2s
	xtn	v9.2s, v9.2d
	umlal	v13.2d, v2.2s, v31.2s
	umlal	v11.2d, v2.2s, v30.2s
	xtn	v8.2s, v14.2d
	xtn	v2.2s, v20.2d
	umlal	v27.2d, v0.2s, v1.2s
	umlal	v29.2d, v3.2s, v1.2s
	umlal	v12.2d, v0.2s, v15.2s
	umlal	v11.2d, v9.2s, v1.2s
	umlal	v13.2d, v8.2s, v1.2s
	ldp	q1, q14, [x3, #32]
	umlal	v27.2d, v3.2s, v31.2s
	mov	x3, x1
	umlal	v29.2d, v9.2s, v31.2s
	umlal	v12.2d, v3.2s, v2.2s
	zip2	v15.2d, v1.2d, v14.2d
	umlal	v11.2d, v8.2s, v31.2s
	mov	v1.d[1], v14.d[0]
	umlal	v13.2d, v0.2s, v2.2s
	xtn	v2.2s, v19.2d
	xtn	v31.2s, v18.2d
	umlal	v27.2d, v9.2s, v30.2s
	umlal	v29.2d, v8.2s, v30.2s
	shl	v30.2d, v15.2d, #12
	umlal	v12.2d, v9.2s, v2.2s
	umlal	v13.2d, v3.2s, v2.2s
	umlal	v11.2d, v0.2s, v2.2s
	umlal	v27.2d, v8.2s, v28.2s
	ushr	v2.2d, v1.2d, #26
	usra	v30.2d, v1.2d, #52
	umlal	v29.2d, v0.2s, v31.2s
	ushr	v0.2d, v15.2d, #14
	and	v1.16b, v1.16b, v26.16b
	umlal	v12.2d, v8.2s, v31.2s
	umlal	v13.2d, v9.2s, v31.2s
	umlal	v11.2d, v3.2s, v31.2s
	and	v2.16b, v2.16b, v26.16b
	and	v3.16b, v30.16b, v26.16b
	and	v0.16b, v0.16b, v26.16b
	usra	v27.2d, v15.2d, #40
	add	v31.2d, v12.2d, v1.2d
	add	v28.2d, v13.2d, v2.2d
	add	v30.2d, v11.2d, v3.2d
	add	v29.2d, v29.2d, v0.2d
	add	v27.2d, v27.2d, v10.2d
	b.hi	.Lnoise_BB5_1
	mov	w10, #67108863
	usra	v27.2d, v29.2d, #26
	usra	v28.2d, v31.2d, #26
	dup	v17.2d, x10
	add	w10, w15, w15, lsl #2
	mov	v16.s[2], w17
	ldp	q21, q23, [sp]
	mov	v6.s[2], w12
	ushr	v0.2d, v27.2d, #26
	usra	v30.2d, v28.2d, #26
	mov	v7.s[2], w10
	and	v1.16b, v31.16b, v17.16b
	and	v18.16b, v29.16b, v17.16b
	adrp	x10, .Lnoise_CPI5_0
	mov	v5.s[2], w13
	xtn	v16.2s, v16.2d
	ldp	q24, q26, [sp, #32]
	shl	v0.2d, v0.2d, #2
	and	v2.16b, v30.16b, v17.16b
	usra	v1.2d, v27.2d, #26
	xtn	v7.2s, v7.2d
	sub	x20, x0, #64
	mov	v21.s[2], w14
	usra	v18.2d, v30.2d, #26
	xtn	v6.2s, v6.2d
	xtn	v20.2s, v2.2d
	ldr	q2, [x10, :lo12:.Lnoise_CPI5_0]
	ldr	w10, [sp, #68]
	add	v0.2d, v1.2d, v0.2d
	mov	v4.s[2], w16
	xtn	v3.2s, v5.2d
	mov	v23.s[2], w15
	mov	v24.s[2], w11
	and	v22.16b, v28.16b, v2.16b
	xtn	v21.2s, v21.2d
	and	v2.16b, v27.16b, v2.16b
	mov	v26.s[2], w10
	adrp	x10, .Lnoise_CPI5_1
	and	v1.16b, v0.16b, v17.16b
	umull	v5.2d, v20.2s, v7.2s
	umull	v19.2d, v20.2s, v16.2s
	and	v17.16b, v18.16b, v17.16b
	ushr	v0.2d, v0.2d, #26
	umull	v25.2d, v20.2s, v6.2s
	xtn	v4.2s, v4.2d
	xtn	v23.2s, v23.2d
	xtn	v1.2s, v1.2d
	xtn	v24.2s, v24.2d
	ushr	v18.2d, v18.2d, #26
	xtn	v17.2s, v17.2d
	add	v0.4s, v22.4s, v0.4s
	umull	v22.2d, v20.2s, v3.2s
	umull	v20.2d, v20.2s, v21.2s
	add	v2.4s, v2.4s, v18.4s
	umlal	v5.2d, v1.2s, v6.2s
	umlal	v19.2d, v1.2s, v3.2s
	umlal	v25.2d, v1.2s, v21.2s
	xtn	v0.2s, v0.2d
	umlal	v22.2d, v1.2s, v23.2s
	umlal	v20.2d, v1.2s, v24.2s
	xtn	v1.2s, v26.2d
	xtn	v2.2s, v2.2d
	umlal	v5.2d, v17.2s, v4.2s
	umlal	v19.2d, v17.2s, v7.2s
	umlal	v25.2d, v17.2s, v16.2s
	umlal	v22.2d, v17.2s, v6.2s
	umlal	v20.2d, v17.2s, v3.2s
	umlal	v5.2d, v0.2s, v16.2s
	umlal	v19.2d, v0.2s, v6.2s
	umlal	v25.2d, v0.2s, v3.2s
	umlal	v22.2d, v0.2s, v21.2s
	umlal	v20.2d, v0.2s, v23.2s
	umlal	v5.2d, v2.2s, v1.2s
	umlal	v19.2d, v2.2s, v4.2s
	umlal	v25.2d, v2.2s, v7.2s
	umlal	v22.2d, v2.2s, v16.2s
	umlal	v20.2d, v2.2s, v6.2s
	ldr	q2, [x10, :lo12:.Lnoise_CPI5_1]
	addp	v0.2d, v19.2d, v5.2d
	addp	v3.2d, v20.2d, v22.2d
	zip2	v1.2d, v25.2d, v0.2d
	zip1	v4.2d, v25.2d, v0.2d
	mov	x12, v0.d[1]
	mov	x10, v3.d[1]
	fmov	x11, d3
	ushl	v1.2d, v1.2d, v2.2d
	and	x12, x12, #0x3ffffff
	add	x11, x11, x10, lsr #26
	and	x10, x10, #0x3ffffff
	add	v1.2d, v4.2d, v1.2d
	lsr	x14, x11, #26
	and	w11, w11, #0x3ffffff
	mov	x13, v1.d[1]
	fmov	x15, d1
	add	x14, x14, x14, lsl #2
	add	x12, x14, x12
	and	x14, x12, #0x3ffffff
	add	x15, x15, x13, lsr #26
	and	w13, w13, #0x3ffffff
	add	x12, x13, x12, lsr #26
	add	x10, x10, x15, lsr #26
	orr	x14, x14, x15, lsl #52
	ubfx	x13, x15, #12, #14
	mov	w12, w12
	add	x11, x11, x10, lsr #26
	ubfiz	x10, x10, #14, #26
	adds	x12, x14, x12, lsl #26
	adc	x10, x10, x13
	lsr	w13, w11, #24
	adds	x10, x10, x11, lsl #40
	cinc	x11, x13, hs
	lsr	x13, x11, #2
	add	x13, x13, x13, lsl #2
	adds	x12, x12, x13
	and	x13, x11, #0x3
	adcs	x11, x10, xzr
	cinc	x10, x13, hs
	cmp	x0, #80
	stp	x12, x11, [x19]
	stp	x10, xzr, [x19, #16]
	b.lo	.Lnoise_BB5_5
	add	x13, x8, x8, lsr #2
.Lnoise_BB5_4:
	ldp	x14, x15, [x1], #16
	mov	w2, #1
	sub	x20, x20, #16
	adds	x12, x14, x12
	adcs	x11, x15, x11
	mul	x16, x12, x9
	adc	x10, x10, x2
	mul	x17, x11, x13
	umulh	x14, x12, x9
	umulh	x15, x11, x13
	adds	x16, x16, x17
	umulh	x18, x12, x8
	mul	x12, x12, x8
	adc	x14, x14, x15
	umulh	x0, x11, x9
	mul	x11, x11, x9
	mul	x2, x10, x13
	mul	x10, x10, x9
	adds	x11, x12, x11
	adc	x12, x18, x0
	adds	x11, x11, x2
	cinc	x12, x12, hs
	adds	x15, x11, x14
	adc	x10, x10, x12
	lsr	x12, x10, #2
	and	x10, x10, #0x3
	add	x12, x12, x12, lsl #2
	adds	x12, x12, x16
	adc	x11, x11, x14
	adcs	xzr, x15, xzr
	cinc	x10, x10, hs
	cmp	x20, #15
	b.hi	.Lnoise_BB5_4
.Lnoise_BB5_5:
	ldr	x21, [x19, #80]
	stp	x12, x11, [x19]
	stp	x10, xzr, [x19, #16]
	add	x8, x19, x21
	add	x0, x8, #64
	sub	x8, x0, x1
	cmp	x8, x20
	b.hs	.Lnoise_BB5_11
	cmp	x20, #7
	b.ls	.Lnoise_BB5_8
	add	x8, x21, x19
	sub	x8, x8, x1
	add	x8, x8, #64
	cmp	x8, #32
	b.hs	.Lnoise_BB5_13
.Lnoise_BB5_8:
	mov	x8, xzr
.Lnoise_BB5_9:
	add	x9, x8, x21
	add	x10, x9, x19
	sub	x9, x20, x8
	add	x8, x1, x8
	add	x10, x10, #64
.Lnoise_BB5_10:
	ldrb	w11, [x8], #1
	subs	x9, x9, #1
	strb	w11, [x10], #1
	b.ne	.Lnoise_BB5_10
	b	.Lnoise_BB5_12
.Lnoise_BB5_11:
	mov	x2, x20
	bl	memmove
.Lnoise_BB5_12:
	add	x8, x21, x20
	ldp	x22, x21, [sp, #352]
	str	x8, [x19, #80]
	ldp	x20, x19, [sp, #368]
	ldp	x24, x23, [sp, #336]
	ldp	x26, x25, [sp, #320]
	ldp	x28, x27, [sp, #304]
	ldp	x29, x30, [sp, #288]
	ldp	d9, d8, [sp, #272]
	ldp	d11, d10, [sp, #256]
	ldp	d13, d12, [sp, #240]
	ldp	d15, d14, [sp, #224]
	add	sp, sp, #384
	ret
.Lnoise_BB5_13:
	cmp	x20, #32
	b.hs	.Lnoise_BB5_15
	mov	x8, xzr
	b	.Lnoise_BB5_19
.Lnoise_BB5_15:
	add	x11, x21, x19
	and	x9, x20, #0x18
	and	x8, x20, #0x20
	add	x10, x1, #16
	add	x11, x11, #80
	and	x12, x20, #0x20
.Lnoise_BB5_16:
	ldp	q0, q1, [x10, #-16]
	subs	x12, x12, #32
	add	x10, x10, #32
	stp	q0, q1, [x11, #-16]
	add	x11, x11, #32
	b.ne	.Lnoise_BB5_16
	cmp	x20, x8
	b.eq	.Lnoise_BB5_12
	cbz	x9, .Lnoise_BB5_9
.Lnoise_BB5_19:
	mov	x10, x8
	and	x8, x20, #0x38
	add	x9, x10, x21
	add	x11, x9, x19
	sub	x9, x10, x8
	add	x10, x1, x10
	add	x11, x11, #64
.Lnoise_BB5_20:
	ldr	d0, [x10], #8
	adds	x9, x9, #8
	str	d0, [x11], #8
	b.ne	.Lnoise_BB5_20
	cmp	x20, x8
	b.ne	.Lnoise_BB5_9
	b	.Lnoise_BB5_12
.Lnoise_func_end5:
	.size	"noise_poly::Poly1305::take_fours", .Lnoise_func_end5-"noise_poly::Poly1305::take_fours"
	.cfi_endproc

	.section	".text.noise_poly::Poly1305::take_eights","ax",@progbits
	.p2align	2
	.type	"noise_poly::Poly1305::take_eights",@function
"noise_poly::Poly1305::take_eights":
	.cfi_startproc
	sub	sp, sp, #480
	stp	d15, d14, [sp, #320]
	stp	d13, d12, [sp, #336]
	stp	d11, d10, [sp, #352]
	stp	d9, d8, [sp, #368]
	stp	x29, x30, [sp, #384]
	stp	x28, x27, [sp, #400]
	stp	x26, x25, [sp, #416]
	stp	x24, x23, [sp, #432]
	stp	x22, x21, [sp, #448]
	stp	x20, x19, [sp, #464]
	add	x29, sp, #384
	.cfi_def_cfa w29, 96
	.cfi_offset w19, -8
	.cfi_offset w20, -16
	.cfi_offset w21, -24
	.cfi_offset w22, -32
	.cfi_offset w23, -40
	.cfi_offset w24, -48
	.cfi_offset w25, -56
	.cfi_offset w26, -64
	.cfi_offset w27, -72
	.cfi_offset w28, -80
	.cfi_offset w30, -88
	.cfi_offset w29, -96
	.cfi_offset b8, -104
	.cfi_offset b9, -112
	.cfi_offset b10, -120
	.cfi_offset b11, -128
	.cfi_offset b12, -136
	.cfi_offset b13, -144
	.cfi_offset b14, -152
	.cfi_offset b15, -160
	ldp	x9, x8, [x0, #32]
	mov	x19, x0
	ldp	q3, q0, [x1]
	str	x2, [sp]
	ldp	q2, q5, [x1, #32]
	ubfx	x18, x8, #14, #26
	extr	x12, x8, x9, #52
	and	x10, x9, #0x3ffffff
	ubfx	x17, x9, #26, #26
	lsr	x11, x8, #40
	lsl	x15, x10, #1
	umull	x13, w10, w18
	and	w14, w12, #0x3ffffff
	zip2	v6.2d, v3.2d, v0.2d
	umaddl	x0, w17, w14, x13
	mov	v3.d[1], v0.d[0]
	zip2	v1.2d, v2.2d, v5.2d
	umull	x12, w10, w11
	mov	v2.d[1], v5.d[0]
	umaddl	x3, w17, w18, x12
	add	x12, x11, x11, lsl #2
	lsl	x0, x0, #1
	umull	x13, w15, w14
	ushr	v0.2d, v6.2d, #14
	umaddl	x0, w12, w11, x0
	ushr	v5.2d, v1.2d, #14
	umull	x16, w10, w10
	umaddl	x4, w17, w17, x13
	add	w13, w18, w18, lsl #2
	umull	x5, w12, w14
	lsr	x6, x0, #26
	and	x0, x0, #0x3ffffff
	umaddl	x5, w15, w17, x5
	add	w15, w14, w14, lsl #2
	umaddl	x7, w12, w17, x16
	add	w16, w17, w17, lsl #2
	mov	w17, w17
	umaddl	x7, w13, w14, x7
	umaddl	x5, w13, w18, x5
	str	x16, [sp, #8]
	umaddl	x6, w14, w14, x6
	umaddl	x7, w15, w18, x7
	umaddl	x5, w11, w15, x5
	umaddl	x7, w11, w16, x7
	add	x3, x6, x3, lsl #1
	umaddl	x4, w12, w18, x4
	mov	w18, w18
	umaddl	x4, w11, w13, x4
	lsr	x6, x3, #26
	and	w3, w3, #0x3ffffff
	add	x5, x5, x7, lsr #26
	and	x7, x7, #0x3ffffff
	add	x6, x6, x6, lsl #2
	add	x4, x4, x5, lsr #26
	and	w5, w5, #0x3ffffff
	add	x6, x6, x7
	add	x0, x0, x4, lsr #26
	and	x20, x6, #0x3ffffff
	add	x5, x5, x6, lsr #26
	and	x4, x4, #0x3ffffff
	and	x7, x0, #0x3ffffff
	add	x0, x3, x0, lsr #26
	umull	x22, w20, w5
	umull	x6, w7, w20
	add	x24, x7, x7, lsl #2
	add	x25, x4, x4, lsl #2
	umaddl	x6, w4, w5, x6
	add	w23, w0, w0, lsl #2
	add	w27, w5, w5, lsl #2
	umull	x3, w7, w5
	lsl	x22, x22, #1
	umull	x21, w4, w20
	lsl	x6, x6, #1
	umaddl	x3, w20, w0, x3
	umaddl	x6, w23, w0, x6
	umaddl	x22, w24, w7, x22
	lsl	x21, x21, #1
	umull	x20, w20, w20
	umaddl	x22, w25, w0, x22
	lsr	x26, x6, #26
	and	x6, x6, #0x3ffffff
	umaddl	x20, w7, w25, x20
	umaddl	x22, w4, w23, x22
	umaddl	x26, w4, w4, x26
	umaddl	x4, w24, w4, x20
	umaddl	x4, w0, w27, x4
	umaddl	x21, w5, w5, x21
	umaddl	x20, w23, w5, x4
	add	x5, x26, x3, lsl #1
	mov	w4, #16777216
	umaddl	x0, w24, w0, x21
	dup	v29.2d, x4
	umaddl	x0, w7, w23, x0
	and	w26, w5, #0x3ffffff
	ldur	w23, [x19, #13]
	add	x3, x22, x20, lsr #26
	mov	w22, #67108863
	and	x20, x20, #0x3ffffff
	dup	v4.2d, x22
	mov	v28.16b, v29.16b
	usra	v29.2d, v6.2d, #40
	add	x7, x0, x3, lsr #26
	lsr	x0, x5, #26
	and	w22, w3, #0x3ffffff
	shl	v6.2d, v6.2d, #12
	ldp	x4, x21, [x19]
	add	x24, x6, x7, lsr #26
	add	x6, x0, x0, lsl #2
	and	x5, x7, #0x3ffffff
	fmov	x16, d29
	and	v0.16b, v0.16b, v4.16b
	usra	v28.2d, v1.2d, #40
	add	x20, x6, x20
	and	x0, x24, #0x3ffffff
	add	x24, x26, x24, lsr #26
	and	x6, x20, #0x3ffffff
	add	x22, x22, x20, lsr #26
	add	x3, x0, x0, lsl #2
	umull	x20, w0, w6
	add	x16, x23, x16
	usra	v6.2d, v3.2d, #52
	umaddl	x26, w5, w22, x20
	lsl	x20, x6, #1
	mov	v29.d[0], x16
	umull	x7, w0, w22
	fmov	x16, d0
	ubfx	x25, x21, #14, #26
	umaddl	x28, w6, w24, x7
	add	w7, w24, w24, lsl #2
	and	v31.16b, v6.16b, v4.16b
	lsl	x26, x26, #1
	umull	x27, w3, w0
	and	v30.16b, v5.16b, v4.16b
	umaddl	x26, w7, w24, x26
	add	x16, x16, x25
	shl	v5.2d, v1.2d, #12
	umull	x30, w20, w5
	ushr	v1.2d, v3.2d, #26
	extr	x21, x21, x4, #52
	umaddl	x27, w20, w22, x27
	add	x20, x5, x5, lsl #2
	mov	v0.d[0], x16
	lsr	x23, x26, #26
	umull	x25, w6, w6
	and	x21, x21, #0x3ffffff
	umaddl	x2, w5, w5, x23
	add	w23, w22, w22, lsl #2
	and	v1.16b, v1.16b, v4.16b
	umaddl	x25, w0, w20, x25
	and	v3.16b, v3.16b, v4.16b
	and	x26, x26, #0x3ffffff
	umaddl	x25, w3, w5, x25
	usra	v5.2d, v2.2d, #52
	ushr	v6.2d, v2.2d, #26
	umaddl	x16, w24, w23, x25
	fmov	x25, d31
	add	x2, x2, x28, lsl #1
	umaddl	x30, w22, w22, x30
	and	v14.16b, v2.16b, v4.16b
	umaddl	x30, w3, w24, x30
	lsr	x28, x2, #26
	and	w2, w2, #0x3ffffff
	add	x21, x25, x21
	umaddl	x27, w20, w24, x27
	and	v26.16b, v5.16b, v4.16b
	mov	v31.d[0], x21
	fmov	x21, d1
	umaddl	x25, w0, w7, x30
	ubfx	x30, x4, #26, #26
	umaddl	x27, w5, w7, x27
	and	x4, x4, #0x3ffffff
	umaddl	x16, w7, w22, x16
	mov	w22, w22
	and	v13.16b, v6.16b, v4.16b
	add	x21, x21, x30
	mov	v1.d[0], x21
	fmov	x21, d3
	add	x27, x27, x16, lsr #26
	and	x16, x16, #0x3ffffff
	add	x25, x25, x27, lsr #26
	add	x4, x21, x4
	and	w27, w27, #0x3ffffff
	mov	v3.d[0], x4
	add	x4, x28, x28, lsl #2
	mov	w21, w24
	add	x26, x26, x25, lsr #26
	and	x25, x25, #0x3ffffff
	add	x16, x4, x16
	add	x28, x25, x25, lsl #2
	add	x2, x2, x26, lsr #26
	and	x4, x26, #0x3ffffff
	add	x26, x27, x16, lsr #26
	and	x16, x16, #0x3ffffff
	add	x27, x4, x4, lsl #2
	dup	v2.2d, x16
	add	w24, w2, w2, lsl #2
	add	w30, w26, w26, lsl #2
	mov	w16, w26
	stur	q2, [x29, #-96]
	dup	v2.2d, x24
	stur	q2, [x29, #-112]
	dup	v2.2d, x27
	stur	q2, [x29, #-128]
	dup	v2.2d, x28
	stur	q2, [x29, #-144]
	dup	v2.2d, x30
	stur	q2, [x29, #-160]
	dup	v2.2d, x16
	mov	w16, w2
	stur	q2, [x29, #-176]
	dup	v2.2d, x25
	str	q2, [sp, #192]
	dup	v2.2d, x4
	str	q2, [sp, #176]
	dup	v2.2d, x16
	ldr	x16, [sp]
	str	q2, [sp, #160]
	dup	v2.2d, x6
	str	q2, [sp, #144]
	dup	v2.2d, x7
	str	q2, [sp, #128]
	dup	v2.2d, x3
	str	q2, [sp, #112]
	dup	v2.2d, x20
	sub	x20, x16, #64
	str	q2, [sp, #96]
	dup	v2.2d, x23
	str	q2, [sp, #80]
	dup	v2.2d, x22
	str	q2, [sp, #64]
	dup	v2.2d, x5
	str	q2, [sp, #48]
	dup	v2.2d, x0
	add	x0, x1, #64
	str	q2, [sp, #32]
	dup	v2.2d, x21
	str	q2, [sp, #16]
.Lnoise_BB6_1:
	mov	w16, #67108863
	usra	v28.2d, v30.2d, #26
	usra	v29.2d, v0.2d, #26
	dup	v27.2d, x16
	usra	v13.2d, v14.2d, #26
	mov	w16, #16777216
	usra	v1.2d, v3.2d, #26
	ldp	q23, q12, [x0, #32]
	ushr	v2.2d, v28.2d, #26
	ushr	v5.2d, v29.2d, #26
	sub	x20, x20, #128
	and	v4.16b, v14.16b, v27.16b
	and	v6.16b, v3.16b, v27.16b
	usra	v26.2d, v13.2d, #26
	and	v7.16b, v1.16b, v27.16b
	usra	v31.2d, v1.2d, #26
	add	x1, x0, #128
	shl	v2.2d, v2.2d, #2
	shl	v3.2d, v5.2d, #2
	cmp	x20, #127
	usra	v4.2d, v28.2d, #26
	usra	v6.2d, v29.2d, #26
	and	v1.16b, v30.16b, v27.16b
	and	v0.16b, v0.16b, v27.16b
	ldp	q22, q11, [x0]
	and	v17.16b, v28.16b, v27.16b
	and	v18.16b, v29.16b, v27.16b
	add	v2.2d, v4.2d, v2.2d
	add	v3.2d, v6.2d, v3.2d
	usra	v1.2d, v26.2d, #26
	usra	v0.2d, v31.2d, #26
	and	v4.16b, v13.16b, v27.16b
	and	v5.16b, v2.16b, v27.16b
	and	v6.16b, v3.16b, v27.16b
	usra	v7.2d, v3.2d, #26
	and	v3.16b, v26.16b, v27.16b
	and	v19.16b, v1.16b, v27.16b
	and	v21.16b, v0.16b, v27.16b
	usra	v18.2d, v0.2d, #26
	ldur	q0, [x29, #-112]
	usra	v17.2d, v1.2d, #26
	usra	v4.2d, v2.2d, #26
	and	v2.16b, v31.16b, v27.16b
	xtn	v20.2s, v5.2d
	xtn	v14.2s, v0.2d
	ldur	q0, [x29, #-96]
	xtn	v5.2s, v6.2d
	xtn	v6.2s, v7.2d
	xtn	v7.2s, v3.2d
	xtn	v3.2s, v19.2d
	xtn	v15.2s, v17.2d
	ldp	q19, q17, [sp, #176]
	xtn	v13.2s, v0.2d
	ldur	q0, [x29, #-176]
	xtn	v16.2s, v4.2d
	xtn	v4.2s, v2.2d
	xtn	v1.2s, v21.2d
	xtn	v2.2s, v0.2d
	xtn	v0.2s, v18.2d
	ldr	q18, [sp, #160]
	xtn	v17.2s, v17.2d
	xtn	v21.2s, v19.2d
	umull	v28.2d, v6.2s, v14.2s
	xtn	v18.2s, v18.2d
	umull	v26.2d, v16.2s, v14.2s
	umull	v29.2d, v16.2s, v13.2s
	umull	v30.2d, v6.2s, v13.2s
	zip2	v19.2d, v23.2d, v12.2d
	mov	v23.d[1], v12.d[0]
	umull	v31.2d, v16.2s, v2.2s
	umull	v12.2d, v6.2s, v2.2s
	umull	v8.2d, v16.2s, v17.2s
	umlal	v28.2d, v5.2s, v13.2s
	umull	v10.2d, v20.2s, v18.2s
	umlal	v26.2d, v20.2s, v13.2s
	umlal	v29.2d, v20.2s, v2.2s
	umull	v9.2d, v5.2s, v18.2s
	zip2	v18.2d, v22.2d, v11.2d
	mov	v22.d[1], v11.d[0]
	umlal	v31.2d, v20.2s, v17.2s
	umull	v11.2d, v6.2s, v17.2s
	umlal	v30.2d, v5.2s, v2.2s
	umlal	v8.2d, v20.2s, v21.2s
	ldur	q20, [x29, #-128]
	umlal	v12.2d, v5.2s, v17.2s
	umlal	v10.2d, v16.2s, v21.2s
	umlal	v29.2d, v7.2s, v14.2s
	shl	v25.2d, v19.2d, #12
	xtn	v20.2s, v20.2d
	umlal	v9.2d, v6.2s, v21.2s
	shl	v24.2d, v18.2d, #12
	umlal	v31.2d, v7.2s, v13.2s
	umlal	v11.2d, v5.2s, v21.2s
	umlal	v30.2d, v4.2s, v14.2s
	umlal	v8.2d, v7.2s, v2.2s
	umlal	v12.2d, v4.2s, v13.2s
	ushr	v6.2d, v22.2d, #26
	umlal	v10.2d, v7.2s, v17.2s
	and	v5.16b, v23.16b, v27.16b
	and	v21.16b, v22.16b, v27.16b
	umlal	v26.2d, v7.2s, v20.2s
	ldp	q16, q7, [x29, #-160]
	umlal	v9.2d, v4.2s, v17.2s
	umlal	v28.2d, v4.2s, v20.2s
	umlal	v11.2d, v4.2s, v2.2s
	umlal	v29.2d, v3.2s, v20.2s
	umlal	v31.2d, v3.2s, v14.2s
	umlal	v30.2d, v1.2s, v20.2s
	xtn	v7.2s, v7.2d
	xtn	v17.2s, v16.2d
	umlal	v10.2d, v3.2s, v2.2s
	umlal	v12.2d, v1.2s, v14.2s
	usra	v24.2d, v22.2d, #52
	ushr	v22.2d, v23.2d, #26
	umlal	v9.2d, v1.2s, v2.2s
	and	v6.16b, v6.16b, v27.16b
	umlal	v11.2d, v1.2s, v13.2s
	umlal	v8.2d, v3.2s, v13.2s
	umlal	v31.2d, v15.2s, v20.2s
	usra	v25.2d, v23.2d, #52
	umlal	v26.2d, v3.2s, v7.2s
	umlal	v28.2d, v1.2s, v7.2s
	ldr	q1, [sp, #144]
	umlal	v29.2d, v15.2s, v7.2s
	umlal	v30.2d, v0.2s, v7.2s
	umlal	v12.2d, v0.2s, v20.2s
	ldp	q7, q3, [x0, #96]
	umlal	v9.2d, v0.2s, v13.2s
	umlal	v10.2d, v15.2s, v13.2s
	ldp	q13, q20, [sp, #16]
	umlal	v26.2d, v15.2s, v17.2s
	umlal	v28.2d, v0.2s, v17.2s
	xtn	v16.2s, v5.2d
	ldp	q17, q2, [sp, #48]
	xtn	v21.2s, v21.2d
	dup	v4.2d, x16
	xtn	v1.2s, v1.2d
	xtn	v5.2s, v6.2d
	and	v6.16b, v22.16b, v27.16b
	umlal	v11.2d, v0.2s, v14.2s
	zip2	v0.2d, v7.2d, v3.2d
	xtn	v2.2s, v2.2d
	xtn	v17.2s, v17.2d
	xtn	v20.2s, v20.2d
	xtn	v13.2s, v13.2d
	mov	v7.d[1], v3.d[0]
	ldr	q3, [sp, #128]
	and	v22.16b, v25.16b, v27.16b
	and	v23.16b, v24.16b, v27.16b
	mov	v24.16b, v4.16b
	mov	v25.16b, v4.16b
	xtn	v6.2s, v6.2d
	xtn	v3.2s, v3.2d
	umlal	v28.2d, v21.2s, v1.2s
	umlal	v26.2d, v16.2s, v1.2s
	umlal	v8.2d, v15.2s, v14.2s
	usra	v24.2d, v19.2d, #40
	ushr	v19.2d, v19.2d, #14
	umlal	v30.2d, v21.2s, v2.2s
	usra	v25.2d, v18.2d, #40
	ushr	v18.2d, v18.2d, #14
	umlal	v12.2d, v21.2s, v17.2s
	umlal	v11.2d, v21.2s, v20.2s
	umlal	v9.2d, v21.2s, v13.2s
	ldr	q21, [sp, #112]
	umlal	v10.2d, v16.2s, v13.2s
	umlal	v29.2d, v16.2s, v2.2s
	xtn	v22.2s, v22.2d
	xtn	v23.2s, v23.2d
	xtn	v21.2s, v21.2d
	umlal	v26.2d, v6.2s, v3.2s
	umlal	v28.2d, v5.2s, v3.2s
	and	v18.16b, v18.16b, v27.16b
	and	v19.16b, v19.16b, v27.16b
	umlal	v31.2d, v16.2s, v17.2s
	umlal	v8.2d, v16.2s, v20.2s
	ldr	q16, [sp, #96]
	umlal	v9.2d, v5.2s, v20.2s
	umlal	v10.2d, v6.2s, v20.2s
	umlal	v30.2d, v5.2s, v1.2s
	umlal	v29.2d, v6.2s, v1.2s
	xtn	v13.2s, v18.2d
	xtn	v19.2s, v19.2d
	xtn	v16.2s, v16.2d
	umlal	v28.2d, v23.2s, v21.2s
	umlal	v26.2d, v22.2s, v21.2s
	umlal	v12.2d, v5.2s, v2.2s
	umlal	v11.2d, v5.2s, v17.2s
	ldr	q5, [sp, #80]
	umlal	v31.2d, v6.2s, v2.2s
	umlal	v8.2d, v6.2s, v17.2s
	umlal	v9.2d, v23.2s, v17.2s
	ldp	q6, q20, [x0, #64]
	mov	x0, x1
	umlal	v10.2d, v22.2s, v17.2s
	umlal	v30.2d, v23.2s, v3.2s
	umlal	v29.2d, v22.2s, v3.2s
	xtn	v18.2s, v24.2d
	xtn	v24.2s, v25.2d
	xtn	v5.2s, v5.2d
	umlal	v26.2d, v19.2s, v16.2s
	umlal	v28.2d, v13.2s, v16.2s
	umlal	v12.2d, v23.2s, v1.2s
	umlal	v11.2d, v23.2s, v2.2s
	zip2	v23.2d, v6.2d, v20.2d
	umlal	v31.2d, v22.2s, v1.2s
	umlal	v8.2d, v22.2s, v2.2s
	umlal	v9.2d, v13.2s, v2.2s
	umlal	v10.2d, v19.2s, v2.2s
	umlal	v30.2d, v13.2s, v21.2s
	umlal	v29.2d, v19.2s, v21.2s
	mov	v6.d[1], v20.d[0]
	umlal	v28.2d, v24.2s, v5.2s
	umlal	v26.2d, v18.2s, v5.2s
	shl	v5.2d, v0.2d, #12
	shl	v2.2d, v23.2d, #12
	umlal	v31.2d, v19.2s, v3.2s
	umlal	v12.2d, v13.2s, v3.2s
	umlal	v11.2d, v13.2s, v1.2s
	umlal	v8.2d, v19.2s, v1.2s
	umlal	v9.2d, v24.2s, v1.2s
	umlal	v10.2d, v18.2s, v1.2s
	umlal	v30.2d, v24.2s, v16.2s
	umlal	v29.2d, v18.2s, v16.2s
	and	v16.16b, v7.16b, v27.16b
	usra	v5.2d, v7.2d, #52
	ushr	v7.2d, v7.2d, #26
	ushr	v17.2d, v6.2d, #26
	usra	v2.2d, v6.2d, #52
	ushr	v19.2d, v0.2d, #14
	ushr	v1.2d, v23.2d, #14
	umlal	v12.2d, v24.2s, v21.2s
	umlal	v31.2d, v18.2s, v21.2s
	umlal	v11.2d, v24.2s, v3.2s
	umlal	v8.2d, v18.2s, v3.2s
	and	v3.16b, v6.16b, v27.16b
	and	v6.16b, v17.16b, v27.16b
	and	v7.16b, v7.16b, v27.16b
	and	v2.16b, v2.16b, v27.16b
	and	v5.16b, v5.16b, v27.16b
	and	v17.16b, v1.16b, v27.16b
	and	v18.16b, v19.16b, v27.16b
	usra	v9.2d, v23.2d, #40
	usra	v10.2d, v0.2d, #40
	add	v14.2d, v26.2d, v16.2d
	add	v3.2d, v28.2d, v3.2d
	add	v13.2d, v29.2d, v7.2d
	add	v1.2d, v30.2d, v6.2d
	add	v26.2d, v31.2d, v5.2d
	add	v31.2d, v12.2d, v2.2d
	add	v30.2d, v8.2d, v18.2d
	add	v0.2d, v11.2d, v17.2d
	add	v28.2d, v10.2d, v4.2d
	add	v29.2d, v9.2d, v4.2d
	b.hi	.Lnoise_BB6_1
	mov	w16, #67108863
	usra	v29.2d, v0.2d, #26
	usra	v1.2d, v3.2d, #26
	dup	v2.2d, x16
	ldr	x26, [sp, #8]
	usra	v28.2d, v30.2d, #26
	usra	v13.2d, v14.2d, #26
	ushr	v4.2d, v29.2d, #26
	usra	v31.2d, v1.2d, #26
	and	v5.16b, v3.16b, v2.16b
	and	v0.16b, v0.16b, v2.16b
	usra	v26.2d, v13.2d, #26
	shl	v3.2d, v4.2d, #2
	and	v4.16b, v1.16b, v2.16b
	and	v1.16b, v29.16b, v2.16b
	usra	v5.2d, v29.2d, #26
	usra	v0.2d, v31.2d, #26
	bic	v31.4s, #252, lsl #24
	add	v3.2d, v5.2d, v3.2d
	usra	v1.2d, v0.2d, #26
	bic	v0.4s, #252, lsl #24
	fmov	w6, s31
	usra	v4.2d, v3.2d, #26
	bic	v3.4s, #252, lsl #24
	mov	w7, v0.s[2]
	fmov	w16, s3
	fmov	w5, s4
	mov	w21, v4.s[2]
	mov	w23, v3.s[2]
	umull	x0, w10, w16
	umull	x2, w17, w16
	umull	x3, w14, w16
	umull	x4, w18, w16
	umull	x16, w11, w16
	umaddl	x0, w12, w5, x0
	umaddl	x2, w10, w5, x2
	umaddl	x3, w17, w5, x3
	umaddl	x4, w14, w5, x4
	umaddl	x16, w18, w5, x16
	fmov	w5, s0
	ushr	v0.2d, v28.2d, #26
	umaddl	x0, w13, w6, x0
	umaddl	x2, w12, w6, x2
	umaddl	x3, w10, w6, x3
	shl	v3.2d, v0.2d, #2
	and	v0.16b, v30.16b, v2.16b
	umaddl	x4, w17, w6, x4
	umaddl	x16, w14, w6, x16
	fmov	w6, s1
	umaddl	x4, w10, w5, x4
	usra	v0.2d, v26.2d, #26
	bic	v26.4s, #252, lsl #24
	umaddl	x16, w17, w5, x16
	umaddl	x0, w15, w5, x0
	umaddl	x2, w13, w5, x2
	umaddl	x4, w12, w6, x4
	umaddl	x16, w10, w6, x16
	umaddl	x0, w26, w6, x0
	umaddl	x2, w15, w6, x2
	umaddl	x3, w12, w5, x3
	add	x16, x16, x4, lsr #26
	mov	w5, v31.s[2]
	umaddl	x3, w13, w6, x3
	and	x4, x4, #0x3ffffff
	add	x2, x2, x0, lsr #26
	lsr	x6, x16, #26
	and	x0, x0, #0x3ffffff
	and	w16, w16, #0x3ffffff
	add	x3, x3, x2, lsr #26
	add	x6, x6, x6, lsl #2
	and	w2, w2, #0x3ffffff
	add	w2, w2, w21
	and	w22, w3, #0x3ffffff
	add	x0, x6, x0
	add	x3, x4, x3, lsr #26
	add	w5, w22, w5
	mov	w22, v1.s[2]
	and	w25, w0, #0x3ffffff
	umull	x24, w13, w5
	add	w23, w25, w23
	add	x0, x2, x0, lsr #26
	umull	x25, w17, w5
	and	v1.16b, v14.16b, v2.16b
	umaddl	x2, w10, w23, x24
	and	w24, w3, #0x3ffffff
	umaddl	x4, w18, w23, x25
	add	w16, w16, w22
	add	w7, w24, w7
	umaddl	x4, w14, w0, x4
	add	x16, x16, x3, lsr #26
	usra	v1.2d, v28.2d, #26
	umaddl	x3, w10, w7, x4
	umull	x4, w14, w5
	umaddl	x4, w11, w23, x4
	add	v4.2d, v1.2d, v3.2d
	and	v3.16b, v13.16b, v2.16b
	umull	x6, w12, w5
	and	v1.16b, v28.16b, v2.16b
	umaddl	x4, w18, w0, x4
	umull	x21, w10, w5
	usra	v3.2d, v4.2d, #26
	bic	v4.4s, #252, lsl #24
	umaddl	x5, w17, w23, x6
	usra	v1.2d, v0.2d, #26
	bic	v0.4s, #252, lsl #24
	umaddl	x4, w17, w7, x4
	umaddl	x2, w12, w0, x2
	umaddl	x3, w12, w16, x3
	fmov	w22, s0
	umaddl	x5, w10, w0, x5
	umaddl	x4, w10, w16, x4
	umaddl	x2, w15, w7, x2
	umaddl	x5, w13, w7, x5
	umaddl	x6, w14, w23, x21
	add	x4, x4, x3, lsr #26
	fmov	w21, s26
	umaddl	x2, w26, w16, x2
	fmov	w23, s1
	and	x3, x3, #0x3ffffff
	umaddl	x5, w15, w16, x5
	umaddl	x0, w17, w0, x6
	fmov	w6, s4
	umaddl	x0, w12, w7, x0
	lsr	x7, x4, #26
	and	w4, w4, #0x3ffffff
	umaddl	x16, w13, w16, x0
	add	x5, x5, x2, lsr #26
	fmov	w0, s3
	add	x7, x7, x7, lsl #2
	and	x2, x2, #0x3ffffff
	add	w4, w4, w23
	mov	w23, v1.s[2]
	add	x16, x16, x5, lsr #26
	and	w5, w5, #0x3ffffff
	add	x2, x7, x2
	add	w0, w5, w0
	and	w7, w16, #0x3ffffff
	add	x16, x3, x16, lsr #26
	and	w3, w2, #0x3ffffff
	add	w5, w7, w21
	add	w3, w3, w6
	add	x0, x0, x2, lsr #26
	umull	x2, w13, w5
	and	w6, w16, #0x3ffffff
	add	x16, x4, x16, lsr #26
	umull	x4, w12, w5
	add	w6, w6, w22
	mov	w22, v26.s[2]
	umull	x7, w10, w5
	umull	x21, w17, w5
	umull	x5, w14, w5
	umaddl	x21, w18, w3, x21
	umaddl	x5, w11, w3, x5
	umaddl	x21, w14, w0, x21
	umaddl	x5, w18, w0, x5
	umaddl	x2, w10, w3, x2
	umaddl	x21, w10, w6, x21
	umaddl	x4, w17, w3, x4
	umaddl	x5, w17, w6, x5
	umaddl	x2, w12, w0, x2
	umaddl	x21, w12, w16, x21
	umaddl	x4, w10, w0, x4
	umaddl	x5, w10, w16, x5
	umaddl	x2, w15, w6, x2
	umaddl	x4, w13, w6, x4
	umaddl	x3, w14, w3, x7
	add	x5, x5, x21, lsr #26
	mov	w7, v0.s[2]
	umaddl	x2, w26, w16, x2
	and	x21, x21, #0x3ffffff
	umaddl	x4, w15, w16, x4
	umaddl	x0, w17, w0, x3
	lsr	x3, x5, #26
	and	w5, w5, #0x3ffffff
	umaddl	x0, w12, w6, x0
	mov	w6, v3.s[2]
	add	w5, w5, w23
	umaddl	x16, w13, w16, x0
	add	x4, x4, x2, lsr #26
	add	x3, x3, x3, lsl #2
	mov	w0, v4.s[2]
	and	x2, x2, #0x3ffffff
	add	x2, x3, x2
	add	x16, x16, x4, lsr #26
	and	w4, w4, #0x3ffffff
	add	w4, w4, w6
	and	w3, w16, #0x3ffffff
	add	x16, x21, x16, lsr #26
	and	w21, w2, #0x3ffffff
	add	w3, w3, w22
	add	w0, w21, w0
	add	x2, x4, x2, lsr #26
	and	w6, w16, #0x3ffffff
	add	x16, x5, x16, lsr #26
	umull	x5, w10, w3
	add	w6, w6, w7
	umull	x7, w14, w3
	umaddl	x11, w11, w0, x7
	umull	x7, w17, w3
	umaddl	x7, w18, w0, x7
	umull	x4, w13, w3
	umaddl	x7, w14, w2, x7
	umaddl	x14, w14, w0, x5
	umull	x3, w12, w3
	umaddl	x11, w18, w2, x11
	umaddl	x4, w10, w0, x4
	umaddl	x0, w17, w0, x3
	umaddl	x14, w17, w2, x14
	umaddl	x11, w17, w6, x11
	umaddl	x17, w10, w6, x7
	umaddl	x18, w10, w2, x0
	umaddl	x10, w10, w16, x11
	umaddl	x11, w12, w16, x17
	umaddl	x4, w12, w2, x4
	umaddl	x4, w15, w6, x4
	umaddl	x17, w13, w6, x18
	add	x10, x10, x11, lsr #26
	and	x11, x11, #0x3ffffff
	umaddl	x4, w26, w16, x4
	umaddl	x15, w15, w16, x17
	umaddl	x12, w12, w6, x14
	lsr	x14, x10, #26
	and	w10, w10, #0x3ffffff
	umaddl	x12, w13, w16, x12
	add	x13, x15, x4, lsr #26
	add	x14, x14, x14, lsl #2
	and	x15, x4, #0x3ffffff
	add	x12, x12, x13, lsr #26
	add	x14, x14, x15
	and	w13, w13, #0x3ffffff
	add	x13, x13, x14, lsr #26
	and	x14, x14, #0x3ffffff
	add	x11, x11, x12, lsr #26
	orr	x14, x14, x12, lsl #52
	ubfx	x12, x12, #12, #14
	mov	w13, w13
	add	x10, x10, x11, lsr #26
	ubfiz	x11, x11, #14, #26
	adds	x13, x14, x13, lsl #26
	adc	x11, x11, x12
	lsr	w12, w10, #24
	adds	x10, x11, x10, lsl #40
	cinc	x11, x12, hs
	lsr	x12, x11, #2
	and	x11, x11, #0x3
	add	x12, x12, x12, lsl #2
	adds	x12, x13, x12
	adcs	x10, x10, xzr
	cinc	x11, x11, hs
	cmp	x20, #16
	stp	x12, x10, [x19]
	stp	x11, xzr, [x19, #16]
	b.lo	.Lnoise_BB6_5
	add	x13, x8, x8, lsr #2
.Lnoise_BB6_4:
	ldp	x14, x15, [x1], #16
	mov	w2, #1
	sub	x20, x20, #16
	adds	x12, x14, x12
	adcs	x10, x15, x10
	mul	x16, x12, x9
	adc	x11, x11, x2
	mul	x17, x10, x13
	umulh	x14, x12, x9
	umulh	x15, x10, x13
	adds	x16, x16, x17
	umulh	x18, x12, x8
	mul	x12, x12, x8
	adc	x14, x14, x15
	umulh	x0, x10, x9
	mul	x10, x10, x9
	mul	x2, x11, x13
	mul	x11, x11, x9
	adds	x10, x12, x10
	adc	x12, x18, x0
	adds	x10, x10, x2
	cinc	x12, x12, hs
	adds	x15, x10, x14
	adc	x11, x11, x12
	lsr	x12, x11, #2
	and	x11, x11, #0x3
	add	x12, x12, x12, lsl #2
	adds	x12, x12, x16
	adc	x10, x10, x14
	adcs	xzr, x15, xzr
	cinc	x11, x11, hs
	cmp	x20, #15
	b.hi	.Lnoise_BB6_4
.Lnoise_BB6_5:
	ldr	x21, [x19, #80]
	stp	x12, x10, [x19]
	stp	x11, xzr, [x19, #16]
	add	x8, x19, x21
	add	x0, x8, #64
	sub	x8, x0, x1
	cmp	x8, x20
	b.hs	.Lnoise_BB6_11
	cmp	x20, #7
	b.ls	.Lnoise_BB6_8
	add	x8, x21, x19
	sub	x8, x8, x1
	add	x8, x8, #64
	cmp	x8, #32
	b.hs	.Lnoise_BB6_13
.Lnoise_BB6_8:
	mov	x8, xzr
.Lnoise_BB6_9:
	add	x9, x8, x21
	add	x10, x9, x19
	sub	x9, x20, x8
	add	x8, x1, x8
	add	x10, x10, #64
.Lnoise_BB6_10:
	ldrb	w11, [x8], #1
	subs	x9, x9, #1
	strb	w11, [x10], #1
	b.ne	.Lnoise_BB6_10
	b	.Lnoise_BB6_12
.Lnoise_BB6_11:
	mov	x2, x20
	bl	memmove
.Lnoise_BB6_12:
	add	x8, x21, x20
	ldp	x22, x21, [sp, #448]
	str	x8, [x19, #80]
	ldp	x20, x19, [sp, #464]
	ldp	x24, x23, [sp, #432]
	ldp	x26, x25, [sp, #416]
	ldp	x28, x27, [sp, #400]
	ldp	x29, x30, [sp, #384]
	ldp	d9, d8, [sp, #368]
	ldp	d11, d10, [sp, #352]
	ldp	d13, d12, [sp, #336]
	ldp	d15, d14, [sp, #320]
	add	sp, sp, #480
	ret
.Lnoise_BB6_13:
	and	x8, x20, #0x8
	mov	x9, x1
	and	x10, x20, #0x8
.Lnoise_BB6_14:
	ldr	d0, [x9], #8
	subs	x10, x10, #8
	str	d0, [x0], #8
	b.ne	.Lnoise_BB6_14
	cmp	x20, x8
	b.ne	.Lnoise_BB6_9
	b	.Lnoise_BB6_12
.Lnoise_func_end6:
	.size	"noise_poly::Poly1305::take_eights", .Lnoise_func_end6-"noise_poly::Poly1305::take_eights"
	.cfi_endproc

	.section	.rodata.cst16,"aM",@progbits,16
	.p2align	4, 0x0
.Lnoise_CPI7_0:
	.byte	255
	.byte	255
	.byte	255
	.byte	255
	.byte	255
	.byte	255
	.byte	255
	.byte	255
	.byte	255
	.byte	255
	.byte	255
	.byte	255
	.byte	255
	.byte	0
	.byte	0
	.byte	0
	.section	".text.noise_aead::keystream::apply","ax",@progbits
	.p2align	2
	.type	"noise_aead::keystream::apply",@function
"noise_aead::keystream::apply":
	.cfi_startproc
	sub	sp, sp, #240
	stp	x29, x30, [sp, #144]
	stp	x28, x27, [sp, #160]
	stp	x26, x25, [sp, #176]
	stp	x24, x23, [sp, #192]
	stp	x22, x21, [sp, #208]
	stp	x20, x19, [sp, #224]
	add	x29, sp, #144
	.cfi_def_cfa w29, 96
	.cfi_offset w19, -8
	.cfi_offset w20, -16
	.cfi_offset w21, -24
	.cfi_offset w22, -32
	.cfi_offset w23, -40
	.cfi_offset w24, -48
	.cfi_offset w25, -56
	.cfi_offset w26, -64
	.cfi_offset w27, -72
	.cfi_offset w28, -80
	.cfi_offset w30, -88
	.cfi_offset w29, -96
	lsr	x8, x2, #6
	mov	w9, #3
	mov	x21, x0
	adrp	x22, .Lnoise_CPI7_0
	stp	x1, x2, [sp, #64]
	cmp	x8, #3
	csel	x9, x8, x9, lo
	str	x9, [sp, #56]
	sub	x9, x8, x9
	lsr	x25, x9, #2
	str	x9, [sp, #48]
	cbz	x8, .Lnoise_BB7_49
	ldp	x28, x27, [sp, #56]
	add	x26, x21, #48
.Lnoise_BB7_2:
	ldr	x9, [x21, #304]
	cmp	x9, #64
	b.lo	.Lnoise_BB7_4
	ldp	x2, x1, [x21, #32]
	add	x3, x21, #48
	mov	x0, x21
	bl	"rand_chacha::guts::refill4"
	ldr	x8, [x21, #40]
	ldr	w11, [x21, #48]
	mov	w9, #1
	b	.Lnoise_BB7_6
.Lnoise_BB7_4:
	ldr	w11, [x26, x9, lsl #2]
	add	x8, x9, #1
	cmp	x9, #63
	str	x8, [x21, #304]
	b.ne	.Lnoise_BB7_15
	ldp	x2, x1, [x21, #32]
	add	x3, x21, #48
	mov	x0, x21
	mov	w19, w11
	bl	"rand_chacha::guts::refill4"
	ldr	x8, [x21, #40]
	mov	w11, w19
	mov	x9, xzr
.Lnoise_BB7_6:
	add	x8, x8, #4
	str	x8, [x21, #40]
	add	x8, x26, x9, lsl #2
	add	x9, x9, #3
	ldp	w12, w13, [x8], #8
.Lnoise_BB7_7:
	str	x9, [x21, #304]
	ldr	w14, [x8]
	add	x8, x9, #1
	ldr	w15, [x26, x9, lsl #2]
	str	x8, [x21, #304]
	add	x9, x9, #2
.Lnoise_BB7_8:
	ldr	w16, [x26, x8, lsl #2]
	str	x9, [x21, #304]
	add	x8, x9, #1
	ldr	w17, [x26, x9, lsl #2]
	str	x8, [x21, #304]
	add	x9, x9, #2
.Lnoise_BB7_9:
	ldr	w18, [x26, x8, lsl #2]
	str	x9, [x21, #304]
	add	x8, x9, #1
	ldr	w0, [x26, x9, lsl #2]
	str	x8, [x21, #304]
	add	x9, x9, #2
.Lnoise_BB7_10:
	ldr	w1, [x26, x8, lsl #2]
	str	x9, [x21, #304]
	add	x8, x9, #1
	ldr	w19, [x26, x9, lsl #2]
	str	x8, [x21, #304]
	add	x9, x9, #2
.Lnoise_BB7_11:
	ldr	w20, [x26, x8, lsl #2]
	str	x9, [x21, #304]
	add	x8, x9, #1
	ldr	w24, [x26, x9, lsl #2]
	str	x8, [x21, #304]
	add	x9, x9, #2
.Lnoise_BB7_12:
	ldr	w23, [x26, x8, lsl #2]
	str	x9, [x21, #304]
	add	x8, x9, #1
	ldr	w22, [x26, x9, lsl #2]
.Lnoise_BB7_13:
	str	x8, [x21, #304]
.Lnoise_BB7_14:
	fmov	s0, w24
	ldr	w9, [x26, x8, lsl #2]
	movi	v1.2d, #0000000000000000
	fmov	s2, w11
	fmov	s3, w15
	add	x8, x8, #1
	fmov	s4, w0
	str	x8, [x21, #304]
	subs	x28, x28, #1
	mov	v0.s[1], w23
	ldp	q6, q7, [x27]
	mov	v2.s[1], w12
	mov	v3.s[1], w16
	mov	v4.s[1], w1
	mov	v0.s[2], w22
	adrp	x22, .Lnoise_CPI7_0
	mov	v2.s[2], w13
	mov	v3.s[2], w17
	ldr	q5, [x22, :lo12:.Lnoise_CPI7_0]
	mov	v4.s[2], w19
	mov	v0.s[3], w9
	mov	v2.s[3], w14
	mov	v3.s[3], w18
	mov	v4.s[3], w20
	mov	v1.b[0], v0.b[0]
	eor	v3.16b, v3.16b, v7.16b
	mov	v1.b[1], v0.b[1]
	mov	v1.b[2], v0.b[2]
	mov	v1.b[3], v0.b[3]
	mov	v1.b[4], v0.b[4]
	mov	v1.b[5], v0.b[5]
	mov	v1.b[6], v0.b[6]
	mov	v1.b[7], v0.b[7]
	mov	v1.b[8], v0.b[8]
	mov	v1.b[9], v0.b[9]
	mov	v1.b[10], v0.b[10]
	mov	v1.b[11], v0.b[11]
	mov	v1.b[12], w9
	bit	v0.16b, v1.16b, v5.16b
	eor	v1.16b, v2.16b, v6.16b
	ldp	q2, q5, [x27, #32]
	stp	q1, q3, [x27]
	eor	v2.16b, v4.16b, v2.16b
	eor	v0.16b, v0.16b, v5.16b
	stp	q2, q0, [x27, #32]
	add	x27, x27, #64
	b.ne	.Lnoise_BB7_2
	b	.Lnoise_BB7_49
.Lnoise_BB7_15:
	ldr	w12, [x26, x8, lsl #2]
	add	x8, x9, #2
	cmp	x9, #62
	str	x8, [x21, #304]
	b.lo	.Lnoise_BB7_17
	ldp	x2, x1, [x21, #32]
	add	x3, x21, #48
	mov	x0, x21
	mov	w20, w12
	mov	w19, w11
	bl	"rand_chacha::guts::refill4"
	ldr	x8, [x21, #40]
	ldr	w13, [x21, #48]
	mov	w9, #1
	b	.Lnoise_BB7_19
.Lnoise_BB7_17:
	ldr	w13, [x26, x8, lsl #2]
	add	x10, x9, #3
	cmp	x9, #61
	str	x10, [x21, #304]
	b.ne	.Lnoise_BB7_20
	ldp	x2, x1, [x21, #32]
	add	x3, x21, #48
	mov	x0, x21
	mov	w20, w12
	mov	w19, w11
	mov	w22, w13
	bl	"rand_chacha::guts::refill4"
	ldr	x8, [x21, #40]
	mov	w13, w22
	mov	x9, xzr
.Lnoise_BB7_19:
	add	x8, x8, #4
	str	x8, [x21, #40]
	add	x8, x26, x9, lsl #2
	add	x9, x9, #1
	mov	w11, w19
	mov	w12, w20
	b	.Lnoise_BB7_7
.Lnoise_BB7_20:
	ldr	w14, [x26, x10, lsl #2]
	add	x10, x9, #4
	cmp	x8, #62
	str	x10, [x21, #304]
	b.ne	.Lnoise_BB7_22
	ldp	x2, x1, [x21, #32]
	add	x3, x21, #48
	mov	x0, x21
	mov	w23, w14
	mov	w22, w13
	mov	w20, w12
	mov	w19, w11
	bl	"rand_chacha::guts::refill4"
	ldr	x8, [x21, #40]
	ldr	w15, [x21, #48]
	add	x8, x8, #4
	str	x8, [x21, #40]
	mov	w8, #1
	b	.Lnoise_BB7_24
.Lnoise_BB7_22:
	ldr	w15, [x26, x10, lsl #2]
	add	x8, x9, #5
	cmp	x9, #59
	str	x8, [x21, #304]
	b.lo	.Lnoise_BB7_25
	ldp	x2, x1, [x21, #32]
	add	x3, x21, #48
	mov	x0, x21
	mov	w23, w14
	mov	w22, w13
	mov	w20, w12
	mov	w19, w11
	mov	w24, w15
	bl	"rand_chacha::guts::refill4"
	ldr	x9, [x21, #40]
	mov	w15, w24
	mov	x8, xzr
	add	x9, x9, #4
	str	x9, [x21, #40]
.Lnoise_BB7_24:
	add	x9, x8, #1
	mov	w11, w19
	mov	w12, w20
	mov	w13, w22
	mov	w14, w23
	b	.Lnoise_BB7_8
.Lnoise_BB7_25:
	ldr	w16, [x26, x8, lsl #2]
	add	x8, x9, #6
	cmp	x10, #62
	str	x8, [x21, #304]
	str	w16, [sp, #44]
	b.ne	.Lnoise_BB7_27
	ldp	x2, x1, [x21, #32]
	add	x3, x21, #48
	mov	x0, x21
	mov	w24, w15
	str	w14, [sp, #40]
	mov	w22, w13
	mov	w20, w12
	mov	w19, w11
	bl	"rand_chacha::guts::refill4"
	ldr	x8, [x21, #40]
	ldr	w17, [x21, #48]
	add	x8, x8, #4
	str	x8, [x21, #40]
	mov	w8, #1
	b	.Lnoise_BB7_29
.Lnoise_BB7_27:
	ldr	w17, [x26, x8, lsl #2]
	add	x10, x9, #7
	cmp	x9, #57
	str	x10, [x21, #304]
	b.lo	.Lnoise_BB7_30
	ldp	x2, x1, [x21, #32]
	add	x3, x21, #48
	mov	x0, x21
	mov	w24, w15
	str	w14, [sp, #40]
	mov	w22, w13
	mov	w20, w12
	mov	w19, w11
	mov	w23, w17
	bl	"rand_chacha::guts::refill4"
	ldr	x9, [x21, #40]
	mov	w17, w23
	mov	x8, xzr
	add	x9, x9, #4
	str	x9, [x21, #40]
.Lnoise_BB7_29:
	ldp	w14, w16, [sp, #40]
	add	x9, x8, #1
	mov	w11, w19
	mov	w12, w20
	mov	w13, w22
	mov	w15, w24
	b	.Lnoise_BB7_9
.Lnoise_BB7_30:
	ldr	w18, [x26, x10, lsl #2]
	add	x10, x9, #8
	cmp	x8, #62
	str	x10, [x21, #304]
	stp	w18, w17, [sp, #32]
	b.ne	.Lnoise_BB7_32
	ldp	x2, x1, [x21, #32]
	add	x3, x21, #48
	mov	x0, x21
	mov	w24, w15
	mov	w23, w14
	mov	w22, w13
	mov	w20, w12
	mov	w19, w11
	bl	"rand_chacha::guts::refill4"
	ldr	x8, [x21, #40]
	ldr	w0, [x21, #48]
	add	x8, x8, #4
	str	x8, [x21, #40]
	mov	w8, #1
	b	.Lnoise_BB7_34
.Lnoise_BB7_32:
	ldr	w0, [x26, x10, lsl #2]
	add	x8, x9, #9
	cmp	x9, #55
	str	x8, [x21, #304]
	str	w0, [sp, #28]
	b.lo	.Lnoise_BB7_35
	ldp	x2, x1, [x21, #32]
	add	x3, x21, #48
	mov	x0, x21
	mov	w24, w15
	mov	w23, w14
	mov	w22, w13
	mov	w20, w12
	mov	w19, w11
	bl	"rand_chacha::guts::refill4"
	ldr	x9, [x21, #40]
	ldr	w0, [sp, #28]
	mov	x8, xzr
	add	x9, x9, #4
	str	x9, [x21, #40]
.Lnoise_BB7_34:
	ldp	w18, w17, [sp, #32]
	ldr	w16, [sp, #44]
	add	x9, x8, #1
	mov	w11, w19
	mov	w12, w20
	mov	w13, w22
	mov	w14, w23
	mov	w15, w24
	b	.Lnoise_BB7_10
.Lnoise_BB7_35:
	ldr	w1, [x26, x8, lsl #2]
	add	x8, x9, #10
	cmp	x10, #62
	str	x8, [x21, #304]
	stp	w1, w15, [sp, #20]
	b.ne	.Lnoise_BB7_37
	ldp	x2, x1, [x21, #32]
	add	x3, x21, #48
	mov	x0, x21
	mov	w24, w14
	mov	w23, w13
	mov	w22, w12
	mov	w20, w11
	bl	"rand_chacha::guts::refill4"
	ldr	x8, [x21, #40]
	ldr	w19, [x21, #48]
	add	x8, x8, #4
	str	x8, [x21, #40]
	mov	w8, #1
	b	.Lnoise_BB7_39
.Lnoise_BB7_37:
	ldr	w19, [x26, x8, lsl #2]
	add	x10, x9, #11
	cmp	x9, #53
	str	x10, [x21, #304]
	b.lo	.Lnoise_BB7_40
	ldp	x2, x1, [x21, #32]
	add	x3, x21, #48
	mov	x0, x21
	mov	w24, w14
	mov	w23, w13
	mov	w22, w12
	mov	w20, w11
	bl	"rand_chacha::guts::refill4"
	ldr	x9, [x21, #40]
	mov	x8, xzr
	add	x9, x9, #4
	str	x9, [x21, #40]
.Lnoise_BB7_39:
	ldp	w15, w0, [sp, #24]
	ldp	w18, w17, [sp, #32]
	ldr	w16, [sp, #44]
	ldr	w1, [sp, #20]
	add	x9, x8, #1
	mov	w11, w20
	mov	w12, w22
	mov	w13, w23
	mov	w14, w24
	b	.Lnoise_BB7_11
.Lnoise_BB7_40:
	ldr	w20, [x26, x10, lsl #2]
	add	x10, x9, #12
	cmp	x8, #62
	str	x10, [x21, #304]
	str	w13, [sp, #16]
	str	w14, [sp, #40]
	b.ne	.Lnoise_BB7_42
	ldp	x2, x1, [x21, #32]
	add	x3, x21, #48
	mov	x0, x21
	mov	w23, w12
	mov	w22, w11
	bl	"rand_chacha::guts::refill4"
	ldr	x8, [x21, #40]
	ldr	w24, [x21, #48]
	add	x8, x8, #4
	str	x8, [x21, #40]
	mov	w8, #1
	b	.Lnoise_BB7_44
.Lnoise_BB7_42:
	ldr	w24, [x26, x10, lsl #2]
	add	x8, x9, #13
	cmp	x9, #51
	str	x8, [x21, #304]
	b.lo	.Lnoise_BB7_45
	ldp	x2, x1, [x21, #32]
	add	x3, x21, #48
	mov	x0, x21
	mov	w23, w12
	mov	w22, w11
	bl	"rand_chacha::guts::refill4"
	ldr	x9, [x21, #40]
	mov	x8, xzr
	add	x9, x9, #4
	str	x9, [x21, #40]
.Lnoise_BB7_44:
	ldp	w13, w1, [sp, #16]
	ldp	w14, w16, [sp, #40]
	ldp	w15, w0, [sp, #24]
	ldp	w18, w17, [sp, #32]
	add	x9, x8, #1
	mov	w11, w22
	mov	w12, w23
	b	.Lnoise_BB7_12
.Lnoise_BB7_45:
	ldr	w23, [x26, x8, lsl #2]
	add	x8, x9, #14
	cmp	x10, #62
	str	x8, [x21, #304]
	b.ne	.Lnoise_BB7_47
	ldp	x2, x1, [x21, #32]
	add	x3, x21, #48
	mov	x0, x21
	str	w11, [sp, #12]
	mov	w22, w12
	bl	"rand_chacha::guts::refill4"
	ldr	x8, [x21, #40]
	ldr	w16, [sp, #44]
	mov	w12, w22
	ldp	w1, w15, [sp, #20]
	ldp	w0, w18, [sp, #28]
	ldp	w17, w14, [sp, #36]
	ldp	w11, w13, [sp, #12]
	add	x9, x8, #4
	ldr	w22, [x21, #48]
	mov	w8, #1
	str	x9, [x21, #40]
	b	.Lnoise_BB7_13
.Lnoise_BB7_47:
	ldr	w22, [x26, x8, lsl #2]
	add	x8, x9, #15
	cmp	x9, #49
	str	x8, [x21, #304]
	b.lo	.Lnoise_BB7_14
	ldp	x2, x1, [x21, #32]
	add	x3, x21, #48
	mov	x0, x21
	stp	w12, w11, [sp, #8]
	bl	"rand_chacha::guts::refill4"
	ldp	w1, w15, [sp, #20]
	ldp	w0, w18, [sp, #28]
	ldp	w17, w14, [sp, #36]
	ldp	w11, w13, [sp, #12]
	ldr	x9, [x21, #40]
	ldr	w16, [sp, #44]
	mov	x8, xzr
	ldr	w12, [sp, #8]
	add	x9, x9, #4
	str	x9, [x21, #40]
	b	.Lnoise_BB7_14
.Lnoise_BB7_49:
	cbz	x25, .Lnoise_BB7_52
	ldp	x8, x9, [sp, #56]
	lsl	x8, x8, #6
	add	x8, x8, x9
	add	x19, x8, #128
.Lnoise_BB7_51:
	ldp	x2, x8, [x21, #32]
	movi	v0.2d, #0000000000000000
	ldr	x9, [x21, #304]
	mov	w20, #64
	add	x3, x21, #48
	mov	x0, x21
	str	x20, [x21, #304]
	add	x8, x8, x9, lsr #4
	stp	q0, q0, [x21, #48]
	sub	x1, x8, #4
	stp	q0, q0, [x21, #80]
	str	x1, [x21, #40]
	stp	q0, q0, [x21, #112]
	stp	q0, q0, [x21, #144]
	stp	q0, q0, [x21, #176]
	stp	q0, q0, [x21, #208]
	stp	q0, q0, [x21, #240]
	stp	q0, q0, [x21, #272]
	bl	"rand_chacha::guts::refill4"
	movi	v0.2d, #0000000000000000
	ldr	q6, [x21, #96]
	movi	v2.2d, #0000000000000000
	movi	v3.2d, #0000000000000000
	movi	v30.2d, #0000000000000000
	ldr	q1, [x21, #288]
	ldr	q5, [x21, #160]
	ldr	q4, [x21, #224]
	ldr	x10, [x21, #40]
	str	x20, [x21, #304]
	ldp	q20, q17, [x21, #64]
	mov	v0.b[0], v6.b[0]
	mov	v2.b[0], v5.b[0]
	add	x11, x10, #4
	mov	v30.b[0], v1.b[0]
	mov	v3.b[0], v4.b[0]
	str	x11, [x21, #40]
	ldp	q23, q24, [x19, #-128]
	add	x8, x21, #108
	ldp	q27, q28, [x19, #-64]
	ldr	q19, [x21, #48]
	mov	v0.b[1], v6.b[1]
	mov	v2.b[1], v5.b[1]
	ldr	q21, [x21, #112]
	mov	v30.b[1], v1.b[1]
	mov	v3.b[1], v4.b[1]
	eor	v20.16b, v24.16b, v20.16b
	ldp	q22, q18, [x21, #128]
	eor	v19.16b, v23.16b, v19.16b
	ldp	q25, q26, [x21, #176]
	eor	v21.16b, v27.16b, v21.16b
	mov	v0.b[2], v6.b[2]
	mov	v2.b[2], v5.b[2]
	ldr	q27, [x22, :lo12:.Lnoise_CPI7_0]
	mov	v30.b[2], v1.b[2]
	mov	v3.b[2], v4.b[2]
	add	x9, x21, #172
	ldp	q24, q29, [x19]
	add	x10, x21, #236
	add	x11, x21, #300
	ldr	q16, [x21, #208]
	ldr	q7, [x21, #272]
	mov	v0.b[3], v6.b[3]
	mov	v2.b[3], v5.b[3]
	eor	v22.16b, v28.16b, v22.16b
	mov	v30.b[3], v1.b[3]
	mov	v3.b[3], v4.b[3]
	eor	v26.16b, v29.16b, v26.16b
	ldp	q23, q28, [x21, #240]
	eor	v24.16b, v24.16b, v25.16b
	subs	x25, x25, #1
	mov	v0.b[4], v6.b[4]
	mov	v2.b[4], v5.b[4]
	mov	v30.b[4], v1.b[4]
	mov	v3.b[4], v4.b[4]
	mov	v0.b[5], v6.b[5]
	mov	v2.b[5], v5.b[5]
	mov	v30.b[5], v1.b[5]
	mov	v3.b[5], v4.b[5]
	mov	v0.b[6], v6.b[6]
	mov	v2.b[6], v5.b[6]
	mov	v30.b[6], v1.b[6]
	mov	v3.b[6], v4.b[6]
	mov	v0.b[7], v6.b[7]
	mov	v2.b[7], v5.b[7]
	mov	v30.b[7], v1.b[7]
	mov	v3.b[7], v4.b[7]
	mov	v0.b[8], v6.b[8]
	mov	v2.b[8], v5.b[8]
	mov	v30.b[8], v1.b[8]
	mov	v3.b[8], v4.b[8]
	mov	v0.b[9], v6.b[9]
	mov	v2.b[9], v5.b[9]
	mov	v30.b[9], v1.b[9]
	mov	v3.b[9], v4.b[9]
	mov	v0.b[10], v6.b[10]
	mov	v2.b[10], v5.b[10]
	mov	v30.b[10], v1.b[10]
	mov	v3.b[10], v4.b[10]
	mov	v0.b[11], v6.b[11]
	mov	v2.b[11], v5.b[11]
	mov	v30.b[11], v1.b[11]
	mov	v3.b[11], v4.b[11]
	ld1	{ v0.b }[12], [x8]
	ld1	{ v2.b }[12], [x9]
	ld1	{ v30.b }[12], [x11]
	ld1	{ v3.b }[12], [x10]
	stp	q19, q20, [x19, #-128]
	ldp	q19, q25, [x19, #-96]
	stp	q21, q22, [x19, #-64]
	bif	v0.16b, v6.16b, v27.16b
	ldp	q29, q20, [x19, #64]
	bif	v2.16b, v5.16b, v27.16b
	bif	v3.16b, v4.16b, v27.16b
	bit	v1.16b, v30.16b, v27.16b
	eor	v5.16b, v19.16b, v17.16b
	stp	q24, q26, [x19]
	eor	v23.16b, v29.16b, v23.16b
	ldp	q21, q29, [x19, #-32]
	eor	v6.16b, v20.16b, v28.16b
	eor	v0.16b, v25.16b, v0.16b
	eor	v17.16b, v21.16b, v18.16b
	ldp	q4, q18, [x19, #32]
	stp	q5, q0, [x19, #-96]
	eor	v2.16b, v29.16b, v2.16b
	stp	q23, q6, [x19, #64]
	ldp	q5, q6, [x19, #96]
	eor	v4.16b, v4.16b, v16.16b
	eor	v3.16b, v18.16b, v3.16b
	stp	q17, q2, [x19, #-32]
	eor	v0.16b, v5.16b, v7.16b
	eor	v1.16b, v6.16b, v1.16b
	stp	q4, q3, [x19, #32]
	stp	q0, q1, [x19, #96]
	add	x19, x19, #256
	b.ne	.Lnoise_BB7_51
.Lnoise_BB7_52:
	ldp	x8, x9, [sp, #48]
	and	x8, x8, #0x3fffffffffffffc
	orr	x8, x8, x9
	ldr	x9, [sp, #72]
	lsl	x8, x8, #6
	sub	x9, x9, x8
	lsr	x23, x9, #6
	cbz	x23, .Lnoise_BB7_101
	ldr	x9, [sp, #64]
	add	x25, x21, #48
	add	x24, x9, x8
.Lnoise_BB7_54:
	ldr	x9, [x21, #304]
	cmp	x9, #64
	b.lo	.Lnoise_BB7_56
	ldp	x2, x1, [x21, #32]
	add	x3, x21, #48
	mov	x0, x21
	bl	"rand_chacha::guts::refill4"
	ldr	x8, [x21, #40]
	ldr	w11, [x21, #48]
	mov	w9, #1
	b	.Lnoise_BB7_58
.Lnoise_BB7_56:
	ldr	w11, [x25, x9, lsl #2]
	add	x8, x9, #1
	cmp	x9, #63
	str	x8, [x21, #304]
	b.ne	.Lnoise_BB7_67
	ldp	x2, x1, [x21, #32]
	add	x3, x21, #48
	mov	x0, x21
	mov	w19, w11
	bl	"rand_chacha::guts::refill4"
	ldr	x8, [x21, #40]
	mov	w11, w19
	mov	x9, xzr
.Lnoise_BB7_58:
	add	x8, x8, #4
	str	x8, [x21, #40]
	add	x8, x25, x9, lsl #2
	add	x9, x9, #3
	ldp	w12, w13, [x8], #8
.Lnoise_BB7_59:
	str	x9, [x21, #304]
	ldr	w14, [x8]
	add	x8, x9, #1
	ldr	w15, [x25, x9, lsl #2]
	str	x8, [x21, #304]
	add	x9, x9, #2
.Lnoise_BB7_60:
	ldr	w16, [x25, x8, lsl #2]
	str	x9, [x21, #304]
	add	x8, x9, #1
	ldr	w17, [x25, x9, lsl #2]
	str	x8, [x21, #304]
	add	x9, x9, #2
.Lnoise_BB7_61:
	ldr	w18, [x25, x8, lsl #2]
	str	x9, [x21, #304]
	add	x8, x9, #1
	ldr	w0, [x25, x9, lsl #2]
	str	x8, [x21, #304]
	add	x9, x9, #2
.Lnoise_BB7_62:
	ldr	w27, [x25, x8, lsl #2]
	str	x9, [x21, #304]
	add	x8, x9, #1
	ldr	w22, [x25, x9, lsl #2]
	str	x8, [x21, #304]
	add	x9, x9, #2
.Lnoise_BB7_63:
	ldr	w28, [x25, x8, lsl #2]
	str	x9, [x21, #304]
	add	x8, x9, #1
	ldr	w19, [x25, x9, lsl #2]
	str	x8, [x21, #304]
	add	x9, x9, #2
.Lnoise_BB7_64:
	ldr	w20, [x25, x8, lsl #2]
	str	x9, [x21, #304]
	add	x8, x9, #1
	ldr	w26, [x25, x9, lsl #2]
.Lnoise_BB7_65:
	str	x8, [x21, #304]
.Lnoise_BB7_66:
	fmov	s0, w19
	ldr	w9, [x25, x8, lsl #2]
	movi	v1.2d, #0000000000000000
	fmov	s2, w11
	fmov	s3, w15
	add	x8, x8, #1
	fmov	s4, w0
	str	x8, [x21, #304]
	adrp	x8, .Lnoise_CPI7_0
	mov	v0.s[1], w20
	ldr	q5, [x8, :lo12:.Lnoise_CPI7_0]
	subs	x23, x23, #1
	mov	v2.s[1], w12
	mov	v3.s[1], w16
	mov	v4.s[1], w27
	ldp	q6, q7, [x24]
	mov	v0.s[2], w26
	mov	v2.s[2], w13
	mov	v3.s[2], w17
	mov	v4.s[2], w22
	mov	v0.s[3], w9
	mov	v2.s[3], w14
	mov	v3.s[3], w18
	mov	v4.s[3], w28
	mov	v1.b[0], v0.b[0]
	eor	v3.16b, v3.16b, v7.16b
	mov	v1.b[1], v0.b[1]
	mov	v1.b[2], v0.b[2]
	mov	v1.b[3], v0.b[3]
	mov	v1.b[4], v0.b[4]
	mov	v1.b[5], v0.b[5]
	mov	v1.b[6], v0.b[6]
	mov	v1.b[7], v0.b[7]
	mov	v1.b[8], v0.b[8]
	mov	v1.b[9], v0.b[9]
	mov	v1.b[10], v0.b[10]
	mov	v1.b[11], v0.b[11]
	mov	v1.b[12], w9
	bit	v0.16b, v1.16b, v5.16b
	eor	v1.16b, v2.16b, v6.16b
	ldp	q2, q5, [x24, #32]
	stp	q1, q3, [x24]
	eor	v2.16b, v4.16b, v2.16b
	eor	v0.16b, v0.16b, v5.16b
	stp	q2, q0, [x24, #32]
	add	x24, x24, #64
	b.ne	.Lnoise_BB7_54
	b	.Lnoise_BB7_101
.Lnoise_BB7_67:
	ldr	w12, [x25, x8, lsl #2]
	add	x8, x9, #2
	cmp	x9, #62
	str	x8, [x21, #304]
	b.lo	.Lnoise_BB7_69
	ldp	x2, x1, [x21, #32]
	add	x3, x21, #48
	mov	x0, x21
	mov	w20, w12
	mov	w19, w11
	bl	"rand_chacha::guts::refill4"
	ldr	x8, [x21, #40]
	ldr	w13, [x21, #48]
	mov	w9, #1
	b	.Lnoise_BB7_71
.Lnoise_BB7_69:
	ldr	w13, [x25, x8, lsl #2]
	add	x10, x9, #3
	cmp	x9, #61
	str	x10, [x21, #304]
	b.ne	.Lnoise_BB7_72
	ldp	x2, x1, [x21, #32]
	add	x3, x21, #48
	mov	x0, x21
	mov	w20, w12
	mov	w19, w11
	mov	w22, w13
	bl	"rand_chacha::guts::refill4"
	ldr	x8, [x21, #40]
	mov	w13, w22
	mov	x9, xzr
.Lnoise_BB7_71:
	add	x8, x8, #4
	str	x8, [x21, #40]
	add	x8, x25, x9, lsl #2
	add	x9, x9, #1
	mov	w11, w19
	mov	w12, w20
	b	.Lnoise_BB7_59
.Lnoise_BB7_72:
	ldr	w14, [x25, x10, lsl #2]
	add	x10, x9, #4
	cmp	x8, #62
	str	x10, [x21, #304]
	b.ne	.Lnoise_BB7_74
	ldp	x2, x1, [x21, #32]
	add	x3, x21, #48
	mov	x0, x21
	mov	w26, w14
	mov	w22, w13
	mov	w20, w12
	mov	w19, w11
	bl	"rand_chacha::guts::refill4"
	ldr	x8, [x21, #40]
	ldr	w15, [x21, #48]
	add	x8, x8, #4
	str	x8, [x21, #40]
	mov	w8, #1
	b	.Lnoise_BB7_76
.Lnoise_BB7_74:
	ldr	w15, [x25, x10, lsl #2]
	add	x8, x9, #5
	cmp	x9, #59
	str	x8, [x21, #304]
	b.lo	.Lnoise_BB7_77
	ldp	x2, x1, [x21, #32]
	add	x3, x21, #48
	mov	x0, x21
	mov	w26, w14
	mov	w22, w13
	mov	w20, w12
	mov	w19, w11
	mov	w27, w15
	bl	"rand_chacha::guts::refill4"
	ldr	x9, [x21, #40]
	mov	w15, w27
	mov	x8, xzr
	add	x9, x9, #4
	str	x9, [x21, #40]
.Lnoise_BB7_76:
	add	x9, x8, #1
	mov	w11, w19
	mov	w12, w20
	mov	w13, w22
	mov	w14, w26
	b	.Lnoise_BB7_60
.Lnoise_BB7_77:
	ldr	w16, [x25, x8, lsl #2]
	add	x8, x9, #6
	cmp	x10, #62
	str	x8, [x21, #304]
	b.ne	.Lnoise_BB7_79
	ldp	x2, x1, [x21, #32]
	add	x3, x21, #48
	mov	x0, x21
	str	w16, [sp, #56]
	mov	w27, w15
	mov	w26, w14
	mov	w22, w13
	mov	w20, w12
	mov	w19, w11
	bl	"rand_chacha::guts::refill4"
	ldr	x8, [x21, #40]
	ldr	w17, [x21, #48]
	add	x8, x8, #4
	str	x8, [x21, #40]
	mov	w8, #1
	b	.Lnoise_BB7_81
.Lnoise_BB7_79:
	ldr	w17, [x25, x8, lsl #2]
	add	x10, x9, #7
	cmp	x9, #57
	str	x10, [x21, #304]
	b.lo	.Lnoise_BB7_82
	ldp	x2, x1, [x21, #32]
	add	x3, x21, #48
	mov	x0, x21
	str	w16, [sp, #56]
	mov	w27, w15
	mov	w26, w14
	mov	w22, w13
	mov	w20, w12
	mov	w19, w11
	mov	w28, w17
	bl	"rand_chacha::guts::refill4"
	ldr	x9, [x21, #40]
	mov	w17, w28
	mov	x8, xzr
	add	x9, x9, #4
	str	x9, [x21, #40]
.Lnoise_BB7_81:
	ldr	w16, [sp, #56]
	add	x9, x8, #1
	mov	w11, w19
	mov	w12, w20
	mov	w13, w22
	mov	w14, w26
	mov	w15, w27
	b	.Lnoise_BB7_61
.Lnoise_BB7_82:
	ldr	w18, [x25, x10, lsl #2]
	add	x10, x9, #8
	cmp	x8, #62
	str	x10, [x21, #304]
	stp	w17, w15, [sp, #44]
	str	w18, [sp, #40]
	b.ne	.Lnoise_BB7_84
	ldp	x2, x1, [x21, #32]
	add	x3, x21, #48
	mov	x0, x21
	mov	w28, w16
	mov	w26, w14
	mov	w22, w13
	mov	w20, w12
	mov	w19, w11
	bl	"rand_chacha::guts::refill4"
	ldr	x8, [x21, #40]
	ldr	w0, [x21, #48]
	add	x8, x8, #4
	str	x8, [x21, #40]
	mov	w8, #1
	b	.Lnoise_BB7_86
.Lnoise_BB7_84:
	ldr	w0, [x25, x10, lsl #2]
	add	x8, x9, #9
	cmp	x9, #55
	str	x8, [x21, #304]
	b.lo	.Lnoise_BB7_87
	ldp	x2, x1, [x21, #32]
	add	x3, x21, #48
	mov	w27, w0
	mov	x0, x21
	mov	w28, w16
	mov	w26, w14
	mov	w22, w13
	mov	w20, w12
	mov	w19, w11
	bl	"rand_chacha::guts::refill4"
	ldr	x9, [x21, #40]
	mov	w0, w27
	mov	x8, xzr
	add	x9, x9, #4
	str	x9, [x21, #40]
.Lnoise_BB7_86:
	ldp	w17, w15, [sp, #44]
	ldr	w18, [sp, #40]
	add	x9, x8, #1
	mov	w11, w19
	mov	w12, w20
	mov	w13, w22
	mov	w14, w26
	mov	w16, w28
	b	.Lnoise_BB7_62
.Lnoise_BB7_87:
	ldr	w27, [x25, x8, lsl #2]
	add	x8, x9, #10
	cmp	x10, #62
	str	x8, [x21, #304]
	str	w16, [sp, #56]
	str	w0, [sp, #36]
	b.ne	.Lnoise_BB7_89
	ldp	x2, x1, [x21, #32]
	add	x3, x21, #48
	mov	x0, x21
	mov	w28, w14
	mov	w26, w13
	mov	w20, w12
	mov	w19, w11
	bl	"rand_chacha::guts::refill4"
	ldr	x8, [x21, #40]
	ldr	w22, [x21, #48]
	add	x8, x8, #4
	str	x8, [x21, #40]
	mov	w8, #1
	b	.Lnoise_BB7_91
.Lnoise_BB7_89:
	ldr	w22, [x25, x8, lsl #2]
	add	x10, x9, #11
	cmp	x9, #53
	str	x10, [x21, #304]
	b.lo	.Lnoise_BB7_92
	ldp	x2, x1, [x21, #32]
	add	x3, x21, #48
	mov	x0, x21
	mov	w28, w14
	mov	w26, w13
	mov	w20, w12
	mov	w19, w11
	bl	"rand_chacha::guts::refill4"
	ldr	x9, [x21, #40]
	mov	x8, xzr
	add	x9, x9, #4
	str	x9, [x21, #40]
.Lnoise_BB7_91:
	ldp	w17, w15, [sp, #44]
	ldp	w0, w18, [sp, #36]
	ldr	w16, [sp, #56]
	add	x9, x8, #1
	mov	w11, w19
	mov	w12, w20
	mov	w13, w26
	mov	w14, w28
	b	.Lnoise_BB7_63
.Lnoise_BB7_92:
	ldr	w28, [x25, x10, lsl #2]
	add	x10, x9, #12
	cmp	x8, #62
	str	x10, [x21, #304]
	stp	w14, w13, [sp, #28]
	b.ne	.Lnoise_BB7_94
	ldp	x2, x1, [x21, #32]
	add	x3, x21, #48
	mov	x0, x21
	mov	w26, w12
	mov	w20, w11
	bl	"rand_chacha::guts::refill4"
	ldr	x8, [x21, #40]
	ldr	w19, [x21, #48]
	add	x8, x8, #4
	str	x8, [x21, #40]
	mov	w8, #1
	b	.Lnoise_BB7_96
.Lnoise_BB7_94:
	ldr	w19, [x25, x10, lsl #2]
	add	x8, x9, #13
	cmp	x9, #51
	str	x8, [x21, #304]
	b.lo	.Lnoise_BB7_97
	ldp	x2, x1, [x21, #32]
	add	x3, x21, #48
	mov	x0, x21
	mov	w26, w12
	mov	w20, w11
	bl	"rand_chacha::guts::refill4"
	ldr	x9, [x21, #40]
	mov	x8, xzr
	add	x9, x9, #4
	str	x9, [x21, #40]
.Lnoise_BB7_96:
	ldp	w14, w13, [sp, #28]
	ldp	w17, w15, [sp, #44]
	ldp	w0, w18, [sp, #36]
	ldr	w16, [sp, #56]
	add	x9, x8, #1
	mov	w11, w20
	mov	w12, w26
	b	.Lnoise_BB7_64
.Lnoise_BB7_97:
	ldr	w20, [x25, x8, lsl #2]
	add	x8, x9, #14
	cmp	x10, #62
	str	x8, [x21, #304]
	b.ne	.Lnoise_BB7_99
	ldp	x2, x1, [x21, #32]
	add	x3, x21, #48
	mov	x0, x21
	str	w11, [sp, #24]
	mov	w26, w12
	bl	"rand_chacha::guts::refill4"
	ldr	x8, [x21, #40]
	ldr	w16, [sp, #56]
	mov	w12, w26
	ldp	w0, w18, [sp, #36]
	ldp	w17, w15, [sp, #44]
	ldp	w14, w13, [sp, #28]
	ldr	w11, [sp, #24]
	add	x9, x8, #4
	ldr	w26, [x21, #48]
	mov	w8, #1
	str	x9, [x21, #40]
	b	.Lnoise_BB7_65
.Lnoise_BB7_99:
	ldr	w26, [x25, x8, lsl #2]
	add	x8, x9, #15
	cmp	x9, #49
	str	x8, [x21, #304]
	b.lo	.Lnoise_BB7_66
	ldp	x2, x1, [x21, #32]
	add	x3, x21, #48
	mov	x0, x21
	stp	w12, w11, [sp, #20]
	bl	"rand_chacha::guts::refill4"
	ldp	w0, w18, [sp, #36]
	ldp	w17, w15, [sp, #44]
	ldp	w14, w13, [sp, #28]
	ldp	w12, w11, [sp, #20]
	ldr	x9, [x21, #40]
	ldr	w16, [sp, #56]
	mov	x8, xzr
	add	x9, x9, #4
	str	x9, [x21, #40]
	b	.Lnoise_BB7_66
.Lnoise_BB7_101:
	ldr	x8, [sp, #72]
	ands	x22, x8, #0x3f
	b.eq	.Lnoise_BB7_128
	movi	v0.2d, #0000000000000000
	ldr	x9, [x21, #304]
	cmp	x9, #64
	stp	q0, q0, [x29, #-64]
	stp	q0, q0, [x29, #-32]
	b.lo	.Lnoise_BB7_104
	ldp	x2, x1, [x21, #32]
	add	x3, x21, #48
	mov	x0, x21
	add	x23, x21, #48
	bl	"rand_chacha::guts::refill4"
	ldr	x8, [x21, #40]
	ldr	w12, [x21, #48]
	add	x8, x8, #4
	str	x8, [x21, #40]
	mov	w8, #1
	b	.Lnoise_BB7_106
.Lnoise_BB7_104:
	add	x23, x21, #48
	add	x8, x9, #1
	cmp	x9, #63
	ldr	w11, [x23, x9, lsl #2]
	str	x8, [x21, #304]
	b.ne	.Lnoise_BB7_117
	ldp	x2, x1, [x21, #32]
	add	x3, x21, #48
	mov	x0, x21
	mov	w19, w11
	bl	"rand_chacha::guts::refill4"
	ldr	x9, [x21, #40]
	mov	w12, w19
	mov	x8, xzr
	add	x9, x9, #4
	str	x9, [x21, #40]
.Lnoise_BB7_106:
	add	x9, x21, #48
	orr	x11, x8, #0x2
	add	x10, x9, x8, lsl #2
	add	x9, x9, x11, lsl #2
	str	x11, [x21, #304]
	add	x8, x8, #3
	ldp	w13, w14, [x10]
.Lnoise_BB7_107:
	str	x8, [x21, #304]
	add	x10, x8, #1
	ldr	w11, [x9]
	ldr	w15, [x23, x8, lsl #2]
	add	x9, x23, x10, lsl #2
	str	x10, [x21, #304]
	add	x8, x8, #2
.Lnoise_BB7_108:
	ldr	w16, [x9]
	str	x8, [x21, #304]
	add	x10, x8, #1
	ldr	w17, [x23, x8, lsl #2]
	add	x9, x23, x10, lsl #2
	str	x10, [x21, #304]
	add	x8, x8, #2
.Lnoise_BB7_109:
	ldr	w18, [x9]
	str	x8, [x21, #304]
	add	x10, x8, #1
	ldr	w19, [x23, x8, lsl #2]
	add	x9, x23, x10, lsl #2
	str	x10, [x21, #304]
	add	x8, x8, #2
.Lnoise_BB7_110:
	ldr	w20, [x9]
	str	x8, [x21, #304]
	add	x10, x8, #1
	ldr	w25, [x23, x8, lsl #2]
	add	x9, x23, x10, lsl #2
	str	x10, [x21, #304]
	add	x8, x8, #2
.Lnoise_BB7_111:
	ldr	w26, [x9]
	str	x8, [x21, #304]
	add	x10, x8, #1
	ldr	w27, [x23, x8, lsl #2]
	add	x9, x23, x10, lsl #2
	str	x10, [x21, #304]
	add	x8, x8, #2
.Lnoise_BB7_112:
	ldr	w28, [x9]
	str	x8, [x21, #304]
	ldr	w24, [x23, x8, lsl #2]
	add	x8, x8, #1
	str	x8, [x21, #304]
.Lnoise_BB7_113:
	fmov	s0, w12
	fmov	s1, w15
	ldr	w9, [x23, x8, lsl #2]
	fmov	s3, w19
	fmov	s4, w27
	add	x8, x8, #1
	dup	v2.4s, w9
	str	x8, [x21, #304]
	ldr	x8, [sp, #72]
	mov	v0.s[1], w13
	mov	v1.s[1], w16
	cmp	x22, #8
	mov	v3.s[1], w20
	mov	v4.s[1], w28
	and	x8, x8, #0xffffffffffffffc0
	mov	b5, v2.b[13]
	mov	b6, v2.b[14]
	stur	w24, [x29, #-8]
	sturb	w9, [x29, #-4]
	mov	v0.s[2], w14
	mov	v1.s[2], w17
	mov	v3.s[2], w25
	stur	d4, [x29, #-16]
	stur	b5, [x29, #-3]
	stur	b6, [x29, #-2]
	mov	v0.s[3], w11
	mov	v1.s[3], w18
	mov	v3.s[3], w26
	stp	q0, q1, [x29, #-64]
	mov	b0, v2.b[15]
	stur	q3, [x29, #-32]
	stur	b0, [x29, #-1]
	b.hs	.Lnoise_BB7_115
	mov	x9, xzr
	b	.Lnoise_BB7_126
.Lnoise_BB7_115:
	cmp	x22, #32
	b.hs	.Lnoise_BB7_119
	mov	x9, xzr
	b	.Lnoise_BB7_123
.Lnoise_BB7_117:
	ldr	w12, [x23, x8, lsl #2]
	add	x8, x9, #2
	cmp	x9, #62
	str	x8, [x21, #304]
	b.lo	.Lnoise_BB7_129
	ldp	x2, x1, [x21, #32]
	add	x3, x21, #48
	mov	x0, x21
	mov	w20, w12
	mov	w19, w11
	bl	"rand_chacha::guts::refill4"
	ldr	x8, [x21, #40]
	ldr	w14, [x21, #48]
	add	x9, x8, #4
	mov	w8, #1
	str	x9, [x21, #40]
	str	x8, [x21, #304]
	b	.Lnoise_BB7_131
.Lnoise_BB7_119:
	ldp	x12, x13, [sp, #64]
	sub	x11, x29, #64
	add	x11, x11, #16
	add	x12, x8, x12
	and	x10, x13, #0x18
	and	x9, x13, #0x20
	add	x12, x12, #16
	and	x13, x13, #0x20
.Lnoise_BB7_120:
	ldp	q0, q3, [x12, #-16]
	subs	x13, x13, #32
	ldp	q1, q2, [x11, #-16]
	add	x11, x11, #32
	eor	v0.16b, v0.16b, v1.16b
	eor	v1.16b, v3.16b, v2.16b
	stp	q0, q1, [x12, #-16]
	add	x12, x12, #32
	b.ne	.Lnoise_BB7_120
	cmp	x22, x9
	b.eq	.Lnoise_BB7_128
	cbz	x10, .Lnoise_BB7_126
.Lnoise_BB7_123:
	mov	x11, x9
	ldr	x9, [sp, #72]
	sub	x12, x29, #64
	add	x13, x11, x8
	and	x9, x9, #0x38
	sub	x10, x11, x9
	add	x11, x12, x11
	ldr	x12, [sp, #64]
	add	x12, x12, x13
.Lnoise_BB7_124:
	ldr	d0, [x11], #8
	ldr	d1, [x12]
	adds	x10, x10, #8
	eor	v0.8b, v1.8b, v0.8b
	str	d0, [x12], #8
	b.ne	.Lnoise_BB7_124
	cmp	x22, x9
	b.eq	.Lnoise_BB7_128
.Lnoise_BB7_126:
	sub	x10, x29, #64
	add	x11, x9, x8
	sub	x8, x22, x9
	add	x9, x10, x9
	ldr	x10, [sp, #64]
	add	x10, x10, x11
.Lnoise_BB7_127:
	ldrb	w11, [x9], #1
	ldrb	w12, [x10]
	subs	x8, x8, #1
	eor	w11, w12, w11
	strb	w11, [x10], #1
	b.ne	.Lnoise_BB7_127
.Lnoise_BB7_128:
	ldp	x20, x19, [sp, #224]
	ldp	x22, x21, [sp, #208]
	ldp	x24, x23, [sp, #192]
	ldp	x26, x25, [sp, #176]
	ldp	x28, x27, [sp, #160]
	ldp	x29, x30, [sp, #144]
	add	sp, sp, #240
	ret
.Lnoise_BB7_129:
	ldr	w13, [x23, x8, lsl #2]
	add	x10, x9, #3
	cmp	x9, #61
	str	x10, [x21, #304]
	b.ne	.Lnoise_BB7_132
	ldp	x2, x1, [x21, #32]
	add	x3, x21, #48
	mov	x0, x21
	mov	w20, w12
	mov	w19, w11
	mov	w24, w13
	bl	"rand_chacha::guts::refill4"
	ldr	x9, [x21, #40]
	mov	w14, w24
	mov	x8, xzr
	add	x9, x9, #4
	str	x9, [x21, #40]
.Lnoise_BB7_131:
	add	x9, x23, x8, lsl #2
	add	x8, x8, #1
	mov	w12, w19
	mov	w13, w20
	b	.Lnoise_BB7_107
.Lnoise_BB7_132:
	ldr	w10, [x23, x10, lsl #2]
	cmp	x8, #62
	str	w10, [sp, #56]
	add	x10, x9, #4
	str	x10, [x21, #304]
	b.ne	.Lnoise_BB7_134
	ldp	x2, x1, [x21, #32]
	add	x3, x21, #48
	mov	x0, x21
	mov	w24, w13
	mov	w20, w12
	mov	w19, w11
	bl	"rand_chacha::guts::refill4"
	ldr	x8, [x21, #40]
	ldr	w15, [x21, #48]
	add	x9, x8, #4
	mov	w8, #1
	str	x9, [x21, #40]
	str	x8, [x21, #304]
	b	.Lnoise_BB7_136
.Lnoise_BB7_134:
	ldr	w14, [x23, x10, lsl #2]
	add	x8, x9, #5
	cmp	x9, #59
	str	x8, [x21, #304]
	b.lo	.Lnoise_BB7_137
	ldp	x2, x1, [x21, #32]
	add	x3, x21, #48
	mov	x0, x21
	mov	w24, w13
	mov	w20, w12
	mov	w19, w11
	mov	w25, w14
	bl	"rand_chacha::guts::refill4"
	ldr	x9, [x21, #40]
	mov	w15, w25
	mov	x8, xzr
	add	x9, x9, #4
	str	x9, [x21, #40]
.Lnoise_BB7_136:
	add	x9, x23, x8, lsl #2
	ldr	w11, [sp, #56]
	add	x8, x8, #1
	mov	w12, w19
	mov	w13, w20
	mov	w14, w24
	b	.Lnoise_BB7_108
.Lnoise_BB7_137:
	ldr	w26, [x23, x8, lsl #2]
	add	x8, x9, #6
	cmp	x10, #62
	str	x8, [x21, #304]
	b.ne	.Lnoise_BB7_139
	ldp	x2, x1, [x21, #32]
	add	x3, x21, #48
	mov	x0, x21
	mov	w25, w14
	mov	w24, w13
	mov	w20, w12
	mov	w19, w11
	bl	"rand_chacha::guts::refill4"
	ldr	x8, [x21, #40]
	ldr	w17, [x21, #48]
	add	x9, x8, #4
	mov	w8, #1
	str	x9, [x21, #40]
	str	x8, [x21, #304]
	b	.Lnoise_BB7_141
.Lnoise_BB7_139:
	ldr	w28, [x23, x8, lsl #2]
	add	x10, x9, #7
	cmp	x9, #57
	str	x10, [x21, #304]
	b.lo	.Lnoise_BB7_142
	ldp	x2, x1, [x21, #32]
	add	x3, x21, #48
	mov	x0, x21
	mov	w25, w14
	mov	w24, w13
	mov	w20, w12
	mov	w19, w11
	bl	"rand_chacha::guts::refill4"
	ldr	x9, [x21, #40]
	mov	w17, w28
	mov	x8, xzr
	add	x9, x9, #4
	str	x9, [x21, #40]
.Lnoise_BB7_141:
	add	x9, x23, x8, lsl #2
	ldr	w11, [sp, #56]
	add	x8, x8, #1
	mov	w12, w19
	mov	w13, w20
	mov	w14, w24
	mov	w15, w25
	mov	w16, w26
	b	.Lnoise_BB7_109
.Lnoise_BB7_142:
	ldr	w15, [x23, x10, lsl #2]
	add	x10, x9, #8
	cmp	x8, #62
	str	x10, [x21, #304]
	str	w15, [sp, #48]
	b.ne	.Lnoise_BB7_144
	ldp	x2, x1, [x21, #32]
	add	x3, x21, #48
	mov	x0, x21
	mov	w27, w26
	mov	w26, w14
	mov	w25, w13
	mov	w24, w12
	mov	w20, w11
	bl	"rand_chacha::guts::refill4"
	ldr	x8, [x21, #40]
	ldr	w19, [x21, #48]
	add	x9, x8, #4
	mov	w8, #1
	str	x9, [x21, #40]
	str	x8, [x21, #304]
	b	.Lnoise_BB7_146
.Lnoise_BB7_144:
	ldr	w19, [x23, x10, lsl #2]
	add	x8, x9, #9
	cmp	x9, #55
	str	x8, [x21, #304]
	b.lo	.Lnoise_BB7_147
	ldp	x2, x1, [x21, #32]
	add	x3, x21, #48
	mov	x0, x21
	mov	w27, w26
	mov	w26, w14
	mov	w25, w13
	mov	w24, w12
	mov	w20, w11
	bl	"rand_chacha::guts::refill4"
	ldr	x9, [x21, #40]
	mov	x8, xzr
	add	x9, x9, #4
	str	x9, [x21, #40]
.Lnoise_BB7_146:
	add	x9, x23, x8, lsl #2
	ldr	w11, [sp, #56]
	ldr	w18, [sp, #48]
	add	x8, x8, #1
	mov	w12, w20
	mov	w13, w24
	mov	w14, w25
	mov	w15, w26
	mov	w16, w27
	mov	w17, w28
	b	.Lnoise_BB7_110
.Lnoise_BB7_147:
	ldr	w20, [x23, x8, lsl #2]
	add	x8, x9, #10
	cmp	x10, #62
	str	x8, [x21, #304]
	stp	w28, w14, [sp, #40]
	b.ne	.Lnoise_BB7_149
	ldp	x2, x1, [x21, #32]
	add	x3, x21, #48
	mov	x0, x21
	mov	w28, w26
	mov	w27, w13
	mov	w26, w12
	mov	w24, w11
	bl	"rand_chacha::guts::refill4"
	ldr	x8, [x21, #40]
	ldr	w25, [x21, #48]
	add	x9, x8, #4
	mov	w8, #1
	str	x9, [x21, #40]
	str	x8, [x21, #304]
	b	.Lnoise_BB7_151
.Lnoise_BB7_149:
	ldr	w25, [x23, x8, lsl #2]
	add	x10, x9, #11
	cmp	x9, #53
	str	x10, [x21, #304]
	b.lo	.Lnoise_BB7_152
	ldp	x2, x1, [x21, #32]
	add	x3, x21, #48
	mov	x0, x21
	mov	w28, w26
	mov	w27, w13
	mov	w26, w12
	mov	w24, w11
	bl	"rand_chacha::guts::refill4"
	ldr	x9, [x21, #40]
	mov	x8, xzr
	add	x9, x9, #4
	str	x9, [x21, #40]
.Lnoise_BB7_151:
	ldp	w17, w15, [sp, #40]
	add	x9, x23, x8, lsl #2
	ldr	w11, [sp, #56]
	ldr	w18, [sp, #48]
	add	x8, x8, #1
	mov	w12, w24
	mov	w13, w26
	mov	w14, w27
	mov	w16, w28
	b	.Lnoise_BB7_111
.Lnoise_BB7_152:
	stp	w26, w13, [sp, #24]
	ldr	w26, [x23, x10, lsl #2]
	add	x10, x9, #12
	cmp	x8, #62
	stp	w12, w11, [sp, #32]
	str	x10, [x21, #304]
	b.ne	.Lnoise_BB7_154
	ldp	x2, x1, [x21, #32]
	add	x3, x21, #48
	mov	x0, x21
	bl	"rand_chacha::guts::refill4"
	ldr	x8, [x21, #40]
	ldr	w27, [x21, #48]
	add	x9, x8, #4
	mov	w8, #1
	str	x9, [x21, #40]
	str	x8, [x21, #304]
	b	.Lnoise_BB7_156
.Lnoise_BB7_154:
	ldr	w27, [x23, x10, lsl #2]
	add	x8, x9, #13
	cmp	x9, #51
	str	x8, [x21, #304]
	b.lo	.Lnoise_BB7_157
	ldp	x2, x1, [x21, #32]
	add	x3, x21, #48
	mov	x0, x21
	bl	"rand_chacha::guts::refill4"
	ldr	x9, [x21, #40]
	mov	x8, xzr
	add	x9, x9, #4
	str	x9, [x21, #40]
.Lnoise_BB7_156:
	ldp	w13, w12, [sp, #32]
	ldp	w16, w14, [sp, #24]
	ldp	w17, w15, [sp, #40]
	add	x9, x23, x8, lsl #2
	ldr	w11, [sp, #56]
	ldr	w18, [sp, #48]
	add	x8, x8, #1
	b	.Lnoise_BB7_112
.Lnoise_BB7_157:
	ldr	w28, [x23, x8, lsl #2]
	add	x8, x9, #14
	cmp	x10, #62
	str	x8, [x21, #304]
	b.ne	.Lnoise_BB7_159
	ldp	x2, x1, [x21, #32]
	add	x3, x21, #48
	mov	x0, x21
	bl	"rand_chacha::guts::refill4"
	ldr	x8, [x21, #40]
	ldr	w24, [x21, #48]
	add	x9, x8, #4
	mov	w8, #1
	str	x9, [x21, #40]
	str	x8, [x21, #304]
	b	.Lnoise_BB7_161
.Lnoise_BB7_159:
	ldr	w24, [x23, x8, lsl #2]
	add	x8, x9, #15
	cmp	x9, #49
	str	x8, [x21, #304]
	b.lo	.Lnoise_BB7_161
	ldp	x2, x1, [x21, #32]
	add	x3, x21, #48
	mov	x0, x21
	bl	"rand_chacha::guts::refill4"
	ldr	x9, [x21, #40]
	mov	x8, xzr
	add	x9, x9, #4
	str	x9, [x21, #40]
.Lnoise_BB7_161:
	ldp	w13, w12, [sp, #32]
	ldp	w16, w14, [sp, #24]
	ldp	w17, w15, [sp, #40]
	ldr	w11, [sp, #56]
	ldr	w18, [sp, #48]
	b	.Lnoise_BB7_113
.Lnoise_func_end7:
	.size	"noise_aead::keystream::apply", .Lnoise_func_end7-"noise_aead::keystream::apply"
	.cfi_endproc

	.section	".text.noise_state::cipher::CipherState::encrypt","ax",@progbits
	.p2align	2
	.type	"noise_state::cipher::CipherState::encrypt",@function
"noise_state::cipher::CipherState::encrypt":
	.cfi_startproc
	ldrb	w8, [x1]
	cmp	w8, #1
	b.ne	.Lnoise_BB8_4
	ldr	x8, [x1, #40]
	cmn	x8, #1
	b.eq	.Lnoise_BB8_5
	lsr	x9, x5, #4
	cmp	x9, #4095
	b.lo	.Lnoise_BB8_6
	mov	w8, #769
	strh	w8, [x0]
	str	xzr, [x0, #8]
	ret
.Lnoise_BB8_4:
	lsr	x8, x5, #16
	cmp	x8, #0
	mov	w8, #3
	cset	w9, ne
	csel	w8, w8, wzr, ne
	strb	w9, [x0]
	csel	x9, xzr, x5, ne
	strb	w8, [x0, #1]
	str	x9, [x0, #8]
	ret
.Lnoise_BB8_5:
	mov	w8, #1
	strh	w8, [x0]
	str	xzr, [x0, #8]
	ret
.Lnoise_BB8_6:
	sub	sp, sp, #464
	stp	x29, x30, [sp, #384]
	str	x28, [sp, #400]
	stp	x24, x23, [sp, #416]
	stp	x22, x21, [sp, #432]
	stp	x20, x19, [sp, #448]
	add	x29, sp, #384
	.cfi_def_cfa w29, 80
	.cfi_offset w19, -8
	.cfi_offset w20, -16
	.cfi_offset w21, -24
	.cfi_offset w22, -32
	.cfi_offset w23, -40
	.cfi_offset w24, -48
	.cfi_offset w28, -64
	.cfi_offset w30, -72
	.cfi_offset w29, -80
	movi	v0.2d, #0000000000000000
	ldur	q1, [x1, #1]
	ldur	q2, [x1, #17]
	add	x10, sp, #48
	mov	w9, #64
	mov	x23, x0
	add	x0, sp, #48
	mov	x21, x3
	add	x3, x10, #48
	mov	x24, x1
	mov	x1, xzr
	mov	x22, x2
	mov	x2, x8
	stp	q1, q2, [sp, #48]
	mov	x19, x5
	stp	q0, q0, [sp, #96]
	mov	x20, x4
	stp	q0, q0, [sp, #128]
	stp	q0, q0, [sp, #160]
	stp	q0, q0, [sp, #192]
	stp	q0, q0, [sp, #224]
	stp	q0, q0, [sp, #256]
	stp	q0, q0, [sp, #288]
	stp	q0, q0, [sp, #320]
	stp	x8, xzr, [sp, #80]
	str	x9, [sp, #352]
	bl	"rand_chacha::guts::refill4"
	ldp	d0, d1, [sp, #96]
	add	x0, sp, #48
	ldr	q2, [sp, #112]
	ldr	w8, [sp, #124]
	mov	x1, x20
	ldr	x9, [sp, #88]
	mov	x2, x19
	mov	v0.d[1], v1.d[0]
	mov	s1, v2.s[2]
	str	d2, [sp, #32]
	strb	w8, [sp, #44]
	add	x8, x9, #4
	mov	w9, #16
	str	x8, [sp, #88]
	str	x9, [sp, #352]
	str	q0, [sp, #16]
	mov	b0, v2.b[13]
	str	s1, [sp, #40]
	mov	b1, v2.b[14]
	mov	b2, v2.b[15]
	stur	b0, [sp, #45]
	stur	b1, [sp, #46]
	stur	b2, [sp, #47]
	bl	"noise_aead::keystream::apply"
	sub	x0, x29, #16
	add	x1, sp, #16
	mov	x2, x22
	mov	x3, x21
	mov	x4, x20
	mov	x5, x19
	bl	"noise_aead::authenticator::tag"
	ldur	q0, [x29, #-16]
	ldp	x22, x21, [sp, #432]
	str	q0, [x20, x19]
	ldr	x28, [sp, #400]
	ldr	x8, [x24, #40]
	str	q0, [sp]
	ldp	x29, x30, [sp, #384]
	add	x8, x8, #1
	str	x8, [x24, #40]
	add	x8, x19, #16
	strh	wzr, [x23]
	ldp	x20, x19, [sp, #448]
	str	x8, [x23, #8]
	ldp	x24, x23, [sp, #416]
	add	sp, sp, #464
	ret
.Lnoise_func_end8:
	.size	"noise_state::cipher::CipherState::encrypt", .Lnoise_func_end8-"noise_state::cipher::CipherState::encrypt"
	.cfi_endproc

	.section	".text.noise_state::cipher::CipherState::rekey","ax",@progbits
	.p2align	2
	.type	"noise_state::cipher::CipherState::rekey",@function
"noise_state::cipher::CipherState::rekey":
	.cfi_startproc
	ldrb	w8, [x0]
	cmp	w8, #1
	b.ne	.Lnoise_BB9_10
	sub	sp, sp, #448
	stp	x29, x30, [sp, #352]
	stp	x28, x27, [sp, #368]
	stp	x26, x25, [sp, #384]
	stp	x24, x23, [sp, #400]
	stp	x22, x21, [sp, #416]
	stp	x20, x19, [sp, #432]
	add	x29, sp, #352
	.cfi_def_cfa w29, 96
	.cfi_offset w19, -8
	.cfi_offset w20, -16
	.cfi_offset w21, -24
	.cfi_offset w22, -32
	.cfi_offset w23, -40
	.cfi_offset w24, -48
	.cfi_offset w25, -56
	.cfi_offset w26, -64
	.cfi_offset w27, -72
	.cfi_offset w28, -80
	.cfi_offset w30, -88
	.cfi_offset w29, -96
	ldur	q0, [x0, #1]
	ldur	q1, [x0, #17]
	mov	x19, x0
	add	x0, sp, #32
	mov	x1, sp
	mov	w2, wzr
	mov	x3, #-1
	stp	q0, q1, [sp]
	add	x20, sp, #32
	bl	"noise_aead::keystream::generator_apart"
	ldr	x8, [sp, #336]
	cmp	x8, #64
	b.lo	.Lnoise_BB9_3
	ldp	x2, x1, [sp, #64]
	add	x20, x20, #48
	add	x0, sp, #32
	mov	x3, x20
	bl	"rand_chacha::guts::refill4"
	ldr	x8, [sp, #72]
	ldr	w21, [sp, #80]
	add	x8, x8, #4
	str	x8, [sp, #72]
	mov	w8, #1
	b	.Lnoise_BB9_5
.Lnoise_BB9_3:
	add	x20, x20, #48
	add	x9, x8, #1
	cmp	x8, #63
	ldr	w21, [x20, x8, lsl #2]
	str	x9, [sp, #336]
	b.ne	.Lnoise_BB9_11
	ldp	x2, x1, [sp, #64]
	add	x0, sp, #32
	mov	x3, x20
	bl	"rand_chacha::guts::refill4"
	ldr	x9, [sp, #72]
	mov	x8, xzr
	add	x9, x9, #4
	str	x9, [sp, #72]
.Lnoise_BB9_5:
	add	x9, sp, #32
	orr	x9, x9, x8, lsl #2
	add	x8, x8, #3
	ldp	w22, w23, [x9, #48]
	add	x9, x9, #56
.Lnoise_BB9_6:
	str	x8, [sp, #336]
	add	x10, x8, #1
	ldr	w24, [x9]
	ldr	w25, [x20, x8, lsl #2]
	add	x9, x20, x10, lsl #2
	str	x10, [sp, #336]
	add	x8, x8, #2
.Lnoise_BB9_7:
	ldr	w26, [x9]
	str	x8, [sp, #336]
	add	x9, x8, #1
	ldr	w27, [x20, x8, lsl #2]
	add	x8, x20, x9, lsl #2
	str	x9, [sp, #336]
.Lnoise_BB9_8:
	ldr	w28, [x8]
.Lnoise_BB9_9:
	fmov	s0, w21
	dup	v1.4s, w28
	mov	w8, #1
	fmov	s2, w25
	stur	w27, [x19, #25]
	strb	w28, [x19, #29]
	ldp	x28, x27, [sp, #368]
	mov	v0.s[1], w22
	mov	b3, v1.b[13]
	mov	b4, v1.b[14]
	mov	v2.s[1], w26
	mov	b1, v1.b[15]
	strb	w8, [x19]
	ldp	x22, x21, [sp, #416]
	ldp	x26, x25, [sp, #384]
	mov	v0.s[2], w23
	stur	b3, [x19, #30]
	stur	d2, [x19, #17]
	ldp	x29, x30, [sp, #352]
	stur	b4, [x19, #31]
	stur	b1, [x19, #32]
	mov	v0.s[3], w24
	ldp	x24, x23, [sp, #400]
	stur	q0, [x19, #1]
	ldp	x20, x19, [sp, #432]
	add	sp, sp, #448
.Lnoise_BB9_10:
	ret
.Lnoise_BB9_11:
	ldr	w22, [x20, x9, lsl #2]
	add	x9, x8, #2
	cmp	x8, #62
	str	x9, [sp, #336]
	b.lo	.Lnoise_BB9_13
	ldp	x2, x1, [sp, #64]
	add	x0, sp, #32
	mov	x3, x20
	bl	"rand_chacha::guts::refill4"
	ldr	x8, [sp, #72]
	ldr	w23, [sp, #80]
	add	x8, x8, #4
	str	x8, [sp, #72]
	mov	w8, #1
	b	.Lnoise_BB9_15
.Lnoise_BB9_13:
	ldr	w23, [x20, x9, lsl #2]
	add	x10, x8, #3
	cmp	x8, #61
	str	x10, [sp, #336]
	b.ne	.Lnoise_BB9_16
	ldp	x2, x1, [sp, #64]
	add	x0, sp, #32
	mov	x3, x20
	bl	"rand_chacha::guts::refill4"
	ldr	x9, [sp, #72]
	mov	x8, xzr
	add	x9, x9, #4
	str	x9, [sp, #72]
.Lnoise_BB9_15:
	add	x9, x20, x8, lsl #2
	add	x8, x8, #1
	b	.Lnoise_BB9_6
.Lnoise_BB9_16:
	ldr	w24, [x20, x10, lsl #2]
	add	x10, x8, #4
	cmp	x9, #62
	str	x10, [sp, #336]
	b.ne	.Lnoise_BB9_18
	ldp	x2, x1, [sp, #64]
	add	x0, sp, #32
	mov	x3, x20
	bl	"rand_chacha::guts::refill4"
	ldr	x8, [sp, #72]
	ldr	w25, [sp, #80]
	add	x9, x8, #4
	mov	w8, #1
	str	x9, [sp, #72]
	str	x8, [sp, #336]
	b	.Lnoise_BB9_20
.Lnoise_BB9_18:
	ldr	w25, [x20, x10, lsl #2]
	add	x9, x8, #5
	cmp	x8, #59
	str	x9, [sp, #336]
	b.lo	.Lnoise_BB9_21
	ldp	x2, x1, [sp, #64]
	add	x0, sp, #32
	mov	x3, x20
	bl	"rand_chacha::guts::refill4"
	ldr	x9, [sp, #72]
	mov	x8, xzr
	add	x9, x9, #4
	str	x9, [sp, #72]
.Lnoise_BB9_20:
	add	x9, x20, x8, lsl #2
	add	x8, x8, #1
	b	.Lnoise_BB9_7
.Lnoise_BB9_21:
	ldr	w26, [x20, x9, lsl #2]
	add	x9, x8, #6
	cmp	x10, #62
	str	x9, [sp, #336]
	b.ne	.Lnoise_BB9_23
	ldp	x2, x1, [sp, #64]
	add	x0, sp, #32
	mov	x3, x20
	bl	"rand_chacha::guts::refill4"
	ldr	x8, [sp, #72]
	ldr	w27, [sp, #80]
	mov	w9, #1
	str	x9, [sp, #336]
	add	x8, x8, #4
	str	x8, [sp, #72]
	mov	w8, #4
	b	.Lnoise_BB9_25
.Lnoise_BB9_23:
	ldr	w27, [x20, x9, lsl #2]
	add	x10, x8, #7
	cmp	x8, #57
	str	x10, [sp, #336]
	b.lo	.Lnoise_BB9_26
	ldp	x2, x1, [sp, #64]
	add	x0, sp, #32
	mov	x3, x20
	bl	"rand_chacha::guts::refill4"
	ldr	x9, [sp, #72]
	mov	x8, xzr
	add	x9, x9, #4
	str	x9, [sp, #72]
.Lnoise_BB9_25:
	add	x8, x20, x8
	b	.Lnoise_BB9_8
.Lnoise_BB9_26:
	ldr	w28, [x20, x10, lsl #2]
	add	x10, x8, #8
	cmp	x9, #62
	str	x10, [sp, #336]
	b.eq	.Lnoise_BB9_34
	add	x9, x8, #9
	cmp	x8, #55
	str	x9, [sp, #336]
	b.hs	.Lnoise_BB9_34
	add	x9, x8, #10
	cmp	x10, #62
	str	x9, [sp, #336]
	b.eq	.Lnoise_BB9_34
	add	x10, x8, #11
	cmp	x8, #53
	str	x10, [sp, #336]
	b.hs	.Lnoise_BB9_34
	add	x10, x8, #12
	cmp	x9, #62
	str	x10, [sp, #336]
	b.eq	.Lnoise_BB9_34
	add	x9, x8, #13
	cmp	x8, #51
	str	x9, [sp, #336]
	b.hs	.Lnoise_BB9_34
	add	x9, x8, #14
	cmp	x10, #62
	str	x9, [sp, #336]
	b.eq	.Lnoise_BB9_34
	add	x9, x8, #15
	cmp	x8, #49
	str	x9, [sp, #336]
	b.lo	.Lnoise_BB9_9
.Lnoise_BB9_34:
	ldp	x2, x1, [sp, #64]
	add	x0, sp, #32
	mov	x3, x20
	bl	"rand_chacha::guts::refill4"
	b	.Lnoise_BB9_9
.Lnoise_func_end9:
	.size	"noise_state::cipher::CipherState::rekey", .Lnoise_func_end9-"noise_state::cipher::CipherState::rekey"
	.cfi_endproc

	.section	".text.noise_aead::keystream::generator_apart","ax",@progbits
	.p2align	2
	.type	"noise_aead::keystream::generator_apart",@function
"noise_aead::keystream::generator_apart":
	.cfi_startproc
	ldp	q0, q1, [x1]
	mov	w8, #1
	orr	x8, x8, x2, lsl #32
	stp	q0, q1, [x0]
	movi	v0.2d, #0000000000000000
	stp	x3, x8, [x0, #32]
	mov	w8, #64
	str	x8, [x0, #304]
	stp	q0, q0, [x0, #48]
	stp	q0, q0, [x0, #80]
	stp	q0, q0, [x0, #112]
	stp	q0, q0, [x0, #144]
	stp	q0, q0, [x0, #176]
	stp	q0, q0, [x0, #208]
	stp	q0, q0, [x0, #240]
	stp	q0, q0, [x0, #272]
	ret
.Lnoise_func_end10:
	.size	"noise_aead::keystream::generator_apart", .Lnoise_func_end10-"noise_aead::keystream::generator_apart"
	.cfi_endproc

	.section	".text.noise_c::patterns::pattern_of","ax",@progbits
	.p2align	2
	.type	"noise_c::patterns::pattern_of",@function
"noise_c::patterns::pattern_of":
	.cfi_startproc
	stp	x29, x30, [sp, #-48]!
	stp	x28, x21, [sp, #16]
	mov	x29, sp
	stp	x20, x19, [sp, #32]
	sub	sp, sp, #2032
	str	xzr, [sp]
	.cfi_def_cfa w29, 48
	.cfi_offset w19, -8
	.cfi_offset w20, -16
	.cfi_offset w21, -24
	.cfi_offset w28, -32
	.cfi_offset w30, -40
	.cfi_offset w29, -48
	mov	x19, x0
	cbz	x2, .Lnoise_BB11_4
	add	x8, x1, x2
	ldurb	w8, [x8, #-1]
	cmp	w8, #10
	b.ne	.Lnoise_BB11_4
	movi	v0.2d, #0000000000000000
	add	x0, sp, #1104
	str	xzr, [sp, #1376]
	str	xzr, [sp, #816]
	add	x20, sp, #1104
	str	q0, [sp, #1104]
	str	q0, [sp, #1120]
	str	q0, [sp, #1136]
	str	q0, [sp, #1152]
	str	q0, [sp, #1168]
	str	q0, [sp, #1184]
	str	q0, [sp, #1200]
	str	q0, [sp, #1216]
	str	q0, [sp, #1232]
	str	q0, [sp, #1248]
	str	q0, [sp, #1264]
	str	q0, [sp, #1280]
	str	q0, [sp, #1296]
	str	q0, [sp, #1312]
	str	q0, [sp, #1328]
	str	q0, [sp, #1344]
	str	q0, [sp, #1360]
	str	q0, [sp, #1920]
	str	q0, [sp, #1904]
	str	q0, [sp, #1888]
	str	q0, [sp, #1872]
	str	q0, [sp, #1856]
	str	q0, [sp, #1840]
	str	q0, [sp, #1824]
	str	q0, [sp, #1808]
	str	q0, [sp, #1792]
	str	q0, [sp, #1776]
	str	q0, [sp, #1760]
	str	q0, [sp, #1744]
	str	q0, [sp, #1728]
	str	q0, [sp, #1712]
	str	q0, [sp, #1696]
	str	q0, [sp, #1680]
	str	q0, [sp, #1664]
	stp	q0, q0, [sp, #560]
	stp	q0, q0, [sp, #592]
	stp	q0, q0, [sp, #624]
	stp	q0, q0, [sp, #656]
	stp	q0, q0, [sp, #688]
	stp	q0, q0, [sp, #720]
	stp	q0, q0, [sp, #752]
	stp	q0, q0, [sp, #784]
	str	q0, [sp, #544]
	str	q0, [sp, #1648]
	str	q0, [sp, #1632]
	str	q0, [sp, #1616]
	str	q0, [sp, #1600]
	str	q0, [sp, #1584]
	str	q0, [sp, #1568]
	str	q0, [sp, #1552]
	str	q0, [sp, #1536]
	str	q0, [sp, #1520]
	str	q0, [sp, #1504]
	str	q0, [sp, #1488]
	str	q0, [sp, #1472]
	str	q0, [sp, #1456]
	str	q0, [sp, #1440]
	str	q0, [sp, #1424]
	str	q0, [sp, #1408]
	str	q0, [sp, #1392]
	bl	"noise_names::pattern::Pattern::parse_text"
	ldrb	w8, [sp, #1104]
	cbz	w8, .Lnoise_BB11_13
	mov	w21, #2
	mov	w20, #1
	b	.Lnoise_BB11_31
.Lnoise_BB11_4:
	movi	v0.2d, #0000000000000000
	sub	x0, x29, #96
	str	xzr, [sp, #1376]
	str	xzr, [sp, #816]
	stp	q0, q0, [x29, #-96]
	stur	q0, [x29, #-64]
	str	q0, [sp, #1664]
	str	q0, [sp, #1680]
	str	q0, [sp, #1696]
	str	q0, [sp, #1712]
	str	q0, [sp, #1728]
	str	q0, [sp, #1744]
	str	q0, [sp, #1760]
	str	q0, [sp, #1776]
	str	q0, [sp, #1792]
	str	q0, [sp, #1808]
	str	q0, [sp, #1824]
	str	q0, [sp, #1840]
	str	q0, [sp, #1856]
	str	q0, [sp, #1872]
	str	q0, [sp, #1888]
	str	q0, [sp, #1904]
	str	q0, [sp, #1920]
	str	q0, [sp, #1360]
	str	q0, [sp, #1344]
	str	q0, [sp, #1328]
	str	q0, [sp, #1312]
	str	q0, [sp, #1296]
	str	q0, [sp, #1280]
	str	q0, [sp, #1264]
	str	q0, [sp, #1248]
	str	q0, [sp, #1232]
	str	q0, [sp, #1216]
	str	q0, [sp, #1200]
	str	q0, [sp, #1184]
	str	q0, [sp, #1168]
	str	q0, [sp, #1152]
	str	q0, [sp, #1136]
	str	q0, [sp, #1120]
	str	q0, [sp, #1104]
	str	q0, [sp, #1088]
	str	q0, [sp, #1072]
	str	q0, [sp, #1056]
	str	q0, [sp, #1040]
	stp	q0, q0, [sp, #848]
	stp	q0, q0, [sp, #880]
	stp	q0, q0, [sp, #912]
	stp	q0, q0, [sp, #944]
	stp	q0, q0, [sp, #976]
	stp	q0, q0, [sp, #1008]
	str	q0, [sp, #832]
	stp	q0, q0, [sp, #272]
	stp	q0, q0, [sp, #304]
	stp	q0, q0, [sp, #336]
	stp	q0, q0, [sp, #368]
	stp	q0, q0, [sp, #400]
	stp	q0, q0, [sp, #432]
	stp	q0, q0, [sp, #464]
	stp	q0, q0, [sp, #496]
	stp	q0, q0, [sp, #528]
	stp	q0, q0, [sp, #560]
	stp	q0, q0, [sp, #592]
	stp	q0, q0, [sp, #624]
	stp	q0, q0, [sp, #656]
	stp	q0, q0, [sp, #688]
	stp	q0, q0, [sp, #720]
	stp	q0, q0, [sp, #752]
	stp	q0, q0, [sp, #784]
	bl	"noise_names::name::ProtocolName::parse"
	ldurb	w8, [x29, #-96]
	cbz	w8, .Lnoise_BB11_6
.Lnoise_BB11_5:
	movi	v0.2d, #0000000000000000
	mov	w20, #1
	mov	w21, #1
	stp	q0, q0, [sp, #16]
	stp	q0, q0, [sp, #48]
	stp	q0, q0, [sp, #80]
	stp	q0, q0, [sp, #112]
	stp	q0, q0, [sp, #144]
	stp	q0, q0, [sp, #176]
	stp	q0, q0, [sp, #208]
	stp	q0, q0, [sp, #240]
	str	q0, [sp]
	b	.Lnoise_BB11_58
.Lnoise_BB11_6:
	sub	x8, x29, #96
	ldur	x9, [x29, #-56]
	ldur	q0, [x8, #8]
	ldur	q1, [x8, #24]
	stur	x9, [x29, #-16]
	stp	q0, q1, [x29, #-48]
	ldur	x8, [x29, #-40]
	cbz	x9, .Lnoise_BB11_15
	cbz	x8, .Lnoise_BB11_5
	cmp	x8, #1
	b.ne	.Lnoise_BB11_21
	ldurb	w8, [x29, #-48]
	cmp	w8, #88
	b.eq	.Lnoise_BB11_43
	cmp	w8, #78
	b.eq	.Lnoise_BB11_42
	cmp	w8, #75
	b.ne	.Lnoise_BB11_5
	mov	w1, #1
	b	.Lnoise_BB11_44
.Lnoise_BB11_13:
	add	x0, sp, #544
	orr	x1, x20, #0x8
	add	x21, sp, #544
	bl	"noise_names::pattern::Pattern::check"
	ldrb	w20, [sp, #544]
	cbz	w20, .Lnoise_BB11_29
	mov	w21, #2
	b	.Lnoise_BB11_30
.Lnoise_BB11_15:
	cbz	x8, .Lnoise_BB11_41
	cmp	x8, #1
	b.ne	.Lnoise_BB11_33
	ldurb	w8, [x29, #-48]
	cmp	w8, #88
	b.eq	.Lnoise_BB11_55
	cmp	w8, #78
	b.eq	.Lnoise_BB11_54
	cmp	w8, #75
	b.ne	.Lnoise_BB11_41
	mov	w1, #1
	b	.Lnoise_BB11_56
.Lnoise_BB11_21:
	cmp	x8, #2
	b.hi	.Lnoise_BB11_5
	ldurb	w8, [x29, #-48]
	cmp	w8, #77
	b.gt	.Lnoise_BB11_48
	cmp	w8, #73
	b.eq	.Lnoise_BB11_68
	cmp	w8, #75
	b.ne	.Lnoise_BB11_5
	ldurb	w8, [x29, #-47]
	cmp	w8, #88
	b.eq	.Lnoise_BB11_88
	cmp	w8, #78
	b.eq	.Lnoise_BB11_84
	cmp	w8, #75
	b.ne	.Lnoise_BB11_5
	mov	w1, #7
	b	.Lnoise_BB11_44
.Lnoise_BB11_29:
	add	x0, sp, #1392
	orr	x1, x21, #0x8
	mov	w2, #272
	bl	memcpy
	mov	w21, wzr
.Lnoise_BB11_30:
	add	x0, sp, #1664
	add	x1, sp, #1392
	mov	w2, #272
	bl	memcpy
.Lnoise_BB11_31:
	mov	x0, sp
	add	x1, sp, #1664
.Lnoise_BB11_32:
	mov	w2, #272
	bl	memcpy
	b	.Lnoise_BB11_58
.Lnoise_BB11_33:
	cmp	x8, #2
	b.hi	.Lnoise_BB11_41
	ldurb	w8, [x29, #-48]
	mov	w20, #1
	cmp	w8, #77
	b.gt	.Lnoise_BB11_59
	cmp	w8, #73
	b.eq	.Lnoise_BB11_76
	cmp	w8, #75
	b.ne	.Lnoise_BB11_57
	ldurb	w8, [x29, #-47]
	cmp	w8, #88
	b.eq	.Lnoise_BB11_96
	cmp	w8, #78
	b.eq	.Lnoise_BB11_92
	cmp	w8, #75
	b.ne	.Lnoise_BB11_57
	mov	w1, #7
	b	.Lnoise_BB11_56
.Lnoise_BB11_41:
	mov	w20, #1
	b	.Lnoise_BB11_57
.Lnoise_BB11_42:
	mov	w1, wzr
	b	.Lnoise_BB11_44
.Lnoise_BB11_43:
	mov	w1, #2
.Lnoise_BB11_44:
	add	x0, sp, #1392
	sub	x20, x29, #48
	bl	"noise_names::table::row"
	add	x0, sp, #1104
	add	x1, sp, #1392
	add	x2, x20, #16
	add	x20, sp, #1104
	bl	"noise_names::pattern::Pattern::with_psks"
	ldrb	w8, [sp, #1104]
	cbz	w8, .Lnoise_BB11_46
	mov	w20, #1
	mov	w21, #1
	b	.Lnoise_BB11_67
.Lnoise_BB11_46:
	add	x0, sp, #544
	orr	x1, x20, #0x8
	add	x21, sp, #544
	bl	"noise_names::pattern::Pattern::check"
	ldrb	w20, [sp, #544]
	cbz	w20, .Lnoise_BB11_65
	mov	w21, #2
	b	.Lnoise_BB11_66
.Lnoise_BB11_48:
	cmp	w8, #88
	b.eq	.Lnoise_BB11_72
	cmp	w8, #78
	b.ne	.Lnoise_BB11_5
	ldurb	w8, [x29, #-47]
	cmp	w8, #88
	b.eq	.Lnoise_BB11_89
	cmp	w8, #78
	b.eq	.Lnoise_BB11_85
	cmp	w8, #75
	b.ne	.Lnoise_BB11_5
	mov	w1, #4
	b	.Lnoise_BB11_44
.Lnoise_BB11_54:
	mov	w1, wzr
	b	.Lnoise_BB11_56
.Lnoise_BB11_55:
	mov	w1, #2
.Lnoise_BB11_56:
	add	x0, sp, #1664
	bl	"noise_names::table::row"
	mov	w20, wzr
.Lnoise_BB11_57:
	mov	x0, sp
	add	x1, sp, #1664
	mov	w2, #272
	bl	memcpy
	mov	w21, w20
.Lnoise_BB11_58:
	add	x0, x19, #8
	mov	x1, sp
	mov	w2, #272
	stp	w20, w21, [x19]
	bl	memcpy
	add	sp, sp, #2032
	ldp	x20, x19, [sp, #32]
	ldp	x28, x21, [sp, #16]
	ldp	x29, x30, [sp], #48
	ret
.Lnoise_BB11_59:
	cmp	w8, #88
	b.eq	.Lnoise_BB11_80
	cmp	w8, #78
	b.ne	.Lnoise_BB11_57
	ldurb	w8, [x29, #-47]
	cmp	w8, #88
	b.eq	.Lnoise_BB11_97
	cmp	w8, #78
	b.eq	.Lnoise_BB11_93
	cmp	w8, #75
	b.ne	.Lnoise_BB11_57
	mov	w1, #4
	b	.Lnoise_BB11_56
.Lnoise_BB11_65:
	add	x0, sp, #272
	orr	x1, x21, #0x8
	mov	w2, #272
	bl	memcpy
	mov	w21, wzr
.Lnoise_BB11_66:
	add	x0, sp, #832
	add	x1, sp, #272
	mov	w2, #272
	bl	memcpy
.Lnoise_BB11_67:
	mov	x0, sp
	add	x1, sp, #832
	b	.Lnoise_BB11_32
.Lnoise_BB11_68:
	ldurb	w8, [x29, #-47]
	cmp	w8, #88
	b.eq	.Lnoise_BB11_90
	cmp	w8, #78
	b.eq	.Lnoise_BB11_86
	cmp	w8, #75
	b.ne	.Lnoise_BB11_5
	mov	w1, #13
	b	.Lnoise_BB11_44
.Lnoise_BB11_72:
	ldurb	w8, [x29, #-47]
	cmp	w8, #88
	b.eq	.Lnoise_BB11_91
	cmp	w8, #78
	b.eq	.Lnoise_BB11_87
	cmp	w8, #75
	b.ne	.Lnoise_BB11_5
	mov	w1, #10
	b	.Lnoise_BB11_44
.Lnoise_BB11_76:
	ldurb	w8, [x29, #-47]
	cmp	w8, #88
	b.eq	.Lnoise_BB11_98
	cmp	w8, #78
	b.eq	.Lnoise_BB11_94
	cmp	w8, #75
	b.ne	.Lnoise_BB11_57
	mov	w1, #13
	b	.Lnoise_BB11_56
.Lnoise_BB11_80:
	ldurb	w8, [x29, #-47]
	cmp	w8, #88
	b.eq	.Lnoise_BB11_99
	cmp	w8, #78
	b.eq	.Lnoise_BB11_95
	cmp	w8, #75
	b.ne	.Lnoise_BB11_57
	mov	w1, #10
	b	.Lnoise_BB11_56
.Lnoise_BB11_84:
	mov	w1, #6
	b	.Lnoise_BB11_44
.Lnoise_BB11_85:
	mov	w1, #3
	b	.Lnoise_BB11_44
.Lnoise_BB11_86:
	mov	w1, #12
	b	.Lnoise_BB11_44
.Lnoise_BB11_87:
	mov	w1, #9
	b	.Lnoise_BB11_44
.Lnoise_BB11_88:
	mov	w1, #8
	b	.Lnoise_BB11_44
.Lnoise_BB11_89:
	mov	w1, #5
	b	.Lnoise_BB11_44
.Lnoise_BB11_90:
	mov	w1, #14
	b	.Lnoise_BB11_44
.Lnoise_BB11_91:
	mov	w1, #11
	b	.Lnoise_BB11_44
.Lnoise_BB11_92:
	mov	w1, #6
	b	.Lnoise_BB11_56
.Lnoise_BB11_93:
	mov	w1, #3
	b	.Lnoise_BB11_56
.Lnoise_BB11_94:
	mov	w1, #12
	b	.Lnoise_BB11_56
.Lnoise_BB11_95:
	mov	w1, #9
	b	.Lnoise_BB11_56
.Lnoise_BB11_96:
	mov	w1, #8
	b	.Lnoise_BB11_56
.Lnoise_BB11_97:
	mov	w1, #5
	b	.Lnoise_BB11_56
.Lnoise_BB11_98:
	mov	w1, #14
	b	.Lnoise_BB11_56
.Lnoise_BB11_99:
	mov	w1, #11
	b	.Lnoise_BB11_56
.Lnoise_func_end11:
	.size	"noise_c::patterns::pattern_of", .Lnoise_func_end11-"noise_c::patterns::pattern_of"
	.cfi_endproc

	.section	".text.noise_names::pattern::Pattern::parse_text","ax",@progbits
	.p2align	2
	.type	"noise_names::pattern::Pattern::parse_text",@function
"noise_names::pattern::Pattern::parse_text":
	.cfi_startproc
	stp	x29, x30, [sp, #-96]!
	stp	x28, x27, [sp, #16]
	mov	x29, sp
	stp	x26, x25, [sp, #32]
	stp	x24, x23, [sp, #48]
	stp	x22, x21, [sp, #64]
	stp	x20, x19, [sp, #80]
	sub	sp, sp, #3072
	str	xzr, [sp]
	sub	sp, sp, #1600
	str	xzr, [sp]
	.cfi_def_cfa w29, 96
	.cfi_offset w19, -8
	.cfi_offset w20, -16
	.cfi_offset w21, -24
	.cfi_offset w22, -32
	.cfi_offset w23, -40
	.cfi_offset w24, -48
	.cfi_offset w25, -56
	.cfi_offset w26, -64
	.cfi_offset w27, -72
	.cfi_offset w28, -80
	.cfi_offset w30, -88
	.cfi_offset w29, -96
	movi	v0.2d, #0000000000000000
	mov	x20, x2
	mov	x21, x1
	mov	x19, x0
	add	x25, sp, #616
	add	x27, sp, #344
	add	x28, sp, #80
	add	x24, sp, #2288
	add	x8, sp, #2280
	add	x22, sp, #1456
	add	x0, sp, #1456
	mov	w1, wzr
	mov	w2, #552
	stur	wzr, [x25, #3]
	add	x23, sp, #888
	str	wzr, [sp, #616]
	stur	q0, [x27, #8]
	stur	q0, [x27, #24]
	stur	q0, [x27, #40]
	stur	q0, [x27, #56]
	stur	q0, [x27, #72]
	stur	q0, [x27, #88]
	stur	q0, [x27, #104]
	stur	q0, [x27, #120]
	stur	q0, [x27, #136]
	stur	q0, [x27, #152]
	stur	q0, [x27, #168]
	stur	q0, [x27, #184]
	stur	q0, [x27, #200]
	stur	q0, [x27, #216]
	stur	q0, [x27, #232]
	stur	q0, [x27, #248]
	stur	wzr, [x27, #3]
	str	wzr, [sp, #344]
	stp	q0, q0, [x28, #128]
	stp	q0, q0, [x28, #160]
	stp	q0, q0, [x28, #192]
	stp	q0, q0, [x28, #224]
	stp	q0, q0, [sp, #80]
	stp	q0, q0, [sp, #112]
	stp	q0, q0, [sp, #144]
	stp	q0, q0, [sp, #176]
	stur	wzr, [sp, #75]
	str	wzr, [sp, #72]
	stp	q0, q0, [x24, #144]
	stp	q0, q0, [x24, #176]
	stp	q0, q0, [x24, #208]
	stp	q0, q0, [x24, #240]
	stp	q0, q0, [x24, #288]
	stp	q0, q0, [x24, #320]
	stp	q0, q0, [x24, #352]
	stp	q0, q0, [x24, #384]
	stp	q0, q0, [x24, #416]
	stp	q0, q0, [x24, #448]
	stp	q0, q0, [x24, #480]
	stp	q0, q0, [x24, #512]
	stp	q0, q0, [x24, #560]
	stp	q0, q0, [x24, #592]
	stp	q0, q0, [x24, #624]
	stp	q0, q0, [x24, #656]
	stp	q0, q0, [x24, #688]
	stp	q0, q0, [x24, #720]
	stp	q0, q0, [x24, #752]
	stp	q0, q0, [x24, #784]
	str	q0, [x24, #816]
	str	xzr, [sp, #2832]
	str	xzr, [sp, #2560]
	stp	q0, q0, [x24, #16]
	stp	q0, q0, [x24, #48]
	stp	q0, q0, [x24, #80]
	stp	q0, q0, [x24, #112]
	str	q0, [x24]
	stur	wzr, [x8, #3]
	str	wzr, [sp, #2280]
	stp	q0, q0, [x22, #560]
	stp	q0, q0, [x22, #592]
	stp	q0, q0, [x22, #624]
	stp	q0, q0, [x22, #656]
	stp	q0, q0, [x22, #688]
	stp	q0, q0, [x22, #720]
	stp	q0, q0, [x22, #752]
	stp	q0, q0, [x22, #784]
	bl	memset
	add	x0, sp, #896
	mov	w1, wzr
	mov	w2, #552
	bl	memset
	movi	v0.2d, #0000000000000000
	str	wzr, [sp, #888]
	stur	wzr, [x23, #3]
	stur	q0, [x25, #8]
	stur	q0, [x25, #24]
	stur	q0, [x25, #40]
	stur	q0, [x25, #56]
	stur	q0, [x25, #72]
	stur	q0, [x25, #88]
	stur	q0, [x25, #104]
	stur	q0, [x25, #120]
	stur	q0, [x25, #136]
	stur	q0, [x25, #152]
	stur	q0, [x25, #168]
	stur	q0, [x25, #184]
	stur	q0, [x25, #200]
	stur	q0, [x25, #216]
	stur	q0, [x25, #232]
	stur	q0, [x25, #248]
	str	q0, [x24, #1456]
	str	q0, [x24, #1440]
	str	q0, [x24, #1424]
	cbz	x20, .Lnoise_BB12_11
	mov	x23, xzr
.Lnoise_BB12_2:
	ldrb	w8, [x21, x23]
	cmp	w8, #58
	b.eq	.Lnoise_BB12_4
	add	x23, x23, #1
	cmp	x20, x23
	b.ne	.Lnoise_BB12_2
	b	.Lnoise_BB12_11
.Lnoise_BB12_4:
	subs	x9, x20, x23
	b.eq	.Lnoise_BB12_11
	add	x26, x21, x23
	ldrb	w8, [x26]
	cmp	w8, #58
	b.ne	.Lnoise_BB12_11
	add	x0, sp, #3712
	mov	x1, x21
	mov	x2, x23
	str	x9, [sp, #64]
	bl	"noise_names::section::parse_section"
	ldrb	w8, [sp, #3712]
	cbnz	w8, .Lnoise_BB12_11
	add	x8, sp, #3712
	ldr	x9, [sp, #3752]
	ldur	q0, [x8, #8]
	ldur	q1, [x8, #24]
	sub	x8, x20, #1
	cmp	x8, x23
	str	x9, [sp, #3152]
	stp	q0, q1, [x24, #832]
	b.eq	.Lnoise_BB12_11
	ldrb	w8, [x26, #1]
	cmp	w8, #10
	b.ne	.Lnoise_BB12_11
	movi	v0.2d, #0000000000000000
	ldr	x26, [sp, #3128]
	add	x0, sp, #3120
	str	xzr, [sp, #3424]
	mov	x1, x26
	str	q0, [x24, #1120]
	str	q0, [x24, #1104]
	str	q0, [x24, #1088]
	str	q0, [x24, #1072]
	str	q0, [x24, #1056]
	str	q0, [x24, #1040]
	stp	q0, q0, [x24, #880]
	stp	q0, q0, [x24, #912]
	stp	q0, q0, [x24, #944]
	stp	q0, q0, [x24, #976]
	stp	q0, q0, [x24, #1008]
	bl	"noise_names::table::place_of"
	tbz	w0, #0, .Lnoise_BB12_29
	add	x0, sp, #3712
	bl	"noise_names::table::row"
	add	x0, sp, #3440
	add	x1, sp, #3712
	mov	w2, #264
	bl	memcpy
	ldr	x23, [sp, #3976]
	add	x0, sp, #2576
	add	x1, sp, #3440
	mov	w2, #264
	bl	memcpy
	b	.Lnoise_BB12_176
.Lnoise_BB12_11:
	movi	v0.2d, #0000000000000000
	stur	wzr, [x25, #3]
	str	wzr, [sp, #616]
.Lnoise_BB12_12:
	stur	q0, [x27, #8]
	stur	q0, [x27, #24]
	stur	q0, [x27, #40]
	stur	q0, [x27, #56]
	stur	q0, [x27, #72]
	stur	q0, [x27, #88]
	stur	q0, [x27, #104]
	stur	q0, [x27, #120]
	stur	q0, [x27, #136]
	stur	q0, [x27, #152]
	stur	q0, [x27, #168]
	stur	q0, [x27, #184]
	stur	q0, [x27, #200]
	stur	q0, [x27, #216]
	stur	q0, [x27, #232]
	stur	q0, [x27, #248]
.Lnoise_BB12_13:
	movi	v0.2d, #0000000000000000
	stp	q0, q0, [x22, #16]
	str	q0, [x22]
	cbz	x20, .Lnoise_BB12_20
	mov	x23, xzr
.Lnoise_BB12_15:
	ldrb	w8, [x21, x23]
	cmp	w8, #58
	b.eq	.Lnoise_BB12_17
	add	x23, x23, #1
	cmp	x20, x23
	b.ne	.Lnoise_BB12_15
	b	.Lnoise_BB12_20
.Lnoise_BB12_17:
	subs	x25, x20, x23
	b.eq	.Lnoise_BB12_20
	add	x26, x21, x23
	ldrb	w8, [x26]
	cmp	w8, #58
	b.ne	.Lnoise_BB12_20
	add	x0, sp, #1456
	mov	x1, x21
	mov	x2, x23
	bl	"noise_names::section::parse_section"
	ldrb	w8, [sp, #1456]
	cbz	w8, .Lnoise_BB12_24
.Lnoise_BB12_20:
	mov	w8, wzr
.Lnoise_BB12_21:
	mov	w26, #1
.Lnoise_BB12_22:
	ldr	w9, [sp, #72]
	ldur	w10, [sp, #75]
	str	w9, [sp, #344]
	mov	w9, #1
	stur	w10, [x27, #3]
.Lnoise_BB12_23:
	ldp	q0, q1, [x28, #192]
	stp	x9, x26, [x19]
	ldr	w9, [sp, #344]
	strb	w8, [x19, #16]
	ldur	w8, [x27, #3]
	stur	q1, [x19, #232]
	ldp	q2, q1, [x28, #224]
	stur	q0, [x19, #216]
	stur	w9, [x19, #17]
	stur	q2, [x19, #248]
	ldp	q0, q2, [x28, #128]
	str	w8, [x19, #20]
	add	x8, x19, #24
	str	q1, [x8, #240]
	stur	q0, [x19, #152]
	stur	q2, [x19, #168]
	ldp	q0, q2, [x28, #160]
	stur	q0, [x19, #184]
	stur	q2, [x19, #200]
	ldp	q0, q2, [sp, #144]
	stur	q0, [x19, #88]
	stur	q2, [x19, #104]
	ldp	q0, q2, [sp, #176]
	stur	q0, [x19, #120]
	stur	q2, [x19, #136]
	ldp	q0, q2, [sp, #80]
	stur	q0, [x19, #24]
	stur	q2, [x19, #40]
	ldp	q0, q2, [sp, #112]
	stur	q0, [x19, #56]
	stur	q2, [x19, #72]
	add	sp, sp, #1, lsl #12
	add	sp, sp, #576
	ldp	x20, x19, [sp, #80]
	ldp	x22, x21, [sp, #64]
	ldp	x24, x23, [sp, #48]
	ldp	x26, x25, [sp, #32]
	ldp	x28, x27, [sp, #16]
	ldp	x29, x30, [sp], #96
	ret
.Lnoise_BB12_24:
	ldur	q0, [x22, #8]
	ldur	q1, [x22, #24]
	sub	x8, x20, #1
	ldr	x9, [sp, #1496]
	cmp	x8, x23
	stp	q0, q1, [x24]
	str	x9, [sp, #2320]
	b.ne	.Lnoise_BB12_26
	mov	w8, #8
	b	.Lnoise_BB12_21
.Lnoise_BB12_26:
	ldrb	w8, [x26, #1]
	add	x9, x21, x23
	sub	x25, x25, #2
	add	x0, x9, #2
	cmp	w8, #10
	csel	x24, x0, xzr, eq
	csel	x21, x25, xzr, eq
	b.ne	.Lnoise_BB12_20
	sub	x8, x20, #2
	cmp	x8, x23
	b.ne	.Lnoise_BB12_31
	mov	w26, #2
	mov	w8, #8
	b	.Lnoise_BB12_22
.Lnoise_BB12_29:
	add	x8, x21, x23
	movi	v0.2d, #0000000000000000
	str	x26, [sp, #24]
	add	x28, x8, #2
	ldr	x8, [sp, #64]
	add	x26, sp, #3712
	add	x0, sp, #3712
	mov	w1, wzr
	mov	x2, x28
	sub	x23, x8, #2
	str	xzr, [sp, #3696]
	mov	x3, x23
	str	q0, [x24, #1392]
	str	q0, [x24, #1376]
	str	q0, [x24, #1360]
	str	q0, [x24, #1344]
	str	q0, [x24, #1328]
	str	q0, [x24, #1312]
	str	q0, [x24, #1296]
	str	q0, [x24, #1280]
	str	q0, [x24, #1264]
	str	q0, [x24, #1248]
	str	q0, [x24, #1232]
	str	q0, [x24, #1216]
	str	q0, [x24, #1200]
	str	q0, [x24, #1184]
	str	q0, [x24, #1168]
	str	q0, [x24, #1152]
	stp	xzr, xzr, [x29, #-176]
	stp	xzr, xzr, [x29, #-192]
	stp	q0, q0, [x26, #272]
	stp	q0, q0, [x26, #304]
	stp	q0, q0, [x26, #336]
	stp	q0, q0, [x26, #368]
	stp	q0, q0, [x26, #400]
	stp	q0, q0, [x26, #432]
	stp	q0, q0, [x26, #464]
	stp	q0, q0, [x26, #496]
	stp	q0, q0, [x26, #544]
	stp	q0, q0, [x26, #576]
	stp	q0, q0, [x26, #608]
	stp	q0, q0, [x26, #640]
	stp	q0, q0, [x26, #672]
	stp	q0, q0, [x26, #704]
	str	xzr, [sp, #3744]
	stp	q0, q0, [x26]
	stp	q0, q0, [x26, #736]
	str	xzr, [sp, #4240]
	stp	xzr, xzr, [x29, #-144]
	stp	q0, q0, [x26, #848]
	bl	"noise_names::text::read::read_line"
	ldrb	w8, [sp, #3712]
	stp	x28, x23, [sp, #56]
	cmp	w8, #1
	b.ne	.Lnoise_BB12_41
	ldur	q0, [x26, #8]
	ldr	x28, [sp, #3736]
	ldr	x23, [sp, #3744]
	str	q0, [x26, #800]
	b	.Lnoise_BB12_42
.Lnoise_BB12_31:
	add	x8, sp, #2288
	ldr	x9, [sp, #2320]
	mov	w17, #8224
	add	x8, x8, #16
	movk	w17, #11822, lsl #16
	stp	x8, x9, [sp, #56]
.Lnoise_BB12_32:
	mov	x20, xzr
.Lnoise_BB12_33:
	ldrb	w8, [x0, x20]
	cmp	w8, #10
	b.eq	.Lnoise_BB12_36
	add	x20, x20, #1
	cmp	x25, x20
	b.ne	.Lnoise_BB12_33
	mov	x20, x25
.Lnoise_BB12_36:
	add	x8, x0, x20
	cmp	x25, x20
	cinc	x26, x8, ne
	cmp	x20, #5
	b.ne	.Lnoise_BB12_39
	ldr	w8, [x0]
	cmp	w8, w17
	b.ne	.Lnoise_BB12_39
	adrp	x2, .Lnoise_static.96
	add	x2, x2, :lo12:.Lnoise_static.96
	mov	w1, #5
	bl	"core::cmp::slices::groups_equal::<i8,31'core::cmp::numbers::U8PartialEq{}>"
	mov	w17, #8224
	movk	w17, #11822, lsl #16
	tbnz	w0, #0, .Lnoise_BB12_68
.Lnoise_BB12_39:
	cmp	x25, x20
	mov	w23, wzr
	b.eq	.Lnoise_BB12_69
	mvn	x8, x20
	mov	x0, x26
	add	x25, x25, x8
	cbnz	x25, .Lnoise_BB12_32
	b	.Lnoise_BB12_69
.Lnoise_BB12_41:
	stp	xzr, xzr, [x29, #-160]
.Lnoise_BB12_42:
	movi	v0.2d, #0000000000000000
	add	x8, sp, #3712
	add	x0, sp, #3712
	mov	w1, #1
	mov	x2, x28
	mov	x3, x23
	str	xzr, [sp, #3744]
	add	x26, sp, #3712
	stp	q0, q0, [x8]
	bl	"noise_names::text::read::read_line"
	ldrb	w8, [sp, #3712]
	cmp	w8, #1
	b.ne	.Lnoise_BB12_44
	ldur	q0, [x26, #8]
	ldr	x28, [sp, #3736]
	ldr	x23, [sp, #3744]
	str	q0, [x26, #912]
	b	.Lnoise_BB12_45
.Lnoise_BB12_44:
	stp	xzr, xzr, [x29, #-48]
.Lnoise_BB12_45:
	add	x9, sp, #3712
	subs	x8, x23, #6
	ldr	q0, [x9, #912]
	str	q0, [x9, #816]
	b.hs	.Lnoise_BB12_47
.Lnoise_BB12_46:
	movi	v0.2d, #0000000000000000
	ldp	x2, x3, [sp, #56]
	add	x9, sp, #3712
	stp	q0, q0, [x9, #848]
	b	.Lnoise_BB12_51
.Lnoise_BB12_47:
	ldur	w9, [x28, #2]
	mov	w10, #11822
	movk	w10, #2606, lsl #16
	cmp	w9, w10
	b.ne	.Lnoise_BB12_46
	ldrb	w9, [x28]
	cmp	w9, #32
	b.ne	.Lnoise_BB12_46
	ldrb	w9, [x28, #1]
	cmp	w9, #32
	b.ne	.Lnoise_BB12_46
	add	x9, sp, #3712
	add	x2, x28, #6
	mov	x3, x8
	ldp	q0, q1, [x9, #800]
	stp	q0, q1, [x9, #848]
.Lnoise_BB12_51:
	movi	v2.2d, #0000000000000000
	ldp	q0, q1, [x9, #848]
	sub	x0, x29, #112
	mov	w1, wzr
	stur	xzr, [x29, #-80]
	str	xzr, [sp, #3904]
	sub	x26, x29, #112
	stp	q0, q1, [x9, #736]
	stp	q2, q2, [x9]
	stp	q2, q2, [x9, #32]
	stp	q2, q2, [x9, #64]
	stp	q2, q2, [x9, #96]
	stp	q2, q2, [x9, #128]
	stp	q2, q2, [x9, #160]
	stp	q1, q0, [x9, #768]
	stp	q2, q2, [x9, #848]
	bl	"noise_names::text::read::read_line"
	add	x9, sp, #3712
	ldrb	w8, [x9, #848]
	cmp	w8, #1
	b.ne	.Lnoise_BB12_57
	ldr	x10, [sp, #3904]
	mov	w28, wzr
	orr	x11, x26, #0x8
	str	x11, [sp, #32]
	add	x8, x10, x10, lsl #1
	lsl	x23, x8, #3
.Lnoise_BB12_53:
	ldr	x11, [sp, #32]
	ldr	q0, [x11]
	str	q0, [x9, #896]
	ldur	x26, [x29, #-56]
	cbz	x26, .Lnoise_BB12_58
	cmp	x10, #8
	b.eq	.Lnoise_BB12_58
	ldur	x9, [x29, #-88]
	cmp	x26, #11
	stp	xzr, xzr, [x29, #-48]
	stp	x9, x10, [sp, #56]
	ldur	x9, [x29, #-80]
	str	x9, [sp, #48]
	b.hs	.Lnoise_BB12_201
	sub	x0, x29, #48
	sub	x1, x29, #64
	mov	x2, x26
	bl	memcpy
	add	x8, sp, #3712
	add	x9, sp, #3712
	str	x23, [sp, #40]
	add	x8, x8, x23
	ldp	x2, x23, [sp, #56]
	ldr	q0, [x9, #912]
	eor	w28, w28, #0x1
	ldr	x3, [sp, #48]
	sub	x0, x29, #112
	mov	w1, w28
	stur	x26, [x29, #-128]
	str	q0, [x9, #816]
	add	x23, x23, #1
	str	x26, [x8, #16]
	str	q0, [x8]
	bl	"noise_names::text::read::read_line"
	add	x9, sp, #3712
	mov	x10, x23
	ldr	x23, [sp, #40]
	ldrb	w8, [x9, #848]
	add	x23, x23, #24
	cmp	w8, #1
	b.eq	.Lnoise_BB12_53
	b	.Lnoise_BB12_58
.Lnoise_BB12_57:
	ldr	x10, [sp, #3904]
.Lnoise_BB12_58:
	ldp	q0, q1, [x9, #128]
	add	x28, sp, #80
	stp	q0, q1, [x9, #672]
	ldp	q0, q2, [x9, #160]
	stp	q0, q2, [x9, #704]
	ldp	q1, q0, [x9, #64]
	stp	q1, q0, [x9, #608]
	ldp	q2, q0, [x9, #96]
	stp	q2, q0, [x9, #640]
	ldp	q1, q0, [x9]
	stp	q1, q0, [x9, #544]
	ldp	q2, q0, [x9, #32]
	stp	q2, q0, [x9, #576]
	cbz	x10, .Lnoise_BB12_178
	ldur	x26, [x29, #-168]
	ldur	x11, [x29, #-184]
	cbz	x26, .Lnoise_BB12_65
	cmp	x26, #1
	b.ne	.Lnoise_BB12_62
	ldrb	w8, [x9, #784]
	cmp	w8, #2
	b.lo	.Lnoise_BB12_65
	b	.Lnoise_BB12_178
.Lnoise_BB12_62:
	cmp	x26, #2
	b.hi	.Lnoise_BB12_178
	ldrb	w8, [x9, #784]
	cbnz	w8, .Lnoise_BB12_178
	ldrb	w8, [x9, #785]
	cmp	w8, #1
	b.ne	.Lnoise_BB12_178
.Lnoise_BB12_65:
	cbz	x11, .Lnoise_BB12_174
	cmp	x11, #1
	b.ne	.Lnoise_BB12_171
	ldrb	w8, [x9, #768]
	cmp	w8, #2
	b.hs	.Lnoise_BB12_178
	b	.Lnoise_BB12_174
.Lnoise_BB12_68:
	mov	w23, #1
.Lnoise_BB12_69:
	add	x8, sp, #1456
	mov	w4, wzr
	mov	w5, wzr
	add	x18, x8, #24
	orr	x0, x8, #0x1
	mov	w26, #2
.Lnoise_BB12_70:
	mov	x25, xzr
.Lnoise_BB12_71:
	ldrb	w8, [x24, x25]
	cmp	w8, #10
	b.eq	.Lnoise_BB12_74
	add	x25, x25, #1
	cmp	x21, x25
	b.ne	.Lnoise_BB12_71
	mov	x25, x21
.Lnoise_BB12_74:
	and	w20, w4, #0xff0000
	and	w9, w4, #0xff00
	add	x8, x24, x25
	bfi	w20, w5, #24, #8
	cmp	x21, x25
	cinc	x1, x8, ne
	cmp	x25, #5
	orr	w2, w20, w9
	lsr	w7, w20, #16
	lsr	w6, w2, #8
	b.ne	.Lnoise_BB12_78
	ldr	w8, [x24]
	cmp	w8, w17
	b.ne	.Lnoise_BB12_80
	str	w2, [sp, #24]
	adrp	x2, .Lnoise_static.96
	add	x2, x2, :lo12:.Lnoise_static.96
	stp	x1, x18, [sp, #32]
	mov	w1, #5
	str	x0, [sp, #48]
	mov	x0, x24
	stp	w7, w6, [sp, #16]
	stp	w5, w4, [sp, #8]
	bl	"core::cmp::slices::groups_equal::<i8,31'core::cmp::numbers::U8PartialEq{}>"
	tbz	w0, #0, .Lnoise_BB12_81
	ldp	w9, w8, [sp, #16]
	ldp	x18, x0, [sp, #40]
	mov	w17, #8224
	ldr	x1, [sp, #32]
	movk	w17, #11822, lsl #16
	orr	w8, w8, w9
	and	w8, w23, w8
	ldr	w23, [sp, #24]
	tbnz	w8, #0, .Lnoise_BB12_163
	b	.Lnoise_BB12_196
.Lnoise_BB12_78:
	b.lo	.Lnoise_BB12_191
	ldrb	w8, [x24]
	ldrb	w12, [x24, #1]
	ldrb	w10, [x24, #2]
	ldrb	w11, [x24, #3]
	b	.Lnoise_BB12_82
.Lnoise_BB12_80:
	ldrb	w11, [x24, #3]
	ldrb	w10, [x24, #2]
	ldrb	w12, [x24, #1]
	ldrb	w8, [x24]
	b	.Lnoise_BB12_82
.Lnoise_BB12_81:
	ldp	x18, x0, [sp, #40]
	mov	w17, #8224
	ldp	w6, w2, [sp, #20]
	ldp	w5, w4, [sp, #8]
	ldr	x1, [sp, #32]
	ldr	w7, [sp, #16]
	mov	w12, #32
	mov	w11, #46
	mov	w10, #46
	mov	w8, #32
	movk	w17, #11822, lsl #16
.Lnoise_BB12_82:
	cmp	w11, #62
	ldrb	w13, [x24, #4]
	mov	w9, #45
	ccmp	w10, w9, #0, eq
	mov	w9, #32
	ccmp	w13, w9, #0, eq
	ccmp	w12, w9, #0, eq
	ccmp	w8, w9, #0, eq
	cset	w9, eq
	b.eq	.Lnoise_BB12_88
	cmp	w8, #32
	mov	w8, #1
	b.ne	.Lnoise_BB12_22
	cmp	w12, #32
	b.ne	.Lnoise_BB12_22
	cmp	w11, #45
	b.ne	.Lnoise_BB12_22
	cmp	w10, #60
	b.ne	.Lnoise_BB12_22
	cmp	w13, #32
	b.ne	.Lnoise_BB12_22
.Lnoise_BB12_88:
	movi	v0.2d, #0000000000000000
	subs	x8, x25, #5
	stp	q0, q0, [x22, #16]
	str	q0, [x22]
	b.eq	.Lnoise_BB12_170
	lsl	w10, w5, #24
	mov	x11, xzr
	and	w3, w23, #0xff
	add	x12, x24, #5
.Lnoise_BB12_90:
	mov	x13, xzr
.Lnoise_BB12_91:
	ldrb	w14, [x12, x13]
	sub	w14, w14, #97
	cmp	w14, #25
	b.hi	.Lnoise_BB12_94
	add	x13, x13, #1
	cmp	x8, x13
	b.ne	.Lnoise_BB12_91
	mov	x13, x8
.Lnoise_BB12_94:
	cmp	x13, #1
	b.eq	.Lnoise_BB12_102
	cbz	x13, .Lnoise_BB12_170
	cmp	x13, #2
	b.hi	.Lnoise_BB12_105
	ldrb	w14, [x12]
	cmp	w14, #115
	b.eq	.Lnoise_BB12_121
	cmp	w14, #101
	b.ne	.Lnoise_BB12_170
	ldrb	w14, [x12, #1]
	cmp	w14, #101
	b.eq	.Lnoise_BB12_125
	cmp	w14, #115
	b.ne	.Lnoise_BB12_170
	mov	w15, wzr
	mov	w14, #3
	b	.Lnoise_BB12_111
.Lnoise_BB12_102:
	ldrb	w14, [x12]
	cmp	w14, #101
	b.eq	.Lnoise_BB12_110
	cmp	w14, #115
	b.ne	.Lnoise_BB12_170
	mov	w15, wzr
	mov	w14, #1
	b	.Lnoise_BB12_111
.Lnoise_BB12_105:
	cmp	x13, #3
	b.ne	.Lnoise_BB12_170
	ldrb	w14, [x12]
	cmp	w14, #112
	b.ne	.Lnoise_BB12_170
	ldrb	w14, [x12, #1]
	cmp	w14, #115
	b.ne	.Lnoise_BB12_170
	ldrb	w14, [x12, #2]
	cmp	w14, #107
	b.ne	.Lnoise_BB12_170
	mov	w14, #6
	mov	w15, #1
	b	.Lnoise_BB12_111
.Lnoise_BB12_110:
	mov	w15, wzr
	mov	w14, wzr
.Lnoise_BB12_111:
	cmp	x11, #11
	b.eq	.Lnoise_BB12_113
	add	x16, sp, #1456
	strb	w14, [x16, x11]
	add	x11, x11, #1
	str	x11, [sp, #1472]
.Lnoise_BB12_113:
	tbnz	w15, #0, .Lnoise_BB12_116
	ldr	x15, [sp, #1496]
	cmp	x15, #9
	b.eq	.Lnoise_BB12_116
	strb	w14, [x18, x15]
	add	x14, x15, #1
	str	x14, [sp, #1496]
.Lnoise_BB12_116:
	cmp	x8, x13
	b.eq	.Lnoise_BB12_126
	sub	x8, x8, x13
	subs	x8, x8, #2
	b.lo	.Lnoise_BB12_170
	add	x12, x12, x13
	ldrb	w13, [x12]
	cmp	w13, #44
	b.ne	.Lnoise_BB12_170
	ldrb	w13, [x12, #1]
	cmp	w13, #32
	b.ne	.Lnoise_BB12_170
	add	x12, x12, #2
	cbnz	x8, .Lnoise_BB12_90
	b	.Lnoise_BB12_170
.Lnoise_BB12_121:
	ldrb	w14, [x12, #1]
	cmp	w14, #101
	b.eq	.Lnoise_BB12_124
	cmp	w14, #115
	b.ne	.Lnoise_BB12_170
	mov	w15, wzr
	mov	w14, #5
	b	.Lnoise_BB12_111
.Lnoise_BB12_124:
	mov	w15, wzr
	mov	w14, #4
	b	.Lnoise_BB12_111
.Lnoise_BB12_125:
	mov	w15, wzr
	mov	w14, #2
	b	.Lnoise_BB12_111
.Lnoise_BB12_126:
	ldp	q0, q1, [x22]
	add	x8, sp, #888
	ldr	q2, [x22, #32]
	stur	q0, [x8, #8]
	stur	q1, [x8, #24]
	stur	q2, [x8, #40]
	tbz	w23, #0, .Lnoise_BB12_129
	cbz	w9, .Lnoise_BB12_135
	orr	w8, w6, w7
	tbz	w8, #0, .Lnoise_BB12_136
	b	.Lnoise_BB12_196
.Lnoise_BB12_129:
	and	w8, w5, #0x1
	cmp	w9, w8
	b.eq	.Lnoise_BB12_198
	and	w8, w5, #0xff
	cmp	w8, #7
	b.hi	.Lnoise_BB12_200
	ldr	x23, [sp, #936]
	mov	w8, #7
	cbz	x23, .Lnoise_BB12_22
	cmp	x23, #9
	b.eq	.Lnoise_BB12_22
	add	w9, w5, #1
	add	w8, w5, #1
	tst	w5, #0xff
	stp	x18, x0, [sp, #40]
	stp	w8, w3, [sp, #16]
	strb	w9, [sp, #2848]
	str	xzr, [sp, #1464]
	str	xzr, [sp, #1456]
	b.eq	.Lnoise_BB12_139
	mov	x24, xzr
	add	x0, sp, #1456
	b	.Lnoise_BB12_147
.Lnoise_BB12_135:
	tbnz	w20, #16, .Lnoise_BB12_196
.Lnoise_BB12_136:
	ldr	x8, [sp, #912]
	cbz	x8, .Lnoise_BB12_144
	cmp	x8, #1
	b.ne	.Lnoise_BB12_141
	ldrb	w8, [sp, #896]
	cmp	w8, #2
	b.lo	.Lnoise_BB12_144
	b	.Lnoise_BB12_196
.Lnoise_BB12_139:
	mov	x20, x1
	ldp	x0, x1, [sp, #56]
	str	w2, [sp, #24]
	adrp	x2, .Lnoise_static.2
	add	x2, x2, :lo12:.Lnoise_static.2
	bl	"core::slice::reads::slice+T::contains::<i8,31'core::cmp::numbers::U8PartialEq{}>"
	cbz	w0, .Lnoise_BB12_145
	ldr	x0, [sp, #48]
	mov	w8, #6
	mov	w24, #1
	strb	w8, [sp, #1456]
	b	.Lnoise_BB12_146
.Lnoise_BB12_141:
	cmp	x8, #2
	mov	w8, #3
	b.hi	.Lnoise_BB12_22
	ldrb	w11, [sp, #896]
	cbnz	w11, .Lnoise_BB12_22
	ldrb	w11, [sp, #897]
	cmp	w11, #1
	b.ne	.Lnoise_BB12_22
.Lnoise_BB12_144:
	and	w8, w4, #0x100
	and	w11, w4, #0x10000
	cmp	w9, #0
	orr	w11, w11, #0x100
	orr	w8, w8, #0x10000
	csel	w8, w11, w8, ne
	orr	w8, w8, w10
	b	.Lnoise_BB12_162
.Lnoise_BB12_145:
	mov	x24, xzr
	add	x0, sp, #1456
.Lnoise_BB12_146:
	ldr	w2, [sp, #24]
	mov	x1, x20
.Lnoise_BB12_147:
	mov	w8, #10
	str	x1, [sp, #32]
	sub	x8, x8, x24
	cmp	x8, x23
	b.lo	.Lnoise_BB12_201
	add	x8, sp, #896
	mov	w20, w2
	mov	x2, x23
	add	x1, x8, #24
	bl	memcpy
	ldp	x0, x1, [sp, #56]
	add	x23, x24, x23
	add	x2, sp, #2848
	str	x23, [sp, #1472]
	bl	"core::slice::reads::slice+T::contains::<i8,31'core::cmp::numbers::U8PartialEq{}>"
	tbz	w0, #0, .Lnoise_BB12_150
	add	x8, sp, #1456
	add	x10, x23, #1
	mov	w9, #6
	strb	w9, [x8, x23]
	str	x10, [sp, #1472]
.Lnoise_BB12_150:
	ldr	x1, [sp, #1472]
	ldr	x8, [sp, #912]
	add	x9, sp, #3712
	ldr	q0, [x22]
	cmp	x1, x8
	str	x1, [sp, #3728]
	str	q0, [x9]
	b.ne	.Lnoise_BB12_197
	cmp	x1, #4
	b.hs	.Lnoise_BB12_156
	cbz	x1, .Lnoise_BB12_158
	ldrb	w8, [sp, #3712]
	ldrb	w9, [sp, #896]
	cmp	w8, w9
	b.ne	.Lnoise_BB12_159
	cmp	x1, #1
	b.ne	.Lnoise_BB12_165
.Lnoise_BB12_155:
	ldr	w3, [sp, #20]
	add	x28, sp, #80
	b	.Lnoise_BB12_161
.Lnoise_BB12_156:
	ldr	w8, [sp, #3712]
	ldr	w9, [sp, #896]
	cmp	w8, w9
	b.ne	.Lnoise_BB12_197
	add	x0, sp, #3712
	add	x2, sp, #896
	bl	"core::cmp::slices::groups_equal::<#1549cde59530a8ca>"
	ldr	w3, [sp, #20]
	cbnz	w0, .Lnoise_BB12_161
	b	.Lnoise_BB12_197
.Lnoise_BB12_158:
	ldr	w3, [sp, #20]
	b	.Lnoise_BB12_161
.Lnoise_BB12_159:
	mov	x8, xzr
.Lnoise_BB12_160:
	ldr	w3, [sp, #20]
	cmp	x8, x1
	add	x28, sp, #80
	b.lo	.Lnoise_BB12_197
.Lnoise_BB12_161:
	ldr	w9, [sp, #16]
	and	w8, w20, #0xffff00
	mov	w17, #8224
	ldp	x18, x0, [sp, #40]
	ldr	x1, [sp, #32]
	orr	w8, w8, w9, lsl #24
	movk	w17, #11822, lsl #16
.Lnoise_BB12_162:
	orr	w23, w8, w3
.Lnoise_BB12_163:
	cmp	x21, x25
	b.eq	.Lnoise_BB12_195
	mvn	x8, x25
	lsr	w5, w23, #24
	add	x26, x26, #1
	add	x21, x21, x8
	mov	x24, x1
	mov	w4, w23
	cbnz	x21, .Lnoise_BB12_70
	b	.Lnoise_BB12_192
.Lnoise_BB12_165:
	ldrb	w8, [sp, #3713]
	ldrb	w9, [sp, #897]
	cmp	w8, w9
	b.ne	.Lnoise_BB12_169
	cmp	x1, #2
	b.eq	.Lnoise_BB12_155
	ldrb	w8, [sp, #3714]
	ldrb	w9, [sp, #898]
	cmp	w8, w9
	b.eq	.Lnoise_BB12_155
	mov	w8, #2
	b	.Lnoise_BB12_160
.Lnoise_BB12_169:
	mov	w8, #1
	b	.Lnoise_BB12_160
.Lnoise_BB12_170:
	mov	w8, #2
	b	.Lnoise_BB12_22
.Lnoise_BB12_171:
	cmp	x11, #2
	b.hi	.Lnoise_BB12_178
	ldrb	w8, [x9, #768]
	cbnz	w8, .Lnoise_BB12_178
	ldrb	w8, [x9, #769]
	cmp	w8, #1
	b.ne	.Lnoise_BB12_178
.Lnoise_BB12_174:
	ldr	x23, [sp, #24]
	stp	x11, x10, [sp, #56]
	stur	xzr, [x29, #-112]
	cmp	x23, #9
	b.hs	.Lnoise_BB12_201
	sub	x0, x29, #112
	add	x1, sp, #3120
	mov	x2, x23
	bl	memcpy
	sub	x0, x29, #48
	sub	x1, x29, #176
	mov	x2, x26
	stur	x23, [x29, #-104]
	stur	xzr, [x29, #-48]
	bl	memcpy
	ldr	x23, [sp, #56]
	sub	x0, x29, #144
	sub	x1, x29, #192
	stur	x26, [x29, #-40]
	mov	x2, x23
	stur	xzr, [x29, #-144]
	bl	memcpy
	add	x8, sp, #3712
	stur	x23, [x29, #-136]
	add	x0, sp, #3984
	ldr	q0, [x8, #848]
	ldr	q1, [x8, #912]
	add	x1, sp, #3712
	mov	w2, #264
	str	xzr, [sp, #3744]
	str	q0, [x8]
	ldr	q0, [x8, #816]
	stur	q1, [x8, #40]
	stur	q0, [x8, #56]
	ldp	q0, q1, [x8, #576]
	str	xzr, [sp, #3728]
	str	xzr, [sp, #3736]
	stur	q1, [x8, #120]
	stur	q0, [x8, #104]
	ldp	q0, q1, [x8, #544]
	stur	q1, [x8, #88]
	stur	q0, [x8, #72]
	ldp	q0, q1, [x8, #640]
	stur	q1, [x8, #184]
	stur	q0, [x8, #168]
	ldp	q0, q1, [x8, #608]
	stur	q1, [x8, #152]
	stur	q0, [x8, #136]
	ldp	q0, q1, [x8, #704]
	stur	q1, [x8, #248]
	stur	q0, [x8, #232]
	ldp	q0, q1, [x8, #672]
	stur	q1, [x8, #216]
	stur	q0, [x8, #200]
	bl	memcpy
	add	x0, sp, #3168
	add	x1, sp, #3984
	mov	w2, #264
	bl	memcpy
	add	x0, sp, #2576
	add	x1, sp, #3168
	mov	w2, #264
	bl	memcpy
	ldr	x23, [sp, #64]
.Lnoise_BB12_176:
	add	x0, sp, #2848
	add	x1, sp, #2576
	mov	w2, #264
	bl	memcpy
	add	x8, sp, #3120
	add	x0, sp, #2288
	add	x1, sp, #2848
	add	x2, x8, #16
	str	x23, [sp, #3112]
	add	x23, sp, #2288
	bl	"noise_names::pattern::Pattern::with_psks"
	ldrb	w8, [sp, #2288]
	cbz	w8, .Lnoise_BB12_179
	ldp	q0, q1, [x22, #752]
	add	x9, sp, #2280
	ldr	w8, [sp, #2280]
	ldur	w9, [x9, #3]
	stur	q0, [x27, #200]
	stur	q1, [x27, #216]
	ldp	q0, q1, [x22, #784]
	str	w8, [sp, #616]
	stur	w9, [x25, #3]
	stur	q0, [x27, #232]
	stur	q1, [x27, #248]
	ldp	q0, q1, [x22, #688]
	stur	q0, [x27, #136]
	stur	q1, [x27, #152]
	ldp	q0, q1, [x22, #720]
	stur	q0, [x27, #168]
	stur	q1, [x27, #184]
	ldp	q0, q1, [x22, #624]
	stur	q0, [x27, #72]
	stur	q1, [x27, #88]
	ldp	q0, q1, [x22, #656]
	stur	q0, [x27, #104]
	stur	q1, [x27, #120]
	ldp	q0, q1, [x22, #560]
	stur	q0, [x27, #8]
	stur	q1, [x27, #24]
	ldp	q0, q1, [x22, #592]
	stur	q0, [x27, #40]
	stur	q1, [x27, #56]
	b	.Lnoise_BB12_13
.Lnoise_BB12_178:
	movi	v0.2d, #0000000000000000
	str	wzr, [sp, #616]
	stur	wzr, [x25, #3]
	b	.Lnoise_BB12_12
.Lnoise_BB12_179:
	add	x0, sp, #1456
	orr	x1, x23, #0x8
	bl	"noise_names::text::write::text"
	add	x0, sp, #896
	add	x1, sp, #1456
	mov	w2, #552
	bl	memcpy
	ldr	x8, [sp, #1440]
	cmp	x8, x20
	b.ne	.Lnoise_BB12_186
	cmp	x20, #3
	b.hi	.Lnoise_BB12_184
	mov	x8, xzr
.Lnoise_BB12_182:
	add	x9, sp, #896
	ldrb	w10, [x21, x8]
	ldrb	w9, [x9, x8]
	cmp	w9, w10
	b.ne	.Lnoise_BB12_187
	add	x8, x8, #1
	cmp	x20, x8
	b.ne	.Lnoise_BB12_182
	b	.Lnoise_BB12_188
.Lnoise_BB12_184:
	ldr	w8, [sp, #896]
	ldr	w9, [x21]
	cmp	w8, w9
	b.ne	.Lnoise_BB12_186
	add	x0, sp, #896
	mov	x1, x20
	mov	x2, x21
	bl	"core::cmp::slices::groups_equal::<i8,31'core::cmp::numbers::U8PartialEq{}>"
	cbnz	w0, .Lnoise_BB12_188
.Lnoise_BB12_186:
	mov	x26, xzr
	mov	w8, wzr
	mov	w9, wzr
	b	.Lnoise_BB12_189
.Lnoise_BB12_187:
	cmp	x8, x20
	b.lo	.Lnoise_BB12_186
.Lnoise_BB12_188:
	ldur	q0, [x24, #216]
	ldur	q1, [x24, #232]
	add	x9, sp, #2288
	ldur	w8, [x24, #17]
	ldr	w10, [sp, #2308]
	ldr	x26, [sp, #2296]
	stur	q0, [x25, #200]
	ldur	q0, [x24, #248]
	stur	q1, [x25, #216]
	ldur	q1, [x24, #152]
	stur	q0, [x25, #232]
	ldur	q0, [x24, #168]
	stur	q1, [x25, #136]
	ldur	q1, [x24, #184]
	stur	q0, [x25, #152]
	ldur	q0, [x24, #200]
	stur	q1, [x25, #168]
	ldur	q1, [x24, #88]
	stur	q0, [x25, #184]
	ldur	q0, [x24, #104]
	stur	q1, [x25, #72]
	ldur	q1, [x24, #120]
	stur	q0, [x25, #88]
	ldur	q0, [x24, #136]
	stur	q1, [x25, #104]
	ldur	q1, [x24, #24]
	stur	q0, [x25, #120]
	ldur	q0, [x24, #40]
	str	w8, [sp, #888]
	add	x8, x9, #24
	add	x9, sp, #888
	stur	q0, [x25, #24]
	ldur	q0, [x24, #72]
	stur	q1, [x25, #8]
	ldur	q1, [x24, #56]
	stur	q0, [x25, #56]
	ldr	q0, [x8, #240]
	ldrb	w8, [sp, #2304]
	stur	w10, [x9, #3]
	mov	w9, #1
	stur	q1, [x25, #40]
	stur	q0, [x25, #248]
.Lnoise_BB12_189:
	ldur	q0, [x25, #200]
	ldur	q1, [x25, #216]
	ldr	w10, [sp, #888]
	stur	q0, [x27, #200]
	ldur	q0, [x25, #232]
	stur	q1, [x27, #216]
	ldur	q1, [x25, #248]
	stur	q0, [x27, #232]
	ldur	q0, [x25, #136]
	stur	q1, [x27, #248]
	ldur	q1, [x25, #152]
	stur	q0, [x27, #136]
	ldur	q0, [x25, #168]
	stur	q1, [x27, #152]
	ldur	q1, [x25, #184]
	stur	q0, [x27, #168]
	ldur	q0, [x25, #72]
	stur	q1, [x27, #184]
	ldur	q1, [x25, #88]
	stur	q0, [x27, #72]
	ldur	q0, [x25, #104]
	stur	q1, [x27, #88]
	ldur	q1, [x25, #120]
	stur	q0, [x27, #104]
	ldur	q0, [x25, #8]
	str	w10, [sp, #616]
	add	x10, sp, #888
	stur	q0, [x27, #8]
	ldur	q0, [x25, #40]
	ldur	w10, [x10, #3]
	stur	q1, [x27, #120]
	ldur	q1, [x25, #24]
	stur	q0, [x27, #40]
	ldur	q0, [x25, #56]
	stur	q1, [x27, #24]
	stur	w10, [x25, #3]
	stur	q0, [x27, #56]
	cbz	w9, .Lnoise_BB12_13
	ldur	q0, [x27, #200]
	ldur	q1, [x27, #216]
	mov	x9, xzr
	ldur	q2, [x27, #232]
	ldr	w10, [sp, #616]
	ldur	w11, [x25, #3]
	stp	q0, q1, [x28, #192]
	ldur	q0, [x27, #248]
	ldur	q1, [x27, #136]
	str	w10, [sp, #344]
	stp	q2, q0, [x28, #224]
	ldur	q0, [x27, #152]
	ldur	q2, [x27, #168]
	stur	w11, [x27, #3]
	stp	q1, q0, [x28, #128]
	ldur	q0, [x27, #184]
	ldur	q1, [x27, #72]
	stp	q2, q0, [x28, #160]
	ldur	q0, [x27, #88]
	ldur	q2, [x27, #104]
	stp	q1, q0, [sp, #144]
	ldur	q0, [x27, #120]
	ldur	q1, [x27, #8]
	stp	q2, q0, [sp, #176]
	ldur	q0, [x27, #24]
	ldur	q2, [x27, #40]
	stp	q1, q0, [sp, #80]
	ldur	q0, [x27, #56]
	stp	q2, q0, [sp, #112]
	b	.Lnoise_BB12_23
.Lnoise_BB12_191:
	mov	w8, #1
	b	.Lnoise_BB12_22
.Lnoise_BB12_192:
	ldp	x10, x9, [sp, #56]
	cbz	w5, .Lnoise_BB12_195
.Lnoise_BB12_193:
	cbz	x9, .Lnoise_BB12_199
	ldrb	w8, [x10], #1
	sub	x9, x9, #1
	mov	w26, #1
	cmp	w8, w23, lsr #24
	mov	w8, #5
	b.ls	.Lnoise_BB12_193
	b	.Lnoise_BB12_22
.Lnoise_BB12_195:
	mov	w8, #8
	b	.Lnoise_BB12_22
.Lnoise_BB12_196:
	mov	w8, #3
	b	.Lnoise_BB12_22
.Lnoise_BB12_197:
	mov	w8, #5
	b	.Lnoise_BB12_22
.Lnoise_BB12_198:
	mov	w8, #4
	b	.Lnoise_BB12_22
.Lnoise_BB12_199:
	mov	w8, #6
	b	.Lnoise_BB12_21
.Lnoise_BB12_200:
	mov	w8, #7
	b	.Lnoise_BB12_22
.Lnoise_BB12_201:
	brk	#0x1
.Lnoise_func_end12:
	.size	"noise_names::pattern::Pattern::parse_text", .Lnoise_func_end12-"noise_names::pattern::Pattern::parse_text"
	.cfi_endproc

	.section	".text.noise_names::section::parse_section","ax",@progbits
	.p2align	2
	.type	"noise_names::section::parse_section",@function
"noise_names::section::parse_section":
	.cfi_startproc
	sub	sp, sp, #256
	stp	x29, x30, [sp, #208]
	stp	x22, x21, [sp, #224]
	stp	x20, x19, [sp, #240]
	add	x29, sp, #208
	.cfi_def_cfa w29, 48
	.cfi_offset w19, -8
	.cfi_offset w20, -16
	.cfi_offset w21, -24
	.cfi_offset w22, -32
	.cfi_offset w30, -40
	.cfi_offset w29, -48
	stp	xzr, xzr, [sp, #48]
	stur	xzr, [sp, #70]
	str	xzr, [sp, #64]
	cbz	x2, .Lnoise_BB13_17
	mov	x19, xzr
	sub	x21, x29, #72
	b	.Lnoise_BB13_3
.Lnoise_BB13_2:
	add	x19, x19, #1
	cmp	x2, x19
	b.eq	.Lnoise_BB13_7
.Lnoise_BB13_3:
	ldrb	w8, [x1, x19]
	cmp	w8, #48
	b.lo	.Lnoise_BB13_6
	cmp	w8, #58
	b.lo	.Lnoise_BB13_2
	sub	w8, w8, #65
	cmp	w8, #25
	b.ls	.Lnoise_BB13_2
.Lnoise_BB13_6:
	cbnz	x19, .Lnoise_BB13_8
	b	.Lnoise_BB13_17
.Lnoise_BB13_7:
	mov	x19, x2
	cbz	x2, .Lnoise_BB13_17
.Lnoise_BB13_8:
	ldrb	w8, [x1]
	sub	w8, w8, #65
	cmp	w8, #25
	b.hi	.Lnoise_BB13_17
	add	x9, x1, x19
	sub	x10, x2, x19
	mov	w8, #1
.Lnoise_BB13_10:
	cmp	x19, x8
	b.eq	.Lnoise_BB13_14
	ldrb	w11, [x1, x8]
	cmp	w11, #48
	b.lo	.Lnoise_BB13_17
	cmp	w11, #58
	add	x8, x8, #1
	b.lo	.Lnoise_BB13_10
	sub	w11, w11, #65
	cmp	w11, #26
	b.lo	.Lnoise_BB13_10
	b	.Lnoise_BB13_17
.Lnoise_BB13_14:
	cmp	x19, #9
	b.hs	.Lnoise_BB13_17
	cbz	x10, .Lnoise_BB13_32
	mov	x8, xzr
	stp	xzr, xzr, [x29, #-96]
	stur	xzr, [x29, #-80]
	b	.Lnoise_BB13_21
.Lnoise_BB13_17:
	movi	v0.2d, #0000000000000000
	mov	w8, #513
	strh	w8, [x0]
.Lnoise_BB13_18:
	stur	q0, [x0, #8]
	stur	q0, [x0, #24]
	str	xzr, [x0, #40]
	ldp	x20, x19, [sp, #240]
	ldp	x22, x21, [sp, #224]
	ldp	x29, x30, [sp, #208]
	add	sp, sp, #256
	ret
.Lnoise_BB13_19:
	sub	x12, x29, #96
	sub	w11, w11, #48
	cmp	x10, #4
	strb	w11, [x12, x8]
	add	x8, x8, #1
	stur	x8, [x29, #-80]
	b.eq	.Lnoise_BB13_34
	ldrb	w11, [x9, #4]
	add	x9, x9, #5
	sub	x10, x10, #5
	cmp	w11, #43
	b.ne	.Lnoise_BB13_30
.Lnoise_BB13_21:
	cmp	x10, #3
	b.lo	.Lnoise_BB13_30
	cmp	x10, #3
	b.eq	.Lnoise_BB13_30
	ldrb	w11, [x9]
	cmp	w11, #112
	b.ne	.Lnoise_BB13_30
	ldrb	w11, [x9, #1]
	cmp	w11, #115
	b.ne	.Lnoise_BB13_30
	ldrb	w11, [x9, #2]
	cmp	w11, #107
	b.ne	.Lnoise_BB13_30
	ldrb	w11, [x9, #3]
	sub	w12, w11, #57
	and	w12, w12, #0xff
	cmp	w12, #247
	b.lo	.Lnoise_BB13_30
	cmp	x8, #10
	b.ne	.Lnoise_BB13_19
	cmp	x10, #4
	b.eq	.Lnoise_BB13_35
	mov	w8, #10
	ldrb	w11, [x9, #4]
	add	x9, x9, #5
	sub	x10, x10, #5
	cmp	w11, #43
	b.eq	.Lnoise_BB13_21
.Lnoise_BB13_30:
	mov	w8, #3
.Lnoise_BB13_31:
	mov	w9, #1
	movi	v0.2d, #0000000000000000
	strb	w8, [x0, #1]
	strb	w9, [x0]
	b	.Lnoise_BB13_18
.Lnoise_BB13_32:
	mov	x20, x1
	mov	x22, x0
	stur	xzr, [sp, #62]
	stur	xzr, [sp, #54]
	stur	xzr, [sp, #70]
.Lnoise_BB13_33:
	mov	w8, #16
	mov	w1, wzr
	sub	x2, x8, x19
	sub	x8, x29, #72
	add	x0, x8, x19
	bl	memset
	sub	x0, x29, #72
	mov	x1, x20
	mov	x2, x19
	bl	memcpy
	stur	x19, [x29, #-64]
	ldur	x8, [sp, #70]
	ldur	q0, [sp, #54]
	ldr	q1, [x21]
	strh	wzr, [x22]
	str	x8, [sp, #32]
	stp	q1, q0, [sp]
	stur	q1, [x22, #8]
	stur	q0, [x22, #24]
	str	x8, [x22, #40]
	ldp	x20, x19, [sp, #240]
	ldp	x22, x21, [sp, #224]
	ldp	x29, x30, [sp, #208]
	add	sp, sp, #256
	ret
.Lnoise_BB13_34:
	stp	xzr, xzr, [x29, #-72]
	stur	xzr, [x29, #-56]
	cbnz	x8, .Lnoise_BB13_36
	b	.Lnoise_BB13_39
.Lnoise_BB13_35:
	stp	xzr, xzr, [x29, #-72]
	mov	w8, #10
.Lnoise_BB13_36:
	mov	x9, xzr
	mov	w11, wzr
.Lnoise_BB13_37:
	sub	x10, x29, #96
	ldrb	w10, [x10, x9]
	cmp	w10, w11
	ccmp	w10, #8, #2, hs
	b.hi	.Lnoise_BB13_40
	sub	x11, x29, #72
	strb	w10, [x11, x9]
	add	x9, x9, #1
	add	w11, w10, #1
	cmp	x8, x9
	stur	x9, [x29, #-56]
	b.ne	.Lnoise_BB13_37
.Lnoise_BB13_39:
	ldr	q0, [x21]
	ldur	x8, [x29, #-56]
	mov	x20, x1
	mov	x22, x0
	str	q0, [sp, #80]
	stur	q0, [sp, #54]
	stur	x8, [sp, #70]
	b	.Lnoise_BB13_33
.Lnoise_BB13_40:
	mov	w8, #4
	b	.Lnoise_BB13_31
.Lnoise_func_end13:
	.size	"noise_names::section::parse_section", .Lnoise_func_end13-"noise_names::section::parse_section"
	.cfi_endproc

	.section	".text.noise_names::table::place_of","ax",@progbits
	.p2align	2
	.type	"noise_names::table::place_of",@function
"noise_names::table::place_of":
	.cfi_startproc
	cbz	x1, .Lnoise_BB14_30
	cmp	x1, #1
	b.ne	.Lnoise_BB14_6
	ldrb	w8, [x0]
	cmp	w8, #88
	b.eq	.Lnoise_BB14_15
	cmp	w8, #78
	b.eq	.Lnoise_BB14_14
	cmp	w8, #75
	b.ne	.Lnoise_BB14_30
	mov	w1, #1
	mov	w0, #1
	ret
.Lnoise_BB14_6:
	cmp	x1, #2
	b.hi	.Lnoise_BB14_30
	ldrb	w8, [x0]
	cmp	w8, #77
	b.gt	.Lnoise_BB14_16
	cmp	w8, #73
	b.eq	.Lnoise_BB14_22
	cmp	w8, #75
	b.ne	.Lnoise_BB14_30
	ldrb	w8, [x0, #1]
	cmp	w8, #88
	b.eq	.Lnoise_BB14_35
	cmp	w8, #78
	b.eq	.Lnoise_BB14_31
	cmp	w8, #75
	b.ne	.Lnoise_BB14_30
	mov	w0, #1
	mov	w1, #7
	ret
.Lnoise_BB14_14:
	mov	w1, wzr
	mov	w0, #1
	ret
.Lnoise_BB14_15:
	mov	w0, #1
	mov	w1, #2
	ret
.Lnoise_BB14_16:
	cmp	w8, #88
	b.eq	.Lnoise_BB14_26
	cmp	w8, #78
	b.ne	.Lnoise_BB14_30
	ldrb	w8, [x0, #1]
	cmp	w8, #88
	b.eq	.Lnoise_BB14_36
	cmp	w8, #78
	b.eq	.Lnoise_BB14_32
	cmp	w8, #75
	b.ne	.Lnoise_BB14_30
	mov	w0, #1
	mov	w1, #4
	ret
.Lnoise_BB14_22:
	ldrb	w8, [x0, #1]
	cmp	w8, #88
	b.eq	.Lnoise_BB14_37
	cmp	w8, #78
	b.eq	.Lnoise_BB14_33
	cmp	w8, #75
	b.ne	.Lnoise_BB14_30
	mov	w0, #1
	mov	w1, #13
	ret
.Lnoise_BB14_26:
	ldrb	w8, [x0, #1]
	cmp	w8, #88
	b.eq	.Lnoise_BB14_38
	cmp	w8, #78
	b.eq	.Lnoise_BB14_34
	cmp	w8, #75
	b.ne	.Lnoise_BB14_30
	mov	w0, #1
	mov	w1, #10
	ret
.Lnoise_BB14_30:
	mov	w1, wzr
	mov	w0, wzr
	ret
.Lnoise_BB14_31:
	mov	w0, #1
	mov	w1, #6
	ret
.Lnoise_BB14_32:
	mov	w0, #1
	mov	w1, #3
	ret
.Lnoise_BB14_33:
	mov	w0, #1
	mov	w1, #12
	ret
.Lnoise_BB14_34:
	mov	w0, #1
	mov	w1, #9
	ret
.Lnoise_BB14_35:
	mov	w0, #1
	mov	w1, #8
	ret
.Lnoise_BB14_36:
	mov	w0, #1
	mov	w1, #5
	ret
.Lnoise_BB14_37:
	mov	w0, #1
	mov	w1, #14
	ret
.Lnoise_BB14_38:
	mov	w0, #1
	mov	w1, #11
	ret
.Lnoise_func_end14:
	.size	"noise_names::table::place_of", .Lnoise_func_end14-"noise_names::table::place_of"
	.cfi_endproc

	.section	.rodata.cst16,"aM",@progbits,16
	.p2align	4, 0x0
.Lnoise_CPI15_0:
	.xword	0
	.xword	1
.Lnoise_CPI15_1:
	.xword	19273
	.xword	2
.Lnoise_CPI15_2:
	.xword	20041
	.xword	2
.Lnoise_CPI15_3:
	.xword	22616
	.xword	2
.Lnoise_CPI15_4:
	.xword	19288
	.xword	2
.Lnoise_CPI15_5:
	.xword	20056
	.xword	2
.Lnoise_CPI15_6:
	.xword	1
	.xword	0
.Lnoise_CPI15_7:
	.xword	22603
	.xword	2
.Lnoise_CPI15_8:
	.xword	19275
	.xword	2
.Lnoise_CPI15_9:
	.xword	20043
	.xword	2
.Lnoise_CPI15_10:
	.xword	22606
	.xword	2
.Lnoise_CPI15_11:
	.xword	19278
	.xword	2
.Lnoise_CPI15_12:
	.xword	20046
	.xword	2
.Lnoise_CPI15_13:
	.xword	88
	.xword	1
.Lnoise_CPI15_14:
	.xword	75
	.xword	1
.Lnoise_CPI15_15:
	.xword	78
	.xword	1
.Lnoise_CPI15_16:
	.xword	22601
	.xword	2
	.section	".text.noise_names::table::row","ax",@progbits
	.p2align	2
	.type	"noise_names::table::row",@function
"noise_names::table::row":
	.cfi_startproc
	str	x30, [sp, #-16]!
	sub	sp, sp, #2960
	str	xzr, [sp]
	.cfi_def_cfa_offset 2976
	.cfi_offset w30, -16
	movi	v0.2d, #0000000000000000
	and	w8, w1, #0xff
	stp	xzr, xzr, [sp, #168]
	cmp	w8, #13
	add	x8, sp, #168
	str	xzr, [sp, #184]
	str	xzr, [sp, #152]
	str	wzr, [sp, #160]
	str	xzr, [sp, #136]
	str	wzr, [sp, #144]
	stp	xzr, xzr, [sp, #112]
	str	wzr, [sp, #128]
	stp	q0, q0, [sp]
	stp	q0, q0, [sp, #32]
	stp	q0, q0, [sp, #64]
	str	q0, [sp, #96]
	b.hi	.Lnoise_BB15_16
	and	x9, x1, #0xff
	adrp	x10, .Lnoise_JTI15_0
	add	x10, x10, :lo12:.Lnoise_JTI15_0
	adr	x11, .Lnoise_BB15_2
	ldrh	w12, [x10, x9, lsl #1]
	add	x11, x11, x12, lsl #2
	br	x11
.Lnoise_BB15_2:
	stp	q0, q0, [sp, #192]
	stp	q0, q0, [sp, #224]
	mov	w13, wzr
	mov	x10, xzr
	stp	q0, q0, [sp, #256]
	mov	w9, wzr
	mov	w16, wzr
	str	q0, [sp, #288]
	ldp	q1, q0, [sp, #224]
	str	xzr, [sp, #336]
	mov	x17, xzr
	mov	w11, wzr
	str	xzr, [sp, #320]
	mov	x12, xzr
	stp	q1, q0, [sp, #32]
	ldp	q2, q0, [sp, #192]
	str	wzr, [sp, #328]
	mov	w1, #2
	str	wzr, [sp, #160]
	str	xzr, [sp, #152]
	str	wzr, [sp, #144]
	stp	q2, q0, [sp]
	ldp	q2, q3, [sp, #256]
	str	xzr, [sp, #304]
	ldr	q0, [sp, #288]
	str	xzr, [sp, #136]
	adrp	x18, .Lnoise_CPI15_15
	str	wzr, [sp, #128]
	ldr	q1, [x18, :lo12:.Lnoise_CPI15_15]
	stp	xzr, xzr, [sp, #112]
	adrp	x15, .Lnoise_CPI15_0
	mov	w18, #1
	stp	q3, q0, [sp, #80]
	ldr	q0, [x15, :lo12:.Lnoise_CPI15_0]
	mov	w15, #768
	str	wzr, [sp, #376]
	str	xzr, [sp, #368]
	str	wzr, [sp, #344]
	str	xzr, [sp, #352]
	str	wzr, [sp, #360]
	stp	xzr, xzr, [sp, #176]
	str	xzr, [sp, #168]
	mov	w14, #1
	b	.Lnoise_BB15_19
.Lnoise_BB15_3:
	str	xzr, [sp, #2384]
	str	wzr, [sp, #2392]
	mov	w11, wzr
	mov	w15, wzr
	str	xzr, [sp, #2368]
	mov	x12, xzr
	mov	x14, xzr
	str	wzr, [sp, #2376]
	mov	w16, #512
	mov	w13, #769
	str	wzr, [sp, #2376]
	mov	w18, #3
	str	xzr, [sp, #2368]
	mov	w1, #1
	str	xzr, [sp, #2352]
	mov	w17, #4
	str	wzr, [sp, #2360]
	str	wzr, [sp, #2360]
	str	xzr, [sp, #2352]
	ldr	x10, [sp, #2384]
	str	q0, [sp, #2256]
	str	q0, [sp, #2272]
	ldr	q2, [sp, #2256]
	str	wzr, [sp, #160]
	ldr	w9, [sp, #2376]
	ldr	q1, [sp, #2272]
	str	x10, [sp, #152]
	ldr	x10, [sp, #2368]
	str	q0, [sp, #2224]
	str	q0, [sp, #2240]
	ldr	q3, [sp, #2224]
	str	w9, [sp, #144]
	ldr	w9, [sp, #2360]
	str	x10, [sp, #136]
	ldr	x10, [sp, #2352]
	stp	q2, q1, [sp, #32]
	ldr	q1, [sp, #2240]
	str	q0, [sp, #2288]
	str	q0, [sp, #2304]
	str	q0, [sp, #2320]
	ldr	q4, [sp, #2304]
	str	xzr, [sp, #2336]
	ldr	q2, [sp, #2320]
	str	w9, [sp, #128]
	stp	xzr, x10, [sp, #112]
	adrp	x10, .Lnoise_CPI15_3
	stp	q3, q1, [sp]
	ldr	q3, [sp, #2288]
	ldr	q1, [x10, :lo12:.Lnoise_CPI15_3]
	str	wzr, [sp, #2952]
	mov	w10, #2
	str	wzr, [sp, #2760]
	str	xzr, [sp, #2752]
	str	xzr, [sp, #2944]
	str	wzr, [sp, #2952]
	str	wzr, [sp, #2760]
	str	xzr, [sp, #2752]
	str	xzr, [sp, #2944]
	str	xzr, [sp, #184]
	str	q0, [x8]
	mov	w9, #1025
	stp	q4, q2, [sp, #80]
	str	q3, [sp, #64]
	b	.Lnoise_BB15_20
.Lnoise_BB15_4:
	stp	q0, q0, [sp, #992]
	str	wzr, [sp, #1112]
	mov	w13, wzr
	str	wzr, [sp, #160]
	ldr	w14, [sp, #1112]
	mov	x10, xzr
	str	wzr, [sp, #1096]
	mov	w9, wzr
	mov	w11, wzr
	stp	q0, q0, [sp, #960]
	mov	x12, xzr
	mov	w17, #2
	str	q0, [sp, #1024]
	mov	w1, #2
	str	q0, [sp, #1040]
	str	q0, [sp, #1056]
	ldp	q1, q0, [sp, #992]
	str	w14, [sp, #144]
	ldr	q3, [sp, #1040]
	str	xzr, [sp, #1088]
	str	xzr, [sp, #1072]
	str	xzr, [sp, #1104]
	str	xzr, [sp, #152]
	ldr	x16, [sp, #1104]
	str	wzr, [sp, #128]
	stp	q1, q0, [sp, #32]
	ldp	q2, q0, [sp, #960]
	ldr	q1, [sp, #1056]
	stp	xzr, xzr, [sp, #112]
	adrp	x15, .Lnoise_CPI15_0
	adrp	x14, .Lnoise_CPI15_11
	stp	q2, q0, [sp]
	ldr	q2, [sp, #1024]
	ldr	q0, [x15, :lo12:.Lnoise_CPI15_0]
	stp	q3, q1, [sp, #80]
	ldr	q1, [x14, :lo12:.Lnoise_CPI15_11]
	mov	w15, #768
	str	xzr, [sp, #2752]
	mov	w14, #1
	str	wzr, [sp, #2760]
	str	wzr, [sp, #1128]
	str	xzr, [sp, #1120]
	str	wzr, [sp, #2952]
	str	wzr, [sp, #2760]
	str	xzr, [sp, #2752]
	str	xzr, [sp, #2944]
	stp	xzr, xzr, [sp, #168]
	str	xzr, [sp, #184]
	str	x16, [sp, #136]
	mov	w16, #512
	b	.Lnoise_BB15_18
.Lnoise_BB15_5:
	str	q0, [sp, #2432]
	str	wzr, [sp, #2552]
	ldr	q2, [sp, #2432]
	str	q0, [sp, #2448]
	mov	x10, xzr
	mov	w9, wzr
	str	wzr, [sp, #160]
	ldr	w13, [sp, #2552]
	ldr	q1, [sp, #2448]
	str	wzr, [sp, #2536]
	mov	w11, wzr
	mov	x12, xzr
	str	xzr, [sp, #2544]
	mov	x14, xzr
	str	q0, [sp, #2400]
	mov	w16, #512
	mov	w1, #2
	str	q0, [sp, #2416]
	ldr	q3, [sp, #2400]
	mov	w17, #3
	str	xzr, [sp, #152]
	ldr	x15, [sp, #2544]
	str	w13, [sp, #144]
	str	xzr, [sp, #2528]
	str	xzr, [sp, #2512]
	stp	q2, q1, [sp, #32]
	ldr	q1, [sp, #2416]
	str	q0, [sp, #2480]
	str	q0, [sp, #2496]
	str	x15, [sp, #136]
	str	wzr, [sp, #128]
	stp	q3, q1, [sp]
	ldr	q1, [sp, #2496]
	ldr	q3, [sp, #2480]
	str	q0, [sp, #2464]
	stp	xzr, xzr, [sp, #112]
	adrp	x13, .Lnoise_CPI15_2
	ldr	q2, [sp, #2464]
	stp	q3, q1, [sp, #80]
	ldr	q1, [x13, :lo12:.Lnoise_CPI15_2]
	mov	w15, #256
	str	xzr, [sp, #2752]
	mov	w13, #4
	str	wzr, [sp, #2760]
	str	wzr, [sp, #2568]
	str	xzr, [sp, #2560]
	str	wzr, [sp, #2952]
	str	wzr, [sp, #2760]
	str	xzr, [sp, #2752]
	str	xzr, [sp, #2944]
	b	.Lnoise_BB15_17
.Lnoise_BB15_6:
	str	wzr, [sp, #2040]
	str	wzr, [sp, #2024]
	mov	w13, wzr
	mov	w11, wzr
	str	wzr, [sp, #2024]
	mov	w15, wzr
	str	wzr, [sp, #2008]
	mov	x12, xzr
	mov	x14, xzr
	str	wzr, [sp, #2008]
	mov	w16, #512
	str	xzr, [sp, #2032]
	mov	w18, #3
	mov	w1, #1
	str	xzr, [sp, #2016]
	mov	w17, #2
	str	xzr, [sp, #2016]
	str	xzr, [sp, #2000]
	str	q0, [sp, #1904]
	str	q0, [sp, #1920]
	ldr	q2, [sp, #1904]
	str	xzr, [sp, #2000]
	ldr	q1, [sp, #1920]
	str	wzr, [sp, #160]
	ldr	w9, [sp, #2024]
	str	q0, [sp, #1872]
	str	q0, [sp, #1888]
	ldr	q3, [sp, #1872]
	str	xzr, [sp, #152]
	ldr	x10, [sp, #2016]
	str	w9, [sp, #144]
	ldr	w9, [sp, #2008]
	str	xzr, [sp, #1984]
	stp	q2, q1, [sp, #32]
	ldr	q1, [sp, #1888]
	str	q0, [sp, #1952]
	str	q0, [sp, #1968]
	str	x10, [sp, #136]
	ldr	x10, [sp, #2000]
	str	w9, [sp, #128]
	stp	q3, q1, [sp]
	ldr	q1, [sp, #1968]
	ldr	q3, [sp, #1952]
	str	q0, [sp, #1936]
	stp	xzr, x10, [sp, #112]
	adrp	x9, .Lnoise_CPI15_5
	ldr	q2, [sp, #1936]
	stp	q3, q1, [sp, #80]
	ldr	q1, [x9, :lo12:.Lnoise_CPI15_5]
	mov	w9, #1025
	str	wzr, [sp, #2952]
	mov	w10, #2
	str	wzr, [sp, #2760]
	str	xzr, [sp, #2752]
	str	xzr, [sp, #2944]
	str	wzr, [sp, #2952]
	str	wzr, [sp, #2760]
	str	xzr, [sp, #2752]
	str	xzr, [sp, #2944]
	str	xzr, [sp, #184]
	str	q0, [x8]
	b	.Lnoise_BB15_19
.Lnoise_BB15_7:
	stp	q0, q0, [sp, #576]
	stp	q0, q0, [sp, #608]
	mov	w13, wzr
	mov	x10, xzr
	stp	q0, q0, [sp, #640]
	mov	w9, wzr
	mov	w16, wzr
	str	q0, [sp, #672]
	ldp	q1, q0, [sp, #608]
	str	wzr, [sp, #712]
	mov	x17, xzr
	mov	x12, xzr
	str	wzr, [sp, #160]
	mov	w18, #1
	stp	q1, q0, [sp, #32]
	ldp	q2, q0, [sp, #576]
	str	wzr, [sp, #144]
	mov	w1, #4
	str	xzr, [sp, #704]
	str	xzr, [sp, #688]
	str	xzr, [sp, #152]
	str	wzr, [sp, #128]
	stp	q2, q0, [sp]
	ldp	q3, q0, [sp, #656]
	str	xzr, [sp, #720]
	ldr	q2, [sp, #640]
	stp	xzr, xzr, [sp, #112]
	adrp	x11, .Lnoise_CPI15_0
	adrp	x14, .Lnoise_CPI15_13
	stp	q3, q0, [sp, #80]
	ldr	q0, [x11, :lo12:.Lnoise_CPI15_0]
	ldr	q1, [x14, :lo12:.Lnoise_CPI15_13]
	str	wzr, [sp, #760]
	mov	w11, #1281
	str	xzr, [sp, #752]
	mov	w14, #1
	str	wzr, [sp, #728]
	str	xzr, [sp, #736]
	str	wzr, [sp, #744]
	stp	xzr, xzr, [sp, #176]
	str	xzr, [sp, #168]
	str	xzr, [sp, #136]
	mov	w15, #768
	b	.Lnoise_BB15_19
.Lnoise_BB15_8:
	stp	q0, q0, [sp, #768]
	stp	q0, q0, [sp, #800]
	mov	w13, wzr
	mov	x10, xzr
	ldp	q2, q1, [sp, #800]
	str	xzr, [sp, #912]
	str	wzr, [sp, #160]
	mov	w9, wzr
	str	xzr, [sp, #152]
	mov	w11, wzr
	stp	q2, q1, [sp, #32]
	ldp	q3, q1, [sp, #768]
	str	xzr, [sp, #896]
	mov	w15, wzr
	mov	x12, xzr
	stp	q0, q0, [sp, #832]
	mov	x14, xzr
	mov	w1, #1
	str	q0, [sp, #864]
	mov	w18, #2
	str	xzr, [sp, #880]
	str	wzr, [sp, #144]
	str	xzr, [sp, #136]
	str	wzr, [sp, #128]
	stp	q3, q1, [sp]
	ldp	q2, q1, [sp, #848]
	stp	xzr, xzr, [sp, #112]
	adrp	x16, .Lnoise_CPI15_12
	ldr	q3, [sp, #832]
	str	wzr, [sp, #936]
	mov	w17, #2
	stp	q2, q1, [sp, #80]
	ldr	q1, [x16, :lo12:.Lnoise_CPI15_12]
	mov	w16, #512
	str	xzr, [sp, #928]
	str	wzr, [sp, #920]
	str	wzr, [sp, #904]
	str	xzr, [sp, #944]
	str	wzr, [sp, #952]
	str	q0, [x8]
	str	xzr, [sp, #184]
	str	q3, [sp, #64]
	b	.Lnoise_BB15_20
.Lnoise_BB15_9:
	str	wzr, [sp, #1656]
	str	wzr, [sp, #1672]
	mov	x10, xzr
	str	wzr, [sp, #160]
	ldr	w11, [sp, #1672]
	mov	w9, wzr
	str	q0, [sp, #1552]
	mov	w15, #768
	mov	w16, #512
	str	q0, [sp, #1568]
	ldr	q1, [sp, #1552]
	mov	w13, #4
	str	w11, [sp, #144]
	mov	w18, #2
	str	xzr, [sp, #1648]
	mov	w17, #3
	mov	w1, #3
	str	q0, [sp, #1520]
	mov	w14, #1
	str	q0, [sp, #1536]
	str	q0, [sp, #1584]
	ldr	q2, [sp, #1536]
	str	q0, [sp, #1600]
	str	q0, [sp, #1616]
	ldr	q0, [sp, #1568]
	ldr	q3, [sp, #1600]
	str	xzr, [sp, #1664]
	ldr	q4, [sp, #1616]
	str	xzr, [sp, #152]
	ldr	x12, [sp, #1664]
	str	wzr, [sp, #128]
	str	xzr, [sp, #1632]
	stp	q1, q0, [sp, #32]
	ldr	q0, [sp, #1520]
	str	x12, [sp, #136]
	adrp	x12, .Lnoise_CPI15_8
	str	xzr, [sp, #120]
	ldr	q1, [x12, :lo12:.Lnoise_CPI15_8]
	stp	q0, q2, [sp]
	ldr	q2, [sp, #1584]
	mov	w12, #1
	str	xzr, [sp, #2752]
	dup	v0.2d, x12
	str	wzr, [sp, #2760]
	str	wzr, [sp, #1688]
	str	xzr, [sp, #1680]
	str	wzr, [sp, #2952]
	str	wzr, [sp, #2760]
	str	xzr, [sp, #2752]
	str	xzr, [sp, #2944]
	stp	xzr, xzr, [sp, #168]
	str	xzr, [sp, #184]
	stp	q3, q4, [sp, #80]
	str	xzr, [sp, #112]
	mov	w11, #5
	b	.Lnoise_BB15_19
.Lnoise_BB15_10:
	stp	q0, q0, [sp, #384]
	stp	q0, q0, [sp, #416]
	mov	w18, #1
	mov	w13, wzr
	stp	q0, q0, [sp, #448]
	mov	x10, xzr
	mov	w9, wzr
	str	q0, [sp, #480]
	ldp	q1, q0, [sp, #416]
	str	xzr, [sp, #528]
	mov	w16, wzr
	mov	x17, xzr
	str	wzr, [sp, #520]
	mov	w15, #768
	mov	w1, #3
	str	wzr, [sp, #160]
	mov	w14, #1
	str	xzr, [sp, #152]
	str	wzr, [sp, #144]
	stp	q1, q0, [sp, #32]
	ldp	q2, q0, [sp, #384]
	str	xzr, [sp, #512]
	str	xzr, [sp, #496]
	str	xzr, [sp, #136]
	str	wzr, [sp, #128]
	stp	q2, q0, [sp]
	ldp	q3, q0, [sp, #464]
	stp	xzr, xzr, [sp, #112]
	adrp	x11, .Lnoise_CPI15_14
	ldr	q2, [sp, #448]
	ldr	q1, [x11, :lo12:.Lnoise_CPI15_14]
	str	wzr, [sp, #568]
	mov	w11, #5
	str	xzr, [sp, #560]
	mov	w12, #1
	str	wzr, [sp, #536]
	str	xzr, [sp, #544]
	str	wzr, [sp, #552]
	stp	xzr, xzr, [sp, #176]
	str	xzr, [sp, #168]
	stp	q3, q0, [sp, #80]
	dup	v0.2d, x18
	b	.Lnoise_BB15_19
.Lnoise_BB15_11:
	str	q0, [sp, #1168]
	str	q0, [sp, #1184]
	ldr	q2, [sp, #1168]
	mov	x10, xzr
	str	xzr, [sp, #1280]
	ldr	q1, [sp, #1184]
	mov	w9, wzr
	str	q0, [sp, #1136]
	mov	w11, wzr
	mov	w15, wzr
	str	q0, [sp, #1152]
	ldr	q3, [sp, #1136]
	mov	x12, xzr
	str	xzr, [sp, #152]
	mov	x14, xzr
	str	xzr, [sp, #1264]
	mov	w18, #2
	mov	w1, #1
	stp	q2, q1, [sp, #32]
	ldr	q1, [sp, #1152]
	mov	w17, #4
	str	q0, [sp, #1216]
	str	q0, [sp, #1232]
	str	wzr, [sp, #160]
	str	xzr, [sp, #136]
	str	xzr, [sp, #1248]
	str	wzr, [sp, #144]
	stp	q3, q1, [sp]
	ldr	q1, [sp, #1232]
	ldr	q3, [sp, #1216]
	str	q0, [sp, #1200]
	str	wzr, [sp, #128]
	ldr	q2, [sp, #1200]
	stp	xzr, xzr, [sp, #112]
	adrp	x16, .Lnoise_CPI15_10
	stp	q3, q1, [sp, #80]
	ldr	q1, [x16, :lo12:.Lnoise_CPI15_10]
	mov	w16, #512
	str	wzr, [sp, #1304]
	str	xzr, [sp, #1296]
	str	wzr, [sp, #1288]
	str	wzr, [sp, #1272]
	str	xzr, [sp, #1312]
	str	wzr, [sp, #1320]
	str	q0, [x8]
	str	xzr, [sp, #184]
	mov	w13, #769
	b	.Lnoise_BB15_19
.Lnoise_BB15_12:
	str	q0, [sp, #2608]
	str	q0, [sp, #2624]
	ldr	q1, [sp, #2608]
	mov	x10, xzr
	str	wzr, [sp, #2728]
	mov	w9, wzr
	str	xzr, [sp, #2720]
	ldr	w14, [sp, #2728]
	str	wzr, [sp, #2712]
	mov	x12, xzr
	mov	w15, #768
	str	q0, [sp, #2576]
	mov	w16, #512
	mov	w18, #2
	str	q0, [sp, #2592]
	mov	w17, #3
	mov	w1, #4
	str	q0, [sp, #2640]
	ldr	q2, [sp, #2592]
	str	q0, [sp, #2656]
	str	q0, [sp, #2672]
	ldr	q0, [sp, #2624]
	ldr	q3, [sp, #2656]
	str	wzr, [sp, #160]
	ldr	x11, [sp, #2720]
	str	xzr, [sp, #2704]
	str	xzr, [sp, #152]
	str	x11, [sp, #136]
	stp	q1, q0, [sp, #32]
	ldr	q0, [sp, #2576]
	ldr	q1, [sp, #2672]
	str	xzr, [sp, #2688]
	str	wzr, [sp, #128]
	adrp	x13, .Lnoise_CPI15_0
	stp	q0, q2, [sp]
	ldr	q0, [x13, :lo12:.Lnoise_CPI15_0]
	adrp	x13, .Lnoise_CPI15_1
	str	xzr, [sp, #120]
	ldr	q2, [sp, #2640]
	stp	q3, q1, [sp, #80]
	ldr	q1, [x13, :lo12:.Lnoise_CPI15_1]
	mov	w13, #4
	str	xzr, [sp, #2752]
	str	wzr, [sp, #2760]
	str	wzr, [sp, #2744]
	str	xzr, [sp, #2736]
	str	wzr, [sp, #2952]
	str	wzr, [sp, #2760]
	str	xzr, [sp, #2752]
	str	xzr, [sp, #2944]
	stp	xzr, xzr, [sp, #168]
	str	xzr, [sp, #184]
	str	w14, [sp, #144]
	mov	w14, #1
	str	xzr, [sp, #112]
	mov	w11, #1281
	b	.Lnoise_BB15_19
.Lnoise_BB15_13:
	str	wzr, [sp, #1464]
	str	wzr, [sp, #160]
	mov	x10, xzr
	str	q0, [sp, #1360]
	mov	w9, wzr
	mov	w11, wzr
	str	q0, [sp, #1376]
	ldr	q1, [sp, #1360]
	mov	w15, wzr
	str	wzr, [sp, #144]
	mov	x14, xzr
	str	xzr, [sp, #1456]
	mov	w18, #2
	mov	w1, #1
	str	q0, [sp, #1328]
	mov	w17, #3
	str	q0, [sp, #1344]
	ldr	q2, [sp, #1328]
	str	q0, [sp, #1392]
	str	q0, [sp, #1408]
	str	q0, [sp, #1424]
	ldr	q0, [sp, #1376]
	ldr	q3, [sp, #1408]
	str	xzr, [sp, #1440]
	str	xzr, [sp, #152]
	str	wzr, [sp, #128]
	str	xzr, [sp, #1472]
	stp	q1, q0, [sp, #32]
	ldr	q0, [sp, #1344]
	ldr	q1, [sp, #1424]
	stp	xzr, xzr, [sp, #112]
	adrp	x13, .Lnoise_CPI15_6
	adrp	x12, .Lnoise_CPI15_9
	stp	q2, q0, [sp]
	ldr	q2, [sp, #1392]
	ldr	q0, [x13, :lo12:.Lnoise_CPI15_6]
	stp	q3, q1, [sp, #80]
	ldr	q1, [x12, :lo12:.Lnoise_CPI15_9]
	mov	w13, #4
	str	wzr, [sp, #1496]
	mov	w12, #1
	str	xzr, [sp, #1488]
	str	wzr, [sp, #1480]
	str	xzr, [sp, #1504]
	str	wzr, [sp, #1512]
	stp	xzr, xzr, [sp, #168]
	str	xzr, [sp, #184]
	str	xzr, [sp, #136]
	mov	w16, #512
	b	.Lnoise_BB15_19
.Lnoise_BB15_14:
	str	xzr, [sp, #2208]
	str	wzr, [sp, #2200]
	mov	w13, wzr
	str	xzr, [sp, #2192]
	ldr	w14, [sp, #2200]
	str	q0, [sp, #2080]
	mov	w11, wzr
	mov	x12, xzr
	str	q0, [sp, #2096]
	ldr	q1, [sp, #2080]
	mov	w15, #768
	str	wzr, [sp, #2184]
	mov	w16, #512
	str	xzr, [sp, #2176]
	mov	w18, #3
	str	q0, [sp, #2048]
	mov	w17, #2
	mov	w1, #2
	str	q0, [sp, #2064]
	str	q0, [sp, #2112]
	ldr	q2, [sp, #2064]
	str	q0, [sp, #2128]
	str	q0, [sp, #2144]
	ldr	q0, [sp, #2096]
	ldr	q3, [sp, #2128]
	str	wzr, [sp, #160]
	ldr	x9, [sp, #2192]
	str	xzr, [sp, #152]
	ldr	w10, [sp, #2184]
	str	x9, [sp, #136]
	ldr	x9, [sp, #2176]
	stp	q1, q0, [sp, #32]
	ldr	q0, [sp, #2048]
	ldr	q1, [sp, #2144]
	str	xzr, [sp, #2160]
	str	w10, [sp, #128]
	adrp	x10, .Lnoise_CPI15_0
	stp	q0, q2, [sp]
	ldr	q0, [x10, :lo12:.Lnoise_CPI15_0]
	adrp	x10, .Lnoise_CPI15_4
	str	x9, [sp, #120]
	ldr	q2, [sp, #2112]
	stp	q3, q1, [sp, #80]
	ldr	q1, [x10, :lo12:.Lnoise_CPI15_4]
	mov	w10, #2
	str	xzr, [sp, #2752]
	str	wzr, [sp, #2760]
	str	wzr, [sp, #2216]
	str	wzr, [sp, #2952]
	str	wzr, [sp, #2760]
	str	xzr, [sp, #2752]
	str	xzr, [sp, #2944]
	str	wzr, [sp, #2952]
	str	wzr, [sp, #2760]
	str	xzr, [sp, #2752]
	str	xzr, [sp, #2944]
	stp	xzr, xzr, [sp, #168]
	str	xzr, [sp, #184]
	str	w14, [sp, #144]
	mov	w14, #1
	str	xzr, [sp, #112]
	mov	w9, #1025
	b	.Lnoise_BB15_19
.Lnoise_BB15_15:
	add	x12, sp, #1860
	mov	w13, #3
	str	wzr, [sp, #1856]
	stur	xzr, [x12, #1]
	mov	x10, xzr
	mov	w9, wzr
	str	wzr, [sp, #1868]
	mov	w11, wzr
	mov	w15, wzr
	strb	w13, [sp, #1860]
	mov	x14, xzr
	ldr	x12, [x12]
	str	xzr, [sp, #1832]
	mov	w18, #2
	str	wzr, [sp, #1840]
	mov	w1, #1
	mov	w17, #5
	str	x12, [sp, #1832]
	str	wzr, [sp, #1840]
	ldr	x16, [sp, #1832]
	str	wzr, [sp, #160]
	str	xzr, [sp, #1848]
	str	wzr, [sp, #1824]
	str	q0, [sp, #1728]
	str	q0, [sp, #1744]
	ldr	q1, [sp, #1728]
	str	wzr, [sp, #144]
	str	xzr, [sp, #1816]
	str	q0, [sp, #1696]
	str	q0, [sp, #1712]
	ldr	q2, [sp, #1696]
	str	q0, [sp, #1760]
	str	q0, [sp, #1776]
	str	q0, [sp, #1792]
	ldr	q0, [sp, #1744]
	ldr	q3, [sp, #1776]
	str	xzr, [sp, #1808]
	str	xzr, [sp, #152]
	str	wzr, [sp, #128]
	stp	q1, q0, [sp, #32]
	ldr	q0, [sp, #1712]
	ldr	q1, [sp, #1792]
	stp	xzr, xzr, [sp, #112]
	adrp	x13, .Lnoise_CPI15_6
	adrp	x12, .Lnoise_CPI15_7
	stp	q2, q0, [sp]
	ldr	q2, [sp, #1760]
	ldr	q0, [x13, :lo12:.Lnoise_CPI15_6]
	stp	q3, q1, [sp, #80]
	ldr	q1, [x12, :lo12:.Lnoise_CPI15_7]
	mov	w13, #260
	stp	xzr, xzr, [sp, #168]
	mov	w12, #1
	str	xzr, [sp, #184]
	str	x16, [sp, #136]
	mov	w16, #512
	b	.Lnoise_BB15_19
.Lnoise_BB15_16:
	add	x13, sp, #2690
	str	wzr, [sp, #2760]
	mov	x10, xzr
	stur	xzr, [x13, #255]
	mov	w13, #3
	mov	w9, wzr
	strb	w13, [sp, #2944]
	mov	w11, wzr
	str	wzr, [sp, #2760]
	ldr	x15, [sp, #2944]
	str	wzr, [sp, #2920]
	mov	x12, xzr
	str	q0, [sp, #2800]
	mov	x14, xzr
	mov	w16, #512
	str	q0, [sp, #2816]
	ldr	q2, [sp, #2800]
	mov	w1, #2
	str	wzr, [sp, #160]
	ldr	w13, [sp, #2920]
	ldr	q1, [sp, #2816]
	str	xzr, [sp, #2752]
	mov	w17, #5
	str	wzr, [sp, #2904]
	str	x15, [sp, #2752]
	str	x15, [sp, #2912]
	str	q0, [sp, #2768]
	str	q0, [sp, #2784]
	ldr	q3, [sp, #2768]
	str	xzr, [sp, #152]
	ldr	x15, [sp, #2912]
	str	w13, [sp, #144]
	str	xzr, [sp, #2896]
	str	xzr, [sp, #2880]
	stp	q2, q1, [sp, #32]
	ldr	q1, [sp, #2784]
	str	q0, [sp, #2848]
	str	q0, [sp, #2864]
	str	x15, [sp, #136]
	str	wzr, [sp, #128]
	stp	q3, q1, [sp]
	ldr	q1, [sp, #2864]
	ldr	q3, [sp, #2848]
	str	q0, [sp, #2832]
	stp	xzr, xzr, [sp, #112]
	adrp	x13, .Lnoise_CPI15_16
	ldr	q2, [sp, #2832]
	stp	q3, q1, [sp, #80]
	ldr	q1, [x13, :lo12:.Lnoise_CPI15_16]
	mov	w15, #256
	mov	w13, #260
	str	wzr, [sp, #2952]
	str	xzr, [sp, #2928]
	str	wzr, [sp, #2936]
.Lnoise_BB15_17:
	str	xzr, [sp, #184]
	str	q0, [x8]
.Lnoise_BB15_18:
	mov	w18, #2
.Lnoise_BB15_19:
	str	q2, [sp, #64]
.Lnoise_BB15_20:
	ldr	q2, [x8]
	ldr	x8, [sp, #184]
	str	q0, [x0, #48]
	strh	w11, [x0, #74]
	ldr	w11, [sp, #160]
	stp	q1, q2, [x0]
	ldr	q2, [sp, #96]
	ldp	q0, q1, [sp, #64]
	stp	x8, x12, [x0, #32]
	ldr	x8, [sp, #152]
	str	q2, [x0, #240]
	str	w11, [x0, #84]
	ldr	x11, [sp, #136]
	stur	x8, [x0, #76]
	ldr	w8, [sp, #144]
	stp	q0, q1, [x0, #208]
	ldp	q0, q1, [sp]
	str	w8, [x0, #108]
	ldr	x8, [sp, #120]
	strh	w9, [x0, #120]
	ldr	w9, [sp, #128]
	stp	q0, q1, [x0, #144]
	ldp	q2, q0, [sp, #32]
	stur	x8, [x0, #124]
	ldr	x8, [sp, #112]
	str	x14, [x0, #64]
	strh	w15, [x0, #72]
	str	x1, [x0, #88]
	strh	w16, [x0, #96]
	strh	w13, [x0, #98]
	stur	x11, [x0, #100]
	str	x17, [x0, #112]
	strh	wzr, [x0, #122]
	str	w9, [x0, #132]
	str	x10, [x0, #136]
	stp	q2, q0, [x0, #176]
	stp	x8, x18, [x0, #256]
	add	sp, sp, #2960
	ldr	x30, [sp], #16
	ret
.Lnoise_func_end15:
	.size	"noise_names::table::row", .Lnoise_func_end15-"noise_names::table::row"
	.cfi_endproc
	.section	".rodata.noise_names::table::row","a",@progbits
	.p2align	1, 0x0
.Lnoise_JTI15_0:
	.hword	(.Lnoise_BB15_2-.Lnoise_BB15_2)>>2
	.hword	(.Lnoise_BB15_10-.Lnoise_BB15_2)>>2
	.hword	(.Lnoise_BB15_7-.Lnoise_BB15_2)>>2
	.hword	(.Lnoise_BB15_8-.Lnoise_BB15_2)>>2
	.hword	(.Lnoise_BB15_4-.Lnoise_BB15_2)>>2
	.hword	(.Lnoise_BB15_11-.Lnoise_BB15_2)>>2
	.hword	(.Lnoise_BB15_13-.Lnoise_BB15_2)>>2
	.hword	(.Lnoise_BB15_9-.Lnoise_BB15_2)>>2
	.hword	(.Lnoise_BB15_15-.Lnoise_BB15_2)>>2
	.hword	(.Lnoise_BB15_6-.Lnoise_BB15_2)>>2
	.hword	(.Lnoise_BB15_14-.Lnoise_BB15_2)>>2
	.hword	(.Lnoise_BB15_3-.Lnoise_BB15_2)>>2
	.hword	(.Lnoise_BB15_5-.Lnoise_BB15_2)>>2
	.hword	(.Lnoise_BB15_12-.Lnoise_BB15_2)>>2

	.section	".text.noise_names::text::read::read_line","ax",@progbits
	.p2align	2
	.type	"noise_names::text::read::read_line",@function
"noise_names::text::read::read_line":
	.cfi_startproc
	sub	sp, sp, #32
	.cfi_def_cfa_offset 32
	subs	x8, x3, #5
	b.lo	.Lnoise_BB16_49
	ldrb	w13, [x2]
	ldrb	w12, [x2, #1]
	ldrb	w11, [x2, #2]
	ldrb	w10, [x2, #3]
	ldrb	w9, [x2, #4]
	cmp	w13, #32
	b.ne	.Lnoise_BB16_7
	cmp	w12, #32
	b.ne	.Lnoise_BB16_7
	cmp	w11, #45
	b.ne	.Lnoise_BB16_7
	cmp	w10, #62
	b.ne	.Lnoise_BB16_7
	cmp	w9, #32
	b.ne	.Lnoise_BB16_7
	and	w10, w1, #0xff
	cmp	wzr, w10
	b.eq	.Lnoise_BB16_13
	b	.Lnoise_BB16_49
.Lnoise_BB16_7:
	cmp	w13, #32
	b.ne	.Lnoise_BB16_49
	cmp	w12, #32
	b.ne	.Lnoise_BB16_49
	cmp	w11, #60
	b.ne	.Lnoise_BB16_49
	cmp	w10, #45
	b.ne	.Lnoise_BB16_49
	cmp	w9, #32
	b.ne	.Lnoise_BB16_49
	mov	w9, #1
	and	w10, w1, #0xff
	cmp	w9, w10
	b.ne	.Lnoise_BB16_49
.Lnoise_BB16_13:
	mov	x10, xzr
	add	x9, x2, #5
	stp	xzr, xzr, [sp, #16]
.Lnoise_BB16_14:
	cbz	x8, .Lnoise_BB16_45
	mov	x11, xzr
.Lnoise_BB16_16:
	ldrb	w12, [x9, x11]
	sub	w12, w12, #97
	cmp	w12, #25
	b.hi	.Lnoise_BB16_19
	add	x11, x11, #1
	cmp	x8, x11
	b.ne	.Lnoise_BB16_16
	mov	x11, x8
.Lnoise_BB16_19:
	cmp	x11, #1
	b.eq	.Lnoise_BB16_27
	cbz	x11, .Lnoise_BB16_45
	cmp	x11, #2
	b.hi	.Lnoise_BB16_30
	ldrb	w12, [x9]
	cmp	w12, #115
	b.eq	.Lnoise_BB16_40
	cmp	w12, #101
	b.ne	.Lnoise_BB16_45
	ldrb	w12, [x9, #1]
	cmp	w12, #101
	b.eq	.Lnoise_BB16_44
	cmp	w12, #115
	b.ne	.Lnoise_BB16_45
	mov	w12, #3
	b	.Lnoise_BB16_35
.Lnoise_BB16_27:
	ldrb	w12, [x9]
	cmp	w12, #101
	b.eq	.Lnoise_BB16_34
	cmp	w12, #115
	b.ne	.Lnoise_BB16_45
	mov	w12, #1
	b	.Lnoise_BB16_35
.Lnoise_BB16_30:
	cmp	x11, #3
	b.ne	.Lnoise_BB16_45
	ldrb	w12, [x9]
	cmp	w12, #112
	b.ne	.Lnoise_BB16_45
	ldrb	w12, [x9, #1]
	cmp	w12, #115
	b.ne	.Lnoise_BB16_45
	ldrb	w12, [x9, #2]
	cmp	w12, #107
	b.eq	.Lnoise_BB16_37
	b	.Lnoise_BB16_45
.Lnoise_BB16_34:
	mov	w12, wzr
.Lnoise_BB16_35:
	cmp	x10, #8
	b.eq	.Lnoise_BB16_37
	add	x13, sp, #16
	strb	w12, [x13, x10]
	add	x10, x10, #1
	str	x10, [sp, #24]
.Lnoise_BB16_37:
	sub	x12, x8, x11
	add	x11, x9, x11
	subs	x8, x12, #2
	b.lo	.Lnoise_BB16_46
	ldrb	w9, [x11]
	cmp	w9, #44
	b.ne	.Lnoise_BB16_46
	ldrb	w9, [x11, #1]
	cmp	w9, #32
	add	x9, x11, #2
	b.eq	.Lnoise_BB16_14
	b	.Lnoise_BB16_46
.Lnoise_BB16_40:
	ldrb	w12, [x9, #1]
	cmp	w12, #101
	b.eq	.Lnoise_BB16_43
	cmp	w12, #115
	b.ne	.Lnoise_BB16_45
	mov	w12, #5
	b	.Lnoise_BB16_35
.Lnoise_BB16_43:
	mov	w12, #4
	b	.Lnoise_BB16_35
.Lnoise_BB16_44:
	mov	w12, #2
	b	.Lnoise_BB16_35
.Lnoise_BB16_45:
	ldr	q0, [sp, #16]
	str	q0, [sp]
	cbnz	x8, .Lnoise_BB16_47
	b	.Lnoise_BB16_49
.Lnoise_BB16_46:
	ldr	q0, [sp, #16]
	mov	x9, x11
	mov	x8, x12
	str	q0, [sp]
	cbz	x12, .Lnoise_BB16_49
.Lnoise_BB16_47:
	ldrb	w10, [x9], #1
	cmp	w10, #10
	b.ne	.Lnoise_BB16_49
	ldr	q0, [sp]
	mov	w10, #1
	sub	x8, x8, #1
	str	x10, [x0]
	stur	q0, [x0, #8]
	stp	x9, x8, [x0, #24]
	add	sp, sp, #32
	ret
.Lnoise_BB16_49:
	movi	v0.2d, #0000000000000000
	str	xzr, [x0, #32]
	stp	q0, q0, [x0]
	add	sp, sp, #32
	ret
.Lnoise_func_end16:
	.size	"noise_names::text::read::read_line", .Lnoise_func_end16-"noise_names::text::read::read_line"
	.cfi_endproc

	.section	".text.noise_names::pattern::Pattern::with_psks","ax",@progbits
	.p2align	2
	.type	"noise_names::pattern::Pattern::with_psks",@function
"noise_names::pattern::Pattern::with_psks":
	.cfi_startproc
	stp	x29, x30, [sp, #-96]!
	stp	x28, x27, [sp, #16]
	mov	x29, sp
	stp	x26, x25, [sp, #32]
	stp	x24, x23, [sp, #48]
	stp	x22, x21, [sp, #64]
	stp	x20, x19, [sp, #80]
	sub	sp, sp, #576
	.cfi_def_cfa w29, 96
	.cfi_offset w19, -8
	.cfi_offset w20, -16
	.cfi_offset w21, -24
	.cfi_offset w22, -32
	.cfi_offset w23, -40
	.cfi_offset w24, -48
	.cfi_offset w25, -56
	.cfi_offset w26, -64
	.cfi_offset w27, -72
	.cfi_offset w28, -80
	.cfi_offset w30, -88
	.cfi_offset w29, -96
	ldr	x22, [x2, #16]
	ldr	x8, [x1, #264]
	sub	x10, x29, #40
	mov	x21, x2
	mov	x19, x0
	mov	x9, xzr
	orr	x10, x10, #0x1
	stp	xzr, xzr, [sp, #64]
	stur	xzr, [sp, #79]
	stp	xzr, xzr, [sp, #48]
	stp	xzr, xzr, [sp, #32]
	stp	xzr, xzr, [sp, #16]
	str	x10, [sp, #8]
.Lnoise_BB17_1:
	cmp	x22, x9
	b.eq	.Lnoise_BB17_4
	ldrb	w10, [x21, x9]
	add	x9, x9, #1
	cmp	x8, x10
	b.hs	.Lnoise_BB17_1
	movi	v0.2d, #0000000000000000
	mov	w8, #1
	strb	w10, [x19, #1]
	strb	w8, [x19]
	stur	q0, [x19, #24]
	stur	q0, [x19, #40]
	stur	q0, [x19, #56]
	stur	q0, [x19, #72]
	stur	q0, [x19, #88]
	stur	q0, [x19, #104]
	stur	q0, [x19, #120]
	stur	q0, [x19, #136]
	stur	q0, [x19, #152]
	stur	q0, [x19, #168]
	stur	q0, [x19, #184]
	stur	q0, [x19, #200]
	stur	q0, [x19, #216]
	stur	q0, [x19, #232]
	stur	q0, [x19, #248]
	str	q0, [x19, #8]!
	str	q0, [x19, #256]
	b	.Lnoise_BB17_23
.Lnoise_BB17_4:
	movi	v0.2d, #0000000000000000
	str	x1, [sp]
	stur	xzr, [x29, #-48]
	stp	q0, q0, [x29, #-240]
	stp	q0, q0, [x29, #-208]
	stp	q0, q0, [x29, #-176]
	stp	q0, q0, [x29, #-144]
	stp	q0, q0, [x29, #-112]
	stp	q0, q0, [x29, #-80]
	cbz	x8, .Lnoise_BB17_14
	neg	x26, x8
	ldr	x8, [sp]
	sub	x28, x29, #240
	mov	w20, #1
	add	x27, x8, #88
	b	.Lnoise_BB17_7
.Lnoise_BB17_6:
	ldur	q0, [x29, #-40]
	ldur	x8, [x29, #-24]
	add	x27, x27, #24
	str	q0, [x28]
	str	x8, [x28, #16]
	add	x28, x28, #24
	stur	x20, [x29, #-48]
	add	x20, x20, #1
	add	x9, x26, x20
	str	q0, [sp, #304]
	cmp	x9, #1
	str	x8, [sp, #320]
	b.eq	.Lnoise_BB17_14
.Lnoise_BB17_7:
	mov	x24, x27
	and	w8, w20, #0xff
	sturb	w20, [x29, #-12]
	ldr	x23, [x24], #-16
	cmp	w8, #1
	stp	xzr, xzr, [x29, #-40]
	b.ne	.Lnoise_BB17_10
	adrp	x2, .Lnoise_static.2
	add	x2, x2, :lo12:.Lnoise_static.2
	mov	x0, x21
	mov	x1, x22
	bl	"core::slice::reads::slice+T::contains::<i8,31'core::cmp::numbers::U8PartialEq{}>"
	cbz	w0, .Lnoise_BB17_10
	ldr	x0, [sp, #8]
	mov	w8, #6
	mov	w25, #1
	sturb	w8, [x29, #-40]
	b	.Lnoise_BB17_11
.Lnoise_BB17_10:
	mov	x25, xzr
	sub	x0, x29, #40
.Lnoise_BB17_11:
	mov	w8, #10
	sub	x8, x8, x25
	cmp	x8, x23
	b.lo	.Lnoise_BB17_24
	mov	x1, x24
	mov	x2, x23
	bl	memcpy
	add	x23, x25, x23
	sub	x2, x29, #12
	mov	x0, x21
	mov	x1, x22
	stur	x23, [x29, #-24]
	bl	"core::slice::reads::slice+T::contains::<i8,31'core::cmp::numbers::U8PartialEq{}>"
	tbz	w0, #0, .Lnoise_BB17_6
	sub	x8, x29, #40
	add	x10, x23, #1
	mov	w9, #6
	strb	w9, [x8, x23]
	stur	x10, [x29, #-24]
	b	.Lnoise_BB17_6
.Lnoise_BB17_14:
	ldp	q0, q1, [x29, #-80]
	ldur	x8, [x29, #-48]
	str	x8, [sp, #288]
	stp	q0, q1, [sp, #256]
	ldp	q0, q1, [x29, #-144]
	stp	q0, q1, [sp, #192]
	ldp	q0, q2, [x29, #-112]
	stp	q0, q2, [sp, #224]
	ldp	q1, q0, [x29, #-208]
	stp	q1, q0, [sp, #128]
	ldp	q0, q2, [x29, #-176]
	stp	q0, q2, [sp, #160]
	ldp	q0, q1, [x29, #-240]
	stp	xzr, xzr, [x29, #-240]
	stur	xzr, [x29, #-224]
	stp	q0, q1, [sp, #96]
	cbz	x22, .Lnoise_BB17_18
	ldr	x24, [sp]
	mov	x8, xzr
.Lnoise_BB17_16:
	ldrb	w9, [x21, x8]
	sub	x10, x29, #240
	strb	w9, [x10, x8]
	add	x8, x8, #1
	cmp	x22, x8
	stur	x8, [x29, #-224]
	b.ne	.Lnoise_BB17_16
	ldurb	w20, [x29, #-240]
	b	.Lnoise_BB17_19
.Lnoise_BB17_18:
	ldr	x24, [sp]
	mov	w20, wzr
.Lnoise_BB17_19:
	ldr	x23, [x24, #8]
	ldur	q0, [x29, #-239]
	ldur	x8, [x29, #-224]
	ldr	x22, [x24, #48]
	ldr	x21, [x24, #64]
	stur	xzr, [x29, #-240]
	cmp	x23, #8
	str	q0, [sp, #64]
	stur	x8, [sp, #79]
	b.hi	.Lnoise_BB17_24
	sub	x0, x29, #240
	mov	x1, x24
	mov	x2, x23
	bl	memcpy
	cmp	x22, #2
	stur	x23, [x29, #-232]
	stur	xzr, [x29, #-40]
	b.hi	.Lnoise_BB17_24
	sub	x0, x29, #40
	add	x1, x24, #40
	mov	x2, x22
	bl	memcpy
	cmp	x21, #2
	stur	x22, [x29, #-32]
	str	xzr, [sp, #304]
	b.hi	.Lnoise_BB17_24
	add	x0, sp, #304
	add	x1, x24, #56
	mov	x2, x21
	bl	memcpy
	ldur	q0, [x29, #-240]
	str	x21, [sp, #312]
	ldur	q1, [x29, #-40]
	ldr	q2, [sp, #304]
	ldur	x8, [sp, #79]
	strh	wzr, [x19]
	stp	q1, q0, [sp, #32]
	stur	q0, [x19, #8]
	ldr	q0, [sp, #64]
	str	q2, [sp, #16]
	ldp	q2, q3, [sp, #96]
	stur	q0, [x19, #25]
	ldp	q1, q0, [sp, #16]
	str	x8, [x19, #40]
	ldr	x8, [sp, #288]
	stp	q2, q3, [x19, #80]
	stp	q0, q1, [x19, #48]
	ldp	q1, q0, [sp, #128]
	strb	w20, [x19, #24]
	str	x8, [x19, #272]
	stp	q1, q0, [x19, #112]
	ldp	q1, q0, [sp, #192]
	stp	q1, q0, [x19, #176]
	ldp	q0, q2, [sp, #160]
	stp	q0, q2, [x19, #144]
	ldp	q1, q0, [sp, #256]
	stp	q1, q0, [x19, #240]
	ldp	q0, q2, [sp, #224]
	stp	q0, q2, [x19, #208]
.Lnoise_BB17_23:
	add	sp, sp, #576
	ldp	x20, x19, [sp, #80]
	ldp	x22, x21, [sp, #64]
	ldp	x24, x23, [sp, #48]
	ldp	x26, x25, [sp, #32]
	ldp	x28, x27, [sp, #16]
	ldp	x29, x30, [sp], #96
	ret
.Lnoise_BB17_24:
	brk	#0x1
.Lnoise_func_end17:
	.size	"noise_names::pattern::Pattern::with_psks", .Lnoise_func_end17-"noise_names::pattern::Pattern::with_psks"
	.cfi_endproc

	.section	.rodata.cst16,"aM",@progbits,16
	.p2align	4, 0x0
.Lnoise_CPI18_0:
	.byte	1
	.byte	2
	.byte	4
	.byte	8
	.byte	16
	.byte	32
	.byte	64
	.byte	128
	.byte	1
	.byte	2
	.byte	4
	.byte	8
	.byte	16
	.byte	32
	.byte	64
	.byte	128
	.section	".text.core::slice::reads::slice+T::contains::<i8,31'core::cmp::numbers::U8PartialEq{}>","ax",@progbits
	.p2align	2
	.type	"core::slice::reads::slice+T::contains::<i8,31'core::cmp::numbers::U8PartialEq{}>",@function
"core::slice::reads::slice+T::contains::<i8,31'core::cmp::numbers::U8PartialEq{}>":
	.cfi_startproc
	cmp	x1, #3
	b.hi	.Lnoise_BB18_3
	cbz	x1, .Lnoise_BB18_7
	lsr	x8, x1, #1
	ldrb	w9, [x2]
	ldrb	w10, [x0]
	add	x11, x0, x1
	ldrb	w8, [x0, x8]
	cmp	w10, w9
	ldurb	w10, [x11, #-1]
	ccmp	w8, w9, #4, ne
	ccmp	w10, w9, #4, ne
	cset	w0, eq
	ret
.Lnoise_BB18_3:
	subs	x8, x1, #8
	b.hi	.Lnoise_BB18_5
	add	x8, x0, x1
	ldr	s0, [x0]
	ld1r	{ v1.8b }, [x2]
	sub	x8, x8, #4
	ld1	{ v0.s }[1], [x8]
	cmeq	v0.8b, v0.8b, v1.8b
	umaxv	b0, v0.8b
	fmov	w8, s0
	and	w0, w8, #0x1
	ret
.Lnoise_BB18_5:
	cmp	x1, #32
	b.hi	.Lnoise_BB18_8
	cmp	x8, #8
	mov	w9, #8
	mov	w10, #16
	csel	x9, x8, x9, lo
	cmp	x8, #16
	ldr	d0, [x0]
	csel	x10, x8, x10, lo
	ldr	d1, [x0, x9]
	ldr	d3, [x0, x8]
	ldr	d2, [x0, x10]
	mov	v0.d[1], v1.d[0]
	ld1r	{ v1.16b }, [x2]
	mov	v2.d[1], v3.d[0]
	cmeq	v0.16b, v0.16b, v1.16b
	cmeq	v2.16b, v2.16b, v1.16b
	orr	v0.16b, v0.16b, v2.16b
	umaxv	b0, v0.16b
	fmov	w8, s0
	and	w0, w8, #0x1
	ret
.Lnoise_BB18_7:
	mov	w0, wzr
	ret
.Lnoise_BB18_8:
	ldrb	w9, [x2]
	cmp	x1, #64
	b.hi	.Lnoise_BB18_10
	add	x8, x0, x1
	dup	v0.16b, w9
	ldp	q1, q2, [x0]
	ldp	q4, q3, [x8, #-32]
	cmeq	v1.16b, v1.16b, v0.16b
	cmeq	v2.16b, v2.16b, v0.16b
	cmeq	v4.16b, v4.16b, v0.16b
	cmeq	v0.16b, v3.16b, v0.16b
	orr	v0.16b, v2.16b, v0.16b
	orr	v1.16b, v1.16b, v4.16b
	orr	v0.16b, v1.16b, v0.16b
	umaxv	b0, v0.16b
	fmov	w8, s0
	and	w0, w8, #0x1
	ret
.Lnoise_BB18_10:
	dup	v1.16b, w9
	mov	x8, xzr
	mov	x9, x1
.Lnoise_BB18_11:
	add	x10, x0, x8
	adrp	x11, .Lnoise_CPI18_0
	ldp	q3, q2, [x10, #32]
	ldr	q0, [x11, :lo12:.Lnoise_CPI18_0]
	ldp	q5, q4, [x10]
	cmeq	v3.16b, v3.16b, v1.16b
	cmeq	v2.16b, v2.16b, v1.16b
	cmeq	v5.16b, v5.16b, v1.16b
	cmeq	v4.16b, v4.16b, v1.16b
	and	v3.16b, v3.16b, v0.16b
	and	v2.16b, v2.16b, v0.16b
	and	v5.16b, v5.16b, v0.16b
	and	v4.16b, v4.16b, v0.16b
	ext	v6.16b, v3.16b, v3.16b, #8
	ext	v17.16b, v2.16b, v2.16b, #8
	ext	v7.16b, v5.16b, v5.16b, #8
	ext	v16.16b, v4.16b, v4.16b, #8
	zip1	v3.16b, v3.16b, v6.16b
	zip1	v2.16b, v2.16b, v17.16b
	zip1	v5.16b, v5.16b, v7.16b
	zip1	v4.16b, v4.16b, v16.16b
	addv	h3, v3.8h
	addv	h2, v2.8h
	addv	h5, v5.8h
	addv	h4, v4.8h
	fmov	w10, s3
	fmov	w13, s2
	fmov	w11, s5
	fmov	w12, s4
	orr	w10, w11, w10
	orr	w11, w12, w13
	orr	w10, w10, w11
	tst	w10, #0xffff
	b.ne	.Lnoise_BB18_14
	sub	x9, x9, #64
	add	x8, x8, #64
	cmp	x9, #63
	b.hi	.Lnoise_BB18_11
	and	x8, x1, #0xffffffffffffffc0
.Lnoise_BB18_14:
	sub	x9, x1, x8
	cmp	x9, #32
	b.lo	.Lnoise_BB18_20
	ld1r	{ v1.16b }, [x2]
	add	x8, x0, x8
.Lnoise_BB18_16:
	ldp	q2, q3, [x8], #32
	cmeq	v3.16b, v3.16b, v1.16b
	cmeq	v2.16b, v2.16b, v1.16b
	and	v3.16b, v3.16b, v0.16b
	and	v2.16b, v2.16b, v0.16b
	ext	v4.16b, v3.16b, v3.16b, #8
	ext	v5.16b, v2.16b, v2.16b, #8
	zip1	v3.16b, v3.16b, v4.16b
	zip1	v2.16b, v2.16b, v5.16b
	addv	h3, v3.8h
	addv	h2, v2.8h
	fmov	w10, s3
	fmov	w11, s2
	orr	w10, w11, w10
	tst	w10, #0xffff
	b.ne	.Lnoise_BB18_18
	sub	x9, x9, #32
	cmp	x9, #32
	b.hs	.Lnoise_BB18_16
	b	.Lnoise_BB18_20
.Lnoise_BB18_18:
	cmp	x9, #31
	b.ls	.Lnoise_BB18_20
	mov	w0, #1
	ret
.Lnoise_BB18_20:
	add	x8, x0, x1
	ld1r	{ v0.16b }, [x2]
	ldp	q1, q2, [x8, #-32]
	cmeq	v2.16b, v2.16b, v0.16b
	cmeq	v0.16b, v1.16b, v0.16b
	orr	v0.16b, v0.16b, v2.16b
	umaxv	b0, v0.16b
	fmov	w8, s0
	and	w0, w8, #0x1
	ret
.Lnoise_func_end18:
	.size	"core::slice::reads::slice+T::contains::<i8,31'core::cmp::numbers::U8PartialEq{}>", .Lnoise_func_end18-"core::slice::reads::slice+T::contains::<i8,31'core::cmp::numbers::U8PartialEq{}>"
	.cfi_endproc

	.section	.rodata.cst8,"aM",@progbits,8
	.p2align	3, 0x0
.Lnoise_CPI19_0:
	.byte	32
	.byte	32
	.byte	46
	.byte	46
	.zero	1
	.zero	1
	.zero	1
	.zero	1
	.section	".text.noise_names::text::write::text","ax",@progbits
	.p2align	2
	.type	"noise_names::text::write::text",@function
"noise_names::text::write::text":
	.cfi_startproc
	stp	x29, x30, [sp, #-64]!
	stp	x28, x23, [sp, #16]
	mov	x29, sp
	stp	x22, x21, [sp, #32]
	stp	x20, x19, [sp, #48]
	sub	sp, sp, #1360
	str	xzr, [sp]
	.cfi_def_cfa w29, 64
	.cfi_offset w19, -8
	.cfi_offset w20, -16
	.cfi_offset w21, -24
	.cfi_offset w22, -32
	.cfi_offset w23, -40
	.cfi_offset w28, -48
	.cfi_offset w30, -56
	.cfi_offset w29, -64
	mov	x20, x1
	mov	x19, x0
	ldr	x22, [x1, #264]
	add	x0, sp, #536
	mov	w1, wzr
	mov	w2, #552
	add	x23, sp, #1088
	bl	memset
	movi	v0.2d, #0000000000000000
	ldr	x21, [x20, #8]
	cmp	x21, #255
	stp	q0, q0, [x23]
	stp	q0, q0, [x23, #32]
	stp	q0, q0, [x23, #64]
	stp	q0, q0, [x23, #96]
	stp	q0, q0, [x23, #128]
	stp	q0, q0, [x23, #160]
	stp	q0, q0, [x23, #192]
	stp	q0, q0, [x23, #224]
	b.hi	.Lnoise_BB19_28
	add	x0, sp, #1088
	mov	x1, x20
	mov	x2, x21
	add	x23, sp, #1088
	bl	memcpy
	ldr	x9, [x20, #32]
	cbz	x9, .Lnoise_BB19_14
	cmp	x21, #252
	b.hi	.Lnoise_BB19_28
	add	x8, sp, #1088
	add	x10, x8, x21
	adrp	x8, .Lnoise_static.51
	add	x8, x8, :lo12:.Lnoise_static.51
	sub	x11, x10, x8
	cmp	x11, #3
	b.hs	.Lnoise_BB19_11
	mov	w11, #29552
	mov	w12, #107
	strh	w11, [x10]
	strb	w12, [x10, #2]
	ldrb	w11, [x20, #16]
	subs	x9, x9, #1
	add	w11, w11, #48
	strb	w11, [x10, #3]
	b.eq	.Lnoise_BB19_12
.Lnoise_BB19_5:
	sub	x10, x21, #248
	add	x11, x20, #17
	b	.Lnoise_BB19_8
.Lnoise_BB19_6:
	mov	w13, #107
	mov	w14, #29552
	strb	w13, [x12, #2]
	strh	w14, [x12]
.Lnoise_BB19_7:
	ldrb	w12, [x11], #1
	add	x13, sp, #1088
	add	x13, x13, x10
	subs	x9, x9, #1
	add	x10, x10, #5
	add	w12, w12, #48
	strb	w12, [x13, #256]
	b.eq	.Lnoise_BB19_13
.Lnoise_BB19_8:
	add	x12, sp, #1088
	mov	w13, #43
	cmp	x10, #3
	add	x12, x12, x10
	strb	w13, [x12, #252]
	b.lo	.Lnoise_BB19_28
	add	x12, x12, #253
	sub	x13, x12, x8
	cmp	x13, #2
	b.hi	.Lnoise_BB19_6
	mov	w13, #112
	add	x14, sp, #1088
	strb	w13, [x12]
	add	x12, x14, x10
	mov	w13, #27507
	strh	w13, [x12, #254]
	b	.Lnoise_BB19_7
.Lnoise_BB19_11:
	mov	w11, #107
	mov	w12, #29552
	strb	w11, [x10, #2]
	strh	w12, [x10]
	ldrb	w11, [x20, #16]
	subs	x9, x9, #1
	add	w11, w11, #48
	strb	w11, [x10, #3]
	b.ne	.Lnoise_BB19_5
.Lnoise_BB19_12:
	add	x21, x21, #4
	b	.Lnoise_BB19_14
.Lnoise_BB19_13:
	add	x21, x10, #252
.Lnoise_BB19_14:
	mov	w8, #2618
	strh	w8, [x23, x21]
	add	x0, sp, #272
	add	x8, x21, #2
	add	x1, sp, #1088
	mov	w2, #264
	str	x8, [sp, #1344]
	bl	memcpy
	add	x0, sp, #8
	add	x1, sp, #272
	mov	w2, #264
	bl	memcpy
	ldr	x23, [sp, #1080]
	ldr	x21, [sp, #264]
	mov	w8, #541
	sub	x8, x8, x23
	cmp	x8, x21
	b.lo	.Lnoise_BB19_28
	add	x8, sp, #536
	add	x1, sp, #8
	mov	x2, x21
	add	x0, x8, x23
	bl	memcpy
	ldr	x3, [x20, #48]
	add	x8, x23, x21
	ldr	x21, [x20, #64]
	str	x8, [sp, #1080]
	cbz	x3, .Lnoise_BB19_17
	add	x0, sp, #536
	add	x2, x20, #40
	mov	w1, wzr
	bl	"noise_names::text::write::push_token_line"
	cbnz	x21, .Lnoise_BB19_18
	b	.Lnoise_BB19_19
.Lnoise_BB19_17:
	cbz	x21, .Lnoise_BB19_24
.Lnoise_BB19_18:
	add	x0, sp, #536
	add	x2, x20, #56
	mov	w1, #1
	mov	x3, x21
	bl	"noise_names::text::write::push_token_line"
.Lnoise_BB19_19:
	ldr	x8, [sp, #1080]
	sub	x9, x8, #536
	cmp	x9, #6
	b.lo	.Lnoise_BB19_28
	add	x9, sp, #536
	adrp	x10, .Lnoise_static.82
	add	x10, x10, :lo12:.Lnoise_static.82
	add	x9, x9, x8
	sub	x10, x9, x10
	cmp	x10, #5
	b.hi	.Lnoise_BB19_22
	adrp	x10, .Lnoise_CPI19_0
	ldr	d0, [x10, :lo12:.Lnoise_CPI19_0]
	mov	w10, #2606
	strh	w10, [x9, #4]
	str	s0, [x9]
	b	.Lnoise_BB19_23
.Lnoise_BB19_22:
	mov	w11, #8224
	mov	w10, #2606
	movk	w11, #11822, lsl #16
	strh	w10, [x9, #4]
	str	w11, [x9]
.Lnoise_BB19_23:
	add	x8, x8, #6
	str	x8, [sp, #1080]
.Lnoise_BB19_24:
	cbz	x22, .Lnoise_BB19_27
	mov	w21, wzr
	add	x20, x20, #72
.Lnoise_BB19_26:
	ldr	x3, [x20, #16]
	add	x0, sp, #536
	mov	w1, w21
	mov	x2, x20
	bl	"noise_names::text::write::push_token_line"
	subs	x22, x22, #1
	eor	w21, w21, #0x1
	add	x20, x20, #24
	b.ne	.Lnoise_BB19_26
.Lnoise_BB19_27:
	add	x1, sp, #536
	mov	x0, x19
	mov	w2, #552
	bl	memcpy
	add	sp, sp, #1360
	ldp	x20, x19, [sp, #48]
	ldp	x22, x21, [sp, #32]
	ldp	x28, x23, [sp, #16]
	ldp	x29, x30, [sp], #64
	ret
.Lnoise_BB19_28:
	brk	#0x1
.Lnoise_func_end19:
	.size	"noise_names::text::write::text", .Lnoise_func_end19-"noise_names::text::write::text"
	.cfi_endproc

	.section	".text.noise_names::text::write::push_token_line","ax",@progbits
	.p2align	2
	.type	"noise_names::text::write::push_token_line",@function
"noise_names::text::write::push_token_line":
	.cfi_startproc
	stp	x29, x30, [sp, #-96]!
	str	x27, [sp, #16]
	stp	x26, x25, [sp, #32]
	stp	x24, x23, [sp, #48]
	stp	x22, x21, [sp, #64]
	stp	x20, x19, [sp, #80]
	mov	x29, sp
	.cfi_def_cfa w29, 96
	.cfi_offset w19, -8
	.cfi_offset w20, -16
	.cfi_offset w21, -24
	.cfi_offset w22, -32
	.cfi_offset w23, -40
	.cfi_offset w24, -48
	.cfi_offset w25, -56
	.cfi_offset w26, -64
	.cfi_offset w27, -80
	.cfi_offset w30, -88
	.cfi_offset w29, -96
	ldr	x8, [x0, #544]
	and	x10, x8, #0xfffffffffffffffe
	cmp	x10, #540
	b.eq	.Lnoise_BB20_23
	adrp	x9, .Lnoise_static.88
	add	x9, x9, :lo12:.Lnoise_static.88
	adrp	x11, .Lnoise_static.89
	add	x11, x11, :lo12:.Lnoise_static.89
	tst	w1, #0x1
	mov	x19, x0
	csel	x9, x11, x9, ne
	cmp	x10, #538
	mov	w10, #8224
	strh	w10, [x0, x8]
	b.eq	.Lnoise_BB20_23
	add	x10, x19, x8
	mov	x20, x2
	add	x11, x10, #2
	sub	x12, x11, x9
	cmp	x12, #1
	b.hi	.Lnoise_BB20_4
	ldrb	w9, [x9]
	tst	w1, #0x1
	mov	w11, #62
	mov	w12, #45
	csel	w11, w12, w11, ne
	strb	w9, [x10, #2]
	strb	w11, [x10, #3]
	b	.Lnoise_BB20_5
.Lnoise_BB20_4:
	ldrh	w9, [x9]
	strh	w9, [x11]
.Lnoise_BB20_5:
	cmp	x8, #537
	b.eq	.Lnoise_BB20_23
	add	x9, x19, x8
	mov	w10, #32
	add	x25, x8, #5
	strb	w10, [x9, #4]
	str	x25, [x19, #544]
	cbz	x3, .Lnoise_BB20_21
	ldrb	w9, [x20], #1
	adrp	x22, ".Lnoise_switch.table.noise_names::text::write::push_token_line.199"
	add	x22, x22, :lo12:".Lnoise_switch.table.noise_names::text::write::push_token_line.199"
	mov	w10, #536
	ldr	x21, [x22, x9, lsl #3]
	sub	x8, x10, x8
	cmp	x8, x21
	b.lo	.Lnoise_BB20_23
	adrp	x23, ".Lnoise_switch.table.noise_names::text::write::push_token_line.200"
	add	x23, x23, :lo12:".Lnoise_switch.table.noise_names::text::write::push_token_line.200"
	add	x8, x19, x25
	ldr	x1, [x23, x9, lsl #3]
	sub	x24, x3, #1
	sub	x9, x8, x1
	cmp	x9, x21
	b.hs	.Lnoise_BB20_12
	mov	x9, x21
.Lnoise_BB20_10:
	ldrb	w10, [x1], #1
	subs	x9, x9, #1
	strb	w10, [x8], #1
	b.ne	.Lnoise_BB20_10
	add	x25, x21, x25
	cbnz	x24, .Lnoise_BB20_13
	b	.Lnoise_BB20_21
.Lnoise_BB20_12:
	add	x0, x19, x25
	mov	x2, x21
	bl	memcpy
	add	x25, x21, x25
	cbz	x24, .Lnoise_BB20_21
.Lnoise_BB20_13:
	mov	x26, xzr
	b	.Lnoise_BB20_16
.Lnoise_BB20_14:
	add	x0, x19, x27
	mov	x2, x21
	bl	memcpy
.Lnoise_BB20_15:
	add	x26, x26, #1
	add	x25, x21, x27
	cmp	x26, x24
	str	x25, [x19, #544]
	b.eq	.Lnoise_BB20_21
.Lnoise_BB20_16:
	and	x8, x25, #0xfffffffffffffffe
	cmp	x8, #540
	b.eq	.Lnoise_BB20_23
	add	x8, x19, x25
	adrp	x9, .Lnoise_static.85
	add	x9, x9, :lo12:.Lnoise_static.85
	sub	x9, x8, x9
	add	x27, x25, #2
	cmp	x9, #1
	mov	w9, #8236
	strh	w9, [x8]
	mov	w9, #539
	str	x27, [x19, #544]
	sub	x9, x9, x25
	ldrb	w8, [x20, x26]
	ldr	x21, [x22, x8, lsl #3]
	cmp	x9, x21
	b.lo	.Lnoise_BB20_23
	ldr	x1, [x23, x8, lsl #3]
	add	x8, x19, x27
	sub	x9, x8, x1
	cmp	x9, x21
	b.hs	.Lnoise_BB20_14
	mov	x9, x21
.Lnoise_BB20_20:
	ldrb	w10, [x1], #1
	subs	x9, x9, #1
	strb	w10, [x8], #1
	b.ne	.Lnoise_BB20_20
	b	.Lnoise_BB20_15
.Lnoise_BB20_21:
	cmp	x25, #541
	b.eq	.Lnoise_BB20_23
	mov	w8, #10
	strb	w8, [x19, x25]
	ldr	x27, [sp, #16]
	add	x8, x25, #1
	ldp	x22, x21, [sp, #64]
	str	x8, [x19, #544]
	ldp	x20, x19, [sp, #80]
	ldp	x24, x23, [sp, #48]
	ldp	x26, x25, [sp, #32]
	ldp	x29, x30, [sp], #96
	ret
.Lnoise_BB20_23:
	brk	#0x1
.Lnoise_func_end20:
	.size	"noise_names::text::write::push_token_line", .Lnoise_func_end20-"noise_names::text::write::push_token_line"
	.cfi_endproc

	.section	.rodata.cst16,"aM",@progbits,16
	.p2align	4, 0x0
.Lnoise_CPI21_0:
	.byte	1
	.byte	2
	.byte	4
	.byte	8
	.byte	16
	.byte	32
	.byte	64
	.byte	128
	.byte	1
	.byte	2
	.byte	4
	.byte	8
	.byte	16
	.byte	32
	.byte	64
	.byte	128
	.section	".text.core::cmp::slices::groups_equal::<i8,31'core::cmp::numbers::U8PartialEq{}>","ax",@progbits
	.p2align	2
	.type	"core::cmp::slices::groups_equal::<i8,31'core::cmp::numbers::U8PartialEq{}>",@function
"core::cmp::slices::groups_equal::<i8,31'core::cmp::numbers::U8PartialEq{}>":
	.cfi_startproc
	subs	x9, x1, #8
	b.hi	.Lnoise_BB21_2
	sub	x8, x1, #4
	ldr	s0, [x0]
	ldr	s1, [x2]
	add	x9, x0, x8
	add	x8, x2, x8
	ld1	{ v0.s }[1], [x9]
	ld1	{ v1.s }[1], [x8]
	fmov	x8, d0
	fmov	x9, d1
	cmp	x8, x9
	cset	w8, ne
	eor	w0, w8, #0x1
	ret
.Lnoise_BB21_2:
	subs	x8, x1, #32
	b.hi	.Lnoise_BB21_4
	cmp	x9, #8
	mov	w8, #8
	mov	w10, #16
	csel	x8, x9, x8, lo
	cmp	x9, #16
	ldr	d0, [x0]
	ldr	d1, [x2]
	ldr	d2, [x0, x8]
	ldr	d3, [x2, x8]
	csel	x8, x9, x10, lo
	ldr	d5, [x2, x9]
	ldr	d4, [x0, x8]
	mov	v0.d[1], v2.d[0]
	mov	v1.d[1], v3.d[0]
	ldr	d2, [x2, x8]
	ldr	d3, [x0, x9]
	mov	v4.d[1], v3.d[0]
	mov	v2.d[1], v5.d[0]
	cmeq	v0.16b, v0.16b, v1.16b
	cmeq	v1.16b, v4.16b, v2.16b
	b	.Lnoise_BB21_17
.Lnoise_BB21_4:
	cmp	x1, #65
	b.hs	.Lnoise_BB21_6
	ldp	q1, q0, [x0]
	add	x9, x2, x8
	ldp	q3, q2, [x2]
	add	x8, x0, x8
	ldp	q4, q5, [x9]
	cmeq	v1.16b, v1.16b, v3.16b
	cmeq	v0.16b, v0.16b, v2.16b
	ldp	q2, q3, [x8]
	mvn	v1.16b, v1.16b
	mvn	v0.16b, v0.16b
	cmeq	v2.16b, v2.16b, v4.16b
	cmeq	v3.16b, v3.16b, v5.16b
	orn	v0.16b, v0.16b, v3.16b
	orn	v1.16b, v1.16b, v2.16b
	orr	v0.16b, v1.16b, v0.16b
	umaxv	b0, v0.16b
	fmov	w8, s0
	and	w8, w8, #0x1
	eor	w0, w8, #0x1
	ret
.Lnoise_BB21_6:
	mov	x10, xzr
	add	x9, x2, #48
	mov	x11, x1
.Lnoise_BB21_7:
	add	x12, x0, x10
	add	x13, x9, x10
	ldp	q0, q3, [x13, #-48]
	ldp	q1, q2, [x12]
	ldp	q4, q5, [x13, #-16]
	cmeq	v0.16b, v1.16b, v0.16b
	cmeq	v1.16b, v2.16b, v3.16b
	ldp	q2, q3, [x12, #32]
	mvn	v0.16b, v0.16b
	mvn	v1.16b, v1.16b
	cmeq	v2.16b, v2.16b, v4.16b
	cmeq	v3.16b, v3.16b, v5.16b
	orn	v0.16b, v0.16b, v2.16b
	orn	v1.16b, v1.16b, v3.16b
	orr	v0.16b, v1.16b, v0.16b
	umaxv	b0, v0.16b
	fmov	w12, s0
	tbnz	w12, #0, .Lnoise_BB21_10
	sub	x11, x11, #64
	add	x10, x10, #64
	cmp	x11, #63
	b.hi	.Lnoise_BB21_7
	and	x10, x1, #0xffffffffffffffc0
.Lnoise_BB21_10:
	sub	x9, x1, x10
	cmp	x9, #32
	b.lo	.Lnoise_BB21_16
	add	x11, x2, x10
	add	x10, x0, x10
.Lnoise_BB21_12:
	ldp	q0, q1, [x10], #32
	ldp	q2, q3, [x11], #32
	adrp	x12, .Lnoise_CPI21_0
	cmeq	v1.16b, v1.16b, v3.16b
	cmeq	v0.16b, v0.16b, v2.16b
	ldr	q2, [x12, :lo12:.Lnoise_CPI21_0]
	bic	v1.16b, v2.16b, v1.16b
	bic	v0.16b, v2.16b, v0.16b
	ext	v2.16b, v1.16b, v1.16b, #8
	ext	v3.16b, v0.16b, v0.16b, #8
	zip1	v1.16b, v1.16b, v2.16b
	zip1	v0.16b, v0.16b, v3.16b
	addv	h1, v1.8h
	addv	h0, v0.8h
	fmov	w12, s1
	fmov	w13, s0
	orr	w12, w13, w12
	tst	w12, #0xffff
	b.ne	.Lnoise_BB21_14
	sub	x9, x9, #32
	cmp	x9, #31
	b.hi	.Lnoise_BB21_12
	b	.Lnoise_BB21_16
.Lnoise_BB21_14:
	cmp	x9, #31
	b.ls	.Lnoise_BB21_16
	mov	w8, #1
	eor	w0, w8, #0x1
	ret
.Lnoise_BB21_16:
	add	x9, x0, x8
	add	x8, x2, x8
	ldp	q0, q3, [x8]
	ldp	q1, q2, [x9]
	cmeq	v0.16b, v1.16b, v0.16b
	cmeq	v1.16b, v2.16b, v3.16b
.Lnoise_BB21_17:
	mvn	v0.16b, v0.16b
	orn	v0.16b, v0.16b, v1.16b
	umaxv	b0, v0.16b
	fmov	w8, s0
	and	w8, w8, #0x1
	eor	w0, w8, #0x1
	ret
.Lnoise_func_end21:
	.size	"core::cmp::slices::groups_equal::<i8,31'core::cmp::numbers::U8PartialEq{}>", .Lnoise_func_end21-"core::cmp::slices::groups_equal::<i8,31'core::cmp::numbers::U8PartialEq{}>"
	.cfi_endproc

	.section	.rodata.cst16,"aM",@progbits,16
	.p2align	4, 0x0
.Lnoise_CPI22_0:
	.byte	1
	.byte	2
	.byte	4
	.byte	8
	.byte	16
	.byte	32
	.byte	64
	.byte	128
	.byte	1
	.byte	2
	.byte	4
	.byte	8
	.byte	16
	.byte	32
	.byte	64
	.byte	128
	.section	".text.core::cmp::slices::groups_equal::<#1549cde59530a8ca>","ax",@progbits
	.p2align	2
	.type	"core::cmp::slices::groups_equal::<#1549cde59530a8ca>",@function
"core::cmp::slices::groups_equal::<#1549cde59530a8ca>":
	.cfi_startproc
	subs	x9, x1, #8
	b.hi	.Lnoise_BB22_2
	sub	x8, x1, #4
	ldr	s0, [x0]
	ldr	s1, [x2]
	add	x9, x0, x8
	add	x8, x2, x8
	ld1	{ v0.s }[1], [x9]
	ld1	{ v1.s }[1], [x8]
	fmov	x8, d0
	fmov	x9, d1
	cmp	x8, x9
	cset	w8, ne
	eor	w0, w8, #0x1
	ret
.Lnoise_BB22_2:
	subs	x8, x1, #32
	b.hi	.Lnoise_BB22_4
	cmp	x9, #8
	mov	w8, #8
	mov	w10, #16
	csel	x8, x9, x8, lo
	cmp	x9, #16
	ldr	d0, [x0]
	ldr	d1, [x2]
	ldr	d2, [x0, x8]
	ldr	d3, [x2, x8]
	csel	x8, x9, x10, lo
	ldr	d5, [x2, x9]
	ldr	d4, [x0, x8]
	mov	v0.d[1], v2.d[0]
	mov	v1.d[1], v3.d[0]
	ldr	d2, [x2, x8]
	ldr	d3, [x0, x9]
	mov	v4.d[1], v3.d[0]
	mov	v2.d[1], v5.d[0]
	cmeq	v0.16b, v0.16b, v1.16b
	cmeq	v1.16b, v4.16b, v2.16b
	b	.Lnoise_BB22_17
.Lnoise_BB22_4:
	cmp	x1, #65
	b.hs	.Lnoise_BB22_6
	ldp	q1, q0, [x0]
	add	x9, x2, x8
	ldp	q3, q2, [x2]
	add	x8, x0, x8
	ldp	q4, q5, [x9]
	cmeq	v1.16b, v1.16b, v3.16b
	cmeq	v0.16b, v0.16b, v2.16b
	ldp	q2, q3, [x8]
	mvn	v1.16b, v1.16b
	mvn	v0.16b, v0.16b
	cmeq	v2.16b, v2.16b, v4.16b
	cmeq	v3.16b, v3.16b, v5.16b
	orn	v0.16b, v0.16b, v3.16b
	orn	v1.16b, v1.16b, v2.16b
	orr	v0.16b, v1.16b, v0.16b
	umaxv	b0, v0.16b
	fmov	w8, s0
	and	w8, w8, #0x1
	eor	w0, w8, #0x1
	ret
.Lnoise_BB22_6:
	mov	x10, xzr
	add	x9, x2, #48
	mov	x11, x1
.Lnoise_BB22_7:
	add	x12, x0, x10
	add	x13, x9, x10
	ldp	q0, q3, [x13, #-48]
	ldp	q1, q2, [x12]
	ldp	q4, q5, [x13, #-16]
	cmeq	v0.16b, v1.16b, v0.16b
	cmeq	v1.16b, v2.16b, v3.16b
	ldp	q2, q3, [x12, #32]
	mvn	v0.16b, v0.16b
	mvn	v1.16b, v1.16b
	cmeq	v2.16b, v2.16b, v4.16b
	cmeq	v3.16b, v3.16b, v5.16b
	orn	v0.16b, v0.16b, v2.16b
	orn	v1.16b, v1.16b, v3.16b
	orr	v0.16b, v1.16b, v0.16b
	umaxv	b0, v0.16b
	fmov	w12, s0
	tbnz	w12, #0, .Lnoise_BB22_10
	sub	x11, x11, #64
	add	x10, x10, #64
	cmp	x11, #63
	b.hi	.Lnoise_BB22_7
	and	x10, x1, #0xffffffffffffffc0
.Lnoise_BB22_10:
	sub	x9, x1, x10
	cmp	x9, #32
	b.lo	.Lnoise_BB22_16
	add	x11, x2, x10
	add	x10, x0, x10
.Lnoise_BB22_12:
	ldp	q0, q1, [x10], #32
	ldp	q2, q3, [x11], #32
	adrp	x12, .Lnoise_CPI22_0
	cmeq	v1.16b, v1.16b, v3.16b
	cmeq	v0.16b, v0.16b, v2.16b
	ldr	q2, [x12, :lo12:.Lnoise_CPI22_0]
	bic	v1.16b, v2.16b, v1.16b
	bic	v0.16b, v2.16b, v0.16b
	ext	v2.16b, v1.16b, v1.16b, #8
	ext	v3.16b, v0.16b, v0.16b, #8
	zip1	v1.16b, v1.16b, v2.16b
	zip1	v0.16b, v0.16b, v3.16b
	addv	h1, v1.8h
	addv	h0, v0.8h
	fmov	w12, s1
	fmov	w13, s0
	orr	w12, w13, w12
	tst	w12, #0xffff
	b.ne	.Lnoise_BB22_14
	sub	x9, x9, #32
	cmp	x9, #32
	b.hs	.Lnoise_BB22_12
	b	.Lnoise_BB22_16
.Lnoise_BB22_14:
	cmp	x9, #31
	b.ls	.Lnoise_BB22_16
	mov	w8, #1
	eor	w0, w8, #0x1
	ret
.Lnoise_BB22_16:
	add	x9, x0, x8
	add	x8, x2, x8
	ldp	q0, q3, [x8]
	ldp	q1, q2, [x9]
	cmeq	v0.16b, v1.16b, v0.16b
	cmeq	v1.16b, v2.16b, v3.16b
.Lnoise_BB22_17:
	mvn	v0.16b, v0.16b
	orn	v0.16b, v0.16b, v1.16b
	umaxv	b0, v0.16b
	fmov	w8, s0
	and	w8, w8, #0x1
	eor	w0, w8, #0x1
	ret
.Lnoise_func_end22:
	.size	"core::cmp::slices::groups_equal::<#1549cde59530a8ca>", .Lnoise_func_end22-"core::cmp::slices::groups_equal::<#1549cde59530a8ca>"
	.cfi_endproc

	.section	".text.noise_names::pattern::Pattern::check","ax",@progbits
	.p2align	2
	.type	"noise_names::pattern::Pattern::check",@function
"noise_names::pattern::Pattern::check":
	.cfi_startproc
	stp	x29, x30, [sp, #-96]!
	stp	x28, x27, [sp, #16]
	mov	x29, sp
	stp	x26, x25, [sp, #32]
	stp	x24, x23, [sp, #48]
	stp	x22, x21, [sp, #64]
	stp	x20, x19, [sp, #80]
	sub	sp, sp, #576
	.cfi_def_cfa w29, 96
	.cfi_offset w19, -8
	.cfi_offset w20, -16
	.cfi_offset w21, -24
	.cfi_offset w22, -32
	.cfi_offset w23, -40
	.cfi_offset w24, -48
	.cfi_offset w25, -56
	.cfi_offset w26, -64
	.cfi_offset w27, -72
	.cfi_offset w28, -80
	.cfi_offset w30, -88
	.cfi_offset w29, -96
	mov	x19, x0
	add	x0, sp, #8
	mov	w2, #272
	mov	x20, x1
	sub	x25, x29, #20
	add	x21, sp, #8
	bl	memcpy
	ldr	x5, [sp, #56]
	ldr	x26, [sp, #272]
	sub	x0, x29, #20
	sub	x1, x29, #16
	add	x4, x21, #40
	mov	w2, wzr
	mov	w3, wzr
	stur	wzr, [x29, #-20]
	stur	xzr, [x29, #-16]
	sturb	wzr, [x29, #-8]
	bl	"noise_names::seen::Seen::walk_tokens"
	ldurb	w8, [x29, #-20]
	cbnz	w8, .Lnoise_BB23_2
	ldr	x5, [sp, #72]
	sub	x0, x29, #20
	sub	x1, x29, #16
	add	x4, x21, #56
	mov	w2, #1
	mov	w3, wzr
	bl	"noise_names::seen::Seen::walk_tokens"
	ldurb	w8, [x29, #-20]
	cbz	w8, .Lnoise_BB23_5
.Lnoise_BB23_2:
	ldurb	w8, [x29, #-17]
	ldurh	w9, [x25, #1]
	orr	w9, w9, w8, lsl #16
.Lnoise_BB23_3:
	movi	v0.2d, #0000000000000000
	sturh	w9, [x19, #1]
	lsr	w9, w9, #16
	mov	w8, #1
	strb	w8, [x19]
	strb	w9, [x19, #3]
	stur	q0, [x19, #24]
	stur	q0, [x19, #40]
	stur	q0, [x19, #56]
	stur	q0, [x19, #72]
	stur	q0, [x19, #88]
	stur	q0, [x19, #104]
	stur	q0, [x19, #120]
	stur	q0, [x19, #136]
	stur	q0, [x19, #152]
	stur	q0, [x19, #168]
	stur	q0, [x19, #184]
	stur	q0, [x19, #200]
	stur	q0, [x19, #216]
	stur	q0, [x19, #232]
	stur	q0, [x19, #248]
	str	q0, [x19, #8]!
	str	q0, [x19, #256]
.Lnoise_BB23_4:
	add	sp, sp, #576
	ldp	x20, x19, [sp, #80]
	ldp	x22, x21, [sp, #64]
	ldp	x24, x23, [sp, #48]
	ldp	x26, x25, [sp, #32]
	ldp	x28, x27, [sp, #16]
	ldp	x29, x30, [sp], #96
	ret
.Lnoise_BB23_5:
	cbz	x26, .Lnoise_BB23_21
	mov	w23, wzr
	add	x24, x21, #72
	mov	w21, #1
	mov	x27, x26
	b	.Lnoise_BB23_8
.Lnoise_BB23_7:
	subs	x27, x27, #1
	eor	w23, w23, #0x1
	add	w21, w21, #1
	add	x24, x24, #24
	b.eq	.Lnoise_BB23_22
.Lnoise_BB23_8:
	ldr	x22, [x24, #16]
	sub	x0, x29, #4
	sub	x1, x29, #16
	mov	w2, w23
	mov	w3, w21
	mov	x4, x24
	mov	x5, x22
	stur	wzr, [x29, #-4]
	bl	"noise_names::seen::Seen::walk_tokens"
	ldurb	w8, [x29, #-4]
	cbnz	w8, .Lnoise_BB23_29
	ldurb	w8, [x29, #-12]
	tbz	w23, #0, .Lnoise_BB23_14
	ldurb	w9, [x29, #-11]
	cmp	w9, #1
	b.ne	.Lnoise_BB23_12
	cbz	w8, .Lnoise_BB23_28
.Lnoise_BB23_12:
	ldurb	w10, [x29, #-9]
	ldurb	w9, [x29, #-10]
	cmp	w10, #1
	b.ne	.Lnoise_BB23_18
	tbnz	w9, #0, .Lnoise_BB23_18
	b	.Lnoise_BB23_28
.Lnoise_BB23_14:
	ldurb	w9, [x29, #-10]
	cmp	w9, #1
	b.ne	.Lnoise_BB23_16
	cbz	w8, .Lnoise_BB23_28
.Lnoise_BB23_16:
	ldurb	w10, [x29, #-9]
	cmp	w10, #1
	b.ne	.Lnoise_BB23_18
	ldurb	w10, [x29, #-11]
	tbz	w10, #0, .Lnoise_BB23_28
.Lnoise_BB23_18:
	ldurb	w10, [x29, #-8]
	tbz	w10, #0, .Lnoise_BB23_7
	and	x10, x23, #0xff
	sub	x11, x29, #16
	lsl	x10, x10, #1
	ldrb	w10, [x11, x10]
	tbnz	w10, #0, .Lnoise_BB23_7
	mov	w8, #5
	b	.Lnoise_BB23_30
.Lnoise_BB23_21:
	ldurb	w8, [x29, #-12]
	ldurb	w9, [x29, #-10]
.Lnoise_BB23_22:
	add	w10, w26, #1
	tbz	w9, #0, .Lnoise_BB23_24
	tbz	w8, #0, .Lnoise_BB23_26
.Lnoise_BB23_24:
	ldurb	w11, [x29, #-9]
	eor	w13, w11, #0x1
	ldurb	w11, [x29, #-11]
	tbnz	w13, #0, .Lnoise_BB23_31
	cbnz	w11, .Lnoise_BB23_31
.Lnoise_BB23_26:
	mov	w8, #4
.Lnoise_BB23_27:
	sturb	w8, [x29, #-19]
	sturb	w10, [x29, #-18]
	ldurh	w9, [x25, #1]
	sturb	wzr, [x29, #-17]
	b	.Lnoise_BB23_3
.Lnoise_BB23_28:
	mov	w8, #4
	b	.Lnoise_BB23_30
.Lnoise_BB23_29:
	ldurb	w9, [x29, #-1]
	ldurh	w8, [x25, #17]
	bfi	w8, w9, #16, #8
	uxth	w22, w9
	lsr	w21, w8, #8
.Lnoise_BB23_30:
	lsl	w9, w22, #16
	bfi	w9, w21, #8, #8
	bfxil	w9, w8, #0, #8
	b	.Lnoise_BB23_3
.Lnoise_BB23_31:
	ldurb	w12, [x29, #-8]
	eor	w12, w12, #0x1
	tbnz	w12, #0, .Lnoise_BB23_34
	ldurb	w14, [x29, #-16]
	tbnz	w14, #0, .Lnoise_BB23_34
	mov	w8, #5
	b	.Lnoise_BB23_27
.Lnoise_BB23_34:
	cmp	x26, #1
	b.ne	.Lnoise_BB23_36
.Lnoise_BB23_35:
	add	x0, sp, #284
	mov	x1, x20
	mov	w2, #272
	bl	memcpy
	add	x0, x19, #8
	add	x1, sp, #284
	mov	w2, #272
	strb	wzr, [x19]
	strb	wzr, [x19, #3]
	sturh	wzr, [x19, #1]
	bl	memcpy
	b	.Lnoise_BB23_4
.Lnoise_BB23_36:
	orr	w13, w9, w13
	mov	w9, #4
	tbz	w13, #0, .Lnoise_BB23_40
	eor	w11, w11, #0x1
	orr	w8, w11, w8
	tbz	w8, #0, .Lnoise_BB23_40
	ldurb	w8, [x29, #-14]
	orr	w8, w12, w8
	tbnz	w8, #0, .Lnoise_BB23_35
	mov	w9, #5
.Lnoise_BB23_40:
	bfi	w9, w10, #8, #8
	orr	w9, w9, #0x10000
	b	.Lnoise_BB23_3
.Lnoise_func_end23:
	.size	"noise_names::pattern::Pattern::check", .Lnoise_func_end23-"noise_names::pattern::Pattern::check"
	.cfi_endproc

	.section	".text.noise_names::seen::Seen::walk_tokens","ax",@progbits
	.p2align	2
	.type	"noise_names::seen::Seen::walk_tokens",@function
"noise_names::seen::Seen::walk_tokens":
	.cfi_startproc
	cbz	x5, .Lnoise_BB24_54
	tst	w2, #0x1
	mov	w10, #3
	ubfiz	x9, x2, #1, #8
	mov	x8, xzr
	csinc	x10, x10, xzr, ne
	b	.Lnoise_BB24_4
.Lnoise_BB24_2:
	mov	w11, #1
	strb	w11, [x1, #8]
.Lnoise_BB24_3:
	add	x8, x8, #1
	cmp	x5, x8
	b.eq	.Lnoise_BB24_54
.Lnoise_BB24_4:
	ldrb	w11, [x4, x8]
	cmp	w11, #2
	b.le	.Lnoise_BB24_9
	cmp	w11, #4
	b.gt	.Lnoise_BB24_16
	cmp	w11, #3
	b.ne	.Lnoise_BB24_23
	ldrb	w12, [x1]
	cmp	w12, #1
	b.ne	.Lnoise_BB24_55
	ldrb	w12, [x1, #5]
	b	.Lnoise_BB24_19
.Lnoise_BB24_9:
	cbz	w11, .Lnoise_BB24_20
	cmp	w11, #1
	b.ne	.Lnoise_BB24_21
	tbz	w2, #0, .Lnoise_BB24_41
	ldrb	w12, [x1, #5]
	cmp	w12, #1
	b.ne	.Lnoise_BB24_14
	ldrb	w12, [x1, #4]
	cmp	w12, #1
	b.ne	.Lnoise_BB24_48
.Lnoise_BB24_14:
	ldrb	w12, [x1, #7]
	cmp	w12, #1
	b.ne	.Lnoise_BB24_45
	ldrb	w12, [x1, #6]
	cmp	w12, #1
	b.eq	.Lnoise_BB24_45
	b	.Lnoise_BB24_48
.Lnoise_BB24_16:
	cmp	w11, #5
	b.ne	.Lnoise_BB24_2
	ldrb	w12, [x1, #1]
	cmp	w12, #1
	b.ne	.Lnoise_BB24_55
	ldrb	w12, [x1, #7]
.Lnoise_BB24_19:
	ldrb	w13, [x1, #3]
	b	.Lnoise_BB24_26
.Lnoise_BB24_20:
	ldrb	w13, [x1, x9]
	lsl	w12, w13, #1
	b	.Lnoise_BB24_27
.Lnoise_BB24_21:
	ldrb	w12, [x1]
	cmp	w12, #1
	b.ne	.Lnoise_BB24_55
	ldrb	w12, [x1, #4]
	b	.Lnoise_BB24_25
.Lnoise_BB24_23:
	ldrb	w12, [x1, #1]
	cmp	w12, #1
	b.ne	.Lnoise_BB24_55
	ldrb	w12, [x1, #6]
.Lnoise_BB24_25:
	ldrb	w13, [x1, #2]
.Lnoise_BB24_26:
	cmp	w12, #0
	mov	w14, #3
	orn	w12, w12, w13
	csel	w14, w14, wzr, ne
	cmp	w13, #0
	and	w13, w12, #0x1
	csinc	w12, w14, wzr, ne
.Lnoise_BB24_27:
	cbnz	w13, .Lnoise_BB24_53
	cmp	w11, #2
	b.gt	.Lnoise_BB24_33
	cbz	w11, .Lnoise_BB24_36
	cmp	w11, #1
	b.ne	.Lnoise_BB24_39
	mov	w11, #1
	tst	w2, #0xff
	b.eq	.Lnoise_BB24_50
	strb	w11, [x1, #3]
	b	.Lnoise_BB24_3
.Lnoise_BB24_33:
	cmp	w11, #3
	b.eq	.Lnoise_BB24_38
	cmp	w11, #4
	b.ne	.Lnoise_BB24_40
	mov	w11, #1
	strb	w11, [x1, #6]
	b	.Lnoise_BB24_3
.Lnoise_BB24_36:
	mov	w11, #1
	tst	w2, #0xff
	b.eq	.Lnoise_BB24_49
	strb	w11, [x1, #2]
	b	.Lnoise_BB24_3
.Lnoise_BB24_38:
	mov	w11, #1
	strb	w11, [x1, #5]
	b	.Lnoise_BB24_3
.Lnoise_BB24_39:
	mov	w11, #1
	strb	w11, [x1, #4]
	b	.Lnoise_BB24_3
.Lnoise_BB24_40:
	mov	w11, #1
	strb	w11, [x1, #7]
	b	.Lnoise_BB24_3
.Lnoise_BB24_41:
	ldrb	w12, [x1, #6]
	cmp	w12, #1
	b.ne	.Lnoise_BB24_43
	ldrb	w12, [x1, #4]
	cmp	w12, #1
	b.ne	.Lnoise_BB24_48
.Lnoise_BB24_43:
	ldrb	w12, [x1, #7]
	cmp	w12, #1
	b.ne	.Lnoise_BB24_45
	ldrb	w12, [x1, #5]
	tbz	w12, #0, .Lnoise_BB24_48
.Lnoise_BB24_45:
	ldrb	w12, [x1, #8]
	cmp	w12, #1
	b.ne	.Lnoise_BB24_47
	ldrb	w12, [x1, x9]
	cmp	w12, #1
	b.ne	.Lnoise_BB24_51
.Lnoise_BB24_47:
	mov	w13, wzr
	mov	w12, wzr
	ldrb	w14, [x1, x10]
	tbz	w14, #0, .Lnoise_BB24_27
	b	.Lnoise_BB24_52
.Lnoise_BB24_48:
	mov	w12, #4
	mov	w13, #1
	ldrb	w14, [x1, x10]
	tbz	w14, #0, .Lnoise_BB24_27
	b	.Lnoise_BB24_52
.Lnoise_BB24_49:
	strb	w11, [x1]
	b	.Lnoise_BB24_3
.Lnoise_BB24_50:
	strb	w11, [x1, #1]
	b	.Lnoise_BB24_3
.Lnoise_BB24_51:
	mov	w12, #5
	mov	w13, #1
	ldrb	w14, [x1, x10]
	tbz	w14, #0, .Lnoise_BB24_27
.Lnoise_BB24_52:
	mov	w12, #2
.Lnoise_BB24_53:
	orr	w10, w12, w3, lsl #8
	mov	w9, #1
	strb	w8, [x0, #3]
	strb	w9, [x0]
	sturh	w10, [x0, #1]
	ret
.Lnoise_BB24_54:
	strb	wzr, [x0]
	strb	wzr, [x0, #3]
	sturh	wzr, [x0, #1]
	ret
.Lnoise_BB24_55:
	mov	w12, #1
	orr	w10, w12, w3, lsl #8
	mov	w9, #1
	strb	w8, [x0, #3]
	strb	w9, [x0]
	sturh	w10, [x0, #1]
	ret
.Lnoise_func_end24:
	.size	"noise_names::seen::Seen::walk_tokens", .Lnoise_func_end24-"noise_names::seen::Seen::walk_tokens"
	.cfi_endproc

	.section	".text.noise_names::name::ProtocolName::parse","ax",@progbits
	.p2align	2
	.type	"noise_names::name::ProtocolName::parse",@function
"noise_names::name::ProtocolName::parse":
	.cfi_startproc
	sub	sp, sp, #160
	stp	x29, x30, [sp, #96]
	str	x23, [sp, #112]
	stp	x22, x21, [sp, #128]
	stp	x20, x19, [sp, #144]
	add	x29, sp, #96
	.cfi_def_cfa w29, 64
	.cfi_offset w19, -8
	.cfi_offset w20, -16
	.cfi_offset w21, -24
	.cfi_offset w22, -32
	.cfi_offset w23, -48
	.cfi_offset w30, -56
	.cfi_offset w29, -64
	movi	v0.2d, #0000000000000000
	cmp	x2, #256
	stur	q0, [sp, #30]
	stp	q0, q0, [sp]
	stp	q0, q0, [sp, #64]
	str	q0, [sp, #48]
	b.lo	.Lnoise_BB25_2
	mov	w8, wzr
	stur	xzr, [sp, #38]
	mov	w9, #1
	b	.Lnoise_BB25_11
.Lnoise_BB25_2:
	subs	x8, x2, #6
	b.lo	.Lnoise_BB25_10
	ldrb	w9, [x1, #1]
	ldur	w10, [x1, #2]
	ldrb	w11, [x1]
	cmp	w9, #111
	mov	w9, #29545
	movk	w9, #24421, lsl #16
	cset	w12, eq
	cmp	w10, w9
	mov	w9, #78
	ccmp	w11, w9, #0, eq
	add	x9, x1, #6
	cset	w10, eq
	ands	w10, w10, w12
	csel	x19, x9, xzr, ne
	csel	x22, x8, xzr, ne
	cmp	w10, #1
	b.ne	.Lnoise_BB25_10
	mov	x21, x0
	mov	x20, xzr
	cbz	x8, .Lnoise_BB25_8
.Lnoise_BB25_5:
	ldrb	w10, [x9, x20]
	cmp	w10, #95
	b.eq	.Lnoise_BB25_8
	add	x20, x20, #1
	cmp	x8, x20
	b.ne	.Lnoise_BB25_5
	mov	x20, x22
.Lnoise_BB25_8:
	add	x0, sp, #48
	mov	x1, x19
	mov	x2, x20
	add	x23, sp, #48
	bl	"noise_names::section::parse_section"
	ldrb	w8, [sp, #48]
	cbz	w8, .Lnoise_BB25_13
	movi	v0.2d, #0000000000000000
	ldrb	w8, [sp, #49]
	stur	xzr, [sp, #38]
	mov	w9, #1
	mov	x0, x21
	stur	q0, [sp, #6]
	stur	q0, [sp, #22]
	b	.Lnoise_BB25_12
.Lnoise_BB25_10:
	stur	xzr, [sp, #38]
	mov	w9, #1
	mov	w8, #1
.Lnoise_BB25_11:
	stur	q0, [sp, #22]
	stur	q0, [sp, #6]
.Lnoise_BB25_12:
	ldur	q0, [sp, #6]
	strb	w8, [x0, #1]
	ldur	q1, [sp, #22]
	ldur	x8, [sp, #38]
	ldr	x23, [sp, #112]
	strb	w9, [x0]
	stur	q0, [x0, #8]
	ldp	x20, x19, [sp, #144]
	stur	q1, [x0, #24]
	ldp	x22, x21, [sp, #128]
	str	x8, [x0, #40]
	ldp	x29, x30, [sp, #96]
	add	sp, sp, #160
	ret
.Lnoise_BB25_13:
	sub	x8, x22, x20
	mov	x0, x21
	cmp	x8, #24
	b.ne	.Lnoise_BB25_17
	ldr	w8, [x19, x20]
	mov	w9, #12895
	movk	w9, #13621, lsl #16
	cmp	w8, w9
	b.ne	.Lnoise_BB25_17
	adrp	x2, .Lnoise_static.98
	add	x2, x2, :lo12:.Lnoise_static.98
	add	x0, x19, x20
	mov	w1, #24
	bl	"core::cmp::slices::groups_equal::<i8,31'core::cmp::numbers::U8PartialEq{}>"
	mov	w8, w0
	mov	x0, x21
	tbz	w8, #0, .Lnoise_BB25_17
	orr	x10, x23, #0x8
	mov	w9, wzr
	mov	w8, wzr
	ldp	q0, q1, [x10]
	ldr	x10, [x10, #32]
	stur	x10, [sp, #38]
	stur	q0, [sp, #6]
	stur	q1, [sp, #22]
	b	.Lnoise_BB25_12
.Lnoise_BB25_17:
	movi	v0.2d, #0000000000000000
	stur	xzr, [sp, #38]
	mov	w8, #5
	mov	w9, #1
	b	.Lnoise_BB25_11
.Lnoise_func_end25:
	.size	"noise_names::name::ProtocolName::parse", .Lnoise_func_end25-"noise_names::name::ProtocolName::parse"
	.cfi_endproc

	.section	".text.noise_c::from_c::restored","ax",@progbits
	.p2align	2
	.type	"noise_c::from_c::restored",@function
"noise_c::from_c::restored":
	.cfi_startproc
	stp	x29, x30, [sp, #-96]!
	stp	x28, x27, [sp, #16]
	mov	x29, sp
	stp	x26, x25, [sp, #32]
	stp	x24, x23, [sp, #48]
	stp	x22, x21, [sp, #64]
	stp	x20, x19, [sp, #80]
	sub	sp, sp, #3072
	str	xzr, [sp]
	sub	sp, sp, #768
	.cfi_def_cfa w29, 96
	.cfi_offset w19, -8
	.cfi_offset w20, -16
	.cfi_offset w21, -24
	.cfi_offset w22, -32
	.cfi_offset w23, -40
	.cfi_offset w24, -48
	.cfi_offset w25, -56
	.cfi_offset w26, -64
	.cfi_offset w27, -72
	.cfi_offset w28, -80
	.cfi_offset w30, -88
	.cfi_offset w29, -96
	movi	v0.2d, #0000000000000000
	add	x23, sp, #800
	add	x9, sp, #616
	add	x8, x23, #286
	stur	xzr, [x9, #166]
	ldrb	w10, [x1, #491]
	str	wzr, [sp, #616]
	ldrb	w19, [x1, #422]
	mov	x26, x2
	stur	wzr, [x9, #3]
	add	x11, sp, #3328
	add	x24, sp, #1536
	str	q0, [x8]
	add	x8, sp, #256
	stur	q0, [x9, #184]
	stur	q0, [x9, #200]
	stur	q0, [x9, #216]
	stur	q0, [x9, #232]
	stur	q0, [x9, #248]
	stur	q0, [x9, #152]
	stur	q0, [x9, #136]
	stur	q0, [x9, #120]
	stur	q0, [x9, #40]
	stur	q0, [x9, #56]
	stur	q0, [x9, #72]
	stur	q0, [x9, #88]
	stur	q0, [x9, #8]
	stur	q0, [x9, #24]
	ldrb	w9, [x1, #557]
	stp	q0, q0, [x8, #32]
	stp	q0, q0, [x8, #80]
	stp	q0, q0, [x8, #112]
	stp	q0, q0, [x8, #144]
	stp	q0, q0, [x8, #176]
	stp	q0, q0, [x8, #208]
	stp	q0, q0, [x8, #240]
	stp	q0, q0, [x8, #272]
	stp	q0, q0, [x8, #304]
	str	q0, [x8, #336]
	stur	wzr, [x8, #75]
	str	q0, [x8, #16]
	ldrb	w8, [x1, #846]
	str	x0, [sp, #72]
	strh	wzr, [sp, #1180]
	str	wzr, [sp, #1176]
	stp	q0, q0, [x23, #80]
	stp	q0, q0, [x23, #112]
	stp	q0, q0, [x23, #144]
	stp	q0, q0, [x23, #176]
	stp	q0, q0, [x23, #208]
	stp	q0, q0, [x23, #240]
	stp	q0, q0, [x23, #304]
	stp	q0, q0, [x23, #336]
	stp	q0, q0, [x23, #400]
	stp	q0, q0, [x23, #432]
	stp	q0, q0, [x23, #464]
	stp	q0, q0, [x23, #496]
	stp	q0, q0, [x23, #528]
	stp	q0, q0, [x23, #560]
	stp	q0, q0, [x23, #592]
	stp	q0, q0, [x23, #624]
	str	q0, [x23, #384]
	str	q0, [x23, #272]
	str	wzr, [sp, #728]
	strb	wzr, [sp, #732]
	str	wzr, [sp, #328]
	str	q0, [sp, #256]
	stp	q0, q0, [sp, #208]
	str	wzr, [sp, #240]
	stp	q0, q0, [sp, #144]
	stp	q0, q0, [sp, #176]
	str	wzr, [sp, #136]
	stur	wzr, [sp, #139]
	stp	q0, q0, [x11, #432]
	stp	q0, q0, [x24, #672]
	stp	q0, q0, [x24, #704]
	str	q0, [x24, #1296]
	str	q0, [x24, #1312]
	str	q0, [x24, #1328]
	str	q0, [x24, #1344]
	str	wzr, [sp, #2896]
	str	x8, [sp, #96]
	stp	q0, q0, [x11, #64]
	str	w10, [sp, #64]
	cbz	w10, .Lnoise_BB26_3
	add	x8, x1, #492
	ldp	q1, q2, [x8]
	mov	w8, #1
	str	w8, [sp, #92]
	stp	q1, q2, [x11, #64]
	ldp	q1, q2, [x11, #64]
	ldrb	w8, [x1, #524]
	stp	q0, q0, [x11, #64]
	str	w8, [sp, #60]
	stp	q1, q2, [x24, #64]
	cbz	w8, .Lnoise_BB26_4
.Lnoise_BB26_2:
	add	x8, x1, #525
	ldp	q0, q1, [x8]
	mov	w8, #1
	str	w8, [sp, #128]
	stp	q0, q1, [x11, #64]
	b	.Lnoise_BB26_5
.Lnoise_BB26_3:
	str	wzr, [sp, #92]
	ldp	q1, q2, [x11, #64]
	ldrb	w8, [x1, #524]
	stp	q0, q0, [x11, #64]
	str	w8, [sp, #60]
	stp	q1, q2, [x24, #64]
	cbnz	w8, .Lnoise_BB26_2
.Lnoise_BB26_4:
	str	wzr, [sp, #128]
.Lnoise_BB26_5:
	movi	v2.2d, #0000000000000000
	ldrb	w8, [x1, #424]
	lsl	x12, x9, #5
	ldp	q0, q1, [x11, #64]
	ldrb	w13, [x1, #1431]
	str	x8, [sp, #120]
	ldrb	w8, [x1, #423]
	add	x27, sp, #2832
	str	x9, [sp, #32]
	stp	q0, q1, [x24, #368]
	stp	q2, q2, [x11, #64]
	cbz	w13, .Lnoise_BB26_7
	add	x9, x1, #1432
	ldp	q0, q1, [x9]
	mov	w9, #1
	str	w9, [sp, #132]
	stp	q0, q1, [x11, #64]
	b	.Lnoise_BB26_8
.Lnoise_BB26_7:
	str	wzr, [sp, #132]
.Lnoise_BB26_8:
	ldp	q0, q1, [x11, #64]
	add	x9, x1, #1367
	cmp	w13, #0
	add	x10, x1, #1399
	add	x28, x1, #425
	add	x0, sp, #336
	mov	w2, #272
	str	w13, [sp, #40]
	stp	q0, q1, [x11, #432]
	ldp	q2, q0, [x9]
	cset	w9, ne
	cmp	w8, #0
	sub	x8, x1, x12
	stp	x8, x12, [sp, #16]
	add	x8, x1, #847
	cset	w25, ne
	ldp	q1, q3, [x10]
	str	x8, [sp, #48]
	add	x8, x1, #458
	cmp	w19, #0
	stp	q2, q0, [x24, #672]
	str	x8, [sp, #80]
	ldr	x8, [x1, #1464]
	mov	x1, x26
	stp	q1, q3, [x24, #704]
	add	x21, sp, #3328
	cset	w22, ne
	str	w9, [sp, #12]
	stur	q1, [x27, #36]
	stur	q3, [x27, #52]
	str	x8, [sp, #112]
	stur	q0, [x27, #20]
	stur	q2, [x27, #4]
	bl	memcpy
	ldp	q2, q0, [x24, #64]
	add	x20, sp, #256
	ldr	w8, [sp, #2896]
	add	x0, sp, #2208
	mov	x1, x26
	mov	w2, #272
	str	wzr, [sp, #328]
	stp	q2, q0, [x20, #32]
	ldp	q1, q0, [x24, #368]
	str	w8, [sp, #240]
	add	x8, sp, #1600
	add	x8, x8, #286
	stur	wzr, [x20, #75]
	str	q1, [sp, #256]
	str	q0, [x20, #16]
	ldp	q1, q0, [x27, #32]
	str	wzr, [sp, #136]
	stur	wzr, [sp, #139]
	stp	q1, q0, [sp, #208]
	ldp	q0, q1, [x27]
	str	xzr, [sp, #2192]
	stur	xzr, [x24, #46]
	stp	q0, q1, [sp, #176]
	ldp	q2, q0, [x21, #432]
	str	wzr, [sp, #1528]
	add	x21, sp, #2208
	strb	wzr, [sp, #1532]
	stp	q2, q0, [sp, #144]
	movi	v0.2d, #0000000000000000
	stp	q0, q0, [x24, #16]
	stp	q0, q0, [x24, #64]
	stp	q0, q0, [x24, #96]
	stp	q0, q0, [x24, #128]
	stp	q0, q0, [x24, #160]
	stp	q0, q0, [x24, #192]
	stp	q0, q0, [x24, #224]
	stp	q0, q0, [x24, #256]
	stp	q0, q0, [x24, #288]
	stp	q0, q0, [x24, #368]
	stp	q0, q0, [x24, #400]
	stp	q0, q0, [x24, #432]
	stp	q0, q0, [x24, #464]
	stp	q0, q0, [x24, #496]
	stp	q0, q0, [x24, #528]
	stp	q0, q0, [x24, #560]
	stp	q0, q0, [x24, #592]
	stp	q0, q0, [x24, #624]
	str	q0, [x8]
	stp	q0, q0, [x24, #320]
	str	q0, [x24]
	stp	q0, q0, [x23, #656]
	stp	q0, q0, [x23, #688]
	bl	memcpy
	add	x8, x21, #273
	ldp	q0, q1, [x20, #32]
	str	wzr, [x8]
	ldr	x8, [sp, #96]
	mov	w4, w19
	ldr	q2, [x20, #16]
	ldr	x27, [sp, #120]
	add	x19, sp, #616
	str	x8, [sp, #2512]
	ldr	w8, [sp, #92]
	ldr	x9, [sp, #2472]
	ldr	x5, [sp, #80]
	ldr	x26, [sp, #48]
	strb	w22, [sp, #2480]
	subs	x10, x9, x27
	strb	w8, [sp, #2520]
	add	x8, x21, #313
	stp	q0, q1, [x8]
	ldr	w8, [sp, #128]
	ldr	q0, [sp, #256]
	str	wzr, [sp, #2484]
	strb	w8, [sp, #2553]
	add	x8, x21, #346
	stp	q0, q2, [x8]
	ldp	q0, q1, [sp, #208]
	add	x8, x21, #380
	str	x28, [sp, #2488]
	str	x5, [sp, #2496]
	stp	q0, q1, [x8, #32]
	ldp	q0, q2, [sp, #176]
	str	x26, [sp, #2504]
	strb	w27, [sp, #2586]
	stp	q0, q2, [x8]
	ldr	w8, [sp, #240]
	ldp	q0, q1, [sp, #144]
	str	w25, [sp, #108]
	str	w8, [sp, #2652]
	ldr	w8, [sp, #132]
	strb	w25, [sp, #2587]
	strb	w8, [sp, #2656]
	add	x8, x21, #449
	stp	q0, q1, [x8]
	add	x8, x21, #481
	ldr	x21, [sp, #112]
	str	wzr, [x8]
	str	wzr, [sp, #2692]
	str	x21, [sp, #2696]
	b.lo	.Lnoise_BB26_124
	mov	x8, xzr
	b.eq	.Lnoise_BB26_16
	mov	w11, #24
	add	x12, sp, #2208
	umaddl	x11, w27, w11, x12
	add	x11, x11, #72
	b	.Lnoise_BB26_12
.Lnoise_BB26_11:
	subs	x10, x10, #1
	add	x11, x11, #24
	add	x8, x12, x8
	b.eq	.Lnoise_BB26_16
.Lnoise_BB26_12:
	ldr	x13, [x11, #16]
	mov	x12, xzr
	mov	x14, x11
.Lnoise_BB26_13:
	cbz	x13, .Lnoise_BB26_11
	ldrb	w15, [x14], #1
	sub	x13, x13, #1
	cmp	w15, #6
	b.ne	.Lnoise_BB26_13
	add	x12, x12, #1
	b	.Lnoise_BB26_13
.Lnoise_BB26_16:
	add	x11, sp, #2208
	ldr	x13, [sp, #2256]
	ldr	x10, [sp, #2272]
	cmp	w4, #0
	add	x14, x11, #40
	add	x11, x11, #56
	csel	x15, x11, x14, ne
	csel	x16, x10, x13, ne
	cset	w12, eq
	mov	x17, x15
	mov	x18, x16
.Lnoise_BB26_17:
	cbz	x18, .Lnoise_BB26_19
	ldrb	w0, [x17], #1
	sub	x18, x18, #1
	cbnz	w0, .Lnoise_BB26_17
	b	.Lnoise_BB26_26
.Lnoise_BB26_19:
	cbz	x9, .Lnoise_BB26_27
	add	x18, sp, #2208
	mov	w17, wzr
	mov	x0, x9
	add	x18, x18, #72
	b	.Lnoise_BB26_22
.Lnoise_BB26_21:
	sub	x0, x0, #1
	add	x18, x18, #24
	eor	w17, w17, #0x1
	cbz	x0, .Lnoise_BB26_27
.Lnoise_BB26_22:
	cmp	w22, w17, uxtb
	b.ne	.Lnoise_BB26_21
	ldr	x1, [x18, #16]
	mov	x2, xzr
.Lnoise_BB26_24:
	cmp	x1, x2
	b.eq	.Lnoise_BB26_21
	ldrb	w3, [x18, x2]
	add	x2, x2, #1
	cbnz	w3, .Lnoise_BB26_24
.Lnoise_BB26_26:
	ldrb	w17, [x28]
	cbz	w17, .Lnoise_BB26_124
.Lnoise_BB26_27:
	cbz	x16, .Lnoise_BB26_29
	ldrb	w17, [x15], #1
	sub	x16, x16, #1
	cmp	w17, #1
	b.ne	.Lnoise_BB26_27
	b	.Lnoise_BB26_36
.Lnoise_BB26_29:
	cbz	x9, .Lnoise_BB26_37
	add	x16, sp, #2208
	mov	w15, wzr
	mov	x17, x9
	add	x16, x16, #72
	b	.Lnoise_BB26_32
.Lnoise_BB26_31:
	sub	x17, x17, #1
	add	x16, x16, #24
	eor	w15, w15, #0x1
	cbz	x17, .Lnoise_BB26_37
.Lnoise_BB26_32:
	cmp	w22, w15, uxtb
	b.ne	.Lnoise_BB26_31
	ldr	x18, [x16, #16]
	mov	x0, xzr
.Lnoise_BB26_34:
	cmp	x18, x0
	b.eq	.Lnoise_BB26_31
	ldrb	w1, [x16, x0]
	add	x0, x0, #1
	cmp	w1, #1
	b.ne	.Lnoise_BB26_34
.Lnoise_BB26_36:
	ldrb	w15, [x5]
	cbz	w15, .Lnoise_BB26_124
.Lnoise_BB26_37:
	cmp	w4, #0
	csel	x15, x14, x11, ne
	csel	x16, x13, x10, ne
	mov	x17, x15
	mov	x18, x16
.Lnoise_BB26_38:
	cbz	x18, .Lnoise_BB26_40
	ldrb	w0, [x17], #1
	sub	x18, x18, #1
	cbnz	w0, .Lnoise_BB26_38
	b	.Lnoise_BB26_47
.Lnoise_BB26_40:
	cbz	w27, .Lnoise_BB26_64
	add	x18, sp, #2208
	mov	w17, wzr
	mov	x0, x27
	add	x18, x18, #72
	b	.Lnoise_BB26_43
.Lnoise_BB26_42:
	sub	x0, x0, #1
	add	x18, x18, #24
	eor	w17, w17, #0x1
	cbz	x0, .Lnoise_BB26_64
.Lnoise_BB26_43:
	cmp	w12, w17, uxtb
	b.ne	.Lnoise_BB26_42
	ldr	x1, [x18, #16]
	mov	x2, xzr
.Lnoise_BB26_45:
	cmp	x1, x2
	b.eq	.Lnoise_BB26_42
	ldrb	w3, [x18, x2]
	add	x2, x2, #1
	cbnz	w3, .Lnoise_BB26_45
.Lnoise_BB26_47:
	ldr	w17, [sp, #64]
	cbz	w17, .Lnoise_BB26_124
.Lnoise_BB26_48:
	cbz	x16, .Lnoise_BB26_50
	ldrb	w17, [x15], #1
	sub	x16, x16, #1
	cmp	w17, #1
	b.ne	.Lnoise_BB26_48
	b	.Lnoise_BB26_57
.Lnoise_BB26_50:
	cbz	w27, .Lnoise_BB26_117
	add	x16, sp, #2208
	mov	w15, wzr
	mov	x17, x27
	add	x16, x16, #72
	b	.Lnoise_BB26_53
.Lnoise_BB26_52:
	sub	x17, x17, #1
	add	x16, x16, #24
	eor	w15, w15, #0x1
	cbz	x17, .Lnoise_BB26_117
.Lnoise_BB26_53:
	cmp	w12, w15, uxtb
	b.ne	.Lnoise_BB26_52
	ldr	x18, [x16, #16]
	mov	x0, xzr
.Lnoise_BB26_55:
	cmp	x18, x0
	b.eq	.Lnoise_BB26_52
	ldrb	w1, [x16, x0]
	add	x0, x0, #1
	cmp	w1, #1
	b.ne	.Lnoise_BB26_55
.Lnoise_BB26_57:
	ldr	w12, [sp, #60]
	cbz	w12, .Lnoise_BB26_124
.Lnoise_BB26_58:
	add	x12, sp, #2208
	add	x12, x12, #72
	cbz	x9, .Lnoise_BB26_66
	mov	x15, xzr
	mov	x16, x12
	b	.Lnoise_BB26_61
.Lnoise_BB26_60:
	add	x15, x15, #1
	add	x16, x16, #24
	cmp	x15, x9
	b.eq	.Lnoise_BB26_66
.Lnoise_BB26_61:
	mov	w17, #24
	mov	x18, x16
	madd	x17, x15, x17, x12
	ldr	x17, [x17, #16]
	cbz	x17, .Lnoise_BB26_60
.Lnoise_BB26_62:
	ldrb	w0, [x18], #1
	cmp	w0, #6
	b.eq	.Lnoise_BB26_65
	subs	x17, x17, #1
	b.ne	.Lnoise_BB26_62
	b	.Lnoise_BB26_60
.Lnoise_BB26_64:
	ldr	w17, [sp, #64]
	cbnz	w17, .Lnoise_BB26_124
	b	.Lnoise_BB26_48
.Lnoise_BB26_65:
	mov	w15, #1
	b	.Lnoise_BB26_67
.Lnoise_BB26_66:
	mov	w15, wzr
.Lnoise_BB26_67:
	mov	w16, wzr
	mov	w17, wzr
	mov	w0, wzr
	mov	w1, wzr
	mov	w2, wzr
	mov	w18, wzr
	cbnz	x13, .Lnoise_BB26_73
.Lnoise_BB26_68:
	mov	w13, wzr
	cbnz	x10, .Lnoise_BB26_86
.Lnoise_BB26_69:
	cbz	x9, .Lnoise_BB26_102
	mov	x10, xzr
	mov	x11, x12
	b	.Lnoise_BB26_98
.Lnoise_BB26_71:
	mov	w16, #1
.Lnoise_BB26_72:
	subs	x13, x13, #1
	b.eq	.Lnoise_BB26_68
.Lnoise_BB26_73:
	ldrb	w3, [x14], #1
	cmp	w3, #2
	b.le	.Lnoise_BB26_77
	cmp	w3, #4
	b.gt	.Lnoise_BB26_80
	cmp	w3, #3
	b.ne	.Lnoise_BB26_82
	mov	w0, #1
	b	.Lnoise_BB26_72
.Lnoise_BB26_77:
	cbz	w3, .Lnoise_BB26_71
	cmp	w3, #1
	b.eq	.Lnoise_BB26_72
	mov	w17, #1
	b	.Lnoise_BB26_72
.Lnoise_BB26_80:
	cmp	w3, #6
	b.ne	.Lnoise_BB26_83
	mov	w18, #1
	b	.Lnoise_BB26_72
.Lnoise_BB26_82:
	mov	w1, #1
	b	.Lnoise_BB26_72
.Lnoise_BB26_83:
	mov	w2, #1
	b	.Lnoise_BB26_72
.Lnoise_BB26_84:
	mov	w13, #1
.Lnoise_BB26_85:
	subs	x10, x10, #1
	b.eq	.Lnoise_BB26_69
.Lnoise_BB26_86:
	ldrb	w14, [x11], #1
	cmp	w14, #2
	b.le	.Lnoise_BB26_90
	cmp	w14, #4
	b.gt	.Lnoise_BB26_93
	cmp	w14, #3
	b.ne	.Lnoise_BB26_95
	mov	w0, #1
	b	.Lnoise_BB26_85
.Lnoise_BB26_90:
	cbz	w14, .Lnoise_BB26_84
	cmp	w14, #1
	b.eq	.Lnoise_BB26_85
	mov	w17, #1
	b	.Lnoise_BB26_85
.Lnoise_BB26_93:
	cmp	w14, #5
	b.ne	.Lnoise_BB26_96
	mov	w2, #1
	b	.Lnoise_BB26_85
.Lnoise_BB26_95:
	mov	w1, #1
	b	.Lnoise_BB26_85
.Lnoise_BB26_96:
	mov	w18, #1
	b	.Lnoise_BB26_85
.Lnoise_BB26_97:
	add	x10, x10, #1
	add	x11, x11, #24
	cmp	x10, x9
	b.eq	.Lnoise_BB26_118
.Lnoise_BB26_98:
	mov	w14, #24
	mov	x3, x11
	madd	x14, x10, x14, x12
	ldr	x14, [x14, #16]
	cbz	x14, .Lnoise_BB26_97
.Lnoise_BB26_99:
	ldrb	w4, [x3], #1
	cmp	w4, #6
	b.eq	.Lnoise_BB26_101
	subs	x14, x14, #1
	b.ne	.Lnoise_BB26_99
	b	.Lnoise_BB26_97
.Lnoise_BB26_101:
	mov	w9, #1
.Lnoise_BB26_102:
	orr	w10, w17, w0
	orr	w11, w1, w2
	orr	w10, w10, w11
	tbz	w10, #0, .Lnoise_BB26_119
.Lnoise_BB26_103:
	mov	w9, #1
	ldr	w17, [sp, #40]
	cbz	w27, .Lnoise_BB26_120
.Lnoise_BB26_104:
	and	w9, w9, #0x1
	mov	x10, xzr
	mov	x11, x27
	tbnz	w15, #0, .Lnoise_BB26_106
	b	.Lnoise_BB26_110
.Lnoise_BB26_105:
	add	x10, x10, w9, uxtb
	sub	x11, x11, #1
	add	x12, x12, #24
	cbz	x11, .Lnoise_BB26_121
.Lnoise_BB26_106:
	ldr	x13, [x12, #16]
	cbz	x13, .Lnoise_BB26_105
	mov	x14, xzr
.Lnoise_BB26_108:
	ldrb	w15, [x12, x14]
	add	x10, x10, w9, uxtb
	add	x14, x14, #1
	cmp	w15, #1
	csinc	w9, w9, wzr, eq
	csel	x10, x10, xzr, eq
	cmp	x13, x14
	b.ne	.Lnoise_BB26_108
	b	.Lnoise_BB26_105
.Lnoise_BB26_109:
	add	x10, x10, w9, uxtb
	sub	x11, x11, #1
	add	x12, x12, #24
	cbz	x11, .Lnoise_BB26_121
.Lnoise_BB26_110:
	ldr	x13, [x12, #16]
	cbz	x13, .Lnoise_BB26_109
	mov	x14, xzr
	b	.Lnoise_BB26_114
.Lnoise_BB26_112:
	mov	x10, xzr
	mov	w9, #1
.Lnoise_BB26_113:
	add	x14, x14, #1
	cmp	x13, x14
	b.eq	.Lnoise_BB26_109
.Lnoise_BB26_114:
	ldrb	w15, [x12, x14]
	sub	w16, w15, #2
	cmp	w16, #5
	b.lo	.Lnoise_BB26_112
	cbz	w15, .Lnoise_BB26_113
	add	x10, x10, w9, uxtb
	b	.Lnoise_BB26_113
.Lnoise_BB26_117:
	ldr	w12, [sp, #60]
	cbnz	w12, .Lnoise_BB26_124
	b	.Lnoise_BB26_58
.Lnoise_BB26_118:
	mov	w9, wzr
	orr	w10, w17, w0
	orr	w11, w1, w2
	orr	w10, w10, w11
	tbnz	w10, #0, .Lnoise_BB26_103
.Lnoise_BB26_119:
	orn	w10, w18, w9
	orr	w9, w18, w9
	orr	w11, w16, w13
	tst	w10, #0x1
	csel	w9, w9, w11, ne
	ldr	w17, [sp, #40]
	cbnz	w27, .Lnoise_BB26_104
.Lnoise_BB26_120:
	mov	x10, xzr
.Lnoise_BB26_121:
	cmp	w17, #0
	and	w9, w9, #0x1
	cset	w11, eq
	cmp	w11, w9
	b.eq	.Lnoise_BB26_124
	cmp	x21, x10
	b.ne	.Lnoise_BB26_124
	ldr	x9, [sp, #32]
	cmp	x8, x9
	b.hs	.Lnoise_BB26_126
.Lnoise_BB26_124:
	movi	v0.2d, #0000000000000000
	add	x9, sp, #800
	mov	x22, xzr
	add	x9, x9, #286
	mov	x27, xzr
	mov	x25, xzr
	mov	x28, xzr
	mov	x8, xzr
	mov	w20, wzr
	mov	w26, wzr
	mov	w24, wzr
	stp	xzr, xzr, [sp, #120]
	str	wzr, [sp, #108]
	add	x21, sp, #616
	str	wzr, [sp, #60]
	str	xzr, [sp, #64]
	str	xzr, [sp, #112]
	str	q0, [x9]
	stp	q0, q0, [x23]
	stp	q0, q0, [x23, #32]
	stp	q0, q0, [x23, #64]
	stp	q0, q0, [x23, #96]
	stp	q0, q0, [x23, #128]
	stp	q0, q0, [x23, #160]
	stp	q0, q0, [x23, #192]
	stp	q0, q0, [x23, #224]
	stp	q0, q0, [x23, #304]
	stp	q0, q0, [x23, #336]
	stp	q0, q0, [x23, #400]
	stp	q0, q0, [x23, #432]
	stp	q0, q0, [x23, #464]
	stp	q0, q0, [x23, #496]
	stp	q0, q0, [x23, #528]
	stp	q0, q0, [x23, #560]
	stp	q0, q0, [x23, #592]
	stp	q0, q0, [x23, #624]
	str	q0, [x23, #384]
	strh	wzr, [sp, #1180]
	str	wzr, [sp, #1176]
	stp	q0, q0, [x23, #256]
	stur	xzr, [x19, #166]
	stur	q0, [x19, #152]
	stur	q0, [x19, #136]
	stur	q0, [x19, #120]
	str	wzr, [sp, #728]
	strb	wzr, [sp, #732]
	stur	q0, [x19, #40]
	stur	q0, [x19, #56]
	stur	q0, [x19, #72]
	stur	q0, [x19, #88]
	stur	q0, [x19, #8]
	stur	q0, [x19, #24]
	str	wzr, [sp, #616]
	stur	wzr, [x19, #3]
.Lnoise_BB26_125:
	ldr	x19, [sp, #72]
	add	x1, sp, #1184
	mov	w2, #272
	add	x0, x19, #8
	str	x8, [x19]
	bl	memcpy
	ldr	w8, [sp, #1176]
	ldp	q0, q1, [x23, #336]
	add	x9, x19, #314
	ldrh	w10, [sp, #1180]
	add	x0, x19, #386
	str	w8, [x9]
	add	x8, x19, #321
	add	x1, sp, #800
	stp	q0, q1, [x8]
	ldp	q1, q0, [x23, #304]
	ldr	w8, [sp, #128]
	mov	w2, #302
	stp	x22, x27, [x19, #280]
	stp	x25, x28, [x19, #296]
	strb	w8, [x19, #353]
	add	x8, x19, #354
	strb	w20, [x19, #312]
	strb	w26, [x19, #313]
	strh	w10, [x19, #318]
	strb	w24, [x19, #320]
	stp	q1, q0, [x8]
	bl	memcpy
	ldr	x8, [sp, #120]
	ldur	q0, [x21, #120]
	ldur	q1, [x21, #136]
	ldur	q2, [x21, #152]
	ldur	x9, [x21, #166]
	ldrb	w10, [sp, #732]
	strb	w8, [x19, #696]
	ldr	w8, [sp, #108]
	strb	w10, [x19, #759]
	add	x10, x19, #857
	strb	w8, [x19, #697]
	add	x8, x19, #698
	stp	q0, q1, [x8]
	ldur	q0, [x21, #88]
	ldur	q1, [x21, #72]
	str	q2, [x8, #32]
	ldr	w8, [sp, #60]
	ldur	q2, [x21, #56]
	str	x9, [x19, #744]
	ldr	x9, [sp, #64]
	strh	w8, [x19, #752]
	ldr	w8, [sp, #728]
	strb	w9, [x19, #754]
	add	x9, x19, #755
	str	w8, [x9]
	add	x8, x19, #760
	ldur	w9, [x21, #3]
	stp	q1, q0, [x8, #32]
	ldur	q0, [x21, #40]
	ldur	q1, [x21, #8]
	str	w9, [x19, #860]
	stp	q0, q2, [x8]
	ldr	w8, [sp, #132]
	ldur	q0, [x21, #24]
	str	xzr, [x19, #688]
	strb	w8, [x19, #824]
	add	x8, x19, #825
	stp	q1, q0, [x8]
	ldr	w8, [sp, #616]
	str	w8, [x10]
	ldr	x8, [sp, #112]
	str	x8, [x19, #864]
	add	sp, sp, #3840
	ldp	x20, x19, [sp, #80]
	ldp	x22, x21, [sp, #64]
	ldp	x24, x23, [sp, #48]
	ldp	x26, x25, [sp, #32]
	ldp	x28, x27, [sp, #16]
	ldp	x29, x30, [sp], #96
	ret
.Lnoise_BB26_126:
	movi	v0.2d, #0000000000000000
	cmp	w9, #9
	str	x28, [sp, #40]
	stp	q0, q0, [x24, #368]
	stp	q0, q0, [x24, #400]
	stp	q0, q0, [x24, #432]
	stp	q0, q0, [x24, #464]
	stp	q0, q0, [x24, #496]
	stp	q0, q0, [x24, #528]
	stp	q0, q0, [x24, #560]
	stp	q0, q0, [x24, #592]
	stp	q0, q0, [x24, #624]
	b.hi	.Lnoise_BB26_152
	ldp	x8, x2, [sp, #16]
	add	x0, sp, #1904
	mov	x20, x9
	add	x1, x8, #846
	bl	memcpy
	movi	v0.2d, #0000000000000000
	add	x8, sp, #3392
	add	x28, sp, #3328
	add	x8, x8, #286
	add	x0, sp, #2832
	add	x1, sp, #336
	mov	w2, #272
	str	x20, [sp, #2192]
	add	x20, sp, #2832
	stur	xzr, [x28, #46]
	str	q0, [x8]
	stp	q0, q0, [x28, #16]
	stp	q0, q0, [x28, #64]
	stp	q0, q0, [x28, #96]
	stp	q0, q0, [x28, #128]
	stp	q0, q0, [x28, #160]
	stp	q0, q0, [x28, #192]
	stp	q0, q0, [x28, #224]
	stp	q0, q0, [x28, #256]
	stp	q0, q0, [x28, #288]
	stp	q0, q0, [x28, #320]
	str	q0, [x28]
	str	q0, [x24, #1248]
	str	q0, [x24, #1264]
	str	q0, [x24, #1280]
	str	wzr, [sp, #2776]
	strb	wzr, [sp, #2780]
	str	q0, [x24, #1168]
	str	q0, [x24, #1184]
	str	q0, [x24, #1200]
	str	q0, [x24, #1216]
	bl	memcpy
	ldr	w8, [sp, #328]
	add	x9, x20, #273
	add	x11, sp, #256
	ldp	q0, q1, [x11, #32]
	ldr	q2, [x11, #16]
	str	w8, [x9]
	ldr	x8, [sp, #40]
	ldr	w9, [sp, #240]
	ldur	w10, [x11, #75]
	ldr	x15, [sp, #96]
	strb	w22, [sp, #3104]
	str	x8, [sp, #3112]
	ldr	x8, [sp, #80]
	str	w9, [sp, #3276]
	str	x8, [sp, #3120]
	ldr	w8, [sp, #92]
	str	w10, [sp, #3108]
	ldur	w10, [sp, #139]
	strb	w8, [sp, #3144]
	add	x8, x20, #313
	stp	q0, q1, [x8]
	ldr	w8, [sp, #128]
	ldr	q0, [sp, #256]
	str	x26, [sp, #3128]
	strb	w8, [sp, #3177]
	add	x8, x20, #346
	stp	q0, q2, [x8]
	ldp	q0, q1, [sp, #208]
	ldr	w8, [sp, #108]
	str	x15, [sp, #3136]
	strb	w27, [sp, #3210]
	strb	w8, [sp, #3211]
	add	x8, x20, #380
	stp	q0, q1, [x8, #32]
	ldp	q0, q2, [sp, #176]
	str	x21, [sp, #3320]
	stp	q0, q2, [x8]
	ldp	q0, q1, [sp, #144]
	ldp	w8, w9, [sp, #132]
	strb	w8, [sp, #3280]
	add	x8, x20, #449
	stp	q0, q1, [x8]
	add	x8, x20, #481
	str	w9, [x8]
	ldr	x8, [sp, #3096]
	add	x9, x20, #72
	str	w10, [sp, #3316]
	cbz	x8, .Lnoise_BB26_134
	mov	x10, xzr
	mov	x11, x9
	b	.Lnoise_BB26_130
.Lnoise_BB26_129:
	add	x10, x10, #1
	add	x11, x11, #24
	cmp	x10, x8
	b.eq	.Lnoise_BB26_134
.Lnoise_BB26_130:
	mov	w12, #24
	mov	x13, x11
	madd	x12, x10, x12, x9
	ldr	x12, [x12, #16]
	cbz	x12, .Lnoise_BB26_129
.Lnoise_BB26_131:
	ldrb	w14, [x13], #1
	cmp	w14, #6
	b.eq	.Lnoise_BB26_133
	subs	x12, x12, #1
	b.ne	.Lnoise_BB26_131
	b	.Lnoise_BB26_129
.Lnoise_BB26_133:
	mov	w0, #1
	b	.Lnoise_BB26_135
.Lnoise_BB26_134:
	mov	w0, wzr
.Lnoise_BB26_135:
	mov	w10, #24
	movi	v0.2d, #0000000000000000
	cmp	x8, x27
	umaddl	x11, w27, w10, x9
	stur	wzr, [x29, #-136]
	sturb	wzr, [x29, #-132]
	str	w0, [sp, #32]
	csel	x9, x11, xzr, hi
	stp	q0, q0, [x28, #384]
	str	q0, [x28, #416]
	b.ls	.Lnoise_BB26_144
	ldr	x10, [x11, #16]
	stp	q0, q0, [x28, #448]
	str	q0, [x28, #432]
	cbz	x10, .Lnoise_BB26_145
	ldr	w18, [sp, #12]
	mov	x12, xzr
	mov	w8, wzr
	b	.Lnoise_BB26_140
.Lnoise_BB26_138:
	mov	w13, wzr
	orr	w14, w14, w8, lsl #16
	sub	x15, x29, #80
	add	x16, x12, #1
	mov	w18, #1
	str	w14, [x15, x12, lsl #2]
	stur	x16, [x29, #-40]
.Lnoise_BB26_139:
	add	x12, x12, #1
	add	w8, w8, w13
	cmp	x10, x12
	b.eq	.Lnoise_BB26_146
.Lnoise_BB26_140:
	ldrb	w14, [x11, x12]
	sub	w13, w14, #2
	cmp	w13, #5
	b.lo	.Lnoise_BB26_138
	cmp	w14, #1
	b.ne	.Lnoise_BB26_143
	tst	w18, #0x1
	mov	w13, #8192
	mov	w14, #12288
	csel	w13, w14, w13, ne
	mov	w14, #32
	mov	w15, #48
	orr	w13, w13, w8, lsl #16
	sub	x16, x29, #80
	add	x17, x12, #1
	orr	w13, w13, #0x1
	str	w13, [x16, x12, lsl #2]
	csel	w13, w15, w14, ne
	stur	x17, [x29, #-40]
	b	.Lnoise_BB26_139
.Lnoise_BB26_143:
	mov	w13, #8192
	sub	x14, x29, #80
	add	x15, x12, #1
	orr	w13, w13, w8, lsl #16
	orr	w18, w0, w18
	str	w13, [x14, x12, lsl #2]
	mov	w13, #32
	stur	x15, [x29, #-40]
	b	.Lnoise_BB26_139
.Lnoise_BB26_144:
	mov	w20, w22
	mov	x25, x26
	str	wzr, [sp, #60]
	str	xzr, [sp, #64]
	b	.Lnoise_BB26_151
.Lnoise_BB26_145:
	ldr	w18, [sp, #12]
	mov	w8, wzr
.Lnoise_BB26_146:
	mov	x12, xzr
.Lnoise_BB26_147:
	cbz	x10, .Lnoise_BB26_150
	ldrb	w11, [x9], #1
	sub	x10, x10, #1
	cmp	w11, #6
	b.ne	.Lnoise_BB26_147
	add	x12, x12, #1
	b	.Lnoise_BB26_147
.Lnoise_BB26_150:
	ldp	q0, q1, [x28, #432]
	tst	w18, #0x1
	mov	w9, #16
	ldr	q2, [x28, #464]
	mov	w20, w22
	csel	w9, w9, wzr, ne
	mov	x25, x26
	str	x12, [sp, #64]
	add	w8, w8, w9
	stp	q0, q1, [x28, #384]
	str	q2, [x28, #416]
	stur	wzr, [x29, #-136]
	str	w8, [sp, #60]
	sturb	wzr, [x29, #-132]
.Lnoise_BB26_151:
	ldp	q0, q1, [x28, #384]
	add	x1, sp, #1904
	ldur	w8, [x29, #-136]
	ldur	q2, [sp, #212]
	mov	w2, #296
	ldur	q3, [sp, #228]
	str	q0, [x24, #1248]
	ldr	q0, [x28, #416]
	str	w8, [sp, #2776]
	ldurb	w8, [x29, #-132]
	str	q1, [x24, #1264]
	ldur	q1, [sp, #196]
	str	q0, [x24, #1280]
	ldur	q0, [sp, #180]
	strb	w8, [sp, #2780]
	add	x8, sp, #3392
	orr	x0, x8, #0x6
	stp	q0, q1, [x28, #432]
	stp	q2, q3, [x28, #464]
	str	q3, [x24, #1216]
	str	q2, [x24, #1200]
	str	q1, [x24, #1184]
	str	q0, [x24, #1168]
	bl	memcpy
	ldr	q0, [x24, #1248]
	ldr	q1, [x24, #1264]
	add	x0, sp, #1600
	ldr	q2, [x24, #1280]
	add	x1, sp, #3392
	mov	w2, #302
	stur	q0, [x28, #6]
	stur	q1, [x28, #22]
	stur	q2, [x28, #38]
	bl	memcpy
	ldp	q1, q0, [x28, #16]
	add	x0, sp, #1184
	ldur	x8, [x28, #46]
	ldr	w9, [sp, #2776]
	add	x1, sp, #336
	ldr	q2, [x24, #1184]
	mov	w2, #272
	stp	q1, q0, [x24, #16]
	ldr	q0, [x28]
	ldr	q1, [x24, #1200]
	stur	x8, [x24, #46]
	ldrb	w8, [sp, #2780]
	str	q0, [x24]
	ldr	q0, [x24, #1216]
	str	w9, [sp, #1528]
	stp	q1, q0, [x23, #688]
	ldr	q0, [x24, #1168]
	strb	w8, [sp, #1532]
	stp	q0, q2, [x23, #656]
	bl	memcpy
	add	x8, sp, #256
	ldr	q2, [sp, #256]
	add	x0, sp, #800
	ldp	q0, q1, [x8, #32]
	ldr	q3, [x8, #16]
	add	x1, sp, #1600
	mov	w2, #302
	str	wzr, [sp, #1176]
	strh	wzr, [sp, #1180]
	stp	q2, q3, [x23, #304]
	stp	q0, q1, [x23, #336]
	bl	memcpy
	ldp	q0, q1, [x24]
	add	x21, sp, #616
	ldur	x8, [x24, #46]
	ldr	w9, [sp, #1528]
	ldr	x27, [sp, #80]
	ldr	x22, [sp, #40]
	ldr	x28, [sp, #96]
	ldr	w26, [sp, #32]
	stur	q0, [x19, #120]
	ldr	q0, [x24, #32]
	ldr	w24, [sp, #92]
	stur	q1, [x19, #136]
	stur	q0, [x19, #152]
	ldp	q0, q1, [x23, #688]
	stur	x8, [x19, #166]
	ldrb	w8, [sp, #1532]
	str	w9, [sp, #728]
	stur	q1, [x19, #88]
	stur	q0, [x19, #72]
	ldp	q0, q1, [x23, #656]
	strb	w8, [sp, #732]
	mov	w8, #1
	str	wzr, [sp, #616]
	stur	q1, [x19, #56]
	stur	q0, [x19, #40]
	ldp	q1, q0, [sp, #144]
	stur	wzr, [x19, #3]
	stur	q1, [x19, #8]
	stur	q0, [x19, #24]
	b	.Lnoise_BB26_125
.Lnoise_BB26_152:
	brk	#0x1
.Lnoise_func_end26:
	.size	"noise_c::from_c::restored", .Lnoise_func_end26-"noise_c::from_c::restored"
	.cfi_endproc

	.section	".text.noise_names::valid::ValidPattern::seen_after","ax",@progbits
	.p2align	2
	.type	"noise_names::valid::ValidPattern::seen_after",@function
"noise_names::valid::ValidPattern::seen_after":
	.cfi_startproc
	ldr	x15, [x1, #48]
	cbz	x15, .Lnoise_BB27_16
	mov	w8, wzr
	mov	w9, wzr
	mov	w10, wzr
	mov	w11, wzr
	mov	w12, wzr
	mov	w14, wzr
	mov	w13, wzr
	add	x16, x1, #40
	b	.Lnoise_BB27_4
.Lnoise_BB27_2:
	mov	w8, #1
.Lnoise_BB27_3:
	subs	x15, x15, #1
	b.eq	.Lnoise_BB27_17
.Lnoise_BB27_4:
	ldrb	w17, [x16], #1
	cmp	w17, #2
	b.le	.Lnoise_BB27_8
	cmp	w17, #4
	b.gt	.Lnoise_BB27_11
	cmp	w17, #3
	b.ne	.Lnoise_BB27_14
	mov	w11, #1
	b	.Lnoise_BB27_3
.Lnoise_BB27_8:
	cbz	w17, .Lnoise_BB27_2
	cmp	w17, #1
	b.ne	.Lnoise_BB27_13
	mov	w9, #1
	b	.Lnoise_BB27_3
.Lnoise_BB27_11:
	cmp	w17, #6
	b.ne	.Lnoise_BB27_15
	mov	w13, #1
	b	.Lnoise_BB27_3
.Lnoise_BB27_13:
	mov	w10, #1
	b	.Lnoise_BB27_3
.Lnoise_BB27_14:
	mov	w12, #1
	b	.Lnoise_BB27_3
.Lnoise_BB27_15:
	mov	w14, #1
	b	.Lnoise_BB27_3
.Lnoise_BB27_16:
	mov	w8, wzr
	mov	w9, wzr
	mov	w10, wzr
	mov	w11, wzr
	mov	w12, wzr
	mov	w14, wzr
	mov	w13, wzr
.Lnoise_BB27_17:
	ldr	x17, [x1, #64]
	cbz	x17, .Lnoise_BB27_33
	mov	w15, wzr
	mov	w16, wzr
	add	x18, x1, #56
	b	.Lnoise_BB27_21
.Lnoise_BB27_19:
	mov	w15, #1
.Lnoise_BB27_20:
	subs	x17, x17, #1
	b.eq	.Lnoise_BB27_34
.Lnoise_BB27_21:
	ldrb	w3, [x18], #1
	cmp	w3, #2
	b.le	.Lnoise_BB27_25
	cmp	w3, #4
	b.gt	.Lnoise_BB27_28
	cmp	w3, #3
	b.ne	.Lnoise_BB27_31
	mov	w11, #1
	b	.Lnoise_BB27_20
.Lnoise_BB27_25:
	cbz	w3, .Lnoise_BB27_19
	cmp	w3, #1
	b.ne	.Lnoise_BB27_30
	mov	w16, #1
	b	.Lnoise_BB27_20
.Lnoise_BB27_28:
	cmp	w3, #5
	b.ne	.Lnoise_BB27_32
	mov	w14, #1
	b	.Lnoise_BB27_20
.Lnoise_BB27_30:
	mov	w10, #1
	b	.Lnoise_BB27_20
.Lnoise_BB27_31:
	mov	w12, #1
	b	.Lnoise_BB27_20
.Lnoise_BB27_32:
	mov	w13, #1
	b	.Lnoise_BB27_20
.Lnoise_BB27_33:
	mov	w15, wzr
	mov	w16, wzr
.Lnoise_BB27_34:
	mov	w17, wzr
	cbz	x2, .Lnoise_BB27_69
	add	x1, x1, #72
	mov	x18, xzr
	mov	x3, x1
	b	.Lnoise_BB27_37
.Lnoise_BB27_36:
	add	x18, x18, #1
	eor	w17, w17, #0x1
	add	x3, x3, #24
	cmp	x18, x2
	b.eq	.Lnoise_BB27_69
.Lnoise_BB27_37:
	mov	w4, #24
	madd	x4, x18, x4, x1
	ldr	x4, [x4, #16]
	cbz	x4, .Lnoise_BB27_36
	cbz	w17, .Lnoise_BB27_54
	mov	x5, x3
	b	.Lnoise_BB27_42
.Lnoise_BB27_40:
	mov	w15, #1
.Lnoise_BB27_41:
	subs	x4, x4, #1
	b.eq	.Lnoise_BB27_36
.Lnoise_BB27_42:
	ldrb	w6, [x5], #1
	cmp	w6, #2
	b.le	.Lnoise_BB27_46
	cmp	w6, #4
	b.gt	.Lnoise_BB27_49
	cmp	w6, #3
	b.ne	.Lnoise_BB27_52
	mov	w11, #1
	b	.Lnoise_BB27_41
.Lnoise_BB27_46:
	cbz	w6, .Lnoise_BB27_40
	cmp	w6, #1
	b.ne	.Lnoise_BB27_51
	mov	w16, #1
	b	.Lnoise_BB27_41
.Lnoise_BB27_49:
	cmp	w6, #5
	b.ne	.Lnoise_BB27_53
	mov	w14, #1
	b	.Lnoise_BB27_41
.Lnoise_BB27_51:
	mov	w10, #1
	b	.Lnoise_BB27_41
.Lnoise_BB27_52:
	mov	w12, #1
	b	.Lnoise_BB27_41
.Lnoise_BB27_53:
	mov	w13, #1
	b	.Lnoise_BB27_41
.Lnoise_BB27_54:
	mov	x5, xzr
	b	.Lnoise_BB27_57
.Lnoise_BB27_55:
	mov	w8, #1
.Lnoise_BB27_56:
	add	x5, x5, #1
	cmp	x4, x5
	b.eq	.Lnoise_BB27_36
.Lnoise_BB27_57:
	ldrb	w6, [x3, x5]
	cmp	w6, #2
	b.le	.Lnoise_BB27_61
	cmp	w6, #4
	b.gt	.Lnoise_BB27_64
	cmp	w6, #3
	b.ne	.Lnoise_BB27_67
	mov	w11, #1
	b	.Lnoise_BB27_56
.Lnoise_BB27_61:
	cbz	w6, .Lnoise_BB27_55
	cmp	w6, #1
	b.ne	.Lnoise_BB27_66
	mov	w9, #1
	b	.Lnoise_BB27_56
.Lnoise_BB27_64:
	cmp	w6, #6
	b.ne	.Lnoise_BB27_68
	mov	w13, #1
	b	.Lnoise_BB27_56
.Lnoise_BB27_66:
	mov	w10, #1
	b	.Lnoise_BB27_56
.Lnoise_BB27_67:
	mov	w12, #1
	b	.Lnoise_BB27_56
.Lnoise_BB27_68:
	mov	w14, #1
	b	.Lnoise_BB27_56
.Lnoise_BB27_69:
	strb	w8, [x0]
	strb	w9, [x0, #1]
	strb	w15, [x0, #2]
	strb	w16, [x0, #3]
	strb	w10, [x0, #4]
	strb	w11, [x0, #5]
	strb	w12, [x0, #6]
	strb	w14, [x0, #7]
	strb	w13, [x0, #8]
	strb	w17, [x0, #9]
	ret
.Lnoise_func_end27:
	.size	"noise_names::valid::ValidPattern::seen_after", .Lnoise_func_end27-"noise_names::valid::ValidPattern::seen_after"
	.cfi_endproc

	.section	.rodata.cst16,"aM",@progbits,16
	.p2align	4, 0x0
.Lnoise_CPI28_0:
	.xword	-16
	.xword	-24
.Lnoise_CPI28_1:
	.xword	0
	.xword	-8
.Lnoise_CPI28_2:
	.xword	-48
	.xword	-56
.Lnoise_CPI28_3:
	.xword	-32
	.xword	-40
	.section	".text.noise_c::messages::read_next","ax",@progbits
	.p2align	2
	.type	"noise_c::messages::read_next",@function
"noise_c::messages::read_next":
	.cfi_startproc
	stp	x29, x30, [sp, #-96]!
	stp	x28, x27, [sp, #16]
	mov	x29, sp
	stp	x26, x25, [sp, #32]
	stp	x24, x23, [sp, #48]
	stp	x22, x21, [sp, #64]
	stp	x20, x19, [sp, #80]
	sub	sp, sp, #3072
	str	xzr, [sp], #-160
	.cfi_def_cfa w29, 96
	.cfi_offset w19, -8
	.cfi_offset w20, -16
	.cfi_offset w21, -24
	.cfi_offset w22, -32
	.cfi_offset w23, -40
	.cfi_offset w24, -48
	.cfi_offset w25, -56
	.cfi_offset w26, -64
	.cfi_offset w27, -72
	.cfi_offset w28, -80
	.cfi_offset w30, -88
	.cfi_offset w29, -96
	mov	x23, x2
	mov	x22, x1
	mov	x21, x0
	add	x0, sp, #920
	mov	w1, wzr
	mov	w2, #864
	mov	x19, x3
	bl	memset
	add	x0, sp, #2064
	mov	w1, wzr
	mov	w2, #872
	bl	memset
	ldr	w8, [x21]
	mov	w9, #257
	movk	w9, #20079, lsl #16
	cmp	w8, w9
	b.ne	.Lnoise_BB28_8
	ldrh	w2, [x21, #420]
	cmp	x2, #416
	b.hi	.Lnoise_BB28_8
	ldrb	w8, [x21, #846]
	cmp	w8, #8
	b.hi	.Lnoise_BB28_8
	ldrb	w8, [x21, #557]
	cmp	w8, #9
	b.hi	.Lnoise_BB28_8
	add	x0, sp, #1784
	add	x1, x21, #4
	add	x20, sp, #1784
	bl	"noise_c::patterns::pattern_of"
	ldrb	w8, [sp, #1784]
	cbnz	w8, .Lnoise_BB28_8
	add	x0, sp, #2064
	add	x2, x20, #8
	mov	x1, x21
	add	x20, sp, #2064
	bl	"noise_c::from_c::restored"
	ldrb	w24, [sp, #2064]
	add	x0, sp, #56
	add	x1, x20, #8
	mov	w2, #864
	bl	memcpy
	cmp	w24, #1
	b.ne	.Lnoise_BB28_8
	add	x0, sp, #920
	add	x1, sp, #56
	mov	w2, #864
	bl	memcpy
	cmp	x23, #16, lsl #12
	b.lo	.Lnoise_BB28_10
	mov	w0, #24
	b	.Lnoise_BB28_9
.Lnoise_BB28_8:
	mov	w0, #23
.Lnoise_BB28_9:
	add	sp, sp, #3232
	ldp	x20, x19, [sp, #80]
	ldp	x22, x21, [sp, #64]
	ldp	x24, x23, [sp, #48]
	ldp	x26, x25, [sp, #32]
	ldp	x28, x27, [sp, #16]
	ldp	x29, x30, [sp], #96
	ret
.Lnoise_BB28_10:
	ldrb	w8, [sp, #1609]
	tbz	w8, #0, .Lnoise_BB28_12
	mov	w0, #13
	b	.Lnoise_BB28_9
.Lnoise_BB28_12:
	ldrb	w8, [sp, #1608]
	ldr	x9, [sp, #1184]
	cmp	x9, x8
	b.ne	.Lnoise_BB28_14
	mov	w0, #12
	b	.Lnoise_BB28_9
.Lnoise_BB28_14:
	ldrb	w9, [sp, #1224]
	cmp	w9, #0
	cset	w9, eq
	eor	w8, w9, w8
	tbz	w8, #0, .Lnoise_BB28_16
	mov	w0, #10
	b	.Lnoise_BB28_9
.Lnoise_BB28_16:
	ldr	x8, [sp, #1592]
	ldr	x27, [sp, #1600]
	add	x9, sp, #920
	ldr	x1, [sp, #1656]
	add	x0, x9, #696
	add	x28, sp, #2944
	sub	x25, x8, x27
	add	x26, sp, #2064
	add	x24, sp, #1784
	mov	x2, x25
	add	x20, x9, #696
	str	x1, [sp, #48]
	bl	"noise_handshake::layout::psk_after"
	tst	w0, #0xff
	b.eq	.Lnoise_BB28_24
	add	x8, sp, #553
	ldrb	w9, [sp, #1736]
	add	x2, sp, #1784
	ldur	q0, [x8, #255]
	add	x8, sp, #569
	mov	x5, x25
	ldur	q1, [x8, #255]
	add	x8, sp, #585
	strb	w9, [sp, #2128]
	ldur	q2, [x8, #255]
	add	x8, sp, #601
	ldr	x9, [sp, #1776]
	ldur	q3, [x8, #255]
	add	x8, sp, #56
	stp	q0, q1, [x26]
	add	x10, x8, #817
	stp	q0, q1, [x26, #880]
	mov	x6, x20
	ldp	q1, q0, [x10]
	str	x9, [sp, #2168]
	ldrb	w9, [sp, #1232]
	add	x10, x8, #313
	add	x8, x8, #346
	stur	xzr, [x29, #-96]
	stur	q0, [x26, #81]
	stur	q1, [x26, #65]
	ldp	q1, q0, [x10]
	strb	w9, [sp, #1784]
	ldrb	w9, [sp, #1265]
	and	x10, x1, #0xff
	add	x1, sp, #2064
	sturh	wzr, [x29, #-88]
	stur	q0, [x24, #17]
	stur	q1, [x24, #1]
	ldp	q0, q1, [x8]
	and	w8, w0, #0xff
	strb	w9, [sp, #1817]
	add	x9, sp, #920
	cmp	w8, #1
	add	x8, x9, x27, lsl #5
	sub	x0, x29, #208
	csel	x7, x10, xzr, eq
	add	x3, x9, #272
	stur	xzr, [x29, #-136]
	add	x4, x8, #384
	sturb	wzr, [x29, #-128]
	stur	wzr, [x28, #227]
	stur	wzr, [x29, #-64]
	stp	xzr, xzr, [x29, #-208]
	stp	q2, q3, [x26, #32]
	stp	q2, q3, [x26, #912]
	str	wzr, [sp, #2164]
	stur	wzr, [x26, #97]
	stur	xzr, [x29, #-192]
	stur	q1, [x24, #50]
	stur	q0, [x24, #34]
	stp	x22, x23, [sp]
	bl	"noise_handshake::reader::read_tokens::<#3dfcfe118667ed30>"
	ldurb	w8, [x29, #-208]
	add	x2, sp, #2944
	add	x12, sp, #1784
	cmp	w8, #0
	cset	w0, ne
	cbz	w8, .Lnoise_BB28_31
	ldurb	w16, [x29, #-192]
	ldur	x13, [x29, #-200]
	ldrb	w8, [sp, #1224]
	stur	wzr, [x2, #235]
	cmp	w16, #2
	stur	wzr, [x29, #-56]
	b.ne	.Lnoise_BB28_85
	movi	v0.2d, #0000000000000000
	ldr	x9, [sp, #48]
	cmp	x13, x9
	b.hs	.Lnoise_BB28_37
	lsl	x9, x13, #2
	add	x18, sp, #2944
	ldrb	w15, [x20, x9]
	cbz	w8, .Lnoise_BB28_47
	and	w8, w15, #0xfe
	cmp	w8, #4
	b.ne	.Lnoise_BB28_54
	ldrb	w11, [sp, #1817]
	add	x12, sp, #1784
	ldrb	w8, [sp, #1818]
	ldrb	w9, [sp, #1819]
	ldrb	w10, [sp, #1820]
	add	x1, sp, #1784
	ldur	w14, [x12, #55]
	ldur	q1, [x12, #37]
	cmp	w11, #1
	ldur	w17, [x12, #58]
	ldrb	w12, [sp, #1837]
	ldrb	w11, [sp, #1838]
	stur	w14, [x29, #-112]
	stur	w17, [x18, #179]
	b.ne	.Lnoise_BB28_78
	ldur	w14, [x1, #62]
	b	.Lnoise_BB28_56
.Lnoise_BB28_24:
	add	x12, sp, #920
	movi	v2.2d, #0000000000000000
	movi	v3.2d, #0000000000000000
	add	x8, x12, #696
	ldrb	w9, [sp, #1736]
	ldr	x20, [sp, #48]
	str	x8, [sp, #24]
	add	x8, sp, #553
	sub	x0, x29, #136
	ldur	q0, [x8, #255]
	add	x8, sp, #569
	strb	w9, [sp, #2128]
	ldur	q1, [x8, #255]
	add	x8, sp, #585
	str	q2, [sp, #32]
	ldur	q2, [x8, #255]
	add	x8, sp, #601
	stp	q3, q3, [x26, #880]
	stp	q0, q1, [x28, #80]
	ldr	x9, [sp, #1776]
	add	x1, sp, #2064
	stp	q0, q1, [x26]
	add	x2, sp, #1784
	add	x3, x12, #272
	stp	q3, q3, [x26, #912]
	ldur	q3, [x8, #255]
	add	x8, sp, #56
	add	x10, x8, #817
	add	x11, x8, #313
	add	x8, x8, #346
	ldp	q1, q0, [x10]
	ldrb	w10, [sp, #1232]
	str	x9, [sp, #2168]
	ldrb	w9, [sp, #1265]
	add	x6, x12, #696
	mov	x5, x25
	mov	x7, x20
	strh	wzr, [sp, #3008]
	stur	q0, [x26, #81]
	stur	q1, [x26, #65]
	ldp	q1, q0, [x11]
	stp	q2, q3, [x28, #112]
	stp	q2, q3, [x26, #32]
	stur	q0, [x24, #17]
	stur	q1, [x24, #1]
	ldp	q1, q0, [x8]
	add	x8, x12, x27, lsl #5
	str	wzr, [sp, #2164]
	add	x27, sp, #2064
	stur	wzr, [x26, #97]
	add	x4, x8, #384
	strb	w10, [sp, #1784]
	strb	w9, [sp, #1817]
	stur	q0, [x24, #50]
	stur	q1, [x24, #34]
	stp	xzr, xzr, [x29, #-136]
	stur	xzr, [x29, #-120]
	stp	x22, x23, [sp]
	bl	"noise_handshake::reader::read_tokens::<#3dfcfe118667ed30>"
	ldurb	w8, [x29, #-136]
	ldur	x25, [x29, #-128]
	cbz	w8, .Lnoise_BB28_32
	ldurb	w16, [x29, #-120]
	mov	w13, wzr
	mov	x14, xzr
	cmp	w16, #2
	b.ne	.Lnoise_BB28_36
	cmp	x25, x20
	b.hs	.Lnoise_BB28_36
	lsl	x8, x25, #2
	ldr	x10, [sp, #24]
	ldrb	w9, [sp, #1224]
	ldrb	w0, [x10, x8]
	cbz	w9, .Lnoise_BB28_42
	and	w8, w0, #0xfe
	cmp	w8, #4
	b.ne	.Lnoise_BB28_50
	ldrb	w8, [sp, #1817]
	cmp	w8, #1
	b.ne	.Lnoise_BB28_69
	add	x14, sp, #1784
	ldrb	w8, [sp, #1818]
	ldrb	w9, [sp, #1819]
	ldur	q0, [x14, #37]
	ldrb	w10, [sp, #1820]
	ldrb	w12, [sp, #1837]
	ldrb	w11, [sp, #1838]
	ldrb	w17, [sp, #1839]
	ldrb	w15, [sp, #1840]
	ldrb	w13, [sp, #1841]
	ldur	x14, [x14, #58]
	b	.Lnoise_BB28_52
.Lnoise_BB28_31:
	ldur	w8, [x12, #58]
	ldur	w9, [x12, #61]
	ldrb	w14, [sp, #1849]
	ldrb	w18, [sp, #1817]
	ldrb	w10, [sp, #1820]
	ldur	q0, [x12, #37]
	mov	w11, w9
	stur	w8, [x29, #-64]
	ldrb	w8, [sp, #1818]
	stur	w9, [x2, #227]
	ldrb	w9, [sp, #1819]
	ldrb	w12, [sp, #1837]
	ldur	w13, [x29, #-64]
	stur	w11, [x2, #155]
	ldrb	w11, [sp, #1838]
	sturh	w14, [x2, #159]
	ldrb	w17, [sp, #1839]
	ldrb	w15, [sp, #1840]
	stur	w13, [x29, #-136]
	ldrb	w13, [sp, #1841]
	ldur	x14, [x29, #-136]
	b	.Lnoise_BB28_83
.Lnoise_BB28_32:
	ldrb	w8, [sp, #2128]
	sub	x23, x23, x25
	add	x28, sp, #920
	stp	xzr, xzr, [x29, #-112]
	cmp	w8, #1
	lsr	x8, x23, #16
	b.ne	.Lnoise_BB28_38
	cbnz	x8, .Lnoise_BB28_91
	ldr	x8, [sp, #2168]
	cmn	x8, #1
	b.eq	.Lnoise_BB28_91
	cmp	x23, #15
	b.hi	.Lnoise_BB28_39
	b	.Lnoise_BB28_41
.Lnoise_BB28_36:
	mov	w15, w13
	mov	w17, w13
	mov	w11, w13
	mov	w12, w13
	mov	w10, w13
	mov	w9, w13
	mov	w8, w13
	mov	w18, w13
	mov	w0, w13
	b	.Lnoise_BB28_72
.Lnoise_BB28_37:
	mov	w8, wzr
	mov	w9, wzr
	mov	w10, wzr
	mov	w12, wzr
	mov	w11, wzr
	mov	w14, wzr
	mov	w15, wzr
	mov	w18, wzr
	b	.Lnoise_BB28_81
.Lnoise_BB28_38:
	cbnz	x8, .Lnoise_BB28_91
.Lnoise_BB28_39:
	add	x24, sp, #2064
	sub	x0, x29, #96
	add	x2, x22, x25
	add	x1, x24, #32
	mov	x3, x23
	bl	"noise_state::symmetric::hash_of_both"
	sub	x0, x29, #112
	add	x1, x27, #64
	add	x2, x24, #32
	add	x4, x22, x25
	mov	w3, #32
	mov	x5, x23
	bl	"noise_state::cipher::CipherState::decrypt"
	ldurb	w8, [x29, #-112]
	cbz	w8, .Lnoise_BB28_45
	ldurb	w8, [x29, #-111]
	sub	w8, w8, #1
	cmp	w8, #2
	b.hs	.Lnoise_BB28_91
.Lnoise_BB28_41:
	cmp	x23, #15
	ldr	x25, [sp, #48]
	mov	x14, xzr
	mov	w13, wzr
	mov	w15, wzr
	mov	w17, wzr
	mov	w11, wzr
	mov	w12, wzr
	mov	w10, wzr
	mov	w9, wzr
	mov	w8, wzr
	mov	w18, wzr
	mov	w0, wzr
	cset	w16, hi
	b	.Lnoise_BB28_72
.Lnoise_BB28_42:
	mov	w8, #1
	mov	w9, #87
	lsl	w8, w8, w0
	tst	w8, w9
	b.eq	.Lnoise_BB28_65
	ldrb	w8, [sp, #1784]
	cmp	w8, #1
	b.ne	.Lnoise_BB28_69
	add	x14, sp, #1784
	ldrb	w8, [sp, #1785]
	ldrb	w9, [sp, #1786]
	ldrb	w10, [sp, #1787]
	ldur	q0, [x14, #4]
	ldrb	w12, [sp, #1804]
	ldrb	w11, [sp, #1805]
	ldrb	w17, [sp, #1806]
	ldrb	w15, [sp, #1807]
	ldrb	w13, [sp, #1808]
	ldur	x14, [x14, #25]
	b	.Lnoise_BB28_67
.Lnoise_BB28_45:
	add	x10, sp, #2944
	add	x11, sp, #1784
	ldrb	w9, [sp, #1784]
	ldp	q0, q1, [x10, #192]
	orr	x8, x11, #0x1
	ldur	x20, [x29, #-104]
	add	x0, sp, #920
	add	x1, sp, #2064
	add	x2, sp, #2944
	strb	w9, [sp, #2944]
	stp	q0, q1, [x24, #32]
	ldp	q0, q1, [x8]
	ldrb	w8, [sp, #1817]
	stur	q0, [x10, #1]
	ldur	q0, [x11, #50]
	stur	q1, [x10, #17]
	ldur	q1, [x11, #34]
	strb	w8, [sp, #2977]
	stur	q0, [x10, #50]
	stur	q1, [x10, #34]
	bl	"noise_handshake::handshake::Handshake::go_on::<#9bbb2dae5a99aff0>"
	ldrb	w9, [sp, #1232]
	ldr	w13, [sp, #1592]
	ldr	w14, [sp, #1600]
	ldrb	w10, [sp, #1265]
	stp	x25, x20, [x19]
	cmp	w9, #1
	b.ne	.Lnoise_BB28_57
	add	x8, x28, #313
	ldp	q0, q1, [x8]
	add	x8, sp, #2944
	stp	q0, q1, [x8, #240]
	b	.Lnoise_BB28_58
.Lnoise_BB28_47:
	mov	w8, #1
	mov	w9, #87
	lsl	w8, w8, w15
	tst	w8, w9
	b.eq	.Lnoise_BB28_74
	ldrb	w11, [sp, #1784]
	add	x12, sp, #1784
	ldrb	w8, [sp, #1785]
	ldrb	w9, [sp, #1786]
	ldrb	w10, [sp, #1787]
	add	x1, sp, #1784
	ldur	w14, [x12, #22]
	ldur	q1, [x12, #4]
	cmp	w11, #1
	ldur	w17, [x12, #25]
	ldrb	w12, [sp, #1804]
	ldrb	w11, [sp, #1805]
	stur	w14, [x29, #-112]
	stur	w17, [x18, #179]
	b.ne	.Lnoise_BB28_78
	ldur	w14, [x1, #29]
	b	.Lnoise_BB28_76
.Lnoise_BB28_50:
	ldrb	w8, [sp, #1784]
	cmp	w8, #1
	b.ne	.Lnoise_BB28_69
	add	x14, sp, #1784
	ldrb	w8, [sp, #1785]
	ldrb	w9, [sp, #1786]
	ldrb	w10, [sp, #1787]
	ldur	q0, [x14, #4]
	ldrb	w12, [sp, #1804]
	ldrb	w11, [sp, #1805]
	ldrb	w17, [sp, #1806]
	ldrb	w15, [sp, #1807]
	ldrb	w13, [sp, #1808]
	ldur	x14, [x14, #25]
.Lnoise_BB28_52:
	str	q0, [sp, #32]
	mov	w18, #1
	mov	w1, #87
	mov	w16, #2
	lsl	w0, w18, w0
	tst	w0, w1
	b.ne	.Lnoise_BB28_70
	mov	w0, #1
	b	.Lnoise_BB28_72
.Lnoise_BB28_54:
	ldrb	w11, [sp, #1784]
	add	x12, sp, #1784
	ldrb	w8, [sp, #1785]
	ldrb	w9, [sp, #1786]
	ldrb	w10, [sp, #1787]
	add	x1, sp, #1784
	ldur	w14, [x12, #22]
	ldur	q1, [x12, #4]
	cmp	w11, #1
	ldur	w17, [x12, #25]
	ldrb	w12, [sp, #1804]
	ldrb	w11, [sp, #1805]
	stur	w14, [x29, #-112]
	stur	w17, [x18, #179]
	b.ne	.Lnoise_BB28_78
	ldur	w14, [x1, #29]
.Lnoise_BB28_56:
	mov	w18, #1
	mov	w17, #87
	lsl	w15, w18, w15
	tst	w15, w17
	b.ne	.Lnoise_BB28_79
	b	.Lnoise_BB28_80
.Lnoise_BB28_57:
	movi	v0.2d, #0000000000000000
	add	x8, sp, #2944
	stp	q0, q0, [x8, #240]
.Lnoise_BB28_58:
	add	x16, sp, #2944
	ldrb	w8, [sp, #1736]
	ldrb	w12, [sp, #1608]
	ldp	q0, q1, [x16, #240]
	add	x15, x21, #492
	ldrb	w11, [sp, #1609]
	strb	w9, [x21, #491]
	cmp	w10, #1
	ldr	x9, [sp, #1776]
	sub	w13, w13, w14
	stp	q0, q1, [x15]
	b.ne	.Lnoise_BB28_60
	add	x14, x28, #346
	ldp	q0, q1, [x14]
	stp	q0, q1, [x26]
	b	.Lnoise_BB28_61
.Lnoise_BB28_60:
	movi	v0.2d, #0000000000000000
	stp	q0, q0, [x26]
.Lnoise_BB28_61:
	ldp	q0, q1, [x26]
	add	x14, sp, #2944
	strb	w10, [x21, #524]
	add	x10, x21, #525
	cmp	w8, #1
	strb	w12, [x21, #424]
	add	x12, sp, #920
	stp	q0, q1, [x14, #240]
	stp	q0, q1, [x10]
	ldp	q0, q1, [x12, #752]
	add	x10, x21, #1367
	strb	w11, [x21, #423]
	add	x11, sp, #920
	strb	w13, [x21, #557]
	stp	q0, q1, [x10]
	ldp	q2, q0, [x12, #784]
	add	x10, x21, #1399
	stp	q2, q0, [x10]
	b.ne	.Lnoise_BB28_63
	add	x10, x11, #817
	ldp	q0, q1, [x10]
	stp	q0, q1, [x26]
	b	.Lnoise_BB28_64
.Lnoise_BB28_63:
	movi	v0.2d, #0000000000000000
	stp	q0, q0, [x26]
.Lnoise_BB28_64:
	ldp	q0, q1, [x26]
	add	x10, sp, #2944
	strb	w8, [x21, #1431]
	add	x8, x21, #1432
	mov	w0, wzr
	str	x9, [x21, #1464]
	stp	q0, q1, [x10, #240]
	stp	q0, q1, [x8]
	b	.Lnoise_BB28_9
.Lnoise_BB28_65:
	ldrb	w8, [sp, #1817]
	cmp	w8, #1
	b.ne	.Lnoise_BB28_69
	add	x14, sp, #1784
	ldrb	w8, [sp, #1818]
	ldrb	w9, [sp, #1819]
	ldur	q0, [x14, #37]
	ldrb	w10, [sp, #1820]
	ldrb	w12, [sp, #1837]
	ldrb	w11, [sp, #1838]
	ldrb	w17, [sp, #1839]
	ldrb	w15, [sp, #1840]
	ldrb	w13, [sp, #1841]
	ldur	x14, [x14, #58]
.Lnoise_BB28_67:
	str	q0, [sp, #32]
	and	w16, w0, #0xfe
	cmp	w16, #4
	b.ne	.Lnoise_BB28_70
	mov	w18, #1
	mov	w16, #2
	mov	w0, #1
	b	.Lnoise_BB28_72
.Lnoise_BB28_69:
	mov	x14, xzr
	mov	w13, wzr
	mov	w15, wzr
	mov	w17, wzr
	mov	w11, wzr
	mov	w12, wzr
	mov	w10, wzr
	mov	w9, wzr
	mov	w8, wzr
	mov	w18, wzr
	mov	w0, wzr
	b	.Lnoise_BB28_71
.Lnoise_BB28_70:
	mov	w18, wzr
	mov	w0, #1
.Lnoise_BB28_71:
	mov	w16, #2
.Lnoise_BB28_72:
	tbz	w0, #0, .Lnoise_BB28_86
	adrp	x16, .Lnoise_CPI28_0
	ldr	q2, [sp, #32]
	mov	w0, #1
	ldr	q1, [x16, :lo12:.Lnoise_CPI28_0]
	adrp	x16, .Lnoise_CPI28_2
	ldr	q3, [x16, :lo12:.Lnoise_CPI28_2]
	adrp	x16, .Lnoise_CPI28_3
	dup	v0.2d, v2.d[0]
	dup	v2.2d, v2.d[1]
	ldr	q4, [x16, :lo12:.Lnoise_CPI28_3]
	adrp	x16, .Lnoise_CPI28_1
	ldr	q5, [x16, :lo12:.Lnoise_CPI28_1]
	ushl	v6.2d, v0.2d, v1.2d
	ushl	v7.2d, v0.2d, v3.2d
	ushl	v16.2d, v0.2d, v4.2d
	ushl	v3.2d, v2.2d, v3.2d
	ushl	v4.2d, v2.2d, v4.2d
	ushl	v0.2d, v0.2d, v5.2d
	ushl	v1.2d, v2.2d, v1.2d
	ushl	v2.2d, v2.2d, v5.2d
	uzp1	v3.4s, v4.4s, v3.4s
	uzp1	v0.4s, v0.4s, v6.4s
	uzp1	v1.4s, v2.4s, v1.4s
	uzp1	v2.4s, v16.4s, v7.4s
	uzp1	v1.8h, v1.8h, v3.8h
	uzp1	v0.8h, v0.8h, v2.8h
	uzp1	v0.16b, v0.16b, v1.16b
	b	.Lnoise_BB28_83
.Lnoise_BB28_74:
	ldrb	w11, [sp, #1817]
	add	x12, sp, #1784
	ldrb	w8, [sp, #1818]
	ldrb	w9, [sp, #1819]
	ldrb	w10, [sp, #1820]
	add	x1, sp, #1784
	ldur	w14, [x12, #55]
	ldur	q1, [x12, #37]
	cmp	w11, #1
	ldur	w17, [x12, #58]
	ldrb	w12, [sp, #1837]
	ldrb	w11, [sp, #1838]
	stur	w14, [x29, #-112]
	stur	w17, [x18, #179]
	b.ne	.Lnoise_BB28_78
	ldur	w14, [x1, #62]
.Lnoise_BB28_76:
	and	w15, w15, #0xfe
	cmp	w15, #4
	b.ne	.Lnoise_BB28_79
	mov	w18, #1
	b	.Lnoise_BB28_80
.Lnoise_BB28_78:
	mov	w8, wzr
	mov	w9, wzr
	mov	w10, wzr
	mov	w12, wzr
	mov	w11, wzr
	mov	w14, wzr
	mov	w15, wzr
	mov	w18, wzr
	add	x2, sp, #2944
	stur	wzr, [x2, #235]
	stur	wzr, [x29, #-56]
	b	.Lnoise_BB28_81
.Lnoise_BB28_79:
	mov	w18, wzr
.Lnoise_BB28_80:
	add	x2, sp, #2944
	ldur	w15, [x29, #-112]
	mov	v0.16b, v1.16b
	ldur	w17, [x2, #179]
	stur	w15, [x29, #-56]
	mov	w15, #1
	stur	w17, [x2, #235]
.Lnoise_BB28_81:
	ldur	w17, [x29, #-56]
	ldur	w1, [x2, #235]
	sturh	w14, [x2, #159]
	stur	w17, [x29, #-64]
	stur	w1, [x2, #227]
	mov	w1, w1
	ldur	w17, [x29, #-64]
	stur	w17, [x29, #-136]
	stur	w1, [x2, #155]
	cbz	w15, .Lnoise_BB28_85
	ldur	x15, [x2, #153]
	lsr	w13, w14, #16
	ldurb	w17, [x29, #-136]
	stur	x15, [x29, #-96]
	sturh	w13, [x29, #-88]
	lsr	x13, x15, #8
	ldur	x14, [x2, #194]
.Lnoise_BB28_83:
	umov	w16, v0.b[15]
	umov	w1, v0.b[14]
	umov	w2, v0.b[12]
	ext	v1.16b, v0.16b, v0.16b, #1
	lsl	x16, x16, #48
	orr	x12, x16, x12, lsl #56
	umov	w16, v0.b[13]
	orr	x12, x12, x1, lsl #40
	umov	w1, v0.b[11]
	orr	x12, x12, x16, lsl #32
	lsl	w16, w2, #24
	umov	w2, v0.b[10]
	orr	x12, x12, x16
	fmov	x16, d1
	bfi	x12, x1, #16, #8
	umov	w1, v0.b[9]
	bfi	x12, x2, #8, #8
	orr	x12, x12, x1
	cbz	w0, .Lnoise_BB28_87
	strb	w18, [x19, #17]
	mov	w0, #20
	strb	w8, [x19, #18]
	strb	w9, [x19, #19]
	strb	w10, [x19, #20]
	stur	b0, [x19, #21]
	stur	x16, [x19, #22]
	stur	x12, [x19, #30]
	strb	w11, [x19, #38]
	strb	w17, [x19, #39]
	strb	w15, [x19, #40]
	strb	w13, [x19, #41]
	stur	x14, [x19, #42]
	b	.Lnoise_BB28_9
.Lnoise_BB28_85:
	mov	x25, x13
.Lnoise_BB28_86:
	adrp	x8, ".Lnoise_switch.table.noise_c::messages::read_next"
	add	x8, x8, :lo12:".Lnoise_switch.table.noise_c::messages::read_next"
	ldr	w0, [x8, w16, uxtw #2]
	strb	w25, [x19, #16]
	b	.Lnoise_BB28_9
.Lnoise_BB28_87:
	cmp	w18, #1
	b.ne	.Lnoise_BB28_89
	umov	w0, v0.b[0]
	b	.Lnoise_BB28_90
.Lnoise_BB28_89:
	mov	x14, xzr
	mov	w13, wzr
	mov	w15, wzr
	mov	w17, wzr
	mov	w11, wzr
	mov	x12, xzr
	mov	x16, xzr
	mov	w0, wzr
	mov	w10, wzr
	mov	w9, wzr
	mov	w8, wzr
.Lnoise_BB28_90:
	strb	w8, [x19, #18]
	strb	w9, [x19, #19]
	strb	w10, [x19, #20]
	strb	w0, [x19, #21]
	mov	w0, #40
	stur	x16, [x19, #22]
	stur	x12, [x19, #30]
	strb	w11, [x19, #38]
	strb	w17, [x19, #39]
	strb	w15, [x19, #40]
	strb	w13, [x19, #41]
	stur	x14, [x19, #42]
	strb	w18, [x19, #50]
	b	.Lnoise_BB28_9
.Lnoise_BB28_91:
	brk	#0x1
.Lnoise_func_end28:
	.size	"noise_c::messages::read_next", .Lnoise_func_end28-"noise_c::messages::read_next"
	.cfi_endproc

	.section	".text.noise_handshake::layout::psk_after","ax",@progbits
	.p2align	2
	.type	"noise_handshake::layout::psk_after",@function
"noise_handshake::layout::psk_after":
	.cfi_startproc
	stp	x29, x30, [sp, #-16]!
	mov	x29, sp
	.cfi_def_cfa w29, 16
	.cfi_offset w30, -8
	.cfi_offset w29, -16
	cbz	x1, .Lnoise_BB29_5
	ldrb	w8, [x0], #4
	sub	x1, x1, #1
	cmp	w8, #6
	b.ne	.Lnoise_BB29_4
	cbz	x2, .Lnoise_BB29_6
	sub	x2, x2, #1
.Lnoise_BB29_4:
	bl	"noise_handshake::layout::psk_after"
	tst	w0, #0x1
	csinc	x1, xzr, x1, eq
	ldp	x29, x30, [sp], #16
	ret
.Lnoise_BB29_5:
	mov	w0, wzr
	ldp	x29, x30, [sp], #16
	ret
.Lnoise_BB29_6:
	mov	x1, xzr
	mov	w0, #1
	ldp	x29, x30, [sp], #16
	ret
.Lnoise_func_end29:
	.size	"noise_handshake::layout::psk_after", .Lnoise_func_end29-"noise_handshake::layout::psk_after"
	.cfi_endproc

	.section	.rodata.cst16,"aM",@progbits,16
	.p2align	4, 0x0
.Lnoise_CPI30_0:
	.xword	1
	.xword	0
	.section	".text.noise_handshake::reader::read_tokens::<#3dfcfe118667ed30>","ax",@progbits
	.p2align	2
	.type	"noise_handshake::reader::read_tokens::<#3dfcfe118667ed30>",@function
"noise_handshake::reader::read_tokens::<#3dfcfe118667ed30>":
	.cfi_startproc
	stp	x29, x30, [sp, #-96]!
	stp	x28, x27, [sp, #16]
	mov	x29, sp
	stp	x26, x25, [sp, #32]
	stp	x24, x23, [sp, #48]
	stp	x22, x21, [sp, #64]
	stp	x20, x19, [sp, #80]
	sub	sp, sp, #624
	.cfi_def_cfa w29, 96
	.cfi_offset w19, -8
	.cfi_offset w20, -16
	.cfi_offset w21, -24
	.cfi_offset w22, -32
	.cfi_offset w23, -40
	.cfi_offset w24, -48
	.cfi_offset w25, -56
	.cfi_offset w26, -64
	.cfi_offset w27, -72
	.cfi_offset w28, -80
	.cfi_offset w30, -88
	.cfi_offset w29, -96
	mov	x19, x0
	stur	wzr, [sp, #91]
	str	wzr, [sp, #88]
	stp	xzr, xzr, [sp, #72]
	str	xzr, [sp, #64]
	str	wzr, [sp, #56]
	stur	wzr, [sp, #59]
	str	wzr, [sp, #48]
	stur	wzr, [sp, #51]
	cbz	x7, .Lnoise_BB30_7
	ldr	w28, [x6]
	ldp	x23, x22, [x29, #96]
	and	w8, w28, #0xff
	cmp	w8, #1
	b.le	.Lnoise_BB30_8
	sub	w9, w8, #2
	cmp	w9, #4
	b.hs	.Lnoise_BB30_20
	ldrb	w9, [x3, #32]
	cbz	w9, .Lnoise_BB30_11
	and	w8, w8, #0xfe
	cmp	w8, #4
	b.ne	.Lnoise_BB30_15
	ldrb	w8, [x2, #33]
	cmp	w8, #1
	b.ne	.Lnoise_BB30_30
	ldur	q0, [x2, #34]
	ldur	q1, [x2, #50]
	b	.Lnoise_BB30_17
.Lnoise_BB30_7:
	stp	xzr, xzr, [x19]
	str	xzr, [x19, #16]
	b	.Lnoise_BB30_34
.Lnoise_BB30_8:
	ldrh	w9, [x6, #2]
	add	x21, x23, x9
	sub	x9, x22, x9
	cbnz	w8, .Lnoise_BB30_18
	cmp	x9, #32
	mov	w24, #1
	b.hs	.Lnoise_BB30_35
	mov	x20, xzr
	cbnz	w24, .Lnoise_BB30_36
	b	.Lnoise_BB30_28
.Lnoise_BB30_11:
	cmp	w8, #3
	b.gt	.Lnoise_BB30_21
	cmp	w8, #2
	b.eq	.Lnoise_BB30_22
.Lnoise_BB30_13:
	ldrb	w9, [x2, #33]
	cmp	w9, #1
	b.ne	.Lnoise_BB30_30
	ldur	q0, [x2, #34]
	ldur	q1, [x2, #50]
	b	.Lnoise_BB30_24
.Lnoise_BB30_15:
	ldrb	w8, [x2]
	cmp	w8, #1
	b.ne	.Lnoise_BB30_30
	ldur	q0, [x2, #1]
	ldur	q1, [x2, #17]
.Lnoise_BB30_17:
	mov	x20, x1
	lsl	w8, w28, #3
	mov	w9, #16777472
	stp	q0, q1, [x29, #-80]
	str	x22, [sp, #40]
	mov	x24, x7
	mov	x21, x5
	add	w8, w8, #2032
	mov	x27, x4
	mov	x25, x2
	and	w8, w8, #0x7f8
	mov	x26, x6
	lsr	w8, w9, w8
	b	.Lnoise_BB30_25
.Lnoise_BB30_18:
	ubfx	x20, x28, #8, #8
	cmp	x9, x20
	b.hs	.Lnoise_BB30_37
	mov	w8, wzr
	mov	x20, xzr
	mov	w9, #1
	cbnz	w9, .Lnoise_BB30_31
	b	.Lnoise_BB30_28
.Lnoise_BB30_20:
	mov	x0, x1
	mov	x20, x1
	mov	x1, x4
	mov	x24, x7
	mov	x21, x5
	mov	x25, x2
	mov	x26, x6
	mov	x28, x3
	mov	x27, x4
	bl	"noise_state::symmetric::SymmetricState::mix_key_and_hash"
	mov	x1, x20
	b	.Lnoise_BB30_27
.Lnoise_BB30_21:
	cmp	w8, #4
	b.ne	.Lnoise_BB30_13
.Lnoise_BB30_22:
	ldrb	w9, [x2]
	cmp	w9, #1
	b.ne	.Lnoise_BB30_30
	ldur	q0, [x2, #1]
	ldur	q1, [x2, #17]
.Lnoise_BB30_24:
	mov	x20, x1
	and	w8, w8, #0xfe
	mov	x24, x7
	mov	x21, x5
	cmp	w8, #4
	mov	x27, x4
	mov	x25, x2
	mov	x26, x6
	cset	w8, eq
	stp	q0, q1, [x29, #-80]
	str	x22, [sp, #40]
.Lnoise_BB30_25:
	ldp	x1, x2, [x3, #16]
	mov	x28, x3
	add	x0, sp, #176
	sub	x4, x29, #80
	mov	w3, w8
	add	x22, sp, #176
	bl	"noise_c::supplied_keys::result_for"
	ldrb	w8, [sp, #176]
	ldur	q0, [x22, #1]
	ldur	q1, [x22, #17]
	cmp	w8, #1
	stp	q0, q1, [sp, #96]
	b.ne	.Lnoise_BB30_30
	movi	v2.2d, #0000000000000000
	ldp	q0, q1, [sp, #96]
	add	x8, sp, #128
	mov	w22, #32
	add	x0, sp, #176
	mov	x1, x20
	stp	x8, x22, [sp, #160]
	stp	q0, q1, [sp, #128]
	stp	q2, q2, [x29, #-240]
	bl	"noise_kdf::keyed::Hmac::new"
	sub	x0, x29, #240
	add	x1, sp, #176
	add	x2, sp, #160
	mov	w3, #1
	bl	"noise_kdf::keyed::Hmac::code"
	add	x0, sp, #176
	sub	x1, x29, #240
	bl	"noise_kdf::keyed::Hmac::new"
	movi	v0.2d, #0000000000000000
	adrp	x2, .Lnoise_static.102
	add	x2, x2, :lo12:.Lnoise_static.102
	sub	x0, x29, #176
	add	x1, sp, #176
	mov	w3, #1
	stp	q0, q0, [x29, #-176]
	stp	q0, q0, [x29, #-144]
	bl	"noise_kdf::keyed::Hmac::code"
	ldp	q0, q1, [x29, #-176]
	sub	x8, x29, #112
	stp	x8, x22, [x29, #-208]
	adrp	x8, .Lnoise_static.103
	add	x8, x8, :lo12:.Lnoise_static.103
	stur	x8, [x29, #-192]
	mov	w8, #1
	sub	x0, x29, #144
	add	x1, sp, #176
	sub	x2, x29, #208
	mov	w3, #2
	stp	q0, q1, [x29, #-112]
	mov	w22, #1
	stur	x8, [x29, #-184]
	bl	"noise_kdf::keyed::Hmac::code"
	ldp	q2, q3, [x29, #-144]
	mov	x1, x20
	ldp	q1, q0, [x29, #-112]
	strb	w22, [x20, #64]
	ldr	x22, [sp, #40]
	str	xzr, [x20, #104]
	stp	q2, q3, [x29, #-48]
	stp	q1, q0, [x29, #-80]
	stp	q1, q0, [x20]
	ldp	q0, q1, [x29, #-48]
	stur	q0, [x20, #65]
	stur	q1, [x20, #81]
.Lnoise_BB30_27:
	mov	x20, xzr
	mov	x3, x28
	mov	x6, x26
	mov	x2, x25
	mov	x4, x27
	mov	x5, x21
	mov	x7, x24
.Lnoise_BB30_28:
	ldrb	w8, [x6], #4
	mov	w9, #32
	sub	x7, x7, #1
	add	x0, sp, #64
	stp	x23, x22, [sp]
	cmp	w8, #6
	cset	w8, eq
	csel	x9, x9, xzr, eq
	sub	x5, x5, x8
	add	x4, x4, x9
	bl	"noise_handshake::reader::read_tokens::<#3dfcfe118667ed30>"
	ldrb	w8, [sp, #64]
	ldr	x9, [sp, #72]
	cbz	x8, .Lnoise_BB30_32
	ldr	w11, [sp, #48]
	ldur	w12, [sp, #51]
	mov	w20, #1
	ldrb	w10, [sp, #80]
	str	w11, [sp, #56]
	stur	w12, [sp, #59]
	b	.Lnoise_BB30_33
.Lnoise_BB30_30:
	mov	w8, #2
.Lnoise_BB30_31:
	adrp	x9, .Lnoise_CPI30_0
	ldr	w10, [sp, #88]
	strb	w8, [x19, #16]
	ldr	q0, [x9, :lo12:.Lnoise_CPI30_0]
	ldur	w8, [sp, #91]
	stur	w10, [x19, #17]
	str	q0, [x19]
	str	w8, [x19, #20]
	b	.Lnoise_BB30_34
.Lnoise_BB30_32:
	mov	w10, wzr
.Lnoise_BB30_33:
	add	x9, x9, x20
	strb	w10, [x19, #16]
	stp	x8, x9, [x19]
	ldr	w8, [sp, #56]
	ldur	w9, [sp, #59]
	stur	w8, [x19, #17]
	str	w9, [x19, #20]
.Lnoise_BB30_34:
	add	sp, sp, #624
	ldp	x20, x19, [sp, #80]
	ldp	x22, x21, [sp, #64]
	ldp	x24, x23, [sp, #48]
	ldp	x26, x25, [sp, #32]
	ldp	x28, x27, [sp, #16]
	ldp	x29, x30, [sp], #96
	ret
.Lnoise_BB30_35:
	ldrb	w8, [x3, #33]
	mov	x0, x1
	mov	x20, x1
	mov	x25, x2
	mov	x2, x21
	mov	x26, x3
	mov	w1, w8
	stp	x23, x22, [sp, #32]
	mov	x22, x6
	mov	x27, x4
	mov	x23, x5
	mov	x28, x7
	bl	"noise_handshake::tokens::mix_ephemeral"
	mov	x5, x23
	mov	x6, x22
	mov	x7, x28
	ldp	x23, x22, [sp, #32]
	mov	x4, x27
	ldp	q0, q1, [x21]
	mov	x1, x20
	mov	x2, x25
	mov	x3, x26
	strb	w24, [x25]
	mov	w20, #32
	stp	q0, q1, [sp, #176]
	stur	q0, [x25, #1]
	stur	q1, [x25, #17]
	b	.Lnoise_BB30_28
.Lnoise_BB30_36:
	mov	w8, wzr
	b	.Lnoise_BB30_31
.Lnoise_BB30_37:
	movi	v0.2d, #0000000000000000
	mov	x25, x2
	add	x0, sp, #176
	mov	x26, x1
	mov	x1, x21
	mov	x2, x20
	stp	x4, x7, [sp, #32]
	mov	x27, x6
	mov	x24, x3
	str	x5, [sp, #24]
	stp	q0, q0, [sp, #192]
	str	q0, [sp, #176]
	bl	memcpy
	mov	x21, x26
	mov	x1, x26
	stp	xzr, xzr, [x29, #-112]
	ldrb	w8, [x21, #64]!
	cmp	w8, #1
	b.ne	.Lnoise_BB30_40
	ldr	x8, [x1, #104]
	cmn	x8, #1
	b.eq	.Lnoise_BB30_45
	tst	w28, #0xf000
	b.eq	.Lnoise_BB30_44
.Lnoise_BB30_40:
	mov	x28, x22
	sub	x0, x29, #80
	mov	x22, x1
	add	x1, x1, #32
	add	x2, sp, #176
	mov	x3, x20
	bl	"noise_state::symmetric::hash_of_both"
	sub	x0, x29, #112
	add	x2, x22, #32
	add	x4, sp, #176
	mov	x1, x21
	mov	w3, #32
	mov	x5, x20
	bl	"noise_state::cipher::CipherState::decrypt"
	ldurb	w8, [x29, #-112]
	cbz	w8, .Lnoise_BB30_43
	ldurb	w8, [x29, #-111]
	ldp	x5, x4, [sp, #24]
	ldr	x7, [sp, #40]
	sub	w8, w8, #1
	cmp	w8, #2
	b.hs	.Lnoise_BB30_45
	mov	x3, x24
	mov	x6, x27
	mov	x2, x25
	mov	x22, x28
	mov	x20, xzr
	mov	w9, #1
	mov	w8, #1
	mov	x1, x26
	cbnz	w9, .Lnoise_BB30_31
	b	.Lnoise_BB30_28
.Lnoise_BB30_43:
	ldp	q0, q1, [x29, #-80]
	mov	x1, x26
	ldp	x5, x4, [sp, #24]
	mov	w10, #1
	ldr	x7, [sp, #40]
	mov	x2, x25
	mov	x3, x24
	stp	q0, q1, [x26, #32]
	ldp	q0, q1, [sp, #176]
	mov	x6, x27
	mov	x22, x28
	strb	w10, [x25, #33]
	stur	q0, [x25, #34]
	stur	q1, [x25, #50]
	b	.Lnoise_BB30_28
.Lnoise_BB30_44:
	ldp	x5, x4, [sp, #24]
	mov	x20, xzr
	ldr	x7, [sp, #40]
	mov	w9, #1
	mov	w8, #1
	mov	x3, x24
	mov	x6, x27
	mov	x2, x25
	cbnz	w9, .Lnoise_BB30_31
	b	.Lnoise_BB30_28
.Lnoise_BB30_45:
	brk	#0x1
.Lnoise_func_end30:
	.size	"noise_handshake::reader::read_tokens::<#3dfcfe118667ed30>", .Lnoise_func_end30-"noise_handshake::reader::read_tokens::<#3dfcfe118667ed30>"
	.cfi_endproc

	.section	".text.noise_handshake::tokens::mix_ephemeral","ax",@progbits
	.p2align	2
	.type	"noise_handshake::tokens::mix_ephemeral",@function
"noise_handshake::tokens::mix_ephemeral":
	.cfi_startproc
	sub	sp, sp, #496
	stp	x29, x30, [sp, #448]
	stp	x28, x21, [sp, #464]
	stp	x20, x19, [sp, #480]
	add	x29, sp, #448
	.cfi_def_cfa w29, 48
	.cfi_offset w19, -8
	.cfi_offset w20, -16
	.cfi_offset w21, -24
	.cfi_offset w28, -32
	.cfi_offset w30, -40
	.cfi_offset w29, -48
	mov	x19, x0
	mov	w21, w1
	add	x0, sp, #16
	add	x1, x19, #32
	mov	w3, #32
	mov	x20, x2
	bl	"noise_state::symmetric::hash_of_both"
	ldp	q0, q1, [sp, #16]
	stp	q0, q1, [x19, #32]
	cbz	w21, .Lnoise_BB31_2
	movi	v0.2d, #0000000000000000
	mov	w21, #32
	add	x0, sp, #16
	mov	x1, x19
	stp	x20, x21, [sp]
	stp	q0, q0, [sp, #224]
	bl	"noise_kdf::keyed::Hmac::new"
	add	x0, sp, #224
	add	x1, sp, #16
	mov	x2, sp
	mov	w3, #1
	mov	w20, #1
	bl	"noise_kdf::keyed::Hmac::code"
	add	x0, sp, #16
	add	x1, sp, #224
	bl	"noise_kdf::keyed::Hmac::new"
	movi	v0.2d, #0000000000000000
	adrp	x2, .Lnoise_static.102
	add	x2, x2, :lo12:.Lnoise_static.102
	sub	x0, x29, #160
	add	x1, sp, #16
	mov	w3, #1
	stp	q0, q0, [x29, #-160]
	stp	q0, q0, [x29, #-128]
	bl	"noise_kdf::keyed::Hmac::code"
	ldp	q0, q1, [x29, #-160]
	sub	x8, x29, #96
	stp	x8, x21, [x29, #-192]
	adrp	x8, .Lnoise_static.103
	add	x8, x8, :lo12:.Lnoise_static.103
	sub	x0, x29, #128
	add	x1, sp, #16
	sub	x2, x29, #192
	mov	w3, #2
	stp	q0, q1, [x29, #-96]
	stp	x8, x20, [x29, #-176]
	bl	"noise_kdf::keyed::Hmac::code"
	ldp	q2, q3, [x29, #-128]
	strb	w20, [x19, #64]
	ldp	q1, q0, [x29, #-96]
	str	xzr, [x19, #104]
	stp	q2, q3, [x29, #-32]
	stp	q1, q0, [x29, #-64]
	stp	q1, q0, [x19]
	ldp	q0, q1, [x29, #-32]
	stur	q0, [x19, #65]
	stur	q1, [x19, #81]
.Lnoise_BB31_2:
	ldp	x20, x19, [sp, #480]
	ldp	x28, x21, [sp, #464]
	ldp	x29, x30, [sp, #448]
	add	sp, sp, #496
	ret
.Lnoise_func_end31:
	.size	"noise_handshake::tokens::mix_ephemeral", .Lnoise_func_end31-"noise_handshake::tokens::mix_ephemeral"
	.cfi_endproc

	.section	.rodata.cst16,"aM",@progbits,16
	.p2align	4, 0x0
.Lnoise_CPI32_0:
	.word	1779033703
	.word	3144134277
	.word	1013904242
	.word	2773480762
.Lnoise_CPI32_1:
	.word	1359893119
	.word	2600822924
	.word	528734635
	.word	1541459225
	.section	".text.noise_state::symmetric::hash_of_both","ax",@progbits
	.p2align	2
	.type	"noise_state::symmetric::hash_of_both",@function
"noise_state::symmetric::hash_of_both":
	.cfi_startproc
	sub	sp, sp, #288
	stp	x29, x30, [sp, #224]
	stp	x28, x23, [sp, #240]
	stp	x22, x21, [sp, #256]
	stp	x20, x19, [sp, #272]
	add	x29, sp, #224
	.cfi_def_cfa w29, 64
	.cfi_offset w19, -8
	.cfi_offset w20, -16
	.cfi_offset w21, -24
	.cfi_offset w22, -32
	.cfi_offset w23, -40
	.cfi_offset w28, -48
	.cfi_offset w30, -56
	.cfi_offset w29, -64
	adrp	x8, .Lnoise_CPI32_0
	movi	v1.2d, #0000000000000000
	mov	x21, x2
	ldr	q0, [x8, :lo12:.Lnoise_CPI32_0]
	adrp	x8, .Lnoise_CPI32_1
	mov	x19, x0
	ldr	q2, [x8, :lo12:.Lnoise_CPI32_1]
	mov	x0, sp
	mov	w2, #32
	mov	x20, x3
	str	xzr, [sp, #96]
	stp	q0, q2, [sp]
	stp	q1, q1, [sp, #32]
	stp	q1, q1, [sp, #64]
	bl	"sha2::block256::Core256::update"
	mov	x0, sp
	mov	x1, x21
	mov	x2, x20
	bl	"sha2::block256::Core256::update"
	ldp	q0, q1, [sp, #48]
	mov	w8, #55
	ldr	x20, [sp, #96]
	ldr	q2, [sp, #32]
	adrp	x1, .Lnoise_static.100
	add	x1, x1, :lo12:.Lnoise_static.100
	add	x0, sp, #112
	stp	q0, q1, [sp, #160]
	ldr	q0, [sp, #80]
	sub	w8, w8, w20
	and	x8, x8, #0x3f
	lsr	x21, x20, #21
	lsr	x22, x20, #13
	str	q0, [sp, #192]
	ldp	q0, q1, [sp]
	add	x2, x8, #1
	lsl	x23, x20, #3
	str	x20, [sp, #208]
	stp	q1, q2, [sp, #128]
	str	q0, [sp, #112]
	bl	"sha2::block256::Core256::update"
	lsl	x8, x20, #43
	lsr	x9, x20, #5
	lsr	x10, x20, #37
	and	x11, x21, #0xff0000
	add	x0, sp, #112
	add	x1, sp, #104
	and	x8, x8, #0xff000000000000
	and	x9, x9, #0xff000000
	and	x10, x10, #0xff00
	orr	x8, x8, x20, lsl #59
	orr	x9, x9, x11
	mov	w2, #8
	orr	x9, x9, x10
	bfi	x8, x22, #40, #8
	bfi	x8, x21, #32, #8
	orr	x8, x8, x9
	orr	x8, x8, x23, lsr #56
	str	x8, [sp, #104]
	bl	"sha2::block256::Core256::update"
	ldp	q0, q1, [sp, #112]
	ldp	x22, x21, [sp, #256]
	ldp	x28, x23, [sp, #240]
	rev32	v0.16b, v0.16b
	rev32	v1.16b, v1.16b
	ldp	x29, x30, [sp, #224]
	stp	q0, q1, [x19]
	ldp	x20, x19, [sp, #272]
	add	sp, sp, #288
	ret
.Lnoise_func_end32:
	.size	"noise_state::symmetric::hash_of_both", .Lnoise_func_end32-"noise_state::symmetric::hash_of_both"
	.cfi_endproc

	.section	".text.sha2::block256::Core256::update","ax",@progbits
	.p2align	2
	.type	"sha2::block256::Core256::update",@function
"sha2::block256::Core256::update":
	.cfi_startproc
	stp	x29, x30, [sp, #-80]!
	str	x25, [sp, #16]
	stp	x24, x23, [sp, #32]
	stp	x22, x21, [sp, #48]
	stp	x20, x19, [sp, #64]
	mov	x29, sp
	.cfi_def_cfa w29, 80
	.cfi_offset w19, -8
	.cfi_offset w20, -16
	.cfi_offset w21, -24
	.cfi_offset w22, -32
	.cfi_offset w23, -40
	.cfi_offset w24, -48
	.cfi_offset w25, -64
	.cfi_offset w30, -72
	.cfi_offset w29, -80
	ldr	x9, [x0, #96]
	mov	x20, x2
	mov	x19, x1
	mov	x21, x0
	ands	x8, x9, #0x3f
	add	x9, x9, x2
	str	x9, [x0, #96]
	b.eq	.Lnoise_BB33_8
	mov	w9, #64
	sub	x22, x9, x8
	add	x9, x21, #32
	add	x0, x9, x8
	cmp	x20, x22
	sub	x10, x0, x19
	b.hs	.Lnoise_BB33_9
	cmp	x10, x20
	b.hs	.Lnoise_BB33_15
	cmp	x20, #7
	b.ls	.Lnoise_BB33_5
	add	x9, x8, x21
	sub	x9, x9, x19
	add	x9, x9, #32
	cmp	x9, #32
	b.hs	.Lnoise_BB33_37
.Lnoise_BB33_5:
	mov	x9, xzr
.Lnoise_BB33_6:
	add	x8, x9, x8
	add	x10, x8, x21
	sub	x8, x20, x9
	add	x9, x19, x9
	add	x10, x10, #32
.Lnoise_BB33_7:
	ldrb	w11, [x9], #1
	subs	x8, x8, #1
	strb	w11, [x10], #1
	b.ne	.Lnoise_BB33_7
	b	.Lnoise_BB33_26
.Lnoise_BB33_8:
	mov	x22, xzr
	sub	x24, x20, xzr
	lsr	x25, x24, #6
	cbnz	x25, .Lnoise_BB33_18
	b	.Lnoise_BB33_20
.Lnoise_BB33_9:
	cmp	x10, x22
	b.hs	.Lnoise_BB33_16
	cmp	x8, #61
	b.hs	.Lnoise_BB33_12
	add	x10, x8, x21
	sub	x10, x10, x19
	add	x10, x10, #32
	cmp	x10, #16
	b.hs	.Lnoise_BB33_39
.Lnoise_BB33_12:
	mov	x10, xzr
.Lnoise_BB33_13:
	add	x8, x10, x8
	add	x10, x19, x10
.Lnoise_BB33_14:
	ldrb	w11, [x10], #1
	strb	w11, [x9, x8]
	add	x8, x8, #1
	cmp	x8, #64
	b.ne	.Lnoise_BB33_14
	b	.Lnoise_BB33_17
.Lnoise_BB33_15:
	mov	x1, x19
	mov	x2, x20
	b	.Lnoise_BB33_27
.Lnoise_BB33_16:
	mov	x1, x19
	mov	x2, x22
	bl	memmove
.Lnoise_BB33_17:
	add	x1, x21, #32
	mov	x0, x21
	bl	"sha2::block256::compress"
	sub	x24, x20, x22
	lsr	x25, x24, #6
	cbz	x25, .Lnoise_BB33_20
.Lnoise_BB33_18:
	add	x23, x19, x22
.Lnoise_BB33_19:
	mov	x0, x21
	mov	x1, x23
	bl	"sha2::block256::compress"
	subs	x25, x25, #1
	add	x23, x23, #64
	b.ne	.Lnoise_BB33_19
.Lnoise_BB33_20:
	and	x8, x24, #0xffffffffffffffc0
	add	x0, x21, #32
	add	x9, x8, x22
	add	x1, x19, x9
	sub	x2, x20, x9
	sub	x9, x0, x1
	cmp	x9, x2
	b.hs	.Lnoise_BB33_27
	cmp	x2, #7
	b.ls	.Lnoise_BB33_23
	add	x9, x22, x19
	add	x9, x9, x8
	sub	x9, x21, x9
	add	x9, x9, #32
	cmp	x9, #32
	b.hs	.Lnoise_BB33_28
.Lnoise_BB33_23:
	mov	x9, xzr
.Lnoise_BB33_24:
	add	x10, x9, x22
	add	x11, x9, x21
	add	x10, x10, x8
	sub	x8, x10, x20
	add	x9, x19, x10
	add	x10, x11, #32
.Lnoise_BB33_25:
	ldrb	w11, [x9], #1
	adds	x8, x8, #1
	strb	w11, [x10], #1
	b.lo	.Lnoise_BB33_25
.Lnoise_BB33_26:
	ldp	x20, x19, [sp, #64]
	ldr	x25, [sp, #16]
	ldp	x22, x21, [sp, #48]
	ldp	x24, x23, [sp, #32]
	ldp	x29, x30, [sp], #80
	ret
.Lnoise_BB33_27:
	ldp	x20, x19, [sp, #64]
	ldr	x25, [sp, #16]
	ldp	x22, x21, [sp, #48]
	ldp	x24, x23, [sp, #32]
	ldp	x29, x30, [sp], #80
	b	memmove
.Lnoise_BB33_28:
	cmp	x2, #32
	b.hs	.Lnoise_BB33_30
	mov	x9, xzr
	b	.Lnoise_BB33_34
.Lnoise_BB33_30:
	add	x11, x22, x8
	and	x10, x2, #0x18
	and	x9, x2, #0xffffffffffffffe0
	add	x12, x11, x19
	add	x11, x21, #48
	and	x13, x2, #0xffffffffffffffe0
	add	x12, x12, #16
.Lnoise_BB33_31:
	ldp	q0, q1, [x12, #-16]
	subs	x13, x13, #32
	add	x12, x12, #32
	stp	q0, q1, [x11, #-16]
	add	x11, x11, #32
	b.ne	.Lnoise_BB33_31
	cmp	x2, x9
	b.eq	.Lnoise_BB33_26
	cbz	x10, .Lnoise_BB33_24
.Lnoise_BB33_34:
	mov	x10, x9
	and	x9, x2, #0xfffffffffffffff8
	add	x11, x10, x22
	add	x12, x10, x21
	sub	x10, x10, x9
	add	x11, x11, x8
	add	x12, x12, #32
	add	x11, x19, x11
.Lnoise_BB33_35:
	ldr	d0, [x11], #8
	adds	x10, x10, #8
	str	d0, [x12], #8
	b.ne	.Lnoise_BB33_35
	cmp	x2, x9
	b.ne	.Lnoise_BB33_24
	b	.Lnoise_BB33_26
.Lnoise_BB33_37:
	cmp	x20, #32
	b.hs	.Lnoise_BB33_41
	mov	x9, xzr
	b	.Lnoise_BB33_45
.Lnoise_BB33_39:
	cmp	x8, #48
	b.ls	.Lnoise_BB33_48
	mov	x10, xzr
	b	.Lnoise_BB33_53
.Lnoise_BB33_41:
	add	x12, x8, x21
	and	x10, x20, #0x18
	and	x9, x20, #0xffffffffffffffe0
	add	x11, x19, #16
	add	x12, x12, #48
	and	x13, x20, #0xffffffffffffffe0
.Lnoise_BB33_42:
	ldp	q0, q1, [x11, #-16]
	subs	x13, x13, #32
	add	x11, x11, #32
	stp	q0, q1, [x12, #-16]
	add	x12, x12, #32
	b.ne	.Lnoise_BB33_42
	cmp	x20, x9
	b.eq	.Lnoise_BB33_26
	cbz	x10, .Lnoise_BB33_6
.Lnoise_BB33_45:
	mov	x11, x9
	and	x9, x20, #0xfffffffffffffff8
	add	x10, x11, x8
	add	x12, x10, x21
	sub	x10, x11, x9
	add	x11, x19, x11
	add	x12, x12, #32
.Lnoise_BB33_46:
	ldr	d0, [x11], #8
	adds	x10, x10, #8
	str	d0, [x12], #8
	b.ne	.Lnoise_BB33_46
	cmp	x20, x9
	b.ne	.Lnoise_BB33_6
	b	.Lnoise_BB33_26
.Lnoise_BB33_48:
	ldp	d0, d1, [x19]
	and	x10, x22, #0x70
	cmp	x10, #16
	stp	d0, d1, [x0]
	b.eq	.Lnoise_BB33_51
	ldp	d0, d1, [x19, #16]
	cmp	x10, #32
	stp	d0, d1, [x0, #16]
	b.eq	.Lnoise_BB33_51
	ldp	d0, d1, [x19, #32]
	stp	d0, d1, [x0, #32]
.Lnoise_BB33_51:
	cmp	x22, x10
	b.eq	.Lnoise_BB33_17
	and	x11, x22, #0xc
	cbz	x11, .Lnoise_BB33_13
.Lnoise_BB33_53:
	mov	x12, x10
	and	x10, x22, #0x7c
	add	x11, x12, x21
	add	x13, x11, x8
	sub	x11, x12, x10
	add	x12, x19, x12
	add	x13, x13, #32
.Lnoise_BB33_54:
	ldr	w14, [x12], #4
	adds	x11, x11, #4
	str	w14, [x13], #4
	b.ne	.Lnoise_BB33_54
	cmp	x22, x10
	b.ne	.Lnoise_BB33_13
	b	.Lnoise_BB33_17
.Lnoise_func_end33:
	.size	"sha2::block256::Core256::update", .Lnoise_func_end33-"sha2::block256::Core256::update"
	.cfi_endproc

	.section	".text.sha2::block256::compress","ax",@progbits
	.p2align	2
	.type	"sha2::block256::compress",@function
"sha2::block256::compress":
	.cfi_startproc
	sub	sp, sp, #192
	str	x30, [sp, #96]
	stp	x28, x27, [sp, #112]
	stp	x26, x25, [sp, #128]
	stp	x24, x23, [sp, #144]
	stp	x22, x21, [sp, #160]
	stp	x20, x19, [sp, #176]
	.cfi_def_cfa_offset 192
	.cfi_offset w19, -8
	.cfi_offset w20, -16
	.cfi_offset w21, -24
	.cfi_offset w22, -32
	.cfi_offset w23, -40
	.cfi_offset w24, -48
	.cfi_offset w25, -56
	.cfi_offset w26, -64
	.cfi_offset w27, -72
	.cfi_offset w28, -80
	.cfi_offset w30, -96
	ldp	w6, w17, [x0, #16]
	ldp	w16, w14, [x0, #24]
	ldp	w10, w9, [x1]
	ldp	w7, w5, [x0]
	eor	w11, w6, w6, ror #14
	bic	w12, w16, w6
	and	w13, w17, w6
	rev	w15, w10
	orr	w10, w13, w12
	mov	w8, #12184
	eor	w12, w7, w7, ror #9
	str	w15, [sp, #108]
	eor	w11, w6, w11, ror #5
	add	w13, w14, w15
	movk	w8, #17034, lsl #16
	str	w14, [sp, #28]
	ldp	w2, w15, [x0, #8]
	add	w10, w13, w10
	eor	w12, w7, w12, ror #11
	ror	w11, w11, #6
	add	w8, w10, w8
	eor	w10, w5, w7
	rev	w18, w9
	ror	w12, w12, #2
	bic	w13, w5, w10
	and	w14, w2, w10
	add	w8, w8, w11
	orr	w11, w14, w13
	str	w15, [sp, #12]
	add	w11, w12, w11
	add	w12, w8, w15
	mov	w13, #17553
	add	w8, w11, w8
	eor	w11, w12, w12, ror #14
	bic	w14, w17, w12
	eor	w9, w8, w8, ror #9
	and	w15, w6, w12
	str	w18, [sp, #104]
	eor	w11, w12, w11, ror #5
	add	w18, w16, w18
	orr	w14, w15, w14
	eor	w9, w8, w9, ror #11
	movk	w13, #28983, lsl #16
	eor	w15, w8, w7
	add	w14, w18, w14
	ror	w11, w11, #6
	and	w10, w15, w10
	add	w13, w14, w13
	ror	w9, w9, #2
	str	x0, [sp, #40]
	eor	w10, w10, w7
	add	w11, w13, w11
	str	w16, [sp, #36]
	ldp	w14, w0, [x1, #8]
	add	w9, w9, w10
	add	w13, w11, w2
	str	w2, [sp, #8]
	add	w11, w9, w11
	eor	w9, w13, w13, ror #14
	bic	w2, w6, w13
	rev	w16, w14
	eor	w14, w11, w11, ror #9
	and	w3, w12, w13
	eor	w9, w13, w9, ror #5
	mov	w10, #64463
	add	w4, w17, w16
	orr	w2, w3, w2
	eor	w14, w11, w14, ror #11
	movk	w10, #46528, lsl #16
	eor	w3, w11, w8
	add	w2, w4, w2
	ror	w9, w9, #6
	and	w15, w3, w15
	add	w10, w2, w10
	ror	w14, w14, #2
	eor	w15, w15, w8
	add	w9, w10, w9
	str	w16, [sp, #92]
	add	w10, w14, w15
	add	w14, w9, w5
	str	w5, [sp, #16]
	add	w9, w10, w9
	eor	w10, w14, w14, ror #14
	rev	w16, w0
	eor	w0, w9, w9, ror #9
	bic	w4, w12, w14
	and	w5, w13, w14
	eor	w10, w14, w10, ror #5
	mov	w15, #56229
	stp	w7, w6, [sp, #20]
	add	w6, w6, w16
	orr	w4, w5, w4
	movk	w15, #59829, lsl #16
	eor	w0, w9, w0, ror #11
	add	w4, w6, w4
	ror	w10, w10, #6
	eor	w5, w9, w11
	add	w15, w4, w15
	str	w16, [sp, #88]
	and	w3, w5, w3
	ror	w0, w0, #2
	add	w10, w15, w10
	eor	w3, w3, w11
	add	w15, w10, w7
	mov	w6, #49755
	ldp	w4, w7, [x1, #16]
	add	w0, w0, w3
	bic	w19, w13, w15
	and	w20, w14, w15
	add	w10, w0, w10
	eor	w0, w15, w15, ror #14
	orr	w19, w20, w19
	rev	w16, w4
	eor	w4, w10, w10, ror #9
	eor	w20, w10, w9
	eor	w0, w15, w0, ror #5
	add	w12, w16, w12
	movk	w6, #14678, lsl #16
	eor	w4, w10, w4, ror #11
	add	w12, w12, w19
	and	w5, w20, w5
	ror	w0, w0, #6
	add	w12, w12, w6
	eor	w5, w5, w9
	ror	w4, w4, #2
	str	w16, [sp, #84]
	rev	w16, w7
	add	w12, w12, w0
	add	w13, w16, w13
	str	w16, [sp, #80]
	add	w4, w4, w5
	add	w0, w12, w8
	mov	w5, #4593
	add	w8, w4, w12
	eor	w12, w0, w0, ror #14
	bic	w7, w14, w0
	eor	w6, w8, w8, ror #9
	and	w19, w15, w0
	movk	w5, #23025, lsl #16
	eor	w12, w0, w12, ror #5
	orr	w7, w19, w7
	eor	w19, w8, w10
	eor	w6, w8, w6, ror #11
	add	w13, w13, w7
	and	w7, w19, w20
	ror	w12, w12, #6
	add	w13, w13, w5
	ldr	w3, [sp, #108]
	ror	w5, w6, #2
	eor	w6, w7, w10
	str	w17, [sp, #32]
	add	w12, w13, w12
	add	w13, w5, w6
	add	w20, w12, w11
	mov	w11, #33444
	ldp	w7, w6, [x1, #24]
	add	w13, w13, w12
	eor	w12, w20, w20, ror #14
	bic	w21, w15, w20
	and	w22, w0, w20
	movk	w11, #37439, lsl #16
	rev	w16, w7
	eor	w7, w13, w13, ror #9
	eor	w12, w20, w12, ror #5
	add	w14, w16, w14
	orr	w21, w22, w21
	eor	w22, w13, w8
	eor	w7, w13, w7, ror #11
	add	w14, w14, w21
	ror	w12, w12, #6
	and	w19, w22, w19
	add	w11, w14, w11
	rev	w6, w6
	ror	w14, w7, #2
	eor	w7, w19, w8
	add	w11, w11, w12
	add	w15, w6, w15
	str	w16, [sp, #76]
	add	w12, w14, w7
	add	w14, w11, w9
	add	w9, w12, w11
	eor	w11, w14, w14, ror #14
	bic	w19, w0, w14
	eor	w7, w9, w9, ror #9
	and	w21, w20, w14
	mov	w12, #24277
	eor	w11, w14, w11, ror #5
	orr	w19, w21, w19
	movk	w12, #43804, lsl #16
	eor	w7, w9, w7, ror #11
	eor	w21, w9, w13
	add	w15, w15, w19
	ror	w11, w11, #6
	and	w19, w21, w22
	add	w12, w15, w12
	ror	w15, w7, #2
	eor	w7, w19, w13
	add	w11, w12, w11
	ldp	w12, w19, [x1, #32]
	add	w15, w15, w7
	add	w22, w11, w10
	eor	w10, w22, w22, ror #14
	rev	w2, w12
	add	w12, w15, w11
	bic	w11, w20, w22
	and	w15, w14, w22
	eor	w23, w12, w12, ror #9
	eor	w10, w22, w10, ror #5
	orr	w11, w15, w11
	add	w15, w2, w0
	mov	w0, #43672
	add	w11, w15, w11
	eor	w15, w12, w23, ror #11
	movk	w0, #55303, lsl #16
	ror	w10, w10, #6
	eor	w23, w12, w9
	add	w11, w11, w0
	and	w0, w23, w21
	ror	w15, w15, #2
	rev	w4, w19
	eor	w0, w0, w9
	add	w10, w11, w10
	add	w11, w15, w0
	add	w15, w10, w8
	eor	w8, w15, w15, ror #14
	add	w11, w11, w10
	bic	w10, w14, w15
	and	w0, w22, w15
	eor	w21, w11, w11, ror #9
	eor	w8, w15, w8, ror #5
	orr	w10, w0, w10
	add	w0, w4, w20
	mov	w20, #23297
	add	w10, w0, w10
	eor	w0, w11, w21, ror #11
	movk	w20, #4739, lsl #16
	ror	w8, w8, #6
	eor	w21, w11, w12
	add	w10, w10, w20
	and	w20, w21, w23
	ror	w0, w0, #2
	add	w8, w10, w8
	eor	w20, w20, w12
	ldp	w10, w24, [x1, #40]
	add	w23, w0, w20
	add	w0, w8, w13
	bic	w13, w22, w0
	rev	w5, w10
	add	w10, w23, w8
	eor	w8, w0, w0, ror #14
	and	w23, w15, w0
	eor	w25, w10, w10, ror #9
	add	w14, w5, w14
	orr	w13, w23, w13
	eor	w8, w0, w8, ror #5
	mov	w23, #34238
	add	w13, w14, w13
	eor	w14, w10, w25, ror #11
	movk	w23, #9265, lsl #16
	ror	w8, w8, #6
	eor	w25, w10, w11
	add	w13, w13, w23
	and	w21, w25, w21
	ror	w14, w14, #2
	rev	w7, w24
	add	w8, w13, w8
	eor	w13, w21, w11
	add	w22, w7, w22
	add	w14, w14, w13
	add	w13, w8, w9
	add	w8, w14, w8
	eor	w9, w13, w13, ror #14
	bic	w14, w15, w13
	eor	w24, w8, w8, ror #9
	and	w23, w0, w13
	orr	w14, w23, w14
	eor	w9, w13, w9, ror #5
	eor	w23, w8, w24, ror #11
	eor	w24, w8, w10
	add	w14, w22, w14
	and	w22, w24, w25
	mov	w25, #32195
	ror	w9, w9, #6
	ror	w23, w23, #2
	movk	w25, #21772, lsl #16
	eor	w22, w22, w10
	add	w14, w14, w25
	add	w14, w14, w9
	add	w9, w23, w22
	add	w9, w9, w14
	add	w12, w14, w12
	ldp	w22, w14, [x1, #48]
	eor	w23, w12, w12, ror #14
	bic	w25, w0, w12
	and	w26, w13, w12
	eor	w27, w9, w9, ror #9
	orr	w25, w26, w25
	mov	w26, #23924
	rev	w19, w22
	eor	w23, w12, w23, ror #5
	movk	w26, #29374, lsl #16
	add	w15, w19, w15
	eor	w30, w9, w8
	add	w15, w15, w25
	eor	w25, w9, w27, ror #11
	ror	w23, w23, #6
	add	w15, w15, w26
	and	w24, w30, w24
	ror	w25, w25, #2
	add	w15, w15, w23
	eor	w23, w24, w8
	add	w28, w15, w11
	add	w23, w25, w23
	eor	w11, w28, w28, ror #14
	mov	w25, #45566
	add	w27, w23, w15
	rev	w23, w14
	bic	w14, w13, w28
	eor	w24, w27, w27, ror #9
	and	w15, w12, w28
	eor	w11, w28, w11, ror #5
	orr	w14, w15, w14
	add	w15, w23, w0
	movk	w25, #32990, lsl #16
	eor	w0, w27, w24, ror #11
	eor	w24, w27, w9
	add	w14, w15, w14
	and	w15, w24, w30
	ror	w11, w11, #6
	add	w14, w14, w25
	ror	w0, w0, #2
	eor	w15, w15, w9
	add	w11, w14, w11
	add	w14, w0, w15
	add	w10, w11, w10
	add	w30, w14, w11
	eor	w14, w10, w10, ror #14
	and	w0, w28, w10
	ldp	w15, w11, [x1, #56]
	eor	w25, w30, w30, ror #9
	eor	w14, w10, w14, ror #5
	rev	w1, w15
	bic	w15, w12, w10
	ror	w14, w14, #6
	orr	w15, w0, w15
	add	w13, w1, w13
	mov	w0, #1703
	add	w13, w13, w15
	eor	w15, w30, w25, ror #11
	movk	w0, #39900, lsl #16
	eor	w25, w30, w27
	add	w13, w13, w0
	and	w0, w25, w24
	ror	w15, w15, #2
	add	w13, w13, w14
	eor	w14, w0, w27
	rev	w24, w11
	add	w15, w15, w14
	add	w14, w13, w8
	add	w11, w24, w12
	add	w8, w15, w13
	eor	w13, w14, w14, ror #14
	bic	w15, w28, w14
	eor	w26, w8, w8, ror #9
	and	w0, w10, w14
	orr	w15, w0, w15
	eor	w12, w14, w13, ror #5
	and	w0, w8, w25
	eor	w13, w8, w26, ror #11
	add	w11, w11, w15
	bic	w15, w30, w25
	mov	w25, #61812
	ror	w12, w12, #6
	orr	w15, w0, w15
	ror	w13, w13, #2
	movk	w25, #49563, lsl #16
	add	w11, w11, w25
	adrp	x25, .Lnoise_static.99+124
	add	x25, x25, :lo12:.Lnoise_static.99+124
	add	w11, w11, w12
	add	w12, w13, w15
	add	w15, w12, w11
	add	w9, w11, w9
	mov	w12, #3
.Lnoise_BB34_1:
	mov	w22, w2
	ldr	w2, [sp, #104]
	eor	w11, w1, w1, ror #2
	eor	w17, w9, w9, ror #14
	str	x12, [sp, #64]
	bic	w26, w10, w9
	eor	w12, w2, w2, ror #11
	and	w0, w14, w9
	ror	w11, w11, #17
	orr	w0, w0, w26
	eor	w17, w9, w17, ror #5
	eor	w16, w15, w15, ror #9
	ldp	w26, w18, [x25, #-60]
	ror	w12, w12, #7
	eor	w11, w11, w1, lsr #10
	add	w0, w28, w0
	ror	w17, w17, #6
	stp	w4, w5, [sp, #52]
	add	w13, w3, w4
	add	w0, w0, w26
	eor	w12, w12, w2, lsr #3
	ldr	w4, [sp, #92]
	eor	w16, w15, w16, ror #11
	add	w11, w13, w11
	add	w13, w17, w0
	eor	w0, w24, w24, ror #2
	add	w21, w11, w12
	eor	w11, w8, w15
	eor	w12, w4, w4, ror #11
	ror	w16, w16, #2
	bic	w26, w8, w11
	and	w28, w30, w11
	ror	w0, w0, #17
	add	w17, w13, w21
	orr	w13, w28, w26
	ror	w12, w12, #7
	add	w26, w5, w2
	add	w16, w16, w13
	add	w13, w17, w27
	eor	w0, w0, w24, lsr #10
	eor	w12, w12, w4, lsr #3
	eor	w28, w13, w13, ror #14
	add	w27, w16, w17
	add	w16, w26, w0
	and	w17, w9, w13
	add	w10, w18, w10
	add	w2, w16, w12
	eor	w12, w13, w28, ror #5
	bic	w16, w14, w13
	eor	w18, w27, w27, ror #9
	orr	w16, w17, w16
	add	w10, w10, w2
	ror	w12, w12, #6
	ldr	w5, [sp, #88]
	add	w10, w10, w16
	eor	w16, w27, w18, ror #11
	eor	w17, w27, w15
	eor	w18, w21, w21, ror #2
	add	w10, w10, w12
	eor	w12, w5, w5, ror #11
	and	w11, w17, w11
	ror	w16, w16, #2
	eor	w11, w11, w15
	ror	w18, w18, #17
	ror	w12, w12, #7
	add	w26, w10, w30
	add	w28, w7, w4
	add	w11, w16, w11
	eor	w18, w18, w21, lsr #10
	eor	w0, w26, w26, ror #14
	eor	w16, w12, w5, lsr #3
	add	w12, w11, w10
	mov	w3, w7
	eor	w0, w26, w0, ror #5
	ldr	w7, [sp, #84]
	str	w19, [sp, #60]
	add	w10, w28, w16
	bic	w16, w9, w26
	eor	w28, w2, w2, ror #2
	add	w4, w10, w18
	and	w18, w13, w26
	ror	w11, w0, #6
	orr	w16, w18, w16
	eor	w0, w12, w12, ror #9
	ldr	w20, [sp, #76]
	ldp	w10, w18, [x25, #-52]
	stp	w2, w21, [sp, #104]
	add	w10, w10, w14
	eor	w14, w12, w0, ror #11
	eor	w0, w7, w7, ror #11
	add	w10, w10, w4
	add	w9, w18, w9
	eor	w18, w4, w4, ror #2
	add	w10, w10, w16
	eor	w16, w12, w27
	ror	w0, w0, #7
	and	w17, w16, w17
	ror	w14, w14, #2
	add	w10, w10, w11
	eor	w11, w17, w27
	ror	w17, w28, #17
	add	w30, w10, w8
	eor	w8, w0, w7, lsr #3
	add	w11, w14, w11
	eor	w0, w30, w30, ror #14
	eor	w14, w17, w2, lsr #10
	add	w17, w19, w5
	add	w10, w11, w10
	add	w8, w17, w8
	bic	w11, w13, w30
	ldr	w19, [sp, #80]
	add	w5, w8, w14
	eor	w8, w30, w0, ror #5
	and	w14, w26, w30
	orr	w11, w14, w11
	add	w9, w9, w5
	eor	w17, w10, w10, ror #9
	ror	w8, w8, #6
	add	w9, w9, w11
	stp	w5, w4, [sp, #88]
	eor	w11, w10, w17, ror #11
	eor	w17, w10, w12
	add	w8, w9, w8
	eor	w9, w19, w19, ror #11
	and	w16, w17, w16
	ror	w14, w11, #2
	add	w11, w8, w15
	eor	w15, w16, w12
	ror	w9, w9, #7
	ror	w16, w18, #17
	eor	w18, w11, w11, ror #14
	add	w14, w14, w15
	eor	w9, w9, w19, lsr #3
	eor	w15, w16, w4, lsr #10
	add	w16, w23, w7
	add	w14, w14, w8
	eor	w18, w11, w18, ror #5
	add	w8, w16, w9
	and	w16, w30, w11
	eor	w0, w14, w10
	add	w7, w8, w15
	bic	w15, w26, w11
	ror	w9, w18, #6
	orr	w15, w16, w15
	eor	w18, w14, w14, ror #9
	and	w17, w0, w17
	ldp	w8, w16, [x25, #-44]
	str	w7, [sp, #84]
	add	w8, w8, w13
	eor	w13, w14, w18, ror #11
	eor	w18, w20, w20, ror #11
	add	w8, w8, w7
	add	w16, w16, w26
	add	w8, w8, w15
	eor	w15, w5, w5, ror #2
	ror	w13, w13, #2
	ror	w18, w18, #7
	add	w8, w8, w9
	eor	w9, w17, w10
	ror	w15, w15, #17
	add	w9, w13, w9
	add	w28, w8, w27
	eor	w13, w18, w20, lsr #3
	add	w17, w19, w1
	eor	w18, w28, w28, ror #14
	eor	w15, w15, w5, lsr #10
	add	w8, w9, w8
	add	w9, w17, w13
	bic	w13, w30, w28
	eor	w17, w8, w8, ror #9
	add	w19, w9, w15
	eor	w9, w28, w18, ror #5
	and	w15, w11, w28
	orr	w13, w15, w13
	add	w15, w16, w19
	eor	w16, w6, w6, ror #11
	ror	w9, w9, #6
	add	w13, w15, w13
	eor	w15, w8, w17, ror #11
	eor	w18, w7, w7, ror #2
	str	w19, [sp, #80]
	add	w13, w13, w9
	ror	w17, w15, #2
	eor	w15, w8, w14
	and	w0, w15, w0
	add	w9, w13, w12
	ror	w12, w16, #7
	eor	w16, w0, w14
	ror	w18, w18, #17
	eor	w0, w9, w9, ror #14
	eor	w12, w12, w6, lsr #3
	add	w16, w17, w16
	add	w6, w6, w21
	eor	w17, w18, w7, lsr #10
	add	w18, w20, w24
	eor	w0, w9, w0, ror #5
	add	w12, w18, w12
	add	w13, w16, w13
	and	w18, w28, w9
	add	w20, w12, w17
	ror	w12, w0, #6
	bic	w17, w11, w9
	ldp	w16, w0, [x25, #-36]
	orr	w17, w18, w17
	eor	w18, w13, w13, ror #9
	eor	w26, w13, w8
	and	w15, w26, w15
	ldr	w21, [sp, #52]
	str	w20, [sp, #76]
	add	w16, w30, w16
	eor	w15, w15, w8
	add	w16, w16, w20
	add	w16, w16, w17
	eor	w17, w22, w22, ror #11
	add	w12, w16, w12
	eor	w16, w13, w18, ror #11
	eor	w18, w19, w19, ror #2
	ror	w17, w17, #7
	add	w10, w12, w10
	ror	w18, w18, #17
	ror	w16, w16, #2
	eor	w27, w10, w10, ror #14
	eor	w17, w17, w22, lsr #3
	eor	w18, w18, w19, lsr #10
	add	w15, w16, w15
	eor	w27, w10, w27, ror #5
	add	w16, w6, w17
	and	w17, w9, w10
	add	w15, w15, w12
	add	w6, w16, w18
	bic	w16, w28, w10
	ror	w12, w27, #6
	add	w18, w6, w0
	orr	w16, w17, w16
	eor	w17, w15, w15, ror #9
	add	w11, w18, w11
	eor	w0, w20, w20, ror #2
	add	w11, w11, w16
	eor	w16, w21, w21, ror #11
	add	w11, w11, w12
	eor	w12, w15, w17, ror #11
	eor	w17, w15, w13
	ror	w16, w16, #7
	add	w30, w11, w14
	and	w18, w17, w26
	ror	w12, w12, #2
	ror	w14, w0, #17
	eor	w0, w30, w30, ror #14
	eor	w16, w16, w21, lsr #3
	eor	w18, w18, w13
	add	w12, w12, w18
	eor	w14, w14, w20, lsr #10
	eor	w18, w30, w0, ror #5
	add	w16, w16, w22
	add	w27, w12, w11
	ldr	w22, [sp, #56]
	add	w11, w2, w16
	and	w16, w10, w30
	eor	w0, w6, w6, ror #2
	add	w2, w11, w14
	ror	w11, w18, #6
	bic	w14, w9, w30
	ldp	w12, w18, [x25, #-28]
	orr	w14, w16, w14
	eor	w16, w27, w27, ror #9
	add	w12, w2, w12
	add	w12, w12, w28
	add	w12, w12, w14
	eor	w14, w22, w22, ror #11
	add	w11, w12, w11
	eor	w12, w27, w16, ror #11
	eor	w16, w27, w15
	ror	w26, w14, #7
	and	w17, w16, w17
	add	w14, w11, w8
	ror	w12, w12, #2
	ror	w8, w0, #17
	eor	w17, w17, w15
	eor	w0, w26, w22, lsr #3
	eor	w26, w14, w14, ror #14
	add	w12, w12, w17
	eor	w17, w8, w6, lsr #10
	add	w0, w0, w21
	add	w8, w12, w11
	eor	w26, w14, w26, ror #5
	add	w11, w0, w4
	bic	w12, w10, w14
	eor	w0, w3, w3, ror #11
	add	w4, w11, w17
	and	w17, w30, w14
	ror	w11, w26, #6
	add	w18, w4, w18
	orr	w12, w17, w12
	eor	w17, w8, w8, ror #9
	add	w9, w18, w9
	ror	w18, w0, #7
	ldr	w21, [sp, #60]
	add	w9, w9, w12
	eor	w12, w2, w2, ror #2
	add	w9, w9, w11
	eor	w11, w8, w17, ror #11
	eor	w17, w8, w27
	eor	w18, w18, w3, lsr #3
	and	w16, w17, w16
	ror	w0, w12, #17
	ror	w11, w11, #2
	eor	w16, w16, w27
	add	w12, w9, w13
	add	w18, w18, w22
	eor	w13, w0, w2, lsr #10
	eor	w0, w12, w12, ror #14
	add	w11, w11, w16
	add	w16, w18, w5
	ldp	w18, w26, [x25, #-20]
	add	w5, w16, w13
	eor	w13, w12, w0, ror #5
	bic	w16, w30, w12
	and	w0, w14, w12
	add	w18, w5, w18
	ror	w13, w13, #6
	orr	w16, w0, w16
	add	w18, w18, w10
	add	w10, w11, w9
	eor	w11, w21, w21, ror #11
	add	w9, w18, w16
	eor	w18, w4, w4, ror #2
	eor	w16, w10, w8
	add	w9, w9, w13
	eor	w13, w10, w10, ror #9
	ror	w0, w11, #7
	add	w11, w9, w15
	ror	w15, w18, #17
	and	w17, w16, w17
	eor	w13, w10, w13, ror #11
	eor	w18, w0, w21, lsr #3
	eor	w17, w17, w8
	eor	w15, w15, w4, lsr #10
	eor	w0, w11, w11, ror #14
	ror	w13, w13, #2
	add	w18, w18, w3
	ldr	w3, [sp, #108]
	eor	w0, w11, w0, ror #5
	add	w13, w13, w17
	add	w17, w18, w7
	add	w7, w17, w15
	bic	w15, w14, w11
	and	w17, w12, w11
	add	w18, w7, w26
	add	w9, w13, w9
	orr	w15, w17, w15
	add	w17, w18, w30
	ror	w13, w0, #6
	eor	w18, w9, w9, ror #9
	add	w15, w17, w15
	eor	w17, w23, w23, ror #11
	eor	w26, w9, w10
	add	w13, w15, w13
	eor	w15, w9, w18, ror #11
	eor	w18, w5, w5, ror #2
	ror	w17, w17, #7
	and	w16, w26, w16
	ror	w0, w15, #2
	eor	w16, w16, w10
	add	w15, w13, w27
	eor	w17, w17, w23, lsr #3
	ror	w18, w18, #17
	eor	w27, w15, w15, ror #14
	add	w16, w0, w16
	add	w17, w17, w21
	eor	w18, w18, w5, lsr #10
	add	w13, w16, w13
	add	w16, w17, w19
	eor	w0, w15, w27, ror #5
	ldp	w17, w30, [x25, #-12]
	add	w19, w16, w18
	ror	w16, w0, #6
	bic	w18, w12, w15
	and	w0, w11, w15
	add	w17, w19, w17
	orr	w18, w0, w18
	add	w14, w17, w14
	eor	w17, w13, w13, ror #9
	add	w14, w14, w18
	eor	w18, w1, w1, ror #11
	add	w14, w14, w16
	eor	w16, w13, w17, ror #11
	eor	w17, w13, w9
	and	w0, w17, w26
	eor	w26, w7, w7, ror #2
	ror	w18, w18, #7
	ror	w16, w16, #2
	add	w28, w14, w8
	eor	w0, w0, w9
	ror	w8, w26, #17
	eor	w18, w18, w1, lsr #3
	eor	w26, w28, w28, ror #14
	add	w16, w16, w0
	eor	w8, w8, w7, lsr #10
	add	w18, w23, w18
	eor	w0, w28, w26, ror #5
	add	w27, w16, w14
	add	w14, w18, w20
	bic	w16, w11, w28
	add	w23, w14, w8
	ror	w14, w0, #6
	eor	w8, w27, w27, ror #9
	and	w18, w15, w28
	add	w0, w23, w30
	orr	w16, w18, w16
	add	w12, w0, w12
	eor	w18, w27, w8, ror #11
	add	w12, w12, w16
	eor	w16, w24, w24, ror #11
	eor	w8, w27, w13
	add	w12, w12, w14
	ror	w14, w18, #2
	and	w17, w8, w17
	eor	w18, w19, w19, ror #2
	ror	w16, w16, #7
	eor	w17, w17, w13
	add	w10, w12, w10
	add	w14, w14, w17
	ror	w17, w18, #17
	eor	w16, w16, w24, lsr #3
	eor	w18, w10, w10, ror #14
	add	w30, w14, w12
	eor	w12, w17, w19, lsr #10
	add	w14, w16, w1
	eor	w16, w10, w18, ror #5
	add	w14, w14, w6
	ldur	w17, [x25, #-4]
	eor	w18, w30, w30, ror #9
	add	w1, w14, w12
	ror	w12, w16, #6
	bic	w14, w15, w10
	and	w16, w28, w10
	add	w17, w1, w17
	eor	w18, w30, w18, ror #11
	orr	w14, w16, w14
	eor	w16, w3, w3, ror #11
	add	w11, w17, w11
	eor	w17, w30, w27
	add	w11, w11, w14
	ror	w14, w18, #2
	and	w8, w17, w8
	eor	w18, w23, w23, ror #2
	ror	w16, w16, #7
	eor	w8, w8, w27
	add	w11, w11, w12
	add	w8, w14, w8
	ror	w12, w18, #17
	eor	w16, w16, w3, lsr #3
	add	w8, w8, w11
	add	w14, w11, w9
	eor	w9, w12, w23, lsr #10
	add	w11, w16, w24
	eor	w12, w14, w14, ror #14
	eor	w18, w8, w8, ror #9
	add	w11, w11, w2
	ldr	w16, [x25], #64
	add	w24, w11, w9
	eor	w9, w14, w12, ror #5
	eor	w18, w8, w18, ror #11
	bic	w11, w28, w14
	and	w12, w10, w14
	add	w16, w24, w16
	orr	w11, w12, w11
	ror	w9, w9, #6
	add	w12, w16, w15
	ror	w15, w18, #2
	and	w16, w8, w17
	bic	w17, w30, w17
	add	w11, w12, w11
	orr	w12, w16, w17
	add	w9, w11, w9
	add	w11, w15, w12
	ldr	x12, [sp, #64]
	add	w15, w11, w9
	add	w9, w9, w13
	subs	x12, x12, #1
	b.ne	.Lnoise_BB34_1
	ldp	w12, w11, [sp, #16]
	ldp	x20, x19, [sp, #176]
	ldp	x22, x21, [sp, #160]
	add	w8, w8, w12
	ldr	x12, [sp, #40]
	add	w11, w15, w11
	ldp	x24, x23, [sp, #144]
	stp	w11, w8, [x12]
	ldp	x26, x25, [sp, #128]
	ldp	w11, w8, [sp, #8]
	add	w11, w30, w11
	add	w8, w27, w8
	ldr	x30, [sp, #96]
	stp	w11, w8, [x12, #8]
	ldr	w11, [sp, #24]
	ldr	w8, [sp, #32]
	add	w9, w9, w11
	add	w8, w14, w8
	stp	w9, w8, [x12, #16]
	ldr	w8, [sp, #28]
	ldr	w9, [sp, #36]
	add	w8, w28, w8
	ldp	x28, x27, [sp, #112]
	add	w9, w10, w9
	stp	w9, w8, [x12, #24]
	add	sp, sp, #192
	ret
.Lnoise_func_end34:
	.size	"sha2::block256::compress", .Lnoise_func_end34-"sha2::block256::compress"
	.cfi_endproc

	.section	".text.noise_state::symmetric::SymmetricState::mix_key_and_hash","ax",@progbits
	.p2align	2
	.type	"noise_state::symmetric::SymmetricState::mix_key_and_hash",@function
"noise_state::symmetric::SymmetricState::mix_key_and_hash":
	.cfi_startproc
	stp	x29, x30, [sp, #-64]!
	str	x28, [sp, #16]
	mov	x29, sp
	stp	x22, x21, [sp, #32]
	stp	x20, x19, [sp, #48]
	sub	sp, sp, #640
	.cfi_def_cfa w29, 64
	.cfi_offset w19, -8
	.cfi_offset w20, -16
	.cfi_offset w21, -24
	.cfi_offset w22, -32
	.cfi_offset w28, -48
	.cfi_offset w30, -56
	.cfi_offset w29, -64
	movi	v0.2d, #0000000000000000
	mov	x19, x0
	mov	w21, #32
	stp	x1, x21, [sp, #64]
	add	x0, sp, #208
	mov	x1, x19
	stp	q0, q0, [sp, #80]
	stp	q0, q0, [x29, #-224]
	bl	"noise_kdf::keyed::Hmac::new"
	sub	x0, x29, #224
	add	x1, sp, #208
	add	x2, sp, #64
	mov	w3, #1
	mov	w20, #1
	bl	"noise_kdf::keyed::Hmac::code"
	add	x0, sp, #208
	sub	x1, x29, #224
	bl	"noise_kdf::keyed::Hmac::new"
	movi	v0.2d, #0000000000000000
	adrp	x2, .Lnoise_static.102
	add	x2, x2, :lo12:.Lnoise_static.102
	sub	x0, x29, #160
	add	x1, sp, #208
	mov	w3, #1
	stp	q0, q0, [x29, #-160]
	stp	q0, q0, [x29, #-128]
	bl	"noise_kdf::keyed::Hmac::code"
	ldp	q0, q1, [x29, #-160]
	sub	x22, x29, #96
	adrp	x8, .Lnoise_static.103
	add	x8, x8, :lo12:.Lnoise_static.103
	sub	x0, x29, #128
	add	x1, sp, #208
	sub	x2, x29, #192
	mov	w3, #2
	stp	q0, q1, [x29, #-96]
	stp	x22, x21, [x29, #-192]
	stp	x8, x20, [x29, #-176]
	bl	"noise_kdf::keyed::Hmac::code"
	ldp	q1, q0, [x29, #-96]
	adrp	x8, .Lnoise_static.101
	add	x8, x8, :lo12:.Lnoise_static.101
	ldp	q2, q3, [x29, #-128]
	add	x0, sp, #80
	add	x1, sp, #208
	sub	x2, x29, #128
	mov	w3, #2
	stp	q1, q0, [x29, #-64]
	stp	q2, q3, [x29, #-96]
	stp	q2, q3, [x29, #-32]
	stp	q1, q0, [sp, #176]
	stp	x22, x21, [x29, #-128]
	stp	x8, x20, [x29, #-112]
	bl	"noise_kdf::keyed::Hmac::code"
	ldp	q1, q0, [x29, #-96]
	mov	x0, sp
	ldp	q2, q3, [sp, #80]
	add	x1, x19, #32
	add	x2, sp, #32
	mov	w3, #32
	stp	q1, q0, [sp, #32]
	stp	q2, q3, [sp, #112]
	stp	q1, q0, [sp, #144]
	ldp	q2, q0, [sp, #176]
	stp	q2, q0, [x19]
	bl	"noise_state::symmetric::hash_of_both"
	ldp	q0, q1, [sp]
	strb	w20, [x19, #64]
	str	xzr, [x19, #104]
	stp	q0, q1, [x19, #32]
	ldp	q2, q0, [sp, #112]
	stur	q2, [x19, #65]
	stur	q0, [x19, #81]
	add	sp, sp, #640
	ldp	x20, x19, [sp, #48]
	ldr	x28, [sp, #16]
	ldp	x22, x21, [sp, #32]
	ldp	x29, x30, [sp], #64
	ret
.Lnoise_func_end35:
	.size	"noise_state::symmetric::SymmetricState::mix_key_and_hash", .Lnoise_func_end35-"noise_state::symmetric::SymmetricState::mix_key_and_hash"
	.cfi_endproc

	.section	.rodata.cst16,"aM",@progbits,16
	.p2align	4, 0x0
.Lnoise_CPI36_0:
	.word	1779033703
	.word	3144134277
	.word	1013904242
	.word	2773480762
.Lnoise_CPI36_1:
	.word	1359893119
	.word	2600822924
	.word	528734635
	.word	1541459225
	.section	".text.noise_kdf::keyed::Hmac::new","ax",@progbits
	.p2align	2
	.type	"noise_kdf::keyed::Hmac::new",@function
"noise_kdf::keyed::Hmac::new":
	.cfi_startproc
	stp	x29, x30, [sp, #-48]!
	str	x28, [sp, #16]
	mov	x29, sp
	stp	x20, x19, [sp, #32]
	sub	sp, sp, #560
	.cfi_def_cfa w29, 48
	.cfi_offset w19, -8
	.cfi_offset w20, -16
	.cfi_offset w28, -32
	.cfi_offset w30, -40
	.cfi_offset w29, -48
	adrp	x8, .Lnoise_CPI36_0
	adrp	x9, .Lnoise_CPI36_1
	movi	v0.16b, #54
	ldr	q1, [x8, :lo12:.Lnoise_CPI36_0]
	ldr	q2, [x9, :lo12:.Lnoise_CPI36_1]
	movi	v3.2d, #0000000000000000
	mov	x19, x0
	add	x0, sp, #272
	mov	w2, #64
	str	q1, [sp, #48]
	add	x20, sp, #64
	stp	q1, q2, [sp, #272]
	ldp	q1, q4, [x1]
	sub	x1, x29, #64
	str	xzr, [sp, #368]
	stp	q3, q3, [sp, #304]
	str	q1, [sp]
	eor	v1.16b, v1.16b, v0.16b
	stp	q4, q2, [sp, #16]
	eor	v2.16b, v4.16b, v0.16b
	stp	q3, q3, [sp, #336]
	stp	q0, q0, [x29, #-32]
	stp	q1, q2, [x29, #-64]
	bl	"sha2::block256::Core256::update"
	ldr	q1, [sp, #48]
	movi	v2.2d, #0000000000000000
	movi	v0.16b, #92
	sub	x0, x29, #176
	sub	x1, x29, #64
	mov	w2, #64
	stur	q1, [x29, #-176]
	ldr	q1, [sp, #32]
	stur	xzr, [x29, #-80]
	stp	q1, q2, [x29, #-160]
	stp	q2, q2, [x29, #-128]
	stur	q2, [x29, #-96]
	ldp	q1, q2, [sp]
	eor	v1.16b, v1.16b, v0.16b
	stp	q0, q0, [x29, #-32]
	eor	v2.16b, v2.16b, v0.16b
	stp	q1, q2, [x29, #-64]
	bl	"sha2::block256::Core256::update"
	ldp	q0, q1, [sp, #336]
	ldr	x8, [sp, #368]
	str	x8, [sp, #160]
	ldur	x8, [x29, #-80]
	stp	q0, q1, [sp, #128]
	ldp	q0, q1, [sp, #272]
	str	x8, [sp, #264]
	stp	q0, q1, [sp, #64]
	ldp	q0, q2, [sp, #304]
	stp	q0, q2, [sp, #96]
	ldp	q0, q1, [x29, #-160]
	ldur	q2, [x29, #-176]
	stur	q1, [x20, #136]
	ldp	q3, q1, [x29, #-128]
	stur	q0, [sp, #184]
	ldur	q0, [x29, #-96]
	stur	q2, [sp, #168]
	stur	q0, [x20, #184]
	stur	q1, [x20, #168]
	ldp	q2, q1, [sp, #96]
	stur	q3, [x20, #152]
	ldp	q0, q3, [sp, #64]
	stp	q2, q1, [x19, #32]
	stp	q0, q3, [x19]
	ldp	q1, q0, [sp, #160]
	stp	q1, q0, [x19, #96]
	ldp	q0, q2, [sp, #128]
	stp	q0, q2, [x19, #64]
	ldp	q0, q1, [sp, #240]
	stp	q0, q1, [x19, #176]
	ldp	q1, q2, [sp, #208]
	ldr	q0, [sp, #192]
	stp	q1, q2, [x19, #144]
	str	q0, [x19, #128]
	add	sp, sp, #560
	ldp	x20, x19, [sp, #32]
	ldr	x28, [sp, #16]
	ldp	x29, x30, [sp], #48
	ret
.Lnoise_func_end36:
	.size	"noise_kdf::keyed::Hmac::new", .Lnoise_func_end36-"noise_kdf::keyed::Hmac::new"
	.cfi_endproc

	.section	".text.noise_kdf::keyed::Hmac::code","ax",@progbits
	.p2align	2
	.type	"noise_kdf::keyed::Hmac::code",@function
"noise_kdf::keyed::Hmac::code":
	.cfi_startproc
	stp	x29, x30, [sp, #-96]!
	str	x28, [sp, #16]
	mov	x29, sp
	stp	x26, x25, [sp, #32]
	stp	x24, x23, [sp, #48]
	stp	x22, x21, [sp, #64]
	stp	x20, x19, [sp, #80]
	sub	sp, sp, #528
	.cfi_def_cfa w29, 96
	.cfi_offset w19, -8
	.cfi_offset w20, -16
	.cfi_offset w21, -24
	.cfi_offset w22, -32
	.cfi_offset w23, -40
	.cfi_offset w24, -48
	.cfi_offset w25, -56
	.cfi_offset w26, -64
	.cfi_offset w28, -80
	.cfi_offset w30, -88
	.cfi_offset w29, -96
	ldp	q0, q2, [x1, #16]
	add	x25, sp, #104
	ldur	q1, [x1, #1]
	ldrb	w8, [x1]
	mov	x21, x2
	mov	x20, x1
	mov	x19, x0
	add	x0, sp, #104
	stur	q0, [x25, #119]
	mov	x22, x3
	sub	x23, x29, #224
	str	q1, [sp, #208]
	ldp	q1, q0, [x1, #64]
	stur	q2, [x25, #135]
	ldr	q2, [x1, #48]
	orr	x24, x25, #0x1
	strb	w8, [sp, #104]
	ldr	x8, [x1, #96]
	stur	q1, [x25, #167]
	ldp	x1, x2, [x2]
	stur	q2, [x25, #151]
	ldp	q2, q1, [sp, #208]
	stur	q0, [x25, #183]
	str	q0, [x25, #80]
	ldr	q0, [sp, #240]
	stur	q1, [sp, #121]
	stur	q2, [sp, #105]
	ldp	q2, q1, [sp, #256]
	str	x8, [sp, #200]
	stur	q0, [x25, #33]
	stur	q1, [x25, #65]
	stur	q2, [x25, #49]
	bl	"sha2::block256::Core256::update"
	cmp	x22, #1
	b.eq	.Lnoise_BB37_2
	ldp	x1, x2, [x21, #16]
	add	x0, sp, #104
	bl	"sha2::block256::Core256::update"
.Lnoise_BB37_2:
	ldur	q0, [x20, #120]
	ldur	q1, [x20, #105]
	mov	w21, #55
	ldur	q2, [x20, #136]
	ldrb	w8, [x20, #104]
	sub	x0, x29, #112
	stur	q0, [x25, #215]
	ldur	q0, [x20, #184]
	ldr	x22, [sp, #200]
	stur	q1, [x29, #-224]
	ldur	q1, [x20, #168]
	ldrb	w9, [sp, #104]
	lsl	x26, x22, #3
	stur	q2, [x25, #231]
	lsr	x25, x22, #21
	ldur	q2, [x20, #152]
	stur	q1, [x23, #63]
	stur	q0, [x23, #79]
	stur	q2, [x23, #47]
	ldp	q2, q1, [x29, #-224]
	str	q0, [sp, #80]
	strb	w8, [sp]
	ldr	x8, [x20, #200]
	adrp	x20, .Lnoise_static.100
	add	x20, x20, :lo12:.Lnoise_static.100
	stur	q1, [sp, #17]
	ldp	q0, q1, [x29, #-176]
	str	x8, [sp, #96]
	sub	w8, w21, w22
	stur	q2, [sp, #1]
	ldur	q2, [x29, #-192]
	and	x8, x8, #0x3f
	mov	x1, x20
	sturb	w9, [x29, #-112]
	stur	q1, [sp, #65]
	add	x2, x8, #1
	stur	q0, [sp, #49]
	ldp	q0, q1, [x24, #32]
	stur	q2, [sp, #33]
	stur	x22, [x29, #-16]
	stur	q0, [x23, #145]
	ldr	q0, [x24, #64]
	stur	q1, [x23, #161]
	ldur	q1, [x24, #79]
	stur	q0, [x23, #177]
	stur	q1, [x29, #-32]
	ldp	q0, q1, [x24]
	lsr	x24, x22, #13
	stur	q0, [x23, #113]
	stur	q1, [x23, #129]
	bl	"sha2::block256::Core256::update"
	lsl	x8, x22, #43
	lsr	x9, x22, #5
	lsr	x10, x22, #37
	and	x11, x25, #0xff0000
	sub	x0, x29, #112
	sub	x1, x29, #120
	and	x8, x8, #0xff000000000000
	and	x9, x9, #0xff000000
	and	x10, x10, #0xff00
	orr	x8, x8, x22, lsl #59
	orr	x9, x9, x11
	mov	w2, #8
	orr	x9, x9, x10
	bfi	x8, x24, #40, #8
	bfi	x8, x25, #32, #8
	orr	x8, x8, x9
	orr	x8, x8, x26, lsr #56
	stur	x8, [x29, #-120]
	bl	"sha2::block256::Core256::update"
	ldp	q0, q1, [x29, #-112]
	mov	x0, sp
	sub	x1, x29, #112
	mov	w2, #32
	rev32	v0.16b, v0.16b
	rev32	v1.16b, v1.16b
	stp	q0, q1, [x29, #-112]
	bl	"sha2::block256::Core256::update"
	ldur	q0, [sp, #33]
	ldrb	w8, [sp]
	sub	x0, x29, #112
	ldr	x22, [sp, #96]
	ldur	q1, [sp, #49]
	mov	x1, x20
	stur	q0, [x23, #145]
	ldur	q0, [sp, #65]
	sturb	w8, [x29, #-112]
	sub	w8, w21, w22
	lsr	x24, x22, #21
	stur	q0, [x23, #177]
	ldur	q0, [sp, #1]
	and	x8, x8, #0x3f
	stur	q1, [x23, #161]
	ldr	q1, [sp, #80]
	add	x2, x8, #1
	stur	q0, [x23, #113]
	ldur	q0, [sp, #17]
	lsr	x25, x22, #13
	stur	q1, [x29, #-32]
	lsl	x26, x22, #3
	stur	q0, [x23, #129]
	stur	x22, [x29, #-16]
	bl	"sha2::block256::Core256::update"
	lsl	x8, x22, #43
	lsr	x9, x22, #5
	lsr	x10, x22, #37
	and	x11, x24, #0xff0000
	sub	x0, x29, #112
	sub	x1, x29, #120
	and	x8, x8, #0xff000000000000
	and	x9, x9, #0xff000000
	and	x10, x10, #0xff00
	orr	x8, x8, x22, lsl #59
	orr	x9, x9, x11
	mov	w2, #8
	orr	x9, x9, x10
	bfi	x8, x25, #40, #8
	bfi	x8, x24, #32, #8
	orr	x8, x8, x9
	orr	x8, x8, x26, lsr #56
	stur	x8, [x29, #-120]
	bl	"sha2::block256::Core256::update"
	ldp	q0, q1, [x29, #-112]
	rev32	v0.16b, v0.16b
	rev32	v1.16b, v1.16b
	stp	q0, q1, [x19]
	add	sp, sp, #528
	ldp	x20, x19, [sp, #80]
	ldr	x28, [sp, #16]
	ldp	x22, x21, [sp, #64]
	ldp	x24, x23, [sp, #48]
	ldp	x26, x25, [sp, #32]
	ldp	x29, x30, [sp], #96
	ret
.Lnoise_func_end37:
	.size	"noise_kdf::keyed::Hmac::code", .Lnoise_func_end37-"noise_kdf::keyed::Hmac::code"
	.cfi_endproc

	.section	.rodata.cst16,"aM",@progbits,16
	.p2align	4, 0x0
.Lnoise_CPI38_0:
	.byte	1
	.byte	2
	.byte	4
	.byte	8
	.byte	16
	.byte	32
	.byte	64
	.byte	128
	.byte	1
	.byte	2
	.byte	4
	.byte	8
	.byte	16
	.byte	32
	.byte	64
	.byte	128
	.section	".text.noise_c::supplied_keys::result_for","ax",@progbits
	.p2align	2
	.type	"noise_c::supplied_keys::result_for",@function
"noise_c::supplied_keys::result_for":
	.cfi_startproc
	sub	sp, sp, #80
	stp	x29, x30, [sp, #48]
	str	x19, [sp, #64]
	add	x29, sp, #48
	.cfi_def_cfa w29, 32
	.cfi_offset w19, -16
	.cfi_offset w30, -24
	.cfi_offset w29, -32
	movi	v0.2d, #0000000000000000
	mov	x19, x0
	strb	wzr, [sp, #32]
	stp	q0, q0, [sp]
	cbz	x2, .Lnoise_BB38_5
	mov	x8, x1
	ldrb	w9, [x8], #65
	cmp	w9, #0
	cset	w9, ne
	cmp	w9, w3, uxtb
	b.ne	.Lnoise_BB38_3
	ldp	q2, q3, [x4]
	adrp	x9, .Lnoise_CPI38_0
	ldur	q0, [x1, #1]
	ldur	q1, [x1, #17]
	cmeq	v1.16b, v1.16b, v3.16b
	cmeq	v0.16b, v0.16b, v2.16b
	ldr	q2, [x9, :lo12:.Lnoise_CPI38_0]
	bic	v1.16b, v2.16b, v1.16b
	bic	v0.16b, v2.16b, v0.16b
	ext	v2.16b, v1.16b, v1.16b, #8
	ext	v3.16b, v0.16b, v0.16b, #8
	zip1	v1.16b, v1.16b, v2.16b
	zip1	v0.16b, v0.16b, v3.16b
	addv	h1, v1.8h
	addv	h0, v0.8h
	fmov	w9, s1
	fmov	w10, s0
	orr	w9, w10, w9
	tst	w9, #0xffff
	b.eq	.Lnoise_BB38_6
.Lnoise_BB38_3:
	sub	x2, x2, #1
	mov	x0, sp
	mov	x1, x8
	bl	"noise_c::supplied_keys::result_for"
	ldrb	w8, [sp]
.Lnoise_BB38_4:
	ldur	q0, [sp, #1]
	ldur	q1, [sp, #17]
	strb	w8, [x19]
	stur	q0, [x19, #1]
	stur	q1, [x19, #17]
	ldp	x29, x30, [sp, #48]
	ldr	x19, [sp, #64]
	add	sp, sp, #80
	ret
.Lnoise_BB38_5:
	strb	wzr, [x19, #32]
	stp	q0, q0, [x19]
	ldp	x29, x30, [sp, #48]
	ldr	x19, [sp, #64]
	add	sp, sp, #80
	ret
.Lnoise_BB38_6:
	ldur	q0, [x1, #33]
	ldur	q1, [x1, #49]
	mov	w8, #1
	stur	q0, [sp, #1]
	stur	q1, [sp, #17]
	b	.Lnoise_BB38_4
.Lnoise_func_end38:
	.size	"noise_c::supplied_keys::result_for", .Lnoise_func_end38-"noise_c::supplied_keys::result_for"
	.cfi_endproc

	.section	".text.noise_handshake::handshake::Handshake::go_on::<#9bbb2dae5a99aff0>","ax",@progbits
	.p2align	2
	.type	"noise_handshake::handshake::Handshake::go_on::<#9bbb2dae5a99aff0>",@function
"noise_handshake::handshake::Handshake::go_on::<#9bbb2dae5a99aff0>":
	.cfi_startproc
	sub	sp, sp, #368
	str	x30, [sp, #352]
	.cfi_def_cfa_offset 368
	.cfi_offset w30, -16
	ldur	q1, [x2, #1]
	ldur	q2, [x2, #17]
	add	x8, sp, #112
	ldur	q3, [x2, #34]
	movi	v0.2d, #0000000000000000
	ldr	x9, [x0, #680]
	stp	q1, q2, [x8, #96]
	ldur	q1, [x2, #50]
	ldrb	w10, [x0, #746]
	ldrb	w12, [x0, #688]
	ldrb	w11, [x1, #64]
	ldr	x15, [x0, #264]
	add	x13, x9, x10
	stp	q3, q1, [x8, #64]
	ldrb	w10, [x2]
	add	w12, w12, #1
	cmp	w11, #1
	ldrb	w9, [x2, #33]
	ldp	q2, q1, [x1, #32]
	ldrb	w16, [x0, #305]
	stp	q0, q0, [sp, #16]
	str	wzr, [sp, #8]
	stp	q2, q1, [x8, #32]
	ldp	q3, q1, [x1]
	ldur	q2, [x1, #65]
	strb	wzr, [sp, #12]
	stp	q0, q0, [x8, #144]
	stp	q0, q2, [sp, #48]
	ldr	q2, [x1, #96]
	stp	q3, q1, [sp, #112]
	ldur	q1, [x1, #81]
	str	x13, [x0, #680]
	and	x13, x12, #0xff
	strb	w12, [x0, #688]
	mov	w12, #24
	umaddl	x14, w13, w12, x0
	cset	w12, eq
	cmp	x15, x13
	str	q1, [sp, #80]
	stur	q2, [sp, #95]
	add	x17, x14, #72
	str	q0, [x8, #176]
	csel	x13, x17, xzr, hi
	str	wzr, [sp, #248]
	strb	wzr, [sp, #252]
	b.ls	.Lnoise_BB39_8
	ldr	x15, [x17, #16]
	stp	q0, q0, [x8, #208]
	str	q0, [x8, #192]
	cbz	x15, .Lnoise_BB39_9
	mov	x18, xzr
	mov	w14, wzr
	b	.Lnoise_BB39_4
.Lnoise_BB39_3:
	orr	w12, w2, w14, lsl #16
	add	x2, sp, #304
	add	x3, x18, #1
	str	w12, [x2, x18, lsl #2]
	mov	w12, #1
	str	x3, [sp, #344]
	add	x18, x18, #1
	add	w14, w14, wzr
	cmp	x15, x18
	b.eq	.Lnoise_BB39_10
.Lnoise_BB39_4:
	ldrb	w2, [x17, x18]
	sub	w1, w2, #2
	cmp	w1, #5
	b.lo	.Lnoise_BB39_3
	cmp	w2, #1
	b.ne	.Lnoise_BB39_7
	tst	w12, #0x1
	mov	w1, #8192
	mov	w2, #12288
	csel	w1, w2, w1, ne
	mov	w2, #32
	mov	w3, #48
	orr	w1, w1, w14, lsl #16
	add	x4, sp, #304
	add	x5, x18, #1
	orr	w1, w1, #0x1
	str	w1, [x4, x18, lsl #2]
	csel	w1, w3, w2, ne
	str	x5, [sp, #344]
	add	x18, x18, #1
	add	w14, w14, w1
	cmp	x15, x18
	b.ne	.Lnoise_BB39_4
	b	.Lnoise_BB39_10
.Lnoise_BB39_7:
	mov	w1, #8192
	add	x2, sp, #304
	add	x3, x18, #1
	orr	w1, w1, w14, lsl #16
	orr	w12, w12, w16
	str	w1, [x2, x18, lsl #2]
	mov	w1, #32
	str	x3, [sp, #344]
	add	x18, x18, #1
	add	w14, w14, w1
	cmp	x15, x18
	b.ne	.Lnoise_BB39_4
	b	.Lnoise_BB39_10
.Lnoise_BB39_8:
	mov	w12, wzr
	mov	w16, wzr
	b	.Lnoise_BB39_15
.Lnoise_BB39_9:
	mov	w14, wzr
.Lnoise_BB39_10:
	mov	x16, xzr
.Lnoise_BB39_11:
	cbz	x15, .Lnoise_BB39_14
	ldrb	w17, [x13], #1
	sub	x15, x15, #1
	cmp	w17, #6
	b.ne	.Lnoise_BB39_11
	add	x16, x16, #1
	b	.Lnoise_BB39_11
.Lnoise_BB39_14:
	ldp	q0, q1, [x8, #192]
	tst	w12, #0x1
	mov	w12, #16
	ldr	q2, [x8, #224]
	str	wzr, [sp, #248]
	csel	w12, w12, wzr, ne
	strb	wzr, [sp, #252]
	add	w12, w14, w12
	stp	q0, q1, [x8, #144]
	str	q2, [x8, #176]
.Lnoise_BB39_15:
	ldp	q0, q1, [x8, #144]
	add	x15, x0, #696
	ldr	q2, [x8, #176]
	strb	w11, [x0, #816]
	add	x11, x0, #817
	strb	w10, [x0, #312]
	add	x10, x0, #313
	ldr	w13, [sp, #248]
	stp	q0, q1, [sp, #16]
	ldrb	w14, [sp, #252]
	ldr	x30, [sp, #352]
	stp	q0, q1, [x15]
	ldp	q1, q0, [x8, #32]
	str	q2, [sp, #48]
	str	q2, [x15, #32]
	stp	q1, q0, [x0, #784]
	ldp	q0, q2, [sp, #112]
	strh	w12, [x0, #744]
	add	x12, x0, #747
	str	w13, [sp, #8]
	stp	q0, q2, [x0, #752]
	ldp	q2, q1, [sp, #64]
	ldur	q0, [sp, #95]
	strb	w14, [sp, #12]
	strb	w16, [x0, #746]
	str	q0, [x0, #848]
	stp	q2, q1, [x11]
	ldp	q1, q0, [x8, #96]
	str	w13, [x12]
	strb	w14, [x0, #751]
	stp	q1, q0, [x10]
	ldp	q1, q0, [x8, #64]
	add	x8, x0, #346
	strb	w9, [x0, #345]
	stp	q1, q0, [x8]
	add	sp, sp, #368
	ret
.Lnoise_func_end39:
	.size	"noise_handshake::handshake::Handshake::go_on::<#9bbb2dae5a99aff0>", .Lnoise_func_end39-"noise_handshake::handshake::Handshake::go_on::<#9bbb2dae5a99aff0>"
	.cfi_endproc

	.section	".text.noise_handshake::setup::mix_premessage","ax",@progbits
	.p2align	2
	.type	"noise_handshake::setup::mix_premessage",@function
"noise_handshake::setup::mix_premessage":
	.cfi_startproc
	sub	sp, sp, #160
	stp	x29, x30, [sp, #96]
	str	x23, [sp, #112]
	stp	x22, x21, [sp, #128]
	stp	x20, x19, [sp, #144]
	add	x29, sp, #96
	.cfi_def_cfa w29, 64
	.cfi_offset w19, -8
	.cfi_offset w20, -16
	.cfi_offset w21, -24
	.cfi_offset w22, -32
	.cfi_offset w23, -48
	.cfi_offset w30, -56
	.cfi_offset w29, -64
	movi	v0.2d, #0000000000000000
	stp	q0, q0, [sp, #32]
	cbz	x4, .Lnoise_BB40_3
	ldrb	w8, [x3], #1
	sub	w9, w8, #2
	cmp	w9, #5
	b.hs	.Lnoise_BB40_4
.Lnoise_BB40_2:
	sub	x4, x4, #1
	bl	"noise_handshake::setup::mix_premessage"
.Lnoise_BB40_3:
	ldp	x20, x19, [sp, #144]
	ldr	x23, [sp, #112]
	ldp	x22, x21, [sp, #128]
	ldp	x29, x30, [sp, #96]
	add	sp, sp, #160
	ret
.Lnoise_BB40_4:
	cbnz	w8, .Lnoise_BB40_7
	ldrb	w8, [x2]
	cmp	w8, #1
	b.ne	.Lnoise_BB40_9
	ldur	q0, [x2, #1]
	ldur	q1, [x2, #17]
	mov	x23, x2
	add	x2, sp, #32
	mov	x21, x4
	mov	x22, x3
	stp	q0, q1, [sp, #32]
	mov	x19, x0
	mov	w20, w1
	bl	"noise_handshake::tokens::mix_ephemeral"
	mov	x0, x19
	mov	w1, w20
	mov	x2, x23
	mov	x3, x22
	mov	x4, x21
	b	.Lnoise_BB40_2
.Lnoise_BB40_7:
	ldrb	w8, [x2, #33]
	cmp	w8, #1
	b.ne	.Lnoise_BB40_9
	ldur	q0, [x2, #34]
	ldur	q1, [x2, #50]
	mov	x21, x0
	mov	x20, x3
	sub	x0, x29, #32
	mov	w22, w1
	add	x1, x21, #32
	mov	x23, x2
	mov	x2, sp
	mov	w3, #32
	mov	x19, x4
	stp	q0, q1, [sp]
	bl	"noise_state::symmetric::hash_of_both"
	ldp	q0, q1, [x29, #-32]
	mov	x0, x21
	mov	w1, w22
	mov	x2, x23
	mov	x3, x20
	mov	x4, x19
	stp	q0, q1, [x21, #32]
	b	.Lnoise_BB40_2
.Lnoise_BB40_9:
	brk	#0x1
.Lnoise_func_end40:
	.size	"noise_handshake::setup::mix_premessage", .Lnoise_func_end40-"noise_handshake::setup::mix_premessage"
	.cfi_endproc

	.section	".text.noise_names::valid::ValidPattern::overhead","ax",@progbits
	.p2align	2
	.type	"noise_names::valid::ValidPattern::overhead",@function
"noise_names::valid::ValidPattern::overhead":
	.cfi_startproc
	sub	sp, sp, #64
	stp	x29, x30, [sp, #32]
	stp	x20, x19, [sp, #48]
	add	x29, sp, #32
	.cfi_def_cfa w29, 32
	.cfi_offset w19, -8
	.cfi_offset w20, -16
	.cfi_offset w30, -24
	.cfi_offset w29, -32
	and	x8, x1, #0xff
	mov	x20, x0
	mov	x0, sp
	sub	x19, x8, #1
	mov	x1, x20
	strh	wzr, [sp, #8]
	mov	x2, x19
	str	xzr, [sp]
	bl	"noise_names::valid::ValidPattern::seen_after"
	ldr	x8, [sp]
	ldrb	w10, [sp, #8]
	ldr	x9, [x20, #264]
	ldrb	w2, [sp, #9]
	str	x8, [sp, #16]
	add	x8, x20, #72
	strb	w10, [sp, #24]
	cbz	x9, .Lnoise_BB41_7
	mov	x10, xzr
	mov	x11, x8
	b	.Lnoise_BB41_3
.Lnoise_BB41_2:
	add	x10, x10, #1
	add	x11, x11, #24
	cmp	x10, x9
	b.eq	.Lnoise_BB41_7
.Lnoise_BB41_3:
	mov	w12, #24
	mov	x13, x11
	madd	x12, x10, x12, x8
	ldr	x12, [x12, #16]
	cbz	x12, .Lnoise_BB41_2
.Lnoise_BB41_4:
	ldrb	w14, [x13], #1
	cmp	w14, #6
	b.eq	.Lnoise_BB41_6
	subs	x12, x12, #1
	b.ne	.Lnoise_BB41_4
	b	.Lnoise_BB41_2
.Lnoise_BB41_6:
	mov	w20, #1
	b	.Lnoise_BB41_8
.Lnoise_BB41_7:
	mov	w20, wzr
.Lnoise_BB41_8:
	mov	w9, #24
	add	x0, sp, #16
	mov	w1, w20
	smaddl	x3, w19, w9, x8
	ldr	x4, [x3, #16]
	bl	"noise_names::seen::Seen::tokens_len"
	ldr	s0, [sp, #20]
	ushll	v0.8h, v0.8b, #0
	shl	v0.4h, v0.4h, #15
	cmlt	v0.4h, v0.4h, #0
	umaxv	h0, v0.4h
	fmov	w8, s0
	tbz	w8, #0, .Lnoise_BB41_10
.Lnoise_BB41_9:
	mov	w8, #16
	ldp	x20, x19, [sp, #48]
	add	w0, w8, w0
	ldp	x29, x30, [sp, #32]
	add	sp, sp, #64
	ret
.Lnoise_BB41_10:
	ldrb	w8, [sp, #24]
	cbz	w20, .Lnoise_BB41_15
	tbnz	w8, #0, .Lnoise_BB41_15
	ldrb	w8, [sp, #16]
	tbnz	w8, #0, .Lnoise_BB41_9
	ldrb	w8, [sp, #18]
	tbnz	w8, #0, .Lnoise_BB41_9
	ldp	x20, x19, [sp, #48]
	add	w0, wzr, w0
	ldp	x29, x30, [sp, #32]
	add	sp, sp, #64
	ret
.Lnoise_BB41_15:
	orr	w8, w20, w8
	tbnz	w8, #0, .Lnoise_BB41_9
	ldp	x20, x19, [sp, #48]
	add	w0, wzr, w0
	ldp	x29, x30, [sp, #32]
	add	sp, sp, #64
	ret
.Lnoise_func_end41:
	.size	"noise_names::valid::ValidPattern::overhead", .Lnoise_func_end41-"noise_names::valid::ValidPattern::overhead"
	.cfi_endproc

	.section	".text.noise_names::seen::Seen::tokens_len","ax",@progbits
	.p2align	2
	.type	"noise_names::seen::Seen::tokens_len",@function
"noise_names::seen::Seen::tokens_len":
	.cfi_startproc
	cbz	x4, .Lnoise_BB42_27
	tbz	w1, #0, .Lnoise_BB42_29
	tst	w2, #0xff
	b.eq	.Lnoise_BB42_54
	mov	w8, wzr
	b	.Lnoise_BB42_6
.Lnoise_BB42_4:
	mov	w9, #1
	add	w8, w8, #32
	strb	w9, [x0, #2]
.Lnoise_BB42_5:
	subs	x4, x4, #1
	b.eq	.Lnoise_BB42_28
.Lnoise_BB42_6:
	ldrb	w9, [x3], #1
	cmp	w9, #2
	b.le	.Lnoise_BB42_10
	cmp	w9, #4
	b.gt	.Lnoise_BB42_21
	cmp	w9, #3
	b.ne	.Lnoise_BB42_24
	mov	w9, #1
	strb	w9, [x0, #5]
	b	.Lnoise_BB42_5
.Lnoise_BB42_10:
	cbz	w9, .Lnoise_BB42_4
	cmp	w9, #1
	b.ne	.Lnoise_BB42_23
	ldrb	w9, [x0, #4]
	tbnz	w9, #0, .Lnoise_BB42_19
	ldrb	w9, [x0, #5]
	tbnz	w9, #0, .Lnoise_BB42_19
	ldrb	w9, [x0, #6]
	tbnz	w9, #0, .Lnoise_BB42_19
	ldrb	w9, [x0, #7]
	tbnz	w9, #0, .Lnoise_BB42_19
	ldrb	w9, [x0, #8]
	tbnz	w9, #0, .Lnoise_BB42_19
	ldrb	w9, [x0]
	tbnz	w9, #0, .Lnoise_BB42_19
	ldrb	w9, [x0, #2]
	cmp	w9, #1
	b.ne	.Lnoise_BB42_26
.Lnoise_BB42_19:
	mov	w9, #48
.Lnoise_BB42_20:
	mov	w10, #1
	add	w8, w9, w8
	strb	w10, [x0, #3]
	b	.Lnoise_BB42_5
.Lnoise_BB42_21:
	cmp	w9, #5
	b.ne	.Lnoise_BB42_25
	mov	w9, #1
	strb	w9, [x0, #7]
	b	.Lnoise_BB42_5
.Lnoise_BB42_23:
	mov	w9, #1
	strb	w9, [x0, #4]
	b	.Lnoise_BB42_5
.Lnoise_BB42_24:
	mov	w9, #1
	strb	w9, [x0, #6]
	b	.Lnoise_BB42_5
.Lnoise_BB42_25:
	mov	w9, #1
	strb	w9, [x0, #8]
	b	.Lnoise_BB42_5
.Lnoise_BB42_26:
	mov	w9, #32
	b	.Lnoise_BB42_20
.Lnoise_BB42_27:
	mov	w8, wzr
.Lnoise_BB42_28:
	mov	w0, w8
	ret
.Lnoise_BB42_29:
	mov	w8, wzr
	b	.Lnoise_BB42_32
.Lnoise_BB42_30:
	mov	w9, #1
	strb	w9, [x0, #4]
.Lnoise_BB42_31:
	subs	x4, x4, #1
	b.eq	.Lnoise_BB42_28
.Lnoise_BB42_32:
	ldrb	w9, [x3], #1
	cmp	w9, #2
	b.le	.Lnoise_BB42_36
	cmp	w9, #4
	b.gt	.Lnoise_BB42_45
	cmp	w9, #3
	b.ne	.Lnoise_BB42_49
	mov	w9, #1
	strb	w9, [x0, #5]
	b	.Lnoise_BB42_31
.Lnoise_BB42_36:
	cbz	w9, .Lnoise_BB42_47
	cmp	w9, #1
	b.ne	.Lnoise_BB42_30
	ldrb	w9, [x0, #4]
	tbnz	w9, #0, .Lnoise_BB42_43
	ldrb	w9, [x0, #5]
	tbnz	w9, #0, .Lnoise_BB42_43
	ldrb	w9, [x0, #6]
	tbnz	w9, #0, .Lnoise_BB42_43
	ldrb	w9, [x0, #7]
	tbnz	w9, #0, .Lnoise_BB42_43
	ldrb	w9, [x0, #8]
	cmp	w9, #1
	b.ne	.Lnoise_BB42_52
.Lnoise_BB42_43:
	mov	w9, #48
	tst	w2, #0xff
	add	w8, w9, w8
	mov	w9, #1
	b.eq	.Lnoise_BB42_53
.Lnoise_BB42_44:
	strb	w9, [x0, #3]
	b	.Lnoise_BB42_31
.Lnoise_BB42_45:
	cmp	w9, #5
	b.ne	.Lnoise_BB42_50
	mov	w9, #1
	strb	w9, [x0, #7]
	b	.Lnoise_BB42_31
.Lnoise_BB42_47:
	tst	w2, #0xff
	add	w8, w8, #32
	mov	w9, #1
	b.eq	.Lnoise_BB42_51
	strb	w9, [x0, #2]
	b	.Lnoise_BB42_31
.Lnoise_BB42_49:
	mov	w9, #1
	strb	w9, [x0, #6]
	b	.Lnoise_BB42_31
.Lnoise_BB42_50:
	mov	w9, #1
	strb	w9, [x0, #8]
	b	.Lnoise_BB42_31
.Lnoise_BB42_51:
	strb	w9, [x0]
	b	.Lnoise_BB42_31
.Lnoise_BB42_52:
	mov	w9, #32
	tst	w2, #0xff
	add	w8, w9, w8
	mov	w9, #1
	b.ne	.Lnoise_BB42_44
.Lnoise_BB42_53:
	strb	w9, [x0, #1]
	b	.Lnoise_BB42_31
.Lnoise_BB42_54:
	mov	w8, wzr
	b	.Lnoise_BB42_57
.Lnoise_BB42_55:
	mov	w9, #1
	add	w8, w8, #32
	strb	w9, [x0]
.Lnoise_BB42_56:
	subs	x4, x4, #1
	b.eq	.Lnoise_BB42_28
.Lnoise_BB42_57:
	ldrb	w9, [x3], #1
	cmp	w9, #2
	b.le	.Lnoise_BB42_61
	cmp	w9, #4
	b.gt	.Lnoise_BB42_72
	cmp	w9, #3
	b.ne	.Lnoise_BB42_75
	mov	w9, #1
	strb	w9, [x0, #5]
	b	.Lnoise_BB42_56
.Lnoise_BB42_61:
	cbz	w9, .Lnoise_BB42_55
	cmp	w9, #1
	b.ne	.Lnoise_BB42_74
	ldrb	w9, [x0, #4]
	tbnz	w9, #0, .Lnoise_BB42_70
	ldrb	w9, [x0, #5]
	tbnz	w9, #0, .Lnoise_BB42_70
	ldrb	w9, [x0, #6]
	tbnz	w9, #0, .Lnoise_BB42_70
	ldrb	w9, [x0, #7]
	tbnz	w9, #0, .Lnoise_BB42_70
	ldrb	w9, [x0, #8]
	tbnz	w9, #0, .Lnoise_BB42_70
	ldrb	w9, [x0]
	tbnz	w9, #0, .Lnoise_BB42_70
	ldrb	w9, [x0, #2]
	cmp	w9, #1
	b.ne	.Lnoise_BB42_77
.Lnoise_BB42_70:
	mov	w9, #48
.Lnoise_BB42_71:
	mov	w10, #1
	add	w8, w9, w8
	strb	w10, [x0, #1]
	b	.Lnoise_BB42_56
.Lnoise_BB42_72:
	cmp	w9, #5
	b.ne	.Lnoise_BB42_76
	mov	w9, #1
	strb	w9, [x0, #7]
	b	.Lnoise_BB42_56
.Lnoise_BB42_74:
	mov	w9, #1
	strb	w9, [x0, #4]
	b	.Lnoise_BB42_56
.Lnoise_BB42_75:
	mov	w9, #1
	strb	w9, [x0, #6]
	b	.Lnoise_BB42_56
.Lnoise_BB42_76:
	mov	w9, #1
	strb	w9, [x0, #8]
	b	.Lnoise_BB42_56
.Lnoise_BB42_77:
	mov	w9, #32
	b	.Lnoise_BB42_71
.Lnoise_func_end42:
	.size	"noise_names::seen::Seen::tokens_len", .Lnoise_func_end42-"noise_names::seen::Seen::tokens_len"
	.cfi_endproc

	.section	".text.noise_c::message_layout::piece","ax",@progbits
	.p2align	2
	.type	"noise_c::message_layout::piece",@function
"noise_c::message_layout::piece":
	.cfi_startproc
	sub	sp, sp, #144
	stp	x29, x30, [sp, #48]
	stp	x28, x27, [sp, #64]
	stp	x26, x25, [sp, #80]
	stp	x24, x23, [sp, #96]
	stp	x22, x21, [sp, #112]
	stp	x20, x19, [sp, #128]
	add	x29, sp, #48
	.cfi_def_cfa w29, 96
	.cfi_offset w19, -8
	.cfi_offset w20, -16
	.cfi_offset w21, -24
	.cfi_offset w22, -32
	.cfi_offset w23, -40
	.cfi_offset w24, -48
	.cfi_offset w25, -56
	.cfi_offset w26, -64
	.cfi_offset w27, -72
	.cfi_offset w28, -80
	.cfi_offset w30, -88
	.cfi_offset w29, -96
	and	x8, x2, #0xff
	mov	x20, x0
	add	x0, sp, #16
	sub	x25, x8, #1
	mov	w19, w6
	mov	w23, w5
	mov	x2, x25
	mov	w21, w4
	mov	w22, w3
	mov	x24, x1
	strh	wzr, [sp, #24]
	str	xzr, [sp, #16]
	bl	"noise_names::valid::ValidPattern::seen_after"
	ldr	x8, [sp, #16]
	ldrb	w9, [sp, #24]
	add	x28, x24, #72
	ldr	x27, [x24, #264]
	ldrb	w2, [sp, #25]
	str	w19, [sp, #12]
	stur	x8, [x29, #-16]
	sturb	w9, [x29, #-8]
	cbz	x27, .Lnoise_BB43_7
	mov	x8, xzr
	add	x9, x24, #72
	b	.Lnoise_BB43_3
.Lnoise_BB43_2:
	add	x8, x8, #1
	add	x9, x9, #24
	cmp	x8, x27
	b.eq	.Lnoise_BB43_7
.Lnoise_BB43_3:
	mov	w10, #24
	mov	x11, x9
	madd	x10, x8, x10, x28
	ldr	x10, [x10, #16]
	cbz	x10, .Lnoise_BB43_2
.Lnoise_BB43_4:
	ldrb	w12, [x11], #1
	cmp	w12, #6
	b.eq	.Lnoise_BB43_6
	subs	x10, x10, #1
	b.ne	.Lnoise_BB43_4
	b	.Lnoise_BB43_2
.Lnoise_BB43_6:
	mov	w1, #1
	b	.Lnoise_BB43_8
.Lnoise_BB43_7:
	mov	w1, wzr
.Lnoise_BB43_8:
	mov	w8, #24
	sub	x0, x29, #16
	and	x4, x22, #0xff
	smaddl	x26, w25, w8, x28
	mov	x3, x26
	bl	"noise_names::seen::Seen::tokens_len"
	ldur	s0, [x29, #-12]
	ushll	v0.8h, v0.8b, #0
	cbz	x27, .Lnoise_BB43_16
	mov	x8, xzr
	add	x9, x24, #72
	b	.Lnoise_BB43_11
.Lnoise_BB43_10:
	add	x8, x8, #1
	add	x9, x9, #24
	cmp	x8, x27
	b.eq	.Lnoise_BB43_16
.Lnoise_BB43_11:
	mov	w10, #24
	mov	x11, x9
	madd	x10, x8, x10, x28
	ldr	x10, [x10, #16]
	cbz	x10, .Lnoise_BB43_10
.Lnoise_BB43_12:
	ldrb	w12, [x11], #1
	cmp	w12, #6
	b.eq	.Lnoise_BB43_14
	subs	x10, x10, #1
	b.ne	.Lnoise_BB43_12
	b	.Lnoise_BB43_10
.Lnoise_BB43_14:
	mov	w8, #1
	shl	v0.4h, v0.4h, #15
	cmlt	v0.4h, v0.4h, #0
	umaxv	h0, v0.4h
	fmov	w9, s0
	tbz	w9, #0, .Lnoise_BB43_17
.Lnoise_BB43_15:
	mov	w19, #1
	b	.Lnoise_BB43_20
.Lnoise_BB43_16:
	mov	w8, wzr
	shl	v0.4h, v0.4h, #15
	cmlt	v0.4h, v0.4h, #0
	umaxv	h0, v0.4h
	fmov	w9, s0
	tbnz	w9, #0, .Lnoise_BB43_15
.Lnoise_BB43_17:
	ldurb	w9, [x29, #-8]
	orr	w19, w8, w9
	tbnz	w9, #0, .Lnoise_BB43_20
	eor	w8, w8, #0x1
	tbnz	w8, #0, .Lnoise_BB43_20
	ldurb	w8, [x29, #-16]
	ldurb	w9, [x29, #-14]
	orr	w19, w8, w9
.Lnoise_BB43_20:
	add	x0, sp, #16
	mov	x1, x24
	mov	x2, x25
	strh	wzr, [sp, #24]
	str	xzr, [sp, #16]
	bl	"noise_names::valid::ValidPattern::seen_after"
	ldr	x8, [sp, #16]
	ldrb	w9, [sp, #24]
	ldrb	w2, [sp, #25]
	stur	x8, [x29, #-16]
	sturb	w9, [x29, #-8]
	cbz	x27, .Lnoise_BB43_27
	mov	x8, xzr
	mov	x9, x28
	b	.Lnoise_BB43_23
.Lnoise_BB43_22:
	add	x8, x8, #1
	add	x9, x9, #24
	cmp	x8, x27
	b.eq	.Lnoise_BB43_27
.Lnoise_BB43_23:
	mov	w10, #24
	mov	x11, x9
	madd	x10, x8, x10, x28
	ldr	x10, [x10, #16]
	cbz	x10, .Lnoise_BB43_22
.Lnoise_BB43_24:
	ldrb	w12, [x11], #1
	cmp	w12, #6
	b.eq	.Lnoise_BB43_26
	subs	x10, x10, #1
	b.ne	.Lnoise_BB43_24
	b	.Lnoise_BB43_22
.Lnoise_BB43_26:
	mov	w1, #1
	b	.Lnoise_BB43_28
.Lnoise_BB43_27:
	mov	w1, wzr
.Lnoise_BB43_28:
	ands	w19, w23, w19
	mov	w8, #16
	sub	x0, x29, #16
	and	x4, x22, #0xff
	mov	x3, x26
	csel	w23, w8, wzr, ne
	bl	"noise_names::seen::Seen::tokens_len"
	ldr	w9, [sp, #12]
	and	w8, w0, #0xffff
	strb	w21, [x20]
	strb	w19, [x20, #1]
	ldp	x22, x21, [sp, #112]
	add	w9, w23, w9
	strh	wzr, [x20, #2]
	stp	w8, w9, [x20, #4]
	ldp	x20, x19, [sp, #128]
	ldp	x24, x23, [sp, #96]
	ldp	x26, x25, [sp, #80]
	ldp	x28, x27, [sp, #64]
	ldp	x29, x30, [sp, #48]
	add	sp, sp, #144
	ret
.Lnoise_func_end43:
	.size	"noise_c::message_layout::piece", .Lnoise_func_end43-"noise_c::message_layout::piece"
	.cfi_endproc

	.section	".text.noise_c::split::finished","ax",@progbits
	.p2align	2
	.type	"noise_c::split::finished",@function
"noise_c::split::finished":
	.cfi_startproc
	stp	x29, x30, [sp, #-96]!
	stp	x28, x27, [sp, #16]
	mov	x29, sp
	stp	x26, x25, [sp, #32]
	stp	x24, x23, [sp, #48]
	stp	x22, x21, [sp, #64]
	stp	x20, x19, [sp, #80]
	sub	sp, sp, #2224
	str	xzr, [sp]
	.cfi_def_cfa w29, 96
	.cfi_offset w19, -8
	.cfi_offset w20, -16
	.cfi_offset w21, -24
	.cfi_offset w22, -32
	.cfi_offset w23, -40
	.cfi_offset w24, -48
	.cfi_offset w25, -56
	.cfi_offset w26, -64
	.cfi_offset w27, -72
	.cfi_offset w28, -80
	.cfi_offset w30, -88
	.cfi_offset w29, -96
	movi	v0.2d, #0000000000000000
	mov	x20, x1
	mov	x19, x0
	add	x21, sp, #144
	add	x26, sp, #408
	add	x0, sp, #1088
	mov	w1, wzr
	mov	w2, #872
	str	wzr, [sp, #280]
	strb	wzr, [sp, #284]
	sub	x22, x29, #144
	add	x23, sp, #592
	stp	q0, q0, [x21]
	stp	q0, q0, [x21, #48]
	stp	q0, q0, [x21, #96]
	stp	q0, q0, [x21, #144]
	stp	q0, q0, [x21, #176]
	str	wzr, [sp, #232]
	stur	wzr, [x21, #91]
	str	wzr, [sp, #184]
	stur	wzr, [x21, #43]
	strb	wzr, [sp, #108]
	str	wzr, [sp, #104]
	str	wzr, [sp, #56]
	stp	q0, q0, [sp, #16]
	stp	q0, q0, [sp, #64]
	stp	q0, q0, [sp, #112]
	stur	wzr, [sp, #59]
	str	wzr, [sp, #8]
	stur	wzr, [sp, #11]
	stur	q0, [x26, #152]
	stur	q0, [x26, #168]
	stur	q0, [x26, #120]
	stur	q0, [x26, #136]
	stur	q0, [x26, #88]
	stur	q0, [x26, #104]
	stur	q0, [x26, #56]
	stur	q0, [x26, #72]
	str	wzr, [sp, #456]
	strb	wzr, [sp, #460]
	stur	q0, [x26, #8]
	stur	q0, [x26, #24]
	stur	wzr, [x26, #3]
	str	wzr, [sp, #408]
	stp	q0, q0, [x21, #224]
	stur	wzr, [x21, #219]
	str	wzr, [sp, #360]
	bl	memset
	ldr	w8, [x20]
	mov	w9, #257
	movk	w9, #20079, lsl #16
	cmp	w8, w9
	b.ne	.Lnoise_BB44_8
	ldrh	w2, [x20, #420]
	cmp	x2, #416
	b.hi	.Lnoise_BB44_8
	ldrb	w8, [x20, #846]
	cmp	w8, #8
	b.hi	.Lnoise_BB44_8
	ldrb	w8, [x20, #557]
	cmp	w8, #9
	b.hi	.Lnoise_BB44_8
	add	x0, sp, #800
	add	x1, x20, #4
	add	x24, sp, #800
	bl	"noise_c::patterns::pattern_of"
	ldrb	w8, [sp, #800]
	cbnz	w8, .Lnoise_BB44_8
	add	x0, sp, #1088
	add	x2, x24, #8
	mov	x1, x20
	add	x24, sp, #1088
	bl	"noise_c::from_c::restored"
	add	x8, x24, #354
	ldrb	w9, [sp, #1088]
	ldr	x25, [sp, #1360]
	ldp	q0, q1, [x8]
	add	x8, x24, #698
	ldur	q3, [x8, #158]
	ldrb	w10, [sp, #1400]
	cmp	w9, #1
	ldrb	w28, [sp, #1441]
	ldrb	w9, [sp, #1784]
	stp	q0, q1, [x23, #176]
	ldp	q2, q0, [x8, #112]
	stp	q2, q0, [x23, #112]
	ldr	q2, [x8, #144]
	ldr	q0, [x8, #64]
	str	q2, [x23, #144]
	ldp	q2, q1, [x8, #80]
	stur	q3, [x23, #158]
	stp	q0, q2, [x23, #64]
	str	q1, [x23, #96]
	ldp	q0, q1, [x8]
	stp	q0, q1, [x23]
	ldp	q0, q2, [x8, #32]
	ldrb	w8, [sp, #1785]
	stp	q0, q2, [x23, #32]
	b.ne	.Lnoise_BB44_8
	cmp	x25, x9
	cset	w9, hi
	orr	w24, w8, w9
	tbz	w24, #0, .Lnoise_BB44_15
	ldrb	w8, [x20, #423]
	mov	w10, #19
	mov	w13, wzr
	mov	w9, wzr
	mov	w14, wzr
	mov	w27, wzr
	cmp	w8, #0
	mov	w8, #13
	csel	w8, w10, w8, eq
	b	.Lnoise_BB44_16
.Lnoise_BB44_8:
	movi	v0.2d, #0000000000000000
	mov	w10, wzr
	mov	w13, wzr
	mov	w9, wzr
	mov	w14, wzr
	mov	w27, wzr
	str	wzr, [sp, #104]
	mov	w8, #23
	strb	wzr, [sp, #108]
	stp	q0, q0, [x21]
	stp	q0, q0, [sp, #64]
	stp	q0, q0, [sp, #112]
	str	wzr, [sp, #56]
	stur	wzr, [sp, #59]
	stp	q0, q0, [sp, #16]
	str	wzr, [sp, #8]
	stur	wzr, [sp, #11]
.Lnoise_BB44_9:
	movi	v0.2d, #0000000000000000
	mov	w24, wzr
	mov	w26, wzr
	mov	w25, wzr
	mov	w28, wzr
	stur	wzr, [x29, #-176]
	sturb	wzr, [x29, #-172]
	stur	wzr, [x29, #-112]
	stp	q0, q0, [x23]
	stp	q0, q0, [x23, #208]
	stp	q0, q0, [x23, #496]
	stur	wzr, [x22, #35]
	stp	q0, q0, [x22, #64]
	stur	wzr, [x29, #-144]
	stur	wzr, [x22, #3]
	tbz	w10, #0, .Lnoise_BB44_11
	ldp	q0, q1, [x21]
	mov	w8, wzr
	ldr	w11, [sp, #104]
	ldrb	w12, [sp, #108]
	mov	w24, w13
	mov	w26, w9
	mov	w25, w14
	mov	w28, w27
	stp	q0, q1, [x23, #496]
	ldp	q0, q2, [sp, #112]
	stur	w11, [x29, #-176]
	ldur	w11, [sp, #59]
	sturb	w12, [x29, #-172]
	ldr	w12, [sp, #56]
	stp	q0, q2, [x23, #208]
	ldp	q0, q1, [sp, #64]
	stur	w11, [x22, #35]
	ldur	w11, [sp, #11]
	stur	w12, [x29, #-112]
	stp	q0, q1, [x23]
	ldp	q0, q1, [sp, #16]
	stur	w11, [x22, #3]
	ldr	w11, [sp, #8]
	stp	q0, q1, [x22, #64]
	stur	w11, [x29, #-144]
.Lnoise_BB44_11:
	ldp	q0, q1, [x23, #496]
	ldur	w9, [x29, #-176]
	ldur	w11, [x29, #-112]
	str	w9, [sp, #280]
	ldurb	w9, [x29, #-172]
	stp	q0, q1, [x21, #176]
	ldp	q0, q1, [x23, #208]
	strb	w9, [sp, #284]
	ldur	w9, [x22, #35]
	stp	q0, q1, [x21, #144]
	ldp	q1, q0, [x23]
	stur	w9, [x21, #91]
	ldur	w9, [x29, #-144]
	str	w11, [sp, #232]
	ldur	w11, [x22, #3]
	stp	q1, q0, [x21, #96]
	ldp	q0, q1, [x22, #64]
	str	w9, [sp, #184]
	stur	w11, [x21, #43]
	stp	q0, q1, [x21, #48]
	tbz	w10, #0, .Lnoise_BB44_13
	movi	v0.2d, #0000000000000000
	mov	w8, #1
	add	x9, x20, #1432
	add	x0, x20, #557
	mov	w1, wzr
	mov	w2, #842
	strb	w8, [x20, #423]
	stp	q0, q0, [x9]
	bl	memset
	ldp	q0, q1, [x21, #176]
	ldr	w8, [sp, #280]
	ldrb	w9, [sp, #284]
	strb	w24, [x19, #8]
	stur	w8, [x19, #75]
	ldr	w8, [sp, #232]
	stur	q0, [x19, #10]
	stur	q1, [x19, #26]
	ldp	q0, q1, [x21, #144]
	stur	w8, [x19, #113]
	ldur	w8, [x21, #91]
	strb	w9, [x19, #79]
	ldur	w9, [x21, #43]
	stur	q0, [x19, #43]
	stur	q1, [x19, #59]
	ldp	q1, q0, [x21, #96]
	str	w8, [x19, #116]
	ldr	w8, [sp, #184]
	str	xzr, [x19]
	stur	q0, [x19, #97]
	stur	q1, [x19, #81]
	ldp	q0, q1, [x21, #48]
	stur	w8, [x19, #161]
	str	w9, [x19, #164]
	stur	q0, [x19, #129]
	stur	q1, [x19, #145]
	b	.Lnoise_BB44_14
.Lnoise_BB44_13:
	movi	v0.2d, #0000000000000000
	mov	w9, #1
	mov	w26, wzr
	mov	w25, wzr
	mov	w28, wzr
	stp	w9, w8, [x19]
	strb	wzr, [x19, #8]
	stur	q0, [x19, #10]
	stur	q0, [x19, #26]
	stur	q0, [x19, #43]
	stur	q0, [x19, #59]
	str	xzr, [x19, #72]
	stur	q0, [x19, #81]
	stur	q0, [x19, #97]
	str	xzr, [x19, #112]
	stur	q0, [x19, #129]
	stur	q0, [x19, #145]
	str	xzr, [x19, #160]
.Lnoise_BB44_14:
	strb	w26, [x19, #9]
	strb	w25, [x19, #42]
	strb	w28, [x19, #80]
	str	xzr, [x19, #120]
	strb	w28, [x19, #128]
	str	xzr, [x19, #168]
	add	sp, sp, #2224
	ldp	x20, x19, [sp, #80]
	ldp	x22, x21, [sp, #64]
	ldp	x24, x23, [sp, #48]
	ldp	x26, x25, [sp, #32]
	ldp	x28, x27, [sp, #16]
	ldp	x29, x30, [sp], #96
	ret
.Lnoise_BB44_15:
	ldur	q0, [x23, #126]
	ldur	q1, [x23, #142]
	adrp	x8, .Lnoise_static.1
	add	x8, x8, :lo12:.Lnoise_static.1
	ldur	q2, [x23, #158]
	add	x0, sp, #1088
	stp	q0, q1, [x23, #272]
	ldur	q0, [x23, #62]
	ldur	q1, [x23, #78]
	str	q2, [x23, #304]
	ldur	q2, [x23, #110]
	add	x1, sp, #800
	stp	q0, q1, [x23, #208]
	movi	v1.2d, #0000000000000000
	ldur	q0, [x23, #94]
	stp	x8, xzr, [x29, #-256]
	stp	q0, q2, [x23, #240]
	str	w10, [sp, #4]
	str	q1, [x23, #1392]
	str	q1, [x23, #1408]
	bl	"noise_kdf::keyed::Hmac::new"
	sub	x0, x29, #240
	add	x1, sp, #1088
	sub	x2, x29, #256
	mov	w3, #1
	mov	w27, #1
	bl	"noise_kdf::keyed::Hmac::code"
	add	x0, sp, #1088
	sub	x1, x29, #240
	bl	"noise_kdf::keyed::Hmac::new"
	movi	v0.2d, #0000000000000000
	adrp	x2, .Lnoise_static.102
	add	x2, x2, :lo12:.Lnoise_static.102
	sub	x0, x29, #176
	add	x1, sp, #1088
	mov	w3, #1
	str	q0, [x23, #1488]
	str	q0, [x23, #1504]
	str	q0, [x23, #1456]
	str	q0, [x23, #1472]
	bl	"noise_kdf::keyed::Hmac::code"
	ldr	q0, [x23, #1456]
	ldr	q1, [x23, #1472]
	sub	x8, x29, #112
	mov	w9, #32
	sub	x0, x29, #144
	add	x1, sp, #1088
	stp	x8, x9, [x29, #-208]
	adrp	x8, .Lnoise_static.103
	add	x8, x8, :lo12:.Lnoise_static.103
	sub	x2, x29, #208
	mov	w3, #2
	stp	q0, q1, [x22, #32]
	stp	x8, x27, [x29, #-192]
	bl	"noise_kdf::keyed::Hmac::code"
	ldp	q1, q0, [x22, #32]
	cmp	x25, #1
	ldr	q2, [x23, #1488]
	ldr	q3, [x23, #1504]
	mov	w14, w28
	ldr	w13, [sp, #4]
	mov	w8, wzr
	strb	wzr, [sp, #460]
	stp	q1, q0, [x22, #64]
	cset	w9, eq
	stp	q2, q3, [x22, #96]
	stur	q0, [x26, #168]
	ldp	q2, q0, [x22, #96]
	stur	q1, [x26, #152]
	ldur	q1, [x23, #94]
	str	wzr, [sp, #456]
	stur	q0, [x26, #136]
	ldur	q0, [x23, #110]
	stur	q2, [x26, #120]
	stur	q0, [x26, #104]
	ldp	q2, q0, [x23, #176]
	stur	q1, [x26, #88]
	ldur	q1, [x26, #152]
	stur	wzr, [x26, #3]
	stur	q0, [x26, #72]
	ldur	q0, [x26, #168]
	stur	q1, [x26, #8]
	ldur	q1, [x26, #120]
	stur	q0, [x26, #24]
	ldur	q0, [x26, #136]
	stur	q2, [x26, #56]
	str	wzr, [sp, #408]
	stp	q1, q0, [x21, #224]
	stur	wzr, [x21, #219]
	str	wzr, [sp, #360]
.Lnoise_BB44_16:
	ldur	q0, [x26, #88]
	ldur	q1, [x26, #104]
	ldr	w10, [sp, #456]
	ldr	w11, [sp, #408]
	stp	q0, q1, [x21]
	ldur	q0, [x26, #56]
	ldur	q1, [x26, #72]
	str	w10, [sp, #104]
	ldrb	w10, [sp, #460]
	stp	q0, q1, [sp, #112]
	ldur	q0, [x26, #24]
	ldur	q1, [x26, #8]
	strb	w10, [sp, #108]
	ldur	w10, [x26, #3]
	stp	q1, q0, [sp, #64]
	ldp	q0, q1, [x21, #224]
	stur	w10, [sp, #59]
	ldr	w10, [sp, #360]
	str	w11, [sp, #56]
	ldur	w11, [x21, #219]
	str	w10, [sp, #8]
	eor	w10, w24, #0x1
	stp	q0, q1, [sp, #16]
	stur	w11, [sp, #11]
	b	.Lnoise_BB44_9
.Lnoise_func_end44:
	.size	"noise_c::split::finished", .Lnoise_func_end44-"noise_c::split::finished"
	.cfi_endproc

	.section	".text.noise_handshake::writer::write_lacking::<#9bbb2dae5a99aff0>","ax",@progbits
	.p2align	2
	.type	"noise_handshake::writer::write_lacking::<#9bbb2dae5a99aff0>",@function
"noise_handshake::writer::write_lacking::<#9bbb2dae5a99aff0>":
	.cfi_startproc
	sub	sp, sp, #208
	stp	x29, x30, [sp, #128]
	stp	x26, x25, [sp, #144]
	stp	x24, x23, [sp, #160]
	stp	x22, x21, [sp, #176]
	stp	x20, x19, [sp, #192]
	add	x29, sp, #128
	.cfi_def_cfa w29, 80
	.cfi_offset w19, -8
	.cfi_offset w20, -16
	.cfi_offset w21, -24
	.cfi_offset w22, -32
	.cfi_offset w23, -40
	.cfi_offset w24, -48
	.cfi_offset w25, -56
	.cfi_offset w26, -64
	.cfi_offset w30, -72
	.cfi_offset w29, -80
	movi	v0.2d, #0000000000000000
	mov	x19, x0
	strh	wzr, [sp, #32]
	stp	q0, q0, [sp]
	cbz	x6, .Lnoise_BB45_7
	ldrb	w20, [x5], #4
	cmp	w20, #1
	b.le	.Lnoise_BB45_8
	sub	w8, w20, #2
	cmp	w8, #4
	b.hs	.Lnoise_BB45_23
	ldrb	w8, [x2, #32]
	cbz	w8, .Lnoise_BB45_10
	and	w8, w20, #0xfe
	cmp	w8, #4
	b.ne	.Lnoise_BB45_14
	ldrb	w8, [x1, #33]
	cmp	w8, #1
	b.ne	.Lnoise_BB45_24
	ldur	q0, [x1, #34]
	ldur	q1, [x1, #50]
	b	.Lnoise_BB45_16
.Lnoise_BB45_7:
	strh	wzr, [x19, #32]
	stp	q0, q0, [x19]
	b	.Lnoise_BB45_36
.Lnoise_BB45_8:
	cbnz	w20, .Lnoise_BB45_17
	ldr	x8, [x2]
	ldrb	w8, [x8]
	cbnz	w8, .Lnoise_BB45_23
	b	.Lnoise_BB45_24
.Lnoise_BB45_10:
	cmp	w20, #3
	b.gt	.Lnoise_BB45_18
	cmp	w20, #2
	b.eq	.Lnoise_BB45_19
.Lnoise_BB45_12:
	ldrb	w8, [x1, #33]
	cmp	w8, #1
	b.ne	.Lnoise_BB45_24
	ldur	q0, [x1, #34]
	ldur	q1, [x1, #50]
	b	.Lnoise_BB45_21
.Lnoise_BB45_14:
	ldrb	w8, [x1]
	cmp	w8, #1
	b.ne	.Lnoise_BB45_24
	ldur	q0, [x1, #1]
	ldur	q1, [x1, #17]
.Lnoise_BB45_16:
	mov	x21, x6
	mov	x23, x4
	mov	x22, x3
	mov	x24, x5
	lsl	w8, w20, #3
	mov	w9, #16777472
	stp	q0, q1, [sp, #48]
	mov	x25, x1
	sub	w8, w8, #16
	and	w8, w8, #0x7f8
	lsr	w3, w9, w8
	b	.Lnoise_BB45_22
.Lnoise_BB45_17:
	ldr	x8, [x2, #8]
	ldrb	w8, [x8]
	cbnz	w8, .Lnoise_BB45_23
	b	.Lnoise_BB45_24
.Lnoise_BB45_18:
	cmp	w20, #4
	b.ne	.Lnoise_BB45_12
.Lnoise_BB45_19:
	ldrb	w8, [x1]
	cmp	w8, #1
	b.ne	.Lnoise_BB45_24
	ldur	q0, [x1, #1]
	ldur	q1, [x1, #17]
.Lnoise_BB45_21:
	mov	x21, x6
	mov	x23, x4
	mov	x22, x3
	mov	x24, x5
	and	w8, w20, #0xfe
	mov	x25, x1
	stp	q0, q1, [sp, #48]
	cmp	w8, #4
	cset	w3, eq
.Lnoise_BB45_22:
	ldp	x1, x8, [x2, #16]
	sub	x0, x29, #48
	add	x4, sp, #48
	mov	x26, x2
	mov	x2, x8
	bl	"noise_c::supplied_keys::result_for"
	ldurb	w8, [x29, #-48]
	mov	x2, x26
	mov	x1, x25
	mov	x5, x24
	mov	x3, x22
	mov	x4, x23
	cmp	w8, #1
	mov	x6, x21
	b.ne	.Lnoise_BB45_24
.Lnoise_BB45_23:
	cmp	w20, #6
	mov	w9, #32
	sub	x6, x6, #1
	cset	w8, eq
	csel	x9, x9, xzr, eq
	mov	x0, sp
	sub	x4, x4, x8
	add	x3, x3, x9
	bl	"noise_handshake::writer::write_lacking::<#9bbb2dae5a99aff0>"
	ldrb	w8, [sp]
	b	.Lnoise_BB45_35
.Lnoise_BB45_24:
	ldrb	w8, [x2, #32]
	cbz	w8, .Lnoise_BB45_27
	and	w8, w20, #0xfe
	cmp	w8, #4
	b.ne	.Lnoise_BB45_29
	ldrb	w8, [x1, #33]
	ldur	q0, [x1, #34]
	ldur	q1, [x1, #50]
	cmp	w8, #1
	stp	q0, q1, [x29, #-48]
	b.eq	.Lnoise_BB45_30
	b	.Lnoise_BB45_34
.Lnoise_BB45_27:
	mov	w8, #1
	mov	w9, #23
	lsl	w8, w8, w20
	tst	w8, w9
	b.eq	.Lnoise_BB45_31
	ldrb	w8, [x1]
	ldur	q0, [x1, #1]
	ldur	q1, [x1, #17]
	cmp	w8, #1
	stp	q0, q1, [x29, #-48]
	b.ne	.Lnoise_BB45_34
	b	.Lnoise_BB45_32
.Lnoise_BB45_29:
	ldrb	w8, [x1]
	ldur	q0, [x1, #1]
	ldur	q1, [x1, #17]
	cmp	w8, #1
	stp	q0, q1, [x29, #-48]
	b.ne	.Lnoise_BB45_34
.Lnoise_BB45_30:
	ubfiz	x8, x20, #3, #32
	mov	x9, #16777216
	movk	x9, #256, lsl #32
	lsr	x8, x9, x8
	b	.Lnoise_BB45_33
.Lnoise_BB45_31:
	ldrb	w8, [x1, #33]
	ldur	q0, [x1, #34]
	ldur	q1, [x1, #50]
	cmp	w8, #1
	stp	q0, q1, [x29, #-48]
	b.ne	.Lnoise_BB45_34
.Lnoise_BB45_32:
	and	w8, w20, #0xfe
	cmp	w8, #4
	cset	w8, eq
.Lnoise_BB45_33:
	ldp	q0, q1, [x29, #-48]
	strb	w8, [sp, #1]
	mov	w8, #1
	stur	q0, [sp, #2]
	stur	q1, [sp, #18]
	b	.Lnoise_BB45_35
.Lnoise_BB45_34:
	movi	v0.2d, #0000000000000000
	mov	w8, wzr
	strh	wzr, [sp, #32]
	stp	q0, q0, [sp]
.Lnoise_BB45_35:
	ldur	q0, [sp, #1]
	strb	w8, [x19]
	ldur	q1, [sp, #17]
	ldrb	w8, [sp, #33]
	stur	q0, [x19, #1]
	stur	q1, [x19, #17]
	strb	w8, [x19, #33]
.Lnoise_BB45_36:
	ldp	x20, x19, [sp, #192]
	ldp	x22, x21, [sp, #176]
	ldp	x24, x23, [sp, #160]
	ldp	x26, x25, [sp, #144]
	ldp	x29, x30, [sp, #128]
	add	sp, sp, #208
	ret
.Lnoise_func_end45:
	.size	"noise_handshake::writer::write_lacking::<#9bbb2dae5a99aff0>", .Lnoise_func_end45-"noise_handshake::writer::write_lacking::<#9bbb2dae5a99aff0>"
	.cfi_endproc

	.section	".text.noise_handshake::writer::write_tokens::<#3dfcfe118667ed30>","ax",@progbits
	.p2align	2
	.type	"noise_handshake::writer::write_tokens::<#3dfcfe118667ed30>",@function
"noise_handshake::writer::write_tokens::<#3dfcfe118667ed30>":
	.cfi_startproc
	stp	x29, x30, [sp, #-96]!
	stp	x28, x27, [sp, #16]
	mov	x29, sp
	stp	x26, x25, [sp, #32]
	stp	x24, x23, [sp, #48]
	stp	x22, x21, [sp, #64]
	stp	x20, x19, [sp, #80]
	sub	sp, sp, #576
	.cfi_def_cfa w29, 96
	.cfi_offset w19, -8
	.cfi_offset w20, -16
	.cfi_offset w21, -24
	.cfi_offset w22, -32
	.cfi_offset w23, -40
	.cfi_offset w24, -48
	.cfi_offset w25, -56
	.cfi_offset w26, -64
	.cfi_offset w27, -72
	.cfi_offset w28, -80
	.cfi_offset w30, -88
	.cfi_offset w29, -96
	cbz	x6, .Lnoise_BB46_7
	mov	x20, x5
	mov	x19, x7
	mov	x24, x6
	ldrb	w8, [x20], #4
	mov	x25, x5
	mov	x23, x4
	mov	x22, x3
	mov	x21, x0
	cmp	w8, #1
	b.le	.Lnoise_BB46_8
	sub	w9, w8, #2
	cmp	w9, #4
	b.hs	.Lnoise_BB46_21
	ldrb	w9, [x2, #32]
	cbz	w9, .Lnoise_BB46_11
	and	w9, w8, #0xfe
	cmp	w9, #4
	b.ne	.Lnoise_BB46_15
	ldrb	w9, [x1, #33]
	cmp	w9, #1
	b.ne	.Lnoise_BB46_29
	ldur	q0, [x1, #34]
	ldur	q1, [x1, #50]
	b	.Lnoise_BB46_17
.Lnoise_BB46_7:
	mov	x1, xzr
	mov	w0, wzr
	b	.Lnoise_BB46_30
.Lnoise_BB46_8:
	cbnz	w8, .Lnoise_BB46_18
	ldr	x8, [x2]
	ldrb	w9, [x8]
	cbz	w9, .Lnoise_BB46_31
	mov	x28, x1
	ldur	q0, [x8, #17]
	ldur	q1, [x8, #1]
	ldrb	w1, [x2, #33]
	mov	x26, x2
	add	x2, sp, #80
	mov	x0, x21
	stp	q1, q0, [sp, #80]
	add	x27, sp, #80
	bl	"noise_handshake::tokens::mix_ephemeral"
	ldp	q0, q1, [sp, #80]
	sub	x8, x19, x27
	cmp	x8, #31
	mov	w27, #32
	mov	x1, x28
	stp	q0, q1, [x19]
	b	.Lnoise_BB46_28
.Lnoise_BB46_11:
	cmp	w8, #3
	b.gt	.Lnoise_BB46_22
	cmp	w8, #2
	b.eq	.Lnoise_BB46_23
.Lnoise_BB46_13:
	ldrb	w9, [x1, #33]
	cmp	w9, #1
	b.ne	.Lnoise_BB46_29
	ldur	q0, [x1, #34]
	ldur	q1, [x1, #50]
	b	.Lnoise_BB46_25
.Lnoise_BB46_15:
	ldrb	w9, [x1]
	cmp	w9, #1
	b.ne	.Lnoise_BB46_29
	ldur	q0, [x1, #1]
	ldur	q1, [x1, #17]
.Lnoise_BB46_17:
	lsl	w8, w8, #3
	mov	w9, #16777472
	stp	q0, q1, [x29, #-80]
	str	x1, [sp, #8]
	sub	w8, w8, #16
	and	w8, w8, #0x7f8
	lsr	w3, w9, w8
	b	.Lnoise_BB46_26
.Lnoise_BB46_18:
	ldr	x8, [x2, #8]
	ldrb	w9, [x8]
	cbz	w9, .Lnoise_BB46_31
	ldur	q0, [x8, #17]
	ldur	q1, [x8, #1]
	mov	x28, x1
	mov	x26, x2
	sub	x0, x29, #80
	add	x1, x21, #64
	add	x2, x21, #32
	mov	w3, #32
	mov	x4, x19
	mov	w5, #32
	stp	q1, q0, [x19]
	stp	xzr, xzr, [x29, #-80]
	bl	"noise_state::cipher::CipherState::encrypt"
	ldurb	w8, [x29, #-80]
	cbnz	w8, .Lnoise_BB46_31
	ldur	x27, [x29, #-72]
	add	x0, sp, #128
	add	x1, x21, #32
	mov	x2, x19
	mov	x3, x27
	bl	"noise_state::symmetric::hash_of_both"
	ldp	q0, q1, [sp, #128]
	mov	x1, x28
	stp	q0, q1, [x21, #32]
	b	.Lnoise_BB46_28
.Lnoise_BB46_21:
	mov	x0, x21
	mov	x27, x1
	mov	x1, x22
	mov	x26, x2
	bl	"noise_state::symmetric::SymmetricState::mix_key_and_hash"
	mov	x1, x27
	mov	x27, xzr
	b	.Lnoise_BB46_28
.Lnoise_BB46_22:
	cmp	w8, #4
	b.ne	.Lnoise_BB46_13
.Lnoise_BB46_23:
	ldrb	w9, [x1]
	cmp	w9, #1
	b.ne	.Lnoise_BB46_29
	ldur	q0, [x1, #1]
	ldur	q1, [x1, #17]
.Lnoise_BB46_25:
	and	w8, w8, #0xfe
	stp	q0, q1, [x29, #-80]
	cmp	w8, #4
	str	x1, [sp, #8]
	cset	w3, eq
.Lnoise_BB46_26:
	mov	x26, x2
	ldp	x1, x2, [x2, #16]
	add	x0, sp, #128
	sub	x4, x29, #80
	bl	"noise_c::supplied_keys::result_for"
	ldrb	w8, [sp, #128]
	ldur	q0, [sp, #129]
	ldur	q1, [sp, #145]
	cmp	w8, #1
	stp	q0, q1, [sp, #16]
	b.ne	.Lnoise_BB46_29
	movi	v2.2d, #0000000000000000
	ldp	q0, q1, [sp, #16]
	add	x8, sp, #48
	mov	w27, #32
	add	x0, sp, #128
	mov	x1, x21
	stp	x8, x27, [sp, #112]
	stp	q0, q1, [sp, #48]
	stp	q2, q2, [x29, #-240]
	bl	"noise_kdf::keyed::Hmac::new"
	sub	x0, x29, #240
	add	x1, sp, #128
	add	x2, sp, #112
	mov	w3, #1
	mov	w28, #1
	bl	"noise_kdf::keyed::Hmac::code"
	add	x0, sp, #128
	sub	x1, x29, #240
	bl	"noise_kdf::keyed::Hmac::new"
	movi	v0.2d, #0000000000000000
	adrp	x2, .Lnoise_static.102
	add	x2, x2, :lo12:.Lnoise_static.102
	sub	x0, x29, #176
	add	x1, sp, #128
	mov	w3, #1
	stp	q0, q0, [x29, #-176]
	stp	q0, q0, [x29, #-144]
	bl	"noise_kdf::keyed::Hmac::code"
	ldp	q0, q1, [x29, #-176]
	sub	x8, x29, #112
	stp	x8, x27, [x29, #-208]
	adrp	x8, .Lnoise_static.103
	add	x8, x8, :lo12:.Lnoise_static.103
	sub	x0, x29, #144
	add	x1, sp, #128
	sub	x2, x29, #208
	mov	w3, #2
	stp	q0, q1, [x29, #-112]
	stp	x8, x28, [x29, #-192]
	bl	"noise_kdf::keyed::Hmac::code"
	ldp	q2, q3, [x29, #-144]
	mov	x27, xzr
	ldp	q1, q0, [x29, #-112]
	ldr	x1, [sp, #8]
	strb	w28, [x21, #64]
	stp	q2, q3, [x29, #-48]
	stp	q1, q0, [x29, #-80]
	stp	q1, q0, [x21]
	ldp	q2, q0, [x29, #-48]
	str	xzr, [x21, #104]
	stur	q2, [x21, #65]
	stur	q0, [x21, #81]
.Lnoise_BB46_28:
	ldrb	w8, [x25]
	ldr	x9, [x29, #96]
	mov	w10, #32
	sub	x6, x24, #1
	add	x7, x19, x27
	mov	x0, x21
	cmp	w8, #6
	mov	x2, x26
	mov	x5, x20
	cset	w8, eq
	csel	x10, x10, xzr, eq
	sub	x4, x23, x8
	sub	x8, x9, x27
	add	x3, x22, x10
	str	x8, [sp]
	bl	"noise_handshake::writer::write_tokens::<#3dfcfe118667ed30>"
	tst	w0, #0xff
	csinc	x8, x27, xzr, eq
	add	x1, x8, x1
	b	.Lnoise_BB46_30
.Lnoise_BB46_29:
	mov	x1, xzr
	mov	w0, #1
.Lnoise_BB46_30:
	add	sp, sp, #576
	ldp	x20, x19, [sp, #80]
	ldp	x22, x21, [sp, #64]
	ldp	x24, x23, [sp, #48]
	ldp	x26, x25, [sp, #32]
	ldp	x28, x27, [sp, #16]
	ldp	x29, x30, [sp], #96
	ret
.Lnoise_BB46_31:
	brk	#0x1
.Lnoise_func_end46:
	.size	"noise_handshake::writer::write_tokens::<#3dfcfe118667ed30>", .Lnoise_func_end46-"noise_handshake::writer::write_tokens::<#3dfcfe118667ed30>"
	.cfi_endproc

	.section	.text.noise_cipher_decrypt,"ax",@progbits
	.globl	noise_cipher_decrypt
	.p2align	2
	.type	noise_cipher_decrypt,@function
noise_cipher_decrypt:
	.cfi_startproc
	sub	sp, sp, #96
	stp	x29, x30, [sp, #64]
	stp	x20, x19, [sp, #80]
	add	x29, sp, #64
	.cfi_def_cfa w29, 32
	.cfi_offset w19, -8
	.cfi_offset w20, -16
	.cfi_offset w30, -24
	.cfi_offset w29, -32
	cmp	x1, #0
	mov	w8, #4096
	ldr	w11, [x0]
	mov	w12, #2305
	csel	x9, x8, xzr, eq
	cmp	x3, #0
	movk	w12, #20079, lsl #16
	csel	x10, x8, xzr, eq
	str	xzr, [sp, #48]
	cmp	w11, w12
	stp	xzr, xzr, [sp]
	b.ne	.Lnoise_BB47_3
	ldrb	w8, [x0, #4]
	cbz	w8, .Lnoise_BB47_4
	mov	w0, #22
	ldp	x20, x19, [sp, #80]
	ldp	x29, x30, [sp, #64]
	add	sp, sp, #96
	ret
.Lnoise_BB47_3:
	mov	w0, #23
	ldp	x20, x19, [sp, #80]
	ldp	x29, x30, [sp, #64]
	add	sp, sp, #96
	ret
.Lnoise_BB47_4:
	mov	w8, #1
	ldur	q0, [x0, #5]
	ldur	q1, [x0, #21]
	strb	w8, [sp, #16]
	ldr	x8, [x0, #40]
	lsr	x11, x2, #16
	stur	q0, [sp, #17]
	stur	q1, [sp, #33]
	str	x8, [sp, #56]
	cbz	x11, .Lnoise_BB47_6
	mov	w0, #24
	ldp	x20, x19, [sp, #80]
	ldp	x29, x30, [sp, #64]
	add	sp, sp, #96
	ret
.Lnoise_BB47_6:
	mov	x11, x1
	mov	x8, x2
	mov	x19, x0
	mov	x20, x5
	mov	x0, sp
	add	x1, sp, #16
	add	x2, x11, x9
	mov	x5, x4
	add	x4, x3, x10
	mov	x3, x8
	bl	"noise_state::cipher::CipherState::decrypt"
	ldrb	w8, [sp]
	cbz	w8, .Lnoise_BB47_8
	ldrb	w8, [sp, #1]
	adrp	x9, .Lnoise_switch.table.noise_cipher_encrypt
	add	x9, x9, :lo12:.Lnoise_switch.table.noise_cipher_encrypt
	ldr	w0, [x9, x8, lsl #2]
	ldp	x20, x19, [sp, #80]
	ldp	x29, x30, [sp, #64]
	add	sp, sp, #96
	ret
.Lnoise_BB47_8:
	ldr	x8, [sp, #8]
	ldr	x9, [sp, #56]
	mov	w0, wzr
	stp	xzr, x8, [x20]
	str	x9, [x19, #40]
	ldp	x20, x19, [sp, #80]
	ldp	x29, x30, [sp, #64]
	add	sp, sp, #96
	ret
.Lnoise_func_end47:
	.size	noise_cipher_decrypt, .Lnoise_func_end47-noise_cipher_decrypt
	.cfi_endproc

	.section	.text.noise_cipher_encrypt,"ax",@progbits
	.globl	noise_cipher_encrypt
	.p2align	2
	.type	noise_cipher_encrypt,@function
noise_cipher_encrypt:
	.cfi_startproc
	sub	sp, sp, #96
	stp	x29, x30, [sp, #64]
	stp	x20, x19, [sp, #80]
	add	x29, sp, #64
	.cfi_def_cfa w29, 32
	.cfi_offset w19, -8
	.cfi_offset w20, -16
	.cfi_offset w30, -24
	.cfi_offset w29, -32
	cmp	x1, #0
	mov	w8, #4096
	ldr	w11, [x0]
	mov	w12, #2049
	csel	x9, x8, xzr, eq
	cmp	x3, #0
	movk	w12, #20079, lsl #16
	csel	x10, x8, xzr, eq
	str	xzr, [sp, #48]
	cmp	w11, w12
	stp	xzr, xzr, [sp]
	b.ne	.Lnoise_BB48_4
	ldrb	w8, [x0, #4]
	cbz	w8, .Lnoise_BB48_5
	mov	w8, #22
.Lnoise_BB48_3:
	ldp	x20, x19, [sp, #80]
	mov	w0, w8
	ldp	x29, x30, [sp, #64]
	add	sp, sp, #96
	ret
.Lnoise_BB48_4:
	mov	w8, #23
	ldp	x20, x19, [sp, #80]
	mov	w0, w8
	ldp	x29, x30, [sp, #64]
	add	sp, sp, #96
	ret
.Lnoise_BB48_5:
	mov	w8, #1
	ldur	q0, [x0, #5]
	ldur	q1, [x0, #21]
	strb	w8, [sp, #16]
	ldr	x8, [x0, #40]
	lsr	x11, x2, #16
	stur	q0, [sp, #17]
	stur	q1, [sp, #33]
	str	x8, [sp, #56]
	cbz	x11, .Lnoise_BB48_7
	mov	w8, #24
	ldp	x20, x19, [sp, #80]
	mov	w0, w8
	ldp	x29, x30, [sp, #64]
	add	sp, sp, #96
	ret
.Lnoise_BB48_7:
	subs	x11, x4, #16
	mov	w8, #18
	b.lo	.Lnoise_BB48_3
	cmp	x11, x5
	b.lo	.Lnoise_BB48_3
	mov	x11, x1
	mov	x8, x2
	mov	x19, x0
	mov	x0, sp
	add	x1, sp, #16
	add	x2, x11, x9
	add	x4, x3, x10
	mov	x3, x8
	mov	x20, x6
	bl	"noise_state::cipher::CipherState::encrypt"
	ldrb	w8, [sp]
	cbz	w8, .Lnoise_BB48_11
	ldrb	w8, [sp, #1]
	adrp	x9, .Lnoise_switch.table.noise_cipher_encrypt
	add	x9, x9, :lo12:.Lnoise_switch.table.noise_cipher_encrypt
	ldr	w8, [x9, x8, lsl #2]
	ldp	x20, x19, [sp, #80]
	mov	w0, w8
	ldp	x29, x30, [sp, #64]
	add	sp, sp, #96
	ret
.Lnoise_BB48_11:
	ldr	x9, [sp, #8]
	ldr	x10, [sp, #56]
	stp	xzr, x9, [x20]
	str	x10, [x19, #40]
	ldp	x20, x19, [sp, #80]
	mov	w0, w8
	ldp	x29, x30, [sp, #64]
	add	sp, sp, #96
	ret
.Lnoise_func_end48:
	.size	noise_cipher_encrypt, .Lnoise_func_end48-noise_cipher_encrypt
	.cfi_endproc

	.section	.text.noise_cipher_nonce,"ax",@progbits
	.globl	noise_cipher_nonce
	.p2align	2
	.type	noise_cipher_nonce,@function
noise_cipher_nonce:
	.cfi_startproc
	ldr	w9, [x0]
	mov	w8, #2049
	movk	w8, #20079, lsl #16
	and	w9, w9, #0xfffffeff
	cmp	w9, w8
	b.ne	.Lnoise_BB49_3
	ldrb	w8, [x0, #4]
	cbz	w8, .Lnoise_BB49_4
	mov	w0, #22
	ret
.Lnoise_BB49_3:
	mov	w0, #23
	ret
.Lnoise_BB49_4:
	mov	x8, x0
	mov	w0, wzr
	ldr	x8, [x8, #40]
	str	x8, [x1]
	ret
.Lnoise_func_end49:
	.size	noise_cipher_nonce, .Lnoise_func_end49-noise_cipher_nonce
	.cfi_endproc

	.section	.text.noise_cipher_rekey,"ax",@progbits
	.globl	noise_cipher_rekey
	.p2align	2
	.type	noise_cipher_rekey,@function
noise_cipher_rekey:
	.cfi_startproc
	sub	sp, sp, #80
	stp	x29, x30, [sp, #48]
	stp	x20, x19, [sp, #64]
	add	x29, sp, #48
	.cfi_def_cfa w29, 32
	.cfi_offset w19, -8
	.cfi_offset w20, -16
	.cfi_offset w30, -24
	.cfi_offset w29, -32
	ldr	w9, [x0]
	mov	w8, #2049
	str	xzr, [sp, #32]
	movk	w8, #20079, lsl #16
	and	w9, w9, #0xfffffeff
	cmp	w9, w8
	b.ne	.Lnoise_BB50_3
	ldrb	w8, [x0, #4]
	cbz	w8, .Lnoise_BB50_4
	mov	w0, #22
	ldp	x20, x19, [sp, #64]
	ldp	x29, x30, [sp, #48]
	add	sp, sp, #80
	ret
.Lnoise_BB50_3:
	mov	w0, #23
	ldp	x20, x19, [sp, #64]
	ldp	x29, x30, [sp, #48]
	add	sp, sp, #80
	ret
.Lnoise_BB50_4:
	mov	w8, #1
	ldur	q0, [x0, #5]
	ldur	q1, [x0, #21]
	strb	w8, [sp]
	ldr	x8, [x0, #40]
	mov	x19, x0
	mov	x0, sp
	stur	q0, [sp, #1]
	mov	x20, sp
	stur	q1, [sp, #17]
	str	x8, [sp, #40]
	bl	"noise_state::cipher::CipherState::rekey"
	ldrb	w8, [sp]
	cmp	w8, #1
	b.ne	.Lnoise_BB50_6
	orr	x8, x20, #0x1
	mov	w0, wzr
	ldp	q0, q1, [x8]
	stur	q0, [x19, #5]
	stur	q1, [x19, #21]
	ldp	x20, x19, [sp, #64]
	ldp	x29, x30, [sp, #48]
	add	sp, sp, #80
	ret
.Lnoise_BB50_6:
	mov	w0, wzr
	ldp	x20, x19, [sp, #64]
	ldp	x29, x30, [sp, #48]
	add	sp, sp, #80
	ret
.Lnoise_func_end50:
	.size	noise_cipher_rekey, .Lnoise_func_end50-noise_cipher_rekey
	.cfi_endproc

	.section	.text.noise_cipher_set_nonce,"ax",@progbits
	.globl	noise_cipher_set_nonce
	.p2align	2
	.type	noise_cipher_set_nonce,@function
noise_cipher_set_nonce:
	.cfi_startproc
	ldr	w9, [x0]
	mov	w8, #2049
	movk	w8, #20079, lsl #16
	and	w9, w9, #0xfffffeff
	cmp	w9, w8
	b.ne	.Lnoise_BB51_3
	ldrb	w8, [x0, #4]
	cbz	w8, .Lnoise_BB51_4
	mov	w0, #22
	ret
.Lnoise_BB51_3:
	mov	w0, #23
	ret
.Lnoise_BB51_4:
	mov	x8, x0
	mov	w0, wzr
	str	x1, [x8, #40]
	ret
.Lnoise_func_end51:
	.size	noise_cipher_set_nonce, .Lnoise_func_end51-noise_cipher_set_nonce
	.cfi_endproc

	.section	.text.noise_cipher_size,"ax",@progbits
	.globl	noise_cipher_size
	.p2align	2
	.type	noise_cipher_size,@function
noise_cipher_size:
	.cfi_startproc
	mov	w0, #48
	ret
.Lnoise_func_end52:
	.size	noise_cipher_size, .Lnoise_func_end52-noise_cipher_size
	.cfi_endproc

	.section	.text.noise_datagram_receiver_size,"ax",@progbits
	.globl	noise_datagram_receiver_size
	.p2align	2
	.type	noise_datagram_receiver_size,@function
noise_datagram_receiver_size:
	.cfi_startproc
	mov	w0, #192
	ret
.Lnoise_func_end53:
	.size	noise_datagram_receiver_size, .Lnoise_func_end53-noise_datagram_receiver_size
	.cfi_endproc

	.section	.text.noise_datagram_sender_size,"ax",@progbits
	.globl	noise_datagram_sender_size
	.p2align	2
	.type	noise_datagram_sender_size,@function
noise_datagram_sender_size:
	.cfi_startproc
	mov	w0, #48
	ret
.Lnoise_func_end54:
	.size	noise_datagram_sender_size, .Lnoise_func_end54-noise_datagram_sender_size
	.cfi_endproc

	.section	.text.noise_frame_find,"ax",@progbits
	.globl	noise_frame_find
	.p2align	2
	.type	noise_frame_find,@function
noise_frame_find:
	.cfi_startproc
	cmp	x1, #2
	b.hs	.Lnoise_BB55_2
	mov	w8, #2
	sub	x8, x8, x1
	mov	w0, #42
	str	x8, [x2, #24]
	ret
.Lnoise_BB55_2:
	cmp	x0, #0
	mov	w8, #4096
	csel	x8, x8, xzr, eq
	ldrh	w8, [x0, x8]
	rev16	w9, w8
	add	x8, x9, #2
	cmp	x1, x8
	b.hs	.Lnoise_BB55_4
	sub	x8, x8, x1
	mov	w0, #42
	str	x8, [x2, #24]
	ret
.Lnoise_BB55_4:
	mov	w0, wzr
	mov	w10, #2
	str	x8, [x2, #16]
	stp	x10, x9, [x2]
	ret
.Lnoise_func_end55:
	.size	noise_frame_find, .Lnoise_func_end55-noise_frame_find
	.cfi_endproc

	.section	.text.noise_frame_message,"ax",@progbits
	.globl	noise_frame_message
	.p2align	2
	.type	noise_frame_message,@function
noise_frame_message:
	.cfi_startproc
	lsr	x8, x2, #16
	cmp	x0, #0
	mov	w9, #4096
	csel	x9, x9, xzr, eq
	cbz	x8, .Lnoise_BB56_2
	mov	w0, #24
	ret
.Lnoise_BB56_2:
	subs	x10, x1, #2
	mov	w8, #18
	b.lo	.Lnoise_BB56_5
	cmp	x10, x2
	b.lo	.Lnoise_BB56_5
	rev	w10, w2
	mov	w8, wzr
	add	x11, x2, #2
	lsr	w10, w10, #16
	strh	w10, [x0, x9]
	str	x11, [x3, #8]
.Lnoise_BB56_5:
	mov	w0, w8
	ret
.Lnoise_func_end56:
	.size	noise_frame_message, .Lnoise_func_end56-noise_frame_message
	.cfi_endproc

	.section	.text.noise_handshake_size,"ax",@progbits
	.globl	noise_handshake_size
	.p2align	2
	.type	noise_handshake_size,@function
noise_handshake_size:
	.cfi_startproc
	mov	w0, #1472
	ret
.Lnoise_func_end57:
	.size	noise_handshake_size, .Lnoise_func_end57-noise_handshake_size
	.cfi_endproc

	.section	.text.noise_receiver_size,"ax",@progbits
	.globl	noise_receiver_size
	.p2align	2
	.type	noise_receiver_size,@function
noise_receiver_size:
	.cfi_startproc
	mov	w0, #56
	ret
.Lnoise_func_end58:
	.size	noise_receiver_size, .Lnoise_func_end58-noise_receiver_size
	.cfi_endproc

	.section	.text.noise_sender_size,"ax",@progbits
	.globl	noise_sender_size
	.p2align	2
	.type	noise_sender_size,@function
noise_sender_size:
	.cfi_startproc
	mov	w0, #56
	ret
.Lnoise_func_end59:
	.size	noise_sender_size, .Lnoise_func_end59-noise_sender_size
	.cfi_endproc

	.section	.text.noise_stream_receiver_size,"ax",@progbits
	.globl	noise_stream_receiver_size
	.p2align	2
	.type	noise_stream_receiver_size,@function
noise_stream_receiver_size:
	.cfi_startproc
	mov	w0, #64
	ret
.Lnoise_func_end60:
	.size	noise_stream_receiver_size, .Lnoise_func_end60-noise_stream_receiver_size
	.cfi_endproc

	.section	.text.noise_stream_sender_size,"ax",@progbits
	.globl	noise_stream_sender_size
	.p2align	2
	.type	noise_stream_sender_size,@function
noise_stream_sender_size:
	.cfi_startproc
	mov	w0, #64
	ret
.Lnoise_func_end61:
	.size	noise_stream_sender_size, .Lnoise_func_end61-noise_stream_sender_size
	.cfi_endproc

	.section	.text.noise_version,"ax",@progbits
	.globl	noise_version
	.p2align	2
	.type	noise_version,@function
noise_version:
	.cfi_startproc
	mov	w0, #65536
	ret
.Lnoise_func_end62:
	.size	noise_version, .Lnoise_func_end62-noise_version
	.cfi_endproc

	.section	.text.noise_answer,"ax",@progbits
	.globl	noise_answer
	.p2align	2
	.type	noise_answer,@function
noise_answer:
	.cfi_startproc
	ldr	w8, [x0]
	mov	w9, #257
	movk	w9, #20079, lsl #16
	cmp	w8, w9
	b.ne	.Lnoise_BB63_2
	ldrb	w8, [x0, #846]
	cmp	w8, #8
	b.ls	.Lnoise_BB63_3
.Lnoise_BB63_2:
	mov	w0, #23
	ret
.Lnoise_BB63_3:
	sub	sp, sp, #128
	.cfi_def_cfa_offset 128
	ldp	q0, q1, [x2]
	cmp	w8, #8
	stp	q0, q1, [sp, #32]
	ldp	q0, q2, [x3]
	stp	q0, q2, [sp]
	b.ne	.Lnoise_BB63_5
	ldp	q0, q1, [x2]
	add	x9, x0, #847
	add	x10, x0, #977
	add	x11, x0, #1042
	ldp	q3, q4, [x11, #32]
	stp	q0, q1, [sp, #96]
	ldp	q0, q2, [x3]
	stp	q0, q2, [sp, #64]
	ldp	q0, q1, [x0, #944]
	stp	q0, q1, [x9, #32]
	ldp	q0, q2, [x0, #912]
	stp	q0, q2, [x9]
	ldp	q1, q0, [x10]
	ldp	q2, q5, [x11]
	add	x9, x0, #1107
	str	q1, [x0, #912]
	stp	q2, q5, [x10]
	ldp	q2, q1, [x10, #32]
	stp	q3, q4, [x10, #32]
	ldp	q4, q3, [x9, #32]
	add	x10, x0, #1172
	stp	q0, q2, [x0, #928]
	stp	q4, q3, [x11, #32]
	ldp	q5, q3, [x9]
	ldp	q4, q6, [x10]
	str	q1, [x0, #960]
	stp	q5, q3, [x11]
	ldp	q5, q3, [x10, #32]
	add	x11, x0, #1237
	stp	q4, q6, [x9]
	stp	q5, q3, [x9, #32]
	ldp	q4, q3, [x11, #32]
	ldrb	w9, [x0, #976]
	stp	q4, q3, [x10, #32]
	ldp	q5, q3, [x11]
	strb	w9, [x0, #911]
	ldrb	w9, [x0, #1106]
	stp	q5, q3, [x10]
	ldrb	w10, [x0, #1041]
	strb	w9, [x0, #1041]
	ldrb	w9, [x0, #1236]
	strb	w10, [x0, #976]
	ldrb	w10, [x0, #1171]
	strb	w9, [x0, #1171]
	ldrb	w9, [x0, #1366]
	strb	w10, [x0, #1106]
	ldrb	w10, [x0, #1301]
	strb	w9, [x0, #1301]
	add	x9, x0, #1302
	ldp	q2, q0, [x9, #32]
	strb	w10, [x0, #1236]
	add	x10, x0, #1335
	stp	q2, q0, [x11, #32]
	ldp	q0, q1, [x9]
	add	x9, x0, #1303
	strb	w1, [x0, #1302]
	mov	w0, wzr
	stp	q0, q1, [x11]
	ldp	q1, q0, [sp, #96]
	stp	q1, q0, [x9]
	ldp	q2, q0, [sp, #64]
	stp	q2, q0, [x10]
	add	sp, sp, #128
	ret
.Lnoise_BB63_5:
	add	x10, x8, x8, lsl #6
	ldp	q0, q1, [sp, #32]
	add	w8, w8, #1
	add	x10, x0, x10
	strb	w8, [x0, #846]
	mov	w0, wzr
	stp	q0, q1, [x10, #848]
	ldp	q0, q2, [sp]
	strb	w1, [x10, #847]
	stp	q0, q2, [x10, #880]
	add	sp, sp, #128
	ret
.Lnoise_func_end63:
	.size	noise_answer, .Lnoise_func_end63-noise_answer
	.cfi_endproc

	.section	.text.noise_datagram_sender_nonce,"ax",@progbits
	.globl	noise_datagram_sender_nonce
	.p2align	2
	.type	noise_datagram_sender_nonce,@function
noise_datagram_sender_nonce:
	.cfi_startproc
	ldr	w8, [x0]
	mov	w9, #1537
	movk	w9, #20079, lsl #16
	cmp	w8, w9
	b.ne	.Lnoise_BB64_3
	ldrb	w8, [x0, #4]
	sub	w8, w8, #1
	cmp	w8, #1
	b.hi	.Lnoise_BB64_3
	mov	x8, x0
	mov	w0, wzr
	ldr	x8, [x8, #40]
	str	x8, [x1]
	ret
.Lnoise_BB64_3:
	mov	w0, #23
	ret
.Lnoise_func_end64:
	.size	noise_datagram_sender_nonce, .Lnoise_func_end64-noise_datagram_sender_nonce
	.cfi_endproc

	.section	.text.noise_receiver_nonce,"ax",@progbits
	.globl	noise_receiver_nonce
	.p2align	2
	.type	noise_receiver_nonce,@function
noise_receiver_nonce:
	.cfi_startproc
	ldr	w8, [x0]
	mov	w9, #1025
	movk	w9, #20079, lsl #16
	cmp	w8, w9
	b.ne	.Lnoise_BB65_3
	ldrb	w8, [x0, #4]
	sub	w8, w8, #1
	cmp	w8, #1
	b.hi	.Lnoise_BB65_3
	mov	x8, x0
	mov	w0, wzr
	ldr	x8, [x8, #48]
	str	x8, [x1]
	ret
.Lnoise_BB65_3:
	mov	w0, #23
	ret
.Lnoise_func_end65:
	.size	noise_receiver_nonce, .Lnoise_func_end65-noise_receiver_nonce
	.cfi_endproc

	.section	.text.noise_sender_nonce,"ax",@progbits
	.globl	noise_sender_nonce
	.p2align	2
	.type	noise_sender_nonce,@function
noise_sender_nonce:
	.cfi_startproc
	ldr	w8, [x0]
	mov	w9, #769
	movk	w9, #20079, lsl #16
	cmp	w8, w9
	b.ne	.Lnoise_BB66_3
	ldrb	w8, [x0, #4]
	sub	w8, w8, #1
	cmp	w8, #1
	b.hi	.Lnoise_BB66_3
	mov	x8, x0
	mov	w0, wzr
	ldr	x8, [x8, #48]
	str	x8, [x1]
	ret
.Lnoise_BB66_3:
	mov	w0, #23
	ret
.Lnoise_func_end66:
	.size	noise_sender_nonce, .Lnoise_func_end66-noise_sender_nonce
	.cfi_endproc

	.section	.text.noise_open,"ax",@progbits
	.globl	noise_open
	.p2align	2
	.type	noise_open,@function
noise_open:
	.cfi_startproc
	sub	sp, sp, #144
	stp	x29, x30, [sp, #80]
	str	x23, [sp, #96]
	stp	x22, x21, [sp, #112]
	stp	x20, x19, [sp, #128]
	add	x29, sp, #80
	.cfi_def_cfa w29, 64
	.cfi_offset w19, -8
	.cfi_offset w20, -16
	.cfi_offset w21, -24
	.cfi_offset w22, -32
	.cfi_offset w23, -48
	.cfi_offset w30, -56
	.cfi_offset w29, -64
	ldr	w9, [x0]
	mov	w19, #1025
	cmp	x1, #0
	movk	w19, #20079, lsl #16
	mov	w8, #4096
	csel	x8, x8, xzr, eq
	cmp	w9, w19
	b.ne	.Lnoise_BB67_5
	ldrb	w9, [x0, #4]
	mov	x5, x2
	cmp	w9, #1
	b.eq	.Lnoise_BB67_6
	cmp	w9, #2
	b.ne	.Lnoise_BB67_5
	mov	w9, wzr
	mov	w10, #1
	lsr	x11, x5, #16
	cbz	x11, .Lnoise_BB67_7
.Lnoise_BB67_4:
	mov	w0, #24
	ldp	x20, x19, [sp, #128]
	ldr	x23, [sp, #96]
	ldp	x22, x21, [sp, #112]
	ldp	x29, x30, [sp, #80]
	add	sp, sp, #144
	ret
.Lnoise_BB67_5:
	mov	w0, #23
	ldp	x20, x19, [sp, #128]
	ldr	x23, [sp, #96]
	ldp	x22, x21, [sp, #112]
	ldp	x29, x30, [sp, #80]
	add	sp, sp, #144
	ret
.Lnoise_BB67_6:
	mov	w10, wzr
	lsr	x11, x5, #16
	cbnz	x11, .Lnoise_BB67_4
.Lnoise_BB67_7:
	ldrb	w11, [x0, #5]
	strb	w10, [sp]
	ldr	x10, [x0, #40]
	ldur	q0, [x0, #6]
	stur	wzr, [sp, #2]
	cmp	w11, #0
	str	x10, [sp, #8]
	cset	w10, ne
	stur	q0, [sp, #17]
	ldur	q0, [x0, #22]
	strb	w10, [sp, #1]
	mov	w10, #1
	csel	w9, wzr, w9, eq
	strb	w10, [sp, #16]
	ldr	x10, [x0, #48]
	strh	wzr, [sp, #6]
	stur	q0, [sp, #33]
	stur	wzr, [sp, #49]
	str	wzr, [sp, #52]
	str	x10, [sp, #56]
	stp	xzr, xzr, [x29, #-16]
	tbz	w9, #0, .Lnoise_BB67_9
	mov	w0, #22
	ldp	x20, x19, [sp, #128]
	ldr	x23, [sp, #96]
	ldp	x22, x21, [sp, #112]
	ldp	x29, x30, [sp, #80]
	add	sp, sp, #144
	ret
.Lnoise_BB67_9:
	mov	x20, sp
	mov	x9, x1
	mov	x21, x3
	mov	x22, x0
	adrp	x2, .Lnoise_static.1
	add	x2, x2, :lo12:.Lnoise_static.1
	sub	x0, x29, #16
	add	x1, x20, #16
	add	x4, x9, x8
	mov	x3, xzr
	bl	"noise_state::cipher::CipherState::decrypt"
	ldurb	w8, [x29, #-16]
	cbz	w8, .Lnoise_BB67_13
	ldurb	w8, [x29, #-15]
	cmp	w8, #1
	b.gt	.Lnoise_BB67_16
	cbnz	w8, .Lnoise_BB67_18
	mov	w0, #17
	ldp	x20, x19, [sp, #128]
	ldr	x23, [sp, #96]
	ldp	x22, x21, [sp, #112]
	ldp	x29, x30, [sp, #80]
	add	sp, sp, #144
	ret
.Lnoise_BB67_13:
	ldr	x9, [sp, #8]
	ldur	x23, [x29, #-8]
	ldr	x8, [sp, #56]
	cbz	x9, .Lnoise_BB67_19
	udiv	x10, x8, x9
	mov	x11, x21
	msub	x12, x10, x9, x8
	mov	x10, x22
	cbnz	x12, .Lnoise_BB67_20
	add	x0, x20, #16
	bl	"noise_state::cipher::CipherState::rekey"
	ldr	x9, [sp, #8]
	ldr	x8, [sp, #56]
	mov	x11, x21
	mov	x10, x22
	b	.Lnoise_BB67_20
.Lnoise_BB67_16:
	cmp	w8, #2
	b.ne	.Lnoise_BB67_22
	mov	w0, #15
	ldp	x20, x19, [sp, #128]
	ldr	x23, [sp, #96]
	ldp	x22, x21, [sp, #112]
	ldp	x29, x30, [sp, #80]
	add	sp, sp, #144
	ret
.Lnoise_BB67_18:
	mov	w0, #16
	ldp	x20, x19, [sp, #128]
	ldr	x23, [sp, #96]
	ldp	x22, x21, [sp, #112]
	ldp	x29, x30, [sp, #80]
	add	sp, sp, #144
	ret
.Lnoise_BB67_19:
	mov	x10, x22
	mov	x11, x21
.Lnoise_BB67_20:
	ldrb	w12, [sp, #16]
	stp	xzr, x23, [x11]
	cmp	w12, #1
	b.ne	.Lnoise_BB67_22
	ldrb	w11, [sp, #1]
	ldur	q0, [x20, #17]
	mov	w13, #1
	ldrb	w12, [sp]
	mov	w0, wzr
	str	w19, [x10]
	stur	q0, [x10, #6]
	ldur	q0, [x20, #33]
	and	w11, w11, #0x1
	cmp	w12, #0
	strb	w11, [x10, #5]
	cinc	w11, w13, ne
	stur	q0, [x10, #22]
	strb	w11, [x10, #4]
	strh	wzr, [x10, #38]
	stp	x9, x8, [x10, #40]
	ldp	x20, x19, [sp, #128]
	ldr	x23, [sp, #96]
	ldp	x22, x21, [sp, #112]
	ldp	x29, x30, [sp, #80]
	add	sp, sp, #144
	ret
.Lnoise_BB67_22:
	brk	#0x1
.Lnoise_func_end67:
	.size	noise_open, .Lnoise_func_end67-noise_open
	.cfi_endproc

	.section	.text.noise_datagram_seal,"ax",@progbits
	.globl	noise_datagram_seal
	.p2align	2
	.type	noise_datagram_seal,@function
noise_datagram_seal:
	.cfi_startproc
	sub	sp, sp, #160
	stp	x29, x30, [sp, #80]
	str	x25, [sp, #96]
	stp	x24, x23, [sp, #112]
	stp	x22, x21, [sp, #128]
	stp	x20, x19, [sp, #144]
	add	x29, sp, #80
	.cfi_def_cfa w29, 80
	.cfi_offset w19, -8
	.cfi_offset w20, -16
	.cfi_offset w21, -24
	.cfi_offset w22, -32
	.cfi_offset w23, -40
	.cfi_offset w24, -48
	.cfi_offset w25, -64
	.cfi_offset w30, -72
	.cfi_offset w29, -80
	mov	w8, #4096
	cmp	x1, #0
	ldr	w11, [x0]
	mov	w20, #1537
	csel	x9, x8, xzr, eq
	cmp	x3, #0
	movk	w20, #20079, lsl #16
	csel	x10, x8, xzr, eq
	cmp	w11, w20
	b.ne	.Lnoise_BB68_4
	ldrb	w8, [x0, #4]
	cmp	w8, #1
	b.eq	.Lnoise_BB68_6
	cmp	w8, #2
	b.ne	.Lnoise_BB68_4
	mov	w11, #1
	mov	w8, #1
	b	.Lnoise_BB68_7
.Lnoise_BB68_4:
	mov	w8, #23
.Lnoise_BB68_5:
	ldp	x20, x19, [sp, #144]
	mov	w0, w8
	ldp	x22, x21, [sp, #128]
	ldr	x25, [sp, #96]
	ldp	x24, x23, [sp, #112]
	ldp	x29, x30, [sp, #80]
	add	sp, sp, #160
	ret
.Lnoise_BB68_6:
	mov	w11, wzr
	mov	w8, wzr
.Lnoise_BB68_7:
	ldrb	w12, [x0, #5]
	ldur	q0, [x0, #6]
	mov	w13, #1
	strb	w8, [sp]
	ldr	x21, [x0, #40]
	cmp	w12, #0
	stur	q0, [sp, #17]
	ldur	q0, [x0, #22]
	cset	w8, ne
	strb	w13, [sp, #16]
	subs	x13, x4, #24
	strb	w8, [sp, #1]
	mov	w8, #18
	stur	xzr, [sp, #2]
	str	xzr, [sp, #8]
	stur	q0, [sp, #33]
	stur	wzr, [sp, #49]
	str	wzr, [sp, #52]
	str	x21, [sp, #56]
	b.lo	.Lnoise_BB68_5
	cmp	x13, x2
	b.lo	.Lnoise_BB68_5
	cmp	w12, #0
	csel	w8, wzr, w11, eq
	tbz	w8, #0, .Lnoise_BB68_11
	mov	w8, #22
	b	.Lnoise_BB68_5
.Lnoise_BB68_11:
	lsr	x8, x2, #4
	cmp	x8, #4094
	b.ls	.Lnoise_BB68_13
	mov	w8, #11
	b	.Lnoise_BB68_5
.Lnoise_BB68_13:
	cmn	x21, #1
	b.eq	.Lnoise_BB68_20
	add	x23, x3, x10
	add	x8, x1, x9
	mov	x22, sp
	add	x11, x23, #8
	sub	x11, x11, x8
	cmp	x11, x2
	b.hs	.Lnoise_BB68_21
	cmp	x2, #7
	b.ls	.Lnoise_BB68_17
	add	x8, x10, x3
	add	x11, x9, x1
	sub	x8, x8, x11
	add	x8, x8, #8
	cmp	x8, #32
	b.hs	.Lnoise_BB68_28
.Lnoise_BB68_17:
	mov	x24, x5
	mov	x25, x0
	mov	x8, xzr
.Lnoise_BB68_18:
	add	x10, x10, x8
	add	x9, x9, x8
	sub	x8, x2, x8
	add	x10, x10, x3
	add	x9, x1, x9
	add	x10, x10, #8
.Lnoise_BB68_19:
	ldrb	w11, [x9], #1
	subs	x8, x8, #1
	strb	w11, [x10], #1
	b.ne	.Lnoise_BB68_19
	b	.Lnoise_BB68_22
.Lnoise_BB68_20:
	mov	w8, #17
	b	.Lnoise_BB68_5
.Lnoise_BB68_21:
	mov	x25, x0
	add	x0, x23, #8
	mov	x1, x8
	mov	x24, x5
	mov	x19, x2
	bl	memmove
	mov	x2, x19
.Lnoise_BB68_22:
	adrp	x8, .Lnoise_static.1
	add	x8, x8, :lo12:.Lnoise_static.1
	sub	x0, x29, #16
	add	x1, x22, #16
	add	x4, x23, #8
	mov	x5, x2
	mov	x2, x8
	mov	x3, xzr
	stp	xzr, xzr, [x29, #-16]
	bl	"noise_state::cipher::CipherState::encrypt"
	ldurb	w8, [x29, #-16]
	cbnz	w8, .Lnoise_BB68_37
	ldr	x8, [sp, #8]
	ldur	x19, [x29, #-8]
	ldr	x9, [sp, #56]
	cbz	x8, .Lnoise_BB68_26
	udiv	x10, x9, x8
	msub	x8, x10, x8, x9
	cbnz	x8, .Lnoise_BB68_26
	add	x0, x22, #16
	bl	"noise_state::cipher::CipherState::rekey"
	ldr	x9, [sp, #56]
.Lnoise_BB68_26:
	ldrb	w10, [sp, #16]
	rev	x8, x21
	str	x8, [x23]
	add	x8, x19, #8
	cmp	w10, #1
	stp	xzr, x8, [x24]
	b.ne	.Lnoise_BB68_37
	ldrb	w10, [sp, #1]
	ldur	q0, [x22, #17]
	mov	w12, #1
	ldrb	w11, [sp]
	mov	w8, wzr
	str	w20, [x25]
	stur	q0, [x25, #6]
	ldur	q0, [x22, #33]
	and	w10, w10, #0x1
	cmp	w11, #0
	strb	w10, [x25, #5]
	cinc	w10, w12, ne
	stur	q0, [x25, #22]
	strb	w10, [x25, #4]
	strh	wzr, [x25, #38]
	str	x9, [x25, #40]
	b	.Lnoise_BB68_5
.Lnoise_BB68_28:
	mov	x24, x5
	mov	x25, x0
	cmp	x2, #32
	b.hs	.Lnoise_BB68_30
	mov	x8, xzr
	b	.Lnoise_BB68_34
.Lnoise_BB68_30:
	add	x12, x9, x1
	add	x13, x10, x3
	and	x11, x2, #0x18
	and	x8, x2, #0xffe0
	add	x12, x12, #16
	add	x13, x13, #24
	and	x14, x2, #0xffe0
.Lnoise_BB68_31:
	ldp	q0, q1, [x12, #-16]
	subs	x14, x14, #32
	add	x12, x12, #32
	stp	q0, q1, [x13, #-16]
	add	x13, x13, #32
	b.ne	.Lnoise_BB68_31
	cmp	x2, x8
	b.eq	.Lnoise_BB68_22
	cbz	x11, .Lnoise_BB68_18
.Lnoise_BB68_34:
	mov	x11, x8
	and	x8, x2, #0xfff8
	add	x12, x10, x11
	add	x13, x9, x11
	sub	x11, x11, x8
	add	x14, x12, x3
	add	x12, x1, x13
	add	x13, x14, #8
.Lnoise_BB68_35:
	ldr	d0, [x12], #8
	adds	x11, x11, #8
	str	d0, [x13], #8
	b.ne	.Lnoise_BB68_35
	cmp	x2, x8
	b.ne	.Lnoise_BB68_18
	b	.Lnoise_BB68_22
.Lnoise_BB68_37:
	brk	#0x1
.Lnoise_func_end68:
	.size	noise_datagram_seal, .Lnoise_func_end68-noise_datagram_seal
	.cfi_endproc

	.section	.text.noise_datagram_seal_in_place,"ax",@progbits
	.globl	noise_datagram_seal_in_place
	.p2align	2
	.type	noise_datagram_seal_in_place,@function
noise_datagram_seal_in_place:
	.cfi_startproc
	sub	sp, sp, #160
	stp	x29, x30, [sp, #80]
	str	x25, [sp, #96]
	stp	x24, x23, [sp, #112]
	stp	x22, x21, [sp, #128]
	stp	x20, x19, [sp, #144]
	add	x29, sp, #80
	.cfi_def_cfa w29, 80
	.cfi_offset w19, -8
	.cfi_offset w20, -16
	.cfi_offset w21, -24
	.cfi_offset w22, -32
	.cfi_offset w23, -40
	.cfi_offset w24, -48
	.cfi_offset w25, -64
	.cfi_offset w30, -72
	.cfi_offset w29, -80
	ldr	w8, [x0]
	mov	w19, #1537
	cmp	x1, #0
	movk	w19, #20079, lsl #16
	mov	w9, #4096
	csel	x9, x9, xzr, eq
	cmp	w8, w19
	b.ne	.Lnoise_BB69_4
	ldrb	w8, [x0, #4]
	mov	x5, x3
	cmp	w8, #1
	b.eq	.Lnoise_BB69_6
	cmp	w8, #2
	b.ne	.Lnoise_BB69_4
	mov	w10, #1
	mov	w8, #1
	b	.Lnoise_BB69_7
.Lnoise_BB69_4:
	mov	w8, #23
.Lnoise_BB69_5:
	ldp	x20, x19, [sp, #144]
	mov	w0, w8
	ldp	x22, x21, [sp, #128]
	ldr	x25, [sp, #96]
	ldp	x24, x23, [sp, #112]
	ldp	x29, x30, [sp, #80]
	add	sp, sp, #160
	ret
.Lnoise_BB69_6:
	mov	w10, wzr
	mov	w8, wzr
.Lnoise_BB69_7:
	ldrb	w11, [x0, #5]
	ldur	q0, [x0, #6]
	mov	w12, #1
	strb	w8, [sp]
	ldr	x20, [x0, #40]
	cmp	w11, #0
	stur	q0, [sp, #17]
	ldur	q0, [x0, #22]
	cset	w8, ne
	strb	w12, [sp, #16]
	subs	x12, x2, #24
	strb	w8, [sp, #1]
	mov	w8, #18
	stur	xzr, [sp, #2]
	str	xzr, [sp, #8]
	stur	q0, [sp, #33]
	stur	wzr, [sp, #49]
	str	wzr, [sp, #52]
	str	x20, [sp, #56]
	b.lo	.Lnoise_BB69_5
	cmp	x12, x5
	b.lo	.Lnoise_BB69_5
	cmp	w11, #0
	csel	w8, wzr, w10, eq
	tbz	w8, #0, .Lnoise_BB69_11
	mov	w8, #22
	b	.Lnoise_BB69_5
.Lnoise_BB69_11:
	lsr	x8, x5, #4
	cmp	x8, #4094
	b.ls	.Lnoise_BB69_13
	mov	w8, #11
	b	.Lnoise_BB69_5
.Lnoise_BB69_13:
	cmn	x20, #1
	b.eq	.Lnoise_BB69_20
	add	x22, x1, x9
	mov	x21, sp
	mov	x24, x4
	mov	x23, x0
	adrp	x2, .Lnoise_static.1
	add	x2, x2, :lo12:.Lnoise_static.1
	sub	x0, x29, #16
	add	x1, x21, #16
	add	x4, x22, #8
	mov	x3, xzr
	stp	xzr, xzr, [x29, #-16]
	bl	"noise_state::cipher::CipherState::encrypt"
	ldurb	w8, [x29, #-16]
	cbnz	w8, .Lnoise_BB69_21
	ldr	x11, [sp, #8]
	ldur	x25, [x29, #-8]
	mov	x10, x23
	ldr	x9, [sp, #56]
	mov	x8, x24
	cbz	x11, .Lnoise_BB69_18
	udiv	x12, x9, x11
	msub	x11, x12, x11, x9
	cbnz	x11, .Lnoise_BB69_18
	add	x0, x21, #16
	bl	"noise_state::cipher::CipherState::rekey"
	ldr	x9, [sp, #56]
	mov	x8, x24
	mov	x10, x23
.Lnoise_BB69_18:
	ldrb	w12, [sp, #16]
	rev	x11, x20
	str	x11, [x22]
	add	x11, x25, #8
	cmp	w12, #1
	stp	xzr, x11, [x8]
	b.ne	.Lnoise_BB69_21
	ldrb	w11, [sp, #1]
	ldur	q0, [x21, #17]
	mov	w13, #1
	ldrb	w12, [sp]
	mov	w8, wzr
	str	w19, [x10]
	stur	q0, [x10, #6]
	ldur	q0, [x21, #33]
	and	w11, w11, #0x1
	cmp	w12, #0
	strb	w11, [x10, #5]
	cinc	w11, w13, ne
	stur	q0, [x10, #22]
	strb	w11, [x10, #4]
	strh	wzr, [x10, #38]
	str	x9, [x10, #40]
	b	.Lnoise_BB69_5
.Lnoise_BB69_20:
	mov	w8, #17
	b	.Lnoise_BB69_5
.Lnoise_BB69_21:
	brk	#0x1
.Lnoise_func_end69:
	.size	noise_datagram_seal_in_place, .Lnoise_func_end69-noise_datagram_seal_in_place
	.cfi_endproc

	.section	.text.noise_seal,"ax",@progbits
	.globl	noise_seal
	.p2align	2
	.type	noise_seal,@function
noise_seal:
	.cfi_startproc
	sub	sp, sp, #144
	stp	x29, x30, [sp, #80]
	stp	x24, x23, [sp, #96]
	stp	x22, x21, [sp, #112]
	stp	x20, x19, [sp, #128]
	add	x29, sp, #80
	.cfi_def_cfa w29, 64
	.cfi_offset w19, -8
	.cfi_offset w20, -16
	.cfi_offset w21, -24
	.cfi_offset w22, -32
	.cfi_offset w23, -40
	.cfi_offset w24, -48
	.cfi_offset w30, -56
	.cfi_offset w29, -64
	mov	w8, #4096
	cmp	x1, #0
	ldr	w11, [x0]
	mov	w21, #769
	csel	x10, x8, xzr, eq
	cmp	x3, #0
	movk	w21, #20079, lsl #16
	csel	x9, x8, xzr, eq
	cmp	w11, w21
	b.ne	.Lnoise_BB70_4
	ldrb	w8, [x0, #4]
	cmp	w8, #1
	b.eq	.Lnoise_BB70_6
	cmp	w8, #2
	b.ne	.Lnoise_BB70_4
	mov	w11, #1
	mov	w12, #1
	subs	x13, x4, #16
	mov	w8, #18
	b.hs	.Lnoise_BB70_7
	b	.Lnoise_BB70_5
.Lnoise_BB70_4:
	mov	w8, #23
.Lnoise_BB70_5:
	ldp	x20, x19, [sp, #128]
	mov	w0, w8
	ldp	x22, x21, [sp, #112]
	ldp	x24, x23, [sp, #96]
	ldp	x29, x30, [sp, #80]
	add	sp, sp, #144
	ret
.Lnoise_BB70_6:
	mov	w11, wzr
	mov	w12, wzr
	subs	x13, x4, #16
	mov	w8, #18
	b.lo	.Lnoise_BB70_5
.Lnoise_BB70_7:
	cmp	x13, x2
	b.lo	.Lnoise_BB70_5
	ldrb	w8, [x0, #5]
	ldur	q0, [x0, #6]
	strb	w12, [sp]
	stur	wzr, [sp, #2]
	cmp	w8, #0
	stur	q0, [sp, #17]
	ldur	q0, [x0, #22]
	cset	w8, ne
	csel	w11, wzr, w11, eq
	strh	wzr, [sp, #6]
	strb	w8, [sp, #1]
	mov	w8, #1
	strb	w8, [sp, #16]
	ldp	x12, x8, [x0, #40]
	str	x12, [sp, #8]
	stur	q0, [sp, #33]
	stur	wzr, [sp, #49]
	str	wzr, [sp, #52]
	str	x8, [sp, #56]
	tbz	w11, #0, .Lnoise_BB70_10
	mov	w8, #22
	b	.Lnoise_BB70_5
.Lnoise_BB70_10:
	lsr	x11, x2, #4
	cmp	x11, #4094
	b.ls	.Lnoise_BB70_12
	mov	w8, #11
	b	.Lnoise_BB70_5
.Lnoise_BB70_12:
	cmn	x8, #1
	b.eq	.Lnoise_BB70_19
	add	x8, x1, x10
	add	x19, x3, x9
	mov	x22, sp
	sub	x11, x19, x8
	cmp	x11, x2
	b.hs	.Lnoise_BB70_20
	cmp	x2, #7
	b.ls	.Lnoise_BB70_16
	add	x8, x9, x3
	add	x11, x10, x1
	sub	x8, x8, x11
	cmp	x8, #32
	b.hs	.Lnoise_BB70_27
.Lnoise_BB70_16:
	mov	x23, x5
	mov	x24, x0
	mov	x8, xzr
.Lnoise_BB70_17:
	add	x10, x10, x8
	add	x11, x9, x8
	sub	x8, x2, x8
	add	x9, x1, x10
	add	x10, x3, x11
.Lnoise_BB70_18:
	ldrb	w11, [x9], #1
	subs	x8, x8, #1
	strb	w11, [x10], #1
	b.ne	.Lnoise_BB70_18
	b	.Lnoise_BB70_21
.Lnoise_BB70_19:
	mov	w8, #17
	b	.Lnoise_BB70_5
.Lnoise_BB70_20:
	mov	x24, x0
	mov	x0, x19
	mov	x1, x8
	mov	x23, x5
	mov	x20, x2
	bl	memmove
	mov	x2, x20
.Lnoise_BB70_21:
	adrp	x8, .Lnoise_static.1
	add	x8, x8, :lo12:.Lnoise_static.1
	sub	x0, x29, #16
	add	x1, x22, #16
	mov	x5, x2
	mov	x2, x8
	mov	x3, xzr
	mov	x4, x19
	stp	xzr, xzr, [x29, #-16]
	bl	"noise_state::cipher::CipherState::encrypt"
	ldurb	w8, [x29, #-16]
	cbnz	w8, .Lnoise_BB70_36
	ldr	x10, [sp, #8]
	ldur	x19, [x29, #-8]
	ldr	x9, [sp, #56]
	cbz	x10, .Lnoise_BB70_25
	udiv	x8, x9, x10
	msub	x8, x8, x10, x9
	cbnz	x8, .Lnoise_BB70_25
	add	x0, x22, #16
	bl	"noise_state::cipher::CipherState::rekey"
	ldr	x10, [sp, #8]
	ldr	x9, [sp, #56]
.Lnoise_BB70_25:
	ldrb	w8, [sp, #16]
	stp	xzr, x19, [x23]
	cmp	w8, #1
	b.ne	.Lnoise_BB70_36
	ldrb	w11, [sp, #1]
	ldur	q0, [x22, #17]
	mov	w13, #1
	ldrb	w12, [sp]
	mov	w8, wzr
	str	w21, [x24]
	stur	q0, [x24, #6]
	ldur	q0, [x22, #33]
	and	w11, w11, #0x1
	cmp	w12, #0
	strb	w11, [x24, #5]
	cinc	w11, w13, ne
	stur	q0, [x24, #22]
	strb	w11, [x24, #4]
	strh	wzr, [x24, #38]
	stp	x10, x9, [x24, #40]
	b	.Lnoise_BB70_5
.Lnoise_BB70_27:
	mov	x23, x5
	mov	x24, x0
	cmp	x2, #32
	b.hs	.Lnoise_BB70_29
	mov	x8, xzr
	b	.Lnoise_BB70_33
.Lnoise_BB70_29:
	add	x12, x10, x1
	add	x13, x9, x3
	and	x11, x2, #0x18
	and	x8, x2, #0xffe0
	add	x12, x12, #16
	add	x13, x13, #16
	and	x14, x2, #0xffe0
.Lnoise_BB70_30:
	ldp	q0, q1, [x12, #-16]
	subs	x14, x14, #32
	add	x12, x12, #32
	stp	q0, q1, [x13, #-16]
	add	x13, x13, #32
	b.ne	.Lnoise_BB70_30
	cmp	x2, x8
	b.eq	.Lnoise_BB70_21
	cbz	x11, .Lnoise_BB70_17
.Lnoise_BB70_33:
	mov	x11, x8
	and	x8, x2, #0xfff8
	add	x12, x10, x11
	add	x13, x9, x11
	sub	x11, x11, x8
	add	x12, x1, x12
	add	x13, x3, x13
.Lnoise_BB70_34:
	ldr	d0, [x12], #8
	adds	x11, x11, #8
	str	d0, [x13], #8
	b.ne	.Lnoise_BB70_34
	cmp	x2, x8
	b.ne	.Lnoise_BB70_17
	b	.Lnoise_BB70_21
.Lnoise_BB70_36:
	brk	#0x1
.Lnoise_func_end70:
	.size	noise_seal, .Lnoise_func_end70-noise_seal
	.cfi_endproc

	.section	.text.noise_seal_in_place,"ax",@progbits
	.globl	noise_seal_in_place
	.p2align	2
	.type	noise_seal_in_place,@function
noise_seal_in_place:
	.cfi_startproc
	sub	sp, sp, #144
	stp	x29, x30, [sp, #80]
	str	x23, [sp, #96]
	stp	x22, x21, [sp, #112]
	stp	x20, x19, [sp, #128]
	add	x29, sp, #80
	.cfi_def_cfa w29, 64
	.cfi_offset w19, -8
	.cfi_offset w20, -16
	.cfi_offset w21, -24
	.cfi_offset w22, -32
	.cfi_offset w23, -48
	.cfi_offset w30, -56
	.cfi_offset w29, -64
	ldr	w8, [x0]
	mov	w19, #769
	cmp	x1, #0
	movk	w19, #20079, lsl #16
	mov	w9, #4096
	csel	x9, x9, xzr, eq
	cmp	w8, w19
	b.ne	.Lnoise_BB71_4
	ldrb	w8, [x0, #4]
	mov	x5, x3
	cmp	w8, #1
	b.eq	.Lnoise_BB71_6
	cmp	w8, #2
	b.ne	.Lnoise_BB71_4
	mov	w10, #1
	mov	w11, #1
	subs	x12, x2, #16
	mov	w8, #18
	b.hs	.Lnoise_BB71_7
	b	.Lnoise_BB71_5
.Lnoise_BB71_4:
	mov	w8, #23
.Lnoise_BB71_5:
	ldp	x20, x19, [sp, #128]
	mov	w0, w8
	ldp	x22, x21, [sp, #112]
	ldr	x23, [sp, #96]
	ldp	x29, x30, [sp, #80]
	add	sp, sp, #144
	ret
.Lnoise_BB71_6:
	mov	w10, wzr
	mov	w11, wzr
	subs	x12, x2, #16
	mov	w8, #18
	b.lo	.Lnoise_BB71_5
.Lnoise_BB71_7:
	cmp	x12, x5
	b.lo	.Lnoise_BB71_5
	ldrb	w8, [x0, #5]
	ldur	q0, [x0, #6]
	strb	w11, [sp]
	stur	wzr, [sp, #2]
	cmp	w8, #0
	stur	q0, [sp, #17]
	ldur	q0, [x0, #22]
	cset	w8, ne
	csel	w10, wzr, w10, eq
	strh	wzr, [sp, #6]
	strb	w8, [sp, #1]
	mov	w8, #1
	strb	w8, [sp, #16]
	ldp	x11, x8, [x0, #40]
	str	x11, [sp, #8]
	stur	q0, [sp, #33]
	stur	wzr, [sp, #49]
	str	wzr, [sp, #52]
	str	x8, [sp, #56]
	tbz	w10, #0, .Lnoise_BB71_10
	mov	w8, #22
	b	.Lnoise_BB71_5
.Lnoise_BB71_10:
	lsr	x10, x5, #4
	cmp	x10, #4094
	b.ls	.Lnoise_BB71_12
	mov	w8, #11
	b	.Lnoise_BB71_5
.Lnoise_BB71_12:
	cmn	x8, #1
	b.eq	.Lnoise_BB71_19
	mov	x20, sp
	mov	x8, x1
	mov	x22, x4
	mov	x21, x0
	adrp	x2, .Lnoise_static.1
	add	x2, x2, :lo12:.Lnoise_static.1
	sub	x0, x29, #16
	add	x1, x20, #16
	add	x4, x8, x9
	mov	x3, xzr
	stp	xzr, xzr, [x29, #-16]
	bl	"noise_state::cipher::CipherState::encrypt"
	ldurb	w8, [x29, #-16]
	cbnz	w8, .Lnoise_BB71_20
	ldr	x11, [sp, #8]
	ldur	x23, [x29, #-8]
	mov	x9, x21
	ldr	x10, [sp, #56]
	mov	x8, x22
	cbz	x11, .Lnoise_BB71_17
	udiv	x12, x10, x11
	msub	x12, x12, x11, x10
	cbnz	x12, .Lnoise_BB71_17
	add	x0, x20, #16
	bl	"noise_state::cipher::CipherState::rekey"
	ldr	x11, [sp, #8]
	ldr	x10, [sp, #56]
	mov	x8, x22
	mov	x9, x21
.Lnoise_BB71_17:
	ldrb	w12, [sp, #16]
	stp	xzr, x23, [x8]
	cmp	w12, #1
	b.ne	.Lnoise_BB71_20
	ldrb	w12, [sp, #1]
	ldur	q0, [x20, #17]
	mov	w14, #1
	ldrb	w13, [sp]
	mov	w8, wzr
	str	w19, [x9]
	stur	q0, [x9, #6]
	ldur	q0, [x20, #33]
	and	w12, w12, #0x1
	cmp	w13, #0
	strb	w12, [x9, #5]
	cinc	w12, w14, ne
	stur	q0, [x9, #22]
	strb	w12, [x9, #4]
	strh	wzr, [x9, #38]
	stp	x11, x10, [x9, #40]
	b	.Lnoise_BB71_5
.Lnoise_BB71_19:
	mov	w8, #17
	b	.Lnoise_BB71_5
.Lnoise_BB71_20:
	brk	#0x1
.Lnoise_func_end71:
	.size	noise_seal_in_place, .Lnoise_func_end71-noise_seal_in_place
	.cfi_endproc

	.section	.text.noise_sentence,"ax",@progbits
	.globl	noise_sentence
	.p2align	2
	.type	noise_sentence,@function
noise_sentence:
	.cfi_startproc
	cmp	w0, #45
	b.hi	.Lnoise_BB72_2
	adrp	x8, .Lnoise_switch.table.noise_sentence.201.rel
	add	x8, x8, :lo12:.Lnoise_switch.table.noise_sentence.201.rel
	adrp	x10, .Lnoise_switch.table.noise_sentence
	add	x10, x10, :lo12:.Lnoise_switch.table.noise_sentence
	ldrsw	x9, [x8, w0, uxtw #2]
	ldr	x0, [x10, w0, uxtw #3]
	add	x8, x8, x9
	str	x8, [x1]
	ret
.Lnoise_BB72_2:
	adrp	x8, .Lnoise_static.47
	add	x8, x8, :lo12:.Lnoise_static.47
	mov	w0, #41
	str	x8, [x1]
	ret
.Lnoise_func_end72:
	.size	noise_sentence, .Lnoise_func_end72-noise_sentence
	.cfi_endproc

	.section	.text.noise_hash,"ax",@progbits
	.globl	noise_hash
	.p2align	2
	.type	noise_hash,@function
noise_hash:
	.cfi_startproc
	stp	x29, x30, [sp, #-48]!
	stp	x28, x21, [sp, #16]
	mov	x29, sp
	stp	x20, x19, [sp, #32]
	sub	sp, sp, #1152
	str	xzr, [sp]
	.cfi_def_cfa w29, 48
	.cfi_offset w19, -8
	.cfi_offset w20, -16
	.cfi_offset w21, -24
	.cfi_offset w28, -32
	.cfi_offset w30, -40
	.cfi_offset w29, -48
	mov	x19, x1
	mov	x20, x0
	add	x0, sp, #280
	mov	w1, wzr
	mov	w2, #872
	bl	memset
	ldr	w8, [x20]
	mov	w9, #257
	movk	w9, #20079, lsl #16
	cmp	w8, w9
	b.ne	.Lnoise_BB73_7
	ldrh	w2, [x20, #420]
	cmp	x2, #416
	b.hi	.Lnoise_BB73_7
	ldrb	w8, [x20, #846]
	cmp	w8, #8
	b.hi	.Lnoise_BB73_7
	ldrb	w8, [x20, #557]
	cmp	w8, #9
	b.hi	.Lnoise_BB73_7
	mov	x0, sp
	add	x1, x20, #4
	mov	x21, sp
	bl	"noise_c::patterns::pattern_of"
	ldrb	w8, [sp]
	cbnz	w8, .Lnoise_BB73_7
	add	x0, sp, #280
	add	x2, x21, #8
	mov	x1, x20
	bl	"noise_c::from_c::restored"
	ldrb	w8, [sp, #280]
	cmp	w8, #1
	b.ne	.Lnoise_BB73_7
	add	x8, x20, #1399
	mov	w0, wzr
	ldp	q1, q0, [x8]
	stp	q1, q0, [x19]
	add	sp, sp, #1152
	ldp	x20, x19, [sp, #32]
	ldp	x28, x21, [sp, #16]
	ldp	x29, x30, [sp], #48
	ret
.Lnoise_BB73_7:
	mov	w0, #23
	add	sp, sp, #1152
	ldp	x20, x19, [sp, #32]
	ldp	x28, x21, [sp, #16]
	ldp	x29, x30, [sp], #48
	ret
.Lnoise_func_end73:
	.size	noise_hash, .Lnoise_func_end73-noise_hash
	.cfi_endproc

	.section	.text.noise_message_len,"ax",@progbits
	.globl	noise_message_len
	.p2align	2
	.type	noise_message_len,@function
noise_message_len:
	.cfi_startproc
	stp	x29, x30, [sp, #-64]!
	str	x28, [sp, #16]
	mov	x29, sp
	stp	x22, x21, [sp, #32]
	stp	x20, x19, [sp, #48]
	sub	sp, sp, #1152
	str	xzr, [sp]
	.cfi_def_cfa w29, 64
	.cfi_offset w19, -8
	.cfi_offset w20, -16
	.cfi_offset w21, -24
	.cfi_offset w22, -32
	.cfi_offset w28, -48
	.cfi_offset w30, -56
	.cfi_offset w29, -64
	mov	x19, x2
	mov	x20, x1
	mov	x21, x0
	add	x0, sp, #280
	mov	w1, wzr
	mov	w2, #872
	bl	memset
	ldr	w8, [x21]
	mov	w9, #257
	movk	w9, #20079, lsl #16
	cmp	w8, w9
	b.ne	.Lnoise_BB74_5
	ldrh	w2, [x21, #420]
	cmp	x2, #416
	b.hi	.Lnoise_BB74_5
	ldrb	w8, [x21, #846]
	cmp	w8, #8
	b.hi	.Lnoise_BB74_5
	ldrb	w8, [x21, #557]
	cmp	w8, #9
	b.hi	.Lnoise_BB74_5
	mov	x0, sp
	add	x1, x21, #4
	mov	x22, sp
	bl	"noise_c::patterns::pattern_of"
	ldrb	w8, [sp]
	cbz	w8, .Lnoise_BB74_7
.Lnoise_BB74_5:
	mov	w0, #23
.Lnoise_BB74_6:
	add	sp, sp, #1152
	ldp	x20, x19, [sp, #48]
	ldr	x28, [sp, #16]
	ldp	x22, x21, [sp, #32]
	ldp	x29, x30, [sp], #64
	ret
.Lnoise_BB74_7:
	add	x0, sp, #280
	add	x2, x22, #8
	mov	x1, x21
	bl	"noise_c::from_c::restored"
	ldrb	w8, [sp, #280]
	cmp	w8, #1
	b.ne	.Lnoise_BB74_13
	ldrb	w8, [sp, #592]
	ldrb	w9, [sp, #977]
	mov	w0, #29
	cmp	w8, #0
	cset	w8, ne
	tbnz	w9, #0, .Lnoise_BB74_6
	ldr	x10, [sp, #552]
	ldrb	w9, [sp, #976]
	cmp	x10, x9
	b.eq	.Lnoise_BB74_6
	eor	w8, w8, w9
	tbnz	w8, #0, .Lnoise_BB74_6
	ldrh	w8, [sp, #1032]
	mvn	w9, w8
	and	x9, x9, #0xffff
	cmp	x20, x9
	b.hi	.Lnoise_BB74_6
	mov	w0, wzr
	add	x8, x20, x8
	str	x8, [x19]
	add	sp, sp, #1152
	ldp	x20, x19, [sp, #48]
	ldr	x28, [sp, #16]
	ldp	x22, x21, [sp, #32]
	ldp	x29, x30, [sp], #64
	ret
.Lnoise_BB74_13:
	mov	w0, #23
	add	sp, sp, #1152
	ldp	x20, x19, [sp, #48]
	ldr	x28, [sp, #16]
	ldp	x22, x21, [sp, #32]
	ldp	x29, x30, [sp], #64
	ret
.Lnoise_func_end74:
	.size	noise_message_len, .Lnoise_func_end74-noise_message_len
	.cfi_endproc

	.section	.text.noise_remote_static,"ax",@progbits
	.globl	noise_remote_static
	.p2align	2
	.type	noise_remote_static,@function
noise_remote_static:
	.cfi_startproc
	stp	x29, x30, [sp, #-48]!
	stp	x28, x21, [sp, #16]
	mov	x29, sp
	stp	x20, x19, [sp, #32]
	sub	sp, sp, #1200
	str	xzr, [sp]
	.cfi_def_cfa w29, 48
	.cfi_offset w19, -8
	.cfi_offset w20, -16
	.cfi_offset w21, -24
	.cfi_offset w28, -32
	.cfi_offset w30, -40
	.cfi_offset w29, -48
	mov	x19, x1
	mov	x20, x0
	add	x0, sp, #320
	mov	w1, wzr
	mov	w2, #872
	bl	memset
	ldr	w8, [x20]
	mov	w9, #257
	movk	w9, #20079, lsl #16
	cmp	w8, w9
	b.ne	.Lnoise_BB75_8
	ldrh	w2, [x20, #420]
	cmp	x2, #416
	b.hi	.Lnoise_BB75_8
	ldrb	w8, [x20, #846]
	cmp	w8, #8
	b.hi	.Lnoise_BB75_8
	ldrb	w8, [x20, #557]
	cmp	w8, #9
	b.hi	.Lnoise_BB75_8
	add	x0, sp, #32
	add	x1, x20, #4
	add	x21, sp, #32
	bl	"noise_c::patterns::pattern_of"
	ldrb	w8, [sp, #32]
	cbnz	w8, .Lnoise_BB75_8
	add	x0, sp, #320
	add	x2, x21, #8
	mov	x1, x20
	add	x20, sp, #320
	bl	"noise_c::from_c::restored"
	add	x8, x20, #354
	ldrb	w9, [sp, #320]
	ldp	q0, q1, [x8]
	ldrb	w8, [sp, #673]
	cmp	w9, #1
	stp	q0, q1, [sp]
	b.ne	.Lnoise_BB75_8
	cmp	w8, #1
	b.ne	.Lnoise_BB75_9
	ldp	q0, q1, [sp]
	stp	q0, q1, [sp, #320]
	b	.Lnoise_BB75_10
.Lnoise_BB75_8:
	mov	w0, #23
	add	sp, sp, #1200
	ldp	x20, x19, [sp, #32]
	ldp	x28, x21, [sp, #16]
	ldp	x29, x30, [sp], #48
	ret
.Lnoise_BB75_9:
	movi	v0.2d, #0000000000000000
	stp	q0, q0, [sp, #320]
.Lnoise_BB75_10:
	ldp	q0, q1, [sp, #320]
	mov	w0, wzr
	strb	w8, [x19]
	stp	q0, q1, [sp, #32]
	stur	q0, [x19, #1]
	stur	q1, [x19, #17]
	add	sp, sp, #1200
	ldp	x20, x19, [sp, #32]
	ldp	x28, x21, [sp, #16]
	ldp	x29, x30, [sp], #48
	ret
.Lnoise_func_end75:
	.size	noise_remote_static, .Lnoise_func_end75-noise_remote_static
	.cfi_endproc

	.section	.text.noise_stage,"ax",@progbits
	.globl	noise_stage
	.p2align	2
	.type	noise_stage,@function
noise_stage:
	.cfi_startproc
	stp	x29, x30, [sp, #-48]!
	stp	x28, x21, [sp, #16]
	mov	x29, sp
	stp	x20, x19, [sp, #32]
	sub	sp, sp, #1152
	str	xzr, [sp]
	.cfi_def_cfa w29, 48
	.cfi_offset w19, -8
	.cfi_offset w20, -16
	.cfi_offset w21, -24
	.cfi_offset w28, -32
	.cfi_offset w30, -40
	.cfi_offset w29, -48
	mov	x19, x1
	mov	x20, x0
	add	x0, sp, #280
	mov	w1, wzr
	mov	w2, #872
	bl	memset
	ldr	w8, [x20]
	mov	w9, #257
	movk	w9, #20079, lsl #16
	cmp	w8, w9
	b.ne	.Lnoise_BB76_7
	ldrh	w2, [x20, #420]
	cmp	x2, #416
	b.hi	.Lnoise_BB76_7
	ldrb	w8, [x20, #846]
	cmp	w8, #8
	b.hi	.Lnoise_BB76_7
	ldrb	w8, [x20, #557]
	cmp	w8, #9
	b.hi	.Lnoise_BB76_7
	mov	x0, sp
	add	x1, x20, #4
	mov	x21, sp
	bl	"noise_c::patterns::pattern_of"
	ldrb	w8, [sp]
	cbnz	w8, .Lnoise_BB76_7
	add	x0, sp, #280
	add	x2, x21, #8
	mov	x1, x20
	bl	"noise_c::from_c::restored"
	ldrb	w8, [sp, #280]
	cmp	w8, #1
	b.ne	.Lnoise_BB76_7
	ldrb	w8, [sp, #592]
	ldr	x9, [sp, #552]
	mov	w0, wzr
	ldrb	w10, [sp, #976]
	cmp	w8, #0
	ldrb	w8, [sp, #977]
	strb	w9, [x19]
	cset	w9, eq
	strb	w10, [x19, #1]
	eor	w9, w9, w10
	strb	w8, [x19, #2]
	and	w8, w9, #0x1
	strb	w8, [x19, #3]
	add	sp, sp, #1152
	ldp	x20, x19, [sp, #32]
	ldp	x28, x21, [sp, #16]
	ldp	x29, x30, [sp], #48
	ret
.Lnoise_BB76_7:
	mov	w0, #23
	add	sp, sp, #1152
	ldp	x20, x19, [sp, #32]
	ldp	x28, x21, [sp, #16]
	ldp	x29, x30, [sp], #48
	ret
.Lnoise_func_end76:
	.size	noise_stage, .Lnoise_func_end76-noise_stage
	.cfi_endproc

	.section	.text.noise_read,"ax",@progbits
	.globl	noise_read
	.p2align	2
	.type	noise_read,@function
noise_read:
	.cfi_startproc
	stp	x29, x30, [sp, #-32]!
	str	x19, [sp, #16]
	mov	x29, sp
	.cfi_def_cfa w29, 32
	.cfi_offset w19, -16
	.cfi_offset w30, -24
	.cfi_offset w29, -32
	cmp	x1, #0
	mov	w8, #4096
	mov	x19, x0
	csel	x8, x8, xzr, eq
	add	x1, x1, x8
	bl	"noise_c::messages::read_next"
	sub	w8, w0, #15
	cmp	w8, #1
	b.hi	.Lnoise_BB77_2
	mov	w8, #1
	strb	w8, [x19, #423]
.Lnoise_BB77_2:
	ldr	x19, [sp, #16]
	ldp	x29, x30, [sp], #32
	ret
.Lnoise_func_end77:
	.size	noise_read, .Lnoise_func_end77-noise_read
	.cfi_endproc

	.section	.text.noise_try_read,"ax",@progbits
	.globl	noise_try_read
	.p2align	2
	.type	noise_try_read,@function
noise_try_read:
	.cfi_startproc
	mov	w8, #4096
	cmp	x1, #0
	csel	x8, x8, xzr, eq
	add	x1, x1, x8
	b	"noise_c::messages::read_next"
.Lnoise_func_end78:
	.size	noise_try_read, .Lnoise_func_end78-noise_try_read
	.cfi_endproc

	.section	.text.noise_set_psk,"ax",@progbits
	.globl	noise_set_psk
	.p2align	2
	.type	noise_set_psk,@function
noise_set_psk:
	.cfi_startproc
	stp	x29, x30, [sp, #-64]!
	str	x28, [sp, #16]
	mov	x29, sp
	stp	x22, x21, [sp, #32]
	stp	x20, x19, [sp, #48]
	sub	sp, sp, #2016
	str	xzr, [sp]
	.cfi_def_cfa w29, 64
	.cfi_offset w19, -8
	.cfi_offset w20, -16
	.cfi_offset w21, -24
	.cfi_offset w22, -32
	.cfi_offset w28, -48
	.cfi_offset w30, -56
	.cfi_offset w29, -64
	mov	x20, x1
	mov	x19, x0
	add	x0, sp, #1144
	mov	w1, wzr
	mov	w2, #872
	bl	memset
	ldr	w8, [x19]
	mov	w9, #257
	movk	w9, #20079, lsl #16
	cmp	w8, w9
	b.ne	.Lnoise_BB79_8
	ldrh	w2, [x19, #420]
	cmp	x2, #416
	b.hi	.Lnoise_BB79_8
	ldrb	w8, [x19, #846]
	cmp	w8, #8
	b.hi	.Lnoise_BB79_8
	ldrb	w8, [x19, #557]
	cmp	w8, #9
	b.hi	.Lnoise_BB79_8
	add	x0, sp, #864
	add	x1, x19, #4
	add	x21, sp, #864
	bl	"noise_c::patterns::pattern_of"
	ldrb	w8, [sp, #864]
	cbnz	w8, .Lnoise_BB79_8
	add	x0, sp, #1144
	add	x2, x21, #8
	mov	x1, x19
	add	x21, sp, #1144
	bl	"noise_c::from_c::restored"
	ldrb	w22, [sp, #1144]
	mov	x0, sp
	add	x1, x21, #8
	mov	w2, #864
	bl	memcpy
	cmp	w22, #1
	b.ne	.Lnoise_BB79_8
	add	x0, sp, #1144
	mov	x1, sp
	mov	w2, #864
	add	x21, sp, #1144
	bl	memcpy
	ldr	x8, [sp, #1408]
	ldrb	w10, [sp, #1832]
	subs	x9, x8, x10
	b.eq	.Lnoise_BB79_14
	mov	w11, #24
	mov	x8, xzr
	umaddl	x10, w10, w11, x21
	add	x10, x10, #72
	b	.Lnoise_BB79_10
.Lnoise_BB79_8:
	mov	w0, #23
	add	sp, sp, #2016
	ldp	x20, x19, [sp, #48]
	ldr	x28, [sp, #16]
	ldp	x22, x21, [sp, #32]
	ldp	x29, x30, [sp], #64
	ret
.Lnoise_BB79_9:
	subs	x9, x9, #1
	add	x10, x10, #24
	add	x8, x11, x8
	b.eq	.Lnoise_BB79_15
.Lnoise_BB79_10:
	ldr	x12, [x10, #16]
	mov	x11, xzr
	mov	x13, x10
.Lnoise_BB79_11:
	cbz	x12, .Lnoise_BB79_9
	ldrb	w14, [x13], #1
	sub	x12, x12, #1
	cmp	w14, #6
	b.ne	.Lnoise_BB79_11
	add	x11, x11, #1
	b	.Lnoise_BB79_11
.Lnoise_BB79_14:
	mov	x8, xzr
.Lnoise_BB79_15:
	ldr	x9, [sp, #1816]
	ldr	x10, [sp, #1824]
	sub	x9, x9, x10
	cmp	x9, #9
	b.hi	.Lnoise_BB79_19
	cmp	x9, x8
	b.ne	.Lnoise_BB79_18
	mov	w0, #8
	add	sp, sp, #2016
	ldp	x20, x19, [sp, #48]
	ldr	x28, [sp, #16]
	ldp	x22, x21, [sp, #32]
	ldp	x29, x30, [sp], #64
	ret
.Lnoise_BB79_18:
	add	x8, x19, #590
	add	x9, x19, #558
	add	x10, x19, #622
	ldp	q0, q1, [x8]
	mov	w0, wzr
	stp	q0, q1, [x9]
	ldp	q2, q0, [x10]
	add	x9, x19, #654
	stp	q2, q0, [x8]
	ldp	q1, q0, [x9]
	add	x8, x19, #686
	stp	q1, q0, [x10]
	ldp	q0, q2, [x8]
	add	x10, x19, #718
	stp	q0, q2, [x9]
	ldp	q0, q1, [x10]
	add	x9, x19, #750
	stp	q0, q1, [x8]
	ldp	q2, q1, [x9]
	add	x8, x19, #782
	stp	q2, q1, [x10]
	ldp	q1, q0, [x8]
	add	x10, x19, #814
	stp	q1, q0, [x9]
	ldp	q2, q0, [x10]
	stp	q2, q0, [x8]
	ldrb	w8, [x19, #557]
	ldp	q1, q0, [x20]
	add	w8, w8, #1
	strb	w8, [x19, #557]
	stp	q1, q0, [x10]
	add	sp, sp, #2016
	ldp	x20, x19, [sp, #48]
	ldr	x28, [sp, #16]
	ldp	x22, x21, [sp, #32]
	ldp	x29, x30, [sp], #64
	ret
.Lnoise_BB79_19:
	brk	#0x1
.Lnoise_func_end79:
	.size	noise_set_psk, .Lnoise_func_end79-noise_set_psk
	.cfi_endproc

	.section	.rodata.cst16,"aM",@progbits,16
	.p2align	4, 0x0
.Lnoise_CPI80_0:
	.word	1779033703
	.word	3144134277
	.word	1013904242
	.word	2773480762
.Lnoise_CPI80_1:
	.word	1359893119
	.word	2600822924
	.word	528734635
	.word	1541459225
	.section	.text.noise_start,"ax",@progbits
	.globl	noise_start
	.p2align	2
	.type	noise_start,@function
noise_start:
	.cfi_startproc
	stp	x29, x30, [sp, #-96]!
	stp	x28, x27, [sp, #16]
	mov	x29, sp
	stp	x26, x25, [sp, #32]
	stp	x24, x23, [sp, #48]
	stp	x22, x21, [sp, #64]
	stp	x20, x19, [sp, #80]
	sub	sp, sp, #3072
	str	xzr, [sp], #-16
	.cfi_def_cfa w29, 96
	.cfi_offset w19, -8
	.cfi_offset w20, -16
	.cfi_offset w21, -24
	.cfi_offset w22, -32
	.cfi_offset w23, -40
	.cfi_offset w24, -48
	.cfi_offset w25, -56
	.cfi_offset w26, -64
	.cfi_offset w27, -72
	.cfi_offset w28, -80
	.cfi_offset w30, -88
	.cfi_offset w29, -96
	movi	v0.2d, #0000000000000000
	cmp	x1, #0
	mov	w8, #4096
	csel	x27, x8, xzr, eq
	mov	x22, x1
	mov	x19, x0
	cmp	x3, #0
	add	x0, sp, #248
	add	x1, x1, x27
	mov	x28, x5
	mov	x24, x4
	mov	x26, x3
	mov	x20, x2
	stp	q0, q0, [sp, #64]
	csel	x23, x8, xzr, eq
	stp	q0, q0, [sp, #112]
	stp	q0, q0, [sp, #144]
	stp	q0, q0, [sp, #176]
	stp	q0, q0, [sp, #208]
	stur	xzr, [sp, #95]
	bl	"noise_c::patterns::pattern_of"
	ldrb	w8, [sp, #248]
	cbz	w8, .Lnoise_BB80_2
	ldr	w0, [sp, #252]
	b	.Lnoise_BB80_97
.Lnoise_BB80_2:
	lsr	x8, x24, #16
	cbz	x8, .Lnoise_BB80_4
	mov	w0, #24
	b	.Lnoise_BB80_97
.Lnoise_BB80_4:
	ldrb	w25, [x28, #133]
	cmp	x25, #9
	b.ls	.Lnoise_BB80_6
	mov	w0, #8
	b	.Lnoise_BB80_97
.Lnoise_BB80_6:
	movi	v0.2d, #0000000000000000
	ldrb	w10, [x28, #67]
	add	x9, sp, #592
	stp	q0, q0, [sp, #592]
	stp	q0, q0, [sp, #640]
	stp	q0, q0, [sp, #672]
	stp	q0, q0, [sp, #704]
	stp	q0, q0, [sp, #736]
	stur	xzr, [x9, #31]
	str	q0, [sp, #1472]
	str	q0, [sp, #1456]
	cbz	w10, .Lnoise_BB80_8
	ldur	q1, [x28, #68]
	ldur	q2, [x28, #84]
	mov	w8, #1
	str	w8, [sp, #40]
	str	q1, [sp, #1456]
	str	q2, [sp, #1472]
	b	.Lnoise_BB80_9
.Lnoise_BB80_8:
	str	wzr, [sp, #40]
.Lnoise_BB80_9:
	ldr	q1, [sp, #1456]
	ldr	q2, [sp, #1472]
	mov	x21, x19
	ldrb	w8, [x28, #100]
	str	q0, [sp, #1472]
	stp	q1, q2, [sp, #560]
	str	q0, [sp, #1456]
	stp	w8, w10, [sp, #44]
	stp	x24, x23, [sp, #16]
	cbz	w8, .Lnoise_BB80_11
	ldur	q0, [x28, #101]
	ldur	q1, [x28, #117]
	mov	w8, #1
	str	w8, [sp, #36]
	str	q0, [sp, #1456]
	str	q1, [sp, #1472]
	b	.Lnoise_BB80_12
.Lnoise_BB80_11:
	str	wzr, [sp, #36]
.Lnoise_BB80_12:
	movi	v0.2d, #0000000000000000
	mov	x24, x28
	str	x28, [sp, #56]
	ldrb	w28, [x24], #134
	ldr	q1, [sp, #1456]
	ldr	q2, [sp, #1472]
	add	x8, sp, #248
	add	x0, sp, #944
	cmp	w28, #0
	add	x1, x8, #8
	mov	w2, #272
	stp	q1, q2, [sp, #528]
	cset	w19, ne
	add	x23, sp, #944
	stp	q0, q0, [sp, #768]
	stp	q0, q0, [sp, #816]
	stp	q0, q0, [sp, #848]
	stp	q0, q0, [sp, #880]
	stp	q0, q0, [sp, #912]
	stur	xzr, [x9, #207]
	bl	memcpy
	ldr	x9, [sp, #1208]
	add	x10, x23, #72
	cbz	x9, .Lnoise_BB80_26
	ldr	x6, [sp, #56]
	mov	x11, xzr
	mov	x8, x9
	mov	x12, x10
	mov	w5, w19
	mov	x19, x21
	mov	x21, x20
	b	.Lnoise_BB80_15
.Lnoise_BB80_14:
	subs	x8, x8, #1
	add	x12, x12, #24
	add	x11, x13, x11
	b.eq	.Lnoise_BB80_19
.Lnoise_BB80_15:
	ldr	x14, [x12, #16]
	mov	x13, xzr
	mov	x15, x12
.Lnoise_BB80_16:
	cbz	x14, .Lnoise_BB80_14
	ldrb	w16, [x15], #1
	sub	x14, x14, #1
	cmp	w16, #6
	b.ne	.Lnoise_BB80_16
	add	x13, x13, #1
	b	.Lnoise_BB80_16
.Lnoise_BB80_19:
	add	x14, sp, #944
	ldr	x12, [sp, #1008]
	ldr	x15, [sp, #992]
	add	x13, x14, #64
	add	x14, x14, #48
	mov	x16, x9
	mov	x17, x10
	b	.Lnoise_BB80_21
.Lnoise_BB80_20:
	subs	x16, x16, #1
	add	x17, x17, #24
	add	x8, x18, x8
	b.eq	.Lnoise_BB80_25
.Lnoise_BB80_21:
	ldr	x0, [x17, #16]
	mov	x18, xzr
	mov	x1, x17
.Lnoise_BB80_22:
	cbz	x0, .Lnoise_BB80_20
	ldrb	w2, [x1], #1
	sub	x0, x0, #1
	cmp	w2, #6
	b.ne	.Lnoise_BB80_22
	add	x18, x18, #1
	b	.Lnoise_BB80_22
.Lnoise_BB80_25:
	cmp	x11, x25
	add	x17, sp, #944
	csel	x25, x11, x25, hi
	add	x16, x17, #56
	add	x17, x17, #40
	cmp	w28, #0
	csel	x11, x17, x16, ne
	csel	x12, x15, x12, ne
	b	.Lnoise_BB80_27
.Lnoise_BB80_26:
	cmp	w28, #0
	add	x13, x23, #64
	add	x14, x23, #48
	csel	x11, x14, x13, ne
	add	x16, x23, #56
	add	x17, x23, #40
	ldr	x12, [x11]
	ldr	x6, [sp, #56]
	mov	x8, xzr
	csel	x11, x17, x16, ne
	mov	w5, w19
	mov	x19, x21
	mov	x21, x20
.Lnoise_BB80_27:
	cmp	w28, #0
	add	x2, sp, #1280
	csel	x13, x13, x14, ne
	csel	x14, x16, x17, ne
	ldr	x13, [x13]
	mov	x15, x14
	mov	x16, x13
.Lnoise_BB80_28:
	cbz	x16, .Lnoise_BB80_30
	ldrb	w17, [x15], #1
	sub	x16, x16, #1
	cbnz	w17, .Lnoise_BB80_28
	b	.Lnoise_BB80_37
.Lnoise_BB80_30:
	cbz	x9, .Lnoise_BB80_38
	mov	w15, wzr
	mov	x16, x9
	mov	x17, x10
	b	.Lnoise_BB80_33
.Lnoise_BB80_32:
	sub	x16, x16, #1
	add	x17, x17, #24
	eor	w15, w15, #0x1
	cbz	x16, .Lnoise_BB80_38
.Lnoise_BB80_33:
	cmp	w5, w15, uxtb
	b.ne	.Lnoise_BB80_32
	ldr	x18, [x17, #16]
	mov	x0, xzr
.Lnoise_BB80_35:
	cmp	x18, x0
	b.eq	.Lnoise_BB80_32
	ldrb	w1, [x17, x0]
	add	x0, x0, #1
	cbnz	w1, .Lnoise_BB80_35
.Lnoise_BB80_37:
	ldurb	w15, [x6, #1]
	cbz	w15, .Lnoise_BB80_66
.Lnoise_BB80_38:
	cbz	x13, .Lnoise_BB80_40
	ldrb	w15, [x14], #1
	sub	x13, x13, #1
	cmp	w15, #1
	b.ne	.Lnoise_BB80_38
	b	.Lnoise_BB80_47
.Lnoise_BB80_40:
	cbz	x9, .Lnoise_BB80_48
	mov	w13, wzr
	b	.Lnoise_BB80_43
.Lnoise_BB80_42:
	sub	x9, x9, #1
	add	x10, x10, #24
	eor	w13, w13, #0x1
	cbz	x9, .Lnoise_BB80_48
.Lnoise_BB80_43:
	cmp	w5, w13, uxtb
	b.ne	.Lnoise_BB80_42
	ldr	x14, [x10, #16]
	mov	x15, xzr
.Lnoise_BB80_45:
	cmp	x14, x15
	b.eq	.Lnoise_BB80_42
	ldrb	w16, [x10, x15]
	add	x15, x15, #1
	cmp	w16, #1
	b.ne	.Lnoise_BB80_45
.Lnoise_BB80_47:
	ldurb	w9, [x6, #34]
	cbz	w9, .Lnoise_BB80_67
.Lnoise_BB80_48:
	ldr	w14, [sp, #48]
	mov	x9, x11
	mov	x10, x12
.Lnoise_BB80_49:
	cbz	x10, .Lnoise_BB80_52
	ldrb	w13, [x9], #1
	sub	x10, x10, #1
	cbnz	w13, .Lnoise_BB80_49
	cbz	w14, .Lnoise_BB80_69
.Lnoise_BB80_52:
	mov	x9, x11
	mov	x10, x12
.Lnoise_BB80_53:
	cbz	x10, .Lnoise_BB80_56
	ldrb	w13, [x9], #1
	sub	x10, x10, #1
	cmp	w13, #1
	b.ne	.Lnoise_BB80_53
	ldr	w9, [sp, #44]
	cbz	w9, .Lnoise_BB80_69
.Lnoise_BB80_56:
	cbz	w14, .Lnoise_BB80_60
	mov	x9, x11
	mov	x10, x12
.Lnoise_BB80_58:
	cbz	x10, .Lnoise_BB80_68
	ldrb	w13, [x9], #1
	sub	x10, x10, #1
	cbnz	w13, .Lnoise_BB80_58
.Lnoise_BB80_60:
	ldr	w9, [sp, #44]
	cbz	w9, .Lnoise_BB80_63
.Lnoise_BB80_61:
	cbz	x12, .Lnoise_BB80_68
	ldrb	w9, [x11], #1
	sub	x12, x12, #1
	cmp	w9, #1
	b.ne	.Lnoise_BB80_61
.Lnoise_BB80_63:
	cmp	x25, x8
	b.ne	.Lnoise_BB80_74
	movi	v0.2d, #0000000000000000
	add	x8, sp, #248
	add	x0, sp, #1456
	add	x1, x8, #8
	add	x23, sp, #1456
	str	q0, [sp, #1296]
	stur	xzr, [x2, #31]
	mov	w2, #272
	str	q0, [sp, #1328]
	str	q0, [sp, #1344]
	str	q0, [sp, #1360]
	str	q0, [sp, #1376]
	str	q0, [sp, #1280]
	bl	memcpy
	ldp	q0, q1, [sp, #560]
	add	x1, sp, #2544
	ldr	x17, [sp, #1720]
	ldr	w16, [sp, #40]
	add	x14, sp, #1728
	ldr	x15, [sp, #56]
	add	x10, x23, #72
	str	q0, [sp, #1424]
	ldp	q0, q2, [sp, #528]
	str	q1, [sp, #1440]
	str	q0, [sp, #1392]
	str	q2, [sp, #1408]
	cbz	x17, .Lnoise_BB80_98
	mov	x8, xzr
	mov	x9, x10
	b	.Lnoise_BB80_71
.Lnoise_BB80_66:
	mov	w0, #4
	b	.Lnoise_BB80_75
.Lnoise_BB80_67:
	mov	w0, #5
	b	.Lnoise_BB80_75
.Lnoise_BB80_68:
	mov	w0, #7
	b	.Lnoise_BB80_75
.Lnoise_BB80_69:
	mov	w0, #6
	b	.Lnoise_BB80_75
.Lnoise_BB80_70:
	add	x8, x8, #1
	add	x9, x9, #24
	cmp	x8, x17
	b.eq	.Lnoise_BB80_98
.Lnoise_BB80_71:
	mov	w11, #24
	mov	x12, x9
	madd	x11, x8, x11, x10
	ldr	x11, [x11, #16]
	cbz	x11, .Lnoise_BB80_70
.Lnoise_BB80_72:
	ldrb	w13, [x12], #1
	cmp	w13, #6
	b.eq	.Lnoise_BB80_98
	subs	x11, x11, #1
	b.ne	.Lnoise_BB80_72
	b	.Lnoise_BB80_70
.Lnoise_BB80_74:
	mov	w0, #8
.Lnoise_BB80_75:
	movi	v0.2d, #0000000000000000
	add	x9, sp, #592
	mov	x23, xzr
	mov	w8, wzr
	mov	w28, wzr
	mov	w26, wzr
	mov	w25, wzr
	stp	q0, q0, [sp, #592]
	stp	q0, q0, [sp, #640]
	stp	q0, q0, [sp, #672]
	stp	q0, q0, [sp, #704]
	stp	q0, q0, [sp, #736]
	stur	xzr, [x9, #31]
.Lnoise_BB80_76:
	ldp	q0, q1, [sp, #736]
	ldur	x9, [x9, #31]
	stur	x9, [sp, #95]
	stp	q0, q1, [sp, #208]
	ldp	q0, q2, [sp, #704]
	stp	q0, q2, [sp, #176]
	ldp	q0, q1, [sp, #672]
	stp	q0, q1, [sp, #144]
	ldp	q0, q2, [sp, #640]
	stp	q0, q2, [sp, #112]
	ldp	q1, q0, [sp, #592]
	stp	q1, q0, [sp, #64]
	cbz	w8, .Lnoise_BB80_97
	ldr	x8, [sp, #56]
	mov	w9, #257
	add	x10, x19, #558
	movk	w9, #20079, lsl #16
	movi	v0.2d, #0000000000000000
	ldrb	w8, [x8, #133]
	str	w9, [x19]
	lsl	x2, x8, #5
	stp	q0, q0, [x10]
	sub	x9, x10, x2
	stp	q0, q0, [x10, #32]
	add	x0, x9, #288
	stp	q0, q0, [x10, #64]
	sub	x9, x0, x24
	stp	q0, q0, [x10, #96]
	cmp	x9, x2
	stp	q0, q0, [x10, #128]
	stp	q0, q0, [x10, #160]
	stp	q0, q0, [x10, #192]
	stp	q0, q0, [x10, #224]
	stp	q0, q0, [x10, #256]
	b.hs	.Lnoise_BB80_85
.Lnoise_BB80_78:
	ldp	q1, q0, [x24], #32
	subs	x8, x8, #1
	stp	q1, q0, [x0], #32
	b.ne	.Lnoise_BB80_78
	add	x8, x19, #4
	add	x1, x22, x27
	sub	x8, x8, x1
	cmp	x8, x21
	b.hs	.Lnoise_BB80_86
.Lnoise_BB80_80:
	cmp	x21, #7
	b.ls	.Lnoise_BB80_82
	add	x8, x27, x22
	sub	x8, x19, x8
	add	x8, x8, #4
	cmp	x8, #32
	b.hs	.Lnoise_BB80_108
.Lnoise_BB80_82:
	mov	x8, xzr
.Lnoise_BB80_83:
	add	x9, x27, x8
	add	x10, x8, x19
	sub	x8, x21, x8
	add	x9, x22, x9
	add	x10, x10, #4
.Lnoise_BB80_84:
	ldrb	w11, [x9], #1
	subs	x8, x8, #1
	strb	w11, [x10], #1
	b.ne	.Lnoise_BB80_84
	b	.Lnoise_BB80_87
.Lnoise_BB80_85:
	mov	x1, x24
	bl	memmove
	add	x8, x19, #4
	add	x1, x22, x27
	sub	x8, x8, x1
	cmp	x8, x21
	b.lo	.Lnoise_BB80_80
.Lnoise_BB80_86:
	add	x0, x19, #4
	mov	x2, x21
	bl	memmove
.Lnoise_BB80_87:
	ldr	x10, [sp, #56]
	strh	w21, [x19, #420]
	add	x9, x19, #425
	add	x0, x19, #846
	mov	w1, wzr
	mov	w2, #521
	ldrb	w8, [x10]
	strb	w8, [x19, #422]
	ldurb	w8, [x10, #33]
	ldur	q0, [x10, #17]
	ldur	q1, [x10, #1]
	strb	w8, [x19, #457]
	stp	q1, q0, [x9]
	add	x9, x19, #458
	ldurb	w8, [x10, #66]
	ldur	q0, [x10, #50]
	ldur	q1, [x10, #34]
	strb	w8, [x19, #490]
	stp	q1, q0, [x9]
	bl	memset
	cbz	w28, .Lnoise_BB80_89
	ldp	q0, q1, [sp, #208]
	stp	q0, q1, [sp, #944]
	b	.Lnoise_BB80_90
.Lnoise_BB80_89:
	movi	v0.2d, #0000000000000000
	stp	q0, q0, [sp, #944]
.Lnoise_BB80_90:
	ldr	x8, [sp, #56]
	ldp	q0, q1, [sp, #944]
	add	x10, x19, #492
	ldrb	w9, [x8, #133]
	add	x8, sp, #112
	strb	w28, [x19, #491]
	stp	q0, q1, [x10]
	cbz	w26, .Lnoise_BB80_92
	ldp	q0, q1, [sp, #176]
	str	q0, [sp, #1456]
	str	q1, [sp, #1472]
	b	.Lnoise_BB80_93
.Lnoise_BB80_92:
	movi	v0.2d, #0000000000000000
	str	q0, [sp, #1472]
	str	q0, [sp, #1456]
.Lnoise_BB80_93:
	ldr	q0, [sp, #1456]
	ldr	q1, [sp, #1472]
	add	x10, x19, #525
	strb	w9, [x19, #557]
	add	x9, x19, #423
	cmp	w25, #1
	stp	q0, q1, [sp, #944]
	stp	q0, q1, [x10]
	ldp	q0, q1, [sp, #112]
	strh	wzr, [x9]
	add	x9, x19, #1367
	strb	w26, [x19, #524]
	stp	q0, q1, [x9]
	ldp	q2, q0, [x8, #32]
	add	x9, x19, #1399
	stp	q2, q0, [x9]
	b.ne	.Lnoise_BB80_95
	ldp	q0, q1, [sp, #64]
	str	q0, [sp, #1456]
	str	q1, [sp, #1472]
	b	.Lnoise_BB80_96
.Lnoise_BB80_95:
	movi	v0.2d, #0000000000000000
	str	q0, [sp, #1472]
	str	q0, [sp, #1456]
.Lnoise_BB80_96:
	ldr	q0, [sp, #1456]
	ldr	q1, [sp, #1472]
	mov	w0, wzr
	add	x8, x19, #1432
	strb	w25, [x19, #1431]
	stp	q0, q1, [sp, #944]
	stp	q0, q1, [x8]
	str	x23, [x19, #1464]
.Lnoise_BB80_97:
	add	sp, sp, #3088
	ldp	x20, x19, [sp, #80]
	ldp	x22, x21, [sp, #64]
	ldp	x24, x23, [sp, #48]
	ldp	x26, x25, [sp, #32]
	ldp	x28, x27, [sp, #16]
	ldp	x29, x30, [sp], #96
	ret
.Lnoise_BB80_98:
	movi	v0.2d, #0000000000000000
	ldurb	w8, [x15, #1]
	str	q0, [sp, #2288]
	str	q0, [sp, #2272]
	cbz	w8, .Lnoise_BB80_100
	ldur	q0, [x15, #2]
	ldur	q1, [x15, #18]
	mov	w8, #1
	str	q0, [sp, #2272]
	str	q1, [sp, #2288]
.Lnoise_BB80_100:
	movi	v0.2d, #0000000000000000
	ldurb	w9, [x15, #34]
	sub	x0, x29, #128
	str	q0, [sp, #2704]
	str	q0, [sp, #2688]
	cbz	w9, .Lnoise_BB80_102
	ldur	q1, [x15, #35]
	ldur	q2, [x15, #51]
	mov	w9, #1
	str	q1, [sp, #2688]
	str	q2, [sp, #2704]
.Lnoise_BB80_102:
	ldr	q1, [sp, #2272]
	ldr	q2, [sp, #2288]
	ldr	q3, [sp, #2688]
	str	q0, [sp, #2544]
	str	q1, [sp, #1248]
	ldr	q1, [sp, #2704]
	str	q2, [sp, #1264]
	str	q3, [sp, #1216]
	str	q1, [sp, #1232]
	str	q0, [sp, #2560]
	str	q0, [sp, #2576]
	str	q0, [sp, #2592]
	strh	wzr, [sp, #2608]
	str	q0, [sp, #2272]
	str	q0, [sp, #2288]
	str	q0, [sp, #2304]
	str	q0, [sp, #2320]
	str	q0, [sp, #2336]
	str	q0, [sp, #2352]
	str	q0, [sp, #2368]
	str	q0, [sp, #2384]
	str	q0, [sp, #2400]
	str	q0, [sp, #2416]
	str	q0, [sp, #2432]
	str	q0, [sp, #2448]
	str	q0, [sp, #2464]
	str	q0, [sp, #2480]
	str	q0, [sp, #2496]
	str	q0, [sp, #2512]
	str	xzr, [sp, #2528]
	str	q0, [sp, #2256]
	str	q0, [sp, #2240]
	str	q0, [sp, #2224]
	str	q0, [sp, #2208]
	str	q0, [sp, #2192]
	str	q0, [sp, #2176]
	str	q0, [sp, #2160]
	str	q0, [sp, #1824]
	str	q0, [sp, #1840]
	str	q0, [sp, #1856]
	str	q0, [sp, #1872]
	str	q0, [sp, #1888]
	str	q0, [sp, #1904]
	str	q0, [sp, #1920]
	str	q0, [sp, #1936]
	str	q0, [sp, #1952]
	str	q0, [sp, #1968]
	str	q0, [sp, #1984]
	str	q0, [sp, #2000]
	str	q0, [sp, #2016]
	str	q0, [sp, #2032]
	str	q0, [sp, #2048]
	str	q0, [sp, #2064]
	str	xzr, [sp, #2080]
	str	xzr, [sp, #1816]
	str	xzr, [sp, #1808]
	str	xzr, [sp, #1784]
	str	xzr, [sp, #1776]
	stur	xzr, [x14, #63]
	str	q0, [sp, #1728]
	str	q0, [sp, #1744]
	str	xzr, [sp, #1760]
	cbz	x17, .Lnoise_BB80_111
	mov	x11, xzr
	mov	x12, x10
	b	.Lnoise_BB80_105
.Lnoise_BB80_104:
	add	x11, x11, #1
	add	x12, x12, #24
	cmp	x11, x17
	b.eq	.Lnoise_BB80_111
.Lnoise_BB80_105:
	mov	w13, #24
	mov	x14, x12
	madd	x13, x11, x13, x10
	ldr	x13, [x13, #16]
	cbz	x13, .Lnoise_BB80_104
.Lnoise_BB80_106:
	ldrb	w15, [x14], #1
	cmp	w15, #6
	b.eq	.Lnoise_BB80_110
	subs	x13, x13, #1
	b.ne	.Lnoise_BB80_106
	b	.Lnoise_BB80_104
.Lnoise_BB80_108:
	cmp	x21, #32
	b.hs	.Lnoise_BB80_114
	mov	x8, xzr
	b	.Lnoise_BB80_118
.Lnoise_BB80_110:
	mov	w10, #1
	str	w10, [sp, #44]
	b	.Lnoise_BB80_112
.Lnoise_BB80_111:
	str	wzr, [sp, #44]
.Lnoise_BB80_112:
	cbz	w28, .Lnoise_BB80_121
	ldp	q0, q1, [sp, #560]
	mov	w11, w16
	ldr	w10, [sp, #36]
	str	q0, [sp, #2688]
	ldp	q0, q2, [sp, #528]
	b	.Lnoise_BB80_122
.Lnoise_BB80_114:
	add	x10, x27, x22
	and	x9, x21, #0x18
	and	x8, x21, #0xffffffffffffffe0
	add	x10, x10, #16
	add	x11, x19, #20
	and	x12, x21, #0xffffffffffffffe0
.Lnoise_BB80_115:
	ldp	q0, q1, [x10, #-16]
	subs	x12, x12, #32
	add	x10, x10, #32
	stp	q0, q1, [x11, #-16]
	add	x11, x11, #32
	b.ne	.Lnoise_BB80_115
	cmp	x21, x8
	b.eq	.Lnoise_BB80_87
	cbz	x9, .Lnoise_BB80_83
.Lnoise_BB80_118:
	mov	x9, x8
	and	x8, x21, #0xfffffffffffffff8
	add	x10, x27, x9
	add	x11, x9, x19
	sub	x9, x9, x8
	add	x10, x22, x10
	add	x11, x11, #4
.Lnoise_BB80_119:
	ldr	d0, [x10], #8
	adds	x9, x9, #8
	str	d0, [x11], #8
	b.ne	.Lnoise_BB80_119
	cmp	x21, x8
	b.ne	.Lnoise_BB80_83
	b	.Lnoise_BB80_87
.Lnoise_BB80_121:
	ldr	q0, [sp, #1248]
	ldr	q1, [sp, #1264]
	mov	w11, w8
	ldr	q2, [sp, #1232]
	mov	w10, w9
	str	q0, [sp, #2688]
	ldr	q0, [sp, #1216]
.Lnoise_BB80_122:
	str	q1, [sp, #2704]
	stp	q0, q2, [x29, #-128]
	ldr	q0, [sp, #2688]
	ldr	q1, [sp, #2704]
	ldp	q2, q3, [x29, #-128]
	strb	w11, [sp, #2620]
	str	q0, [sp, #2128]
	str	q1, [sp, #2144]
	str	q2, [sp, #2096]
	str	q3, [sp, #2112]
	stur	q0, [x1, #77]
	stur	q1, [x1, #93]
	strb	w10, [sp, #2653]
	stur	q2, [x1, #110]
	stur	q3, [x1, #126]
	cbz	w28, .Lnoise_BB80_124
	ldr	q0, [sp, #1248]
	ldr	q1, [sp, #1264]
	ldr	q2, [sp, #1232]
	str	q0, [sp, #2688]
	ldr	q0, [sp, #1216]
	b	.Lnoise_BB80_125
.Lnoise_BB80_124:
	ldp	q0, q1, [sp, #560]
	mov	w8, w16
	ldr	w9, [sp, #36]
	str	q0, [sp, #2688]
	ldp	q0, q2, [sp, #528]
.Lnoise_BB80_125:
	str	q1, [sp, #2704]
	stp	q0, q2, [x29, #-128]
	ldr	q0, [sp, #2688]
	ldr	q1, [sp, #2704]
	ldp	q2, q3, [x29, #-128]
	strb	w8, [sp, #2544]
	strb	w9, [sp, #2577]
	ldr	x20, [sp, #1464]
	ldr	x8, [sp, #1488]
	ldr	x9, [sp, #1504]
	ldr	x25, [sp, #1520]
	str	q0, [sp, #2128]
	str	q1, [sp, #2144]
	str	q2, [sp, #2096]
	str	q3, [sp, #2112]
	stur	q0, [x1, #1]
	stur	q1, [x1, #17]
	stur	q2, [x1, #34]
	stur	q3, [x1, #50]
	str	xzr, [sp, #2696]
	str	x9, [sp, #8]
	str	xzr, [sp, #2688]
	str	xzr, [sp, #2704]
	cbz	x8, .Lnoise_BB80_129
	add	x10, sp, #1456
	mov	x9, xzr
	add	x10, x10, #16
.Lnoise_BB80_127:
	ldrb	w11, [x10, x9]
	add	x12, sp, #2688
	strb	w11, [x12, x9]
	add	x9, x9, #1
	cmp	x8, x9
	str	x9, [sp, #2704]
	b.ne	.Lnoise_BB80_127
	ldrb	w23, [sp, #2688]
	b	.Lnoise_BB80_130
.Lnoise_BB80_129:
	mov	w23, wzr
.Lnoise_BB80_130:
	ldur	q0, [x1, #145]
	ldr	x8, [sp, #2704]
	cmp	x20, #9
	sub	x28, x29, #128
	str	x17, [sp, #48]
	stur	q0, [x29, #-128]
	stur	x8, [x0, #15]
	str	xzr, [sp, #2688]
	b.hs	.Lnoise_BB80_154
	add	x0, sp, #2688
	add	x1, sp, #1456
	mov	x2, x20
	bl	memcpy
	str	x20, [sp, #2696]
	ldur	x8, [x28, #15]
	ldur	q0, [x29, #-128]
	ldr	q1, [sp, #2688]
	add	x9, sp, #1728
	strb	w23, [sp, #1744]
	stur	x8, [x9, #63]
	str	q0, [sp, #1776]
	str	q1, [sp, #1808]
	ldr	q0, [sp, #1776]
	ldur	x8, [x9, #63]
	str	q1, [sp, #1728]
	movi	v1.2d, #0000000000000000
	stur	q0, [x9, #17]
	ldr	x20, [sp, #1736]
	str	x8, [sp, #1760]
	add	x8, sp, #2688
	cmp	x20, #249
	str	q1, [sp, #2928]
	stur	q1, [x8, #230]
	stur	q1, [x8, #214]
	stur	q1, [x8, #198]
	stur	q1, [x8, #182]
	stur	q1, [x8, #166]
	stur	q1, [x8, #150]
	stur	q1, [x8, #134]
	stur	q1, [x8, #118]
	stur	q1, [x8, #102]
	stur	q1, [x8, #86]
	stur	q1, [x8, #70]
	stur	q1, [x8, #54]
	stur	q1, [x8, #38]
	stur	q1, [x8, #22]
	stur	q1, [x8, #6]
	mov	w8, #28494
	movk	w8, #29545, lsl #16
	str	w8, [sp, #2688]
	mov	w8, #24421
	strh	w8, [sp, #2692]
	b.hi	.Lnoise_BB80_154
	add	x8, sp, #2688
	add	x1, sp, #1728
	mov	x2, x20
	orr	x0, x8, #0x6
	bl	memcpy
	ldr	x9, [sp, #1760]
	add	x8, x20, #6
	cbz	x9, .Lnoise_BB80_146
	cmp	x20, #246
	b.hi	.Lnoise_BB80_154
	add	x10, sp, #2688
	add	x10, x10, x8
	adrp	x8, .Lnoise_static.51
	add	x8, x8, :lo12:.Lnoise_static.51
	sub	x11, x10, x8
	cmp	x11, #3
	b.hs	.Lnoise_BB80_136
	mov	w11, #29552
	mov	w12, #107
	strh	w11, [x10]
	strb	w12, [x10, #2]
	b	.Lnoise_BB80_137
.Lnoise_BB80_136:
	mov	w11, #107
	mov	w12, #29552
	strb	w11, [x10, #2]
	strh	w12, [x10]
.Lnoise_BB80_137:
	add	x10, sp, #2688
	add	w11, w23, #48
	subs	x9, x9, #1
	add	x10, x10, x20
	strb	w11, [x10, #9]
	b.ne	.Lnoise_BB80_139
	add	x8, x20, #10
	b	.Lnoise_BB80_146
.Lnoise_BB80_139:
	add	x11, sp, #1728
	sub	x10, x20, #242
	add	x11, x11, #17
	b	.Lnoise_BB80_142
.Lnoise_BB80_140:
	mov	w13, #107
	mov	w14, #29552
	strb	w13, [x12, #2]
	strh	w14, [x12]
.Lnoise_BB80_141:
	ldrb	w12, [x11], #1
	add	x13, sp, #2688
	add	x13, x13, x10
	subs	x9, x9, #1
	add	x10, x10, #5
	add	w12, w12, #48
	strb	w12, [x13, #256]
	b.eq	.Lnoise_BB80_145
.Lnoise_BB80_142:
	add	x12, sp, #2688
	mov	w13, #43
	cmp	x10, #3
	add	x12, x12, x10
	strb	w13, [x12, #252]
	b.lo	.Lnoise_BB80_154
	add	x12, x12, #253
	sub	x13, x12, x8
	cmp	x13, #2
	b.hi	.Lnoise_BB80_140
	mov	w13, #112
	add	x14, sp, #2688
	strb	w13, [x12]
	add	x12, x14, x10
	mov	w13, #27507
	strh	w13, [x12, #254]
	b	.Lnoise_BB80_141
.Lnoise_BB80_145:
	add	x8, x10, #252
.Lnoise_BB80_146:
	sub	x9, x8, #232
	cmp	x9, #23
	b.ls	.Lnoise_BB80_154
	adrp	x10, .Lnoise_static.98
	add	x10, x10, :lo12:.Lnoise_static.98
	add	x9, sp, #2688
	ldr	q0, [x10]
	ldr	x10, [x10, #16]
	add	x9, x9, x8
	add	x8, x8, #24
	add	x0, sp, #1824
	add	x1, sp, #2688
	mov	w2, #264
	str	q0, [x9]
	str	x10, [x9, #16]
	str	x8, [sp, #2944]
	bl	memcpy
	add	x0, sp, #2272
	add	x1, sp, #1824
	mov	w2, #264
	bl	memcpy
	movi	v0.2d, #0000000000000000
	ldr	x2, [sp, #2528]
	str	x25, [sp]
	cmp	x2, #33
	b.lo	.Lnoise_BB80_149
	adrp	x8, .Lnoise_CPI80_0
	adrp	x9, .Lnoise_CPI80_1
	sub	x0, x29, #128
	ldr	q1, [x8, :lo12:.Lnoise_CPI80_0]
	ldr	q2, [x9, :lo12:.Lnoise_CPI80_1]
	add	x1, sp, #2272
	stur	xzr, [x29, #-32]
	stp	q1, q2, [x29, #-128]
	stp	q0, q0, [x29, #-96]
	stp	q0, q0, [x29, #-64]
	bl	"sha2::block256::Core256::update"
	ldp	q0, q1, [x29, #-80]
	mov	w8, #55
	ldur	x23, [x29, #-32]
	ldur	q2, [x29, #-48]
	adrp	x1, .Lnoise_static.100
	add	x1, x1, :lo12:.Lnoise_static.100
	add	x0, sp, #2688
	str	q1, [sp, #2752]
	ldp	q1, q3, [x29, #-112]
	sub	w8, w8, w23
	str	q0, [sp, #2736]
	ldur	q0, [x29, #-128]
	and	x8, x8, #0x3f
	str	q2, [sp, #2768]
	lsr	x28, x23, #21
	add	x2, x8, #1
	str	q0, [sp, #2688]
	lsr	x25, x23, #13
	str	q1, [sp, #2704]
	lsl	x20, x23, #3
	str	x23, [sp, #2784]
	str	q3, [sp, #2720]
	bl	"sha2::block256::Core256::update"
	lsl	x8, x23, #43
	lsr	x9, x23, #5
	lsr	x10, x23, #37
	and	x11, x28, #0xff0000
	add	x0, sp, #2688
	sub	x1, x29, #24
	and	x8, x8, #0xff000000000000
	and	x9, x9, #0xff000000
	and	x10, x10, #0xff00
	orr	x8, x8, x23, lsl #59
	orr	x9, x9, x11
	mov	w2, #8
	orr	x9, x9, x10
	bfi	x8, x25, #40, #8
	bfi	x8, x28, #32, #8
	orr	x8, x8, x9
	orr	x8, x8, x20, lsr #56
	stur	x8, [x29, #-24]
	bl	"sha2::block256::Core256::update"
	ldr	q0, [sp, #2688]
	ldr	q1, [sp, #2704]
	rev32	v0.16b, v0.16b
	rev32	v1.16b, v1.16b
	b	.Lnoise_BB80_150
.Lnoise_BB80_149:
	add	x0, sp, #2688
	add	x1, sp, #2272
	str	q0, [sp, #2704]
	str	q0, [sp, #2688]
	bl	memcpy
	ldr	q0, [sp, #2688]
	ldr	q1, [sp, #2704]
.Lnoise_BB80_150:
	add	x8, sp, #2160
	movi	v2.2d, #0000000000000000
	ldr	w28, [sp, #40]
	add	x1, x8, #32
	ldp	x3, x8, [sp, #16]
	add	x0, sp, #2688
	str	q0, [sp, #2160]
	add	x23, sp, #1456
	str	q1, [sp, #2176]
	add	x2, x26, x8
	str	q0, [sp, #2192]
	str	q1, [sp, #2208]
	str	q2, [sp, #2224]
	str	q2, [sp, #2240]
	str	q2, [sp, #2256]
	bl	"noise_state::symmetric::hash_of_both"
	ldr	w25, [sp, #44]
	ldr	q0, [sp, #2688]
	add	x0, sp, #2160
	ldr	q1, [sp, #2704]
	ldr	x4, [sp, #8]
	add	x2, sp, #2620
	add	x3, x23, #40
	mov	w1, w25
	str	q0, [sp, #2192]
	str	q1, [sp, #2208]
	bl	"noise_handshake::setup::mix_premessage"
	ldr	x4, [sp]
	add	x0, sp, #2160
	add	x2, sp, #2544
	add	x3, x23, #56
	mov	w1, w25
	bl	"noise_handshake::setup::mix_premessage"
	ldr	q0, [sp, #2160]
	add	x8, sp, #2160
	ldr	q1, [sp, #2176]
	ldur	q2, [x8, #65]
	add	x10, sp, #1280
	ldr	x23, [sp, #2264]
	str	q0, [sp, #1328]
	ldur	q0, [x8, #81]
	add	x9, sp, #592
	ldr	x8, [sp, #2256]
	str	q1, [sp, #1344]
	ldr	q1, [sp, #2208]
	str	q0, [sp, #1296]
	ldr	q0, [sp, #2192]
	ldrb	w25, [sp, #2224]
	stur	x8, [x10, #31]
	ldr	w26, [sp, #36]
	ldr	x8, [sp, #48]
	str	q2, [sp, #1280]
	str	q0, [sp, #1360]
	str	q1, [sp, #1376]
	cbz	x8, .Lnoise_BB80_153
	ldr	x8, [sp, #1544]
	cbz	x8, .Lnoise_BB80_153
.Lnoise_BB80_152:
	sub	x8, x8, #1
	cbnz	x8, .Lnoise_BB80_152
.Lnoise_BB80_153:
	ldr	q0, [sp, #1424]
	ldr	q1, [sp, #1440]
	mov	w0, #4
	ldr	q2, [sp, #1408]
	ldur	x8, [x10, #31]
	stp	q0, q1, [sp, #912]
	ldr	q0, [sp, #1392]
	ldr	q1, [sp, #1328]
	stur	x8, [x9, #207]
	stp	q0, q2, [sp, #880]
	ldr	q0, [sp, #1344]
	ldr	q2, [sp, #1360]
	stp	q1, q0, [sp, #816]
	ldr	q0, [sp, #1376]
	ldr	q1, [sp, #1280]
	stp	q2, q0, [sp, #848]
	ldr	q0, [sp, #1296]
	stp	q1, q0, [sp, #768]
	ldp	q0, q2, [sp, #912]
	ldur	x8, [x9, #207]
	stp	q0, q2, [sp, #736]
	ldp	q1, q0, [sp, #880]
	stur	x8, [x9, #31]
	mov	w8, #1
	stp	q1, q0, [sp, #704]
	ldp	q2, q1, [sp, #848]
	stp	q2, q1, [sp, #672]
	ldp	q1, q0, [sp, #816]
	stp	q1, q0, [sp, #640]
	ldp	q1, q0, [sp, #768]
	stp	q1, q0, [sp, #592]
	b	.Lnoise_BB80_76
.Lnoise_BB80_154:
	brk	#0x1
.Lnoise_func_end80:
	.size	noise_start, .Lnoise_func_end80-noise_start
	.cfi_endproc

	.section	.text.noise_stream_is_cut,"ax",@progbits
	.globl	noise_stream_is_cut
	.p2align	2
	.type	noise_stream_is_cut,@function
noise_stream_is_cut:
	.cfi_startproc
	ldr	w8, [x0]
	mov	w9, #2817
	movk	w9, #20079, lsl #16
	cmp	w8, w9
	b.ne	.Lnoise_BB81_10
	ldrb	w8, [x0, #4]
	cmp	w8, #1
	b.eq	.Lnoise_BB81_9
	cmp	w8, #2
	b.ne	.Lnoise_BB81_10
	mov	w9, wzr
	ldrb	w8, [x0, #56]
	cmp	w8, #2
	b.hi	.Lnoise_BB81_10
.Lnoise_BB81_4:
	cmp	w8, #1
	b.ne	.Lnoise_BB81_7
	ldrb	w10, [x0, #5]
	ldr	x11, [x0, #48]
	mov	w0, #23
	cmp	w10, #0
	csel	w9, wzr, w9, eq
	cbz	x11, .Lnoise_BB81_8
	tbnz	w9, #0, .Lnoise_BB81_8
.Lnoise_BB81_7:
	cmp	w8, #1
	mov	w8, #44
	ccmp	x1, #0, #0, eq
	csel	w0, w8, wzr, ne
.Lnoise_BB81_8:
	ret
.Lnoise_BB81_9:
	mov	w9, #1
	ldrb	w8, [x0, #56]
	cmp	w8, #2
	b.ls	.Lnoise_BB81_4
.Lnoise_BB81_10:
	mov	w0, #23
	ret
.Lnoise_func_end81:
	.size	noise_stream_is_cut, .Lnoise_func_end81-noise_stream_is_cut
	.cfi_endproc

	.section	.text.noise_stream_read,"ax",@progbits
	.globl	noise_stream_read
	.p2align	2
	.type	noise_stream_read,@function
noise_stream_read:
	.cfi_startproc
	sub	sp, sp, #160
	stp	x29, x30, [sp, #96]
	stp	x24, x23, [sp, #112]
	stp	x22, x21, [sp, #128]
	stp	x20, x19, [sp, #144]
	add	x29, sp, #96
	.cfi_def_cfa w29, 64
	.cfi_offset w19, -8
	.cfi_offset w20, -16
	.cfi_offset w21, -24
	.cfi_offset w22, -32
	.cfi_offset w23, -40
	.cfi_offset w24, -48
	.cfi_offset w30, -56
	.cfi_offset w29, -64
	ldr	w8, [x0]
	mov	w19, #2817
	cmp	x1, #0
	movk	w19, #20079, lsl #16
	mov	w9, #4096
	csel	x9, x9, xzr, eq
	cmp	w8, w19
	b.ne	.Lnoise_BB82_10
	ldrb	w8, [x0, #4]
	cmp	w8, #1
	b.eq	.Lnoise_BB82_9
	cmp	w8, #2
	b.ne	.Lnoise_BB82_10
	mov	w10, wzr
	mov	w13, #1
	ldrb	w11, [x0, #5]
	ldrb	w12, [x0, #56]
	cmp	w11, #0
	cset	w16, ne
	cmp	w12, #2
	b.hi	.Lnoise_BB82_10
.Lnoise_BB82_4:
	ldp	x15, x14, [x0, #40]
	cmp	w12, #1
	b.ne	.Lnoise_BB82_7
	cmp	w11, #0
	mov	w8, #23
	csel	w17, wzr, w10, eq
	tbnz	w17, #0, .Lnoise_BB82_11
	cbz	x14, .Lnoise_BB82_11
.Lnoise_BB82_7:
	ldur	q0, [x0, #6]
	mov	w8, #1
	strb	w13, [sp, #8]
	strb	w16, [sp, #9]
	stur	q0, [sp, #25]
	ldur	q0, [x0, #22]
	stur	wzr, [sp, #10]
	strh	wzr, [sp, #14]
	str	x15, [sp, #16]
	strb	w8, [sp, #24]
	stur	q0, [sp, #41]
	stur	wzr, [sp, #57]
	str	wzr, [sp, #60]
	str	x14, [sp, #64]
	strb	w12, [sp, #72]
	stur	wzr, [sp, #73]
	str	wzr, [sp, #76]
	cbz	w12, .Lnoise_BB82_12
	mov	w8, #43
	b	.Lnoise_BB82_11
.Lnoise_BB82_9:
	mov	w13, wzr
	mov	w10, #1
	ldrb	w11, [x0, #5]
	ldrb	w12, [x0, #56]
	cmp	w11, #0
	cset	w16, ne
	cmp	w12, #2
	b.ls	.Lnoise_BB82_4
.Lnoise_BB82_10:
	mov	w8, #23
.Lnoise_BB82_11:
	ldp	x20, x19, [sp, #144]
	mov	w0, w8
	ldp	x22, x21, [sp, #128]
	ldp	x24, x23, [sp, #112]
	ldp	x29, x30, [sp, #96]
	add	sp, sp, #160
	ret
.Lnoise_BB82_12:
	cmp	x2, #2
	b.hs	.Lnoise_BB82_14
	mov	w21, #2
	b	.Lnoise_BB82_15
.Lnoise_BB82_14:
	add	x8, x1, x9
	ldrh	w9, [x8]
	rev16	w5, w9
	add	x21, x5, #2
	cmp	x2, x21
	b.hs	.Lnoise_BB82_16
.Lnoise_BB82_15:
	sub	x8, x21, x2
	str	x8, [x3, #24]
	mov	w8, #42
	b	.Lnoise_BB82_11
.Lnoise_BB82_16:
	cmp	w11, #0
	add	x20, sp, #8
	stp	xzr, xzr, [x29, #-16]
	csel	w9, wzr, w10, eq
	tbz	w9, #0, .Lnoise_BB82_20
	mov	w8, #3
.Lnoise_BB82_18:
	ldrb	w9, [sp, #24]
	cmp	w9, #1
	b.ne	.Lnoise_BB82_35
	ldrb	w9, [sp, #9]
	ldrb	w10, [sp, #8]
	mov	w11, #1
	ldur	q0, [x20, #17]
	str	w19, [x0]
	and	w9, w9, #0x1
	cmp	w10, #0
	strh	wzr, [x0, #38]
	cinc	w10, w11, ne
	strb	w9, [x0, #5]
	ldr	x9, [sp, #16]
	ldr	x11, [sp, #64]
	stur	q0, [x0, #6]
	ldur	q0, [x20, #33]
	strb	w10, [x0, #4]
	stp	x9, x11, [x0, #40]
	mov	w9, #2
	strb	w9, [x0, #56]
	adrp	x9, .Lnoise_switch.table.noise_stream_read
	add	x9, x9, :lo12:.Lnoise_switch.table.noise_stream_read
	stur	wzr, [x0, #57]
	str	wzr, [x0, #60]
	ldr	w8, [x9, x8, lsl #2]
	stur	q0, [x0, #22]
	b	.Lnoise_BB82_11
.Lnoise_BB82_20:
	mov	x23, x3
	mov	x22, x0
	adrp	x2, .Lnoise_static.1
	add	x2, x2, :lo12:.Lnoise_static.1
	sub	x0, x29, #16
	add	x1, x20, #16
	add	x4, x8, #2
	mov	x3, xzr
	bl	"noise_state::cipher::CipherState::decrypt"
	ldurb	w8, [x29, #-16]
	cbz	w8, .Lnoise_BB82_24
	ldurb	w8, [x29, #-15]
	cmp	w8, #1
	b.gt	.Lnoise_BB82_30
	mov	x0, x22
	cbnz	w8, .Lnoise_BB82_32
	mov	w8, #2
	b	.Lnoise_BB82_18
.Lnoise_BB82_24:
	ldr	x8, [sp, #16]
	ldur	x24, [x29, #-8]
	cbz	x8, .Lnoise_BB82_27
	ldr	x9, [sp, #64]
	udiv	x10, x9, x8
	msub	x8, x10, x8, x9
	cbnz	x8, .Lnoise_BB82_27
	add	x0, x20, #16
	bl	"noise_state::cipher::CipherState::rekey"
.Lnoise_BB82_27:
	cbz	x24, .Lnoise_BB82_33
	ldrb	w9, [sp, #24]
	mov	w8, #2
	str	x21, [x23, #16]
	stp	x8, x24, [x23]
	cmp	w9, #1
	b.ne	.Lnoise_BB82_35
	ldrb	w9, [sp, #9]
	ldrb	w10, [sp, #8]
	mov	w11, #1
	ldur	q0, [x20, #17]
	mov	w8, wzr
	str	w19, [x22]
	and	w9, w9, #0x1
	cmp	w10, #0
	ldr	x10, [sp, #64]
	strb	w9, [x22, #5]
	cinc	w9, w11, ne
	ldrb	w11, [sp, #72]
	stur	q0, [x22, #6]
	ldur	q0, [x20, #33]
	strb	w9, [x22, #4]
	ldr	x9, [sp, #16]
	stur	q0, [x22, #22]
	strh	wzr, [x22, #38]
	stp	x9, x10, [x22, #40]
	strb	w11, [x22, #56]
	str	wzr, [x22, #60]
	stur	wzr, [x22, #57]
	b	.Lnoise_BB82_11
.Lnoise_BB82_30:
	cmp	w8, #2
	b.ne	.Lnoise_BB82_35
	mov	x0, x22
	mov	x8, xzr
	b	.Lnoise_BB82_18
.Lnoise_BB82_32:
	mov	w8, #1
	b	.Lnoise_BB82_18
.Lnoise_BB82_33:
	ldrb	w8, [sp, #24]
	str	x21, [x23, #16]
	cmp	w8, #1
	b.ne	.Lnoise_BB82_35
	ldrb	w9, [sp, #8]
	ldrb	w8, [sp, #9]
	mov	w10, #1
	ldur	q0, [x20, #17]
	str	w19, [x22]
	cmp	w9, #0
	and	w8, w8, #0x1
	strh	wzr, [x22, #38]
	cinc	w9, w10, ne
	stur	q0, [x22, #6]
	ldur	q0, [x20, #33]
	strb	w8, [x22, #5]
	ldr	x8, [sp, #16]
	strb	w9, [x22, #4]
	ldr	x9, [sp, #64]
	stur	q0, [x22, #22]
	stp	x8, x9, [x22, #40]
	mov	w8, #41
	strb	w10, [x22, #56]
	stur	wzr, [x22, #57]
	str	wzr, [x22, #60]
	b	.Lnoise_BB82_11
.Lnoise_BB82_35:
	brk	#0x1
.Lnoise_func_end82:
	.size	noise_stream_read, .Lnoise_func_end82-noise_stream_read
	.cfi_endproc

	.section	.text.noise_stream_end,"ax",@progbits
	.globl	noise_stream_end
	.p2align	2
	.type	noise_stream_end,@function
noise_stream_end:
	.cfi_startproc
	sub	sp, sp, #160
	stp	x29, x30, [sp, #96]
	stp	x24, x23, [sp, #112]
	stp	x22, x21, [sp, #128]
	stp	x20, x19, [sp, #144]
	add	x29, sp, #96
	.cfi_def_cfa w29, 64
	.cfi_offset w19, -8
	.cfi_offset w20, -16
	.cfi_offset w21, -24
	.cfi_offset w22, -32
	.cfi_offset w23, -40
	.cfi_offset w24, -48
	.cfi_offset w30, -56
	.cfi_offset w29, -64
	ldr	w8, [x0]
	mov	w19, #2561
	cmp	x1, #0
	movk	w19, #20079, lsl #16
	mov	w9, #4096
	csel	x9, x9, xzr, eq
	cmp	w8, w19
	b.ne	.Lnoise_BB83_12
	ldrb	w8, [x0, #4]
	cmp	w8, #1
	b.eq	.Lnoise_BB83_6
	cmp	w8, #2
	b.ne	.Lnoise_BB83_12
	mov	w10, #1
	mov	w14, #1
	ldrb	w11, [x0, #5]
	ldp	x15, x12, [x0, #40]
	ldrb	w13, [x0, #56]
	cmp	w11, #0
	cset	w16, ne
	cbz	w13, .Lnoise_BB83_7
.Lnoise_BB83_4:
	cmp	w11, #0
	mov	w8, #23
	csel	w17, wzr, w10, eq
	tbnz	w17, #0, .Lnoise_BB83_13
	cbnz	x12, .Lnoise_BB83_8
	b	.Lnoise_BB83_13
.Lnoise_BB83_6:
	mov	w10, wzr
	mov	w14, wzr
	ldrb	w11, [x0, #5]
	ldp	x15, x12, [x0, #40]
	ldrb	w13, [x0, #56]
	cmp	w11, #0
	cset	w16, ne
	cbnz	w13, .Lnoise_BB83_4
.Lnoise_BB83_7:
	cmn	x12, #1
	b.eq	.Lnoise_BB83_12
.Lnoise_BB83_8:
	ldur	q0, [x0, #6]
	mov	w8, #1
	cmp	w13, #0
	strb	w8, [sp, #24]
	cset	w8, ne
	cmp	x2, #18
	strb	w14, [sp, #8]
	mov	w14, #18
	stur	q0, [sp, #25]
	ldur	q0, [x0, #22]
	strb	w8, [sp, #72]
	mov	w8, #43
	csel	w8, w14, w8, lo
	strb	w16, [sp, #9]
	stur	wzr, [sp, #10]
	strh	wzr, [sp, #14]
	str	x15, [sp, #16]
	stur	q0, [sp, #41]
	stur	wzr, [sp, #57]
	str	wzr, [sp, #60]
	str	x12, [sp, #64]
	stur	wzr, [sp, #73]
	str	wzr, [sp, #76]
	b.lo	.Lnoise_BB83_13
	cbnz	w13, .Lnoise_BB83_13
	cmp	w11, #0
	csel	w8, wzr, w10, eq
	tbz	w8, #0, .Lnoise_BB83_14
	mov	w8, #22
	b	.Lnoise_BB83_13
.Lnoise_BB83_12:
	mov	w8, #23
.Lnoise_BB83_13:
	ldp	x20, x19, [sp, #144]
	mov	w0, w8
	ldp	x22, x21, [sp, #128]
	ldp	x24, x23, [sp, #112]
	ldp	x29, x30, [sp, #96]
	add	sp, sp, #160
	ret
.Lnoise_BB83_14:
	cmn	x12, #1
	b.eq	.Lnoise_BB83_21
	add	x21, x1, x9
	add	x20, sp, #8
	mov	x23, x3
	mov	x22, x0
	adrp	x2, .Lnoise_static.1
	add	x2, x2, :lo12:.Lnoise_static.1
	sub	x0, x29, #16
	add	x1, x20, #16
	add	x4, x21, #2
	mov	x3, xzr
	mov	x5, xzr
	stp	xzr, xzr, [x29, #-16]
	bl	"noise_state::cipher::CipherState::encrypt"
	ldurb	w8, [x29, #-16]
	cbnz	w8, .Lnoise_BB83_21
	ldr	x11, [sp, #16]
	ldur	x24, [x29, #-8]
	mov	x9, x22
	ldr	x10, [sp, #64]
	mov	x8, x23
	cbz	x11, .Lnoise_BB83_19
	udiv	x12, x10, x11
	msub	x12, x12, x11, x10
	cbnz	x12, .Lnoise_BB83_19
	add	x0, x20, #16
	bl	"noise_state::cipher::CipherState::rekey"
	ldr	x11, [sp, #16]
	ldr	x10, [sp, #64]
	mov	x8, x23
	mov	x9, x22
.Lnoise_BB83_19:
	rev	w12, w24
	ldrb	w13, [sp, #24]
	add	x14, x24, #2
	lsr	w12, w12, #16
	cmp	w13, #1
	strh	w12, [x21]
	str	x14, [x8, #8]
	b.ne	.Lnoise_BB83_21
	ldrb	w12, [sp, #9]
	ldur	q0, [x20, #17]
	mov	w14, #1
	ldrb	w13, [sp, #8]
	mov	w8, wzr
	str	w19, [x9]
	stur	q0, [x9, #6]
	ldur	q0, [x20, #33]
	and	w12, w12, #0x1
	cmp	w13, #0
	strb	w12, [x9, #5]
	cinc	w12, w14, ne
	stur	q0, [x9, #22]
	strb	w12, [x9, #4]
	strh	wzr, [x9, #38]
	stp	x11, x10, [x9, #40]
	strb	w14, [x9, #56]
	stur	wzr, [x9, #57]
	str	wzr, [x9, #60]
	b	.Lnoise_BB83_13
.Lnoise_BB83_21:
	brk	#0x1
.Lnoise_func_end83:
	.size	noise_stream_end, .Lnoise_func_end83-noise_stream_end
	.cfi_endproc

	.section	.text.noise_stream_write,"ax",@progbits
	.globl	noise_stream_write
	.p2align	2
	.type	noise_stream_write,@function
noise_stream_write:
	.cfi_startproc
	sub	sp, sp, #176
	stp	x29, x30, [sp, #96]
	str	x25, [sp, #112]
	stp	x24, x23, [sp, #128]
	stp	x22, x21, [sp, #144]
	stp	x20, x19, [sp, #160]
	add	x29, sp, #96
	.cfi_def_cfa w29, 80
	.cfi_offset w19, -8
	.cfi_offset w20, -16
	.cfi_offset w21, -24
	.cfi_offset w22, -32
	.cfi_offset w23, -40
	.cfi_offset w24, -48
	.cfi_offset w25, -64
	.cfi_offset w30, -72
	.cfi_offset w29, -80
	mov	w8, #4096
	cmp	x1, #0
	ldr	w11, [x0]
	mov	w20, #2561
	csel	x9, x8, xzr, eq
	cmp	x3, #0
	movk	w20, #20079, lsl #16
	csel	x10, x8, xzr, eq
	cmp	w11, w20
	b.ne	.Lnoise_BB84_14
	ldrb	w8, [x0, #4]
	cmp	w8, #1
	b.eq	.Lnoise_BB84_6
	cmp	w8, #2
	b.ne	.Lnoise_BB84_14
	mov	w15, #1
	mov	w13, #1
	ldrb	w16, [x0, #5]
	ldp	x12, x11, [x0, #40]
	ldrb	w17, [x0, #56]
	cmp	w16, #0
	cset	w14, ne
	cbz	w17, .Lnoise_BB84_7
.Lnoise_BB84_4:
	cmp	w16, #0
	mov	w8, #23
	csel	w18, wzr, w15, eq
	tbnz	w18, #0, .Lnoise_BB84_15
	cbnz	x11, .Lnoise_BB84_8
	b	.Lnoise_BB84_15
.Lnoise_BB84_6:
	mov	w15, wzr
	mov	w13, wzr
	ldrb	w16, [x0, #5]
	ldp	x12, x11, [x0, #40]
	ldrb	w17, [x0, #56]
	cmp	w16, #0
	cset	w14, ne
	cbnz	w17, .Lnoise_BB84_4
.Lnoise_BB84_7:
	cmn	x11, #1
	b.eq	.Lnoise_BB84_14
.Lnoise_BB84_8:
	cmp	w17, #0
	mov	w8, #1
	ldur	q0, [x0, #6]
	cset	w18, ne
	strb	w8, [sp, #24]
	cmp	x2, #0
	mov	w8, #65519
	cset	w6, ne
	stur	q0, [sp, #25]
	cmp	x2, x8
	ldur	q0, [x0, #22]
	strb	w18, [sp, #72]
	csel	x19, x2, x8, lo
	strb	w13, [sp, #8]
	add	x8, x19, #18
	strb	w14, [sp, #9]
	cmp	x8, x4
	mov	w4, #18
	stur	wzr, [sp, #10]
	cset	w8, hi
	strh	wzr, [sp, #14]
	ands	w18, w6, w8
	mov	w8, #43
	str	x12, [sp, #16]
	csel	w8, w4, w8, ne
	stur	q0, [sp, #41]
	stur	wzr, [sp, #57]
	str	wzr, [sp, #60]
	str	x11, [sp, #64]
	stur	wzr, [sp, #73]
	str	wzr, [sp, #76]
	tbnz	w18, #0, .Lnoise_BB84_15
	cbnz	w17, .Lnoise_BB84_15
	add	x21, sp, #8
	cbz	x2, .Lnoise_BB84_24
	cbz	w16, .Lnoise_BB84_16
	tbz	w15, #0, .Lnoise_BB84_16
	mov	w8, #22
	b	.Lnoise_BB84_15
.Lnoise_BB84_14:
	mov	w8, #23
.Lnoise_BB84_15:
	ldp	x20, x19, [sp, #160]
	mov	w0, w8
	ldp	x22, x21, [sp, #144]
	ldr	x25, [sp, #112]
	ldp	x24, x23, [sp, #128]
	ldp	x29, x30, [sp, #96]
	add	sp, sp, #176
	ret
.Lnoise_BB84_16:
	cmn	x11, #2
	b.eq	.Lnoise_BB84_25
	cmn	x11, #1
	b.eq	.Lnoise_BB84_43
	add	x22, x3, x10
	add	x8, x1, x9
	add	x11, x22, #2
	sub	x11, x11, x8
	cmp	x11, x19
	b.hs	.Lnoise_BB84_26
	cmp	x2, #7
	b.ls	.Lnoise_BB84_21
	add	x8, x10, x3
	add	x11, x9, x1
	sub	x8, x8, x11
	add	x8, x8, #2
	cmp	x8, #32
	b.hs	.Lnoise_BB84_34
.Lnoise_BB84_21:
	mov	x23, x5
	mov	x24, x0
	mov	x8, xzr
.Lnoise_BB84_22:
	add	x10, x10, x8
	add	x9, x9, x8
	sub	x8, x19, x8
	add	x10, x10, x3
	add	x9, x1, x9
	add	x10, x10, #2
.Lnoise_BB84_23:
	ldrb	w11, [x9], #1
	subs	x8, x8, #1
	strb	w11, [x10], #1
	b.ne	.Lnoise_BB84_23
	b	.Lnoise_BB84_27
.Lnoise_BB84_24:
	mov	w9, wzr
	stp	xzr, xzr, [x5, #8]
	b	.Lnoise_BB84_33
.Lnoise_BB84_25:
	mov	w8, #17
	b	.Lnoise_BB84_15
.Lnoise_BB84_26:
	mov	x24, x0
	add	x0, x22, #2
	mov	x1, x8
	mov	x2, x19
	mov	x23, x5
	bl	memmove
.Lnoise_BB84_27:
	adrp	x2, .Lnoise_static.1
	add	x2, x2, :lo12:.Lnoise_static.1
	sub	x0, x29, #16
	add	x1, x21, #16
	add	x4, x22, #2
	mov	x3, xzr
	mov	x5, x19
	stp	xzr, xzr, [x29, #-16]
	bl	"noise_state::cipher::CipherState::encrypt"
	ldurb	w8, [x29, #-16]
	cbnz	w8, .Lnoise_BB84_43
	ldr	x12, [sp, #16]
	ldur	x25, [x29, #-8]
	mov	x0, x24
	ldr	x11, [sp, #64]
	cbz	x12, .Lnoise_BB84_31
	udiv	x8, x11, x12
	msub	x8, x8, x12, x11
	cbnz	x8, .Lnoise_BB84_31
	mov	x24, x0
	add	x0, x21, #16
	bl	"noise_state::cipher::CipherState::rekey"
	ldr	x12, [sp, #16]
	ldr	x11, [sp, #64]
	mov	x0, x24
.Lnoise_BB84_31:
	rev	w8, w25
	ldrb	w10, [sp, #24]
	ldrb	w13, [sp, #8]
	lsr	w8, w8, #16
	ldrb	w14, [sp, #9]
	add	x9, x25, #2
	cmp	w10, #1
	strh	w8, [x22]
	ldrb	w8, [sp, #72]
	stp	x9, x19, [x23, #8]
	b.ne	.Lnoise_BB84_43
	and	w9, w8, #0x1
.Lnoise_BB84_33:
	ldur	q0, [x21, #17]
	cmp	w13, #0
	mov	w10, #1
	cinc	w10, w10, ne
	mov	w8, wzr
	str	w20, [x0]
	stur	q0, [x0, #6]
	ldur	q0, [x21, #33]
	strb	w10, [x0, #4]
	and	w10, w14, #0x1
	strb	w10, [x0, #5]
	stur	q0, [x0, #22]
	strh	wzr, [x0, #38]
	stp	x12, x11, [x0, #40]
	strb	w9, [x0, #56]
	stur	wzr, [x0, #57]
	str	wzr, [x0, #60]
	b	.Lnoise_BB84_15
.Lnoise_BB84_34:
	mov	x23, x5
	mov	x24, x0
	cmp	x2, #32
	b.hs	.Lnoise_BB84_36
	mov	x8, xzr
	b	.Lnoise_BB84_40
.Lnoise_BB84_36:
	add	x12, x9, x1
	add	x13, x10, x3
	and	x11, x19, #0x18
	and	x8, x19, #0xffe0
	add	x12, x12, #16
	add	x13, x13, #18
	and	x14, x19, #0xffe0
.Lnoise_BB84_37:
	ldp	q0, q1, [x12, #-16]
	subs	x14, x14, #32
	add	x12, x12, #32
	stp	q0, q1, [x13, #-16]
	add	x13, x13, #32
	b.ne	.Lnoise_BB84_37
	cmp	x2, x8
	b.eq	.Lnoise_BB84_27
	cbz	x11, .Lnoise_BB84_22
.Lnoise_BB84_40:
	mov	x11, x8
	and	x8, x19, #0xfff8
	add	x12, x10, x11
	add	x13, x9, x11
	sub	x11, x11, x8
	add	x14, x12, x3
	add	x12, x1, x13
	add	x13, x14, #2
.Lnoise_BB84_41:
	ldr	d0, [x12], #8
	adds	x11, x11, #8
	str	d0, [x13], #8
	b.ne	.Lnoise_BB84_41
	cmp	x19, x8
	b.ne	.Lnoise_BB84_22
	b	.Lnoise_BB84_27
.Lnoise_BB84_43:
	brk	#0x1
.Lnoise_func_end84:
	.size	noise_stream_write, .Lnoise_func_end84-noise_stream_write
	.cfi_endproc

	.section	.text.noise_unset_psk,"ax",@progbits
	.globl	noise_unset_psk
	.p2align	2
	.type	noise_unset_psk,@function
noise_unset_psk:
	.cfi_startproc
	stp	x29, x30, [sp, #-48]!
	str	x28, [sp, #16]
	mov	x29, sp
	stp	x20, x19, [sp, #32]
	sub	sp, sp, #1152
	str	xzr, [sp]
	.cfi_def_cfa w29, 48
	.cfi_offset w19, -8
	.cfi_offset w20, -16
	.cfi_offset w28, -32
	.cfi_offset w30, -40
	.cfi_offset w29, -48
	mov	x19, x0
	add	x0, sp, #280
	mov	w1, wzr
	mov	w2, #872
	bl	memset
	ldr	w8, [x19]
	mov	w9, #257
	movk	w9, #20079, lsl #16
	cmp	w8, w9
	b.ne	.Lnoise_BB85_8
	ldrh	w2, [x19, #420]
	cmp	x2, #416
	b.hi	.Lnoise_BB85_8
	ldrb	w8, [x19, #846]
	cmp	w8, #8
	b.hi	.Lnoise_BB85_8
	ldrb	w8, [x19, #557]
	cmp	w8, #9
	b.hi	.Lnoise_BB85_8
	mov	x0, sp
	add	x1, x19, #4
	mov	x20, sp
	bl	"noise_c::patterns::pattern_of"
	ldrb	w8, [sp]
	cbnz	w8, .Lnoise_BB85_8
	add	x0, sp, #280
	add	x2, x20, #8
	mov	x1, x19
	bl	"noise_c::from_c::restored"
	ldrb	w8, [sp, #280]
	cmp	w8, #1
	b.ne	.Lnoise_BB85_8
	ldrb	w8, [x19, #557]
	cbz	w8, .Lnoise_BB85_9
	add	x9, x19, #782
	add	x10, x19, #814
	add	x11, x19, #750
	ldp	q0, q1, [x9]
	mov	w0, wzr
	sub	w8, w8, #1
	strb	w8, [x19, #557]
	stp	q0, q1, [x10]
	ldp	q2, q0, [x11]
	add	x10, x19, #718
	stp	q2, q0, [x9]
	ldp	q1, q0, [x10]
	add	x9, x19, #686
	stp	q1, q0, [x11]
	ldp	q0, q2, [x9]
	add	x11, x19, #654
	stp	q0, q2, [x10]
	ldp	q0, q1, [x11]
	add	x10, x19, #622
	stp	q0, q1, [x9]
	ldp	q2, q1, [x10]
	add	x9, x19, #590
	stp	q2, q1, [x11]
	ldp	q1, q0, [x9]
	add	x11, x19, #558
	movi	v2.2d, #0000000000000000
	stp	q1, q0, [x10]
	ldp	q3, q0, [x11]
	stp	q2, q2, [x11]
	stp	q3, q0, [x9]
	add	sp, sp, #1152
	ldp	x20, x19, [sp, #32]
	ldr	x28, [sp, #16]
	ldp	x29, x30, [sp], #48
	ret
.Lnoise_BB85_8:
	mov	w0, #23
	add	sp, sp, #1152
	ldp	x20, x19, [sp, #32]
	ldr	x28, [sp, #16]
	ldp	x29, x30, [sp], #48
	ret
.Lnoise_BB85_9:
	mov	w0, wzr
	add	sp, sp, #1152
	ldp	x20, x19, [sp, #32]
	ldr	x28, [sp, #16]
	ldp	x29, x30, [sp], #48
	ret
.Lnoise_func_end85:
	.size	noise_unset_psk, .Lnoise_func_end85-noise_unset_psk
	.cfi_endproc

	.section	.text.noise_check_pattern,"ax",@progbits
	.globl	noise_check_pattern
	.p2align	2
	.type	noise_check_pattern,@function
noise_check_pattern:
	.cfi_startproc
	stp	x29, x30, [sp, #-48]!
	str	x28, [sp, #16]
	mov	x29, sp
	stp	x20, x19, [sp, #32]
	sub	sp, sp, #560
	.cfi_def_cfa w29, 48
	.cfi_offset w19, -8
	.cfi_offset w20, -16
	.cfi_offset w28, -32
	.cfi_offset w30, -40
	.cfi_offset w29, -48
	movi	v0.2d, #0000000000000000
	cmp	x0, #0
	mov	w9, #4096
	mov	x8, x0
	csel	x9, x9, xzr, eq
	mov	x19, x2
	mov	x2, x1
	add	x0, sp, #272
	add	x1, x8, x9
	str	xzr, [sp, #544]
	add	x20, sp, #272
	stp	q0, q0, [sp, #288]
	stp	q0, q0, [sp, #320]
	stp	q0, q0, [sp, #352]
	stp	q0, q0, [sp, #384]
	stp	q0, q0, [sp, #416]
	stp	q0, q0, [sp, #448]
	stp	q0, q0, [sp, #480]
	stp	q0, q0, [sp, #512]
	str	q0, [sp, #272]
	bl	"noise_names::pattern::Pattern::parse_text"
	ldrb	w8, [sp, #272]
	cbz	w8, .Lnoise_BB86_2
	ldr	x8, [sp, #280]
	ldrb	w9, [sp, #288]
	str	x8, [x19]
	add	w0, w9, #30
	add	sp, sp, #560
	ldp	x20, x19, [sp, #32]
	ldr	x28, [sp, #16]
	ldp	x29, x30, [sp], #48
	ret
.Lnoise_BB86_2:
	mov	x0, sp
	orr	x1, x20, #0x8
	mov	w2, #272
	bl	memcpy
	movi	v0.2d, #0000000000000000
	add	x0, sp, #272
	mov	x1, sp
	str	xzr, [sp, #544]
	stp	q0, q0, [sp, #288]
	stp	q0, q0, [sp, #320]
	stp	q0, q0, [sp, #352]
	stp	q0, q0, [sp, #384]
	stp	q0, q0, [sp, #416]
	stp	q0, q0, [sp, #448]
	stp	q0, q0, [sp, #480]
	stp	q0, q0, [sp, #512]
	str	q0, [sp, #272]
	bl	"noise_names::pattern::Pattern::check"
	ldrb	w8, [sp, #272]
	cbz	w8, .Lnoise_BB86_4
	add	x8, sp, #18
	ldrb	w9, [sp, #275]
	mov	w0, #39
	ldurh	w8, [x8, #255]
	strb	w9, [x19, #10]
	strh	w8, [x19, #8]
	add	sp, sp, #560
	ldp	x20, x19, [sp, #32]
	ldr	x28, [sp, #16]
	ldp	x29, x30, [sp], #48
	ret
.Lnoise_BB86_4:
	ldr	x8, [sp, #544]
	mov	w0, wzr
	strb	w8, [x19, #11]
	add	sp, sp, #560
	ldp	x20, x19, [sp, #32]
	ldr	x28, [sp, #16]
	ldp	x29, x30, [sp], #48
	ret
.Lnoise_func_end86:
	.size	noise_check_pattern, .Lnoise_func_end86-noise_check_pattern
	.cfi_endproc

	.section	.text.noise_pattern,"ax",@progbits
	.globl	noise_pattern
	.p2align	2
	.type	noise_pattern,@function
noise_pattern:
	.cfi_startproc
	stp	x29, x30, [sp, #-96]!
	stp	x28, x27, [sp, #16]
	mov	x29, sp
	stp	x26, x25, [sp, #32]
	stp	x24, x23, [sp, #48]
	stp	x22, x21, [sp, #64]
	stp	x20, x19, [sp, #80]
	sub	sp, sp, #1920
	str	xzr, [sp]
	.cfi_def_cfa w29, 96
	.cfi_offset w19, -8
	.cfi_offset w20, -16
	.cfi_offset w21, -24
	.cfi_offset w22, -32
	.cfi_offset w23, -40
	.cfi_offset w24, -48
	.cfi_offset w25, -56
	.cfi_offset w26, -64
	.cfi_offset w27, -72
	.cfi_offset w28, -80
	.cfi_offset w30, -88
	.cfi_offset w29, -96
	movi	v0.2d, #0000000000000000
	cmp	x0, #0
	mov	w8, #4096
	csel	x8, x8, xzr, eq
	mov	x19, x3
	mov	x20, x2
	mov	x2, x1
	add	x21, sp, #1520
	add	x1, x0, x8
	stp	q0, q0, [sp, #448]
	stp	q0, q0, [sp, #480]
	stp	q0, q0, [sp, #512]
	stp	q0, q0, [sp, #544]
	stp	q0, q0, [sp, #576]
	stp	q0, q0, [sp, #608]
	stp	q0, q0, [sp, #640]
	stp	q0, q0, [sp, #672]
	stp	q0, q0, [sp, #704]
	stp	q0, q0, [sp, #736]
	stp	q0, q0, [sp, #768]
	stp	q0, q0, [sp, #800]
	stp	q0, q0, [sp, #832]
	stp	q0, q0, [sp, #864]
	stp	q0, q0, [sp, #896]
	stp	q0, q0, [sp, #928]
	str	q0, [sp, #960]
	str	q0, [sp, #432]
	cbz	x2, .Lnoise_BB87_4
	add	x8, x1, x2
	ldurb	w8, [x8, #-1]
	cmp	w8, #10
	b.ne	.Lnoise_BB87_4
	add	x0, sp, #1616
	str	xzr, [sp, #1888]
	add	x22, sp, #1616
	str	q0, [sp, #1872]
	str	q0, [sp, #1856]
	str	q0, [sp, #1840]
	str	q0, [sp, #1824]
	str	q0, [sp, #1808]
	str	q0, [sp, #1792]
	str	q0, [sp, #1776]
	str	q0, [sp, #1760]
	str	q0, [sp, #1744]
	str	q0, [sp, #1728]
	str	q0, [sp, #1712]
	str	q0, [sp, #1696]
	str	q0, [sp, #1680]
	str	q0, [sp, #1664]
	str	q0, [sp, #1648]
	str	q0, [sp, #1632]
	str	q0, [sp, #1616]
	bl	"noise_names::pattern::Pattern::parse_text"
	ldrb	w8, [sp, #1616]
	cbz	w8, .Lnoise_BB87_24
	ldr	x8, [sp, #1624]
	ldrb	w9, [sp, #1632]
	str	x8, [x19]
	add	w0, w9, #30
	b	.Lnoise_BB87_6
.Lnoise_BB87_4:
	add	x0, sp, #1520
	str	q0, [sp, #1520]
	str	q0, [sp, #1536]
	str	q0, [sp, #1552]
	str	q0, [sp, #1616]
	str	q0, [sp, #1632]
	str	q0, [sp, #1648]
	str	q0, [sp, #1664]
	str	q0, [sp, #1680]
	str	q0, [sp, #1696]
	str	q0, [sp, #1712]
	str	q0, [sp, #1728]
	str	q0, [sp, #1744]
	str	q0, [sp, #1760]
	str	q0, [sp, #1776]
	str	q0, [sp, #1792]
	str	q0, [sp, #1808]
	str	q0, [sp, #1824]
	str	q0, [sp, #1840]
	str	q0, [sp, #1856]
	str	q0, [sp, #1872]
	str	xzr, [sp, #1888]
	bl	"noise_names::name::ProtocolName::parse"
	ldrb	w8, [sp, #1520]
	cbz	w8, .Lnoise_BB87_7
.Lnoise_BB87_5:
	mov	w0, #1
.Lnoise_BB87_6:
	add	sp, sp, #1920
	ldp	x20, x19, [sp, #80]
	ldp	x22, x21, [sp, #64]
	ldp	x24, x23, [sp, #48]
	ldp	x26, x25, [sp, #32]
	ldp	x28, x27, [sp, #16]
	ldp	x29, x30, [sp], #96
	ret
.Lnoise_BB87_7:
	ldur	q0, [x21, #8]
	ldur	q1, [x21, #24]
	ldr	x9, [sp, #1560]
	str	q0, [sp, #1568]
	ldr	x8, [sp, #1576]
	str	q1, [sp, #1584]
	str	x9, [sp, #1600]
	cbz	x8, .Lnoise_BB87_5
	cmp	x8, #1
	b.ne	.Lnoise_BB87_13
	ldrb	w8, [sp, #1528]
	cmp	w8, #88
	b.eq	.Lnoise_BB87_22
	cmp	w8, #78
	b.eq	.Lnoise_BB87_21
	cmp	w8, #75
	b.ne	.Lnoise_BB87_5
	mov	w1, #1
	b	.Lnoise_BB87_23
.Lnoise_BB87_13:
	cmp	x8, #2
	b.hi	.Lnoise_BB87_5
	ldrb	w8, [sp, #1528]
	cmp	w8, #77
	b.gt	.Lnoise_BB87_33
	cmp	w8, #73
	b.eq	.Lnoise_BB87_127
	cmp	w8, #75
	b.ne	.Lnoise_BB87_5
	ldrb	w8, [sp, #1529]
	cmp	w8, #88
	b.eq	.Lnoise_BB87_198
	cmp	w8, #78
	b.eq	.Lnoise_BB87_194
	cmp	w8, #75
	b.ne	.Lnoise_BB87_5
	mov	w1, #7
	b	.Lnoise_BB87_23
.Lnoise_BB87_21:
	mov	w1, wzr
	b	.Lnoise_BB87_23
.Lnoise_BB87_22:
	mov	w1, #2
.Lnoise_BB87_23:
	add	x0, sp, #1248
	bl	"noise_names::table::row"
	add	x8, sp, #1568
	add	x0, sp, #1616
	add	x1, sp, #1248
	add	x2, x8, #16
	add	x22, sp, #1616
	bl	"noise_names::pattern::Pattern::with_psks"
	ldrb	w8, [sp, #1616]
	cbnz	w8, .Lnoise_BB87_5
.Lnoise_BB87_24:
	add	x0, sp, #976
	orr	x1, x22, #0x8
	mov	w2, #272
	bl	memcpy
	add	x0, sp, #1248
	add	x1, sp, #976
	mov	w2, #272
	bl	memcpy
	movi	v0.2d, #0000000000000000
	add	x0, sp, #1616
	add	x1, sp, #1248
	str	xzr, [sp, #1888]
	add	x22, sp, #1616
	str	q0, [sp, #1872]
	str	q0, [sp, #1856]
	str	q0, [sp, #1840]
	str	q0, [sp, #1824]
	str	q0, [sp, #1808]
	str	q0, [sp, #1792]
	str	q0, [sp, #1776]
	str	q0, [sp, #1760]
	str	q0, [sp, #1744]
	str	q0, [sp, #1728]
	str	q0, [sp, #1712]
	str	q0, [sp, #1696]
	str	q0, [sp, #1680]
	str	q0, [sp, #1664]
	str	q0, [sp, #1648]
	str	q0, [sp, #1632]
	str	q0, [sp, #1616]
	bl	"noise_names::pattern::Pattern::check"
	ldrb	w8, [sp, #1616]
	cbz	w8, .Lnoise_BB87_26
	ldurh	w8, [x21, #97]
	ldrb	w9, [sp, #1619]
	mov	w0, #39
	strh	w8, [x19, #8]
	strb	w9, [x19, #10]
	b	.Lnoise_BB87_6
.Lnoise_BB87_26:
	add	x0, sp, #432
	orr	x1, x22, #0x8
	mov	w2, #272
	bl	memcpy
	add	x0, sp, #704
	add	x1, sp, #432
	mov	w2, #272
	add	x21, sp, #704
	bl	memcpy
	ldr	x6, [sp, #968]
	add	x11, x21, #72
	cbz	x6, .Lnoise_BB87_39
	mov	x9, xzr
	mov	x10, x6
	add	x12, x21, #72
	b	.Lnoise_BB87_29
.Lnoise_BB87_28:
	subs	x10, x10, #1
	add	x12, x12, #24
	add	x9, x13, x9
	b.eq	.Lnoise_BB87_40
.Lnoise_BB87_29:
	ldr	x14, [x12, #16]
	mov	x13, xzr
	mov	x15, x12
.Lnoise_BB87_30:
	cbz	x14, .Lnoise_BB87_28
	ldrb	w16, [x15], #1
	sub	x14, x14, #1
	cmp	w16, #6
	b.ne	.Lnoise_BB87_30
	add	x13, x13, #1
	b	.Lnoise_BB87_30
.Lnoise_BB87_33:
	cmp	w8, #88
	b.eq	.Lnoise_BB87_131
	cmp	w8, #78
	b.ne	.Lnoise_BB87_5
	ldrb	w8, [sp, #1529]
	cmp	w8, #88
	b.eq	.Lnoise_BB87_199
	cmp	w8, #78
	b.eq	.Lnoise_BB87_195
	cmp	w8, #75
	b.ne	.Lnoise_BB87_5
	mov	w1, #4
	b	.Lnoise_BB87_23
.Lnoise_BB87_39:
	mov	w9, wzr
.Lnoise_BB87_40:
	ldr	x10, [sp, #768]
	ldr	x12, [sp, #752]
	mov	x15, xzr
	add	x14, x21, #56
	add	x13, x21, #40
.Lnoise_BB87_41:
	cmp	x12, x15
	b.eq	.Lnoise_BB87_43
	ldrb	w16, [x13, x15]
	add	x15, x15, #1
	cbnz	w16, .Lnoise_BB87_41
	b	.Lnoise_BB87_50
.Lnoise_BB87_43:
	cbz	x6, .Lnoise_BB87_51
	mov	w15, wzr
	mov	x16, x6
	mov	x17, x11
	b	.Lnoise_BB87_46
.Lnoise_BB87_45:
	sub	x16, x16, #1
	add	x17, x17, #24
	eor	w15, w15, #0x1
	cbz	x16, .Lnoise_BB87_51
.Lnoise_BB87_46:
	cbnz	w15, .Lnoise_BB87_45
	ldr	x18, [x17, #16]
	mov	x0, xzr
.Lnoise_BB87_48:
	cmp	x18, x0
	b.eq	.Lnoise_BB87_45
	ldrb	w1, [x17, x0]
	add	x0, x0, #1
	cbnz	w1, .Lnoise_BB87_48
.Lnoise_BB87_50:
	mov	w22, #1
	b	.Lnoise_BB87_52
.Lnoise_BB87_51:
	mov	x22, xzr
.Lnoise_BB87_52:
	mov	x15, xzr
.Lnoise_BB87_53:
	cmp	x12, x15
	b.eq	.Lnoise_BB87_55
	ldrb	w16, [x13, x15]
	add	x15, x15, #1
	cmp	w16, #1
	b.ne	.Lnoise_BB87_53
	b	.Lnoise_BB87_62
.Lnoise_BB87_55:
	cbz	x6, .Lnoise_BB87_63
	mov	w15, wzr
	mov	x16, x6
	mov	x17, x11
	b	.Lnoise_BB87_58
.Lnoise_BB87_57:
	sub	x16, x16, #1
	add	x17, x17, #24
	eor	w15, w15, #0x1
	cbz	x16, .Lnoise_BB87_63
.Lnoise_BB87_58:
	cbnz	w15, .Lnoise_BB87_57
	ldr	x18, [x17, #16]
	mov	x0, xzr
.Lnoise_BB87_60:
	cmp	x18, x0
	b.eq	.Lnoise_BB87_57
	ldrb	w1, [x17, x0]
	add	x0, x0, #1
	cmp	w1, #1
	b.ne	.Lnoise_BB87_60
.Lnoise_BB87_62:
	mov	w15, #256
	str	x15, [sp, #280]
	b	.Lnoise_BB87_64
.Lnoise_BB87_63:
	str	xzr, [sp, #280]
.Lnoise_BB87_64:
	mov	x16, xzr
.Lnoise_BB87_65:
	mov	x15, x16
	cmp	x10, x16
	b.eq	.Lnoise_BB87_67
	ldrb	w17, [x14, x15]
	add	x16, x15, #1
	cbnz	w17, .Lnoise_BB87_65
.Lnoise_BB87_67:
	mov	x17, xzr
.Lnoise_BB87_68:
	mov	x16, x17
	cmp	x10, x17
	b.eq	.Lnoise_BB87_70
	ldrb	w17, [x14, x16]
	cmp	w17, #1
	add	x17, x16, #1
	b.ne	.Lnoise_BB87_68
.Lnoise_BB87_70:
	mov	x17, xzr
.Lnoise_BB87_71:
	cmp	x10, x17
	b.eq	.Lnoise_BB87_73
	ldrb	w18, [x14, x17]
	add	x17, x17, #1
	cbnz	w18, .Lnoise_BB87_71
	b	.Lnoise_BB87_80
.Lnoise_BB87_73:
	cbz	x6, .Lnoise_BB87_81
	mov	w17, wzr
	mov	x18, x6
	mov	x0, x11
	b	.Lnoise_BB87_76
.Lnoise_BB87_75:
	sub	x18, x18, #1
	add	x0, x0, #24
	eor	w17, w17, #0x1
	cbz	x18, .Lnoise_BB87_81
.Lnoise_BB87_76:
	cmp	w17, #1
	b.ne	.Lnoise_BB87_75
	ldr	x1, [x0, #16]
	mov	x2, xzr
.Lnoise_BB87_78:
	cmp	x1, x2
	b.eq	.Lnoise_BB87_75
	ldrb	w3, [x0, x2]
	add	x2, x2, #1
	cbnz	w3, .Lnoise_BB87_78
.Lnoise_BB87_80:
	mov	x17, #4294967296
	str	x17, [sp, #272]
	b	.Lnoise_BB87_82
.Lnoise_BB87_81:
	str	xzr, [sp, #272]
.Lnoise_BB87_82:
	mov	x17, xzr
.Lnoise_BB87_83:
	cmp	x10, x17
	b.eq	.Lnoise_BB87_85
	ldrb	w18, [x14, x17]
	add	x17, x17, #1
	cmp	w18, #1
	b.ne	.Lnoise_BB87_83
	b	.Lnoise_BB87_92
.Lnoise_BB87_85:
	cbz	x6, .Lnoise_BB87_93
	mov	w14, wzr
	mov	x17, x6
	b	.Lnoise_BB87_88
.Lnoise_BB87_87:
	sub	x17, x17, #1
	add	x11, x11, #24
	eor	w14, w14, #0x1
	cbz	x17, .Lnoise_BB87_93
.Lnoise_BB87_88:
	cmp	w14, #1
	b.ne	.Lnoise_BB87_87
	ldr	x18, [x11, #16]
	mov	x0, xzr
.Lnoise_BB87_90:
	cmp	x18, x0
	b.eq	.Lnoise_BB87_87
	ldrb	w1, [x11, x0]
	add	x0, x0, #1
	cmp	w1, #1
	b.ne	.Lnoise_BB87_90
.Lnoise_BB87_92:
	mov	x11, #1099511627776
	str	x11, [sp, #328]
	b	.Lnoise_BB87_94
.Lnoise_BB87_93:
	str	xzr, [sp, #328]
.Lnoise_BB87_94:
	mov	x14, xzr
.Lnoise_BB87_95:
	mov	x11, x14
	cmp	x12, x14
	b.eq	.Lnoise_BB87_97
	ldrb	w17, [x13, x11]
	add	x14, x11, #1
	cbnz	w17, .Lnoise_BB87_95
.Lnoise_BB87_97:
	mov	x14, xzr
.Lnoise_BB87_98:
	cmp	x12, x14
	b.eq	.Lnoise_BB87_101
	ldrb	w17, [x13, x14]
	add	x14, x14, #1
	cmp	w17, #1
	b.ne	.Lnoise_BB87_98
	mov	x13, #72057594037927936
	str	x13, [sp, #312]
	b	.Lnoise_BB87_102
.Lnoise_BB87_101:
	str	xzr, [sp, #312]
.Lnoise_BB87_102:
	cmp	x10, x16
	mov	w13, #16777216
	csel	x13, xzr, x13, eq
	cmp	x10, x15
	str	x13, [sp, #304]
	mov	w13, #65536
	csel	x13, xzr, x13, eq
	cmp	x12, x11
	mov	x11, #281474976710656
	csel	x11, xzr, x11, eq
	stp	x13, x11, [sp, #288]
	cbz	x12, .Lnoise_BB87_105
	ldrb	w11, [sp, #744]
	cmp	x12, #1
	add	w16, w11, #1
	b.ne	.Lnoise_BB87_106
	str	wzr, [sp, #340]
	b	.Lnoise_BB87_107
.Lnoise_BB87_105:
	mov	w16, wzr
	str	wzr, [sp, #340]
	b	.Lnoise_BB87_107
.Lnoise_BB87_106:
	ldrb	w11, [sp, #745]
	lsl	w11, w11, #8
	add	w11, w11, #256
	and	w11, w11, #0xff00
	str	w11, [sp, #340]
.Lnoise_BB87_107:
	cbz	x10, .Lnoise_BB87_110
	ldrb	w11, [sp, #760]
	cmp	x10, #1
	add	w10, w11, #1
	str	w10, [sp, #324]
	b.ne	.Lnoise_BB87_111
	str	wzr, [sp, #320]
	b	.Lnoise_BB87_112
.Lnoise_BB87_110:
	str	xzr, [sp, #320]
	b	.Lnoise_BB87_112
.Lnoise_BB87_111:
	ldrb	w10, [sp, #761]
	lsl	w10, w10, #8
	add	w10, w10, #256
	and	w10, w10, #0xff00
	str	w10, [sp, #320]
.Lnoise_BB87_112:
	str	w16, [sp, #268]
	str	x6, [sp, #248]
	str	x19, [sp, #224]
	cbz	x6, .Lnoise_BB87_116
	ldr	x10, [sp, #792]
	cbz	x10, .Lnoise_BB87_117
	ldrb	w11, [sp, #776]
	cmp	x10, #1
	add	w12, w11, #1
	str	w12, [sp, #112]
	b.ne	.Lnoise_BB87_118
	str	xzr, [sp, #104]
	b	.Lnoise_BB87_136
.Lnoise_BB87_116:
	str	wzr, [sp, #156]
	mov	w27, wzr
	mov	w26, wzr
	str	xzr, [sp, #344]
	mov	w17, wzr
	mov	w16, wzr
	str	wzr, [sp, #356]
	mov	w14, wzr
	mov	w13, wzr
	str	wzr, [sp, #364]
	mov	w12, wzr
	mov	w11, wzr
	str	wzr, [sp, #376]
	mov	w24, wzr
	mov	w23, wzr
	stp	xzr, xzr, [sp, #392]
	mov	w10, wzr
	mov	w1, wzr
	stp	xzr, xzr, [sp, #160]
	mov	w15, wzr
	mov	w3, wzr
	str	wzr, [sp, #368]
	mov	w28, wzr
	mov	w30, wzr
	stp	xzr, xzr, [sp, #176]
	mov	w4, wzr
	mov	w8, wzr
	str	wzr, [sp, #420]
	mov	w7, wzr
	mov	w19, wzr
	mov	w21, wzr
	mov	w5, wzr
	str	wzr, [sp, #408]
	mov	w2, wzr
	mov	w18, wzr
	stp	xzr, xzr, [sp, #200]
	str	xzr, [sp, #216]
	stp	xzr, xzr, [sp, #232]
	str	wzr, [sp, #264]
	str	wzr, [sp, #260]
	str	xzr, [sp, #192]
	b	.Lnoise_BB87_145
.Lnoise_BB87_117:
	str	wzr, [sp, #112]
	mov	w12, wzr
	mov	w13, wzr
	str	xzr, [sp, #104]
	mov	w14, wzr
	mov	w16, wzr
	mov	w17, wzr
	mov	w25, wzr
	b	.Lnoise_BB87_143
.Lnoise_BB87_118:
	ldrb	w11, [sp, #777]
	cmp	x10, #3
	add	w15, w11, #1
	str	w15, [sp, #108]
	b.lo	.Lnoise_BB87_135
	ldrb	w11, [sp, #778]
	cmp	x10, #3
	add	w25, w11, #1
	str	w25, [sp, #104]
	b.eq	.Lnoise_BB87_136
	ldrb	w11, [sp, #779]
	cmp	x10, #5
	add	w12, w11, #1
	b.lo	.Lnoise_BB87_137
	ldrb	w11, [sp, #780]
	cmp	x10, #5
	add	w13, w11, #1
	b.eq	.Lnoise_BB87_138
	ldrb	w11, [sp, #781]
	cmp	x10, #7
	add	w14, w11, #1
	b.lo	.Lnoise_BB87_139
	ldrb	w11, [sp, #782]
	cmp	x10, #7
	add	w16, w11, #1
	b.eq	.Lnoise_BB87_140
	ldrb	w11, [sp, #783]
	cmp	x10, #9
	add	w17, w11, #1
	b.lo	.Lnoise_BB87_141
	ldrb	w11, [sp, #784]
	cmp	x10, #9
	add	w25, w11, #1
	b.eq	.Lnoise_BB87_142
	ldrb	w10, [sp, #785]
	add	w10, w10, #1
	b	.Lnoise_BB87_143
.Lnoise_BB87_127:
	ldrb	w8, [sp, #1529]
	cmp	w8, #88
	b.eq	.Lnoise_BB87_200
	cmp	w8, #78
	b.eq	.Lnoise_BB87_196
	cmp	w8, #75
	b.ne	.Lnoise_BB87_5
	mov	w1, #13
	b	.Lnoise_BB87_23
.Lnoise_BB87_131:
	ldrb	w8, [sp, #1529]
	cmp	w8, #88
	b.eq	.Lnoise_BB87_201
	cmp	w8, #78
	b.eq	.Lnoise_BB87_197
	cmp	w8, #75
	b.ne	.Lnoise_BB87_5
	mov	w1, #10
	b	.Lnoise_BB87_23
.Lnoise_BB87_135:
	str	wzr, [sp, #104]
.Lnoise_BB87_136:
	mov	w12, wzr
.Lnoise_BB87_137:
	mov	w13, wzr
.Lnoise_BB87_138:
	mov	w14, wzr
.Lnoise_BB87_139:
	mov	w16, wzr
.Lnoise_BB87_140:
	mov	w17, wzr
.Lnoise_BB87_141:
	mov	w25, wzr
.Lnoise_BB87_142:
	mov	w10, wzr
.Lnoise_BB87_143:
	cmp	x6, #1
	stp	w25, w10, [sp, #96]
	b.ne	.Lnoise_BB87_146
	ldp	w24, w23, [sp, #108]
	ldp	w27, w11, [sp, #100]
	ldr	w26, [sp, #96]
	str	wzr, [sp, #156]
	mov	w10, wzr
	str	xzr, [sp, #344]
	mov	w1, wzr
	mov	w15, wzr
	str	wzr, [sp, #356]
	mov	w3, wzr
	mov	w28, wzr
	str	wzr, [sp, #364]
	mov	w30, wzr
	mov	w4, wzr
	str	wzr, [sp, #376]
	mov	w8, wzr
	mov	w7, wzr
	stp	xzr, xzr, [sp, #392]
	mov	w6, wzr
	mov	w19, wzr
	stp	xzr, xzr, [sp, #160]
	mov	w21, wzr
	mov	w5, wzr
	str	wzr, [sp, #368]
	mov	w2, wzr
	mov	w18, wzr
	str	xzr, [sp, #176]
	str	wzr, [sp, #420]
	stp	wzr, wzr, [sp, #184]
	str	wzr, [sp, #408]
	stp	xzr, xzr, [sp, #200]
	str	xzr, [sp, #216]
	stp	xzr, xzr, [sp, #232]
	str	wzr, [sp, #264]
	str	wzr, [sp, #260]
	str	xzr, [sp, #192]
.Lnoise_BB87_145:
	str	wzr, [sp, #416]
	str	wzr, [sp, #412]
	b	.Lnoise_BB87_188
.Lnoise_BB87_146:
	ldr	x10, [sp, #816]
	cbz	x10, .Lnoise_BB87_157
	ldrb	w11, [sp, #800]
	cmp	x10, #1
	add	w18, w11, #1
	b.eq	.Lnoise_BB87_158
	ldrb	w11, [sp, #801]
	cmp	x10, #3
	add	w27, w11, #1
	b.lo	.Lnoise_BB87_159
	ldrb	w11, [sp, #802]
	cmp	x10, #3
	add	w1, w11, #1
	b.eq	.Lnoise_BB87_160
	ldrb	w11, [sp, #803]
	cmp	x10, #5
	add	w15, w11, #1
	b.lo	.Lnoise_BB87_161
	ldrb	w11, [sp, #804]
	cmp	x10, #5
	add	w26, w11, #1
	b.eq	.Lnoise_BB87_162
	ldrb	w11, [sp, #805]
	cmp	x10, #7
	add	w3, w11, #1
	b.lo	.Lnoise_BB87_163
	ldrb	w11, [sp, #806]
	cmp	x10, #7
	add	w4, w11, #1
	b.eq	.Lnoise_BB87_164
	ldrb	w11, [sp, #807]
	cmp	x10, #9
	add	w5, w11, #1
	b.lo	.Lnoise_BB87_165
	ldrb	w11, [sp, #808]
	cmp	x10, #9
	add	w11, w11, #1
	b.eq	.Lnoise_BB87_166
	ldrb	w10, [sp, #809]
	add	w8, w10, #1
	b	.Lnoise_BB87_167
.Lnoise_BB87_157:
	mov	w18, wzr
.Lnoise_BB87_158:
	mov	w27, wzr
.Lnoise_BB87_159:
	mov	w1, wzr
.Lnoise_BB87_160:
	mov	w15, wzr
.Lnoise_BB87_161:
	mov	w26, wzr
.Lnoise_BB87_162:
	mov	w3, wzr
.Lnoise_BB87_163:
	mov	w4, wzr
.Lnoise_BB87_164:
	mov	w5, wzr
.Lnoise_BB87_165:
	mov	w11, wzr
.Lnoise_BB87_166:
	mov	w8, wzr
.Lnoise_BB87_167:
	cmp	x6, #3
	stp	w8, w11, [sp, #80]
	stp	w5, w4, [sp, #88]
	str	w18, [sp, #264]
	str	w26, [sp, #260]
	b.lo	.Lnoise_BB87_171
	ldr	x10, [sp, #840]
	str	x22, [sp, #72]
	cbz	x10, .Lnoise_BB87_172
	ldrb	w11, [sp, #824]
	cmp	x10, #1
	add	w19, w11, #1
	b.ne	.Lnoise_BB87_173
	mov	w4, wzr
	b	.Lnoise_BB87_180
.Lnoise_BB87_171:
	mov	w10, w27
	ldr	w8, [sp, #80]
	str	wzr, [sp, #156]
	ldp	w24, w23, [sp, #108]
	ldp	w27, w11, [sp, #100]
	ldp	w28, w26, [sp, #92]
	ldp	w4, w30, [sp, #84]
	str	xzr, [sp, #344]
	mov	w7, wzr
	mov	w6, wzr
	str	wzr, [sp, #356]
	mov	w19, wzr
	mov	w21, wzr
	str	wzr, [sp, #364]
	mov	w5, wzr
	mov	w2, wzr
	str	wzr, [sp, #376]
	mov	w18, wzr
	stp	xzr, xzr, [sp, #392]
	stp	xzr, xzr, [sp, #160]
	str	wzr, [sp, #368]
	stp	xzr, xzr, [sp, #176]
	stp	xzr, xzr, [sp, #408]
	stp	xzr, xzr, [sp, #200]
	str	xzr, [sp, #216]
	stp	xzr, xzr, [sp, #232]
	b	.Lnoise_BB87_187
.Lnoise_BB87_172:
	mov	w19, wzr
	mov	w4, wzr
	mov	w8, wzr
	mov	w5, wzr
	mov	w30, wzr
	mov	w21, wzr
	mov	w23, wzr
	mov	w24, wzr
	mov	w11, wzr
	b	.Lnoise_BB87_185
.Lnoise_BB87_173:
	ldrb	w11, [sp, #825]
	cmp	x10, #3
	add	w4, w11, #1
	b.lo	.Lnoise_BB87_180
	ldrb	w11, [sp, #826]
	cmp	x10, #3
	add	w8, w11, #1
	b.eq	.Lnoise_BB87_181
	ldrb	w11, [sp, #827]
	cmp	x10, #5
	add	w5, w11, #1
	b.lo	.Lnoise_BB87_182
	ldrb	w11, [sp, #828]
	cmp	x10, #5
	add	w30, w11, #1
	b.eq	.Lnoise_BB87_183
	ldrb	w11, [sp, #829]
	cmp	x10, #7
	add	w21, w11, #1
	b.lo	.Lnoise_BB87_184
	ldrb	w11, [sp, #830]
	mov	w2, w19
	cmp	x10, #7
	add	w23, w11, #1
	b.ne	.Lnoise_BB87_273
	mov	w24, wzr
	mov	w11, wzr
	mov	w10, wzr
	b	.Lnoise_BB87_302
.Lnoise_BB87_180:
	mov	w8, wzr
.Lnoise_BB87_181:
	mov	w5, wzr
.Lnoise_BB87_182:
	mov	w30, wzr
.Lnoise_BB87_183:
	mov	w21, wzr
.Lnoise_BB87_184:
	mov	w23, wzr
	mov	w24, wzr
	mov	w11, wzr
	mov	w10, wzr
.Lnoise_BB87_185:
	cmp	x6, #3
	stp	w10, w11, [sp, #200]
	stp	w24, w23, [sp, #208]
	stp	w21, w30, [sp, #216]
	stp	w4, w19, [sp, #240]
	stp	w5, w8, [sp, #232]
	b.ne	.Lnoise_BB87_191
	mov	w10, w27
	ldr	w8, [sp, #80]
	ldr	x22, [sp, #72]
	ldp	w24, w23, [sp, #108]
	ldp	w27, w11, [sp, #100]
	ldp	w28, w26, [sp, #92]
	ldp	w4, w30, [sp, #84]
	str	wzr, [sp, #156]
	mov	w7, wzr
	mov	w6, wzr
	str	xzr, [sp, #344]
	mov	w19, wzr
	mov	w21, wzr
	str	wzr, [sp, #356]
	mov	w5, wzr
	mov	w2, wzr
	str	wzr, [sp, #364]
	mov	w18, wzr
	str	wzr, [sp, #376]
	stp	xzr, xzr, [sp, #392]
	stp	xzr, xzr, [sp, #160]
	str	wzr, [sp, #368]
	stp	xzr, xzr, [sp, #176]
	stp	xzr, xzr, [sp, #408]
.Lnoise_BB87_187:
	str	xzr, [sp, #192]
.Lnoise_BB87_188:
	str	xzr, [sp, #424]
	str	xzr, [sp, #384]
	str	wzr, [sp, #380]
	str	wzr, [sp, #372]
.Lnoise_BB87_189:
	str	wzr, [sp, #360]
	str	wzr, [sp, #352]
	str	wzr, [sp, #116]
	str	wzr, [sp, #152]
	stp	xzr, xzr, [sp, #136]
	stp	xzr, xzr, [sp, #120]
.Lnoise_BB87_190:
	strb	w8, [x20, #34]
	ldr	w8, [sp, #244]
	mov	w0, wzr
	strb	w9, [x20, #2]
	ldp	x25, x9, [sp, #272]
	strb	w8, [x20, #35]
	ldr	w8, [sp, #240]
	strb	w23, [x20, #15]
	strb	w8, [x20, #36]
	orr	x9, x9, x22
	ldr	w8, [sp, #236]
	ldp	x22, x23, [sp, #288]
	strb	w24, [x20, #16]
	ldr	w24, [sp, #268]
	strb	w8, [x20, #37]
	ldr	w8, [sp, #232]
	orr	x9, x9, x22
	and	w24, w24, #0xff
	ldr	x22, [sp, #304]
	strb	w8, [x20, #38]
	ldr	w8, [sp, #220]
	orr	x22, x22, x25
	ldr	w25, [sp, #320]
	strb	w11, [x20, #17]
	strb	w8, [x20, #39]
	orr	x9, x9, x22
	ldr	w8, [sp, #216]
	ldr	x22, [sp, #328]
	ldr	x11, [sp, #248]
	strb	w12, [x20, #18]
	strb	w8, [x20, #40]
	ldr	w8, [sp, #212]
	orr	x22, x22, x23
	cmp	x11, #1
	ldr	x23, [sp, #312]
	strb	w8, [x20, #41]
	ldr	w8, [sp, #208]
	orr	x22, x22, x23
	ldr	w23, [sp, #324]
	strb	w13, [x20, #19]
	strb	w8, [x20, #42]
	orr	x9, x9, x22
	ldr	w8, [sp, #204]
	and	w23, w23, #0xff
	stur	x9, [x20, #3]
	ldr	w9, [sp, #264]
	strb	w8, [x20, #43]
	orr	w23, w25, w23
	ldr	w8, [sp, #200]
	ldr	w25, [sp, #340]
	strb	w9, [x20, #25]
	ldr	w9, [sp, #260]
	strb	w8, [x20, #44]
	ldr	w8, [sp, #196]
	orr	w24, w25, w24
	cset	w25, eq
	strb	w14, [x20, #20]
	strb	w8, [x20, #45]
	orr	w23, w24, w23, lsl #16
	ldr	w8, [sp, #192]
	strb	w25, [x20, #1]
	strb	w8, [x20, #46]
	ldr	w8, [sp, #188]
	stur	w23, [x20, #11]
	strb	w8, [x20, #47]
	ldr	w8, [sp, #416]
	strb	w16, [x20, #21]
	strb	w8, [x20, #48]
	ldr	w8, [sp, #412]
	strb	w17, [x20, #22]
	strb	w8, [x20, #49]
	ldr	w8, [sp, #408]
	strb	w26, [x20, #23]
	strb	w8, [x20, #55]
	ldr	w8, [sp, #404]
	strb	w27, [x20, #24]
	strb	w8, [x20, #56]
	ldr	w8, [sp, #184]
	strb	w10, [x20, #26]
	strb	w8, [x20, #57]
	ldr	w8, [sp, #420]
	strb	w1, [x20, #27]
	strb	w8, [x20, #58]
	ldr	w8, [sp, #180]
	strb	w15, [x20, #28]
	strb	w8, [x20, #59]
	ldr	w8, [sp, #400]
	strb	w9, [x20, #29]
	strb	w8, [x20, #60]
	ldr	w8, [sp, #176]
	strb	w3, [x20, #30]
	strb	w8, [x20, #61]
	ldr	w8, [sp, #368]
	strb	w28, [x20, #31]
	strb	w8, [x20, #62]
	ldr	w8, [sp, #172]
	strb	w30, [x20, #32]
	strb	w8, [x20, #63]
	ldr	w8, [sp, #168]
	strb	w4, [x20, #33]
	strb	w8, [x20, #64]
	ldr	w8, [sp, #428]
	strb	w7, [x20, #50]
	strb	w8, [x20, #65]
	ldr	w8, [sp, #424]
	strb	w6, [x20, #51]
	strb	w8, [x20, #66]
	ldr	w8, [sp, #388]
	strb	w19, [x20, #52]
	strb	w8, [x20, #67]
	ldr	w8, [sp, #384]
	strb	w21, [x20, #53]
	strb	w8, [x20, #68]
	ldr	w8, [sp, #380]
	strb	w5, [x20, #54]
	strb	w8, [x20, #69]
	ldr	w8, [sp, #372]
	strb	w11, [x20]
	strb	w8, [x20, #70]
	ldr	w8, [sp, #360]
	strb	w2, [x20, #73]
	strb	w8, [x20, #71]
	ldr	w8, [sp, #352]
	strb	w18, [x20, #74]
	strb	w8, [x20, #72]
	ldr	w8, [sp, #164]
	strb	w8, [x20, #75]
	ldr	w8, [sp, #396]
	strb	w8, [x20, #76]
	ldr	w8, [sp, #160]
	strb	w8, [x20, #77]
	ldr	w8, [sp, #392]
	strb	w8, [x20, #78]
	ldr	w8, [sp, #376]
	strb	w8, [x20, #79]
	ldr	w8, [sp, #364]
	strb	w8, [x20, #80]
	ldr	w8, [sp, #356]
	strb	w8, [x20, #81]
	ldr	w8, [sp, #348]
	strb	w8, [x20, #82]
	ldr	w8, [sp, #344]
	strb	w8, [x20, #83]
	ldr	w8, [sp, #156]
	strb	w8, [x20, #84]
	ldr	w8, [sp, #116]
	strb	w8, [x20, #85]
	ldr	w8, [sp, #152]
	strb	w8, [x20, #86]
	ldr	w8, [sp, #148]
	strb	w8, [x20, #87]
	ldr	w8, [sp, #144]
	strb	w8, [x20, #88]
	ldr	w8, [sp, #140]
	strb	w8, [x20, #89]
	ldr	w8, [sp, #136]
	strb	w8, [x20, #90]
	ldr	w8, [sp, #132]
	strb	w8, [x20, #91]
	ldr	w8, [sp, #128]
	strb	w8, [x20, #92]
	ldr	w8, [sp, #124]
	strb	w8, [x20, #93]
	ldr	w8, [sp, #120]
	strb	w8, [x20, #94]
	ldr	x8, [sp, #224]
	strb	w11, [x8, #11]
	b	.Lnoise_BB87_6
.Lnoise_BB87_191:
	ldr	x10, [sp, #864]
	cbz	x10, .Lnoise_BB87_202
	ldrb	w11, [sp, #848]
	ldr	x22, [sp, #72]
	cmp	x10, #1
	add	w21, w11, #1
	b.ne	.Lnoise_BB87_203
	mov	w23, wzr
	b	.Lnoise_BB87_210
.Lnoise_BB87_194:
	mov	w1, #6
	b	.Lnoise_BB87_23
.Lnoise_BB87_195:
	mov	w1, #3
	b	.Lnoise_BB87_23
.Lnoise_BB87_196:
	mov	w1, #12
	b	.Lnoise_BB87_23
.Lnoise_BB87_197:
	mov	w1, #9
	b	.Lnoise_BB87_23
.Lnoise_BB87_198:
	mov	w1, #8
	b	.Lnoise_BB87_23
.Lnoise_BB87_199:
	mov	w1, #5
	b	.Lnoise_BB87_23
.Lnoise_BB87_200:
	mov	w1, #14
	b	.Lnoise_BB87_23
.Lnoise_BB87_201:
	mov	w1, #11
	b	.Lnoise_BB87_23
.Lnoise_BB87_202:
	ldr	x22, [sp, #72]
	mov	w21, wzr
	mov	w23, wzr
	mov	w24, wzr
	mov	w7, wzr
	mov	w25, wzr
	mov	w28, wzr
	mov	w30, wzr
	b	.Lnoise_BB87_216
.Lnoise_BB87_203:
	ldrb	w11, [sp, #849]
	cmp	x10, #3
	add	w23, w11, #1
	b.lo	.Lnoise_BB87_210
	ldrb	w11, [sp, #850]
	cmp	x10, #3
	add	w24, w11, #1
	b.eq	.Lnoise_BB87_211
	ldrb	w11, [sp, #851]
	cmp	x10, #5
	add	w7, w11, #1
	b.lo	.Lnoise_BB87_212
	ldrb	w11, [sp, #852]
	cmp	x10, #5
	add	w25, w11, #1
	b.eq	.Lnoise_BB87_213
	ldrb	w11, [sp, #853]
	cmp	x10, #7
	add	w28, w11, #1
	b.lo	.Lnoise_BB87_214
	ldrb	w11, [sp, #854]
	cmp	x10, #7
	str	w25, [sp, #412]
	str	w7, [sp, #416]
	add	w30, w11, #1
	b.ne	.Lnoise_BB87_285
	ldr	w7, [sp, #416]
	ldr	w25, [sp, #412]
	b	.Lnoise_BB87_215
.Lnoise_BB87_210:
	mov	w24, wzr
.Lnoise_BB87_211:
	mov	w7, wzr
.Lnoise_BB87_212:
	mov	w25, wzr
.Lnoise_BB87_213:
	mov	w28, wzr
.Lnoise_BB87_214:
	mov	w30, wzr
.Lnoise_BB87_215:
	mov	w10, wzr
.Lnoise_BB87_216:
	mov	w11, wzr
	mov	w5, wzr
.Lnoise_BB87_217:
	cmp	x6, #5
	stp	w28, w10, [sp, #64]
	str	w30, [sp, #60]
	stp	w23, w21, [sp, #192]
	str	w24, [sp, #188]
	str	w7, [sp, #416]
	str	w25, [sp, #412]
	b.lo	.Lnoise_BB87_221
	ldr	x10, [sp, #888]
	stp	w5, w11, [sp, #48]
	cbz	x10, .Lnoise_BB87_222
	ldrb	w11, [sp, #872]
	cmp	x10, #1
	add	w0, w11, #1
	b.ne	.Lnoise_BB87_223
	mov	w30, wzr
	b	.Lnoise_BB87_228
.Lnoise_BB87_221:
	mov	w10, w27
	mov	w21, w11
	ldr	w8, [sp, #80]
	ldp	w24, w23, [sp, #108]
	ldp	w27, w11, [sp, #100]
	ldp	w28, w26, [sp, #92]
	ldp	w4, w30, [sp, #84]
	ldp	w6, w7, [sp, #60]
	ldr	w19, [sp, #68]
	str	wzr, [sp, #156]
	mov	w2, wzr
	str	xzr, [sp, #344]
	mov	w18, wzr
	str	wzr, [sp, #356]
	str	wzr, [sp, #364]
	stp	xzr, xzr, [sp, #368]
	stp	xzr, xzr, [sp, #392]
	stp	xzr, xzr, [sp, #160]
	str	xzr, [sp, #176]
	str	wzr, [sp, #420]
	str	wzr, [sp, #184]
	str	wzr, [sp, #408]
	str	xzr, [sp, #424]
	str	xzr, [sp, #384]
	b	.Lnoise_BB87_189
.Lnoise_BB87_222:
	mov	w0, wzr
	mov	w30, wzr
	mov	w28, wzr
	mov	w11, wzr
	mov	w19, wzr
	b	.Lnoise_BB87_232
.Lnoise_BB87_223:
	ldrb	w11, [sp, #873]
	cmp	x10, #3
	add	w30, w11, #1
	b.lo	.Lnoise_BB87_228
	ldrb	w11, [sp, #874]
	cmp	x10, #3
	add	w28, w11, #1
	b.eq	.Lnoise_BB87_229
	ldrb	w11, [sp, #875]
	cmp	x10, #5
	add	w11, w11, #1
	b.lo	.Lnoise_BB87_230
	str	w11, [sp, #420]
	ldrb	w11, [sp, #876]
	cmp	x10, #5
	add	w19, w11, #1
	b.ne	.Lnoise_BB87_276
	ldr	w11, [sp, #420]
	b	.Lnoise_BB87_231
.Lnoise_BB87_228:
	mov	w28, wzr
.Lnoise_BB87_229:
	mov	w11, wzr
.Lnoise_BB87_230:
	mov	w19, wzr
.Lnoise_BB87_231:
	mov	w10, wzr
.Lnoise_BB87_232:
	str	wzr, [sp, #176]
	mov	w5, wzr
.Lnoise_BB87_233:
	str	xzr, [sp, #168]
.Lnoise_BB87_234:
	cmp	x6, #5
	str	w15, [sp, #56]
	str	w0, [sp, #408]
	str	w30, [sp, #404]
	stp	w19, w28, [sp, #180]
	str	w11, [sp, #420]
	str	w10, [sp, #400]
	str	w5, [sp, #368]
	b.ne	.Lnoise_BB87_236
	mov	w10, w27
	ldr	w26, [sp, #96]
	stp	wzr, wzr, [sp, #152]
	ldp	w24, w23, [sp, #108]
	ldp	w27, w11, [sp, #100]
	stp	xzr, xzr, [sp, #344]
	mov	w2, wzr
	mov	w18, wzr
	str	xzr, [sp, #360]
	stp	xzr, xzr, [sp, #376]
	str	xzr, [sp, #392]
	str	xzr, [sp, #160]
	str	xzr, [sp, #424]
	str	wzr, [sp, #372]
	b	.Lnoise_BB87_253
.Lnoise_BB87_236:
	ldr	x15, [sp, #912]
	stp	w13, w12, [sp, #40]
	stp	w16, w14, [sp, #32]
	stp	w27, w17, [sp, #24]
	str	w1, [sp, #20]
	cbz	x15, .Lnoise_BB87_239
	ldrb	w10, [sp, #896]
	cmp	x15, #1
	add	w10, w10, #1
	str	w10, [sp, #428]
	b.ne	.Lnoise_BB87_240
	ldr	w12, [sp, #428]
	mov	w13, wzr
	mov	w14, wzr
	mov	w16, wzr
	mov	w1, wzr
	mov	w15, wzr
	mov	w0, wzr
	mov	w17, wzr
	mov	w2, wzr
	mov	w18, wzr
	b	.Lnoise_BB87_248
.Lnoise_BB87_239:
	mov	w12, wzr
	mov	w13, wzr
	mov	w14, wzr
	mov	w16, wzr
	mov	w1, wzr
	mov	w0, wzr
	mov	w17, wzr
	mov	w2, wzr
	mov	w18, wzr
	b	.Lnoise_BB87_248
.Lnoise_BB87_240:
	ldrb	w10, [sp, #897]
	cmp	x15, #3
	add	w10, w10, #1
	str	w10, [sp, #424]
	b.lo	.Lnoise_BB87_245
	ldrb	w10, [sp, #898]
	cmp	x15, #3
	add	w14, w10, #1
	b.eq	.Lnoise_BB87_246
	ldrb	w10, [sp, #899]
	cmp	x15, #5
	add	w16, w10, #1
	b.lo	.Lnoise_BB87_281
	ldrb	w11, [sp, #900]
	cmp	x15, #5
	str	w16, [sp, #384]
	str	w14, [sp, #388]
	add	w11, w11, #1
	str	w11, [sp, #380]
	b.ne	.Lnoise_BB87_288
	ldr	w12, [sp, #428]
	ldr	w13, [sp, #424]
	mov	w15, wzr
	ldr	w14, [sp, #388]
	ldr	w16, [sp, #384]
	mov	w2, wzr
	ldr	w1, [sp, #380]
	mov	w18, wzr
	mov	w17, wzr
	mov	w0, wzr
	b	.Lnoise_BB87_248
.Lnoise_BB87_245:
	mov	w14, wzr
.Lnoise_BB87_246:
	mov	w16, wzr
	mov	w1, wzr
	mov	w15, wzr
	mov	w0, wzr
	mov	w17, wzr
	mov	w2, wzr
	mov	w18, wzr
.Lnoise_BB87_247:
	ldr	w12, [sp, #428]
	ldr	w13, [sp, #424]
.Lnoise_BB87_248:
	cmp	x6, #7
	str	w17, [sp, #352]
	str	w12, [sp, #428]
	str	w13, [sp, #424]
	str	w14, [sp, #388]
	str	w16, [sp, #384]
	str	w1, [sp, #380]
	str	w15, [sp, #372]
	str	w0, [sp, #360]
	b.lo	.Lnoise_BB87_252
	ldr	x17, [sp, #936]
	stp	w18, w2, [sp, #12]
	cbz	x17, .Lnoise_BB87_254
	ldrb	w18, [sp, #920]
	cmp	x17, #1
	add	w15, w18, #1
	b.ne	.Lnoise_BB87_255
	mov	w16, wzr
	b	.Lnoise_BB87_258
.Lnoise_BB87_252:
	ldp	w13, w12, [sp, #40]
	ldp	w16, w14, [sp, #32]
	ldp	w24, w23, [sp, #108]
	ldp	w10, w17, [sp, #24]
	ldp	w27, w11, [sp, #100]
	ldr	w26, [sp, #96]
	ldr	w1, [sp, #20]
	stp	xzr, xzr, [sp, #152]
	str	xzr, [sp, #344]
	str	wzr, [sp, #356]
	str	wzr, [sp, #364]
	str	wzr, [sp, #376]
	str	xzr, [sp, #392]
.Lnoise_BB87_253:
	str	wzr, [sp, #116]
	stp	xzr, xzr, [sp, #136]
	stp	xzr, xzr, [sp, #120]
	ldp	w15, w6, [sp, #56]
	ldp	w30, w28, [sp, #88]
	ldp	w8, w4, [sp, #80]
	ldp	w7, w19, [sp, #64]
	ldp	w5, w21, [sp, #48]
	b	.Lnoise_BB87_190
.Lnoise_BB87_254:
	mov	w15, wzr
	mov	w16, wzr
	mov	w1, wzr
	mov	w18, wzr
	b	.Lnoise_BB87_259
.Lnoise_BB87_255:
	ldrb	w18, [sp, #921]
	cmp	x17, #3
	add	w16, w18, #1
	b.lo	.Lnoise_BB87_258
	ldrb	w18, [sp, #922]
	cmp	x17, #3
	add	w1, w18, #1
	b.ne	.Lnoise_BB87_282
	mov	w18, wzr
	mov	w17, wzr
	mov	w0, wzr
	mov	w14, wzr
	str	wzr, [sp, #156]
	mov	w12, wzr
	mov	w13, wzr
	b	.Lnoise_BB87_261
.Lnoise_BB87_258:
	mov	w1, wzr
	mov	w18, wzr
	mov	w17, wzr
.Lnoise_BB87_259:
	mov	w0, wzr
	mov	w12, wzr
	mov	w13, wzr
	mov	w14, wzr
.Lnoise_BB87_260:
	str	wzr, [sp, #156]
.Lnoise_BB87_261:
	cmp	x6, #7
	str	w0, [sp, #364]
	stp	w1, w15, [sp, #160]
	str	w16, [sp, #396]
	str	w18, [sp, #392]
	str	w17, [sp, #376]
	str	w12, [sp, #356]
	str	w13, [sp, #348]
	str	w14, [sp, #344]
	b.eq	.Lnoise_BB87_265
	ldr	x0, [sp, #960]
	cbz	x0, .Lnoise_BB87_265
	ldrb	w17, [sp, #944]
	cmp	x0, #1
	str	w3, [sp, #8]
	add	w25, w17, #1
	str	w25, [sp, #116]
	b.ne	.Lnoise_BB87_266
	str	wzr, [sp, #152]
	b	.Lnoise_BB87_269
.Lnoise_BB87_265:
	ldp	w13, w12, [sp, #40]
	ldp	w16, w14, [sp, #32]
	ldp	w24, w23, [sp, #108]
	ldp	w10, w17, [sp, #24]
	ldp	w27, w11, [sp, #100]
	ldr	w26, [sp, #96]
	ldr	w1, [sp, #20]
	ldr	w15, [sp, #56]
	str	wzr, [sp, #116]
	str	wzr, [sp, #152]
	stp	xzr, xzr, [sp, #136]
	stp	xzr, xzr, [sp, #120]
	b	.Lnoise_BB87_272
.Lnoise_BB87_266:
	ldrb	w18, [sp, #945]
	cmp	x0, #3
	add	w8, w18, #1
	str	w8, [sp, #152]
	b.lo	.Lnoise_BB87_269
	ldrb	w1, [sp, #946]
	cmp	x0, #3
	add	w8, w1, #1
	str	w8, [sp, #148]
	b.ne	.Lnoise_BB87_291
	str	wzr, [sp, #144]
	b	.Lnoise_BB87_294
.Lnoise_BB87_269:
	stp	xzr, xzr, [sp, #136]
.Lnoise_BB87_270:
	stp	xzr, xzr, [sp, #120]
.Lnoise_BB87_271:
	ldp	w13, w12, [sp, #40]
	ldp	w16, w14, [sp, #32]
	ldp	w24, w23, [sp, #108]
	ldp	w10, w17, [sp, #24]
	ldp	w27, w11, [sp, #100]
	ldr	w26, [sp, #96]
	ldr	w1, [sp, #20]
	ldr	w15, [sp, #56]
	ldr	w3, [sp, #8]
.Lnoise_BB87_272:
	ldp	w30, w28, [sp, #88]
	ldp	w8, w4, [sp, #80]
	ldp	w6, w7, [sp, #60]
	ldp	w5, w21, [sp, #48]
	ldp	w18, w2, [sp, #12]
	ldr	w19, [sp, #68]
	b	.Lnoise_BB87_190
.Lnoise_BB87_273:
	ldrb	w11, [sp, #831]
	mov	w19, w30
	mov	w7, w5
	mov	w5, w8
	mov	w8, w2
	cmp	x10, #9
	add	w24, w11, #1
	b.lo	.Lnoise_BB87_296
	ldrb	w11, [sp, #832]
	cmp	x10, #9
	add	w11, w11, #1
	b.ne	.Lnoise_BB87_300
	mov	w10, wzr
	b	.Lnoise_BB87_301
.Lnoise_BB87_276:
	ldrb	w11, [sp, #877]
	cmp	x10, #7
	str	w30, [sp, #404]
	str	w0, [sp, #408]
	add	w11, w11, #1
	str	w11, [sp, #400]
	b.lo	.Lnoise_BB87_297
	ldrb	w11, [sp, #878]
	cmp	x10, #7
	add	w11, w11, #1
	str	w11, [sp, #176]
	b.eq	.Lnoise_BB87_298
	ldrb	w11, [sp, #879]
	cmp	x10, #9
	add	w11, w11, #1
	str	w11, [sp, #368]
	b.lo	.Lnoise_BB87_308
	ldrb	w11, [sp, #880]
	cmp	x10, #9
	add	w10, w11, #1
	str	w10, [sp, #172]
	b.ne	.Lnoise_BB87_318
	str	wzr, [sp, #168]
	b	.Lnoise_BB87_319
.Lnoise_BB87_281:
	mov	w1, wzr
	mov	w15, wzr
	mov	w2, wzr
	mov	w18, wzr
	mov	w17, wzr
	mov	w0, wzr
	b	.Lnoise_BB87_247
.Lnoise_BB87_282:
	ldrb	w18, [sp, #923]
	cmp	x17, #5
	str	w16, [sp, #396]
	add	w18, w18, #1
	str	w18, [sp, #392]
	b.lo	.Lnoise_BB87_299
	ldrb	w18, [sp, #924]
	cmp	x17, #5
	add	w18, w18, #1
	str	w18, [sp, #376]
	b.ne	.Lnoise_BB87_303
	ldr	w16, [sp, #396]
	ldr	w18, [sp, #392]
	mov	w0, wzr
	ldr	w17, [sp, #376]
	mov	w13, wzr
	mov	w14, wzr
	str	wzr, [sp, #156]
	mov	w12, wzr
	b	.Lnoise_BB87_261
.Lnoise_BB87_285:
	ldrb	w11, [sp, #855]
	cmp	x10, #9
	add	w11, w11, #1
	str	w11, [sp, #68]
	b.lo	.Lnoise_BB87_306
	ldrb	w11, [sp, #856]
	cmp	x10, #9
	add	w11, w11, #1
	b.ne	.Lnoise_BB87_309
	mov	w5, wzr
	b	.Lnoise_BB87_310
.Lnoise_BB87_288:
	ldrb	w12, [sp, #901]
	cmp	x15, #7
	add	w11, w12, #1
	str	w11, [sp, #372]
	b.lo	.Lnoise_BB87_307
	ldrb	w13, [sp, #902]
	cmp	x15, #7
	add	w11, w13, #1
	str	w11, [sp, #360]
	b.ne	.Lnoise_BB87_311
	ldr	w12, [sp, #428]
	ldr	w13, [sp, #424]
	mov	w2, wzr
	ldr	w14, [sp, #388]
	ldr	w16, [sp, #384]
	mov	w18, wzr
	ldr	w1, [sp, #380]
	ldr	w15, [sp, #372]
	mov	w17, wzr
	ldr	w0, [sp, #360]
	b	.Lnoise_BB87_248
.Lnoise_BB87_291:
	ldrb	w2, [sp, #947]
	cmp	x0, #5
	add	w8, w2, #1
	str	w8, [sp, #144]
	b.lo	.Lnoise_BB87_294
	ldrb	w3, [sp, #948]
	cmp	x0, #5
	add	w8, w3, #1
	str	w8, [sp, #140]
	b.ne	.Lnoise_BB87_314
	str	wzr, [sp, #136]
	b	.Lnoise_BB87_270
.Lnoise_BB87_294:
	stp	xzr, xzr, [sp, #128]
.Lnoise_BB87_295:
	str	xzr, [sp, #120]
	b	.Lnoise_BB87_271
.Lnoise_BB87_296:
	mov	w11, wzr
	mov	w10, wzr
	b	.Lnoise_BB87_301
.Lnoise_BB87_297:
	str	wzr, [sp, #176]
.Lnoise_BB87_298:
	ldr	w0, [sp, #408]
	ldr	w30, [sp, #404]
	mov	w5, wzr
	ldr	w11, [sp, #420]
	ldr	w10, [sp, #400]
	b	.Lnoise_BB87_233
.Lnoise_BB87_299:
	ldr	w16, [sp, #396]
	ldr	w18, [sp, #392]
	mov	w17, wzr
	mov	w0, wzr
	mov	w13, wzr
	mov	w14, wzr
	str	wzr, [sp, #156]
	mov	w12, wzr
	b	.Lnoise_BB87_261
.Lnoise_BB87_300:
	ldrb	w10, [sp, #833]
	add	w10, w10, #1
.Lnoise_BB87_301:
	mov	w2, w8
	mov	w8, w5
	mov	w5, w7
	mov	w30, w19
.Lnoise_BB87_302:
	mov	w19, w2
	b	.Lnoise_BB87_185
.Lnoise_BB87_303:
	ldrb	w18, [sp, #925]
	cmp	x17, #7
	add	w18, w18, #1
	str	w18, [sp, #364]
	b.lo	.Lnoise_BB87_317
	ldrb	w18, [sp, #926]
	cmp	x17, #7
	add	w18, w18, #1
	str	w18, [sp, #356]
	b.ne	.Lnoise_BB87_320
	ldr	w16, [sp, #396]
	ldr	w18, [sp, #392]
	mov	w13, wzr
	ldr	w17, [sp, #376]
	ldr	w0, [sp, #364]
	mov	w14, wzr
	ldr	w12, [sp, #356]
	b	.Lnoise_BB87_260
.Lnoise_BB87_306:
	mov	w11, wzr
	mov	w5, wzr
	b	.Lnoise_BB87_310
.Lnoise_BB87_307:
	ldr	w12, [sp, #428]
	ldr	w13, [sp, #424]
	mov	w2, wzr
	ldr	w14, [sp, #388]
	ldr	w16, [sp, #384]
	mov	w18, wzr
	ldr	w1, [sp, #380]
	ldr	w15, [sp, #372]
	mov	w17, wzr
	mov	w0, wzr
	b	.Lnoise_BB87_248
.Lnoise_BB87_308:
	str	xzr, [sp, #168]
	b	.Lnoise_BB87_319
.Lnoise_BB87_309:
	ldrb	w10, [sp, #857]
	add	w5, w10, #1
.Lnoise_BB87_310:
	ldr	w7, [sp, #416]
	ldr	w25, [sp, #412]
	ldr	w10, [sp, #68]
	b	.Lnoise_BB87_217
.Lnoise_BB87_311:
	ldrb	w11, [sp, #903]
	cmp	x15, #9
	add	w11, w11, #1
	str	w11, [sp, #352]
	b.lo	.Lnoise_BB87_323
	ldrb	w16, [sp, #904]
	cmp	x15, #9
	add	w11, w16, #1
	str	w11, [sp, #16]
	b.ne	.Lnoise_BB87_324
	mov	w18, wzr
	b	.Lnoise_BB87_325
.Lnoise_BB87_314:
	ldrb	w4, [sp, #949]
	cmp	x0, #7
	add	w8, w4, #1
	str	w8, [sp, #136]
	b.lo	.Lnoise_BB87_270
	ldrb	w5, [sp, #950]
	cmp	x0, #7
	add	w8, w5, #1
	str	w8, [sp, #132]
	b.ne	.Lnoise_BB87_326
	str	wzr, [sp, #128]
	b	.Lnoise_BB87_295
.Lnoise_BB87_317:
	ldr	w16, [sp, #396]
	ldr	w18, [sp, #392]
	mov	w13, wzr
	ldr	w17, [sp, #376]
	ldr	w0, [sp, #364]
	mov	w14, wzr
	str	wzr, [sp, #156]
	mov	w12, wzr
	b	.Lnoise_BB87_261
.Lnoise_BB87_318:
	ldrb	w10, [sp, #881]
	add	w10, w10, #1
	str	w10, [sp, #168]
.Lnoise_BB87_319:
	ldr	w0, [sp, #408]
	ldr	w30, [sp, #404]
	ldr	w11, [sp, #420]
	ldr	w10, [sp, #400]
	ldr	w5, [sp, #368]
	b	.Lnoise_BB87_234
.Lnoise_BB87_320:
	ldrb	w18, [sp, #927]
	cmp	x17, #9
	add	w18, w18, #1
	str	w18, [sp, #348]
	b.lo	.Lnoise_BB87_329
	ldrb	w18, [sp, #928]
	cmp	x17, #9
	add	w13, w18, #1
	str	w13, [sp, #344]
	b.ne	.Lnoise_BB87_330
	str	wzr, [sp, #156]
	b	.Lnoise_BB87_331
.Lnoise_BB87_323:
	ldr	w12, [sp, #428]
	ldr	w13, [sp, #424]
	mov	w2, wzr
	ldr	w14, [sp, #388]
	ldr	w16, [sp, #384]
	mov	w18, wzr
	ldr	w1, [sp, #380]
	ldr	w15, [sp, #372]
	ldr	w0, [sp, #360]
	ldr	w17, [sp, #352]
	b	.Lnoise_BB87_248
.Lnoise_BB87_324:
	ldrb	w16, [sp, #905]
	add	w18, w16, #1
.Lnoise_BB87_325:
	ldr	w12, [sp, #428]
	ldr	w13, [sp, #424]
	ldr	w14, [sp, #388]
	ldr	w16, [sp, #384]
	ldr	w1, [sp, #380]
	ldr	w15, [sp, #372]
	ldr	w0, [sp, #360]
	ldr	w17, [sp, #352]
	ldr	w2, [sp, #16]
	b	.Lnoise_BB87_248
.Lnoise_BB87_326:
	ldrb	w6, [sp, #951]
	cmp	x0, #9
	add	w8, w6, #1
	str	w8, [sp, #128]
	b.lo	.Lnoise_BB87_295
	ldrb	w7, [sp, #952]
	cmp	x0, #9
	add	w8, w7, #1
	str	w8, [sp, #124]
	b.ne	.Lnoise_BB87_332
	str	wzr, [sp, #120]
	b	.Lnoise_BB87_271
.Lnoise_BB87_329:
	ldr	w16, [sp, #396]
	ldr	w18, [sp, #392]
	mov	w14, wzr
	ldr	w17, [sp, #376]
	ldr	w0, [sp, #364]
	ldr	w12, [sp, #356]
	ldr	w13, [sp, #348]
	b	.Lnoise_BB87_260
.Lnoise_BB87_330:
	ldrb	w17, [sp, #929]
	add	w13, w17, #1
	str	w13, [sp, #156]
.Lnoise_BB87_331:
	ldr	w16, [sp, #396]
	ldr	w18, [sp, #392]
	ldr	w17, [sp, #376]
	ldr	w0, [sp, #364]
	ldr	w12, [sp, #356]
	ldr	w13, [sp, #348]
	ldr	w14, [sp, #344]
	b	.Lnoise_BB87_261
.Lnoise_BB87_332:
	ldrb	w0, [sp, #953]
	add	w8, w0, #1
	str	w8, [sp, #120]
	b	.Lnoise_BB87_271
.Lnoise_func_end87:
	.size	noise_pattern, .Lnoise_func_end87-noise_pattern
	.cfi_endproc

	.section	.text.noise_layout,"ax",@progbits
	.globl	noise_layout
	.p2align	2
	.type	noise_layout,@function
noise_layout:
	.cfi_startproc
	stp	x29, x30, [sp, #-96]!
	stp	x28, x27, [sp, #16]
	mov	x29, sp
	stp	x26, x25, [sp, #32]
	stp	x24, x23, [sp, #48]
	stp	x22, x21, [sp, #64]
	stp	x20, x19, [sp, #80]
	sub	sp, sp, #1168
	str	xzr, [sp]
	.cfi_def_cfa w29, 96
	.cfi_offset w19, -8
	.cfi_offset w20, -16
	.cfi_offset w21, -24
	.cfi_offset w22, -32
	.cfi_offset w23, -40
	.cfi_offset w24, -48
	.cfi_offset w25, -56
	.cfi_offset w26, -64
	.cfi_offset w27, -72
	.cfi_offset w28, -80
	.cfi_offset w30, -88
	.cfi_offset w29, -96
	movi	v0.2d, #0000000000000000
	cmp	x0, #0
	mov	w9, #4096
	mov	x8, x0
	csel	x9, x9, xzr, eq
	mov	w22, w2
	mov	x2, x1
	add	x0, sp, #136
	add	x1, x8, x9
	mov	x19, x4
	mov	x20, x3
	strh	wzr, [sp, #132]
	strb	wzr, [sp, #134]
	add	x25, sp, #136
	stp	q0, q0, [sp]
	stp	q0, q0, [sp, #32]
	stp	q0, q0, [sp, #64]
	stp	q0, q0, [sp, #96]
	str	wzr, [sp, #128]
	bl	"noise_c::patterns::pattern_of"
	ldrb	w8, [sp, #136]
	cbz	w8, .Lnoise_BB88_3
	ldr	w0, [sp, #140]
.Lnoise_BB88_2:
	add	sp, sp, #1168
	ldp	x20, x19, [sp, #80]
	ldp	x22, x21, [sp, #64]
	ldp	x24, x23, [sp, #48]
	ldp	x26, x25, [sp, #32]
	ldp	x28, x27, [sp, #16]
	ldp	x29, x30, [sp], #96
	ret
.Lnoise_BB88_3:
	add	x0, sp, #416
	add	x1, x25, #8
	mov	w2, #272
	bl	memcpy
	tst	w22, #0xff
	mov	w0, #29
	b.eq	.Lnoise_BB88_2
	ldr	x8, [sp, #680]
	and	x21, x22, #0xff
	cmp	x8, x21
	b.lo	.Lnoise_BB88_2
	add	x0, x25, #8
	mov	w1, w22
	bl	"noise_names::valid::ValidPattern::overhead"
	lsr	x9, x20, #16
	mov	w8, w0
	mov	w0, #29
	cbnz	x9, .Lnoise_BB88_2
	add	x8, x20, w8, uxth
	cmp	x8, #16, lsl #12
	b.hs	.Lnoise_BB88_2
	mov	w8, #24
	movi	v0.2d, #0000000000000000
	add	x9, sp, #416
	umaddl	x26, w21, w8, x9
	add	x0, x25, #8
	mov	w1, w22
	sturh	wzr, [x29, #-196]
	add	x24, sp, #688
	sturb	wzr, [x29, #-194]
	ldr	x23, [x26, #64]
	stur	xzr, [x29, #-208]
	stur	wzr, [x29, #-200]
	stur	xzr, [x29, #-224]
	stur	wzr, [x29, #-216]
	stur	xzr, [x29, #-240]
	stur	wzr, [x29, #-232]
	stur	xzr, [x29, #-256]
	stur	wzr, [x29, #-248]
	str	wzr, [sp, #904]
	str	xzr, [sp, #896]
	str	wzr, [sp, #888]
	str	xzr, [sp, #880]
	str	wzr, [sp, #872]
	str	xzr, [sp, #864]
	str	wzr, [sp, #856]
	str	xzr, [sp, #848]
	str	wzr, [sp, #840]
	str	xzr, [sp, #832]
	str	wzr, [sp, #816]
	stp	q0, q0, [sp, #688]
	stp	q0, q0, [sp, #720]
	stp	q0, q0, [sp, #752]
	stp	q0, q0, [sp, #784]
	bl	"noise_names::valid::ValidPattern::overhead"
	mov	w21, w0
	stur	wzr, [x29, #-8]
	stur	xzr, [x29, #-16]
	cbz	x23, .Lnoise_BB88_10
	ldrb	w8, [x26, #48]
	mov	w27, #32
	sub	x0, x29, #192
	add	x1, x25, #8
	mov	w2, w22
	mov	w3, wzr
	cmp	w8, #1
	add	w4, w8, #1
	stur	xzr, [x29, #-192]
	cset	w5, eq
	cmp	w8, #2
	stur	wzr, [x29, #-184]
	csel	w6, w27, wzr, lo
	bl	"noise_c::message_layout::piece"
	cmp	x23, #1
	stur	wzr, [x29, #-8]
	stur	xzr, [x29, #-16]
	b.ne	.Lnoise_BB88_22
	sub	x0, x29, #16
	add	x1, x25, #8
	mov	w2, w22
	mov	w3, #1
	mov	w4, #8
	mov	w5, #1
	mov	w6, w20
	bl	"noise_c::message_layout::piece"
	b	.Lnoise_BB88_11
.Lnoise_BB88_10:
	sub	x0, x29, #16
	add	x1, x25, #8
	mov	w2, w22
	mov	w3, wzr
	mov	w4, #8
	mov	w5, #1
	mov	w6, w20
	bl	"noise_c::message_layout::piece"
	ldur	x8, [x29, #-16]
	ldur	w9, [x29, #-8]
	stur	wzr, [x29, #-8]
	stur	xzr, [x29, #-16]
	stur	x8, [x29, #-192]
	stur	w9, [x29, #-184]
.Lnoise_BB88_11:
	ldur	x8, [x29, #-16]
	ldur	w9, [x29, #-8]
	stur	wzr, [x29, #-8]
	stur	xzr, [x29, #-16]
	stur	x8, [x29, #-208]
	stur	w9, [x29, #-200]
.Lnoise_BB88_12:
	ldur	x8, [x29, #-16]
	ldur	w9, [x29, #-8]
	stur	wzr, [x29, #-8]
	stur	xzr, [x29, #-16]
	stur	x8, [x29, #-224]
	stur	w9, [x29, #-216]
.Lnoise_BB88_13:
	ldur	x8, [x29, #-16]
	ldur	w9, [x29, #-8]
	stur	wzr, [x29, #-8]
	stur	xzr, [x29, #-16]
	stur	x8, [x29, #-240]
	stur	w9, [x29, #-232]
.Lnoise_BB88_14:
	ldur	x8, [x29, #-16]
	ldur	w9, [x29, #-8]
	stur	wzr, [x29, #-8]
	stur	xzr, [x29, #-16]
	stur	x8, [x29, #-256]
	stur	w9, [x29, #-248]
.Lnoise_BB88_15:
	ldur	x8, [x29, #-16]
	ldur	w9, [x29, #-8]
	stur	wzr, [x29, #-8]
	stur	xzr, [x29, #-16]
	str	x8, [sp, #896]
	str	w9, [sp, #904]
.Lnoise_BB88_16:
	ldur	x8, [x29, #-16]
	ldur	w9, [x29, #-8]
	stur	wzr, [x29, #-8]
	stur	xzr, [x29, #-16]
	str	x8, [sp, #880]
	str	w9, [sp, #888]
.Lnoise_BB88_17:
	ldur	x8, [x29, #-16]
	ldur	w9, [x29, #-8]
	stur	wzr, [x29, #-8]
	stur	xzr, [x29, #-16]
	str	x8, [sp, #864]
	str	w9, [sp, #872]
.Lnoise_BB88_18:
	ldur	x8, [x29, #-16]
	ldur	w9, [x29, #-8]
	stur	wzr, [x29, #-8]
	stur	xzr, [x29, #-16]
	str	x8, [sp, #848]
	str	w9, [sp, #856]
.Lnoise_BB88_19:
	ldur	x8, [x29, #-16]
	ldur	w9, [x29, #-8]
	stur	wzr, [x29, #-24]
	stur	xzr, [x29, #-32]
	str	x8, [sp, #832]
	str	w9, [sp, #840]
.Lnoise_BB88_20:
	ldur	x8, [x29, #-32]
	ldur	w9, [x29, #-24]
	stur	x8, [x29, #-16]
	stur	w9, [x29, #-8]
.Lnoise_BB88_21:
	ldur	x8, [x29, #-192]
	ldur	x9, [x29, #-208]
	mov	w0, wzr
	ldur	w10, [x29, #-184]
	str	x8, [sp, #688]
	ldur	w8, [x29, #-200]
	stur	x9, [x24, #12]
	ldur	x9, [x29, #-224]
	str	w8, [sp, #708]
	ldur	w8, [x29, #-216]
	str	x9, [sp, #712]
	ldur	w9, [x29, #-232]
	str	w8, [sp, #720]
	ldur	x8, [x29, #-256]
	str	w10, [sp, #696]
	ldur	x10, [x29, #-240]
	str	w9, [sp, #732]
	ldr	x9, [sp, #896]
	str	x8, [sp, #736]
	ldr	w8, [sp, #904]
	stur	x10, [x24, #36]
	ldur	w10, [x29, #-248]
	stur	x9, [x24, #60]
	ldr	x9, [sp, #880]
	str	w8, [sp, #756]
	ldr	x8, [sp, #864]
	str	w10, [sp, #744]
	ldr	x10, [sp, #848]
	str	x9, [sp, #760]
	ldr	w9, [sp, #888]
	stur	x8, [x24, #84]
	ldr	w8, [sp, #872]
	ldp	q1, q0, [sp, #736]
	str	w9, [sp, #768]
	str	w8, [sp, #780]
	ldr	x8, [sp, #832]
	ldr	w9, [sp, #856]
	str	x10, [sp, #784]
	ldur	x10, [x29, #-16]
	stp	q1, q0, [sp, #48]
	ldr	q0, [sp, #688]
	ldp	q1, q2, [sp, #704]
	stur	x8, [x24, #108]
	ldr	w8, [sp, #840]
	str	w9, [sp, #792]
	ldurh	w9, [x29, #-196]
	str	x10, [sp, #808]
	add	w10, w20, w21, uxth
	str	w8, [sp, #804]
	ldurb	w8, [x29, #-194]
	stp	q1, q2, [sp, #16]
	ldp	q3, q1, [sp, #768]
	str	q0, [sp]
	ldr	q0, [sp, #800]
	strb	w8, [sp, #134]
	ldur	w8, [x29, #-8]
	stp	q1, q0, [sp, #96]
	str	q3, [sp, #80]
	ldr	q3, [sp]
	str	w8, [sp, #816]
	ldp	q0, q1, [sp, #80]
	str	w8, [sp, #128]
	add	w8, w23, #1
	strb	w8, [x19]
	ldrb	w8, [sp, #134]
	stur	q0, [x19, #88]
	ldr	q0, [sp, #112]
	stur	q1, [x19, #104]
	stur	q0, [x19, #120]
	ldp	q0, q1, [sp, #16]
	strb	w8, [x19, #3]
	ldr	w8, [sp, #128]
	strh	w9, [sp, #132]
	and	w9, w9, #0xffff
	stur	q0, [x19, #24]
	ldp	q0, q2, [sp, #48]
	sturh	w9, [x19, #1]
	str	w10, [x19, #4]
	str	w8, [x19, #136]
	stur	q1, [x19, #40]
	stur	q0, [x19, #56]
	stur	q2, [x19, #72]
	stur	q3, [x19, #8]
	b	.Lnoise_BB88_2
.Lnoise_BB88_22:
	ldrb	w8, [x26, #49]
	sub	x0, x29, #176
	add	x1, x25, #8
	mov	w2, w22
	mov	w3, #1
	stur	xzr, [x29, #-176]
	cmp	w8, #1
	add	w4, w8, #1
	stur	wzr, [x29, #-168]
	cset	w5, eq
	cmp	w8, #2
	csel	w6, w27, wzr, lo
	bl	"noise_c::message_layout::piece"
	ldur	x8, [x29, #-176]
	ldur	w9, [x29, #-168]
	cmp	x23, #2
	stur	wzr, [x29, #-8]
	stur	x8, [x29, #-208]
	stur	w9, [x29, #-200]
	stur	xzr, [x29, #-16]
	b.ls	.Lnoise_BB88_25
	ldrb	w8, [x26, #50]
	sub	x0, x29, #160
	add	x1, x25, #8
	mov	w2, w22
	mov	w3, #2
	stur	xzr, [x29, #-160]
	cmp	w8, #1
	add	w4, w8, #1
	stur	wzr, [x29, #-152]
	cset	w5, eq
	cmp	w8, #2
	csel	w6, w27, wzr, lo
	bl	"noise_c::message_layout::piece"
	ldur	x8, [x29, #-160]
	ldur	w9, [x29, #-152]
	cmp	x23, #3
	stur	wzr, [x29, #-8]
	stur	x8, [x29, #-224]
	stur	w9, [x29, #-216]
	stur	xzr, [x29, #-16]
	b.ne	.Lnoise_BB88_26
	sub	x0, x29, #16
	add	x1, x25, #8
	mov	w2, w22
	mov	w3, #3
	mov	w4, #8
	mov	w5, #1
	mov	w6, w20
	bl	"noise_c::message_layout::piece"
	b	.Lnoise_BB88_13
.Lnoise_BB88_25:
	sub	x0, x29, #16
	add	x1, x25, #8
	mov	w2, w22
	mov	w3, #2
	mov	w4, #8
	mov	w5, #1
	mov	w6, w20
	bl	"noise_c::message_layout::piece"
	b	.Lnoise_BB88_12
.Lnoise_BB88_26:
	ldrb	w8, [x26, #51]
	sub	x0, x29, #144
	add	x1, x25, #8
	mov	w2, w22
	mov	w3, #3
	stur	xzr, [x29, #-144]
	cmp	w8, #1
	add	w4, w8, #1
	stur	wzr, [x29, #-136]
	cset	w5, eq
	cmp	w8, #2
	csel	w6, w27, wzr, lo
	bl	"noise_c::message_layout::piece"
	ldur	x8, [x29, #-144]
	ldur	w9, [x29, #-136]
	cmp	x23, #4
	stur	wzr, [x29, #-8]
	stur	x8, [x29, #-240]
	stur	w9, [x29, #-232]
	stur	xzr, [x29, #-16]
	b.ls	.Lnoise_BB88_29
	ldrb	w8, [x26, #52]
	sub	x0, x29, #128
	add	x1, x25, #8
	mov	w2, w22
	mov	w3, #4
	stur	xzr, [x29, #-128]
	cmp	w8, #1
	add	w4, w8, #1
	stur	wzr, [x29, #-120]
	cset	w5, eq
	cmp	w8, #2
	csel	w6, w27, wzr, lo
	bl	"noise_c::message_layout::piece"
	ldur	x8, [x29, #-128]
	ldur	w9, [x29, #-120]
	cmp	x23, #5
	stur	wzr, [x29, #-8]
	stur	x8, [x29, #-256]
	stur	w9, [x29, #-248]
	stur	xzr, [x29, #-16]
	b.ne	.Lnoise_BB88_30
	sub	x0, x29, #16
	add	x1, x25, #8
	mov	w2, w22
	mov	w3, #5
	mov	w4, #8
	mov	w5, #1
	mov	w6, w20
	bl	"noise_c::message_layout::piece"
	b	.Lnoise_BB88_15
.Lnoise_BB88_29:
	sub	x0, x29, #16
	add	x1, x25, #8
	mov	w2, w22
	mov	w3, #4
	mov	w4, #8
	mov	w5, #1
	mov	w6, w20
	bl	"noise_c::message_layout::piece"
	b	.Lnoise_BB88_14
.Lnoise_BB88_30:
	ldrb	w8, [x26, #53]
	sub	x0, x29, #112
	add	x1, x25, #8
	mov	w2, w22
	mov	w3, #5
	stur	xzr, [x29, #-112]
	cmp	w8, #1
	add	w4, w8, #1
	stur	wzr, [x29, #-104]
	cset	w5, eq
	cmp	w8, #2
	csel	w6, w27, wzr, lo
	bl	"noise_c::message_layout::piece"
	ldur	x8, [x29, #-112]
	ldur	w9, [x29, #-104]
	cmp	x23, #6
	stur	wzr, [x29, #-8]
	str	x8, [sp, #896]
	str	w9, [sp, #904]
	stur	xzr, [x29, #-16]
	b.ls	.Lnoise_BB88_33
	ldrb	w8, [x26, #54]
	sub	x0, x29, #96
	add	x1, x25, #8
	mov	w2, w22
	mov	w3, #6
	stur	xzr, [x29, #-96]
	cmp	w8, #1
	add	w4, w8, #1
	stur	wzr, [x29, #-88]
	cset	w5, eq
	cmp	w8, #2
	csel	w6, w27, wzr, lo
	bl	"noise_c::message_layout::piece"
	ldur	x8, [x29, #-96]
	ldur	w9, [x29, #-88]
	cmp	x23, #7
	stur	wzr, [x29, #-8]
	str	x8, [sp, #880]
	str	w9, [sp, #888]
	stur	xzr, [x29, #-16]
	b.ne	.Lnoise_BB88_34
	sub	x0, x29, #16
	add	x1, x25, #8
	mov	w2, w22
	mov	w3, #7
	mov	w4, #8
	mov	w5, #1
	mov	w6, w20
	bl	"noise_c::message_layout::piece"
	b	.Lnoise_BB88_17
.Lnoise_BB88_33:
	sub	x0, x29, #16
	add	x1, x25, #8
	mov	w2, w22
	mov	w3, #6
	mov	w4, #8
	mov	w5, #1
	mov	w6, w20
	bl	"noise_c::message_layout::piece"
	b	.Lnoise_BB88_16
.Lnoise_BB88_34:
	ldrb	w8, [x26, #55]
	sub	x0, x29, #80
	add	x1, x25, #8
	mov	w2, w22
	mov	w3, #7
	stur	xzr, [x29, #-80]
	cmp	w8, #1
	add	w4, w8, #1
	stur	wzr, [x29, #-72]
	cset	w5, eq
	cmp	w8, #2
	csel	w6, w27, wzr, lo
	bl	"noise_c::message_layout::piece"
	ldur	x8, [x29, #-80]
	ldur	w9, [x29, #-72]
	cmp	x23, #8
	stur	wzr, [x29, #-8]
	str	x8, [sp, #864]
	str	w9, [sp, #872]
	stur	xzr, [x29, #-16]
	b.ls	.Lnoise_BB88_37
	ldrb	w8, [x26, #56]
	sub	x0, x29, #64
	add	x1, x25, #8
	mov	w2, w22
	mov	w3, #8
	stur	xzr, [x29, #-64]
	cmp	w8, #1
	add	w4, w8, #1
	stur	wzr, [x29, #-56]
	cset	w5, eq
	cmp	w8, #2
	csel	w6, w27, wzr, lo
	bl	"noise_c::message_layout::piece"
	ldur	x8, [x29, #-64]
	ldur	w9, [x29, #-56]
	cmp	x23, #9
	stur	wzr, [x29, #-8]
	str	x8, [sp, #848]
	str	w9, [sp, #856]
	stur	xzr, [x29, #-16]
	b.ne	.Lnoise_BB88_38
	sub	x0, x29, #16
	add	x1, x25, #8
	mov	w2, w22
	mov	w3, #9
	mov	w4, #8
	mov	w5, #1
	mov	w6, w20
	bl	"noise_c::message_layout::piece"
	b	.Lnoise_BB88_19
.Lnoise_BB88_37:
	sub	x0, x29, #16
	add	x1, x25, #8
	mov	w2, w22
	mov	w3, #8
	mov	w4, #8
	mov	w5, #1
	mov	w6, w20
	bl	"noise_c::message_layout::piece"
	b	.Lnoise_BB88_18
.Lnoise_BB88_38:
	ldrb	w8, [x26, #57]
	sub	x0, x29, #48
	add	x1, x25, #8
	mov	w2, w22
	mov	w3, #9
	stur	xzr, [x29, #-48]
	cmp	w8, #1
	add	w4, w8, #1
	stur	wzr, [x29, #-40]
	cset	w5, eq
	cmp	w8, #2
	csel	w6, w27, wzr, lo
	bl	"noise_c::message_layout::piece"
	ldur	x8, [x29, #-48]
	ldur	w9, [x29, #-40]
	cmp	x23, #10
	stur	wzr, [x29, #-24]
	str	x8, [sp, #832]
	str	w9, [sp, #840]
	stur	xzr, [x29, #-32]
	b.ne	.Lnoise_BB88_40
	sub	x0, x29, #32
	add	x1, x25, #8
	mov	w2, w22
	mov	w3, #10
	mov	w4, #8
	mov	w5, #1
	mov	w6, w20
	bl	"noise_c::message_layout::piece"
	b	.Lnoise_BB88_20
.Lnoise_BB88_40:
	ldrb	w8, [x26, #58]
	mov	w9, #32
	sub	x0, x29, #16
	add	x1, x25, #8
	mov	w2, w22
	mov	w3, #10
	cmp	w8, #1
	add	w4, w8, #1
	stur	xzr, [x29, #-16]
	cset	w5, eq
	cmp	w8, #2
	stur	wzr, [x29, #-8]
	csel	w6, w9, wzr, lo
	bl	"noise_c::message_layout::piece"
	b	.Lnoise_BB88_21
.Lnoise_func_end88:
	.size	noise_layout, .Lnoise_func_end88-noise_layout
	.cfi_endproc

	.section	.text.noise_finish,"ax",@progbits
	.globl	noise_finish
	.p2align	2
	.type	noise_finish,@function
noise_finish:
	.cfi_startproc
	sub	sp, sp, #304
	stp	x29, x30, [sp, #240]
	str	x28, [sp, #256]
	stp	x22, x21, [sp, #272]
	stp	x20, x19, [sp, #288]
	add	x29, sp, #240
	.cfi_def_cfa w29, 64
	.cfi_offset w19, -8
	.cfi_offset w20, -16
	.cfi_offset w21, -24
	.cfi_offset w22, -32
	.cfi_offset w28, -48
	.cfi_offset w30, -56
	.cfi_offset w29, -64
	mov	x20, x1
	mov	x1, x0
	mov	x0, sp
	mov	x19, x3
	mov	x21, x2
	mov	x22, sp
	bl	"noise_c::split::finished"
	ldrb	w8, [sp]
	cbz	w8, .Lnoise_BB89_2
	ldr	w0, [sp, #4]
	ldp	x20, x19, [sp, #288]
	ldr	x28, [sp, #256]
	ldp	x22, x21, [sp, #272]
	ldp	x29, x30, [sp, #240]
	add	sp, sp, #304
	ret
.Lnoise_BB89_2:
	ldrb	w10, [sp, #8]
	ldrb	w13, [sp, #80]
	ldr	x12, [sp, #120]
	ldrb	w9, [sp, #128]
	ldr	x8, [sp, #168]
	cbz	w10, .Lnoise_BB89_4
	ldur	q0, [x22, #129]
	ldur	q1, [x22, #145]
	mov	w14, w9
	ldur	q2, [x22, #81]
	mov	x11, x8
	mov	w9, w13
	stp	q0, q1, [x29, #-32]
	ldur	q0, [x22, #97]
	mov	x8, x12
	stp	q2, q0, [x29, #-64]
	cmp	w14, #1
	b.eq	.Lnoise_BB89_5
	b	.Lnoise_BB89_7
.Lnoise_BB89_4:
	ldur	q0, [x22, #81]
	ldur	q1, [x22, #97]
	ldur	q2, [x22, #129]
	mov	x11, x12
	stp	q0, q1, [x29, #-32]
	ldur	q0, [x22, #145]
	stp	q2, q0, [x29, #-64]
	cmp	w13, #1
	b.ne	.Lnoise_BB89_7
.Lnoise_BB89_5:
	ldp	q0, q1, [x29, #-32]
	mov	w12, #769
	ldrb	w14, [sp, #9]
	cmp	w10, #0
	mov	w10, #1
	movk	w12, #20079, lsl #16
	cinc	w13, w10, ne
	cmp	w9, #1
	and	w10, w14, #0x1
	stur	q0, [x21, #6]
	str	w12, [x21]
	strb	w13, [x21, #4]
	strb	w10, [x21, #5]
	stur	q1, [x21, #22]
	strh	wzr, [x21, #38]
	stp	x20, x11, [x21, #40]
	b.ne	.Lnoise_BB89_7
	ldp	q0, q1, [x29, #-64]
	add	w9, w12, #256
	mov	w0, wzr
	strb	w13, [x19, #4]
	str	w9, [x19]
	strb	w10, [x19, #5]
	stur	q0, [x19, #6]
	stur	q1, [x19, #22]
	strh	wzr, [x19, #38]
	stp	x20, x8, [x19, #40]
	ldp	x20, x19, [sp, #288]
	ldr	x28, [sp, #256]
	ldp	x22, x21, [sp, #272]
	ldp	x29, x30, [sp, #240]
	add	sp, sp, #304
	ret
.Lnoise_BB89_7:
	brk	#0x1
.Lnoise_func_end89:
	.size	noise_finish, .Lnoise_func_end89-noise_finish
	.cfi_endproc

	.section	.text.noise_finish_ciphers,"ax",@progbits
	.globl	noise_finish_ciphers
	.p2align	2
	.type	noise_finish_ciphers,@function
noise_finish_ciphers:
	.cfi_startproc
	sub	sp, sp, #304
	stp	x29, x30, [sp, #256]
	stp	x28, x21, [sp, #272]
	stp	x20, x19, [sp, #288]
	add	x29, sp, #256
	.cfi_def_cfa w29, 48
	.cfi_offset w19, -8
	.cfi_offset w20, -16
	.cfi_offset w21, -24
	.cfi_offset w28, -32
	.cfi_offset w30, -40
	.cfi_offset w29, -48
	mov	x20, x1
	mov	x1, x0
	add	x0, sp, #8
	mov	x19, x2
	add	x21, sp, #8
	bl	"noise_c::split::finished"
	ldrb	w8, [sp, #8]
	cbz	w8, .Lnoise_BB90_2
	ldr	w0, [sp, #12]
	ldp	x20, x19, [sp, #288]
	ldp	x28, x21, [sp, #272]
	ldp	x29, x30, [sp, #256]
	add	sp, sp, #304
	ret
.Lnoise_BB90_2:
	ldrb	w9, [sp, #16]
	ldrb	w11, [sp, #17]
	ldrb	w13, [sp, #88]
	ldr	x12, [sp, #128]
	ldrb	w14, [sp, #136]
	ldr	x8, [sp, #176]
	cbz	w9, .Lnoise_BB90_7
	cmp	w14, #1
	b.ne	.Lnoise_BB90_9
	tbnz	w11, #0, .Lnoise_BB90_9
	ldur	q0, [x21, #129]
	ldur	q1, [x21, #145]
	mov	w10, wzr
	mov	x9, x8
	stp	q0, q1, [x29, #-64]
	cmp	w13, #1
	b.eq	.Lnoise_BB90_10
.Lnoise_BB90_6:
	movi	v0.2d, #0000000000000000
	mov	x12, xzr
	mov	w11, #1
	stp	q0, q0, [x29, #-32]
	b	.Lnoise_BB90_11
.Lnoise_BB90_7:
	cmp	w13, #1
	b.ne	.Lnoise_BB90_12
	ldur	q0, [x21, #81]
	ldur	q1, [x21, #97]
	mov	w10, wzr
	mov	x9, x12
	stp	q0, q1, [x29, #-64]
	cmp	w14, #1
	b.eq	.Lnoise_BB90_13
	b	.Lnoise_BB90_15
.Lnoise_BB90_9:
	movi	v0.2d, #0000000000000000
	mov	x9, xzr
	mov	w10, #1
	stp	q0, q0, [x29, #-64]
	cmp	w13, #1
	b.ne	.Lnoise_BB90_6
.Lnoise_BB90_10:
	ldur	q0, [x21, #81]
	ldur	q1, [x21, #97]
	mov	w11, wzr
	stp	q0, q1, [x29, #-32]
.Lnoise_BB90_11:
	mov	x8, x12
	b	.Lnoise_BB90_16
.Lnoise_BB90_12:
	movi	v0.2d, #0000000000000000
	mov	x9, xzr
	mov	w10, #1
	stp	q0, q0, [x29, #-64]
	cmp	w14, #1
	b.ne	.Lnoise_BB90_15
.Lnoise_BB90_13:
	tbnz	w11, #0, .Lnoise_BB90_15
	ldur	q0, [x21, #129]
	ldur	q1, [x21, #145]
	mov	w11, wzr
	stp	q0, q1, [x29, #-32]
	b	.Lnoise_BB90_16
.Lnoise_BB90_15:
	movi	v0.2d, #0000000000000000
	mov	x8, xzr
	mov	w11, #1
	stp	q0, q0, [x29, #-32]
.Lnoise_BB90_16:
	sturb	wzr, [x29, #-66]
	sturh	wzr, [x29, #-68]
	sturh	wzr, [x29, #-72]
	ldp	q1, q0, [x29, #-64]
	mov	w12, #2049
	strb	w10, [x20, #4]
	and	w10, wzr, #0xffff
	movk	w12, #20079, lsl #16
	str	x9, [x20, #40]
	and	w9, wzr, #0xffff
	mov	w0, wzr
	sturb	wzr, [x29, #-70]
	and	w13, wzr, #0xff
	stur	q0, [x20, #21]
	stur	q1, [x20, #5]
	ldp	q0, q1, [x29, #-32]
	sturh	w10, [x20, #37]
	strh	w10, [sp, #4]
	and	w10, wzr, #0xff
	strh	w9, [sp]
	orr	w9, w12, #0x100
	str	w12, [x20]
	strb	w13, [x20, #39]
	str	w9, [x19]
	ldrh	w9, [sp]
	strb	w10, [sp, #2]
	and	w10, w10, #0xff
	stur	q0, [x19, #5]
	strb	w13, [sp, #6]
	strb	w11, [x19, #4]
	stur	q1, [x19, #21]
	sturh	w9, [x19, #37]
	strb	w10, [x19, #39]
	str	x8, [x19, #40]
	ldp	x20, x19, [sp, #288]
	ldp	x28, x21, [sp, #272]
	ldp	x29, x30, [sp, #256]
	add	sp, sp, #304
	ret
.Lnoise_func_end90:
	.size	noise_finish_ciphers, .Lnoise_func_end90-noise_finish_ciphers
	.cfi_endproc

	.section	.text.noise_finish_stream,"ax",@progbits
	.globl	noise_finish_stream
	.p2align	2
	.type	noise_finish_stream,@function
noise_finish_stream:
	.cfi_startproc
	sub	sp, sp, #368
	stp	x29, x30, [sp, #304]
	str	x28, [sp, #320]
	stp	x22, x21, [sp, #336]
	stp	x20, x19, [sp, #352]
	add	x29, sp, #304
	.cfi_def_cfa w29, 64
	.cfi_offset w19, -8
	.cfi_offset w20, -16
	.cfi_offset w21, -24
	.cfi_offset w22, -32
	.cfi_offset w28, -48
	.cfi_offset w30, -56
	.cfi_offset w29, -64
	mov	x20, x1
	mov	x1, x0
	add	x0, sp, #64
	mov	x19, x3
	mov	x21, x2
	add	x22, sp, #64
	bl	"noise_c::split::finished"
	ldrb	w8, [sp, #64]
	cbz	w8, .Lnoise_BB91_2
	ldr	w0, [sp, #68]
	ldp	x20, x19, [sp, #352]
	ldr	x28, [sp, #320]
	ldp	x22, x21, [sp, #336]
	ldp	x29, x30, [sp, #304]
	add	sp, sp, #368
	ret
.Lnoise_BB91_2:
	ldrb	w10, [sp, #72]
	ldrb	w13, [sp, #144]
	ldr	x12, [sp, #184]
	ldrb	w9, [sp, #192]
	ldr	x8, [sp, #232]
	cbz	w10, .Lnoise_BB91_4
	ldur	q0, [x22, #129]
	ldur	q1, [x22, #145]
	mov	w14, w9
	ldur	q2, [x22, #81]
	mov	x11, x8
	mov	w9, w13
	stp	q0, q1, [x29, #-32]
	ldur	q0, [x22, #97]
	mov	x8, x12
	b	.Lnoise_BB91_5
.Lnoise_BB91_4:
	ldur	q0, [x22, #81]
	ldur	q1, [x22, #97]
	mov	w14, w13
	ldur	q2, [x22, #129]
	mov	x11, x12
	stp	q0, q1, [x29, #-32]
	ldur	q0, [x22, #145]
.Lnoise_BB91_5:
	stp	q2, q0, [x29, #-64]
	ldp	q0, q1, [x29, #-32]
	cmp	w14, #1
	ldrb	w12, [sp, #73]
	stp	q0, q1, [sp, #32]
	ldp	q0, q2, [x29, #-64]
	stp	q0, q2, [sp]
	b.ne	.Lnoise_BB91_8
	ldp	q0, q1, [sp, #32]
	mov	w13, #2561
	cmp	w10, #0
	mov	w10, #1
	movk	w13, #20079, lsl #16
	cinc	w14, w10, ne
	and	w10, w12, #0x1
	cmp	w9, #1
	stur	q0, [x21, #6]
	str	w13, [x21]
	strb	w14, [x21, #4]
	strb	w10, [x21, #5]
	stur	q1, [x21, #22]
	strh	wzr, [x21, #38]
	stp	x20, x11, [x21, #40]
	str	xzr, [x21, #56]
	b.ne	.Lnoise_BB91_8
	ldp	q0, q1, [sp]
	add	w9, w13, #256
	mov	w0, wzr
	strb	w14, [x19, #4]
	str	w9, [x19]
	strb	w10, [x19, #5]
	stur	q0, [x19, #6]
	stur	q1, [x19, #22]
	strh	wzr, [x19, #38]
	stp	x20, x8, [x19, #40]
	str	xzr, [x19, #56]
	ldp	x20, x19, [sp, #352]
	ldr	x28, [sp, #320]
	ldp	x22, x21, [sp, #336]
	ldp	x29, x30, [sp, #304]
	add	sp, sp, #368
	ret
.Lnoise_BB91_8:
	brk	#0x1
.Lnoise_func_end91:
	.size	noise_finish_stream, .Lnoise_func_end91-noise_finish_stream
	.cfi_endproc

	.section	.text.noise_datagram_open,"ax",@progbits
	.globl	noise_datagram_open
	.p2align	2
	.type	noise_datagram_open,@function
noise_datagram_open:
	.cfi_startproc
	sub	sp, sp, #464
	stp	x29, x30, [sp, #368]
	str	x28, [sp, #384]
	stp	x26, x25, [sp, #400]
	stp	x24, x23, [sp, #416]
	stp	x22, x21, [sp, #432]
	stp	x20, x19, [sp, #448]
	add	x29, sp, #368
	.cfi_def_cfa w29, 96
	.cfi_offset w19, -8
	.cfi_offset w20, -16
	.cfi_offset w21, -24
	.cfi_offset w22, -32
	.cfi_offset w23, -40
	.cfi_offset w24, -48
	.cfi_offset w25, -56
	.cfi_offset w26, -64
	.cfi_offset w28, -80
	.cfi_offset w30, -88
	.cfi_offset w29, -96
	ldr	w8, [x0]
	mov	w19, #1793
	cmp	x1, #0
	movk	w19, #20079, lsl #16
	mov	w9, #4096
	str	xzr, [sp, #56]
	csel	x11, x9, xzr, eq
	cmp	w8, w19
	b.ne	.Lnoise_BB92_15
	ldrb	w8, [x0, #4]
	cmp	w8, #1
	b.eq	.Lnoise_BB92_7
	cmp	w8, #2
	b.ne	.Lnoise_BB92_15
	mov	w8, wzr
	mov	w9, #1
	ldr	w12, [x0, #8]
	ldrb	w10, [x0, #5]
	cmp	w12, #64
	b.eq	.Lnoise_BB92_8
.Lnoise_BB92_4:
	cmp	w12, #1024
	b.eq	.Lnoise_BB92_9
	cmp	w12, #256
	b.ne	.Lnoise_BB92_15
	mov	w14, #1
	b	.Lnoise_BB92_10
.Lnoise_BB92_7:
	mov	w9, wzr
	ldr	w12, [x0, #8]
	ldrb	w10, [x0, #5]
	cmp	w12, #64
	b.ne	.Lnoise_BB92_4
.Lnoise_BB92_8:
	mov	w14, wzr
	b	.Lnoise_BB92_10
.Lnoise_BB92_9:
	mov	w14, #2
.Lnoise_BB92_10:
	ldur	q0, [x0, #152]
	ldur	q1, [x0, #168]
	sub	x12, x29, #152
	ldur	q2, [x0, #72]
	ldr	x13, [x0, #184]
	cmp	w10, #0
	stp	q0, q1, [x12, #112]
	ldur	q0, [x0, #88]
	ldr	x15, [x0, #48]
	ldur	q1, [x0, #56]
	ldur	q3, [x0, #136]
	stur	x13, [x29, #-8]
	cset	w13, ne
	cmn	x15, #1
	stp	q2, q0, [x12, #32]
	ldur	q2, [x0, #104]
	ldur	q0, [x0, #120]
	str	q3, [x12, #96]
	str	q1, [x12, #16]
	stp	q2, q0, [x12, #64]
	stp	xzr, x15, [x29, #-152]
	sturb	w14, [x29, #-152]
	b.eq	.Lnoise_BB92_15
	adrp	x26, .Lnoise_switch.table.noise_datagram_open.205
	add	x26, x26, :lo12:.Lnoise_switch.table.noise_datagram_open.205
	lsr	x16, x15, #6
	ldr	x17, [x26, w14, uxtw #3]
	udiv	x18, x16, x17
	msub	x17, x18, x17, x16
	sub	x18, x29, #152
	add	x18, x18, #16
	ldr	x17, [x18, x17, lsl #3]
	lsr	x18, x17, x15
	orr	x15, x17, x15
	cmp	x18, #1
	ccmp	x15, #0, #4, ne
	b.ne	.Lnoise_BB92_15
	ldr	x14, [x26, w14, uxtw #3]
	add	x15, x16, #1
	add	x11, x1, x11
	cmp	x15, x14
	csinc	x14, x14, x16, hs
	add	x14, x14, #2
.Lnoise_BB92_13:
	cmp	x14, #19
	b.eq	.Lnoise_BB92_17
	sub	x15, x29, #152
	ldr	x15, [x15, x14, lsl #3]
	add	x14, x14, #1
	cbz	x15, .Lnoise_BB92_13
.Lnoise_BB92_15:
	mov	w0, #23
.Lnoise_BB92_16:
	ldp	x20, x19, [sp, #448]
	ldr	x28, [sp, #384]
	ldp	x22, x21, [sp, #432]
	ldp	x24, x23, [sp, #416]
	ldp	x26, x25, [sp, #400]
	ldp	x29, x30, [sp, #368]
	add	sp, sp, #464
	ret
.Lnoise_BB92_17:
	ldp	q0, q1, [x12, #96]
	cmp	w10, #0
	ldr	q2, [x12, #128]
	ldur	x14, [x29, #-8]
	csel	w8, wzr, w8, eq
	strb	w9, [sp]
	mov	w9, #1
	stp	q0, q1, [sp, #160]
	ldp	q0, q1, [x12, #32]
	str	q2, [sp, #192]
	str	x14, [sp, #208]
	stp	q0, q1, [sp, #96]
	ldp	q2, q0, [x12, #64]
	strb	w13, [sp, #1]
	stur	xzr, [sp, #2]
	stp	q2, q0, [sp, #128]
	ldp	q1, q0, [x12]
	str	xzr, [sp, #8]
	strb	w9, [sp, #16]
	stp	q1, q0, [sp, #64]
	ldur	q0, [x0, #12]
	stur	wzr, [sp, #49]
	stur	q0, [sp, #17]
	ldur	q0, [x0, #28]
	str	wzr, [sp, #52]
	stur	q0, [sp, #33]
	tbz	w8, #0, .Lnoise_BB92_19
	mov	w0, #22
	b	.Lnoise_BB92_16
.Lnoise_BB92_19:
	cmp	x2, #24
	b.hs	.Lnoise_BB92_21
	mov	w0, #15
	b	.Lnoise_BB92_16
.Lnoise_BB92_21:
	mov	w8, #7
	movk	w8, #1, lsl #16
	cmp	x2, x8
	b.ls	.Lnoise_BB92_23
	mov	w0, #11
	b	.Lnoise_BB92_16
.Lnoise_BB92_23:
	ldr	x10, [x11]
	cmn	x10, #1
	b.eq	.Lnoise_BB92_30
	ldrb	w8, [sp, #64]
	ldr	x9, [sp, #72]
	rev	x21, x10
	adrp	x10, .Lnoise_switch.table.noise_datagram_open.203
	add	x10, x10, :lo12:.Lnoise_switch.table.noise_datagram_open.203
	ldr	x10, [x10, x8, lsl #3]
	subs	x12, x9, x21
	csel	x12, xzr, x12, lo
	cmp	x10, x12
	b.ls	.Lnoise_BB92_31
	lsr	x22, x21, #6
	cmp	x21, x9
	b.hi	.Lnoise_BB92_27
	ldr	x8, [x26, x8, lsl #3]
	udiv	x9, x22, x8
	msub	x8, x9, x8, x22
	mov	x9, sp
	add	x8, x9, x8, lsl #3
	ldr	x8, [x8, #80]
	lsr	x8, x8, x21
	tbnz	w8, #0, .Lnoise_BB92_41
.Lnoise_BB92_27:
	mov	x20, sp
	mov	x24, x3
	mov	x25, x0
	sub	x5, x2, #8
	adrp	x2, .Lnoise_static.1
	add	x2, x2, :lo12:.Lnoise_static.1
	sub	x0, x29, #152
	add	x1, x20, #16
	add	x4, x11, #8
	mov	x3, xzr
	str	x21, [sp, #56]
	stp	xzr, xzr, [x29, #-152]
	bl	"noise_state::cipher::CipherState::decrypt"
	ldurb	w8, [x29, #-152]
	cbz	w8, .Lnoise_BB92_32
	ldurb	w8, [x29, #-151]
	cmp	w8, #3
	b.eq	.Lnoise_BB92_73
	mov	w0, #16
	b	.Lnoise_BB92_16
.Lnoise_BB92_30:
	mov	w0, #26
	b	.Lnoise_BB92_16
.Lnoise_BB92_31:
	mov	w0, #27
	b	.Lnoise_BB92_16
.Lnoise_BB92_32:
	ldr	x8, [sp, #8]
	ldur	x23, [x29, #-144]
	cbz	x8, .Lnoise_BB92_35
	ldr	x9, [sp, #56]
	udiv	x10, x9, x8
	msub	x8, x10, x8, x9
	cbnz	x8, .Lnoise_BB92_35
	add	x0, x20, #16
	bl	"noise_state::cipher::CipherState::rekey"
.Lnoise_BB92_35:
	ldr	x10, [sp, #72]
	ldrb	w8, [sp, #64]
	cmp	x10, x21
	b.hs	.Lnoise_BB92_38
	ldr	x9, [x26, x8, lsl #3]
	subs	x11, x22, x10, lsr #6
	cmp	x9, x11
	csel	x9, x9, x11, lo
	subs	x10, x22, x10, lsr #6
	b.ne	.Lnoise_BB92_43
	mov	x10, x21
.Lnoise_BB92_38:
	cbz	w8, .Lnoise_BB92_42
	cmp	w8, #2
	b.ne	.Lnoise_BB92_47
	mov	w9, #17
	b	.Lnoise_BB92_71
.Lnoise_BB92_41:
	mov	w0, #28
	b	.Lnoise_BB92_16
.Lnoise_BB92_42:
	mov	w9, #2
	b	.Lnoise_BB92_71
.Lnoise_BB92_43:
	cbz	w8, .Lnoise_BB92_48
	cmp	w8, #1
	b.ne	.Lnoise_BB92_50
	cmp	x10, #1
	b.hi	.Lnoise_BB92_52
	mov	x10, xzr
	b	.Lnoise_BB92_55
.Lnoise_BB92_47:
	mov	w9, #5
	b	.Lnoise_BB92_71
.Lnoise_BB92_48:
	mov	x11, sp
	cmp	x10, #2
	add	x10, x11, #80
	b.hs	.Lnoise_BB92_58
	mov	x11, xzr
	b	.Lnoise_BB92_61
.Lnoise_BB92_50:
	cmp	x10, #1
	b.hi	.Lnoise_BB92_64
	mov	x10, xzr
	b	.Lnoise_BB92_67
.Lnoise_BB92_52:
	mov	x10, sp
	sub	x13, x22, #1
	mov	x14, x22
	add	x12, x10, x22, lsl #3
	and	x10, x9, #0x1e
	and	x15, x9, #0x1e
	add	x11, x12, #80
	add	x12, x12, #72
.Lnoise_BB92_53:
	mov	x16, #-3689348814741910324
	mov	x18, #-40
	sub	x15, x15, #2
	movk	x16, #52429
	umulh	x17, x14, x16
	sub	x14, x14, #2
	umulh	x16, x13, x16
	sub	x13, x13, #2
	lsr	x17, x17, #2
	lsr	x16, x16, #2
	mul	x17, x17, x18
	mul	x16, x16, x18
	str	xzr, [x11, x17]
	sub	x11, x11, #16
	str	xzr, [x12, x16]
	sub	x12, x12, #16
	cbnz	x15, .Lnoise_BB92_53
	cmp	x9, x10
	b.eq	.Lnoise_BB92_57
.Lnoise_BB92_55:
	mov	x11, sp
	sub	x9, x9, x10
	sub	x11, x11, x10, lsl #3
	sub	x10, x22, x10
	add	x11, x11, x22, lsl #3
	add	x11, x11, #80
.Lnoise_BB92_56:
	mov	x12, #-3689348814741910324
	mov	x13, #-40
	sub	x9, x9, #1
	movk	x12, #52429
	umulh	x12, x10, x12
	sub	x10, x10, #1
	lsr	x12, x12, #2
	mul	x12, x12, x13
	str	xzr, [x11, x12]
	sub	x11, x11, #8
	cbnz	x9, .Lnoise_BB92_56
.Lnoise_BB92_57:
	mov	w9, #5
	b	.Lnoise_BB92_70
.Lnoise_BB92_58:
	ubfiz	x12, x22, #3, #1
	and	x11, x9, #0x1e
	and	x14, x9, #0x1e
	eor	x13, x12, #0x8
.Lnoise_BB92_59:
	subs	x14, x14, #2
	str	xzr, [x10, x12]
	str	xzr, [x10, x13]
	b.ne	.Lnoise_BB92_59
	cmp	x9, x11
	b.eq	.Lnoise_BB92_63
.Lnoise_BB92_61:
	lsl	x12, x22, #3
	sub	x9, x9, x11
	sub	x12, x12, x11, lsl #3
.Lnoise_BB92_62:
	and	x11, x12, #0x8
	sub	x9, x9, #1
	sub	x12, x12, #8
	str	xzr, [x10, x11]
	cbnz	x9, .Lnoise_BB92_62
.Lnoise_BB92_63:
	mov	w9, #2
	b	.Lnoise_BB92_70
.Lnoise_BB92_64:
	mov	x10, sp
	sub	x13, x22, #1
	mov	x14, x22
	add	x12, x10, x22, lsl #3
	and	x10, x9, #0x1e
	and	x15, x9, #0x1e
	add	x11, x12, #80
	add	x12, x12, #72
.Lnoise_BB92_65:
	mov	x16, #-1085102592571150096
	mov	x18, #-136
	sub	x15, x15, #2
	movk	x16, #61681
	umulh	x17, x14, x16
	sub	x14, x14, #2
	umulh	x16, x13, x16
	sub	x13, x13, #2
	lsr	x17, x17, #4
	lsr	x16, x16, #4
	mul	x17, x17, x18
	mul	x16, x16, x18
	str	xzr, [x11, x17]
	sub	x11, x11, #16
	str	xzr, [x12, x16]
	sub	x12, x12, #16
	cbnz	x15, .Lnoise_BB92_65
	cmp	x9, x10
	b.eq	.Lnoise_BB92_69
.Lnoise_BB92_67:
	mov	x11, sp
	sub	x9, x9, x10
	sub	x11, x11, x10, lsl #3
	sub	x10, x22, x10
	add	x11, x11, x22, lsl #3
	add	x11, x11, #80
.Lnoise_BB92_68:
	mov	x12, #-1085102592571150096
	mov	x13, #-136
	sub	x9, x9, #1
	movk	x12, #61681
	umulh	x12, x10, x12
	sub	x10, x10, #1
	lsr	x12, x12, #4
	mul	x12, x12, x13
	str	xzr, [x11, x12]
	sub	x11, x11, #8
	cbnz	x9, .Lnoise_BB92_68
.Lnoise_BB92_69:
	mov	w9, #17
.Lnoise_BB92_70:
	mov	x10, x21
.Lnoise_BB92_71:
	udiv	x11, x22, x9
	ldrb	w15, [sp, #16]
	mov	w16, #8
	stp	x16, x23, [x24]
	cmp	w15, #1
	msub	x12, x11, x9, x22
	mov	x9, sp
	mov	w11, #1
	add	x9, x9, #80
	lsl	x13, x11, x21
	ldr	x14, [x9, x12, lsl #3]
	orr	x13, x14, x13
	str	x13, [x9, x12, lsl #3]
	b.ne	.Lnoise_BB92_73
	ldur	q0, [x20, #17]
	ldur	q1, [x20, #33]
	adrp	x13, .Lnoise_switch.table.noise_finish_datagrams
	add	x13, x13, :lo12:.Lnoise_switch.table.noise_finish_datagrams
	ldrb	w12, [sp, #1]
	mov	w0, wzr
	stur	q0, [x25, #12]
	ldp	q0, q2, [x9]
	stur	q1, [x25, #28]
	ldr	w8, [x13, x8, lsl #2]
	and	w12, w12, #0x1
	ldrb	w13, [sp]
	str	w19, [x25]
	stur	q0, [x25, #56]
	ldp	q1, q0, [x9, #64]
	stur	q2, [x25, #72]
	cmp	w13, #0
	str	w8, [x25, #8]
	ldr	x8, [x9, #128]
	cinc	w11, w11, ne
	stur	q1, [x25, #120]
	ldp	q3, q1, [x9, #32]
	strh	wzr, [x25, #6]
	strb	w12, [x25, #5]
	stur	q1, [x25, #104]
	ldp	q2, q1, [x9, #96]
	strb	w11, [x25, #4]
	str	wzr, [x25, #44]
	str	x10, [x25, #48]
	stur	q3, [x25, #88]
	stur	x8, [x25, #184]
	stur	q1, [x25, #168]
	stur	q2, [x25, #152]
	stur	q0, [x25, #136]
	b	.Lnoise_BB92_16
.Lnoise_BB92_73:
	brk	#0x1
.Lnoise_func_end92:
	.size	noise_datagram_open, .Lnoise_func_end92-noise_datagram_open
	.cfi_endproc

	.section	.text.noise_finish_datagrams,"ax",@progbits
	.globl	noise_finish_datagrams
	.p2align	2
	.type	noise_finish_datagrams,@function
noise_finish_datagrams:
	.cfi_startproc
	sub	sp, sp, #304
	stp	x29, x30, [sp, #240]
	str	x28, [sp, #256]
	stp	x22, x21, [sp, #272]
	stp	x20, x19, [sp, #288]
	add	x29, sp, #240
	.cfi_def_cfa w29, 64
	.cfi_offset w19, -8
	.cfi_offset w20, -16
	.cfi_offset w21, -24
	.cfi_offset w22, -32
	.cfi_offset w28, -48
	.cfi_offset w30, -56
	.cfi_offset w29, -64
	mov	x19, x3
	mov	x20, x2
	cmp	w1, #64
	mov	x8, x0
	b.eq	.Lnoise_BB93_6
	cmp	w1, #1024
	b.eq	.Lnoise_BB93_4
	cmp	w1, #256
	b.ne	.Lnoise_BB93_9
	mov	w21, #1
	mov	x0, sp
	mov	x1, x8
	mov	x22, sp
	bl	"noise_c::split::finished"
	ldrb	w8, [sp]
	cbnz	w8, .Lnoise_BB93_5
	b	.Lnoise_BB93_7
.Lnoise_BB93_4:
	mov	w21, #2
	mov	x0, sp
	mov	x1, x8
	mov	x22, sp
	bl	"noise_c::split::finished"
	ldrb	w8, [sp]
	cbz	w8, .Lnoise_BB93_7
.Lnoise_BB93_5:
	ldr	w0, [sp, #4]
	ldp	x20, x19, [sp, #288]
	ldr	x28, [sp, #256]
	ldp	x22, x21, [sp, #272]
	ldp	x29, x30, [sp, #240]
	add	sp, sp, #304
	ret
.Lnoise_BB93_6:
	mov	x21, xzr
	mov	x0, sp
	mov	x1, x8
	mov	x22, sp
	bl	"noise_c::split::finished"
	ldrb	w8, [sp]
	cbnz	w8, .Lnoise_BB93_5
.Lnoise_BB93_7:
	ldrb	w9, [sp, #8]
	ldrb	w11, [sp, #80]
	ldrb	w8, [sp, #128]
	cbz	w9, .Lnoise_BB93_10
	ldur	q0, [x22, #129]
	ldur	q1, [x22, #145]
	mov	w12, w8
	ldur	q2, [x22, #81]
	ldr	x10, [sp, #168]
	mov	w8, w11
	stp	q0, q1, [x29, #-32]
	ldur	q0, [x22, #97]
	stp	q2, q0, [x29, #-64]
	cmp	w12, #1
	b.eq	.Lnoise_BB93_11
	b	.Lnoise_BB93_13
.Lnoise_BB93_9:
	mov	w0, #25
	ldp	x20, x19, [sp, #288]
	ldr	x28, [sp, #256]
	ldp	x22, x21, [sp, #272]
	ldp	x29, x30, [sp, #240]
	add	sp, sp, #304
	ret
.Lnoise_BB93_10:
	ldur	q0, [x22, #81]
	ldur	q1, [x22, #97]
	ldur	q2, [x22, #129]
	ldr	x10, [sp, #120]
	stp	q0, q1, [x29, #-32]
	ldur	q0, [x22, #145]
	stp	q2, q0, [x29, #-64]
	cmp	w11, #1
	b.ne	.Lnoise_BB93_13
.Lnoise_BB93_11:
	ldp	q0, q1, [x29, #-32]
	mov	w11, #1537
	ldrb	w13, [sp, #9]
	cmp	w9, #0
	mov	w9, #1
	movk	w11, #20079, lsl #16
	cinc	w12, w9, ne
	cmp	w8, #1
	and	w9, w13, #0x1
	stur	q0, [x20, #6]
	str	w11, [x20]
	strb	w12, [x20, #4]
	strb	w9, [x20, #5]
	stur	q1, [x20, #22]
	strh	wzr, [x20, #38]
	str	x10, [x20, #40]
	b.ne	.Lnoise_BB93_13
	ldp	q0, q1, [x29, #-64]
	adrp	x8, .Lnoise_switch.table.noise_finish_datagrams
	add	x8, x8, :lo12:.Lnoise_switch.table.noise_finish_datagrams
	add	w10, w11, #256
	mov	w0, wzr
	ldr	w8, [x8, x21, lsl #2]
	str	w10, [x19]
	stur	q0, [x19, #12]
	movi	v0.2d, #0000000000000000
	strb	w12, [x19, #4]
	stur	q1, [x19, #28]
	strb	w9, [x19, #5]
	strh	wzr, [x19, #6]
	str	w8, [x19, #8]
	stur	q0, [x19, #44]
	stur	q0, [x19, #60]
	stur	q0, [x19, #76]
	stur	q0, [x19, #92]
	stur	q0, [x19, #108]
	stur	q0, [x19, #124]
	stur	q0, [x19, #140]
	stur	q0, [x19, #156]
	stur	q0, [x19, #172]
	str	wzr, [x19, #188]
	ldp	x20, x19, [sp, #288]
	ldr	x28, [sp, #256]
	ldp	x22, x21, [sp, #272]
	ldp	x29, x30, [sp, #240]
	add	sp, sp, #304
	ret
.Lnoise_BB93_13:
	brk	#0x1
.Lnoise_func_end93:
	.size	noise_finish_datagrams, .Lnoise_func_end93-noise_finish_datagrams
	.cfi_endproc

	.section	.text.noise_write,"ax",@progbits
	.globl	noise_write
	.p2align	2
	.type	noise_write,@function
noise_write:
	.cfi_startproc
	stp	x29, x30, [sp, #-96]!
	stp	x28, x27, [sp, #16]
	mov	x29, sp
	stp	x26, x25, [sp, #32]
	stp	x24, x23, [sp, #48]
	stp	x22, x21, [sp, #64]
	stp	x20, x19, [sp, #80]
	sub	sp, sp, #3072
	str	xzr, [sp], #-176
	.cfi_def_cfa w29, 96
	.cfi_offset w19, -8
	.cfi_offset w20, -16
	.cfi_offset w21, -24
	.cfi_offset w22, -32
	.cfi_offset w23, -40
	.cfi_offset w24, -48
	.cfi_offset w25, -56
	.cfi_offset w26, -64
	.cfi_offset w27, -72
	.cfi_offset w28, -80
	.cfi_offset w30, -88
	.cfi_offset w29, -96
	cmp	x1, #0
	mov	w8, #4096
	mov	x21, x2
	mov	x22, x1
	mov	x20, x0
	csel	x27, x8, xzr, eq
	cmp	x3, #0
	add	x0, sp, #2128
	mov	w1, wzr
	mov	w2, #872
	mov	x19, x5
	mov	x24, x4
	mov	x23, x3
	str	xzr, [sp, #952]
	csel	x28, x8, xzr, eq
	str	xzr, [sp, #944]
	str	wzr, [sp, #960]
	stp	xzr, xzr, [sp, #48]
	str	wzr, [sp, #64]
	bl	memset
	ldr	w8, [x20]
	mov	w9, #257
	movk	w9, #20079, lsl #16
	cmp	w8, w9
	b.ne	.Lnoise_BB94_8
	ldrh	w2, [x20, #420]
	cmp	x2, #416
	b.hi	.Lnoise_BB94_8
	ldrb	w8, [x20, #846]
	cmp	w8, #8
	b.hi	.Lnoise_BB94_8
	ldrb	w8, [x20, #557]
	cmp	w8, #9
	b.hi	.Lnoise_BB94_8
	add	x0, sp, #1840
	add	x1, x20, #4
	add	x25, sp, #1840
	bl	"noise_c::patterns::pattern_of"
	ldrb	w8, [sp, #1840]
	cbnz	w8, .Lnoise_BB94_8
	add	x0, sp, #2128
	add	x2, x25, #8
	mov	x1, x20
	add	x25, sp, #2128
	bl	"noise_c::from_c::restored"
	ldrb	w26, [sp, #2128]
	add	x0, sp, #80
	add	x1, x25, #8
	mov	w2, #864
	bl	memcpy
	cmp	w26, #1
	b.ne	.Lnoise_BB94_8
	add	x0, sp, #976
	add	x1, sp, #80
	mov	w2, #864
	bl	memcpy
	ldrb	w8, [sp, #1665]
	tbz	w8, #0, .Lnoise_BB94_10
	mov	w0, #13
	b	.Lnoise_BB94_9
.Lnoise_BB94_8:
	mov	w0, #23
.Lnoise_BB94_9:
	add	sp, sp, #3248
	ldp	x20, x19, [sp, #80]
	ldp	x22, x21, [sp, #64]
	ldp	x24, x23, [sp, #48]
	ldp	x26, x25, [sp, #32]
	ldp	x28, x27, [sp, #16]
	ldp	x29, x30, [sp], #96
	ret
.Lnoise_BB94_10:
	ldrb	w8, [sp, #1664]
	ldr	x9, [sp, #1240]
	cmp	x9, x8
	b.ne	.Lnoise_BB94_12
	mov	w0, #12
	b	.Lnoise_BB94_9
.Lnoise_BB94_12:
	ldrb	w9, [sp, #1280]
	and	w8, w8, #0x1
	cmp	w9, #0
	cset	w9, eq
	cmp	w9, w8
	b.eq	.Lnoise_BB94_15
	ldrh	w8, [sp, #1720]
	mvn	w9, w8
	cmp	x21, w9, uxth
	b.ls	.Lnoise_BB94_16
	mov	w0, #11
	b	.Lnoise_BB94_9
.Lnoise_BB94_15:
	mov	w0, #10
	b	.Lnoise_BB94_9
.Lnoise_BB94_16:
	add	x8, x21, x8
	cmp	x24, x8
	b.hs	.Lnoise_BB94_18
	str	x8, [x19, #8]
	mov	w0, #18
	b	.Lnoise_BB94_9
.Lnoise_BB94_18:
	ldr	x8, [sp, #1648]
	ldr	x25, [sp, #1656]
	add	x9, sp, #976
	ldr	x26, [sp, #1712]
	add	x0, x9, #696
	sub	x2, x8, x25
	mov	x1, x26
	str	x2, [sp, #40]
	bl	"noise_handshake::layout::psk_after"
	movi	v0.2d, #0000000000000000
	tst	w0, #0xff
	b.eq	.Lnoise_BB94_21
	add	x11, sp, #976
	and	w8, w0, #0xff
	and	x9, x1, #0xff
	add	x10, x11, x25, lsl #5
	cmp	w8, #1
	ldr	x4, [sp, #40]
	csel	x6, x9, xzr, eq
	add	x0, sp, #2128
	add	x1, x11, #312
	add	x2, x11, #272
	add	x3, x10, #384
	add	x5, x11, #696
	strh	wzr, [sp, #2160]
	str	q0, [sp, #2144]
	str	q0, [sp, #2128]
	bl	"noise_handshake::writer::write_lacking::<#9bbb2dae5a99aff0>"
	ldrb	w11, [sp, #2128]
	add	x10, sp, #2128
	ldrb	w8, [sp, #2129]
	ldur	q0, [x10, #14]
	ldur	w9, [x10, #2]
	ldur	w12, [x10, #30]
	ldur	x10, [x10, #6]
	cmp	w11, #1
	stur	q0, [x29, #-208]
	stur	w12, [x29, #-192]
	b.ne	.Lnoise_BB94_24
	ldur	q0, [x29, #-208]
	ldur	w11, [x29, #-192]
	b	.Lnoise_BB94_23
.Lnoise_BB94_21:
	add	x8, sp, #976
	ldr	x4, [sp, #40]
	add	x0, sp, #2128
	add	x10, x8, #384
	add	x9, x8, #384
	add	x1, x8, #312
	add	x3, x10, x25, lsl #5
	add	x2, x8, #272
	add	x5, x8, #696
	mov	x6, x26
	strh	wzr, [sp, #2160]
	str	x9, [sp, #32]
	str	q0, [sp, #2144]
	str	q0, [sp, #2128]
	bl	"noise_handshake::writer::write_lacking::<#9bbb2dae5a99aff0>"
	ldrb	w11, [sp, #2128]
	add	x13, sp, #2128
	ldrb	w8, [sp, #2129]
	ldur	q0, [x13, #14]
	ldur	w9, [x13, #2]
	ldur	w12, [x13, #30]
	ldur	x10, [x13, #6]
	cmp	w11, #1
	str	q0, [sp, #1840]
	str	w12, [sp, #1856]
	b.ne	.Lnoise_BB94_26
	ldr	q0, [sp, #1840]
	ldr	w11, [sp, #1856]
.Lnoise_BB94_23:
	str	q0, [sp, #944]
	mov	w0, #20
	str	q0, [sp, #48]
	ldr	q0, [sp, #944]
	strb	w8, [x19, #17]
	str	w11, [sp, #64]
	str	w11, [sp, #960]
	stur	w9, [x19, #18]
	stur	x10, [x19, #22]
	stur	q0, [x19, #30]
	stur	w11, [x19, #46]
	b	.Lnoise_BB94_9
.Lnoise_BB94_24:
	ldrb	w8, [sp, #1321]
	cmp	w8, #1
	b.ne	.Lnoise_BB94_28
	add	x9, sp, #976
	add	x10, sp, #976
	add	x9, x9, #358
	add	x11, x10, #346
	ldr	q0, [x9]
	ldr	w12, [x9, #16]
	ldr	w10, [x11]
	ldur	x9, [x11, #4]
	str	q0, [sp, #2128]
	str	w12, [sp, #2144]
	b	.Lnoise_BB94_29
.Lnoise_BB94_26:
	movi	v1.2d, #0000000000000000
	ldr	q0, [sp, #1728]
	ldr	q2, [sp, #1744]
	add	x11, sp, #976
	ldrb	w8, [sp, #1792]
	ldrb	w12, [sp, #1288]
	stp	q0, q2, [x29, #-128]
	ldr	q0, [sp, #1760]
	add	x10, x11, #817
	add	x9, x11, #817
	strb	w8, [sp, #2192]
	ldr	x8, [sp, #1832]
	stp	q1, q1, [x29, #-208]
	ldrb	w26, [sp, #1321]
	add	x0, sp, #2128
	stp	q1, q1, [x29, #-176]
	ldr	q1, [sp, #1776]
	add	x1, sp, #1840
	str	x9, [sp, #24]
	add	x9, x11, #313
	ldr	x6, [sp, #1712]
	stp	q0, q1, [x29, #-96]
	add	x7, x23, x28
	add	x25, x23, x28
	ldp	q1, q0, [x29, #-96]
	str	x9, [sp, #8]
	str	x8, [sp, #2232]
	add	x8, sp, #1840
	add	x9, x11, #346
	str	x9, [sp, #16]
	str	q0, [sp, #2176]
	ldp	q2, q0, [x29, #-128]
	str	q1, [sp, #2160]
	sturh	wzr, [x29, #-144]
	str	q0, [sp, #2144]
	ldp	q1, q0, [x10]
	add	x10, x11, #313
	str	q2, [sp, #2128]
	ldr	x11, [sp, #32]
	str	wzr, [sp, #2228]
	stur	q0, [x13, #81]
	stur	q1, [x13, #65]
	ldp	q0, q1, [x10]
	ldr	x10, [sp, #1648]
	stur	wzr, [x13, #97]
	str	w12, [sp, #40]
	stur	q1, [x8, #17]
	ldp	q1, q2, [x9]
	ldr	x9, [sp, #1656]
	stur	q0, [x8, #1]
	strb	w12, [sp, #1840]
	stur	q2, [x8, #50]
	add	x3, x11, x9, lsl #5
	sub	x4, x10, x9
	stur	q1, [x8, #34]
	add	x8, sp, #976
	add	x2, x8, #272
	add	x5, x8, #696
	strb	w26, [sp, #1873]
	str	x24, [sp]
	bl	"noise_handshake::writer::write_tokens::<#3dfcfe118667ed30>"
	tst	w0, #0xff
	b.eq	.Lnoise_BB94_30
	mov	w0, #14
	b	.Lnoise_BB94_9
.Lnoise_BB94_28:
	mov	x9, xzr
	mov	w10, wzr
	str	xzr, [sp, #2136]
	str	xzr, [sp, #2128]
	str	wzr, [sp, #2144]
.Lnoise_BB94_29:
	ldr	q0, [sp, #2128]
	stur	x9, [x19, #22]
	mov	w0, #40
	ldr	w9, [sp, #2144]
	stur	w10, [x19, #18]
	stur	q0, [x19, #30]
	stur	w9, [x19, #46]
	strb	w8, [x19, #50]
	b	.Lnoise_BB94_9
.Lnoise_BB94_30:
	mov	x24, x1
	add	x1, x22, x27
	add	x8, x25, x24
	str	x8, [sp, #32]
	sub	x8, x8, x1
	cmp	x8, x21
	b.hs	.Lnoise_BB94_36
	cmp	x21, #7
	b.ls	.Lnoise_BB94_33
	add	x8, x24, x28
	add	x9, x27, x22
	add	x8, x8, x23
	sub	x8, x8, x9
	cmp	x8, #32
	b.hs	.Lnoise_BB94_48
.Lnoise_BB94_33:
	mov	x8, xzr
.Lnoise_BB94_34:
	add	x9, x27, x8
	add	x10, x24, x28
	add	x11, x23, x8
	sub	x8, x21, x8
	add	x9, x22, x9
	add	x10, x11, x10
.Lnoise_BB94_35:
	ldrb	w11, [x9], #1
	subs	x8, x8, #1
	strb	w11, [x10], #1
	b.ne	.Lnoise_BB94_35
	b	.Lnoise_BB94_37
.Lnoise_BB94_36:
	ldr	x0, [sp, #32]
	mov	x2, x21
	bl	memmove
.Lnoise_BB94_37:
	add	x22, sp, #2128
	add	x8, sp, #2128
	ldr	x4, [sp, #32]
	sub	x0, x29, #32
	add	x1, x8, #64
	add	x2, x22, #32
	mov	w3, #32
	mov	x5, x21
	stp	xzr, xzr, [x29, #-32]
	bl	"noise_state::cipher::CipherState::encrypt"
	ldurb	w8, [x29, #-32]
	cbnz	w8, .Lnoise_BB94_57
	ldur	x21, [x29, #-24]
	ldr	x2, [sp, #32]
	add	x27, sp, #1840
	sub	x0, x29, #64
	add	x1, x22, #32
	sub	x23, x29, #208
	mov	x3, x21
	orr	x25, x27, #0x1
	bl	"noise_state::symmetric::hash_of_both"
	ldp	q0, q1, [x29, #-64]
	add	x0, sp, #976
	ldr	w8, [sp, #40]
	add	x1, sp, #2128
	sub	x2, x29, #208
	sturb	w26, [x29, #-175]
	add	x21, x21, x24
	stp	q0, q1, [x22, #32]
	ldp	q2, q0, [x25]
	ldur	q1, [x27, #50]
	sturb	w8, [x29, #-208]
	stur	q0, [x23, #17]
	ldur	q0, [x27, #34]
	stur	q2, [x23, #1]
	stur	q0, [x23, #34]
	stur	q1, [x23, #50]
	bl	"noise_handshake::handshake::Handshake::go_on::<#9bbb2dae5a99aff0>"
	ldrb	w9, [sp, #1288]
	ldr	w13, [sp, #1648]
	ldr	w14, [sp, #1656]
	ldrb	w10, [sp, #1321]
	stp	xzr, x21, [x19]
	cmp	w9, #1
	b.ne	.Lnoise_BB94_40
	ldr	x8, [sp, #8]
	ldp	q0, q1, [x8]
	str	q0, [sp, #1840]
	str	q1, [sp, #1856]
	b	.Lnoise_BB94_41
.Lnoise_BB94_40:
	movi	v0.2d, #0000000000000000
	str	q0, [sp, #1856]
	str	q0, [sp, #1840]
.Lnoise_BB94_41:
	ldrb	w8, [sp, #1792]
	ldrb	w12, [sp, #1664]
	add	x15, x20, #492
	ldrb	w11, [sp, #1665]
	ldr	q0, [sp, #1840]
	cmp	w10, #1
	strb	w9, [x20, #491]
	ldr	q1, [sp, #1856]
	sub	w13, w13, w14
	ldr	x9, [sp, #1832]
	stp	q0, q1, [x15]
	b.ne	.Lnoise_BB94_43
	ldr	x14, [sp, #16]
	ldp	q0, q1, [x14]
	str	q0, [sp, #2128]
	str	q1, [sp, #2144]
	b	.Lnoise_BB94_44
.Lnoise_BB94_43:
	movi	v0.2d, #0000000000000000
	str	q0, [sp, #2144]
	str	q0, [sp, #2128]
.Lnoise_BB94_44:
	ldr	q0, [sp, #2128]
	ldr	q1, [sp, #2144]
	cmp	w8, #1
	strb	w10, [x20, #524]
	add	x10, x20, #525
	strb	w12, [x20, #424]
	add	x12, sp, #976
	str	q0, [sp, #1840]
	str	q1, [sp, #1856]
	stp	q0, q1, [x10]
	ldp	q0, q1, [x12, #752]
	add	x10, x20, #1367
	strb	w13, [x20, #557]
	strb	w11, [x20, #423]
	stp	q0, q1, [x10]
	ldp	q2, q0, [x12, #784]
	add	x10, x20, #1399
	stp	q2, q0, [x10]
	b.ne	.Lnoise_BB94_46
	ldr	x10, [sp, #24]
	ldp	q0, q1, [x10]
	str	q0, [sp, #2128]
	str	q1, [sp, #2144]
	b	.Lnoise_BB94_47
.Lnoise_BB94_46:
	movi	v0.2d, #0000000000000000
	str	q0, [sp, #2144]
	str	q0, [sp, #2128]
.Lnoise_BB94_47:
	ldr	q0, [sp, #2128]
	ldr	q1, [sp, #2144]
	mov	w0, wzr
	strb	w8, [x20, #1431]
	add	x8, x20, #1432
	str	q0, [sp, #1840]
	str	q1, [sp, #1856]
	stp	q0, q1, [x8]
	str	x9, [x20, #1464]
	b	.Lnoise_BB94_9
.Lnoise_BB94_48:
	cmp	x21, #32
	b.hs	.Lnoise_BB94_50
	mov	x8, xzr
	b	.Lnoise_BB94_54
.Lnoise_BB94_50:
	add	x10, x24, x28
	add	x11, x27, x22
	and	x9, x21, #0x18
	add	x12, x10, x23
	and	x8, x21, #0xffffffffffffffe0
	add	x10, x11, #16
	add	x11, x12, #16
	and	x12, x21, #0xffffffffffffffe0
.Lnoise_BB94_51:
	ldp	q0, q1, [x10, #-16]
	subs	x12, x12, #32
	add	x10, x10, #32
	stp	q0, q1, [x11, #-16]
	add	x11, x11, #32
	b.ne	.Lnoise_BB94_51
	cmp	x21, x8
	b.eq	.Lnoise_BB94_37
	cbz	x9, .Lnoise_BB94_34
.Lnoise_BB94_54:
	mov	x9, x8
	and	x8, x21, #0xfffffffffffffff8
	add	x11, x24, x28
	add	x10, x27, x9
	add	x12, x23, x9
	sub	x9, x9, x8
	add	x10, x22, x10
	add	x11, x12, x11
.Lnoise_BB94_55:
	ldr	d0, [x10], #8
	adds	x9, x9, #8
	str	d0, [x11], #8
	b.ne	.Lnoise_BB94_55
	cmp	x21, x8
	b.ne	.Lnoise_BB94_34
	b	.Lnoise_BB94_37
.Lnoise_BB94_57:
	brk	#0x1
.Lnoise_func_end94:
	.size	noise_write, .Lnoise_func_end94-noise_write
	.cfi_endproc

	.type	.Lnoise_static.0,@object
	.section	.rodata..Lnoise_static.0,"a",@progbits
.Lnoise_static.0:
	.zero	15
	.size	.Lnoise_static.0, 15

	.type	.Lnoise_static.1,@object
	.section	.rodata..Lnoise_static.1,"a",@progbits
.Lnoise_static.1:
	.size	.Lnoise_static.1, 0

	.type	.Lnoise_static.2,@object
	.section	.rodata.str1.1,"aMS",@progbits,1
.Lnoise_static.2:
	.zero	1
	.size	.Lnoise_static.2, 1

	.type	.Lnoise_static.4,@object
	.section	.rodata..Lnoise_static.4,"a",@progbits
.Lnoise_static.4:
	.asciz	"The call succeeded.\000\000\000\000\000\000\000\000\000\000\000\000\000\000\000\000\000\000\000\000\000\000\000\000\000\000\000\000\000\000\000\000\000\000\000\000\000\000\000\000\000\000\000\000\000\000\000\000\000\000\000\000\000\000\000\000\000\000\000\000"
	.size	.Lnoise_static.4, 80

	.type	.Lnoise_static.5,@object
	.section	.rodata..Lnoise_static.5,"a",@progbits
.Lnoise_static.5:
	.asciz	"No fundamental pattern with 25519, ChaChaPoly, SHA256 has this name.\000\000\000\000\000\000\000\000\000\000\000"
	.size	.Lnoise_static.5, 80

	.type	.Lnoise_static.6,@object
	.section	.rodata..Lnoise_static.6,"a",@progbits
.Lnoise_static.6:
	.asciz	"The pattern text has a fault: noise_check_pattern says where.\000\000\000\000\000\000\000\000\000\000\000\000\000\000\000\000\000\000"
	.size	.Lnoise_static.6, 80

	.type	.Lnoise_static.7,@object
	.section	.rodata..Lnoise_static.7,"a",@progbits
.Lnoise_static.7:
	.asciz	"The setup lacks this party's ephemeral public key.\000\000\000\000\000\000\000\000\000\000\000\000\000\000\000\000\000\000\000\000\000\000\000\000\000\000\000\000\000"
	.size	.Lnoise_static.7, 80

	.type	.Lnoise_static.8,@object
	.section	.rodata..Lnoise_static.8,"a",@progbits
.Lnoise_static.8:
	.asciz	"The setup lacks this party's static public key.\000\000\000\000\000\000\000\000\000\000\000\000\000\000\000\000\000\000\000\000\000\000\000\000\000\000\000\000\000\000\000\000"
	.size	.Lnoise_static.8, 80

	.type	.Lnoise_static.9,@object
	.section	.rodata..Lnoise_static.9,"a",@progbits
.Lnoise_static.9:
	.asciz	"The setup lacks a key of the other party's pre-message.\000\000\000\000\000\000\000\000\000\000\000\000\000\000\000\000\000\000\000\000\000\000\000\000"
	.size	.Lnoise_static.9, 80

	.type	.Lnoise_static.10,@object
	.section	.rodata..Lnoise_static.10,"a",@progbits
.Lnoise_static.10:
	.asciz	"The setup has a remote key that isn't in a pre-message.\000\000\000\000\000\000\000\000\000\000\000\000\000\000\000\000\000\000\000\000\000\000\000\000"
	.size	.Lnoise_static.10, 80

	.type	.Lnoise_static.11,@object
	.section	.rodata..Lnoise_static.11,"a",@progbits
.Lnoise_static.11:
	.asciz	"There are more psks than psk tokens.\000\000\000\000\000\000\000\000\000\000\000\000\000\000\000\000\000\000\000\000\000\000\000\000\000\000\000\000\000\000\000\000\000\000\000\000\000\000\000\000\000\000\000"
	.size	.Lnoise_static.11, 80

	.type	.Lnoise_static.12,@object
	.section	.rodata..Lnoise_static.12,"a",@progbits
.Lnoise_static.12:
	.asciz	"It is the other party's turn.\000\000\000\000\000\000\000\000\000\000\000\000\000\000\000\000\000\000\000\000\000\000\000\000\000\000\000\000\000\000\000\000\000\000\000\000\000\000\000\000\000\000\000\000\000\000\000\000\000\000"
	.size	.Lnoise_static.12, 80

	.type	.Lnoise_static.13,@object
	.section	.rodata..Lnoise_static.13,"a",@progbits
.Lnoise_static.13:
	.asciz	"The message would be or is too long.\000\000\000\000\000\000\000\000\000\000\000\000\000\000\000\000\000\000\000\000\000\000\000\000\000\000\000\000\000\000\000\000\000\000\000\000\000\000\000\000\000\000\000"
	.size	.Lnoise_static.13, 80

	.type	.Lnoise_static.14,@object
	.section	.rodata..Lnoise_static.14,"a",@progbits
.Lnoise_static.14:
	.asciz	"All messages of the handshake have passed.\000\000\000\000\000\000\000\000\000\000\000\000\000\000\000\000\000\000\000\000\000\000\000\000\000\000\000\000\000\000\000\000\000\000\000\000\000"
	.size	.Lnoise_static.14, 80

	.type	.Lnoise_static.15,@object
	.section	.rodata..Lnoise_static.15,"a",@progbits
.Lnoise_static.15:
	.asciz	"The handshake has ended: a message was refused, or it was finished.\000\000\000\000\000\000\000\000\000\000\000\000"
	.size	.Lnoise_static.15, 80

	.type	.Lnoise_static.16,@object
	.section	.rodata..Lnoise_static.16,"a",@progbits
.Lnoise_static.16:
	.asciz	"A result of X25519 is missing in a struct that was changed.\000\000\000\000\000\000\000\000\000\000\000\000\000\000\000\000\000\000\000\000"
	.size	.Lnoise_static.16, 80

	.type	.Lnoise_static.17,@object
	.section	.rodata..Lnoise_static.17,"a",@progbits
.Lnoise_static.17:
	.asciz	"The message has too few bytes.\000\000\000\000\000\000\000\000\000\000\000\000\000\000\000\000\000\000\000\000\000\000\000\000\000\000\000\000\000\000\000\000\000\000\000\000\000\000\000\000\000\000\000\000\000\000\000\000\000"
	.size	.Lnoise_static.17, 80

	.type	.Lnoise_static.18,@object
	.section	.rodata..Lnoise_static.18,"a",@progbits
.Lnoise_static.18:
	.asciz	"A tag is wrong: keys, psks or prologues differ, or bytes changed.\000\000\000\000\000\000\000\000\000\000\000\000\000\000"
	.size	.Lnoise_static.18, 80

	.type	.Lnoise_static.19,@object
	.section	.rodata..Lnoise_static.19,"a",@progbits
.Lnoise_static.19:
	.asciz	"The nonce is 2^64 - 1: this key encrypts and decrypts no more.\000\000\000\000\000\000\000\000\000\000\000\000\000\000\000\000\000"
	.size	.Lnoise_static.19, 80

	.type	.Lnoise_static.20,@object
	.section	.rodata..Lnoise_static.20,"a",@progbits
.Lnoise_static.20:
	.asciz	"The buffer is too short for the message.\000\000\000\000\000\000\000\000\000\000\000\000\000\000\000\000\000\000\000\000\000\000\000\000\000\000\000\000\000\000\000\000\000\000\000\000\000\000\000"
	.size	.Lnoise_static.20, 80

	.type	.Lnoise_static.21,@object
	.section	.rodata..Lnoise_static.21,"a",@progbits
.Lnoise_static.21:
	.asciz	"Messages of the handshake are still due.\000\000\000\000\000\000\000\000\000\000\000\000\000\000\000\000\000\000\000\000\000\000\000\000\000\000\000\000\000\000\000\000\000\000\000\000\000\000\000"
	.size	.Lnoise_static.21, 80

	.type	.Lnoise_static.22,@object
	.section	.rodata..Lnoise_static.22,"a",@progbits
.Lnoise_static.22:
	.asciz	"A result of X25519 is needed: pass it to noise_answer; call again.\000\000\000\000\000\000\000\000\000\000\000\000\000"
	.size	.Lnoise_static.22, 80

	.type	.Lnoise_static.23,@object
	.section	.rodata..Lnoise_static.23,"a",@progbits
.Lnoise_static.23:
	.asciz	"In a one-way pattern only the initiator sends.\000\000\000\000\000\000\000\000\000\000\000\000\000\000\000\000\000\000\000\000\000\000\000\000\000\000\000\000\000\000\000\000\000"
	.size	.Lnoise_static.23, 80

	.type	.Lnoise_static.24,@object
	.section	.rodata..Lnoise_static.24,"a",@progbits
.Lnoise_static.24:
	.asciz	"The struct holds no state that a call could have made.\000\000\000\000\000\000\000\000\000\000\000\000\000\000\000\000\000\000\000\000\000\000\000\000\000"
	.size	.Lnoise_static.24, 80

	.type	.Lnoise_static.25,@object
	.section	.rodata..Lnoise_static.25,"a",@progbits
.Lnoise_static.25:
	.asciz	"The prologue, message or associated data has more than 65535 bytes.\000\000\000\000\000\000\000\000\000\000\000\000"
	.size	.Lnoise_static.25, 80

	.type	.Lnoise_static.26,@object
	.section	.rodata..Lnoise_static.26,"a",@progbits
.Lnoise_static.26:
	.asciz	"The window is not 64, 256 or 1024.\000\000\000\000\000\000\000\000\000\000\000\000\000\000\000\000\000\000\000\000\000\000\000\000\000\000\000\000\000\000\000\000\000\000\000\000\000\000\000\000\000\000\000\000\000"
	.size	.Lnoise_static.26, 80

	.type	.Lnoise_static.27,@object
	.section	.rodata..Lnoise_static.27,"a",@progbits
.Lnoise_static.27:
	.asciz	"The datagram has the nonce 2^64 - 1, which no datagram may have.\000\000\000\000\000\000\000\000\000\000\000\000\000\000\000"
	.size	.Lnoise_static.27, 80

	.type	.Lnoise_static.28,@object
	.section	.rodata..Lnoise_static.28,"a",@progbits
.Lnoise_static.28:
	.asciz	"The datagram is older than the window.\000\000\000\000\000\000\000\000\000\000\000\000\000\000\000\000\000\000\000\000\000\000\000\000\000\000\000\000\000\000\000\000\000\000\000\000\000\000\000\000\000"
	.size	.Lnoise_static.28, 80

	.type	.Lnoise_static.29,@object
	.section	.rodata..Lnoise_static.29,"a",@progbits
.Lnoise_static.29:
	.asciz	"A datagram with this nonce was opened before.\000\000\000\000\000\000\000\000\000\000\000\000\000\000\000\000\000\000\000\000\000\000\000\000\000\000\000\000\000\000\000\000\000\000"
	.size	.Lnoise_static.29, 80

	.type	.Lnoise_static.30,@object
	.section	.rodata..Lnoise_static.30,"a",@progbits
.Lnoise_static.30:
	.asciz	"A payload of this length can not be written now.\000\000\000\000\000\000\000\000\000\000\000\000\000\000\000\000\000\000\000\000\000\000\000\000\000\000\000\000\000\000\000"
	.size	.Lnoise_static.30, 80

	.type	.Lnoise_static.31,@object
	.section	.rodata..Lnoise_static.31,"a",@progbits
.Lnoise_static.31:
	.asciz	"Line 1 isn't a base name, its modifiers in order, and a colon.\000\000\000\000\000\000\000\000\000\000\000\000\000\000\000\000\000"
	.size	.Lnoise_static.31, 80

	.type	.Lnoise_static.32,@object
	.section	.rodata..Lnoise_static.32,"a",@progbits
.Lnoise_static.32:
	.asciz	"The line does not begin with two spaces, an arrow and a space.\000\000\000\000\000\000\000\000\000\000\000\000\000\000\000\000\000"
	.size	.Lnoise_static.32, 80

	.type	.Lnoise_static.33,@object
	.section	.rodata..Lnoise_static.33,"a",@progbits
.Lnoise_static.33:
	.asciz	"A word of the line is not a token.\000\000\000\000\000\000\000\000\000\000\000\000\000\000\000\000\000\000\000\000\000\000\000\000\000\000\000\000\000\000\000\000\000\000\000\000\000\000\000\000\000\000\000\000\000"
	.size	.Lnoise_static.33, 80

	.type	.Lnoise_static.34,@object
	.section	.rodata..Lnoise_static.34,"a",@progbits
.Lnoise_static.34:
	.asciz	"A pre-message has tokens other than e and s, or is misplaced.\000\000\000\000\000\000\000\000\000\000\000\000\000\000\000\000\000\000"
	.size	.Lnoise_static.34, 80

	.type	.Lnoise_static.35,@object
	.section	.rodata..Lnoise_static.35,"a",@progbits
.Lnoise_static.35:
	.asciz	"The line is a message of the wrong party.\000\000\000\000\000\000\000\000\000\000\000\000\000\000\000\000\000\000\000\000\000\000\000\000\000\000\000\000\000\000\000\000\000\000\000\000\000\000"
	.size	.Lnoise_static.35, 80

	.type	.Lnoise_static.36,@object
	.section	.rodata..Lnoise_static.36,"a",@progbits
.Lnoise_static.36:
	.asciz	"The psk tokens are not where the heading says.\000\000\000\000\000\000\000\000\000\000\000\000\000\000\000\000\000\000\000\000\000\000\000\000\000\000\000\000\000\000\000\000\000"
	.size	.Lnoise_static.36, 80

	.type	.Lnoise_static.37,@object
	.section	.rodata..Lnoise_static.37,"a",@progbits
.Lnoise_static.37:
	.asciz	"The base name is that of another pattern, a fundamental one.\000\000\000\000\000\000\000\000\000\000\000\000\000\000\000\000\000\000\000"
	.size	.Lnoise_static.37, 80

	.type	.Lnoise_static.38,@object
	.section	.rodata..Lnoise_static.38,"a",@progbits
.Lnoise_static.38:
	.asciz	"A ninth message, no token but psk, or more than eight others.\000\000\000\000\000\000\000\000\000\000\000\000\000\000\000\000\000\000"
	.size	.Lnoise_static.38, 80

	.type	.Lnoise_static.39,@object
	.section	.rodata..Lnoise_static.39,"a",@progbits
.Lnoise_static.39:
	.asciz	"The line has no line feed, or there is no message.\000\000\000\000\000\000\000\000\000\000\000\000\000\000\000\000\000\000\000\000\000\000\000\000\000\000\000\000\000"
	.size	.Lnoise_static.39, 80

	.type	.Lnoise_static.40,@object
	.section	.rodata..Lnoise_static.40,"a",@progbits
.Lnoise_static.40:
	.asciz	"The pattern breaks a rule of validity.\000\000\000\000\000\000\000\000\000\000\000\000\000\000\000\000\000\000\000\000\000\000\000\000\000\000\000\000\000\000\000\000\000\000\000\000\000\000\000\000\000"
	.size	.Lnoise_static.40, 80

	.type	.Lnoise_static.41,@object
	.section	.rodata..Lnoise_static.41,"a",@progbits
.Lnoise_static.41:
	.asciz	"A psk is needed: pass it to noise_set_psk; call again.\000\000\000\000\000\000\000\000\000\000\000\000\000\000\000\000\000\000\000\000\000\000\000\000\000"
	.size	.Lnoise_static.41, 80

	.type	.Lnoise_static.42,@object
	.section	.rodata..Lnoise_static.42,"a",@progbits
.Lnoise_static.42:
	.asciz	"The other party has ended the stream, and all of it came.\000\000\000\000\000\000\000\000\000\000\000\000\000\000\000\000\000\000\000\000\000\000"
	.size	.Lnoise_static.42, 80

	.type	.Lnoise_static.43,@object
	.section	.rodata..Lnoise_static.43,"a",@progbits
.Lnoise_static.43:
	.asciz	"The frame is not complete.\000\000\000\000\000\000\000\000\000\000\000\000\000\000\000\000\000\000\000\000\000\000\000\000\000\000\000\000\000\000\000\000\000\000\000\000\000\000\000\000\000\000\000\000\000\000\000\000\000\000\000\000\000"
	.size	.Lnoise_static.43, 80

	.type	.Lnoise_static.44,@object
	.section	.rodata..Lnoise_static.44,"a",@progbits
.Lnoise_static.44:
	.asciz	"The stream was ended or refused before.\000\000\000\000\000\000\000\000\000\000\000\000\000\000\000\000\000\000\000\000\000\000\000\000\000\000\000\000\000\000\000\000\000\000\000\000\000\000\000\000"
	.size	.Lnoise_static.44, 80

	.type	.Lnoise_static.45,@object
	.section	.rodata..Lnoise_static.45,"a",@progbits
.Lnoise_static.45:
	.asciz	"The connection ended before the stream did.\000\000\000\000\000\000\000\000\000\000\000\000\000\000\000\000\000\000\000\000\000\000\000\000\000\000\000\000\000\000\000\000\000\000\000\000"
	.size	.Lnoise_static.45, 80

	.type	.Lnoise_static.46,@object
	.section	.rodata..Lnoise_static.46,"a",@progbits
.Lnoise_static.46:
	.asciz	"A buffer that the call writes to overlaps another of its buffers.\000\000\000\000\000\000\000\000\000\000\000\000\000\000"
	.size	.Lnoise_static.46, 80

	.type	.Lnoise_static.47,@object
	.section	.rodata..Lnoise_static.47,"a",@progbits
.Lnoise_static.47:
	.asciz	"This number is not a code of the library.\000\000\000\000\000\000\000\000\000\000\000\000\000\000\000\000\000\000\000\000\000\000\000\000\000\000\000\000\000\000\000\000\000\000\000\000\000\000"
	.size	.Lnoise_static.47, 80

	.type	.Lnoise_static.51,@object
	.section	.rodata..Lnoise_static.51,"a",@progbits
.Lnoise_static.51:
	.ascii	"psk"
	.size	.Lnoise_static.51, 3

	.type	.Lnoise_static.82,@object
	.section	.rodata..Lnoise_static.82,"a",@progbits
.Lnoise_static.82:
	.ascii	"  ...\n"
	.size	.Lnoise_static.82, 6

	.type	.Lnoise_static.85,@object
	.section	.rodata..Lnoise_static.85,"a",@progbits
.Lnoise_static.85:
	.ascii	", "
	.size	.Lnoise_static.85, 2

	.type	.Lnoise_static.88,@object
	.section	.rodata..Lnoise_static.88,"a",@progbits
.Lnoise_static.88:
	.ascii	"->"
	.size	.Lnoise_static.88, 2

	.type	.Lnoise_static.89,@object
	.section	.rodata..Lnoise_static.89,"a",@progbits
.Lnoise_static.89:
	.ascii	"<-"
	.size	.Lnoise_static.89, 2

	.type	.Lnoise_static.90,@object
	.section	.rodata..Lnoise_static.90,"a",@progbits
.Lnoise_static.90:
	.byte	101
	.size	.Lnoise_static.90, 1

	.type	.Lnoise_static.91,@object
	.section	.rodata..Lnoise_static.91,"a",@progbits
.Lnoise_static.91:
	.byte	115
	.size	.Lnoise_static.91, 1

	.type	.Lnoise_static.92,@object
	.section	.rodata..Lnoise_static.92,"a",@progbits
.Lnoise_static.92:
	.zero	2,101
	.size	.Lnoise_static.92, 2

	.type	.Lnoise_static.93,@object
	.section	.rodata..Lnoise_static.93,"a",@progbits
.Lnoise_static.93:
	.ascii	"es"
	.size	.Lnoise_static.93, 2

	.type	.Lnoise_static.94,@object
	.section	.rodata..Lnoise_static.94,"a",@progbits
.Lnoise_static.94:
	.ascii	"se"
	.size	.Lnoise_static.94, 2

	.type	.Lnoise_static.95,@object
	.section	.rodata..Lnoise_static.95,"a",@progbits
.Lnoise_static.95:
	.zero	2,115
	.size	.Lnoise_static.95, 2

	.type	.Lnoise_static.96,@object
	.section	.rodata..Lnoise_static.96,"a",@progbits
.Lnoise_static.96:
	.ascii	"  ..."
	.size	.Lnoise_static.96, 5

	.type	.Lnoise_static.97,@object
	.section	.rodata..Lnoise_static.97,"a",@progbits
.Lnoise_static.97:
	.ascii	"Noise_"
	.size	.Lnoise_static.97, 6

	.type	.Lnoise_static.98,@object
	.section	.rodata..Lnoise_static.98,"a",@progbits
.Lnoise_static.98:
	.ascii	"_25519_ChaChaPoly_SHA256"
	.size	.Lnoise_static.98, 24

	.type	.Lnoise_static.99,@object
	.section	.rodata..Lnoise_static.99,"a",@progbits
	.p2align	2, 0x0
.Lnoise_static.99:
	.ascii	"\230/\212B\221D7q\317\373\300\265\245\333\265\351[\302V9\361\021\361Y\244\202?\222\325^\034\253\230\252\007\330\001[\203\022\276\2051$\303}\fUt]\276r\376\261\336\200\247\006\334\233t\361\233\301\301i\233\344\206G\276\357\306\235\301\017\314\241\f$o,\351-\252\204tJ\334\251\260\\\332\210\371vRQ>\230m\3061\250\310'\003\260\307\177Y\277\363\013\340\306G\221\247\325Qc\312\006g))\024\205\n\267'8!\033.\374m,M\023\r8STs\ne\273\njv.\311\302\201\205,r\222\241\350\277\242Kf\032\250p\213K\302\243Ql\307\031\350\222\321$\006\231\326\2055\016\364p\240j\020\026\301\244\031\bl7\036LwH'\265\274\2604\263\f\0349J\252\330NO\312\234[\363o.h\356\202\217toc\245x\024x\310\204\b\002\307\214\372\377\276\220\353lP\244\367\243\371\276\362xq\306"
	.size	.Lnoise_static.99, 256

	.type	.Lnoise_static.100,@object
	.section	.rodata..Lnoise_static.100,"a",@progbits
.Lnoise_static.100:
	.asciz	"\200\000\000\000\000\000\000\000\000\000\000\000\000\000\000\000\000\000\000\000\000\000\000\000\000\000\000\000\000\000\000\000\000\000\000\000\000\000\000\000\000\000\000\000\000\000\000\000\000\000\000\000\000\000\000\000\000\000\000\000\000\000\000"
	.size	.Lnoise_static.100, 64

	.type	.Lnoise_static.101,@object
	.section	.rodata..Lnoise_static.101,"a",@progbits
.Lnoise_static.101:
	.byte	3
	.size	.Lnoise_static.101, 1

	.type	.Lnoise_static.102,@object
	.section	.data.rel.ro..Lnoise_static.102,"aw",@progbits
	.p2align	3, 0x0
.Lnoise_static.102:
	.xword	.Lnoise_static.102+16
	.asciz	"\001\000\000\000\000\000\000\000\001\000\000\000\000\000\000"
	.size	.Lnoise_static.102, 24

	.type	.Lnoise_static.103,@object
	.section	.rodata..Lnoise_static.103,"a",@progbits
.Lnoise_static.103:
	.byte	2
	.size	.Lnoise_static.103, 1

	.type	".Lnoise_switch.table.noise_names::text::write::push_token_line.199",@object
	.section	".rodata..Lnoise_switch.table.noise_names::text::write::push_token_line.199","a",@progbits
	.p2align	3, 0x0
".Lnoise_switch.table.noise_names::text::write::push_token_line.199":
	.xword	1
	.xword	1
	.xword	2
	.xword	2
	.xword	2
	.xword	2
	.xword	3
	.size	".Lnoise_switch.table.noise_names::text::write::push_token_line.199", 56

	.type	".Lnoise_switch.table.noise_names::text::write::push_token_line.200",@object
	.section	".data.rel.ro..Lnoise_switch.table.noise_names::text::write::push_token_line.200","aw",@progbits
	.p2align	3, 0x0
".Lnoise_switch.table.noise_names::text::write::push_token_line.200":
	.xword	.Lnoise_static.90
	.xword	.Lnoise_static.91
	.xword	.Lnoise_static.92
	.xword	.Lnoise_static.93
	.xword	.Lnoise_static.94
	.xword	.Lnoise_static.95
	.xword	.Lnoise_static.51
	.size	".Lnoise_switch.table.noise_names::text::write::push_token_line.200", 56

	.type	".Lnoise_switch.table.noise_c::messages::read_next",@object
	.section	".rodata..Lnoise_switch.table.noise_c::messages::read_next","a",@progbits
	.p2align	2, 0x0
".Lnoise_switch.table.noise_c::messages::read_next":
	.word	15
	.word	16
	.word	14
	.size	".Lnoise_switch.table.noise_c::messages::read_next", 12

	.type	.Lnoise_switch.table.noise_cipher_encrypt,@object
	.section	.rodata.cst16,"aM",@progbits,16
	.p2align	2, 0x0
.Lnoise_switch.table.noise_cipher_encrypt:
	.word	17
	.word	16
	.word	15
	.word	11
	.size	.Lnoise_switch.table.noise_cipher_encrypt, 16

	.type	.Lnoise_switch.table.noise_sentence,@object
	.section	.rodata..Lnoise_switch.table.noise_sentence,"a",@progbits
	.p2align	3, 0x0
.Lnoise_switch.table.noise_sentence:
	.xword	19
	.xword	68
	.xword	61
	.xword	41
	.xword	50
	.xword	47
	.xword	55
	.xword	55
	.xword	36
	.xword	41
	.xword	29
	.xword	36
	.xword	42
	.xword	67
	.xword	59
	.xword	30
	.xword	65
	.xword	62
	.xword	40
	.xword	40
	.xword	66
	.xword	41
	.xword	46
	.xword	54
	.xword	67
	.xword	34
	.xword	64
	.xword	38
	.xword	45
	.xword	48
	.xword	62
	.xword	62
	.xword	34
	.xword	61
	.xword	41
	.xword	46
	.xword	60
	.xword	61
	.xword	50
	.xword	38
	.xword	54
	.xword	57
	.xword	26
	.xword	39
	.xword	43
	.xword	65
	.size	.Lnoise_switch.table.noise_sentence, 368

	.type	.Lnoise_switch.table.noise_sentence.201.rel,@object
	.section	.rodata..Lnoise_switch.table.noise_sentence.201.rel,"a",@progbits
	.p2align	2, 0x0
.Lnoise_switch.table.noise_sentence.201.rel:
	.word	.Lnoise_static.4-.Lnoise_switch.table.noise_sentence.201.rel
	.word	.Lnoise_static.5-.Lnoise_switch.table.noise_sentence.201.rel
	.word	.Lnoise_static.6-.Lnoise_switch.table.noise_sentence.201.rel
	.word	.Lnoise_static.47-.Lnoise_switch.table.noise_sentence.201.rel
	.word	.Lnoise_static.7-.Lnoise_switch.table.noise_sentence.201.rel
	.word	.Lnoise_static.8-.Lnoise_switch.table.noise_sentence.201.rel
	.word	.Lnoise_static.9-.Lnoise_switch.table.noise_sentence.201.rel
	.word	.Lnoise_static.10-.Lnoise_switch.table.noise_sentence.201.rel
	.word	.Lnoise_static.11-.Lnoise_switch.table.noise_sentence.201.rel
	.word	.Lnoise_static.47-.Lnoise_switch.table.noise_sentence.201.rel
	.word	.Lnoise_static.12-.Lnoise_switch.table.noise_sentence.201.rel
	.word	.Lnoise_static.13-.Lnoise_switch.table.noise_sentence.201.rel
	.word	.Lnoise_static.14-.Lnoise_switch.table.noise_sentence.201.rel
	.word	.Lnoise_static.15-.Lnoise_switch.table.noise_sentence.201.rel
	.word	.Lnoise_static.16-.Lnoise_switch.table.noise_sentence.201.rel
	.word	.Lnoise_static.17-.Lnoise_switch.table.noise_sentence.201.rel
	.word	.Lnoise_static.18-.Lnoise_switch.table.noise_sentence.201.rel
	.word	.Lnoise_static.19-.Lnoise_switch.table.noise_sentence.201.rel
	.word	.Lnoise_static.20-.Lnoise_switch.table.noise_sentence.201.rel
	.word	.Lnoise_static.21-.Lnoise_switch.table.noise_sentence.201.rel
	.word	.Lnoise_static.22-.Lnoise_switch.table.noise_sentence.201.rel
	.word	.Lnoise_static.47-.Lnoise_switch.table.noise_sentence.201.rel
	.word	.Lnoise_static.23-.Lnoise_switch.table.noise_sentence.201.rel
	.word	.Lnoise_static.24-.Lnoise_switch.table.noise_sentence.201.rel
	.word	.Lnoise_static.25-.Lnoise_switch.table.noise_sentence.201.rel
	.word	.Lnoise_static.26-.Lnoise_switch.table.noise_sentence.201.rel
	.word	.Lnoise_static.27-.Lnoise_switch.table.noise_sentence.201.rel
	.word	.Lnoise_static.28-.Lnoise_switch.table.noise_sentence.201.rel
	.word	.Lnoise_static.29-.Lnoise_switch.table.noise_sentence.201.rel
	.word	.Lnoise_static.30-.Lnoise_switch.table.noise_sentence.201.rel
	.word	.Lnoise_static.31-.Lnoise_switch.table.noise_sentence.201.rel
	.word	.Lnoise_static.32-.Lnoise_switch.table.noise_sentence.201.rel
	.word	.Lnoise_static.33-.Lnoise_switch.table.noise_sentence.201.rel
	.word	.Lnoise_static.34-.Lnoise_switch.table.noise_sentence.201.rel
	.word	.Lnoise_static.35-.Lnoise_switch.table.noise_sentence.201.rel
	.word	.Lnoise_static.36-.Lnoise_switch.table.noise_sentence.201.rel
	.word	.Lnoise_static.37-.Lnoise_switch.table.noise_sentence.201.rel
	.word	.Lnoise_static.38-.Lnoise_switch.table.noise_sentence.201.rel
	.word	.Lnoise_static.39-.Lnoise_switch.table.noise_sentence.201.rel
	.word	.Lnoise_static.40-.Lnoise_switch.table.noise_sentence.201.rel
	.word	.Lnoise_static.41-.Lnoise_switch.table.noise_sentence.201.rel
	.word	.Lnoise_static.42-.Lnoise_switch.table.noise_sentence.201.rel
	.word	.Lnoise_static.43-.Lnoise_switch.table.noise_sentence.201.rel
	.word	.Lnoise_static.44-.Lnoise_switch.table.noise_sentence.201.rel
	.word	.Lnoise_static.45-.Lnoise_switch.table.noise_sentence.201.rel
	.word	.Lnoise_static.46-.Lnoise_switch.table.noise_sentence.201.rel
	.size	.Lnoise_switch.table.noise_sentence.201.rel, 184

	.type	.Lnoise_switch.table.noise_stream_read,@object
	.section	.rodata.cst16,"aM",@progbits,16
	.p2align	2, 0x0
.Lnoise_switch.table.noise_stream_read:
	.word	15
	.word	16
	.word	17
	.word	22
	.size	.Lnoise_switch.table.noise_stream_read, 16

	.type	.Lnoise_switch.table.noise_datagram_open.203,@object
	.section	.rodata..Lnoise_switch.table.noise_datagram_open.203,"a",@progbits
	.p2align	3, 0x0
.Lnoise_switch.table.noise_datagram_open.203:
	.xword	64
	.xword	256
	.xword	1024
	.size	.Lnoise_switch.table.noise_datagram_open.203, 24

	.type	.Lnoise_switch.table.noise_datagram_open.205,@object
	.section	.rodata..Lnoise_switch.table.noise_datagram_open.205,"a",@progbits
	.p2align	3, 0x0
.Lnoise_switch.table.noise_datagram_open.205:
	.xword	2
	.xword	5
	.xword	17
	.size	.Lnoise_switch.table.noise_datagram_open.205, 24

	.type	.Lnoise_switch.table.noise_finish_datagrams,@object
	.section	.rodata..Lnoise_switch.table.noise_finish_datagrams,"a",@progbits
	.p2align	2, 0x0
.Lnoise_switch.table.noise_finish_datagrams:
	.word	64
	.word	256
	.word	1024
	.size	.Lnoise_switch.table.noise_finish_datagrams, 12

	.ident	"rattle logic=dac8208d650f15bf3e2dc313a14fa4c783a3acf887bdfab66e1714b038d9e11b"
	.section	".note.GNU-stack","",@progbits
