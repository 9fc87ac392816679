	.file	"rattle"
	.section	".text.noise_state::cipher::CipherState::decrypt","ax",@progbits
	.p2align	4
	.type	"noise_state::cipher::CipherState::decrypt.v1",@function
"noise_state::cipher::CipherState::decrypt.v1":
	.cfi_startproc
	movzbl	(%rsi), %eax
	cmpb	$1, %al
	jne	.Lnoise_BB0_3
	cmpq	$-1, 40(%rsi)
	je	.Lnoise_BB0_2
.Lnoise_BB0_3:
	movb	$3, %r10b
	cmpq	$65535, %r9
	ja	.Lnoise_BB0_5
	cmpq	$16, %r9
	setb	%r11b
	movb	$2, %r10b
	testb	%al, %r11b
	jne	.Lnoise_BB0_5
	cmpb	$1, %al
	jne	.Lnoise_BB0_9
	pushq	%rbp
	.cfi_def_cfa_offset 16
	pushq	%r15
	.cfi_def_cfa_offset 24
	pushq	%r14
	.cfi_def_cfa_offset 32
	pushq	%r13
	.cfi_def_cfa_offset 40
	pushq	%r12
	.cfi_def_cfa_offset 48
	pushq	%rbx
	.cfi_def_cfa_offset 56
	subq	$392, %rsp
	.cfi_def_cfa_offset 448
	.cfi_offset %rbx, -56
	.cfi_offset %r12, -48
	.cfi_offset %r13, -40
	.cfi_offset %r14, -32
	.cfi_offset %r15, -24
	.cfi_offset %rbp, -16
	movq	%rdi, (%rsp)
	movq	40(%rsi), %rax
	leaq	-16(%r9), %rbx
	movq	-16(%r8,%r9), %rbp
	movq	-8(%r8,%r9), %r13
	leaq	128(%rsp), %r9
	xorps	%xmm0, %xmm0
	movaps	%xmm0, 128(%rsp)
	movaps	%xmm0, 144(%rsp)
	movaps	%xmm0, 160(%rsp)
	movaps	%xmm0, 176(%rsp)
	movaps	%xmm0, 192(%rsp)
	movaps	%xmm0, 208(%rsp)
	movaps	%xmm0, 224(%rsp)
	movaps	%xmm0, 240(%rsp)
	movaps	%xmm0, 256(%rsp)
	movaps	%xmm0, 272(%rsp)
	movaps	%xmm0, 288(%rsp)
	movaps	%xmm0, 304(%rsp)
	movaps	%xmm0, 320(%rsp)
	movaps	%xmm0, 336(%rsp)
	movaps	%xmm0, 352(%rsp)
	movaps	%xmm0, 368(%rsp)
	movups	1(%rsi), %xmm0
	movaps	%xmm0, 80(%rsp)
	movq	%rsi, 8(%rsp)
	movups	17(%rsi), %xmm0
	movaps	%xmm0, 96(%rsp)
	movq	%rax, 112(%rsp)
	movq	$0, 120(%rsp)
	movq	$64, 384(%rsp)
	leaq	80(%rsp), %rdi
	xorl	%esi, %esi
	movq	%rdx, %r14
	movq	%rax, %rdx
	movq	%rcx, %r15
	movq	%r9, %rcx
	movq	%r8, %r12
	callq	"rand_chacha::guts::refill4.v1"
	addq	$4, 120(%rsp)
	movzbl	156(%rsp), %eax
	movaps	128(%rsp), %xmm0
	movdqa	144(%rsp), %xmm1
	movq	$16, 384(%rsp)
	movdqa	%xmm1, 48(%rsp)
	movzwl	61(%rsp), %ecx
	movzbl	63(%rsp), %edx
	movaps	%xmm0, 16(%rsp)
	movq	%xmm1, 32(%rsp)
	pshufd	$238, %xmm1, %xmm0
	movd	%xmm0, 40(%rsp)
	movb	%al, 44(%rsp)
	movw	%cx, 45(%rsp)
	movb	%dl, 47(%rsp)
	leaq	64(%rsp), %rdi
	leaq	16(%rsp), %rsi
	movq	%r14, %rdx
	movq	%r15, %rcx
	movq	%r12, %r14
	movq	%r12, %r8
	movq	%rbx, %r9
	callq	"noise_aead::authenticator::tag.v1"
	xorq	72(%rsp), %r13
	xorq	64(%rsp), %rbp
	orq	%r13, %rbp
	jne	.Lnoise_BB0_11
	leaq	80(%rsp), %rdi
	movq	%r14, %rsi
	movq	%rbx, %rdx
	callq	"noise_aead::keystream::apply.v1"
	movq	8(%rsp), %rax
	incq	40(%rax)
	movq	(%rsp), %rax
	movw	$0, (%rax)
	movq	%rbx, 8(%rax)
	jmp	.Lnoise_BB0_12
.Lnoise_BB0_2:
	.cfi_def_cfa_offset 8
	.cfi_restore %rbx
	.cfi_restore %rbp
	.cfi_restore %r12
	.cfi_restore %r13
	.cfi_restore %r14
	.cfi_restore %r15
	xorl	%r10d, %r10d
.Lnoise_BB0_5:
	movb	$1, (%rdi)
	movb	%r10b, 1(%rdi)
	movq	$0, 8(%rdi)
	retq
.Lnoise_BB0_9:
	movw	$0, (%rdi)
	movq	%r9, 8(%rdi)
	retq
.Lnoise_BB0_11:
	.cfi_def_cfa_offset 448
	.cfi_offset %rbx, -56
	.cfi_offset %rbp, -16
	.cfi_offset %r12, -48
	.cfi_offset %r13, -40
	.cfi_offset %r14, -32
	.cfi_offset %r15, -24
	movq	(%rsp), %rax
	movw	$257, (%rax)
	movq	$0, 8(%rax)
.Lnoise_BB0_12:
	addq	$392, %rsp
	.cfi_def_cfa_offset 56
	popq	%rbx
	.cfi_def_cfa_offset 48
	popq	%r12
	.cfi_def_cfa_offset 40
	popq	%r13
	.cfi_def_cfa_offset 32
	popq	%r14
	.cfi_def_cfa_offset 24
	popq	%r15
	.cfi_def_cfa_offset 16
	popq	%rbp
	.cfi_def_cfa_offset 8
	.cfi_restore %rbx
	.cfi_restore %r12
	.cfi_restore %r13
	.cfi_restore %r14
	.cfi_restore %r15
	.cfi_restore %rbp
	retq
.Lnoise_func_end0:
	.size	"noise_state::cipher::CipherState::decrypt.v1", .Lnoise_func_end0-"noise_state::cipher::CipherState::decrypt.v1"
	.cfi_endproc

	.section	.rodata.cst16,"aM",@progbits,16
	.p2align	4, 0x0
.Lnoise_CPI1_0:
	.quad	2
	.quad	3
.Lnoise_CPI1_1:
	.byte	0
	.byte	0
	.byte	0
	.byte	0
	.byte	0
	.byte	0
	.byte	0
	.byte	0
	.byte	1
	.byte	0
	.byte	0
	.byte	0
	.byte	0
	.byte	0
	.byte	0
	.byte	0
.Lnoise_CPI1_2:
	.long	0
	.long	1
	.long	2
	.long	3
.Lnoise_CPI1_3:
	.long	1797285236
	.long	1797285236
	.long	1797285236
	.long	1797285236
.Lnoise_CPI1_4:
	.long	2036477234
	.long	2036477234
	.long	2036477234
	.long	2036477234
.Lnoise_CPI1_5:
	.long	857760878
	.long	857760878
	.long	857760878
	.long	857760878
.Lnoise_CPI1_6:
	.long	1634760805
	.long	1634760805
	.long	1634760805
	.long	1634760805
	.section	".text.rand_chacha::guts::refill4","ax",@progbits
	.p2align	4
	.type	"rand_chacha::guts::refill4.v1",@function
"rand_chacha::guts::refill4.v1":
	.cfi_startproc
	subq	$120, %rsp
	.cfi_def_cfa_offset 128
	movd	(%rdi), %xmm0
	pshufd	$0, %xmm0, %xmm8
	movd	4(%rdi), %xmm0
	pshufd	$0, %xmm0, %xmm3
	movd	8(%rdi), %xmm0
	pshufd	$0, %xmm0, %xmm9
	movd	12(%rdi), %xmm0
	pshufd	$0, %xmm0, %xmm0
	movdqa	%xmm0, -80(%rsp)
	movd	16(%rdi), %xmm0
	pshufd	$0, %xmm0, %xmm6
	movd	20(%rdi), %xmm0
	pshufd	$0, %xmm0, %xmm7
	movd	24(%rdi), %xmm0
	pshufd	$0, %xmm0, %xmm0
	movdqa	%xmm0, -64(%rsp)
	movd	28(%rdi), %xmm0
	pshufd	$0, %xmm0, %xmm2
	movq	%rsi, %xmm0
	pshufd	$68, %xmm0, %xmm14
	movdqa	.Lnoise_CPI1_0(%rip), %xmm1
	paddq	%xmm14, %xmm1
	paddq	.Lnoise_CPI1_1(%rip), %xmm14
	shufps	$221, %xmm1, %xmm14
	pshufd	$0, %xmm0, %xmm15
	paddd	.Lnoise_CPI1_2(%rip), %xmm15
	movd	%edx, %xmm0
	pshufd	$0, %xmm0, %xmm12
	shrq	$32, %rdx
	movd	%edx, %xmm0
	pshufd	$0, %xmm0, %xmm11
	movdqa	.Lnoise_CPI1_3(%rip), %xmm10
	movdqa	.Lnoise_CPI1_4(%rip), %xmm13
	movdqa	.Lnoise_CPI1_5(%rip), %xmm4
	movdqa	.Lnoise_CPI1_6(%rip), %xmm5
	movl	$10, %eax
	movdqa	%xmm8, -16(%rsp)
	movdqa	%xmm3, -48(%rsp)
	movdqa	%xmm9, -32(%rsp)
	movdqa	-80(%rsp), %xmm1
	movdqa	%xmm6, 16(%rsp)
	movdqa	%xmm7, (%rsp)
	movdqa	-64(%rsp), %xmm0
	movdqa	%xmm0, -112(%rsp)
	movdqa	%xmm2, 80(%rsp)
	movdqa	%xmm2, -96(%rsp)
	movdqa	%xmm15, 48(%rsp)
	movaps	%xmm14, 32(%rsp)
	movdqa	%xmm12, 96(%rsp)
	movdqa	%xmm11, 64(%rsp)
	.p2align	4
.Lnoise_BB1_1:
	paddd	%xmm8, %xmm5
	pxor	%xmm5, %xmm15
	movdqa	%xmm15, %xmm2
	psrld	$16, %xmm2
	pslld	$16, %xmm15
	por	%xmm2, %xmm15
	paddd	%xmm15, %xmm6
	pxor	%xmm6, %xmm8
	movdqa	%xmm8, %xmm2
	psrld	$20, %xmm2
	pslld	$12, %xmm8
	por	%xmm2, %xmm8
	paddd	%xmm8, %xmm5
	pxor	%xmm5, %xmm15
	movdqa	%xmm15, %xmm2
	psrld	$24, %xmm2
	pslld	$8, %xmm15
	por	%xmm2, %xmm15
	paddd	%xmm15, %xmm6
	pxor	%xmm6, %xmm8
	movdqa	%xmm8, %xmm2
	psrld	$25, %xmm2
	pslld	$7, %xmm8
	por	%xmm2, %xmm8
	paddd	%xmm3, %xmm4
	xorps	%xmm4, %xmm14
	movaps	%xmm14, %xmm2
	psrld	$16, %xmm2
	pslld	$16, %xmm14
	por	%xmm2, %xmm14
	paddd	%xmm14, %xmm7
	pxor	%xmm7, %xmm3
	movdqa	%xmm3, %xmm2
	psrld	$20, %xmm2
	pslld	$12, %xmm3
	por	%xmm2, %xmm3
	paddd	%xmm3, %xmm4
	pxor	%xmm4, %xmm14
	movdqa	%xmm14, %xmm2
	psrld	$24, %xmm2
	pslld	$8, %xmm14
	por	%xmm2, %xmm14
	paddd	%xmm14, %xmm7
	movdqa	%xmm7, -128(%rsp)
	pxor	%xmm7, %xmm3
	movdqa	%xmm3, %xmm2
	psrld	$25, %xmm2
	pslld	$7, %xmm3
	por	%xmm2, %xmm3
	paddd	%xmm9, %xmm13
	pxor	%xmm13, %xmm12
	movdqa	%xmm12, %xmm2
	psrld	$16, %xmm2
	pslld	$16, %xmm12
	por	%xmm2, %xmm12
	movdqa	-112(%rsp), %xmm7
	paddd	%xmm12, %xmm7
	pxor	%xmm7, %xmm9
	movdqa	%xmm9, %xmm2
	psrld	$20, %xmm2
	pslld	$12, %xmm9
	por	%xmm2, %xmm9
	paddd	%xmm9, %xmm13
	pxor	%xmm13, %xmm12
	movdqa	%xmm12, %xmm2
	psrld	$24, %xmm2
	pslld	$8, %xmm12
	por	%xmm2, %xmm12
	paddd	%xmm12, %xmm7
	pxor	%xmm7, %xmm9
	movdqa	%xmm9, %xmm2
	psrld	$25, %xmm2
	pslld	$7, %xmm9
	por	%xmm2, %xmm9
	paddd	%xmm1, %xmm10
	pxor	%xmm10, %xmm11
	movdqa	%xmm11, %xmm2
	psrld	$16, %xmm2
	pslld	$16, %xmm11
	por	%xmm2, %xmm11
	movdqa	-96(%rsp), %xmm0
	paddd	%xmm11, %xmm0
	pxor	%xmm0, %xmm1
	movdqa	%xmm1, %xmm2
	psrld	$20, %xmm2
	pslld	$12, %xmm1
	por	%xmm2, %xmm1
	paddd	%xmm1, %xmm10
	pxor	%xmm10, %xmm11
	movdqa	%xmm11, %xmm2
	psrld	$24, %xmm2
	pslld	$8, %xmm11
	por	%xmm2, %xmm11
	paddd	%xmm11, %xmm0
	pxor	%xmm0, %xmm1
	movdqa	%xmm1, %xmm2
	psrld	$25, %xmm2
	pslld	$7, %xmm1
	por	%xmm2, %xmm1
	paddd	%xmm3, %xmm5
	pxor	%xmm5, %xmm11
	movdqa	%xmm11, %xmm2
	psrld	$16, %xmm2
	pslld	$16, %xmm11
	por	%xmm2, %xmm11
	paddd	%xmm11, %xmm7
	pxor	%xmm7, %xmm3
	movdqa	%xmm3, %xmm2
	psrld	$20, %xmm2
	pslld	$12, %xmm3
	por	%xmm2, %xmm3
	paddd	%xmm3, %xmm5
	pxor	%xmm5, %xmm11
	movdqa	%xmm11, %xmm2
	psrld	$24, %xmm2
	pslld	$8, %xmm11
	por	%xmm2, %xmm11
	paddd	%xmm11, %xmm7
	movdqa	%xmm7, -112(%rsp)
	pxor	%xmm7, %xmm3
	movdqa	%xmm3, %xmm2
	psrld	$25, %xmm2
	pslld	$7, %xmm3
	por	%xmm2, %xmm3
	paddd	%xmm9, %xmm4
	pxor	%xmm4, %xmm15
	movdqa	%xmm15, %xmm2
	psrld	$16, %xmm2
	pslld	$16, %xmm15
	por	%xmm2, %xmm15
	paddd	%xmm15, %xmm0
	pxor	%xmm0, %xmm9
	movdqa	%xmm9, %xmm2
	psrld	$20, %xmm2
	pslld	$12, %xmm9
	por	%xmm2, %xmm9
	paddd	%xmm9, %xmm4
	pxor	%xmm4, %xmm15
	movdqa	%xmm15, %xmm2
	psrld	$24, %xmm2
	pslld	$8, %xmm15
	por	%xmm2, %xmm15
	paddd	%xmm15, %xmm0
	movdqa	%xmm0, -96(%rsp)
	pxor	%xmm0, %xmm9
	movdqa	-128(%rsp), %xmm7
	movdqa	%xmm9, %xmm2
	psrld	$25, %xmm2
	pslld	$7, %xmm9
	por	%xmm2, %xmm9
	paddd	%xmm1, %xmm13
	pxor	%xmm13, %xmm14
	movdqa	%xmm14, %xmm2
	psrld	$16, %xmm2
	pslld	$16, %xmm14
	por	%xmm2, %xmm14
	paddd	%xmm14, %xmm6
	pxor	%xmm6, %xmm1
	movdqa	%xmm1, %xmm2
	psrld	$20, %xmm2
	pslld	$12, %xmm1
	por	%xmm2, %xmm1
	paddd	%xmm1, %xmm13
	pxor	%xmm13, %xmm14
	movdqa	%xmm14, %xmm2
	psrld	$24, %xmm2
	pslld	$8, %xmm14
	por	%xmm2, %xmm14
	paddd	%xmm14, %xmm6
	pxor	%xmm6, %xmm1
	movdqa	%xmm1, %xmm2
	psrld	$25, %xmm2
	pslld	$7, %xmm1
	por	%xmm2, %xmm1
	paddd	%xmm8, %xmm10
	pxor	%xmm10, %xmm12
	movdqa	%xmm12, %xmm2
	psrld	$16, %xmm2
	pslld	$16, %xmm12
	por	%xmm2, %xmm12
	paddd	%xmm12, %xmm7
	pxor	%xmm7, %xmm8
	movdqa	%xmm8, %xmm2
	psrld	$20, %xmm2
	pslld	$12, %xmm8
	por	%xmm2, %xmm8
	paddd	%xmm8, %xmm10
	pxor	%xmm10, %xmm12
	movdqa	%xmm12, %xmm2
	psrld	$24, %xmm2
	pslld	$8, %xmm12
	por	%xmm2, %xmm12
	paddd	%xmm12, %xmm7
	pxor	%xmm7, %xmm8
	movdqa	%xmm8, %xmm2
	psrld	$25, %xmm2
	pslld	$7, %xmm8
	por	%xmm2, %xmm8
	decl	%eax
	jne	.Lnoise_BB1_1
	paddd	.Lnoise_CPI1_6(%rip), %xmm5
	paddd	.Lnoise_CPI1_5(%rip), %xmm4
	movdqa	%xmm5, %xmm0
	punpckldq	%xmm4, %xmm0
	paddd	.Lnoise_CPI1_4(%rip), %xmm13
	paddd	.Lnoise_CPI1_3(%rip), %xmm10
	movdqa	%xmm13, %xmm2
	punpckldq	%xmm10, %xmm2
	movdqa	%xmm2, -128(%rsp)
	movdqa	%xmm0, %xmm2
	punpcklqdq	-128(%rsp), %xmm2
	movdqu	%xmm2, (%rcx)
	punpckhqdq	-128(%rsp), %xmm0
	movdqu	%xmm0, 64(%rcx)
	punpckhdq	%xmm4, %xmm5
	punpckhdq	%xmm10, %xmm13
	movdqa	%xmm5, %xmm2
	punpcklqdq	%xmm13, %xmm2
	movdqu	%xmm2, 128(%rcx)
	punpckhqdq	%xmm13, %xmm5
	movdqu	%xmm5, 192(%rcx)
	movdqa	-16(%rsp), %xmm4
	paddd	%xmm8, %xmm4
	movdqa	-48(%rsp), %xmm8
	paddd	%xmm3, %xmm8
	movdqa	-32(%rsp), %xmm5
	paddd	%xmm9, %xmm5
	movdqa	-80(%rsp), %xmm9
	paddd	%xmm1, %xmm9
	movdqa	%xmm4, %xmm1
	punpckldq	%xmm8, %xmm1
	movdqa	%xmm5, %xmm2
	punpckldq	%xmm9, %xmm2
	movdqa	%xmm1, %xmm3
	punpcklqdq	%xmm2, %xmm3
	movdqu	%xmm3, 16(%rcx)
	punpckhqdq	%xmm2, %xmm1
	movdqu	%xmm1, 80(%rcx)
	punpckhdq	%xmm8, %xmm4
	punpckhdq	%xmm9, %xmm5
	movdqa	%xmm4, %xmm1
	punpcklqdq	%xmm5, %xmm1
	movdqu	%xmm1, 144(%rcx)
	punpckhqdq	%xmm5, %xmm4
	movdqu	%xmm4, 208(%rcx)
	movdqa	16(%rsp), %xmm2
	paddd	%xmm6, %xmm2
	movdqa	(%rsp), %xmm3
	paddd	%xmm7, %xmm3
	movdqa	%xmm2, %xmm1
	punpckldq	%xmm3, %xmm1
	movq	%xmm1, 32(%rcx)
	pshufd	$238, %xmm1, %xmm1
	movq	%xmm1, 96(%rcx)
	punpckhdq	%xmm3, %xmm2
	movq	%xmm2, 160(%rcx)
	pshufd	$238, %xmm2, %xmm1
	movq	%xmm1, 224(%rcx)
	movdqa	-64(%rsp), %xmm3
	paddd	-112(%rsp), %xmm3
	movdqa	80(%rsp), %xmm4
	paddd	-96(%rsp), %xmm4
	movdqa	%xmm3, %xmm0
	punpckldq	%xmm4, %xmm0
	movdqa	48(%rsp), %xmm5
	paddd	%xmm15, %xmm5
	paddd	32(%rsp), %xmm14
	movdqa	%xmm5, %xmm1
	punpckldq	%xmm14, %xmm1
	movdqa	%xmm0, %xmm2
	punpcklqdq	%xmm1, %xmm2
	movdqu	%xmm2, 40(%rcx)
	punpckhqdq	%xmm1, %xmm0
	movdqu	%xmm0, 104(%rcx)
	punpckhdq	%xmm4, %xmm3
	punpckhdq	%xmm14, %xmm5
	movdqa	%xmm3, %xmm0
	punpcklqdq	%xmm5, %xmm0
	movdqu	%xmm0, 168(%rcx)
	punpckhqdq	%xmm5, %xmm3
	movdqu	%xmm3, 232(%rcx)
	movdqa	96(%rsp), %xmm1
	paddd	%xmm12, %xmm1
	movdqa	64(%rsp), %xmm2
	paddd	%xmm11, %xmm2
	movdqa	%xmm1, %xmm0
	punpckldq	%xmm2, %xmm0
	movq	%xmm0, 56(%rcx)
	pshufd	$238, %xmm0, %xmm0
	movq	%xmm0, 120(%rcx)
	punpckhdq	%xmm2, %xmm1
	movq	%xmm1, 184(%rcx)
	pshufd	$238, %xmm1, %xmm0
	movq	%xmm0, 248(%rcx)
	addq	$120, %rsp
	.cfi_def_cfa_offset 8
	retq
.Lnoise_func_end1:
	.size	"rand_chacha::guts::refill4.v1", .Lnoise_func_end1-"rand_chacha::guts::refill4.v1"
	.cfi_endproc

	.section	.rodata.cst16,"aM",@progbits,16
	.p2align	4, 0x0
.Lnoise_CPI2_0:
	.quad	1152921487695413247
	.quad	1152921487695413244
.Lnoise_CPI2_1:
	.short	65535
	.short	65535
	.short	65535
	.short	0
	.short	65535
	.short	65535
	.short	65535
	.short	65535
.Lnoise_CPI2_2:
	.short	65535
	.short	0
	.short	65535
	.short	65535
	.short	65535
	.short	65535
	.short	65535
	.short	65535
.Lnoise_CPI2_3:
	.short	65535
	.short	65535
	.short	65535
	.short	65535
	.short	65535
	.short	65535
	.short	65535
	.short	0
.Lnoise_CPI2_4:
	.short	65535
	.short	65535
	.short	65535
	.short	65535
	.short	65535
	.short	0
	.short	65535
	.short	65535
	.section	".text.noise_aead::authenticator::tag","ax",@progbits
	.p2align	4
	.type	"noise_aead::authenticator::tag.v1",@function
"noise_aead::authenticator::tag.v1":
	.cfi_startproc
	pushq	%rbp
	.cfi_def_cfa_offset 16
	pushq	%r15
	.cfi_def_cfa_offset 24
	pushq	%r14
	.cfi_def_cfa_offset 32
	pushq	%r13
	.cfi_def_cfa_offset 40
	pushq	%r12
	.cfi_def_cfa_offset 48
	pushq	%rbx
	.cfi_def_cfa_offset 56
	subq	$200, %rsp
	.cfi_def_cfa_offset 256
	.cfi_offset %rbx, -56
	.cfi_offset %r12, -48
	.cfi_offset %r13, -40
	.cfi_offset %r14, -32
	.cfi_offset %r15, -24
	.cfi_offset %rbp, -16
	movq	%r9, %r14
	movq	%r8, %r13
	movq	%rcx, %r15
	movq	%rdi, 40(%rsp)
	movups	(%rsi), %xmm0
	andps	.Lnoise_CPI2_0(%rip), %xmm0
	movups	16(%rsi), %xmm1
	xorps	%xmm2, %xmm2
	movaps	%xmm2, 80(%rsp)
	movaps	%xmm2, 64(%rsp)
	movaps	%xmm0, 96(%rsp)
	movaps	%xmm1, 112(%rsp)
	movaps	%xmm2, 144(%rsp)
	movaps	%xmm2, 128(%rsp)
	leaq	64(%rsp), %r12
	movq	%r12, %rdi
	movq	%rdx, %rsi
	movq	%rcx, %rdx
	callq	"noise_poly::Poly1305::update"
	movl	%r15d, %edx
	negl	%edx
	andl	$15, %edx
	leaq	.Lnoise_static.0(%rip), %rbp
	movq	%r12, %rdi
	movq	%rbp, %rsi
	callq	"noise_poly::Poly1305::update"
	movq	%r12, %rdi
	movq	%r13, %rsi
	movq	%r14, %rdx
	callq	"noise_poly::Poly1305::update"
	movl	%r14d, %edx
	negl	%edx
	andl	$15, %edx
	movq	%r12, %rdi
	movq	%rbp, %rsi
	callq	"noise_poly::Poly1305::update"
	movq	%r15, 48(%rsp)
	movq	%r14, 56(%rsp)
	leaq	48(%rsp), %rsi
	movl	$16, %r14d
	movl	$16, %edx
	movq	%r12, %rdi
	callq	"noise_poly::Poly1305::update"
	movq	64(%rsp), %r15
	movq	72(%rsp), %r9
	movq	80(%rsp), %rbx
	movq	104(%rsp), %rcx
	movq	96(%rsp), %rax
	movq	120(%rsp), %r13
	movq	112(%rsp), %rbp
	movaps	144(%rsp), %xmm0
	movaps	%xmm0, 176(%rsp)
	movaps	128(%rsp), %xmm0
	movaps	%xmm0, 160(%rsp)
	movq	176(%rsp), %r12
	testq	%r12, %r12
	je	.Lnoise_BB2_2
	subq	%r12, %r14
	xorl	%edx, %edx
	cmpq	$16, %r12
	cmovbq	%r14, %rdx
	leaq	(%rsp,%r12), %rdi
	xorl	%esi, %esi
	movq	%r9, %r14
	movq	%rax, 32(%rsp)
	movq	%rcx, 24(%rsp)
	callq	memset@PLT
	movq	%rsp, %rdi
	leaq	160(%rsp), %rsi
	movq	%r12, %rdx
	callq	memcpy@PLT
	movb	$1, (%rsp,%r12)
	addq	(%rsp), %r15
	adcq	8(%rsp), %r14
	adcq	$0, %rbx
	movq	24(%rsp), %rax
	movq	%rax, %r9
	shrq	$2, %r9
	addq	%rax, %r9
	movq	%rax, %r11
	movq	%r15, %rax
	movq	32(%rsp), %r10
	mulq	%r10
	movq	%rdx, %rdi
	movq	%rax, %r8
	movq	%r14, %rax
	mulq	%r9
	movq	%rdx, %rsi
	movq	%rax, %rcx
	addq	%r8, %rcx
	adcq	%rdi, %rsi
	movq	%r15, %rax
	mulq	%r11
	movq	%rdx, %rdi
	movq	%rax, %r8
	movq	%r14, %rax
	mulq	%r10
	addq	%r8, %rax
	adcq	%rdi, %rdx
	imulq	%rbx, %r9
	addq	%rax, %r9
	adcq	$0, %rdx
	imulq	%r10, %rbx
	movq	%r9, %rax
	addq	%rsi, %rax
	adcq	%rdx, %rbx
	movq	%rbx, %rdx
	shrq	$2, %rdx
	leaq	(%rdx,%rdx,4), %rdx
	movq	%rdx, %rdi
	addq	%rcx, %rdi
	adcq	%rsi, %r9
	andl	$3, %ebx
	addq	%rdx, %rcx
	adcq	$0, %rax
	adcq	$0, %rbx
	movq	%rcx, %r15
.Lnoise_BB2_2:
	movq	%rbx, %rax
	shrq	$2, %rax
	leaq	(%rax,%rax,4), %rax
	addq	$5, %rax
	addq	%r15, %rax
	movq	%r9, %rax
	adcq	$0, %rax
	adcq	$0, %rbx
	shrq	$2, %rbx
	addq	%r15, %rbp
	adcq	%r9, %r13
	leaq	(%rbx,%rbx,4), %rax
	addq	%rax, %rbp
	adcq	$0, %r13
	movq	%r13, %rdx
	shldq	$56, %rbp, %rdx
	movq	%r13, %r8
	shldq	$48, %rbp, %r8
	movq	%r13, %r9
	shldq	$40, %rbp, %r9
	movq	%r13, %r10
	shldq	$32, %rbp, %r10
	movq	%r13, %r11
	shldq	$24, %rbp, %r11
	movq	%r13, %rbx
	shldq	$16, %rbp, %rbx
	movq	%r13, %r14
	shldq	$8, %rbp, %r14
	movq	%r13, %rax
	shrq	$32, %rax
	movq	%r13, %rcx
	shrq	$40, %rcx
	movq	%r13, %rsi
	shrq	$48, %rsi
	movq	%r13, %rdi
	shrq	$56, %rdi
	movq	%r14, %xmm0
	movq	%rbx, %xmm1
	punpcklbw	%xmm0, %xmm1
	psllq	$48, %xmm1
	movdqa	.Lnoise_CPI2_1(%rip), %xmm0
	movq	%r11, %xmm2
	movq	%r10, %xmm3
	punpcklbw	%xmm2, %xmm3
	pshufd	$80, %xmm3, %xmm2
	pand	%xmm0, %xmm2
	pandn	%xmm1, %xmm0
	por	%xmm2, %xmm0
	pshufd	$85, %xmm0, %xmm1
	movq	%r9, %xmm0
	movq	%r8, %xmm2
	punpcklbw	%xmm0, %xmm2
	pslld	$16, %xmm2
	movdqa	.Lnoise_CPI2_2(%rip), %xmm0
	movq	%rdx, %xmm3
	movq	%rbp, %xmm4
	punpcklbw	%xmm3, %xmm4
	pand	%xmm0, %xmm4
	pandn	%xmm2, %xmm0
	por	%xmm4, %xmm0
	punpckldq	%xmm1, %xmm0
	movd	%edi, %xmm1
	movd	%esi, %xmm2
	punpcklbw	%xmm1, %xmm2
	pslldq	$14, %xmm2
	movd	%ecx, %xmm1
	movd	%eax, %xmm3
	punpcklbw	%xmm1, %xmm3
	pshufd	$0, %xmm3, %xmm1
	pand	.Lnoise_CPI2_3(%rip), %xmm1
	por	%xmm2, %xmm1
	movq	%r13, %xmm2
	movdqa	%xmm2, %xmm3
	psrlq	$24, %xmm3
	movdqa	%xmm2, %xmm4
	psrlq	$16, %xmm4
	punpcklbw	%xmm3, %xmm4
	pslldq	$10, %xmm4
	movdqa	.Lnoise_CPI2_4(%rip), %xmm3
	movdqa	%xmm2, %xmm5
	psrlq	$8, %xmm5
	punpcklbw	%xmm5, %xmm2
	pshufd	$68, %xmm2, %xmm2
	pand	%xmm3, %xmm2
	pandn	%xmm4, %xmm3
	por	%xmm2, %xmm3
	pshufd	$170, %xmm3, %xmm2
	punpckhdq	%xmm1, %xmm2
	movsd	%xmm0, %xmm2
	movq	40(%rsp), %rax
	movupd	%xmm2, (%rax)
	addq	$200, %rsp
	.cfi_def_cfa_offset 56
	popq	%rbx
	.cfi_def_cfa_offset 48
	popq	%r12
	.cfi_def_cfa_offset 40
	popq	%r13
	.cfi_def_cfa_offset 32
	popq	%r14
	.cfi_def_cfa_offset 24
	popq	%r15
	.cfi_def_cfa_offset 16
	popq	%rbp
	.cfi_def_cfa_offset 8
	retq
.Lnoise_func_end2:
	.size	"noise_aead::authenticator::tag.v1", .Lnoise_func_end2-"noise_aead::authenticator::tag.v1"
	.cfi_endproc

	.section	".text.noise_poly::Poly1305::update","ax",@progbits
	.p2align	4
	.type	"noise_poly::Poly1305::update",@function
"noise_poly::Poly1305::update":
	.cfi_startproc
	pushq	%rbp
	.cfi_def_cfa_offset 16
	pushq	%r15
	.cfi_def_cfa_offset 24
	pushq	%r14
	.cfi_def_cfa_offset 32
	pushq	%r13
	.cfi_def_cfa_offset 40
	pushq	%r12
	.cfi_def_cfa_offset 48
	pushq	%rbx
	.cfi_def_cfa_offset 56
	pushq	%rax
	.cfi_def_cfa_offset 64
	.cfi_offset %rbx, -56
	.cfi_offset %r12, -48
	.cfi_offset %r13, -40
	.cfi_offset %r14, -32
	.cfi_offset %r15, -24
	.cfi_offset %rbp, -16
	testq	%rdx, %rdx
	je	.Lnoise_BB3_38
	movq	80(%rdi), %r15
	testq	%r15, %r15
	je	.Lnoise_BB3_42
	movl	$16, %eax
	subq	%r15, %rax
	movq	%rdx, %rbx
	subq	%rax, %rbx
	jae	.Lnoise_BB3_6
	leaq	(%rdi,%r15), %rax
	addq	$64, %rax
	movq	%rax, %rcx
	subq	%rsi, %rcx
	cmpq	%rdx, %rcx
	jae	.Lnoise_BB3_10
	cmpq	$4, %rdx
	jb	.Lnoise_BB3_5
	leaq	(%r15,%rdi), %rcx
	subq	%rsi, %rcx
	addq	$64, %rcx
	cmpq	$32, %rcx
	jae	.Lnoise_BB3_16
.Lnoise_BB3_5:
	xorl	%ecx, %ecx
.Lnoise_BB3_31:
	movq	%rdx, %r9
	movq	%rcx, %r8
	andq	$3, %r9
	je	.Lnoise_BB3_34
	movq	%rcx, %r8
	.p2align	4
.Lnoise_BB3_33:
	movzbl	(%rsi,%r8), %r10d
	movb	%r10b, (%rax,%r8)
	incq	%r8
	decq	%r9
	jne	.Lnoise_BB3_33
.Lnoise_BB3_34:
	subq	%rdx, %rcx
	cmpq	$-4, %rcx
	ja	.Lnoise_BB3_37
	leaq	(%r15,%rdi), %rax
	addq	$67, %rax
	.p2align	4
.Lnoise_BB3_36:
	movzbl	(%rsi,%r8), %ecx
	movb	%cl, -3(%rax,%r8)
	movzbl	1(%rsi,%r8), %ecx
	movb	%cl, -2(%rax,%r8)
	movzbl	2(%rsi,%r8), %ecx
	movb	%cl, -1(%rax,%r8)
	movzbl	3(%rsi,%r8), %ecx
	movb	%cl, (%rax,%r8)
	addq	$4, %r8
	cmpq	%r8, %rdx
	jne	.Lnoise_BB3_36
	jmp	.Lnoise_BB3_37
.Lnoise_BB3_6:
	leaq	(%rsi,%rax), %r14
	leaq	(%rdi,%r15), %rcx
	addq	$64, %rcx
	movq	%rcx, %rdx
	subq	%rsi, %rdx
	cmpq	%rax, %rdx
	jae	.Lnoise_BB3_11
	cmpq	$4, %rax
	jb	.Lnoise_BB3_9
	leaq	(%r15,%rdi), %rdx
	subq	%rsi, %rdx
	addq	$64, %rdx
	cmpq	$32, %rdx
	jae	.Lnoise_BB3_14
.Lnoise_BB3_9:
	xorl	%edx, %edx
	jmp	.Lnoise_BB3_39
.Lnoise_BB3_10:
	movq	%rdi, %r14
	movq	%rax, %rdi
	movq	%rdx, %rbx
	callq	memmove@PLT
	movq	%rbx, %rdx
	movq	%r14, %rdi
.Lnoise_BB3_37:
	addq	%rdx, %r15
	movq	%r15, 80(%rdi)
.Lnoise_BB3_38:
	addq	$8, %rsp
	.cfi_def_cfa_offset 56
	popq	%rbx
	.cfi_def_cfa_offset 48
	popq	%r12
	.cfi_def_cfa_offset 40
	popq	%r13
	.cfi_def_cfa_offset 32
	popq	%r14
	.cfi_def_cfa_offset 24
	popq	%r15
	.cfi_def_cfa_offset 16
	popq	%rbp
	.cfi_def_cfa_offset 8
	retq
.Lnoise_BB3_11:
	.cfi_def_cfa_offset 64
	movq	%rdi, %r15
	movq	%rcx, %rdi
	movq	%rax, %rdx
	callq	memmove@PLT
	movq	%r15, %rdi
	jmp	.Lnoise_BB3_41
.Lnoise_BB3_16:
	cmpq	$32, %rdx
	jae	.Lnoise_BB3_24
	xorl	%ecx, %ecx
	jmp	.Lnoise_BB3_28
.Lnoise_BB3_14:
	cmpq	$32, %rax
	jae	.Lnoise_BB3_18
	xorl	%edx, %edx
	jmp	.Lnoise_BB3_22
.Lnoise_BB3_24:
	movq	%rdx, %rcx
	andq	$-32, %rcx
	leaq	(%r15,%rdi), %r8
	addq	$80, %r8
	xorl	%r9d, %r9d
	.p2align	4
.Lnoise_BB3_25:
	movups	(%rsi,%r9), %xmm0
	movups	16(%rsi,%r9), %xmm1
	movups	%xmm0, -16(%r8,%r9)
	movups	%xmm1, (%r8,%r9)
	addq	$32, %r9
	cmpq	%r9, %rcx
	jne	.Lnoise_BB3_25
	cmpq	%rcx, %rdx
	je	.Lnoise_BB3_37
	testb	$28, %dl
	je	.Lnoise_BB3_31
.Lnoise_BB3_28:
	movq	%rcx, %r8
	movq	%rdx, %rcx
	andq	$-4, %rcx
	.p2align	4
.Lnoise_BB3_29:
	movl	(%rsi,%r8), %r9d
	movl	%r9d, (%rax,%r8)
	addq	$4, %r8
	cmpq	%r8, %rcx
	jne	.Lnoise_BB3_29
	cmpq	%rcx, %rdx
	je	.Lnoise_BB3_37
	jmp	.Lnoise_BB3_31
.Lnoise_BB3_18:
	movq	%rax, %rdx
	andq	$-32, %rdx
	leaq	(%r15,%rdi), %r8
	addq	$80, %r8
	xorl	%r9d, %r9d
	.p2align	4
.Lnoise_BB3_19:
	movups	(%rsi,%r9), %xmm0
	movups	16(%rsi,%r9), %xmm1
	movups	%xmm0, -16(%r8,%r9)
	movups	%xmm1, (%r8,%r9)
	addq	$32, %r9
	cmpq	%r9, %rdx
	jne	.Lnoise_BB3_19
	cmpq	%rdx, %rax
	je	.Lnoise_BB3_41
	testb	$28, %al
	je	.Lnoise_BB3_39
.Lnoise_BB3_22:
	movq	%rdx, %r8
	movq	%rax, %rdx
	andq	$-4, %rdx
	.p2align	4
.Lnoise_BB3_23:
	movl	(%rsi,%r8), %r9d
	movl	%r9d, (%rcx,%r8)
	addq	$4, %r8
	cmpq	%r8, %rdx
	jne	.Lnoise_BB3_23
	jmp	.Lnoise_BB3_40
.Lnoise_BB3_39:
	movzbl	(%rsi,%rdx), %r8d
	movb	%r8b, (%rcx,%rdx)
	incq	%rdx
.Lnoise_BB3_40:
	cmpq	%rdx, %rax
	jne	.Lnoise_BB3_39
.Lnoise_BB3_41:
	movq	(%rdi), %r9
	movq	8(%rdi), %r8
	addq	64(%rdi), %r9
	movq	16(%rdi), %r15
	adcq	72(%rdi), %r8
	movq	32(%rdi), %r13
	movq	40(%rdi), %rbp
	adcq	$1, %r15
	movq	%rbp, %r12
	shrq	$2, %r12
	addq	%rbp, %r12
	movq	%r9, %rax
	mulq	%r13
	movq	%rdx, %r10
	movq	%rax, %r11
	movq	%r8, %rax
	mulq	%r12
	movq	%rdx, %rsi
	movq	%rax, %rcx
	addq	%r11, %rcx
	adcq	%r10, %rsi
	movq	%r9, %rax
	mulq	%rbp
	movq	%rdx, %r9
	movq	%rax, %r10
	movq	%r8, %rax
	mulq	%r13
	addq	%r10, %rax
	adcq	%r9, %rdx
	imulq	%r15, %r12
	addq	%rax, %r12
	adcq	$0, %rdx
	imulq	%r13, %r15
	movq	%r12, %rax
	addq	%rsi, %rax
	adcq	%rdx, %r15
	movq	%r15, %rdx
	shrq	$2, %rdx
	leaq	(%rdx,%rdx,4), %rdx
	movq	%rdx, %r8
	addq	%rcx, %r8
	adcq	%rsi, %r12
	andl	$3, %r15d
	addq	%rdx, %rcx
	adcq	$0, %rax
	adcq	$0, %r15
	movq	%rcx, (%rdi)
	movq	%r12, 8(%rdi)
	movq	%r15, 16(%rdi)
	movq	$0, 24(%rdi)
	movq	$0, 80(%rdi)
	movq	%r14, %rsi
	movq	%rbx, %rdx
.Lnoise_BB3_42:
	addq	$8, %rsp
	.cfi_def_cfa_offset 56
	popq	%rbx
	.cfi_def_cfa_offset 48
	popq	%r12
	.cfi_def_cfa_offset 40
	popq	%r13
	.cfi_def_cfa_offset 32
	popq	%r14
	.cfi_def_cfa_offset 24
	popq	%r15
	.cfi_def_cfa_offset 16
	popq	%rbp
	.cfi_def_cfa_offset 8
	jmp	"noise_poly::Poly1305::take_aligned"
.Lnoise_func_end3:
	.size	"noise_poly::Poly1305::update", .Lnoise_func_end3-"noise_poly::Poly1305::update"
	.cfi_endproc

	.section	".text.noise_poly::Poly1305::take_aligned","ax",@progbits
	.p2align	4
	.type	"noise_poly::Poly1305::take_aligned.v1",@function
"noise_poly::Poly1305::take_aligned.v1":
	.cfi_startproc
	pushq	%rbp
	.cfi_def_cfa_offset 16
	pushq	%r15
	.cfi_def_cfa_offset 24
	pushq	%r14
	.cfi_def_cfa_offset 32
	pushq	%r13
	.cfi_def_cfa_offset 40
	pushq	%r12
	.cfi_def_cfa_offset 48
	pushq	%rbx
	.cfi_def_cfa_offset 56
	pushq	%rax
	.cfi_def_cfa_offset 64
	.cfi_offset %rbx, -56
	.cfi_offset %r12, -48
	.cfi_offset %r13, -40
	.cfi_offset %r14, -32
	.cfi_offset %r15, -24
	.cfi_offset %rbp, -16
	movq	%rdx, %rbx
	cmpq	$1023, %rdx
	ja	.Lnoise_BB4_3
	movq	(%rdi), %r8
	movq	8(%rdi), %rcx
	movq	16(%rdi), %r15
	cmpq	$16, %rbx
	jae	.Lnoise_BB4_5
	movq	24(%rdi), %rax
	jmp	.Lnoise_BB4_8
.Lnoise_BB4_3:
	movq	%rbx, %rdx
	addq	$8, %rsp
	cmpq	$65535, %rbx
	ja	.Lnoise_BB4_11
	.cfi_def_cfa_offset 56
	popq	%rbx
	.cfi_def_cfa_offset 48
	popq	%r12
	.cfi_def_cfa_offset 40
	popq	%r13
	.cfi_def_cfa_offset 32
	popq	%r14
	.cfi_def_cfa_offset 24
	popq	%r15
	.cfi_def_cfa_offset 16
	popq	%rbp
	.cfi_def_cfa_offset 8
	jmp	"noise_poly::Poly1305::take_fours"
.Lnoise_BB4_5:
	.cfi_def_cfa_offset 64
	movq	32(%rdi), %r12
	movq	40(%rdi), %r13
	movq	%r13, %rbp
	shrq	$2, %rbp
	addq	%r13, %rbp
	.p2align	4
.Lnoise_BB4_6:
	addq	(%rsi), %r8
	adcq	8(%rsi), %rcx
	adcq	$1, %r15
	movq	%r8, %rax
	mulq	%r12
	movq	%rdx, %r11
	movq	%rax, %r14
	movq	%rcx, %rax
	mulq	%rbp
	movq	%rdx, %r10
	movq	%rax, %r9
	addq	%r14, %r9
	adcq	%r11, %r10
	movq	%r8, %rax
	mulq	%r13
	movq	%rdx, %r8
	movq	%rax, %r11
	movq	%rcx, %rax
	mulq	%r12
	addq	%r11, %rax
	adcq	%r8, %rdx
	movq	%r15, %rcx
	imulq	%rbp, %rcx
	addq	%rax, %rcx
	adcq	$0, %rdx
	imulq	%r12, %r15
	movq	%rcx, %rax
	addq	%r10, %rax
	adcq	%rdx, %r15
	movq	%r15, %rdx
	shrq	$2, %rdx
	leaq	(%rdx,%rdx,4), %rdx
	movq	%rdx, %r8
	addq	%r9, %r8
	adcq	%r10, %rcx
	andl	$3, %r15d
	movq	%r9, %r8
	addq	%rdx, %r8
	adcq	$0, %rax
	adcq	$0, %r15
	addq	$16, %rsi
	addq	$-16, %rbx
	cmpq	$15, %rbx
	ja	.Lnoise_BB4_6
	xorl	%eax, %eax
.Lnoise_BB4_8:
	movq	%r8, (%rdi)
	movq	%rcx, 8(%rdi)
	movq	%r15, 16(%rdi)
	movq	%rax, 24(%rdi)
	movq	80(%rdi), %r14
	leaq	(%rdi,%r14), %rax
	addq	$64, %rax
	movq	%rax, %rcx
	subq	%rsi, %rcx
	cmpq	%rbx, %rcx
	jae	.Lnoise_BB4_12
	cmpq	$4, %rbx
	jb	.Lnoise_BB4_10
	leaq	(%r14,%rdi), %rcx
	subq	%rsi, %rcx
	addq	$64, %rcx
	cmpq	$32, %rcx
	jae	.Lnoise_BB4_15
.Lnoise_BB4_10:
	xorl	%ecx, %ecx
.Lnoise_BB4_18:
	movq	%rbx, %r8
	movq	%rcx, %rdx
	andq	$3, %r8
	je	.Lnoise_BB4_21
	movq	%rcx, %rdx
	.p2align	4
.Lnoise_BB4_20:
	movzbl	(%rsi,%rdx), %r9d
	movb	%r9b, (%rax,%rdx)
	incq	%rdx
	decq	%r8
	jne	.Lnoise_BB4_20
.Lnoise_BB4_21:
	subq	%rbx, %rcx
	cmpq	$-4, %rcx
	ja	.Lnoise_BB4_24
	leaq	(%r14,%rdi), %rax
	addq	$67, %rax
	.p2align	4
.Lnoise_BB4_23:
	movzbl	(%rsi,%rdx), %ecx
	movb	%cl, -3(%rax,%rdx)
	movzbl	1(%rsi,%rdx), %ecx
	movb	%cl, -2(%rax,%rdx)
	movzbl	2(%rsi,%rdx), %ecx
	movb	%cl, -1(%rax,%rdx)
	movzbl	3(%rsi,%rdx), %ecx
	movb	%cl, (%rax,%rdx)
	addq	$4, %rdx
	cmpq	%rdx, %rbx
	jne	.Lnoise_BB4_23
	jmp	.Lnoise_BB4_24
.Lnoise_BB4_11:
	.cfi_def_cfa_offset 56
	popq	%rbx
	.cfi_def_cfa_offset 48
	popq	%r12
	.cfi_def_cfa_offset 40
	popq	%r13
	.cfi_def_cfa_offset 32
	popq	%r14
	.cfi_def_cfa_offset 24
	popq	%r15
	.cfi_def_cfa_offset 16
	popq	%rbp
	.cfi_def_cfa_offset 8
	jmp	"noise_poly::Poly1305::take_eights"
.Lnoise_BB4_12:
	.cfi_def_cfa_offset 64
	movq	%rdi, %r15
	movq	%rax, %rdi
	movq	%rbx, %rdx
	callq	memmove@PLT
	movq	%r15, %rdi
.Lnoise_BB4_24:
	addq	%rbx, %r14
	movq	%r14, 80(%rdi)
	addq	$8, %rsp
	.cfi_def_cfa_offset 56
	popq	%rbx
	.cfi_def_cfa_offset 48
	popq	%r12
	.cfi_def_cfa_offset 40
	popq	%r13
	.cfi_def_cfa_offset 32
	popq	%r14
	.cfi_def_cfa_offset 24
	popq	%r15
	.cfi_def_cfa_offset 16
	popq	%rbp
	.cfi_def_cfa_offset 8
	retq
.Lnoise_BB4_15:
	.cfi_def_cfa_offset 64
	movl	%ebx, %ecx
	andl	$12, %ecx
	xorl	%edx, %edx
	.p2align	4
.Lnoise_BB4_16:
	movl	(%rsi,%rdx), %r8d
	movl	%r8d, (%rax,%rdx)
	addq	$4, %rdx
	cmpq	%rdx, %rcx
	jne	.Lnoise_BB4_16
	cmpq	%rcx, %rbx
	je	.Lnoise_BB4_24
	jmp	.Lnoise_BB4_18
.Lnoise_func_end4:
	.size	"noise_poly::Poly1305::take_aligned.v1", .Lnoise_func_end4-"noise_poly::Poly1305::take_aligned.v1"
	.cfi_endproc

	.section	.rodata.cst16,"aM",@progbits,16
	.p2align	4, 0x0
.Lnoise_CPI5_0:
	.long	67108863
	.long	67108863
	.zero	4
	.zero	4
.Lnoise_CPI5_1:
	.quad	67108863
	.quad	67108863
.Lnoise_CPI5_2:
	.zero	8
	.quad	16777216
.Lnoise_CPI5_3:
	.quad	2147483647
	.quad	2147483647
.Lnoise_CPI5_4:
	.quad	536870911
	.quad	536870911
.Lnoise_CPI5_5:
	.quad	16777216
	.quad	16777216
	.section	".text.noise_poly::Poly1305::take_fours","ax",@progbits
	.p2align	4
	.type	"noise_poly::Poly1305::take_fours",@function
"noise_poly::Poly1305::take_fours":
	.cfi_startproc
	pushq	%rbp
	.cfi_def_cfa_offset 16
	pushq	%r15
	.cfi_def_cfa_offset 24
	pushq	%r14
	.cfi_def_cfa_offset 32
	pushq	%r13
	.cfi_def_cfa_offset 40
	pushq	%r12
	.cfi_def_cfa_offset 48
	pushq	%rbx
	.cfi_def_cfa_offset 56
	subq	$680, %rsp
	.cfi_def_cfa_offset 736
	.cfi_offset %rbx, -56
	.cfi_offset %r12, -48
	.cfi_offset %r13, -40
	.cfi_offset %r14, -32
	.cfi_offset %r15, -24
	.cfi_offset %rbp, -16
	movq	%rsi, 32(%rsp)
	movq	%rdi, 248(%rsp)
	movq	32(%rdi), %r10
	movq	40(%rdi), %r8
	movl	%r10d, %r15d
	andl	$67108863, %r15d
	movl	%r8d, %eax
	shll	$12, %eax
	movq	%r10, %rbx
	shrq	$52, %rbx
	orl	%eax, %ebx
	andl	$67108863, %ebx
	movq	%r8, %rax
	shrq	$40, %rax
	leal	(%rbx,%rbx,4), %r9d
	leal	(%rax,%rax,4), %r11d
	movq	%r15, %rsi
	imulq	%r15, %rsi
	movq	%r8, %rcx
	movq	%r10, 240(%rsp)
	shldq	$38, %r10, %rcx
	movq	%r8, 232(%rsp)
	movq	%r8, %xmm0
	psrlq	$14, %xmm0
	movq	%rcx, %xmm1
	punpckldq	%xmm0, %xmm1
	pand	.Lnoise_CPI5_0(%rip), %xmm1
	pshufd	$85, %xmm1, %xmm0
	movd	%xmm0, %r8d
	movdqa	%xmm1, 464(%rsp)
	movd	%xmm1, %ecx
	leal	(%r8,%r8,4), %r12d
	movq	%rcx, %rdi
	imulq	%r11, %rdi
	addq	%rsi, %rdi
	movq	%r9, %rsi
	imulq	%r8, %rsi
	addq	%rdi, %rsi
	movq	%r12, %rdi
	imulq	%rbx, %rdi
	addq	%rdi, %rsi
	leal	(%rcx,%rcx,4), %r14d
	movq	%r14, 256(%rsp)
	imulq	%rax, %r14
	addq	%rsi, %r14
	leal	(%r15,%r15), %esi
	movq	%rsi, %rdi
	imulq	%rcx, %rdi
	movq	%rbx, %r10
	imulq	%r11, %r10
	addq	%rdi, %r10
	movq	%r9, 288(%rsp)
	imulq	%rax, %r9
	addq	%r10, %r9
	movq	%r12, %rdi
	imulq	%r8, %rdi
	addq	%rdi, %r9
	movq	%rcx, %rdi
	imulq	%rcx, %rdi
	imulq	%rbx, %rsi
	addq	%rdi, %rsi
	movq	%r8, %rdi
	imulq	%r11, %rdi
	addq	%rsi, %rdi
	movq	%r12, 264(%rsp)
	movq	%r12, %r10
	imulq	%rax, %r10
	addq	%rdi, %r10
	movq	%rcx, %rdi
	imulq	%r8, %rcx
	imulq	%r15, %r8
	imulq	%rbx, %rdi
	addq	%r8, %rdi
	movq	%r11, 296(%rsp)
	movq	%r11, %rsi
	imulq	%rax, %rsi
	leaq	(%rsi,%rdi,2), %rsi
	movl	%r14d, %r8d
	shrq	$26, %r14
	addq	%r9, %r14
	movq	%rbx, 280(%rsp)
	movq	%rbx, %rdi
	imulq	%rbx, %rdi
	movl	%esi, %r9d
	shrq	$26, %rsi
	addq	%rdi, %rsi
	movl	%r14d, %edi
	shrq	$26, %r14
	addq	%r10, %r14
	movl	%eax, 12(%rsp)
	movq	%r15, 272(%rsp)
	imulq	%r15, %rax
	addq	%rcx, %rax
	leaq	(%rsi,%rax,2), %rax
	andl	$67108863, %r9d
	movl	%r14d, %r13d
	shrq	$26, %r14
	addq	%r9, %r14
	andl	$67108863, %r8d
	movl	%eax, %esi
	shrq	$26, %rax
	leaq	(%rax,%rax,4), %rbp
	addq	%r8, %rbp
	andl	$67108863, %edi
	movq	%rbp, %r11
	shrq	$26, %r11
	addl	%edi, %r11d
	andl	$67108863, %esi
	movl	%r14d, %r9d
	shrq	$26, %r14
	addl	%esi, %r14d
	andl	$67108863, %r13d
	andl	$67108863, %r9d
	andl	$67108863, %ebp
	movq	%rbp, %rax
	imulq	%rbp, %rax
	leal	(%r13,%r13,4), %ecx
	movq	%r9, %r10
	imulq	%rcx, %r10
	movq	%rcx, 48(%rsp)
	addq	%rax, %r10
	leal	(%r9,%r9,4), %esi
	movq	%r13, %rax
	imulq	%rsi, %rax
	addq	%rax, %r10
	leal	(%r11,%r11,4), %r8d
	movd	%r8d, %xmm10
	imulq	%r14, %r8
	addq	%r10, %r8
	leal	(%r14,%r14,4), %edi
	movq	%rdi, %rax
	imulq	%r11, %rax
	addq	%rax, %r8
	leal	(,%rbp,2), %eax
	imulq	%r11, %rax
	movq	%r9, %rbx
	movq	%rsi, 16(%rsp)
	imulq	%rsi, %rbx
	addq	%rax, %rbx
	movq	%r14, %r10
	imulq	%rcx, %r10
	addq	%rbx, %r10
	movq	%r13, %rax
	imulq	%rdi, %rax
	addq	%rax, %r10
	leal	(,%r13,2), %eax
	imulq	%rbp, %rax
	movq	%r11, %rbx
	imulq	%r11, %rbx
	addq	%rbx, %rax
	movq	%r14, %rbx
	imulq	%rsi, %rbx
	addq	%rax, %rbx
	movq	%r9, %rax
	imulq	%rdi, %rax
	addq	%rax, %rbx
	movq	%r9, %rax
	imulq	%rbp, %rax
	movq	%r13, %r12
	imulq	%r11, %r12
	addq	%rax, %r12
	movd	%edi, %xmm9
	imulq	%r14, %rdi
	leaq	(%rdi,%r12,2), %rax
	movl	%r8d, %edi
	shrq	$26, %r8
	addq	%r10, %r8
	movq	%r13, %r10
	imulq	%r13, %r10
	movl	%eax, %r12d
	shrq	$26, %rax
	addq	%r10, %rax
	movl	%r8d, %ecx
	shrq	$26, %r8
	addq	%rbx, %r8
	movq	%rbp, %r10
	imulq	%r14, %r10
	movq	%r9, %rbx
	imulq	%r11, %rbx
	addq	%r10, %rbx
	leaq	(%rax,%rbx,2), %rax
	andl	$67108863, %r12d
	movl	%r8d, %r10d
	shrq	$26, %r8
	addq	%r12, %r8
	andl	$67108863, %edi
	movl	%eax, %r15d
	shrq	$26, %rax
	leaq	(%rax,%rax,4), %rbx
	addq	%rdi, %rbx
	andl	$67108863, %ecx
	movl	%ebx, %edi
	shrq	$26, %rbx
	addl	%ecx, %ebx
	andl	$67108863, %r15d
	movl	%r8d, %r12d
	shrq	$26, %r8
	addl	%r15d, %r8d
	andl	$67108863, %r10d
	andl	$67108863, %edi
	andl	$67108863, %r12d
	movl	%edi, 64(%rsp)
	movl	%ebx, 68(%rsp)
	movl	%r10d, 72(%rsp)
	movl	%r12d, 76(%rsp)
	movl	%r8d, 80(%rsp)
	leal	(%rbx,%rbx,4), %esi
	movl	%esi, 84(%rsp)
	leal	(%r10,%r10,4), %ecx
	movl	%ecx, 88(%rsp)
	leal	(%r12,%r12,4), %r15d
	movl	%r15d, 92(%rsp)
	leal	(%r8,%r8,4), %eax
	movl	%eax, 96(%rsp)
	movl	%edi, 100(%rsp)
	movl	%ebx, 104(%rsp)
	movl	%r10d, 108(%rsp)
	movl	%r12d, 112(%rsp)
	movl	%r8d, 116(%rsp)
	movl	%esi, 120(%rsp)
	movl	%ecx, 124(%rsp)
	movl	%r15d, 128(%rsp)
	movl	%eax, 132(%rsp)
	movl	%edi, 136(%rsp)
	movl	%ebx, 140(%rsp)
	movl	%r10d, 144(%rsp)
	movl	%r12d, 148(%rsp)
	movl	%r8d, 152(%rsp)
	movl	%esi, 156(%rsp)
	movl	%ecx, 160(%rsp)
	movl	%r15d, 164(%rsp)
	movl	%eax, 168(%rsp)
	movl	%edi, 172(%rsp)
	movl	%ebx, 176(%rsp)
	movl	%r10d, 180(%rsp)
	movl	%r12d, 184(%rsp)
	movq	248(%rsp), %r12
	movl	%r8d, 188(%rsp)
	movl	%esi, 192(%rsp)
	movl	%ecx, 196(%rsp)
	movl	%r15d, 200(%rsp)
	movl	%eax, 204(%rsp)
	movq	(%r12), %rax
	movl	%eax, %ecx
	andl	$67108863, %ecx
	movd	%ecx, %xmm1
	movq	8(%r12), %rcx
	movq	%rcx, %rsi
	shldq	$12, %rax, %rsi
	shrq	$26, %rax
	andl	$67108863, %eax
	movd	%eax, %xmm8
	andl	$67108863, %esi
	movd	%esi, %xmm7
	movq	%rcx, %rax
	shrq	$14, %rax
	andl	$67108863, %eax
	movd	%eax, %xmm4
	movl	16(%r12), %eax
	shll	$24, %eax
	shrq	$40, %rcx
	addq	%rcx, %rax
	addq	$16777216, %rax
	movq	%rax, %xmm0
	movd	48(%rsp), %xmm11
	movd	16(%rsp), %xmm12
	movq	32(%rsp), %rax
	movdqu	(%rax), %xmm3
	movdqu	16(%rax), %xmm2
	movdqa	%xmm3, %xmm5
	punpcklqdq	%xmm2, %xmm5
	movdqa	.Lnoise_CPI5_1(%rip), %xmm13
	movdqa	%xmm5, %xmm6
	pand	%xmm13, %xmm6
	paddq	%xmm6, %xmm1
	movdqa	%xmm5, %xmm6
	psrlq	$26, %xmm6
	pand	%xmm13, %xmm6
	paddq	%xmm6, %xmm8
	punpckhqdq	%xmm2, %xmm3
	psrlq	$52, %xmm5
	movdqa	%xmm3, %xmm2
	psllq	$12, %xmm2
	por	%xmm5, %xmm2
	pand	%xmm13, %xmm2
	paddq	%xmm2, %xmm7
	movdqa	%xmm3, %xmm2
	psrlq	$14, %xmm2
	pand	%xmm13, %xmm2
	shufpd	$2, .Lnoise_CPI5_2(%rip), %xmm0
	paddq	%xmm2, %xmm4
	psrlq	$40, %xmm3
	paddq	%xmm0, %xmm3
	movdqa	%xmm10, 432(%rsp)
	pshufd	$68, %xmm10, %xmm2
	movdqa	%xmm11, 416(%rsp)
	pshufd	$68, %xmm11, %xmm5
	movdqa	%xmm12, 384(%rsp)
	pshufd	$68, %xmm12, %xmm6
	movdqa	%xmm9, 448(%rsp)
	pshufd	$68, %xmm9, %xmm9
	movdqa	.Lnoise_CPI5_4(%rip), %xmm0
	pand	%xmm0, %xmm6
	movdqa	%xmm6, 512(%rsp)
	pand	%xmm0, %xmm5
	movdqa	%xmm5, 528(%rsp)
	movdqa	.Lnoise_CPI5_3(%rip), %xmm0
	pand	%xmm0, %xmm9
	movdqa	%xmm9, 48(%rsp)
	pand	%xmm0, %xmm2
	movdqa	%xmm2, 544(%rsp)
	movd	%ebp, %xmm0
	leaq	32(%rax), %rsi
	movdqa	%xmm0, 400(%rsp)
	pshufd	$68, %xmm0, %xmm0
	pand	%xmm13, %xmm0
	movdqa	%xmm0, 32(%rsp)
	movd	%r13d, %xmm0
	movdqa	%xmm0, 368(%rsp)
	pshufd	$68, %xmm0, %xmm0
	pand	%xmm13, %xmm0
	movdqa	%xmm0, 16(%rsp)
	movd	%r9d, %xmm0
	movdqa	%xmm0, 352(%rsp)
	pshufd	$68, %xmm0, %xmm0
	pand	%xmm13, %xmm0
	movdqa	%xmm0, 496(%rsp)
	addq	$32, %rdx
	movd	%r11d, %xmm0
	movd	%r14d, %xmm2
	movdqa	%xmm0, 336(%rsp)
	pshufd	$0, %xmm0, %xmm0
	movdqa	%xmm0, 304(%rsp)
	movdqa	%xmm2, 320(%rsp)
	pshufd	$0, %xmm2, %xmm0
	movdqa	%xmm0, 480(%rsp)
	.p2align	4
.Lnoise_BB5_1:
	movq	%rdx, %r10
	addq	$-64, %rdx
	movl	%edx, %eax
	shrl	$6, %eax
	andl	$3, %eax
	leaq	(%rax,%rax,8), %rax
	movdqa	%xmm1, %xmm2
	psrlq	$26, %xmm2
	paddq	%xmm8, %xmm2
	movdqa	%xmm4, %xmm0
	psrlq	$26, %xmm0
	paddq	%xmm3, %xmm0
	movdqa	%xmm2, %xmm5
	psrlq	$26, %xmm5
	paddq	%xmm7, %xmm5
	movdqa	.Lnoise_CPI5_1(%rip), %xmm8
	pand	%xmm8, %xmm1
	movdqa	%xmm0, %xmm6
	psrlq	$26, %xmm6
	movdqa	%xmm6, %xmm3
	psllq	$2, %xmm3
	paddq	%xmm6, %xmm3
	paddq	%xmm1, %xmm3
	pand	%xmm8, %xmm4
	movdqa	%xmm5, %xmm1
	psrlq	$26, %xmm1
	paddq	%xmm4, %xmm1
	pand	%xmm8, %xmm2
	movdqa	%xmm3, %xmm11
	psrlq	$26, %xmm11
	paddd	%xmm2, %xmm11
	pand	%xmm8, %xmm0
	movdqa	%xmm1, %xmm4
	psrlq	$26, %xmm4
	paddd	%xmm0, %xmm4
	pand	%xmm8, %xmm3
	movd	64(%rsp,%rax,4), %xmm0
	pshufd	$68, %xmm0, %xmm7
	movdqa	%xmm7, %xmm13
	movdqa	%xmm7, %xmm10
	movdqa	%xmm7, %xmm0
	pmuludq	%xmm3, %xmm0
	movd	96(%rsp,%rax,4), %xmm6
	pshufd	$68, %xmm6, %xmm6
	movdqa	%xmm6, 208(%rsp)
	movdqa	%xmm8, %xmm2
	pand	%xmm8, %xmm5
	movd	92(%rsp,%rax,4), %xmm8
	pshufd	$68, %xmm8, %xmm9
	movdqa	%xmm9, %xmm12
	pmuludq	%xmm5, %xmm12
	pand	%xmm2, %xmm1
	movd	88(%rsp,%rax,4), %xmm8
	pshufd	$68, %xmm8, %xmm8
	movdqa	%xmm8, %xmm14
	pmuludq	%xmm1, %xmm14
	paddq	%xmm12, %xmm14
	movd	84(%rsp,%rax,4), %xmm12
	pshufd	$68, %xmm12, %xmm12
	pmuludq	%xmm4, %xmm12
	paddq	%xmm0, %xmm12
	paddq	%xmm14, %xmm12
	movd	68(%rsp,%rax,4), %xmm0
	pshufd	$68, %xmm0, %xmm2
	movdqa	%xmm2, %xmm0
	movdqa	%xmm2, %xmm14
	pmuludq	%xmm3, %xmm14
	pmuludq	%xmm11, %xmm13
	paddq	%xmm14, %xmm13
	movdqa	%xmm9, %xmm14
	pmuludq	%xmm1, %xmm14
	pmuludq	%xmm4, %xmm8
	paddq	%xmm14, %xmm8
	movdqa	%xmm6, %xmm14
	paddq	%xmm13, %xmm8
	movd	72(%rsp,%rax,4), %xmm13
	pshufd	$68, %xmm13, %xmm15
	pmuludq	%xmm11, %xmm0
	pmuludq	%xmm5, %xmm10
	paddq	%xmm0, %xmm10
	movdqa	%xmm15, %xmm0
	pmuludq	%xmm3, %xmm0
	pmuludq	%xmm4, %xmm9
	paddq	%xmm0, %xmm9
	movdqa	%xmm6, %xmm0
	pmuludq	%xmm4, %xmm6
	movdqa	%xmm6, 656(%rsp)
	pmuludq	%xmm7, %xmm4
	pmuludq	%xmm1, %xmm0
	movdqa	%xmm0, 608(%rsp)
	pmuludq	%xmm1, %xmm7
	pmuludq	%xmm2, %xmm1
	pmuludq	%xmm5, %xmm14
	movdqa	%xmm14, 576(%rsp)
	pmuludq	%xmm5, %xmm2
	pmuludq	%xmm15, %xmm5
	movdqa	208(%rsp), %xmm6
	pmuludq	%xmm11, %xmm6
	paddq	%xmm10, %xmm9
	movd	76(%rsp,%rax,4), %xmm0
	pshufd	$68, %xmm0, %xmm0
	pmuludq	%xmm11, %xmm15
	pmuludq	%xmm0, %xmm11
	pmuludq	%xmm3, %xmm0
	paddq	%xmm0, %xmm15
	paddq	%xmm2, %xmm7
	paddq	%xmm15, %xmm7
	movdqa	%xmm7, 624(%rsp)
	movd	80(%rsp,%rax,4), %xmm0
	pshufd	$68, %xmm0, %xmm0
	pmuludq	%xmm3, %xmm0
	movdqa	%xmm0, 640(%rsp)
	paddq	%xmm11, %xmm5
	paddq	%xmm1, %xmm4
	paddq	%xmm5, %xmm4
	movdqa	%xmm4, 208(%rsp)
	movdqu	(%rsi), %xmm0
	movdqu	16(%rsi), %xmm1
	movdqa	%xmm0, %xmm2
	punpcklqdq	%xmm1, %xmm2
	punpckhqdq	%xmm1, %xmm0
	movdqa	%xmm2, %xmm14
	movdqa	.Lnoise_CPI5_1(%rip), %xmm13
	pand	%xmm13, %xmm14
	movdqa	%xmm2, %xmm3
	psrlq	$52, %xmm2
	movdqa	%xmm0, %xmm11
	psllq	$12, %xmm11
	por	%xmm2, %xmm11
	pand	%xmm13, %xmm11
	movdqa	%xmm0, %xmm2
	psrlq	$14, %xmm2
	pand	%xmm13, %xmm2
	movdqa	%xmm14, %xmm10
	movdqa	32(%rsp), %xmm5
	pmuludq	%xmm5, %xmm10
	paddq	%xmm6, %xmm10
	movdqa	%xmm11, %xmm6
	movdqa	512(%rsp), %xmm15
	pmuludq	%xmm15, %xmm6
	movdqa	%xmm2, %xmm1
	movdqa	528(%rsp), %xmm7
	pmuludq	%xmm7, %xmm1
	paddq	%xmm6, %xmm1
	psrlq	$26, %xmm3
	pand	%xmm13, %xmm3
	movdqa	%xmm3, %xmm6
	movdqa	48(%rsp), %xmm13
	pmuludq	%xmm13, %xmm6
	paddq	%xmm6, %xmm1
	movdqa	%xmm1, 592(%rsp)
	psrlq	$40, %xmm0
	por	.Lnoise_CPI5_5(%rip), %xmm0
	movdqa	%xmm0, %xmm1
	pmuludq	544(%rsp), %xmm1
	paddq	%xmm10, %xmm1
	paddq	%xmm12, %xmm1
	movdqa	%xmm1, 560(%rsp)
	movdqa	%xmm14, %xmm10
	movdqa	304(%rsp), %xmm1
	pmuludq	%xmm1, %xmm10
	paddq	576(%rsp), %xmm10
	movdqa	%xmm3, %xmm12
	pmuludq	%xmm5, %xmm12
	paddq	%xmm10, %xmm12
	paddq	%xmm8, %xmm12
	movdqa	%xmm2, %xmm8
	pmuludq	%xmm15, %xmm8
	movdqa	%xmm0, %xmm4
	pmuludq	%xmm7, %xmm4
	paddq	%xmm8, %xmm4
	movdqa	%xmm11, %xmm8
	movdqa	%xmm13, %xmm7
	pmuludq	%xmm13, %xmm8
	paddq	%xmm8, %xmm4
	movdqa	%xmm14, %xmm8
	pmuludq	16(%rsp), %xmm8
	paddq	608(%rsp), %xmm8
	movdqa	%xmm11, %xmm13
	pmuludq	%xmm5, %xmm13
	paddq	%xmm8, %xmm13
	paddq	%xmm9, %xmm13
	movdqa	%xmm3, %xmm8
	pmuludq	%xmm1, %xmm8
	movdqa	%xmm0, %xmm9
	pmuludq	%xmm15, %xmm9
	paddq	%xmm8, %xmm9
	movdqa	%xmm2, %xmm8
	pmuludq	%xmm7, %xmm8
	paddq	%xmm8, %xmm9
	movdqa	%xmm14, %xmm8
	movdqa	496(%rsp), %xmm7
	pmuludq	%xmm7, %xmm8
	paddq	656(%rsp), %xmm8
	movdqa	%xmm3, %xmm10
	movdqa	16(%rsp), %xmm6
	pmuludq	%xmm6, %xmm10
	movdqa	%xmm11, %xmm5
	pmuludq	%xmm1, %xmm5
	paddq	%xmm10, %xmm5
	movdqa	%xmm2, %xmm15
	movdqa	32(%rsp), %xmm1
	pmuludq	%xmm1, %xmm15
	paddq	%xmm8, %xmm15
	paddq	624(%rsp), %xmm15
	movdqa	%xmm0, %xmm10
	pmuludq	48(%rsp), %xmm10
	paddq	%xmm5, %xmm10
	pmuludq	480(%rsp), %xmm14
	paddq	640(%rsp), %xmm14
	pmuludq	%xmm6, %xmm11
	pmuludq	304(%rsp), %xmm2
	paddq	%xmm11, %xmm2
	pmuludq	%xmm7, %xmm3
	paddq	%xmm3, %xmm2
	movdqu	32(%rsi), %xmm3
	pmuludq	%xmm1, %xmm0
	paddq	%xmm14, %xmm0
	movdqu	48(%rsi), %xmm1
	paddq	208(%rsp), %xmm0
	movdqa	%xmm3, %xmm5
	punpcklqdq	%xmm1, %xmm5
	punpckhqdq	%xmm1, %xmm3
	movdqa	%xmm5, %xmm1
	movdqa	.Lnoise_CPI5_1(%rip), %xmm6
	pand	%xmm6, %xmm1
	paddq	592(%rsp), %xmm1
	paddq	560(%rsp), %xmm1
	movdqa	%xmm5, %xmm8
	psrlq	$26, %xmm8
	pand	%xmm6, %xmm8
	paddq	%xmm4, %xmm8
	paddq	%xmm12, %xmm8
	psrlq	$52, %xmm5
	movdqa	%xmm3, %xmm7
	psllq	$12, %xmm7
	por	%xmm5, %xmm7
	pand	%xmm6, %xmm7
	paddq	%xmm9, %xmm7
	paddq	%xmm13, %xmm7
	movdqa	%xmm3, %xmm4
	psrlq	$14, %xmm4
	pand	%xmm6, %xmm4
	paddq	%xmm10, %xmm4
	paddq	%xmm15, %xmm4
	psrlq	$40, %xmm3
	paddq	%xmm2, %xmm3
	paddq	.Lnoise_CPI5_5(%rip), %xmm3
	paddq	%xmm0, %xmm3
	addq	$64, %rsi
	addq	$-128, %r10
	cmpq	$63, %r10
	ja	.Lnoise_BB5_1
	movdqa	%xmm1, %xmm6
	psrlq	$26, %xmm6
	paddq	%xmm8, %xmm6
	movdqa	%xmm4, %xmm5
	psrlq	$26, %xmm5
	paddq	%xmm3, %xmm5
	movdqa	%xmm6, %xmm2
	psrlq	$26, %xmm2
	paddq	%xmm7, %xmm2
	movdqa	.Lnoise_CPI5_1(%rip), %xmm12
	pand	%xmm12, %xmm1
	movdqa	%xmm5, %xmm3
	psrlq	$26, %xmm3
	paddq	%xmm3, %xmm1
	psllq	$2, %xmm3
	paddq	%xmm1, %xmm3
	pand	%xmm12, %xmm4
	movdqa	%xmm2, %xmm0
	psrlq	$26, %xmm0
	paddq	%xmm4, %xmm0
	pand	%xmm12, %xmm6
	movdqa	%xmm3, %xmm4
	psrlq	$26, %xmm3
	paddd	%xmm6, %xmm3
	pand	%xmm12, %xmm5
	movdqa	%xmm0, %xmm1
	psrlq	$26, %xmm0
	paddd	%xmm5, %xmm0
	movss	272(%rsp), %xmm5
	movaps	400(%rsp), %xmm10
	shufps	$48, %xmm10, %xmm5
	shufps	$132, %xmm5, %xmm10
	movss	280(%rsp), %xmm5
	movaps	368(%rsp), %xmm13
	shufps	$48, %xmm13, %xmm5
	shufps	$132, %xmm5, %xmm13
	pand	%xmm12, %xmm4
	pand	%xmm12, %xmm2
	movaps	464(%rsp), %xmm5
	movaps	336(%rsp), %xmm15
	movlhps	%xmm5, %xmm15
	movaps	352(%rsp), %xmm14
	shufps	$212, %xmm5, %xmm14
	movd	12(%rsp), %xmm5
	movdqa	320(%rsp), %xmm12
	punpcklqdq	%xmm5, %xmm12
	movd	256(%rsp), %xmm5
	movdqa	432(%rsp), %xmm8
	punpcklqdq	%xmm5, %xmm8
	movss	288(%rsp), %xmm5
	movaps	416(%rsp), %xmm9
	shufps	$48, %xmm9, %xmm5
	shufps	$132, %xmm5, %xmm9
	movss	264(%rsp), %xmm5
	movaps	384(%rsp), %xmm11
	shufps	$48, %xmm11, %xmm5
	shufps	$132, %xmm5, %xmm11
	movss	296(%rsp), %xmm5
	movaps	448(%rsp), %xmm7
	shufps	$48, %xmm7, %xmm5
	shufps	$132, %xmm5, %xmm7
	movdqa	%xmm4, %xmm5
	pmuludq	%xmm10, %xmm5
	movdqa	%xmm2, %xmm6
	pmuludq	%xmm11, %xmm6
	paddq	%xmm5, %xmm6
	pand	.Lnoise_CPI5_1(%rip), %xmm1
	movdqa	%xmm1, %xmm5
	pmuludq	%xmm9, %xmm5
	paddq	%xmm6, %xmm5
	movdqa	%xmm3, %xmm6
	pmuludq	%xmm7, %xmm6
	paddq	%xmm6, %xmm5
	pmuludq	%xmm0, %xmm8
	paddq	%xmm5, %xmm8
	movdqa	%xmm4, %xmm5
	pmuludq	%xmm15, %xmm5
	movdqa	%xmm2, %xmm6
	pmuludq	%xmm7, %xmm6
	paddq	%xmm5, %xmm6
	movdqa	%xmm1, %xmm5
	pmuludq	%xmm11, %xmm5
	paddq	%xmm6, %xmm5
	movdqa	%xmm3, %xmm6
	pmuludq	%xmm10, %xmm6
	paddq	%xmm6, %xmm5
	pmuludq	%xmm0, %xmm9
	paddq	%xmm5, %xmm9
	movdqa	%xmm9, %xmm5
	punpcklqdq	%xmm8, %xmm5
	punpckhqdq	%xmm8, %xmm9
	movdqa	%xmm4, %xmm6
	paddq	%xmm5, %xmm9
	movdqa	%xmm2, %xmm5
	pmuludq	%xmm13, %xmm6
	pmuludq	%xmm10, %xmm5
	paddq	%xmm6, %xmm5
	movdqa	%xmm1, %xmm6
	pmuludq	%xmm7, %xmm6
	paddq	%xmm5, %xmm6
	movdqa	%xmm3, %xmm5
	pmuludq	%xmm15, %xmm5
	paddq	%xmm5, %xmm6
	pmuludq	%xmm0, %xmm11
	paddq	%xmm6, %xmm11
	pshufd	$238, %xmm11, %xmm5
	paddq	%xmm11, %xmm5
	movq	%xmm5, %rax
	andps	.Lnoise_CPI5_1(%rip), %xmm14
	pmuludq	%xmm4, %xmm12
	pmuludq	%xmm14, %xmm4
	pmuludq	%xmm3, %xmm14
	pmuludq	%xmm13, %xmm3
	pmuludq	%xmm2, %xmm13
	pmuludq	%xmm15, %xmm2
	paddq	%xmm4, %xmm2
	pmuludq	%xmm1, %xmm15
	pmuludq	%xmm10, %xmm1
	paddq	%xmm2, %xmm1
	paddq	%xmm3, %xmm1
	pmuludq	%xmm0, %xmm7
	paddq	%xmm1, %xmm7
	paddq	%xmm12, %xmm13
	paddq	%xmm13, %xmm15
	paddq	%xmm14, %xmm15
	pmuludq	%xmm0, %xmm10
	paddq	%xmm15, %xmm10
	movdqa	%xmm10, %xmm0
	punpcklqdq	%xmm7, %xmm0
	punpckhqdq	%xmm7, %xmm10
	paddq	%xmm0, %xmm10
	pshufd	$238, %xmm9, %xmm0
	movq	%xmm0, %rdi
	pshufd	$238, %xmm10, %xmm0
	movq	%xmm0, %r8
	movq	%xmm9, %rcx
	movq	%xmm10, %r9
	movl	%edi, %r10d
	andl	$67108863, %r10d
	shrq	$26, %rdi
	movl	%r8d, %r11d
	andl	$67108863, %r11d
	shrq	$26, %r8
	addq	%rdi, %rcx
	movl	%ecx, %ebx
	andl	$67108863, %ebx
	shrq	$26, %rcx
	addq	%rax, %rcx
	addq	%r8, %r9
	movl	%r9d, %r8d
	andl	$67108863, %r8d
	shrq	$26, %r9
	movq	%rcx, %rax
	shrq	$26, %rax
	addq	%r11, %rax
	leaq	(%r9,%r9,4), %r9
	addq	%r10, %r9
	movq	%r9, %rdi
	shrq	$26, %rdi
	movq	%rax, %r13
	shrq	$26, %r13
	addl	%ebx, %edi
	addl	%r8d, %r13d
	andl	$67108863, %r9d
	shlq	$26, %rdi
	movl	%ecx, %r8d
	andl	$67104768, %r8d
	shrl	$12, %r8d
	shlq	$52, %rcx
	orq	%r9, %rcx
	andl	$67108863, %eax
	shlq	$14, %rax
	addq	%rdi, %rcx
	adcq	%r8, %rax
	movq	%r13, %rdi
	shlq	$40, %rdi
	shrl	$24, %r13d
	movq	%rdi, %r8
	addq	%rax, %r8
	adcq	$0, %r13
	movl	%r13d, %r9d
	shrl	$2, %r9d
	leaq	(%r9,%r9,4), %r9
	movq	%r9, %r10
	addq	%rcx, %r10
	adcq	%rax, %rdi
	andl	$3, %r13d
	addq	%r9, %rcx
	adcq	$0, %r8
	adcq	$0, %r13
	movq	%rcx, (%r12)
	movq	%rdi, 8(%r12)
	movq	%r13, 16(%r12)
	movq	$0, 24(%r12)
	leaq	-64(%rdx), %r14
	cmpq	$80, %rdx
	jae	.Lnoise_BB5_4
	movq	%rcx, %r8
	jmp	.Lnoise_BB5_6
.Lnoise_BB5_4:
	movq	232(%rsp), %r15
	movq	%r15, %rbp
	shrq	$2, %rbp
	addq	%r15, %rbp
	movq	240(%rsp), %rbx
	.p2align	4
.Lnoise_BB5_5:
	addq	(%rsi), %rcx
	adcq	8(%rsi), %rdi
	adcq	$1, %r13
	movq	%rcx, %rax
	mulq	%rbx
	movq	%rdx, %r10
	movq	%rax, %r11
	movq	%rdi, %rax
	mulq	%rbp
	movq	%rdx, %r9
	movq	%rax, %r8
	addq	%r11, %r8
	adcq	%r10, %r9
	movq	%rcx, %rax
	mulq	%r15
	movq	%rdx, %rcx
	movq	%rax, %r10
	movq	%rdi, %rax
	mulq	%rbx
	addq	%r10, %rax
	adcq	%rcx, %rdx
	movq	%r13, %rdi
	imulq	%rbp, %rdi
	addq	%rax, %rdi
	adcq	$0, %rdx
	imulq	%rbx, %r13
	movq	%rdi, %rax
	addq	%r9, %rax
	adcq	%rdx, %r13
	movq	%r13, %rcx
	shrq	$2, %rcx
	leaq	(%rcx,%rcx,4), %rcx
	movq	%rcx, %rdx
	addq	%r8, %rdx
	adcq	%r9, %rdi
	andl	$3, %r13d
	addq	%rcx, %r8
	adcq	$0, %rax
	adcq	$0, %r13
	addq	$16, %rsi
	addq	$-16, %r14
	movq	%r8, %rcx
	cmpq	$15, %r14
	ja	.Lnoise_BB5_5
.Lnoise_BB5_6:
	movq	%r8, (%r12)
	movq	%rdi, 8(%r12)
	movq	%r13, 16(%r12)
	movq	$0, 24(%r12)
	movq	80(%r12), %r15
	leaq	(%r12,%r15), %rdi
	addq	$64, %rdi
	movq	%rdi, %rax
	subq	%rsi, %rax
	cmpq	%r14, %rax
	jae	.Lnoise_BB5_9
	cmpq	$4, %r14
	jb	.Lnoise_BB5_8
	leaq	(%r15,%r12), %rax
	subq	%rsi, %rax
	addq	$64, %rax
	cmpq	$32, %rax
	jae	.Lnoise_BB5_12
.Lnoise_BB5_8:
	xorl	%eax, %eax
.Lnoise_BB5_21:
	movq	%r14, %rdx
	movq	%rax, %rcx
	andq	$3, %rdx
	je	.Lnoise_BB5_24
	movq	%rax, %rcx
	.p2align	4
.Lnoise_BB5_23:
	movzbl	(%rsi,%rcx), %r8d
	movb	%r8b, (%rdi,%rcx)
	incq	%rcx
	decq	%rdx
	jne	.Lnoise_BB5_23
.Lnoise_BB5_24:
	subq	%r14, %rax
	cmpq	$-4, %rax
	ja	.Lnoise_BB5_27
	leaq	(%r15,%r12), %rax
	addq	$67, %rax
	.p2align	4
.Lnoise_BB5_26:
	movzbl	(%rsi,%rcx), %edx
	movb	%dl, -3(%rax,%rcx)
	movzbl	1(%rsi,%rcx), %edx
	movb	%dl, -2(%rax,%rcx)
	movzbl	2(%rsi,%rcx), %edx
	movb	%dl, -1(%rax,%rcx)
	movzbl	3(%rsi,%rcx), %edx
	movb	%dl, (%rax,%rcx)
	addq	$4, %rcx
	cmpq	%rcx, %r14
	jne	.Lnoise_BB5_26
	jmp	.Lnoise_BB5_27
.Lnoise_BB5_9:
	movq	%r14, %rdx
	callq	memmove@PLT
.Lnoise_BB5_27:
	addq	%r14, %r15
	movq	%r15, 80(%r12)
	addq	$680, %rsp
	.cfi_def_cfa_offset 56
	popq	%rbx
	.cfi_def_cfa_offset 48
	popq	%r12
	.cfi_def_cfa_offset 40
	popq	%r13
	.cfi_def_cfa_offset 32
	popq	%r14
	.cfi_def_cfa_offset 24
	popq	%r15
	.cfi_def_cfa_offset 16
	popq	%rbp
	.cfi_def_cfa_offset 8
	retq
.Lnoise_BB5_12:
	.cfi_def_cfa_offset 736
	cmpq	$32, %r14
	jae	.Lnoise_BB5_14
	xorl	%eax, %eax
	jmp	.Lnoise_BB5_18
.Lnoise_BB5_14:
	movl	%r14d, %eax
	andl	$32, %eax
	leaq	(%r15,%r12), %rcx
	addq	$80, %rcx
	xorl	%edx, %edx
	.p2align	4
.Lnoise_BB5_15:
	movdqu	(%rsi,%rdx), %xmm0
	movdqu	16(%rsi,%rdx), %xmm1
	movdqu	%xmm0, -16(%rcx,%rdx)
	movdqu	%xmm1, (%rcx,%rdx)
	addq	$32, %rdx
	cmpq	%rdx, %rax
	jne	.Lnoise_BB5_15
	cmpq	%rax, %r14
	je	.Lnoise_BB5_27
	testb	$28, %r14b
	je	.Lnoise_BB5_21
.Lnoise_BB5_18:
	movq	%rax, %rcx
	movl	%r14d, %eax
	andl	$60, %eax
	.p2align	4
.Lnoise_BB5_19:
	movl	(%rsi,%rcx), %edx
	movl	%edx, (%rdi,%rcx)
	addq	$4, %rcx
	cmpq	%rcx, %rax
	jne	.Lnoise_BB5_19
	cmpq	%rax, %r14
	je	.Lnoise_BB5_27
	jmp	.Lnoise_BB5_21
.Lnoise_func_end5:
	.size	"noise_poly::Poly1305::take_fours", .Lnoise_func_end5-"noise_poly::Poly1305::take_fours"
	.cfi_endproc

	.section	.rodata.cst16,"aM",@progbits,16
	.p2align	4, 0x0
.Lnoise_CPI6_0:
	.quad	16777216
	.quad	16777216
.Lnoise_CPI6_1:
	.quad	67108863
	.quad	67108863
	.section	".text.noise_poly::Poly1305::take_eights","ax",@progbits
	.p2align	4
	.type	"noise_poly::Poly1305::take_eights",@function
"noise_poly::Poly1305::take_eights":
	.cfi_startproc
	pushq	%rbp
	.cfi_def_cfa_offset 16
	pushq	%r15
	.cfi_def_cfa_offset 24
	pushq	%r14
	.cfi_def_cfa_offset 32
	pushq	%r13
	.cfi_def_cfa_offset 40
	pushq	%r12
	.cfi_def_cfa_offset 48
	pushq	%rbx
	.cfi_def_cfa_offset 56
	subq	$616, %rsp
	.cfi_def_cfa_offset 672
	.cfi_offset %rbx, -56
	.cfi_offset %r12, -48
	.cfi_offset %r13, -40
	.cfi_offset %r14, -32
	.cfi_offset %r15, -24
	.cfi_offset %rbp, -16
	movq	%rdx, %rbx
	movq	40(%rdi), %rcx
	movq	32(%rdi), %rdx
	movl	%edx, %r10d
	andl	$67108863, %r10d
	movq	%rdx, %r11
	shrq	$26, %r11
	andl	$67108863, %r11d
	movl	%ecx, %eax
	shll	$12, %eax
	movq	%rdx, 312(%rsp)
	movq	%rdx, %r15
	shrq	$52, %r15
	orl	%eax, %r15d
	andl	$67108863, %r15d
	movq	%rcx, %r12
	shrq	$14, %r12
	andl	$67108863, %r12d
	movq	%rcx, 320(%rsp)
	movq	%rcx, %r13
	shrq	$40, %r13
	leaq	(,%r13,4), %r8
	addq	%r13, %r8
	movdqu	(%rsi), %xmm4
	movdqu	16(%rsi), %xmm0
	movdqa	%xmm4, %xmm5
	punpckhqdq	%xmm0, %xmm5
	movdqa	%xmm5, %xmm7
	psrlq	$40, %xmm7
	por	.Lnoise_CPI6_0(%rip), %xmm7
	movl	16(%rdi), %edx
	shll	$24, %edx
	movq	(%rdi), %rax
	movq	%rdi, 328(%rsp)
	movq	8(%rdi), %rcx
	movq	%rcx, %rdi
	shrq	$40, %rdi
	orq	%rdx, %rdi
	movq	%xmm7, %rdx
	addq	%rdi, %rdx
	movq	%rdx, %xmm15
	movdqa	%xmm5, %xmm8
	psrlq	$14, %xmm8
	movdqa	.Lnoise_CPI6_1(%rip), %xmm2
	pand	%xmm2, %xmm8
	movq	%xmm8, %rdx
	movq	%rcx, %rdi
	shrq	$14, %rdi
	andl	$67108863, %edi
	addl	%edi, %edx
	movd	%edx, %xmm12
	punpcklqdq	%xmm0, %xmm4
	movdqa	%xmm4, %xmm0
	psrlq	$52, %xmm0
	psllq	$12, %xmm5
	por	%xmm0, %xmm5
	pand	%xmm2, %xmm5
	shldq	$12, %rax, %rcx
	movq	%xmm5, %rdx
	andl	$67108863, %ecx
	addl	%ecx, %edx
	movd	%edx, %xmm10
	movdqa	%xmm4, %xmm6
	psrlq	$26, %xmm6
	pand	%xmm2, %xmm6
	movq	%xmm6, %rcx
	movq	%rax, %rdx
	shrq	$26, %rdx
	andl	$67108863, %edx
	addl	%edx, %ecx
	movd	%ecx, %xmm11
	pand	%xmm2, %xmm4
	movq	%xmm4, %rcx
	andl	$67108863, %eax
	addl	%eax, %ecx
	movd	%ecx, %xmm0
	movq	%r11, %rax
	imulq	%r15, %rax
	movq	%r10, %rcx
	imulq	%r12, %rcx
	addq	%rax, %rcx
	movq	%r8, %rax
	imulq	%r13, %rax
	leaq	(%rax,%rcx,2), %r14
	movq	%r14, %rax
	shrq	$26, %rax
	movq	%r15, %rcx
	imulq	%r15, %rcx
	addq	%rax, %rcx
	movq	%r11, %rax
	imulq	%r12, %rax
	movq	%r10, %rdx
	imulq	%r13, %rdx
	addq	%rax, %rdx
	leaq	(%rcx,%rdx,2), %rax
	movq	%r11, %rcx
	imulq	%r11, %rcx
	movq	%r8, %rdi
	imulq	%r12, %rdi
	addq	%rcx, %rdi
	leal	(%r10,%r10), %ecx
	movq	%rcx, %rdx
	imulq	%r15, %rdx
	addq	%rdx, %rdi
	leal	(%r12,%r12,4), %ebp
	movq	%rbp, %rdx
	imulq	%r13, %rdx
	addq	%rdi, %rdx
	imulq	%r11, %rcx
	movq	%r8, %rdi
	imulq	%r15, %rdi
	addq	%rcx, %rdi
	movq	%rbp, %rcx
	imulq	%r12, %rcx
	addq	%rdi, %rcx
	leal	(%r15,%r15,4), %r9d
	movq	%r9, %r8
	imulq	%r13, %r8
	addq	%rcx, %r8
	leaq	(,%r13,4), %rcx
	addq	%r13, %rcx
	imulq	%r11, %rcx
	movq	%r10, 8(%rsp)
	imulq	%r10, %r10
	addq	%rcx, %r10
	movq	%rbp, 96(%rsp)
	movq	%rbp, %rcx
	movq	%r15, 56(%rsp)
	imulq	%r15, %rcx
	addq	%r10, %rcx
	movq	%r9, 40(%rsp)
	movq	%r12, 104(%rsp)
	imulq	%r12, %r9
	addq	%rcx, %r9
	movq	%r11, (%rsp)
	leal	(%r11,%r11,4), %edi
	movq	%rdi, 48(%rsp)
	movq	%r13, 72(%rsp)
	imulq	%r13, %rdi
	addq	%r9, %rdi
	movq	%rdi, %rcx
	shrq	$26, %rcx
	addq	%r8, %rcx
	movq	%rcx, %r8
	shrq	$26, %r8
	addq	%rdx, %r8
	movq	%r8, %rdx
	shrq	$26, %rdx
	andl	$67108863, %r14d
	addq	%rdx, %r14
	movl	%eax, %r9d
	andl	$67108863, %r9d
	movq	%r14, %rdx
	shrq	$26, %rdx
	addl	%r9d, %edx
	shrq	$26, %rax
	leaq	(%rax,%rax,4), %rax
	andl	$67108863, %edi
	addq	%rax, %rdi
	andl	$67108863, %ecx
	movq	%rdi, %rax
	shrq	$26, %rax
	addl	%ecx, %eax
	andl	$67108863, %r8d
	movq	%r8, %rcx
	imulq	%rax, %rcx
	andl	$67108863, %r14d
	andl	$67108863, %edi
	movq	%r14, %r10
	imulq	%rdi, %r10
	addq	%rcx, %r10
	leal	(%rdx,%rdx,4), %r9d
	movq	%r9, %rcx
	imulq	%rdx, %rcx
	leaq	(%rcx,%r10,2), %r13
	movq	%r13, %rcx
	shrq	$26, %rcx
	movq	%r8, %r10
	imulq	%r8, %r10
	addq	%rcx, %r10
	movq	%rdi, %rcx
	imulq	%rdx, %rcx
	movq	%r14, %r11
	imulq	%rax, %r11
	addq	%rcx, %r11
	leaq	(%r10,%r11,2), %r11
	movq	%rax, %rcx
	imulq	%rax, %rcx
	leal	(%r8,%r8), %r15d
	imulq	%rdi, %r15
	addq	%rcx, %r15
	leaq	(%r14,%r14,4), %r10
	movq	%r10, %r12
	imulq	%rdx, %r12
	addq	%r15, %r12
	movq	%r14, %rcx
	imulq	%r9, %rcx
	addq	%r12, %rcx
	leal	(%rdi,%rdi), %r15d
	imulq	%rax, %r15
	movq	%r10, %r12
	imulq	%r14, %r12
	addq	%r12, %r15
	leaq	(%r8,%r8,4), %r12
	imulq	%r12, %r14
	imulq	%rdx, %r12
	addq	%r15, %r12
	imulq	%r8, %r10
	imulq	%r9, %r8
	addq	%r12, %r8
	imulq	%rdi, %rdi
	addq	%r14, %rdi
	addq	%r10, %rdi
	imulq	%rax, %r9
	leal	(%rax,%rax,4), %eax
	imulq	%rdx, %rax
	addq	%rdi, %rax
	addq	%rax, %r9
	movq	%r9, %rax
	shrq	$26, %rax
	addq	%r8, %rax
	movq	%rax, %r14
	shrq	$26, %r14
	addq	%rcx, %r14
	movq	%r14, %rcx
	shrq	$26, %rcx
	movq	%r13, %rdx
	andl	$67108863, %edx
	addq	%rcx, %rdx
	movl	%r11d, %ecx
	andl	$67108863, %ecx
	movq	%rdx, %r13
	movq	%rdx, %r12
	shrq	$26, %r13
	addl	%ecx, %r13d
	shrq	$26, %r11
	leaq	(%r11,%r11,4), %rcx
	andl	$67108863, %r9d
	addq	%rcx, %r9
	andl	$67108863, %eax
	movq	%r9, %r15
	shrq	$26, %r15
	addl	%eax, %r15d
	andl	$67108863, %r14d
	movq	%r14, %rax
	imulq	%r15, %rax
	andl	$67108863, %r12d
	andl	$67108863, %r9d
	movq	%r12, %rcx
	imulq	%r9, %rcx
	addq	%rax, %rcx
	leal	(%r13,%r13,4), %edi
	movq	%rdi, %rax
	movq	%rdi, %rbp
	imulq	%r13, %rax
	leaq	(%rax,%rcx,2), %rdx
	movq	%rdx, %rax
	shrq	$26, %rax
	movq	%r14, %rdi
	imulq	%r14, %rdi
	addq	%rax, %rdi
	movq	%r9, %rax
	imulq	%r13, %rax
	movq	%r12, %r8
	imulq	%r15, %r8
	addq	%rax, %r8
	leaq	(%rdi,%r8,2), %rax
	movq	%rax, 80(%rsp)
	leal	(%r9,%r9), %edi
	movq	%rdi, %r8
	imulq	%r14, %r8
	movq	%r15, %r10
	imulq	%r15, %r10
	addq	%r10, %r8
	movq	%r12, %rcx
	leaq	(%r12,%r12,4), %r12
	movq	%r12, %r10
	imulq	%r13, %r10
	addq	%r8, %r10
	movq	%rcx, %r11
	imulq	%rbp, %r11
	addq	%r10, %r11
	imulq	%rcx, %r12
	imulq	%r15, %rdi
	addq	%r12, %rdi
	leaq	(%r14,%r14,4), %r10
	movq	%r10, %r8
	imulq	%r13, %r8
	addq	%rdi, %r8
	movq	%r14, %r12
	imulq	%rbp, %r12
	movq	%rbp, %rax
	movq	%rbp, 16(%rsp)
	addq	%r8, %r12
	movq	%rcx, %rdi
	imulq	%r10, %rdi
	movq	%r9, %r8
	imulq	%r9, %r8
	addq	%rdi, %r8
	leaq	(%rcx,%rcx,4), %r10
	imulq	%r14, %r10
	addq	%r8, %r10
	leal	(%r15,%r15,4), %edi
	movq	%r13, %rbp
	imulq	%rdi, %rbp
	addq	%r10, %rbp
	movq	%rax, %r8
	imulq	%r15, %r8
	addq	%rbp, %r8
	movq	%r8, %r10
	shrq	$26, %r10
	addq	%r12, %r10
	movq	%r10, %r12
	shrq	$26, %r12
	addq	%r11, %r12
	movq	%r12, %r11
	shrq	$26, %r11
	andl	$67108863, %edx
	addq	%r11, %rdx
	movq	80(%rsp), %rax
	movl	%eax, %ebp
	andl	$67108863, %ebp
	movq	%rdx, %r11
	shrq	$26, %r11
	addl	%ebp, %r11d
	shrq	$26, %rax
	leaq	(%rax,%rax,4), %rax
	andl	$67108863, %r8d
	addq	%rax, %r8
	andl	$67108863, %r10d
	movq	%r8, %rax
	shrq	$26, %rax
	addl	%r10d, %eax
	andl	$67108863, %r8d
	movd	%r8d, %xmm3
	movdqu	32(%rsi), %xmm1
	movdqu	48(%rsi), %xmm13
	movdqa	%xmm1, %xmm2
	punpckhqdq	%xmm13, %xmm2
	shufps	$228, %xmm7, %xmm15
	movdqa	%xmm2, %xmm9
	shufps	$228, %xmm8, %xmm12
	movdqa	%xmm2, %xmm14
	punpcklqdq	%xmm13, %xmm1
	movdqa	%xmm1, %xmm7
	psrlq	$52, %xmm7
	psllq	$12, %xmm2
	por	%xmm7, %xmm2
	leal	(%r11,%r11,4), %r8d
	movd	%r8d, %xmm8
	shufps	$228, %xmm5, %xmm10
	andl	$67108863, %edx
	leaq	(%rdx,%rdx,4), %r8
	movd	%r8d, %xmm5
	shufps	$228, %xmm6, %xmm11
	andl	$67108863, %r12d
	leaq	(%r12,%r12,4), %r8
	movd	%r8d, %xmm6
	psrlq	$40, %xmm9
	por	.Lnoise_CPI6_0(%rip), %xmm9
	psrlq	$14, %xmm14
	movdqa	.Lnoise_CPI6_1(%rip), %xmm13
	pand	%xmm13, %xmm14
	pand	%xmm13, %xmm2
	shufps	$228, %xmm4, %xmm0
	movaps	%xmm12, %xmm4
	movdqa	%xmm1, %xmm7
	psrlq	$26, %xmm7
	pand	%xmm13, %xmm7
	pand	%xmm13, %xmm1
	movdqa	%xmm1, %xmm13
	addq	$-64, %rbx
	addq	$64, %rsi
	pshufd	$68, %xmm3, %xmm3
	movdqa	%xmm3, 288(%rsp)
	pshufd	$68, %xmm8, %xmm3
	movdqa	%xmm3, 272(%rsp)
	pshufd	$68, %xmm5, %xmm3
	movdqa	%xmm3, 544(%rsp)
	pshufd	$68, %xmm6, %xmm3
	movdqa	%xmm3, 528(%rsp)
	leal	(%rax,%rax,4), %r8d
	movd	%r8d, %xmm3
	pshufd	$68, %xmm3, %xmm3
	movdqa	%xmm3, 512(%rsp)
	movd	%eax, %xmm3
	pshufd	$68, %xmm3, %xmm3
	movdqa	%xmm3, 256(%rsp)
	movq	%r12, %xmm3
	pshufd	$68, %xmm3, %xmm3
	movdqa	%xmm3, 496(%rsp)
	movq	%rdx, %xmm3
	pshufd	$68, %xmm3, %xmm3
	movdqa	%xmm3, 480(%rsp)
	movd	%r11d, %xmm3
	pshufd	$68, %xmm3, %xmm3
	movdqa	%xmm3, 464(%rsp)
	movq	%r9, %xmm3
	pshufd	$68, %xmm3, %xmm3
	movdqa	%xmm3, 368(%rsp)
	movq	16(%rsp), %xmm3
	pshufd	$68, %xmm3, %xmm3
	movdqa	%xmm3, 352(%rsp)
	leaq	(%rcx,%rcx,4), %rax
	movq	%rax, %xmm3
	pshufd	$68, %xmm3, %xmm3
	movdqa	%xmm3, 240(%rsp)
	leaq	(%r14,%r14,4), %rax
	movq	%rax, %xmm3
	pshufd	$68, %xmm3, %xmm3
	movdqa	%xmm3, 336(%rsp)
	movq	%rdi, %xmm3
	pshufd	$68, %xmm3, %xmm3
	movdqa	%xmm3, 448(%rsp)
	movq	%r15, %xmm3
	pshufd	$68, %xmm3, %xmm3
	movdqa	%xmm3, 432(%rsp)
	movq	%r14, %xmm3
	pshufd	$68, %xmm3, %xmm3
	movdqa	%xmm3, 416(%rsp)
	movq	%rcx, %xmm3
	pshufd	$68, %xmm3, %xmm3
	movdqa	%xmm3, 400(%rsp)
	movq	%r13, %xmm3
	pshufd	$68, %xmm3, %xmm3
	movdqa	%xmm3, 384(%rsp)
	.p2align	4
.Lnoise_BB6_1:
	movdqa	%xmm13, %xmm3
	psrlq	$26, %xmm3
	paddq	%xmm7, %xmm3
	movaps	%xmm0, %xmm5
	psrlq	$26, %xmm5
	paddq	%xmm11, %xmm5
	movaps	%xmm4, %xmm1
	psrlq	$26, %xmm4
	paddq	%xmm15, %xmm4
	movdqa	%xmm14, %xmm6
	psrlq	$26, %xmm6
	paddq	%xmm9, %xmm6
	movdqa	%xmm3, %xmm7
	psrlq	$26, %xmm7
	paddq	%xmm2, %xmm7
	movdqa	%xmm5, %xmm8
	psrlq	$26, %xmm8
	paddq	%xmm10, %xmm8
	movaps	.Lnoise_CPI6_1(%rip), %xmm11
	andps	%xmm11, %xmm0
	pand	%xmm11, %xmm13
	movdqa	%xmm4, %xmm2
	psrlq	$26, %xmm2
	movdqa	%xmm6, %xmm10
	psrlq	$26, %xmm10
	movdqa	%xmm10, %xmm9
	psllq	$2, %xmm9
	movdqa	%xmm2, %xmm12
	psllq	$2, %xmm12
	paddq	%xmm2, %xmm12
	paddq	%xmm0, %xmm12
	paddq	%xmm10, %xmm9
	paddq	%xmm13, %xmm9
	pand	%xmm11, %xmm14
	andps	%xmm11, %xmm1
	movdqa	%xmm7, %xmm10
	psrlq	$26, %xmm10
	paddq	%xmm14, %xmm10
	movdqa	%xmm8, %xmm14
	psrlq	$26, %xmm14
	paddq	%xmm1, %xmm14
	movdqa	%xmm9, %xmm0
	pand	%xmm11, %xmm0
	movdqa	%xmm0, %xmm15
	movdqa	%xmm0, 16(%rsp)
	movdqa	%xmm12, %xmm0
	pand	%xmm11, %xmm0
	movdqa	%xmm0, %xmm1
	pand	%xmm11, %xmm5
	pand	%xmm11, %xmm3
	psrlq	$26, %xmm12
	paddq	%xmm5, %xmm12
	psrlq	$26, %xmm9
	paddq	%xmm3, %xmm9
	pand	%xmm11, %xmm8
	pand	%xmm11, %xmm7
	movdqa	%xmm10, %xmm0
	pand	%xmm11, %xmm0
	movdqa	%xmm0, %xmm13
	movdqa	%xmm0, 112(%rsp)
	movdqa	%xmm14, %xmm0
	pand	%xmm11, %xmm0
	movdqa	%xmm0, 80(%rsp)
	pand	%xmm11, %xmm6
	pand	%xmm11, %xmm4
	psrlq	$26, %xmm10
	paddq	%xmm6, %xmm10
	psrlq	$26, %xmm14
	paddq	%xmm4, %xmm14
	movdqa	%xmm1, %xmm2
	movdqa	%xmm1, %xmm11
	movdqa	%xmm1, 128(%rsp)
	movdqa	288(%rsp), %xmm1
	pmuludq	%xmm1, %xmm2
	movdqa	%xmm15, %xmm3
	pmuludq	%xmm1, %xmm3
	movdqa	%xmm12, %xmm4
	movdqa	272(%rsp), %xmm1
	pmuludq	%xmm1, %xmm4
	movdqa	%xmm9, %xmm5
	pmuludq	%xmm1, %xmm5
	movdqa	%xmm7, %xmm6
	movdqa	544(%rsp), %xmm15
	pmuludq	%xmm15, %xmm6
	paddq	%xmm3, %xmm6
	paddq	%xmm5, %xmm6
	movdqa	%xmm8, %xmm3
	pmuludq	%xmm15, %xmm3
	paddq	%xmm2, %xmm3
	paddq	%xmm4, %xmm3
	movdqa	%xmm0, %xmm2
	movdqa	528(%rsp), %xmm1
	pmuludq	%xmm1, %xmm2
	movdqa	%xmm13, %xmm4
	pmuludq	%xmm1, %xmm4
	movdqa	%xmm10, %xmm13
	movdqa	512(%rsp), %xmm5
	pmuludq	%xmm5, %xmm13
	paddq	%xmm4, %xmm13
	paddq	%xmm6, %xmm13
	movdqa	%xmm13, 176(%rsp)
	movdqa	%xmm14, %xmm4
	pmuludq	%xmm5, %xmm4
	paddq	%xmm2, %xmm4
	paddq	%xmm3, %xmm4
	movdqa	%xmm4, 224(%rsp)
	movdqa	256(%rsp), %xmm0
	pmuludq	%xmm0, %xmm11
	movdqa	16(%rsp), %xmm13
	movdqa	%xmm13, %xmm3
	pmuludq	%xmm0, %xmm3
	movdqa	%xmm12, %xmm4
	movdqa	288(%rsp), %xmm6
	pmuludq	%xmm6, %xmm4
	movdqa	%xmm7, %xmm5
	movdqa	272(%rsp), %xmm0
	pmuludq	%xmm0, %xmm5
	paddq	%xmm3, %xmm5
	movdqa	%xmm9, %xmm3
	pmuludq	%xmm6, %xmm3
	paddq	%xmm3, %xmm5
	movdqa	%xmm8, %xmm3
	pmuludq	%xmm0, %xmm3
	paddq	%xmm11, %xmm3
	paddq	%xmm4, %xmm3
	movdqa	112(%rsp), %xmm2
	pmuludq	%xmm15, %xmm2
	movdqa	%xmm10, %xmm4
	pmuludq	%xmm1, %xmm4
	paddq	%xmm2, %xmm4
	movdqa	80(%rsp), %xmm2
	pmuludq	%xmm15, %xmm2
	paddq	%xmm5, %xmm4
	movdqa	%xmm4, 208(%rsp)
	movdqa	%xmm14, %xmm4
	pmuludq	%xmm1, %xmm4
	paddq	%xmm2, %xmm4
	paddq	%xmm3, %xmm4
	movdqa	%xmm4, 192(%rsp)
	movdqa	%xmm13, %xmm2
	movdqa	496(%rsp), %xmm11
	pmuludq	%xmm11, %xmm2
	movdqa	%xmm7, %xmm3
	pmuludq	%xmm6, %xmm3
	paddq	%xmm2, %xmm3
	movdqa	%xmm9, %xmm2
	movdqa	256(%rsp), %xmm1
	pmuludq	%xmm1, %xmm2
	paddq	%xmm2, %xmm3
	movdqa	128(%rsp), %xmm0
	movdqa	%xmm0, %xmm2
	pmuludq	%xmm11, %xmm2
	movdqa	%xmm8, %xmm4
	pmuludq	%xmm6, %xmm4
	paddq	%xmm2, %xmm4
	movdqa	%xmm12, %xmm2
	pmuludq	%xmm1, %xmm2
	paddq	%xmm2, %xmm4
	movdqa	112(%rsp), %xmm6
	movdqa	%xmm6, %xmm2
	movdqa	272(%rsp), %xmm13
	pmuludq	%xmm13, %xmm2
	movdqa	%xmm10, %xmm5
	pmuludq	%xmm15, %xmm5
	paddq	%xmm2, %xmm5
	paddq	%xmm3, %xmm5
	movdqa	%xmm5, 160(%rsp)
	movdqa	80(%rsp), %xmm2
	pmuludq	%xmm13, %xmm2
	movdqa	%xmm14, %xmm3
	pmuludq	%xmm15, %xmm3
	paddq	%xmm2, %xmm3
	paddq	%xmm4, %xmm3
	movdqa	%xmm3, 144(%rsp)
	movdqa	16(%rsp), %xmm2
	movdqa	480(%rsp), %xmm1
	pmuludq	%xmm1, %xmm2
	movdqa	%xmm7, %xmm3
	movdqa	256(%rsp), %xmm15
	pmuludq	%xmm15, %xmm3
	paddq	%xmm2, %xmm3
	movdqa	%xmm9, %xmm2
	pmuludq	%xmm11, %xmm2
	paddq	%xmm2, %xmm3
	movdqa	%xmm0, %xmm2
	pmuludq	%xmm1, %xmm2
	movdqa	%xmm8, %xmm4
	pmuludq	%xmm15, %xmm4
	paddq	%xmm2, %xmm4
	movdqa	%xmm12, %xmm2
	pmuludq	%xmm11, %xmm2
	paddq	%xmm2, %xmm4
	movdqa	%xmm6, %xmm2
	movdqa	288(%rsp), %xmm6
	pmuludq	%xmm6, %xmm2
	movdqa	%xmm10, %xmm5
	pmuludq	%xmm13, %xmm5
	paddq	%xmm2, %xmm5
	paddq	%xmm3, %xmm5
	movdqa	%xmm5, 592(%rsp)
	movdqa	80(%rsp), %xmm5
	movdqa	%xmm5, %xmm2
	pmuludq	%xmm6, %xmm2
	movdqa	%xmm14, %xmm3
	pmuludq	%xmm13, %xmm3
	paddq	%xmm2, %xmm3
	paddq	%xmm4, %xmm3
	movdqa	%xmm3, 576(%rsp)
	movdqa	464(%rsp), %xmm2
	pmuludq	%xmm2, %xmm0
	pmuludq	%xmm11, %xmm8
	paddq	%xmm0, %xmm8
	pmuludq	%xmm1, %xmm12
	paddq	%xmm12, %xmm8
	movdqa	16(%rsp), %xmm3
	pmuludq	%xmm2, %xmm3
	pmuludq	%xmm1, %xmm9
	pmuludq	%xmm11, %xmm7
	paddq	%xmm3, %xmm7
	paddq	%xmm9, %xmm7
	movdqa	112(%rsp), %xmm0
	pmuludq	%xmm15, %xmm0
	movdqa	%xmm5, %xmm1
	pmuludq	%xmm15, %xmm1
	pmuludq	%xmm6, %xmm14
	paddq	%xmm1, %xmm14
	paddq	%xmm8, %xmm14
	movdqa	%xmm14, 16(%rsp)
	pmuludq	%xmm6, %xmm10
	paddq	%xmm0, %xmm10
	paddq	%xmm7, %xmm10
	movdqa	%xmm10, 80(%rsp)
	movdqu	(%rsi), %xmm3
	movdqu	16(%rsi), %xmm0
	movdqu	32(%rsi), %xmm5
	movdqu	48(%rsi), %xmm1
	movdqa	%xmm3, %xmm2
	punpcklqdq	%xmm0, %xmm2
	movdqa	%xmm5, %xmm4
	punpcklqdq	%xmm1, %xmm4
	punpckhqdq	%xmm1, %xmm5
	punpckhqdq	%xmm0, %xmm3
	movdqa	%xmm3, %xmm0
	movdqa	%xmm2, %xmm11
	movdqa	%xmm2, %xmm3
	psrlq	$52, %xmm2
	movdqa	%xmm0, %xmm13
	movdqa	%xmm0, %xmm10
	movdqa	%xmm0, 128(%rsp)
	psllq	$12, %xmm13
	por	%xmm2, %xmm13
	movdqa	%xmm4, %xmm7
	movdqa	%xmm4, %xmm2
	psrlq	$52, %xmm4
	movdqa	%xmm5, %xmm14
	movdqa	%xmm5, %xmm15
	movdqa	%xmm5, 560(%rsp)
	psllq	$12, %xmm14
	por	%xmm4, %xmm14
	movdqa	.Lnoise_CPI6_1(%rip), %xmm0
	pand	%xmm0, %xmm7
	psrlq	$26, %xmm2
	pand	%xmm0, %xmm2
	movdqa	%xmm7, %xmm1
	movdqa	368(%rsp), %xmm6
	pmuludq	%xmm6, %xmm1
	movdqa	%xmm2, %xmm4
	movdqa	352(%rsp), %xmm12
	pmuludq	%xmm12, %xmm4
	paddq	%xmm1, %xmm4
	pand	%xmm0, %xmm11
	psrlq	$26, %xmm3
	pand	%xmm0, %xmm3
	movdqa	%xmm11, %xmm1
	pmuludq	%xmm6, %xmm1
	movdqa	%xmm3, %xmm5
	pmuludq	%xmm12, %xmm5
	paddq	%xmm1, %xmm5
	pand	%xmm0, %xmm13
	movdqa	%xmm13, %xmm1
	movdqa	240(%rsp), %xmm9
	pmuludq	%xmm9, %xmm1
	paddq	%xmm5, %xmm1
	pand	%xmm0, %xmm14
	movdqa	%xmm14, %xmm8
	pmuludq	%xmm9, %xmm8
	paddq	%xmm4, %xmm8
	movdqa	%xmm15, %xmm9
	psrlq	$14, %xmm9
	pand	%xmm0, %xmm9
	movdqa	%xmm9, %xmm5
	movdqa	336(%rsp), %xmm4
	pmuludq	%xmm4, %xmm5
	paddq	%xmm8, %xmm5
	paddq	176(%rsp), %xmm5
	movdqa	%xmm5, 176(%rsp)
	movdqa	%xmm10, %xmm5
	psrlq	$14, %xmm5
	pand	%xmm0, %xmm5
	movdqa	%xmm5, %xmm0
	pmuludq	%xmm4, %xmm0
	paddq	%xmm1, %xmm0
	paddq	224(%rsp), %xmm0
	movdqa	%xmm0, 112(%rsp)
	movdqa	%xmm7, %xmm1
	movdqa	432(%rsp), %xmm10
	pmuludq	%xmm10, %xmm1
	movdqa	%xmm2, %xmm4
	pmuludq	%xmm6, %xmm4
	paddq	%xmm1, %xmm4
	movdqa	%xmm11, %xmm15
	movdqa	%xmm11, %xmm1
	pmuludq	%xmm10, %xmm1
	movdqa	%xmm3, %xmm8
	pmuludq	%xmm6, %xmm8
	paddq	%xmm1, %xmm8
	movdqa	%xmm13, %xmm1
	pmuludq	%xmm12, %xmm1
	paddq	%xmm8, %xmm1
	movdqa	%xmm14, %xmm8
	pmuludq	%xmm12, %xmm8
	paddq	%xmm4, %xmm8
	movdqa	%xmm9, %xmm0
	movdqa	240(%rsp), %xmm11
	pmuludq	%xmm11, %xmm0
	paddq	%xmm8, %xmm0
	paddq	208(%rsp), %xmm0
	movdqa	%xmm0, 208(%rsp)
	movdqa	%xmm5, %xmm0
	pmuludq	%xmm11, %xmm0
	paddq	%xmm1, %xmm0
	paddq	192(%rsp), %xmm0
	movdqa	%xmm0, 224(%rsp)
	movdqa	%xmm7, %xmm1
	movdqa	416(%rsp), %xmm11
	pmuludq	%xmm11, %xmm1
	movdqa	%xmm2, %xmm4
	pmuludq	%xmm10, %xmm4
	paddq	%xmm1, %xmm4
	movdqa	%xmm15, %xmm1
	pmuludq	%xmm11, %xmm1
	movdqa	%xmm3, %xmm8
	pmuludq	%xmm10, %xmm8
	paddq	%xmm1, %xmm8
	movdqa	%xmm13, %xmm1
	pmuludq	%xmm6, %xmm1
	paddq	%xmm8, %xmm1
	movdqa	%xmm14, %xmm8
	pmuludq	%xmm6, %xmm8
	paddq	%xmm4, %xmm8
	movdqa	%xmm9, %xmm0
	pmuludq	%xmm12, %xmm0
	paddq	%xmm8, %xmm0
	paddq	160(%rsp), %xmm0
	movdqa	%xmm0, 160(%rsp)
	movdqa	%xmm5, %xmm0
	pmuludq	%xmm12, %xmm0
	paddq	%xmm1, %xmm0
	paddq	144(%rsp), %xmm0
	movdqa	%xmm0, 192(%rsp)
	movdqa	%xmm7, %xmm1
	movdqa	400(%rsp), %xmm0
	pmuludq	%xmm0, %xmm1
	movdqa	%xmm2, %xmm4
	pmuludq	%xmm11, %xmm4
	paddq	%xmm1, %xmm4
	movdqa	%xmm15, %xmm1
	pmuludq	%xmm0, %xmm1
	movdqa	%xmm3, %xmm8
	pmuludq	%xmm11, %xmm8
	paddq	%xmm1, %xmm8
	movdqa	%xmm13, %xmm12
	pmuludq	%xmm10, %xmm12
	paddq	%xmm8, %xmm12
	movdqa	%xmm14, %xmm8
	pmuludq	%xmm10, %xmm8
	paddq	%xmm4, %xmm8
	movdqa	%xmm9, %xmm4
	pmuludq	%xmm6, %xmm4
	paddq	%xmm8, %xmm4
	paddq	592(%rsp), %xmm4
	movdqa	%xmm5, %xmm1
	pmuludq	%xmm6, %xmm1
	paddq	%xmm12, %xmm1
	paddq	576(%rsp), %xmm1
	movdqa	%xmm1, 144(%rsp)
	movdqa	384(%rsp), %xmm8
	movdqa	%xmm15, %xmm1
	pmuludq	%xmm8, %xmm1
	pmuludq	%xmm0, %xmm3
	paddq	%xmm1, %xmm3
	pmuludq	%xmm8, %xmm7
	pmuludq	%xmm0, %xmm2
	paddq	%xmm7, %xmm2
	pmuludq	%xmm11, %xmm14
	paddq	%xmm2, %xmm14
	pmuludq	%xmm11, %xmm13
	paddq	%xmm3, %xmm13
	pmuludq	%xmm10, %xmm5
	paddq	%xmm13, %xmm5
	paddq	16(%rsp), %xmm5
	pmuludq	%xmm10, %xmm9
	paddq	%xmm14, %xmm9
	paddq	80(%rsp), %xmm9
	movdqa	%xmm9, 16(%rsp)
	movdqu	80(%rsi), %xmm0
	movdqu	112(%rsi), %xmm2
	movdqu	96(%rsi), %xmm9
	movdqa	%xmm9, %xmm3
	punpcklqdq	%xmm2, %xmm3
	punpckhqdq	%xmm2, %xmm9
	movdqu	64(%rsi), %xmm15
	movdqa	%xmm15, %xmm14
	punpcklqdq	%xmm0, %xmm14
	punpckhqdq	%xmm0, %xmm15
	movdqa	560(%rsp), %xmm6
	psrlq	$40, %xmm6
	movdqa	.Lnoise_CPI6_0(%rip), %xmm2
	por	%xmm2, %xmm6
	movdqa	%xmm6, %xmm0
	movdqa	448(%rsp), %xmm7
	pmuludq	%xmm7, %xmm0
	movdqa	%xmm3, %xmm1
	movdqa	.Lnoise_CPI6_1(%rip), %xmm13
	pand	%xmm13, %xmm1
	paddq	%xmm0, %xmm1
	paddq	176(%rsp), %xmm1
	movdqa	128(%rsp), %xmm0
	psrlq	$40, %xmm0
	por	%xmm2, %xmm0
	movdqa	%xmm0, %xmm2
	pmuludq	%xmm7, %xmm2
	movdqa	%xmm14, %xmm12
	pand	%xmm13, %xmm12
	paddq	%xmm2, %xmm12
	paddq	112(%rsp), %xmm12
	movdqa	%xmm6, %xmm2
	movdqa	336(%rsp), %xmm11
	pmuludq	%xmm11, %xmm2
	movdqa	%xmm3, %xmm7
	psrlq	$26, %xmm7
	pand	%xmm13, %xmm7
	paddq	%xmm2, %xmm7
	paddq	208(%rsp), %xmm7
	movdqa	%xmm0, %xmm2
	pmuludq	%xmm11, %xmm2
	movdqa	%xmm14, %xmm11
	psrlq	$26, %xmm11
	pand	%xmm13, %xmm11
	paddq	%xmm2, %xmm11
	paddq	224(%rsp), %xmm11
	psrlq	$52, %xmm14
	movdqa	%xmm15, %xmm10
	psllq	$12, %xmm10
	por	%xmm14, %xmm10
	psrlq	$52, %xmm3
	movdqa	%xmm9, %xmm2
	psllq	$12, %xmm2
	por	%xmm3, %xmm2
	movdqa	%xmm6, %xmm3
	movdqa	240(%rsp), %xmm8
	pmuludq	%xmm8, %xmm3
	pand	%xmm13, %xmm2
	paddq	%xmm3, %xmm2
	paddq	160(%rsp), %xmm2
	movdqa	%xmm0, %xmm3
	pmuludq	%xmm8, %xmm3
	pand	%xmm13, %xmm10
	paddq	%xmm3, %xmm10
	movdqa	%xmm6, %xmm3
	movdqa	352(%rsp), %xmm8
	pmuludq	%xmm8, %xmm3
	paddq	192(%rsp), %xmm10
	movdqa	%xmm9, %xmm14
	psrlq	$14, %xmm14
	pand	%xmm13, %xmm14
	paddq	%xmm3, %xmm14
	movdqa	%xmm0, %xmm3
	pmuludq	%xmm8, %xmm3
	paddq	%xmm4, %xmm14
	movdqa	%xmm15, %xmm4
	psrlq	$14, %xmm4
	pand	%xmm13, %xmm4
	paddq	%xmm3, %xmm4
	paddq	144(%rsp), %xmm4
	movdqa	368(%rsp), %xmm3
	pmuludq	%xmm3, %xmm0
	psrlq	$40, %xmm15
	paddq	%xmm0, %xmm15
	movdqa	%xmm12, %xmm0
	pmuludq	%xmm3, %xmm6
	psrlq	$40, %xmm9
	paddq	%xmm6, %xmm9
	movdqa	.Lnoise_CPI6_0(%rip), %xmm3
	paddq	%xmm3, %xmm15
	paddq	%xmm5, %xmm15
	paddq	%xmm3, %xmm9
	movdqa	%xmm1, %xmm13
	paddq	16(%rsp), %xmm9
	addq	$128, %rsi
	addq	$-128, %rbx
	cmpq	$127, %rbx
	ja	.Lnoise_BB6_1
	movaps	%xmm0, %xmm6
	psrlq	$26, %xmm6
	paddq	%xmm11, %xmm6
	movaps	%xmm4, %xmm5
	psrlq	$26, %xmm5
	paddq	%xmm15, %xmm5
	movdqa	%xmm6, %xmm3
	psrlq	$26, %xmm3
	paddq	%xmm10, %xmm3
	movaps	.Lnoise_CPI6_1(%rip), %xmm8
	andps	%xmm8, %xmm0
	movdqa	%xmm5, %xmm10
	psrlq	$26, %xmm10
	paddq	%xmm10, %xmm0
	psllq	$2, %xmm10
	paddq	%xmm0, %xmm10
	andps	%xmm8, %xmm4
	movaps	%xmm4, %xmm0
	movdqa	%xmm3, %xmm4
	psrlq	$26, %xmm4
	paddq	%xmm0, %xmm4
	pand	%xmm8, %xmm6
	movdqa	%xmm10, %xmm1
	psrlq	$26, %xmm1
	paddq	%xmm6, %xmm1
	pand	%xmm8, %xmm5
	movdqa	%xmm4, %xmm0
	psrlq	$26, %xmm0
	paddq	%xmm5, %xmm0
	pand	%xmm8, %xmm10
	movd	%xmm10, %r15d
	movd	%xmm1, %edx
	pand	%xmm8, %xmm3
	movd	%xmm3, %r8d
	pand	%xmm8, %xmm4
	movd	%xmm4, %r9d
	movq	8(%rsp), %rcx
	movq	%rcx, %rax
	movq	%rcx, %r11
	imulq	%r15, %rax
	movq	%r8, %rcx
	movq	96(%rsp), %r12
	imulq	%r12, %rcx
	addq	%rax, %rcx
	movq	72(%rsp), %rax
	leaq	(%rax,%rax,4), %r13
	movq	%r13, %rax
	movq	%r13, 64(%rsp)
	imulq	%rdx, %rax
	movq	%rdx, 16(%rsp)
	addq	%rax, %rcx
	movq	%r9, %r10
	movq	40(%rsp), %rdi
	imulq	%rdi, %r10
	addq	%rcx, %r10
	movd	%xmm0, %eax
	movq	%rax, %rbp
	imulq	48(%rsp), %rbp
	addq	%r10, %rbp
	movq	%r15, %rcx
	movq	(%rsp), %r14
	imulq	%r14, %rcx
	movq	%r13, %r10
	imulq	%r8, %r10
	addq	%rcx, %r10
	movq	%r11, %rcx
	imulq	%rdx, %rcx
	addq	%rcx, %r10
	movq	%r9, %rcx
	imulq	%r12, %rcx
	movq	%r12, %rdx
	addq	%r10, %rcx
	movq	%rax, %r10
	imulq	%rdi, %r10
	addq	%rcx, %r10
	movq	%r15, %rcx
	movq	%r15, 80(%rsp)
	imulq	56(%rsp), %rcx
	imulq	%r8, %r11
	addq	%rcx, %r11
	movq	16(%rsp), %r12
	movq	%r12, %rcx
	imulq	%r14, %rcx
	movq	%r14, %r13
	addq	%rcx, %r11
	movq	64(%rsp), %rdi
	movq	%rdi, %rcx
	imulq	%r9, %rcx
	addq	%r11, %rcx
	movq	%rax, %r11
	imulq	%rdx, %r11
	addq	%rcx, %r11
	movq	104(%rsp), %rdx
	imulq	%rdx, %r15
	movq	%r8, %r14
	imulq	%r13, %r14
	addq	%r15, %r14
	movq	%r12, %rcx
	movq	56(%rsp), %r12
	imulq	%r12, %rcx
	addq	%rcx, %r14
	movq	8(%rsp), %r15
	imulq	%r9, %r15
	addq	%r14, %r15
	movq	%rdi, %rcx
	movq	%rdi, %r14
	imulq	%rax, %rcx
	addq	%r15, %rcx
	movq	80(%rsp), %rdi
	imulq	72(%rsp), %rdi
	imulq	%r12, %r8
	addq	%rdi, %r8
	movq	16(%rsp), %rdi
	imulq	%rdx, %rdi
	addq	%rdi, %r8
	imulq	%r13, %r9
	addq	%r8, %r9
	pshufd	$238, %xmm1, %xmm1
	movq	8(%rsp), %r15
	imulq	%r15, %rax
	addq	%r9, %rax
	movl	%ebp, %r8d
	shrq	$26, %rbp
	addq	%r10, %rbp
	movl	%ecx, %edx
	shrq	$26, %rcx
	addq	%rax, %rcx
	movl	%ebp, %eax
	andl	$67108863, %eax
	movd	%xmm1, %edi
	addl	%edi, %eax
	pshufd	$238, %xmm0, %xmm0
	shrq	$26, %rbp
	addq	%r11, %rbp
	movl	%ecx, %r9d
	andl	$67108863, %r9d
	movd	%xmm0, %edi
	addl	%edi, %r9d
	pshufd	$238, %xmm3, %xmm0
	movl	%ebp, %edi
	andl	$67108863, %edi
	movd	%xmm0, %r10d
	addl	%r10d, %edi
	andl	$67108863, %edx
	shrq	$26, %rbp
	addq	%rdx, %rbp
	pshufd	$238, %xmm10, %xmm0
	andl	$67108863, %r8d
	shrq	$26, %rcx
	leaq	(%rcx,%rcx,4), %rdx
	addq	%r8, %rdx
	movl	%edx, %r8d
	andl	$67108863, %r8d
	movd	%xmm0, %ecx
	addl	%ecx, %r8d
	pshufd	$238, %xmm4, %xmm0
	movl	%ebp, %r11d
	andl	$67108863, %r11d
	movd	%xmm0, %ecx
	addl	%ecx, %r11d
	shrq	$26, %rdx
	addl	%eax, %edx
	shrq	$26, %rbp
	addl	%r9d, %ebp
	movq	%r15, %rax
	movq	%r15, %r13
	imulq	%r8, %rax
	movq	%rdi, %rcx
	movq	96(%rsp), %r12
	imulq	%r12, %rcx
	addq	%rax, %rcx
	movq	%r14, %r10
	movq	%r14, %rax
	imulq	%rdx, %rax
	addq	%rax, %rcx
	movq	%r11, %rax
	movq	40(%rsp), %r14
	imulq	%r14, %rax
	movq	%rbp, %r9
	imulq	48(%rsp), %r9
	addq	%rax, %r9
	addq	%rcx, %r9
	movq	%r8, %rax
	imulq	(%rsp), %rax
	imulq	%rdi, %r10
	addq	%rax, %r10
	movq	%r15, %rax
	imulq	%rdx, %rax
	addq	%rax, %r10
	movq	%r11, %rax
	movq	%r12, %rcx
	imulq	%r12, %rax
	movq	%rbp, %r15
	imulq	%r14, %r15
	addq	%rax, %r15
	addq	%r10, %r15
	movq	%r15, 16(%rsp)
	movq	%r8, %rax
	movq	56(%rsp), %r12
	imulq	%r12, %rax
	movq	%r13, %r14
	imulq	%rdi, %r14
	addq	%rax, %r14
	movq	%rdx, %rax
	movq	(%rsp), %r15
	imulq	%r15, %rax
	addq	%rax, %r14
	movq	64(%rsp), %r10
	movq	%r10, %rax
	imulq	%r11, %rax
	movq	%rbp, %r13
	imulq	%rcx, %r13
	addq	%rax, %r13
	addq	%r14, %r13
	movq	%r8, %rax
	movq	104(%rsp), %rcx
	imulq	%rcx, %rax
	movq	%rdi, %r14
	imulq	%r15, %r14
	addq	%rax, %r14
	movq	%rdx, %rax
	imulq	%r12, %rax
	addq	%rax, %r14
	movq	8(%rsp), %r15
	imulq	%r11, %r15
	movq	%r10, %rax
	imulq	%rbp, %rax
	addq	%r15, %rax
	addq	%r14, %rax
	imulq	72(%rsp), %r8
	imulq	%r12, %rdi
	addq	%r8, %rdi
	imulq	%rcx, %rdx
	addq	%rdx, %rdi
	imulq	(%rsp), %r11
	movq	8(%rsp), %r14
	imulq	%r14, %rbp
	addq	%r11, %rbp
	movdqa	%xmm13, %xmm0
	psrlq	$26, %xmm0
	paddq	%xmm7, %xmm0
	movdqa	%xmm14, %xmm5
	psrlq	$26, %xmm5
	paddq	%xmm9, %xmm5
	movdqa	%xmm0, %xmm6
	pand	%xmm8, %xmm13
	movdqa	%xmm5, %xmm1
	psrlq	$26, %xmm1
	paddq	%xmm1, %xmm13
	psllq	$2, %xmm1
	paddq	%xmm13, %xmm1
	pand	%xmm8, %xmm0
	movdqa	%xmm1, %xmm3
	psrlq	$26, %xmm3
	paddq	%xmm0, %xmm3
	addq	%rdi, %rbp
	movl	%r9d, %r8d
	shrq	$26, %r9
	addq	16(%rsp), %r9
	movl	%eax, %edx
	shrq	$26, %rax
	addq	%rbp, %rax
	movl	%r9d, %ecx
	andl	$67108863, %ecx
	movd	%xmm3, %edi
	addl	%edi, %ecx
	psrlq	$26, %xmm6
	paddq	%xmm2, %xmm6
	pand	%xmm8, %xmm14
	movdqa	%xmm6, %xmm0
	psrlq	$26, %xmm0
	paddq	%xmm14, %xmm0
	pand	%xmm8, %xmm5
	movdqa	%xmm0, %xmm4
	psrlq	$26, %xmm4
	paddq	%xmm5, %xmm4
	shrq	$26, %r9
	addq	%r13, %r9
	movl	%eax, %r10d
	andl	$67108863, %r10d
	movd	%xmm4, %edi
	addl	%edi, %r10d
	pand	%xmm8, %xmm6
	movl	%r9d, %edi
	andl	$67108863, %edi
	movd	%xmm6, %r11d
	addl	%r11d, %edi
	andl	$67108863, %edx
	shrq	$26, %r9
	addq	%rdx, %r9
	pand	%xmm8, %xmm1
	andl	$67108863, %r8d
	shrq	$26, %rax
	leaq	(%rax,%rax,4), %rdx
	addq	%r8, %rdx
	movl	%edx, %r8d
	andl	$67108863, %r8d
	movd	%xmm1, %eax
	addl	%eax, %r8d
	pand	%xmm8, %xmm0
	movl	%r9d, %r11d
	andl	$67108863, %r11d
	movd	%xmm0, %eax
	addl	%eax, %r11d
	shrq	$26, %rdx
	addl	%ecx, %edx
	shrq	$26, %r9
	addl	%r10d, %r9d
	movq	%r14, %rax
	movq	%r14, %rbp
	imulq	%r8, %rax
	movq	%rdi, %rcx
	movq	96(%rsp), %r13
	imulq	%r13, %rcx
	addq	%rax, %rcx
	movq	64(%rsp), %r10
	movq	%r10, %rax
	imulq	%rdx, %rax
	addq	%rax, %rcx
	movq	%r11, %rax
	movq	40(%rsp), %r15
	imulq	%r15, %rax
	movq	%r9, %r14
	imulq	48(%rsp), %r14
	addq	%rax, %r14
	addq	%rcx, %r14
	movq	%r8, %rax
	imulq	(%rsp), %rax
	imulq	%rdi, %r10
	addq	%rax, %r10
	movq	%rbp, %rax
	movq	%rbp, %rcx
	imulq	%rdx, %rax
	addq	%rax, %r10
	movq	%r11, %rax
	imulq	%r13, %rax
	movq	%r9, %rbp
	imulq	%r15, %rbp
	addq	%rax, %rbp
	addq	%r10, %rbp
	movq	%r8, %rax
	movq	56(%rsp), %r12
	imulq	%r12, %rax
	movq	%rcx, %r15
	imulq	%rdi, %r15
	addq	%rax, %r15
	movq	%rdx, %rax
	imulq	(%rsp), %rax
	addq	%rax, %r15
	movq	64(%rsp), %rcx
	movq	%rcx, %rax
	imulq	%r11, %rax
	movq	%r9, %r10
	imulq	%r13, %r10
	addq	%rax, %r10
	addq	%r15, %r10
	movq	%r8, %rax
	movq	104(%rsp), %r13
	imulq	%r13, %rax
	movq	%rdi, %r15
	imulq	(%rsp), %r15
	addq	%rax, %r15
	movq	%rdx, %rax
	imulq	%r12, %rax
	addq	%rax, %r15
	movq	8(%rsp), %r12
	imulq	%r11, %r12
	movq	%rcx, %rax
	imulq	%r9, %rax
	addq	%r12, %rax
	addq	%r15, %rax
	imulq	72(%rsp), %r8
	imulq	56(%rsp), %rdi
	addq	%r8, %rdi
	imulq	%r13, %rdx
	addq	%rdx, %rdi
	imulq	(%rsp), %r11
	movq	8(%rsp), %r15
	imulq	%r15, %r9
	addq	%r11, %r9
	pshufd	$238, %xmm3, %xmm3
	addq	%rdi, %r9
	movl	%r14d, %r8d
	shrq	$26, %r14
	addq	%rbp, %r14
	movl	%eax, %edx
	shrq	$26, %rax
	addq	%r9, %rax
	movl	%r14d, %ecx
	andl	$67108863, %ecx
	movd	%xmm3, %edi
	addl	%edi, %ecx
	pshufd	$238, %xmm4, %xmm3
	shrq	$26, %r14
	addq	%r10, %r14
	movl	%eax, %r10d
	andl	$67108863, %r10d
	movd	%xmm3, %edi
	addl	%edi, %r10d
	pshufd	$238, %xmm6, %xmm2
	movl	%r14d, %edi
	andl	$67108863, %edi
	movd	%xmm2, %r9d
	addl	%r9d, %edi
	andl	$67108863, %edx
	shrq	$26, %r14
	addq	%rdx, %r14
	pshufd	$238, %xmm1, %xmm1
	andl	$67108863, %r8d
	shrq	$26, %rax
	leaq	(%rax,%rax,4), %rdx
	addq	%r8, %rdx
	movl	%edx, %r12d
	andl	$67108863, %r12d
	movd	%xmm1, %eax
	addl	%eax, %r12d
	pshufd	$238, %xmm0, %xmm0
	movl	%r14d, %r9d
	andl	$67108863, %r9d
	movd	%xmm0, %eax
	addl	%eax, %r9d
	shrq	$26, %rdx
	addl	%ecx, %edx
	shrq	$26, %r14
	addl	%r10d, %r14d
	movq	%r15, %rax
	movq	%r15, %rbp
	imulq	%r12, %rax
	movq	%rdi, %rcx
	movq	96(%rsp), %r15
	imulq	%r15, %rcx
	addq	%rax, %rcx
	movq	64(%rsp), %r13
	movq	%r13, %rax
	imulq	%rdx, %rax
	addq	%rax, %rcx
	movq	%r9, %rax
	movq	40(%rsp), %r11
	imulq	%r11, %rax
	movq	48(%rsp), %r8
	imulq	%r14, %r8
	addq	%rax, %r8
	addq	%rcx, %r8
	movq	%r8, 48(%rsp)
	movq	%r12, %rax
	movq	(%rsp), %r8
	imulq	%r8, %rax
	movq	%r13, %rcx
	imulq	%rdi, %rcx
	addq	%rax, %rcx
	movq	%rbp, %rax
	imulq	%rdx, %rax
	addq	%rax, %rcx
	movq	%r9, %rax
	imulq	%r15, %rax
	imulq	%r14, %r11
	addq	%rax, %r11
	addq	%rcx, %r11
	movq	%r11, 40(%rsp)
	movq	%r12, %rax
	movq	56(%rsp), %r11
	imulq	%r11, %rax
	movq	%rbp, %rcx
	imulq	%rdi, %rcx
	addq	%rax, %rcx
	movq	%rdx, %rax
	imulq	%r8, %rax
	addq	%rax, %rcx
	movq	%r13, %rax
	imulq	%r9, %rax
	imulq	%r14, %r15
	addq	%rax, %r15
	addq	%rcx, %r15
	movq	%r12, %rax
	movq	104(%rsp), %r10
	imulq	%r10, %rax
	movq	%rdi, %rcx
	imulq	%r8, %rcx
	addq	%rax, %rcx
	movq	%rdx, %rax
	imulq	%r11, %rax
	addq	%rax, %rcx
	movq	%rbp, %rax
	imulq	%r9, %rax
	imulq	%r14, %r13
	addq	%rax, %r13
	addq	%rcx, %r13
	imulq	72(%rsp), %r12
	imulq	%r10, %rdx
	imulq	%r11, %rdi
	addq	%r12, %rdi
	addq	%rdx, %rdi
	imulq	%r8, %r9
	movq	%rbp, %rax
	imulq	%r14, %rax
	addq	%r9, %rax
	addq	%rdi, %rax
	movq	48(%rsp), %r9
	movl	%r9d, %ecx
	andl	$67108863, %ecx
	shrq	$26, %r9
	addq	40(%rsp), %r9
	movq	%r13, %rdi
	movl	%edi, %edx
	andl	$67108863, %edx
	shrq	$26, %rdi
	addq	%rax, %rdi
	movq	%rdi, %r11
	movl	%r9d, %edi
	andl	$67108863, %edi
	shrq	$26, %r9
	addq	%r15, %r9
	movq	%r9, %rax
	shrq	$26, %rax
	addq	%rdx, %rax
	movl	%r11d, %r8d
	andl	$67108863, %r8d
	shrq	$26, %r11
	leaq	(%r11,%r11,4), %rdx
	addq	%rcx, %rdx
	movq	%rdx, %rcx
	shrq	$26, %rcx
	addl	%edi, %ecx
	movq	%rax, %r14
	shrq	$26, %r14
	addl	%r8d, %r14d
	andl	$67108863, %edx
	movl	%r9d, %edi
	shlq	$52, %r9
	orq	%rdx, %r9
	shlq	$26, %rcx
	andl	$67104768, %edi
	shrl	$12, %edi
	andl	$67108863, %eax
	shlq	$14, %rax
	addq	%rcx, %r9
	adcq	%rdi, %rax
	movq	%r14, %rcx
	shlq	$40, %rcx
	shrl	$24, %r14d
	addq	%rax, %rcx
	adcq	$0, %r14
	movl	%r14d, %eax
	shrl	$2, %eax
	leaq	(%rax,%rax,4), %r8
	andl	$3, %r14d
	addq	%r9, %r8
	adcq	$0, %rcx
	adcq	$0, %r14
	movq	328(%rsp), %r12
	movq	%r8, (%r12)
	movq	%rcx, 8(%r12)
	movq	%r14, 16(%r12)
	movq	$0, 24(%r12)
	cmpq	$16, %rbx
	jae	.Lnoise_BB6_4
	movq	%r8, %rdi
	jmp	.Lnoise_BB6_6
.Lnoise_BB6_4:
	movq	320(%rsp), %r13
	movq	%r13, %r15
	shrq	$2, %r15
	addq	%r13, %r15
	movq	312(%rsp), %rbp
	.p2align	4
.Lnoise_BB6_5:
	addq	(%rsi), %r8
	adcq	8(%rsi), %rcx
	adcq	$1, %r14
	movq	%r8, %rax
	mulq	%rbp
	movq	%rdx, %r10
	movq	%rax, %r11
	movq	%rcx, %rax
	mulq	%r15
	movq	%rdx, %r9
	movq	%rax, %rdi
	addq	%r11, %rdi
	adcq	%r10, %r9
	movq	%r8, %rax
	mulq	%r13
	movq	%rdx, %r8
	movq	%rax, %r10
	movq	%rcx, %rax
	mulq	%rbp
	addq	%r10, %rax
	adcq	%r8, %rdx
	movq	%r14, %rcx
	imulq	%r15, %rcx
	addq	%rax, %rcx
	adcq	$0, %rdx
	imulq	%rbp, %r14
	movq	%rcx, %rax
	addq	%r9, %rax
	adcq	%rdx, %r14
	movq	%r14, %rdx
	shrq	$2, %rdx
	leaq	(%rdx,%rdx,4), %rdx
	movq	%rdx, %r8
	addq	%rdi, %r8
	adcq	%r9, %rcx
	andl	$3, %r14d
	addq	%rdx, %rdi
	adcq	$0, %rax
	adcq	$0, %r14
	addq	$16, %rsi
	addq	$-16, %rbx
	movq	%rdi, %r8
	cmpq	$15, %rbx
	ja	.Lnoise_BB6_5
.Lnoise_BB6_6:
	movq	%rdi, (%r12)
	movq	%rcx, 8(%r12)
	movq	%r14, 16(%r12)
	movq	$0, 24(%r12)
	movq	80(%r12), %r14
	leaq	(%r12,%r14), %rdi
	addq	$64, %rdi
	movq	%rdi, %rax
	subq	%rsi, %rax
	cmpq	%rbx, %rax
	jae	.Lnoise_BB6_9
	cmpq	$4, %rbx
	jb	.Lnoise_BB6_8
	leaq	(%r14,%r12), %rax
	subq	%rsi, %rax
	addq	$64, %rax
	cmpq	$32, %rax
	jae	.Lnoise_BB6_12
.Lnoise_BB6_8:
	xorl	%eax, %eax
.Lnoise_BB6_15:
	movq	%rbx, %rdx
	movq	%rax, %rcx
	andq	$3, %rdx
	je	.Lnoise_BB6_18
	movq	%rax, %rcx
	.p2align	4
.Lnoise_BB6_17:
	movzbl	(%rsi,%rcx), %r8d
	movb	%r8b, (%rdi,%rcx)
	incq	%rcx
	decq	%rdx
	jne	.Lnoise_BB6_17
.Lnoise_BB6_18:
	subq	%rbx, %rax
	cmpq	$-4, %rax
	ja	.Lnoise_BB6_21
	leaq	(%r14,%r12), %rax
	addq	$67, %rax
	.p2align	4
.Lnoise_BB6_20:
	movzbl	(%rsi,%rcx), %edx
	movb	%dl, -3(%rax,%rcx)
	movzbl	1(%rsi,%rcx), %edx
	movb	%dl, -2(%rax,%rcx)
	movzbl	2(%rsi,%rcx), %edx
	movb	%dl, -1(%rax,%rcx)
	movzbl	3(%rsi,%rcx), %edx
	movb	%dl, (%rax,%rcx)
	addq	$4, %rcx
	cmpq	%rcx, %rbx
	jne	.Lnoise_BB6_20
	jmp	.Lnoise_BB6_21
.Lnoise_BB6_9:
	movq	%rbx, %rdx
	callq	memmove@PLT
.Lnoise_BB6_21:
	addq	%rbx, %r14
	movq	%r14, 80(%r12)
	addq	$616, %rsp
	.cfi_def_cfa_offset 56
	popq	%rbx
	.cfi_def_cfa_offset 48
	popq	%r12
	.cfi_def_cfa_offset 40
	popq	%r13
	.cfi_def_cfa_offset 32
	popq	%r14
	.cfi_def_cfa_offset 24
	popq	%r15
	.cfi_def_cfa_offset 16
	popq	%rbp
	.cfi_def_cfa_offset 8
	retq
.Lnoise_BB6_12:
	.cfi_def_cfa_offset 672
	movl	%ebx, %eax
	andl	$12, %eax
	xorl	%ecx, %ecx
	.p2align	4
.Lnoise_BB6_13:
	movl	(%rsi,%rcx), %edx
	movl	%edx, (%rdi,%rcx)
	addq	$4, %rcx
	cmpq	%rcx, %rax
	jne	.Lnoise_BB6_13
	cmpq	%rax, %rbx
	je	.Lnoise_BB6_21
	jmp	.Lnoise_BB6_15
.Lnoise_func_end6:
	.size	"noise_poly::Poly1305::take_eights", .Lnoise_func_end6-"noise_poly::Poly1305::take_eights"
	.cfi_endproc

	.section	.rodata.cst16,"aM",@progbits,16
	.p2align	4, 0x0
.Lnoise_CPI7_0:
	.byte	255
	.byte	255
	.byte	255
	.byte	255
	.byte	255
	.byte	255
	.byte	255
	.byte	255
	.byte	255
	.byte	255
	.byte	255
	.byte	255
	.byte	0
	.byte	255
	.byte	255
	.byte	255
.Lnoise_CPI7_1:
	.byte	255
	.byte	255
	.byte	255
	.byte	255
	.byte	255
	.byte	255
	.byte	255
	.byte	255
	.byte	255
	.byte	255
	.byte	255
	.byte	255
	.byte	255
	.byte	0
	.byte	0
	.byte	0
	.section	".text.noise_aead::keystream::apply","ax",@progbits
	.p2align	4
	.type	"noise_aead::keystream::apply.v1",@function
"noise_aead::keystream::apply.v1":
	.cfi_startproc
	pushq	%rbp
	.cfi_def_cfa_offset 16
	pushq	%r15
	.cfi_def_cfa_offset 24
	pushq	%r14
	.cfi_def_cfa_offset 32
	pushq	%r13
	.cfi_def_cfa_offset 40
	pushq	%r12
	.cfi_def_cfa_offset 48
	pushq	%rbx
	.cfi_def_cfa_offset 56
	subq	$264, %rsp
	.cfi_def_cfa_offset 320
	.cfi_offset %rbx, -56
	.cfi_offset %r12, -48
	.cfi_offset %r13, -40
	.cfi_offset %r14, -32
	.cfi_offset %r15, -24
	.cfi_offset %rbp, -16
	movq	%rsi, 120(%rsp)
	movq	%rdi, %r15
	movq	%rdx, 160(%rsp)
	movq	%rdx, %rax
	shrq	$6, %rax
	cmpq	$3, %rax
	movl	$3, %ecx
	cmovbq	%rax, %rcx
	movq	%rax, %r13
	movq	%rcx, 24(%rsp)
	subq	%rcx, %r13
	movq	%r13, %rcx
	shrq	$2, %rcx
	movq	%rcx, 56(%rsp)
	testq	%rax, %rax
	je	.Lnoise_BB7_4
	leaq	48(%r15), %rcx
	movq	24(%rsp), %rbp
	movq	120(%rsp), %rbx
	.p2align	4
.Lnoise_BB7_2:
	movq	304(%r15), %rsi
	cmpq	$64, %rsi
	jb	.Lnoise_BB7_11
	movq	32(%r15), %rdx
	movq	40(%r15), %rsi
	movq	%r15, %rdi
	movq	%rcx, %r14
	callq	"rand_chacha::guts::refill4.v1"
	addq	$4, 40(%r15)
	movl	48(%r15), %edi
	movl	$1, %eax
	jmp	.Lnoise_BB7_13
	.p2align	4
.Lnoise_BB7_11:
	movl	48(%r15,%rsi,4), %edi
	leaq	1(%rsi), %rax
	movq	%rax, 304(%r15)
	cmpq	$63, %rsi
	jne	.Lnoise_BB7_14
	movq	32(%r15), %rdx
	movq	40(%r15), %rsi
	movl	%edi, %r12d
	movq	%r15, %rdi
	movq	%rcx, %r14
	callq	"rand_chacha::guts::refill4.v1"
	movl	%r12d, %edi
	addq	$4, 40(%r15)
	xorl	%eax, %eax
.Lnoise_BB7_13:
	movl	(%r14,%rax,4), %r8d
	movl	4(%r14,%rax,4), %r9d
	leaq	(%r14,%rax,4), %rdx
	addq	$8, %rdx
	addq	$3, %rax
	movq	%r14, %rcx
.Lnoise_BB7_19:
	movl	(%rdx), %r10d
	movq	%rax, 304(%r15)
	movl	48(%r15,%rax,4), %r11d
	leaq	1(%rax), %rdx
	movq	%rdx, 304(%r15)
	addq	$2, %rax
.Lnoise_BB7_20:
	movl	48(%r15,%rdx,4), %esi
	movq	%rax, 304(%r15)
	movl	48(%r15,%rax,4), %edx
	movl	%edx, 96(%rsp)
	leaq	1(%rax), %rdx
	movq	%rdx, 304(%r15)
	addq	$2, %rax
.Lnoise_BB7_21:
	movl	48(%r15,%rdx,4), %edx
	movl	%edx, 144(%rsp)
	movq	%rax, 304(%r15)
	movl	48(%r15,%rax,4), %edx
	movl	%edx, 80(%rsp)
	leaq	1(%rax), %rdx
	movq	%rdx, 304(%r15)
	addq	$2, %rax
.Lnoise_BB7_22:
	movl	48(%r15,%rdx,4), %edx
	movl	%edx, 128(%rsp)
	movq	%rax, 304(%r15)
	movl	48(%r15,%rax,4), %edx
	movl	%edx, 64(%rsp)
	leaq	1(%rax), %rdx
	movq	%rdx, 304(%r15)
	addq	$2, %rax
.Lnoise_BB7_23:
	movl	48(%r15,%rdx,4), %edx
	movl	%edx, 52(%rsp)
	movq	%rax, 304(%r15)
	movl	48(%r15,%rax,4), %edx
	movl	%edx, 16(%rsp)
	leaq	1(%rax), %rdx
	movq	%rdx, 304(%r15)
	addq	$2, %rax
.Lnoise_BB7_24:
	movl	48(%r15,%rdx,4), %r12d
	movq	%rax, 304(%r15)
	movl	48(%r15,%rax,4), %r14d
	incq	%rax
	movq	%rax, 304(%r15)
.Lnoise_BB7_54:
	movd	48(%r15,%rax,4), %xmm0
	incq	%rax
	movq	%rax, 304(%r15)
	movd	%r10d, %xmm5
	movd	%r9d, %xmm3
	movd	%r8d, %xmm6
	movd	%edi, %xmm1
	movd	144(%rsp), %xmm7
	movd	96(%rsp), %xmm8
	movd	%esi, %xmm9
	movd	%r11d, %xmm2
	movd	52(%rsp), %xmm10
	movd	64(%rsp), %xmm11
	movd	128(%rsp), %xmm12
	movd	80(%rsp), %xmm13
	movd	%r14d, %xmm14
	movd	%r12d, %xmm15
	movd	16(%rsp), %xmm4
	punpckldq	%xmm5, %xmm3
	punpckldq	%xmm6, %xmm1
	punpcklqdq	%xmm3, %xmm1
	punpckldq	%xmm7, %xmm8
	punpckldq	%xmm9, %xmm2
	punpcklqdq	%xmm8, %xmm2
	punpckldq	%xmm10, %xmm11
	punpckldq	%xmm12, %xmm13
	punpcklqdq	%xmm11, %xmm13
	punpckldq	%xmm0, %xmm14
	punpckldq	%xmm15, %xmm4
	punpcklqdq	%xmm14, %xmm4
	movdqu	(%rbx), %xmm3
	pxor	%xmm1, %xmm3
	movdqu	16(%rbx), %xmm1
	pxor	%xmm2, %xmm1
	movdqu	32(%rbx), %xmm2
	pxor	%xmm13, %xmm2
	movdqu	48(%rbx), %xmm5
	movdqa	.Lnoise_CPI7_0(%rip), %xmm6
	pand	%xmm4, %xmm6
	pslldq	$12, %xmm0
	por	%xmm6, %xmm0
	movdqa	.Lnoise_CPI7_1(%rip), %xmm6
	pand	%xmm6, %xmm0
	pandn	%xmm4, %xmm6
	por	%xmm0, %xmm6
	pxor	%xmm5, %xmm6
	movdqu	%xmm3, (%rbx)
	movdqu	%xmm1, 16(%rbx)
	movdqu	%xmm2, 32(%rbx)
	movdqu	%xmm6, 48(%rbx)
	addq	$64, %rbx
	decq	%rbp
	jne	.Lnoise_BB7_2
	jmp	.Lnoise_BB7_4
	.p2align	4
.Lnoise_BB7_14:
	movl	52(%r15,%rsi,4), %r8d
	leaq	2(%rsi), %rax
	movq	%rax, 304(%r15)
	cmpq	$62, %rsi
	jb	.Lnoise_BB7_16
	movl	%r8d, 12(%rsp)
	movl	%edi, %r12d
	movq	32(%r15), %rdx
	movq	40(%r15), %rsi
	movq	%r15, %rdi
	movq	%rcx, %r14
	callq	"rand_chacha::guts::refill4.v1"
	addq	$4, 40(%r15)
	movl	48(%r15), %r9d
	movl	$1, %eax
	jmp	.Lnoise_BB7_18
.Lnoise_BB7_16:
	movl	56(%r15,%rsi,4), %r9d
	leaq	3(%rsi), %rdx
	movq	%rdx, 304(%r15)
	cmpq	$61, %rsi
	movl	%r9d, 8(%rsp)
	jne	.Lnoise_BB7_25
	movl	%r8d, 12(%rsp)
	movl	%edi, %r12d
	movq	32(%r15), %rdx
	movq	40(%r15), %rsi
	movq	%r15, %rdi
	movq	%rcx, %r14
	callq	"rand_chacha::guts::refill4.v1"
	movl	8(%rsp), %r9d
	addq	$4, 40(%r15)
	xorl	%eax, %eax
.Lnoise_BB7_18:
	leaq	(%r14,%rax,4), %rdx
	incq	%rax
	movq	%r14, %rcx
	movl	%r12d, %edi
	movl	12(%rsp), %r8d
	jmp	.Lnoise_BB7_19
.Lnoise_BB7_25:
	movl	60(%r15,%rsi,4), %r10d
	leaq	4(%rsi), %rdx
	movq	%rdx, 304(%r15)
	cmpq	$62, %rax
	movl	%edi, 40(%rsp)
	jne	.Lnoise_BB7_27
	movq	32(%r15), %rdx
	movq	40(%r15), %rsi
	movq	%r15, %rdi
	movl	%r8d, %r12d
	movl	%r10d, %r14d
	callq	"rand_chacha::guts::refill4.v1"
	movl	%r14d, %r10d
	movl	8(%rsp), %r9d
	movl	%r12d, %r8d
	movl	40(%rsp), %edi
	leaq	48(%r15), %rcx
	addq	$4, 40(%r15)
	movl	48(%r15), %r11d
	movl	$1, %edx
	leaq	1(%rdx), %rax
	jmp	.Lnoise_BB7_20
.Lnoise_BB7_27:
	movl	64(%r15,%rsi,4), %r11d
	leaq	5(%rsi), %rax
	movq	%rax, 304(%r15)
	cmpq	$59, %rsi
	movl	%r11d, 20(%rsp)
	jb	.Lnoise_BB7_29
	movq	32(%r15), %rdx
	movq	40(%r15), %rsi
	movq	%r15, %rdi
	movl	%r8d, %r12d
	movl	%r10d, %r14d
	callq	"rand_chacha::guts::refill4.v1"
	movl	20(%rsp), %r11d
	movl	%r14d, %r10d
	movl	8(%rsp), %r9d
	movl	%r12d, %r8d
	movl	40(%rsp), %edi
	leaq	48(%r15), %rcx
	addq	$4, 40(%r15)
	xorl	%edx, %edx
	leaq	1(%rdx), %rax
	jmp	.Lnoise_BB7_20
.Lnoise_BB7_29:
	movl	68(%r15,%rsi,4), %eax
	movl	%eax, 36(%rsp)
	leaq	6(%rsi), %rax
	movq	%rax, 304(%r15)
	cmpq	$62, %rdx
	jne	.Lnoise_BB7_31
	movq	32(%r15), %rdx
	movq	40(%r15), %rsi
	movq	%r15, %rdi
	movl	%r8d, %r12d
	movl	%r10d, %r14d
	callq	"rand_chacha::guts::refill4.v1"
	movl	20(%rsp), %r11d
	movl	%r14d, %r10d
	movl	8(%rsp), %r9d
	movl	%r12d, %r8d
	movl	40(%rsp), %edi
	leaq	48(%r15), %rcx
	addq	$4, 40(%r15)
	movl	48(%r15), %eax
	movl	%eax, 96(%rsp)
	movl	$1, %edx
	jmp	.Lnoise_BB7_33
.Lnoise_BB7_31:
	movl	72(%r15,%rsi,4), %edx
	movl	%edx, 96(%rsp)
	leaq	7(%rsi), %rdx
	movq	%rdx, 304(%r15)
	cmpq	$57, %rsi
	jb	.Lnoise_BB7_34
	movq	32(%r15), %rdx
	movq	40(%r15), %rsi
	movq	%r15, %rdi
	movl	%r8d, %r12d
	movl	%r10d, %r14d
	callq	"rand_chacha::guts::refill4.v1"
	movl	20(%rsp), %r11d
	movl	%r14d, %r10d
	movl	8(%rsp), %r9d
	movl	%r12d, %r8d
	movl	40(%rsp), %edi
	leaq	48(%r15), %rcx
	addq	$4, 40(%r15)
	xorl	%edx, %edx
.Lnoise_BB7_33:
	leaq	1(%rdx), %rax
	movl	36(%rsp), %esi
	jmp	.Lnoise_BB7_21
.Lnoise_BB7_34:
	movl	76(%r15,%rsi,4), %edx
	movl	%edx, 144(%rsp)
	leaq	8(%rsi), %rdx
	movq	%rdx, 304(%r15)
	cmpq	$62, %rax
	jne	.Lnoise_BB7_36
	movq	32(%r15), %rdx
	movq	40(%r15), %rsi
	movq	%r15, %rdi
	movl	%r8d, %r12d
	movl	%r10d, %r14d
	callq	"rand_chacha::guts::refill4.v1"
	movl	20(%rsp), %r11d
	movl	%r14d, %r10d
	movl	8(%rsp), %r9d
	movl	%r12d, %r8d
	movl	40(%rsp), %edi
	leaq	48(%r15), %rcx
	addq	$4, 40(%r15)
	movl	48(%r15), %eax
	movl	%eax, 80(%rsp)
	movl	$1, %edx
	jmp	.Lnoise_BB7_38
.Lnoise_BB7_36:
	movl	80(%r15,%rsi,4), %eax
	movl	%eax, 80(%rsp)
	leaq	9(%rsi), %rax
	movq	%rax, 304(%r15)
	cmpq	$55, %rsi
	jb	.Lnoise_BB7_39
	movq	32(%r15), %rdx
	movq	40(%r15), %rsi
	movq	%r15, %rdi
	movl	%r8d, %r12d
	movl	%r10d, %r14d
	callq	"rand_chacha::guts::refill4.v1"
	movl	20(%rsp), %r11d
	movl	%r14d, %r10d
	movl	8(%rsp), %r9d
	movl	%r12d, %r8d
	movl	40(%rsp), %edi
	leaq	48(%r15), %rcx
	addq	$4, 40(%r15)
	xorl	%edx, %edx
.Lnoise_BB7_38:
	leaq	1(%rdx), %rax
	movl	36(%rsp), %esi
	jmp	.Lnoise_BB7_22
.Lnoise_BB7_39:
	movl	84(%r15,%rsi,4), %eax
	movl	%eax, 128(%rsp)
	leaq	10(%rsi), %rax
	movq	%rax, 304(%r15)
	cmpq	$62, %rdx
	jne	.Lnoise_BB7_41
	movq	32(%r15), %rdx
	movq	40(%r15), %rsi
	movq	%r15, %rdi
	movl	%r8d, %r12d
	movl	%r10d, %r14d
	callq	"rand_chacha::guts::refill4.v1"
	movl	20(%rsp), %r11d
	movl	%r14d, %r10d
	movl	8(%rsp), %r9d
	movl	%r12d, %r8d
	movl	40(%rsp), %edi
	leaq	48(%r15), %rcx
	addq	$4, 40(%r15)
	movl	48(%r15), %eax
	movl	%eax, 64(%rsp)
	movl	$1, %edx
	jmp	.Lnoise_BB7_43
.Lnoise_BB7_41:
	movl	88(%r15,%rsi,4), %edx
	movl	%edx, 64(%rsp)
	leaq	11(%rsi), %rdx
	movq	%rdx, 304(%r15)
	cmpq	$53, %rsi
	jb	.Lnoise_BB7_44
	movq	32(%r15), %rdx
	movq	40(%r15), %rsi
	movq	%r15, %rdi
	movl	%r8d, %r12d
	movl	%r10d, %r14d
	callq	"rand_chacha::guts::refill4.v1"
	movl	20(%rsp), %r11d
	movl	%r14d, %r10d
	movl	8(%rsp), %r9d
	movl	%r12d, %r8d
	movl	40(%rsp), %edi
	leaq	48(%r15), %rcx
	addq	$4, 40(%r15)
	xorl	%edx, %edx
.Lnoise_BB7_43:
	leaq	1(%rdx), %rax
	movl	36(%rsp), %esi
	jmp	.Lnoise_BB7_23
.Lnoise_BB7_44:
	movl	92(%r15,%rsi,4), %edx
	movl	%edx, 52(%rsp)
	leaq	12(%rsi), %rdx
	movq	%rdx, 304(%r15)
	cmpq	$62, %rax
	jne	.Lnoise_BB7_46
	movq	32(%r15), %rdx
	movq	40(%r15), %rsi
	movq	%r15, %rdi
	movl	%r8d, %r12d
	movl	%r10d, %r14d
	callq	"rand_chacha::guts::refill4.v1"
	movl	20(%rsp), %r11d
	movl	%r14d, %r10d
	movl	8(%rsp), %r9d
	movl	%r12d, %r8d
	movl	40(%rsp), %edi
	leaq	48(%r15), %rcx
	addq	$4, 40(%r15)
	movl	48(%r15), %eax
	movl	%eax, 16(%rsp)
	movl	$1, %edx
	jmp	.Lnoise_BB7_48
.Lnoise_BB7_46:
	movl	96(%r15,%rsi,4), %eax
	movl	%eax, 16(%rsp)
	leaq	13(%rsi), %rax
	movq	%rax, 304(%r15)
	cmpq	$51, %rsi
	jb	.Lnoise_BB7_49
	movq	32(%r15), %rdx
	movq	40(%r15), %rsi
	movq	%r15, %rdi
	movl	%r8d, %r12d
	movl	%r10d, %r14d
	callq	"rand_chacha::guts::refill4.v1"
	movl	20(%rsp), %r11d
	movl	%r14d, %r10d
	movl	8(%rsp), %r9d
	movl	%r12d, %r8d
	movl	40(%rsp), %edi
	leaq	48(%r15), %rcx
	addq	$4, 40(%r15)
	xorl	%edx, %edx
.Lnoise_BB7_48:
	leaq	1(%rdx), %rax
	movl	36(%rsp), %esi
	jmp	.Lnoise_BB7_24
.Lnoise_BB7_49:
	movl	100(%r15,%rsi,4), %r12d
	leaq	14(%rsi), %rax
	movq	%rax, 304(%r15)
	cmpq	$62, %rdx
	jne	.Lnoise_BB7_51
	movq	32(%r15), %rdx
	movq	40(%r15), %rsi
	movq	%r15, %rdi
	movl	%r8d, 12(%rsp)
	movl	%r10d, %r14d
	callq	"rand_chacha::guts::refill4.v1"
	movl	20(%rsp), %r11d
	movl	%r14d, %r10d
	movl	8(%rsp), %r9d
	movl	12(%rsp), %r8d
	movl	40(%rsp), %edi
	leaq	48(%r15), %rcx
	addq	$4, 40(%r15)
	movl	48(%r15), %r14d
	movq	$1, 304(%r15)
	movl	$1, %eax
	jmp	.Lnoise_BB7_53
.Lnoise_BB7_51:
	movl	104(%r15,%rsi,4), %r14d
	leaq	15(%rsi), %rax
	movq	%rax, 304(%r15)
	cmpq	$49, %rsi
	jb	.Lnoise_BB7_53
	movq	32(%r15), %rdx
	movq	40(%r15), %rsi
	movq	%r15, %rdi
	movl	%r8d, 12(%rsp)
	movl	%r10d, 172(%rsp)
	callq	"rand_chacha::guts::refill4.v1"
	movl	20(%rsp), %r11d
	movl	172(%rsp), %r10d
	movl	8(%rsp), %r9d
	movl	12(%rsp), %r8d
	movl	40(%rsp), %edi
	leaq	48(%r15), %rcx
	addq	$4, 40(%r15)
	xorl	%eax, %eax
.Lnoise_BB7_53:
	movl	36(%rsp), %esi
	jmp	.Lnoise_BB7_54
.Lnoise_BB7_4:
	movq	56(%rsp), %r14
	testq	%r14, %r14
	je	.Lnoise_BB7_7
	movq	24(%rsp), %rbx
	shll	$6, %ebx
	addq	120(%rsp), %rbx
	leaq	48(%r15), %r12
	.p2align	4
.Lnoise_BB7_6:
	movq	32(%r15), %rdx
	movq	40(%r15), %rax
	movq	304(%r15), %rcx
	shrq	$4, %rcx
	leaq	(%rax,%rcx), %rsi
	addq	$-4, %rsi
	movq	%rsi, 40(%r15)
	pxor	%xmm0, %xmm0
	movdqu	%xmm0, 240(%r12)
	movdqu	%xmm0, 224(%r12)
	movdqu	%xmm0, 208(%r12)
	movdqu	%xmm0, 192(%r12)
	movdqu	%xmm0, 176(%r12)
	movdqu	%xmm0, 160(%r12)
	movdqu	%xmm0, 144(%r12)
	movdqu	%xmm0, 128(%r12)
	movdqu	%xmm0, 112(%r12)
	movdqu	%xmm0, 96(%r12)
	movdqu	%xmm0, 80(%r12)
	movdqu	%xmm0, 64(%r12)
	movdqu	%xmm0, 48(%r12)
	movdqu	%xmm0, 32(%r12)
	movdqu	%xmm0, 16(%r12)
	movdqu	%xmm0, (%r12)
	movq	$64, 304(%r15)
	movq	%r15, %rdi
	movq	%r12, %rcx
	callq	"rand_chacha::guts::refill4.v1"
	addq	$4, 40(%r15)
	movups	48(%r15), %xmm0
	movups	64(%r15), %xmm1
	movups	80(%r15), %xmm2
	movdqu	96(%r15), %xmm8
	movdqu	112(%r15), %xmm15
	movdqu	128(%r15), %xmm14
	movdqu	144(%r15), %xmm13
	movdqu	160(%r15), %xmm11
	movdqu	176(%r15), %xmm10
	movups	192(%r15), %xmm3
	movaps	%xmm3, 64(%rsp)
	movups	208(%r15), %xmm3
	movaps	%xmm3, 128(%rsp)
	movdqu	224(%r15), %xmm7
	movups	240(%r15), %xmm3
	movaps	%xmm3, 80(%rsp)
	movups	256(%r15), %xmm3
	movaps	%xmm3, 144(%rsp)
	movups	272(%r15), %xmm3
	movaps	%xmm3, 96(%rsp)
	movdqu	288(%r15), %xmm9
	movq	$64, 304(%r15)
	movups	(%rbx), %xmm5
	xorps	%xmm0, %xmm5
	movups	16(%rbx), %xmm4
	xorps	%xmm1, %xmm4
	movups	32(%rbx), %xmm3
	xorps	%xmm2, %xmm3
	movdqa	.Lnoise_CPI7_1(%rip), %xmm2
	movdqa	%xmm2, %xmm12
	pandn	%xmm8, %xmm12
	movdqa	.Lnoise_CPI7_0(%rip), %xmm6
	pand	%xmm6, %xmm8
	movd	108(%r15), %xmm0
	pslldq	$12, %xmm0
	por	%xmm8, %xmm0
	pand	%xmm2, %xmm0
	por	%xmm12, %xmm0
	movdqu	48(%rbx), %xmm1
	pxor	%xmm1, %xmm0
	movd	172(%r15), %xmm1
	movd	236(%r15), %xmm12
	movd	300(%r15), %xmm8
	movups	%xmm5, (%rbx)
	movups	%xmm4, 16(%rbx)
	movups	%xmm3, 32(%rbx)
	movdqu	%xmm0, 48(%rbx)
	movdqu	64(%rbx), %xmm0
	pxor	%xmm15, %xmm0
	movdqu	80(%rbx), %xmm3
	pxor	%xmm14, %xmm3
	movdqu	96(%rbx), %xmm4
	pxor	%xmm13, %xmm4
	movdqa	%xmm2, %xmm5
	pandn	%xmm11, %xmm5
	pand	%xmm6, %xmm11
	pslldq	$12, %xmm1
	por	%xmm11, %xmm1
	pand	%xmm2, %xmm1
	por	%xmm5, %xmm1
	movdqu	112(%rbx), %xmm5
	pxor	%xmm5, %xmm1
	movdqu	%xmm0, 64(%rbx)
	movdqu	%xmm3, 80(%rbx)
	movdqu	%xmm4, 96(%rbx)
	movdqu	%xmm1, 112(%rbx)
	movdqu	128(%rbx), %xmm0
	pxor	%xmm10, %xmm0
	movups	144(%rbx), %xmm1
	xorps	64(%rsp), %xmm1
	movups	160(%rbx), %xmm3
	xorps	128(%rsp), %xmm3
	movdqa	%xmm2, %xmm4
	pandn	%xmm7, %xmm4
	pand	%xmm6, %xmm7
	pslldq	$12, %xmm12
	por	%xmm7, %xmm12
	pand	%xmm2, %xmm12
	por	%xmm4, %xmm12
	movdqu	176(%rbx), %xmm4
	pxor	%xmm4, %xmm12
	movdqu	%xmm0, 128(%rbx)
	movups	%xmm1, 144(%rbx)
	movups	%xmm3, 160(%rbx)
	movdqu	%xmm12, 176(%rbx)
	movdqu	192(%rbx), %xmm0
	pxor	80(%rsp), %xmm0
	movdqu	208(%rbx), %xmm1
	pxor	144(%rsp), %xmm1
	movdqu	224(%rbx), %xmm3
	pxor	96(%rsp), %xmm3
	pand	%xmm9, %xmm6
	pslldq	$12, %xmm8
	por	%xmm6, %xmm8
	pand	%xmm2, %xmm8
	pandn	%xmm9, %xmm2
	por	%xmm8, %xmm2
	movdqu	240(%rbx), %xmm4
	pxor	%xmm4, %xmm2
	movdqu	%xmm0, 192(%rbx)
	movdqu	%xmm1, 208(%rbx)
	movdqu	%xmm3, 224(%rbx)
	movdqu	%xmm2, 240(%rbx)
	addq	$256, %rbx
	decq	%r14
	jne	.Lnoise_BB7_6
.Lnoise_BB7_7:
	movabsq	$288230376151711740, %rax
	andq	%rax, %r13
	orq	24(%rsp), %r13
	shlq	$6, %r13
	movq	160(%rsp), %r14
	subq	%r13, %r14
	shrq	$6, %r14
	je	.Lnoise_BB7_99
	addq	120(%rsp), %r13
	leaq	48(%r15), %rcx
	.p2align	4
.Lnoise_BB7_9:
	movq	304(%r15), %rsi
	cmpq	$64, %rsi
	jb	.Lnoise_BB7_55
	movq	32(%r15), %rdx
	movq	40(%r15), %rsi
	movq	%r15, %rdi
	movq	%rcx, %rbx
	callq	"rand_chacha::guts::refill4.v1"
	addq	$4, 40(%r15)
	movl	48(%r15), %edi
	movl	$1, %eax
	jmp	.Lnoise_BB7_57
	.p2align	4
.Lnoise_BB7_55:
	movl	48(%r15,%rsi,4), %edi
	leaq	1(%rsi), %rax
	movq	%rax, 304(%r15)
	cmpq	$63, %rsi
	jne	.Lnoise_BB7_58
	movq	32(%r15), %rdx
	movq	40(%r15), %rsi
	movl	%edi, %ebp
	movq	%r15, %rdi
	movq	%rcx, %rbx
	callq	"rand_chacha::guts::refill4.v1"
	movl	%ebp, %edi
	addq	$4, 40(%r15)
	xorl	%eax, %eax
.Lnoise_BB7_57:
	movl	(%rbx,%rax,4), %r8d
	movl	4(%rbx,%rax,4), %r9d
	leaq	(%rbx,%rax,4), %rdx
	addq	$8, %rdx
	addq	$3, %rax
	movq	%rbx, %rcx
.Lnoise_BB7_63:
	movl	(%rdx), %r10d
	movq	%rax, 304(%r15)
	movl	48(%r15,%rax,4), %r11d
	leaq	1(%rax), %rdx
	movq	%rdx, 304(%r15)
	addq	$2, %rax
.Lnoise_BB7_64:
	movl	48(%r15,%rdx,4), %esi
	movq	%rax, 304(%r15)
	movl	48(%r15,%rax,4), %edx
	movl	%edx, 96(%rsp)
	leaq	1(%rax), %rdx
	movq	%rdx, 304(%r15)
	addq	$2, %rax
.Lnoise_BB7_65:
	movl	48(%r15,%rdx,4), %edx
	movl	%edx, 144(%rsp)
	movq	%rax, 304(%r15)
	movl	48(%r15,%rax,4), %edx
	movl	%edx, 80(%rsp)
	leaq	1(%rax), %rdx
	movq	%rdx, 304(%r15)
	addq	$2, %rax
.Lnoise_BB7_66:
	movl	48(%r15,%rdx,4), %edx
	movl	%edx, 128(%rsp)
	movq	%rax, 304(%r15)
	movl	48(%r15,%rax,4), %edx
	movl	%edx, 64(%rsp)
	leaq	1(%rax), %rdx
	movq	%rdx, 304(%r15)
	addq	$2, %rax
.Lnoise_BB7_67:
	movl	48(%r15,%rdx,4), %edx
	movl	%edx, 52(%rsp)
	movq	%rax, 304(%r15)
	movl	48(%r15,%rax,4), %ebx
	leaq	1(%rax), %rdx
	movq	%rdx, 304(%r15)
	addq	$2, %rax
.Lnoise_BB7_68:
	movl	48(%r15,%rdx,4), %ebp
	movq	%rax, 304(%r15)
	movl	48(%r15,%rax,4), %r12d
	incq	%rax
	movq	%rax, 304(%r15)
.Lnoise_BB7_98:
	movd	48(%r15,%rax,4), %xmm0
	incq	%rax
	movq	%rax, 304(%r15)
	movd	%r10d, %xmm5
	movd	%r9d, %xmm3
	movd	%r8d, %xmm6
	movd	%edi, %xmm1
	movd	144(%rsp), %xmm7
	movd	96(%rsp), %xmm8
	movd	%esi, %xmm9
	movd	%r11d, %xmm2
	movd	52(%rsp), %xmm10
	movd	64(%rsp), %xmm11
	movd	128(%rsp), %xmm12
	movd	80(%rsp), %xmm13
	movd	%r12d, %xmm14
	movd	%ebp, %xmm15
	movd	%ebx, %xmm4
	punpckldq	%xmm5, %xmm3
	punpckldq	%xmm6, %xmm1
	punpcklqdq	%xmm3, %xmm1
	punpckldq	%xmm7, %xmm8
	punpckldq	%xmm9, %xmm2
	punpcklqdq	%xmm8, %xmm2
	punpckldq	%xmm10, %xmm11
	punpckldq	%xmm12, %xmm13
	punpcklqdq	%xmm11, %xmm13
	punpckldq	%xmm0, %xmm14
	punpckldq	%xmm15, %xmm4
	punpcklqdq	%xmm14, %xmm4
	movdqu	(%r13), %xmm3
	pxor	%xmm1, %xmm3
	movdqu	16(%r13), %xmm1
	pxor	%xmm2, %xmm1
	movdqu	32(%r13), %xmm2
	pxor	%xmm13, %xmm2
	movdqu	48(%r13), %xmm5
	movdqa	.Lnoise_CPI7_0(%rip), %xmm6
	pand	%xmm4, %xmm6
	pslldq	$12, %xmm0
	por	%xmm6, %xmm0
	movdqa	.Lnoise_CPI7_1(%rip), %xmm6
	pand	%xmm6, %xmm0
	pandn	%xmm4, %xmm6
	por	%xmm0, %xmm6
	pxor	%xmm5, %xmm6
	movdqu	%xmm3, (%r13)
	movdqu	%xmm1, 16(%r13)
	movdqu	%xmm2, 32(%r13)
	movdqu	%xmm6, 48(%r13)
	addq	$64, %r13
	decq	%r14
	jne	.Lnoise_BB7_9
	jmp	.Lnoise_BB7_99
	.p2align	4
.Lnoise_BB7_58:
	movl	52(%r15,%rsi,4), %r8d
	leaq	2(%rsi), %rax
	movq	%rax, 304(%r15)
	cmpq	$62, %rsi
	jb	.Lnoise_BB7_60
	movl	%r8d, %r12d
	movl	%edi, %ebp
	movq	32(%r15), %rdx
	movq	40(%r15), %rsi
	movq	%r15, %rdi
	movq	%rcx, %rbx
	callq	"rand_chacha::guts::refill4.v1"
	addq	$4, 40(%r15)
	movl	48(%r15), %r9d
	movl	$1, %eax
	jmp	.Lnoise_BB7_62
.Lnoise_BB7_60:
	movl	56(%r15,%rsi,4), %r9d
	leaq	3(%rsi), %rdx
	movq	%rdx, 304(%r15)
	cmpq	$61, %rsi
	jne	.Lnoise_BB7_69
	movl	%r8d, %r12d
	movl	%edi, %ebp
	movq	32(%r15), %rdx
	movq	40(%r15), %rsi
	movq	%r15, %rdi
	movq	%rcx, %rbx
	movl	%r9d, 16(%rsp)
	callq	"rand_chacha::guts::refill4.v1"
	movl	16(%rsp), %r9d
	addq	$4, 40(%r15)
	xorl	%eax, %eax
.Lnoise_BB7_62:
	leaq	(%rbx,%rax,4), %rdx
	incq	%rax
	movq	%rbx, %rcx
	movl	%ebp, %edi
	movl	%r12d, %r8d
	jmp	.Lnoise_BB7_63
.Lnoise_BB7_69:
	movl	60(%r15,%rsi,4), %r10d
	leaq	4(%rsi), %rdx
	movq	%rdx, 304(%r15)
	cmpq	$62, %rax
	movl	%edi, 12(%rsp)
	jne	.Lnoise_BB7_71
	movq	32(%r15), %rdx
	movq	40(%r15), %rsi
	movq	%r15, %rdi
	movl	%r8d, %r12d
	movl	%r9d, %ebp
	movl	%r10d, %ebx
	callq	"rand_chacha::guts::refill4.v1"
	movl	%ebx, %r10d
	movl	%ebp, %r9d
	movl	%r12d, %r8d
	movl	12(%rsp), %edi
	leaq	48(%r15), %rcx
	addq	$4, 40(%r15)
	movl	48(%r15), %r11d
	movl	$1, %edx
	leaq	1(%rdx), %rax
	jmp	.Lnoise_BB7_64
.Lnoise_BB7_71:
	movl	64(%r15,%rsi,4), %r11d
	leaq	5(%rsi), %rax
	movq	%rax, 304(%r15)
	cmpq	$59, %rsi
	movl	%r11d, 8(%rsp)
	jb	.Lnoise_BB7_73
	movq	32(%r15), %rdx
	movq	40(%r15), %rsi
	movq	%r15, %rdi
	movl	%r8d, %r12d
	movl	%r9d, %ebp
	movl	%r10d, %ebx
	callq	"rand_chacha::guts::refill4.v1"
	movl	8(%rsp), %r11d
	movl	%ebx, %r10d
	movl	%ebp, %r9d
	movl	%r12d, %r8d
	movl	12(%rsp), %edi
	leaq	48(%r15), %rcx
	addq	$4, 40(%r15)
	xorl	%edx, %edx
	leaq	1(%rdx), %rax
	jmp	.Lnoise_BB7_64
.Lnoise_BB7_73:
	movl	68(%r15,%rsi,4), %eax
	movl	%eax, 24(%rsp)
	leaq	6(%rsi), %rax
	movq	%rax, 304(%r15)
	cmpq	$62, %rdx
	jne	.Lnoise_BB7_75
	movq	32(%r15), %rdx
	movq	40(%r15), %rsi
	movq	%r15, %rdi
	movl	%r8d, %r12d
	movl	%r9d, %ebp
	movl	%r10d, %ebx
	callq	"rand_chacha::guts::refill4.v1"
	movl	8(%rsp), %r11d
	movl	%ebx, %r10d
	movl	%ebp, %r9d
	movl	%r12d, %r8d
	movl	12(%rsp), %edi
	leaq	48(%r15), %rcx
	addq	$4, 40(%r15)
	movl	48(%r15), %eax
	movl	%eax, 96(%rsp)
	movl	$1, %edx
	jmp	.Lnoise_BB7_77
.Lnoise_BB7_75:
	movl	72(%r15,%rsi,4), %edx
	movl	%edx, 96(%rsp)
	leaq	7(%rsi), %rdx
	movq	%rdx, 304(%r15)
	cmpq	$57, %rsi
	jb	.Lnoise_BB7_78
	movq	32(%r15), %rdx
	movq	40(%r15), %rsi
	movq	%r15, %rdi
	movl	%r8d, %r12d
	movl	%r9d, %ebp
	movl	%r10d, %ebx
	callq	"rand_chacha::guts::refill4.v1"
	movl	8(%rsp), %r11d
	movl	%ebx, %r10d
	movl	%ebp, %r9d
	movl	%r12d, %r8d
	movl	12(%rsp), %edi
	leaq	48(%r15), %rcx
	addq	$4, 40(%r15)
	xorl	%edx, %edx
.Lnoise_BB7_77:
	leaq	1(%rdx), %rax
	movl	24(%rsp), %esi
	jmp	.Lnoise_BB7_65
.Lnoise_BB7_78:
	movl	76(%r15,%rsi,4), %edx
	movl	%edx, 144(%rsp)
	leaq	8(%rsi), %rdx
	movq	%rdx, 304(%r15)
	cmpq	$62, %rax
	jne	.Lnoise_BB7_80
	movq	32(%r15), %rdx
	movq	40(%r15), %rsi
	movq	%r15, %rdi
	movl	%r8d, %r12d
	movl	%r9d, %ebp
	movl	%r10d, %ebx
	callq	"rand_chacha::guts::refill4.v1"
	movl	8(%rsp), %r11d
	movl	%ebx, %r10d
	movl	%ebp, %r9d
	movl	%r12d, %r8d
	movl	12(%rsp), %edi
	leaq	48(%r15), %rcx
	addq	$4, 40(%r15)
	movl	48(%r15), %eax
	movl	%eax, 80(%rsp)
	movl	$1, %edx
	jmp	.Lnoise_BB7_82
.Lnoise_BB7_80:
	movl	80(%r15,%rsi,4), %eax
	movl	%eax, 80(%rsp)
	leaq	9(%rsi), %rax
	movq	%rax, 304(%r15)
	cmpq	$55, %rsi
	jb	.Lnoise_BB7_83
	movq	32(%r15), %rdx
	movq	40(%r15), %rsi
	movq	%r15, %rdi
	movl	%r8d, %r12d
	movl	%r9d, %ebp
	movl	%r10d, %ebx
	callq	"rand_chacha::guts::refill4.v1"
	movl	8(%rsp), %r11d
	movl	%ebx, %r10d
	movl	%ebp, %r9d
	movl	%r12d, %r8d
	movl	12(%rsp), %edi
	leaq	48(%r15), %rcx
	addq	$4, 40(%r15)
	xorl	%edx, %edx
.Lnoise_BB7_82:
	leaq	1(%rdx), %rax
	movl	24(%rsp), %esi
	jmp	.Lnoise_BB7_66
.Lnoise_BB7_83:
	movl	84(%r15,%rsi,4), %eax
	movl	%eax, 128(%rsp)
	leaq	10(%rsi), %rax
	movq	%rax, 304(%r15)
	cmpq	$62, %rdx
	jne	.Lnoise_BB7_85
	movq	32(%r15), %rdx
	movq	40(%r15), %rsi
	movq	%r15, %rdi
	movl	%r8d, %r12d
	movl	%r9d, %ebp
	movl	%r10d, %ebx
	callq	"rand_chacha::guts::refill4.v1"
	movl	8(%rsp), %r11d
	movl	%ebx, %r10d
	movl	%ebp, %r9d
	movl	%r12d, %r8d
	movl	12(%rsp), %edi
	leaq	48(%r15), %rcx
	addq	$4, 40(%r15)
	movl	48(%r15), %eax
	movl	%eax, 64(%rsp)
	movl	$1, %edx
	jmp	.Lnoise_BB7_87
.Lnoise_BB7_85:
	movl	88(%r15,%rsi,4), %edx
	movl	%edx, 64(%rsp)
	leaq	11(%rsi), %rdx
	movq	%rdx, 304(%r15)
	cmpq	$53, %rsi
	jb	.Lnoise_BB7_88
	movq	32(%r15), %rdx
	movq	40(%r15), %rsi
	movq	%r15, %rdi
	movl	%r8d, %r12d
	movl	%r9d, %ebp
	movl	%r10d, %ebx
	callq	"rand_chacha::guts::refill4.v1"
	movl	8(%rsp), %r11d
	movl	%ebx, %r10d
	movl	%ebp, %r9d
	movl	%r12d, %r8d
	movl	12(%rsp), %edi
	leaq	48(%r15), %rcx
	addq	$4, 40(%r15)
	xorl	%edx, %edx
.Lnoise_BB7_87:
	leaq	1(%rdx), %rax
	movl	24(%rsp), %esi
	jmp	.Lnoise_BB7_67
.Lnoise_BB7_88:
	movl	92(%r15,%rsi,4), %edx
	movl	%edx, 52(%rsp)
	leaq	12(%rsi), %rdx
	movq	%rdx, 304(%r15)
	cmpq	$62, %rax
	jne	.Lnoise_BB7_91
	movq	32(%r15), %rdx
	movq	40(%r15), %rsi
	movq	%r15, %rdi
	movl	%r8d, %r12d
	movl	%r9d, %ebp
	movl	%r10d, %ebx
	callq	"rand_chacha::guts::refill4.v1"
	movl	8(%rsp), %r11d
	movl	%ebx, %r10d
	movl	%ebp, %r9d
	movl	%r12d, %r8d
	movl	12(%rsp), %edi
	leaq	48(%r15), %rcx
	addq	$4, 40(%r15)
	movl	48(%r15), %ebx
	movl	$1, %edx
	jmp	.Lnoise_BB7_90
.Lnoise_BB7_91:
	movl	96(%r15,%rsi,4), %ebx
	leaq	13(%rsi), %rax
	movq	%rax, 304(%r15)
	cmpq	$51, %rsi
	jb	.Lnoise_BB7_93
	movq	32(%r15), %rdx
	movq	40(%r15), %rsi
	movq	%r15, %rdi
	movl	%r8d, %ebp
	movl	%r9d, 16(%rsp)
	movl	%r10d, %r12d
	callq	"rand_chacha::guts::refill4.v1"
	movl	8(%rsp), %r11d
	movl	%r12d, %r10d
	movl	16(%rsp), %r9d
	movl	%ebp, %r8d
	movl	12(%rsp), %edi
	leaq	48(%r15), %rcx
	addq	$4, 40(%r15)
	xorl	%edx, %edx
.Lnoise_BB7_90:
	leaq	1(%rdx), %rax
	movl	24(%rsp), %esi
	jmp	.Lnoise_BB7_68
.Lnoise_BB7_93:
	movl	100(%r15,%rsi,4), %ebp
	leaq	14(%rsi), %rax
	movq	%rax, 304(%r15)
	cmpq	$62, %rdx
	jne	.Lnoise_BB7_95
	movq	32(%r15), %rdx
	movq	40(%r15), %rsi
	movq	%r15, %rdi
	movl	%r8d, 40(%rsp)
	movl	%r9d, 16(%rsp)
	movl	%r10d, %r12d
	callq	"rand_chacha::guts::refill4.v1"
	movl	8(%rsp), %r11d
	movl	%r12d, %r10d
	movl	16(%rsp), %r9d
	movl	40(%rsp), %r8d
	movl	12(%rsp), %edi
	leaq	48(%r15), %rcx
	addq	$4, 40(%r15)
	movl	48(%r15), %r12d
	movq	$1, 304(%r15)
	movl	$1, %eax
	jmp	.Lnoise_BB7_97
.Lnoise_BB7_95:
	movl	104(%r15,%rsi,4), %r12d
	leaq	15(%rsi), %rax
	movq	%rax, 304(%r15)
	cmpq	$49, %rsi
	jb	.Lnoise_BB7_97
	movq	32(%r15), %rdx
	movq	40(%r15), %rsi
	movq	%r15, %rdi
	movl	%r8d, 40(%rsp)
	movl	%r9d, 16(%rsp)
	movl	%r10d, 56(%rsp)
	callq	"rand_chacha::guts::refill4.v1"
	movl	8(%rsp), %r11d
	movl	56(%rsp), %r10d
	movl	16(%rsp), %r9d
	movl	40(%rsp), %r8d
	movl	12(%rsp), %edi
	leaq	48(%r15), %rcx
	addq	$4, 40(%r15)
	xorl	%eax, %eax
.Lnoise_BB7_97:
	movl	24(%rsp), %esi
	jmp	.Lnoise_BB7_98
.Lnoise_BB7_99:
	movq	160(%rsp), %rax
	movq	%rax, %r14
	andq	$63, %r14
	je	.Lnoise_BB7_158
	movq	%rax, %rsi
	andq	$-64, %rsi
	pxor	%xmm0, %xmm0
	movdqa	%xmm0, 224(%rsp)
	movdqa	%xmm0, 208(%rsp)
	movdqa	%xmm0, 192(%rsp)
	movdqa	%xmm0, 176(%rsp)
	movq	304(%r15), %rcx
	cmpq	$64, %rcx
	jb	.Lnoise_BB7_102
	movq	%rsi, %rbx
	movq	32(%r15), %rdx
	movq	40(%r15), %rsi
	leaq	48(%r15), %r12
	movq	%r15, %rdi
	movq	%r12, %rcx
	callq	"rand_chacha::guts::refill4.v1"
	addq	$4, 40(%r15)
	movl	48(%r15), %edx
	movl	$1, %eax
	jmp	.Lnoise_BB7_104
.Lnoise_BB7_102:
	leaq	48(%r15), %r12
	movl	48(%r15,%rcx,4), %ebp
	leaq	1(%rcx), %rax
	movq	%rax, 304(%r15)
	cmpq	$63, %rcx
	jne	.Lnoise_BB7_105
	movq	%rsi, %rbx
	movq	32(%r15), %rdx
	movq	40(%r15), %rsi
	movq	%r15, %rdi
	movq	%r12, %rcx
	callq	"rand_chacha::guts::refill4.v1"
	movl	%ebp, %edx
	addq	$4, 40(%r15)
	xorl	%eax, %eax
.Lnoise_BB7_104:
	movl	48(%r15,%rax,4), %edi
	leaq	1(%rax), %rcx
	movq	%rcx, 304(%r15)
	movl	52(%r15,%rax,4), %r8d
	leaq	2(%rax), %rcx
	movq	%rcx, 304(%r15)
	leaq	(%r15,%rax,4), %rcx
	addq	$56, %rcx
	addq	$3, %rax
	movq	%rbx, %rsi
.Lnoise_BB7_110:
	movl	(%rcx), %r9d
	movq	%rax, 304(%r15)
	movl	(%r12,%rax,4), %r10d
	leaq	1(%rax), %rcx
	movq	%rcx, 304(%r15)
	leaq	(%r12,%rax,4), %rcx
	addq	$4, %rcx
	addq	$2, %rax
.Lnoise_BB7_116:
	movl	(%rcx), %r11d
	movq	%rax, 304(%r15)
	movl	(%r12,%rax,4), %ecx
	movl	%ecx, 96(%rsp)
	leaq	1(%rax), %rcx
	movq	%rcx, 304(%r15)
	leaq	(%r12,%rax,4), %rcx
	addq	$4, %rcx
	addq	$2, %rax
.Lnoise_BB7_122:
	movl	(%rcx), %ecx
	movl	%ecx, 144(%rsp)
	movq	%rax, 304(%r15)
	movl	(%r12,%rax,4), %ecx
	movl	%ecx, 80(%rsp)
	leaq	1(%rax), %rcx
	movq	%rcx, 304(%r15)
	leaq	(%r12,%rax,4), %rcx
	addq	$4, %rcx
	addq	$2, %rax
.Lnoise_BB7_128:
	movl	(%rcx), %ecx
	movl	%ecx, 128(%rsp)
	movq	%rax, 304(%r15)
	movl	(%r12,%rax,4), %ecx
	movl	%ecx, 64(%rsp)
	leaq	1(%rax), %rcx
	movq	%rcx, 304(%r15)
	leaq	(%r12,%rax,4), %rcx
	addq	$4, %rcx
	addq	$2, %rax
.Lnoise_BB7_134:
	movl	(%rcx), %ebp
	movq	%rax, 304(%r15)
	movl	(%r12,%rax,4), %ecx
	movl	%ecx, 52(%rsp)
	leaq	1(%rax), %rcx
	movq	%rcx, 304(%r15)
	leaq	(%r12,%rax,4), %rcx
	addq	$4, %rcx
	addq	$2, %rax
.Lnoise_BB7_140:
	movl	(%rcx), %r13d
	movq	%rax, 304(%r15)
	movl	(%r12,%rax,4), %ebx
	incq	%rax
	movq	%rax, 304(%r15)
.Lnoise_BB7_146:
	movl	(%r12,%rax,4), %ecx
	incq	%rax
	movq	%rax, 304(%r15)
	movd	%ebp, %xmm2
	movd	64(%rsp), %xmm3
	movd	128(%rsp), %xmm4
	movd	80(%rsp), %xmm0
	movd	144(%rsp), %xmm5
	movd	96(%rsp), %xmm6
	movd	%r11d, %xmm7
	movd	%r10d, %xmm1
	movd	%r9d, %xmm8
	movd	%r8d, %xmm9
	movd	%edi, %xmm10
	movd	%edx, %xmm11
	movd	%r13d, %xmm12
	punpckldq	%xmm2, %xmm3
	punpckldq	%xmm4, %xmm0
	punpcklqdq	%xmm3, %xmm0
	punpckldq	%xmm5, %xmm6
	punpckldq	%xmm7, %xmm1
	punpcklqdq	%xmm6, %xmm1
	punpckldq	%xmm8, %xmm9
	punpckldq	%xmm10, %xmm11
	punpcklqdq	%xmm9, %xmm11
	movd	52(%rsp), %xmm2
	punpckldq	%xmm12, %xmm2
	movd	%ecx, %xmm3
	movd	%ebx, %xmm4
	punpckldq	%xmm3, %xmm4
	movdqa	%xmm2, %xmm3
	punpcklqdq	%xmm4, %xmm3
	movdqa	%xmm3, 240(%rsp)
	movzwl	253(%rsp), %eax
	movzbl	255(%rsp), %edx
	movdqa	%xmm11, 176(%rsp)
	movdqa	%xmm1, 192(%rsp)
	movdqa	%xmm0, 208(%rsp)
	movq	%xmm2, 224(%rsp)
	movl	%ebx, 232(%rsp)
	movb	%cl, 236(%rsp)
	movw	%ax, 237(%rsp)
	movb	%dl, 239(%rsp)
	movq	120(%rsp), %rax
	addq	%rsi, %rax
	cmpl	$4, %r14d
	jae	.Lnoise_BB7_148
	xorl	%ecx, %ecx
	jmp	.Lnoise_BB7_157
.Lnoise_BB7_148:
	cmpl	$32, %r14d
	jae	.Lnoise_BB7_150
	xorl	%ecx, %ecx
	movq	160(%rsp), %rdi
	jmp	.Lnoise_BB7_154
.Lnoise_BB7_105:
	movl	%ebp, 16(%rsp)
	movl	52(%r15,%rcx,4), %edi
	leaq	2(%rcx), %rax
	movq	%rax, 304(%r15)
	cmpq	$62, %rcx
	jb	.Lnoise_BB7_107
	movl	%edi, %ebp
	movq	%rsi, %rbx
	movq	32(%r15), %rdx
	movq	40(%r15), %rsi
	movq	%r15, %rdi
	movq	%r12, %rcx
	callq	"rand_chacha::guts::refill4.v1"
	addq	$4, 40(%r15)
	movl	48(%r15), %r8d
	movq	$1, 304(%r15)
	movl	$1, %eax
	jmp	.Lnoise_BB7_109
.Lnoise_BB7_150:
	movq	160(%rsp), %rdi
	movl	%edi, %ecx
	andl	$32, %ecx
	movq	120(%rsp), %rdx
	addq	%rsi, %rdx
	addq	$16, %rdx
	xorl	%esi, %esi
	.p2align	4
.Lnoise_BB7_151:
	movdqu	-16(%rdx,%rsi), %xmm0
	movdqu	(%rdx,%rsi), %xmm1
	pxor	176(%rsp,%rsi), %xmm0
	pxor	192(%rsp,%rsi), %xmm1
	movdqu	%xmm0, -16(%rdx,%rsi)
	movdqu	%xmm1, (%rdx,%rsi)
	addq	$32, %rsi
	cmpq	%rsi, %rcx
	jne	.Lnoise_BB7_151
	cmpl	%ecx, %r14d
	je	.Lnoise_BB7_158
	testb	$28, %dil
	je	.Lnoise_BB7_157
.Lnoise_BB7_154:
	movq	%rcx, %rdx
	movl	%edi, %ecx
	andl	$60, %ecx
	.p2align	4
.Lnoise_BB7_155:
	movl	176(%rsp,%rdx), %esi
	xorl	%esi, (%rax,%rdx)
	addq	$4, %rdx
	cmpq	%rdx, %rcx
	jne	.Lnoise_BB7_155
	cmpl	%ecx, %r14d
	je	.Lnoise_BB7_158
	.p2align	4
.Lnoise_BB7_157:
	movzbl	176(%rsp,%rcx), %edx
	xorb	%dl, (%rax,%rcx)
	incq	%rcx
	cmpq	%rcx, %r14
	jne	.Lnoise_BB7_157
.Lnoise_BB7_158:
	addq	$264, %rsp
	.cfi_def_cfa_offset 56
	popq	%rbx
	.cfi_def_cfa_offset 48
	popq	%r12
	.cfi_def_cfa_offset 40
	popq	%r13
	.cfi_def_cfa_offset 32
	popq	%r14
	.cfi_def_cfa_offset 24
	popq	%r15
	.cfi_def_cfa_offset 16
	popq	%rbp
	.cfi_def_cfa_offset 8
	retq
.Lnoise_BB7_107:
	.cfi_def_cfa_offset 320
	movl	56(%r15,%rcx,4), %r8d
	leaq	3(%rcx), %rdx
	movq	%rdx, 304(%r15)
	cmpq	$61, %rcx
	jne	.Lnoise_BB7_111
	movl	%edi, %ebp
	movq	%rsi, %rbx
	movq	32(%r15), %rdx
	movq	40(%r15), %rsi
	movq	%r15, %rdi
	movq	%r12, %rcx
	movl	%r8d, %r13d
	callq	"rand_chacha::guts::refill4.v1"
	movl	%r13d, %r8d
	addq	$4, 40(%r15)
	xorl	%eax, %eax
.Lnoise_BB7_109:
	leaq	(%r12,%rax,4), %rcx
	incq	%rax
	movq	%rbx, %rsi
	movl	16(%rsp), %edx
	movl	%ebp, %edi
	jmp	.Lnoise_BB7_110
.Lnoise_BB7_111:
	movl	60(%r15,%rcx,4), %r9d
	leaq	4(%rcx), %rdx
	movq	%rdx, 304(%r15)
	cmpq	$62, %rax
	movl	%r9d, 12(%rsp)
	jne	.Lnoise_BB7_113
	movl	%r8d, %r13d
	movl	%edi, %ebp
	movq	%rsi, %rbx
	movq	32(%r15), %rdx
	movq	40(%r15), %rsi
	movq	%r15, %rdi
	movq	%r12, %rcx
	callq	"rand_chacha::guts::refill4.v1"
	addq	$4, 40(%r15)
	movl	48(%r15), %r10d
	movq	$1, 304(%r15)
	movl	$1, %eax
	jmp	.Lnoise_BB7_115
.Lnoise_BB7_113:
	movl	64(%r15,%rcx,4), %r10d
	leaq	5(%rcx), %rax
	movq	%rax, 304(%r15)
	cmpq	$59, %rcx
	movl	%r10d, 8(%rsp)
	jb	.Lnoise_BB7_117
	movl	%r8d, %r13d
	movl	%edi, %ebp
	movq	%rsi, %rbx
	movq	32(%r15), %rdx
	movq	40(%r15), %rsi
	movq	%r15, %rdi
	movq	%r12, %rcx
	callq	"rand_chacha::guts::refill4.v1"
	movl	8(%rsp), %r10d
	addq	$4, 40(%r15)
	xorl	%eax, %eax
.Lnoise_BB7_115:
	leaq	(%r12,%rax,4), %rcx
	incq	%rax
	movq	%rbx, %rsi
	movl	16(%rsp), %edx
	movl	%ebp, %edi
	movl	%r13d, %r8d
	movl	12(%rsp), %r9d
	jmp	.Lnoise_BB7_116
.Lnoise_BB7_117:
	movl	68(%r15,%rcx,4), %r11d
	leaq	6(%rcx), %rax
	movq	%rax, 304(%r15)
	cmpq	$62, %rdx
	movl	%r11d, 24(%rsp)
	jne	.Lnoise_BB7_119
	movl	%r8d, %r13d
	movl	%edi, %ebp
	movq	%rsi, %rbx
	movq	32(%r15), %rdx
	movq	40(%r15), %rsi
	movq	%r15, %rdi
	movq	%r12, %rcx
	callq	"rand_chacha::guts::refill4.v1"
	addq	$4, 40(%r15)
	movl	48(%r15), %eax
	movl	%eax, 96(%rsp)
	movq	$1, 304(%r15)
	movl	$1, %eax
	jmp	.Lnoise_BB7_121
.Lnoise_BB7_119:
	movl	72(%r15,%rcx,4), %edx
	movl	%edx, 96(%rsp)
	leaq	7(%rcx), %rdx
	movq	%rdx, 304(%r15)
	cmpq	$57, %rcx
	jb	.Lnoise_BB7_123
	movl	%r8d, %r13d
	movl	%edi, %ebp
	movq	%rsi, %rbx
	movq	32(%r15), %rdx
	movq	40(%r15), %rsi
	movq	%r15, %rdi
	movq	%r12, %rcx
	callq	"rand_chacha::guts::refill4.v1"
	addq	$4, 40(%r15)
	xorl	%eax, %eax
.Lnoise_BB7_121:
	leaq	(%r12,%rax,4), %rcx
	incq	%rax
	movq	%rbx, %rsi
	movl	16(%rsp), %edx
	movl	%ebp, %edi
	movl	%r13d, %r8d
	movl	12(%rsp), %r9d
	movl	8(%rsp), %r10d
	movl	24(%rsp), %r11d
	jmp	.Lnoise_BB7_122
.Lnoise_BB7_123:
	movl	76(%r15,%rcx,4), %edx
	movl	%edx, 144(%rsp)
	leaq	8(%rcx), %rdx
	movq	%rdx, 304(%r15)
	cmpq	$62, %rax
	jne	.Lnoise_BB7_125
	movl	%r8d, %r13d
	movl	%edi, %ebp
	movq	%rsi, %rbx
	movq	32(%r15), %rdx
	movq	40(%r15), %rsi
	movq	%r15, %rdi
	movq	%r12, %rcx
	callq	"rand_chacha::guts::refill4.v1"
	addq	$4, 40(%r15)
	movl	48(%r15), %eax
	movl	%eax, 80(%rsp)
	movq	$1, 304(%r15)
	movl	$1, %eax
	jmp	.Lnoise_BB7_127
.Lnoise_BB7_125:
	movl	80(%r15,%rcx,4), %eax
	movl	%eax, 80(%rsp)
	leaq	9(%rcx), %rax
	movq	%rax, 304(%r15)
	cmpq	$55, %rcx
	jb	.Lnoise_BB7_129
	movl	%r8d, %r13d
	movl	%edi, %ebp
	movq	%rsi, %rbx
	movq	32(%r15), %rdx
	movq	40(%r15), %rsi
	movq	%r15, %rdi
	movq	%r12, %rcx
	callq	"rand_chacha::guts::refill4.v1"
	addq	$4, 40(%r15)
	xorl	%eax, %eax
.Lnoise_BB7_127:
	leaq	(%r12,%rax,4), %rcx
	incq	%rax
	movq	%rbx, %rsi
	movl	16(%rsp), %edx
	movl	%ebp, %edi
	movl	%r13d, %r8d
	movl	12(%rsp), %r9d
	movl	8(%rsp), %r10d
	movl	24(%rsp), %r11d
	jmp	.Lnoise_BB7_128
.Lnoise_BB7_129:
	movl	84(%r15,%rcx,4), %eax
	movl	%eax, 128(%rsp)
	leaq	10(%rcx), %rax
	movq	%rax, 304(%r15)
	cmpq	$62, %rdx
	jne	.Lnoise_BB7_131
	movl	%r8d, %r13d
	movl	%edi, %ebp
	movq	%rsi, %rbx
	movq	32(%r15), %rdx
	movq	40(%r15), %rsi
	movq	%r15, %rdi
	movq	%r12, %rcx
	callq	"rand_chacha::guts::refill4.v1"
	addq	$4, 40(%r15)
	movl	48(%r15), %eax
	movl	%eax, 64(%rsp)
	movq	$1, 304(%r15)
	movl	$1, %eax
	jmp	.Lnoise_BB7_133
.Lnoise_BB7_131:
	movl	88(%r15,%rcx,4), %edx
	movl	%edx, 64(%rsp)
	leaq	11(%rcx), %rdx
	movq	%rdx, 304(%r15)
	cmpq	$53, %rcx
	jb	.Lnoise_BB7_135
	movl	%r8d, %r13d
	movl	%edi, %ebp
	movq	%rsi, %rbx
	movq	32(%r15), %rdx
	movq	40(%r15), %rsi
	movq	%r15, %rdi
	movq	%r12, %rcx
	callq	"rand_chacha::guts::refill4.v1"
	addq	$4, 40(%r15)
	xorl	%eax, %eax
.Lnoise_BB7_133:
	leaq	(%r12,%rax,4), %rcx
	incq	%rax
	movq	%rbx, %rsi
	movl	16(%rsp), %edx
	movl	%ebp, %edi
	movl	%r13d, %r8d
	movl	12(%rsp), %r9d
	movl	8(%rsp), %r10d
	movl	24(%rsp), %r11d
	jmp	.Lnoise_BB7_134
.Lnoise_BB7_135:
	movl	%r8d, 20(%rsp)
	movl	%edi, 56(%rsp)
	movq	%rsi, 40(%rsp)
	movl	92(%r15,%rcx,4), %ebp
	leaq	12(%rcx), %rdx
	movq	%rdx, 304(%r15)
	cmpq	$62, %rax
	jne	.Lnoise_BB7_137
	movq	32(%r15), %rdx
	movq	40(%r15), %rsi
	movq	%r15, %rdi
	movq	%r12, %rcx
	callq	"rand_chacha::guts::refill4.v1"
	addq	$4, 40(%r15)
	movl	48(%r15), %eax
	movl	%eax, 52(%rsp)
	movq	$1, 304(%r15)
	movl	$1, %eax
	jmp	.Lnoise_BB7_139
.Lnoise_BB7_137:
	movl	96(%r15,%rcx,4), %eax
	movl	%eax, 52(%rsp)
	leaq	13(%rcx), %rax
	movq	%rax, 304(%r15)
	cmpq	$51, %rcx
	jb	.Lnoise_BB7_141
	movq	32(%r15), %rdx
	movq	40(%r15), %rsi
	movq	%r15, %rdi
	movq	%r12, %rcx
	callq	"rand_chacha::guts::refill4.v1"
	addq	$4, 40(%r15)
	xorl	%eax, %eax
.Lnoise_BB7_139:
	leaq	(%r12,%rax,4), %rcx
	incq	%rax
	movq	40(%rsp), %rsi
	movl	16(%rsp), %edx
	movl	56(%rsp), %edi
	movl	20(%rsp), %r8d
	movl	12(%rsp), %r9d
	movl	8(%rsp), %r10d
	movl	24(%rsp), %r11d
	jmp	.Lnoise_BB7_140
.Lnoise_BB7_141:
	movl	100(%r15,%rcx,4), %r13d
	leaq	14(%rcx), %rax
	movq	%rax, 304(%r15)
	cmpq	$62, %rdx
	jne	.Lnoise_BB7_143
	movq	32(%r15), %rdx
	movq	40(%r15), %rsi
	movq	%r15, %rdi
	movq	%r12, %rcx
	callq	"rand_chacha::guts::refill4.v1"
	addq	$4, 40(%r15)
	movl	48(%r15), %ebx
	movq	$1, 304(%r15)
	movl	$1, %eax
	jmp	.Lnoise_BB7_145
.Lnoise_BB7_143:
	movl	104(%r15,%rcx,4), %ebx
	leaq	15(%rcx), %rax
	movq	%rax, 304(%r15)
	cmpq	$49, %rcx
	jb	.Lnoise_BB7_145
	movq	32(%r15), %rdx
	movq	40(%r15), %rsi
	movq	%r15, %rdi
	movq	%r12, %rcx
	callq	"rand_chacha::guts::refill4.v1"
	addq	$4, 40(%r15)
	xorl	%eax, %eax
.Lnoise_BB7_145:
	movq	40(%rsp), %rsi
	movl	16(%rsp), %edx
	movl	56(%rsp), %edi
	movl	20(%rsp), %r8d
	movl	12(%rsp), %r9d
	movl	8(%rsp), %r10d
	movl	24(%rsp), %r11d
	jmp	.Lnoise_BB7_146
.Lnoise_func_end7:
	.size	"noise_aead::keystream::apply.v1", .Lnoise_func_end7-"noise_aead::keystream::apply.v1"
	.cfi_endproc

	.section	".text.noise_state::cipher::CipherState::encrypt","ax",@progbits
	.p2align	4
	.type	"noise_state::cipher::CipherState::encrypt.v1",@function
"noise_state::cipher::CipherState::encrypt.v1":
	.cfi_startproc
	cmpb	$1, (%rsi)
	jne	.Lnoise_BB8_3
	movq	40(%rsi), %rax
	cmpq	$-1, %rax
	je	.Lnoise_BB8_2
	cmpq	$65520, %r9
	jb	.Lnoise_BB8_7
	movw	$769, (%rdi)
	movq	$0, 8(%rdi)
	retq
.Lnoise_BB8_3:
	xorl	%eax, %eax
	xorl	%ecx, %ecx
	cmpq	$65536, %r9
	setae	%cl
	leal	(%rcx,%rcx,2), %ecx
	setae	(%rdi)
	cmovbq	%r9, %rax
	movb	%cl, 1(%rdi)
	movq	%rax, 8(%rdi)
	retq
.Lnoise_BB8_2:
	movw	$1, (%rdi)
	movq	$0, 8(%rdi)
	retq
.Lnoise_BB8_7:
	pushq	%rbp
	.cfi_def_cfa_offset 16
	pushq	%r15
	.cfi_def_cfa_offset 24
	pushq	%r14
	.cfi_def_cfa_offset 32
	pushq	%r13
	.cfi_def_cfa_offset 40
	pushq	%r12
	.cfi_def_cfa_offset 48
	pushq	%rbx
	.cfi_def_cfa_offset 56
	subq	$424, %rsp
	.cfi_def_cfa_offset 480
	.cfi_offset %rbx, -56
	.cfi_offset %r12, -48
	.cfi_offset %r13, -40
	.cfi_offset %r14, -32
	.cfi_offset %r15, -24
	.cfi_offset %rbp, -16
	movups	1(%rsi), %xmm0
	movups	17(%rsi), %xmm1
	leaq	128(%rsp), %r10
	xorps	%xmm2, %xmm2
	movaps	%xmm2, 128(%rsp)
	movaps	%xmm2, 144(%rsp)
	movaps	%xmm2, 160(%rsp)
	movaps	%xmm2, 176(%rsp)
	movaps	%xmm2, 192(%rsp)
	movaps	%xmm2, 208(%rsp)
	movaps	%xmm2, 224(%rsp)
	movaps	%xmm2, 240(%rsp)
	movaps	%xmm2, 256(%rsp)
	movaps	%xmm2, 272(%rsp)
	movaps	%xmm2, 288(%rsp)
	movaps	%xmm2, 304(%rsp)
	movaps	%xmm2, 320(%rsp)
	movaps	%xmm2, 336(%rsp)
	movaps	%xmm2, 352(%rsp)
	movaps	%xmm2, 368(%rsp)
	movaps	%xmm0, 80(%rsp)
	movaps	%xmm1, 96(%rsp)
	movq	%rax, 112(%rsp)
	movq	$0, 120(%rsp)
	movq	$64, 384(%rsp)
	leaq	80(%rsp), %r15
	movq	%rdi, %rbp
	movq	%r15, %rdi
	movq	%rsi, 8(%rsp)
	xorl	%esi, %esi
	movq	%rdx, %r12
	movq	%rax, %rdx
	movq	%rcx, %r13
	movq	%r10, %rcx
	movq	%r9, %rbx
	movq	%r8, %r14
	callq	"rand_chacha::guts::refill4.v1"
	addq	$4, 120(%rsp)
	movzbl	156(%rsp), %eax
	movaps	128(%rsp), %xmm0
	movdqa	144(%rsp), %xmm1
	movq	$16, 384(%rsp)
	movdqa	%xmm1, 48(%rsp)
	movzwl	61(%rsp), %ecx
	movzbl	63(%rsp), %edx
	movaps	%xmm0, 16(%rsp)
	movq	%xmm1, 32(%rsp)
	pshufd	$238, %xmm1, %xmm0
	movd	%xmm0, 40(%rsp)
	movb	%al, 44(%rsp)
	movw	%cx, 45(%rsp)
	movb	%dl, 47(%rsp)
	movq	%r15, %rdi
	movq	%r14, %rsi
	movq	%rbx, %rdx
	callq	"noise_aead::keystream::apply.v1"
	leaq	64(%rsp), %rdi
	leaq	16(%rsp), %rsi
	movq	%r12, %rdx
	movq	%r13, %rcx
	movq	%r14, %r8
	movq	%rbx, %r9
	callq	"noise_aead::authenticator::tag.v1"
	movups	64(%rsp), %xmm0
	movaps	%xmm0, 400(%rsp)
	movups	%xmm0, (%r14,%rbx)
	movq	8(%rsp), %rax
	incq	40(%rax)
	addq	$16, %rbx
	movw	$0, (%rbp)
	movq	%rbx, 8(%rbp)
	addq	$424, %rsp
	.cfi_def_cfa_offset 56
	popq	%rbx
	.cfi_def_cfa_offset 48
	popq	%r12
	.cfi_def_cfa_offset 40
	popq	%r13
	.cfi_def_cfa_offset 32
	popq	%r14
	.cfi_def_cfa_offset 24
	popq	%r15
	.cfi_def_cfa_offset 16
	popq	%rbp
	.cfi_def_cfa_offset 8
	.cfi_restore %rbx
	.cfi_restore %r12
	.cfi_restore %r13
	.cfi_restore %r14
	.cfi_restore %r15
	.cfi_restore %rbp
	retq
.Lnoise_func_end8:
	.size	"noise_state::cipher::CipherState::encrypt.v1", .Lnoise_func_end8-"noise_state::cipher::CipherState::encrypt.v1"
	.cfi_endproc

	.section	".text.noise_state::cipher::CipherState::rekey","ax",@progbits
	.p2align	4
	.type	"noise_state::cipher::CipherState::rekey",@function
"noise_state::cipher::CipherState::rekey":
	.cfi_startproc
	cmpb	$1, (%rdi)
	jne	.Lnoise_BB9_35
	pushq	%rbp
	.cfi_def_cfa_offset 16
	pushq	%r15
	.cfi_def_cfa_offset 24
	pushq	%r14
	.cfi_def_cfa_offset 32
	pushq	%r13
	.cfi_def_cfa_offset 40
	pushq	%r12
	.cfi_def_cfa_offset 48
	pushq	%rbx
	.cfi_def_cfa_offset 56
	subq	$392, %rsp
	.cfi_def_cfa_offset 448
	.cfi_offset %rbx, -56
	.cfi_offset %r12, -48
	.cfi_offset %r13, -40
	.cfi_offset %r14, -32
	.cfi_offset %r15, -24
	.cfi_offset %rbp, -16
	movq	%rdi, %rbx
	movups	1(%rdi), %xmm0
	movaps	%xmm0, 352(%rsp)
	movups	17(%rdi), %xmm0
	movaps	%xmm0, 368(%rsp)
	leaq	24(%rsp), %rdi
	leaq	352(%rsp), %rsi
	xorl	%edx, %edx
	movq	$-1, %rcx
	callq	"noise_aead::keystream::generator_apart"
	movq	328(%rsp), %rax
	cmpq	$64, %rax
	jb	.Lnoise_BB9_3
	movq	56(%rsp), %rdx
	movq	64(%rsp), %rsi
	leaq	72(%rsp), %r14
	leaq	24(%rsp), %rdi
	movq	%r14, %rcx
	callq	"rand_chacha::guts::refill4"
	addq	$4, 64(%rsp)
	movl	$1, %eax
	movl	72(%rsp), %edx
	jmp	.Lnoise_BB9_5
.Lnoise_BB9_3:
	leaq	72(%rsp), %r14
	movl	72(%rsp,%rax,4), %ebp
	leaq	1(%rax), %rcx
	movq	%rcx, 328(%rsp)
	cmpq	$63, %rax
	jne	.Lnoise_BB9_6
	movq	56(%rsp), %rdx
	movq	64(%rsp), %rsi
	leaq	24(%rsp), %rdi
	movq	%r14, %rcx
	callq	"rand_chacha::guts::refill4"
	movl	%ebp, %edx
	addq	$4, 64(%rsp)
	xorl	%eax, %eax
.Lnoise_BB9_5:
	movl	72(%rsp,%rax,4), %esi
	movl	76(%rsp,%rax,4), %edi
	leaq	(%rsp,%rax,4), %rcx
	addq	$80, %rcx
	addq	$3, %rax
.Lnoise_BB9_11:
	movl	(%rcx), %r8d
	movq	%rax, 328(%rsp)
	movl	(%r14,%rax,4), %ebp
	leaq	1(%rax), %rcx
	movq	%rcx, 328(%rsp)
	leaq	(%r14,%rax,4), %rcx
	addq	$4, %rcx
	addq	$2, %rax
.Lnoise_BB9_17:
	movl	(%rcx), %r15d
	movq	%rax, 328(%rsp)
	movl	(%r14,%rax,4), %r12d
	leaq	1(%rax), %rcx
	movq	%rcx, 328(%rsp)
	leaq	(%r14,%rax,4), %rax
	addq	$4, %rax
	movl	(%rax), %r13d
.Lnoise_BB9_34:
	movd	%r8d, %xmm0
	movd	%edi, %xmm1
	punpckldq	%xmm0, %xmm1
	movd	%esi, %xmm0
	movd	%edx, %xmm2
	punpckldq	%xmm0, %xmm2
	punpcklqdq	%xmm1, %xmm2
	movd	%r13d, %xmm0
	movd	%r12d, %xmm1
	punpckldq	%xmm0, %xmm1
	movd	%r15d, %xmm0
	movd	%ebp, %xmm3
	punpckldq	%xmm0, %xmm3
	movdqa	%xmm3, %xmm0
	punpcklqdq	%xmm1, %xmm0
	movdqa	%xmm0, 336(%rsp)
	movzwl	349(%rsp), %eax
	movzbl	351(%rsp), %ecx
	movb	$1, (%rbx)
	movdqu	%xmm2, 1(%rbx)
	movq	%xmm3, 17(%rbx)
	movl	%r12d, 25(%rbx)
	movb	%r13b, 29(%rbx)
	movw	%ax, 30(%rbx)
	movb	%cl, 32(%rbx)
	addq	$392, %rsp
	.cfi_def_cfa_offset 56
	popq	%rbx
	.cfi_def_cfa_offset 48
	popq	%r12
	.cfi_def_cfa_offset 40
	popq	%r13
	.cfi_def_cfa_offset 32
	popq	%r14
	.cfi_def_cfa_offset 24
	popq	%r15
	.cfi_def_cfa_offset 16
	popq	%rbp
	.cfi_def_cfa_offset 8
	.cfi_restore %rbx
	.cfi_restore %r12
	.cfi_restore %r13
	.cfi_restore %r14
	.cfi_restore %r15
	.cfi_restore %rbp
.Lnoise_BB9_35:
	retq
.Lnoise_BB9_6:
	.cfi_def_cfa_offset 448
	.cfi_offset %rbx, -56
	.cfi_offset %rbp, -16
	.cfi_offset %r12, -48
	.cfi_offset %r13, -40
	.cfi_offset %r14, -32
	.cfi_offset %r15, -24
	movl	%ebp, 8(%rsp)
	movl	76(%rsp,%rax,4), %esi
	leaq	2(%rax), %rcx
	movq	%rcx, 328(%rsp)
	cmpq	$62, %rax
	jb	.Lnoise_BB9_8
	movl	%esi, %ebp
	movq	56(%rsp), %rdx
	movq	64(%rsp), %rsi
	leaq	24(%rsp), %rdi
	movq	%r14, %rcx
	callq	"rand_chacha::guts::refill4"
	addq	$4, 64(%rsp)
	movl	$1, %eax
	movl	72(%rsp), %edi
	jmp	.Lnoise_BB9_10
.Lnoise_BB9_8:
	movl	80(%rsp,%rax,4), %edi
	leaq	3(%rax), %rdx
	movq	%rdx, 328(%rsp)
	cmpq	$61, %rax
	jne	.Lnoise_BB9_12
	movl	%esi, %ebp
	movq	56(%rsp), %rdx
	movq	64(%rsp), %rsi
	movl	%edi, %r15d
	leaq	24(%rsp), %rdi
	movq	%r14, %rcx
	callq	"rand_chacha::guts::refill4"
	movl	%r15d, %edi
	addq	$4, 64(%rsp)
	xorl	%eax, %eax
.Lnoise_BB9_10:
	leaq	(%r14,%rax,4), %rcx
	incq	%rax
	movl	8(%rsp), %edx
	movl	%ebp, %esi
	jmp	.Lnoise_BB9_11
.Lnoise_BB9_12:
	movl	84(%rsp,%rax,4), %r8d
	leaq	4(%rax), %rdx
	movq	%rdx, 328(%rsp)
	cmpq	$62, %rcx
	jne	.Lnoise_BB9_14
	movl	%r8d, %r13d
	movl	%edi, %r12d
	movl	%esi, %r15d
	movq	56(%rsp), %rdx
	movq	64(%rsp), %rsi
	leaq	24(%rsp), %rdi
	movq	%r14, %rcx
	callq	"rand_chacha::guts::refill4"
	addq	$4, 64(%rsp)
	movl	72(%rsp), %ebp
	movq	$1, 328(%rsp)
	movl	$1, %eax
	jmp	.Lnoise_BB9_16
.Lnoise_BB9_14:
	movl	88(%rsp,%rax,4), %ebp
	leaq	5(%rax), %rcx
	movq	%rcx, 328(%rsp)
	cmpq	$59, %rax
	jb	.Lnoise_BB9_18
	movl	%r8d, %r13d
	movl	%edi, %r12d
	movl	%esi, %r15d
	movq	56(%rsp), %rdx
	movq	64(%rsp), %rsi
	leaq	24(%rsp), %rdi
	movq	%r14, %rcx
	callq	"rand_chacha::guts::refill4"
	addq	$4, 64(%rsp)
	xorl	%eax, %eax
.Lnoise_BB9_16:
	leaq	(%r14,%rax,4), %rcx
	incq	%rax
	movl	8(%rsp), %edx
	movl	%r15d, %esi
	movl	%r12d, %edi
	movl	%r13d, %r8d
	jmp	.Lnoise_BB9_17
.Lnoise_BB9_18:
	movl	92(%rsp,%rax,4), %r15d
	leaq	6(%rax), %rcx
	movq	%rcx, 328(%rsp)
	cmpq	$62, %rdx
	movl	%esi, 12(%rsp)
	jne	.Lnoise_BB9_20
	movq	56(%rsp), %rdx
	movq	64(%rsp), %rsi
	movl	%edi, %r13d
	leaq	24(%rsp), %rdi
	movq	%r14, %rcx
	movl	%r8d, %r12d
	callq	"rand_chacha::guts::refill4"
	movl	%r12d, %r8d
	movl	%r13d, %edi
	movl	12(%rsp), %esi
	addq	$4, 64(%rsp)
	movl	72(%rsp), %r12d
	movq	$1, 328(%rsp)
	addq	$4, %r14
	jmp	.Lnoise_BB9_22
.Lnoise_BB9_20:
	movl	96(%rsp,%rax,4), %r12d
	leaq	7(%rax), %rdx
	movq	%rdx, 328(%rsp)
	cmpq	$57, %rax
	movl	%edi, 16(%rsp)
	jb	.Lnoise_BB9_23
	movq	56(%rsp), %rdx
	movq	64(%rsp), %rsi
	leaq	24(%rsp), %rdi
	movq	%r14, %rcx
	movl	%r8d, %r13d
	callq	"rand_chacha::guts::refill4"
	movl	%r13d, %r8d
	movl	16(%rsp), %edi
	movl	12(%rsp), %esi
	addq	$4, 64(%rsp)
.Lnoise_BB9_22:
	movl	(%r14), %r13d
	movl	8(%rsp), %edx
	jmp	.Lnoise_BB9_34
.Lnoise_BB9_23:
	movl	100(%rsp,%rax,4), %r13d
	leaq	8(%rax), %rdx
	movq	%rdx, 328(%rsp)
	cmpq	$62, %rcx
	je	.Lnoise_BB9_24
	leaq	9(%rax), %rcx
	movq	%rcx, 328(%rsp)
	cmpq	$55, %rax
	jae	.Lnoise_BB9_24
	leaq	10(%rax), %rcx
	movq	%rcx, 328(%rsp)
	cmpq	$62, %rdx
	je	.Lnoise_BB9_24
	leaq	11(%rax), %rdx
	movq	%rdx, 328(%rsp)
	cmpq	$53, %rax
	jb	.Lnoise_BB9_28
.Lnoise_BB9_24:
	movq	56(%rsp), %rdx
	movq	64(%rsp), %rsi
	leaq	24(%rsp), %rdi
	movq	%r14, %rcx
	movl	%r8d, %r14d
	callq	"rand_chacha::guts::refill4"
	movl	%r14d, %r8d
	movl	16(%rsp), %edi
	movl	12(%rsp), %esi
	movl	8(%rsp), %edx
	jmp	.Lnoise_BB9_34
.Lnoise_BB9_28:
	movl	%r8d, 20(%rsp)
	leaq	12(%rax), %rdx
	movq	%rdx, 328(%rsp)
	cmpq	$62, %rcx
	je	.Lnoise_BB9_32
	leaq	13(%rax), %rcx
	movq	%rcx, 328(%rsp)
	cmpq	$51, %rax
	jae	.Lnoise_BB9_32
	leaq	14(%rax), %rcx
	movq	%rcx, 328(%rsp)
	cmpq	$62, %rdx
	je	.Lnoise_BB9_32
	leaq	15(%rax), %rcx
	movq	%rcx, 328(%rsp)
	cmpq	$49, %rax
	jb	.Lnoise_BB9_33
.Lnoise_BB9_32:
	movq	56(%rsp), %rdx
	movq	64(%rsp), %rsi
	leaq	24(%rsp), %rdi
	movq	%r14, %rcx
	callq	"rand_chacha::guts::refill4"
.Lnoise_BB9_33:
	movl	8(%rsp), %edx
	movl	12(%rsp), %esi
	movl	16(%rsp), %edi
	movl	20(%rsp), %r8d
	jmp	.Lnoise_BB9_34
.Lnoise_func_end9:
	.size	"noise_state::cipher::CipherState::rekey", .Lnoise_func_end9-"noise_state::cipher::CipherState::rekey"
	.cfi_endproc

	.section	".text.noise_aead::keystream::generator_apart","ax",@progbits
	.p2align	4
	.type	"noise_aead::keystream::generator_apart",@function
"noise_aead::keystream::generator_apart":
	.cfi_startproc
	shlq	$32, %rdx
	incq	%rdx
	movups	(%rsi), %xmm0
	movups	16(%rsi), %xmm1
	movups	%xmm0, (%rdi)
	movups	%xmm1, 16(%rdi)
	movq	%rcx, 32(%rdi)
	movq	%rdx, 40(%rdi)
	xorps	%xmm0, %xmm0
	movups	%xmm0, 48(%rdi)
	movups	%xmm0, 64(%rdi)
	movups	%xmm0, 80(%rdi)
	movups	%xmm0, 96(%rdi)
	movups	%xmm0, 112(%rdi)
	movups	%xmm0, 128(%rdi)
	movups	%xmm0, 144(%rdi)
	movups	%xmm0, 160(%rdi)
	movups	%xmm0, 176(%rdi)
	movups	%xmm0, 192(%rdi)
	movups	%xmm0, 208(%rdi)
	movups	%xmm0, 224(%rdi)
	movups	%xmm0, 240(%rdi)
	movups	%xmm0, 256(%rdi)
	movups	%xmm0, 272(%rdi)
	movups	%xmm0, 288(%rdi)
	movq	$64, 304(%rdi)
	retq
.Lnoise_func_end10:
	.size	"noise_aead::keystream::generator_apart", .Lnoise_func_end10-"noise_aead::keystream::generator_apart"
	.cfi_endproc

	.section	".text.noise_c::patterns::pattern_of","ax",@progbits
	.p2align	4
	.type	"noise_c::patterns::pattern_of",@function
"noise_c::patterns::pattern_of":
	.cfi_startproc
	pushq	%rbp
	.cfi_def_cfa_offset 16
	pushq	%r15
	.cfi_def_cfa_offset 24
	pushq	%r14
	.cfi_def_cfa_offset 32
	pushq	%r12
	.cfi_def_cfa_offset 40
	pushq	%rbx
	.cfi_def_cfa_offset 48
	subq	$2016, %rsp
	.cfi_def_cfa_offset 2064
	.cfi_offset %rbx, -48
	.cfi_offset %r12, -40
	.cfi_offset %r14, -32
	.cfi_offset %r15, -24
	.cfi_offset %rbp, -16
	movq	%rdx, %r14
	movq	%rsi, %r15
	movq	%rdi, %rbx
	testq	%rdx, %rdx
	je	.Lnoise_BB11_8
	cmpb	$10, -1(%r15,%r14)
	jne	.Lnoise_BB11_8
	leaq	376(%rsp), %r12
	movl	$280, %edx
	movq	%r12, %rdi
	xorl	%esi, %esi
	callq	memset@PLT
	leaq	928(%rsp), %rdi
	movl	$272, %edx
	xorl	%esi, %esi
	callq	memset@PLT
	leaq	96(%rsp), %rdi
	movl	$280, %edx
	xorl	%esi, %esi
	callq	memset@PLT
	leaq	1200(%rsp), %rdi
	movl	$272, %edx
	xorl	%esi, %esi
	callq	memset@PLT
	movq	%r12, %rdi
	movq	%r15, %rsi
	movq	%r14, %rdx
	callq	"noise_names::pattern::Pattern::parse_text"
	cmpb	$0, 376(%rsp)
	je	.Lnoise_BB11_4
	movl	$2, %r14d
	movb	$1, %bpl
	jmp	.Lnoise_BB11_7
.Lnoise_BB11_8:
	xorps	%xmm0, %xmm0
	movaps	%xmm0, (%rsp)
	movaps	%xmm0, 16(%rsp)
	movaps	%xmm0, 32(%rsp)
	leaq	928(%rsp), %rdi
	movl	$272, %edx
	xorl	%esi, %esi
	callq	memset@PLT
	leaq	376(%rsp), %rdi
	movl	$280, %edx
	xorl	%esi, %esi
	callq	memset@PLT
	leaq	1744(%rsp), %rdi
	movl	$272, %edx
	xorl	%esi, %esi
	callq	memset@PLT
	leaq	96(%rsp), %rdi
	movl	$280, %edx
	xorl	%esi, %esi
	callq	memset@PLT
	leaq	1472(%rsp), %rdi
	movl	$272, %edx
	xorl	%esi, %esi
	callq	memset@PLT
	movq	%rsp, %rdi
	movq	%r15, %rsi
	movq	%r14, %rdx
	callq	"noise_names::name::ProtocolName::parse"
	cmpb	$0, (%rsp)
	je	.Lnoise_BB11_9
.Lnoise_BB11_16:
	leaq	656(%rsp), %rdi
	movl	$272, %edx
	xorl	%esi, %esi
	callq	memset@PLT
	movl	$1, %r14d
	movb	$1, %bpl
	jmp	.Lnoise_BB11_22
.Lnoise_BB11_9:
	movups	8(%rsp), %xmm0
	movups	24(%rsp), %xmm1
	movaps	%xmm0, 48(%rsp)
	movaps	%xmm1, 64(%rsp)
	movq	40(%rsp), %r14
	movq	%r14, 80(%rsp)
	movq	56(%rsp), %rsi
	leaq	48(%rsp), %rdi
	callq	"noise_names::table::place_of"
	testq	%r14, %r14
	je	.Lnoise_BB11_10
	cmpb	$1, %al
	jne	.Lnoise_BB11_16
	leaq	64(%rsp), %r14
	movzbl	%dl, %esi
	leaq	1200(%rsp), %r15
	movq	%r15, %rdi
	callq	"noise_names::table::row"
	leaq	376(%rsp), %rdi
	movq	%r15, %rsi
	movq	%r14, %rdx
	callq	"noise_names::pattern::Pattern::with_psks"
	cmpb	$0, 376(%rsp)
	je	.Lnoise_BB11_17
	movl	$1, %r14d
	movb	$1, %bpl
	jmp	.Lnoise_BB11_20
.Lnoise_BB11_4:
	leaq	384(%rsp), %rsi
	leaq	96(%rsp), %rdi
	callq	"noise_names::pattern::Pattern::check"
	movzbl	96(%rsp), %ebp
	movl	$2, %r14d
	testb	%bpl, %bpl
	jne	.Lnoise_BB11_6
	leaq	104(%rsp), %rsi
	leaq	1200(%rsp), %rdi
	movl	$272, %edx
	callq	memcpy@PLT
	xorl	%r14d, %r14d
.Lnoise_BB11_6:
	leaq	928(%rsp), %rdi
	leaq	1200(%rsp), %rsi
	movl	$272, %edx
	callq	memcpy@PLT
.Lnoise_BB11_7:
	leaq	656(%rsp), %rdi
	leaq	928(%rsp), %rsi
	jmp	.Lnoise_BB11_21
.Lnoise_BB11_10:
	movl	$1, %ebp
	cmpb	$1, %al
	jne	.Lnoise_BB11_12
	movzbl	%dl, %esi
	leaq	928(%rsp), %rdi
	callq	"noise_names::table::row"
	xorl	%ebp, %ebp
.Lnoise_BB11_12:
	leaq	656(%rsp), %rdi
	leaq	928(%rsp), %rsi
	movl	$272, %edx
	callq	memcpy@PLT
	movl	%ebp, %r14d
	jmp	.Lnoise_BB11_22
.Lnoise_BB11_17:
	leaq	384(%rsp), %rsi
	leaq	96(%rsp), %rdi
	callq	"noise_names::pattern::Pattern::check"
	movzbl	96(%rsp), %ebp
	movl	$2, %r14d
	testb	%bpl, %bpl
	jne	.Lnoise_BB11_19
	leaq	104(%rsp), %rsi
	leaq	1472(%rsp), %rdi
	movl	$272, %edx
	callq	memcpy@PLT
	xorl	%r14d, %r14d
.Lnoise_BB11_19:
	leaq	1744(%rsp), %rdi
	leaq	1472(%rsp), %rsi
	movl	$272, %edx
	callq	memcpy@PLT
.Lnoise_BB11_20:
	leaq	656(%rsp), %rdi
	leaq	1744(%rsp), %rsi
.Lnoise_BB11_21:
	movl	$272, %edx
	callq	memcpy@PLT
.Lnoise_BB11_22:
	movzbl	%bpl, %eax
	movl	%eax, (%rbx)
	movl	%r14d, 4(%rbx)
	addq	$8, %rbx
	leaq	656(%rsp), %rsi
	movl	$272, %edx
	movq	%rbx, %rdi
	callq	memcpy@PLT
	addq	$2016, %rsp
	.cfi_def_cfa_offset 48
	popq	%rbx
	.cfi_def_cfa_offset 40
	popq	%r12
	.cfi_def_cfa_offset 32
	popq	%r14
	.cfi_def_cfa_offset 24
	popq	%r15
	.cfi_def_cfa_offset 16
	popq	%rbp
	.cfi_def_cfa_offset 8
	retq
.Lnoise_func_end11:
	.size	"noise_c::patterns::pattern_of", .Lnoise_func_end11-"noise_c::patterns::pattern_of"
	.cfi_endproc

	.section	".text.noise_names::pattern::Pattern::parse_text","ax",@progbits
	.p2align	4
	.type	"noise_names::pattern::Pattern::parse_text",@function
"noise_names::pattern::Pattern::parse_text":
	.cfi_startproc
	pushq	%rbp
	.cfi_def_cfa_offset 16
	pushq	%r15
	.cfi_def_cfa_offset 24
	pushq	%r14
	.cfi_def_cfa_offset 32
	pushq	%r13
	.cfi_def_cfa_offset 40
	pushq	%r12
	.cfi_def_cfa_offset 48
	pushq	%rbx
	.cfi_def_cfa_offset 56
	subq	$3072, %rsp
	.cfi_adjust_cfa_offset 3072
	movq	$0, (%rsp)
	subq	$1512, %rsp
	.cfi_def_cfa_offset 4640
	.cfi_offset %rbx, -56
	.cfi_offset %r12, -48
	.cfi_offset %r13, -40
	.cfi_offset %r14, -32
	.cfi_offset %r15, -24
	.cfi_offset %rbp, -16
	movq	%rdx, %r14
	movq	%rsi, %r15
	movq	%rdi, %rbx
	movl	$0, 11(%rsp)
	movl	$0, 8(%rsp)
	xorps	%xmm0, %xmm0
	movaps	%xmm0, 240(%rsp)
	movaps	%xmm0, 256(%rsp)
	movaps	%xmm0, 272(%rsp)
	movaps	%xmm0, 288(%rsp)
	movaps	%xmm0, 304(%rsp)
	movaps	%xmm0, 320(%rsp)
	movaps	%xmm0, 336(%rsp)
	movaps	%xmm0, 352(%rsp)
	movaps	%xmm0, 368(%rsp)
	movaps	%xmm0, 384(%rsp)
	movaps	%xmm0, 400(%rsp)
	movaps	%xmm0, 416(%rsp)
	movaps	%xmm0, 432(%rsp)
	movaps	%xmm0, 448(%rsp)
	movaps	%xmm0, 464(%rsp)
	movaps	%xmm0, 480(%rsp)
	movl	$0, 35(%rsp)
	movl	$0, 32(%rsp)
	movaps	%xmm0, 1088(%rsp)
	movaps	%xmm0, 1104(%rsp)
	movaps	%xmm0, 1120(%rsp)
	movaps	%xmm0, 1136(%rsp)
	movaps	%xmm0, 1152(%rsp)
	movaps	%xmm0, 1168(%rsp)
	movaps	%xmm0, 1184(%rsp)
	movaps	%xmm0, 1200(%rsp)
	movaps	%xmm0, 1216(%rsp)
	movaps	%xmm0, 1232(%rsp)
	movaps	%xmm0, 1248(%rsp)
	movaps	%xmm0, 1264(%rsp)
	movaps	%xmm0, 1280(%rsp)
	movaps	%xmm0, 1296(%rsp)
	movaps	%xmm0, 1312(%rsp)
	movaps	%xmm0, 1328(%rsp)
	movl	$0, 67(%rsp)
	movl	$0, 64(%rsp)
	leaq	3256(%rsp), %rdi
	movl	$272, %edx
	xorl	%esi, %esi
	callq	memset@PLT
	leaq	3528(%rsp), %rdi
	movl	$264, %edx
	xorl	%esi, %esi
	callq	memset@PLT
	leaq	1856(%rsp), %rdi
	movl	$280, %edx
	xorl	%esi, %esi
	callq	memset@PLT
	movl	$0, 72(%rsp)
	movl	$0, 75(%rsp)
	xorps	%xmm0, %xmm0
	movaps	%xmm0, 1600(%rsp)
	movaps	%xmm0, 1616(%rsp)
	movaps	%xmm0, 1632(%rsp)
	movaps	%xmm0, 1648(%rsp)
	movaps	%xmm0, 1664(%rsp)
	movaps	%xmm0, 1680(%rsp)
	movaps	%xmm0, 1696(%rsp)
	movaps	%xmm0, 1712(%rsp)
	movaps	%xmm0, 1728(%rsp)
	movaps	%xmm0, 1744(%rsp)
	movaps	%xmm0, 1760(%rsp)
	movaps	%xmm0, 1776(%rsp)
	movaps	%xmm0, 1792(%rsp)
	movaps	%xmm0, 1808(%rsp)
	movaps	%xmm0, 1824(%rsp)
	movaps	%xmm0, 1840(%rsp)
	leaq	2144(%rsp), %rdi
	movl	$552, %edx
	xorl	%esi, %esi
	callq	memset@PLT
	leaq	2704(%rsp), %rdi
	movl	$552, %edx
	xorl	%esi, %esi
	callq	memset@PLT
	movl	$0, 40(%rsp)
	movl	$0, 43(%rsp)
	xorps	%xmm0, %xmm0
	movaps	%xmm0, 1344(%rsp)
	movaps	%xmm0, 1360(%rsp)
	movaps	%xmm0, 1376(%rsp)
	movaps	%xmm0, 1392(%rsp)
	movaps	%xmm0, 1408(%rsp)
	movaps	%xmm0, 1424(%rsp)
	movaps	%xmm0, 1440(%rsp)
	movaps	%xmm0, 1456(%rsp)
	movaps	%xmm0, 1472(%rsp)
	movaps	%xmm0, 1488(%rsp)
	movaps	%xmm0, 1504(%rsp)
	movaps	%xmm0, 1520(%rsp)
	movaps	%xmm0, 1536(%rsp)
	movaps	%xmm0, 1552(%rsp)
	movaps	%xmm0, 1568(%rsp)
	movaps	%xmm0, 1584(%rsp)
	movaps	%xmm0, 544(%rsp)
	movaps	%xmm0, 528(%rsp)
	movaps	%xmm0, 512(%rsp)
	testq	%r14, %r14
	je	.Lnoise_BB12_11
	xorl	%ebp, %ebp
	.p2align	4
.Lnoise_BB12_2:
	cmpb	$58, (%r15,%rbp)
	je	.Lnoise_BB12_4
	incq	%rbp
	cmpq	%rbp, %r14
	jne	.Lnoise_BB12_2
	jmp	.Lnoise_BB12_11
.Lnoise_BB12_4:
	movq	%r14, %r13
	subq	%rbp, %r13
	je	.Lnoise_BB12_11
	cmpb	$58, (%r15,%rbp)
	jne	.Lnoise_BB12_11
	leaq	512(%rsp), %rdi
	movq	%r15, %rsi
	movq	%rbp, %rdx
	callq	"noise_names::section::parse_section"
	cmpb	$0, 512(%rsp)
	jne	.Lnoise_BB12_11
	leaq	-1(%r14), %rax
	movq	552(%rsp), %rcx
	movq	%rcx, 848(%rsp)
	movups	520(%rsp), %xmm0
	movups	536(%rsp), %xmm1
	movaps	%xmm1, 832(%rsp)
	movaps	%xmm0, 816(%rsp)
	cmpq	%rbp, %rax
	je	.Lnoise_BB12_11
	cmpb	$10, 1(%r15,%rbp)
	jne	.Lnoise_BB12_11
	movq	824(%rsp), %r12
	leaq	3792(%rsp), %rdi
	movl	$264, %edx
	xorl	%esi, %esi
	callq	memset@PLT
	leaq	816(%rsp), %rdi
	movq	%r12, %rsi
	callq	"noise_names::table::place_of"
	cmpb	$1, %al
	jne	.Lnoise_BB12_30
	movzbl	%dl, %esi
	leaq	512(%rsp), %r12
	movq	%r12, %rdi
	callq	"noise_names::table::row"
	leaq	4056(%rsp), %r13
	movl	$264, %edx
	movq	%r13, %rdi
	movq	%r12, %rsi
	callq	memcpy@PLT
	movq	776(%rsp), %rbp
	leaq	3528(%rsp), %rdi
	movl	$264, %edx
	movq	%r13, %rsi
	callq	memcpy@PLT
	jmp	.Lnoise_BB12_173
.Lnoise_BB12_11:
	movl	$0, 11(%rsp)
	movl	$0, 8(%rsp)
.Lnoise_BB12_12:
	xorps	%xmm0, %xmm0
	movaps	%xmm0, 240(%rsp)
	movaps	%xmm0, 256(%rsp)
	movaps	%xmm0, 272(%rsp)
	movaps	%xmm0, 288(%rsp)
	movaps	%xmm0, 304(%rsp)
	movaps	%xmm0, 320(%rsp)
	movaps	%xmm0, 336(%rsp)
	movaps	%xmm0, 352(%rsp)
	movaps	%xmm0, 368(%rsp)
	movaps	%xmm0, 384(%rsp)
	movaps	%xmm0, 400(%rsp)
	movaps	%xmm0, 416(%rsp)
	movaps	%xmm0, 432(%rsp)
	movaps	%xmm0, 448(%rsp)
	movaps	%xmm0, 464(%rsp)
	movaps	%xmm0, 480(%rsp)
.Lnoise_BB12_13:
	xorps	%xmm0, %xmm0
	movaps	%xmm0, 2176(%rsp)
	movaps	%xmm0, 2160(%rsp)
	movaps	%xmm0, 2144(%rsp)
	testq	%r14, %r14
	je	.Lnoise_BB12_20
	xorl	%r13d, %r13d
	.p2align	4
.Lnoise_BB12_15:
	cmpb	$58, (%r15,%r13)
	je	.Lnoise_BB12_17
	incq	%r13
	cmpq	%r13, %r14
	jne	.Lnoise_BB12_15
	jmp	.Lnoise_BB12_20
.Lnoise_BB12_17:
	movq	%r14, %r12
	subq	%r13, %r12
	je	.Lnoise_BB12_20
	cmpb	$58, (%r15,%r13)
	jne	.Lnoise_BB12_20
	leaq	2144(%rsp), %rdi
	movq	%r15, %rsi
	movq	%r13, %rdx
	callq	"noise_names::section::parse_section"
	cmpb	$0, 2144(%rsp)
	je	.Lnoise_BB12_23
.Lnoise_BB12_20:
	movl	$1, %ebp
	xorl	%r13d, %r13d
.Lnoise_BB12_21:
	movl	64(%rsp), %eax
	movl	67(%rsp), %ecx
	movl	%eax, 32(%rsp)
	movl	%ecx, 35(%rsp)
	movl	$1, %eax
.Lnoise_BB12_22:
	movq	%rax, (%rbx)
	movq	%rbp, 8(%rbx)
	movb	%r13b, 16(%rbx)
	movl	32(%rsp), %eax
	movl	35(%rsp), %ecx
	movl	%eax, 17(%rbx)
	movl	%ecx, 20(%rbx)
	addq	$24, %rbx
	leaq	1088(%rsp), %rsi
	movl	$256, %edx
	movq	%rbx, %rdi
	callq	memcpy@PLT
	addq	$4584, %rsp
	.cfi_def_cfa_offset 56
	popq	%rbx
	.cfi_def_cfa_offset 48
	popq	%r12
	.cfi_def_cfa_offset 40
	popq	%r13
	.cfi_def_cfa_offset 32
	popq	%r14
	.cfi_def_cfa_offset 24
	popq	%r15
	.cfi_def_cfa_offset 16
	popq	%rbp
	.cfi_def_cfa_offset 8
	retq
.Lnoise_BB12_23:
	.cfi_def_cfa_offset 4640
	leaq	-1(%r14), %rax
	movq	2184(%rsp), %rcx
	movq	%rcx, 1888(%rsp)
	movups	2152(%rsp), %xmm0
	movups	2168(%rsp), %xmm1
	movaps	%xmm1, 1872(%rsp)
	movaps	%xmm0, 1856(%rsp)
	movl	$1, %ebp
	cmpq	%r13, %rax
	jne	.Lnoise_BB12_25
	movb	$8, %r13b
	jmp	.Lnoise_BB12_21
.Lnoise_BB12_25:
	addq	$-2, %r12
	cmpb	$10, 1(%r15,%r13)
	leaq	2(%r15,%r13), %rbp
	movl	$0, %eax
	cmoveq	%rbp, %rax
	movq	%rax, 24(%rsp)
	movl	$0, %eax
	cmoveq	%r12, %rax
	movq	%rax, 16(%rsp)
	jne	.Lnoise_BB12_28
	addq	$-2, %r14
	movl	$2, %r11d
	cmpq	%r13, %r14
	jne	.Lnoise_BB12_32
.Lnoise_BB12_27:
	movq	%r11, %rbp
	movb	$8, %r13b
	jmp	.Lnoise_BB12_21
.Lnoise_BB12_28:
	xorl	%r13d, %r13d
.Lnoise_BB12_29:
	movl	$1, %ebp
	jmp	.Lnoise_BB12_21
.Lnoise_BB12_30:
	movq	%r12, 56(%rsp)
	addq	$-2, %r13
	addq	%r15, %rbp
	addq	$2, %rbp
	leaq	4056(%rsp), %rdi
	movl	$264, %edx
	xorl	%esi, %esi
	callq	memset@PLT
	xorps	%xmm0, %xmm0
	movaps	%xmm0, 160(%rsp)
	movaps	%xmm0, 144(%rsp)
	movaps	%xmm0, 864(%rsp)
	movaps	%xmm0, 880(%rsp)
	movaps	%xmm0, 896(%rsp)
	movaps	%xmm0, 912(%rsp)
	movaps	%xmm0, 928(%rsp)
	movaps	%xmm0, 944(%rsp)
	movaps	%xmm0, 960(%rsp)
	movaps	%xmm0, 976(%rsp)
	movaps	%xmm0, 992(%rsp)
	movaps	%xmm0, 1008(%rsp)
	movaps	%xmm0, 1024(%rsp)
	movaps	%xmm0, 1040(%rsp)
	movaps	%xmm0, 1056(%rsp)
	movaps	%xmm0, 1072(%rsp)
	leaq	4320(%rsp), %rdi
	movl	$264, %edx
	xorl	%esi, %esi
	callq	memset@PLT
	xorps	%xmm0, %xmm0
	movaps	%xmm0, 176(%rsp)
	movaps	%xmm0, 80(%rsp)
	movaps	%xmm0, 96(%rsp)
	movaps	%xmm0, 528(%rsp)
	movaps	%xmm0, 512(%rsp)
	movq	$0, 544(%rsp)
	leaq	512(%rsp), %rdi
	xorl	%esi, %esi
	movq	%rbp, %rdx
	movq	%r13, %rcx
	callq	"noise_names::text::read::read_line"
	cmpb	$1, 512(%rsp)
	movq	%rbp, 16(%rsp)
	jne	.Lnoise_BB12_42
	movq	536(%rsp), %rbp
	movq	544(%rsp), %r12
	movups	520(%rsp), %xmm0
	movaps	%xmm0, 784(%rsp)
	jmp	.Lnoise_BB12_43
.Lnoise_BB12_32:
	movq	1888(%rsp), %rax
	movq	%rax, 120(%rsp)
.Lnoise_BB12_33:
	xorl	%r13d, %r13d
	.p2align	4
.Lnoise_BB12_34:
	cmpb	$10, (%rbp,%r13)
	je	.Lnoise_BB12_37
	incq	%r13
	cmpq	%r13, %r12
	jne	.Lnoise_BB12_34
	movq	%r12, %r13
.Lnoise_BB12_37:
	xorl	%r15d, %r15d
	cmpq	%r13, %r12
	setne	%r14b
	cmpq	$5, %r13
	jne	.Lnoise_BB12_40
	cmpl	$774774816, (%rbp)
	jne	.Lnoise_BB12_40
	leaq	.Lnoise_static.96(%rip), %rdx
	movl	$5, %esi
	movq	%rbp, %rdi
	callq	"core::cmp::slices::groups_equal::<i8,31'core::cmp::numbers::U8PartialEq{}>"
	testb	%al, %al
	jne	.Lnoise_BB12_71
.Lnoise_BB12_40:
	xorl	%esi, %esi
	cmpq	%r13, %r12
	je	.Lnoise_BB12_72
	addq	%r13, %rbp
	notq	%r13
	addq	%r13, %r12
	movb	%r14b, %r15b
	addq	%r15, %rbp
	testq	%r12, %r12
	jne	.Lnoise_BB12_33
	jmp	.Lnoise_BB12_72
.Lnoise_BB12_42:
	xorps	%xmm0, %xmm0
	movaps	%xmm0, 784(%rsp)
	movq	%r13, %r12
.Lnoise_BB12_43:
	xorps	%xmm0, %xmm0
	movaps	%xmm0, 512(%rsp)
	movaps	%xmm0, 528(%rsp)
	movq	$0, 544(%rsp)
	leaq	512(%rsp), %rdi
	movl	$1, %esi
	movq	%rbp, %rdx
	movq	%r12, %rcx
	callq	"noise_names::text::read::read_line"
	cmpb	$1, 512(%rsp)
	jne	.Lnoise_BB12_45
	movq	536(%rsp), %rbp
	movq	544(%rsp), %r12
	movups	520(%rsp), %xmm0
	jmp	.Lnoise_BB12_46
.Lnoise_BB12_45:
	xorps	%xmm0, %xmm0
.Lnoise_BB12_46:
	movaps	%xmm0, 208(%rsp)
	movdqa	208(%rsp), %xmm0
	movdqa	%xmm0, 176(%rsp)
	cmpq	$6, %r12
	jae	.Lnoise_BB12_48
.Lnoise_BB12_47:
	pxor	%xmm0, %xmm0
	movdqa	%xmm0, 96(%rsp)
	movdqa	%xmm0, 80(%rsp)
	movq	16(%rsp), %rdx
	jmp	.Lnoise_BB12_52
.Lnoise_BB12_48:
	movzwl	(%rbp), %eax
	movd	%eax, %xmm0
	pinsrw	$1, 4(%rbp), %xmm0
	movd	%xmm0, %eax
	cmpl	$170795040, %eax
	jne	.Lnoise_BB12_47
	cmpb	$46, 3(%rbp)
	jne	.Lnoise_BB12_47
	cmpb	$46, 2(%rbp)
	jne	.Lnoise_BB12_47
	addq	$-6, %r12
	addq	$6, %rbp
	movaps	784(%rsp), %xmm0
	movaps	%xmm0, 80(%rsp)
	movdqa	176(%rsp), %xmm0
	movdqa	%xmm0, 96(%rsp)
	movq	%rbp, %rdx
	movq	%r12, %r13
.Lnoise_BB12_52:
	movaps	80(%rsp), %xmm0
	movaps	96(%rsp), %xmm1
	movaps	%xmm1, 880(%rsp)
	movaps	%xmm0, 864(%rsp)
	movaps	%xmm0, 160(%rsp)
	movaps	%xmm1, 144(%rsp)
	xorps	%xmm0, %xmm0
	movaps	%xmm0, 80(%rsp)
	movaps	%xmm0, 96(%rsp)
	movq	$0, 112(%rsp)
	movaps	%xmm0, 512(%rsp)
	movaps	%xmm0, 528(%rsp)
	movaps	%xmm0, 544(%rsp)
	movaps	%xmm0, 560(%rsp)
	movaps	%xmm0, 576(%rsp)
	movaps	%xmm0, 592(%rsp)
	movaps	%xmm0, 608(%rsp)
	movaps	%xmm0, 624(%rsp)
	movaps	%xmm0, 640(%rsp)
	movaps	%xmm0, 656(%rsp)
	movaps	%xmm0, 672(%rsp)
	movaps	%xmm0, 688(%rsp)
	movq	$0, 704(%rsp)
	leaq	80(%rsp), %rdi
	xorl	%esi, %esi
	movq	%r13, %rcx
	callq	"noise_names::text::read::read_line"
	cmpb	$1, 80(%rsp)
	jne	.Lnoise_BB12_58
	movq	704(%rsp), %rbp
	leaq	(,%rbp,2), %rax
	addq	%rbp, %rax
	leaq	(%rsp,%rax,8), %r12
	addq	$512, %r12
	xorl	%r13d, %r13d
.Lnoise_BB12_54:
	movq	%rbp, 16(%rsp)
	leaq	88(%rsp), %rax
	movups	(%rax), %xmm0
	movaps	%xmm0, 800(%rsp)
	movq	808(%rsp), %rbp
	testq	%rbp, %rbp
	je	.Lnoise_BB12_60
	cmpq	$8, 16(%rsp)
	je	.Lnoise_BB12_60
	movq	104(%rsp), %rax
	movq	%rax, 24(%rsp)
	movq	112(%rsp), %rax
	movq	%rax, 128(%rsp)
	xorps	%xmm0, %xmm0
	movaps	%xmm0, 208(%rsp)
	cmpq	$11, %rbp
	jae	.Lnoise_BB12_199
	leaq	208(%rsp), %rdi
	leaq	800(%rsp), %rsi
	movq	%rbp, %rdx
	callq	memcpy@PLT
	movq	%rbp, 192(%rsp)
	movaps	208(%rsp), %xmm0
	movaps	%xmm0, 176(%rsp)
	movq	%rbp, 16(%r12)
	movups	%xmm0, (%r12)
	movq	16(%rsp), %rbp
	incq	%rbp
	xorb	$1, %r13b
	movzbl	%r13b, %esi
	leaq	80(%rsp), %rdi
	movq	24(%rsp), %rdx
	movq	128(%rsp), %rcx
	callq	"noise_names::text::read::read_line"
	addq	$24, %r12
	cmpb	$1, 80(%rsp)
	je	.Lnoise_BB12_54
	jmp	.Lnoise_BB12_59
.Lnoise_BB12_58:
	movq	704(%rsp), %rbp
.Lnoise_BB12_59:
	leaq	896(%rsp), %rdi
	leaq	512(%rsp), %rsi
	movl	$192, %edx
	callq	memcpy@PLT
	jmp	.Lnoise_BB12_61
.Lnoise_BB12_60:
	leaq	896(%rsp), %rdi
	leaq	512(%rsp), %rsi
	movl	$192, %edx
	callq	memcpy@PLT
	movq	16(%rsp), %rbp
.Lnoise_BB12_61:
	movq	%rbp, 16(%rsp)
	testq	%rbp, %rbp
	movq	56(%rsp), %r12
	je	.Lnoise_BB12_175
	movq	168(%rsp), %rbp
	movq	152(%rsp), %r13
	testq	%rbp, %rbp
	je	.Lnoise_BB12_68
	cmpq	$1, %rbp
	jne	.Lnoise_BB12_65
	cmpb	$2, 160(%rsp)
	jb	.Lnoise_BB12_68
	jmp	.Lnoise_BB12_175
.Lnoise_BB12_65:
	cmpq	$2, %rbp
	ja	.Lnoise_BB12_175
	cmpb	$0, 160(%rsp)
	jne	.Lnoise_BB12_175
	cmpb	$1, 161(%rsp)
	jne	.Lnoise_BB12_175
.Lnoise_BB12_68:
	testq	%r13, %r13
	je	.Lnoise_BB12_171
	cmpq	$1, %r13
	jne	.Lnoise_BB12_168
	cmpb	$2, 144(%rsp)
	jae	.Lnoise_BB12_175
	jmp	.Lnoise_BB12_171
.Lnoise_BB12_71:
	movl	$1, %esi
.Lnoise_BB12_72:
	xorl	%ecx, %ecx
	movl	$2, %r11d
	xorl	%edx, %edx
	movq	24(%rsp), %r15
	movq	16(%rsp), %r12
.Lnoise_BB12_73:
	xorl	%ebp, %ebp
.Lnoise_BB12_74:
	cmpb	$10, (%r15,%rbp)
	je	.Lnoise_BB12_77
	incq	%rbp
	cmpq	%rbp, %r12
	jne	.Lnoise_BB12_74
	movq	%r12, %rbp
.Lnoise_BB12_77:
	xorl	%r14d, %r14d
	cmpq	%rbp, %r12
	setne	128(%rsp)
	movzbl	%dl, %edi
	shll	$24, %edi
	movl	%ecx, %r13d
	andl	$16711680, %r13d
	orl	%edi, %r13d
	movl	%ecx, %eax
	andl	$65280, %eax
	orl	%r13d, %eax
	movl	%eax, %r8d
	shrl	$8, %r8d
	shrl	$16, %r13d
	cmpq	$5, %rbp
	movl	%eax, 52(%rsp)
	movq	%rdx, 504(%rsp)
	movl	%ecx, 140(%rsp)
	movl	%esi, 24(%rsp)
	movl	%edi, 136(%rsp)
	movl	%r8d, 56(%rsp)
	jne	.Lnoise_BB12_81
	cmpl	$774774816, (%r15)
	jne	.Lnoise_BB12_83
	movq	%r11, %r14
	leaq	.Lnoise_static.96(%rip), %rdx
	movl	$5, %esi
	movq	%r15, %rdi
	callq	"core::cmp::slices::groups_equal::<i8,31'core::cmp::numbers::U8PartialEq{}>"
	testb	%al, %al
	je	.Lnoise_BB12_84
	movl	56(%rsp), %eax
	testb	$1, %al
	cmovnel	%eax, %r13d
	movl	24(%rsp), %eax
	andl	%r13d, %eax
	testb	$1, %al
	movq	%r14, %r11
	movl	$0, %r14d
	movl	52(%rsp), %ecx
	jne	.Lnoise_BB12_161
	jmp	.Lnoise_BB12_193
.Lnoise_BB12_81:
	jb	.Lnoise_BB12_188
	movzbl	(%r15), %r8d
	movzbl	1(%r15), %edi
	movzbl	2(%r15), %edx
	movzbl	3(%r15), %esi
	jmp	.Lnoise_BB12_85
.Lnoise_BB12_83:
	movzbl	3(%r15), %esi
	movzbl	2(%r15), %edx
	movzbl	(%r15), %r8d
	movzbl	1(%r15), %edi
	jmp	.Lnoise_BB12_85
.Lnoise_BB12_84:
	movb	$32, %dil
	movb	$46, %sil
	movb	$46, %dl
	movb	$32, %r8b
	movq	%r14, %r11
	xorl	%r14d, %r14d
.Lnoise_BB12_85:
	movl	%edi, %eax
	xorb	$32, %al
	movl	%edx, %ecx
	xorb	$45, %cl
	movl	%esi, %r10d
	xorb	$62, %r10b
	orb	%cl, %r10b
	movzbl	4(%r15), %r9d
	movl	%r9d, %ecx
	xorb	$32, %cl
	orb	%al, %cl
	orb	%r10b, %cl
	movl	%r8d, %eax
	xorb	$32, %al
	orb	%cl, %al
	sete	%al
	je	.Lnoise_BB12_91
	movb	$1, %cl
	cmpb	$32, %r8b
	jne	.Lnoise_BB12_167
	cmpb	$32, %dil
	jne	.Lnoise_BB12_167
	cmpb	$45, %sil
	jne	.Lnoise_BB12_167
	cmpb	$60, %dl
	jne	.Lnoise_BB12_167
	cmpb	$32, %r9b
	jne	.Lnoise_BB12_167
.Lnoise_BB12_91:
	movq	%rbp, %rcx
	xorps	%xmm0, %xmm0
	movaps	%xmm0, 2176(%rsp)
	movaps	%xmm0, 2160(%rsp)
	movaps	%xmm0, 2144(%rsp)
	addq	$-5, %rcx
	je	.Lnoise_BB12_166
	movzbl	24(%rsp), %edx
	movl	%edx, 48(%rsp)
	leaq	5(%r15), %rdx
	xorl	%edi, %edi
.Lnoise_BB12_93:
	xorl	%esi, %esi
	.p2align	4
.Lnoise_BB12_94:
	movzbl	(%rdx,%rsi), %r8d
	addb	$-97, %r8b
	cmpb	$25, %r8b
	ja	.Lnoise_BB12_97
	incq	%rsi
	cmpq	%rsi, %rcx
	jne	.Lnoise_BB12_94
	movq	%rcx, %rsi
.Lnoise_BB12_97:
	cmpq	$1, %rsi
	je	.Lnoise_BB12_105
	testq	%rsi, %rsi
	je	.Lnoise_BB12_166
	cmpq	$2, %rsi
	ja	.Lnoise_BB12_108
	movzbl	(%rdx), %r8d
	cmpl	$115, %r8d
	je	.Lnoise_BB12_113
	cmpl	$101, %r8d
	jne	.Lnoise_BB12_166
	movzbl	1(%rdx), %r8d
	cmpl	$101, %r8d
	je	.Lnoise_BB12_117
	cmpl	$115, %r8d
	jne	.Lnoise_BB12_166
	movb	$3, %r8b
	xorl	%r9d, %r9d
	jmp	.Lnoise_BB12_118
.Lnoise_BB12_105:
	movzbl	(%rdx), %r10d
	xorl	%r9d, %r9d
	movl	$0, %r8d
	cmpl	$101, %r10d
	je	.Lnoise_BB12_118
	cmpl	$115, %r10d
	jne	.Lnoise_BB12_166
	movb	$1, %r8b
	xorl	%r9d, %r9d
	jmp	.Lnoise_BB12_118
.Lnoise_BB12_108:
	cmpq	$3, %rsi
	jne	.Lnoise_BB12_166
	cmpb	$112, (%rdx)
	jne	.Lnoise_BB12_166
	cmpb	$115, 1(%rdx)
	jne	.Lnoise_BB12_166
	cmpb	$107, 2(%rdx)
	jne	.Lnoise_BB12_166
	movb	$6, %r8b
	movb	$1, %r9b
	jmp	.Lnoise_BB12_118
.Lnoise_BB12_113:
	movzbl	1(%rdx), %r8d
	cmpl	$101, %r8d
	je	.Lnoise_BB12_116
	cmpl	$115, %r8d
	jne	.Lnoise_BB12_166
	movb	$5, %r8b
	xorl	%r9d, %r9d
	jmp	.Lnoise_BB12_118
.Lnoise_BB12_116:
	xorl	%r9d, %r9d
	movb	$4, %r8b
	jmp	.Lnoise_BB12_118
.Lnoise_BB12_117:
	xorl	%r9d, %r9d
	movb	$2, %r8b
.Lnoise_BB12_118:
	movl	$11, %r10d
	cmpq	$11, %rdi
	je	.Lnoise_BB12_120
	movb	%r8b, 2144(%rsp,%rdi)
	incq	%rdi
	movq	%rdi, 2160(%rsp)
	movq	%rdi, %r10
.Lnoise_BB12_120:
	testb	%r9b, %r9b
	jne	.Lnoise_BB12_123
	movq	2184(%rsp), %rdi
	cmpq	$9, %rdi
	je	.Lnoise_BB12_123
	movb	%r8b, 2168(%rsp,%rdi)
	incq	%rdi
	movq	%rdi, 2184(%rsp)
.Lnoise_BB12_123:
	cmpq	%rsi, %rcx
	je	.Lnoise_BB12_128
	subq	%rsi, %rcx
	cmpq	$2, %rcx
	jb	.Lnoise_BB12_166
	addq	%rsi, %rdx
	cmpb	$44, (%rdx)
	jne	.Lnoise_BB12_166
	cmpb	$32, 1(%rdx)
	jne	.Lnoise_BB12_166
	addq	$-2, %rcx
	addq	$2, %rdx
	movq	%r10, %rdi
	testq	%rcx, %rcx
	jne	.Lnoise_BB12_93
	jmp	.Lnoise_BB12_166
.Lnoise_BB12_128:
	movaps	2144(%rsp), %xmm0
	movaps	2160(%rsp), %xmm1
	movaps	2176(%rsp), %xmm2
	movaps	%xmm2, 2736(%rsp)
	movaps	%xmm1, 2720(%rsp)
	movaps	%xmm0, 2704(%rsp)
	testb	$1, 24(%rsp)
	je	.Lnoise_BB12_133
	movl	56(%rsp), %edx
	orl	%r13d, %edx
	testb	%al, %al
	cmovel	%r13d, %edx
	movb	$3, %cl
	testb	$1, %dl
	jne	.Lnoise_BB12_167
	movq	2720(%rsp), %rdx
	testq	%rdx, %rdx
	je	.Lnoise_BB12_144
	cmpq	$1, %rdx
	jne	.Lnoise_BB12_141
	cmpb	$2, 2704(%rsp)
	jb	.Lnoise_BB12_144
	jmp	.Lnoise_BB12_167
.Lnoise_BB12_133:
	movq	504(%rsp), %rdx
	movl	%edx, %ecx
	andb	$1, %cl
	cmpb	%cl, %al
	je	.Lnoise_BB12_195
	movb	$7, %cl
	cmpb	$7, %dl
	ja	.Lnoise_BB12_167
	movq	2744(%rsp), %r13
	testq	%r13, %r13
	je	.Lnoise_BB12_167
	cmpq	$9, %r13
	je	.Lnoise_BB12_167
	movq	%rdx, %rax
	leal	1(%rdx), %ecx
	movl	%ecx, 24(%rsp)
	movb	%cl, 3256(%rsp)
	xorps	%xmm0, %xmm0
	movaps	%xmm0, 2144(%rsp)
	testb	%al, %al
	movq	%r12, 16(%rsp)
	je	.Lnoise_BB12_139
	xorl	%r12d, %r12d
	leaq	2144(%rsp), %rdi
	jmp	.Lnoise_BB12_147
.Lnoise_BB12_139:
	movq	%r11, %r14
	leaq	.Lnoise_static.2(%rip), %rdx
	leaq	1872(%rsp), %rdi
	movq	120(%rsp), %rsi
	callq	"core::slice::reads::slice+T::contains::<i8,31'core::cmp::numbers::U8PartialEq{}>"
	testb	%al, %al
	je	.Lnoise_BB12_145
	movb	$6, 2144(%rsp)
	movl	$1, %r12d
	leaq	2145(%rsp), %rdi
	jmp	.Lnoise_BB12_146
.Lnoise_BB12_141:
	cmpq	$2, %rdx
	ja	.Lnoise_BB12_167
	cmpb	$0, 2704(%rsp)
	jne	.Lnoise_BB12_167
	cmpb	$1, 2705(%rsp)
	jne	.Lnoise_BB12_167
.Lnoise_BB12_144:
	movl	140(%rsp), %edx
	movl	%edx, %ecx
	andl	$256, %ecx
	andl	$65536, %edx
	orl	$256, %edx
	orl	$65536, %ecx
	testb	%al, %al
	cmovnel	%edx, %ecx
	movl	136(%rsp), %eax
	orl	48(%rsp), %eax
	orl	%ecx, %eax
	movl	%eax, %ecx
	jmp	.Lnoise_BB12_161
.Lnoise_BB12_145:
	xorl	%r12d, %r12d
	leaq	2144(%rsp), %rdi
.Lnoise_BB12_146:
	movq	%r14, %r11
.Lnoise_BB12_147:
	movl	$10, %eax
	subq	%r12, %rax
	cmpq	%r13, %rax
	jb	.Lnoise_BB12_199
	movq	%r11, %r14
	leaq	2728(%rsp), %rsi
	movq	%r13, %rdx
	callq	memcpy@PLT
	addq	%r13, %r12
	movq	%r12, 2160(%rsp)
	leaq	3256(%rsp), %rdx
	leaq	1872(%rsp), %rdi
	movq	120(%rsp), %rsi
	callq	"core::slice::reads::slice+T::contains::<i8,31'core::cmp::numbers::U8PartialEq{}>"
	testb	%al, %al
	je	.Lnoise_BB12_150
	movb	$6, 2144(%rsp,%r12)
	incq	%r12
	movq	%r12, 2160(%rsp)
.Lnoise_BB12_150:
	movq	2160(%rsp), %rsi
	movq	%rsi, 528(%rsp)
	movaps	2144(%rsp), %xmm0
	movaps	%xmm0, 512(%rsp)
	cmpq	2720(%rsp), %rsi
	movq	16(%rsp), %r12
	jne	.Lnoise_BB12_194
	cmpq	$4, %rsi
	jae	.Lnoise_BB12_156
	testq	%rsi, %rsi
	je	.Lnoise_BB12_155
	movzbl	512(%rsp), %eax
	cmpb	2704(%rsp), %al
	jne	.Lnoise_BB12_158
	cmpq	$1, %rsi
	jne	.Lnoise_BB12_163
.Lnoise_BB12_155:
	movq	%r14, %r11
	jmp	.Lnoise_BB12_160
.Lnoise_BB12_156:
	movl	512(%rsp), %eax
	cmpl	2704(%rsp), %eax
	jne	.Lnoise_BB12_194
	leaq	512(%rsp), %rdi
	leaq	2704(%rsp), %rdx
	callq	"core::cmp::slices::groups_equal::<#1549cde59530a8ca>"
	testb	%al, %al
	movq	%r14, %r11
	jne	.Lnoise_BB12_160
	jmp	.Lnoise_BB12_198
.Lnoise_BB12_158:
	xorl	%eax, %eax
.Lnoise_BB12_159:
	cmpq	%rsi, %rax
	movq	%r14, %r11
	jb	.Lnoise_BB12_198
.Lnoise_BB12_160:
	movl	52(%rsp), %ecx
	andl	$16776960, %ecx
	movzbl	24(%rsp), %eax
	shll	$24, %eax
	orl	%ecx, %eax
	orl	48(%rsp), %eax
	movl	%eax, %ecx
	xorl	%r14d, %r14d
.Lnoise_BB12_161:
	cmpq	%rbp, %r12
	je	.Lnoise_BB12_27
	addq	%rbp, %r15
	notq	%rbp
	addq	%rbp, %r12
	movzbl	128(%rsp), %eax
	movb	%al, %r14b
	addq	%r14, %r15
	movl	%ecx, %edx
	shrl	$24, %edx
	incq	%r11
	movl	%ecx, %esi
	testq	%r12, %r12
	jne	.Lnoise_BB12_73
	jmp	.Lnoise_BB12_189
.Lnoise_BB12_163:
	movzbl	513(%rsp), %ecx
	movl	$1, %eax
	cmpb	2705(%rsp), %cl
	jne	.Lnoise_BB12_159
	cmpq	$2, %rsi
	je	.Lnoise_BB12_155
	movzbl	514(%rsp), %ecx
	movl	$2, %eax
	cmpb	2706(%rsp), %cl
	je	.Lnoise_BB12_155
	jmp	.Lnoise_BB12_159
.Lnoise_BB12_166:
	movb	$2, %cl
.Lnoise_BB12_167:
	movq	%r11, %rbp
	movl	%ecx, %r13d
	jmp	.Lnoise_BB12_21
.Lnoise_BB12_168:
	cmpq	$2, %r13
	ja	.Lnoise_BB12_175
	cmpb	$0, 144(%rsp)
	jne	.Lnoise_BB12_175
	cmpb	$1, 145(%rsp)
	jne	.Lnoise_BB12_175
.Lnoise_BB12_171:
	movq	$0, 80(%rsp)
	cmpq	$9, %r12
	jae	.Lnoise_BB12_199
	leaq	80(%rsp), %rdi
	leaq	816(%rsp), %rsi
	movq	%r12, %rdx
	callq	memcpy@PLT
	movq	%r12, 88(%rsp)
	movq	$0, 208(%rsp)
	leaq	208(%rsp), %rdi
	leaq	160(%rsp), %rsi
	movq	%rbp, %rdx
	callq	memcpy@PLT
	movq	%rbp, 216(%rsp)
	movq	$0, 176(%rsp)
	leaq	176(%rsp), %rdi
	leaq	144(%rsp), %rsi
	movq	%r13, %rdx
	callq	memcpy@PLT
	movq	%r13, 184(%rsp)
	movups	80(%rsp), %xmm0
	movaps	%xmm0, 512(%rsp)
	xorps	%xmm0, %xmm0
	movaps	%xmm0, 528(%rsp)
	movq	$0, 544(%rsp)
	movups	208(%rsp), %xmm0
	movups	%xmm0, 552(%rsp)
	movq	176(%rsp), %rax
	movq	%rax, 568(%rsp)
	movq	184(%rsp), %rax
	movq	%rax, 576(%rsp)
	leaq	584(%rsp), %rdi
	leaq	896(%rsp), %rsi
	movl	$192, %edx
	callq	memcpy@PLT
	leaq	4320(%rsp), %r12
	leaq	512(%rsp), %rsi
	movl	$264, %edx
	movq	%r12, %rdi
	callq	memcpy@PLT
	leaq	3792(%rsp), %r13
	movl	$264, %edx
	movq	%r13, %rdi
	movq	%r12, %rsi
	callq	memcpy@PLT
	leaq	3528(%rsp), %rdi
	movl	$264, %edx
	movq	%r13, %rsi
	callq	memcpy@PLT
	movq	16(%rsp), %rbp
.Lnoise_BB12_173:
	leaq	3256(%rsp), %r12
	leaq	3528(%rsp), %rsi
	movl	$264, %edx
	movq	%r12, %rdi
	callq	memcpy@PLT
	movq	%rbp, 3520(%rsp)
	leaq	832(%rsp), %rdx
	leaq	1856(%rsp), %rdi
	movq	%r12, %rsi
	callq	"noise_names::pattern::Pattern::with_psks"
	cmpb	$0, 1856(%rsp)
	je	.Lnoise_BB12_176
	movl	72(%rsp), %eax
	movl	75(%rsp), %ecx
	movl	%ecx, 11(%rsp)
	movl	%eax, 8(%rsp)
	leaq	240(%rsp), %rdi
	leaq	1600(%rsp), %rsi
	movl	$256, %edx
	callq	memcpy@PLT
	jmp	.Lnoise_BB12_13
.Lnoise_BB12_175:
	movl	$0, 8(%rsp)
	movl	$0, 11(%rsp)
	jmp	.Lnoise_BB12_12
.Lnoise_BB12_176:
	leaq	1864(%rsp), %rsi
	leaq	2144(%rsp), %r12
	movq	%r12, %rdi
	callq	"noise_names::text::write::text"
	leaq	2704(%rsp), %rdi
	movl	$552, %edx
	movq	%r12, %rsi
	callq	memcpy@PLT
	cmpq	%r14, 3248(%rsp)
	jne	.Lnoise_BB12_183
	cmpq	$3, %r14
	ja	.Lnoise_BB12_181
	xorl	%eax, %eax
.Lnoise_BB12_179:
	movzbl	2704(%rsp,%rax), %ecx
	cmpb	(%r15,%rax), %cl
	jne	.Lnoise_BB12_184
	incq	%rax
	cmpq	%rax, %r14
	jne	.Lnoise_BB12_179
	jmp	.Lnoise_BB12_185
.Lnoise_BB12_181:
	movl	2704(%rsp), %eax
	cmpl	(%r15), %eax
	jne	.Lnoise_BB12_183
	leaq	2704(%rsp), %rdi
	movq	%r14, %rsi
	movq	%r15, %rdx
	callq	"core::cmp::slices::groups_equal::<i8,31'core::cmp::numbers::U8PartialEq{}>"
	testb	%al, %al
	jne	.Lnoise_BB12_185
.Lnoise_BB12_183:
	xorl	%ebp, %ebp
	xorl	%r13d, %r13d
	xorl	%r12d, %r12d
	jmp	.Lnoise_BB12_186
.Lnoise_BB12_184:
	cmpq	%r14, %rax
	jb	.Lnoise_BB12_183
.Lnoise_BB12_185:
	movq	1864(%rsp), %rbp
	movzbl	1872(%rsp), %r13d
	movl	1873(%rsp), %eax
	movl	%eax, 40(%rsp)
	movl	1876(%rsp), %eax
	movl	%eax, 43(%rsp)
	leaq	1880(%rsp), %rsi
	leaq	1344(%rsp), %rdi
	movl	$256, %edx
	callq	memcpy@PLT
	movb	$1, %r12b
.Lnoise_BB12_186:
	movl	40(%rsp), %eax
	movl	43(%rsp), %ecx
	movl	%ecx, 11(%rsp)
	movl	%eax, 8(%rsp)
	leaq	240(%rsp), %rdi
	leaq	1344(%rsp), %rsi
	movl	$256, %edx
	callq	memcpy@PLT
	testb	%r12b, %r12b
	je	.Lnoise_BB12_13
	movl	8(%rsp), %eax
	movl	11(%rsp), %ecx
	movl	%ecx, 35(%rsp)
	movl	%eax, 32(%rsp)
	leaq	1088(%rsp), %rdi
	leaq	240(%rsp), %rsi
	movl	$256, %edx
	callq	memcpy@PLT
	xorl	%eax, %eax
	jmp	.Lnoise_BB12_22
.Lnoise_BB12_188:
	movb	$1, %cl
	jmp	.Lnoise_BB12_167
.Lnoise_BB12_189:
	testl	%edx, %edx
	je	.Lnoise_BB12_27
	movq	%rdx, %rcx
	xorl	%eax, %eax
.Lnoise_BB12_191:
	cmpq	%rax, 120(%rsp)
	je	.Lnoise_BB12_196
	movb	$5, %r13b
	cmpb	%cl, 1872(%rsp,%rax)
	leaq	1(%rax), %rax
	jbe	.Lnoise_BB12_191
	jmp	.Lnoise_BB12_29
.Lnoise_BB12_193:
	movb	$3, %cl
	jmp	.Lnoise_BB12_167
.Lnoise_BB12_194:
	movb	$5, %cl
	movq	%r14, %r11
	jmp	.Lnoise_BB12_167
.Lnoise_BB12_195:
	movb	$4, %cl
	jmp	.Lnoise_BB12_167
.Lnoise_BB12_196:
	movb	$6, %r13b
	jmp	.Lnoise_BB12_29
.Lnoise_BB12_198:
	movb	$5, %cl
	jmp	.Lnoise_BB12_167
.Lnoise_BB12_199:
	ud2
.Lnoise_func_end12:
	.size	"noise_names::pattern::Pattern::parse_text", .Lnoise_func_end12-"noise_names::pattern::Pattern::parse_text"
	.cfi_endproc

	.section	".text.noise_names::section::parse_section","ax",@progbits
	.p2align	4
	.type	"noise_names::section::parse_section",@function
"noise_names::section::parse_section":
	.cfi_startproc
	pushq	%r15
	.cfi_def_cfa_offset 16
	pushq	%r14
	.cfi_def_cfa_offset 24
	pushq	%rbx
	.cfi_def_cfa_offset 32
	subq	$224, %rsp
	.cfi_def_cfa_offset 256
	.cfi_offset %rbx, -32
	.cfi_offset %r14, -24
	.cfi_offset %r15, -16
	xorps	%xmm0, %xmm0
	movups	%xmm0, 46(%rsp)
	movaps	%xmm0, 32(%rsp)
	testq	%rdx, %rdx
	je	.Lnoise_BB13_13
	xorl	%ebx, %ebx
	.p2align	4
.Lnoise_BB13_2:
	movzbl	(%rsi,%rbx), %eax
	cmpb	$48, %al
	jb	.Lnoise_BB13_6
	cmpb	$58, %al
	setae	%cl
	addb	$-65, %al
	cmpb	$26, %al
	setae	%al
	testb	%al, %cl
	jne	.Lnoise_BB13_6
	incq	%rbx
	cmpq	%rbx, %rdx
	jne	.Lnoise_BB13_2
	movq	%rdx, %rbx
.Lnoise_BB13_6:
	testq	%rbx, %rbx
	je	.Lnoise_BB13_13
	movzbl	(%rsi), %eax
	addb	$-65, %al
	cmpb	$25, %al
	ja	.Lnoise_BB13_13
	leaq	(%rsi,%rbx), %rcx
	subq	%rbx, %rdx
	movl	$1, %eax
	.p2align	4
.Lnoise_BB13_9:
	cmpq	%rax, %rbx
	je	.Lnoise_BB13_12
	movzbl	(%rsi,%rax), %r8d
	cmpb	$48, %r8b
	jb	.Lnoise_BB13_13
	cmpb	$58, %r8b
	setb	%r9b
	addb	$-65, %r8b
	cmpb	$26, %r8b
	setb	%r8b
	orb	%r9b, %r8b
	incq	%rax
	testb	%r8b, %r8b
	jne	.Lnoise_BB13_9
	jmp	.Lnoise_BB13_13
.Lnoise_BB13_12:
	cmpq	$9, %rbx
	jae	.Lnoise_BB13_13
	testq	%rdx, %rdx
	je	.Lnoise_BB13_17
	xorps	%xmm0, %xmm0
	movaps	%xmm0, 64(%rsp)
	movq	$0, 80(%rsp)
	xorl	%eax, %eax
	jmp	.Lnoise_BB13_19
.Lnoise_BB13_13:
	movw	$513, (%rdi)
.Lnoise_BB13_14:
	movups	%xmm0, 8(%rdi)
	movups	%xmm0, 24(%rdi)
	movq	$0, 40(%rdi)
.Lnoise_BB13_15:
	addq	$224, %rsp
	.cfi_def_cfa_offset 32
	popq	%rbx
	.cfi_def_cfa_offset 24
	popq	%r14
	.cfi_def_cfa_offset 16
	popq	%r15
	.cfi_def_cfa_offset 8
	retq
.Lnoise_BB13_26:
	.cfi_def_cfa_offset 256
	addb	$-48, %r8b
	movb	%r8b, 64(%rsp,%rax)
	incq	%rax
	movq	%rax, 80(%rsp)
	cmpq	$4, %rdx
	je	.Lnoise_BB13_31
.Lnoise_BB13_27:
	addq	$-5, %rdx
	cmpb	$43, 4(%rcx)
	leaq	5(%rcx), %rcx
	jne	.Lnoise_BB13_28
.Lnoise_BB13_19:
	cmpq	$3, %rdx
	jb	.Lnoise_BB13_28
	je	.Lnoise_BB13_28
	cmpb	$112, (%rcx)
	jne	.Lnoise_BB13_28
	cmpb	$115, 1(%rcx)
	jne	.Lnoise_BB13_28
	cmpb	$107, 2(%rcx)
	jne	.Lnoise_BB13_28
	movzbl	3(%rcx), %r8d
	leal	-57(%r8), %r9d
	cmpb	$-9, %r9b
	jb	.Lnoise_BB13_28
	cmpq	$10, %rax
	jne	.Lnoise_BB13_26
	movl	$10, %eax
	cmpq	$4, %rdx
	jne	.Lnoise_BB13_27
	xorps	%xmm0, %xmm0
	movaps	%xmm0, (%rsp)
	jmp	.Lnoise_BB13_32
.Lnoise_BB13_28:
	movb	$3, %al
.Lnoise_BB13_39:
	movb	$1, (%rdi)
	movb	%al, 1(%rdi)
	xorps	%xmm0, %xmm0
	jmp	.Lnoise_BB13_14
.Lnoise_BB13_17:
	movq	%rsi, %r14
	movq	%rdi, %r15
	xorps	%xmm0, %xmm0
	movups	%xmm0, 38(%rsp)
	movq	$0, 54(%rsp)
.Lnoise_BB13_37:
	movl	$16, %edx
	subq	%rbx, %rdx
	leaq	(%rsp,%rbx), %rdi
	xorl	%esi, %esi
	callq	memset@PLT
	movq	%rsp, %rdi
	movq	%r14, %rsi
	movq	%rbx, %rdx
	callq	memcpy@PLT
	movq	%rbx, 8(%rsp)
	movq	(%rsp), %rax
	movq	8(%rsp), %rcx
	movq	54(%rsp), %rdx
	movups	38(%rsp), %xmm0
	movaps	%xmm0, 112(%rsp)
	movq	%rdx, 128(%rsp)
	movq	%rax, 96(%rsp)
	movq	%rcx, 104(%rsp)
	movw	$0, (%r15)
	movq	96(%rsp), %rax
	movq	104(%rsp), %rcx
	movaps	112(%rsp), %xmm0
	movq	%rax, 8(%r15)
	movq	%rcx, 16(%r15)
	movups	%xmm0, 24(%r15)
	movq	128(%rsp), %rax
	movq	%rax, 40(%r15)
	jmp	.Lnoise_BB13_15
.Lnoise_BB13_31:
	xorps	%xmm0, %xmm0
	movaps	%xmm0, (%rsp)
	movq	$0, 16(%rsp)
	testq	%rax, %rax
	je	.Lnoise_BB13_36
.Lnoise_BB13_32:
	negq	%rax
	movl	$1, %ecx
	xorl	%r8d, %r8d
.Lnoise_BB13_33:
	movzbl	63(%rsp,%rcx), %edx
	cmpb	%r8b, %dl
	jb	.Lnoise_BB13_38
	cmpb	$8, %dl
	ja	.Lnoise_BB13_38
	movb	%dl, -1(%rsp,%rcx)
	movq	%rcx, 16(%rsp)
	incb	%dl
	leaq	(%rax,%rcx), %r9
	incq	%r9
	incq	%rcx
	movl	%edx, %r8d
	cmpq	$1, %r9
	jne	.Lnoise_BB13_33
.Lnoise_BB13_36:
	movq	%rsi, %r14
	movq	%rdi, %r15
	movq	16(%rsp), %rax
	movq	%rax, 160(%rsp)
	movaps	(%rsp), %xmm0
	movups	%xmm0, 38(%rsp)
	movq	%rax, 54(%rsp)
	jmp	.Lnoise_BB13_37
.Lnoise_BB13_38:
	movb	$4, %al
	jmp	.Lnoise_BB13_39
.Lnoise_func_end13:
	.size	"noise_names::section::parse_section", .Lnoise_func_end13-"noise_names::section::parse_section"
	.cfi_endproc

	.section	".text.noise_names::table::place_of","ax",@progbits
	.p2align	4
	.type	"noise_names::table::place_of",@function
"noise_names::table::place_of":
	.cfi_startproc
	testq	%rsi, %rsi
	je	.Lnoise_BB14_35
	cmpq	$1, %rsi
	jne	.Lnoise_BB14_8
	movzbl	(%rdi), %ecx
	movb	$1, %al
	cmpl	$88, %ecx
	je	.Lnoise_BB14_7
	cmpl	$78, %ecx
	je	.Lnoise_BB14_4
	cmpl	$75, %ecx
	jne	.Lnoise_BB14_35
	movb	$1, %dl
	movb	$1, %al
	retq
.Lnoise_BB14_8:
	cmpq	$2, %rsi
	ja	.Lnoise_BB14_35
	movzbl	(%rdi), %eax
	addl	$-73, %eax
	cmpl	$15, %eax
	ja	.Lnoise_BB14_35
	leaq	.Lnoise_JTI14_0(%rip), %rcx
	movslq	(%rcx,%rax,4), %rax
	addq	%rcx, %rax
	notrack jmpq	*%rax
.Lnoise_BB14_29:
	movzbl	1(%rdi), %ecx
	movb	$1, %al
	cmpl	$88, %ecx
	je	.Lnoise_BB14_34
	cmpl	$78, %ecx
	je	.Lnoise_BB14_31
	cmpl	$75, %ecx
	jne	.Lnoise_BB14_35
	movb	$13, %dl
	retq
.Lnoise_BB14_4:
	xorl	%edx, %edx
	retq
.Lnoise_BB14_7:
	movb	$2, %dl
	retq
.Lnoise_BB14_11:
	movzbl	1(%rdi), %ecx
	movb	$1, %al
	cmpl	$88, %ecx
	je	.Lnoise_BB14_16
	cmpl	$78, %ecx
	je	.Lnoise_BB14_13
	cmpl	$75, %ecx
	jne	.Lnoise_BB14_35
	movb	$4, %dl
	retq
.Lnoise_BB14_17:
	movzbl	1(%rdi), %ecx
	movb	$1, %al
	cmpl	$88, %ecx
	je	.Lnoise_BB14_22
	cmpl	$78, %ecx
	je	.Lnoise_BB14_19
	cmpl	$75, %ecx
	jne	.Lnoise_BB14_35
	movb	$7, %dl
	retq
.Lnoise_BB14_23:
	movzbl	1(%rdi), %ecx
	movb	$1, %al
	cmpl	$88, %ecx
	je	.Lnoise_BB14_28
	cmpl	$78, %ecx
	je	.Lnoise_BB14_25
	cmpl	$75, %ecx
	jne	.Lnoise_BB14_35
	movb	$10, %dl
	retq
.Lnoise_BB14_35:
	xorl	%edx, %edx
	xorl	%eax, %eax
	retq
.Lnoise_BB14_13:
	movb	$3, %dl
	retq
.Lnoise_BB14_16:
	movb	$5, %dl
	retq
.Lnoise_BB14_31:
	movb	$12, %dl
	retq
.Lnoise_BB14_19:
	movb	$6, %dl
	retq
.Lnoise_BB14_34:
	movb	$14, %dl
	retq
.Lnoise_BB14_22:
	movb	$8, %dl
	retq
.Lnoise_BB14_25:
	movb	$9, %dl
	retq
.Lnoise_BB14_28:
	movb	$11, %dl
	retq
.Lnoise_func_end14:
	.size	"noise_names::table::place_of", .Lnoise_func_end14-"noise_names::table::place_of"
	.cfi_endproc
	.section	".rodata.noise_names::table::place_of","a",@progbits
	.p2align	2, 0x0
.Lnoise_JTI14_0:
	.long	.Lnoise_BB14_29-.Lnoise_JTI14_0
	.long	.Lnoise_BB14_35-.Lnoise_JTI14_0
	.long	.Lnoise_BB14_17-.Lnoise_JTI14_0
	.long	.Lnoise_BB14_35-.Lnoise_JTI14_0
	.long	.Lnoise_BB14_35-.Lnoise_JTI14_0
	.long	.Lnoise_BB14_11-.Lnoise_JTI14_0
	.long	.Lnoise_BB14_35-.Lnoise_JTI14_0
	.long	.Lnoise_BB14_35-.Lnoise_JTI14_0
	.long	.Lnoise_BB14_35-.Lnoise_JTI14_0
	.long	.Lnoise_BB14_35-.Lnoise_JTI14_0
	.long	.Lnoise_BB14_35-.Lnoise_JTI14_0
	.long	.Lnoise_BB14_35-.Lnoise_JTI14_0
	.long	.Lnoise_BB14_35-.Lnoise_JTI14_0
	.long	.Lnoise_BB14_35-.Lnoise_JTI14_0
	.long	.Lnoise_BB14_35-.Lnoise_JTI14_0
	.long	.Lnoise_BB14_23-.Lnoise_JTI14_0

	.section	.rodata.cst16,"aM",@progbits,16
	.p2align	4, 0x0
.Lnoise_CPI15_0:
	.byte	0
	.byte	0
	.byte	0
	.byte	0
	.byte	0
	.byte	0
	.byte	0
	.byte	0
	.byte	1
	.byte	0
	.byte	0
	.byte	0
	.byte	0
	.byte	0
	.byte	0
	.byte	0
.Lnoise_CPI15_1:
	.quad	19273
	.quad	2
.Lnoise_CPI15_2:
	.quad	20041
	.quad	2
.Lnoise_CPI15_3:
	.quad	22616
	.quad	2
.Lnoise_CPI15_4:
	.quad	19288
	.quad	2
.Lnoise_CPI15_5:
	.quad	20056
	.quad	2
.Lnoise_CPI15_6:
	.quad	1
	.quad	0
.Lnoise_CPI15_7:
	.quad	22603
	.quad	2
.Lnoise_CPI15_8:
	.quad	1
	.quad	1
.Lnoise_CPI15_9:
	.quad	19275
	.quad	2
.Lnoise_CPI15_10:
	.quad	20043
	.quad	2
.Lnoise_CPI15_11:
	.quad	22606
	.quad	2
.Lnoise_CPI15_12:
	.quad	19278
	.quad	2
.Lnoise_CPI15_13:
	.quad	20046
	.quad	2
.Lnoise_CPI15_14:
	.quad	88
	.quad	1
.Lnoise_CPI15_15:
	.quad	75
	.quad	1
.Lnoise_CPI15_16:
	.quad	78
	.quad	1
.Lnoise_CPI15_17:
	.quad	22601
	.quad	2
	.section	.rodata.cst4,"aM",@progbits,4
	.p2align	2, 0x0
.Lnoise_CPI15_18:
	.long	1
	.section	".text.noise_names::table::row","ax",@progbits
	.p2align	4
	.type	"noise_names::table::row",@function
"noise_names::table::row":
	.cfi_startproc
	pushq	%r15
	.cfi_def_cfa_offset 16
	pushq	%r14
	.cfi_def_cfa_offset 24
	pushq	%r12
	.cfi_def_cfa_offset 32
	pushq	%rbx
	.cfi_def_cfa_offset 40
	subq	$2840, %rsp
	.cfi_def_cfa_offset 2880
	.cfi_offset %rbx, -40
	.cfi_offset %r12, -32
	.cfi_offset %r14, -24
	.cfi_offset %r15, -16
	xorps	%xmm0, %xmm0
	movaps	%xmm0, -48(%rsp)
	movq	$0, -32(%rsp)
	movq	$0, -80(%rsp)
	movl	$0, -72(%rsp)
	movq	$0, -96(%rsp)
	movl	$0, -88(%rsp)
	movq	$0, -112(%rsp)
	movl	$0, -104(%rsp)
	movaps	%xmm0, -16(%rsp)
	movaps	%xmm0, (%rsp)
	movaps	%xmm0, 16(%rsp)
	movaps	%xmm0, 32(%rsp)
	movaps	%xmm0, 48(%rsp)
	movaps	%xmm0, 64(%rsp)
	movaps	%xmm0, 80(%rsp)
	movq	$0, 96(%rsp)
	cmpb	$13, %sil
	ja	.Lnoise_BB15_19
	movzbl	%sil, %eax
	leaq	.Lnoise_JTI15_0(%rip), %rcx
	movslq	(%rcx,%rax,4), %rax
	addq	%rcx, %rax
	notrack jmpq	*%rax
.Lnoise_BB15_2:
	movl	$0, 840(%rsp)
	movq	$0, 832(%rsp)
	movq	$0, 208(%rsp)
	movl	$0, 216(%rsp)
	movq	$0, 192(%rsp)
	movl	$0, 200(%rsp)
	movaps	%xmm0, 928(%rsp)
	movaps	%xmm0, 944(%rsp)
	movaps	%xmm0, 960(%rsp)
	movaps	%xmm0, 976(%rsp)
	movaps	%xmm0, 992(%rsp)
	movaps	%xmm0, 1008(%rsp)
	movaps	%xmm0, 1024(%rsp)
	movq	$0, 1040(%rsp)
	movq	$0, 224(%rsp)
	movl	$0, 232(%rsp)
	movaps	%xmm0, -48(%rsp)
	movq	$0, -32(%rsp)
	movl	232(%rsp), %eax
	movl	%eax, -72(%rsp)
	movq	224(%rsp), %rax
	movq	%rax, -80(%rsp)
	movl	216(%rsp), %eax
	movl	%eax, -88(%rsp)
	movq	208(%rsp), %rax
	movq	%rax, -96(%rsp)
	movl	200(%rsp), %eax
	movl	%eax, -104(%rsp)
	movq	192(%rsp), %rax
	movq	%rax, -112(%rsp)
	movq	1040(%rsp), %rax
	movq	%rax, 96(%rsp)
	movaps	1024(%rsp), %xmm0
	movaps	%xmm0, 80(%rsp)
	movaps	1008(%rsp), %xmm0
	movaps	%xmm0, 64(%rsp)
	movaps	992(%rsp), %xmm0
	movaps	%xmm0, 48(%rsp)
	movaps	928(%rsp), %xmm0
	movaps	944(%rsp), %xmm1
	movaps	960(%rsp), %xmm2
	movaps	976(%rsp), %xmm3
	movaps	%xmm3, 32(%rsp)
	movaps	%xmm2, 16(%rsp)
	movaps	%xmm1, (%rsp)
	movaps	%xmm0, -16(%rsp)
	movaps	.Lnoise_CPI15_0(%rip), %xmm0
	movaps	.Lnoise_CPI15_16(%rip), %xmm1
	movl	$1, %eax
	movl	$2, %ecx
	movw	$768, %r10w
	xorl	%edx, %edx
	xorl	%r9d, %r9d
	xorl	%r11d, %r11d
	xorl	%esi, %esi
	xorl	%r8d, %r8d
	xorl	%ebx, %ebx
	jmp	.Lnoise_BB15_3
.Lnoise_BB15_16:
	movq	$0, 672(%rsp)
	movl	$0, 680(%rsp)
	movq	$0, 152(%rsp)
	movl	$0, 160(%rsp)
	movq	$0, 136(%rsp)
	movl	$0, 144(%rsp)
	movaps	%xmm0, 2336(%rsp)
	movaps	%xmm0, 2352(%rsp)
	movaps	%xmm0, 2368(%rsp)
	movaps	%xmm0, 2384(%rsp)
	movaps	%xmm0, 2400(%rsp)
	movaps	%xmm0, 2416(%rsp)
	movaps	%xmm0, 2432(%rsp)
	movq	$0, 2448(%rsp)
	movl	$0, -56(%rsp)
	movq	$0, -64(%rsp)
	movl	$0, -120(%rsp)
	movq	$0, -128(%rsp)
	movl	-120(%rsp), %eax
	movl	%eax, 160(%rsp)
	movq	-128(%rsp), %rax
	movq	%rax, 152(%rsp)
	movl	$0, -56(%rsp)
	movq	$0, -64(%rsp)
	movl	$0, -120(%rsp)
	movq	$0, -128(%rsp)
	movl	-120(%rsp), %eax
	movl	%eax, 144(%rsp)
	movq	-128(%rsp), %rax
	movq	%rax, 136(%rsp)
	movaps	%xmm0, -48(%rsp)
	movq	$0, -32(%rsp)
	movl	680(%rsp), %eax
	movl	%eax, -72(%rsp)
	movq	672(%rsp), %rax
	movq	%rax, -80(%rsp)
	movl	160(%rsp), %eax
	movl	%eax, -88(%rsp)
	movq	152(%rsp), %rax
	movq	%rax, -96(%rsp)
	movl	144(%rsp), %eax
	movl	%eax, -104(%rsp)
	movq	136(%rsp), %rax
	movq	%rax, -112(%rsp)
	movq	2448(%rsp), %rax
	movq	%rax, 96(%rsp)
	movaps	2432(%rsp), %xmm1
	movaps	%xmm1, 80(%rsp)
	movaps	2416(%rsp), %xmm1
	movaps	%xmm1, 64(%rsp)
	movaps	2400(%rsp), %xmm1
	movaps	%xmm1, 48(%rsp)
	movaps	2336(%rsp), %xmm1
	movaps	2352(%rsp), %xmm2
	movaps	2368(%rsp), %xmm3
	movaps	2384(%rsp), %xmm4
	movaps	%xmm4, 32(%rsp)
	movaps	%xmm3, 16(%rsp)
	movaps	%xmm2, (%rsp)
	movaps	%xmm1, -16(%rsp)
	movaps	.Lnoise_CPI15_3(%rip), %xmm1
	movl	$3, %eax
	movl	$1, %ecx
	movl	$4, %r8d
	movw	$512, %si
	movw	$1025, %r11w
	movl	$2, %r9d
	movw	$769, %dx
	jmp	.Lnoise_BB15_9
.Lnoise_BB15_7:
	movq	$0, -128(%rsp)
	movl	$0, -120(%rsp)
	movq	$0, 384(%rsp)
	movl	$0, 392(%rsp)
	movaps	%xmm0, 1440(%rsp)
	movaps	%xmm0, 1456(%rsp)
	movaps	%xmm0, 1472(%rsp)
	movaps	%xmm0, 1488(%rsp)
	movaps	%xmm0, 1504(%rsp)
	movaps	%xmm0, 1520(%rsp)
	movaps	%xmm0, 1536(%rsp)
	movq	$0, 1552(%rsp)
	movl	$0, 424(%rsp)
	movq	$0, 416(%rsp)
	movl	$0, -56(%rsp)
	movq	$0, -64(%rsp)
	movl	$0, -120(%rsp)
	movq	$0, -128(%rsp)
	movl	-120(%rsp), %eax
	movl	%eax, 408(%rsp)
	movq	-128(%rsp), %rax
	movq	%rax, 400(%rsp)
	movaps	%xmm0, -48(%rsp)
	movq	$0, -32(%rsp)
	movl	424(%rsp), %eax
	movl	%eax, -72(%rsp)
	movq	416(%rsp), %rax
	movq	%rax, -80(%rsp)
	movl	408(%rsp), %eax
	movl	%eax, -88(%rsp)
	movq	400(%rsp), %rax
	movq	%rax, -96(%rsp)
	movl	392(%rsp), %eax
	movl	%eax, -104(%rsp)
	movq	384(%rsp), %rax
	movq	%rax, -112(%rsp)
	movq	1552(%rsp), %rax
	movq	%rax, 96(%rsp)
	movaps	1536(%rsp), %xmm0
	movaps	%xmm0, 80(%rsp)
	movaps	1520(%rsp), %xmm0
	movaps	%xmm0, 64(%rsp)
	movaps	1504(%rsp), %xmm0
	movaps	%xmm0, 48(%rsp)
	movaps	1440(%rsp), %xmm0
	movaps	1456(%rsp), %xmm1
	movaps	1472(%rsp), %xmm2
	movaps	1488(%rsp), %xmm3
	movaps	%xmm3, 32(%rsp)
	movaps	%xmm2, 16(%rsp)
	movaps	%xmm1, (%rsp)
	movaps	%xmm0, -16(%rsp)
	movaps	.Lnoise_CPI15_0(%rip), %xmm0
	movaps	.Lnoise_CPI15_12(%rip), %xmm1
	movl	$1, %r14d
	movw	$768, %r10w
	movl	$2, %r8d
	movw	$512, %si
	xorl	%edx, %edx
	xorl	%r9d, %r9d
	xorl	%r11d, %r11d
	xorl	%ebx, %ebx
	movl	$2, %ecx
	movl	$2, %eax
	xorl	%r15d, %r15d
	jmp	.Lnoise_BB15_24
.Lnoise_BB15_17:
	movq	$0, -128(%rsp)
	movl	$0, -120(%rsp)
	movq	$0, 688(%rsp)
	movl	$0, 696(%rsp)
	movaps	%xmm0, 2464(%rsp)
	movaps	%xmm0, 2480(%rsp)
	movaps	%xmm0, 2496(%rsp)
	movaps	%xmm0, 2512(%rsp)
	movaps	%xmm0, 2528(%rsp)
	movaps	%xmm0, 2544(%rsp)
	movaps	%xmm0, 2560(%rsp)
	movq	$0, 2576(%rsp)
	movl	$0, 728(%rsp)
	movq	$0, 720(%rsp)
	movl	$0, -56(%rsp)
	movq	$0, -64(%rsp)
	movl	$0, -120(%rsp)
	movq	$0, -128(%rsp)
	movl	-120(%rsp), %eax
	movl	%eax, 712(%rsp)
	movq	-128(%rsp), %rax
	movq	%rax, 704(%rsp)
	movaps	%xmm0, -48(%rsp)
	movq	$0, -32(%rsp)
	movl	728(%rsp), %eax
	movl	%eax, -72(%rsp)
	movq	720(%rsp), %rax
	movq	%rax, -80(%rsp)
	movl	712(%rsp), %eax
	movl	%eax, -88(%rsp)
	movq	704(%rsp), %rax
	movq	%rax, -96(%rsp)
	movl	696(%rsp), %eax
	movl	%eax, -104(%rsp)
	movq	688(%rsp), %rax
	movq	%rax, -112(%rsp)
	movq	2576(%rsp), %rax
	movq	%rax, 96(%rsp)
	movaps	2560(%rsp), %xmm1
	movaps	%xmm1, 80(%rsp)
	movaps	2544(%rsp), %xmm1
	movaps	%xmm1, 64(%rsp)
	movaps	2528(%rsp), %xmm1
	movaps	%xmm1, 48(%rsp)
	movaps	2464(%rsp), %xmm1
	movaps	2480(%rsp), %xmm2
	movaps	2496(%rsp), %xmm3
	movaps	2512(%rsp), %xmm4
	movaps	%xmm4, 32(%rsp)
	movaps	%xmm3, 16(%rsp)
	movaps	%xmm2, (%rsp)
	movaps	%xmm1, -16(%rsp)
	movaps	.Lnoise_CPI15_2(%rip), %xmm1
	movl	$2, %ecx
	movw	$256, %r10w
	movl	$3, %r8d
	movw	$512, %si
	movw	$4, %dx
	jmp	.Lnoise_BB15_20
.Lnoise_BB15_14:
	movq	$0, 608(%rsp)
	movl	$0, 616(%rsp)
	movq	$0, 120(%rsp)
	movl	$0, 128(%rsp)
	movq	$0, 104(%rsp)
	movl	$0, 112(%rsp)
	movaps	%xmm0, 2080(%rsp)
	movaps	%xmm0, 2096(%rsp)
	movaps	%xmm0, 2112(%rsp)
	movaps	%xmm0, 2128(%rsp)
	movaps	%xmm0, 2144(%rsp)
	movaps	%xmm0, 2160(%rsp)
	movaps	%xmm0, 2176(%rsp)
	movq	$0, 2192(%rsp)
	movl	$0, -56(%rsp)
	movq	$0, -64(%rsp)
	movl	$0, -120(%rsp)
	movq	$0, -128(%rsp)
	movl	-120(%rsp), %eax
	movl	%eax, 128(%rsp)
	movq	-128(%rsp), %rax
	movq	%rax, 120(%rsp)
	movl	$0, -56(%rsp)
	movq	$0, -64(%rsp)
	movl	$0, -120(%rsp)
	movq	$0, -128(%rsp)
	movl	-120(%rsp), %eax
	movl	%eax, 112(%rsp)
	movq	-128(%rsp), %rax
	movq	%rax, 104(%rsp)
	movaps	%xmm0, -48(%rsp)
	movq	$0, -32(%rsp)
	movl	616(%rsp), %eax
	movl	%eax, -72(%rsp)
	movq	608(%rsp), %rax
	movq	%rax, -80(%rsp)
	movl	128(%rsp), %eax
	movl	%eax, -88(%rsp)
	movq	120(%rsp), %rax
	movq	%rax, -96(%rsp)
	movl	112(%rsp), %eax
	movl	%eax, -104(%rsp)
	movq	104(%rsp), %rax
	movq	%rax, -112(%rsp)
	movq	2192(%rsp), %rax
	movq	%rax, 96(%rsp)
	movaps	2176(%rsp), %xmm1
	movaps	%xmm1, 80(%rsp)
	movaps	2160(%rsp), %xmm1
	movaps	%xmm1, 64(%rsp)
	movaps	2144(%rsp), %xmm1
	movaps	%xmm1, 48(%rsp)
	movaps	2080(%rsp), %xmm1
	movaps	2096(%rsp), %xmm2
	movaps	2112(%rsp), %xmm3
	movaps	2128(%rsp), %xmm4
	movaps	%xmm4, 32(%rsp)
	movaps	%xmm3, 16(%rsp)
	movaps	%xmm2, (%rsp)
	movaps	%xmm1, -16(%rsp)
	movaps	.Lnoise_CPI15_5(%rip), %xmm1
	movl	$3, %eax
	movl	$1, %ecx
	movw	$512, %si
	movw	$1025, %r11w
	movl	$2, %r9d
	xorl	%edx, %edx
	movl	$2, %r8d
	jmp	.Lnoise_BB15_9
.Lnoise_BB15_5:
	movl	$0, 872(%rsp)
	movq	$0, 864(%rsp)
	movq	$0, 304(%rsp)
	movl	$0, 312(%rsp)
	movq	$0, 288(%rsp)
	movl	$0, 296(%rsp)
	movaps	%xmm0, 1184(%rsp)
	movaps	%xmm0, 1200(%rsp)
	movaps	%xmm0, 1216(%rsp)
	movaps	%xmm0, 1232(%rsp)
	movaps	%xmm0, 1248(%rsp)
	movaps	%xmm0, 1264(%rsp)
	movaps	%xmm0, 1280(%rsp)
	movq	$0, 1296(%rsp)
	movq	$0, 320(%rsp)
	movl	$0, 328(%rsp)
	movaps	%xmm0, -48(%rsp)
	movq	$0, -32(%rsp)
	movl	328(%rsp), %eax
	movl	%eax, -72(%rsp)
	movq	320(%rsp), %rax
	movq	%rax, -80(%rsp)
	movl	312(%rsp), %eax
	movl	%eax, -88(%rsp)
	movq	304(%rsp), %rax
	movq	%rax, -96(%rsp)
	movl	296(%rsp), %eax
	movl	%eax, -104(%rsp)
	movq	288(%rsp), %rax
	movq	%rax, -112(%rsp)
	movq	1296(%rsp), %rax
	movq	%rax, 96(%rsp)
	movaps	1280(%rsp), %xmm0
	movaps	%xmm0, 80(%rsp)
	movaps	1264(%rsp), %xmm0
	movaps	%xmm0, 64(%rsp)
	movaps	1248(%rsp), %xmm0
	movaps	%xmm0, 48(%rsp)
	movaps	1184(%rsp), %xmm0
	movaps	1200(%rsp), %xmm1
	movaps	1216(%rsp), %xmm2
	movaps	1232(%rsp), %xmm3
	movaps	%xmm3, 32(%rsp)
	movaps	%xmm2, 16(%rsp)
	movaps	%xmm1, (%rsp)
	movaps	%xmm0, -16(%rsp)
	movaps	.Lnoise_CPI15_0(%rip), %xmm0
	movaps	.Lnoise_CPI15_14(%rip), %xmm1
	movl	$1, %eax
	movl	$4, %ecx
	movw	$768, %r10w
	movw	$1281, %bx
	xorl	%edx, %edx
	xorl	%r9d, %r9d
	xorl	%r11d, %r11d
	xorl	%esi, %esi
	xorl	%r8d, %r8d
.Lnoise_BB15_3:
	xorl	%r15d, %r15d
	movl	$1, %r14d
	jmp	.Lnoise_BB15_24
.Lnoise_BB15_6:
	movl	$0, 376(%rsp)
	movq	$0, 368(%rsp)
	movq	$0, 352(%rsp)
	movl	$0, 360(%rsp)
	movq	$0, 336(%rsp)
	movl	$0, 344(%rsp)
	movaps	%xmm0, 1312(%rsp)
	movaps	%xmm0, 1328(%rsp)
	movaps	%xmm0, 1344(%rsp)
	movaps	%xmm0, 1360(%rsp)
	movaps	%xmm0, 1376(%rsp)
	movaps	%xmm0, 1392(%rsp)
	movaps	%xmm0, 1408(%rsp)
	movq	$0, 1424(%rsp)
	movq	$0, 880(%rsp)
	movl	$0, 888(%rsp)
	movaps	%xmm0, -48(%rsp)
	movq	$0, -32(%rsp)
	movl	376(%rsp), %eax
	movl	%eax, -72(%rsp)
	movq	368(%rsp), %rax
	movq	%rax, -80(%rsp)
	movl	360(%rsp), %eax
	movl	%eax, -88(%rsp)
	movq	352(%rsp), %rax
	movq	%rax, -96(%rsp)
	movl	344(%rsp), %eax
	movl	%eax, -104(%rsp)
	movq	336(%rsp), %rax
	movq	%rax, -112(%rsp)
	movq	1424(%rsp), %rax
	movq	%rax, 96(%rsp)
	movaps	1408(%rsp), %xmm1
	movaps	%xmm1, 80(%rsp)
	movaps	1392(%rsp), %xmm1
	movaps	%xmm1, 64(%rsp)
	movaps	1376(%rsp), %xmm1
	movaps	%xmm1, 48(%rsp)
	movaps	1312(%rsp), %xmm1
	movaps	1328(%rsp), %xmm2
	movaps	1344(%rsp), %xmm3
	movaps	1360(%rsp), %xmm4
	movaps	%xmm4, 32(%rsp)
	movaps	%xmm3, 16(%rsp)
	movaps	%xmm2, (%rsp)
	movaps	%xmm1, -16(%rsp)
	movaps	.Lnoise_CPI15_13(%rip), %xmm1
	movl	$1, %ecx
	movl	$2, %r8d
	movw	$512, %si
	xorl	%edx, %edx
	xorl	%r9d, %r9d
	xorl	%r11d, %r11d
	xorl	%ebx, %ebx
	xorl	%r10d, %r10d
	jmp	.Lnoise_BB15_21
.Lnoise_BB15_12:
	movq	$0, -128(%rsp)
	movl	$0, -120(%rsp)
	movq	$0, 528(%rsp)
	movl	$0, 536(%rsp)
	movaps	%xmm0, 1824(%rsp)
	movaps	%xmm0, 1840(%rsp)
	movaps	%xmm0, 1856(%rsp)
	movaps	%xmm0, 1872(%rsp)
	movaps	%xmm0, 1888(%rsp)
	movaps	%xmm0, 1904(%rsp)
	movaps	%xmm0, 1920(%rsp)
	movq	$0, 1936(%rsp)
	movl	$0, 568(%rsp)
	movq	$0, 560(%rsp)
	movl	$0, -56(%rsp)
	movq	$0, -64(%rsp)
	movl	$0, -120(%rsp)
	movq	$0, -128(%rsp)
	movl	-120(%rsp), %eax
	movl	%eax, 552(%rsp)
	movq	-128(%rsp), %rax
	movq	%rax, 544(%rsp)
	movaps	%xmm0, -48(%rsp)
	movq	$0, -32(%rsp)
	movl	568(%rsp), %eax
	movl	%eax, -72(%rsp)
	movq	560(%rsp), %rax
	movq	%rax, -80(%rsp)
	movl	552(%rsp), %eax
	movl	%eax, -88(%rsp)
	movq	544(%rsp), %rax
	movq	%rax, -96(%rsp)
	movl	536(%rsp), %eax
	movl	%eax, -104(%rsp)
	movq	528(%rsp), %rax
	movq	%rax, -112(%rsp)
	movq	1936(%rsp), %rax
	movq	%rax, 96(%rsp)
	movaps	1920(%rsp), %xmm0
	movaps	%xmm0, 80(%rsp)
	movaps	1904(%rsp), %xmm0
	movaps	%xmm0, 64(%rsp)
	movaps	1888(%rsp), %xmm0
	movaps	%xmm0, 48(%rsp)
	movaps	1824(%rsp), %xmm0
	movaps	1840(%rsp), %xmm1
	movaps	1856(%rsp), %xmm2
	movaps	1872(%rsp), %xmm3
	movaps	%xmm3, 32(%rsp)
	movaps	%xmm2, 16(%rsp)
	movaps	%xmm1, (%rsp)
	movaps	%xmm0, -16(%rsp)
	movaps	.Lnoise_CPI15_8(%rip), %xmm0
	movaps	.Lnoise_CPI15_9(%rip), %xmm1
	movl	$1, %r15d
	movl	$2, %eax
	movw	$768, %r10w
	movw	$5, %bx
	movl	$3, %r8d
	movw	$512, %si
	movw	$4, %dx
	xorl	%r9d, %r9d
	xorl	%r11d, %r11d
	movl	$3, %ecx
	movl	$1, %r14d
	jmp	.Lnoise_BB15_24
.Lnoise_BB15_4:
	movl	$0, 856(%rsp)
	movq	$0, 848(%rsp)
	movq	$0, 256(%rsp)
	movl	$0, 264(%rsp)
	movq	$0, 240(%rsp)
	movl	$0, 248(%rsp)
	movaps	%xmm0, 1056(%rsp)
	movaps	%xmm0, 1072(%rsp)
	movaps	%xmm0, 1088(%rsp)
	movaps	%xmm0, 1104(%rsp)
	movaps	%xmm0, 1120(%rsp)
	movaps	%xmm0, 1136(%rsp)
	movaps	%xmm0, 1152(%rsp)
	movq	$0, 1168(%rsp)
	movq	$0, 272(%rsp)
	movl	$0, 280(%rsp)
	movaps	%xmm0, -48(%rsp)
	movq	$0, -32(%rsp)
	movl	280(%rsp), %eax
	movl	%eax, -72(%rsp)
	movq	272(%rsp), %rax
	movq	%rax, -80(%rsp)
	movl	264(%rsp), %eax
	movl	%eax, -88(%rsp)
	movq	256(%rsp), %rax
	movq	%rax, -96(%rsp)
	movl	248(%rsp), %eax
	movl	%eax, -104(%rsp)
	movq	240(%rsp), %rax
	movq	%rax, -112(%rsp)
	movq	1168(%rsp), %rax
	movq	%rax, 96(%rsp)
	movaps	1152(%rsp), %xmm0
	movaps	%xmm0, 80(%rsp)
	movaps	1136(%rsp), %xmm0
	movaps	%xmm0, 64(%rsp)
	movaps	1120(%rsp), %xmm0
	movaps	%xmm0, 48(%rsp)
	movaps	1056(%rsp), %xmm0
	movaps	1072(%rsp), %xmm1
	movaps	1088(%rsp), %xmm2
	movaps	1104(%rsp), %xmm3
	movaps	%xmm3, 32(%rsp)
	movaps	%xmm2, 16(%rsp)
	movaps	%xmm1, (%rsp)
	movaps	%xmm0, -16(%rsp)
	movaps	.Lnoise_CPI15_8(%rip), %xmm0
	movaps	.Lnoise_CPI15_15(%rip), %xmm1
	movl	$1, %eax
	movl	$3, %ecx
	movw	$768, %r10w
	movw	$5, %bx
	xorl	%edx, %edx
	xorl	%r9d, %r9d
	xorl	%r11d, %r11d
	xorl	%esi, %esi
	xorl	%r8d, %r8d
	movl	$1, %r15d
	movl	$1, %r14d
	jmp	.Lnoise_BB15_24
.Lnoise_BB15_8:
	movl	$0, 472(%rsp)
	movq	$0, 464(%rsp)
	movq	$0, 448(%rsp)
	movl	$0, 456(%rsp)
	movq	$0, 432(%rsp)
	movl	$0, 440(%rsp)
	movaps	%xmm0, 1568(%rsp)
	movaps	%xmm0, 1584(%rsp)
	movaps	%xmm0, 1600(%rsp)
	movaps	%xmm0, 1616(%rsp)
	movaps	%xmm0, 1632(%rsp)
	movaps	%xmm0, 1648(%rsp)
	movaps	%xmm0, 1664(%rsp)
	movq	$0, 1680(%rsp)
	movq	$0, 896(%rsp)
	movl	$0, 904(%rsp)
	movaps	%xmm0, -48(%rsp)
	movq	$0, -32(%rsp)
	movl	472(%rsp), %eax
	movl	%eax, -72(%rsp)
	movq	464(%rsp), %rax
	movq	%rax, -80(%rsp)
	movl	456(%rsp), %eax
	movl	%eax, -88(%rsp)
	movq	448(%rsp), %rax
	movq	%rax, -96(%rsp)
	movl	440(%rsp), %eax
	movl	%eax, -104(%rsp)
	movq	432(%rsp), %rax
	movq	%rax, -112(%rsp)
	movq	1680(%rsp), %rax
	movq	%rax, 96(%rsp)
	movaps	1664(%rsp), %xmm1
	movaps	%xmm1, 80(%rsp)
	movaps	1648(%rsp), %xmm1
	movaps	%xmm1, 64(%rsp)
	movaps	1632(%rsp), %xmm1
	movaps	%xmm1, 48(%rsp)
	movaps	1568(%rsp), %xmm1
	movaps	1584(%rsp), %xmm2
	movaps	1600(%rsp), %xmm3
	movaps	1616(%rsp), %xmm4
	movaps	%xmm4, 32(%rsp)
	movaps	%xmm3, 16(%rsp)
	movaps	%xmm2, (%rsp)
	movaps	%xmm1, -16(%rsp)
	movaps	.Lnoise_CPI15_11(%rip), %xmm1
	movl	$2, %eax
	movl	$1, %ecx
	movl	$4, %r8d
	movw	$512, %si
	movw	$769, %dx
	xorl	%r9d, %r9d
	xorl	%r11d, %r11d
.Lnoise_BB15_9:
	xorl	%ebx, %ebx
	xorl	%r10d, %r10d
	jmp	.Lnoise_BB15_22
.Lnoise_BB15_18:
	movq	$0, -128(%rsp)
	movl	$0, -120(%rsp)
	movq	$0, 736(%rsp)
	movl	$0, 744(%rsp)
	movaps	%xmm0, 2592(%rsp)
	movaps	%xmm0, 2608(%rsp)
	movaps	%xmm0, 2624(%rsp)
	movaps	%xmm0, 2640(%rsp)
	movaps	%xmm0, 2656(%rsp)
	movaps	%xmm0, 2672(%rsp)
	movaps	%xmm0, 2688(%rsp)
	movq	$0, 2704(%rsp)
	movl	$0, 776(%rsp)
	movq	$0, 768(%rsp)
	movl	$0, -56(%rsp)
	movq	$0, -64(%rsp)
	movl	$0, -120(%rsp)
	movq	$0, -128(%rsp)
	movl	-120(%rsp), %eax
	movl	%eax, 760(%rsp)
	movq	-128(%rsp), %rax
	movq	%rax, 752(%rsp)
	movaps	%xmm0, -48(%rsp)
	movq	$0, -32(%rsp)
	movl	776(%rsp), %eax
	movl	%eax, -72(%rsp)
	movq	768(%rsp), %rax
	movq	%rax, -80(%rsp)
	movl	760(%rsp), %eax
	movl	%eax, -88(%rsp)
	movq	752(%rsp), %rax
	movq	%rax, -96(%rsp)
	movl	744(%rsp), %eax
	movl	%eax, -104(%rsp)
	movq	736(%rsp), %rax
	movq	%rax, -112(%rsp)
	movq	2704(%rsp), %rax
	movq	%rax, 96(%rsp)
	movaps	2688(%rsp), %xmm0
	movaps	%xmm0, 80(%rsp)
	movaps	2672(%rsp), %xmm0
	movaps	%xmm0, 64(%rsp)
	movaps	2656(%rsp), %xmm0
	movaps	%xmm0, 48(%rsp)
	movaps	2592(%rsp), %xmm0
	movaps	2608(%rsp), %xmm1
	movaps	2624(%rsp), %xmm2
	movaps	2640(%rsp), %xmm3
	movaps	%xmm3, 32(%rsp)
	movaps	%xmm2, 16(%rsp)
	movaps	%xmm1, (%rsp)
	movaps	%xmm0, -16(%rsp)
	movaps	.Lnoise_CPI15_0(%rip), %xmm0
	movaps	.Lnoise_CPI15_1(%rip), %xmm1
	movl	$1, %r14d
	movl	$2, %eax
	movl	$4, %ecx
	movw	$768, %r10w
	movw	$1281, %bx
	movl	$3, %r8d
	movw	$512, %si
	movw	$4, %dx
	xorl	%r9d, %r9d
	xorl	%r11d, %r11d
	xorl	%r15d, %r15d
	jmp	.Lnoise_BB15_24
.Lnoise_BB15_10:
	movl	$0, 520(%rsp)
	movq	$0, 512(%rsp)
	movq	$0, 496(%rsp)
	movl	$0, 504(%rsp)
	movq	$0, 480(%rsp)
	movl	$0, 488(%rsp)
	movaps	%xmm0, 1696(%rsp)
	movaps	%xmm0, 1712(%rsp)
	movaps	%xmm0, 1728(%rsp)
	movaps	%xmm0, 1744(%rsp)
	movaps	%xmm0, 1760(%rsp)
	movaps	%xmm0, 1776(%rsp)
	movaps	%xmm0, 1792(%rsp)
	movq	$0, 1808(%rsp)
	movq	$0, 912(%rsp)
	movl	$0, 920(%rsp)
	movaps	%xmm0, -48(%rsp)
	movq	$0, -32(%rsp)
	movl	520(%rsp), %eax
	movl	%eax, -72(%rsp)
	movq	512(%rsp), %rax
	movq	%rax, -80(%rsp)
	movl	504(%rsp), %eax
	movl	%eax, -88(%rsp)
	movq	496(%rsp), %rax
	movq	%rax, -96(%rsp)
	movl	488(%rsp), %eax
	movl	%eax, -104(%rsp)
	movq	480(%rsp), %rax
	movq	%rax, -112(%rsp)
	movq	1808(%rsp), %rax
	movq	%rax, 96(%rsp)
	movaps	1792(%rsp), %xmm0
	movaps	%xmm0, 80(%rsp)
	movaps	1776(%rsp), %xmm0
	movaps	%xmm0, 64(%rsp)
	movaps	1760(%rsp), %xmm0
	movaps	%xmm0, 48(%rsp)
	movaps	1696(%rsp), %xmm0
	movaps	1712(%rsp), %xmm1
	movaps	1728(%rsp), %xmm2
	movaps	1744(%rsp), %xmm3
	movaps	%xmm3, 32(%rsp)
	movaps	%xmm2, 16(%rsp)
	movaps	%xmm1, (%rsp)
	movaps	%xmm0, -16(%rsp)
	movss	.Lnoise_CPI15_18(%rip), %xmm0
	movaps	.Lnoise_CPI15_10(%rip), %xmm1
	movl	$2, %eax
	movl	$1, %ecx
	movl	$3, %r8d
	movw	$512, %si
	movw	$4, %dx
	jmp	.Lnoise_BB15_11
.Lnoise_BB15_15:
	movq	$0, -128(%rsp)
	movl	$0, -120(%rsp)
	movaps	%xmm0, 2208(%rsp)
	movaps	%xmm0, 2224(%rsp)
	movaps	%xmm0, 2240(%rsp)
	movaps	%xmm0, 2256(%rsp)
	movaps	%xmm0, 2272(%rsp)
	movaps	%xmm0, 2288(%rsp)
	movaps	%xmm0, 2304(%rsp)
	movq	$0, 2320(%rsp)
	movl	$0, 664(%rsp)
	movq	$0, 656(%rsp)
	movl	$0, -56(%rsp)
	movq	$0, -64(%rsp)
	movl	$0, -120(%rsp)
	movq	$0, -128(%rsp)
	movl	-120(%rsp), %eax
	movl	%eax, 648(%rsp)
	movq	-128(%rsp), %rax
	movq	%rax, 640(%rsp)
	movl	$0, -56(%rsp)
	movq	$0, -64(%rsp)
	movl	$0, -120(%rsp)
	movq	$0, -128(%rsp)
	movl	-120(%rsp), %eax
	movl	%eax, 632(%rsp)
	movq	-128(%rsp), %rax
	movq	%rax, 624(%rsp)
	movaps	%xmm0, -48(%rsp)
	movq	$0, -32(%rsp)
	movl	664(%rsp), %eax
	movl	%eax, -72(%rsp)
	movq	656(%rsp), %rax
	movq	%rax, -80(%rsp)
	movl	648(%rsp), %eax
	movl	%eax, -88(%rsp)
	movq	640(%rsp), %rax
	movq	%rax, -96(%rsp)
	movl	632(%rsp), %eax
	movl	%eax, -104(%rsp)
	movq	624(%rsp), %rax
	movq	%rax, -112(%rsp)
	movq	2320(%rsp), %rax
	movq	%rax, 96(%rsp)
	movaps	2304(%rsp), %xmm0
	movaps	%xmm0, 80(%rsp)
	movaps	2288(%rsp), %xmm0
	movaps	%xmm0, 64(%rsp)
	movaps	2272(%rsp), %xmm0
	movaps	%xmm0, 48(%rsp)
	movaps	2208(%rsp), %xmm0
	movaps	2224(%rsp), %xmm1
	movaps	2240(%rsp), %xmm2
	movaps	2256(%rsp), %xmm3
	movaps	%xmm3, 32(%rsp)
	movaps	%xmm2, 16(%rsp)
	movaps	%xmm1, (%rsp)
	movaps	%xmm0, -16(%rsp)
	movaps	.Lnoise_CPI15_0(%rip), %xmm0
	movaps	.Lnoise_CPI15_4(%rip), %xmm1
	movl	$1, %r14d
	movl	$3, %eax
	movw	$768, %r10w
	movw	$512, %si
	movw	$1025, %r11w
	movl	$2, %r9d
	xorl	%edx, %edx
	movl	$2, %r8d
	xorl	%ebx, %ebx
	movl	$2, %ecx
	xorl	%r15d, %r15d
	jmp	.Lnoise_BB15_24
.Lnoise_BB15_13:
	movl	$0, 600(%rsp)
	movq	$0, 592(%rsp)
	movq	$0, 168(%rsp)
	movl	$0, 176(%rsp)
	movq	$0, 576(%rsp)
	movl	$0, 584(%rsp)
	movaps	%xmm0, 1952(%rsp)
	movaps	%xmm0, 1968(%rsp)
	movaps	%xmm0, 1984(%rsp)
	movaps	%xmm0, 2000(%rsp)
	movaps	%xmm0, 2016(%rsp)
	movaps	%xmm0, 2032(%rsp)
	movaps	%xmm0, 2048(%rsp)
	movq	$0, 2064(%rsp)
	movq	$0, 181(%rsp)
	movl	$0, 188(%rsp)
	movb	$3, 180(%rsp)
	movq	180(%rsp), %rax
	movq	%rax, 168(%rsp)
	movl	188(%rsp), %eax
	movl	%eax, 176(%rsp)
	movaps	%xmm0, -48(%rsp)
	movq	$0, -32(%rsp)
	movl	600(%rsp), %ecx
	movl	%ecx, -72(%rsp)
	movq	592(%rsp), %rcx
	movq	%rcx, -80(%rsp)
	movl	%eax, -88(%rsp)
	movq	168(%rsp), %rax
	movq	%rax, -96(%rsp)
	movl	584(%rsp), %eax
	movl	%eax, -104(%rsp)
	movq	576(%rsp), %rax
	movq	%rax, -112(%rsp)
	movq	2064(%rsp), %rax
	movq	%rax, 96(%rsp)
	movaps	2048(%rsp), %xmm0
	movaps	%xmm0, 80(%rsp)
	movaps	2032(%rsp), %xmm0
	movaps	%xmm0, 64(%rsp)
	movaps	2016(%rsp), %xmm0
	movaps	%xmm0, 48(%rsp)
	movaps	1952(%rsp), %xmm0
	movaps	1968(%rsp), %xmm1
	movaps	1984(%rsp), %xmm2
	movaps	2000(%rsp), %xmm3
	movaps	%xmm3, 32(%rsp)
	movaps	%xmm2, 16(%rsp)
	movaps	%xmm1, (%rsp)
	movaps	%xmm0, -16(%rsp)
	movss	.Lnoise_CPI15_18(%rip), %xmm0
	movaps	.Lnoise_CPI15_7(%rip), %xmm1
	movl	$2, %eax
	movl	$1, %ecx
	movl	$5, %r8d
	movw	$512, %si
	movw	$260, %dx
.Lnoise_BB15_11:
	xorl	%r9d, %r9d
	xorl	%r11d, %r11d
	xorl	%ebx, %ebx
	xorl	%r10d, %r10d
	movl	$1, %r15d
	jmp	.Lnoise_BB15_23
.Lnoise_BB15_19:
	movq	$0, -128(%rsp)
	movl	$0, -120(%rsp)
	movq	$0, 784(%rsp)
	movl	$0, 792(%rsp)
	movaps	%xmm0, 2720(%rsp)
	movaps	%xmm0, 2736(%rsp)
	movaps	%xmm0, 2752(%rsp)
	movaps	%xmm0, 2768(%rsp)
	movaps	%xmm0, 2784(%rsp)
	movaps	%xmm0, 2800(%rsp)
	movaps	%xmm0, 2816(%rsp)
	movq	$0, 2832(%rsp)
	movl	$0, 824(%rsp)
	movq	$0, 816(%rsp)
	movl	$0, -56(%rsp)
	movq	$0, -63(%rsp)
	movb	$3, -64(%rsp)
	movl	-56(%rsp), %eax
	movl	%eax, -120(%rsp)
	movq	-64(%rsp), %rax
	movq	%rax, -128(%rsp)
	movl	-120(%rsp), %eax
	movl	%eax, 808(%rsp)
	movq	-128(%rsp), %rax
	movq	%rax, 800(%rsp)
	movaps	%xmm0, -48(%rsp)
	movq	$0, -32(%rsp)
	movl	824(%rsp), %eax
	movl	%eax, -72(%rsp)
	movq	816(%rsp), %rax
	movq	%rax, -80(%rsp)
	movl	808(%rsp), %eax
	movl	%eax, -88(%rsp)
	movq	800(%rsp), %rax
	movq	%rax, -96(%rsp)
	movl	792(%rsp), %eax
	movl	%eax, -104(%rsp)
	movq	784(%rsp), %rax
	movq	%rax, -112(%rsp)
	movq	2832(%rsp), %rax
	movq	%rax, 96(%rsp)
	movaps	2816(%rsp), %xmm1
	movaps	%xmm1, 80(%rsp)
	movaps	2800(%rsp), %xmm1
	movaps	%xmm1, 64(%rsp)
	movaps	2784(%rsp), %xmm1
	movaps	%xmm1, 48(%rsp)
	movaps	2720(%rsp), %xmm1
	movaps	2736(%rsp), %xmm2
	movaps	2752(%rsp), %xmm3
	movaps	2768(%rsp), %xmm4
	movaps	%xmm4, 32(%rsp)
	movaps	%xmm3, 16(%rsp)
	movaps	%xmm2, (%rsp)
	movaps	%xmm1, -16(%rsp)
	movaps	.Lnoise_CPI15_17(%rip), %xmm1
	movl	$2, %ecx
	movw	$256, %r10w
	movl	$5, %r8d
	movw	$512, %si
	movw	$260, %dx
.Lnoise_BB15_20:
	xorl	%r9d, %r9d
	xorl	%r11d, %r11d
	xorl	%ebx, %ebx
.Lnoise_BB15_21:
	movl	$2, %eax
.Lnoise_BB15_22:
	xorl	%r15d, %r15d
.Lnoise_BB15_23:
	xorl	%r14d, %r14d
.Lnoise_BB15_24:
	movups	%xmm1, (%rdi)
	movaps	-48(%rsp), %xmm1
	movups	%xmm1, 16(%rdi)
	movq	-32(%rsp), %r12
	movq	%r12, 32(%rdi)
	movq	%r15, 40(%rdi)
	movups	%xmm0, 48(%rdi)
	movq	%r14, 64(%rdi)
	movw	%r10w, 72(%rdi)
	movw	%bx, 74(%rdi)
	movq	-80(%rsp), %r10
	movq	%r10, 76(%rdi)
	movl	-72(%rsp), %r10d
	movl	%r10d, 84(%rdi)
	movq	%rcx, 88(%rdi)
	movw	%si, 96(%rdi)
	movw	%dx, 98(%rdi)
	movq	-96(%rsp), %rcx
	movq	%rcx, 100(%rdi)
	movl	-88(%rsp), %ecx
	movl	%ecx, 108(%rdi)
	movq	%r8, 112(%rdi)
	movw	%r11w, 120(%rdi)
	movw	$0, 122(%rdi)
	movl	-104(%rsp), %ecx
	movl	%ecx, 132(%rdi)
	movq	-112(%rsp), %rcx
	movq	%rcx, 124(%rdi)
	movq	%r9, 136(%rdi)
	movq	96(%rsp), %rcx
	movq	%rcx, 256(%rdi)
	movaps	80(%rsp), %xmm0
	movups	%xmm0, 240(%rdi)
	movaps	64(%rsp), %xmm0
	movups	%xmm0, 224(%rdi)
	movaps	48(%rsp), %xmm0
	movups	%xmm0, 208(%rdi)
	movaps	-16(%rsp), %xmm0
	movaps	(%rsp), %xmm1
	movaps	16(%rsp), %xmm2
	movaps	32(%rsp), %xmm3
	movups	%xmm3, 192(%rdi)
	movups	%xmm2, 176(%rdi)
	movups	%xmm1, 160(%rdi)
	movups	%xmm0, 144(%rdi)
	movq	%rax, 264(%rdi)
	addq	$2840, %rsp
	.cfi_def_cfa_offset 40
	popq	%rbx
	.cfi_def_cfa_offset 32
	popq	%r12
	.cfi_def_cfa_offset 24
	popq	%r14
	.cfi_def_cfa_offset 16
	popq	%r15
	.cfi_def_cfa_offset 8
	retq
.Lnoise_func_end15:
	.size	"noise_names::table::row", .Lnoise_func_end15-"noise_names::table::row"
	.cfi_endproc
	.section	".rodata.noise_names::table::row","a",@progbits
	.p2align	2, 0x0
.Lnoise_JTI15_0:
	.long	.Lnoise_BB15_2-.Lnoise_JTI15_0
	.long	.Lnoise_BB15_4-.Lnoise_JTI15_0
	.long	.Lnoise_BB15_5-.Lnoise_JTI15_0
	.long	.Lnoise_BB15_6-.Lnoise_JTI15_0
	.long	.Lnoise_BB15_7-.Lnoise_JTI15_0
	.long	.Lnoise_BB15_8-.Lnoise_JTI15_0
	.long	.Lnoise_BB15_10-.Lnoise_JTI15_0
	.long	.Lnoise_BB15_12-.Lnoise_JTI15_0
	.long	.Lnoise_BB15_13-.Lnoise_JTI15_0
	.long	.Lnoise_BB15_14-.Lnoise_JTI15_0
	.long	.Lnoise_BB15_15-.Lnoise_JTI15_0
	.long	.Lnoise_BB15_16-.Lnoise_JTI15_0
	.long	.Lnoise_BB15_17-.Lnoise_JTI15_0
	.long	.Lnoise_BB15_18-.Lnoise_JTI15_0

	.section	.rodata.cst16,"aM",@progbits,16
	.p2align	4, 0x0
.Lnoise_CPI16_0:
	.byte	32
	.byte	45
	.byte	62
	.byte	32
	.zero	1
	.zero	1
	.zero	1
	.zero	1
	.zero	1
	.zero	1
	.zero	1
	.zero	1
	.zero	1
	.zero	1
	.zero	1
	.zero	1
.Lnoise_CPI16_1:
	.zero	1
	.zero	1
	.byte	60
	.byte	60
	.byte	45
	.byte	45
	.zero	1
	.zero	1
	.zero	1
	.zero	1
	.zero	1
	.zero	1
	.zero	1
	.zero	1
	.zero	1
	.zero	1
.Lnoise_CPI16_2:
	.byte	32
	.byte	45
	.byte	62
	.byte	32
	.byte	0
	.byte	0
	.byte	0
	.byte	0
	.byte	0
	.byte	0
	.byte	0
	.byte	0
	.byte	0
	.byte	0
	.byte	0
	.byte	0
	.section	".text.noise_names::text::read::read_line","ax",@progbits
	.p2align	4
	.type	"noise_names::text::read::read_line",@function
"noise_names::text::read::read_line":
	.cfi_startproc
	cmpq	$5, %rcx
	jb	.Lnoise_BB16_38
	movzbl	(%rdx), %r8d
	movl	1(%rdx), %eax
	cmpb	$32, %r8b
	sete	%r9b
	cmpl	$540945696, %eax
	sete	%r10b
	testb	%r9b, %r10b
	je	.Lnoise_BB16_3
	xorl	%eax, %eax
	jmp	.Lnoise_BB16_5
.Lnoise_BB16_3:
	cmpb	$32, %r8b
	jne	.Lnoise_BB16_38
	movd	%eax, %xmm0
	movd	.Lnoise_CPI16_2(%rip), %xmm1
	pcmpeqb	%xmm0, %xmm1
	punpcklbw	%xmm0, %xmm0
	pcmpeqb	.Lnoise_CPI16_1(%rip), %xmm0
	pshuflw	$85, %xmm0, %xmm2
	pand	%xmm1, %xmm2
	punpcklbw	%xmm1, %xmm1
	pshuflw	$170, %xmm0, %xmm0
	pshuflw	$255, %xmm1, %xmm1
	pand	%xmm0, %xmm1
	pand	%xmm1, %xmm2
	movd	%xmm2, %r8d
	movb	$1, %al
	testb	$1, %r8b
	je	.Lnoise_BB16_38
.Lnoise_BB16_5:
	cmpb	%sil, %al
	jne	.Lnoise_BB16_38
	addq	$-5, %rcx
	addq	$5, %rdx
	pxor	%xmm0, %xmm0
	movdqa	%xmm0, -40(%rsp)
	xorl	%r8d, %r8d
	.p2align	4
.Lnoise_BB16_7:
	movq	%rcx, %rax
	movq	%rdx, %rsi
	testq	%rcx, %rcx
	je	.Lnoise_BB16_36
	xorl	%ecx, %ecx
	.p2align	4
.Lnoise_BB16_9:
	movzbl	(%rsi,%rcx), %edx
	addb	$-97, %dl
	cmpb	$25, %dl
	ja	.Lnoise_BB16_12
	incq	%rcx
	cmpq	%rcx, %rax
	jne	.Lnoise_BB16_9
	movq	%rax, %rcx
.Lnoise_BB16_12:
	cmpq	$1, %rcx
	je	.Lnoise_BB16_20
	testq	%rcx, %rcx
	je	.Lnoise_BB16_36
	cmpq	$2, %rcx
	ja	.Lnoise_BB16_29
	movzbl	(%rsi), %edx
	cmpl	$115, %edx
	je	.Lnoise_BB16_26
	cmpl	$101, %edx
	jne	.Lnoise_BB16_36
	movzbl	1(%rsi), %r9d
	movb	$2, %dl
	cmpl	$101, %r9d
	je	.Lnoise_BB16_24
	cmpl	$115, %r9d
	jne	.Lnoise_BB16_36
	movb	$3, %dl
	jmp	.Lnoise_BB16_24
	.p2align	4
.Lnoise_BB16_20:
	movzbl	(%rsi), %edx
	cmpl	$101, %edx
	je	.Lnoise_BB16_21
	cmpl	$115, %edx
	jne	.Lnoise_BB16_36
	movb	$1, %dl
	jmp	.Lnoise_BB16_24
	.p2align	4
.Lnoise_BB16_29:
	cmpq	$3, %rcx
	jne	.Lnoise_BB16_36
	cmpb	$112, (%rsi)
	jne	.Lnoise_BB16_36
	cmpb	$115, 1(%rsi)
	jne	.Lnoise_BB16_36
	cmpb	$107, 2(%rsi)
	movq	%r8, %r9
	je	.Lnoise_BB16_33
	jmp	.Lnoise_BB16_36
	.p2align	4
.Lnoise_BB16_21:
	xorl	%edx, %edx
.Lnoise_BB16_24:
	movl	$8, %r9d
	cmpq	$8, %r8
	je	.Lnoise_BB16_33
	movb	%dl, -40(%rsp,%r8)
	incq	%r8
	movq	%r8, -32(%rsp)
	movq	%r8, %r9
.Lnoise_BB16_33:
	addq	%rcx, %rsi
	subq	%rcx, %rax
	cmpq	$2, %rax
	jb	.Lnoise_BB16_36
	cmpb	$44, (%rsi)
	jne	.Lnoise_BB16_36
	leaq	2(%rsi), %rdx
	leaq	-2(%rax), %rcx
	cmpb	$32, 1(%rsi)
	movq	%r9, %r8
	je	.Lnoise_BB16_7
	jmp	.Lnoise_BB16_36
.Lnoise_BB16_26:
	movzbl	1(%rsi), %r9d
	movb	$4, %dl
	cmpl	$101, %r9d
	je	.Lnoise_BB16_24
	cmpl	$115, %r9d
	jne	.Lnoise_BB16_36
	movb	$5, %dl
	jmp	.Lnoise_BB16_24
.Lnoise_BB16_36:
	movdqa	-40(%rsp), %xmm0
	movdqa	%xmm0, -24(%rsp)
	testq	%rax, %rax
	je	.Lnoise_BB16_38
	cmpb	$10, (%rsi)
	jne	.Lnoise_BB16_38
	decq	%rax
	incq	%rsi
	movq	$1, (%rdi)
	movaps	-24(%rsp), %xmm0
	movups	%xmm0, 8(%rdi)
	movq	%rsi, 24(%rdi)
	movq	%rax, 32(%rdi)
	retq
.Lnoise_BB16_38:
	pxor	%xmm0, %xmm0
	movdqu	%xmm0, 16(%rdi)
	movdqu	%xmm0, (%rdi)
	movq	$0, 32(%rdi)
	retq
.Lnoise_func_end16:
	.size	"noise_names::text::read::read_line", .Lnoise_func_end16-"noise_names::text::read::read_line"
	.cfi_endproc

	.section	".text.noise_names::pattern::Pattern::with_psks","ax",@progbits
	.p2align	4
	.type	"noise_names::pattern::Pattern::with_psks",@function
"noise_names::pattern::Pattern::with_psks":
	.cfi_startproc
	pushq	%rbp
	.cfi_def_cfa_offset 16
	pushq	%r15
	.cfi_def_cfa_offset 24
	pushq	%r14
	.cfi_def_cfa_offset 32
	pushq	%r13
	.cfi_def_cfa_offset 40
	pushq	%r12
	.cfi_def_cfa_offset 48
	pushq	%rbx
	.cfi_def_cfa_offset 56
	subq	$984, %rsp
	.cfi_def_cfa_offset 1040
	.cfi_offset %rbx, -56
	.cfi_offset %r12, -48
	.cfi_offset %r13, -40
	.cfi_offset %r14, -32
	.cfi_offset %r15, -24
	.cfi_offset %rbp, -16
	movq	%rdx, %rbp
	movq	%rsi, %r12
	movq	%rdi, %r14
	xorps	%xmm0, %xmm0
	movaps	%xmm0, 64(%rsp)
	movq	$0, 80(%rsp)
	leaq	616(%rsp), %rdi
	xorl	%ebx, %ebx
	movl	$272, %edx
	xorl	%esi, %esi
	callq	memset@PLT
	movq	16(%rbp), %r15
	movq	264(%r12), %rcx
	.p2align	4
.Lnoise_BB17_1:
	cmpq	%rbx, %r15
	je	.Lnoise_BB17_4
	movzbl	(%rbp,%rbx), %eax
	incq	%rbx
	cmpq	%rax, %rcx
	jae	.Lnoise_BB17_1
	movb	$1, (%r14)
	movb	%al, 1(%r14)
	addq	$8, %r14
	movl	$272, %edx
	movq	%r14, %rdi
	xorl	%esi, %esi
	addq	$984, %rsp
	.cfi_def_cfa_offset 56
	popq	%rbx
	.cfi_def_cfa_offset 48
	popq	%r12
	.cfi_def_cfa_offset 40
	popq	%r13
	.cfi_def_cfa_offset 32
	popq	%r14
	.cfi_def_cfa_offset 24
	popq	%r15
	.cfi_def_cfa_offset 16
	popq	%rbp
	.cfi_def_cfa_offset 8
	jmp	memset@PLT
.Lnoise_BB17_4:
	.cfi_def_cfa_offset 1040
	movq	%r12, 40(%rsp)
	movq	%r14, 128(%rsp)
	xorps	%xmm0, %xmm0
	movaps	%xmm0, 144(%rsp)
	movaps	%xmm0, 160(%rsp)
	movaps	%xmm0, 176(%rsp)
	movaps	%xmm0, 192(%rsp)
	movaps	%xmm0, 208(%rsp)
	movaps	%xmm0, 224(%rsp)
	movaps	%xmm0, 240(%rsp)
	movaps	%xmm0, 256(%rsp)
	movaps	%xmm0, 272(%rsp)
	movaps	%xmm0, 288(%rsp)
	movaps	%xmm0, 304(%rsp)
	movaps	%xmm0, 320(%rsp)
	movq	$0, 336(%rsp)
	testq	%rcx, %rcx
	je	.Lnoise_BB17_14
	negq	%rcx
	movq	%rcx, 136(%rsp)
	movq	40(%rsp), %rax
	addq	$88, %rax
	movq	%rax, 56(%rsp)
	movl	$1, %r14d
	xorl	%ebx, %ebx
	movq	%r15, 48(%rsp)
	jmp	.Lnoise_BB17_7
	.p2align	4
.Lnoise_BB17_6:
	movq	16(%rsp), %rax
	movq	%rax, 112(%rsp)
	movaps	(%rsp), %xmm0
	movaps	%xmm0, 96(%rsp)
	movups	%xmm0, 144(%rsp,%rbx)
	movq	%rax, 160(%rsp,%rbx)
	movq	%r14, 336(%rsp)
	addq	$24, %rbx
	movq	136(%rsp), %rax
	addq	%r14, %rax
	incq	%rax
	incq	%r14
	cmpq	$1, %rax
	je	.Lnoise_BB17_14
.Lnoise_BB17_7:
	movq	%rbp, %r15
	movq	56(%rsp), %rax
	movq	(%rax,%rbx), %r13
	movb	%r14b, 24(%rsp)
	xorps	%xmm0, %xmm0
	movaps	%xmm0, (%rsp)
	movq	%rsp, %rbp
	cmpb	$1, %r14b
	jne	.Lnoise_BB17_11
	leaq	.Lnoise_static.2(%rip), %rdx
	movq	%r15, %rdi
	movq	48(%rsp), %rsi
	callq	"core::slice::reads::slice+T::contains::<i8,31'core::cmp::numbers::U8PartialEq{}>"
	testb	%al, %al
	je	.Lnoise_BB17_11
	movb	$6, (%rsp)
	movl	$1, %r12d
	leaq	1(%rsp), %rbp
	movl	$10, %eax
	subq	%r12, %rax
	cmpq	%r13, %rax
	jae	.Lnoise_BB17_12
	jmp	.Lnoise_BB17_27
	.p2align	4
.Lnoise_BB17_11:
	xorl	%r12d, %r12d
	movl	$10, %eax
	subq	%r12, %rax
	cmpq	%r13, %rax
	jb	.Lnoise_BB17_27
.Lnoise_BB17_12:
	movq	56(%rsp), %rax
	leaq	(%rax,%rbx), %rsi
	addq	$-16, %rsi
	movq	%rbp, %rdi
	movq	%r13, %rdx
	callq	memcpy@PLT
	addq	%r13, %r12
	movq	%r12, 16(%rsp)
	leaq	24(%rsp), %rdx
	movq	%r15, %rbp
	movq	%r15, %rdi
	movq	48(%rsp), %r15
	movq	%r15, %rsi
	callq	"core::slice::reads::slice+T::contains::<i8,31'core::cmp::numbers::U8PartialEq{}>"
	testb	%al, %al
	je	.Lnoise_BB17_6
	movb	$6, (%rsp,%r12)
	incq	%r12
	movq	%r12, 16(%rsp)
	jmp	.Lnoise_BB17_6
.Lnoise_BB17_14:
	leaq	416(%rsp), %rdi
	leaq	144(%rsp), %rsi
	movl	$200, %edx
	callq	memcpy@PLT
	xorps	%xmm0, %xmm0
	movaps	%xmm0, 144(%rsp)
	movq	$0, 160(%rsp)
	testq	%r15, %r15
	movq	40(%rsp), %rbx
	je	.Lnoise_BB17_23
	movl	%r15d, %eax
	andl	$3, %eax
	cmpq	$4, %r15
	jae	.Lnoise_BB17_17
	xorl	%ecx, %ecx
	jmp	.Lnoise_BB17_21
.Lnoise_BB17_17:
	andq	$-4, %r15
	negq	%r15
	movl	$2, %ecx
	.p2align	4
.Lnoise_BB17_18:
	movzbl	-2(%rbp,%rcx), %edx
	movb	%dl, 142(%rsp,%rcx)
	leaq	-1(%rcx), %rdx
	movq	%rdx, 160(%rsp)
	movzbl	-1(%rbp,%rcx), %edx
	movb	%dl, 143(%rsp,%rcx)
	movq	%rcx, 160(%rsp)
	movzbl	(%rbp,%rcx), %edx
	movb	%dl, 144(%rsp,%rcx)
	leaq	1(%rcx), %rdx
	movq	%rdx, 160(%rsp)
	movzbl	1(%rbp,%rcx), %edx
	movb	%dl, 145(%rsp,%rcx)
	leaq	2(%rcx), %rdx
	movq	%rdx, 160(%rsp)
	leaq	(%r15,%rcx), %rdx
	addq	$4, %rdx
	addq	$4, %rcx
	cmpq	$2, %rdx
	jne	.Lnoise_BB17_18
	testq	%rax, %rax
	je	.Lnoise_BB17_23
	addq	$-2, %rcx
.Lnoise_BB17_21:
	incq	%rcx
	.p2align	4
.Lnoise_BB17_22:
	movzbl	-1(%rbp,%rcx), %edx
	movb	%dl, 143(%rsp,%rcx)
	movq	%rcx, 160(%rsp)
	incq	%rcx
	decq	%rax
	jne	.Lnoise_BB17_22
.Lnoise_BB17_23:
	movq	160(%rsp), %rax
	movaps	144(%rsp), %xmm0
	movaps	%xmm0, 64(%rsp)
	movq	%rax, 80(%rsp)
	movq	8(%rbx), %r13
	movq	48(%rbx), %r12
	movq	64(%rbx), %r15
	movq	$0, (%rsp)
	cmpq	$8, %r13
	ja	.Lnoise_BB17_27
	movq	%rsp, %rdi
	movq	%rbx, %rsi
	movq	%r13, %rdx
	callq	memcpy@PLT
	movq	%r13, 8(%rsp)
	movq	$0, 96(%rsp)
	cmpq	$2, %r12
	ja	.Lnoise_BB17_27
	leaq	40(%rbx), %rsi
	leaq	96(%rsp), %rdi
	movq	%r12, %rdx
	callq	memcpy@PLT
	movq	%r12, 104(%rsp)
	movq	$0, 24(%rsp)
	cmpq	$2, %r15
	ja	.Lnoise_BB17_27
	addq	$56, %rbx
	leaq	24(%rsp), %rdi
	movq	%rbx, %rsi
	movq	%r15, %rdx
	callq	memcpy@PLT
	movq	%r15, 32(%rsp)
	movups	(%rsp), %xmm0
	movaps	%xmm0, 144(%rsp)
	movaps	64(%rsp), %xmm0
	movaps	%xmm0, 160(%rsp)
	movq	80(%rsp), %rax
	movq	%rax, 176(%rsp)
	movups	96(%rsp), %xmm0
	movups	%xmm0, 184(%rsp)
	movq	24(%rsp), %rax
	movq	%rax, 200(%rsp)
	movq	32(%rsp), %rax
	movq	%rax, 208(%rsp)
	leaq	216(%rsp), %rdi
	leaq	416(%rsp), %rsi
	movl	$200, %edx
	callq	memcpy@PLT
	leaq	616(%rsp), %r14
	leaq	144(%rsp), %rsi
	movl	$272, %edx
	movq	%r14, %rdi
	callq	memcpy@PLT
	movq	128(%rsp), %rdi
	movw	$0, (%rdi)
	addq	$8, %rdi
	movl	$272, %edx
	movq	%r14, %rsi
	callq	memcpy@PLT
	addq	$984, %rsp
	.cfi_def_cfa_offset 56
	popq	%rbx
	.cfi_def_cfa_offset 48
	popq	%r12
	.cfi_def_cfa_offset 40
	popq	%r13
	.cfi_def_cfa_offset 32
	popq	%r14
	.cfi_def_cfa_offset 24
	popq	%r15
	.cfi_def_cfa_offset 16
	popq	%rbp
	.cfi_def_cfa_offset 8
	retq
.Lnoise_BB17_27:
	.cfi_def_cfa_offset 1040
	ud2
.Lnoise_func_end17:
	.size	"noise_names::pattern::Pattern::with_psks", .Lnoise_func_end17-"noise_names::pattern::Pattern::with_psks"
	.cfi_endproc

	.section	".text.core::slice::reads::slice+T::contains::<i8,31'core::cmp::numbers::U8PartialEq{}>","ax",@progbits
	.p2align	4
	.type	"core::slice::reads::slice+T::contains::<i8,31'core::cmp::numbers::U8PartialEq{}>",@function
"core::slice::reads::slice+T::contains::<i8,31'core::cmp::numbers::U8PartialEq{}>":
	.cfi_startproc
	cmpq	$3, %rsi
	ja	.Lnoise_BB18_3
	testq	%rsi, %rsi
	je	.Lnoise_BB18_2
	movzbl	(%rdx), %eax
	cmpb	%al, (%rdi)
	sete	%cl
	movq	%rsi, %rdx
	shrq	%rdx
	cmpb	%al, (%rdi,%rdx)
	sete	%dl
	cmpb	%al, -1(%rdi,%rsi)
	sete	%al
	orb	%cl, %al
	orb	%dl, %al
.Lnoise_BB18_21:
	retq
.Lnoise_BB18_3:
	cmpq	$8, %rsi
	ja	.Lnoise_BB18_5
	movd	-4(%rdi,%rsi), %xmm0
	movd	(%rdi), %xmm1
	punpckldq	%xmm0, %xmm1
	movzbl	(%rdx), %eax
	movd	%eax, %xmm0
	punpcklbw	%xmm0, %xmm0
	pshuflw	$0, %xmm0, %xmm0
	pcmpeqb	%xmm1, %xmm0
	pmovmskb	%xmm0, %eax
	testb	%al, %al
	setne	%al
	retq
.Lnoise_BB18_5:
	cmpq	$32, %rsi
	ja	.Lnoise_BB18_7
	leaq	-8(%rsi), %rax
	cmpq	$8, %rax
	movl	$8, %ecx
	cmovbq	%rax, %rcx
	cmpq	$16, %rax
	movl	$16, %r8d
	cmovbq	%rax, %r8
	movq	(%rdi,%rcx), %xmm0
	movq	(%rdi), %xmm1
	punpcklqdq	%xmm0, %xmm1
	movq	(%rdi,%r8), %xmm0
	movq	-8(%rdi,%rsi), %xmm2
	punpcklqdq	%xmm2, %xmm0
	movzbl	(%rdx), %eax
	movd	%eax, %xmm2
	punpcklbw	%xmm2, %xmm2
	pshuflw	$0, %xmm2, %xmm2
	pshufd	$68, %xmm2, %xmm2
	pcmpeqb	%xmm2, %xmm0
	pcmpeqb	%xmm2, %xmm1
	jmp	.Lnoise_BB18_16
.Lnoise_BB18_2:
	xorl	%eax, %eax
	retq
.Lnoise_BB18_7:
	movzbl	(%rdx), %eax
	cmpq	$65, %rsi
	jae	.Lnoise_BB18_8
	movdqu	(%rdi), %xmm0
	movdqu	16(%rdi), %xmm1
	movdqu	-32(%rdi,%rsi), %xmm2
	movdqu	-16(%rdi,%rsi), %xmm3
	movzbl	%al, %eax
	movd	%eax, %xmm4
	punpcklbw	%xmm4, %xmm4
	pshuflw	$0, %xmm4, %xmm4
	pshufd	$68, %xmm4, %xmm4
	pcmpeqb	%xmm4, %xmm2
	pcmpeqb	%xmm4, %xmm0
	por	%xmm2, %xmm0
	pcmpeqb	%xmm4, %xmm3
	pcmpeqb	%xmm4, %xmm1
	por	%xmm3, %xmm1
.Lnoise_BB18_16:
	por	%xmm0, %xmm1
	pmovmskb	%xmm1, %eax
	testl	%eax, %eax
	setne	%al
	retq
.Lnoise_BB18_8:
	movzbl	%al, %eax
	movd	%eax, %xmm0
	punpcklbw	%xmm0, %xmm0
	pshuflw	$0, %xmm0, %xmm0
	pshufd	$68, %xmm0, %xmm0
	xorl	%eax, %eax
	movq	%rsi, %rcx
	.p2align	4
.Lnoise_BB18_9:
	movdqu	(%rdi,%rax), %xmm1
	movdqu	16(%rdi,%rax), %xmm2
	movdqu	32(%rdi,%rax), %xmm3
	movdqu	48(%rdi,%rax), %xmm4
	pcmpeqb	%xmm0, %xmm2
	pcmpeqb	%xmm0, %xmm4
	por	%xmm2, %xmm4
	pcmpeqb	%xmm0, %xmm1
	pcmpeqb	%xmm0, %xmm3
	por	%xmm1, %xmm3
	por	%xmm4, %xmm3
	pmovmskb	%xmm3, %r8d
	testl	%r8d, %r8d
	jne	.Lnoise_BB18_11
	addq	$64, %rax
	addq	$-64, %rcx
	cmpq	$63, %rcx
	ja	.Lnoise_BB18_9
.Lnoise_BB18_11:
	cmpq	$32, %rcx
	jb	.Lnoise_BB18_19
	movzbl	(%rdx), %ecx
	movd	%ecx, %xmm0
	punpcklbw	%xmm0, %xmm0
	pshuflw	$0, %xmm0, %xmm0
	pshufd	$68, %xmm0, %xmm0
	movq	%rsi, %rcx
	subq	%rax, %rcx
	addq	%rdi, %rax
	.p2align	4
.Lnoise_BB18_13:
	movdqu	(%rax), %xmm1
	movdqu	16(%rax), %xmm2
	pcmpeqb	%xmm0, %xmm2
	pcmpeqb	%xmm0, %xmm1
	por	%xmm2, %xmm1
	pmovmskb	%xmm1, %r8d
	testl	%r8d, %r8d
	jne	.Lnoise_BB18_18
	addq	$-32, %rcx
	addq	$32, %rax
	cmpq	$32, %rcx
	jae	.Lnoise_BB18_13
	jmp	.Lnoise_BB18_19
.Lnoise_BB18_18:
	movb	$1, %al
	cmpq	$31, %rcx
	ja	.Lnoise_BB18_21
.Lnoise_BB18_19:
	movdqu	-32(%rdi,%rsi), %xmm0
	movdqu	-16(%rdi,%rsi), %xmm1
	movzbl	(%rdx), %eax
	movd	%eax, %xmm2
	punpcklbw	%xmm2, %xmm2
	pshuflw	$0, %xmm2, %xmm2
	pshufd	$68, %xmm2, %xmm2
	pcmpeqb	%xmm2, %xmm1
	pcmpeqb	%xmm2, %xmm0
	por	%xmm1, %xmm0
	pmovmskb	%xmm0, %eax
	testl	%eax, %eax
	setne	%al
	retq
.Lnoise_func_end18:
	.size	"core::slice::reads::slice+T::contains::<i8,31'core::cmp::numbers::U8PartialEq{}>", .Lnoise_func_end18-"core::slice::reads::slice+T::contains::<i8,31'core::cmp::numbers::U8PartialEq{}>"
	.cfi_endproc

	.section	".text.noise_names::text::write::text","ax",@progbits
	.p2align	4
	.type	"noise_names::text::write::text",@function
"noise_names::text::write::text":
	.cfi_startproc
	pushq	%rbp
	.cfi_def_cfa_offset 16
	pushq	%r15
	.cfi_def_cfa_offset 24
	pushq	%r14
	.cfi_def_cfa_offset 32
	pushq	%r13
	.cfi_def_cfa_offset 40
	pushq	%r12
	.cfi_def_cfa_offset 48
	pushq	%rbx
	.cfi_def_cfa_offset 56
	subq	$1352, %rsp
	.cfi_def_cfa_offset 1408
	.cfi_offset %rbx, -56
	.cfi_offset %r12, -48
	.cfi_offset %r13, -40
	.cfi_offset %r14, -32
	.cfi_offset %r15, -24
	.cfi_offset %rbp, -16
	movq	%rsi, %r14
	movq	%rdi, %rbx
	movq	264(%rsi), %r12
	leaq	272(%rsp), %rdi
	movl	$552, %edx
	xorl	%esi, %esi
	callq	memset@PLT
	movq	8(%r14), %r15
	xorps	%xmm0, %xmm0
	movaps	%xmm0, 240(%rsp)
	movaps	%xmm0, 224(%rsp)
	movaps	%xmm0, 208(%rsp)
	movaps	%xmm0, 192(%rsp)
	movaps	%xmm0, 176(%rsp)
	movaps	%xmm0, 160(%rsp)
	movaps	%xmm0, 144(%rsp)
	movaps	%xmm0, 128(%rsp)
	movaps	%xmm0, 112(%rsp)
	movaps	%xmm0, 96(%rsp)
	movaps	%xmm0, 80(%rsp)
	movaps	%xmm0, 64(%rsp)
	movaps	%xmm0, 48(%rsp)
	movaps	%xmm0, 32(%rsp)
	movaps	%xmm0, 16(%rsp)
	movaps	%xmm0, (%rsp)
	cmpq	$255, %r15
	ja	.Lnoise_BB19_23
	movq	%rsp, %rdi
	movq	%r14, %rsi
	movq	%r15, %rdx
	callq	memcpy@PLT
	movq	32(%r14), %rax
	testq	%rax, %rax
	je	.Lnoise_BB19_15
	cmpq	$252, %r15
	ja	.Lnoise_BB19_23
	leaq	(%rsp,%r15), %rdx
	leaq	.Lnoise_static.51(%rip), %rcx
	movq	%rdx, %rsi
	subq	%rcx, %rsi
	cmpq	$3, %rsi
	jae	.Lnoise_BB19_4
	movw	$29552, (%rdx)
	movb	$107, 2(%rdx)
	jmp	.Lnoise_BB19_6
.Lnoise_BB19_4:
	movb	$107, 2(%rdx)
	movw	$29552, (%rdx)
.Lnoise_BB19_6:
	movzbl	16(%r14), %edx
	addb	$48, %dl
	movb	%dl, 3(%rsp,%r15)
	cmpq	$1, %rax
	jne	.Lnoise_BB19_8
	addq	$4, %r15
	jmp	.Lnoise_BB19_15
.Lnoise_BB19_8:
	addq	$-248, %r15
	decq	%rax
	xorl	%edx, %edx
	jmp	.Lnoise_BB19_9
	.p2align	4
.Lnoise_BB19_12:
	movb	$107, 2(%rsi)
	movw	$29552, (%rsi)
.Lnoise_BB19_13:
	movzbl	17(%r14,%rdx), %esi
	addb	$48, %sil
	movb	%sil, 256(%rsp,%r15)
	addq	$5, %r15
	incq	%rdx
	cmpq	%rdx, %rax
	je	.Lnoise_BB19_14
.Lnoise_BB19_9:
	movb	$43, 252(%rsp,%r15)
	cmpq	$3, %r15
	jb	.Lnoise_BB19_23
	leaq	(%rsp,%r15), %rsi
	addq	$253, %rsi
	movq	%rsi, %rdi
	subq	%rcx, %rdi
	cmpq	$2, %rdi
	ja	.Lnoise_BB19_12
	movw	$29552, 253(%rsp,%r15)
	movb	$107, 255(%rsp,%r15)
	jmp	.Lnoise_BB19_13
.Lnoise_BB19_14:
	addq	$252, %r15
.Lnoise_BB19_15:
	movw	$2618, (%rsp,%r15)
	addq	$2, %r15
	movq	%r15, 256(%rsp)
	leaq	1088(%rsp), %r15
	movq	%rsp, %rsi
	movl	$264, %edx
	movq	%r15, %rdi
	callq	memcpy@PLT
	leaq	824(%rsp), %rdi
	movl	$264, %edx
	movq	%r15, %rsi
	callq	memcpy@PLT
	movq	1080(%rsp), %r15
	movq	816(%rsp), %r13
	movl	$541, %eax
	subq	%r13, %rax
	cmpq	%r15, %rax
	jb	.Lnoise_BB19_23
	leaq	(%rsp,%r13), %rdi
	addq	$272, %rdi
	leaq	824(%rsp), %rsi
	movq	%r15, %rdx
	callq	memcpy@PLT
	addq	%r15, %r13
	movq	%r13, 816(%rsp)
	movq	48(%r14), %rcx
	movq	64(%r14), %r15
	testq	%rcx, %rcx
	je	.Lnoise_BB19_17
	leaq	40(%r14), %rdx
	leaq	272(%rsp), %rdi
	xorl	%esi, %esi
	callq	"noise_names::text::write::push_token_line"
	testq	%r15, %r15
	jne	.Lnoise_BB19_19
	jmp	.Lnoise_BB19_20
.Lnoise_BB19_17:
	testq	%r15, %r15
	je	.Lnoise_BB19_26
.Lnoise_BB19_19:
	leaq	56(%r14), %rdx
	leaq	272(%rsp), %rdi
	movl	$1, %esi
	movq	%r15, %rcx
	callq	"noise_names::text::write::push_token_line"
.Lnoise_BB19_20:
	movq	816(%rsp), %rax
	leaq	-536(%rax), %rcx
	cmpq	$6, %rcx
	jb	.Lnoise_BB19_23
	leaq	(%rsp,%rax), %rcx
	addq	$272, %rcx
	leaq	.Lnoise_static.82(%rip), %rdx
	movq	%rcx, %rsi
	subq	%rdx, %rsi
	cmpq	$5, %rsi
	ja	.Lnoise_BB19_24
	movl	$774774816, (%rcx)
	movw	$2606, 4(%rcx)
	jmp	.Lnoise_BB19_25
.Lnoise_BB19_24:
	movw	$2606, 4(%rcx)
	movl	$774774816, (%rcx)
.Lnoise_BB19_25:
	addq	$6, %rax
	movq	%rax, 816(%rsp)
.Lnoise_BB19_26:
	testq	%r12, %r12
	je	.Lnoise_BB19_29
	addq	$72, %r14
	xorl	%ebp, %ebp
	.p2align	4
.Lnoise_BB19_28:
	movq	16(%r14), %rcx
	movzbl	%bpl, %ebp
	leaq	272(%rsp), %rdi
	movl	%ebp, %esi
	movq	%r14, %rdx
	callq	"noise_names::text::write::push_token_line"
	xorb	$1, %bpl
	addq	$24, %r14
	decq	%r12
	jne	.Lnoise_BB19_28
.Lnoise_BB19_29:
	leaq	272(%rsp), %rsi
	movl	$552, %edx
	movq	%rbx, %rdi
	callq	memcpy@PLT
	addq	$1352, %rsp
	.cfi_def_cfa_offset 56
	popq	%rbx
	.cfi_def_cfa_offset 48
	popq	%r12
	.cfi_def_cfa_offset 40
	popq	%r13
	.cfi_def_cfa_offset 32
	popq	%r14
	.cfi_def_cfa_offset 24
	popq	%r15
	.cfi_def_cfa_offset 16
	popq	%rbp
	.cfi_def_cfa_offset 8
	retq
.Lnoise_BB19_23:
	.cfi_def_cfa_offset 1408
	ud2
.Lnoise_func_end19:
	.size	"noise_names::text::write::text", .Lnoise_func_end19-"noise_names::text::write::text"
	.cfi_endproc

	.section	".text.noise_names::text::write::push_token_line","ax",@progbits
	.p2align	4
	.type	"noise_names::text::write::push_token_line",@function
"noise_names::text::write::push_token_line":
	.cfi_startproc
	pushq	%rbp
	.cfi_def_cfa_offset 16
	pushq	%r15
	.cfi_def_cfa_offset 24
	pushq	%r14
	.cfi_def_cfa_offset 32
	pushq	%r13
	.cfi_def_cfa_offset 40
	pushq	%r12
	.cfi_def_cfa_offset 48
	pushq	%rbx
	.cfi_def_cfa_offset 56
	pushq	%rax
	.cfi_def_cfa_offset 64
	.cfi_offset %rbx, -56
	.cfi_offset %r12, -48
	.cfi_offset %r13, -40
	.cfi_offset %r14, -32
	.cfi_offset %r15, -24
	.cfi_offset %rbp, -16
	movq	%rdx, %r8
	movq	544(%rdi), %rax
	movq	%rax, %rdx
	andq	$-2, %rdx
	cmpq	$540, %rdx
	je	.Lnoise_BB20_23
	movq	%rcx, %r14
	movq	%rdi, %rbx
	movw	$8224, (%rdi,%rax)
	leaq	.Lnoise_static.89(%rip), %rdi
	leaq	.Lnoise_static.88(%rip), %rcx
	testb	$1, %sil
	cmovneq	%rdi, %rcx
	cmpq	$538, %rdx
	je	.Lnoise_BB20_23
	leaq	(%rbx,%rax), %rdx
	addq	$2, %rdx
	movq	%rdx, %rdi
	subq	%rcx, %rdi
	cmpq	$1, %rdi
	ja	.Lnoise_BB20_4
	leaq	(%rbx,%rax), %rdx
	movzbl	(%rcx), %ecx
	movb	%cl, 2(%rdx)
	testb	$1, %sil
	movl	$45, %ecx
	movl	$62, %esi
	cmovnel	%ecx, %esi
	movb	%sil, 3(%rdx)
	jmp	.Lnoise_BB20_5
.Lnoise_BB20_4:
	movzwl	(%rcx), %ecx
	movw	%cx, (%rdx)
.Lnoise_BB20_5:
	cmpq	$537, %rax
	je	.Lnoise_BB20_23
	movb	$32, 4(%rbx,%rax)
	leaq	5(%rax), %r12
	movq	%r12, 544(%rbx)
	testq	%r14, %r14
	je	.Lnoise_BB20_22
	movzbl	(%r8), %ecx
	shll	$3, %ecx
	leaq	".Lnoise_switch.table.noise_names::text::write::push_token_line.199"(%rip), %r9
	movq	(%rcx,%r9), %r13
	movl	$536, %edx
	subq	%rax, %rdx
	cmpq	%r13, %rdx
	jb	.Lnoise_BB20_23
	decq	%r14
	leaq	".Lnoise_switch.table.noise_names::text::write::push_token_line.200"(%rip), %r10
	movq	(%rcx,%r10), %rsi
	leaq	(%rbx,%r12), %rdi
	movq	%rdi, %rax
	subq	%rsi, %rax
	cmpq	%r13, %rax
	jae	.Lnoise_BB20_11
	movl	%r13d, %eax
	andl	$3, %eax
	xorl	%ecx, %ecx
	.p2align	4
.Lnoise_BB20_10:
	movzbl	(%rsi,%rcx), %edx
	movb	%dl, (%rdi,%rcx)
	incq	%rcx
	cmpq	%rcx, %rax
	jne	.Lnoise_BB20_10
	addq	%r12, %r13
	testq	%r14, %r14
	je	.Lnoise_BB20_13
.Lnoise_BB20_14:
	xorl	%ebp, %ebp
	movq	%rbx, (%rsp)
	jmp	.Lnoise_BB20_15
	.p2align	4
.Lnoise_BB20_20:
	movq	%r12, %rdx
	movq	%r8, %r13
	movq	%r14, %rbx
	movq	%r9, %r14
	callq	memcpy@PLT
	leaq	".Lnoise_switch.table.noise_names::text::write::push_token_line.200"(%rip), %r10
	movq	%r14, %r9
	movq	%rbx, %r14
	movq	(%rsp), %rbx
	movq	%r13, %r8
.Lnoise_BB20_21:
	addq	%r15, %r12
	movq	%r12, 544(%rbx)
	incq	%rbp
	movq	%r12, %r13
	cmpq	%r14, %rbp
	je	.Lnoise_BB20_22
.Lnoise_BB20_15:
	movq	%r13, %rax
	andq	$-2, %rax
	cmpq	$540, %rax
	je	.Lnoise_BB20_23
	leaq	(%rbx,%r13), %rax
	leaq	.Lnoise_static.85(%rip), %rcx
	movq	%rax, %rdx
	subq	%rcx, %rdx
	cmpq	$1, %rdx
	movw	$8236, (%rax)
	leaq	2(%r13), %r15
	movq	%r15, 544(%rbx)
	movzbl	1(%r8,%rbp), %eax
	shll	$3, %eax
	movq	(%rax,%r9), %r12
	movl	$539, %ecx
	subq	%r13, %rcx
	cmpq	%r12, %rcx
	jb	.Lnoise_BB20_23
	movq	(%rax,%r10), %rsi
	leaq	(%rbx,%r15), %rdi
	movq	%rdi, %rax
	subq	%rsi, %rax
	cmpq	%r12, %rax
	jae	.Lnoise_BB20_20
	movl	%r12d, %eax
	andl	$3, %eax
	xorl	%ecx, %ecx
	.p2align	4
.Lnoise_BB20_19:
	movzbl	(%rsi,%rcx), %edx
	movb	%dl, (%rdi,%rcx)
	incq	%rcx
	cmpq	%rcx, %rax
	jne	.Lnoise_BB20_19
	jmp	.Lnoise_BB20_21
.Lnoise_BB20_11:
	movq	%r13, %rdx
	movq	%r8, %r15
	movq	%r9, %rbp
	callq	memcpy@PLT
	leaq	".Lnoise_switch.table.noise_names::text::write::push_token_line.200"(%rip), %r10
	movq	%rbp, %r9
	movq	%r15, %r8
	addq	%r12, %r13
	testq	%r14, %r14
	jne	.Lnoise_BB20_14
.Lnoise_BB20_13:
	movq	%r13, %r12
.Lnoise_BB20_22:
	cmpq	$541, %r12
	je	.Lnoise_BB20_23
	movb	$10, (%rbx,%r12)
	incq	%r12
	movq	%r12, 544(%rbx)
	addq	$8, %rsp
	.cfi_def_cfa_offset 56
	popq	%rbx
	.cfi_def_cfa_offset 48
	popq	%r12
	.cfi_def_cfa_offset 40
	popq	%r13
	.cfi_def_cfa_offset 32
	popq	%r14
	.cfi_def_cfa_offset 24
	popq	%r15
	.cfi_def_cfa_offset 16
	popq	%rbp
	.cfi_def_cfa_offset 8
	retq
.Lnoise_BB20_23:
	.cfi_def_cfa_offset 64
	ud2
.Lnoise_func_end20:
	.size	"noise_names::text::write::push_token_line", .Lnoise_func_end20-"noise_names::text::write::push_token_line"
	.cfi_endproc

	.section	".text.core::cmp::slices::groups_equal::<i8,31'core::cmp::numbers::U8PartialEq{}>","ax",@progbits
	.p2align	4
	.type	"core::cmp::slices::groups_equal::<i8,31'core::cmp::numbers::U8PartialEq{}>",@function
"core::cmp::slices::groups_equal::<i8,31'core::cmp::numbers::U8PartialEq{}>":
	.cfi_startproc
	cmpq	$8, %rsi
	ja	.Lnoise_BB21_2
	movd	-4(%rdi,%rsi), %xmm0
	movd	(%rdi), %xmm1
	punpckldq	%xmm0, %xmm1
	movd	-4(%rdx,%rsi), %xmm0
	movd	(%rdx), %xmm2
	punpckldq	%xmm0, %xmm2
	movq	%xmm1, %rax
	movq	%xmm2, %rcx
	cmpq	%rcx, %rax
	jmp	.Lnoise_BB21_17
.Lnoise_BB21_2:
	cmpq	$32, %rsi
	ja	.Lnoise_BB21_4
	leaq	-8(%rsi), %rax
	cmpq	$8, %rax
	movl	$8, %ecx
	cmovbq	%rax, %rcx
	cmpq	$16, %rax
	movl	$16, %r8d
	cmovbq	%rax, %r8
	movq	(%rdi,%rcx), %xmm0
	movq	(%rdi), %xmm1
	punpcklqdq	%xmm0, %xmm1
	movq	(%rdi,%r8), %xmm0
	movq	-8(%rdi,%rsi), %xmm2
	punpcklqdq	%xmm2, %xmm0
	movq	(%rdx,%rcx), %xmm2
	movq	(%rdx), %xmm3
	punpcklqdq	%xmm2, %xmm3
	pcmpeqb	%xmm1, %xmm3
	movq	(%rdx,%r8), %xmm1
	movq	-8(%rdx,%rsi), %xmm2
	punpcklqdq	%xmm2, %xmm1
	pcmpeqb	%xmm0, %xmm1
	pand	%xmm3, %xmm1
	pmovmskb	%xmm1, %eax
	jmp	.Lnoise_BB21_16
.Lnoise_BB21_4:
	cmpq	$65, %rsi
	jae	.Lnoise_BB21_5
	movdqu	(%rdi), %xmm0
	movdqu	16(%rdi), %xmm1
	movdqu	(%rdx), %xmm2
	pcmpeqb	%xmm0, %xmm2
	movdqu	16(%rdx), %xmm0
	pcmpeqb	%xmm1, %xmm0
	movdqu	-32(%rdi,%rsi), %xmm1
	movdqu	-16(%rdi,%rsi), %xmm3
	movdqu	-32(%rdx,%rsi), %xmm4
	pcmpeqb	%xmm1, %xmm4
	pand	%xmm2, %xmm4
	movdqu	-16(%rdx,%rsi), %xmm1
	pcmpeqb	%xmm3, %xmm1
	pand	%xmm0, %xmm1
	pand	%xmm4, %xmm1
	pmovmskb	%xmm1, %eax
	jmp	.Lnoise_BB21_16
.Lnoise_BB21_5:
	xorl	%eax, %eax
	movq	%rsi, %rcx
	.p2align	4
.Lnoise_BB21_6:
	movdqu	(%rdi,%rax), %xmm0
	movdqu	16(%rdi,%rax), %xmm1
	movdqu	32(%rdi,%rax), %xmm2
	movdqu	48(%rdi,%rax), %xmm3
	movdqu	(%rdx,%rax), %xmm4
	pcmpeqb	%xmm0, %xmm4
	movdqu	16(%rdx,%rax), %xmm0
	pcmpeqb	%xmm1, %xmm0
	movdqu	32(%rdx,%rax), %xmm1
	pcmpeqb	%xmm2, %xmm1
	pand	%xmm4, %xmm1
	movdqu	48(%rdx,%rax), %xmm2
	pcmpeqb	%xmm3, %xmm2
	pand	%xmm0, %xmm2
	pand	%xmm1, %xmm2
	pmovmskb	%xmm2, %r8d
	cmpl	$65535, %r8d
	jne	.Lnoise_BB21_8
	addq	$64, %rax
	addq	$-64, %rcx
	cmpq	$63, %rcx
	ja	.Lnoise_BB21_6
.Lnoise_BB21_8:
	cmpq	$32, %rcx
	jb	.Lnoise_BB21_15
	movq	%rsi, %rcx
	subq	%rax, %rcx
	.p2align	4
.Lnoise_BB21_10:
	movdqu	(%rdi,%rax), %xmm0
	movdqu	16(%rdi,%rax), %xmm1
	movdqu	(%rdx,%rax), %xmm2
	pcmpeqb	%xmm0, %xmm2
	movdqu	16(%rdx,%rax), %xmm0
	pcmpeqb	%xmm1, %xmm0
	pand	%xmm2, %xmm0
	pmovmskb	%xmm0, %r8d
	xorl	$65535, %r8d
	jne	.Lnoise_BB21_14
	addq	$32, %rax
	addq	$-32, %rcx
	cmpq	$31, %rcx
	ja	.Lnoise_BB21_10
	jmp	.Lnoise_BB21_15
.Lnoise_BB21_14:
	movb	$1, %al
	cmpq	$31, %rcx
	ja	.Lnoise_BB21_18
.Lnoise_BB21_15:
	movdqu	-32(%rdi,%rsi), %xmm0
	movdqu	-16(%rdi,%rsi), %xmm1
	movdqu	-32(%rdx,%rsi), %xmm2
	pcmpeqb	%xmm0, %xmm2
	movdqu	-16(%rdx,%rsi), %xmm0
	pcmpeqb	%xmm1, %xmm0
	pand	%xmm2, %xmm0
	pmovmskb	%xmm0, %eax
.Lnoise_BB21_16:
	xorl	$65535, %eax
.Lnoise_BB21_17:
	setne	%al
.Lnoise_BB21_18:
	xorb	$1, %al
	retq
.Lnoise_func_end21:
	.size	"core::cmp::slices::groups_equal::<i8,31'core::cmp::numbers::U8PartialEq{}>", .Lnoise_func_end21-"core::cmp::slices::groups_equal::<i8,31'core::cmp::numbers::U8PartialEq{}>"
	.cfi_endproc

	.section	".text.core::cmp::slices::groups_equal::<#1549cde59530a8ca>","ax",@progbits
	.p2align	4
	.type	"core::cmp::slices::groups_equal::<#1549cde59530a8ca>",@function
"core::cmp::slices::groups_equal::<#1549cde59530a8ca>":
	.cfi_startproc
	cmpq	$8, %rsi
	ja	.Lnoise_BB22_2
	movd	-4(%rdi,%rsi), %xmm0
	movd	(%rdi), %xmm1
	punpckldq	%xmm0, %xmm1
	movd	-4(%rdx,%rsi), %xmm0
	movd	(%rdx), %xmm2
	punpckldq	%xmm0, %xmm2
	movq	%xmm1, %rax
	movq	%xmm2, %rcx
	cmpq	%rcx, %rax
	jmp	.Lnoise_BB22_17
.Lnoise_BB22_2:
	cmpq	$32, %rsi
	ja	.Lnoise_BB22_4
	leaq	-8(%rsi), %rax
	cmpq	$8, %rax
	movl	$8, %ecx
	cmovbq	%rax, %rcx
	cmpq	$16, %rax
	movl	$16, %r8d
	cmovbq	%rax, %r8
	movq	(%rdi,%rcx), %xmm0
	movq	(%rdi), %xmm1
	punpcklqdq	%xmm0, %xmm1
	movq	(%rdi,%r8), %xmm0
	movq	-8(%rdi,%rsi), %xmm2
	punpcklqdq	%xmm2, %xmm0
	movq	(%rdx,%rcx), %xmm2
	movq	(%rdx), %xmm3
	punpcklqdq	%xmm2, %xmm3
	pcmpeqb	%xmm1, %xmm3
	movq	(%rdx,%r8), %xmm1
	movq	-8(%rdx,%rsi), %xmm2
	punpcklqdq	%xmm2, %xmm1
	pcmpeqb	%xmm0, %xmm1
	pand	%xmm3, %xmm1
	pmovmskb	%xmm1, %eax
	jmp	.Lnoise_BB22_16
.Lnoise_BB22_4:
	cmpq	$65, %rsi
	jae	.Lnoise_BB22_5
	movdqu	(%rdi), %xmm0
	movdqu	16(%rdi), %xmm1
	movdqu	(%rdx), %xmm2
	pcmpeqb	%xmm0, %xmm2
	movdqu	16(%rdx), %xmm0
	pcmpeqb	%xmm1, %xmm0
	movdqu	-32(%rdi,%rsi), %xmm1
	movdqu	-16(%rdi,%rsi), %xmm3
	movdqu	-32(%rdx,%rsi), %xmm4
	pcmpeqb	%xmm1, %xmm4
	pand	%xmm2, %xmm4
	movdqu	-16(%rdx,%rsi), %xmm1
	pcmpeqb	%xmm3, %xmm1
	pand	%xmm0, %xmm1
	pand	%xmm4, %xmm1
	pmovmskb	%xmm1, %eax
	jmp	.Lnoise_BB22_16
.Lnoise_BB22_5:
	xorl	%eax, %eax
	movq	%rsi, %rcx
	.p2align	4
.Lnoise_BB22_6:
	movdqu	(%rdi,%rax), %xmm0
	movdqu	16(%rdi,%rax), %xmm1
	movdqu	32(%rdi,%rax), %xmm2
	movdqu	48(%rdi,%rax), %xmm3
	movdqu	(%rdx,%rax), %xmm4
	pcmpeqb	%xmm0, %xmm4
	movdqu	16(%rdx,%rax), %xmm0
	pcmpeqb	%xmm1, %xmm0
	movdqu	32(%rdx,%rax), %xmm1
	pcmpeqb	%xmm2, %xmm1
	pand	%xmm4, %xmm1
	movdqu	48(%rdx,%rax), %xmm2
	pcmpeqb	%xmm3, %xmm2
	pand	%xmm0, %xmm2
	pand	%xmm1, %xmm2
	pmovmskb	%xmm2, %r8d
	cmpl	$65535, %r8d
	jne	.Lnoise_BB22_8
	addq	$64, %rax
	addq	$-64, %rcx
	cmpq	$63, %rcx
	ja	.Lnoise_BB22_6
.Lnoise_BB22_8:
	cmpq	$32, %rcx
	jb	.Lnoise_BB22_15
	movq	%rsi, %rcx
	subq	%rax, %rcx
	.p2align	4
.Lnoise_BB22_10:
	movdqu	(%rdi,%rax), %xmm0
	movdqu	16(%rdi,%rax), %xmm1
	movdqu	(%rdx,%rax), %xmm2
	pcmpeqb	%xmm0, %xmm2
	movdqu	16(%rdx,%rax), %xmm0
	pcmpeqb	%xmm1, %xmm0
	pand	%xmm2, %xmm0
	pmovmskb	%xmm0, %r8d
	xorl	$65535, %r8d
	jne	.Lnoise_BB22_14
	addq	$32, %rax
	addq	$-32, %rcx
	cmpq	$32, %rcx
	jae	.Lnoise_BB22_10
	jmp	.Lnoise_BB22_15
.Lnoise_BB22_14:
	movb	$1, %al
	cmpq	$31, %rcx
	ja	.Lnoise_BB22_18
.Lnoise_BB22_15:
	movdqu	-32(%rdi,%rsi), %xmm0
	movdqu	-16(%rdi,%rsi), %xmm1
	movdqu	-32(%rdx,%rsi), %xmm2
	pcmpeqb	%xmm0, %xmm2
	movdqu	-16(%rdx,%rsi), %xmm0
	pcmpeqb	%xmm1, %xmm0
	pand	%xmm2, %xmm0
	pmovmskb	%xmm0, %eax
.Lnoise_BB22_16:
	xorl	$65535, %eax
.Lnoise_BB22_17:
	setne	%al
.Lnoise_BB22_18:
	xorb	$1, %al
	retq
.Lnoise_func_end22:
	.size	"core::cmp::slices::groups_equal::<#1549cde59530a8ca>", .Lnoise_func_end22-"core::cmp::slices::groups_equal::<#1549cde59530a8ca>"
	.cfi_endproc

	.section	".text.noise_names::pattern::Pattern::check","ax",@progbits
	.p2align	4
	.type	"noise_names::pattern::Pattern::check",@function
"noise_names::pattern::Pattern::check":
	.cfi_startproc
	pushq	%rbp
	.cfi_def_cfa_offset 16
	pushq	%r15
	.cfi_def_cfa_offset 24
	pushq	%r14
	.cfi_def_cfa_offset 32
	pushq	%r13
	.cfi_def_cfa_offset 40
	pushq	%r12
	.cfi_def_cfa_offset 48
	pushq	%rbx
	.cfi_def_cfa_offset 56
	subq	$744, %rsp
	.cfi_def_cfa_offset 800
	.cfi_offset %rbx, -56
	.cfi_offset %r12, -48
	.cfi_offset %r13, -40
	.cfi_offset %r14, -32
	.cfi_offset %r15, -24
	.cfi_offset %rbp, -16
	movq	%rsi, %r12
	movq	%rdi, %r14
	leaq	200(%rsp), %rdi
	movl	$272, %edx
	callq	memcpy@PLT
	movq	248(%rsp), %rdx
	movq	464(%rsp), %r13
	movq	$0, 8(%rsp)
	movb	$0, 16(%rsp)
	testq	%rdx, %rdx
	je	.Lnoise_BB23_11
	movzbl	8(%rsp), %ecx
	xorl	%r15d, %r15d
	xorl	%r11d, %r11d
	xorl	%ebx, %ebx
	xorl	%eax, %eax
	jmp	.Lnoise_BB23_4
	.p2align	4
.Lnoise_BB23_2:
	movb	$1, %r15b
.Lnoise_BB23_3:
	incq	%rax
	cmpq	%rax, %rdx
	je	.Lnoise_BB23_42
.Lnoise_BB23_4:
	movzbl	240(%rsp,%rax), %esi
	movzbl	%sil, %edi
	leaq	.Lnoise_JTI23_0(%rip), %r8
	movslq	(%r8,%rdi,4), %rdi
	addq	%r8, %rdi
	notrack jmpq	*%rdi
.Lnoise_BB23_5:
	leal	(%r11,%r11), %edi
	cmpb	$1, %r11b
	sete	%r8b
	testb	$1, %r8b
	je	.Lnoise_BB23_8
	jmp	.Lnoise_BB23_178
	.p2align	4
.Lnoise_BB23_6:
	movl	%r15d, %r8d
	xorb	$1, %r8b
	orb	%r11b, %r8b
	xorl	%edi, %edi
	testb	$1, %r8b
	sete	%r9b
	testb	$1, %bl
	jne	.Lnoise_BB23_177
	movb	%r9b, %dil
	leal	(%rdi,%rdi,4), %edi
	xorb	$1, %r8b
	testb	$1, %r8b
	jne	.Lnoise_BB23_178
.Lnoise_BB23_8:
	testb	%sil, %sil
	je	.Lnoise_BB23_10
	movb	$1, %bl
	jmp	.Lnoise_BB23_3
	.p2align	4
.Lnoise_BB23_10:
	movb	$1, %cl
	movb	$1, %r11b
	jmp	.Lnoise_BB23_3
.Lnoise_BB23_11:
	movq	%r13, 88(%rsp)
	xorl	%r11d, %r11d
	xorl	%ebx, %ebx
	xorl	%r15d, %r15d
	movq	%r12, 192(%rsp)
	movq	264(%rsp), %r10
	testq	%r10, %r10
	je	.Lnoise_BB23_43
.Lnoise_BB23_12:
	movq	%rbx, %rax
	movq	%r11, %r13
	movzbl	16(%rsp), %r8d
	movzbl	14(%rsp), %edi
	movzbl	13(%rsp), %esi
	movzbl	10(%rsp), %ecx
	movb	%cl, 4(%rsp)
	movzbl	12(%rsp), %ecx
	movb	%cl, 80(%rsp)
	movq	$0, 104(%rsp)
	movq	$0, 112(%rsp)
	movq	$0, 120(%rsp)
	xorl	%r12d, %r12d
	movq	$0, 96(%rsp)
	movq	$0, 168(%rsp)
	xorl	%r9d, %r9d
	jmp	.Lnoise_BB23_15
.Lnoise_BB23_13:
	movb	$1, %r8b
	movb	$1, %r15b
	.p2align	4
.Lnoise_BB23_14:
	incq	%r9
	cmpq	%r9, %r10
	je	.Lnoise_BB23_44
.Lnoise_BB23_15:
	movzbl	256(%rsp,%r9), %edx
	leaq	.Lnoise_JTI23_1(%rip), %r11
	movslq	(%r11,%rdx,4), %rbx
	addq	%r11, %rbx
	notrack jmpq	*%rbx
.Lnoise_BB23_16:
	movq	%r12, %rbx
	leal	(%r12,%r12), %r11d
	jmp	.Lnoise_BB23_30
.Lnoise_BB23_17:
	movq	%rax, %r11
	cmpb	$1, %r11b
	jne	.Lnoise_BB23_186
	xorl	%r11d, %r11d
	movq	120(%rsp), %rcx
	jmp	.Lnoise_BB23_21
.Lnoise_BB23_19:
	movq	%r13, %r11
	cmpb	$1, %r11b
	jne	.Lnoise_BB23_186
	xorl	%r11d, %r11d
	movq	104(%rsp), %rcx
.Lnoise_BB23_21:
	testb	$1, %cl
	setne	%r11b
	leal	(%r11,%r11,2), %ebp
	movq	%r12, %r11
	jmp	.Lnoise_BB23_29
.Lnoise_BB23_22:
	movq	%r13, %r11
	cmpb	$1, %r11b
	jne	.Lnoise_BB23_186
	xorl	%r11d, %r11d
	movq	112(%rsp), %rcx
	jmp	.Lnoise_BB23_28
.Lnoise_BB23_24:
	movq	112(%rsp), %rcx
	movl	%ecx, %r11d
	notb	%r11b
	orb	104(%rsp), %r11b
	movq	96(%rsp), %rbx
	notb	%bl
	orb	120(%rsp), %bl
	andb	%r11b, %bl
	testb	$1, %bl
	je	.Lnoise_BB23_38
	movl	%r15d, %r11d
	xorb	$1, %r11b
	orb	%r12b, %r11b
	movl	%r11d, %ebx
	notb	%bl
	andb	$1, %bl
	movq	%r15, %rbp
	movq	%r14, %r15
	xorl	%r14d, %r14d
	testb	$1, %r11b
	sete	%r14b
	leal	(%r14,%r14,4), %r11d
	movq	%r15, %r14
	movq	%rbp, %r15
	jmp	.Lnoise_BB23_39
.Lnoise_BB23_26:
	movq	%rax, %r11
	cmpb	$1, %r11b
	jne	.Lnoise_BB23_186
	xorl	%r11d, %r11d
	movq	96(%rsp), %rcx
.Lnoise_BB23_28:
	testb	$1, %cl
	setne	%r11b
	leal	(%r11,%r11,2), %ebp
	movq	168(%rsp), %r11
.Lnoise_BB23_29:
	movl	%r11d, %ebx
	xorb	$1, %bl
	orb	%cl, %bl
	testb	$1, %r11b
	movl	$1, %r11d
	cmovnel	%ebp, %r11d
.Lnoise_BB23_30:
	cmpb	$1, %bl
	je	.Lnoise_BB23_187
	movl	%edx, %edx
	leaq	.Lnoise_JTI23_2(%rip), %r11
	movslq	(%r11,%rdx,4), %rdx
	addq	%r11, %rdx
	notrack jmpq	*%rdx
.Lnoise_BB23_32:
	movb	$1, 4(%rsp)
	movb	$1, %r12b
	jmp	.Lnoise_BB23_14
.Lnoise_BB23_33:
	movb	$1, %dil
	movb	$1, %cl
	movq	%rcx, 120(%rsp)
	jmp	.Lnoise_BB23_14
.Lnoise_BB23_34:
	movb	$1, 80(%rsp)
	movb	$1, %cl
	movq	%rcx, 104(%rsp)
	jmp	.Lnoise_BB23_14
.Lnoise_BB23_35:
	movb	$1, %sil
	movb	$1, %cl
	movq	%rcx, 112(%rsp)
	jmp	.Lnoise_BB23_14
.Lnoise_BB23_36:
	movb	$1, %cl
	movq	%rcx, 168(%rsp)
	jmp	.Lnoise_BB23_14
.Lnoise_BB23_37:
	movb	$1, %dl
	movq	%rdx, 96(%rsp)
	jmp	.Lnoise_BB23_14
.Lnoise_BB23_38:
	movb	$4, %r11b
	movb	$1, %bl
.Lnoise_BB23_39:
	testb	$1, 168(%rsp)
	je	.Lnoise_BB23_30
	movb	$2, %r11b
	jmp	.Lnoise_BB23_187
.Lnoise_BB23_41:
	movb	%cl, 8(%rsp)
	movb	$1, %dil
	jmp	.Lnoise_BB23_179
.Lnoise_BB23_42:
	movq	%r13, 88(%rsp)
	movb	%cl, 8(%rsp)
	movb	%r15b, 16(%rsp)
	movq	%r12, 192(%rsp)
	movq	264(%rsp), %r10
	testq	%r10, %r10
	jne	.Lnoise_BB23_12
.Lnoise_BB23_43:
	xorl	%r12d, %r12d
	movq	$0, 168(%rsp)
	movq	$0, 104(%rsp)
	movq	$0, 120(%rsp)
	movq	$0, 112(%rsp)
	movq	$0, 96(%rsp)
	movq	88(%rsp), %r8
	testq	%r8, %r8
	jne	.Lnoise_BB23_45
	jmp	.Lnoise_BB23_170
.Lnoise_BB23_44:
	movb	%r8b, 16(%rsp)
	movb	%dil, 14(%rsp)
	movb	%sil, 13(%rsp)
	movzbl	80(%rsp), %ecx
	movb	%cl, 12(%rsp)
	movzbl	4(%rsp), %ecx
	movb	%cl, 10(%rsp)
	movq	%r13, %r11
	movq	%rax, %rbx
	movq	88(%rsp), %r8
	testq	%r8, %r8
	je	.Lnoise_BB23_170
.Lnoise_BB23_45:
	leaq	272(%rsp), %rax
	movq	%rax, 184(%rsp)
	movzbl	13(%rsp), %eax
	movb	%al, 25(%rsp)
	movzbl	14(%rsp), %eax
	movb	%al, 26(%rsp)
	movb	$1, %cl
	leaq	273(%rsp), %rdi
	movq	$0, 80(%rsp)
	movb	%r11b, 5(%rsp)
	movq	96(%rsp), %rax
	movl	%eax, 28(%rsp)
	xorl	%edx, %edx
	movq	%r14, 48(%rsp)
	movq	%r8, 88(%rsp)
	jmp	.Lnoise_BB23_47
	.p2align	4
.Lnoise_BB23_46:
	movq	80(%rsp), %rax
	xorb	$1, %al
	movq	%rax, 80(%rsp)
	incb	%cl
	incq	%rdx
	addq	$24, 184(%rsp)
	addq	$24, %rdi
	cmpq	%r8, %rdx
	je	.Lnoise_BB23_170
.Lnoise_BB23_47:
	leaq	(%rdx,%rdx,2), %rax
	movq	288(%rsp,%rax,8), %rax
	testq	%rax, %rax
	movq	%rax, 160(%rsp)
	je	.Lnoise_BB23_149
	movzbl	80(%rsp), %esi
	movq	%rsi, 152(%rsp)
	decq	%rax
	movq	%rax, 176(%rsp)
	xorl	%ebp, %ebp
	movzbl	25(%rsp), %esi
	movq	112(%rsp), %rax
	movb	%al, 24(%rsp)
	movl	28(%rsp), %eax
	movb	%al, 7(%rsp)
	movq	168(%rsp), %rax
	movb	%al, 27(%rsp)
	movb	%bl, 4(%rsp)
	movb	%cl, 2(%rsp)
	movq	%rdi, 136(%rsp)
	movq	%rdx, 144(%rsp)
.Lnoise_BB23_49:
	movl	%r12d, %r10d
	xorb	$1, %r10b
	movl	%esi, %r13d
	movq	%r12, 72(%rsp)
	movb	%r10b, 3(%rsp)
.Lnoise_BB23_50:
	movb	%sil, 6(%rsp)
	movq	%rbx, 64(%rsp)
	movq	%r11, 40(%rsp)
	movq	%r15, 32(%rsp)
	xorl	%eax, %eax
	movzbl	7(%rsp), %r11d
	testb	$1, %r11b
	setne	%al
	leal	(%rax,%rax,2), %edi
	xorl	%eax, %eax
	movq	120(%rsp), %rsi
	testb	$1, %sil
	setne	%al
	leal	(%rax,%rax,2), %r9d
	movl	%esi, %eax
	orb	%r10b, %al
	movb	%al, 23(%rsp)
	xorl	%eax, %eax
	movzbl	24(%rsp), %r8d
	testb	$1, %r8b
	setne	%al
	xorl	%ecx, %ecx
	movq	104(%rsp), %rdx
	testb	$1, %dl
	setne	%cl
	movl	%edx, %ebx
	orb	%r10b, %bl
	movb	%bl, 22(%rsp)
	testb	$1, %r12b
	movl	$1, %r10d
	cmovel	%r10d, %r9d
	movl	%r9d, 132(%rsp)
	leal	(%rax,%rax,2), %r9d
	leal	(%rcx,%rcx,2), %eax
	cmovel	%r10d, %eax
	movl	%eax, 128(%rsp)
	movl	%esi, %ecx
	xorb	$1, %cl
	orb	%dl, %cl
	movl	%r11d, %r12d
	xorb	$1, %r12b
	movl	%r12d, %eax
	orb	%r13b, %al
	movb	%cl, 63(%rsp)
	andb	%cl, %al
	xorb	$1, %r8b
	orb	%dl, %r8b
	orb	26(%rsp), %r12b
	movb	%r8b, 62(%rsp)
	andb	%r8b, %r12b
	movzbl	27(%rsp), %ecx
.Lnoise_BB23_51:
	movl	%r13d, %r14d
	movl	%ecx, %r11d
	xorb	$1, %r11b
	movl	%r11d, %esi
	orb	7(%rsp), %sil
	movzbl	%dil, %r13d
	orb	24(%rsp), %r11b
	testb	$1, %cl
	cmovel	%r10d, %r13d
	movzbl	%r9b, %ebx
	cmovel	%r10d, %ebx
	movb	%cl, 27(%rsp)
	movzbl	%cl, %r15d
	movzbl	4(%rsp), %edx
	movq	80(%rsp), %r8
	testb	$1, %r8b
	cmovnel	%r15d, %edx
	movq	184(%rsp), %rcx
	movzbl	(%rcx,%rbp), %r15d
	testb	%r8b, %r8b
	je	.Lnoise_BB23_69
	movl	%r15d, %ecx
	leaq	.Lnoise_JTI23_3(%rip), %r8
	movslq	(%r8,%rcx,4), %rcx
	addq	%r8, %rcx
	notrack jmpq	*%rcx
.Lnoise_BB23_53:
	movq	152(%rsp), %rcx
	movzbl	8(%rsp,%rcx,2), %r11d
	leal	(%r11,%r11), %ebx
	movl	%r14d, %r13d
	jmp	.Lnoise_BB23_63
.Lnoise_BB23_54:
	movl	132(%rsp), %ebx
	movzbl	23(%rsp), %ecx
	movl	%ecx, %r11d
	testb	$1, 4(%rsp)
	movl	%r14d, %r13d
	jne	.Lnoise_BB23_63
	jmp	.Lnoise_BB23_180
.Lnoise_BB23_55:
	movl	128(%rsp), %ebx
	movzbl	22(%rsp), %ecx
	movl	%ecx, %r11d
.Lnoise_BB23_56:
	testb	$1, 5(%rsp)
	movl	%r14d, %r13d
	jne	.Lnoise_BB23_63
	jmp	.Lnoise_BB23_180
.Lnoise_BB23_57:
	movb	$4, %bl
	movb	$1, %r11b
	testb	$1, %r12b
	je	.Lnoise_BB23_61
	cmpb	$1, 32(%rsp)
	jne	.Lnoise_BB23_60
	movb	$5, %bl
	movq	152(%rsp), %rcx
	cmpb	$1, 8(%rsp,%rcx,2)
	jne	.Lnoise_BB23_61
.Lnoise_BB23_60:
	xorl	%r11d, %r11d
	xorl	%ebx, %ebx
.Lnoise_BB23_61:
	testb	$1, %dl
	movl	%r14d, %r13d
	je	.Lnoise_BB23_63
	jmp	.Lnoise_BB23_188
.Lnoise_BB23_62:
	movl	%r13d, %ebx
	movl	%esi, %r11d
	testb	$1, 4(%rsp)
	movl	%r14d, %r13d
	je	.Lnoise_BB23_180
	.p2align	4
.Lnoise_BB23_63:
	cmpb	$1, %r11b
	je	.Lnoise_BB23_189
	cmpl	$1, %r15d
	jne	.Lnoise_BB23_66
	incq	%rbp
	movb	$1, %cl
	movq	%rcx, 168(%rsp)
	movb	$1, %cl
	cmpq	%rbp, 160(%rsp)
	jne	.Lnoise_BB23_51
	jmp	.Lnoise_BB23_154
	.p2align	4
.Lnoise_BB23_66:
	movl	%r15d, %eax
	leaq	.Lnoise_JTI23_4(%rip), %rcx
	movslq	(%rcx,%rax,4), %rax
	addq	%rcx, %rax
	movq	64(%rsp), %rbx
	notrack jmpq	*%rax
.Lnoise_BB23_67:
	movq	32(%rsp), %r15
	movq	40(%rsp), %r11
	movq	72(%rsp), %r12
.Lnoise_BB23_68:
	movzbl	3(%rsp), %r10d
	movb	$1, 12(%rsp)
	movb	$1, %al
	movq	%rax, 104(%rsp)
	jmp	.Lnoise_BB23_139
.Lnoise_BB23_69:
	movl	%r15d, %edi
	leaq	.Lnoise_JTI23_5(%rip), %r9
	movslq	(%r9,%rdi,4), %r10
	addq	%r9, %r10
	movq	72(%rsp), %r12
	notrack jmpq	*%r10
.Lnoise_BB23_70:
	movq	152(%rsp), %rax
	movzbl	8(%rsp,%rax,2), %r9d
	leal	(%r9,%r9), %r10d
	jmp	.Lnoise_BB23_86
.Lnoise_BB23_71:
	movb	$1, %al
	movq	%rax, 96(%rsp)
	movb	$1, %al
	movl	%eax, 28(%rsp)
	movb	$1, 7(%rsp)
.Lnoise_BB23_72:
	movq	32(%rsp), %r15
	movq	40(%rsp), %r11
	movq	72(%rsp), %r12
.Lnoise_BB23_73:
	movzbl	6(%rsp), %esi
	movzbl	3(%rsp), %r10d
	jmp	.Lnoise_BB23_140
.Lnoise_BB23_74:
	movq	40(%rsp), %r11
	movq	64(%rsp), %rbx
	movq	72(%rsp), %r12
	jmp	.Lnoise_BB23_112
.Lnoise_BB23_75:
	movl	132(%rsp), %r10d
	movzbl	23(%rsp), %eax
	movl	%eax, %r9d
	jmp	.Lnoise_BB23_85
.Lnoise_BB23_76:
	movl	128(%rsp), %r10d
	movzbl	22(%rsp), %eax
	movl	%eax, %r9d
	jmp	.Lnoise_BB23_78
.Lnoise_BB23_77:
	movl	%ebx, %r10d
	movl	%r11d, %r9d
.Lnoise_BB23_78:
	testb	$1, 5(%rsp)
	jne	.Lnoise_BB23_86
	jmp	.Lnoise_BB23_180
.Lnoise_BB23_79:
	movb	$4, %r10b
	movb	$1, %r9b
	testb	$1, %al
	je	.Lnoise_BB23_83
	cmpb	$1, 32(%rsp)
	jne	.Lnoise_BB23_82
	movb	$5, %r10b
	movq	152(%rsp), %rax
	cmpb	$1, 8(%rsp,%rax,2)
	jne	.Lnoise_BB23_83
.Lnoise_BB23_82:
	xorl	%r9d, %r9d
	xorl	%r10d, %r10d
.Lnoise_BB23_83:
	testb	$1, %dl
	je	.Lnoise_BB23_86
	jmp	.Lnoise_BB23_188
.Lnoise_BB23_84:
	movl	%r13d, %r10d
	movl	%esi, %r9d
.Lnoise_BB23_85:
	testb	$1, 4(%rsp)
	je	.Lnoise_BB23_180
.Lnoise_BB23_86:
	cmpb	$1, %r9b
	je	.Lnoise_BB23_200
	leaq	.Lnoise_JTI23_6(%rip), %rax
	movslq	(%rax,%rdi,4), %rdi
	addq	%rax, %rdi
	notrack jmpq	*%rdi
.Lnoise_BB23_88:
	movb	$1, 8(%rsp)
	leaq	1(%rbp), %rax
	movb	$1, 5(%rsp)
	cmpq	160(%rsp), %rax
	movq	136(%rsp), %rdi
	je	.Lnoise_BB23_166
	movq	32(%rsp), %r15
.Lnoise_BB23_90:
	movzbl	(%rdi,%rbp), %eax
	movq	%rax, %r8
	movzbl	%al, %eax
	leaq	.Lnoise_JTI23_9(%rip), %rdi
	movslq	(%rdi,%rax,4), %r10
	addq	%rdi, %r10
	movl	%ebx, %edi
	movl	%r11d, %r9d
	notrack jmpq	*%r10
.Lnoise_BB23_91:
	movq	152(%rsp), %rcx
	movzbl	8(%rsp,%rcx,2), %r9d
	leal	(%r9,%r9), %edi
	jmp	.Lnoise_BB23_106
.Lnoise_BB23_92:
	movl	132(%rsp), %edi
	movzbl	23(%rsp), %ecx
	movl	%ecx, %r9d
	jmp	.Lnoise_BB23_98
.Lnoise_BB23_93:
	testb	$1, 80(%rsp)
	je	.Lnoise_BB23_99
	testb	$1, 62(%rsp)
	je	.Lnoise_BB23_105
	leaq	14(%rsp), %rdi
	cmpb	$1, 7(%rsp)
	je	.Lnoise_BB23_101
	jmp	.Lnoise_BB23_102
.Lnoise_BB23_96:
	movl	128(%rsp), %edi
	movzbl	22(%rsp), %ecx
	movl	%ecx, %r9d
	jmp	.Lnoise_BB23_106
.Lnoise_BB23_97:
	movl	%r13d, %edi
	movl	%esi, %r9d
.Lnoise_BB23_98:
	testb	$1, 4(%rsp)
	jne	.Lnoise_BB23_106
	jmp	.Lnoise_BB23_201
.Lnoise_BB23_99:
	testb	$1, 63(%rsp)
	je	.Lnoise_BB23_105
	leaq	13(%rsp), %rdi
	testb	$1, 7(%rsp)
	je	.Lnoise_BB23_102
.Lnoise_BB23_101:
	cmpb	$1, (%rdi)
	jne	.Lnoise_BB23_105
.Lnoise_BB23_102:
	cmpb	$1, %r15b
	jne	.Lnoise_BB23_104
	movq	152(%rsp), %rcx
	cmpb	$1, 8(%rsp,%rcx,2)
	jne	.Lnoise_BB23_109
.Lnoise_BB23_104:
	xorl	%r9d, %r9d
	xorl	%edi, %edi
	testb	$1, %dl
	je	.Lnoise_BB23_106
	jmp	.Lnoise_BB23_206
.Lnoise_BB23_105:
	movb	$4, %dil
	movb	$1, %r9b
	testb	$1, %dl
	jne	.Lnoise_BB23_206
.Lnoise_BB23_106:
	cmpb	$1, %r9b
	je	.Lnoise_BB23_207
	testl	%eax, %eax
	jne	.Lnoise_BB23_128
	movb	$1, 8(%rsp)
	incq	%rbp
	cmpq	%rbp, 176(%rsp)
	movq	136(%rsp), %rdi
	jne	.Lnoise_BB23_90
	jmp	.Lnoise_BB23_164
.Lnoise_BB23_109:
	movb	$5, %dil
	movb	$1, %r9b
	testb	$1, %dl
	je	.Lnoise_BB23_106
	jmp	.Lnoise_BB23_206
.Lnoise_BB23_110:
	movq	40(%rsp), %r11
.Lnoise_BB23_111:
	movq	64(%rsp), %rbx
.Lnoise_BB23_112:
	movzbl	3(%rsp), %r10d
.Lnoise_BB23_113:
	movb	$1, 16(%rsp)
	movb	$1, %r15b
	jmp	.Lnoise_BB23_139
.Lnoise_BB23_114:
	movq	32(%rsp), %r15
	movq	40(%rsp), %r11
	movq	64(%rsp), %rbx
	jmp	.Lnoise_BB23_138
.Lnoise_BB23_115:
	movq	32(%rsp), %r15
	movq	40(%rsp), %r11
	movq	64(%rsp), %rbx
	jmp	.Lnoise_BB23_68
.Lnoise_BB23_116:
	movq	32(%rsp), %r15
	movq	40(%rsp), %r11
	movq	64(%rsp), %rbx
	jmp	.Lnoise_BB23_144
.Lnoise_BB23_117:
	cmpq	%rbp, 176(%rsp)
	movzbl	3(%rsp), %r10d
	je	.Lnoise_BB23_169
	movq	88(%rsp), %r8
	movq	136(%rsp), %rdi
.Lnoise_BB23_119:
	movzbl	(%rdi,%rbp), %eax
	leaq	.Lnoise_JTI23_7(%rip), %rdx
	movslq	(%rdx,%rax,4), %r9
	addq	%rdx, %r9
	movl	%r13d, %edx
	movl	%esi, %edi
	notrack jmpq	*%r9
.Lnoise_BB23_120:
	movq	152(%rsp), %rcx
	movzbl	8(%rsp,%rcx,2), %edi
	leal	(%rdi,%rdi), %edx
	jmp	.Lnoise_BB23_124
.Lnoise_BB23_121:
	movl	%ebx, %edx
	movl	%r11d, %edi
	testb	$1, 5(%rsp)
	jne	.Lnoise_BB23_124
	jmp	.Lnoise_BB23_204
.Lnoise_BB23_122:
	movl	128(%rsp), %edx
	movzbl	22(%rsp), %ecx
	movl	%ecx, %edi
	testb	$1, 5(%rsp)
	jne	.Lnoise_BB23_124
	jmp	.Lnoise_BB23_204
.Lnoise_BB23_123:
	movl	132(%rsp), %edx
	movzbl	23(%rsp), %ecx
	movl	%ecx, %edi
.Lnoise_BB23_124:
	cmpb	$1, %dil
	je	.Lnoise_BB23_205
	cmpl	$1, %eax
	jne	.Lnoise_BB23_130
	incq	%rbp
	cmpq	%rbp, 176(%rsp)
	movq	136(%rsp), %rdi
	jne	.Lnoise_BB23_119
	jmp	.Lnoise_BB23_165
.Lnoise_BB23_127:
	movb	$1, %al
	movq	%rax, 96(%rsp)
	movb	$1, %al
	movl	%eax, 28(%rsp)
	movb	$1, 7(%rsp)
	movq	32(%rsp), %r15
	movq	40(%rsp), %r11
	movq	64(%rsp), %rbx
	jmp	.Lnoise_BB23_73
.Lnoise_BB23_128:
	decl	%eax
	leaq	.Lnoise_JTI23_10(%rip), %rcx
	movslq	(%rcx,%rax,4), %rax
	addq	%rcx, %rax
	movq	64(%rsp), %rbx
	notrack jmpq	*%rax
.Lnoise_BB23_129:
	incq	%rbp
	movq	%r8, %r11
	movb	%r11b, 5(%rsp)
	movl	%r11d, %ebx
	movb	%r11b, 4(%rsp)
	jmp	.Lnoise_BB23_73
.Lnoise_BB23_130:
	movl	%eax, %eax
	leaq	.Lnoise_JTI23_8(%rip), %rdx
	movslq	(%rdx,%rax,4), %rax
	addq	%rdx, %rax
	notrack jmpq	*%rax
.Lnoise_BB23_131:
	incq	%rbp
	movb	$1, %al
	movq	%rax, 64(%rsp)
	movb	$1, 4(%rsp)
	movb	$1, %dl
	movq	72(%rsp), %r12
	jmp	.Lnoise_BB23_88
.Lnoise_BB23_132:
	incq	%rbp
	movb	$1, %r11b
	movb	$1, %al
	movq	%rax, 96(%rsp)
	movb	$1, 5(%rsp)
	movb	$1, %al
	movl	%eax, 28(%rsp)
	movb	$1, 7(%rsp)
	jmp	.Lnoise_BB23_73
.Lnoise_BB23_133:
	incq	%rbp
	movb	$1, %r11b
	movb	$1, 5(%rsp)
	jmp	.Lnoise_BB23_144
.Lnoise_BB23_134:
	incq	%rbp
	movb	$1, %r11b
	movb	$1, 5(%rsp)
	jmp	.Lnoise_BB23_138
.Lnoise_BB23_135:
	incq	%rbp
	movb	$1, %r11b
	movb	$1, 5(%rsp)
	jmp	.Lnoise_BB23_68
.Lnoise_BB23_136:
	incq	%rbp
	movb	$1, %bl
	movb	$1, 4(%rsp)
.Lnoise_BB23_137:
	movq	32(%rsp), %r15
	movq	40(%rsp), %r11
	movq	72(%rsp), %r12
.Lnoise_BB23_138:
	movzbl	3(%rsp), %r10d
	movb	$1, 14(%rsp)
	movb	$1, 26(%rsp)
	movb	$1, %al
	movq	%rax, 120(%rsp)
.Lnoise_BB23_139:
	movzbl	6(%rsp), %esi
.Lnoise_BB23_140:
	movl	%r14d, %r13d
	incq	%rbp
	cmpq	160(%rsp), %rbp
	jne	.Lnoise_BB23_50
	jmp	.Lnoise_BB23_163
.Lnoise_BB23_141:
	incq	%rbp
	movb	$1, %bl
	movb	$1, 4(%rsp)
	jmp	.Lnoise_BB23_67
.Lnoise_BB23_142:
	incq	%rbp
	movb	$1, %bl
	movb	$1, 4(%rsp)
.Lnoise_BB23_143:
	movq	32(%rsp), %r15
	movq	40(%rsp), %r11
	movq	72(%rsp), %r12
.Lnoise_BB23_144:
	movzbl	3(%rsp), %r10d
	movb	$1, 13(%rsp)
	movb	$1, 25(%rsp)
	movb	$1, %sil
	movb	$1, %r13b
	movb	$1, %al
	movq	%rax, 112(%rsp)
	movb	$1, 24(%rsp)
	incq	%rbp
	cmpq	160(%rsp), %rbp
	jne	.Lnoise_BB23_50
	jmp	.Lnoise_BB23_163
.Lnoise_BB23_145:
	incq	%rbp
	movb	$1, %al
	movq	%rax, 96(%rsp)
	movb	$1, %bl
	movb	$1, %al
	movl	%eax, 28(%rsp)
	movb	$1, 7(%rsp)
	movb	$1, 4(%rsp)
	jmp	.Lnoise_BB23_72
.Lnoise_BB23_146:
	incq	%rbp
	movb	$1, %bl
	movb	$1, 4(%rsp)
	movq	40(%rsp), %r11
	jmp	.Lnoise_BB23_113
.Lnoise_BB23_147:
	incq	%rbp
	movb	$1, %r11b
	movb	$1, 5(%rsp)
	jmp	.Lnoise_BB23_111
.Lnoise_BB23_148:
	movb	$1, 10(%rsp)
	movb	$1, %r12b
	cmpq	%rbp, 176(%rsp)
	leaq	1(%rbp), %rbp
	movq	88(%rsp), %r8
	movq	32(%rsp), %r15
	movq	40(%rsp), %r11
	movzbl	2(%rsp), %ecx
	movq	136(%rsp), %rdi
	movq	144(%rsp), %rdx
	movzbl	6(%rsp), %esi
	jne	.Lnoise_BB23_49
	jmp	.Lnoise_BB23_155
.Lnoise_BB23_149:
	testb	$1, 80(%rsp)
	jne	.Lnoise_BB23_155
.Lnoise_BB23_150:
	cmpb	$1, 120(%rsp)
	jne	.Lnoise_BB23_152
	testb	$1, 104(%rsp)
	je	.Lnoise_BB23_193
.Lnoise_BB23_152:
	testb	$1, 28(%rsp)
	movq	48(%rsp), %r14
	je	.Lnoise_BB23_161
	leaq	13(%rsp), %rax
	jmp	.Lnoise_BB23_159
.Lnoise_BB23_154:
	movq	88(%rsp), %r8
	movq	32(%rsp), %r15
	movq	40(%rsp), %r11
	movq	64(%rsp), %rbx
	movq	72(%rsp), %r12
	movzbl	2(%rsp), %ecx
	movq	136(%rsp), %rdi
	movq	144(%rsp), %rdx
.Lnoise_BB23_155:
	cmpb	$1, 112(%rsp)
	jne	.Lnoise_BB23_157
	testb	$1, 104(%rsp)
	je	.Lnoise_BB23_193
.Lnoise_BB23_157:
	cmpb	$1, 28(%rsp)
	movq	48(%rsp), %r14
	jne	.Lnoise_BB23_161
	leaq	14(%rsp), %rax
.Lnoise_BB23_159:
	movb	$1, %sil
	movl	%esi, 28(%rsp)
	cmpb	$1, (%rax)
	jne	.Lnoise_BB23_198
	cmpb	$1, %r15b
	jne	.Lnoise_BB23_46
	jmp	.Lnoise_BB23_162
.Lnoise_BB23_161:
	movl	$0, 28(%rsp)
	cmpb	$1, %r15b
	jne	.Lnoise_BB23_46
.Lnoise_BB23_162:
	movzbl	80(%rsp), %eax
	cmpb	$1, 8(%rsp,%rax,2)
	je	.Lnoise_BB23_46
	jmp	.Lnoise_BB23_199
.Lnoise_BB23_163:
	testb	$1, 80(%rsp)
	movq	88(%rsp), %r8
	movzbl	2(%rsp), %ecx
	movq	136(%rsp), %rdi
	movq	144(%rsp), %rdx
	jne	.Lnoise_BB23_155
	jmp	.Lnoise_BB23_150
.Lnoise_BB23_164:
	movb	$1, %r11b
	movq	88(%rsp), %r8
	jmp	.Lnoise_BB23_167
.Lnoise_BB23_165:
	movq	32(%rsp), %r15
	movq	40(%rsp), %r11
	movb	$1, %bl
	jmp	.Lnoise_BB23_168
.Lnoise_BB23_166:
	movb	$1, %r11b
	movq	88(%rsp), %r8
	movq	32(%rsp), %r15
.Lnoise_BB23_167:
	movq	64(%rsp), %rbx
.Lnoise_BB23_168:
	movzbl	2(%rsp), %ecx
	movq	144(%rsp), %rdx
	jmp	.Lnoise_BB23_150
.Lnoise_BB23_169:
	movq	88(%rsp), %r8
	movq	32(%rsp), %r15
	movq	40(%rsp), %r11
	movb	$1, %bl
	movzbl	2(%rsp), %ecx
	movq	136(%rsp), %rdi
	movq	144(%rsp), %rdx
	jmp	.Lnoise_BB23_150
.Lnoise_BB23_170:
	leal	1(%r8), %eax
	movb	$4, %cl
	cmpb	$1, 120(%rsp)
	jne	.Lnoise_BB23_172
	testb	$1, 104(%rsp)
	je	.Lnoise_BB23_176
.Lnoise_BB23_172:
	movq	96(%rsp), %rsi
	xorb	$1, %sil
	movq	%rsi, %rdx
	testb	$1, %sil
	jne	.Lnoise_BB23_174
	testb	$1, 112(%rsp)
	je	.Lnoise_BB23_176
.Lnoise_BB23_174:
	xorb	$1, %r15b
	testb	$1, %r15b
	jne	.Lnoise_BB23_181
	movb	$5, %cl
	testb	$1, %r11b
	jne	.Lnoise_BB23_181
.Lnoise_BB23_176:
	movzbl	%al, %eax
	shll	$8, %eax
	movzbl	%cl, %ecx
	jmp	.Lnoise_BB23_191
.Lnoise_BB23_177:
	movb	$2, %dil
.Lnoise_BB23_178:
	movb	%cl, 8(%rsp)
.Lnoise_BB23_179:
	shll	$16, %eax
	movzbl	%dil, %ecx
	orl	%eax, %ecx
	jmp	.Lnoise_BB23_192
.Lnoise_BB23_186:
	movb	$1, %r11b
.Lnoise_BB23_187:
	movb	%r8b, 16(%rsp)
	movb	%dil, 14(%rsp)
	movb	%sil, 13(%rsp)
	movzbl	80(%rsp), %eax
	movb	%al, 12(%rsp)
	movzbl	4(%rsp), %eax
	movb	%al, 10(%rsp)
	shll	$16, %r9d
	movzbl	%r11b, %ecx
	orl	%r9d, %ecx
	jmp	.Lnoise_BB23_192
.Lnoise_BB23_180:
	movb	$1, %bl
	jmp	.Lnoise_BB23_189
.Lnoise_BB23_181:
	cmpq	$1, %r8
	jne	.Lnoise_BB23_194
.Lnoise_BB23_182:
	leaq	472(%rsp), %r15
	movl	$272, %edx
	movq	%r15, %rdi
	movq	192(%rsp), %rsi
	callq	memcpy@PLT
	movb	$0, (%r14)
	movb	$0, 3(%r14)
	movw	$0, 1(%r14)
	addq	$8, %r14
	movl	$272, %edx
	movq	%r14, %rdi
	movq	%r15, %rsi
	callq	memcpy@PLT
	addq	$744, %rsp
	.cfi_def_cfa_offset 56
	popq	%rbx
	.cfi_def_cfa_offset 48
	popq	%r12
	.cfi_def_cfa_offset 40
	popq	%r13
	.cfi_def_cfa_offset 32
	popq	%r14
	.cfi_def_cfa_offset 24
	popq	%r15
	.cfi_def_cfa_offset 16
	popq	%rbp
	.cfi_def_cfa_offset 8
	retq
.Lnoise_BB23_188:
	.cfi_def_cfa_offset 800
	movb	$2, %bl
.Lnoise_BB23_189:
	movq	48(%rsp), %r14
	movzbl	2(%rsp), %ecx
.Lnoise_BB23_190:
	shll	$16, %ebp
	movzbl	%cl, %eax
	shll	$8, %eax
	orl	%ebp, %eax
	movzbl	%bl, %ecx
.Lnoise_BB23_191:
	orl	%eax, %ecx
.Lnoise_BB23_192:
	movb	$1, (%r14)
	movw	%cx, 1(%r14)
	shrl	$16, %ecx
	movb	%cl, 3(%r14)
	addq	$8, %r14
	movl	$272, %edx
	movq	%r14, %rdi
	xorl	%esi, %esi
	addq	$744, %rsp
	.cfi_def_cfa_offset 56
	popq	%rbx
	.cfi_def_cfa_offset 48
	popq	%r12
	.cfi_def_cfa_offset 40
	popq	%r13
	.cfi_def_cfa_offset 32
	popq	%r14
	.cfi_def_cfa_offset 24
	popq	%r15
	.cfi_def_cfa_offset 16
	popq	%rbp
	.cfi_def_cfa_offset 8
	jmp	memset@PLT
.Lnoise_BB23_193:
	.cfi_def_cfa_offset 800
	movb	$4, %bl
	movq	160(%rsp), %rbp
	movq	48(%rsp), %r14
	jmp	.Lnoise_BB23_190
.Lnoise_BB23_194:
	movq	120(%rsp), %rsi
	orb	%dl, %sil
	movb	$4, %cl
	testb	$1, %sil
	je	.Lnoise_BB23_197
	movq	112(%rsp), %rdx
	xorb	$1, %dl
	orb	104(%rsp), %dl
	testb	$1, %dl
	je	.Lnoise_BB23_197
	orb	%r12b, %r15b
	movb	$5, %cl
	testb	$1, %r15b
	jne	.Lnoise_BB23_182
.Lnoise_BB23_197:
	movzbl	%al, %eax
	shll	$8, %eax
	movzbl	%cl, %ecx
	addl	%eax, %ecx
	addl	$65536, %ecx
	jmp	.Lnoise_BB23_192
.Lnoise_BB23_198:
	movb	$4, %bl
	movq	160(%rsp), %rbp
	jmp	.Lnoise_BB23_190
.Lnoise_BB23_199:
	movb	$5, %bl
	movq	160(%rsp), %rbp
	jmp	.Lnoise_BB23_190
.Lnoise_BB23_200:
	movl	%r10d, %ebx
	jmp	.Lnoise_BB23_189
.Lnoise_BB23_204:
	movb	$1, %dl
	jmp	.Lnoise_BB23_205
.Lnoise_BB23_201:
	movb	$1, %dil
	jmp	.Lnoise_BB23_207
.Lnoise_BB23_202:
	movb	$2, %dl
.Lnoise_BB23_205:
	incq	%rbp
	movl	%edx, %ebx
	jmp	.Lnoise_BB23_189
.Lnoise_BB23_206:
	movb	$2, %dil
.Lnoise_BB23_207:
	incq	%rbp
	movl	%edi, %ebx
	jmp	.Lnoise_BB23_189
.Lnoise_BB23_208:
	ud2
.Lnoise_func_end23:
	.size	"noise_names::pattern::Pattern::check", .Lnoise_func_end23-"noise_names::pattern::Pattern::check"
	.cfi_endproc
	.section	".rodata.noise_names::pattern::Pattern::check","a",@progbits
	.p2align	2, 0x0
.Lnoise_JTI23_0:
	.long	.Lnoise_BB23_5-.Lnoise_JTI23_0
	.long	.Lnoise_BB23_6-.Lnoise_JTI23_0
	.long	.Lnoise_BB23_41-.Lnoise_JTI23_0
	.long	.Lnoise_BB23_41-.Lnoise_JTI23_0
	.long	.Lnoise_BB23_41-.Lnoise_JTI23_0
	.long	.Lnoise_BB23_41-.Lnoise_JTI23_0
	.long	.Lnoise_BB23_2-.Lnoise_JTI23_0
.Lnoise_JTI23_1:
	.long	.Lnoise_BB23_16-.Lnoise_JTI23_1
	.long	.Lnoise_BB23_24-.Lnoise_JTI23_1
	.long	.Lnoise_BB23_19-.Lnoise_JTI23_1
	.long	.Lnoise_BB23_22-.Lnoise_JTI23_1
	.long	.Lnoise_BB23_17-.Lnoise_JTI23_1
	.long	.Lnoise_BB23_26-.Lnoise_JTI23_1
	.long	.Lnoise_BB23_13-.Lnoise_JTI23_1
.Lnoise_JTI23_2:
	.long	.Lnoise_BB23_32-.Lnoise_JTI23_2
	.long	.Lnoise_BB23_36-.Lnoise_JTI23_2
	.long	.Lnoise_BB23_34-.Lnoise_JTI23_2
	.long	.Lnoise_BB23_35-.Lnoise_JTI23_2
	.long	.Lnoise_BB23_33-.Lnoise_JTI23_2
	.long	.Lnoise_BB23_37-.Lnoise_JTI23_2
.Lnoise_JTI23_3:
	.long	.Lnoise_BB23_53-.Lnoise_JTI23_3
	.long	.Lnoise_BB23_57-.Lnoise_JTI23_3
	.long	.Lnoise_BB23_55-.Lnoise_JTI23_3
	.long	.Lnoise_BB23_56-.Lnoise_JTI23_3
	.long	.Lnoise_BB23_54-.Lnoise_JTI23_3
	.long	.Lnoise_BB23_62-.Lnoise_JTI23_3
	.long	.Lnoise_BB23_74-.Lnoise_JTI23_3
.Lnoise_JTI23_4:
	.long	.Lnoise_BB23_148-.Lnoise_JTI23_4
	.long	.Lnoise_BB23_208-.Lnoise_JTI23_4
	.long	.Lnoise_BB23_67-.Lnoise_JTI23_4
	.long	.Lnoise_BB23_143-.Lnoise_JTI23_4
	.long	.Lnoise_BB23_137-.Lnoise_JTI23_4
	.long	.Lnoise_BB23_71-.Lnoise_JTI23_4
.Lnoise_JTI23_5:
	.long	.Lnoise_BB23_70-.Lnoise_JTI23_5
	.long	.Lnoise_BB23_79-.Lnoise_JTI23_5
	.long	.Lnoise_BB23_76-.Lnoise_JTI23_5
	.long	.Lnoise_BB23_77-.Lnoise_JTI23_5
	.long	.Lnoise_BB23_75-.Lnoise_JTI23_5
	.long	.Lnoise_BB23_84-.Lnoise_JTI23_5
	.long	.Lnoise_BB23_110-.Lnoise_JTI23_5
.Lnoise_JTI23_6:
	.long	.Lnoise_BB23_88-.Lnoise_JTI23_6
	.long	.Lnoise_BB23_117-.Lnoise_JTI23_6
	.long	.Lnoise_BB23_115-.Lnoise_JTI23_6
	.long	.Lnoise_BB23_116-.Lnoise_JTI23_6
	.long	.Lnoise_BB23_114-.Lnoise_JTI23_6
	.long	.Lnoise_BB23_127-.Lnoise_JTI23_6
.Lnoise_JTI23_7:
	.long	.Lnoise_BB23_120-.Lnoise_JTI23_7
	.long	.Lnoise_BB23_202-.Lnoise_JTI23_7
	.long	.Lnoise_BB23_122-.Lnoise_JTI23_7
	.long	.Lnoise_BB23_121-.Lnoise_JTI23_7
	.long	.Lnoise_BB23_123-.Lnoise_JTI23_7
	.long	.Lnoise_BB23_124-.Lnoise_JTI23_7
	.long	.Lnoise_BB23_146-.Lnoise_JTI23_7
.Lnoise_JTI23_8:
	.long	.Lnoise_BB23_131-.Lnoise_JTI23_8
	.long	.Lnoise_BB23_208-.Lnoise_JTI23_8
	.long	.Lnoise_BB23_141-.Lnoise_JTI23_8
	.long	.Lnoise_BB23_142-.Lnoise_JTI23_8
	.long	.Lnoise_BB23_136-.Lnoise_JTI23_8
	.long	.Lnoise_BB23_145-.Lnoise_JTI23_8
.Lnoise_JTI23_9:
	.long	.Lnoise_BB23_91-.Lnoise_JTI23_9
	.long	.Lnoise_BB23_93-.Lnoise_JTI23_9
	.long	.Lnoise_BB23_96-.Lnoise_JTI23_9
	.long	.Lnoise_BB23_106-.Lnoise_JTI23_9
	.long	.Lnoise_BB23_92-.Lnoise_JTI23_9
	.long	.Lnoise_BB23_97-.Lnoise_JTI23_9
	.long	.Lnoise_BB23_147-.Lnoise_JTI23_9
.Lnoise_JTI23_10:
	.long	.Lnoise_BB23_129-.Lnoise_JTI23_10
	.long	.Lnoise_BB23_135-.Lnoise_JTI23_10
	.long	.Lnoise_BB23_133-.Lnoise_JTI23_10
	.long	.Lnoise_BB23_134-.Lnoise_JTI23_10
	.long	.Lnoise_BB23_132-.Lnoise_JTI23_10

	.section	".text.noise_names::name::ProtocolName::parse","ax",@progbits
	.p2align	4
	.type	"noise_names::name::ProtocolName::parse",@function
"noise_names::name::ProtocolName::parse":
	.cfi_startproc
	pushq	%r15
	.cfi_def_cfa_offset 16
	pushq	%r14
	.cfi_def_cfa_offset 24
	pushq	%r12
	.cfi_def_cfa_offset 32
	pushq	%rbx
	.cfi_def_cfa_offset 40
	subq	$104, %rsp
	.cfi_def_cfa_offset 144
	.cfi_offset %rbx, -40
	.cfi_offset %r12, -32
	.cfi_offset %r14, -24
	.cfi_offset %r15, -16
	pxor	%xmm0, %xmm0
	movdqu	%xmm0, 30(%rsp)
	movdqa	%xmm0, 16(%rsp)
	movdqa	%xmm0, (%rsp)
	movdqa	%xmm0, 80(%rsp)
	movdqa	%xmm0, 64(%rsp)
	movdqa	%xmm0, 48(%rsp)
	cmpq	$256, %rdx
	jb	.Lnoise_BB24_2
	movdqu	%xmm0, 22(%rsp)
	movdqu	%xmm0, 6(%rsp)
	movq	$0, 38(%rsp)
	movb	$1, %cl
.Lnoise_BB24_16:
	xorl	%eax, %eax
	jmp	.Lnoise_BB24_17
.Lnoise_BB24_2:
	cmpq	$6, %rdx
	jb	.Lnoise_BB24_18
	cmpb	$105, 2(%rsi)
	sete	%al
	cmpb	$115, 3(%rsi)
	sete	%cl
	movzwl	(%rsi), %r8d
	movd	%r8d, %xmm0
	pinsrw	$1, 4(%rsi), %xmm0
	movd	%xmm0, %r8d
	cmpl	$1600483150, %r8d
	sete	%r8b
	andb	%al, %cl
	andb	%r8b, %cl
	addq	$6, %rsi
	addq	$-6, %rdx
	xorl	%r12d, %r12d
	testb	%cl, %cl
	movl	$0, %ebx
	cmovneq	%rsi, %rbx
	cmovneq	%rdx, %r12
	cmpb	$1, %cl
	jne	.Lnoise_BB24_18
	testq	%rdx, %rdx
	movq	%rdi, %r15
	je	.Lnoise_BB24_5
	xorl	%r14d, %r14d
	.p2align	4
.Lnoise_BB24_7:
	cmpb	$95, (%rsi,%r14)
	je	.Lnoise_BB24_10
	incq	%r14
	cmpq	%r14, %rdx
	jne	.Lnoise_BB24_7
	movq	%r12, %r14
	jmp	.Lnoise_BB24_10
.Lnoise_BB24_18:
	pxor	%xmm0, %xmm0
	movdqu	%xmm0, 22(%rsp)
	movdqu	%xmm0, 6(%rsp)
	movq	$0, 38(%rsp)
	movb	$1, %cl
	movb	$1, %al
.Lnoise_BB24_17:
	movb	%cl, (%rdi)
	movb	%al, 1(%rdi)
	movups	6(%rsp), %xmm0
	movups	22(%rsp), %xmm1
	movups	%xmm0, 8(%rdi)
	movups	%xmm1, 24(%rdi)
	movq	38(%rsp), %rax
	movq	%rax, 40(%rdi)
	addq	$104, %rsp
	.cfi_def_cfa_offset 40
	popq	%rbx
	.cfi_def_cfa_offset 32
	popq	%r12
	.cfi_def_cfa_offset 24
	popq	%r14
	.cfi_def_cfa_offset 16
	popq	%r15
	.cfi_def_cfa_offset 8
	retq
.Lnoise_BB24_5:
	.cfi_def_cfa_offset 144
	xorl	%r14d, %r14d
.Lnoise_BB24_10:
	leaq	48(%rsp), %rdi
	movq	%rbx, %rsi
	movq	%r14, %rdx
	callq	"noise_names::section::parse_section"
	cmpb	$0, 48(%rsp)
	je	.Lnoise_BB24_11
	movzbl	49(%rsp), %eax
	pxor	%xmm0, %xmm0
	movdqu	%xmm0, 6(%rsp)
	movdqu	%xmm0, 22(%rsp)
	movq	$0, 38(%rsp)
	movb	$1, %cl
	movq	%r15, %rdi
	jmp	.Lnoise_BB24_17
.Lnoise_BB24_11:
	subq	%r14, %r12
	cmpq	$24, %r12
	movq	%r15, %rdi
	jne	.Lnoise_BB24_14
	addq	%r14, %rbx
	cmpl	$892678751, (%rbx)
	jne	.Lnoise_BB24_14
	leaq	.Lnoise_static.98(%rip), %rdx
	movl	$24, %esi
	movq	%rbx, %rdi
	callq	"core::cmp::slices::groups_equal::<i8,31'core::cmp::numbers::U8PartialEq{}>"
	movq	%r15, %rdi
	testb	%al, %al
	je	.Lnoise_BB24_14
	leaq	56(%rsp), %rax
	movq	32(%rax), %rcx
	movq	%rcx, 38(%rsp)
	movdqu	(%rax), %xmm0
	movups	16(%rax), %xmm1
	movups	%xmm1, 22(%rsp)
	movdqu	%xmm0, 6(%rsp)
	xorl	%ecx, %ecx
	jmp	.Lnoise_BB24_16
.Lnoise_BB24_14:
	pxor	%xmm0, %xmm0
	movdqu	%xmm0, 22(%rsp)
	movdqu	%xmm0, 6(%rsp)
	movq	$0, 38(%rsp)
	movb	$5, %al
	movb	$1, %cl
	jmp	.Lnoise_BB24_17
.Lnoise_func_end24:
	.size	"noise_names::name::ProtocolName::parse", .Lnoise_func_end24-"noise_names::name::ProtocolName::parse"
	.cfi_endproc

	.section	".text.noise_c::from_c::restored","ax",@progbits
	.p2align	4
	.type	"noise_c::from_c::restored",@function
"noise_c::from_c::restored":
	.cfi_startproc
	pushq	%rbp
	.cfi_def_cfa_offset 16
	pushq	%r15
	.cfi_def_cfa_offset 24
	pushq	%r14
	.cfi_def_cfa_offset 32
	pushq	%r13
	.cfi_def_cfa_offset 40
	pushq	%r12
	.cfi_def_cfa_offset 48
	pushq	%rbx
	.cfi_def_cfa_offset 56
	subq	$3072, %rsp
	.cfi_adjust_cfa_offset 3072
	movq	$0, (%rsp)
	subq	$520, %rsp
	.cfi_def_cfa_offset 3648
	.cfi_offset %rbx, -56
	.cfi_offset %r12, -48
	.cfi_offset %r13, -40
	.cfi_offset %r14, -32
	.cfi_offset %r15, -24
	.cfi_offset %rbp, -16
	movq	%rdx, %rbx
	movq	%rsi, %r15
	movq	%rdi, 568(%rsp)
	leaq	2744(%rsp), %rdi
	xorl	%ebp, %ebp
	movl	$272, %edx
	xorl	%esi, %esi
	callq	memset@PLT
	movl	$0, 16(%rsp)
	movw	$0, 20(%rsp)
	xorps	%xmm0, %xmm0
	movaps	%xmm0, 528(%rsp)
	movaps	%xmm0, 544(%rsp)
	movaps	%xmm0, 496(%rsp)
	movaps	%xmm0, 512(%rsp)
	leaq	3018(%rsp), %rdi
	movl	$302, %edx
	xorl	%esi, %esi
	callq	memset@PLT
	xorps	%xmm0, %xmm0
	movaps	%xmm0, 240(%rsp)
	movaps	%xmm0, 256(%rsp)
	movaps	%xmm0, 272(%rsp)
	movups	%xmm0, 286(%rsp)
	movaps	%xmm0, 432(%rsp)
	movaps	%xmm0, 448(%rsp)
	movaps	%xmm0, 464(%rsp)
	movaps	%xmm0, 480(%rsp)
	movaps	%xmm0, 400(%rsp)
	movaps	%xmm0, 416(%rsp)
	movl	$0, 32(%rsp)
	movl	$0, 35(%rsp)
	leaq	3320(%rsp), %rdi
	movl	$272, %edx
	xorl	%esi, %esi
	callq	memset@PLT
	xorps	%xmm2, %xmm2
	movl	$0, 72(%rsp)
	movl	$0, 75(%rsp)
	movaps	%xmm2, 368(%rsp)
	movaps	%xmm2, 384(%rsp)
	movaps	%xmm2, 336(%rsp)
	movaps	%xmm2, 352(%rsp)
	movaps	%xmm2, 160(%rsp)
	movaps	%xmm2, 176(%rsp)
	movaps	%xmm2, 192(%rsp)
	movaps	%xmm2, 208(%rsp)
	movl	$0, 224(%rsp)
	movaps	%xmm2, 304(%rsp)
	movaps	%xmm2, 320(%rsp)
	movl	$0, 64(%rsp)
	movl	$0, 67(%rsp)
	movzbl	557(%r15), %eax
	movaps	%xmm2, 576(%rsp)
	movaps	%xmm2, 592(%rsp)
	movaps	%xmm2, 832(%rsp)
	movaps	%xmm2, 848(%rsp)
	movaps	%xmm2, 864(%rsp)
	movaps	%xmm2, 880(%rsp)
	movaps	%xmm2, 1328(%rsp)
	movaps	%xmm2, 1344(%rsp)
	movaps	%xmm2, 1360(%rsp)
	movaps	%xmm2, 1376(%rsp)
	movl	$0, 1392(%rsp)
	movzbl	422(%r15), %ecx
	movb	%cl, 40(%rsp)
	movzbl	846(%r15), %r13d
	movaps	%xmm2, 1840(%rsp)
	movaps	%xmm2, 1824(%rsp)
	cmpb	$0, 491(%r15)
	je	.Lnoise_BB25_2
	movups	492(%r15), %xmm0
	movups	508(%r15), %xmm1
	movaps	%xmm1, 1840(%rsp)
	movaps	%xmm0, 1824(%rsp)
	movb	$1, %bpl
.Lnoise_BB25_2:
	movq	%rbp, 104(%rsp)
	movaps	1824(%rsp), %xmm0
	movaps	1840(%rsp), %xmm1
	movaps	%xmm1, 2448(%rsp)
	movaps	%xmm0, 2432(%rsp)
	movaps	%xmm2, 1840(%rsp)
	movaps	%xmm2, 1824(%rsp)
	cmpb	$0, 524(%r15)
	movq	%rax, 152(%rsp)
	je	.Lnoise_BB25_3
	movups	525(%r15), %xmm0
	movups	541(%r15), %xmm1
	movaps	%xmm1, 1840(%rsp)
	movaps	%xmm0, 1824(%rsp)
	movb	$1, %al
	movq	%rax, 56(%rsp)
	jmp	.Lnoise_BB25_5
.Lnoise_BB25_3:
	movq	$0, 56(%rsp)
.Lnoise_BB25_5:
	movaps	1824(%rsp), %xmm0
	movaps	1840(%rsp), %xmm1
	movaps	%xmm1, 2144(%rsp)
	movaps	%xmm0, 2128(%rsp)
	movzbl	423(%r15), %ebp
	movzbl	424(%r15), %eax
	movq	%rax, 48(%rsp)
	movzbl	%al, %eax
	movq	%rax, 24(%rsp)
	xorps	%xmm0, %xmm0
	movaps	%xmm0, 1840(%rsp)
	movaps	%xmm0, 1824(%rsp)
	cmpb	$0, 1431(%r15)
	je	.Lnoise_BB25_6
	movups	1432(%r15), %xmm0
	movups	1448(%r15), %xmm1
	movaps	%xmm1, 1840(%rsp)
	movaps	%xmm0, 1824(%rsp)
	movb	$1, %r14b
	jmp	.Lnoise_BB25_8
.Lnoise_BB25_6:
	xorl	%r14d, %r14d
.Lnoise_BB25_8:
	movaps	1824(%rsp), %xmm0
	movaps	1840(%rsp), %xmm1
	movaps	%xmm1, 592(%rsp)
	movaps	%xmm0, 576(%rsp)
	movq	1464(%r15), %r12
	movups	1367(%r15), %xmm0
	movups	1383(%r15), %xmm1
	movaps	%xmm1, 848(%rsp)
	movaps	%xmm0, 832(%rsp)
	movups	1399(%r15), %xmm2
	movups	1415(%r15), %xmm3
	movaps	%xmm2, 864(%rsp)
	movaps	%xmm3, 880(%rsp)
	movups	%xmm2, 1364(%rsp)
	movups	%xmm3, 1380(%rsp)
	movups	%xmm1, 1348(%rsp)
	movups	%xmm0, 1332(%rsp)
	leaq	3320(%rsp), %rdi
	movl	$272, %edx
	movq	%rbx, %rsi
	callq	memcpy@PLT
	movl	$0, 72(%rsp)
	movl	$0, 75(%rsp)
	movaps	2432(%rsp), %xmm0
	movaps	2448(%rsp), %xmm1
	movaps	%xmm0, 368(%rsp)
	movaps	%xmm1, 384(%rsp)
	movaps	2128(%rsp), %xmm0
	movaps	2144(%rsp), %xmm1
	movaps	%xmm0, 336(%rsp)
	movaps	%xmm1, 352(%rsp)
	movaps	1328(%rsp), %xmm0
	movaps	1344(%rsp), %xmm1
	movaps	1360(%rsp), %xmm2
	movaps	1376(%rsp), %xmm3
	movaps	%xmm0, 160(%rsp)
	movaps	%xmm1, 176(%rsp)
	movaps	%xmm2, 192(%rsp)
	movaps	%xmm3, 208(%rsp)
	movl	1392(%rsp), %eax
	movl	%eax, 224(%rsp)
	movaps	576(%rsp), %xmm0
	movaps	592(%rsp), %xmm1
	movaps	%xmm1, 320(%rsp)
	movaps	%xmm0, 304(%rsp)
	movl	$0, 64(%rsp)
	movl	$0, 67(%rsp)
	leaq	2128(%rsp), %rdi
	movl	$296, %edx
	xorl	%esi, %esi
	callq	memset@PLT
	leaq	2432(%rsp), %rdi
	movl	$302, %edx
	xorl	%esi, %esi
	callq	memset@PLT
	xorps	%xmm0, %xmm0
	movaps	%xmm0, 640(%rsp)
	movaps	%xmm0, 656(%rsp)
	movaps	%xmm0, 672(%rsp)
	movups	%xmm0, 686(%rsp)
	leaq	832(%rsp), %rdi
	movl	$272, %edx
	movq	%rbx, %rsi
	callq	memcpy@PLT
	cmpb	$0, 40(%rsp)
	setne	1104(%rsp)
	setne	%al
	movq	%rax, 96(%rsp)
	testb	%bpl, %bpl
	setne	%al
	movq	%rax, 112(%rsp)
	movl	$0, 1105(%rsp)
	movl	$0, 1108(%rsp)
	leaq	425(%r15), %rax
	movq	%rax, 144(%rsp)
	leaq	425(%r15), %rax
	movq	%rax, 1112(%rsp)
	leaq	458(%r15), %rax
	movq	%rax, 136(%rsp)
	leaq	458(%r15), %rax
	movq	%rax, 1120(%rsp)
	leaq	847(%r15), %rax
	movq	%rax, 120(%rsp)
	leaq	847(%r15), %rax
	movq	%rax, 1128(%rsp)
	movq	%r13, 128(%rsp)
	movq	%r13, 1136(%rsp)
	movq	104(%rsp), %rax
	movb	%al, 1144(%rsp)
	movaps	368(%rsp), %xmm0
	movaps	384(%rsp), %xmm1
	movups	%xmm0, 1145(%rsp)
	movups	%xmm1, 1161(%rsp)
	movq	56(%rsp), %rax
	movb	%al, 1177(%rsp)
	movaps	336(%rsp), %xmm0
	movaps	352(%rsp), %xmm1
	movups	%xmm0, 1178(%rsp)
	movups	%xmm1, 1194(%rsp)
	movq	48(%rsp), %rax
	movb	%al, 1210(%rsp)
	setne	1211(%rsp)
	movl	224(%rsp), %eax
	movl	%eax, 1276(%rsp)
	movaps	160(%rsp), %xmm0
	movaps	176(%rsp), %xmm1
	movaps	192(%rsp), %xmm2
	movaps	208(%rsp), %xmm3
	movups	%xmm3, 1260(%rsp)
	movups	%xmm2, 1244(%rsp)
	movups	%xmm1, 1228(%rsp)
	movups	%xmm0, 1212(%rsp)
	movq	%r14, 80(%rsp)
	movb	%r14b, 1280(%rsp)
	movaps	304(%rsp), %xmm0
	movaps	320(%rsp), %xmm1
	movups	%xmm0, 1281(%rsp)
	movups	%xmm1, 1297(%rsp)
	movl	$0, 1313(%rsp)
	movl	$0, 1316(%rsp)
	movq	%r12, 88(%rsp)
	movq	%r12, 1320(%rsp)
	movq	1096(%rsp), %r13
	movq	24(%rsp), %rcx
	cmpq	%rcx, %r13
	jb	.Lnoise_BB25_140
	movq	152(%rsp), %rax
	shll	$5, %eax
	movq	%rax, 560(%rsp)
	subq	%rax, %r15
	movq	%r13, %rsi
	subq	%rcx, %rsi
	je	.Lnoise_BB25_10
	leaq	(%rcx,%rcx,2), %rax
	leaq	(%rsp,%rax,8), %rdx
	addq	$904, %rdx
	leaq	1(%rcx), %rax
	cmpq	%rax, %r13
	jne	.Lnoise_BB25_13
	xorl	%eax, %eax
	jmp	.Lnoise_BB25_26
.Lnoise_BB25_10:
	xorl	%eax, %eax
	jmp	.Lnoise_BB25_32
.Lnoise_BB25_13:
	movq	%rsi, %rdi
	andq	$-2, %rdi
	xorl	%eax, %eax
	xorl	%r8d, %r8d
	jmp	.Lnoise_BB25_14
	.p2align	4
.Lnoise_BB25_24:
	addq	$48, %rdx
	addq	%rcx, %rax
	addq	$2, %r8
	cmpq	%rdi, %r8
	je	.Lnoise_BB25_25
.Lnoise_BB25_14:
	movq	16(%rdx), %r9
	xorl	%ecx, %ecx
	movq	%rdx, %r10
.Lnoise_BB25_15:
	movq	%r10, %r11
	.p2align	4
.Lnoise_BB25_16:
	testq	%r9, %r9
	je	.Lnoise_BB25_19
	leaq	1(%r11), %r10
	decq	%r9
	cmpb	$6, (%r11)
	movq	%r10, %r11
	jne	.Lnoise_BB25_16
	incq	%rcx
	jmp	.Lnoise_BB25_15
	.p2align	4
.Lnoise_BB25_19:
	leaq	24(%rdx), %r10
	addq	%rcx, %rax
	movq	40(%rdx), %r9
	xorl	%ecx, %ecx
.Lnoise_BB25_20:
	movq	%r10, %r11
	.p2align	4
.Lnoise_BB25_21:
	testq	%r9, %r9
	je	.Lnoise_BB25_24
	leaq	1(%r11), %r10
	decq	%r9
	cmpb	$6, (%r11)
	movq	%r10, %r11
	jne	.Lnoise_BB25_21
	incq	%rcx
	jmp	.Lnoise_BB25_20
.Lnoise_BB25_25:
	testb	$1, %sil
	je	.Lnoise_BB25_32
.Lnoise_BB25_26:
	movq	16(%rdx), %rsi
	xorl	%ecx, %ecx
.Lnoise_BB25_27:
	movq	%rdx, %rdi
	.p2align	4
.Lnoise_BB25_28:
	testq	%rsi, %rsi
	je	.Lnoise_BB25_31
	leaq	1(%rdi), %rdx
	decq	%rsi
	cmpb	$6, (%rdi)
	movq	%rdx, %rdi
	jne	.Lnoise_BB25_28
	incq	%rcx
	jmp	.Lnoise_BB25_27
.Lnoise_BB25_31:
	addq	%rcx, %rax
.Lnoise_BB25_32:
	addq	$846, %r15
	cmpb	$0, 40(%rsp)
	sete	12(%rsp)
	leaq	872(%rsp), %rbx
	leaq	888(%rsp), %rdi
	movq	%rbx, %r10
	cmovneq	%rdi, %r10
	movq	880(%rsp), %r8
	movq	896(%rsp), %rsi
	movq	%r8, %r11
	cmovneq	%rsi, %r11
	xorl	%ecx, %ecx
	.p2align	4
.Lnoise_BB25_33:
	cmpq	%rcx, %r11
	je	.Lnoise_BB25_35
	cmpb	$0, (%r10,%rcx)
	leaq	1(%rcx), %rcx
	jne	.Lnoise_BB25_33
	jmp	.Lnoise_BB25_41
.Lnoise_BB25_35:
	testq	%r13, %r13
	je	.Lnoise_BB25_42
	leaq	904(%rsp), %rbp
	xorl	%r12d, %r12d
	movq	%r13, %rcx
	jmp	.Lnoise_BB25_37
	.p2align	4
.Lnoise_BB25_153:
	addq	$24, %rbp
	decq	%rcx
	xorb	$1, %r12b
	testq	%rcx, %rcx
	je	.Lnoise_BB25_42
.Lnoise_BB25_37:
	cmpb	96(%rsp), %r12b
	jne	.Lnoise_BB25_153
	movq	16(%rbp), %rdx
	xorl	%r9d, %r9d
	.p2align	4
.Lnoise_BB25_39:
	cmpq	%r9, %rdx
	je	.Lnoise_BB25_153
	cmpb	$0, (%rbp,%r9)
	leaq	1(%r9), %r9
	jne	.Lnoise_BB25_39
.Lnoise_BB25_41:
	movq	144(%rsp), %rcx
	cmpb	$0, (%rcx)
	je	.Lnoise_BB25_140
.Lnoise_BB25_42:
	xorl	%ecx, %ecx
	.p2align	4
.Lnoise_BB25_43:
	cmpq	%rcx, %r11
	je	.Lnoise_BB25_45
	cmpb	$1, (%r10,%rcx)
	leaq	1(%rcx), %rcx
	jne	.Lnoise_BB25_43
	jmp	.Lnoise_BB25_51
.Lnoise_BB25_45:
	testq	%r13, %r13
	je	.Lnoise_BB25_52
	leaq	904(%rsp), %r10
	xorl	%r11d, %r11d
	movq	%r13, %rcx
	jmp	.Lnoise_BB25_47
	.p2align	4
.Lnoise_BB25_154:
	addq	$24, %r10
	decq	%rcx
	xorb	$1, %r11b
	testq	%rcx, %rcx
	je	.Lnoise_BB25_52
.Lnoise_BB25_47:
	cmpb	96(%rsp), %r11b
	jne	.Lnoise_BB25_154
	movq	16(%r10), %rdx
	xorl	%r9d, %r9d
	.p2align	4
.Lnoise_BB25_49:
	cmpq	%r9, %rdx
	je	.Lnoise_BB25_154
	cmpb	$1, (%r10,%r9)
	leaq	1(%r9), %r9
	jne	.Lnoise_BB25_49
.Lnoise_BB25_51:
	movq	136(%rsp), %rcx
	cmpb	$0, (%rcx)
	je	.Lnoise_BB25_140
.Lnoise_BB25_52:
	cmpb	$0, 40(%rsp)
	cmovneq	%rbx, %rdi
	movq	%rsi, %r9
	cmovneq	%r8, %r9
	xorl	%ecx, %ecx
	movq	104(%rsp), %r12
	.p2align	4
.Lnoise_BB25_53:
	cmpq	%rcx, %r9
	je	.Lnoise_BB25_56
	cmpb	$0, (%rdi,%rcx)
	leaq	1(%rcx), %rcx
	jne	.Lnoise_BB25_53
	jmp	.Lnoise_BB25_55
.Lnoise_BB25_56:
	cmpb	$0, 48(%rsp)
	je	.Lnoise_BB25_63
	leaq	904(%rsp), %r10
	xorl	%r11d, %r11d
	movq	24(%rsp), %rcx
	jmp	.Lnoise_BB25_58
	.p2align	4
.Lnoise_BB25_62:
	addq	$24, %r10
	decq	%rcx
	xorb	$1, %r11b
	testq	%rcx, %rcx
	je	.Lnoise_BB25_63
.Lnoise_BB25_58:
	cmpb	12(%rsp), %r11b
	jne	.Lnoise_BB25_62
	movq	16(%r10), %rdx
	xorl	%r14d, %r14d
	.p2align	4
.Lnoise_BB25_60:
	cmpq	%r14, %rdx
	je	.Lnoise_BB25_62
	cmpb	$0, (%r10,%r14)
	leaq	1(%r14), %r14
	jne	.Lnoise_BB25_60
.Lnoise_BB25_55:
	testb	%r12b, %r12b
	movq	24(%rsp), %rdx
	jne	.Lnoise_BB25_64
	jmp	.Lnoise_BB25_140
.Lnoise_BB25_63:
	testb	%r12b, %r12b
	movq	24(%rsp), %rdx
	jne	.Lnoise_BB25_140
.Lnoise_BB25_64:
	xorl	%ecx, %ecx
	movq	56(%rsp), %r11
	.p2align	4
.Lnoise_BB25_65:
	cmpq	%rcx, %r9
	je	.Lnoise_BB25_67
	cmpb	$1, (%rdi,%rcx)
	leaq	1(%rcx), %rcx
	jne	.Lnoise_BB25_65
	jmp	.Lnoise_BB25_73
.Lnoise_BB25_67:
	cmpb	$0, 48(%rsp)
	je	.Lnoise_BB25_75
	leaq	904(%rsp), %rdi
	xorl	%r9d, %r9d
	movq	%rdx, %rcx
	jmp	.Lnoise_BB25_69
.Lnoise_BB25_74:
	addq	$24, %rdi
	decq	%rcx
	xorb	$1, %r9b
	testq	%rcx, %rcx
	je	.Lnoise_BB25_75
.Lnoise_BB25_69:
	cmpb	12(%rsp), %r9b
	jne	.Lnoise_BB25_74
	movq	16(%rdi), %rdx
	xorl	%r10d, %r10d
	.p2align	4
.Lnoise_BB25_71:
	cmpq	%r10, %rdx
	je	.Lnoise_BB25_74
	cmpb	$1, (%rdi,%r10)
	leaq	1(%r10), %r10
	jne	.Lnoise_BB25_71
.Lnoise_BB25_73:
	testb	%r11b, %r11b
	jne	.Lnoise_BB25_76
	jmp	.Lnoise_BB25_140
.Lnoise_BB25_75:
	testb	%r11b, %r11b
	jne	.Lnoise_BB25_140
.Lnoise_BB25_76:
	leaq	904(%rsp), %rdx
	testq	%r13, %r13
	je	.Lnoise_BB25_84
	xorl	%ecx, %ecx
	movq	%rdx, %rdi
	jmp	.Lnoise_BB25_78
.Lnoise_BB25_83:
	incq	%rcx
	addq	$24, %rdi
	cmpq	%r13, %rcx
	je	.Lnoise_BB25_84
.Lnoise_BB25_78:
	leaq	(%rcx,%rcx,2), %r9
	movq	920(%rsp,%r9,8), %r9
	testq	%r9, %r9
	je	.Lnoise_BB25_83
	xorl	%r10d, %r10d
	.p2align	4
.Lnoise_BB25_81:
	cmpb	$6, (%rdi,%r10)
	je	.Lnoise_BB25_82
	incq	%r10
	cmpq	%r10, %r9
	jne	.Lnoise_BB25_81
	jmp	.Lnoise_BB25_83
.Lnoise_BB25_82:
	movb	$1, %cl
	movl	%ecx, 12(%rsp)
	xorl	%edi, %edi
	xorl	%r11d, %r11d
	testq	%r8, %r8
	je	.Lnoise_BB25_86
.Lnoise_BB25_87:
	movq	$0, 40(%rsp)
	xorl	%r10d, %r10d
	xorl	%r9d, %r9d
	xorl	%r14d, %r14d
	xorl	%ebp, %ebp
	jmp	.Lnoise_BB25_88
.Lnoise_BB25_91:
	movb	$1, %r10b
	.p2align	4
.Lnoise_BB25_95:
	incq	%rbp
	cmpq	%rbp, %r8
	je	.Lnoise_BB25_96
.Lnoise_BB25_88:
	movzbl	872(%rsp,%rbp), %ecx
	leaq	.Lnoise_JTI25_0(%rip), %r12
	movslq	(%r12,%rcx,4), %rcx
	addq	%r12, %rcx
	notrack jmpq	*%rcx
.Lnoise_BB25_94:
	movb	$1, %dil
	jmp	.Lnoise_BB25_95
.Lnoise_BB25_93:
	movb	$1, %r11b
	jmp	.Lnoise_BB25_95
.Lnoise_BB25_92:
	movb	$1, %cl
	movq	%rcx, 40(%rsp)
	jmp	.Lnoise_BB25_95
.Lnoise_BB25_90:
	movb	$1, %r9b
	jmp	.Lnoise_BB25_95
.Lnoise_BB25_89:
	movb	$1, %r14b
	jmp	.Lnoise_BB25_95
.Lnoise_BB25_84:
	movl	$0, 12(%rsp)
	xorl	%edi, %edi
	xorl	%r11d, %r11d
	testq	%r8, %r8
	jne	.Lnoise_BB25_87
.Lnoise_BB25_86:
	movq	$0, 40(%rsp)
	xorl	%r10d, %r10d
	xorl	%r9d, %r9d
	xorl	%r14d, %r14d
.Lnoise_BB25_96:
	xorl	%r8d, %r8d
	testq	%rsi, %rsi
	je	.Lnoise_BB25_106
	xorl	%ebp, %ebp
	jmp	.Lnoise_BB25_98
.Lnoise_BB25_102:
	movb	$1, %r10b
	.p2align	4
.Lnoise_BB25_105:
	incq	%rbp
	cmpq	%rbp, %rsi
	je	.Lnoise_BB25_106
.Lnoise_BB25_98:
	movzbl	888(%rsp,%rbp), %ecx
	leaq	.Lnoise_JTI25_1(%rip), %r12
	movslq	(%r12,%rcx,4), %rcx
	addq	%r12, %rcx
	notrack jmpq	*%rcx
.Lnoise_BB25_99:
	movb	$1, %r8b
	jmp	.Lnoise_BB25_105
.Lnoise_BB25_100:
	movb	$1, %r11b
	jmp	.Lnoise_BB25_105
.Lnoise_BB25_101:
	movb	$1, %cl
	movq	%rcx, 40(%rsp)
	jmp	.Lnoise_BB25_105
.Lnoise_BB25_103:
	movb	$1, %r9b
	jmp	.Lnoise_BB25_105
.Lnoise_BB25_104:
	movb	$1, %r14b
	jmp	.Lnoise_BB25_105
.Lnoise_BB25_106:
	testq	%r13, %r13
	je	.Lnoise_BB25_114
	xorl	%ecx, %ecx
	movq	%rdx, %rsi
	jmp	.Lnoise_BB25_108
.Lnoise_BB25_113:
	incq	%rcx
	addq	$24, %rsi
	cmpq	%r13, %rcx
	je	.Lnoise_BB25_114
.Lnoise_BB25_108:
	leaq	(%rcx,%rcx,2), %r12
	movq	920(%rsp,%r12,8), %r12
	testq	%r12, %r12
	je	.Lnoise_BB25_113
	xorl	%ebp, %ebp
	.p2align	4
.Lnoise_BB25_111:
	cmpb	$6, (%rsi,%rbp)
	je	.Lnoise_BB25_112
	incq	%rbp
	cmpq	%rbp, %r12
	jne	.Lnoise_BB25_111
	jmp	.Lnoise_BB25_113
.Lnoise_BB25_112:
	movb	$1, %cl
	jmp	.Lnoise_BB25_115
.Lnoise_BB25_114:
	xorl	%ecx, %ecx
.Lnoise_BB25_115:
	orb	40(%rsp), %r11b
	orb	%r9b, %r10b
	orb	%r11b, %r10b
	orb	%r14b, %r10b
	orb	%r8b, %dil
	andb	%cl, %dil
	orb	%r10b, %dil
	andb	$1, %dil
	cmpb	$0, 48(%rsp)
	je	.Lnoise_BB25_116
	cmpb	$0, 12(%rsp)
	movq	24(%rsp), %r14
	je	.Lnoise_BB25_118
	xorl	%ecx, %ecx
	movq	%r14, %rsi
	jmp	.Lnoise_BB25_124
	.p2align	4
.Lnoise_BB25_125:
	movq	%rcx, %r8
.Lnoise_BB25_132:
	addq	$24, %rdx
	decq	%rsi
	movzbl	%dil, %ecx
	addq	%r8, %rcx
	testq	%rsi, %rsi
	movq	24(%rsp), %r14
	je	.Lnoise_BB25_137
.Lnoise_BB25_124:
	movq	16(%rdx), %r11
	testq	%r11, %r11
	je	.Lnoise_BB25_125
	testb	$1, %r11b
	jne	.Lnoise_BB25_128
	movq	%r11, %r10
	movq	%rdx, %r9
	cmpq	$1, %r11
	je	.Lnoise_BB25_132
	jmp	.Lnoise_BB25_130
.Lnoise_BB25_128:
	movzbl	%dil, %r10d
	addq	%r10, %rcx
	xorl	%r8d, %r8d
	cmpb	$1, (%rdx)
	leaq	1(%rdx), %r9
	movl	$1, %edi
	cmovel	%r10d, %edi
	leaq	-1(%r11), %r10
	cmoveq	%rcx, %r8
	movq	%r8, %rcx
	cmpq	$1, %r11
	je	.Lnoise_BB25_132
.Lnoise_BB25_130:
	xorl	%r11d, %r11d
	movq	%rcx, %r8
	.p2align	4
.Lnoise_BB25_131:
	movzbl	%dil, %edi
	xorl	%ecx, %ecx
	cmpb	$1, (%r9,%r11)
	leaq	(%rdi,%r8), %r14
	movl	$1, %ebp
	cmovnel	%ebp, %edi
	cmovneq	%rcx, %r14
	movzbl	%dil, %r8d
	addq	%r14, %r8
	cmpb	$1, 1(%r9,%r11)
	cmovnel	%ebp, %edi
	cmovneq	%rcx, %r8
	addq	$2, %r11
	cmpq	%r11, %r10
	jne	.Lnoise_BB25_131
	jmp	.Lnoise_BB25_132
.Lnoise_BB25_116:
	xorl	%ecx, %ecx
	movq	24(%rsp), %r14
.Lnoise_BB25_137:
	cmpq	%rcx, 88(%rsp)
	jne	.Lnoise_BB25_140
	cmpb	80(%rsp), %dil
	jne	.Lnoise_BB25_140
	movq	152(%rsp), %rbx
	cmpq	%rbx, %rax
	jae	.Lnoise_BB25_141
.Lnoise_BB25_140:
	leaq	2744(%rsp), %rdi
	movq	$0, 128(%rsp)
	movl	$272, %edx
	xorl	%esi, %esi
	callq	memset@PLT
	movl	$0, 16(%rsp)
	movw	$0, 20(%rsp)
	xorps	%xmm0, %xmm0
	movaps	%xmm0, 528(%rsp)
	movaps	%xmm0, 544(%rsp)
	movaps	%xmm0, 496(%rsp)
	movaps	%xmm0, 512(%rsp)
	leaq	3018(%rsp), %rdi
	movl	$302, %edx
	xorl	%esi, %esi
	callq	memset@PLT
	xorps	%xmm0, %xmm0
	movaps	%xmm0, 240(%rsp)
	movaps	%xmm0, 256(%rsp)
	movaps	%xmm0, 272(%rsp)
	movups	%xmm0, 286(%rsp)
	movaps	%xmm0, 432(%rsp)
	movaps	%xmm0, 448(%rsp)
	movaps	%xmm0, 464(%rsp)
	movaps	%xmm0, 480(%rsp)
	movaps	%xmm0, 400(%rsp)
	movaps	%xmm0, 416(%rsp)
	movl	$0, 32(%rsp)
	movl	$0, 35(%rsp)
	movl	$0, %eax
	movq	%rax, 120(%rsp)
	movl	$0, %r14d
	xorl	%r12d, %r12d
	xorl	%eax, %eax
	xorl	%ebx, %ebx
	movq	$0, 24(%rsp)
	xorl	%r13d, %r13d
	xorl	%ebp, %ebp
	movq	$0, 48(%rsp)
	movq	$0, 112(%rsp)
	movq	$0, 80(%rsp)
	movq	$0, 88(%rsp)
.Lnoise_BB25_152:
	movq	568(%rsp), %r15
	movq	%rax, (%r15)
	leaq	8(%r15), %rdi
	leaq	2744(%rsp), %rsi
	movl	$272, %edx
	callq	memcpy@PLT
	movq	%r12, 280(%r15)
	movq	%r14, 288(%r15)
	movq	120(%rsp), %rax
	movq	%rax, 296(%r15)
	movq	128(%rsp), %rax
	movq	%rax, 304(%r15)
	movb	%bl, 312(%r15)
	movq	24(%rsp), %rax
	movb	%al, 313(%r15)
	movl	16(%rsp), %eax
	movl	%eax, 314(%r15)
	movzwl	20(%rsp), %eax
	movw	%ax, 318(%r15)
	movb	%r13b, 320(%r15)
	movaps	528(%rsp), %xmm0
	movaps	544(%rsp), %xmm1
	movups	%xmm0, 321(%r15)
	movups	%xmm1, 337(%r15)
	movb	%bpl, 353(%r15)
	movaps	496(%rsp), %xmm0
	movaps	512(%rsp), %xmm1
	movups	%xmm0, 354(%r15)
	movups	%xmm1, 370(%r15)
	leaq	386(%r15), %rdi
	leaq	3018(%rsp), %rsi
	movl	$302, %edx
	callq	memcpy@PLT
	movq	$0, 688(%r15)
	movq	48(%rsp), %rax
	movb	%al, 696(%r15)
	movq	112(%rsp), %rax
	movb	%al, 697(%r15)
	movaps	240(%rsp), %xmm0
	movaps	256(%rsp), %xmm1
	movaps	272(%rsp), %xmm2
	movups	%xmm0, 698(%r15)
	movups	%xmm1, 714(%r15)
	movups	%xmm2, 730(%r15)
	movups	286(%rsp), %xmm0
	movups	%xmm0, 744(%r15)
	movaps	432(%rsp), %xmm0
	movaps	448(%rsp), %xmm1
	movaps	464(%rsp), %xmm2
	movaps	480(%rsp), %xmm3
	movups	%xmm0, 760(%r15)
	movups	%xmm1, 776(%r15)
	movups	%xmm2, 792(%r15)
	movups	%xmm3, 808(%r15)
	movq	80(%rsp), %rax
	movb	%al, 824(%r15)
	movaps	400(%rsp), %xmm0
	movaps	416(%rsp), %xmm1
	movups	%xmm0, 825(%r15)
	movups	%xmm1, 841(%r15)
	movl	32(%rsp), %eax
	movl	35(%rsp), %ecx
	movl	%eax, 857(%r15)
	movl	%ecx, 860(%r15)
	movq	88(%rsp), %rax
	movq	%rax, 864(%r15)
	addq	$3592, %rsp
	.cfi_def_cfa_offset 56
	popq	%rbx
	.cfi_def_cfa_offset 48
	popq	%r12
	.cfi_def_cfa_offset 40
	popq	%r13
	.cfi_def_cfa_offset 32
	popq	%r14
	.cfi_def_cfa_offset 24
	popq	%r15
	.cfi_def_cfa_offset 16
	popq	%rbp
	.cfi_def_cfa_offset 8
	retq
.Lnoise_BB25_118:
	.cfi_def_cfa_offset 3648
	xorl	%ecx, %ecx
	movq	%r14, %rsi
	jmp	.Lnoise_BB25_119
	.p2align	4
.Lnoise_BB25_136:
	addq	$24, %rdx
	decq	%rsi
	movzbl	%dil, %r8d
	addq	%r8, %rcx
	testq	%rsi, %rsi
	je	.Lnoise_BB25_137
.Lnoise_BB25_119:
	movq	16(%rdx), %r8
	testq	%r8, %r8
	je	.Lnoise_BB25_136
	xorl	%r9d, %r9d
	jmp	.Lnoise_BB25_121
	.p2align	4
.Lnoise_BB25_122:
	movb	$1, %dil
	xorl	%ecx, %ecx
.Lnoise_BB25_135:
	incq	%r9
	cmpq	%r9, %r8
	je	.Lnoise_BB25_136
.Lnoise_BB25_121:
	movzbl	(%rdx,%r9), %r10d
	leal	-2(%r10), %r11d
	cmpl	$5, %r11d
	jb	.Lnoise_BB25_122
	testl	%r10d, %r10d
	je	.Lnoise_BB25_135
	movzbl	%dil, %r10d
	addq	%r10, %rcx
	jmp	.Lnoise_BB25_135
.Lnoise_BB25_141:
	leaq	2128(%rsp), %rdi
	movl	$288, %edx
	xorl	%esi, %esi
	callq	memset@PLT
	cmpb	$9, %bl
	ja	.Lnoise_BB25_155
	leaq	2128(%rsp), %rdi
	movq	%r15, %rsi
	movq	560(%rsp), %rdx
	callq	memcpy@PLT
	movq	%rbx, 2416(%rsp)
	movl	$0, 1824(%rsp)
	movw	$0, 1828(%rsp)
	movl	$0, 704(%rsp)
	movw	$0, 708(%rsp)
	xorps	%xmm0, %xmm0
	movaps	%xmm0, 768(%rsp)
	movaps	%xmm0, 784(%rsp)
	movaps	%xmm0, 800(%rsp)
	movq	$0, 816(%rsp)
	leaq	1328(%rsp), %rdi
	leaq	3320(%rsp), %rsi
	movl	$272, %edx
	callq	memcpy@PLT
	movq	96(%rsp), %rax
	movb	%al, 1600(%rsp)
	movl	72(%rsp), %eax
	movl	75(%rsp), %ecx
	movl	%eax, 1601(%rsp)
	movl	%ecx, 1604(%rsp)
	movq	144(%rsp), %rax
	movq	%rax, 1608(%rsp)
	movq	136(%rsp), %rax
	movq	%rax, 1616(%rsp)
	movq	120(%rsp), %rax
	movq	%rax, 1624(%rsp)
	movq	128(%rsp), %r9
	movq	%r9, 1632(%rsp)
	movq	104(%rsp), %r10
	movb	%r10b, 1640(%rsp)
	movaps	368(%rsp), %xmm0
	movaps	384(%rsp), %xmm1
	movups	%xmm0, 1641(%rsp)
	movups	%xmm1, 1657(%rsp)
	movq	56(%rsp), %r11
	movb	%r11b, 1673(%rsp)
	movaps	336(%rsp), %xmm0
	movaps	352(%rsp), %xmm1
	movups	%xmm0, 1674(%rsp)
	movups	%xmm1, 1690(%rsp)
	movq	48(%rsp), %rax
	movb	%al, 1706(%rsp)
	movq	112(%rsp), %rax
	movb	%al, 1707(%rsp)
	movaps	160(%rsp), %xmm0
	movaps	176(%rsp), %xmm1
	movaps	192(%rsp), %xmm2
	movaps	208(%rsp), %xmm3
	movups	%xmm0, 1708(%rsp)
	movups	%xmm1, 1724(%rsp)
	movups	%xmm2, 1740(%rsp)
	movups	%xmm3, 1756(%rsp)
	movl	224(%rsp), %eax
	movl	%eax, 1772(%rsp)
	movq	80(%rsp), %r8
	movb	%r8b, 1776(%rsp)
	movaps	304(%rsp), %xmm0
	movaps	320(%rsp), %xmm1
	movups	%xmm0, 1777(%rsp)
	movups	%xmm1, 1793(%rsp)
	movl	64(%rsp), %eax
	movl	67(%rsp), %ecx
	movl	%eax, 1809(%rsp)
	movl	%ecx, 1812(%rsp)
	movq	88(%rsp), %rax
	movq	%rax, 1816(%rsp)
	movq	1592(%rsp), %rax
	testq	%rax, %rax
	movq	%r11, 56(%rsp)
	je	.Lnoise_BB25_150
	leaq	1400(%rsp), %rcx
	xorl	%edx, %edx
	jmp	.Lnoise_BB25_144
.Lnoise_BB25_149:
	incq	%rdx
	addq	$24, %rcx
	cmpq	%rax, %rdx
	je	.Lnoise_BB25_150
.Lnoise_BB25_144:
	leaq	(%rdx,%rdx,2), %rsi
	movq	1416(%rsp,%rsi,8), %rsi
	testq	%rsi, %rsi
	je	.Lnoise_BB25_149
	xorl	%edi, %edi
	.p2align	4
.Lnoise_BB25_147:
	cmpb	$6, (%rcx,%rdi)
	je	.Lnoise_BB25_148
	incq	%rdi
	cmpq	%rdi, %rsi
	jne	.Lnoise_BB25_147
	jmp	.Lnoise_BB25_149
.Lnoise_BB25_148:
	movb	$1, %al
	jmp	.Lnoise_BB25_151
.Lnoise_BB25_150:
	xorl	%eax, %eax
.Lnoise_BB25_151:
	movq	%rax, 24(%rsp)
	movzbl	%al, %edx
	movzbl	%r8b, %ecx
	leaq	768(%rsp), %rdi
	leaq	1328(%rsp), %rsi
	movl	%r14d, %r8d
	callq	"noise_handshake::layout::lay_next"
	movups	164(%rsp), %xmm0
	movups	180(%rsp), %xmm1
	movups	196(%rsp), %xmm2
	movups	212(%rsp), %xmm3
	movaps	%xmm1, 592(%rsp)
	movaps	%xmm0, 576(%rsp)
	movaps	%xmm2, 608(%rsp)
	movaps	%xmm3, 624(%rsp)
	leaq	1830(%rsp), %rdi
	leaq	2128(%rsp), %rsi
	movl	$296, %edx
	callq	memcpy@PLT
	movaps	768(%rsp), %xmm0
	movaps	784(%rsp), %xmm1
	movaps	800(%rsp), %xmm2
	movups	%xmm0, 710(%rsp)
	movups	%xmm1, 726(%rsp)
	movups	%xmm2, 742(%rsp)
	movq	816(%rsp), %rax
	movq	%rax, 758(%rsp)
	leaq	2432(%rsp), %r15
	leaq	1824(%rsp), %rsi
	movl	$302, %edx
	movq	%r15, %rdi
	callq	memcpy@PLT
	movups	704(%rsp), %xmm0
	movups	720(%rsp), %xmm1
	movups	736(%rsp), %xmm2
	movups	750(%rsp), %xmm3
	movaps	%xmm0, 640(%rsp)
	movaps	%xmm1, 656(%rsp)
	movaps	%xmm2, 672(%rsp)
	movups	%xmm3, 686(%rsp)
	leaq	2744(%rsp), %rdi
	leaq	3320(%rsp), %rsi
	movl	$272, %edx
	callq	memcpy@PLT
	movl	$0, 16(%rsp)
	movw	$0, 20(%rsp)
	movaps	368(%rsp), %xmm0
	movaps	384(%rsp), %xmm1
	movaps	%xmm0, 528(%rsp)
	movaps	%xmm1, 544(%rsp)
	movaps	336(%rsp), %xmm0
	movaps	352(%rsp), %xmm1
	movaps	%xmm0, 496(%rsp)
	movaps	%xmm1, 512(%rsp)
	leaq	3018(%rsp), %rdi
	movl	$302, %edx
	movq	%r15, %rsi
	callq	memcpy@PLT
	movaps	640(%rsp), %xmm0
	movaps	656(%rsp), %xmm1
	movaps	672(%rsp), %xmm2
	movaps	%xmm0, 240(%rsp)
	movaps	%xmm1, 256(%rsp)
	movaps	%xmm2, 272(%rsp)
	movups	686(%rsp), %xmm0
	movups	%xmm0, 286(%rsp)
	movaps	576(%rsp), %xmm0
	movaps	592(%rsp), %xmm1
	movaps	608(%rsp), %xmm2
	movaps	624(%rsp), %xmm3
	movaps	%xmm0, 432(%rsp)
	movaps	%xmm1, 448(%rsp)
	movaps	%xmm2, 464(%rsp)
	movaps	%xmm3, 480(%rsp)
	movaps	304(%rsp), %xmm0
	movaps	320(%rsp), %xmm1
	movaps	%xmm0, 400(%rsp)
	movaps	%xmm1, 416(%rsp)
	movl	$0, 35(%rsp)
	movl	$0, 32(%rsp)
	movl	$1, %eax
	movq	136(%rsp), %r14
	movq	144(%rsp), %r12
	movq	96(%rsp), %rbx
	movq	104(%rsp), %r13
	movq	56(%rsp), %rbp
	jmp	.Lnoise_BB25_152
.Lnoise_BB25_155:
	ud2
.Lnoise_func_end25:
	.size	"noise_c::from_c::restored", .Lnoise_func_end25-"noise_c::from_c::restored"
	.cfi_endproc
	.section	".rodata.noise_c::from_c::restored","a",@progbits
	.p2align	2, 0x0
.Lnoise_JTI25_0:
	.long	.Lnoise_BB25_94-.Lnoise_JTI25_0
	.long	.Lnoise_BB25_95-.Lnoise_JTI25_0
	.long	.Lnoise_BB25_93-.Lnoise_JTI25_0
	.long	.Lnoise_BB25_92-.Lnoise_JTI25_0
	.long	.Lnoise_BB25_91-.Lnoise_JTI25_0
	.long	.Lnoise_BB25_90-.Lnoise_JTI25_0
	.long	.Lnoise_BB25_89-.Lnoise_JTI25_0
.Lnoise_JTI25_1:
	.long	.Lnoise_BB25_99-.Lnoise_JTI25_1
	.long	.Lnoise_BB25_105-.Lnoise_JTI25_1
	.long	.Lnoise_BB25_100-.Lnoise_JTI25_1
	.long	.Lnoise_BB25_101-.Lnoise_JTI25_1
	.long	.Lnoise_BB25_102-.Lnoise_JTI25_1
	.long	.Lnoise_BB25_103-.Lnoise_JTI25_1
	.long	.Lnoise_BB25_104-.Lnoise_JTI25_1

	.section	".text.noise_names::valid::ValidPattern::seen_after","ax",@progbits
	.p2align	4
	.type	"noise_names::valid::ValidPattern::seen_after",@function
"noise_names::valid::ValidPattern::seen_after":
	.cfi_startproc
	pushq	%rbp
	.cfi_def_cfa_offset 16
	pushq	%r15
	.cfi_def_cfa_offset 24
	pushq	%r14
	.cfi_def_cfa_offset 32
	pushq	%r13
	.cfi_def_cfa_offset 40
	pushq	%r12
	.cfi_def_cfa_offset 48
	pushq	%rbx
	.cfi_def_cfa_offset 56
	.cfi_offset %rbx, -56
	.cfi_offset %r12, -48
	.cfi_offset %r13, -40
	.cfi_offset %r14, -32
	.cfi_offset %r15, -24
	.cfi_offset %rbp, -16
	movq	%rdx, -24(%rsp)
	movq	%rdi, -16(%rsp)
	movq	48(%rsi), %rax
	xorl	%ebp, %ebp
	xorl	%r14d, %r14d
	xorl	%r8d, %r8d
	xorl	%r9d, %r9d
	xorl	%r10d, %r10d
	xorl	%r11d, %r11d
	xorl	%ebx, %ebx
	testq	%rax, %rax
	je	.Lnoise_BB26_11
	xorl	%edx, %edx
	jmp	.Lnoise_BB26_2
.Lnoise_BB26_5:
	movb	$1, %r10b
	.p2align	4
.Lnoise_BB26_10:
	incq	%rdx
	cmpq	%rdx, %rax
	je	.Lnoise_BB26_11
.Lnoise_BB26_2:
	movzbl	40(%rsi,%rdx), %ecx
	leaq	.Lnoise_JTI26_0(%rip), %rdi
	movslq	(%rdi,%rcx,4), %rcx
	addq	%rdi, %rcx
	notrack jmpq	*%rcx
.Lnoise_BB26_9:
	movb	$1, %bpl
	jmp	.Lnoise_BB26_10
.Lnoise_BB26_7:
	movb	$1, %r8b
	jmp	.Lnoise_BB26_10
.Lnoise_BB26_6:
	movb	$1, %r9b
	jmp	.Lnoise_BB26_10
.Lnoise_BB26_8:
	movb	$1, %r14b
	jmp	.Lnoise_BB26_10
.Lnoise_BB26_4:
	movb	$1, %r11b
	jmp	.Lnoise_BB26_10
.Lnoise_BB26_3:
	movb	$1, %bl
	jmp	.Lnoise_BB26_10
.Lnoise_BB26_11:
	movl	%r14d, -32(%rsp)
	movq	64(%rsi), %rax
	xorl	%r14d, %r14d
	xorl	%r15d, %r15d
	testq	%rax, %rax
	je	.Lnoise_BB26_22
	xorl	%edx, %edx
	jmp	.Lnoise_BB26_13
.Lnoise_BB26_18:
	movb	$1, %r10b
	.p2align	4
.Lnoise_BB26_21:
	incq	%rdx
	cmpq	%rdx, %rax
	je	.Lnoise_BB26_22
.Lnoise_BB26_13:
	movzbl	56(%rsi,%rdx), %ecx
	leaq	.Lnoise_JTI26_1(%rip), %rdi
	movslq	(%rdi,%rcx,4), %rcx
	addq	%rdi, %rcx
	notrack jmpq	*%rcx
.Lnoise_BB26_14:
	movb	$1, %r14b
	jmp	.Lnoise_BB26_21
.Lnoise_BB26_16:
	movb	$1, %r8b
	jmp	.Lnoise_BB26_21
.Lnoise_BB26_17:
	movb	$1, %r9b
	jmp	.Lnoise_BB26_21
.Lnoise_BB26_15:
	movb	$1, %r15b
	jmp	.Lnoise_BB26_21
.Lnoise_BB26_19:
	movb	$1, %r11b
	jmp	.Lnoise_BB26_21
.Lnoise_BB26_20:
	movb	$1, %bl
	jmp	.Lnoise_BB26_21
.Lnoise_BB26_22:
	movl	%r15d, -28(%rsp)
	cmpq	$0, -24(%rsp)
	je	.Lnoise_BB26_23
	addq	$72, %rsi
	xorl	%r15d, %r15d
	movq	%rsi, %r12
	xorl	%r13d, %r13d
	jmp	.Lnoise_BB26_25
	.p2align	4
.Lnoise_BB26_47:
	movq	-8(%rsp), %rbp
.Lnoise_BB26_48:
	xorb	$1, %r15b
	incq	%r13
	addq	$24, %r12
	cmpq	-24(%rsp), %r13
	je	.Lnoise_BB26_49
.Lnoise_BB26_25:
	leaq	(,%r13,2), %rax
	addq	%r13, %rax
	movq	16(%rsi,%rax,8), %rax
	testq	%rax, %rax
	je	.Lnoise_BB26_48
	testb	%r15b, %r15b
	je	.Lnoise_BB26_28
	movq	%rbp, -8(%rsp)
	xorl	%edi, %edi
	movzbl	(%r12,%rdi), %ecx
	leaq	.Lnoise_JTI26_2(%rip), %rdx
	movslq	(%rdx,%rcx,4), %rbp
	addq	%rdx, %rbp
	movl	%r14d, %ecx
	movb	$1, %r14b
	notrack jmpq	*%rbp
	.p2align	4
.Lnoise_BB26_46:
	incq	%rdi
	cmpq	%rdi, %rax
	je	.Lnoise_BB26_47
.Lnoise_BB26_38:
	movzbl	(%r12,%rdi), %ecx
	movslq	(%rdx,%rcx,4), %rbp
	addq	%rdx, %rbp
	movl	%r14d, %ecx
	movb	$1, %r14b
	notrack jmpq	*%rbp
.Lnoise_BB26_39:
	movb	$1, %bpl
	movl	%ebp, -28(%rsp)
	jmp	.Lnoise_BB26_45
	.p2align	4
.Lnoise_BB26_43:
	movb	$1, %r11b
	jmp	.Lnoise_BB26_45
	.p2align	4
.Lnoise_BB26_41:
	movb	$1, %r9b
	jmp	.Lnoise_BB26_45
	.p2align	4
.Lnoise_BB26_42:
	movb	$1, %r10b
	jmp	.Lnoise_BB26_45
	.p2align	4
.Lnoise_BB26_40:
	movb	$1, %r8b
	jmp	.Lnoise_BB26_45
	.p2align	4
.Lnoise_BB26_44:
	movb	$1, %bl
	.p2align	4
.Lnoise_BB26_45:
	movl	%ecx, %r14d
	incq	%rdi
	cmpq	%rdi, %rax
	jne	.Lnoise_BB26_38
	jmp	.Lnoise_BB26_47
	.p2align	4
.Lnoise_BB26_28:
	xorl	%edx, %edx
	jmp	.Lnoise_BB26_29
.Lnoise_BB26_32:
	movb	$1, %r10b
	.p2align	4
.Lnoise_BB26_37:
	incq	%rdx
	cmpq	%rdx, %rax
	je	.Lnoise_BB26_48
.Lnoise_BB26_29:
	movzbl	(%r12,%rdx), %ecx
	leaq	.Lnoise_JTI26_3(%rip), %rdi
	movslq	(%rdi,%rcx,4), %rcx
	addq	%rdi, %rcx
	notrack jmpq	*%rcx
.Lnoise_BB26_36:
	movb	$1, %bpl
	jmp	.Lnoise_BB26_37
.Lnoise_BB26_34:
	movb	$1, %r8b
	jmp	.Lnoise_BB26_37
.Lnoise_BB26_33:
	movb	$1, %r9b
	jmp	.Lnoise_BB26_37
.Lnoise_BB26_35:
	movb	$1, %cl
	movl	%ecx, -32(%rsp)
	jmp	.Lnoise_BB26_37
.Lnoise_BB26_31:
	movb	$1, %r11b
	jmp	.Lnoise_BB26_37
.Lnoise_BB26_30:
	movb	$1, %bl
	jmp	.Lnoise_BB26_37
.Lnoise_BB26_23:
	xorl	%r15d, %r15d
.Lnoise_BB26_49:
	movq	-16(%rsp), %rax
	movb	%bpl, (%rax)
	movl	-32(%rsp), %ecx
	movb	%cl, 1(%rax)
	movb	%r14b, 2(%rax)
	movl	-28(%rsp), %ecx
	movb	%cl, 3(%rax)
	movb	%r8b, 4(%rax)
	movb	%r9b, 5(%rax)
	movb	%r10b, 6(%rax)
	movb	%r11b, 7(%rax)
	movb	%bl, 8(%rax)
	movb	%r15b, 9(%rax)
	popq	%rbx
	.cfi_def_cfa_offset 48
	popq	%r12
	.cfi_def_cfa_offset 40
	popq	%r13
	.cfi_def_cfa_offset 32
	popq	%r14
	.cfi_def_cfa_offset 24
	popq	%r15
	.cfi_def_cfa_offset 16
	popq	%rbp
	.cfi_def_cfa_offset 8
	retq
.Lnoise_func_end26:
	.size	"noise_names::valid::ValidPattern::seen_after", .Lnoise_func_end26-"noise_names::valid::ValidPattern::seen_after"
	.cfi_endproc
	.section	".rodata.noise_names::valid::ValidPattern::seen_after","a",@progbits
	.p2align	2, 0x0
.Lnoise_JTI26_0:
	.long	.Lnoise_BB26_9-.Lnoise_JTI26_0
	.long	.Lnoise_BB26_8-.Lnoise_JTI26_0
	.long	.Lnoise_BB26_7-.Lnoise_JTI26_0
	.long	.Lnoise_BB26_6-.Lnoise_JTI26_0
	.long	.Lnoise_BB26_5-.Lnoise_JTI26_0
	.long	.Lnoise_BB26_4-.Lnoise_JTI26_0
	.long	.Lnoise_BB26_3-.Lnoise_JTI26_0
.Lnoise_JTI26_1:
	.long	.Lnoise_BB26_14-.Lnoise_JTI26_1
	.long	.Lnoise_BB26_15-.Lnoise_JTI26_1
	.long	.Lnoise_BB26_16-.Lnoise_JTI26_1
	.long	.Lnoise_BB26_17-.Lnoise_JTI26_1
	.long	.Lnoise_BB26_18-.Lnoise_JTI26_1
	.long	.Lnoise_BB26_19-.Lnoise_JTI26_1
	.long	.Lnoise_BB26_20-.Lnoise_JTI26_1
.Lnoise_JTI26_2:
	.long	.Lnoise_BB26_46-.Lnoise_JTI26_2
	.long	.Lnoise_BB26_39-.Lnoise_JTI26_2
	.long	.Lnoise_BB26_40-.Lnoise_JTI26_2
	.long	.Lnoise_BB26_41-.Lnoise_JTI26_2
	.long	.Lnoise_BB26_42-.Lnoise_JTI26_2
	.long	.Lnoise_BB26_43-.Lnoise_JTI26_2
	.long	.Lnoise_BB26_44-.Lnoise_JTI26_2
.Lnoise_JTI26_3:
	.long	.Lnoise_BB26_36-.Lnoise_JTI26_3
	.long	.Lnoise_BB26_35-.Lnoise_JTI26_3
	.long	.Lnoise_BB26_34-.Lnoise_JTI26_3
	.long	.Lnoise_BB26_33-.Lnoise_JTI26_3
	.long	.Lnoise_BB26_32-.Lnoise_JTI26_3
	.long	.Lnoise_BB26_31-.Lnoise_JTI26_3
	.long	.Lnoise_BB26_30-.Lnoise_JTI26_3

	.section	".text.noise_handshake::layout::lay_next","ax",@progbits
	.p2align	4
	.type	"noise_handshake::layout::lay_next",@function
"noise_handshake::layout::lay_next":
	.cfi_startproc
	pushq	%r14
	.cfi_def_cfa_offset 16
	pushq	%rbx
	.cfi_def_cfa_offset 24
	.cfi_offset %rbx, -24
	.cfi_offset %r14, -16
	xorps	%xmm0, %xmm0
	movaps	%xmm0, -24(%rsp)
	movaps	%xmm0, -40(%rsp)
	movaps	%xmm0, -56(%rsp)
	movl	$0, -112(%rsp)
	movb	$0, -108(%rsp)
	movzbl	%r8b, %eax
	xorl	%r9d, %r9d
	cmpq	%rax, 264(%rsi)
	leaq	(%rax,%rax,2), %rax
	leaq	72(%rsi,%rax,8), %r8
	movl	$0, %esi
	cmovaq	%r8, %rsi
	jbe	.Lnoise_BB27_1
	movq	16(%r8), %rax
	movaps	%xmm0, -72(%rsp)
	movaps	%xmm0, -88(%rsp)
	movaps	%xmm0, -104(%rsp)
	testq	%rax, %rax
	je	.Lnoise_BB27_3
	xorl	%r10d, %r10d
	xorl	%r11d, %r11d
	jmp	.Lnoise_BB27_5
	.p2align	4
.Lnoise_BB27_9:
	movl	%r11d, %ecx
	shll	$16, %ecx
	orl	%r9d, %ecx
	movl	%ecx, -104(%rsp,%r10,4)
	leaq	1(%r10), %rcx
	movq	%rcx, -64(%rsp)
	movb	$1, %cl
	xorl	%r9d, %r9d
.Lnoise_BB27_10:
	movzwl	%r9w, %r9d
	addl	%r11d, %r9d
	incq	%r10
	movl	%r9d, %r11d
	cmpq	%r10, %rax
	je	.Lnoise_BB27_11
.Lnoise_BB27_5:
	movzbl	(%r8,%r10), %r9d
	leal	-2(%r9), %ebx
	cmpl	$5, %ebx
	jb	.Lnoise_BB27_9
	cmpl	$1, %r9d
	jne	.Lnoise_BB27_7
	movl	%r11d, %ebx
	shll	$16, %ebx
	movzbl	%cl, %r9d
	andl	$1, %r9d
	movl	%r9d, %r14d
	shll	$12, %r14d
	addl	%r14d, %ebx
	addl	$8193, %ebx
	movl	%ebx, -104(%rsp,%r10,4)
	leaq	1(%r10), %rbx
	movq	%rbx, -64(%rsp)
	shll	$4, %r9d
	orl	$32, %r9d
	jmp	.Lnoise_BB27_10
.Lnoise_BB27_7:
	movl	%r11d, %r9d
	shll	$16, %r9d
	orl	$8192, %r9d
	movl	%r9d, -104(%rsp,%r10,4)
	leaq	1(%r10), %r9
	movq	%r9, -64(%rsp)
	orb	%dl, %cl
	movw	$32, %r9w
	jmp	.Lnoise_BB27_10
.Lnoise_BB27_1:
	xorl	%edx, %edx
	jmp	.Lnoise_BB27_17
.Lnoise_BB27_3:
	xorl	%r9d, %r9d
.Lnoise_BB27_11:
	xorl	%edx, %edx
.Lnoise_BB27_12:
	movq	%rsi, %r8
	.p2align	4
.Lnoise_BB27_13:
	testq	%rax, %rax
	je	.Lnoise_BB27_16
	leaq	1(%r8), %rsi
	decq	%rax
	cmpb	$6, (%r8)
	movq	%rsi, %r8
	jne	.Lnoise_BB27_13
	incb	%dl
	jmp	.Lnoise_BB27_12
.Lnoise_BB27_16:
	movzbl	%cl, %eax
	andl	$1, %eax
	shll	$4, %eax
	addl	%eax, %r9d
	movaps	-104(%rsp), %xmm0
	movaps	-88(%rsp), %xmm1
	movaps	-72(%rsp), %xmm2
	movaps	%xmm2, -24(%rsp)
	movaps	%xmm1, -40(%rsp)
	movaps	%xmm0, -56(%rsp)
	movl	$0, -112(%rsp)
	movb	$0, -108(%rsp)
.Lnoise_BB27_17:
	movaps	-56(%rsp), %xmm0
	movaps	-40(%rsp), %xmm1
	movaps	-24(%rsp), %xmm2
	movups	%xmm2, 32(%rdi)
	movups	%xmm1, 16(%rdi)
	movups	%xmm0, (%rdi)
	movw	%r9w, 48(%rdi)
	movb	%dl, 50(%rdi)
	movl	-112(%rsp), %eax
	movl	%eax, 51(%rdi)
	movzbl	-108(%rsp), %eax
	movb	%al, 55(%rdi)
	popq	%rbx
	.cfi_def_cfa_offset 16
	popq	%r14
	.cfi_def_cfa_offset 8
	retq
.Lnoise_func_end27:
	.size	"noise_handshake::layout::lay_next", .Lnoise_func_end27-"noise_handshake::layout::lay_next"
	.cfi_endproc

	.section	".text.noise_c::messages::read_next","ax",@progbits
	.p2align	4
	.type	"noise_c::messages::read_next",@function
"noise_c::messages::read_next":
	.cfi_startproc
	pushq	%rbp
	.cfi_def_cfa_offset 16
	pushq	%r15
	.cfi_def_cfa_offset 24
	pushq	%r14
	.cfi_def_cfa_offset 32
	pushq	%r13
	.cfi_def_cfa_offset 40
	pushq	%r12
	.cfi_def_cfa_offset 48
	pushq	%rbx
	.cfi_def_cfa_offset 56
	subq	$3072, %rsp
	.cfi_adjust_cfa_offset 3072
	movq	$0, (%rsp)
	subq	$104, %rsp
	.cfi_def_cfa_offset 3232
	.cfi_offset %rbx, -56
	.cfi_offset %r12, -48
	.cfi_offset %r13, -40
	.cfi_offset %r14, -32
	.cfi_offset %r15, -24
	.cfi_offset %rbp, -16
	movq	%rcx, %rbx
	movq	%rdx, %r12
	movq	%rsi, %r13
	movq	%rdi, %r14
	leaq	1448(%rsp), %rdi
	movl	$864, %edx
	xorl	%esi, %esi
	callq	memset@PLT
	leaq	576(%rsp), %rdi
	movl	$872, %edx
	xorl	%esi, %esi
	callq	memset@PLT
	cmpl	$1315897601, (%r14)
	jne	.Lnoise_BB28_5
	movzwl	420(%r14), %edx
	cmpq	$416, %rdx
	ja	.Lnoise_BB28_5
	cmpb	$8, 846(%r14)
	ja	.Lnoise_BB28_5
	cmpb	$9, 557(%r14)
	ja	.Lnoise_BB28_5
	leaq	4(%r14), %rsi
	leaq	160(%rsp), %rdi
	callq	"noise_c::patterns::pattern_of"
	cmpb	$0, 160(%rsp)
	je	.Lnoise_BB28_6
.Lnoise_BB28_5:
	movl	$23, %eax
.Lnoise_BB28_78:
	addq	$3176, %rsp
	.cfi_def_cfa_offset 56
	popq	%rbx
	.cfi_def_cfa_offset 48
	popq	%r12
	.cfi_def_cfa_offset 40
	popq	%r13
	.cfi_def_cfa_offset 32
	popq	%r14
	.cfi_def_cfa_offset 24
	popq	%r15
	.cfi_def_cfa_offset 16
	popq	%rbp
	.cfi_def_cfa_offset 8
	retq
.Lnoise_BB28_6:
	.cfi_def_cfa_offset 3232
	leaq	168(%rsp), %rdx
	leaq	576(%rsp), %rdi
	movq	%r14, %rsi
	callq	"noise_c::from_c::restored"
	movzbl	576(%rsp), %ebp
	leaq	584(%rsp), %rsi
	leaq	2312(%rsp), %rdi
	movl	$864, %edx
	callq	memcpy@PLT
	movl	$23, %eax
	cmpb	$1, %bpl
	jne	.Lnoise_BB28_78
	leaq	1448(%rsp), %rdi
	leaq	2312(%rsp), %rsi
	movl	$864, %edx
	callq	memcpy@PLT
	movl	$24, %eax
	cmpq	$65536, %r12
	jae	.Lnoise_BB28_78
	movl	$13, %eax
	cmpb	$0, 2137(%rsp)
	jne	.Lnoise_BB28_78
	movzbl	2136(%rsp), %ecx
	movl	$12, %eax
	cmpq	%rcx, 1712(%rsp)
	je	.Lnoise_BB28_78
	cmpb	$0, 1752(%rsp)
	sete	%dl
	xorb	%cl, %dl
	movl	$10, %eax
	testb	$1, %dl
	jne	.Lnoise_BB28_78
	leaq	2144(%rsp), %rdi
	movq	2184(%rsp), %rsi
	movq	2120(%rsp), %rbp
	movq	2128(%rsp), %r15
	subq	%r15, %rbp
	movq	%rsi, 40(%rsp)
	movq	%rbp, %rdx
	callq	"noise_handshake::layout::psk_after"
	testb	%al, %al
	je	.Lnoise_BB28_12
	xorl	%esi, %esi
	cmpb	$1, %al
	movzbl	%dl, %eax
	cmoveq	%rax, %rsi
	movq	$0, 96(%rsp)
	movw	$0, 104(%rsp)
	movq	$0, 48(%rsp)
	movb	$0, 56(%rsp)
	shlq	$5, %r15
	leaq	(%rsp,%r15), %r8
	addq	$1832, %r8
	leaq	1720(%rsp), %rcx
	xorps	%xmm0, %xmm0
	movaps	%xmm0, 448(%rsp)
	movq	$0, 464(%rsp)
	movups	3064(%rsp), %xmm0
	movups	3080(%rsp), %xmm1
	movups	3096(%rsp), %xmm2
	movdqu	3112(%rsp), %xmm3
	movaps	%xmm0, 512(%rsp)
	movaps	%xmm1, 528(%rsp)
	movaps	%xmm2, 544(%rsp)
	movdqa	%xmm3, 560(%rsp)
	movzbl	2264(%rsp), %eax
	movq	2304(%rsp), %rdx
	movaps	%xmm0, 576(%rsp)
	movaps	%xmm1, 592(%rsp)
	movaps	%xmm2, 608(%rsp)
	movdqa	%xmm3, 624(%rsp)
	movb	%al, 640(%rsp)
	movups	3129(%rsp), %xmm0
	movups	3145(%rsp), %xmm1
	movups	%xmm1, 657(%rsp)
	movups	%xmm0, 641(%rsp)
	movl	$0, 676(%rsp)
	movl	$0, 673(%rsp)
	movq	%rdx, 680(%rsp)
	movzbl	1760(%rsp), %eax
	movups	2625(%rsp), %xmm0
	movups	2641(%rsp), %xmm1
	movups	%xmm1, 177(%rsp)
	movups	%xmm0, 161(%rsp)
	movzbl	1793(%rsp), %edx
	movdqu	2658(%rsp), %xmm0
	movdqu	2674(%rsp), %xmm1
	movdqu	%xmm1, 210(%rsp)
	movdqu	%xmm0, 194(%rsp)
	movb	%al, 160(%rsp)
	movb	%dl, 193(%rsp)
	movq	%r12, 24(%rsp)
	movq	%r13, 16(%rsp)
	movq	%rsi, 8(%rsp)
	leaq	2144(%rsp), %rax
	movq	%rax, (%rsp)
	leaq	448(%rsp), %rdi
	leaq	576(%rsp), %rsi
	leaq	160(%rsp), %rdx
	movq	%rbp, %r9
	callq	"noise_handshake::reader::read_tokens::<#3dfcfe118667ed30>"
	cmpb	$0, 448(%rsp)
	setne	%dl
	je	.Lnoise_BB28_79
	movq	456(%rsp), %r10
	movzbl	464(%rsp), %edi
	cmpb	$2, %dil
	setne	%al
	cmpq	40(%rsp), %r10
	setae	%cl
	orb	%al, %cl
	jne	.Lnoise_BB28_77
	movzbl	2144(%rsp,%r10,4), %r9d
	cmpb	$0, 1752(%rsp)
	je	.Lnoise_BB28_46
	movl	%r9d, %eax
	andb	$-2, %al
	cmpb	$4, %al
	jne	.Lnoise_BB28_51
	cmpb	$1, 193(%rsp)
	jne	.Lnoise_BB28_77
	movd	194(%rsp), %xmm1
	movq	198(%rsp), %xmm3
	movsd	206(%rsp), %xmm2
	movzbl	214(%rsp), %esi
	movq	215(%rsp), %rdi
	movzbl	223(%rsp), %eax
	movzwl	224(%rsp), %r8d
	jmp	.Lnoise_BB28_57
.Lnoise_BB28_12:
	shlq	$5, %r15
	leaq	(%rsp,%r15), %r8
	addq	$1832, %r8
	movups	3064(%rsp), %xmm0
	movups	3080(%rsp), %xmm1
	movups	3096(%rsp), %xmm2
	movdqu	3112(%rsp), %xmm3
	movaps	%xmm0, 512(%rsp)
	movaps	%xmm1, 528(%rsp)
	movaps	%xmm2, 544(%rsp)
	movdqa	%xmm3, 560(%rsp)
	movzbl	2264(%rsp), %eax
	movq	2304(%rsp), %rcx
	movaps	%xmm0, 576(%rsp)
	movaps	%xmm1, 592(%rsp)
	movaps	%xmm2, 608(%rsp)
	movdqa	%xmm3, 624(%rsp)
	movb	%al, 640(%rsp)
	movups	3129(%rsp), %xmm0
	movups	3145(%rsp), %xmm1
	movups	%xmm1, 657(%rsp)
	movups	%xmm0, 641(%rsp)
	movl	$0, 676(%rsp)
	movl	$0, 673(%rsp)
	movq	%rcx, 680(%rsp)
	movzbl	1760(%rsp), %eax
	movups	2625(%rsp), %xmm0
	movups	2641(%rsp), %xmm1
	movups	%xmm1, 177(%rsp)
	movups	%xmm0, 161(%rsp)
	movzbl	1793(%rsp), %ecx
	movdqu	2658(%rsp), %xmm0
	movdqu	2674(%rsp), %xmm1
	movdqu	%xmm1, 210(%rsp)
	movdqu	%xmm0, 194(%rsp)
	movb	%al, 160(%rsp)
	movb	%cl, 193(%rsp)
	leaq	1720(%rsp), %rcx
	pxor	%xmm0, %xmm0
	movdqa	%xmm0, 96(%rsp)
	movq	$0, 112(%rsp)
	movq	%r12, 24(%rsp)
	movq	%r13, 16(%rsp)
	movq	40(%rsp), %r15
	movq	%r15, 8(%rsp)
	leaq	2144(%rsp), %rax
	movq	%rax, (%rsp)
	leaq	96(%rsp), %rdi
	leaq	576(%rsp), %rsi
	leaq	160(%rsp), %rdx
	movq	%rbp, %r9
	callq	"noise_handshake::reader::read_tokens::<#3dfcfe118667ed30>"
	cmpb	$0, 96(%rsp)
	movq	104(%rsp), %rbp
	je	.Lnoise_BB28_13
	movzbl	112(%rsp), %edi
	cmpb	$2, %dil
	sete	%al
	cmpq	%r15, %rbp
	setb	%cl
	andb	%al, %cl
	cmpb	$1, %cl
	jne	.Lnoise_BB28_23
	movzbl	2144(%rsp,%rbp,4), %r8d
	cmpb	$0, 1752(%rsp)
	je	.Lnoise_BB28_25
	movl	%r8d, %eax
	andb	$-2, %al
	cmpb	$4, %al
	jne	.Lnoise_BB28_32
	cmpb	$1, 193(%rsp)
	jne	.Lnoise_BB28_40
	movzbl	194(%rsp), %edx
	movzwl	195(%rsp), %eax
	movd	%eax, %xmm1
	movdqu	197(%rsp), %xmm3
	movzbl	213(%rsp), %esi
	movd	214(%rsp), %xmm0
	movq	218(%rsp), %rax
	jmp	.Lnoise_BB28_34
.Lnoise_BB28_79:
	movzbl	193(%rsp), %ecx
	movd	194(%rsp), %xmm1
	movq	198(%rsp), %xmm3
	movsd	206(%rsp), %xmm2
	movd	214(%rsp), %xmm0
	movq	218(%rsp), %rax
	jmp	.Lnoise_BB28_60
.Lnoise_BB28_13:
	subq	%rbp, %r12
	pxor	%xmm0, %xmm0
	movdqa	%xmm0, 48(%rsp)
	cmpb	$1, 640(%rsp)
	jne	.Lnoise_BB28_20
	cmpq	$65535, %r12
	ja	.Lnoise_BB28_21
	cmpq	$-1, 680(%rsp)
	je	.Lnoise_BB28_21
	cmpq	$15, %r12
	ja	.Lnoise_BB28_17
	jmp	.Lnoise_BB28_19
.Lnoise_BB28_23:
	xorl	%eax, %eax
	movq	%rbp, %r10
	xorl	%esi, %esi
	xorl	%edx, %edx
	xorl	%ecx, %ecx
	xorl	%r8d, %r8d
	pxor	%xmm0, %xmm0
	pxor	%xmm1, %xmm1
	pxor	%xmm3, %xmm3
	jmp	.Lnoise_BB28_41
.Lnoise_BB28_46:
	movl	$87, %eax
	btl	%r9d, %eax
	jae	.Lnoise_BB28_53
	cmpb	$1, 160(%rsp)
	jne	.Lnoise_BB28_77
	movd	161(%rsp), %xmm1
	movq	165(%rsp), %xmm3
	movsd	173(%rsp), %xmm2
	movzbl	181(%rsp), %esi
	movq	182(%rsp), %rdi
	movzbl	190(%rsp), %eax
	movzwl	191(%rsp), %r8d
	jmp	.Lnoise_BB28_49
.Lnoise_BB28_20:
	cmpq	$65535, %r12
	ja	.Lnoise_BB28_21
.Lnoise_BB28_17:
	addq	%rbp, %r13
	leaq	608(%rsp), %r15
	leaq	448(%rsp), %rdi
	movq	%r15, %rsi
	movq	%r13, %rdx
	movq	%r12, %rcx
	callq	"noise_state::symmetric::hash_of_both"
	leaq	48(%rsp), %rdi
	movl	$32, %ecx
	leaq	640(%rsp), %rsi
	movq	%r15, %rdx
	movq	%r13, %r8
	movq	%r12, %r9
	callq	"noise_state::cipher::CipherState::decrypt"
	cmpb	$0, 48(%rsp)
	je	.Lnoise_BB28_63
	movzbl	49(%rsp), %eax
	decb	%al
	cmpb	$2, %al
	jae	.Lnoise_BB28_21
.Lnoise_BB28_19:
	cmpq	$16, %r12
	setae	%dil
	pxor	%xmm0, %xmm0
	xorl	%eax, %eax
	xorl	%esi, %esi
	xorl	%edx, %edx
	xorl	%ecx, %ecx
	xorl	%r8d, %r8d
	pxor	%xmm3, %xmm3
	pxor	%xmm1, %xmm1
	movq	40(%rsp), %r10
	jmp	.Lnoise_BB28_41
.Lnoise_BB28_51:
	cmpb	$1, 160(%rsp)
	jne	.Lnoise_BB28_77
	movd	161(%rsp), %xmm1
	movq	165(%rsp), %xmm3
	movsd	173(%rsp), %xmm2
	movzbl	181(%rsp), %esi
	movq	182(%rsp), %rdi
	movzbl	190(%rsp), %eax
	movzwl	191(%rsp), %r8d
.Lnoise_BB28_57:
	movb	$1, %cl
	movl	$87, %r10d
	btl	%r9d, %r10d
	jae	.Lnoise_BB28_59
.Lnoise_BB28_58:
	xorl	%ecx, %ecx
.Lnoise_BB28_59:
	movq	%rdi, 48(%rsp)
	movb	%al, 56(%rsp)
	movq	49(%rsp), %r9
	movq	%r9, 96(%rsp)
	movw	%r8w, 104(%rsp)
	movq	98(%rsp), %rax
	movzbl	%sil, %esi
	movzbl	%dil, %edi
	shll	$8, %edi
	orl	%esi, %edi
	movzbl	%r9b, %esi
	shll	$16, %esi
	orl	%edi, %esi
	shll	$16, %r9d
	andl	$-16777216, %r9d
	orl	%esi, %r9d
	movd	%r9d, %xmm0
.Lnoise_BB28_60:
	movaps	%xmm2, 80(%rsp)
	movzbl	80(%rsp), %edi
	movzbl	81(%rsp), %r8d
	movzbl	82(%rsp), %r9d
	movzbl	83(%rsp), %r10d
	movzbl	84(%rsp), %r11d
	movzbl	85(%rsp), %ebp
	movzbl	86(%rsp), %r14d
	movzbl	87(%rsp), %esi
	jmp	.Lnoise_BB28_61
.Lnoise_BB28_25:
	movl	$87, %eax
	btl	%r8d, %eax
	jae	.Lnoise_BB28_36
	cmpb	$1, 160(%rsp)
	jne	.Lnoise_BB28_40
	movzbl	161(%rsp), %edx
	movzwl	162(%rsp), %eax
	movd	%eax, %xmm1
	movdqu	164(%rsp), %xmm3
	movzbl	180(%rsp), %esi
	movd	181(%rsp), %xmm0
	movq	185(%rsp), %rax
	jmp	.Lnoise_BB28_28
.Lnoise_BB28_63:
	leaq	2200(%rsp), %r12
	movq	56(%rsp), %rax
	movq	%rax, 440(%rsp)
	movups	448(%rsp), %xmm0
	movups	464(%rsp), %xmm1
	movups	%xmm1, 16(%r15)
	movups	%xmm0, (%r15)
	movzbl	640(%rsp), %eax
	movzbl	160(%rsp), %ecx
	movb	%cl, 39(%rsp)
	movzbl	193(%rsp), %ecx
	movb	%cl, 38(%rsp)
	movzbl	2194(%rsp), %r15d
	addq	2128(%rsp), %r15
	movq	%r15, 2128(%rsp)
	movzbl	2136(%rsp), %r13d
	incb	%r13b
	movb	%r13b, 2136(%rsp)
	movzbl	1753(%rsp), %edx
	movb	%al, 40(%rsp)
	movzbl	%al, %ecx
	movzbl	%r13b, %r8d
	leaq	448(%rsp), %rdi
	leaq	1448(%rsp), %rsi
	callq	"noise_handshake::layout::lay_next"
	movaps	576(%rsp), %xmm0
	movaps	592(%rsp), %xmm1
	movaps	608(%rsp), %xmm2
	movdqa	624(%rsp), %xmm3
	movdqu	%xmm3, 48(%r12)
	movups	%xmm2, 32(%r12)
	movups	%xmm1, 16(%r12)
	movups	%xmm0, (%r12)
	leaq	641(%rsp), %rax
	movups	(%rax), %xmm0
	movups	16(%rax), %xmm1
	movups	31(%rax), %xmm2
	movups	%xmm2, 96(%r12)
	movups	%xmm1, 81(%r12)
	movups	%xmm0, 65(%r12)
	leaq	161(%rsp), %rax
	movups	(%rax), %xmm0
	movups	16(%rax), %xmm1
	movups	%xmm1, -423(%r12)
	movups	%xmm0, -439(%r12)
	movups	33(%rax), %xmm0
	movups	49(%rax), %xmm1
	movups	%xmm1, -390(%r12)
	movups	%xmm0, -406(%r12)
	movq	%rbp, (%rbx)
	movq	440(%rsp), %rax
	movq	%rax, 8(%rbx)
	movl	2120(%rsp), %ecx
	subl	%r15d, %ecx
	movzbl	39(%rsp), %eax
	movl	%eax, %edi
	cmpb	$1, %al
	jne	.Lnoise_BB28_65
	movups	-439(%r12), %xmm0
	movups	-423(%r12), %xmm1
	movaps	%xmm1, 144(%rsp)
	jmp	.Lnoise_BB28_66
.Lnoise_BB28_32:
	cmpb	$1, 160(%rsp)
	jne	.Lnoise_BB28_40
	movzbl	161(%rsp), %edx
	movzwl	162(%rsp), %eax
	movd	%eax, %xmm1
	movdqu	164(%rsp), %xmm3
	movzbl	180(%rsp), %esi
	movd	181(%rsp), %xmm0
	movq	185(%rsp), %rax
.Lnoise_BB28_34:
	movb	$1, %cl
	movb	$2, %dil
	movl	$87, %r9d
	btl	%r8d, %r9d
	jb	.Lnoise_BB28_35
	jmp	.Lnoise_BB28_30
.Lnoise_BB28_53:
	cmpb	$1, 193(%rsp)
	jne	.Lnoise_BB28_77
	movd	194(%rsp), %xmm1
	movq	198(%rsp), %xmm3
	movsd	206(%rsp), %xmm2
	movzbl	214(%rsp), %esi
	movq	215(%rsp), %rdi
	movzbl	223(%rsp), %eax
	movzwl	224(%rsp), %r8d
.Lnoise_BB28_49:
	andb	$-2, %r9b
	movb	$1, %cl
	cmpb	$4, %r9b
	jne	.Lnoise_BB28_58
	jmp	.Lnoise_BB28_59
.Lnoise_BB28_65:
	xorps	%xmm0, %xmm0
	movaps	%xmm0, 144(%rsp)
.Lnoise_BB28_66:
	movaps	%xmm0, 128(%rsp)
	leaq	2232(%rsp), %rdx
	movzbl	2137(%rsp), %esi
	movq	2304(%rsp), %rax
	movb	%dil, 491(%r14)
	movaps	128(%rsp), %xmm0
	movaps	144(%rsp), %xmm1
	movups	%xmm0, 492(%r14)
	movups	%xmm1, 508(%r14)
	cmpb	$1, 38(%rsp)
	jne	.Lnoise_BB28_68
	movups	-406(%r12), %xmm0
	movups	-390(%r12), %xmm1
	movaps	%xmm1, 592(%rsp)
	jmp	.Lnoise_BB28_69
.Lnoise_BB28_68:
	xorps	%xmm0, %xmm0
	movaps	%xmm0, 592(%rsp)
.Lnoise_BB28_69:
	movaps	%xmm0, 576(%rsp)
	movaps	576(%rsp), %xmm0
	movaps	592(%rsp), %xmm1
	movaps	%xmm1, 144(%rsp)
	movaps	%xmm0, 128(%rsp)
	movzbl	38(%rsp), %edi
	movb	%dil, 524(%r14)
	movaps	128(%rsp), %xmm0
	movaps	144(%rsp), %xmm1
	movups	%xmm0, 525(%r14)
	movups	%xmm1, 541(%r14)
	movb	%cl, 557(%r14)
	movb	%r13b, 424(%r14)
	movb	%sil, 423(%r14)
	movups	(%r12), %xmm0
	movups	16(%r12), %xmm1
	movups	%xmm0, 1367(%r14)
	movups	%xmm1, 1383(%r14)
	movups	(%rdx), %xmm0
	movups	16(%rdx), %xmm1
	movups	%xmm0, 1399(%r14)
	movups	%xmm1, 1415(%r14)
	cmpb	$1, 40(%rsp)
	jne	.Lnoise_BB28_71
	movups	65(%r12), %xmm0
	movups	81(%r12), %xmm1
	movaps	%xmm1, 592(%rsp)
	jmp	.Lnoise_BB28_72
.Lnoise_BB28_71:
	xorps	%xmm0, %xmm0
	movaps	%xmm0, 592(%rsp)
.Lnoise_BB28_72:
	movaps	%xmm0, 576(%rsp)
	movaps	576(%rsp), %xmm0
	movaps	592(%rsp), %xmm1
	movaps	%xmm1, 144(%rsp)
	movaps	%xmm0, 128(%rsp)
	movzbl	40(%rsp), %ecx
	movb	%cl, 1431(%r14)
	movdqa	128(%rsp), %xmm0
	movdqa	144(%rsp), %xmm1
	movdqu	%xmm0, 1432(%r14)
	movdqu	%xmm1, 1448(%r14)
	movq	%rax, 1464(%r14)
	xorl	%eax, %eax
	jmp	.Lnoise_BB28_78
.Lnoise_BB28_36:
	cmpb	$1, 193(%rsp)
	jne	.Lnoise_BB28_40
	movzbl	194(%rsp), %edx
	movzwl	195(%rsp), %eax
	movd	%eax, %xmm1
	movdqu	197(%rsp), %xmm3
	movzbl	213(%rsp), %esi
	movd	214(%rsp), %xmm0
	movq	218(%rsp), %rax
.Lnoise_BB28_28:
	andb	$-2, %r8b
	cmpb	$4, %r8b
	jne	.Lnoise_BB28_35
	movb	$1, %cl
	movb	$2, %dil
.Lnoise_BB28_30:
	movq	%rbp, %r10
	movb	$1, %r8b
	jmp	.Lnoise_BB28_41
.Lnoise_BB28_40:
	pxor	%xmm0, %xmm0
	movb	$2, %dil
	xorl	%eax, %eax
	movq	%rbp, %r10
	xorl	%esi, %esi
	xorl	%edx, %edx
	xorl	%ecx, %ecx
	xorl	%r8d, %r8d
	pxor	%xmm3, %xmm3
	pxor	%xmm1, %xmm1
	jmp	.Lnoise_BB28_41
.Lnoise_BB28_35:
	movb	$1, %r8b
	movb	$2, %dil
	xorl	%ecx, %ecx
	movq	%rbp, %r10
.Lnoise_BB28_41:
	movdqa	%xmm3, 64(%rsp)
	testb	%r8b, %r8b
	je	.Lnoise_BB28_77
	movzbl	73(%rsp), %edi
	movzbl	74(%rsp), %r8d
	movzbl	75(%rsp), %r9d
	movzbl	76(%rsp), %r10d
	movzbl	77(%rsp), %r11d
	movzbl	78(%rsp), %ebp
	movzbl	79(%rsp), %r14d
	movzbl	%dl, %edx
	movd	%xmm1, %r15d
	movzbl	%r15b, %r12d
	shll	$8, %r12d
	orl	%edx, %r12d
	shll	$8, %r15d
	andl	$16711680, %r15d
	orl	%r12d, %r15d
	movl	64(%rsp), %edx
	shll	$24, %edx
	orl	%r15d, %edx
	movd	%edx, %xmm1
	psrldq	$1, %xmm3
	movb	$1, %dl
.Lnoise_BB28_61:
	movzbl	%sil, %esi
	shlq	$56, %rsi
	movzbl	%r14b, %r14d
	shlq	$48, %r14
	orq	%rsi, %r14
	movzbl	%bpl, %esi
	shlq	$40, %rsi
	orq	%r14, %rsi
	movzbl	%r11b, %r11d
	shlq	$32, %r11
	orq	%rsi, %r11
	movzbl	%r10b, %esi
	shll	$24, %esi
	orq	%r11, %rsi
	movzbl	%r9b, %r9d
	shll	$16, %r9d
	orq	%rsi, %r9
	movzbl	%r8b, %r8d
	shll	$8, %r8d
	orq	%r9, %r8
	movzbl	%dil, %esi
	orq	%r8, %rsi
	testb	%dl, %dl
	je	.Lnoise_BB28_73
	movb	%cl, 17(%rbx)
	movd	%xmm1, 18(%rbx)
	movq	%xmm3, 22(%rbx)
	movq	%rsi, 30(%rbx)
	movd	%xmm0, 38(%rbx)
	movq	%rax, 42(%rbx)
	movl	$20, %eax
	jmp	.Lnoise_BB28_78
.Lnoise_BB28_77:
	movzbl	%dil, %eax
	leaq	".Lnoise_switch.table.noise_c::messages::read_next"(%rip), %rcx
	movl	(%rcx,%rax,4), %eax
	movb	%r10b, 16(%rbx)
	jmp	.Lnoise_BB28_78
.Lnoise_BB28_73:
	cmpb	$1, %cl
	jne	.Lnoise_BB28_75
	movq	%xmm3, %rdx
	jmp	.Lnoise_BB28_76
.Lnoise_BB28_75:
	pxor	%xmm1, %xmm1
	xorl	%eax, %eax
	xorl	%esi, %esi
	xorl	%edx, %edx
	pxor	%xmm0, %xmm0
.Lnoise_BB28_76:
	movd	%xmm1, 18(%rbx)
	movq	%rdx, 22(%rbx)
	movq	%rsi, 30(%rbx)
	movd	%xmm0, 38(%rbx)
	movq	%rax, 42(%rbx)
	movb	%cl, 50(%rbx)
	movl	$40, %eax
	jmp	.Lnoise_BB28_78
.Lnoise_BB28_21:
	ud2
.Lnoise_func_end28:
	.size	"noise_c::messages::read_next", .Lnoise_func_end28-"noise_c::messages::read_next"
	.cfi_endproc

	.section	".text.noise_handshake::layout::psk_after","ax",@progbits
	.p2align	4
	.type	"noise_handshake::layout::psk_after",@function
"noise_handshake::layout::psk_after":
	.cfi_startproc
	pushq	%rax
	.cfi_def_cfa_offset 16
	testq	%rsi, %rsi
	je	.Lnoise_BB29_1
	movq	%rdi, %rax
	addq	$4, %rdi
	decq	%rsi
	cmpb	$6, (%rax)
	jne	.Lnoise_BB29_6
	testq	%rdx, %rdx
	je	.Lnoise_BB29_4
	decq	%rdx
.Lnoise_BB29_6:
	callq	"noise_handshake::layout::psk_after"
	movq	%rdx, %rcx
	incq	%rcx
	xorl	%edx, %edx
	cmpb	$1, %al
	sete	%al
	cmoveq	%rcx, %rdx
	popq	%rcx
	.cfi_def_cfa_offset 8
	retq
.Lnoise_BB29_1:
	.cfi_def_cfa_offset 16
	xorl	%edx, %edx
	xorl	%eax, %eax
	popq	%rcx
	.cfi_def_cfa_offset 8
	retq
.Lnoise_BB29_4:
	.cfi_def_cfa_offset 16
	movb	$1, %al
	xorl	%edx, %edx
	popq	%rcx
	.cfi_def_cfa_offset 8
	retq
.Lnoise_func_end29:
	.size	"noise_handshake::layout::psk_after", .Lnoise_func_end29-"noise_handshake::layout::psk_after"
	.cfi_endproc

	.section	".text.noise_handshake::reader::read_tokens::<#3dfcfe118667ed30>","ax",@progbits
	.p2align	4
	.type	"noise_handshake::reader::read_tokens::<#3dfcfe118667ed30>",@function
"noise_handshake::reader::read_tokens::<#3dfcfe118667ed30>":
	.cfi_startproc
	pushq	%rbp
	.cfi_def_cfa_offset 16
	pushq	%r15
	.cfi_def_cfa_offset 24
	pushq	%r14
	.cfi_def_cfa_offset 32
	pushq	%r13
	.cfi_def_cfa_offset 40
	pushq	%r12
	.cfi_def_cfa_offset 48
	pushq	%rbx
	.cfi_def_cfa_offset 56
	subq	$792, %rsp
	.cfi_def_cfa_offset 848
	.cfi_offset %rbx, -56
	.cfi_offset %r12, -48
	.cfi_offset %r13, -40
	.cfi_offset %r14, -32
	.cfi_offset %r15, -24
	.cfi_offset %rbp, -16
	movq	%rdi, %r14
	movq	856(%rsp), %r13
	movl	$0, 91(%rsp)
	movl	$0, 88(%rsp)
	xorps	%xmm0, %xmm0
	movaps	%xmm0, 128(%rsp)
	movq	$0, 144(%rsp)
	movl	$0, 64(%rsp)
	movl	$0, 67(%rsp)
	movl	$0, 80(%rsp)
	movl	$0, 83(%rsp)
	testq	%r13, %r13
	je	.Lnoise_BB30_6
	movq	872(%rsp), %r11
	movq	864(%rsp), %r12
	movq	848(%rsp), %r10
	movzwl	2(%r10), %edi
	leaq	(%r12,%rdi), %r15
	movq	%r11, %rax
	subq	%rdi, %rax
	movl	(%r10), %ebx
	movzbl	%bl, %edi
	leaq	.Lnoise_JTI30_0(%rip), %r10
	movslq	(%r10,%rdi,4), %rdi
	addq	%r10, %rdi
	notrack jmpq	*%rdi
.Lnoise_BB30_2:
	cmpb	$0, 32(%rcx)
	je	.Lnoise_BB30_7
	movl	%ebx, %eax
	andb	$-2, %al
	cmpb	$4, %al
	jne	.Lnoise_BB30_10
	cmpb	$1, 33(%rdx)
	jne	.Lnoise_BB30_24
	movq	%r12, %rbp
	movq	%rsi, %r12
	movq	%rcx, %rax
	movups	34(%rdx), %xmm0
	movups	50(%rdx), %xmm1
	jmp	.Lnoise_BB30_12
.Lnoise_BB30_6:
	movups	%xmm0, (%r14)
	movq	$0, 16(%r14)
	jmp	.Lnoise_BB30_43
.Lnoise_BB30_7:
	movzbl	%bl, %eax
	addl	$-2, %eax
	leaq	.Lnoise_JTI30_1(%rip), %rdi
	movslq	(%rdi,%rax,4), %rax
	addq	%rdi, %rax
	notrack jmpq	*%rax
.Lnoise_BB30_8:
	cmpb	$1, (%rdx)
	jne	.Lnoise_BB30_24
	movq	%r12, %rbp
	movq	%rsi, %r12
	movups	1(%rdx), %xmm0
	movups	17(%rdx), %xmm1
	jmp	.Lnoise_BB30_20
.Lnoise_BB30_10:
	cmpb	$1, (%rdx)
	jne	.Lnoise_BB30_24
	movq	%r12, %rbp
	movq	%rsi, %r12
	movq	%rcx, %rax
	movups	1(%rdx), %xmm0
	movups	17(%rdx), %xmm1
.Lnoise_BB30_12:
	movaps	%xmm1, 528(%rsp)
	movaps	%xmm0, 512(%rsp)
	movq	%rdx, 32(%rsp)
	movq	%r8, 40(%rsp)
	movq	%r9, 48(%rsp)
	shll	$3, %ebx
	addb	$-16, %bl
	movl	$16777472, %edi
	movl	%ebx, %ecx
	shrl	%cl, %edi
	movq	%rax, %rcx
	jmp	.Lnoise_BB30_21
.Lnoise_BB30_13:
	cmpq	$32, %rax
	jae	.Lnoise_BB30_25
	movb	$1, %al
	xorl	%ebp, %ebp
	jmp	.Lnoise_BB30_26
.Lnoise_BB30_15:
	movzbl	%bh, %ebp
	cmpq	%rbp, %rax
	jae	.Lnoise_BB30_27
	movb	$1, %al
	xorl	%edi, %edi
	xorl	%ebp, %ebp
	jmp	.Lnoise_BB30_36
.Lnoise_BB30_17:
	movq	%rdx, 32(%rsp)
	movq	%rcx, 56(%rsp)
	movq	%r9, 48(%rsp)
	movq	%rsi, %rdi
	movq	%r8, 40(%rsp)
	movq	%rsi, %rbx
	movq	%r8, %rsi
	callq	"noise_state::symmetric::SymmetricState::mix_key_and_hash"
	movq	%rbx, %rsi
	jmp	.Lnoise_BB30_23
.Lnoise_BB30_18:
	cmpb	$1, 33(%rdx)
	jne	.Lnoise_BB30_24
	movq	%r12, %rbp
	movq	%rsi, %r12
	movups	34(%rdx), %xmm0
	movups	50(%rdx), %xmm1
.Lnoise_BB30_20:
	movaps	%xmm1, 528(%rsp)
	movaps	%xmm0, 512(%rsp)
	movq	%rdx, 32(%rsp)
	movq	%r8, 40(%rsp)
	movq	%r9, 48(%rsp)
	andb	$-2, %bl
	cmpb	$4, %bl
	sete	%dil
.Lnoise_BB30_21:
	movq	16(%rcx), %rsi
	movq	%rcx, 56(%rsp)
	movq	24(%rcx), %rdx
	movzbl	%dil, %ecx
	leaq	176(%rsp), %rdi
	leaq	512(%rsp), %r8
	callq	"noise_c::supplied_keys::result_for"
	movzbl	176(%rsp), %eax
	movups	177(%rsp), %xmm0
	movaps	%xmm0, 480(%rsp)
	movups	193(%rsp), %xmm0
	movaps	%xmm0, 496(%rsp)
	cmpb	$1, %al
	jne	.Lnoise_BB30_24
	movaps	480(%rsp), %xmm0
	movaps	496(%rsp), %xmm1
	movaps	%xmm1, 736(%rsp)
	movaps	%xmm0, 720(%rsp)
	xorps	%xmm0, %xmm0
	movaps	%xmm0, 512(%rsp)
	movaps	%xmm0, 528(%rsp)
	movaps	%xmm0, 544(%rsp)
	movaps	%xmm0, 560(%rsp)
	movaps	%xmm0, 576(%rsp)
	movaps	%xmm0, 592(%rsp)
	movaps	%xmm0, 608(%rsp)
	movaps	%xmm0, 624(%rsp)
	movaps	%xmm0, 640(%rsp)
	movaps	%xmm0, 656(%rsp)
	movaps	%xmm0, 672(%rsp)
	movaps	%xmm0, 688(%rsp)
	movaps	%xmm0, 704(%rsp)
	leaq	720(%rsp), %rax
	movq	%rax, 160(%rsp)
	movq	$32, 168(%rsp)
	movaps	%xmm0, 752(%rsp)
	movaps	%xmm0, 768(%rsp)
	movaps	%xmm0, 176(%rsp)
	movaps	%xmm0, 192(%rsp)
	movaps	%xmm0, 208(%rsp)
	movaps	%xmm0, 224(%rsp)
	movaps	%xmm0, 240(%rsp)
	movaps	%xmm0, 256(%rsp)
	movaps	%xmm0, 272(%rsp)
	movaps	%xmm0, 288(%rsp)
	movaps	%xmm0, 304(%rsp)
	movaps	%xmm0, 320(%rsp)
	movaps	%xmm0, 336(%rsp)
	movaps	%xmm0, 352(%rsp)
	movaps	%xmm0, 368(%rsp)
	leaq	176(%rsp), %r15
	movq	%r15, %rdi
	movq	%r12, %rbx
	movq	%r12, %rsi
	callq	"noise_kdf::keyed::Hmac::new"
	leaq	752(%rsp), %r12
	leaq	160(%rsp), %rdx
	movl	$1, %ecx
	movq	%r12, %rdi
	movq	%r15, %rsi
	callq	"noise_kdf::keyed::Hmac::code"
	leaq	512(%rsp), %r15
	movq	%r15, %rdi
	movq	%r12, %rsi
	callq	"noise_kdf::keyed::Hmac::new"
	xorps	%xmm0, %xmm0
	movaps	%xmm0, 416(%rsp)
	movaps	%xmm0, 432(%rsp)
	movaps	%xmm0, 384(%rsp)
	movaps	%xmm0, 400(%rsp)
	leaq	.Lnoise_static.102(%rip), %rdx
	leaq	384(%rsp), %rdi
	movl	$1, %ecx
	movq	%r15, %rsi
	callq	"noise_kdf::keyed::Hmac::code"
	movaps	384(%rsp), %xmm0
	movaps	400(%rsp), %xmm1
	movaps	%xmm1, 112(%rsp)
	movaps	%xmm0, 96(%rsp)
	leaq	96(%rsp), %rax
	movq	%rax, 448(%rsp)
	movq	$32, 456(%rsp)
	leaq	.Lnoise_static.103(%rip), %rax
	movq	%rax, 464(%rsp)
	movq	$1, 472(%rsp)
	leaq	416(%rsp), %rdi
	leaq	448(%rsp), %rdx
	movl	$2, %ecx
	movq	%r15, %rsi
	callq	"noise_kdf::keyed::Hmac::code"
	movq	%rbx, %rsi
	movaps	96(%rsp), %xmm0
	movaps	112(%rsp), %xmm1
	movaps	%xmm1, 192(%rsp)
	movaps	%xmm0, 176(%rsp)
	movaps	416(%rsp), %xmm2
	movaps	432(%rsp), %xmm3
	movaps	%xmm2, 208(%rsp)
	movaps	%xmm3, 224(%rsp)
	movups	%xmm1, 16(%rbx)
	movups	%xmm0, (%rbx)
	movb	$1, 64(%rbx)
	movaps	208(%rsp), %xmm0
	movaps	224(%rsp), %xmm1
	movups	%xmm0, 65(%rbx)
	movups	%xmm1, 81(%rbx)
	movq	$0, 104(%rbx)
	movq	%rbp, %r12
.Lnoise_BB30_23:
	xorl	%ebp, %ebp
	movq	48(%rsp), %r9
	movq	40(%rsp), %r8
	movq	56(%rsp), %rcx
	movq	32(%rsp), %rdx
	movq	872(%rsp), %r11
	jmp	.Lnoise_BB30_38
.Lnoise_BB30_24:
	movb	$2, %dil
	jmp	.Lnoise_BB30_37
.Lnoise_BB30_25:
	movzbl	33(%rcx), %eax
	movq	%rsi, %rdi
	movq	%rsi, 72(%rsp)
	movl	%eax, %esi
	movq	%rdx, 32(%rsp)
	movq	%r15, %rdx
	movq	%r9, %rbp
	movq	%r8, %r12
	movq	%rcx, %rbx
	callq	"noise_handshake::tokens::mix_ephemeral"
	movq	872(%rsp), %r11
	movq	72(%rsp), %rsi
	movq	32(%rsp), %rdx
	movq	%rbx, %rcx
	movq	%r12, %r8
	movq	864(%rsp), %r12
	movq	%rbp, %r9
	movups	(%r15), %xmm0
	movups	16(%r15), %xmm1
	movaps	%xmm1, 192(%rsp)
	movaps	%xmm0, 176(%rsp)
	movb	$1, (%rdx)
	movaps	176(%rsp), %xmm0
	movaps	192(%rsp), %xmm1
	movups	%xmm0, 1(%rdx)
	movups	%xmm1, 17(%rdx)
	movl	$32, %ebp
	xorl	%eax, %eax
.Lnoise_BB30_26:
	xorl	%edi, %edi
	jmp	.Lnoise_BB30_36
.Lnoise_BB30_27:
	movq	%rdx, 32(%rsp)
	movq	%rcx, 56(%rsp)
	movq	%r8, 40(%rsp)
	movq	%r9, 48(%rsp)
	movaps	%xmm0, 208(%rsp)
	movaps	%xmm0, 192(%rsp)
	movaps	%xmm0, 176(%rsp)
	leaq	176(%rsp), %rdi
	movq	%rsi, 72(%rsp)
	movq	%r15, %rsi
	movq	%rbp, %rdx
	callq	memcpy@PLT
	movq	72(%rsp), %rsi
	xorps	%xmm0, %xmm0
	movaps	%xmm0, 96(%rsp)
	cmpb	$1, 64(%rsi)
	jne	.Lnoise_BB30_30
	cmpq	$-1, 104(%rsi)
	je	.Lnoise_BB30_44
	testl	$61440, %ebx
	je	.Lnoise_BB30_34
.Lnoise_BB30_30:
	leaq	64(%rsi), %r15
	leaq	32(%rsi), %rbx
	leaq	512(%rsp), %rdi
	leaq	176(%rsp), %r12
	movq	%rbx, %rsi
	movq	%r12, %rdx
	movq	%rbp, %rcx
	callq	"noise_state::symmetric::hash_of_both"
	leaq	96(%rsp), %rdi
	movl	$32, %ecx
	movq	%r15, %rsi
	movq	%rbx, %rdx
	movq	%r12, %r8
	movq	%rbp, %r9
	callq	"noise_state::cipher::CipherState::decrypt"
	cmpb	$0, 96(%rsp)
	je	.Lnoise_BB30_33
	movzbl	97(%rsp), %eax
	decb	%al
	cmpb	$2, %al
	movq	48(%rsp), %r9
	movq	40(%rsp), %r8
	movq	56(%rsp), %rcx
	movq	32(%rsp), %rdx
	movq	872(%rsp), %r11
	jae	.Lnoise_BB30_44
	movb	$1, %al
	xorl	%ebp, %ebp
	movb	$1, %dil
	movq	72(%rsp), %rsi
	movq	864(%rsp), %r12
	jmp	.Lnoise_BB30_36
.Lnoise_BB30_33:
	movups	512(%rsp), %xmm0
	movups	528(%rsp), %xmm1
	movups	%xmm1, 16(%rbx)
	movups	%xmm0, (%rbx)
	movq	32(%rsp), %rdx
	movb	$1, 33(%rdx)
	movaps	176(%rsp), %xmm0
	movaps	192(%rsp), %xmm1
	movups	%xmm0, 34(%rdx)
	movups	%xmm1, 50(%rdx)
	xorl	%eax, %eax
	xorl	%edi, %edi
	movq	48(%rsp), %r9
	movq	40(%rsp), %r8
	movq	56(%rsp), %rcx
	movq	72(%rsp), %rsi
	movq	864(%rsp), %r12
	jmp	.Lnoise_BB30_35
.Lnoise_BB30_34:
	movb	$1, %al
	xorl	%ebp, %ebp
	movb	$1, %dil
	movq	48(%rsp), %r9
	movq	40(%rsp), %r8
	movq	56(%rsp), %rcx
	movq	32(%rsp), %rdx
.Lnoise_BB30_35:
	movq	872(%rsp), %r11
.Lnoise_BB30_36:
	testb	%al, %al
	je	.Lnoise_BB30_38
.Lnoise_BB30_37:
	movq	$1, (%r14)
	movq	$0, 8(%r14)
	movb	%dil, 16(%r14)
	movl	88(%rsp), %eax
	movl	91(%rsp), %ecx
	jmp	.Lnoise_BB30_42
.Lnoise_BB30_38:
	movq	848(%rsp), %r10
	leaq	4(%r10), %rax
	decq	%r13
	xorl	%edi, %edi
	cmpb	$6, (%r10)
	sete	%dil
	subq	%rdi, %r9
	shll	$5, %edi
	addq	%rdi, %r8
	movq	%r11, 24(%rsp)
	movq	%r12, 16(%rsp)
	movq	%r13, 8(%rsp)
	movq	%rax, (%rsp)
	leaq	128(%rsp), %rdi
	callq	"noise_handshake::reader::read_tokens::<#3dfcfe118667ed30>"
	movzbl	128(%rsp), %eax
	movq	136(%rsp), %rcx
	testq	%rax, %rax
	je	.Lnoise_BB30_40
	movzbl	144(%rsp), %edx
	movl	80(%rsp), %esi
	movl	83(%rsp), %edi
	movl	%esi, 64(%rsp)
	movl	%edi, 67(%rsp)
	movl	$1, %ebp
	jmp	.Lnoise_BB30_41
.Lnoise_BB30_40:
	xorl	%edx, %edx
.Lnoise_BB30_41:
	addq	%rbp, %rcx
	movq	%rax, (%r14)
	movq	%rcx, 8(%r14)
	movb	%dl, 16(%r14)
	movl	64(%rsp), %eax
	movl	67(%rsp), %ecx
.Lnoise_BB30_42:
	movl	%eax, 17(%r14)
	movl	%ecx, 20(%r14)
.Lnoise_BB30_43:
	addq	$792, %rsp
	.cfi_def_cfa_offset 56
	popq	%rbx
	.cfi_def_cfa_offset 48
	popq	%r12
	.cfi_def_cfa_offset 40
	popq	%r13
	.cfi_def_cfa_offset 32
	popq	%r14
	.cfi_def_cfa_offset 24
	popq	%r15
	.cfi_def_cfa_offset 16
	popq	%rbp
	.cfi_def_cfa_offset 8
	retq
.Lnoise_BB30_44:
	.cfi_def_cfa_offset 848
	ud2
.Lnoise_func_end30:
	.size	"noise_handshake::reader::read_tokens::<#3dfcfe118667ed30>", .Lnoise_func_end30-"noise_handshake::reader::read_tokens::<#3dfcfe118667ed30>"
	.cfi_endproc
	.section	".rodata.noise_handshake::reader::read_tokens::<#3dfcfe118667ed30>","a",@progbits
	.p2align	2, 0x0
.Lnoise_JTI30_0:
	.long	.Lnoise_BB30_13-.Lnoise_JTI30_0
	.long	.Lnoise_BB30_15-.Lnoise_JTI30_0
	.long	.Lnoise_BB30_2-.Lnoise_JTI30_0
	.long	.Lnoise_BB30_2-.Lnoise_JTI30_0
	.long	.Lnoise_BB30_2-.Lnoise_JTI30_0
	.long	.Lnoise_BB30_2-.Lnoise_JTI30_0
	.long	.Lnoise_BB30_17-.Lnoise_JTI30_0
.Lnoise_JTI30_1:
	.long	.Lnoise_BB30_8-.Lnoise_JTI30_1
	.long	.Lnoise_BB30_18-.Lnoise_JTI30_1
	.long	.Lnoise_BB30_8-.Lnoise_JTI30_1
	.long	.Lnoise_BB30_18-.Lnoise_JTI30_1

	.section	".text.noise_handshake::tokens::mix_ephemeral","ax",@progbits
	.p2align	4
	.type	"noise_handshake::tokens::mix_ephemeral",@function
"noise_handshake::tokens::mix_ephemeral":
	.cfi_startproc
	pushq	%rbp
	.cfi_def_cfa_offset 16
	pushq	%r15
	.cfi_def_cfa_offset 24
	pushq	%r14
	.cfi_def_cfa_offset 32
	pushq	%rbx
	.cfi_def_cfa_offset 40
	subq	$600, %rsp
	.cfi_def_cfa_offset 640
	.cfi_offset %rbx, -40
	.cfi_offset %r14, -32
	.cfi_offset %r15, -24
	.cfi_offset %rbp, -16
	movq	%rdx, %r14
	movl	%esi, %ebp
	movq	%rdi, %rbx
	leaq	32(%rdi), %rsi
	leaq	144(%rsp), %rdi
	movl	$32, %ecx
	callq	"noise_state::symmetric::hash_of_both"
	movups	144(%rsp), %xmm0
	movups	160(%rsp), %xmm1
	movups	%xmm1, 48(%rbx)
	movups	%xmm0, 32(%rbx)
	testl	%ebp, %ebp
	je	.Lnoise_BB31_2
	xorps	%xmm0, %xmm0
	movaps	%xmm0, 384(%rsp)
	movaps	%xmm0, 400(%rsp)
	movaps	%xmm0, 416(%rsp)
	movaps	%xmm0, 432(%rsp)
	movaps	%xmm0, 448(%rsp)
	movaps	%xmm0, 464(%rsp)
	movaps	%xmm0, 480(%rsp)
	movaps	%xmm0, 496(%rsp)
	movaps	%xmm0, 512(%rsp)
	movaps	%xmm0, 528(%rsp)
	movaps	%xmm0, 544(%rsp)
	movaps	%xmm0, 560(%rsp)
	movaps	%xmm0, 576(%rsp)
	movq	%r14, (%rsp)
	movq	$32, 8(%rsp)
	movaps	%xmm0, 352(%rsp)
	movaps	%xmm0, 368(%rsp)
	movaps	%xmm0, 144(%rsp)
	movaps	%xmm0, 160(%rsp)
	movaps	%xmm0, 176(%rsp)
	movaps	%xmm0, 192(%rsp)
	movaps	%xmm0, 208(%rsp)
	movaps	%xmm0, 224(%rsp)
	movaps	%xmm0, 240(%rsp)
	movaps	%xmm0, 256(%rsp)
	movaps	%xmm0, 272(%rsp)
	movaps	%xmm0, 288(%rsp)
	movaps	%xmm0, 304(%rsp)
	movaps	%xmm0, 320(%rsp)
	movaps	%xmm0, 336(%rsp)
	leaq	144(%rsp), %r14
	movq	%r14, %rdi
	movq	%rbx, %rsi
	callq	"noise_kdf::keyed::Hmac::new"
	leaq	352(%rsp), %r15
	movq	%rsp, %rdx
	movl	$1, %ecx
	movq	%r15, %rdi
	movq	%r14, %rsi
	callq	"noise_kdf::keyed::Hmac::code"
	leaq	384(%rsp), %r14
	movq	%r14, %rdi
	movq	%r15, %rsi
	callq	"noise_kdf::keyed::Hmac::new"
	xorps	%xmm0, %xmm0
	movaps	%xmm0, 48(%rsp)
	movaps	%xmm0, 64(%rsp)
	movaps	%xmm0, 16(%rsp)
	movaps	%xmm0, 32(%rsp)
	leaq	.Lnoise_static.102(%rip), %rdx
	leaq	16(%rsp), %rdi
	movl	$1, %ecx
	movq	%r14, %rsi
	callq	"noise_kdf::keyed::Hmac::code"
	movaps	16(%rsp), %xmm0
	movaps	32(%rsp), %xmm1
	movaps	%xmm1, 96(%rsp)
	movaps	%xmm0, 80(%rsp)
	leaq	80(%rsp), %rax
	movq	%rax, 112(%rsp)
	movq	$32, 120(%rsp)
	leaq	.Lnoise_static.103(%rip), %rax
	movq	%rax, 128(%rsp)
	movq	$1, 136(%rsp)
	leaq	48(%rsp), %rdi
	leaq	112(%rsp), %rdx
	movl	$2, %ecx
	movq	%r14, %rsi
	callq	"noise_kdf::keyed::Hmac::code"
	movaps	80(%rsp), %xmm0
	movaps	96(%rsp), %xmm1
	movaps	%xmm1, 160(%rsp)
	movaps	%xmm0, 144(%rsp)
	movaps	48(%rsp), %xmm2
	movaps	64(%rsp), %xmm3
	movaps	%xmm2, 176(%rsp)
	movaps	%xmm3, 192(%rsp)
	movups	%xmm1, 16(%rbx)
	movups	%xmm0, (%rbx)
	movb	$1, 64(%rbx)
	movaps	176(%rsp), %xmm0
	movaps	192(%rsp), %xmm1
	movups	%xmm0, 65(%rbx)
	movups	%xmm1, 81(%rbx)
	movq	$0, 104(%rbx)
.Lnoise_BB31_2:
	addq	$600, %rsp
	.cfi_def_cfa_offset 40
	popq	%rbx
	.cfi_def_cfa_offset 32
	popq	%r14
	.cfi_def_cfa_offset 24
	popq	%r15
	.cfi_def_cfa_offset 16
	popq	%rbp
	.cfi_def_cfa_offset 8
	retq
.Lnoise_func_end31:
	.size	"noise_handshake::tokens::mix_ephemeral", .Lnoise_func_end31-"noise_handshake::tokens::mix_ephemeral"
	.cfi_endproc

	.section	.rodata.cst16,"aM",@progbits,16
	.p2align	4, 0x0
.Lnoise_CPI32_0:
	.long	1779033703
	.long	3144134277
	.long	1013904242
	.long	2773480762
.Lnoise_CPI32_1:
	.long	1359893119
	.long	2600822924
	.long	528734635
	.long	1541459225
	.section	".text.noise_state::symmetric::hash_of_both","ax",@progbits
	.p2align	4
	.type	"noise_state::symmetric::hash_of_both",@function
"noise_state::symmetric::hash_of_both":
	.cfi_startproc
	pushq	%r15
	.cfi_def_cfa_offset 16
	pushq	%r14
	.cfi_def_cfa_offset 24
	pushq	%r12
	.cfi_def_cfa_offset 32
	pushq	%rbx
	.cfi_def_cfa_offset 40
	subq	$232, %rsp
	.cfi_def_cfa_offset 272
	.cfi_offset %rbx, -40
	.cfi_offset %r12, -32
	.cfi_offset %r14, -24
	.cfi_offset %r15, -16
	movq	%rcx, %r14
	movq	%rdx, %r15
	movq	%rdi, %rbx
	movaps	.Lnoise_CPI32_0(%rip), %xmm0
	movaps	%xmm0, 16(%rsp)
	movaps	.Lnoise_CPI32_1(%rip), %xmm0
	movaps	%xmm0, 32(%rsp)
	xorps	%xmm0, %xmm0
	movaps	%xmm0, 48(%rsp)
	movaps	%xmm0, 64(%rsp)
	movaps	%xmm0, 80(%rsp)
	movaps	%xmm0, 96(%rsp)
	movq	$0, 112(%rsp)
	leaq	16(%rsp), %r12
	movl	$32, %edx
	movq	%r12, %rdi
	callq	"sha2::block256::Core256::update"
	movq	%r12, %rdi
	movq	%r15, %rsi
	movq	%r14, %rdx
	callq	"sha2::block256::Core256::update"
	movq	112(%rsp), %r15
	movq	%r15, 224(%rsp)
	movaps	96(%rsp), %xmm0
	movaps	%xmm0, 208(%rsp)
	movaps	80(%rsp), %xmm0
	movaps	%xmm0, 192(%rsp)
	movaps	16(%rsp), %xmm0
	movaps	32(%rsp), %xmm1
	movaps	48(%rsp), %xmm2
	movdqa	64(%rsp), %xmm3
	movdqa	%xmm3, 176(%rsp)
	movaps	%xmm2, 160(%rsp)
	movaps	%xmm0, 128(%rsp)
	movaps	%xmm1, 144(%rsp)
	movl	$55, %edx
	subl	%r15d, %edx
	andl	$63, %edx
	incq	%rdx
	leaq	.Lnoise_static.100(%rip), %rsi
	leaq	128(%rsp), %r14
	movq	%r14, %rdi
	callq	"sha2::block256::Core256::update"
	movq	%r15, %rax
	shrq	$53, %rax
	movzbl	%al, %eax
	movq	%r15, %rcx
	shlq	$59, %rcx
	movl	%r15d, %edx
	andl	$8160, %edx
	shlq	$43, %rdx
	orq	%rcx, %rdx
	movl	%r15d, %ecx
	andl	$2088960, %ecx
	shlq	$27, %rcx
	orq	%rdx, %rcx
	movl	%r15d, %edx
	andl	$534773760, %edx
	shlq	$11, %rdx
	orq	%rcx, %rdx
	movq	%r15, %rcx
	shrq	$5, %rcx
	andl	$-16777216, %ecx
	orq	%rdx, %rcx
	movq	%r15, %rdx
	shrq	$21, %rdx
	andl	$16711680, %edx
	orq	%rcx, %rdx
	shrq	$37, %r15
	andl	$65280, %r15d
	orq	%rdx, %r15
	orq	%rax, %r15
	movq	%r15, 8(%rsp)
	leaq	8(%rsp), %rsi
	movl	$8, %edx
	movq	%r14, %rdi
	callq	"sha2::block256::Core256::update"
	movdqa	128(%rsp), %xmm0
	movdqa	144(%rsp), %xmm1
	movdqa	%xmm0, %xmm2
	pxor	%xmm3, %xmm3
	punpckhbw	%xmm3, %xmm2
	pshuflw	$27, %xmm2, %xmm2
	pshufhw	$27, %xmm2, %xmm2
	punpcklbw	%xmm3, %xmm0
	pshuflw	$27, %xmm0, %xmm0
	pshufhw	$27, %xmm0, %xmm0
	packuswb	%xmm2, %xmm0
	movdqa	%xmm1, %xmm2
	punpckhbw	%xmm3, %xmm2
	pshuflw	$27, %xmm2, %xmm2
	pshufhw	$27, %xmm2, %xmm2
	punpcklbw	%xmm3, %xmm1
	pshuflw	$27, %xmm1, %xmm1
	pshufhw	$27, %xmm1, %xmm1
	packuswb	%xmm2, %xmm1
	movdqu	%xmm0, (%rbx)
	movdqu	%xmm1, 16(%rbx)
	addq	$232, %rsp
	.cfi_def_cfa_offset 40
	popq	%rbx
	.cfi_def_cfa_offset 32
	popq	%r12
	.cfi_def_cfa_offset 24
	popq	%r14
	.cfi_def_cfa_offset 16
	popq	%r15
	.cfi_def_cfa_offset 8
	retq
.Lnoise_func_end32:
	.size	"noise_state::symmetric::hash_of_both", .Lnoise_func_end32-"noise_state::symmetric::hash_of_both"
	.cfi_endproc

	.section	".text.sha2::block256::Core256::update","ax",@progbits
	.p2align	4
	.type	"sha2::block256::Core256::update",@function
"sha2::block256::Core256::update":
	.cfi_startproc
	pushq	%rbp
	.cfi_def_cfa_offset 16
	pushq	%r15
	.cfi_def_cfa_offset 24
	pushq	%r14
	.cfi_def_cfa_offset 32
	pushq	%r13
	.cfi_def_cfa_offset 40
	pushq	%r12
	.cfi_def_cfa_offset 48
	pushq	%rbx
	.cfi_def_cfa_offset 56
	pushq	%rax
	.cfi_def_cfa_offset 64
	.cfi_offset %rbx, -56
	.cfi_offset %r12, -48
	.cfi_offset %r13, -40
	.cfi_offset %r14, -32
	.cfi_offset %r15, -24
	.cfi_offset %rbp, -16
	movq	%rdx, %rbx
	movq	%rsi, %r14
	movq	%rdi, %r15
	movq	96(%rdi), %rax
	leaq	(%rax,%rdx), %rcx
	movq	%rcx, 96(%rdi)
	andq	$63, %rax
	je	.Lnoise_BB33_5
	movl	$64, %r12d
	subq	%rax, %r12
	leaq	(%r15,%rax), %rdi
	addq	$32, %rdi
	movq	%rdi, %rcx
	subq	%r14, %rcx
	cmpq	%r12, %rbx
	jae	.Lnoise_BB33_6
	cmpq	%rbx, %rcx
	jae	.Lnoise_BB33_9
	cmpq	$4, %rbx
	jb	.Lnoise_BB33_4
	leaq	(%rax,%r15), %rcx
	subq	%r14, %rcx
	addq	$32, %rcx
	cmpq	$32, %rcx
	jae	.Lnoise_BB33_15
.Lnoise_BB33_4:
	xorl	%ecx, %ecx
.Lnoise_BB33_26:
	movq	%rbx, %rsi
	movq	%rcx, %rdx
	andq	$3, %rsi
	je	.Lnoise_BB33_29
	movq	%rcx, %rdx
	.p2align	4
.Lnoise_BB33_28:
	movzbl	(%r14,%rdx), %r8d
	movb	%r8b, (%rdi,%rdx)
	incq	%rdx
	decq	%rsi
	jne	.Lnoise_BB33_28
.Lnoise_BB33_29:
	subq	%rbx, %rcx
	cmpq	$-4, %rcx
	ja	.Lnoise_BB33_59
	addq	%r15, %rax
	addq	$35, %rax
	.p2align	4
.Lnoise_BB33_31:
	movzbl	(%r14,%rdx), %ecx
	movb	%cl, -3(%rax,%rdx)
	movzbl	1(%r14,%rdx), %ecx
	movb	%cl, -2(%rax,%rdx)
	movzbl	2(%r14,%rdx), %ecx
	movb	%cl, -1(%rax,%rdx)
	movzbl	3(%r14,%rdx), %ecx
	movb	%cl, (%rax,%rdx)
	addq	$4, %rdx
	cmpq	%rdx, %rbx
	jne	.Lnoise_BB33_31
	jmp	.Lnoise_BB33_59
.Lnoise_BB33_5:
	xorl	%r12d, %r12d
	jmp	.Lnoise_BB33_42
.Lnoise_BB33_6:
	leaq	32(%r15), %r13
	cmpq	%r12, %rcx
	jae	.Lnoise_BB33_10
	cmpl	$60, %eax
	jbe	.Lnoise_BB33_13
	xorl	%eax, %eax
	jmp	.Lnoise_BB33_40
.Lnoise_BB33_9:
	movq	%r14, %rsi
	movq	%rbx, %rdx
	jmp	.Lnoise_BB33_48
.Lnoise_BB33_10:
	movq	%r14, %rsi
	movq	%r12, %rdx
	callq	memmove@PLT
	jmp	.Lnoise_BB33_41
.Lnoise_BB33_13:
	leaq	(%rax,%r15), %rcx
	subq	%r14, %rcx
	addq	$32, %rcx
	cmpq	$16, %rcx
	jae	.Lnoise_BB33_17
	xorl	%eax, %eax
	jmp	.Lnoise_BB33_40
.Lnoise_BB33_15:
	cmpq	$32, %rbx
	jae	.Lnoise_BB33_19
	xorl	%ecx, %ecx
	jmp	.Lnoise_BB33_23
.Lnoise_BB33_17:
	cmpl	$48, %eax
	jbe	.Lnoise_BB33_32
	xorl	%eax, %eax
	jmp	.Lnoise_BB33_37
.Lnoise_BB33_19:
	movq	%rbx, %rcx
	andq	$-32, %rcx
	leaq	(%rax,%r15), %rdx
	addq	$48, %rdx
	xorl	%esi, %esi
	.p2align	4
.Lnoise_BB33_20:
	movups	(%r14,%rsi), %xmm0
	movups	16(%r14,%rsi), %xmm1
	movups	%xmm0, -16(%rdx,%rsi)
	movups	%xmm1, (%rdx,%rsi)
	addq	$32, %rsi
	cmpq	%rsi, %rcx
	jne	.Lnoise_BB33_20
	cmpq	%rcx, %rbx
	je	.Lnoise_BB33_59
	testb	$28, %bl
	je	.Lnoise_BB33_26
.Lnoise_BB33_23:
	movq	%rcx, %rdx
	movq	%rbx, %rcx
	andq	$-4, %rcx
	.p2align	4
.Lnoise_BB33_24:
	movl	(%r14,%rdx), %esi
	movl	%esi, (%rdi,%rdx)
	addq	$4, %rdx
	cmpq	%rdx, %rcx
	jne	.Lnoise_BB33_24
	cmpq	%rcx, %rbx
	je	.Lnoise_BB33_59
	jmp	.Lnoise_BB33_26
.Lnoise_BB33_32:
	movl	%r12d, %eax
	andl	$-16, %eax
	movups	(%r14), %xmm0
	movups	%xmm0, (%rdi)
	cmpq	$16, %rax
	je	.Lnoise_BB33_35
	movups	16(%r14), %xmm0
	movups	%xmm0, 16(%rdi)
	cmpl	$32, %eax
	je	.Lnoise_BB33_35
	movups	32(%r14), %xmm0
	movups	%xmm0, 32(%rdi)
.Lnoise_BB33_35:
	cmpl	%eax, %r12d
	je	.Lnoise_BB33_41
	testb	$12, %r12b
	je	.Lnoise_BB33_40
.Lnoise_BB33_37:
	movq	%rax, %rcx
	movl	%r12d, %eax
	andl	$-4, %eax
	.p2align	4
.Lnoise_BB33_38:
	movl	(%r14,%rcx), %edx
	movl	%edx, (%rdi,%rcx)
	addq	$4, %rcx
	cmpq	%rcx, %rax
	jne	.Lnoise_BB33_38
	cmpl	%eax, %r12d
	je	.Lnoise_BB33_41
	.p2align	4
.Lnoise_BB33_40:
	movzbl	(%r14,%rax), %ecx
	movb	%cl, (%rdi,%rax)
	incq	%rax
	cmpq	%rax, %r12
	jne	.Lnoise_BB33_40
.Lnoise_BB33_41:
	movq	%r15, %rdi
	movq	%r13, %rsi
	callq	"sha2::block256::compress"
.Lnoise_BB33_42:
	movq	%rbx, (%rsp)
	subq	%r12, %rbx
	movq	%rbx, %rbp
	shrq	$6, %rbp
	je	.Lnoise_BB33_45
	leaq	(%r14,%r12), %r13
	.p2align	4
.Lnoise_BB33_44:
	movq	%r15, %rdi
	movq	%r13, %rsi
	callq	"sha2::block256::compress"
	addq	$64, %r13
	decq	%rbp
	jne	.Lnoise_BB33_44
.Lnoise_BB33_45:
	andq	$-64, %rbx
	leaq	(%rbx,%r12), %rcx
	leaq	(%r14,%rcx), %rsi
	movq	(%rsp), %rdx
	subq	%rcx, %rdx
	leaq	32(%r15), %rdi
	movq	%rdi, %rax
	subq	%rsi, %rax
	cmpq	%rdx, %rax
	jae	.Lnoise_BB33_48
	cmpq	$4, %rdx
	jb	.Lnoise_BB33_47
	addq	%r14, %r12
	addq	%rbx, %r12
	movq	%r15, %rax
	subq	%r12, %rax
	addq	$32, %rax
	cmpq	$32, %rax
	jae	.Lnoise_BB33_51
.Lnoise_BB33_47:
	xorl	%eax, %eax
	jmp	.Lnoise_BB33_61
.Lnoise_BB33_48:
	addq	$8, %rsp
	.cfi_def_cfa_offset 56
	popq	%rbx
	.cfi_def_cfa_offset 48
	popq	%r12
	.cfi_def_cfa_offset 40
	popq	%r13
	.cfi_def_cfa_offset 32
	popq	%r14
	.cfi_def_cfa_offset 24
	popq	%r15
	.cfi_def_cfa_offset 16
	popq	%rbp
	.cfi_def_cfa_offset 8
	jmp	memmove@PLT
.Lnoise_BB33_51:
	.cfi_def_cfa_offset 64
	cmpq	$32, %rdx
	jae	.Lnoise_BB33_53
	xorl	%eax, %eax
	jmp	.Lnoise_BB33_57
.Lnoise_BB33_53:
	movq	%rdx, %rax
	andq	$-32, %rax
	addq	%r14, %rcx
	addq	$16, %rcx
	xorl	%r8d, %r8d
	.p2align	4
.Lnoise_BB33_54:
	movups	-16(%rcx,%r8), %xmm0
	movups	(%rcx,%r8), %xmm1
	movups	%xmm0, 32(%r15,%r8)
	movups	%xmm1, 48(%r15,%r8)
	addq	$32, %r8
	cmpq	%r8, %rax
	jne	.Lnoise_BB33_54
	cmpq	%rax, %rdx
	je	.Lnoise_BB33_59
	testb	$28, %dl
	je	.Lnoise_BB33_61
.Lnoise_BB33_57:
	movq	%rax, %rcx
	movq	%rdx, %rax
	andq	$-4, %rax
	.p2align	4
.Lnoise_BB33_58:
	movl	(%rsi,%rcx), %r8d
	movl	%r8d, (%rdi,%rcx)
	addq	$4, %rcx
	cmpq	%rcx, %rax
	jne	.Lnoise_BB33_58
	jmp	.Lnoise_BB33_60
.Lnoise_BB33_59:
	addq	$8, %rsp
	.cfi_def_cfa_offset 56
	popq	%rbx
	.cfi_def_cfa_offset 48
	popq	%r12
	.cfi_def_cfa_offset 40
	popq	%r13
	.cfi_def_cfa_offset 32
	popq	%r14
	.cfi_def_cfa_offset 24
	popq	%r15
	.cfi_def_cfa_offset 16
	popq	%rbp
	.cfi_def_cfa_offset 8
	retq
.Lnoise_BB33_60:
	.cfi_def_cfa_offset 64
	cmpq	%rax, %rdx
	je	.Lnoise_BB33_59
.Lnoise_BB33_61:
	movzbl	(%rsi,%rax), %ecx
	movb	%cl, (%rdi,%rax)
	incq	%rax
	jmp	.Lnoise_BB33_60
.Lnoise_func_end33:
	.size	"sha2::block256::Core256::update", .Lnoise_func_end33-"sha2::block256::Core256::update"
	.cfi_endproc

	.section	".text.sha2::block256::compress","ax",@progbits
	.p2align	4
	.type	"sha2::block256::compress.v1",@function
"sha2::block256::compress.v1":
	.cfi_startproc
	pushq	%rbp
	.cfi_def_cfa_offset 16
	pushq	%r15
	.cfi_def_cfa_offset 24
	pushq	%r14
	.cfi_def_cfa_offset 32
	pushq	%r13
	.cfi_def_cfa_offset 40
	pushq	%r12
	.cfi_def_cfa_offset 48
	pushq	%rbx
	.cfi_def_cfa_offset 56
	subq	$80, %rsp
	.cfi_def_cfa_offset 136
	.cfi_offset %rbx, -56
	.cfi_offset %r12, -48
	.cfi_offset %r13, -40
	.cfi_offset %r14, -32
	.cfi_offset %r15, -24
	.cfi_offset %rbp, -16
	movl	(%rsi), %edx
	bswapl	%edx
	movl	(%rdi), %r12d
	movl	4(%rdi), %r15d
	movl	8(%rdi), %r10d
	movl	16(%rdi), %r14d
	movl	20(%rdi), %r11d
	movl	24(%rdi), %r9d
	movl	28(%rdi), %r8d
	movl	%r14d, %eax
	roll	$18, %eax
	xorl	%r14d, %eax
	roll	$27, %eax
	xorl	%r14d, %eax
	roll	$26, %eax
	movl	%r9d, %ecx
	xorl	%r11d, %ecx
	andl	%r14d, %ecx
	xorl	%r9d, %ecx
	movq	%rdx, -24(%rsp)
	movq	%r8, 64(%rsp)
	addl	%r8d, %edx
	addl	%edx, %eax
	movl	%eax, %edx
	movl	%r12d, %r8d
	roll	$23, %r8d
	addl	%ecx, %eax
	xorl	%r12d, %r8d
	roll	$21, %r8d
	addl	%edx, %ecx
	addl	$1116352408, %ecx
	xorl	%r12d, %r8d
	roll	$30, %r8d
	movl	%r15d, %ebx
	xorl	%r12d, %ebx
	movl	%r10d, %edx
	xorl	%r15d, %edx
	andl	%ebx, %edx
	xorl	%r15d, %edx
	addl	%r8d, %edx
	movl	4(%rsi), %r13d
	bswapl	%r13d
	addl	%ecx, %edx
	movq	%rdi, 72(%rsp)
	movl	12(%rdi), %ecx
	movq	%rcx, 8(%rsp)
	leal	(%rcx,%rax), %r8d
	addl	$1116352408, %r8d
	movl	%r8d, %eax
	roll	$18, %eax
	movl	%r11d, %ecx
	xorl	%r14d, %ecx
	andl	%r8d, %ecx
	xorl	%r11d, %ecx
	movq	%r9, 56(%rsp)
	movq	%r13, -40(%rsp)
	addl	%r9d, %ecx
	addl	%r13d, %ecx
	xorl	%r8d, %eax
	roll	$27, %eax
	xorl	%r8d, %eax
	roll	$26, %eax
	leal	(%rcx,%rax), %r9d
	addl	%ecx, %eax
	addl	$1899447441, %eax
	movl	%edx, %ecx
	roll	$23, %ecx
	xorl	%edx, %ecx
	roll	$21, %ecx
	xorl	%edx, %ecx
	roll	$30, %ecx
	movl	%edx, %edi
	xorl	%r12d, %edi
	andl	%edi, %ebx
	xorl	%r12d, %ebx
	addl	%ecx, %ebx
	addl	%eax, %ebx
	movq	%r10, 32(%rsp)
	leal	(%r10,%r9), %eax
	addl	$1899447441, %eax
	movl	%eax, %ecx
	roll	$18, %ecx
	xorl	%eax, %ecx
	roll	$27, %ecx
	movl	8(%rsi), %r13d
	bswapl	%r13d
	xorl	%eax, %ecx
	roll	$26, %ecx
	movl	%r8d, %r9d
	xorl	%r14d, %r9d
	andl	%eax, %r9d
	xorl	%r14d, %r9d
	movl	%ebx, %r10d
	roll	$23, %r10d
	movq	%r11, 48(%rsp)
	movq	%r13, -48(%rsp)
	addl	%r13d, %r11d
	addl	%r11d, %r9d
	xorl	%ebx, %r10d
	roll	$21, %r10d
	xorl	%ebx, %r10d
	roll	$30, %r10d
	leal	(%r9,%rcx), %r11d
	addl	%r9d, %ecx
	addl	$-1245643825, %ecx
	movl	%ebx, %r9d
	xorl	%edx, %r9d
	andl	%r9d, %edi
	xorl	%edx, %edi
	addl	%r10d, %edi
	addl	%ecx, %edi
	movq	%r15, 24(%rsp)
	leal	(%r15,%r11), %r10d
	addl	$-1245643825, %r10d
	movl	%r10d, %ecx
	roll	$18, %ecx
	movl	12(%rsi), %r15d
	bswapl	%r15d
	xorl	%r10d, %ecx
	roll	$27, %ecx
	xorl	%r10d, %ecx
	roll	$26, %ecx
	movl	%eax, %r11d
	xorl	%r8d, %r11d
	andl	%r10d, %r11d
	xorl	%r8d, %r11d
	movq	%r14, 40(%rsp)
	movq	%r15, -32(%rsp)
	addl	%r14d, %r11d
	addl	%r15d, %r11d
	movl	%edi, %ebp
	roll	$23, %ebp
	xorl	%edi, %ebp
	roll	$21, %ebp
	leal	(%r11,%rcx), %r14d
	addl	%r11d, %ecx
	addl	$-373957723, %ecx
	xorl	%edi, %ebp
	roll	$30, %ebp
	movl	%edi, %r15d
	xorl	%ebx, %r15d
	andl	%r15d, %r9d
	xorl	%ebx, %r9d
	addl	%ebp, %r9d
	addl	%ecx, %r9d
	movl	16(%rsi), %r13d
	bswapl	%r13d
	movq	%r12, 16(%rsp)
	leal	(%r12,%r14), %r11d
	addl	$-373957723, %r11d
	movl	%r11d, %ecx
	roll	$18, %ecx
	xorl	%r11d, %ecx
	roll	$27, %ecx
	movl	%r10d, %ebp
	xorl	%eax, %ebp
	andl	%r11d, %ebp
	xorl	%eax, %ebp
	movl	%r13d, -92(%rsp)
	addl	%r13d, %r8d
	addl	%ebp, %r8d
	xorl	%r11d, %ecx
	roll	$26, %ecx
	addl	%r8d, %ecx
	addl	$961987163, %ecx
	movl	%r9d, %r8d
	roll	$23, %r8d
	xorl	%r9d, %r8d
	roll	$21, %r8d
	xorl	%r9d, %r8d
	roll	$30, %r8d
	movl	%r9d, %r12d
	xorl	%edi, %r12d
	andl	%r12d, %r15d
	xorl	%edi, %r15d
	addl	%r8d, %r15d
	addl	%ecx, %r15d
	addl	%ecx, %edx
	movl	%edx, %ecx
	roll	$18, %ecx
	xorl	%edx, %ecx
	roll	$27, %ecx
	movl	20(%rsi), %ebp
	bswapl	%ebp
	xorl	%edx, %ecx
	roll	$26, %ecx
	movl	%r11d, %r8d
	xorl	%r10d, %r8d
	andl	%edx, %r8d
	xorl	%r10d, %r8d
	movl	%ebp, -68(%rsp)
	addl	%ebp, %eax
	movl	%r15d, %ebp
	roll	$23, %ebp
	addl	%r8d, %eax
	xorl	%r15d, %ebp
	roll	$21, %ebp
	addl	%ecx, %eax
	addl	$1508970993, %eax
	xorl	%r15d, %ebp
	roll	$30, %ebp
	movl	%r15d, %r13d
	xorl	%r9d, %r13d
	andl	%r13d, %r12d
	xorl	%r9d, %r12d
	addl	%ebp, %r12d
	addl	%eax, %r12d
	addl	%eax, %ebx
	movl	24(%rsi), %r8d
	bswapl	%r8d
	movl	%ebx, %eax
	roll	$18, %eax
	xorl	%ebx, %eax
	roll	$27, %eax
	movl	%edx, %ecx
	xorl	%r11d, %ecx
	andl	%ebx, %ecx
	xorl	%r11d, %ecx
	movl	%r8d, -84(%rsp)
	addl	%r8d, %r10d
	addl	%ecx, %r10d
	xorl	%ebx, %eax
	roll	$26, %eax
	addl	%r10d, %eax
	addl	$-1841331548, %eax
	movl	%r12d, %ecx
	roll	$23, %ecx
	xorl	%r12d, %ecx
	roll	$21, %ecx
	xorl	%r12d, %ecx
	roll	$30, %ecx
	movl	%r12d, %ebp
	xorl	%r15d, %ebp
	andl	%ebp, %r13d
	xorl	%r15d, %r13d
	addl	%ecx, %r13d
	addl	%eax, %r13d
	addl	%eax, %edi
	movl	%edi, %eax
	roll	$18, %eax
	xorl	%edi, %eax
	roll	$27, %eax
	movl	28(%rsi), %r8d
	bswapl	%r8d
	xorl	%edi, %eax
	roll	$26, %eax
	movl	%ebx, %ecx
	xorl	%edx, %ecx
	andl	%edi, %ecx
	xorl	%edx, %ecx
	movl	%r8d, -76(%rsp)
	addl	%r8d, %r11d
	movl	%r13d, %r8d
	roll	$23, %r8d
	addl	%ecx, %r11d
	xorl	%r13d, %r8d
	roll	$21, %r8d
	addl	%r11d, %eax
	addl	$-1424204075, %eax
	xorl	%r13d, %r8d
	roll	$30, %r8d
	movl	%r13d, %r14d
	xorl	%r12d, %r14d
	andl	%r14d, %ebp
	xorl	%r12d, %ebp
	addl	%r8d, %ebp
	addl	%eax, %ebp
	addl	%eax, %r9d
	movl	32(%rsi), %r8d
	bswapl	%r8d
	movl	%r9d, %eax
	roll	$18, %eax
	xorl	%r9d, %eax
	roll	$27, %eax
	movl	%edi, %ecx
	xorl	%ebx, %ecx
	andl	%r9d, %ecx
	xorl	%ebx, %ecx
	movl	%r8d, -72(%rsp)
	addl	%r8d, %edx
	addl	%ecx, %edx
	xorl	%r9d, %eax
	roll	$26, %eax
	addl	%edx, %eax
	addl	$-670586216, %eax
	movl	%ebp, %edx
	roll	$23, %edx
	xorl	%ebp, %edx
	roll	$21, %edx
	xorl	%ebp, %edx
	roll	$30, %edx
	movl	%ebp, %ecx
	xorl	%r13d, %ecx
	andl	%ecx, %r14d
	xorl	%r13d, %r14d
	addl	%edx, %r14d
	addl	%eax, %r14d
	addl	%eax, %r15d
	movl	%r15d, %eax
	roll	$18, %eax
	xorl	%r15d, %eax
	roll	$27, %eax
	movl	36(%rsi), %r11d
	bswapl	%r11d
	xorl	%r15d, %eax
	roll	$26, %eax
	movl	%r9d, %edx
	xorl	%edi, %edx
	andl	%r15d, %edx
	xorl	%edi, %edx
	addl	%r11d, %ebx
	movl	%r14d, %r8d
	roll	$23, %r8d
	addl	%edx, %ebx
	xorl	%r14d, %r8d
	roll	$21, %r8d
	leal	(%rax,%rbx), %edx
	addl	$310598401, %edx
	xorl	%r14d, %r8d
	roll	$30, %r8d
	movl	%r14d, %eax
	xorl	%ebp, %eax
	andl	%eax, %ecx
	xorl	%ebp, %ecx
	addl	%r8d, %ecx
	addl	%edx, %ecx
	addl	%edx, %r12d
	movl	40(%rsi), %r10d
	bswapl	%r10d
	movl	%r12d, %edx
	roll	$18, %edx
	xorl	%r12d, %edx
	roll	$27, %edx
	movl	%r15d, %r8d
	xorl	%r9d, %r8d
	andl	%r12d, %r8d
	xorl	%r9d, %r8d
	movl	%r10d, -116(%rsp)
	addl	%r10d, %edi
	addl	%r8d, %edi
	xorl	%r12d, %edx
	roll	$26, %edx
	addl	%edi, %edx
	addl	$607225278, %edx
	movl	%ecx, %edi
	roll	$23, %edi
	xorl	%ecx, %edi
	roll	$21, %edi
	xorl	%ecx, %edi
	roll	$30, %edi
	movl	%ecx, %ebx
	xorl	%r14d, %ebx
	andl	%ebx, %eax
	xorl	%r14d, %eax
	addl	%edi, %eax
	addl	%edx, %eax
	addl	%edx, %r13d
	movl	%r13d, %edx
	roll	$18, %edx
	xorl	%r13d, %edx
	roll	$27, %edx
	movl	44(%rsi), %r8d
	bswapl	%r8d
	xorl	%r13d, %edx
	roll	$26, %edx
	movl	%r12d, %edi
	xorl	%r15d, %edi
	andl	%r13d, %edi
	xorl	%r15d, %edi
	movl	%r8d, -120(%rsp)
	addl	%r8d, %r9d
	movl	%eax, %r10d
	roll	$23, %r10d
	addl	%edi, %r9d
	xorl	%eax, %r10d
	roll	$21, %r10d
	addl	%r9d, %edx
	addl	$1426881987, %edx
	xorl	%eax, %r10d
	roll	$30, %r10d
	movl	%eax, %r8d
	xorl	%ecx, %r8d
	andl	%r8d, %ebx
	xorl	%ecx, %ebx
	addl	%r10d, %ebx
	addl	%edx, %ebx
	addl	%edx, %ebp
	movl	48(%rsi), %r9d
	bswapl	%r9d
	movl	%ebp, %edx
	roll	$18, %edx
	xorl	%ebp, %edx
	roll	$27, %edx
	movl	%r13d, %edi
	xorl	%r12d, %edi
	andl	%ebp, %edi
	xorl	%r12d, %edi
	movl	%r9d, -124(%rsp)
	addl	%r9d, %r15d
	addl	%edi, %r15d
	xorl	%ebp, %edx
	roll	$26, %edx
	addl	%r15d, %edx
	addl	$1925078388, %edx
	movl	%ebx, %edi
	roll	$23, %edi
	xorl	%ebx, %edi
	roll	$21, %edi
	xorl	%ebx, %edi
	roll	$30, %edi
	movl	%ebx, %r9d
	xorl	%eax, %r9d
	andl	%r9d, %r8d
	xorl	%eax, %r8d
	addl	%edi, %r8d
	addl	%edx, %r8d
	addl	%edx, %r14d
	movl	%r14d, %edx
	roll	$18, %edx
	xorl	%r14d, %edx
	roll	$27, %edx
	movl	52(%rsi), %r10d
	bswapl	%r10d
	xorl	%r14d, %edx
	roll	$26, %edx
	movl	%ebp, %edi
	xorl	%r13d, %edi
	andl	%r14d, %edi
	xorl	%r13d, %edi
	movl	%r10d, -112(%rsp)
	addl	%r10d, %r12d
	movl	%r8d, %r10d
	roll	$23, %r10d
	addl	%edi, %r12d
	xorl	%r8d, %r10d
	roll	$21, %r10d
	addl	%r12d, %edx
	addl	$-2132889090, %edx
	xorl	%r8d, %r10d
	roll	$30, %r10d
	movl	%r8d, %r15d
	xorl	%ebx, %r15d
	andl	%r15d, %r9d
	xorl	%ebx, %r9d
	addl	%r10d, %r9d
	addl	%edx, %r9d
	addl	%edx, %ecx
	movl	56(%rsi), %r12d
	bswapl	%r12d
	movl	%ecx, %edx
	roll	$18, %edx
	xorl	%ecx, %edx
	roll	$27, %edx
	movl	%r14d, %edi
	xorl	%ebp, %edi
	andl	%ecx, %edi
	xorl	%ebp, %edi
	addl	%r12d, %r13d
	addl	%edi, %r13d
	xorl	%ecx, %edx
	roll	$26, %edx
	leal	(%rdx,%r13), %edi
	addl	$-1680079193, %edi
	movl	%r9d, %r10d
	roll	$23, %r10d
	xorl	%r9d, %r10d
	roll	$21, %r10d
	xorl	%r9d, %r10d
	roll	$30, %r10d
	movl	%r9d, %edx
	xorl	%r8d, %edx
	andl	%edx, %r15d
	xorl	%r8d, %r15d
	addl	%r10d, %r15d
	movl	%r11d, %r10d
	addl	%edi, %r15d
	addl	%edi, %eax
	movl	60(%rsi), %r13d
	bswapl	%r13d
	movl	%ecx, %esi
	xorl	%r14d, %esi
	andl	%eax, %esi
	xorl	%r14d, %esi
	addl	%r13d, %ebp
	addl	%esi, %ebp
	movl	%eax, %esi
	roll	$18, %esi
	xorl	%eax, %esi
	roll	$27, %esi
	xorl	%eax, %esi
	roll	$26, %esi
	addl	%ebp, %esi
	addl	$-1046744716, %esi
	movl	%r15d, %edi
	roll	$23, %edi
	movl	%r15d, %ebp
	xorl	%r9d, %ebp
	andl	%edx, %ebp
	movl	%r12d, %edx
	xorl	%r15d, %edi
	roll	$21, %edi
	xorl	%r15d, %edi
	roll	$30, %edi
	xorl	%r9d, %ebp
	addl	%edi, %ebp
	addl	%esi, %ebp
	addl	%esi, %ebx
	xorl	%esi, %esi
	.p2align	4
.Lnoise_BB34_1:
	movq	%rsi, -104(%rsp)
	movl	%r10d, -60(%rsp)
	movl	%edx, %esi
	movl	%edx, -108(%rsp)
	roll	$30, %edx
	xorl	%esi, %edx
	roll	$15, %edx
	shrl	$10, %esi
	xorl	%edx, %esi
	movq	-40(%rsp), %r12
	movl	%r12d, %edx
	roll	$21, %edx
	xorl	%r12d, %edx
	roll	$25, %edx
	movl	%r12d, %edi
	shrl	$3, %edi
	xorl	%edx, %edi
	movl	%ebx, %edx
	roll	$18, %edx
	movl	%ebx, %r11d
	movq	-24(%rsp), %rbx
	addl	%r10d, %ebx
	xorl	%r11d, %edx
	roll	$27, %edx
	addl	%esi, %ebx
	xorl	%r11d, %edx
	movl	%r11d, %r10d
	movl	%r11d, -64(%rsp)
	roll	$26, %edx
	addl	%edi, %ebx
	movl	%r13d, %r11d
	movl	%ecx, %esi
	xorl	%eax, %esi
	andl	%r10d, %esi
	xorl	%ecx, %esi
	movl	%ebp, %r10d
	roll	$23, %r10d
	addl	%r14d, %esi
	xorl	%ebp, %r10d
	roll	$21, %r10d
	addl	%edx, %esi
	xorl	%ebp, %r10d
	roll	$30, %r10d
	movl	%r15d, %r13d
	xorl	%ebp, %r13d
	movl	%r9d, %edi
	xorl	%r15d, %edi
	andl	%r13d, %edi
	xorl	%r15d, %edi
	addl	%r10d, %edi
	leaq	.Lnoise_static.99(%rip), %rdx
	movq	-104(%rsp), %r10
	addl	64(%r10,%rdx), %esi
	addl	%ebx, %esi
	addl	%esi, %edi
	addl	%r8d, %esi
	movl	%r11d, -96(%rsp)
	movl	%r11d, %edx
	roll	$30, %edx
	xorl	%r11d, %edx
	roll	$15, %edx
	movl	%r11d, %r8d
	shrl	$10, %r8d
	movq	-48(%rsp), %r14
	movl	%r14d, %r10d
	roll	$21, %r10d
	xorl	%edx, %r8d
	xorl	%r14d, %r10d
	roll	$25, %r10d
	movl	%r14d, %r11d
	shrl	$3, %r11d
	xorl	%r10d, %r11d
	addl	-116(%rsp), %r12d
	addl	%r8d, %r12d
	movl	%esi, -80(%rsp)
	movl	%esi, %edx
	roll	$18, %edx
	addl	%r11d, %r12d
	movq	%r12, -40(%rsp)
	xorl	%esi, %edx
	roll	$27, %edx
	xorl	%esi, %edx
	roll	$26, %edx
	movl	%eax, %r8d
	movl	-64(%rsp), %r11d
	xorl	%r11d, %r8d
	andl	%esi, %r8d
	movq	-104(%rsp), %rsi
	leaq	.Lnoise_static.99(%rip), %r10
	addl	68(%rsi,%r10), %ecx
	xorl	%eax, %r8d
	movl	%edi, %r10d
	roll	$23, %r10d
	addl	%r12d, %ecx
	xorl	%edi, %r10d
	roll	$21, %r10d
	addl	%r8d, %ecx
	xorl	%edi, %r10d
	roll	$30, %r10d
	addl	%edx, %ecx
	movl	%edi, %edx
	xorl	%ebp, %edx
	andl	%edx, %r13d
	xorl	%ebp, %r13d
	addl	%r10d, %r13d
	addl	%ecx, %r13d
	addl	%r9d, %ecx
	movq	%rbx, -24(%rsp)
	movl	%ebx, %r8d
	roll	$30, %r8d
	xorl	%ebx, %r8d
	roll	$15, %r8d
	movl	%ebx, %r9d
	shrl	$10, %r9d
	xorl	%r8d, %r9d
	movq	-32(%rsp), %r12
	movl	%r12d, %r8d
	roll	$21, %r8d
	xorl	%r12d, %r8d
	roll	$25, %r8d
	movl	%r12d, %r10d
	shrl	$3, %r10d
	xorl	%r8d, %r10d
	addl	-120(%rsp), %r14d
	addl	%r10d, %r14d
	addl	%r9d, %r14d
	movq	%r14, %r10
	movq	%r14, -48(%rsp)
	movl	%ecx, %r8d
	roll	$18, %r8d
	xorl	%ecx, %r8d
	roll	$27, %r8d
	xorl	%ecx, %r8d
	roll	$26, %r8d
	movl	-80(%rsp), %r9d
	xorl	%r11d, %r9d
	andl	%ecx, %r9d
	xorl	%r11d, %r9d
	movl	%r11d, %ebx
	leaq	.Lnoise_static.99(%rip), %r11
	addl	72(%rsi,%r11), %eax
	movq	%rsi, %r14
	addl	%r10d, %eax
	movl	%r13d, %r10d
	roll	$23, %r10d
	addl	%r9d, %eax
	xorl	%r13d, %r10d
	roll	$21, %r10d
	addl	%r8d, %eax
	xorl	%r13d, %r10d
	roll	$30, %r10d
	movl	%r13d, %esi
	xorl	%edi, %esi
	andl	%esi, %edx
	xorl	%edi, %edx
	addl	%r10d, %edx
	movq	-40(%rsp), %r11
	movl	%r11d, %r9d
	roll	$30, %r9d
	addl	%eax, %edx
	xorl	%r11d, %r9d
	roll	$15, %r9d
	addl	%r15d, %eax
	movl	%r11d, %r8d
	shrl	$10, %r8d
	xorl	%r9d, %r8d
	movl	-92(%rsp), %r10d
	movl	%r10d, %r9d
	roll	$21, %r9d
	xorl	%r10d, %r9d
	roll	$25, %r9d
	shrl	$3, %r10d
	xorl	%r9d, %r10d
	movl	%eax, %r9d
	roll	$18, %r9d
	addl	-124(%rsp), %r12d
	xorl	%eax, %r9d
	roll	$27, %r9d
	addl	%r10d, %r12d
	xorl	%eax, %r9d
	roll	$26, %r9d
	addl	%r8d, %r12d
	movl	%ecx, %r8d
	movl	-80(%rsp), %r11d
	xorl	%r11d, %r8d
	andl	%eax, %r8d
	xorl	%r11d, %r8d
	leaq	.Lnoise_static.99(%rip), %r10
	addl	76(%r14,%r10), %ebx
	addl	%r12d, %ebx
	addl	%r8d, %ebx
	movl	%edx, -88(%rsp)
	movl	%edx, %r8d
	roll	$23, %r8d
	addl	%r9d, %ebx
	movl	%ebx, %r14d
	xorl	%edx, %r8d
	roll	$21, %r8d
	xorl	%edx, %r8d
	roll	$30, %r8d
	xorl	%r13d, %edx
	movl	%esi, %r15d
	andl	%edx, %r15d
	xorl	%r13d, %r15d
	addl	%r8d, %r15d
	addl	%ebx, %r15d
	movq	-48(%rsp), %r9
	movl	%r9d, %r8d
	roll	$30, %r8d
	addl	%ebp, %r14d
	xorl	%r9d, %r8d
	movq	%r9, %rsi
	roll	$15, %r8d
	movl	-68(%rsp), %ebp
	movl	%ebp, %r9d
	roll	$21, %r9d
	movl	%esi, %r10d
	shrl	$10, %r10d
	xorl	%ebp, %r9d
	roll	$25, %r9d
	xorl	%r8d, %r10d
	movl	%ebp, %r8d
	shrl	$3, %r8d
	xorl	%r9d, %r8d
	movl	-92(%rsp), %esi
	addl	-112(%rsp), %esi
	movl	%r14d, %r9d
	roll	$18, %r9d
	addl	%r8d, %esi
	xorl	%r14d, %r9d
	roll	$27, %r9d
	addl	%r10d, %esi
	movl	%esi, %r10d
	movl	%esi, -92(%rsp)
	movl	%eax, %r8d
	xorl	%ecx, %r8d
	andl	%r14d, %r8d
	xorl	%ecx, %r8d
	movl	%r11d, %ebx
	leaq	.Lnoise_static.99(%rip), %r11
	movq	-104(%rsp), %rsi
	addl	80(%rsi,%r11), %ebx
	addl	%r10d, %ebx
	addl	%r8d, %ebx
	xorl	%r14d, %r9d
	roll	$26, %r9d
	addl	%r9d, %ebx
	movl	%r15d, -52(%rsp)
	movl	%r15d, %r9d
	roll	$23, %r9d
	xorl	%r15d, %r9d
	roll	$21, %r9d
	xorl	%r15d, %r9d
	roll	$30, %r9d
	movl	-88(%rsp), %r8d
	xorl	%r8d, %r15d
	andl	%r15d, %edx
	xorl	%r8d, %edx
	addl	%r9d, %edx
	addl	%ebx, %edx
	addl	%edi, %ebx
	movq	%r12, -32(%rsp)
	movl	%r12d, %edi
	roll	$30, %edi
	xorl	%r12d, %edi
	roll	$15, %edi
	movl	%r12d, %r9d
	shrl	$10, %r9d
	movl	-84(%rsp), %r8d
	movl	%r8d, %r10d
	roll	$21, %r10d
	xorl	%edi, %r9d
	xorl	%r8d, %r10d
	roll	$25, %r10d
	movl	%r8d, %edi
	shrl	$3, %edi
	xorl	%r10d, %edi
	addl	-108(%rsp), %ebp
	addl	%edi, %ebp
	movl	%ebx, %edi
	roll	$18, %edi
	addl	%r9d, %ebp
	xorl	%ebx, %edi
	roll	$27, %edi
	xorl	%ebx, %edi
	roll	$26, %edi
	movl	%r14d, %r9d
	xorl	%eax, %r9d
	andl	%ebx, %r9d
	movl	%ebx, -80(%rsp)
	addl	84(%rsi,%r11), %ecx
	xorl	%eax, %r9d
	movl	%edx, %r10d
	roll	$23, %r10d
	addl	%ebp, %ecx
	xorl	%edx, %r10d
	roll	$21, %r10d
	addl	%r9d, %ecx
	xorl	%edx, %r10d
	roll	$30, %r10d
	addl	%edi, %ecx
	movl	%edx, %r12d
	movl	-52(%rsp), %r11d
	xorl	%r11d, %r12d
	andl	%r12d, %r15d
	xorl	%r11d, %r15d
	addl	%r10d, %r15d
	addl	%ecx, %r15d
	addl	%r13d, %ecx
	movl	-92(%rsp), %edi
	movl	%edi, %esi
	roll	$30, %esi
	xorl	%edi, %esi
	roll	$15, %esi
	shrl	$10, %edi
	xorl	%esi, %edi
	movl	-76(%rsp), %r9d
	movl	%r9d, %esi
	roll	$21, %esi
	xorl	%r9d, %esi
	roll	$25, %esi
	shrl	$3, %r9d
	xorl	%esi, %r9d
	addl	-96(%rsp), %r8d
	addl	%r9d, %r8d
	addl	%edi, %r8d
	movl	%r8d, -84(%rsp)
	movl	%ecx, %esi
	roll	$18, %esi
	xorl	%ecx, %esi
	roll	$27, %esi
	xorl	%ecx, %esi
	movl	%ecx, -16(%rsp)
	roll	$26, %esi
	movl	%r14d, -64(%rsp)
	xorl	%r14d, %ebx
	andl	%ecx, %ebx
	xorl	%r14d, %ebx
	movq	-104(%rsp), %rdi
	leaq	.Lnoise_static.99(%rip), %rcx
	addl	88(%rdi,%rcx), %eax
	addl	%r8d, %eax
	movl	%r15d, %edi
	roll	$23, %edi
	addl	%ebx, %eax
	xorl	%r15d, %edi
	roll	$21, %edi
	addl	%esi, %eax
	xorl	%r15d, %edi
	movl	%r15d, -56(%rsp)
	roll	$30, %edi
	movl	%ebp, %r11d
	movl	%ebp, %esi
	roll	$30, %esi
	movl	%edx, 4(%rsp)
	xorl	%edx, %r15d
	movl	%r15d, -12(%rsp)
	xorl	%ebp, %esi
	movl	%ebp, -68(%rsp)
	roll	$15, %esi
	andl	%r15d, %r12d
	movl	-72(%rsp), %r8d
	movl	%r8d, %ecx
	roll	$21, %ecx
	xorl	%edx, %r12d
	xorl	%r8d, %ecx
	roll	$25, %ecx
	movl	%ecx, (%rsp)
	addl	%edi, %r12d
	movl	-60(%rsp), %edx
	movl	%edx, %ecx
	roll	$21, %ecx
	addl	%eax, %r12d
	xorl	%edx, %ecx
	roll	$25, %ecx
	movl	%ecx, -4(%rsp)
	addl	-88(%rsp), %eax
	movl	-116(%rsp), %r14d
	movl	%r14d, %ecx
	roll	$21, %ecx
	xorl	%r14d, %ecx
	roll	$25, %ecx
	movl	%ecx, -88(%rsp)
	shrl	$10, %r11d
	movl	-120(%rsp), %ebx
	movl	%ebx, %ebp
	roll	$21, %ebp
	xorl	%esi, %r11d
	xorl	%ebx, %ebp
	roll	$25, %ebp
	movq	-24(%rsp), %r8
	movl	%r8d, %edx
	roll	$21, %edx
	xorl	%r8d, %edx
	roll	$25, %edx
	movl	%r8d, %ecx
	shrl	$3, %ecx
	xorl	%edx, %ecx
	movl	-96(%rsp), %edi
	movl	%edi, %edx
	roll	$21, %edx
	xorl	%edi, %edx
	movl	-124(%rsp), %r10d
	movl	%r10d, %esi
	roll	$21, %esi
	addl	%edi, %ecx
	movl	%ecx, -8(%rsp)
	xorl	%r10d, %esi
	movl	%r10d, %r15d
	roll	$25, %esi
	roll	$25, %edx
	shrl	$3, %edi
	xorl	%edx, %edi
	movl	-108(%rsp), %r10d
	movl	%r10d, %edx
	roll	$21, %edx
	xorl	%r10d, %edx
	movl	-112(%rsp), %ecx
	movl	%eax, %r9d
	movl	%ecx, %eax
	roll	$21, %eax
	addl	%r10d, %edi
	movl	%edi, -96(%rsp)
	xorl	%ecx, %eax
	roll	$25, %eax
	roll	$25, %edx
	shrl	$3, %r10d
	xorl	%edx, %r10d
	addl	%ecx, %r10d
	movl	%r10d, -108(%rsp)
	shrl	$3, %ecx
	xorl	%eax, %ecx
	addl	%r15d, %ecx
	movl	%ecx, -112(%rsp)
	shrl	$3, %r15d
	xorl	%esi, %r15d
	addl	%ebx, %r15d
	movl	%r15d, -124(%rsp)
	shrl	$3, %ebx
	xorl	%ebp, %ebx
	addl	%r14d, %ebx
	movl	%ebx, -120(%rsp)
	shrl	$3, %r14d
	xorl	-88(%rsp), %r14d
	movl	-60(%rsp), %edi
	addl	%edi, %r14d
	movl	%r14d, -116(%rsp)
	shrl	$3, %edi
	xorl	-4(%rsp), %edi
	movl	-72(%rsp), %edx
	addl	%edx, %edi
	shrl	$3, %edx
	xorl	(%rsp), %edx
	movl	-76(%rsp), %r13d
	addl	%r8d, %r13d
	addl	%edx, %r13d
	addl	%r11d, %r13d
	movl	%r9d, %edx
	roll	$18, %edx
	xorl	%r9d, %edx
	roll	$27, %edx
	movq	-104(%rsp), %r10
	leaq	.Lnoise_static.99(%rip), %rbp
	movl	92(%r10,%rbp), %r14d
	addl	%r13d, %r14d
	addl	-64(%rsp), %r14d
	xorl	%r9d, %edx
	roll	$26, %edx
	movl	-16(%rsp), %eax
	movl	%eax, %r10d
	movl	-80(%rsp), %ebx
	xorl	%ebx, %r10d
	andl	%r9d, %r10d
	xorl	%ebx, %r10d
	addl	%r10d, %r14d
	movl	%r12d, %r10d
	roll	$23, %r10d
	addl	%edx, %r14d
	xorl	%r12d, %r10d
	roll	$21, %r10d
	xorl	%r12d, %r10d
	roll	$30, %r10d
	movl	%r12d, %r11d
	movl	-56(%rsp), %ecx
	xorl	%ecx, %r11d
	movl	-12(%rsp), %esi
	andl	%r11d, %esi
	xorl	%ecx, %esi
	addl	%r10d, %esi
	addl	%r14d, %esi
	movl	-84(%rsp), %r10d
	movl	%r10d, %edx
	roll	$30, %edx
	addl	-52(%rsp), %r14d
	xorl	%r10d, %edx
	roll	$15, %edx
	shrl	$10, %r10d
	xorl	%edx, %r10d
	addl	-40(%rsp), %edi
	addl	%r10d, %edi
	movl	%r14d, %edx
	roll	$18, %edx
	xorl	%r14d, %edx
	roll	$27, %edx
	xorl	%r14d, %edx
	roll	$26, %edx
	movq	-104(%rsp), %r10
	movl	96(%r10,%rbp), %r15d
	movq	%rbp, %rcx
	addl	%edi, %r15d
	addl	%ebx, %r15d
	movl	%r9d, %r10d
	xorl	%eax, %r10d
	andl	%r14d, %r10d
	xorl	%eax, %r10d
	movl	%eax, %r8d
	movl	%esi, %ebx
	roll	$23, %ebx
	addl	%r10d, %r15d
	xorl	%esi, %ebx
	roll	$21, %ebx
	addl	%edx, %r15d
	xorl	%esi, %ebx
	roll	$30, %ebx
	movl	%esi, %ebp
	xorl	%r12d, %ebp
	andl	%ebp, %r11d
	xorl	%r12d, %r11d
	addl	%ebx, %r11d
	movl	%r13d, -76(%rsp)
	movl	%r13d, %edx
	roll	$30, %edx
	addl	%r15d, %r11d
	xorl	%r13d, %edx
	roll	$15, %edx
	addl	4(%rsp), %r15d
	shrl	$10, %r13d
	xorl	%edx, %r13d
	movl	-116(%rsp), %eax
	addl	-48(%rsp), %eax
	addl	%r13d, %eax
	movl	%eax, -116(%rsp)
	movq	-104(%rsp), %rdx
	movl	100(%rdx,%rcx), %edx
	addl	%eax, %edx
	addl	%r8d, %edx
	movl	%r15d, %ecx
	roll	$18, %ecx
	xorl	%r15d, %ecx
	roll	$27, %ecx
	xorl	%r15d, %ecx
	roll	$26, %ecx
	movl	%r14d, %r10d
	xorl	%r9d, %r10d
	andl	%r15d, %r10d
	movl	%r11d, %r13d
	roll	$23, %r13d
	xorl	%r9d, %r10d
	xorl	%r11d, %r13d
	roll	$21, %r13d
	addl	%r10d, %edx
	xorl	%r11d, %r13d
	roll	$30, %r13d
	addl	%ecx, %edx
	movl	%r11d, %ebx
	xorl	%esi, %ebx
	andl	%ebx, %ebp
	xorl	%esi, %ebp
	addl	%r13d, %ebp
	addl	%edx, %ebp
	addl	-56(%rsp), %edx
	movl	%edi, %ecx
	roll	$30, %ecx
	xorl	%edi, %ecx
	roll	$15, %ecx
	movl	%edi, %r8d
	shrl	$10, %r8d
	xorl	%ecx, %r8d
	movl	-120(%rsp), %r13d
	addl	-32(%rsp), %r13d
	addl	%r8d, %r13d
	movl	%r13d, -120(%rsp)
	movl	%edx, %ecx
	roll	$18, %ecx
	movq	-104(%rsp), %r8
	leaq	.Lnoise_static.99(%rip), %rax
	movl	104(%r8,%rax), %r10d
	addl	%r13d, %r10d
	addl	%r9d, %r10d
	xorl	%edx, %ecx
	roll	$27, %ecx
	movl	%r15d, %eax
	xorl	%r14d, %eax
	andl	%edx, %eax
	xorl	%r14d, %eax
	addl	%eax, %r10d
	xorl	%edx, %ecx
	roll	$26, %ecx
	addl	%ecx, %r10d
	movl	%ebp, %eax
	roll	$23, %eax
	xorl	%ebp, %eax
	roll	$21, %eax
	xorl	%ebp, %eax
	roll	$30, %eax
	movl	%ebp, %r13d
	xorl	%r11d, %r13d
	andl	%r13d, %ebx
	xorl	%r11d, %ebx
	addl	%eax, %ebx
	addl	%r10d, %ebx
	addl	%r12d, %r10d
	movl	-116(%rsp), %ecx
	movl	%ecx, %eax
	roll	$30, %eax
	xorl	%ecx, %eax
	roll	$15, %eax
	shrl	$10, %ecx
	xorl	%eax, %ecx
	movl	-124(%rsp), %r8d
	addl	-92(%rsp), %r8d
	addl	%ecx, %r8d
	movl	%r8d, -124(%rsp)
	movl	%r10d, %eax
	roll	$18, %eax
	xorl	%r10d, %eax
	roll	$27, %eax
	movq	-104(%rsp), %rcx
	leaq	.Lnoise_static.99(%rip), %r9
	movl	108(%rcx,%r9), %r12d
	addl	%r8d, %r12d
	addl	%r14d, %r12d
	xorl	%r10d, %eax
	roll	$26, %eax
	movl	%edx, %ecx
	xorl	%r15d, %ecx
	andl	%r10d, %ecx
	xorl	%r15d, %ecx
	addl	%ecx, %r12d
	movl	%ebx, %ecx
	roll	$23, %ecx
	addl	%eax, %r12d
	xorl	%ebx, %ecx
	roll	$21, %ecx
	xorl	%ebx, %ecx
	roll	$30, %ecx
	movl	%ebx, %r8d
	xorl	%ebp, %r8d
	andl	%r8d, %r13d
	xorl	%ebp, %r13d
	addl	%ecx, %r13d
	addl	%r12d, %r13d
	movl	-120(%rsp), %ecx
	movl	%ecx, %eax
	roll	$30, %eax
	addl	%esi, %r12d
	xorl	%ecx, %eax
	roll	$15, %eax
	shrl	$10, %ecx
	xorl	%eax, %ecx
	movl	-112(%rsp), %esi
	addl	-68(%rsp), %esi
	addl	%ecx, %esi
	movl	%r12d, %eax
	roll	$18, %eax
	xorl	%r12d, %eax
	roll	$27, %eax
	xorl	%r12d, %eax
	roll	$26, %eax
	movq	-104(%rsp), %rcx
	movl	112(%rcx,%r9), %r14d
	addl	%esi, %r14d
	addl	%r15d, %r14d
	movl	%r10d, %ecx
	xorl	%edx, %ecx
	andl	%r12d, %ecx
	xorl	%edx, %ecx
	movl	%r13d, %r15d
	roll	$23, %r15d
	addl	%ecx, %r14d
	xorl	%r13d, %r15d
	roll	$21, %r15d
	addl	%eax, %r14d
	xorl	%r13d, %r15d
	roll	$30, %r15d
	movl	%r13d, %r9d
	xorl	%ebx, %r9d
	andl	%r9d, %r8d
	xorl	%ebx, %r8d
	addl	%r15d, %r8d
	movl	-124(%rsp), %ecx
	movl	%ecx, %eax
	roll	$30, %eax
	addl	%r14d, %r8d
	xorl	%ecx, %eax
	roll	$15, %eax
	addl	%r11d, %r14d
	shrl	$10, %ecx
	xorl	%eax, %ecx
	movl	-108(%rsp), %r11d
	addl	-84(%rsp), %r11d
	addl	%ecx, %r11d
	movl	%r11d, -108(%rsp)
	movq	-104(%rsp), %rax
	leaq	.Lnoise_static.99(%rip), %rcx
	movl	116(%rax,%rcx), %ecx
	addl	%r11d, %ecx
	addl	%edx, %ecx
	movl	%r14d, %eax
	roll	$18, %eax
	xorl	%r14d, %eax
	roll	$27, %eax
	xorl	%r14d, %eax
	roll	$26, %eax
	movl	%r12d, %edx
	xorl	%r10d, %edx
	andl	%r14d, %edx
	movl	%r8d, %r11d
	roll	$23, %r11d
	xorl	%r10d, %edx
	xorl	%r8d, %r11d
	roll	$21, %r11d
	addl	%edx, %ecx
	xorl	%r8d, %r11d
	roll	$30, %r11d
	addl	%eax, %ecx
	movl	%r8d, %r15d
	xorl	%r13d, %r15d
	andl	%r15d, %r9d
	xorl	%r13d, %r9d
	addl	%r11d, %r9d
	addl	%ecx, %r9d
	addl	%ebp, %ecx
	movl	%esi, %edx
	movl	%esi, -112(%rsp)
	movl	%esi, %eax
	roll	$30, %eax
	xorl	%esi, %eax
	roll	$15, %eax
	shrl	$10, %edx
	xorl	%eax, %edx
	movl	-96(%rsp), %r11d
	addl	-76(%rsp), %r11d
	addl	%edx, %r11d
	movl	%r11d, -96(%rsp)
	movl	%ecx, %edx
	roll	$18, %edx
	movq	-104(%rsp), %rax
	leaq	.Lnoise_static.99(%rip), %rsi
	movl	120(%rax,%rsi), %eax
	addl	%r11d, %eax
	addl	%r10d, %eax
	xorl	%ecx, %edx
	roll	$27, %edx
	movl	%r14d, %r10d
	xorl	%r12d, %r10d
	andl	%ecx, %r10d
	xorl	%r12d, %r10d
	addl	%r10d, %eax
	xorl	%ecx, %edx
	roll	$26, %edx
	addl	%edx, %eax
	movl	%r9d, %r10d
	roll	$23, %r10d
	xorl	%r9d, %r10d
	roll	$21, %r10d
	xorl	%r9d, %r10d
	roll	$30, %r10d
	movl	%r9d, %edx
	xorl	%r8d, %edx
	andl	%edx, %r15d
	xorl	%r8d, %r15d
	addl	%r10d, %r15d
	addl	%eax, %r15d
	addl	%ebx, %eax
	movl	-108(%rsp), %r11d
	movl	%r11d, %r10d
	roll	$30, %r10d
	xorl	%r11d, %r10d
	roll	$15, %r10d
	shrl	$10, %r11d
	xorl	%r10d, %r11d
	movl	-8(%rsp), %r10d
	addl	%edi, %r10d
	addl	%r11d, %r10d
	movl	%r10d, %ebp
	movl	%eax, %r10d
	roll	$18, %r10d
	xorl	%eax, %r10d
	roll	$27, %r10d
	movq	-104(%rsp), %r11
	movl	124(%r11,%rsi), %ebx
	addl	%ebp, %ebx
	movl	%ebp, %esi
	addl	%r12d, %ebx
	movq	-104(%rsp), %r12
	xorl	%eax, %r10d
	roll	$26, %r10d
	movl	%ecx, %r11d
	xorl	%r14d, %r11d
	andl	%eax, %r11d
	xorl	%r14d, %r11d
	addl	%r11d, %ebx
	addl	%r10d, %ebx
	movl	%r15d, %ebp
	xorl	%r9d, %ebp
	andl	%edx, %ebp
	movl	%r15d, %edx
	roll	$23, %edx
	xorl	%r15d, %edx
	roll	$21, %edx
	xorl	%r15d, %edx
	roll	$30, %edx
	xorl	%r9d, %ebp
	addl	%edx, %ebp
	addl	%ebx, %ebp
	addl	%r13d, %ebx
	movl	%edi, -72(%rsp)
	movl	-116(%rsp), %r10d
	movl	-120(%rsp), %edx
	movl	%edx, -116(%rsp)
	movl	-124(%rsp), %edx
	movl	%edx, -120(%rsp)
	movl	-112(%rsp), %edx
	movl	%edx, -124(%rsp)
	movl	-108(%rsp), %edx
	movl	%edx, -112(%rsp)
	addq	$64, %r12
	movl	-96(%rsp), %edx
	movl	%esi, %r13d
	movq	%r12, %rsi
	cmpq	$192, %r12
	jne	.Lnoise_BB34_1
	addl	16(%rsp), %ebp
	addl	24(%rsp), %r15d
	addl	32(%rsp), %r9d
	addl	8(%rsp), %r8d
	addl	40(%rsp), %ebx
	addl	48(%rsp), %eax
	addl	56(%rsp), %ecx
	addl	64(%rsp), %r14d
	movq	72(%rsp), %rdx
	movl	%ebp, (%rdx)
	movl	%r15d, 4(%rdx)
	movl	%r9d, 8(%rdx)
	movl	%r8d, 12(%rdx)
	movl	%ebx, 16(%rdx)
	movl	%eax, 20(%rdx)
	movl	%ecx, 24(%rdx)
	movl	%r14d, 28(%rdx)
	addq	$80, %rsp
	.cfi_def_cfa_offset 56
	popq	%rbx
	.cfi_def_cfa_offset 48
	popq	%r12
	.cfi_def_cfa_offset 40
	popq	%r13
	.cfi_def_cfa_offset 32
	popq	%r14
	.cfi_def_cfa_offset 24
	popq	%r15
	.cfi_def_cfa_offset 16
	popq	%rbp
	.cfi_def_cfa_offset 8
	retq
.Lnoise_func_end34:
	.size	"sha2::block256::compress.v1", .Lnoise_func_end34-"sha2::block256::compress.v1"
	.cfi_endproc

	.section	".text.noise_state::symmetric::SymmetricState::mix_key_and_hash","ax",@progbits
	.p2align	4
	.type	"noise_state::symmetric::SymmetricState::mix_key_and_hash",@function
"noise_state::symmetric::SymmetricState::mix_key_and_hash":
	.cfi_startproc
	pushq	%r15
	.cfi_def_cfa_offset 16
	pushq	%r14
	.cfi_def_cfa_offset 24
	pushq	%rbx
	.cfi_def_cfa_offset 32
	subq	$784, %rsp
	.cfi_def_cfa_offset 816
	.cfi_offset %rbx, -32
	.cfi_offset %r14, -24
	.cfi_offset %r15, -16
	movq	%rdi, %rbx
	xorps	%xmm0, %xmm0
	movaps	%xmm0, 80(%rsp)
	movaps	%xmm0, 96(%rsp)
	movaps	%xmm0, 544(%rsp)
	movaps	%xmm0, 560(%rsp)
	movaps	%xmm0, 576(%rsp)
	movaps	%xmm0, 592(%rsp)
	movaps	%xmm0, 608(%rsp)
	movaps	%xmm0, 624(%rsp)
	movaps	%xmm0, 640(%rsp)
	movaps	%xmm0, 656(%rsp)
	movaps	%xmm0, 672(%rsp)
	movaps	%xmm0, 688(%rsp)
	movaps	%xmm0, 704(%rsp)
	movaps	%xmm0, 720(%rsp)
	movaps	%xmm0, 736(%rsp)
	movq	%rsi, 64(%rsp)
	movq	$32, 72(%rsp)
	movaps	%xmm0, 288(%rsp)
	movaps	%xmm0, 272(%rsp)
	movaps	%xmm0, 336(%rsp)
	movaps	%xmm0, 352(%rsp)
	movaps	%xmm0, 368(%rsp)
	movaps	%xmm0, 384(%rsp)
	movaps	%xmm0, 400(%rsp)
	movaps	%xmm0, 416(%rsp)
	movaps	%xmm0, 432(%rsp)
	movaps	%xmm0, 448(%rsp)
	movaps	%xmm0, 464(%rsp)
	movaps	%xmm0, 480(%rsp)
	movaps	%xmm0, 496(%rsp)
	movaps	%xmm0, 512(%rsp)
	movaps	%xmm0, 528(%rsp)
	leaq	336(%rsp), %r14
	movq	%r14, %rdi
	movq	%rbx, %rsi
	callq	"noise_kdf::keyed::Hmac::new"
	leaq	272(%rsp), %r15
	leaq	64(%rsp), %rdx
	movl	$1, %ecx
	movq	%r15, %rdi
	movq	%r14, %rsi
	callq	"noise_kdf::keyed::Hmac::code"
	leaq	544(%rsp), %r14
	movq	%r14, %rdi
	movq	%r15, %rsi
	callq	"noise_kdf::keyed::Hmac::new"
	xorps	%xmm0, %xmm0
	movaps	%xmm0, (%rsp)
	movaps	%xmm0, 16(%rsp)
	movaps	%xmm0, 112(%rsp)
	movaps	%xmm0, 128(%rsp)
	leaq	.Lnoise_static.102(%rip), %rdx
	leaq	112(%rsp), %rdi
	movl	$1, %ecx
	movq	%r14, %rsi
	callq	"noise_kdf::keyed::Hmac::code"
	movaps	112(%rsp), %xmm0
	movaps	128(%rsp), %xmm1
	movaps	%xmm1, 48(%rsp)
	movaps	%xmm0, 32(%rsp)
	leaq	32(%rsp), %r15
	movq	%r15, 144(%rsp)
	movq	$32, 152(%rsp)
	leaq	.Lnoise_static.103(%rip), %rax
	movq	%rax, 160(%rsp)
	movq	$1, 168(%rsp)
	movq	%rsp, %rdi
	leaq	144(%rsp), %rdx
	movl	$2, %ecx
	movq	%r14, %rsi
	callq	"noise_kdf::keyed::Hmac::code"
	movaps	32(%rsp), %xmm0
	movaps	48(%rsp), %xmm1
	movaps	%xmm1, 352(%rsp)
	movaps	%xmm0, 336(%rsp)
	movaps	(%rsp), %xmm2
	movaps	16(%rsp), %xmm3
	movaps	%xmm3, 384(%rsp)
	movaps	%xmm2, 368(%rsp)
	movaps	%xmm0, 208(%rsp)
	movaps	%xmm1, 224(%rsp)
	movaps	%xmm2, 32(%rsp)
	movaps	%xmm3, 48(%rsp)
	movq	%r15, (%rsp)
	movq	$32, 8(%rsp)
	leaq	.Lnoise_static.101(%rip), %rax
	movq	%rax, 16(%rsp)
	movq	$1, 24(%rsp)
	leaq	80(%rsp), %rdi
	movq	%rsp, %rdx
	movl	$2, %ecx
	movq	%r14, %rsi
	callq	"noise_kdf::keyed::Hmac::code"
	movaps	32(%rsp), %xmm0
	movaps	48(%rsp), %xmm1
	movaps	%xmm1, 768(%rsp)
	movaps	%xmm0, 752(%rsp)
	movaps	80(%rsp), %xmm2
	movaps	96(%rsp), %xmm3
	movaps	%xmm2, 176(%rsp)
	movaps	%xmm3, 192(%rsp)
	movaps	%xmm0, 240(%rsp)
	movaps	%xmm1, 256(%rsp)
	movaps	208(%rsp), %xmm0
	movaps	224(%rsp), %xmm1
	movups	%xmm1, 16(%rbx)
	movups	%xmm0, (%rbx)
	leaq	32(%rbx), %rsi
	leaq	304(%rsp), %rdi
	leaq	240(%rsp), %rdx
	movl	$32, %ecx
	callq	"noise_state::symmetric::hash_of_both"
	movups	304(%rsp), %xmm0
	movups	320(%rsp), %xmm1
	movups	%xmm1, 48(%rbx)
	movups	%xmm0, 32(%rbx)
	movb	$1, 64(%rbx)
	movaps	176(%rsp), %xmm0
	movaps	192(%rsp), %xmm1
	movups	%xmm0, 65(%rbx)
	movups	%xmm1, 81(%rbx)
	movq	$0, 104(%rbx)
	addq	$784, %rsp
	.cfi_def_cfa_offset 32
	popq	%rbx
	.cfi_def_cfa_offset 24
	popq	%r14
	.cfi_def_cfa_offset 16
	popq	%r15
	.cfi_def_cfa_offset 8
	retq
.Lnoise_func_end35:
	.size	"noise_state::symmetric::SymmetricState::mix_key_and_hash", .Lnoise_func_end35-"noise_state::symmetric::SymmetricState::mix_key_and_hash"
	.cfi_endproc

	.section	.rodata.cst16,"aM",@progbits,16
	.p2align	4, 0x0
.Lnoise_CPI36_0:
	.zero	16,54
.Lnoise_CPI36_1:
	.long	1779033703
	.long	3144134277
	.long	1013904242
	.long	2773480762
.Lnoise_CPI36_2:
	.long	1359893119
	.long	2600822924
	.long	528734635
	.long	1541459225
.Lnoise_CPI36_3:
	.zero	16,92
	.section	".text.noise_kdf::keyed::Hmac::new","ax",@progbits
	.p2align	4
	.type	"noise_kdf::keyed::Hmac::new",@function
"noise_kdf::keyed::Hmac::new":
	.cfi_startproc
	pushq	%rbx
	.cfi_def_cfa_offset 16
	subq	$672, %rsp
	.cfi_def_cfa_offset 688
	.cfi_offset %rbx, -16
	movq	%rdi, %rbx
	xorps	%xmm0, %xmm0
	movaps	%xmm0, 592(%rsp)
	movaps	%xmm0, 576(%rsp)
	movaps	%xmm0, 560(%rsp)
	movaps	%xmm0, 544(%rsp)
	movaps	%xmm0, 528(%rsp)
	movaps	%xmm0, 512(%rsp)
	movaps	%xmm0, 496(%rsp)
	movaps	%xmm0, 480(%rsp)
	movaps	%xmm0, 464(%rsp)
	movaps	%xmm0, 448(%rsp)
	movaps	%xmm0, 432(%rsp)
	movaps	%xmm0, 416(%rsp)
	movaps	%xmm0, 400(%rsp)
	movaps	%xmm0, 176(%rsp)
	movaps	%xmm0, 192(%rsp)
	movaps	%xmm0, 208(%rsp)
	movaps	%xmm0, 224(%rsp)
	movaps	%xmm0, 240(%rsp)
	movaps	%xmm0, 256(%rsp)
	movq	$0, 272(%rsp)
	movaps	%xmm0, 160(%rsp)
	movaps	%xmm0, 144(%rsp)
	movups	(%rsi), %xmm0
	movups	16(%rsi), %xmm1
	movaps	%xmm1, 128(%rsp)
	movaps	%xmm0, 112(%rsp)
	movaps	.Lnoise_CPI36_0(%rip), %xmm2
	xorps	%xmm2, %xmm0
	xorps	%xmm2, %xmm1
	movaps	%xmm0, 608(%rsp)
	movaps	%xmm1, 624(%rsp)
	movaps	%xmm2, 640(%rsp)
	movaps	%xmm2, 656(%rsp)
	movaps	.Lnoise_CPI36_1(%rip), %xmm0
	movaps	%xmm0, (%rsp)
	movaps	.Lnoise_CPI36_2(%rip), %xmm0
	movaps	%xmm0, 16(%rsp)
	xorps	%xmm0, %xmm0
	movaps	%xmm0, 32(%rsp)
	movaps	%xmm0, 48(%rsp)
	movaps	%xmm0, 64(%rsp)
	movaps	%xmm0, 80(%rsp)
	movq	$0, 96(%rsp)
	movq	%rsp, %rdi
	leaq	608(%rsp), %rsi
	movl	$64, %edx
	callq	"sha2::block256::Core256::update"
	movq	96(%rsp), %rax
	movq	%rax, 384(%rsp)
	movaps	80(%rsp), %xmm0
	movaps	%xmm0, 368(%rsp)
	movaps	64(%rsp), %xmm0
	movaps	%xmm0, 352(%rsp)
	movaps	(%rsp), %xmm0
	movaps	16(%rsp), %xmm1
	movaps	32(%rsp), %xmm2
	movaps	48(%rsp), %xmm3
	movaps	%xmm3, 336(%rsp)
	movaps	%xmm2, 320(%rsp)
	movaps	%xmm1, 304(%rsp)
	movaps	%xmm0, 288(%rsp)
	movaps	.Lnoise_CPI36_3(%rip), %xmm0
	movaps	112(%rsp), %xmm1
	xorps	%xmm0, %xmm1
	movaps	128(%rsp), %xmm2
	xorps	%xmm0, %xmm2
	movaps	%xmm1, 112(%rsp)
	movaps	%xmm2, 128(%rsp)
	movaps	144(%rsp), %xmm1
	xorps	%xmm0, %xmm1
	xorps	160(%rsp), %xmm0
	movaps	%xmm1, 144(%rsp)
	movaps	%xmm0, 160(%rsp)
	movaps	.Lnoise_CPI36_1(%rip), %xmm0
	movaps	%xmm0, (%rsp)
	movaps	.Lnoise_CPI36_2(%rip), %xmm0
	movaps	%xmm0, 16(%rsp)
	xorps	%xmm0, %xmm0
	movaps	%xmm0, 32(%rsp)
	movaps	%xmm0, 48(%rsp)
	movaps	%xmm0, 64(%rsp)
	movaps	%xmm0, 80(%rsp)
	movq	$0, 96(%rsp)
	movq	%rsp, %rdi
	leaq	112(%rsp), %rsi
	movl	$64, %edx
	callq	"sha2::block256::Core256::update"
	movq	96(%rsp), %rax
	movq	%rax, 272(%rsp)
	movaps	80(%rsp), %xmm0
	movaps	%xmm0, 256(%rsp)
	movaps	64(%rsp), %xmm0
	movaps	%xmm0, 240(%rsp)
	movaps	(%rsp), %xmm0
	movaps	16(%rsp), %xmm1
	movaps	32(%rsp), %xmm2
	movaps	48(%rsp), %xmm3
	movaps	%xmm3, 224(%rsp)
	movaps	%xmm2, 208(%rsp)
	movaps	%xmm1, 192(%rsp)
	movaps	%xmm0, 176(%rsp)
	movaps	288(%rsp), %xmm0
	movaps	304(%rsp), %xmm1
	movaps	320(%rsp), %xmm2
	movaps	336(%rsp), %xmm3
	movaps	%xmm0, 400(%rsp)
	movaps	%xmm1, 416(%rsp)
	movaps	%xmm2, 432(%rsp)
	movaps	%xmm3, 448(%rsp)
	movaps	352(%rsp), %xmm0
	movaps	%xmm0, 464(%rsp)
	movaps	368(%rsp), %xmm0
	movaps	%xmm0, 480(%rsp)
	movq	384(%rsp), %rax
	movq	%rax, 496(%rsp)
	movq	272(%rsp), %rax
	movq	%rax, 600(%rsp)
	movaps	256(%rsp), %xmm0
	movups	%xmm0, 584(%rsp)
	movaps	240(%rsp), %xmm0
	movups	%xmm0, 568(%rsp)
	movaps	176(%rsp), %xmm0
	movaps	192(%rsp), %xmm1
	movaps	208(%rsp), %xmm2
	movaps	224(%rsp), %xmm3
	movups	%xmm3, 552(%rsp)
	movups	%xmm2, 536(%rsp)
	movups	%xmm1, 520(%rsp)
	movups	%xmm0, 504(%rsp)
	leaq	400(%rsp), %rsi
	movl	$208, %edx
	movq	%rbx, %rdi
	callq	memcpy@PLT
	addq	$672, %rsp
	.cfi_def_cfa_offset 16
	popq	%rbx
	.cfi_def_cfa_offset 8
	retq
.Lnoise_func_end36:
	.size	"noise_kdf::keyed::Hmac::new", .Lnoise_func_end36-"noise_kdf::keyed::Hmac::new"
	.cfi_endproc

	.section	".text.noise_kdf::keyed::Hmac::code","ax",@progbits
	.p2align	4
	.type	"noise_kdf::keyed::Hmac::code",@function
"noise_kdf::keyed::Hmac::code":
	.cfi_startproc
	pushq	%r15
	.cfi_def_cfa_offset 16
	pushq	%r14
	.cfi_def_cfa_offset 24
	pushq	%r13
	.cfi_def_cfa_offset 32
	pushq	%r12
	.cfi_def_cfa_offset 40
	pushq	%rbx
	.cfi_def_cfa_offset 48
	subq	$528, %rsp
	.cfi_def_cfa_offset 576
	.cfi_offset %rbx, -48
	.cfi_offset %r12, -40
	.cfi_offset %r13, -32
	.cfi_offset %r14, -24
	.cfi_offset %r15, -16
	movq	%rcx, %r15
	movq	%rdx, %r12
	movq	%rsi, %r14
	movq	%rdi, %rbx
	movups	(%rsi), %xmm0
	movups	16(%rsi), %xmm1
	movaps	%xmm1, 224(%rsp)
	movaps	%xmm0, 208(%rsp)
	movups	32(%rsi), %xmm2
	movups	48(%rsi), %xmm3
	movups	64(%rsi), %xmm4
	movups	80(%rsi), %xmm5
	movaps	%xmm2, 240(%rsp)
	movaps	%xmm3, 256(%rsp)
	movaps	%xmm4, 272(%rsp)
	movaps	%xmm5, 288(%rsp)
	movq	96(%rsi), %rax
	movups	%xmm1, 23(%rsp)
	movups	%xmm2, 39(%rsp)
	movups	%xmm3, 55(%rsp)
	movups	%xmm4, 71(%rsp)
	movups	%xmm5, 87(%rsp)
	movups	%xmm0, 7(%rsp)
	movups	87(%rsp), %xmm0
	movaps	%xmm0, 192(%rsp)
	movups	71(%rsp), %xmm0
	movaps	%xmm0, 176(%rsp)
	movups	7(%rsp), %xmm0
	movups	23(%rsp), %xmm1
	movups	39(%rsp), %xmm2
	movups	55(%rsp), %xmm3
	movaps	%xmm3, 160(%rsp)
	movaps	%xmm2, 144(%rsp)
	movaps	%xmm1, 128(%rsp)
	movaps	%xmm0, 112(%rsp)
	movaps	192(%rsp), %xmm0
	movaps	%xmm0, 496(%rsp)
	movaps	176(%rsp), %xmm0
	movaps	%xmm0, 480(%rsp)
	movaps	112(%rsp), %xmm0
	movaps	128(%rsp), %xmm1
	movaps	144(%rsp), %xmm2
	movaps	160(%rsp), %xmm3
	movaps	%xmm3, 464(%rsp)
	movaps	%xmm2, 448(%rsp)
	movaps	%xmm1, 432(%rsp)
	movaps	%xmm0, 416(%rsp)
	movq	%rax, 512(%rsp)
	shlq	$4, %r15
	xorl	%r13d, %r13d
	.p2align	4
.Lnoise_BB37_1:
	movq	(%r12,%r13), %rsi
	movq	8(%r12,%r13), %rdx
	leaq	416(%rsp), %rdi
	callq	"sha2::block256::Core256::update"
	addq	$16, %r13
	cmpq	%r13, %r15
	jne	.Lnoise_BB37_1
	movups	104(%r14), %xmm0
	movups	120(%r14), %xmm1
	movaps	%xmm1, 224(%rsp)
	movaps	%xmm0, 208(%rsp)
	movups	136(%r14), %xmm2
	movups	152(%r14), %xmm3
	movups	168(%r14), %xmm4
	movups	184(%r14), %xmm5
	movaps	%xmm2, 240(%rsp)
	movaps	%xmm3, 256(%rsp)
	movaps	%xmm4, 272(%rsp)
	movaps	%xmm5, 288(%rsp)
	movq	200(%r14), %rax
	movups	%xmm1, 23(%rsp)
	movups	%xmm2, 39(%rsp)
	movups	%xmm3, 55(%rsp)
	movups	%xmm4, 71(%rsp)
	movups	%xmm5, 87(%rsp)
	movups	%xmm0, 7(%rsp)
	movups	87(%rsp), %xmm0
	movaps	%xmm0, 192(%rsp)
	movups	71(%rsp), %xmm0
	movaps	%xmm0, 176(%rsp)
	movups	7(%rsp), %xmm0
	movups	23(%rsp), %xmm1
	movups	39(%rsp), %xmm2
	movups	55(%rsp), %xmm3
	movaps	%xmm3, 160(%rsp)
	movaps	%xmm2, 144(%rsp)
	movaps	%xmm1, 128(%rsp)
	movaps	%xmm0, 112(%rsp)
	movaps	192(%rsp), %xmm0
	movaps	%xmm0, 384(%rsp)
	movaps	176(%rsp), %xmm0
	movaps	%xmm0, 368(%rsp)
	movaps	112(%rsp), %xmm0
	movaps	128(%rsp), %xmm1
	movaps	144(%rsp), %xmm2
	movaps	160(%rsp), %xmm3
	movaps	%xmm3, 352(%rsp)
	movaps	%xmm2, 336(%rsp)
	movaps	%xmm1, 320(%rsp)
	movaps	%xmm0, 304(%rsp)
	movq	%rax, 400(%rsp)
	movq	512(%rsp), %r13
	movaps	496(%rsp), %xmm0
	movaps	%xmm0, 80(%rsp)
	movaps	480(%rsp), %xmm0
	movaps	%xmm0, 64(%rsp)
	movaps	416(%rsp), %xmm0
	movaps	432(%rsp), %xmm1
	movaps	448(%rsp), %xmm2
	movdqa	464(%rsp), %xmm3
	movdqa	%xmm3, 48(%rsp)
	movaps	%xmm2, 32(%rsp)
	movaps	%xmm1, 16(%rsp)
	movaps	%xmm0, (%rsp)
	movq	%r13, 96(%rsp)
	movl	$55, %r14d
	movl	$55, %edx
	subl	%r13d, %edx
	andl	$63, %edx
	incq	%rdx
	leaq	.Lnoise_static.100(%rip), %r15
	movq	%rsp, %r12
	movq	%r12, %rdi
	movq	%r15, %rsi
	callq	"sha2::block256::Core256::update"
	movq	%r13, %rax
	shrq	$53, %rax
	movzbl	%al, %eax
	movq	%r13, %rcx
	shlq	$59, %rcx
	movl	%r13d, %edx
	andl	$8160, %edx
	shlq	$43, %rdx
	orq	%rcx, %rdx
	movl	%r13d, %ecx
	andl	$2088960, %ecx
	shlq	$27, %rcx
	orq	%rdx, %rcx
	movl	%r13d, %edx
	andl	$534773760, %edx
	shlq	$11, %rdx
	orq	%rcx, %rdx
	movq	%r13, %rcx
	shrq	$5, %rcx
	andl	$-16777216, %ecx
	orq	%rdx, %rcx
	movq	%r13, %rdx
	shrq	$21, %rdx
	andl	$16711680, %edx
	orq	%rcx, %rdx
	shrq	$37, %r13
	andl	$65280, %r13d
	orq	%rdx, %r13
	orq	%rax, %r13
	movq	%r13, 208(%rsp)
	leaq	208(%rsp), %rsi
	movl	$8, %edx
	movq	%r12, %rdi
	callq	"sha2::block256::Core256::update"
	movdqa	(%rsp), %xmm0
	movdqa	16(%rsp), %xmm1
	pxor	%xmm3, %xmm3
	movdqa	%xmm0, %xmm2
	punpckhbw	%xmm3, %xmm2
	pshuflw	$27, %xmm2, %xmm2
	pshufhw	$27, %xmm2, %xmm2
	punpcklbw	%xmm3, %xmm0
	pshuflw	$27, %xmm0, %xmm0
	pshufhw	$27, %xmm0, %xmm0
	packuswb	%xmm2, %xmm0
	movdqa	%xmm1, %xmm2
	punpckhbw	%xmm3, %xmm2
	pshuflw	$27, %xmm2, %xmm2
	pshufhw	$27, %xmm2, %xmm2
	punpcklbw	%xmm3, %xmm1
	pshuflw	$27, %xmm1, %xmm1
	pshufhw	$27, %xmm1, %xmm1
	packuswb	%xmm2, %xmm1
	movdqa	%xmm0, (%rsp)
	movdqa	%xmm1, 16(%rsp)
	leaq	304(%rsp), %rdi
	movq	%rsp, %rsi
	movl	$32, %edx
	callq	"sha2::block256::Core256::update"
	movq	400(%rsp), %r13
	movaps	384(%rsp), %xmm0
	movaps	%xmm0, 80(%rsp)
	movaps	368(%rsp), %xmm0
	movaps	%xmm0, 64(%rsp)
	movaps	304(%rsp), %xmm0
	movaps	320(%rsp), %xmm1
	movaps	336(%rsp), %xmm2
	movdqa	352(%rsp), %xmm3
	movdqa	%xmm3, 48(%rsp)
	movaps	%xmm2, 32(%rsp)
	movaps	%xmm1, 16(%rsp)
	movaps	%xmm0, (%rsp)
	movq	%r13, 96(%rsp)
	subl	%r13d, %r14d
	andl	$63, %r14d
	incq	%r14
	movq	%rsp, %r12
	movq	%r12, %rdi
	movq	%r15, %rsi
	movq	%r14, %rdx
	callq	"sha2::block256::Core256::update"
	movq	%r13, %rax
	shrq	$53, %rax
	movzbl	%al, %eax
	movq	%r13, %rcx
	shlq	$59, %rcx
	movl	%r13d, %edx
	andl	$8160, %edx
	shlq	$43, %rdx
	orq	%rcx, %rdx
	movl	%r13d, %ecx
	andl	$2088960, %ecx
	shlq	$27, %rcx
	orq	%rdx, %rcx
	movl	%r13d, %edx
	andl	$534773760, %edx
	shlq	$11, %rdx
	orq	%rcx, %rdx
	movq	%r13, %rcx
	shrq	$5, %rcx
	andl	$-16777216, %ecx
	orq	%rdx, %rcx
	movq	%r13, %rdx
	shrq	$21, %rdx
	andl	$16711680, %edx
	orq	%rcx, %rdx
	shrq	$37, %r13
	andl	$65280, %r13d
	orq	%rdx, %r13
	orq	%rax, %r13
	movq	%r13, 208(%rsp)
	leaq	208(%rsp), %rsi
	movl	$8, %edx
	movq	%r12, %rdi
	callq	"sha2::block256::Core256::update"
	movdqa	(%rsp), %xmm0
	movdqa	16(%rsp), %xmm1
	movdqa	%xmm0, %xmm2
	pxor	%xmm3, %xmm3
	punpckhbw	%xmm3, %xmm2
	pshuflw	$27, %xmm2, %xmm2
	pshufhw	$27, %xmm2, %xmm2
	punpcklbw	%xmm3, %xmm0
	pshuflw	$27, %xmm0, %xmm0
	pshufhw	$27, %xmm0, %xmm0
	packuswb	%xmm2, %xmm0
	movdqa	%xmm1, %xmm2
	punpckhbw	%xmm3, %xmm2
	pshuflw	$27, %xmm2, %xmm2
	pshufhw	$27, %xmm2, %xmm2
	punpcklbw	%xmm3, %xmm1
	pshuflw	$27, %xmm1, %xmm1
	pshufhw	$27, %xmm1, %xmm1
	packuswb	%xmm2, %xmm1
	movdqu	%xmm0, (%rbx)
	movdqu	%xmm1, 16(%rbx)
	addq	$528, %rsp
	.cfi_def_cfa_offset 48
	popq	%rbx
	.cfi_def_cfa_offset 40
	popq	%r12
	.cfi_def_cfa_offset 32
	popq	%r13
	.cfi_def_cfa_offset 24
	popq	%r14
	.cfi_def_cfa_offset 16
	popq	%r15
	.cfi_def_cfa_offset 8
	retq
.Lnoise_func_end37:
	.size	"noise_kdf::keyed::Hmac::code", .Lnoise_func_end37-"noise_kdf::keyed::Hmac::code"
	.cfi_endproc

	.section	".text.noise_c::supplied_keys::result_for","ax",@progbits
	.p2align	4
	.type	"noise_c::supplied_keys::result_for",@function
"noise_c::supplied_keys::result_for":
	.cfi_startproc
	pushq	%rbx
	.cfi_def_cfa_offset 16
	subq	$48, %rsp
	.cfi_def_cfa_offset 64
	.cfi_offset %rbx, -16
	movq	%rdi, %rbx
	pxor	%xmm0, %xmm0
	movdqa	%xmm0, 16(%rsp)
	movdqa	%xmm0, (%rsp)
	movb	$0, 32(%rsp)
	testq	%rdx, %rdx
	je	.Lnoise_BB38_4
	cmpb	$0, (%rsi)
	setne	%al
	cmpb	%al, %cl
	jne	.Lnoise_BB38_6
	movdqu	1(%rsi), %xmm0
	movdqu	17(%rsi), %xmm1
	movdqu	(%r8), %xmm2
	pcmpeqb	%xmm0, %xmm2
	movdqu	16(%r8), %xmm0
	pcmpeqb	%xmm1, %xmm0
	pand	%xmm2, %xmm0
	pmovmskb	%xmm0, %eax
	xorl	$65535, %eax
	je	.Lnoise_BB38_3
.Lnoise_BB38_6:
	addq	$65, %rsi
	decq	%rdx
	movzbl	%cl, %ecx
	movq	%rsp, %rdi
	callq	"noise_c::supplied_keys::result_for"
	movzbl	(%rsp), %eax
.Lnoise_BB38_7:
	movb	%al, (%rbx)
	movups	1(%rsp), %xmm0
	movups	17(%rsp), %xmm1
	movups	%xmm0, 1(%rbx)
	movups	%xmm1, 17(%rbx)
	addq	$48, %rsp
	.cfi_def_cfa_offset 16
	popq	%rbx
	.cfi_def_cfa_offset 8
	retq
.Lnoise_BB38_4:
	.cfi_def_cfa_offset 64
	movdqu	%xmm0, 16(%rbx)
	movdqu	%xmm0, (%rbx)
	movb	$0, 32(%rbx)
	addq	$48, %rsp
	.cfi_def_cfa_offset 16
	popq	%rbx
	.cfi_def_cfa_offset 8
	retq
.Lnoise_BB38_3:
	.cfi_def_cfa_offset 64
	movdqu	33(%rsi), %xmm0
	movdqu	49(%rsi), %xmm1
	movdqu	%xmm1, 17(%rsp)
	movdqu	%xmm0, 1(%rsp)
	movb	$1, %al
	jmp	.Lnoise_BB38_7
.Lnoise_func_end38:
	.size	"noise_c::supplied_keys::result_for", .Lnoise_func_end38-"noise_c::supplied_keys::result_for"
	.cfi_endproc

	.section	".text.noise_handshake::setup::mix_premessage","ax",@progbits
	.p2align	4
	.type	"noise_handshake::setup::mix_premessage",@function
"noise_handshake::setup::mix_premessage":
	.cfi_startproc
	pushq	%rbp
	.cfi_def_cfa_offset 16
	pushq	%r15
	.cfi_def_cfa_offset 24
	pushq	%r14
	.cfi_def_cfa_offset 32
	pushq	%r12
	.cfi_def_cfa_offset 40
	pushq	%rbx
	.cfi_def_cfa_offset 48
	subq	$96, %rsp
	.cfi_def_cfa_offset 144
	.cfi_offset %rbx, -48
	.cfi_offset %r12, -40
	.cfi_offset %r14, -32
	.cfi_offset %r15, -24
	.cfi_offset %rbp, -16
	xorps	%xmm0, %xmm0
	movaps	%xmm0, 16(%rsp)
	movaps	%xmm0, (%rsp)
	testq	%r8, %r8
	je	.Lnoise_BB39_8
	movzbl	(%rcx), %eax
	leal	-2(%rax), %r9d
	movzbl	%sil, %esi
	cmpl	$5, %r9d
	jae	.Lnoise_BB39_2
.Lnoise_BB39_7:
	incq	%rcx
	decq	%r8
	callq	"noise_handshake::setup::mix_premessage"
.Lnoise_BB39_8:
	addq	$96, %rsp
	.cfi_def_cfa_offset 48
	popq	%rbx
	.cfi_def_cfa_offset 40
	popq	%r12
	.cfi_def_cfa_offset 32
	popq	%r14
	.cfi_def_cfa_offset 24
	popq	%r15
	.cfi_def_cfa_offset 16
	popq	%rbp
	.cfi_def_cfa_offset 8
	retq
.Lnoise_BB39_2:
	.cfi_def_cfa_offset 144
	testl	%eax, %eax
	jne	.Lnoise_BB39_5
	cmpb	$1, (%rdx)
	jne	.Lnoise_BB39_9
	movq	%rcx, %r14
	movq	%r8, %r15
	leaq	1(%rdx), %rax
	movups	(%rax), %xmm0
	movups	16(%rax), %xmm1
	movaps	%xmm1, 16(%rsp)
	movaps	%xmm0, (%rsp)
	movq	%rsp, %rax
	movq	%rdi, %rbx
	movl	%esi, %ebp
	movq	%rdx, %r12
	movq	%rax, %rdx
	callq	"noise_handshake::tokens::mix_ephemeral"
	movl	%ebp, %esi
	movq	%rbx, %rdi
	movq	%r12, %rdx
	movq	%r15, %r8
	movq	%r14, %rcx
	jmp	.Lnoise_BB39_7
.Lnoise_BB39_5:
	cmpb	$1, 33(%rdx)
	jne	.Lnoise_BB39_9
	movq	%rcx, %rbx
	movq	%r8, %r14
	leaq	34(%rdx), %rax
	movups	(%rax), %xmm0
	movups	16(%rax), %xmm1
	movaps	%xmm1, 48(%rsp)
	movaps	%xmm0, 32(%rsp)
	leaq	32(%rdi), %rax
	leaq	64(%rsp), %r8
	leaq	32(%rsp), %r9
	movl	$32, %ecx
	movq	%rdi, %r15
	movq	%r8, %rdi
	movl	%esi, %ebp
	movq	%rax, %rsi
	movq	%rdx, %r12
	movq	%r9, %rdx
	callq	"noise_state::symmetric::hash_of_both"
	movl	%ebp, %esi
	movq	%r15, %rdi
	movq	%r12, %rdx
	movups	64(%rsp), %xmm0
	movups	80(%rsp), %xmm1
	movups	%xmm1, 48(%r15)
	movups	%xmm0, 32(%r15)
	movq	%r14, %r8
	movq	%rbx, %rcx
	jmp	.Lnoise_BB39_7
.Lnoise_BB39_9:
	ud2
.Lnoise_func_end39:
	.size	"noise_handshake::setup::mix_premessage", .Lnoise_func_end39-"noise_handshake::setup::mix_premessage"
	.cfi_endproc

	.section	.rodata.cst16,"aM",@progbits,16
	.p2align	4, 0x0
.Lnoise_CPI40_0:
	.byte	1
	.byte	1
	.byte	1
	.byte	1
	.zero	1
	.zero	1
	.zero	1
	.zero	1
	.zero	1
	.zero	1
	.zero	1
	.zero	1
	.zero	1
	.zero	1
	.zero	1
	.zero	1
	.section	".text.noise_names::valid::ValidPattern::overhead","ax",@progbits
	.p2align	4
	.type	"noise_names::valid::ValidPattern::overhead",@function
"noise_names::valid::ValidPattern::overhead":
	.cfi_startproc
	pushq	%rbp
	.cfi_def_cfa_offset 16
	pushq	%r14
	.cfi_def_cfa_offset 24
	pushq	%rbx
	.cfi_def_cfa_offset 32
	subq	$32, %rsp
	.cfi_def_cfa_offset 64
	.cfi_offset %rbx, -32
	.cfi_offset %r14, -24
	.cfi_offset %rbp, -16
	movq	%rdi, %rbx
	movw	$0, 24(%rsp)
	movq	$0, 16(%rsp)
	movzbl	%sil, %r14d
	decq	%r14
	leaq	16(%rsp), %rdi
	movq	%rbx, %rsi
	movq	%r14, %rdx
	callq	"noise_names::valid::ValidPattern::seen_after"
	movzbl	24(%rsp), %eax
	movb	%al, 8(%rsp)
	movq	16(%rsp), %rax
	movq	%rax, (%rsp)
	movzbl	25(%rsp), %eax
	movq	264(%rbx), %rcx
	addq	$72, %rbx
	testq	%rcx, %rcx
	je	.Lnoise_BB40_8
	xorl	%edx, %edx
	movq	%rbx, %rsi
	jmp	.Lnoise_BB40_3
	.p2align	4
.Lnoise_BB40_2:
	incq	%rdx
	addq	$24, %rsi
	cmpq	%rcx, %rdx
	je	.Lnoise_BB40_8
.Lnoise_BB40_3:
	leaq	(%rdx,%rdx,2), %rdi
	movq	16(%rbx,%rdi,8), %rdi
	testq	%rdi, %rdi
	je	.Lnoise_BB40_2
	xorl	%r8d, %r8d
	.p2align	4
.Lnoise_BB40_5:
	cmpb	$6, (%rsi,%r8)
	je	.Lnoise_BB40_7
	incq	%r8
	cmpq	%r8, %rdi
	jne	.Lnoise_BB40_5
	jmp	.Lnoise_BB40_2
.Lnoise_BB40_7:
	movb	$1, %bpl
	jmp	.Lnoise_BB40_9
.Lnoise_BB40_8:
	xorl	%ebp, %ebp
.Lnoise_BB40_9:
	leaq	(%r14,%r14,2), %rdx
	leaq	(%rbx,%rdx,8), %rcx
	movq	16(%rbx,%rdx,8), %r8
	movzbl	%bpl, %esi
	movzbl	%al, %edx
	movq	%rsp, %rdi
	callq	"noise_names::seen::Seen::tokens_len"
	movd	4(%rsp), %xmm0
	pand	.Lnoise_CPI40_0(%rip), %xmm0
	movd	%xmm0, %ecx
	testl	%ecx, %ecx
	je	.Lnoise_BB40_12
.Lnoise_BB40_10:
	movw	$16, %cx
.Lnoise_BB40_11:
	movzwl	%cx, %ecx
	addl	%eax, %ecx
	movl	%ecx, %eax
	addq	$32, %rsp
	.cfi_def_cfa_offset 32
	popq	%rbx
	.cfi_def_cfa_offset 24
	popq	%r14
	.cfi_def_cfa_offset 16
	popq	%rbp
	.cfi_def_cfa_offset 8
	retq
.Lnoise_BB40_12:
	.cfi_def_cfa_offset 64
	movzbl	8(%rsp), %ecx
	notb	%bpl
	orb	%cl, %bpl
	testb	$1, %bpl
	je	.Lnoise_BB40_15
	cmpb	$1, %cl
	je	.Lnoise_BB40_10
	jmp	.Lnoise_BB40_17
.Lnoise_BB40_15:
	testb	$1, (%rsp)
	jne	.Lnoise_BB40_10
	testb	$1, 2(%rsp)
	jne	.Lnoise_BB40_10
.Lnoise_BB40_17:
	xorl	%ecx, %ecx
	jmp	.Lnoise_BB40_11
.Lnoise_func_end40:
	.size	"noise_names::valid::ValidPattern::overhead", .Lnoise_func_end40-"noise_names::valid::ValidPattern::overhead"
	.cfi_endproc

	.section	".text.noise_names::seen::Seen::tokens_len","ax",@progbits
	.p2align	4
	.type	"noise_names::seen::Seen::tokens_len",@function
"noise_names::seen::Seen::tokens_len":
	.cfi_startproc
	testq	%r8, %r8
	je	.Lnoise_BB41_1
	testb	%sil, %sil
	je	.Lnoise_BB41_3
	testb	%dl, %dl
	je	.Lnoise_BB41_25
	xorl	%edx, %edx
	movzbl	(%rcx,%rdx), %eax
	leaq	.Lnoise_JTI41_1(%rip), %rsi
	movslq	(%rsi,%rax,4), %r9
	addq	%rsi, %r9
	xorl	%eax, %eax
	notrack jmpq	*%r9
.Lnoise_BB41_1:
	xorl	%eax, %eax
	retq
.Lnoise_BB41_3:
	xorl	%eax, %eax
	xorl	%esi, %esi
	jmp	.Lnoise_BB41_4
.Lnoise_BB41_5:
	movb	$1, 6(%rdi)
	.p2align	4
.Lnoise_BB41_22:
	incq	%rsi
	cmpq	%rsi, %r8
	je	.Lnoise_BB41_60
.Lnoise_BB41_4:
	movzbl	(%rcx,%rsi), %r9d
	leaq	.Lnoise_JTI41_0(%rip), %r10
	movslq	(%r10,%r9,4), %r9
	addq	%r10, %r9
	notrack jmpq	*%r9
.Lnoise_BB41_19:
	addl	$32, %eax
	testb	%dl, %dl
	je	.Lnoise_BB41_21
	movb	$1, 2(%rdi)
	jmp	.Lnoise_BB41_22
.Lnoise_BB41_7:
	movb	$1, 4(%rdi)
	jmp	.Lnoise_BB41_22
.Lnoise_BB41_6:
	movb	$1, 5(%rdi)
	jmp	.Lnoise_BB41_22
.Lnoise_BB41_10:
	cmpb	$0, 4(%rdi)
	jne	.Lnoise_BB41_15
	cmpb	$0, 5(%rdi)
	jne	.Lnoise_BB41_15
	cmpb	$0, 6(%rdi)
	jne	.Lnoise_BB41_15
	cmpb	$0, 7(%rdi)
	jne	.Lnoise_BB41_15
	movw	$32, %r9w
	cmpb	$1, 8(%rdi)
	jne	.Lnoise_BB41_16
.Lnoise_BB41_15:
	movw	$48, %r9w
.Lnoise_BB41_16:
	movzwl	%r9w, %r9d
	addl	%eax, %r9d
	movl	%r9d, %eax
	testb	%dl, %dl
	je	.Lnoise_BB41_18
	movb	$1, 3(%rdi)
	jmp	.Lnoise_BB41_22
.Lnoise_BB41_8:
	movb	$1, 7(%rdi)
	jmp	.Lnoise_BB41_22
.Lnoise_BB41_9:
	movb	$1, 8(%rdi)
	jmp	.Lnoise_BB41_22
.Lnoise_BB41_21:
	movb	$1, (%rdi)
	jmp	.Lnoise_BB41_22
.Lnoise_BB41_18:
	movb	$1, 1(%rdi)
	jmp	.Lnoise_BB41_22
.Lnoise_BB41_25:
	xorl	%eax, %eax
	xorl	%edx, %edx
	jmp	.Lnoise_BB41_26
.Lnoise_BB41_27:
	movb	$1, 6(%rdi)
	.p2align	4
.Lnoise_BB41_42:
	incq	%rdx
	cmpq	%rdx, %r8
	je	.Lnoise_BB41_60
.Lnoise_BB41_26:
	movzbl	(%rcx,%rdx), %esi
	leaq	.Lnoise_JTI41_2(%rip), %r9
	movslq	(%r9,%rsi,4), %rsi
	addq	%r9, %rsi
	notrack jmpq	*%rsi
.Lnoise_BB41_41:
	addl	$32, %eax
	movb	$1, (%rdi)
	jmp	.Lnoise_BB41_42
.Lnoise_BB41_29:
	movb	$1, 4(%rdi)
	jmp	.Lnoise_BB41_42
.Lnoise_BB41_28:
	movb	$1, 5(%rdi)
	jmp	.Lnoise_BB41_42
.Lnoise_BB41_32:
	cmpb	$0, 4(%rdi)
	jne	.Lnoise_BB41_39
	cmpb	$0, 5(%rdi)
	jne	.Lnoise_BB41_39
	cmpb	$0, 6(%rdi)
	jne	.Lnoise_BB41_39
	cmpb	$0, 7(%rdi)
	jne	.Lnoise_BB41_39
	cmpb	$0, 8(%rdi)
	jne	.Lnoise_BB41_39
	cmpb	$0, (%rdi)
	jne	.Lnoise_BB41_39
	movw	$32, %si
	cmpb	$1, 2(%rdi)
	jne	.Lnoise_BB41_40
.Lnoise_BB41_39:
	movw	$48, %si
.Lnoise_BB41_40:
	movzwl	%si, %esi
	addl	%eax, %esi
	movb	$1, 1(%rdi)
	movl	%esi, %eax
	jmp	.Lnoise_BB41_42
.Lnoise_BB41_30:
	movb	$1, 7(%rdi)
	jmp	.Lnoise_BB41_42
.Lnoise_BB41_31:
	movb	$1, 8(%rdi)
	jmp	.Lnoise_BB41_42
.Lnoise_BB41_43:
	movzbl	(%rcx,%rdx), %r9d
	movslq	(%rsi,%r9,4), %r9
	addq	%rsi, %r9
	notrack jmpq	*%r9
.Lnoise_BB41_44:
	addl	$32, %eax
	movb	$1, 2(%rdi)
	jmp	.Lnoise_BB41_59
.Lnoise_BB41_57:
	movb	$1, 7(%rdi)
	jmp	.Lnoise_BB41_59
.Lnoise_BB41_55:
	movb	$1, 5(%rdi)
	jmp	.Lnoise_BB41_59
.Lnoise_BB41_56:
	movb	$1, 6(%rdi)
	jmp	.Lnoise_BB41_59
.Lnoise_BB41_45:
	cmpb	$0, 4(%rdi)
	jne	.Lnoise_BB41_52
	cmpb	$0, 5(%rdi)
	jne	.Lnoise_BB41_52
	cmpb	$0, 6(%rdi)
	jne	.Lnoise_BB41_52
	cmpb	$0, 7(%rdi)
	jne	.Lnoise_BB41_52
	cmpb	$0, 8(%rdi)
	jne	.Lnoise_BB41_52
	cmpb	$0, (%rdi)
	jne	.Lnoise_BB41_52
	movw	$32, %r9w
	cmpb	$1, 2(%rdi)
	jne	.Lnoise_BB41_53
.Lnoise_BB41_52:
	movw	$48, %r9w
.Lnoise_BB41_53:
	movzwl	%r9w, %r9d
	addl	%eax, %r9d
	movb	$1, 3(%rdi)
	movl	%r9d, %eax
.Lnoise_BB41_59:
	incq	%rdx
	cmpq	%rdx, %r8
	jne	.Lnoise_BB41_43
.Lnoise_BB41_60:
	retq
.Lnoise_BB41_54:
	movb	$1, 4(%rdi)
	jmp	.Lnoise_BB41_59
.Lnoise_BB41_58:
	movb	$1, 8(%rdi)
	jmp	.Lnoise_BB41_59
.Lnoise_func_end41:
	.size	"noise_names::seen::Seen::tokens_len", .Lnoise_func_end41-"noise_names::seen::Seen::tokens_len"
	.cfi_endproc
	.section	".rodata.noise_names::seen::Seen::tokens_len","a",@progbits
	.p2align	2, 0x0
.Lnoise_JTI41_0:
	.long	.Lnoise_BB41_19-.Lnoise_JTI41_0
	.long	.Lnoise_BB41_10-.Lnoise_JTI41_0
	.long	.Lnoise_BB41_7-.Lnoise_JTI41_0
	.long	.Lnoise_BB41_6-.Lnoise_JTI41_0
	.long	.Lnoise_BB41_5-.Lnoise_JTI41_0
	.long	.Lnoise_BB41_8-.Lnoise_JTI41_0
	.long	.Lnoise_BB41_9-.Lnoise_JTI41_0
.Lnoise_JTI41_1:
	.long	.Lnoise_BB41_44-.Lnoise_JTI41_1
	.long	.Lnoise_BB41_45-.Lnoise_JTI41_1
	.long	.Lnoise_BB41_54-.Lnoise_JTI41_1
	.long	.Lnoise_BB41_55-.Lnoise_JTI41_1
	.long	.Lnoise_BB41_56-.Lnoise_JTI41_1
	.long	.Lnoise_BB41_57-.Lnoise_JTI41_1
	.long	.Lnoise_BB41_58-.Lnoise_JTI41_1
.Lnoise_JTI41_2:
	.long	.Lnoise_BB41_41-.Lnoise_JTI41_2
	.long	.Lnoise_BB41_32-.Lnoise_JTI41_2
	.long	.Lnoise_BB41_29-.Lnoise_JTI41_2
	.long	.Lnoise_BB41_28-.Lnoise_JTI41_2
	.long	.Lnoise_BB41_27-.Lnoise_JTI41_2
	.long	.Lnoise_BB41_30-.Lnoise_JTI41_2
	.long	.Lnoise_BB41_31-.Lnoise_JTI41_2

	.section	.rodata.cst16,"aM",@progbits,16
	.p2align	4, 0x0
.Lnoise_CPI42_0:
	.byte	1
	.byte	1
	.byte	1
	.byte	1
	.zero	1
	.zero	1
	.zero	1
	.zero	1
	.zero	1
	.zero	1
	.zero	1
	.zero	1
	.zero	1
	.zero	1
	.zero	1
	.zero	1
	.section	".text.noise_c::message_layout::piece","ax",@progbits
	.p2align	4
	.type	"noise_c::message_layout::piece",@function
"noise_c::message_layout::piece":
	.cfi_startproc
	pushq	%rbp
	.cfi_def_cfa_offset 16
	pushq	%r15
	.cfi_def_cfa_offset 24
	pushq	%r14
	.cfi_def_cfa_offset 32
	pushq	%r13
	.cfi_def_cfa_offset 40
	pushq	%r12
	.cfi_def_cfa_offset 48
	pushq	%rbx
	.cfi_def_cfa_offset 56
	subq	$56, %rsp
	.cfi_def_cfa_offset 112
	.cfi_offset %rbx, -56
	.cfi_offset %r12, -48
	.cfi_offset %r13, -40
	.cfi_offset %r14, -32
	.cfi_offset %r15, -24
	.cfi_offset %rbp, -16
	movl	%r9d, 32(%rsp)
	movl	%r8d, 36(%rsp)
	movl	%ecx, %r15d
	movq	%rsi, %r12
	movq	%rdi, %rbx
	movw	$0, 8(%rsp)
	movq	$0, (%rsp)
	movzbl	%dl, %ebp
	decq	%rbp
	movq	%rsp, %rdi
	movq	%rbp, %rdx
	callq	"noise_names::valid::ValidPattern::seen_after"
	movzbl	8(%rsp), %eax
	movb	%al, 24(%rsp)
	movq	(%rsp), %rax
	movq	%rax, 16(%rsp)
	movzbl	9(%rsp), %eax
	leaq	72(%r12), %r14
	movq	264(%r12), %r13
	testq	%r13, %r13
	je	.Lnoise_BB42_8
	xorl	%ecx, %ecx
	movq	%r14, %rdx
	jmp	.Lnoise_BB42_2
	.p2align	4
.Lnoise_BB42_7:
	incq	%rcx
	addq	$24, %rdx
	cmpq	%r13, %rcx
	je	.Lnoise_BB42_8
.Lnoise_BB42_2:
	leaq	(%rcx,%rcx,2), %rsi
	movq	16(%r14,%rsi,8), %rsi
	testq	%rsi, %rsi
	je	.Lnoise_BB42_7
	xorl	%edi, %edi
	.p2align	4
.Lnoise_BB42_5:
	cmpb	$6, (%rdx,%rdi)
	je	.Lnoise_BB42_6
	incq	%rdi
	cmpq	%rdi, %rsi
	jne	.Lnoise_BB42_5
	jmp	.Lnoise_BB42_7
.Lnoise_BB42_6:
	movb	$1, %sil
	jmp	.Lnoise_BB42_9
.Lnoise_BB42_8:
	xorl	%esi, %esi
.Lnoise_BB42_9:
	movzbl	%r15b, %r8d
	leaq	(,%rbp,2), %rdx
	addq	%rbp, %rdx
	leaq	(%r14,%rdx,8), %rcx
	movzbl	%sil, %esi
	movzbl	%al, %edx
	leaq	16(%rsp), %rdi
	movq	%rcx, 40(%rsp)
	movq	%r8, 48(%rsp)
	callq	"noise_names::seen::Seen::tokens_len"
	movd	20(%rsp), %xmm0
	movb	$1, %r15b
	movb	$1, %al
	testq	%r13, %r13
	je	.Lnoise_BB42_18
	xorl	%eax, %eax
	movq	%r14, %rcx
	jmp	.Lnoise_BB42_11
	.p2align	4
.Lnoise_BB42_16:
	incq	%rax
	addq	$24, %rcx
	cmpq	%r13, %rax
	je	.Lnoise_BB42_17
.Lnoise_BB42_11:
	leaq	(%rax,%rax,2), %rdx
	movq	16(%r14,%rdx,8), %rdx
	testq	%rdx, %rdx
	je	.Lnoise_BB42_16
	xorl	%esi, %esi
	.p2align	4
.Lnoise_BB42_14:
	cmpb	$6, (%rcx,%rsi)
	je	.Lnoise_BB42_15
	incq	%rsi
	cmpq	%rsi, %rdx
	jne	.Lnoise_BB42_14
	jmp	.Lnoise_BB42_16
.Lnoise_BB42_15:
	xorl	%eax, %eax
.Lnoise_BB42_18:
	pand	.Lnoise_CPI42_0(%rip), %xmm0
	movd	%xmm0, %ecx
	testl	%ecx, %ecx
	jne	.Lnoise_BB42_21
.Lnoise_BB42_19:
	movzbl	24(%rsp), %r15d
	orb	%r15b, %al
	testb	$1, %al
	jne	.Lnoise_BB42_21
	movzbl	18(%rsp), %r15d
	orb	16(%rsp), %r15b
.Lnoise_BB42_21:
	movw	$0, 8(%rsp)
	movq	$0, (%rsp)
	movq	%rsp, %rdi
	movq	%r12, %rsi
	movq	%rbp, %rdx
	callq	"noise_names::valid::ValidPattern::seen_after"
	movzbl	8(%rsp), %eax
	movb	%al, 24(%rsp)
	movq	(%rsp), %rax
	movq	%rax, 16(%rsp)
	movzbl	9(%rsp), %eax
	testq	%r13, %r13
	je	.Lnoise_BB42_29
	xorl	%ecx, %ecx
	movq	%r14, %rdx
	jmp	.Lnoise_BB42_23
	.p2align	4
.Lnoise_BB42_28:
	incq	%rcx
	addq	$24, %rdx
	cmpq	%r13, %rcx
	je	.Lnoise_BB42_29
.Lnoise_BB42_23:
	leaq	(%rcx,%rcx,2), %rsi
	movq	16(%r14,%rsi,8), %rsi
	testq	%rsi, %rsi
	je	.Lnoise_BB42_28
	xorl	%edi, %edi
	.p2align	4
.Lnoise_BB42_26:
	cmpb	$6, (%rdx,%rdi)
	je	.Lnoise_BB42_27
	incq	%rdi
	cmpq	%rdi, %rsi
	jne	.Lnoise_BB42_26
	jmp	.Lnoise_BB42_28
.Lnoise_BB42_27:
	movb	$1, %cl
	jmp	.Lnoise_BB42_30
.Lnoise_BB42_29:
	xorl	%ecx, %ecx
.Lnoise_BB42_30:
	movl	32(%rsp), %edx
	andb	%r15b, %dl
	movzbl	%dl, %ebp
	movl	%ebp, %r14d
	shll	$4, %r14d
	addl	112(%rsp), %r14d
	movzbl	%cl, %esi
	movzbl	%al, %edx
	leaq	16(%rsp), %rdi
	movq	40(%rsp), %rcx
	movq	48(%rsp), %r8
	callq	"noise_names::seen::Seen::tokens_len"
	movzwl	%ax, %eax
	movl	36(%rsp), %ecx
	movb	%cl, (%rbx)
	movb	%bpl, 1(%rbx)
	movw	$0, 2(%rbx)
	movl	%eax, 4(%rbx)
	movl	%r14d, 8(%rbx)
	addq	$56, %rsp
	.cfi_def_cfa_offset 56
	popq	%rbx
	.cfi_def_cfa_offset 48
	popq	%r12
	.cfi_def_cfa_offset 40
	popq	%r13
	.cfi_def_cfa_offset 32
	popq	%r14
	.cfi_def_cfa_offset 24
	popq	%r15
	.cfi_def_cfa_offset 16
	popq	%rbp
	.cfi_def_cfa_offset 8
	retq
.Lnoise_BB42_17:
	.cfi_def_cfa_offset 112
	movb	$1, %al
	pand	.Lnoise_CPI42_0(%rip), %xmm0
	movd	%xmm0, %ecx
	testl	%ecx, %ecx
	jne	.Lnoise_BB42_21
	jmp	.Lnoise_BB42_19
.Lnoise_func_end42:
	.size	"noise_c::message_layout::piece", .Lnoise_func_end42-"noise_c::message_layout::piece"
	.cfi_endproc

	.section	".text.noise_c::split::finished","ax",@progbits
	.p2align	4
	.type	"noise_c::split::finished",@function
"noise_c::split::finished":
	.cfi_startproc
	pushq	%rbp
	.cfi_def_cfa_offset 16
	pushq	%r15
	.cfi_def_cfa_offset 24
	pushq	%r14
	.cfi_def_cfa_offset 32
	pushq	%r13
	.cfi_def_cfa_offset 40
	pushq	%r12
	.cfi_def_cfa_offset 48
	pushq	%rbx
	.cfi_def_cfa_offset 56
	subq	$2184, %rsp
	.cfi_def_cfa_offset 2240
	.cfi_offset %rbx, -56
	.cfi_offset %r12, -48
	.cfi_offset %r13, -40
	.cfi_offset %r14, -32
	.cfi_offset %r15, -24
	.cfi_offset %rbp, -16
	movq	%rsi, %r14
	movq	%rdi, %rbx
	xorps	%xmm0, %xmm0
	movaps	%xmm0, 416(%rsp)
	movaps	%xmm0, 400(%rsp)
	movaps	%xmm0, 368(%rsp)
	movaps	%xmm0, 384(%rsp)
	movl	$0, 8(%rsp)
	movb	$0, 12(%rsp)
	movaps	%xmm0, 336(%rsp)
	movaps	%xmm0, 352(%rsp)
	movl	$0, 48(%rsp)
	movl	$0, 51(%rsp)
	movaps	%xmm0, 304(%rsp)
	movaps	%xmm0, 320(%rsp)
	movl	$0, 40(%rsp)
	movl	$0, 43(%rsp)
	movaps	%xmm0, 288(%rsp)
	movaps	%xmm0, 272(%rsp)
	movaps	%xmm0, 256(%rsp)
	movaps	%xmm0, 240(%rsp)
	movb	$0, 4(%rsp)
	movl	$0, (%rsp)
	movaps	%xmm0, 208(%rsp)
	movaps	%xmm0, 224(%rsp)
	movl	$0, 32(%rsp)
	movl	$0, 35(%rsp)
	movaps	%xmm0, 176(%rsp)
	movaps	%xmm0, 192(%rsp)
	movl	$0, 24(%rsp)
	movl	$0, 27(%rsp)
	movaps	%xmm0, 592(%rsp)
	movaps	%xmm0, 608(%rsp)
	movaps	%xmm0, 560(%rsp)
	movaps	%xmm0, 576(%rsp)
	movaps	%xmm0, 528(%rsp)
	movaps	%xmm0, 544(%rsp)
	movaps	%xmm0, 496(%rsp)
	movaps	%xmm0, 512(%rsp)
	movl	$0, 16(%rsp)
	movb	$0, 20(%rsp)
	movaps	%xmm0, 464(%rsp)
	movaps	%xmm0, 480(%rsp)
	movl	$0, 67(%rsp)
	movl	$0, 64(%rsp)
	movaps	%xmm0, 448(%rsp)
	movaps	%xmm0, 432(%rsp)
	movl	$0, 59(%rsp)
	movl	$0, 56(%rsp)
	leaq	1312(%rsp), %rdi
	movl	$872, %edx
	xorl	%esi, %esi
	callq	memset@PLT
	cmpl	$1315897601, (%r14)
	jne	.Lnoise_BB43_16
	movzwl	420(%r14), %edx
	cmpq	$416, %rdx
	ja	.Lnoise_BB43_16
	cmpb	$8, 846(%r14)
	ja	.Lnoise_BB43_16
	cmpb	$9, 557(%r14)
	ja	.Lnoise_BB43_16
	leaq	4(%r14), %rsi
	leaq	1024(%rsp), %rdi
	callq	"noise_c::patterns::pattern_of"
	cmpb	$0, 1024(%rsp)
	jne	.Lnoise_BB43_16
	leaq	1032(%rsp), %rdx
	leaq	1312(%rsp), %rdi
	movq	%r14, %rsi
	callq	"noise_c::from_c::restored"
	movzbl	1312(%rsp), %ebp
	movq	1584(%rsp), %r12
	movzbl	1624(%rsp), %eax
	movl	%eax, 76(%rsp)
	movzbl	1665(%rsp), %eax
	movl	%eax, 72(%rsp)
	movups	1666(%rsp), %xmm0
	movaps	%xmm0, 672(%rsp)
	movups	1682(%rsp), %xmm0
	movaps	%xmm0, 688(%rsp)
	movzbl	2008(%rsp), %r15d
	movzbl	2009(%rsp), %r13d
	leaq	2010(%rsp), %rsi
	leaq	848(%rsp), %rdi
	movl	$174, %edx
	callq	memcpy@PLT
	cmpb	$1, %bpl
	jne	.Lnoise_BB43_16
	cmpq	%r15, %r12
	seta	%al
	orb	%al, %r13b
	testb	$1, %r13b
	movl	%r13d, %r8d
	je	.Lnoise_BB43_7
	cmpb	$0, 423(%r14)
	movl	$19, %eax
	movl	$13, %ecx
	cmovel	%eax, %ecx
	xorl	%r9d, %r9d
	xorl	%eax, %eax
	xorl	%r10d, %r10d
	xorl	%edx, %edx
	jmp	.Lnoise_BB43_9
.Lnoise_BB43_16:
	xorps	%xmm0, %xmm0
	movaps	%xmm0, 288(%rsp)
	movaps	%xmm0, 272(%rsp)
	movaps	%xmm0, 240(%rsp)
	movaps	%xmm0, 256(%rsp)
	movl	$0, (%rsp)
	movb	$0, 4(%rsp)
	movaps	%xmm0, 208(%rsp)
	movaps	%xmm0, 224(%rsp)
	movl	$0, 32(%rsp)
	movl	$0, 35(%rsp)
	movaps	%xmm0, 176(%rsp)
	movaps	%xmm0, 192(%rsp)
	movl	$0, 24(%rsp)
	movl	$0, 27(%rsp)
	movl	$23, %ecx
	xorl	%r8d, %r8d
	xorl	%r9d, %r9d
	xorl	%eax, %eax
	xorl	%r10d, %r10d
	xorl	%edx, %edx
.Lnoise_BB43_10:
	xorps	%xmm0, %xmm0
	movaps	%xmm0, 1312(%rsp)
	movaps	%xmm0, 1328(%rsp)
	movaps	%xmm0, 1024(%rsp)
	movaps	%xmm0, 1040(%rsp)
	movl	$0, 80(%rsp)
	movb	$0, 84(%rsp)
	movaps	%xmm0, 848(%rsp)
	movaps	%xmm0, 864(%rsp)
	movl	$0, 144(%rsp)
	movl	$0, 147(%rsp)
	movaps	%xmm0, 704(%rsp)
	movaps	%xmm0, 720(%rsp)
	movl	$0, 112(%rsp)
	movl	$0, 115(%rsp)
	xorl	%ebp, %ebp
	movl	$0, %r12d
	movl	$0, %r15d
	movl	$0, %r13d
	testb	$1, %r8b
	je	.Lnoise_BB43_12
	movaps	272(%rsp), %xmm0
	movaps	288(%rsp), %xmm1
	movaps	%xmm1, 1328(%rsp)
	movaps	%xmm0, 1312(%rsp)
	movaps	240(%rsp), %xmm0
	movaps	256(%rsp), %xmm1
	movaps	%xmm0, 1024(%rsp)
	movaps	%xmm1, 1040(%rsp)
	movl	(%rsp), %ecx
	movl	%ecx, 80(%rsp)
	movzbl	4(%rsp), %ecx
	movb	%cl, 84(%rsp)
	movaps	208(%rsp), %xmm0
	movaps	224(%rsp), %xmm1
	movaps	%xmm0, 848(%rsp)
	movaps	%xmm1, 864(%rsp)
	movl	32(%rsp), %ecx
	movl	35(%rsp), %esi
	movl	%esi, 147(%rsp)
	movl	%ecx, 144(%rsp)
	movaps	176(%rsp), %xmm0
	movaps	192(%rsp), %xmm1
	movaps	%xmm1, 720(%rsp)
	movaps	%xmm0, 704(%rsp)
	movl	24(%rsp), %ecx
	movl	27(%rsp), %esi
	movl	%esi, 115(%rsp)
	movl	%ecx, 112(%rsp)
	movl	%r9d, %ebp
	movl	%eax, %r12d
	movl	%r10d, %r15d
	movl	%edx, %r13d
	xorl	%ecx, %ecx
.Lnoise_BB43_12:
	movaps	1312(%rsp), %xmm0
	movaps	1328(%rsp), %xmm1
	movaps	%xmm1, 416(%rsp)
	movaps	%xmm0, 400(%rsp)
	movaps	1024(%rsp), %xmm0
	movaps	1040(%rsp), %xmm1
	movaps	%xmm0, 368(%rsp)
	movaps	%xmm1, 384(%rsp)
	movl	80(%rsp), %eax
	movl	%eax, 8(%rsp)
	movzbl	84(%rsp), %eax
	movb	%al, 12(%rsp)
	movaps	848(%rsp), %xmm0
	movaps	864(%rsp), %xmm1
	movaps	%xmm0, 336(%rsp)
	movaps	%xmm1, 352(%rsp)
	movl	144(%rsp), %eax
	movl	147(%rsp), %edx
	movl	%edx, 51(%rsp)
	movl	%eax, 48(%rsp)
	movaps	704(%rsp), %xmm0
	movaps	720(%rsp), %xmm1
	movaps	%xmm1, 320(%rsp)
	movaps	%xmm0, 304(%rsp)
	movl	112(%rsp), %eax
	movl	115(%rsp), %edx
	movl	%eax, 40(%rsp)
	movl	%edx, 43(%rsp)
	testb	$1, %r8b
	je	.Lnoise_BB43_15
	movb	$1, 423(%r14)
	leaq	557(%r14), %rdi
	xorps	%xmm0, %xmm0
	movups	%xmm0, 1432(%r14)
	movups	%xmm0, 1448(%r14)
	movl	$842, %edx
	xorl	%esi, %esi
	callq	memset@PLT
	movq	$0, (%rbx)
	movb	%bpl, 8(%rbx)
	movaps	400(%rsp), %xmm0
	movaps	416(%rsp), %xmm1
	movups	%xmm1, 26(%rbx)
	movups	%xmm0, 10(%rbx)
	movaps	368(%rsp), %xmm0
	movaps	384(%rsp), %xmm1
	movups	%xmm1, 59(%rbx)
	movups	%xmm0, 43(%rbx)
	movzbl	12(%rsp), %eax
	movb	%al, 79(%rbx)
	movl	8(%rsp), %eax
	movl	%eax, 75(%rbx)
	movaps	336(%rsp), %xmm0
	movaps	352(%rsp), %xmm1
	movups	%xmm1, 97(%rbx)
	movups	%xmm0, 81(%rbx)
	movl	48(%rsp), %eax
	movl	51(%rsp), %ecx
	movl	%ecx, 116(%rbx)
	movl	%eax, 113(%rbx)
	movaps	304(%rsp), %xmm0
	movaps	320(%rsp), %xmm1
	movups	%xmm1, 145(%rbx)
	movups	%xmm0, 129(%rbx)
	movl	40(%rsp), %eax
	movl	43(%rsp), %ecx
	movl	%ecx, 164(%rbx)
	movl	%eax, 161(%rbx)
	jmp	.Lnoise_BB43_14
.Lnoise_BB43_15:
	movl	$1, (%rbx)
	movl	%ecx, 4(%rbx)
	movb	$0, 8(%rbx)
	xorps	%xmm0, %xmm0
	movups	%xmm0, 10(%rbx)
	movups	%xmm0, 26(%rbx)
	movups	%xmm0, 43(%rbx)
	movups	%xmm0, 59(%rbx)
	movq	$0, 72(%rbx)
	movups	%xmm0, 81(%rbx)
	movups	%xmm0, 97(%rbx)
	movq	$0, 112(%rbx)
	movups	%xmm0, 129(%rbx)
	movups	%xmm0, 145(%rbx)
	movq	$0, 160(%rbx)
	xorl	%r12d, %r12d
	xorl	%r15d, %r15d
	xorl	%r13d, %r13d
.Lnoise_BB43_14:
	movb	%r12b, 9(%rbx)
	movb	%r15b, 42(%rbx)
	movb	%r13b, 80(%rbx)
	movq	$0, 120(%rbx)
	movb	%r13b, 128(%rbx)
	movq	$0, 168(%rbx)
	addq	$2184, %rsp
	.cfi_def_cfa_offset 56
	popq	%rbx
	.cfi_def_cfa_offset 48
	popq	%r12
	.cfi_def_cfa_offset 40
	popq	%r13
	.cfi_def_cfa_offset 32
	popq	%r14
	.cfi_def_cfa_offset 24
	popq	%r15
	.cfi_def_cfa_offset 16
	popq	%rbp
	.cfi_def_cfa_offset 8
	retq
.Lnoise_BB43_7:
	.cfi_def_cfa_offset 2240
	movups	1006(%rsp), %xmm0
	movaps	%xmm0, 800(%rsp)
	movups	990(%rsp), %xmm0
	movaps	%xmm0, 784(%rsp)
	movups	974(%rsp), %xmm0
	movaps	%xmm0, 768(%rsp)
	movups	910(%rsp), %xmm0
	movups	926(%rsp), %xmm1
	movups	942(%rsp), %xmm2
	movups	958(%rsp), %xmm3
	movaps	%xmm3, 752(%rsp)
	movaps	%xmm2, 736(%rsp)
	movaps	%xmm1, 720(%rsp)
	movaps	%xmm0, 704(%rsp)
	xorps	%xmm0, %xmm0
	movaps	%xmm0, 1024(%rsp)
	movaps	%xmm0, 1040(%rsp)
	movaps	%xmm0, 1056(%rsp)
	movaps	%xmm0, 1072(%rsp)
	movaps	%xmm0, 1088(%rsp)
	movaps	%xmm0, 1104(%rsp)
	movaps	%xmm0, 1120(%rsp)
	movaps	%xmm0, 1136(%rsp)
	movaps	%xmm0, 1152(%rsp)
	movaps	%xmm0, 1168(%rsp)
	movaps	%xmm0, 1184(%rsp)
	movaps	%xmm0, 1200(%rsp)
	movaps	%xmm0, 1216(%rsp)
	leaq	.Lnoise_static.1(%rip), %rax
	movq	%rax, 624(%rsp)
	movq	$0, 632(%rsp)
	movaps	%xmm0, 816(%rsp)
	movaps	%xmm0, 832(%rsp)
	movaps	%xmm0, 1312(%rsp)
	movaps	%xmm0, 1328(%rsp)
	movaps	%xmm0, 1344(%rsp)
	movaps	%xmm0, 1360(%rsp)
	movaps	%xmm0, 1376(%rsp)
	movaps	%xmm0, 1392(%rsp)
	movaps	%xmm0, 1408(%rsp)
	movaps	%xmm0, 1424(%rsp)
	movaps	%xmm0, 1440(%rsp)
	movaps	%xmm0, 1456(%rsp)
	movaps	%xmm0, 1472(%rsp)
	movaps	%xmm0, 1488(%rsp)
	movaps	%xmm0, 1504(%rsp)
	leaq	1312(%rsp), %r15
	leaq	704(%rsp), %rsi
	movq	%r15, %rdi
	movl	%r8d, %ebp
	callq	"noise_kdf::keyed::Hmac::new"
	leaq	816(%rsp), %r13
	leaq	624(%rsp), %rdx
	movl	$1, %ecx
	movq	%r13, %rdi
	movq	%r15, %rsi
	callq	"noise_kdf::keyed::Hmac::code"
	leaq	1024(%rsp), %r15
	movq	%r15, %rdi
	movq	%r13, %rsi
	callq	"noise_kdf::keyed::Hmac::new"
	xorps	%xmm0, %xmm0
	movaps	%xmm0, 112(%rsp)
	movaps	%xmm0, 128(%rsp)
	movaps	%xmm0, 80(%rsp)
	movaps	%xmm0, 96(%rsp)
	leaq	.Lnoise_static.102(%rip), %rdx
	leaq	80(%rsp), %rdi
	movl	$1, %ecx
	movq	%r15, %rsi
	callq	"noise_kdf::keyed::Hmac::code"
	movaps	80(%rsp), %xmm0
	movaps	96(%rsp), %xmm1
	movaps	%xmm1, 160(%rsp)
	movaps	%xmm0, 144(%rsp)
	leaq	144(%rsp), %rax
	movq	%rax, 640(%rsp)
	movq	$32, 648(%rsp)
	leaq	.Lnoise_static.103(%rip), %rax
	movq	%rax, 656(%rsp)
	movq	$1, 664(%rsp)
	leaq	112(%rsp), %rdi
	leaq	640(%rsp), %rdx
	movl	$2, %ecx
	movq	%r15, %rsi
	callq	"noise_kdf::keyed::Hmac::code"
	movl	%ebp, %r8d
	movaps	144(%rsp), %xmm0
	movaps	160(%rsp), %xmm1
	movaps	%xmm1, 1328(%rsp)
	movaps	%xmm0, 1312(%rsp)
	movaps	112(%rsp), %xmm2
	movaps	128(%rsp), %xmm3
	movaps	%xmm2, 1344(%rsp)
	movaps	%xmm3, 1360(%rsp)
	movaps	%xmm0, 592(%rsp)
	movaps	%xmm1, 608(%rsp)
	movaps	%xmm2, 560(%rsp)
	movaps	%xmm3, 576(%rsp)
	cmpq	$1, %r12
	sete	%al
	movups	942(%rsp), %xmm0
	movups	958(%rsp), %xmm1
	movaps	%xmm1, 544(%rsp)
	movaps	%xmm0, 528(%rsp)
	movaps	672(%rsp), %xmm0
	movaps	688(%rsp), %xmm1
	movaps	%xmm1, 512(%rsp)
	movaps	%xmm0, 496(%rsp)
	movb	$0, 20(%rsp)
	movl	$0, 16(%rsp)
	movaps	592(%rsp), %xmm0
	movaps	608(%rsp), %xmm1
	movaps	%xmm1, 480(%rsp)
	movaps	%xmm0, 464(%rsp)
	movl	$0, 67(%rsp)
	movl	$0, 64(%rsp)
	movaps	560(%rsp), %xmm0
	movaps	576(%rsp), %xmm1
	movaps	%xmm1, 448(%rsp)
	movaps	%xmm0, 432(%rsp)
	movl	$0, 59(%rsp)
	movl	$0, 56(%rsp)
	xorl	%ecx, %ecx
	movb	$1, %dl
	movl	76(%rsp), %r9d
	movl	72(%rsp), %r10d
.Lnoise_BB43_9:
	xorb	$1, %r8b
	movaps	528(%rsp), %xmm0
	movaps	544(%rsp), %xmm1
	movaps	%xmm1, 288(%rsp)
	movaps	%xmm0, 272(%rsp)
	movaps	496(%rsp), %xmm0
	movaps	512(%rsp), %xmm1
	movaps	%xmm0, 240(%rsp)
	movaps	%xmm1, 256(%rsp)
	movl	16(%rsp), %esi
	movl	%esi, (%rsp)
	movzbl	20(%rsp), %esi
	movb	%sil, 4(%rsp)
	movaps	464(%rsp), %xmm0
	movaps	480(%rsp), %xmm1
	movaps	%xmm0, 208(%rsp)
	movaps	%xmm1, 224(%rsp)
	movl	64(%rsp), %esi
	movl	67(%rsp), %edi
	movl	%edi, 35(%rsp)
	movl	%esi, 32(%rsp)
	movaps	432(%rsp), %xmm0
	movaps	448(%rsp), %xmm1
	movaps	%xmm1, 192(%rsp)
	movaps	%xmm0, 176(%rsp)
	movl	56(%rsp), %esi
	movl	59(%rsp), %edi
	movl	%esi, 24(%rsp)
	movl	%edi, 27(%rsp)
	jmp	.Lnoise_BB43_10
.Lnoise_func_end43:
	.size	"noise_c::split::finished", .Lnoise_func_end43-"noise_c::split::finished"
	.cfi_endproc

	.section	".text.noise_handshake::writer::write_lacking::<#9bbb2dae5a99aff0>","ax",@progbits
	.p2align	4
	.type	"noise_handshake::writer::write_lacking::<#9bbb2dae5a99aff0>",@function
"noise_handshake::writer::write_lacking::<#9bbb2dae5a99aff0>":
	.cfi_startproc
	pushq	%rbp
	.cfi_def_cfa_offset 16
	pushq	%r15
	.cfi_def_cfa_offset 24
	pushq	%r14
	.cfi_def_cfa_offset 32
	pushq	%r13
	.cfi_def_cfa_offset 40
	pushq	%r12
	.cfi_def_cfa_offset 48
	pushq	%rbx
	.cfi_def_cfa_offset 56
	subq	$168, %rsp
	.cfi_def_cfa_offset 224
	.cfi_offset %rbx, -56
	.cfi_offset %r12, -48
	.cfi_offset %r13, -40
	.cfi_offset %r14, -32
	.cfi_offset %r15, -24
	.cfi_offset %rbp, -16
	movq	%rdi, %rbx
	movq	224(%rsp), %r15
	xorps	%xmm0, %xmm0
	movaps	%xmm0, 48(%rsp)
	movaps	%xmm0, 32(%rsp)
	movw	$0, 64(%rsp)
	testq	%r15, %r15
	je	.Lnoise_BB44_25
	movzbl	(%r9), %r14d
	leaq	.Lnoise_JTI44_0(%rip), %rax
	movslq	(%rax,%r14,4), %rdi
	addq	%rax, %rdi
	notrack jmpq	*%rdi
.Lnoise_BB44_9:
	cmpb	$0, 32(%rdx)
	je	.Lnoise_BB44_10
	movl	%r14d, %eax
	andb	$-2, %al
	cmpb	$4, %al
	jne	.Lnoise_BB44_12
	cmpb	$1, 33(%rsi)
	jne	.Lnoise_BB44_4
	movq	%rcx, 16(%rsp)
	movq	%r8, 24(%rsp)
	movq	%r9, %rbp
	movups	34(%rsi), %xmm0
	movups	50(%rsi), %xmm1
	jmp	.Lnoise_BB44_14
.Lnoise_BB44_25:
	movups	%xmm0, 16(%rbx)
	movups	%xmm0, (%rbx)
	movw	$0, 32(%rbx)
	jmp	.Lnoise_BB44_26
.Lnoise_BB44_10:
	leal	-2(%r14), %eax
	leaq	.Lnoise_JTI44_1(%rip), %rdi
	movslq	(%rdi,%rax,4), %rax
	addq	%rdi, %rax
	notrack jmpq	*%rax
.Lnoise_BB44_19:
	cmpb	$1, (%rsi)
	jne	.Lnoise_BB44_4
	movq	%rcx, 16(%rsp)
	movq	%r8, 24(%rsp)
	movq	%r9, %rbp
	movups	1(%rsi), %xmm0
	movups	17(%rsi), %xmm1
	jmp	.Lnoise_BB44_21
.Lnoise_BB44_12:
	cmpb	$1, (%rsi)
	jne	.Lnoise_BB44_4
	movq	%rcx, 16(%rsp)
	movq	%r8, 24(%rsp)
	movq	%r9, %rbp
	movups	1(%rsi), %xmm0
	movups	17(%rsi), %xmm1
.Lnoise_BB44_14:
	movaps	%xmm1, 144(%rsp)
	movaps	%xmm0, 128(%rsp)
	movq	%rsi, %r12
	leal	-2(%r14), %eax
	movzbl	%al, %ecx
	shll	$3, %ecx
	movl	$16777472, %edi
	shrl	%cl, %edi
	jmp	.Lnoise_BB44_22
.Lnoise_BB44_24:
	movq	8(%rdx), %rax
	cmpb	$0, (%rax)
	jne	.Lnoise_BB44_23
	jmp	.Lnoise_BB44_4
.Lnoise_BB44_2:
	movq	(%rdx), %rax
	cmpb	$0, (%rax)
	jne	.Lnoise_BB44_23
	jmp	.Lnoise_BB44_4
.Lnoise_BB44_15:
	cmpb	$1, 33(%rsi)
	jne	.Lnoise_BB44_4
	movq	%rcx, 16(%rsp)
	movq	%r8, 24(%rsp)
	movq	%r9, %rbp
	movups	34(%rsi), %xmm0
	movups	50(%rsi), %xmm1
.Lnoise_BB44_21:
	movaps	%xmm1, 144(%rsp)
	movaps	%xmm0, 128(%rsp)
	movq	%rsi, %r12
	movl	%r14d, %eax
	andb	$-2, %al
	cmpb	$4, %al
	sete	%dil
.Lnoise_BB44_22:
	movq	16(%rdx), %rsi
	movq	24(%rdx), %rax
	movzbl	%dil, %ecx
	leaq	80(%rsp), %rdi
	leaq	128(%rsp), %r8
	movq	%rdx, %r13
	movq	%rax, %rdx
	callq	"noise_c::supplied_keys::result_for"
	movq	%r13, %rdx
	cmpb	$1, 80(%rsp)
	movq	%r12, %rsi
	movq	%rbp, %r9
	movq	24(%rsp), %r8
	movq	16(%rsp), %rcx
	jne	.Lnoise_BB44_4
.Lnoise_BB44_23:
	addq	$4, %r9
	decq	%r15
	xorl	%eax, %eax
	cmpl	$6, %r14d
	sete	%al
	subq	%rax, %r8
	shll	$5, %eax
	addq	%rax, %rcx
	movq	%r15, (%rsp)
	leaq	32(%rsp), %rdi
	callq	"noise_handshake::writer::write_lacking::<#9bbb2dae5a99aff0>"
	movzbl	32(%rsp), %eax
	jmp	.Lnoise_BB44_35
.Lnoise_BB44_4:
	cmpb	$0, 32(%rdx)
	je	.Lnoise_BB44_5
	movl	%r14d, %eax
	andb	$-2, %al
	cmpb	$4, %al
	jne	.Lnoise_BB44_28
	movzbl	33(%rsi), %eax
	movups	50(%rsi), %xmm0
	movaps	%xmm0, 96(%rsp)
	movups	34(%rsi), %xmm0
	movaps	%xmm0, 80(%rsp)
	cmpb	$1, %al
	je	.Lnoise_BB44_30
	jmp	.Lnoise_BB44_34
.Lnoise_BB44_5:
	movl	$23, %eax
	btl	%r14d, %eax
	jae	.Lnoise_BB44_32
	movzbl	(%rsi), %eax
	movups	17(%rsi), %xmm0
	movaps	%xmm0, 96(%rsp)
	movups	1(%rsi), %xmm0
	movaps	%xmm0, 80(%rsp)
	cmpb	$1, %al
	je	.Lnoise_BB44_8
	jmp	.Lnoise_BB44_34
.Lnoise_BB44_28:
	movzbl	(%rsi), %eax
	movups	17(%rsi), %xmm0
	movaps	%xmm0, 96(%rsp)
	movups	1(%rsi), %xmm0
	movaps	%xmm0, 80(%rsp)
	cmpb	$1, %al
	jne	.Lnoise_BB44_34
.Lnoise_BB44_30:
	leal	(,%r14,8), %ecx
	movabsq	$1099528404992, %rax
	shrq	%cl, %rax
	jmp	.Lnoise_BB44_31
.Lnoise_BB44_32:
	movzbl	33(%rsi), %eax
	movups	50(%rsi), %xmm0
	movaps	%xmm0, 96(%rsp)
	movups	34(%rsi), %xmm0
	movaps	%xmm0, 80(%rsp)
	cmpb	$1, %al
	jne	.Lnoise_BB44_34
.Lnoise_BB44_8:
	andb	$-2, %r14b
	cmpb	$4, %r14b
	sete	%al
.Lnoise_BB44_31:
	movb	%al, 33(%rsp)
	movaps	80(%rsp), %xmm0
	movaps	96(%rsp), %xmm1
	movups	%xmm0, 34(%rsp)
	movups	%xmm1, 50(%rsp)
	movb	$1, %al
	jmp	.Lnoise_BB44_35
.Lnoise_BB44_34:
	xorps	%xmm0, %xmm0
	movaps	%xmm0, 48(%rsp)
	movaps	%xmm0, 32(%rsp)
	movw	$0, 64(%rsp)
	xorl	%eax, %eax
.Lnoise_BB44_35:
	movb	%al, (%rbx)
	movups	33(%rsp), %xmm0
	movups	49(%rsp), %xmm1
	movups	%xmm0, 1(%rbx)
	movups	%xmm1, 17(%rbx)
	movzbl	65(%rsp), %eax
	movb	%al, 33(%rbx)
.Lnoise_BB44_26:
	addq	$168, %rsp
	.cfi_def_cfa_offset 56
	popq	%rbx
	.cfi_def_cfa_offset 48
	popq	%r12
	.cfi_def_cfa_offset 40
	popq	%r13
	.cfi_def_cfa_offset 32
	popq	%r14
	.cfi_def_cfa_offset 24
	popq	%r15
	.cfi_def_cfa_offset 16
	popq	%rbp
	.cfi_def_cfa_offset 8
	retq
.Lnoise_func_end44:
	.size	"noise_handshake::writer::write_lacking::<#9bbb2dae5a99aff0>", .Lnoise_func_end44-"noise_handshake::writer::write_lacking::<#9bbb2dae5a99aff0>"
	.cfi_endproc
	.section	".rodata.noise_handshake::writer::write_lacking::<#9bbb2dae5a99aff0>","a",@progbits
	.p2align	2, 0x0
.Lnoise_JTI44_0:
	.long	.Lnoise_BB44_2-.Lnoise_JTI44_0
	.long	.Lnoise_BB44_24-.Lnoise_JTI44_0
	.long	.Lnoise_BB44_9-.Lnoise_JTI44_0
	.long	.Lnoise_BB44_9-.Lnoise_JTI44_0
	.long	.Lnoise_BB44_9-.Lnoise_JTI44_0
	.long	.Lnoise_BB44_9-.Lnoise_JTI44_0
	.long	.Lnoise_BB44_23-.Lnoise_JTI44_0
.Lnoise_JTI44_1:
	.long	.Lnoise_BB44_19-.Lnoise_JTI44_1
	.long	.Lnoise_BB44_15-.Lnoise_JTI44_1
	.long	.Lnoise_BB44_19-.Lnoise_JTI44_1
	.long	.Lnoise_BB44_15-.Lnoise_JTI44_1

	.section	".text.noise_handshake::writer::write_tokens::<#3dfcfe118667ed30>","ax",@progbits
	.p2align	4
	.type	"noise_handshake::writer::write_tokens::<#3dfcfe118667ed30>",@function
"noise_handshake::writer::write_tokens::<#3dfcfe118667ed30>":
	.cfi_startproc
	pushq	%rbp
	.cfi_def_cfa_offset 16
	pushq	%r15
	.cfi_def_cfa_offset 24
	pushq	%r14
	.cfi_def_cfa_offset 32
	pushq	%r13
	.cfi_def_cfa_offset 40
	pushq	%r12
	.cfi_def_cfa_offset 48
	pushq	%rbx
	.cfi_def_cfa_offset 56
	subq	$760, %rsp
	.cfi_def_cfa_offset 816
	.cfi_offset %rbx, -56
	.cfi_offset %r12, -48
	.cfi_offset %r13, -40
	.cfi_offset %r14, -32
	.cfi_offset %r15, -24
	.cfi_offset %rbp, -16
	movq	816(%rsp), %r15
	testq	%r15, %r15
	je	.Lnoise_BB45_1
	movq	%r9, %r14
	movq	824(%rsp), %rbx
	movzbl	(%r9), %eax
	leaq	.Lnoise_JTI45_0(%rip), %r9
	movslq	(%r9,%rax,4), %r10
	addq	%r9, %r10
	notrack jmpq	*%r10
.Lnoise_BB45_13:
	cmpb	$0, 32(%rdx)
	je	.Lnoise_BB45_14
	movl	%eax, %r9d
	andb	$-2, %r9b
	cmpb	$4, %r9b
	jne	.Lnoise_BB45_16
	cmpb	$1, 33(%rsi)
	jne	.Lnoise_BB45_28
	movq	%rcx, 32(%rsp)
	movups	34(%rsi), %xmm0
	movups	50(%rsi), %xmm1
	jmp	.Lnoise_BB45_18
.Lnoise_BB45_1:
	xorl	%edx, %edx
	xorl	%eax, %eax
	jmp	.Lnoise_BB45_31
.Lnoise_BB45_14:
	leal	-2(%rax), %r9d
	leaq	.Lnoise_JTI45_1(%rip), %r10
	movslq	(%r10,%r9,4), %r9
	addq	%r10, %r9
	notrack jmpq	*%r9
.Lnoise_BB45_27:
	cmpb	$1, (%rsi)
	jne	.Lnoise_BB45_28
	movups	1(%rsi), %xmm0
	movups	17(%rsi), %xmm1
	jmp	.Lnoise_BB45_24
.Lnoise_BB45_16:
	cmpb	$1, (%rsi)
	jne	.Lnoise_BB45_28
	movq	%rcx, 32(%rsp)
	movups	1(%rsi), %xmm0
	movups	17(%rsi), %xmm1
.Lnoise_BB45_18:
	movaps	%xmm1, 256(%rsp)
	movaps	%xmm0, 240(%rsp)
	movq	%rdi, %r12
	movq	%rsi, 40(%rsp)
	movq	%r8, 48(%rsp)
	addb	$-2, %al
	movzbl	%al, %ecx
	shll	$3, %ecx
	movl	$16777472, %eax
	shrl	%cl, %eax
	jmp	.Lnoise_BB45_25
.Lnoise_BB45_3:
	movq	%rsi, 40(%rsp)
	movq	%rcx, 32(%rsp)
	movq	(%rdx), %rax
	cmpb	$0, (%rax)
	je	.Lnoise_BB45_12
	movq	%r8, %r13
	movups	1(%rax), %xmm0
	movups	17(%rax), %xmm1
	movaps	%xmm1, 80(%rsp)
	movaps	%xmm0, 64(%rsp)
	movq	%rdx, 56(%rsp)
	movzbl	33(%rdx), %esi
	leaq	64(%rsp), %r12
	movq	%rdi, %rbp
	movq	%r12, %rdx
	callq	"noise_handshake::tokens::mix_ephemeral"
	movq	%rbx, %rax
	subq	%r12, %rax
	cmpq	$31, %rax
	ja	.Lnoise_BB45_8
	movaps	64(%rsp), %xmm0
	movups	%xmm0, (%rbx)
	movaps	80(%rsp), %xmm0
	movups	%xmm0, 16(%rbx)
	jmp	.Lnoise_BB45_6
.Lnoise_BB45_9:
	movq	%rsi, 40(%rsp)
	movq	%rcx, 32(%rsp)
	movq	%r8, 48(%rsp)
	movq	%rdx, 56(%rsp)
	movq	8(%rdx), %rax
	cmpb	$0, (%rax)
	je	.Lnoise_BB45_12
	movups	1(%rax), %xmm0
	movups	17(%rax), %xmm1
	movups	%xmm1, 16(%rbx)
	movups	%xmm0, (%rbx)
	leaq	64(%rdi), %rsi
	xorps	%xmm0, %xmm0
	movaps	%xmm0, 240(%rsp)
	movq	%rdi, %rbp
	leaq	32(%rdi), %r13
	leaq	240(%rsp), %rdi
	movl	$32, %ecx
	movl	$32, %r9d
	movq	%r13, %rdx
	movq	%rbx, %r8
	callq	"noise_state::cipher::CipherState::encrypt"
	cmpb	$0, 240(%rsp)
	jne	.Lnoise_BB45_12
	movq	248(%rsp), %r12
	leaq	448(%rsp), %rdi
	movq	%r13, %rsi
	movq	%rbx, %rdx
	movq	%r12, %rcx
	callq	"noise_state::symmetric::hash_of_both"
	movups	448(%rsp), %xmm0
	movups	464(%rsp), %xmm1
	movups	%xmm1, 16(%r13)
	movups	%xmm0, (%r13)
	movq	48(%rsp), %r8
	jmp	.Lnoise_BB45_7
.Lnoise_BB45_29:
	movq	%rdx, 56(%rsp)
	movq	%rdi, %r12
	movq	%rsi, %r13
	movq	%rcx, %rsi
	movq	%r8, %rbp
	movq	%rcx, %rbx
	callq	"noise_state::symmetric::SymmetricState::mix_key_and_hash"
	movq	%r12, %rdi
	movq	%r13, %rsi
	movq	%rbx, %rcx
	movq	824(%rsp), %rbx
	movq	%rbp, %r8
	xorl	%r12d, %r12d
	jmp	.Lnoise_BB45_30
.Lnoise_BB45_19:
	cmpb	$1, 33(%rsi)
	jne	.Lnoise_BB45_28
	movups	34(%rsi), %xmm0
	movups	50(%rsi), %xmm1
.Lnoise_BB45_24:
	movaps	%xmm1, 256(%rsp)
	movaps	%xmm0, 240(%rsp)
	movq	%rdi, %r12
	movq	%rsi, 40(%rsp)
	movq	%rcx, 32(%rsp)
	movq	%r8, 48(%rsp)
	andb	$-2, %al
	cmpb	$4, %al
	sete	%al
.Lnoise_BB45_25:
	movq	16(%rdx), %rsi
	movq	%rdx, 56(%rsp)
	movq	24(%rdx), %rdx
	movzbl	%al, %ecx
	leaq	448(%rsp), %rdi
	leaq	240(%rsp), %r8
	callq	"noise_c::supplied_keys::result_for"
	movzbl	448(%rsp), %eax
	movups	449(%rsp), %xmm0
	movaps	%xmm0, 656(%rsp)
	movups	465(%rsp), %xmm0
	movaps	%xmm0, 672(%rsp)
	cmpb	$1, %al
	jne	.Lnoise_BB45_28
	movaps	656(%rsp), %xmm0
	movaps	672(%rsp), %xmm1
	movaps	%xmm1, 704(%rsp)
	movaps	%xmm0, 688(%rsp)
	xorps	%xmm0, %xmm0
	movaps	%xmm0, 240(%rsp)
	movaps	%xmm0, 256(%rsp)
	movaps	%xmm0, 272(%rsp)
	movaps	%xmm0, 288(%rsp)
	movaps	%xmm0, 304(%rsp)
	movaps	%xmm0, 320(%rsp)
	movaps	%xmm0, 336(%rsp)
	movaps	%xmm0, 352(%rsp)
	movaps	%xmm0, 368(%rsp)
	movaps	%xmm0, 384(%rsp)
	movaps	%xmm0, 400(%rsp)
	movaps	%xmm0, 416(%rsp)
	movaps	%xmm0, 432(%rsp)
	leaq	688(%rsp), %rax
	movq	%rax, 96(%rsp)
	movq	$32, 104(%rsp)
	movaps	%xmm0, 720(%rsp)
	movaps	%xmm0, 736(%rsp)
	movaps	%xmm0, 448(%rsp)
	movaps	%xmm0, 464(%rsp)
	movaps	%xmm0, 480(%rsp)
	movaps	%xmm0, 496(%rsp)
	movaps	%xmm0, 512(%rsp)
	movaps	%xmm0, 528(%rsp)
	movaps	%xmm0, 544(%rsp)
	movaps	%xmm0, 560(%rsp)
	movaps	%xmm0, 576(%rsp)
	movaps	%xmm0, 592(%rsp)
	movaps	%xmm0, 608(%rsp)
	movaps	%xmm0, 624(%rsp)
	movaps	%xmm0, 640(%rsp)
	leaq	448(%rsp), %r13
	movq	%r13, %rdi
	movq	%r12, %rsi
	callq	"noise_kdf::keyed::Hmac::new"
	leaq	720(%rsp), %rbp
	leaq	96(%rsp), %rdx
	movl	$1, %ecx
	movq	%rbp, %rdi
	movq	%r13, %rsi
	callq	"noise_kdf::keyed::Hmac::code"
	leaq	240(%rsp), %r13
	movq	%r13, %rdi
	movq	%rbp, %rsi
	callq	"noise_kdf::keyed::Hmac::new"
	xorps	%xmm0, %xmm0
	movaps	%xmm0, 144(%rsp)
	movaps	%xmm0, 160(%rsp)
	movaps	%xmm0, 112(%rsp)
	movaps	%xmm0, 128(%rsp)
	leaq	.Lnoise_static.102(%rip), %rdx
	leaq	112(%rsp), %rdi
	movl	$1, %ecx
	movq	%r13, %rsi
	callq	"noise_kdf::keyed::Hmac::code"
	movaps	112(%rsp), %xmm0
	movaps	128(%rsp), %xmm1
	movaps	%xmm1, 192(%rsp)
	movaps	%xmm0, 176(%rsp)
	leaq	176(%rsp), %rax
	movq	%rax, 208(%rsp)
	movq	$32, 216(%rsp)
	leaq	.Lnoise_static.103(%rip), %rax
	movq	%rax, 224(%rsp)
	movq	$1, 232(%rsp)
	leaq	144(%rsp), %rdi
	leaq	208(%rsp), %rdx
	movl	$2, %ecx
	movq	%r13, %rsi
	callq	"noise_kdf::keyed::Hmac::code"
	movq	%r12, %rdi
	movaps	176(%rsp), %xmm0
	movaps	192(%rsp), %xmm1
	movaps	%xmm1, 464(%rsp)
	movaps	%xmm0, 448(%rsp)
	movaps	144(%rsp), %xmm2
	movaps	160(%rsp), %xmm3
	movaps	%xmm2, 480(%rsp)
	movaps	%xmm3, 496(%rsp)
	movups	%xmm1, 16(%r12)
	movups	%xmm0, (%r12)
	movb	$1, 64(%r12)
	movaps	480(%rsp), %xmm0
	movaps	496(%rsp), %xmm1
	movups	%xmm0, 65(%r12)
	movups	%xmm1, 81(%r12)
	movq	$0, 104(%r12)
	xorl	%r12d, %r12d
	movq	48(%rsp), %r8
	movq	32(%rsp), %rcx
	movq	40(%rsp), %rsi
	jmp	.Lnoise_BB45_30
.Lnoise_BB45_28:
	movb	$1, %al
	xorl	%edx, %edx
	jmp	.Lnoise_BB45_31
.Lnoise_BB45_8:
	movaps	64(%rsp), %xmm0
	movaps	80(%rsp), %xmm1
	movups	%xmm1, 16(%rbx)
	movups	%xmm0, (%rbx)
.Lnoise_BB45_6:
	movl	$32, %r12d
	movq	%r13, %r8
.Lnoise_BB45_7:
	movq	32(%rsp), %rcx
	movq	40(%rsp), %rsi
	movq	%rbp, %rdi
.Lnoise_BB45_30:
	movq	832(%rsp), %rax
	decq	%r15
	xorl	%edx, %edx
	cmpb	$6, (%r14)
	leaq	4(%r14), %r9
	sete	%dl
	subq	%rdx, %r8
	shll	$5, %edx
	addq	%rdx, %rcx
	addq	%r12, %rbx
	subq	%r12, %rax
	movq	%rax, 16(%rsp)
	movq	%rbx, 8(%rsp)
	movq	%r15, (%rsp)
	movq	56(%rsp), %rdx
	callq	"noise_handshake::writer::write_tokens::<#3dfcfe118667ed30>"
	movq	%rdx, %rcx
	testb	%al, %al
	movl	$1, %edx
	cmoveq	%r12, %rdx
	addq	%rcx, %rdx
.Lnoise_BB45_31:
	addq	$760, %rsp
	.cfi_def_cfa_offset 56
	popq	%rbx
	.cfi_def_cfa_offset 48
	popq	%r12
	.cfi_def_cfa_offset 40
	popq	%r13
	.cfi_def_cfa_offset 32
	popq	%r14
	.cfi_def_cfa_offset 24
	popq	%r15
	.cfi_def_cfa_offset 16
	popq	%rbp
	.cfi_def_cfa_offset 8
	retq
.Lnoise_BB45_12:
	.cfi_def_cfa_offset 816
	ud2
.Lnoise_func_end45:
	.size	"noise_handshake::writer::write_tokens::<#3dfcfe118667ed30>", .Lnoise_func_end45-"noise_handshake::writer::write_tokens::<#3dfcfe118667ed30>"
	.cfi_endproc
	.section	".rodata.noise_handshake::writer::write_tokens::<#3dfcfe118667ed30>","a",@progbits
	.p2align	2, 0x0
.Lnoise_JTI45_0:
	.long	.Lnoise_BB45_3-.Lnoise_JTI45_0
	.long	.Lnoise_BB45_9-.Lnoise_JTI45_0
	.long	.Lnoise_BB45_13-.Lnoise_JTI45_0
	.long	.Lnoise_BB45_13-.Lnoise_JTI45_0
	.long	.Lnoise_BB45_13-.Lnoise_JTI45_0
	.long	.Lnoise_BB45_13-.Lnoise_JTI45_0
	.long	.Lnoise_BB45_29-.Lnoise_JTI45_0
.Lnoise_JTI45_1:
	.long	.Lnoise_BB45_27-.Lnoise_JTI45_1
	.long	.Lnoise_BB45_19-.Lnoise_JTI45_1
	.long	.Lnoise_BB45_27-.Lnoise_JTI45_1
	.long	.Lnoise_BB45_19-.Lnoise_JTI45_1

	.section	.text.noise_cipher_decrypt,"ax",@progbits
	.globl	noise_cipher_decrypt
	.p2align	4
	.type	noise_cipher_decrypt,@function
noise_cipher_decrypt:
	.cfi_startproc
	endbr64
	pushq	%rbp
	.cfi_def_cfa_offset 16
	pushq	%r15
	.cfi_def_cfa_offset 24
	pushq	%r14
	.cfi_def_cfa_offset 32
	pushq	%rbx
	.cfi_def_cfa_offset 40
	subq	$72, %rsp
	.cfi_def_cfa_offset 112
	.cfi_offset %rbx, -40
	.cfi_offset %r14, -32
	.cfi_offset %r15, -24
	.cfi_offset %rbp, -16
	movq	%r8, %r10
	movq	%rcx, %r8
	movq	%rdx, %rcx
	movq	%rsi, %rdx
	xorl	%r11d, %r11d
	testq	%rsi, %rsi
	sete	%bpl
	xorl	%esi, %esi
	testq	%r8, %r8
	sete	%bl
	movq	$0, 56(%rsp)
	xorps	%xmm0, %xmm0
	movaps	%xmm0, (%rsp)
	movl	$23, %eax
	cmpl	$1315899649, (%rdi)
	jne	.Lnoise_BB46_6
	movl	$22, %eax
	cmpb	$0, 4(%rdi)
	jne	.Lnoise_BB46_6
	movq	40(%rdi), %rax
	movb	$1, 24(%rsp)
	movups	5(%rdi), %xmm0
	movups	21(%rdi), %xmm1
	movups	%xmm0, 25(%rsp)
	movups	%xmm1, 41(%rsp)
	movq	%rax, 64(%rsp)
	movl	$24, %eax
	cmpq	$65535, %rcx
	ja	.Lnoise_BB46_6
	movq	%rdi, %r14
	movq	%r9, %r15
	movb	%bpl, %r11b
	shll	$12, %r11d
	addq	%r11, %rdx
	movb	%bl, %sil
	shll	$12, %esi
	addq	%rsi, %r8
	movq	%rsp, %rdi
	leaq	24(%rsp), %rsi
	movq	%r10, %r9
	callq	"noise_state::cipher::CipherState::decrypt"
	cmpb	$0, (%rsp)
	je	.Lnoise_BB46_4
	movzbl	1(%rsp), %eax
	leaq	.Lnoise_switch.table.noise_cipher_encrypt(%rip), %rcx
	movl	(%rcx,%rax,4), %eax
	jmp	.Lnoise_BB46_6
.Lnoise_BB46_4:
	movq	8(%rsp), %rax
	movq	$0, (%r15)
	movq	%rax, 8(%r15)
	movq	64(%rsp), %rax
	movq	%rax, 40(%r14)
	xorl	%eax, %eax
.Lnoise_BB46_6:
	addq	$72, %rsp
	.cfi_def_cfa_offset 40
	popq	%rbx
	.cfi_def_cfa_offset 32
	popq	%r14
	.cfi_def_cfa_offset 24
	popq	%r15
	.cfi_def_cfa_offset 16
	popq	%rbp
	.cfi_def_cfa_offset 8
	retq
.Lnoise_func_end46:
	.size	noise_cipher_decrypt, .Lnoise_func_end46-noise_cipher_decrypt
	.cfi_endproc

	.section	.text.noise_cipher_encrypt,"ax",@progbits
	.globl	noise_cipher_encrypt
	.p2align	4
	.type	noise_cipher_encrypt,@function
noise_cipher_encrypt:
	.cfi_startproc
	endbr64
	pushq	%rbp
	.cfi_def_cfa_offset 16
	pushq	%r14
	.cfi_def_cfa_offset 24
	pushq	%rbx
	.cfi_def_cfa_offset 32
	subq	$64, %rsp
	.cfi_def_cfa_offset 96
	.cfi_offset %rbx, -32
	.cfi_offset %r14, -24
	.cfi_offset %rbp, -16
	movq	%rcx, %r10
	movq	%rdx, %rcx
	movq	%rsi, %rdx
	xorl	%r11d, %r11d
	testq	%rsi, %rsi
	sete	%bpl
	xorl	%esi, %esi
	testq	%r10, %r10
	sete	%bl
	movq	$0, 48(%rsp)
	xorps	%xmm0, %xmm0
	movaps	%xmm0, (%rsp)
	movl	$23, %eax
	cmpl	$1315899393, (%rdi)
	jne	.Lnoise_BB47_7
	movl	$22, %eax
	cmpb	$0, 4(%rdi)
	jne	.Lnoise_BB47_7
	movq	40(%rdi), %rax
	movb	$1, 16(%rsp)
	movups	5(%rdi), %xmm0
	movups	21(%rdi), %xmm1
	movups	%xmm0, 17(%rsp)
	movups	%xmm1, 33(%rsp)
	movq	%rax, 56(%rsp)
	movl	$24, %eax
	cmpq	$65535, %rcx
	ja	.Lnoise_BB47_7
	subq	$16, %r8
	setb	%al
	cmpq	%r9, %r8
	setb	%r8b
	orb	%al, %r8b
	movl	$18, %eax
	jne	.Lnoise_BB47_7
	movq	%rdi, %r14
	movb	%bpl, %r11b
	shll	$12, %r11d
	addq	%r11, %rdx
	movb	%bl, %sil
	shll	$12, %esi
	addq	%rsi, %r10
	movq	%rsp, %rdi
	leaq	16(%rsp), %rsi
	movq	%r10, %r8
	callq	"noise_state::cipher::CipherState::encrypt"
	cmpb	$0, (%rsp)
	je	.Lnoise_BB47_5
	movzbl	1(%rsp), %eax
	leaq	.Lnoise_switch.table.noise_cipher_encrypt(%rip), %rcx
	movl	(%rcx,%rax,4), %eax
	jmp	.Lnoise_BB47_7
.Lnoise_BB47_5:
	movq	96(%rsp), %rax
	movq	8(%rsp), %rcx
	movq	$0, (%rax)
	movq	%rcx, 8(%rax)
	movq	56(%rsp), %rax
	movq	%rax, 40(%r14)
	xorl	%eax, %eax
.Lnoise_BB47_7:
	addq	$64, %rsp
	.cfi_def_cfa_offset 32
	popq	%rbx
	.cfi_def_cfa_offset 24
	popq	%r14
	.cfi_def_cfa_offset 16
	popq	%rbp
	.cfi_def_cfa_offset 8
	retq
.Lnoise_func_end47:
	.size	noise_cipher_encrypt, .Lnoise_func_end47-noise_cipher_encrypt
	.cfi_endproc

	.section	.text.noise_cipher_nonce,"ax",@progbits
	.globl	noise_cipher_nonce
	.p2align	4
	.type	noise_cipher_nonce,@function
noise_cipher_nonce:
	.cfi_startproc
	endbr64
	movl	$-257, %ecx
	andl	(%rdi), %ecx
	movl	$23, %eax
	cmpl	$1315899393, %ecx
	jne	.Lnoise_BB48_3
	movl	$22, %eax
	cmpb	$0, 4(%rdi)
	je	.Lnoise_BB48_2
.Lnoise_BB48_3:
	retq
.Lnoise_BB48_2:
	movq	40(%rdi), %rax
	movq	%rax, (%rsi)
	xorl	%eax, %eax
	retq
.Lnoise_func_end48:
	.size	noise_cipher_nonce, .Lnoise_func_end48-noise_cipher_nonce
	.cfi_endproc

	.section	.text.noise_cipher_rekey,"ax",@progbits
	.globl	noise_cipher_rekey
	.p2align	4
	.type	noise_cipher_rekey,@function
noise_cipher_rekey:
	.cfi_startproc
	endbr64
	pushq	%rbx
	.cfi_def_cfa_offset 16
	subq	$48, %rsp
	.cfi_def_cfa_offset 64
	.cfi_offset %rbx, -16
	movq	$0, 32(%rsp)
	movl	$-257, %ecx
	andl	(%rdi), %ecx
	movl	$23, %eax
	cmpl	$1315899393, %ecx
	jne	.Lnoise_BB49_4
	movl	$22, %eax
	cmpb	$0, 4(%rdi)
	je	.Lnoise_BB49_2
.Lnoise_BB49_4:
	addq	$48, %rsp
	.cfi_def_cfa_offset 16
	popq	%rbx
	.cfi_def_cfa_offset 8
	retq
.Lnoise_BB49_2:
	.cfi_def_cfa_offset 64
	movq	40(%rdi), %rax
	movb	$1, (%rsp)
	movups	5(%rdi), %xmm0
	movq	%rdi, %rbx
	movups	21(%rdi), %xmm1
	movups	%xmm0, 1(%rsp)
	movups	%xmm1, 17(%rsp)
	movq	%rax, 40(%rsp)
	movq	%rsp, %rdi
	callq	"noise_state::cipher::CipherState::rekey"
	xorl	%eax, %eax
	cmpb	$1, (%rsp)
	jne	.Lnoise_BB49_4
	addq	$5, %rbx
	leaq	1(%rsp), %rcx
	movups	(%rcx), %xmm0
	movups	16(%rcx), %xmm1
	movups	%xmm1, 16(%rbx)
	movups	%xmm0, (%rbx)
	addq	$48, %rsp
	.cfi_def_cfa_offset 16
	popq	%rbx
	.cfi_def_cfa_offset 8
	retq
.Lnoise_func_end49:
	.size	noise_cipher_rekey, .Lnoise_func_end49-noise_cipher_rekey
	.cfi_endproc

	.section	.text.noise_cipher_set_nonce,"ax",@progbits
	.globl	noise_cipher_set_nonce
	.p2align	4
	.type	noise_cipher_set_nonce,@function
noise_cipher_set_nonce:
	.cfi_startproc
	endbr64
	movl	$-257, %ecx
	andl	(%rdi), %ecx
	movl	$23, %eax
	cmpl	$1315899393, %ecx
	jne	.Lnoise_BB50_3
	movl	$22, %eax
	cmpb	$0, 4(%rdi)
	je	.Lnoise_BB50_2
.Lnoise_BB50_3:
	retq
.Lnoise_BB50_2:
	movq	%rsi, 40(%rdi)
	xorl	%eax, %eax
	retq
.Lnoise_func_end50:
	.size	noise_cipher_set_nonce, .Lnoise_func_end50-noise_cipher_set_nonce
	.cfi_endproc

	.section	.text.noise_cipher_size,"ax",@progbits
	.globl	noise_cipher_size
	.p2align	4
	.type	noise_cipher_size,@function
noise_cipher_size:
	.cfi_startproc
	endbr64
	movl	$48, %eax
	retq
.Lnoise_func_end51:
	.size	noise_cipher_size, .Lnoise_func_end51-noise_cipher_size
	.cfi_endproc

	.section	.text.noise_datagram_receiver_size,"ax",@progbits
	.globl	noise_datagram_receiver_size
	.p2align	4
	.type	noise_datagram_receiver_size,@function
noise_datagram_receiver_size:
	.cfi_startproc
	endbr64
	movl	$192, %eax
	retq
.Lnoise_func_end52:
	.size	noise_datagram_receiver_size, .Lnoise_func_end52-noise_datagram_receiver_size
	.cfi_endproc

	.section	.text.noise_datagram_sender_size,"ax",@progbits
	.globl	noise_datagram_sender_size
	.p2align	4
	.type	noise_datagram_sender_size,@function
noise_datagram_sender_size:
	.cfi_startproc
	endbr64
	movl	$48, %eax
	retq
.Lnoise_func_end53:
	.size	noise_datagram_sender_size, .Lnoise_func_end53-noise_datagram_sender_size
	.cfi_endproc

	.section	.text.noise_frame_find,"ax",@progbits
	.globl	noise_frame_find
	.p2align	4
	.type	noise_frame_find,@function
noise_frame_find:
	.cfi_startproc
	endbr64
	movl	$2, %eax
	cmpq	$2, %rsi
	jb	.Lnoise_BB54_2
	xorl	%eax, %eax
	testq	%rdi, %rdi
	sete	%al
	shll	$12, %eax
	movzwl	(%rdi,%rax), %eax
	rolw	$8, %ax
	movzwl	%ax, %ecx
	leaq	2(%rcx), %rax
	cmpq	%rax, %rsi
	jae	.Lnoise_BB54_3
.Lnoise_BB54_2:
	subq	%rsi, %rax
	movq	%rax, 24(%rdx)
	movl	$42, %eax
	retq
.Lnoise_BB54_3:
	movq	$2, (%rdx)
	movq	%rcx, 8(%rdx)
	movq	%rax, 16(%rdx)
	xorl	%eax, %eax
	retq
.Lnoise_func_end54:
	.size	noise_frame_find, .Lnoise_func_end54-noise_frame_find
	.cfi_endproc

	.section	.text.noise_frame_message,"ax",@progbits
	.globl	noise_frame_message
	.p2align	4
	.type	noise_frame_message,@function
noise_frame_message:
	.cfi_startproc
	endbr64
	xorl	%r8d, %r8d
	testq	%rdi, %rdi
	sete	%r9b
	movl	$24, %eax
	cmpq	$65535, %rdx
	ja	.Lnoise_BB55_3
	subq	$2, %rsi
	setb	%al
	cmpq	%rdx, %rsi
	setb	%sil
	orb	%al, %sil
	movl	$18, %eax
	jne	.Lnoise_BB55_3
	movb	%r9b, %r8b
	shll	$12, %r8d
	movl	%edx, %eax
	rolw	$8, %ax
	movw	%ax, (%rdi,%r8)
	addq	$2, %rdx
	movq	%rdx, 8(%rcx)
	xorl	%eax, %eax
.Lnoise_BB55_3:
	retq
.Lnoise_func_end55:
	.size	noise_frame_message, .Lnoise_func_end55-noise_frame_message
	.cfi_endproc

	.section	.text.noise_handshake_size,"ax",@progbits
	.globl	noise_handshake_size
	.p2align	4
	.type	noise_handshake_size,@function
noise_handshake_size:
	.cfi_startproc
	endbr64
	movl	$1472, %eax
	retq
.Lnoise_func_end56:
	.size	noise_handshake_size, .Lnoise_func_end56-noise_handshake_size
	.cfi_endproc

	.section	.text.noise_receiver_size,"ax",@progbits
	.globl	noise_receiver_size
	.p2align	4
	.type	noise_receiver_size,@function
noise_receiver_size:
	.cfi_startproc
	endbr64
	movl	$56, %eax
	retq
.Lnoise_func_end57:
	.size	noise_receiver_size, .Lnoise_func_end57-noise_receiver_size
	.cfi_endproc

	.section	.text.noise_sender_size,"ax",@progbits
	.globl	noise_sender_size
	.p2align	4
	.type	noise_sender_size,@function
noise_sender_size:
	.cfi_startproc
	endbr64
	movl	$56, %eax
	retq
.Lnoise_func_end58:
	.size	noise_sender_size, .Lnoise_func_end58-noise_sender_size
	.cfi_endproc

	.section	.text.noise_stream_receiver_size,"ax",@progbits
	.globl	noise_stream_receiver_size
	.p2align	4
	.type	noise_stream_receiver_size,@function
noise_stream_receiver_size:
	.cfi_startproc
	endbr64
	movl	$64, %eax
	retq
.Lnoise_func_end59:
	.size	noise_stream_receiver_size, .Lnoise_func_end59-noise_stream_receiver_size
	.cfi_endproc

	.section	.text.noise_stream_sender_size,"ax",@progbits
	.globl	noise_stream_sender_size
	.p2align	4
	.type	noise_stream_sender_size,@function
noise_stream_sender_size:
	.cfi_startproc
	endbr64
	movl	$64, %eax
	retq
.Lnoise_func_end60:
	.size	noise_stream_sender_size, .Lnoise_func_end60-noise_stream_sender_size
	.cfi_endproc

	.section	.text.noise_version,"ax",@progbits
	.globl	noise_version
	.p2align	4
	.type	noise_version,@function
noise_version:
	.cfi_startproc
	endbr64
	movl	$65536, %eax
	retq
.Lnoise_func_end61:
	.size	noise_version, .Lnoise_func_end61-noise_version
	.cfi_endproc

	.section	.text.noise_answer,"ax",@progbits
	.globl	noise_answer
	.p2align	4
	.type	noise_answer,@function
noise_answer:
	.cfi_startproc
	endbr64
	movl	$23, %eax
	cmpl	$1315897601, (%rdi)
	jne	.Lnoise_BB62_6
	movzbl	846(%rdi), %r8d
	cmpq	$8, %r8
	ja	.Lnoise_BB62_6
	pushq	%rax
	.cfi_def_cfa_offset 16
	movups	(%rdx), %xmm0
	movups	16(%rdx), %xmm1
	movaps	%xmm1, -80(%rsp)
	movaps	%xmm0, -96(%rsp)
	movups	(%rcx), %xmm0
	movups	16(%rcx), %xmm1
	movaps	%xmm0, -128(%rsp)
	movaps	%xmm1, -112(%rsp)
	cmpl	$8, %r8d
	jne	.Lnoise_BB62_4
	movups	(%rdx), %xmm0
	movups	16(%rdx), %xmm1
	movaps	%xmm1, -16(%rsp)
	movaps	%xmm0, -32(%rsp)
	movups	(%rcx), %xmm0
	movups	16(%rcx), %xmm1
	movaps	%xmm1, -48(%rsp)
	movaps	%xmm0, -64(%rsp)
	movups	912(%rdi), %xmm0
	movups	928(%rdi), %xmm1
	movups	944(%rdi), %xmm2
	movups	960(%rdi), %xmm3
	movups	%xmm0, 847(%rdi)
	movups	%xmm1, 863(%rdi)
	movups	%xmm2, 879(%rdi)
	movups	%xmm3, 895(%rdi)
	movzbl	976(%rdi), %eax
	movb	%al, 911(%rdi)
	movups	977(%rdi), %xmm0
	movups	%xmm0, 912(%rdi)
	movups	993(%rdi), %xmm0
	movups	%xmm0, 928(%rdi)
	movups	1009(%rdi), %xmm0
	movups	%xmm0, 944(%rdi)
	movups	1025(%rdi), %xmm0
	movups	%xmm0, 960(%rdi)
	movzbl	1041(%rdi), %eax
	movb	%al, 976(%rdi)
	movups	1042(%rdi), %xmm0
	movups	1058(%rdi), %xmm1
	movups	1074(%rdi), %xmm2
	movups	1090(%rdi), %xmm3
	movups	%xmm0, 977(%rdi)
	movzbl	1106(%rdi), %eax
	movb	%al, 1041(%rdi)
	movups	%xmm3, 1025(%rdi)
	movups	%xmm2, 1009(%rdi)
	movups	%xmm1, 993(%rdi)
	movzbl	1171(%rdi), %eax
	movb	%al, 1106(%rdi)
	movups	1107(%rdi), %xmm0
	movups	1123(%rdi), %xmm1
	movups	1139(%rdi), %xmm2
	movups	1155(%rdi), %xmm3
	movups	%xmm3, 1090(%rdi)
	movups	%xmm2, 1074(%rdi)
	movups	%xmm1, 1058(%rdi)
	movups	%xmm0, 1042(%rdi)
	movzbl	1236(%rdi), %eax
	movb	%al, 1171(%rdi)
	movups	1172(%rdi), %xmm0
	movups	1188(%rdi), %xmm1
	movups	1204(%rdi), %xmm2
	movups	1220(%rdi), %xmm3
	movups	%xmm3, 1155(%rdi)
	movups	%xmm2, 1139(%rdi)
	movups	%xmm1, 1123(%rdi)
	movups	%xmm0, 1107(%rdi)
	movzbl	1301(%rdi), %eax
	movb	%al, 1236(%rdi)
	movups	1237(%rdi), %xmm0
	movups	1253(%rdi), %xmm1
	movups	1269(%rdi), %xmm2
	movups	1285(%rdi), %xmm3
	movups	%xmm3, 1220(%rdi)
	movups	%xmm2, 1204(%rdi)
	movups	%xmm1, 1188(%rdi)
	movups	%xmm0, 1172(%rdi)
	movzbl	1366(%rdi), %eax
	movb	%al, 1301(%rdi)
	movups	1302(%rdi), %xmm0
	movups	1318(%rdi), %xmm1
	movups	1334(%rdi), %xmm2
	movups	1350(%rdi), %xmm3
	movups	%xmm3, 1285(%rdi)
	movups	%xmm2, 1269(%rdi)
	movups	%xmm1, 1253(%rdi)
	movups	%xmm0, 1237(%rdi)
	movb	%sil, 1302(%rdi)
	movaps	-32(%rsp), %xmm0
	movaps	-16(%rsp), %xmm1
	movups	%xmm1, 1319(%rdi)
	movups	%xmm0, 1303(%rdi)
	movaps	-64(%rsp), %xmm0
	movaps	-48(%rsp), %xmm1
	movups	%xmm1, 1351(%rdi)
	movups	%xmm0, 1335(%rdi)
	jmp	.Lnoise_BB62_5
.Lnoise_BB62_4:
	movl	%r8d, %eax
	shll	$6, %eax
	addq	%r8, %rax
	movb	%sil, 847(%rdi,%rax)
	movaps	-96(%rsp), %xmm0
	movaps	-80(%rsp), %xmm1
	movups	%xmm0, 848(%rdi,%rax)
	movups	%xmm1, 864(%rdi,%rax)
	movaps	-128(%rsp), %xmm0
	movaps	-112(%rsp), %xmm1
	movups	%xmm0, 880(%rdi,%rax)
	movups	%xmm1, 896(%rdi,%rax)
	leal	1(%r8), %eax
	movb	%al, 846(%rdi)
.Lnoise_BB62_5:
	xorl	%eax, %eax
	addq	$8, %rsp
	.cfi_def_cfa_offset 8
.Lnoise_BB62_6:
	retq
.Lnoise_func_end62:
	.size	noise_answer, .Lnoise_func_end62-noise_answer
	.cfi_endproc

	.section	.text.noise_datagram_sender_nonce,"ax",@progbits
	.globl	noise_datagram_sender_nonce
	.p2align	4
	.type	noise_datagram_sender_nonce,@function
noise_datagram_sender_nonce:
	.cfi_startproc
	endbr64
	movl	$23, %eax
	cmpl	$1315898881, (%rdi)
	jne	.Lnoise_BB63_3
	movzbl	4(%rdi), %ecx
	decb	%cl
	cmpb	$1, %cl
	ja	.Lnoise_BB63_3
	movq	40(%rdi), %rax
	movq	%rax, (%rsi)
	xorl	%eax, %eax
.Lnoise_BB63_3:
	retq
.Lnoise_func_end63:
	.size	noise_datagram_sender_nonce, .Lnoise_func_end63-noise_datagram_sender_nonce
	.cfi_endproc

	.section	.text.noise_receiver_nonce,"ax",@progbits
	.globl	noise_receiver_nonce
	.p2align	4
	.type	noise_receiver_nonce,@function
noise_receiver_nonce:
	.cfi_startproc
	endbr64
	movl	$23, %eax
	cmpl	$1315898369, (%rdi)
	jne	.Lnoise_BB64_3
	movzbl	4(%rdi), %ecx
	decb	%cl
	cmpb	$1, %cl
	ja	.Lnoise_BB64_3
	movq	48(%rdi), %rax
	movq	%rax, (%rsi)
	xorl	%eax, %eax
.Lnoise_BB64_3:
	retq
.Lnoise_func_end64:
	.size	noise_receiver_nonce, .Lnoise_func_end64-noise_receiver_nonce
	.cfi_endproc

	.section	.text.noise_sender_nonce,"ax",@progbits
	.globl	noise_sender_nonce
	.p2align	4
	.type	noise_sender_nonce,@function
noise_sender_nonce:
	.cfi_startproc
	endbr64
	movl	$23, %eax
	cmpl	$1315898113, (%rdi)
	jne	.Lnoise_BB65_3
	movzbl	4(%rdi), %ecx
	decb	%cl
	cmpb	$1, %cl
	ja	.Lnoise_BB65_3
	movq	48(%rdi), %rax
	movq	%rax, (%rsi)
	xorl	%eax, %eax
.Lnoise_BB65_3:
	retq
.Lnoise_func_end65:
	.size	noise_sender_nonce, .Lnoise_func_end65-noise_sender_nonce
	.cfi_endproc

	.section	.text.noise_open,"ax",@progbits
	.globl	noise_open
	.p2align	4
	.type	noise_open,@function
noise_open:
	.cfi_startproc
	endbr64
	pushq	%r15
	.cfi_def_cfa_offset 16
	pushq	%r14
	.cfi_def_cfa_offset 24
	pushq	%r13
	.cfi_def_cfa_offset 32
	pushq	%r12
	.cfi_def_cfa_offset 40
	pushq	%rbx
	.cfi_def_cfa_offset 48
	subq	$80, %rsp
	.cfi_def_cfa_offset 128
	.cfi_offset %rbx, -48
	.cfi_offset %r12, -40
	.cfi_offset %r13, -32
	.cfi_offset %r14, -24
	.cfi_offset %r15, -16
	movq	%rdx, %r9
	movq	%rsi, %r8
	xorl	%edx, %edx
	testq	%rsi, %rsi
	sete	%sil
	movl	$23, %eax
	cmpl	$1315898369, (%rdi)
	jne	.Lnoise_BB66_23
	movzbl	4(%rdi), %r10d
	cmpl	$1, %r10d
	je	.Lnoise_BB66_2
	cmpl	$2, %r10d
	jne	.Lnoise_BB66_23
	movb	$1, %r11b
	xorl	%r10d, %r10d
	movl	$24, %eax
	cmpq	$65535, %r9
	jbe	.Lnoise_BB66_6
	jmp	.Lnoise_BB66_23
.Lnoise_BB66_2:
	xorl	%r11d, %r11d
	movb	$1, %r10b
	movl	$24, %eax
	cmpq	$65535, %r9
	ja	.Lnoise_BB66_23
.Lnoise_BB66_6:
	movq	40(%rdi), %rax
	movq	48(%rdi), %rbx
	cmpb	$0, 5(%rdi)
	movb	%r11b, 16(%rsp)
	setne	17(%rsp)
	leaq	6(%rdi), %r14
	setne	%r11b
	movl	$0, 18(%rsp)
	movw	$0, 22(%rsp)
	movq	%rax, 24(%rsp)
	movb	$1, 32(%rsp)
	movups	(%r14), %xmm0
	movups	16(%r14), %xmm1
	movups	%xmm0, 33(%rsp)
	movups	%xmm1, 49(%rsp)
	movl	$0, 65(%rsp)
	movl	$0, 68(%rsp)
	movq	%rbx, 72(%rsp)
	xorps	%xmm0, %xmm0
	movaps	%xmm0, (%rsp)
	testb	%r10b, %r11b
	je	.Lnoise_BB66_7
	movl	$22, %eax
	jmp	.Lnoise_BB66_23
.Lnoise_BB66_7:
	movq	%rcx, %r15
	movq	%rdi, %r12
	movb	%sil, %dl
	shll	$12, %edx
	addq	%rdx, %r8
	leaq	32(%rsp), %rbx
	leaq	.Lnoise_static.1(%rip), %rdx
	movq	%rsp, %rdi
	movq	%rbx, %rsi
	xorl	%ecx, %ecx
	callq	"noise_state::cipher::CipherState::decrypt"
	cmpb	$0, (%rsp)
	je	.Lnoise_BB66_8
	movzbl	1(%rsp), %eax
	leaq	.Lnoise_JTI66_0(%rip), %rcx
	movslq	(%rcx,%rax,4), %rax
	addq	%rcx, %rax
	notrack jmpq	*%rax
.Lnoise_BB66_21:
	movl	$17, %eax
	jmp	.Lnoise_BB66_23
.Lnoise_BB66_8:
	movq	8(%rsp), %r13
	movq	24(%rsp), %rsi
	movq	72(%rsp), %rcx
	testq	%rsi, %rsi
	je	.Lnoise_BB66_9
	movq	%rcx, %rax
	orq	%rsi, %rax
	shrq	$32, %rax
	movq	%r15, %rdi
	je	.Lnoise_BB66_11
	movq	%rcx, %rax
	xorl	%edx, %edx
	divq	%rsi
	jmp	.Lnoise_BB66_13
.Lnoise_BB66_20:
	movl	$16, %eax
	jmp	.Lnoise_BB66_23
.Lnoise_BB66_18:
	movl	$15, %eax
	jmp	.Lnoise_BB66_23
.Lnoise_BB66_9:
	xorl	%esi, %esi
	movq	%r12, %rax
	movq	%r15, %rdi
	jmp	.Lnoise_BB66_15
.Lnoise_BB66_11:
	movl	%ecx, %eax
	xorl	%edx, %edx
	divl	%esi
.Lnoise_BB66_13:
	movq	%r12, %rax
	testq	%rdx, %rdx
	jne	.Lnoise_BB66_15
	movq	%rbx, %rdi
	callq	"noise_state::cipher::CipherState::rekey"
	movq	%r15, %rdi
	movq	%r12, %rax
	movq	24(%rsp), %rsi
	movq	72(%rsp), %rcx
.Lnoise_BB66_15:
	movq	$0, (%rdi)
	movq	%r13, 8(%rdi)
	cmpb	$1, 32(%rsp)
	jne	.Lnoise_BB66_16
	movzbl	17(%rsp), %edx
	andb	$1, %dl
	cmpb	$1, 16(%rsp)
	movb	$2, %dil
	sbbb	$0, %dil
	leaq	33(%rsp), %r8
	movl	$1315898369, (%rax)
	movb	%dil, 4(%rax)
	movb	%dl, 5(%rax)
	movups	(%r8), %xmm0
	movups	16(%r8), %xmm1
	movups	%xmm1, 16(%r14)
	movups	%xmm0, (%r14)
	movw	$0, 38(%rax)
	movq	%rsi, 40(%rax)
	movq	%rcx, 48(%rax)
	xorl	%eax, %eax
.Lnoise_BB66_23:
	addq	$80, %rsp
	.cfi_def_cfa_offset 48
	popq	%rbx
	.cfi_def_cfa_offset 40
	popq	%r12
	.cfi_def_cfa_offset 32
	popq	%r13
	.cfi_def_cfa_offset 24
	popq	%r14
	.cfi_def_cfa_offset 16
	popq	%r15
	.cfi_def_cfa_offset 8
	retq
.Lnoise_BB66_16:
	.cfi_def_cfa_offset 128
	ud2
.Lnoise_func_end66:
	.size	noise_open, .Lnoise_func_end66-noise_open
	.cfi_endproc
	.section	.rodata.noise_open,"a",@progbits
	.p2align	2, 0x0
.Lnoise_JTI66_0:
	.long	.Lnoise_BB66_21-.Lnoise_JTI66_0
	.long	.Lnoise_BB66_20-.Lnoise_JTI66_0
	.long	.Lnoise_BB66_18-.Lnoise_JTI66_0
	.long	.Lnoise_BB66_16-.Lnoise_JTI66_0

	.section	.text.noise_datagram_seal,"ax",@progbits
	.globl	noise_datagram_seal
	.p2align	4
	.type	noise_datagram_seal,@function
noise_datagram_seal:
	.cfi_startproc
	endbr64
	pushq	%rbp
	.cfi_def_cfa_offset 16
	pushq	%r15
	.cfi_def_cfa_offset 24
	pushq	%r14
	.cfi_def_cfa_offset 32
	pushq	%r13
	.cfi_def_cfa_offset 40
	pushq	%r12
	.cfi_def_cfa_offset 48
	pushq	%rbx
	.cfi_def_cfa_offset 56
	subq	$88, %rsp
	.cfi_def_cfa_offset 144
	.cfi_offset %rbx, -56
	.cfi_offset %r12, -48
	.cfi_offset %r13, -40
	.cfi_offset %r14, -32
	.cfi_offset %r15, -24
	.cfi_offset %rbp, -16
	xorl	%r10d, %r10d
	testq	%rsi, %rsi
	sete	%bpl
	xorl	%r11d, %r11d
	testq	%rcx, %rcx
	sete	%bl
	movl	$23, %eax
	cmpl	$1315898881, (%rdi)
	jne	.Lnoise_BB67_38
	movzbl	4(%rdi), %r14d
	cmpl	$1, %r14d
	je	.Lnoise_BB67_2
	cmpl	$2, %r14d
	jne	.Lnoise_BB67_38
	movb	$1, %r14b
	movb	$1, %al
	jmp	.Lnoise_BB67_5
.Lnoise_BB67_2:
	xorl	%r14d, %r14d
	xorl	%eax, %eax
.Lnoise_BB67_5:
	movzbl	5(%rdi), %r15d
	testb	%r15b, %r15b
	movq	40(%rdi), %r12
	movb	%al, (%rsp)
	setne	1(%rsp)
	movq	$0, 2(%rsp)
	movq	$0, 8(%rsp)
	movb	$1, 16(%rsp)
	movups	6(%rdi), %xmm0
	movups	22(%rdi), %xmm1
	movups	%xmm0, 17(%rsp)
	movups	%xmm1, 33(%rsp)
	movl	$0, 49(%rsp)
	movl	$0, 52(%rsp)
	movq	%r12, 56(%rsp)
	subq	$24, %r8
	setb	%al
	cmpq	%rdx, %r8
	setb	%r8b
	orb	%al, %r8b
	movl	$18, %eax
	jne	.Lnoise_BB67_38
	testb	%r15b, %r15b
	setne	%r8b
	movl	$22, %eax
	testb	%r8b, %r14b
	jne	.Lnoise_BB67_38
	movl	$11, %eax
	cmpq	$65519, %rdx
	ja	.Lnoise_BB67_38
	cmpq	$-1, %r12
	je	.Lnoise_BB67_9
	movb	%bpl, %r10b
	shll	$12, %r10d
	leaq	(%rsi,%r10), %rax
	movb	%bl, %r11b
	shll	$12, %r11d
	leaq	(%rcx,%r11), %r13
	leaq	16(%rsp), %r15
	leaq	8(%r13), %r14
	movq	%r14, %r8
	subq	%rax, %r8
	cmpq	%rdx, %r8
	movq	%r9, 80(%rsp)
	jae	.Lnoise_BB67_39
	cmpq	$4, %rdx
	jb	.Lnoise_BB67_12
	movq	%r13, %r8
	subq	%rax, %r8
	addq	$8, %r8
	cmpq	$32, %r8
	jae	.Lnoise_BB67_14
.Lnoise_BB67_12:
	movq	%rdi, %rbx
	xorl	%edi, %edi
.Lnoise_BB67_23:
	movq	%r15, %rbp
	movq	%rdx, %r9
	movq	%rdi, %r8
	andq	$3, %r9
	je	.Lnoise_BB67_26
	movq	%rdi, %r8
	.p2align	4
.Lnoise_BB67_25:
	movzbl	(%rax,%r8), %r15d
	movb	%r15b, (%r14,%r8)
	incq	%r8
	decq	%r9
	jne	.Lnoise_BB67_25
.Lnoise_BB67_26:
	subq	%rdx, %rdi
	cmpq	$-4, %rdi
	movq	%rbp, %r15
	ja	.Lnoise_BB67_29
	leaq	(%r10,%rsi), %rax
	addq	$3, %rax
	addq	%r11, %rcx
	addq	$11, %rcx
.Lnoise_BB67_28:
	movzbl	-3(%rax,%r8), %esi
	movb	%sil, -3(%rcx,%r8)
	movzbl	-2(%rax,%r8), %esi
	movb	%sil, -2(%rcx,%r8)
	movzbl	-1(%rax,%r8), %esi
	movb	%sil, -1(%rcx,%r8)
	movzbl	(%rax,%r8), %esi
	movb	%sil, (%rcx,%r8)
	addq	$4, %r8
	cmpq	%r8, %rdx
	jne	.Lnoise_BB67_28
	jmp	.Lnoise_BB67_29
.Lnoise_BB67_9:
	movl	$17, %eax
	jmp	.Lnoise_BB67_38
.Lnoise_BB67_39:
	movq	%rdi, %rbx
	movq	%r14, %rdi
	movq	%rax, %rsi
	movq	%r15, %rbp
	movq	%rdx, %r15
	callq	memmove@PLT
	movq	%r15, %rdx
	movq	%rbp, %r15
.Lnoise_BB67_29:
	xorps	%xmm0, %xmm0
	movaps	%xmm0, 64(%rsp)
	leaq	.Lnoise_static.1(%rip), %rax
	leaq	64(%rsp), %rdi
	movq	%r15, %rsi
	movq	%rdx, %r9
	movq	%rax, %rdx
	xorl	%ecx, %ecx
	movq	%r14, %r8
	callq	"noise_state::cipher::CipherState::encrypt"
	cmpb	$0, 64(%rsp)
	jne	.Lnoise_BB67_40
	movq	72(%rsp), %r14
	movq	8(%rsp), %rsi
	movq	56(%rsp), %rcx
	testq	%rsi, %rsi
	movq	80(%rsp), %rbp
	je	.Lnoise_BB67_36
	movq	%rcx, %rax
	orq	%rsi, %rax
	shrq	$32, %rax
	je	.Lnoise_BB67_32
	movq	%rcx, %rax
	xorl	%edx, %edx
	divq	%rsi
	jmp	.Lnoise_BB67_34
.Lnoise_BB67_32:
	movl	%ecx, %eax
	xorl	%edx, %edx
	divl	%esi
.Lnoise_BB67_34:
	testq	%rdx, %rdx
	jne	.Lnoise_BB67_36
	movq	%r15, %rdi
	callq	"noise_state::cipher::CipherState::rekey"
	movq	56(%rsp), %rcx
.Lnoise_BB67_36:
	bswapq	%r12
	movq	%r12, (%r13)
	addq	$8, %r14
	movq	$0, (%rbp)
	movq	%r14, 8(%rbp)
	cmpb	$1, 16(%rsp)
	jne	.Lnoise_BB67_40
	leaq	6(%rbx), %rax
	cmpb	$1, (%rsp)
	leaq	17(%rsp), %rdx
	movb	$2, %sil
	sbbb	$0, %sil
	movzbl	1(%rsp), %edi
	andb	$1, %dil
	movl	$1315898881, (%rbx)
	movb	%sil, 4(%rbx)
	movb	%dil, 5(%rbx)
	movups	(%rdx), %xmm0
	movups	16(%rdx), %xmm1
	movups	%xmm1, 16(%rax)
	movups	%xmm0, (%rax)
	movw	$0, 38(%rbx)
	movq	%rcx, 40(%rbx)
	xorl	%eax, %eax
.Lnoise_BB67_38:
	addq	$88, %rsp
	.cfi_def_cfa_offset 56
	popq	%rbx
	.cfi_def_cfa_offset 48
	popq	%r12
	.cfi_def_cfa_offset 40
	popq	%r13
	.cfi_def_cfa_offset 32
	popq	%r14
	.cfi_def_cfa_offset 24
	popq	%r15
	.cfi_def_cfa_offset 16
	popq	%rbp
	.cfi_def_cfa_offset 8
	retq
.Lnoise_BB67_14:
	.cfi_def_cfa_offset 144
	cmpq	$32, %rdx
	jae	.Lnoise_BB67_16
	movq	%rdi, %rbx
	xorl	%edi, %edi
	jmp	.Lnoise_BB67_20
.Lnoise_BB67_16:
	movq	%r15, %rbp
	movq	%rdi, %rbx
	movl	%edx, %edi
	andl	$65504, %edi
	leaq	(%r10,%rsi), %r8
	addq	$16, %r8
	leaq	(%r11,%rcx), %r9
	addq	$24, %r9
	xorl	%r15d, %r15d
.Lnoise_BB67_17:
	movups	-16(%r8,%r15), %xmm0
	movups	(%r8,%r15), %xmm1
	movups	%xmm0, -16(%r9,%r15)
	movups	%xmm1, (%r9,%r15)
	addq	$32, %r15
	cmpq	%r15, %rdi
	jne	.Lnoise_BB67_17
	cmpq	%rdi, %rdx
	movq	%rbp, %r15
	je	.Lnoise_BB67_29
	testb	$28, %dl
	je	.Lnoise_BB67_23
.Lnoise_BB67_20:
	movq	%rdi, %r8
	movl	%edx, %edi
	andl	$65532, %edi
.Lnoise_BB67_21:
	movl	(%rax,%r8), %r9d
	movl	%r9d, (%r14,%r8)
	addq	$4, %r8
	cmpq	%r8, %rdi
	jne	.Lnoise_BB67_21
	cmpq	%rdi, %rdx
	jne	.Lnoise_BB67_23
	jmp	.Lnoise_BB67_29
.Lnoise_BB67_40:
	ud2
.Lnoise_func_end67:
	.size	noise_datagram_seal, .Lnoise_func_end67-noise_datagram_seal
	.cfi_endproc

	.section	.text.noise_datagram_seal_in_place,"ax",@progbits
	.globl	noise_datagram_seal_in_place
	.p2align	4
	.type	noise_datagram_seal_in_place,@function
noise_datagram_seal_in_place:
	.cfi_startproc
	endbr64
	pushq	%rbp
	.cfi_def_cfa_offset 16
	pushq	%r15
	.cfi_def_cfa_offset 24
	pushq	%r14
	.cfi_def_cfa_offset 32
	pushq	%r13
	.cfi_def_cfa_offset 40
	pushq	%r12
	.cfi_def_cfa_offset 48
	pushq	%rbx
	.cfi_def_cfa_offset 56
	subq	$88, %rsp
	.cfi_def_cfa_offset 144
	.cfi_offset %rbx, -56
	.cfi_offset %r12, -48
	.cfi_offset %r13, -40
	.cfi_offset %r14, -32
	.cfi_offset %r15, -24
	.cfi_offset %rbp, -16
	movq	%rcx, %r9
	xorl	%ecx, %ecx
	testq	%rsi, %rsi
	sete	%r10b
	movl	$23, %eax
	cmpl	$1315898881, (%rdi)
	jne	.Lnoise_BB68_20
	movzbl	4(%rdi), %r11d
	cmpl	$1, %r11d
	je	.Lnoise_BB68_2
	cmpl	$2, %r11d
	jne	.Lnoise_BB68_20
	movb	$1, %r11b
	movb	$1, %al
	jmp	.Lnoise_BB68_5
.Lnoise_BB68_2:
	xorl	%r11d, %r11d
	xorl	%eax, %eax
.Lnoise_BB68_5:
	movzbl	5(%rdi), %ebx
	testb	%bl, %bl
	movq	40(%rdi), %r14
	movb	%al, (%rsp)
	setne	1(%rsp)
	movq	$0, 2(%rsp)
	movq	$0, 8(%rsp)
	movb	$1, 16(%rsp)
	movups	6(%rdi), %xmm0
	movups	22(%rdi), %xmm1
	movups	%xmm0, 17(%rsp)
	movups	%xmm1, 33(%rsp)
	movl	$0, 49(%rsp)
	movl	$0, 52(%rsp)
	movq	%r14, 56(%rsp)
	subq	$24, %rdx
	setb	%al
	cmpq	%r9, %rdx
	setb	%dl
	orb	%al, %dl
	movl	$18, %eax
	jne	.Lnoise_BB68_20
	testb	%bl, %bl
	setne	%dl
	movl	$22, %eax
	testb	%dl, %r11b
	jne	.Lnoise_BB68_20
	movl	$11, %eax
	cmpq	$65519, %r9
	ja	.Lnoise_BB68_20
	cmpq	$-1, %r14
	je	.Lnoise_BB68_9
	movq	%r8, %r12
	movq	%rdi, %r15
	movb	%r10b, %cl
	shll	$12, %ecx
	addq	%rcx, %rsi
	leaq	16(%rsp), %rbx
	movq	%rsi, %r13
	leaq	8(%rsi), %r8
	xorps	%xmm0, %xmm0
	movaps	%xmm0, 64(%rsp)
	leaq	.Lnoise_static.1(%rip), %rdx
	leaq	64(%rsp), %rdi
	movq	%rbx, %rsi
	xorl	%ecx, %ecx
	callq	"noise_state::cipher::CipherState::encrypt"
	cmpb	$0, 64(%rsp)
	jne	.Lnoise_BB68_21
	movq	72(%rsp), %rbp
	movq	8(%rsp), %r9
	movq	56(%rsp), %rcx
	testq	%r9, %r9
	movq	%r12, %rdi
	je	.Lnoise_BB68_12
	movq	%rcx, %rax
	orq	%r9, %rax
	shrq	$32, %rax
	movq	%r15, %rsi
	movq	%r13, %r8
	je	.Lnoise_BB68_14
	movq	%rcx, %rax
	xorl	%edx, %edx
	divq	%r9
	jmp	.Lnoise_BB68_16
.Lnoise_BB68_9:
	movl	$17, %eax
	jmp	.Lnoise_BB68_20
.Lnoise_BB68_12:
	movq	%r15, %rsi
	movq	%r13, %r8
	jmp	.Lnoise_BB68_18
.Lnoise_BB68_14:
	movl	%ecx, %eax
	xorl	%edx, %edx
	divl	%r9d
.Lnoise_BB68_16:
	testq	%rdx, %rdx
	jne	.Lnoise_BB68_18
	movq	%rbx, %rdi
	callq	"noise_state::cipher::CipherState::rekey"
	movq	%r13, %r8
	movq	%r12, %rdi
	movq	%r15, %rsi
	movq	56(%rsp), %rcx
.Lnoise_BB68_18:
	bswapq	%r14
	movq	%r14, (%r8)
	addq	$8, %rbp
	movq	$0, (%rdi)
	movq	%rbp, 8(%rdi)
	cmpb	$1, 16(%rsp)
	jne	.Lnoise_BB68_21
	leaq	6(%rsi), %rax
	cmpb	$1, (%rsp)
	leaq	17(%rsp), %rdx
	movb	$2, %dil
	sbbb	$0, %dil
	movzbl	1(%rsp), %r8d
	andb	$1, %r8b
	movl	$1315898881, (%rsi)
	movb	%dil, 4(%rsi)
	movb	%r8b, 5(%rsi)
	movups	(%rdx), %xmm0
	movups	16(%rdx), %xmm1
	movups	%xmm1, 16(%rax)
	movups	%xmm0, (%rax)
	movw	$0, 38(%rsi)
	movq	%rcx, 40(%rsi)
	xorl	%eax, %eax
.Lnoise_BB68_20:
	addq	$88, %rsp
	.cfi_def_cfa_offset 56
	popq	%rbx
	.cfi_def_cfa_offset 48
	popq	%r12
	.cfi_def_cfa_offset 40
	popq	%r13
	.cfi_def_cfa_offset 32
	popq	%r14
	.cfi_def_cfa_offset 24
	popq	%r15
	.cfi_def_cfa_offset 16
	popq	%rbp
	.cfi_def_cfa_offset 8
	retq
.Lnoise_BB68_21:
	.cfi_def_cfa_offset 144
	ud2
.Lnoise_func_end68:
	.size	noise_datagram_seal_in_place, .Lnoise_func_end68-noise_datagram_seal_in_place
	.cfi_endproc

	.section	.text.noise_seal,"ax",@progbits
	.globl	noise_seal
	.p2align	4
	.type	noise_seal,@function
noise_seal:
	.cfi_startproc
	endbr64
	pushq	%rbp
	.cfi_def_cfa_offset 16
	pushq	%r15
	.cfi_def_cfa_offset 24
	pushq	%r14
	.cfi_def_cfa_offset 32
	pushq	%r13
	.cfi_def_cfa_offset 40
	pushq	%r12
	.cfi_def_cfa_offset 48
	pushq	%rbx
	.cfi_def_cfa_offset 56
	subq	$88, %rsp
	.cfi_def_cfa_offset 144
	.cfi_offset %rbx, -56
	.cfi_offset %r12, -48
	.cfi_offset %r13, -40
	.cfi_offset %r14, -32
	.cfi_offset %r15, -24
	.cfi_offset %rbp, -16
	xorl	%r10d, %r10d
	testq	%rsi, %rsi
	sete	%bpl
	xorl	%r11d, %r11d
	testq	%rcx, %rcx
	sete	%bl
	movl	$23, %eax
	cmpl	$1315898113, (%rdi)
	jne	.Lnoise_BB69_39
	movzbl	4(%rdi), %r14d
	cmpl	$1, %r14d
	je	.Lnoise_BB69_2
	cmpl	$2, %r14d
	jne	.Lnoise_BB69_39
	movb	$1, %r14b
	movb	$1, %r15b
	jmp	.Lnoise_BB69_5
.Lnoise_BB69_2:
	xorl	%r14d, %r14d
	xorl	%r15d, %r15d
.Lnoise_BB69_5:
	subq	$16, %r8
	setb	%al
	cmpq	%rdx, %r8
	setb	%r8b
	orb	%al, %r8b
	movl	$18, %eax
	jne	.Lnoise_BB69_39
	leaq	6(%rdi), %r12
	movq	48(%rdi), %r8
	movq	40(%rdi), %rax
	cmpb	$0, 5(%rdi)
	setne	%r13b
	movb	%r15b, (%rsp)
	setne	1(%rsp)
	movl	$0, 2(%rsp)
	movw	$0, 6(%rsp)
	movq	%rax, 8(%rsp)
	movb	$1, 16(%rsp)
	movups	(%r12), %xmm0
	movups	16(%r12), %xmm1
	movups	%xmm0, 17(%rsp)
	movups	%xmm1, 33(%rsp)
	movl	$0, 49(%rsp)
	movl	$0, 52(%rsp)
	movq	%r8, 56(%rsp)
	movl	$22, %eax
	testb	%r14b, %r13b
	jne	.Lnoise_BB69_39
	movl	$11, %eax
	cmpq	$65519, %rdx
	ja	.Lnoise_BB69_39
	cmpq	$-1, %r8
	je	.Lnoise_BB69_9
	movb	%bpl, %r10b
	shll	$12, %r10d
	leaq	(%rsi,%r10), %rax
	movb	%bl, %r11b
	shll	$12, %r11d
	leaq	(%rcx,%r11), %r14
	leaq	16(%rsp), %rbx
	movq	%r14, %r8
	subq	%rax, %r8
	cmpq	%rdx, %r8
	jae	.Lnoise_BB69_40
	cmpq	$4, %rdx
	jb	.Lnoise_BB69_12
	cmpq	$32, %r8
	jae	.Lnoise_BB69_14
.Lnoise_BB69_12:
	movq	%r9, %r13
	movq	%rdi, %rbp
	xorl	%edi, %edi
.Lnoise_BB69_23:
	movq	%rdx, %r9
	movq	%rdi, %r8
	andq	$3, %r9
	je	.Lnoise_BB69_26
	movq	%rdi, %r8
	.p2align	4
.Lnoise_BB69_25:
	movzbl	(%rax,%r8), %r15d
	movb	%r15b, (%r14,%r8)
	incq	%r8
	decq	%r9
	jne	.Lnoise_BB69_25
.Lnoise_BB69_26:
	subq	%rdx, %rdi
	cmpq	$-4, %rdi
	ja	.Lnoise_BB69_29
	leaq	(%r10,%rsi), %rax
	addq	$3, %rax
	addq	%r11, %rcx
	addq	$3, %rcx
.Lnoise_BB69_28:
	movzbl	-3(%rax,%r8), %esi
	movb	%sil, -3(%rcx,%r8)
	movzbl	-2(%rax,%r8), %esi
	movb	%sil, -2(%rcx,%r8)
	movzbl	-1(%rax,%r8), %esi
	movb	%sil, -1(%rcx,%r8)
	movzbl	(%rax,%r8), %esi
	movb	%sil, (%rcx,%r8)
	addq	$4, %r8
	cmpq	%r8, %rdx
	jne	.Lnoise_BB69_28
	jmp	.Lnoise_BB69_29
.Lnoise_BB69_9:
	movl	$17, %eax
	jmp	.Lnoise_BB69_39
.Lnoise_BB69_40:
	movq	%r9, %r13
	movq	%rdi, %rbp
	movq	%r14, %rdi
	movq	%rax, %rsi
	movq	%rdx, %r15
	callq	memmove@PLT
	movq	%r15, %rdx
.Lnoise_BB69_29:
	xorps	%xmm0, %xmm0
	movaps	%xmm0, 64(%rsp)
	leaq	.Lnoise_static.1(%rip), %rax
	leaq	64(%rsp), %rdi
	movq	%rbx, %rsi
	movq	%rdx, %r9
	movq	%rax, %rdx
	xorl	%ecx, %ecx
	movq	%r14, %r8
	callq	"noise_state::cipher::CipherState::encrypt"
	cmpb	$0, 64(%rsp)
	jne	.Lnoise_BB69_41
	movq	72(%rsp), %r14
	movq	8(%rsp), %rsi
	movq	56(%rsp), %rcx
	testq	%rsi, %rsi
	je	.Lnoise_BB69_31
	movq	%rcx, %rax
	orq	%rsi, %rax
	shrq	$32, %rax
	je	.Lnoise_BB69_33
	movq	%rcx, %rax
	xorl	%edx, %edx
	divq	%rsi
	jmp	.Lnoise_BB69_35
.Lnoise_BB69_31:
	xorl	%esi, %esi
	jmp	.Lnoise_BB69_37
.Lnoise_BB69_33:
	movl	%ecx, %eax
	xorl	%edx, %edx
	divl	%esi
.Lnoise_BB69_35:
	testq	%rdx, %rdx
	jne	.Lnoise_BB69_37
	movq	%rbx, %rdi
	callq	"noise_state::cipher::CipherState::rekey"
	movq	8(%rsp), %rsi
	movq	56(%rsp), %rcx
.Lnoise_BB69_37:
	movq	$0, (%r13)
	movq	%r14, 8(%r13)
	cmpb	$1, 16(%rsp)
	jne	.Lnoise_BB69_41
	movzbl	1(%rsp), %eax
	andb	$1, %al
	cmpb	$1, (%rsp)
	movb	$2, %dl
	sbbb	$0, %dl
	leaq	17(%rsp), %rdi
	movl	$1315898113, (%rbp)
	movb	%dl, 4(%rbp)
	movb	%al, 5(%rbp)
	movups	(%rdi), %xmm0
	movups	16(%rdi), %xmm1
	movups	%xmm1, 16(%r12)
	movups	%xmm0, (%r12)
	movw	$0, 38(%rbp)
	movq	%rsi, 40(%rbp)
	movq	%rcx, 48(%rbp)
	xorl	%eax, %eax
.Lnoise_BB69_39:
	addq	$88, %rsp
	.cfi_def_cfa_offset 56
	popq	%rbx
	.cfi_def_cfa_offset 48
	popq	%r12
	.cfi_def_cfa_offset 40
	popq	%r13
	.cfi_def_cfa_offset 32
	popq	%r14
	.cfi_def_cfa_offset 24
	popq	%r15
	.cfi_def_cfa_offset 16
	popq	%rbp
	.cfi_def_cfa_offset 8
	retq
.Lnoise_BB69_14:
	.cfi_def_cfa_offset 144
	movq	%r9, %r13
	movq	%rdi, %rbp
	cmpq	$32, %rdx
	jae	.Lnoise_BB69_16
	xorl	%edi, %edi
	jmp	.Lnoise_BB69_20
.Lnoise_BB69_16:
	movl	%edx, %edi
	andl	$65504, %edi
	leaq	(%r10,%rsi), %r8
	addq	$16, %r8
	leaq	(%r11,%rcx), %r9
	addq	$16, %r9
	xorl	%r15d, %r15d
.Lnoise_BB69_17:
	movups	-16(%r8,%r15), %xmm0
	movups	(%r8,%r15), %xmm1
	movups	%xmm0, -16(%r9,%r15)
	movups	%xmm1, (%r9,%r15)
	addq	$32, %r15
	cmpq	%r15, %rdi
	jne	.Lnoise_BB69_17
	cmpq	%rdi, %rdx
	je	.Lnoise_BB69_29
	testb	$28, %dl
	je	.Lnoise_BB69_23
.Lnoise_BB69_20:
	movq	%rdi, %r8
	movl	%edx, %edi
	andl	$65532, %edi
.Lnoise_BB69_21:
	movl	(%rax,%r8), %r9d
	movl	%r9d, (%r14,%r8)
	addq	$4, %r8
	cmpq	%r8, %rdi
	jne	.Lnoise_BB69_21
	cmpq	%rdi, %rdx
	jne	.Lnoise_BB69_23
	jmp	.Lnoise_BB69_29
.Lnoise_BB69_41:
	ud2
.Lnoise_func_end69:
	.size	noise_seal, .Lnoise_func_end69-noise_seal
	.cfi_endproc

	.section	.text.noise_seal_in_place,"ax",@progbits
	.globl	noise_seal_in_place
	.p2align	4
	.type	noise_seal_in_place,@function
noise_seal_in_place:
	.cfi_startproc
	endbr64
	pushq	%rbp
	.cfi_def_cfa_offset 16
	pushq	%r15
	.cfi_def_cfa_offset 24
	pushq	%r14
	.cfi_def_cfa_offset 32
	pushq	%r13
	.cfi_def_cfa_offset 40
	pushq	%r12
	.cfi_def_cfa_offset 48
	pushq	%rbx
	.cfi_def_cfa_offset 56
	subq	$88, %rsp
	.cfi_def_cfa_offset 144
	.cfi_offset %rbx, -56
	.cfi_offset %r12, -48
	.cfi_offset %r13, -40
	.cfi_offset %r14, -32
	.cfi_offset %r15, -24
	.cfi_offset %rbp, -16
	movq	%rcx, %r9
	xorl	%ecx, %ecx
	testq	%rsi, %rsi
	sete	%r10b
	movl	$23, %eax
	cmpl	$1315898113, (%rdi)
	jne	.Lnoise_BB70_20
	movzbl	4(%rdi), %r11d
	cmpl	$1, %r11d
	je	.Lnoise_BB70_2
	cmpl	$2, %r11d
	jne	.Lnoise_BB70_20
	movb	$1, %r11b
	movb	$1, %bl
	jmp	.Lnoise_BB70_5
.Lnoise_BB70_2:
	xorl	%r11d, %r11d
	xorl	%ebx, %ebx
.Lnoise_BB70_5:
	subq	$16, %rdx
	setb	%al
	cmpq	%r9, %rdx
	setb	%dl
	orb	%al, %dl
	movl	$18, %eax
	jne	.Lnoise_BB70_20
	leaq	6(%rdi), %r14
	movq	48(%rdi), %rdx
	movq	40(%rdi), %rax
	cmpb	$0, 5(%rdi)
	setne	%bpl
	movb	%bl, (%rsp)
	setne	1(%rsp)
	movl	$0, 2(%rsp)
	movw	$0, 6(%rsp)
	movq	%rax, 8(%rsp)
	movb	$1, 16(%rsp)
	movups	(%r14), %xmm0
	movups	16(%r14), %xmm1
	movups	%xmm0, 17(%rsp)
	movups	%xmm1, 33(%rsp)
	movl	$0, 49(%rsp)
	movl	$0, 52(%rsp)
	movq	%rdx, 56(%rsp)
	movl	$22, %eax
	testb	%r11b, %bpl
	jne	.Lnoise_BB70_20
	movl	$11, %eax
	cmpq	$65519, %r9
	ja	.Lnoise_BB70_20
	cmpq	$-1, %rdx
	je	.Lnoise_BB70_9
	movq	%r8, %r12
	movq	%rdi, %r15
	movb	%r10b, %cl
	shll	$12, %ecx
	addq	%rcx, %rsi
	leaq	16(%rsp), %rbx
	xorps	%xmm0, %xmm0
	movaps	%xmm0, 64(%rsp)
	leaq	.Lnoise_static.1(%rip), %rdx
	leaq	64(%rsp), %rdi
	movq	%rsi, %r8
	movq	%rbx, %rsi
	xorl	%ecx, %ecx
	callq	"noise_state::cipher::CipherState::encrypt"
	cmpb	$0, 64(%rsp)
	jne	.Lnoise_BB70_21
	movq	72(%rsp), %r13
	movq	8(%rsp), %rsi
	movq	56(%rsp), %rcx
	testq	%rsi, %rsi
	movq	%r12, %rdi
	je	.Lnoise_BB70_12
	movq	%rcx, %rax
	orq	%rsi, %rax
	shrq	$32, %rax
	je	.Lnoise_BB70_14
	movq	%rcx, %rax
	xorl	%edx, %edx
	divq	%rsi
	jmp	.Lnoise_BB70_16
.Lnoise_BB70_9:
	movl	$17, %eax
	jmp	.Lnoise_BB70_20
.Lnoise_BB70_12:
	xorl	%esi, %esi
	movq	%r15, %rax
	jmp	.Lnoise_BB70_18
.Lnoise_BB70_14:
	movl	%ecx, %eax
	xorl	%edx, %edx
	divl	%esi
.Lnoise_BB70_16:
	movq	%r15, %rax
	testq	%rdx, %rdx
	jne	.Lnoise_BB70_18
	movq	%rbx, %rdi
	callq	"noise_state::cipher::CipherState::rekey"
	movq	%r12, %rdi
	movq	%r15, %rax
	movq	8(%rsp), %rsi
	movq	56(%rsp), %rcx
.Lnoise_BB70_18:
	movq	$0, (%rdi)
	movq	%r13, 8(%rdi)
	cmpb	$1, 16(%rsp)
	jne	.Lnoise_BB70_21
	movzbl	1(%rsp), %edx
	andb	$1, %dl
	cmpb	$1, (%rsp)
	movb	$2, %dil
	sbbb	$0, %dil
	leaq	17(%rsp), %r8
	movl	$1315898113, (%rax)
	movb	%dil, 4(%rax)
	movb	%dl, 5(%rax)
	movups	(%r8), %xmm0
	movups	16(%r8), %xmm1
	movups	%xmm1, 16(%r14)
	movups	%xmm0, (%r14)
	movw	$0, 38(%rax)
	movq	%rsi, 40(%rax)
	movq	%rcx, 48(%rax)
	xorl	%eax, %eax
.Lnoise_BB70_20:
	addq	$88, %rsp
	.cfi_def_cfa_offset 56
	popq	%rbx
	.cfi_def_cfa_offset 48
	popq	%r12
	.cfi_def_cfa_offset 40
	popq	%r13
	.cfi_def_cfa_offset 32
	popq	%r14
	.cfi_def_cfa_offset 24
	popq	%r15
	.cfi_def_cfa_offset 16
	popq	%rbp
	.cfi_def_cfa_offset 8
	retq
.Lnoise_BB70_21:
	.cfi_def_cfa_offset 144
	ud2
.Lnoise_func_end70:
	.size	noise_seal_in_place, .Lnoise_func_end70-noise_seal_in_place
	.cfi_endproc

	.section	.text.noise_sentence,"ax",@progbits
	.globl	noise_sentence
	.p2align	4
	.type	noise_sentence,@function
noise_sentence:
	.cfi_startproc
	endbr64
	cmpl	$45, %edi
	ja	.Lnoise_BB71_1
	movl	%edi, %ecx
	leaq	.Lnoise_switch.table.noise_sentence(%rip), %rax
	movq	(%rax,%rcx,8), %rax
	leaq	.Lnoise_switch.table.noise_sentence.201.rel(%rip), %rdx
	movslq	(%rdx,%rcx,4), %rcx
	addq	%rdx, %rcx
	movq	%rcx, (%rsi)
	retq
.Lnoise_BB71_1:
	leaq	.Lnoise_static.47(%rip), %rcx
	movl	$41, %eax
	movq	%rcx, (%rsi)
	retq
.Lnoise_func_end71:
	.size	noise_sentence, .Lnoise_func_end71-noise_sentence
	.cfi_endproc

	.section	.text.noise_hash,"ax",@progbits
	.globl	noise_hash
	.p2align	4
	.type	noise_hash,@function
noise_hash:
	.cfi_startproc
	endbr64
	pushq	%r14
	.cfi_def_cfa_offset 16
	pushq	%rbx
	.cfi_def_cfa_offset 24
	subq	$1160, %rsp
	.cfi_def_cfa_offset 1184
	.cfi_offset %rbx, -24
	.cfi_offset %r14, -16
	movq	%rsi, %rbx
	movq	%rdi, %r14
	leaq	288(%rsp), %rdi
	movl	$872, %edx
	xorl	%esi, %esi
	callq	memset@PLT
	cmpl	$1315897601, (%r14)
	jne	.Lnoise_BB72_5
	movzwl	420(%r14), %edx
	cmpq	$416, %rdx
	ja	.Lnoise_BB72_5
	cmpb	$8, 846(%r14)
	ja	.Lnoise_BB72_5
	cmpb	$9, 557(%r14)
	ja	.Lnoise_BB72_5
	leaq	4(%r14), %rsi
	leaq	8(%rsp), %rdi
	callq	"noise_c::patterns::pattern_of"
	cmpb	$0, 8(%rsp)
	je	.Lnoise_BB72_6
.Lnoise_BB72_5:
	movl	$23, %eax
.Lnoise_BB72_8:
	addq	$1160, %rsp
	.cfi_def_cfa_offset 24
	popq	%rbx
	.cfi_def_cfa_offset 16
	popq	%r14
	.cfi_def_cfa_offset 8
	retq
.Lnoise_BB72_6:
	.cfi_def_cfa_offset 1184
	leaq	16(%rsp), %rdx
	leaq	288(%rsp), %rdi
	movq	%r14, %rsi
	callq	"noise_c::from_c::restored"
	movl	$23, %eax
	cmpb	$1, 288(%rsp)
	jne	.Lnoise_BB72_8
	movups	1399(%r14), %xmm0
	movups	1415(%r14), %xmm1
	movups	%xmm1, 16(%rbx)
	movups	%xmm0, (%rbx)
	xorl	%eax, %eax
	addq	$1160, %rsp
	.cfi_def_cfa_offset 24
	popq	%rbx
	.cfi_def_cfa_offset 16
	popq	%r14
	.cfi_def_cfa_offset 8
	retq
.Lnoise_func_end72:
	.size	noise_hash, .Lnoise_func_end72-noise_hash
	.cfi_endproc

	.section	.text.noise_message_len,"ax",@progbits
	.globl	noise_message_len
	.p2align	4
	.type	noise_message_len,@function
noise_message_len:
	.cfi_startproc
	endbr64
	pushq	%r15
	.cfi_def_cfa_offset 16
	pushq	%r14
	.cfi_def_cfa_offset 24
	pushq	%rbx
	.cfi_def_cfa_offset 32
	subq	$1152, %rsp
	.cfi_def_cfa_offset 1184
	.cfi_offset %rbx, -32
	.cfi_offset %r14, -24
	.cfi_offset %r15, -16
	movq	%rdx, %rbx
	movq	%rsi, %r14
	movq	%rdi, %r15
	leaq	280(%rsp), %rdi
	movl	$872, %edx
	xorl	%esi, %esi
	callq	memset@PLT
	cmpl	$1315897601, (%r15)
	jne	.Lnoise_BB73_5
	movzwl	420(%r15), %edx
	cmpq	$416, %rdx
	ja	.Lnoise_BB73_5
	cmpb	$8, 846(%r15)
	ja	.Lnoise_BB73_5
	cmpb	$9, 557(%r15)
	ja	.Lnoise_BB73_5
	leaq	4(%r15), %rsi
	movq	%rsp, %rdi
	callq	"noise_c::patterns::pattern_of"
	cmpb	$0, (%rsp)
	je	.Lnoise_BB73_6
.Lnoise_BB73_5:
	movl	$23, %eax
.Lnoise_BB73_12:
	addq	$1152, %rsp
	.cfi_def_cfa_offset 32
	popq	%rbx
	.cfi_def_cfa_offset 24
	popq	%r14
	.cfi_def_cfa_offset 16
	popq	%r15
	.cfi_def_cfa_offset 8
	retq
.Lnoise_BB73_6:
	.cfi_def_cfa_offset 1184
	leaq	8(%rsp), %rdx
	leaq	280(%rsp), %rdi
	movq	%r15, %rsi
	callq	"noise_c::from_c::restored"
	movl	$23, %eax
	cmpb	$1, 280(%rsp)
	jne	.Lnoise_BB73_12
	cmpb	$0, 592(%rsp)
	sete	%cl
	movl	$29, %eax
	cmpb	$1, 977(%rsp)
	je	.Lnoise_BB73_12
	movzbl	976(%rsp), %edx
	cmpq	%rdx, 552(%rsp)
	je	.Lnoise_BB73_12
	xorb	%dl, %cl
	testb	$1, %cl
	je	.Lnoise_BB73_12
	movzwl	1032(%rsp), %ecx
	movl	%ecx, %edx
	xorl	$65535, %edx
	cmpq	%rdx, %r14
	ja	.Lnoise_BB73_12
	addq	%rcx, %r14
	movq	%r14, (%rbx)
	xorl	%eax, %eax
	jmp	.Lnoise_BB73_12
.Lnoise_func_end73:
	.size	noise_message_len, .Lnoise_func_end73-noise_message_len
	.cfi_endproc

	.section	.text.noise_remote_static,"ax",@progbits
	.globl	noise_remote_static
	.p2align	4
	.type	noise_remote_static,@function
noise_remote_static:
	.cfi_startproc
	endbr64
	pushq	%r14
	.cfi_def_cfa_offset 16
	pushq	%rbx
	.cfi_def_cfa_offset 24
	subq	$1192, %rsp
	.cfi_def_cfa_offset 1216
	.cfi_offset %rbx, -24
	.cfi_offset %r14, -16
	movq	%rsi, %rbx
	movq	%rdi, %r14
	leaq	320(%rsp), %rdi
	movl	$872, %edx
	xorl	%esi, %esi
	callq	memset@PLT
	cmpl	$1315897601, (%r14)
	jne	.Lnoise_BB74_5
	movzwl	420(%r14), %edx
	cmpq	$416, %rdx
	ja	.Lnoise_BB74_5
	cmpb	$8, 846(%r14)
	ja	.Lnoise_BB74_5
	cmpb	$9, 557(%r14)
	ja	.Lnoise_BB74_5
	leaq	4(%r14), %rsi
	leaq	32(%rsp), %rdi
	callq	"noise_c::patterns::pattern_of"
	cmpb	$0, 32(%rsp)
	je	.Lnoise_BB74_6
.Lnoise_BB74_5:
	movl	$23, %eax
.Lnoise_BB74_11:
	addq	$1192, %rsp
	.cfi_def_cfa_offset 24
	popq	%rbx
	.cfi_def_cfa_offset 16
	popq	%r14
	.cfi_def_cfa_offset 8
	retq
.Lnoise_BB74_6:
	.cfi_def_cfa_offset 1216
	leaq	40(%rsp), %rdx
	leaq	320(%rsp), %rdi
	movq	%r14, %rsi
	callq	"noise_c::from_c::restored"
	movzbl	320(%rsp), %edx
	movzbl	673(%rsp), %ecx
	movups	674(%rsp), %xmm0
	movaps	%xmm0, (%rsp)
	movups	690(%rsp), %xmm0
	movaps	%xmm0, 16(%rsp)
	movl	$23, %eax
	cmpb	$1, %dl
	jne	.Lnoise_BB74_11
	cmpb	$1, %cl
	jne	.Lnoise_BB74_9
	movaps	(%rsp), %xmm0
	movaps	16(%rsp), %xmm1
	movaps	%xmm1, 336(%rsp)
	jmp	.Lnoise_BB74_10
.Lnoise_BB74_9:
	xorps	%xmm0, %xmm0
	movaps	%xmm0, 336(%rsp)
.Lnoise_BB74_10:
	movaps	%xmm0, 320(%rsp)
	movaps	320(%rsp), %xmm0
	movaps	336(%rsp), %xmm1
	movaps	%xmm1, 48(%rsp)
	movaps	%xmm0, 32(%rsp)
	movb	%cl, (%rbx)
	movaps	32(%rsp), %xmm0
	movaps	48(%rsp), %xmm1
	movups	%xmm0, 1(%rbx)
	movups	%xmm1, 17(%rbx)
	xorl	%eax, %eax
	addq	$1192, %rsp
	.cfi_def_cfa_offset 24
	popq	%rbx
	.cfi_def_cfa_offset 16
	popq	%r14
	.cfi_def_cfa_offset 8
	retq
.Lnoise_func_end74:
	.size	noise_remote_static, .Lnoise_func_end74-noise_remote_static
	.cfi_endproc

	.section	.text.noise_stage,"ax",@progbits
	.globl	noise_stage
	.p2align	4
	.type	noise_stage,@function
noise_stage:
	.cfi_startproc
	endbr64
	pushq	%r14
	.cfi_def_cfa_offset 16
	pushq	%rbx
	.cfi_def_cfa_offset 24
	subq	$1160, %rsp
	.cfi_def_cfa_offset 1184
	.cfi_offset %rbx, -24
	.cfi_offset %r14, -16
	movq	%rsi, %rbx
	movq	%rdi, %r14
	leaq	288(%rsp), %rdi
	movl	$872, %edx
	xorl	%esi, %esi
	callq	memset@PLT
	cmpl	$1315897601, (%r14)
	jne	.Lnoise_BB75_5
	movzwl	420(%r14), %edx
	cmpq	$416, %rdx
	ja	.Lnoise_BB75_5
	cmpb	$8, 846(%r14)
	ja	.Lnoise_BB75_5
	cmpb	$9, 557(%r14)
	ja	.Lnoise_BB75_5
	leaq	4(%r14), %rsi
	leaq	8(%rsp), %rdi
	callq	"noise_c::patterns::pattern_of"
	cmpb	$0, 8(%rsp)
	je	.Lnoise_BB75_6
.Lnoise_BB75_5:
	movl	$23, %eax
.Lnoise_BB75_8:
	addq	$1160, %rsp
	.cfi_def_cfa_offset 24
	popq	%rbx
	.cfi_def_cfa_offset 16
	popq	%r14
	.cfi_def_cfa_offset 8
	retq
.Lnoise_BB75_6:
	.cfi_def_cfa_offset 1184
	leaq	16(%rsp), %rdx
	leaq	288(%rsp), %rdi
	movq	%r14, %rsi
	callq	"noise_c::from_c::restored"
	movl	$23, %eax
	cmpb	$1, 288(%rsp)
	jne	.Lnoise_BB75_8
	movq	560(%rsp), %rax
	movzbl	600(%rsp), %ecx
	movzbl	984(%rsp), %edx
	movzbl	985(%rsp), %esi
	movb	%al, (%rbx)
	movb	%dl, 1(%rbx)
	movb	%sil, 2(%rbx)
	testb	%cl, %cl
	sete	%al
	xorb	%dl, %al
	andb	$1, %al
	movb	%al, 3(%rbx)
	xorl	%eax, %eax
	addq	$1160, %rsp
	.cfi_def_cfa_offset 24
	popq	%rbx
	.cfi_def_cfa_offset 16
	popq	%r14
	.cfi_def_cfa_offset 8
	retq
.Lnoise_func_end75:
	.size	noise_stage, .Lnoise_func_end75-noise_stage
	.cfi_endproc

	.section	.text.noise_read,"ax",@progbits
	.globl	noise_read
	.p2align	4
	.type	noise_read,@function
noise_read:
	.cfi_startproc
	endbr64
	pushq	%rbx
	.cfi_def_cfa_offset 16
	.cfi_offset %rbx, -16
	movq	%rdi, %rbx
	xorl	%eax, %eax
	testq	%rsi, %rsi
	sete	%al
	shll	$12, %eax
	addq	%rax, %rsi
	callq	"noise_c::messages::read_next"
	movl	%eax, %ecx
	addl	$-15, %ecx
	cmpl	$1, %ecx
	ja	.Lnoise_BB76_2
	movb	$1, 423(%rbx)
.Lnoise_BB76_2:
	popq	%rbx
	.cfi_def_cfa_offset 8
	retq
.Lnoise_func_end76:
	.size	noise_read, .Lnoise_func_end76-noise_read
	.cfi_endproc

	.section	.text.noise_try_read,"ax",@progbits
	.globl	noise_try_read
	.p2align	4
	.type	noise_try_read,@function
noise_try_read:
	.cfi_startproc
	endbr64
	xorl	%eax, %eax
	testq	%rsi, %rsi
	sete	%al
	shll	$12, %eax
	addq	%rax, %rsi
	jmp	"noise_c::messages::read_next"
.Lnoise_func_end77:
	.size	noise_try_read, .Lnoise_func_end77-noise_try_read
	.cfi_endproc

	.section	.text.noise_set_psk,"ax",@progbits
	.globl	noise_set_psk
	.p2align	4
	.type	noise_set_psk,@function
noise_set_psk:
	.cfi_startproc
	endbr64
	pushq	%rbp
	.cfi_def_cfa_offset 16
	pushq	%r14
	.cfi_def_cfa_offset 24
	pushq	%rbx
	.cfi_def_cfa_offset 32
	subq	$2016, %rsp
	.cfi_def_cfa_offset 2048
	.cfi_offset %rbx, -32
	.cfi_offset %r14, -24
	.cfi_offset %rbp, -16
	movq	%rsi, %r14
	movq	%rdi, %rbx
	movq	%rsp, %rdi
	movl	$872, %edx
	xorl	%esi, %esi
	callq	memset@PLT
	cmpl	$1315897601, (%rbx)
	jne	.Lnoise_BB78_5
	movzwl	420(%rbx), %edx
	cmpq	$416, %rdx
	ja	.Lnoise_BB78_5
	cmpb	$8, 846(%rbx)
	ja	.Lnoise_BB78_5
	cmpb	$9, 557(%rbx)
	ja	.Lnoise_BB78_5
	leaq	4(%rbx), %rsi
	leaq	872(%rsp), %rdi
	callq	"noise_c::patterns::pattern_of"
	cmpb	$0, 872(%rsp)
	je	.Lnoise_BB78_6
.Lnoise_BB78_5:
	movl	$23, %eax
.Lnoise_BB78_33:
	addq	$2016, %rsp
	.cfi_def_cfa_offset 32
	popq	%rbx
	.cfi_def_cfa_offset 24
	popq	%r14
	.cfi_def_cfa_offset 16
	popq	%rbp
	.cfi_def_cfa_offset 8
	retq
.Lnoise_BB78_6:
	.cfi_def_cfa_offset 2048
	leaq	880(%rsp), %rdx
	movq	%rsp, %rdi
	movq	%rbx, %rsi
	callq	"noise_c::from_c::restored"
	movzbl	(%rsp), %ebp
	leaq	8(%rsp), %rsi
	leaq	1152(%rsp), %rdi
	movl	$864, %edx
	callq	memcpy@PLT
	movl	$23, %eax
	cmpb	$1, %bpl
	jne	.Lnoise_BB78_33
	movq	%rsp, %rdi
	leaq	1152(%rsp), %rsi
	movl	$864, %edx
	callq	memcpy@PLT
	movq	264(%rsp), %rcx
	movzbl	688(%rsp), %esi
	movq	%rcx, %rdx
	subq	%rsi, %rdx
	je	.Lnoise_BB78_8
	leaq	(%rsi,%rsi,2), %rax
	leaq	(%rsp,%rax,8), %rax
	addq	$72, %rax
	incq	%rsi
	cmpq	%rsi, %rcx
	jne	.Lnoise_BB78_11
	xorl	%ecx, %ecx
	jmp	.Lnoise_BB78_24
.Lnoise_BB78_8:
	xorl	%ecx, %ecx
	jmp	.Lnoise_BB78_30
.Lnoise_BB78_11:
	movq	%rdx, %rsi
	andq	$-2, %rsi
	xorl	%ecx, %ecx
	xorl	%edi, %edi
	jmp	.Lnoise_BB78_12
.Lnoise_BB78_22:
	addq	$48, %rax
	addq	%r8, %rcx
	addq	$2, %rdi
	cmpq	%rsi, %rdi
	je	.Lnoise_BB78_23
.Lnoise_BB78_12:
	movq	16(%rax), %r9
	xorl	%r8d, %r8d
	movq	%rax, %r10
.Lnoise_BB78_13:
	movq	%r10, %r11
	.p2align	4
.Lnoise_BB78_14:
	testq	%r9, %r9
	je	.Lnoise_BB78_17
	leaq	1(%r11), %r10
	decq	%r9
	cmpb	$6, (%r11)
	movq	%r10, %r11
	jne	.Lnoise_BB78_14
	incq	%r8
	jmp	.Lnoise_BB78_13
.Lnoise_BB78_17:
	leaq	24(%rax), %r10
	addq	%r8, %rcx
	movq	40(%rax), %r9
	xorl	%r8d, %r8d
.Lnoise_BB78_18:
	movq	%r10, %r11
	.p2align	4
.Lnoise_BB78_19:
	testq	%r9, %r9
	je	.Lnoise_BB78_22
	leaq	1(%r11), %r10
	decq	%r9
	cmpb	$6, (%r11)
	movq	%r10, %r11
	jne	.Lnoise_BB78_19
	incq	%r8
	jmp	.Lnoise_BB78_18
.Lnoise_BB78_23:
	testb	$1, %dl
	je	.Lnoise_BB78_30
.Lnoise_BB78_24:
	movq	16(%rax), %rsi
	xorl	%edx, %edx
.Lnoise_BB78_25:
	movq	%rax, %rdi
.Lnoise_BB78_26:
	testq	%rsi, %rsi
	je	.Lnoise_BB78_29
	leaq	1(%rdi), %rax
	decq	%rsi
	cmpb	$6, (%rdi)
	movq	%rax, %rdi
	jne	.Lnoise_BB78_26
	incq	%rdx
	jmp	.Lnoise_BB78_25
.Lnoise_BB78_29:
	addq	%rdx, %rcx
.Lnoise_BB78_30:
	movq	672(%rsp), %rdx
	subq	680(%rsp), %rdx
	cmpq	$9, %rdx
	ja	.Lnoise_BB78_34
	movl	$8, %eax
	cmpq	%rcx, %rdx
	je	.Lnoise_BB78_33
	movups	590(%rbx), %xmm0
	movups	606(%rbx), %xmm1
	movups	622(%rbx), %xmm2
	movups	638(%rbx), %xmm3
	movups	%xmm1, 574(%rbx)
	movups	%xmm0, 558(%rbx)
	movups	%xmm2, 590(%rbx)
	movups	%xmm3, 606(%rbx)
	movups	654(%rbx), %xmm0
	movups	%xmm0, 622(%rbx)
	movups	670(%rbx), %xmm0
	movups	%xmm0, 638(%rbx)
	movups	686(%rbx), %xmm0
	movups	%xmm0, 654(%rbx)
	movups	702(%rbx), %xmm0
	movups	%xmm0, 670(%rbx)
	movups	734(%rbx), %xmm0
	movups	%xmm0, 702(%rbx)
	movups	718(%rbx), %xmm0
	movups	%xmm0, 686(%rbx)
	movups	750(%rbx), %xmm0
	movups	766(%rbx), %xmm1
	movups	%xmm1, 734(%rbx)
	movups	%xmm0, 718(%rbx)
	movups	782(%rbx), %xmm0
	movups	798(%rbx), %xmm1
	movups	%xmm1, 766(%rbx)
	movups	%xmm0, 750(%rbx)
	movups	814(%rbx), %xmm0
	movups	830(%rbx), %xmm1
	movups	%xmm1, 798(%rbx)
	movups	%xmm0, 782(%rbx)
	movups	(%r14), %xmm0
	movups	16(%r14), %xmm1
	movups	%xmm1, 830(%rbx)
	movups	%xmm0, 814(%rbx)
	incb	557(%rbx)
	xorl	%eax, %eax
	jmp	.Lnoise_BB78_33
.Lnoise_BB78_34:
	ud2
.Lnoise_func_end78:
	.size	noise_set_psk, .Lnoise_func_end78-noise_set_psk
	.cfi_endproc

	.section	.rodata.cst16,"aM",@progbits,16
	.p2align	4, 0x0
.Lnoise_CPI79_0:
	.long	1779033703
	.long	3144134277
	.long	1013904242
	.long	2773480762
.Lnoise_CPI79_1:
	.long	1359893119
	.long	2600822924
	.long	528734635
	.long	1541459225
	.section	.text.noise_start,"ax",@progbits
	.globl	noise_start
	.p2align	4
	.type	noise_start,@function
noise_start:
	.cfi_startproc
	endbr64
	pushq	%rbp
	.cfi_def_cfa_offset 16
	pushq	%r15
	.cfi_def_cfa_offset 24
	pushq	%r14
	.cfi_def_cfa_offset 32
	pushq	%r13
	.cfi_def_cfa_offset 40
	pushq	%r12
	.cfi_def_cfa_offset 48
	pushq	%rbx
	.cfi_def_cfa_offset 56
	subq	$3072, %rsp
	.cfi_adjust_cfa_offset 3072
	movq	$0, (%rsp)
	subq	$216, %rsp
	.cfi_def_cfa_offset 3344
	.cfi_offset %rbx, -56
	.cfi_offset %r12, -48
	.cfi_offset %r13, -40
	.cfi_offset %r14, -32
	.cfi_offset %r15, -24
	.cfi_offset %rbp, -16
	movq	%r9, 24(%rsp)
	movq	%r8, 56(%rsp)
	movq	%rcx, %r13
	movq	%rdx, %r14
	movq	%rsi, %rbp
	movq	%rdi, 72(%rsp)
	xorl	%r12d, %r12d
	testq	%rsi, %rsi
	sete	%r12b
	shll	$12, %r12d
	addq	%r12, %rsi
	testq	%rcx, %rcx
	sete	%r15b
	xorps	%xmm0, %xmm0
	movaps	%xmm0, 1104(%rsp)
	movaps	%xmm0, 1120(%rsp)
	movaps	%xmm0, 1072(%rsp)
	movaps	%xmm0, 1088(%rsp)
	movaps	%xmm0, 1472(%rsp)
	movaps	%xmm0, 1488(%rsp)
	movaps	%xmm0, 1504(%rsp)
	movaps	%xmm0, 1520(%rsp)
	movaps	%xmm0, 1024(%rsp)
	movaps	%xmm0, 1040(%rsp)
	movq	$0, 1055(%rsp)
	leaq	2608(%rsp), %rdi
	movq	%rsi, %rbx
	callq	"noise_c::patterns::pattern_of"
	cmpb	$0, 2608(%rsp)
	je	.Lnoise_BB79_2
	movl	2612(%rsp), %eax
	jmp	.Lnoise_BB79_165
.Lnoise_BB79_2:
	movq	%r13, 16(%rsp)
	movq	%r12, 208(%rsp)
	movq	%rbx, 216(%rsp)
	movq	%rbp, 200(%rsp)
	movl	$24, %eax
	movq	56(%rsp), %rcx
	cmpq	$65535, %rcx
	movq	24(%rsp), %r12
	ja	.Lnoise_BB79_165
	movzbl	133(%r12), %ecx
	movl	$8, %eax
	cmpq	$9, %rcx
	ja	.Lnoise_BB79_165
	xorl	%edx, %edx
	movb	%r15b, %dl
	xorps	%xmm0, %xmm0
	movaps	%xmm0, 768(%rsp)
	movaps	%xmm0, 784(%rsp)
	movaps	%xmm0, 736(%rsp)
	movaps	%xmm0, 752(%rsp)
	movaps	%xmm0, 672(%rsp)
	movaps	%xmm0, 688(%rsp)
	movaps	%xmm0, 704(%rsp)
	movaps	%xmm0, 720(%rsp)
	movaps	%xmm0, 240(%rsp)
	movaps	%xmm0, 256(%rsp)
	movq	$0, 271(%rsp)
	movaps	%xmm0, 1552(%rsp)
	movaps	%xmm0, 1536(%rsp)
	movzbl	67(%r12), %eax
	movb	%al, 7(%rsp)
	testb	%al, %al
	je	.Lnoise_BB79_6
	movups	68(%r12), %xmm1
	movups	84(%r12), %xmm2
	movaps	%xmm2, 1552(%rsp)
	movaps	%xmm1, 1536(%rsp)
	movb	$1, %bpl
	jmp	.Lnoise_BB79_7
.Lnoise_BB79_6:
	xorl	%ebp, %ebp
.Lnoise_BB79_7:
	movq	%r14, %rbx
	shll	$12, %edx
	leaq	2616(%rsp), %rsi
	movaps	1536(%rsp), %xmm1
	movaps	1552(%rsp), %xmm2
	movaps	%xmm2, 656(%rsp)
	movaps	%xmm1, 640(%rsp)
	movaps	%xmm0, 1552(%rsp)
	movaps	%xmm0, 1536(%rsp)
	movzbl	100(%r12), %eax
	movb	%al, 6(%rsp)
	testb	%al, %al
	movq	%rcx, 48(%rsp)
	movq	%rdx, 40(%rsp)
	je	.Lnoise_BB79_9
	movups	101(%r12), %xmm0
	movups	117(%r12), %xmm1
	movaps	%xmm1, 1552(%rsp)
	movaps	%xmm0, 1536(%rsp)
	movb	$1, %r13b
	jmp	.Lnoise_BB79_10
.Lnoise_BB79_9:
	xorl	%r13d, %r13d
.Lnoise_BB79_10:
	movaps	1536(%rsp), %xmm0
	movaps	1552(%rsp), %xmm1
	movaps	%xmm1, 624(%rsp)
	movaps	%xmm0, 608(%rsp)
	movzbl	(%r12), %r14d
	testb	%r14b, %r14b
	setne	8(%rsp)
	xorps	%xmm0, %xmm0
	movaps	%xmm0, 1232(%rsp)
	movaps	%xmm0, 1248(%rsp)
	movaps	%xmm0, 1200(%rsp)
	movaps	%xmm0, 1216(%rsp)
	movaps	%xmm0, 1136(%rsp)
	movaps	%xmm0, 1152(%rsp)
	movaps	%xmm0, 1168(%rsp)
	movaps	%xmm0, 1184(%rsp)
	movaps	%xmm0, 928(%rsp)
	movaps	%xmm0, 944(%rsp)
	movq	$0, 959(%rsp)
	leaq	2064(%rsp), %rdi
	movl	$272, %edx
	callq	memcpy@PLT
	leaq	2136(%rsp), %r10
	movq	2328(%rsp), %r11
	testq	%r11, %r11
	movq	%rbx, 192(%rsp)
	movq	%r11, %rbx
	movb	%r14b, 5(%rsp)
	je	.Lnoise_BB79_25
	movq	%r11, %rsi
	decq	%rsi
	je	.Lnoise_BB79_26
	movq	%r12, %r14
	movq	%r13, %rax
	movq	%r11, %r8
	andq	$-2, %r8
	xorl	%edi, %edi
	movq	%r10, %rdx
	xorl	%ecx, %ecx
	jmp	.Lnoise_BB79_14
	.p2align	4
.Lnoise_BB79_13:
	addq	$48, %rdx
	addq	%r9, %rdi
	addq	$2, %rcx
	cmpq	%r8, %rcx
	je	.Lnoise_BB79_24
.Lnoise_BB79_14:
	movq	16(%rdx), %r11
	xorl	%r9d, %r9d
	movq	%rdx, %r12
.Lnoise_BB79_15:
	movq	%r12, %r13
	.p2align	4
.Lnoise_BB79_16:
	testq	%r11, %r11
	je	.Lnoise_BB79_19
	leaq	1(%r13), %r12
	decq	%r11
	cmpb	$6, (%r13)
	movq	%r12, %r13
	jne	.Lnoise_BB79_16
	incq	%r9
	jmp	.Lnoise_BB79_15
	.p2align	4
.Lnoise_BB79_19:
	leaq	24(%rdx), %r13
	addq	%r9, %rdi
	movq	40(%rdx), %r11
	xorl	%r9d, %r9d
.Lnoise_BB79_20:
	movq	%r13, %r12
	.p2align	4
.Lnoise_BB79_21:
	testq	%r11, %r11
	je	.Lnoise_BB79_13
	leaq	1(%r12), %r13
	decq	%r11
	cmpb	$6, (%r12)
	movq	%r13, %r12
	jne	.Lnoise_BB79_21
	incq	%r9
	jmp	.Lnoise_BB79_20
.Lnoise_BB79_24:
	movq	%rbx, %r11
	testb	$1, %r11b
	movq	%rax, %r13
	movq	%r14, %r12
	jne	.Lnoise_BB79_27
	jmp	.Lnoise_BB79_33
.Lnoise_BB79_25:
	movq	%rbp, %r15
	testb	%r14b, %r14b
	leaq	2120(%rsp), %r9
	leaq	2104(%rsp), %r8
	movq	%r9, %rdi
	cmovneq	%r8, %rdi
	leaq	2128(%rsp), %rcx
	leaq	2112(%rsp), %r11
	movq	%rcx, %rax
	cmovneq	%r11, %rax
	movq	(%rax), %rdx
	xorl	%esi, %esi
	jmp	.Lnoise_BB79_55
.Lnoise_BB79_26:
	xorl	%edi, %edi
	movq	%r10, %rdx
.Lnoise_BB79_27:
	movq	16(%rdx), %r8
	xorl	%ecx, %ecx
.Lnoise_BB79_28:
	movq	%rdx, %r9
	.p2align	4
.Lnoise_BB79_29:
	testq	%r8, %r8
	je	.Lnoise_BB79_32
	leaq	1(%r9), %rdx
	decq	%r8
	cmpb	$6, (%r9)
	movq	%rdx, %r9
	jne	.Lnoise_BB79_29
	incq	%rcx
	jmp	.Lnoise_BB79_28
.Lnoise_BB79_32:
	addq	%rcx, %rdi
.Lnoise_BB79_33:
	leaq	2104(%rsp), %r8
	movq	2112(%rsp), %rax
	movq	%rax, 64(%rsp)
	movq	2128(%rsp), %rdx
	testq	%rsi, %rsi
	je	.Lnoise_BB79_47
	movq	%r13, %r15
	movq	%rbp, %r14
	movq	%r11, %rcx
	andq	$-2, %rcx
	xorl	%esi, %esi
	movq	%r10, %rax
	xorl	%r13d, %r13d
	jmp	.Lnoise_BB79_36
	.p2align	4
.Lnoise_BB79_35:
	addq	$48, %rax
	addq	%r9, %rsi
	addq	$2, %r13
	cmpq	%rcx, %r13
	je	.Lnoise_BB79_46
.Lnoise_BB79_36:
	movq	16(%rax), %rbp
	xorl	%r9d, %r9d
	movq	%rax, %r11
.Lnoise_BB79_37:
	movq	%r11, %r12
	.p2align	4
.Lnoise_BB79_38:
	testq	%rbp, %rbp
	je	.Lnoise_BB79_41
	leaq	1(%r12), %r11
	decq	%rbp
	cmpb	$6, (%r12)
	movq	%r11, %r12
	jne	.Lnoise_BB79_38
	incq	%r9
	jmp	.Lnoise_BB79_37
	.p2align	4
.Lnoise_BB79_41:
	leaq	24(%rax), %r12
	addq	%r9, %rsi
	movq	40(%rax), %rbp
	xorl	%r9d, %r9d
.Lnoise_BB79_42:
	movq	%r12, %r11
	.p2align	4
.Lnoise_BB79_43:
	testq	%rbp, %rbp
	je	.Lnoise_BB79_35
	leaq	1(%r11), %r12
	decq	%rbp
	cmpb	$6, (%r11)
	movq	%r12, %r11
	jne	.Lnoise_BB79_43
	incq	%r9
	jmp	.Lnoise_BB79_42
.Lnoise_BB79_46:
	testb	$1, %bl
	movq	24(%rsp), %r12
	movq	%r14, %rbp
	movq	%r15, %r13
	movzbl	5(%rsp), %r14d
	jne	.Lnoise_BB79_48
	jmp	.Lnoise_BB79_54
.Lnoise_BB79_47:
	xorl	%esi, %esi
	movq	%r10, %rax
	movzbl	5(%rsp), %r14d
.Lnoise_BB79_48:
	movq	16(%rax), %r9
	xorl	%ecx, %ecx
.Lnoise_BB79_49:
	movq	%rax, %r11
	.p2align	4
.Lnoise_BB79_50:
	testq	%r9, %r9
	je	.Lnoise_BB79_53
	leaq	1(%r11), %rax
	decq	%r9
	cmpb	$6, (%r11)
	movq	%rax, %r11
	jne	.Lnoise_BB79_50
	incq	%rcx
	jmp	.Lnoise_BB79_49
.Lnoise_BB79_53:
	addq	%rcx, %rsi
.Lnoise_BB79_54:
	movq	%rbp, %r15
	movq	48(%rsp), %rax
	cmpq	%rax, %rdi
	cmovaq	%rdi, %rax
	movq	%rax, 48(%rsp)
	leaq	2128(%rsp), %rcx
	leaq	2112(%rsp), %r11
	testb	%r14b, %r14b
	leaq	2120(%rsp), %r9
	movq	%r9, %rdi
	cmovneq	%r8, %rdi
	cmovneq	64(%rsp), %rdx
.Lnoise_BB79_55:
	movq	16(%rsp), %rax
	addq	40(%rsp), %rax
	movq	%rax, 16(%rsp)
	leaq	1(%r12), %rax
	movq	%rax, 40(%rsp)
	leaq	34(%r12), %rax
	movq	%rax, 808(%rsp)
	movq	%r12, %rbp
	leaq	134(%r12), %rax
	movq	%rax, 64(%rsp)
	testb	%r14b, %r14b
	cmovneq	%r9, %r8
	cmovneq	%rcx, %r11
	movq	(%r11), %rcx
	xorl	%eax, %eax
	.p2align	4
.Lnoise_BB79_56:
	cmpq	%rax, %rcx
	je	.Lnoise_BB79_58
	cmpb	$0, (%r8,%rax)
	leaq	1(%rax), %rax
	jne	.Lnoise_BB79_56
	jmp	.Lnoise_BB79_65
.Lnoise_BB79_58:
	testq	%rbx, %rbx
	je	.Lnoise_BB79_66
	xorl	%r9d, %r9d
	movq	%rbx, %r11
	movq	%r10, %r14
	jmp	.Lnoise_BB79_61
.Lnoise_BB79_60:
	addq	$24, %r14
	decq	%r11
	xorb	$1, %r9b
	testq	%r11, %r11
	je	.Lnoise_BB79_66
.Lnoise_BB79_61:
	cmpb	8(%rsp), %r9b
	jne	.Lnoise_BB79_60
	movq	16(%r14), %r12
	xorl	%eax, %eax
	.p2align	4
.Lnoise_BB79_63:
	cmpq	%rax, %r12
	je	.Lnoise_BB79_60
	cmpb	$0, (%r14,%rax)
	leaq	1(%rax), %rax
	jne	.Lnoise_BB79_63
.Lnoise_BB79_65:
	movq	40(%rsp), %rax
	cmpb	$0, (%rax)
	je	.Lnoise_BB79_96
.Lnoise_BB79_66:
	xorl	%eax, %eax
	movq	%rbp, %r12
	.p2align	4
.Lnoise_BB79_67:
	cmpq	%rax, %rcx
	je	.Lnoise_BB79_69
	cmpb	$1, (%r8,%rax)
	leaq	1(%rax), %rax
	jne	.Lnoise_BB79_67
	jmp	.Lnoise_BB79_76
.Lnoise_BB79_69:
	testq	%rbx, %rbx
	je	.Lnoise_BB79_77
	xorl	%ecx, %ecx
	jmp	.Lnoise_BB79_72
.Lnoise_BB79_71:
	addq	$24, %r10
	decq	%rbx
	xorb	$1, %cl
	testq	%rbx, %rbx
	je	.Lnoise_BB79_77
.Lnoise_BB79_72:
	cmpb	8(%rsp), %cl
	jne	.Lnoise_BB79_71
	movq	16(%r10), %r8
	xorl	%eax, %eax
	.p2align	4
.Lnoise_BB79_74:
	cmpq	%rax, %r8
	je	.Lnoise_BB79_71
	cmpb	$1, (%r10,%rax)
	leaq	1(%rax), %rax
	jne	.Lnoise_BB79_74
.Lnoise_BB79_76:
	leaq	34(%r12), %rax
	cmpb	$0, (%rax)
	je	.Lnoise_BB79_97
.Lnoise_BB79_77:
	xorl	%eax, %eax
	.p2align	4
.Lnoise_BB79_78:
	cmpq	%rax, %rdx
	je	.Lnoise_BB79_81
	cmpb	$0, (%rdi,%rax)
	leaq	1(%rax), %rax
	jne	.Lnoise_BB79_78
	cmpb	$0, 7(%rsp)
	je	.Lnoise_BB79_105
.Lnoise_BB79_81:
	xorl	%eax, %eax
	.p2align	4
.Lnoise_BB79_82:
	cmpq	%rax, %rdx
	je	.Lnoise_BB79_85
	cmpb	$1, (%rdi,%rax)
	leaq	1(%rax), %rax
	jne	.Lnoise_BB79_82
	cmpb	$0, 6(%rsp)
	je	.Lnoise_BB79_105
.Lnoise_BB79_85:
	testb	%r15b, %r15b
	je	.Lnoise_BB79_89
	xorl	%eax, %eax
	.p2align	4
.Lnoise_BB79_87:
	cmpq	%rax, %rdx
	je	.Lnoise_BB79_108
	cmpb	$0, (%rdi,%rax)
	leaq	1(%rax), %rax
	jne	.Lnoise_BB79_87
.Lnoise_BB79_89:
	testb	%r13b, %r13b
	je	.Lnoise_BB79_93
	xorl	%eax, %eax
.Lnoise_BB79_91:
	cmpq	%rax, %rdx
	je	.Lnoise_BB79_108
	cmpb	$1, (%rdi,%rax)
	leaq	1(%rax), %rax
	jne	.Lnoise_BB79_91
.Lnoise_BB79_93:
	movl	$8, %eax
	cmpq	%rsi, 48(%rsp)
	jne	.Lnoise_BB79_109
	xorps	%xmm0, %xmm0
	movaps	%xmm0, 1328(%rsp)
	movaps	%xmm0, 1344(%rsp)
	movaps	%xmm0, 1360(%rsp)
	movaps	%xmm0, 1376(%rsp)
	movaps	%xmm0, 976(%rsp)
	movaps	%xmm0, 992(%rsp)
	movq	$0, 1007(%rsp)
	leaq	1536(%rsp), %rdi
	movl	$272, %edx
	leaq	2616(%rsp), %rsi
	callq	memcpy@PLT
	movaps	640(%rsp), %xmm0
	movaps	656(%rsp), %xmm1
	movaps	%xmm0, 1888(%rsp)
	movaps	%xmm1, 1904(%rsp)
	movaps	608(%rsp), %xmm0
	movaps	624(%rsp), %xmm1
	movaps	%xmm0, 1856(%rsp)
	movaps	%xmm1, 1872(%rsp)
	leaq	1608(%rsp), %r14
	movq	1800(%rsp), %rbp
	testq	%rbp, %rbp
	je	.Lnoise_BB79_103
	xorl	%eax, %eax
	movq	%r14, %rcx
	jmp	.Lnoise_BB79_99
.Lnoise_BB79_96:
	movl	$4, %eax
	movq	%rbp, %r12
	jmp	.Lnoise_BB79_109
.Lnoise_BB79_97:
	movl	$5, %eax
	jmp	.Lnoise_BB79_109
.Lnoise_BB79_105:
	movl	$6, %eax
	jmp	.Lnoise_BB79_109
.Lnoise_BB79_108:
	movl	$7, %eax
.Lnoise_BB79_109:
	xorps	%xmm0, %xmm0
	movaps	%xmm0, 784(%rsp)
	movaps	%xmm0, 768(%rsp)
	movaps	%xmm0, 736(%rsp)
	movaps	%xmm0, 752(%rsp)
	movaps	%xmm0, 672(%rsp)
	movaps	%xmm0, 688(%rsp)
	movaps	%xmm0, 704(%rsp)
	movaps	%xmm0, 720(%rsp)
	movaps	%xmm0, 240(%rsp)
	movaps	%xmm0, 256(%rsp)
	movq	$0, 271(%rsp)
	xorl	%r8d, %r8d
	xorl	%ecx, %ecx
	xorl	%esi, %esi
	xorl	%r13d, %r13d
	xorl	%edi, %edi
.Lnoise_BB79_110:
	movq	64(%rsp), %rbx
	movaps	768(%rsp), %xmm0
	movaps	784(%rsp), %xmm1
	movaps	%xmm0, 1104(%rsp)
	movaps	%xmm1, 1120(%rsp)
	movaps	736(%rsp), %xmm0
	movaps	752(%rsp), %xmm1
	movaps	%xmm0, 1072(%rsp)
	movaps	%xmm1, 1088(%rsp)
	movaps	672(%rsp), %xmm0
	movaps	688(%rsp), %xmm1
	movaps	704(%rsp), %xmm2
	movaps	720(%rsp), %xmm3
	movaps	%xmm0, 1472(%rsp)
	movaps	%xmm1, 1488(%rsp)
	movaps	%xmm2, 1504(%rsp)
	movaps	%xmm3, 1520(%rsp)
	movq	271(%rsp), %rdx
	movq	%rdx, 1055(%rsp)
	movaps	240(%rsp), %xmm0
	movaps	256(%rsp), %xmm1
	movaps	%xmm1, 1040(%rsp)
	movaps	%xmm0, 1024(%rsp)
	testb	%cl, %cl
	je	.Lnoise_BB79_165
	movq	%r8, 8(%rsp)
	movq	%rdi, 16(%rsp)
	movq	%r13, 56(%rsp)
	movq	%rsi, 32(%rsp)
	movzbl	133(%r12), %ebp
	movq	72(%rsp), %rax
	movl	$1315897601, (%rax)
	leaq	558(%rax), %rdi
	movl	%ebp, %r13d
	shll	$5, %r13d
	movq	%rdi, %r14
	subq	%r13, %r14
	addq	$288, %r14
	movq	%r14, %r12
	subq	%rbx, %r12
	movl	$288, %edx
	xorl	%esi, %esi
	callq	memset@PLT
	cmpq	%r13, %r12
	jae	.Lnoise_BB79_114
	movl	%ebp, %eax
	andl	$7, %eax
	leal	-1(%rbp), %ecx
	cmpb	$7, %cl
	movq	192(%rsp), %r12
	movq	216(%rsp), %rsi
	movq	208(%rsp), %r10
	jae	.Lnoise_BB79_115
	xorl	%ecx, %ecx
	movq	24(%rsp), %r14
	movq	72(%rsp), %rbx
	jmp	.Lnoise_BB79_118
.Lnoise_BB79_114:
	movq	%r14, %rdi
	movq	%rbx, %rsi
	movq	%r13, %rdx
	callq	memmove@PLT
	movq	24(%rsp), %r14
	movq	192(%rsp), %r12
	movq	216(%rsp), %rsi
	movq	72(%rsp), %rbx
	movq	208(%rsp), %r10
	jmp	.Lnoise_BB79_120
.Lnoise_BB79_115:
	andl	$-8, %ebp
	movq	72(%rsp), %rbx
	movq	%rbx, %rdx
	subq	%r13, %rdx
	addq	$1070, %rdx
	movq	24(%rsp), %rcx
	leaq	358(%rcx), %r8
	xorl	%ecx, %ecx
	xorl	%edi, %edi
	.p2align	4
.Lnoise_BB79_116:
	movups	-224(%r8,%rdi), %xmm0
	movups	-208(%r8,%rdi), %xmm1
	movups	%xmm1, -208(%rdx,%rdi)
	movups	%xmm0, -224(%rdx,%rdi)
	movups	-192(%r8,%rdi), %xmm0
	movups	-176(%r8,%rdi), %xmm1
	movups	%xmm1, -176(%rdx,%rdi)
	movups	%xmm0, -192(%rdx,%rdi)
	movups	-160(%r8,%rdi), %xmm0
	movups	-144(%r8,%rdi), %xmm1
	movups	%xmm1, -144(%rdx,%rdi)
	movups	%xmm0, -160(%rdx,%rdi)
	movups	-128(%r8,%rdi), %xmm0
	movups	-112(%r8,%rdi), %xmm1
	movups	%xmm1, -112(%rdx,%rdi)
	movups	%xmm0, -128(%rdx,%rdi)
	movups	-96(%r8,%rdi), %xmm0
	movups	-80(%r8,%rdi), %xmm1
	movups	%xmm1, -80(%rdx,%rdi)
	movups	%xmm0, -96(%rdx,%rdi)
	movups	-64(%r8,%rdi), %xmm0
	movups	-48(%r8,%rdi), %xmm1
	movups	%xmm1, -48(%rdx,%rdi)
	movups	%xmm0, -64(%rdx,%rdi)
	movups	-32(%r8,%rdi), %xmm0
	movups	-16(%r8,%rdi), %xmm1
	movups	%xmm1, -16(%rdx,%rdi)
	movups	%xmm0, -32(%rdx,%rdi)
	movups	(%r8,%rdi), %xmm0
	movups	16(%r8,%rdi), %xmm1
	movups	%xmm1, 16(%rdx,%rdi)
	movups	%xmm0, (%rdx,%rdi)
	addq	$8, %rcx
	addq	$256, %rdi
	cmpq	%rcx, %rbp
	jne	.Lnoise_BB79_116
	testq	%rax, %rax
	movq	24(%rsp), %r14
	je	.Lnoise_BB79_120
.Lnoise_BB79_118:
	shlq	$5, %rcx
	leaq	(%rcx,%r14), %rdx
	addq	$134, %rdx
	subq	%r13, %rcx
	addq	%rbx, %rcx
	addq	$846, %rcx
	shll	$5, %eax
	xorl	%edi, %edi
	.p2align	4
.Lnoise_BB79_119:
	movups	(%rdx,%rdi), %xmm0
	movups	16(%rdx,%rdi), %xmm1
	movups	%xmm1, 16(%rcx,%rdi)
	movups	%xmm0, (%rcx,%rdi)
	addq	$32, %rdi
	cmpq	%rdi, %rax
	jne	.Lnoise_BB79_119
.Lnoise_BB79_120:
	leaq	4(%rbx), %rdi
	movq	%rdi, %rax
	subq	%rsi, %rax
	cmpq	%r12, %rax
	movq	32(%rsp), %r13
	jae	.Lnoise_BB79_123
	cmpq	$4, %r12
	jae	.Lnoise_BB79_124
	xorl	%eax, %eax
	movq	200(%rsp), %r8
	jmp	.Lnoise_BB79_149
.Lnoise_BB79_123:
	movq	%r12, %rdx
	callq	memmove@PLT
	jmp	.Lnoise_BB79_155
.Lnoise_BB79_124:
	movq	%rbx, %rax
	subq	%rsi, %rax
	addq	$4, %rax
	cmpq	$32, %rax
	movq	200(%rsp), %r8
	jae	.Lnoise_BB79_126
	xorl	%eax, %eax
	jmp	.Lnoise_BB79_149
.Lnoise_BB79_98:
	incq	%rax
	addq	$24, %rcx
	cmpq	%rbp, %rax
	je	.Lnoise_BB79_103
.Lnoise_BB79_99:
	leaq	(%rax,%rax,2), %rdx
	movq	1624(%rsp,%rdx,8), %rdx
	testq	%rdx, %rdx
	je	.Lnoise_BB79_98
	xorl	%esi, %esi
.Lnoise_BB79_101:
	cmpb	$6, (%rcx,%rsi)
	je	.Lnoise_BB79_103
	incq	%rsi
	cmpq	%rsi, %rdx
	jne	.Lnoise_BB79_101
	jmp	.Lnoise_BB79_98
.Lnoise_BB79_103:
	xorps	%xmm0, %xmm0
	movaps	%xmm0, 2352(%rsp)
	movaps	%xmm0, 2336(%rsp)
	movq	40(%rsp), %rax
	cmpb	$0, (%rax)
	je	.Lnoise_BB79_128
	movups	2(%r12), %xmm0
	movups	18(%r12), %xmm1
	movaps	%xmm1, 2352(%rsp)
	movaps	%xmm0, 2336(%rsp)
	movb	$1, %bl
	jmp	.Lnoise_BB79_129
.Lnoise_BB79_126:
	cmpq	$32, %r12
	jae	.Lnoise_BB79_142
	xorl	%eax, %eax
	jmp	.Lnoise_BB79_146
.Lnoise_BB79_128:
	xorl	%ebx, %ebx
.Lnoise_BB79_129:
	movq	%r15, 32(%rsp)
	xorps	%xmm2, %xmm2
	movaps	%xmm2, 352(%rsp)
	movaps	%xmm2, 336(%rsp)
	leaq	34(%r12), %rax
	cmpb	$0, (%rax)
	je	.Lnoise_BB79_131
	movups	35(%r12), %xmm0
	movups	51(%r12), %xmm1
	movaps	%xmm1, 352(%rsp)
	movaps	%xmm0, 336(%rsp)
	movb	$1, %r15b
	jmp	.Lnoise_BB79_132
.Lnoise_BB79_131:
	xorl	%r15d, %r15d
.Lnoise_BB79_132:
	movaps	2336(%rsp), %xmm0
	movaps	2352(%rsp), %xmm1
	movaps	%xmm1, 1312(%rsp)
	movaps	%xmm0, 1296(%rsp)
	movaps	336(%rsp), %xmm0
	movaps	352(%rsp), %xmm1
	movaps	%xmm0, 1264(%rsp)
	movaps	%xmm1, 1280(%rsp)
	movaps	%xmm2, 1392(%rsp)
	movaps	%xmm2, 1408(%rsp)
	movaps	%xmm2, 1424(%rsp)
	movaps	%xmm2, 1440(%rsp)
	movw	$0, 1456(%rsp)
	leaq	2336(%rsp), %rdi
	movl	$264, %edx
	xorl	%esi, %esi
	callq	memset@PLT
	xorps	%xmm0, %xmm0
	movaps	%xmm0, 816(%rsp)
	movaps	%xmm0, 832(%rsp)
	movaps	%xmm0, 848(%rsp)
	movaps	%xmm0, 864(%rsp)
	movaps	%xmm0, 880(%rsp)
	movaps	%xmm0, 896(%rsp)
	movaps	%xmm0, 912(%rsp)
	leaq	2888(%rsp), %rdi
	movl	$264, %edx
	xorl	%esi, %esi
	callq	memset@PLT
	xorps	%xmm0, %xmm0
	movaps	%xmm0, 1808(%rsp)
	movaps	%xmm0, 1824(%rsp)
	movq	$0, 1840(%rsp)
	movaps	%xmm0, 288(%rsp)
	movaps	%xmm0, 304(%rsp)
	movq	$0, 320(%rsp)
	movq	%rbp, %r8
	testq	%rbp, %rbp
	je	.Lnoise_BB79_140
	xorl	%eax, %eax
	movl	%r15d, %r9d
	movq	32(%rsp), %rbp
	jmp	.Lnoise_BB79_135
.Lnoise_BB79_134:
	incq	%rax
	addq	$24, %r14
	cmpq	%r8, %rax
	je	.Lnoise_BB79_166
.Lnoise_BB79_135:
	leaq	(%rax,%rax,2), %rcx
	movq	1624(%rsp,%rcx,8), %rcx
	testq	%rcx, %rcx
	je	.Lnoise_BB79_134
	xorl	%edx, %edx
.Lnoise_BB79_137:
	cmpb	$6, (%r14,%rdx)
	je	.Lnoise_BB79_139
	incq	%rdx
	cmpq	%rdx, %rcx
	jne	.Lnoise_BB79_137
	jmp	.Lnoise_BB79_134
.Lnoise_BB79_139:
	movb	$1, %sil
	movzbl	5(%rsp), %edx
	testb	%dl, %dl
	je	.Lnoise_BB79_167
.Lnoise_BB79_141:
	movaps	640(%rsp), %xmm0
	movaps	656(%rsp), %xmm1
	movaps	%xmm1, 352(%rsp)
	movaps	%xmm0, 336(%rsp)
	movaps	608(%rsp), %xmm0
	movaps	624(%rsp), %xmm1
	movaps	%xmm0, 80(%rsp)
	movaps	%xmm1, 96(%rsp)
	movl	%ebp, %ecx
	movl	%r13d, %eax
	jmp	.Lnoise_BB79_168
.Lnoise_BB79_140:
	xorl	%esi, %esi
	movl	%r15d, %r9d
	movq	32(%rsp), %rbp
	movzbl	5(%rsp), %edx
	testb	%dl, %dl
	jne	.Lnoise_BB79_141
.Lnoise_BB79_167:
	movaps	1296(%rsp), %xmm0
	movaps	1312(%rsp), %xmm1
	movaps	%xmm1, 352(%rsp)
	movaps	%xmm0, 336(%rsp)
	movaps	1264(%rsp), %xmm0
	movaps	1280(%rsp), %xmm1
	movaps	%xmm0, 80(%rsp)
	movaps	%xmm1, 96(%rsp)
	movl	%ebx, %ecx
	movl	%r9d, %eax
.Lnoise_BB79_168:
	movq	%r8, %r15
	movaps	336(%rsp), %xmm0
	movaps	352(%rsp), %xmm1
	movaps	%xmm1, 1968(%rsp)
	movaps	%xmm0, 1952(%rsp)
	movaps	80(%rsp), %xmm2
	movaps	96(%rsp), %xmm3
	movaps	%xmm2, 1920(%rsp)
	movaps	%xmm3, 1936(%rsp)
	movb	%cl, 1998(%rsp)
	movups	%xmm0, 1999(%rsp)
	movups	%xmm1, 2015(%rsp)
	movb	%al, 2031(%rsp)
	movups	%xmm2, 2032(%rsp)
	movups	%xmm3, 2048(%rsp)
	testb	%dl, %dl
	movl	%esi, 8(%rsp)
	leaq	1536(%rsp), %r8
	je	.Lnoise_BB79_170
	movaps	1296(%rsp), %xmm0
	movaps	1312(%rsp), %xmm1
	movaps	%xmm1, 352(%rsp)
	movaps	%xmm0, 336(%rsp)
	movaps	1264(%rsp), %xmm0
	movaps	1280(%rsp), %xmm1
	movaps	%xmm0, 80(%rsp)
	movaps	%xmm1, 96(%rsp)
	jmp	.Lnoise_BB79_171
.Lnoise_BB79_170:
	movaps	640(%rsp), %xmm0
	movaps	656(%rsp), %xmm1
	movaps	%xmm1, 352(%rsp)
	movaps	%xmm0, 336(%rsp)
	movaps	608(%rsp), %xmm0
	movaps	624(%rsp), %xmm1
	movaps	%xmm0, 80(%rsp)
	movaps	%xmm1, 96(%rsp)
	movl	%ebp, %ebx
	movl	%r13d, %r9d
.Lnoise_BB79_171:
	movaps	336(%rsp), %xmm0
	movaps	352(%rsp), %xmm1
	movaps	%xmm1, 1968(%rsp)
	movaps	%xmm0, 1952(%rsp)
	movdqa	80(%rsp), %xmm2
	movdqa	96(%rsp), %xmm3
	movdqa	%xmm2, 1920(%rsp)
	movdqa	%xmm3, 1936(%rsp)
	movb	%bl, 1392(%rsp)
	movups	%xmm0, 1393(%rsp)
	movups	%xmm1, 1409(%rsp)
	movb	%r9b, 1425(%rsp)
	movdqu	%xmm2, 1426(%rsp)
	movdqu	%xmm3, 1442(%rsp)
	movq	1584(%rsp), %rax
	movq	%rax, 48(%rsp)
	movq	1600(%rsp), %rbx
	xorps	%xmm0, %xmm0
	movaps	%xmm0, 336(%rsp)
	movaps	%xmm0, 352(%rsp)
	movq	$0, 368(%rsp)
	movq	1544(%rsp), %r14
	movq	1568(%rsp), %rcx
	movaps	%xmm0, 80(%rsp)
	movq	$0, 96(%rsp)
	testq	%rcx, %rcx
	je	.Lnoise_BB79_179
	movl	%ecx, %eax
	andl	$3, %eax
	cmpq	$4, %rcx
	jae	.Lnoise_BB79_174
	xorl	%edx, %edx
	jmp	.Lnoise_BB79_177
.Lnoise_BB79_142:
	movq	%r12, %rax
	andq	$-32, %rax
	leaq	(%r10,%r8), %rcx
	addq	$16, %rcx
	xorl	%edx, %edx
.Lnoise_BB79_143:
	movups	-16(%rcx,%rdx), %xmm0
	movups	(%rcx,%rdx), %xmm1
	movups	%xmm0, 4(%rbx,%rdx)
	movups	%xmm1, 20(%rbx,%rdx)
	addq	$32, %rdx
	cmpq	%rdx, %rax
	jne	.Lnoise_BB79_143
	cmpq	%rax, %r12
	je	.Lnoise_BB79_155
	testb	$28, %r12b
	je	.Lnoise_BB79_149
.Lnoise_BB79_146:
	movq	%rax, %rcx
	movq	%r12, %rax
	andq	$-4, %rax
.Lnoise_BB79_147:
	movl	(%rsi,%rcx), %edx
	movl	%edx, (%rdi,%rcx)
	addq	$4, %rcx
	cmpq	%rcx, %rax
	jne	.Lnoise_BB79_147
	cmpq	%rax, %r12
	je	.Lnoise_BB79_155
.Lnoise_BB79_149:
	movq	%r12, %rdx
	movq	%rax, %rcx
	andq	$3, %rdx
	je	.Lnoise_BB79_152
	movq	%rax, %rcx
	.p2align	4
.Lnoise_BB79_151:
	movzbl	(%rsi,%rcx), %r9d
	movb	%r9b, (%rdi,%rcx)
	incq	%rcx
	decq	%rdx
	jne	.Lnoise_BB79_151
.Lnoise_BB79_152:
	subq	%r12, %rax
	cmpq	$-4, %rax
	ja	.Lnoise_BB79_155
	leaq	(%r10,%r8), %rax
	addq	$3, %rax
	.p2align	4
.Lnoise_BB79_154:
	movzbl	-3(%rax,%rcx), %edx
	movb	%dl, 4(%rbx,%rcx)
	movzbl	-2(%rax,%rcx), %edx
	movb	%dl, 5(%rbx,%rcx)
	movzbl	-1(%rax,%rcx), %edx
	movb	%dl, 6(%rbx,%rcx)
	movzbl	(%rax,%rcx), %edx
	movb	%dl, 7(%rbx,%rcx)
	addq	$4, %rcx
	cmpq	%rcx, %r12
	jne	.Lnoise_BB79_154
.Lnoise_BB79_155:
	movw	%r12w, 420(%rbx)
	movzbl	(%r14), %eax
	movb	%al, 422(%rbx)
	movq	40(%rsp), %r15
	movups	(%r15), %xmm0
	movups	16(%r15), %xmm1
	movzbl	32(%r15), %eax
	movb	%al, 457(%rbx)
	movups	%xmm1, 441(%rbx)
	movups	%xmm0, 425(%rbx)
	movq	808(%rsp), %r15
	movups	(%r15), %xmm0
	movups	16(%r15), %xmm1
	movzbl	32(%r15), %eax
	movb	%al, 490(%rbx)
	movups	%xmm1, 474(%rbx)
	movups	%xmm0, 458(%rbx)
	leaq	846(%rbx), %rdi
	movl	$521, %edx
	xorl	%esi, %esi
	callq	memset@PLT
	testb	%r13b, %r13b
	je	.Lnoise_BB79_157
	movaps	1104(%rsp), %xmm0
	movaps	1120(%rsp), %xmm1
	movaps	%xmm1, 2080(%rsp)
	jmp	.Lnoise_BB79_158
.Lnoise_BB79_157:
	xorps	%xmm0, %xmm0
	movaps	%xmm0, 2080(%rsp)
.Lnoise_BB79_158:
	movaps	%xmm0, 2064(%rsp)
	movq	16(%rsp), %rsi
	movq	8(%rsp), %rdi
	leaq	1504(%rsp), %rax
	movzbl	133(%r14), %ecx
	movb	%r13b, 491(%rbx)
	movaps	2064(%rsp), %xmm0
	movaps	2080(%rsp), %xmm1
	movups	%xmm0, 492(%rbx)
	movups	%xmm1, 508(%rbx)
	movq	56(%rsp), %rdx
	testb	%dl, %dl
	je	.Lnoise_BB79_160
	movaps	1072(%rsp), %xmm0
	movaps	1088(%rsp), %xmm1
	movaps	%xmm1, 1552(%rsp)
	jmp	.Lnoise_BB79_161
.Lnoise_BB79_160:
	xorps	%xmm0, %xmm0
	movaps	%xmm0, 1552(%rsp)
.Lnoise_BB79_161:
	movaps	%xmm0, 1536(%rsp)
	movaps	1536(%rsp), %xmm0
	movaps	1552(%rsp), %xmm1
	movaps	%xmm1, 2080(%rsp)
	movaps	%xmm0, 2064(%rsp)
	movb	%dl, 524(%rbx)
	movaps	2064(%rsp), %xmm0
	movaps	2080(%rsp), %xmm1
	movups	%xmm0, 525(%rbx)
	movups	%xmm1, 541(%rbx)
	movb	%cl, 557(%rbx)
	movw	$0, 423(%rbx)
	movaps	1472(%rsp), %xmm0
	movaps	1488(%rsp), %xmm1
	movups	%xmm0, 1367(%rbx)
	movups	%xmm1, 1383(%rbx)
	movups	(%rax), %xmm0
	movups	16(%rax), %xmm1
	movups	%xmm0, 1399(%rbx)
	movups	%xmm1, 1415(%rbx)
	cmpb	$1, %sil
	jne	.Lnoise_BB79_163
	movaps	1024(%rsp), %xmm0
	movaps	1040(%rsp), %xmm1
	movaps	%xmm1, 1552(%rsp)
	jmp	.Lnoise_BB79_164
.Lnoise_BB79_163:
	xorps	%xmm0, %xmm0
	movaps	%xmm0, 1552(%rsp)
.Lnoise_BB79_164:
	movaps	%xmm0, 1536(%rsp)
	movaps	1536(%rsp), %xmm0
	movaps	1552(%rsp), %xmm1
	movaps	%xmm1, 2080(%rsp)
	movaps	%xmm0, 2064(%rsp)
	movb	%sil, 1431(%rbx)
	movaps	2064(%rsp), %xmm0
	movaps	2080(%rsp), %xmm1
	movups	%xmm0, 1432(%rbx)
	movups	%xmm1, 1448(%rbx)
	movq	%rdi, 1464(%rbx)
	xorl	%eax, %eax
.Lnoise_BB79_165:
	addq	$3288, %rsp
	.cfi_def_cfa_offset 56
	popq	%rbx
	.cfi_def_cfa_offset 48
	popq	%r12
	.cfi_def_cfa_offset 40
	popq	%r13
	.cfi_def_cfa_offset 32
	popq	%r14
	.cfi_def_cfa_offset 24
	popq	%r15
	.cfi_def_cfa_offset 16
	popq	%rbp
	.cfi_def_cfa_offset 8
	retq
.Lnoise_BB79_174:
	.cfi_def_cfa_offset 3344
	andq	$-4, %rcx
	xorl	%edx, %edx
.Lnoise_BB79_175:
	movzbl	1552(%rsp,%rdx), %esi
	movzbl	1553(%rsp,%rdx), %edi
	movb	%sil, 80(%rsp,%rdx)
	leaq	1(%rdx), %rsi
	movq	%rsi, 96(%rsp)
	movb	%dil, 81(%rsp,%rdx)
	leaq	2(%rdx), %rsi
	movq	%rsi, 96(%rsp)
	movzbl	1554(%rsp,%rdx), %esi
	movb	%sil, 82(%rsp,%rdx)
	leaq	3(%rdx), %rsi
	movq	%rsi, 96(%rsp)
	movzbl	1555(%rsp,%rdx), %esi
	movb	%sil, 83(%rsp,%rdx)
	addq	$4, %rdx
	movq	%rdx, 96(%rsp)
	cmpq	%rdx, %rcx
	jne	.Lnoise_BB79_175
	testq	%rax, %rax
	je	.Lnoise_BB79_179
.Lnoise_BB79_177:
	leaq	1(%rdx), %rcx
	leaq	(%rsp,%rdx), %rsi
	addq	$80, %rsi
	addq	%r8, %rdx
	addq	$16, %rdx
	xorl	%edi, %edi
.Lnoise_BB79_178:
	movzbl	(%rdx,%rdi), %r8d
	movb	%r8b, (%rsi,%rdi)
	leaq	(%rcx,%rdi), %r8
	movq	%r8, 96(%rsp)
	incq	%rdi
	cmpq	%rdi, %rax
	jne	.Lnoise_BB79_178
.Lnoise_BB79_179:
	movq	96(%rsp), %rax
	movaps	80(%rsp), %xmm0
	movaps	%xmm0, 80(%rsp)
	movq	%rax, 96(%rsp)
	movq	$0, 224(%rsp)
	cmpq	$9, %r14
	jae	.Lnoise_BB79_204
	leaq	224(%rsp), %rdi
	leaq	1536(%rsp), %rsi
	movq	%r14, %rdx
	callq	memcpy@PLT
	movq	%r14, 232(%rsp)
	movups	224(%rsp), %xmm0
	movaps	80(%rsp), %xmm1
	movq	96(%rsp), %rax
	movq	%rax, 368(%rsp)
	movaps	%xmm1, 1824(%rsp)
	movq	%rax, 1840(%rsp)
	movaps	%xmm0, 1808(%rsp)
	movq	%rax, 320(%rsp)
	movaps	%xmm1, 304(%rsp)
	movaps	%xmm0, 288(%rsp)
	xorps	%xmm0, %xmm0
	movups	%xmm0, 576(%rsp)
	movups	%xmm0, 566(%rsp)
	movups	%xmm0, 550(%rsp)
	movups	%xmm0, 534(%rsp)
	movups	%xmm0, 518(%rsp)
	movups	%xmm0, 502(%rsp)
	movups	%xmm0, 486(%rsp)
	movups	%xmm0, 470(%rsp)
	movups	%xmm0, 454(%rsp)
	movups	%xmm0, 438(%rsp)
	movups	%xmm0, 422(%rsp)
	movups	%xmm0, 406(%rsp)
	movups	%xmm0, 390(%rsp)
	movups	%xmm0, 374(%rsp)
	movups	%xmm0, 358(%rsp)
	movups	%xmm0, 342(%rsp)
	movl	$1936289614, 336(%rsp)
	movw	$24421, 340(%rsp)
	movq	296(%rsp), %r14
	cmpq	$249, %r14
	ja	.Lnoise_BB79_204
	leaq	342(%rsp), %rdi
	leaq	288(%rsp), %rsi
	movq	%r14, %rdx
	callq	memcpy@PLT
	leaq	6(%r14), %rcx
	movq	320(%rsp), %rax
	testq	%rax, %rax
	je	.Lnoise_BB79_196
	cmpq	$246, %r14
	ja	.Lnoise_BB79_204
	leaq	(%rsp,%rcx), %rdx
	addq	$336, %rdx
	leaq	.Lnoise_static.51(%rip), %rcx
	movq	%rdx, %rsi
	subq	%rcx, %rsi
	cmpq	$3, %rsi
	jae	.Lnoise_BB79_185
	movw	$29552, (%rdx)
	movb	$107, 2(%rdx)
	jmp	.Lnoise_BB79_186
.Lnoise_BB79_185:
	movb	$107, 2(%rdx)
	movw	$29552, (%rdx)
.Lnoise_BB79_186:
	movzbl	304(%rsp), %edx
	addb	$48, %dl
	movb	%dl, 345(%rsp,%r14)
	cmpq	$1, %rax
	jne	.Lnoise_BB79_188
	addq	$10, %r14
	jmp	.Lnoise_BB79_195
.Lnoise_BB79_188:
	addq	$-242, %r14
	decq	%rax
	xorl	%edx, %edx
	jmp	.Lnoise_BB79_191
.Lnoise_BB79_189:
	movb	$107, 2(%rsi)
	movw	$29552, (%rsi)
.Lnoise_BB79_190:
	movzbl	305(%rsp,%rdx), %esi
	addb	$48, %sil
	movb	%sil, 592(%rsp,%r14)
	addq	$5, %r14
	incq	%rdx
	cmpq	%rdx, %rax
	je	.Lnoise_BB79_194
.Lnoise_BB79_191:
	movb	$43, 588(%rsp,%r14)
	cmpq	$3, %r14
	jb	.Lnoise_BB79_204
	leaq	(%rsp,%r14), %rsi
	addq	$589, %rsi
	movq	%rsi, %rdi
	subq	%rcx, %rdi
	cmpq	$2, %rdi
	ja	.Lnoise_BB79_189
	movw	$29552, 589(%rsp,%r14)
	movb	$107, 591(%rsp,%r14)
	jmp	.Lnoise_BB79_190
.Lnoise_BB79_194:
	addq	$252, %r14
.Lnoise_BB79_195:
	movq	%r14, %rcx
.Lnoise_BB79_196:
	leaq	-232(%rcx), %rax
	cmpq	$23, %rax
	jbe	.Lnoise_BB79_204
	movups	.Lnoise_static.98(%rip), %xmm0
	movups	%xmm0, 336(%rsp,%rcx)
	movabsq	$3906083507781459833, %rax
	movq	%rax, 352(%rsp,%rcx)
	addq	$24, %rcx
	movq	%rcx, 592(%rsp)
	leaq	2888(%rsp), %r14
	leaq	336(%rsp), %rsi
	movl	$264, %edx
	movq	%r14, %rdi
	callq	memcpy@PLT
	leaq	2336(%rsp), %rdi
	movl	$264, %edx
	movq	%r14, %rsi
	callq	memcpy@PLT
	movq	2592(%rsp), %rdx
	xorps	%xmm0, %xmm0
	cmpq	$33, %rdx
	jb	.Lnoise_BB79_199
	movaps	%xmm0, 160(%rsp)
	movaps	%xmm0, 144(%rsp)
	movaps	%xmm0, 128(%rsp)
	movaps	%xmm0, 112(%rsp)
	movq	$0, 176(%rsp)
	movaps	.Lnoise_CPI79_0(%rip), %xmm0
	movaps	%xmm0, 80(%rsp)
	movaps	.Lnoise_CPI79_1(%rip), %xmm0
	movaps	%xmm0, 96(%rsp)
	leaq	80(%rsp), %rdi
	leaq	2336(%rsp), %rsi
	callq	"sha2::block256::Core256::update"
	movq	%rbx, %rbp
	movq	%r13, %rbx
	movq	176(%rsp), %r13
	movq	%r13, 432(%rsp)
	movaps	160(%rsp), %xmm0
	movaps	%xmm0, 416(%rsp)
	movaps	144(%rsp), %xmm0
	movaps	%xmm0, 400(%rsp)
	movaps	80(%rsp), %xmm0
	movaps	96(%rsp), %xmm1
	movaps	112(%rsp), %xmm2
	movdqa	128(%rsp), %xmm3
	movdqa	%xmm3, 384(%rsp)
	movaps	%xmm2, 368(%rsp)
	movaps	%xmm1, 352(%rsp)
	movaps	%xmm0, 336(%rsp)
	movl	$55, %edx
	subl	%r13d, %edx
	andl	$63, %edx
	incq	%rdx
	leaq	.Lnoise_static.100(%rip), %rsi
	leaq	336(%rsp), %r14
	movq	%r14, %rdi
	callq	"sha2::block256::Core256::update"
	movq	%r13, %rax
	shrq	$53, %rax
	movzbl	%al, %eax
	movq	%r13, %rcx
	shlq	$59, %rcx
	movl	%r13d, %edx
	andl	$8160, %edx
	shlq	$43, %rdx
	orq	%rcx, %rdx
	movl	%r13d, %ecx
	andl	$2088960, %ecx
	shlq	$27, %rcx
	orq	%rdx, %rcx
	movl	%r13d, %edx
	andl	$534773760, %edx
	shlq	$11, %rdx
	orq	%rcx, %rdx
	movq	%r13, %rcx
	shrq	$5, %rcx
	andl	$-16777216, %ecx
	orq	%rdx, %rcx
	movq	%r13, %rdx
	shrq	$21, %rdx
	andl	$16711680, %edx
	orq	%rcx, %rdx
	shrq	$37, %r13
	andl	$65280, %r13d
	orq	%rdx, %r13
	orq	%rax, %r13
	movq	%r13, 224(%rsp)
	movq	%rbx, %r13
	movq	%rbp, %rbx
	movq	56(%rsp), %rbp
	leaq	224(%rsp), %rsi
	movl	$8, %edx
	movq	%r14, %rdi
	callq	"sha2::block256::Core256::update"
	movdqa	336(%rsp), %xmm0
	movdqa	352(%rsp), %xmm1
	movdqa	%xmm0, %xmm2
	pxor	%xmm3, %xmm3
	punpckhbw	%xmm3, %xmm2
	pshuflw	$27, %xmm2, %xmm2
	pshufhw	$27, %xmm2, %xmm2
	punpcklbw	%xmm3, %xmm0
	pshuflw	$27, %xmm0, %xmm0
	pshufhw	$27, %xmm0, %xmm0
	packuswb	%xmm2, %xmm0
	movdqa	%xmm1, %xmm2
	punpckhbw	%xmm3, %xmm2
	pshuflw	$27, %xmm2, %xmm2
	pshufhw	$27, %xmm2, %xmm2
	punpcklbw	%xmm3, %xmm1
	pshuflw	$27, %xmm1, %xmm1
	pshufhw	$27, %xmm1, %xmm1
	packuswb	%xmm2, %xmm1
	jmp	.Lnoise_BB79_200
.Lnoise_BB79_199:
	movaps	%xmm0, 352(%rsp)
	movaps	%xmm0, 336(%rsp)
	leaq	336(%rsp), %rdi
	leaq	2336(%rsp), %rsi
	callq	memcpy@PLT
	movdqa	336(%rsp), %xmm0
	movdqa	352(%rsp), %xmm1
	movq	56(%rsp), %rbp
.Lnoise_BB79_200:
	movdqa	%xmm0, 816(%rsp)
	movdqa	%xmm1, 832(%rsp)
	leaq	848(%rsp), %rsi
	movdqa	%xmm0, 848(%rsp)
	movdqa	%xmm1, 864(%rsp)
	pxor	%xmm0, %xmm0
	movdqa	%xmm0, 880(%rsp)
	movdqa	%xmm0, 896(%rsp)
	movdqa	%xmm0, 912(%rsp)
	leaq	336(%rsp), %rdi
	movq	16(%rsp), %rdx
	movq	%rbp, %rcx
	callq	"noise_state::symmetric::hash_of_both"
	movups	336(%rsp), %xmm0
	movups	352(%rsp), %xmm1
	movaps	%xmm1, 864(%rsp)
	movaps	%xmm0, 848(%rsp)
	movzbl	8(%rsp), %ebp
	leaq	816(%rsp), %r14
	leaq	1998(%rsp), %rdx
	movq	%r14, %rdi
	movl	%ebp, %esi
	leaq	1576(%rsp), %rcx
	movq	48(%rsp), %r8
	callq	"noise_handshake::setup::mix_premessage"
	leaq	1392(%rsp), %rdx
	movq	%r14, %rdi
	movl	%ebp, %esi
	leaq	1592(%rsp), %rcx
	movq	%rbx, %r8
	callq	"noise_handshake::setup::mix_premessage"
	movaps	816(%rsp), %xmm0
	movaps	832(%rsp), %xmm1
	movaps	848(%rsp), %xmm2
	movaps	864(%rsp), %xmm3
	movaps	%xmm3, 1376(%rsp)
	movaps	%xmm2, 1360(%rsp)
	movaps	%xmm1, 1344(%rsp)
	movaps	%xmm0, 1328(%rsp)
	movups	897(%rsp), %xmm0
	movaps	%xmm0, 992(%rsp)
	movq	912(%rsp), %rax
	movq	%rax, 1007(%rsp)
	movzbl	880(%rsp), %edi
	movups	881(%rsp), %xmm0
	movaps	%xmm0, 976(%rsp)
	testq	%r15, %r15
	je	.Lnoise_BB79_203
	movq	1624(%rsp), %rax
.Lnoise_BB79_202:
	subq	$1, %rax
	jae	.Lnoise_BB79_202
.Lnoise_BB79_203:
	movq	920(%rsp), %r8
	movaps	1888(%rsp), %xmm0
	movaps	1904(%rsp), %xmm1
	movaps	%xmm1, 1248(%rsp)
	movaps	%xmm0, 1232(%rsp)
	movaps	1856(%rsp), %xmm0
	movaps	1872(%rsp), %xmm1
	movaps	%xmm0, 1200(%rsp)
	movaps	%xmm1, 1216(%rsp)
	movaps	1328(%rsp), %xmm0
	movaps	1344(%rsp), %xmm1
	movaps	1360(%rsp), %xmm2
	movaps	1376(%rsp), %xmm3
	movaps	%xmm0, 1136(%rsp)
	movaps	%xmm1, 1152(%rsp)
	movaps	%xmm2, 1168(%rsp)
	movaps	%xmm3, 1184(%rsp)
	movq	1007(%rsp), %rax
	movq	%rax, 959(%rsp)
	movaps	976(%rsp), %xmm0
	movaps	992(%rsp), %xmm1
	movaps	%xmm1, 944(%rsp)
	movaps	%xmm0, 928(%rsp)
	movaps	1232(%rsp), %xmm0
	movaps	1248(%rsp), %xmm1
	movaps	%xmm1, 784(%rsp)
	movaps	%xmm0, 768(%rsp)
	movaps	1200(%rsp), %xmm0
	movaps	1216(%rsp), %xmm1
	movaps	%xmm1, 752(%rsp)
	movaps	%xmm0, 736(%rsp)
	movaps	1136(%rsp), %xmm0
	movaps	1152(%rsp), %xmm1
	movaps	1168(%rsp), %xmm2
	movaps	1184(%rsp), %xmm3
	movaps	%xmm3, 720(%rsp)
	movaps	%xmm2, 704(%rsp)
	movaps	%xmm1, 688(%rsp)
	movaps	%xmm0, 672(%rsp)
	movq	959(%rsp), %rax
	movq	%rax, 271(%rsp)
	movaps	928(%rsp), %xmm0
	movaps	944(%rsp), %xmm1
	movaps	%xmm1, 256(%rsp)
	movaps	%xmm0, 240(%rsp)
	movl	$4, %eax
	movb	$1, %cl
	movq	32(%rsp), %rsi
	jmp	.Lnoise_BB79_110
.Lnoise_BB79_166:
	xorl	%esi, %esi
	movzbl	5(%rsp), %edx
	testb	%dl, %dl
	jne	.Lnoise_BB79_141
	jmp	.Lnoise_BB79_167
.Lnoise_BB79_204:
	ud2
.Lnoise_func_end79:
	.size	noise_start, .Lnoise_func_end79-noise_start
	.cfi_endproc

	.section	.text.noise_stream_is_cut,"ax",@progbits
	.globl	noise_stream_is_cut
	.p2align	4
	.type	noise_stream_is_cut,@function
noise_stream_is_cut:
	.cfi_startproc
	endbr64
	movl	$23, %eax
	cmpl	$1315900161, (%rdi)
	jne	.Lnoise_BB80_10
	movzbl	4(%rdi), %ecx
	cmpl	$1, %ecx
	je	.Lnoise_BB80_2
	cmpl	$2, %ecx
	jne	.Lnoise_BB80_10
	xorl	%ecx, %ecx
	movzbl	56(%rdi), %edx
	cmpb	$2, %dl
	jbe	.Lnoise_BB80_6
.Lnoise_BB80_10:
	retq
.Lnoise_BB80_2:
	movb	$1, %cl
	movzbl	56(%rdi), %edx
	cmpb	$2, %dl
	ja	.Lnoise_BB80_10
.Lnoise_BB80_6:
	cmpb	$1, %dl
	jne	.Lnoise_BB80_9
	cmpb	$0, 5(%rdi)
	setne	%r8b
	cmpq	$0, 48(%rdi)
	je	.Lnoise_BB80_10
	andb	%r8b, %cl
	jne	.Lnoise_BB80_10
.Lnoise_BB80_9:
	xorl	%eax, %eax
	cmpb	$1, %dl
	movl	$44, %ecx
	cmovnel	%ecx, %eax
	testq	%rsi, %rsi
	cmovnel	%ecx, %eax
	retq
.Lnoise_func_end80:
	.size	noise_stream_is_cut, .Lnoise_func_end80-noise_stream_is_cut
	.cfi_endproc

	.section	.text.noise_stream_read,"ax",@progbits
	.globl	noise_stream_read
	.p2align	4
	.type	noise_stream_read,@function
noise_stream_read:
	.cfi_startproc
	endbr64
	pushq	%rbp
	.cfi_def_cfa_offset 16
	pushq	%r15
	.cfi_def_cfa_offset 24
	pushq	%r14
	.cfi_def_cfa_offset 32
	pushq	%r13
	.cfi_def_cfa_offset 40
	pushq	%r12
	.cfi_def_cfa_offset 48
	pushq	%rbx
	.cfi_def_cfa_offset 56
	subq	$104, %rsp
	.cfi_def_cfa_offset 160
	.cfi_offset %rbx, -56
	.cfi_offset %r12, -48
	.cfi_offset %r13, -40
	.cfi_offset %r14, -32
	.cfi_offset %r15, -24
	.cfi_offset %rbp, -16
	movq	%rsi, %r8
	xorl	%esi, %esi
	testq	%r8, %r8
	sete	%r9b
	movl	$23, %eax
	cmpl	$1315900161, (%rdi)
	jne	.Lnoise_BB81_32
	movzbl	4(%rdi), %r10d
	cmpl	$1, %r10d
	je	.Lnoise_BB81_2
	cmpl	$2, %r10d
	jne	.Lnoise_BB81_32
	movb	$1, %bpl
	xorl	%r10d, %r10d
	jmp	.Lnoise_BB81_5
.Lnoise_BB81_2:
	xorl	%ebp, %ebp
	movb	$1, %r10b
.Lnoise_BB81_5:
	movzbl	5(%rdi), %r11d
	testb	%r11b, %r11b
	setne	%r12b
	movzbl	56(%rdi), %ebx
	cmpb	$2, %bl
	ja	.Lnoise_BB81_32
	movl	%r10d, 4(%rsp)
	movq	40(%rdi), %r13
	movq	48(%rdi), %r15
	cmpb	$1, %bl
	jne	.Lnoise_BB81_8
	testb	%r11b, %r11b
	setne	%r14b
	testq	%r15, %r15
	sete	%r10b
	andb	4(%rsp), %r14b
	orb	%r10b, %r14b
	jne	.Lnoise_BB81_32
.Lnoise_BB81_8:
	leaq	6(%rdi), %r14
	movb	%bpl, 8(%rsp)
	movb	%r12b, 9(%rsp)
	movl	$0, 10(%rsp)
	movw	$0, 14(%rsp)
	movq	%r13, 16(%rsp)
	movb	$1, 24(%rsp)
	movups	(%r14), %xmm0
	movups	16(%r14), %xmm1
	movups	%xmm0, 25(%rsp)
	movups	%xmm1, 41(%rsp)
	movl	$0, 57(%rsp)
	movl	$0, 60(%rsp)
	movq	%r15, 64(%rsp)
	movb	%bl, 72(%rsp)
	movl	$0, 73(%rsp)
	movl	$0, 76(%rsp)
	movl	$43, %eax
	testb	%bl, %bl
	jne	.Lnoise_BB81_32
	movl	$2, %r12d
	cmpq	$2, %rdx
	jb	.Lnoise_BB81_25
	movb	%r9b, %sil
	shll	$12, %esi
	addq	%rsi, %r8
	movzwl	(%r8), %eax
	rolw	$8, %ax
	movzwl	%ax, %r9d
	leaq	2(%r9), %r12
	cmpq	%r12, %rdx
	jae	.Lnoise_BB81_11
.Lnoise_BB81_25:
	subq	%rdx, %r12
	movq	%r12, 24(%rcx)
	movl	$42, %eax
	jmp	.Lnoise_BB81_32
.Lnoise_BB81_11:
	leaq	25(%rsp), %r15
	testb	%r11b, %r11b
	setne	%dl
	xorps	%xmm0, %xmm0
	movaps	%xmm0, 80(%rsp)
	movl	$3, %eax
	testb	%dl, 4(%rsp)
	jne	.Lnoise_BB81_30
	movq	%rcx, %rbp
	movq	%rdi, %r13
	leaq	24(%rsp), %rbx
	addq	$2, %r8
	leaq	.Lnoise_static.1(%rip), %rdx
	leaq	80(%rsp), %rdi
	movq	%rbx, %rsi
	xorl	%ecx, %ecx
	callq	"noise_state::cipher::CipherState::decrypt"
	cmpb	$0, 80(%rsp)
	je	.Lnoise_BB81_13
	movzbl	81(%rsp), %eax
	leaq	.Lnoise_JTI81_0(%rip), %rcx
	movslq	(%rcx,%rax,4), %rax
	addq	%rcx, %rax
	notrack jmpq	*%rax
.Lnoise_BB81_28:
	movl	$2, %eax
	jmp	.Lnoise_BB81_29
.Lnoise_BB81_13:
	movq	%rbx, %rdi
	movq	88(%rsp), %rbx
	movq	16(%rsp), %r8
	testq	%r8, %r8
	movq	%r13, %rcx
	movq	%rbp, %rsi
	je	.Lnoise_BB81_19
	movq	64(%rsp), %rax
	movq	%rax, %rdx
	orq	%r8, %rdx
	shrq	$32, %rdx
	je	.Lnoise_BB81_15
	xorl	%edx, %edx
	divq	%r8
	jmp	.Lnoise_BB81_17
.Lnoise_BB81_24:
	movl	$1, %eax
	jmp	.Lnoise_BB81_29
.Lnoise_BB81_23:
	xorl	%eax, %eax
.Lnoise_BB81_29:
	movq	%r13, %rdi
.Lnoise_BB81_30:
	cmpb	$1, 24(%rsp)
	jne	.Lnoise_BB81_33
	movzbl	9(%rsp), %ecx
	andb	$1, %cl
	cmpb	$1, 8(%rsp)
	movq	64(%rsp), %rdx
	movb	$2, %sil
	sbbb	$0, %sil
	movq	16(%rsp), %r8
	movl	$1315900161, (%rdi)
	movb	%sil, 4(%rdi)
	movb	%cl, 5(%rdi)
	movups	(%r15), %xmm0
	movups	16(%r15), %xmm1
	movups	%xmm1, 16(%r14)
	movups	%xmm0, (%r14)
	movw	$0, 38(%rdi)
	movq	%r8, 40(%rdi)
	movq	%rdx, 48(%rdi)
	movb	$2, 56(%rdi)
	movl	$0, 57(%rdi)
	movl	$0, 60(%rdi)
	leaq	.Lnoise_switch.table.noise_stream_read(%rip), %rcx
	movl	(%rcx,%rax,4), %eax
.Lnoise_BB81_32:
	addq	$104, %rsp
	.cfi_def_cfa_offset 56
	popq	%rbx
	.cfi_def_cfa_offset 48
	popq	%r12
	.cfi_def_cfa_offset 40
	popq	%r13
	.cfi_def_cfa_offset 32
	popq	%r14
	.cfi_def_cfa_offset 24
	popq	%r15
	.cfi_def_cfa_offset 16
	popq	%rbp
	.cfi_def_cfa_offset 8
	retq
.Lnoise_BB81_15:
	.cfi_def_cfa_offset 160
	xorl	%edx, %edx
	divl	%r8d
.Lnoise_BB81_17:
	testq	%rdx, %rdx
	jne	.Lnoise_BB81_19
	callq	"noise_state::cipher::CipherState::rekey"
	movq	%rbp, %rsi
	movq	%r13, %rcx
.Lnoise_BB81_19:
	testq	%rbx, %rbx
	je	.Lnoise_BB81_26
	movq	$2, (%rsi)
	movq	%rbx, 8(%rsi)
	movq	%r12, 16(%rsi)
	cmpb	$1, 24(%rsp)
	jne	.Lnoise_BB81_33
	movzbl	72(%rsp), %eax
	movq	64(%rsp), %rdx
	movq	16(%rsp), %rsi
	movzbl	9(%rsp), %edi
	andb	$1, %dil
	cmpb	$1, 8(%rsp)
	movb	$2, %r8b
	sbbb	$0, %r8b
	movl	$1315900161, (%rcx)
	movb	%r8b, 4(%rcx)
	movb	%dil, 5(%rcx)
	movups	(%r15), %xmm0
	movups	16(%r15), %xmm1
	movups	%xmm1, 16(%r14)
	movups	%xmm0, (%r14)
	movw	$0, 38(%rcx)
	movq	%rsi, 40(%rcx)
	movq	%rdx, 48(%rcx)
	movb	%al, 56(%rcx)
	movl	$0, 57(%rcx)
	movl	$0, 60(%rcx)
	xorl	%eax, %eax
	jmp	.Lnoise_BB81_32
.Lnoise_BB81_26:
	movq	%r12, 16(%rsi)
	cmpb	$1, 24(%rsp)
	jne	.Lnoise_BB81_33
	movq	64(%rsp), %rax
	movq	16(%rsp), %rdx
	movzbl	9(%rsp), %esi
	andb	$1, %sil
	cmpb	$1, 8(%rsp)
	movb	$2, %dil
	sbbb	$0, %dil
	movl	$1315900161, (%rcx)
	movb	%dil, 4(%rcx)
	movb	%sil, 5(%rcx)
	movups	(%r15), %xmm0
	movups	16(%r15), %xmm1
	movups	%xmm1, 16(%r14)
	movups	%xmm0, (%r14)
	movw	$0, 38(%rcx)
	movq	%rdx, 40(%rcx)
	movq	%rax, 48(%rcx)
	movb	$1, 56(%rcx)
	movl	$0, 57(%rcx)
	movl	$0, 60(%rcx)
	movl	$41, %eax
	jmp	.Lnoise_BB81_32
.Lnoise_BB81_33:
	ud2
.Lnoise_func_end81:
	.size	noise_stream_read, .Lnoise_func_end81-noise_stream_read
	.cfi_endproc
	.section	.rodata.noise_stream_read,"a",@progbits
	.p2align	2, 0x0
.Lnoise_JTI81_0:
	.long	.Lnoise_BB81_28-.Lnoise_JTI81_0
	.long	.Lnoise_BB81_24-.Lnoise_JTI81_0
	.long	.Lnoise_BB81_23-.Lnoise_JTI81_0
	.long	.Lnoise_BB81_33-.Lnoise_JTI81_0

	.section	.text.noise_stream_end,"ax",@progbits
	.globl	noise_stream_end
	.p2align	4
	.type	noise_stream_end,@function
noise_stream_end:
	.cfi_startproc
	endbr64
	pushq	%rbp
	.cfi_def_cfa_offset 16
	pushq	%r15
	.cfi_def_cfa_offset 24
	pushq	%r14
	.cfi_def_cfa_offset 32
	pushq	%r13
	.cfi_def_cfa_offset 40
	pushq	%r12
	.cfi_def_cfa_offset 48
	pushq	%rbx
	.cfi_def_cfa_offset 56
	subq	$104, %rsp
	.cfi_def_cfa_offset 160
	.cfi_offset %rbx, -56
	.cfi_offset %r12, -48
	.cfi_offset %r13, -40
	.cfi_offset %r14, -32
	.cfi_offset %r15, -24
	.cfi_offset %rbp, -16
	xorl	%r8d, %r8d
	testq	%rsi, %rsi
	sete	%r9b
	movl	$23, %eax
	cmpl	$1315899905, (%rdi)
	jne	.Lnoise_BB82_21
	movzbl	4(%rdi), %r10d
	cmpl	$1, %r10d
	je	.Lnoise_BB82_2
	cmpl	$2, %r10d
	jne	.Lnoise_BB82_21
	movb	$1, %r10b
	movl	%r10d, 4(%rsp)
	movb	$1, %bpl
	jmp	.Lnoise_BB82_5
.Lnoise_BB82_2:
	movl	$0, 4(%rsp)
	xorl	%ebp, %ebp
.Lnoise_BB82_5:
	movzbl	5(%rdi), %ebx
	testb	%bl, %bl
	setne	%r12b
	movq	40(%rdi), %r15
	movq	48(%rdi), %r11
	movzbl	56(%rdi), %r13d
	testb	%r13b, %r13b
	je	.Lnoise_BB82_7
	testb	%bl, %bl
	setne	%r14b
	testq	%r11, %r11
	sete	%r10b
	andb	4(%rsp), %r14b
	orb	%r10b, %r14b
	je	.Lnoise_BB82_8
	jmp	.Lnoise_BB82_21
.Lnoise_BB82_7:
	cmpq	$-1, %r11
	je	.Lnoise_BB82_21
.Lnoise_BB82_8:
	leaq	6(%rdi), %r14
	testb	%r13b, %r13b
	setne	%r10b
	movb	%bpl, 8(%rsp)
	movb	%r12b, 9(%rsp)
	movl	$0, 10(%rsp)
	movw	$0, 14(%rsp)
	movq	%r15, 16(%rsp)
	movb	$1, 24(%rsp)
	movups	(%r14), %xmm0
	movups	16(%r14), %xmm1
	movups	%xmm1, 41(%rsp)
	movups	%xmm0, 25(%rsp)
	movl	$0, 60(%rsp)
	movl	$0, 57(%rsp)
	movq	%r11, 64(%rsp)
	setne	72(%rsp)
	movl	$0, 76(%rsp)
	movl	$0, 73(%rsp)
	cmpq	$18, %rdx
	setb	%dl
	movl	$18, %ebp
	movl	$43, %eax
	cmovbl	%ebp, %eax
	orb	%r10b, %dl
	jne	.Lnoise_BB82_21
	testb	%bl, %bl
	setne	%dl
	movl	$22, %eax
	testb	%dl, 4(%rsp)
	jne	.Lnoise_BB82_21
	cmpq	$-1, %r11
	je	.Lnoise_BB82_22
	movq	%rcx, %r12
	movq	%rdi, %r15
	movb	%r9b, %r8b
	shll	$12, %r8d
	addq	%r8, %rsi
	leaq	24(%rsp), %rbx
	movq	%rsi, %r13
	leaq	2(%rsi), %r8
	xorps	%xmm0, %xmm0
	movaps	%xmm0, 80(%rsp)
	leaq	.Lnoise_static.1(%rip), %rdx
	leaq	80(%rsp), %rdi
	movq	%rbx, %rsi
	xorl	%ecx, %ecx
	xorl	%r9d, %r9d
	callq	"noise_state::cipher::CipherState::encrypt"
	cmpb	$0, 80(%rsp)
	jne	.Lnoise_BB82_22
	movq	88(%rsp), %rbp
	movq	16(%rsp), %rsi
	movq	64(%rsp), %rcx
	testq	%rsi, %rsi
	movq	%r12, %rdi
	je	.Lnoise_BB82_13
	movq	%rcx, %rax
	orq	%rsi, %rax
	shrq	$32, %rax
	je	.Lnoise_BB82_15
	movq	%rcx, %rax
	xorl	%edx, %edx
	divq	%rsi
	jmp	.Lnoise_BB82_17
.Lnoise_BB82_13:
	xorl	%esi, %esi
	movq	%r15, %rax
	movq	%r13, %r8
	jmp	.Lnoise_BB82_19
.Lnoise_BB82_15:
	movl	%ecx, %eax
	xorl	%edx, %edx
	divl	%esi
.Lnoise_BB82_17:
	movq	%r15, %rax
	movq	%r13, %r8
	testq	%rdx, %rdx
	jne	.Lnoise_BB82_19
	movq	%rbx, %rdi
	callq	"noise_state::cipher::CipherState::rekey"
	movq	%r13, %r8
	movq	%r12, %rdi
	movq	%r15, %rax
	movq	16(%rsp), %rsi
	movq	64(%rsp), %rcx
.Lnoise_BB82_19:
	movl	%ebp, %edx
	rolw	$8, %dx
	movw	%dx, (%r8)
	addq	$2, %rbp
	movq	%rbp, 8(%rdi)
	cmpb	$1, 24(%rsp)
	jne	.Lnoise_BB82_22
	leaq	25(%rsp), %rdx
	movzbl	9(%rsp), %edi
	andb	$1, %dil
	cmpb	$1, 8(%rsp)
	movb	$2, %r8b
	sbbb	$0, %r8b
	movl	$1315899905, (%rax)
	movb	%r8b, 4(%rax)
	movb	%dil, 5(%rax)
	movups	(%rdx), %xmm0
	movups	16(%rdx), %xmm1
	movups	%xmm1, 16(%r14)
	movups	%xmm0, (%r14)
	movw	$0, 38(%rax)
	movq	%rsi, 40(%rax)
	movq	%rcx, 48(%rax)
	movb	$1, 56(%rax)
	movl	$0, 57(%rax)
	movl	$0, 60(%rax)
	xorl	%eax, %eax
.Lnoise_BB82_21:
	addq	$104, %rsp
	.cfi_def_cfa_offset 56
	popq	%rbx
	.cfi_def_cfa_offset 48
	popq	%r12
	.cfi_def_cfa_offset 40
	popq	%r13
	.cfi_def_cfa_offset 32
	popq	%r14
	.cfi_def_cfa_offset 24
	popq	%r15
	.cfi_def_cfa_offset 16
	popq	%rbp
	.cfi_def_cfa_offset 8
	retq
.Lnoise_BB82_22:
	.cfi_def_cfa_offset 160
	ud2
.Lnoise_func_end82:
	.size	noise_stream_end, .Lnoise_func_end82-noise_stream_end
	.cfi_endproc

	.section	.text.noise_stream_write,"ax",@progbits
	.globl	noise_stream_write
	.p2align	4
	.type	noise_stream_write,@function
noise_stream_write:
	.cfi_startproc
	endbr64
	pushq	%rbp
	.cfi_def_cfa_offset 16
	pushq	%r15
	.cfi_def_cfa_offset 24
	pushq	%r14
	.cfi_def_cfa_offset 32
	pushq	%r13
	.cfi_def_cfa_offset 40
	pushq	%r12
	.cfi_def_cfa_offset 48
	pushq	%rbx
	.cfi_def_cfa_offset 56
	subq	$136, %rsp
	.cfi_def_cfa_offset 192
	.cfi_offset %rbx, -56
	.cfi_offset %r12, -48
	.cfi_offset %r13, -40
	.cfi_offset %r14, -32
	.cfi_offset %r15, -24
	.cfi_offset %rbp, -16
	testq	%rsi, %rsi
	sete	%r14b
	testq	%rcx, %rcx
	sete	%bpl
	movl	$23, %eax
	cmpl	$1315899905, (%rdi)
	jne	.Lnoise_BB83_45
	movzbl	4(%rdi), %r10d
	cmpl	$1, %r10d
	je	.Lnoise_BB83_2
	cmpl	$2, %r10d
	jne	.Lnoise_BB83_45
	movb	$1, %r10b
	movl	%r10d, 20(%rsp)
	movb	$1, %r10b
	movl	%r10d, 16(%rsp)
	jmp	.Lnoise_BB83_5
.Lnoise_BB83_2:
	movl	$0, 20(%rsp)
	movl	$0, 16(%rsp)
.Lnoise_BB83_5:
	movzbl	5(%rdi), %r11d
	testb	%r11b, %r11b
	setne	15(%rsp)
	movq	40(%rdi), %rbx
	movq	48(%rdi), %r10
	movzbl	56(%rdi), %r13d
	testb	%r13b, %r13b
	je	.Lnoise_BB83_7
	testb	%r11b, %r11b
	setne	%r12b
	testq	%r10, %r10
	movq	%r10, %r15
	sete	%r10b
	andb	20(%rsp), %r12b
	orb	%r10b, %r12b
	movq	%r15, %r10
	je	.Lnoise_BB83_8
	jmp	.Lnoise_BB83_45
.Lnoise_BB83_7:
	cmpq	$-1, %r10
	je	.Lnoise_BB83_45
.Lnoise_BB83_8:
	leaq	6(%rdi), %rax
	testb	%r13b, %r13b
	setne	%r13b
	movl	16(%rsp), %r15d
	movb	%r15b, 24(%rsp)
	movzbl	15(%rsp), %r15d
	movb	%r15b, 25(%rsp)
	movl	$0, 26(%rsp)
	movw	$0, 30(%rsp)
	movq	%rbx, 32(%rsp)
	movb	$1, 40(%rsp)
	movups	(%rax), %xmm0
	movq	%rax, 128(%rsp)
	movups	16(%rax), %xmm1
	movups	%xmm0, 41(%rsp)
	movups	%xmm1, 57(%rsp)
	movl	$0, 73(%rsp)
	movl	$0, 76(%rsp)
	movq	%r10, 80(%rsp)
	setne	88(%rsp)
	movl	$0, 89(%rsp)
	movl	$0, 92(%rsp)
	testq	%rdx, %rdx
	setne	%al
	cmpq	$65519, %rdx
	movq	%r10, %r15
	movl	$65519, %r10d
	cmovbq	%rdx, %r10
	movq	%r10, %r12
	addq	$18, %r10
	cmpq	%r8, %r10
	seta	%r8b
	andb	%al, %r8b
	orb	%r8b, %r13b
	testb	%r8b, %r8b
	movl	$18, %r8d
	movl	$43, %eax
	cmovnel	%r8d, %eax
	testb	%r13b, %r13b
	jne	.Lnoise_BB83_45
	movq	%r15, %r10
	testq	%rdx, %rdx
	je	.Lnoise_BB83_10
	testb	%r11b, %r11b
	je	.Lnoise_BB83_13
	movl	$22, %eax
	cmpb	$0, 20(%rsp)
	jne	.Lnoise_BB83_45
.Lnoise_BB83_13:
	movl	$17, %eax
	cmpq	$-2, %r10
	je	.Lnoise_BB83_45
	cmpq	$-1, %r10
	je	.Lnoise_BB83_47
	xorl	%r11d, %r11d
	movb	%r14b, %r11b
	shll	$12, %r11d
	leaq	(%rsi,%r11), %rax
	xorl	%ebx, %ebx
	movb	%bpl, %bl
	shll	$12, %ebx
	leaq	(%rcx,%rbx), %rbp
	leaq	40(%rsp), %r14
	leaq	2(%rbp), %r15
	movq	%r15, %r8
	subq	%rax, %r8
	movq	%r12, %r13
	cmpq	%r12, %r8
	movq	%r9, 120(%rsp)
	jae	.Lnoise_BB83_46
	cmpq	$4, %rdx
	jb	.Lnoise_BB83_17
	movq	%rbp, %r8
	subq	%rax, %r8
	addq	$2, %r8
	cmpq	$32, %r8
	jae	.Lnoise_BB83_19
.Lnoise_BB83_17:
	movq	%rdi, %r12
	xorl	%edi, %edi
.Lnoise_BB83_28:
	movq	%r13, %r8
	movq	%rdi, %rdx
	andq	$3, %r8
	je	.Lnoise_BB83_31
	movq	%rdi, %rdx
.Lnoise_BB83_30:
	movzbl	(%rax,%rdx), %r9d
	movb	%r9b, (%r15,%rdx)
	incq	%rdx
	decq	%r8
	jne	.Lnoise_BB83_30
.Lnoise_BB83_31:
	subq	%r13, %rdi
	cmpq	$-4, %rdi
	ja	.Lnoise_BB83_34
	leaq	(%r11,%rsi), %rax
	addq	$3, %rax
	addq	%rbx, %rcx
	addq	$5, %rcx
.Lnoise_BB83_33:
	movzbl	-3(%rax,%rdx), %esi
	movb	%sil, -3(%rcx,%rdx)
	movzbl	-2(%rax,%rdx), %esi
	movb	%sil, -2(%rcx,%rdx)
	movzbl	-1(%rax,%rdx), %esi
	movb	%sil, -1(%rcx,%rdx)
	movzbl	(%rax,%rdx), %esi
	movb	%sil, (%rcx,%rdx)
	addq	$4, %rdx
	cmpq	%rdx, %r13
	jne	.Lnoise_BB83_33
	jmp	.Lnoise_BB83_34
.Lnoise_BB83_10:
	xorps	%xmm0, %xmm0
	movups	%xmm0, 8(%r9)
	xorl	%eax, %eax
	jmp	.Lnoise_BB83_44
.Lnoise_BB83_46:
	movq	%rdi, %r12
	movq	%r15, %rdi
	movq	%rax, %rsi
	movq	%r13, %rdx
	callq	memmove@PLT
.Lnoise_BB83_34:
	xorps	%xmm0, %xmm0
	movaps	%xmm0, 96(%rsp)
	leaq	.Lnoise_static.1(%rip), %rdx
	leaq	96(%rsp), %rdi
	movq	%r14, %rsi
	xorl	%ecx, %ecx
	movq	%r15, %r8
	movq	%r13, %r9
	callq	"noise_state::cipher::CipherState::encrypt"
	cmpb	$0, 96(%rsp)
	jne	.Lnoise_BB83_47
	movq	104(%rsp), %r15
	movq	32(%rsp), %rbx
	movq	80(%rsp), %r10
	testq	%rbx, %rbx
	movq	%r12, %rdi
	movq	120(%rsp), %rcx
	je	.Lnoise_BB83_36
	movq	%r10, %rax
	orq	%rbx, %rax
	shrq	$32, %rax
	je	.Lnoise_BB83_38
	movq	%r10, %rax
	xorl	%edx, %edx
	divq	%rbx
	jmp	.Lnoise_BB83_40
.Lnoise_BB83_36:
	xorl	%ebx, %ebx
	jmp	.Lnoise_BB83_42
.Lnoise_BB83_38:
	movl	%r10d, %eax
	xorl	%edx, %edx
	divl	%ebx
.Lnoise_BB83_40:
	testq	%rdx, %rdx
	jne	.Lnoise_BB83_42
	movq	%rdi, %rbx
	movq	%r14, %rdi
	movq	%rcx, %r14
	callq	"noise_state::cipher::CipherState::rekey"
	movq	%r14, %rcx
	movq	%rbx, %rdi
	movq	32(%rsp), %rbx
	movq	80(%rsp), %r10
.Lnoise_BB83_42:
	movl	%r15d, %eax
	rolw	$8, %ax
	movw	%ax, (%rbp)
	addq	$2, %r15
	movzbl	24(%rsp), %eax
	movl	%eax, 16(%rsp)
	movzbl	25(%rsp), %eax
	movb	%al, 15(%rsp)
	movzbl	88(%rsp), %eax
	cmpb	$1, 40(%rsp)
	movq	%r15, 8(%rcx)
	movq	%r13, 16(%rcx)
	jne	.Lnoise_BB83_47
	andb	$1, %al
.Lnoise_BB83_44:
	leaq	41(%rsp), %rcx
	movzbl	15(%rsp), %r8d
	andb	$1, %r8b
	cmpb	$1, 16(%rsp)
	movb	$2, %dl
	sbbb	$0, %dl
	movl	$1315899905, (%rdi)
	movb	%dl, 4(%rdi)
	movb	%r8b, 5(%rdi)
	movups	(%rcx), %xmm0
	movups	16(%rcx), %xmm1
	movq	128(%rsp), %rcx
	movups	%xmm1, 16(%rcx)
	movups	%xmm0, (%rcx)
	movw	$0, 38(%rdi)
	movq	%rbx, 40(%rdi)
	movq	%r10, 48(%rdi)
	movb	%al, 56(%rdi)
	movl	$0, 57(%rdi)
	movl	$0, 60(%rdi)
	xorl	%eax, %eax
.Lnoise_BB83_45:
	addq	$136, %rsp
	.cfi_def_cfa_offset 56
	popq	%rbx
	.cfi_def_cfa_offset 48
	popq	%r12
	.cfi_def_cfa_offset 40
	popq	%r13
	.cfi_def_cfa_offset 32
	popq	%r14
	.cfi_def_cfa_offset 24
	popq	%r15
	.cfi_def_cfa_offset 16
	popq	%rbp
	.cfi_def_cfa_offset 8
	retq
.Lnoise_BB83_19:
	.cfi_def_cfa_offset 192
	movq	%rdi, %r12
	cmpq	$32, %rdx
	jae	.Lnoise_BB83_21
	xorl	%edi, %edi
	jmp	.Lnoise_BB83_25
.Lnoise_BB83_21:
	movl	%r13d, %edi
	andl	$65504, %edi
	leaq	(%r11,%rsi), %r8
	addq	$16, %r8
	leaq	(%rbx,%rcx), %r9
	addq	$18, %r9
	xorl	%r10d, %r10d
.Lnoise_BB83_22:
	movups	-16(%r8,%r10), %xmm0
	movups	(%r8,%r10), %xmm1
	movups	%xmm0, -16(%r9,%r10)
	movups	%xmm1, (%r9,%r10)
	addq	$32, %r10
	cmpq	%r10, %rdi
	jne	.Lnoise_BB83_22
	cmpq	%rdi, %rdx
	je	.Lnoise_BB83_34
	testb	$28, %r13b
	je	.Lnoise_BB83_28
.Lnoise_BB83_25:
	movq	%rdi, %rdx
	movl	%r13d, %edi
	andl	$65532, %edi
.Lnoise_BB83_26:
	movl	(%rax,%rdx), %r8d
	movl	%r8d, (%r15,%rdx)
	addq	$4, %rdx
	cmpq	%rdx, %rdi
	jne	.Lnoise_BB83_26
	cmpq	%rdi, %r13
	jne	.Lnoise_BB83_28
	jmp	.Lnoise_BB83_34
.Lnoise_BB83_47:
	ud2
.Lnoise_func_end83:
	.size	noise_stream_write, .Lnoise_func_end83-noise_stream_write
	.cfi_endproc

	.section	.text.noise_unset_psk,"ax",@progbits
	.globl	noise_unset_psk
	.p2align	4
	.type	noise_unset_psk,@function
noise_unset_psk:
	.cfi_startproc
	endbr64
	pushq	%rbx
	.cfi_def_cfa_offset 16
	subq	$1152, %rsp
	.cfi_def_cfa_offset 1168
	.cfi_offset %rbx, -16
	movq	%rdi, %rbx
	leaq	280(%rsp), %rdi
	movl	$872, %edx
	xorl	%esi, %esi
	callq	memset@PLT
	cmpl	$1315897601, (%rbx)
	jne	.Lnoise_BB84_5
	movzwl	420(%rbx), %edx
	cmpq	$416, %rdx
	ja	.Lnoise_BB84_5
	cmpb	$8, 846(%rbx)
	ja	.Lnoise_BB84_5
	cmpb	$9, 557(%rbx)
	ja	.Lnoise_BB84_5
	leaq	4(%rbx), %rsi
	movq	%rsp, %rdi
	callq	"noise_c::patterns::pattern_of"
	cmpb	$0, (%rsp)
	je	.Lnoise_BB84_6
.Lnoise_BB84_5:
	movl	$23, %eax
.Lnoise_BB84_9:
	addq	$1152, %rsp
	.cfi_def_cfa_offset 16
	popq	%rbx
	.cfi_def_cfa_offset 8
	retq
.Lnoise_BB84_6:
	.cfi_def_cfa_offset 1168
	leaq	8(%rsp), %rdx
	leaq	280(%rsp), %rdi
	movq	%rbx, %rsi
	callq	"noise_c::from_c::restored"
	movl	$23, %eax
	cmpb	$1, 280(%rsp)
	jne	.Lnoise_BB84_9
	movzbl	557(%rbx), %ecx
	xorl	%eax, %eax
	testb	%cl, %cl
	je	.Lnoise_BB84_9
	movups	798(%rbx), %xmm0
	movups	%xmm0, 830(%rbx)
	movups	782(%rbx), %xmm0
	movups	%xmm0, 814(%rbx)
	movups	750(%rbx), %xmm0
	movups	%xmm0, 782(%rbx)
	movups	766(%rbx), %xmm0
	movups	%xmm0, 798(%rbx)
	movups	718(%rbx), %xmm0
	movups	%xmm0, 750(%rbx)
	movups	734(%rbx), %xmm0
	movups	%xmm0, 766(%rbx)
	movups	654(%rbx), %xmm0
	movups	670(%rbx), %xmm1
	movups	686(%rbx), %xmm2
	movups	702(%rbx), %xmm3
	movups	%xmm2, 718(%rbx)
	movups	%xmm3, 734(%rbx)
	movups	%xmm1, 702(%rbx)
	movups	%xmm0, 686(%rbx)
	movups	622(%rbx), %xmm0
	movups	638(%rbx), %xmm1
	movups	%xmm1, 670(%rbx)
	movups	%xmm0, 654(%rbx)
	movups	590(%rbx), %xmm0
	movups	606(%rbx), %xmm1
	movups	%xmm1, 638(%rbx)
	movups	%xmm0, 622(%rbx)
	movups	558(%rbx), %xmm0
	movups	574(%rbx), %xmm1
	movups	%xmm1, 606(%rbx)
	movups	%xmm0, 590(%rbx)
	xorps	%xmm0, %xmm0
	movups	%xmm0, 574(%rbx)
	movups	%xmm0, 558(%rbx)
	decb	%cl
	movb	%cl, 557(%rbx)
	addq	$1152, %rsp
	.cfi_def_cfa_offset 16
	popq	%rbx
	.cfi_def_cfa_offset 8
	retq
.Lnoise_func_end84:
	.size	noise_unset_psk, .Lnoise_func_end84-noise_unset_psk
	.cfi_endproc

	.section	.text.noise_check_pattern,"ax",@progbits
	.globl	noise_check_pattern
	.p2align	4
	.type	noise_check_pattern,@function
noise_check_pattern:
	.cfi_startproc
	endbr64
	pushq	%r15
	.cfi_def_cfa_offset 16
	pushq	%r14
	.cfi_def_cfa_offset 24
	pushq	%r12
	.cfi_def_cfa_offset 32
	pushq	%rbx
	.cfi_def_cfa_offset 40
	subq	$552, %rsp
	.cfi_def_cfa_offset 592
	.cfi_offset %rbx, -40
	.cfi_offset %r12, -32
	.cfi_offset %r14, -24
	.cfi_offset %r15, -16
	movq	%rdx, %rbx
	movq	%rsi, %r14
	xorl	%r15d, %r15d
	testq	%rdi, %rdi
	sete	%r15b
	shll	$12, %r15d
	addq	%rdi, %r15
	movq	%rsp, %r12
	movl	$280, %edx
	movq	%r12, %rdi
	xorl	%esi, %esi
	callq	memset@PLT
	movq	%r12, %rdi
	movq	%r15, %rsi
	movq	%r14, %rdx
	callq	"noise_names::pattern::Pattern::parse_text"
	cmpb	$0, (%rsp)
	je	.Lnoise_BB85_1
	movq	8(%rsp), %rcx
	movzbl	16(%rsp), %eax
	movq	%rcx, (%rbx)
	addl	$30, %eax
	jmp	.Lnoise_BB85_4
.Lnoise_BB85_1:
	leaq	8(%rsp), %rsi
	leaq	280(%rsp), %r14
	movl	$272, %edx
	movq	%r14, %rdi
	callq	memcpy@PLT
	movq	%rsp, %r15
	movl	$280, %edx
	movq	%r15, %rdi
	xorl	%esi, %esi
	callq	memset@PLT
	movq	%r15, %rdi
	movq	%r14, %rsi
	callq	"noise_names::pattern::Pattern::check"
	cmpb	$0, (%rsp)
	je	.Lnoise_BB85_2
	movzwl	1(%rsp), %eax
	movzbl	3(%rsp), %ecx
	movw	%ax, 8(%rbx)
	movb	%cl, 10(%rbx)
	movl	$39, %eax
	jmp	.Lnoise_BB85_4
.Lnoise_BB85_2:
	movzbl	272(%rsp), %eax
	movb	%al, 11(%rbx)
	xorl	%eax, %eax
.Lnoise_BB85_4:
	addq	$552, %rsp
	.cfi_def_cfa_offset 40
	popq	%rbx
	.cfi_def_cfa_offset 32
	popq	%r12
	.cfi_def_cfa_offset 24
	popq	%r14
	.cfi_def_cfa_offset 16
	popq	%r15
	.cfi_def_cfa_offset 8
	retq
.Lnoise_func_end85:
	.size	noise_check_pattern, .Lnoise_func_end85-noise_check_pattern
	.cfi_endproc

	.section	.text.noise_pattern,"ax",@progbits
	.globl	noise_pattern
	.p2align	4
	.type	noise_pattern,@function
noise_pattern:
	.cfi_startproc
	endbr64
	pushq	%rbp
	.cfi_def_cfa_offset 16
	pushq	%r15
	.cfi_def_cfa_offset 24
	pushq	%r14
	.cfi_def_cfa_offset 32
	pushq	%r13
	.cfi_def_cfa_offset 40
	pushq	%r12
	.cfi_def_cfa_offset 48
	pushq	%rbx
	.cfi_def_cfa_offset 56
	subq	$1880, %rsp
	.cfi_def_cfa_offset 1936
	.cfi_offset %rbx, -56
	.cfi_offset %r12, -48
	.cfi_offset %r13, -40
	.cfi_offset %r14, -32
	.cfi_offset %r15, -24
	.cfi_offset %rbp, -16
	movq	%rcx, %rbx
	movq	%rdx, %r14
	movq	%rsi, %r15
	xorl	%r12d, %r12d
	testq	%rdi, %rdi
	sete	%r12b
	shll	$12, %r12d
	addq	%rdi, %r12
	leaq	368(%rsp), %rdi
	movl	$272, %edx
	xorl	%esi, %esi
	callq	memset@PLT
	leaq	1336(%rsp), %rdi
	movl	$272, %edx
	xorl	%esi, %esi
	callq	memset@PLT
	testq	%r15, %r15
	je	.Lnoise_BB86_4
	cmpb	$10, -1(%r12,%r15)
	jne	.Lnoise_BB86_4
	leaq	784(%rsp), %r13
	movl	$280, %edx
	movq	%r13, %rdi
	xorl	%esi, %esi
	callq	memset@PLT
	movq	%r13, %rdi
	movq	%r12, %rsi
	movq	%r15, %rdx
	callq	"noise_names::pattern::Pattern::parse_text"
	cmpb	$0, 784(%rsp)
	je	.Lnoise_BB86_9
	movq	792(%rsp), %rcx
	movzbl	800(%rsp), %eax
	movq	%rcx, (%rbx)
	addl	$30, %eax
	jmp	.Lnoise_BB86_8
.Lnoise_BB86_4:
	xorps	%xmm0, %xmm0
	movaps	%xmm0, 688(%rsp)
	movaps	%xmm0, 704(%rsp)
	movaps	%xmm0, 720(%rsp)
	leaq	784(%rsp), %rdi
	movl	$280, %edx
	xorl	%esi, %esi
	callq	memset@PLT
	leaq	688(%rsp), %rdi
	movq	%r12, %rsi
	movq	%r15, %rdx
	callq	"noise_names::name::ProtocolName::parse"
	cmpb	$0, 688(%rsp)
	jne	.Lnoise_BB86_7
	leaq	696(%rsp), %rdi
	movups	696(%rsp), %xmm0
	movups	712(%rsp), %xmm1
	movaps	%xmm0, 736(%rsp)
	movq	728(%rsp), %rax
	movq	%rax, 768(%rsp)
	movaps	%xmm1, 752(%rsp)
	movq	744(%rsp), %rsi
	callq	"noise_names::table::place_of"
	cmpb	$1, %al
	jne	.Lnoise_BB86_7
	movzbl	%dl, %esi
	leaq	1064(%rsp), %r15
	movq	%r15, %rdi
	callq	"noise_names::table::row"
	leaq	752(%rsp), %rdx
	leaq	784(%rsp), %rdi
	movq	%r15, %rsi
	callq	"noise_names::pattern::Pattern::with_psks"
	cmpb	$0, 784(%rsp)
	je	.Lnoise_BB86_9
.Lnoise_BB86_7:
	movl	$1, %eax
.Lnoise_BB86_8:
	addq	$1880, %rsp
	.cfi_def_cfa_offset 56
	popq	%rbx
	.cfi_def_cfa_offset 48
	popq	%r12
	.cfi_def_cfa_offset 40
	popq	%r13
	.cfi_def_cfa_offset 32
	popq	%r14
	.cfi_def_cfa_offset 24
	popq	%r15
	.cfi_def_cfa_offset 16
	popq	%rbp
	.cfi_def_cfa_offset 8
	retq
.Lnoise_BB86_9:
	.cfi_def_cfa_offset 1936
	leaq	792(%rsp), %rsi
	leaq	1608(%rsp), %r15
	movl	$272, %edx
	movq	%r15, %rdi
	callq	memcpy@PLT
	leaq	1064(%rsp), %rdi
	movl	$272, %edx
	movq	%r15, %rsi
	callq	memcpy@PLT
	leaq	784(%rsp), %r15
	movl	$280, %edx
	movq	%r15, %rdi
	xorl	%esi, %esi
	callq	memset@PLT
	leaq	1064(%rsp), %rsi
	movq	%r15, %rdi
	callq	"noise_names::pattern::Pattern::check"
	cmpb	$0, 784(%rsp)
	je	.Lnoise_BB86_11
	movzwl	785(%rsp), %eax
	movzbl	787(%rsp), %ecx
	movw	%ax, 8(%rbx)
	movb	%cl, 10(%rbx)
	movl	$39, %eax
	jmp	.Lnoise_BB86_8
.Lnoise_BB86_11:
	leaq	792(%rsp), %rsi
	leaq	1336(%rsp), %r15
	movl	$272, %edx
	movq	%r15, %rdi
	callq	memcpy@PLT
	leaq	368(%rsp), %rdi
	movl	$272, %edx
	movq	%r15, %rsi
	callq	memcpy@PLT
	leaq	440(%rsp), %rax
	movq	632(%rsp), %rcx
	testq	%rcx, %rcx
	je	.Lnoise_BB86_14
	cmpq	$1, %rcx
	jne	.Lnoise_BB86_15
	xorl	%edx, %edx
	movq	%rax, %rsi
	jmp	.Lnoise_BB86_28
.Lnoise_BB86_14:
	xorl	%edx, %edx
	jmp	.Lnoise_BB86_34
.Lnoise_BB86_15:
	movq	%rcx, %rdi
	andq	$-2, %rdi
	xorl	%edx, %edx
	movq	%rax, %rsi
	xorl	%r8d, %r8d
	jmp	.Lnoise_BB86_17
	.p2align	4
.Lnoise_BB86_16:
	addq	$48, %rsi
	addb	%r9b, %dl
	addq	$2, %r8
	cmpq	%rdi, %r8
	je	.Lnoise_BB86_27
.Lnoise_BB86_17:
	movq	16(%rsi), %r10
	xorl	%r9d, %r9d
	movq	%rsi, %r11
.Lnoise_BB86_18:
	movq	%r11, %r15
	.p2align	4
.Lnoise_BB86_19:
	testq	%r10, %r10
	je	.Lnoise_BB86_22
	leaq	1(%r15), %r11
	decq	%r10
	cmpb	$6, (%r15)
	movq	%r11, %r15
	jne	.Lnoise_BB86_19
	incb	%r9b
	jmp	.Lnoise_BB86_18
	.p2align	4
.Lnoise_BB86_22:
	leaq	24(%rsi), %r11
	addb	%r9b, %dl
	movq	40(%rsi), %r10
	xorl	%r9d, %r9d
.Lnoise_BB86_23:
	movq	%r11, %r15
	.p2align	4
.Lnoise_BB86_24:
	testq	%r10, %r10
	je	.Lnoise_BB86_16
	leaq	1(%r15), %r11
	decq	%r10
	cmpb	$6, (%r15)
	movq	%r11, %r15
	jne	.Lnoise_BB86_24
	incb	%r9b
	jmp	.Lnoise_BB86_23
.Lnoise_BB86_27:
	testb	$1, %cl
	je	.Lnoise_BB86_34
.Lnoise_BB86_28:
	movq	16(%rsi), %r8
	xorl	%edi, %edi
.Lnoise_BB86_29:
	movq	%rsi, %r9
	.p2align	4
.Lnoise_BB86_30:
	testq	%r8, %r8
	je	.Lnoise_BB86_33
	leaq	1(%r9), %rsi
	decq	%r8
	cmpb	$6, (%r9)
	movq	%rsi, %r9
	jne	.Lnoise_BB86_30
	incb	%dil
	jmp	.Lnoise_BB86_29
.Lnoise_BB86_33:
	addb	%dl, %dil
	movl	%edi, %edx
.Lnoise_BB86_34:
	movq	416(%rsp), %rsi
	movq	432(%rsp), %rdi
	xorl	%r8d, %r8d
	.p2align	4
.Lnoise_BB86_35:
	cmpq	%r8, %rsi
	je	.Lnoise_BB86_37
	cmpb	$0, 408(%rsp,%r8)
	leaq	1(%r8), %r8
	jne	.Lnoise_BB86_35
	jmp	.Lnoise_BB86_44
.Lnoise_BB86_37:
	testq	%rcx, %rcx
	je	.Lnoise_BB86_45
	xorl	%r8d, %r8d
	movq	%rcx, %r9
	movq	%rax, %r10
	jmp	.Lnoise_BB86_40
.Lnoise_BB86_39:
	addq	$24, %r10
	decq	%r9
	xorb	$1, %r8b
	testq	%r9, %r9
	je	.Lnoise_BB86_45
.Lnoise_BB86_40:
	testb	%r8b, %r8b
	jne	.Lnoise_BB86_39
	movq	16(%r10), %r11
	xorl	%r15d, %r15d
	.p2align	4
.Lnoise_BB86_42:
	cmpq	%r15, %r11
	je	.Lnoise_BB86_39
	cmpb	$0, (%r10,%r15)
	leaq	1(%r15), %r15
	jne	.Lnoise_BB86_42
.Lnoise_BB86_44:
	movl	$1, %r8d
	movq	%r8, 360(%rsp)
	jmp	.Lnoise_BB86_46
.Lnoise_BB86_45:
	movq	$0, 360(%rsp)
.Lnoise_BB86_46:
	xorl	%r8d, %r8d
	.p2align	4
.Lnoise_BB86_47:
	cmpq	%r8, %rsi
	je	.Lnoise_BB86_49
	cmpb	$1, 408(%rsp,%r8)
	leaq	1(%r8), %r8
	jne	.Lnoise_BB86_47
	jmp	.Lnoise_BB86_56
.Lnoise_BB86_49:
	testq	%rcx, %rcx
	je	.Lnoise_BB86_57
	xorl	%r8d, %r8d
	movq	%rcx, %r9
	movq	%rax, %r10
	jmp	.Lnoise_BB86_52
.Lnoise_BB86_51:
	addq	$24, %r10
	decq	%r9
	xorb	$1, %r8b
	testq	%r9, %r9
	je	.Lnoise_BB86_57
.Lnoise_BB86_52:
	testb	%r8b, %r8b
	jne	.Lnoise_BB86_51
	movq	16(%r10), %r11
	xorl	%r15d, %r15d
	.p2align	4
.Lnoise_BB86_54:
	cmpq	%r15, %r11
	je	.Lnoise_BB86_51
	cmpb	$1, (%r10,%r15)
	leaq	1(%r15), %r15
	jne	.Lnoise_BB86_54
.Lnoise_BB86_56:
	movl	$256, %r8d
	movq	%r8, 352(%rsp)
	jmp	.Lnoise_BB86_58
.Lnoise_BB86_57:
	movq	$0, 352(%rsp)
.Lnoise_BB86_58:
	xorl	%r9d, %r9d
	.p2align	4
.Lnoise_BB86_59:
	movq	%r9, %r8
	cmpq	%r9, %rdi
	je	.Lnoise_BB86_61
	leaq	1(%r8), %r9
	cmpb	$0, 424(%rsp,%r8)
	jne	.Lnoise_BB86_59
.Lnoise_BB86_61:
	xorl	%r9d, %r9d
	.p2align	4
.Lnoise_BB86_62:
	movq	%r9, %r11
	cmpq	%r9, %rdi
	je	.Lnoise_BB86_64
	leaq	1(%r11), %r9
	cmpb	$1, 424(%rsp,%r11)
	jne	.Lnoise_BB86_62
.Lnoise_BB86_64:
	xorl	%r9d, %r9d
	.p2align	4
.Lnoise_BB86_65:
	cmpq	%r9, %rdi
	je	.Lnoise_BB86_67
	cmpb	$0, 424(%rsp,%r9)
	leaq	1(%r9), %r9
	jne	.Lnoise_BB86_65
	jmp	.Lnoise_BB86_74
.Lnoise_BB86_67:
	testq	%rcx, %rcx
	je	.Lnoise_BB86_75
	xorl	%r9d, %r9d
	movq	%rcx, %r10
	movq	%rax, %r15
	jmp	.Lnoise_BB86_70
.Lnoise_BB86_69:
	addq	$24, %r15
	decq	%r10
	xorb	$1, %r9b
	testq	%r10, %r10
	je	.Lnoise_BB86_75
.Lnoise_BB86_70:
	cmpb	$1, %r9b
	jne	.Lnoise_BB86_69
	movq	16(%r15), %r12
	xorl	%r13d, %r13d
	.p2align	4
.Lnoise_BB86_72:
	cmpq	%r13, %r12
	je	.Lnoise_BB86_69
	cmpb	$0, (%r15,%r13)
	leaq	1(%r13), %r13
	jne	.Lnoise_BB86_72
.Lnoise_BB86_74:
	movabsq	$4294967296, %r9
	movq	%r9, 344(%rsp)
	jmp	.Lnoise_BB86_76
.Lnoise_BB86_75:
	movq	$0, 344(%rsp)
.Lnoise_BB86_76:
	xorl	%r9d, %r9d
	.p2align	4
.Lnoise_BB86_77:
	cmpq	%r9, %rdi
	je	.Lnoise_BB86_79
	cmpb	$1, 424(%rsp,%r9)
	leaq	1(%r9), %r9
	jne	.Lnoise_BB86_77
	jmp	.Lnoise_BB86_86
.Lnoise_BB86_79:
	testq	%rcx, %rcx
	je	.Lnoise_BB86_87
	xorl	%r9d, %r9d
	movq	%rcx, %r10
	jmp	.Lnoise_BB86_82
.Lnoise_BB86_81:
	addq	$24, %rax
	decq	%r10
	xorb	$1, %r9b
	testq	%r10, %r10
	je	.Lnoise_BB86_87
.Lnoise_BB86_82:
	cmpb	$1, %r9b
	jne	.Lnoise_BB86_81
	movq	16(%rax), %r15
	xorl	%r12d, %r12d
	.p2align	4
.Lnoise_BB86_84:
	cmpq	%r12, %r15
	je	.Lnoise_BB86_81
	cmpb	$1, (%rax,%r12)
	leaq	1(%r12), %r12
	jne	.Lnoise_BB86_84
.Lnoise_BB86_86:
	movabsq	$1099511627776, %rax
	movq	%rax, 336(%rsp)
	jmp	.Lnoise_BB86_88
.Lnoise_BB86_87:
	movq	$0, 336(%rsp)
.Lnoise_BB86_88:
	xorl	%r10d, %r10d
	.p2align	4
.Lnoise_BB86_89:
	movq	%r10, %rax
	cmpq	%r10, %rsi
	je	.Lnoise_BB86_91
	leaq	1(%rax), %r10
	cmpb	$0, 408(%rsp,%rax)
	jne	.Lnoise_BB86_89
.Lnoise_BB86_91:
	xorl	%r15d, %r15d
	.p2align	4
.Lnoise_BB86_92:
	xorl	%r10d, %r10d
	cmpq	%r15, %rsi
	je	.Lnoise_BB86_95
	cmpb	$1, 408(%rsp,%r15)
	leaq	1(%r15), %r15
	jne	.Lnoise_BB86_92
	movabsq	$72057594037927936, %r15
	movq	%r15, 648(%rsp)
	jmp	.Lnoise_BB86_96
.Lnoise_BB86_95:
	movq	$0, 648(%rsp)
.Lnoise_BB86_96:
	xorl	%r15d, %r15d
	cmpq	%rax, %rsi
	setne	%r15b
	xorl	%r13d, %r13d
	cmpq	%r8, %rdi
	setne	%r13b
	xorl	%r8d, %r8d
	cmpq	%r11, %rdi
	setne	%r8b
	testq	%rsi, %rsi
	je	.Lnoise_BB86_99
	movzbl	408(%rsp), %eax
	incb	%al
	movq	%rax, 640(%rsp)
	cmpq	$1, %rsi
	je	.Lnoise_BB86_100
	movzbl	409(%rsp), %eax
	incb	%al
	movzbl	%al, %r10d
	shll	$8, %r10d
	jmp	.Lnoise_BB86_100
.Lnoise_BB86_99:
	movq	$0, 640(%rsp)
.Lnoise_BB86_100:
	shll	$24, %r8d
	shll	$16, %r13d
	testq	%rdi, %rdi
	je	.Lnoise_BB86_103
	movzbl	424(%rsp), %esi
	incb	%sil
	cmpq	$1, %rdi
	jne	.Lnoise_BB86_104
	movl	$0, 324(%rsp)
	jmp	.Lnoise_BB86_105
.Lnoise_BB86_103:
	movl	$0, 324(%rsp)
	xorl	%esi, %esi
	jmp	.Lnoise_BB86_105
.Lnoise_BB86_104:
	movzbl	425(%rsp), %eax
	incb	%al
	movzbl	%al, %eax
	shll	$8, %eax
	movl	%eax, 324(%rsp)
.Lnoise_BB86_105:
	shlq	$48, %r15
	xorl	%eax, %eax
	testq	%rcx, %rcx
	movq	%r15, 680(%rsp)
	movq	%r13, 672(%rsp)
	movq	%r8, 664(%rsp)
	movq	%rcx, 312(%rsp)
	movq	%rbx, 656(%rsp)
	je	.Lnoise_BB86_110
	movq	456(%rsp), %rdi
	testq	%rdi, %rdi
	movl	%esi, 188(%rsp)
	je	.Lnoise_BB86_112
	movzbl	440(%rsp), %r8d
	incb	%r8b
	cmpq	$1, %rdi
	je	.Lnoise_BB86_108
	movzbl	441(%rsp), %r11d
	incb	%r11b
	cmpq	$3, %rdi
	jb	.Lnoise_BB86_109
	movzbl	442(%rsp), %r12d
	incb	%r12b
	cmpq	$3, %rdi
	je	.Lnoise_BB86_115
	movzbl	443(%rsp), %r9d
	incb	%r9b
	movl	%r9d, 20(%rsp)
	cmpq	$5, %rdi
	jb	.Lnoise_BB86_116
	movzbl	444(%rsp), %ebx
	incb	%bl
	cmpq	$5, %rdi
	je	.Lnoise_BB86_117
	movzbl	445(%rsp), %esi
	incb	%sil
	movl	%esi, 16(%rsp)
	cmpq	$7, %rdi
	jb	.Lnoise_BB86_175
	movzbl	446(%rsp), %esi
	incb	%sil
	movl	%esi, 12(%rsp)
	cmpq	$7, %rdi
	je	.Lnoise_BB86_176
	movzbl	447(%rsp), %esi
	incb	%sil
	movl	%esi, 8(%rsp)
	cmpq	$9, %rdi
	jb	.Lnoise_BB86_177
	movzbl	448(%rsp), %esi
	incb	%sil
	movl	%esi, 24(%rsp)
	cmpq	$9, %rdi
	je	.Lnoise_BB86_178
	movzbl	449(%rsp), %esi
	incb	%sil
	jmp	.Lnoise_BB86_179
.Lnoise_BB86_110:
	movl	$0, 36(%rsp)
	movl	$0, 48(%rsp)
	movl	$0, 68(%rsp)
	movl	$0, 84(%rsp)
	movl	$0, 112(%rsp)
	movl	$0, 140(%rsp)
	movl	$0, 168(%rsp)
	movl	$0, 200(%rsp)
	movl	$0, 52(%rsp)
	movl	$0, 252(%rsp)
	movl	$0, 72(%rsp)
	movl	$0, 88(%rsp)
	movl	$0, 116(%rsp)
	movl	$0, 144(%rsp)
	movl	$0, 172(%rsp)
	movl	$0, 204(%rsp)
	movl	$0, 236(%rsp)
	movl	$0, 100(%rsp)
	movl	$0, 276(%rsp)
	movl	$0, 288(%rsp)
	movl	$0, 124(%rsp)
	movl	$0, 148(%rsp)
	movl	$0, 180(%rsp)
	movl	$0, 212(%rsp)
	movl	$0, 244(%rsp)
	movl	$0, 260(%rsp)
	movl	$0, 280(%rsp)
	movl	$0, 156(%rsp)
	movl	$0, 304(%rsp)
	movl	$0, 308(%rsp)
	xorl	%r8d, %r8d
	xorl	%ebx, %ebx
	xorl	%ecx, %ecx
	xorl	%r15d, %r15d
	xorl	%r13d, %r13d
	xorl	%r12d, %r12d
	xorl	%r11d, %r11d
	xorl	%ebp, %ebp
	movl	$0, 332(%rsp)
	movl	$0, 328(%rsp)
	movl	$0, 320(%rsp)
	movl	$0, 296(%rsp)
	movl	$0, 184(%rsp)
	movl	$0, 292(%rsp)
	movl	$0, 284(%rsp)
	movl	$0, 264(%rsp)
	movl	$0, 248(%rsp)
	movl	$0, 216(%rsp)
	xorl	%r9d, %r9d
	movl	$0, 152(%rsp)
	movl	$0, 300(%rsp)
	movl	$0, 220(%rsp)
	movl	$0, 128(%rsp)
	movl	$0, 256(%rsp)
	movl	$0, 240(%rsp)
	movl	$0, 208(%rsp)
	movl	$0, 176(%rsp)
	movl	$0, 268(%rsp)
	movl	$0, 120(%rsp)
	movl	$0, 92(%rsp)
	movl	$0, 272(%rsp)
	movl	$0, 56(%rsp)
	movl	$0, 96(%rsp)
	movl	$0, 196(%rsp)
	movl	$0, 164(%rsp)
	movl	$0, 136(%rsp)
	movl	$0, 108(%rsp)
	movl	$0, 80(%rsp)
	movl	$0, 64(%rsp)
	movl	$0, 44(%rsp)
	movl	$0, 232(%rsp)
	movl	$0, 192(%rsp)
	movl	$0, 160(%rsp)
	movl	$0, 132(%rsp)
	movl	$0, 104(%rsp)
	movl	$0, 76(%rsp)
	movl	$0, 60(%rsp)
	movl	$0, 40(%rsp)
	movl	$0, 32(%rsp)
	movl	$0, 28(%rsp)
	jmp	.Lnoise_BB86_111
.Lnoise_BB86_112:
	xorl	%r8d, %r8d
.Lnoise_BB86_108:
	xorl	%r11d, %r11d
.Lnoise_BB86_109:
	xorl	%r12d, %r12d
.Lnoise_BB86_115:
	movl	$0, 20(%rsp)
.Lnoise_BB86_116:
	xorl	%ebx, %ebx
.Lnoise_BB86_117:
	xorl	%edi, %edi
	movl	$0, 12(%rsp)
	movl	$0, 8(%rsp)
	movl	$0, 24(%rsp)
	xorl	%esi, %esi
.Lnoise_BB86_118:
	movl	%edi, 16(%rsp)
	cmpq	$1, %rcx
	movl	%r11d, 332(%rsp)
	movl	%r8d, 328(%rsp)
	jne	.Lnoise_BB86_120
	movl	$0, 36(%rsp)
	movl	$0, 48(%rsp)
	movl	$0, 68(%rsp)
	movl	$0, 84(%rsp)
	movl	$0, 112(%rsp)
	movl	$0, 140(%rsp)
	movl	$0, 168(%rsp)
	movl	$0, 200(%rsp)
	movl	$0, 52(%rsp)
	movl	$0, 252(%rsp)
	movl	$0, 72(%rsp)
	movl	$0, 88(%rsp)
	movl	$0, 116(%rsp)
	movl	$0, 144(%rsp)
	movl	$0, 172(%rsp)
	movl	$0, 204(%rsp)
	movl	$0, 236(%rsp)
	movl	$0, 100(%rsp)
	movl	$0, 276(%rsp)
	movl	$0, 288(%rsp)
	movl	$0, 124(%rsp)
	movl	$0, 148(%rsp)
	movl	$0, 180(%rsp)
	movl	$0, 212(%rsp)
	movl	$0, 244(%rsp)
	movl	$0, 260(%rsp)
	movl	$0, 280(%rsp)
	movl	$0, 156(%rsp)
	movl	$0, 304(%rsp)
	movl	$0, 308(%rsp)
	movl	$0, 320(%rsp)
	movl	$0, 296(%rsp)
	movl	$0, 184(%rsp)
	movl	$0, 292(%rsp)
	movl	$0, 284(%rsp)
	movl	$0, 264(%rsp)
	movl	$0, 248(%rsp)
	movl	$0, 216(%rsp)
	xorl	%r9d, %r9d
	movl	$0, 152(%rsp)
	movl	$0, 300(%rsp)
	movl	$0, 220(%rsp)
	movl	$0, 128(%rsp)
	movl	$0, 256(%rsp)
	movl	$0, 240(%rsp)
	movl	$0, 208(%rsp)
	movl	$0, 176(%rsp)
	movl	$0, 268(%rsp)
	movl	$0, 120(%rsp)
	movl	$0, 92(%rsp)
	movl	$0, 272(%rsp)
	movl	$0, 56(%rsp)
	movl	$0, 96(%rsp)
	movl	$0, 196(%rsp)
	movl	$0, 164(%rsp)
	movl	$0, 136(%rsp)
	movl	$0, 108(%rsp)
	movl	$0, 80(%rsp)
	movl	$0, 64(%rsp)
	movl	$0, 44(%rsp)
	movl	$0, 232(%rsp)
	movl	$0, 192(%rsp)
	movl	$0, 160(%rsp)
	movl	$0, 132(%rsp)
	movl	$0, 104(%rsp)
	movl	$0, 76(%rsp)
	movl	$0, 60(%rsp)
	movl	$0, 40(%rsp)
	movl	%r12d, %ebp
	movl	$0, 32(%rsp)
	movl	20(%rsp), %r11d
	movl	%ebx, %r12d
	movl	$0, 28(%rsp)
	movl	16(%rsp), %r13d
	movl	12(%rsp), %r15d
	movl	8(%rsp), %ecx
	movl	%esi, %r8d
	movl	24(%rsp), %ebx
	jmp	.Lnoise_BB86_147
.Lnoise_BB86_120:
	movq	480(%rsp), %rdi
	testq	%rdi, %rdi
	je	.Lnoise_BB86_131
	movzbl	464(%rsp), %r9d
	incb	%r9b
	movl	%r9d, 320(%rsp)
	cmpq	$1, %rdi
	je	.Lnoise_BB86_132
	movzbl	465(%rsp), %r9d
	incb	%r9b
	cmpq	$3, %rdi
	jb	.Lnoise_BB86_133
	movl	%r12d, %ebp
	movl	%ebx, %r12d
	movl	%esi, %ebx
	movl	%r9d, %esi
	movzbl	466(%rsp), %r9d
	incb	%r9b
	movl	%r9d, 184(%rsp)
	cmpq	$3, %rdi
	jne	.Lnoise_BB86_163
	movl	$0, 292(%rsp)
	jmp	.Lnoise_BB86_126
.Lnoise_BB86_131:
	movl	$0, 320(%rsp)
.Lnoise_BB86_132:
	xorl	%r9d, %r9d
.Lnoise_BB86_133:
	xorl	%edi, %edi
	movl	$0, 292(%rsp)
	movl	$0, 284(%rsp)
	movl	$0, 264(%rsp)
	movl	$0, 248(%rsp)
	movl	$0, 216(%rsp)
	movl	$0, 4(%rsp)
	movl	$0, 152(%rsp)
.Lnoise_BB86_134:
	movl	%edi, 184(%rsp)
	cmpq	$3, %rcx
	movl	%r9d, 296(%rsp)
	jb	.Lnoise_BB86_139
	movq	504(%rsp), %rdi
	testq	%rdi, %rdi
	je	.Lnoise_BB86_140
	movl	%r12d, %ebp
	movl	%ebx, %r12d
	movl	%esi, %ebx
	movzbl	488(%rsp), %r9d
	incb	%r9b
	movl	%r9d, 308(%rsp)
	cmpq	$1, %rdi
	jne	.Lnoise_BB86_155
	movl	$0, 304(%rsp)
	jmp	.Lnoise_BB86_138
.Lnoise_BB86_139:
	movl	$0, 36(%rsp)
	movl	$0, 48(%rsp)
	movl	$0, 68(%rsp)
	movl	$0, 84(%rsp)
	movl	$0, 112(%rsp)
	movl	$0, 140(%rsp)
	movl	$0, 168(%rsp)
	movl	$0, 200(%rsp)
	movl	$0, 52(%rsp)
	movl	$0, 252(%rsp)
	movl	$0, 72(%rsp)
	movl	$0, 88(%rsp)
	movl	$0, 116(%rsp)
	movl	$0, 144(%rsp)
	movl	$0, 172(%rsp)
	movl	$0, 204(%rsp)
	movl	$0, 236(%rsp)
	movl	$0, 100(%rsp)
	movl	$0, 276(%rsp)
	movl	$0, 288(%rsp)
	movl	$0, 124(%rsp)
	movl	$0, 148(%rsp)
	movl	$0, 180(%rsp)
	movl	$0, 212(%rsp)
	movl	$0, 244(%rsp)
	movl	$0, 260(%rsp)
	movl	$0, 280(%rsp)
	movl	$0, 156(%rsp)
	movl	$0, 304(%rsp)
	movl	$0, 308(%rsp)
	jmp	.Lnoise_BB86_142
.Lnoise_BB86_140:
	movl	$0, 308(%rsp)
	movl	$0, 304(%rsp)
	xorl	%edi, %edi
	movl	$0, 280(%rsp)
	movl	$0, 260(%rsp)
	movl	$0, 244(%rsp)
	movl	$0, 212(%rsp)
	movl	$0, 180(%rsp)
	movl	$0, 148(%rsp)
	movl	$0, 124(%rsp)
	movl	%edi, 156(%rsp)
	cmpq	$3, %rcx
	je	.Lnoise_BB86_141
.Lnoise_BB86_189:
	movq	528(%rsp), %rdi
	testq	%rdi, %rdi
	je	.Lnoise_BB86_197
	movzbl	512(%rsp), %r9d
	incb	%r9b
	movl	%r9d, 300(%rsp)
	cmpq	$1, %rdi
	je	.Lnoise_BB86_198
	movzbl	513(%rsp), %ebp
	incb	%bpl
	cmpq	$3, %rdi
	jb	.Lnoise_BB86_199
	movzbl	514(%rsp), %r9d
	incb	%r9b
	movl	%r9d, 128(%rsp)
	cmpq	$3, %rdi
	jne	.Lnoise_BB86_213
	movl	$0, 256(%rsp)
	jmp	.Lnoise_BB86_195
.Lnoise_BB86_155:
	movzbl	489(%rsp), %r9d
	incb	%r9b
	movl	%r9d, 304(%rsp)
	cmpq	$3, %rdi
	jb	.Lnoise_BB86_138
	movzbl	490(%rsp), %r9d
	incb	%r9b
	movl	%r9d, 156(%rsp)
	cmpq	$3, %rdi
	jne	.Lnoise_BB86_170
	movl	$0, 280(%rsp)
	jmp	.Lnoise_BB86_158
.Lnoise_BB86_138:
	xorl	%edi, %edi
	movl	$0, 280(%rsp)
	movl	$0, 260(%rsp)
	movl	$0, 244(%rsp)
	movl	$0, 212(%rsp)
	movl	$0, 180(%rsp)
	movl	$0, 148(%rsp)
	movl	$0, 124(%rsp)
	jmp	.Lnoise_BB86_161
.Lnoise_BB86_197:
	movl	$0, 300(%rsp)
.Lnoise_BB86_198:
	xorl	%ebp, %ebp
.Lnoise_BB86_199:
	xorl	%edi, %edi
	movl	$0, 256(%rsp)
	movl	$0, 240(%rsp)
	movl	$0, 208(%rsp)
	movl	$0, 176(%rsp)
	xorl	%r9d, %r9d
	movl	$0, 120(%rsp)
	movl	$0, 92(%rsp)
.Lnoise_BB86_200:
	movl	%edi, 128(%rsp)
	cmpq	$5, %rcx
	movl	%ebp, 220(%rsp)
	movl	%r9d, 268(%rsp)
	jb	.Lnoise_BB86_204
	movq	552(%rsp), %rdi
	testq	%rdi, %rdi
	je	.Lnoise_BB86_209
	movzbl	536(%rsp), %r9d
	incb	%r9b
	movl	%r9d, 288(%rsp)
	cmpq	$1, %rdi
	je	.Lnoise_BB86_210
	movzbl	537(%rsp), %r9d
	incb	%r9b
	movl	%r9d, 276(%rsp)
	cmpq	$3, %rdi
	jb	.Lnoise_BB86_211
	movzbl	538(%rsp), %r9d
	incb	%r9b
	movl	%r9d, 100(%rsp)
	cmpq	$3, %rdi
	jne	.Lnoise_BB86_218
	movl	$0, 236(%rsp)
	jmp	.Lnoise_BB86_208
.Lnoise_BB86_204:
	movl	$0, 36(%rsp)
	movl	$0, 48(%rsp)
	movl	$0, 68(%rsp)
	movl	$0, 84(%rsp)
	movl	$0, 112(%rsp)
	movl	$0, 140(%rsp)
	movl	$0, 168(%rsp)
	movl	$0, 200(%rsp)
	movl	$0, 52(%rsp)
	movl	$0, 252(%rsp)
	movl	$0, 72(%rsp)
	movl	$0, 88(%rsp)
	movl	$0, 116(%rsp)
	movl	$0, 144(%rsp)
	movl	$0, 172(%rsp)
	movl	$0, 204(%rsp)
	movl	$0, 236(%rsp)
	movl	$0, 100(%rsp)
	movl	$0, 276(%rsp)
	movl	$0, 288(%rsp)
	jmp	.Lnoise_BB86_143
.Lnoise_BB86_163:
	movzbl	467(%rsp), %r9d
	incb	%r9b
	movl	%r9d, 292(%rsp)
	cmpq	$5, %rdi
	jb	.Lnoise_BB86_126
	movzbl	468(%rsp), %r9d
	incb	%r9b
	movl	%r9d, 284(%rsp)
	cmpq	$5, %rdi
	je	.Lnoise_BB86_127
	movzbl	469(%rsp), %r9d
	incb	%r9b
	movl	%r9d, 264(%rsp)
	cmpq	$7, %rdi
	jb	.Lnoise_BB86_128
	movzbl	470(%rsp), %r9d
	incb	%r9b
	movl	%r9d, 248(%rsp)
	cmpq	$7, %rdi
	je	.Lnoise_BB86_129
	movl	%esi, 296(%rsp)
	movl	%ebx, (%rsp)
	movzbl	471(%rsp), %r9d
	incb	%r9b
	cmpq	$9, %rdi
	movl	%r9d, 216(%rsp)
	jb	.Lnoise_BB86_180
	movl	%r12d, %ecx
	movl	%ebp, %r12d
	movzbl	472(%rsp), %esi
	incb	%sil
	movl	%esi, 4(%rsp)
	cmpq	$9, %rdi
	jne	.Lnoise_BB86_184
	movl	$0, 152(%rsp)
	jmp	.Lnoise_BB86_185
.Lnoise_BB86_126:
	movl	$0, 284(%rsp)
.Lnoise_BB86_127:
	movl	$0, 264(%rsp)
.Lnoise_BB86_128:
	movl	$0, 248(%rsp)
.Lnoise_BB86_129:
	movl	$0, 216(%rsp)
	movl	$0, 4(%rsp)
	movl	$0, 152(%rsp)
	movl	184(%rsp), %edi
	movl	%esi, %r9d
.Lnoise_BB86_130:
	movl	%ebx, %esi
	movl	%r12d, %ebx
	movl	%ebp, %r12d
	jmp	.Lnoise_BB86_134
.Lnoise_BB86_209:
	movl	$0, 288(%rsp)
.Lnoise_BB86_210:
	movl	$0, 276(%rsp)
.Lnoise_BB86_211:
	xorl	%edi, %edi
	movl	$0, 236(%rsp)
	movl	$0, 204(%rsp)
	movl	$0, 172(%rsp)
	movl	$0, 144(%rsp)
	movl	$0, 116(%rsp)
	movl	$0, 88(%rsp)
	movl	$0, 72(%rsp)
	movl	%edi, 100(%rsp)
	cmpq	$5, %rcx
	jne	.Lnoise_BB86_227
.Lnoise_BB86_212:
	movl	$0, 36(%rsp)
	movl	$0, 48(%rsp)
	movl	$0, 68(%rsp)
	movl	$0, 84(%rsp)
	movl	$0, 112(%rsp)
	movl	$0, 140(%rsp)
	movl	$0, 168(%rsp)
	movl	$0, 200(%rsp)
	movl	$0, 52(%rsp)
	movl	$0, 252(%rsp)
	jmp	.Lnoise_BB86_143
.Lnoise_BB86_170:
	movzbl	491(%rsp), %r9d
	incb	%r9b
	movl	%r9d, 280(%rsp)
	cmpq	$5, %rdi
	jb	.Lnoise_BB86_158
	movzbl	492(%rsp), %r9d
	incb	%r9b
	movl	%r9d, 260(%rsp)
	cmpq	$5, %rdi
	je	.Lnoise_BB86_159
	movzbl	493(%rsp), %r9d
	incb	%r9b
	movl	%r9d, 244(%rsp)
	cmpq	$7, %rdi
	jb	.Lnoise_BB86_160
	movl	%ebx, (%rsp)
	movzbl	494(%rsp), %r9d
	incb	%r9b
	movl	%r9d, 212(%rsp)
	cmpq	$7, %rdi
	jne	.Lnoise_BB86_181
	movl	$0, 180(%rsp)
	movl	$0, 148(%rsp)
	movl	$0, 124(%rsp)
	movl	(%rsp), %esi
	movl	156(%rsp), %edi
	jmp	.Lnoise_BB86_162
.Lnoise_BB86_158:
	movl	$0, 260(%rsp)
.Lnoise_BB86_159:
	movl	$0, 244(%rsp)
.Lnoise_BB86_160:
	movl	$0, 212(%rsp)
	movl	$0, 180(%rsp)
	movl	$0, 148(%rsp)
	movl	$0, 124(%rsp)
	movl	156(%rsp), %edi
.Lnoise_BB86_161:
	movl	%ebx, %esi
.Lnoise_BB86_162:
	movl	%r12d, %ebx
	movl	%ebp, %r12d
	movl	%edi, 156(%rsp)
	cmpq	$3, %rcx
	jne	.Lnoise_BB86_189
.Lnoise_BB86_141:
	movl	$0, 36(%rsp)
	movl	$0, 48(%rsp)
	movl	$0, 68(%rsp)
	movl	$0, 84(%rsp)
	movl	$0, 112(%rsp)
	movl	$0, 140(%rsp)
	movl	$0, 168(%rsp)
	movl	$0, 200(%rsp)
	movl	$0, 52(%rsp)
	movl	$0, 252(%rsp)
	movl	$0, 72(%rsp)
	movl	$0, 88(%rsp)
	movl	$0, 116(%rsp)
	movl	$0, 144(%rsp)
	movl	$0, 172(%rsp)
	movl	$0, 204(%rsp)
	movl	$0, 236(%rsp)
	movl	$0, 100(%rsp)
	movl	$0, 276(%rsp)
	movl	$0, 288(%rsp)
.Lnoise_BB86_142:
	movl	$0, 300(%rsp)
	movl	$0, 220(%rsp)
	movl	$0, 128(%rsp)
	movl	$0, 256(%rsp)
	movl	$0, 240(%rsp)
	movl	$0, 208(%rsp)
	movl	$0, 176(%rsp)
	movl	$0, 268(%rsp)
	movl	$0, 120(%rsp)
	movl	$0, 92(%rsp)
.Lnoise_BB86_143:
	movl	$0, 272(%rsp)
	movl	$0, 56(%rsp)
	movl	$0, 96(%rsp)
	movl	$0, 196(%rsp)
	movl	$0, 164(%rsp)
	movl	$0, 136(%rsp)
	movl	$0, 108(%rsp)
	movl	$0, 80(%rsp)
	movl	$0, 64(%rsp)
	movl	$0, 44(%rsp)
.Lnoise_BB86_144:
	movl	$0, 232(%rsp)
	movl	$0, 192(%rsp)
	movl	$0, 160(%rsp)
	movl	$0, 132(%rsp)
	movl	$0, 104(%rsp)
	movl	$0, 76(%rsp)
	movl	$0, 60(%rsp)
	movl	$0, 40(%rsp)
	movl	%r12d, %ebp
	movl	$0, 32(%rsp)
	movl	20(%rsp), %r11d
	movl	%ebx, %r12d
	movl	$0, 28(%rsp)
.Lnoise_BB86_145:
	movl	16(%rsp), %r13d
	movl	12(%rsp), %r15d
	movl	8(%rsp), %ecx
	movl	%esi, %r8d
	movl	24(%rsp), %ebx
.Lnoise_BB86_146:
	movl	4(%rsp), %r9d
.Lnoise_BB86_147:
	movl	188(%rsp), %esi
.Lnoise_BB86_111:
	movzbl	%sil, %esi
	movl	324(%rsp), %edi
	orl	%esi, %edi
	movzbl	640(%rsp), %esi
	orl	%esi, %r10d
	shll	$16, %edi
	orl	%edi, %r10d
	movq	352(%rsp), %rsi
	orq	360(%rsp), %rsi
	orq	672(%rsp), %rsi
	movq	664(%rsp), %rdi
	orq	344(%rsp), %rdi
	orq	%rsi, %rdi
	movq	336(%rsp), %rsi
	orq	680(%rsp), %rsi
	orq	648(%rsp), %rsi
	orq	%rdi, %rsi
	movq	312(%rsp), %rdi
	cmpq	$1, %rdi
	movb	%dil, (%r14)
	sete	1(%r14)
	movb	%dl, 2(%r14)
	movq	%rsi, 3(%r14)
	movl	%r10d, 11(%r14)
	movl	328(%rsp), %edx
	movb	%dl, 15(%r14)
	movl	332(%rsp), %edx
	movb	%dl, 16(%r14)
	movb	%bpl, 17(%r14)
	movb	%r11b, 18(%r14)
	movb	%r12b, 19(%r14)
	movb	%r13b, 20(%r14)
	movb	%r15b, 21(%r14)
	movb	%cl, 22(%r14)
	movb	%bl, 23(%r14)
	movb	%r8b, 24(%r14)
	movl	320(%rsp), %ecx
	movb	%cl, 25(%r14)
	movl	296(%rsp), %ecx
	movb	%cl, 26(%r14)
	movl	184(%rsp), %ecx
	movb	%cl, 27(%r14)
	movl	292(%rsp), %ecx
	movb	%cl, 28(%r14)
	movl	284(%rsp), %ecx
	movb	%cl, 29(%r14)
	movl	264(%rsp), %ecx
	movb	%cl, 30(%r14)
	movl	248(%rsp), %ecx
	movb	%cl, 31(%r14)
	movl	216(%rsp), %ecx
	movb	%cl, 32(%r14)
	movb	%r9b, 33(%r14)
	movl	152(%rsp), %ecx
	movb	%cl, 34(%r14)
	movl	308(%rsp), %ecx
	movb	%cl, 35(%r14)
	movl	304(%rsp), %ecx
	movb	%cl, 36(%r14)
	movl	156(%rsp), %ecx
	movb	%cl, 37(%r14)
	movl	280(%rsp), %ecx
	movb	%cl, 38(%r14)
	movl	260(%rsp), %ecx
	movb	%cl, 39(%r14)
	movl	244(%rsp), %ecx
	movb	%cl, 40(%r14)
	movl	212(%rsp), %ecx
	movb	%cl, 41(%r14)
	movl	180(%rsp), %ecx
	movb	%cl, 42(%r14)
	movl	148(%rsp), %ecx
	movb	%cl, 43(%r14)
	movl	124(%rsp), %ecx
	movb	%cl, 44(%r14)
	movl	300(%rsp), %ecx
	movb	%cl, 45(%r14)
	movl	220(%rsp), %ecx
	movb	%cl, 46(%r14)
	movl	128(%rsp), %ecx
	movb	%cl, 47(%r14)
	movl	256(%rsp), %ecx
	movb	%cl, 48(%r14)
	movl	240(%rsp), %ecx
	movb	%cl, 49(%r14)
	movl	208(%rsp), %ecx
	movb	%cl, 50(%r14)
	movl	176(%rsp), %ecx
	movb	%cl, 51(%r14)
	movl	268(%rsp), %ecx
	movb	%cl, 52(%r14)
	movl	120(%rsp), %ecx
	movb	%cl, 53(%r14)
	movl	92(%rsp), %ecx
	movb	%cl, 54(%r14)
	movl	288(%rsp), %ecx
	movb	%cl, 55(%r14)
	movl	276(%rsp), %ecx
	movb	%cl, 56(%r14)
	movl	100(%rsp), %ecx
	movb	%cl, 57(%r14)
	movl	236(%rsp), %ecx
	movb	%cl, 58(%r14)
	movl	204(%rsp), %ecx
	movb	%cl, 59(%r14)
	movl	172(%rsp), %ecx
	movb	%cl, 60(%r14)
	movl	144(%rsp), %ecx
	movb	%cl, 61(%r14)
	movl	116(%rsp), %ecx
	movb	%cl, 62(%r14)
	movl	88(%rsp), %ecx
	movb	%cl, 63(%r14)
	movl	72(%rsp), %ecx
	movb	%cl, 64(%r14)
	movl	272(%rsp), %ecx
	movb	%cl, 65(%r14)
	movl	56(%rsp), %ecx
	movb	%cl, 66(%r14)
	movl	96(%rsp), %ecx
	movb	%cl, 67(%r14)
	movl	196(%rsp), %ecx
	movb	%cl, 68(%r14)
	movl	164(%rsp), %ecx
	movb	%cl, 69(%r14)
	movl	136(%rsp), %ecx
	movb	%cl, 70(%r14)
	movl	108(%rsp), %ecx
	movb	%cl, 71(%r14)
	movl	80(%rsp), %ecx
	movb	%cl, 72(%r14)
	movl	64(%rsp), %ecx
	movb	%cl, 73(%r14)
	movl	44(%rsp), %ecx
	movb	%cl, 74(%r14)
	movl	252(%rsp), %ecx
	movb	%cl, 75(%r14)
	movl	52(%rsp), %ecx
	movb	%cl, 76(%r14)
	movl	200(%rsp), %ecx
	movb	%cl, 77(%r14)
	movl	168(%rsp), %ecx
	movb	%cl, 78(%r14)
	movl	140(%rsp), %ecx
	movb	%cl, 79(%r14)
	movl	112(%rsp), %ecx
	movb	%cl, 80(%r14)
	movl	84(%rsp), %ecx
	movb	%cl, 81(%r14)
	movl	68(%rsp), %ecx
	movb	%cl, 82(%r14)
	movl	48(%rsp), %ecx
	movb	%cl, 83(%r14)
	movl	36(%rsp), %ecx
	movb	%cl, 84(%r14)
	movl	232(%rsp), %ecx
	movb	%cl, 85(%r14)
	movl	192(%rsp), %ecx
	movb	%cl, 86(%r14)
	movl	160(%rsp), %ecx
	movb	%cl, 87(%r14)
	movl	132(%rsp), %ecx
	movb	%cl, 88(%r14)
	movl	104(%rsp), %ecx
	movb	%cl, 89(%r14)
	movl	76(%rsp), %ecx
	movb	%cl, 90(%r14)
	movl	60(%rsp), %ecx
	movb	%cl, 91(%r14)
	movl	40(%rsp), %ecx
	movb	%cl, 92(%r14)
	movl	32(%rsp), %ecx
	movb	%cl, 93(%r14)
	movl	28(%rsp), %ecx
	movb	%cl, 94(%r14)
	movq	656(%rsp), %rcx
	movb	%dil, 11(%rcx)
	jmp	.Lnoise_BB86_8
.Lnoise_BB86_175:
	movl	$0, 12(%rsp)
.Lnoise_BB86_176:
	movl	$0, 8(%rsp)
.Lnoise_BB86_177:
	movl	$0, 24(%rsp)
.Lnoise_BB86_178:
	xorl	%esi, %esi
.Lnoise_BB86_179:
	movl	16(%rsp), %edi
	jmp	.Lnoise_BB86_118
.Lnoise_BB86_213:
	movzbl	515(%rsp), %r9d
	incb	%r9b
	movl	%r9d, 256(%rsp)
	cmpq	$5, %rdi
	jb	.Lnoise_BB86_195
	movzbl	516(%rsp), %r9d
	incb	%r9b
	movl	%r9d, 240(%rsp)
	cmpq	$5, %rdi
	je	.Lnoise_BB86_196
	movl	%ebp, 220(%rsp)
	movl	%esi, (%rsp)
	movzbl	517(%rsp), %r9d
	incb	%r9b
	cmpq	$7, %rdi
	movl	%r9d, 208(%rsp)
	jb	.Lnoise_BB86_238
	movzbl	518(%rsp), %esi
	incb	%sil
	movl	%esi, 176(%rsp)
	cmpq	$7, %rdi
	jne	.Lnoise_BB86_245
	movl	$0, 120(%rsp)
	movl	$0, 92(%rsp)
	movq	312(%rsp), %rcx
	jmp	.Lnoise_BB86_239
.Lnoise_BB86_195:
	movl	$0, 240(%rsp)
.Lnoise_BB86_196:
	movl	$0, 208(%rsp)
	movl	$0, 176(%rsp)
	xorl	%r9d, %r9d
	movl	$0, 120(%rsp)
	movl	$0, 92(%rsp)
	movl	128(%rsp), %edi
	jmp	.Lnoise_BB86_200
.Lnoise_BB86_218:
	movzbl	539(%rsp), %r9d
	incb	%r9b
	movl	%r9d, 236(%rsp)
	cmpq	$5, %rdi
	jb	.Lnoise_BB86_208
	movl	%esi, (%rsp)
	movzbl	540(%rsp), %esi
	incb	%sil
	movl	%esi, 204(%rsp)
	cmpq	$5, %rdi
	jne	.Lnoise_BB86_240
	movl	$0, 172(%rsp)
	jmp	.Lnoise_BB86_221
.Lnoise_BB86_208:
	movl	$0, 204(%rsp)
	movl	$0, 172(%rsp)
	movl	$0, 144(%rsp)
	movl	$0, 116(%rsp)
	movl	$0, 88(%rsp)
	movl	$0, 72(%rsp)
	jmp	.Lnoise_BB86_226
.Lnoise_BB86_180:
	movl	$0, 4(%rsp)
	movl	$0, 152(%rsp)
	movl	(%rsp), %ebx
	movl	296(%rsp), %r9d
	movl	184(%rsp), %edi
	jmp	.Lnoise_BB86_130
.Lnoise_BB86_181:
	movl	%r12d, %ebx
	movzbl	495(%rsp), %r9d
	incb	%r9b
	movl	%r9d, 180(%rsp)
	cmpq	$9, %rdi
	jb	.Lnoise_BB86_186
	movzbl	496(%rsp), %r9d
	incb	%r9b
	movl	%r9d, 148(%rsp)
	cmpq	$9, %rdi
	jne	.Lnoise_BB86_187
	movl	$0, 124(%rsp)
	jmp	.Lnoise_BB86_188
.Lnoise_BB86_238:
	movl	$0, 176(%rsp)
	movl	$0, 120(%rsp)
	movl	$0, 92(%rsp)
.Lnoise_BB86_239:
	movl	(%rsp), %esi
	movl	220(%rsp), %ebp
	movl	128(%rsp), %edi
	xorl	%r9d, %r9d
	jmp	.Lnoise_BB86_200
.Lnoise_BB86_240:
	movzbl	541(%rsp), %esi
	incb	%sil
	movl	%esi, 172(%rsp)
	cmpq	$7, %rdi
	jb	.Lnoise_BB86_221
	movzbl	542(%rsp), %esi
	incb	%sil
	movl	%esi, 144(%rsp)
	cmpq	$7, %rdi
	je	.Lnoise_BB86_222
	movzbl	543(%rsp), %esi
	incb	%sil
	movl	%esi, 116(%rsp)
	cmpq	$9, %rdi
	jb	.Lnoise_BB86_223
	movzbl	544(%rsp), %esi
	incb	%sil
	movl	%esi, 88(%rsp)
	cmpq	$9, %rdi
	je	.Lnoise_BB86_224
	movzbl	545(%rsp), %esi
	incb	%sil
	movl	%esi, 72(%rsp)
	jmp	.Lnoise_BB86_225
.Lnoise_BB86_221:
	movl	$0, 144(%rsp)
.Lnoise_BB86_222:
	movl	$0, 116(%rsp)
.Lnoise_BB86_223:
	movl	$0, 88(%rsp)
.Lnoise_BB86_224:
	movl	$0, 72(%rsp)
.Lnoise_BB86_225:
	movl	(%rsp), %esi
.Lnoise_BB86_226:
	movl	100(%rsp), %edi
	movl	%edi, 100(%rsp)
	cmpq	$5, %rcx
	je	.Lnoise_BB86_212
.Lnoise_BB86_227:
	movq	576(%rsp), %rdi
	testq	%rdi, %rdi
	je	.Lnoise_BB86_248
	movzbl	560(%rsp), %r9d
	incb	%r9b
	movl	%r9d, 272(%rsp)
	cmpq	$1, %rdi
	je	.Lnoise_BB86_249
	movzbl	561(%rsp), %r9d
	incb	%r9b
	movl	%r9d, 56(%rsp)
	cmpq	$3, %rdi
	jb	.Lnoise_BB86_250
	movzbl	562(%rsp), %r9d
	incb	%r9b
	cmpq	$3, %rdi
	je	.Lnoise_BB86_251
	movl	%r9d, 96(%rsp)
	movzbl	563(%rsp), %r9d
	incb	%r9b
	movl	%r9d, 196(%rsp)
	cmpq	$5, %rdi
	jb	.Lnoise_BB86_252
	movzbl	564(%rsp), %r9d
	incb	%r9b
	movl	%r9d, 164(%rsp)
	cmpq	$5, %rdi
	je	.Lnoise_BB86_253
	movzbl	565(%rsp), %r9d
	incb	%r9b
	movl	%r9d, 136(%rsp)
	cmpq	$7, %rdi
	jb	.Lnoise_BB86_254
	movzbl	566(%rsp), %r9d
	incb	%r9b
	movl	%r9d, 108(%rsp)
	cmpq	$7, %rdi
	je	.Lnoise_BB86_255
	movzbl	567(%rsp), %r9d
	incb	%r9b
	movl	%r9d, 80(%rsp)
	cmpq	$9, %rdi
	jb	.Lnoise_BB86_256
	movzbl	568(%rsp), %r9d
	incb	%r9b
	movl	%r9d, 64(%rsp)
	cmpq	$9, %rdi
	je	.Lnoise_BB86_257
	movzbl	569(%rsp), %edi
	incb	%dil
	movl	%edi, 44(%rsp)
	jmp	.Lnoise_BB86_258
.Lnoise_BB86_248:
	movl	$0, 272(%rsp)
.Lnoise_BB86_249:
	xorl	%edi, %edi
	xorl	%r9d, %r9d
	movl	$0, 196(%rsp)
	movl	$0, 164(%rsp)
	movl	$0, 136(%rsp)
	movl	$0, 108(%rsp)
	movl	$0, 80(%rsp)
	movl	$0, 64(%rsp)
	movl	$0, 44(%rsp)
	jmp	.Lnoise_BB86_259
.Lnoise_BB86_250:
	xorl	%r9d, %r9d
.Lnoise_BB86_251:
	movl	$0, 196(%rsp)
	movl	$0, 164(%rsp)
	movl	$0, 136(%rsp)
	movl	$0, 108(%rsp)
	movl	$0, 80(%rsp)
	movl	$0, 64(%rsp)
	movl	$0, 44(%rsp)
	movl	56(%rsp), %edi
	jmp	.Lnoise_BB86_259
.Lnoise_BB86_252:
	movl	$0, 164(%rsp)
.Lnoise_BB86_253:
	movl	$0, 136(%rsp)
.Lnoise_BB86_254:
	movl	$0, 108(%rsp)
.Lnoise_BB86_255:
	movl	$0, 80(%rsp)
.Lnoise_BB86_256:
	movl	$0, 64(%rsp)
.Lnoise_BB86_257:
	movl	$0, 44(%rsp)
.Lnoise_BB86_258:
	movl	56(%rsp), %edi
	movl	96(%rsp), %r9d
.Lnoise_BB86_259:
	movl	%edi, 56(%rsp)
	cmpq	$7, %rcx
	movl	%r9d, 96(%rsp)
	jb	.Lnoise_BB86_263
	movq	600(%rsp), %rdi
	testq	%rdi, %rdi
	je	.Lnoise_BB86_275
	movzbl	584(%rsp), %r9d
	incb	%r9b
	movl	%r9d, 252(%rsp)
	cmpq	$1, %rdi
	je	.Lnoise_BB86_276
	movzbl	585(%rsp), %r9d
	incb	%r9b
	cmpq	$3, %rdi
	jb	.Lnoise_BB86_277
	movl	%r9d, 52(%rsp)
	movzbl	586(%rsp), %r9d
	incb	%r9b
	movl	%r9d, 200(%rsp)
	cmpq	$3, %rdi
	jne	.Lnoise_BB86_290
	movl	$0, 168(%rsp)
	jmp	.Lnoise_BB86_267
.Lnoise_BB86_263:
	movl	$0, 36(%rsp)
	movl	$0, 48(%rsp)
	movl	$0, 68(%rsp)
	movl	$0, 84(%rsp)
	movl	$0, 112(%rsp)
	movl	$0, 140(%rsp)
	movl	$0, 168(%rsp)
	movl	$0, 200(%rsp)
	movl	$0, 52(%rsp)
	movl	$0, 252(%rsp)
	jmp	.Lnoise_BB86_144
.Lnoise_BB86_275:
	movl	$0, 252(%rsp)
.Lnoise_BB86_276:
	xorl	%r9d, %r9d
.Lnoise_BB86_277:
	movl	$0, 200(%rsp)
	movl	$0, 168(%rsp)
	movl	$0, 140(%rsp)
	movl	$0, 112(%rsp)
	movl	$0, 84(%rsp)
	movl	$0, 68(%rsp)
	movl	$0, 48(%rsp)
	movl	$0, 36(%rsp)
	cmpq	$7, %rcx
	movl	%r9d, 52(%rsp)
	je	.Lnoise_BB86_274
.Lnoise_BB86_278:
	movq	624(%rsp), %rbp
	testq	%rbp, %rbp
	je	.Lnoise_BB86_274
	movl	%esi, (%rsp)
	movl	%ebx, 224(%rsp)
	movl	%r12d, 228(%rsp)
	movzbl	608(%rsp), %ecx
	incb	%cl
	movl	%ecx, 232(%rsp)
	cmpq	$1, %rbp
	jne	.Lnoise_BB86_281
	movl	$0, 192(%rsp)
	movl	$0, 160(%rsp)
	movl	$0, 132(%rsp)
	movl	$0, 104(%rsp)
	movl	$0, 76(%rsp)
	movl	$0, 60(%rsp)
	movl	$0, 40(%rsp)
	movl	$0, 32(%rsp)
	movl	$0, 28(%rsp)
	movl	228(%rsp), %ebp
	movl	20(%rsp), %r11d
	movl	224(%rsp), %r12d
	movl	16(%rsp), %r13d
	movl	12(%rsp), %r15d
	movl	8(%rsp), %ecx
	movl	24(%rsp), %ebx
	jmp	.Lnoise_BB86_298
.Lnoise_BB86_281:
	movl	24(%rsp), %ebx
	movzbl	609(%rsp), %ecx
	incb	%cl
	movl	%ecx, 192(%rsp)
	cmpq	$3, %rbp
	jb	.Lnoise_BB86_297
	movl	188(%rsp), %ecx
	movzbl	610(%rsp), %r9d
	incb	%r9b
	movl	%r9d, 160(%rsp)
	cmpq	$3, %rbp
	jne	.Lnoise_BB86_299
	movl	$0, 132(%rsp)
	jmp	.Lnoise_BB86_284
.Lnoise_BB86_290:
	movzbl	587(%rsp), %r9d
	incb	%r9b
	movl	%r9d, 168(%rsp)
	cmpq	$5, %rdi
	jb	.Lnoise_BB86_267
	movzbl	588(%rsp), %r9d
	incb	%r9b
	movl	%r9d, 140(%rsp)
	cmpq	$5, %rdi
	je	.Lnoise_BB86_268
	movzbl	589(%rsp), %r9d
	incb	%r9b
	movl	%r9d, 112(%rsp)
	cmpq	$7, %rdi
	jb	.Lnoise_BB86_269
	movzbl	590(%rsp), %r9d
	incb	%r9b
	movl	%r9d, 84(%rsp)
	cmpq	$7, %rdi
	je	.Lnoise_BB86_270
	movzbl	591(%rsp), %r9d
	incb	%r9b
	movl	%r9d, 68(%rsp)
	cmpq	$9, %rdi
	jb	.Lnoise_BB86_271
	movzbl	592(%rsp), %r9d
	incb	%r9b
	movl	%r9d, 48(%rsp)
	cmpq	$9, %rdi
	je	.Lnoise_BB86_272
	movzbl	593(%rsp), %edi
	incb	%dil
	movl	%edi, 36(%rsp)
	jmp	.Lnoise_BB86_273
.Lnoise_BB86_267:
	movl	$0, 140(%rsp)
.Lnoise_BB86_268:
	movl	$0, 112(%rsp)
.Lnoise_BB86_269:
	movl	$0, 84(%rsp)
.Lnoise_BB86_270:
	movl	$0, 68(%rsp)
.Lnoise_BB86_271:
	movl	$0, 48(%rsp)
.Lnoise_BB86_272:
	movl	$0, 36(%rsp)
.Lnoise_BB86_273:
	movl	52(%rsp), %r9d
	cmpq	$7, %rcx
	movl	%r9d, 52(%rsp)
	jne	.Lnoise_BB86_278
.Lnoise_BB86_274:
	movl	$0, 232(%rsp)
	movl	$0, 192(%rsp)
	movl	$0, 160(%rsp)
	movl	$0, 132(%rsp)
	movl	$0, 104(%rsp)
	movl	$0, 76(%rsp)
	movl	$0, 60(%rsp)
	movl	$0, 40(%rsp)
	movl	%r12d, %ebp
	movl	$0, 32(%rsp)
	movl	%ebx, %r12d
	movl	$0, 28(%rsp)
	movl	20(%rsp), %r11d
	jmp	.Lnoise_BB86_145
.Lnoise_BB86_297:
	movl	$0, 160(%rsp)
	movl	$0, 132(%rsp)
	movl	$0, 104(%rsp)
	movl	$0, 76(%rsp)
	movl	$0, 60(%rsp)
	movl	$0, 40(%rsp)
	movl	$0, 32(%rsp)
	movl	$0, 28(%rsp)
	movl	228(%rsp), %ebp
	movl	20(%rsp), %r11d
	movl	224(%rsp), %r12d
	movl	16(%rsp), %r13d
	movl	12(%rsp), %r15d
	movl	8(%rsp), %ecx
.Lnoise_BB86_298:
	movl	(%rsp), %r8d
	jmp	.Lnoise_BB86_146
.Lnoise_BB86_184:
	movzbl	473(%rsp), %esi
	incb	%sil
	movl	%esi, 152(%rsp)
.Lnoise_BB86_185:
	movl	%ecx, %ebp
	movq	312(%rsp), %rcx
	movl	(%rsp), %esi
	movl	296(%rsp), %r9d
	movl	184(%rsp), %edi
	movl	%ebp, %ebx
	jmp	.Lnoise_BB86_134
.Lnoise_BB86_245:
	movzbl	519(%rsp), %esi
	incb	%sil
	movl	%esi, 268(%rsp)
	cmpq	$9, %rdi
	jb	.Lnoise_BB86_307
	movzbl	520(%rsp), %esi
	incb	%sil
	movl	%esi, 120(%rsp)
	cmpq	$9, %rdi
	jne	.Lnoise_BB86_308
	movl	$0, 92(%rsp)
	jmp	.Lnoise_BB86_309
.Lnoise_BB86_186:
	movl	$0, 148(%rsp)
	movl	$0, 124(%rsp)
	jmp	.Lnoise_BB86_188
.Lnoise_BB86_299:
	movzbl	611(%rsp), %r9d
	incb	%r9b
	movl	%r9d, 132(%rsp)
	cmpq	$5, %rbp
	jb	.Lnoise_BB86_284
	movzbl	612(%rsp), %r9d
	incb	%r9b
	movl	%r9d, 104(%rsp)
	cmpq	$5, %rbp
	je	.Lnoise_BB86_285
	movzbl	613(%rsp), %r9d
	incb	%r9b
	movl	%r9d, 76(%rsp)
	cmpq	$7, %rbp
	jb	.Lnoise_BB86_286
	movzbl	614(%rsp), %edi
	incb	%dil
	movl	%edi, 60(%rsp)
	cmpq	$7, %rbp
	je	.Lnoise_BB86_287
	movzbl	615(%rsp), %edi
	incb	%dil
	movl	%edi, 40(%rsp)
	cmpq	$9, %rbp
	jb	.Lnoise_BB86_288
	movzbl	616(%rsp), %edi
	incb	%dil
	movl	%edi, 32(%rsp)
	cmpq	$9, %rbp
	je	.Lnoise_BB86_289
	movzbl	617(%rsp), %edi
	incb	%dil
	movl	%edi, 28(%rsp)
	jmp	.Lnoise_BB86_306
.Lnoise_BB86_284:
	movl	$0, 104(%rsp)
.Lnoise_BB86_285:
	movl	$0, 76(%rsp)
.Lnoise_BB86_286:
	movl	$0, 60(%rsp)
.Lnoise_BB86_287:
	movl	$0, 40(%rsp)
.Lnoise_BB86_288:
	movl	$0, 32(%rsp)
.Lnoise_BB86_289:
	movl	$0, 28(%rsp)
.Lnoise_BB86_306:
	movl	228(%rsp), %ebp
	movl	20(%rsp), %r11d
	movl	224(%rsp), %r12d
	movl	16(%rsp), %r13d
	movl	%ecx, %edi
	movl	12(%rsp), %r15d
	movl	8(%rsp), %ecx
	movl	%edi, %esi
	movl	(%rsp), %r8d
	movl	4(%rsp), %r9d
	jmp	.Lnoise_BB86_111
.Lnoise_BB86_187:
	movzbl	497(%rsp), %edi
	incb	%dil
	movl	%edi, 124(%rsp)
.Lnoise_BB86_188:
	movl	%ebp, %r12d
	movq	312(%rsp), %rcx
	movl	(%rsp), %esi
	movl	156(%rsp), %edi
	movl	%edi, 156(%rsp)
	cmpq	$3, %rcx
	je	.Lnoise_BB86_141
	jmp	.Lnoise_BB86_189
.Lnoise_BB86_307:
	movl	$0, 120(%rsp)
	movl	$0, 92(%rsp)
	jmp	.Lnoise_BB86_309
.Lnoise_BB86_308:
	movzbl	521(%rsp), %esi
	incb	%sil
	movl	%esi, 92(%rsp)
.Lnoise_BB86_309:
	movq	312(%rsp), %rcx
	movl	(%rsp), %esi
	movl	220(%rsp), %ebp
	movl	128(%rsp), %edi
	movl	268(%rsp), %r9d
	jmp	.Lnoise_BB86_200
.Lnoise_func_end86:
	.size	noise_pattern, .Lnoise_func_end86-noise_pattern
	.cfi_endproc

	.section	.text.noise_layout,"ax",@progbits
	.globl	noise_layout
	.p2align	4
	.type	noise_layout,@function
noise_layout:
	.cfi_startproc
	endbr64
	pushq	%rbp
	.cfi_def_cfa_offset 16
	pushq	%r15
	.cfi_def_cfa_offset 24
	pushq	%r14
	.cfi_def_cfa_offset 32
	pushq	%r13
	.cfi_def_cfa_offset 40
	pushq	%r12
	.cfi_def_cfa_offset 48
	pushq	%rbx
	.cfi_def_cfa_offset 56
	subq	$1192, %rsp
	.cfi_def_cfa_offset 1248
	.cfi_offset %rbx, -56
	.cfi_offset %r12, -48
	.cfi_offset %r13, -40
	.cfi_offset %r14, -32
	.cfi_offset %r15, -24
	.cfi_offset %rbp, -16
	movq	%r8, %rbx
	movq	%rcx, %r14
	movl	%edx, %ebp
	movq	%rsi, %rdx
	xorl	%esi, %esi
	testq	%rdi, %rdi
	sete	%sil
	shll	$12, %esi
	addq	%rdi, %rsi
	movw	$0, 22(%rsp)
	movb	$0, 24(%rsp)
	xorps	%xmm0, %xmm0
	movaps	%xmm0, 496(%rsp)
	movaps	%xmm0, 512(%rsp)
	movaps	%xmm0, 528(%rsp)
	movaps	%xmm0, 544(%rsp)
	movaps	%xmm0, 560(%rsp)
	movaps	%xmm0, 576(%rsp)
	movaps	%xmm0, 592(%rsp)
	movaps	%xmm0, 608(%rsp)
	movl	$0, 624(%rsp)
	leaq	912(%rsp), %rdi
	callq	"noise_c::patterns::pattern_of"
	cmpb	$0, 912(%rsp)
	je	.Lnoise_BB87_1
	movl	916(%rsp), %eax
.Lnoise_BB87_41:
	addq	$1192, %rsp
	.cfi_def_cfa_offset 56
	popq	%rbx
	.cfi_def_cfa_offset 48
	popq	%r12
	.cfi_def_cfa_offset 40
	popq	%r13
	.cfi_def_cfa_offset 32
	popq	%r14
	.cfi_def_cfa_offset 24
	popq	%r15
	.cfi_def_cfa_offset 16
	popq	%rbp
	.cfi_def_cfa_offset 8
	retq
.Lnoise_BB87_1:
	.cfi_def_cfa_offset 1248
	leaq	920(%rsp), %r15
	leaq	640(%rsp), %rdi
	movl	$272, %edx
	movq	%r15, %rsi
	callq	memcpy@PLT
	movl	$29, %eax
	testb	%bpl, %bpl
	je	.Lnoise_BB87_41
	movzbl	%bpl, %r12d
	cmpq	%r12, 904(%rsp)
	jb	.Lnoise_BB87_41
	movq	%r15, %rdi
	movl	%r12d, %esi
	callq	"noise_names::valid::ValidPattern::overhead"
	cmpq	$65535, %r14
	ja	.Lnoise_BB87_4
	movzwl	%ax, %eax
	addq	%r14, %rax
	cmpq	$65536, %rax
	movl	$29, %eax
	jae	.Lnoise_BB87_41
	movw	$0, 26(%rsp)
	movb	$0, 28(%rsp)
	movq	$0, 160(%rsp)
	movl	$0, 168(%rsp)
	movq	$0, 144(%rsp)
	movl	$0, 152(%rsp)
	movq	$0, 128(%rsp)
	movl	$0, 136(%rsp)
	movq	$0, 112(%rsp)
	movl	$0, 120(%rsp)
	movl	$0, 104(%rsp)
	movq	$0, 96(%rsp)
	movl	$0, 88(%rsp)
	movq	$0, 80(%rsp)
	movl	$0, 72(%rsp)
	movq	$0, 64(%rsp)
	movl	$0, 56(%rsp)
	movq	$0, 48(%rsp)
	movl	$0, 40(%rsp)
	movq	$0, 32(%rsp)
	xorps	%xmm0, %xmm0
	movaps	%xmm0, 464(%rsp)
	movaps	%xmm0, 448(%rsp)
	movaps	%xmm0, 432(%rsp)
	movaps	%xmm0, 416(%rsp)
	movaps	%xmm0, 400(%rsp)
	movaps	%xmm0, 384(%rsp)
	movaps	%xmm0, 368(%rsp)
	movaps	%xmm0, 352(%rsp)
	movl	$0, 480(%rsp)
	leal	(,%r12,8), %eax
	leaq	(%rax,%rax,2), %rbp
	movq	704(%rsp,%rbp), %r13
	movq	%r15, %rdi
	movl	%r12d, %esi
	callq	"noise_names::valid::ValidPattern::overhead"
	movw	%ax, 30(%rsp)
	movl	$0, 16(%rsp)
	movq	$0, 8(%rsp)
	testq	%r13, %r13
	je	.Lnoise_BB87_10
	movzbl	688(%rsp,%rbp), %eax
	movq	$0, 176(%rsp)
	movl	$0, 184(%rsp)
	leal	1(%rax), %ecx
	xorl	%r9d, %r9d
	xorl	%edx, %edx
	cmpb	$1, %al
	sete	%r9b
	setbe	%dl
	shll	$5, %edx
	movl	%edx, (%rsp)
	movzbl	%cl, %r8d
	leaq	176(%rsp), %rdi
	movq	%r15, %rsi
	movl	%r12d, %edx
	xorl	%ecx, %ecx
	callq	"noise_c::message_layout::piece"
	movl	$0, 16(%rsp)
	movq	$0, 8(%rsp)
	cmpq	$1, %r13
	jne	.Lnoise_BB87_12
	movl	%r14d, (%rsp)
	leaq	8(%rsp), %rdi
	movq	%r15, %rsi
	movl	%r12d, %edx
	movl	$1, %ecx
	movl	$8, %r8d
	movl	$1, %r9d
	callq	"noise_c::message_layout::piece"
	jmp	.Lnoise_BB87_11
.Lnoise_BB87_4:
	movl	$29, %eax
	jmp	.Lnoise_BB87_41
.Lnoise_BB87_10:
	movl	%r14d, (%rsp)
	leaq	8(%rsp), %rdi
	movq	%r15, %rsi
	movl	%r12d, %edx
	xorl	%ecx, %ecx
	movl	$8, %r8d
	movl	$1, %r9d
	callq	"noise_c::message_layout::piece"
	movl	16(%rsp), %eax
	movl	%eax, 184(%rsp)
	movq	8(%rsp), %rax
	movq	%rax, 176(%rsp)
	movl	$0, 16(%rsp)
	movq	$0, 8(%rsp)
.Lnoise_BB87_11:
	movl	16(%rsp), %eax
	movl	%eax, 168(%rsp)
	movq	8(%rsp), %rax
	movq	%rax, 160(%rsp)
	movl	$0, 16(%rsp)
	movq	$0, 8(%rsp)
.Lnoise_BB87_14:
	movl	16(%rsp), %eax
	movl	%eax, 152(%rsp)
	movq	8(%rsp), %rax
	movq	%rax, 144(%rsp)
	movl	$0, 16(%rsp)
	movq	$0, 8(%rsp)
.Lnoise_BB87_19:
	movl	16(%rsp), %eax
	movl	%eax, 136(%rsp)
	movq	8(%rsp), %rax
	movq	%rax, 128(%rsp)
	movl	$0, 16(%rsp)
	movq	$0, 8(%rsp)
.Lnoise_BB87_20:
	movl	16(%rsp), %eax
	movl	%eax, 120(%rsp)
	movq	8(%rsp), %rax
	movq	%rax, 112(%rsp)
	movl	$0, 16(%rsp)
	movq	$0, 8(%rsp)
.Lnoise_BB87_25:
	movl	16(%rsp), %eax
	movl	%eax, 104(%rsp)
	movq	8(%rsp), %rax
	movq	%rax, 96(%rsp)
	movl	$0, 16(%rsp)
	movq	$0, 8(%rsp)
.Lnoise_BB87_26:
	movl	16(%rsp), %eax
	movl	%eax, 88(%rsp)
	movq	8(%rsp), %rax
	movq	%rax, 80(%rsp)
	movl	$0, 16(%rsp)
	movq	$0, 8(%rsp)
.Lnoise_BB87_31:
	movl	16(%rsp), %eax
	movl	%eax, 72(%rsp)
	movq	8(%rsp), %rax
	movq	%rax, 64(%rsp)
	movl	$0, 16(%rsp)
	movq	$0, 8(%rsp)
.Lnoise_BB87_32:
	movl	16(%rsp), %eax
	movl	%eax, 56(%rsp)
	movq	8(%rsp), %rax
	movq	%rax, 48(%rsp)
	movl	$0, 16(%rsp)
	movq	$0, 8(%rsp)
.Lnoise_BB87_37:
	movl	16(%rsp), %eax
	movl	%eax, 40(%rsp)
	movq	8(%rsp), %rax
	movq	%rax, 32(%rsp)
	movl	$0, 200(%rsp)
	movq	$0, 192(%rsp)
.Lnoise_BB87_39:
	movl	200(%rsp), %eax
	movl	%eax, 16(%rsp)
	movq	192(%rsp), %rax
	movq	%rax, 8(%rsp)
.Lnoise_BB87_40:
	movzwl	30(%rsp), %ebp
	addl	%r14d, %ebp
	incb	%r13b
	movq	176(%rsp), %rax
	movq	%rax, 352(%rsp)
	movl	184(%rsp), %eax
	movl	%eax, 360(%rsp)
	movq	160(%rsp), %rax
	movq	%rax, 364(%rsp)
	movl	168(%rsp), %eax
	movl	%eax, 372(%rsp)
	movq	144(%rsp), %rax
	movq	%rax, 376(%rsp)
	movl	152(%rsp), %eax
	movl	%eax, 384(%rsp)
	movq	128(%rsp), %rax
	movq	%rax, 388(%rsp)
	movl	136(%rsp), %eax
	movl	%eax, 396(%rsp)
	movl	120(%rsp), %eax
	movl	%eax, 408(%rsp)
	movq	112(%rsp), %rax
	movq	%rax, 400(%rsp)
	movl	104(%rsp), %eax
	movl	%eax, 420(%rsp)
	movq	96(%rsp), %rax
	movq	%rax, 412(%rsp)
	movl	88(%rsp), %eax
	movl	%eax, 432(%rsp)
	movq	80(%rsp), %rax
	movq	%rax, 424(%rsp)
	movl	72(%rsp), %eax
	movl	%eax, 444(%rsp)
	movq	64(%rsp), %rax
	movq	%rax, 436(%rsp)
	movl	56(%rsp), %eax
	movl	%eax, 456(%rsp)
	movq	48(%rsp), %rax
	movq	%rax, 448(%rsp)
	movl	40(%rsp), %eax
	movl	%eax, 468(%rsp)
	movq	32(%rsp), %rax
	movq	%rax, 460(%rsp)
	movl	16(%rsp), %eax
	movl	%eax, 480(%rsp)
	movq	8(%rsp), %rax
	movq	%rax, 472(%rsp)
	movzbl	28(%rsp), %eax
	movb	%al, 24(%rsp)
	movzwl	26(%rsp), %eax
	movw	%ax, 22(%rsp)
	leaq	496(%rsp), %r14
	leaq	352(%rsp), %rsi
	movl	$132, %edx
	movq	%r14, %rdi
	callq	memcpy@PLT
	movb	%r13b, (%rbx)
	movzwl	22(%rsp), %eax
	movw	%ax, 1(%rbx)
	movzbl	24(%rsp), %eax
	movb	%al, 3(%rbx)
	movl	%ebp, 4(%rbx)
	addq	$8, %rbx
	movl	$132, %edx
	movq	%rbx, %rdi
	movq	%r14, %rsi
	callq	memcpy@PLT
	xorl	%eax, %eax
	jmp	.Lnoise_BB87_41
.Lnoise_BB87_12:
	movzbl	689(%rsp,%rbp), %eax
	movq	$0, 208(%rsp)
	movl	$0, 216(%rsp)
	leal	1(%rax), %ecx
	xorl	%r9d, %r9d
	xorl	%edx, %edx
	cmpb	$1, %al
	sete	%r9b
	setbe	%dl
	shll	$5, %edx
	movl	%edx, (%rsp)
	movzbl	%cl, %r8d
	leaq	208(%rsp), %rdi
	movq	%r15, %rsi
	movl	%r12d, %edx
	movl	$1, %ecx
	callq	"noise_c::message_layout::piece"
	movl	216(%rsp), %eax
	movl	%eax, 168(%rsp)
	movq	208(%rsp), %rax
	movq	%rax, 160(%rsp)
	movl	$0, 16(%rsp)
	movq	$0, 8(%rsp)
	cmpq	$2, %r13
	jbe	.Lnoise_BB87_13
	movzbl	690(%rsp,%rbp), %eax
	movq	$0, 224(%rsp)
	movl	$0, 232(%rsp)
	leal	1(%rax), %ecx
	xorl	%r9d, %r9d
	xorl	%edx, %edx
	cmpb	$1, %al
	sete	%r9b
	setbe	%dl
	shll	$5, %edx
	movl	%edx, (%rsp)
	movzbl	%cl, %r8d
	leaq	224(%rsp), %rdi
	movq	%r15, %rsi
	movl	%r12d, %edx
	movl	$2, %ecx
	callq	"noise_c::message_layout::piece"
	movl	232(%rsp), %eax
	movl	%eax, 152(%rsp)
	movq	224(%rsp), %rax
	movq	%rax, 144(%rsp)
	movl	$0, 16(%rsp)
	movq	$0, 8(%rsp)
	cmpq	$3, %r13
	jne	.Lnoise_BB87_16
	movl	%r14d, (%rsp)
	leaq	8(%rsp), %rdi
	movq	%r15, %rsi
	movl	%r12d, %edx
	movl	$3, %ecx
	movl	$8, %r8d
	movl	$1, %r9d
	callq	"noise_c::message_layout::piece"
	jmp	.Lnoise_BB87_19
.Lnoise_BB87_13:
	movl	%r14d, (%rsp)
	leaq	8(%rsp), %rdi
	movq	%r15, %rsi
	movl	%r12d, %edx
	movl	$2, %ecx
	movl	$8, %r8d
	movl	$1, %r9d
	callq	"noise_c::message_layout::piece"
	jmp	.Lnoise_BB87_14
.Lnoise_BB87_16:
	movzbl	691(%rsp,%rbp), %eax
	movq	$0, 240(%rsp)
	movl	$0, 248(%rsp)
	leal	1(%rax), %ecx
	xorl	%r9d, %r9d
	xorl	%edx, %edx
	cmpb	$1, %al
	sete	%r9b
	setbe	%dl
	shll	$5, %edx
	movl	%edx, (%rsp)
	movzbl	%cl, %r8d
	leaq	240(%rsp), %rdi
	movq	%r15, %rsi
	movl	%r12d, %edx
	movl	$3, %ecx
	callq	"noise_c::message_layout::piece"
	movl	248(%rsp), %eax
	movl	%eax, 136(%rsp)
	movq	240(%rsp), %rax
	movq	%rax, 128(%rsp)
	movl	$0, 16(%rsp)
	movq	$0, 8(%rsp)
	cmpq	$4, %r13
	jbe	.Lnoise_BB87_17
	movzbl	692(%rsp,%rbp), %eax
	movq	$0, 256(%rsp)
	movl	$0, 264(%rsp)
	leal	1(%rax), %ecx
	xorl	%r9d, %r9d
	xorl	%edx, %edx
	cmpb	$1, %al
	sete	%r9b
	setbe	%dl
	shll	$5, %edx
	movl	%edx, (%rsp)
	movzbl	%cl, %r8d
	leaq	256(%rsp), %rdi
	movq	%r15, %rsi
	movl	%r12d, %edx
	movl	$4, %ecx
	callq	"noise_c::message_layout::piece"
	movl	264(%rsp), %eax
	movl	%eax, 120(%rsp)
	movq	256(%rsp), %rax
	movq	%rax, 112(%rsp)
	movl	$0, 16(%rsp)
	movq	$0, 8(%rsp)
	cmpq	$5, %r13
	jne	.Lnoise_BB87_22
	movl	%r14d, (%rsp)
	leaq	8(%rsp), %rdi
	movq	%r15, %rsi
	movl	%r12d, %edx
	movl	$5, %ecx
	movl	$8, %r8d
	movl	$1, %r9d
	callq	"noise_c::message_layout::piece"
	jmp	.Lnoise_BB87_25
.Lnoise_BB87_17:
	movl	%r14d, (%rsp)
	leaq	8(%rsp), %rdi
	movq	%r15, %rsi
	movl	%r12d, %edx
	movl	$4, %ecx
	movl	$8, %r8d
	movl	$1, %r9d
	callq	"noise_c::message_layout::piece"
	jmp	.Lnoise_BB87_20
.Lnoise_BB87_22:
	movzbl	693(%rsp,%rbp), %eax
	movq	$0, 272(%rsp)
	movl	$0, 280(%rsp)
	leal	1(%rax), %ecx
	xorl	%r9d, %r9d
	xorl	%edx, %edx
	cmpb	$1, %al
	sete	%r9b
	setbe	%dl
	shll	$5, %edx
	movl	%edx, (%rsp)
	movzbl	%cl, %r8d
	leaq	272(%rsp), %rdi
	movq	%r15, %rsi
	movl	%r12d, %edx
	movl	$5, %ecx
	callq	"noise_c::message_layout::piece"
	movl	280(%rsp), %eax
	movl	%eax, 104(%rsp)
	movq	272(%rsp), %rax
	movq	%rax, 96(%rsp)
	movl	$0, 16(%rsp)
	movq	$0, 8(%rsp)
	cmpq	$6, %r13
	jbe	.Lnoise_BB87_23
	movzbl	694(%rsp,%rbp), %eax
	movq	$0, 288(%rsp)
	movl	$0, 296(%rsp)
	leal	1(%rax), %ecx
	xorl	%r9d, %r9d
	xorl	%edx, %edx
	cmpb	$1, %al
	sete	%r9b
	setbe	%dl
	shll	$5, %edx
	movl	%edx, (%rsp)
	movzbl	%cl, %r8d
	leaq	288(%rsp), %rdi
	movq	%r15, %rsi
	movl	%r12d, %edx
	movl	$6, %ecx
	callq	"noise_c::message_layout::piece"
	movl	296(%rsp), %eax
	movl	%eax, 88(%rsp)
	movq	288(%rsp), %rax
	movq	%rax, 80(%rsp)
	movl	$0, 16(%rsp)
	movq	$0, 8(%rsp)
	cmpq	$7, %r13
	jne	.Lnoise_BB87_28
	movl	%r14d, (%rsp)
	leaq	8(%rsp), %rdi
	movq	%r15, %rsi
	movl	%r12d, %edx
	movl	$7, %ecx
	movl	$8, %r8d
	movl	$1, %r9d
	callq	"noise_c::message_layout::piece"
	jmp	.Lnoise_BB87_31
.Lnoise_BB87_23:
	movl	%r14d, (%rsp)
	leaq	8(%rsp), %rdi
	movq	%r15, %rsi
	movl	%r12d, %edx
	movl	$6, %ecx
	movl	$8, %r8d
	movl	$1, %r9d
	callq	"noise_c::message_layout::piece"
	jmp	.Lnoise_BB87_26
.Lnoise_BB87_28:
	movzbl	695(%rsp,%rbp), %eax
	movq	$0, 304(%rsp)
	movl	$0, 312(%rsp)
	leal	1(%rax), %ecx
	xorl	%r9d, %r9d
	xorl	%edx, %edx
	cmpb	$1, %al
	sete	%r9b
	setbe	%dl
	shll	$5, %edx
	movl	%edx, (%rsp)
	movzbl	%cl, %r8d
	leaq	304(%rsp), %rdi
	movq	%r15, %rsi
	movl	%r12d, %edx
	movl	$7, %ecx
	callq	"noise_c::message_layout::piece"
	movl	312(%rsp), %eax
	movl	%eax, 72(%rsp)
	movq	304(%rsp), %rax
	movq	%rax, 64(%rsp)
	movl	$0, 16(%rsp)
	movq	$0, 8(%rsp)
	cmpq	$8, %r13
	jbe	.Lnoise_BB87_29
	movzbl	696(%rsp,%rbp), %eax
	movq	$0, 320(%rsp)
	movl	$0, 328(%rsp)
	leal	1(%rax), %ecx
	xorl	%r9d, %r9d
	xorl	%edx, %edx
	cmpb	$1, %al
	sete	%r9b
	setbe	%dl
	shll	$5, %edx
	movl	%edx, (%rsp)
	movzbl	%cl, %r8d
	leaq	320(%rsp), %rdi
	movq	%r15, %rsi
	movl	%r12d, %edx
	movl	$8, %ecx
	callq	"noise_c::message_layout::piece"
	movl	328(%rsp), %eax
	movl	%eax, 56(%rsp)
	movq	320(%rsp), %rax
	movq	%rax, 48(%rsp)
	movl	$0, 16(%rsp)
	movq	$0, 8(%rsp)
	cmpq	$9, %r13
	jne	.Lnoise_BB87_34
	movl	%r14d, (%rsp)
	leaq	8(%rsp), %rdi
	movq	%r15, %rsi
	movl	%r12d, %edx
	movl	$9, %ecx
	movl	$8, %r8d
	movl	$1, %r9d
	callq	"noise_c::message_layout::piece"
	jmp	.Lnoise_BB87_37
.Lnoise_BB87_29:
	movl	%r14d, (%rsp)
	leaq	8(%rsp), %rdi
	movq	%r15, %rsi
	movl	%r12d, %edx
	movl	$8, %ecx
	movl	$8, %r8d
	movl	$1, %r9d
	callq	"noise_c::message_layout::piece"
	jmp	.Lnoise_BB87_32
.Lnoise_BB87_34:
	movzbl	697(%rsp,%rbp), %eax
	movq	$0, 336(%rsp)
	movl	$0, 344(%rsp)
	leal	1(%rax), %ecx
	xorl	%r9d, %r9d
	xorl	%edx, %edx
	cmpb	$1, %al
	sete	%r9b
	setbe	%dl
	shll	$5, %edx
	movl	%edx, (%rsp)
	movzbl	%cl, %r8d
	leaq	336(%rsp), %rdi
	movq	%r15, %rsi
	movl	%r12d, %edx
	movl	$9, %ecx
	callq	"noise_c::message_layout::piece"
	movl	344(%rsp), %eax
	movl	%eax, 40(%rsp)
	movq	336(%rsp), %rax
	movq	%rax, 32(%rsp)
	movl	$0, 200(%rsp)
	movq	$0, 192(%rsp)
	cmpq	$10, %r13
	jne	.Lnoise_BB87_35
	movl	%r14d, (%rsp)
	leaq	192(%rsp), %rdi
	movq	%r15, %rsi
	movl	%r12d, %edx
	movl	$10, %ecx
	movl	$8, %r8d
	movl	$1, %r9d
	callq	"noise_c::message_layout::piece"
	jmp	.Lnoise_BB87_39
.Lnoise_BB87_35:
	movzbl	698(%rsp,%rbp), %eax
	movq	$0, 8(%rsp)
	movl	$0, 16(%rsp)
	leal	1(%rax), %ecx
	xorl	%r9d, %r9d
	xorl	%edx, %edx
	cmpb	$1, %al
	sete	%r9b
	setbe	%dl
	shll	$5, %edx
	movl	%edx, (%rsp)
	movzbl	%cl, %r8d
	leaq	8(%rsp), %rdi
	movq	%r15, %rsi
	movl	%r12d, %edx
	movl	$10, %ecx
	callq	"noise_c::message_layout::piece"
	jmp	.Lnoise_BB87_40
.Lnoise_func_end87:
	.size	noise_layout, .Lnoise_func_end87-noise_layout
	.cfi_endproc

	.section	.text.noise_finish,"ax",@progbits
	.globl	noise_finish
	.p2align	4
	.type	noise_finish,@function
noise_finish:
	.cfi_startproc
	endbr64
	pushq	%r15
	.cfi_def_cfa_offset 16
	pushq	%r14
	.cfi_def_cfa_offset 24
	pushq	%rbx
	.cfi_def_cfa_offset 32
	subq	$240, %rsp
	.cfi_def_cfa_offset 272
	.cfi_offset %rbx, -32
	.cfi_offset %r14, -24
	.cfi_offset %r15, -16
	movq	%rcx, %rbx
	movq	%rdx, %r15
	movq	%rsi, %r14
	movq	%rdi, %rsi
	leaq	64(%rsp), %rdi
	callq	"noise_c::split::finished"
	cmpb	$0, 64(%rsp)
	je	.Lnoise_BB88_1
	movl	68(%rsp), %eax
	jmp	.Lnoise_BB88_8
.Lnoise_BB88_1:
	movzbl	72(%rsp), %edx
	movzbl	144(%rsp), %edi
	leaq	145(%rsp), %rsi
	movq	184(%rsp), %r8
	movzbl	192(%rsp), %ecx
	movq	232(%rsp), %rax
	testb	%dl, %dl
	je	.Lnoise_BB88_2
	movups	48(%rsi), %xmm0
	movups	64(%rsi), %xmm1
	movaps	%xmm1, 48(%rsp)
	movaps	%xmm0, 32(%rsp)
	movups	(%rsi), %xmm0
	movups	16(%rsi), %xmm1
	movaps	%xmm0, (%rsp)
	movaps	%xmm1, 16(%rsp)
	movl	%ecx, %r9d
	movq	%rax, %rsi
	movl	%edi, %ecx
	movq	%r8, %rax
	cmpb	$1, %r9b
	je	.Lnoise_BB88_5
	jmp	.Lnoise_BB88_9
.Lnoise_BB88_2:
	movups	(%rsi), %xmm0
	movups	16(%rsi), %xmm1
	movaps	%xmm1, 48(%rsp)
	movaps	%xmm0, 32(%rsp)
	movups	48(%rsi), %xmm0
	movups	64(%rsi), %xmm1
	movaps	%xmm0, (%rsp)
	movaps	%xmm1, 16(%rsp)
	movl	%edi, %r9d
	movq	%r8, %rsi
	cmpb	$1, %r9b
	jne	.Lnoise_BB88_9
.Lnoise_BB88_5:
	movzbl	73(%rsp), %edi
	andb	$1, %dil
	cmpb	$1, %dl
	movb	$2, %dl
	sbbb	$0, %dl
	movl	$1315898113, (%r15)
	movb	%dl, 4(%r15)
	movb	%dil, 5(%r15)
	movaps	32(%rsp), %xmm0
	movaps	48(%rsp), %xmm1
	movups	%xmm0, 6(%r15)
	movups	%xmm1, 22(%r15)
	movw	$0, 38(%r15)
	movq	%r14, 40(%r15)
	movq	%rsi, 48(%r15)
	cmpb	$1, %cl
	jne	.Lnoise_BB88_9
	movl	$1315898369, (%rbx)
	movb	%dl, 4(%rbx)
	movb	%dil, 5(%rbx)
	movaps	(%rsp), %xmm0
	movaps	16(%rsp), %xmm1
	movups	%xmm0, 6(%rbx)
	movups	%xmm1, 22(%rbx)
	movw	$0, 38(%rbx)
	movq	%r14, 40(%rbx)
	movq	%rax, 48(%rbx)
	xorl	%eax, %eax
.Lnoise_BB88_8:
	addq	$240, %rsp
	.cfi_def_cfa_offset 32
	popq	%rbx
	.cfi_def_cfa_offset 24
	popq	%r14
	.cfi_def_cfa_offset 16
	popq	%r15
	.cfi_def_cfa_offset 8
	retq
.Lnoise_BB88_9:
	.cfi_def_cfa_offset 272
	ud2
.Lnoise_func_end88:
	.size	noise_finish, .Lnoise_func_end88-noise_finish
	.cfi_endproc

	.section	.text.noise_finish_ciphers,"ax",@progbits
	.globl	noise_finish_ciphers
	.p2align	4
	.type	noise_finish_ciphers,@function
noise_finish_ciphers:
	.cfi_startproc
	endbr64
	pushq	%r14
	.cfi_def_cfa_offset 16
	pushq	%rbx
	.cfi_def_cfa_offset 24
	subq	$264, %rsp
	.cfi_def_cfa_offset 288
	.cfi_offset %rbx, -24
	.cfi_offset %r14, -16
	movq	%rdx, %rbx
	movq	%rsi, %r14
	movq	%rdi, %rsi
	leaq	88(%rsp), %rdi
	callq	"noise_c::split::finished"
	cmpb	$0, 88(%rsp)
	je	.Lnoise_BB89_1
	movl	92(%rsp), %eax
	addq	$264, %rsp
	.cfi_def_cfa_offset 24
	popq	%rbx
	.cfi_def_cfa_offset 16
	popq	%r14
	.cfi_def_cfa_offset 8
	retq
.Lnoise_BB89_1:
	.cfi_def_cfa_offset 288
	movzbl	97(%rsp), %r8d
	movzbl	168(%rsp), %r9d
	leaq	169(%rsp), %rsi
	movq	208(%rsp), %rdi
	movzbl	216(%rsp), %r10d
	movq	256(%rsp), %rax
	cmpb	$0, 96(%rsp)
	je	.Lnoise_BB89_2
	cmpb	$1, %r10b
	setne	%cl
	orb	%r8b, %cl
	testb	$1, %cl
	je	.Lnoise_BB89_10
	xorps	%xmm0, %xmm0
	movaps	%xmm0, 32(%rsp)
	movaps	%xmm0, 16(%rsp)
	movb	$1, %dl
	xorl	%ecx, %ecx
	cmpb	$1, %r9b
	je	.Lnoise_BB89_13
.Lnoise_BB89_14:
	xorps	%xmm0, %xmm0
	movaps	%xmm0, 64(%rsp)
	movaps	%xmm0, 48(%rsp)
	movb	$1, %sil
	xorl	%edi, %edi
	jmp	.Lnoise_BB89_15
.Lnoise_BB89_2:
	cmpb	$1, %r9b
	jne	.Lnoise_BB89_4
	movups	(%rsi), %xmm0
	movups	16(%rsi), %xmm1
	movaps	%xmm1, 32(%rsp)
	movaps	%xmm0, 16(%rsp)
	xorl	%edx, %edx
	movq	%rdi, %rcx
	jmp	.Lnoise_BB89_5
.Lnoise_BB89_10:
	movups	48(%rsi), %xmm0
	movups	64(%rsi), %xmm1
	movaps	%xmm1, 32(%rsp)
	movaps	%xmm0, 16(%rsp)
	xorl	%edx, %edx
	movq	%rax, %rcx
	cmpb	$1, %r9b
	jne	.Lnoise_BB89_14
.Lnoise_BB89_13:
	movups	(%rsi), %xmm0
	movups	16(%rsi), %xmm1
	movaps	%xmm1, 64(%rsp)
	movaps	%xmm0, 48(%rsp)
	xorl	%esi, %esi
.Lnoise_BB89_15:
	movb	$0, 6(%rsp)
	movw	$0, 4(%rsp)
	movw	$0, (%rsp)
	movb	$0, 2(%rsp)
	movq	%rdi, %rax
	jmp	.Lnoise_BB89_16
.Lnoise_BB89_4:
	xorps	%xmm0, %xmm0
	movaps	%xmm0, 32(%rsp)
	movaps	%xmm0, 16(%rsp)
	movb	$1, %dl
	xorl	%ecx, %ecx
.Lnoise_BB89_5:
	cmpb	$1, %r10b
	setne	%dil
	orb	%r8b, %dil
	testb	$1, %dil
	je	.Lnoise_BB89_6
	xorps	%xmm0, %xmm0
	movaps	%xmm0, 64(%rsp)
	movaps	%xmm0, 48(%rsp)
	movb	$1, %sil
	xorl	%eax, %eax
	jmp	.Lnoise_BB89_8
.Lnoise_BB89_6:
	movups	48(%rsi), %xmm0
	movups	64(%rsi), %xmm1
	movaps	%xmm1, 64(%rsp)
	movaps	%xmm0, 48(%rsp)
	xorl	%esi, %esi
.Lnoise_BB89_8:
	movb	$0, 6(%rsp)
	movw	$0, 4(%rsp)
	movw	$0, (%rsp)
	movb	$0, 2(%rsp)
.Lnoise_BB89_16:
	movzbl	6(%rsp), %edi
	movb	%dil, 14(%rsp)
	movzwl	4(%rsp), %edi
	movw	%di, 12(%rsp)
	movzwl	(%rsp), %edi
	movw	%di, 8(%rsp)
	movzbl	2(%rsp), %edi
	movb	%dil, 10(%rsp)
	movl	$1315899393, (%r14)
	movb	%dl, 4(%r14)
	movaps	16(%rsp), %xmm0
	movaps	32(%rsp), %xmm1
	movups	%xmm0, 5(%r14)
	movups	%xmm1, 21(%r14)
	movzwl	12(%rsp), %edx
	movw	%dx, 37(%r14)
	movzbl	14(%rsp), %edx
	movb	%dl, 39(%r14)
	movq	%rcx, 40(%r14)
	movl	$1315899649, (%rbx)
	movb	%sil, 4(%rbx)
	movaps	48(%rsp), %xmm0
	movaps	64(%rsp), %xmm1
	movups	%xmm0, 5(%rbx)
	movups	%xmm1, 21(%rbx)
	movzwl	8(%rsp), %ecx
	movw	%cx, 37(%rbx)
	movzbl	10(%rsp), %ecx
	movb	%cl, 39(%rbx)
	movq	%rax, 40(%rbx)
	xorl	%eax, %eax
	addq	$264, %rsp
	.cfi_def_cfa_offset 24
	popq	%rbx
	.cfi_def_cfa_offset 16
	popq	%r14
	.cfi_def_cfa_offset 8
	retq
.Lnoise_func_end89:
	.size	noise_finish_ciphers, .Lnoise_func_end89-noise_finish_ciphers
	.cfi_endproc

	.section	.text.noise_finish_stream,"ax",@progbits
	.globl	noise_finish_stream
	.p2align	4
	.type	noise_finish_stream,@function
noise_finish_stream:
	.cfi_startproc
	endbr64
	pushq	%r15
	.cfi_def_cfa_offset 16
	pushq	%r14
	.cfi_def_cfa_offset 24
	pushq	%rbx
	.cfi_def_cfa_offset 32
	subq	$304, %rsp
	.cfi_def_cfa_offset 336
	.cfi_offset %rbx, -32
	.cfi_offset %r14, -24
	.cfi_offset %r15, -16
	movq	%rcx, %rbx
	movq	%rdx, %r15
	movq	%rsi, %r14
	movq	%rdi, %rsi
	leaq	128(%rsp), %rdi
	callq	"noise_c::split::finished"
	cmpb	$0, 128(%rsp)
	je	.Lnoise_BB90_1
	movl	132(%rsp), %eax
	jmp	.Lnoise_BB90_8
.Lnoise_BB90_1:
	movzbl	136(%rsp), %edx
	movzbl	208(%rsp), %edi
	leaq	209(%rsp), %rsi
	movq	248(%rsp), %r8
	movzbl	256(%rsp), %ecx
	movq	296(%rsp), %rax
	testb	%dl, %dl
	je	.Lnoise_BB90_2
	movups	48(%rsi), %xmm0
	movups	64(%rsi), %xmm1
	movaps	%xmm1, 48(%rsp)
	movaps	%xmm0, 32(%rsp)
	movups	(%rsi), %xmm0
	movups	16(%rsi), %xmm1
	movaps	%xmm0, (%rsp)
	movaps	%xmm1, 16(%rsp)
	movl	%ecx, %r9d
	movq	%rax, %rsi
	movl	%edi, %ecx
	movq	%r8, %rax
	jmp	.Lnoise_BB90_4
.Lnoise_BB90_2:
	movups	(%rsi), %xmm0
	movups	16(%rsi), %xmm1
	movaps	%xmm1, 48(%rsp)
	movaps	%xmm0, 32(%rsp)
	movups	48(%rsi), %xmm0
	movups	64(%rsi), %xmm1
	movaps	%xmm0, (%rsp)
	movaps	%xmm1, 16(%rsp)
	movl	%edi, %r9d
	movq	%r8, %rsi
.Lnoise_BB90_4:
	movzbl	137(%rsp), %edi
	movaps	32(%rsp), %xmm0
	movaps	48(%rsp), %xmm1
	movaps	%xmm1, 112(%rsp)
	movaps	%xmm0, 96(%rsp)
	movaps	(%rsp), %xmm0
	movaps	16(%rsp), %xmm1
	movaps	%xmm0, 64(%rsp)
	movaps	%xmm1, 80(%rsp)
	cmpb	$1, %r9b
	jne	.Lnoise_BB90_9
	andb	$1, %dil
	cmpb	$1, %dl
	movb	$2, %dl
	sbbb	$0, %dl
	movl	$1315899905, (%r15)
	movb	%dl, 4(%r15)
	movb	%dil, 5(%r15)
	movaps	96(%rsp), %xmm0
	movaps	112(%rsp), %xmm1
	movups	%xmm0, 6(%r15)
	movups	%xmm1, 22(%r15)
	movw	$0, 38(%r15)
	movq	%r14, 40(%r15)
	movq	%rsi, 48(%r15)
	movq	$0, 56(%r15)
	cmpb	$1, %cl
	jne	.Lnoise_BB90_9
	movl	$1315900161, (%rbx)
	movb	%dl, 4(%rbx)
	movb	%dil, 5(%rbx)
	movaps	64(%rsp), %xmm0
	movaps	80(%rsp), %xmm1
	movups	%xmm0, 6(%rbx)
	movups	%xmm1, 22(%rbx)
	movw	$0, 38(%rbx)
	movq	%r14, 40(%rbx)
	movq	%rax, 48(%rbx)
	movq	$0, 56(%rbx)
	xorl	%eax, %eax
.Lnoise_BB90_8:
	addq	$304, %rsp
	.cfi_def_cfa_offset 32
	popq	%rbx
	.cfi_def_cfa_offset 24
	popq	%r14
	.cfi_def_cfa_offset 16
	popq	%r15
	.cfi_def_cfa_offset 8
	retq
.Lnoise_BB90_9:
	.cfi_def_cfa_offset 336
	ud2
.Lnoise_func_end90:
	.size	noise_finish_stream, .Lnoise_func_end90-noise_finish_stream
	.cfi_endproc

	.section	.text.noise_datagram_open,"ax",@progbits
	.globl	noise_datagram_open
	.p2align	4
	.type	noise_datagram_open,@function
noise_datagram_open:
	.cfi_startproc
	endbr64
	pushq	%rbp
	.cfi_def_cfa_offset 16
	pushq	%r15
	.cfi_def_cfa_offset 24
	pushq	%r14
	.cfi_def_cfa_offset 32
	pushq	%r13
	.cfi_def_cfa_offset 40
	pushq	%r12
	.cfi_def_cfa_offset 48
	pushq	%rbx
	.cfi_def_cfa_offset 56
	subq	$424, %rsp
	.cfi_def_cfa_offset 480
	.cfi_offset %rbx, -56
	.cfi_offset %r12, -48
	.cfi_offset %r13, -40
	.cfi_offset %r14, -32
	.cfi_offset %r15, -24
	.cfi_offset %rbp, -16
	xorl	%ebx, %ebx
	testq	%rsi, %rsi
	sete	%r13b
	movq	$0, 112(%rsp)
	movl	$23, %ebp
	cmpl	$1315899137, (%rdi)
	jne	.Lnoise_BB91_74
	movzbl	4(%rdi), %eax
	cmpl	$1, %eax
	je	.Lnoise_BB91_7
	cmpl	$2, %eax
	jne	.Lnoise_BB91_74
	movb	$1, %r9b
	xorl	%r8d, %r8d
	movzbl	5(%rdi), %r10d
	movl	8(%rdi), %eax
	cmpl	$64, %eax
	je	.Lnoise_BB91_8
.Lnoise_BB91_4:
	cmpl	$1024, %eax
	je	.Lnoise_BB91_9
	cmpl	$256, %eax
	jne	.Lnoise_BB91_74
	movl	%r9d, 32(%rsp)
	movl	%r8d, 36(%rsp)
	movq	%rsi, %r12
	movq	%rdx, 16(%rsp)
	movq	%rcx, 40(%rsp)
	movb	$1, %r15b
	jmp	.Lnoise_BB91_10
.Lnoise_BB91_7:
	xorl	%r9d, %r9d
	movb	$1, %r8b
	movzbl	5(%rdi), %r10d
	movl	8(%rdi), %eax
	cmpl	$64, %eax
	jne	.Lnoise_BB91_4
.Lnoise_BB91_8:
	movl	%r9d, 32(%rsp)
	movl	%r8d, 36(%rsp)
	movq	%rsi, %r12
	movq	%rdx, 16(%rsp)
	movq	%rcx, 40(%rsp)
	xorl	%r15d, %r15d
	jmp	.Lnoise_BB91_10
.Lnoise_BB91_9:
	movl	%r9d, 32(%rsp)
	movl	%r8d, 36(%rsp)
	movq	%rsi, %r12
	movq	%rdx, 16(%rsp)
	movq	%rcx, 40(%rsp)
	movb	$2, %r15b
.Lnoise_BB91_10:
	movb	%r10b, 15(%rsp)
	testb	%r10b, %r10b
	setne	14(%rsp)
	movq	48(%rdi), %r14
	movq	%rdi, 24(%rsp)
	leaq	56(%rdi), %rsi
	leaq	288(%rsp), %rdi
	movl	$136, %edx
	movq	%rsi, 48(%rsp)
	callq	memcpy@PLT
	movq	$0, 272(%rsp)
	movb	%r15b, 272(%rsp)
	movq	%r14, 280(%rsp)
	cmpq	$-1, %r14
	je	.Lnoise_BB91_74
	movq	%r12, %rdi
	movzbl	%r15b, %r8d
	leaq	.Lnoise_switch.table.noise_datagram_open.205(%rip), %r12
	movq	(%r12,%r8,8), %rcx
	movq	%r14, %rsi
	shrq	$6, %rsi
	movq	%rsi, %rax
	orq	%rcx, %rax
	shrq	$32, %rax
	je	.Lnoise_BB91_13
	movq	%rsi, %rax
	xorl	%edx, %edx
	divq	%rcx
	jmp	.Lnoise_BB91_14
.Lnoise_BB91_13:
	movl	%esi, %eax
	xorl	%edx, %edx
	divl	%ecx
.Lnoise_BB91_14:
	movq	288(%rsp,%rdx,8), %rax
	movq	%rax, %rdx
	movl	%r14d, %ecx
	shrq	%cl, %rdx
	cmpq	$1, %rdx
	je	.Lnoise_BB91_16
	orq	%r14, %rax
	jne	.Lnoise_BB91_74
.Lnoise_BB91_16:
	movb	%r13b, %bl
	shll	$12, %ebx
	addq	%rbx, %rdi
	movq	24(%rsp), %rax
	leaq	12(%rax), %r14
	movq	(%r12,%r8,8), %rax
	incq	%rsi
	cmpq	%rax, %rsi
	cmovaeq	%rax, %rsi
	addq	$2, %rsi
	.p2align	4
.Lnoise_BB91_17:
	cmpq	$19, %rsi
	je	.Lnoise_BB91_19
	cmpq	$0, 272(%rsp,%rsi,8)
	leaq	1(%rsi), %rsi
	je	.Lnoise_BB91_17
	jmp	.Lnoise_BB91_74
.Lnoise_BB91_19:
	movq	%rdi, %rbx
	cmpb	$0, 15(%rsp)
	setne	%r15b
	leaq	120(%rsp), %rdi
	leaq	272(%rsp), %rsi
	movl	$152, %edx
	callq	memcpy@PLT
	movl	32(%rsp), %eax
	movb	%al, 56(%rsp)
	movzbl	14(%rsp), %eax
	movb	%al, 57(%rsp)
	movq	$0, 58(%rsp)
	movq	$0, 64(%rsp)
	movb	$1, 72(%rsp)
	movups	(%r14), %xmm0
	movups	16(%r14), %xmm1
	movups	%xmm0, 73(%rsp)
	movups	%xmm1, 89(%rsp)
	movl	$0, 105(%rsp)
	movl	$0, 108(%rsp)
	movl	$22, %ebp
	testb	%r15b, 36(%rsp)
	movq	16(%rsp), %r9
	jne	.Lnoise_BB91_74
	movl	$15, %ebp
	cmpq	$24, %r9
	jb	.Lnoise_BB91_74
	movl	$11, %ebp
	cmpq	$65543, %r9
	ja	.Lnoise_BB91_74
	movq	(%rbx), %r13
	cmpq	$-1, %r13
	je	.Lnoise_BB91_27
	bswapq	%r13
	movzbl	120(%rsp), %eax
	movq	128(%rsp), %rcx
	xorl	%edx, %edx
	movq	%rcx, %rsi
	subq	%r13, %rsi
	cmovaeq	%rsi, %rdx
	leaq	.Lnoise_switch.table.noise_datagram_open.203(%rip), %rsi
	movl	$27, %ebp
	cmpq	%rdx, (%rsi,%rax,8)
	jbe	.Lnoise_BB91_74
	movq	%r13, %r15
	shrq	$6, %r15
	cmpq	%rcx, %r13
	ja	.Lnoise_BB91_30
	movq	(%r12,%rax,8), %rcx
	movq	%r15, %rax
	orq	%rcx, %rax
	shrq	$32, %rax
	je	.Lnoise_BB91_28
	movq	%r15, %rax
	xorl	%edx, %edx
	divq	%rcx
	jmp	.Lnoise_BB91_29
.Lnoise_BB91_27:
	movl	$26, %ebp
	jmp	.Lnoise_BB91_74
.Lnoise_BB91_28:
	movl	%r15d, %eax
	xorl	%edx, %edx
	divl	%ecx
.Lnoise_BB91_29:
	movq	136(%rsp,%rdx,8), %rax
	movl	%r13d, %ecx
	shrq	%cl, %rax
	movl	$28, %ebp
	testb	$1, %al
	jne	.Lnoise_BB91_74
.Lnoise_BB91_30:
	leaq	72(%rsp), %rbp
	movq	%r13, 112(%rsp)
	xorps	%xmm0, %xmm0
	movaps	%xmm0, 272(%rsp)
	addq	$-8, %r9
	movq	%rbx, %r8
	addq	$8, %r8
	leaq	.Lnoise_static.1(%rip), %rdx
	leaq	272(%rsp), %rdi
	movq	%rbp, %rsi
	xorl	%ecx, %ecx
	callq	"noise_state::cipher::CipherState::decrypt"
	cmpb	$0, 272(%rsp)
	je	.Lnoise_BB91_33
	cmpb	$3, 273(%rsp)
	je	.Lnoise_BB91_75
	movl	$16, %ebp
	jmp	.Lnoise_BB91_74
.Lnoise_BB91_33:
	movq	%r12, %rbx
	movq	280(%rsp), %r12
	movq	64(%rsp), %rcx
	testq	%rcx, %rcx
	movq	24(%rsp), %rdi
	je	.Lnoise_BB91_39
	movq	112(%rsp), %rax
	movq	%rax, %rdx
	orq	%rcx, %rdx
	shrq	$32, %rdx
	je	.Lnoise_BB91_36
	xorl	%edx, %edx
	divq	%rcx
	jmp	.Lnoise_BB91_37
.Lnoise_BB91_36:
	xorl	%edx, %edx
	divl	%ecx
.Lnoise_BB91_37:
	testq	%rdx, %rdx
	jne	.Lnoise_BB91_39
	movq	%rbp, %rdi
	callq	"noise_state::cipher::CipherState::rekey"
	movq	24(%rsp), %rdi
.Lnoise_BB91_39:
	movq	128(%rsp), %r10
	movzbl	120(%rsp), %r8d
	cmpq	%r13, %r10
	jae	.Lnoise_BB91_41
	shrq	$6, %r10
	movq	(%rbx,%r8,8), %rax
	movq	%r15, %r9
	subq	%r10, %r9
	cmpq	%r9, %rax
	cmovbq	%rax, %r9
	cmpq	%r10, %r15
	movq	%r13, %r10
	jne	.Lnoise_BB91_45
.Lnoise_BB91_41:
	testq	%r8, %r8
	je	.Lnoise_BB91_44
	cmpl	$2, %r8d
	jne	.Lnoise_BB91_49
	movl	$17, %esi
	jmp	.Lnoise_BB91_69
.Lnoise_BB91_44:
	movl	$2, %esi
	jmp	.Lnoise_BB91_69
.Lnoise_BB91_45:
	movq	%r12, 16(%rsp)
	movq	%r15, %rbp
	testl	%r8d, %r8d
	je	.Lnoise_BB91_50
	cmpl	$1, %r8d
	jne	.Lnoise_BB91_52
	movabsq	$-3689348814741910323, %r11
	cmpq	$1, %r9
	jne	.Lnoise_BB91_54
	xorl	%ebx, %ebx
	movq	24(%rsp), %rdi
	movq	%rbp, %r15
	movq	16(%rsp), %r12
	jmp	.Lnoise_BB91_57
.Lnoise_BB91_49:
	movl	$5, %esi
	jmp	.Lnoise_BB91_69
.Lnoise_BB91_50:
	leaq	-1(%r9), %rcx
	movl	%r9d, %eax
	andl	$3, %eax
	cmpq	$3, %rcx
	jae	.Lnoise_BB91_58
	xorl	%ecx, %ecx
	jmp	.Lnoise_BB91_61
.Lnoise_BB91_52:
	movabsq	$-1085102592571150095, %r11
	cmpq	$1, %r9
	jne	.Lnoise_BB91_64
	xorl	%ebx, %ebx
	movq	24(%rsp), %rdi
	movq	%rbp, %r15
	movq	16(%rsp), %r12
	jmp	.Lnoise_BB91_67
.Lnoise_BB91_54:
	movq	%r9, %rdi
	andq	$-2, %rdi
	movq	%rbp, %rsi
	leaq	(%rsp,%rbp,8), %r10
	addq	$128, %r10
	leaq	-1(%rbp), %rcx
	leaq	(%rsp,%rbp,8), %r15
	addq	$136, %r15
	xorl	%ebx, %ebx
.Lnoise_BB91_55:
	movq	%rcx, %rax
	mulq	%r11
	addq	%rdx, %rdx
	andq	$-8, %rdx
	leaq	(%rdx,%rdx,4), %r12
	negq	%r12
	movq	%rsi, %rax
	mulq	%r11
	addq	%rdx, %rdx
	andq	$-8, %rdx
	leaq	(%rdx,%rdx,4), %rax
	negq	%rax
	movq	$0, (%r15,%rax)
	movq	$0, (%r10,%r12)
	addq	$2, %rbx
	addq	$-16, %r10
	addq	$-2, %rcx
	addq	$-16, %r15
	addq	$-2, %rsi
	cmpq	%rbx, %rdi
	jne	.Lnoise_BB91_55
	movl	$5, %esi
	movq	%r13, %r10
	testb	$1, %r9b
	movq	24(%rsp), %rdi
	movq	%rbp, %r15
	movq	16(%rsp), %r12
	je	.Lnoise_BB91_69
.Lnoise_BB91_57:
	movq	%r15, %rcx
	subq	%rbx, %rcx
	movq	%rcx, %rax
	mulq	%r11
	shrl	$2, %edx
	leal	(%rdx,%rdx,4), %eax
	subl	%eax, %ecx
	shll	$3, %ecx
	movq	$0, 136(%rsp,%rcx)
	movl	$5, %esi
	jmp	.Lnoise_BB91_68
.Lnoise_BB91_58:
	andq	$-4, %r9
	leal	(,%rbp,8), %edx
	andl	$8, %edx
	movq	%rdx, %rsi
	xorq	$8, %rsi
	xorl	%ecx, %ecx
.Lnoise_BB91_59:
	movq	$0, 136(%rsp,%rdx)
	movq	$0, 136(%rsp,%rsi)
	movq	$0, 136(%rsp,%rdx)
	movq	$0, 136(%rsp,%rsi)
	addq	$4, %rcx
	cmpq	%rcx, %r9
	jne	.Lnoise_BB91_59
	testq	%rax, %rax
	je	.Lnoise_BB91_63
.Lnoise_BB91_61:
	leaq	(,%rbp,8), %rdx
	shlq	$3, %rcx
	subq	%rcx, %rdx
	shll	$3, %eax
.Lnoise_BB91_62:
	movl	%edx, %ecx
	andl	$8, %ecx
	movq	$0, 136(%rsp,%rcx)
	addq	$-8, %rdx
	addq	$-8, %rax
	jne	.Lnoise_BB91_62
.Lnoise_BB91_63:
	movl	$2, %esi
	movq	%r13, %r10
	movq	24(%rsp), %rdi
	movq	%rbp, %r15
	movq	16(%rsp), %r12
	jmp	.Lnoise_BB91_69
.Lnoise_BB91_64:
	movq	%r9, %r10
	andq	$-2, %r10
	movq	%rbp, %rsi
	leaq	(%rsp,%rbp,8), %r15
	addq	$128, %r15
	leaq	-1(%rbp), %rcx
	leaq	(%rsp,%rbp,8), %r12
	addq	$136, %r12
	xorl	%ebx, %ebx
.Lnoise_BB91_65:
	movq	%rcx, %rax
	mulq	%r11
	movq	%rdx, %rdi
	shrq	$4, %rdi
	movq	%rsi, %rax
	mulq	%r11
	imulq	$-136, %rdi, %rax
	shrq	$4, %rdx
	imulq	$-136, %rdx, %rdx
	movq	$0, (%r12,%rdx)
	movq	$0, (%r15,%rax)
	addq	$2, %rbx
	addq	$-16, %r15
	addq	$-2, %rcx
	addq	$-16, %r12
	addq	$-2, %rsi
	cmpq	%rbx, %r10
	jne	.Lnoise_BB91_65
	movl	$17, %esi
	movq	%r13, %r10
	testb	$1, %r9b
	movq	24(%rsp), %rdi
	movq	%rbp, %r15
	movq	16(%rsp), %r12
	je	.Lnoise_BB91_69
.Lnoise_BB91_67:
	movq	%r15, %rcx
	subq	%rbx, %rcx
	movq	%rcx, %rax
	mulq	%r11
	shrq	$4, %rdx
	movl	%edx, %eax
	shll	$4, %eax
	addl	%edx, %eax
	subl	%eax, %ecx
	movq	$0, 136(%rsp,%rcx,8)
	movl	$17, %esi
.Lnoise_BB91_68:
	movq	%r13, %r10
.Lnoise_BB91_69:
	movl	$1, %r9d
	movl	%r13d, %ecx
	shlq	%cl, %r9
	movabsq	$288230371856744448, %rax
	testq	%rax, %r15
	je	.Lnoise_BB91_71
	movq	%r15, %rax
	xorl	%edx, %edx
	divq	%rsi
	jmp	.Lnoise_BB91_72
.Lnoise_BB91_71:
	movl	%r15d, %eax
	xorl	%edx, %edx
	divl	%esi
.Lnoise_BB91_72:
	movq	40(%rsp), %rax
	orq	%r9, 136(%rsp,%rdx,8)
	movq	$8, (%rax)
	movq	%r12, 8(%rax)
	cmpb	$1, 72(%rsp)
	jne	.Lnoise_BB91_75
	leaq	73(%rsp), %rax
	movzbl	57(%rsp), %ecx
	leaq	.Lnoise_switch.table.noise_finish_datagrams(%rip), %rdx
	andb	$1, %cl
	cmpb	$1, 56(%rsp)
	movl	(%rdx,%r8,4), %edx
	movb	$2, %r8b
	sbbb	$0, %r8b
	leaq	136(%rsp), %rsi
	movl	$1315899137, (%rdi)
	movb	%r8b, 4(%rdi)
	movb	%cl, 5(%rdi)
	movw	$0, 6(%rdi)
	movl	%edx, 8(%rdi)
	movups	(%rax), %xmm0
	movups	16(%rax), %xmm1
	movups	%xmm1, 16(%r14)
	movups	%xmm0, (%r14)
	movl	$0, 44(%rdi)
	movq	%r10, 48(%rdi)
	movl	$136, %edx
	movq	48(%rsp), %rdi
	callq	memcpy@PLT
	xorl	%ebp, %ebp
.Lnoise_BB91_74:
	movl	%ebp, %eax
	addq	$424, %rsp
	.cfi_def_cfa_offset 56
	popq	%rbx
	.cfi_def_cfa_offset 48
	popq	%r12
	.cfi_def_cfa_offset 40
	popq	%r13
	.cfi_def_cfa_offset 32
	popq	%r14
	.cfi_def_cfa_offset 24
	popq	%r15
	.cfi_def_cfa_offset 16
	popq	%rbp
	.cfi_def_cfa_offset 8
	retq
.Lnoise_BB91_75:
	.cfi_def_cfa_offset 480
	ud2
.Lnoise_func_end91:
	.size	noise_datagram_open, .Lnoise_func_end91-noise_datagram_open
	.cfi_endproc

	.section	.text.noise_finish_datagrams,"ax",@progbits
	.globl	noise_finish_datagrams
	.p2align	4
	.type	noise_finish_datagrams,@function
noise_finish_datagrams:
	.cfi_startproc
	endbr64
	pushq	%r15
	.cfi_def_cfa_offset 16
	pushq	%r14
	.cfi_def_cfa_offset 24
	pushq	%rbx
	.cfi_def_cfa_offset 32
	subq	$240, %rsp
	.cfi_def_cfa_offset 272
	.cfi_offset %rbx, -32
	.cfi_offset %r14, -24
	.cfi_offset %r15, -16
	movq	%rcx, %rbx
	movq	%rdx, %r14
	movq	%rdi, %rcx
	cmpl	$64, %esi
	je	.Lnoise_BB92_1
	cmpl	$1024, %esi
	je	.Lnoise_BB92_5
	movl	$25, %eax
	cmpl	$256, %esi
	jne	.Lnoise_BB92_14
	movl	$1, %r15d
	jmp	.Lnoise_BB92_6
.Lnoise_BB92_5:
	movl	$2, %r15d
	jmp	.Lnoise_BB92_6
.Lnoise_BB92_1:
	xorl	%r15d, %r15d
.Lnoise_BB92_6:
	leaq	64(%rsp), %rdi
	movq	%rcx, %rsi
	callq	"noise_c::split::finished"
	cmpb	$0, 64(%rsp)
	je	.Lnoise_BB92_7
	movl	68(%rsp), %eax
	jmp	.Lnoise_BB92_14
.Lnoise_BB92_7:
	movzbl	72(%rsp), %edx
	movzbl	144(%rsp), %esi
	leaq	145(%rsp), %rdi
	movzbl	192(%rsp), %eax
	testb	%dl, %dl
	je	.Lnoise_BB92_8
	movq	232(%rsp), %rcx
	movups	48(%rdi), %xmm0
	movups	64(%rdi), %xmm1
	movaps	%xmm0, 32(%rsp)
	movaps	%xmm1, 48(%rsp)
	movups	(%rdi), %xmm0
	movups	16(%rdi), %xmm1
	movaps	%xmm0, (%rsp)
	movaps	%xmm1, 16(%rsp)
	movl	%eax, %edi
	movl	%esi, %eax
	cmpb	$1, %dil
	je	.Lnoise_BB92_11
	jmp	.Lnoise_BB92_15
.Lnoise_BB92_8:
	movq	184(%rsp), %rcx
	movups	(%rdi), %xmm0
	movups	16(%rdi), %xmm1
	movaps	%xmm0, 32(%rsp)
	movaps	%xmm1, 48(%rsp)
	movups	48(%rdi), %xmm0
	movups	64(%rdi), %xmm1
	movaps	%xmm0, (%rsp)
	movaps	%xmm1, 16(%rsp)
	movl	%esi, %edi
	cmpb	$1, %dil
	jne	.Lnoise_BB92_15
.Lnoise_BB92_11:
	movzbl	73(%rsp), %esi
	andb	$1, %sil
	cmpb	$1, %dl
	movb	$2, %dl
	sbbb	$0, %dl
	movl	$1315898881, (%r14)
	movb	%dl, 4(%r14)
	movb	%sil, 5(%r14)
	movaps	32(%rsp), %xmm0
	movaps	48(%rsp), %xmm1
	movups	%xmm0, 6(%r14)
	movups	%xmm1, 22(%r14)
	movw	$0, 38(%r14)
	movq	%rcx, 40(%r14)
	cmpb	$1, %al
	jne	.Lnoise_BB92_15
	leaq	.Lnoise_switch.table.noise_finish_datagrams(%rip), %rax
	movl	(%rax,%r15,4), %eax
	movl	$1315899137, (%rbx)
	movb	%dl, 4(%rbx)
	movb	%sil, 5(%rbx)
	movw	$0, 6(%rbx)
	movl	%eax, 8(%rbx)
	movaps	(%rsp), %xmm0
	movaps	16(%rsp), %xmm1
	movups	%xmm0, 12(%rbx)
	movups	%xmm1, 28(%rbx)
	xorps	%xmm0, %xmm0
	movups	%xmm0, 44(%rbx)
	movups	%xmm0, 60(%rbx)
	movups	%xmm0, 76(%rbx)
	movups	%xmm0, 92(%rbx)
	movups	%xmm0, 108(%rbx)
	movups	%xmm0, 124(%rbx)
	movups	%xmm0, 140(%rbx)
	movups	%xmm0, 156(%rbx)
	movups	%xmm0, 172(%rbx)
	movl	$0, 188(%rbx)
	xorl	%eax, %eax
.Lnoise_BB92_14:
	addq	$240, %rsp
	.cfi_def_cfa_offset 32
	popq	%rbx
	.cfi_def_cfa_offset 24
	popq	%r14
	.cfi_def_cfa_offset 16
	popq	%r15
	.cfi_def_cfa_offset 8
	retq
.Lnoise_BB92_15:
	.cfi_def_cfa_offset 272
	ud2
.Lnoise_func_end92:
	.size	noise_finish_datagrams, .Lnoise_func_end92-noise_finish_datagrams
	.cfi_endproc

	.section	.text.noise_write,"ax",@progbits
	.globl	noise_write
	.p2align	4
	.type	noise_write,@function
noise_write:
	.cfi_startproc
	endbr64
	pushq	%rbp
	.cfi_def_cfa_offset 16
	pushq	%r15
	.cfi_def_cfa_offset 24
	pushq	%r14
	.cfi_def_cfa_offset 32
	pushq	%r13
	.cfi_def_cfa_offset 40
	pushq	%r12
	.cfi_def_cfa_offset 48
	pushq	%rbx
	.cfi_def_cfa_offset 56
	subq	$2408, %rsp
	.cfi_def_cfa_offset 2464
	.cfi_offset %rbx, -56
	.cfi_offset %r12, -48
	.cfi_offset %r13, -40
	.cfi_offset %r14, -32
	.cfi_offset %r15, -24
	.cfi_offset %rbp, -16
	movq	%r9, 72(%rsp)
	movq	%r8, %rbp
	movq	%rcx, %r12
	movq	%rdx, 32(%rsp)
	movq	%rsi, %r13
	movq	%rdi, %r14
	testq	%rsi, %rsi
	sete	%bl
	testq	%rcx, %rcx
	sete	%r15b
	xorps	%xmm0, %xmm0
	movaps	%xmm0, 80(%rsp)
	movl	$0, 96(%rsp)
	movaps	%xmm0, 192(%rsp)
	movl	$0, 208(%rsp)
	leaq	648(%rsp), %rdi
	movl	$872, %edx
	xorl	%esi, %esi
	callq	memset@PLT
	cmpl	$1315897601, (%r14)
	jne	.Lnoise_BB93_5
	movzwl	420(%r14), %edx
	cmpq	$416, %rdx
	ja	.Lnoise_BB93_5
	cmpb	$8, 846(%r14)
	ja	.Lnoise_BB93_5
	cmpb	$9, 557(%r14)
	ja	.Lnoise_BB93_5
	leaq	4(%r14), %rsi
	leaq	240(%rsp), %rdi
	callq	"noise_c::patterns::pattern_of"
	cmpb	$0, 240(%rsp)
	je	.Lnoise_BB93_6
.Lnoise_BB93_5:
	movl	$23, %eax
.Lnoise_BB93_55:
	addq	$2408, %rsp
	.cfi_def_cfa_offset 56
	popq	%rbx
	.cfi_def_cfa_offset 48
	popq	%r12
	.cfi_def_cfa_offset 40
	popq	%r13
	.cfi_def_cfa_offset 32
	popq	%r14
	.cfi_def_cfa_offset 24
	popq	%r15
	.cfi_def_cfa_offset 16
	popq	%rbp
	.cfi_def_cfa_offset 8
	retq
.Lnoise_BB93_6:
	.cfi_def_cfa_offset 2464
	leaq	248(%rsp), %rdx
	leaq	648(%rsp), %rdi
	movq	%r14, %rsi
	callq	"noise_c::from_c::restored"
	movzbl	648(%rsp), %eax
	movb	%al, 40(%rsp)
	leaq	656(%rsp), %rsi
	leaq	1520(%rsp), %rdi
	movl	$864, %edx
	callq	memcpy@PLT
	movl	$23, %eax
	cmpb	$1, 40(%rsp)
	jne	.Lnoise_BB93_55
	leaq	648(%rsp), %rdi
	leaq	1520(%rsp), %rsi
	movl	$864, %edx
	callq	memcpy@PLT
	movl	$13, %eax
	cmpb	$0, 1337(%rsp)
	jne	.Lnoise_BB93_55
	movzbl	1336(%rsp), %ecx
	movl	$12, %eax
	cmpq	%rcx, 912(%rsp)
	je	.Lnoise_BB93_55
	cmpb	$0, 952(%rsp)
	sete	%dl
	andb	$1, %cl
	movl	$10, %eax
	cmpb	%cl, %dl
	je	.Lnoise_BB93_55
	movzwl	1392(%rsp), %ecx
	movq	%rcx, %rdx
	xorq	$65535, %rdx
	movl	$11, %eax
	cmpq	%rdx, 32(%rsp)
	ja	.Lnoise_BB93_55
	addq	32(%rsp), %rcx
	cmpq	%rcx, %rbp
	jae	.Lnoise_BB93_13
	movq	72(%rsp), %rax
	movq	%rcx, 8(%rax)
	movl	$18, %eax
	jmp	.Lnoise_BB93_55
.Lnoise_BB93_13:
	leaq	1344(%rsp), %rdi
	movq	1384(%rsp), %rsi
	movq	1320(%rsp), %rdx
	movq	1328(%rsp), %rax
	movq	%rax, 56(%rsp)
	subq	%rax, %rdx
	movq	%rsi, 64(%rsp)
	movq	%rdx, 40(%rsp)
	callq	"noise_handshake::layout::psk_after"
	testb	%al, %al
	je	.Lnoise_BB93_14
	xorl	%edi, %edi
	cmpb	$1, %al
	movzbl	%dl, %eax
	cmoveq	%rax, %rdi
	movq	56(%rsp), %rax
	shlq	$5, %rax
	leaq	(%rsp,%rax), %rcx
	addq	$1032, %rcx
	leaq	960(%rsp), %rsi
	leaq	920(%rsp), %rdx
	xorps	%xmm0, %xmm0
	movaps	%xmm0, 256(%rsp)
	movaps	%xmm0, 240(%rsp)
	movw	$0, 272(%rsp)
	movq	%rdi, (%rsp)
	leaq	240(%rsp), %rdi
	movq	40(%rsp), %r8
	leaq	1344(%rsp), %r9
	callq	"noise_handshake::writer::write_lacking::<#9bbb2dae5a99aff0>"
	movzbl	240(%rsp), %esi
	movzbl	241(%rsp), %eax
	movl	242(%rsp), %ecx
	movq	246(%rsp), %rdx
	movups	254(%rsp), %xmm0
	movaps	%xmm0, 528(%rsp)
	movl	270(%rsp), %edi
	movl	%edi, 544(%rsp)
	cmpb	$1, %sil
	jne	.Lnoise_BB93_50
	movl	544(%rsp), %esi
	movaps	528(%rsp), %xmm0
	jmp	.Lnoise_BB93_16
.Lnoise_BB93_14:
	xorps	%xmm0, %xmm0
	movaps	%xmm0, 256(%rsp)
	movaps	%xmm0, 240(%rsp)
	movw	$0, 272(%rsp)
	movq	56(%rsp), %rax
	shlq	$5, %rax
	leaq	(%rsp,%rax), %rcx
	addq	$1032, %rcx
	leaq	960(%rsp), %rsi
	leaq	920(%rsp), %rdx
	movq	64(%rsp), %rax
	movq	%rax, (%rsp)
	leaq	240(%rsp), %rdi
	movq	40(%rsp), %r8
	leaq	1344(%rsp), %r9
	callq	"noise_handshake::writer::write_lacking::<#9bbb2dae5a99aff0>"
	movzbl	240(%rsp), %esi
	movzbl	241(%rsp), %eax
	movl	242(%rsp), %ecx
	movq	246(%rsp), %rdx
	movups	254(%rsp), %xmm0
	movaps	%xmm0, 112(%rsp)
	movl	270(%rsp), %edi
	movl	%edi, 128(%rsp)
	cmpb	$1, %sil
	jne	.Lnoise_BB93_19
	movl	128(%rsp), %esi
	movaps	112(%rsp), %xmm0
.Lnoise_BB93_16:
	movaps	%xmm0, 192(%rsp)
	movl	%esi, 208(%rsp)
	movaps	%xmm0, 80(%rsp)
	movl	%esi, 96(%rsp)
	movq	72(%rsp), %rsi
	movb	%al, 17(%rsi)
	movl	%ecx, 18(%rsi)
	movq	%rdx, 22(%rsi)
	movaps	80(%rsp), %xmm0
	movups	%xmm0, 30(%rsi)
	movl	96(%rsp), %eax
	movl	%eax, 46(%rsi)
	movl	$20, %eax
	jmp	.Lnoise_BB93_55
.Lnoise_BB93_50:
	movzbl	993(%rsp), %eax
	cmpb	$1, %al
	jne	.Lnoise_BB93_52
	movl	994(%rsp), %edx
	movq	998(%rsp), %rcx
	movl	1022(%rsp), %esi
	movl	%esi, 256(%rsp)
	movups	1006(%rsp), %xmm0
	movaps	%xmm0, 240(%rsp)
	jmp	.Lnoise_BB93_53
.Lnoise_BB93_19:
	xorl	%eax, %eax
	movb	%r15b, %al
	shll	$12, %eax
	movq	%rax, %r15
	leaq	(%r12,%rax), %rsi
	leaq	1032(%rsp), %rax
	movq	1320(%rsp), %r8
	movq	1328(%rsp), %rcx
	subq	%rcx, %r8
	shlq	$5, %rcx
	addq	%rax, %rcx
	movups	1400(%rsp), %xmm0
	movaps	%xmm0, 528(%rsp)
	movups	1416(%rsp), %xmm1
	movaps	%xmm1, 544(%rsp)
	movups	1432(%rsp), %xmm2
	movaps	%xmm2, 560(%rsp)
	movups	1448(%rsp), %xmm3
	movaps	%xmm3, 576(%rsp)
	movzbl	1464(%rsp), %eax
	movq	1504(%rsp), %rdx
	movaps	%xmm0, 240(%rsp)
	movaps	%xmm1, 256(%rsp)
	movaps	%xmm2, 272(%rsp)
	movaps	%xmm3, 288(%rsp)
	movb	%al, 304(%rsp)
	movups	1465(%rsp), %xmm0
	movups	%xmm0, 305(%rsp)
	movups	1481(%rsp), %xmm0
	movups	%xmm0, 321(%rsp)
	movl	$0, 337(%rsp)
	movl	$0, 340(%rsp)
	movq	%rdx, 344(%rsp)
	movzbl	960(%rsp), %edx
	movups	961(%rsp), %xmm0
	movups	%xmm0, 113(%rsp)
	movups	977(%rsp), %xmm0
	movups	%xmm0, 129(%rsp)
	movzbl	993(%rsp), %eax
	movups	994(%rsp), %xmm0
	movups	%xmm0, 146(%rsp)
	movups	1010(%rsp), %xmm0
	movups	%xmm0, 162(%rsp)
	movb	%dl, 64(%rsp)
	movb	%dl, 112(%rsp)
	movb	%al, 56(%rsp)
	movb	%al, 145(%rsp)
	movq	1384(%rsp), %rax
	movq	%rbp, 16(%rsp)
	movq	%rsi, %rbp
	movq	%rsi, 8(%rsp)
	movq	%rax, (%rsp)
	leaq	240(%rsp), %rdi
	leaq	112(%rsp), %rsi
	leaq	920(%rsp), %rdx
	leaq	1344(%rsp), %r9
	callq	"noise_handshake::writer::write_tokens::<#3dfcfe118667ed30>"
	movq	%rdx, 40(%rsp)
	testb	%al, %al
	je	.Lnoise_BB93_20
	movl	$14, %eax
	jmp	.Lnoise_BB93_55
.Lnoise_BB93_52:
	xorps	%xmm0, %xmm0
	movaps	%xmm0, 240(%rsp)
	movl	$0, 256(%rsp)
	xorl	%ecx, %ecx
	xorl	%edx, %edx
.Lnoise_BB93_53:
	movq	72(%rsp), %rsi
	movl	%edx, 18(%rsi)
	movq	%rcx, 22(%rsi)
	movaps	240(%rsp), %xmm0
	movups	%xmm0, 30(%rsi)
	movl	256(%rsp), %ecx
	movl	%ecx, 46(%rsi)
	movb	%al, 50(%rsi)
	movl	$40, %eax
	jmp	.Lnoise_BB93_55
.Lnoise_BB93_20:
	xorl	%eax, %eax
	movb	%bl, %al
	shll	$12, %eax
	leaq	(%rax,%r13), %rsi
	addq	40(%rsp), %rbp
	movq	%rbp, 48(%rsp)
	subq	%rsi, %rbp
	cmpq	32(%rsp), %rbp
	jae	.Lnoise_BB93_56
	movq	%rax, %r8
	cmpq	$4, 32(%rsp)
	jb	.Lnoise_BB93_22
	movq	40(%rsp), %rax
	leaq	(%rax,%r15), %rdx
	leaq	(%rdx,%r12), %rax
	subq	%rsi, %rax
	cmpq	$32, %rax
	jae	.Lnoise_BB93_24
.Lnoise_BB93_22:
	xorl	%eax, %eax
	movq	32(%rsp), %r9
.Lnoise_BB93_33:
	movq	%r9, %rdx
	movq	%rax, %rcx
	andq	$3, %rdx
	movq	48(%rsp), %r9
	je	.Lnoise_BB93_36
	movq	%rax, %rcx
.Lnoise_BB93_35:
	movzbl	(%rsi,%rcx), %edi
	movb	%dil, (%r9,%rcx)
	incq	%rcx
	decq	%rdx
	jne	.Lnoise_BB93_35
.Lnoise_BB93_36:
	movq	32(%rsp), %r9
	subq	%r9, %rax
	cmpq	$-4, %rax
	ja	.Lnoise_BB93_39
	leaq	(%r8,%r13), %rax
	addq	$3, %rax
	addq	40(%rsp), %r15
	leaq	(%r12,%r15), %rdx
	addq	$3, %rdx
.Lnoise_BB93_38:
	movzbl	-3(%rax,%rcx), %esi
	movb	%sil, -3(%rdx,%rcx)
	movzbl	-2(%rax,%rcx), %esi
	movb	%sil, -2(%rdx,%rcx)
	movzbl	-1(%rax,%rcx), %esi
	movb	%sil, -1(%rdx,%rcx)
	movzbl	(%rax,%rcx), %esi
	movb	%sil, (%rdx,%rcx)
	addq	$4, %rcx
	cmpq	%rcx, %r9
	jne	.Lnoise_BB93_38
	jmp	.Lnoise_BB93_39
.Lnoise_BB93_56:
	movq	48(%rsp), %rdi
	movq	32(%rsp), %rbx
	movq	%rbx, %rdx
	callq	memmove@PLT
	movq	%rbx, %r9
.Lnoise_BB93_39:
	xorps	%xmm0, %xmm0
	movaps	%xmm0, 224(%rsp)
	leaq	272(%rsp), %r12
	leaq	224(%rsp), %rdi
	movl	$32, %ecx
	leaq	304(%rsp), %rsi
	movq	%r12, %rdx
	movq	48(%rsp), %r8
	callq	"noise_state::cipher::CipherState::encrypt"
	cmpb	$0, 224(%rsp)
	jne	.Lnoise_BB93_57
	leaq	1400(%rsp), %rbx
	leaq	113(%rsp), %r13
	movq	232(%rsp), %r15
	leaq	592(%rsp), %rdi
	movq	%r12, %rsi
	movq	48(%rsp), %rdx
	movq	%r15, %rcx
	callq	"noise_state::symmetric::hash_of_both"
	movups	592(%rsp), %xmm0
	movups	608(%rsp), %xmm1
	movups	%xmm1, 16(%r12)
	movups	%xmm0, (%r12)
	movq	40(%rsp), %rbp
	addq	%r15, %rbp
	movzbl	304(%rsp), %eax
	movzbl	1394(%rsp), %r12d
	addq	1328(%rsp), %r12
	movq	%r12, 1328(%rsp)
	movzbl	1336(%rsp), %r15d
	incb	%r15b
	movb	%r15b, 1336(%rsp)
	movzbl	953(%rsp), %edx
	movb	%al, 32(%rsp)
	movzbl	%al, %ecx
	movzbl	%r15b, %r8d
	leaq	592(%rsp), %rdi
	leaq	648(%rsp), %rsi
	callq	"noise_handshake::layout::lay_next"
	movaps	240(%rsp), %xmm0
	movaps	256(%rsp), %xmm1
	movaps	272(%rsp), %xmm2
	movaps	288(%rsp), %xmm3
	movups	%xmm3, 48(%rbx)
	movups	%xmm2, 32(%rbx)
	movups	%xmm1, 16(%rbx)
	movups	%xmm0, (%rbx)
	leaq	305(%rsp), %rax
	movups	(%rax), %xmm0
	movups	16(%rax), %xmm1
	movups	31(%rax), %xmm2
	movups	%xmm2, 96(%rbx)
	movups	%xmm1, 81(%rbx)
	movups	%xmm0, 65(%rbx)
	movups	(%r13), %xmm0
	movups	16(%r13), %xmm1
	movups	%xmm1, -423(%rbx)
	movups	%xmm0, -439(%rbx)
	movups	33(%r13), %xmm0
	movups	49(%r13), %xmm1
	movups	%xmm1, -390(%rbx)
	movups	%xmm0, -406(%rbx)
	movq	72(%rsp), %rax
	movq	$0, (%rax)
	movq	%rbp, 8(%rax)
	movl	1320(%rsp), %ecx
	subl	%r12d, %ecx
	cmpb	$1, 64(%rsp)
	jne	.Lnoise_BB93_42
	movups	-439(%rbx), %xmm0
	movups	-423(%rbx), %xmm1
	movaps	%xmm1, 128(%rsp)
	jmp	.Lnoise_BB93_43
.Lnoise_BB93_42:
	xorps	%xmm0, %xmm0
	movaps	%xmm0, 128(%rsp)
.Lnoise_BB93_43:
	movaps	%xmm0, 112(%rsp)
	leaq	1432(%rsp), %rdx
	movzbl	1337(%rsp), %esi
	movq	1504(%rsp), %rax
	movzbl	64(%rsp), %edi
	movb	%dil, 491(%r14)
	movaps	112(%rsp), %xmm0
	movaps	128(%rsp), %xmm1
	movups	%xmm0, 492(%r14)
	movups	%xmm1, 508(%r14)
	cmpb	$1, 56(%rsp)
	jne	.Lnoise_BB93_45
	movups	-406(%rbx), %xmm0
	movups	-390(%rbx), %xmm1
	movaps	%xmm1, 256(%rsp)
	jmp	.Lnoise_BB93_46
.Lnoise_BB93_45:
	xorps	%xmm0, %xmm0
	movaps	%xmm0, 256(%rsp)
.Lnoise_BB93_46:
	movaps	%xmm0, 240(%rsp)
	movaps	240(%rsp), %xmm0
	movaps	256(%rsp), %xmm1
	movaps	%xmm1, 128(%rsp)
	movaps	%xmm0, 112(%rsp)
	movzbl	56(%rsp), %edi
	movb	%dil, 524(%r14)
	movaps	112(%rsp), %xmm0
	movaps	128(%rsp), %xmm1
	movups	%xmm0, 525(%r14)
	movups	%xmm1, 541(%r14)
	movb	%cl, 557(%r14)
	movb	%r15b, 424(%r14)
	movb	%sil, 423(%r14)
	movups	(%rbx), %xmm0
	movups	16(%rbx), %xmm1
	movups	%xmm0, 1367(%r14)
	movups	%xmm1, 1383(%r14)
	movups	(%rdx), %xmm0
	movups	16(%rdx), %xmm1
	movups	%xmm0, 1399(%r14)
	movups	%xmm1, 1415(%r14)
	cmpb	$1, 32(%rsp)
	jne	.Lnoise_BB93_48
	movups	65(%rbx), %xmm0
	movups	81(%rbx), %xmm1
	movaps	%xmm1, 256(%rsp)
	jmp	.Lnoise_BB93_49
.Lnoise_BB93_48:
	xorps	%xmm0, %xmm0
	movaps	%xmm0, 256(%rsp)
.Lnoise_BB93_49:
	movaps	%xmm0, 240(%rsp)
	movaps	240(%rsp), %xmm0
	movaps	256(%rsp), %xmm1
	movaps	%xmm1, 128(%rsp)
	movaps	%xmm0, 112(%rsp)
	movzbl	32(%rsp), %ecx
	movb	%cl, 1431(%r14)
	movaps	112(%rsp), %xmm0
	movaps	128(%rsp), %xmm1
	movups	%xmm0, 1432(%r14)
	movups	%xmm1, 1448(%r14)
	movq	%rax, 1464(%r14)
	xorl	%eax, %eax
	jmp	.Lnoise_BB93_55
.Lnoise_BB93_24:
	cmpq	$32, 32(%rsp)
	jae	.Lnoise_BB93_26
	xorl	%eax, %eax
	movq	32(%rsp), %r9
	jmp	.Lnoise_BB93_30
.Lnoise_BB93_26:
	movq	32(%rsp), %rax
	andq	$-32, %rax
	leaq	(%r8,%r13), %rcx
	addq	$16, %rcx
	addq	%r12, %rdx
	addq	$16, %rdx
	xorl	%edi, %edi
.Lnoise_BB93_27:
	movups	-16(%rcx,%rdi), %xmm0
	movups	(%rcx,%rdi), %xmm1
	movups	%xmm0, -16(%rdx,%rdi)
	movups	%xmm1, (%rdx,%rdi)
	addq	$32, %rdi
	cmpq	%rdi, %rax
	jne	.Lnoise_BB93_27
	movq	32(%rsp), %r9
	cmpq	%rax, %r9
	je	.Lnoise_BB93_39
	testb	$28, %r9b
	je	.Lnoise_BB93_33
.Lnoise_BB93_30:
	movq	%rax, %rcx
	movq	%r9, %rax
	andq	$-4, %rax
	movq	48(%rsp), %rdi
.Lnoise_BB93_31:
	movl	(%rsi,%rcx), %edx
	movl	%edx, (%rdi,%rcx)
	addq	$4, %rcx
	cmpq	%rcx, %rax
	jne	.Lnoise_BB93_31
	movq	32(%rsp), %r9
	cmpq	%rax, %r9
	jne	.Lnoise_BB93_33
	jmp	.Lnoise_BB93_39
.Lnoise_BB93_57:
	ud2
.Lnoise_func_end93:
	.size	noise_write, .Lnoise_func_end93-noise_write
	.cfi_endproc

	.type	.Lnoise_static.0,@object
	.section	.rodata..Lnoise_static.0,"a",@progbits
.Lnoise_static.0:
	.zero	15
	.size	.Lnoise_static.0, 15

	.type	.Lnoise_static.1,@object
	.section	.rodata..Lnoise_static.1,"a",@progbits
.Lnoise_static.1:
	.size	.Lnoise_static.1, 0

	.type	.Lnoise_static.2,@object
	.section	.rodata.str1.1,"aMS",@progbits,1
.Lnoise_static.2:
	.zero	1
	.size	.Lnoise_static.2, 1

	.type	.Lnoise_static.4,@object
	.section	.rodata..Lnoise_static.4,"a",@progbits
.Lnoise_static.4:
	.asciz	"The call succeeded.\000\000\000\000\000\000\000\000\000\000\000\000\000\000\000\000\000\000\000\000\000\000\000\000\000\000\000\000\000\000\000\000\000\000\000\000\000\000\000\000\000\000\000\000\000\000\000\000\000\000\000\000\000\000\000\000\000\000\000\000"
	.size	.Lnoise_static.4, 80

	.type	.Lnoise_static.5,@object
	.section	.rodata..Lnoise_static.5,"a",@progbits
.Lnoise_static.5:
	.asciz	"No fundamental pattern with 25519, ChaChaPoly, SHA256 has this name.\000\000\000\000\000\000\000\000\000\000\000"
	.size	.Lnoise_static.5, 80

	.type	.Lnoise_static.6,@object
	.section	.rodata..Lnoise_static.6,"a",@progbits
.Lnoise_static.6:
	.asciz	"The pattern text has a fault: noise_check_pattern says where.\000\000\000\000\000\000\000\000\000\000\000\000\000\000\000\000\000\000"
	.size	.Lnoise_static.6, 80

	.type	.Lnoise_static.7,@object
	.section	.rodata..Lnoise_static.7,"a",@progbits
.Lnoise_static.7:
	.asciz	"The setup lacks this party's ephemeral public key.\000\000\000\000\000\000\000\000\000\000\000\000\000\000\000\000\000\000\000\000\000\000\000\000\000\000\000\000\000"
	.size	.Lnoise_static.7, 80

	.type	.Lnoise_static.8,@object
	.section	.rodata..Lnoise_static.8,"a",@progbits
.Lnoise_static.8:
	.asciz	"The setup lacks this party's static public key.\000\000\000\000\000\000\000\000\000\000\000\000\000\000\000\000\000\000\000\000\000\000\000\000\000\000\000\000\000\000\000\000"
	.size	.Lnoise_static.8, 80

	.type	.Lnoise_static.9,@object
	.section	.rodata..Lnoise_static.9,"a",@progbits
.Lnoise_static.9:
	.asciz	"The setup lacks a key of the other party's pre-message.\000\000\000\000\000\000\000\000\000\000\000\000\000\000\000\000\000\000\000\000\000\000\000\000"
	.size	.Lnoise_static.9, 80

	.type	.Lnoise_static.10,@object
	.section	.rodata..Lnoise_static.10,"a",@progbits
.Lnoise_static.10:
	.asciz	"The setup has a remote key that isn't in a pre-message.\000\000\000\000\000\000\000\000\000\000\000\000\000\000\000\000\000\000\000\000\000\000\000\000"
	.size	.Lnoise_static.10, 80

	.type	.Lnoise_static.11,@object
	.section	.rodata..Lnoise_static.11,"a",@progbits
.Lnoise_static.11:
	.asciz	"There are more psks than psk tokens.\000\000\000\000\000\000\000\000\000\000\000\000\000\000\000\000\000\000\000\000\000\000\000\000\000\000\000\000\000\000\000\000\000\000\000\000\000\000\000\000\000\000\000"
	.size	.Lnoise_static.11, 80

	.type	.Lnoise_static.12,@object
	.section	.rodata..Lnoise_static.12,"a",@progbits
.Lnoise_static.12:
	.asciz	"It is the other party's turn.\000\000\000\000\000\000\000\000\000\000\000\000\000\000\000\000\000\000\000\000\000\000\000\000\000\000\000\000\000\000\000\000\000\000\000\000\000\000\000\000\000\000\000\000\000\000\000\000\000\000"
	.size	.Lnoise_static.12, 80

	.type	.Lnoise_static.13,@object
	.section	.rodata..Lnoise_static.13,"a",@progbits
.Lnoise_static.13:
	.asciz	"The message would be or is too long.\000\000\000\000\000\000\000\000\000\000\000\000\000\000\000\000\000\000\000\000\000\000\000\000\000\000\000\000\000\000\000\000\000\000\000\000\000\000\000\000\000\000\000"
	.size	.Lnoise_static.13, 80

	.type	.Lnoise_static.14,@object
	.section	.rodata..Lnoise_static.14,"a",@progbits
.Lnoise_static.14:
	.asciz	"All messages of the handshake have passed.\000\000\000\000\000\000\000\000\000\000\000\000\000\000\000\000\000\000\000\000\000\000\000\000\000\000\000\000\000\000\000\000\000\000\000\000\000"
	.size	.Lnoise_static.14, 80

	.type	.Lnoise_static.15,@object
	.section	.rodata..Lnoise_static.15,"a",@progbits
.Lnoise_static.15:
	.asciz	"The handshake has ended: a message was refused, or it was finished.\000\000\000\000\000\000\000\000\000\000\000\000"
	.size	.Lnoise_static.15, 80

	.type	.Lnoise_static.16,@object
	.section	.rodata..Lnoise_static.16,"a",@progbits
.Lnoise_static.16:
	.asciz	"A result of X25519 is missing in a struct that was changed.\000\000\000\000\000\000\000\000\000\000\000\000\000\000\000\000\000\000\000\000"
	.size	.Lnoise_static.16, 80

	.type	.Lnoise_static.17,@object
	.section	.rodata..Lnoise_static.17,"a",@progbits
.Lnoise_static.17:
	.asciz	"The message has too few bytes.\000\000\000\000\000\000\000\000\000\000\000\000\000\000\000\000\000\000\000\000\000\000\000\000\000\000\000\000\000\000\000\000\000\000\000\000\000\000\000\000\000\000\000\000\000\000\000\000\000"
	.size	.Lnoise_static.17, 80

	.type	.Lnoise_static.18,@object
	.section	.rodata..Lnoise_static.18,"a",@progbits
.Lnoise_static.18:
	.asciz	"A tag is wrong: keys, psks or prologues differ, or bytes changed.\000\000\000\000\000\000\000\000\000\000\000\000\000\000"
	.size	.Lnoise_static.18, 80

	.type	.Lnoise_static.19,@object
	.section	.rodata..Lnoise_static.19,"a",@progbits
.Lnoise_static.19:
	.asciz	"The nonce is 2^64 - 1: this key encrypts and decrypts no more.\000\000\000\000\000\000\000\000\000\000\000\000\000\000\000\000\000"
	.size	.Lnoise_static.19, 80

	.type	.Lnoise_static.20,@object
	.section	.rodata..Lnoise_static.20,"a",@progbits
.Lnoise_static.20:
	.asciz	"The buffer is too short for the message.\000\000\000\000\000\000\000\000\000\000\000\000\000\000\000\000\000\000\000\000\000\000\000\000\000\000\000\000\000\000\000\000\000\000\000\000\000\000\000"
	.size	.Lnoise_static.20, 80

	.type	.Lnoise_static.21,@object
	.section	.rodata..Lnoise_static.21,"a",@progbits
.Lnoise_static.21:
	.asciz	"Messages of the handshake are still due.\000\000\000\000\000\000\000\000\000\000\000\000\000\000\000\000\000\000\000\000\000\000\000\000\000\000\000\000\000\000\000\000\000\000\000\000\000\000\000"
	.size	.Lnoise_static.21, 80

	.type	.Lnoise_static.22,@object
	.section	.rodata..Lnoise_static.22,"a",@progbits
.Lnoise_static.22:
	.asciz	"A result of X25519 is needed: pass it to noise_answer; call again.\000\000\000\000\000\000\000\000\000\000\000\000\000"
	.size	.Lnoise_static.22, 80

	.type	.Lnoise_static.23,@object
	.section	.rodata..Lnoise_static.23,"a",@progbits
.Lnoise_static.23:
	.asciz	"In a one-way pattern only the initiator sends.\000\000\000\000\000\000\000\000\000\000\000\000\000\000\000\000\000\000\000\000\000\000\000\000\000\000\000\000\000\000\000\000\000"
	.size	.Lnoise_static.23, 80

	.type	.Lnoise_static.24,@object
	.section	.rodata..Lnoise_static.24,"a",@progbits
.Lnoise_static.24:
	.asciz	"The struct holds no state that a call could have made.\000\000\000\000\000\000\000\000\000\000\000\000\000\000\000\000\000\000\000\000\000\000\000\000\000"
	.size	.Lnoise_static.24, 80

	.type	.Lnoise_static.25,@object
	.section	.rodata..Lnoise_static.25,"a",@progbits
.Lnoise_static.25:
	.asciz	"The prologue, message or associated data has more than 65535 bytes.\000\000\000\000\000\000\000\000\000\000\000\000"
	.size	.Lnoise_static.25, 80

	.type	.Lnoise_static.26,@object
	.section	.rodata..Lnoise_static.26,"a",@progbits
.Lnoise_static.26:
	.asciz	"The window is not 64, 256 or 1024.\000\000\000\000\000\000\000\000\000\000\000\000\000\000\000\000\000\000\000\000\000\000\000\000\000\000\000\000\000\000\000\000\000\000\000\000\000\000\000\000\000\000\000\000\000"
	.size	.Lnoise_static.26, 80

	.type	.Lnoise_static.27,@object
	.section	.rodata..Lnoise_static.27,"a",@progbits
.Lnoise_static.27:
	.asciz	"The datagram has the nonce 2^64 - 1, which no datagram may have.\000\000\000\000\000\000\000\000\000\000\000\000\000\000\000"
	.size	.Lnoise_static.27, 80

	.type	.Lnoise_static.28,@object
	.section	.rodata..Lnoise_static.28,"a",@progbits
.Lnoise_static.28:
	.asciz	"The datagram is older than the window.\000\000\000\000\000\000\000\000\000\000\000\000\000\000\000\000\000\000\000\000\000\000\000\000\000\000\000\000\000\000\000\000\000\000\000\000\000\000\000\000\000"
	.size	.Lnoise_static.28, 80

	.type	.Lnoise_static.29,@object
	.section	.rodata..Lnoise_static.29,"a",@progbits
.Lnoise_static.29:
	.asciz	"A datagram with this nonce was opened before.\000\000\000\000\000\000\000\000\000\000\000\000\000\000\000\000\000\000\000\000\000\000\000\000\000\000\000\000\000\000\000\000\000\000"
	.size	.Lnoise_static.29, 80

	.type	.Lnoise_static.30,@object
	.section	.rodata..Lnoise_static.30,"a",@progbits
.Lnoise_static.30:
	.asciz	"A payload of this length can not be written now.\000\000\000\000\000\000\000\000\000\000\000\000\000\000\000\000\000\000\000\000\000\000\000\000\000\000\000\000\000\000\000"
	.size	.Lnoise_static.30, 80

	.type	.Lnoise_static.31,@object
	.section	.rodata..Lnoise_static.31,"a",@progbits
.Lnoise_static.31:
	.asciz	"Line 1 isn't a base name, its modifiers in order, and a colon.\000\000\000\000\000\000\000\000\000\000\000\000\000\000\000\000\000"
	.size	.Lnoise_static.31, 80

	.type	.Lnoise_static.32,@object
	.section	.rodata..Lnoise_static.32,"a",@progbits
.Lnoise_static.32:
	.asciz	"The line does not begin with two spaces, an arrow and a space.\000\000\000\000\000\000\000\000\000\000\000\000\000\000\000\000\000"
	.size	.Lnoise_static.32, 80

	.type	.Lnoise_static.33,@object
	.section	.rodata..Lnoise_static.33,"a",@progbits
.Lnoise_static.33:
	.asciz	"A word of the line is not a token.\000\000\000\000\000\000\000\000\000\000\000\000\000\000\000\000\000\000\000\000\000\000\000\000\000\000\000\000\000\000\000\000\000\000\000\000\000\000\000\000\000\000\000\000\000"
	.size	.Lnoise_static.33, 80

	.type	.Lnoise_static.34,@object
	.section	.rodata..Lnoise_static.34,"a",@progbits
.Lnoise_static.34:
	.asciz	"A pre-message has tokens other than e and s, or is misplaced.\000\000\000\000\000\000\000\000\000\000\000\000\000\000\000\000\000\000"
	.size	.Lnoise_static.34, 80

	.type	.Lnoise_static.35,@object
	.section	.rodata..Lnoise_static.35,"a",@progbits
.Lnoise_static.35:
	.asciz	"The line is a message of the wrong party.\000\000\000\000\000\000\000\000\000\000\000\000\000\000\000\000\000\000\000\000\000\000\000\000\000\000\000\000\000\000\000\000\000\000\000\000\000\000"
	.size	.Lnoise_static.35, 80

	.type	.Lnoise_static.36,@object
	.section	.rodata..Lnoise_static.36,"a",@progbits
.Lnoise_static.36:
	.asciz	"The psk tokens are not where the heading says.\000\000\000\000\000\000\000\000\000\000\000\000\000\000\000\000\000\000\000\000\000\000\000\000\000\000\000\000\000\000\000\000\000"
	.size	.Lnoise_static.36, 80

	.type	.Lnoise_static.37,@object
	.section	.rodata..Lnoise_static.37,"a",@progbits
.Lnoise_static.37:
	.asciz	"The base name is that of another pattern, a fundamental one.\000\000\000\000\000\000\000\000\000\000\000\000\000\000\000\000\000\000\000"
	.size	.Lnoise_static.37, 80

	.type	.Lnoise_static.38,@object
	.section	.rodata..Lnoise_static.38,"a",@progbits
.Lnoise_static.38:
	.asciz	"A ninth message, no token but psk, or more than eight others.\000\000\000\000\000\000\000\000\000\000\000\000\000\000\000\000\000\000"
	.size	.Lnoise_static.38, 80

	.type	.Lnoise_static.39,@object
	.section	.rodata..Lnoise_static.39,"a",@progbits
.Lnoise_static.39:
	.asciz	"The line has no line feed, or there is no message.\000\000\000\000\000\000\000\000\000\000\000\000\000\000\000\000\000\000\000\000\000\000\000\000\000\000\000\000\000"
	.size	.Lnoise_static.39, 80

	.type	.Lnoise_static.40,@object
	.section	.rodata..Lnoise_static.40,"a",@progbits
.Lnoise_static.40:
	.asciz	"The pattern breaks a rule of validity.\000\000\000\000\000\000\000\000\000\000\000\000\000\000\000\000\000\000\000\000\000\000\000\000\000\000\000\000\000\000\000\000\000\000\000\000\000\000\000\000\000"
	.size	.Lnoise_static.40, 80

	.type	.Lnoise_static.41,@object
	.section	.rodata..Lnoise_static.41,"a",@progbits
.Lnoise_static.41:
	.asciz	"A psk is needed: pass it to noise_set_psk; call again.\000\000\000\000\000\000\000\000\000\000\000\000\000\000\000\000\000\000\000\000\000\000\000\000\000"
	.size	.Lnoise_static.41, 80

	.type	.Lnoise_static.42,@object
	.section	.rodata..Lnoise_static.42,"a",@progbits
.Lnoise_static.42:
	.asciz	"The other party has ended the stream, and all of it came.\000\000\000\000\000\000\000\000\000\000\000\000\000\000\000\000\000\000\000\000\000\000"
	.size	.Lnoise_static.42, 80

	.type	.Lnoise_static.43,@object
	.section	.rodata..Lnoise_static.43,"a",@progbits
.Lnoise_static.43:
	.asciz	"The frame is not complete.\000\000\000\000\000\000\000\000\000\000\000\000\000\000\000\000\000\000\000\000\000\000\000\000\000\000\000\000\000\000\000\000\000\000\000\000\000\000\000\000\000\000\000\000\000\000\000\000\000\000\000\000\000"
	.size	.Lnoise_static.43, 80

	.type	.Lnoise_static.44,@object
	.section	.rodata..Lnoise_static.44,"a",@progbits
.Lnoise_static.44:
	.asciz	"The stream was ended or refused before.\000\000\000\000\000\000\000\000\000\000\000\000\000\000\000\000\000\000\000\000\000\000\000\000\000\000\000\000\000\000\000\000\000\000\000\000\000\000\000\000"
	.size	.Lnoise_static.44, 80

	.type	.Lnoise_static.45,@object
	.section	.rodata..Lnoise_static.45,"a",@progbits
.Lnoise_static.45:
	.asciz	"The connection ended before the stream did.\000\000\000\000\000\000\000\000\000\000\000\000\000\000\000\000\000\000\000\000\000\000\000\000\000\000\000\000\000\000\000\000\000\000\000\000"
	.size	.Lnoise_static.45, 80

	.type	.Lnoise_static.46,@object
	.section	.rodata..Lnoise_static.46,"a",@progbits
.Lnoise_static.46:
	.asciz	"A buffer that the call writes to overlaps another of its buffers.\000\000\000\000\000\000\000\000\000\000\000\000\000\000"
	.size	.Lnoise_static.46, 80

	.type	.Lnoise_static.47,@object
	.section	.rodata..Lnoise_static.47,"a",@progbits
.Lnoise_static.47:
	.asciz	"This number is not a code of the library.\000\000\000\000\000\000\000\000\000\000\000\000\000\000\000\000\000\000\000\000\000\000\000\000\000\000\000\000\000\000\000\000\000\000\000\000\000\000"
	.size	.Lnoise_static.47, 80

	.type	.Lnoise_static.51,@object
	.section	.rodata..Lnoise_static.51,"a",@progbits
.Lnoise_static.51:
	.ascii	"psk"
	.size	.Lnoise_static.51, 3

	.type	.Lnoise_static.82,@object
	.section	.rodata..Lnoise_static.82,"a",@progbits
.Lnoise_static.82:
	.ascii	"  ...\n"
	.size	.Lnoise_static.82, 6

	.type	.Lnoise_static.85,@object
	.section	.rodata..Lnoise_static.85,"a",@progbits
.Lnoise_static.85:
	.ascii	", "
	.size	.Lnoise_static.85, 2

	.type	.Lnoise_static.88,@object
	.section	.rodata..Lnoise_static.88,"a",@progbits
.Lnoise_static.88:
	.ascii	"->"
	.size	.Lnoise_static.88, 2

	.type	.Lnoise_static.89,@object
	.section	.rodata..Lnoise_static.89,"a",@progbits
.Lnoise_static.89:
	.ascii	"<-"
	.size	.Lnoise_static.89, 2

	.type	.Lnoise_static.90,@object
	.section	.rodata..Lnoise_static.90,"a",@progbits
.Lnoise_static.90:
	.byte	101
	.size	.Lnoise_static.90, 1

	.type	.Lnoise_static.91,@object
	.section	.rodata..Lnoise_static.91,"a",@progbits
.Lnoise_static.91:
	.byte	115
	.size	.Lnoise_static.91, 1

	.type	.Lnoise_static.92,@object
	.section	.rodata..Lnoise_static.92,"a",@progbits
.Lnoise_static.92:
	.zero	2,101
	.size	.Lnoise_static.92, 2

	.type	.Lnoise_static.93,@object
	.section	.rodata..Lnoise_static.93,"a",@progbits
.Lnoise_static.93:
	.ascii	"es"
	.size	.Lnoise_static.93, 2

	.type	.Lnoise_static.94,@object
	.section	.rodata..Lnoise_static.94,"a",@progbits
.Lnoise_static.94:
	.ascii	"se"
	.size	.Lnoise_static.94, 2

	.type	.Lnoise_static.95,@object
	.section	.rodata..Lnoise_static.95,"a",@progbits
.Lnoise_static.95:
	.zero	2,115
	.size	.Lnoise_static.95, 2

	.type	.Lnoise_static.96,@object
	.section	.rodata..Lnoise_static.96,"a",@progbits
.Lnoise_static.96:
	.ascii	"  ..."
	.size	.Lnoise_static.96, 5

	.type	.Lnoise_static.97,@object
	.section	.rodata..Lnoise_static.97,"a",@progbits
.Lnoise_static.97:
	.ascii	"Noise_"
	.size	.Lnoise_static.97, 6

	.type	.Lnoise_static.98,@object
	.section	.rodata..Lnoise_static.98,"a",@progbits
.Lnoise_static.98:
	.ascii	"_25519_ChaChaPoly_SHA256"
	.size	.Lnoise_static.98, 24

	.type	.Lnoise_static.99,@object
	.section	.rodata..Lnoise_static.99,"a",@progbits
	.p2align	2, 0x0
.Lnoise_static.99:
	.ascii	"\230/\212B\221D7q\317\373\300\265\245\333\265\351[\302V9\361\021\361Y\244\202?\222\325^\034\253\230\252\007\330\001[\203\022\276\2051$\303}\fUt]\276r\376\261\336\200\247\006\334\233t\361\233\301\301i\233\344\206G\276\357\306\235\301\017\314\241\f$o,\351-\252\204tJ\334\251\260\\\332\210\371vRQ>\230m\3061\250\310'\003\260\307\177Y\277\363\013\340\306G\221\247\325Qc\312\006g))\024\205\n\267'8!\033.\374m,M\023\r8STs\ne\273\njv.\311\302\201\205,r\222\241\350\277\242Kf\032\250p\213K\302\243Ql\307\031\350\222\321$\006\231\326\2055\016\364p\240j\020\026\301\244\031\bl7\036LwH'\265\274\2604\263\f\0349J\252\330NO\312\234[\363o.h\356\202\217toc\245x\024x\310\204\b\002\307\214\372\377\276\220\353lP\244\367\243\371\276\362xq\306"
	.size	.Lnoise_static.99, 256

	.type	.Lnoise_static.100,@object
	.section	.rodata..Lnoise_static.100,"a",@progbits
.Lnoise_static.100:
	.asciz	"\200\000\000\000\000\000\000\000\000\000\000\000\000\000\000\000\000\000\000\000\000\000\000\000\000\000\000\000\000\000\000\000\000\000\000\000\000\000\000\000\000\000\000\000\000\000\000\000\000\000\000\000\000\000\000\000\000\000\000\000\000\000\000"
	.size	.Lnoise_static.100, 64

	.type	.Lnoise_static.101,@object
	.section	.rodata..Lnoise_static.101,"a",@progbits
.Lnoise_static.101:
	.byte	3
	.size	.Lnoise_static.101, 1

	.type	.Lnoise_static.102,@object
	.section	.data.rel.ro..Lnoise_static.102,"aw",@progbits
	.p2align	3, 0x0
.Lnoise_static.102:
	.quad	.Lnoise_static.102+16
	.asciz	"\001\000\000\000\000\000\000\000\001\000\000\000\000\000\000"
	.size	.Lnoise_static.102, 24

	.type	.Lnoise_static.103,@object
	.section	.rodata..Lnoise_static.103,"a",@progbits
.Lnoise_static.103:
	.byte	2
	.size	.Lnoise_static.103, 1

	.type	".Lnoise_switch.table.noise_names::text::write::push_token_line.199",@object
	.section	".rodata..Lnoise_switch.table.noise_names::text::write::push_token_line.199","a",@progbits
	.p2align	3, 0x0
".Lnoise_switch.table.noise_names::text::write::push_token_line.199":
	.quad	1
	.quad	1
	.quad	2
	.quad	2
	.quad	2
	.quad	2
	.quad	3
	.size	".Lnoise_switch.table.noise_names::text::write::push_token_line.199", 56

	.type	".Lnoise_switch.table.noise_names::text::write::push_token_line.200",@object
	.section	".data.rel.ro..Lnoise_switch.table.noise_names::text::write::push_token_line.200","aw",@progbits
	.p2align	3, 0x0
".Lnoise_switch.table.noise_names::text::write::push_token_line.200":
	.quad	.Lnoise_static.90
	.quad	.Lnoise_static.91
	.quad	.Lnoise_static.92
	.quad	.Lnoise_static.93
	.quad	.Lnoise_static.94
	.quad	.Lnoise_static.95
	.quad	.Lnoise_static.51
	.size	".Lnoise_switch.table.noise_names::text::write::push_token_line.200", 56

	.type	".Lnoise_switch.table.noise_c::messages::read_next",@object
	.section	".rodata..Lnoise_switch.table.noise_c::messages::read_next","a",@progbits
	.p2align	2, 0x0
".Lnoise_switch.table.noise_c::messages::read_next":
	.long	15
	.long	16
	.long	14
	.size	".Lnoise_switch.table.noise_c::messages::read_next", 12

	.type	.Lnoise_switch.table.noise_cipher_encrypt,@object
	.section	.rodata.cst16,"aM",@progbits,16
	.p2align	2, 0x0
.Lnoise_switch.table.noise_cipher_encrypt:
	.long	17
	.long	16
	.long	15
	.long	11
	.size	.Lnoise_switch.table.noise_cipher_encrypt, 16

	.type	.Lnoise_switch.table.noise_sentence,@object
	.section	.rodata..Lnoise_switch.table.noise_sentence,"a",@progbits
	.p2align	3, 0x0
.Lnoise_switch.table.noise_sentence:
	.quad	19
	.quad	68
	.quad	61
	.quad	41
	.quad	50
	.quad	47
	.quad	55
	.quad	55
	.quad	36
	.quad	41
	.quad	29
	.quad	36
	.quad	42
	.quad	67
	.quad	59
	.quad	30
	.quad	65
	.quad	62
	.quad	40
	.quad	40
	.quad	66
	.quad	41
	.quad	46
	.quad	54
	.quad	67
	.quad	34
	.quad	64
	.quad	38
	.quad	45
	.quad	48
	.quad	62
	.quad	62
	.quad	34
	.quad	61
	.quad	41
	.quad	46
	.quad	60
	.quad	61
	.quad	50
	.quad	38
	.quad	54
	.quad	57
	.quad	26
	.quad	39
	.quad	43
	.quad	65
	.size	.Lnoise_switch.table.noise_sentence, 368

	.type	.Lnoise_switch.table.noise_sentence.201.rel,@object
	.section	.rodata..Lnoise_switch.table.noise_sentence.201.rel,"a",@progbits
	.p2align	2, 0x0
.Lnoise_switch.table.noise_sentence.201.rel:
	.long	.Lnoise_static.4-.Lnoise_switch.table.noise_sentence.201.rel
	.long	.Lnoise_static.5-.Lnoise_switch.table.noise_sentence.201.rel
	.long	.Lnoise_static.6-.Lnoise_switch.table.noise_sentence.201.rel
	.long	.Lnoise_static.47-.Lnoise_switch.table.noise_sentence.201.rel
	.long	.Lnoise_static.7-.Lnoise_switch.table.noise_sentence.201.rel
	.long	.Lnoise_static.8-.Lnoise_switch.table.noise_sentence.201.rel
	.long	.Lnoise_static.9-.Lnoise_switch.table.noise_sentence.201.rel
	.long	.Lnoise_static.10-.Lnoise_switch.table.noise_sentence.201.rel
	.long	.Lnoise_static.11-.Lnoise_switch.table.noise_sentence.201.rel
	.long	.Lnoise_static.47-.Lnoise_switch.table.noise_sentence.201.rel
	.long	.Lnoise_static.12-.Lnoise_switch.table.noise_sentence.201.rel
	.long	.Lnoise_static.13-.Lnoise_switch.table.noise_sentence.201.rel
	.long	.Lnoise_static.14-.Lnoise_switch.table.noise_sentence.201.rel
	.long	.Lnoise_static.15-.Lnoise_switch.table.noise_sentence.201.rel
	.long	.Lnoise_static.16-.Lnoise_switch.table.noise_sentence.201.rel
	.long	.Lnoise_static.17-.Lnoise_switch.table.noise_sentence.201.rel
	.long	.Lnoise_static.18-.Lnoise_switch.table.noise_sentence.201.rel
	.long	.Lnoise_static.19-.Lnoise_switch.table.noise_sentence.201.rel
	.long	.Lnoise_static.20-.Lnoise_switch.table.noise_sentence.201.rel
	.long	.Lnoise_static.21-.Lnoise_switch.table.noise_sentence.201.rel
	.long	.Lnoise_static.22-.Lnoise_switch.table.noise_sentence.201.rel
	.long	.Lnoise_static.47-.Lnoise_switch.table.noise_sentence.201.rel
	.long	.Lnoise_static.23-.Lnoise_switch.table.noise_sentence.201.rel
	.long	.Lnoise_static.24-.Lnoise_switch.table.noise_sentence.201.rel
	.long	.Lnoise_static.25-.Lnoise_switch.table.noise_sentence.201.rel
	.long	.Lnoise_static.26-.Lnoise_switch.table.noise_sentence.201.rel
	.long	.Lnoise_static.27-.Lnoise_switch.table.noise_sentence.201.rel
	.long	.Lnoise_static.28-.Lnoise_switch.table.noise_sentence.201.rel
	.long	.Lnoise_static.29-.Lnoise_switch.table.noise_sentence.201.rel
	.long	.Lnoise_static.30-.Lnoise_switch.table.noise_sentence.201.rel
	.long	.Lnoise_static.31-.Lnoise_switch.table.noise_sentence.201.rel
	.long	.Lnoise_static.32-.Lnoise_switch.table.noise_sentence.201.rel
	.long	.Lnoise_static.33-.Lnoise_switch.table.noise_sentence.201.rel
	.long	.Lnoise_static.34-.Lnoise_switch.table.noise_sentence.201.rel
	.long	.Lnoise_static.35-.Lnoise_switch.table.noise_sentence.201.rel
	.long	.Lnoise_static.36-.Lnoise_switch.table.noise_sentence.201.rel
	.long	.Lnoise_static.37-.Lnoise_switch.table.noise_sentence.201.rel
	.long	.Lnoise_static.38-.Lnoise_switch.table.noise_sentence.201.rel
	.long	.Lnoise_static.39-.Lnoise_switch.table.noise_sentence.201.rel
	.long	.Lnoise_static.40-.Lnoise_switch.table.noise_sentence.201.rel
	.long	.Lnoise_static.41-.Lnoise_switch.table.noise_sentence.201.rel
	.long	.Lnoise_static.42-.Lnoise_switch.table.noise_sentence.201.rel
	.long	.Lnoise_static.43-.Lnoise_switch.table.noise_sentence.201.rel
	.long	.Lnoise_static.44-.Lnoise_switch.table.noise_sentence.201.rel
	.long	.Lnoise_static.45-.Lnoise_switch.table.noise_sentence.201.rel
	.long	.Lnoise_static.46-.Lnoise_switch.table.noise_sentence.201.rel
	.size	.Lnoise_switch.table.noise_sentence.201.rel, 184

	.type	.Lnoise_switch.table.noise_stream_read,@object
	.section	.rodata.cst16,"aM",@progbits,16
	.p2align	2, 0x0
.Lnoise_switch.table.noise_stream_read:
	.long	15
	.long	16
	.long	17
	.long	22
	.size	.Lnoise_switch.table.noise_stream_read, 16

	.type	.Lnoise_switch.table.noise_datagram_open.203,@object
	.section	.rodata..Lnoise_switch.table.noise_datagram_open.203,"a",@progbits
	.p2align	3, 0x0
.Lnoise_switch.table.noise_datagram_open.203:
	.quad	64
	.quad	256
	.quad	1024
	.size	.Lnoise_switch.table.noise_datagram_open.203, 24

	.type	.Lnoise_switch.table.noise_datagram_open.205,@object
	.section	.rodata..Lnoise_switch.table.noise_datagram_open.205,"a",@progbits
	.p2align	3, 0x0
.Lnoise_switch.table.noise_datagram_open.205:
	.quad	2
	.quad	5
	.quad	17
	.size	.Lnoise_switch.table.noise_datagram_open.205, 24

	.type	.Lnoise_switch.table.noise_finish_datagrams,@object
	.section	.rodata..Lnoise_switch.table.noise_finish_datagrams,"a",@progbits
	.p2align	2, 0x0
.Lnoise_switch.table.noise_finish_datagrams:
	.long	64
	.long	256
	.long	1024
	.size	.Lnoise_switch.table.noise_finish_datagrams, 12

	.ident	"rattle logic=dac8208d650f15bf3e2dc313a14fa4c783a3acf887bdfab66e1714b038d9e11b"
	.section	".note.GNU-stack","",@progbits
	.section	.note.gnu.property,"a",@note
	.p2align	3
	.long	4, 16, 5
	.asciz	"GNU"
	.long	0xc0000002, 4, 3, 0
	.text
	.section	.rodata.cst32,"aM",@progbits,32
	.p2align	5, 0x0
.Lnoise_CPI_v3w_1_0:
	.quad	0
	.quad	1
	.quad	2
	.quad	3
	.section	.rodata.cst32,"aM",@progbits,32
	.p2align	5, 0x0
.Lnoise_CPI_v3w_1_2:
	.long	857760878
	.long	857760878
	.long	857760878
	.long	857760878
	.long	2036477234
	.long	2036477234
	.long	2036477234
	.long	2036477234
	.section	.rodata.cst32,"aM",@progbits,32
	.p2align	5, 0x0
.Lnoise_CPI_v3w_1_3:
	.long	1797285236
	.long	1797285236
	.long	1797285236
	.long	1797285236
	.long	1634760805
	.long	1634760805
	.long	1634760805
	.long	1634760805
	.section	.rodata.cst32,"aM",@progbits,32
	.p2align	5, 0x0
.Lnoise_CPI_v3w_1_4:
	.byte	2
	.byte	3
	.byte	0
	.byte	1
	.byte	6
	.byte	7
	.byte	4
	.byte	5
	.byte	10
	.byte	11
	.byte	8
	.byte	9
	.byte	14
	.byte	15
	.byte	12
	.byte	13
	.byte	18
	.byte	19
	.byte	16
	.byte	17
	.byte	22
	.byte	23
	.byte	20
	.byte	21
	.byte	26
	.byte	27
	.byte	24
	.byte	25
	.byte	30
	.byte	31
	.byte	28
	.byte	29
	.section	.rodata.cst32,"aM",@progbits,32
	.p2align	5, 0x0
.Lnoise_CPI_v3w_1_5:
	.byte	3
	.byte	0
	.byte	1
	.byte	2
	.byte	7
	.byte	4
	.byte	5
	.byte	6
	.byte	11
	.byte	8
	.byte	9
	.byte	10
	.byte	15
	.byte	12
	.byte	13
	.byte	14
	.byte	19
	.byte	16
	.byte	17
	.byte	18
	.byte	23
	.byte	20
	.byte	21
	.byte	22
	.byte	27
	.byte	24
	.byte	25
	.byte	26
	.byte	31
	.byte	28
	.byte	29
	.byte	30
	.section	.rodata.cst4,"aM",@progbits,4
	.p2align	2, 0x0
.Lnoise_CPI_v3w_1_6:
	.long	1634760805
	.section	.rodata.cst4,"aM",@progbits,4
	.p2align	2, 0x0
.Lnoise_CPI_v3w_1_7:
	.long	857760878
	.section	.rodata.cst4,"aM",@progbits,4
	.p2align	2, 0x0
.Lnoise_CPI_v3w_1_8:
	.long	2036477234
	.section	.rodata.cst4,"aM",@progbits,4
	.p2align	2, 0x0
.Lnoise_CPI_v3w_1_9:
	.long	1797285236
	.section	.rodata.cst32,"aM",@progbits,32
	.p2align	5, 0x0
.Lnoise_CPI_v3w_1_10:
	.long	0
	.long	1
	.long	2
	.zero	4
	.long	5
	.zero	4
	.zero	4
	.zero	4
	.section	.rodata.cst32,"aM",@progbits,32
	.p2align	5, 0x0
.Lnoise_CPI_v3w_1_11:
	.long	0
	.long	1
	.long	2
	.zero	4
	.long	7
	.zero	4
	.zero	4
	.zero	4
	.section	.rodata.cst32,"aM",@progbits,32
	.p2align	5, 0x0
.Lnoise_CPI_v3w_1_12:
	.long	0
	.long	1
	.long	2
	.zero	4
	.long	4
	.long	3
	.zero	4
	.zero	4
	.section	".text.rand_chacha::guts::refill4","ax",@progbits
	.p2align	4
	.type	"rand_chacha::guts::refill4.v3",@function
"rand_chacha::guts::refill4.v3":
	.cfi_startproc
	subq	$104, %rsp
	.cfi_def_cfa_offset 112
	vpbroadcastd	(%rdi), %xmm12
	vpbroadcastd	4(%rdi), %xmm9
	vpbroadcastd	8(%rdi), %xmm10
	vpbroadcastd	12(%rdi), %xmm8
	vpbroadcastd	16(%rdi), %xmm4
	vpbroadcastd	20(%rdi), %xmm5
	vpbroadcastd	24(%rdi), %xmm2
	vpbroadcastd	28(%rdi), %xmm6
	vmovq	%rsi, %xmm0
	vpbroadcastq	%xmm0, %ymm0
	vpaddq	.Lnoise_CPI_v3w_1_0(%rip), %ymm0, %ymm1
	vpshufd	$136, %xmm0, %xmm0
	vpaddd	.Lnoise_CPI1_2(%rip), %xmm0, %xmm3
	vextracti128	$1, %ymm1, %xmm0
	vshufps	$221, %xmm0, %xmm1, %xmm1
	vmovd	%edx, %xmm0
	vpbroadcastd	%xmm0, %xmm7
	shrq	$32, %rdx
	vmovd	%edx, %xmm0
	vpbroadcastd	%xmm0, %xmm0
	vmovdqu	%ymm4, (%rsp)
	vmovdqa	%xmm5, -112(%rsp)
	vinserti128	$1, %xmm5, %ymm4, %ymm14
	vmovdqa	%xmm3, -80(%rsp)
	vmovdqu	%ymm0, -32(%rsp)
	vinserti128	$1, %xmm3, %ymm0, %ymm11
	vmovdqu	%ymm8, -64(%rsp)
	vinserti128	$1, %xmm12, %ymm8, %ymm0
	vmovups	%ymm1, 64(%rsp)
	vmovdqa	%xmm7, -128(%rsp)
	vinsertf128	$1, %xmm7, %ymm1, %ymm13
	movl	$10, %eax
	vmovdqa	.Lnoise_CPI_v3w_1_2(%rip), %ymm5
	vmovdqa	.Lnoise_CPI_v3w_1_3(%rip), %ymm4
	vinserti128	$1, %xmm10, %ymm9, %ymm1
	vmovdqu	%ymm2, 32(%rsp)
	vmovdqa	%xmm6, -96(%rsp)
	vinserti128	$1, %xmm6, %ymm2, %ymm15
	.p2align	4
.Lnoise_BB_v3w_1_1:
	vpaddd	%ymm5, %ymm1, %ymm3
	vpaddd	%ymm4, %ymm0, %ymm4
	vpxor	%ymm4, %ymm11, %ymm5
	vxorps	%ymm3, %ymm13, %ymm6
	vmovdqa	.Lnoise_CPI_v3w_1_4(%rip), %ymm2
	vpshufb	%ymm2, %ymm6, %ymm6
	vpshufb	%ymm2, %ymm5, %ymm5
	vperm2i128	$33, %ymm15, %ymm14, %ymm7
	vperm2i128	$33, %ymm14, %ymm15, %ymm11
	vpaddd	%ymm5, %ymm11, %ymm11
	vpaddd	%ymm7, %ymm6, %ymm7
	vpxor	%ymm1, %ymm7, %ymm1
	vpxor	%ymm0, %ymm11, %ymm0
	vpsrld	$20, %ymm0, %ymm13
	vpslld	$12, %ymm0, %ymm0
	vpor	%ymm0, %ymm13, %ymm13
	vpsrld	$20, %ymm1, %ymm0
	vpslld	$12, %ymm1, %ymm1
	vpor	%ymm0, %ymm1, %ymm1
	vpaddd	%ymm3, %ymm1, %ymm3
	vpaddd	%ymm4, %ymm13, %ymm4
	vmovdqa	.Lnoise_CPI_v3w_1_5(%rip), %ymm0
	vpshufb	%ymm0, %ymm4, %ymm14
	vpshufb	%ymm0, %ymm5, %ymm5
	vpxor	%ymm5, %ymm14, %ymm5
	vpshufb	%ymm0, %ymm3, %ymm14
	vpshufb	%ymm0, %ymm6, %ymm6
	vpxor	%ymm6, %ymm14, %ymm6
	vpaddd	%ymm7, %ymm6, %ymm7
	vpaddd	%ymm5, %ymm11, %ymm11
	vpxor	%ymm13, %ymm11, %ymm13
	vpxor	%ymm1, %ymm7, %ymm1
	vpsrld	$25, %ymm1, %ymm14
	vpslld	$7, %ymm1, %ymm1
	vpor	%ymm1, %ymm14, %ymm1
	vpsrld	$25, %ymm13, %ymm14
	vpslld	$7, %ymm13, %ymm13
	vpor	%ymm14, %ymm13, %ymm13
	vperm2i128	$33, %ymm3, %ymm4, %ymm14
	vperm2i128	$33, %ymm4, %ymm3, %ymm3
	vpaddd	%ymm3, %ymm13, %ymm4
	vpaddd	%ymm1, %ymm14, %ymm3
	vpshufb	%ymm2, %ymm3, %ymm14
	vpshufb	%ymm2, %ymm5, %ymm5
	vpxor	%ymm5, %ymm14, %ymm5
	vpshufb	%ymm2, %ymm4, %ymm14
	vpshufb	%ymm2, %ymm6, %ymm2
	vpxor	%ymm2, %ymm14, %ymm6
	vperm2i128	$33, %ymm11, %ymm7, %ymm2
	vperm2i128	$33, %ymm7, %ymm11, %ymm7
	vpaddd	%ymm7, %ymm6, %ymm7
	vpaddd	%ymm2, %ymm5, %ymm14
	vpxor	%ymm1, %ymm14, %ymm1
	vpxor	%ymm7, %ymm13, %ymm2
	vpsrld	$20, %ymm2, %ymm11
	vpslld	$12, %ymm2, %ymm2
	vpor	%ymm2, %ymm11, %ymm8
	vpsrld	$20, %ymm1, %ymm2
	vpslld	$12, %ymm1, %ymm1
	vpor	%ymm2, %ymm1, %ymm1
	vpaddd	%ymm3, %ymm1, %ymm3
	vpaddd	%ymm4, %ymm8, %ymm2
	vpshufb	%ymm0, %ymm2, %ymm4
	vpshufb	%ymm0, %ymm6, %ymm6
	vpxor	%ymm6, %ymm4, %ymm13
	vpshufb	%ymm0, %ymm3, %ymm4
	vpshufb	%ymm0, %ymm5, %ymm0
	vpxor	%ymm0, %ymm4, %ymm11
	vpaddd	%ymm14, %ymm11, %ymm15
	vpaddd	%ymm7, %ymm13, %ymm14
	vpxor	%ymm8, %ymm14, %ymm0
	vpxor	%ymm1, %ymm15, %ymm1
	vpsrld	$25, %ymm1, %ymm4
	vpslld	$7, %ymm1, %ymm1
	vpor	%ymm4, %ymm1, %ymm1
	vpsrld	$25, %ymm0, %ymm4
	vpslld	$7, %ymm0, %ymm0
	vpor	%ymm4, %ymm0, %ymm0
	vperm2i128	$33, %ymm3, %ymm2, %ymm4
	vperm2i128	$33, %ymm2, %ymm3, %ymm5
	decl	%eax
	jne	.Lnoise_BB_v3w_1_1
	vpbroadcastd	.Lnoise_CPI_v3w_1_6(%rip), %xmm4
	vpaddd	%xmm4, %xmm3, %xmm5
	vextracti128	$1, %ymm3, %xmm3
	vpbroadcastd	.Lnoise_CPI_v3w_1_7(%rip), %xmm4
	vpaddd	%xmm4, %xmm3, %xmm6
	vpbroadcastd	.Lnoise_CPI_v3w_1_8(%rip), %xmm3
	vpaddd	%xmm3, %xmm2, %xmm3
	vextracti128	$1, %ymm2, %xmm2
	vpbroadcastd	.Lnoise_CPI_v3w_1_9(%rip), %xmm4
	vpaddd	%xmm4, %xmm2, %xmm2
	vpbroadcastd	%xmm12, %xmm4
	vextracti128	$1, %ymm0, %xmm12
	vpaddd	%xmm4, %xmm12, %xmm12
	vpbroadcastd	%xmm10, %xmm10
	vpbroadcastd	%xmm9, %xmm4
	vpaddd	%xmm1, %xmm4, %xmm4
	vextracti128	$1, %ymm1, %xmm1
	vpaddd	%xmm1, %xmm10, %xmm9
	vpbroadcastd	-64(%rsp), %xmm1
	vpaddd	%xmm0, %xmm1, %xmm10
	vpunpckldq	%xmm6, %xmm5, %xmm0
	vpunpcklqdq	%xmm3, %xmm0, %xmm0
	vpbroadcastd	%xmm2, %xmm1
	vpblendd	$8, %xmm1, %xmm0, %xmm0
	vinserti128	$1, %xmm12, %ymm0, %ymm0
	vpbroadcastd	%xmm4, %ymm1
	vpblendd	$32, %ymm1, %ymm0, %ymm0
	vpbroadcastq	%xmm9, %ymm1
	vpblendd	$192, %ymm1, %ymm0, %ymm0
	vpbroadcastd	%xmm10, %ymm1
	vpblendd	$128, %ymm1, %ymm0, %ymm0
	vmovdqu	%ymm0, (%rcx)
	vpshufd	$85, %xmm5, %xmm0
	vpblendd	$2, %xmm6, %xmm0, %xmm0
	vshufps	$212, %xmm3, %xmm0, %xmm1
	vinsertf128	$1, %xmm12, %ymm1, %ymm8
	vmovaps	.Lnoise_CPI_v3w_1_10(%rip), %ymm0
	vpermps	%ymm8, %ymm0, %ymm8
	vpbroadcastq	%xmm2, %xmm7
	vblendps	$8, %ymm7, %ymm8, %ymm7
	vinsertf128	$1, %xmm4, %ymm1, %ymm1
	vblendps	$34, %ymm1, %ymm7, %ymm1
	vpmovzxdq	%xmm9, %xmm7
	vinsertf128	$1, %xmm7, %ymm0, %ymm7
	vblendps	$192, %ymm7, %ymm1, %ymm1
	vpbroadcastq	%xmm10, %ymm7
	vblendps	$128, %ymm7, %ymm1, %ymm1
	vmovups	%ymm1, 64(%rcx)
	vpunpckhdq	%xmm6, %xmm5, %xmm1
	vpblendd	$12, %xmm3, %xmm1, %xmm5
	vinserti128	$1, %xmm12, %ymm5, %ymm5
	vpermq	$244, %ymm5, %ymm5
	vpshufd	$170, %xmm2, %xmm6
	vpblendd	$8, %ymm6, %ymm5, %ymm5
	vshufps	$250, %xmm4, %xmm4, %xmm6
	vinsertf128	$1, %xmm6, %ymm0, %ymm6
	vpblendd	$32, %ymm6, %ymm5, %ymm5
	vinsertf128	$1, %xmm9, %ymm0, %ymm6
	vpblendd	$192, %ymm6, %ymm5, %ymm5
	vpshufd	$170, %xmm10, %xmm6
	vinsertf128	$1, %xmm6, %ymm0, %ymm6
	vpblendd	$128, %ymm6, %ymm5, %ymm5
	vmovdqu	%ymm5, 128(%rcx)
	vshufps	$254, %xmm3, %xmm1, %xmm1
	vinsertf128	$1, %xmm12, %ymm1, %ymm3
	vmovaps	.Lnoise_CPI_v3w_1_11(%rip), %ymm1
	vpermps	%ymm3, %ymm1, %ymm3
	vblendps	$8, %ymm4, %ymm3, %ymm3
	vmovaps	.Lnoise_CPI_v3w_1_12(%rip), %ymm8
	vpermps	%ymm3, %ymm8, %ymm3
	vshufps	$250, %xmm9, %xmm9, %xmm4
	vinsertf128	$1, %xmm4, %ymm0, %ymm4
	vblendps	$192, %ymm4, %ymm3, %ymm3
	vinserti128	$1, %xmm10, %ymm2, %ymm2
	vblendps	$136, %ymm2, %ymm3, %ymm2
	vmovups	%ymm2, 192(%rcx)
	vpbroadcastd	-112(%rsp), %xmm2
	vpbroadcastd	(%rsp), %xmm3
	vpaddd	%xmm3, %xmm14, %xmm9
	vextracti128	$1, %ymm14, %xmm3
	vpaddd	%xmm3, %xmm2, %xmm10
	vpbroadcastd	-96(%rsp), %xmm2
	vpbroadcastd	32(%rsp), %xmm3
	vpaddd	%xmm3, %xmm15, %xmm3
	vextracti128	$1, %ymm15, %xmm4
	vpaddd	%xmm4, %xmm2, %xmm2
	vextracti128	$1, %ymm11, %xmm4
	vpaddd	-80(%rsp), %xmm4, %xmm4
	vpbroadcastd	-128(%rsp), %xmm5
	vpbroadcastd	-32(%rsp), %xmm12
	vpaddd	64(%rsp), %xmm13, %xmm7
	vextracti128	$1, %ymm13, %xmm6
	vpaddd	%xmm6, %xmm5, %xmm6
	vpaddd	%xmm11, %xmm12, %xmm5
	vpunpckldq	%xmm10, %xmm9, %xmm11
	vpunpcklqdq	%xmm3, %xmm11, %xmm11
	vpbroadcastd	%xmm2, %xmm12
	vpblendd	$8, %xmm12, %xmm11, %xmm11
	vinserti128	$1, %xmm4, %ymm11, %ymm11
	vpbroadcastd	%xmm7, %ymm12
	vpblendd	$32, %ymm12, %ymm11, %ymm11
	vpbroadcastq	%xmm6, %ymm12
	vpblendd	$192, %ymm12, %ymm11, %ymm11
	vpbroadcastd	%xmm5, %ymm12
	vpblendd	$128, %ymm12, %ymm11, %ymm11
	vmovdqu	%ymm11, 32(%rcx)
	vpshufd	$85, %xmm9, %xmm11
	vpblendd	$2, %xmm10, %xmm11, %xmm11
	vshufps	$212, %xmm3, %xmm11, %xmm11
	vinsertf128	$1, %xmm4, %ymm11, %ymm12
	vpermps	%ymm12, %ymm0, %ymm0
	vpbroadcastq	%xmm2, %xmm12
	vblendps	$8, %ymm12, %ymm0, %ymm0
	vinsertf128	$1, %xmm7, %ymm11, %ymm11
	vblendps	$34, %ymm11, %ymm0, %ymm0
	vpmovzxdq	%xmm6, %xmm11
	vinsertf128	$1, %xmm11, %ymm0, %ymm11
	vblendps	$192, %ymm11, %ymm0, %ymm0
	vpbroadcastq	%xmm5, %ymm11
	vblendps	$128, %ymm11, %ymm0, %ymm0
	vmovups	%ymm0, 96(%rcx)
	vpunpckhdq	%xmm10, %xmm9, %xmm0
	vpblendd	$12, %xmm3, %xmm0, %xmm9
	vinserti128	$1, %xmm4, %ymm9, %ymm9
	vpermq	$244, %ymm9, %ymm9
	vpshufd	$170, %xmm2, %xmm10
	vpblendd	$8, %ymm10, %ymm9, %ymm9
	vpshufd	$250, %xmm7, %xmm10
	vinserti128	$1, %xmm10, %ymm0, %ymm10
	vpblendd	$32, %ymm10, %ymm9, %ymm9
	vinserti128	$1, %xmm6, %ymm0, %ymm10
	vpblendd	$192, %ymm10, %ymm9, %ymm9
	vpshufd	$170, %xmm5, %xmm10
	vinserti128	$1, %xmm10, %ymm0, %ymm10
	vpblendd	$128, %ymm10, %ymm9, %ymm9
	vmovdqu	%ymm9, 160(%rcx)
	vshufps	$254, %xmm3, %xmm0, %xmm0
	vinsertf128	$1, %xmm4, %ymm0, %ymm0
	vpermps	%ymm0, %ymm1, %ymm0
	vblendps	$8, %ymm7, %ymm0, %ymm0
	vpermps	%ymm0, %ymm8, %ymm0
	vpshufd	$250, %xmm6, %xmm1
	vinsertf128	$1, %xmm1, %ymm0, %ymm1
	vblendps	$192, %ymm1, %ymm0, %ymm0
	vinserti128	$1, %xmm5, %ymm2, %ymm1
	vblendps	$136, %ymm1, %ymm0, %ymm0
	vmovups	%ymm0, 224(%rcx)
	addq	$104, %rsp
	.cfi_def_cfa_offset 8
	vzeroupper
	retq
.Lnoise_func_end_v3w_1:
	.size	"rand_chacha::guts::refill4.v3", .Lnoise_func_end_v3w_1-"rand_chacha::guts::refill4.v3"
	.cfi_endproc

	.section	".text.noise_poly::Poly1305::take_aligned","ax",@progbits
	.p2align	4
	.type	"noise_poly::Poly1305::take_aligned.v3",@function
"noise_poly::Poly1305::take_aligned.v3":
	.cfi_startproc
	pushq	%r15
	.cfi_def_cfa_offset 16
	pushq	%r14
	.cfi_def_cfa_offset 24
	pushq	%r13
	.cfi_def_cfa_offset 32
	pushq	%r12
	.cfi_def_cfa_offset 40
	pushq	%rbx
	.cfi_def_cfa_offset 48
	.cfi_offset %rbx, -48
	.cfi_offset %r12, -40
	.cfi_offset %r13, -32
	.cfi_offset %r14, -24
	.cfi_offset %r15, -16
	movq	%rdx, %rbx
	cmpq	$1023, %rdx
	ja	.Lnoise_BB_v3_4_3
	movq	(%rdi), %rcx
	movq	8(%rdi), %rax
	movq	16(%rdi), %r8
	cmpq	$16, %rbx
	jae	.Lnoise_BB_v3_4_4
	movq	24(%rdi), %rdx
	jmp	.Lnoise_BB_v3_4_7
.Lnoise_BB_v3_4_3:
	movq	%rbx, %rdx
	popq	%rbx
	.cfi_def_cfa_offset 40
	popq	%r12
	.cfi_def_cfa_offset 32
	popq	%r13
	.cfi_def_cfa_offset 24
	popq	%r14
	.cfi_def_cfa_offset 16
	popq	%r15
	.cfi_def_cfa_offset 8
	jmp	"noise_poly::Poly1305::take_eights.v3"
.Lnoise_BB_v3_4_4:
	.cfi_def_cfa_offset 48
	movq	32(%rdi), %r9
	movq	40(%rdi), %r10
	movq	%r10, %r11
	shrq	$2, %r11
	addq	%r10, %r11
	.p2align	4
.Lnoise_BB_v3_4_5:
	addq	(%rsi), %rcx
	adcq	8(%rsi), %rax
	adcq	$1, %r8
	movq	%rcx, %rdx
	mulxq	%r9, %r13, %r12
	movq	%rax, %rdx
	mulxq	%r11, %r14, %r15
	addq	%r13, %r14
	adcq	%r12, %r15
	movq	%rcx, %rdx
	mulxq	%r10, %r12, %rcx
	movq	%rax, %rdx
	mulxq	%r9, %rdx, %r13
	addq	%r12, %rdx
	adcq	%rcx, %r13
	movq	%r8, %rax
	imulq	%r11, %rax
	addq	%rdx, %rax
	adcq	$0, %r13
	imulq	%r9, %r8
	movq	%rax, %rdx
	addq	%r15, %rdx
	adcq	%r13, %r8
	movq	%r8, %rcx
	shrq	$2, %rcx
	leaq	(%rcx,%rcx,4), %r12
	movq	%r12, %rcx
	addq	%r14, %rcx
	adcq	%r15, %rax
	andl	$3, %r8d
	movq	%r14, %rcx
	addq	%r12, %rcx
	adcq	$0, %rdx
	adcq	$0, %r8
	addq	$16, %rsi
	addq	$-16, %rbx
	cmpq	$15, %rbx
	ja	.Lnoise_BB_v3_4_5
	xorl	%edx, %edx
.Lnoise_BB_v3_4_7:
	movq	%rcx, (%rdi)
	movq	%rax, 8(%rdi)
	movq	%r8, 16(%rdi)
	movq	%rdx, 24(%rdi)
	movq	80(%rdi), %r14
	leaq	(%rdi,%r14), %rax
	addq	$64, %rax
	movq	%rax, %rcx
	subq	%rsi, %rcx
	cmpq	%rbx, %rcx
	jae	.Lnoise_BB_v3_4_10
	cmpq	$8, %rbx
	jb	.Lnoise_BB_v3_4_9
	leaq	(%r14,%rdi), %rcx
	subq	%rsi, %rcx
	addq	$64, %rcx
	cmpq	$128, %rcx
	jae	.Lnoise_BB_v3_4_13
.Lnoise_BB_v3_4_9:
	xorl	%ecx, %ecx
.Lnoise_BB_v3_4_16:
	movq	%rbx, %r8
	movq	%rcx, %rdx
	andq	$3, %r8
	je	.Lnoise_BB_v3_4_19
	movq	%rcx, %rdx
	.p2align	4
.Lnoise_BB_v3_4_18:
	movzbl	(%rsi,%rdx), %r9d
	movb	%r9b, (%rax,%rdx)
	incq	%rdx
	decq	%r8
	jne	.Lnoise_BB_v3_4_18
.Lnoise_BB_v3_4_19:
	subq	%rbx, %rcx
	cmpq	$-4, %rcx
	ja	.Lnoise_BB_v3_4_22
	leaq	(%r14,%rdi), %rax
	addq	$67, %rax
	.p2align	4
.Lnoise_BB_v3_4_21:
	movzbl	(%rsi,%rdx), %ecx
	movb	%cl, -3(%rax,%rdx)
	movzbl	1(%rsi,%rdx), %ecx
	movb	%cl, -2(%rax,%rdx)
	movzbl	2(%rsi,%rdx), %ecx
	movb	%cl, -1(%rax,%rdx)
	movzbl	3(%rsi,%rdx), %ecx
	movb	%cl, (%rax,%rdx)
	addq	$4, %rdx
	cmpq	%rdx, %rbx
	jne	.Lnoise_BB_v3_4_21
	jmp	.Lnoise_BB_v3_4_22
.Lnoise_BB_v3_4_10:
	movq	%rdi, %r15
	movq	%rax, %rdi
	movq	%rbx, %rdx
	callq	memmove@PLT
	movq	%r15, %rdi
.Lnoise_BB_v3_4_22:
	addq	%rbx, %r14
	movq	%r14, 80(%rdi)
	popq	%rbx
	.cfi_def_cfa_offset 40
	popq	%r12
	.cfi_def_cfa_offset 32
	popq	%r13
	.cfi_def_cfa_offset 24
	popq	%r14
	.cfi_def_cfa_offset 16
	popq	%r15
	.cfi_def_cfa_offset 8
	retq
.Lnoise_BB_v3_4_13:
	.cfi_def_cfa_offset 48
	movl	%ebx, %ecx
	andl	$8, %ecx
	xorl	%edx, %edx
	.p2align	4
.Lnoise_BB_v3_4_14:
	movq	(%rsi,%rdx), %r8
	movq	%r8, (%rax,%rdx)
	addq	$8, %rdx
	cmpq	%rdx, %rcx
	jne	.Lnoise_BB_v3_4_14
	cmpq	%rcx, %rbx
	je	.Lnoise_BB_v3_4_22
	jmp	.Lnoise_BB_v3_4_16
.Lnoise_func_end_v3_4:
	.size	"noise_poly::Poly1305::take_aligned.v3", .Lnoise_func_end_v3_4-"noise_poly::Poly1305::take_aligned.v3"
	.cfi_endproc

	.section	".text.sha2::block256::compress","ax",@progbits
	.p2align	4
	.type	"sha2::block256::compress.v3",@function
"sha2::block256::compress.v3":
	.cfi_startproc
	pushq	%rbp
	.cfi_def_cfa_offset 16
	pushq	%r15
	.cfi_def_cfa_offset 24
	pushq	%r14
	.cfi_def_cfa_offset 32
	pushq	%r13
	.cfi_def_cfa_offset 40
	pushq	%r12
	.cfi_def_cfa_offset 48
	pushq	%rbx
	.cfi_def_cfa_offset 56
	.cfi_offset %rbx, -56
	.cfi_offset %r12, -48
	.cfi_offset %r13, -40
	.cfi_offset %r14, -32
	.cfi_offset %r15, -24
	.cfi_offset %rbp, -16
	movq	%rsi, %r13
	movbel	(%rsi), %ebx
	movbel	4(%rsi), %r14d
	movl	8(%rdi), %r15d
	movl	(%rdi), %r9d
	movl	4(%rdi), %esi
	movl	20(%rdi), %r8d
	movl	24(%rdi), %r11d
	movl	16(%rdi), %r10d
	rorxl	$14, %r10d, %eax
	xorl	%r10d, %eax
	rorxl	$5, %eax, %eax
	xorl	%r10d, %eax
	rorxl	$6, %eax, %eax
	andnl	%r11d, %r10d, %ecx
	movl	%r8d, %edx
	andl	%r10d, %edx
	orl	%ecx, %edx
	movl	28(%rdi), %ecx
	movq	%rdi, -8(%rsp)
	movl	%ebx, -32(%rsp)
	addl	%ebx, %ecx
	addl	%eax, %ecx
	leal	(%rcx,%rdx), %eax
	addl	$1116352408, %eax
	rorxl	$9, %r9d, %ecx
	xorl	%r9d, %ecx
	rorxl	$11, %ecx, %ecx
	xorl	%r9d, %ecx
	rorxl	$2, %ecx, %edx
	movl	%esi, %ecx
	xorl	%r9d, %ecx
	andnl	%esi, %ecx, %ebp
	movl	%r15d, %ebx
	andl	%ecx, %ebx
	orl	%ebp, %ebx
	addl	%edx, %ebx
	addl	%eax, %ebx
	addl	12(%rdi), %eax
	andnl	%r8d, %eax, %edx
	movl	%r10d, %ebp
	andl	%eax, %ebp
	orl	%edx, %ebp
	rorxl	$14, %eax, %edx
	xorl	%eax, %edx
	rorxl	$5, %edx, %edx
	xorl	%eax, %edx
	rorxl	$6, %edx, %edx
	movl	%r14d, -36(%rsp)
	addl	%r14d, %r11d
	addl	%ebp, %r11d
	movl	%r11d, %r14d
	addl	%edx, %r11d
	leal	(%rdx,%r14), %ebp
	addl	$1899447441, %ebp
	rorxl	$9, %ebx, %edx
	xorl	%ebx, %edx
	rorxl	$11, %edx, %edx
	xorl	%ebx, %edx
	rorxl	$2, %edx, %r14d
	movl	%ebx, %edx
	xorl	%r9d, %edx
	andl	%edx, %ecx
	xorl	%r9d, %ecx
	addl	%r14d, %ecx
	addl	%ebp, %ecx
	addl	%r15d, %r11d
	addl	$1899447441, %r11d
	andnl	%r10d, %r11d, %edi
	movl	%eax, %ebp
	andl	%r11d, %ebp
	orl	%edi, %ebp
	movbel	8(%r13), %edi
	movl	%edi, -40(%rsp)
	addl	%edi, %r8d
	addl	%ebp, %r8d
	rorxl	$14, %r11d, %edi
	xorl	%r11d, %edi
	rorxl	$5, %edi, %edi
	xorl	%r11d, %edi
	rorxl	$6, %edi, %edi
	movl	%r8d, %r14d
	addl	%edi, %r8d
	leal	(%rdi,%r14), %ebp
	addl	$-1245643825, %ebp
	rorxl	$9, %ecx, %edi
	xorl	%ecx, %edi
	rorxl	$11, %edi, %edi
	xorl	%ecx, %edi
	rorxl	$2, %edi, %r14d
	movl	%ecx, %edi
	xorl	%ebx, %edi
	andl	%edi, %edx
	xorl	%ebx, %edx
	addl	%r14d, %edx
	addl	%ebp, %edx
	leal	(%rsi,%r8), %r14d
	addl	$-1245643825, %r14d
	movl	%r11d, %esi
	andl	%r14d, %esi
	andnl	%eax, %r14d, %r8d
	orl	%r8d, %esi
	movbel	12(%r13), %r8d
	movl	%r8d, -68(%rsp)
	addl	%r8d, %r10d
	addl	%esi, %r10d
	rorxl	$14, %r14d, %esi
	xorl	%r14d, %esi
	rorxl	$5, %esi, %esi
	xorl	%r14d, %esi
	rorxl	$6, %esi, %esi
	movl	%r10d, %r8d
	addl	%esi, %r10d
	addl	%r8d, %esi
	addl	$-373957723, %esi
	rorxl	$9, %edx, %r8d
	xorl	%edx, %r8d
	rorxl	$11, %r8d, %r8d
	xorl	%edx, %r8d
	rorxl	$2, %r8d, %ebp
	movl	%edx, %r8d
	xorl	%ecx, %r8d
	andl	%r8d, %edi
	xorl	%ecx, %edi
	addl	%ebp, %edi
	addl	%esi, %edi
	leal	(%r9,%r10), %r15d
	addl	$-373957723, %r15d
	movl	%r14d, %esi
	andl	%r15d, %esi
	andnl	%r11d, %r15d, %r9d
	orl	%r9d, %esi
	movbel	16(%r13), %r9d
	movl	%r9d, -44(%rsp)
	addl	%r9d, %eax
	addl	%esi, %eax
	rorxl	$14, %r15d, %esi
	xorl	%r15d, %esi
	rorxl	$5, %esi, %esi
	xorl	%r15d, %esi
	rorxl	$6, %esi, %esi
	addl	%esi, %eax
	addl	$961987163, %eax
	rorxl	$9, %edi, %esi
	xorl	%edi, %esi
	rorxl	$11, %esi, %esi
	xorl	%edi, %esi
	rorxl	$2, %esi, %esi
	movl	%edi, %r9d
	xorl	%edx, %r9d
	andl	%r9d, %r8d
	xorl	%edx, %r8d
	addl	%esi, %r8d
	addl	%eax, %r8d
	addl	%eax, %ebx
	movl	%r15d, %eax
	andl	%ebx, %eax
	movbel	20(%r13), %r10d
	andnl	%r14d, %ebx, %esi
	orl	%esi, %eax
	movl	%r10d, -48(%rsp)
	addl	%r10d, %r11d
	addl	%eax, %r11d
	rorxl	$14, %ebx, %eax
	xorl	%ebx, %eax
	rorxl	$5, %eax, %eax
	xorl	%ebx, %eax
	rorxl	$6, %eax, %eax
	leal	(%rax,%r11), %esi
	addl	$1508970993, %esi
	rorxl	$9, %r8d, %eax
	xorl	%r8d, %eax
	rorxl	$11, %eax, %eax
	xorl	%r8d, %eax
	rorxl	$2, %eax, %r10d
	movl	%r8d, %eax
	xorl	%edi, %eax
	andl	%eax, %r9d
	xorl	%edi, %r9d
	addl	%r10d, %r9d
	addl	%esi, %r9d
	addl	%esi, %ecx
	movl	%ebx, %esi
	andl	%ecx, %esi
	andnl	%r15d, %ecx, %r10d
	orl	%r10d, %esi
	movbel	24(%r13), %r10d
	movl	%r10d, -52(%rsp)
	addl	%r10d, %r14d
	addl	%esi, %r14d
	rorxl	$14, %ecx, %esi
	xorl	%ecx, %esi
	rorxl	$5, %esi, %esi
	xorl	%ecx, %esi
	rorxl	$6, %esi, %esi
	addl	%r14d, %esi
	addl	$-1841331548, %esi
	rorxl	$9, %r9d, %r10d
	xorl	%r9d, %r10d
	rorxl	$11, %r10d, %r10d
	xorl	%r9d, %r10d
	rorxl	$2, %r10d, %r11d
	movl	%r9d, %r10d
	xorl	%r8d, %r10d
	andl	%r10d, %eax
	xorl	%r8d, %eax
	addl	%r11d, %eax
	addl	%esi, %eax
	addl	%esi, %edx
	movl	%ecx, %esi
	andl	%edx, %esi
	movbel	28(%r13), %ebp
	andnl	%ebx, %edx, %r11d
	orl	%r11d, %esi
	movl	%ebp, -64(%rsp)
	addl	%ebp, %r15d
	addl	%esi, %r15d
	rorxl	$14, %edx, %esi
	xorl	%edx, %esi
	rorxl	$5, %esi, %esi
	xorl	%edx, %esi
	rorxl	$6, %esi, %esi
	addl	%r15d, %esi
	addl	$-1424204075, %esi
	rorxl	$9, %eax, %r11d
	xorl	%eax, %r11d
	rorxl	$11, %r11d, %r11d
	xorl	%eax, %r11d
	rorxl	$2, %r11d, %ebp
	movl	%eax, %r15d
	xorl	%r9d, %r15d
	andl	%r15d, %r10d
	xorl	%r9d, %r10d
	addl	%ebp, %r10d
	addl	%esi, %r10d
	addl	%esi, %edi
	movl	%edx, %esi
	andl	%edi, %esi
	andnl	%ecx, %edi, %ebp
	orl	%ebp, %esi
	movbel	32(%r13), %ebp
	movl	%ebp, -28(%rsp)
	addl	%ebp, %ebx
	addl	%esi, %ebx
	rorxl	$14, %edi, %esi
	xorl	%edi, %esi
	rorxl	$5, %esi, %esi
	xorl	%edi, %esi
	rorxl	$6, %esi, %esi
	addl	%ebx, %esi
	addl	$-670586216, %esi
	rorxl	$9, %r10d, %ebx
	xorl	%r10d, %ebx
	rorxl	$11, %ebx, %ebx
	xorl	%r10d, %ebx
	rorxl	$2, %ebx, %ebx
	movl	%r10d, %ebp
	xorl	%eax, %ebp
	andl	%ebp, %r15d
	xorl	%eax, %r15d
	addl	%ebx, %r15d
	addl	%esi, %r15d
	addl	%esi, %r8d
	movl	%edi, %esi
	andl	%r8d, %esi
	movbel	36(%r13), %r11d
	movl	%r11d, -60(%rsp)
	andnl	%edx, %r8d, %ebx
	orl	%ebx, %esi
	addl	%r11d, %ecx
	addl	%esi, %ecx
	rorxl	$14, %r8d, %esi
	xorl	%r8d, %esi
	rorxl	$5, %esi, %esi
	xorl	%r8d, %esi
	rorxl	$6, %esi, %esi
	addl	%esi, %ecx
	addl	$310598401, %ecx
	rorxl	$9, %r15d, %esi
	xorl	%r15d, %esi
	rorxl	$11, %esi, %esi
	xorl	%r15d, %esi
	rorxl	$2, %esi, %esi
	movl	%r15d, %r14d
	xorl	%r10d, %r14d
	andl	%r14d, %ebp
	xorl	%r10d, %ebp
	addl	%esi, %ebp
	addl	%ecx, %ebp
	addl	%ecx, %r9d
	movl	%r8d, %ecx
	andl	%r9d, %ecx
	andnl	%edi, %r9d, %esi
	orl	%esi, %ecx
	movbel	40(%r13), %esi
	movl	%esi, -56(%rsp)
	addl	%esi, %edx
	addl	%ecx, %edx
	rorxl	$14, %r9d, %ecx
	xorl	%r9d, %ecx
	rorxl	$5, %ecx, %ecx
	xorl	%r9d, %ecx
	rorxl	$6, %ecx, %ecx
	addl	%edx, %ecx
	addl	$607225278, %ecx
	rorxl	$9, %ebp, %edx
	xorl	%ebp, %edx
	rorxl	$11, %edx, %edx
	xorl	%ebp, %edx
	rorxl	$2, %edx, %edx
	movl	%ebp, %r12d
	xorl	%r15d, %r12d
	andl	%r12d, %r14d
	xorl	%r15d, %r14d
	addl	%edx, %r14d
	addl	%ecx, %r14d
	addl	%ecx, %eax
	movl	%r9d, %ecx
	andl	%eax, %ecx
	movbel	44(%r13), %esi
	andnl	%r8d, %eax, %edx
	orl	%edx, %ecx
	movl	%esi, -96(%rsp)
	addl	%esi, %edi
	addl	%ecx, %edi
	rorxl	$14, %eax, %ecx
	xorl	%eax, %ecx
	rorxl	$5, %ecx, %ecx
	xorl	%eax, %ecx
	rorxl	$6, %ecx, %ecx
	leal	(%rcx,%rdi), %edx
	addl	$1426881987, %edx
	rorxl	$9, %r14d, %ecx
	xorl	%r14d, %ecx
	rorxl	$11, %ecx, %ecx
	xorl	%r14d, %ecx
	rorxl	$2, %ecx, %esi
	movl	%r14d, %ecx
	xorl	%ebp, %ecx
	andl	%ecx, %r12d
	xorl	%ebp, %r12d
	addl	%esi, %r12d
	addl	%edx, %r12d
	addl	%edx, %r10d
	movl	%eax, %edx
	andl	%r10d, %edx
	andnl	%r9d, %r10d, %esi
	orl	%esi, %edx
	movbel	48(%r13), %esi
	movl	%esi, -76(%rsp)
	addl	%esi, %r8d
	addl	%edx, %r8d
	rorxl	$14, %r10d, %edx
	xorl	%r10d, %edx
	rorxl	$5, %edx, %edx
	xorl	%r10d, %edx
	rorxl	$6, %edx, %edx
	addl	%r8d, %edx
	addl	$1925078388, %edx
	rorxl	$9, %r12d, %esi
	xorl	%r12d, %esi
	rorxl	$11, %esi, %esi
	xorl	%r12d, %esi
	rorxl	$2, %esi, %edi
	movl	%r12d, %esi
	xorl	%r14d, %esi
	andl	%esi, %ecx
	xorl	%r14d, %ecx
	addl	%edi, %ecx
	addl	%edx, %ecx
	addl	%edx, %r15d
	movl	%r10d, %edx
	andl	%r15d, %edx
	movbel	52(%r13), %r8d
	andnl	%eax, %r15d, %edi
	orl	%edi, %edx
	addl	%r8d, %r9d
	addl	%edx, %r9d
	rorxl	$14, %r15d, %edx
	xorl	%r15d, %edx
	rorxl	$5, %edx, %edx
	xorl	%r15d, %edx
	rorxl	$6, %edx, %edx
	addl	%r9d, %edx
	addl	$-2132889090, %edx
	rorxl	$9, %ecx, %edi
	xorl	%ecx, %edi
	rorxl	$11, %edi, %edi
	xorl	%ecx, %edi
	rorxl	$2, %edi, %edi
	movl	%ecx, %r11d
	xorl	%r12d, %r11d
	andl	%r11d, %esi
	xorl	%r12d, %esi
	addl	%edi, %esi
	addl	%edx, %esi
	addl	%edx, %ebp
	movl	%r15d, %edx
	andl	%ebp, %edx
	andnl	%r10d, %ebp, %edi
	orl	%edi, %edx
	movbel	56(%r13), %r9d
	addl	%r9d, %eax
	addl	%edx, %eax
	rorxl	$14, %ebp, %edx
	xorl	%ebp, %edx
	rorxl	$5, %edx, %edx
	xorl	%ebp, %edx
	rorxl	$6, %edx, %edx
	addl	%eax, %edx
	addl	$-1680079193, %edx
	rorxl	$9, %esi, %eax
	xorl	%esi, %eax
	rorxl	$11, %eax, %eax
	xorl	%esi, %eax
	rorxl	$2, %eax, %edi
	movl	%esi, %eax
	xorl	%ecx, %eax
	andl	%eax, %r11d
	xorl	%ecx, %r11d
	addl	%edi, %r11d
	movbel	60(%r13), %ebx
	addl	%edx, %r11d
	addl	%edx, %r14d
	movl	%ebp, %edx
	andl	%r14d, %edx
	andnl	%r15d, %r14d, %edi
	orl	%edi, %edx
	movl	%ebx, -108(%rsp)
	addl	%ebx, %r10d
	addl	%edx, %r10d
	rorxl	$14, %r14d, %edx
	xorl	%r14d, %edx
	rorxl	$5, %edx, %edx
	xorl	%r14d, %edx
	rorxl	$6, %edx, %edx
	addl	%r10d, %edx
	addl	$-1046744716, %edx
	movl	%r11d, %edi
	andl	%eax, %edi
	andnl	%esi, %eax, %ebx
	orl	%edi, %ebx
	movl	-60(%rsp), %edi
	rorxl	$9, %r11d, %eax
	xorl	%r11d, %eax
	rorxl	$11, %eax, %eax
	xorl	%r11d, %eax
	rorxl	$2, %eax, %eax
	addl	%eax, %ebx
	addl	%edx, %ebx
	addl	%edx, %r12d
	movl	%r9d, %edx
	movq	-8(%rsp), %rax
	vmovdqu	(%rax), %xmm0
	vmovdqu	16(%rax), %xmm1
	xorl	%r9d, %r9d
	.p2align	4
.Lnoise_BB_v3_33_1:
	movl	%r8d, -92(%rsp)
	movl	%edi, -60(%rsp)
	movq	%r9, -104(%rsp)
	rorxl	$2, %edx, %eax
	xorl	%edx, %eax
	rorxl	$17, %eax, %eax
	movl	%edx, -88(%rsp)
	shrl	$10, %edx
	xorl	%eax, %edx
	movl	-36(%rsp), %r13d
	rorxl	$11, %r13d, %eax
	xorl	%r13d, %eax
	movl	%r13d, %r8d
	shrl	$3, %r8d
	rorxl	$7, %eax, %eax
	xorl	%eax, %r8d
	movl	-32(%rsp), %r10d
	addl	%edi, %r10d
	addl	%edx, %r10d
	movl	%r14d, %edx
	andl	%r12d, %edx
	andnl	%ebp, %r12d, %eax
	orl	%eax, %edx
	addl	%r8d, %r10d
	addl	%r15d, %edx
	rorxl	$14, %r12d, %eax
	xorl	%r12d, %eax
	rorxl	$5, %eax, %eax
	xorl	%r12d, %eax
	rorxl	$6, %eax, %eax
	addl	%eax, %edx
	movl	%r11d, %r15d
	xorl	%ebx, %r15d
	movl	%esi, %edi
	andl	%r15d, %edi
	andnl	%r11d, %r15d, %r8d
	orl	%r8d, %edi
	rorxl	$9, %ebx, %r8d
	xorl	%ebx, %r8d
	rorxl	$11, %r8d, %r8d
	xorl	%ebx, %r8d
	rorxl	$2, %r8d, %r8d
	addl	%r8d, %edi
	leaq	.Lnoise_static.99(%rip), %rax
	addl	64(%r9,%rax), %edx
	addl	%r10d, %edx
	addl	%edx, %edi
	addl	%ecx, %edx
	movl	-108(%rsp), %r8d
	rorxl	$2, %r8d, %ecx
	xorl	%r8d, %ecx
	rorxl	$17, %ecx, %ecx
	shrl	$10, %r8d
	xorl	%ecx, %r8d
	movl	-40(%rsp), %eax
	rorxl	$11, %eax, %ecx
	xorl	%eax, %ecx
	movl	%eax, %r9d
	shrl	$3, %r9d
	rorxl	$7, %ecx, %ecx
	xorl	%ecx, %r9d
	addl	-56(%rsp), %r13d
	addl	%r8d, %r13d
	movl	%r12d, %ecx
	movl	%edx, -72(%rsp)
	andl	%edx, %ecx
	andnl	%r14d, %edx, %r8d
	orl	%r8d, %ecx
	addl	%r9d, %r13d
	rorxl	$2, %r10d, %r8d
	xorl	%r10d, %r8d
	movl	%r10d, -32(%rsp)
	rorxl	$17, %r8d, %r9d
	movl	%r10d, %r8d
	shrl	$10, %r8d
	xorl	%r9d, %r8d
	movl	%edi, %edx
	movl	%edi, -80(%rsp)
	rorxl	$9, %edi, %r9d
	xorl	%edi, %r9d
	rorxl	$11, %r9d, %r9d
	xorl	%edi, %r9d
	rorxl	$2, %r9d, %r9d
	xorl	%ebx, %edx
	andl	%edx, %r15d
	xorl	%ebx, %r15d
	addl	%r9d, %r15d
	movq	-104(%rsp), %r9
	leaq	.Lnoise_static.99(%rip), %rdi
	addl	68(%r9,%rdi), %ebp
	addl	%r13d, %ebp
	addl	%ecx, %ebp
	movl	-68(%rsp), %r10d
	rorxl	$11, %r10d, %ecx
	xorl	%r10d, %ecx
	rorxl	$7, %ecx, %ecx
	movl	%r10d, %r9d
	shrl	$3, %r9d
	xorl	%ecx, %r9d
	movl	-72(%rsp), %edi
	rorxl	$14, %edi, %ecx
	xorl	%edi, %ecx
	rorxl	$5, %ecx, %ecx
	xorl	%edi, %ecx
	rorxl	$6, %ecx, %ecx
	addl	%ecx, %ebp
	addl	-96(%rsp), %eax
	addl	%r9d, %eax
	addl	%ebp, %r15d
	addl	%esi, %ebp
	addl	%r8d, %eax
	movl	%edi, %ecx
	movl	%edi, %r9d
	andl	%ebp, %ecx
	andnl	%r12d, %ebp, %esi
	orl	%esi, %ecx
	movq	-104(%rsp), %rsi
	leaq	.Lnoise_static.99(%rip), %rdi
	addl	72(%rsi,%rdi), %r14d
	addl	%eax, %r14d
	addl	%ecx, %r14d
	rorxl	$14, %ebp, %ecx
	xorl	%ebp, %ecx
	rorxl	$5, %ecx, %ecx
	xorl	%ebp, %ecx
	rorxl	$6, %ecx, %ecx
	addl	%ecx, %r14d
	movl	%r15d, %edi
	movl	%r15d, -84(%rsp)
	rorxl	$9, %r15d, %ecx
	xorl	%r15d, %ecx
	rorxl	$11, %ecx, %ecx
	xorl	%r15d, %ecx
	movl	-80(%rsp), %esi
	xorl	%esi, %edi
	andl	%edi, %edx
	xorl	%esi, %edx
	rorxl	$2, %ecx, %ecx
	addl	%ecx, %edx
	addl	%r14d, %edx
	addl	%r11d, %r14d
	movl	%r13d, -36(%rsp)
	rorxl	$2, %r13d, %ecx
	xorl	%r13d, %ecx
	movl	%r13d, %esi
	shrl	$10, %esi
	rorxl	$17, %ecx, %ecx
	xorl	%ecx, %esi
	movl	-44(%rsp), %r15d
	rorxl	$11, %r15d, %ecx
	xorl	%r15d, %ecx
	rorxl	$7, %ecx, %ecx
	movl	%r15d, %r8d
	movl	%r15d, %r13d
	shrl	$3, %r8d
	xorl	%ecx, %r8d
	addl	-76(%rsp), %r10d
	addl	%r8d, %r10d
	addl	%esi, %r10d
	movl	%r10d, %r8d
	movl	%r10d, -68(%rsp)
	movl	%ebp, %ecx
	andl	%r14d, %ecx
	andnl	%r9d, %r14d, %esi
	orl	%esi, %ecx
	movq	-104(%rsp), %rsi
	leaq	.Lnoise_static.99(%rip), %r10
	addl	76(%rsi,%r10), %r12d
	addl	%r8d, %r12d
	addl	%ecx, %r12d
	rorxl	$14, %r14d, %ecx
	xorl	%r14d, %ecx
	rorxl	$5, %ecx, %ecx
	xorl	%r14d, %ecx
	rorxl	$6, %ecx, %ecx
	addl	%ecx, %r12d
	movl	%eax, %esi
	movl	%eax, -40(%rsp)
	rorxl	$2, %eax, %ecx
	xorl	%eax, %ecx
	rorxl	$17, %ecx, %ecx
	shrl	$10, %esi
	xorl	%ecx, %esi
	rorxl	$9, %edx, %ecx
	xorl	%edx, %ecx
	rorxl	$11, %ecx, %ecx
	xorl	%edx, %ecx
	rorxl	$2, %ecx, %ecx
	movl	%r12d, %r11d
	movl	%edx, %r12d
	movl	-84(%rsp), %eax
	xorl	%eax, %r12d
	andl	%r12d, %edi
	xorl	%eax, %edi
	addl	%ecx, %edi
	movl	-48(%rsp), %eax
	rorxl	$11, %eax, %ecx
	xorl	%eax, %ecx
	rorxl	$7, %ecx, %ecx
	movl	%eax, %r8d
	shrl	$3, %r8d
	xorl	%ecx, %r8d
	addl	%r11d, %edi
	addl	%ebx, %r11d
	addl	-92(%rsp), %r13d
	addl	%r8d, %r13d
	addl	%esi, %r13d
	movl	%r14d, %ecx
	andl	%r11d, %ecx
	movq	-104(%rsp), %rsi
	movq	%r10, %rbx
	addl	80(%rsi,%r10), %r9d
	andnl	%ebp, %r11d, %esi
	orl	%esi, %ecx
	addl	%r13d, %r9d
	addl	%ecx, %r9d
	rorxl	$14, %r11d, %ecx
	xorl	%r11d, %ecx
	rorxl	$5, %ecx, %ecx
	xorl	%r11d, %ecx
	movl	%r11d, %r10d
	rorxl	$6, %ecx, %ecx
	addl	%ecx, %r9d
	movl	%r9d, %r11d
	movl	%edi, -20(%rsp)
	rorxl	$9, %edi, %ecx
	xorl	%edi, %ecx
	rorxl	$11, %ecx, %esi
	xorl	%edi, %esi
	movl	%edi, %ecx
	movl	%edx, -12(%rsp)
	xorl	%edx, %ecx
	rorxl	$2, %esi, %esi
	andl	%ecx, %r12d
	xorl	%edx, %r12d
	addl	%esi, %r12d
	movl	-68(%rsp), %r8d
	rorxl	$2, %r8d, %esi
	xorl	%r8d, %esi
	shrl	$10, %r8d
	rorxl	$17, %esi, %esi
	xorl	%esi, %r8d
	movl	-52(%rsp), %edi
	rorxl	$11, %edi, %esi
	xorl	%edi, %esi
	rorxl	$7, %esi, %esi
	movl	%edi, %r9d
	shrl	$3, %r9d
	xorl	%esi, %r9d
	movl	%eax, %edx
	addl	-88(%rsp), %edx
	addl	%r9d, %edx
	addl	%r8d, %edx
	addl	%r11d, %r12d
	addl	-80(%rsp), %r11d
	movl	%r10d, %eax
	movl	%r10d, %r15d
	andl	%r11d, %eax
	andnl	%r14d, %r11d, %esi
	orl	%esi, %eax
	movq	-104(%rsp), %rsi
	addl	84(%rsi,%rbx), %ebp
	addl	%edx, %ebp
	addl	%eax, %ebp
	movl	%r13d, -44(%rsp)
	rorxl	$2, %r13d, %eax
	xorl	%r13d, %eax
	rorxl	$17, %eax, %esi
	movl	%r13d, %eax
	shrl	$10, %eax
	xorl	%esi, %eax
	rorxl	$14, %r11d, %esi
	xorl	%r11d, %esi
	rorxl	$5, %esi, %esi
	xorl	%r11d, %esi
	rorxl	$6, %esi, %esi
	addl	%esi, %ebp
	movl	-64(%rsp), %r8d
	rorxl	$11, %r8d, %esi
	xorl	%r8d, %esi
	rorxl	$7, %esi, %esi
	shrl	$3, %r8d
	xorl	%esi, %r8d
	rorxl	$9, %r12d, %esi
	xorl	%r12d, %esi
	rorxl	$11, %esi, %esi
	xorl	%r12d, %esi
	movl	%r12d, -72(%rsp)
	rorxl	$2, %esi, %esi
	movl	-56(%rsp), %ebx
	movl	%r12d, %r13d
	movl	-20(%rsp), %r10d
	xorl	%r10d, %r13d
	andl	%r13d, %ecx
	xorl	%r10d, %ecx
	addl	%esi, %ecx
	movl	-108(%rsp), %r12d
	addl	%r12d, %edi
	addl	%r8d, %edi
	addl	%eax, %edi
	movl	%edi, %r8d
	movl	%edx, -48(%rsp)
	rorxl	$2, %edx, %eax
	xorl	%edx, %eax
	shrl	$10, %edx
	rorxl	$17, %eax, %eax
	xorl	%eax, %edx
	movl	%edx, -16(%rsp)
	movl	-32(%rsp), %edi
	rorxl	$11, %edi, %eax
	xorl	%edi, %eax
	rorxl	$7, %eax, %eax
	movl	%edi, %r9d
	shrl	$3, %r9d
	xorl	%eax, %r9d
	movl	%r12d, %edx
	rorxl	$11, %r12d, %eax
	xorl	%r12d, %eax
	addl	%r12d, %r9d
	movl	%r9d, -80(%rsp)
	rorxl	$7, %eax, %eax
	shrl	$3, %edx
	xorl	%eax, %edx
	movl	%edx, %r9d
	addl	%ebp, %ecx
	addl	-84(%rsp), %ebp
	movl	%r11d, %esi
	movl	%r11d, %eax
	andl	%ebp, %eax
	movl	%r15d, %r12d
	andnl	%r15d, %ebp, %edx
	orl	%edx, %eax
	movq	-104(%rsp), %rdx
	leaq	.Lnoise_static.99(%rip), %r10
	addl	88(%rdx,%r10), %r14d
	movl	%r8d, %r10d
	addl	%r8d, %r14d
	addl	%eax, %r14d
	movl	-88(%rsp), %r8d
	rorxl	$11, %r8d, %eax
	xorl	%r8d, %eax
	addl	%r8d, %r9d
	movl	%r9d, -84(%rsp)
	rorxl	$7, %eax, %eax
	shrl	$3, %r8d
	xorl	%eax, %r8d
	movl	-92(%rsp), %edx
	rorxl	$11, %edx, %eax
	xorl	%edx, %eax
	rorxl	$7, %eax, %eax
	addl	%edx, %r8d
	movl	%r8d, -88(%rsp)
	shrl	$3, %edx
	xorl	%eax, %edx
	movl	%edx, %r8d
	rorxl	$14, %ebp, %eax
	xorl	%ebp, %eax
	rorxl	$5, %eax, %eax
	xorl	%ebp, %eax
	rorxl	$6, %eax, %eax
	addl	%eax, %r14d
	movl	-76(%rsp), %edx
	rorxl	$11, %edx, %eax
	xorl	%edx, %eax
	rorxl	$7, %eax, %eax
	addl	%edx, %r8d
	movl	%r8d, -92(%rsp)
	movl	%edx, %r8d
	shrl	$3, %r8d
	xorl	%eax, %r8d
	movl	-96(%rsp), %r9d
	rorxl	$11, %r9d, %eax
	xorl	%r9d, %eax
	rorxl	$7, %eax, %eax
	addl	%r9d, %r8d
	movl	%r8d, -108(%rsp)
	shrl	$3, %r9d
	xorl	%eax, %r9d
	movl	%ecx, %r15d
	movl	%ecx, -24(%rsp)
	rorxl	$9, %ecx, %eax
	xorl	%ecx, %eax
	rorxl	$11, %eax, %eax
	xorl	%ecx, %eax
	rorxl	$2, %eax, %eax
	movl	-72(%rsp), %ecx
	xorl	%ecx, %r15d
	andl	%r15d, %r13d
	xorl	%ecx, %r13d
	addl	%eax, %r13d
	rorxl	$11, %ebx, %eax
	xorl	%ebx, %eax
	rorxl	$7, %eax, %eax
	addl	%ebx, %r9d
	movl	%ebx, %r11d
	shrl	$3, %r11d
	xorl	%eax, %r11d
	movl	-60(%rsp), %ecx
	rorxl	$11, %ecx, %eax
	xorl	%ecx, %eax
	rorxl	$7, %eax, %eax
	addl	%ecx, %r11d
	shrl	$3, %ecx
	xorl	%eax, %ecx
	addl	%r14d, %r13d
	addl	-12(%rsp), %r14d
	movl	-28(%rsp), %edx
	rorxl	$11, %edx, %eax
	xorl	%edx, %eax
	rorxl	$7, %eax, %eax
	addl	%edx, %ecx
	shrl	$3, %edx
	xorl	%eax, %edx
	movl	-64(%rsp), %ebx
	addl	%edi, %ebx
	addl	%edx, %ebx
	addl	-16(%rsp), %ebx
	movl	%ebp, %eax
	andl	%r14d, %eax
	movl	%esi, %r8d
	andnl	%esi, %r14d, %edx
	orl	%edx, %eax
	movq	-104(%rsp), %rdx
	leaq	.Lnoise_static.99(%rip), %rsi
	movl	92(%rdx,%rsi), %esi
	addl	%ebx, %esi
	movl	%ebx, %edi
	addl	%r12d, %esi
	addl	%eax, %esi
	rorxl	$14, %r14d, %eax
	xorl	%r14d, %eax
	rorxl	$5, %eax, %eax
	xorl	%r14d, %eax
	rorxl	$6, %eax, %eax
	addl	%eax, %esi
	movl	%r10d, -52(%rsp)
	rorxl	$2, %r10d, %eax
	xorl	%r10d, %eax
	rorxl	$17, %eax, %eax
	movl	%r10d, %edx
	shrl	$10, %edx
	xorl	%eax, %edx
	rorxl	$9, %r13d, %eax
	xorl	%r13d, %eax
	rorxl	$11, %eax, %eax
	xorl	%r13d, %eax
	rorxl	$2, %eax, %eax
	movl	%r13d, %ebx
	movl	-24(%rsp), %r10d
	xorl	%r10d, %ebx
	andl	%ebx, %r15d
	xorl	%r10d, %r15d
	addl	%eax, %r15d
	addl	-36(%rsp), %ecx
	addl	%edx, %ecx
	addl	%esi, %r15d
	addl	-20(%rsp), %esi
	movl	%r14d, %eax
	andl	%esi, %eax
	andnl	%ebp, %esi, %edx
	orl	%edx, %eax
	movq	-104(%rsp), %rdx
	leaq	.Lnoise_static.99(%rip), %r12
	movl	96(%rdx,%r12), %r10d
	addl	%ecx, %r10d
	addl	%r8d, %r10d
	addl	%eax, %r10d
	movl	%edi, -64(%rsp)
	rorxl	$2, %edi, %eax
	xorl	%edi, %eax
	rorxl	$17, %eax, %eax
	shrl	$10, %edi
	xorl	%eax, %edi
	rorxl	$14, %esi, %eax
	xorl	%esi, %eax
	rorxl	$5, %eax, %eax
	xorl	%esi, %eax
	rorxl	$6, %eax, %eax
	addl	%eax, %r10d
	addl	-40(%rsp), %r11d
	addl	%edi, %r11d
	movq	-104(%rsp), %rax
	movl	100(%rax,%r12), %r8d
	addl	%r11d, %r8d
	movl	%r11d, %eax
	addl	%ebp, %r8d
	rorxl	$9, %r15d, %edx
	xorl	%r15d, %edx
	rorxl	$11, %edx, %edx
	xorl	%r15d, %edx
	movl	%r15d, %ebp
	xorl	%r13d, %ebp
	rorxl	$2, %edx, %edx
	andl	%ebp, %ebx
	xorl	%r13d, %ebx
	addl	%edx, %ebx
	addl	%r10d, %ebx
	addl	-72(%rsp), %r10d
	movl	%esi, %edx
	andl	%r10d, %edx
	andnl	%r14d, %r10d, %edi
	orl	%edi, %edx
	movl	%ecx, -96(%rsp)
	rorxl	$2, %ecx, %edi
	xorl	%ecx, %edi
	rorxl	$17, %edi, %edi
	shrl	$10, %ecx
	xorl	%edi, %ecx
	addl	%edx, %r8d
	addl	-68(%rsp), %r9d
	addl	%ecx, %r9d
	rorxl	$14, %r10d, %edx
	xorl	%r10d, %edx
	rorxl	$5, %edx, %edx
	xorl	%r10d, %edx
	rorxl	$6, %edx, %edx
	addl	%edx, %r8d
	movq	-104(%rsp), %rdx
	movq	%r12, %r11
	movl	104(%rdx,%r12), %r12d
	addl	%r9d, %r12d
	addl	%r14d, %r12d
	rorxl	$9, %ebx, %edx
	xorl	%ebx, %edx
	rorxl	$11, %edx, %edx
	xorl	%ebx, %edx
	movl	%ebx, %r14d
	xorl	%r15d, %r14d
	andl	%r14d, %ebp
	xorl	%r15d, %ebp
	rorxl	$2, %edx, %edx
	addl	%edx, %ebp
	addl	%r8d, %ebp
	addl	-24(%rsp), %r8d
	movl	%r10d, %ecx
	andl	%r8d, %ecx
	andnl	%esi, %r8d, %edx
	orl	%edx, %ecx
	addl	%ecx, %r12d
	rorxl	$14, %r8d, %ecx
	xorl	%r8d, %ecx
	rorxl	$5, %ecx, %ecx
	xorl	%r8d, %ecx
	rorxl	$6, %ecx, %ecx
	addl	%ecx, %r12d
	rorxl	$9, %ebp, %ecx
	xorl	%ebp, %ecx
	rorxl	$11, %ecx, %ecx
	xorl	%ebp, %ecx
	rorxl	$2, %ecx, %ecx
	movl	%ebp, %edi
	xorl	%ebx, %edi
	andl	%edi, %r14d
	xorl	%ebx, %r14d
	addl	%ecx, %r14d
	movl	%eax, %edx
	movl	%eax, -76(%rsp)
	rorxl	$2, %eax, %ecx
	xorl	%eax, %ecx
	rorxl	$17, %ecx, %ecx
	shrl	$10, %edx
	xorl	%ecx, %edx
	addl	%r12d, %r14d
	addl	%r13d, %r12d
	movl	-108(%rsp), %eax
	addl	-44(%rsp), %eax
	addl	%edx, %eax
	movl	%eax, -108(%rsp)
	movl	%r8d, %ecx
	andl	%r12d, %ecx
	andnl	%r10d, %r12d, %edx
	orl	%edx, %ecx
	movq	-104(%rsp), %rdx
	movl	108(%rdx,%r11), %r13d
	addl	%eax, %r13d
	addl	%esi, %r13d
	addl	%ecx, %r13d
	rorxl	$14, %r12d, %ecx
	xorl	%r12d, %ecx
	rorxl	$5, %ecx, %ecx
	xorl	%r12d, %ecx
	rorxl	$6, %ecx, %ecx
	addl	%ecx, %r13d
	movl	%r9d, -56(%rsp)
	rorxl	$2, %r9d, %ecx
	xorl	%r9d, %ecx
	rorxl	$17, %ecx, %ecx
	shrl	$10, %r9d
	xorl	%ecx, %r9d
	rorxl	$9, %r14d, %ecx
	xorl	%r14d, %ecx
	rorxl	$11, %ecx, %ecx
	xorl	%r14d, %ecx
	rorxl	$2, %ecx, %esi
	movl	%r14d, %ecx
	xorl	%ebp, %ecx
	andl	%ecx, %edi
	xorl	%ebp, %edi
	addl	%esi, %edi
	movl	-92(%rsp), %eax
	addl	-48(%rsp), %eax
	addl	%r9d, %eax
	addl	%r13d, %edi
	addl	%r15d, %r13d
	movl	%r12d, %edx
	andl	%r13d, %edx
	andnl	%r8d, %r13d, %esi
	orl	%esi, %edx
	movq	-104(%rsp), %rsi
	movl	112(%rsi,%r11), %r15d
	addl	%eax, %r15d
	addl	%r10d, %r15d
	addl	%edx, %r15d
	movl	-108(%rsp), %esi
	rorxl	$2, %esi, %edx
	xorl	%esi, %edx
	rorxl	$17, %edx, %edx
	shrl	$10, %esi
	xorl	%edx, %esi
	rorxl	$14, %r13d, %edx
	xorl	%r13d, %edx
	rorxl	$5, %edx, %edx
	xorl	%r13d, %edx
	rorxl	$6, %edx, %edx
	addl	%edx, %r15d
	movl	-88(%rsp), %edx
	addl	-52(%rsp), %edx
	addl	%esi, %edx
	movl	%edx, %r9d
	rorxl	$9, %edi, %edx
	xorl	%edi, %edx
	rorxl	$11, %edx, %edx
	xorl	%edi, %edx
	rorxl	$2, %edx, %edx
	movl	%edi, %r10d
	xorl	%r14d, %r10d
	andl	%r10d, %ecx
	xorl	%r14d, %ecx
	addl	%edx, %ecx
	movq	-104(%rsp), %rdx
	movl	116(%rdx,%r11), %edx
	addl	%r9d, %edx
	addl	%r8d, %edx
	movl	%eax, %esi
	rorxl	$2, %eax, %eax
	xorl	%esi, %eax
	movl	%esi, -92(%rsp)
	rorxl	$17, %eax, %eax
	shrl	$10, %esi
	xorl	%eax, %esi
	movl	-84(%rsp), %r8d
	addl	-64(%rsp), %r8d
	addl	%esi, %r8d
	movl	%r8d, -84(%rsp)
	movl	%r9d, %esi
	movl	%r9d, -88(%rsp)
	rorxl	$2, %r9d, %eax
	xorl	%r9d, %eax
	rorxl	$17, %eax, %eax
	shrl	$10, %esi
	xorl	%eax, %esi
	movl	-80(%rsp), %r9d
	addl	-96(%rsp), %r9d
	addl	%esi, %r9d
	movl	%r9d, -80(%rsp)
	addl	%r15d, %ecx
	rorxl	$9, %ecx, %eax
	xorl	%ecx, %eax
	rorxl	$11, %eax, %eax
	xorl	%ecx, %eax
	movl	%ecx, %r11d
	xorl	%edi, %r11d
	andl	%r11d, %r10d
	rorxl	$2, %eax, %eax
	xorl	%edi, %r10d
	addl	%eax, %r10d
	addl	%ebx, %r15d
	movq	-104(%rsp), %rax
	leaq	.Lnoise_static.99(%rip), %rsi
	movl	120(%rax,%rsi), %ebx
	addl	%r8d, %ebx
	addl	%r12d, %ebx
	andnl	%r12d, %r15d, %eax
	movl	%r13d, %esi
	andl	%r15d, %esi
	orl	%eax, %esi
	addl	%edx, %esi
	rorxl	$14, %r15d, %eax
	xorl	%r15d, %eax
	rorxl	$5, %eax, %eax
	xorl	%r15d, %eax
	rorxl	$6, %eax, %eax
	addl	%eax, %esi
	movq	-104(%rsp), %rax
	leaq	.Lnoise_static.99(%rip), %rdx
	movl	124(%rax,%rdx), %edx
	addl	%r9d, %edx
	addl	%r13d, %edx
	addl	%esi, %ebp
	andnl	%r13d, %ebp, %r12d
	movl	%r15d, %eax
	andl	%ebp, %eax
	orl	%r12d, %eax
	addl	%ebx, %eax
	rorxl	$14, %ebp, %ebx
	xorl	%ebp, %ebx
	rorxl	$5, %ebx, %ebx
	xorl	%ebp, %ebx
	rorxl	$6, %ebx, %ebx
	addl	%ebx, %eax
	addl	%eax, %r14d
	movl	%ebp, %r12d
	andl	%r14d, %r12d
	andnl	%r15d, %r14d, %ebx
	orl	%ebx, %r12d
	addl	%edx, %r12d
	rorxl	$14, %r14d, %edx
	xorl	%r14d, %edx
	rorxl	$5, %edx, %edx
	xorl	%r14d, %edx
	rorxl	$6, %edx, %edx
	addl	%edx, %r12d
	addl	%r10d, %esi
	rorxl	$9, %esi, %edx
	xorl	%esi, %edx
	rorxl	$11, %edx, %edx
	xorl	%esi, %edx
	movl	%esi, %r10d
	xorl	%ecx, %r10d
	andl	%r10d, %r11d
	xorl	%ecx, %r11d
	rorxl	$2, %edx, %edx
	addl	%edx, %r11d
	addl	%eax, %r11d
	movl	%r11d, %eax
	andl	%r10d, %eax
	andnl	%esi, %r10d, %ebx
	orl	%eax, %ebx
	rorxl	$9, %r11d, %eax
	xorl	%r11d, %eax
	rorxl	$11, %eax, %eax
	xorl	%r11d, %eax
	rorxl	$2, %eax, %eax
	addl	%eax, %ebx
	addl	%r12d, %ebx
	addl	%edi, %r12d
	movl	-96(%rsp), %eax
	movl	%eax, -28(%rsp)
	movl	-76(%rsp), %edi
	movq	-104(%rsp), %r9
	movl	-108(%rsp), %eax
	movl	%eax, -96(%rsp)
	movl	-92(%rsp), %eax
	movl	%eax, -76(%rsp)
	movl	-88(%rsp), %r8d
	addq	$64, %r9
	movl	-84(%rsp), %edx
	movl	-80(%rsp), %eax
	movl	%eax, -108(%rsp)
	cmpq	$192, %r9
	jne	.Lnoise_BB_v3_33_1
	vmovd	%ebx, %xmm2
	vpinsrd	$1, %r11d, %xmm2, %xmm2
	vpinsrd	$2, %esi, %xmm2, %xmm2
	vpinsrd	$3, %ecx, %xmm2, %xmm2
	vmovd	%r12d, %xmm3
	vpinsrd	$1, %r14d, %xmm3, %xmm3
	vpinsrd	$2, %ebp, %xmm3, %xmm3
	vpinsrd	$3, %r15d, %xmm3, %xmm3
	vpaddd	%xmm0, %xmm2, %xmm0
	vpaddd	%xmm1, %xmm3, %xmm1
	movq	-8(%rsp), %rax
	vmovdqu	%xmm0, (%rax)
	vmovdqu	%xmm1, 16(%rax)
	popq	%rbx
	.cfi_def_cfa_offset 48
	popq	%r12
	.cfi_def_cfa_offset 40
	popq	%r13
	.cfi_def_cfa_offset 32
	popq	%r14
	.cfi_def_cfa_offset 24
	popq	%r15
	.cfi_def_cfa_offset 16
	popq	%rbp
	.cfi_def_cfa_offset 8
	retq
.Lnoise_func_end_v3_33:
	.size	"sha2::block256::compress.v3", .Lnoise_func_end_v3_33-"sha2::block256::compress.v3"
	.cfi_endproc

	.section	".text.noise_state::cipher::CipherState::encrypt","ax",@progbits
	.p2align	4
	.type	"noise_state::cipher::CipherState::encrypt.v3",@function
"noise_state::cipher::CipherState::encrypt.v3":
	.cfi_startproc
	cmpb	$1, (%rsi)
	jne	.Lnoise_BB_v3_7_3
	movq	40(%rsi), %rax
	cmpq	$-1, %rax
	je	.Lnoise_BB_v3_7_2
	cmpq	$65520, %r9
	jb	.Lnoise_BB_v3_7_7
	movw	$769, (%rdi)
	movq	$0, 8(%rdi)
	retq
.Lnoise_BB_v3_7_3:
	xorl	%eax, %eax
	xorl	%ecx, %ecx
	cmpq	$65536, %r9
	setae	%cl
	leal	(%rcx,%rcx,2), %ecx
	setae	(%rdi)
	cmovbq	%r9, %rax
	movb	%cl, 1(%rdi)
	movq	%rax, 8(%rdi)
	retq
.Lnoise_BB_v3_7_2:
	movw	$1, (%rdi)
	movq	$0, 8(%rdi)
	retq
.Lnoise_BB_v3_7_7:
	pushq	%rbp
	.cfi_def_cfa_offset 16
	pushq	%r15
	.cfi_def_cfa_offset 24
	pushq	%r14
	.cfi_def_cfa_offset 32
	pushq	%r13
	.cfi_def_cfa_offset 40
	pushq	%r12
	.cfi_def_cfa_offset 48
	pushq	%rbx
	.cfi_def_cfa_offset 56
	subq	$392, %rsp
	.cfi_def_cfa_offset 448
	.cfi_offset %rbx, -56
	.cfi_offset %r12, -48
	.cfi_offset %r13, -40
	.cfi_offset %r14, -32
	.cfi_offset %r15, -24
	.cfi_offset %rbp, -16
	vmovups	1(%rsi), %ymm0
	leaq	104(%rsp), %r10
	vxorps	%xmm1, %xmm1, %xmm1
	vmovups	%ymm1, 104(%rsp)
	vmovups	%ymm1, 136(%rsp)
	vmovups	%ymm1, 168(%rsp)
	vmovups	%ymm1, 200(%rsp)
	vmovups	%ymm1, 232(%rsp)
	vmovups	%ymm1, 264(%rsp)
	vmovups	%ymm1, 296(%rsp)
	vmovups	%ymm1, 328(%rsp)
	vmovups	%ymm0, 56(%rsp)
	movq	%rax, 88(%rsp)
	movq	$0, 96(%rsp)
	movq	$64, 360(%rsp)
	leaq	56(%rsp), %r15
	movq	%rdi, %rbp
	movq	%r15, %rdi
	movq	%rsi, 32(%rsp)
	xorl	%esi, %esi
	movq	%rdx, %r12
	movq	%rax, %rdx
	movq	%rcx, %r13
	movq	%r10, %rcx
	movq	%r9, %rbx
	movq	%r8, %r14
	vzeroupper
	callq	"rand_chacha::guts::refill4.v3"
	addq	$4, 96(%rsp)
	movzbl	132(%rsp), %eax
	vmovups	120(%rsp), %xmm0
	movq	$16, 360(%rsp)
	vmovups	104(%rsp), %xmm1
	vmovdqu	120(%rsp), %xmm2
	vmovaps	%xmm1, (%rsp)
	vmovlps	%xmm0, 16(%rsp)
	vextractps	$2, %xmm0, 24(%rsp)
	movb	%al, 28(%rsp)
	vpextrb	$13, %xmm2, 29(%rsp)
	vpextrb	$14, %xmm2, 30(%rsp)
	vpextrb	$15, %xmm2, 31(%rsp)
	movq	%r15, %rdi
	movq	%r14, %rsi
	movq	%rbx, %rdx
	callq	"noise_aead::keystream::apply.v3"
	leaq	40(%rsp), %rdi
	movq	%rsp, %rsi
	movq	%r12, %rdx
	movq	%r13, %rcx
	movq	%r14, %r8
	movq	%rbx, %r9
	callq	"noise_aead::authenticator::tag.v3"
	vmovups	40(%rsp), %xmm0
	vmovaps	%xmm0, 368(%rsp)
	vmovups	%xmm0, (%r14,%rbx)
	movq	32(%rsp), %rax
	incq	40(%rax)
	addq	$16, %rbx
	movw	$0, (%rbp)
	movq	%rbx, 8(%rbp)
	addq	$392, %rsp
	.cfi_def_cfa_offset 56
	popq	%rbx
	.cfi_def_cfa_offset 48
	popq	%r12
	.cfi_def_cfa_offset 40
	popq	%r13
	.cfi_def_cfa_offset 32
	popq	%r14
	.cfi_def_cfa_offset 24
	popq	%r15
	.cfi_def_cfa_offset 16
	popq	%rbp
	.cfi_def_cfa_offset 8
	.cfi_restore %rbx
	.cfi_restore %r12
	.cfi_restore %r13
	.cfi_restore %r14
	.cfi_restore %r15
	.cfi_restore %rbp
	retq
.Lnoise_func_end_v3_7:
	.size	"noise_state::cipher::CipherState::encrypt.v3", .Lnoise_func_end_v3_7-"noise_state::cipher::CipherState::encrypt.v3"
	.cfi_endproc

	.section	".text.noise_state::cipher::CipherState::decrypt","ax",@progbits
	.p2align	4
	.type	"noise_state::cipher::CipherState::decrypt.v3",@function
"noise_state::cipher::CipherState::decrypt.v3":
	.cfi_startproc
	movzbl	(%rsi), %eax
	cmpb	$1, %al
	jne	.Lnoise_BB_v3_0_3
	cmpq	$-1, 40(%rsi)
	je	.Lnoise_BB_v3_0_2
.Lnoise_BB_v3_0_3:
	movb	$3, %r10b
	cmpq	$65535, %r9
	ja	.Lnoise_BB_v3_0_5
	cmpq	$16, %r9
	setb	%r11b
	movb	$2, %r10b
	testb	%al, %r11b
	jne	.Lnoise_BB_v3_0_5
	cmpb	$1, %al
	jne	.Lnoise_BB_v3_0_9
	pushq	%rbp
	.cfi_def_cfa_offset 16
	pushq	%r15
	.cfi_def_cfa_offset 24
	pushq	%r14
	.cfi_def_cfa_offset 32
	pushq	%r13
	.cfi_def_cfa_offset 40
	pushq	%r12
	.cfi_def_cfa_offset 48
	pushq	%rbx
	.cfi_def_cfa_offset 56
	subq	$392, %rsp
	.cfi_def_cfa_offset 448
	.cfi_offset %rbx, -56
	.cfi_offset %r12, -48
	.cfi_offset %r13, -40
	.cfi_offset %r14, -32
	.cfi_offset %r15, -24
	.cfi_offset %rbp, -16
	movq	%rdi, 8(%rsp)
	movq	40(%rsi), %rax
	leaq	-16(%r9), %rbx
	movq	-16(%r8,%r9), %rbp
	movq	-8(%r8,%r9), %r13
	leaq	128(%rsp), %r9
	vxorps	%xmm0, %xmm0, %xmm0
	vmovups	%ymm0, 128(%rsp)
	vmovups	%ymm0, 160(%rsp)
	vmovups	%ymm0, 192(%rsp)
	vmovups	%ymm0, 224(%rsp)
	vmovups	%ymm0, 256(%rsp)
	vmovups	%ymm0, 288(%rsp)
	vmovups	%ymm0, 320(%rsp)
	vmovups	%ymm0, 352(%rsp)
	movq	%rsi, 56(%rsp)
	vmovups	1(%rsi), %ymm0
	vmovups	%ymm0, 80(%rsp)
	movq	%rax, 112(%rsp)
	movq	$0, 120(%rsp)
	movq	$64, 384(%rsp)
	leaq	80(%rsp), %rdi
	xorl	%esi, %esi
	movq	%rdx, %r14
	movq	%rax, %rdx
	movq	%rcx, %r15
	movq	%r9, %rcx
	movq	%r8, %r12
	vzeroupper
	callq	"rand_chacha::guts::refill4.v3"
	addq	$4, 120(%rsp)
	movzbl	156(%rsp), %eax
	vmovups	144(%rsp), %xmm0
	movq	$16, 384(%rsp)
	vmovups	128(%rsp), %xmm1
	vmovdqu	144(%rsp), %xmm2
	vmovaps	%xmm1, 16(%rsp)
	vmovlps	%xmm0, 32(%rsp)
	vextractps	$2, %xmm0, 40(%rsp)
	movb	%al, 44(%rsp)
	vpextrb	$13, %xmm2, 45(%rsp)
	vpextrb	$14, %xmm2, 46(%rsp)
	vpextrb	$15, %xmm2, 47(%rsp)
	leaq	64(%rsp), %rdi
	leaq	16(%rsp), %rsi
	movq	%r14, %rdx
	movq	%r15, %rcx
	movq	%r12, %r14
	movq	%r12, %r8
	movq	%rbx, %r9
	callq	"noise_aead::authenticator::tag.v3"
	xorq	72(%rsp), %r13
	xorq	64(%rsp), %rbp
	orq	%r13, %rbp
	jne	.Lnoise_BB_v3_0_11
	leaq	80(%rsp), %rdi
	movq	%r14, %rsi
	movq	%rbx, %rdx
	callq	"noise_aead::keystream::apply.v3"
	movq	56(%rsp), %rax
	incq	40(%rax)
	movq	8(%rsp), %rax
	movw	$0, (%rax)
	movq	%rbx, 8(%rax)
	jmp	.Lnoise_BB_v3_0_12
.Lnoise_BB_v3_0_2:
	.cfi_def_cfa_offset 8
	.cfi_restore %rbx
	.cfi_restore %rbp
	.cfi_restore %r12
	.cfi_restore %r13
	.cfi_restore %r14
	.cfi_restore %r15
	xorl	%r10d, %r10d
.Lnoise_BB_v3_0_5:
	movb	$1, (%rdi)
	movb	%r10b, 1(%rdi)
	movq	$0, 8(%rdi)
	retq
.Lnoise_BB_v3_0_9:
	movw	$0, (%rdi)
	movq	%r9, 8(%rdi)
	retq
.Lnoise_BB_v3_0_11:
	.cfi_def_cfa_offset 448
	.cfi_offset %rbx, -56
	.cfi_offset %rbp, -16
	.cfi_offset %r12, -48
	.cfi_offset %r13, -40
	.cfi_offset %r14, -32
	.cfi_offset %r15, -24
	movq	8(%rsp), %rax
	movw	$257, (%rax)
	movq	$0, 8(%rax)
.Lnoise_BB_v3_0_12:
	addq	$392, %rsp
	.cfi_def_cfa_offset 56
	popq	%rbx
	.cfi_def_cfa_offset 48
	popq	%r12
	.cfi_def_cfa_offset 40
	popq	%r13
	.cfi_def_cfa_offset 32
	popq	%r14
	.cfi_def_cfa_offset 24
	popq	%r15
	.cfi_def_cfa_offset 16
	popq	%rbp
	.cfi_def_cfa_offset 8
	.cfi_restore %rbx
	.cfi_restore %r12
	.cfi_restore %r13
	.cfi_restore %r14
	.cfi_restore %r15
	.cfi_restore %rbp
	retq
.Lnoise_func_end_v3_0:
	.size	"noise_state::cipher::CipherState::decrypt.v3", .Lnoise_func_end_v3_0-"noise_state::cipher::CipherState::decrypt.v3"
	.cfi_endproc

	.section	.rodata.cst32,"aM",@progbits,32
	.p2align	5, 0x0
.Lnoise_CPI_v3_6_0:
	.byte	255
	.byte	255
	.byte	255
	.byte	255
	.byte	255
	.byte	255
	.byte	255
	.byte	255
	.byte	255
	.byte	255
	.byte	255
	.byte	255
	.byte	255
	.byte	255
	.byte	255
	.byte	255
	.byte	255
	.byte	255
	.byte	255
	.byte	255
	.byte	255
	.byte	255
	.byte	255
	.byte	255
	.byte	255
	.byte	255
	.byte	255
	.byte	255
	.byte	255
	.byte	0
	.byte	0
	.byte	0
	.section	.rodata.cst32,"aM",@progbits,32
	.p2align	5, 0x0
.Lnoise_CPI_v3_6_1:
	.byte	0
	.byte	0
	.byte	0
	.byte	0
	.byte	0
	.byte	0
	.byte	0
	.byte	0
	.byte	0
	.byte	0
	.byte	0
	.byte	0
	.byte	0
	.byte	0
	.byte	0
	.byte	0
	.byte	0
	.byte	0
	.byte	0
	.byte	0
	.byte	0
	.byte	0
	.byte	0
	.byte	0
	.byte	0
	.byte	0
	.byte	0
	.byte	0
	.byte	0
	.byte	255
	.byte	255
	.byte	255
	.section	".text.noise_aead::keystream::apply","ax",@progbits
	.p2align	4
	.type	"noise_aead::keystream::apply.v3",@function
"noise_aead::keystream::apply.v3":
	.cfi_startproc
	pushq	%rbp
	.cfi_def_cfa_offset 16
	pushq	%r15
	.cfi_def_cfa_offset 24
	pushq	%r14
	.cfi_def_cfa_offset 32
	pushq	%r13
	.cfi_def_cfa_offset 40
	pushq	%r12
	.cfi_def_cfa_offset 48
	pushq	%rbx
	.cfi_def_cfa_offset 56
	subq	$168, %rsp
	.cfi_def_cfa_offset 224
	.cfi_offset %rbx, -56
	.cfi_offset %r12, -48
	.cfi_offset %r13, -40
	.cfi_offset %r14, -32
	.cfi_offset %r15, -24
	.cfi_offset %rbp, -16
	movq	%rsi, 72(%rsp)
	movq	%rdi, %r15
	movq	%rdx, 80(%rsp)
	movq	%rdx, %rax
	shrq	$6, %rax
	cmpq	$3, %rax
	movl	$3, %edx
	cmovbq	%rax, %rdx
	movq	%rax, %rcx
	movq	%rdx, 56(%rsp)
	subq	%rdx, %rcx
	movq	%rcx, 64(%rsp)
	movq	%rcx, %r14
	shrq	$2, %r14
	testq	%rax, %rax
	je	.Lnoise_BB_v3_6_4
	leaq	48(%r15), %rcx
	movq	56(%rsp), %rbx
	movq	72(%rsp), %r12
	movq	%r14, 24(%rsp)
	.p2align	4
.Lnoise_BB_v3_6_2:
	movq	304(%r15), %rsi
	cmpq	$64, %rsi
	jb	.Lnoise_BB_v3_6_11
	movq	32(%r15), %rdx
	movq	40(%r15), %rsi
	movq	%r15, %rdi
	movq	%rcx, %r13
	vzeroupper
	callq	"rand_chacha::guts::refill4.v3"
	addq	$4, 40(%r15)
	movl	48(%r15), %edi
	movl	$1, %eax
	jmp	.Lnoise_BB_v3_6_13
	.p2align	4
.Lnoise_BB_v3_6_11:
	movl	48(%r15,%rsi,4), %edi
	leaq	1(%rsi), %rax
	movq	%rax, 304(%r15)
	cmpq	$63, %rsi
	jne	.Lnoise_BB_v3_6_14
	movq	32(%r15), %rdx
	movq	40(%r15), %rsi
	movl	%edi, %ebp
	movq	%r15, %rdi
	movq	%rcx, %r13
	vzeroupper
	callq	"rand_chacha::guts::refill4.v3"
	movl	%ebp, %edi
	addq	$4, 40(%r15)
	xorl	%eax, %eax
.Lnoise_BB_v3_6_13:
	movl	(%r13,%rax,4), %r8d
	movl	4(%r13,%rax,4), %r9d
	leaq	8(,%rax,4), %rdx
	addq	%r13, %rdx
	addq	$3, %rax
	movq	%r13, %rcx
.Lnoise_BB_v3_6_19:
	movl	(%rdx), %r10d
	movq	%rax, 304(%r15)
	movl	48(%r15,%rax,4), %r11d
	leaq	1(%rax), %rdx
	movq	%rdx, 304(%r15)
	addq	$2, %rax
.Lnoise_BB_v3_6_20:
	movl	48(%r15,%rdx,4), %esi
	movq	%rax, 304(%r15)
	movl	48(%r15,%rax,4), %edx
	movl	%edx, 44(%rsp)
	leaq	1(%rax), %rdx
	movq	%rdx, 304(%r15)
	addq	$2, %rax
.Lnoise_BB_v3_6_21:
	movl	48(%r15,%rdx,4), %edx
	movl	%edx, 52(%rsp)
	movq	%rax, 304(%r15)
	movl	48(%r15,%rax,4), %edx
	movl	%edx, 40(%rsp)
	leaq	1(%rax), %rdx
	movq	%rdx, 304(%r15)
	addq	$2, %rax
.Lnoise_BB_v3_6_22:
	movl	48(%r15,%rdx,4), %edx
	movl	%edx, 48(%rsp)
	movq	%rax, 304(%r15)
	movl	48(%r15,%rax,4), %edx
	movl	%edx, 36(%rsp)
	leaq	1(%rax), %rdx
	movq	%rdx, 304(%r15)
	addq	$2, %rax
.Lnoise_BB_v3_6_23:
	movl	48(%r15,%rdx,4), %edx
	movl	%edx, 8(%rsp)
	movq	%rax, 304(%r15)
	movl	48(%r15,%rax,4), %ebp
	leaq	1(%rax), %rdx
	movq	%rdx, 304(%r15)
	addq	$2, %rax
.Lnoise_BB_v3_6_24:
	movl	48(%r15,%rdx,4), %r13d
	movq	%rax, 304(%r15)
	movl	48(%r15,%rax,4), %r14d
	incq	%rax
	movq	%rax, 304(%r15)
.Lnoise_BB_v3_6_54:
	vmovd	%r11d, %xmm0
	vpinsrd	$1, %esi, %xmm0, %xmm0
	vpinsrd	$2, 44(%rsp), %xmm0, %xmm0
	vpinsrd	$3, 52(%rsp), %xmm0, %xmm0
	vmovd	%edi, %xmm1
	vpinsrd	$1, %r8d, %xmm1, %xmm1
	vpinsrd	$2, %r9d, %xmm1, %xmm1
	vpinsrd	$3, %r10d, %xmm1, %xmm1
	vmovd	%ebp, %xmm2
	vpinsrd	$1, %r13d, %xmm2, %xmm2
	movl	48(%r15,%rax,4), %edx
	incq	%rax
	movq	%rax, 304(%r15)
	vpinsrd	$2, %r14d, %xmm2, %xmm2
	vmovd	40(%rsp), %xmm3
	vpinsrd	$1, 48(%rsp), %xmm3, %xmm3
	vpinsrd	$2, 36(%rsp), %xmm3, %xmm3
	vpinsrd	$3, 8(%rsp), %xmm3, %xmm3
	vpinsrd	$3, %edx, %xmm2, %xmm2
	vpinsrb	$12, %edx, %xmm2, %xmm4
	vinserti128	$1, %xmm0, %ymm1, %ymm0
	vinserti128	$1, %xmm2, %ymm3, %ymm1
	vinserti128	$1, %xmm4, %ymm3, %ymm2
	vmovdqa	.Lnoise_CPI_v3_6_0(%rip), %ymm3
	vpblendvb	%ymm3, %ymm2, %ymm1, %ymm1
	vpxor	32(%r12), %ymm1, %ymm1
	vpxor	(%r12), %ymm0, %ymm0
	vmovdqu	%ymm0, (%r12)
	vmovdqu	%ymm1, 32(%r12)
	addq	$64, %r12
	decq	%rbx
	movq	24(%rsp), %r14
	jne	.Lnoise_BB_v3_6_2
	jmp	.Lnoise_BB_v3_6_4
	.p2align	4
.Lnoise_BB_v3_6_14:
	movl	52(%r15,%rsi,4), %r8d
	leaq	2(%rsi), %rax
	movq	%rax, 304(%r15)
	cmpq	$62, %rsi
	jb	.Lnoise_BB_v3_6_16
	movl	%r8d, 4(%rsp)
	movl	%edi, %ebp
	movq	32(%r15), %rdx
	movq	40(%r15), %rsi
	movq	%r15, %rdi
	movq	%rcx, %r13
	vzeroupper
	callq	"rand_chacha::guts::refill4.v3"
	addq	$4, 40(%r15)
	movl	48(%r15), %r9d
	movl	$1, %eax
	jmp	.Lnoise_BB_v3_6_18
.Lnoise_BB_v3_6_16:
	movl	56(%r15,%rsi,4), %r9d
	leaq	3(%rsi), %rdx
	movq	%rdx, 304(%r15)
	cmpq	$61, %rsi
	movl	%r9d, (%rsp)
	jne	.Lnoise_BB_v3_6_25
	movl	%r8d, 4(%rsp)
	movl	%edi, %ebp
	movq	32(%r15), %rdx
	movq	40(%r15), %rsi
	movq	%r15, %rdi
	movq	%rcx, %r13
	vzeroupper
	callq	"rand_chacha::guts::refill4.v3"
	movl	(%rsp), %r9d
	addq	$4, 40(%r15)
	xorl	%eax, %eax
.Lnoise_BB_v3_6_18:
	leaq	(,%rax,4), %rdx
	addq	%r13, %rdx
	incq	%rax
	movq	%r13, %rcx
	movl	%ebp, %edi
	movl	4(%rsp), %r8d
	jmp	.Lnoise_BB_v3_6_19
.Lnoise_BB_v3_6_25:
	movl	60(%r15,%rsi,4), %r10d
	leaq	4(%rsi), %rdx
	movq	%rdx, 304(%r15)
	cmpq	$62, %rax
	movl	%edi, 12(%rsp)
	jne	.Lnoise_BB_v3_6_27
	movq	32(%r15), %rdx
	movq	40(%r15), %rsi
	movq	%r15, %rdi
	movl	%r8d, %ebp
	movl	%r10d, %r13d
	vzeroupper
	callq	"rand_chacha::guts::refill4.v3"
	movl	%r13d, %r10d
	movl	(%rsp), %r9d
	movl	%ebp, %r8d
	movl	12(%rsp), %edi
	leaq	48(%r15), %rcx
	addq	$4, 40(%r15)
	movl	48(%r15), %r11d
	movl	$1, %edx
	leaq	1(%rdx), %rax
	jmp	.Lnoise_BB_v3_6_20
.Lnoise_BB_v3_6_27:
	movl	64(%r15,%rsi,4), %r11d
	leaq	5(%rsi), %rax
	movq	%rax, 304(%r15)
	cmpq	$59, %rsi
	movl	%r11d, 16(%rsp)
	jb	.Lnoise_BB_v3_6_29
	movq	32(%r15), %rdx
	movq	40(%r15), %rsi
	movq	%r15, %rdi
	movl	%r8d, %ebp
	movl	%r10d, %r13d
	vzeroupper
	callq	"rand_chacha::guts::refill4.v3"
	movl	16(%rsp), %r11d
	movl	%r13d, %r10d
	movl	(%rsp), %r9d
	movl	%ebp, %r8d
	movl	12(%rsp), %edi
	leaq	48(%r15), %rcx
	addq	$4, 40(%r15)
	xorl	%edx, %edx
	leaq	1(%rdx), %rax
	jmp	.Lnoise_BB_v3_6_20
.Lnoise_BB_v3_6_29:
	movl	68(%r15,%rsi,4), %eax
	movl	%eax, 20(%rsp)
	leaq	6(%rsi), %rax
	movq	%rax, 304(%r15)
	cmpq	$62, %rdx
	jne	.Lnoise_BB_v3_6_31
	movq	32(%r15), %rdx
	movq	40(%r15), %rsi
	movq	%r15, %rdi
	movl	%r8d, %ebp
	movl	%r10d, %r13d
	vzeroupper
	callq	"rand_chacha::guts::refill4.v3"
	movl	16(%rsp), %r11d
	movl	%r13d, %r10d
	movl	(%rsp), %r9d
	movl	%ebp, %r8d
	movl	12(%rsp), %edi
	leaq	48(%r15), %rcx
	addq	$4, 40(%r15)
	movl	48(%r15), %eax
	movl	%eax, 44(%rsp)
	movl	$1, %edx
	jmp	.Lnoise_BB_v3_6_33
.Lnoise_BB_v3_6_31:
	movl	72(%r15,%rsi,4), %edx
	movl	%edx, 44(%rsp)
	leaq	7(%rsi), %rdx
	movq	%rdx, 304(%r15)
	cmpq	$57, %rsi
	jb	.Lnoise_BB_v3_6_34
	movq	32(%r15), %rdx
	movq	40(%r15), %rsi
	movq	%r15, %rdi
	movl	%r8d, %ebp
	movl	%r10d, %r13d
	vzeroupper
	callq	"rand_chacha::guts::refill4.v3"
	movl	16(%rsp), %r11d
	movl	%r13d, %r10d
	movl	(%rsp), %r9d
	movl	%ebp, %r8d
	movl	12(%rsp), %edi
	leaq	48(%r15), %rcx
	addq	$4, 40(%r15)
	xorl	%edx, %edx
.Lnoise_BB_v3_6_33:
	leaq	1(%rdx), %rax
	movl	20(%rsp), %esi
	jmp	.Lnoise_BB_v3_6_21
.Lnoise_BB_v3_6_34:
	movl	76(%r15,%rsi,4), %edx
	movl	%edx, 52(%rsp)
	leaq	8(%rsi), %rdx
	movq	%rdx, 304(%r15)
	cmpq	$62, %rax
	jne	.Lnoise_BB_v3_6_36
	movq	32(%r15), %rdx
	movq	40(%r15), %rsi
	movq	%r15, %rdi
	movl	%r8d, %ebp
	movl	%r10d, %r13d
	vzeroupper
	callq	"rand_chacha::guts::refill4.v3"
	movl	16(%rsp), %r11d
	movl	%r13d, %r10d
	movl	(%rsp), %r9d
	movl	%ebp, %r8d
	movl	12(%rsp), %edi
	leaq	48(%r15), %rcx
	addq	$4, 40(%r15)
	movl	48(%r15), %eax
	movl	%eax, 40(%rsp)
	movl	$1, %edx
	jmp	.Lnoise_BB_v3_6_38
.Lnoise_BB_v3_6_36:
	movl	80(%r15,%rsi,4), %eax
	movl	%eax, 40(%rsp)
	leaq	9(%rsi), %rax
	movq	%rax, 304(%r15)
	cmpq	$55, %rsi
	jb	.Lnoise_BB_v3_6_39
	movq	32(%r15), %rdx
	movq	40(%r15), %rsi
	movq	%r15, %rdi
	movl	%r8d, %ebp
	movl	%r10d, %r13d
	vzeroupper
	callq	"rand_chacha::guts::refill4.v3"
	movl	16(%rsp), %r11d
	movl	%r13d, %r10d
	movl	(%rsp), %r9d
	movl	%ebp, %r8d
	movl	12(%rsp), %edi
	leaq	48(%r15), %rcx
	addq	$4, 40(%r15)
	xorl	%edx, %edx
.Lnoise_BB_v3_6_38:
	leaq	1(%rdx), %rax
	movl	20(%rsp), %esi
	jmp	.Lnoise_BB_v3_6_22
.Lnoise_BB_v3_6_39:
	movl	84(%r15,%rsi,4), %eax
	movl	%eax, 48(%rsp)
	leaq	10(%rsi), %rax
	movq	%rax, 304(%r15)
	cmpq	$62, %rdx
	jne	.Lnoise_BB_v3_6_41
	movq	32(%r15), %rdx
	movq	40(%r15), %rsi
	movq	%r15, %rdi
	movl	%r8d, %ebp
	movl	%r10d, %r13d
	vzeroupper
	callq	"rand_chacha::guts::refill4.v3"
	movl	16(%rsp), %r11d
	movl	%r13d, %r10d
	movl	(%rsp), %r9d
	movl	%ebp, %r8d
	movl	12(%rsp), %edi
	leaq	48(%r15), %rcx
	addq	$4, 40(%r15)
	movl	48(%r15), %eax
	movl	%eax, 36(%rsp)
	movl	$1, %edx
	jmp	.Lnoise_BB_v3_6_43
.Lnoise_BB_v3_6_41:
	movl	88(%r15,%rsi,4), %edx
	movl	%edx, 36(%rsp)
	leaq	11(%rsi), %rdx
	movq	%rdx, 304(%r15)
	cmpq	$53, %rsi
	jb	.Lnoise_BB_v3_6_44
	movq	32(%r15), %rdx
	movq	40(%r15), %rsi
	movq	%r15, %rdi
	movl	%r8d, %ebp
	movl	%r10d, %r13d
	vzeroupper
	callq	"rand_chacha::guts::refill4.v3"
	movl	16(%rsp), %r11d
	movl	%r13d, %r10d
	movl	(%rsp), %r9d
	movl	%ebp, %r8d
	movl	12(%rsp), %edi
	leaq	48(%r15), %rcx
	addq	$4, 40(%r15)
	xorl	%edx, %edx
.Lnoise_BB_v3_6_43:
	leaq	1(%rdx), %rax
	movl	20(%rsp), %esi
	jmp	.Lnoise_BB_v3_6_23
.Lnoise_BB_v3_6_44:
	movl	92(%r15,%rsi,4), %edx
	movl	%edx, 8(%rsp)
	leaq	12(%rsi), %rdx
	movq	%rdx, 304(%r15)
	cmpq	$62, %rax
	jne	.Lnoise_BB_v3_6_46
	movq	32(%r15), %rdx
	movq	40(%r15), %rsi
	movq	%r15, %rdi
	movq	%rcx, %r14
	movl	%r8d, %r13d
	movl	%r10d, %ebp
	vzeroupper
	callq	"rand_chacha::guts::refill4.v3"
	movl	16(%rsp), %r11d
	movl	%ebp, %r10d
	movl	(%rsp), %r9d
	movl	%r13d, %r8d
	movl	12(%rsp), %edi
	movq	%r14, %rcx
	addq	$4, 40(%r15)
	movl	48(%r15), %ebp
	movl	$1, %edx
	jmp	.Lnoise_BB_v3_6_48
.Lnoise_BB_v3_6_46:
	movl	96(%r15,%rsi,4), %ebp
	leaq	13(%rsi), %rax
	movq	%rax, 304(%r15)
	cmpq	$51, %rsi
	jb	.Lnoise_BB_v3_6_49
	movq	32(%r15), %rdx
	movq	40(%r15), %rsi
	movq	%r15, %rdi
	movl	%r8d, %r13d
	movl	%r10d, %r14d
	vzeroupper
	callq	"rand_chacha::guts::refill4.v3"
	movl	16(%rsp), %r11d
	movl	%r14d, %r10d
	movl	(%rsp), %r9d
	movl	%r13d, %r8d
	movl	12(%rsp), %edi
	leaq	48(%r15), %rcx
	addq	$4, 40(%r15)
	xorl	%edx, %edx
.Lnoise_BB_v3_6_48:
	leaq	1(%rdx), %rax
	movl	20(%rsp), %esi
	jmp	.Lnoise_BB_v3_6_24
.Lnoise_BB_v3_6_49:
	movl	100(%r15,%rsi,4), %r13d
	leaq	14(%rsi), %rax
	movq	%rax, 304(%r15)
	cmpq	$62, %rdx
	jne	.Lnoise_BB_v3_6_51
	movq	32(%r15), %rdx
	movq	40(%r15), %rsi
	movq	%r15, %rdi
	movl	%r8d, 4(%rsp)
	movl	%r10d, %r14d
	vzeroupper
	callq	"rand_chacha::guts::refill4.v3"
	movl	16(%rsp), %r11d
	movl	%r14d, %r10d
	movl	(%rsp), %r9d
	movl	4(%rsp), %r8d
	movl	12(%rsp), %edi
	leaq	48(%r15), %rcx
	addq	$4, 40(%r15)
	movl	48(%r15), %r14d
	movq	$1, 304(%r15)
	movl	$1, %eax
	jmp	.Lnoise_BB_v3_6_53
.Lnoise_BB_v3_6_51:
	movl	104(%r15,%rsi,4), %r14d
	leaq	15(%rsi), %rax
	movq	%rax, 304(%r15)
	cmpq	$49, %rsi
	jb	.Lnoise_BB_v3_6_53
	movq	32(%r15), %rdx
	movq	40(%r15), %rsi
	movq	%r15, %rdi
	movl	%r8d, 4(%rsp)
	movl	%r10d, 92(%rsp)
	vzeroupper
	callq	"rand_chacha::guts::refill4.v3"
	movl	16(%rsp), %r11d
	movl	92(%rsp), %r10d
	movl	(%rsp), %r9d
	movl	4(%rsp), %r8d
	movl	12(%rsp), %edi
	leaq	48(%r15), %rcx
	addq	$4, 40(%r15)
	xorl	%eax, %eax
.Lnoise_BB_v3_6_53:
	movl	20(%rsp), %esi
	jmp	.Lnoise_BB_v3_6_54
.Lnoise_BB_v3_6_4:
	testq	%r14, %r14
	je	.Lnoise_BB_v3_6_7
	movq	56(%rsp), %rbx
	shll	$6, %ebx
	addq	72(%rsp), %rbx
	leaq	48(%r15), %r12
	.p2align	4
.Lnoise_BB_v3_6_6:
	movq	32(%r15), %rdx
	movq	40(%r15), %rax
	movq	304(%r15), %rcx
	shrq	$4, %rcx
	leaq	(%rax,%rcx), %rsi
	addq	$-4, %rsi
	movq	%rsi, 40(%r15)
	vpxor	%xmm0, %xmm0, %xmm0
	vmovdqu	%ymm0, 224(%r12)
	vmovdqu	%ymm0, 192(%r12)
	vmovdqu	%ymm0, 160(%r12)
	vmovdqu	%ymm0, 128(%r12)
	vmovdqu	%ymm0, 96(%r12)
	vmovdqu	%ymm0, 64(%r12)
	vmovdqu	%ymm0, 32(%r12)
	vmovdqu	%ymm0, (%r12)
	movq	$64, 304(%r15)
	movq	%r15, %rdi
	movq	%r12, %rcx
	vzeroupper
	callq	"rand_chacha::guts::refill4.v3"
	addq	$4, 40(%r15)
	vmovdqu	80(%r15), %ymm2
	vmovdqu	144(%r15), %ymm3
	vmovdqu	208(%r15), %ymm1
	vmovdqu	272(%r15), %ymm0
	movq	$64, 304(%r15)
	vmovdqu	96(%r15), %xmm4
	vpinsrb	$12, 108(%r15), %xmm4, %xmm4
	vinserti128	$1, %xmm4, %ymm2, %ymm4
	vmovdqa	.Lnoise_CPI_v3_6_1(%rip), %ymm5
	vpblendvb	%ymm5, %ymm2, %ymm4, %ymm2
	vpxor	32(%rbx), %ymm2, %ymm2
	vmovdqu	(%rbx), %ymm4
	vmovups	64(%rbx), %ymm6
	vpxor	48(%r15), %ymm4, %ymm4
	vmovdqu	160(%r15), %xmm7
	vpinsrb	$12, 172(%r15), %xmm7, %xmm7
	vxorps	112(%r15), %ymm6, %ymm6
	vmovups	128(%rbx), %ymm8
	vmovdqu	224(%r15), %xmm9
	vpinsrb	$12, 236(%r15), %xmm9, %xmm9
	vmovups	192(%rbx), %ymm10
	vxorps	176(%r15), %ymm8, %ymm8
	vmovdqu	288(%r15), %xmm11
	vpinsrb	$12, 300(%r15), %xmm11, %xmm11
	vxorps	240(%r15), %ymm10, %ymm10
	vmovdqu	%ymm4, (%rbx)
	vmovdqu	%ymm2, 32(%rbx)
	vinserti128	$1, %xmm7, %ymm3, %ymm2
	vpblendvb	%ymm5, %ymm3, %ymm2, %ymm2
	vpxor	96(%rbx), %ymm2, %ymm2
	vmovups	%ymm6, 64(%rbx)
	vmovdqu	%ymm2, 96(%rbx)
	vinserti128	$1, %xmm9, %ymm1, %ymm2
	vpblendvb	%ymm5, %ymm1, %ymm2, %ymm1
	vpxor	160(%rbx), %ymm1, %ymm1
	vmovups	%ymm8, 128(%rbx)
	vmovdqu	%ymm1, 160(%rbx)
	vinserti128	$1, %xmm11, %ymm0, %ymm1
	vpblendvb	%ymm5, %ymm0, %ymm1, %ymm0
	vpxor	224(%rbx), %ymm0, %ymm0
	vmovups	%ymm10, 192(%rbx)
	vmovdqu	%ymm0, 224(%rbx)
	addq	$256, %rbx
	decq	%r14
	jne	.Lnoise_BB_v3_6_6
.Lnoise_BB_v3_6_7:
	movabsq	$288230376151711740, %rax
	movq	64(%rsp), %rcx
	andq	%rax, %rcx
	movq	%rcx, %rax
	orq	56(%rsp), %rax
	shlq	$6, %rax
	movq	80(%rsp), %r13
	subq	%rax, %r13
	shrq	$6, %r13
	je	.Lnoise_BB_v3_6_99
	addq	72(%rsp), %rax
	leaq	48(%r15), %rcx
	.p2align	4
.Lnoise_BB_v3_6_9:
	movq	%rax, 64(%rsp)
	movq	304(%r15), %rsi
	cmpq	$64, %rsi
	jb	.Lnoise_BB_v3_6_55
	movq	32(%r15), %rdx
	movq	40(%r15), %rsi
	movq	%r15, %rdi
	movq	%rcx, %rbx
	vzeroupper
	callq	"rand_chacha::guts::refill4.v3"
	addq	$4, 40(%r15)
	movl	48(%r15), %edi
	movl	$1, %eax
	jmp	.Lnoise_BB_v3_6_57
	.p2align	4
.Lnoise_BB_v3_6_55:
	movl	48(%r15,%rsi,4), %edi
	leaq	1(%rsi), %rax
	movq	%rax, 304(%r15)
	cmpq	$63, %rsi
	jne	.Lnoise_BB_v3_6_58
	movq	32(%r15), %rdx
	movq	40(%r15), %rsi
	movl	%edi, %ebp
	movq	%r15, %rdi
	movq	%rcx, %rbx
	vzeroupper
	callq	"rand_chacha::guts::refill4.v3"
	movl	%ebp, %edi
	addq	$4, 40(%r15)
	xorl	%eax, %eax
.Lnoise_BB_v3_6_57:
	movl	(%rbx,%rax,4), %r8d
	movl	4(%rbx,%rax,4), %r9d
	leaq	(%rbx,%rax,4), %rdx
	addq	$8, %rdx
	addq	$3, %rax
	movq	%rbx, %rcx
.Lnoise_BB_v3_6_63:
	movl	(%rdx), %r10d
	movq	%rax, 304(%r15)
	movl	48(%r15,%rax,4), %r11d
	leaq	1(%rax), %rdx
	movq	%rdx, 304(%r15)
	addq	$2, %rax
.Lnoise_BB_v3_6_64:
	movl	48(%r15,%rdx,4), %esi
	movq	%rax, 304(%r15)
	movl	48(%r15,%rax,4), %edx
	movl	%edx, 44(%rsp)
	leaq	1(%rax), %rdx
	movq	%rdx, 304(%r15)
	addq	$2, %rax
.Lnoise_BB_v3_6_65:
	movl	48(%r15,%rdx,4), %edx
	movl	%edx, 52(%rsp)
	movq	%rax, 304(%r15)
	movl	48(%r15,%rax,4), %edx
	movl	%edx, 40(%rsp)
	leaq	1(%rax), %rdx
	movq	%rdx, 304(%r15)
	addq	$2, %rax
.Lnoise_BB_v3_6_66:
	movl	48(%r15,%rdx,4), %edx
	movl	%edx, 48(%rsp)
	movq	%rax, 304(%r15)
	movl	48(%r15,%rax,4), %edx
	movl	%edx, 36(%rsp)
	leaq	1(%rax), %rdx
	movq	%rdx, 304(%r15)
	addq	$2, %rax
.Lnoise_BB_v3_6_67:
	movl	48(%r15,%rdx,4), %ebx
	movq	%rax, 304(%r15)
	movl	48(%r15,%rax,4), %ebp
	leaq	1(%rax), %rdx
	movq	%rdx, 304(%r15)
	addq	$2, %rax
.Lnoise_BB_v3_6_68:
	movl	48(%r15,%rdx,4), %r14d
	movq	%rax, 304(%r15)
	movl	48(%r15,%rax,4), %r12d
	incq	%rax
	movq	%rax, 304(%r15)
.Lnoise_BB_v3_6_98:
	vmovd	%r11d, %xmm0
	vpinsrd	$1, %esi, %xmm0, %xmm0
	vpinsrd	$2, 44(%rsp), %xmm0, %xmm0
	vpinsrd	$3, 52(%rsp), %xmm0, %xmm0
	vmovd	%edi, %xmm1
	vpinsrd	$1, %r8d, %xmm1, %xmm1
	vpinsrd	$2, %r9d, %xmm1, %xmm1
	vpinsrd	$3, %r10d, %xmm1, %xmm1
	vmovd	%ebp, %xmm2
	vpinsrd	$1, %r14d, %xmm2, %xmm2
	movl	48(%r15,%rax,4), %edx
	incq	%rax
	movq	%rax, 304(%r15)
	vpinsrd	$2, %r12d, %xmm2, %xmm2
	vmovd	40(%rsp), %xmm3
	vpinsrd	$1, 48(%rsp), %xmm3, %xmm3
	vpinsrd	$2, 36(%rsp), %xmm3, %xmm3
	vpinsrd	$3, %ebx, %xmm3, %xmm3
	vpinsrd	$3, %edx, %xmm2, %xmm2
	vpinsrb	$12, %edx, %xmm2, %xmm4
	vinserti128	$1, %xmm0, %ymm1, %ymm0
	vinserti128	$1, %xmm2, %ymm3, %ymm1
	vinserti128	$1, %xmm4, %ymm3, %ymm2
	vmovdqa	.Lnoise_CPI_v3_6_0(%rip), %ymm3
	vpblendvb	%ymm3, %ymm2, %ymm1, %ymm1
	movq	64(%rsp), %rax
	vpxor	32(%rax), %ymm1, %ymm1
	vpxor	(%rax), %ymm0, %ymm0
	vmovdqu	%ymm0, (%rax)
	vmovdqu	%ymm1, 32(%rax)
	addq	$64, %rax
	decq	%r13
	jne	.Lnoise_BB_v3_6_9
	jmp	.Lnoise_BB_v3_6_99
	.p2align	4
.Lnoise_BB_v3_6_58:
	movl	52(%r15,%rsi,4), %r8d
	leaq	2(%rsi), %rax
	movq	%rax, 304(%r15)
	cmpq	$62, %rsi
	jb	.Lnoise_BB_v3_6_60
	movl	%r8d, %r14d
	movl	%edi, %ebp
	movq	32(%r15), %rdx
	movq	40(%r15), %rsi
	movq	%r15, %rdi
	movq	%rcx, %rbx
	vzeroupper
	callq	"rand_chacha::guts::refill4.v3"
	addq	$4, 40(%r15)
	movl	48(%r15), %r9d
	movl	$1, %eax
	jmp	.Lnoise_BB_v3_6_62
.Lnoise_BB_v3_6_60:
	movl	56(%r15,%rsi,4), %r9d
	leaq	3(%rsi), %rdx
	movq	%rdx, 304(%r15)
	cmpq	$61, %rsi
	jne	.Lnoise_BB_v3_6_69
	movl	%r8d, %r14d
	movl	%edi, %ebp
	movq	32(%r15), %rdx
	movq	40(%r15), %rsi
	movq	%r15, %rdi
	movq	%rcx, %rbx
	movl	%r9d, %r12d
	vzeroupper
	callq	"rand_chacha::guts::refill4.v3"
	movl	%r12d, %r9d
	addq	$4, 40(%r15)
	xorl	%eax, %eax
.Lnoise_BB_v3_6_62:
	leaq	(%rbx,%rax,4), %rdx
	incq	%rax
	movq	%rbx, %rcx
	movl	%ebp, %edi
	movl	%r14d, %r8d
	jmp	.Lnoise_BB_v3_6_63
.Lnoise_BB_v3_6_69:
	movl	60(%r15,%rsi,4), %r10d
	leaq	4(%rsi), %rdx
	movq	%rdx, 304(%r15)
	cmpq	$62, %rax
	movl	%edi, 8(%rsp)
	jne	.Lnoise_BB_v3_6_71
	movq	32(%r15), %rdx
	movq	40(%r15), %rsi
	movq	%r15, %rdi
	movq	%rcx, %rbx
	movl	%r8d, %r14d
	movl	%r9d, %r12d
	movl	%r10d, %ebp
	vzeroupper
	callq	"rand_chacha::guts::refill4.v3"
	movl	%ebp, %r10d
	movl	%r12d, %r9d
	movl	%r14d, %r8d
	movl	8(%rsp), %edi
	movq	%rbx, %rcx
	addq	$4, 40(%r15)
	movl	48(%r15), %r11d
	movl	$1, %edx
	leaq	1(%rdx), %rax
	jmp	.Lnoise_BB_v3_6_64
.Lnoise_BB_v3_6_71:
	movl	64(%r15,%rsi,4), %r11d
	leaq	5(%rsi), %rax
	movq	%rax, 304(%r15)
	cmpq	$59, %rsi
	movl	%r11d, 24(%rsp)
	jb	.Lnoise_BB_v3_6_73
	movq	32(%r15), %rdx
	movq	40(%r15), %rsi
	movq	%r15, %rdi
	movq	%rcx, %rbx
	movl	%r8d, %r14d
	movl	%r9d, %r12d
	movl	%r10d, %ebp
	vzeroupper
	callq	"rand_chacha::guts::refill4.v3"
	movl	24(%rsp), %r11d
	movl	%ebp, %r10d
	movl	%r12d, %r9d
	movl	%r14d, %r8d
	movl	8(%rsp), %edi
	movq	%rbx, %rcx
	addq	$4, 40(%r15)
	xorl	%edx, %edx
	leaq	1(%rdx), %rax
	jmp	.Lnoise_BB_v3_6_64
.Lnoise_BB_v3_6_73:
	movl	68(%r15,%rsi,4), %eax
	movl	%eax, 4(%rsp)
	leaq	6(%rsi), %rax
	movq	%rax, 304(%r15)
	cmpq	$62, %rdx
	jne	.Lnoise_BB_v3_6_75
	movq	32(%r15), %rdx
	movq	40(%r15), %rsi
	movq	%r15, %rdi
	movq	%rcx, %rbx
	movl	%r8d, %r14d
	movl	%r9d, %r12d
	movl	%r10d, %ebp
	vzeroupper
	callq	"rand_chacha::guts::refill4.v3"
	movl	24(%rsp), %r11d
	movl	%ebp, %r10d
	movl	%r12d, %r9d
	movl	%r14d, %r8d
	movl	8(%rsp), %edi
	movq	%rbx, %rcx
	addq	$4, 40(%r15)
	movl	48(%r15), %eax
	movl	%eax, 44(%rsp)
	movl	$1, %edx
	jmp	.Lnoise_BB_v3_6_77
.Lnoise_BB_v3_6_75:
	movl	72(%r15,%rsi,4), %edx
	movl	%edx, 44(%rsp)
	leaq	7(%rsi), %rdx
	movq	%rdx, 304(%r15)
	cmpq	$57, %rsi
	jb	.Lnoise_BB_v3_6_78
	movq	32(%r15), %rdx
	movq	40(%r15), %rsi
	movq	%r15, %rdi
	movq	%rcx, %rbx
	movl	%r8d, %r14d
	movl	%r9d, %r12d
	movl	%r10d, %ebp
	vzeroupper
	callq	"rand_chacha::guts::refill4.v3"
	movl	24(%rsp), %r11d
	movl	%ebp, %r10d
	movl	%r12d, %r9d
	movl	%r14d, %r8d
	movl	8(%rsp), %edi
	movq	%rbx, %rcx
	addq	$4, 40(%r15)
	xorl	%edx, %edx
.Lnoise_BB_v3_6_77:
	leaq	1(%rdx), %rax
	movl	4(%rsp), %esi
	jmp	.Lnoise_BB_v3_6_65
.Lnoise_BB_v3_6_78:
	movl	76(%r15,%rsi,4), %edx
	movl	%edx, 52(%rsp)
	leaq	8(%rsi), %rdx
	movq	%rdx, 304(%r15)
	cmpq	$62, %rax
	jne	.Lnoise_BB_v3_6_80
	movq	32(%r15), %rdx
	movq	40(%r15), %rsi
	movq	%r15, %rdi
	movq	%rcx, %rbx
	movl	%r8d, %r14d
	movl	%r9d, %r12d
	movl	%r10d, %ebp
	vzeroupper
	callq	"rand_chacha::guts::refill4.v3"
	movl	24(%rsp), %r11d
	movl	%ebp, %r10d
	movl	%r12d, %r9d
	movl	%r14d, %r8d
	movl	8(%rsp), %edi
	movq	%rbx, %rcx
	addq	$4, 40(%r15)
	movl	48(%r15), %eax
	movl	%eax, 40(%rsp)
	movl	$1, %edx
	jmp	.Lnoise_BB_v3_6_82
.Lnoise_BB_v3_6_80:
	movl	80(%r15,%rsi,4), %eax
	movl	%eax, 40(%rsp)
	leaq	9(%rsi), %rax
	movq	%rax, 304(%r15)
	cmpq	$55, %rsi
	jb	.Lnoise_BB_v3_6_83
	movq	32(%r15), %rdx
	movq	40(%r15), %rsi
	movq	%r15, %rdi
	movq	%rcx, %rbx
	movl	%r8d, %r14d
	movl	%r9d, %r12d
	movl	%r10d, %ebp
	vzeroupper
	callq	"rand_chacha::guts::refill4.v3"
	movl	24(%rsp), %r11d
	movl	%ebp, %r10d
	movl	%r12d, %r9d
	movl	%r14d, %r8d
	movl	8(%rsp), %edi
	movq	%rbx, %rcx
	addq	$4, 40(%r15)
	xorl	%edx, %edx
.Lnoise_BB_v3_6_82:
	leaq	1(%rdx), %rax
	movl	4(%rsp), %esi
	jmp	.Lnoise_BB_v3_6_66
.Lnoise_BB_v3_6_83:
	movl	84(%r15,%rsi,4), %eax
	movl	%eax, 48(%rsp)
	leaq	10(%rsi), %rax
	movq	%rax, 304(%r15)
	cmpq	$62, %rdx
	jne	.Lnoise_BB_v3_6_85
	movq	32(%r15), %rdx
	movq	40(%r15), %rsi
	movq	%r15, %rdi
	movq	%rcx, %rbx
	movl	%r8d, %r14d
	movl	%r9d, %r12d
	movl	%r10d, %ebp
	vzeroupper
	callq	"rand_chacha::guts::refill4.v3"
	movl	24(%rsp), %r11d
	movl	%ebp, %r10d
	movl	%r12d, %r9d
	movl	%r14d, %r8d
	movl	8(%rsp), %edi
	movq	%rbx, %rcx
	addq	$4, 40(%r15)
	movl	48(%r15), %eax
	movl	%eax, 36(%rsp)
	movl	$1, %edx
	jmp	.Lnoise_BB_v3_6_87
.Lnoise_BB_v3_6_85:
	movl	88(%r15,%rsi,4), %edx
	movl	%edx, 36(%rsp)
	leaq	11(%rsi), %rdx
	movq	%rdx, 304(%r15)
	cmpq	$53, %rsi
	jb	.Lnoise_BB_v3_6_88
	movq	32(%r15), %rdx
	movq	40(%r15), %rsi
	movq	%r15, %rdi
	movq	%rcx, %rbx
	movl	%r8d, %r14d
	movl	%r9d, %r12d
	movl	%r10d, %ebp
	vzeroupper
	callq	"rand_chacha::guts::refill4.v3"
	movl	24(%rsp), %r11d
	movl	%ebp, %r10d
	movl	%r12d, %r9d
	movl	%r14d, %r8d
	movl	8(%rsp), %edi
	movq	%rbx, %rcx
	addq	$4, 40(%r15)
	xorl	%edx, %edx
.Lnoise_BB_v3_6_87:
	leaq	1(%rdx), %rax
	movl	4(%rsp), %esi
	jmp	.Lnoise_BB_v3_6_67
.Lnoise_BB_v3_6_88:
	movl	92(%r15,%rsi,4), %ebx
	leaq	12(%rsi), %rdx
	movq	%rdx, 304(%r15)
	cmpq	$62, %rax
	movl	%r9d, (%rsp)
	jne	.Lnoise_BB_v3_6_90
	movq	32(%r15), %rdx
	movq	40(%r15), %rsi
	movq	%r15, %rdi
	movq	%rcx, %r14
	movl	%r8d, %r12d
	movl	%r10d, %ebp
	vzeroupper
	callq	"rand_chacha::guts::refill4.v3"
	movl	24(%rsp), %r11d
	movl	%ebp, %r10d
	movl	(%rsp), %r9d
	movl	%r12d, %r8d
	movl	8(%rsp), %edi
	movq	%r14, %rcx
	addq	$4, 40(%r15)
	movl	48(%r15), %ebp
	movl	$1, %edx
	jmp	.Lnoise_BB_v3_6_92
.Lnoise_BB_v3_6_90:
	movl	96(%r15,%rsi,4), %ebp
	leaq	13(%rsi), %rax
	movq	%rax, 304(%r15)
	cmpq	$51, %rsi
	jb	.Lnoise_BB_v3_6_93
	movq	32(%r15), %rdx
	movq	40(%r15), %rsi
	movq	%r15, %rdi
	movl	%r8d, %r12d
	movl	%r10d, %r14d
	vzeroupper
	callq	"rand_chacha::guts::refill4.v3"
	movl	24(%rsp), %r11d
	movl	%r14d, %r10d
	movl	(%rsp), %r9d
	movl	%r12d, %r8d
	movl	8(%rsp), %edi
	leaq	48(%r15), %rcx
	addq	$4, 40(%r15)
	xorl	%edx, %edx
.Lnoise_BB_v3_6_92:
	leaq	1(%rdx), %rax
	movl	4(%rsp), %esi
	jmp	.Lnoise_BB_v3_6_68
.Lnoise_BB_v3_6_93:
	movl	100(%r15,%rsi,4), %r14d
	leaq	14(%rsi), %rax
	movq	%rax, 304(%r15)
	cmpq	$62, %rdx
	jne	.Lnoise_BB_v3_6_95
	movq	32(%r15), %rdx
	movq	40(%r15), %rsi
	movq	%r15, %rdi
	movl	%r8d, 56(%rsp)
	movl	%r10d, %r12d
	vzeroupper
	callq	"rand_chacha::guts::refill4.v3"
	movl	24(%rsp), %r11d
	movl	%r12d, %r10d
	movl	(%rsp), %r9d
	movl	56(%rsp), %r8d
	movl	8(%rsp), %edi
	leaq	48(%r15), %rcx
	addq	$4, 40(%r15)
	movl	48(%r15), %r12d
	movq	$1, 304(%r15)
	movl	$1, %eax
	jmp	.Lnoise_BB_v3_6_97
.Lnoise_BB_v3_6_95:
	movl	104(%r15,%rsi,4), %r12d
	leaq	15(%rsi), %rax
	movq	%rax, 304(%r15)
	cmpq	$49, %rsi
	jb	.Lnoise_BB_v3_6_97
	movq	32(%r15), %rdx
	movq	40(%r15), %rsi
	movq	%r15, %rdi
	movl	%r8d, 56(%rsp)
	movl	%r10d, 12(%rsp)
	vzeroupper
	callq	"rand_chacha::guts::refill4.v3"
	movl	24(%rsp), %r11d
	movl	12(%rsp), %r10d
	movl	(%rsp), %r9d
	movl	56(%rsp), %r8d
	movl	8(%rsp), %edi
	leaq	48(%r15), %rcx
	addq	$4, 40(%r15)
	xorl	%eax, %eax
.Lnoise_BB_v3_6_97:
	movl	4(%rsp), %esi
	jmp	.Lnoise_BB_v3_6_98
.Lnoise_BB_v3_6_99:
	movq	80(%rsp), %rax
	movq	%rax, %r13
	andq	$63, %r13
	je	.Lnoise_BB_v3_6_152
	andq	$-64, %rax
	movq	%rax, 64(%rsp)
	vpxor	%xmm0, %xmm0, %xmm0
	vmovdqu	%ymm0, 128(%rsp)
	vmovdqu	%ymm0, 96(%rsp)
	movq	304(%r15), %rcx
	cmpq	$64, %rcx
	jb	.Lnoise_BB_v3_6_102
	movq	32(%r15), %rdx
	movq	40(%r15), %rsi
	leaq	48(%r15), %r12
	movq	%r15, %rdi
	movq	%r12, %rcx
	vzeroupper
	callq	"rand_chacha::guts::refill4.v3"
	addq	$4, 40(%r15)
	movl	48(%r15), %edx
	movl	$1, %eax
	jmp	.Lnoise_BB_v3_6_104
.Lnoise_BB_v3_6_102:
	leaq	48(%r15), %r12
	movl	48(%r15,%rcx,4), %ebx
	leaq	1(%rcx), %rax
	movq	%rax, 304(%r15)
	cmpq	$63, %rcx
	jne	.Lnoise_BB_v3_6_105
	movq	32(%r15), %rdx
	movq	40(%r15), %rsi
	movq	%r15, %rdi
	movq	%r12, %rcx
	vzeroupper
	callq	"rand_chacha::guts::refill4.v3"
	movl	%ebx, %edx
	addq	$4, 40(%r15)
	xorl	%eax, %eax
.Lnoise_BB_v3_6_104:
	movl	48(%r15,%rax,4), %esi
	leaq	1(%rax), %rcx
	movq	%rcx, 304(%r15)
	movl	52(%r15,%rax,4), %edi
	leaq	2(%rax), %rcx
	movq	%rcx, 304(%r15)
	leaq	(%r15,%rax,4), %rcx
	addq	$56, %rcx
	addq	$3, %rax
.Lnoise_BB_v3_6_110:
	movl	(%rcx), %r8d
	movq	%rax, 304(%r15)
	movl	(%r12,%rax,4), %r9d
	leaq	1(%rax), %rcx
	movq	%rcx, 304(%r15)
	leaq	(%r12,%rax,4), %rcx
	addq	$4, %rcx
	addq	$2, %rax
.Lnoise_BB_v3_6_116:
	movl	(%rcx), %r10d
	movq	%rax, 304(%r15)
	movl	(%r12,%rax,4), %r11d
	leaq	1(%rax), %rcx
	movq	%rcx, 304(%r15)
	leaq	(%r12,%rax,4), %rcx
	addq	$4, %rcx
	addq	$2, %rax
.Lnoise_BB_v3_6_122:
	movl	(%rcx), %ecx
	movl	%ecx, 44(%rsp)
	movq	%rax, 304(%r15)
	movl	(%r12,%rax,4), %ecx
	movl	%ecx, 52(%rsp)
	leaq	1(%rax), %rcx
	movq	%rcx, 304(%r15)
	leaq	(%r12,%rax,4), %rcx
	addq	$4, %rcx
	addq	$2, %rax
.Lnoise_BB_v3_6_128:
	movl	(%rcx), %ecx
	movl	%ecx, 40(%rsp)
	movq	%rax, 304(%r15)
	movl	(%r12,%rax,4), %ecx
	movl	%ecx, 48(%rsp)
	leaq	1(%rax), %rcx
	movq	%rcx, 304(%r15)
	leaq	(%r12,%rax,4), %rcx
	addq	$4, %rcx
	addq	$2, %rax
.Lnoise_BB_v3_6_134:
	movl	(%rcx), %ecx
	movl	%ecx, 36(%rsp)
	movq	%rax, 304(%r15)
	movl	(%r12,%rax,4), %ebx
	leaq	1(%rax), %rcx
	movq	%rcx, 304(%r15)
	leaq	(%r12,%rax,4), %rcx
	addq	$4, %rcx
	addq	$2, %rax
.Lnoise_BB_v3_6_140:
	movl	(%rcx), %r14d
	movq	%rax, 304(%r15)
	movl	(%r12,%rax,4), %ebp
	incq	%rax
	movq	%rax, 304(%r15)
.Lnoise_BB_v3_6_146:
	vmovd	%edx, %xmm0
	vpinsrd	$1, %esi, %xmm0, %xmm0
	vpinsrd	$2, %edi, %xmm0, %xmm0
	vpinsrd	$3, %r8d, %xmm0, %xmm0
	vmovd	%r9d, %xmm1
	vpinsrd	$1, %r10d, %xmm1, %xmm1
	vpinsrd	$2, %r11d, %xmm1, %xmm1
	vpinsrd	$3, 44(%rsp), %xmm1, %xmm1
	vmovd	52(%rsp), %xmm2
	vpinsrd	$1, 40(%rsp), %xmm2, %xmm2
	vpinsrd	$2, 48(%rsp), %xmm2, %xmm2
	vpinsrd	$3, 36(%rsp), %xmm2, %xmm2
	vmovd	%ebx, %xmm3
	vpinsrd	$1, %r14d, %xmm3, %xmm3
	movl	(%r12,%rax,4), %ecx
	incq	%rax
	movq	%rax, 304(%r15)
	vmovdqa	%xmm1, 112(%rsp)
	vmovdqa	%xmm0, 96(%rsp)
	vmovdqa	%xmm2, 128(%rsp)
	vmovq	%xmm3, 144(%rsp)
	movl	%ebp, 152(%rsp)
	vmovd	%ecx, %xmm0
	movb	%cl, 156(%rsp)
	vpbroadcastd	%xmm0, %xmm0
	vpextrb	$13, %xmm0, 157(%rsp)
	movq	72(%rsp), %rdx
	addq	64(%rsp), %rdx
	vpextrb	$14, %xmm0, 158(%rsp)
	vpextrb	$15, %xmm0, 159(%rsp)
	cmpl	$8, %r13d
	jae	.Lnoise_BB_v3_6_148
	xorl	%esi, %esi
	jmp	.Lnoise_BB_v3_6_151
.Lnoise_BB_v3_6_148:
	movq	80(%rsp), %rsi
	andl	$56, %esi
	xorl	%eax, %eax
	.p2align	4
.Lnoise_BB_v3_6_149:
	movq	96(%rsp,%rax), %rcx
	xorq	%rcx, (%rdx,%rax)
	addq	$8, %rax
	cmpq	%rax, %rsi
	jne	.Lnoise_BB_v3_6_149
	cmpl	%esi, %r13d
	je	.Lnoise_BB_v3_6_152
	.p2align	4
.Lnoise_BB_v3_6_151:
	movzbl	96(%rsp,%rsi), %eax
	xorb	%al, (%rdx,%rsi)
	incq	%rsi
	cmpq	%rsi, %r13
	jne	.Lnoise_BB_v3_6_151
.Lnoise_BB_v3_6_152:
	addq	$168, %rsp
	.cfi_def_cfa_offset 56
	popq	%rbx
	.cfi_def_cfa_offset 48
	popq	%r12
	.cfi_def_cfa_offset 40
	popq	%r13
	.cfi_def_cfa_offset 32
	popq	%r14
	.cfi_def_cfa_offset 24
	popq	%r15
	.cfi_def_cfa_offset 16
	popq	%rbp
	.cfi_def_cfa_offset 8
	vzeroupper
	retq
.Lnoise_BB_v3_6_105:
	.cfi_def_cfa_offset 224
	movl	%ebx, 8(%rsp)
	movl	52(%r15,%rcx,4), %esi
	leaq	2(%rcx), %rax
	movq	%rax, 304(%r15)
	cmpq	$62, %rcx
	jb	.Lnoise_BB_v3_6_107
	movl	%esi, %ebx
	movq	32(%r15), %rdx
	movq	40(%r15), %rsi
	movq	%r15, %rdi
	movq	%r12, %rcx
	vzeroupper
	callq	"rand_chacha::guts::refill4.v3"
	addq	$4, 40(%r15)
	movl	48(%r15), %edi
	movq	$1, 304(%r15)
	movl	$1, %eax
	jmp	.Lnoise_BB_v3_6_109
.Lnoise_BB_v3_6_107:
	movl	56(%r15,%rcx,4), %edi
	leaq	3(%rcx), %rdx
	movq	%rdx, 304(%r15)
	cmpq	$61, %rcx
	jne	.Lnoise_BB_v3_6_111
	movl	%esi, %ebx
	movq	32(%r15), %rdx
	movq	40(%r15), %rsi
	movl	%edi, %ebp
	movq	%r15, %rdi
	movq	%r12, %rcx
	vzeroupper
	callq	"rand_chacha::guts::refill4.v3"
	movl	%ebp, %edi
	addq	$4, 40(%r15)
	xorl	%eax, %eax
.Lnoise_BB_v3_6_109:
	leaq	(%r12,%rax,4), %rcx
	incq	%rax
	movl	8(%rsp), %edx
	movl	%ebx, %esi
	jmp	.Lnoise_BB_v3_6_110
.Lnoise_BB_v3_6_111:
	movl	60(%r15,%rcx,4), %r8d
	leaq	4(%rcx), %rdx
	movq	%rdx, 304(%r15)
	cmpq	$62, %rax
	jne	.Lnoise_BB_v3_6_113
	movl	%r8d, %r14d
	movl	%edi, %ebp
	movl	%esi, %ebx
	movq	32(%r15), %rdx
	movq	40(%r15), %rsi
	movq	%r15, %rdi
	movq	%r12, %rcx
	vzeroupper
	callq	"rand_chacha::guts::refill4.v3"
	addq	$4, 40(%r15)
	movl	48(%r15), %r9d
	movq	$1, 304(%r15)
	movl	$1, %eax
	jmp	.Lnoise_BB_v3_6_115
.Lnoise_BB_v3_6_113:
	movl	64(%r15,%rcx,4), %r9d
	leaq	5(%rcx), %rax
	movq	%rax, 304(%r15)
	cmpq	$59, %rcx
	movl	%r9d, 24(%rsp)
	jb	.Lnoise_BB_v3_6_117
	movl	%r8d, %r14d
	movl	%edi, %ebp
	movl	%esi, %ebx
	movq	32(%r15), %rdx
	movq	40(%r15), %rsi
	movq	%r15, %rdi
	movq	%r12, %rcx
	vzeroupper
	callq	"rand_chacha::guts::refill4.v3"
	movl	24(%rsp), %r9d
	addq	$4, 40(%r15)
	xorl	%eax, %eax
.Lnoise_BB_v3_6_115:
	leaq	(%r12,%rax,4), %rcx
	incq	%rax
	movl	8(%rsp), %edx
	movl	%ebx, %esi
	movl	%ebp, %edi
	movl	%r14d, %r8d
	jmp	.Lnoise_BB_v3_6_116
.Lnoise_BB_v3_6_117:
	movl	68(%r15,%rcx,4), %r10d
	leaq	6(%rcx), %rax
	movq	%rax, 304(%r15)
	cmpq	$62, %rdx
	movl	%r10d, 4(%rsp)
	jne	.Lnoise_BB_v3_6_119
	movl	%r8d, %r14d
	movl	%edi, %ebp
	movl	%esi, %ebx
	movq	32(%r15), %rdx
	movq	40(%r15), %rsi
	movq	%r15, %rdi
	movq	%r12, %rcx
	vzeroupper
	callq	"rand_chacha::guts::refill4.v3"
	addq	$4, 40(%r15)
	movl	48(%r15), %r11d
	movq	$1, 304(%r15)
	movl	$1, %eax
	jmp	.Lnoise_BB_v3_6_121
.Lnoise_BB_v3_6_119:
	movl	72(%r15,%rcx,4), %r11d
	leaq	7(%rcx), %rdx
	movq	%rdx, 304(%r15)
	cmpq	$57, %rcx
	movl	%r11d, (%rsp)
	jb	.Lnoise_BB_v3_6_123
	movl	%r8d, %r14d
	movl	%edi, %ebp
	movl	%esi, %ebx
	movq	32(%r15), %rdx
	movq	40(%r15), %rsi
	movq	%r15, %rdi
	movq	%r12, %rcx
	vzeroupper
	callq	"rand_chacha::guts::refill4.v3"
	movl	(%rsp), %r11d
	addq	$4, 40(%r15)
	xorl	%eax, %eax
.Lnoise_BB_v3_6_121:
	leaq	(%r12,%rax,4), %rcx
	incq	%rax
	movl	8(%rsp), %edx
	movl	%ebx, %esi
	movl	%ebp, %edi
	movl	%r14d, %r8d
	movl	24(%rsp), %r9d
	movl	4(%rsp), %r10d
	jmp	.Lnoise_BB_v3_6_122
.Lnoise_BB_v3_6_123:
	movl	76(%r15,%rcx,4), %edx
	movl	%edx, 44(%rsp)
	leaq	8(%rcx), %rdx
	movq	%rdx, 304(%r15)
	cmpq	$62, %rax
	jne	.Lnoise_BB_v3_6_125
	movl	%r8d, %r14d
	movl	%edi, %ebp
	movl	%esi, %ebx
	movq	32(%r15), %rdx
	movq	40(%r15), %rsi
	movq	%r15, %rdi
	movq	%r12, %rcx
	vzeroupper
	callq	"rand_chacha::guts::refill4.v3"
	addq	$4, 40(%r15)
	movl	48(%r15), %eax
	movl	%eax, 52(%rsp)
	movq	$1, 304(%r15)
	movl	$1, %eax
	jmp	.Lnoise_BB_v3_6_127
.Lnoise_BB_v3_6_125:
	movl	80(%r15,%rcx,4), %eax
	movl	%eax, 52(%rsp)
	leaq	9(%rcx), %rax
	movq	%rax, 304(%r15)
	cmpq	$55, %rcx
	jb	.Lnoise_BB_v3_6_129
	movl	%r8d, %r14d
	movl	%edi, %ebp
	movl	%esi, %ebx
	movq	32(%r15), %rdx
	movq	40(%r15), %rsi
	movq	%r15, %rdi
	movq	%r12, %rcx
	vzeroupper
	callq	"rand_chacha::guts::refill4.v3"
	addq	$4, 40(%r15)
	xorl	%eax, %eax
.Lnoise_BB_v3_6_127:
	leaq	(%r12,%rax,4), %rcx
	incq	%rax
	movl	8(%rsp), %edx
	movl	%ebx, %esi
	movl	%ebp, %edi
	movl	%r14d, %r8d
	movl	24(%rsp), %r9d
	movl	4(%rsp), %r10d
	movl	(%rsp), %r11d
	jmp	.Lnoise_BB_v3_6_128
.Lnoise_BB_v3_6_129:
	movl	84(%r15,%rcx,4), %eax
	movl	%eax, 40(%rsp)
	leaq	10(%rcx), %rax
	movq	%rax, 304(%r15)
	cmpq	$62, %rdx
	jne	.Lnoise_BB_v3_6_131
	movl	%r8d, %r14d
	movl	%edi, %ebp
	movl	%esi, %ebx
	movq	32(%r15), %rdx
	movq	40(%r15), %rsi
	movq	%r15, %rdi
	movq	%r12, %rcx
	vzeroupper
	callq	"rand_chacha::guts::refill4.v3"
	addq	$4, 40(%r15)
	movl	48(%r15), %eax
	movl	%eax, 48(%rsp)
	movq	$1, 304(%r15)
	movl	$1, %eax
	jmp	.Lnoise_BB_v3_6_133
.Lnoise_BB_v3_6_131:
	movl	88(%r15,%rcx,4), %edx
	movl	%edx, 48(%rsp)
	leaq	11(%rcx), %rdx
	movq	%rdx, 304(%r15)
	cmpq	$53, %rcx
	jb	.Lnoise_BB_v3_6_135
	movl	%r8d, %r14d
	movl	%edi, %ebp
	movl	%esi, %ebx
	movq	32(%r15), %rdx
	movq	40(%r15), %rsi
	movq	%r15, %rdi
	movq	%r12, %rcx
	vzeroupper
	callq	"rand_chacha::guts::refill4.v3"
	addq	$4, 40(%r15)
	xorl	%eax, %eax
.Lnoise_BB_v3_6_133:
	leaq	(%r12,%rax,4), %rcx
	incq	%rax
	movl	8(%rsp), %edx
	movl	%ebx, %esi
	movl	%ebp, %edi
	movl	%r14d, %r8d
	movl	24(%rsp), %r9d
	movl	4(%rsp), %r10d
	movl	(%rsp), %r11d
	jmp	.Lnoise_BB_v3_6_134
.Lnoise_BB_v3_6_135:
	movl	%r8d, 16(%rsp)
	movl	%edi, 12(%rsp)
	movl	%esi, 56(%rsp)
	movl	92(%r15,%rcx,4), %edx
	movl	%edx, 36(%rsp)
	leaq	12(%rcx), %rdx
	movq	%rdx, 304(%r15)
	cmpq	$62, %rax
	jne	.Lnoise_BB_v3_6_137
	movq	32(%r15), %rdx
	movq	40(%r15), %rsi
	movq	%r15, %rdi
	movq	%r12, %rcx
	vzeroupper
	callq	"rand_chacha::guts::refill4.v3"
	addq	$4, 40(%r15)
	movl	48(%r15), %ebx
	movq	$1, 304(%r15)
	movl	$1, %eax
	jmp	.Lnoise_BB_v3_6_139
.Lnoise_BB_v3_6_137:
	movl	96(%r15,%rcx,4), %ebx
	leaq	13(%rcx), %rax
	movq	%rax, 304(%r15)
	cmpq	$51, %rcx
	jb	.Lnoise_BB_v3_6_141
	movq	32(%r15), %rdx
	movq	40(%r15), %rsi
	movq	%r15, %rdi
	movq	%r12, %rcx
	vzeroupper
	callq	"rand_chacha::guts::refill4.v3"
	addq	$4, 40(%r15)
	xorl	%eax, %eax
.Lnoise_BB_v3_6_139:
	leaq	(%r12,%rax,4), %rcx
	incq	%rax
	movl	8(%rsp), %edx
	movl	56(%rsp), %esi
	movl	12(%rsp), %edi
	movl	16(%rsp), %r8d
	movl	24(%rsp), %r9d
	movl	4(%rsp), %r10d
	movl	(%rsp), %r11d
	jmp	.Lnoise_BB_v3_6_140
.Lnoise_BB_v3_6_141:
	movl	100(%r15,%rcx,4), %r14d
	leaq	14(%rcx), %rax
	movq	%rax, 304(%r15)
	cmpq	$62, %rdx
	jne	.Lnoise_BB_v3_6_143
	movq	32(%r15), %rdx
	movq	40(%r15), %rsi
	movq	%r15, %rdi
	movq	%r12, %rcx
	vzeroupper
	callq	"rand_chacha::guts::refill4.v3"
	addq	$4, 40(%r15)
	movl	48(%r15), %ebp
	movq	$1, 304(%r15)
	movl	$1, %eax
	jmp	.Lnoise_BB_v3_6_145
.Lnoise_BB_v3_6_143:
	movl	104(%r15,%rcx,4), %ebp
	leaq	15(%rcx), %rax
	movq	%rax, 304(%r15)
	cmpq	$49, %rcx
	jb	.Lnoise_BB_v3_6_145
	movq	32(%r15), %rdx
	movq	40(%r15), %rsi
	movq	%r15, %rdi
	movq	%r12, %rcx
	vzeroupper
	callq	"rand_chacha::guts::refill4.v3"
	addq	$4, 40(%r15)
	xorl	%eax, %eax
.Lnoise_BB_v3_6_145:
	movl	8(%rsp), %edx
	movl	56(%rsp), %esi
	movl	12(%rsp), %edi
	movl	16(%rsp), %r8d
	movl	24(%rsp), %r9d
	movl	4(%rsp), %r10d
	movl	(%rsp), %r11d
	jmp	.Lnoise_BB_v3_6_146
.Lnoise_func_end_v3_6:
	.size	"noise_aead::keystream::apply.v3", .Lnoise_func_end_v3_6-"noise_aead::keystream::apply.v3"
	.cfi_endproc

	.section	.rodata.cst16,"aM",@progbits,16
	.p2align	4, 0x0
.Lnoise_CPI_v3_2_4:
	.byte	0
	.byte	0
	.byte	0
	.byte	0
	.byte	0
	.byte	8
	.byte	0
	.byte	8
	.byte	0
	.byte	0
	.byte	0
	.byte	0
	.byte	0
	.byte	0
	.byte	0
	.byte	0
	.section	.rodata.cst16,"aM",@progbits,16
	.p2align	4, 0x0
.Lnoise_CPI_v3_2_2:
	.zero	1
	.zero	1
	.byte	0
	.byte	8
	.zero	1
	.zero	1
	.zero	1
	.zero	1
	.zero	1
	.zero	1
	.zero	1
	.zero	1
	.zero	1
	.zero	1
	.zero	1
	.zero	1
	.section	.rodata.cst16,"aM",@progbits,16
	.p2align	4, 0x0
.Lnoise_CPI_v3_2_3:
	.zero	1
	.zero	1
	.zero	1
	.zero	1
	.zero	1
	.zero	1
	.zero	1
	.zero	1
	.zero	1
	.zero	1
	.zero	1
	.zero	1
	.byte	0
	.byte	8
	.byte	0
	.byte	8
	.section	".text.noise_aead::authenticator::tag","ax",@progbits
	.p2align	4
	.type	"noise_aead::authenticator::tag.v3",@function
"noise_aead::authenticator::tag.v3":
	.cfi_startproc
	pushq	%rbp
	.cfi_def_cfa_offset 16
	pushq	%r15
	.cfi_def_cfa_offset 24
	pushq	%r14
	.cfi_def_cfa_offset 32
	pushq	%r13
	.cfi_def_cfa_offset 40
	pushq	%r12
	.cfi_def_cfa_offset 48
	pushq	%rbx
	.cfi_def_cfa_offset 56
	subq	$200, %rsp
	.cfi_def_cfa_offset 256
	.cfi_offset %rbx, -56
	.cfi_offset %r12, -48
	.cfi_offset %r13, -40
	.cfi_offset %r14, -32
	.cfi_offset %r15, -24
	.cfi_offset %rbp, -16
	movq	%r9, %r14
	movq	%r8, %r13
	movq	%rcx, %r15
	movq	%rdi, 40(%rsp)
	vmovups	(%rsi), %xmm0
	vmovups	16(%rsi), %xmm1
	vandps	.Lnoise_CPI2_0(%rip), %xmm0, %xmm0
	vxorps	%xmm2, %xmm2, %xmm2
	vmovups	%ymm2, 64(%rsp)
	vmovaps	%xmm0, 96(%rsp)
	vmovaps	%xmm1, 112(%rsp)
	vmovups	%ymm2, 128(%rsp)
	leaq	64(%rsp), %r12
	movq	%r12, %rdi
	movq	%rdx, %rsi
	movq	%rcx, %rdx
	vzeroupper
	callq	"noise_poly::Poly1305::update"
	movl	%r15d, %edx
	negl	%edx
	andl	$15, %edx
	leaq	.Lnoise_static.0(%rip), %rbp
	movq	%r12, %rdi
	movq	%rbp, %rsi
	callq	"noise_poly::Poly1305::update"
	movq	%r12, %rdi
	movq	%r13, %rsi
	movq	%r14, %rdx
	callq	"noise_poly::Poly1305::update"
	movl	%r14d, %edx
	negl	%edx
	andl	$15, %edx
	movq	%r12, %rdi
	movq	%rbp, %rsi
	callq	"noise_poly::Poly1305::update"
	movq	%r15, 48(%rsp)
	movq	%r14, 56(%rsp)
	leaq	48(%rsp), %rsi
	movl	$16, %edx
	movq	%r12, %rdi
	callq	"noise_poly::Poly1305::update"
	movq	64(%rsp), %r15
	movq	72(%rsp), %r14
	movq	80(%rsp), %rbx
	movq	104(%rsp), %rcx
	movq	96(%rsp), %rax
	movq	120(%rsp), %r13
	movq	112(%rsp), %rbp
	vmovups	128(%rsp), %ymm0
	vmovups	%ymm0, 160(%rsp)
	movq	176(%rsp), %r12
	testq	%r12, %r12
	je	.Lnoise_BB_v3_2_2
	movl	$16, %esi
	subq	%r12, %rsi
	xorl	%edx, %edx
	cmpq	$16, %r12
	cmovbq	%rsi, %rdx
	leaq	(%rsp,%r12), %rdi
	xorl	%esi, %esi
	movq	%rax, 32(%rsp)
	movq	%rcx, 24(%rsp)
	vzeroupper
	callq	memset@PLT
	movq	%rsp, %rdi
	leaq	160(%rsp), %rsi
	movq	%r12, %rdx
	callq	memcpy@PLT
	movb	$1, (%rsp,%r12)
	addq	(%rsp), %r15
	adcq	8(%rsp), %r14
	adcq	$0, %rbx
	movq	24(%rsp), %rcx
	movq	%rcx, %rax
	shrq	$2, %rax
	addq	%rcx, %rax
	movq	%rcx, %r9
	movq	%r15, %rdx
	movq	32(%rsp), %r10
	mulxq	%r10, %r8, %rdi
	movq	%r14, %rdx
	mulxq	%rax, %rcx, %rsi
	addq	%r8, %rcx
	adcq	%rdi, %rsi
	movq	%r15, %rdx
	mulxq	%r9, %r8, %rdi
	movq	%r14, %rdx
	mulxq	%r10, %rdx, %r9
	addq	%r8, %rdx
	adcq	%rdi, %r9
	imulq	%rbx, %rax
	addq	%rdx, %rax
	adcq	$0, %r9
	imulq	%r10, %rbx
	movq	%rax, %rdx
	addq	%rsi, %rdx
	adcq	%r9, %rbx
	movq	%rbx, %rdi
	shrq	$2, %rdi
	leaq	(%rdi,%rdi,4), %rdi
	movq	%rdi, %r8
	addq	%rcx, %r8
	adcq	%rsi, %rax
	andl	$3, %ebx
	addq	%rdi, %rcx
	adcq	$0, %rdx
	adcq	$0, %rbx
	movq	%rcx, %r15
	movq	%rax, %r14
.Lnoise_BB_v3_2_2:
	movq	%rbx, %rax
	shrq	$2, %rax
	leaq	(%rax,%rax,4), %rax
	addq	$5, %rax
	addq	%r15, %rax
	movq	%r14, %rax
	adcq	$0, %rax
	adcq	$0, %rbx
	shrq	$2, %rbx
	addq	%r15, %rbp
	adcq	%r14, %r13
	leaq	(%rbx,%rbx,4), %rax
	addq	%rax, %rbp
	adcq	$0, %r13
	movq	%r13, %rcx
	shldq	$56, %rbp, %rcx
	movq	%r13, %rsi
	shldq	$48, %rbp, %rsi
	movq	%r13, %rdi
	shldq	$40, %rbp, %rdi
	movq	%r13, %r8
	shldq	$32, %rbp, %r8
	movq	%r13, %r9
	shldq	$24, %rbp, %r9
	movq	%r13, %r10
	shldq	$16, %rbp, %r10
	movq	%r13, %r11
	shldq	$8, %rbp, %r11
	movq	%r13, %rax
	shrq	$32, %rax
	movq	%r13, %rdx
	shrq	$40, %rdx
	movq	%r13, %rbx
	shrq	$48, %rbx
	movq	%r13, %r14
	shrq	$56, %r14
	vmovq	%r11, %xmm0
	vmovq	%r10, %xmm1
	vpunpcklqdq	%xmm0, %xmm1, %xmm0
	vmovq	.Lnoise_CPI_v3_2_4(%rip), %xmm1
	vpshufb	%xmm1, %xmm0, %xmm0
	vmovq	%r9, %xmm2
	vmovq	%r8, %xmm3
	vpunpcklqdq	%xmm2, %xmm3, %xmm2
	vpshufb	%xmm1, %xmm2, %xmm1
	vpblendw	$8, %xmm0, %xmm1, %xmm0
	vmovq	%rdi, %xmm1
	vmovq	%rsi, %xmm2
	vpunpcklqdq	%xmm1, %xmm2, %xmm1
	vpshufb	.Lnoise_CPI_v3_2_2(%rip), %xmm1, %xmm1
	vmovq	%rcx, %xmm2
	vmovq	%rbp, %xmm3
	vpunpcklbw	%xmm2, %xmm3, %xmm2
	vpblendw	$2, %xmm1, %xmm2, %xmm1
	vpblendd	$2, %xmm0, %xmm1, %xmm0
	vmovd	%r14d, %xmm1
	vmovd	%ebx, %xmm2
	vpunpcklqdq	%xmm1, %xmm2, %xmm1
	vmovdqa	.Lnoise_CPI_v3_2_3(%rip), %xmm2
	vpshufb	%xmm2, %xmm1, %xmm1
	vmovd	%edx, %xmm3
	vmovd	%eax, %xmm4
	vpunpcklqdq	%xmm3, %xmm4, %xmm3
	vpshufb	%xmm2, %xmm3, %xmm2
	vpblendw	$128, %xmm1, %xmm2, %xmm1
	vmovq	%r13, %xmm2
	vpbroadcastq	%xmm2, %xmm2
	vpblendd	$8, %xmm1, %xmm2, %xmm1
	vpblendd	$12, %xmm1, %xmm0, %xmm0
	movq	40(%rsp), %rax
	vmovdqu	%xmm0, (%rax)
	addq	$200, %rsp
	.cfi_def_cfa_offset 56
	popq	%rbx
	.cfi_def_cfa_offset 48
	popq	%r12
	.cfi_def_cfa_offset 40
	popq	%r13
	.cfi_def_cfa_offset 32
	popq	%r14
	.cfi_def_cfa_offset 24
	popq	%r15
	.cfi_def_cfa_offset 16
	popq	%rbp
	.cfi_def_cfa_offset 8
	vzeroupper
	retq
.Lnoise_func_end_v3_2:
	.size	"noise_aead::authenticator::tag.v3", .Lnoise_func_end_v3_2-"noise_aead::authenticator::tag.v3"
	.cfi_endproc

	.section	.rodata.cst8,"aM",@progbits,8
	.p2align	3, 0x0
.Lnoise_CPI_v3s_5_0:
	.quad	16777216
	.section	.rodata.cst8,"aM",@progbits,8
	.p2align	3, 0x0
.Lnoise_CPI_v3s_5_1:
	.quad	67108863
	.section	.rodata.cst4,"aM",@progbits,4
	.p2align	2, 0x0
.Lnoise_CPI_v3s_5_2:
	.long	67108863
	.section	".text.noise_poly::Poly1305::take_eights","ax",@progbits
	.p2align	4
	.type	"noise_poly::Poly1305::take_eights.v3",@function
"noise_poly::Poly1305::take_eights.v3":
	.cfi_startproc
	pushq	%rbp
	.cfi_def_cfa_offset 16
	pushq	%r15
	.cfi_def_cfa_offset 24
	pushq	%r14
	.cfi_def_cfa_offset 32
	pushq	%r13
	.cfi_def_cfa_offset 40
	pushq	%r12
	.cfi_def_cfa_offset 48
	pushq	%rbx
	.cfi_def_cfa_offset 56
	subq	$376, %rsp
	.cfi_def_cfa_offset 432
	.cfi_offset %rbx, -56
	.cfi_offset %r12, -48
	.cfi_offset %r13, -40
	.cfi_offset %r14, -32
	.cfi_offset %r15, -24
	.cfi_offset %rbp, -16
	movq	%rdx, %rbx
	movq	40(%rdi), %rcx
	movq	32(%rdi), %rdx
	movl	%edx, %r10d
	andl	$67108863, %r10d
	movq	%rdx, %r14
	shrq	$26, %r14
	andl	$67108863, %r14d
	movl	%ecx, %eax
	shll	$12, %eax
	movq	%rdx, 120(%rsp)
	movq	%rdx, %r15
	shrq	$52, %r15
	orl	%eax, %r15d
	andl	$67108863, %r15d
	movq	%rcx, %r12
	shrq	$14, %r12
	andl	$67108863, %r12d
	movq	%rcx, 128(%rsp)
	movq	%rcx, %r13
	shrq	$40, %r13
	leaq	(,%r13,4), %r9
	addq	%r13, %r9
	vmovdqu	(%rsi), %ymm0
	vmovdqu	32(%rsi), %ymm6
	vpunpckhqdq	%ymm6, %ymm0, %ymm1
	vpermq	$216, %ymm1, %ymm5
	vpsrlq	$40, %ymm5, %ymm1
	vpbroadcastq	.Lnoise_CPI_v3s_5_0(%rip), %ymm2
	vpor	%ymm2, %ymm1, %ymm1
	movl	16(%rdi), %edx
	shll	$24, %edx
	movq	(%rdi), %rax
	movq	%rdi, 136(%rsp)
	movq	8(%rdi), %rcx
	movq	%rcx, %rdi
	shrq	$40, %rdi
	orq	%rdx, %rdi
	vmovq	%xmm1, %rdx
	addq	%rdi, %rdx
	vmovq	%rdx, %xmm2
	vpsrlq	$14, %ymm5, %ymm3
	vpbroadcastq	.Lnoise_CPI_v3s_5_1(%rip), %ymm9
	vpand	%ymm3, %ymm9, %ymm3
	vmovq	%xmm3, %rdx
	movq	%rcx, %rdi
	shrq	$14, %rdi
	andl	$67108863, %edi
	addl	%edi, %edx
	vmovd	%edx, %xmm4
	vpunpcklqdq	%ymm6, %ymm0, %ymm0
	vpermq	$216, %ymm0, %ymm0
	vpsrlq	$52, %ymm0, %ymm6
	vpsllq	$12, %ymm5, %ymm5
	vpor	%ymm6, %ymm5, %ymm5
	vpand	%ymm5, %ymm9, %ymm5
	vmovq	%xmm5, %rdx
	shldq	$12, %rax, %rcx
	andl	$67108863, %ecx
	addl	%ecx, %edx
	vmovd	%edx, %xmm6
	vpsrlq	$26, %ymm0, %ymm7
	vpand	%ymm7, %ymm9, %ymm7
	vmovq	%xmm7, %rcx
	movq	%rax, %rdx
	shrq	$26, %rdx
	andl	$67108863, %edx
	addl	%edx, %ecx
	vmovd	%ecx, %xmm8
	vmovdqu	%ymm9, 208(%rsp)
	vpand	%ymm0, %ymm9, %ymm9
	vmovq	%xmm9, %rcx
	andl	$67108863, %eax
	addl	%eax, %ecx
	vmovd	%ecx, %xmm10
	movq	%r14, %rax
	imulq	%r15, %rax
	movq	%r10, %rcx
	imulq	%r12, %rcx
	addq	%rax, %rcx
	movq	%r9, %rax
	imulq	%r13, %rax
	leaq	(%rax,%rcx,2), %rdx
	movq	%rdx, %rax
	shrq	$26, %rax
	movq	%r15, %rcx
	imulq	%r15, %rcx
	addq	%rax, %rcx
	movq	%r14, %rax
	imulq	%r12, %rax
	movq	%r10, %rdi
	imulq	%r13, %rdi
	addq	%rax, %rdi
	leaq	(%rcx,%rdi,2), %r8
	movq	%r14, %rcx
	imulq	%r14, %rcx
	movq	%r9, %rax
	movq	%r9, %rdi
	imulq	%r12, %rdi
	addq	%rcx, %rdi
	leal	(%r10,%r10), %r9d
	movq	%r9, %rcx
	imulq	%r15, %rcx
	addq	%rcx, %rdi
	leal	(%r12,%r12,4), %ebp
	movq	%rbp, %rcx
	imulq	%r13, %rcx
	addq	%rdi, %rcx
	imulq	%r14, %r9
	movq	%rax, %rdi
	imulq	%r15, %rdi
	addq	%r9, %rdi
	movq	%rbp, %r9
	imulq	%r12, %r9
	addq	%rdi, %r9
	leal	(%r15,%r15,4), %eax
	movq	%rax, %r11
	imulq	%r13, %r11
	addq	%r9, %r11
	leaq	(,%r13,4), %rdi
	addq	%r13, %rdi
	imulq	%r14, %rdi
	movq	%r10, 48(%rsp)
	imulq	%r10, %r10
	addq	%rdi, %r10
	movq	%rbp, 32(%rsp)
	movq	%rbp, %rdi
	movq	%r15, 16(%rsp)
	imulq	%r15, %rdi
	addq	%r10, %rdi
	movq	%rax, 24(%rsp)
	movq	%r12, 72(%rsp)
	imulq	%r12, %rax
	addq	%rdi, %rax
	movq	%r14, 8(%rsp)
	leal	(%r14,%r14,4), %edi
	movq	%rdi, 40(%rsp)
	movq	%r13, 64(%rsp)
	imulq	%r13, %rdi
	addq	%rax, %rdi
	movq	%rdi, %r10
	shrq	$26, %r10
	addq	%r11, %r10
	movq	%r10, %r9
	shrq	$26, %r9
	addq	%rcx, %r9
	movq	%r9, %rcx
	shrq	$26, %rcx
	andl	$67108863, %edx
	addq	%rcx, %rdx
	movl	%r8d, %ecx
	andl	$67108863, %ecx
	movq	%rdx, %r11
	shrq	$26, %r11
	addl	%ecx, %r11d
	shrq	$26, %r8
	leaq	(%r8,%r8,4), %rax
	andl	$67108863, %edi
	addq	%rax, %rdi
	andl	$67108863, %r10d
	movq	%rdi, %r15
	shrq	$26, %r15
	addl	%r10d, %r15d
	andl	$67108863, %r9d
	movq	%r9, %rax
	imulq	%r15, %rax
	andl	$67108863, %edx
	andl	$67108863, %edi
	movq	%rdx, %rcx
	imulq	%rdi, %rcx
	addq	%rax, %rcx
	leal	(%r11,%r11,4), %r10d
	movq	%r10, %rax
	imulq	%r11, %rax
	leaq	(%rax,%rcx,2), %r13
	movq	%r13, %rax
	shrq	$26, %rax
	movq	%r9, %rcx
	imulq	%r9, %rcx
	addq	%rax, %rcx
	movq	%rdi, %rax
	imulq	%r11, %rax
	movq	%rdx, %r14
	imulq	%r15, %r14
	addq	%rax, %r14
	leaq	(%rcx,%r14,2), %r14
	movq	%r15, %rax
	imulq	%r15, %rax
	leal	(%r9,%r9), %r12d
	imulq	%rdi, %r12
	addq	%rax, %r12
	leaq	(%rdx,%rdx,4), %rcx
	movq	%rcx, %rbp
	imulq	%r11, %rbp
	addq	%r12, %rbp
	movq	%rdx, %rax
	imulq	%r10, %rax
	addq	%rbp, %rax
	leal	(%rdi,%rdi), %r12d
	imulq	%r15, %r12
	movq	%rcx, %rbp
	imulq	%rdx, %rbp
	addq	%rbp, %r12
	leaq	(%r9,%r9,4), %rbp
	imulq	%rbp, %rdx
	imulq	%r11, %rbp
	addq	%r12, %rbp
	imulq	%r9, %rcx
	imulq	%r10, %r9
	addq	%rbp, %r9
	imulq	%rdi, %rdi
	addq	%rdx, %rdi
	addq	%rcx, %rdi
	imulq	%r15, %r10
	leal	(%r15,%r15,4), %ecx
	imulq	%r11, %rcx
	addq	%rdi, %rcx
	addq	%rcx, %r10
	movq	%r10, %rdx
	shrq	$26, %rdx
	addq	%r9, %rdx
	movq	%rdx, %rdi
	shrq	$26, %rdi
	addq	%rax, %rdi
	movq	%rdi, %rax
	shrq	$26, %rax
	andl	$67108863, %r13d
	addq	%rax, %r13
	movl	%r14d, %eax
	andl	$67108863, %eax
	movq	%r13, %r11
	shrq	$26, %r11
	addl	%eax, %r11d
	shrq	$26, %r14
	leaq	(%r14,%r14,4), %rax
	andl	$67108863, %r10d
	addq	%rax, %r10
	andl	$67108863, %edx
	movq	%r10, %rbp
	shrq	$26, %rbp
	addl	%edx, %ebp
	andl	$67108863, %edi
	movq	%rdi, %rax
	imulq	%rbp, %rax
	andl	$67108863, %r13d
	andl	$67108863, %r10d
	movq	%r13, %rdx
	imulq	%r10, %rdx
	addq	%rax, %rdx
	leal	(%r11,%r11,4), %ecx
	movq	%rcx, %rax
	imulq	%r11, %rax
	leaq	(%rax,%rdx,2), %rdx
	movq	%rdx, %rax
	shrq	$26, %rax
	movq	%rdi, %r9
	imulq	%rdi, %r9
	addq	%rax, %r9
	movq	%r10, %rax
	imulq	%r11, %rax
	movq	%r13, %r14
	imulq	%rbp, %r14
	addq	%rax, %r14
	leaq	(%r9,%r14,2), %rax
	movq	%rax, 80(%rsp)
	movq	%rbp, %r9
	imulq	%rbp, %r9
	leal	(%r10,%r10), %r15d
	movq	%r15, %r14
	imulq	%rdi, %r14
	addq	%r9, %r14
	leaq	(,%r13,4), %r9
	addq	%r13, %r9
	movq	%r9, %r12
	imulq	%r11, %r12
	addq	%r14, %r12
	movq	%r13, %r14
	imulq	%rcx, %r14
	addq	%r12, %r14
	movq	%r9, %r12
	imulq	%r13, %r12
	imulq	%rbp, %r15
	addq	%r12, %r15
	leaq	(%rdi,%rdi,4), %r12
	movq	%r13, %r8
	imulq	%r12, %r8
	imulq	%r11, %r12
	addq	%r15, %r12
	movq	%rdi, %rax
	imulq	%rcx, %rax
	addq	%r12, %rax
	movq	%r10, %r15
	imulq	%r10, %r15
	addq	%r8, %r15
	imulq	%rdi, %r9
	addq	%r9, %r15
	leal	(%rbp,%rbp,4), %r8d
	imulq	%r11, %r8
	addq	%r15, %r8
	imulq	%rbp, %rcx
	addq	%r8, %rcx
	movq	%rcx, %r15
	shrq	$26, %r15
	addq	%rax, %r15
	movq	%r15, %r9
	shrq	$26, %r9
	addq	%r14, %r9
	movq	%r9, %rax
	shrq	$26, %rax
	andl	$67108863, %edx
	addq	%rax, %rdx
	movq	80(%rsp), %r8
	movl	%r8d, %eax
	andl	$67108863, %eax
	movq	%rdx, %r12
	shrq	$26, %r12
	addl	%eax, %r12d
	movq	%r8, %rax
	shrq	$26, %rax
	leaq	(%rax,%rax,4), %rax
	andl	$67108863, %ecx
	addq	%rax, %rcx
	andl	$67108863, %r15d
	movq	%rcx, %r14
	shrq	$26, %r14
	addl	%r15d, %r14d
	vpblendd	$3, %ymm2, %ymm1, %ymm11
	vpblendd	$3, %ymm4, %ymm3, %ymm3
	vpblendd	$3, %ymm6, %ymm5, %ymm0
	vpblendd	$3, %ymm8, %ymm7, %ymm4
	vpblendd	$3, %ymm10, %ymm9, %ymm2
	addq	$-64, %rbx
	addq	$64, %rsi
	andl	$67108863, %edx
	andl	$67108863, %r9d
	andl	$67108863, %ecx
	.p2align	4
.Lnoise_BB_v3s_5_1:
	vpbroadcastq	.Lnoise_CPI_v3s_5_1(%rip), %ymm7
	leal	(%r12,%r12,4), %eax
	vmovq	%rax, %xmm1
	leaq	(%rdx,%rdx,4), %rax
	vmovq	%rax, %xmm5
	leaq	(%r9,%r9,4), %rax
	vmovq	%rax, %xmm8
	leal	(%r14,%r14,4), %eax
	vmovq	%rax, %xmm9
	leal	(%r11,%r11,4), %eax
	vmovq	%rcx, %xmm6
	vpbroadcastq	%xmm6, %ymm6
	vpbroadcastq	%xmm1, %ymm10
	vpbroadcastq	%xmm5, %ymm12
	vpbroadcastq	%xmm8, %ymm13
	vpbroadcastq	%xmm9, %ymm1
	vmovdqu	%ymm1, 80(%rsp)
	vmovq	%r14, %xmm1
	vpbroadcastq	%xmm1, %ymm9
	vmovq	%r9, %xmm1
	vpbroadcastq	%xmm1, %ymm8
	vmovq	%rdx, %xmm1
	vpbroadcastq	%xmm1, %ymm14
	vpsrlq	$26, %ymm2, %ymm1
	vpaddq	%ymm4, %ymm1, %ymm4
	vpsrlq	$26, %ymm3, %ymm5
	vpaddq	%ymm5, %ymm11, %ymm5
	vpsrlq	$26, %ymm4, %ymm11
	vpaddq	%ymm0, %ymm11, %ymm11
	vpand	%ymm7, %ymm2, %ymm0
	vpsrlq	$26, %ymm5, %ymm2
	vpsllq	$2, %ymm2, %ymm15
	vpaddq	%ymm2, %ymm15, %ymm2
	vpaddq	%ymm2, %ymm0, %ymm0
	vpand	%ymm7, %ymm3, %ymm2
	vpsrlq	$26, %ymm11, %ymm3
	vpaddq	%ymm2, %ymm3, %ymm1
	vpand	%ymm7, %ymm0, %ymm3
	vpand	%ymm7, %ymm4, %ymm2
	vpsrlq	$26, %ymm0, %ymm0
	vpaddq	%ymm2, %ymm0, %ymm0
	vpand	%ymm7, %ymm11, %ymm2
	vpand	%ymm7, %ymm1, %ymm15
	vpand	%ymm7, %ymm5, %ymm4
	vpsrlq	$26, %ymm1, %ymm1
	vpaddq	%ymm4, %ymm1, %ymm1
	vpmuldq	%ymm6, %ymm3, %ymm4
	vpmuldq	%ymm12, %ymm2, %ymm5
	vpaddq	%ymm5, %ymm4, %ymm4
	vpmuludq	%ymm0, %ymm10, %ymm5
	vpaddq	%ymm4, %ymm5, %ymm4
	vpmuldq	%ymm13, %ymm15, %ymm5
	vpmuludq	80(%rsp), %ymm1, %ymm11
	vpaddq	%ymm5, %ymm11, %ymm5
	vpaddq	%ymm5, %ymm4, %ymm11
	vpmuludq	%ymm3, %ymm9, %ymm4
	vpmuludq	%ymm2, %ymm10, %ymm5
	vpaddq	%ymm5, %ymm4, %ymm4
	vpmuldq	%ymm6, %ymm0, %ymm5
	vpaddq	%ymm4, %ymm5, %ymm4
	vpmuldq	%ymm12, %ymm15, %ymm5
	vpmuldq	%ymm13, %ymm1, %ymm13
	vpaddq	%ymm5, %ymm13, %ymm5
	vpaddq	%ymm5, %ymm4, %ymm4
	vmovdqu	%ymm4, 144(%rsp)
	vpmuldq	%ymm8, %ymm3, %ymm4
	vpmuldq	%ymm6, %ymm2, %ymm5
	vpaddq	%ymm5, %ymm4, %ymm4
	vpmuludq	%ymm0, %ymm9, %ymm5
	vpaddq	%ymm4, %ymm5, %ymm4
	vpmuludq	%ymm10, %ymm15, %ymm5
	vpmuldq	%ymm12, %ymm1, %ymm12
	vpaddq	%ymm5, %ymm12, %ymm5
	vpaddq	%ymm5, %ymm4, %ymm4
	vmovdqu	%ymm4, 80(%rsp)
	vpmuldq	%ymm14, %ymm3, %ymm5
	vpmuludq	%ymm2, %ymm9, %ymm12
	vpaddq	%ymm5, %ymm12, %ymm5
	vpmuldq	%ymm8, %ymm0, %ymm12
	vpaddq	%ymm5, %ymm12, %ymm5
	vpmuldq	%ymm6, %ymm15, %ymm12
	vpmuludq	%ymm1, %ymm10, %ymm10
	vpaddq	%ymm10, %ymm12, %ymm10
	vmovq	%rax, %xmm12
	leaq	(%r13,%r13,4), %rax
	vpaddq	%ymm5, %ymm10, %ymm4
	vmovdqu	%ymm4, 176(%rsp)
	vmovq	%r12, %xmm5
	vpbroadcastq	%xmm5, %ymm5
	vpmuludq	%ymm5, %ymm3, %ymm3
	vmovq	%rax, %xmm5
	leaq	(%rdi,%rdi,4), %rax
	vpmuldq	%ymm14, %ymm0, %ymm10
	vmovq	%rax, %xmm0
	leal	(%rbp,%rbp,4), %eax
	vpmuldq	%ymm8, %ymm2, %ymm13
	vmovq	%r10, %xmm2
	vpbroadcastq	%xmm2, %ymm8
	vpbroadcastq	%xmm12, %ymm14
	vpbroadcastq	%xmm5, %ymm12
	vpaddq	%ymm3, %ymm13, %ymm3
	vpaddq	%ymm3, %ymm10, %ymm3
	vpmuludq	%ymm9, %ymm15, %ymm5
	vpmuldq	%ymm6, %ymm1, %ymm1
	vpaddq	%ymm1, %ymm5, %ymm1
	vpaddq	%ymm1, %ymm3, %ymm1
	vmovdqu	%ymm1, 336(%rsp)
	vmovdqu	(%rsi), %ymm1
	vmovdqu	32(%rsi), %ymm3
	vpunpcklqdq	%ymm3, %ymm1, %ymm5
	vpermq	$216, %ymm5, %ymm5
	vpunpckhqdq	%ymm3, %ymm1, %ymm1
	vpermq	$216, %ymm1, %ymm1
	vpand	%ymm7, %ymm5, %ymm9
	vpsrlq	$26, %ymm5, %ymm3
	vpand	%ymm7, %ymm3, %ymm10
	vpsrlq	$52, %ymm5, %ymm3
	vpsllq	$12, %ymm1, %ymm5
	vpor	%ymm3, %ymm5, %ymm3
	vpand	%ymm7, %ymm3, %ymm13
	vpmuldq	%ymm8, %ymm9, %ymm3
	vpmuludq	%ymm14, %ymm10, %ymm5
	vpaddq	%ymm5, %ymm3, %ymm3
	vpmuldq	%ymm12, %ymm13, %ymm5
	vpaddq	%ymm5, %ymm3, %ymm3
	vmovq	%rax, %xmm5
	vpbroadcastq	%xmm0, %ymm6
	vpbroadcastq	%xmm5, %ymm0
	vpaddq	%ymm3, %ymm11, %ymm2
	vmovdqu	%ymm2, 272(%rsp)
	vpsrlq	$14, %ymm1, %ymm3
	vpand	%ymm7, %ymm3, %ymm3
	vpsrlq	$40, %ymm1, %ymm1
	vpbroadcastq	.Lnoise_CPI_v3s_5_0(%rip), %ymm2
	vmovdqu	%ymm2, 304(%rsp)
	vpor	%ymm2, %ymm1, %ymm15
	vpmuludq	%ymm0, %ymm15, %ymm0
	vpmuldq	%ymm6, %ymm3, %ymm1
	vpaddq	%ymm0, %ymm1, %ymm0
	vmovdqu	%ymm0, 240(%rsp)
	vmovq	%rbp, %xmm0
	vpbroadcastq	%xmm0, %ymm4
	vpmuludq	%ymm4, %ymm9, %ymm1
	vpmuldq	%ymm8, %ymm10, %ymm11
	vpaddq	%ymm1, %ymm11, %ymm1
	vmovdqa	%ymm14, %ymm0
	vpmuludq	%ymm14, %ymm13, %ymm11
	vpaddq	%ymm1, %ymm11, %ymm1
	vpaddq	144(%rsp), %ymm1, %ymm1
	vmovdqu	%ymm1, 144(%rsp)
	vpmuldq	%ymm6, %ymm15, %ymm1
	vpmuldq	%ymm12, %ymm3, %ymm6
	vpaddq	%ymm1, %ymm6, %ymm6
	vmovq	%rdi, %xmm1
	vpbroadcastq	%xmm1, %ymm2
	vpmuldq	%ymm2, %ymm9, %ymm1
	vpmuludq	%ymm4, %ymm10, %ymm14
	vpaddq	%ymm1, %ymm14, %ymm1
	vpmuldq	%ymm8, %ymm13, %ymm14
	vpaddq	%ymm1, %ymm14, %ymm1
	vpaddq	80(%rsp), %ymm1, %ymm14
	vpmuldq	%ymm12, %ymm15, %ymm1
	vpmuludq	%ymm0, %ymm3, %ymm12
	vmovdqa	%ymm0, %ymm11
	vpaddq	%ymm1, %ymm12, %ymm12
	vmovq	%r13, %xmm1
	vpbroadcastq	%xmm1, %ymm0
	vpmuldq	%ymm0, %ymm9, %ymm1
	vpmuldq	%ymm2, %ymm10, %ymm5
	vpaddq	%ymm5, %ymm1, %ymm1
	vpmuludq	%ymm4, %ymm13, %ymm5
	vpaddq	%ymm5, %ymm1, %ymm1
	vpaddq	176(%rsp), %ymm1, %ymm5
	vpmuludq	%ymm11, %ymm15, %ymm1
	vpmuldq	%ymm8, %ymm3, %ymm11
	vpaddq	%ymm1, %ymm11, %ymm1
	vmovq	%r11, %xmm11
	vpbroadcastq	%xmm11, %ymm11
	vpmuludq	%ymm11, %ymm9, %ymm9
	vpmuldq	%ymm0, %ymm10, %ymm0
	vpaddq	%ymm0, %ymm9, %ymm0
	vpmuldq	%ymm2, %ymm13, %ymm2
	vpaddq	%ymm2, %ymm0, %ymm0
	vpaddq	336(%rsp), %ymm0, %ymm9
	vpmuludq	%ymm4, %ymm3, %ymm0
	vmovdqu	64(%rsi), %ymm2
	vpmuldq	%ymm8, %ymm15, %ymm3
	vmovdqu	96(%rsi), %ymm4
	vpaddq	%ymm3, %ymm0, %ymm8
	vpunpcklqdq	%ymm4, %ymm2, %ymm0
	vpermq	$216, %ymm0, %ymm0
	vpunpckhqdq	%ymm4, %ymm2, %ymm3
	vpand	%ymm7, %ymm0, %ymm2
	vpaddq	240(%rsp), %ymm2, %ymm2
	vpaddq	272(%rsp), %ymm2, %ymm2
	vpsrlq	$26, %ymm0, %ymm4
	vpand	%ymm7, %ymm4, %ymm4
	vpaddq	%ymm4, %ymm6, %ymm4
	vpermq	$216, %ymm3, %ymm6
	vpaddq	144(%rsp), %ymm4, %ymm4
	vpsrlq	$52, %ymm0, %ymm0
	vpsllq	$12, %ymm6, %ymm3
	vpor	%ymm0, %ymm3, %ymm0
	vpand	%ymm7, %ymm0, %ymm0
	vpaddq	%ymm0, %ymm12, %ymm0
	vpaddq	%ymm0, %ymm14, %ymm0
	vpsrlq	$14, %ymm6, %ymm3
	vpand	%ymm7, %ymm3, %ymm3
	vpaddq	%ymm3, %ymm1, %ymm1
	vpaddq	%ymm1, %ymm5, %ymm3
	vpsrlq	$40, %ymm6, %ymm1
	vpaddq	%ymm1, %ymm8, %ymm1
	vpaddq	304(%rsp), %ymm1, %ymm1
	vpaddq	%ymm1, %ymm9, %ymm11
	addq	$128, %rsi
	addq	$-128, %rbx
	cmpq	$127, %rbx
	ja	.Lnoise_BB_v3s_5_1
	vpsrlq	$26, %ymm2, %ymm1
	vpaddq	%ymm4, %ymm1, %ymm1
	vpsrlq	$26, %ymm3, %ymm4
	vpaddq	%ymm4, %ymm11, %ymm5
	vpsrlq	$26, %ymm1, %ymm4
	vpaddq	%ymm0, %ymm4, %ymm6
	vmovdqu	208(%rsp), %ymm8
	vpand	%ymm2, %ymm8, %ymm0
	vpsrlq	$26, %ymm5, %ymm2
	vpaddq	%ymm2, %ymm0, %ymm0
	vpsllq	$2, %ymm2, %ymm2
	vpaddq	%ymm2, %ymm0, %ymm0
	vpand	%ymm3, %ymm8, %ymm2
	vpsrlq	$26, %ymm6, %ymm3
	vpaddq	%ymm2, %ymm3, %ymm7
	vpand	%ymm1, %ymm8, %ymm1
	vpsrlq	$26, %ymm0, %ymm2
	vpaddq	%ymm1, %ymm2, %ymm4
	vpand	%ymm5, %ymm8, %ymm1
	vpsrlq	$26, %ymm7, %ymm2
	vpaddq	%ymm1, %ymm2, %ymm2
	vpbroadcastd	.Lnoise_CPI_v3s_5_2(%rip), %ymm1
	vpand	%ymm1, %ymm0, %ymm0
	vmovd	%xmm0, %edx
	vmovd	%xmm4, %r9d
	vpand	%ymm1, %ymm6, %ymm3
	vmovd	%xmm3, %r10d
	vpand	%ymm1, %ymm7, %ymm1
	vmovd	%xmm1, %r11d
	movq	48(%rsp), %rcx
	movq	%rcx, %rax
	movq	%rcx, %r12
	imulq	%rdx, %rax
	movq	%rdx, %r8
	movq	%r10, %rcx
	movq	32(%rsp), %r15
	imulq	%r15, %rcx
	addq	%rax, %rcx
	movq	64(%rsp), %rax
	leaq	(%rax,%rax,4), %r13
	movq	%r13, %rax
	imulq	%r9, %rax
	addq	%rax, %rcx
	movq	%r11, %rax
	movq	24(%rsp), %rdx
	imulq	%rdx, %rax
	addq	%rcx, %rax
	vmovd	%xmm2, %r14d
	movq	%r14, %rdi
	imulq	40(%rsp), %rdi
	addq	%rax, %rdi
	movq	%r8, %rax
	movq	%r8, %rbp
	imulq	8(%rsp), %rax
	movq	%r13, %rcx
	imulq	%r10, %rcx
	addq	%rax, %rcx
	movq	%r12, %rax
	imulq	%r9, %rax
	addq	%rax, %rcx
	movq	%r11, %r8
	imulq	%r15, %r8
	addq	%rcx, %r8
	movq	%r14, %rax
	imulq	%rdx, %rax
	addq	%r8, %rax
	movq	%rbp, %rcx
	movq	%rbp, 80(%rsp)
	imulq	16(%rsp), %rcx
	movq	%r12, %r8
	imulq	%r10, %r8
	addq	%rcx, %r8
	movq	%r9, %rcx
	movq	%r9, 176(%rsp)
	movq	8(%rsp), %rdx
	imulq	%rdx, %rcx
	addq	%rcx, %r8
	movq	%r13, %rcx
	movq	%r13, 56(%rsp)
	imulq	%r11, %rcx
	addq	%r8, %rcx
	movq	%r14, %r12
	imulq	%r15, %r12
	addq	%rcx, %r12
	movq	%rbp, %rcx
	movq	72(%rsp), %rbp
	imulq	%rbp, %rcx
	movq	%r10, %r8
	imulq	%rdx, %r8
	addq	%rcx, %r8
	movq	%r9, %rcx
	movq	16(%rsp), %rdx
	imulq	%rdx, %rcx
	addq	%rcx, %r8
	movq	48(%rsp), %r9
	movq	%r9, %rcx
	imulq	%r11, %rcx
	addq	%r8, %rcx
	movq	%r13, %r15
	imulq	%r14, %r15
	addq	%rcx, %r15
	movq	80(%rsp), %rcx
	imulq	64(%rsp), %rcx
	imulq	%rdx, %r10
	addq	%rcx, %r10
	movq	176(%rsp), %rcx
	imulq	%rbp, %rcx
	addq	%rcx, %r10
	imulq	8(%rsp), %r11
	addq	%r10, %r11
	movq	%r9, %r13
	imulq	%r9, %r14
	addq	%r11, %r14
	movl	%edi, %edx
	shrq	$26, %rdi
	addq	%rax, %rdi
	movl	%r15d, %r10d
	shrq	$26, %r15
	addq	%r14, %r15
	movl	%edi, %eax
	andl	$67108863, %eax
	vpextrd	$2, %xmm4, %ecx
	addl	%ecx, %eax
	shrq	$26, %rdi
	addq	%r12, %rdi
	movl	%r15d, %ecx
	andl	$67108863, %ecx
	vpextrd	$2, %xmm2, %r8d
	addl	%r8d, %ecx
	movl	%edi, %r9d
	andl	$67108863, %r9d
	vpextrd	$2, %xmm3, %r8d
	addl	%r8d, %r9d
	andl	$67108863, %r10d
	shrq	$26, %rdi
	addq	%r10, %rdi
	andl	$67108863, %edx
	shrq	$26, %r15
	leaq	(%r15,%r15,4), %r10
	addq	%rdx, %r10
	movl	%r10d, %r14d
	andl	$67108863, %r14d
	vpextrd	$2, %xmm0, %edx
	addl	%edx, %r14d
	movl	%edi, %r11d
	andl	$67108863, %r11d
	vpextrd	$2, %xmm1, %edx
	addl	%edx, %r11d
	shrq	$26, %r10
	addl	%eax, %r10d
	shrq	$26, %rdi
	addl	%ecx, %edi
	movq	%r13, %rax
	imulq	%r14, %rax
	movq	%r9, %rcx
	movq	32(%rsp), %r15
	imulq	%r15, %rcx
	addq	%rax, %rcx
	movq	56(%rsp), %rbp
	movq	%rbp, %rax
	imulq	%r10, %rax
	addq	%rax, %rcx
	movq	%r11, %rax
	movq	24(%rsp), %r8
	imulq	%r8, %rax
	movq	%rdi, %rdx
	imulq	40(%rsp), %rdx
	addq	%rax, %rdx
	addq	%rcx, %rdx
	movq	%r14, %rax
	movq	8(%rsp), %r12
	imulq	%r12, %rax
	movq	%rbp, %rcx
	imulq	%r9, %rcx
	addq	%rax, %rcx
	movq	%r13, %rax
	imulq	%r10, %rax
	addq	%rax, %rcx
	movq	%r11, %rax
	imulq	%r15, %rax
	movq	%rdi, %r15
	imulq	%r8, %r15
	addq	%rax, %r15
	addq	%rcx, %r15
	movq	%r14, %rax
	movq	16(%rsp), %r8
	imulq	%r8, %rax
	movq	%r13, %rcx
	imulq	%r9, %rcx
	addq	%rax, %rcx
	movq	%r10, %rax
	imulq	%r12, %rax
	movq	%r12, %rbp
	addq	%rax, %rcx
	movq	56(%rsp), %r13
	movq	%r13, %rax
	imulq	%r11, %rax
	movq	%rdi, %r12
	imulq	32(%rsp), %r12
	addq	%rax, %r12
	addq	%rcx, %r12
	movq	%r14, %rax
	imulq	72(%rsp), %rax
	movq	%r9, %rcx
	imulq	%rbp, %rcx
	addq	%rax, %rcx
	movq	%r10, %rax
	imulq	%r8, %rax
	movq	%r8, %rbp
	addq	%rax, %rcx
	movq	48(%rsp), %r8
	imulq	%r11, %r8
	movq	%r13, %rax
	imulq	%rdi, %rax
	addq	%r8, %rax
	addq	%rcx, %rax
	imulq	64(%rsp), %r14
	imulq	%rbp, %r9
	addq	%r14, %r9
	imulq	72(%rsp), %r10
	addq	%r10, %r9
	imulq	8(%rsp), %r11
	movq	48(%rsp), %r13
	imulq	%r13, %rdi
	addq	%r11, %rdi
	vextracti128	$1, %ymm4, %xmm4
	addq	%r9, %rdi
	movl	%edx, %r11d
	shrq	$26, %rdx
	addq	%r15, %rdx
	movl	%eax, %ecx
	shrq	$26, %rax
	addq	%rdi, %rax
	movl	%edx, %edi
	andl	$67108863, %edi
	vmovd	%xmm4, %r8d
	addl	%r8d, %edi
	vextracti128	$1, %ymm2, %xmm2
	shrq	$26, %rdx
	addq	%r12, %rdx
	movl	%eax, %ebp
	andl	$67108863, %ebp
	vmovd	%xmm2, %r8d
	addl	%r8d, %ebp
	vextracti128	$1, %ymm3, %xmm3
	movl	%edx, %r9d
	andl	$67108863, %r9d
	vmovd	%xmm3, %r8d
	addl	%r8d, %r9d
	andl	$67108863, %ecx
	shrq	$26, %rdx
	addq	%rcx, %rdx
	vextracti128	$1, %ymm0, %xmm0
	andl	$67108863, %r11d
	shrq	$26, %rax
	leaq	(%rax,%rax,4), %r10
	addq	%r11, %r10
	movl	%r10d, %r11d
	andl	$67108863, %r11d
	vmovd	%xmm0, %eax
	addl	%eax, %r11d
	vextracti128	$1, %ymm1, %xmm1
	movl	%edx, %r14d
	andl	$67108863, %r14d
	vmovd	%xmm1, %eax
	addl	%eax, %r14d
	shrq	$26, %r10
	addl	%edi, %r10d
	shrq	$26, %rdx
	addl	%ebp, %edx
	movq	%r13, %r12
	movq	%r13, %rax
	imulq	%r11, %rax
	movq	%r9, %rcx
	movq	32(%rsp), %r8
	imulq	%r8, %rcx
	addq	%rax, %rcx
	movq	56(%rsp), %r13
	movq	%r13, %rax
	imulq	%r10, %rax
	addq	%rax, %rcx
	movq	%r14, %rax
	movq	24(%rsp), %rbp
	imulq	%rbp, %rax
	movq	%rdx, %rdi
	imulq	40(%rsp), %rdi
	addq	%rax, %rdi
	addq	%rcx, %rdi
	movq	%r11, %rax
	movq	8(%rsp), %r15
	imulq	%r15, %rax
	movq	%r13, %rcx
	imulq	%r9, %rcx
	addq	%rax, %rcx
	movq	%r12, %rax
	imulq	%r10, %rax
	addq	%rax, %rcx
	movq	%r14, %rax
	imulq	%r8, %rax
	movq	%rdx, %r13
	imulq	%rbp, %r13
	addq	%rax, %r13
	addq	%rcx, %r13
	movq	%r11, %rax
	imulq	16(%rsp), %rax
	movq	%r12, %rcx
	imulq	%r9, %rcx
	addq	%rax, %rcx
	movq	%r10, %rax
	movq	%r15, %r8
	imulq	%r15, %rax
	addq	%rax, %rcx
	movq	56(%rsp), %r15
	movq	%r15, %rax
	imulq	%r14, %rax
	movq	%rdx, %r12
	imulq	32(%rsp), %r12
	addq	%rax, %r12
	addq	%rcx, %r12
	movq	%r11, %rax
	movq	72(%rsp), %rbp
	imulq	%rbp, %rax
	movq	%r9, %rcx
	imulq	%r8, %rcx
	addq	%rax, %rcx
	movq	%r10, %rax
	imulq	16(%rsp), %rax
	addq	%rax, %rcx
	movq	48(%rsp), %r8
	imulq	%r14, %r8
	movq	%r15, %rax
	imulq	%rdx, %rax
	addq	%r8, %rax
	addq	%rcx, %rax
	imulq	64(%rsp), %r11
	imulq	16(%rsp), %r9
	addq	%r11, %r9
	imulq	%rbp, %r10
	addq	%r10, %r9
	imulq	8(%rsp), %r14
	movq	48(%rsp), %r15
	imulq	%r15, %rdx
	addq	%r14, %rdx
	addq	%r9, %rdx
	movl	%edi, %r10d
	shrq	$26, %rdi
	addq	%r13, %rdi
	movl	%eax, %r9d
	shrq	$26, %rax
	addq	%rdx, %rax
	vpextrd	$2, %xmm4, %ecx
	movl	%edi, %ebp
	andl	$67108863, %ebp
	addl	%ecx, %ebp
	shrq	$26, %rdi
	addq	%r12, %rdi
	movl	%eax, %ecx
	andl	$67108863, %ecx
	vpextrd	$2, %xmm2, %edx
	addl	%edx, %ecx
	vpextrd	$2, %xmm3, %r8d
	movl	%edi, %edx
	andl	$67108863, %edx
	addl	%r8d, %edx
	andl	$67108863, %r9d
	shrq	$26, %rdi
	addq	%r9, %rdi
	andl	$67108863, %r10d
	shrq	$26, %rax
	leaq	(%rax,%rax,4), %r9
	addq	%r10, %r9
	vpextrd	$2, %xmm0, %eax
	movl	%r9d, %r11d
	andl	$67108863, %r11d
	addl	%eax, %r11d
	movl	%edi, %r10d
	andl	$67108863, %r10d
	vpextrd	$2, %xmm1, %eax
	addl	%eax, %r10d
	shrq	$26, %r9
	addl	%ebp, %r9d
	shrq	$26, %rdi
	addl	%ecx, %edi
	movq	%r15, %r12
	movq	%r15, %rax
	imulq	%r11, %rax
	movq	%rdx, %rcx
	movq	32(%rsp), %r8
	imulq	%r8, %rcx
	addq	%rax, %rcx
	movq	56(%rsp), %r13
	movq	%r13, %rax
	imulq	%r9, %rax
	addq	%rax, %rcx
	movq	%r10, %rax
	movq	24(%rsp), %r15
	imulq	%r15, %rax
	movq	40(%rsp), %r14
	imulq	%rdi, %r14
	addq	%rax, %r14
	addq	%rcx, %r14
	movq	%r14, 40(%rsp)
	movq	%r11, %rax
	movq	8(%rsp), %rbp
	imulq	%rbp, %rax
	movq	%r13, %rcx
	imulq	%rdx, %rcx
	addq	%rax, %rcx
	movq	%r12, %rax
	imulq	%r9, %rax
	addq	%rax, %rcx
	movq	%r10, %rax
	imulq	%r8, %rax
	imulq	%rdi, %r15
	addq	%rax, %r15
	addq	%rcx, %r15
	movq	%r15, 24(%rsp)
	movq	%r11, %rax
	movq	16(%rsp), %r14
	imulq	%r14, %rax
	movq	%r12, %rcx
	movq	%r12, %r15
	imulq	%rdx, %rcx
	addq	%rax, %rcx
	movq	%r9, %rax
	imulq	%rbp, %rax
	addq	%rax, %rcx
	movq	%r13, %rax
	imulq	%r10, %rax
	imulq	%rdi, %r8
	addq	%rax, %r8
	addq	%rcx, %r8
	movq	%r8, %r12
	movq	%r11, %rax
	movq	72(%rsp), %r8
	imulq	%r8, %rax
	movq	%rdx, %rcx
	imulq	%rbp, %rcx
	addq	%rax, %rcx
	movq	%r9, %rax
	imulq	%r14, %rax
	addq	%rax, %rcx
	movq	%r15, %rax
	imulq	%r10, %rax
	imulq	%rdi, %r13
	addq	%rax, %r13
	addq	%rcx, %r13
	imulq	64(%rsp), %r11
	imulq	%r8, %r9
	imulq	%r14, %rdx
	addq	%r11, %rdx
	addq	%r9, %rdx
	imulq	%rbp, %r10
	imulq	%rdi, %r15
	addq	%r10, %r15
	addq	%rdx, %r15
	movq	40(%rsp), %r9
	movl	%r9d, %eax
	andl	$67108863, %eax
	shrq	$26, %r9
	addq	24(%rsp), %r9
	movq	%r13, %rdi
	movl	%edi, %ecx
	andl	$67108863, %ecx
	shrq	$26, %rdi
	addq	%r15, %rdi
	movq	%rdi, %r10
	movl	%r9d, %edi
	andl	$67108863, %edi
	shrq	$26, %r9
	addq	%r12, %r9
	movq	%r9, %rdx
	shrq	$26, %rdx
	addq	%rcx, %rdx
	movl	%r10d, %r8d
	andl	$67108863, %r8d
	shrq	$26, %r10
	leaq	(%r10,%r10,4), %rcx
	addq	%rax, %rcx
	movq	%rcx, %rax
	shrq	$26, %rax
	addl	%edi, %eax
	movq	%rdx, %rdi
	shrq	$26, %rdi
	addl	%r8d, %edi
	andl	$67108863, %ecx
	movl	%r9d, %r8d
	shlq	$52, %r9
	orq	%rcx, %r9
	shlq	$26, %rax
	andl	$67104768, %r8d
	shrl	$12, %r8d
	andl	$67108863, %edx
	shlq	$14, %rdx
	addq	%rax, %r9
	adcq	%r8, %rdx
	movq	%rdi, %rax
	shlq	$40, %rax
	shrl	$24, %edi
	addq	%rdx, %rax
	adcq	$0, %rdi
	movl	%edi, %ecx
	shrl	$2, %ecx
	leaq	(%rcx,%rcx,4), %rcx
	andl	$3, %edi
	addq	%r9, %rcx
	adcq	$0, %rax
	adcq	$0, %rdi
	movq	136(%rsp), %r15
	movq	%rcx, (%r15)
	movq	%rax, 8(%r15)
	movq	%rdi, 16(%r15)
	movq	$0, 24(%r15)
	cmpq	$16, %rbx
	jae	.Lnoise_BB_v3s_5_4
	movq	%rcx, %r10
	jmp	.Lnoise_BB_v3s_5_6
.Lnoise_BB_v3s_5_4:
	movq	128(%rsp), %r12
	movq	%r12, %r9
	shrq	$2, %r9
	addq	%r12, %r9
	movq	120(%rsp), %r13
	.p2align	4
.Lnoise_BB_v3s_5_5:
	addq	(%rsi), %rcx
	adcq	8(%rsi), %rax
	adcq	$1, %rdi
	movq	%rcx, %rdx
	mulxq	%r13, %r14, %r8
	movq	%rax, %rdx
	mulxq	%r9, %r10, %r11
	addq	%r14, %r10
	adcq	%r8, %r11
	movq	%rcx, %rdx
	mulxq	%r12, %r8, %rcx
	movq	%rax, %rdx
	mulxq	%r13, %rdx, %r14
	addq	%r8, %rdx
	adcq	%rcx, %r14
	movq	%rdi, %rax
	imulq	%r9, %rax
	addq	%rdx, %rax
	adcq	$0, %r14
	imulq	%r13, %rdi
	movq	%rax, %rcx
	addq	%r11, %rcx
	adcq	%r14, %rdi
	movq	%rdi, %rdx
	shrq	$2, %rdx
	leaq	(%rdx,%rdx,4), %rdx
	movq	%rdx, %r8
	addq	%r10, %r8
	adcq	%r11, %rax
	andl	$3, %edi
	addq	%rdx, %r10
	adcq	$0, %rcx
	adcq	$0, %rdi
	addq	$16, %rsi
	addq	$-16, %rbx
	movq	%r10, %rcx
	cmpq	$15, %rbx
	ja	.Lnoise_BB_v3s_5_5
.Lnoise_BB_v3s_5_6:
	movq	%r10, (%r15)
	movq	%rax, 8(%r15)
	movq	%rdi, 16(%r15)
	movq	$0, 24(%r15)
	movq	80(%r15), %r14
	leaq	(%r15,%r14), %rdi
	addq	$64, %rdi
	movq	%rdi, %rax
	subq	%rsi, %rax
	cmpq	%rbx, %rax
	jae	.Lnoise_BB_v3s_5_9
	cmpq	$8, %rbx
	jb	.Lnoise_BB_v3s_5_8
	leaq	(%r14,%r15), %rax
	subq	%rsi, %rax
	addq	$64, %rax
	cmpq	$128, %rax
	jae	.Lnoise_BB_v3s_5_12
.Lnoise_BB_v3s_5_8:
	xorl	%eax, %eax
.Lnoise_BB_v3s_5_15:
	movq	%rbx, %rdx
	movq	%rax, %rcx
	andq	$3, %rdx
	je	.Lnoise_BB_v3s_5_18
	movq	%rax, %rcx
	.p2align	4
.Lnoise_BB_v3s_5_17:
	movzbl	(%rsi,%rcx), %r8d
	movb	%r8b, (%rdi,%rcx)
	incq	%rcx
	decq	%rdx
	jne	.Lnoise_BB_v3s_5_17
.Lnoise_BB_v3s_5_18:
	subq	%rbx, %rax
	cmpq	$-4, %rax
	ja	.Lnoise_BB_v3s_5_20
	.p2align	4
.Lnoise_BB_v3s_5_19:
	leaq	(%r14,%r15), %rax
	addq	$67, %rax
	movzbl	(%rsi,%rcx), %edx
	movb	%dl, -3(%rax,%rcx)
	movzbl	1(%rsi,%rcx), %edx
	movb	%dl, -2(%rax,%rcx)
	movzbl	2(%rsi,%rcx), %edx
	movb	%dl, -1(%rax,%rcx)
	movzbl	3(%rsi,%rcx), %edx
	movb	%dl, (%rax,%rcx)
	addq	$4, %rcx
	cmpq	%rcx, %rbx
	jne	.Lnoise_BB_v3s_5_19
	jmp	.Lnoise_BB_v3s_5_20
.Lnoise_BB_v3s_5_9:
	movq	%rbx, %rdx
	vzeroupper
	callq	memmove@PLT
.Lnoise_BB_v3s_5_20:
	addq	%rbx, %r14
	movq	%r14, 80(%r15)
	addq	$376, %rsp
	.cfi_def_cfa_offset 56
	popq	%rbx
	.cfi_def_cfa_offset 48
	popq	%r12
	.cfi_def_cfa_offset 40
	popq	%r13
	.cfi_def_cfa_offset 32
	popq	%r14
	.cfi_def_cfa_offset 24
	popq	%r15
	.cfi_def_cfa_offset 16
	popq	%rbp
	.cfi_def_cfa_offset 8
	vzeroupper
	retq
.Lnoise_BB_v3s_5_12:
	.cfi_def_cfa_offset 432
	movl	%ebx, %eax
	andl	$8, %eax
	xorl	%ecx, %ecx
	.p2align	4
.Lnoise_BB_v3s_5_13:
	movq	(%rsi,%rcx), %rdx
	movq	%rdx, (%rdi,%rcx)
	addq	$8, %rcx
	cmpq	%rcx, %rax
	jne	.Lnoise_BB_v3s_5_13
	cmpq	%rax, %rbx
	je	.Lnoise_BB_v3s_5_20
	jmp	.Lnoise_BB_v3s_5_15
.Lnoise_func_end_v3s_5:
	.size	"noise_poly::Poly1305::take_eights.v3", .Lnoise_func_end_v3s_5-"noise_poly::Poly1305::take_eights.v3"
	.cfi_endproc

	.section	.rodata.cst32,"aM",@progbits,32
	.p2align	5, 0x0
.Lnoise_CPI_v4w_1_8:
	.long	0
	.zero	4
	.long	2
	.long	9
	.long	5
	.zero	4
	.zero	4
	.zero	4
	.section	.rodata.cst32,"aM",@progbits,32
	.p2align	5, 0x0
.Lnoise_CPI_v4w_1_9:
	.long	0
	.long	1
	.long	2
	.long	10
	.long	6
	.zero	4
	.zero	4
	.zero	4
	.section	.rodata.cst32,"aM",@progbits,32
	.p2align	5, 0x0
.Lnoise_CPI_v4w_1_10:
	.long	0
	.long	1
	.long	2
	.zero	4
	.long	7
	.long	11
	.zero	4
	.zero	4
	.section	".text.rand_chacha::guts::refill4","ax",@progbits
	.p2align	4
	.type	"rand_chacha::guts::refill4.v4",@function
"rand_chacha::guts::refill4.v4":
	.cfi_startproc
	vpbroadcastd	(%rdi), %xmm6
	vpbroadcastd	4(%rdi), %xmm10
	vpbroadcastd	8(%rdi), %xmm11
	vpbroadcastd	12(%rdi), %xmm7
	vpbroadcastd	16(%rdi), %xmm8
	vpbroadcastd	20(%rdi), %xmm9
	vpbroadcastd	24(%rdi), %xmm12
	vpbroadcastd	28(%rdi), %xmm13
	vpbroadcastq	%rsi, %ymm0
	vpaddq	.Lnoise_CPI_v3w_1_0(%rip), %ymm0, %ymm1
	vpmovqd	%ymm0, %xmm0
	vpaddd	.Lnoise_CPI1_2(%rip), %xmm0, %xmm26
	vpsrlq	$32, %ymm1, %ymm1
	vpmovqd	%ymm1, %xmm27
	vpbroadcastd	%edx, %xmm14
	shrq	$32, %rdx
	vpbroadcastd	%edx, %xmm15
	vinserti128	$1, %xmm9, %ymm8, %ymm3
	vinserti32x4	$1, %xmm26, %ymm15, %ymm2
	vinserti32x4	$1, %xmm6, %ymm7, %ymm17
	vinserti32x4	$1, %xmm14, %ymm27, %ymm4
	vmovdqa64	.Lnoise_CPI_v3w_1_2(%rip), %ymm16
	vmovdqa64	.Lnoise_CPI_v3w_1_3(%rip), %ymm21
	vinserti32x4	$1, %xmm11, %ymm10, %ymm18
	vinserti128	$1, %xmm13, %ymm12, %ymm5
	movl	$10, %eax
	.p2align	4
.Lnoise_BB_v4w_1_1:
	vpaddd	%ymm21, %ymm17, %ymm0
	vpaddd	%ymm16, %ymm18, %ymm1
	vpxor	%ymm1, %ymm4, %ymm4
	vpxor	%ymm0, %ymm2, %ymm2
	vprold	$16, %ymm2, %ymm2
	vprold	$16, %ymm4, %ymm4
	vshufi64x2	$1, %ymm3, %ymm5, %ymm16
	vperm2i128	$33, %ymm5, %ymm3, %ymm3
	vpaddd	%ymm3, %ymm4, %ymm3
	vpaddd	%ymm16, %ymm2, %ymm5
	vpxord	%ymm17, %ymm5, %ymm16
	vpxord	%ymm18, %ymm3, %ymm17
	vprold	$12, %ymm17, %ymm17
	vprold	$12, %ymm16, %ymm16
	vpaddd	%ymm0, %ymm16, %ymm0
	vpaddd	%ymm1, %ymm17, %ymm1
	vpxor	%ymm4, %ymm1, %ymm4
	vpxor	%ymm2, %ymm0, %ymm2
	vprold	$8, %ymm2, %ymm2
	vprold	$8, %ymm4, %ymm4
	vpaddd	%ymm3, %ymm4, %ymm3
	vpaddd	%ymm5, %ymm2, %ymm5
	vpxord	%ymm16, %ymm5, %ymm16
	vpxord	%ymm17, %ymm3, %ymm17
	vprold	$7, %ymm17, %ymm17
	vprold	$7, %ymm16, %ymm16
	vshufi64x2	$1, %ymm1, %ymm0, %ymm18
	vperm2i128	$33, %ymm0, %ymm1, %ymm0
	vpaddd	%ymm0, %ymm16, %ymm0
	vpaddd	%ymm18, %ymm17, %ymm1
	vpxor	%ymm2, %ymm1, %ymm2
	vpxor	%ymm4, %ymm0, %ymm4
	vprold	$16, %ymm4, %ymm4
	vprold	$16, %ymm2, %ymm2
	vshufi64x2	$1, %ymm3, %ymm5, %ymm18
	vperm2i128	$33, %ymm5, %ymm3, %ymm3
	vpaddd	%ymm3, %ymm2, %ymm3
	vpaddd	%ymm18, %ymm4, %ymm18
	vpxord	%ymm16, %ymm18, %ymm5
	vpxord	%ymm17, %ymm3, %ymm16
	vprold	$12, %ymm16, %ymm16
	vprold	$12, %ymm5, %ymm17
	vpaddd	%ymm0, %ymm17, %ymm19
	vpaddd	%ymm1, %ymm16, %ymm20
	vpxord	%ymm2, %ymm20, %ymm0
	vpxord	%ymm4, %ymm19, %ymm1
	vprold	$8, %ymm1, %ymm4
	vprold	$8, %ymm0, %ymm2
	vpaddd	%ymm3, %ymm2, %ymm5
	vpaddd	%ymm18, %ymm4, %ymm3
	vpxord	%ymm17, %ymm3, %ymm0
	vpxord	%ymm16, %ymm5, %ymm1
	vprold	$7, %ymm1, %ymm18
	vprold	$7, %ymm0, %ymm17
	vshufi64x2	$1, %ymm20, %ymm19, %ymm21
	vshufi64x2	$1, %ymm19, %ymm20, %ymm16
	decl	%eax
	jne	.Lnoise_BB_v4w_1_1
	vextracti32x4	$1, %ymm19, %xmm21
	vextracti32x4	$1, %ymm20, %xmm22
	vextracti32x4	$1, %ymm2, %xmm16
	vpbroadcastd	%xmm11, %xmm23
	vpbroadcastd	%xmm10, %xmm24
	vpbroadcastd	%xmm14, %xmm10
	vpbroadcastd	%xmm13, %xmm13
	vpbroadcastd	%xmm12, %xmm12
	vpbroadcastd	%xmm15, %xmm11
	vpbroadcastd	%xmm9, %xmm9
	vpbroadcastd	%xmm8, %xmm8
	vpbroadcastd	%xmm7, %xmm25
	vpbroadcastd	%xmm6, %xmm6
	vpaddd	.Lnoise_CPI_v3w_1_6(%rip){1to4}, %xmm20, %xmm20
	vpaddd	.Lnoise_CPI_v3w_1_7(%rip){1to4}, %xmm22, %xmm7
	vpaddd	.Lnoise_CPI_v3w_1_8(%rip){1to4}, %xmm19, %xmm14
	vpaddd	.Lnoise_CPI_v3w_1_9(%rip){1to4}, %xmm21, %xmm15
	vextracti32x4	$1, %ymm17, %xmm19
	vpaddd	%xmm19, %xmm6, %xmm19
	vpaddd	%xmm18, %xmm24, %xmm21
	vextracti32x4	$1, %ymm18, %xmm6
	vpaddd	%xmm6, %xmm23, %xmm18
	vpaddd	%xmm17, %xmm25, %xmm17
	vpunpckldq	%xmm7, %xmm20, %xmm6
	vpunpcklqdq	%xmm14, %xmm6, %xmm6
	vpbroadcastd	%xmm15, %xmm0
	vpblendd	$8, %xmm0, %xmm6, %xmm0
	vinserti32x4	$1, %xmm19, %ymm0, %ymm0
	vpbroadcastd	%xmm21, %ymm6
	vpblendd	$32, %ymm6, %ymm0, %ymm0
	vpbroadcastq	%xmm18, %ymm6
	vpblendd	$192, %ymm6, %ymm0, %ymm0
	vpbroadcastd	%xmm17, %ymm6
	vpblendd	$128, %ymm6, %ymm0, %ymm0
	vmovdqu	%ymm0, (%rcx)
	vpshufd	$85, %xmm20, %xmm0
	vpblendd	$2, %xmm7, %xmm0, %xmm0
	vshufps	$212, %xmm14, %xmm0, %xmm0
	vinsertf32x4	$1, %xmm19, %ymm0, %ymm1
	vmovdqa64	.Lnoise_CPI_v4w_1_8(%rip), %ymm22
	vpermt2d	%ymm15, %ymm22, %ymm1
	vinsertf32x4	$1, %xmm21, %ymm0, %ymm0
	vpblendd	$34, %ymm0, %ymm1, %ymm0
	vpmovzxdq	%xmm18, %xmm1
	vinserti128	$1, %xmm1, %ymm0, %ymm1
	vpblendd	$192, %ymm1, %ymm0, %ymm0
	vpbroadcastq	%xmm17, %ymm1
	vpblendd	$128, %ymm1, %ymm0, %ymm0
	vmovdqu	%ymm0, 64(%rcx)
	vpunpckhdq	%xmm7, %xmm20, %xmm0
	vpblendd	$12, %xmm14, %xmm0, %xmm1
	vinserti32x4	$1, %xmm19, %ymm1, %ymm1
	vmovdqa	.Lnoise_CPI_v4w_1_9(%rip), %ymm7
	vpermt2d	%ymm15, %ymm7, %ymm1
	vpshufd	$250, %xmm21, %xmm20
	vinserti32x4	$1, %xmm20, %ymm0, %ymm6
	vpblendd	$32, %ymm6, %ymm1, %ymm1
	vinserti32x4	$1, %xmm18, %ymm0, %ymm6
	vpblendd	$192, %ymm6, %ymm1, %ymm1
	vpshufd	$170, %xmm17, %xmm6
	vinserti128	$1, %xmm6, %ymm0, %ymm6
	vpblendd	$128, %ymm6, %ymm1, %ymm1
	vmovdqu	%ymm1, 128(%rcx)
	vshufps	$254, %xmm14, %xmm0, %xmm0
	vinsertf32x4	$1, %xmm19, %ymm0, %ymm0
	vmovdqa	.Lnoise_CPI_v4w_1_10(%rip), %ymm14
	vpermt2d	%ymm21, %ymm14, %ymm0
	vpshufd	$250, %xmm18, %xmm1
	vinserti128	$1, %xmm1, %ymm0, %ymm1
	vpblendd	$192, %ymm1, %ymm0, %ymm0
	vinserti32x4	$1, %xmm17, %ymm15, %ymm1
	vpblendd	$136, %ymm1, %ymm0, %ymm0
	vmovdqu	%ymm0, 192(%rcx)
	vpaddd	%xmm3, %xmm8, %xmm0
	vextracti128	$1, %ymm3, %xmm1
	vpaddd	%xmm1, %xmm9, %xmm8
	vpaddd	%xmm5, %xmm12, %xmm3
	vextracti128	$1, %ymm5, %xmm1
	vpaddd	%xmm1, %xmm13, %xmm1
	vpaddd	%xmm16, %xmm26, %xmm5
	vpaddd	%xmm27, %xmm4, %xmm6
	vextracti128	$1, %ymm4, %xmm4
	vpaddd	%xmm4, %xmm10, %xmm4
	vpaddd	%xmm2, %xmm11, %xmm2
	vpunpckldq	%xmm8, %xmm0, %xmm9
	vpunpcklqdq	%xmm3, %xmm9, %xmm9
	vpbroadcastd	%xmm1, %xmm10
	vpblendd	$8, %xmm10, %xmm9, %xmm9
	vinserti128	$1, %xmm5, %ymm9, %ymm9
	vpbroadcastd	%xmm6, %ymm10
	vpblendd	$32, %ymm10, %ymm9, %ymm9
	vpbroadcastq	%xmm4, %ymm10
	vpblendd	$192, %ymm10, %ymm9, %ymm9
	vpbroadcastd	%xmm2, %ymm10
	vpblendd	$128, %ymm10, %ymm9, %ymm9
	vmovdqu	%ymm9, 32(%rcx)
	vpshufd	$85, %xmm0, %xmm9
	vpblendd	$2, %xmm8, %xmm9, %xmm9
	vshufps	$212, %xmm3, %xmm9, %xmm9
	vinsertf128	$1, %xmm5, %ymm9, %ymm10
	vpermt2d	%ymm1, %ymm22, %ymm10
	vinsertf128	$1, %xmm6, %ymm9, %ymm9
	vpblendd	$34, %ymm9, %ymm10, %ymm9
	vpmovzxdq	%xmm4, %xmm10
	vinserti128	$1, %xmm10, %ymm0, %ymm10
	vpblendd	$192, %ymm10, %ymm9, %ymm9
	vpbroadcastq	%xmm2, %ymm10
	vpblendd	$128, %ymm10, %ymm9, %ymm9
	vmovdqu	%ymm9, 96(%rcx)
	vpunpckhdq	%xmm8, %xmm0, %xmm0
	vpblendd	$12, %xmm3, %xmm0, %xmm8
	vinserti128	$1, %xmm5, %ymm8, %ymm8
	vpermt2d	%ymm1, %ymm7, %ymm8
	vpshufd	$250, %xmm6, %xmm7
	vinserti128	$1, %xmm7, %ymm0, %ymm7
	vpblendd	$32, %ymm7, %ymm8, %ymm7
	vinserti128	$1, %xmm4, %ymm0, %ymm8
	vpblendd	$192, %ymm8, %ymm7, %ymm7
	vpshufd	$170, %xmm2, %xmm8
	vinserti128	$1, %xmm8, %ymm0, %ymm8
	vpblendd	$128, %ymm8, %ymm7, %ymm7
	vmovdqu	%ymm7, 160(%rcx)
	vshufps	$254, %xmm3, %xmm0, %xmm0
	vinsertf128	$1, %xmm5, %ymm0, %ymm0
	vpermt2d	%ymm6, %ymm14, %ymm0
	vpshufd	$250, %xmm4, %xmm3
	vinserti128	$1, %xmm3, %ymm0, %ymm3
	vpblendd	$192, %ymm3, %ymm0, %ymm0
	vinserti128	$1, %xmm2, %ymm1, %ymm1
	vpblendd	$136, %ymm1, %ymm0, %ymm0
	vmovdqu	%ymm0, 224(%rcx)
	vzeroupper
	retq
.Lnoise_func_end_v4w_1:
	.size	"rand_chacha::guts::refill4.v4", .Lnoise_func_end_v4w_1-"rand_chacha::guts::refill4.v4"
	.cfi_endproc

	.section	".text.noise_poly::Poly1305::take_aligned","ax",@progbits
	.p2align	4
	.type	"noise_poly::Poly1305::take_aligned.v4",@function
"noise_poly::Poly1305::take_aligned.v4":
	.cfi_startproc
	pushq	%r15
	.cfi_def_cfa_offset 16
	pushq	%r14
	.cfi_def_cfa_offset 24
	pushq	%r13
	.cfi_def_cfa_offset 32
	pushq	%r12
	.cfi_def_cfa_offset 40
	pushq	%rbx
	.cfi_def_cfa_offset 48
	.cfi_offset %rbx, -48
	.cfi_offset %r12, -40
	.cfi_offset %r13, -32
	.cfi_offset %r14, -24
	.cfi_offset %r15, -16
	movq	%rdx, %rbx
	cmpq	$1023, %rdx
	ja	.Lnoise_BB_v4_4_3
	movq	(%rdi), %rcx
	movq	8(%rdi), %rax
	movq	16(%rdi), %r8
	cmpq	$16, %rbx
	jae	.Lnoise_BB_v4_4_4
	movq	24(%rdi), %rdx
	jmp	.Lnoise_BB_v4_4_7
.Lnoise_BB_v4_4_3:
	movq	%rbx, %rdx
	popq	%rbx
	.cfi_def_cfa_offset 40
	popq	%r12
	.cfi_def_cfa_offset 32
	popq	%r13
	.cfi_def_cfa_offset 24
	popq	%r14
	.cfi_def_cfa_offset 16
	popq	%r15
	.cfi_def_cfa_offset 8
	jmp	"noise_poly::Poly1305::take_eights.v4"
.Lnoise_BB_v4_4_4:
	.cfi_def_cfa_offset 48
	movq	32(%rdi), %r9
	movq	40(%rdi), %r10
	movq	%r10, %r11
	shrq	$2, %r11
	addq	%r10, %r11
	.p2align	4
.Lnoise_BB_v4_4_5:
	addq	(%rsi), %rcx
	adcq	8(%rsi), %rax
	adcq	$1, %r8
	movq	%rcx, %rdx
	mulxq	%r9, %r13, %r12
	movq	%rax, %rdx
	mulxq	%r11, %r14, %r15
	addq	%r13, %r14
	adcq	%r12, %r15
	movq	%rcx, %rdx
	mulxq	%r10, %r12, %rcx
	movq	%rax, %rdx
	mulxq	%r9, %rdx, %r13
	addq	%r12, %rdx
	adcq	%rcx, %r13
	movq	%r8, %rax
	imulq	%r11, %rax
	addq	%rdx, %rax
	adcq	$0, %r13
	imulq	%r9, %r8
	movq	%rax, %rdx
	addq	%r15, %rdx
	adcq	%r13, %r8
	movq	%r8, %rcx
	shrq	$2, %rcx
	leaq	(%rcx,%rcx,4), %r12
	movq	%r12, %rcx
	addq	%r14, %rcx
	adcq	%r15, %rax
	andl	$3, %r8d
	movq	%r14, %rcx
	addq	%r12, %rcx
	adcq	$0, %rdx
	adcq	$0, %r8
	addq	$16, %rsi
	addq	$-16, %rbx
	cmpq	$15, %rbx
	ja	.Lnoise_BB_v4_4_5
	xorl	%edx, %edx
.Lnoise_BB_v4_4_7:
	movq	%rcx, (%rdi)
	movq	%rax, 8(%rdi)
	movq	%r8, 16(%rdi)
	movq	%rdx, 24(%rdi)
	movq	80(%rdi), %r14
	leaq	(%rdi,%r14), %rax
	addq	$64, %rax
	movq	%rax, %rcx
	subq	%rsi, %rcx
	cmpq	%rbx, %rcx
	jae	.Lnoise_BB_v4_4_10
	cmpq	$8, %rbx
	jb	.Lnoise_BB_v4_4_9
	leaq	(%r14,%rdi), %rcx
	subq	%rsi, %rcx
	addq	$64, %rcx
	cmpq	$128, %rcx
	jae	.Lnoise_BB_v4_4_13
.Lnoise_BB_v4_4_9:
	xorl	%ecx, %ecx
.Lnoise_BB_v4_4_16:
	movq	%rbx, %r8
	movq	%rcx, %rdx
	andq	$3, %r8
	je	.Lnoise_BB_v4_4_19
	movq	%rcx, %rdx
	.p2align	4
.Lnoise_BB_v4_4_18:
	movzbl	(%rsi,%rdx), %r9d
	movb	%r9b, (%rax,%rdx)
	incq	%rdx
	decq	%r8
	jne	.Lnoise_BB_v4_4_18
.Lnoise_BB_v4_4_19:
	subq	%rbx, %rcx
	cmpq	$-4, %rcx
	ja	.Lnoise_BB_v4_4_22
	leaq	(%r14,%rdi), %rax
	addq	$67, %rax
	.p2align	4
.Lnoise_BB_v4_4_21:
	movzbl	(%rsi,%rdx), %ecx
	movb	%cl, -3(%rax,%rdx)
	movzbl	1(%rsi,%rdx), %ecx
	movb	%cl, -2(%rax,%rdx)
	movzbl	2(%rsi,%rdx), %ecx
	movb	%cl, -1(%rax,%rdx)
	movzbl	3(%rsi,%rdx), %ecx
	movb	%cl, (%rax,%rdx)
	addq	$4, %rdx
	cmpq	%rdx, %rbx
	jne	.Lnoise_BB_v4_4_21
	jmp	.Lnoise_BB_v4_4_22
.Lnoise_BB_v4_4_10:
	movq	%rdi, %r15
	movq	%rax, %rdi
	movq	%rbx, %rdx
	callq	memmove@PLT
	movq	%r15, %rdi
.Lnoise_BB_v4_4_22:
	addq	%rbx, %r14
	movq	%r14, 80(%rdi)
	popq	%rbx
	.cfi_def_cfa_offset 40
	popq	%r12
	.cfi_def_cfa_offset 32
	popq	%r13
	.cfi_def_cfa_offset 24
	popq	%r14
	.cfi_def_cfa_offset 16
	popq	%r15
	.cfi_def_cfa_offset 8
	retq
.Lnoise_BB_v4_4_13:
	.cfi_def_cfa_offset 48
	movl	%ebx, %ecx
	andl	$8, %ecx
	xorl	%edx, %edx
	.p2align	4
.Lnoise_BB_v4_4_14:
	movq	(%rsi,%rdx), %r8
	movq	%r8, (%rax,%rdx)
	addq	$8, %rdx
	cmpq	%rdx, %rcx
	jne	.Lnoise_BB_v4_4_14
	cmpq	%rcx, %rbx
	je	.Lnoise_BB_v4_4_22
	jmp	.Lnoise_BB_v4_4_16
.Lnoise_func_end_v4_4:
	.size	"noise_poly::Poly1305::take_aligned.v4", .Lnoise_func_end_v4_4-"noise_poly::Poly1305::take_aligned.v4"
	.cfi_endproc

	.section	".text.noise_state::cipher::CipherState::encrypt","ax",@progbits
	.p2align	4
	.type	"noise_state::cipher::CipherState::encrypt.v4",@function
"noise_state::cipher::CipherState::encrypt.v4":
	.cfi_startproc
	cmpb	$1, (%rsi)
	jne	.Lnoise_BB_v4_7_3
	movq	40(%rsi), %rax
	cmpq	$-1, %rax
	je	.Lnoise_BB_v4_7_2
	cmpq	$65520, %r9
	jb	.Lnoise_BB_v4_7_7
	movw	$769, (%rdi)
	movq	$0, 8(%rdi)
	retq
.Lnoise_BB_v4_7_3:
	xorl	%eax, %eax
	xorl	%ecx, %ecx
	cmpq	$65536, %r9
	setae	%cl
	leal	(%rcx,%rcx,2), %ecx
	setae	(%rdi)
	cmovbq	%r9, %rax
	movb	%cl, 1(%rdi)
	movq	%rax, 8(%rdi)
	retq
.Lnoise_BB_v4_7_2:
	movw	$1, (%rdi)
	movq	$0, 8(%rdi)
	retq
.Lnoise_BB_v4_7_7:
	pushq	%rbp
	.cfi_def_cfa_offset 16
	pushq	%r15
	.cfi_def_cfa_offset 24
	pushq	%r14
	.cfi_def_cfa_offset 32
	pushq	%r13
	.cfi_def_cfa_offset 40
	pushq	%r12
	.cfi_def_cfa_offset 48
	pushq	%rbx
	.cfi_def_cfa_offset 56
	subq	$392, %rsp
	.cfi_def_cfa_offset 448
	.cfi_offset %rbx, -56
	.cfi_offset %r12, -48
	.cfi_offset %r13, -40
	.cfi_offset %r14, -32
	.cfi_offset %r15, -24
	.cfi_offset %rbp, -16
	vmovups	1(%rsi), %ymm0
	leaq	128(%rsp), %r10
	vxorps	%xmm1, %xmm1, %xmm1
	vmovups	%ymm1, 128(%rsp)
	vmovups	%ymm1, 160(%rsp)
	vmovups	%ymm1, 192(%rsp)
	vmovups	%ymm1, 224(%rsp)
	vmovups	%ymm1, 256(%rsp)
	vmovups	%ymm1, 288(%rsp)
	vmovups	%ymm1, 320(%rsp)
	vmovups	%ymm1, 352(%rsp)
	vmovups	%ymm0, 80(%rsp)
	movq	%rax, 112(%rsp)
	movq	$0, 120(%rsp)
	movq	$64, 384(%rsp)
	leaq	80(%rsp), %r14
	movq	%rdi, %rbp
	movq	%r14, %rdi
	movq	%rsi, 8(%rsp)
	xorl	%esi, %esi
	movq	%rdx, %r15
	movq	%rax, %rdx
	movq	%rcx, %r12
	movq	%r10, %rcx
	movq	%r9, %rbx
	movq	%r8, %r13
	vzeroupper
	callq	"rand_chacha::guts::refill4.v4"
	addq	$4, 120(%rsp)
	movq	$16, 384(%rsp)
	vmovups	128(%rsp), %ymm0
	vmovups	%ymm0, 48(%rsp)
	movq	%r14, %rdi
	movq	%r13, %rsi
	movq	%rbx, %rdx
	vzeroupper
	callq	"noise_aead::keystream::apply.v4"
	leaq	16(%rsp), %rdi
	leaq	48(%rsp), %rsi
	movq	%r15, %rdx
	movq	%r12, %rcx
	movq	%r13, %r8
	movq	%rbx, %r9
	callq	"noise_aead::authenticator::tag.v4"
	vmovups	16(%rsp), %xmm0
	vmovaps	%xmm0, 32(%rsp)
	vmovups	%xmm0, (%r13,%rbx)
	movq	8(%rsp), %rax
	incq	40(%rax)
	addq	$16, %rbx
	movw	$0, (%rbp)
	movq	%rbx, 8(%rbp)
	addq	$392, %rsp
	.cfi_def_cfa_offset 56
	popq	%rbx
	.cfi_def_cfa_offset 48
	popq	%r12
	.cfi_def_cfa_offset 40
	popq	%r13
	.cfi_def_cfa_offset 32
	popq	%r14
	.cfi_def_cfa_offset 24
	popq	%r15
	.cfi_def_cfa_offset 16
	popq	%rbp
	.cfi_def_cfa_offset 8
	.cfi_restore %rbx
	.cfi_restore %r12
	.cfi_restore %r13
	.cfi_restore %r14
	.cfi_restore %r15
	.cfi_restore %rbp
	retq
.Lnoise_func_end_v4_7:
	.size	"noise_state::cipher::CipherState::encrypt.v4", .Lnoise_func_end_v4_7-"noise_state::cipher::CipherState::encrypt.v4"
	.cfi_endproc

	.section	".text.noise_state::cipher::CipherState::decrypt","ax",@progbits
	.p2align	4
	.type	"noise_state::cipher::CipherState::decrypt.v4",@function
"noise_state::cipher::CipherState::decrypt.v4":
	.cfi_startproc
	movzbl	(%rsi), %eax
	cmpb	$1, %al
	jne	.Lnoise_BB_v4_0_3
	cmpq	$-1, 40(%rsi)
	je	.Lnoise_BB_v4_0_2
.Lnoise_BB_v4_0_3:
	movb	$3, %r10b
	cmpq	$65535, %r9
	ja	.Lnoise_BB_v4_0_5
	cmpq	$16, %r9
	setb	%r11b
	movb	$2, %r10b
	testb	%al, %r11b
	jne	.Lnoise_BB_v4_0_5
	cmpb	$1, %al
	jne	.Lnoise_BB_v4_0_9
	pushq	%rbp
	.cfi_def_cfa_offset 16
	pushq	%r15
	.cfi_def_cfa_offset 24
	pushq	%r14
	.cfi_def_cfa_offset 32
	pushq	%r13
	.cfi_def_cfa_offset 40
	pushq	%r12
	.cfi_def_cfa_offset 48
	pushq	%rbx
	.cfi_def_cfa_offset 56
	subq	$376, %rsp
	.cfi_def_cfa_offset 432
	.cfi_offset %rbx, -56
	.cfi_offset %r12, -48
	.cfi_offset %r13, -40
	.cfi_offset %r14, -32
	.cfi_offset %r15, -24
	.cfi_offset %rbp, -16
	movq	%rdi, (%rsp)
	movq	40(%rsi), %rax
	leaq	-16(%r9), %rbx
	movq	-16(%r8,%r9), %rbp
	movq	-8(%r8,%r9), %r13
	leaq	112(%rsp), %r9
	vxorps	%xmm0, %xmm0, %xmm0
	vmovups	%ymm0, 112(%rsp)
	vmovups	%ymm0, 144(%rsp)
	vmovups	%ymm0, 176(%rsp)
	vmovups	%ymm0, 208(%rsp)
	vmovups	%ymm0, 240(%rsp)
	vmovups	%ymm0, 272(%rsp)
	vmovups	%ymm0, 304(%rsp)
	vmovups	%ymm0, 336(%rsp)
	movq	%rsi, 8(%rsp)
	vmovups	1(%rsi), %ymm0
	vmovups	%ymm0, 64(%rsp)
	movq	%rax, 96(%rsp)
	movq	$0, 104(%rsp)
	movq	$64, 368(%rsp)
	leaq	64(%rsp), %rdi
	xorl	%esi, %esi
	movq	%rdx, %r14
	movq	%rax, %rdx
	movq	%rcx, %r15
	movq	%r9, %rcx
	movq	%r8, %r12
	vzeroupper
	callq	"rand_chacha::guts::refill4.v4"
	addq	$4, 104(%rsp)
	movq	$16, 368(%rsp)
	vmovups	112(%rsp), %ymm0
	vmovups	%ymm0, 32(%rsp)
	leaq	16(%rsp), %rdi
	leaq	32(%rsp), %rsi
	movq	%r14, %rdx
	movq	%r15, %rcx
	movq	%r12, %r14
	movq	%r12, %r8
	movq	%rbx, %r9
	vzeroupper
	callq	"noise_aead::authenticator::tag.v4"
	xorq	24(%rsp), %r13
	xorq	16(%rsp), %rbp
	orq	%r13, %rbp
	jne	.Lnoise_BB_v4_0_11
	leaq	64(%rsp), %rdi
	movq	%r14, %rsi
	movq	%rbx, %rdx
	callq	"noise_aead::keystream::apply.v4"
	movq	8(%rsp), %rax
	incq	40(%rax)
	movq	(%rsp), %rax
	movw	$0, (%rax)
	movq	%rbx, 8(%rax)
	jmp	.Lnoise_BB_v4_0_12
.Lnoise_BB_v4_0_2:
	.cfi_def_cfa_offset 8
	.cfi_restore %rbx
	.cfi_restore %rbp
	.cfi_restore %r12
	.cfi_restore %r13
	.cfi_restore %r14
	.cfi_restore %r15
	xorl	%r10d, %r10d
.Lnoise_BB_v4_0_5:
	movb	$1, (%rdi)
	movb	%r10b, 1(%rdi)
	movq	$0, 8(%rdi)
	retq
.Lnoise_BB_v4_0_9:
	movw	$0, (%rdi)
	movq	%r9, 8(%rdi)
	retq
.Lnoise_BB_v4_0_11:
	.cfi_def_cfa_offset 432
	.cfi_offset %rbx, -56
	.cfi_offset %rbp, -16
	.cfi_offset %r12, -48
	.cfi_offset %r13, -40
	.cfi_offset %r14, -32
	.cfi_offset %r15, -24
	movq	(%rsp), %rax
	movw	$257, (%rax)
	movq	$0, 8(%rax)
.Lnoise_BB_v4_0_12:
	addq	$376, %rsp
	.cfi_def_cfa_offset 56
	popq	%rbx
	.cfi_def_cfa_offset 48
	popq	%r12
	.cfi_def_cfa_offset 40
	popq	%r13
	.cfi_def_cfa_offset 32
	popq	%r14
	.cfi_def_cfa_offset 24
	popq	%r15
	.cfi_def_cfa_offset 16
	popq	%rbp
	.cfi_def_cfa_offset 8
	.cfi_restore %rbx
	.cfi_restore %r12
	.cfi_restore %r13
	.cfi_restore %r14
	.cfi_restore %r15
	.cfi_restore %rbp
	retq
.Lnoise_func_end_v4_0:
	.size	"noise_state::cipher::CipherState::decrypt.v4", .Lnoise_func_end_v4_0-"noise_state::cipher::CipherState::decrypt.v4"
	.cfi_endproc

	.section	".text.noise_aead::keystream::apply","ax",@progbits
	.p2align	4
	.type	"noise_aead::keystream::apply.v4",@function
"noise_aead::keystream::apply.v4":
	.cfi_startproc
	pushq	%rbp
	.cfi_def_cfa_offset 16
	pushq	%r15
	.cfi_def_cfa_offset 24
	pushq	%r14
	.cfi_def_cfa_offset 32
	pushq	%r13
	.cfi_def_cfa_offset 40
	pushq	%r12
	.cfi_def_cfa_offset 48
	pushq	%rbx
	.cfi_def_cfa_offset 56
	subq	$168, %rsp
	.cfi_def_cfa_offset 224
	.cfi_offset %rbx, -56
	.cfi_offset %r12, -48
	.cfi_offset %r13, -40
	.cfi_offset %r14, -32
	.cfi_offset %r15, -24
	.cfi_offset %rbp, -16
	movq	%rsi, 72(%rsp)
	movq	%rdi, %r15
	movq	%rdx, 80(%rsp)
	movq	%rdx, %rax
	shrq	$6, %rax
	cmpq	$3, %rax
	movl	$3, %edx
	cmovbq	%rax, %rdx
	movq	%rax, %rcx
	movq	%rdx, 56(%rsp)
	subq	%rdx, %rcx
	movq	%rcx, 64(%rsp)
	movq	%rcx, %r14
	shrq	$2, %r14
	testq	%rax, %rax
	je	.Lnoise_BB_v4_6_4
	leaq	48(%r15), %rcx
	movq	56(%rsp), %rbx
	movq	72(%rsp), %r12
	movq	%r14, 24(%rsp)
	.p2align	4
.Lnoise_BB_v4_6_2:
	movq	304(%r15), %rsi
	cmpq	$64, %rsi
	jb	.Lnoise_BB_v4_6_11
	movq	32(%r15), %rdx
	movq	40(%r15), %rsi
	movq	%r15, %rdi
	movq	%rcx, %r13
	vzeroupper
	callq	"rand_chacha::guts::refill4.v4"
	addq	$4, 40(%r15)
	movl	48(%r15), %edi
	movl	$1, %eax
	jmp	.Lnoise_BB_v4_6_13
	.p2align	4
.Lnoise_BB_v4_6_11:
	movl	48(%r15,%rsi,4), %edi
	leaq	1(%rsi), %rax
	movq	%rax, 304(%r15)
	cmpq	$63, %rsi
	jne	.Lnoise_BB_v4_6_14
	movq	32(%r15), %rdx
	movq	40(%r15), %rsi
	movl	%edi, %ebp
	movq	%r15, %rdi
	movq	%rcx, %r13
	vzeroupper
	callq	"rand_chacha::guts::refill4.v4"
	movl	%ebp, %edi
	addq	$4, 40(%r15)
	xorl	%eax, %eax
.Lnoise_BB_v4_6_13:
	movl	(%r13,%rax,4), %r8d
	movl	4(%r13,%rax,4), %r9d
	leaq	8(,%rax,4), %rdx
	addq	%r13, %rdx
	addq	$3, %rax
	movq	%r13, %rcx
.Lnoise_BB_v4_6_19:
	movl	(%rdx), %r10d
	movq	%rax, 304(%r15)
	movl	48(%r15,%rax,4), %r11d
	leaq	1(%rax), %rdx
	movq	%rdx, 304(%r15)
	addq	$2, %rax
.Lnoise_BB_v4_6_20:
	movl	48(%r15,%rdx,4), %esi
	movq	%rax, 304(%r15)
	movl	48(%r15,%rax,4), %edx
	movl	%edx, 44(%rsp)
	leaq	1(%rax), %rdx
	movq	%rdx, 304(%r15)
	addq	$2, %rax
.Lnoise_BB_v4_6_21:
	movl	48(%r15,%rdx,4), %edx
	movl	%edx, 52(%rsp)
	movq	%rax, 304(%r15)
	movl	48(%r15,%rax,4), %edx
	movl	%edx, 40(%rsp)
	leaq	1(%rax), %rdx
	movq	%rdx, 304(%r15)
	addq	$2, %rax
.Lnoise_BB_v4_6_22:
	movl	48(%r15,%rdx,4), %edx
	movl	%edx, 48(%rsp)
	movq	%rax, 304(%r15)
	movl	48(%r15,%rax,4), %edx
	movl	%edx, 36(%rsp)
	leaq	1(%rax), %rdx
	movq	%rdx, 304(%r15)
	addq	$2, %rax
.Lnoise_BB_v4_6_23:
	movl	48(%r15,%rdx,4), %edx
	movl	%edx, 8(%rsp)
	movq	%rax, 304(%r15)
	movl	48(%r15,%rax,4), %ebp
	leaq	1(%rax), %rdx
	movq	%rdx, 304(%r15)
	addq	$2, %rax
.Lnoise_BB_v4_6_24:
	movl	48(%r15,%rdx,4), %r13d
	movq	%rax, 304(%r15)
	movl	48(%r15,%rax,4), %r14d
	incq	%rax
	movq	%rax, 304(%r15)
.Lnoise_BB_v4_6_54:
	vmovd	%ebp, %xmm0
	vpinsrd	$1, %r13d, %xmm0, %xmm0
	vpinsrd	$2, %r14d, %xmm0, %xmm0
	vmovd	40(%rsp), %xmm1
	vpinsrd	$1, 48(%rsp), %xmm1, %xmm1
	vpinsrd	$2, 36(%rsp), %xmm1, %xmm1
	vpinsrd	$3, 8(%rsp), %xmm1, %xmm1
	vmovd	%r11d, %xmm2
	vpinsrd	$1, %esi, %xmm2, %xmm2
	vpinsrd	$2, 44(%rsp), %xmm2, %xmm2
	vpinsrd	$3, 52(%rsp), %xmm2, %xmm2
	vmovd	%edi, %xmm3
	vpinsrd	$1, %r8d, %xmm3, %xmm3
	vpinsrd	$2, %r9d, %xmm3, %xmm3
	vpinsrd	$3, %r10d, %xmm3, %xmm3
	movl	48(%r15,%rax,4), %edx
	incq	%rax
	vpinsrd	$3, %edx, %xmm0, %xmm0
	movq	%rax, 304(%r15)
	vpinsrb	$12, %edx, %xmm0, %xmm4
	movabsq	$-2305843009213693952, %rax
	kmovq	%rax, %k1
	vinserti128	$1, %xmm0, %ymm1, %ymm0
	vinserti128	$1, %xmm2, %ymm3, %ymm1
	vinserti64x4	$1, %ymm0, %zmm1, %zmm0
	vinserti32x4	$3, %xmm4, %zmm0, %zmm1
	vmovdqu8	%zmm0, %zmm1 {%k1}
	vpxorq	(%r12), %zmm1, %zmm0
	vmovdqu	%ymm0, (%r12)
	vextracti64x4	$1, %zmm0, 32(%r12)
	addq	$64, %r12
	decq	%rbx
	movq	24(%rsp), %r14
	jne	.Lnoise_BB_v4_6_2
	jmp	.Lnoise_BB_v4_6_4
	.p2align	4
.Lnoise_BB_v4_6_14:
	movl	52(%r15,%rsi,4), %r8d
	leaq	2(%rsi), %rax
	movq	%rax, 304(%r15)
	cmpq	$62, %rsi
	jb	.Lnoise_BB_v4_6_16
	movl	%r8d, 4(%rsp)
	movl	%edi, %ebp
	movq	32(%r15), %rdx
	movq	40(%r15), %rsi
	movq	%r15, %rdi
	movq	%rcx, %r13
	vzeroupper
	callq	"rand_chacha::guts::refill4.v4"
	addq	$4, 40(%r15)
	movl	48(%r15), %r9d
	movl	$1, %eax
	jmp	.Lnoise_BB_v4_6_18
.Lnoise_BB_v4_6_16:
	movl	56(%r15,%rsi,4), %r9d
	leaq	3(%rsi), %rdx
	movq	%rdx, 304(%r15)
	cmpq	$61, %rsi
	movl	%r9d, (%rsp)
	jne	.Lnoise_BB_v4_6_25
	movl	%r8d, 4(%rsp)
	movl	%edi, %ebp
	movq	32(%r15), %rdx
	movq	40(%r15), %rsi
	movq	%r15, %rdi
	movq	%rcx, %r13
	vzeroupper
	callq	"rand_chacha::guts::refill4.v4"
	movl	(%rsp), %r9d
	addq	$4, 40(%r15)
	xorl	%eax, %eax
.Lnoise_BB_v4_6_18:
	leaq	(,%rax,4), %rdx
	addq	%r13, %rdx
	incq	%rax
	movq	%r13, %rcx
	movl	%ebp, %edi
	movl	4(%rsp), %r8d
	jmp	.Lnoise_BB_v4_6_19
.Lnoise_BB_v4_6_25:
	movl	60(%r15,%rsi,4), %r10d
	leaq	4(%rsi), %rdx
	movq	%rdx, 304(%r15)
	cmpq	$62, %rax
	movl	%edi, 12(%rsp)
	jne	.Lnoise_BB_v4_6_27
	movq	32(%r15), %rdx
	movq	40(%r15), %rsi
	movq	%r15, %rdi
	movl	%r8d, %ebp
	movl	%r10d, %r13d
	vzeroupper
	callq	"rand_chacha::guts::refill4.v4"
	movl	%r13d, %r10d
	movl	(%rsp), %r9d
	movl	%ebp, %r8d
	movl	12(%rsp), %edi
	leaq	48(%r15), %rcx
	addq	$4, 40(%r15)
	movl	48(%r15), %r11d
	movl	$1, %edx
	leaq	1(%rdx), %rax
	jmp	.Lnoise_BB_v4_6_20
.Lnoise_BB_v4_6_27:
	movl	64(%r15,%rsi,4), %r11d
	leaq	5(%rsi), %rax
	movq	%rax, 304(%r15)
	cmpq	$59, %rsi
	movl	%r11d, 16(%rsp)
	jb	.Lnoise_BB_v4_6_29
	movq	32(%r15), %rdx
	movq	40(%r15), %rsi
	movq	%r15, %rdi
	movl	%r8d, %ebp
	movl	%r10d, %r13d
	vzeroupper
	callq	"rand_chacha::guts::refill4.v4"
	movl	16(%rsp), %r11d
	movl	%r13d, %r10d
	movl	(%rsp), %r9d
	movl	%ebp, %r8d
	movl	12(%rsp), %edi
	leaq	48(%r15), %rcx
	addq	$4, 40(%r15)
	xorl	%edx, %edx
	leaq	1(%rdx), %rax
	jmp	.Lnoise_BB_v4_6_20
.Lnoise_BB_v4_6_29:
	movl	68(%r15,%rsi,4), %eax
	movl	%eax, 20(%rsp)
	leaq	6(%rsi), %rax
	movq	%rax, 304(%r15)
	cmpq	$62, %rdx
	jne	.Lnoise_BB_v4_6_31
	movq	32(%r15), %rdx
	movq	40(%r15), %rsi
	movq	%r15, %rdi
	movl	%r8d, %ebp
	movl	%r10d, %r13d
	vzeroupper
	callq	"rand_chacha::guts::refill4.v4"
	movl	16(%rsp), %r11d
	movl	%r13d, %r10d
	movl	(%rsp), %r9d
	movl	%ebp, %r8d
	movl	12(%rsp), %edi
	leaq	48(%r15), %rcx
	addq	$4, 40(%r15)
	movl	48(%r15), %eax
	movl	%eax, 44(%rsp)
	movl	$1, %edx
	jmp	.Lnoise_BB_v4_6_33
.Lnoise_BB_v4_6_31:
	movl	72(%r15,%rsi,4), %edx
	movl	%edx, 44(%rsp)
	leaq	7(%rsi), %rdx
	movq	%rdx, 304(%r15)
	cmpq	$57, %rsi
	jb	.Lnoise_BB_v4_6_34
	movq	32(%r15), %rdx
	movq	40(%r15), %rsi
	movq	%r15, %rdi
	movl	%r8d, %ebp
	movl	%r10d, %r13d
	vzeroupper
	callq	"rand_chacha::guts::refill4.v4"
	movl	16(%rsp), %r11d
	movl	%r13d, %r10d
	movl	(%rsp), %r9d
	movl	%ebp, %r8d
	movl	12(%rsp), %edi
	leaq	48(%r15), %rcx
	addq	$4, 40(%r15)
	xorl	%edx, %edx
.Lnoise_BB_v4_6_33:
	leaq	1(%rdx), %rax
	movl	20(%rsp), %esi
	jmp	.Lnoise_BB_v4_6_21
.Lnoise_BB_v4_6_34:
	movl	76(%r15,%rsi,4), %edx
	movl	%edx, 52(%rsp)
	leaq	8(%rsi), %rdx
	movq	%rdx, 304(%r15)
	cmpq	$62, %rax
	jne	.Lnoise_BB_v4_6_36
	movq	32(%r15), %rdx
	movq	40(%r15), %rsi
	movq	%r15, %rdi
	movl	%r8d, %ebp
	movl	%r10d, %r13d
	vzeroupper
	callq	"rand_chacha::guts::refill4.v4"
	movl	16(%rsp), %r11d
	movl	%r13d, %r10d
	movl	(%rsp), %r9d
	movl	%ebp, %r8d
	movl	12(%rsp), %edi
	leaq	48(%r15), %rcx
	addq	$4, 40(%r15)
	movl	48(%r15), %eax
	movl	%eax, 40(%rsp)
	movl	$1, %edx
	jmp	.Lnoise_BB_v4_6_38
.Lnoise_BB_v4_6_36:
	movl	80(%r15,%rsi,4), %eax
	movl	%eax, 40(%rsp)
	leaq	9(%rsi), %rax
	movq	%rax, 304(%r15)
	cmpq	$55, %rsi
	jb	.Lnoise_BB_v4_6_39
	movq	32(%r15), %rdx
	movq	40(%r15), %rsi
	movq	%r15, %rdi
	movl	%r8d, %ebp
	movl	%r10d, %r13d
	vzeroupper
	callq	"rand_chacha::guts::refill4.v4"
	movl	16(%rsp), %r11d
	movl	%r13d, %r10d
	movl	(%rsp), %r9d
	movl	%ebp, %r8d
	movl	12(%rsp), %edi
	leaq	48(%r15), %rcx
	addq	$4, 40(%r15)
	xorl	%edx, %edx
.Lnoise_BB_v4_6_38:
	leaq	1(%rdx), %rax
	movl	20(%rsp), %esi
	jmp	.Lnoise_BB_v4_6_22
.Lnoise_BB_v4_6_39:
	movl	84(%r15,%rsi,4), %eax
	movl	%eax, 48(%rsp)
	leaq	10(%rsi), %rax
	movq	%rax, 304(%r15)
	cmpq	$62, %rdx
	jne	.Lnoise_BB_v4_6_41
	movq	32(%r15), %rdx
	movq	40(%r15), %rsi
	movq	%r15, %rdi
	movl	%r8d, %ebp
	movl	%r10d, %r13d
	vzeroupper
	callq	"rand_chacha::guts::refill4.v4"
	movl	16(%rsp), %r11d
	movl	%r13d, %r10d
	movl	(%rsp), %r9d
	movl	%ebp, %r8d
	movl	12(%rsp), %edi
	leaq	48(%r15), %rcx
	addq	$4, 40(%r15)
	movl	48(%r15), %eax
	movl	%eax, 36(%rsp)
	movl	$1, %edx
	jmp	.Lnoise_BB_v4_6_43
.Lnoise_BB_v4_6_41:
	movl	88(%r15,%rsi,4), %edx
	movl	%edx, 36(%rsp)
	leaq	11(%rsi), %rdx
	movq	%rdx, 304(%r15)
	cmpq	$53, %rsi
	jb	.Lnoise_BB_v4_6_44
	movq	32(%r15), %rdx
	movq	40(%r15), %rsi
	movq	%r15, %rdi
	movl	%r8d, %ebp
	movl	%r10d, %r13d
	vzeroupper
	callq	"rand_chacha::guts::refill4.v4"
	movl	16(%rsp), %r11d
	movl	%r13d, %r10d
	movl	(%rsp), %r9d
	movl	%ebp, %r8d
	movl	12(%rsp), %edi
	leaq	48(%r15), %rcx
	addq	$4, 40(%r15)
	xorl	%edx, %edx
.Lnoise_BB_v4_6_43:
	leaq	1(%rdx), %rax
	movl	20(%rsp), %esi
	jmp	.Lnoise_BB_v4_6_23
.Lnoise_BB_v4_6_44:
	movl	92(%r15,%rsi,4), %edx
	movl	%edx, 8(%rsp)
	leaq	12(%rsi), %rdx
	movq	%rdx, 304(%r15)
	cmpq	$62, %rax
	jne	.Lnoise_BB_v4_6_46
	movq	32(%r15), %rdx
	movq	40(%r15), %rsi
	movq	%r15, %rdi
	movq	%rcx, %r14
	movl	%r8d, %r13d
	movl	%r10d, %ebp
	vzeroupper
	callq	"rand_chacha::guts::refill4.v4"
	movl	16(%rsp), %r11d
	movl	%ebp, %r10d
	movl	(%rsp), %r9d
	movl	%r13d, %r8d
	movl	12(%rsp), %edi
	movq	%r14, %rcx
	addq	$4, 40(%r15)
	movl	48(%r15), %ebp
	movl	$1, %edx
	jmp	.Lnoise_BB_v4_6_48
.Lnoise_BB_v4_6_46:
	movl	96(%r15,%rsi,4), %ebp
	leaq	13(%rsi), %rax
	movq	%rax, 304(%r15)
	cmpq	$51, %rsi
	jb	.Lnoise_BB_v4_6_49
	movq	32(%r15), %rdx
	movq	40(%r15), %rsi
	movq	%r15, %rdi
	movl	%r8d, %r13d
	movl	%r10d, %r14d
	vzeroupper
	callq	"rand_chacha::guts::refill4.v4"
	movl	16(%rsp), %r11d
	movl	%r14d, %r10d
	movl	(%rsp), %r9d
	movl	%r13d, %r8d
	movl	12(%rsp), %edi
	leaq	48(%r15), %rcx
	addq	$4, 40(%r15)
	xorl	%edx, %edx
.Lnoise_BB_v4_6_48:
	leaq	1(%rdx), %rax
	movl	20(%rsp), %esi
	jmp	.Lnoise_BB_v4_6_24
.Lnoise_BB_v4_6_49:
	movl	100(%r15,%rsi,4), %r13d
	leaq	14(%rsi), %rax
	movq	%rax, 304(%r15)
	cmpq	$62, %rdx
	jne	.Lnoise_BB_v4_6_51
	movq	32(%r15), %rdx
	movq	40(%r15), %rsi
	movq	%r15, %rdi
	movl	%r8d, 4(%rsp)
	movl	%r10d, %r14d
	vzeroupper
	callq	"rand_chacha::guts::refill4.v4"
	movl	16(%rsp), %r11d
	movl	%r14d, %r10d
	movl	(%rsp), %r9d
	movl	4(%rsp), %r8d
	movl	12(%rsp), %edi
	leaq	48(%r15), %rcx
	addq	$4, 40(%r15)
	movl	48(%r15), %r14d
	movq	$1, 304(%r15)
	movl	$1, %eax
	jmp	.Lnoise_BB_v4_6_53
.Lnoise_BB_v4_6_51:
	movl	104(%r15,%rsi,4), %r14d
	leaq	15(%rsi), %rax
	movq	%rax, 304(%r15)
	cmpq	$49, %rsi
	jb	.Lnoise_BB_v4_6_53
	movq	32(%r15), %rdx
	movq	40(%r15), %rsi
	movq	%r15, %rdi
	movl	%r8d, 4(%rsp)
	movl	%r10d, 92(%rsp)
	vzeroupper
	callq	"rand_chacha::guts::refill4.v4"
	movl	16(%rsp), %r11d
	movl	92(%rsp), %r10d
	movl	(%rsp), %r9d
	movl	4(%rsp), %r8d
	movl	12(%rsp), %edi
	leaq	48(%r15), %rcx
	addq	$4, 40(%r15)
	xorl	%eax, %eax
.Lnoise_BB_v4_6_53:
	movl	20(%rsp), %esi
	jmp	.Lnoise_BB_v4_6_54
.Lnoise_BB_v4_6_4:
	testq	%r14, %r14
	je	.Lnoise_BB_v4_6_7
	movq	56(%rsp), %rbx
	shll	$6, %ebx
	addq	72(%rsp), %rbx
	leaq	48(%r15), %r12
	.p2align	4
.Lnoise_BB_v4_6_6:
	movq	32(%r15), %rdx
	movq	40(%r15), %rax
	movq	304(%r15), %rcx
	shrq	$4, %rcx
	leaq	(%rax,%rcx), %rsi
	addq	$-4, %rsi
	movq	%rsi, 40(%r15)
	vpxor	%xmm0, %xmm0, %xmm0
	vmovdqu	%ymm0, 224(%r12)
	vmovdqu	%ymm0, 192(%r12)
	vmovdqu	%ymm0, 160(%r12)
	vmovdqu	%ymm0, 128(%r12)
	vmovdqu	%ymm0, 96(%r12)
	vmovdqu	%ymm0, 64(%r12)
	vmovdqu	%ymm0, 32(%r12)
	vmovdqu	%ymm0, (%r12)
	movq	$64, 304(%r15)
	movq	%r15, %rdi
	movq	%r12, %rcx
	vzeroupper
	callq	"rand_chacha::guts::refill4.v4"
	addq	$4, 40(%r15)
	vmovdqu64	48(%r15), %zmm0
	vmovdqu	96(%r15), %xmm1
	vpinsrb	$12, 108(%r15), %xmm1, %xmm1
	vinserti32x4	$3, %xmm1, %zmm0, %zmm1
	movabsq	$-2305843009213693952, %rax
	kmovq	%rax, %k1
	vmovdqu8	%zmm0, %zmm1 {%k1}
	vmovdqu64	112(%r15), %zmm0
	vmovdqu	160(%r15), %xmm2
	vpinsrb	$12, 172(%r15), %xmm2, %xmm2
	vinserti32x4	$3, %xmm2, %zmm0, %zmm2
	vmovdqu8	%zmm0, %zmm2 {%k1}
	vmovdqu	224(%r15), %xmm0
	vpinsrb	$12, 236(%r15), %xmm0, %xmm0
	vmovdqu64	176(%r15), %zmm3
	vinserti32x4	$3, %xmm0, %zmm3, %zmm0
	vmovdqu8	%zmm3, %zmm0 {%k1}
	vmovdqu64	240(%r15), %zmm3
	vmovdqu	288(%r15), %xmm4
	vpinsrb	$12, 300(%r15), %xmm4, %xmm4
	vinserti32x4	$3, %xmm4, %zmm3, %zmm4
	vmovdqu8	%zmm3, %zmm4 {%k1}
	movq	$64, 304(%r15)
	vpxorq	(%rbx), %zmm1, %zmm1
	vmovdqu	%ymm1, (%rbx)
	vextracti64x4	$1, %zmm1, 32(%rbx)
	vpxorq	64(%rbx), %zmm2, %zmm1
	vmovdqu	%ymm1, 64(%rbx)
	vextracti64x4	$1, %zmm1, 96(%rbx)
	vpxorq	128(%rbx), %zmm0, %zmm0
	vmovdqu	%ymm0, 128(%rbx)
	vextracti64x4	$1, %zmm0, 160(%rbx)
	vpxorq	192(%rbx), %zmm4, %zmm0
	vmovdqu	%ymm0, 192(%rbx)
	vextracti64x4	$1, %zmm0, 224(%rbx)
	addq	$256, %rbx
	decq	%r14
	jne	.Lnoise_BB_v4_6_6
.Lnoise_BB_v4_6_7:
	movabsq	$288230376151711740, %rax
	movq	64(%rsp), %rcx
	andq	%rax, %rcx
	movq	%rcx, %rax
	orq	56(%rsp), %rax
	shlq	$6, %rax
	movq	80(%rsp), %r13
	subq	%rax, %r13
	shrq	$6, %r13
	je	.Lnoise_BB_v4_6_99
	addq	72(%rsp), %rax
	leaq	48(%r15), %rcx
	.p2align	4
.Lnoise_BB_v4_6_9:
	movq	%rax, 64(%rsp)
	movq	304(%r15), %rsi
	cmpq	$64, %rsi
	jb	.Lnoise_BB_v4_6_55
	movq	32(%r15), %rdx
	movq	40(%r15), %rsi
	movq	%r15, %rdi
	movq	%rcx, %rbx
	vzeroupper
	callq	"rand_chacha::guts::refill4.v4"
	addq	$4, 40(%r15)
	movl	48(%r15), %edi
	movl	$1, %eax
	jmp	.Lnoise_BB_v4_6_57
	.p2align	4
.Lnoise_BB_v4_6_55:
	movl	48(%r15,%rsi,4), %edi
	leaq	1(%rsi), %rax
	movq	%rax, 304(%r15)
	cmpq	$63, %rsi
	jne	.Lnoise_BB_v4_6_58
	movq	32(%r15), %rdx
	movq	40(%r15), %rsi
	movl	%edi, %ebp
	movq	%r15, %rdi
	movq	%rcx, %rbx
	vzeroupper
	callq	"rand_chacha::guts::refill4.v4"
	movl	%ebp, %edi
	addq	$4, 40(%r15)
	xorl	%eax, %eax
.Lnoise_BB_v4_6_57:
	movl	(%rbx,%rax,4), %r8d
	movl	4(%rbx,%rax,4), %r9d
	leaq	(%rbx,%rax,4), %rdx
	addq	$8, %rdx
	addq	$3, %rax
	movq	%rbx, %rcx
.Lnoise_BB_v4_6_63:
	movl	(%rdx), %r10d
	movq	%rax, 304(%r15)
	movl	48(%r15,%rax,4), %r11d
	leaq	1(%rax), %rdx
	movq	%rdx, 304(%r15)
	addq	$2, %rax
.Lnoise_BB_v4_6_64:
	movl	48(%r15,%rdx,4), %esi
	movq	%rax, 304(%r15)
	movl	48(%r15,%rax,4), %edx
	movl	%edx, 44(%rsp)
	leaq	1(%rax), %rdx
	movq	%rdx, 304(%r15)
	addq	$2, %rax
.Lnoise_BB_v4_6_65:
	movl	48(%r15,%rdx,4), %edx
	movl	%edx, 52(%rsp)
	movq	%rax, 304(%r15)
	movl	48(%r15,%rax,4), %edx
	movl	%edx, 40(%rsp)
	leaq	1(%rax), %rdx
	movq	%rdx, 304(%r15)
	addq	$2, %rax
.Lnoise_BB_v4_6_66:
	movl	48(%r15,%rdx,4), %edx
	movl	%edx, 48(%rsp)
	movq	%rax, 304(%r15)
	movl	48(%r15,%rax,4), %edx
	movl	%edx, 36(%rsp)
	leaq	1(%rax), %rdx
	movq	%rdx, 304(%r15)
	addq	$2, %rax
.Lnoise_BB_v4_6_67:
	movl	48(%r15,%rdx,4), %ebx
	movq	%rax, 304(%r15)
	movl	48(%r15,%rax,4), %ebp
	leaq	1(%rax), %rdx
	movq	%rdx, 304(%r15)
	addq	$2, %rax
.Lnoise_BB_v4_6_68:
	movl	48(%r15,%rdx,4), %r14d
	movq	%rax, 304(%r15)
	movl	48(%r15,%rax,4), %r12d
	incq	%rax
	movq	%rax, 304(%r15)
.Lnoise_BB_v4_6_98:
	vmovd	%ebp, %xmm0
	vpinsrd	$1, %r14d, %xmm0, %xmm0
	vpinsrd	$2, %r12d, %xmm0, %xmm0
	vmovd	40(%rsp), %xmm1
	vpinsrd	$1, 48(%rsp), %xmm1, %xmm1
	vpinsrd	$2, 36(%rsp), %xmm1, %xmm1
	vpinsrd	$3, %ebx, %xmm1, %xmm1
	vmovd	%r11d, %xmm2
	vpinsrd	$1, %esi, %xmm2, %xmm2
	vpinsrd	$2, 44(%rsp), %xmm2, %xmm2
	vpinsrd	$3, 52(%rsp), %xmm2, %xmm2
	vmovd	%edi, %xmm3
	vpinsrd	$1, %r8d, %xmm3, %xmm3
	vpinsrd	$2, %r9d, %xmm3, %xmm3
	vpinsrd	$3, %r10d, %xmm3, %xmm3
	movl	48(%r15,%rax,4), %edx
	incq	%rax
	vpinsrd	$3, %edx, %xmm0, %xmm0
	movq	%rax, 304(%r15)
	vpinsrb	$12, %edx, %xmm0, %xmm4
	movabsq	$-2305843009213693952, %rax
	kmovq	%rax, %k1
	vinserti128	$1, %xmm0, %ymm1, %ymm0
	vinserti128	$1, %xmm2, %ymm3, %ymm1
	vinserti64x4	$1, %ymm0, %zmm1, %zmm0
	vinserti32x4	$3, %xmm4, %zmm0, %zmm1
	vmovdqu8	%zmm0, %zmm1 {%k1}
	movq	64(%rsp), %rax
	vpxorq	(%rax), %zmm1, %zmm0
	vmovdqu	%ymm0, (%rax)
	vextracti64x4	$1, %zmm0, 32(%rax)
	addq	$64, %rax
	decq	%r13
	jne	.Lnoise_BB_v4_6_9
	jmp	.Lnoise_BB_v4_6_99
	.p2align	4
.Lnoise_BB_v4_6_58:
	movl	52(%r15,%rsi,4), %r8d
	leaq	2(%rsi), %rax
	movq	%rax, 304(%r15)
	cmpq	$62, %rsi
	jb	.Lnoise_BB_v4_6_60
	movl	%r8d, %r14d
	movl	%edi, %ebp
	movq	32(%r15), %rdx
	movq	40(%r15), %rsi
	movq	%r15, %rdi
	movq	%rcx, %rbx
	vzeroupper
	callq	"rand_chacha::guts::refill4.v4"
	addq	$4, 40(%r15)
	movl	48(%r15), %r9d
	movl	$1, %eax
	jmp	.Lnoise_BB_v4_6_62
.Lnoise_BB_v4_6_60:
	movl	56(%r15,%rsi,4), %r9d
	leaq	3(%rsi), %rdx
	movq	%rdx, 304(%r15)
	cmpq	$61, %rsi
	jne	.Lnoise_BB_v4_6_69
	movl	%r8d, %r14d
	movl	%edi, %ebp
	movq	32(%r15), %rdx
	movq	40(%r15), %rsi
	movq	%r15, %rdi
	movq	%rcx, %rbx
	movl	%r9d, %r12d
	vzeroupper
	callq	"rand_chacha::guts::refill4.v4"
	movl	%r12d, %r9d
	addq	$4, 40(%r15)
	xorl	%eax, %eax
.Lnoise_BB_v4_6_62:
	leaq	(%rbx,%rax,4), %rdx
	incq	%rax
	movq	%rbx, %rcx
	movl	%ebp, %edi
	movl	%r14d, %r8d
	jmp	.Lnoise_BB_v4_6_63
.Lnoise_BB_v4_6_69:
	movl	60(%r15,%rsi,4), %r10d
	leaq	4(%rsi), %rdx
	movq	%rdx, 304(%r15)
	cmpq	$62, %rax
	movl	%edi, 8(%rsp)
	jne	.Lnoise_BB_v4_6_71
	movq	32(%r15), %rdx
	movq	40(%r15), %rsi
	movq	%r15, %rdi
	movq	%rcx, %rbx
	movl	%r8d, %r14d
	movl	%r9d, %r12d
	movl	%r10d, %ebp
	vzeroupper
	callq	"rand_chacha::guts::refill4.v4"
	movl	%ebp, %r10d
	movl	%r12d, %r9d
	movl	%r14d, %r8d
	movl	8(%rsp), %edi
	movq	%rbx, %rcx
	addq	$4, 40(%r15)
	movl	48(%r15), %r11d
	movl	$1, %edx
	leaq	1(%rdx), %rax
	jmp	.Lnoise_BB_v4_6_64
.Lnoise_BB_v4_6_71:
	movl	64(%r15,%rsi,4), %r11d
	leaq	5(%rsi), %rax
	movq	%rax, 304(%r15)
	cmpq	$59, %rsi
	movl	%r11d, 24(%rsp)
	jb	.Lnoise_BB_v4_6_73
	movq	32(%r15), %rdx
	movq	40(%r15), %rsi
	movq	%r15, %rdi
	movq	%rcx, %rbx
	movl	%r8d, %r14d
	movl	%r9d, %r12d
	movl	%r10d, %ebp
	vzeroupper
	callq	"rand_chacha::guts::refill4.v4"
	movl	24(%rsp), %r11d
	movl	%ebp, %r10d
	movl	%r12d, %r9d
	movl	%r14d, %r8d
	movl	8(%rsp), %edi
	movq	%rbx, %rcx
	addq	$4, 40(%r15)
	xorl	%edx, %edx
	leaq	1(%rdx), %rax
	jmp	.Lnoise_BB_v4_6_64
.Lnoise_BB_v4_6_73:
	movl	68(%r15,%rsi,4), %eax
	movl	%eax, 4(%rsp)
	leaq	6(%rsi), %rax
	movq	%rax, 304(%r15)
	cmpq	$62, %rdx
	jne	.Lnoise_BB_v4_6_75
	movq	32(%r15), %rdx
	movq	40(%r15), %rsi
	movq	%r15, %rdi
	movq	%rcx, %rbx
	movl	%r8d, %r14d
	movl	%r9d, %r12d
	movl	%r10d, %ebp
	vzeroupper
	callq	"rand_chacha::guts::refill4.v4"
	movl	24(%rsp), %r11d
	movl	%ebp, %r10d
	movl	%r12d, %r9d
	movl	%r14d, %r8d
	movl	8(%rsp), %edi
	movq	%rbx, %rcx
	addq	$4, 40(%r15)
	movl	48(%r15), %eax
	movl	%eax, 44(%rsp)
	movl	$1, %edx
	jmp	.Lnoise_BB_v4_6_77
.Lnoise_BB_v4_6_75:
	movl	72(%r15,%rsi,4), %edx
	movl	%edx, 44(%rsp)
	leaq	7(%rsi), %rdx
	movq	%rdx, 304(%r15)
	cmpq	$57, %rsi
	jb	.Lnoise_BB_v4_6_78
	movq	32(%r15), %rdx
	movq	40(%r15), %rsi
	movq	%r15, %rdi
	movq	%rcx, %rbx
	movl	%r8d, %r14d
	movl	%r9d, %r12d
	movl	%r10d, %ebp
	vzeroupper
	callq	"rand_chacha::guts::refill4.v4"
	movl	24(%rsp), %r11d
	movl	%ebp, %r10d
	movl	%r12d, %r9d
	movl	%r14d, %r8d
	movl	8(%rsp), %edi
	movq	%rbx, %rcx
	addq	$4, 40(%r15)
	xorl	%edx, %edx
.Lnoise_BB_v4_6_77:
	leaq	1(%rdx), %rax
	movl	4(%rsp), %esi
	jmp	.Lnoise_BB_v4_6_65
.Lnoise_BB_v4_6_78:
	movl	76(%r15,%rsi,4), %edx
	movl	%edx, 52(%rsp)
	leaq	8(%rsi), %rdx
	movq	%rdx, 304(%r15)
	cmpq	$62, %rax
	jne	.Lnoise_BB_v4_6_80
	movq	32(%r15), %rdx
	movq	40(%r15), %rsi
	movq	%r15, %rdi
	movq	%rcx, %rbx
	movl	%r8d, %r14d
	movl	%r9d, %r12d
	movl	%r10d, %ebp
	vzeroupper
	callq	"rand_chacha::guts::refill4.v4"
	movl	24(%rsp), %r11d
	movl	%ebp, %r10d
	movl	%r12d, %r9d
	movl	%r14d, %r8d
	movl	8(%rsp), %edi
	movq	%rbx, %rcx
	addq	$4, 40(%r15)
	movl	48(%r15), %eax
	movl	%eax, 40(%rsp)
	movl	$1, %edx
	jmp	.Lnoise_BB_v4_6_82
.Lnoise_BB_v4_6_80:
	movl	80(%r15,%rsi,4), %eax
	movl	%eax, 40(%rsp)
	leaq	9(%rsi), %rax
	movq	%rax, 304(%r15)
	cmpq	$55, %rsi
	jb	.Lnoise_BB_v4_6_83
	movq	32(%r15), %rdx
	movq	40(%r15), %rsi
	movq	%r15, %rdi
	movq	%rcx, %rbx
	movl	%r8d, %r14d
	movl	%r9d, %r12d
	movl	%r10d, %ebp
	vzeroupper
	callq	"rand_chacha::guts::refill4.v4"
	movl	24(%rsp), %r11d
	movl	%ebp, %r10d
	movl	%r12d, %r9d
	movl	%r14d, %r8d
	movl	8(%rsp), %edi
	movq	%rbx, %rcx
	addq	$4, 40(%r15)
	xorl	%edx, %edx
.Lnoise_BB_v4_6_82:
	leaq	1(%rdx), %rax
	movl	4(%rsp), %esi
	jmp	.Lnoise_BB_v4_6_66
.Lnoise_BB_v4_6_83:
	movl	84(%r15,%rsi,4), %eax
	movl	%eax, 48(%rsp)
	leaq	10(%rsi), %rax
	movq	%rax, 304(%r15)
	cmpq	$62, %rdx
	jne	.Lnoise_BB_v4_6_85
	movq	32(%r15), %rdx
	movq	40(%r15), %rsi
	movq	%r15, %rdi
	movq	%rcx, %rbx
	movl	%r8d, %r14d
	movl	%r9d, %r12d
	movl	%r10d, %ebp
	vzeroupper
	callq	"rand_chacha::guts::refill4.v4"
	movl	24(%rsp), %r11d
	movl	%ebp, %r10d
	movl	%r12d, %r9d
	movl	%r14d, %r8d
	movl	8(%rsp), %edi
	movq	%rbx, %rcx
	addq	$4, 40(%r15)
	movl	48(%r15), %eax
	movl	%eax, 36(%rsp)
	movl	$1, %edx
	jmp	.Lnoise_BB_v4_6_87
.Lnoise_BB_v4_6_85:
	movl	88(%r15,%rsi,4), %edx
	movl	%edx, 36(%rsp)
	leaq	11(%rsi), %rdx
	movq	%rdx, 304(%r15)
	cmpq	$53, %rsi
	jb	.Lnoise_BB_v4_6_88
	movq	32(%r15), %rdx
	movq	40(%r15), %rsi
	movq	%r15, %rdi
	movq	%rcx, %rbx
	movl	%r8d, %r14d
	movl	%r9d, %r12d
	movl	%r10d, %ebp
	vzeroupper
	callq	"rand_chacha::guts::refill4.v4"
	movl	24(%rsp), %r11d
	movl	%ebp, %r10d
	movl	%r12d, %r9d
	movl	%r14d, %r8d
	movl	8(%rsp), %edi
	movq	%rbx, %rcx
	addq	$4, 40(%r15)
	xorl	%edx, %edx
.Lnoise_BB_v4_6_87:
	leaq	1(%rdx), %rax
	movl	4(%rsp), %esi
	jmp	.Lnoise_BB_v4_6_67
.Lnoise_BB_v4_6_88:
	movl	92(%r15,%rsi,4), %ebx
	leaq	12(%rsi), %rdx
	movq	%rdx, 304(%r15)
	cmpq	$62, %rax
	movl	%r9d, (%rsp)
	jne	.Lnoise_BB_v4_6_90
	movq	32(%r15), %rdx
	movq	40(%r15), %rsi
	movq	%r15, %rdi
	movq	%rcx, %r14
	movl	%r8d, %r12d
	movl	%r10d, %ebp
	vzeroupper
	callq	"rand_chacha::guts::refill4.v4"
	movl	24(%rsp), %r11d
	movl	%ebp, %r10d
	movl	(%rsp), %r9d
	movl	%r12d, %r8d
	movl	8(%rsp), %edi
	movq	%r14, %rcx
	addq	$4, 40(%r15)
	movl	48(%r15), %ebp
	movl	$1, %edx
	jmp	.Lnoise_BB_v4_6_92
.Lnoise_BB_v4_6_90:
	movl	96(%r15,%rsi,4), %ebp
	leaq	13(%rsi), %rax
	movq	%rax, 304(%r15)
	cmpq	$51, %rsi
	jb	.Lnoise_BB_v4_6_93
	movq	32(%r15), %rdx
	movq	40(%r15), %rsi
	movq	%r15, %rdi
	movl	%r8d, %r12d
	movl	%r10d, %r14d
	vzeroupper
	callq	"rand_chacha::guts::refill4.v4"
	movl	24(%rsp), %r11d
	movl	%r14d, %r10d
	movl	(%rsp), %r9d
	movl	%r12d, %r8d
	movl	8(%rsp), %edi
	leaq	48(%r15), %rcx
	addq	$4, 40(%r15)
	xorl	%edx, %edx
.Lnoise_BB_v4_6_92:
	leaq	1(%rdx), %rax
	movl	4(%rsp), %esi
	jmp	.Lnoise_BB_v4_6_68
.Lnoise_BB_v4_6_93:
	movl	100(%r15,%rsi,4), %r14d
	leaq	14(%rsi), %rax
	movq	%rax, 304(%r15)
	cmpq	$62, %rdx
	jne	.Lnoise_BB_v4_6_95
	movq	32(%r15), %rdx
	movq	40(%r15), %rsi
	movq	%r15, %rdi
	movl	%r8d, 56(%rsp)
	movl	%r10d, %r12d
	vzeroupper
	callq	"rand_chacha::guts::refill4.v4"
	movl	24(%rsp), %r11d
	movl	%r12d, %r10d
	movl	(%rsp), %r9d
	movl	56(%rsp), %r8d
	movl	8(%rsp), %edi
	leaq	48(%r15), %rcx
	addq	$4, 40(%r15)
	movl	48(%r15), %r12d
	movq	$1, 304(%r15)
	movl	$1, %eax
	jmp	.Lnoise_BB_v4_6_97
.Lnoise_BB_v4_6_95:
	movl	104(%r15,%rsi,4), %r12d
	leaq	15(%rsi), %rax
	movq	%rax, 304(%r15)
	cmpq	$49, %rsi
	jb	.Lnoise_BB_v4_6_97
	movq	32(%r15), %rdx
	movq	40(%r15), %rsi
	movq	%r15, %rdi
	movl	%r8d, 56(%rsp)
	movl	%r10d, 12(%rsp)
	vzeroupper
	callq	"rand_chacha::guts::refill4.v4"
	movl	24(%rsp), %r11d
	movl	12(%rsp), %r10d
	movl	(%rsp), %r9d
	movl	56(%rsp), %r8d
	movl	8(%rsp), %edi
	leaq	48(%r15), %rcx
	addq	$4, 40(%r15)
	xorl	%eax, %eax
.Lnoise_BB_v4_6_97:
	movl	4(%rsp), %esi
	jmp	.Lnoise_BB_v4_6_98
.Lnoise_BB_v4_6_99:
	movq	80(%rsp), %rax
	movq	%rax, %r13
	andq	$63, %r13
	je	.Lnoise_BB_v4_6_152
	andq	$-64, %rax
	movq	%rax, 64(%rsp)
	vpxor	%xmm0, %xmm0, %xmm0
	vmovdqu	%ymm0, 128(%rsp)
	vmovdqu	%ymm0, 96(%rsp)
	movq	304(%r15), %rcx
	cmpq	$64, %rcx
	jb	.Lnoise_BB_v4_6_102
	movq	32(%r15), %rdx
	movq	40(%r15), %rsi
	leaq	48(%r15), %r12
	movq	%r15, %rdi
	movq	%r12, %rcx
	vzeroupper
	callq	"rand_chacha::guts::refill4.v4"
	addq	$4, 40(%r15)
	movl	48(%r15), %edx
	movl	$1, %eax
	jmp	.Lnoise_BB_v4_6_104
.Lnoise_BB_v4_6_102:
	leaq	48(%r15), %r12
	movl	48(%r15,%rcx,4), %ebx
	leaq	1(%rcx), %rax
	movq	%rax, 304(%r15)
	cmpq	$63, %rcx
	jne	.Lnoise_BB_v4_6_105
	movq	32(%r15), %rdx
	movq	40(%r15), %rsi
	movq	%r15, %rdi
	movq	%r12, %rcx
	vzeroupper
	callq	"rand_chacha::guts::refill4.v4"
	movl	%ebx, %edx
	addq	$4, 40(%r15)
	xorl	%eax, %eax
.Lnoise_BB_v4_6_104:
	movl	48(%r15,%rax,4), %esi
	leaq	1(%rax), %rcx
	movq	%rcx, 304(%r15)
	movl	52(%r15,%rax,4), %edi
	leaq	2(%rax), %rcx
	movq	%rcx, 304(%r15)
	leaq	(%r15,%rax,4), %rcx
	addq	$56, %rcx
	addq	$3, %rax
.Lnoise_BB_v4_6_110:
	movl	(%rcx), %r8d
	movq	%rax, 304(%r15)
	movl	(%r12,%rax,4), %r9d
	leaq	1(%rax), %rcx
	movq	%rcx, 304(%r15)
	leaq	(%r12,%rax,4), %rcx
	addq	$4, %rcx
	addq	$2, %rax
.Lnoise_BB_v4_6_116:
	movl	(%rcx), %r10d
	movq	%rax, 304(%r15)
	movl	(%r12,%rax,4), %r11d
	leaq	1(%rax), %rcx
	movq	%rcx, 304(%r15)
	leaq	(%r12,%rax,4), %rcx
	addq	$4, %rcx
	addq	$2, %rax
.Lnoise_BB_v4_6_122:
	movl	(%rcx), %ecx
	movl	%ecx, 44(%rsp)
	movq	%rax, 304(%r15)
	movl	(%r12,%rax,4), %ecx
	movl	%ecx, 52(%rsp)
	leaq	1(%rax), %rcx
	movq	%rcx, 304(%r15)
	leaq	(%r12,%rax,4), %rcx
	addq	$4, %rcx
	addq	$2, %rax
.Lnoise_BB_v4_6_128:
	movl	(%rcx), %ecx
	movl	%ecx, 40(%rsp)
	movq	%rax, 304(%r15)
	movl	(%r12,%rax,4), %ecx
	movl	%ecx, 48(%rsp)
	leaq	1(%rax), %rcx
	movq	%rcx, 304(%r15)
	leaq	(%r12,%rax,4), %rcx
	addq	$4, %rcx
	addq	$2, %rax
.Lnoise_BB_v4_6_134:
	movl	(%rcx), %ecx
	movl	%ecx, 36(%rsp)
	movq	%rax, 304(%r15)
	movl	(%r12,%rax,4), %r14d
	leaq	1(%rax), %rcx
	movq	%rcx, 304(%r15)
	leaq	(%r12,%rax,4), %rcx
	addq	$4, %rcx
	addq	$2, %rax
.Lnoise_BB_v4_6_140:
	movl	(%rcx), %ebx
	movq	%rax, 304(%r15)
	movl	(%r12,%rax,4), %ebp
	incq	%rax
	movq	%rax, 304(%r15)
.Lnoise_BB_v4_6_146:
	vmovd	%edx, %xmm0
	vpinsrd	$1, %esi, %xmm0, %xmm0
	vpinsrd	$2, %edi, %xmm0, %xmm0
	vpinsrd	$3, %r8d, %xmm0, %xmm0
	vmovd	%r9d, %xmm1
	vpinsrd	$1, %r10d, %xmm1, %xmm1
	vpinsrd	$2, %r11d, %xmm1, %xmm1
	vpinsrd	$3, 44(%rsp), %xmm1, %xmm1
	vmovd	52(%rsp), %xmm2
	vpinsrd	$1, 40(%rsp), %xmm2, %xmm2
	vpinsrd	$2, 48(%rsp), %xmm2, %xmm2
	movl	(%r12,%rax,4), %ecx
	incq	%rax
	movq	%rax, 304(%r15)
	vpinsrd	$3, 36(%rsp), %xmm2, %xmm2
	vmovd	%r14d, %xmm3
	vpinsrd	$1, %ebx, %xmm3, %xmm3
	vmovdqa	%xmm1, 112(%rsp)
	vmovdqa	%xmm0, 96(%rsp)
	vmovdqa	%xmm2, 128(%rsp)
	vmovq	%xmm3, 144(%rsp)
	movl	%ebp, 152(%rsp)
	vpbroadcastd	%ecx, %xmm0
	movb	%cl, 156(%rsp)
	vpextrb	$13, %xmm0, 157(%rsp)
	movq	72(%rsp), %rdx
	addq	64(%rsp), %rdx
	vpextrb	$14, %xmm0, 158(%rsp)
	vpextrb	$15, %xmm0, 159(%rsp)
	cmpl	$8, %r13d
	jae	.Lnoise_BB_v4_6_148
	xorl	%esi, %esi
	jmp	.Lnoise_BB_v4_6_151
.Lnoise_BB_v4_6_148:
	movq	80(%rsp), %rsi
	andl	$56, %esi
	xorl	%eax, %eax
	.p2align	4
.Lnoise_BB_v4_6_149:
	movq	96(%rsp,%rax), %rcx
	xorq	%rcx, (%rdx,%rax)
	addq	$8, %rax
	cmpq	%rax, %rsi
	jne	.Lnoise_BB_v4_6_149
	cmpl	%esi, %r13d
	je	.Lnoise_BB_v4_6_152
	.p2align	4
.Lnoise_BB_v4_6_151:
	movzbl	96(%rsp,%rsi), %eax
	xorb	%al, (%rdx,%rsi)
	incq	%rsi
	cmpq	%rsi, %r13
	jne	.Lnoise_BB_v4_6_151
.Lnoise_BB_v4_6_152:
	addq	$168, %rsp
	.cfi_def_cfa_offset 56
	popq	%rbx
	.cfi_def_cfa_offset 48
	popq	%r12
	.cfi_def_cfa_offset 40
	popq	%r13
	.cfi_def_cfa_offset 32
	popq	%r14
	.cfi_def_cfa_offset 24
	popq	%r15
	.cfi_def_cfa_offset 16
	popq	%rbp
	.cfi_def_cfa_offset 8
	vzeroupper
	retq
.Lnoise_BB_v4_6_105:
	.cfi_def_cfa_offset 224
	movl	%ebx, 8(%rsp)
	movl	52(%r15,%rcx,4), %esi
	leaq	2(%rcx), %rax
	movq	%rax, 304(%r15)
	cmpq	$62, %rcx
	jb	.Lnoise_BB_v4_6_107
	movl	%esi, %ebx
	movq	32(%r15), %rdx
	movq	40(%r15), %rsi
	movq	%r15, %rdi
	movq	%r12, %rcx
	vzeroupper
	callq	"rand_chacha::guts::refill4.v4"
	addq	$4, 40(%r15)
	movl	48(%r15), %edi
	movq	$1, 304(%r15)
	movl	$1, %eax
	jmp	.Lnoise_BB_v4_6_109
.Lnoise_BB_v4_6_107:
	movl	56(%r15,%rcx,4), %edi
	leaq	3(%rcx), %rdx
	movq	%rdx, 304(%r15)
	cmpq	$61, %rcx
	jne	.Lnoise_BB_v4_6_111
	movl	%esi, %ebx
	movq	32(%r15), %rdx
	movq	40(%r15), %rsi
	movl	%edi, %ebp
	movq	%r15, %rdi
	movq	%r12, %rcx
	vzeroupper
	callq	"rand_chacha::guts::refill4.v4"
	movl	%ebp, %edi
	addq	$4, 40(%r15)
	xorl	%eax, %eax
.Lnoise_BB_v4_6_109:
	leaq	(%r12,%rax,4), %rcx
	incq	%rax
	movl	8(%rsp), %edx
	movl	%ebx, %esi
	jmp	.Lnoise_BB_v4_6_110
.Lnoise_BB_v4_6_111:
	movl	60(%r15,%rcx,4), %r8d
	leaq	4(%rcx), %rdx
	movq	%rdx, 304(%r15)
	cmpq	$62, %rax
	jne	.Lnoise_BB_v4_6_113
	movl	%r8d, %r14d
	movl	%edi, %ebp
	movl	%esi, %ebx
	movq	32(%r15), %rdx
	movq	40(%r15), %rsi
	movq	%r15, %rdi
	movq	%r12, %rcx
	vzeroupper
	callq	"rand_chacha::guts::refill4.v4"
	addq	$4, 40(%r15)
	movl	48(%r15), %r9d
	movq	$1, 304(%r15)
	movl	$1, %eax
	jmp	.Lnoise_BB_v4_6_115
.Lnoise_BB_v4_6_113:
	movl	64(%r15,%rcx,4), %r9d
	leaq	5(%rcx), %rax
	movq	%rax, 304(%r15)
	cmpq	$59, %rcx
	movl	%r9d, 24(%rsp)
	jb	.Lnoise_BB_v4_6_117
	movl	%r8d, %r14d
	movl	%edi, %ebp
	movl	%esi, %ebx
	movq	32(%r15), %rdx
	movq	40(%r15), %rsi
	movq	%r15, %rdi
	movq	%r12, %rcx
	vzeroupper
	callq	"rand_chacha::guts::refill4.v4"
	movl	24(%rsp), %r9d
	addq	$4, 40(%r15)
	xorl	%eax, %eax
.Lnoise_BB_v4_6_115:
	leaq	(%r12,%rax,4), %rcx
	incq	%rax
	movl	8(%rsp), %edx
	movl	%ebx, %esi
	movl	%ebp, %edi
	movl	%r14d, %r8d
	jmp	.Lnoise_BB_v4_6_116
.Lnoise_BB_v4_6_117:
	movl	68(%r15,%rcx,4), %r10d
	leaq	6(%rcx), %rax
	movq	%rax, 304(%r15)
	cmpq	$62, %rdx
	movl	%r10d, 4(%rsp)
	jne	.Lnoise_BB_v4_6_119
	movl	%r8d, %r14d
	movl	%edi, %ebp
	movl	%esi, %ebx
	movq	32(%r15), %rdx
	movq	40(%r15), %rsi
	movq	%r15, %rdi
	movq	%r12, %rcx
	vzeroupper
	callq	"rand_chacha::guts::refill4.v4"
	addq	$4, 40(%r15)
	movl	48(%r15), %r11d
	movq	$1, 304(%r15)
	movl	$1, %eax
	jmp	.Lnoise_BB_v4_6_121
.Lnoise_BB_v4_6_119:
	movl	72(%r15,%rcx,4), %r11d
	leaq	7(%rcx), %rdx
	movq	%rdx, 304(%r15)
	cmpq	$57, %rcx
	movl	%r11d, (%rsp)
	jb	.Lnoise_BB_v4_6_123
	movl	%r8d, %r14d
	movl	%edi, %ebp
	movl	%esi, %ebx
	movq	32(%r15), %rdx
	movq	40(%r15), %rsi
	movq	%r15, %rdi
	movq	%r12, %rcx
	vzeroupper
	callq	"rand_chacha::guts::refill4.v4"
	movl	(%rsp), %r11d
	addq	$4, 40(%r15)
	xorl	%eax, %eax
.Lnoise_BB_v4_6_121:
	leaq	(%r12,%rax,4), %rcx
	incq	%rax
	movl	8(%rsp), %edx
	movl	%ebx, %esi
	movl	%ebp, %edi
	movl	%r14d, %r8d
	movl	24(%rsp), %r9d
	movl	4(%rsp), %r10d
	jmp	.Lnoise_BB_v4_6_122
.Lnoise_BB_v4_6_123:
	movl	76(%r15,%rcx,4), %edx
	movl	%edx, 44(%rsp)
	leaq	8(%rcx), %rdx
	movq	%rdx, 304(%r15)
	cmpq	$62, %rax
	jne	.Lnoise_BB_v4_6_125
	movl	%r8d, %r14d
	movl	%edi, %ebp
	movl	%esi, %ebx
	movq	32(%r15), %rdx
	movq	40(%r15), %rsi
	movq	%r15, %rdi
	movq	%r12, %rcx
	vzeroupper
	callq	"rand_chacha::guts::refill4.v4"
	addq	$4, 40(%r15)
	movl	48(%r15), %eax
	movl	%eax, 52(%rsp)
	movq	$1, 304(%r15)
	movl	$1, %eax
	jmp	.Lnoise_BB_v4_6_127
.Lnoise_BB_v4_6_125:
	movl	80(%r15,%rcx,4), %eax
	movl	%eax, 52(%rsp)
	leaq	9(%rcx), %rax
	movq	%rax, 304(%r15)
	cmpq	$55, %rcx
	jb	.Lnoise_BB_v4_6_129
	movl	%r8d, %r14d
	movl	%edi, %ebp
	movl	%esi, %ebx
	movq	32(%r15), %rdx
	movq	40(%r15), %rsi
	movq	%r15, %rdi
	movq	%r12, %rcx
	vzeroupper
	callq	"rand_chacha::guts::refill4.v4"
	addq	$4, 40(%r15)
	xorl	%eax, %eax
.Lnoise_BB_v4_6_127:
	leaq	(%r12,%rax,4), %rcx
	incq	%rax
	movl	8(%rsp), %edx
	movl	%ebx, %esi
	movl	%ebp, %edi
	movl	%r14d, %r8d
	movl	24(%rsp), %r9d
	movl	4(%rsp), %r10d
	movl	(%rsp), %r11d
	jmp	.Lnoise_BB_v4_6_128
.Lnoise_BB_v4_6_129:
	movl	84(%r15,%rcx,4), %eax
	movl	%eax, 40(%rsp)
	leaq	10(%rcx), %rax
	movq	%rax, 304(%r15)
	cmpq	$62, %rdx
	jne	.Lnoise_BB_v4_6_131
	movl	%r8d, %r14d
	movl	%edi, %ebp
	movl	%esi, %ebx
	movq	32(%r15), %rdx
	movq	40(%r15), %rsi
	movq	%r15, %rdi
	movq	%r12, %rcx
	vzeroupper
	callq	"rand_chacha::guts::refill4.v4"
	addq	$4, 40(%r15)
	movl	48(%r15), %eax
	movl	%eax, 48(%rsp)
	movq	$1, 304(%r15)
	movl	$1, %eax
	jmp	.Lnoise_BB_v4_6_133
.Lnoise_BB_v4_6_131:
	movl	88(%r15,%rcx,4), %edx
	movl	%edx, 48(%rsp)
	leaq	11(%rcx), %rdx
	movq	%rdx, 304(%r15)
	cmpq	$53, %rcx
	jb	.Lnoise_BB_v4_6_135
	movl	%r8d, %r14d
	movl	%edi, %ebp
	movl	%esi, %ebx
	movq	32(%r15), %rdx
	movq	40(%r15), %rsi
	movq	%r15, %rdi
	movq	%r12, %rcx
	vzeroupper
	callq	"rand_chacha::guts::refill4.v4"
	addq	$4, 40(%r15)
	xorl	%eax, %eax
.Lnoise_BB_v4_6_133:
	leaq	(%r12,%rax,4), %rcx
	incq	%rax
	movl	8(%rsp), %edx
	movl	%ebx, %esi
	movl	%ebp, %edi
	movl	%r14d, %r8d
	movl	24(%rsp), %r9d
	movl	4(%rsp), %r10d
	movl	(%rsp), %r11d
	jmp	.Lnoise_BB_v4_6_134
.Lnoise_BB_v4_6_135:
	movl	%r8d, 16(%rsp)
	movl	%edi, 12(%rsp)
	movl	%esi, 56(%rsp)
	movl	92(%r15,%rcx,4), %edx
	movl	%edx, 36(%rsp)
	leaq	12(%rcx), %rdx
	movq	%rdx, 304(%r15)
	cmpq	$62, %rax
	jne	.Lnoise_BB_v4_6_137
	movq	32(%r15), %rdx
	movq	40(%r15), %rsi
	movq	%r15, %rdi
	movq	%r12, %rcx
	vzeroupper
	callq	"rand_chacha::guts::refill4.v4"
	addq	$4, 40(%r15)
	movl	48(%r15), %r14d
	movq	$1, 304(%r15)
	movl	$1, %eax
	jmp	.Lnoise_BB_v4_6_139
.Lnoise_BB_v4_6_137:
	movl	96(%r15,%rcx,4), %r14d
	leaq	13(%rcx), %rax
	movq	%rax, 304(%r15)
	cmpq	$51, %rcx
	jb	.Lnoise_BB_v4_6_141
	movq	32(%r15), %rdx
	movq	40(%r15), %rsi
	movq	%r15, %rdi
	movq	%r12, %rcx
	vzeroupper
	callq	"rand_chacha::guts::refill4.v4"
	addq	$4, 40(%r15)
	xorl	%eax, %eax
.Lnoise_BB_v4_6_139:
	leaq	(%r12,%rax,4), %rcx
	incq	%rax
	movl	8(%rsp), %edx
	movl	56(%rsp), %esi
	movl	12(%rsp), %edi
	movl	16(%rsp), %r8d
	movl	24(%rsp), %r9d
	movl	4(%rsp), %r10d
	movl	(%rsp), %r11d
	jmp	.Lnoise_BB_v4_6_140
.Lnoise_BB_v4_6_141:
	movl	100(%r15,%rcx,4), %ebx
	leaq	14(%rcx), %rax
	movq	%rax, 304(%r15)
	cmpq	$62, %rdx
	jne	.Lnoise_BB_v4_6_143
	movq	32(%r15), %rdx
	movq	40(%r15), %rsi
	movq	%r15, %rdi
	movq	%r12, %rcx
	vzeroupper
	callq	"rand_chacha::guts::refill4.v4"
	addq	$4, 40(%r15)
	movl	48(%r15), %ebp
	movq	$1, 304(%r15)
	movl	$1, %eax
	jmp	.Lnoise_BB_v4_6_145
.Lnoise_BB_v4_6_143:
	movl	104(%r15,%rcx,4), %ebp
	leaq	15(%rcx), %rax
	movq	%rax, 304(%r15)
	cmpq	$49, %rcx
	jb	.Lnoise_BB_v4_6_145
	movq	32(%r15), %rdx
	movq	40(%r15), %rsi
	movq	%r15, %rdi
	movq	%r12, %rcx
	vzeroupper
	callq	"rand_chacha::guts::refill4.v4"
	addq	$4, 40(%r15)
	xorl	%eax, %eax
.Lnoise_BB_v4_6_145:
	movl	8(%rsp), %edx
	movl	56(%rsp), %esi
	movl	12(%rsp), %edi
	movl	16(%rsp), %r8d
	movl	24(%rsp), %r9d
	movl	4(%rsp), %r10d
	movl	(%rsp), %r11d
	jmp	.Lnoise_BB_v4_6_146
.Lnoise_func_end_v4_6:
	.size	"noise_aead::keystream::apply.v4", .Lnoise_func_end_v4_6-"noise_aead::keystream::apply.v4"
	.cfi_endproc

	.section	.rodata.cst16,"aM",@progbits,16
	.p2align	4, 0x0
.Lnoise_CPI_v4_2_4:
	.zero	1
	.zero	1
	.zero	1
	.zero	1
	.zero	1
	.zero	1
	.zero	1
	.zero	1
	.byte	8
	.byte	9
	.byte	2
	.byte	3
	.zero	1
	.zero	1
	.zero	1
	.zero	1
	.section	".text.noise_aead::authenticator::tag","ax",@progbits
	.p2align	4
	.type	"noise_aead::authenticator::tag.v4",@function
"noise_aead::authenticator::tag.v4":
	.cfi_startproc
	pushq	%rbp
	.cfi_def_cfa_offset 16
	pushq	%r15
	.cfi_def_cfa_offset 24
	pushq	%r14
	.cfi_def_cfa_offset 32
	pushq	%r13
	.cfi_def_cfa_offset 40
	pushq	%r12
	.cfi_def_cfa_offset 48
	pushq	%rbx
	.cfi_def_cfa_offset 56
	subq	$200, %rsp
	.cfi_def_cfa_offset 256
	.cfi_offset %rbx, -56
	.cfi_offset %r12, -48
	.cfi_offset %r13, -40
	.cfi_offset %r14, -32
	.cfi_offset %r15, -24
	.cfi_offset %rbp, -16
	movq	%r9, %r14
	movq	%r8, %r13
	movq	%rcx, %r15
	movq	%rdi, 40(%rsp)
	vmovups	(%rsi), %xmm0
	vmovups	16(%rsi), %xmm1
	vandps	.Lnoise_CPI2_0(%rip), %xmm0, %xmm0
	vxorps	%xmm2, %xmm2, %xmm2
	vmovups	%ymm2, 64(%rsp)
	vmovaps	%xmm0, 96(%rsp)
	vmovaps	%xmm1, 112(%rsp)
	vmovups	%ymm2, 128(%rsp)
	leaq	64(%rsp), %r12
	movq	%r12, %rdi
	movq	%rdx, %rsi
	movq	%rcx, %rdx
	vzeroupper
	callq	"noise_poly::Poly1305::update"
	movl	%r15d, %edx
	negl	%edx
	andl	$15, %edx
	leaq	.Lnoise_static.0(%rip), %rbp
	movq	%r12, %rdi
	movq	%rbp, %rsi
	callq	"noise_poly::Poly1305::update"
	movq	%r12, %rdi
	movq	%r13, %rsi
	movq	%r14, %rdx
	callq	"noise_poly::Poly1305::update"
	movl	%r14d, %edx
	negl	%edx
	andl	$15, %edx
	movq	%r12, %rdi
	movq	%rbp, %rsi
	callq	"noise_poly::Poly1305::update"
	movq	%r15, 48(%rsp)
	movq	%r14, 56(%rsp)
	leaq	48(%rsp), %rsi
	movl	$16, %edx
	movq	%r12, %rdi
	callq	"noise_poly::Poly1305::update"
	movq	64(%rsp), %r15
	movq	72(%rsp), %r14
	movq	80(%rsp), %rbx
	movq	104(%rsp), %rcx
	movq	96(%rsp), %rax
	movq	120(%rsp), %r13
	movq	112(%rsp), %rbp
	vmovups	128(%rsp), %ymm0
	vmovups	%ymm0, 160(%rsp)
	movq	176(%rsp), %r12
	testq	%r12, %r12
	je	.Lnoise_BB_v4_2_2
	movl	$16, %esi
	subq	%r12, %rsi
	xorl	%edx, %edx
	cmpq	$16, %r12
	cmovbq	%rsi, %rdx
	leaq	(%rsp,%r12), %rdi
	xorl	%esi, %esi
	movq	%rax, 32(%rsp)
	movq	%rcx, 24(%rsp)
	vzeroupper
	callq	memset@PLT
	movq	%rsp, %rdi
	leaq	160(%rsp), %rsi
	movq	%r12, %rdx
	callq	memcpy@PLT
	movb	$1, (%rsp,%r12)
	addq	(%rsp), %r15
	adcq	8(%rsp), %r14
	adcq	$0, %rbx
	movq	24(%rsp), %rcx
	movq	%rcx, %rax
	shrq	$2, %rax
	addq	%rcx, %rax
	movq	%rcx, %r9
	movq	%r15, %rdx
	movq	32(%rsp), %r10
	mulxq	%r10, %r8, %rdi
	movq	%r14, %rdx
	mulxq	%rax, %rcx, %rsi
	addq	%r8, %rcx
	adcq	%rdi, %rsi
	movq	%r15, %rdx
	mulxq	%r9, %r8, %rdi
	movq	%r14, %rdx
	mulxq	%r10, %rdx, %r9
	addq	%r8, %rdx
	adcq	%rdi, %r9
	imulq	%rbx, %rax
	addq	%rdx, %rax
	adcq	$0, %r9
	imulq	%r10, %rbx
	movq	%rax, %rdx
	addq	%rsi, %rdx
	adcq	%r9, %rbx
	movq	%rbx, %rdi
	shrq	$2, %rdi
	leaq	(%rdi,%rdi,4), %rdi
	movq	%rdi, %r8
	addq	%rcx, %r8
	adcq	%rsi, %rax
	andl	$3, %ebx
	addq	%rdi, %rcx
	adcq	$0, %rdx
	adcq	$0, %rbx
	movq	%rcx, %r15
	movq	%rax, %r14
.Lnoise_BB_v4_2_2:
	movq	%rbx, %rax
	shrq	$2, %rax
	leaq	(%rax,%rax,4), %rax
	addq	$5, %rax
	addq	%r15, %rax
	movq	%r14, %rax
	adcq	$0, %rax
	adcq	$0, %rbx
	shrq	$2, %rbx
	addq	%r15, %rbp
	adcq	%r14, %r13
	leaq	(%rbx,%rbx,4), %rax
	addq	%rax, %rbp
	adcq	$0, %r13
	movq	%r13, %rcx
	shldq	$56, %rbp, %rcx
	movq	%r13, %rsi
	shldq	$48, %rbp, %rsi
	movq	%r13, %rdi
	shldq	$40, %rbp, %rdi
	movq	%r13, %r8
	shldq	$32, %rbp, %r8
	movq	%r13, %r9
	shldq	$24, %rbp, %r9
	movq	%r13, %r10
	shldq	$16, %rbp, %r10
	movq	%r13, %r11
	shldq	$8, %rbp, %r11
	movq	%r13, %rax
	shrq	$32, %rax
	movq	%r13, %rdx
	shrq	$40, %rdx
	movq	%r13, %rbx
	shrq	$48, %rbx
	movq	%r13, %r14
	shrq	$56, %r14
	vmovq	%r11, %xmm0
	vmovq	%r10, %xmm1
	vpunpcklqdq	%xmm0, %xmm1, %xmm0
	vmovq	.Lnoise_CPI_v3_2_4(%rip), %xmm1
	vpshufb	%xmm1, %xmm0, %xmm0
	vmovq	%r9, %xmm2
	vmovq	%r8, %xmm3
	vpunpcklqdq	%xmm2, %xmm3, %xmm2
	vpshufb	%xmm1, %xmm2, %xmm1
	vpblendw	$8, %xmm0, %xmm1, %xmm0
	vmovq	%rdi, %xmm1
	vmovq	%rsi, %xmm2
	vpunpcklqdq	%xmm1, %xmm2, %xmm1
	vpshufb	.Lnoise_CPI_v3_2_2(%rip), %xmm1, %xmm1
	vmovq	%rcx, %xmm2
	vmovq	%rbp, %xmm3
	vpunpcklbw	%xmm2, %xmm3, %xmm2
	vpblendw	$2, %xmm1, %xmm2, %xmm1
	vpblendd	$2, %xmm0, %xmm1, %xmm0
	vmovd	%r14d, %xmm1
	vmovd	%ebx, %xmm2
	vpunpcklqdq	%xmm1, %xmm2, %xmm1
	vmovdqa	.Lnoise_CPI_v3_2_3(%rip), %xmm2
	vpshufb	%xmm2, %xmm1, %xmm1
	vmovd	%edx, %xmm3
	vmovd	%eax, %xmm4
	vpunpcklqdq	%xmm3, %xmm4, %xmm3
	vpshufb	%xmm2, %xmm3, %xmm2
	vpbroadcastq	%r13, %xmm3
	vpshufb	.Lnoise_CPI_v4_2_4(%rip), %xmm3, %xmm3
	vpblendw	$128, %xmm1, %xmm2, %xmm1
	vpblendd	$8, %xmm1, %xmm3, %xmm1
	vpblendd	$12, %xmm1, %xmm0, %xmm0
	movq	40(%rsp), %rax
	vmovdqu	%xmm0, (%rax)
	addq	$200, %rsp
	.cfi_def_cfa_offset 56
	popq	%rbx
	.cfi_def_cfa_offset 48
	popq	%r12
	.cfi_def_cfa_offset 40
	popq	%r13
	.cfi_def_cfa_offset 32
	popq	%r14
	.cfi_def_cfa_offset 24
	popq	%r15
	.cfi_def_cfa_offset 16
	popq	%rbp
	.cfi_def_cfa_offset 8
	vzeroupper
	retq
.Lnoise_func_end_v4_2:
	.size	"noise_aead::authenticator::tag.v4", .Lnoise_func_end_v4_2-"noise_aead::authenticator::tag.v4"
	.cfi_endproc

	.section	".text.noise_poly::Poly1305::take_eights","ax",@progbits
	.p2align	4
	.type	"noise_poly::Poly1305::take_eights.v4",@function
"noise_poly::Poly1305::take_eights.v4":
	.cfi_startproc
	pushq	%rbp
	.cfi_def_cfa_offset 16
	pushq	%r15
	.cfi_def_cfa_offset 24
	pushq	%r14
	.cfi_def_cfa_offset 32
	pushq	%r13
	.cfi_def_cfa_offset 40
	pushq	%r12
	.cfi_def_cfa_offset 48
	pushq	%rbx
	.cfi_def_cfa_offset 56
	subq	$104, %rsp
	.cfi_def_cfa_offset 160
	.cfi_offset %rbx, -56
	.cfi_offset %r12, -48
	.cfi_offset %r13, -40
	.cfi_offset %r14, -32
	.cfi_offset %r15, -24
	.cfi_offset %rbp, -16
	movq	%rdx, %rbx
	movq	40(%rdi), %rcx
	movq	32(%rdi), %rdx
	movl	%edx, %r11d
	andl	$67108863, %r11d
	movq	%rdx, %r14
	shrq	$26, %r14
	andl	$67108863, %r14d
	movl	%ecx, %eax
	shll	$12, %eax
	movq	%rdx, 72(%rsp)
	movq	%rdx, %r15
	shrq	$52, %r15
	orl	%eax, %r15d
	andl	$67108863, %r15d
	movq	%rcx, %r12
	shrq	$14, %r12
	andl	$67108863, %r12d
	movq	%rcx, 80(%rsp)
	movq	%rcx, %r13
	shrq	$40, %r13
	leaq	(,%r13,4), %r8
	addq	%r13, %r8
	vmovdqu	(%rsi), %ymm4
	vmovdqu	32(%rsi), %ymm5
	vpunpckhqdq	%ymm5, %ymm4, %ymm0
	vpermq	$216, %ymm0, %ymm7
	vpsrlq	$40, %ymm7, %ymm0
	vporq	.Lnoise_CPI_v3s_5_0(%rip){1to4}, %ymm0, %ymm1
	movl	16(%rdi), %ecx
	shll	$24, %ecx
	movq	(%rdi), %rax
	movq	%rdi, 96(%rsp)
	movq	8(%rdi), %rdx
	movq	%rdx, %r9
	shrq	$40, %r9
	orq	%rcx, %r9
	vmovq	%xmm1, %rdi
	addq	%r9, %rdi
	vmovq	%rdi, %xmm6
	vpbroadcastq	.Lnoise_CPI_v3s_5_1(%rip), %ymm0
	vpsrlq	$14, %ymm7, %ymm2
	vpand	%ymm0, %ymm2, %ymm3
	vmovq	%xmm3, %rdi
	movq	%rdx, %r9
	shrq	$14, %r9
	andl	$67108863, %r9d
	addl	%r9d, %edi
	vmovd	%edi, %xmm2
	vpunpcklqdq	%ymm5, %ymm4, %ymm4
	vpermq	$216, %ymm4, %ymm9
	vpsrlq	$52, %ymm9, %ymm4
	vpsllq	$12, %ymm7, %ymm5
	vpternlogq	$200, %ymm4, %ymm0, %ymm5
	vmovq	%xmm5, %rdi
	shldq	$12, %rax, %rdx
	andl	$67108863, %edx
	addl	%edx, %edi
	vmovd	%edi, %xmm4
	vpsrlq	$26, %ymm9, %ymm7
	vpand	%ymm0, %ymm7, %ymm7
	vmovq	%xmm7, %rdx
	movq	%rax, %rdi
	shrq	$26, %rdi
	andl	$67108863, %edi
	addl	%edi, %edx
	vmovd	%edx, %xmm8
	vpand	%ymm0, %ymm9, %ymm9
	vmovq	%xmm9, %rdx
	andl	$67108863, %eax
	addl	%eax, %edx
	vmovd	%edx, %xmm10
	movq	%r14, %rax
	imulq	%r15, %rax
	movq	%r11, %rdx
	imulq	%r12, %rdx
	addq	%rax, %rdx
	movq	%r8, %rax
	imulq	%r13, %rax
	leaq	(%rax,%rdx,2), %rdi
	movq	%rdi, %rax
	shrq	$26, %rax
	movq	%r15, %rdx
	imulq	%r15, %rdx
	addq	%rax, %rdx
	movq	%r14, %rax
	imulq	%r12, %rax
	movq	%r11, %r9
	imulq	%r13, %r9
	addq	%rax, %r9
	leaq	(%rdx,%r9,2), %r10
	movq	%r14, %rax
	imulq	%r14, %rax
	movq	%r8, %rdx
	imulq	%r12, %rdx
	addq	%rax, %rdx
	leal	(%r11,%r11), %r9d
	movq	%r9, %rax
	imulq	%r15, %rax
	addq	%rax, %rdx
	leal	(%r12,%r12,4), %ecx
	movq	%rcx, %rax
	imulq	%r13, %rax
	addq	%rdx, %rax
	imulq	%r14, %r9
	movq	%r8, %rdx
	imulq	%r15, %rdx
	addq	%r9, %rdx
	movq	%rcx, %r9
	imulq	%r12, %r9
	addq	%rdx, %r9
	leal	(%r15,%r15,4), %ebp
	movq	%rbp, %rdx
	imulq	%r13, %rdx
	addq	%r9, %rdx
	movq	%r8, %r9
	imulq	%r14, %r9
	movq	%r11, 56(%rsp)
	imulq	%r11, %r11
	addq	%r9, %r11
	movq	%rcx, (%rsp)
	movq	%rcx, %r9
	movq	%r15, 8(%rsp)
	imulq	%r15, %r9
	addq	%r11, %r9
	movq	%rbp, 24(%rsp)
	movq	%rbp, %r11
	movq	%r12, 48(%rsp)
	imulq	%r12, %r11
	addq	%r9, %r11
	movq	%r14, 16(%rsp)
	leal	(%r14,%r14,4), %r9d
	movq	%r9, 32(%rsp)
	movq	%r13, 40(%rsp)
	imulq	%r13, %r9
	addq	%r11, %r9
	movq	%r9, %r11
	shrq	$26, %r11
	addq	%rdx, %r11
	movq	%r11, %rdx
	shrq	$26, %rdx
	addq	%rax, %rdx
	movq	%rdx, %rax
	shrq	$26, %rax
	andl	$67108863, %edi
	addq	%rax, %rdi
	movl	%r10d, %ebp
	andl	$67108863, %ebp
	movq	%rdi, %rax
	shrq	$26, %rax
	addl	%ebp, %eax
	shrq	$26, %r10
	leaq	(%r10,%r10,4), %r10
	andl	$67108863, %r9d
	addq	%r10, %r9
	andl	$67108863, %r11d
	movq	%r9, %r14
	shrq	$26, %r14
	addl	%r11d, %r14d
	andl	$67108863, %edx
	movq	%rdx, %r10
	imulq	%r14, %r10
	andl	$67108863, %edi
	andl	$67108863, %r9d
	movq	%rdi, %r11
	imulq	%r9, %r11
	addq	%r10, %r11
	leal	(%rax,%rax,4), %ebp
	movq	%rbp, %r10
	imulq	%rax, %r10
	leaq	(%r10,%r11,2), %r11
	movq	%r11, %r10
	shrq	$26, %r10
	movq	%rdx, %r15
	imulq	%rdx, %r15
	addq	%r10, %r15
	movq	%r9, %r10
	imulq	%rax, %r10
	movq	%rdi, %r12
	imulq	%r14, %r12
	addq	%r10, %r12
	leaq	(%r15,%r12,2), %r10
	movq	%r14, %r15
	imulq	%r14, %r15
	leal	(%rdx,%rdx), %r13d
	imulq	%r9, %r13
	addq	%r15, %r13
	leaq	(%rdi,%rdi,4), %rcx
	movq	%rcx, %r12
	imulq	%rax, %r12
	addq	%r13, %r12
	movq	%rdi, %r15
	imulq	%rbp, %r15
	addq	%r12, %r15
	leal	(%r9,%r9), %r12d
	imulq	%r14, %r12
	movq	%rcx, %r13
	imulq	%rdi, %r13
	addq	%r13, %r12
	leaq	(%rdx,%rdx,4), %r13
	imulq	%r13, %rdi
	imulq	%rax, %r13
	addq	%r12, %r13
	imulq	%rdx, %rcx
	imulq	%rbp, %rdx
	addq	%r13, %rdx
	imulq	%r9, %r9
	addq	%rdi, %r9
	addq	%rcx, %r9
	imulq	%r14, %rbp
	leal	(%r14,%r14,4), %ecx
	imulq	%rax, %rcx
	addq	%r9, %rcx
	addq	%rcx, %rbp
	movq	%rbp, %rax
	shrq	$26, %rax
	addq	%rdx, %rax
	movq	%rax, %rdi
	shrq	$26, %rdi
	addq	%r15, %rdi
	movq	%rdi, %rcx
	shrq	$26, %rcx
	andl	$67108863, %r11d
	addq	%rcx, %r11
	movl	%r10d, %ecx
	andl	$67108863, %ecx
	movq	%r11, %r14
	shrq	$26, %r14
	addl	%ecx, %r14d
	shrq	$26, %r10
	leaq	(%r10,%r10,4), %rcx
	andl	$67108863, %ebp
	addq	%rcx, %rbp
	andl	$67108863, %eax
	movq	%rbp, %r10
	shrq	$26, %r10
	addl	%eax, %r10d
	andl	$67108863, %edi
	movq	%rdi, %rax
	imulq	%r10, %rax
	andl	$67108863, %r11d
	andl	$67108863, %ebp
	movq	%r11, %rcx
	imulq	%rbp, %rcx
	addq	%rax, %rcx
	leal	(%r14,%r14,4), %r9d
	movq	%r9, %rax
	imulq	%r14, %rax
	leaq	(%rax,%rcx,2), %r13
	movq	%r13, %rax
	shrq	$26, %rax
	movq	%rdi, %rcx
	imulq	%rdi, %rcx
	addq	%rax, %rcx
	movq	%rbp, %rax
	imulq	%r14, %rax
	movq	%r11, %rdx
	imulq	%r10, %rdx
	addq	%rax, %rdx
	leaq	(%rcx,%rdx,2), %r12
	leal	(,%rbp,2), %r15d
	movq	%r15, %rcx
	imulq	%rdi, %rcx
	movq	%r10, %rax
	imulq	%r10, %rax
	addq	%rax, %rcx
	leaq	(%r11,%r11,4), %r8
	movq	%r8, %rax
	imulq	%r14, %rax
	addq	%rcx, %rax
	movq	%r11, %rdx
	imulq	%r9, %rdx
	addq	%rax, %rdx
	movq	%r8, %rax
	imulq	%r11, %rax
	imulq	%r10, %r15
	addq	%rax, %r15
	vpbroadcastq	%r11, %ymm11
	leaq	(%rdi,%rdi,4), %rax
	imulq	%rax, %r11
	vpbroadcastq	%rax, %ymm12
	imulq	%r14, %rax
	addq	%r15, %rax
	vpbroadcastq	%r8, %ymm13
	imulq	%rdi, %r8
	vpbroadcastq	%rdi, %ymm14
	imulq	%r9, %rdi
	addq	%rax, %rdi
	vpbroadcastq	%rbp, %ymm15
	imulq	%rbp, %rbp
	addq	%r11, %rbp
	addq	%rbp, %r8
	vpbroadcastq	%r9, %ymm16
	imulq	%r10, %r9
	vpbroadcastq	%r10, %ymm17
	leal	(%r10,%r10,4), %eax
	vpbroadcastq	%r14, %ymm18
	imulq	%rax, %r14
	addq	%r8, %r14
	addq	%r14, %r9
	movq	%r9, %rcx
	shrq	$26, %rcx
	addq	%rdi, %rcx
	movq	%rcx, %rdi
	shrq	$26, %rdi
	addq	%rdx, %rdi
	movq	%rdi, %rdx
	shrq	$26, %rdx
	andl	$67108863, %r13d
	addq	%rdx, %r13
	movl	%r12d, %edx
	andl	$67108863, %edx
	movq	%r13, %r8
	shrq	$26, %r8
	addl	%edx, %r8d
	shrq	$26, %r12
	leaq	(%r12,%r12,4), %rdx
	andl	$67108863, %r9d
	addq	%rdx, %r9
	andl	$67108863, %ecx
	movq	%r9, %rdx
	shrq	$26, %rdx
	addl	%ecx, %edx
	andl	$67108863, %r9d
	vpbroadcastq	%r9, %ymm19
	leal	(%r8,%r8,4), %ecx
	vpbroadcastq	%rcx, %ymm20
	andl	$67108863, %r13d
	leaq	(,%r13,4), %rcx
	addq	%r13, %rcx
	vpbroadcastq	%rcx, %ymm21
	andl	$67108863, %edi
	leaq	(%rdi,%rdi,4), %rcx
	vpbroadcastq	%rcx, %ymm22
	leal	(%rdx,%rdx,4), %ecx
	vpbroadcastq	%rcx, %ymm23
	vpbroadcastq	%rdx, %ymm24
	vpbroadcastq	%rdi, %ymm25
	vpbroadcastq	%r13, %ymm26
	vpbroadcastq	%r8, %ymm27
	vpbroadcastq	%rax, %ymm28
	vpblendd	$3, %ymm6, %ymm1, %ymm6
	vpblendd	$3, %ymm2, %ymm3, %ymm2
	vpblendd	$3, %ymm4, %ymm5, %ymm3
	vpblendd	$3, %ymm8, %ymm7, %ymm4
	vpblendd	$3, %ymm10, %ymm9, %ymm1
	addq	$-64, %rbx
	addq	$64, %rsi
	.p2align	4
.Lnoise_BB_v4_5_1:
	vpsrlq	$26, %ymm1, %ymm5
	vpaddq	%ymm4, %ymm5, %ymm4
	vpsrlq	$26, %ymm2, %ymm5
	vpaddq	%ymm6, %ymm5, %ymm5
	vpsrlq	$26, %ymm4, %ymm6
	vpaddq	%ymm3, %ymm6, %ymm3
	vpand	%ymm0, %ymm1, %ymm1
	vpsrlq	$26, %ymm5, %ymm6
	vpsllq	$2, %ymm6, %ymm7
	vpaddq	%ymm7, %ymm6, %ymm6
	vpaddq	%ymm6, %ymm1, %ymm1
	vpand	%ymm0, %ymm2, %ymm2
	vpsrlq	$26, %ymm3, %ymm6
	vpaddq	%ymm2, %ymm6, %ymm2
	vpand	%ymm0, %ymm1, %ymm6
	vpand	%ymm0, %ymm4, %ymm4
	vpsrlq	$26, %ymm1, %ymm1
	vpaddq	%ymm4, %ymm1, %ymm1
	vpand	%ymm0, %ymm3, %ymm3
	vpand	%ymm0, %ymm2, %ymm4
	vpand	%ymm0, %ymm5, %ymm5
	vpsrlq	$26, %ymm2, %ymm2
	vpaddq	%ymm5, %ymm2, %ymm2
	vpmuldq	%ymm19, %ymm6, %ymm5
	vpmuludq	%ymm20, %ymm1, %ymm7
	vpmuldq	%ymm21, %ymm3, %ymm8
	vpaddq	%ymm5, %ymm8, %ymm5
	vpaddq	%ymm5, %ymm7, %ymm5
	vpmuldq	%ymm22, %ymm4, %ymm7
	vpmuludq	%ymm23, %ymm2, %ymm8
	vpaddq	%ymm7, %ymm8, %ymm7
	vpaddq	%ymm7, %ymm5, %ymm5
	vpmuludq	%ymm24, %ymm6, %ymm7
	vpmuldq	%ymm19, %ymm1, %ymm8
	vpmuludq	%ymm20, %ymm3, %ymm9
	vpaddq	%ymm7, %ymm9, %ymm7
	vpaddq	%ymm7, %ymm8, %ymm7
	vpmuldq	%ymm21, %ymm4, %ymm8
	vpmuldq	%ymm22, %ymm2, %ymm9
	vpaddq	%ymm9, %ymm8, %ymm8
	vpaddq	%ymm7, %ymm8, %ymm7
	vpmuldq	%ymm25, %ymm6, %ymm8
	vpmuludq	%ymm24, %ymm1, %ymm9
	vpmuldq	%ymm19, %ymm3, %ymm10
	vpaddq	%ymm10, %ymm8, %ymm8
	vpaddq	%ymm8, %ymm9, %ymm8
	vpmuludq	%ymm20, %ymm4, %ymm9
	vpmuldq	%ymm21, %ymm2, %ymm10
	vpaddq	%ymm10, %ymm9, %ymm9
	vpaddq	%ymm9, %ymm8, %ymm8
	vpmuldq	%ymm26, %ymm6, %ymm9
	vpmuldq	%ymm25, %ymm1, %ymm10
	vpmuludq	%ymm24, %ymm3, %ymm29
	vpaddq	%ymm29, %ymm9, %ymm9
	vpaddq	%ymm9, %ymm10, %ymm9
	vpmuldq	%ymm19, %ymm4, %ymm10
	vpmuludq	%ymm20, %ymm2, %ymm29
	vpaddq	%ymm29, %ymm10, %ymm10
	vpaddq	%ymm10, %ymm9, %ymm9
	vpmuludq	%ymm27, %ymm6, %ymm6
	vpmuldq	%ymm26, %ymm1, %ymm1
	vpmuldq	%ymm25, %ymm3, %ymm3
	vpaddq	%ymm3, %ymm6, %ymm3
	vpaddq	%ymm1, %ymm3, %ymm1
	vpmuludq	%ymm24, %ymm4, %ymm3
	vpmuldq	%ymm19, %ymm2, %ymm2
	vpaddq	%ymm2, %ymm3, %ymm2
	vpaddq	%ymm2, %ymm1, %ymm1
	vmovdqu	(%rsi), %ymm2
	vmovdqu	32(%rsi), %ymm3
	vpunpcklqdq	%ymm3, %ymm2, %ymm4
	vpermq	$216, %ymm4, %ymm4
	vpunpckhqdq	%ymm3, %ymm2, %ymm2
	vpermq	$216, %ymm2, %ymm2
	vpand	%ymm0, %ymm4, %ymm3
	vpsrlq	$26, %ymm4, %ymm6
	vpand	%ymm0, %ymm6, %ymm6
	vpsrlq	$52, %ymm4, %ymm4
	vpsllq	$12, %ymm2, %ymm10
	vpternlogq	$200, %ymm4, %ymm0, %ymm10
	vpsrlq	$14, %ymm2, %ymm4
	vpand	%ymm0, %ymm4, %ymm4
	vpmuldq	%ymm15, %ymm3, %ymm29
	vpmuludq	%ymm16, %ymm6, %ymm30
	vpaddq	%ymm30, %ymm29, %ymm29
	vpmuldq	%ymm13, %ymm10, %ymm30
	vpaddq	%ymm30, %ymm29, %ymm29
	vpmuldq	%ymm12, %ymm4, %ymm30
	vpaddq	%ymm30, %ymm29, %ymm29
	vpaddq	%ymm29, %ymm5, %ymm5
	vpmuludq	%ymm17, %ymm3, %ymm29
	vpmuldq	%ymm15, %ymm6, %ymm30
	vpaddq	%ymm30, %ymm29, %ymm29
	vpmuludq	%ymm16, %ymm10, %ymm30
	vpaddq	%ymm30, %ymm29, %ymm29
	vpmuldq	%ymm13, %ymm4, %ymm30
	vpaddq	%ymm30, %ymm29, %ymm29
	vpaddq	%ymm29, %ymm7, %ymm7
	vpmuldq	%ymm14, %ymm3, %ymm29
	vpmuludq	%ymm17, %ymm6, %ymm30
	vpaddq	%ymm30, %ymm29, %ymm29
	vpmuldq	%ymm15, %ymm10, %ymm30
	vpaddq	%ymm30, %ymm29, %ymm29
	vpmuludq	%ymm16, %ymm4, %ymm30
	vpaddq	%ymm30, %ymm29, %ymm29
	vpaddq	%ymm29, %ymm8, %ymm8
	vpmuldq	%ymm11, %ymm3, %ymm29
	vpmuldq	%ymm14, %ymm6, %ymm30
	vpaddq	%ymm30, %ymm29, %ymm29
	vpmuludq	%ymm17, %ymm10, %ymm30
	vpaddq	%ymm30, %ymm29, %ymm29
	vpmuldq	%ymm15, %ymm4, %ymm30
	vpaddq	%ymm30, %ymm29, %ymm29
	vpaddq	%ymm29, %ymm9, %ymm9
	vmovdqu64	64(%rsi), %ymm29
	vpmuludq	%ymm18, %ymm3, %ymm3
	vpmuldq	%ymm11, %ymm6, %ymm6
	vpaddq	%ymm6, %ymm3, %ymm3
	vmovdqu	96(%rsi), %ymm6
	vpsrlq	$40, %ymm2, %ymm2
	vpmuldq	%ymm14, %ymm10, %ymm10
	vpaddq	%ymm3, %ymm10, %ymm3
	vpbroadcastq	.Lnoise_CPI_v3s_5_0(%rip), %ymm10
	vporq	%ymm10, %ymm2, %ymm30
	vpmuludq	%ymm17, %ymm4, %ymm2
	vpaddq	%ymm2, %ymm3, %ymm2
	vpmuludq	%ymm28, %ymm30, %ymm3
	vpaddq	%ymm2, %ymm1, %ymm31
	vpunpcklqdq	%ymm6, %ymm29, %ymm1
	vpermq	$216, %ymm1, %ymm2
	vpunpckhqdq	%ymm6, %ymm29, %ymm4
	vpand	%ymm0, %ymm2, %ymm1
	vpaddq	%ymm1, %ymm3, %ymm1
	vpmuldq	%ymm12, %ymm30, %ymm3
	vpaddq	%ymm1, %ymm5, %ymm1
	vpsrlq	$26, %ymm2, %ymm5
	vpand	%ymm0, %ymm5, %ymm5
	vpaddq	%ymm5, %ymm3, %ymm3
	vpermq	$216, %ymm4, %ymm5
	vpaddq	%ymm3, %ymm7, %ymm4
	vpsrlq	$52, %ymm2, %ymm2
	vpsllq	$12, %ymm5, %ymm3
	vpternlogq	$200, %ymm2, %ymm0, %ymm3
	vpmuldq	%ymm13, %ymm30, %ymm2
	vpaddq	%ymm3, %ymm2, %ymm2
	vpmuludq	%ymm16, %ymm30, %ymm6
	vpaddq	%ymm2, %ymm8, %ymm3
	vpsrlq	$14, %ymm5, %ymm2
	vpand	%ymm0, %ymm2, %ymm2
	vpaddq	%ymm2, %ymm6, %ymm2
	vpaddq	%ymm2, %ymm9, %ymm2
	vpmuldq	%ymm15, %ymm30, %ymm6
	vpsrlq	$40, %ymm5, %ymm5
	vpaddq	%ymm5, %ymm6, %ymm5
	vpaddq	%ymm5, %ymm10, %ymm5
	vpaddq	%ymm5, %ymm31, %ymm6
	addq	$128, %rsi
	addq	$-128, %rbx
	cmpq	$127, %rbx
	ja	.Lnoise_BB_v4_5_1
	vpsrlq	$26, %ymm1, %ymm5
	vpaddq	%ymm4, %ymm5, %ymm4
	vpsrlq	$26, %ymm2, %ymm5
	vpaddq	%ymm6, %ymm5, %ymm5
	vpsrlq	$26, %ymm4, %ymm6
	vpaddq	%ymm3, %ymm6, %ymm3
	vpand	%ymm0, %ymm1, %ymm1
	vpsrlq	$26, %ymm5, %ymm6
	vpaddq	%ymm6, %ymm1, %ymm1
	vpsllq	$2, %ymm6, %ymm6
	vpaddq	%ymm6, %ymm1, %ymm1
	vpand	%ymm0, %ymm2, %ymm2
	vpsrlq	$26, %ymm3, %ymm6
	vpaddq	%ymm2, %ymm6, %ymm6
	vpand	%ymm0, %ymm4, %ymm2
	vpsrlq	$26, %ymm1, %ymm4
	vpaddq	%ymm2, %ymm4, %ymm4
	vpand	%ymm0, %ymm5, %ymm0
	vpsrlq	$26, %ymm6, %ymm2
	vpaddq	%ymm0, %ymm2, %ymm2
	vpbroadcastd	.Lnoise_CPI_v3s_5_2(%rip), %ymm5
	vpand	%ymm5, %ymm1, %ymm0
	vmovd	%xmm0, %r12d
	vmovd	%xmm4, %edx
	vpand	%ymm5, %ymm3, %ymm3
	vmovd	%xmm3, %edi
	vpand	%ymm5, %ymm6, %ymm1
	vmovd	%xmm1, %r9d
	movq	56(%rsp), %r14
	movq	%r14, %rcx
	imulq	%r12, %rcx
	movq	%rdi, %r8
	movq	(%rsp), %r11
	imulq	%r11, %r8
	addq	%rcx, %r8
	movq	40(%rsp), %rcx
	leaq	(%rcx,%rcx,4), %r13
	movq	%r13, %rcx
	imulq	%rdx, %rcx
	addq	%rcx, %r8
	movq	%r9, %rcx
	movq	24(%rsp), %rax
	imulq	%rax, %rcx
	addq	%r8, %rcx
	vmovd	%xmm2, %r10d
	movq	%r10, %rbp
	imulq	32(%rsp), %rbp
	addq	%rcx, %rbp
	movq	%r12, %rcx
	movq	16(%rsp), %r15
	imulq	%r15, %rcx
	movq	%r13, %r8
	imulq	%rdi, %r8
	addq	%rcx, %r8
	movq	%r14, %rcx
	imulq	%rdx, %rcx
	addq	%rcx, %r8
	movq	%r9, %rcx
	imulq	%r11, %rcx
	addq	%r8, %rcx
	movq	%r10, %r11
	imulq	%rax, %r11
	addq	%rcx, %r11
	movq	%r12, %rcx
	movq	%r12, 88(%rsp)
	imulq	8(%rsp), %rcx
	movq	%r14, %r8
	imulq	%rdi, %r8
	addq	%rcx, %r8
	movq	%rdx, %rax
	movq	%rdx, %rcx
	imulq	%r15, %rcx
	addq	%rcx, %r8
	movq	%r13, %rcx
	imulq	%r9, %rcx
	addq	%r8, %rcx
	movq	%r10, %rdx
	imulq	(%rsp), %rdx
	addq	%rcx, %rdx
	imulq	48(%rsp), %r12
	movq	%rdi, %r8
	imulq	%r15, %r8
	addq	%r12, %r8
	movq	%rax, %rcx
	movq	%rax, %r15
	movq	8(%rsp), %rax
	imulq	%rax, %rcx
	addq	%rcx, %r8
	movq	%r14, %r12
	movq	%r14, %rcx
	imulq	%r9, %rcx
	addq	%r8, %rcx
	movq	%r13, %r14
	movq	%r13, 64(%rsp)
	imulq	%r10, %r14
	addq	%rcx, %r14
	movq	88(%rsp), %rcx
	imulq	40(%rsp), %rcx
	imulq	%rax, %rdi
	addq	%rcx, %rdi
	movq	%r15, %rax
	imulq	48(%rsp), %rax
	addq	%rax, %rdi
	imulq	16(%rsp), %r9
	addq	%rdi, %r9
	imulq	%r12, %r10
	addq	%r9, %r10
	movl	%ebp, %edi
	shrq	$26, %rbp
	addq	%r11, %rbp
	movl	%r14d, %eax
	shrq	$26, %r14
	addq	%r10, %r14
	movl	%ebp, %r10d
	andl	$67108863, %r10d
	vpextrd	$2, %xmm4, %ecx
	addl	%ecx, %r10d
	shrq	$26, %rbp
	addq	%rdx, %rbp
	movl	%r14d, %r11d
	andl	$67108863, %r11d
	vpextrd	$2, %xmm2, %ecx
	addl	%ecx, %r11d
	movl	%ebp, %edx
	andl	$67108863, %edx
	vpextrd	$2, %xmm3, %ecx
	addl	%ecx, %edx
	andl	$67108863, %eax
	shrq	$26, %rbp
	addq	%rax, %rbp
	andl	$67108863, %edi
	shrq	$26, %r14
	leaq	(%r14,%r14,4), %rax
	addq	%rdi, %rax
	movl	%eax, %r9d
	andl	$67108863, %r9d
	vpextrd	$2, %xmm0, %ecx
	addl	%ecx, %r9d
	movl	%ebp, %edi
	andl	$67108863, %edi
	vpextrd	$2, %xmm1, %ecx
	addl	%ecx, %edi
	shrq	$26, %rax
	addl	%r10d, %eax
	shrq	$26, %rbp
	addl	%r11d, %ebp
	movq	%r12, %rcx
	imulq	%r9, %rcx
	movq	%rdx, %r8
	movq	(%rsp), %r14
	imulq	%r14, %r8
	addq	%rcx, %r8
	movq	%r13, %rcx
	imulq	%rax, %rcx
	addq	%rcx, %r8
	movq	%rdi, %rcx
	movq	24(%rsp), %r15
	imulq	%r15, %rcx
	movq	%rbp, %r11
	imulq	32(%rsp), %r11
	addq	%rcx, %r11
	addq	%r8, %r11
	movq	%r9, %rcx
	movq	16(%rsp), %r10
	imulq	%r10, %rcx
	movq	%r13, %r8
	imulq	%rdx, %r8
	addq	%rcx, %r8
	movq	%r12, %rcx
	imulq	%rax, %rcx
	addq	%rcx, %r8
	movq	%rdi, %rcx
	imulq	%r14, %rcx
	movq	%rbp, %r14
	imulq	%r15, %r14
	addq	%rcx, %r14
	addq	%r8, %r14
	movq	%r9, %rcx
	movq	8(%rsp), %r13
	imulq	%r13, %rcx
	imulq	%rdx, %r12
	addq	%rcx, %r12
	movq	%rax, %rcx
	imulq	%r10, %rcx
	addq	%rcx, %r12
	movq	64(%rsp), %rcx
	imulq	%rdi, %rcx
	movq	%rbp, %r15
	imulq	(%rsp), %r15
	addq	%rcx, %r15
	addq	%r12, %r15
	movq	%r9, %rcx
	movq	48(%rsp), %r12
	imulq	%r12, %rcx
	movq	%rdx, %r8
	imulq	%r10, %r8
	addq	%rcx, %r8
	movq	%rax, %rcx
	imulq	%r13, %rcx
	addq	%rcx, %r8
	movq	56(%rsp), %rcx
	imulq	%rdi, %rcx
	movq	64(%rsp), %r13
	movq	%r13, %r10
	imulq	%rbp, %r10
	addq	%rcx, %r10
	addq	%r8, %r10
	imulq	40(%rsp), %r9
	imulq	8(%rsp), %rdx
	addq	%r9, %rdx
	imulq	%r12, %rax
	addq	%rax, %rdx
	movq	16(%rsp), %r12
	imulq	%r12, %rdi
	movq	56(%rsp), %r8
	imulq	%r8, %rbp
	addq	%rdi, %rbp
	vextracti128	$1, %ymm4, %xmm4
	addq	%rdx, %rbp
	movl	%r11d, %edi
	shrq	$26, %r11
	addq	%r14, %r11
	movl	%r10d, %eax
	shrq	$26, %r10
	addq	%rbp, %r10
	movl	%r11d, %ebp
	andl	$67108863, %ebp
	vmovd	%xmm4, %ecx
	addl	%ecx, %ebp
	vextracti128	$1, %ymm2, %xmm2
	shrq	$26, %r11
	addq	%r15, %r11
	movl	%r10d, %r14d
	andl	$67108863, %r14d
	vmovd	%xmm2, %ecx
	addl	%ecx, %r14d
	vextracti128	$1, %ymm3, %xmm3
	movl	%r11d, %edx
	andl	$67108863, %edx
	vmovd	%xmm3, %ecx
	addl	%ecx, %edx
	andl	$67108863, %eax
	shrq	$26, %r11
	addq	%rax, %r11
	vextracti128	$1, %ymm0, %xmm0
	andl	$67108863, %edi
	shrq	$26, %r10
	leaq	(%r10,%r10,4), %rax
	addq	%rdi, %rax
	movl	%eax, %edi
	andl	$67108863, %edi
	vmovd	%xmm0, %ecx
	addl	%ecx, %edi
	vextracti128	$1, %ymm1, %xmm1
	movl	%r11d, %r9d
	andl	$67108863, %r9d
	vmovd	%xmm1, %ecx
	addl	%ecx, %r9d
	shrq	$26, %rax
	addl	%ebp, %eax
	shrq	$26, %r11
	addl	%r14d, %r11d
	movq	%r8, %r14
	movq	%r8, %rcx
	imulq	%rdi, %rcx
	movq	%rdx, %r8
	movq	(%rsp), %r10
	imulq	%r10, %r8
	addq	%rcx, %r8
	movq	%r13, %rcx
	imulq	%rax, %rcx
	addq	%rcx, %r8
	movq	%r9, %rcx
	movq	24(%rsp), %r15
	imulq	%r15, %rcx
	movq	%r11, %rbp
	imulq	32(%rsp), %rbp
	addq	%rcx, %rbp
	addq	%r8, %rbp
	movq	%rdi, %rcx
	imulq	%r12, %rcx
	movq	%r13, %r8
	imulq	%rdx, %r8
	addq	%rcx, %r8
	movq	%r14, %rcx
	movq	%r14, %r13
	imulq	%rax, %rcx
	addq	%rcx, %r8
	movq	%r9, %rcx
	imulq	%r10, %rcx
	movq	%r11, %r14
	imulq	%r15, %r14
	addq	%rcx, %r14
	addq	%r8, %r14
	movq	%rdi, %rcx
	movq	8(%rsp), %r10
	imulq	%r10, %rcx
	movq	%r13, %r8
	imulq	%rdx, %r8
	addq	%rcx, %r8
	movq	%rax, %rcx
	imulq	%r12, %rcx
	addq	%rcx, %r8
	movq	64(%rsp), %r13
	movq	%r13, %rcx
	imulq	%r9, %rcx
	movq	%r11, %r15
	imulq	(%rsp), %r15
	addq	%rcx, %r15
	addq	%r8, %r15
	movq	%rdi, %rcx
	movq	48(%rsp), %r12
	imulq	%r12, %rcx
	movq	%rdx, %r8
	imulq	16(%rsp), %r8
	addq	%rcx, %r8
	movq	%rax, %rcx
	imulq	%r10, %rcx
	addq	%rcx, %r8
	movq	56(%rsp), %rcx
	imulq	%r9, %rcx
	movq	%r13, %r10
	imulq	%r11, %r10
	addq	%rcx, %r10
	addq	%r8, %r10
	imulq	40(%rsp), %rdi
	imulq	8(%rsp), %rdx
	addq	%rdi, %rdx
	imulq	%r12, %rax
	addq	%rax, %rdx
	imulq	16(%rsp), %r9
	movq	56(%rsp), %r8
	imulq	%r8, %r11
	addq	%r9, %r11
	addq	%rdx, %r11
	movl	%ebp, %edi
	shrq	$26, %rbp
	addq	%r14, %rbp
	movl	%r10d, %eax
	shrq	$26, %r10
	addq	%r11, %r10
	vpextrd	$2, %xmm4, %ecx
	movl	%ebp, %r11d
	andl	$67108863, %r11d
	addl	%ecx, %r11d
	shrq	$26, %rbp
	addq	%r15, %rbp
	movl	%r10d, %r14d
	andl	$67108863, %r14d
	vpextrd	$2, %xmm2, %ecx
	addl	%ecx, %r14d
	vpextrd	$2, %xmm3, %ecx
	movl	%ebp, %edx
	andl	$67108863, %edx
	addl	%ecx, %edx
	andl	$67108863, %eax
	shrq	$26, %rbp
	addq	%rax, %rbp
	andl	$67108863, %edi
	shrq	$26, %r10
	leaq	(%r10,%r10,4), %rax
	addq	%rdi, %rax
	vpextrd	$2, %xmm0, %ecx
	movl	%eax, %r9d
	andl	$67108863, %r9d
	addl	%ecx, %r9d
	movl	%ebp, %edi
	andl	$67108863, %edi
	vpextrd	$2, %xmm1, %ecx
	addl	%ecx, %edi
	shrq	$26, %rax
	addl	%r11d, %eax
	shrq	$26, %rbp
	addl	%r14d, %ebp
	movq	%r8, %rcx
	movq	%r8, %r12
	imulq	%r9, %rcx
	movq	%rdx, %r8
	movq	(%rsp), %r10
	imulq	%r10, %r8
	addq	%rcx, %r8
	movq	%r13, %rcx
	imulq	%rax, %rcx
	addq	%rcx, %r8
	movq	%rdi, %rcx
	movq	24(%rsp), %r11
	imulq	%r11, %rcx
	movq	32(%rsp), %r14
	imulq	%rbp, %r14
	addq	%rcx, %r14
	addq	%r8, %r14
	movq	%r14, 32(%rsp)
	movq	%r9, %rcx
	movq	16(%rsp), %r15
	imulq	%r15, %rcx
	movq	%r13, %r8
	imulq	%rdx, %r8
	addq	%rcx, %r8
	movq	%r12, %rcx
	imulq	%rax, %rcx
	addq	%rcx, %r8
	movq	%rdi, %rcx
	imulq	%r10, %rcx
	imulq	%rbp, %r11
	addq	%rcx, %r11
	addq	%r8, %r11
	movq	%r11, 24(%rsp)
	movq	%r9, %rcx
	movq	8(%rsp), %r11
	imulq	%r11, %rcx
	movq	%r12, %r8
	imulq	%rdx, %r8
	addq	%rcx, %r8
	movq	%rax, %rcx
	imulq	%r15, %rcx
	addq	%rcx, %r8
	movq	%r13, %rcx
	imulq	%rdi, %rcx
	imulq	%rbp, %r10
	addq	%rcx, %r10
	addq	%r8, %r10
	movq	%r10, %r14
	movq	%r9, %rcx
	movq	48(%rsp), %r10
	imulq	%r10, %rcx
	movq	%rdx, %r8
	imulq	%r15, %r8
	addq	%rcx, %r8
	movq	%rax, %rcx
	imulq	%r11, %rcx
	addq	%rcx, %r8
	movq	%r12, %rcx
	imulq	%rdi, %rcx
	imulq	%rbp, %r13
	addq	%rcx, %r13
	addq	%r8, %r13
	imulq	40(%rsp), %r9
	imulq	%r10, %rax
	imulq	%r11, %rdx
	addq	%r9, %rdx
	addq	%rax, %rdx
	imulq	%r15, %rdi
	movq	%r12, %rax
	imulq	%rbp, %rax
	addq	%rdi, %rax
	addq	%rdx, %rax
	movq	%rax, %rdx
	movq	32(%rsp), %r9
	movl	%r9d, %eax
	andl	$67108863, %eax
	shrq	$26, %r9
	addq	24(%rsp), %r9
	movq	%r13, %rdi
	movl	%edi, %ecx
	andl	$67108863, %ecx
	shrq	$26, %rdi
	addq	%rdx, %rdi
	movq	%rdi, %r10
	movl	%r9d, %edi
	andl	$67108863, %edi
	shrq	$26, %r9
	addq	%r14, %r9
	movq	%r9, %rdx
	shrq	$26, %rdx
	addq	%rcx, %rdx
	movl	%r10d, %r8d
	andl	$67108863, %r8d
	shrq	$26, %r10
	leaq	(%r10,%r10,4), %rcx
	addq	%rax, %rcx
	movq	%rcx, %rax
	shrq	$26, %rax
	addl	%edi, %eax
	movq	%rdx, %rdi
	shrq	$26, %rdi
	addl	%r8d, %edi
	andl	$67108863, %ecx
	movl	%r9d, %r8d
	shlq	$52, %r9
	orq	%rcx, %r9
	shlq	$26, %rax
	andl	$67104768, %r8d
	shrl	$12, %r8d
	andl	$67108863, %edx
	shlq	$14, %rdx
	addq	%rax, %r9
	adcq	%r8, %rdx
	movq	%rdi, %rax
	shlq	$40, %rax
	shrl	$24, %edi
	addq	%rdx, %rax
	adcq	$0, %rdi
	movl	%edi, %ecx
	shrl	$2, %ecx
	leaq	(%rcx,%rcx,4), %rcx
	andl	$3, %edi
	addq	%r9, %rcx
	adcq	$0, %rax
	adcq	$0, %rdi
	movq	96(%rsp), %r15
	movq	%rcx, (%r15)
	movq	%rax, 8(%r15)
	movq	%rdi, 16(%r15)
	movq	$0, 24(%r15)
	cmpq	$16, %rbx
	jae	.Lnoise_BB_v4_5_4
	movq	%rcx, %r10
	jmp	.Lnoise_BB_v4_5_6
.Lnoise_BB_v4_5_4:
	movq	80(%rsp), %r12
	movq	%r12, %r9
	shrq	$2, %r9
	addq	%r12, %r9
	movq	72(%rsp), %r13
	.p2align	4
.Lnoise_BB_v4_5_5:
	addq	(%rsi), %rcx
	adcq	8(%rsi), %rax
	adcq	$1, %rdi
	movq	%rcx, %rdx
	mulxq	%r13, %r14, %r8
	movq	%rax, %rdx
	mulxq	%r9, %r10, %r11
	addq	%r14, %r10
	adcq	%r8, %r11
	movq	%rcx, %rdx
	mulxq	%r12, %r8, %rcx
	movq	%rax, %rdx
	mulxq	%r13, %rdx, %r14
	addq	%r8, %rdx
	adcq	%rcx, %r14
	movq	%rdi, %rax
	imulq	%r9, %rax
	addq	%rdx, %rax
	adcq	$0, %r14
	imulq	%r13, %rdi
	movq	%rax, %rcx
	addq	%r11, %rcx
	adcq	%r14, %rdi
	movq	%rdi, %rdx
	shrq	$2, %rdx
	leaq	(%rdx,%rdx,4), %rdx
	movq	%rdx, %r8
	addq	%r10, %r8
	adcq	%r11, %rax
	andl	$3, %edi
	addq	%rdx, %r10
	adcq	$0, %rcx
	adcq	$0, %rdi
	addq	$16, %rsi
	addq	$-16, %rbx
	movq	%r10, %rcx
	cmpq	$15, %rbx
	ja	.Lnoise_BB_v4_5_5
.Lnoise_BB_v4_5_6:
	movq	%r10, (%r15)
	movq	%rax, 8(%r15)
	movq	%rdi, 16(%r15)
	movq	$0, 24(%r15)
	movq	80(%r15), %r14
	leaq	(%r15,%r14), %rdi
	addq	$64, %rdi
	movq	%rdi, %rax
	subq	%rsi, %rax
	cmpq	%rbx, %rax
	jae	.Lnoise_BB_v4_5_9
	cmpq	$8, %rbx
	jb	.Lnoise_BB_v4_5_8
	leaq	(%r14,%r15), %rax
	subq	%rsi, %rax
	addq	$64, %rax
	cmpq	$128, %rax
	jae	.Lnoise_BB_v4_5_12
.Lnoise_BB_v4_5_8:
	xorl	%eax, %eax
.Lnoise_BB_v4_5_15:
	movq	%rbx, %rdx
	movq	%rax, %rcx
	andq	$3, %rdx
	je	.Lnoise_BB_v4_5_18
	movq	%rax, %rcx
	.p2align	4
.Lnoise_BB_v4_5_17:
	movzbl	(%rsi,%rcx), %r8d
	movb	%r8b, (%rdi,%rcx)
	incq	%rcx
	decq	%rdx
	jne	.Lnoise_BB_v4_5_17
.Lnoise_BB_v4_5_18:
	subq	%rbx, %rax
	cmpq	$-4, %rax
	ja	.Lnoise_BB_v4_5_21
	leaq	(%r14,%r15), %rax
	addq	$67, %rax
	.p2align	4
.Lnoise_BB_v4_5_20:
	movzbl	(%rsi,%rcx), %edx
	movb	%dl, -3(%rax,%rcx)
	movzbl	1(%rsi,%rcx), %edx
	movb	%dl, -2(%rax,%rcx)
	movzbl	2(%rsi,%rcx), %edx
	movb	%dl, -1(%rax,%rcx)
	movzbl	3(%rsi,%rcx), %edx
	movb	%dl, (%rax,%rcx)
	addq	$4, %rcx
	cmpq	%rcx, %rbx
	jne	.Lnoise_BB_v4_5_20
	jmp	.Lnoise_BB_v4_5_21
.Lnoise_BB_v4_5_9:
	movq	%rbx, %rdx
	vzeroupper
	callq	memmove@PLT
.Lnoise_BB_v4_5_21:
	addq	%rbx, %r14
	movq	%r14, 80(%r15)
	addq	$104, %rsp
	.cfi_def_cfa_offset 56
	popq	%rbx
	.cfi_def_cfa_offset 48
	popq	%r12
	.cfi_def_cfa_offset 40
	popq	%r13
	.cfi_def_cfa_offset 32
	popq	%r14
	.cfi_def_cfa_offset 24
	popq	%r15
	.cfi_def_cfa_offset 16
	popq	%rbp
	.cfi_def_cfa_offset 8
	vzeroupper
	retq
.Lnoise_BB_v4_5_12:
	.cfi_def_cfa_offset 160
	movl	%ebx, %eax
	andl	$8, %eax
	xorl	%ecx, %ecx
	.p2align	4
.Lnoise_BB_v4_5_13:
	movq	(%rsi,%rcx), %rdx
	movq	%rdx, (%rdi,%rcx)
	addq	$8, %rcx
	cmpq	%rcx, %rax
	jne	.Lnoise_BB_v4_5_13
	cmpq	%rax, %rbx
	je	.Lnoise_BB_v4_5_21
	jmp	.Lnoise_BB_v4_5_15
.Lnoise_func_end_v4_5:
	.size	"noise_poly::Poly1305::take_eights.v4", .Lnoise_func_end_v4_5-"noise_poly::Poly1305::take_eights.v4"
	.cfi_endproc

	.section	".text.rand_chacha::guts::refill4","ax",@progbits
	.p2align	4
	.type	"rand_chacha::guts::refill4",@function
"rand_chacha::guts::refill4":
	.cfi_startproc
	movl	noise_processor_level(%rip), %eax
	testl	%eax, %eax
	je	.Lnoise_find0
.Lnoise_chosen0:
	cmpl	$3, %eax
	ja	"rand_chacha::guts::refill4.v4"
	je	"rand_chacha::guts::refill4.v3"
	jmp	"rand_chacha::guts::refill4.v1"
.Lnoise_find0:
	callq	noise_find_level
	jmp	.Lnoise_chosen0
	.size	"rand_chacha::guts::refill4", .-"rand_chacha::guts::refill4"
	.cfi_endproc

	.section	".text.noise_poly::Poly1305::take_aligned","ax",@progbits
	.p2align	4
	.type	"noise_poly::Poly1305::take_aligned",@function
"noise_poly::Poly1305::take_aligned":
	.cfi_startproc
	movl	noise_processor_level(%rip), %eax
	testl	%eax, %eax
	je	.Lnoise_find1
.Lnoise_chosen1:
	cmpl	$3, %eax
	ja	"noise_poly::Poly1305::take_aligned.v4"
	je	"noise_poly::Poly1305::take_aligned.v3"
	jmp	"noise_poly::Poly1305::take_aligned.v1"
.Lnoise_find1:
	callq	noise_find_level
	jmp	.Lnoise_chosen1
	.size	"noise_poly::Poly1305::take_aligned", .-"noise_poly::Poly1305::take_aligned"
	.cfi_endproc

	.section	".text.sha2::block256::compress","ax",@progbits
	.p2align	4
	.type	"sha2::block256::compress",@function
"sha2::block256::compress":
	.cfi_startproc
	movl	noise_processor_level(%rip), %eax
	testl	%eax, %eax
	je	.Lnoise_find2
.Lnoise_chosen2:
	cmpl	$3, %eax
	jae	"sha2::block256::compress.v3"
	jmp	"sha2::block256::compress.v1"
.Lnoise_find2:
	callq	noise_find_level
	jmp	.Lnoise_chosen2
	.size	"sha2::block256::compress", .-"sha2::block256::compress"
	.cfi_endproc

	.section	".text.noise_state::cipher::CipherState::encrypt","ax",@progbits
	.p2align	4
	.type	"noise_state::cipher::CipherState::encrypt",@function
"noise_state::cipher::CipherState::encrypt":
	.cfi_startproc
	movl	noise_processor_level(%rip), %eax
	testl	%eax, %eax
	je	.Lnoise_find3
.Lnoise_chosen3:
	cmpl	$3, %eax
	ja	"noise_state::cipher::CipherState::encrypt.v4"
	je	"noise_state::cipher::CipherState::encrypt.v3"
	jmp	"noise_state::cipher::CipherState::encrypt.v1"
.Lnoise_find3:
	callq	noise_find_level
	jmp	.Lnoise_chosen3
	.size	"noise_state::cipher::CipherState::encrypt", .-"noise_state::cipher::CipherState::encrypt"
	.cfi_endproc

	.section	".text.noise_state::cipher::CipherState::decrypt","ax",@progbits
	.p2align	4
	.type	"noise_state::cipher::CipherState::decrypt",@function
"noise_state::cipher::CipherState::decrypt":
	.cfi_startproc
	movl	noise_processor_level(%rip), %eax
	testl	%eax, %eax
	je	.Lnoise_find4
.Lnoise_chosen4:
	cmpl	$3, %eax
	ja	"noise_state::cipher::CipherState::decrypt.v4"
	je	"noise_state::cipher::CipherState::decrypt.v3"
	jmp	"noise_state::cipher::CipherState::decrypt.v1"
.Lnoise_find4:
	callq	noise_find_level
	jmp	.Lnoise_chosen4
	.size	"noise_state::cipher::CipherState::decrypt", .-"noise_state::cipher::CipherState::decrypt"
	.cfi_endproc

	.section	".text.noise_aead::keystream::apply","ax",@progbits
	.p2align	4
	.type	"noise_aead::keystream::apply",@function
"noise_aead::keystream::apply":
	.cfi_startproc
	movl	noise_processor_level(%rip), %eax
	testl	%eax, %eax
	je	.Lnoise_find5
.Lnoise_chosen5:
	cmpl	$3, %eax
	ja	"noise_aead::keystream::apply.v4"
	je	"noise_aead::keystream::apply.v3"
	jmp	"noise_aead::keystream::apply.v1"
.Lnoise_find5:
	callq	noise_find_level
	jmp	.Lnoise_chosen5
	.size	"noise_aead::keystream::apply", .-"noise_aead::keystream::apply"
	.cfi_endproc

	.section	".text.noise_aead::authenticator::tag","ax",@progbits
	.p2align	4
	.type	"noise_aead::authenticator::tag",@function
"noise_aead::authenticator::tag":
	.cfi_startproc
	movl	noise_processor_level(%rip), %eax
	testl	%eax, %eax
	je	.Lnoise_find6
.Lnoise_chosen6:
	cmpl	$3, %eax
	ja	"noise_aead::authenticator::tag.v4"
	je	"noise_aead::authenticator::tag.v3"
	jmp	"noise_aead::authenticator::tag.v1"
.Lnoise_find6:
	callq	noise_find_level
	jmp	.Lnoise_chosen6
	.size	"noise_aead::authenticator::tag", .-"noise_aead::authenticator::tag"
	.cfi_endproc

	.section	.text.noise_find_level,"ax",@progbits
	.p2align	4
	.type	noise_find_level,@function
noise_find_level:
	.cfi_startproc
	pushq	%rbx
	.cfi_adjust_cfa_offset 8
	.cfi_offset %rbx, -16
	pushq	%rcx
	.cfi_adjust_cfa_offset 8
	.cfi_offset %rcx, -24
	pushq	%rdx
	.cfi_adjust_cfa_offset 8
	.cfi_offset %rdx, -32
	movl	$1, %r10d
	xorl	%eax, %eax
	cpuid
	cmpl	$7, %eax
	jb	.Lnoise_found
	movl	$1, %eax
	cpuid
	andl	$0x38d83201, %ecx
	cmpl	$0x38d83201, %ecx
	jne	.Lnoise_found
	xorl	%ecx, %ecx
	xgetbv
	movl	%eax, %r11d
	andl	$0x6, %eax
	cmpl	$0x6, %eax
	jne	.Lnoise_found
	movl	$0x80000000, %eax
	cpuid
	cmpl	$0x80000001, %eax
	jb	.Lnoise_found
	movl	$0x80000001, %eax
	cpuid
	andl	$0x21, %ecx
	cmpl	$0x21, %ecx
	jne	.Lnoise_found
	movl	$7, %eax
	xorl	%ecx, %ecx
	cpuid
	movl	%ebx, %eax
	andl	$0x128, %ebx
	cmpl	$0x128, %ebx
	jne	.Lnoise_found
	movl	$3, %r10d
	andl	$0xd0030000, %eax
	cmpl	$0xd0030000, %eax
	jne	.Lnoise_found
	andl	$0xe6, %r11d
	cmpl	$0xe6, %r11d
	jne	.Lnoise_found
	movl	$4, %r10d
.Lnoise_found:
	movl	%r10d, %eax
	movl	%eax, noise_processor_level(%rip)
	popq	%rdx
	.cfi_adjust_cfa_offset -8
	popq	%rcx
	.cfi_adjust_cfa_offset -8
	popq	%rbx
	.cfi_adjust_cfa_offset -8
	retq
	.size	noise_find_level, .-noise_find_level
	.cfi_endproc

	.hidden	noise_processor_level
	.globl	noise_processor_level
	.type	noise_processor_level,@object
	.section	.bss.noise_processor_level,"aw",@nobits
	.p2align	2
noise_processor_level:
	.zero	4
	.size	noise_processor_level, 4
