	.def	@feat.00;
	.scl	3;
	.type	0;
	.endef
	.globl	@feat.00
@feat.00 = 0
	.file	"rattle"
	.def	"noise_state::cipher::CipherState::decrypt.v1";
	.scl	3;
	.type	32;
	.endef
	.text
	.p2align	4
"noise_state::cipher::CipherState::decrypt.v1":
.seh_proc "noise_state::cipher::CipherState::decrypt.v1"
	pushq	%r15
	.seh_pushreg %r15
	pushq	%r14
	.seh_pushreg %r14
	pushq	%r13
	.seh_pushreg %r13
	pushq	%r12
	.seh_pushreg %r12
	pushq	%rsi
	.seh_pushreg %rsi
	pushq	%rdi
	.seh_pushreg %rdi
	pushq	%rbp
	.seh_pushreg %rbp
	pushq	%rbx
	.seh_pushreg %rbx
	subq	$424, %rsp
	.seh_stackalloc 424
	.seh_endprologue
	movzbl	(%rdx), %eax
	cmpb	$1, %al
	jne	.Lnoise_BB0_3
	cmpq	$-1, 40(%rdx)
	je	.Lnoise_BB0_2
.Lnoise_BB0_3:
	movq	536(%rsp), %r10
	movb	$3, %r11b
	cmpq	$65535, %r10
	ja	.Lnoise_BB0_5
	cmpq	$16, %r10
	setb	%bl
	movb	$2, %r11b
	testb	%al, %bl
	jne	.Lnoise_BB0_5
	cmpb	$1, %al
	jne	.Lnoise_BB0_9
	movq	%rcx, %r15
	movq	528(%rsp), %rdi
	movq	40(%rdx), %rax
	leaq	-16(%r10), %rsi
	movq	-16(%rdi,%r10), %r12
	movq	-8(%rdi,%r10), %r13
	leaq	160(%rsp), %r10
	xorps	%xmm0, %xmm0
	movaps	%xmm0, 160(%rsp)
	movaps	%xmm0, 176(%rsp)
	movaps	%xmm0, 192(%rsp)
	movaps	%xmm0, 208(%rsp)
	movaps	%xmm0, 224(%rsp)
	movaps	%xmm0, 240(%rsp)
	movaps	%xmm0, 256(%rsp)
	movaps	%xmm0, 272(%rsp)
	movaps	%xmm0, 288(%rsp)
	movaps	%xmm0, 304(%rsp)
	movaps	%xmm0, 320(%rsp)
	movaps	%xmm0, 336(%rsp)
	movaps	%xmm0, 352(%rsp)
	movaps	%xmm0, 368(%rsp)
	movaps	%xmm0, 384(%rsp)
	movaps	%xmm0, 400(%rsp)
	movups	1(%rdx), %xmm0
	movaps	%xmm0, 112(%rsp)
	movq	%rdx, %rbp
	movups	17(%rdx), %xmm0
	movaps	%xmm0, 128(%rsp)
	movq	%rax, 144(%rsp)
	movq	$0, 152(%rsp)
	movq	$64, 416(%rsp)
	leaq	112(%rsp), %rcx
	xorl	%edx, %edx
	movq	%r8, %rbx
	movq	%rax, %r8
	movq	%r9, %r14
	movq	%r10, %r9
	callq	"rand_chacha::guts::refill4.v1"
	addq	$4, 152(%rsp)
	movzbl	188(%rsp), %eax
	movaps	160(%rsp), %xmm0
	movdqa	176(%rsp), %xmm1
	movq	$16, 416(%rsp)
	movdqa	%xmm1, 80(%rsp)
	movzwl	93(%rsp), %ecx
	movzbl	95(%rsp), %edx
	movaps	%xmm0, 48(%rsp)
	movq	%xmm1, 64(%rsp)
	pshufd	$238, %xmm1, %xmm0
	movd	%xmm0, 72(%rsp)
	movb	%al, 76(%rsp)
	movw	%cx, 77(%rsp)
	movb	%dl, 79(%rsp)
	movq	%rsi, 40(%rsp)
	movq	%rdi, 32(%rsp)
	leaq	96(%rsp), %rcx
	leaq	48(%rsp), %rdx
	movq	%rbx, %r8
	movq	%r14, %r9
	callq	"noise_aead::authenticator::tag.v1"
	xorq	104(%rsp), %r13
	xorq	96(%rsp), %r12
	orq	%r13, %r12
	jne	.Lnoise_BB0_11
	leaq	112(%rsp), %rcx
	movq	%rdi, %rdx
	movq	%rsi, %r8
	callq	"noise_aead::keystream::apply.v1"
	incq	40(%rbp)
	movw	$0, (%r15)
	movq	%rsi, 8(%r15)
	jmp	.Lnoise_BB0_10
.Lnoise_BB0_2:
	xorl	%r11d, %r11d
.Lnoise_BB0_5:
	movb	$1, (%rcx)
	movb	%r11b, 1(%rcx)
	movq	$0, 8(%rcx)
.Lnoise_BB0_10:
	addq	$424, %rsp
	popq	%rbx
	popq	%rbp
	popq	%rdi
	popq	%rsi
	popq	%r12
	popq	%r13
	popq	%r14
	popq	%r15
	retq
.Lnoise_BB0_9:
	movw	$0, (%rcx)
	movq	%r10, 8(%rcx)
	jmp	.Lnoise_BB0_10
.Lnoise_BB0_11:
	movw	$257, (%r15)
	movq	$0, 8(%r15)
	jmp	.Lnoise_BB0_10
	.seh_endproc

	.def	"rand_chacha::guts::refill4.v1";
	.scl	3;
	.type	32;
	.endef
	.section	.rdata,"dr"
	.p2align	4, 0x0
.Lnoise_CPI1_0:
	.quad	2
	.quad	3
.Lnoise_CPI1_1:
	.byte	0
	.byte	0
	.byte	0
	.byte	0
	.byte	0
	.byte	0
	.byte	0
	.byte	0
	.byte	1
	.byte	0
	.byte	0
	.byte	0
	.byte	0
	.byte	0
	.byte	0
	.byte	0
.Lnoise_CPI1_2:
	.long	0
	.long	1
	.long	2
	.long	3
.Lnoise_CPI1_3:
	.long	1797285236
	.long	1797285236
	.long	1797285236
	.long	1797285236
.Lnoise_CPI1_4:
	.long	2036477234
	.long	2036477234
	.long	2036477234
	.long	2036477234
.Lnoise_CPI1_5:
	.long	857760878
	.long	857760878
	.long	857760878
	.long	857760878
.Lnoise_CPI1_6:
	.long	1634760805
	.long	1634760805
	.long	1634760805
	.long	1634760805
	.text
	.p2align	4
"rand_chacha::guts::refill4.v1":
.seh_proc "rand_chacha::guts::refill4.v1"
	subq	$408, %rsp
	.seh_stackalloc 408
	movaps	%xmm15, 384(%rsp)
	.seh_savexmm %xmm15, 384
	movaps	%xmm14, 368(%rsp)
	.seh_savexmm %xmm14, 368
	movaps	%xmm13, 352(%rsp)
	.seh_savexmm %xmm13, 352
	movaps	%xmm12, 336(%rsp)
	.seh_savexmm %xmm12, 336
	movaps	%xmm11, 320(%rsp)
	.seh_savexmm %xmm11, 320
	movaps	%xmm10, 304(%rsp)
	.seh_savexmm %xmm10, 304
	movaps	%xmm9, 288(%rsp)
	.seh_savexmm %xmm9, 288
	movaps	%xmm8, 272(%rsp)
	.seh_savexmm %xmm8, 272
	movaps	%xmm7, 256(%rsp)
	.seh_savexmm %xmm7, 256
	movaps	%xmm6, 240(%rsp)
	.seh_savexmm %xmm6, 240
	.seh_endprologue
	movd	(%rcx), %xmm0
	pshufd	$0, %xmm0, %xmm8
	movd	4(%rcx), %xmm0
	pshufd	$0, %xmm0, %xmm3
	movd	8(%rcx), %xmm0
	pshufd	$0, %xmm0, %xmm9
	movd	12(%rcx), %xmm0
	pshufd	$0, %xmm0, %xmm0
	movdqa	%xmm0, 48(%rsp)
	movd	16(%rcx), %xmm0
	pshufd	$0, %xmm0, %xmm6
	movd	20(%rcx), %xmm0
	pshufd	$0, %xmm0, %xmm7
	movd	24(%rcx), %xmm0
	pshufd	$0, %xmm0, %xmm0
	movdqa	%xmm0, 64(%rsp)
	movd	28(%rcx), %xmm0
	pshufd	$0, %xmm0, %xmm2
	movq	%rdx, %xmm0
	pshufd	$68, %xmm0, %xmm14
	movdqa	.Lnoise_CPI1_0(%rip), %xmm1
	paddq	%xmm14, %xmm1
	paddq	.Lnoise_CPI1_1(%rip), %xmm14
	shufps	$221, %xmm1, %xmm14
	pshufd	$0, %xmm0, %xmm15
	paddd	.Lnoise_CPI1_2(%rip), %xmm15
	movd	%r8d, %xmm0
	pshufd	$0, %xmm0, %xmm12
	shrq	$32, %r8
	movd	%r8d, %xmm0
	pshufd	$0, %xmm0, %xmm11
	movdqa	.Lnoise_CPI1_3(%rip), %xmm10
	movdqa	.Lnoise_CPI1_4(%rip), %xmm13
	movdqa	.Lnoise_CPI1_5(%rip), %xmm4
	movdqa	.Lnoise_CPI1_6(%rip), %xmm5
	movl	$10, %eax
	movdqa	%xmm8, 112(%rsp)
	movdqa	%xmm3, 80(%rsp)
	movdqa	%xmm9, 96(%rsp)
	movdqa	48(%rsp), %xmm1
	movdqa	%xmm6, 144(%rsp)
	movdqa	%xmm7, 128(%rsp)
	movdqa	64(%rsp), %xmm0
	movdqa	%xmm0, 16(%rsp)
	movdqa	%xmm2, 208(%rsp)
	movdqa	%xmm2, 32(%rsp)
	movdqa	%xmm15, 176(%rsp)
	movaps	%xmm14, 160(%rsp)
	movdqa	%xmm12, 224(%rsp)
	movdqa	%xmm11, 192(%rsp)
	.p2align	4
.Lnoise_BB1_1:
	paddd	%xmm8, %xmm5
	pxor	%xmm5, %xmm15
	movdqa	%xmm15, %xmm2
	psrld	$16, %xmm2
	pslld	$16, %xmm15
	por	%xmm2, %xmm15
	paddd	%xmm15, %xmm6
	pxor	%xmm6, %xmm8
	movdqa	%xmm8, %xmm2
	psrld	$20, %xmm2
	pslld	$12, %xmm8
	por	%xmm2, %xmm8
	paddd	%xmm8, %xmm5
	pxor	%xmm5, %xmm15
	movdqa	%xmm15, %xmm2
	psrld	$24, %xmm2
	pslld	$8, %xmm15
	por	%xmm2, %xmm15
	paddd	%xmm15, %xmm6
	pxor	%xmm6, %xmm8
	movdqa	%xmm8, %xmm2
	psrld	$25, %xmm2
	pslld	$7, %xmm8
	por	%xmm2, %xmm8
	paddd	%xmm3, %xmm4
	xorps	%xmm4, %xmm14
	movaps	%xmm14, %xmm2
	psrld	$16, %xmm2
	pslld	$16, %xmm14
	por	%xmm2, %xmm14
	paddd	%xmm14, %xmm7
	pxor	%xmm7, %xmm3
	movdqa	%xmm3, %xmm2
	psrld	$20, %xmm2
	pslld	$12, %xmm3
	por	%xmm2, %xmm3
	paddd	%xmm3, %xmm4
	pxor	%xmm4, %xmm14
	movdqa	%xmm14, %xmm2
	psrld	$24, %xmm2
	pslld	$8, %xmm14
	por	%xmm2, %xmm14
	paddd	%xmm14, %xmm7
	movdqa	%xmm7, (%rsp)
	pxor	%xmm7, %xmm3
	movdqa	%xmm3, %xmm2
	psrld	$25, %xmm2
	pslld	$7, %xmm3
	por	%xmm2, %xmm3
	paddd	%xmm9, %xmm13
	pxor	%xmm13, %xmm12
	movdqa	%xmm12, %xmm2
	psrld	$16, %xmm2
	pslld	$16, %xmm12
	por	%xmm2, %xmm12
	movdqa	16(%rsp), %xmm7
	paddd	%xmm12, %xmm7
	pxor	%xmm7, %xmm9
	movdqa	%xmm9, %xmm2
	psrld	$20, %xmm2
	pslld	$12, %xmm9
	por	%xmm2, %xmm9
	paddd	%xmm9, %xmm13
	pxor	%xmm13, %xmm12
	movdqa	%xmm12, %xmm2
	psrld	$24, %xmm2
	pslld	$8, %xmm12
	por	%xmm2, %xmm12
	paddd	%xmm12, %xmm7
	pxor	%xmm7, %xmm9
	movdqa	%xmm9, %xmm2
	psrld	$25, %xmm2
	pslld	$7, %xmm9
	por	%xmm2, %xmm9
	paddd	%xmm1, %xmm10
	pxor	%xmm10, %xmm11
	movdqa	%xmm11, %xmm2
	psrld	$16, %xmm2
	pslld	$16, %xmm11
	por	%xmm2, %xmm11
	movdqa	32(%rsp), %xmm0
	paddd	%xmm11, %xmm0
	pxor	%xmm0, %xmm1
	movdqa	%xmm1, %xmm2
	psrld	$20, %xmm2
	pslld	$12, %xmm1
	por	%xmm2, %xmm1
	paddd	%xmm1, %xmm10
	pxor	%xmm10, %xmm11
	movdqa	%xmm11, %xmm2
	psrld	$24, %xmm2
	pslld	$8, %xmm11
	por	%xmm2, %xmm11
	paddd	%xmm11, %xmm0
	pxor	%xmm0, %xmm1
	movdqa	%xmm1, %xmm2
	psrld	$25, %xmm2
	pslld	$7, %xmm1
	por	%xmm2, %xmm1
	paddd	%xmm3, %xmm5
	pxor	%xmm5, %xmm11
	movdqa	%xmm11, %xmm2
	psrld	$16, %xmm2
	pslld	$16, %xmm11
	por	%xmm2, %xmm11
	paddd	%xmm11, %xmm7
	pxor	%xmm7, %xmm3
	movdqa	%xmm3, %xmm2
	psrld	$20, %xmm2
	pslld	$12, %xmm3
	por	%xmm2, %xmm3
	paddd	%xmm3, %xmm5
	pxor	%xmm5, %xmm11
	movdqa	%xmm11, %xmm2
	psrld	$24, %xmm2
	pslld	$8, %xmm11
	por	%xmm2, %xmm11
	paddd	%xmm11, %xmm7
	movdqa	%xmm7, 16(%rsp)
	pxor	%xmm7, %xmm3
	movdqa	%xmm3, %xmm2
	psrld	$25, %xmm2
	pslld	$7, %xmm3
	por	%xmm2, %xmm3
	paddd	%xmm9, %xmm4
	pxor	%xmm4, %xmm15
	movdqa	%xmm15, %xmm2
	psrld	$16, %xmm2
	pslld	$16, %xmm15
	por	%xmm2, %xmm15
	paddd	%xmm15, %xmm0
	pxor	%xmm0, %xmm9
	movdqa	%xmm9, %xmm2
	psrld	$20, %xmm2
	pslld	$12, %xmm9
	por	%xmm2, %xmm9
	paddd	%xmm9, %xmm4
	pxor	%xmm4, %xmm15
	movdqa	%xmm15, %xmm2
	psrld	$24, %xmm2
	pslld	$8, %xmm15
	por	%xmm2, %xmm15
	paddd	%xmm15, %xmm0
	movdqa	%xmm0, 32(%rsp)
	pxor	%xmm0, %xmm9
	movdqa	(%rsp), %xmm7
	movdqa	%xmm9, %xmm2
	psrld	$25, %xmm2
	pslld	$7, %xmm9
	por	%xmm2, %xmm9
	paddd	%xmm1, %xmm13
	pxor	%xmm13, %xmm14
	movdqa	%xmm14, %xmm2
	psrld	$16, %xmm2
	pslld	$16, %xmm14
	por	%xmm2, %xmm14
	paddd	%xmm14, %xmm6
	pxor	%xmm6, %xmm1
	movdqa	%xmm1, %xmm2
	psrld	$20, %xmm2
	pslld	$12, %xmm1
	por	%xmm2, %xmm1
	paddd	%xmm1, %xmm13
	pxor	%xmm13, %xmm14
	movdqa	%xmm14, %xmm2
	psrld	$24, %xmm2
	pslld	$8, %xmm14
	por	%xmm2, %xmm14
	paddd	%xmm14, %xmm6
	pxor	%xmm6, %xmm1
	movdqa	%xmm1, %xmm2
	psrld	$25, %xmm2
	pslld	$7, %xmm1
	por	%xmm2, %xmm1
	paddd	%xmm8, %xmm10
	pxor	%xmm10, %xmm12
	movdqa	%xmm12, %xmm2
	psrld	$16, %xmm2
	pslld	$16, %xmm12
	por	%xmm2, %xmm12
	paddd	%xmm12, %xmm7
	pxor	%xmm7, %xmm8
	movdqa	%xmm8, %xmm2
	psrld	$20, %xmm2
	pslld	$12, %xmm8
	por	%xmm2, %xmm8
	paddd	%xmm8, %xmm10
	pxor	%xmm10, %xmm12
	movdqa	%xmm12, %xmm2
	psrld	$24, %xmm2
	pslld	$8, %xmm12
	por	%xmm2, %xmm12
	paddd	%xmm12, %xmm7
	pxor	%xmm7, %xmm8
	movdqa	%xmm8, %xmm2
	psrld	$25, %xmm2
	pslld	$7, %xmm8
	por	%xmm2, %xmm8
	decl	%eax
	jne	.Lnoise_BB1_1
	paddd	.Lnoise_CPI1_6(%rip), %xmm5
	paddd	.Lnoise_CPI1_5(%rip), %xmm4
	movdqa	%xmm5, %xmm0
	punpckldq	%xmm4, %xmm0
	paddd	.Lnoise_CPI1_4(%rip), %xmm13
	paddd	.Lnoise_CPI1_3(%rip), %xmm10
	movdqa	%xmm13, %xmm2
	punpckldq	%xmm10, %xmm2
	movdqa	%xmm2, (%rsp)
	movdqa	%xmm0, %xmm2
	punpcklqdq	(%rsp), %xmm2
	movdqu	%xmm2, (%r9)
	punpckhqdq	(%rsp), %xmm0
	movdqu	%xmm0, 64(%r9)
	punpckhdq	%xmm4, %xmm5
	punpckhdq	%xmm10, %xmm13
	movdqa	%xmm5, %xmm2
	punpcklqdq	%xmm13, %xmm2
	movdqu	%xmm2, 128(%r9)
	punpckhqdq	%xmm13, %xmm5
	movdqu	%xmm5, 192(%r9)
	movdqa	112(%rsp), %xmm4
	paddd	%xmm8, %xmm4
	movdqa	80(%rsp), %xmm8
	paddd	%xmm3, %xmm8
	movdqa	96(%rsp), %xmm5
	paddd	%xmm9, %xmm5
	movdqa	48(%rsp), %xmm9
	paddd	%xmm1, %xmm9
	movdqa	%xmm4, %xmm1
	punpckldq	%xmm8, %xmm1
	movdqa	%xmm5, %xmm2
	punpckldq	%xmm9, %xmm2
	movdqa	%xmm1, %xmm3
	punpcklqdq	%xmm2, %xmm3
	movdqu	%xmm3, 16(%r9)
	punpckhqdq	%xmm2, %xmm1
	movdqu	%xmm1, 80(%r9)
	punpckhdq	%xmm8, %xmm4
	punpckhdq	%xmm9, %xmm5
	movdqa	%xmm4, %xmm1
	punpcklqdq	%xmm5, %xmm1
	movdqu	%xmm1, 144(%r9)
	punpckhqdq	%xmm5, %xmm4
	movdqu	%xmm4, 208(%r9)
	movdqa	144(%rsp), %xmm2
	paddd	%xmm6, %xmm2
	movdqa	128(%rsp), %xmm3
	paddd	%xmm7, %xmm3
	movdqa	%xmm2, %xmm1
	punpckldq	%xmm3, %xmm1
	movq	%xmm1, 32(%r9)
	pshufd	$238, %xmm1, %xmm1
	movq	%xmm1, 96(%r9)
	punpckhdq	%xmm3, %xmm2
	movq	%xmm2, 160(%r9)
	pshufd	$238, %xmm2, %xmm1
	movq	%xmm1, 224(%r9)
	movdqa	64(%rsp), %xmm3
	paddd	16(%rsp), %xmm3
	movdqa	208(%rsp), %xmm4
	paddd	32(%rsp), %xmm4
	movdqa	%xmm3, %xmm0
	punpckldq	%xmm4, %xmm0
	movdqa	176(%rsp), %xmm5
	paddd	%xmm15, %xmm5
	paddd	160(%rsp), %xmm14
	movdqa	%xmm5, %xmm1
	punpckldq	%xmm14, %xmm1
	movdqa	%xmm0, %xmm2
	punpcklqdq	%xmm1, %xmm2
	movdqu	%xmm2, 40(%r9)
	punpckhqdq	%xmm1, %xmm0
	movdqu	%xmm0, 104(%r9)
	punpckhdq	%xmm4, %xmm3
	punpckhdq	%xmm14, %xmm5
	movdqa	%xmm3, %xmm0
	punpcklqdq	%xmm5, %xmm0
	movdqu	%xmm0, 168(%r9)
	punpckhqdq	%xmm5, %xmm3
	movdqu	%xmm3, 232(%r9)
	movdqa	224(%rsp), %xmm1
	paddd	%xmm12, %xmm1
	movdqa	192(%rsp), %xmm2
	paddd	%xmm11, %xmm2
	movdqa	%xmm1, %xmm0
	punpckldq	%xmm2, %xmm0
	movq	%xmm0, 56(%r9)
	pshufd	$238, %xmm0, %xmm0
	movq	%xmm0, 120(%r9)
	punpckhdq	%xmm2, %xmm1
	movq	%xmm1, 184(%r9)
	pshufd	$238, %xmm1, %xmm0
	movq	%xmm0, 248(%r9)
	movaps	240(%rsp), %xmm6
	movaps	256(%rsp), %xmm7
	movaps	272(%rsp), %xmm8
	movaps	288(%rsp), %xmm9
	movaps	304(%rsp), %xmm10
	movaps	320(%rsp), %xmm11
	movaps	336(%rsp), %xmm12
	movaps	352(%rsp), %xmm13
	movaps	368(%rsp), %xmm14
	movaps	384(%rsp), %xmm15
	addq	$408, %rsp
	retq
	.seh_endproc

	.def	"noise_aead::authenticator::tag.v1";
	.scl	3;
	.type	32;
	.endef
	.section	.rdata,"dr"
	.p2align	4, 0x0
.Lnoise_CPI2_0:
	.quad	1152921487695413247
	.quad	1152921487695413244
.Lnoise_CPI2_1:
	.short	65535
	.short	65535
	.short	65535
	.short	0
	.short	65535
	.short	65535
	.short	65535
	.short	65535
.Lnoise_CPI2_2:
	.short	65535
	.short	0
	.short	65535
	.short	65535
	.short	65535
	.short	65535
	.short	65535
	.short	65535
.Lnoise_CPI2_3:
	.short	65535
	.short	65535
	.short	65535
	.short	65535
	.short	65535
	.short	65535
	.short	65535
	.short	0
.Lnoise_CPI2_4:
	.short	65535
	.short	65535
	.short	65535
	.short	65535
	.short	65535
	.short	0
	.short	65535
	.short	65535
	.text
	.p2align	4
"noise_aead::authenticator::tag.v1":
.seh_proc "noise_aead::authenticator::tag.v1"
	pushq	%r15
	.seh_pushreg %r15
	pushq	%r14
	.seh_pushreg %r14
	pushq	%r13
	.seh_pushreg %r13
	pushq	%r12
	.seh_pushreg %r12
	pushq	%rsi
	.seh_pushreg %rsi
	pushq	%rdi
	.seh_pushreg %rdi
	pushq	%rbp
	.seh_pushreg %rbp
	pushq	%rbx
	.seh_pushreg %rbx
	subq	$216, %rsp
	.seh_stackalloc 216
	.seh_endprologue
	movq	%r9, %rdi
	movq	%rcx, 56(%rsp)
	movq	320(%rsp), %r15
	movq	328(%rsp), %rbx
	movups	(%rdx), %xmm0
	andps	.Lnoise_CPI2_0(%rip), %xmm0
	movups	16(%rdx), %xmm1
	xorps	%xmm2, %xmm2
	movaps	%xmm2, 96(%rsp)
	movaps	%xmm2, 80(%rsp)
	movaps	%xmm0, 112(%rsp)
	movaps	%xmm1, 128(%rsp)
	movaps	%xmm2, 160(%rsp)
	movaps	%xmm2, 144(%rsp)
	leaq	80(%rsp), %r14
	movq	%r14, %rcx
	movq	%r8, %rdx
	movq	%r9, %r8
	callq	"noise_poly::Poly1305::update"
	movl	%edi, %r8d
	negl	%r8d
	andl	$15, %r8d
	leaq	.Lnoise_static.0(%rip), %r12
	movq	%r14, %rcx
	movq	%r12, %rdx
	callq	"noise_poly::Poly1305::update"
	movq	%r14, %rcx
	movq	%r15, %rdx
	movq	%rbx, %r8
	callq	"noise_poly::Poly1305::update"
	movl	%ebx, %r8d
	negl	%r8d
	andl	$15, %r8d
	movq	%r14, %rcx
	movq	%r12, %rdx
	callq	"noise_poly::Poly1305::update"
	movq	%rdi, 64(%rsp)
	movq	%rbx, 72(%rsp)
	leaq	64(%rsp), %rdx
	movl	$16, %ebp
	movl	$16, %r8d
	movq	%r14, %rcx
	callq	"noise_poly::Poly1305::update"
	movq	80(%rsp), %rbx
	movq	88(%rsp), %rdi
	movq	96(%rsp), %r13
	movq	120(%rsp), %rsi
	movq	112(%rsp), %rax
	movq	136(%rsp), %r15
	movq	128(%rsp), %r12
	movaps	160(%rsp), %xmm0
	movaps	%xmm0, 192(%rsp)
	movaps	144(%rsp), %xmm0
	movaps	%xmm0, 176(%rsp)
	movq	192(%rsp), %r14
	testq	%r14, %r14
	je	.Lnoise_BB2_2
	subq	%r14, %rbp
	cmpq	$16, %r14
	movl	$0, %r8d
	cmovbq	%rbp, %r8
	leaq	(%rsp,%r14), %rcx
	addq	$32, %rcx
	xorl	%edx, %edx
	movq	%rax, %rbp
	callq	memset
	leaq	32(%rsp), %rcx
	leaq	176(%rsp), %rdx
	movq	%r14, %r8
	callq	memcpy
	movb	$1, 32(%rsp,%r14)
	addq	32(%rsp), %rbx
	adcq	40(%rsp), %rdi
	adcq	$0, %r13
	movq	%rsi, %r11
	shrq	$2, %r11
	addq	%rsi, %r11
	movq	%rbx, %rax
	mulq	%rbp
	movq	%rdx, %r9
	movq	%rax, %r10
	movq	%rdi, %rax
	mulq	%r11
	movq	%rdx, %r8
	movq	%rax, %rcx
	addq	%r10, %rcx
	adcq	%r9, %r8
	movq	%rbx, %rax
	mulq	%rsi
	movq	%rdx, %r9
	movq	%rax, %r10
	movq	%rdi, %rax
	mulq	%rbp
	addq	%r10, %rax
	adcq	%r9, %rdx
	imulq	%r13, %r11
	addq	%rax, %r11
	adcq	$0, %rdx
	imulq	%rbp, %r13
	movq	%r11, %rax
	addq	%r8, %rax
	adcq	%rdx, %r13
	movq	%r13, %rdx
	shrq	$2, %rdx
	leaq	(%rdx,%rdx,4), %rdx
	movq	%rdx, %r9
	addq	%rcx, %r9
	adcq	%r8, %r11
	andl	$3, %r13d
	addq	%rdx, %rcx
	adcq	$0, %rax
	adcq	$0, %r13
	movq	%rcx, %rbx
	movq	%r11, %rdi
.Lnoise_BB2_2:
	movq	%r13, %rax
	shrq	$2, %rax
	leaq	(%rax,%rax,4), %rax
	addq	$5, %rax
	addq	%rbx, %rax
	movq	%rdi, %rax
	adcq	$0, %rax
	adcq	$0, %r13
	shrq	$2, %r13
	addq	%rbx, %r12
	adcq	%rdi, %r15
	leaq	(,%r13,4), %rax
	addq	%r13, %rax
	addq	%rax, %r12
	adcq	$0, %r15
	movq	%r15, %rdx
	shldq	$56, %r12, %rdx
	movq	%r15, %r10
	shldq	$48, %r12, %r10
	movq	%r15, %r11
	shldq	$40, %r12, %r11
	movq	%r15, %rsi
	shldq	$32, %r12, %rsi
	movq	%r15, %rdi
	shldq	$24, %r12, %rdi
	movq	%r15, %rbx
	shldq	$16, %r12, %rbx
	movq	%r15, %r14
	shldq	$8, %r12, %r14
	movq	%r15, %rax
	shrq	$32, %rax
	movq	%r15, %rcx
	shrq	$40, %rcx
	movq	%r15, %r8
	shrq	$48, %r8
	movq	%r15, %r9
	shrq	$56, %r9
	movq	%r14, %xmm0
	movq	%rbx, %xmm1
	punpcklbw	%xmm0, %xmm1
	psllq	$48, %xmm1
	movdqa	.Lnoise_CPI2_1(%rip), %xmm0
	movq	%rdi, %xmm2
	movq	%rsi, %xmm3
	punpcklbw	%xmm2, %xmm3
	pshufd	$80, %xmm3, %xmm2
	pand	%xmm0, %xmm2
	pandn	%xmm1, %xmm0
	por	%xmm2, %xmm0
	pshufd	$85, %xmm0, %xmm1
	movq	%r11, %xmm0
	movq	%r10, %xmm2
	punpcklbw	%xmm0, %xmm2
	pslld	$16, %xmm2
	movdqa	.Lnoise_CPI2_2(%rip), %xmm0
	movq	%rdx, %xmm3
	movq	%r12, %xmm4
	punpcklbw	%xmm3, %xmm4
	pand	%xmm0, %xmm4
	pandn	%xmm2, %xmm0
	por	%xmm4, %xmm0
	punpckldq	%xmm1, %xmm0
	movd	%r9d, %xmm1
	movd	%r8d, %xmm2
	punpcklbw	%xmm1, %xmm2
	pslldq	$14, %xmm2
	movd	%ecx, %xmm1
	movd	%eax, %xmm3
	punpcklbw	%xmm1, %xmm3
	pshufd	$0, %xmm3, %xmm1
	pand	.Lnoise_CPI2_3(%rip), %xmm1
	por	%xmm2, %xmm1
	movq	%r15, %xmm2
	movdqa	%xmm2, %xmm3
	psrlq	$24, %xmm3
	movdqa	%xmm2, %xmm4
	psrlq	$16, %xmm4
	punpcklbw	%xmm3, %xmm4
	pslldq	$10, %xmm4
	movdqa	.Lnoise_CPI2_4(%rip), %xmm3
	movdqa	%xmm2, %xmm5
	psrlq	$8, %xmm5
	punpcklbw	%xmm5, %xmm2
	pshufd	$68, %xmm2, %xmm2
	pand	%xmm3, %xmm2
	pandn	%xmm4, %xmm3
	por	%xmm2, %xmm3
	pshufd	$170, %xmm3, %xmm2
	punpckhdq	%xmm1, %xmm2
	movsd	%xmm0, %xmm2
	movq	56(%rsp), %rax
	movupd	%xmm2, (%rax)
	addq	$216, %rsp
	popq	%rbx
	popq	%rbp
	popq	%rdi
	popq	%rsi
	popq	%r12
	popq	%r13
	popq	%r14
	popq	%r15
	retq
	.seh_endproc

	.def	"noise_poly::Poly1305::update";
	.scl	3;
	.type	32;
	.endef
	.p2align	4
"noise_poly::Poly1305::update":
.seh_proc "noise_poly::Poly1305::update"
	pushq	%r15
	.seh_pushreg %r15
	pushq	%r14
	.seh_pushreg %r14
	pushq	%r13
	.seh_pushreg %r13
	pushq	%r12
	.seh_pushreg %r12
	pushq	%rsi
	.seh_pushreg %rsi
	pushq	%rdi
	.seh_pushreg %rdi
	pushq	%rbp
	.seh_pushreg %rbp
	pushq	%rbx
	.seh_pushreg %rbx
	subq	$40, %rsp
	.seh_stackalloc 40
	.seh_endprologue
	testq	%r8, %r8
	je	.Lnoise_BB3_38
	movq	80(%rcx), %rbx
	testq	%rbx, %rbx
	je	.Lnoise_BB3_42
	movl	$16, %eax
	subq	%rbx, %rax
	movq	%r8, %rsi
	subq	%rax, %rsi
	jae	.Lnoise_BB3_6
	leaq	(%rcx,%rbx), %rax
	addq	$64, %rax
	movq	%rax, %r9
	subq	%rdx, %r9
	cmpq	%r8, %r9
	jae	.Lnoise_BB3_10
	cmpq	$4, %r8
	jb	.Lnoise_BB3_5
	leaq	(%rbx,%rcx), %r9
	subq	%rdx, %r9
	addq	$64, %r9
	cmpq	$32, %r9
	jae	.Lnoise_BB3_16
.Lnoise_BB3_5:
	xorl	%r9d, %r9d
.Lnoise_BB3_31:
	movq	%r8, %r11
	movq	%r9, %r10
	andq	$3, %r11
	je	.Lnoise_BB3_34
	movq	%r9, %r10
	.p2align	4
.Lnoise_BB3_33:
	movzbl	(%rdx,%r10), %esi
	movb	%sil, (%rax,%r10)
	incq	%r10
	decq	%r11
	jne	.Lnoise_BB3_33
.Lnoise_BB3_34:
	subq	%r8, %r9
	cmpq	$-4, %r9
	ja	.Lnoise_BB3_37
	leaq	(%rbx,%rcx), %rax
	addq	$67, %rax
	.p2align	4
.Lnoise_BB3_36:
	movzbl	(%rdx,%r10), %r9d
	movb	%r9b, -3(%rax,%r10)
	movzbl	1(%rdx,%r10), %r9d
	movb	%r9b, -2(%rax,%r10)
	movzbl	2(%rdx,%r10), %r9d
	movb	%r9b, -1(%rax,%r10)
	movzbl	3(%rdx,%r10), %r9d
	movb	%r9b, (%rax,%r10)
	addq	$4, %r10
	cmpq	%r10, %r8
	jne	.Lnoise_BB3_36
	jmp	.Lnoise_BB3_37
.Lnoise_BB3_6:
	leaq	(%rdx,%rax), %rdi
	leaq	(%rcx,%rbx), %r8
	addq	$64, %r8
	movq	%r8, %r9
	subq	%rdx, %r9
	cmpq	%rax, %r9
	jae	.Lnoise_BB3_11
	cmpq	$4, %rax
	jb	.Lnoise_BB3_9
	leaq	(%rbx,%rcx), %r9
	subq	%rdx, %r9
	addq	$64, %r9
	cmpq	$32, %r9
	jae	.Lnoise_BB3_14
.Lnoise_BB3_9:
	xorl	%r9d, %r9d
	jmp	.Lnoise_BB3_39
.Lnoise_BB3_10:
	movq	%rcx, %rdi
	movq	%rax, %rcx
	movq	%r8, %rsi
	callq	memmove
	movq	%rsi, %r8
	movq	%rdi, %rcx
.Lnoise_BB3_37:
	addq	%r8, %rbx
	movq	%rbx, 80(%rcx)
.Lnoise_BB3_38:
	addq	$40, %rsp
	popq	%rbx
	popq	%rbp
	popq	%rdi
	popq	%rsi
	popq	%r12
	popq	%r13
	popq	%r14
	popq	%r15
	retq
.Lnoise_BB3_11:
	movq	%rcx, %rbx
	movq	%r8, %rcx
	movq	%rax, %r8
	callq	memmove
	movq	%rbx, %rcx
	jmp	.Lnoise_BB3_41
.Lnoise_BB3_16:
	cmpq	$32, %r8
	jae	.Lnoise_BB3_24
	xorl	%r9d, %r9d
	jmp	.Lnoise_BB3_28
.Lnoise_BB3_14:
	cmpq	$32, %rax
	jae	.Lnoise_BB3_18
	xorl	%r9d, %r9d
	jmp	.Lnoise_BB3_22
.Lnoise_BB3_24:
	movq	%r8, %r9
	andq	$-32, %r9
	leaq	(%rbx,%rcx), %r10
	addq	$80, %r10
	xorl	%r11d, %r11d
	.p2align	4
.Lnoise_BB3_25:
	movups	(%rdx,%r11), %xmm0
	movups	16(%rdx,%r11), %xmm1
	movups	%xmm0, -16(%r10,%r11)
	movups	%xmm1, (%r10,%r11)
	addq	$32, %r11
	cmpq	%r11, %r9
	jne	.Lnoise_BB3_25
	cmpq	%r9, %r8
	je	.Lnoise_BB3_37
	testb	$28, %r8b
	je	.Lnoise_BB3_31
.Lnoise_BB3_28:
	movq	%r9, %r10
	movq	%r8, %r9
	andq	$-4, %r9
	.p2align	4
.Lnoise_BB3_29:
	movl	(%rdx,%r10), %r11d
	movl	%r11d, (%rax,%r10)
	addq	$4, %r10
	cmpq	%r10, %r9
	jne	.Lnoise_BB3_29
	cmpq	%r9, %r8
	je	.Lnoise_BB3_37
	jmp	.Lnoise_BB3_31
.Lnoise_BB3_18:
	movq	%rax, %r9
	andq	$-32, %r9
	leaq	(%rbx,%rcx), %r10
	addq	$80, %r10
	xorl	%r11d, %r11d
	.p2align	4
.Lnoise_BB3_19:
	movups	(%rdx,%r11), %xmm0
	movups	16(%rdx,%r11), %xmm1
	movups	%xmm0, -16(%r10,%r11)
	movups	%xmm1, (%r10,%r11)
	addq	$32, %r11
	cmpq	%r11, %r9
	jne	.Lnoise_BB3_19
	cmpq	%r9, %rax
	je	.Lnoise_BB3_41
	testb	$28, %al
	je	.Lnoise_BB3_39
.Lnoise_BB3_22:
	movq	%r9, %r10
	movq	%rax, %r9
	andq	$-4, %r9
	.p2align	4
.Lnoise_BB3_23:
	movl	(%rdx,%r10), %r11d
	movl	%r11d, (%r8,%r10)
	addq	$4, %r10
	cmpq	%r10, %r9
	jne	.Lnoise_BB3_23
	jmp	.Lnoise_BB3_40
.Lnoise_BB3_39:
	movzbl	(%rdx,%r9), %r10d
	movb	%r10b, (%r8,%r9)
	incq	%r9
.Lnoise_BB3_40:
	cmpq	%r9, %rax
	jne	.Lnoise_BB3_39
.Lnoise_BB3_41:
	movq	(%rcx), %r11
	movq	8(%rcx), %r10
	addq	64(%rcx), %r11
	movq	16(%rcx), %r15
	adcq	72(%rcx), %r10
	movq	32(%rcx), %r13
	movq	40(%rcx), %rbp
	adcq	$1, %r15
	movq	%rbp, %r12
	shrq	$2, %r12
	addq	%rbp, %r12
	movq	%r11, %rax
	mulq	%r13
	movq	%rdx, %rbx
	movq	%rax, %r14
	movq	%r10, %rax
	mulq	%r12
	movq	%rdx, %r9
	movq	%rax, %r8
	addq	%r14, %r8
	adcq	%rbx, %r9
	movq	%r11, %rax
	mulq	%rbp
	movq	%rdx, %r11
	movq	%rax, %rbx
	movq	%r10, %rax
	mulq	%r13
	addq	%rbx, %rax
	adcq	%r11, %rdx
	imulq	%r15, %r12
	addq	%rax, %r12
	adcq	$0, %rdx
	imulq	%r13, %r15
	movq	%r12, %rax
	addq	%r9, %rax
	adcq	%rdx, %r15
	movq	%r15, %rdx
	shrq	$2, %rdx
	leaq	(%rdx,%rdx,4), %rdx
	movq	%rdx, %r10
	addq	%r8, %r10
	adcq	%r9, %r12
	andl	$3, %r15d
	addq	%rdx, %r8
	adcq	$0, %rax
	adcq	$0, %r15
	movq	%r8, (%rcx)
	movq	%r12, 8(%rcx)
	movq	%r15, 16(%rcx)
	movq	$0, 24(%rcx)
	movq	$0, 80(%rcx)
	movq	%rdi, %rdx
	movq	%rsi, %r8
.Lnoise_BB3_42:
	addq	$40, %rsp
	popq	%rbx
	popq	%rbp
	popq	%rdi
	popq	%rsi
	popq	%r12
	popq	%r13
	popq	%r14
	popq	%r15
	jmp	"noise_poly::Poly1305::take_aligned"
	.seh_endproc

	.def	"noise_poly::Poly1305::take_aligned.v1";
	.scl	3;
	.type	32;
	.endef
	.p2align	4
"noise_poly::Poly1305::take_aligned.v1":
.seh_proc "noise_poly::Poly1305::take_aligned.v1"
	pushq	%r15
	.seh_pushreg %r15
	pushq	%r14
	.seh_pushreg %r14
	pushq	%r13
	.seh_pushreg %r13
	pushq	%r12
	.seh_pushreg %r12
	pushq	%rsi
	.seh_pushreg %rsi
	pushq	%rdi
	.seh_pushreg %rdi
	pushq	%rbp
	.seh_pushreg %rbp
	pushq	%rbx
	.seh_pushreg %rbx
	subq	$40, %rsp
	.seh_stackalloc 40
	.seh_endprologue
	movq	%rdx, %r9
	cmpq	$1023, %r8
	ja	.Lnoise_BB4_3
	movq	(%rcx), %r11
	movq	8(%rcx), %r10
	movq	16(%rcx), %r15
	cmpq	$16, %r8
	jae	.Lnoise_BB4_5
	movq	24(%rcx), %rax
	jmp	.Lnoise_BB4_8
.Lnoise_BB4_3:
	movq	%r9, %rdx
	cmpq	$65535, %r8
	ja	.Lnoise_BB4_11
	addq	$40, %rsp
	popq	%rbx
	popq	%rbp
	popq	%rdi
	popq	%rsi
	popq	%r12
	popq	%r13
	popq	%r14
	popq	%r15
	jmp	"noise_poly::Poly1305::take_fours"
.Lnoise_BB4_5:
	movq	32(%rcx), %r12
	movq	40(%rcx), %r13
	movq	%r13, %rbp
	shrq	$2, %rbp
	addq	%r13, %rbp
	.p2align	4
.Lnoise_BB4_6:
	addq	(%r9), %r11
	adcq	8(%r9), %r10
	adcq	$1, %r15
	movq	%r11, %rax
	mulq	%r12
	movq	%rdx, %rbx
	movq	%rax, %r14
	movq	%r10, %rax
	mulq	%rbp
	movq	%rdx, %rdi
	movq	%rax, %rsi
	addq	%r14, %rsi
	adcq	%rbx, %rdi
	movq	%r11, %rax
	mulq	%r13
	movq	%rdx, %r11
	movq	%rax, %rbx
	movq	%r10, %rax
	mulq	%r12
	addq	%rbx, %rax
	adcq	%r11, %rdx
	movq	%r15, %r10
	imulq	%rbp, %r10
	addq	%rax, %r10
	adcq	$0, %rdx
	imulq	%r12, %r15
	movq	%r10, %rax
	addq	%rdi, %rax
	adcq	%rdx, %r15
	movq	%r15, %rdx
	shrq	$2, %rdx
	leaq	(%rdx,%rdx,4), %rdx
	movq	%rdx, %r11
	addq	%rsi, %r11
	adcq	%rdi, %r10
	andl	$3, %r15d
	movq	%rsi, %r11
	addq	%rdx, %r11
	adcq	$0, %rax
	adcq	$0, %r15
	addq	$16, %r9
	addq	$-16, %r8
	cmpq	$15, %r8
	ja	.Lnoise_BB4_6
	xorl	%eax, %eax
.Lnoise_BB4_8:
	movq	%r11, (%rcx)
	movq	%r10, 8(%rcx)
	movq	%r15, 16(%rcx)
	movq	%rax, 24(%rcx)
	movq	80(%rcx), %rdi
	leaq	(%rcx,%rdi), %rax
	addq	$64, %rax
	movq	%rax, %rdx
	subq	%r9, %rdx
	cmpq	%r8, %rdx
	jae	.Lnoise_BB4_12
	cmpq	$4, %r8
	jb	.Lnoise_BB4_10
	leaq	(%rdi,%rcx), %rdx
	subq	%r9, %rdx
	addq	$64, %rdx
	cmpq	$32, %rdx
	jae	.Lnoise_BB4_15
.Lnoise_BB4_10:
	xorl	%edx, %edx
.Lnoise_BB4_18:
	movq	%r8, %r11
	movq	%rdx, %r10
	andq	$3, %r11
	je	.Lnoise_BB4_21
	movq	%rdx, %r10
	.p2align	4
.Lnoise_BB4_20:
	movzbl	(%r9,%r10), %ebx
	movb	%bl, (%rax,%r10)
	incq	%r10
	decq	%r11
	jne	.Lnoise_BB4_20
.Lnoise_BB4_21:
	subq	%r8, %rdx
	cmpq	$-4, %rdx
	ja	.Lnoise_BB4_24
	leaq	(%rdi,%rcx), %rax
	addq	$67, %rax
	.p2align	4
.Lnoise_BB4_23:
	movzbl	(%r9,%r10), %edx
	movb	%dl, -3(%rax,%r10)
	movzbl	1(%r9,%r10), %edx
	movb	%dl, -2(%rax,%r10)
	movzbl	2(%r9,%r10), %edx
	movb	%dl, -1(%rax,%r10)
	movzbl	3(%r9,%r10), %edx
	movb	%dl, (%rax,%r10)
	addq	$4, %r10
	cmpq	%r10, %r8
	jne	.Lnoise_BB4_23
	jmp	.Lnoise_BB4_24
.Lnoise_BB4_11:
	addq	$40, %rsp
	popq	%rbx
	popq	%rbp
	popq	%rdi
	popq	%rsi
	popq	%r12
	popq	%r13
	popq	%r14
	popq	%r15
	jmp	"noise_poly::Poly1305::take_eights"
.Lnoise_BB4_12:
	movq	%rcx, %rbx
	movq	%rax, %rcx
	movq	%r9, %rdx
	movq	%r8, %rsi
	callq	memmove
	movq	%rbx, %rcx
	movq	%rsi, %r8
.Lnoise_BB4_24:
	addq	%r8, %rdi
	movq	%rdi, 80(%rcx)
	addq	$40, %rsp
	popq	%rbx
	popq	%rbp
	popq	%rdi
	popq	%rsi
	popq	%r12
	popq	%r13
	popq	%r14
	popq	%r15
	retq
.Lnoise_BB4_15:
	movl	%r8d, %edx
	andl	$12, %edx
	xorl	%r10d, %r10d
	.p2align	4
.Lnoise_BB4_16:
	movl	(%r9,%r10), %r11d
	movl	%r11d, (%rax,%r10)
	addq	$4, %r10
	cmpq	%r10, %rdx
	jne	.Lnoise_BB4_16
	cmpq	%rdx, %r8
	je	.Lnoise_BB4_24
	jmp	.Lnoise_BB4_18
	.seh_endproc

	.def	"noise_poly::Poly1305::take_fours";
	.scl	3;
	.type	32;
	.endef
	.section	.rdata,"dr"
	.p2align	4, 0x0
.Lnoise_CPI5_0:
	.long	67108863
	.long	67108863
	.zero	4
	.zero	4
.Lnoise_CPI5_1:
	.quad	67108863
	.quad	67108863
.Lnoise_CPI5_2:
	.zero	8
	.quad	16777216
.Lnoise_CPI5_3:
	.quad	2147483647
	.quad	2147483647
.Lnoise_CPI5_4:
	.quad	536870911
	.quad	536870911
.Lnoise_CPI5_5:
	.quad	16777216
	.quad	16777216
	.text
	.p2align	4
"noise_poly::Poly1305::take_fours":
.seh_proc "noise_poly::Poly1305::take_fours"
	pushq	%r15
	.seh_pushreg %r15
	pushq	%r14
	.seh_pushreg %r14
	pushq	%r13
	.seh_pushreg %r13
	pushq	%r12
	.seh_pushreg %r12
	pushq	%rsi
	.seh_pushreg %rsi
	pushq	%rdi
	.seh_pushreg %rdi
	pushq	%rbp
	.seh_pushreg %rbp
	pushq	%rbx
	.seh_pushreg %rbx
	subq	$872, %rsp
	.seh_stackalloc 872
	movdqa	%xmm15, 848(%rsp)
	.seh_savexmm %xmm15, 848
	movdqa	%xmm14, 832(%rsp)
	.seh_savexmm %xmm14, 832
	movaps	%xmm13, 816(%rsp)
	.seh_savexmm %xmm13, 816
	movaps	%xmm12, 800(%rsp)
	.seh_savexmm %xmm12, 800
	movaps	%xmm11, 784(%rsp)
	.seh_savexmm %xmm11, 784
	movaps	%xmm10, 768(%rsp)
	.seh_savexmm %xmm10, 768
	movaps	%xmm9, 752(%rsp)
	.seh_savexmm %xmm9, 752
	movaps	%xmm8, 736(%rsp)
	.seh_savexmm %xmm8, 736
	movaps	%xmm7, 720(%rsp)
	.seh_savexmm %xmm7, 720
	movaps	%xmm6, 704(%rsp)
	.seh_savexmm %xmm6, 704
	.seh_endprologue
	movq	%rdx, 64(%rsp)
	movq	%rcx, 280(%rsp)
	movq	32(%rcx), %r9
	movq	40(%rcx), %r10
	movl	%r9d, %r12d
	andl	$67108863, %r12d
	movl	%r10d, %eax
	shll	$12, %eax
	movq	%r9, %r15
	shrq	$52, %r15
	orl	%eax, %r15d
	andl	$67108863, %r15d
	movq	%r10, %rax
	shrq	$40, %rax
	leal	(%r15,%r15,4), %r11d
	leal	(%rax,%rax,4), %ebx
	movq	%r12, %rdx
	imulq	%r12, %rdx
	movq	%r10, %rcx
	movq	%r9, 272(%rsp)
	shldq	$38, %r9, %rcx
	movq	%r10, 264(%rsp)
	movq	%r10, %xmm0
	psrlq	$14, %xmm0
	movq	%rcx, %xmm1
	punpckldq	%xmm0, %xmm1
	pand	.Lnoise_CPI5_0(%rip), %xmm1
	pshufd	$85, %xmm1, %xmm0
	movd	%xmm0, %r9d
	movdqa	%xmm1, 496(%rsp)
	movd	%xmm1, %ecx
	leal	(%r9,%r9,4), %edi
	movq	%rcx, %r10
	imulq	%rbx, %r10
	addq	%rdx, %r10
	movq	%r11, %rdx
	imulq	%r9, %rdx
	addq	%r10, %rdx
	movq	%rdi, %r10
	imulq	%r15, %r10
	addq	%r10, %rdx
	leal	(%rcx,%rcx,4), %r14d
	movq	%r14, 288(%rsp)
	imulq	%rax, %r14
	addq	%rdx, %r14
	leal	(%r12,%r12), %edx
	movq	%rdx, %r10
	imulq	%rcx, %r10
	movq	%r15, %rsi
	imulq	%rbx, %rsi
	addq	%r10, %rsi
	movq	%r11, 320(%rsp)
	imulq	%rax, %r11
	addq	%rsi, %r11
	movq	%rdi, %r10
	imulq	%r9, %r10
	addq	%r10, %r11
	movq	%rcx, %r10
	imulq	%rcx, %r10
	imulq	%r15, %rdx
	addq	%r10, %rdx
	movq	%r9, %r10
	imulq	%rbx, %r10
	addq	%rdx, %r10
	movq	%rdi, 296(%rsp)
	imulq	%rax, %rdi
	addq	%r10, %rdi
	movq	%rcx, %r10
	imulq	%r9, %rcx
	imulq	%r12, %r9
	imulq	%r15, %r10
	addq	%r9, %r10
	movq	%rbx, 328(%rsp)
	movq	%rbx, %rdx
	imulq	%rax, %rdx
	leaq	(%rdx,%r10,2), %rdx
	movl	%r14d, %esi
	shrq	$26, %r14
	addq	%r11, %r14
	movq	%r15, 312(%rsp)
	movq	%r15, %r9
	imulq	%r15, %r9
	movl	%edx, %r11d
	shrq	$26, %rdx
	addq	%r9, %rdx
	movl	%r14d, %r10d
	shrq	$26, %r14
	addq	%rdi, %r14
	movl	%eax, 44(%rsp)
	movq	%r12, 304(%rsp)
	imulq	%r12, %rax
	addq	%rcx, %rax
	leaq	(%rdx,%rax,2), %rax
	andl	$67108863, %r11d
	movl	%r14d, %r13d
	shrq	$26, %r14
	addq	%r11, %r14
	andl	$67108863, %esi
	movl	%eax, %edx
	shrq	$26, %rax
	leaq	(%rax,%rax,4), %r9
	addq	%rsi, %r9
	andl	$67108863, %r10d
	movq	%r9, %rbp
	shrq	$26, %rbp
	addl	%r10d, %ebp
	andl	$67108863, %edx
	movl	%r14d, %edi
	shrq	$26, %r14
	addl	%edx, %r14d
	andl	$67108863, %r13d
	andl	$67108863, %edi
	andl	$67108863, %r9d
	movq	%r9, %rax
	imulq	%r9, %rax
	leal	(%r13,%r13,4), %ecx
	movq	%rdi, %rbx
	imulq	%rcx, %rbx
	movq	%rcx, 80(%rsp)
	addq	%rax, %rbx
	leal	(%rdi,%rdi,4), %edx
	movq	%r13, %rax
	imulq	%rdx, %rax
	addq	%rax, %rbx
	leal	(%rbp,%rbp,4), %r11d
	movd	%r11d, %xmm10
	imulq	%r14, %r11
	addq	%rbx, %r11
	leal	(%r14,%r14,4), %r10d
	movq	%r10, %rax
	imulq	%rbp, %rax
	addq	%rax, %r11
	leal	(%r9,%r9), %eax
	imulq	%rbp, %rax
	movq	%rdi, %rbx
	movq	%rdx, 48(%rsp)
	imulq	%rdx, %rbx
	addq	%rax, %rbx
	movq	%r14, %rsi
	imulq	%rcx, %rsi
	addq	%rbx, %rsi
	movq	%r13, %rax
	imulq	%r10, %rax
	addq	%rax, %rsi
	leal	(,%r13,2), %eax
	imulq	%r9, %rax
	movq	%rbp, %rbx
	imulq	%rbp, %rbx
	addq	%rbx, %rax
	movq	%r14, %rbx
	imulq	%rdx, %rbx
	addq	%rax, %rbx
	movq	%rdi, %rax
	imulq	%r10, %rax
	addq	%rax, %rbx
	movq	%rdi, %rax
	imulq	%r9, %rax
	movq	%r13, %r12
	imulq	%rbp, %r12
	addq	%rax, %r12
	movd	%r10d, %xmm9
	imulq	%r14, %r10
	leaq	(%r10,%r12,2), %rax
	movl	%r11d, %r10d
	shrq	$26, %r11
	addq	%rsi, %r11
	movq	%r13, %rsi
	imulq	%r13, %rsi
	movl	%eax, %r12d
	shrq	$26, %rax
	addq	%rsi, %rax
	movl	%r11d, %ecx
	shrq	$26, %r11
	addq	%rbx, %r11
	movq	%r9, %rsi
	imulq	%r14, %rsi
	movq	%rdi, %rbx
	imulq	%rbp, %rbx
	addq	%rsi, %rbx
	leaq	(%rax,%rbx,2), %rax
	andl	$67108863, %r12d
	movl	%r11d, %ebx
	shrq	$26, %r11
	addq	%r12, %r11
	andl	$67108863, %r10d
	movl	%eax, %r15d
	shrq	$26, %rax
	leaq	(%rax,%rax,4), %rsi
	addq	%r10, %rsi
	andl	$67108863, %ecx
	movl	%esi, %r10d
	shrq	$26, %rsi
	addl	%ecx, %esi
	andl	$67108863, %r15d
	movl	%r11d, %r12d
	shrq	$26, %r11
	addl	%r15d, %r11d
	andl	$67108863, %ebx
	andl	$67108863, %r10d
	andl	$67108863, %r12d
	movl	%r10d, 96(%rsp)
	movl	%esi, 100(%rsp)
	movl	%ebx, 104(%rsp)
	movl	%r12d, 108(%rsp)
	movl	%r11d, 112(%rsp)
	leal	(%rsi,%rsi,4), %edx
	movl	%edx, 116(%rsp)
	leal	(%rbx,%rbx,4), %ecx
	movl	%ecx, 120(%rsp)
	leal	(%r12,%r12,4), %r15d
	movl	%r15d, 124(%rsp)
	leal	(%r11,%r11,4), %eax
	movl	%eax, 128(%rsp)
	movl	%r10d, 132(%rsp)
	movl	%esi, 136(%rsp)
	movl	%ebx, 140(%rsp)
	movl	%r12d, 144(%rsp)
	movl	%r11d, 148(%rsp)
	movl	%edx, 152(%rsp)
	movl	%ecx, 156(%rsp)
	movl	%r15d, 160(%rsp)
	movl	%eax, 164(%rsp)
	movl	%r10d, 168(%rsp)
	movl	%esi, 172(%rsp)
	movl	%ebx, 176(%rsp)
	movl	%r12d, 180(%rsp)
	movl	%r11d, 184(%rsp)
	movl	%edx, 188(%rsp)
	movl	%ecx, 192(%rsp)
	movl	%r15d, 196(%rsp)
	movl	%eax, 200(%rsp)
	movl	%r10d, 204(%rsp)
	movl	%esi, 208(%rsp)
	movl	%ebx, 212(%rsp)
	movl	%r12d, 216(%rsp)
	movl	%r11d, 220(%rsp)
	movl	%edx, 224(%rsp)
	movl	%ecx, 228(%rsp)
	movl	%r15d, 232(%rsp)
	movq	280(%rsp), %r15
	movl	%eax, 236(%rsp)
	movq	(%r15), %rax
	movl	%eax, %ecx
	andl	$67108863, %ecx
	movd	%ecx, %xmm1
	movq	8(%r15), %rcx
	movq	%rcx, %rdx
	shldq	$12, %rax, %rdx
	shrq	$26, %rax
	andl	$67108863, %eax
	movd	%eax, %xmm8
	andl	$67108863, %edx
	movd	%edx, %xmm7
	movq	%rcx, %rax
	shrq	$14, %rax
	andl	$67108863, %eax
	movd	%eax, %xmm4
	movl	16(%r15), %eax
	shll	$24, %eax
	shrq	$40, %rcx
	addq	%rcx, %rax
	addq	$16777216, %rax
	movq	%rax, %xmm0
	movd	80(%rsp), %xmm11
	movd	48(%rsp), %xmm12
	movq	64(%rsp), %rax
	movdqu	(%rax), %xmm3
	movdqu	16(%rax), %xmm2
	movdqa	%xmm3, %xmm5
	punpcklqdq	%xmm2, %xmm5
	movdqa	.Lnoise_CPI5_1(%rip), %xmm13
	movdqa	%xmm5, %xmm6
	pand	%xmm13, %xmm6
	paddq	%xmm6, %xmm1
	movdqa	%xmm5, %xmm6
	psrlq	$26, %xmm6
	pand	%xmm13, %xmm6
	paddq	%xmm6, %xmm8
	punpckhqdq	%xmm2, %xmm3
	psrlq	$52, %xmm5
	movdqa	%xmm3, %xmm2
	psllq	$12, %xmm2
	por	%xmm5, %xmm2
	pand	%xmm13, %xmm2
	paddq	%xmm2, %xmm7
	movdqa	%xmm3, %xmm2
	psrlq	$14, %xmm2
	pand	%xmm13, %xmm2
	shufpd	$2, .Lnoise_CPI5_2(%rip), %xmm0
	paddq	%xmm2, %xmm4
	psrlq	$40, %xmm3
	paddq	%xmm0, %xmm3
	movdqa	%xmm10, 464(%rsp)
	pshufd	$68, %xmm10, %xmm2
	movdqa	%xmm11, 448(%rsp)
	pshufd	$68, %xmm11, %xmm5
	movdqa	%xmm12, 416(%rsp)
	pshufd	$68, %xmm12, %xmm6
	movdqa	%xmm9, 480(%rsp)
	pshufd	$68, %xmm9, %xmm9
	movdqa	.Lnoise_CPI5_4(%rip), %xmm0
	pand	%xmm0, %xmm6
	movdqa	%xmm6, 544(%rsp)
	pand	%xmm0, %xmm5
	movdqa	%xmm5, 560(%rsp)
	movdqa	.Lnoise_CPI5_3(%rip), %xmm0
	pand	%xmm0, %xmm9
	movdqa	%xmm9, 80(%rsp)
	pand	%xmm0, %xmm2
	movdqa	%xmm2, 576(%rsp)
	movd	%r9d, %xmm0
	leaq	32(%rax), %r9
	movdqa	%xmm0, 432(%rsp)
	pshufd	$68, %xmm0, %xmm0
	pand	%xmm13, %xmm0
	movdqa	%xmm0, 64(%rsp)
	movd	%r13d, %xmm0
	movdqa	%xmm0, 400(%rsp)
	pshufd	$68, %xmm0, %xmm0
	pand	%xmm13, %xmm0
	movdqa	%xmm0, 48(%rsp)
	movd	%edi, %xmm0
	movdqa	%xmm0, 384(%rsp)
	pshufd	$68, %xmm0, %xmm0
	pand	%xmm13, %xmm0
	movdqa	%xmm0, 528(%rsp)
	addq	$32, %r8
	movd	%ebp, %xmm0
	movd	%r14d, %xmm2
	movdqa	%xmm0, 368(%rsp)
	pshufd	$0, %xmm0, %xmm0
	movdqa	%xmm0, 336(%rsp)
	movdqa	%xmm2, 352(%rsp)
	pshufd	$0, %xmm2, %xmm0
	movdqa	%xmm0, 512(%rsp)
	.p2align	4
.Lnoise_BB5_1:
	movq	%r8, %rdx
	addq	$-64, %r8
	movl	%r8d, %eax
	shrl	$6, %eax
	andl	$3, %eax
	leaq	(%rax,%rax,8), %rax
	movdqa	%xmm1, %xmm2
	psrlq	$26, %xmm2
	paddq	%xmm8, %xmm2
	movdqa	%xmm4, %xmm0
	psrlq	$26, %xmm0
	paddq	%xmm3, %xmm0
	movdqa	%xmm2, %xmm5
	psrlq	$26, %xmm5
	paddq	%xmm7, %xmm5
	movdqa	.Lnoise_CPI5_1(%rip), %xmm8
	pand	%xmm8, %xmm1
	movdqa	%xmm0, %xmm6
	psrlq	$26, %xmm6
	movdqa	%xmm6, %xmm3
	psllq	$2, %xmm3
	paddq	%xmm6, %xmm3
	paddq	%xmm1, %xmm3
	pand	%xmm8, %xmm4
	movdqa	%xmm5, %xmm1
	psrlq	$26, %xmm1
	paddq	%xmm4, %xmm1
	pand	%xmm8, %xmm2
	movdqa	%xmm3, %xmm11
	psrlq	$26, %xmm11
	paddd	%xmm2, %xmm11
	pand	%xmm8, %xmm0
	movdqa	%xmm1, %xmm4
	psrlq	$26, %xmm4
	paddd	%xmm0, %xmm4
	pand	%xmm8, %xmm3
	movd	96(%rsp,%rax,4), %xmm0
	pshufd	$68, %xmm0, %xmm7
	movdqa	%xmm7, %xmm13
	movdqa	%xmm7, %xmm10
	movdqa	%xmm7, %xmm0
	pmuludq	%xmm3, %xmm0
	movd	128(%rsp,%rax,4), %xmm6
	pshufd	$68, %xmm6, %xmm6
	movdqa	%xmm6, 240(%rsp)
	movdqa	%xmm8, %xmm2
	pand	%xmm8, %xmm5
	movd	124(%rsp,%rax,4), %xmm8
	pshufd	$68, %xmm8, %xmm9
	movdqa	%xmm9, %xmm12
	pmuludq	%xmm5, %xmm12
	pand	%xmm2, %xmm1
	movd	120(%rsp,%rax,4), %xmm8
	pshufd	$68, %xmm8, %xmm8
	movdqa	%xmm8, %xmm14
	pmuludq	%xmm1, %xmm14
	paddq	%xmm12, %xmm14
	movd	116(%rsp,%rax,4), %xmm12
	pshufd	$68, %xmm12, %xmm12
	pmuludq	%xmm4, %xmm12
	paddq	%xmm0, %xmm12
	paddq	%xmm14, %xmm12
	movd	100(%rsp,%rax,4), %xmm0
	pshufd	$68, %xmm0, %xmm2
	movdqa	%xmm2, %xmm0
	movdqa	%xmm2, %xmm14
	pmuludq	%xmm3, %xmm14
	pmuludq	%xmm11, %xmm13
	paddq	%xmm14, %xmm13
	movdqa	%xmm9, %xmm14
	pmuludq	%xmm1, %xmm14
	pmuludq	%xmm4, %xmm8
	paddq	%xmm14, %xmm8
	movdqa	%xmm6, %xmm14
	paddq	%xmm13, %xmm8
	movd	104(%rsp,%rax,4), %xmm13
	pshufd	$68, %xmm13, %xmm15
	pmuludq	%xmm11, %xmm0
	pmuludq	%xmm5, %xmm10
	paddq	%xmm0, %xmm10
	movdqa	%xmm15, %xmm0
	pmuludq	%xmm3, %xmm0
	pmuludq	%xmm4, %xmm9
	paddq	%xmm0, %xmm9
	movdqa	%xmm6, %xmm0
	pmuludq	%xmm4, %xmm6
	movdqa	%xmm6, 688(%rsp)
	pmuludq	%xmm7, %xmm4
	pmuludq	%xmm1, %xmm0
	movdqa	%xmm0, 640(%rsp)
	pmuludq	%xmm1, %xmm7
	pmuludq	%xmm2, %xmm1
	pmuludq	%xmm5, %xmm14
	movdqa	%xmm14, 608(%rsp)
	pmuludq	%xmm5, %xmm2
	pmuludq	%xmm15, %xmm5
	movdqa	240(%rsp), %xmm6
	pmuludq	%xmm11, %xmm6
	paddq	%xmm10, %xmm9
	movd	108(%rsp,%rax,4), %xmm0
	pshufd	$68, %xmm0, %xmm0
	pmuludq	%xmm11, %xmm15
	pmuludq	%xmm0, %xmm11
	pmuludq	%xmm3, %xmm0
	paddq	%xmm0, %xmm15
	paddq	%xmm2, %xmm7
	paddq	%xmm15, %xmm7
	movdqa	%xmm7, 656(%rsp)
	movd	112(%rsp,%rax,4), %xmm0
	pshufd	$68, %xmm0, %xmm0
	pmuludq	%xmm3, %xmm0
	movdqa	%xmm0, 672(%rsp)
	paddq	%xmm11, %xmm5
	paddq	%xmm1, %xmm4
	paddq	%xmm5, %xmm4
	movdqa	%xmm4, 240(%rsp)
	movdqu	(%r9), %xmm0
	movdqu	16(%r9), %xmm1
	movdqa	%xmm0, %xmm2
	punpcklqdq	%xmm1, %xmm2
	punpckhqdq	%xmm1, %xmm0
	movdqa	%xmm2, %xmm14
	movdqa	.Lnoise_CPI5_1(%rip), %xmm13
	pand	%xmm13, %xmm14
	movdqa	%xmm2, %xmm3
	psrlq	$52, %xmm2
	movdqa	%xmm0, %xmm11
	psllq	$12, %xmm11
	por	%xmm2, %xmm11
	pand	%xmm13, %xmm11
	movdqa	%xmm0, %xmm2
	psrlq	$14, %xmm2
	pand	%xmm13, %xmm2
	movdqa	%xmm14, %xmm10
	movdqa	64(%rsp), %xmm5
	pmuludq	%xmm5, %xmm10
	paddq	%xmm6, %xmm10
	movdqa	%xmm11, %xmm6
	movdqa	544(%rsp), %xmm15
	pmuludq	%xmm15, %xmm6
	movdqa	%xmm2, %xmm1
	movdqa	560(%rsp), %xmm7
	pmuludq	%xmm7, %xmm1
	paddq	%xmm6, %xmm1
	psrlq	$26, %xmm3
	pand	%xmm13, %xmm3
	movdqa	%xmm3, %xmm6
	movdqa	80(%rsp), %xmm13
	pmuludq	%xmm13, %xmm6
	paddq	%xmm6, %xmm1
	movdqa	%xmm1, 624(%rsp)
	psrlq	$40, %xmm0
	por	.Lnoise_CPI5_5(%rip), %xmm0
	movdqa	%xmm0, %xmm1
	pmuludq	576(%rsp), %xmm1
	paddq	%xmm10, %xmm1
	paddq	%xmm12, %xmm1
	movdqa	%xmm1, 592(%rsp)
	movdqa	%xmm14, %xmm10
	movdqa	336(%rsp), %xmm1
	pmuludq	%xmm1, %xmm10
	paddq	608(%rsp), %xmm10
	movdqa	%xmm3, %xmm12
	pmuludq	%xmm5, %xmm12
	paddq	%xmm10, %xmm12
	paddq	%xmm8, %xmm12
	movdqa	%xmm2, %xmm8
	pmuludq	%xmm15, %xmm8
	movdqa	%xmm0, %xmm4
	pmuludq	%xmm7, %xmm4
	paddq	%xmm8, %xmm4
	movdqa	%xmm11, %xmm8
	movdqa	%xmm13, %xmm7
	pmuludq	%xmm13, %xmm8
	paddq	%xmm8, %xmm4
	movdqa	%xmm14, %xmm8
	pmuludq	48(%rsp), %xmm8
	paddq	640(%rsp), %xmm8
	movdqa	%xmm11, %xmm13
	pmuludq	%xmm5, %xmm13
	paddq	%xmm8, %xmm13
	paddq	%xmm9, %xmm13
	movdqa	%xmm3, %xmm8
	pmuludq	%xmm1, %xmm8
	movdqa	%xmm0, %xmm9
	pmuludq	%xmm15, %xmm9
	paddq	%xmm8, %xmm9
	movdqa	%xmm2, %xmm8
	pmuludq	%xmm7, %xmm8
	paddq	%xmm8, %xmm9
	movdqa	%xmm14, %xmm8
	movdqa	528(%rsp), %xmm7
	pmuludq	%xmm7, %xmm8
	paddq	688(%rsp), %xmm8
	movdqa	%xmm3, %xmm10
	movdqa	48(%rsp), %xmm6
	pmuludq	%xmm6, %xmm10
	movdqa	%xmm11, %xmm5
	pmuludq	%xmm1, %xmm5
	paddq	%xmm10, %xmm5
	movdqa	%xmm2, %xmm15
	movdqa	64(%rsp), %xmm1
	pmuludq	%xmm1, %xmm15
	paddq	%xmm8, %xmm15
	paddq	656(%rsp), %xmm15
	movdqa	%xmm0, %xmm10
	pmuludq	80(%rsp), %xmm10
	paddq	%xmm5, %xmm10
	pmuludq	512(%rsp), %xmm14
	paddq	672(%rsp), %xmm14
	pmuludq	%xmm6, %xmm11
	pmuludq	336(%rsp), %xmm2
	paddq	%xmm11, %xmm2
	pmuludq	%xmm7, %xmm3
	paddq	%xmm3, %xmm2
	movdqu	32(%r9), %xmm3
	pmuludq	%xmm1, %xmm0
	paddq	%xmm14, %xmm0
	movdqu	48(%r9), %xmm1
	paddq	240(%rsp), %xmm0
	movdqa	%xmm3, %xmm5
	punpcklqdq	%xmm1, %xmm5
	punpckhqdq	%xmm1, %xmm3
	movdqa	%xmm5, %xmm1
	movdqa	.Lnoise_CPI5_1(%rip), %xmm6
	pand	%xmm6, %xmm1
	paddq	624(%rsp), %xmm1
	paddq	592(%rsp), %xmm1
	movdqa	%xmm5, %xmm8
	psrlq	$26, %xmm8
	pand	%xmm6, %xmm8
	paddq	%xmm4, %xmm8
	paddq	%xmm12, %xmm8
	psrlq	$52, %xmm5
	movdqa	%xmm3, %xmm7
	psllq	$12, %xmm7
	por	%xmm5, %xmm7
	pand	%xmm6, %xmm7
	paddq	%xmm9, %xmm7
	paddq	%xmm13, %xmm7
	movdqa	%xmm3, %xmm4
	psrlq	$14, %xmm4
	pand	%xmm6, %xmm4
	paddq	%xmm10, %xmm4
	paddq	%xmm15, %xmm4
	psrlq	$40, %xmm3
	paddq	%xmm2, %xmm3
	paddq	.Lnoise_CPI5_5(%rip), %xmm3
	paddq	%xmm0, %xmm3
	addq	$64, %r9
	addq	$-128, %rdx
	cmpq	$63, %rdx
	ja	.Lnoise_BB5_1
	movdqa	%xmm1, %xmm6
	psrlq	$26, %xmm6
	paddq	%xmm8, %xmm6
	movdqa	%xmm4, %xmm5
	psrlq	$26, %xmm5
	paddq	%xmm3, %xmm5
	movdqa	%xmm6, %xmm2
	psrlq	$26, %xmm2
	paddq	%xmm7, %xmm2
	movdqa	.Lnoise_CPI5_1(%rip), %xmm12
	pand	%xmm12, %xmm1
	movdqa	%xmm5, %xmm3
	psrlq	$26, %xmm3
	paddq	%xmm3, %xmm1
	psllq	$2, %xmm3
	paddq	%xmm1, %xmm3
	pand	%xmm12, %xmm4
	movdqa	%xmm2, %xmm0
	psrlq	$26, %xmm0
	paddq	%xmm4, %xmm0
	pand	%xmm12, %xmm6
	movdqa	%xmm3, %xmm4
	psrlq	$26, %xmm3
	paddd	%xmm6, %xmm3
	pand	%xmm12, %xmm5
	movdqa	%xmm0, %xmm1
	psrlq	$26, %xmm0
	paddd	%xmm5, %xmm0
	movss	304(%rsp), %xmm5
	movaps	432(%rsp), %xmm10
	shufps	$48, %xmm10, %xmm5
	shufps	$132, %xmm5, %xmm10
	movss	312(%rsp), %xmm5
	movaps	400(%rsp), %xmm13
	shufps	$48, %xmm13, %xmm5
	shufps	$132, %xmm5, %xmm13
	pand	%xmm12, %xmm4
	pand	%xmm12, %xmm2
	movaps	496(%rsp), %xmm5
	movaps	368(%rsp), %xmm15
	movlhps	%xmm5, %xmm15
	movaps	384(%rsp), %xmm14
	shufps	$212, %xmm5, %xmm14
	movd	44(%rsp), %xmm5
	movdqa	352(%rsp), %xmm12
	punpcklqdq	%xmm5, %xmm12
	movd	288(%rsp), %xmm5
	movdqa	464(%rsp), %xmm8
	punpcklqdq	%xmm5, %xmm8
	movss	320(%rsp), %xmm5
	movaps	448(%rsp), %xmm9
	shufps	$48, %xmm9, %xmm5
	shufps	$132, %xmm5, %xmm9
	movss	296(%rsp), %xmm5
	movaps	416(%rsp), %xmm11
	shufps	$48, %xmm11, %xmm5
	shufps	$132, %xmm5, %xmm11
	movss	328(%rsp), %xmm5
	movaps	480(%rsp), %xmm7
	shufps	$48, %xmm7, %xmm5
	shufps	$132, %xmm5, %xmm7
	movdqa	%xmm4, %xmm5
	pmuludq	%xmm10, %xmm5
	movdqa	%xmm2, %xmm6
	pmuludq	%xmm11, %xmm6
	paddq	%xmm5, %xmm6
	pand	.Lnoise_CPI5_1(%rip), %xmm1
	movdqa	%xmm1, %xmm5
	pmuludq	%xmm9, %xmm5
	paddq	%xmm6, %xmm5
	movdqa	%xmm3, %xmm6
	pmuludq	%xmm7, %xmm6
	paddq	%xmm6, %xmm5
	pmuludq	%xmm0, %xmm8
	paddq	%xmm5, %xmm8
	movdqa	%xmm4, %xmm5
	pmuludq	%xmm15, %xmm5
	movdqa	%xmm2, %xmm6
	pmuludq	%xmm7, %xmm6
	paddq	%xmm5, %xmm6
	movdqa	%xmm1, %xmm5
	pmuludq	%xmm11, %xmm5
	paddq	%xmm6, %xmm5
	movdqa	%xmm3, %xmm6
	pmuludq	%xmm10, %xmm6
	paddq	%xmm6, %xmm5
	pmuludq	%xmm0, %xmm9
	paddq	%xmm5, %xmm9
	movdqa	%xmm9, %xmm5
	punpcklqdq	%xmm8, %xmm5
	punpckhqdq	%xmm8, %xmm9
	movdqa	%xmm4, %xmm6
	paddq	%xmm5, %xmm9
	movdqa	%xmm2, %xmm5
	pmuludq	%xmm13, %xmm6
	pmuludq	%xmm10, %xmm5
	paddq	%xmm6, %xmm5
	movdqa	%xmm1, %xmm6
	pmuludq	%xmm7, %xmm6
	paddq	%xmm5, %xmm6
	movdqa	%xmm3, %xmm5
	pmuludq	%xmm15, %xmm5
	paddq	%xmm5, %xmm6
	pmuludq	%xmm0, %xmm11
	paddq	%xmm6, %xmm11
	pshufd	$238, %xmm11, %xmm5
	paddq	%xmm11, %xmm5
	movq	%xmm5, %rax
	andps	.Lnoise_CPI5_1(%rip), %xmm14
	pmuludq	%xmm4, %xmm12
	pmuludq	%xmm14, %xmm4
	pmuludq	%xmm3, %xmm14
	pmuludq	%xmm13, %xmm3
	pmuludq	%xmm2, %xmm13
	pmuludq	%xmm15, %xmm2
	paddq	%xmm4, %xmm2
	pmuludq	%xmm1, %xmm15
	pmuludq	%xmm10, %xmm1
	paddq	%xmm2, %xmm1
	paddq	%xmm3, %xmm1
	pmuludq	%xmm0, %xmm7
	paddq	%xmm1, %xmm7
	paddq	%xmm12, %xmm13
	paddq	%xmm13, %xmm15
	paddq	%xmm14, %xmm15
	pmuludq	%xmm0, %xmm10
	paddq	%xmm15, %xmm10
	movdqa	%xmm10, %xmm0
	punpcklqdq	%xmm7, %xmm0
	punpckhqdq	%xmm7, %xmm10
	paddq	%xmm0, %xmm10
	pshufd	$238, %xmm9, %xmm0
	movq	%xmm0, %rdx
	pshufd	$238, %xmm10, %xmm0
	movq	%xmm0, %r10
	movq	%xmm9, %rcx
	movq	%xmm10, %r11
	movl	%edx, %esi
	andl	$67108863, %esi
	shrq	$26, %rdx
	movl	%r10d, %edi
	andl	$67108863, %edi
	shrq	$26, %r10
	addq	%rdx, %rcx
	movl	%ecx, %ebx
	andl	$67108863, %ebx
	shrq	$26, %rcx
	addq	%rax, %rcx
	addq	%r10, %r11
	movl	%r11d, %r10d
	andl	$67108863, %r10d
	shrq	$26, %r11
	movq	%rcx, %rax
	shrq	$26, %rax
	addq	%rdi, %rax
	leaq	(%r11,%r11,4), %r11
	addq	%rsi, %r11
	movq	%r11, %rdx
	shrq	$26, %rdx
	movq	%rax, %r13
	shrq	$26, %r13
	addl	%ebx, %edx
	addl	%r10d, %r13d
	andl	$67108863, %r11d
	shlq	$26, %rdx
	movl	%ecx, %r10d
	andl	$67104768, %r10d
	shrl	$12, %r10d
	shlq	$52, %rcx
	orq	%r11, %rcx
	andl	$67108863, %eax
	shlq	$14, %rax
	addq	%rdx, %rcx
	adcq	%r10, %rax
	movq	%r13, %r10
	shlq	$40, %r10
	shrl	$24, %r13d
	movq	%r10, %rdx
	addq	%rax, %rdx
	adcq	$0, %r13
	movl	%r13d, %r11d
	shrl	$2, %r11d
	leaq	(%r11,%r11,4), %r11
	movq	%r11, %rsi
	addq	%rcx, %rsi
	adcq	%rax, %r10
	andl	$3, %r13d
	addq	%r11, %rcx
	adcq	$0, %rdx
	adcq	$0, %r13
	movq	%rcx, (%r15)
	movq	%r10, 8(%r15)
	movq	%r13, 16(%r15)
	movq	$0, 24(%r15)
	leaq	-64(%r8), %rdi
	cmpq	$80, %r8
	jae	.Lnoise_BB5_4
	movq	%rcx, %r8
	jmp	.Lnoise_BB5_6
.Lnoise_BB5_4:
	movq	264(%rsp), %r12
	movq	%r12, %rbp
	shrq	$2, %rbp
	addq	%r12, %rbp
	movq	272(%rsp), %rsi
	.p2align	4
.Lnoise_BB5_5:
	addq	(%r9), %rcx
	adcq	8(%r9), %r10
	adcq	$1, %r13
	movq	%rcx, %rax
	mulq	%rsi
	movq	%rdx, %rbx
	movq	%rax, %r14
	movq	%r10, %rax
	mulq	%rbp
	movq	%rdx, %r11
	movq	%rax, %r8
	addq	%r14, %r8
	adcq	%rbx, %r11
	movq	%rcx, %rax
	mulq	%r12
	movq	%rdx, %rcx
	movq	%rax, %rbx
	movq	%r10, %rax
	mulq	%rsi
	addq	%rbx, %rax
	adcq	%rcx, %rdx
	movq	%r13, %r10
	imulq	%rbp, %r10
	addq	%rax, %r10
	adcq	$0, %rdx
	imulq	%rsi, %r13
	movq	%r10, %rax
	addq	%r11, %rax
	adcq	%rdx, %r13
	movq	%r13, %rcx
	shrq	$2, %rcx
	leaq	(%rcx,%rcx,4), %rcx
	movq	%rcx, %rdx
	addq	%r8, %rdx
	adcq	%r11, %r10
	andl	$3, %r13d
	addq	%rcx, %r8
	adcq	$0, %rax
	adcq	$0, %r13
	addq	$16, %r9
	addq	$-16, %rdi
	movq	%r8, %rcx
	cmpq	$15, %rdi
	ja	.Lnoise_BB5_5
.Lnoise_BB5_6:
	movq	%r8, (%r15)
	movq	%r10, 8(%r15)
	movq	%r13, 16(%r15)
	movq	$0, 24(%r15)
	movq	80(%r15), %rbx
	leaq	(%r15,%rbx), %rcx
	addq	$64, %rcx
	movq	%rcx, %rax
	subq	%r9, %rax
	cmpq	%rdi, %rax
	jae	.Lnoise_BB5_9
	cmpq	$4, %rdi
	jb	.Lnoise_BB5_8
	leaq	(%rbx,%r15), %rax
	subq	%r9, %rax
	addq	$64, %rax
	cmpq	$32, %rax
	jae	.Lnoise_BB5_12
.Lnoise_BB5_8:
	xorl	%eax, %eax
.Lnoise_BB5_21:
	movq	%rdi, %r8
	movq	%rax, %rdx
	andq	$3, %r8
	je	.Lnoise_BB5_24
	movq	%rax, %rdx
	.p2align	4
.Lnoise_BB5_23:
	movzbl	(%r9,%rdx), %r10d
	movb	%r10b, (%rcx,%rdx)
	incq	%rdx
	decq	%r8
	jne	.Lnoise_BB5_23
.Lnoise_BB5_24:
	subq	%rdi, %rax
	cmpq	$-4, %rax
	ja	.Lnoise_BB5_27
	leaq	(%rbx,%r15), %rax
	addq	$67, %rax
	.p2align	4
.Lnoise_BB5_26:
	movzbl	(%r9,%rdx), %ecx
	movb	%cl, -3(%rax,%rdx)
	movzbl	1(%r9,%rdx), %ecx
	movb	%cl, -2(%rax,%rdx)
	movzbl	2(%r9,%rdx), %ecx
	movb	%cl, -1(%rax,%rdx)
	movzbl	3(%r9,%rdx), %ecx
	movb	%cl, (%rax,%rdx)
	addq	$4, %rdx
	cmpq	%rdx, %rdi
	jne	.Lnoise_BB5_26
	jmp	.Lnoise_BB5_27
.Lnoise_BB5_9:
	movq	%r9, %rdx
	movq	%rdi, %r8
	callq	memmove
.Lnoise_BB5_27:
	addq	%rdi, %rbx
	movq	%rbx, 80(%r15)
	movaps	704(%rsp), %xmm6
	movaps	720(%rsp), %xmm7
	movaps	736(%rsp), %xmm8
	movaps	752(%rsp), %xmm9
	movaps	768(%rsp), %xmm10
	movaps	784(%rsp), %xmm11
	movaps	800(%rsp), %xmm12
	movaps	816(%rsp), %xmm13
	movaps	832(%rsp), %xmm14
	movaps	848(%rsp), %xmm15
	addq	$872, %rsp
	popq	%rbx
	popq	%rbp
	popq	%rdi
	popq	%rsi
	popq	%r12
	popq	%r13
	popq	%r14
	popq	%r15
	retq
.Lnoise_BB5_12:
	cmpq	$32, %rdi
	jae	.Lnoise_BB5_14
	xorl	%eax, %eax
	jmp	.Lnoise_BB5_18
.Lnoise_BB5_14:
	movl	%edi, %eax
	andl	$32, %eax
	leaq	(%rbx,%r15), %rdx
	addq	$80, %rdx
	xorl	%r8d, %r8d
	.p2align	4
.Lnoise_BB5_15:
	movdqu	(%r9,%r8), %xmm0
	movdqu	16(%r9,%r8), %xmm1
	movdqu	%xmm0, -16(%rdx,%r8)
	movdqu	%xmm1, (%rdx,%r8)
	addq	$32, %r8
	cmpq	%r8, %rax
	jne	.Lnoise_BB5_15
	cmpq	%rax, %rdi
	je	.Lnoise_BB5_27
	testb	$28, %dil
	je	.Lnoise_BB5_21
.Lnoise_BB5_18:
	movq	%rax, %rdx
	movl	%edi, %eax
	andl	$60, %eax
	.p2align	4
.Lnoise_BB5_19:
	movl	(%r9,%rdx), %r8d
	movl	%r8d, (%rcx,%rdx)
	addq	$4, %rdx
	cmpq	%rdx, %rax
	jne	.Lnoise_BB5_19
	cmpq	%rax, %rdi
	je	.Lnoise_BB5_27
	jmp	.Lnoise_BB5_21
	.seh_endproc

	.def	"noise_poly::Poly1305::take_eights";
	.scl	3;
	.type	32;
	.endef
	.section	.rdata,"dr"
	.p2align	4, 0x0
.Lnoise_CPI6_0:
	.quad	16777216
	.quad	16777216
.Lnoise_CPI6_1:
	.quad	67108863
	.quad	67108863
	.text
	.p2align	4
"noise_poly::Poly1305::take_eights":
.seh_proc "noise_poly::Poly1305::take_eights"
	pushq	%r15
	.seh_pushreg %r15
	pushq	%r14
	.seh_pushreg %r14
	pushq	%r13
	.seh_pushreg %r13
	pushq	%r12
	.seh_pushreg %r12
	pushq	%rsi
	.seh_pushreg %rsi
	pushq	%rdi
	.seh_pushreg %rdi
	pushq	%rbp
	.seh_pushreg %rbp
	pushq	%rbx
	.seh_pushreg %rbx
	subq	$808, %rsp
	.seh_stackalloc 808
	movaps	%xmm15, 784(%rsp)
	.seh_savexmm %xmm15, 784
	movaps	%xmm14, 768(%rsp)
	.seh_savexmm %xmm14, 768
	movaps	%xmm13, 752(%rsp)
	.seh_savexmm %xmm13, 752
	movaps	%xmm12, 736(%rsp)
	.seh_savexmm %xmm12, 736
	movaps	%xmm11, 720(%rsp)
	.seh_savexmm %xmm11, 720
	movaps	%xmm10, 704(%rsp)
	.seh_savexmm %xmm10, 704
	movaps	%xmm9, 688(%rsp)
	.seh_savexmm %xmm9, 688
	movaps	%xmm8, 672(%rsp)
	.seh_savexmm %xmm8, 672
	movaps	%xmm7, 656(%rsp)
	.seh_savexmm %xmm7, 656
	movaps	%xmm6, 640(%rsp)
	.seh_savexmm %xmm6, 640
	.seh_endprologue
	movq	%r8, %rsi
	movq	%rdx, %r8
	movq	40(%rcx), %rdx
	movq	32(%rcx), %r9
	movl	%r9d, %ebx
	andl	$67108863, %ebx
	movq	%r9, %r14
	shrq	$26, %r14
	andl	$67108863, %r14d
	movl	%edx, %eax
	shll	$12, %eax
	movq	%r9, 344(%rsp)
	movq	%r9, %r15
	shrq	$52, %r15
	orl	%eax, %r15d
	andl	$67108863, %r15d
	movq	%rdx, %r12
	shrq	$14, %r12
	andl	$67108863, %r12d
	movq	%rdx, 352(%rsp)
	movq	%rdx, %r13
	shrq	$40, %r13
	leaq	(,%r13,4), %r10
	addq	%r13, %r10
	movdqu	(%r8), %xmm4
	movdqu	16(%r8), %xmm0
	movdqa	%xmm4, %xmm5
	punpckhqdq	%xmm0, %xmm5
	movdqa	%xmm5, %xmm7
	psrlq	$40, %xmm7
	por	.Lnoise_CPI6_0(%rip), %xmm7
	movl	16(%rcx), %edx
	shll	$24, %edx
	movq	(%rcx), %rax
	movq	%rcx, 360(%rsp)
	movq	8(%rcx), %rcx
	movq	%rcx, %r9
	shrq	$40, %r9
	orq	%rdx, %r9
	movq	%xmm7, %rdx
	addq	%r9, %rdx
	movq	%rdx, %xmm15
	movdqa	%xmm5, %xmm8
	psrlq	$14, %xmm8
	movdqa	.Lnoise_CPI6_1(%rip), %xmm2
	pand	%xmm2, %xmm8
	movq	%xmm8, %rdx
	movq	%rcx, %r9
	shrq	$14, %r9
	andl	$67108863, %r9d
	addl	%r9d, %edx
	movd	%edx, %xmm12
	punpcklqdq	%xmm0, %xmm4
	movdqa	%xmm4, %xmm0
	psrlq	$52, %xmm0
	psllq	$12, %xmm5
	por	%xmm0, %xmm5
	pand	%xmm2, %xmm5
	shldq	$12, %rax, %rcx
	movq	%xmm5, %rdx
	andl	$67108863, %ecx
	addl	%ecx, %edx
	movd	%edx, %xmm10
	movdqa	%xmm4, %xmm6
	psrlq	$26, %xmm6
	pand	%xmm2, %xmm6
	movq	%xmm6, %rcx
	movq	%rax, %rdx
	shrq	$26, %rdx
	andl	$67108863, %edx
	addl	%edx, %ecx
	movd	%ecx, %xmm11
	pand	%xmm2, %xmm4
	movq	%xmm4, %rcx
	andl	$67108863, %eax
	addl	%eax, %ecx
	movd	%ecx, %xmm0
	movq	%r14, %rax
	imulq	%r15, %rax
	movq	%rbx, %rcx
	imulq	%r12, %rcx
	addq	%rax, %rcx
	movq	%r10, %rax
	imulq	%r13, %rax
	leaq	(%rax,%rcx,2), %rdi
	movq	%rdi, %rax
	shrq	$26, %rax
	movq	%r15, %rcx
	imulq	%r15, %rcx
	addq	%rax, %rcx
	movq	%r14, %rax
	imulq	%r12, %rax
	movq	%rbx, %rdx
	imulq	%r13, %rdx
	addq	%rax, %rdx
	leaq	(%rcx,%rdx,2), %rax
	movq	%r14, %rcx
	imulq	%r14, %rcx
	movq	%r10, %r9
	imulq	%r12, %r9
	addq	%rcx, %r9
	leal	(%rbx,%rbx), %ecx
	movq	%rcx, %rdx
	imulq	%r15, %rdx
	addq	%rdx, %r9
	leal	(%r12,%r12,4), %ebp
	movq	%rbp, %rdx
	imulq	%r13, %rdx
	addq	%r9, %rdx
	imulq	%r14, %rcx
	movq	%r10, %r9
	imulq	%r15, %r9
	addq	%rcx, %r9
	movq	%rbp, %rcx
	imulq	%r12, %rcx
	addq	%r9, %rcx
	leal	(%r15,%r15,4), %r11d
	movq	%r11, %r10
	imulq	%r13, %r10
	addq	%rcx, %r10
	leaq	(,%r13,4), %rcx
	addq	%r13, %rcx
	imulq	%r14, %rcx
	movq	%rbx, 40(%rsp)
	imulq	%rbx, %rbx
	addq	%rcx, %rbx
	movq	%rbp, 128(%rsp)
	movq	%rbp, %rcx
	movq	%r15, 88(%rsp)
	imulq	%r15, %rcx
	addq	%rbx, %rcx
	movq	%r11, 72(%rsp)
	movq	%r12, 136(%rsp)
	imulq	%r12, %r11
	addq	%rcx, %r11
	movq	%r14, 32(%rsp)
	leal	(%r14,%r14,4), %r9d
	movq	%r9, 80(%rsp)
	movq	%r13, 104(%rsp)
	imulq	%r13, %r9
	addq	%r11, %r9
	movq	%r9, %rcx
	shrq	$26, %rcx
	addq	%r10, %rcx
	movq	%rcx, %r10
	shrq	$26, %r10
	addq	%rdx, %r10
	movq	%r10, %rdx
	shrq	$26, %rdx
	andl	$67108863, %edi
	addq	%rdx, %rdi
	movl	%eax, %r11d
	andl	$67108863, %r11d
	movq	%rdi, %rdx
	shrq	$26, %rdx
	addl	%r11d, %edx
	shrq	$26, %rax
	leaq	(%rax,%rax,4), %rax
	andl	$67108863, %r9d
	addq	%rax, %r9
	andl	$67108863, %ecx
	movq	%r9, %rax
	shrq	$26, %rax
	addl	%ecx, %eax
	andl	$67108863, %r10d
	movq	%r10, %rcx
	imulq	%rax, %rcx
	andl	$67108863, %edi
	andl	$67108863, %r9d
	movq	%rdi, %rbx
	imulq	%r9, %rbx
	addq	%rcx, %rbx
	leal	(%rdx,%rdx,4), %r11d
	movq	%r11, %rcx
	imulq	%rdx, %rcx
	leaq	(%rcx,%rbx,2), %r13
	movq	%r13, %rcx
	shrq	$26, %rcx
	movq	%r10, %rbx
	imulq	%r10, %rbx
	addq	%rcx, %rbx
	movq	%r9, %rcx
	imulq	%rdx, %rcx
	movq	%rdi, %r14
	imulq	%rax, %r14
	addq	%rcx, %r14
	leaq	(%rbx,%r14,2), %r14
	movq	%rax, %rcx
	imulq	%rax, %rcx
	leal	(%r10,%r10), %r15d
	imulq	%r9, %r15
	addq	%rcx, %r15
	leaq	(%rdi,%rdi,4), %rbx
	movq	%rbx, %r12
	imulq	%rdx, %r12
	addq	%r15, %r12
	movq	%rdi, %rcx
	imulq	%r11, %rcx
	addq	%r12, %rcx
	leal	(%r9,%r9), %r15d
	imulq	%rax, %r15
	movq	%rbx, %r12
	imulq	%rdi, %r12
	addq	%r12, %r15
	leaq	(%r10,%r10,4), %r12
	imulq	%r12, %rdi
	imulq	%rdx, %r12
	addq	%r15, %r12
	imulq	%r10, %rbx
	imulq	%r11, %r10
	addq	%r12, %r10
	imulq	%r9, %r9
	addq	%rdi, %r9
	addq	%rbx, %r9
	imulq	%rax, %r11
	leal	(%rax,%rax,4), %eax
	imulq	%rdx, %rax
	addq	%r9, %rax
	addq	%rax, %r11
	movq	%r11, %rax
	shrq	$26, %rax
	addq	%r10, %rax
	movq	%rax, %rdi
	shrq	$26, %rdi
	addq	%rcx, %rdi
	movq	%rdi, %rcx
	shrq	$26, %rcx
	movq	%r13, %rdx
	andl	$67108863, %edx
	addq	%rcx, %rdx
	movl	%r14d, %ecx
	andl	$67108863, %ecx
	movq	%rdx, %r13
	movq	%rdx, %r12
	shrq	$26, %r13
	addl	%ecx, %r13d
	shrq	$26, %r14
	leaq	(%r14,%r14,4), %rcx
	andl	$67108863, %r11d
	addq	%rcx, %r11
	andl	$67108863, %eax
	movq	%r11, %r15
	shrq	$26, %r15
	addl	%eax, %r15d
	andl	$67108863, %edi
	movq	%rdi, %rax
	imulq	%r15, %rax
	andl	$67108863, %r12d
	andl	$67108863, %r11d
	movq	%r12, %rcx
	imulq	%r11, %rcx
	addq	%rax, %rcx
	leal	(%r13,%r13,4), %r9d
	movq	%r9, %rax
	movq	%r9, %rbp
	imulq	%r13, %rax
	leaq	(%rax,%rcx,2), %rdx
	movq	%rdx, %rax
	shrq	$26, %rax
	movq	%rdi, %r9
	imulq	%rdi, %r9
	addq	%rax, %r9
	movq	%r11, %rax
	imulq	%r13, %rax
	movq	%r12, %r10
	imulq	%r15, %r10
	addq	%rax, %r10
	leaq	(%r9,%r10,2), %rax
	movq	%rax, 112(%rsp)
	leal	(%r11,%r11), %r9d
	movq	%r9, %r10
	imulq	%rdi, %r10
	movq	%r15, %rbx
	imulq	%r15, %rbx
	addq	%rbx, %r10
	movq	%r12, %rcx
	leaq	(%r12,%r12,4), %r12
	movq	%r12, %rbx
	imulq	%r13, %rbx
	addq	%r10, %rbx
	movq	%rcx, %r14
	imulq	%rbp, %r14
	addq	%rbx, %r14
	imulq	%rcx, %r12
	imulq	%r15, %r9
	addq	%r12, %r9
	leaq	(%rdi,%rdi,4), %rbx
	movq	%rbx, %r10
	imulq	%r13, %r10
	addq	%r9, %r10
	movq	%rdi, %r12
	imulq	%rbp, %r12
	movq	%rbp, %rax
	movq	%rbp, 48(%rsp)
	addq	%r10, %r12
	movq	%rcx, %r9
	imulq	%rbx, %r9
	movq	%r11, %r10
	imulq	%r11, %r10
	addq	%r9, %r10
	leaq	(%rcx,%rcx,4), %rbx
	imulq	%rdi, %rbx
	addq	%r10, %rbx
	leal	(%r15,%r15,4), %r9d
	movq	%r13, %rbp
	imulq	%r9, %rbp
	addq	%rbx, %rbp
	movq	%rax, %r10
	imulq	%r15, %r10
	addq	%rbp, %r10
	movq	%r10, %rbx
	shrq	$26, %rbx
	addq	%r12, %rbx
	movq	%rbx, %r12
	shrq	$26, %r12
	addq	%r14, %r12
	movq	%r12, %r14
	shrq	$26, %r14
	andl	$67108863, %edx
	addq	%r14, %rdx
	movq	112(%rsp), %rax
	movl	%eax, %ebp
	andl	$67108863, %ebp
	movq	%rdx, %r14
	shrq	$26, %r14
	addl	%ebp, %r14d
	shrq	$26, %rax
	leaq	(%rax,%rax,4), %rax
	andl	$67108863, %r10d
	addq	%rax, %r10
	andl	$67108863, %ebx
	movq	%r10, %rax
	shrq	$26, %rax
	addl	%ebx, %eax
	andl	$67108863, %r10d
	movd	%r10d, %xmm3
	movdqu	32(%r8), %xmm1
	movdqu	48(%r8), %xmm13
	movdqa	%xmm1, %xmm2
	punpckhqdq	%xmm13, %xmm2
	shufps	$228, %xmm7, %xmm15
	movdqa	%xmm2, %xmm9
	shufps	$228, %xmm8, %xmm12
	movdqa	%xmm2, %xmm14
	punpcklqdq	%xmm13, %xmm1
	movdqa	%xmm1, %xmm7
	psrlq	$52, %xmm7
	psllq	$12, %xmm2
	por	%xmm7, %xmm2
	leal	(%r14,%r14,4), %r10d
	movd	%r10d, %xmm8
	shufps	$228, %xmm5, %xmm10
	andl	$67108863, %edx
	leaq	(%rdx,%rdx,4), %r10
	movd	%r10d, %xmm5
	shufps	$228, %xmm6, %xmm11
	andl	$67108863, %r12d
	leaq	(%r12,%r12,4), %r10
	movd	%r10d, %xmm6
	psrlq	$40, %xmm9
	por	.Lnoise_CPI6_0(%rip), %xmm9
	psrlq	$14, %xmm14
	movdqa	.Lnoise_CPI6_1(%rip), %xmm13
	pand	%xmm13, %xmm14
	pand	%xmm13, %xmm2
	shufps	$228, %xmm4, %xmm0
	movaps	%xmm12, %xmm4
	movdqa	%xmm1, %xmm7
	psrlq	$26, %xmm7
	pand	%xmm13, %xmm7
	pand	%xmm13, %xmm1
	movdqa	%xmm1, %xmm13
	addq	$-64, %rsi
	addq	$64, %r8
	pshufd	$68, %xmm3, %xmm3
	movdqa	%xmm3, 320(%rsp)
	pshufd	$68, %xmm8, %xmm3
	movdqa	%xmm3, 304(%rsp)
	pshufd	$68, %xmm5, %xmm3
	movdqa	%xmm3, 576(%rsp)
	pshufd	$68, %xmm6, %xmm3
	movdqa	%xmm3, 560(%rsp)
	leal	(%rax,%rax,4), %r10d
	movd	%r10d, %xmm3
	pshufd	$68, %xmm3, %xmm3
	movdqa	%xmm3, 544(%rsp)
	movd	%eax, %xmm3
	pshufd	$68, %xmm3, %xmm3
	movdqa	%xmm3, 288(%rsp)
	movq	%r12, %xmm3
	pshufd	$68, %xmm3, %xmm3
	movdqa	%xmm3, 528(%rsp)
	movq	%rdx, %xmm3
	pshufd	$68, %xmm3, %xmm3
	movdqa	%xmm3, 512(%rsp)
	movd	%r14d, %xmm3
	pshufd	$68, %xmm3, %xmm3
	movdqa	%xmm3, 496(%rsp)
	movq	%r11, %xmm3
	pshufd	$68, %xmm3, %xmm3
	movdqa	%xmm3, 400(%rsp)
	movq	48(%rsp), %xmm3
	pshufd	$68, %xmm3, %xmm3
	movdqa	%xmm3, 384(%rsp)
	leaq	(%rcx,%rcx,4), %rax
	movq	%rax, %xmm3
	pshufd	$68, %xmm3, %xmm3
	movdqa	%xmm3, 272(%rsp)
	leaq	(%rdi,%rdi,4), %rax
	movq	%rax, %xmm3
	pshufd	$68, %xmm3, %xmm3
	movdqa	%xmm3, 368(%rsp)
	movq	%r9, %xmm3
	pshufd	$68, %xmm3, %xmm3
	movdqa	%xmm3, 480(%rsp)
	movq	%r15, %xmm3
	pshufd	$68, %xmm3, %xmm3
	movdqa	%xmm3, 464(%rsp)
	movq	%rdi, %xmm3
	pshufd	$68, %xmm3, %xmm3
	movdqa	%xmm3, 448(%rsp)
	movq	%rcx, %xmm3
	pshufd	$68, %xmm3, %xmm3
	movdqa	%xmm3, 432(%rsp)
	movq	%r13, %xmm3
	pshufd	$68, %xmm3, %xmm3
	movdqa	%xmm3, 416(%rsp)
	.p2align	4
.Lnoise_BB6_1:
	movdqa	%xmm13, %xmm3
	psrlq	$26, %xmm3
	paddq	%xmm7, %xmm3
	movaps	%xmm0, %xmm5
	psrlq	$26, %xmm5
	paddq	%xmm11, %xmm5
	movaps	%xmm4, %xmm1
	psrlq	$26, %xmm4
	paddq	%xmm15, %xmm4
	movdqa	%xmm14, %xmm6
	psrlq	$26, %xmm6
	paddq	%xmm9, %xmm6
	movdqa	%xmm3, %xmm7
	psrlq	$26, %xmm7
	paddq	%xmm2, %xmm7
	movdqa	%xmm5, %xmm8
	psrlq	$26, %xmm8
	paddq	%xmm10, %xmm8
	movaps	.Lnoise_CPI6_1(%rip), %xmm11
	andps	%xmm11, %xmm0
	pand	%xmm11, %xmm13
	movdqa	%xmm4, %xmm2
	psrlq	$26, %xmm2
	movdqa	%xmm6, %xmm10
	psrlq	$26, %xmm10
	movdqa	%xmm10, %xmm9
	psllq	$2, %xmm9
	movdqa	%xmm2, %xmm12
	psllq	$2, %xmm12
	paddq	%xmm2, %xmm12
	paddq	%xmm0, %xmm12
	paddq	%xmm10, %xmm9
	paddq	%xmm13, %xmm9
	pand	%xmm11, %xmm14
	andps	%xmm11, %xmm1
	movdqa	%xmm7, %xmm10
	psrlq	$26, %xmm10
	paddq	%xmm14, %xmm10
	movdqa	%xmm8, %xmm14
	psrlq	$26, %xmm14
	paddq	%xmm1, %xmm14
	movdqa	%xmm9, %xmm0
	pand	%xmm11, %xmm0
	movdqa	%xmm0, %xmm15
	movdqa	%xmm0, 48(%rsp)
	movdqa	%xmm12, %xmm0
	pand	%xmm11, %xmm0
	movdqa	%xmm0, %xmm1
	pand	%xmm11, %xmm5
	pand	%xmm11, %xmm3
	psrlq	$26, %xmm12
	paddq	%xmm5, %xmm12
	psrlq	$26, %xmm9
	paddq	%xmm3, %xmm9
	pand	%xmm11, %xmm8
	pand	%xmm11, %xmm7
	movdqa	%xmm10, %xmm0
	pand	%xmm11, %xmm0
	movdqa	%xmm0, %xmm13
	movdqa	%xmm0, 144(%rsp)
	movdqa	%xmm14, %xmm0
	pand	%xmm11, %xmm0
	movdqa	%xmm0, 112(%rsp)
	pand	%xmm11, %xmm6
	pand	%xmm11, %xmm4
	psrlq	$26, %xmm10
	paddq	%xmm6, %xmm10
	psrlq	$26, %xmm14
	paddq	%xmm4, %xmm14
	movdqa	%xmm1, %xmm2
	movdqa	%xmm1, %xmm11
	movdqa	%xmm1, 160(%rsp)
	movdqa	320(%rsp), %xmm1
	pmuludq	%xmm1, %xmm2
	movdqa	%xmm15, %xmm3
	pmuludq	%xmm1, %xmm3
	movdqa	%xmm12, %xmm4
	movdqa	304(%rsp), %xmm1
	pmuludq	%xmm1, %xmm4
	movdqa	%xmm9, %xmm5
	pmuludq	%xmm1, %xmm5
	movdqa	%xmm7, %xmm6
	movdqa	576(%rsp), %xmm15
	pmuludq	%xmm15, %xmm6
	paddq	%xmm3, %xmm6
	paddq	%xmm5, %xmm6
	movdqa	%xmm8, %xmm3
	pmuludq	%xmm15, %xmm3
	paddq	%xmm2, %xmm3
	paddq	%xmm4, %xmm3
	movdqa	%xmm0, %xmm2
	movdqa	560(%rsp), %xmm1
	pmuludq	%xmm1, %xmm2
	movdqa	%xmm13, %xmm4
	pmuludq	%xmm1, %xmm4
	movdqa	%xmm10, %xmm13
	movdqa	544(%rsp), %xmm5
	pmuludq	%xmm5, %xmm13
	paddq	%xmm4, %xmm13
	paddq	%xmm6, %xmm13
	movdqa	%xmm13, 208(%rsp)
	movdqa	%xmm14, %xmm4
	pmuludq	%xmm5, %xmm4
	paddq	%xmm2, %xmm4
	paddq	%xmm3, %xmm4
	movdqa	%xmm4, 256(%rsp)
	movdqa	288(%rsp), %xmm0
	pmuludq	%xmm0, %xmm11
	movdqa	48(%rsp), %xmm13
	movdqa	%xmm13, %xmm3
	pmuludq	%xmm0, %xmm3
	movdqa	%xmm12, %xmm4
	movdqa	320(%rsp), %xmm6
	pmuludq	%xmm6, %xmm4
	movdqa	%xmm7, %xmm5
	movdqa	304(%rsp), %xmm0
	pmuludq	%xmm0, %xmm5
	paddq	%xmm3, %xmm5
	movdqa	%xmm9, %xmm3
	pmuludq	%xmm6, %xmm3
	paddq	%xmm3, %xmm5
	movdqa	%xmm8, %xmm3
	pmuludq	%xmm0, %xmm3
	paddq	%xmm11, %xmm3
	paddq	%xmm4, %xmm3
	movdqa	144(%rsp), %xmm2
	pmuludq	%xmm15, %xmm2
	movdqa	%xmm10, %xmm4
	pmuludq	%xmm1, %xmm4
	paddq	%xmm2, %xmm4
	movdqa	112(%rsp), %xmm2
	pmuludq	%xmm15, %xmm2
	paddq	%xmm5, %xmm4
	movdqa	%xmm4, 240(%rsp)
	movdqa	%xmm14, %xmm4
	pmuludq	%xmm1, %xmm4
	paddq	%xmm2, %xmm4
	paddq	%xmm3, %xmm4
	movdqa	%xmm4, 224(%rsp)
	movdqa	%xmm13, %xmm2
	movdqa	528(%rsp), %xmm11
	pmuludq	%xmm11, %xmm2
	movdqa	%xmm7, %xmm3
	pmuludq	%xmm6, %xmm3
	paddq	%xmm2, %xmm3
	movdqa	%xmm9, %xmm2
	movdqa	288(%rsp), %xmm1
	pmuludq	%xmm1, %xmm2
	paddq	%xmm2, %xmm3
	movdqa	160(%rsp), %xmm0
	movdqa	%xmm0, %xmm2
	pmuludq	%xmm11, %xmm2
	movdqa	%xmm8, %xmm4
	pmuludq	%xmm6, %xmm4
	paddq	%xmm2, %xmm4
	movdqa	%xmm12, %xmm2
	pmuludq	%xmm1, %xmm2
	paddq	%xmm2, %xmm4
	movdqa	144(%rsp), %xmm6
	movdqa	%xmm6, %xmm2
	movdqa	304(%rsp), %xmm13
	pmuludq	%xmm13, %xmm2
	movdqa	%xmm10, %xmm5
	pmuludq	%xmm15, %xmm5
	paddq	%xmm2, %xmm5
	paddq	%xmm3, %xmm5
	movdqa	%xmm5, 192(%rsp)
	movdqa	112(%rsp), %xmm2
	pmuludq	%xmm13, %xmm2
	movdqa	%xmm14, %xmm3
	pmuludq	%xmm15, %xmm3
	paddq	%xmm2, %xmm3
	paddq	%xmm4, %xmm3
	movdqa	%xmm3, 176(%rsp)
	movdqa	48(%rsp), %xmm2
	movdqa	512(%rsp), %xmm1
	pmuludq	%xmm1, %xmm2
	movdqa	%xmm7, %xmm3
	movdqa	288(%rsp), %xmm15
	pmuludq	%xmm15, %xmm3
	paddq	%xmm2, %xmm3
	movdqa	%xmm9, %xmm2
	pmuludq	%xmm11, %xmm2
	paddq	%xmm2, %xmm3
	movdqa	%xmm0, %xmm2
	pmuludq	%xmm1, %xmm2
	movdqa	%xmm8, %xmm4
	pmuludq	%xmm15, %xmm4
	paddq	%xmm2, %xmm4
	movdqa	%xmm12, %xmm2
	pmuludq	%xmm11, %xmm2
	paddq	%xmm2, %xmm4
	movdqa	%xmm6, %xmm2
	movdqa	320(%rsp), %xmm6
	pmuludq	%xmm6, %xmm2
	movdqa	%xmm10, %xmm5
	pmuludq	%xmm13, %xmm5
	paddq	%xmm2, %xmm5
	paddq	%xmm3, %xmm5
	movdqa	%xmm5, 624(%rsp)
	movdqa	112(%rsp), %xmm5
	movdqa	%xmm5, %xmm2
	pmuludq	%xmm6, %xmm2
	movdqa	%xmm14, %xmm3
	pmuludq	%xmm13, %xmm3
	paddq	%xmm2, %xmm3
	paddq	%xmm4, %xmm3
	movdqa	%xmm3, 608(%rsp)
	movdqa	496(%rsp), %xmm2
	pmuludq	%xmm2, %xmm0
	pmuludq	%xmm11, %xmm8
	paddq	%xmm0, %xmm8
	pmuludq	%xmm1, %xmm12
	paddq	%xmm12, %xmm8
	movdqa	48(%rsp), %xmm3
	pmuludq	%xmm2, %xmm3
	pmuludq	%xmm1, %xmm9
	pmuludq	%xmm11, %xmm7
	paddq	%xmm3, %xmm7
	paddq	%xmm9, %xmm7
	movdqa	144(%rsp), %xmm0
	pmuludq	%xmm15, %xmm0
	movdqa	%xmm5, %xmm1
	pmuludq	%xmm15, %xmm1
	pmuludq	%xmm6, %xmm14
	paddq	%xmm1, %xmm14
	paddq	%xmm8, %xmm14
	movdqa	%xmm14, 48(%rsp)
	pmuludq	%xmm6, %xmm10
	paddq	%xmm0, %xmm10
	paddq	%xmm7, %xmm10
	movdqa	%xmm10, 112(%rsp)
	movdqu	(%r8), %xmm3
	movdqu	16(%r8), %xmm0
	movdqu	32(%r8), %xmm5
	movdqu	48(%r8), %xmm1
	movdqa	%xmm3, %xmm2
	punpcklqdq	%xmm0, %xmm2
	movdqa	%xmm5, %xmm4
	punpcklqdq	%xmm1, %xmm4
	punpckhqdq	%xmm1, %xmm5
	punpckhqdq	%xmm0, %xmm3
	movdqa	%xmm3, %xmm0
	movdqa	%xmm2, %xmm11
	movdqa	%xmm2, %xmm3
	psrlq	$52, %xmm2
	movdqa	%xmm0, %xmm13
	movdqa	%xmm0, %xmm10
	movdqa	%xmm0, 160(%rsp)
	psllq	$12, %xmm13
	por	%xmm2, %xmm13
	movdqa	%xmm4, %xmm7
	movdqa	%xmm4, %xmm2
	psrlq	$52, %xmm4
	movdqa	%xmm5, %xmm14
	movdqa	%xmm5, %xmm15
	movdqa	%xmm5, 592(%rsp)
	psllq	$12, %xmm14
	por	%xmm4, %xmm14
	movdqa	.Lnoise_CPI6_1(%rip), %xmm0
	pand	%xmm0, %xmm7
	psrlq	$26, %xmm2
	pand	%xmm0, %xmm2
	movdqa	%xmm7, %xmm1
	movdqa	400(%rsp), %xmm6
	pmuludq	%xmm6, %xmm1
	movdqa	%xmm2, %xmm4
	movdqa	384(%rsp), %xmm12
	pmuludq	%xmm12, %xmm4
	paddq	%xmm1, %xmm4
	pand	%xmm0, %xmm11
	psrlq	$26, %xmm3
	pand	%xmm0, %xmm3
	movdqa	%xmm11, %xmm1
	pmuludq	%xmm6, %xmm1
	movdqa	%xmm3, %xmm5
	pmuludq	%xmm12, %xmm5
	paddq	%xmm1, %xmm5
	pand	%xmm0, %xmm13
	movdqa	%xmm13, %xmm1
	movdqa	272(%rsp), %xmm9
	pmuludq	%xmm9, %xmm1
	paddq	%xmm5, %xmm1
	pand	%xmm0, %xmm14
	movdqa	%xmm14, %xmm8
	pmuludq	%xmm9, %xmm8
	paddq	%xmm4, %xmm8
	movdqa	%xmm15, %xmm9
	psrlq	$14, %xmm9
	pand	%xmm0, %xmm9
	movdqa	%xmm9, %xmm5
	movdqa	368(%rsp), %xmm4
	pmuludq	%xmm4, %xmm5
	paddq	%xmm8, %xmm5
	paddq	208(%rsp), %xmm5
	movdqa	%xmm5, 208(%rsp)
	movdqa	%xmm10, %xmm5
	psrlq	$14, %xmm5
	pand	%xmm0, %xmm5
	movdqa	%xmm5, %xmm0
	pmuludq	%xmm4, %xmm0
	paddq	%xmm1, %xmm0
	paddq	256(%rsp), %xmm0
	movdqa	%xmm0, 144(%rsp)
	movdqa	%xmm7, %xmm1
	movdqa	464(%rsp), %xmm10
	pmuludq	%xmm10, %xmm1
	movdqa	%xmm2, %xmm4
	pmuludq	%xmm6, %xmm4
	paddq	%xmm1, %xmm4
	movdqa	%xmm11, %xmm15
	movdqa	%xmm11, %xmm1
	pmuludq	%xmm10, %xmm1
	movdqa	%xmm3, %xmm8
	pmuludq	%xmm6, %xmm8
	paddq	%xmm1, %xmm8
	movdqa	%xmm13, %xmm1
	pmuludq	%xmm12, %xmm1
	paddq	%xmm8, %xmm1
	movdqa	%xmm14, %xmm8
	pmuludq	%xmm12, %xmm8
	paddq	%xmm4, %xmm8
	movdqa	%xmm9, %xmm0
	movdqa	272(%rsp), %xmm11
	pmuludq	%xmm11, %xmm0
	paddq	%xmm8, %xmm0
	paddq	240(%rsp), %xmm0
	movdqa	%xmm0, 240(%rsp)
	movdqa	%xmm5, %xmm0
	pmuludq	%xmm11, %xmm0
	paddq	%xmm1, %xmm0
	paddq	224(%rsp), %xmm0
	movdqa	%xmm0, 256(%rsp)
	movdqa	%xmm7, %xmm1
	movdqa	448(%rsp), %xmm11
	pmuludq	%xmm11, %xmm1
	movdqa	%xmm2, %xmm4
	pmuludq	%xmm10, %xmm4
	paddq	%xmm1, %xmm4
	movdqa	%xmm15, %xmm1
	pmuludq	%xmm11, %xmm1
	movdqa	%xmm3, %xmm8
	pmuludq	%xmm10, %xmm8
	paddq	%xmm1, %xmm8
	movdqa	%xmm13, %xmm1
	pmuludq	%xmm6, %xmm1
	paddq	%xmm8, %xmm1
	movdqa	%xmm14, %xmm8
	pmuludq	%xmm6, %xmm8
	paddq	%xmm4, %xmm8
	movdqa	%xmm9, %xmm0
	pmuludq	%xmm12, %xmm0
	paddq	%xmm8, %xmm0
	paddq	192(%rsp), %xmm0
	movdqa	%xmm0, 192(%rsp)
	movdqa	%xmm5, %xmm0
	pmuludq	%xmm12, %xmm0
	paddq	%xmm1, %xmm0
	paddq	176(%rsp), %xmm0
	movdqa	%xmm0, 224(%rsp)
	movdqa	%xmm7, %xmm1
	movdqa	432(%rsp), %xmm0
	pmuludq	%xmm0, %xmm1
	movdqa	%xmm2, %xmm4
	pmuludq	%xmm11, %xmm4
	paddq	%xmm1, %xmm4
	movdqa	%xmm15, %xmm1
	pmuludq	%xmm0, %xmm1
	movdqa	%xmm3, %xmm8
	pmuludq	%xmm11, %xmm8
	paddq	%xmm1, %xmm8
	movdqa	%xmm13, %xmm12
	pmuludq	%xmm10, %xmm12
	paddq	%xmm8, %xmm12
	movdqa	%xmm14, %xmm8
	pmuludq	%xmm10, %xmm8
	paddq	%xmm4, %xmm8
	movdqa	%xmm9, %xmm4
	pmuludq	%xmm6, %xmm4
	paddq	%xmm8, %xmm4
	paddq	624(%rsp), %xmm4
	movdqa	%xmm5, %xmm1
	pmuludq	%xmm6, %xmm1
	paddq	%xmm12, %xmm1
	paddq	608(%rsp), %xmm1
	movdqa	%xmm1, 176(%rsp)
	movdqa	416(%rsp), %xmm8
	movdqa	%xmm15, %xmm1
	pmuludq	%xmm8, %xmm1
	pmuludq	%xmm0, %xmm3
	paddq	%xmm1, %xmm3
	pmuludq	%xmm8, %xmm7
	pmuludq	%xmm0, %xmm2
	paddq	%xmm7, %xmm2
	pmuludq	%xmm11, %xmm14
	paddq	%xmm2, %xmm14
	pmuludq	%xmm11, %xmm13
	paddq	%xmm3, %xmm13
	pmuludq	%xmm10, %xmm5
	paddq	%xmm13, %xmm5
	paddq	48(%rsp), %xmm5
	pmuludq	%xmm10, %xmm9
	paddq	%xmm14, %xmm9
	paddq	112(%rsp), %xmm9
	movdqa	%xmm9, 48(%rsp)
	movdqu	80(%r8), %xmm0
	movdqu	112(%r8), %xmm2
	movdqu	96(%r8), %xmm9
	movdqa	%xmm9, %xmm3
	punpcklqdq	%xmm2, %xmm3
	punpckhqdq	%xmm2, %xmm9
	movdqu	64(%r8), %xmm15
	movdqa	%xmm15, %xmm14
	punpcklqdq	%xmm0, %xmm14
	punpckhqdq	%xmm0, %xmm15
	movdqa	592(%rsp), %xmm6
	psrlq	$40, %xmm6
	movdqa	.Lnoise_CPI6_0(%rip), %xmm2
	por	%xmm2, %xmm6
	movdqa	%xmm6, %xmm0
	movdqa	480(%rsp), %xmm7
	pmuludq	%xmm7, %xmm0
	movdqa	%xmm3, %xmm1
	movdqa	.Lnoise_CPI6_1(%rip), %xmm13
	pand	%xmm13, %xmm1
	paddq	%xmm0, %xmm1
	paddq	208(%rsp), %xmm1
	movdqa	160(%rsp), %xmm0
	psrlq	$40, %xmm0
	por	%xmm2, %xmm0
	movdqa	%xmm0, %xmm2
	pmuludq	%xmm7, %xmm2
	movdqa	%xmm14, %xmm12
	pand	%xmm13, %xmm12
	paddq	%xmm2, %xmm12
	paddq	144(%rsp), %xmm12
	movdqa	%xmm6, %xmm2
	movdqa	368(%rsp), %xmm11
	pmuludq	%xmm11, %xmm2
	movdqa	%xmm3, %xmm7
	psrlq	$26, %xmm7
	pand	%xmm13, %xmm7
	paddq	%xmm2, %xmm7
	paddq	240(%rsp), %xmm7
	movdqa	%xmm0, %xmm2
	pmuludq	%xmm11, %xmm2
	movdqa	%xmm14, %xmm11
	psrlq	$26, %xmm11
	pand	%xmm13, %xmm11
	paddq	%xmm2, %xmm11
	paddq	256(%rsp), %xmm11
	psrlq	$52, %xmm14
	movdqa	%xmm15, %xmm10
	psllq	$12, %xmm10
	por	%xmm14, %xmm10
	psrlq	$52, %xmm3
	movdqa	%xmm9, %xmm2
	psllq	$12, %xmm2
	por	%xmm3, %xmm2
	movdqa	%xmm6, %xmm3
	movdqa	272(%rsp), %xmm8
	pmuludq	%xmm8, %xmm3
	pand	%xmm13, %xmm2
	paddq	%xmm3, %xmm2
	paddq	192(%rsp), %xmm2
	movdqa	%xmm0, %xmm3
	pmuludq	%xmm8, %xmm3
	pand	%xmm13, %xmm10
	paddq	%xmm3, %xmm10
	movdqa	%xmm6, %xmm3
	movdqa	384(%rsp), %xmm8
	pmuludq	%xmm8, %xmm3
	paddq	224(%rsp), %xmm10
	movdqa	%xmm9, %xmm14
	psrlq	$14, %xmm14
	pand	%xmm13, %xmm14
	paddq	%xmm3, %xmm14
	movdqa	%xmm0, %xmm3
	pmuludq	%xmm8, %xmm3
	paddq	%xmm4, %xmm14
	movdqa	%xmm15, %xmm4
	psrlq	$14, %xmm4
	pand	%xmm13, %xmm4
	paddq	%xmm3, %xmm4
	paddq	176(%rsp), %xmm4
	movdqa	400(%rsp), %xmm3
	pmuludq	%xmm3, %xmm0
	psrlq	$40, %xmm15
	paddq	%xmm0, %xmm15
	movdqa	%xmm12, %xmm0
	pmuludq	%xmm3, %xmm6
	psrlq	$40, %xmm9
	paddq	%xmm6, %xmm9
	movdqa	.Lnoise_CPI6_0(%rip), %xmm3
	paddq	%xmm3, %xmm15
	paddq	%xmm5, %xmm15
	paddq	%xmm3, %xmm9
	movdqa	%xmm1, %xmm13
	paddq	48(%rsp), %xmm9
	addq	$128, %r8
	addq	$-128, %rsi
	cmpq	$127, %rsi
	ja	.Lnoise_BB6_1
	movaps	%xmm0, %xmm6
	psrlq	$26, %xmm6
	paddq	%xmm11, %xmm6
	movaps	%xmm4, %xmm5
	psrlq	$26, %xmm5
	paddq	%xmm15, %xmm5
	movdqa	%xmm6, %xmm3
	psrlq	$26, %xmm3
	paddq	%xmm10, %xmm3
	movaps	.Lnoise_CPI6_1(%rip), %xmm8
	andps	%xmm8, %xmm0
	movdqa	%xmm5, %xmm10
	psrlq	$26, %xmm10
	paddq	%xmm10, %xmm0
	psllq	$2, %xmm10
	paddq	%xmm0, %xmm10
	andps	%xmm8, %xmm4
	movaps	%xmm4, %xmm0
	movdqa	%xmm3, %xmm4
	psrlq	$26, %xmm4
	paddq	%xmm0, %xmm4
	pand	%xmm8, %xmm6
	movdqa	%xmm10, %xmm1
	psrlq	$26, %xmm1
	paddq	%xmm6, %xmm1
	pand	%xmm8, %xmm5
	movdqa	%xmm4, %xmm0
	psrlq	$26, %xmm0
	paddq	%xmm5, %xmm0
	pand	%xmm8, %xmm10
	movd	%xmm10, %r15d
	movd	%xmm1, %edx
	pand	%xmm8, %xmm3
	movd	%xmm3, %r10d
	pand	%xmm8, %xmm4
	movd	%xmm4, %r11d
	movq	40(%rsp), %rcx
	movq	%rcx, %rax
	movq	%rcx, %rbx
	imulq	%r15, %rax
	movq	%r10, %rcx
	movq	128(%rsp), %r12
	imulq	%r12, %rcx
	addq	%rax, %rcx
	movq	104(%rsp), %rax
	leaq	(%rax,%rax,4), %r13
	movq	%r13, %rax
	movq	%r13, 96(%rsp)
	imulq	%rdx, %rax
	movq	%rdx, 48(%rsp)
	addq	%rax, %rcx
	movq	%r11, %rdi
	movq	72(%rsp), %r9
	imulq	%r9, %rdi
	addq	%rcx, %rdi
	movd	%xmm0, %eax
	movq	%rax, %rbp
	imulq	80(%rsp), %rbp
	addq	%rdi, %rbp
	movq	%r15, %rcx
	movq	32(%rsp), %r14
	imulq	%r14, %rcx
	movq	%r13, %rdi
	imulq	%r10, %rdi
	addq	%rcx, %rdi
	movq	%rbx, %rcx
	imulq	%rdx, %rcx
	addq	%rcx, %rdi
	movq	%r11, %rcx
	imulq	%r12, %rcx
	movq	%r12, %rdx
	addq	%rdi, %rcx
	movq	%rax, %rdi
	imulq	%r9, %rdi
	addq	%rcx, %rdi
	movq	%r15, %rcx
	movq	%r15, 112(%rsp)
	imulq	88(%rsp), %rcx
	imulq	%r10, %rbx
	addq	%rcx, %rbx
	movq	48(%rsp), %r12
	movq	%r12, %rcx
	imulq	%r14, %rcx
	movq	%r14, %r13
	addq	%rcx, %rbx
	movq	96(%rsp), %r9
	movq	%r9, %rcx
	imulq	%r11, %rcx
	addq	%rbx, %rcx
	movq	%rax, %rbx
	imulq	%rdx, %rbx
	addq	%rcx, %rbx
	movq	136(%rsp), %rdx
	imulq	%rdx, %r15
	movq	%r10, %r14
	imulq	%r13, %r14
	addq	%r15, %r14
	movq	%r12, %rcx
	movq	88(%rsp), %r12
	imulq	%r12, %rcx
	addq	%rcx, %r14
	movq	40(%rsp), %r15
	imulq	%r11, %r15
	addq	%r14, %r15
	movq	%r9, %rcx
	movq	%r9, %r14
	imulq	%rax, %rcx
	addq	%r15, %rcx
	movq	112(%rsp), %r9
	imulq	104(%rsp), %r9
	imulq	%r12, %r10
	addq	%r9, %r10
	movq	48(%rsp), %r9
	imulq	%rdx, %r9
	addq	%r9, %r10
	imulq	%r13, %r11
	addq	%r10, %r11
	pshufd	$238, %xmm1, %xmm1
	movq	40(%rsp), %r15
	imulq	%r15, %rax
	addq	%r11, %rax
	movl	%ebp, %r10d
	shrq	$26, %rbp
	addq	%rdi, %rbp
	movl	%ecx, %edx
	shrq	$26, %rcx
	addq	%rax, %rcx
	movl	%ebp, %eax
	andl	$67108863, %eax
	movd	%xmm1, %r9d
	addl	%r9d, %eax
	pshufd	$238, %xmm0, %xmm0
	shrq	$26, %rbp
	addq	%rbx, %rbp
	movl	%ecx, %r11d
	andl	$67108863, %r11d
	movd	%xmm0, %r9d
	addl	%r9d, %r11d
	pshufd	$238, %xmm3, %xmm0
	movl	%ebp, %r9d
	andl	$67108863, %r9d
	movd	%xmm0, %edi
	addl	%edi, %r9d
	andl	$67108863, %edx
	shrq	$26, %rbp
	addq	%rdx, %rbp
	pshufd	$238, %xmm10, %xmm0
	andl	$67108863, %r10d
	shrq	$26, %rcx
	leaq	(%rcx,%rcx,4), %rdx
	addq	%r10, %rdx
	movl	%edx, %r10d
	andl	$67108863, %r10d
	movd	%xmm0, %ecx
	addl	%ecx, %r10d
	pshufd	$238, %xmm4, %xmm0
	movl	%ebp, %edi
	andl	$67108863, %edi
	movd	%xmm0, %ecx
	addl	%ecx, %edi
	shrq	$26, %rdx
	addl	%eax, %edx
	shrq	$26, %rbp
	addl	%r11d, %ebp
	movq	%r15, %rax
	movq	%r15, %r13
	imulq	%r10, %rax
	movq	%r9, %rcx
	movq	128(%rsp), %r12
	imulq	%r12, %rcx
	addq	%rax, %rcx
	movq	%r14, %rbx
	movq	%r14, %rax
	imulq	%rdx, %rax
	addq	%rax, %rcx
	movq	%rdi, %rax
	movq	72(%rsp), %r14
	imulq	%r14, %rax
	movq	%rbp, %r11
	imulq	80(%rsp), %r11
	addq	%rax, %r11
	addq	%rcx, %r11
	movq	%r10, %rax
	imulq	32(%rsp), %rax
	imulq	%r9, %rbx
	addq	%rax, %rbx
	movq	%r15, %rax
	imulq	%rdx, %rax
	addq	%rax, %rbx
	movq	%rdi, %rax
	movq	%r12, %rcx
	imulq	%r12, %rax
	movq	%rbp, %r15
	imulq	%r14, %r15
	addq	%rax, %r15
	addq	%rbx, %r15
	movq	%r15, 48(%rsp)
	movq	%r10, %rax
	movq	88(%rsp), %r12
	imulq	%r12, %rax
	movq	%r13, %r14
	imulq	%r9, %r14
	addq	%rax, %r14
	movq	%rdx, %rax
	movq	32(%rsp), %r15
	imulq	%r15, %rax
	addq	%rax, %r14
	movq	96(%rsp), %rbx
	movq	%rbx, %rax
	imulq	%rdi, %rax
	movq	%rbp, %r13
	imulq	%rcx, %r13
	addq	%rax, %r13
	addq	%r14, %r13
	movq	%r10, %rax
	movq	136(%rsp), %rcx
	imulq	%rcx, %rax
	movq	%r9, %r14
	imulq	%r15, %r14
	addq	%rax, %r14
	movq	%rdx, %rax
	imulq	%r12, %rax
	addq	%rax, %r14
	movq	40(%rsp), %r15
	imulq	%rdi, %r15
	movq	%rbx, %rax
	imulq	%rbp, %rax
	addq	%r15, %rax
	addq	%r14, %rax
	imulq	104(%rsp), %r10
	imulq	%r12, %r9
	addq	%r10, %r9
	imulq	%rcx, %rdx
	addq	%rdx, %r9
	imulq	32(%rsp), %rdi
	movq	40(%rsp), %r15
	imulq	%r15, %rbp
	addq	%rdi, %rbp
	movdqa	%xmm13, %xmm0
	psrlq	$26, %xmm0
	paddq	%xmm7, %xmm0
	movdqa	%xmm14, %xmm5
	psrlq	$26, %xmm5
	paddq	%xmm9, %xmm5
	movdqa	%xmm0, %xmm6
	pand	%xmm8, %xmm13
	movdqa	%xmm5, %xmm1
	psrlq	$26, %xmm1
	paddq	%xmm1, %xmm13
	psllq	$2, %xmm1
	paddq	%xmm13, %xmm1
	pand	%xmm8, %xmm0
	movdqa	%xmm1, %xmm3
	psrlq	$26, %xmm3
	paddq	%xmm0, %xmm3
	addq	%r9, %rbp
	movl	%r11d, %r10d
	shrq	$26, %r11
	addq	48(%rsp), %r11
	movl	%eax, %edx
	shrq	$26, %rax
	addq	%rbp, %rax
	movl	%r11d, %ecx
	andl	$67108863, %ecx
	movd	%xmm3, %r9d
	addl	%r9d, %ecx
	psrlq	$26, %xmm6
	paddq	%xmm2, %xmm6
	pand	%xmm8, %xmm14
	movdqa	%xmm6, %xmm0
	psrlq	$26, %xmm0
	paddq	%xmm14, %xmm0
	pand	%xmm8, %xmm5
	movdqa	%xmm0, %xmm4
	psrlq	$26, %xmm4
	paddq	%xmm5, %xmm4
	shrq	$26, %r11
	addq	%r13, %r11
	movl	%eax, %edi
	andl	$67108863, %edi
	movd	%xmm4, %r9d
	addl	%r9d, %edi
	pand	%xmm8, %xmm6
	movl	%r11d, %r9d
	andl	$67108863, %r9d
	movd	%xmm6, %ebx
	addl	%ebx, %r9d
	andl	$67108863, %edx
	shrq	$26, %r11
	addq	%rdx, %r11
	pand	%xmm8, %xmm1
	andl	$67108863, %r10d
	shrq	$26, %rax
	leaq	(%rax,%rax,4), %rdx
	addq	%r10, %rdx
	movl	%edx, %r10d
	andl	$67108863, %r10d
	movd	%xmm1, %eax
	addl	%eax, %r10d
	pand	%xmm8, %xmm0
	movl	%r11d, %r14d
	andl	$67108863, %r14d
	movd	%xmm0, %eax
	addl	%eax, %r14d
	shrq	$26, %rdx
	addl	%ecx, %edx
	shrq	$26, %r11
	addl	%edi, %r11d
	movq	%r15, %rax
	movq	%r15, %rbp
	imulq	%r10, %rax
	movq	%r9, %rcx
	movq	128(%rsp), %r13
	imulq	%r13, %rcx
	addq	%rax, %rcx
	movq	96(%rsp), %rbx
	movq	%rbx, %rax
	imulq	%rdx, %rax
	addq	%rax, %rcx
	movq	%r14, %rax
	movq	72(%rsp), %r15
	imulq	%r15, %rax
	movq	%r11, %rdi
	imulq	80(%rsp), %rdi
	addq	%rax, %rdi
	addq	%rcx, %rdi
	movq	%r10, %rax
	imulq	32(%rsp), %rax
	imulq	%r9, %rbx
	addq	%rax, %rbx
	movq	%rbp, %rax
	movq	%rbp, %rcx
	imulq	%rdx, %rax
	addq	%rax, %rbx
	movq	%r14, %rax
	imulq	%r13, %rax
	movq	%r11, %rbp
	imulq	%r15, %rbp
	addq	%rax, %rbp
	addq	%rbx, %rbp
	movq	%r10, %rax
	movq	88(%rsp), %r12
	imulq	%r12, %rax
	movq	%rcx, %r15
	imulq	%r9, %r15
	addq	%rax, %r15
	movq	%rdx, %rax
	imulq	32(%rsp), %rax
	addq	%rax, %r15
	movq	96(%rsp), %rcx
	movq	%rcx, %rax
	imulq	%r14, %rax
	movq	%r11, %rbx
	imulq	%r13, %rbx
	addq	%rax, %rbx
	addq	%r15, %rbx
	movq	%r10, %rax
	movq	136(%rsp), %r13
	imulq	%r13, %rax
	movq	%r9, %r15
	imulq	32(%rsp), %r15
	addq	%rax, %r15
	movq	%rdx, %rax
	imulq	%r12, %rax
	addq	%rax, %r15
	movq	40(%rsp), %r12
	imulq	%r14, %r12
	movq	%rcx, %rax
	imulq	%r11, %rax
	addq	%r12, %rax
	addq	%r15, %rax
	imulq	104(%rsp), %r10
	imulq	88(%rsp), %r9
	addq	%r10, %r9
	imulq	%r13, %rdx
	addq	%rdx, %r9
	imulq	32(%rsp), %r14
	movq	40(%rsp), %r15
	imulq	%r15, %r11
	addq	%r14, %r11
	pshufd	$238, %xmm3, %xmm3
	addq	%r9, %r11
	movl	%edi, %r10d
	shrq	$26, %rdi
	addq	%rbp, %rdi
	movl	%eax, %edx
	shrq	$26, %rax
	addq	%r11, %rax
	movl	%edi, %ecx
	andl	$67108863, %ecx
	movd	%xmm3, %r9d
	addl	%r9d, %ecx
	pshufd	$238, %xmm4, %xmm3
	shrq	$26, %rdi
	addq	%rbx, %rdi
	movl	%eax, %ebx
	andl	$67108863, %ebx
	movd	%xmm3, %r9d
	addl	%r9d, %ebx
	pshufd	$238, %xmm6, %xmm2
	movl	%edi, %r9d
	andl	$67108863, %r9d
	movd	%xmm2, %r11d
	addl	%r11d, %r9d
	andl	$67108863, %edx
	shrq	$26, %rdi
	addq	%rdx, %rdi
	pshufd	$238, %xmm1, %xmm1
	andl	$67108863, %r10d
	shrq	$26, %rax
	leaq	(%rax,%rax,4), %rdx
	addq	%r10, %rdx
	movl	%edx, %r12d
	andl	$67108863, %r12d
	movd	%xmm1, %eax
	addl	%eax, %r12d
	pshufd	$238, %xmm0, %xmm0
	movl	%edi, %r11d
	andl	$67108863, %r11d
	movd	%xmm0, %eax
	addl	%eax, %r11d
	shrq	$26, %rdx
	addl	%ecx, %edx
	shrq	$26, %rdi
	addl	%ebx, %edi
	movq	%r15, %rax
	movq	%r15, %rbp
	imulq	%r12, %rax
	movq	%r9, %rcx
	movq	128(%rsp), %r15
	imulq	%r15, %rcx
	addq	%rax, %rcx
	movq	96(%rsp), %r13
	movq	%r13, %rax
	imulq	%rdx, %rax
	addq	%rax, %rcx
	movq	%r11, %rax
	movq	72(%rsp), %r14
	imulq	%r14, %rax
	movq	80(%rsp), %r10
	imulq	%rdi, %r10
	addq	%rax, %r10
	addq	%rcx, %r10
	movq	%r10, 80(%rsp)
	movq	%r12, %rax
	movq	32(%rsp), %r10
	imulq	%r10, %rax
	movq	%r13, %rcx
	imulq	%r9, %rcx
	addq	%rax, %rcx
	movq	%rbp, %rax
	imulq	%rdx, %rax
	addq	%rax, %rcx
	movq	%r11, %rax
	imulq	%r15, %rax
	imulq	%rdi, %r14
	addq	%rax, %r14
	addq	%rcx, %r14
	movq	%r14, 72(%rsp)
	movq	%r12, %rax
	movq	88(%rsp), %r14
	imulq	%r14, %rax
	movq	%rbp, %rcx
	imulq	%r9, %rcx
	addq	%rax, %rcx
	movq	%rdx, %rax
	imulq	%r10, %rax
	addq	%rax, %rcx
	movq	%r13, %rax
	imulq	%r11, %rax
	imulq	%rdi, %r15
	addq	%rax, %r15
	addq	%rcx, %r15
	movq	%r12, %rax
	movq	136(%rsp), %rbx
	imulq	%rbx, %rax
	movq	%r9, %rcx
	imulq	%r10, %rcx
	addq	%rax, %rcx
	movq	%rdx, %rax
	imulq	%r14, %rax
	addq	%rax, %rcx
	movq	%rbp, %rax
	imulq	%r11, %rax
	imulq	%rdi, %r13
	addq	%rax, %r13
	addq	%rcx, %r13
	imulq	104(%rsp), %r12
	imulq	%rbx, %rdx
	imulq	%r14, %r9
	addq	%r12, %r9
	addq	%rdx, %r9
	imulq	%r10, %r11
	movq	%rbp, %rax
	imulq	%rdi, %rax
	addq	%r11, %rax
	addq	%r9, %rax
	movq	80(%rsp), %r11
	movl	%r11d, %ecx
	andl	$67108863, %ecx
	shrq	$26, %r11
	addq	72(%rsp), %r11
	movq	%r13, %r9
	movl	%r9d, %edx
	andl	$67108863, %edx
	shrq	$26, %r9
	addq	%rax, %r9
	movq	%r9, %rdi
	movl	%r11d, %r9d
	andl	$67108863, %r9d
	shrq	$26, %r11
	addq	%r15, %r11
	movq	%r11, %rax
	shrq	$26, %rax
	addq	%rdx, %rax
	movl	%edi, %r10d
	andl	$67108863, %r10d
	shrq	$26, %rdi
	leaq	(%rdi,%rdi,4), %rdx
	addq	%rcx, %rdx
	movq	%rdx, %rcx
	shrq	$26, %rcx
	addl	%r9d, %ecx
	movq	%rax, %rdi
	shrq	$26, %rdi
	addl	%r10d, %edi
	andl	$67108863, %edx
	movl	%r11d, %r9d
	shlq	$52, %r11
	orq	%rdx, %r11
	shlq	$26, %rcx
	andl	$67104768, %r9d
	shrl	$12, %r9d
	andl	$67108863, %eax
	shlq	$14, %rax
	addq	%rcx, %r11
	adcq	%r9, %rax
	movq	%rdi, %rcx
	shlq	$40, %rcx
	shrl	$24, %edi
	addq	%rax, %rcx
	adcq	$0, %rdi
	movl	%edi, %eax
	shrl	$2, %eax
	leaq	(%rax,%rax,4), %r10
	andl	$3, %edi
	addq	%r11, %r10
	adcq	$0, %rcx
	adcq	$0, %rdi
	movq	360(%rsp), %r12
	movq	%r10, (%r12)
	movq	%rcx, 8(%r12)
	movq	%rdi, 16(%r12)
	movq	$0, 24(%r12)
	cmpq	$16, %rsi
	jae	.Lnoise_BB6_4
	movq	%r10, %r9
	jmp	.Lnoise_BB6_6
.Lnoise_BB6_4:
	movq	352(%rsp), %r13
	movq	%r13, %r15
	shrq	$2, %r15
	addq	%r13, %r15
	movq	344(%rsp), %rbp
	.p2align	4
.Lnoise_BB6_5:
	addq	(%r8), %r10
	adcq	8(%r8), %rcx
	adcq	$1, %rdi
	movq	%r10, %rax
	mulq	%rbp
	movq	%rdx, %rbx
	movq	%rax, %r14
	movq	%rcx, %rax
	mulq	%r15
	movq	%rdx, %r11
	movq	%rax, %r9
	addq	%r14, %r9
	adcq	%rbx, %r11
	movq	%r10, %rax
	mulq	%r13
	movq	%rdx, %r10
	movq	%rax, %rbx
	movq	%rcx, %rax
	mulq	%rbp
	addq	%rbx, %rax
	adcq	%r10, %rdx
	movq	%rdi, %rcx
	imulq	%r15, %rcx
	addq	%rax, %rcx
	adcq	$0, %rdx
	imulq	%rbp, %rdi
	movq	%rcx, %rax
	addq	%r11, %rax
	adcq	%rdx, %rdi
	movq	%rdi, %rdx
	shrq	$2, %rdx
	leaq	(%rdx,%rdx,4), %rdx
	movq	%rdx, %r10
	addq	%r9, %r10
	adcq	%r11, %rcx
	andl	$3, %edi
	addq	%rdx, %r9
	adcq	$0, %rax
	adcq	$0, %rdi
	addq	$16, %r8
	addq	$-16, %rsi
	movq	%r9, %r10
	cmpq	$15, %rsi
	ja	.Lnoise_BB6_5
.Lnoise_BB6_6:
	movq	%r9, (%r12)
	movq	%rcx, 8(%r12)
	movq	%rdi, 16(%r12)
	movq	$0, 24(%r12)
	movq	80(%r12), %rdi
	leaq	(%r12,%rdi), %rcx
	addq	$64, %rcx
	movq	%rcx, %rax
	subq	%r8, %rax
	cmpq	%rsi, %rax
	jae	.Lnoise_BB6_9
	cmpq	$4, %rsi
	jb	.Lnoise_BB6_8
	leaq	(%rdi,%r12), %rax
	subq	%r8, %rax
	addq	$64, %rax
	cmpq	$32, %rax
	jae	.Lnoise_BB6_12
.Lnoise_BB6_8:
	xorl	%eax, %eax
.Lnoise_BB6_15:
	movq	%rsi, %r9
	movq	%rax, %rdx
	andq	$3, %r9
	je	.Lnoise_BB6_18
	movq	%rax, %rdx
	.p2align	4
.Lnoise_BB6_17:
	movzbl	(%r8,%rdx), %r10d
	movb	%r10b, (%rcx,%rdx)
	incq	%rdx
	decq	%r9
	jne	.Lnoise_BB6_17
.Lnoise_BB6_18:
	subq	%rsi, %rax
	cmpq	$-4, %rax
	ja	.Lnoise_BB6_21
	leaq	(%rdi,%r12), %rax
	addq	$67, %rax
	.p2align	4
.Lnoise_BB6_20:
	movzbl	(%r8,%rdx), %ecx
	movb	%cl, -3(%rax,%rdx)
	movzbl	1(%r8,%rdx), %ecx
	movb	%cl, -2(%rax,%rdx)
	movzbl	2(%r8,%rdx), %ecx
	movb	%cl, -1(%rax,%rdx)
	movzbl	3(%r8,%rdx), %ecx
	movb	%cl, (%rax,%rdx)
	addq	$4, %rdx
	cmpq	%rdx, %rsi
	jne	.Lnoise_BB6_20
	jmp	.Lnoise_BB6_21
.Lnoise_BB6_9:
	movq	%r8, %rdx
	movq	%rsi, %r8
	callq	memmove
.Lnoise_BB6_21:
	addq	%rsi, %rdi
	movq	%rdi, 80(%r12)
	movaps	640(%rsp), %xmm6
	movaps	656(%rsp), %xmm7
	movaps	672(%rsp), %xmm8
	movaps	688(%rsp), %xmm9
	movaps	704(%rsp), %xmm10
	movaps	720(%rsp), %xmm11
	movaps	736(%rsp), %xmm12
	movaps	752(%rsp), %xmm13
	movaps	768(%rsp), %xmm14
	movaps	784(%rsp), %xmm15
	addq	$808, %rsp
	popq	%rbx
	popq	%rbp
	popq	%rdi
	popq	%rsi
	popq	%r12
	popq	%r13
	popq	%r14
	popq	%r15
	retq
.Lnoise_BB6_12:
	movl	%esi, %eax
	andl	$12, %eax
	xorl	%edx, %edx
	.p2align	4
.Lnoise_BB6_13:
	movl	(%r8,%rdx), %r9d
	movl	%r9d, (%rcx,%rdx)
	addq	$4, %rdx
	cmpq	%rdx, %rax
	jne	.Lnoise_BB6_13
	cmpq	%rax, %rsi
	je	.Lnoise_BB6_21
	jmp	.Lnoise_BB6_15
	.seh_endproc

	.def	"noise_aead::keystream::apply.v1";
	.scl	3;
	.type	32;
	.endef
	.section	.rdata,"dr"
	.p2align	4, 0x0
.Lnoise_CPI7_0:
	.byte	255
	.byte	255
	.byte	255
	.byte	255
	.byte	255
	.byte	255
	.byte	255
	.byte	255
	.byte	255
	.byte	255
	.byte	255
	.byte	255
	.byte	0
	.byte	255
	.byte	255
	.byte	255
.Lnoise_CPI7_1:
	.byte	255
	.byte	255
	.byte	255
	.byte	255
	.byte	255
	.byte	255
	.byte	255
	.byte	255
	.byte	255
	.byte	255
	.byte	255
	.byte	255
	.byte	255
	.byte	0
	.byte	0
	.byte	0
	.text
	.p2align	4
"noise_aead::keystream::apply.v1":
.seh_proc "noise_aead::keystream::apply.v1"
	pushq	%r15
	.seh_pushreg %r15
	pushq	%r14
	.seh_pushreg %r14
	pushq	%r13
	.seh_pushreg %r13
	pushq	%r12
	.seh_pushreg %r12
	pushq	%rsi
	.seh_pushreg %rsi
	pushq	%rdi
	.seh_pushreg %rdi
	pushq	%rbp
	.seh_pushreg %rbp
	pushq	%rbx
	.seh_pushreg %rbx
	subq	$424, %rsp
	.seh_stackalloc 424
	movdqa	%xmm15, 400(%rsp)
	.seh_savexmm %xmm15, 400
	movdqa	%xmm14, 384(%rsp)
	.seh_savexmm %xmm14, 384
	movdqa	%xmm13, 368(%rsp)
	.seh_savexmm %xmm13, 368
	movdqa	%xmm12, 352(%rsp)
	.seh_savexmm %xmm12, 352
	movdqa	%xmm11, 336(%rsp)
	.seh_savexmm %xmm11, 336
	movdqa	%xmm10, 320(%rsp)
	.seh_savexmm %xmm10, 320
	movdqa	%xmm9, 304(%rsp)
	.seh_savexmm %xmm9, 304
	movdqa	%xmm8, 288(%rsp)
	.seh_savexmm %xmm8, 288
	movdqa	%xmm7, 272(%rsp)
	.seh_savexmm %xmm7, 272
	movdqa	%xmm6, 256(%rsp)
	.seh_savexmm %xmm6, 256
	.seh_endprologue
	movq	%rdx, 136(%rsp)
	movq	%rcx, %rbx
	movq	%r8, %rax
	movq	%r8, 128(%rsp)
	shrq	$6, %rax
	cmpq	$3, %rax
	movl	$3, %ecx
	cmovbq	%rax, %rcx
	movq	%rax, %r15
	movq	%rcx, 48(%rsp)
	subq	%rcx, %r15
	movq	%r15, %rcx
	shrq	$2, %rcx
	movq	%rcx, 64(%rsp)
	testq	%rax, %rax
	je	.Lnoise_BB7_4
	leaq	48(%rbx), %r9
	movq	48(%rsp), %rbp
	movq	136(%rsp), %rdi
	.p2align	4
.Lnoise_BB7_2:
	movq	304(%rbx), %rcx
	cmpq	$64, %rcx
	jb	.Lnoise_BB7_11
	movq	32(%rbx), %r8
	movq	40(%rbx), %rdx
	movq	%rbx, %rcx
	movq	%r9, %rsi
	callq	"rand_chacha::guts::refill4.v1"
	addq	$4, 40(%rbx)
	movl	48(%rbx), %r8d
	movl	$1, %eax
	jmp	.Lnoise_BB7_13
	.p2align	4
.Lnoise_BB7_11:
	movl	48(%rbx,%rcx,4), %r8d
	leaq	1(%rcx), %rax
	movq	%rax, 304(%rbx)
	cmpq	$63, %rcx
	jne	.Lnoise_BB7_14
	movl	%r8d, %r14d
	movq	32(%rbx), %r8
	movq	40(%rbx), %rdx
	movq	%rbx, %rcx
	movq	%r9, %rsi
	callq	"rand_chacha::guts::refill4.v1"
	movl	%r14d, %r8d
	addq	$4, 40(%rbx)
	xorl	%eax, %eax
.Lnoise_BB7_13:
	movl	(%rsi,%rax,4), %r10d
	movl	4(%rsi,%rax,4), %r11d
	leaq	(%rsi,%rax,4), %rcx
	addq	$8, %rcx
	addq	$3, %rax
	movq	%rsi, %r9
.Lnoise_BB7_19:
	movl	(%rcx), %edx
	movq	%rax, 304(%rbx)
	movl	48(%rbx,%rax,4), %ecx
	movl	%ecx, 112(%rsp)
	leaq	1(%rax), %rcx
	movq	%rcx, 304(%rbx)
	addq	$2, %rax
.Lnoise_BB7_20:
	movl	48(%rbx,%rcx,4), %ecx
	movl	%ecx, 160(%rsp)
	movq	%rax, 304(%rbx)
	movl	48(%rbx,%rax,4), %ecx
	movl	%ecx, 96(%rsp)
	leaq	1(%rax), %rcx
	movq	%rcx, 304(%rbx)
	addq	$2, %rax
.Lnoise_BB7_21:
	movl	48(%rbx,%rcx,4), %ecx
	movl	%ecx, 144(%rsp)
	movq	%rax, 304(%rbx)
	movl	48(%rbx,%rax,4), %ecx
	movl	%ecx, 80(%rsp)
	leaq	1(%rax), %rcx
	movq	%rcx, 304(%rbx)
	addq	$2, %rax
.Lnoise_BB7_22:
	movl	48(%rbx,%rcx,4), %ecx
	movl	%ecx, 44(%rsp)
	movq	%rax, 304(%rbx)
	movl	48(%rbx,%rax,4), %ecx
	movl	%ecx, 32(%rsp)
	leaq	1(%rax), %rcx
	movq	%rcx, 304(%rbx)
	addq	$2, %rax
.Lnoise_BB7_23:
	movl	48(%rbx,%rcx,4), %r14d
	movq	%rax, 304(%rbx)
	movl	48(%rbx,%rax,4), %esi
	leaq	1(%rax), %rcx
	movq	%rcx, 304(%rbx)
	addq	$2, %rax
.Lnoise_BB7_24:
	movl	48(%rbx,%rcx,4), %r12d
	movq	%rax, 304(%rbx)
	movl	48(%rbx,%rax,4), %r13d
	incq	%rax
	movq	%rax, 304(%rbx)
.Lnoise_BB7_55:
	movd	48(%rbx,%rax,4), %xmm0
	incq	%rax
	movq	%rax, 304(%rbx)
	movd	%edx, %xmm5
	movd	%r11d, %xmm3
	movd	%r10d, %xmm6
	movd	%r8d, %xmm1
	movd	144(%rsp), %xmm7
	movd	96(%rsp), %xmm8
	movd	160(%rsp), %xmm9
	movd	112(%rsp), %xmm2
	movd	%r14d, %xmm10
	movd	32(%rsp), %xmm11
	movd	44(%rsp), %xmm12
	movd	80(%rsp), %xmm13
	movd	%r13d, %xmm14
	movd	%r12d, %xmm15
	movd	%esi, %xmm4
	punpckldq	%xmm5, %xmm3
	punpckldq	%xmm6, %xmm1
	punpcklqdq	%xmm3, %xmm1
	punpckldq	%xmm7, %xmm8
	punpckldq	%xmm9, %xmm2
	punpcklqdq	%xmm8, %xmm2
	punpckldq	%xmm10, %xmm11
	punpckldq	%xmm12, %xmm13
	punpcklqdq	%xmm11, %xmm13
	punpckldq	%xmm0, %xmm14
	punpckldq	%xmm15, %xmm4
	punpcklqdq	%xmm14, %xmm4
	movdqu	(%rdi), %xmm3
	pxor	%xmm1, %xmm3
	movdqu	16(%rdi), %xmm1
	pxor	%xmm2, %xmm1
	movdqu	32(%rdi), %xmm2
	pxor	%xmm13, %xmm2
	movdqu	48(%rdi), %xmm5
	movdqa	.Lnoise_CPI7_0(%rip), %xmm6
	pand	%xmm4, %xmm6
	pslldq	$12, %xmm0
	por	%xmm6, %xmm0
	movdqa	.Lnoise_CPI7_1(%rip), %xmm6
	pand	%xmm6, %xmm0
	pandn	%xmm4, %xmm6
	por	%xmm0, %xmm6
	pxor	%xmm5, %xmm6
	movdqu	%xmm3, (%rdi)
	movdqu	%xmm1, 16(%rdi)
	movdqu	%xmm2, 32(%rdi)
	movdqu	%xmm6, 48(%rdi)
	addq	$64, %rdi
	decq	%rbp
	jne	.Lnoise_BB7_2
	jmp	.Lnoise_BB7_4
	.p2align	4
.Lnoise_BB7_14:
	movl	52(%rbx,%rcx,4), %r10d
	leaq	2(%rcx), %rax
	movq	%rax, 304(%rbx)
	cmpq	$62, %rcx
	jb	.Lnoise_BB7_16
	movl	%r10d, %r12d
	movl	%r8d, %r14d
	movq	32(%rbx), %r8
	movq	40(%rbx), %rdx
	movq	%rbx, %rcx
	movq	%r9, %rsi
	callq	"rand_chacha::guts::refill4.v1"
	addq	$4, 40(%rbx)
	movl	48(%rbx), %r11d
	movl	$1, %eax
	jmp	.Lnoise_BB7_18
.Lnoise_BB7_16:
	movl	56(%rbx,%rcx,4), %r11d
	leaq	3(%rcx), %rdx
	movq	%rdx, 304(%rbx)
	cmpq	$61, %rcx
	jne	.Lnoise_BB7_25
	movl	%r10d, %r12d
	movl	%r8d, %r14d
	movq	32(%rbx), %r8
	movq	40(%rbx), %rdx
	movq	%rbx, %rcx
	movq	%r9, %rsi
	movl	%r11d, %r13d
	callq	"rand_chacha::guts::refill4.v1"
	movl	%r13d, %r11d
	addq	$4, 40(%rbx)
	xorl	%eax, %eax
.Lnoise_BB7_18:
	leaq	(%rsi,%rax,4), %rcx
	incq	%rax
	movq	%rsi, %r9
	movl	%r14d, %r8d
	movl	%r12d, %r10d
	jmp	.Lnoise_BB7_19
.Lnoise_BB7_25:
	movl	60(%rbx,%rcx,4), %edx
	movl	%edx, 36(%rsp)
	leaq	4(%rcx), %rdx
	movq	%rdx, 304(%rbx)
	cmpq	$62, %rax
	jne	.Lnoise_BB7_27
	movl	%r8d, %r14d
	movq	32(%rbx), %r8
	movq	40(%rbx), %rdx
	movq	%rbx, %rcx
	movq	%r9, %rsi
	movl	%r10d, %r12d
	movl	%r11d, %r13d
	callq	"rand_chacha::guts::refill4.v1"
	movl	%r13d, %r11d
	movl	%r12d, %r10d
	movl	%r14d, %r8d
	movq	%rsi, %r9
	addq	$4, 40(%rbx)
	movl	48(%rbx), %eax
	movl	%eax, 112(%rsp)
	movl	$1, %ecx
	jmp	.Lnoise_BB7_29
.Lnoise_BB7_27:
	movl	64(%rbx,%rcx,4), %eax
	movl	%eax, 112(%rsp)
	leaq	5(%rcx), %rax
	movq	%rax, 304(%rbx)
	cmpq	$59, %rcx
	jb	.Lnoise_BB7_30
	movl	%r8d, %r14d
	movq	32(%rbx), %r8
	movq	40(%rbx), %rdx
	movq	%rbx, %rcx
	movq	%r9, %rsi
	movl	%r10d, %r12d
	movl	%r11d, %r13d
	callq	"rand_chacha::guts::refill4.v1"
	movl	%r13d, %r11d
	movl	%r12d, %r10d
	movl	%r14d, %r8d
	movq	%rsi, %r9
	addq	$4, 40(%rbx)
	xorl	%ecx, %ecx
.Lnoise_BB7_29:
	leaq	1(%rcx), %rax
	movl	36(%rsp), %edx
	jmp	.Lnoise_BB7_20
.Lnoise_BB7_30:
	movl	68(%rbx,%rcx,4), %eax
	movl	%eax, 160(%rsp)
	leaq	6(%rcx), %rax
	movq	%rax, 304(%rbx)
	cmpq	$62, %rdx
	jne	.Lnoise_BB7_32
	movl	%r8d, %r14d
	movq	32(%rbx), %r8
	movq	40(%rbx), %rdx
	movq	%rbx, %rcx
	movq	%r9, %rsi
	movl	%r10d, %r12d
	movl	%r11d, %r13d
	callq	"rand_chacha::guts::refill4.v1"
	movl	%r13d, %r11d
	movl	%r12d, %r10d
	movl	%r14d, %r8d
	movq	%rsi, %r9
	addq	$4, 40(%rbx)
	movl	48(%rbx), %eax
	movl	%eax, 96(%rsp)
	movl	$1, %ecx
	jmp	.Lnoise_BB7_34
.Lnoise_BB7_32:
	movl	72(%rbx,%rcx,4), %edx
	movl	%edx, 96(%rsp)
	leaq	7(%rcx), %rdx
	movq	%rdx, 304(%rbx)
	cmpq	$57, %rcx
	jb	.Lnoise_BB7_35
	movl	%r8d, %r14d
	movq	32(%rbx), %r8
	movq	40(%rbx), %rdx
	movq	%rbx, %rcx
	movq	%r9, %rsi
	movl	%r10d, %r12d
	movl	%r11d, %r13d
	callq	"rand_chacha::guts::refill4.v1"
	movl	%r13d, %r11d
	movl	%r12d, %r10d
	movl	%r14d, %r8d
	movq	%rsi, %r9
	addq	$4, 40(%rbx)
	xorl	%ecx, %ecx
.Lnoise_BB7_34:
	leaq	1(%rcx), %rax
	movl	36(%rsp), %edx
	jmp	.Lnoise_BB7_21
.Lnoise_BB7_35:
	movl	76(%rbx,%rcx,4), %edx
	movl	%edx, 144(%rsp)
	leaq	8(%rcx), %rdx
	movq	%rdx, 304(%rbx)
	cmpq	$62, %rax
	jne	.Lnoise_BB7_37
	movl	%r8d, %r14d
	movq	32(%rbx), %r8
	movq	40(%rbx), %rdx
	movq	%rbx, %rcx
	movq	%r9, %rsi
	movl	%r10d, %r12d
	movl	%r11d, %r13d
	callq	"rand_chacha::guts::refill4.v1"
	movl	%r13d, %r11d
	movl	%r12d, %r10d
	movl	%r14d, %r8d
	movq	%rsi, %r9
	addq	$4, 40(%rbx)
	movl	48(%rbx), %eax
	movl	%eax, 80(%rsp)
	movl	$1, %ecx
	jmp	.Lnoise_BB7_39
.Lnoise_BB7_37:
	movl	80(%rbx,%rcx,4), %eax
	movl	%eax, 80(%rsp)
	leaq	9(%rcx), %rax
	movq	%rax, 304(%rbx)
	cmpq	$55, %rcx
	jb	.Lnoise_BB7_40
	movl	%r8d, %r14d
	movq	32(%rbx), %r8
	movq	40(%rbx), %rdx
	movq	%rbx, %rcx
	movq	%r9, %rsi
	movl	%r10d, %r12d
	movl	%r11d, %r13d
	callq	"rand_chacha::guts::refill4.v1"
	movl	%r13d, %r11d
	movl	%r12d, %r10d
	movl	%r14d, %r8d
	movq	%rsi, %r9
	addq	$4, 40(%rbx)
	xorl	%ecx, %ecx
.Lnoise_BB7_39:
	leaq	1(%rcx), %rax
	movl	36(%rsp), %edx
	jmp	.Lnoise_BB7_22
.Lnoise_BB7_40:
	movl	84(%rbx,%rcx,4), %eax
	movl	%eax, 44(%rsp)
	leaq	10(%rcx), %rax
	movq	%rax, 304(%rbx)
	cmpq	$62, %rdx
	jne	.Lnoise_BB7_42
	movl	%r8d, %r14d
	movq	32(%rbx), %r8
	movq	40(%rbx), %rdx
	movq	%rbx, %rcx
	movq	%r9, %rsi
	movl	%r10d, %r12d
	movl	%r11d, %r13d
	callq	"rand_chacha::guts::refill4.v1"
	movl	%r13d, %r11d
	movl	%r12d, %r10d
	movl	%r14d, %r8d
	movq	%rsi, %r9
	addq	$4, 40(%rbx)
	movl	48(%rbx), %eax
	movl	%eax, 32(%rsp)
	movl	$1, %ecx
	jmp	.Lnoise_BB7_44
.Lnoise_BB7_42:
	movl	88(%rbx,%rcx,4), %edx
	movl	%edx, 32(%rsp)
	leaq	11(%rcx), %rdx
	movq	%rdx, 304(%rbx)
	cmpq	$53, %rcx
	jb	.Lnoise_BB7_45
	movl	%r8d, %r14d
	movq	32(%rbx), %r8
	movq	40(%rbx), %rdx
	movq	%rbx, %rcx
	movq	%r9, %rsi
	movl	%r10d, %r12d
	movl	%r11d, %r13d
	callq	"rand_chacha::guts::refill4.v1"
	movl	%r13d, %r11d
	movl	%r12d, %r10d
	movl	%r14d, %r8d
	movq	%rsi, %r9
	addq	$4, 40(%rbx)
	xorl	%ecx, %ecx
.Lnoise_BB7_44:
	leaq	1(%rcx), %rax
	movl	36(%rsp), %edx
	jmp	.Lnoise_BB7_23
.Lnoise_BB7_45:
	movl	92(%rbx,%rcx,4), %r14d
	leaq	12(%rcx), %rdx
	movq	%rdx, 304(%rbx)
	cmpq	$62, %rax
	movl	%r8d, 40(%rsp)
	jne	.Lnoise_BB7_48
	movq	32(%rbx), %r8
	movq	40(%rbx), %rdx
	movq	%rbx, %rcx
	movq	%r9, %rsi
	movl	%r10d, %r13d
	movl	%r11d, %r12d
	callq	"rand_chacha::guts::refill4.v1"
	movl	%r12d, %r11d
	movl	%r13d, %r10d
	movl	40(%rsp), %r8d
	movq	%rsi, %r9
	addq	$4, 40(%rbx)
	movl	48(%rbx), %esi
	movl	$1, %ecx
	jmp	.Lnoise_BB7_47
.Lnoise_BB7_48:
	movl	96(%rbx,%rcx,4), %esi
	leaq	13(%rcx), %rax
	movq	%rax, 304(%rbx)
	cmpq	$51, %rcx
	jb	.Lnoise_BB7_50
	movq	32(%rbx), %r8
	movq	40(%rbx), %rdx
	movq	%rbx, %rcx
	movq	%r9, %r12
	movl	%r10d, 60(%rsp)
	movl	%r11d, %r13d
	callq	"rand_chacha::guts::refill4.v1"
	movl	%r13d, %r11d
	movl	60(%rsp), %r10d
	movl	40(%rsp), %r8d
	movq	%r12, %r9
	addq	$4, 40(%rbx)
	xorl	%ecx, %ecx
.Lnoise_BB7_47:
	leaq	1(%rcx), %rax
	movl	36(%rsp), %edx
	jmp	.Lnoise_BB7_24
.Lnoise_BB7_50:
	movl	100(%rbx,%rcx,4), %r12d
	leaq	14(%rcx), %rax
	movq	%rax, 304(%rbx)
	cmpq	$62, %rdx
	jne	.Lnoise_BB7_52
	movq	32(%rbx), %r8
	movq	40(%rbx), %rdx
	movq	%rbx, %rcx
	movq	%r9, %r13
	movl	%r10d, 60(%rsp)
	movl	%r11d, 76(%rsp)
	callq	"rand_chacha::guts::refill4.v1"
	movl	76(%rsp), %r11d
	movl	60(%rsp), %r10d
	movl	40(%rsp), %r8d
	movq	%r13, %r9
	addq	$4, 40(%rbx)
	movl	48(%rbx), %r13d
	movq	$1, 304(%rbx)
	movl	$1, %eax
	jmp	.Lnoise_BB7_54
.Lnoise_BB7_52:
	movl	104(%rbx,%rcx,4), %r13d
	leaq	15(%rcx), %rax
	movq	%rax, 304(%rbx)
	cmpq	$49, %rcx
	jb	.Lnoise_BB7_54
	movq	32(%rbx), %r8
	movq	40(%rbx), %rdx
	movq	%rbx, %rcx
	leaq	48(%rbx), %r9
	movl	%r10d, 60(%rsp)
	movl	%r11d, 76(%rsp)
	callq	"rand_chacha::guts::refill4.v1"
	movl	76(%rsp), %r11d
	movl	60(%rsp), %r10d
	movl	40(%rsp), %r8d
	leaq	48(%rbx), %r9
	addq	$4, 40(%rbx)
	xorl	%eax, %eax
.Lnoise_BB7_54:
	movl	36(%rsp), %edx
	jmp	.Lnoise_BB7_55
.Lnoise_BB7_4:
	movq	64(%rsp), %rdi
	testq	%rdi, %rdi
	je	.Lnoise_BB7_7
	movq	48(%rsp), %rsi
	shll	$6, %esi
	addq	136(%rsp), %rsi
	leaq	48(%rbx), %r14
	.p2align	4
.Lnoise_BB7_6:
	movq	32(%rbx), %r8
	movq	40(%rbx), %rax
	movq	304(%rbx), %rcx
	shrq	$4, %rcx
	leaq	(%rax,%rcx), %rdx
	addq	$-4, %rdx
	movq	%rdx, 40(%rbx)
	pxor	%xmm0, %xmm0
	movdqu	%xmm0, 240(%r14)
	movdqu	%xmm0, 224(%r14)
	movdqu	%xmm0, 208(%r14)
	movdqu	%xmm0, 192(%r14)
	movdqu	%xmm0, 176(%r14)
	movdqu	%xmm0, 160(%r14)
	movdqu	%xmm0, 144(%r14)
	movdqu	%xmm0, 128(%r14)
	movdqu	%xmm0, 112(%r14)
	movdqu	%xmm0, 96(%r14)
	movdqu	%xmm0, 80(%r14)
	movdqu	%xmm0, 64(%r14)
	movdqu	%xmm0, 48(%r14)
	movdqu	%xmm0, 32(%r14)
	movdqu	%xmm0, 16(%r14)
	movdqu	%xmm0, (%r14)
	movq	$64, 304(%rbx)
	movq	%rbx, %rcx
	movq	%r14, %r9
	callq	"rand_chacha::guts::refill4.v1"
	addq	$4, 40(%rbx)
	movups	48(%rbx), %xmm0
	movups	64(%rbx), %xmm1
	movups	80(%rbx), %xmm2
	movdqu	96(%rbx), %xmm8
	movdqu	112(%rbx), %xmm15
	movdqu	128(%rbx), %xmm14
	movdqu	144(%rbx), %xmm13
	movdqu	160(%rbx), %xmm11
	movdqu	176(%rbx), %xmm10
	movups	192(%rbx), %xmm3
	movaps	%xmm3, 80(%rsp)
	movups	208(%rbx), %xmm3
	movaps	%xmm3, 144(%rsp)
	movdqu	224(%rbx), %xmm7
	movups	240(%rbx), %xmm3
	movaps	%xmm3, 96(%rsp)
	movups	256(%rbx), %xmm3
	movaps	%xmm3, 160(%rsp)
	movups	272(%rbx), %xmm3
	movaps	%xmm3, 112(%rsp)
	movdqu	288(%rbx), %xmm9
	movq	$64, 304(%rbx)
	movups	(%rsi), %xmm5
	xorps	%xmm0, %xmm5
	movups	16(%rsi), %xmm4
	xorps	%xmm1, %xmm4
	movups	32(%rsi), %xmm3
	xorps	%xmm2, %xmm3
	movdqa	.Lnoise_CPI7_1(%rip), %xmm2
	movdqa	%xmm2, %xmm12
	pandn	%xmm8, %xmm12
	movdqa	.Lnoise_CPI7_0(%rip), %xmm6
	pand	%xmm6, %xmm8
	movd	108(%rbx), %xmm0
	pslldq	$12, %xmm0
	por	%xmm8, %xmm0
	pand	%xmm2, %xmm0
	por	%xmm12, %xmm0
	movdqu	48(%rsi), %xmm1
	pxor	%xmm1, %xmm0
	movd	172(%rbx), %xmm1
	movd	236(%rbx), %xmm12
	movd	300(%rbx), %xmm8
	movups	%xmm5, (%rsi)
	movups	%xmm4, 16(%rsi)
	movups	%xmm3, 32(%rsi)
	movdqu	%xmm0, 48(%rsi)
	movdqu	64(%rsi), %xmm0
	pxor	%xmm15, %xmm0
	movdqu	80(%rsi), %xmm3
	pxor	%xmm14, %xmm3
	movdqu	96(%rsi), %xmm4
	pxor	%xmm13, %xmm4
	movdqa	%xmm2, %xmm5
	pandn	%xmm11, %xmm5
	pand	%xmm6, %xmm11
	pslldq	$12, %xmm1
	por	%xmm11, %xmm1
	pand	%xmm2, %xmm1
	por	%xmm5, %xmm1
	movdqu	112(%rsi), %xmm5
	pxor	%xmm5, %xmm1
	movdqu	%xmm0, 64(%rsi)
	movdqu	%xmm3, 80(%rsi)
	movdqu	%xmm4, 96(%rsi)
	movdqu	%xmm1, 112(%rsi)
	movdqu	128(%rsi), %xmm0
	pxor	%xmm10, %xmm0
	movups	144(%rsi), %xmm1
	xorps	80(%rsp), %xmm1
	movups	160(%rsi), %xmm3
	xorps	144(%rsp), %xmm3
	movdqa	%xmm2, %xmm4
	pandn	%xmm7, %xmm4
	pand	%xmm6, %xmm7
	pslldq	$12, %xmm12
	por	%xmm7, %xmm12
	pand	%xmm2, %xmm12
	por	%xmm4, %xmm12
	movdqu	176(%rsi), %xmm4
	pxor	%xmm4, %xmm12
	movdqu	%xmm0, 128(%rsi)
	movups	%xmm1, 144(%rsi)
	movups	%xmm3, 160(%rsi)
	movdqu	%xmm12, 176(%rsi)
	movdqu	192(%rsi), %xmm0
	pxor	96(%rsp), %xmm0
	movdqu	208(%rsi), %xmm1
	pxor	160(%rsp), %xmm1
	movdqu	224(%rsi), %xmm3
	pxor	112(%rsp), %xmm3
	pand	%xmm9, %xmm6
	pslldq	$12, %xmm8
	por	%xmm6, %xmm8
	pand	%xmm2, %xmm8
	pandn	%xmm9, %xmm2
	por	%xmm8, %xmm2
	movdqu	240(%rsi), %xmm4
	pxor	%xmm4, %xmm2
	movdqu	%xmm0, 192(%rsi)
	movdqu	%xmm1, 208(%rsi)
	movdqu	%xmm3, 224(%rsi)
	movdqu	%xmm2, 240(%rsi)
	addq	$256, %rsi
	decq	%rdi
	jne	.Lnoise_BB7_6
.Lnoise_BB7_7:
	movabsq	$288230376151711740, %rax
	andq	%rax, %r15
	orq	48(%rsp), %r15
	shlq	$6, %r15
	movq	128(%rsp), %r12
	subq	%r15, %r12
	shrq	$6, %r12
	je	.Lnoise_BB7_101
	addq	136(%rsp), %r15
	leaq	48(%rbx), %r9
	.p2align	4
.Lnoise_BB7_9:
	movq	304(%rbx), %rcx
	cmpq	$64, %rcx
	jb	.Lnoise_BB7_56
	movq	32(%rbx), %r8
	movq	40(%rbx), %rdx
	movq	%rbx, %rcx
	movq	%r9, %rsi
	callq	"rand_chacha::guts::refill4.v1"
	addq	$4, 40(%rbx)
	movl	48(%rbx), %r8d
	movl	$1, %eax
	jmp	.Lnoise_BB7_58
	.p2align	4
.Lnoise_BB7_56:
	movl	48(%rbx,%rcx,4), %r8d
	leaq	1(%rcx), %rax
	movq	%rax, 304(%rbx)
	cmpq	$63, %rcx
	jne	.Lnoise_BB7_59
	movl	%r8d, %edi
	movq	32(%rbx), %r8
	movq	40(%rbx), %rdx
	movq	%rbx, %rcx
	movq	%r9, %rsi
	callq	"rand_chacha::guts::refill4.v1"
	movl	%edi, %r8d
	addq	$4, 40(%rbx)
	xorl	%eax, %eax
.Lnoise_BB7_58:
	movl	(%rsi,%rax,4), %r10d
	movl	4(%rsi,%rax,4), %r11d
	leaq	(%rsi,%rax,4), %rcx
	addq	$8, %rcx
	addq	$3, %rax
	movq	%rsi, %r9
.Lnoise_BB7_64:
	movl	(%rcx), %edx
	movq	%rax, 304(%rbx)
	movl	48(%rbx,%rax,4), %ecx
	movl	%ecx, 112(%rsp)
	leaq	1(%rax), %rcx
	movq	%rcx, 304(%rbx)
	addq	$2, %rax
.Lnoise_BB7_65:
	movl	48(%rbx,%rcx,4), %ecx
	movl	%ecx, 160(%rsp)
	movq	%rax, 304(%rbx)
	movl	48(%rbx,%rax,4), %ecx
	movl	%ecx, 96(%rsp)
	leaq	1(%rax), %rcx
	movq	%rcx, 304(%rbx)
	addq	$2, %rax
.Lnoise_BB7_66:
	movl	48(%rbx,%rcx,4), %ecx
	movl	%ecx, 144(%rsp)
	movq	%rax, 304(%rbx)
	movl	48(%rbx,%rax,4), %ecx
	movl	%ecx, 80(%rsp)
	leaq	1(%rax), %rcx
	movq	%rcx, 304(%rbx)
	addq	$2, %rax
.Lnoise_BB7_67:
	movl	48(%rbx,%rcx,4), %ecx
	movl	%ecx, 44(%rsp)
	movq	%rax, 304(%rbx)
	movl	48(%rbx,%rax,4), %esi
	leaq	1(%rax), %rcx
	movq	%rcx, 304(%rbx)
	addq	$2, %rax
.Lnoise_BB7_68:
	movl	48(%rbx,%rcx,4), %edi
	movq	%rax, 304(%rbx)
	movl	48(%rbx,%rax,4), %ebp
	leaq	1(%rax), %rcx
	movq	%rcx, 304(%rbx)
	addq	$2, %rax
.Lnoise_BB7_69:
	movl	48(%rbx,%rcx,4), %r13d
	movq	%rax, 304(%rbx)
	movl	48(%rbx,%rax,4), %r14d
	incq	%rax
	movq	%rax, 304(%rbx)
.Lnoise_BB7_100:
	movd	48(%rbx,%rax,4), %xmm0
	incq	%rax
	movq	%rax, 304(%rbx)
	movd	%edx, %xmm5
	movd	%r11d, %xmm3
	movd	%r10d, %xmm6
	movd	%r8d, %xmm1
	movd	144(%rsp), %xmm7
	movd	96(%rsp), %xmm8
	movd	160(%rsp), %xmm9
	movd	112(%rsp), %xmm2
	movd	%edi, %xmm10
	movd	%esi, %xmm11
	movd	44(%rsp), %xmm12
	movd	80(%rsp), %xmm13
	movd	%r14d, %xmm14
	movd	%r13d, %xmm15
	movd	%ebp, %xmm4
	punpckldq	%xmm5, %xmm3
	punpckldq	%xmm6, %xmm1
	punpcklqdq	%xmm3, %xmm1
	punpckldq	%xmm7, %xmm8
	punpckldq	%xmm9, %xmm2
	punpcklqdq	%xmm8, %xmm2
	punpckldq	%xmm10, %xmm11
	punpckldq	%xmm12, %xmm13
	punpcklqdq	%xmm11, %xmm13
	punpckldq	%xmm0, %xmm14
	punpckldq	%xmm15, %xmm4
	punpcklqdq	%xmm14, %xmm4
	movdqu	(%r15), %xmm3
	pxor	%xmm1, %xmm3
	movdqu	16(%r15), %xmm1
	pxor	%xmm2, %xmm1
	movdqu	32(%r15), %xmm2
	pxor	%xmm13, %xmm2
	movdqu	48(%r15), %xmm5
	movdqa	.Lnoise_CPI7_0(%rip), %xmm6
	pand	%xmm4, %xmm6
	pslldq	$12, %xmm0
	por	%xmm6, %xmm0
	movdqa	.Lnoise_CPI7_1(%rip), %xmm6
	pand	%xmm6, %xmm0
	pandn	%xmm4, %xmm6
	por	%xmm0, %xmm6
	pxor	%xmm5, %xmm6
	movdqu	%xmm3, (%r15)
	movdqu	%xmm1, 16(%r15)
	movdqu	%xmm2, 32(%r15)
	movdqu	%xmm6, 48(%r15)
	addq	$64, %r15
	decq	%r12
	jne	.Lnoise_BB7_9
	jmp	.Lnoise_BB7_101
	.p2align	4
.Lnoise_BB7_59:
	movl	52(%rbx,%rcx,4), %r10d
	leaq	2(%rcx), %rax
	movq	%rax, 304(%rbx)
	cmpq	$62, %rcx
	jb	.Lnoise_BB7_61
	movl	%r10d, %ebp
	movl	%r8d, %edi
	movq	32(%rbx), %r8
	movq	40(%rbx), %rdx
	movq	%rbx, %rcx
	movq	%r9, %rsi
	callq	"rand_chacha::guts::refill4.v1"
	addq	$4, 40(%rbx)
	movl	48(%rbx), %r11d
	movl	$1, %eax
	jmp	.Lnoise_BB7_63
.Lnoise_BB7_61:
	movl	56(%rbx,%rcx,4), %r11d
	leaq	3(%rcx), %rdx
	movq	%rdx, 304(%rbx)
	cmpq	$61, %rcx
	jne	.Lnoise_BB7_70
	movl	%r10d, %ebp
	movl	%r8d, %edi
	movq	32(%rbx), %r8
	movq	40(%rbx), %rdx
	movq	%rbx, %rcx
	movq	%r9, %rsi
	movl	%r11d, %r14d
	callq	"rand_chacha::guts::refill4.v1"
	movl	%r14d, %r11d
	addq	$4, 40(%rbx)
	xorl	%eax, %eax
.Lnoise_BB7_63:
	leaq	(%rsi,%rax,4), %rcx
	incq	%rax
	movq	%rsi, %r9
	movl	%edi, %r8d
	movl	%ebp, %r10d
	jmp	.Lnoise_BB7_64
.Lnoise_BB7_70:
	movl	60(%rbx,%rcx,4), %edx
	movl	%edx, 32(%rsp)
	leaq	4(%rcx), %rdx
	movq	%rdx, 304(%rbx)
	cmpq	$62, %rax
	jne	.Lnoise_BB7_72
	movl	%r8d, %edi
	movq	32(%rbx), %r8
	movq	40(%rbx), %rdx
	movq	%rbx, %rcx
	movq	%r9, %rsi
	movl	%r10d, %ebp
	movl	%r11d, %r14d
	callq	"rand_chacha::guts::refill4.v1"
	movl	%r14d, %r11d
	movl	%ebp, %r10d
	movl	%edi, %r8d
	movq	%rsi, %r9
	addq	$4, 40(%rbx)
	movl	48(%rbx), %eax
	movl	%eax, 112(%rsp)
	movl	$1, %ecx
	jmp	.Lnoise_BB7_74
.Lnoise_BB7_72:
	movl	64(%rbx,%rcx,4), %eax
	movl	%eax, 112(%rsp)
	leaq	5(%rcx), %rax
	movq	%rax, 304(%rbx)
	cmpq	$59, %rcx
	jb	.Lnoise_BB7_75
	movl	%r8d, %edi
	movq	32(%rbx), %r8
	movq	40(%rbx), %rdx
	movq	%rbx, %rcx
	movq	%r9, %rsi
	movl	%r10d, %ebp
	movl	%r11d, %r14d
	callq	"rand_chacha::guts::refill4.v1"
	movl	%r14d, %r11d
	movl	%ebp, %r10d
	movl	%edi, %r8d
	movq	%rsi, %r9
	addq	$4, 40(%rbx)
	xorl	%ecx, %ecx
.Lnoise_BB7_74:
	leaq	1(%rcx), %rax
	movl	32(%rsp), %edx
	jmp	.Lnoise_BB7_65
.Lnoise_BB7_75:
	movl	68(%rbx,%rcx,4), %eax
	movl	%eax, 160(%rsp)
	leaq	6(%rcx), %rax
	movq	%rax, 304(%rbx)
	cmpq	$62, %rdx
	jne	.Lnoise_BB7_77
	movl	%r8d, %edi
	movq	32(%rbx), %r8
	movq	40(%rbx), %rdx
	movq	%rbx, %rcx
	movq	%r9, %rsi
	movl	%r10d, %ebp
	movl	%r11d, %r14d
	callq	"rand_chacha::guts::refill4.v1"
	movl	%r14d, %r11d
	movl	%ebp, %r10d
	movl	%edi, %r8d
	movq	%rsi, %r9
	addq	$4, 40(%rbx)
	movl	48(%rbx), %eax
	movl	%eax, 96(%rsp)
	movl	$1, %ecx
	jmp	.Lnoise_BB7_79
.Lnoise_BB7_77:
	movl	72(%rbx,%rcx,4), %edx
	movl	%edx, 96(%rsp)
	leaq	7(%rcx), %rdx
	movq	%rdx, 304(%rbx)
	cmpq	$57, %rcx
	jb	.Lnoise_BB7_80
	movl	%r8d, %edi
	movq	32(%rbx), %r8
	movq	40(%rbx), %rdx
	movq	%rbx, %rcx
	movq	%r9, %rsi
	movl	%r10d, %ebp
	movl	%r11d, %r14d
	callq	"rand_chacha::guts::refill4.v1"
	movl	%r14d, %r11d
	movl	%ebp, %r10d
	movl	%edi, %r8d
	movq	%rsi, %r9
	addq	$4, 40(%rbx)
	xorl	%ecx, %ecx
.Lnoise_BB7_79:
	leaq	1(%rcx), %rax
	movl	32(%rsp), %edx
	jmp	.Lnoise_BB7_66
.Lnoise_BB7_80:
	movl	76(%rbx,%rcx,4), %edx
	movl	%edx, 144(%rsp)
	leaq	8(%rcx), %rdx
	movq	%rdx, 304(%rbx)
	cmpq	$62, %rax
	jne	.Lnoise_BB7_82
	movl	%r8d, %edi
	movq	32(%rbx), %r8
	movq	40(%rbx), %rdx
	movq	%rbx, %rcx
	movq	%r9, %rsi
	movl	%r10d, %ebp
	movl	%r11d, %r14d
	callq	"rand_chacha::guts::refill4.v1"
	movl	%r14d, %r11d
	movl	%ebp, %r10d
	movl	%edi, %r8d
	movq	%rsi, %r9
	addq	$4, 40(%rbx)
	movl	48(%rbx), %eax
	movl	%eax, 80(%rsp)
	movl	$1, %ecx
	jmp	.Lnoise_BB7_84
.Lnoise_BB7_82:
	movl	80(%rbx,%rcx,4), %eax
	movl	%eax, 80(%rsp)
	leaq	9(%rcx), %rax
	movq	%rax, 304(%rbx)
	cmpq	$55, %rcx
	jb	.Lnoise_BB7_85
	movl	%r8d, %edi
	movq	32(%rbx), %r8
	movq	40(%rbx), %rdx
	movq	%rbx, %rcx
	movq	%r9, %rsi
	movl	%r10d, %ebp
	movl	%r11d, %r14d
	callq	"rand_chacha::guts::refill4.v1"
	movl	%r14d, %r11d
	movl	%ebp, %r10d
	movl	%edi, %r8d
	movq	%rsi, %r9
	addq	$4, 40(%rbx)
	xorl	%ecx, %ecx
.Lnoise_BB7_84:
	leaq	1(%rcx), %rax
	movl	32(%rsp), %edx
	jmp	.Lnoise_BB7_67
.Lnoise_BB7_85:
	movl	84(%rbx,%rcx,4), %eax
	movl	%eax, 44(%rsp)
	leaq	10(%rcx), %rax
	movq	%rax, 304(%rbx)
	cmpq	$62, %rdx
	jne	.Lnoise_BB7_87
	movl	%r8d, %edi
	movq	32(%rbx), %r8
	movq	40(%rbx), %rdx
	movq	%rbx, %rcx
	movq	%r9, %rsi
	movl	%r10d, %ebp
	movl	%r11d, %r14d
	callq	"rand_chacha::guts::refill4.v1"
	movl	%r14d, %r11d
	movl	%ebp, %r10d
	movl	%edi, %r8d
	movq	%rsi, %r9
	addq	$4, 40(%rbx)
	movl	48(%rbx), %esi
	movl	$1, %ecx
	jmp	.Lnoise_BB7_89
.Lnoise_BB7_87:
	movl	88(%rbx,%rcx,4), %esi
	leaq	11(%rcx), %rdx
	movq	%rdx, 304(%rbx)
	cmpq	$53, %rcx
	jb	.Lnoise_BB7_90
	movl	%r8d, %ebp
	movq	32(%rbx), %r8
	movq	40(%rbx), %rdx
	movq	%rbx, %rcx
	movq	%r9, %rdi
	movl	%r10d, %r14d
	movl	%r11d, %r13d
	callq	"rand_chacha::guts::refill4.v1"
	movl	%r13d, %r11d
	movl	%r14d, %r10d
	movl	%ebp, %r8d
	movq	%rdi, %r9
	addq	$4, 40(%rbx)
	xorl	%ecx, %ecx
.Lnoise_BB7_89:
	leaq	1(%rcx), %rax
	movl	32(%rsp), %edx
	jmp	.Lnoise_BB7_68
.Lnoise_BB7_90:
	movl	92(%rbx,%rcx,4), %edi
	leaq	12(%rcx), %rdx
	movq	%rdx, 304(%rbx)
	cmpq	$62, %rax
	movl	%r8d, 48(%rsp)
	jne	.Lnoise_BB7_93
	movq	32(%rbx), %r8
	movq	40(%rbx), %rdx
	movq	%rbx, %rcx
	movq	%r9, %r14
	movl	%r10d, %r13d
	movl	%r11d, %ebp
	callq	"rand_chacha::guts::refill4.v1"
	movl	%ebp, %r11d
	movl	%r13d, %r10d
	movl	48(%rsp), %r8d
	movq	%r14, %r9
	addq	$4, 40(%rbx)
	movl	48(%rbx), %ebp
	movl	$1, %ecx
	jmp	.Lnoise_BB7_92
.Lnoise_BB7_93:
	movl	96(%rbx,%rcx,4), %ebp
	leaq	13(%rcx), %rax
	movq	%rax, 304(%rbx)
	cmpq	$51, %rcx
	jb	.Lnoise_BB7_95
	movq	32(%rbx), %r8
	movq	40(%rbx), %rdx
	movq	%rbx, %rcx
	movq	%r9, %r14
	movl	%r10d, 36(%rsp)
	movl	%r11d, %r13d
	callq	"rand_chacha::guts::refill4.v1"
	movl	%r13d, %r11d
	movl	36(%rsp), %r10d
	movl	48(%rsp), %r8d
	movq	%r14, %r9
	addq	$4, 40(%rbx)
	xorl	%ecx, %ecx
.Lnoise_BB7_92:
	leaq	1(%rcx), %rax
	movl	32(%rsp), %edx
	jmp	.Lnoise_BB7_69
.Lnoise_BB7_95:
	movl	100(%rbx,%rcx,4), %r13d
	leaq	14(%rcx), %rax
	movq	%rax, 304(%rbx)
	cmpq	$62, %rdx
	jne	.Lnoise_BB7_97
	movq	32(%rbx), %r8
	movq	40(%rbx), %rdx
	movq	%rbx, %rcx
	movq	%r9, %r14
	movl	%r10d, 36(%rsp)
	movl	%r11d, 64(%rsp)
	callq	"rand_chacha::guts::refill4.v1"
	movl	64(%rsp), %r11d
	movl	36(%rsp), %r10d
	movl	48(%rsp), %r8d
	movq	%r14, %r9
	addq	$4, 40(%rbx)
	movl	48(%rbx), %r14d
	movq	$1, 304(%rbx)
	movl	$1, %eax
	jmp	.Lnoise_BB7_99
.Lnoise_BB7_97:
	movl	104(%rbx,%rcx,4), %r14d
	leaq	15(%rcx), %rax
	movq	%rax, 304(%rbx)
	cmpq	$49, %rcx
	jb	.Lnoise_BB7_99
	movq	32(%rbx), %r8
	movq	40(%rbx), %rdx
	movq	%rbx, %rcx
	leaq	48(%rbx), %r9
	movl	%r10d, 36(%rsp)
	movl	%r11d, 64(%rsp)
	callq	"rand_chacha::guts::refill4.v1"
	movl	64(%rsp), %r11d
	movl	36(%rsp), %r10d
	movl	48(%rsp), %r8d
	leaq	48(%rbx), %r9
	addq	$4, 40(%rbx)
	xorl	%eax, %eax
.Lnoise_BB7_99:
	movl	32(%rsp), %edx
	jmp	.Lnoise_BB7_100
.Lnoise_BB7_101:
	movq	128(%rsp), %rax
	movq	%rax, %r15
	andq	$63, %r15
	je	.Lnoise_BB7_160
	movq	%rax, %r8
	andq	$-64, %r8
	pxor	%xmm0, %xmm0
	movdqa	%xmm0, 224(%rsp)
	movdqa	%xmm0, 208(%rsp)
	movdqa	%xmm0, 192(%rsp)
	movdqa	%xmm0, 176(%rsp)
	movq	304(%rbx), %rcx
	cmpq	$64, %rcx
	jb	.Lnoise_BB7_104
	movq	%r8, %rsi
	movq	32(%rbx), %r8
	movq	40(%rbx), %rdx
	leaq	48(%rbx), %r14
	movq	%rbx, %rcx
	movq	%r14, %r9
	callq	"rand_chacha::guts::refill4.v1"
	addq	$4, 40(%rbx)
	movl	48(%rbx), %edx
	movl	$1, %eax
	jmp	.Lnoise_BB7_106
.Lnoise_BB7_104:
	leaq	48(%rbx), %r14
	movl	48(%rbx,%rcx,4), %edx
	leaq	1(%rcx), %rax
	movq	%rax, 304(%rbx)
	cmpq	$63, %rcx
	jne	.Lnoise_BB7_107
	movq	%r8, %rsi
	movq	32(%rbx), %r8
	movl	%edx, %edi
	movq	40(%rbx), %rdx
	movq	%rbx, %rcx
	movq	%r14, %r9
	callq	"rand_chacha::guts::refill4.v1"
	movl	%edi, %edx
	addq	$4, 40(%rbx)
	xorl	%eax, %eax
.Lnoise_BB7_106:
	movl	48(%rbx,%rax,4), %r9d
	leaq	1(%rax), %rcx
	movq	%rcx, 304(%rbx)
	movl	52(%rbx,%rax,4), %r10d
	leaq	2(%rax), %rcx
	movq	%rcx, 304(%rbx)
	leaq	(%rbx,%rax,4), %rcx
	addq	$56, %rcx
	addq	$3, %rax
	movq	%rsi, %r8
.Lnoise_BB7_112:
	movl	(%rcx), %r11d
	movq	%rax, 304(%rbx)
	movl	(%r14,%rax,4), %ecx
	movl	%ecx, 112(%rsp)
	leaq	1(%rax), %rcx
	movq	%rcx, 304(%rbx)
	leaq	(%r14,%rax,4), %rcx
	addq	$4, %rcx
	addq	$2, %rax
.Lnoise_BB7_118:
	movl	(%rcx), %ecx
	movl	%ecx, 160(%rsp)
	movq	%rax, 304(%rbx)
	movl	(%r14,%rax,4), %ecx
	movl	%ecx, 96(%rsp)
	leaq	1(%rax), %rcx
	movq	%rcx, 304(%rbx)
	leaq	(%r14,%rax,4), %rcx
	addq	$4, %rcx
	addq	$2, %rax
.Lnoise_BB7_124:
	movl	(%rcx), %ecx
	movl	%ecx, 144(%rsp)
	movq	%rax, 304(%rbx)
	movl	(%r14,%rax,4), %ecx
	movl	%ecx, 80(%rsp)
	leaq	1(%rax), %rcx
	movq	%rcx, 304(%rbx)
	leaq	(%r14,%rax,4), %rcx
	addq	$4, %rcx
	addq	$2, %rax
.Lnoise_BB7_130:
	movl	(%rcx), %ecx
	movl	%ecx, 44(%rsp)
	movq	%rax, 304(%rbx)
	movl	(%r14,%rax,4), %esi
	leaq	1(%rax), %rcx
	movq	%rcx, 304(%rbx)
	leaq	(%r14,%rax,4), %rcx
	addq	$4, %rcx
	addq	$2, %rax
.Lnoise_BB7_136:
	movl	(%rcx), %edi
	movq	%rax, 304(%rbx)
	movl	(%r14,%rax,4), %r13d
	leaq	1(%rax), %rcx
	movq	%rcx, 304(%rbx)
	leaq	(%r14,%rax,4), %rcx
	addq	$4, %rcx
	addq	$2, %rax
.Lnoise_BB7_142:
	movl	(%rcx), %ebp
	movq	%rax, 304(%rbx)
	movl	(%r14,%rax,4), %r12d
	incq	%rax
	movq	%rax, 304(%rbx)
.Lnoise_BB7_148:
	movl	(%r14,%rax,4), %ecx
	incq	%rax
	movq	%rax, 304(%rbx)
	movd	%edi, %xmm2
	movd	%esi, %xmm3
	movd	44(%rsp), %xmm4
	movd	80(%rsp), %xmm0
	movd	144(%rsp), %xmm5
	movd	96(%rsp), %xmm6
	movd	160(%rsp), %xmm7
	movd	112(%rsp), %xmm1
	movd	%r11d, %xmm8
	movd	%r10d, %xmm9
	movd	%r9d, %xmm10
	movd	%edx, %xmm11
	movd	%ebp, %xmm12
	punpckldq	%xmm2, %xmm3
	punpckldq	%xmm4, %xmm0
	punpcklqdq	%xmm3, %xmm0
	punpckldq	%xmm5, %xmm6
	punpckldq	%xmm7, %xmm1
	punpcklqdq	%xmm6, %xmm1
	punpckldq	%xmm8, %xmm9
	punpckldq	%xmm10, %xmm11
	punpcklqdq	%xmm9, %xmm11
	movd	%r13d, %xmm2
	punpckldq	%xmm12, %xmm2
	movd	%ecx, %xmm3
	movd	%r12d, %xmm4
	punpckldq	%xmm3, %xmm4
	movdqa	%xmm2, %xmm3
	punpcklqdq	%xmm4, %xmm3
	movdqa	%xmm3, 240(%rsp)
	movzwl	253(%rsp), %eax
	movzbl	255(%rsp), %edx
	movdqa	%xmm11, 176(%rsp)
	movdqa	%xmm1, 192(%rsp)
	movdqa	%xmm0, 208(%rsp)
	movq	%xmm2, 224(%rsp)
	movl	%r12d, 232(%rsp)
	movb	%cl, 236(%rsp)
	movw	%ax, 237(%rsp)
	movb	%dl, 239(%rsp)
	movq	136(%rsp), %rax
	addq	%r8, %rax
	cmpl	$4, %r15d
	jae	.Lnoise_BB7_150
	xorl	%ecx, %ecx
	jmp	.Lnoise_BB7_159
.Lnoise_BB7_150:
	cmpl	$32, %r15d
	jae	.Lnoise_BB7_152
	xorl	%ecx, %ecx
	jmp	.Lnoise_BB7_156
.Lnoise_BB7_107:
	movl	%edx, 32(%rsp)
	movl	52(%rbx,%rcx,4), %r9d
	leaq	2(%rcx), %rax
	movq	%rax, 304(%rbx)
	cmpq	$62, %rcx
	jb	.Lnoise_BB7_109
	movl	%r9d, %edi
	movq	%r8, %rsi
	movq	32(%rbx), %r8
	movq	40(%rbx), %rdx
	movq	%rbx, %rcx
	movq	%r14, %r9
	callq	"rand_chacha::guts::refill4.v1"
	addq	$4, 40(%rbx)
	movl	48(%rbx), %r10d
	movq	$1, 304(%rbx)
	movl	$1, %eax
	jmp	.Lnoise_BB7_111
.Lnoise_BB7_152:
	movq	128(%rsp), %rcx
	andl	$32, %ecx
	movq	136(%rsp), %rdx
	addq	%r8, %rdx
	addq	$16, %rdx
	xorl	%r8d, %r8d
	.p2align	4
.Lnoise_BB7_153:
	movdqu	-16(%rdx,%r8), %xmm0
	movdqu	(%rdx,%r8), %xmm1
	pxor	176(%rsp,%r8), %xmm0
	pxor	192(%rsp,%r8), %xmm1
	movdqu	%xmm0, -16(%rdx,%r8)
	movdqu	%xmm1, (%rdx,%r8)
	addq	$32, %r8
	cmpq	%r8, %rcx
	jne	.Lnoise_BB7_153
	cmpl	%ecx, %r15d
	je	.Lnoise_BB7_160
	testb	$28, 128(%rsp)
	je	.Lnoise_BB7_159
.Lnoise_BB7_156:
	movq	%rcx, %rdx
	movq	128(%rsp), %rcx
	andl	$60, %ecx
	.p2align	4
.Lnoise_BB7_157:
	movl	176(%rsp,%rdx), %r8d
	xorl	%r8d, (%rax,%rdx)
	addq	$4, %rdx
	cmpq	%rdx, %rcx
	jne	.Lnoise_BB7_157
	cmpl	%ecx, %r15d
	je	.Lnoise_BB7_160
	.p2align	4
.Lnoise_BB7_159:
	movzbl	176(%rsp,%rcx), %edx
	xorb	%dl, (%rax,%rcx)
	incq	%rcx
	cmpq	%rcx, %r15
	jne	.Lnoise_BB7_159
.Lnoise_BB7_160:
	movaps	256(%rsp), %xmm6
	movaps	272(%rsp), %xmm7
	movaps	288(%rsp), %xmm8
	movaps	304(%rsp), %xmm9
	movaps	320(%rsp), %xmm10
	movaps	336(%rsp), %xmm11
	movaps	352(%rsp), %xmm12
	movaps	368(%rsp), %xmm13
	movaps	384(%rsp), %xmm14
	movaps	400(%rsp), %xmm15
	addq	$424, %rsp
	popq	%rbx
	popq	%rbp
	popq	%rdi
	popq	%rsi
	popq	%r12
	popq	%r13
	popq	%r14
	popq	%r15
	retq
.Lnoise_BB7_109:
	movl	56(%rbx,%rcx,4), %r10d
	leaq	3(%rcx), %rdx
	movq	%rdx, 304(%rbx)
	cmpq	$61, %rcx
	jne	.Lnoise_BB7_113
	movl	%r9d, %edi
	movq	%r8, %rsi
	movq	32(%rbx), %r8
	movq	40(%rbx), %rdx
	movq	%rbx, %rcx
	movq	%r14, %r9
	movl	%r10d, %ebp
	callq	"rand_chacha::guts::refill4.v1"
	movl	%ebp, %r10d
	addq	$4, 40(%rbx)
	xorl	%eax, %eax
.Lnoise_BB7_111:
	leaq	(%r14,%rax,4), %rcx
	incq	%rax
	movq	%rsi, %r8
	movl	32(%rsp), %edx
	movl	%edi, %r9d
	jmp	.Lnoise_BB7_112
.Lnoise_BB7_113:
	movl	60(%rbx,%rcx,4), %r11d
	leaq	4(%rcx), %rdx
	movq	%rdx, 304(%rbx)
	cmpq	$62, %rax
	jne	.Lnoise_BB7_115
	movl	%r11d, %r12d
	movl	%r10d, %ebp
	movl	%r9d, %edi
	movq	%r8, %rsi
	movq	32(%rbx), %r8
	movq	40(%rbx), %rdx
	movq	%rbx, %rcx
	movq	%r14, %r9
	callq	"rand_chacha::guts::refill4.v1"
	addq	$4, 40(%rbx)
	movl	48(%rbx), %eax
	movl	%eax, 112(%rsp)
	movq	$1, 304(%rbx)
	movl	$1, %eax
	jmp	.Lnoise_BB7_117
.Lnoise_BB7_115:
	movl	64(%rbx,%rcx,4), %eax
	movl	%eax, 112(%rsp)
	leaq	5(%rcx), %rax
	movq	%rax, 304(%rbx)
	cmpq	$59, %rcx
	jb	.Lnoise_BB7_119
	movl	%r11d, %r12d
	movl	%r10d, %ebp
	movl	%r9d, %edi
	movq	%r8, %rsi
	movq	32(%rbx), %r8
	movq	40(%rbx), %rdx
	movq	%rbx, %rcx
	movq	%r14, %r9
	callq	"rand_chacha::guts::refill4.v1"
	addq	$4, 40(%rbx)
	xorl	%eax, %eax
.Lnoise_BB7_117:
	leaq	(%r14,%rax,4), %rcx
	incq	%rax
	movq	%rsi, %r8
	movl	32(%rsp), %edx
	movl	%edi, %r9d
	movl	%ebp, %r10d
	movl	%r12d, %r11d
	jmp	.Lnoise_BB7_118
.Lnoise_BB7_119:
	movl	68(%rbx,%rcx,4), %eax
	movl	%eax, 160(%rsp)
	leaq	6(%rcx), %rax
	movq	%rax, 304(%rbx)
	cmpq	$62, %rdx
	jne	.Lnoise_BB7_121
	movl	%r11d, %r12d
	movl	%r10d, %ebp
	movl	%r9d, %edi
	movq	%r8, %rsi
	movq	32(%rbx), %r8
	movq	40(%rbx), %rdx
	movq	%rbx, %rcx
	movq	%r14, %r9
	callq	"rand_chacha::guts::refill4.v1"
	addq	$4, 40(%rbx)
	movl	48(%rbx), %eax
	movl	%eax, 96(%rsp)
	movq	$1, 304(%rbx)
	movl	$1, %eax
	jmp	.Lnoise_BB7_123
.Lnoise_BB7_121:
	movl	72(%rbx,%rcx,4), %edx
	movl	%edx, 96(%rsp)
	leaq	7(%rcx), %rdx
	movq	%rdx, 304(%rbx)
	cmpq	$57, %rcx
	jb	.Lnoise_BB7_125
	movl	%r11d, %r12d
	movl	%r10d, %ebp
	movl	%r9d, %edi
	movq	%r8, %rsi
	movq	32(%rbx), %r8
	movq	40(%rbx), %rdx
	movq	%rbx, %rcx
	movq	%r14, %r9
	callq	"rand_chacha::guts::refill4.v1"
	addq	$4, 40(%rbx)
	xorl	%eax, %eax
.Lnoise_BB7_123:
	leaq	(%r14,%rax,4), %rcx
	incq	%rax
	movq	%rsi, %r8
	movl	32(%rsp), %edx
	movl	%edi, %r9d
	movl	%ebp, %r10d
	movl	%r12d, %r11d
	jmp	.Lnoise_BB7_124
.Lnoise_BB7_125:
	movl	76(%rbx,%rcx,4), %edx
	movl	%edx, 144(%rsp)
	leaq	8(%rcx), %rdx
	movq	%rdx, 304(%rbx)
	cmpq	$62, %rax
	jne	.Lnoise_BB7_127
	movl	%r11d, %r12d
	movl	%r10d, %ebp
	movl	%r9d, %edi
	movq	%r8, %rsi
	movq	32(%rbx), %r8
	movq	40(%rbx), %rdx
	movq	%rbx, %rcx
	movq	%r14, %r9
	callq	"rand_chacha::guts::refill4.v1"
	addq	$4, 40(%rbx)
	movl	48(%rbx), %eax
	movl	%eax, 80(%rsp)
	movq	$1, 304(%rbx)
	movl	$1, %eax
	jmp	.Lnoise_BB7_129
.Lnoise_BB7_127:
	movl	80(%rbx,%rcx,4), %eax
	movl	%eax, 80(%rsp)
	leaq	9(%rcx), %rax
	movq	%rax, 304(%rbx)
	cmpq	$55, %rcx
	jb	.Lnoise_BB7_131
	movl	%r11d, %r12d
	movl	%r10d, %ebp
	movl	%r9d, %edi
	movq	%r8, %rsi
	movq	32(%rbx), %r8
	movq	40(%rbx), %rdx
	movq	%rbx, %rcx
	movq	%r14, %r9
	callq	"rand_chacha::guts::refill4.v1"
	addq	$4, 40(%rbx)
	xorl	%eax, %eax
.Lnoise_BB7_129:
	leaq	(%r14,%rax,4), %rcx
	incq	%rax
	movq	%rsi, %r8
	movl	32(%rsp), %edx
	movl	%edi, %r9d
	movl	%ebp, %r10d
	movl	%r12d, %r11d
	jmp	.Lnoise_BB7_130
.Lnoise_BB7_131:
	movl	84(%rbx,%rcx,4), %eax
	movl	%eax, 44(%rsp)
	leaq	10(%rcx), %rax
	movq	%rax, 304(%rbx)
	cmpq	$62, %rdx
	jne	.Lnoise_BB7_133
	movl	%r11d, %r13d
	movl	%r10d, %r12d
	movl	%r9d, %ebp
	movq	%r8, %rdi
	movq	32(%rbx), %r8
	movq	40(%rbx), %rdx
	movq	%rbx, %rcx
	movq	%r14, %r9
	callq	"rand_chacha::guts::refill4.v1"
	addq	$4, 40(%rbx)
	movl	48(%rbx), %esi
	movq	$1, 304(%rbx)
	movl	$1, %eax
	jmp	.Lnoise_BB7_135
.Lnoise_BB7_133:
	movl	88(%rbx,%rcx,4), %esi
	leaq	11(%rcx), %rdx
	movq	%rdx, 304(%rbx)
	cmpq	$53, %rcx
	jb	.Lnoise_BB7_137
	movl	%r11d, %r13d
	movl	%r10d, %r12d
	movl	%r9d, %ebp
	movq	%r8, %rdi
	movq	32(%rbx), %r8
	movq	40(%rbx), %rdx
	movq	%rbx, %rcx
	movq	%r14, %r9
	callq	"rand_chacha::guts::refill4.v1"
	addq	$4, 40(%rbx)
	xorl	%eax, %eax
.Lnoise_BB7_135:
	leaq	(%r14,%rax,4), %rcx
	incq	%rax
	movq	%rdi, %r8
	movl	32(%rsp), %edx
	movl	%ebp, %r9d
	movl	%r12d, %r10d
	movl	%r13d, %r11d
	jmp	.Lnoise_BB7_136
.Lnoise_BB7_137:
	movl	%r11d, 40(%rsp)
	movl	%r10d, 64(%rsp)
	movl	%r9d, 36(%rsp)
	movq	%r8, 48(%rsp)
	movl	92(%rbx,%rcx,4), %edi
	leaq	12(%rcx), %rdx
	movq	%rdx, 304(%rbx)
	cmpq	$62, %rax
	jne	.Lnoise_BB7_139
	movq	32(%rbx), %r8
	movq	40(%rbx), %rdx
	movq	%rbx, %rcx
	movq	%r14, %r9
	callq	"rand_chacha::guts::refill4.v1"
	addq	$4, 40(%rbx)
	movl	48(%rbx), %r13d
	movq	$1, 304(%rbx)
	movl	$1, %eax
	jmp	.Lnoise_BB7_141
.Lnoise_BB7_139:
	movl	96(%rbx,%rcx,4), %r13d
	leaq	13(%rcx), %rax
	movq	%rax, 304(%rbx)
	cmpq	$51, %rcx
	jb	.Lnoise_BB7_143
	movq	32(%rbx), %r8
	movq	40(%rbx), %rdx
	movq	%rbx, %rcx
	movq	%r14, %r9
	callq	"rand_chacha::guts::refill4.v1"
	addq	$4, 40(%rbx)
	xorl	%eax, %eax
.Lnoise_BB7_141:
	leaq	(%r14,%rax,4), %rcx
	incq	%rax
	movq	48(%rsp), %r8
	movl	32(%rsp), %edx
	movl	36(%rsp), %r9d
	movl	64(%rsp), %r10d
	movl	40(%rsp), %r11d
	jmp	.Lnoise_BB7_142
.Lnoise_BB7_143:
	movl	100(%rbx,%rcx,4), %ebp
	leaq	14(%rcx), %rax
	movq	%rax, 304(%rbx)
	cmpq	$62, %rdx
	jne	.Lnoise_BB7_145
	movq	32(%rbx), %r8
	movq	40(%rbx), %rdx
	movq	%rbx, %rcx
	movq	%r14, %r9
	callq	"rand_chacha::guts::refill4.v1"
	addq	$4, 40(%rbx)
	movl	48(%rbx), %r12d
	movq	$1, 304(%rbx)
	movl	$1, %eax
	jmp	.Lnoise_BB7_147
.Lnoise_BB7_145:
	movl	104(%rbx,%rcx,4), %r12d
	leaq	15(%rcx), %rax
	movq	%rax, 304(%rbx)
	cmpq	$49, %rcx
	jb	.Lnoise_BB7_147
	movq	32(%rbx), %r8
	movq	40(%rbx), %rdx
	movq	%rbx, %rcx
	movq	%r14, %r9
	callq	"rand_chacha::guts::refill4.v1"
	addq	$4, 40(%rbx)
	xorl	%eax, %eax
.Lnoise_BB7_147:
	movq	48(%rsp), %r8
	movl	32(%rsp), %edx
	movl	36(%rsp), %r9d
	movl	64(%rsp), %r10d
	movl	40(%rsp), %r11d
	jmp	.Lnoise_BB7_148
	.seh_endproc

	.def	"noise_state::cipher::CipherState::encrypt.v1";
	.scl	3;
	.type	32;
	.endef
	.p2align	4
"noise_state::cipher::CipherState::encrypt.v1":
.seh_proc "noise_state::cipher::CipherState::encrypt.v1"
	pushq	%r15
	.seh_pushreg %r15
	pushq	%r14
	.seh_pushreg %r14
	pushq	%r13
	.seh_pushreg %r13
	pushq	%r12
	.seh_pushreg %r12
	pushq	%rsi
	.seh_pushreg %rsi
	pushq	%rdi
	.seh_pushreg %rdi
	pushq	%rbx
	.seh_pushreg %rbx
	subq	$448, %rsp
	.seh_stackalloc 448
	.seh_endprologue
	movq	552(%rsp), %rsi
	cmpb	$1, (%rdx)
	jne	.Lnoise_BB8_3
	movq	40(%rdx), %rax
	cmpq	$-1, %rax
	je	.Lnoise_BB8_2
	cmpq	$65520, %rsi
	jb	.Lnoise_BB8_7
	movw	$769, (%rcx)
	movq	$0, 8(%rcx)
	jmp	.Lnoise_BB8_4
.Lnoise_BB8_3:
	xorl	%eax, %eax
	xorl	%edx, %edx
	cmpq	$65536, %rsi
	setae	%dl
	leal	(%rdx,%rdx,2), %edx
	setae	(%rcx)
	cmovbq	%rsi, %rax
	movb	%dl, 1(%rcx)
	movq	%rax, 8(%rcx)
	jmp	.Lnoise_BB8_4
.Lnoise_BB8_2:
	movw	$1, (%rcx)
	movq	$0, 8(%rcx)
	jmp	.Lnoise_BB8_4
.Lnoise_BB8_7:
	movq	544(%rsp), %rdi
	movups	1(%rdx), %xmm0
	movups	17(%rdx), %xmm1
	leaq	160(%rsp), %r10
	xorps	%xmm2, %xmm2
	movaps	%xmm2, 160(%rsp)
	movaps	%xmm2, 176(%rsp)
	movaps	%xmm2, 192(%rsp)
	movaps	%xmm2, 208(%rsp)
	movaps	%xmm2, 224(%rsp)
	movaps	%xmm2, 240(%rsp)
	movaps	%xmm2, 256(%rsp)
	movaps	%xmm2, 272(%rsp)
	movaps	%xmm2, 288(%rsp)
	movaps	%xmm2, 304(%rsp)
	movaps	%xmm2, 320(%rsp)
	movaps	%xmm2, 336(%rsp)
	movaps	%xmm2, 352(%rsp)
	movaps	%xmm2, 368(%rsp)
	movaps	%xmm2, 384(%rsp)
	movaps	%xmm2, 400(%rsp)
	movaps	%xmm0, 112(%rsp)
	movaps	%xmm1, 128(%rsp)
	movq	%rax, 144(%rsp)
	movq	$0, 152(%rsp)
	movq	$64, 416(%rsp)
	leaq	112(%rsp), %r15
	movq	%rcx, %r12
	movq	%r15, %rcx
	movq	%rdx, %r13
	xorl	%edx, %edx
	movq	%r8, %r14
	movq	%rax, %r8
	movq	%r9, %rbx
	movq	%r10, %r9
	callq	"rand_chacha::guts::refill4.v1"
	addq	$4, 152(%rsp)
	movzbl	188(%rsp), %eax
	movaps	160(%rsp), %xmm0
	movdqa	176(%rsp), %xmm1
	movq	$16, 416(%rsp)
	movdqa	%xmm1, 80(%rsp)
	movzwl	93(%rsp), %ecx
	movzbl	95(%rsp), %edx
	movaps	%xmm0, 48(%rsp)
	movq	%xmm1, 64(%rsp)
	pshufd	$238, %xmm1, %xmm0
	movd	%xmm0, 72(%rsp)
	movb	%al, 76(%rsp)
	movw	%cx, 77(%rsp)
	movb	%dl, 79(%rsp)
	movq	%r15, %rcx
	movq	%rdi, %rdx
	movq	%rsi, %r8
	callq	"noise_aead::keystream::apply.v1"
	movq	%rsi, 40(%rsp)
	movq	%rdi, 32(%rsp)
	leaq	96(%rsp), %rcx
	leaq	48(%rsp), %rdx
	movq	%r14, %r8
	movq	%rbx, %r9
	callq	"noise_aead::authenticator::tag.v1"
	movups	96(%rsp), %xmm0
	movaps	%xmm0, 432(%rsp)
	movups	%xmm0, (%rdi,%rsi)
	incq	40(%r13)
	addq	$16, %rsi
	movw	$0, (%r12)
	movq	%rsi, 8(%r12)
.Lnoise_BB8_4:
	addq	$448, %rsp
	popq	%rbx
	popq	%rdi
	popq	%rsi
	popq	%r12
	popq	%r13
	popq	%r14
	popq	%r15
	retq
	.seh_endproc

	.def	"noise_state::cipher::CipherState::rekey";
	.scl	3;
	.type	32;
	.endef
	.p2align	4
"noise_state::cipher::CipherState::rekey":
.seh_proc "noise_state::cipher::CipherState::rekey"
	pushq	%r15
	.seh_pushreg %r15
	pushq	%r14
	.seh_pushreg %r14
	pushq	%r13
	.seh_pushreg %r13
	pushq	%r12
	.seh_pushreg %r12
	pushq	%rsi
	.seh_pushreg %rsi
	pushq	%rdi
	.seh_pushreg %rdi
	pushq	%rbp
	.seh_pushreg %rbp
	pushq	%rbx
	.seh_pushreg %rbx
	subq	$408, %rsp
	.seh_stackalloc 408
	.seh_endprologue
	cmpb	$1, (%rcx)
	jne	.Lnoise_BB9_35
	movq	%rcx, %rsi
	movups	1(%rcx), %xmm0
	movaps	%xmm0, 368(%rsp)
	movups	17(%rcx), %xmm0
	movaps	%xmm0, 384(%rsp)
	leaq	40(%rsp), %rcx
	leaq	368(%rsp), %rdx
	xorl	%r8d, %r8d
	movq	$-1, %r9
	callq	"noise_aead::keystream::generator_apart"
	movq	344(%rsp), %rax
	cmpq	$64, %rax
	jb	.Lnoise_BB9_3
	movq	72(%rsp), %r8
	movq	80(%rsp), %rdx
	leaq	88(%rsp), %rdi
	leaq	40(%rsp), %rcx
	movq	%rdi, %r9
	callq	"rand_chacha::guts::refill4"
	addq	$4, 80(%rsp)
	movl	$1, %eax
	movl	88(%rsp), %edx
	jmp	.Lnoise_BB9_5
.Lnoise_BB9_3:
	leaq	88(%rsp), %rdi
	movl	88(%rsp,%rax,4), %edx
	leaq	1(%rax), %rcx
	movq	%rcx, 344(%rsp)
	cmpq	$63, %rax
	jne	.Lnoise_BB9_6
	movq	72(%rsp), %r8
	movl	%edx, %ebx
	movq	80(%rsp), %rdx
	leaq	40(%rsp), %rcx
	movq	%rdi, %r9
	callq	"rand_chacha::guts::refill4"
	movl	%ebx, %edx
	addq	$4, 80(%rsp)
	xorl	%eax, %eax
.Lnoise_BB9_5:
	movl	88(%rsp,%rax,4), %r8d
	movl	92(%rsp,%rax,4), %r14d
	leaq	(%rsp,%rax,4), %rcx
	addq	$96, %rcx
	addq	$3, %rax
.Lnoise_BB9_11:
	movl	(%rcx), %r15d
	movq	%rax, 344(%rsp)
	movl	(%rdi,%rax,4), %r12d
	leaq	1(%rax), %rcx
	movq	%rcx, 344(%rsp)
	leaq	(%rdi,%rax,4), %rcx
	addq	$4, %rcx
	addq	$2, %rax
.Lnoise_BB9_17:
	movl	(%rcx), %r13d
	movq	%rax, 344(%rsp)
	movl	(%rdi,%rax,4), %ebx
	leaq	1(%rax), %rcx
	movq	%rcx, 344(%rsp)
	leaq	(%rdi,%rax,4), %rax
	addq	$4, %rax
	movl	(%rax), %ebp
.Lnoise_BB9_34:
	movd	%r15d, %xmm0
	movd	%r14d, %xmm1
	punpckldq	%xmm0, %xmm1
	movd	%r8d, %xmm0
	movd	%edx, %xmm2
	punpckldq	%xmm0, %xmm2
	punpcklqdq	%xmm1, %xmm2
	movd	%ebp, %xmm0
	movd	%ebx, %xmm1
	punpckldq	%xmm0, %xmm1
	movd	%r13d, %xmm0
	movd	%r12d, %xmm3
	punpckldq	%xmm0, %xmm3
	movdqa	%xmm3, %xmm0
	punpcklqdq	%xmm1, %xmm0
	movdqa	%xmm0, 352(%rsp)
	movzwl	365(%rsp), %eax
	movzbl	367(%rsp), %ecx
	movb	$1, (%rsi)
	movdqu	%xmm2, 1(%rsi)
	movq	%xmm3, 17(%rsi)
	movl	%ebx, 25(%rsi)
	movb	%bpl, 29(%rsi)
	movw	%ax, 30(%rsi)
	movb	%cl, 32(%rsi)
.Lnoise_BB9_35:
	addq	$408, %rsp
	popq	%rbx
	popq	%rbp
	popq	%rdi
	popq	%rsi
	popq	%r12
	popq	%r13
	popq	%r14
	popq	%r15
	retq
.Lnoise_BB9_6:
	movl	%edx, 32(%rsp)
	movl	92(%rsp,%rax,4), %r8d
	leaq	2(%rax), %rcx
	movq	%rcx, 344(%rsp)
	cmpq	$62, %rax
	jb	.Lnoise_BB9_8
	movl	%r8d, %ebx
	movq	72(%rsp), %r8
	movq	80(%rsp), %rdx
	leaq	40(%rsp), %rcx
	movq	%rdi, %r9
	callq	"rand_chacha::guts::refill4"
	addq	$4, 80(%rsp)
	movl	$1, %eax
	movl	88(%rsp), %r14d
	jmp	.Lnoise_BB9_10
.Lnoise_BB9_8:
	movl	96(%rsp,%rax,4), %r14d
	leaq	3(%rax), %rdx
	movq	%rdx, 344(%rsp)
	cmpq	$61, %rax
	jne	.Lnoise_BB9_12
	movl	%r8d, %ebx
	movq	72(%rsp), %r8
	movq	80(%rsp), %rdx
	leaq	40(%rsp), %rcx
	movq	%rdi, %r9
	callq	"rand_chacha::guts::refill4"
	addq	$4, 80(%rsp)
	xorl	%eax, %eax
.Lnoise_BB9_10:
	leaq	(%rdi,%rax,4), %rcx
	incq	%rax
	movl	32(%rsp), %edx
	movl	%ebx, %r8d
	jmp	.Lnoise_BB9_11
.Lnoise_BB9_12:
	movl	100(%rsp,%rax,4), %r15d
	leaq	4(%rax), %rdx
	movq	%rdx, 344(%rsp)
	cmpq	$62, %rcx
	jne	.Lnoise_BB9_14
	movl	%r8d, %ebx
	movq	72(%rsp), %r8
	movq	80(%rsp), %rdx
	leaq	40(%rsp), %rcx
	movq	%rdi, %r9
	callq	"rand_chacha::guts::refill4"
	addq	$4, 80(%rsp)
	movl	88(%rsp), %r12d
	movq	$1, 344(%rsp)
	movl	$1, %eax
	jmp	.Lnoise_BB9_16
.Lnoise_BB9_14:
	movl	104(%rsp,%rax,4), %r12d
	leaq	5(%rax), %rcx
	movq	%rcx, 344(%rsp)
	cmpq	$59, %rax
	jb	.Lnoise_BB9_18
	movl	%r8d, %ebx
	movq	72(%rsp), %r8
	movq	80(%rsp), %rdx
	leaq	40(%rsp), %rcx
	movq	%rdi, %r9
	callq	"rand_chacha::guts::refill4"
	addq	$4, 80(%rsp)
	xorl	%eax, %eax
.Lnoise_BB9_16:
	leaq	(%rdi,%rax,4), %rcx
	incq	%rax
	movl	32(%rsp), %edx
	movl	%ebx, %r8d
	jmp	.Lnoise_BB9_17
.Lnoise_BB9_18:
	movl	108(%rsp,%rax,4), %r13d
	leaq	6(%rax), %rcx
	movq	%rcx, 344(%rsp)
	cmpq	$62, %rdx
	jne	.Lnoise_BB9_20
	movl	%r8d, %ebx
	movq	72(%rsp), %r8
	movq	80(%rsp), %rdx
	leaq	40(%rsp), %rcx
	movq	%rdi, %r9
	callq	"rand_chacha::guts::refill4"
	movl	%ebx, %r8d
	addq	$4, 80(%rsp)
	movl	88(%rsp), %ebx
	movq	$1, 344(%rsp)
	addq	$4, %rdi
	jmp	.Lnoise_BB9_22
.Lnoise_BB9_20:
	movl	112(%rsp,%rax,4), %ebx
	leaq	7(%rax), %rdx
	movq	%rdx, 344(%rsp)
	cmpq	$57, %rax
	jb	.Lnoise_BB9_23
	movl	%r8d, %ebp
	movq	72(%rsp), %r8
	movq	80(%rsp), %rdx
	leaq	40(%rsp), %rcx
	movq	%rdi, %r9
	callq	"rand_chacha::guts::refill4"
	movl	%ebp, %r8d
	addq	$4, 80(%rsp)
.Lnoise_BB9_22:
	movl	(%rdi), %ebp
	movl	32(%rsp), %edx
	jmp	.Lnoise_BB9_34
.Lnoise_BB9_23:
	movl	116(%rsp,%rax,4), %ebp
	leaq	8(%rax), %rdx
	movq	%rdx, 344(%rsp)
	cmpq	$62, %rcx
	movl	%r8d, 36(%rsp)
	je	.Lnoise_BB9_24
	leaq	9(%rax), %rcx
	movq	%rcx, 344(%rsp)
	cmpq	$55, %rax
	jae	.Lnoise_BB9_24
	leaq	10(%rax), %rcx
	movq	%rcx, 344(%rsp)
	cmpq	$62, %rdx
	je	.Lnoise_BB9_24
	leaq	11(%rax), %rdx
	movq	%rdx, 344(%rsp)
	cmpq	$53, %rax
	jb	.Lnoise_BB9_28
.Lnoise_BB9_24:
	movq	72(%rsp), %r8
	movq	80(%rsp), %rdx
	leaq	40(%rsp), %rcx
	movq	%rdi, %r9
	callq	"rand_chacha::guts::refill4"
	movl	36(%rsp), %r8d
	movl	32(%rsp), %edx
	jmp	.Lnoise_BB9_34
.Lnoise_BB9_28:
	leaq	12(%rax), %rdx
	movq	%rdx, 344(%rsp)
	cmpq	$62, %rcx
	je	.Lnoise_BB9_32
	leaq	13(%rax), %rcx
	movq	%rcx, 344(%rsp)
	cmpq	$51, %rax
	jae	.Lnoise_BB9_32
	leaq	14(%rax), %rcx
	movq	%rcx, 344(%rsp)
	cmpq	$62, %rdx
	je	.Lnoise_BB9_32
	leaq	15(%rax), %rcx
	movq	%rcx, 344(%rsp)
	cmpq	$49, %rax
	jb	.Lnoise_BB9_33
.Lnoise_BB9_32:
	movq	72(%rsp), %r8
	movq	80(%rsp), %rdx
	leaq	40(%rsp), %rcx
	movq	%rdi, %r9
	callq	"rand_chacha::guts::refill4"
.Lnoise_BB9_33:
	movl	32(%rsp), %edx
	movl	36(%rsp), %r8d
	jmp	.Lnoise_BB9_34
	.seh_endproc

	.def	"noise_aead::keystream::generator_apart";
	.scl	3;
	.type	32;
	.endef
	.p2align	4
"noise_aead::keystream::generator_apart":
	shlq	$32, %r8
	incq	%r8
	movups	(%rdx), %xmm0
	movups	16(%rdx), %xmm1
	movups	%xmm0, (%rcx)
	movups	%xmm1, 16(%rcx)
	movq	%r9, 32(%rcx)
	movq	%r8, 40(%rcx)
	xorps	%xmm0, %xmm0
	movups	%xmm0, 48(%rcx)
	movups	%xmm0, 64(%rcx)
	movups	%xmm0, 80(%rcx)
	movups	%xmm0, 96(%rcx)
	movups	%xmm0, 112(%rcx)
	movups	%xmm0, 128(%rcx)
	movups	%xmm0, 144(%rcx)
	movups	%xmm0, 160(%rcx)
	movups	%xmm0, 176(%rcx)
	movups	%xmm0, 192(%rcx)
	movups	%xmm0, 208(%rcx)
	movups	%xmm0, 224(%rcx)
	movups	%xmm0, 240(%rcx)
	movups	%xmm0, 256(%rcx)
	movups	%xmm0, 272(%rcx)
	movups	%xmm0, 288(%rcx)
	movq	$64, 304(%rcx)
	retq

	.def	"noise_c::patterns::pattern_of";
	.scl	3;
	.type	32;
	.endef
	.p2align	4
"noise_c::patterns::pattern_of":
.seh_proc "noise_c::patterns::pattern_of"
	pushq	%r14
	.seh_pushreg %r14
	pushq	%rsi
	.seh_pushreg %rsi
	pushq	%rdi
	.seh_pushreg %rdi
	pushq	%rbx
	.seh_pushreg %rbx
	subq	$2040, %rsp
	.seh_stackalloc 2040
	.seh_endprologue
	movq	%r8, %rdi
	movq	%rdx, %rbx
	movq	%rcx, %rsi
	testq	%r8, %r8
	je	.Lnoise_BB11_8
	cmpb	$10, -1(%rbx,%rdi)
	jne	.Lnoise_BB11_8
	leaq	400(%rsp), %r14
	movl	$280, %r8d
	movq	%r14, %rcx
	xorl	%edx, %edx
	callq	memset
	leaq	952(%rsp), %rcx
	movl	$272, %r8d
	xorl	%edx, %edx
	callq	memset
	leaq	120(%rsp), %rcx
	movl	$280, %r8d
	xorl	%edx, %edx
	callq	memset
	leaq	1224(%rsp), %rcx
	movl	$272, %r8d
	xorl	%edx, %edx
	callq	memset
	movq	%r14, %rcx
	movq	%rbx, %rdx
	movq	%rdi, %r8
	callq	"noise_names::pattern::Pattern::parse_text"
	cmpb	$0, 400(%rsp)
	je	.Lnoise_BB11_4
	movl	$2, %ebx
	movb	$1, %dil
	jmp	.Lnoise_BB11_7
.Lnoise_BB11_8:
	xorps	%xmm0, %xmm0
	movaps	%xmm0, 32(%rsp)
	movaps	%xmm0, 48(%rsp)
	movaps	%xmm0, 64(%rsp)
	leaq	952(%rsp), %rcx
	movl	$272, %r8d
	xorl	%edx, %edx
	callq	memset
	leaq	400(%rsp), %rcx
	movl	$280, %r8d
	xorl	%edx, %edx
	callq	memset
	leaq	1768(%rsp), %rcx
	movl	$272, %r8d
	xorl	%edx, %edx
	callq	memset
	leaq	120(%rsp), %rcx
	movl	$280, %r8d
	xorl	%edx, %edx
	callq	memset
	leaq	1496(%rsp), %rcx
	movl	$272, %r8d
	xorl	%edx, %edx
	callq	memset
	leaq	32(%rsp), %rcx
	movq	%rbx, %rdx
	movq	%rdi, %r8
	callq	"noise_names::name::ProtocolName::parse"
	cmpb	$0, 32(%rsp)
	je	.Lnoise_BB11_9
.Lnoise_BB11_16:
	leaq	680(%rsp), %rcx
	movl	$272, %r8d
	xorl	%edx, %edx
	callq	memset
	movl	$1, %ebx
	movb	$1, %dil
	jmp	.Lnoise_BB11_22
.Lnoise_BB11_9:
	movups	40(%rsp), %xmm0
	movups	56(%rsp), %xmm1
	movaps	%xmm0, 80(%rsp)
	movaps	%xmm1, 96(%rsp)
	movq	72(%rsp), %rdi
	movq	%rdi, 112(%rsp)
	movq	88(%rsp), %rdx
	leaq	80(%rsp), %rcx
	callq	"noise_names::table::place_of"
	testq	%rdi, %rdi
	je	.Lnoise_BB11_10
	cmpb	$1, %al
	jne	.Lnoise_BB11_16
	leaq	96(%rsp), %rdi
	leaq	1224(%rsp), %rbx
	movq	%rbx, %rcx
	callq	"noise_names::table::row"
	leaq	400(%rsp), %rcx
	movq	%rbx, %rdx
	movq	%rdi, %r8
	callq	"noise_names::pattern::Pattern::with_psks"
	cmpb	$0, 400(%rsp)
	je	.Lnoise_BB11_17
	movl	$1, %ebx
	movb	$1, %dil
	jmp	.Lnoise_BB11_20
.Lnoise_BB11_4:
	leaq	408(%rsp), %rdx
	leaq	120(%rsp), %rcx
	callq	"noise_names::pattern::Pattern::check"
	movzbl	120(%rsp), %edi
	movl	$2, %ebx
	testb	%dil, %dil
	jne	.Lnoise_BB11_6
	leaq	128(%rsp), %rdx
	leaq	1224(%rsp), %rcx
	movl	$272, %r8d
	callq	memcpy
	xorl	%ebx, %ebx
.Lnoise_BB11_6:
	leaq	952(%rsp), %rcx
	leaq	1224(%rsp), %rdx
	movl	$272, %r8d
	callq	memcpy
.Lnoise_BB11_7:
	leaq	680(%rsp), %rcx
	leaq	952(%rsp), %rdx
	jmp	.Lnoise_BB11_21
.Lnoise_BB11_10:
	movl	$1, %edi
	cmpb	$1, %al
	jne	.Lnoise_BB11_12
	leaq	952(%rsp), %rcx
	callq	"noise_names::table::row"
	xorl	%edi, %edi
.Lnoise_BB11_12:
	leaq	680(%rsp), %rcx
	leaq	952(%rsp), %rdx
	movl	$272, %r8d
	callq	memcpy
	movl	%edi, %ebx
	jmp	.Lnoise_BB11_22
.Lnoise_BB11_17:
	leaq	408(%rsp), %rdx
	leaq	120(%rsp), %rcx
	callq	"noise_names::pattern::Pattern::check"
	movzbl	120(%rsp), %edi
	movl	$2, %ebx
	testb	%dil, %dil
	jne	.Lnoise_BB11_19
	leaq	128(%rsp), %rdx
	leaq	1496(%rsp), %rcx
	movl	$272, %r8d
	callq	memcpy
	xorl	%ebx, %ebx
.Lnoise_BB11_19:
	leaq	1768(%rsp), %rcx
	leaq	1496(%rsp), %rdx
	movl	$272, %r8d
	callq	memcpy
.Lnoise_BB11_20:
	leaq	680(%rsp), %rcx
	leaq	1768(%rsp), %rdx
.Lnoise_BB11_21:
	movl	$272, %r8d
	callq	memcpy
.Lnoise_BB11_22:
	movzbl	%dil, %eax
	movl	%eax, (%rsi)
	movl	%ebx, 4(%rsi)
	addq	$8, %rsi
	leaq	680(%rsp), %rdx
	movl	$272, %r8d
	movq	%rsi, %rcx
	callq	memcpy
	nop
	addq	$2040, %rsp
	popq	%rbx
	popq	%rdi
	popq	%rsi
	popq	%r14
	retq
	.seh_endproc

	.def	"noise_names::pattern::Pattern::parse_text";
	.scl	3;
	.type	32;
	.endef
	.p2align	4
"noise_names::pattern::Pattern::parse_text":
.seh_proc "noise_names::pattern::Pattern::parse_text"
	pushq	%r15
	.seh_pushreg %r15
	pushq	%r14
	.seh_pushreg %r14
	pushq	%r13
	.seh_pushreg %r13
	pushq	%r12
	.seh_pushreg %r12
	pushq	%rsi
	.seh_pushreg %rsi
	pushq	%rdi
	.seh_pushreg %rdi
	pushq	%rbp
	.seh_pushreg %rbp
	pushq	%rbx
	.seh_pushreg %rbx
	movl	$4648, %eax
	callq	___chkstk_ms
	subq	%rax, %rsp
	.seh_stackalloc 4648
	movaps	%xmm6, 4624(%rsp)
	.seh_savexmm %xmm6, 4624
	.seh_endprologue
	movq	%r8, %rdi
	movq	%rdx, %rbx
	movq	%rcx, %rsi
	movl	$0, 55(%rsp)
	movl	$0, 52(%rsp)
	xorps	%xmm6, %xmm6
	movaps	%xmm6, 272(%rsp)
	movaps	%xmm6, 288(%rsp)
	movaps	%xmm6, 304(%rsp)
	movaps	%xmm6, 320(%rsp)
	movaps	%xmm6, 336(%rsp)
	movaps	%xmm6, 352(%rsp)
	movaps	%xmm6, 368(%rsp)
	movaps	%xmm6, 384(%rsp)
	movaps	%xmm6, 400(%rsp)
	movaps	%xmm6, 416(%rsp)
	movaps	%xmm6, 432(%rsp)
	movaps	%xmm6, 448(%rsp)
	movaps	%xmm6, 464(%rsp)
	movaps	%xmm6, 480(%rsp)
	movaps	%xmm6, 496(%rsp)
	movaps	%xmm6, 512(%rsp)
	movl	$0, 83(%rsp)
	movl	$0, 80(%rsp)
	movaps	%xmm6, 1120(%rsp)
	movaps	%xmm6, 1136(%rsp)
	movaps	%xmm6, 1152(%rsp)
	movaps	%xmm6, 1168(%rsp)
	movaps	%xmm6, 1184(%rsp)
	movaps	%xmm6, 1200(%rsp)
	movaps	%xmm6, 1216(%rsp)
	movaps	%xmm6, 1232(%rsp)
	movaps	%xmm6, 1248(%rsp)
	movaps	%xmm6, 1264(%rsp)
	movaps	%xmm6, 1280(%rsp)
	movaps	%xmm6, 1296(%rsp)
	movaps	%xmm6, 1312(%rsp)
	movaps	%xmm6, 1328(%rsp)
	movaps	%xmm6, 1344(%rsp)
	movaps	%xmm6, 1360(%rsp)
	movl	$0, 99(%rsp)
	movl	$0, 96(%rsp)
	leaq	3296(%rsp), %rcx
	movl	$272, %r8d
	xorl	%edx, %edx
	callq	memset
	leaq	3568(%rsp), %rcx
	movl	$264, %r8d
	xorl	%edx, %edx
	callq	memset
	leaq	1888(%rsp), %rcx
	movl	$280, %r8d
	xorl	%edx, %edx
	callq	memset
	movl	$0, 104(%rsp)
	movl	$0, 107(%rsp)
	movaps	%xmm6, 1632(%rsp)
	movaps	%xmm6, 1648(%rsp)
	movaps	%xmm6, 1664(%rsp)
	movaps	%xmm6, 1680(%rsp)
	movaps	%xmm6, 1696(%rsp)
	movaps	%xmm6, 1712(%rsp)
	movaps	%xmm6, 1728(%rsp)
	movaps	%xmm6, 1744(%rsp)
	movaps	%xmm6, 1760(%rsp)
	movaps	%xmm6, 1776(%rsp)
	movaps	%xmm6, 1792(%rsp)
	movaps	%xmm6, 1808(%rsp)
	movaps	%xmm6, 1824(%rsp)
	movaps	%xmm6, 1840(%rsp)
	movaps	%xmm6, 1856(%rsp)
	movaps	%xmm6, 1872(%rsp)
	leaq	2176(%rsp), %rcx
	movl	$552, %r8d
	xorl	%edx, %edx
	callq	memset
	leaq	2736(%rsp), %rcx
	movl	$552, %r8d
	xorl	%edx, %edx
	callq	memset
	movl	$0, 88(%rsp)
	movl	$0, 91(%rsp)
	movaps	%xmm6, 1376(%rsp)
	movaps	%xmm6, 1392(%rsp)
	movaps	%xmm6, 1408(%rsp)
	movaps	%xmm6, 1424(%rsp)
	movaps	%xmm6, 1440(%rsp)
	movaps	%xmm6, 1456(%rsp)
	movaps	%xmm6, 1472(%rsp)
	movaps	%xmm6, 1488(%rsp)
	movaps	%xmm6, 1504(%rsp)
	movaps	%xmm6, 1520(%rsp)
	movaps	%xmm6, 1536(%rsp)
	movaps	%xmm6, 1552(%rsp)
	movaps	%xmm6, 1568(%rsp)
	movaps	%xmm6, 1584(%rsp)
	movaps	%xmm6, 1600(%rsp)
	movaps	%xmm6, 1616(%rsp)
	movaps	%xmm6, 576(%rsp)
	movaps	%xmm6, 560(%rsp)
	movaps	%xmm6, 544(%rsp)
	testq	%rdi, %rdi
	je	.Lnoise_BB12_11
	xorl	%r12d, %r12d
	.p2align	4
.Lnoise_BB12_2:
	cmpb	$58, (%rbx,%r12)
	je	.Lnoise_BB12_4
	incq	%r12
	cmpq	%r12, %rdi
	jne	.Lnoise_BB12_2
	jmp	.Lnoise_BB12_11
.Lnoise_BB12_4:
	movq	%rdi, %r15
	subq	%r12, %r15
	je	.Lnoise_BB12_11
	cmpb	$58, (%rbx,%r12)
	jne	.Lnoise_BB12_11
	leaq	544(%rsp), %rcx
	movq	%rbx, %rdx
	movq	%r12, %r8
	callq	"noise_names::section::parse_section"
	cmpb	$0, 544(%rsp)
	jne	.Lnoise_BB12_11
	leaq	-1(%rdi), %rax
	movq	584(%rsp), %rcx
	movq	%rcx, 880(%rsp)
	movups	552(%rsp), %xmm0
	movups	568(%rsp), %xmm1
	movaps	%xmm1, 864(%rsp)
	movaps	%xmm0, 848(%rsp)
	cmpq	%r12, %rax
	je	.Lnoise_BB12_11
	cmpb	$10, 1(%rbx,%r12)
	jne	.Lnoise_BB12_11
	movq	856(%rsp), %r14
	leaq	3832(%rsp), %rcx
	movl	$264, %r8d
	xorl	%edx, %edx
	callq	memset
	leaq	848(%rsp), %rcx
	movq	%r14, %rdx
	callq	"noise_names::table::place_of"
	cmpb	$1, %al
	jne	.Lnoise_BB12_29
	leaq	544(%rsp), %r14
	movq	%r14, %rcx
	callq	"noise_names::table::row"
	leaq	4096(%rsp), %r15
	movl	$264, %r8d
	movq	%r15, %rcx
	movq	%r14, %rdx
	callq	memcpy
	movq	808(%rsp), %r13
	jmp	.Lnoise_BB12_170
.Lnoise_BB12_11:
	movl	$0, 55(%rsp)
	movl	$0, 52(%rsp)
.Lnoise_BB12_12:
	xorps	%xmm0, %xmm0
	movaps	%xmm0, 272(%rsp)
	movaps	%xmm0, 288(%rsp)
	movaps	%xmm0, 304(%rsp)
	movaps	%xmm0, 320(%rsp)
	movaps	%xmm0, 336(%rsp)
	movaps	%xmm0, 352(%rsp)
	movaps	%xmm0, 368(%rsp)
	movaps	%xmm0, 384(%rsp)
	movaps	%xmm0, 400(%rsp)
	movaps	%xmm0, 416(%rsp)
	movaps	%xmm0, 432(%rsp)
	movaps	%xmm0, 448(%rsp)
	movaps	%xmm0, 464(%rsp)
	movaps	%xmm0, 480(%rsp)
	movaps	%xmm0, 496(%rsp)
	movaps	%xmm0, 512(%rsp)
.Lnoise_BB12_13:
	xorps	%xmm0, %xmm0
	movaps	%xmm0, 2208(%rsp)
	movaps	%xmm0, 2192(%rsp)
	movaps	%xmm0, 2176(%rsp)
	testq	%rdi, %rdi
	je	.Lnoise_BB12_20
	xorl	%r15d, %r15d
	.p2align	4
.Lnoise_BB12_15:
	cmpb	$58, (%rbx,%r15)
	je	.Lnoise_BB12_17
	incq	%r15
	cmpq	%r15, %rdi
	jne	.Lnoise_BB12_15
	jmp	.Lnoise_BB12_20
.Lnoise_BB12_17:
	movq	%rdi, %r14
	subq	%r15, %r14
	je	.Lnoise_BB12_20
	cmpb	$58, (%rbx,%r15)
	jne	.Lnoise_BB12_20
	leaq	2176(%rsp), %rcx
	movq	%rbx, %rdx
	movq	%r15, %r8
	callq	"noise_names::section::parse_section"
	cmpb	$0, 2176(%rsp)
	je	.Lnoise_BB12_24
.Lnoise_BB12_20:
	movl	$1, %ebp
.Lnoise_BB12_21:
	xorl	%r13d, %r13d
.Lnoise_BB12_22:
	movl	96(%rsp), %eax
	movl	99(%rsp), %ecx
	movl	%eax, 80(%rsp)
	movl	%ecx, 83(%rsp)
	movl	$1, %eax
.Lnoise_BB12_23:
	movq	%rax, (%rsi)
	movq	%rbp, 8(%rsi)
	movb	%r13b, 16(%rsi)
	movl	80(%rsp), %eax
	movl	83(%rsp), %ecx
	movl	%eax, 17(%rsi)
	movl	%ecx, 20(%rsi)
	addq	$24, %rsi
	leaq	1120(%rsp), %rdx
	movl	$256, %r8d
	movq	%rsi, %rcx
	callq	memcpy
	movaps	4624(%rsp), %xmm6
	addq	$4648, %rsp
	popq	%rbx
	popq	%rbp
	popq	%rdi
	popq	%rsi
	popq	%r12
	popq	%r13
	popq	%r14
	popq	%r15
	retq
.Lnoise_BB12_24:
	leaq	-1(%rdi), %rax
	movq	2216(%rsp), %rcx
	movq	%rcx, 1920(%rsp)
	movups	2184(%rsp), %xmm0
	movups	2200(%rsp), %xmm1
	movaps	%xmm1, 1904(%rsp)
	movaps	%xmm0, 1888(%rsp)
	movb	$8, %r13b
	movl	$1, %ebp
	cmpq	%r15, %rax
	je	.Lnoise_BB12_22
	addq	$-2, %r14
	cmpb	$10, 1(%rbx,%r15)
	leaq	2(%rbx,%r15), %r12
	movl	$0, %eax
	cmoveq	%r12, %rax
	movq	%rax, 40(%rsp)
	movl	$0, %eax
	cmoveq	%r14, %rax
	movq	%rax, 64(%rsp)
	jne	.Lnoise_BB12_21
	addq	$-2, %rdi
	movl	$2, %eax
	cmpq	%r15, %rdi
	jne	.Lnoise_BB12_31
.Lnoise_BB12_186:
	movq	%rax, %rbp
	jmp	.Lnoise_BB12_22
.Lnoise_BB12_29:
	addq	$-2, %r15
	addq	%rbx, %r12
	addq	$2, %r12
	leaq	4096(%rsp), %rcx
	movl	$264, %r8d
	xorl	%edx, %edx
	callq	memset
	xorps	%xmm6, %xmm6
	movaps	%xmm6, 192(%rsp)
	movaps	%xmm6, 176(%rsp)
	movaps	%xmm6, 896(%rsp)
	movaps	%xmm6, 912(%rsp)
	movaps	%xmm6, 928(%rsp)
	movaps	%xmm6, 944(%rsp)
	movaps	%xmm6, 960(%rsp)
	movaps	%xmm6, 976(%rsp)
	movaps	%xmm6, 992(%rsp)
	movaps	%xmm6, 1008(%rsp)
	movaps	%xmm6, 1024(%rsp)
	movaps	%xmm6, 1040(%rsp)
	movaps	%xmm6, 1056(%rsp)
	movaps	%xmm6, 1072(%rsp)
	movaps	%xmm6, 1088(%rsp)
	movaps	%xmm6, 1104(%rsp)
	leaq	4360(%rsp), %rcx
	movl	$264, %r8d
	xorl	%edx, %edx
	callq	memset
	movaps	%xmm6, 208(%rsp)
	movaps	%xmm6, 112(%rsp)
	movaps	%xmm6, 128(%rsp)
	movaps	%xmm6, 560(%rsp)
	movaps	%xmm6, 544(%rsp)
	movq	$0, 576(%rsp)
	leaq	544(%rsp), %rcx
	xorl	%edx, %edx
	movq	%r12, %r8
	movq	%r15, %r9
	callq	"noise_names::text::read::read_line"
	cmpb	$1, 544(%rsp)
	jne	.Lnoise_BB12_41
	movq	568(%rsp), %r13
	movq	576(%rsp), %rbp
	movups	552(%rsp), %xmm0
	movaps	%xmm0, 816(%rsp)
	jmp	.Lnoise_BB12_42
.Lnoise_BB12_31:
	movq	1920(%rsp), %rax
	movq	%rax, 160(%rsp)
.Lnoise_BB12_32:
	xorl	%r15d, %r15d
	.p2align	4
.Lnoise_BB12_33:
	cmpb	$10, (%r12,%r15)
	je	.Lnoise_BB12_36
	incq	%r15
	cmpq	%r15, %r14
	jne	.Lnoise_BB12_33
	movq	%r14, %r15
.Lnoise_BB12_36:
	xorl	%ebx, %ebx
	cmpq	%r15, %r14
	setne	%dil
	cmpq	$5, %r15
	jne	.Lnoise_BB12_39
	cmpl	$774774816, (%r12)
	jne	.Lnoise_BB12_39
	leaq	.Lnoise_static.96(%rip), %r8
	movl	$5, %edx
	movq	%r12, %rcx
	callq	"core::cmp::slices::groups_equal::<i8,31'core::cmp::numbers::U8PartialEq{}>"
	testb	%al, %al
	jne	.Lnoise_BB12_70
.Lnoise_BB12_39:
	xorl	%r8d, %r8d
	cmpq	%r15, %r14
	je	.Lnoise_BB12_71
	addq	%r15, %r12
	notq	%r15
	addq	%r15, %r14
	movb	%dil, %bl
	addq	%rbx, %r12
	testq	%r14, %r14
	jne	.Lnoise_BB12_32
	jmp	.Lnoise_BB12_71
.Lnoise_BB12_41:
	movaps	%xmm6, 816(%rsp)
	movq	%r12, %r13
	movq	%r15, %rbp
.Lnoise_BB12_42:
	xorps	%xmm6, %xmm6
	movaps	%xmm6, 544(%rsp)
	movaps	%xmm6, 560(%rsp)
	movq	$0, 576(%rsp)
	leaq	544(%rsp), %rcx
	movb	$1, %dl
	movq	%r13, %r8
	movq	%rbp, %r9
	callq	"noise_names::text::read::read_line"
	cmpb	$1, 544(%rsp)
	jne	.Lnoise_BB12_44
	movq	568(%rsp), %r13
	movq	576(%rsp), %rbp
	movups	552(%rsp), %xmm0
	movaps	%xmm0, 240(%rsp)
	jmp	.Lnoise_BB12_45
.Lnoise_BB12_44:
	movaps	%xmm6, 240(%rsp)
.Lnoise_BB12_45:
	movdqa	240(%rsp), %xmm0
	movdqa	%xmm0, 208(%rsp)
	cmpq	$6, %rbp
	jae	.Lnoise_BB12_47
.Lnoise_BB12_46:
	pxor	%xmm0, %xmm0
	movdqa	%xmm0, 128(%rsp)
	movdqa	%xmm0, 112(%rsp)
	jmp	.Lnoise_BB12_51
.Lnoise_BB12_47:
	movzwl	(%r13), %eax
	movd	%eax, %xmm0
	pinsrw	$1, 4(%r13), %xmm0
	movd	%xmm0, %eax
	cmpl	$170795040, %eax
	jne	.Lnoise_BB12_46
	cmpb	$46, 3(%r13)
	jne	.Lnoise_BB12_46
	cmpb	$46, 2(%r13)
	jne	.Lnoise_BB12_46
	addq	$-6, %rbp
	addq	$6, %r13
	movaps	816(%rsp), %xmm0
	movaps	%xmm0, 112(%rsp)
	movdqa	208(%rsp), %xmm0
	movdqa	%xmm0, 128(%rsp)
	movq	%r13, %r12
	movq	%rbp, %r15
.Lnoise_BB12_51:
	movq	%r14, 64(%rsp)
	movaps	112(%rsp), %xmm0
	movaps	128(%rsp), %xmm1
	movaps	%xmm1, 912(%rsp)
	movaps	%xmm0, 896(%rsp)
	movaps	%xmm0, 192(%rsp)
	movaps	%xmm1, 176(%rsp)
	xorps	%xmm0, %xmm0
	movaps	%xmm0, 112(%rsp)
	movaps	%xmm0, 128(%rsp)
	movq	$0, 144(%rsp)
	movaps	%xmm0, 544(%rsp)
	movaps	%xmm0, 560(%rsp)
	movaps	%xmm0, 576(%rsp)
	movaps	%xmm0, 592(%rsp)
	movaps	%xmm0, 608(%rsp)
	movaps	%xmm0, 624(%rsp)
	movaps	%xmm0, 640(%rsp)
	movaps	%xmm0, 656(%rsp)
	movaps	%xmm0, 672(%rsp)
	movaps	%xmm0, 688(%rsp)
	movaps	%xmm0, 704(%rsp)
	movaps	%xmm0, 720(%rsp)
	movq	$0, 736(%rsp)
	leaq	112(%rsp), %rcx
	xorl	%edx, %edx
	movq	%r12, %r8
	movq	%r15, %r9
	callq	"noise_names::text::read::read_line"
	cmpb	$1, 112(%rsp)
	jne	.Lnoise_BB12_57
	movq	736(%rsp), %r13
	leaq	(,%r13,2), %rax
	addq	%r13, %rax
	leaq	(%rsp,%rax,8), %r14
	addq	$544, %r14
	xorl	%ebp, %ebp
.Lnoise_BB12_53:
	movq	%r13, 40(%rsp)
	leaq	120(%rsp), %rax
	movups	(%rax), %xmm0
	movaps	%xmm0, 832(%rsp)
	movq	840(%rsp), %r13
	testq	%r13, %r13
	je	.Lnoise_BB12_59
	cmpq	$8, 40(%rsp)
	je	.Lnoise_BB12_59
	movq	136(%rsp), %r15
	movq	144(%rsp), %r12
	xorps	%xmm0, %xmm0
	movaps	%xmm0, 240(%rsp)
	cmpq	$11, %r13
	jae	.Lnoise_BB12_196
	leaq	240(%rsp), %rcx
	leaq	832(%rsp), %rdx
	movq	%r13, %r8
	callq	memcpy
	movq	%r13, 224(%rsp)
	movaps	240(%rsp), %xmm0
	movaps	%xmm0, 208(%rsp)
	movq	%r13, 16(%r14)
	movups	%xmm0, (%r14)
	movq	40(%rsp), %r13
	incq	%r13
	xorb	$1, %bpl
	leaq	112(%rsp), %rcx
	movl	%ebp, %edx
	movq	%r15, %r8
	movq	%r12, %r9
	callq	"noise_names::text::read::read_line"
	addq	$24, %r14
	cmpb	$1, 112(%rsp)
	je	.Lnoise_BB12_53
	jmp	.Lnoise_BB12_58
.Lnoise_BB12_57:
	movq	736(%rsp), %r13
.Lnoise_BB12_58:
	leaq	928(%rsp), %rcx
	leaq	544(%rsp), %rdx
	movl	$192, %r8d
	callq	memcpy
	jmp	.Lnoise_BB12_60
.Lnoise_BB12_59:
	leaq	928(%rsp), %rcx
	leaq	544(%rsp), %rdx
	movl	$192, %r8d
	callq	memcpy
	movq	40(%rsp), %r13
.Lnoise_BB12_60:
	testq	%r13, %r13
	movq	64(%rsp), %r14
	je	.Lnoise_BB12_172
	movq	200(%rsp), %r12
	movq	184(%rsp), %r15
	testq	%r12, %r12
	je	.Lnoise_BB12_67
	cmpq	$1, %r12
	jne	.Lnoise_BB12_64
	cmpb	$2, 192(%rsp)
	jb	.Lnoise_BB12_67
	jmp	.Lnoise_BB12_172
.Lnoise_BB12_64:
	cmpq	$2, %r12
	ja	.Lnoise_BB12_172
	cmpb	$0, 192(%rsp)
	jne	.Lnoise_BB12_172
	cmpb	$1, 193(%rsp)
	jne	.Lnoise_BB12_172
.Lnoise_BB12_67:
	testq	%r15, %r15
	je	.Lnoise_BB12_168
	cmpq	$1, %r15
	jne	.Lnoise_BB12_165
	cmpb	$2, 176(%rsp)
	jae	.Lnoise_BB12_172
	jmp	.Lnoise_BB12_168
.Lnoise_BB12_70:
	movl	$1, %r8d
.Lnoise_BB12_71:
	xorl	%edx, %edx
	movl	$2, %eax
	xorl	%ecx, %ecx
	movq	40(%rsp), %rdi
	movq	64(%rsp), %rbx
.Lnoise_BB12_72:
	xorl	%r14d, %r14d
	movq	%rdi, 40(%rsp)
.Lnoise_BB12_73:
	cmpb	$10, (%rdi,%r14)
	je	.Lnoise_BB12_76
	incq	%r14
	cmpq	%r14, %rbx
	jne	.Lnoise_BB12_73
	movq	%rbx, %r14
.Lnoise_BB12_76:
	movq	%rbx, 64(%rsp)
	cmpq	%r14, %rbx
	setne	%bl
	movzbl	%cl, %r9d
	shll	$24, %r9d
	movl	%edx, %r12d
	andl	$16711680, %r12d
	orl	%r9d, %r12d
	movl	%edx, %r15d
	andl	$65280, %r15d
	orl	%r12d, %r15d
	movl	%r15d, %r10d
	shrl	$8, %r10d
	movl	%r10d, 76(%rsp)
	shrl	$16, %r12d
	cmpq	$5, %r14
	movq	%rax, 264(%rsp)
	movb	%bl, 59(%rsp)
	movq	%rcx, 536(%rsp)
	movl	%edx, 172(%rsp)
	movl	%r8d, 60(%rsp)
	movl	%r9d, 168(%rsp)
	jne	.Lnoise_BB12_80
	movq	40(%rsp), %rcx
	cmpl	$774774816, (%rcx)
	jne	.Lnoise_BB12_82
	leaq	.Lnoise_static.96(%rip), %r8
	movl	$5, %edx
	callq	"core::cmp::slices::groups_equal::<i8,31'core::cmp::numbers::U8PartialEq{}>"
	testb	%al, %al
	je	.Lnoise_BB12_83
	movl	76(%rsp), %eax
	testb	$1, %al
	cmovnel	%eax, %r12d
	movl	60(%rsp), %eax
	andl	%r12d, %eax
	testb	$1, %al
	movq	40(%rsp), %rdi
	movq	64(%rsp), %rbx
	jne	.Lnoise_BB12_158
	jmp	.Lnoise_BB12_191
.Lnoise_BB12_80:
	jb	.Lnoise_BB12_185
	movq	40(%rsp), %rcx
	movzbl	(%rcx), %eax
	movzbl	1(%rcx), %r9d
	movzbl	2(%rcx), %edx
	movzbl	3(%rcx), %r8d
	jmp	.Lnoise_BB12_84
.Lnoise_BB12_82:
	movzbl	3(%rcx), %r8d
	movzbl	2(%rcx), %edx
	movzbl	(%rcx), %eax
	movzbl	1(%rcx), %r9d
	jmp	.Lnoise_BB12_84
.Lnoise_BB12_83:
	movb	$32, %r9b
	movb	$46, %r8b
	movb	$46, %dl
	movb	$32, %al
	movq	40(%rsp), %rcx
.Lnoise_BB12_84:
	movl	%r9d, %edi
	xorb	$32, %dil
	movl	%edx, %r10d
	xorb	$45, %r10b
	movl	%r8d, %r11d
	xorb	$62, %r11b
	orb	%r10b, %r11b
	movzbl	4(%rcx), %r10d
	movl	%r10d, %ebx
	xorb	$32, %bl
	orb	%dil, %bl
	orb	%r11b, %bl
	movl	%eax, %ecx
	xorb	$32, %cl
	orb	%bl, %cl
	sete	%dil
	je	.Lnoise_BB12_90
	movb	$1, %cl
	cmpb	$32, %al
	jne	.Lnoise_BB12_164
	cmpb	$32, %r9b
	jne	.Lnoise_BB12_164
	cmpb	$45, %r8b
	jne	.Lnoise_BB12_164
	cmpb	$60, %dl
	jne	.Lnoise_BB12_164
	cmpb	$32, %r10b
	jne	.Lnoise_BB12_164
.Lnoise_BB12_90:
	movq	%r14, %rcx
	xorps	%xmm0, %xmm0
	movaps	%xmm0, 2208(%rsp)
	movaps	%xmm0, 2192(%rsp)
	movaps	%xmm0, 2176(%rsp)
	addq	$-5, %rcx
	je	.Lnoise_BB12_163
	movzbl	60(%rsp), %ebx
	movq	40(%rsp), %rax
	leaq	5(%rax), %rdx
	xorl	%r9d, %r9d
.Lnoise_BB12_92:
	xorl	%r8d, %r8d
	.p2align	4
.Lnoise_BB12_93:
	movzbl	(%rdx,%r8), %eax
	addb	$-97, %al
	cmpb	$25, %al
	ja	.Lnoise_BB12_96
	incq	%r8
	cmpq	%r8, %rcx
	jne	.Lnoise_BB12_93
	movq	%rcx, %r8
.Lnoise_BB12_96:
	cmpq	$1, %r8
	je	.Lnoise_BB12_104
	testq	%r8, %r8
	je	.Lnoise_BB12_163
	cmpq	$2, %r8
	ja	.Lnoise_BB12_107
	movzbl	(%rdx), %eax
	cmpl	$115, %eax
	je	.Lnoise_BB12_112
	cmpl	$101, %eax
	jne	.Lnoise_BB12_163
	movzbl	1(%rdx), %eax
	cmpl	$101, %eax
	je	.Lnoise_BB12_116
	cmpl	$115, %eax
	jne	.Lnoise_BB12_163
	movb	$3, %r10b
	xorl	%r11d, %r11d
	jmp	.Lnoise_BB12_117
.Lnoise_BB12_104:
	movzbl	(%rdx), %eax
	xorl	%r11d, %r11d
	movl	$0, %r10d
	cmpl	$101, %eax
	je	.Lnoise_BB12_117
	cmpl	$115, %eax
	jne	.Lnoise_BB12_163
	movb	$1, %r10b
	xorl	%r11d, %r11d
	jmp	.Lnoise_BB12_117
.Lnoise_BB12_107:
	cmpq	$3, %r8
	jne	.Lnoise_BB12_163
	cmpb	$112, (%rdx)
	jne	.Lnoise_BB12_163
	cmpb	$115, 1(%rdx)
	jne	.Lnoise_BB12_163
	cmpb	$107, 2(%rdx)
	jne	.Lnoise_BB12_163
	movb	$6, %r10b
	movb	$1, %r11b
	jmp	.Lnoise_BB12_117
.Lnoise_BB12_112:
	movzbl	1(%rdx), %eax
	cmpl	$101, %eax
	je	.Lnoise_BB12_115
	cmpl	$115, %eax
	jne	.Lnoise_BB12_163
	movb	$5, %r10b
	xorl	%r11d, %r11d
	jmp	.Lnoise_BB12_117
.Lnoise_BB12_115:
	xorl	%r11d, %r11d
	movb	$4, %r10b
	jmp	.Lnoise_BB12_117
.Lnoise_BB12_116:
	xorl	%r11d, %r11d
	movb	$2, %r10b
.Lnoise_BB12_117:
	movl	$11, %eax
	cmpq	$11, %r9
	je	.Lnoise_BB12_119
	movb	%r10b, 2176(%rsp,%r9)
	incq	%r9
	movq	%r9, 2192(%rsp)
	movq	%r9, %rax
.Lnoise_BB12_119:
	testb	%r11b, %r11b
	jne	.Lnoise_BB12_122
	movq	2216(%rsp), %r9
	cmpq	$9, %r9
	je	.Lnoise_BB12_122
	movb	%r10b, 2200(%rsp,%r9)
	incq	%r9
	movq	%r9, 2216(%rsp)
.Lnoise_BB12_122:
	cmpq	%r8, %rcx
	je	.Lnoise_BB12_127
	subq	%r8, %rcx
	cmpq	$2, %rcx
	jb	.Lnoise_BB12_163
	addq	%r8, %rdx
	cmpb	$44, (%rdx)
	jne	.Lnoise_BB12_163
	cmpb	$32, 1(%rdx)
	jne	.Lnoise_BB12_163
	addq	$-2, %rcx
	addq	$2, %rdx
	movq	%rax, %r9
	testq	%rcx, %rcx
	jne	.Lnoise_BB12_92
	jmp	.Lnoise_BB12_163
.Lnoise_BB12_127:
	movaps	2176(%rsp), %xmm0
	movaps	2192(%rsp), %xmm1
	movaps	2208(%rsp), %xmm2
	movaps	%xmm2, 2768(%rsp)
	movaps	%xmm1, 2752(%rsp)
	movaps	%xmm0, 2736(%rsp)
	testb	$1, 60(%rsp)
	je	.Lnoise_BB12_132
	movl	76(%rsp), %eax
	orl	%r12d, %eax
	testb	%dil, %dil
	cmovel	%r12d, %eax
	movb	$3, %cl
	testb	$1, %al
	jne	.Lnoise_BB12_164
	movq	2752(%rsp), %rax
	testq	%rax, %rax
	je	.Lnoise_BB12_154
	cmpq	$1, %rax
	jne	.Lnoise_BB12_151
	cmpb	$2, 2736(%rsp)
	jb	.Lnoise_BB12_154
	jmp	.Lnoise_BB12_164
.Lnoise_BB12_132:
	movq	536(%rsp), %rdx
	movl	%edx, %eax
	andb	$1, %al
	cmpb	%al, %dil
	je	.Lnoise_BB12_193
	movb	$7, %cl
	cmpb	$7, %dl
	ja	.Lnoise_BB12_164
	movq	2776(%rsp), %rdi
	testq	%rdi, %rdi
	je	.Lnoise_BB12_164
	cmpq	$9, %rdi
	je	.Lnoise_BB12_164
	movq	%rdx, %rax
	leal	1(%rdx), %ecx
	movl	%ecx, 60(%rsp)
	movb	%cl, 3296(%rsp)
	xorps	%xmm0, %xmm0
	movaps	%xmm0, 2176(%rsp)
	testb	%al, %al
	jne	.Lnoise_BB12_139
	leaq	.Lnoise_static.2(%rip), %r8
	leaq	1904(%rsp), %rcx
	movq	160(%rsp), %rdx
	callq	"core::slice::reads::slice+T::contains::<i8,31'core::cmp::numbers::U8PartialEq{}>"
	testb	%al, %al
	je	.Lnoise_BB12_139
	movb	$6, 2176(%rsp)
	movl	$1, %r12d
	leaq	2177(%rsp), %rcx
	jmp	.Lnoise_BB12_140
.Lnoise_BB12_139:
	xorl	%r12d, %r12d
	leaq	2176(%rsp), %rcx
.Lnoise_BB12_140:
	movl	$10, %eax
	subq	%r12, %rax
	cmpq	%rdi, %rax
	jb	.Lnoise_BB12_196
	movl	%ebx, 76(%rsp)
	leaq	2760(%rsp), %rdx
	movq	%rdi, %r8
	callq	memcpy
	addq	%rdi, %r12
	movq	%r12, 2192(%rsp)
	leaq	3296(%rsp), %r8
	leaq	1904(%rsp), %rcx
	movq	160(%rsp), %rdx
	callq	"core::slice::reads::slice+T::contains::<i8,31'core::cmp::numbers::U8PartialEq{}>"
	testb	%al, %al
	je	.Lnoise_BB12_143
	movb	$6, 2176(%rsp,%r12)
	incq	%r12
	movq	%r12, 2192(%rsp)
.Lnoise_BB12_143:
	movq	2192(%rsp), %rdx
	movq	%rdx, 560(%rsp)
	movaps	2176(%rsp), %xmm0
	movaps	%xmm0, 544(%rsp)
	cmpq	2752(%rsp), %rdx
	movq	40(%rsp), %rdi
	movq	64(%rsp), %rbx
	jne	.Lnoise_BB12_192
	cmpq	$4, %rdx
	jae	.Lnoise_BB12_149
	testq	%rdx, %rdx
	je	.Lnoise_BB12_157
	movzbl	544(%rsp), %eax
	cmpb	2736(%rsp), %al
	jne	.Lnoise_BB12_155
	cmpq	$1, %rdx
	jne	.Lnoise_BB12_160
.Lnoise_BB12_148:
	movq	40(%rsp), %rdi
	movq	64(%rsp), %rbx
	jmp	.Lnoise_BB12_157
.Lnoise_BB12_149:
	movl	544(%rsp), %eax
	cmpl	2736(%rsp), %eax
	jne	.Lnoise_BB12_192
	leaq	544(%rsp), %rcx
	leaq	2736(%rsp), %r8
	callq	"core::cmp::slices::groups_equal::<#1549cde59530a8ca>"
	testb	%al, %al
	jne	.Lnoise_BB12_157
	jmp	.Lnoise_BB12_192
.Lnoise_BB12_151:
	cmpq	$2, %rax
	ja	.Lnoise_BB12_164
	cmpb	$0, 2736(%rsp)
	jne	.Lnoise_BB12_164
	cmpb	$1, 2737(%rsp)
	jne	.Lnoise_BB12_164
.Lnoise_BB12_154:
	movl	172(%rsp), %ecx
	movl	%ecx, %eax
	andl	$256, %eax
	andl	$65536, %ecx
	orl	$256, %ecx
	orl	$65536, %eax
	testb	%dil, %dil
	cmovnel	%ecx, %eax
	movl	168(%rsp), %r15d
	orl	%ebx, %r15d
	orl	%eax, %r15d
	movq	40(%rsp), %rdi
	movq	64(%rsp), %rbx
	jmp	.Lnoise_BB12_158
.Lnoise_BB12_155:
	xorl	%eax, %eax
.Lnoise_BB12_156:
	cmpq	%rdx, %rax
	movq	40(%rsp), %rdi
	movq	64(%rsp), %rbx
	jb	.Lnoise_BB12_192
.Lnoise_BB12_157:
	andl	$16776960, %r15d
	movzbl	60(%rsp), %eax
	shll	$24, %eax
	orl	%r15d, %eax
	orl	76(%rsp), %eax
	movl	%eax, %r15d
.Lnoise_BB12_158:
	cmpq	%r14, %rbx
	movq	264(%rsp), %rax
	je	.Lnoise_BB12_186
	addq	%r14, %rdi
	notq	%r14
	addq	%r14, %rbx
	xorl	%ecx, %ecx
	movzbl	59(%rsp), %edx
	movb	%dl, %cl
	addq	%rcx, %rdi
	movl	%r15d, %ecx
	shrl	$24, %ecx
	incq	%rax
	movl	%r15d, %r8d
	movl	%r15d, %edx
	testq	%rbx, %rbx
	jne	.Lnoise_BB12_72
	jmp	.Lnoise_BB12_187
.Lnoise_BB12_160:
	movzbl	545(%rsp), %ecx
	movl	$1, %eax
	cmpb	2737(%rsp), %cl
	jne	.Lnoise_BB12_156
	cmpq	$2, %rdx
	je	.Lnoise_BB12_148
	movzbl	546(%rsp), %ecx
	movl	$2, %eax
	cmpb	2738(%rsp), %cl
	je	.Lnoise_BB12_148
	jmp	.Lnoise_BB12_156
.Lnoise_BB12_163:
	movb	$2, %cl
.Lnoise_BB12_164:
	movq	264(%rsp), %rbp
	movl	%ecx, %r13d
	jmp	.Lnoise_BB12_22
.Lnoise_BB12_165:
	cmpq	$2, %r15
	ja	.Lnoise_BB12_172
	cmpb	$0, 176(%rsp)
	jne	.Lnoise_BB12_172
	cmpb	$1, 177(%rsp)
	jne	.Lnoise_BB12_172
.Lnoise_BB12_168:
	movq	$0, 112(%rsp)
	cmpq	$9, %r14
	jae	.Lnoise_BB12_196
	leaq	112(%rsp), %rcx
	leaq	848(%rsp), %rdx
	movq	%r14, %r8
	callq	memcpy
	movq	%r14, 120(%rsp)
	movq	$0, 240(%rsp)
	leaq	240(%rsp), %rcx
	leaq	192(%rsp), %rdx
	movq	%r12, %r8
	callq	memcpy
	movq	%r12, 248(%rsp)
	movq	$0, 208(%rsp)
	leaq	208(%rsp), %rcx
	leaq	176(%rsp), %rdx
	movq	%r15, %r8
	callq	memcpy
	movq	%r15, 216(%rsp)
	movups	112(%rsp), %xmm0
	movaps	%xmm0, 544(%rsp)
	xorps	%xmm0, %xmm0
	movaps	%xmm0, 560(%rsp)
	movq	$0, 576(%rsp)
	movups	240(%rsp), %xmm0
	movups	%xmm0, 584(%rsp)
	movq	208(%rsp), %rax
	movq	%rax, 600(%rsp)
	movq	216(%rsp), %rax
	movq	%rax, 608(%rsp)
	leaq	616(%rsp), %rcx
	leaq	928(%rsp), %rdx
	movl	$192, %r8d
	callq	memcpy
	leaq	4360(%rsp), %r12
	leaq	544(%rsp), %rdx
	movl	$264, %r8d
	movq	%r12, %rcx
	callq	memcpy
	leaq	3832(%rsp), %r15
	movl	$264, %r8d
	movq	%r15, %rcx
	movq	%r12, %rdx
	callq	memcpy
.Lnoise_BB12_170:
	leaq	3568(%rsp), %rcx
	movl	$264, %r8d
	movq	%r15, %rdx
	callq	memcpy
	leaq	3296(%rsp), %r15
	leaq	3568(%rsp), %rdx
	movl	$264, %r8d
	movq	%r15, %rcx
	callq	memcpy
	movq	%r13, 3560(%rsp)
	leaq	864(%rsp), %r8
	leaq	1888(%rsp), %rcx
	movq	%r15, %rdx
	callq	"noise_names::pattern::Pattern::with_psks"
	cmpb	$0, 1888(%rsp)
	je	.Lnoise_BB12_173
	movl	104(%rsp), %eax
	movl	107(%rsp), %ecx
	movl	%ecx, 55(%rsp)
	movl	%eax, 52(%rsp)
	leaq	272(%rsp), %rcx
	leaq	1632(%rsp), %rdx
	movl	$256, %r8d
	callq	memcpy
	jmp	.Lnoise_BB12_13
.Lnoise_BB12_172:
	movl	$0, 52(%rsp)
	movl	$0, 55(%rsp)
	jmp	.Lnoise_BB12_12
.Lnoise_BB12_173:
	leaq	1896(%rsp), %rdx
	leaq	2176(%rsp), %r14
	movq	%r14, %rcx
	callq	"noise_names::text::write::text"
	leaq	2736(%rsp), %rcx
	movl	$552, %r8d
	movq	%r14, %rdx
	callq	memcpy
	cmpq	%rdi, 3280(%rsp)
	jne	.Lnoise_BB12_180
	cmpq	$3, %rdi
	ja	.Lnoise_BB12_178
	xorl	%eax, %eax
.Lnoise_BB12_176:
	movzbl	2736(%rsp,%rax), %ecx
	cmpb	(%rbx,%rax), %cl
	jne	.Lnoise_BB12_181
	incq	%rax
	cmpq	%rax, %rdi
	jne	.Lnoise_BB12_176
	jmp	.Lnoise_BB12_182
.Lnoise_BB12_178:
	movl	2736(%rsp), %eax
	cmpl	(%rbx), %eax
	jne	.Lnoise_BB12_180
	leaq	2736(%rsp), %rcx
	movq	%rdi, %rdx
	movq	%rbx, %r8
	callq	"core::cmp::slices::groups_equal::<i8,31'core::cmp::numbers::U8PartialEq{}>"
	testb	%al, %al
	jne	.Lnoise_BB12_182
.Lnoise_BB12_180:
	xorl	%ebp, %ebp
	xorl	%r13d, %r13d
	xorl	%r14d, %r14d
	jmp	.Lnoise_BB12_183
.Lnoise_BB12_181:
	cmpq	%rdi, %rax
	jb	.Lnoise_BB12_180
.Lnoise_BB12_182:
	movq	1896(%rsp), %rbp
	movzbl	1904(%rsp), %r13d
	movl	1905(%rsp), %eax
	movl	%eax, 88(%rsp)
	movl	1908(%rsp), %eax
	movl	%eax, 91(%rsp)
	leaq	1912(%rsp), %rdx
	leaq	1376(%rsp), %rcx
	movl	$256, %r8d
	callq	memcpy
	movb	$1, %r14b
.Lnoise_BB12_183:
	movl	88(%rsp), %eax
	movl	91(%rsp), %ecx
	movl	%ecx, 55(%rsp)
	movl	%eax, 52(%rsp)
	leaq	272(%rsp), %rcx
	leaq	1376(%rsp), %rdx
	movl	$256, %r8d
	callq	memcpy
	testb	%r14b, %r14b
	je	.Lnoise_BB12_13
	movl	52(%rsp), %eax
	movl	55(%rsp), %ecx
	movl	%ecx, 83(%rsp)
	movl	%eax, 80(%rsp)
	leaq	1120(%rsp), %rcx
	leaq	272(%rsp), %rdx
	movl	$256, %r8d
	callq	memcpy
	xorl	%eax, %eax
	jmp	.Lnoise_BB12_23
.Lnoise_BB12_185:
	movb	$1, %cl
	jmp	.Lnoise_BB12_164
.Lnoise_BB12_187:
	testl	%ecx, %ecx
	je	.Lnoise_BB12_186
	xorl	%eax, %eax
.Lnoise_BB12_189:
	cmpq	%rax, 160(%rsp)
	je	.Lnoise_BB12_194
	movb	$5, %r13b
	cmpb	%cl, 1904(%rsp,%rax)
	leaq	1(%rax), %rax
	jbe	.Lnoise_BB12_189
	jmp	.Lnoise_BB12_22
.Lnoise_BB12_192:
	movb	$5, %cl
	jmp	.Lnoise_BB12_164
.Lnoise_BB12_191:
	movb	$3, %cl
	jmp	.Lnoise_BB12_164
.Lnoise_BB12_193:
	movb	$4, %cl
	jmp	.Lnoise_BB12_164
.Lnoise_BB12_194:
	movb	$6, %r13b
	jmp	.Lnoise_BB12_22
.Lnoise_BB12_196:
	ud2
	.seh_endproc

	.def	"noise_names::section::parse_section";
	.scl	3;
	.type	32;
	.endef
	.p2align	4
"noise_names::section::parse_section":
.seh_proc "noise_names::section::parse_section"
	pushq	%rsi
	.seh_pushreg %rsi
	pushq	%rdi
	.seh_pushreg %rdi
	pushq	%rbx
	.seh_pushreg %rbx
	subq	$256, %rsp
	.seh_stackalloc 256
	.seh_endprologue
	xorps	%xmm0, %xmm0
	movups	%xmm0, 78(%rsp)
	movaps	%xmm0, 64(%rsp)
	testq	%r8, %r8
	je	.Lnoise_BB13_13
	xorl	%esi, %esi
	.p2align	4
.Lnoise_BB13_2:
	movzbl	(%rdx,%rsi), %eax
	cmpb	$48, %al
	jb	.Lnoise_BB13_6
	cmpb	$58, %al
	setae	%r9b
	addb	$-65, %al
	cmpb	$26, %al
	setae	%al
	testb	%al, %r9b
	jne	.Lnoise_BB13_6
	incq	%rsi
	cmpq	%rsi, %r8
	jne	.Lnoise_BB13_2
	movq	%r8, %rsi
.Lnoise_BB13_6:
	testq	%rsi, %rsi
	je	.Lnoise_BB13_13
	movzbl	(%rdx), %eax
	addb	$-65, %al
	cmpb	$25, %al
	ja	.Lnoise_BB13_13
	leaq	(%rdx,%rsi), %r9
	subq	%rsi, %r8
	movl	$1, %eax
	.p2align	4
.Lnoise_BB13_9:
	cmpq	%rax, %rsi
	je	.Lnoise_BB13_12
	movzbl	(%rdx,%rax), %r10d
	cmpb	$48, %r10b
	jb	.Lnoise_BB13_13
	cmpb	$58, %r10b
	setb	%r11b
	addb	$-65, %r10b
	cmpb	$26, %r10b
	setb	%r10b
	orb	%r11b, %r10b
	incq	%rax
	testb	%r10b, %r10b
	jne	.Lnoise_BB13_9
	jmp	.Lnoise_BB13_13
.Lnoise_BB13_12:
	cmpq	$9, %rsi
	jae	.Lnoise_BB13_13
	testq	%r8, %r8
	je	.Lnoise_BB13_17
	xorps	%xmm0, %xmm0
	movaps	%xmm0, 96(%rsp)
	movq	$0, 112(%rsp)
	xorl	%eax, %eax
	jmp	.Lnoise_BB13_19
.Lnoise_BB13_13:
	movw	$513, (%rcx)
.Lnoise_BB13_14:
	movups	%xmm0, 8(%rcx)
	movups	%xmm0, 24(%rcx)
	movq	$0, 40(%rcx)
.Lnoise_BB13_15:
	addq	$256, %rsp
	popq	%rbx
	popq	%rdi
	popq	%rsi
	retq
.Lnoise_BB13_26:
	addb	$-48, %r10b
	movb	%r10b, 96(%rsp,%rax)
	incq	%rax
	movq	%rax, 112(%rsp)
	cmpq	$4, %r8
	je	.Lnoise_BB13_31
.Lnoise_BB13_27:
	addq	$-5, %r8
	cmpb	$43, 4(%r9)
	leaq	5(%r9), %r9
	jne	.Lnoise_BB13_28
.Lnoise_BB13_19:
	cmpq	$3, %r8
	jb	.Lnoise_BB13_28
	je	.Lnoise_BB13_28
	cmpb	$112, (%r9)
	jne	.Lnoise_BB13_28
	cmpb	$115, 1(%r9)
	jne	.Lnoise_BB13_28
	cmpb	$107, 2(%r9)
	jne	.Lnoise_BB13_28
	movzbl	3(%r9), %r10d
	leal	-57(%r10), %r11d
	cmpb	$-9, %r11b
	jb	.Lnoise_BB13_28
	cmpq	$10, %rax
	jne	.Lnoise_BB13_26
	movl	$10, %eax
	cmpq	$4, %r8
	jne	.Lnoise_BB13_27
	xorps	%xmm0, %xmm0
	movaps	%xmm0, 32(%rsp)
	jmp	.Lnoise_BB13_32
.Lnoise_BB13_28:
	movb	$3, %al
.Lnoise_BB13_39:
	movb	$1, (%rcx)
	movb	%al, 1(%rcx)
	xorps	%xmm0, %xmm0
	jmp	.Lnoise_BB13_14
.Lnoise_BB13_17:
	movq	%rdx, %rdi
	movq	%rcx, %rbx
	xorps	%xmm0, %xmm0
	movups	%xmm0, 70(%rsp)
	movq	$0, 86(%rsp)
.Lnoise_BB13_37:
	movl	$16, %r8d
	subq	%rsi, %r8
	leaq	(%rsp,%rsi), %rcx
	addq	$32, %rcx
	xorl	%edx, %edx
	callq	memset
	leaq	32(%rsp), %rcx
	movq	%rdi, %rdx
	movq	%rsi, %r8
	callq	memcpy
	movq	%rsi, 40(%rsp)
	movq	32(%rsp), %rax
	movq	40(%rsp), %rcx
	movq	86(%rsp), %rdx
	movups	70(%rsp), %xmm0
	movaps	%xmm0, 144(%rsp)
	movq	%rdx, 160(%rsp)
	movq	%rax, 128(%rsp)
	movq	%rcx, 136(%rsp)
	movw	$0, (%rbx)
	movq	128(%rsp), %rax
	movq	136(%rsp), %rcx
	movaps	144(%rsp), %xmm0
	movq	%rax, 8(%rbx)
	movq	%rcx, 16(%rbx)
	movups	%xmm0, 24(%rbx)
	movq	160(%rsp), %rax
	movq	%rax, 40(%rbx)
	jmp	.Lnoise_BB13_15
.Lnoise_BB13_31:
	xorps	%xmm0, %xmm0
	movaps	%xmm0, 32(%rsp)
	movq	$0, 48(%rsp)
	testq	%rax, %rax
	je	.Lnoise_BB13_36
.Lnoise_BB13_32:
	negq	%rax
	movl	$1, %r8d
	xorl	%r10d, %r10d
.Lnoise_BB13_33:
	movzbl	95(%rsp,%r8), %r9d
	cmpb	%r10b, %r9b
	jb	.Lnoise_BB13_38
	cmpb	$8, %r9b
	ja	.Lnoise_BB13_38
	movb	%r9b, 31(%rsp,%r8)
	movq	%r8, 48(%rsp)
	incb	%r9b
	leaq	(%rax,%r8), %r11
	incq	%r11
	incq	%r8
	movl	%r9d, %r10d
	cmpq	$1, %r11
	jne	.Lnoise_BB13_33
.Lnoise_BB13_36:
	movq	%rdx, %rdi
	movq	%rcx, %rbx
	movq	48(%rsp), %rax
	movq	%rax, 192(%rsp)
	movaps	32(%rsp), %xmm0
	movups	%xmm0, 70(%rsp)
	movq	%rax, 86(%rsp)
	jmp	.Lnoise_BB13_37
.Lnoise_BB13_38:
	movb	$4, %al
	jmp	.Lnoise_BB13_39
	.seh_endproc

	.def	"noise_names::table::place_of";
	.scl	3;
	.type	32;
	.endef
	.p2align	4
"noise_names::table::place_of":
	testq	%rdx, %rdx
	je	.Lnoise_BB14_35
	cmpq	$1, %rdx
	jne	.Lnoise_BB14_8
	movzbl	(%rcx), %ecx
	movb	$1, %al
	cmpl	$88, %ecx
	je	.Lnoise_BB14_7
	cmpl	$78, %ecx
	je	.Lnoise_BB14_4
	cmpl	$75, %ecx
	jne	.Lnoise_BB14_35
	movb	$1, %dl
	movb	$1, %al
	retq
.Lnoise_BB14_8:
	cmpq	$2, %rdx
	ja	.Lnoise_BB14_35
	movzbl	(%rcx), %eax
	addl	$-73, %eax
	cmpl	$15, %eax
	ja	.Lnoise_BB14_35
	leaq	.Lnoise_JTI14_0(%rip), %rdx
	movslq	(%rdx,%rax,4), %rax
	addq	%rdx, %rax
	jmpq	*%rax
.Lnoise_BB14_29:
	movzbl	1(%rcx), %ecx
	movb	$1, %al
	cmpl	$88, %ecx
	je	.Lnoise_BB14_34
	cmpl	$78, %ecx
	je	.Lnoise_BB14_31
	cmpl	$75, %ecx
	jne	.Lnoise_BB14_35
	movb	$13, %dl
	retq
.Lnoise_BB14_4:
	xorl	%edx, %edx
	retq
.Lnoise_BB14_7:
	movb	$2, %dl
	retq
.Lnoise_BB14_11:
	movzbl	1(%rcx), %ecx
	movb	$1, %al
	cmpl	$88, %ecx
	je	.Lnoise_BB14_16
	cmpl	$78, %ecx
	je	.Lnoise_BB14_13
	cmpl	$75, %ecx
	jne	.Lnoise_BB14_35
	movb	$4, %dl
	retq
.Lnoise_BB14_17:
	movzbl	1(%rcx), %ecx
	movb	$1, %al
	cmpl	$88, %ecx
	je	.Lnoise_BB14_22
	cmpl	$78, %ecx
	je	.Lnoise_BB14_19
	cmpl	$75, %ecx
	jne	.Lnoise_BB14_35
	movb	$7, %dl
	retq
.Lnoise_BB14_23:
	movzbl	1(%rcx), %ecx
	movb	$1, %al
	cmpl	$88, %ecx
	je	.Lnoise_BB14_28
	cmpl	$78, %ecx
	je	.Lnoise_BB14_25
	cmpl	$75, %ecx
	jne	.Lnoise_BB14_35
	movb	$10, %dl
	retq
.Lnoise_BB14_35:
	xorl	%edx, %edx
	xorl	%eax, %eax
	retq
.Lnoise_BB14_13:
	movb	$3, %dl
	retq
.Lnoise_BB14_16:
	movb	$5, %dl
	retq
.Lnoise_BB14_31:
	movb	$12, %dl
	retq
.Lnoise_BB14_19:
	movb	$6, %dl
	retq
.Lnoise_BB14_34:
	movb	$14, %dl
	retq
.Lnoise_BB14_22:
	movb	$8, %dl
	retq
.Lnoise_BB14_25:
	movb	$9, %dl
	retq
.Lnoise_BB14_28:
	movb	$11, %dl
	retq
	.section	.rdata,"dr"
	.p2align	2, 0x0
.Lnoise_JTI14_0:
	.long	.Lnoise_BB14_29-.Lnoise_JTI14_0
	.long	.Lnoise_BB14_35-.Lnoise_JTI14_0
	.long	.Lnoise_BB14_17-.Lnoise_JTI14_0
	.long	.Lnoise_BB14_35-.Lnoise_JTI14_0
	.long	.Lnoise_BB14_35-.Lnoise_JTI14_0
	.long	.Lnoise_BB14_11-.Lnoise_JTI14_0
	.long	.Lnoise_BB14_35-.Lnoise_JTI14_0
	.long	.Lnoise_BB14_35-.Lnoise_JTI14_0
	.long	.Lnoise_BB14_35-.Lnoise_JTI14_0
	.long	.Lnoise_BB14_35-.Lnoise_JTI14_0
	.long	.Lnoise_BB14_35-.Lnoise_JTI14_0
	.long	.Lnoise_BB14_35-.Lnoise_JTI14_0
	.long	.Lnoise_BB14_35-.Lnoise_JTI14_0
	.long	.Lnoise_BB14_35-.Lnoise_JTI14_0
	.long	.Lnoise_BB14_35-.Lnoise_JTI14_0
	.long	.Lnoise_BB14_23-.Lnoise_JTI14_0

	.def	"noise_names::table::row";
	.scl	3;
	.type	32;
	.endef
	.p2align	4, 0x0
.Lnoise_CPI15_0:
	.byte	0
	.byte	0
	.byte	0
	.byte	0
	.byte	0
	.byte	0
	.byte	0
	.byte	0
	.byte	1
	.byte	0
	.byte	0
	.byte	0
	.byte	0
	.byte	0
	.byte	0
	.byte	0
.Lnoise_CPI15_1:
	.quad	19273
	.quad	2
.Lnoise_CPI15_2:
	.quad	20041
	.quad	2
.Lnoise_CPI15_3:
	.quad	22616
	.quad	2
.Lnoise_CPI15_4:
	.quad	19288
	.quad	2
.Lnoise_CPI15_5:
	.quad	20056
	.quad	2
.Lnoise_CPI15_6:
	.quad	1
	.quad	0
.Lnoise_CPI15_7:
	.quad	22603
	.quad	2
.Lnoise_CPI15_8:
	.quad	1
	.quad	1
.Lnoise_CPI15_9:
	.quad	19275
	.quad	2
.Lnoise_CPI15_10:
	.quad	20043
	.quad	2
.Lnoise_CPI15_11:
	.quad	22606
	.quad	2
.Lnoise_CPI15_12:
	.quad	19278
	.quad	2
.Lnoise_CPI15_13:
	.quad	20046
	.quad	2
.Lnoise_CPI15_14:
	.quad	88
	.quad	1
.Lnoise_CPI15_15:
	.quad	75
	.quad	1
.Lnoise_CPI15_16:
	.quad	78
	.quad	1
.Lnoise_CPI15_17:
	.quad	22601
	.quad	2
.Lnoise_CPI15_18:
	.long	1
	.text
	.p2align	4
"noise_names::table::row":
.seh_proc "noise_names::table::row"
	pushq	%r15
	.seh_pushreg %r15
	pushq	%r14
	.seh_pushreg %r14
	pushq	%r12
	.seh_pushreg %r12
	pushq	%rsi
	.seh_pushreg %rsi
	pushq	%rdi
	.seh_pushreg %rdi
	pushq	%rbx
	.seh_pushreg %rbx
	subq	$2968, %rsp
	.seh_stackalloc 2968
	.seh_endprologue
	xorps	%xmm0, %xmm0
	movaps	%xmm0, 80(%rsp)
	movq	$0, 96(%rsp)
	movq	$0, 48(%rsp)
	movl	$0, 56(%rsp)
	movq	$0, 32(%rsp)
	movl	$0, 40(%rsp)
	movq	$0, 16(%rsp)
	movl	$0, 24(%rsp)
	movaps	%xmm0, 112(%rsp)
	movaps	%xmm0, 128(%rsp)
	movaps	%xmm0, 144(%rsp)
	movaps	%xmm0, 160(%rsp)
	movaps	%xmm0, 176(%rsp)
	movaps	%xmm0, 192(%rsp)
	movaps	%xmm0, 208(%rsp)
	movq	$0, 224(%rsp)
	cmpb	$13, %dl
	ja	.Lnoise_BB15_19
	movzbl	%dl, %eax
	leaq	.Lnoise_JTI15_0(%rip), %rdx
	movslq	(%rdx,%rax,4), %rax
	addq	%rdx, %rax
	jmpq	*%rax
.Lnoise_BB15_2:
	movl	$0, 968(%rsp)
	movq	$0, 960(%rsp)
	movq	$0, 336(%rsp)
	movl	$0, 344(%rsp)
	movq	$0, 320(%rsp)
	movl	$0, 328(%rsp)
	movaps	%xmm0, 1056(%rsp)
	movaps	%xmm0, 1072(%rsp)
	movaps	%xmm0, 1088(%rsp)
	movaps	%xmm0, 1104(%rsp)
	movaps	%xmm0, 1120(%rsp)
	movaps	%xmm0, 1136(%rsp)
	movaps	%xmm0, 1152(%rsp)
	movq	$0, 1168(%rsp)
	movq	$0, 352(%rsp)
	movl	$0, 360(%rsp)
	movaps	%xmm0, 80(%rsp)
	movq	$0, 96(%rsp)
	movl	360(%rsp), %eax
	movl	%eax, 56(%rsp)
	movq	352(%rsp), %rax
	movq	%rax, 48(%rsp)
	movl	344(%rsp), %eax
	movl	%eax, 40(%rsp)
	movq	336(%rsp), %rax
	movq	%rax, 32(%rsp)
	movl	328(%rsp), %eax
	movl	%eax, 24(%rsp)
	movq	320(%rsp), %rax
	movq	%rax, 16(%rsp)
	movq	1168(%rsp), %rax
	movq	%rax, 224(%rsp)
	movaps	1152(%rsp), %xmm0
	movaps	%xmm0, 208(%rsp)
	movaps	1136(%rsp), %xmm0
	movaps	%xmm0, 192(%rsp)
	movaps	1120(%rsp), %xmm0
	movaps	%xmm0, 176(%rsp)
	movaps	1056(%rsp), %xmm0
	movaps	1072(%rsp), %xmm1
	movaps	1088(%rsp), %xmm2
	movaps	1104(%rsp), %xmm3
	movaps	%xmm3, 160(%rsp)
	movaps	%xmm2, 144(%rsp)
	movaps	%xmm1, 128(%rsp)
	movaps	%xmm0, 112(%rsp)
	movaps	.Lnoise_CPI15_0(%rip), %xmm0
	movaps	.Lnoise_CPI15_16(%rip), %xmm1
	movl	$1, %eax
	movl	$2, %edx
	movw	$768, %si
	xorl	%r8d, %r8d
	xorl	%r11d, %r11d
	xorl	%edi, %edi
	xorl	%r9d, %r9d
	xorl	%r10d, %r10d
	xorl	%ebx, %ebx
	jmp	.Lnoise_BB15_3
.Lnoise_BB15_16:
	movq	$0, 800(%rsp)
	movl	$0, 808(%rsp)
	movq	$0, 280(%rsp)
	movl	$0, 288(%rsp)
	movq	$0, 264(%rsp)
	movl	$0, 272(%rsp)
	movaps	%xmm0, 2464(%rsp)
	movaps	%xmm0, 2480(%rsp)
	movaps	%xmm0, 2496(%rsp)
	movaps	%xmm0, 2512(%rsp)
	movaps	%xmm0, 2528(%rsp)
	movaps	%xmm0, 2544(%rsp)
	movaps	%xmm0, 2560(%rsp)
	movq	$0, 2576(%rsp)
	movl	$0, 72(%rsp)
	movq	$0, 64(%rsp)
	movl	$0, 8(%rsp)
	movq	$0, (%rsp)
	movl	8(%rsp), %eax
	movl	%eax, 288(%rsp)
	movq	(%rsp), %rax
	movq	%rax, 280(%rsp)
	movl	$0, 72(%rsp)
	movq	$0, 64(%rsp)
	movl	$0, 8(%rsp)
	movq	$0, (%rsp)
	movl	8(%rsp), %eax
	movl	%eax, 272(%rsp)
	movq	(%rsp), %rax
	movq	%rax, 264(%rsp)
	movaps	%xmm0, 80(%rsp)
	movq	$0, 96(%rsp)
	movl	808(%rsp), %eax
	movl	%eax, 56(%rsp)
	movq	800(%rsp), %rax
	movq	%rax, 48(%rsp)
	movl	288(%rsp), %eax
	movl	%eax, 40(%rsp)
	movq	280(%rsp), %rax
	movq	%rax, 32(%rsp)
	movl	272(%rsp), %eax
	movl	%eax, 24(%rsp)
	movq	264(%rsp), %rax
	movq	%rax, 16(%rsp)
	movq	2576(%rsp), %rax
	movq	%rax, 224(%rsp)
	movaps	2560(%rsp), %xmm1
	movaps	%xmm1, 208(%rsp)
	movaps	2544(%rsp), %xmm1
	movaps	%xmm1, 192(%rsp)
	movaps	2528(%rsp), %xmm1
	movaps	%xmm1, 176(%rsp)
	movaps	2464(%rsp), %xmm1
	movaps	2480(%rsp), %xmm2
	movaps	2496(%rsp), %xmm3
	movaps	2512(%rsp), %xmm4
	movaps	%xmm4, 160(%rsp)
	movaps	%xmm3, 144(%rsp)
	movaps	%xmm2, 128(%rsp)
	movaps	%xmm1, 112(%rsp)
	movaps	.Lnoise_CPI15_3(%rip), %xmm1
	movl	$3, %eax
	movl	$1, %edx
	movl	$4, %r10d
	movw	$512, %r9w
	movw	$1025, %di
	movl	$2, %r11d
	movw	$769, %r8w
	jmp	.Lnoise_BB15_9
.Lnoise_BB15_7:
	movq	$0, (%rsp)
	movl	$0, 8(%rsp)
	movq	$0, 512(%rsp)
	movl	$0, 520(%rsp)
	movaps	%xmm0, 1568(%rsp)
	movaps	%xmm0, 1584(%rsp)
	movaps	%xmm0, 1600(%rsp)
	movaps	%xmm0, 1616(%rsp)
	movaps	%xmm0, 1632(%rsp)
	movaps	%xmm0, 1648(%rsp)
	movaps	%xmm0, 1664(%rsp)
	movq	$0, 1680(%rsp)
	movl	$0, 552(%rsp)
	movq	$0, 544(%rsp)
	movl	$0, 72(%rsp)
	movq	$0, 64(%rsp)
	movl	$0, 8(%rsp)
	movq	$0, (%rsp)
	movl	8(%rsp), %eax
	movl	%eax, 536(%rsp)
	movq	(%rsp), %rax
	movq	%rax, 528(%rsp)
	movaps	%xmm0, 80(%rsp)
	movq	$0, 96(%rsp)
	movl	552(%rsp), %eax
	movl	%eax, 56(%rsp)
	movq	544(%rsp), %rax
	movq	%rax, 48(%rsp)
	movl	536(%rsp), %eax
	movl	%eax, 40(%rsp)
	movq	528(%rsp), %rax
	movq	%rax, 32(%rsp)
	movl	520(%rsp), %eax
	movl	%eax, 24(%rsp)
	movq	512(%rsp), %rax
	movq	%rax, 16(%rsp)
	movq	1680(%rsp), %rax
	movq	%rax, 224(%rsp)
	movaps	1664(%rsp), %xmm0
	movaps	%xmm0, 208(%rsp)
	movaps	1648(%rsp), %xmm0
	movaps	%xmm0, 192(%rsp)
	movaps	1632(%rsp), %xmm0
	movaps	%xmm0, 176(%rsp)
	movaps	1568(%rsp), %xmm0
	movaps	1584(%rsp), %xmm1
	movaps	1600(%rsp), %xmm2
	movaps	1616(%rsp), %xmm3
	movaps	%xmm3, 160(%rsp)
	movaps	%xmm2, 144(%rsp)
	movaps	%xmm1, 128(%rsp)
	movaps	%xmm0, 112(%rsp)
	movaps	.Lnoise_CPI15_0(%rip), %xmm0
	movaps	.Lnoise_CPI15_12(%rip), %xmm1
	movl	$1, %r14d
	movw	$768, %si
	movl	$2, %r10d
	movw	$512, %r9w
	xorl	%r8d, %r8d
	xorl	%r11d, %r11d
	xorl	%edi, %edi
	xorl	%ebx, %ebx
	movl	$2, %edx
	movl	$2, %eax
	xorl	%r15d, %r15d
	jmp	.Lnoise_BB15_24
.Lnoise_BB15_17:
	movq	$0, (%rsp)
	movl	$0, 8(%rsp)
	movq	$0, 816(%rsp)
	movl	$0, 824(%rsp)
	movaps	%xmm0, 2592(%rsp)
	movaps	%xmm0, 2608(%rsp)
	movaps	%xmm0, 2624(%rsp)
	movaps	%xmm0, 2640(%rsp)
	movaps	%xmm0, 2656(%rsp)
	movaps	%xmm0, 2672(%rsp)
	movaps	%xmm0, 2688(%rsp)
	movq	$0, 2704(%rsp)
	movl	$0, 856(%rsp)
	movq	$0, 848(%rsp)
	movl	$0, 72(%rsp)
	movq	$0, 64(%rsp)
	movl	$0, 8(%rsp)
	movq	$0, (%rsp)
	movl	8(%rsp), %eax
	movl	%eax, 840(%rsp)
	movq	(%rsp), %rax
	movq	%rax, 832(%rsp)
	movaps	%xmm0, 80(%rsp)
	movq	$0, 96(%rsp)
	movl	856(%rsp), %eax
	movl	%eax, 56(%rsp)
	movq	848(%rsp), %rax
	movq	%rax, 48(%rsp)
	movl	840(%rsp), %eax
	movl	%eax, 40(%rsp)
	movq	832(%rsp), %rax
	movq	%rax, 32(%rsp)
	movl	824(%rsp), %eax
	movl	%eax, 24(%rsp)
	movq	816(%rsp), %rax
	movq	%rax, 16(%rsp)
	movq	2704(%rsp), %rax
	movq	%rax, 224(%rsp)
	movaps	2688(%rsp), %xmm1
	movaps	%xmm1, 208(%rsp)
	movaps	2672(%rsp), %xmm1
	movaps	%xmm1, 192(%rsp)
	movaps	2656(%rsp), %xmm1
	movaps	%xmm1, 176(%rsp)
	movaps	2592(%rsp), %xmm1
	movaps	2608(%rsp), %xmm2
	movaps	2624(%rsp), %xmm3
	movaps	2640(%rsp), %xmm4
	movaps	%xmm4, 160(%rsp)
	movaps	%xmm3, 144(%rsp)
	movaps	%xmm2, 128(%rsp)
	movaps	%xmm1, 112(%rsp)
	movaps	.Lnoise_CPI15_2(%rip), %xmm1
	movl	$2, %edx
	movw	$256, %si
	movl	$3, %r10d
	movw	$512, %r9w
	movw	$4, %r8w
	jmp	.Lnoise_BB15_20
.Lnoise_BB15_14:
	movq	$0, 736(%rsp)
	movl	$0, 744(%rsp)
	movq	$0, 248(%rsp)
	movl	$0, 256(%rsp)
	movq	$0, 232(%rsp)
	movl	$0, 240(%rsp)
	movaps	%xmm0, 2208(%rsp)
	movaps	%xmm0, 2224(%rsp)
	movaps	%xmm0, 2240(%rsp)
	movaps	%xmm0, 2256(%rsp)
	movaps	%xmm0, 2272(%rsp)
	movaps	%xmm0, 2288(%rsp)
	movaps	%xmm0, 2304(%rsp)
	movq	$0, 2320(%rsp)
	movl	$0, 72(%rsp)
	movq	$0, 64(%rsp)
	movl	$0, 8(%rsp)
	movq	$0, (%rsp)
	movl	8(%rsp), %eax
	movl	%eax, 256(%rsp)
	movq	(%rsp), %rax
	movq	%rax, 248(%rsp)
	movl	$0, 72(%rsp)
	movq	$0, 64(%rsp)
	movl	$0, 8(%rsp)
	movq	$0, (%rsp)
	movl	8(%rsp), %eax
	movl	%eax, 240(%rsp)
	movq	(%rsp), %rax
	movq	%rax, 232(%rsp)
	movaps	%xmm0, 80(%rsp)
	movq	$0, 96(%rsp)
	movl	744(%rsp), %eax
	movl	%eax, 56(%rsp)
	movq	736(%rsp), %rax
	movq	%rax, 48(%rsp)
	movl	256(%rsp), %eax
	movl	%eax, 40(%rsp)
	movq	248(%rsp), %rax
	movq	%rax, 32(%rsp)
	movl	240(%rsp), %eax
	movl	%eax, 24(%rsp)
	movq	232(%rsp), %rax
	movq	%rax, 16(%rsp)
	movq	2320(%rsp), %rax
	movq	%rax, 224(%rsp)
	movaps	2304(%rsp), %xmm1
	movaps	%xmm1, 208(%rsp)
	movaps	2288(%rsp), %xmm1
	movaps	%xmm1, 192(%rsp)
	movaps	2272(%rsp), %xmm1
	movaps	%xmm1, 176(%rsp)
	movaps	2208(%rsp), %xmm1
	movaps	2224(%rsp), %xmm2
	movaps	2240(%rsp), %xmm3
	movaps	2256(%rsp), %xmm4
	movaps	%xmm4, 160(%rsp)
	movaps	%xmm3, 144(%rsp)
	movaps	%xmm2, 128(%rsp)
	movaps	%xmm1, 112(%rsp)
	movaps	.Lnoise_CPI15_5(%rip), %xmm1
	movl	$3, %eax
	movl	$1, %edx
	movw	$512, %r9w
	movw	$1025, %di
	movl	$2, %r11d
	xorl	%r8d, %r8d
	movl	$2, %r10d
	jmp	.Lnoise_BB15_9
.Lnoise_BB15_5:
	movl	$0, 1000(%rsp)
	movq	$0, 992(%rsp)
	movq	$0, 432(%rsp)
	movl	$0, 440(%rsp)
	movq	$0, 416(%rsp)
	movl	$0, 424(%rsp)
	movaps	%xmm0, 1312(%rsp)
	movaps	%xmm0, 1328(%rsp)
	movaps	%xmm0, 1344(%rsp)
	movaps	%xmm0, 1360(%rsp)
	movaps	%xmm0, 1376(%rsp)
	movaps	%xmm0, 1392(%rsp)
	movaps	%xmm0, 1408(%rsp)
	movq	$0, 1424(%rsp)
	movq	$0, 448(%rsp)
	movl	$0, 456(%rsp)
	movaps	%xmm0, 80(%rsp)
	movq	$0, 96(%rsp)
	movl	456(%rsp), %eax
	movl	%eax, 56(%rsp)
	movq	448(%rsp), %rax
	movq	%rax, 48(%rsp)
	movl	440(%rsp), %eax
	movl	%eax, 40(%rsp)
	movq	432(%rsp), %rax
	movq	%rax, 32(%rsp)
	movl	424(%rsp), %eax
	movl	%eax, 24(%rsp)
	movq	416(%rsp), %rax
	movq	%rax, 16(%rsp)
	movq	1424(%rsp), %rax
	movq	%rax, 224(%rsp)
	movaps	1408(%rsp), %xmm0
	movaps	%xmm0, 208(%rsp)
	movaps	1392(%rsp), %xmm0
	movaps	%xmm0, 192(%rsp)
	movaps	1376(%rsp), %xmm0
	movaps	%xmm0, 176(%rsp)
	movaps	1312(%rsp), %xmm0
	movaps	1328(%rsp), %xmm1
	movaps	1344(%rsp), %xmm2
	movaps	1360(%rsp), %xmm3
	movaps	%xmm3, 160(%rsp)
	movaps	%xmm2, 144(%rsp)
	movaps	%xmm1, 128(%rsp)
	movaps	%xmm0, 112(%rsp)
	movaps	.Lnoise_CPI15_0(%rip), %xmm0
	movaps	.Lnoise_CPI15_14(%rip), %xmm1
	movl	$1, %eax
	movl	$4, %edx
	movw	$768, %si
	movw	$1281, %bx
	xorl	%r8d, %r8d
	xorl	%r11d, %r11d
	xorl	%edi, %edi
	xorl	%r9d, %r9d
	xorl	%r10d, %r10d
.Lnoise_BB15_3:
	xorl	%r15d, %r15d
	movl	$1, %r14d
	jmp	.Lnoise_BB15_24
.Lnoise_BB15_6:
	movl	$0, 504(%rsp)
	movq	$0, 496(%rsp)
	movq	$0, 480(%rsp)
	movl	$0, 488(%rsp)
	movq	$0, 464(%rsp)
	movl	$0, 472(%rsp)
	movaps	%xmm0, 1440(%rsp)
	movaps	%xmm0, 1456(%rsp)
	movaps	%xmm0, 1472(%rsp)
	movaps	%xmm0, 1488(%rsp)
	movaps	%xmm0, 1504(%rsp)
	movaps	%xmm0, 1520(%rsp)
	movaps	%xmm0, 1536(%rsp)
	movq	$0, 1552(%rsp)
	movq	$0, 1008(%rsp)
	movl	$0, 1016(%rsp)
	movaps	%xmm0, 80(%rsp)
	movq	$0, 96(%rsp)
	movl	504(%rsp), %eax
	movl	%eax, 56(%rsp)
	movq	496(%rsp), %rax
	movq	%rax, 48(%rsp)
	movl	488(%rsp), %eax
	movl	%eax, 40(%rsp)
	movq	480(%rsp), %rax
	movq	%rax, 32(%rsp)
	movl	472(%rsp), %eax
	movl	%eax, 24(%rsp)
	movq	464(%rsp), %rax
	movq	%rax, 16(%rsp)
	movq	1552(%rsp), %rax
	movq	%rax, 224(%rsp)
	movaps	1536(%rsp), %xmm1
	movaps	%xmm1, 208(%rsp)
	movaps	1520(%rsp), %xmm1
	movaps	%xmm1, 192(%rsp)
	movaps	1504(%rsp), %xmm1
	movaps	%xmm1, 176(%rsp)
	movaps	1440(%rsp), %xmm1
	movaps	1456(%rsp), %xmm2
	movaps	1472(%rsp), %xmm3
	movaps	1488(%rsp), %xmm4
	movaps	%xmm4, 160(%rsp)
	movaps	%xmm3, 144(%rsp)
	movaps	%xmm2, 128(%rsp)
	movaps	%xmm1, 112(%rsp)
	movaps	.Lnoise_CPI15_13(%rip), %xmm1
	movl	$1, %edx
	movl	$2, %r10d
	movw	$512, %r9w
	xorl	%r8d, %r8d
	xorl	%r11d, %r11d
	xorl	%edi, %edi
	xorl	%ebx, %ebx
	xorl	%esi, %esi
	jmp	.Lnoise_BB15_21
.Lnoise_BB15_12:
	movq	$0, (%rsp)
	movl	$0, 8(%rsp)
	movq	$0, 656(%rsp)
	movl	$0, 664(%rsp)
	movaps	%xmm0, 1952(%rsp)
	movaps	%xmm0, 1968(%rsp)
	movaps	%xmm0, 1984(%rsp)
	movaps	%xmm0, 2000(%rsp)
	movaps	%xmm0, 2016(%rsp)
	movaps	%xmm0, 2032(%rsp)
	movaps	%xmm0, 2048(%rsp)
	movq	$0, 2064(%rsp)
	movl	$0, 696(%rsp)
	movq	$0, 688(%rsp)
	movl	$0, 72(%rsp)
	movq	$0, 64(%rsp)
	movl	$0, 8(%rsp)
	movq	$0, (%rsp)
	movl	8(%rsp), %eax
	movl	%eax, 680(%rsp)
	movq	(%rsp), %rax
	movq	%rax, 672(%rsp)
	movaps	%xmm0, 80(%rsp)
	movq	$0, 96(%rsp)
	movl	696(%rsp), %eax
	movl	%eax, 56(%rsp)
	movq	688(%rsp), %rax
	movq	%rax, 48(%rsp)
	movl	680(%rsp), %eax
	movl	%eax, 40(%rsp)
	movq	672(%rsp), %rax
	movq	%rax, 32(%rsp)
	movl	664(%rsp), %eax
	movl	%eax, 24(%rsp)
	movq	656(%rsp), %rax
	movq	%rax, 16(%rsp)
	movq	2064(%rsp), %rax
	movq	%rax, 224(%rsp)
	movaps	2048(%rsp), %xmm0
	movaps	%xmm0, 208(%rsp)
	movaps	2032(%rsp), %xmm0
	movaps	%xmm0, 192(%rsp)
	movaps	2016(%rsp), %xmm0
	movaps	%xmm0, 176(%rsp)
	movaps	1952(%rsp), %xmm0
	movaps	1968(%rsp), %xmm1
	movaps	1984(%rsp), %xmm2
	movaps	2000(%rsp), %xmm3
	movaps	%xmm3, 160(%rsp)
	movaps	%xmm2, 144(%rsp)
	movaps	%xmm1, 128(%rsp)
	movaps	%xmm0, 112(%rsp)
	movaps	.Lnoise_CPI15_8(%rip), %xmm0
	movaps	.Lnoise_CPI15_9(%rip), %xmm1
	movl	$1, %r15d
	movl	$2, %eax
	movw	$768, %si
	movw	$5, %bx
	movl	$3, %r10d
	movw	$512, %r9w
	movw	$4, %r8w
	xorl	%r11d, %r11d
	xorl	%edi, %edi
	movl	$3, %edx
	movl	$1, %r14d
	jmp	.Lnoise_BB15_24
.Lnoise_BB15_4:
	movl	$0, 984(%rsp)
	movq	$0, 976(%rsp)
	movq	$0, 384(%rsp)
	movl	$0, 392(%rsp)
	movq	$0, 368(%rsp)
	movl	$0, 376(%rsp)
	movaps	%xmm0, 1184(%rsp)
	movaps	%xmm0, 1200(%rsp)
	movaps	%xmm0, 1216(%rsp)
	movaps	%xmm0, 1232(%rsp)
	movaps	%xmm0, 1248(%rsp)
	movaps	%xmm0, 1264(%rsp)
	movaps	%xmm0, 1280(%rsp)
	movq	$0, 1296(%rsp)
	movq	$0, 400(%rsp)
	movl	$0, 408(%rsp)
	movaps	%xmm0, 80(%rsp)
	movq	$0, 96(%rsp)
	movl	408(%rsp), %eax
	movl	%eax, 56(%rsp)
	movq	400(%rsp), %rax
	movq	%rax, 48(%rsp)
	movl	392(%rsp), %eax
	movl	%eax, 40(%rsp)
	movq	384(%rsp), %rax
	movq	%rax, 32(%rsp)
	movl	376(%rsp), %eax
	movl	%eax, 24(%rsp)
	movq	368(%rsp), %rax
	movq	%rax, 16(%rsp)
	movq	1296(%rsp), %rax
	movq	%rax, 224(%rsp)
	movaps	1280(%rsp), %xmm0
	movaps	%xmm0, 208(%rsp)
	movaps	1264(%rsp), %xmm0
	movaps	%xmm0, 192(%rsp)
	movaps	1248(%rsp), %xmm0
	movaps	%xmm0, 176(%rsp)
	movaps	1184(%rsp), %xmm0
	movaps	1200(%rsp), %xmm1
	movaps	1216(%rsp), %xmm2
	movaps	1232(%rsp), %xmm3
	movaps	%xmm3, 160(%rsp)
	movaps	%xmm2, 144(%rsp)
	movaps	%xmm1, 128(%rsp)
	movaps	%xmm0, 112(%rsp)
	movaps	.Lnoise_CPI15_8(%rip), %xmm0
	movaps	.Lnoise_CPI15_15(%rip), %xmm1
	movl	$1, %eax
	movl	$3, %edx
	movw	$768, %si
	movw	$5, %bx
	xorl	%r8d, %r8d
	xorl	%r11d, %r11d
	xorl	%edi, %edi
	xorl	%r9d, %r9d
	xorl	%r10d, %r10d
	movl	$1, %r15d
	movl	$1, %r14d
	jmp	.Lnoise_BB15_24
.Lnoise_BB15_8:
	movl	$0, 600(%rsp)
	movq	$0, 592(%rsp)
	movq	$0, 576(%rsp)
	movl	$0, 584(%rsp)
	movq	$0, 560(%rsp)
	movl	$0, 568(%rsp)
	movaps	%xmm0, 1696(%rsp)
	movaps	%xmm0, 1712(%rsp)
	movaps	%xmm0, 1728(%rsp)
	movaps	%xmm0, 1744(%rsp)
	movaps	%xmm0, 1760(%rsp)
	movaps	%xmm0, 1776(%rsp)
	movaps	%xmm0, 1792(%rsp)
	movq	$0, 1808(%rsp)
	movq	$0, 1024(%rsp)
	movl	$0, 1032(%rsp)
	movaps	%xmm0, 80(%rsp)
	movq	$0, 96(%rsp)
	movl	600(%rsp), %eax
	movl	%eax, 56(%rsp)
	movq	592(%rsp), %rax
	movq	%rax, 48(%rsp)
	movl	584(%rsp), %eax
	movl	%eax, 40(%rsp)
	movq	576(%rsp), %rax
	movq	%rax, 32(%rsp)
	movl	568(%rsp), %eax
	movl	%eax, 24(%rsp)
	movq	560(%rsp), %rax
	movq	%rax, 16(%rsp)
	movq	1808(%rsp), %rax
	movq	%rax, 224(%rsp)
	movaps	1792(%rsp), %xmm1
	movaps	%xmm1, 208(%rsp)
	movaps	1776(%rsp), %xmm1
	movaps	%xmm1, 192(%rsp)
	movaps	1760(%rsp), %xmm1
	movaps	%xmm1, 176(%rsp)
	movaps	1696(%rsp), %xmm1
	movaps	1712(%rsp), %xmm2
	movaps	1728(%rsp), %xmm3
	movaps	1744(%rsp), %xmm4
	movaps	%xmm4, 160(%rsp)
	movaps	%xmm3, 144(%rsp)
	movaps	%xmm2, 128(%rsp)
	movaps	%xmm1, 112(%rsp)
	movaps	.Lnoise_CPI15_11(%rip), %xmm1
	movl	$2, %eax
	movl	$1, %edx
	movl	$4, %r10d
	movw	$512, %r9w
	movw	$769, %r8w
	xorl	%r11d, %r11d
	xorl	%edi, %edi
.Lnoise_BB15_9:
	xorl	%ebx, %ebx
	xorl	%esi, %esi
	jmp	.Lnoise_BB15_22
.Lnoise_BB15_18:
	movq	$0, (%rsp)
	movl	$0, 8(%rsp)
	movq	$0, 864(%rsp)
	movl	$0, 872(%rsp)
	movaps	%xmm0, 2720(%rsp)
	movaps	%xmm0, 2736(%rsp)
	movaps	%xmm0, 2752(%rsp)
	movaps	%xmm0, 2768(%rsp)
	movaps	%xmm0, 2784(%rsp)
	movaps	%xmm0, 2800(%rsp)
	movaps	%xmm0, 2816(%rsp)
	movq	$0, 2832(%rsp)
	movl	$0, 904(%rsp)
	movq	$0, 896(%rsp)
	movl	$0, 72(%rsp)
	movq	$0, 64(%rsp)
	movl	$0, 8(%rsp)
	movq	$0, (%rsp)
	movl	8(%rsp), %eax
	movl	%eax, 888(%rsp)
	movq	(%rsp), %rax
	movq	%rax, 880(%rsp)
	movaps	%xmm0, 80(%rsp)
	movq	$0, 96(%rsp)
	movl	904(%rsp), %eax
	movl	%eax, 56(%rsp)
	movq	896(%rsp), %rax
	movq	%rax, 48(%rsp)
	movl	888(%rsp), %eax
	movl	%eax, 40(%rsp)
	movq	880(%rsp), %rax
	movq	%rax, 32(%rsp)
	movl	872(%rsp), %eax
	movl	%eax, 24(%rsp)
	movq	864(%rsp), %rax
	movq	%rax, 16(%rsp)
	movq	2832(%rsp), %rax
	movq	%rax, 224(%rsp)
	movaps	2816(%rsp), %xmm0
	movaps	%xmm0, 208(%rsp)
	movaps	2800(%rsp), %xmm0
	movaps	%xmm0, 192(%rsp)
	movaps	2784(%rsp), %xmm0
	movaps	%xmm0, 176(%rsp)
	movaps	2720(%rsp), %xmm0
	movaps	2736(%rsp), %xmm1
	movaps	2752(%rsp), %xmm2
	movaps	2768(%rsp), %xmm3
	movaps	%xmm3, 160(%rsp)
	movaps	%xmm2, 144(%rsp)
	movaps	%xmm1, 128(%rsp)
	movaps	%xmm0, 112(%rsp)
	movaps	.Lnoise_CPI15_0(%rip), %xmm0
	movaps	.Lnoise_CPI15_1(%rip), %xmm1
	movl	$1, %r14d
	movl	$2, %eax
	movl	$4, %edx
	movw	$768, %si
	movw	$1281, %bx
	movl	$3, %r10d
	movw	$512, %r9w
	movw	$4, %r8w
	xorl	%r11d, %r11d
	xorl	%edi, %edi
	xorl	%r15d, %r15d
	jmp	.Lnoise_BB15_24
.Lnoise_BB15_10:
	movl	$0, 648(%rsp)
	movq	$0, 640(%rsp)
	movq	$0, 624(%rsp)
	movl	$0, 632(%rsp)
	movq	$0, 608(%rsp)
	movl	$0, 616(%rsp)
	movaps	%xmm0, 1824(%rsp)
	movaps	%xmm0, 1840(%rsp)
	movaps	%xmm0, 1856(%rsp)
	movaps	%xmm0, 1872(%rsp)
	movaps	%xmm0, 1888(%rsp)
	movaps	%xmm0, 1904(%rsp)
	movaps	%xmm0, 1920(%rsp)
	movq	$0, 1936(%rsp)
	movq	$0, 1040(%rsp)
	movl	$0, 1048(%rsp)
	movaps	%xmm0, 80(%rsp)
	movq	$0, 96(%rsp)
	movl	648(%rsp), %eax
	movl	%eax, 56(%rsp)
	movq	640(%rsp), %rax
	movq	%rax, 48(%rsp)
	movl	632(%rsp), %eax
	movl	%eax, 40(%rsp)
	movq	624(%rsp), %rax
	movq	%rax, 32(%rsp)
	movl	616(%rsp), %eax
	movl	%eax, 24(%rsp)
	movq	608(%rsp), %rax
	movq	%rax, 16(%rsp)
	movq	1936(%rsp), %rax
	movq	%rax, 224(%rsp)
	movaps	1920(%rsp), %xmm0
	movaps	%xmm0, 208(%rsp)
	movaps	1904(%rsp), %xmm0
	movaps	%xmm0, 192(%rsp)
	movaps	1888(%rsp), %xmm0
	movaps	%xmm0, 176(%rsp)
	movaps	1824(%rsp), %xmm0
	movaps	1840(%rsp), %xmm1
	movaps	1856(%rsp), %xmm2
	movaps	1872(%rsp), %xmm3
	movaps	%xmm3, 160(%rsp)
	movaps	%xmm2, 144(%rsp)
	movaps	%xmm1, 128(%rsp)
	movaps	%xmm0, 112(%rsp)
	movss	.Lnoise_CPI15_18(%rip), %xmm0
	movaps	.Lnoise_CPI15_10(%rip), %xmm1
	movl	$2, %eax
	movl	$1, %edx
	movl	$3, %r10d
	movw	$512, %r9w
	movw	$4, %r8w
	jmp	.Lnoise_BB15_11
.Lnoise_BB15_15:
	movq	$0, (%rsp)
	movl	$0, 8(%rsp)
	movaps	%xmm0, 2336(%rsp)
	movaps	%xmm0, 2352(%rsp)
	movaps	%xmm0, 2368(%rsp)
	movaps	%xmm0, 2384(%rsp)
	movaps	%xmm0, 2400(%rsp)
	movaps	%xmm0, 2416(%rsp)
	movaps	%xmm0, 2432(%rsp)
	movq	$0, 2448(%rsp)
	movl	$0, 792(%rsp)
	movq	$0, 784(%rsp)
	movl	$0, 72(%rsp)
	movq	$0, 64(%rsp)
	movl	$0, 8(%rsp)
	movq	$0, (%rsp)
	movl	8(%rsp), %eax
	movl	%eax, 776(%rsp)
	movq	(%rsp), %rax
	movq	%rax, 768(%rsp)
	movl	$0, 72(%rsp)
	movq	$0, 64(%rsp)
	movl	$0, 8(%rsp)
	movq	$0, (%rsp)
	movl	8(%rsp), %eax
	movl	%eax, 760(%rsp)
	movq	(%rsp), %rax
	movq	%rax, 752(%rsp)
	movaps	%xmm0, 80(%rsp)
	movq	$0, 96(%rsp)
	movl	792(%rsp), %eax
	movl	%eax, 56(%rsp)
	movq	784(%rsp), %rax
	movq	%rax, 48(%rsp)
	movl	776(%rsp), %eax
	movl	%eax, 40(%rsp)
	movq	768(%rsp), %rax
	movq	%rax, 32(%rsp)
	movl	760(%rsp), %eax
	movl	%eax, 24(%rsp)
	movq	752(%rsp), %rax
	movq	%rax, 16(%rsp)
	movq	2448(%rsp), %rax
	movq	%rax, 224(%rsp)
	movaps	2432(%rsp), %xmm0
	movaps	%xmm0, 208(%rsp)
	movaps	2416(%rsp), %xmm0
	movaps	%xmm0, 192(%rsp)
	movaps	2400(%rsp), %xmm0
	movaps	%xmm0, 176(%rsp)
	movaps	2336(%rsp), %xmm0
	movaps	2352(%rsp), %xmm1
	movaps	2368(%rsp), %xmm2
	movaps	2384(%rsp), %xmm3
	movaps	%xmm3, 160(%rsp)
	movaps	%xmm2, 144(%rsp)
	movaps	%xmm1, 128(%rsp)
	movaps	%xmm0, 112(%rsp)
	movaps	.Lnoise_CPI15_0(%rip), %xmm0
	movaps	.Lnoise_CPI15_4(%rip), %xmm1
	movl	$1, %r14d
	movl	$3, %eax
	movw	$768, %si
	movw	$512, %r9w
	movw	$1025, %di
	movl	$2, %r11d
	xorl	%r8d, %r8d
	movl	$2, %r10d
	xorl	%ebx, %ebx
	movl	$2, %edx
	xorl	%r15d, %r15d
	jmp	.Lnoise_BB15_24
.Lnoise_BB15_13:
	movl	$0, 728(%rsp)
	movq	$0, 720(%rsp)
	movq	$0, 296(%rsp)
	movl	$0, 304(%rsp)
	movq	$0, 704(%rsp)
	movl	$0, 712(%rsp)
	movaps	%xmm0, 2080(%rsp)
	movaps	%xmm0, 2096(%rsp)
	movaps	%xmm0, 2112(%rsp)
	movaps	%xmm0, 2128(%rsp)
	movaps	%xmm0, 2144(%rsp)
	movaps	%xmm0, 2160(%rsp)
	movaps	%xmm0, 2176(%rsp)
	movq	$0, 2192(%rsp)
	movq	$0, 309(%rsp)
	movl	$0, 316(%rsp)
	movb	$3, 308(%rsp)
	movq	308(%rsp), %rax
	movq	%rax, 296(%rsp)
	movl	316(%rsp), %eax
	movl	%eax, 304(%rsp)
	movaps	%xmm0, 80(%rsp)
	movq	$0, 96(%rsp)
	movl	728(%rsp), %edx
	movl	%edx, 56(%rsp)
	movq	720(%rsp), %rdx
	movq	%rdx, 48(%rsp)
	movl	%eax, 40(%rsp)
	movq	296(%rsp), %rax
	movq	%rax, 32(%rsp)
	movl	712(%rsp), %eax
	movl	%eax, 24(%rsp)
	movq	704(%rsp), %rax
	movq	%rax, 16(%rsp)
	movq	2192(%rsp), %rax
	movq	%rax, 224(%rsp)
	movaps	2176(%rsp), %xmm0
	movaps	%xmm0, 208(%rsp)
	movaps	2160(%rsp), %xmm0
	movaps	%xmm0, 192(%rsp)
	movaps	2144(%rsp), %xmm0
	movaps	%xmm0, 176(%rsp)
	movaps	2080(%rsp), %xmm0
	movaps	2096(%rsp), %xmm1
	movaps	2112(%rsp), %xmm2
	movaps	2128(%rsp), %xmm3
	movaps	%xmm3, 160(%rsp)
	movaps	%xmm2, 144(%rsp)
	movaps	%xmm1, 128(%rsp)
	movaps	%xmm0, 112(%rsp)
	movss	.Lnoise_CPI15_18(%rip), %xmm0
	movaps	.Lnoise_CPI15_7(%rip), %xmm1
	movl	$2, %eax
	movl	$1, %edx
	movl	$5, %r10d
	movw	$512, %r9w
	movw	$260, %r8w
.Lnoise_BB15_11:
	xorl	%r11d, %r11d
	xorl	%edi, %edi
	xorl	%ebx, %ebx
	xorl	%esi, %esi
	movl	$1, %r15d
	jmp	.Lnoise_BB15_23
.Lnoise_BB15_19:
	movq	$0, (%rsp)
	movl	$0, 8(%rsp)
	movq	$0, 912(%rsp)
	movl	$0, 920(%rsp)
	movaps	%xmm0, 2848(%rsp)
	movaps	%xmm0, 2864(%rsp)
	movaps	%xmm0, 2880(%rsp)
	movaps	%xmm0, 2896(%rsp)
	movaps	%xmm0, 2912(%rsp)
	movaps	%xmm0, 2928(%rsp)
	movaps	%xmm0, 2944(%rsp)
	movq	$0, 2960(%rsp)
	movl	$0, 952(%rsp)
	movq	$0, 944(%rsp)
	movl	$0, 72(%rsp)
	movq	$0, 65(%rsp)
	movb	$3, 64(%rsp)
	movl	72(%rsp), %eax
	movl	%eax, 8(%rsp)
	movq	64(%rsp), %rax
	movq	%rax, (%rsp)
	movl	8(%rsp), %eax
	movl	%eax, 936(%rsp)
	movq	(%rsp), %rax
	movq	%rax, 928(%rsp)
	movaps	%xmm0, 80(%rsp)
	movq	$0, 96(%rsp)
	movl	952(%rsp), %eax
	movl	%eax, 56(%rsp)
	movq	944(%rsp), %rax
	movq	%rax, 48(%rsp)
	movl	936(%rsp), %eax
	movl	%eax, 40(%rsp)
	movq	928(%rsp), %rax
	movq	%rax, 32(%rsp)
	movl	920(%rsp), %eax
	movl	%eax, 24(%rsp)
	movq	912(%rsp), %rax
	movq	%rax, 16(%rsp)
	movq	2960(%rsp), %rax
	movq	%rax, 224(%rsp)
	movaps	2944(%rsp), %xmm1
	movaps	%xmm1, 208(%rsp)
	movaps	2928(%rsp), %xmm1
	movaps	%xmm1, 192(%rsp)
	movaps	2912(%rsp), %xmm1
	movaps	%xmm1, 176(%rsp)
	movaps	2848(%rsp), %xmm1
	movaps	2864(%rsp), %xmm2
	movaps	2880(%rsp), %xmm3
	movaps	2896(%rsp), %xmm4
	movaps	%xmm4, 160(%rsp)
	movaps	%xmm3, 144(%rsp)
	movaps	%xmm2, 128(%rsp)
	movaps	%xmm1, 112(%rsp)
	movaps	.Lnoise_CPI15_17(%rip), %xmm1
	movl	$2, %edx
	movw	$256, %si
	movl	$5, %r10d
	movw	$512, %r9w
	movw	$260, %r8w
.Lnoise_BB15_20:
	xorl	%r11d, %r11d
	xorl	%edi, %edi
	xorl	%ebx, %ebx
.Lnoise_BB15_21:
	movl	$2, %eax
.Lnoise_BB15_22:
	xorl	%r15d, %r15d
.Lnoise_BB15_23:
	xorl	%r14d, %r14d
.Lnoise_BB15_24:
	movups	%xmm1, (%rcx)
	movaps	80(%rsp), %xmm1
	movups	%xmm1, 16(%rcx)
	movq	96(%rsp), %r12
	movq	%r12, 32(%rcx)
	movq	%r15, 40(%rcx)
	movups	%xmm0, 48(%rcx)
	movq	%r14, 64(%rcx)
	movw	%si, 72(%rcx)
	movw	%bx, 74(%rcx)
	movq	48(%rsp), %rsi
	movq	%rsi, 76(%rcx)
	movl	56(%rsp), %esi
	movl	%esi, 84(%rcx)
	movq	%rdx, 88(%rcx)
	movw	%r9w, 96(%rcx)
	movw	%r8w, 98(%rcx)
	movq	32(%rsp), %rdx
	movq	%rdx, 100(%rcx)
	movl	40(%rsp), %edx
	movl	%edx, 108(%rcx)
	movq	%r10, 112(%rcx)
	movw	%di, 120(%rcx)
	movw	$0, 122(%rcx)
	movl	24(%rsp), %edx
	movl	%edx, 132(%rcx)
	movq	16(%rsp), %rdx
	movq	%rdx, 124(%rcx)
	movq	%r11, 136(%rcx)
	movq	224(%rsp), %rdx
	movq	%rdx, 256(%rcx)
	movaps	208(%rsp), %xmm0
	movups	%xmm0, 240(%rcx)
	movaps	192(%rsp), %xmm0
	movups	%xmm0, 224(%rcx)
	movaps	176(%rsp), %xmm0
	movups	%xmm0, 208(%rcx)
	movaps	112(%rsp), %xmm0
	movaps	128(%rsp), %xmm1
	movaps	144(%rsp), %xmm2
	movaps	160(%rsp), %xmm3
	movups	%xmm3, 192(%rcx)
	movups	%xmm2, 176(%rcx)
	movups	%xmm1, 160(%rcx)
	movups	%xmm0, 144(%rcx)
	movq	%rax, 264(%rcx)
	addq	$2968, %rsp
	popq	%rbx
	popq	%rdi
	popq	%rsi
	popq	%r12
	popq	%r14
	popq	%r15
	retq
	.section	.rdata,"dr"
	.p2align	2, 0x0
.Lnoise_JTI15_0:
	.long	.Lnoise_BB15_2-.Lnoise_JTI15_0
	.long	.Lnoise_BB15_4-.Lnoise_JTI15_0
	.long	.Lnoise_BB15_5-.Lnoise_JTI15_0
	.long	.Lnoise_BB15_6-.Lnoise_JTI15_0
	.long	.Lnoise_BB15_7-.Lnoise_JTI15_0
	.long	.Lnoise_BB15_8-.Lnoise_JTI15_0
	.long	.Lnoise_BB15_10-.Lnoise_JTI15_0
	.long	.Lnoise_BB15_12-.Lnoise_JTI15_0
	.long	.Lnoise_BB15_13-.Lnoise_JTI15_0
	.long	.Lnoise_BB15_14-.Lnoise_JTI15_0
	.long	.Lnoise_BB15_15-.Lnoise_JTI15_0
	.long	.Lnoise_BB15_16-.Lnoise_JTI15_0
	.long	.Lnoise_BB15_17-.Lnoise_JTI15_0
	.long	.Lnoise_BB15_18-.Lnoise_JTI15_0
	.text
	.seh_endproc

	.def	"noise_names::text::read::read_line";
	.scl	3;
	.type	32;
	.endef
	.section	.rdata,"dr"
	.p2align	4, 0x0
.Lnoise_CPI16_0:
	.byte	32
	.byte	45
	.byte	62
	.byte	32
	.zero	1
	.zero	1
	.zero	1
	.zero	1
	.zero	1
	.zero	1
	.zero	1
	.zero	1
	.zero	1
	.zero	1
	.zero	1
	.zero	1
.Lnoise_CPI16_1:
	.zero	1
	.zero	1
	.byte	60
	.byte	60
	.byte	45
	.byte	45
	.zero	1
	.zero	1
	.zero	1
	.zero	1
	.zero	1
	.zero	1
	.zero	1
	.zero	1
	.zero	1
	.zero	1
.Lnoise_CPI16_2:
	.byte	32
	.byte	45
	.byte	62
	.byte	32
	.byte	0
	.byte	0
	.byte	0
	.byte	0
	.byte	0
	.byte	0
	.byte	0
	.byte	0
	.byte	0
	.byte	0
	.byte	0
	.byte	0
	.text
	.p2align	4
"noise_names::text::read::read_line":
.seh_proc "noise_names::text::read::read_line"
	pushq	%rbx
	.seh_pushreg %rbx
	subq	$32, %rsp
	.seh_stackalloc 32
	.seh_endprologue
	cmpq	$5, %r9
	jb	.Lnoise_BB16_39
	movzbl	(%r8), %r10d
	movl	1(%r8), %eax
	cmpb	$32, %r10b
	sete	%r11b
	cmpl	$540945696, %eax
	sete	%bl
	testb	%r11b, %bl
	je	.Lnoise_BB16_3
	xorl	%eax, %eax
	jmp	.Lnoise_BB16_5
.Lnoise_BB16_3:
	cmpb	$32, %r10b
	jne	.Lnoise_BB16_39
	movd	%eax, %xmm0
	movd	.Lnoise_CPI16_2(%rip), %xmm1
	pcmpeqb	%xmm0, %xmm1
	punpcklbw	%xmm0, %xmm0
	pcmpeqb	.Lnoise_CPI16_1(%rip), %xmm0
	pshuflw	$85, %xmm0, %xmm2
	pand	%xmm1, %xmm2
	punpcklbw	%xmm1, %xmm1
	pshuflw	$170, %xmm0, %xmm0
	pshuflw	$255, %xmm1, %xmm1
	pand	%xmm0, %xmm1
	pand	%xmm1, %xmm2
	movd	%xmm2, %r10d
	movb	$1, %al
	testb	$1, %r10b
	je	.Lnoise_BB16_39
.Lnoise_BB16_5:
	cmpb	%dl, %al
	jne	.Lnoise_BB16_39
	addq	$-5, %r9
	addq	$5, %r8
	pxor	%xmm0, %xmm0
	movdqa	%xmm0, (%rsp)
	xorl	%r10d, %r10d
	.p2align	4
.Lnoise_BB16_7:
	movq	%r9, %rax
	movq	%r8, %rdx
	testq	%r9, %r9
	je	.Lnoise_BB16_36
	xorl	%r8d, %r8d
	.p2align	4
.Lnoise_BB16_9:
	movzbl	(%rdx,%r8), %r9d
	addb	$-97, %r9b
	cmpb	$25, %r9b
	ja	.Lnoise_BB16_12
	incq	%r8
	cmpq	%r8, %rax
	jne	.Lnoise_BB16_9
	movq	%rax, %r8
.Lnoise_BB16_12:
	cmpq	$1, %r8
	je	.Lnoise_BB16_20
	testq	%r8, %r8
	je	.Lnoise_BB16_36
	cmpq	$2, %r8
	ja	.Lnoise_BB16_23
	movzbl	(%rdx), %r9d
	cmpl	$115, %r9d
	je	.Lnoise_BB16_33
	cmpl	$101, %r9d
	jne	.Lnoise_BB16_36
	movzbl	1(%rdx), %r11d
	movb	$2, %r9b
	cmpl	$101, %r11d
	je	.Lnoise_BB16_28
	cmpl	$115, %r11d
	jne	.Lnoise_BB16_36
	movb	$3, %r9b
	jmp	.Lnoise_BB16_28
	.p2align	4
.Lnoise_BB16_20:
	movzbl	(%rdx), %r9d
	cmpl	$101, %r9d
	je	.Lnoise_BB16_27
	cmpl	$115, %r9d
	jne	.Lnoise_BB16_36
	movb	$1, %r9b
	jmp	.Lnoise_BB16_28
	.p2align	4
.Lnoise_BB16_23:
	cmpq	$3, %r8
	jne	.Lnoise_BB16_36
	cmpb	$112, (%rdx)
	jne	.Lnoise_BB16_36
	cmpb	$115, 1(%rdx)
	jne	.Lnoise_BB16_36
	cmpb	$107, 2(%rdx)
	movq	%r10, %r11
	je	.Lnoise_BB16_30
	jmp	.Lnoise_BB16_36
	.p2align	4
.Lnoise_BB16_27:
	xorl	%r9d, %r9d
.Lnoise_BB16_28:
	movl	$8, %r11d
	cmpq	$8, %r10
	je	.Lnoise_BB16_30
	movb	%r9b, (%rsp,%r10)
	incq	%r10
	movq	%r10, 8(%rsp)
	movq	%r10, %r11
.Lnoise_BB16_30:
	addq	%r8, %rdx
	subq	%r8, %rax
	cmpq	$2, %rax
	jb	.Lnoise_BB16_36
	cmpb	$44, (%rdx)
	jne	.Lnoise_BB16_36
	leaq	2(%rdx), %r8
	leaq	-2(%rax), %r9
	cmpb	$32, 1(%rdx)
	movq	%r11, %r10
	je	.Lnoise_BB16_7
	jmp	.Lnoise_BB16_36
.Lnoise_BB16_33:
	movzbl	1(%rdx), %r11d
	movb	$4, %r9b
	cmpl	$101, %r11d
	je	.Lnoise_BB16_28
	cmpl	$115, %r11d
	jne	.Lnoise_BB16_36
	movb	$5, %r9b
	jmp	.Lnoise_BB16_28
.Lnoise_BB16_36:
	movdqa	(%rsp), %xmm0
	movdqa	%xmm0, 16(%rsp)
	testq	%rax, %rax
	je	.Lnoise_BB16_39
	cmpb	$10, (%rdx)
	jne	.Lnoise_BB16_39
	decq	%rax
	incq	%rdx
	movq	$1, (%rcx)
	movaps	16(%rsp), %xmm0
	movups	%xmm0, 8(%rcx)
	movq	%rdx, 24(%rcx)
	movq	%rax, 32(%rcx)
	addq	$32, %rsp
	popq	%rbx
	retq
.Lnoise_BB16_39:
	pxor	%xmm0, %xmm0
	movdqu	%xmm0, 16(%rcx)
	movdqu	%xmm0, (%rcx)
	movq	$0, 32(%rcx)
	addq	$32, %rsp
	popq	%rbx
	retq
	.seh_endproc

	.def	"noise_names::pattern::Pattern::with_psks";
	.scl	3;
	.type	32;
	.endef
	.p2align	4
"noise_names::pattern::Pattern::with_psks":
.seh_proc "noise_names::pattern::Pattern::with_psks"
	pushq	%r15
	.seh_pushreg %r15
	pushq	%r14
	.seh_pushreg %r14
	pushq	%r13
	.seh_pushreg %r13
	pushq	%r12
	.seh_pushreg %r12
	pushq	%rsi
	.seh_pushreg %rsi
	pushq	%rdi
	.seh_pushreg %rdi
	pushq	%rbp
	.seh_pushreg %rbp
	pushq	%rbx
	.seh_pushreg %rbx
	subq	$1032, %rsp
	.seh_stackalloc 1032
	movaps	%xmm6, 1008(%rsp)
	.seh_savexmm %xmm6, 1008
	.seh_endprologue
	movq	%r8, %rbx
	movq	%rdx, %r15
	movq	%rcx, %rdi
	xorps	%xmm0, %xmm0
	movaps	%xmm0, 96(%rsp)
	movq	$0, 112(%rsp)
	xorl	%esi, %esi
	leaq	640(%rsp), %rcx
	movl	$272, %r8d
	xorl	%edx, %edx
	callq	memset
	movq	16(%rbx), %r14
	movq	264(%r15), %r13
	.p2align	4
.Lnoise_BB17_1:
	cmpq	%rsi, %r14
	je	.Lnoise_BB17_4
	movzbl	(%rbx,%rsi), %eax
	incq	%rsi
	cmpq	%rax, %r13
	jae	.Lnoise_BB17_1
	movb	$1, (%rdi)
	movb	%al, 1(%rdi)
	addq	$8, %rdi
	movl	$272, %r8d
	movq	%rdi, %rcx
	xorl	%edx, %edx
	movaps	1008(%rsp), %xmm6
	addq	$1032, %rsp
	popq	%rbx
	popq	%rbp
	popq	%rdi
	popq	%rsi
	popq	%r12
	popq	%r13
	popq	%r14
	popq	%r15
	jmp	memset
.Lnoise_BB17_4:
	movq	%r15, 80(%rsp)
	movq	%rdi, 152(%rsp)
	xorps	%xmm6, %xmm6
	movaps	%xmm6, 160(%rsp)
	movaps	%xmm6, 176(%rsp)
	movaps	%xmm6, 192(%rsp)
	movaps	%xmm6, 208(%rsp)
	movaps	%xmm6, 224(%rsp)
	movaps	%xmm6, 240(%rsp)
	movaps	%xmm6, 256(%rsp)
	movaps	%xmm6, 272(%rsp)
	movaps	%xmm6, 288(%rsp)
	movaps	%xmm6, 304(%rsp)
	movaps	%xmm6, 320(%rsp)
	movaps	%xmm6, 336(%rsp)
	movq	$0, 352(%rsp)
	testq	%r13, %r13
	je	.Lnoise_BB17_14
	negq	%r13
	movq	80(%rsp), %rax
	addq	$88, %rax
	movq	%rax, 88(%rsp)
	movl	$1, %esi
	xorl	%edi, %edi
	jmp	.Lnoise_BB17_7
	.p2align	4
.Lnoise_BB17_6:
	movq	48(%rsp), %rax
	movq	%rax, 144(%rsp)
	movaps	32(%rsp), %xmm0
	movaps	%xmm0, 128(%rsp)
	movups	%xmm0, 160(%rsp,%rdi)
	movq	%rax, 176(%rsp,%rdi)
	movq	%rsi, 352(%rsp)
	addq	$24, %rdi
	leaq	(%rsi,%r13), %rax
	incq	%rax
	incq	%rsi
	cmpq	$1, %rax
	je	.Lnoise_BB17_14
.Lnoise_BB17_7:
	movq	88(%rsp), %rax
	movq	(%rax,%rdi), %r15
	movb	%sil, 64(%rsp)
	xorps	%xmm0, %xmm0
	movaps	%xmm0, 32(%rsp)
	leaq	32(%rsp), %r12
	cmpb	$1, %sil
	jne	.Lnoise_BB17_11
	leaq	.Lnoise_static.2(%rip), %r8
	movq	%rbx, %rcx
	movq	%r14, %rdx
	callq	"core::slice::reads::slice+T::contains::<i8,31'core::cmp::numbers::U8PartialEq{}>"
	testb	%al, %al
	je	.Lnoise_BB17_11
	movb	$6, 32(%rsp)
	movl	$1, %ebp
	leaq	33(%rsp), %r12
	movl	$10, %eax
	subq	%rbp, %rax
	cmpq	%r15, %rax
	jae	.Lnoise_BB17_12
	jmp	.Lnoise_BB17_27
	.p2align	4
.Lnoise_BB17_11:
	xorl	%ebp, %ebp
	movl	$10, %eax
	subq	%rbp, %rax
	cmpq	%r15, %rax
	jb	.Lnoise_BB17_27
.Lnoise_BB17_12:
	movq	88(%rsp), %rax
	leaq	(%rax,%rdi), %rdx
	addq	$-16, %rdx
	movq	%r12, %rcx
	movq	%r15, %r8
	callq	memcpy
	addq	%r15, %rbp
	movq	%rbp, 48(%rsp)
	leaq	64(%rsp), %r8
	movq	%rbx, %rcx
	movq	%r14, %rdx
	callq	"core::slice::reads::slice+T::contains::<i8,31'core::cmp::numbers::U8PartialEq{}>"
	testb	%al, %al
	je	.Lnoise_BB17_6
	movb	$6, 32(%rsp,%rbp)
	incq	%rbp
	movq	%rbp, 48(%rsp)
	jmp	.Lnoise_BB17_6
.Lnoise_BB17_14:
	leaq	440(%rsp), %rcx
	leaq	160(%rsp), %rdx
	movl	$200, %r8d
	callq	memcpy
	movaps	%xmm6, 160(%rsp)
	movq	$0, 176(%rsp)
	testq	%r14, %r14
	movq	80(%rsp), %rsi
	je	.Lnoise_BB17_23
	movl	%r14d, %eax
	andl	$3, %eax
	cmpq	$4, %r14
	jae	.Lnoise_BB17_17
	xorl	%ecx, %ecx
	jmp	.Lnoise_BB17_21
.Lnoise_BB17_17:
	andq	$-4, %r14
	negq	%r14
	movl	$2, %ecx
	.p2align	4
.Lnoise_BB17_18:
	movzbl	-2(%rbx,%rcx), %edx
	movb	%dl, 158(%rsp,%rcx)
	leaq	-1(%rcx), %rdx
	movq	%rdx, 176(%rsp)
	movzbl	-1(%rbx,%rcx), %edx
	movb	%dl, 159(%rsp,%rcx)
	movq	%rcx, 176(%rsp)
	movzbl	(%rbx,%rcx), %edx
	movb	%dl, 160(%rsp,%rcx)
	leaq	1(%rcx), %rdx
	movq	%rdx, 176(%rsp)
	movzbl	1(%rbx,%rcx), %edx
	movb	%dl, 161(%rsp,%rcx)
	leaq	2(%rcx), %rdx
	movq	%rdx, 176(%rsp)
	leaq	(%r14,%rcx), %rdx
	addq	$4, %rdx
	addq	$4, %rcx
	cmpq	$2, %rdx
	jne	.Lnoise_BB17_18
	testq	%rax, %rax
	je	.Lnoise_BB17_23
	addq	$-2, %rcx
.Lnoise_BB17_21:
	incq	%rcx
	.p2align	4
.Lnoise_BB17_22:
	movzbl	-1(%rbx,%rcx), %edx
	movb	%dl, 159(%rsp,%rcx)
	movq	%rcx, 176(%rsp)
	incq	%rcx
	decq	%rax
	jne	.Lnoise_BB17_22
.Lnoise_BB17_23:
	movq	176(%rsp), %rax
	movaps	160(%rsp), %xmm0
	movaps	%xmm0, 96(%rsp)
	movq	%rax, 112(%rsp)
	movq	8(%rsi), %r15
	movq	48(%rsi), %r14
	movq	64(%rsi), %rbx
	movq	$0, 32(%rsp)
	cmpq	$8, %r15
	ja	.Lnoise_BB17_27
	leaq	32(%rsp), %rcx
	movq	%rsi, %rdx
	movq	%r15, %r8
	callq	memcpy
	movq	%r15, 40(%rsp)
	movq	$0, 128(%rsp)
	cmpq	$2, %r14
	ja	.Lnoise_BB17_27
	leaq	40(%rsi), %rdx
	leaq	128(%rsp), %rcx
	movq	%r14, %r8
	callq	memcpy
	movq	%r14, 136(%rsp)
	movq	$0, 64(%rsp)
	cmpq	$2, %rbx
	ja	.Lnoise_BB17_27
	addq	$56, %rsi
	leaq	64(%rsp), %rcx
	movq	%rsi, %rdx
	movq	%rbx, %r8
	callq	memcpy
	movq	%rbx, 72(%rsp)
	movups	32(%rsp), %xmm0
	movaps	%xmm0, 160(%rsp)
	movaps	96(%rsp), %xmm0
	movaps	%xmm0, 176(%rsp)
	movq	112(%rsp), %rax
	movq	%rax, 192(%rsp)
	movups	128(%rsp), %xmm0
	movups	%xmm0, 200(%rsp)
	movq	64(%rsp), %rax
	movq	%rax, 216(%rsp)
	movq	72(%rsp), %rax
	movq	%rax, 224(%rsp)
	leaq	232(%rsp), %rcx
	leaq	440(%rsp), %rdx
	movl	$200, %r8d
	callq	memcpy
	leaq	640(%rsp), %rdi
	leaq	160(%rsp), %rdx
	movl	$272, %r8d
	movq	%rdi, %rcx
	callq	memcpy
	movq	152(%rsp), %rcx
	movw	$0, (%rcx)
	addq	$8, %rcx
	movl	$272, %r8d
	movq	%rdi, %rdx
	callq	memcpy
	movaps	1008(%rsp), %xmm6
	addq	$1032, %rsp
	popq	%rbx
	popq	%rbp
	popq	%rdi
	popq	%rsi
	popq	%r12
	popq	%r13
	popq	%r14
	popq	%r15
	retq
.Lnoise_BB17_27:
	ud2
	.seh_endproc

	.def	"core::slice::reads::slice+T::contains::<i8,31'core::cmp::numbers::U8PartialEq{}>";
	.scl	3;
	.type	32;
	.endef
	.p2align	4
"core::slice::reads::slice+T::contains::<i8,31'core::cmp::numbers::U8PartialEq{}>":
	cmpq	$3, %rdx
	ja	.Lnoise_BB18_4
	testq	%rdx, %rdx
	je	.Lnoise_BB18_2
	movzbl	(%r8), %eax
	cmpb	%al, (%rcx)
	sete	%r8b
	movq	%rdx, %r9
	shrq	%r9
	cmpb	%al, (%rcx,%r9)
	sete	%r9b
	cmpb	%al, -1(%rcx,%rdx)
	sete	%al
	orb	%r8b, %al
	orb	%r9b, %al
	retq
.Lnoise_BB18_4:
	cmpq	$8, %rdx
	ja	.Lnoise_BB18_6
	movd	-4(%rcx,%rdx), %xmm0
	movd	(%rcx), %xmm1
	punpckldq	%xmm0, %xmm1
	movzbl	(%r8), %eax
	movd	%eax, %xmm0
	punpcklbw	%xmm0, %xmm0
	pshuflw	$0, %xmm0, %xmm0
	pcmpeqb	%xmm1, %xmm0
	pmovmskb	%xmm0, %eax
	testb	%al, %al
	jmp	.Lnoise_BB18_21
.Lnoise_BB18_6:
	cmpq	$32, %rdx
	ja	.Lnoise_BB18_8
	leaq	-8(%rdx), %rax
	cmpq	$8, %rax
	movl	$8, %r9d
	cmovbq	%rax, %r9
	cmpq	$16, %rax
	movl	$16, %r10d
	cmovbq	%rax, %r10
	movq	(%rcx,%r9), %xmm0
	movq	(%rcx), %xmm1
	punpcklqdq	%xmm0, %xmm1
	movq	(%rcx,%r10), %xmm0
	movq	-8(%rcx,%rdx), %xmm2
	punpcklqdq	%xmm2, %xmm0
	movzbl	(%r8), %eax
	movd	%eax, %xmm2
	punpcklbw	%xmm2, %xmm2
	pshuflw	$0, %xmm2, %xmm2
	pshufd	$68, %xmm2, %xmm2
	pcmpeqb	%xmm2, %xmm0
	pcmpeqb	%xmm2, %xmm1
	jmp	.Lnoise_BB18_17
.Lnoise_BB18_2:
	xorl	%eax, %eax
	retq
.Lnoise_BB18_8:
	movzbl	(%r8), %eax
	cmpq	$65, %rdx
	jae	.Lnoise_BB18_9
	movdqu	(%rcx), %xmm0
	movdqu	16(%rcx), %xmm1
	movdqu	-32(%rcx,%rdx), %xmm2
	movdqu	-16(%rcx,%rdx), %xmm3
	movzbl	%al, %eax
	movd	%eax, %xmm4
	punpcklbw	%xmm4, %xmm4
	pshuflw	$0, %xmm4, %xmm4
	pshufd	$68, %xmm4, %xmm4
	pcmpeqb	%xmm4, %xmm2
	pcmpeqb	%xmm4, %xmm0
	por	%xmm2, %xmm0
	pcmpeqb	%xmm4, %xmm3
	pcmpeqb	%xmm4, %xmm1
	por	%xmm3, %xmm1
.Lnoise_BB18_17:
	por	%xmm0, %xmm1
	pmovmskb	%xmm1, %eax
	jmp	.Lnoise_BB18_20
.Lnoise_BB18_9:
	movzbl	%al, %eax
	movd	%eax, %xmm0
	punpcklbw	%xmm0, %xmm0
	pshuflw	$0, %xmm0, %xmm0
	pshufd	$68, %xmm0, %xmm0
	xorl	%eax, %eax
	movq	%rdx, %r9
	.p2align	4
.Lnoise_BB18_10:
	movdqu	(%rcx,%rax), %xmm1
	movdqu	16(%rcx,%rax), %xmm2
	movdqu	32(%rcx,%rax), %xmm3
	movdqu	48(%rcx,%rax), %xmm4
	pcmpeqb	%xmm0, %xmm2
	pcmpeqb	%xmm0, %xmm4
	por	%xmm2, %xmm4
	pcmpeqb	%xmm0, %xmm1
	pcmpeqb	%xmm0, %xmm3
	por	%xmm1, %xmm3
	por	%xmm4, %xmm3
	pmovmskb	%xmm3, %r10d
	testl	%r10d, %r10d
	jne	.Lnoise_BB18_12
	addq	$64, %rax
	addq	$-64, %r9
	cmpq	$63, %r9
	ja	.Lnoise_BB18_10
.Lnoise_BB18_12:
	cmpq	$32, %r9
	jb	.Lnoise_BB18_19
	movzbl	(%r8), %r9d
	movd	%r9d, %xmm0
	punpcklbw	%xmm0, %xmm0
	pshuflw	$0, %xmm0, %xmm0
	pshufd	$68, %xmm0, %xmm0
	movq	%rdx, %r9
	subq	%rax, %r9
	addq	%rcx, %rax
	.p2align	4
.Lnoise_BB18_14:
	movdqu	(%rax), %xmm1
	movdqu	16(%rax), %xmm2
	pcmpeqb	%xmm0, %xmm2
	pcmpeqb	%xmm0, %xmm1
	por	%xmm2, %xmm1
	pmovmskb	%xmm1, %r10d
	testl	%r10d, %r10d
	jne	.Lnoise_BB18_18
	addq	$-32, %r9
	addq	$32, %rax
	cmpq	$32, %r9
	jae	.Lnoise_BB18_14
	jmp	.Lnoise_BB18_19
.Lnoise_BB18_18:
	movb	$1, %al
	cmpq	$31, %r9
	ja	.Lnoise_BB18_22
.Lnoise_BB18_19:
	movdqu	-32(%rcx,%rdx), %xmm0
	movdqu	-16(%rcx,%rdx), %xmm1
	movzbl	(%r8), %eax
	movd	%eax, %xmm2
	punpcklbw	%xmm2, %xmm2
	pshuflw	$0, %xmm2, %xmm2
	pshufd	$68, %xmm2, %xmm2
	pcmpeqb	%xmm2, %xmm1
	pcmpeqb	%xmm2, %xmm0
	por	%xmm1, %xmm0
	pmovmskb	%xmm0, %eax
.Lnoise_BB18_20:
	testl	%eax, %eax
.Lnoise_BB18_21:
	setne	%al
.Lnoise_BB18_22:
	retq

	.def	"noise_names::text::write::text";
	.scl	3;
	.type	32;
	.endef
	.p2align	4
"noise_names::text::write::text":
.seh_proc "noise_names::text::write::text"
	pushq	%r15
	.seh_pushreg %r15
	pushq	%r14
	.seh_pushreg %r14
	pushq	%rsi
	.seh_pushreg %rsi
	pushq	%rdi
	.seh_pushreg %rdi
	pushq	%rbx
	.seh_pushreg %rbx
	subq	$1376, %rsp
	.seh_stackalloc 1376
	.seh_endprologue
	movq	%rdx, %rdi
	movq	%rcx, %rsi
	movq	264(%rdx), %r14
	leaq	296(%rsp), %rcx
	movl	$552, %r8d
	xorl	%edx, %edx
	callq	memset
	movq	8(%rdi), %rbx
	xorps	%xmm0, %xmm0
	movaps	%xmm0, 272(%rsp)
	movaps	%xmm0, 256(%rsp)
	movaps	%xmm0, 240(%rsp)
	movaps	%xmm0, 224(%rsp)
	movaps	%xmm0, 208(%rsp)
	movaps	%xmm0, 192(%rsp)
	movaps	%xmm0, 176(%rsp)
	movaps	%xmm0, 160(%rsp)
	movaps	%xmm0, 144(%rsp)
	movaps	%xmm0, 128(%rsp)
	movaps	%xmm0, 112(%rsp)
	movaps	%xmm0, 96(%rsp)
	movaps	%xmm0, 80(%rsp)
	movaps	%xmm0, 64(%rsp)
	movaps	%xmm0, 48(%rsp)
	movaps	%xmm0, 32(%rsp)
	cmpq	$255, %rbx
	ja	.Lnoise_BB19_23
	leaq	32(%rsp), %rcx
	movq	%rdi, %rdx
	movq	%rbx, %r8
	callq	memcpy
	movq	32(%rdi), %rax
	testq	%rax, %rax
	je	.Lnoise_BB19_15
	cmpq	$252, %rbx
	ja	.Lnoise_BB19_23
	leaq	(%rsp,%rbx), %rdx
	addq	$32, %rdx
	leaq	.Lnoise_static.51(%rip), %rcx
	movq	%rdx, %r8
	subq	%rcx, %r8
	cmpq	$3, %r8
	jae	.Lnoise_BB19_4
	movw	$29552, (%rdx)
	movb	$107, 2(%rdx)
	jmp	.Lnoise_BB19_6
.Lnoise_BB19_4:
	movb	$107, 2(%rdx)
	movw	$29552, (%rdx)
.Lnoise_BB19_6:
	movzbl	16(%rdi), %edx
	addb	$48, %dl
	movb	%dl, 35(%rsp,%rbx)
	cmpq	$1, %rax
	jne	.Lnoise_BB19_8
	addq	$4, %rbx
	jmp	.Lnoise_BB19_15
.Lnoise_BB19_8:
	addq	$-248, %rbx
	decq	%rax
	xorl	%edx, %edx
	jmp	.Lnoise_BB19_9
	.p2align	4
.Lnoise_BB19_12:
	movb	$107, 2(%r8)
	movw	$29552, (%r8)
.Lnoise_BB19_13:
	movzbl	17(%rdi,%rdx), %r8d
	addb	$48, %r8b
	movb	%r8b, 288(%rsp,%rbx)
	addq	$5, %rbx
	incq	%rdx
	cmpq	%rdx, %rax
	je	.Lnoise_BB19_14
.Lnoise_BB19_9:
	movb	$43, 284(%rsp,%rbx)
	cmpq	$3, %rbx
	jb	.Lnoise_BB19_23
	leaq	(%rsp,%rbx), %r8
	addq	$285, %r8
	movq	%r8, %r9
	subq	%rcx, %r9
	cmpq	$2, %r9
	ja	.Lnoise_BB19_12
	movw	$29552, 285(%rsp,%rbx)
	movb	$107, 287(%rsp,%rbx)
	jmp	.Lnoise_BB19_13
.Lnoise_BB19_14:
	addq	$252, %rbx
.Lnoise_BB19_15:
	movw	$2618, 32(%rsp,%rbx)
	addq	$2, %rbx
	movq	%rbx, 288(%rsp)
	leaq	1112(%rsp), %rbx
	leaq	32(%rsp), %rdx
	movl	$264, %r8d
	movq	%rbx, %rcx
	callq	memcpy
	leaq	848(%rsp), %rcx
	movl	$264, %r8d
	movq	%rbx, %rdx
	callq	memcpy
	movq	1104(%rsp), %rbx
	movq	840(%rsp), %r15
	movl	$541, %eax
	subq	%r15, %rax
	cmpq	%rbx, %rax
	jb	.Lnoise_BB19_23
	leaq	(%rsp,%r15), %rcx
	addq	$296, %rcx
	leaq	848(%rsp), %rdx
	movq	%rbx, %r8
	callq	memcpy
	addq	%rbx, %r15
	movq	%r15, 840(%rsp)
	movq	48(%rdi), %r9
	movq	64(%rdi), %rbx
	testq	%r9, %r9
	je	.Lnoise_BB19_17
	leaq	40(%rdi), %r8
	leaq	296(%rsp), %rcx
	xorl	%edx, %edx
	callq	"noise_names::text::write::push_token_line"
	testq	%rbx, %rbx
	jne	.Lnoise_BB19_19
	jmp	.Lnoise_BB19_20
.Lnoise_BB19_17:
	testq	%rbx, %rbx
	je	.Lnoise_BB19_26
.Lnoise_BB19_19:
	leaq	56(%rdi), %r8
	leaq	296(%rsp), %rcx
	movb	$1, %dl
	movq	%rbx, %r9
	callq	"noise_names::text::write::push_token_line"
.Lnoise_BB19_20:
	movq	840(%rsp), %rax
	leaq	-536(%rax), %rcx
	cmpq	$6, %rcx
	jb	.Lnoise_BB19_23
	leaq	(%rsp,%rax), %rcx
	addq	$296, %rcx
	leaq	.Lnoise_static.82(%rip), %rdx
	movq	%rcx, %r8
	subq	%rdx, %r8
	cmpq	$5, %r8
	ja	.Lnoise_BB19_24
	movl	$774774816, (%rcx)
	movw	$2606, 4(%rcx)
	jmp	.Lnoise_BB19_25
.Lnoise_BB19_24:
	movw	$2606, 4(%rcx)
	movl	$774774816, (%rcx)
.Lnoise_BB19_25:
	addq	$6, %rax
	movq	%rax, 840(%rsp)
.Lnoise_BB19_26:
	testq	%r14, %r14
	je	.Lnoise_BB19_29
	addq	$72, %rdi
	xorl	%ebx, %ebx
	.p2align	4
.Lnoise_BB19_28:
	movq	16(%rdi), %r9
	leaq	296(%rsp), %rcx
	movl	%ebx, %edx
	movq	%rdi, %r8
	callq	"noise_names::text::write::push_token_line"
	xorb	$1, %bl
	addq	$24, %rdi
	decq	%r14
	jne	.Lnoise_BB19_28
.Lnoise_BB19_29:
	leaq	296(%rsp), %rdx
	movl	$552, %r8d
	movq	%rsi, %rcx
	callq	memcpy
	nop
	addq	$1376, %rsp
	popq	%rbx
	popq	%rdi
	popq	%rsi
	popq	%r14
	popq	%r15
	retq
.Lnoise_BB19_23:
	ud2
	.seh_endproc

	.def	"noise_names::text::write::push_token_line";
	.scl	3;
	.type	32;
	.endef
	.p2align	4
"noise_names::text::write::push_token_line":
.seh_proc "noise_names::text::write::push_token_line"
	pushq	%r15
	.seh_pushreg %r15
	pushq	%r14
	.seh_pushreg %r14
	pushq	%r13
	.seh_pushreg %r13
	pushq	%r12
	.seh_pushreg %r12
	pushq	%rsi
	.seh_pushreg %rsi
	pushq	%rdi
	.seh_pushreg %rdi
	pushq	%rbp
	.seh_pushreg %rbp
	pushq	%rbx
	.seh_pushreg %rbx
	subq	$40, %rsp
	.seh_stackalloc 40
	.seh_endprologue
	movq	%r8, %rbx
	movq	544(%rcx), %rax
	movq	%rax, %r8
	andq	$-2, %r8
	cmpq	$540, %r8
	je	.Lnoise_BB20_23
	movq	%r9, %rdi
	movq	%rcx, %rsi
	movw	$8224, (%rcx,%rax)
	leaq	.Lnoise_static.89(%rip), %r9
	leaq	.Lnoise_static.88(%rip), %rcx
	testb	$1, %dl
	cmovneq	%r9, %rcx
	cmpq	$538, %r8
	je	.Lnoise_BB20_23
	leaq	(%rsi,%rax), %r8
	addq	$2, %r8
	movq	%r8, %r9
	subq	%rcx, %r9
	cmpq	$1, %r9
	ja	.Lnoise_BB20_4
	leaq	(%rsi,%rax), %r8
	movzbl	(%rcx), %ecx
	movb	%cl, 2(%r8)
	testb	$1, %dl
	movl	$45, %ecx
	movl	$62, %edx
	cmovnel	%ecx, %edx
	movb	%dl, 3(%r8)
	jmp	.Lnoise_BB20_5
.Lnoise_BB20_4:
	movzwl	(%rcx), %ecx
	movw	%cx, (%r8)
.Lnoise_BB20_5:
	cmpq	$537, %rax
	je	.Lnoise_BB20_23
	movb	$32, 4(%rsi,%rax)
	leaq	5(%rax), %r14
	movq	%r14, 544(%rsi)
	testq	%rdi, %rdi
	je	.Lnoise_BB20_22
	movzbl	(%rbx), %ecx
	shll	$3, %ecx
	leaq	".Lnoise_switch.table.noise_names::text::write::push_token_line.199"(%rip), %r10
	movq	(%rcx,%r10), %r15
	movl	$536, %edx
	subq	%rax, %rdx
	cmpq	%r15, %rdx
	jb	.Lnoise_BB20_23
	decq	%rdi
	leaq	".Lnoise_switch.table.noise_names::text::write::push_token_line.200"(%rip), %r13
	movq	(%rcx,%r13), %rdx
	leaq	(%rsi,%r14), %rcx
	movq	%rcx, %rax
	subq	%rdx, %rax
	cmpq	%r15, %rax
	jae	.Lnoise_BB20_11
	movl	%r15d, %eax
	andl	$3, %eax
	xorl	%r8d, %r8d
	.p2align	4
.Lnoise_BB20_10:
	movzbl	(%rdx,%r8), %r9d
	movb	%r9b, (%rcx,%r8)
	incq	%r8
	cmpq	%r8, %rax
	jne	.Lnoise_BB20_10
	addq	%r14, %r15
	testq	%rdi, %rdi
	je	.Lnoise_BB20_13
.Lnoise_BB20_14:
	xorl	%ebp, %ebp
	jmp	.Lnoise_BB20_15
	.p2align	4
.Lnoise_BB20_20:
	movq	%r14, %r8
	movq	%r10, %r15
	callq	memcpy
	movq	%r15, %r10
.Lnoise_BB20_21:
	addq	%r12, %r14
	movq	%r14, 544(%rsi)
	incq	%rbp
	movq	%r14, %r15
	cmpq	%rdi, %rbp
	je	.Lnoise_BB20_22
.Lnoise_BB20_15:
	movq	%r15, %rax
	andq	$-2, %rax
	cmpq	$540, %rax
	je	.Lnoise_BB20_23
	leaq	(%rsi,%r15), %rax
	leaq	.Lnoise_static.85(%rip), %rcx
	movq	%rax, %rdx
	subq	%rcx, %rdx
	cmpq	$1, %rdx
	movw	$8236, (%rax)
	leaq	2(%r15), %r12
	movq	%r12, 544(%rsi)
	movzbl	1(%rbx,%rbp), %eax
	shll	$3, %eax
	movq	(%rax,%r10), %r14
	movl	$539, %ecx
	subq	%r15, %rcx
	cmpq	%r14, %rcx
	jb	.Lnoise_BB20_23
	movq	(%rax,%r13), %rdx
	leaq	(%rsi,%r12), %rcx
	movq	%rcx, %rax
	subq	%rdx, %rax
	cmpq	%r14, %rax
	jae	.Lnoise_BB20_20
	movl	%r14d, %eax
	andl	$3, %eax
	xorl	%r8d, %r8d
	.p2align	4
.Lnoise_BB20_19:
	movzbl	(%rdx,%r8), %r9d
	movb	%r9b, (%rcx,%r8)
	incq	%r8
	cmpq	%r8, %rax
	jne	.Lnoise_BB20_19
	jmp	.Lnoise_BB20_21
.Lnoise_BB20_11:
	movq	%r15, %r8
	movq	%r10, %r12
	callq	memcpy
	movq	%r12, %r10
	addq	%r14, %r15
	testq	%rdi, %rdi
	jne	.Lnoise_BB20_14
.Lnoise_BB20_13:
	movq	%r15, %r14
.Lnoise_BB20_22:
	cmpq	$541, %r14
	je	.Lnoise_BB20_23
	movb	$10, (%rsi,%r14)
	incq	%r14
	movq	%r14, 544(%rsi)
	addq	$40, %rsp
	popq	%rbx
	popq	%rbp
	popq	%rdi
	popq	%rsi
	popq	%r12
	popq	%r13
	popq	%r14
	popq	%r15
	retq
.Lnoise_BB20_23:
	ud2
	.seh_endproc

	.def	"core::cmp::slices::groups_equal::<i8,31'core::cmp::numbers::U8PartialEq{}>";
	.scl	3;
	.type	32;
	.endef
	.p2align	4
"core::cmp::slices::groups_equal::<i8,31'core::cmp::numbers::U8PartialEq{}>":
	cmpq	$8, %rdx
	ja	.Lnoise_BB21_2
	movd	-4(%rcx,%rdx), %xmm0
	movd	(%rcx), %xmm1
	punpckldq	%xmm0, %xmm1
	movd	-4(%r8,%rdx), %xmm0
	movd	(%r8), %xmm2
	punpckldq	%xmm0, %xmm2
	movq	%xmm1, %rax
	movq	%xmm2, %rcx
	cmpq	%rcx, %rax
	jmp	.Lnoise_BB21_17
.Lnoise_BB21_2:
	cmpq	$32, %rdx
	ja	.Lnoise_BB21_4
	leaq	-8(%rdx), %rax
	cmpq	$8, %rax
	movl	$8, %r9d
	cmovbq	%rax, %r9
	cmpq	$16, %rax
	movl	$16, %r10d
	cmovbq	%rax, %r10
	movq	(%rcx,%r9), %xmm0
	movq	(%rcx), %xmm1
	punpcklqdq	%xmm0, %xmm1
	movq	(%rcx,%r10), %xmm0
	movq	-8(%rcx,%rdx), %xmm2
	punpcklqdq	%xmm2, %xmm0
	movq	(%r8,%r9), %xmm2
	movq	(%r8), %xmm3
	punpcklqdq	%xmm2, %xmm3
	pcmpeqb	%xmm1, %xmm3
	movq	(%r8,%r10), %xmm1
	movq	-8(%r8,%rdx), %xmm2
	punpcklqdq	%xmm2, %xmm1
	pcmpeqb	%xmm0, %xmm1
	pand	%xmm3, %xmm1
	pmovmskb	%xmm1, %eax
	jmp	.Lnoise_BB21_16
.Lnoise_BB21_4:
	cmpq	$65, %rdx
	jae	.Lnoise_BB21_5
	movdqu	(%rcx), %xmm0
	movdqu	16(%rcx), %xmm1
	movdqu	(%r8), %xmm2
	pcmpeqb	%xmm0, %xmm2
	movdqu	16(%r8), %xmm0
	pcmpeqb	%xmm1, %xmm0
	movdqu	-32(%rcx,%rdx), %xmm1
	movdqu	-16(%rcx,%rdx), %xmm3
	movdqu	-32(%r8,%rdx), %xmm4
	pcmpeqb	%xmm1, %xmm4
	pand	%xmm2, %xmm4
	movdqu	-16(%r8,%rdx), %xmm1
	pcmpeqb	%xmm3, %xmm1
	pand	%xmm0, %xmm1
	pand	%xmm4, %xmm1
	pmovmskb	%xmm1, %eax
	jmp	.Lnoise_BB21_16
.Lnoise_BB21_5:
	xorl	%eax, %eax
	movq	%rdx, %r9
	.p2align	4
.Lnoise_BB21_6:
	movdqu	(%rcx,%rax), %xmm0
	movdqu	16(%rcx,%rax), %xmm1
	movdqu	32(%rcx,%rax), %xmm2
	movdqu	48(%rcx,%rax), %xmm3
	movdqu	(%r8,%rax), %xmm4
	pcmpeqb	%xmm0, %xmm4
	movdqu	16(%r8,%rax), %xmm0
	pcmpeqb	%xmm1, %xmm0
	movdqu	32(%r8,%rax), %xmm1
	pcmpeqb	%xmm2, %xmm1
	pand	%xmm4, %xmm1
	movdqu	48(%r8,%rax), %xmm2
	pcmpeqb	%xmm3, %xmm2
	pand	%xmm0, %xmm2
	pand	%xmm1, %xmm2
	pmovmskb	%xmm2, %r10d
	cmpl	$65535, %r10d
	jne	.Lnoise_BB21_8
	addq	$64, %rax
	addq	$-64, %r9
	cmpq	$63, %r9
	ja	.Lnoise_BB21_6
.Lnoise_BB21_8:
	cmpq	$32, %r9
	jb	.Lnoise_BB21_15
	movq	%rdx, %r9
	subq	%rax, %r9
	.p2align	4
.Lnoise_BB21_10:
	movdqu	(%rcx,%rax), %xmm0
	movdqu	16(%rcx,%rax), %xmm1
	movdqu	(%r8,%rax), %xmm2
	pcmpeqb	%xmm0, %xmm2
	movdqu	16(%r8,%rax), %xmm0
	pcmpeqb	%xmm1, %xmm0
	pand	%xmm2, %xmm0
	pmovmskb	%xmm0, %r10d
	xorl	$65535, %r10d
	jne	.Lnoise_BB21_14
	addq	$32, %rax
	addq	$-32, %r9
	cmpq	$31, %r9
	ja	.Lnoise_BB21_10
	jmp	.Lnoise_BB21_15
.Lnoise_BB21_14:
	movb	$1, %al
	cmpq	$31, %r9
	ja	.Lnoise_BB21_18
.Lnoise_BB21_15:
	movdqu	-32(%rcx,%rdx), %xmm0
	movdqu	-16(%rcx,%rdx), %xmm1
	movdqu	-32(%r8,%rdx), %xmm2
	pcmpeqb	%xmm0, %xmm2
	movdqu	-16(%r8,%rdx), %xmm0
	pcmpeqb	%xmm1, %xmm0
	pand	%xmm2, %xmm0
	pmovmskb	%xmm0, %eax
.Lnoise_BB21_16:
	xorl	$65535, %eax
.Lnoise_BB21_17:
	setne	%al
.Lnoise_BB21_18:
	xorb	$1, %al
	retq

	.def	"core::cmp::slices::groups_equal::<#1549cde59530a8ca>";
	.scl	3;
	.type	32;
	.endef
	.p2align	4
"core::cmp::slices::groups_equal::<#1549cde59530a8ca>":
	cmpq	$8, %rdx
	ja	.Lnoise_BB22_2
	movd	-4(%rcx,%rdx), %xmm0
	movd	(%rcx), %xmm1
	punpckldq	%xmm0, %xmm1
	movd	-4(%r8,%rdx), %xmm0
	movd	(%r8), %xmm2
	punpckldq	%xmm0, %xmm2
	movq	%xmm1, %rax
	movq	%xmm2, %rcx
	cmpq	%rcx, %rax
	jmp	.Lnoise_BB22_17
.Lnoise_BB22_2:
	cmpq	$32, %rdx
	ja	.Lnoise_BB22_4
	leaq	-8(%rdx), %rax
	cmpq	$8, %rax
	movl	$8, %r9d
	cmovbq	%rax, %r9
	cmpq	$16, %rax
	movl	$16, %r10d
	cmovbq	%rax, %r10
	movq	(%rcx,%r9), %xmm0
	movq	(%rcx), %xmm1
	punpcklqdq	%xmm0, %xmm1
	movq	(%rcx,%r10), %xmm0
	movq	-8(%rcx,%rdx), %xmm2
	punpcklqdq	%xmm2, %xmm0
	movq	(%r8,%r9), %xmm2
	movq	(%r8), %xmm3
	punpcklqdq	%xmm2, %xmm3
	pcmpeqb	%xmm1, %xmm3
	movq	(%r8,%r10), %xmm1
	movq	-8(%r8,%rdx), %xmm2
	punpcklqdq	%xmm2, %xmm1
	pcmpeqb	%xmm0, %xmm1
	pand	%xmm3, %xmm1
	pmovmskb	%xmm1, %eax
	jmp	.Lnoise_BB22_16
.Lnoise_BB22_4:
	cmpq	$65, %rdx
	jae	.Lnoise_BB22_5
	movdqu	(%rcx), %xmm0
	movdqu	16(%rcx), %xmm1
	movdqu	(%r8), %xmm2
	pcmpeqb	%xmm0, %xmm2
	movdqu	16(%r8), %xmm0
	pcmpeqb	%xmm1, %xmm0
	movdqu	-32(%rcx,%rdx), %xmm1
	movdqu	-16(%rcx,%rdx), %xmm3
	movdqu	-32(%r8,%rdx), %xmm4
	pcmpeqb	%xmm1, %xmm4
	pand	%xmm2, %xmm4
	movdqu	-16(%r8,%rdx), %xmm1
	pcmpeqb	%xmm3, %xmm1
	pand	%xmm0, %xmm1
	pand	%xmm4, %xmm1
	pmovmskb	%xmm1, %eax
	jmp	.Lnoise_BB22_16
.Lnoise_BB22_5:
	xorl	%eax, %eax
	movq	%rdx, %r9
	.p2align	4
.Lnoise_BB22_6:
	movdqu	(%rcx,%rax), %xmm0
	movdqu	16(%rcx,%rax), %xmm1
	movdqu	32(%rcx,%rax), %xmm2
	movdqu	48(%rcx,%rax), %xmm3
	movdqu	(%r8,%rax), %xmm4
	pcmpeqb	%xmm0, %xmm4
	movdqu	16(%r8,%rax), %xmm0
	pcmpeqb	%xmm1, %xmm0
	movdqu	32(%r8,%rax), %xmm1
	pcmpeqb	%xmm2, %xmm1
	pand	%xmm4, %xmm1
	movdqu	48(%r8,%rax), %xmm2
	pcmpeqb	%xmm3, %xmm2
	pand	%xmm0, %xmm2
	pand	%xmm1, %xmm2
	pmovmskb	%xmm2, %r10d
	cmpl	$65535, %r10d
	jne	.Lnoise_BB22_8
	addq	$64, %rax
	addq	$-64, %r9
	cmpq	$63, %r9
	ja	.Lnoise_BB22_6
.Lnoise_BB22_8:
	cmpq	$32, %r9
	jb	.Lnoise_BB22_15
	movq	%rdx, %r9
	subq	%rax, %r9
	.p2align	4
.Lnoise_BB22_10:
	movdqu	(%rcx,%rax), %xmm0
	movdqu	16(%rcx,%rax), %xmm1
	movdqu	(%r8,%rax), %xmm2
	pcmpeqb	%xmm0, %xmm2
	movdqu	16(%r8,%rax), %xmm0
	pcmpeqb	%xmm1, %xmm0
	pand	%xmm2, %xmm0
	pmovmskb	%xmm0, %r10d
	xorl	$65535, %r10d
	jne	.Lnoise_BB22_14
	addq	$32, %rax
	addq	$-32, %r9
	cmpq	$32, %r9
	jae	.Lnoise_BB22_10
	jmp	.Lnoise_BB22_15
.Lnoise_BB22_14:
	movb	$1, %al
	cmpq	$31, %r9
	ja	.Lnoise_BB22_18
.Lnoise_BB22_15:
	movdqu	-32(%rcx,%rdx), %xmm0
	movdqu	-16(%rcx,%rdx), %xmm1
	movdqu	-32(%r8,%rdx), %xmm2
	pcmpeqb	%xmm0, %xmm2
	movdqu	-16(%r8,%rdx), %xmm0
	pcmpeqb	%xmm1, %xmm0
	pand	%xmm2, %xmm0
	pmovmskb	%xmm0, %eax
.Lnoise_BB22_16:
	xorl	$65535, %eax
.Lnoise_BB22_17:
	setne	%al
.Lnoise_BB22_18:
	xorb	$1, %al
	retq

	.def	"noise_names::pattern::Pattern::check";
	.scl	3;
	.type	32;
	.endef
	.p2align	4
"noise_names::pattern::Pattern::check":
.seh_proc "noise_names::pattern::Pattern::check"
	pushq	%r15
	.seh_pushreg %r15
	pushq	%r14
	.seh_pushreg %r14
	pushq	%r13
	.seh_pushreg %r13
	pushq	%r12
	.seh_pushreg %r12
	pushq	%rsi
	.seh_pushreg %rsi
	pushq	%rdi
	.seh_pushreg %rdi
	pushq	%rbp
	.seh_pushreg %rbp
	pushq	%rbx
	.seh_pushreg %rbx
	subq	$792, %rsp
	.seh_stackalloc 792
	.seh_endprologue
	movq	%rdx, %rsi
	movq	%rcx, %r15
	leaq	248(%rsp), %rcx
	movl	$272, %r8d
	callq	memcpy
	movq	296(%rsp), %rdx
	movq	512(%rsp), %rax
	movq	%rax, 224(%rsp)
	movq	$0, 48(%rsp)
	movb	$0, 56(%rsp)
	testq	%rdx, %rdx
	je	.Lnoise_BB23_11
	movzbl	48(%rsp), %ecx
	xorl	%r14d, %r14d
	xorl	%r12d, %r12d
	xorl	%edi, %edi
	xorl	%eax, %eax
	jmp	.Lnoise_BB23_4
	.p2align	4
.Lnoise_BB23_2:
	movb	$1, %r14b
.Lnoise_BB23_3:
	incq	%rax
	cmpq	%rax, %rdx
	je	.Lnoise_BB23_41
.Lnoise_BB23_4:
	movzbl	288(%rsp,%rax), %r8d
	movzbl	%r8b, %r9d
	leaq	.Lnoise_JTI23_0(%rip), %r10
	movslq	(%r10,%r9,4), %r9
	addq	%r10, %r9
	jmpq	*%r9
.Lnoise_BB23_5:
	leal	(%r12,%r12), %r9d
	cmpb	$1, %r12b
	sete	%r10b
	testb	$1, %r10b
	je	.Lnoise_BB23_8
	jmp	.Lnoise_BB23_172
	.p2align	4
.Lnoise_BB23_6:
	movl	%r14d, %r10d
	xorb	$1, %r10b
	orb	%r12b, %r10b
	xorl	%r9d, %r9d
	testb	$1, %r10b
	sete	%r11b
	testb	$1, %dil
	jne	.Lnoise_BB23_171
	movb	%r11b, %r9b
	leal	(%r9,%r9,4), %r9d
	xorb	$1, %r10b
	testb	$1, %r10b
	jne	.Lnoise_BB23_172
.Lnoise_BB23_8:
	testb	%r8b, %r8b
	je	.Lnoise_BB23_10
	movb	$1, %dil
	jmp	.Lnoise_BB23_3
	.p2align	4
.Lnoise_BB23_10:
	movb	$1, %cl
	movb	$1, %r12b
	jmp	.Lnoise_BB23_3
.Lnoise_BB23_11:
	xorl	%r12d, %r12d
	xorl	%edi, %edi
	xorl	%r14d, %r14d
	movq	%rsi, 240(%rsp)
	movq	312(%rsp), %rsi
	testq	%rsi, %rsi
	je	.Lnoise_BB23_42
.Lnoise_BB23_12:
	movq	%rdi, %rax
	movzbl	56(%rsp), %ecx
	movb	%cl, 41(%rsp)
	movzbl	54(%rsp), %ecx
	movb	%cl, 47(%rsp)
	movzbl	53(%rsp), %ecx
	movb	%cl, 46(%rsp)
	movzbl	50(%rsp), %ecx
	movb	%cl, 144(%rsp)
	movzbl	52(%rsp), %ecx
	movb	%cl, 44(%rsp)
	movq	$0, 160(%rsp)
	xorl	%r8d, %r8d
	xorl	%r9d, %r9d
	xorl	%ecx, %ecx
	xorl	%r13d, %r13d
	movq	$0, 208(%rsp)
	xorl	%r11d, %r11d
	jmp	.Lnoise_BB23_15
.Lnoise_BB23_13:
	movb	$1, 41(%rsp)
	movb	$1, %r14b
	.p2align	4
.Lnoise_BB23_14:
	incq	%r11
	cmpq	%r11, %rsi
	je	.Lnoise_BB23_43
.Lnoise_BB23_15:
	movzbl	304(%rsp,%r11), %edx
	leaq	.Lnoise_JTI23_1(%rip), %rdi
	movslq	(%rdi,%rdx,4), %rbx
	addq	%rdi, %rbx
	jmpq	*%rbx
.Lnoise_BB23_16:
	movq	%rcx, %rbx
	leal	(%rcx,%rcx), %edi
	jmp	.Lnoise_BB23_29
.Lnoise_BB23_17:
	movq	%rax, %rdi
	cmpb	$1, %dil
	jne	.Lnoise_BB23_180
	xorl	%edi, %edi
	testb	$1, %r9b
	setne	%dil
	leal	(%rdi,%rdi,2), %ebp
	movq	%rcx, %rdi
	movl	%edi, %ebx
	xorb	$1, %bl
	orb	%r9b, %bl
	testb	$1, %dil
	jmp	.Lnoise_BB23_28
.Lnoise_BB23_19:
	movq	%r12, %rdi
	cmpb	$1, %dil
	jne	.Lnoise_BB23_180
	xorl	%edi, %edi
	movq	%r9, %r10
	movq	%r8, %r9
	movq	160(%rsp), %r8
	testb	$1, %r8b
	setne	%dil
	leal	(%rdi,%rdi,2), %ebp
	movq	%rcx, %rdi
	movl	%edi, %ebx
	xorb	$1, %bl
	orb	%r8b, %bl
	movq	%r9, %r8
	movq	%r10, %r9
	testb	$1, %dil
	jmp	.Lnoise_BB23_28
.Lnoise_BB23_21:
	movq	%r12, %rdi
	cmpb	$1, %dil
	jne	.Lnoise_BB23_180
	xorl	%edi, %edi
	testb	$1, %r8b
	setne	%dil
	leal	(%rdi,%rdi,2), %ebp
	movq	208(%rsp), %r10
	movl	%r10d, %ebx
	xorb	$1, %bl
	orb	%r8b, %bl
	jmp	.Lnoise_BB23_27
.Lnoise_BB23_23:
	movl	%r8d, %ebx
	notb	%bl
	orb	160(%rsp), %bl
	movl	%r13d, %edi
	notb	%dil
	orb	%r9b, %dil
	andb	%bl, %dil
	testb	$1, %dil
	je	.Lnoise_BB23_37
	movl	%r14d, %edi
	xorb	$1, %dil
	orb	%cl, %dil
	movl	%edi, %ebx
	notb	%bl
	andb	$1, %bl
	movq	%r13, %rbp
	movq	%r14, %r13
	xorl	%r14d, %r14d
	testb	$1, %dil
	sete	%r14b
	leal	(%r14,%r14,4), %edi
	movq	%r13, %r14
	movq	%rbp, %r13
	jmp	.Lnoise_BB23_38
.Lnoise_BB23_25:
	movq	%rax, %rdi
	cmpb	$1, %dil
	jne	.Lnoise_BB23_180
	xorl	%edi, %edi
	testb	$1, %r13b
	setne	%dil
	leal	(%rdi,%rdi,2), %ebp
	movq	208(%rsp), %r10
	movl	%r10d, %ebx
	xorb	$1, %bl
	orb	%r13b, %bl
.Lnoise_BB23_27:
	testb	$1, %r10b
.Lnoise_BB23_28:
	movl	$1, %edi
	cmovnel	%ebp, %edi
.Lnoise_BB23_29:
	cmpb	$1, %bl
	je	.Lnoise_BB23_181
	movl	%edx, %edx
	leaq	.Lnoise_JTI23_2(%rip), %rdi
	movslq	(%rdi,%rdx,4), %rdx
	addq	%rdi, %rdx
	jmpq	*%rdx
.Lnoise_BB23_31:
	movb	$1, 144(%rsp)
	movb	$1, %cl
	jmp	.Lnoise_BB23_14
.Lnoise_BB23_32:
	movb	$1, 47(%rsp)
	movb	$1, %r9b
	jmp	.Lnoise_BB23_14
.Lnoise_BB23_33:
	movb	$1, 44(%rsp)
	movb	$1, %dl
	movq	%rdx, 160(%rsp)
	jmp	.Lnoise_BB23_14
.Lnoise_BB23_34:
	movb	$1, 46(%rsp)
	movb	$1, %r8b
	jmp	.Lnoise_BB23_14
.Lnoise_BB23_35:
	movb	$1, %dl
	movq	%rdx, 208(%rsp)
	jmp	.Lnoise_BB23_14
.Lnoise_BB23_36:
	movb	$1, %r13b
	jmp	.Lnoise_BB23_14
.Lnoise_BB23_37:
	movb	$4, %dil
	movb	$1, %bl
.Lnoise_BB23_38:
	testb	$1, 208(%rsp)
	je	.Lnoise_BB23_29
	movb	$2, %dil
	jmp	.Lnoise_BB23_181
.Lnoise_BB23_40:
	movb	%cl, 48(%rsp)
	movb	$1, %r9b
	jmp	.Lnoise_BB23_173
.Lnoise_BB23_41:
	movb	%cl, 48(%rsp)
	movb	%r14b, 56(%rsp)
	movq	%rsi, 240(%rsp)
	movq	312(%rsp), %rsi
	testq	%rsi, %rsi
	jne	.Lnoise_BB23_12
.Lnoise_BB23_42:
	xorl	%edx, %edx
	movq	$0, 208(%rsp)
	movq	$0, 160(%rsp)
	xorl	%r9d, %r9d
	xorl	%r8d, %r8d
	xorl	%r13d, %r13d
	cmpq	$0, 224(%rsp)
	jne	.Lnoise_BB23_44
	jmp	.Lnoise_BB23_164
.Lnoise_BB23_43:
	movzbl	41(%rsp), %edx
	movb	%dl, 56(%rsp)
	movzbl	47(%rsp), %edx
	movb	%dl, 54(%rsp)
	movzbl	46(%rsp), %edx
	movb	%dl, 53(%rsp)
	movzbl	44(%rsp), %edx
	movb	%dl, 52(%rsp)
	movzbl	144(%rsp), %edx
	movb	%dl, 50(%rsp)
	movq	%rax, %rdi
	movq	%rcx, %rdx
	cmpq	$0, 224(%rsp)
	je	.Lnoise_BB23_164
.Lnoise_BB23_44:
	leaq	320(%rsp), %rax
	movq	%rax, 232(%rsp)
	movzbl	53(%rsp), %eax
	movb	%al, 85(%rsp)
	movzbl	54(%rsp), %eax
	movb	%al, 86(%rsp)
	movb	$1, %cl
	leaq	321(%rsp), %r10
	movq	$0, 144(%rsp)
	movb	%r12b, 42(%rsp)
	movl	%r13d, %eax
	movl	%eax, 108(%rsp)
	xorl	%r11d, %r11d
	movq	%r15, 88(%rsp)
	jmp	.Lnoise_BB23_46
	.p2align	4
.Lnoise_BB23_45:
	movq	144(%rsp), %rax
	xorb	$1, %al
	movq	%rax, 144(%rsp)
	incb	%cl
	incq	%r11
	addq	$24, 232(%rsp)
	addq	$24, %r10
	cmpq	224(%rsp), %r11
	je	.Lnoise_BB23_164
.Lnoise_BB23_46:
	movq	%rdi, 136(%rsp)
	movq	%r12, 128(%rsp)
	leaq	(%r11,%r11,2), %rax
	movq	336(%rsp,%rax,8), %rsi
	testq	%rsi, %rsi
	je	.Lnoise_BB23_145
	movzbl	144(%rsp), %eax
	movq	%rax, 200(%rsp)
	leaq	-1(%rsi), %rax
	movq	%rax, 216(%rsp)
	xorl	%ebp, %ebp
	movzbl	85(%rsp), %r15d
	movb	%r8b, 46(%rsp)
	movl	108(%rsp), %eax
	movb	%al, 44(%rsp)
	movq	208(%rsp), %rax
	movb	%al, 47(%rsp)
	movq	136(%rsp), %rax
	movb	%al, 41(%rsp)
	movb	%cl, 40(%rsp)
	movq	%r10, 184(%rsp)
	movq	%r11, 192(%rsp)
	movq	%rsi, 96(%rsp)
.Lnoise_BB23_48:
	movq	%r9, 168(%rsp)
	movl	%edx, %r12d
	xorb	$1, %r12b
	movl	%r15d, %ebx
	movq	%rdx, 72(%rsp)
	movb	%r12b, 45(%rsp)
.Lnoise_BB23_49:
	movb	%r15b, 43(%rsp)
	movq	%r8, 112(%rsp)
	movq	%r13, 152(%rsp)
	movq	%r14, 64(%rsp)
	xorl	%eax, %eax
	movzbl	44(%rsp), %r15d
	testb	$1, %r15b
	setne	%al
	leal	(%rax,%rax,2), %r9d
	xorl	%eax, %eax
	movq	168(%rsp), %r10
	testb	$1, %r10b
	setne	%al
	leal	(%rax,%rax,2), %r11d
	movl	%r10d, %eax
	orb	%r12b, %al
	movb	%al, 63(%rsp)
	xorl	%eax, %eax
	movzbl	46(%rsp), %r14d
	testb	$1, %r14b
	setne	%al
	xorl	%ecx, %ecx
	movq	160(%rsp), %r8
	testb	$1, %r8b
	setne	%cl
	movl	%r8d, %edi
	orb	%r12b, %dil
	movb	%dil, 62(%rsp)
	testb	$1, %dl
	movl	$1, %edi
	cmovel	%edi, %r11d
	movl	%r11d, 180(%rsp)
	leal	(%rax,%rax,2), %r11d
	leal	(%rcx,%rcx,2), %eax
	cmovel	%edi, %eax
	movl	%eax, 176(%rsp)
	movl	%r10d, %ecx
	xorb	$1, %cl
	orb	%r8b, %cl
	movl	%r15d, %r12d
	xorb	$1, %r12b
	movl	%r12d, %eax
	orb	%bl, %al
	movb	%cl, 127(%rsp)
	andb	%cl, %al
	xorb	$1, %r14b
	orb	%r8b, %r14b
	orb	86(%rsp), %r12b
	movb	%r14b, 126(%rsp)
	andb	%r14b, %r12b
	movzbl	47(%rsp), %ecx
	movb	%bl, 87(%rsp)
.Lnoise_BB23_50:
	movl	%ecx, %r14d
	xorb	$1, %r14b
	movl	%r14d, %r8d
	orb	44(%rsp), %r8b
	movzbl	%r9b, %r13d
	orb	46(%rsp), %r14b
	testb	$1, %cl
	cmovel	%edi, %r13d
	movzbl	%r11b, %esi
	cmovel	%edi, %esi
	movb	%cl, 47(%rsp)
	movzbl	%cl, %r15d
	movzbl	41(%rsp), %edx
	movq	144(%rsp), %r10
	testb	$1, %r10b
	cmovnel	%r15d, %edx
	movq	232(%rsp), %rcx
	movzbl	(%rcx,%rbp), %r15d
	testb	%r10b, %r10b
	je	.Lnoise_BB23_69
	movl	%r15d, %ecx
	leaq	.Lnoise_JTI23_3(%rip), %r10
	movslq	(%r10,%rcx,4), %rcx
	addq	%r10, %rcx
	jmpq	*%rcx
.Lnoise_BB23_52:
	movq	200(%rsp), %rcx
	movzbl	48(%rsp,%rcx,2), %r14d
	leal	(%r14,%r14), %esi
	jmp	.Lnoise_BB23_63
.Lnoise_BB23_53:
	movl	180(%rsp), %esi
	movzbl	63(%rsp), %ecx
	movl	%ecx, %r14d
	jmp	.Lnoise_BB23_62
.Lnoise_BB23_54:
	movl	176(%rsp), %esi
	movzbl	62(%rsp), %ecx
	movl	%ecx, %r14d
.Lnoise_BB23_55:
	testb	$1, 42(%rsp)
	jne	.Lnoise_BB23_63
	jmp	.Lnoise_BB23_174
.Lnoise_BB23_56:
	movb	$4, %sil
	movb	$1, %r14b
	testb	$1, %r12b
	je	.Lnoise_BB23_60
	cmpb	$1, 64(%rsp)
	jne	.Lnoise_BB23_59
	movb	$5, %sil
	movq	200(%rsp), %rcx
	cmpb	$1, 48(%rsp,%rcx,2)
	jne	.Lnoise_BB23_60
.Lnoise_BB23_59:
	xorl	%r14d, %r14d
	xorl	%esi, %esi
.Lnoise_BB23_60:
	testb	$1, %dl
	je	.Lnoise_BB23_63
	jmp	.Lnoise_BB23_182
.Lnoise_BB23_61:
	movl	%r13d, %esi
	movl	%r8d, %r14d
.Lnoise_BB23_62:
	testb	$1, 41(%rsp)
	je	.Lnoise_BB23_174
.Lnoise_BB23_63:
	cmpb	$1, %r14b
	je	.Lnoise_BB23_183
	cmpl	$1, %r15d
	jne	.Lnoise_BB23_66
	incq	%rbp
	movb	$1, %cl
	movq	%rcx, 208(%rsp)
	movb	$1, %cl
	movq	96(%rsp), %rsi
	cmpq	%rbp, %rsi
	jne	.Lnoise_BB23_50
	jmp	.Lnoise_BB23_150
	.p2align	4
.Lnoise_BB23_66:
	movl	%r15d, %eax
	leaq	.Lnoise_JTI23_4(%rip), %rcx
	movslq	(%rcx,%rax,4), %rax
	addq	%rcx, %rax
	jmpq	*%rax
.Lnoise_BB23_67:
	movq	64(%rsp), %r14
	movq	72(%rsp), %rdx
	movq	112(%rsp), %r8
	movq	96(%rsp), %rsi
	movzbl	45(%rsp), %r12d
.Lnoise_BB23_68:
	movb	$1, 52(%rsp)
	movb	$1, %al
	movq	%rax, 160(%rsp)
	jmp	.Lnoise_BB23_136
.Lnoise_BB23_69:
	movl	%r15d, %r9d
	leaq	.Lnoise_JTI23_5(%rip), %r11
	movslq	(%r11,%r9,4), %rbx
	addq	%r11, %rbx
	movzbl	45(%rsp), %r12d
	jmpq	*%rbx
.Lnoise_BB23_70:
	movq	200(%rsp), %rax
	movzbl	48(%rsp,%rax,2), %r11d
	leal	(%r11,%r11), %ebx
	movq	88(%rsp), %r15
	jmp	.Lnoise_BB23_84
.Lnoise_BB23_71:
	movb	$1, %r13b
	movb	$1, %al
	movl	%eax, 108(%rsp)
	movb	$1, 44(%rsp)
.Lnoise_BB23_72:
	movq	64(%rsp), %r14
	movq	72(%rsp), %rdx
	movq	112(%rsp), %r8
	movq	96(%rsp), %rsi
	movzbl	43(%rsp), %r15d
	movzbl	45(%rsp), %r12d
	incq	%rbp
	cmpq	%rsi, %rbp
	movzbl	87(%rsp), %ebx
	jne	.Lnoise_BB23_49
	jmp	.Lnoise_BB23_159
.Lnoise_BB23_73:
	movzbl	43(%rsp), %r15d
	movzbl	45(%rsp), %r12d
	jmp	.Lnoise_BB23_108
.Lnoise_BB23_74:
	movl	180(%rsp), %ebx
	movzbl	63(%rsp), %eax
	movl	%eax, %r11d
	jmp	.Lnoise_BB23_82
.Lnoise_BB23_75:
	movl	176(%rsp), %ebx
	movzbl	62(%rsp), %eax
	movl	%eax, %r11d
	testb	$1, 42(%rsp)
	jmp	.Lnoise_BB23_83
.Lnoise_BB23_76:
	movl	%esi, %ebx
	movl	%r14d, %r11d
	testb	$1, 42(%rsp)
	jmp	.Lnoise_BB23_83
.Lnoise_BB23_77:
	movb	$4, %bl
	movb	$1, %r11b
	testb	$1, %al
	je	.Lnoise_BB23_127
	cmpb	$1, 64(%rsp)
	movq	88(%rsp), %r15
	jne	.Lnoise_BB23_80
	movb	$5, %bl
	movq	200(%rsp), %rax
	cmpb	$1, 48(%rsp,%rax,2)
	jne	.Lnoise_BB23_128
.Lnoise_BB23_80:
	xorl	%r11d, %r11d
	xorl	%ebx, %ebx
	jmp	.Lnoise_BB23_128
.Lnoise_BB23_81:
	movl	%r13d, %ebx
	movl	%r8d, %r11d
.Lnoise_BB23_82:
	testb	$1, 41(%rsp)
.Lnoise_BB23_83:
	movq	88(%rsp), %r15
	je	.Lnoise_BB23_196
.Lnoise_BB23_84:
	cmpb	$1, %r11b
	je	.Lnoise_BB23_195
	leaq	.Lnoise_JTI23_6(%rip), %rax
	movslq	(%rax,%r9,4), %r9
	addq	%rax, %r9
	jmpq	*%r9
.Lnoise_BB23_86:
	movb	$1, 48(%rsp)
	leaq	1(%rbp), %rax
	movb	$1, 42(%rsp)
	cmpq	96(%rsp), %rax
	movzbl	40(%rsp), %ecx
	movq	184(%rsp), %r10
	je	.Lnoise_BB23_160
.Lnoise_BB23_87:
	movzbl	(%r10,%rbp), %eax
	movq	%rax, 128(%rsp)
	movzbl	%al, %eax
	leaq	.Lnoise_JTI23_9(%rip), %r9
	movslq	(%r9,%rax,4), %rbx
	addq	%r9, %rbx
	movl	%esi, %r9d
	movl	%r14d, %r11d
	jmpq	*%rbx
.Lnoise_BB23_88:
	movq	200(%rsp), %rcx
	movzbl	48(%rsp,%rcx,2), %r11d
	leal	(%r11,%r11), %r9d
	jmp	.Lnoise_BB23_103
.Lnoise_BB23_89:
	movl	180(%rsp), %r9d
	movzbl	63(%rsp), %ecx
	movl	%ecx, %r11d
	jmp	.Lnoise_BB23_95
.Lnoise_BB23_90:
	testb	$1, 144(%rsp)
	je	.Lnoise_BB23_96
	testb	$1, 126(%rsp)
	je	.Lnoise_BB23_102
	leaq	54(%rsp), %r9
	cmpb	$1, 44(%rsp)
	je	.Lnoise_BB23_98
	jmp	.Lnoise_BB23_99
.Lnoise_BB23_93:
	movl	176(%rsp), %r9d
	movzbl	62(%rsp), %ecx
	movl	%ecx, %r11d
	jmp	.Lnoise_BB23_103
.Lnoise_BB23_94:
	movl	%r13d, %r9d
	movl	%r8d, %r11d
.Lnoise_BB23_95:
	testb	$1, 41(%rsp)
	jne	.Lnoise_BB23_103
	jmp	.Lnoise_BB23_197
.Lnoise_BB23_96:
	testb	$1, 127(%rsp)
	je	.Lnoise_BB23_102
	leaq	53(%rsp), %r9
	testb	$1, 44(%rsp)
	je	.Lnoise_BB23_99
.Lnoise_BB23_98:
	cmpb	$1, (%r9)
	jne	.Lnoise_BB23_102
.Lnoise_BB23_99:
	cmpb	$1, 64(%rsp)
	jne	.Lnoise_BB23_101
	movq	200(%rsp), %rcx
	cmpb	$1, 48(%rsp,%rcx,2)
	jne	.Lnoise_BB23_106
.Lnoise_BB23_101:
	xorl	%r11d, %r11d
	xorl	%r9d, %r9d
	testb	$1, %dl
	je	.Lnoise_BB23_103
	jmp	.Lnoise_BB23_204
.Lnoise_BB23_102:
	movb	$4, %r9b
	movb	$1, %r11b
	testb	$1, %dl
	jne	.Lnoise_BB23_204
.Lnoise_BB23_103:
	cmpb	$1, %r11b
	je	.Lnoise_BB23_205
	testl	%eax, %eax
	movzbl	40(%rsp), %ecx
	jne	.Lnoise_BB23_123
	movb	$1, 48(%rsp)
	incq	%rbp
	cmpq	%rbp, 216(%rsp)
	movq	184(%rsp), %r10
	jne	.Lnoise_BB23_87
	jmp	.Lnoise_BB23_160
.Lnoise_BB23_106:
	movb	$5, %r9b
	movb	$1, %r11b
	testb	$1, %dl
	je	.Lnoise_BB23_103
	jmp	.Lnoise_BB23_204
.Lnoise_BB23_109:
	movq	64(%rsp), %r14
	movq	72(%rsp), %rdx
	movq	112(%rsp), %r8
	movq	96(%rsp), %rsi
	jmp	.Lnoise_BB23_135
.Lnoise_BB23_110:
	movq	64(%rsp), %r14
	movq	72(%rsp), %rdx
	movq	112(%rsp), %r8
	movq	96(%rsp), %rsi
	jmp	.Lnoise_BB23_68
.Lnoise_BB23_111:
	movq	64(%rsp), %r14
	movq	72(%rsp), %rdx
	movq	96(%rsp), %rsi
	jmp	.Lnoise_BB23_140
.Lnoise_BB23_112:
	movb	$1, %al
	movq	%rax, 136(%rsp)
	cmpq	%rbp, 216(%rsp)
	je	.Lnoise_BB23_163
	movzbl	40(%rsp), %ecx
	movq	184(%rsp), %r10
	movzbl	43(%rsp), %r15d
.Lnoise_BB23_114:
	movzbl	(%r10,%rbp), %eax
	leaq	.Lnoise_JTI23_7(%rip), %rdx
	movslq	(%rdx,%rax,4), %r11
	addq	%rdx, %r11
	movl	%r13d, %edx
	movl	%r8d, %r9d
	jmpq	*%r11
.Lnoise_BB23_115:
	movq	200(%rsp), %rdx
	movzbl	48(%rsp,%rdx,2), %r9d
	leal	(%r9,%r9), %edx
	jmp	.Lnoise_BB23_119
.Lnoise_BB23_116:
	movl	%esi, %edx
	movl	%r14d, %r9d
	testb	$1, 42(%rsp)
	jne	.Lnoise_BB23_119
	jmp	.Lnoise_BB23_201
.Lnoise_BB23_117:
	movl	176(%rsp), %edx
	movzbl	62(%rsp), %r9d
	testb	$1, 42(%rsp)
	jne	.Lnoise_BB23_119
	jmp	.Lnoise_BB23_201
.Lnoise_BB23_118:
	movl	180(%rsp), %edx
	movzbl	63(%rsp), %r9d
.Lnoise_BB23_119:
	cmpb	$1, %r9b
	je	.Lnoise_BB23_202
	cmpl	$1, %eax
	jne	.Lnoise_BB23_125
	incq	%rbp
	cmpq	%rbp, 216(%rsp)
	movq	184(%rsp), %r10
	jne	.Lnoise_BB23_114
	jmp	.Lnoise_BB23_161
.Lnoise_BB23_122:
	movb	$1, %r13b
	movb	$1, %al
	movl	%eax, 108(%rsp)
	movb	$1, 44(%rsp)
	movq	64(%rsp), %r14
	movq	72(%rsp), %rdx
	movq	112(%rsp), %r8
	movq	96(%rsp), %rsi
	movzbl	43(%rsp), %r15d
	incq	%rbp
	cmpq	%rsi, %rbp
	movzbl	87(%rsp), %ebx
	jne	.Lnoise_BB23_49
	jmp	.Lnoise_BB23_159
.Lnoise_BB23_123:
	decl	%eax
	leaq	.Lnoise_JTI23_10(%rip), %rcx
	movslq	(%rcx,%rax,4), %rax
	addq	%rcx, %rax
	movq	112(%rsp), %r8
	movq	96(%rsp), %rsi
	jmpq	*%rax
.Lnoise_BB23_124:
	incq	%rbp
	movq	128(%rsp), %rax
	movb	%al, %cl
	movb	%al, 42(%rsp)
	movq	%rcx, 136(%rsp)
	movb	%al, 41(%rsp)
	movq	64(%rsp), %r14
	movq	72(%rsp), %rdx
	jmp	.Lnoise_BB23_136
.Lnoise_BB23_125:
	movl	%eax, %eax
	leaq	.Lnoise_JTI23_8(%rip), %rdx
	movslq	(%rdx,%rax,4), %rax
	addq	%rdx, %rax
	jmpq	*%rax
.Lnoise_BB23_126:
	incq	%rbp
	movb	$1, %al
	movq	%rax, 136(%rsp)
	movb	$1, 41(%rsp)
	movb	$1, %dl
	movzbl	45(%rsp), %r12d
	movq	88(%rsp), %r15
	jmp	.Lnoise_BB23_86
.Lnoise_BB23_127:
	movq	88(%rsp), %r15
.Lnoise_BB23_128:
	testb	$1, %dl
	je	.Lnoise_BB23_84
	jmp	.Lnoise_BB23_198
.Lnoise_BB23_129:
	incq	%rbp
	movb	$1, %al
	movq	%rax, 128(%rsp)
	movb	$1, %r13b
	movb	$1, 42(%rsp)
	movb	$1, %al
	movl	%eax, 108(%rsp)
	movb	$1, 44(%rsp)
	movq	64(%rsp), %r14
	movq	72(%rsp), %rdx
	movzbl	43(%rsp), %r15d
	incq	%rbp
	cmpq	%rsi, %rbp
	movzbl	87(%rsp), %ebx
	jne	.Lnoise_BB23_49
	jmp	.Lnoise_BB23_159
.Lnoise_BB23_130:
	incq	%rbp
	movb	$1, %al
	movq	%rax, 128(%rsp)
	movb	$1, 42(%rsp)
	movq	64(%rsp), %r14
	movq	72(%rsp), %rdx
	jmp	.Lnoise_BB23_140
.Lnoise_BB23_131:
	incq	%rbp
	movb	$1, %al
	movq	%rax, 128(%rsp)
	movb	$1, 42(%rsp)
	movq	64(%rsp), %r14
	movq	72(%rsp), %rdx
	jmp	.Lnoise_BB23_135
.Lnoise_BB23_132:
	incq	%rbp
	movb	$1, %al
	movq	%rax, 128(%rsp)
	movb	$1, 42(%rsp)
	movq	64(%rsp), %r14
	movq	72(%rsp), %rdx
	jmp	.Lnoise_BB23_68
.Lnoise_BB23_133:
	incq	%rbp
	movb	$1, %al
	movq	%rax, 136(%rsp)
	movb	$1, 41(%rsp)
.Lnoise_BB23_134:
	movq	64(%rsp), %r14
	movq	72(%rsp), %rdx
	movq	112(%rsp), %r8
	movq	96(%rsp), %rsi
	movzbl	45(%rsp), %r12d
.Lnoise_BB23_135:
	movb	$1, 54(%rsp)
	movb	$1, 86(%rsp)
	movb	$1, %al
	movq	%rax, 168(%rsp)
.Lnoise_BB23_136:
	movq	152(%rsp), %r13
	movzbl	43(%rsp), %r15d
	incq	%rbp
	cmpq	%rsi, %rbp
	movzbl	87(%rsp), %ebx
	jne	.Lnoise_BB23_49
	jmp	.Lnoise_BB23_159
.Lnoise_BB23_137:
	incq	%rbp
	movb	$1, %al
	movq	%rax, 136(%rsp)
	movb	$1, 41(%rsp)
	jmp	.Lnoise_BB23_67
.Lnoise_BB23_138:
	incq	%rbp
	movb	$1, %al
	movq	%rax, 136(%rsp)
	movb	$1, 41(%rsp)
.Lnoise_BB23_139:
	movq	64(%rsp), %r14
	movq	72(%rsp), %rdx
	movq	96(%rsp), %rsi
	movzbl	45(%rsp), %r12d
.Lnoise_BB23_140:
	movb	$1, 53(%rsp)
	movb	$1, 85(%rsp)
	movb	$1, %r15b
	movb	$1, 87(%rsp)
	movb	$1, %r8b
	movb	$1, 46(%rsp)
	movq	152(%rsp), %r13
	incq	%rbp
	cmpq	%rsi, %rbp
	movzbl	87(%rsp), %ebx
	jne	.Lnoise_BB23_49
	jmp	.Lnoise_BB23_159
.Lnoise_BB23_141:
	incq	%rbp
	movb	$1, %r13b
	movb	$1, %al
	movq	%rax, 136(%rsp)
	movb	$1, %al
	movl	%eax, 108(%rsp)
	movb	$1, 44(%rsp)
	movb	$1, 41(%rsp)
	jmp	.Lnoise_BB23_72
.Lnoise_BB23_142:
	incq	%rbp
	movb	$1, %al
	movq	%rax, 136(%rsp)
	movb	$1, 41(%rsp)
	jmp	.Lnoise_BB23_108
.Lnoise_BB23_143:
	incq	%rbp
	movb	$1, %al
	movq	%rax, 128(%rsp)
	movb	$1, 42(%rsp)
.Lnoise_BB23_107:
	movzbl	43(%rsp), %r15d
.Lnoise_BB23_108:
	movb	$1, 56(%rsp)
	movb	$1, %r14b
	movq	72(%rsp), %rdx
	movq	152(%rsp), %r13
	movq	112(%rsp), %r8
	movq	96(%rsp), %rsi
	incq	%rbp
	cmpq	%rsi, %rbp
	movzbl	87(%rsp), %ebx
	jne	.Lnoise_BB23_49
	jmp	.Lnoise_BB23_159
.Lnoise_BB23_144:
	movb	$1, 50(%rsp)
	movb	$1, %dl
	cmpq	%rbp, 216(%rsp)
	leaq	1(%rbp), %rbp
	movq	64(%rsp), %r14
	movq	152(%rsp), %r13
	movq	112(%rsp), %r8
	movq	168(%rsp), %r9
	movzbl	40(%rsp), %ecx
	movq	184(%rsp), %r10
	movq	192(%rsp), %r11
	movq	96(%rsp), %rsi
	movzbl	43(%rsp), %r15d
	jne	.Lnoise_BB23_48
	jmp	.Lnoise_BB23_151
.Lnoise_BB23_145:
	testb	$1, 144(%rsp)
	jne	.Lnoise_BB23_151
.Lnoise_BB23_146:
	cmpb	$1, %r9b
	jne	.Lnoise_BB23_148
.Lnoise_BB23_147:
	testb	$1, 160(%rsp)
	je	.Lnoise_BB23_188
.Lnoise_BB23_148:
	testb	$1, 108(%rsp)
	je	.Lnoise_BB23_157
	leaq	53(%rsp), %rax
	jmp	.Lnoise_BB23_155
.Lnoise_BB23_150:
	movq	64(%rsp), %r14
	movq	72(%rsp), %rdx
	movq	152(%rsp), %r13
	movq	112(%rsp), %r8
	movq	168(%rsp), %r9
	movzbl	40(%rsp), %ecx
	movq	184(%rsp), %r10
	movq	192(%rsp), %r11
.Lnoise_BB23_151:
	cmpb	$1, %r8b
	jne	.Lnoise_BB23_153
	testb	$1, 160(%rsp)
	je	.Lnoise_BB23_188
.Lnoise_BB23_153:
	cmpb	$1, 108(%rsp)
	jne	.Lnoise_BB23_157
	leaq	54(%rsp), %rax
.Lnoise_BB23_155:
	movq	128(%rsp), %r12
	movq	136(%rsp), %rdi
	movq	88(%rsp), %r15
	movb	$1, %bl
	movl	%ebx, 108(%rsp)
	cmpb	$1, (%rax)
	jne	.Lnoise_BB23_193
	cmpb	$1, %r14b
	jne	.Lnoise_BB23_45
	jmp	.Lnoise_BB23_158
.Lnoise_BB23_157:
	movl	$0, 108(%rsp)
	movq	128(%rsp), %r12
	movq	136(%rsp), %rdi
	movq	88(%rsp), %r15
	cmpb	$1, %r14b
	jne	.Lnoise_BB23_45
.Lnoise_BB23_158:
	movzbl	144(%rsp), %eax
	cmpb	$1, 48(%rsp,%rax,2)
	je	.Lnoise_BB23_45
	jmp	.Lnoise_BB23_194
.Lnoise_BB23_159:
	testb	$1, 144(%rsp)
	movq	168(%rsp), %r9
	movzbl	40(%rsp), %ecx
	movq	184(%rsp), %r10
	movq	192(%rsp), %r11
	jne	.Lnoise_BB23_151
	jmp	.Lnoise_BB23_146
.Lnoise_BB23_160:
	movb	$1, %al
	movq	%rax, 128(%rsp)
.Lnoise_BB23_161:
	movq	64(%rsp), %r14
	movq	72(%rsp), %rdx
	movq	152(%rsp), %r13
	movq	112(%rsp), %r8
	movq	168(%rsp), %r9
.Lnoise_BB23_162:
	movq	192(%rsp), %r11
	movq	96(%rsp), %rsi
	cmpb	$1, %r9b
	je	.Lnoise_BB23_147
	jmp	.Lnoise_BB23_148
.Lnoise_BB23_163:
	movq	64(%rsp), %r14
	movq	72(%rsp), %rdx
	movq	152(%rsp), %r13
	movq	112(%rsp), %r8
	movq	168(%rsp), %r9
	movzbl	40(%rsp), %ecx
	movq	184(%rsp), %r10
	jmp	.Lnoise_BB23_162
.Lnoise_BB23_164:
	movq	224(%rsp), %rax
	incl	%eax
	movb	$4, %cl
	cmpb	$1, %r9b
	jne	.Lnoise_BB23_166
	testb	$1, 160(%rsp)
	je	.Lnoise_BB23_170
.Lnoise_BB23_166:
	xorb	$1, %r13b
	testb	$1, %r13b
	jne	.Lnoise_BB23_168
	testb	$1, %r8b
	je	.Lnoise_BB23_170
.Lnoise_BB23_168:
	xorb	$1, %r14b
	testb	$1, %r14b
	jne	.Lnoise_BB23_175
	movb	$5, %cl
	testb	$1, %r12b
	jne	.Lnoise_BB23_175
.Lnoise_BB23_170:
	movzbl	%al, %eax
	shll	$8, %eax
	movzbl	%cl, %ecx
	jmp	.Lnoise_BB23_186
.Lnoise_BB23_171:
	movb	$2, %r9b
.Lnoise_BB23_172:
	movb	%cl, 48(%rsp)
.Lnoise_BB23_173:
	shll	$16, %eax
	movzbl	%r9b, %ecx
	orl	%eax, %ecx
	jmp	.Lnoise_BB23_187
.Lnoise_BB23_180:
	movb	$1, %dil
.Lnoise_BB23_181:
	movzbl	41(%rsp), %eax
	movb	%al, 56(%rsp)
	movzbl	47(%rsp), %eax
	movb	%al, 54(%rsp)
	movzbl	46(%rsp), %eax
	movb	%al, 53(%rsp)
	movzbl	44(%rsp), %eax
	movb	%al, 52(%rsp)
	movzbl	144(%rsp), %eax
	movb	%al, 50(%rsp)
	shll	$16, %r11d
	movzbl	%dil, %ecx
	orl	%r11d, %ecx
	jmp	.Lnoise_BB23_187
.Lnoise_BB23_174:
	movb	$1, %sil
	jmp	.Lnoise_BB23_183
.Lnoise_BB23_175:
	cmpq	$1, 224(%rsp)
	jne	.Lnoise_BB23_189
.Lnoise_BB23_176:
	leaq	520(%rsp), %rbx
	movl	$272, %r8d
	movq	%rbx, %rcx
	movq	240(%rsp), %rdx
	callq	memcpy
	movb	$0, (%r15)
	movb	$0, 3(%r15)
	movw	$0, 1(%r15)
	addq	$8, %r15
	movl	$272, %r8d
	movq	%r15, %rcx
	movq	%rbx, %rdx
	callq	memcpy
	nop
	addq	$792, %rsp
	popq	%rbx
	popq	%rbp
	popq	%rdi
	popq	%rsi
	popq	%r12
	popq	%r13
	popq	%r14
	popq	%r15
	retq
.Lnoise_BB23_182:
	movb	$2, %sil
.Lnoise_BB23_183:
	movq	88(%rsp), %r15
.Lnoise_BB23_184:
	movzbl	40(%rsp), %ecx
.Lnoise_BB23_185:
	shll	$16, %ebp
	movzbl	%cl, %eax
	shll	$8, %eax
	orl	%ebp, %eax
	movzbl	%sil, %ecx
.Lnoise_BB23_186:
	orl	%eax, %ecx
.Lnoise_BB23_187:
	movb	$1, (%r15)
	movw	%cx, 1(%r15)
	shrl	$16, %ecx
	movb	%cl, 3(%r15)
	addq	$8, %r15
	movl	$272, %r8d
	movq	%r15, %rcx
	xorl	%edx, %edx
	addq	$792, %rsp
	popq	%rbx
	popq	%rbp
	popq	%rdi
	popq	%rsi
	popq	%r12
	popq	%r13
	popq	%r14
	popq	%r15
	jmp	memset
.Lnoise_BB23_188:
	movq	%rsi, %rbp
	movb	$4, %sil
	jmp	.Lnoise_BB23_203
.Lnoise_BB23_189:
	orb	%r13b, %r9b
	movb	$4, %cl
	testb	$1, %r9b
	je	.Lnoise_BB23_192
	xorb	$1, %r8b
	orb	160(%rsp), %r8b
	testb	$1, %r8b
	je	.Lnoise_BB23_192
	orb	%dl, %r14b
	movb	$5, %cl
	testb	$1, %r14b
	jne	.Lnoise_BB23_176
.Lnoise_BB23_192:
	movzbl	%al, %eax
	shll	$8, %eax
	movzbl	%cl, %ecx
	addl	%eax, %ecx
	addl	$65536, %ecx
	jmp	.Lnoise_BB23_187
.Lnoise_BB23_193:
	movq	%rsi, %rbp
	movb	$4, %sil
	jmp	.Lnoise_BB23_185
.Lnoise_BB23_194:
	movq	%rsi, %rbp
	movb	$5, %sil
	jmp	.Lnoise_BB23_185
.Lnoise_BB23_195:
	movl	%ebx, %esi
	jmp	.Lnoise_BB23_184
.Lnoise_BB23_196:
	movb	$1, %sil
	jmp	.Lnoise_BB23_184
.Lnoise_BB23_201:
	movb	$1, %dl
	jmp	.Lnoise_BB23_202
.Lnoise_BB23_197:
	movb	$1, %r9b
	jmp	.Lnoise_BB23_205
.Lnoise_BB23_198:
	movb	$2, %sil
	jmp	.Lnoise_BB23_184
.Lnoise_BB23_199:
	movb	$2, %dl
.Lnoise_BB23_202:
	incq	%rbp
	movl	%edx, %esi
.Lnoise_BB23_203:
	movq	88(%rsp), %r15
	jmp	.Lnoise_BB23_185
.Lnoise_BB23_204:
	movb	$2, %r9b
.Lnoise_BB23_205:
	incq	%rbp
	movl	%r9d, %esi
	jmp	.Lnoise_BB23_184
.Lnoise_BB23_206:
	ud2
	.section	.rdata,"dr"
	.p2align	2, 0x0
.Lnoise_JTI23_0:
	.long	.Lnoise_BB23_5-.Lnoise_JTI23_0
	.long	.Lnoise_BB23_6-.Lnoise_JTI23_0
	.long	.Lnoise_BB23_40-.Lnoise_JTI23_0
	.long	.Lnoise_BB23_40-.Lnoise_JTI23_0
	.long	.Lnoise_BB23_40-.Lnoise_JTI23_0
	.long	.Lnoise_BB23_40-.Lnoise_JTI23_0
	.long	.Lnoise_BB23_2-.Lnoise_JTI23_0
.Lnoise_JTI23_1:
	.long	.Lnoise_BB23_16-.Lnoise_JTI23_1
	.long	.Lnoise_BB23_23-.Lnoise_JTI23_1
	.long	.Lnoise_BB23_19-.Lnoise_JTI23_1
	.long	.Lnoise_BB23_21-.Lnoise_JTI23_1
	.long	.Lnoise_BB23_17-.Lnoise_JTI23_1
	.long	.Lnoise_BB23_25-.Lnoise_JTI23_1
	.long	.Lnoise_BB23_13-.Lnoise_JTI23_1
.Lnoise_JTI23_2:
	.long	.Lnoise_BB23_31-.Lnoise_JTI23_2
	.long	.Lnoise_BB23_35-.Lnoise_JTI23_2
	.long	.Lnoise_BB23_33-.Lnoise_JTI23_2
	.long	.Lnoise_BB23_34-.Lnoise_JTI23_2
	.long	.Lnoise_BB23_32-.Lnoise_JTI23_2
	.long	.Lnoise_BB23_36-.Lnoise_JTI23_2
.Lnoise_JTI23_3:
	.long	.Lnoise_BB23_52-.Lnoise_JTI23_3
	.long	.Lnoise_BB23_56-.Lnoise_JTI23_3
	.long	.Lnoise_BB23_54-.Lnoise_JTI23_3
	.long	.Lnoise_BB23_55-.Lnoise_JTI23_3
	.long	.Lnoise_BB23_53-.Lnoise_JTI23_3
	.long	.Lnoise_BB23_61-.Lnoise_JTI23_3
	.long	.Lnoise_BB23_73-.Lnoise_JTI23_3
.Lnoise_JTI23_4:
	.long	.Lnoise_BB23_144-.Lnoise_JTI23_4
	.long	.Lnoise_BB23_206-.Lnoise_JTI23_4
	.long	.Lnoise_BB23_67-.Lnoise_JTI23_4
	.long	.Lnoise_BB23_139-.Lnoise_JTI23_4
	.long	.Lnoise_BB23_134-.Lnoise_JTI23_4
	.long	.Lnoise_BB23_71-.Lnoise_JTI23_4
.Lnoise_JTI23_5:
	.long	.Lnoise_BB23_70-.Lnoise_JTI23_5
	.long	.Lnoise_BB23_77-.Lnoise_JTI23_5
	.long	.Lnoise_BB23_75-.Lnoise_JTI23_5
	.long	.Lnoise_BB23_76-.Lnoise_JTI23_5
	.long	.Lnoise_BB23_74-.Lnoise_JTI23_5
	.long	.Lnoise_BB23_81-.Lnoise_JTI23_5
	.long	.Lnoise_BB23_107-.Lnoise_JTI23_5
.Lnoise_JTI23_6:
	.long	.Lnoise_BB23_86-.Lnoise_JTI23_6
	.long	.Lnoise_BB23_112-.Lnoise_JTI23_6
	.long	.Lnoise_BB23_110-.Lnoise_JTI23_6
	.long	.Lnoise_BB23_111-.Lnoise_JTI23_6
	.long	.Lnoise_BB23_109-.Lnoise_JTI23_6
	.long	.Lnoise_BB23_122-.Lnoise_JTI23_6
.Lnoise_JTI23_7:
	.long	.Lnoise_BB23_115-.Lnoise_JTI23_7
	.long	.Lnoise_BB23_199-.Lnoise_JTI23_7
	.long	.Lnoise_BB23_117-.Lnoise_JTI23_7
	.long	.Lnoise_BB23_116-.Lnoise_JTI23_7
	.long	.Lnoise_BB23_118-.Lnoise_JTI23_7
	.long	.Lnoise_BB23_119-.Lnoise_JTI23_7
	.long	.Lnoise_BB23_142-.Lnoise_JTI23_7
.Lnoise_JTI23_8:
	.long	.Lnoise_BB23_126-.Lnoise_JTI23_8
	.long	.Lnoise_BB23_206-.Lnoise_JTI23_8
	.long	.Lnoise_BB23_137-.Lnoise_JTI23_8
	.long	.Lnoise_BB23_138-.Lnoise_JTI23_8
	.long	.Lnoise_BB23_133-.Lnoise_JTI23_8
	.long	.Lnoise_BB23_141-.Lnoise_JTI23_8
.Lnoise_JTI23_9:
	.long	.Lnoise_BB23_88-.Lnoise_JTI23_9
	.long	.Lnoise_BB23_90-.Lnoise_JTI23_9
	.long	.Lnoise_BB23_93-.Lnoise_JTI23_9
	.long	.Lnoise_BB23_103-.Lnoise_JTI23_9
	.long	.Lnoise_BB23_89-.Lnoise_JTI23_9
	.long	.Lnoise_BB23_94-.Lnoise_JTI23_9
	.long	.Lnoise_BB23_143-.Lnoise_JTI23_9
.Lnoise_JTI23_10:
	.long	.Lnoise_BB23_124-.Lnoise_JTI23_10
	.long	.Lnoise_BB23_132-.Lnoise_JTI23_10
	.long	.Lnoise_BB23_130-.Lnoise_JTI23_10
	.long	.Lnoise_BB23_131-.Lnoise_JTI23_10
	.long	.Lnoise_BB23_129-.Lnoise_JTI23_10
	.text
	.seh_endproc

	.def	"noise_names::name::ProtocolName::parse";
	.scl	3;
	.type	32;
	.endef
	.p2align	4
"noise_names::name::ProtocolName::parse":
.seh_proc "noise_names::name::ProtocolName::parse"
	pushq	%r14
	.seh_pushreg %r14
	pushq	%rsi
	.seh_pushreg %rsi
	pushq	%rdi
	.seh_pushreg %rdi
	pushq	%rbx
	.seh_pushreg %rbx
	subq	$136, %rsp
	.seh_stackalloc 136
	.seh_endprologue
	pxor	%xmm0, %xmm0
	movdqu	%xmm0, 62(%rsp)
	movdqa	%xmm0, 48(%rsp)
	movdqa	%xmm0, 32(%rsp)
	movdqa	%xmm0, 112(%rsp)
	movdqa	%xmm0, 96(%rsp)
	movdqa	%xmm0, 80(%rsp)
	cmpq	$256, %r8
	jb	.Lnoise_BB24_2
	movdqu	%xmm0, 54(%rsp)
	movdqu	%xmm0, 38(%rsp)
	movq	$0, 70(%rsp)
	movb	$1, %dl
.Lnoise_BB24_16:
	xorl	%eax, %eax
	jmp	.Lnoise_BB24_17
.Lnoise_BB24_2:
	cmpq	$6, %r8
	jb	.Lnoise_BB24_18
	cmpb	$105, 2(%rdx)
	sete	%al
	cmpb	$115, 3(%rdx)
	sete	%r9b
	movzwl	(%rdx), %r10d
	movd	%r10d, %xmm0
	pinsrw	$1, 4(%rdx), %xmm0
	movd	%xmm0, %r10d
	cmpl	$1600483150, %r10d
	sete	%r10b
	andb	%al, %r9b
	andb	%r10b, %r9b
	addq	$6, %rdx
	addq	$-6, %r8
	xorl	%r14d, %r14d
	testb	%r9b, %r9b
	movl	$0, %esi
	cmovneq	%rdx, %rsi
	cmovneq	%r8, %r14
	cmpb	$1, %r9b
	jne	.Lnoise_BB24_18
	testq	%r8, %r8
	movq	%rcx, %rbx
	je	.Lnoise_BB24_5
	xorl	%edi, %edi
	.p2align	4
.Lnoise_BB24_7:
	cmpb	$95, (%rdx,%rdi)
	je	.Lnoise_BB24_10
	incq	%rdi
	cmpq	%rdi, %r8
	jne	.Lnoise_BB24_7
	movq	%r14, %rdi
	jmp	.Lnoise_BB24_10
.Lnoise_BB24_18:
	pxor	%xmm0, %xmm0
	movdqu	%xmm0, 54(%rsp)
	movdqu	%xmm0, 38(%rsp)
	movq	$0, 70(%rsp)
	movb	$1, %dl
	movb	$1, %al
.Lnoise_BB24_17:
	movb	%dl, (%rcx)
	movb	%al, 1(%rcx)
	movups	38(%rsp), %xmm0
	movups	54(%rsp), %xmm1
	movups	%xmm0, 8(%rcx)
	movups	%xmm1, 24(%rcx)
	movq	70(%rsp), %rax
	movq	%rax, 40(%rcx)
	addq	$136, %rsp
	popq	%rbx
	popq	%rdi
	popq	%rsi
	popq	%r14
	retq
.Lnoise_BB24_5:
	xorl	%edi, %edi
.Lnoise_BB24_10:
	leaq	80(%rsp), %rcx
	movq	%rsi, %rdx
	movq	%rdi, %r8
	callq	"noise_names::section::parse_section"
	cmpb	$0, 80(%rsp)
	je	.Lnoise_BB24_11
	movzbl	81(%rsp), %eax
	pxor	%xmm0, %xmm0
	movdqu	%xmm0, 38(%rsp)
	movdqu	%xmm0, 54(%rsp)
	movq	$0, 70(%rsp)
	movb	$1, %dl
	movq	%rbx, %rcx
	jmp	.Lnoise_BB24_17
.Lnoise_BB24_11:
	subq	%rdi, %r14
	cmpq	$24, %r14
	movq	%rbx, %rcx
	jne	.Lnoise_BB24_14
	addq	%rdi, %rsi
	cmpl	$892678751, (%rsi)
	jne	.Lnoise_BB24_14
	leaq	.Lnoise_static.98(%rip), %r8
	movl	$24, %edx
	movq	%rsi, %rcx
	callq	"core::cmp::slices::groups_equal::<i8,31'core::cmp::numbers::U8PartialEq{}>"
	movq	%rbx, %rcx
	testb	%al, %al
	je	.Lnoise_BB24_14
	leaq	88(%rsp), %rax
	movq	32(%rax), %rdx
	movq	%rdx, 70(%rsp)
	movdqu	(%rax), %xmm0
	movups	16(%rax), %xmm1
	movups	%xmm1, 54(%rsp)
	movdqu	%xmm0, 38(%rsp)
	xorl	%edx, %edx
	jmp	.Lnoise_BB24_16
.Lnoise_BB24_14:
	pxor	%xmm0, %xmm0
	movdqu	%xmm0, 54(%rsp)
	movdqu	%xmm0, 38(%rsp)
	movq	$0, 70(%rsp)
	movb	$5, %al
	movb	$1, %dl
	jmp	.Lnoise_BB24_17
	.seh_endproc

	.def	"noise_c::from_c::restored";
	.scl	3;
	.type	32;
	.endef
	.p2align	4
"noise_c::from_c::restored":
.seh_proc "noise_c::from_c::restored"
	pushq	%r15
	.seh_pushreg %r15
	pushq	%r14
	.seh_pushreg %r14
	pushq	%r13
	.seh_pushreg %r13
	pushq	%r12
	.seh_pushreg %r12
	pushq	%rsi
	.seh_pushreg %rsi
	pushq	%rdi
	.seh_pushreg %rdi
	pushq	%rbp
	.seh_pushreg %rbp
	pushq	%rbx
	.seh_pushreg %rbx
	subq	$3656, %rsp
	.seh_stackalloc 3656
	movaps	%xmm6, 3632(%rsp)
	.seh_savexmm %xmm6, 3632
	.seh_endprologue
	movq	%r8, %rsi
	movq	%rdx, %rbx
	movq	%rcx, 616(%rsp)
	xorl	%r13d, %r13d
	leaq	2784(%rsp), %rcx
	movl	$272, %r8d
	xorl	%edx, %edx
	callq	memset
	movl	$0, 48(%rsp)
	movw	$0, 52(%rsp)
	xorps	%xmm6, %xmm6
	movaps	%xmm6, 576(%rsp)
	movaps	%xmm6, 592(%rsp)
	movaps	%xmm6, 544(%rsp)
	movaps	%xmm6, 560(%rsp)
	leaq	3058(%rsp), %rcx
	movl	$302, %r8d
	xorl	%edx, %edx
	callq	memset
	movaps	%xmm6, 288(%rsp)
	movaps	%xmm6, 304(%rsp)
	movaps	%xmm6, 320(%rsp)
	movups	%xmm6, 334(%rsp)
	movaps	%xmm6, 480(%rsp)
	movaps	%xmm6, 496(%rsp)
	movaps	%xmm6, 512(%rsp)
	movaps	%xmm6, 528(%rsp)
	movaps	%xmm6, 448(%rsp)
	movaps	%xmm6, 464(%rsp)
	movl	$0, 64(%rsp)
	movl	$0, 67(%rsp)
	leaq	3360(%rsp), %rcx
	movl	$272, %r8d
	xorl	%edx, %edx
	callq	memset
	movl	$0, 104(%rsp)
	movl	$0, 107(%rsp)
	movaps	%xmm6, 416(%rsp)
	movaps	%xmm6, 432(%rsp)
	movaps	%xmm6, 384(%rsp)
	movaps	%xmm6, 400(%rsp)
	movaps	%xmm6, 208(%rsp)
	movaps	%xmm6, 224(%rsp)
	movaps	%xmm6, 240(%rsp)
	movaps	%xmm6, 256(%rsp)
	movl	$0, 272(%rsp)
	movaps	%xmm6, 352(%rsp)
	movaps	%xmm6, 368(%rsp)
	movl	$0, 96(%rsp)
	movl	$0, 99(%rsp)
	movzbl	557(%rbx), %eax
	movq	%rax, 200(%rsp)
	movaps	%xmm6, 624(%rsp)
	movaps	%xmm6, 640(%rsp)
	movaps	%xmm6, 880(%rsp)
	movaps	%xmm6, 896(%rsp)
	movaps	%xmm6, 912(%rsp)
	movaps	%xmm6, 928(%rsp)
	movaps	%xmm6, 1376(%rsp)
	movaps	%xmm6, 1392(%rsp)
	movaps	%xmm6, 1408(%rsp)
	movaps	%xmm6, 1424(%rsp)
	movl	$0, 1440(%rsp)
	movzbl	422(%rbx), %eax
	movb	%al, 56(%rsp)
	movzbl	846(%rbx), %r12d
	movaps	%xmm6, 1888(%rsp)
	movaps	%xmm6, 1872(%rsp)
	cmpb	$0, 491(%rbx)
	je	.Lnoise_BB25_2
	movups	492(%rbx), %xmm0
	movups	508(%rbx), %xmm1
	movaps	%xmm1, 1888(%rsp)
	movaps	%xmm0, 1872(%rsp)
	movb	$1, %r13b
.Lnoise_BB25_2:
	movaps	1872(%rsp), %xmm0
	movaps	1888(%rsp), %xmm1
	movaps	%xmm1, 2496(%rsp)
	movaps	%xmm0, 2480(%rsp)
	movaps	%xmm6, 1888(%rsp)
	movaps	%xmm6, 1872(%rsp)
	cmpb	$0, 524(%rbx)
	je	.Lnoise_BB25_3
	movups	525(%rbx), %xmm0
	movups	541(%rbx), %xmm1
	movaps	%xmm1, 1888(%rsp)
	movaps	%xmm0, 1872(%rsp)
	movb	$1, %al
	movq	%rax, 88(%rsp)
	jmp	.Lnoise_BB25_5
.Lnoise_BB25_3:
	movq	$0, 88(%rsp)
.Lnoise_BB25_5:
	movaps	1872(%rsp), %xmm0
	movaps	1888(%rsp), %xmm1
	movaps	%xmm1, 2192(%rsp)
	movaps	%xmm0, 2176(%rsp)
	movzbl	423(%rbx), %edi
	movzbl	424(%rbx), %eax
	movq	%rax, 72(%rsp)
	movzbl	%al, %eax
	movq	%rax, 176(%rsp)
	xorps	%xmm6, %xmm6
	movaps	%xmm6, 1888(%rsp)
	movaps	%xmm6, 1872(%rsp)
	cmpb	$0, 1431(%rbx)
	je	.Lnoise_BB25_6
	movups	1432(%rbx), %xmm0
	movups	1448(%rbx), %xmm1
	movaps	%xmm1, 1888(%rsp)
	movaps	%xmm0, 1872(%rsp)
	movb	$1, %r15b
	jmp	.Lnoise_BB25_8
.Lnoise_BB25_6:
	xorl	%r15d, %r15d
.Lnoise_BB25_8:
	leaq	425(%rbx), %r14
	movaps	1872(%rsp), %xmm0
	movaps	1888(%rsp), %xmm1
	movaps	%xmm1, 640(%rsp)
	movaps	%xmm0, 624(%rsp)
	movq	1464(%rbx), %rbp
	movups	1367(%rbx), %xmm0
	movups	1383(%rbx), %xmm1
	movaps	%xmm1, 896(%rsp)
	movaps	%xmm0, 880(%rsp)
	movups	1399(%rbx), %xmm2
	movups	1415(%rbx), %xmm3
	movaps	%xmm2, 912(%rsp)
	movaps	%xmm3, 928(%rsp)
	movups	%xmm2, 1412(%rsp)
	movups	%xmm3, 1428(%rsp)
	movups	%xmm1, 1396(%rsp)
	movups	%xmm0, 1380(%rsp)
	leaq	3360(%rsp), %rcx
	movl	$272, %r8d
	movq	%rsi, %rdx
	callq	memcpy
	movl	$0, 104(%rsp)
	movl	$0, 107(%rsp)
	movaps	2480(%rsp), %xmm0
	movaps	2496(%rsp), %xmm1
	movaps	%xmm0, 416(%rsp)
	movaps	%xmm1, 432(%rsp)
	movaps	2176(%rsp), %xmm0
	movaps	2192(%rsp), %xmm1
	movaps	%xmm0, 384(%rsp)
	movaps	%xmm1, 400(%rsp)
	movaps	1376(%rsp), %xmm0
	movaps	1392(%rsp), %xmm1
	movaps	1408(%rsp), %xmm2
	movaps	1424(%rsp), %xmm3
	movaps	%xmm0, 208(%rsp)
	movaps	%xmm1, 224(%rsp)
	movaps	%xmm2, 240(%rsp)
	movaps	%xmm3, 256(%rsp)
	movl	1440(%rsp), %eax
	movl	%eax, 272(%rsp)
	movaps	624(%rsp), %xmm0
	movaps	640(%rsp), %xmm1
	movaps	%xmm1, 368(%rsp)
	movaps	%xmm0, 352(%rsp)
	movl	$0, 96(%rsp)
	movl	$0, 99(%rsp)
	leaq	2176(%rsp), %rcx
	movl	$296, %r8d
	xorl	%edx, %edx
	callq	memset
	leaq	2480(%rsp), %rcx
	movl	$302, %r8d
	xorl	%edx, %edx
	callq	memset
	movaps	%xmm6, 688(%rsp)
	movaps	%xmm6, 704(%rsp)
	movaps	%xmm6, 720(%rsp)
	movups	%xmm6, 734(%rsp)
	leaq	880(%rsp), %rcx
	movl	$272, %r8d
	movq	%rsi, %rdx
	callq	memcpy
	cmpb	$0, 56(%rsp)
	setne	1152(%rsp)
	setne	%al
	movq	%rax, 144(%rsp)
	testb	%dil, %dil
	setne	%al
	movq	%rax, 184(%rsp)
	movl	$0, 1153(%rsp)
	movl	$0, 1156(%rsp)
	movq	%r14, 168(%rsp)
	movq	%r14, 1160(%rsp)
	leaq	458(%rbx), %rax
	movq	%rax, 160(%rsp)
	leaq	458(%rbx), %rax
	movq	%rax, 1168(%rsp)
	leaq	847(%rbx), %rax
	movq	%rax, 192(%rsp)
	leaq	847(%rbx), %rax
	movq	%rax, 1176(%rsp)
	movq	%r12, 152(%rsp)
	movq	%r12, 1184(%rsp)
	movq	%r13, 136(%rsp)
	movb	%r13b, 1192(%rsp)
	movaps	416(%rsp), %xmm0
	movaps	432(%rsp), %xmm1
	movups	%xmm0, 1193(%rsp)
	movups	%xmm1, 1209(%rsp)
	movq	88(%rsp), %rax
	movb	%al, 1225(%rsp)
	movaps	384(%rsp), %xmm0
	movaps	400(%rsp), %xmm1
	movups	%xmm0, 1226(%rsp)
	movups	%xmm1, 1242(%rsp)
	movq	72(%rsp), %rax
	movb	%al, 1258(%rsp)
	setne	1259(%rsp)
	movl	272(%rsp), %eax
	movl	%eax, 1324(%rsp)
	movaps	208(%rsp), %xmm0
	movaps	224(%rsp), %xmm1
	movaps	240(%rsp), %xmm2
	movaps	256(%rsp), %xmm3
	movups	%xmm3, 1308(%rsp)
	movups	%xmm2, 1292(%rsp)
	movups	%xmm1, 1276(%rsp)
	movups	%xmm0, 1260(%rsp)
	movq	%r15, 120(%rsp)
	movb	%r15b, 1328(%rsp)
	movaps	352(%rsp), %xmm0
	movaps	368(%rsp), %xmm1
	movups	%xmm0, 1329(%rsp)
	movups	%xmm1, 1345(%rsp)
	movl	$0, 1361(%rsp)
	movl	$0, 1364(%rsp)
	movq	%rbp, 128(%rsp)
	movq	%rbp, 1368(%rsp)
	movq	1144(%rsp), %r13
	movq	176(%rsp), %r15
	cmpq	%r15, %r13
	jb	.Lnoise_BB25_140
	movq	200(%rsp), %rax
	shll	$5, %eax
	movq	%rax, 608(%rsp)
	subq	%rax, %rbx
	movq	%r13, %r8
	subq	%r15, %r8
	je	.Lnoise_BB25_10
	leaq	(%r15,%r15,2), %rax
	leaq	(%rsp,%rax,8), %rdx
	addq	$952, %rdx
	leaq	1(%r15), %rax
	cmpq	%rax, %r13
	jne	.Lnoise_BB25_13
	xorl	%eax, %eax
	jmp	.Lnoise_BB25_26
.Lnoise_BB25_10:
	xorl	%eax, %eax
	jmp	.Lnoise_BB25_32
.Lnoise_BB25_13:
	movq	%r8, %r9
	andq	$-2, %r9
	xorl	%eax, %eax
	xorl	%r10d, %r10d
	jmp	.Lnoise_BB25_14
	.p2align	4
.Lnoise_BB25_24:
	addq	$48, %rdx
	addq	%rcx, %rax
	addq	$2, %r10
	cmpq	%r9, %r10
	je	.Lnoise_BB25_25
.Lnoise_BB25_14:
	movq	16(%rdx), %r11
	xorl	%ecx, %ecx
	movq	%rdx, %rdi
.Lnoise_BB25_15:
	movq	%rdi, %r14
	.p2align	4
.Lnoise_BB25_16:
	testq	%r11, %r11
	je	.Lnoise_BB25_19
	leaq	1(%r14), %rdi
	decq	%r11
	cmpb	$6, (%r14)
	movq	%rdi, %r14
	jne	.Lnoise_BB25_16
	incq	%rcx
	jmp	.Lnoise_BB25_15
	.p2align	4
.Lnoise_BB25_19:
	leaq	24(%rdx), %rdi
	addq	%rcx, %rax
	movq	40(%rdx), %r11
	xorl	%ecx, %ecx
.Lnoise_BB25_20:
	movq	%rdi, %r14
	.p2align	4
.Lnoise_BB25_21:
	testq	%r11, %r11
	je	.Lnoise_BB25_24
	leaq	1(%r14), %rdi
	decq	%r11
	cmpb	$6, (%r14)
	movq	%rdi, %r14
	jne	.Lnoise_BB25_21
	incq	%rcx
	jmp	.Lnoise_BB25_20
.Lnoise_BB25_25:
	testb	$1, %r8b
	je	.Lnoise_BB25_32
.Lnoise_BB25_26:
	movq	16(%rdx), %r8
	xorl	%ecx, %ecx
.Lnoise_BB25_27:
	movq	%rdx, %r9
	.p2align	4
.Lnoise_BB25_28:
	testq	%r8, %r8
	je	.Lnoise_BB25_31
	leaq	1(%r9), %rdx
	decq	%r8
	cmpb	$6, (%r9)
	movq	%rdx, %r9
	jne	.Lnoise_BB25_28
	incq	%rcx
	jmp	.Lnoise_BB25_27
.Lnoise_BB25_31:
	addq	%rcx, %rax
.Lnoise_BB25_32:
	addq	$846, %rbx
	cmpb	$0, 56(%rsp)
	sete	112(%rsp)
	leaq	920(%rsp), %rsi
	leaq	936(%rsp), %r9
	movq	%rsi, %rdi
	cmovneq	%r9, %rdi
	movq	928(%rsp), %r14
	movq	944(%rsp), %rcx
	movq	%r14, %r10
	movq	%rcx, %rbp
	cmovneq	%rcx, %r10
	xorl	%ecx, %ecx
	.p2align	4
.Lnoise_BB25_33:
	cmpq	%rcx, %r10
	je	.Lnoise_BB25_35
	cmpb	$0, (%rdi,%rcx)
	leaq	1(%rcx), %rcx
	jne	.Lnoise_BB25_33
	jmp	.Lnoise_BB25_41
.Lnoise_BB25_35:
	testq	%r13, %r13
	je	.Lnoise_BB25_42
	leaq	952(%rsp), %r12
	xorl	%edx, %edx
	movq	%r13, %rcx
	jmp	.Lnoise_BB25_37
	.p2align	4
.Lnoise_BB25_153:
	addq	$24, %r12
	decq	%rcx
	xorb	$1, %dl
	testq	%rcx, %rcx
	je	.Lnoise_BB25_42
.Lnoise_BB25_37:
	cmpb	144(%rsp), %dl
	jne	.Lnoise_BB25_153
	movq	16(%r12), %r11
	xorl	%r8d, %r8d
	.p2align	4
.Lnoise_BB25_39:
	cmpq	%r8, %r11
	je	.Lnoise_BB25_153
	cmpb	$0, (%r12,%r8)
	leaq	1(%r8), %r8
	jne	.Lnoise_BB25_39
.Lnoise_BB25_41:
	movq	168(%rsp), %rcx
	cmpb	$0, (%rcx)
	je	.Lnoise_BB25_140
.Lnoise_BB25_42:
	xorl	%ecx, %ecx
	.p2align	4
.Lnoise_BB25_43:
	cmpq	%rcx, %r10
	je	.Lnoise_BB25_45
	cmpb	$1, (%rdi,%rcx)
	leaq	1(%rcx), %rcx
	jne	.Lnoise_BB25_43
	jmp	.Lnoise_BB25_51
.Lnoise_BB25_45:
	testq	%r13, %r13
	je	.Lnoise_BB25_52
	leaq	952(%rsp), %r10
	xorl	%edx, %edx
	movq	%r13, %rcx
	jmp	.Lnoise_BB25_47
	.p2align	4
.Lnoise_BB25_154:
	addq	$24, %r10
	decq	%rcx
	xorb	$1, %dl
	testq	%rcx, %rcx
	je	.Lnoise_BB25_52
.Lnoise_BB25_47:
	cmpb	144(%rsp), %dl
	jne	.Lnoise_BB25_154
	movq	16(%r10), %r11
	xorl	%r8d, %r8d
	.p2align	4
.Lnoise_BB25_49:
	cmpq	%r8, %r11
	je	.Lnoise_BB25_154
	cmpb	$1, (%r10,%r8)
	leaq	1(%r8), %r8
	jne	.Lnoise_BB25_49
.Lnoise_BB25_51:
	movq	160(%rsp), %rcx
	cmpb	$0, (%rcx)
	je	.Lnoise_BB25_140
.Lnoise_BB25_52:
	cmpb	$0, 56(%rsp)
	cmovneq	%rsi, %r9
	movq	%rbp, %r11
	cmovneq	%r14, %r11
	xorl	%ecx, %ecx
	.p2align	4
.Lnoise_BB25_53:
	cmpq	%rcx, %r11
	je	.Lnoise_BB25_56
	cmpb	$0, (%r9,%rcx)
	leaq	1(%rcx), %rcx
	jne	.Lnoise_BB25_53
	jmp	.Lnoise_BB25_55
.Lnoise_BB25_56:
	cmpb	$0, 72(%rsp)
	je	.Lnoise_BB25_63
	leaq	952(%rsp), %r10
	xorl	%edx, %edx
	movq	%r15, %rcx
	jmp	.Lnoise_BB25_58
	.p2align	4
.Lnoise_BB25_62:
	addq	$24, %r10
	decq	%rcx
	xorb	$1, %dl
	testq	%rcx, %rcx
	je	.Lnoise_BB25_63
.Lnoise_BB25_58:
	cmpb	112(%rsp), %dl
	jne	.Lnoise_BB25_62
	movq	16(%r10), %rdi
	xorl	%r8d, %r8d
	.p2align	4
.Lnoise_BB25_60:
	cmpq	%r8, %rdi
	je	.Lnoise_BB25_62
	cmpb	$0, (%r10,%r8)
	leaq	1(%r8), %r8
	jne	.Lnoise_BB25_60
.Lnoise_BB25_55:
	cmpb	$0, 136(%rsp)
	jne	.Lnoise_BB25_64
	jmp	.Lnoise_BB25_140
.Lnoise_BB25_63:
	cmpb	$0, 136(%rsp)
	jne	.Lnoise_BB25_140
.Lnoise_BB25_64:
	xorl	%ecx, %ecx
	movq	88(%rsp), %rdi
	.p2align	4
.Lnoise_BB25_65:
	cmpq	%rcx, %r11
	je	.Lnoise_BB25_67
	cmpb	$1, (%r9,%rcx)
	leaq	1(%rcx), %rcx
	jne	.Lnoise_BB25_65
	jmp	.Lnoise_BB25_73
.Lnoise_BB25_67:
	cmpb	$0, 72(%rsp)
	je	.Lnoise_BB25_75
	leaq	952(%rsp), %r9
	xorl	%edx, %edx
	movq	%r15, %rcx
	jmp	.Lnoise_BB25_69
.Lnoise_BB25_74:
	addq	$24, %r9
	decq	%rcx
	xorb	$1, %dl
	testq	%rcx, %rcx
	je	.Lnoise_BB25_75
.Lnoise_BB25_69:
	cmpb	112(%rsp), %dl
	jne	.Lnoise_BB25_74
	movq	16(%r9), %r10
	xorl	%r8d, %r8d
	.p2align	4
.Lnoise_BB25_71:
	cmpq	%r8, %r10
	je	.Lnoise_BB25_74
	cmpb	$1, (%r9,%r8)
	leaq	1(%r8), %r8
	jne	.Lnoise_BB25_71
.Lnoise_BB25_73:
	testb	%dil, %dil
	jne	.Lnoise_BB25_76
	jmp	.Lnoise_BB25_140
.Lnoise_BB25_75:
	testb	%dil, %dil
	jne	.Lnoise_BB25_140
.Lnoise_BB25_76:
	leaq	952(%rsp), %rdx
	testq	%r13, %r13
	je	.Lnoise_BB25_84
	xorl	%ecx, %ecx
	movq	%rdx, %r9
	jmp	.Lnoise_BB25_78
.Lnoise_BB25_83:
	incq	%rcx
	addq	$24, %r9
	cmpq	%r13, %rcx
	je	.Lnoise_BB25_84
.Lnoise_BB25_78:
	leaq	(%rcx,%rcx,2), %r8
	movq	968(%rsp,%r8,8), %r10
	testq	%r10, %r10
	je	.Lnoise_BB25_83
	xorl	%r11d, %r11d
	.p2align	4
.Lnoise_BB25_81:
	cmpb	$6, (%r9,%r11)
	je	.Lnoise_BB25_82
	incq	%r11
	cmpq	%r11, %r10
	jne	.Lnoise_BB25_81
	jmp	.Lnoise_BB25_83
.Lnoise_BB25_82:
	movb	$1, %cl
	movl	%ecx, 84(%rsp)
	jmp	.Lnoise_BB25_85
.Lnoise_BB25_84:
	movl	$0, 84(%rsp)
.Lnoise_BB25_85:
	xorl	%r9d, %r9d
	xorl	%r11d, %r11d
	xorl	%r10d, %r10d
	xorl	%r15d, %r15d
	testq	%r14, %r14
	je	.Lnoise_BB25_86
	movq	$0, 56(%rsp)
	xorl	%r12d, %r12d
	xorl	%edi, %edi
	jmp	.Lnoise_BB25_88
.Lnoise_BB25_91:
	movb	$1, %r15b
	.p2align	4
.Lnoise_BB25_95:
	incq	%rdi
	cmpq	%rdi, %r14
	je	.Lnoise_BB25_96
.Lnoise_BB25_88:
	movzbl	920(%rsp,%rdi), %ecx
	leaq	.Lnoise_JTI25_0(%rip), %r8
	movslq	(%r8,%rcx,4), %rcx
	addq	%r8, %rcx
	jmpq	*%rcx
.Lnoise_BB25_94:
	movb	$1, %r9b
	jmp	.Lnoise_BB25_95
.Lnoise_BB25_93:
	movb	$1, %r11b
	jmp	.Lnoise_BB25_95
.Lnoise_BB25_92:
	movb	$1, %r10b
	jmp	.Lnoise_BB25_95
.Lnoise_BB25_90:
	movb	$1, %cl
	movq	%rcx, 56(%rsp)
	jmp	.Lnoise_BB25_95
.Lnoise_BB25_89:
	movb	$1, %r12b
	jmp	.Lnoise_BB25_95
.Lnoise_BB25_86:
	movq	$0, 56(%rsp)
	xorl	%r12d, %r12d
.Lnoise_BB25_96:
	movq	%r10, 112(%rsp)
	xorl	%r10d, %r10d
	testq	%rbp, %rbp
	je	.Lnoise_BB25_106
	xorl	%edi, %edi
	jmp	.Lnoise_BB25_98
.Lnoise_BB25_102:
	movb	$1, %r15b
	.p2align	4
.Lnoise_BB25_105:
	incq	%rdi
	cmpq	%rdi, %rbp
	je	.Lnoise_BB25_106
.Lnoise_BB25_98:
	movzbl	936(%rsp,%rdi), %ecx
	leaq	.Lnoise_JTI25_1(%rip), %r8
	movslq	(%r8,%rcx,4), %rcx
	addq	%r8, %rcx
	jmpq	*%rcx
.Lnoise_BB25_99:
	movb	$1, %r10b
	jmp	.Lnoise_BB25_105
.Lnoise_BB25_100:
	movb	$1, %r11b
	jmp	.Lnoise_BB25_105
.Lnoise_BB25_101:
	movb	$1, %cl
	movq	%rcx, 112(%rsp)
	jmp	.Lnoise_BB25_105
.Lnoise_BB25_103:
	movb	$1, %cl
	movq	%rcx, 56(%rsp)
	jmp	.Lnoise_BB25_105
.Lnoise_BB25_104:
	movb	$1, %r12b
	jmp	.Lnoise_BB25_105
.Lnoise_BB25_106:
	testq	%r13, %r13
	je	.Lnoise_BB25_114
	xorl	%ecx, %ecx
	movq	%rdx, %r8
	jmp	.Lnoise_BB25_108
.Lnoise_BB25_113:
	incq	%rcx
	addq	$24, %r8
	cmpq	%r13, %rcx
	je	.Lnoise_BB25_114
.Lnoise_BB25_108:
	leaq	(%rcx,%rcx,2), %rdi
	movq	968(%rsp,%rdi,8), %rdi
	testq	%rdi, %rdi
	je	.Lnoise_BB25_113
	xorl	%r14d, %r14d
	.p2align	4
.Lnoise_BB25_111:
	cmpb	$6, (%r8,%r14)
	je	.Lnoise_BB25_112
	incq	%r14
	cmpq	%r14, %rdi
	jne	.Lnoise_BB25_111
	jmp	.Lnoise_BB25_113
.Lnoise_BB25_112:
	movb	$1, %cl
	jmp	.Lnoise_BB25_115
.Lnoise_BB25_114:
	xorl	%ecx, %ecx
.Lnoise_BB25_115:
	orb	112(%rsp), %r11b
	orb	56(%rsp), %r15b
	orb	%r11b, %r15b
	orb	%r12b, %r15b
	orb	%r10b, %r9b
	andb	%cl, %r9b
	orb	%r15b, %r9b
	andb	$1, %r9b
	cmpb	$0, 72(%rsp)
	je	.Lnoise_BB25_116
	cmpb	$0, 84(%rsp)
	je	.Lnoise_BB25_118
	xorl	%ecx, %ecx
	movq	176(%rsp), %r12
	jmp	.Lnoise_BB25_124
	.p2align	4
.Lnoise_BB25_125:
	movq	%rcx, %r8
.Lnoise_BB25_132:
	addq	$24, %rdx
	decq	%r12
	movzbl	%r9b, %ecx
	addq	%r8, %rcx
	testq	%r12, %r12
	je	.Lnoise_BB25_137
.Lnoise_BB25_124:
	movq	16(%rdx), %rdi
	testq	%rdi, %rdi
	je	.Lnoise_BB25_125
	testb	$1, %dil
	jne	.Lnoise_BB25_128
	movq	%rdi, %r11
	movq	%rdx, %r10
	cmpq	$1, %rdi
	je	.Lnoise_BB25_132
	jmp	.Lnoise_BB25_130
.Lnoise_BB25_128:
	movzbl	%r9b, %r11d
	addq	%r11, %rcx
	xorl	%r8d, %r8d
	cmpb	$1, (%rdx)
	leaq	1(%rdx), %r10
	movl	$1, %r9d
	cmovel	%r11d, %r9d
	leaq	-1(%rdi), %r11
	cmoveq	%rcx, %r8
	movq	%r8, %rcx
	cmpq	$1, %rdi
	je	.Lnoise_BB25_132
.Lnoise_BB25_130:
	xorl	%edi, %edi
	movq	%rcx, %r8
	.p2align	4
.Lnoise_BB25_131:
	movzbl	%r9b, %r9d
	xorl	%ecx, %ecx
	cmpb	$1, (%r10,%rdi)
	leaq	(%r9,%r8), %r14
	movl	$1, %r15d
	cmovnel	%r15d, %r9d
	cmovneq	%rcx, %r14
	movzbl	%r9b, %r8d
	addq	%r14, %r8
	cmpb	$1, 1(%r10,%rdi)
	cmovnel	%r15d, %r9d
	cmovneq	%rcx, %r8
	addq	$2, %rdi
	cmpq	%rdi, %r11
	jne	.Lnoise_BB25_131
	jmp	.Lnoise_BB25_132
.Lnoise_BB25_116:
	xorl	%ecx, %ecx
.Lnoise_BB25_137:
	cmpq	%rcx, 128(%rsp)
	jne	.Lnoise_BB25_140
	cmpb	120(%rsp), %r9b
	jne	.Lnoise_BB25_140
	movq	200(%rsp), %rdi
	cmpq	%rdi, %rax
	jae	.Lnoise_BB25_141
.Lnoise_BB25_140:
	movq	$0, 152(%rsp)
	leaq	2784(%rsp), %rcx
	movl	$272, %r8d
	xorl	%edx, %edx
	callq	memset
	movl	$0, 48(%rsp)
	movw	$0, 52(%rsp)
	xorps	%xmm6, %xmm6
	movaps	%xmm6, 576(%rsp)
	movaps	%xmm6, 592(%rsp)
	movaps	%xmm6, 544(%rsp)
	movaps	%xmm6, 560(%rsp)
	leaq	3058(%rsp), %rcx
	movl	$302, %r8d
	xorl	%edx, %edx
	callq	memset
	movaps	%xmm6, 288(%rsp)
	movaps	%xmm6, 304(%rsp)
	movaps	%xmm6, 320(%rsp)
	movups	%xmm6, 334(%rsp)
	movaps	%xmm6, 480(%rsp)
	movaps	%xmm6, 496(%rsp)
	movaps	%xmm6, 512(%rsp)
	movaps	%xmm6, 528(%rsp)
	movaps	%xmm6, 448(%rsp)
	movaps	%xmm6, 464(%rsp)
	movl	$0, 64(%rsp)
	movl	$0, 67(%rsp)
	movl	$0, %edi
	movl	$0, %ebp
	xorl	%r13d, %r13d
	xorl	%eax, %eax
	xorl	%r14d, %r14d
	movq	$0, 56(%rsp)
	xorl	%r12d, %r12d
	xorl	%esi, %esi
	movq	$0, 72(%rsp)
	xorl	%r15d, %r15d
	movq	$0, 120(%rsp)
	movq	$0, 128(%rsp)
.Lnoise_BB25_152:
	movq	616(%rsp), %rbx
	movq	%rax, (%rbx)
	leaq	8(%rbx), %rcx
	leaq	2784(%rsp), %rdx
	movl	$272, %r8d
	callq	memcpy
	movq	%r13, 280(%rbx)
	movq	%rbp, 288(%rbx)
	movq	%rdi, 296(%rbx)
	movq	152(%rsp), %rax
	movq	%rax, 304(%rbx)
	movb	%r14b, 312(%rbx)
	movq	56(%rsp), %rax
	movb	%al, 313(%rbx)
	movl	48(%rsp), %eax
	movl	%eax, 314(%rbx)
	movzwl	52(%rsp), %eax
	movw	%ax, 318(%rbx)
	movb	%r12b, 320(%rbx)
	movaps	576(%rsp), %xmm0
	movaps	592(%rsp), %xmm1
	movups	%xmm0, 321(%rbx)
	movups	%xmm1, 337(%rbx)
	movb	%sil, 353(%rbx)
	movaps	544(%rsp), %xmm0
	movaps	560(%rsp), %xmm1
	movups	%xmm0, 354(%rbx)
	movups	%xmm1, 370(%rbx)
	leaq	386(%rbx), %rcx
	leaq	3058(%rsp), %rdx
	movl	$302, %r8d
	callq	memcpy
	movq	$0, 688(%rbx)
	movq	72(%rsp), %rax
	movb	%al, 696(%rbx)
	movb	%r15b, 697(%rbx)
	movaps	288(%rsp), %xmm0
	movaps	304(%rsp), %xmm1
	movaps	320(%rsp), %xmm2
	movups	%xmm0, 698(%rbx)
	movups	%xmm1, 714(%rbx)
	movups	%xmm2, 730(%rbx)
	movups	334(%rsp), %xmm0
	movups	%xmm0, 744(%rbx)
	movaps	480(%rsp), %xmm0
	movaps	496(%rsp), %xmm1
	movaps	512(%rsp), %xmm2
	movaps	528(%rsp), %xmm3
	movups	%xmm0, 760(%rbx)
	movups	%xmm1, 776(%rbx)
	movups	%xmm2, 792(%rbx)
	movups	%xmm3, 808(%rbx)
	movq	120(%rsp), %rax
	movb	%al, 824(%rbx)
	movaps	448(%rsp), %xmm0
	movaps	464(%rsp), %xmm1
	movups	%xmm0, 825(%rbx)
	movups	%xmm1, 841(%rbx)
	movl	64(%rsp), %eax
	movl	67(%rsp), %ecx
	movl	%eax, 857(%rbx)
	movl	%ecx, 860(%rbx)
	movq	128(%rsp), %rax
	movq	%rax, 864(%rbx)
	movaps	3632(%rsp), %xmm6
	addq	$3656, %rsp
	popq	%rbx
	popq	%rbp
	popq	%rdi
	popq	%rsi
	popq	%r12
	popq	%r13
	popq	%r14
	popq	%r15
	retq
.Lnoise_BB25_118:
	xorl	%ecx, %ecx
	movq	176(%rsp), %r14
	jmp	.Lnoise_BB25_119
	.p2align	4
.Lnoise_BB25_136:
	addq	$24, %rdx
	decq	%r14
	movzbl	%r9b, %r8d
	addq	%r8, %rcx
	testq	%r14, %r14
	je	.Lnoise_BB25_137
.Lnoise_BB25_119:
	movq	16(%rdx), %r8
	testq	%r8, %r8
	je	.Lnoise_BB25_136
	xorl	%r10d, %r10d
	jmp	.Lnoise_BB25_121
	.p2align	4
.Lnoise_BB25_122:
	movb	$1, %r9b
	xorl	%ecx, %ecx
.Lnoise_BB25_135:
	incq	%r10
	cmpq	%r10, %r8
	je	.Lnoise_BB25_136
.Lnoise_BB25_121:
	movzbl	(%rdx,%r10), %r11d
	leal	-2(%r11), %edi
	cmpl	$5, %edi
	jb	.Lnoise_BB25_122
	testl	%r11d, %r11d
	je	.Lnoise_BB25_135
	movzbl	%r9b, %r11d
	addq	%r11, %rcx
	jmp	.Lnoise_BB25_135
.Lnoise_BB25_141:
	leaq	2176(%rsp), %rcx
	movl	$288, %r8d
	xorl	%edx, %edx
	callq	memset
	cmpb	$9, %dil
	ja	.Lnoise_BB25_155
	leaq	2176(%rsp), %rcx
	movq	%rbx, %rdx
	movq	608(%rsp), %r8
	callq	memcpy
	movq	%rdi, 2464(%rsp)
	movl	$0, 1872(%rsp)
	movw	$0, 1876(%rsp)
	movl	$0, 752(%rsp)
	movw	$0, 756(%rsp)
	xorps	%xmm0, %xmm0
	movaps	%xmm0, 816(%rsp)
	movaps	%xmm0, 832(%rsp)
	movaps	%xmm0, 848(%rsp)
	movq	$0, 864(%rsp)
	leaq	1376(%rsp), %rcx
	leaq	3360(%rsp), %rdx
	movl	$272, %r8d
	callq	memcpy
	movq	144(%rsp), %rax
	movb	%al, 1648(%rsp)
	movl	104(%rsp), %eax
	movl	107(%rsp), %ecx
	movl	%eax, 1649(%rsp)
	movl	%ecx, 1652(%rsp)
	movq	168(%rsp), %rax
	movq	%rax, 1656(%rsp)
	movq	160(%rsp), %rax
	movq	%rax, 1664(%rsp)
	movq	192(%rsp), %rax
	movq	%rax, 1672(%rsp)
	movq	152(%rsp), %r10
	movq	%r10, 1680(%rsp)
	movq	136(%rsp), %r14
	movb	%r14b, 1688(%rsp)
	movaps	416(%rsp), %xmm0
	movaps	432(%rsp), %xmm1
	movups	%xmm0, 1689(%rsp)
	movups	%xmm1, 1705(%rsp)
	movq	88(%rsp), %r15
	movb	%r15b, 1721(%rsp)
	movaps	384(%rsp), %xmm0
	movaps	400(%rsp), %xmm1
	movups	%xmm0, 1722(%rsp)
	movups	%xmm1, 1738(%rsp)
	movq	72(%rsp), %rdi
	movb	%dil, 1754(%rsp)
	movq	184(%rsp), %rax
	movb	%al, 1755(%rsp)
	movaps	208(%rsp), %xmm0
	movaps	224(%rsp), %xmm1
	movaps	240(%rsp), %xmm2
	movaps	256(%rsp), %xmm3
	movups	%xmm0, 1756(%rsp)
	movups	%xmm1, 1772(%rsp)
	movups	%xmm2, 1788(%rsp)
	movups	%xmm3, 1804(%rsp)
	movl	272(%rsp), %eax
	movl	%eax, 1820(%rsp)
	movq	120(%rsp), %r9
	movb	%r9b, 1824(%rsp)
	movaps	352(%rsp), %xmm0
	movaps	368(%rsp), %xmm1
	movups	%xmm0, 1825(%rsp)
	movups	%xmm1, 1841(%rsp)
	movl	96(%rsp), %eax
	movl	99(%rsp), %ecx
	movl	%eax, 1857(%rsp)
	movl	%ecx, 1860(%rsp)
	movq	128(%rsp), %rbx
	movq	%rbx, 1864(%rsp)
	movq	1640(%rsp), %rax
	testq	%rax, %rax
	movq	%r15, 88(%rsp)
	je	.Lnoise_BB25_150
	leaq	1448(%rsp), %rcx
	xorl	%edx, %edx
	jmp	.Lnoise_BB25_144
.Lnoise_BB25_149:
	incq	%rdx
	addq	$24, %rcx
	cmpq	%rax, %rdx
	je	.Lnoise_BB25_150
.Lnoise_BB25_144:
	leaq	(%rdx,%rdx,2), %r8
	movq	1464(%rsp,%r8,8), %r8
	testq	%r8, %r8
	je	.Lnoise_BB25_149
	xorl	%r11d, %r11d
	.p2align	4
.Lnoise_BB25_147:
	cmpb	$6, (%rcx,%r11)
	je	.Lnoise_BB25_148
	incq	%r11
	cmpq	%r11, %r8
	jne	.Lnoise_BB25_147
	jmp	.Lnoise_BB25_149
.Lnoise_BB25_148:
	movb	$1, %r8b
	jmp	.Lnoise_BB25_151
.Lnoise_BB25_150:
	xorl	%r8d, %r8d
.Lnoise_BB25_151:
	movb	%dil, 32(%rsp)
	leaq	816(%rsp), %rcx
	leaq	1376(%rsp), %rdx
	movq	%r8, 56(%rsp)
	callq	"noise_handshake::layout::lay_next"
	movups	212(%rsp), %xmm0
	movups	228(%rsp), %xmm1
	movups	244(%rsp), %xmm2
	movups	260(%rsp), %xmm3
	movaps	%xmm1, 640(%rsp)
	movaps	%xmm0, 624(%rsp)
	movaps	%xmm2, 656(%rsp)
	movaps	%xmm3, 672(%rsp)
	leaq	1878(%rsp), %rcx
	leaq	2176(%rsp), %rdx
	movl	$296, %r8d
	callq	memcpy
	movaps	816(%rsp), %xmm0
	movaps	832(%rsp), %xmm1
	movaps	848(%rsp), %xmm2
	movups	%xmm0, 758(%rsp)
	movups	%xmm1, 774(%rsp)
	movups	%xmm2, 790(%rsp)
	movq	864(%rsp), %rax
	movq	%rax, 806(%rsp)
	leaq	2480(%rsp), %rsi
	leaq	1872(%rsp), %rdx
	movl	$302, %r8d
	movq	%rsi, %rcx
	callq	memcpy
	movups	752(%rsp), %xmm0
	movups	768(%rsp), %xmm1
	movups	784(%rsp), %xmm2
	movups	798(%rsp), %xmm3
	movaps	%xmm0, 688(%rsp)
	movaps	%xmm1, 704(%rsp)
	movaps	%xmm2, 720(%rsp)
	movups	%xmm3, 734(%rsp)
	leaq	2784(%rsp), %rcx
	leaq	3360(%rsp), %rdx
	movl	$272, %r8d
	callq	memcpy
	movl	$0, 48(%rsp)
	movw	$0, 52(%rsp)
	movaps	416(%rsp), %xmm0
	movaps	432(%rsp), %xmm1
	movaps	%xmm0, 576(%rsp)
	movaps	%xmm1, 592(%rsp)
	movaps	384(%rsp), %xmm0
	movaps	400(%rsp), %xmm1
	movaps	%xmm0, 544(%rsp)
	movaps	%xmm1, 560(%rsp)
	leaq	3058(%rsp), %rcx
	movl	$302, %r8d
	movq	%rsi, %rdx
	callq	memcpy
	movaps	688(%rsp), %xmm0
	movaps	704(%rsp), %xmm1
	movaps	720(%rsp), %xmm2
	movaps	%xmm0, 288(%rsp)
	movaps	%xmm1, 304(%rsp)
	movaps	%xmm2, 320(%rsp)
	movups	734(%rsp), %xmm0
	movups	%xmm0, 334(%rsp)
	movaps	624(%rsp), %xmm0
	movaps	640(%rsp), %xmm1
	movaps	656(%rsp), %xmm2
	movaps	672(%rsp), %xmm3
	movaps	%xmm0, 480(%rsp)
	movaps	%xmm1, 496(%rsp)
	movaps	%xmm2, 512(%rsp)
	movaps	%xmm3, 528(%rsp)
	movaps	352(%rsp), %xmm0
	movaps	368(%rsp), %xmm1
	movaps	%xmm0, 448(%rsp)
	movaps	%xmm1, 464(%rsp)
	movl	$0, 67(%rsp)
	movl	$0, 64(%rsp)
	movl	$1, %eax
	movq	192(%rsp), %rdi
	movq	160(%rsp), %rbp
	movq	168(%rsp), %r13
	movq	184(%rsp), %r15
	movq	144(%rsp), %r14
	movq	136(%rsp), %r12
	movq	88(%rsp), %rsi
	jmp	.Lnoise_BB25_152
.Lnoise_BB25_155:
	ud2
	.section	.rdata,"dr"
	.p2align	2, 0x0
.Lnoise_JTI25_0:
	.long	.Lnoise_BB25_94-.Lnoise_JTI25_0
	.long	.Lnoise_BB25_95-.Lnoise_JTI25_0
	.long	.Lnoise_BB25_93-.Lnoise_JTI25_0
	.long	.Lnoise_BB25_92-.Lnoise_JTI25_0
	.long	.Lnoise_BB25_91-.Lnoise_JTI25_0
	.long	.Lnoise_BB25_90-.Lnoise_JTI25_0
	.long	.Lnoise_BB25_89-.Lnoise_JTI25_0
.Lnoise_JTI25_1:
	.long	.Lnoise_BB25_99-.Lnoise_JTI25_1
	.long	.Lnoise_BB25_105-.Lnoise_JTI25_1
	.long	.Lnoise_BB25_100-.Lnoise_JTI25_1
	.long	.Lnoise_BB25_101-.Lnoise_JTI25_1
	.long	.Lnoise_BB25_102-.Lnoise_JTI25_1
	.long	.Lnoise_BB25_103-.Lnoise_JTI25_1
	.long	.Lnoise_BB25_104-.Lnoise_JTI25_1
	.text
	.seh_endproc

	.def	"noise_names::valid::ValidPattern::seen_after";
	.scl	3;
	.type	32;
	.endef
	.p2align	4
"noise_names::valid::ValidPattern::seen_after":
.seh_proc "noise_names::valid::ValidPattern::seen_after"
	pushq	%r15
	.seh_pushreg %r15
	pushq	%r14
	.seh_pushreg %r14
	pushq	%r13
	.seh_pushreg %r13
	pushq	%r12
	.seh_pushreg %r12
	pushq	%rsi
	.seh_pushreg %rsi
	pushq	%rdi
	.seh_pushreg %rdi
	pushq	%rbp
	.seh_pushreg %rbp
	pushq	%rbx
	.seh_pushreg %rbx
	subq	$32, %rsp
	.seh_stackalloc 32
	.seh_endprologue
	movq	%r8, 8(%rsp)
	movq	%rcx, 16(%rsp)
	movq	48(%rdx), %rax
	xorl	%ebp, %ebp
	xorl	%r14d, %r14d
	xorl	%r10d, %r10d
	xorl	%r11d, %r11d
	xorl	%esi, %esi
	xorl	%edi, %edi
	xorl	%ebx, %ebx
	testq	%rax, %rax
	je	.Lnoise_BB26_11
	xorl	%ecx, %ecx
	jmp	.Lnoise_BB26_2
.Lnoise_BB26_5:
	movb	$1, %sil
	.p2align	4
.Lnoise_BB26_10:
	incq	%rcx
	cmpq	%rcx, %rax
	je	.Lnoise_BB26_11
.Lnoise_BB26_2:
	movzbl	40(%rdx,%rcx), %r8d
	leaq	.Lnoise_JTI26_0(%rip), %r9
	movslq	(%r9,%r8,4), %r8
	addq	%r9, %r8
	jmpq	*%r8
.Lnoise_BB26_9:
	movb	$1, %bpl
	jmp	.Lnoise_BB26_10
.Lnoise_BB26_7:
	movb	$1, %r10b
	jmp	.Lnoise_BB26_10
.Lnoise_BB26_6:
	movb	$1, %r11b
	jmp	.Lnoise_BB26_10
.Lnoise_BB26_8:
	movb	$1, %r14b
	jmp	.Lnoise_BB26_10
.Lnoise_BB26_4:
	movb	$1, %dil
	jmp	.Lnoise_BB26_10
.Lnoise_BB26_3:
	movb	$1, %bl
	jmp	.Lnoise_BB26_10
.Lnoise_BB26_11:
	movl	%r14d, (%rsp)
	movq	64(%rdx), %rax
	xorl	%r14d, %r14d
	xorl	%r15d, %r15d
	testq	%rax, %rax
	je	.Lnoise_BB26_22
	xorl	%ecx, %ecx
	jmp	.Lnoise_BB26_13
.Lnoise_BB26_18:
	movb	$1, %sil
	.p2align	4
.Lnoise_BB26_21:
	incq	%rcx
	cmpq	%rcx, %rax
	je	.Lnoise_BB26_22
.Lnoise_BB26_13:
	movzbl	56(%rdx,%rcx), %r8d
	leaq	.Lnoise_JTI26_1(%rip), %r9
	movslq	(%r9,%r8,4), %r8
	addq	%r9, %r8
	jmpq	*%r8
.Lnoise_BB26_14:
	movb	$1, %r14b
	jmp	.Lnoise_BB26_21
.Lnoise_BB26_16:
	movb	$1, %r10b
	jmp	.Lnoise_BB26_21
.Lnoise_BB26_17:
	movb	$1, %r11b
	jmp	.Lnoise_BB26_21
.Lnoise_BB26_15:
	movb	$1, %r15b
	jmp	.Lnoise_BB26_21
.Lnoise_BB26_19:
	movb	$1, %dil
	jmp	.Lnoise_BB26_21
.Lnoise_BB26_20:
	movb	$1, %bl
	jmp	.Lnoise_BB26_21
.Lnoise_BB26_22:
	movl	%r15d, 4(%rsp)
	cmpq	$0, 8(%rsp)
	je	.Lnoise_BB26_23
	addq	$72, %rdx
	xorl	%r15d, %r15d
	movq	%rdx, %r12
	xorl	%r13d, %r13d
	jmp	.Lnoise_BB26_25
	.p2align	4
.Lnoise_BB26_47:
	movq	24(%rsp), %rbp
.Lnoise_BB26_48:
	xorb	$1, %r15b
	incq	%r13
	addq	$24, %r12
	cmpq	8(%rsp), %r13
	je	.Lnoise_BB26_49
.Lnoise_BB26_25:
	leaq	(,%r13,2), %rax
	addq	%r13, %rax
	movq	16(%rdx,%rax,8), %rax
	testq	%rax, %rax
	je	.Lnoise_BB26_48
	testb	%r15b, %r15b
	je	.Lnoise_BB26_28
	movq	%rbp, 24(%rsp)
	xorl	%ecx, %ecx
	movzbl	(%r12,%rcx), %r9d
	leaq	.Lnoise_JTI26_2(%rip), %r8
	movslq	(%r8,%r9,4), %rbp
	addq	%r8, %rbp
	movl	%r14d, %r9d
	movb	$1, %r14b
	jmpq	*%rbp
	.p2align	4
.Lnoise_BB26_46:
	incq	%rcx
	cmpq	%rcx, %rax
	je	.Lnoise_BB26_47
.Lnoise_BB26_38:
	movzbl	(%r12,%rcx), %r9d
	movslq	(%r8,%r9,4), %rbp
	addq	%r8, %rbp
	movl	%r14d, %r9d
	movb	$1, %r14b
	jmpq	*%rbp
.Lnoise_BB26_39:
	movb	$1, %bpl
	movl	%ebp, 4(%rsp)
	jmp	.Lnoise_BB26_45
	.p2align	4
.Lnoise_BB26_43:
	movb	$1, %dil
	jmp	.Lnoise_BB26_45
	.p2align	4
.Lnoise_BB26_41:
	movb	$1, %r11b
	jmp	.Lnoise_BB26_45
	.p2align	4
.Lnoise_BB26_42:
	movb	$1, %sil
	jmp	.Lnoise_BB26_45
	.p2align	4
.Lnoise_BB26_40:
	movb	$1, %r10b
	jmp	.Lnoise_BB26_45
	.p2align	4
.Lnoise_BB26_44:
	movb	$1, %bl
	.p2align	4
.Lnoise_BB26_45:
	movl	%r9d, %r14d
	incq	%rcx
	cmpq	%rcx, %rax
	jne	.Lnoise_BB26_38
	jmp	.Lnoise_BB26_47
	.p2align	4
.Lnoise_BB26_28:
	xorl	%ecx, %ecx
	jmp	.Lnoise_BB26_29
.Lnoise_BB26_32:
	movb	$1, %sil
	.p2align	4
.Lnoise_BB26_37:
	incq	%rcx
	cmpq	%rcx, %rax
	je	.Lnoise_BB26_48
.Lnoise_BB26_29:
	movzbl	(%r12,%rcx), %r8d
	leaq	.Lnoise_JTI26_3(%rip), %r9
	movslq	(%r9,%r8,4), %r8
	addq	%r9, %r8
	jmpq	*%r8
.Lnoise_BB26_36:
	movb	$1, %bpl
	jmp	.Lnoise_BB26_37
.Lnoise_BB26_34:
	movb	$1, %r10b
	jmp	.Lnoise_BB26_37
.Lnoise_BB26_33:
	movb	$1, %r11b
	jmp	.Lnoise_BB26_37
.Lnoise_BB26_35:
	movb	$1, %r8b
	movl	%r8d, (%rsp)
	jmp	.Lnoise_BB26_37
.Lnoise_BB26_31:
	movb	$1, %dil
	jmp	.Lnoise_BB26_37
.Lnoise_BB26_30:
	movb	$1, %bl
	jmp	.Lnoise_BB26_37
.Lnoise_BB26_23:
	xorl	%r15d, %r15d
.Lnoise_BB26_49:
	movq	16(%rsp), %rax
	movb	%bpl, (%rax)
	movl	(%rsp), %ecx
	movb	%cl, 1(%rax)
	movb	%r14b, 2(%rax)
	movl	4(%rsp), %ecx
	movb	%cl, 3(%rax)
	movb	%r10b, 4(%rax)
	movb	%r11b, 5(%rax)
	movb	%sil, 6(%rax)
	movb	%dil, 7(%rax)
	movb	%bl, 8(%rax)
	movb	%r15b, 9(%rax)
	addq	$32, %rsp
	popq	%rbx
	popq	%rbp
	popq	%rdi
	popq	%rsi
	popq	%r12
	popq	%r13
	popq	%r14
	popq	%r15
	retq
	.section	.rdata,"dr"
	.p2align	2, 0x0
.Lnoise_JTI26_0:
	.long	.Lnoise_BB26_9-.Lnoise_JTI26_0
	.long	.Lnoise_BB26_8-.Lnoise_JTI26_0
	.long	.Lnoise_BB26_7-.Lnoise_JTI26_0
	.long	.Lnoise_BB26_6-.Lnoise_JTI26_0
	.long	.Lnoise_BB26_5-.Lnoise_JTI26_0
	.long	.Lnoise_BB26_4-.Lnoise_JTI26_0
	.long	.Lnoise_BB26_3-.Lnoise_JTI26_0
.Lnoise_JTI26_1:
	.long	.Lnoise_BB26_14-.Lnoise_JTI26_1
	.long	.Lnoise_BB26_15-.Lnoise_JTI26_1
	.long	.Lnoise_BB26_16-.Lnoise_JTI26_1
	.long	.Lnoise_BB26_17-.Lnoise_JTI26_1
	.long	.Lnoise_BB26_18-.Lnoise_JTI26_1
	.long	.Lnoise_BB26_19-.Lnoise_JTI26_1
	.long	.Lnoise_BB26_20-.Lnoise_JTI26_1
.Lnoise_JTI26_2:
	.long	.Lnoise_BB26_46-.Lnoise_JTI26_2
	.long	.Lnoise_BB26_39-.Lnoise_JTI26_2
	.long	.Lnoise_BB26_40-.Lnoise_JTI26_2
	.long	.Lnoise_BB26_41-.Lnoise_JTI26_2
	.long	.Lnoise_BB26_42-.Lnoise_JTI26_2
	.long	.Lnoise_BB26_43-.Lnoise_JTI26_2
	.long	.Lnoise_BB26_44-.Lnoise_JTI26_2
.Lnoise_JTI26_3:
	.long	.Lnoise_BB26_36-.Lnoise_JTI26_3
	.long	.Lnoise_BB26_35-.Lnoise_JTI26_3
	.long	.Lnoise_BB26_34-.Lnoise_JTI26_3
	.long	.Lnoise_BB26_33-.Lnoise_JTI26_3
	.long	.Lnoise_BB26_32-.Lnoise_JTI26_3
	.long	.Lnoise_BB26_31-.Lnoise_JTI26_3
	.long	.Lnoise_BB26_30-.Lnoise_JTI26_3
	.text
	.seh_endproc

	.def	"noise_handshake::layout::lay_next";
	.scl	3;
	.type	32;
	.endef
	.p2align	4
"noise_handshake::layout::lay_next":
.seh_proc "noise_handshake::layout::lay_next"
	pushq	%r14
	.seh_pushreg %r14
	pushq	%rsi
	.seh_pushreg %rsi
	pushq	%rdi
	.seh_pushreg %rdi
	pushq	%rbx
	.seh_pushreg %rbx
	subq	$120, %rsp
	.seh_stackalloc 120
	.seh_endprologue
	movzbl	192(%rsp), %eax
	xorps	%xmm0, %xmm0
	movaps	%xmm0, 96(%rsp)
	movaps	%xmm0, 80(%rsp)
	movaps	%xmm0, 64(%rsp)
	movl	$0, 8(%rsp)
	movb	$0, 12(%rsp)
	xorl	%r11d, %r11d
	cmpq	%rax, 264(%rdx)
	leaq	(%rax,%rax,2), %rax
	leaq	72(%rdx,%rax,8), %r10
	movl	$0, %edx
	cmovaq	%r10, %rdx
	jbe	.Lnoise_BB27_1
	movq	16(%r10), %rax
	movaps	%xmm0, 48(%rsp)
	movaps	%xmm0, 32(%rsp)
	movaps	%xmm0, 16(%rsp)
	testq	%rax, %rax
	je	.Lnoise_BB27_3
	xorl	%esi, %esi
	xorl	%edi, %edi
	jmp	.Lnoise_BB27_5
	.p2align	4
.Lnoise_BB27_9:
	movl	%edi, %r9d
	shll	$16, %r9d
	orl	%r11d, %r9d
	movl	%r9d, 16(%rsp,%rsi,4)
	leaq	1(%rsi), %r9
	movq	%r9, 56(%rsp)
	movb	$1, %r9b
	xorl	%r11d, %r11d
.Lnoise_BB27_10:
	movzwl	%r11w, %r11d
	addl	%edi, %r11d
	incq	%rsi
	movl	%r11d, %edi
	cmpq	%rsi, %rax
	je	.Lnoise_BB27_11
.Lnoise_BB27_5:
	movzbl	(%r10,%rsi), %r11d
	leal	-2(%r11), %ebx
	cmpl	$5, %ebx
	jb	.Lnoise_BB27_9
	cmpl	$1, %r11d
	jne	.Lnoise_BB27_7
	movl	%edi, %ebx
	shll	$16, %ebx
	movzbl	%r9b, %r11d
	andl	$1, %r11d
	movl	%r11d, %r14d
	shll	$12, %r14d
	addl	%r14d, %ebx
	addl	$8193, %ebx
	movl	%ebx, 16(%rsp,%rsi,4)
	leaq	1(%rsi), %rbx
	movq	%rbx, 56(%rsp)
	shll	$4, %r11d
	orl	$32, %r11d
	jmp	.Lnoise_BB27_10
.Lnoise_BB27_7:
	movl	%edi, %r11d
	shll	$16, %r11d
	orl	$8192, %r11d
	movl	%r11d, 16(%rsp,%rsi,4)
	leaq	1(%rsi), %r11
	movq	%r11, 56(%rsp)
	orb	%r8b, %r9b
	movw	$32, %r11w
	jmp	.Lnoise_BB27_10
.Lnoise_BB27_1:
	xorl	%r8d, %r8d
	jmp	.Lnoise_BB27_17
.Lnoise_BB27_3:
	xorl	%r11d, %r11d
.Lnoise_BB27_11:
	xorl	%r8d, %r8d
.Lnoise_BB27_12:
	movq	%rdx, %r10
	.p2align	4
.Lnoise_BB27_13:
	testq	%rax, %rax
	je	.Lnoise_BB27_16
	leaq	1(%r10), %rdx
	decq	%rax
	cmpb	$6, (%r10)
	movq	%rdx, %r10
	jne	.Lnoise_BB27_13
	incb	%r8b
	jmp	.Lnoise_BB27_12
.Lnoise_BB27_16:
	movzbl	%r9b, %eax
	andl	$1, %eax
	shll	$4, %eax
	addl	%eax, %r11d
	movaps	16(%rsp), %xmm0
	movaps	32(%rsp), %xmm1
	movaps	48(%rsp), %xmm2
	movaps	%xmm2, 96(%rsp)
	movaps	%xmm1, 80(%rsp)
	movaps	%xmm0, 64(%rsp)
	movl	$0, 8(%rsp)
	movb	$0, 12(%rsp)
.Lnoise_BB27_17:
	movaps	64(%rsp), %xmm0
	movaps	80(%rsp), %xmm1
	movaps	96(%rsp), %xmm2
	movups	%xmm2, 32(%rcx)
	movups	%xmm1, 16(%rcx)
	movups	%xmm0, (%rcx)
	movw	%r11w, 48(%rcx)
	movb	%r8b, 50(%rcx)
	movl	8(%rsp), %eax
	movl	%eax, 51(%rcx)
	movzbl	12(%rsp), %eax
	movb	%al, 55(%rcx)
	addq	$120, %rsp
	popq	%rbx
	popq	%rdi
	popq	%rsi
	popq	%r14
	retq
	.seh_endproc

	.def	"noise_c::messages::read_next";
	.scl	3;
	.type	32;
	.endef
	.p2align	4
"noise_c::messages::read_next":
.seh_proc "noise_c::messages::read_next"
	pushq	%r15
	.seh_pushreg %r15
	pushq	%r14
	.seh_pushreg %r14
	pushq	%r13
	.seh_pushreg %r13
	pushq	%r12
	.seh_pushreg %r12
	pushq	%rsi
	.seh_pushreg %rsi
	pushq	%rdi
	.seh_pushreg %rdi
	pushq	%rbp
	.seh_pushreg %rbp
	pushq	%rbx
	.seh_pushreg %rbx
	subq	$3256, %rsp
	.seh_stackalloc 3256
	movdqa	%xmm6, 3232(%rsp)
	.seh_savexmm %xmm6, 3232
	.seh_endprologue
	movq	%r9, %rsi
	movq	%r8, %r14
	movq	%rdx, %r15
	movq	%rcx, %rdi
	leaq	1504(%rsp), %rcx
	movl	$864, %r8d
	xorl	%edx, %edx
	callq	memset
	leaq	624(%rsp), %rcx
	movl	$872, %r8d
	xorl	%edx, %edx
	callq	memset
	cmpl	$1315897601, (%rdi)
	jne	.Lnoise_BB28_5
	movzwl	420(%rdi), %r8d
	cmpq	$416, %r8
	ja	.Lnoise_BB28_5
	cmpb	$8, 846(%rdi)
	ja	.Lnoise_BB28_5
	cmpb	$9, 557(%rdi)
	ja	.Lnoise_BB28_5
	leaq	4(%rdi), %rdx
	leaq	208(%rsp), %rcx
	callq	"noise_c::patterns::pattern_of"
	cmpb	$0, 208(%rsp)
	je	.Lnoise_BB28_7
.Lnoise_BB28_5:
	movl	$23, %eax
.Lnoise_BB28_6:
	movaps	3232(%rsp), %xmm6
	addq	$3256, %rsp
	popq	%rbx
	popq	%rbp
	popq	%rdi
	popq	%rsi
	popq	%r12
	popq	%r13
	popq	%r14
	popq	%r15
	retq
.Lnoise_BB28_7:
	leaq	216(%rsp), %r8
	leaq	624(%rsp), %rcx
	movq	%rdi, %rdx
	callq	"noise_c::from_c::restored"
	movzbl	624(%rsp), %ebx
	leaq	632(%rsp), %rdx
	leaq	2368(%rsp), %rcx
	movl	$864, %r8d
	callq	memcpy
	movl	$23, %eax
	cmpb	$1, %bl
	jne	.Lnoise_BB28_6
	leaq	1504(%rsp), %rcx
	leaq	2368(%rsp), %rdx
	movl	$864, %r8d
	callq	memcpy
	movl	$24, %eax
	cmpq	$65536, %r14
	jae	.Lnoise_BB28_6
	movl	$13, %eax
	cmpb	$0, 2193(%rsp)
	jne	.Lnoise_BB28_6
	movzbl	2192(%rsp), %ecx
	movl	$12, %eax
	cmpq	%rcx, 1768(%rsp)
	je	.Lnoise_BB28_6
	cmpb	$0, 1808(%rsp)
	sete	%dl
	xorb	%cl, %dl
	movl	$10, %eax
	testb	$1, %dl
	jne	.Lnoise_BB28_6
	leaq	2200(%rsp), %r12
	movq	2240(%rsp), %rbx
	movq	2176(%rsp), %r13
	movq	2184(%rsp), %rbp
	subq	%rbp, %r13
	movq	%r12, %rcx
	movq	%rbx, %rdx
	movq	%r13, %r8
	callq	"noise_handshake::layout::psk_after"
	testb	%al, %al
	je	.Lnoise_BB28_19
	xorl	%ecx, %ecx
	cmpb	$1, %al
	movzbl	%dl, %eax
	cmoveq	%rax, %rcx
	movq	$0, 144(%rsp)
	movw	$0, 152(%rsp)
	movq	$0, 96(%rsp)
	movb	$0, 104(%rsp)
	shlq	$5, %rbp
	leaq	(%rsp,%rbp), %rax
	addq	$1888, %rax
	leaq	1776(%rsp), %r9
	xorps	%xmm0, %xmm0
	movaps	%xmm0, 496(%rsp)
	movq	$0, 512(%rsp)
	movups	3120(%rsp), %xmm0
	movups	3136(%rsp), %xmm1
	movups	3152(%rsp), %xmm2
	movups	3168(%rsp), %xmm3
	movaps	%xmm0, 560(%rsp)
	movaps	%xmm1, 576(%rsp)
	movaps	%xmm2, 592(%rsp)
	movaps	%xmm3, 608(%rsp)
	movzbl	2320(%rsp), %edx
	movq	2360(%rsp), %r8
	movaps	%xmm0, 624(%rsp)
	movaps	%xmm1, 640(%rsp)
	movaps	%xmm2, 656(%rsp)
	movaps	%xmm3, 672(%rsp)
	movb	%dl, 688(%rsp)
	movups	3185(%rsp), %xmm0
	movups	3201(%rsp), %xmm1
	movups	%xmm1, 705(%rsp)
	movups	%xmm0, 689(%rsp)
	movl	$0, 724(%rsp)
	movl	$0, 721(%rsp)
	movq	%r8, 728(%rsp)
	movzbl	1816(%rsp), %edx
	movups	2681(%rsp), %xmm0
	movups	2697(%rsp), %xmm1
	movups	%xmm1, 225(%rsp)
	movups	%xmm0, 209(%rsp)
	movzbl	1849(%rsp), %r8d
	movdqu	2714(%rsp), %xmm0
	movdqu	2730(%rsp), %xmm1
	movdqu	%xmm1, 258(%rsp)
	movdqu	%xmm0, 242(%rsp)
	movb	%dl, 208(%rsp)
	movb	%r8b, 241(%rsp)
	movq	%r14, 72(%rsp)
	movq	%r15, 64(%rsp)
	movq	%rcx, 56(%rsp)
	movq	%r12, 48(%rsp)
	movq	%r13, 40(%rsp)
	movq	%rax, 32(%rsp)
	leaq	496(%rsp), %rcx
	leaq	624(%rsp), %rdx
	leaq	208(%rsp), %r8
	callq	"noise_handshake::reader::read_tokens::<#3dfcfe118667ed30>"
	cmpb	$0, 496(%rsp)
	setne	%dl
	je	.Lnoise_BB28_25
	movq	504(%rsp), %rdi
	movzbl	512(%rsp), %r9d
	cmpb	$2, %r9b
	setne	%al
	cmpq	%rbx, %rdi
	setae	%cl
	orb	%al, %cl
	jne	.Lnoise_BB28_79
	movzbl	2200(%rsp,%rdi,4), %r11d
	cmpb	$0, 1808(%rsp)
	je	.Lnoise_BB28_31
	movl	%r11d, %eax
	andb	$-2, %al
	cmpb	$4, %al
	jne	.Lnoise_BB28_38
	cmpb	$1, 241(%rsp)
	jne	.Lnoise_BB28_79
	movd	242(%rsp), %xmm1
	movq	246(%rsp), %xmm6
	movsd	254(%rsp), %xmm2
	movzbl	262(%rsp), %r8d
	movq	263(%rsp), %r9
	movzbl	271(%rsp), %eax
	movzwl	272(%rsp), %r10d
	jmp	.Lnoise_BB28_40
.Lnoise_BB28_19:
	shlq	$5, %rbp
	leaq	(%rsp,%rbp), %rax
	addq	$1888, %rax
	movups	3120(%rsp), %xmm0
	movups	3136(%rsp), %xmm1
	movups	3152(%rsp), %xmm2
	movups	3168(%rsp), %xmm3
	movaps	%xmm0, 560(%rsp)
	movaps	%xmm1, 576(%rsp)
	movaps	%xmm2, 592(%rsp)
	movaps	%xmm3, 608(%rsp)
	movzbl	2320(%rsp), %ecx
	movq	2360(%rsp), %rdx
	movaps	%xmm0, 624(%rsp)
	movaps	%xmm1, 640(%rsp)
	movaps	%xmm2, 656(%rsp)
	movaps	%xmm3, 672(%rsp)
	movb	%cl, 688(%rsp)
	movups	3185(%rsp), %xmm0
	movups	3201(%rsp), %xmm1
	movups	%xmm1, 705(%rsp)
	movups	%xmm0, 689(%rsp)
	movl	$0, 724(%rsp)
	movl	$0, 721(%rsp)
	movq	%rdx, 728(%rsp)
	movzbl	1816(%rsp), %ecx
	movups	2681(%rsp), %xmm0
	movups	2697(%rsp), %xmm1
	movups	%xmm1, 225(%rsp)
	movups	%xmm0, 209(%rsp)
	movzbl	1849(%rsp), %edx
	movdqu	2714(%rsp), %xmm0
	movdqu	2730(%rsp), %xmm1
	movdqu	%xmm1, 258(%rsp)
	movdqu	%xmm0, 242(%rsp)
	movb	%cl, 208(%rsp)
	movb	%dl, 241(%rsp)
	leaq	1776(%rsp), %r9
	pxor	%xmm6, %xmm6
	movdqa	%xmm6, 144(%rsp)
	movq	$0, 160(%rsp)
	movq	%r14, 72(%rsp)
	movq	%r15, 64(%rsp)
	movq	%rbx, 56(%rsp)
	movq	%r12, 48(%rsp)
	movq	%r13, 40(%rsp)
	movq	%rax, 32(%rsp)
	leaq	144(%rsp), %rcx
	leaq	624(%rsp), %rdx
	leaq	208(%rsp), %r8
	callq	"noise_handshake::reader::read_tokens::<#3dfcfe118667ed30>"
	cmpb	$0, 144(%rsp)
	movq	152(%rsp), %rbp
	je	.Lnoise_BB28_26
	movzbl	160(%rsp), %r9d
	cmpb	$2, %r9b
	sete	%al
	cmpq	%rbx, %rbp
	setb	%cl
	andb	%al, %cl
	cmpb	$1, %cl
	jne	.Lnoise_BB28_30
	movzbl	2200(%rsp,%rbp,4), %r10d
	cmpb	$0, 1808(%rsp)
	je	.Lnoise_BB28_44
	movl	%r10d, %eax
	andb	$-2, %al
	cmpb	$4, %al
	jne	.Lnoise_BB28_49
	cmpb	$1, 241(%rsp)
	jne	.Lnoise_BB28_68
	movzbl	242(%rsp), %edx
	movzwl	243(%rsp), %eax
	movd	%eax, %xmm1
	movdqu	245(%rsp), %xmm6
	movzbl	261(%rsp), %r8d
	movd	262(%rsp), %xmm0
	movq	266(%rsp), %rax
	jmp	.Lnoise_BB28_51
.Lnoise_BB28_25:
	movzbl	241(%rsp), %ecx
	movd	242(%rsp), %xmm1
	movq	246(%rsp), %xmm6
	movsd	254(%rsp), %xmm2
	movd	262(%rsp), %xmm0
	movq	266(%rsp), %rax
	jmp	.Lnoise_BB28_43
.Lnoise_BB28_26:
	subq	%rbp, %r14
	pxor	%xmm0, %xmm0
	movdqa	%xmm0, 96(%rsp)
	cmpb	$1, 688(%rsp)
	jne	.Lnoise_BB28_34
	cmpq	$65535, %r14
	ja	.Lnoise_BB28_80
	cmpq	$-1, 728(%rsp)
	je	.Lnoise_BB28_80
	cmpq	$15, %r14
	ja	.Lnoise_BB28_35
	jmp	.Lnoise_BB28_37
.Lnoise_BB28_30:
	xorl	%eax, %eax
	movq	%rbp, %rbx
	xorl	%r8d, %r8d
	xorl	%edx, %edx
	xorl	%ecx, %ecx
	xorl	%r10d, %r10d
	pxor	%xmm0, %xmm0
	jmp	.Lnoise_BB28_70
.Lnoise_BB28_31:
	movl	$87, %eax
	btl	%r11d, %eax
	jae	.Lnoise_BB28_52
	cmpb	$1, 208(%rsp)
	jne	.Lnoise_BB28_79
	movd	209(%rsp), %xmm1
	movq	213(%rsp), %xmm6
	movsd	221(%rsp), %xmm2
	movzbl	229(%rsp), %r8d
	movq	230(%rsp), %r9
	movzbl	238(%rsp), %eax
	movzwl	239(%rsp), %r10d
	jmp	.Lnoise_BB28_54
.Lnoise_BB28_34:
	cmpq	$65535, %r14
	ja	.Lnoise_BB28_80
.Lnoise_BB28_35:
	leaq	688(%rsp), %r13
	addq	%rbp, %r15
	leaq	656(%rsp), %r12
	leaq	496(%rsp), %rcx
	movq	%r12, %rdx
	movq	%r15, %r8
	movq	%r14, %r9
	callq	"noise_state::symmetric::hash_of_both"
	movq	%r14, 40(%rsp)
	movq	%r15, 32(%rsp)
	leaq	96(%rsp), %rcx
	movl	$32, %r9d
	movq	%r13, %rdx
	movq	%r12, %r8
	callq	"noise_state::cipher::CipherState::decrypt"
	cmpb	$0, 96(%rsp)
	je	.Lnoise_BB28_47
	movzbl	97(%rsp), %eax
	decb	%al
	cmpb	$2, %al
	jae	.Lnoise_BB28_80
.Lnoise_BB28_37:
	cmpq	$16, %r14
	setae	%r9b
	pxor	%xmm0, %xmm0
	xorl	%eax, %eax
	jmp	.Lnoise_BB28_69
.Lnoise_BB28_38:
	cmpb	$1, 208(%rsp)
	jne	.Lnoise_BB28_79
	movd	209(%rsp), %xmm1
	movq	213(%rsp), %xmm6
	movsd	221(%rsp), %xmm2
	movzbl	229(%rsp), %r8d
	movq	230(%rsp), %r9
	movzbl	238(%rsp), %eax
	movzwl	239(%rsp), %r10d
.Lnoise_BB28_40:
	movb	$1, %cl
	movl	$87, %edi
	btl	%r11d, %edi
	jae	.Lnoise_BB28_42
.Lnoise_BB28_41:
	xorl	%ecx, %ecx
.Lnoise_BB28_42:
	movq	%r9, 96(%rsp)
	movb	%al, 104(%rsp)
	movq	97(%rsp), %r11
	movq	%r11, 144(%rsp)
	movw	%r10w, 152(%rsp)
	movq	146(%rsp), %rax
	movzbl	%r8b, %r8d
	movzbl	%r9b, %r9d
	shll	$8, %r9d
	orl	%r8d, %r9d
	movzbl	%r11b, %r8d
	shll	$16, %r8d
	orl	%r9d, %r8d
	shll	$16, %r11d
	andl	$-16777216, %r11d
	orl	%r8d, %r11d
	movd	%r11d, %xmm0
.Lnoise_BB28_43:
	movaps	%xmm2, 128(%rsp)
	movzbl	128(%rsp), %r9d
	movzbl	129(%rsp), %r10d
	movzbl	130(%rsp), %r11d
	movzbl	131(%rsp), %ebx
	movzbl	132(%rsp), %edi
	movzbl	133(%rsp), %ebp
	movzbl	134(%rsp), %r14d
	movzbl	135(%rsp), %r8d
	jmp	.Lnoise_BB28_72
.Lnoise_BB28_44:
	movl	$87, %eax
	btl	%r10d, %eax
	jae	.Lnoise_BB28_63
	cmpb	$1, 208(%rsp)
	jne	.Lnoise_BB28_68
	movzbl	209(%rsp), %edx
	movzwl	210(%rsp), %eax
	movd	%eax, %xmm1
	movdqu	212(%rsp), %xmm6
	movzbl	228(%rsp), %r8d
	movd	229(%rsp), %xmm0
	movq	233(%rsp), %rax
	jmp	.Lnoise_BB28_65
.Lnoise_BB28_47:
	leaq	2256(%rsp), %r14
	leaq	209(%rsp), %r15
	movq	104(%rsp), %rax
	movq	%rax, 488(%rsp)
	movups	496(%rsp), %xmm0
	movups	512(%rsp), %xmm1
	movups	%xmm1, 16(%r12)
	movups	%xmm0, (%r12)
	movzbl	688(%rsp), %r9d
	movzbl	208(%rsp), %r13d
	movzbl	241(%rsp), %eax
	movb	%al, 94(%rsp)
	movzbl	2250(%rsp), %ebx
	addq	2184(%rsp), %rbx
	movq	%rbx, 2184(%rsp)
	movzbl	1809(%rsp), %r8d
	movzbl	2192(%rsp), %r12d
	incb	%r12b
	movb	%r12b, 2192(%rsp)
	movb	%r12b, 32(%rsp)
	leaq	496(%rsp), %rcx
	leaq	1504(%rsp), %rdx
	movb	%r9b, 95(%rsp)
	callq	"noise_handshake::layout::lay_next"
	movaps	624(%rsp), %xmm0
	movaps	640(%rsp), %xmm1
	movaps	656(%rsp), %xmm2
	movaps	672(%rsp), %xmm3
	movups	%xmm3, 48(%r14)
	movups	%xmm2, 32(%r14)
	movups	%xmm1, 16(%r14)
	movups	%xmm0, (%r14)
	leaq	689(%rsp), %rax
	movups	(%rax), %xmm0
	movups	16(%rax), %xmm1
	movups	31(%rax), %xmm2
	movups	%xmm2, 96(%r14)
	movups	%xmm1, 81(%r14)
	movups	%xmm0, 65(%r14)
	movups	(%r15), %xmm0
	movups	16(%r15), %xmm1
	movups	%xmm1, -423(%r14)
	movups	%xmm0, -439(%r14)
	movups	33(%r15), %xmm0
	movups	49(%r15), %xmm1
	movups	%xmm1, -390(%r14)
	movups	%xmm0, -406(%r14)
	movq	%rbp, (%rsi)
	movq	488(%rsp), %rax
	movq	%rax, 8(%rsi)
	movl	2176(%rsp), %ecx
	subl	%ebx, %ecx
	cmpb	$1, %r13b
	jne	.Lnoise_BB28_55
	movups	-439(%r14), %xmm0
	movups	-423(%r14), %xmm1
	movaps	%xmm1, 192(%rsp)
	jmp	.Lnoise_BB28_56
.Lnoise_BB28_49:
	cmpb	$1, 208(%rsp)
	jne	.Lnoise_BB28_68
	movzbl	209(%rsp), %edx
	movzwl	210(%rsp), %eax
	movd	%eax, %xmm1
	movdqu	212(%rsp), %xmm6
	movzbl	228(%rsp), %r8d
	movd	229(%rsp), %xmm0
	movq	233(%rsp), %rax
.Lnoise_BB28_51:
	movb	$1, %cl
	movb	$2, %r9b
	movl	$87, %r11d
	btl	%r10d, %r11d
	jb	.Lnoise_BB28_78
	jmp	.Lnoise_BB28_67
.Lnoise_BB28_52:
	cmpb	$1, 241(%rsp)
	jne	.Lnoise_BB28_79
	movd	242(%rsp), %xmm1
	movq	246(%rsp), %xmm6
	movsd	254(%rsp), %xmm2
	movzbl	262(%rsp), %r8d
	movq	263(%rsp), %r9
	movzbl	271(%rsp), %eax
	movzwl	272(%rsp), %r10d
.Lnoise_BB28_54:
	andb	$-2, %r11b
	movb	$1, %cl
	cmpb	$4, %r11b
	jne	.Lnoise_BB28_41
	jmp	.Lnoise_BB28_42
.Lnoise_BB28_55:
	xorps	%xmm0, %xmm0
	movaps	%xmm0, 192(%rsp)
.Lnoise_BB28_56:
	movaps	%xmm0, 176(%rsp)
	leaq	2288(%rsp), %rdx
	movzbl	2193(%rsp), %r8d
	movq	2360(%rsp), %rax
	movb	%r13b, 491(%rdi)
	movaps	176(%rsp), %xmm0
	movaps	192(%rsp), %xmm1
	movups	%xmm0, 492(%rdi)
	movups	%xmm1, 508(%rdi)
	cmpb	$1, 94(%rsp)
	jne	.Lnoise_BB28_58
	movups	-406(%r14), %xmm0
	movups	-390(%r14), %xmm1
	movaps	%xmm1, 640(%rsp)
	jmp	.Lnoise_BB28_59
.Lnoise_BB28_58:
	xorps	%xmm0, %xmm0
	movaps	%xmm0, 640(%rsp)
.Lnoise_BB28_59:
	movaps	%xmm0, 624(%rsp)
	movaps	624(%rsp), %xmm0
	movaps	640(%rsp), %xmm1
	movaps	%xmm1, 192(%rsp)
	movaps	%xmm0, 176(%rsp)
	movzbl	94(%rsp), %r9d
	movb	%r9b, 524(%rdi)
	movaps	176(%rsp), %xmm0
	movaps	192(%rsp), %xmm1
	movups	%xmm0, 525(%rdi)
	movups	%xmm1, 541(%rdi)
	movb	%cl, 557(%rdi)
	movb	%r12b, 424(%rdi)
	movb	%r8b, 423(%rdi)
	movups	(%r14), %xmm0
	movups	16(%r14), %xmm1
	movups	%xmm0, 1367(%rdi)
	movups	%xmm1, 1383(%rdi)
	movups	(%rdx), %xmm0
	movups	16(%rdx), %xmm1
	movups	%xmm0, 1399(%rdi)
	movups	%xmm1, 1415(%rdi)
	cmpb	$1, 95(%rsp)
	jne	.Lnoise_BB28_61
	movups	65(%r14), %xmm0
	movups	81(%r14), %xmm1
	movaps	%xmm1, 640(%rsp)
	jmp	.Lnoise_BB28_62
.Lnoise_BB28_61:
	xorps	%xmm0, %xmm0
	movaps	%xmm0, 640(%rsp)
.Lnoise_BB28_62:
	movaps	%xmm0, 624(%rsp)
	movaps	624(%rsp), %xmm0
	movaps	640(%rsp), %xmm1
	movaps	%xmm1, 192(%rsp)
	movaps	%xmm0, 176(%rsp)
	movzbl	95(%rsp), %ecx
	movb	%cl, 1431(%rdi)
	movdqa	176(%rsp), %xmm0
	movdqa	192(%rsp), %xmm1
	movdqu	%xmm0, 1432(%rdi)
	movdqu	%xmm1, 1448(%rdi)
	movq	%rax, 1464(%rdi)
	xorl	%eax, %eax
	jmp	.Lnoise_BB28_6
.Lnoise_BB28_63:
	cmpb	$1, 241(%rsp)
	jne	.Lnoise_BB28_68
	movzbl	242(%rsp), %edx
	movzwl	243(%rsp), %eax
	movd	%eax, %xmm1
	movdqu	245(%rsp), %xmm6
	movzbl	261(%rsp), %r8d
	movd	262(%rsp), %xmm0
	movq	266(%rsp), %rax
.Lnoise_BB28_65:
	andb	$-2, %r10b
	cmpb	$4, %r10b
	jne	.Lnoise_BB28_78
	movb	$1, %cl
	movb	$2, %r9b
.Lnoise_BB28_67:
	movq	%rbp, %rbx
	movb	$1, %r10b
	movdqa	%xmm6, 112(%rsp)
	movq	%rbx, %rdi
	testb	%r10b, %r10b
	je	.Lnoise_BB28_79
	jmp	.Lnoise_BB28_71
.Lnoise_BB28_68:
	pxor	%xmm0, %xmm0
	movb	$2, %r9b
	xorl	%eax, %eax
	movq	%rbp, %rbx
.Lnoise_BB28_69:
	xorl	%r8d, %r8d
	xorl	%edx, %edx
	xorl	%ecx, %ecx
	xorl	%r10d, %r10d
	pxor	%xmm6, %xmm6
.Lnoise_BB28_70:
	pxor	%xmm1, %xmm1
	movdqa	%xmm6, 112(%rsp)
	movq	%rbx, %rdi
	testb	%r10b, %r10b
	je	.Lnoise_BB28_79
.Lnoise_BB28_71:
	movzbl	121(%rsp), %r9d
	movzbl	122(%rsp), %r10d
	movzbl	123(%rsp), %r11d
	movzbl	124(%rsp), %ebx
	movzbl	125(%rsp), %edi
	movzbl	126(%rsp), %ebp
	movzbl	127(%rsp), %r14d
	movzbl	%dl, %edx
	movd	%xmm1, %r15d
	movzbl	%r15b, %r12d
	shll	$8, %r12d
	orl	%edx, %r12d
	shll	$8, %r15d
	andl	$16711680, %r15d
	orl	%r12d, %r15d
	movl	112(%rsp), %edx
	shll	$24, %edx
	orl	%r15d, %edx
	movd	%edx, %xmm1
	psrldq	$1, %xmm6
	movb	$1, %dl
.Lnoise_BB28_72:
	movzbl	%r8b, %r8d
	shlq	$56, %r8
	movzbl	%r14b, %r14d
	shlq	$48, %r14
	orq	%r8, %r14
	movzbl	%bpl, %r8d
	shlq	$40, %r8
	orq	%r14, %r8
	movzbl	%dil, %edi
	shlq	$32, %rdi
	orq	%r8, %rdi
	movzbl	%bl, %r8d
	shll	$24, %r8d
	orq	%rdi, %r8
	movzbl	%r11b, %r11d
	shll	$16, %r11d
	orq	%r8, %r11
	movzbl	%r10b, %r10d
	shll	$8, %r10d
	orq	%r11, %r10
	movzbl	%r9b, %r8d
	orq	%r10, %r8
	testb	%dl, %dl
	je	.Lnoise_BB28_74
	movb	%cl, 17(%rsi)
	movd	%xmm1, 18(%rsi)
	movq	%xmm6, 22(%rsi)
	movq	%r8, 30(%rsi)
	movd	%xmm0, 38(%rsi)
	movq	%rax, 42(%rsi)
	movl	$20, %eax
	jmp	.Lnoise_BB28_6
.Lnoise_BB28_74:
	cmpb	$1, %cl
	jne	.Lnoise_BB28_76
	movq	%xmm6, %rdx
	jmp	.Lnoise_BB28_77
.Lnoise_BB28_76:
	pxor	%xmm1, %xmm1
	xorl	%eax, %eax
	xorl	%r8d, %r8d
	xorl	%edx, %edx
	pxor	%xmm0, %xmm0
.Lnoise_BB28_77:
	movd	%xmm1, 18(%rsi)
	movq	%rdx, 22(%rsi)
	movq	%r8, 30(%rsi)
	movd	%xmm0, 38(%rsi)
	movq	%rax, 42(%rsi)
	movb	%cl, 50(%rsi)
	movl	$40, %eax
	jmp	.Lnoise_BB28_6
.Lnoise_BB28_78:
	movb	$1, %r10b
	movb	$2, %r9b
	xorl	%ecx, %ecx
	movq	%rbp, %rbx
	movdqa	%xmm6, 112(%rsp)
	movq	%rbx, %rdi
	testb	%r10b, %r10b
	jne	.Lnoise_BB28_71
.Lnoise_BB28_79:
	movzbl	%r9b, %eax
	leaq	".Lnoise_switch.table.noise_c::messages::read_next"(%rip), %rcx
	movl	(%rcx,%rax,4), %eax
	movb	%dil, 16(%rsi)
	jmp	.Lnoise_BB28_6
.Lnoise_BB28_80:
	ud2
	.seh_endproc

	.def	"noise_handshake::layout::psk_after";
	.scl	3;
	.type	32;
	.endef
	.p2align	4
"noise_handshake::layout::psk_after":
.seh_proc "noise_handshake::layout::psk_after"
	subq	$40, %rsp
	.seh_stackalloc 40
	.seh_endprologue
	testq	%rdx, %rdx
	je	.Lnoise_BB29_5
	movq	%rcx, %rax
	addq	$4, %rcx
	decq	%rdx
	cmpb	$6, (%rax)
	jne	.Lnoise_BB29_4
	testq	%r8, %r8
	je	.Lnoise_BB29_7
	decq	%r8
.Lnoise_BB29_4:
	callq	"noise_handshake::layout::psk_after"
	movq	%rdx, %rcx
	incq	%rcx
	xorl	%edx, %edx
	cmpb	$1, %al
	sete	%al
	cmoveq	%rcx, %rdx
	addq	$40, %rsp
	retq
.Lnoise_BB29_5:
	xorl	%edx, %edx
	xorl	%eax, %eax
	addq	$40, %rsp
	retq
.Lnoise_BB29_7:
	movb	$1, %al
	xorl	%edx, %edx
	addq	$40, %rsp
	retq
	.seh_endproc

	.def	"noise_handshake::reader::read_tokens::<#3dfcfe118667ed30>";
	.scl	3;
	.type	32;
	.endef
	.p2align	4
"noise_handshake::reader::read_tokens::<#3dfcfe118667ed30>":
.seh_proc "noise_handshake::reader::read_tokens::<#3dfcfe118667ed30>"
	pushq	%r15
	.seh_pushreg %r15
	pushq	%r14
	.seh_pushreg %r14
	pushq	%r13
	.seh_pushreg %r13
	pushq	%r12
	.seh_pushreg %r12
	pushq	%rsi
	.seh_pushreg %rsi
	pushq	%rdi
	.seh_pushreg %rdi
	pushq	%rbp
	.seh_pushreg %rbp
	pushq	%rbx
	.seh_pushreg %rbx
	subq	$840, %rsp
	.seh_stackalloc 840
	movaps	%xmm6, 816(%rsp)
	.seh_savexmm %xmm6, 816
	.seh_endprologue
	movq	%rcx, %rsi
	movq	968(%rsp), %r12
	movl	$0, 115(%rsp)
	movl	$0, 112(%rsp)
	xorps	%xmm0, %xmm0
	movaps	%xmm0, 160(%rsp)
	movq	$0, 176(%rsp)
	movl	$0, 96(%rsp)
	movl	$0, 99(%rsp)
	movl	$0, 104(%rsp)
	movl	$0, 107(%rsp)
	testq	%r12, %r12
	je	.Lnoise_BB30_41
	movq	984(%rsp), %r15
	movq	976(%rsp), %r14
	movq	960(%rsp), %r13
	movq	944(%rsp), %rdi
	movzwl	2(%r13), %ecx
	leaq	(%r14,%rcx), %rbx
	movq	%r15, %rax
	subq	%rcx, %rax
	movl	(%r13), %ecx
	movzbl	%cl, %r10d
	leaq	.Lnoise_JTI30_0(%rip), %r11
	movslq	(%r11,%r10,4), %r10
	addq	%r11, %r10
	jmpq	*%r10
.Lnoise_BB30_20:
	cmpb	$0, 32(%r9)
	je	.Lnoise_BB30_21
	movl	%ecx, %eax
	andb	$-2, %al
	cmpb	$4, %al
	jne	.Lnoise_BB30_23
	cmpb	$1, 33(%r8)
	jne	.Lnoise_BB30_38
	movq	%rdx, %rbx
	movups	34(%r8), %xmm0
	movups	50(%r8), %xmm1
	jmp	.Lnoise_BB30_25
.Lnoise_BB30_41:
	movups	%xmm0, (%rsi)
	movq	$0, 16(%rsi)
	jmp	.Lnoise_BB30_42
.Lnoise_BB30_21:
	movzbl	%cl, %eax
	addl	$-2, %eax
	leaq	.Lnoise_JTI30_1(%rip), %r10
	movslq	(%r10,%rax,4), %rax
	addq	%r10, %rax
	jmpq	*%rax
.Lnoise_BB30_37:
	cmpb	$1, (%r8)
	jne	.Lnoise_BB30_38
	movq	%rdx, %rbx
	movups	1(%r8), %xmm0
	movups	17(%r8), %xmm1
	jmp	.Lnoise_BB30_31
.Lnoise_BB30_23:
	cmpb	$1, (%r8)
	jne	.Lnoise_BB30_38
	movq	%rdx, %rbx
	movups	1(%r8), %xmm0
	movups	17(%r8), %xmm1
.Lnoise_BB30_25:
	movaps	%xmm1, 560(%rsp)
	movaps	%xmm0, 544(%rsp)
	movq	%r8, 80(%rsp)
	shll	$3, %ecx
	addb	$-16, %cl
	movl	$16777472, %eax
	shrl	%cl, %eax
	jmp	.Lnoise_BB30_32
.Lnoise_BB30_2:
	cmpq	$32, %rax
	jae	.Lnoise_BB30_4
	movb	$1, %al
	xorl	%ebp, %ebp
	jmp	.Lnoise_BB30_5
.Lnoise_BB30_7:
	movzbl	%ch, %ebp
	cmpq	%rbp, %rax
	jae	.Lnoise_BB30_9
	movb	$1, %al
	xorl	%ecx, %ecx
	xorl	%ebp, %ebp
	jmp	.Lnoise_BB30_6
.Lnoise_BB30_19:
	movq	%r8, 80(%rsp)
	movq	%r9, 88(%rsp)
	movq	%rdx, %rcx
	movq	%rdx, %rbx
	movq	%rdi, %rdx
	callq	"noise_state::symmetric::SymmetricState::mix_key_and_hash"
	movq	%rbx, %rdx
	jmp	.Lnoise_BB30_34
.Lnoise_BB30_26:
	cmpb	$1, 33(%r8)
	jne	.Lnoise_BB30_38
	movq	%rdx, %rbx
	movups	34(%r8), %xmm0
	movups	50(%r8), %xmm1
.Lnoise_BB30_31:
	movaps	%xmm1, 560(%rsp)
	movaps	%xmm0, 544(%rsp)
	movq	%r8, 80(%rsp)
	andb	$-2, %cl
	cmpb	$4, %cl
	sete	%al
.Lnoise_BB30_32:
	movq	16(%r9), %rdx
	movq	%r9, 88(%rsp)
	movq	24(%r9), %r8
	leaq	544(%rsp), %rcx
	movq	%rcx, 32(%rsp)
	leaq	208(%rsp), %rcx
	movl	%eax, %r9d
	callq	"noise_c::supplied_keys::result_for"
	movzbl	208(%rsp), %eax
	movups	209(%rsp), %xmm0
	movaps	%xmm0, 512(%rsp)
	movups	225(%rsp), %xmm0
	movaps	%xmm0, 528(%rsp)
	cmpb	$1, %al
	jne	.Lnoise_BB30_38
	movaps	512(%rsp), %xmm0
	movaps	528(%rsp), %xmm1
	movaps	%xmm1, 768(%rsp)
	movaps	%xmm0, 752(%rsp)
	xorps	%xmm6, %xmm6
	movaps	%xmm6, 544(%rsp)
	movaps	%xmm6, 560(%rsp)
	movaps	%xmm6, 576(%rsp)
	movaps	%xmm6, 592(%rsp)
	movaps	%xmm6, 608(%rsp)
	movaps	%xmm6, 624(%rsp)
	movaps	%xmm6, 640(%rsp)
	movaps	%xmm6, 656(%rsp)
	movaps	%xmm6, 672(%rsp)
	movaps	%xmm6, 688(%rsp)
	movaps	%xmm6, 704(%rsp)
	movaps	%xmm6, 720(%rsp)
	movaps	%xmm6, 736(%rsp)
	leaq	752(%rsp), %rax
	movq	%rax, 192(%rsp)
	movq	$32, 200(%rsp)
	movaps	%xmm6, 784(%rsp)
	movaps	%xmm6, 800(%rsp)
	movaps	%xmm6, 208(%rsp)
	movaps	%xmm6, 224(%rsp)
	movaps	%xmm6, 240(%rsp)
	movaps	%xmm6, 256(%rsp)
	movaps	%xmm6, 272(%rsp)
	movaps	%xmm6, 288(%rsp)
	movaps	%xmm6, 304(%rsp)
	movaps	%xmm6, 320(%rsp)
	movaps	%xmm6, 336(%rsp)
	movaps	%xmm6, 352(%rsp)
	movaps	%xmm6, 368(%rsp)
	movaps	%xmm6, 384(%rsp)
	movaps	%xmm6, 400(%rsp)
	leaq	208(%rsp), %r14
	movq	%r14, %rcx
	movq	%rbx, %rdx
	callq	"noise_kdf::keyed::Hmac::new"
	movq	%r15, %rbp
	leaq	784(%rsp), %r15
	leaq	192(%rsp), %r8
	movl	$1, %r9d
	movq	%r15, %rcx
	movq	%r14, %rdx
	callq	"noise_kdf::keyed::Hmac::code"
	leaq	544(%rsp), %r14
	movq	%r14, %rcx
	movq	%r15, %rdx
	movq	%rbp, %r15
	callq	"noise_kdf::keyed::Hmac::new"
	movaps	%xmm6, 448(%rsp)
	movaps	%xmm6, 464(%rsp)
	movaps	%xmm6, 416(%rsp)
	movaps	%xmm6, 432(%rsp)
	leaq	.Lnoise_static.102(%rip), %r8
	leaq	416(%rsp), %rcx
	movl	$1, %r9d
	movq	%r14, %rdx
	callq	"noise_kdf::keyed::Hmac::code"
	movaps	416(%rsp), %xmm0
	movaps	432(%rsp), %xmm1
	movaps	%xmm1, 144(%rsp)
	movaps	%xmm0, 128(%rsp)
	leaq	128(%rsp), %rax
	movq	%rax, 480(%rsp)
	movq	$32, 488(%rsp)
	leaq	.Lnoise_static.103(%rip), %rax
	movq	%rax, 496(%rsp)
	movq	$1, 504(%rsp)
	leaq	448(%rsp), %rcx
	leaq	480(%rsp), %r8
	movl	$2, %r9d
	movq	%r14, %rdx
	movq	976(%rsp), %r14
	callq	"noise_kdf::keyed::Hmac::code"
	movq	%rbx, %rdx
	movaps	128(%rsp), %xmm0
	movaps	144(%rsp), %xmm1
	movaps	%xmm1, 224(%rsp)
	movaps	%xmm0, 208(%rsp)
	movaps	448(%rsp), %xmm2
	movaps	464(%rsp), %xmm3
	movaps	%xmm2, 240(%rsp)
	movaps	%xmm3, 256(%rsp)
	movups	%xmm1, 16(%rbx)
	movups	%xmm0, (%rbx)
	movb	$1, 64(%rbx)
	movaps	240(%rsp), %xmm0
	movaps	256(%rsp), %xmm1
	movups	%xmm0, 65(%rbx)
	movups	%xmm1, 81(%rbx)
	movq	$0, 104(%rbx)
.Lnoise_BB30_34:
	xorl	%ebp, %ebp
	movq	88(%rsp), %r9
	movq	80(%rsp), %r8
	jmp	.Lnoise_BB30_35
.Lnoise_BB30_38:
	movb	$2, %cl
	jmp	.Lnoise_BB30_39
.Lnoise_BB30_4:
	movzbl	33(%r9), %eax
	movq	%rdx, %rcx
	movq	%rdx, %r14
	movl	%eax, %edx
	movq	%r8, %r15
	movq	%rbx, %r8
	movq	%r9, %rbp
	callq	"noise_handshake::tokens::mix_ephemeral"
	movq	%r14, %rdx
	movq	976(%rsp), %r14
	movq	%r15, %r8
	movq	984(%rsp), %r15
	movq	%rbp, %r9
	movups	(%rbx), %xmm0
	movups	16(%rbx), %xmm1
	movaps	%xmm1, 224(%rsp)
	movaps	%xmm0, 208(%rsp)
	movb	$1, (%r8)
	movaps	208(%rsp), %xmm0
	movaps	224(%rsp), %xmm1
	movups	%xmm0, 1(%r8)
	movups	%xmm1, 17(%r8)
	movl	$32, %ebp
	xorl	%eax, %eax
.Lnoise_BB30_5:
	xorl	%ecx, %ecx
	jmp	.Lnoise_BB30_6
.Lnoise_BB30_9:
	movq	%rcx, %r15
	movq	%r8, 80(%rsp)
	movq	%r9, 88(%rsp)
	xorps	%xmm6, %xmm6
	movaps	%xmm6, 240(%rsp)
	movaps	%xmm6, 224(%rsp)
	movaps	%xmm6, 208(%rsp)
	leaq	208(%rsp), %r14
	movq	%r14, %rcx
	movq	%rdx, 120(%rsp)
	movq	%rbx, %rdx
	movq	%rbp, %r8
	callq	memcpy
	movq	120(%rsp), %rdx
	movaps	%xmm6, 128(%rsp)
	cmpb	$1, 64(%rdx)
	jne	.Lnoise_BB30_13
	cmpq	$-1, 104(%rdx)
	je	.Lnoise_BB30_16
	testl	$61440, %r15d
	je	.Lnoise_BB30_12
.Lnoise_BB30_13:
	leaq	64(%rdx), %r15
	leaq	32(%rdx), %rbx
	leaq	544(%rsp), %rcx
	movq	%rbx, %rdx
	movq	%r14, %r8
	movq	%rbp, %r9
	callq	"noise_state::symmetric::hash_of_both"
	movq	%rbp, 40(%rsp)
	movq	%r14, 32(%rsp)
	leaq	128(%rsp), %rcx
	movl	$32, %r9d
	movq	%r15, %rdx
	movq	%rbx, %r8
	callq	"noise_state::cipher::CipherState::decrypt"
	cmpb	$0, 128(%rsp)
	je	.Lnoise_BB30_17
	movzbl	129(%rsp), %eax
	decb	%al
	cmpb	$2, %al
	movq	88(%rsp), %r9
	movq	80(%rsp), %r8
	movq	976(%rsp), %r14
	movq	984(%rsp), %r15
	jae	.Lnoise_BB30_16
	movb	$1, %al
	xorl	%ebp, %ebp
	movb	$1, %cl
	movq	120(%rsp), %rdx
	jmp	.Lnoise_BB30_6
.Lnoise_BB30_17:
	movups	544(%rsp), %xmm0
	movups	560(%rsp), %xmm1
	movups	%xmm1, 16(%rbx)
	movups	%xmm0, (%rbx)
	movq	80(%rsp), %r8
	movb	$1, 33(%r8)
	movaps	208(%rsp), %xmm0
	movaps	224(%rsp), %xmm1
	movups	%xmm0, 34(%r8)
	movups	%xmm1, 50(%r8)
	xorl	%eax, %eax
	xorl	%ecx, %ecx
	movq	88(%rsp), %r9
	movq	120(%rsp), %rdx
	jmp	.Lnoise_BB30_18
.Lnoise_BB30_12:
	movb	$1, %al
	xorl	%ebp, %ebp
	movb	$1, %cl
	movq	88(%rsp), %r9
	movq	80(%rsp), %r8
.Lnoise_BB30_18:
	movq	976(%rsp), %r14
	movq	984(%rsp), %r15
.Lnoise_BB30_6:
	testb	%al, %al
	je	.Lnoise_BB30_35
.Lnoise_BB30_39:
	movq	$1, (%rsi)
	movq	$0, 8(%rsi)
	movb	%cl, 16(%rsi)
	movl	112(%rsp), %eax
	movl	115(%rsp), %ecx
	jmp	.Lnoise_BB30_40
.Lnoise_BB30_35:
	movq	952(%rsp), %rax
	leaq	4(%r13), %rcx
	decq	%r12
	xorl	%r10d, %r10d
	cmpb	$6, (%r13)
	sete	%r10b
	subq	%r10, %rax
	shll	$5, %r10d
	addq	%r10, %rdi
	movq	%r15, 72(%rsp)
	movq	%r14, 64(%rsp)
	movq	%r12, 56(%rsp)
	movq	%rcx, 48(%rsp)
	movq	%rax, 40(%rsp)
	movq	%rdi, 32(%rsp)
	leaq	160(%rsp), %rcx
	callq	"noise_handshake::reader::read_tokens::<#3dfcfe118667ed30>"
	movzbl	160(%rsp), %eax
	movq	168(%rsp), %rcx
	testq	%rax, %rax
	je	.Lnoise_BB30_36
	movzbl	176(%rsp), %edx
	movl	104(%rsp), %r8d
	movl	107(%rsp), %r9d
	movl	%r8d, 96(%rsp)
	movl	%r9d, 99(%rsp)
	movl	$1, %ebp
	jmp	.Lnoise_BB30_44
.Lnoise_BB30_36:
	xorl	%edx, %edx
.Lnoise_BB30_44:
	addq	%rbp, %rcx
	movq	%rax, (%rsi)
	movq	%rcx, 8(%rsi)
	movb	%dl, 16(%rsi)
	movl	96(%rsp), %eax
	movl	99(%rsp), %ecx
.Lnoise_BB30_40:
	movl	%eax, 17(%rsi)
	movl	%ecx, 20(%rsi)
.Lnoise_BB30_42:
	movaps	816(%rsp), %xmm6
	addq	$840, %rsp
	popq	%rbx
	popq	%rbp
	popq	%rdi
	popq	%rsi
	popq	%r12
	popq	%r13
	popq	%r14
	popq	%r15
	retq
.Lnoise_BB30_16:
	ud2
	.section	.rdata,"dr"
	.p2align	2, 0x0
.Lnoise_JTI30_0:
	.long	.Lnoise_BB30_2-.Lnoise_JTI30_0
	.long	.Lnoise_BB30_7-.Lnoise_JTI30_0
	.long	.Lnoise_BB30_20-.Lnoise_JTI30_0
	.long	.Lnoise_BB30_20-.Lnoise_JTI30_0
	.long	.Lnoise_BB30_20-.Lnoise_JTI30_0
	.long	.Lnoise_BB30_20-.Lnoise_JTI30_0
	.long	.Lnoise_BB30_19-.Lnoise_JTI30_0
.Lnoise_JTI30_1:
	.long	.Lnoise_BB30_37-.Lnoise_JTI30_1
	.long	.Lnoise_BB30_26-.Lnoise_JTI30_1
	.long	.Lnoise_BB30_37-.Lnoise_JTI30_1
	.long	.Lnoise_BB30_26-.Lnoise_JTI30_1
	.text
	.seh_endproc

	.def	"noise_handshake::tokens::mix_ephemeral";
	.scl	3;
	.type	32;
	.endef
	.p2align	4
"noise_handshake::tokens::mix_ephemeral":
.seh_proc "noise_handshake::tokens::mix_ephemeral"
	pushq	%rsi
	.seh_pushreg %rsi
	pushq	%rdi
	.seh_pushreg %rdi
	pushq	%rbx
	.seh_pushreg %rbx
	subq	$640, %rsp
	.seh_stackalloc 640
	movaps	%xmm6, 624(%rsp)
	.seh_savexmm %xmm6, 624
	.seh_endprologue
	movq	%r8, %rdi
	movl	%edx, %ebx
	movq	%rcx, %rsi
	leaq	32(%rcx), %rdx
	leaq	176(%rsp), %rcx
	movl	$32, %r9d
	callq	"noise_state::symmetric::hash_of_both"
	movups	176(%rsp), %xmm0
	movups	192(%rsp), %xmm1
	movups	%xmm1, 48(%rsi)
	movups	%xmm0, 32(%rsi)
	testb	%bl, %bl
	je	.Lnoise_BB31_2
	xorps	%xmm6, %xmm6
	movaps	%xmm6, 416(%rsp)
	movaps	%xmm6, 432(%rsp)
	movaps	%xmm6, 448(%rsp)
	movaps	%xmm6, 464(%rsp)
	movaps	%xmm6, 480(%rsp)
	movaps	%xmm6, 496(%rsp)
	movaps	%xmm6, 512(%rsp)
	movaps	%xmm6, 528(%rsp)
	movaps	%xmm6, 544(%rsp)
	movaps	%xmm6, 560(%rsp)
	movaps	%xmm6, 576(%rsp)
	movaps	%xmm6, 592(%rsp)
	movaps	%xmm6, 608(%rsp)
	movq	%rdi, 32(%rsp)
	movq	$32, 40(%rsp)
	movaps	%xmm6, 384(%rsp)
	movaps	%xmm6, 400(%rsp)
	movaps	%xmm6, 176(%rsp)
	movaps	%xmm6, 192(%rsp)
	movaps	%xmm6, 208(%rsp)
	movaps	%xmm6, 224(%rsp)
	movaps	%xmm6, 240(%rsp)
	movaps	%xmm6, 256(%rsp)
	movaps	%xmm6, 272(%rsp)
	movaps	%xmm6, 288(%rsp)
	movaps	%xmm6, 304(%rsp)
	movaps	%xmm6, 320(%rsp)
	movaps	%xmm6, 336(%rsp)
	movaps	%xmm6, 352(%rsp)
	movaps	%xmm6, 368(%rsp)
	leaq	176(%rsp), %rdi
	movq	%rdi, %rcx
	movq	%rsi, %rdx
	callq	"noise_kdf::keyed::Hmac::new"
	leaq	384(%rsp), %rbx
	leaq	32(%rsp), %r8
	movl	$1, %r9d
	movq	%rbx, %rcx
	movq	%rdi, %rdx
	callq	"noise_kdf::keyed::Hmac::code"
	leaq	416(%rsp), %rdi
	movq	%rdi, %rcx
	movq	%rbx, %rdx
	callq	"noise_kdf::keyed::Hmac::new"
	movaps	%xmm6, 80(%rsp)
	movaps	%xmm6, 96(%rsp)
	movaps	%xmm6, 48(%rsp)
	movaps	%xmm6, 64(%rsp)
	leaq	.Lnoise_static.102(%rip), %r8
	leaq	48(%rsp), %rcx
	movl	$1, %r9d
	movq	%rdi, %rdx
	callq	"noise_kdf::keyed::Hmac::code"
	movaps	48(%rsp), %xmm0
	movaps	64(%rsp), %xmm1
	movaps	%xmm1, 128(%rsp)
	movaps	%xmm0, 112(%rsp)
	leaq	112(%rsp), %rax
	movq	%rax, 144(%rsp)
	movq	$32, 152(%rsp)
	leaq	.Lnoise_static.103(%rip), %rax
	movq	%rax, 160(%rsp)
	movq	$1, 168(%rsp)
	leaq	80(%rsp), %rcx
	leaq	144(%rsp), %r8
	movl	$2, %r9d
	movq	%rdi, %rdx
	callq	"noise_kdf::keyed::Hmac::code"
	movaps	112(%rsp), %xmm0
	movaps	128(%rsp), %xmm1
	movaps	%xmm1, 192(%rsp)
	movaps	%xmm0, 176(%rsp)
	movaps	80(%rsp), %xmm2
	movaps	96(%rsp), %xmm3
	movaps	%xmm2, 208(%rsp)
	movaps	%xmm3, 224(%rsp)
	movups	%xmm1, 16(%rsi)
	movups	%xmm0, (%rsi)
	movb	$1, 64(%rsi)
	movaps	208(%rsp), %xmm0
	movaps	224(%rsp), %xmm1
	movups	%xmm0, 65(%rsi)
	movups	%xmm1, 81(%rsi)
	movq	$0, 104(%rsi)
.Lnoise_BB31_2:
	movaps	624(%rsp), %xmm6
	addq	$640, %rsp
	popq	%rbx
	popq	%rdi
	popq	%rsi
	retq
	.seh_endproc

	.def	"noise_state::symmetric::hash_of_both";
	.scl	3;
	.type	32;
	.endef
	.section	.rdata,"dr"
	.p2align	4, 0x0
.Lnoise_CPI32_0:
	.long	1779033703
	.long	3144134277
	.long	1013904242
	.long	2773480762
.Lnoise_CPI32_1:
	.long	1359893119
	.long	2600822924
	.long	528734635
	.long	1541459225
	.text
	.p2align	4
"noise_state::symmetric::hash_of_both":
.seh_proc "noise_state::symmetric::hash_of_both"
	pushq	%r14
	.seh_pushreg %r14
	pushq	%rsi
	.seh_pushreg %rsi
	pushq	%rdi
	.seh_pushreg %rdi
	pushq	%rbx
	.seh_pushreg %rbx
	subq	$296, %rsp
	.seh_stackalloc 296
	movdqa	%xmm6, 272(%rsp)
	.seh_savexmm %xmm6, 272
	.seh_endprologue
	movq	%r9, %rdi
	movq	%r8, %rbx
	movq	%rcx, %rsi
	movaps	.Lnoise_CPI32_0(%rip), %xmm0
	movaps	%xmm0, 48(%rsp)
	movaps	.Lnoise_CPI32_1(%rip), %xmm0
	movaps	%xmm0, 64(%rsp)
	pxor	%xmm6, %xmm6
	movdqa	%xmm6, 80(%rsp)
	movdqa	%xmm6, 96(%rsp)
	movdqa	%xmm6, 112(%rsp)
	movdqa	%xmm6, 128(%rsp)
	movq	$0, 144(%rsp)
	leaq	48(%rsp), %r14
	movl	$32, %r8d
	movq	%r14, %rcx
	callq	"sha2::block256::Core256::update"
	movq	%r14, %rcx
	movq	%rbx, %rdx
	movq	%rdi, %r8
	callq	"sha2::block256::Core256::update"
	movq	144(%rsp), %rbx
	movq	%rbx, 256(%rsp)
	movaps	128(%rsp), %xmm0
	movaps	%xmm0, 240(%rsp)
	movaps	112(%rsp), %xmm0
	movaps	%xmm0, 224(%rsp)
	movaps	48(%rsp), %xmm0
	movaps	64(%rsp), %xmm1
	movaps	80(%rsp), %xmm2
	movaps	96(%rsp), %xmm3
	movaps	%xmm3, 208(%rsp)
	movaps	%xmm2, 192(%rsp)
	movaps	%xmm0, 160(%rsp)
	movaps	%xmm1, 176(%rsp)
	movl	$55, %r8d
	subl	%ebx, %r8d
	andl	$63, %r8d
	incq	%r8
	leaq	.Lnoise_static.100(%rip), %rdx
	leaq	160(%rsp), %rdi
	movq	%rdi, %rcx
	callq	"sha2::block256::Core256::update"
	movq	%rbx, %rax
	shrq	$53, %rax
	movzbl	%al, %eax
	movq	%rbx, %rcx
	shlq	$59, %rcx
	movl	%ebx, %edx
	andl	$8160, %edx
	shlq	$43, %rdx
	orq	%rcx, %rdx
	movl	%ebx, %ecx
	andl	$2088960, %ecx
	shlq	$27, %rcx
	orq	%rdx, %rcx
	movl	%ebx, %edx
	andl	$534773760, %edx
	shlq	$11, %rdx
	orq	%rcx, %rdx
	movq	%rbx, %rcx
	shrq	$5, %rcx
	andl	$-16777216, %ecx
	orq	%rdx, %rcx
	movq	%rbx, %rdx
	shrq	$21, %rdx
	andl	$16711680, %edx
	orq	%rcx, %rdx
	shrq	$37, %rbx
	andl	$65280, %ebx
	orq	%rdx, %rbx
	orq	%rax, %rbx
	movq	%rbx, 40(%rsp)
	leaq	40(%rsp), %rdx
	movl	$8, %r8d
	movq	%rdi, %rcx
	callq	"sha2::block256::Core256::update"
	movdqa	160(%rsp), %xmm0
	movdqa	176(%rsp), %xmm1
	movdqa	%xmm0, %xmm2
	punpckhbw	%xmm6, %xmm2
	pshuflw	$27, %xmm2, %xmm2
	pshufhw	$27, %xmm2, %xmm2
	punpcklbw	%xmm6, %xmm0
	pshuflw	$27, %xmm0, %xmm0
	pshufhw	$27, %xmm0, %xmm0
	packuswb	%xmm2, %xmm0
	movdqa	%xmm1, %xmm2
	punpckhbw	%xmm6, %xmm2
	pshuflw	$27, %xmm2, %xmm2
	pshufhw	$27, %xmm2, %xmm2
	punpcklbw	%xmm6, %xmm1
	pshuflw	$27, %xmm1, %xmm1
	pshufhw	$27, %xmm1, %xmm1
	packuswb	%xmm2, %xmm1
	movdqu	%xmm0, (%rsi)
	movdqu	%xmm1, 16(%rsi)
	movaps	272(%rsp), %xmm6
	addq	$296, %rsp
	popq	%rbx
	popq	%rdi
	popq	%rsi
	popq	%r14
	retq
	.seh_endproc

	.def	"sha2::block256::Core256::update";
	.scl	3;
	.type	32;
	.endef
	.p2align	4
"sha2::block256::Core256::update":
.seh_proc "sha2::block256::Core256::update"
	pushq	%r15
	.seh_pushreg %r15
	pushq	%r14
	.seh_pushreg %r14
	pushq	%r13
	.seh_pushreg %r13
	pushq	%r12
	.seh_pushreg %r12
	pushq	%rsi
	.seh_pushreg %rsi
	pushq	%rdi
	.seh_pushreg %rdi
	pushq	%rbx
	.seh_pushreg %rbx
	subq	$32, %rsp
	.seh_stackalloc 32
	.seh_endprologue
	movq	%r8, %rsi
	movq	%rdx, %rdi
	movq	%rcx, %rbx
	movq	96(%rcx), %rax
	leaq	(%rax,%r8), %rcx
	movq	%rcx, 96(%rbx)
	andq	$63, %rax
	je	.Lnoise_BB33_5
	movl	$64, %r14d
	subq	%rax, %r14
	leaq	(%rbx,%rax), %rcx
	addq	$32, %rcx
	movq	%rcx, %rdx
	subq	%rdi, %rdx
	cmpq	%r14, %rsi
	jae	.Lnoise_BB33_6
	cmpq	%rsi, %rdx
	jae	.Lnoise_BB33_9
	cmpq	$4, %rsi
	jb	.Lnoise_BB33_4
	leaq	(%rax,%rbx), %rdx
	subq	%rdi, %rdx
	addq	$32, %rdx
	cmpq	$32, %rdx
	jae	.Lnoise_BB33_15
.Lnoise_BB33_4:
	xorl	%edx, %edx
.Lnoise_BB33_26:
	movq	%rsi, %r9
	movq	%rdx, %r8
	andq	$3, %r9
	je	.Lnoise_BB33_29
	movq	%rdx, %r8
	.p2align	4
.Lnoise_BB33_28:
	movzbl	(%rdi,%r8), %r10d
	movb	%r10b, (%rcx,%r8)
	incq	%r8
	decq	%r9
	jne	.Lnoise_BB33_28
.Lnoise_BB33_29:
	subq	%rsi, %rdx
	cmpq	$-4, %rdx
	ja	.Lnoise_BB33_59
	addq	%rbx, %rax
	addq	$35, %rax
	.p2align	4
.Lnoise_BB33_31:
	movzbl	(%rdi,%r8), %ecx
	movb	%cl, -3(%rax,%r8)
	movzbl	1(%rdi,%r8), %ecx
	movb	%cl, -2(%rax,%r8)
	movzbl	2(%rdi,%r8), %ecx
	movb	%cl, -1(%rax,%r8)
	movzbl	3(%rdi,%r8), %ecx
	movb	%cl, (%rax,%r8)
	addq	$4, %r8
	cmpq	%r8, %rsi
	jne	.Lnoise_BB33_31
	jmp	.Lnoise_BB33_59
.Lnoise_BB33_5:
	xorl	%r14d, %r14d
	jmp	.Lnoise_BB33_42
.Lnoise_BB33_6:
	leaq	32(%rbx), %r15
	cmpq	%r14, %rdx
	jae	.Lnoise_BB33_10
	cmpl	$60, %eax
	jbe	.Lnoise_BB33_13
	xorl	%eax, %eax
	jmp	.Lnoise_BB33_40
.Lnoise_BB33_9:
	movq	%rdi, %rdx
	jmp	.Lnoise_BB33_48
.Lnoise_BB33_10:
	movq	%rdi, %rdx
	movq	%r14, %r8
	callq	memmove
	jmp	.Lnoise_BB33_41
.Lnoise_BB33_13:
	leaq	(%rax,%rbx), %rdx
	subq	%rdi, %rdx
	addq	$32, %rdx
	cmpq	$16, %rdx
	jae	.Lnoise_BB33_17
	xorl	%eax, %eax
	jmp	.Lnoise_BB33_40
.Lnoise_BB33_15:
	cmpq	$32, %rsi
	jae	.Lnoise_BB33_19
	xorl	%edx, %edx
	jmp	.Lnoise_BB33_23
.Lnoise_BB33_17:
	cmpl	$48, %eax
	jbe	.Lnoise_BB33_32
	xorl	%eax, %eax
	jmp	.Lnoise_BB33_37
.Lnoise_BB33_19:
	movq	%rsi, %rdx
	andq	$-32, %rdx
	leaq	(%rax,%rbx), %r8
	addq	$48, %r8
	xorl	%r9d, %r9d
	.p2align	4
.Lnoise_BB33_20:
	movups	(%rdi,%r9), %xmm0
	movups	16(%rdi,%r9), %xmm1
	movups	%xmm0, -16(%r8,%r9)
	movups	%xmm1, (%r8,%r9)
	addq	$32, %r9
	cmpq	%r9, %rdx
	jne	.Lnoise_BB33_20
	cmpq	%rdx, %rsi
	je	.Lnoise_BB33_59
	testb	$28, %sil
	je	.Lnoise_BB33_26
.Lnoise_BB33_23:
	movq	%rdx, %r8
	movq	%rsi, %rdx
	andq	$-4, %rdx
	.p2align	4
.Lnoise_BB33_24:
	movl	(%rdi,%r8), %r9d
	movl	%r9d, (%rcx,%r8)
	addq	$4, %r8
	cmpq	%r8, %rdx
	jne	.Lnoise_BB33_24
	cmpq	%rdx, %rsi
	je	.Lnoise_BB33_59
	jmp	.Lnoise_BB33_26
.Lnoise_BB33_32:
	movl	%r14d, %eax
	andl	$-16, %eax
	movups	(%rdi), %xmm0
	movups	%xmm0, (%rcx)
	cmpq	$16, %rax
	je	.Lnoise_BB33_35
	movups	16(%rdi), %xmm0
	movups	%xmm0, 16(%rcx)
	cmpl	$32, %eax
	je	.Lnoise_BB33_35
	movups	32(%rdi), %xmm0
	movups	%xmm0, 32(%rcx)
.Lnoise_BB33_35:
	cmpl	%eax, %r14d
	je	.Lnoise_BB33_41
	testb	$12, %r14b
	je	.Lnoise_BB33_40
.Lnoise_BB33_37:
	movq	%rax, %rdx
	movl	%r14d, %eax
	andl	$-4, %eax
	.p2align	4
.Lnoise_BB33_38:
	movl	(%rdi,%rdx), %r8d
	movl	%r8d, (%rcx,%rdx)
	addq	$4, %rdx
	cmpq	%rdx, %rax
	jne	.Lnoise_BB33_38
	cmpl	%eax, %r14d
	je	.Lnoise_BB33_41
	.p2align	4
.Lnoise_BB33_40:
	movzbl	(%rdi,%rax), %edx
	movb	%dl, (%rcx,%rax)
	incq	%rax
	cmpq	%rax, %r14
	jne	.Lnoise_BB33_40
.Lnoise_BB33_41:
	movq	%rbx, %rcx
	movq	%r15, %rdx
	callq	"sha2::block256::compress"
.Lnoise_BB33_42:
	movq	%rsi, %r12
	subq	%r14, %r12
	movq	%r12, %r13
	shrq	$6, %r13
	je	.Lnoise_BB33_45
	leaq	(%rdi,%r14), %r15
	.p2align	4
.Lnoise_BB33_44:
	movq	%rbx, %rcx
	movq	%r15, %rdx
	callq	"sha2::block256::compress"
	addq	$64, %r15
	decq	%r13
	jne	.Lnoise_BB33_44
.Lnoise_BB33_45:
	andq	$-64, %r12
	leaq	(%r12,%r14), %r8
	leaq	(%rdi,%r8), %rdx
	subq	%r8, %rsi
	leaq	32(%rbx), %rcx
	movq	%rcx, %rax
	subq	%rdx, %rax
	cmpq	%rsi, %rax
	jae	.Lnoise_BB33_48
	cmpq	$4, %rsi
	jb	.Lnoise_BB33_47
	addq	%rdi, %r14
	addq	%r12, %r14
	movq	%rbx, %rax
	subq	%r14, %rax
	addq	$32, %rax
	cmpq	$32, %rax
	jae	.Lnoise_BB33_51
.Lnoise_BB33_47:
	xorl	%eax, %eax
	jmp	.Lnoise_BB33_61
.Lnoise_BB33_48:
	movq	%rsi, %r8
	addq	$32, %rsp
	popq	%rbx
	popq	%rdi
	popq	%rsi
	popq	%r12
	popq	%r13
	popq	%r14
	popq	%r15
	jmp	memmove
.Lnoise_BB33_51:
	cmpq	$32, %rsi
	jae	.Lnoise_BB33_53
	xorl	%eax, %eax
	jmp	.Lnoise_BB33_57
.Lnoise_BB33_53:
	movq	%rsi, %rax
	andq	$-32, %rax
	addq	%rdi, %r8
	addq	$16, %r8
	xorl	%r9d, %r9d
	.p2align	4
.Lnoise_BB33_54:
	movups	-16(%r8,%r9), %xmm0
	movups	(%r8,%r9), %xmm1
	movups	%xmm0, 32(%rbx,%r9)
	movups	%xmm1, 48(%rbx,%r9)
	addq	$32, %r9
	cmpq	%r9, %rax
	jne	.Lnoise_BB33_54
	cmpq	%rax, %rsi
	je	.Lnoise_BB33_59
	testb	$28, %sil
	je	.Lnoise_BB33_61
.Lnoise_BB33_57:
	movq	%rax, %r8
	movq	%rsi, %rax
	andq	$-4, %rax
	.p2align	4
.Lnoise_BB33_58:
	movl	(%rdx,%r8), %r9d
	movl	%r9d, (%rcx,%r8)
	addq	$4, %r8
	cmpq	%r8, %rax
	jne	.Lnoise_BB33_58
	jmp	.Lnoise_BB33_60
.Lnoise_BB33_59:
	addq	$32, %rsp
	popq	%rbx
	popq	%rdi
	popq	%rsi
	popq	%r12
	popq	%r13
	popq	%r14
	popq	%r15
	retq
.Lnoise_BB33_60:
	cmpq	%rax, %rsi
	je	.Lnoise_BB33_59
.Lnoise_BB33_61:
	movzbl	(%rdx,%rax), %r8d
	movb	%r8b, (%rcx,%rax)
	incq	%rax
	jmp	.Lnoise_BB33_60
	.seh_endproc

	.def	"sha2::block256::compress.v1";
	.scl	3;
	.type	32;
	.endef
	.p2align	4
"sha2::block256::compress.v1":
.seh_proc "sha2::block256::compress.v1"
	pushq	%r15
	.seh_pushreg %r15
	pushq	%r14
	.seh_pushreg %r14
	pushq	%r13
	.seh_pushreg %r13
	pushq	%r12
	.seh_pushreg %r12
	pushq	%rsi
	.seh_pushreg %rsi
	pushq	%rdi
	.seh_pushreg %rdi
	pushq	%rbp
	.seh_pushreg %rbp
	pushq	%rbx
	.seh_pushreg %rbx
	subq	$208, %rsp
	.seh_stackalloc 208
	.seh_endprologue
	movq	%rcx, %r11
	movl	(%rdx), %r8d
	bswapl	%r8d
	movl	(%rcx), %r13d
	movl	4(%rcx), %r12d
	movl	8(%rcx), %r15d
	movl	16(%rcx), %r14d
	movl	20(%rcx), %edi
	movl	24(%rcx), %esi
	movl	28(%rcx), %r9d
	movl	%r14d, %eax
	roll	$18, %eax
	xorl	%r14d, %eax
	roll	$27, %eax
	xorl	%r14d, %eax
	roll	$26, %eax
	movl	%esi, %ecx
	xorl	%edi, %ecx
	andl	%r14d, %ecx
	xorl	%esi, %ecx
	movq	%r8, 104(%rsp)
	movq	%r9, 192(%rsp)
	addl	%r9d, %r8d
	addl	%r8d, %eax
	movl	%eax, %r8d
	movl	%r13d, %r10d
	roll	$23, %r10d
	addl	%ecx, %eax
	xorl	%r13d, %r10d
	roll	$21, %r10d
	addl	%ecx, %r8d
	addl	$1116352408, %r8d
	xorl	%r13d, %r10d
	roll	$30, %r10d
	movl	%r12d, %ecx
	xorl	%r13d, %ecx
	movl	%r15d, %r9d
	xorl	%r12d, %r9d
	andl	%ecx, %r9d
	xorl	%r12d, %r9d
	addl	%r10d, %r9d
	movl	4(%rdx), %ebx
	bswapl	%ebx
	addl	%r8d, %r9d
	movq	%r11, 200(%rsp)
	movl	12(%r11), %r8d
	movq	%r8, 136(%rsp)
	leal	(%r8,%rax), %r10d
	addl	$1116352408, %r10d
	movl	%r10d, %eax
	roll	$18, %eax
	movl	%edi, %r8d
	xorl	%r14d, %r8d
	andl	%r10d, %r8d
	xorl	%edi, %r8d
	movq	%rsi, 184(%rsp)
	movq	%rbx, 88(%rsp)
	addl	%esi, %r8d
	addl	%ebx, %r8d
	xorl	%r10d, %eax
	roll	$27, %eax
	xorl	%r10d, %eax
	roll	$26, %eax
	leal	(%r8,%rax), %r11d
	addl	%r8d, %eax
	addl	$1899447441, %eax
	movl	%r9d, %r8d
	roll	$23, %r8d
	xorl	%r9d, %r8d
	roll	$21, %r8d
	xorl	%r9d, %r8d
	roll	$30, %r8d
	movl	%r9d, %ebx
	xorl	%r13d, %ebx
	andl	%ebx, %ecx
	xorl	%r13d, %ecx
	addl	%r8d, %ecx
	addl	%eax, %ecx
	movq	%r15, 160(%rsp)
	leal	(%r15,%r11), %eax
	addl	$1899447441, %eax
	movl	%eax, %r8d
	roll	$18, %r8d
	xorl	%eax, %r8d
	roll	$27, %r8d
	movl	8(%rdx), %r15d
	bswapl	%r15d
	xorl	%eax, %r8d
	roll	$26, %r8d
	movl	%r10d, %r11d
	xorl	%r14d, %r11d
	andl	%eax, %r11d
	xorl	%r14d, %r11d
	movl	%ecx, %esi
	roll	$23, %esi
	movq	%rdi, 176(%rsp)
	movq	%r15, 80(%rsp)
	addl	%r15d, %edi
	addl	%edi, %r11d
	xorl	%ecx, %esi
	roll	$21, %esi
	xorl	%ecx, %esi
	roll	$30, %esi
	leal	(%r11,%r8), %edi
	addl	%r11d, %r8d
	addl	$-1245643825, %r8d
	movl	%ecx, %r11d
	xorl	%r9d, %r11d
	andl	%r11d, %ebx
	xorl	%r9d, %ebx
	addl	%esi, %ebx
	addl	%r8d, %ebx
	movq	%r12, 152(%rsp)
	leal	(%r12,%rdi), %esi
	addl	$-1245643825, %esi
	movl	%esi, %r8d
	roll	$18, %r8d
	movl	12(%rdx), %r15d
	bswapl	%r15d
	xorl	%esi, %r8d
	roll	$27, %r8d
	xorl	%esi, %r8d
	roll	$26, %r8d
	movl	%eax, %edi
	xorl	%r10d, %edi
	andl	%esi, %edi
	xorl	%r10d, %edi
	movq	%r14, 168(%rsp)
	movq	%r15, 96(%rsp)
	addl	%r14d, %edi
	addl	%r15d, %edi
	movl	%ebx, %ebp
	roll	$23, %ebp
	xorl	%ebx, %ebp
	roll	$21, %ebp
	leal	(%rdi,%r8), %r14d
	addl	%edi, %r8d
	addl	$-373957723, %r8d
	xorl	%ebx, %ebp
	roll	$30, %ebp
	movl	%ebx, %r15d
	xorl	%ecx, %r15d
	andl	%r15d, %r11d
	xorl	%ecx, %r11d
	addl	%ebp, %r11d
	addl	%r8d, %r11d
	movl	16(%rdx), %r12d
	bswapl	%r12d
	movq	%r13, 144(%rsp)
	leal	(%r14,%r13), %edi
	addl	$-373957723, %edi
	movl	%edi, %r8d
	roll	$18, %r8d
	xorl	%edi, %r8d
	roll	$27, %r8d
	movl	%esi, %ebp
	xorl	%eax, %ebp
	andl	%edi, %ebp
	xorl	%eax, %ebp
	movl	%r12d, 60(%rsp)
	addl	%r12d, %r10d
	addl	%ebp, %r10d
	xorl	%edi, %r8d
	roll	$26, %r8d
	addl	%r10d, %r8d
	addl	$961987163, %r8d
	movl	%r11d, %r10d
	roll	$23, %r10d
	xorl	%r11d, %r10d
	roll	$21, %r10d
	xorl	%r11d, %r10d
	roll	$30, %r10d
	movl	%r11d, %r13d
	xorl	%ebx, %r13d
	andl	%r13d, %r15d
	xorl	%ebx, %r15d
	addl	%r10d, %r15d
	addl	%r8d, %r15d
	addl	%r8d, %r9d
	movl	%r9d, %r8d
	roll	$18, %r8d
	xorl	%r9d, %r8d
	roll	$27, %r8d
	movq	%rdx, %r12
	movl	20(%rdx), %ebp
	bswapl	%ebp
	xorl	%r9d, %r8d
	roll	$26, %r8d
	movl	%edi, %r10d
	xorl	%esi, %r10d
	andl	%r9d, %r10d
	xorl	%esi, %r10d
	movl	%ebp, 56(%rsp)
	addl	%ebp, %eax
	movl	%r15d, %ebp
	roll	$23, %ebp
	addl	%r10d, %eax
	xorl	%r15d, %ebp
	roll	$21, %ebp
	addl	%r8d, %eax
	addl	$1508970993, %eax
	xorl	%r15d, %ebp
	roll	$30, %ebp
	movl	%r15d, %edx
	xorl	%r11d, %edx
	andl	%edx, %r13d
	xorl	%r11d, %r13d
	addl	%ebp, %r13d
	addl	%eax, %r13d
	addl	%eax, %ecx
	movl	24(%r12), %r10d
	bswapl	%r10d
	movl	%ecx, %eax
	roll	$18, %eax
	xorl	%ecx, %eax
	roll	$27, %eax
	movl	%r9d, %r8d
	xorl	%edi, %r8d
	andl	%ecx, %r8d
	xorl	%edi, %r8d
	movl	%r10d, 36(%rsp)
	addl	%r10d, %esi
	addl	%r8d, %esi
	xorl	%ecx, %eax
	roll	$26, %eax
	addl	%esi, %eax
	addl	$-1841331548, %eax
	movl	%r13d, %r8d
	roll	$23, %r8d
	xorl	%r13d, %r8d
	roll	$21, %r8d
	xorl	%r13d, %r8d
	roll	$30, %r8d
	movl	%r13d, %ebp
	xorl	%r15d, %ebp
	andl	%ebp, %edx
	xorl	%r15d, %edx
	addl	%r8d, %edx
	addl	%eax, %edx
	addl	%eax, %ebx
	movl	%ebx, %eax
	roll	$18, %eax
	xorl	%ebx, %eax
	roll	$27, %eax
	movl	28(%r12), %r10d
	bswapl	%r10d
	xorl	%ebx, %eax
	roll	$26, %eax
	movl	%ecx, %r8d
	xorl	%r9d, %r8d
	andl	%ebx, %r8d
	xorl	%r9d, %r8d
	movl	%r10d, 44(%rsp)
	addl	%r10d, %edi
	movl	%edx, %r10d
	roll	$23, %r10d
	addl	%r8d, %edi
	xorl	%edx, %r10d
	roll	$21, %r10d
	addl	%edi, %eax
	addl	$-1424204075, %eax
	xorl	%edx, %r10d
	roll	$30, %r10d
	movl	%edx, %r14d
	xorl	%r13d, %r14d
	andl	%r14d, %ebp
	xorl	%r13d, %ebp
	addl	%r10d, %ebp
	addl	%eax, %ebp
	addl	%eax, %r11d
	movl	32(%r12), %r10d
	bswapl	%r10d
	movl	%r11d, %eax
	roll	$18, %eax
	xorl	%r11d, %eax
	roll	$27, %eax
	movl	%ebx, %r8d
	xorl	%ecx, %r8d
	andl	%r11d, %r8d
	xorl	%ecx, %r8d
	movl	%r10d, 52(%rsp)
	addl	%r10d, %r9d
	addl	%r8d, %r9d
	xorl	%r11d, %eax
	roll	$26, %eax
	addl	%r9d, %eax
	addl	$-670586216, %eax
	movl	%ebp, %r9d
	roll	$23, %r9d
	xorl	%ebp, %r9d
	roll	$21, %r9d
	xorl	%ebp, %r9d
	roll	$30, %r9d
	movl	%ebp, %r8d
	xorl	%edx, %r8d
	andl	%r8d, %r14d
	xorl	%edx, %r14d
	addl	%r9d, %r14d
	addl	%eax, %r14d
	addl	%eax, %r15d
	movl	%r15d, %eax
	roll	$18, %eax
	xorl	%r15d, %eax
	roll	$27, %eax
	movl	36(%r12), %edi
	bswapl	%edi
	xorl	%r15d, %eax
	roll	$26, %eax
	movl	%r11d, %r9d
	xorl	%ebx, %r9d
	andl	%r15d, %r9d
	xorl	%ebx, %r9d
	addl	%edi, %ecx
	movl	%r14d, %r10d
	roll	$23, %r10d
	addl	%r9d, %ecx
	xorl	%r14d, %r10d
	roll	$21, %r10d
	addl	%eax, %ecx
	addl	$310598401, %ecx
	xorl	%r14d, %r10d
	roll	$30, %r10d
	movl	%r14d, %eax
	xorl	%ebp, %eax
	andl	%eax, %r8d
	xorl	%ebp, %r8d
	addl	%r10d, %r8d
	addl	%ecx, %r8d
	addl	%ecx, %r13d
	movl	40(%r12), %r10d
	bswapl	%r10d
	movl	%r13d, %ecx
	roll	$18, %ecx
	xorl	%r13d, %ecx
	roll	$27, %ecx
	movl	%r15d, %r9d
	xorl	%r11d, %r9d
	andl	%r13d, %r9d
	xorl	%r11d, %r9d
	movl	%r10d, 48(%rsp)
	addl	%r10d, %ebx
	addl	%r9d, %ebx
	xorl	%r13d, %ecx
	roll	$26, %ecx
	addl	%ebx, %ecx
	addl	$607225278, %ecx
	movl	%r8d, %r9d
	roll	$23, %r9d
	xorl	%r8d, %r9d
	roll	$21, %r9d
	xorl	%r8d, %r9d
	roll	$30, %r9d
	movl	%r8d, %ebx
	xorl	%r14d, %ebx
	andl	%ebx, %eax
	xorl	%r14d, %eax
	addl	%r9d, %eax
	addl	%ecx, %eax
	addl	%ecx, %edx
	movl	%edx, %ecx
	roll	$18, %ecx
	xorl	%edx, %ecx
	roll	$27, %ecx
	movl	44(%r12), %r10d
	bswapl	%r10d
	xorl	%edx, %ecx
	roll	$26, %ecx
	movl	%r13d, %r9d
	xorl	%r15d, %r9d
	andl	%edx, %r9d
	xorl	%r15d, %r9d
	movl	%r10d, 8(%rsp)
	addl	%r10d, %r11d
	movl	%eax, %esi
	roll	$23, %esi
	addl	%r9d, %r11d
	xorl	%eax, %esi
	roll	$21, %esi
	addl	%r11d, %ecx
	addl	$1426881987, %ecx
	xorl	%eax, %esi
	roll	$30, %esi
	movl	%eax, %r10d
	xorl	%r8d, %r10d
	andl	%r10d, %ebx
	xorl	%r8d, %ebx
	addl	%esi, %ebx
	addl	%ecx, %ebx
	addl	%ecx, %ebp
	movl	48(%r12), %r11d
	bswapl	%r11d
	movl	%ebp, %ecx
	roll	$18, %ecx
	xorl	%ebp, %ecx
	roll	$27, %ecx
	movl	%edx, %r9d
	xorl	%r13d, %r9d
	andl	%ebp, %r9d
	xorl	%r13d, %r9d
	movl	%r11d, (%rsp)
	addl	%r11d, %r15d
	addl	%r9d, %r15d
	xorl	%ebp, %ecx
	roll	$26, %ecx
	addl	%r15d, %ecx
	addl	$1925078388, %ecx
	movl	%ebx, %r9d
	roll	$23, %r9d
	xorl	%ebx, %r9d
	roll	$21, %r9d
	xorl	%ebx, %r9d
	roll	$30, %r9d
	movl	%ebx, %r11d
	xorl	%eax, %r11d
	andl	%r11d, %r10d
	xorl	%eax, %r10d
	addl	%r9d, %r10d
	addl	%ecx, %r10d
	addl	%ecx, %r14d
	movl	%r14d, %ecx
	roll	$18, %ecx
	xorl	%r14d, %ecx
	roll	$27, %ecx
	movl	52(%r12), %esi
	bswapl	%esi
	xorl	%r14d, %ecx
	roll	$26, %ecx
	movl	%ebp, %r9d
	xorl	%edx, %r9d
	andl	%r14d, %r9d
	xorl	%edx, %r9d
	movl	%esi, 4(%rsp)
	addl	%esi, %r13d
	movl	%r10d, %esi
	roll	$23, %esi
	addl	%r9d, %r13d
	xorl	%r10d, %esi
	roll	$21, %esi
	addl	%r13d, %ecx
	addl	$-2132889090, %ecx
	movl	%edi, %r13d
	xorl	%r10d, %esi
	roll	$30, %esi
	movl	%r10d, %r15d
	xorl	%ebx, %r15d
	andl	%r15d, %r11d
	xorl	%ebx, %r11d
	addl	%esi, %r11d
	addl	%ecx, %r11d
	addl	%ecx, %r8d
	movl	56(%r12), %edi
	bswapl	%edi
	movl	%r8d, %ecx
	roll	$18, %ecx
	xorl	%r8d, %ecx
	roll	$27, %ecx
	movl	%r14d, %r9d
	xorl	%ebp, %r9d
	andl	%r8d, %r9d
	xorl	%ebp, %r9d
	addl	%edi, %edx
	addl	%r9d, %edx
	xorl	%r8d, %ecx
	roll	$26, %ecx
	leal	(%rcx,%rdx), %r9d
	addl	$-1680079193, %r9d
	movl	%r11d, %esi
	roll	$23, %esi
	xorl	%r11d, %esi
	roll	$21, %esi
	xorl	%r11d, %esi
	roll	$30, %esi
	movl	%r11d, %ecx
	xorl	%r10d, %ecx
	andl	%ecx, %r15d
	xorl	%r10d, %r15d
	addl	%esi, %r15d
	addl	%r9d, %r15d
	addl	%r9d, %eax
	movl	60(%r12), %r9d
	bswapl	%r9d
	movl	%r8d, %edx
	xorl	%r14d, %edx
	andl	%eax, %edx
	xorl	%r14d, %edx
	movl	%r9d, 12(%rsp)
	addl	%r9d, %ebp
	addl	%edx, %ebp
	movl	%eax, %edx
	roll	$18, %edx
	xorl	%eax, %edx
	roll	$27, %edx
	xorl	%eax, %edx
	roll	$26, %edx
	addl	%ebp, %edx
	addl	$-1046744716, %edx
	movl	%r15d, %r9d
	roll	$23, %r9d
	movl	%r15d, %ebp
	xorl	%r11d, %ebp
	andl	%ecx, %ebp
	movl	%edi, %ecx
	xorl	%r15d, %r9d
	roll	$21, %r9d
	xorl	%r15d, %r9d
	roll	$30, %r9d
	xorl	%r11d, %ebp
	addl	%r9d, %ebp
	addl	%edx, %ebp
	addl	%edx, %ebx
	xorl	%esi, %esi
	.p2align	4
.Lnoise_BB34_1:
	movq	%rsi, 16(%rsp)
	movl	%ecx, %edx
	movl	%ecx, 24(%rsp)
	roll	$30, %ecx
	xorl	%edx, %ecx
	roll	$15, %ecx
	shrl	$10, %edx
	xorl	%ecx, %edx
	movq	88(%rsp), %r12
	movl	%r12d, %ecx
	roll	$21, %ecx
	xorl	%r12d, %ecx
	roll	$25, %ecx
	movl	%r12d, %r9d
	shrl	$3, %r9d
	xorl	%ecx, %r9d
	movl	%ebx, %ecx
	roll	$18, %ecx
	movl	%r14d, %edi
	movq	104(%rsp), %r14
	movl	%r13d, 68(%rsp)
	addl	%r13d, %r14d
	xorl	%ebx, %ecx
	roll	$27, %ecx
	addl	%edx, %r14d
	xorl	%ebx, %ecx
	movl	%ebx, 40(%rsp)
	roll	$26, %ecx
	addl	%r9d, %r14d
	movl	%eax, %r13d
	movl	%r8d, %eax
	xorl	%r13d, %r8d
	andl	%ebx, %r8d
	xorl	%eax, %r8d
	movl	%ebp, %r9d
	roll	$23, %r9d
	addl	%edi, %r8d
	xorl	%ebp, %r9d
	roll	$21, %r9d
	addl	%ecx, %r8d
	xorl	%ebp, %r9d
	roll	$30, %r9d
	movl	%r15d, %ecx
	xorl	%ebp, %ecx
	movl	%r11d, %edx
	xorl	%r15d, %edx
	andl	%ecx, %edx
	xorl	%r15d, %edx
	addl	%r9d, %edx
	leaq	.Lnoise_static.99(%rip), %r9
	addl	64(%rsi,%r9), %r8d
	addl	%r14d, %r8d
	addl	%r8d, %edx
	addl	%r10d, %r8d
	movl	%r8d, %ebx
	movl	12(%rsp), %r10d
	movl	%r10d, %r9d
	roll	$30, %r9d
	xorl	%r10d, %r9d
	roll	$15, %r9d
	shrl	$10, %r10d
	movq	80(%rsp), %r8
	movl	%r8d, %esi
	roll	$21, %esi
	xorl	%r9d, %r10d
	xorl	%r8d, %esi
	roll	$25, %esi
	movl	%r8d, %edi
	shrl	$3, %edi
	xorl	%esi, %edi
	addl	48(%rsp), %r12d
	addl	%r10d, %r12d
	movl	%ebx, 64(%rsp)
	movl	%ebx, %r9d
	roll	$18, %r9d
	addl	%edi, %r12d
	movq	%r12, 88(%rsp)
	xorl	%ebx, %r9d
	roll	$27, %r9d
	xorl	%ebx, %r9d
	roll	$26, %r9d
	movl	%r13d, %r10d
	movl	40(%rsp), %edi
	xorl	%edi, %r10d
	andl	%ebx, %r10d
	movq	16(%rsp), %rsi
	leaq	.Lnoise_static.99(%rip), %rbx
	addl	68(%rsi,%rbx), %eax
	xorl	%r13d, %r10d
	movl	%edx, %esi
	roll	$23, %esi
	addl	%r12d, %eax
	xorl	%edx, %esi
	roll	$21, %esi
	addl	%r10d, %eax
	xorl	%edx, %esi
	roll	$30, %esi
	addl	%r9d, %eax
	movl	%edx, %r9d
	xorl	%ebp, %r9d
	andl	%r9d, %ecx
	xorl	%ebp, %ecx
	addl	%esi, %ecx
	addl	%eax, %ecx
	addl	%r11d, %eax
	movq	%r14, 104(%rsp)
	movl	%r14d, %r10d
	roll	$30, %r10d
	xorl	%r14d, %r10d
	roll	$15, %r10d
	movl	%r14d, %r11d
	shrl	$10, %r11d
	xorl	%r10d, %r11d
	movq	96(%rsp), %r12
	movl	%r12d, %r10d
	roll	$21, %r10d
	xorl	%r12d, %r10d
	roll	$25, %r10d
	movl	%r12d, %esi
	shrl	$3, %esi
	xorl	%r10d, %esi
	addl	8(%rsp), %r8d
	addl	%esi, %r8d
	addl	%r11d, %r8d
	movq	%r8, %r14
	movq	%r8, 80(%rsp)
	movl	%eax, %r10d
	roll	$18, %r10d
	xorl	%eax, %r10d
	roll	$27, %r10d
	xorl	%eax, %r10d
	roll	$26, %r10d
	movl	64(%rsp), %r8d
	movl	%r8d, %r11d
	xorl	%edi, %r11d
	andl	%eax, %r11d
	xorl	%edi, %r11d
	movq	16(%rsp), %rsi
	leaq	.Lnoise_static.99(%rip), %rdi
	addl	72(%rsi,%rdi), %r13d
	addl	%r14d, %r13d
	movl	%ecx, 28(%rsp)
	movl	%ecx, %esi
	roll	$23, %esi
	addl	%r11d, %r13d
	xorl	%ecx, %esi
	roll	$21, %esi
	addl	%r10d, %r13d
	xorl	%ecx, %esi
	roll	$30, %esi
	xorl	%edx, %ecx
	andl	%ecx, %r9d
	xorl	%edx, %r9d
	addl	%esi, %r9d
	movq	88(%rsp), %rdi
	movl	%edi, %r11d
	roll	$30, %r11d
	addl	%r13d, %r9d
	xorl	%edi, %r11d
	roll	$15, %r11d
	addl	%r15d, %r13d
	movl	%edi, %r10d
	shrl	$10, %r10d
	xorl	%r11d, %r10d
	movl	60(%rsp), %edi
	movl	%edi, %r11d
	roll	$21, %r11d
	xorl	%edi, %r11d
	roll	$25, %r11d
	movl	%edi, %esi
	movl	%edi, %r14d
	shrl	$3, %esi
	xorl	%r11d, %esi
	movl	%r13d, %r11d
	roll	$18, %r11d
	addl	(%rsp), %r12d
	xorl	%r13d, %r11d
	roll	$27, %r11d
	addl	%esi, %r12d
	xorl	%r13d, %r11d
	roll	$26, %r11d
	addl	%r10d, %r12d
	movl	%eax, %r10d
	xorl	%r8d, %r10d
	andl	%r13d, %r10d
	xorl	%r8d, %r10d
	movq	16(%rsp), %rsi
	movl	40(%rsp), %ebx
	leaq	.Lnoise_static.99(%rip), %rdi
	addl	76(%rsi,%rdi), %ebx
	addl	%r12d, %ebx
	addl	%r10d, %ebx
	movl	%r9d, %r10d
	roll	$23, %r10d
	addl	%r11d, %ebx
	xorl	%r9d, %r10d
	roll	$21, %r10d
	xorl	%r9d, %r10d
	roll	$30, %r10d
	movl	%r9d, %edi
	movl	28(%rsp), %r11d
	xorl	%r11d, %r9d
	movl	%ecx, %r15d
	andl	%r9d, %r15d
	xorl	%r11d, %r15d
	addl	%r10d, %r15d
	addl	%ebx, %r15d
	movq	80(%rsp), %r11
	movl	%r11d, %r10d
	roll	$30, %r10d
	addl	%ebp, %ebx
	xorl	%r11d, %r10d
	movq	%r11, %rcx
	roll	$15, %r10d
	movl	56(%rsp), %ebp
	movl	%ebp, %r11d
	roll	$21, %r11d
	movl	%ecx, %esi
	shrl	$10, %esi
	xorl	%ebp, %r11d
	roll	$25, %r11d
	xorl	%r10d, %esi
	movl	%ebp, %r10d
	shrl	$3, %r10d
	xorl	%r11d, %r10d
	addl	4(%rsp), %r14d
	movl	%ebx, %r11d
	roll	$18, %r11d
	addl	%r10d, %r14d
	xorl	%ebx, %r11d
	roll	$27, %r11d
	addl	%esi, %r14d
	movl	%r13d, %r10d
	xorl	%eax, %r10d
	andl	%ebx, %r10d
	xorl	%eax, %r10d
	movq	16(%rsp), %rsi
	leaq	.Lnoise_static.99(%rip), %rcx
	addl	80(%rsi,%rcx), %r8d
	addl	%r14d, %r8d
	addl	%r10d, %r8d
	xorl	%ebx, %r11d
	roll	$26, %r11d
	addl	%r11d, %r8d
	movl	%r15d, 76(%rsp)
	movl	%r15d, %r11d
	roll	$23, %r11d
	xorl	%r15d, %r11d
	roll	$21, %r11d
	xorl	%r15d, %r11d
	roll	$30, %r11d
	movl	%edi, 32(%rsp)
	xorl	%edi, %r15d
	andl	%r15d, %r9d
	xorl	%edi, %r9d
	addl	%r11d, %r9d
	addl	%r8d, %r9d
	addl	%edx, %r8d
	movq	%r12, 96(%rsp)
	movl	%r12d, %edx
	roll	$30, %edx
	xorl	%r12d, %edx
	roll	$15, %edx
	movl	%r12d, %r11d
	shrl	$10, %r11d
	movl	36(%rsp), %r10d
	movl	%r10d, %esi
	roll	$21, %esi
	xorl	%edx, %r11d
	xorl	%r10d, %esi
	roll	$25, %esi
	movl	%r10d, %edx
	shrl	$3, %edx
	xorl	%esi, %edx
	addl	24(%rsp), %ebp
	addl	%edx, %ebp
	movl	%r8d, %edx
	roll	$18, %edx
	addl	%r11d, %ebp
	xorl	%r8d, %edx
	roll	$27, %edx
	xorl	%r8d, %edx
	roll	$26, %edx
	movl	%ebx, %r11d
	xorl	%r13d, %r11d
	andl	%r8d, %r11d
	movl	%r8d, 64(%rsp)
	movq	16(%rsp), %rsi
	addl	84(%rsi,%rcx), %eax
	xorl	%r13d, %r11d
	movl	%r9d, %esi
	roll	$23, %esi
	addl	%ebp, %eax
	xorl	%r9d, %esi
	roll	$21, %esi
	addl	%r11d, %eax
	xorl	%r9d, %esi
	roll	$30, %esi
	addl	%edx, %eax
	movl	%r9d, %r12d
	movl	76(%rsp), %ecx
	xorl	%ecx, %r12d
	andl	%r12d, %r15d
	xorl	%ecx, %r15d
	addl	%esi, %r15d
	addl	%eax, %r15d
	addl	28(%rsp), %eax
	movl	%r14d, %edx
	movl	%r14d, 60(%rsp)
	movl	%r14d, %ecx
	roll	$30, %ecx
	xorl	%r14d, %ecx
	roll	$15, %ecx
	shrl	$10, %edx
	xorl	%ecx, %edx
	movl	44(%rsp), %r11d
	movl	%r11d, %ecx
	roll	$21, %ecx
	xorl	%r11d, %ecx
	roll	$25, %ecx
	shrl	$3, %r11d
	xorl	%ecx, %r11d
	movl	12(%rsp), %esi
	addl	%esi, %r10d
	addl	%r11d, %r10d
	addl	%edx, %r10d
	movl	%r10d, 36(%rsp)
	movl	%eax, 128(%rsp)
	movl	%eax, %ecx
	roll	$18, %ecx
	xorl	%eax, %ecx
	roll	$27, %ecx
	xorl	%eax, %ecx
	roll	$26, %ecx
	movl	%ebx, 40(%rsp)
	xorl	%ebx, %r8d
	andl	%eax, %r8d
	xorl	%ebx, %r8d
	movq	16(%rsp), %rdx
	leaq	.Lnoise_static.99(%rip), %rax
	addl	88(%rdx,%rax), %r13d
	addl	%r10d, %r13d
	movl	%r15d, %edx
	roll	$23, %edx
	addl	%r8d, %r13d
	xorl	%r15d, %edx
	roll	$21, %edx
	addl	%ecx, %r13d
	xorl	%r15d, %edx
	movl	%r15d, 72(%rsp)
	roll	$30, %edx
	movl	%ebp, %ebx
	movl	%ebp, %ecx
	roll	$30, %ecx
	movl	%r15d, %r11d
	movl	%r9d, 132(%rsp)
	xorl	%r9d, %r11d
	xorl	%ebp, %ecx
	movl	%ebp, 56(%rsp)
	roll	$15, %ecx
	andl	%r11d, %r12d
	movl	52(%rsp), %edi
	movl	%edi, %r10d
	roll	$21, %r10d
	xorl	%r9d, %r12d
	xorl	%edi, %r10d
	roll	$25, %r10d
	movl	%r10d, 124(%rsp)
	addl	%edx, %r12d
	movl	68(%rsp), %edx
	movl	%edx, %eax
	roll	$21, %eax
	addl	%r13d, %r12d
	xorl	%edx, %eax
	roll	$25, %eax
	movl	%eax, 120(%rsp)
	addl	32(%rsp), %r13d
	movl	48(%rsp), %r14d
	movl	%r14d, %eax
	roll	$21, %eax
	xorl	%r14d, %eax
	roll	$25, %eax
	movl	%eax, 116(%rsp)
	shrl	$10, %ebx
	movl	8(%rsp), %r8d
	movl	%r8d, %ebp
	roll	$21, %ebp
	xorl	%ecx, %ebx
	xorl	%r8d, %ebp
	roll	$25, %ebp
	movq	104(%rsp), %r10
	movl	%r10d, %ecx
	roll	$21, %ecx
	xorl	%r10d, %ecx
	roll	$25, %ecx
	movl	%r10d, %edi
	shrl	$3, %edi
	xorl	%ecx, %edi
	movl	%esi, %r9d
	movl	%esi, %ecx
	roll	$21, %ecx
	xorl	%esi, %ecx
	movl	(%rsp), %esi
	movl	%esi, %edx
	roll	$21, %edx
	addl	%r9d, %edi
	movl	%edi, 28(%rsp)
	xorl	%esi, %edx
	movl	%esi, %r15d
	roll	$25, %edx
	roll	$25, %ecx
	shrl	$3, %r9d
	xorl	%ecx, %r9d
	movl	24(%rsp), %esi
	movl	%esi, %ecx
	roll	$21, %ecx
	xorl	%esi, %ecx
	movl	4(%rsp), %edi
	movl	%edi, %eax
	roll	$21, %eax
	addl	%esi, %r9d
	movl	%r9d, 32(%rsp)
	xorl	%edi, %eax
	roll	$25, %eax
	roll	$25, %ecx
	shrl	$3, %esi
	xorl	%ecx, %esi
	addl	%edi, %esi
	movl	%esi, 12(%rsp)
	shrl	$3, %edi
	xorl	%eax, %edi
	addl	%r15d, %edi
	movl	%edi, 4(%rsp)
	shrl	$3, %r15d
	xorl	%edx, %r15d
	addl	%r8d, %r15d
	movl	%r15d, (%rsp)
	shrl	$3, %r8d
	xorl	%ebp, %r8d
	addl	%r14d, %r8d
	movl	%r8d, 24(%rsp)
	shrl	$3, %r14d
	xorl	116(%rsp), %r14d
	movl	68(%rsp), %edx
	addl	%edx, %r14d
	movl	%r14d, 8(%rsp)
	shrl	$3, %edx
	xorl	120(%rsp), %edx
	movl	52(%rsp), %r9d
	addl	%r9d, %edx
	shrl	$3, %r9d
	xorl	124(%rsp), %r9d
	movl	44(%rsp), %edi
	addl	%r10d, %edi
	addl	%r9d, %edi
	addl	%ebx, %edi
	movl	%r13d, %eax
	movl	%r13d, %r9d
	roll	$18, %r9d
	xorl	%r13d, %r9d
	roll	$27, %r9d
	movq	16(%rsp), %rsi
	leaq	.Lnoise_static.99(%rip), %rbp
	movl	92(%rsi,%rbp), %r14d
	addl	%edi, %r14d
	movl	%edi, %r10d
	addl	40(%rsp), %r14d
	xorl	%r13d, %r9d
	roll	$26, %r9d
	movl	128(%rsp), %r13d
	movl	%r13d, %esi
	movl	64(%rsp), %ebx
	xorl	%ebx, %esi
	andl	%eax, %esi
	xorl	%ebx, %esi
	addl	%esi, %r14d
	movl	%r12d, %esi
	roll	$23, %esi
	addl	%r9d, %r14d
	xorl	%r12d, %esi
	roll	$21, %esi
	xorl	%r12d, %esi
	roll	$30, %esi
	movl	%r12d, %edi
	movl	72(%rsp), %ecx
	xorl	%ecx, %edi
	andl	%edi, %r11d
	xorl	%ecx, %r11d
	addl	%esi, %r11d
	addl	%r14d, %r11d
	movl	%r11d, %ecx
	movl	36(%rsp), %esi
	movl	%esi, %r9d
	roll	$30, %r9d
	addl	76(%rsp), %r14d
	xorl	%esi, %r9d
	roll	$15, %r9d
	shrl	$10, %esi
	xorl	%r9d, %esi
	addl	88(%rsp), %edx
	addl	%esi, %edx
	movl	%r14d, %r9d
	roll	$18, %r9d
	xorl	%r14d, %r9d
	roll	$27, %r9d
	xorl	%r14d, %r9d
	roll	$26, %r9d
	movq	16(%rsp), %rsi
	movl	96(%rsi,%rbp), %r15d
	movq	%rbp, %r11
	addl	%edx, %r15d
	addl	%ebx, %r15d
	movl	%eax, %esi
	xorl	%r13d, %esi
	andl	%r14d, %esi
	xorl	%r13d, %esi
	movl	%ecx, %ebx
	roll	$23, %ebx
	addl	%esi, %r15d
	xorl	%ecx, %ebx
	roll	$21, %ebx
	addl	%r9d, %r15d
	xorl	%ecx, %ebx
	roll	$30, %ebx
	movl	%ecx, %ebp
	xorl	%r12d, %ebp
	andl	%ebp, %edi
	xorl	%r12d, %edi
	addl	%ebx, %edi
	movl	%r10d, %esi
	movl	%r10d, 44(%rsp)
	movl	%r10d, %r9d
	roll	$30, %r9d
	addl	%r15d, %edi
	xorl	%r10d, %r9d
	roll	$15, %r9d
	addl	132(%rsp), %r15d
	shrl	$10, %esi
	xorl	%r9d, %esi
	movl	8(%rsp), %r10d
	addl	80(%rsp), %r10d
	addl	%esi, %r10d
	movl	%r10d, 8(%rsp)
	movq	16(%rsp), %r9
	movl	100(%r9,%r11), %r9d
	addl	%r10d, %r9d
	addl	%r13d, %r9d
	movl	%r15d, %r8d
	roll	$18, %r8d
	xorl	%r15d, %r8d
	roll	$27, %r8d
	xorl	%r15d, %r8d
	roll	$26, %r8d
	movl	%r14d, %esi
	xorl	%eax, %esi
	andl	%r15d, %esi
	movl	%edi, %r13d
	roll	$23, %r13d
	xorl	%eax, %esi
	xorl	%edi, %r13d
	roll	$21, %r13d
	addl	%esi, %r9d
	xorl	%edi, %r13d
	roll	$30, %r13d
	addl	%r8d, %r9d
	movl	%edi, %ebx
	xorl	%ecx, %ebx
	andl	%ebx, %ebp
	xorl	%ecx, %ebp
	addl	%r13d, %ebp
	addl	%r9d, %ebp
	addl	72(%rsp), %r9d
	movl	%edx, %r8d
	roll	$30, %r8d
	xorl	%edx, %r8d
	roll	$15, %r8d
	movl	%edx, %r10d
	shrl	$10, %r10d
	xorl	%r8d, %r10d
	movl	24(%rsp), %r13d
	addl	96(%rsp), %r13d
	addl	%r10d, %r13d
	movl	%r9d, %r8d
	roll	$18, %r8d
	movq	16(%rsp), %r10
	movl	104(%r10,%r11), %esi
	addl	%r13d, %esi
	movl	%r13d, %r11d
	addl	%eax, %esi
	xorl	%r9d, %r8d
	roll	$27, %r8d
	movl	%r15d, %eax
	xorl	%r14d, %eax
	andl	%r9d, %eax
	xorl	%r14d, %eax
	addl	%eax, %esi
	xorl	%r9d, %r8d
	roll	$26, %r8d
	addl	%r8d, %esi
	movl	%ebp, %eax
	roll	$23, %eax
	xorl	%ebp, %eax
	roll	$21, %eax
	xorl	%ebp, %eax
	roll	$30, %eax
	movl	%ebp, %r13d
	xorl	%edi, %r13d
	andl	%r13d, %ebx
	xorl	%edi, %ebx
	addl	%eax, %ebx
	addl	%esi, %ebx
	addl	%r12d, %esi
	movl	8(%rsp), %r8d
	movl	%r8d, %eax
	roll	$30, %eax
	xorl	%r8d, %eax
	roll	$15, %eax
	shrl	$10, %r8d
	xorl	%eax, %r8d
	movl	(%rsp), %r10d
	addl	60(%rsp), %r10d
	addl	%r8d, %r10d
	movl	%r10d, (%rsp)
	movl	%esi, %eax
	roll	$18, %eax
	xorl	%esi, %eax
	roll	$27, %eax
	movq	16(%rsp), %r8
	leaq	.Lnoise_static.99(%rip), %r12
	movl	108(%r8,%r12), %r12d
	addl	%r10d, %r12d
	addl	%r14d, %r12d
	xorl	%esi, %eax
	roll	$26, %eax
	movl	%r9d, %r8d
	xorl	%r15d, %r8d
	andl	%esi, %r8d
	xorl	%r15d, %r8d
	addl	%r8d, %r12d
	movl	%ebx, %r8d
	roll	$23, %r8d
	addl	%eax, %r12d
	xorl	%ebx, %r8d
	roll	$21, %r8d
	xorl	%ebx, %r8d
	roll	$30, %r8d
	movl	%ebx, %r10d
	xorl	%ebp, %r10d
	andl	%r10d, %r13d
	xorl	%ebp, %r13d
	addl	%r8d, %r13d
	addl	%r12d, %r13d
	movl	%r11d, 24(%rsp)
	movl	%r11d, %eax
	roll	$30, %eax
	addl	%ecx, %r12d
	xorl	%r11d, %eax
	roll	$15, %eax
	shrl	$10, %r11d
	xorl	%eax, %r11d
	movl	4(%rsp), %eax
	addl	56(%rsp), %eax
	addl	%r11d, %eax
	movl	%eax, %r11d
	movl	%eax, 4(%rsp)
	movl	%r12d, %eax
	roll	$18, %eax
	xorl	%r12d, %eax
	roll	$27, %eax
	xorl	%r12d, %eax
	roll	$26, %eax
	movq	16(%rsp), %r8
	leaq	.Lnoise_static.99(%rip), %rcx
	movl	112(%r8,%rcx), %r14d
	addl	%r11d, %r14d
	addl	%r15d, %r14d
	movl	%esi, %r8d
	xorl	%r9d, %r8d
	andl	%r12d, %r8d
	xorl	%r9d, %r8d
	movl	%r13d, %r15d
	roll	$23, %r15d
	addl	%r8d, %r14d
	xorl	%r13d, %r15d
	roll	$21, %r15d
	addl	%eax, %r14d
	xorl	%r13d, %r15d
	roll	$30, %r15d
	movl	%r13d, %r11d
	xorl	%ebx, %r11d
	andl	%r11d, %r10d
	xorl	%ebx, %r10d
	addl	%r15d, %r10d
	movl	(%rsp), %r8d
	movl	%r8d, %eax
	roll	$30, %eax
	addl	%r14d, %r10d
	xorl	%r8d, %eax
	roll	$15, %eax
	addl	%edi, %r14d
	shrl	$10, %r8d
	xorl	%eax, %r8d
	movl	12(%rsp), %edi
	addl	36(%rsp), %edi
	addl	%r8d, %edi
	movl	%edi, 12(%rsp)
	movq	16(%rsp), %rax
	movl	116(%rax,%rcx), %r8d
	addl	%edi, %r8d
	addl	%r9d, %r8d
	movl	%r14d, %eax
	roll	$18, %eax
	xorl	%r14d, %eax
	roll	$27, %eax
	xorl	%r14d, %eax
	roll	$26, %eax
	movl	%r12d, %r9d
	xorl	%esi, %r9d
	andl	%r14d, %r9d
	movl	%r10d, %edi
	roll	$23, %edi
	xorl	%esi, %r9d
	xorl	%r10d, %edi
	roll	$21, %edi
	addl	%r9d, %r8d
	xorl	%r10d, %edi
	roll	$30, %edi
	addl	%eax, %r8d
	movl	%r10d, %r15d
	xorl	%r13d, %r15d
	andl	%r15d, %r11d
	xorl	%r13d, %r11d
	addl	%edi, %r11d
	addl	%r8d, %r11d
	addl	%ebp, %r8d
	movl	4(%rsp), %r9d
	movl	%r9d, %eax
	roll	$30, %eax
	xorl	%r9d, %eax
	roll	$15, %eax
	shrl	$10, %r9d
	xorl	%eax, %r9d
	movl	32(%rsp), %edi
	addl	44(%rsp), %edi
	addl	%r9d, %edi
	movl	%edi, 32(%rsp)
	movl	%r8d, %r9d
	roll	$18, %r9d
	movq	16(%rsp), %rax
	movl	120(%rax,%rcx), %eax
	addl	%edi, %eax
	addl	%esi, %eax
	xorl	%r8d, %r9d
	roll	$27, %r9d
	movl	%r14d, %esi
	xorl	%r12d, %esi
	andl	%r8d, %esi
	xorl	%r12d, %esi
	addl	%esi, %eax
	xorl	%r8d, %r9d
	roll	$26, %r9d
	addl	%r9d, %eax
	movl	%r11d, %esi
	roll	$23, %esi
	xorl	%r11d, %esi
	roll	$21, %esi
	xorl	%r11d, %esi
	roll	$30, %esi
	movl	%r11d, %r9d
	xorl	%r10d, %r9d
	andl	%r9d, %r15d
	xorl	%r10d, %r15d
	addl	%esi, %r15d
	addl	%eax, %r15d
	addl	%ebx, %eax
	movl	12(%rsp), %edi
	movl	%edi, %esi
	roll	$30, %esi
	xorl	%edi, %esi
	roll	$15, %esi
	shrl	$10, %edi
	xorl	%esi, %edi
	movl	28(%rsp), %esi
	addl	%edx, %esi
	addl	%edi, %esi
	movl	%esi, %ebp
	movl	%esi, 28(%rsp)
	movl	%eax, %esi
	roll	$18, %esi
	xorl	%eax, %esi
	roll	$27, %esi
	movq	16(%rsp), %rdi
	movl	124(%rdi,%rcx), %ebx
	addl	%ebp, %ebx
	addl	%r12d, %ebx
	xorl	%eax, %esi
	roll	$26, %esi
	movl	%r8d, %edi
	xorl	%r14d, %edi
	andl	%eax, %edi
	xorl	%r14d, %edi
	addl	%edi, %ebx
	addl	%esi, %ebx
	movq	16(%rsp), %rsi
	movl	%r15d, %ebp
	xorl	%r11d, %ebp
	andl	%r9d, %ebp
	movl	%r15d, %r9d
	roll	$23, %r9d
	xorl	%r15d, %r9d
	roll	$21, %r9d
	xorl	%r15d, %r9d
	roll	$30, %r9d
	xorl	%r11d, %ebp
	addl	%r9d, %ebp
	addl	%ebx, %ebp
	addl	%r13d, %ebx
	movl	%edx, 52(%rsp)
	movl	8(%rsp), %r13d
	movl	24(%rsp), %ecx
	movl	%ecx, 48(%rsp)
	movl	(%rsp), %ecx
	movl	%ecx, 8(%rsp)
	movl	4(%rsp), %ecx
	movl	%ecx, (%rsp)
	movl	12(%rsp), %ecx
	movl	%ecx, 4(%rsp)
	addq	$64, %rsi
	movl	32(%rsp), %ecx
	movl	28(%rsp), %edx
	movl	%edx, 12(%rsp)
	cmpq	$192, %rsi
	jne	.Lnoise_BB34_1
	addl	144(%rsp), %ebp
	addl	152(%rsp), %r15d
	addl	160(%rsp), %r11d
	addl	136(%rsp), %r10d
	addl	168(%rsp), %ebx
	addl	176(%rsp), %eax
	addl	184(%rsp), %r8d
	addl	192(%rsp), %r14d
	movq	200(%rsp), %rcx
	movl	%ebp, (%rcx)
	movl	%r15d, 4(%rcx)
	movl	%r11d, 8(%rcx)
	movl	%r10d, 12(%rcx)
	movl	%ebx, 16(%rcx)
	movl	%eax, 20(%rcx)
	movl	%r8d, 24(%rcx)
	movl	%r14d, 28(%rcx)
	addq	$208, %rsp
	popq	%rbx
	popq	%rbp
	popq	%rdi
	popq	%rsi
	popq	%r12
	popq	%r13
	popq	%r14
	popq	%r15
	retq
	.seh_endproc

	.def	"noise_state::symmetric::SymmetricState::mix_key_and_hash";
	.scl	3;
	.type	32;
	.endef
	.p2align	4
"noise_state::symmetric::SymmetricState::mix_key_and_hash":
.seh_proc "noise_state::symmetric::SymmetricState::mix_key_and_hash"
	pushq	%rsi
	.seh_pushreg %rsi
	pushq	%rdi
	.seh_pushreg %rdi
	pushq	%rbx
	.seh_pushreg %rbx
	subq	$832, %rsp
	.seh_stackalloc 832
	movaps	%xmm6, 816(%rsp)
	.seh_savexmm %xmm6, 816
	.seh_endprologue
	movq	%rcx, %rsi
	xorps	%xmm6, %xmm6
	movaps	%xmm6, 112(%rsp)
	movaps	%xmm6, 128(%rsp)
	movaps	%xmm6, 576(%rsp)
	movaps	%xmm6, 592(%rsp)
	movaps	%xmm6, 608(%rsp)
	movaps	%xmm6, 624(%rsp)
	movaps	%xmm6, 640(%rsp)
	movaps	%xmm6, 656(%rsp)
	movaps	%xmm6, 672(%rsp)
	movaps	%xmm6, 688(%rsp)
	movaps	%xmm6, 704(%rsp)
	movaps	%xmm6, 720(%rsp)
	movaps	%xmm6, 736(%rsp)
	movaps	%xmm6, 752(%rsp)
	movaps	%xmm6, 768(%rsp)
	movq	%rdx, 96(%rsp)
	movq	$32, 104(%rsp)
	movaps	%xmm6, 320(%rsp)
	movaps	%xmm6, 304(%rsp)
	movaps	%xmm6, 368(%rsp)
	movaps	%xmm6, 384(%rsp)
	movaps	%xmm6, 400(%rsp)
	movaps	%xmm6, 416(%rsp)
	movaps	%xmm6, 432(%rsp)
	movaps	%xmm6, 448(%rsp)
	movaps	%xmm6, 464(%rsp)
	movaps	%xmm6, 480(%rsp)
	movaps	%xmm6, 496(%rsp)
	movaps	%xmm6, 512(%rsp)
	movaps	%xmm6, 528(%rsp)
	movaps	%xmm6, 544(%rsp)
	movaps	%xmm6, 560(%rsp)
	leaq	368(%rsp), %rdi
	movq	%rdi, %rcx
	movq	%rsi, %rdx
	callq	"noise_kdf::keyed::Hmac::new"
	leaq	304(%rsp), %rbx
	leaq	96(%rsp), %r8
	movl	$1, %r9d
	movq	%rbx, %rcx
	movq	%rdi, %rdx
	callq	"noise_kdf::keyed::Hmac::code"
	leaq	576(%rsp), %rdi
	movq	%rdi, %rcx
	movq	%rbx, %rdx
	callq	"noise_kdf::keyed::Hmac::new"
	movaps	%xmm6, 32(%rsp)
	movaps	%xmm6, 48(%rsp)
	movaps	%xmm6, 144(%rsp)
	movaps	%xmm6, 160(%rsp)
	leaq	.Lnoise_static.102(%rip), %r8
	leaq	144(%rsp), %rcx
	movl	$1, %r9d
	movq	%rdi, %rdx
	callq	"noise_kdf::keyed::Hmac::code"
	movaps	144(%rsp), %xmm0
	movaps	160(%rsp), %xmm1
	movaps	%xmm1, 80(%rsp)
	movaps	%xmm0, 64(%rsp)
	leaq	64(%rsp), %rbx
	movq	%rbx, 176(%rsp)
	movq	$32, 184(%rsp)
	leaq	.Lnoise_static.103(%rip), %rax
	movq	%rax, 192(%rsp)
	movq	$1, 200(%rsp)
	leaq	32(%rsp), %rcx
	leaq	176(%rsp), %r8
	movl	$2, %r9d
	movq	%rdi, %rdx
	callq	"noise_kdf::keyed::Hmac::code"
	movaps	64(%rsp), %xmm0
	movaps	80(%rsp), %xmm1
	movaps	%xmm1, 384(%rsp)
	movaps	%xmm0, 368(%rsp)
	movaps	32(%rsp), %xmm2
	movaps	48(%rsp), %xmm3
	movaps	%xmm3, 416(%rsp)
	movaps	%xmm2, 400(%rsp)
	movaps	%xmm0, 240(%rsp)
	movaps	%xmm1, 256(%rsp)
	movaps	%xmm2, 64(%rsp)
	movaps	%xmm3, 80(%rsp)
	movq	%rbx, 32(%rsp)
	movq	$32, 40(%rsp)
	leaq	.Lnoise_static.101(%rip), %rax
	movq	%rax, 48(%rsp)
	movq	$1, 56(%rsp)
	leaq	112(%rsp), %rcx
	leaq	32(%rsp), %r8
	movl	$2, %r9d
	movq	%rdi, %rdx
	callq	"noise_kdf::keyed::Hmac::code"
	movaps	64(%rsp), %xmm0
	movaps	80(%rsp), %xmm1
	movaps	%xmm1, 800(%rsp)
	movaps	%xmm0, 784(%rsp)
	movaps	112(%rsp), %xmm2
	movaps	128(%rsp), %xmm3
	movaps	%xmm2, 208(%rsp)
	movaps	%xmm3, 224(%rsp)
	movaps	%xmm0, 272(%rsp)
	movaps	%xmm1, 288(%rsp)
	movaps	240(%rsp), %xmm0
	movaps	256(%rsp), %xmm1
	movups	%xmm1, 16(%rsi)
	movups	%xmm0, (%rsi)
	leaq	32(%rsi), %rdx
	leaq	336(%rsp), %rcx
	leaq	272(%rsp), %r8
	movl	$32, %r9d
	callq	"noise_state::symmetric::hash_of_both"
	movups	336(%rsp), %xmm0
	movups	352(%rsp), %xmm1
	movups	%xmm1, 48(%rsi)
	movups	%xmm0, 32(%rsi)
	movb	$1, 64(%rsi)
	movaps	208(%rsp), %xmm0
	movaps	224(%rsp), %xmm1
	movups	%xmm0, 65(%rsi)
	movups	%xmm1, 81(%rsi)
	movq	$0, 104(%rsi)
	movaps	816(%rsp), %xmm6
	addq	$832, %rsp
	popq	%rbx
	popq	%rdi
	popq	%rsi
	retq
	.seh_endproc

	.def	"noise_kdf::keyed::Hmac::new";
	.scl	3;
	.type	32;
	.endef
	.section	.rdata,"dr"
	.p2align	4, 0x0
.Lnoise_CPI36_0:
	.zero	16,54
.Lnoise_CPI36_1:
	.long	1779033703
	.long	3144134277
	.long	1013904242
	.long	2773480762
.Lnoise_CPI36_2:
	.long	1359893119
	.long	2600822924
	.long	528734635
	.long	1541459225
.Lnoise_CPI36_3:
	.zero	16,92
	.text
	.p2align	4
"noise_kdf::keyed::Hmac::new":
.seh_proc "noise_kdf::keyed::Hmac::new"
	pushq	%rsi
	.seh_pushreg %rsi
	subq	$752, %rsp
	.seh_stackalloc 752
	movaps	%xmm8, 736(%rsp)
	.seh_savexmm %xmm8, 736
	movaps	%xmm7, 720(%rsp)
	.seh_savexmm %xmm7, 720
	movaps	%xmm6, 704(%rsp)
	.seh_savexmm %xmm6, 704
	.seh_endprologue
	movq	%rcx, %rsi
	xorps	%xmm6, %xmm6
	movaps	%xmm6, 624(%rsp)
	movaps	%xmm6, 608(%rsp)
	movaps	%xmm6, 592(%rsp)
	movaps	%xmm6, 576(%rsp)
	movaps	%xmm6, 560(%rsp)
	movaps	%xmm6, 544(%rsp)
	movaps	%xmm6, 528(%rsp)
	movaps	%xmm6, 512(%rsp)
	movaps	%xmm6, 496(%rsp)
	movaps	%xmm6, 480(%rsp)
	movaps	%xmm6, 464(%rsp)
	movaps	%xmm6, 448(%rsp)
	movaps	%xmm6, 432(%rsp)
	movaps	%xmm6, 208(%rsp)
	movaps	%xmm6, 224(%rsp)
	movaps	%xmm6, 240(%rsp)
	movaps	%xmm6, 256(%rsp)
	movaps	%xmm6, 272(%rsp)
	movaps	%xmm6, 288(%rsp)
	movq	$0, 304(%rsp)
	movaps	%xmm6, 192(%rsp)
	movaps	%xmm6, 176(%rsp)
	movups	(%rdx), %xmm0
	movups	16(%rdx), %xmm1
	movaps	%xmm1, 160(%rsp)
	movaps	%xmm0, 144(%rsp)
	movaps	.Lnoise_CPI36_0(%rip), %xmm2
	xorps	%xmm2, %xmm0
	xorps	%xmm2, %xmm1
	movaps	%xmm0, 640(%rsp)
	movaps	%xmm1, 656(%rsp)
	movaps	%xmm2, 672(%rsp)
	movaps	%xmm2, 688(%rsp)
	movaps	.Lnoise_CPI36_1(%rip), %xmm7
	movaps	%xmm7, 32(%rsp)
	movaps	.Lnoise_CPI36_2(%rip), %xmm8
	movaps	%xmm8, 48(%rsp)
	movaps	%xmm6, 64(%rsp)
	movaps	%xmm6, 80(%rsp)
	movaps	%xmm6, 96(%rsp)
	movaps	%xmm6, 112(%rsp)
	movq	$0, 128(%rsp)
	leaq	32(%rsp), %rcx
	leaq	640(%rsp), %rdx
	movl	$64, %r8d
	callq	"sha2::block256::Core256::update"
	movq	128(%rsp), %rax
	movq	%rax, 416(%rsp)
	movaps	112(%rsp), %xmm0
	movaps	%xmm0, 400(%rsp)
	movaps	96(%rsp), %xmm0
	movaps	%xmm0, 384(%rsp)
	movaps	32(%rsp), %xmm0
	movaps	48(%rsp), %xmm1
	movaps	64(%rsp), %xmm2
	movaps	80(%rsp), %xmm3
	movaps	%xmm3, 368(%rsp)
	movaps	%xmm2, 352(%rsp)
	movaps	%xmm1, 336(%rsp)
	movaps	%xmm0, 320(%rsp)
	movaps	.Lnoise_CPI36_3(%rip), %xmm0
	movaps	144(%rsp), %xmm1
	xorps	%xmm0, %xmm1
	movaps	160(%rsp), %xmm2
	xorps	%xmm0, %xmm2
	movaps	%xmm1, 144(%rsp)
	movaps	%xmm2, 160(%rsp)
	movaps	176(%rsp), %xmm1
	xorps	%xmm0, %xmm1
	xorps	192(%rsp), %xmm0
	movaps	%xmm1, 176(%rsp)
	movaps	%xmm0, 192(%rsp)
	movaps	%xmm7, 32(%rsp)
	movaps	%xmm8, 48(%rsp)
	movaps	%xmm6, 64(%rsp)
	movaps	%xmm6, 80(%rsp)
	movaps	%xmm6, 96(%rsp)
	movaps	%xmm6, 112(%rsp)
	movq	$0, 128(%rsp)
	leaq	32(%rsp), %rcx
	leaq	144(%rsp), %rdx
	movl	$64, %r8d
	callq	"sha2::block256::Core256::update"
	movq	128(%rsp), %rax
	movq	%rax, 304(%rsp)
	movaps	112(%rsp), %xmm0
	movaps	%xmm0, 288(%rsp)
	movaps	96(%rsp), %xmm0
	movaps	%xmm0, 272(%rsp)
	movaps	32(%rsp), %xmm0
	movaps	48(%rsp), %xmm1
	movaps	64(%rsp), %xmm2
	movaps	80(%rsp), %xmm3
	movaps	%xmm3, 256(%rsp)
	movaps	%xmm2, 240(%rsp)
	movaps	%xmm1, 224(%rsp)
	movaps	%xmm0, 208(%rsp)
	movaps	320(%rsp), %xmm0
	movaps	336(%rsp), %xmm1
	movaps	352(%rsp), %xmm2
	movaps	368(%rsp), %xmm3
	movaps	%xmm0, 432(%rsp)
	movaps	%xmm1, 448(%rsp)
	movaps	%xmm2, 464(%rsp)
	movaps	%xmm3, 480(%rsp)
	movaps	384(%rsp), %xmm0
	movaps	%xmm0, 496(%rsp)
	movaps	400(%rsp), %xmm0
	movaps	%xmm0, 512(%rsp)
	movq	416(%rsp), %rax
	movq	%rax, 528(%rsp)
	movq	304(%rsp), %rax
	movq	%rax, 632(%rsp)
	movaps	288(%rsp), %xmm0
	movups	%xmm0, 616(%rsp)
	movaps	272(%rsp), %xmm0
	movups	%xmm0, 600(%rsp)
	movaps	208(%rsp), %xmm0
	movaps	224(%rsp), %xmm1
	movaps	240(%rsp), %xmm2
	movaps	256(%rsp), %xmm3
	movups	%xmm3, 584(%rsp)
	movups	%xmm2, 568(%rsp)
	movups	%xmm1, 552(%rsp)
	movups	%xmm0, 536(%rsp)
	leaq	432(%rsp), %rdx
	movl	$208, %r8d
	movq	%rsi, %rcx
	callq	memcpy
	movaps	704(%rsp), %xmm6
	movaps	720(%rsp), %xmm7
	movaps	736(%rsp), %xmm8
	addq	$752, %rsp
	popq	%rsi
	retq
	.seh_endproc

	.def	"noise_kdf::keyed::Hmac::code";
	.scl	3;
	.type	32;
	.endef
	.p2align	4
"noise_kdf::keyed::Hmac::code":
.seh_proc "noise_kdf::keyed::Hmac::code"
	pushq	%r15
	.seh_pushreg %r15
	pushq	%r14
	.seh_pushreg %r14
	pushq	%rsi
	.seh_pushreg %rsi
	pushq	%rdi
	.seh_pushreg %rdi
	pushq	%rbx
	.seh_pushreg %rbx
	subq	$576, %rsp
	.seh_stackalloc 576
	movdqa	%xmm6, 560(%rsp)
	.seh_savexmm %xmm6, 560
	.seh_endprologue
	movq	%r9, %rbx
	movq	%r8, %r14
	movq	%rdx, %rdi
	movq	%rcx, %rsi
	movups	(%rdx), %xmm0
	movups	16(%rdx), %xmm1
	movaps	%xmm1, 256(%rsp)
	movaps	%xmm0, 240(%rsp)
	movups	32(%rdx), %xmm2
	movups	48(%rdx), %xmm3
	movups	64(%rdx), %xmm4
	movups	80(%rdx), %xmm5
	movaps	%xmm2, 272(%rsp)
	movaps	%xmm3, 288(%rsp)
	movaps	%xmm4, 304(%rsp)
	movaps	%xmm5, 320(%rsp)
	movq	96(%rdx), %rax
	movups	%xmm1, 55(%rsp)
	movups	%xmm2, 71(%rsp)
	movups	%xmm3, 87(%rsp)
	movups	%xmm4, 103(%rsp)
	movups	%xmm5, 119(%rsp)
	movups	%xmm0, 39(%rsp)
	movups	119(%rsp), %xmm0
	movaps	%xmm0, 224(%rsp)
	movups	103(%rsp), %xmm0
	movaps	%xmm0, 208(%rsp)
	movups	39(%rsp), %xmm0
	movups	55(%rsp), %xmm1
	movups	71(%rsp), %xmm2
	movups	87(%rsp), %xmm3
	movaps	%xmm3, 192(%rsp)
	movaps	%xmm2, 176(%rsp)
	movaps	%xmm1, 160(%rsp)
	movaps	%xmm0, 144(%rsp)
	movaps	224(%rsp), %xmm0
	movaps	%xmm0, 528(%rsp)
	movaps	208(%rsp), %xmm0
	movaps	%xmm0, 512(%rsp)
	movaps	144(%rsp), %xmm0
	movaps	160(%rsp), %xmm1
	movaps	176(%rsp), %xmm2
	movaps	192(%rsp), %xmm3
	movaps	%xmm3, 496(%rsp)
	movaps	%xmm2, 480(%rsp)
	movaps	%xmm1, 464(%rsp)
	movaps	%xmm0, 448(%rsp)
	movq	%rax, 544(%rsp)
	shlq	$4, %rbx
	xorl	%r15d, %r15d
	.p2align	4
.Lnoise_BB37_1:
	movq	(%r14,%r15), %rdx
	movq	8(%r14,%r15), %r8
	leaq	448(%rsp), %rcx
	callq	"sha2::block256::Core256::update"
	addq	$16, %r15
	cmpq	%r15, %rbx
	jne	.Lnoise_BB37_1
	movups	104(%rdi), %xmm0
	movups	120(%rdi), %xmm1
	movaps	%xmm1, 256(%rsp)
	movaps	%xmm0, 240(%rsp)
	movups	136(%rdi), %xmm2
	movups	152(%rdi), %xmm3
	movups	168(%rdi), %xmm4
	movups	184(%rdi), %xmm5
	movaps	%xmm2, 272(%rsp)
	movaps	%xmm3, 288(%rsp)
	movaps	%xmm4, 304(%rsp)
	movaps	%xmm5, 320(%rsp)
	movq	200(%rdi), %rax
	movups	%xmm1, 55(%rsp)
	movups	%xmm2, 71(%rsp)
	movups	%xmm3, 87(%rsp)
	movups	%xmm4, 103(%rsp)
	movups	%xmm5, 119(%rsp)
	movups	%xmm0, 39(%rsp)
	movups	119(%rsp), %xmm0
	movaps	%xmm0, 224(%rsp)
	movups	103(%rsp), %xmm0
	movaps	%xmm0, 208(%rsp)
	movups	39(%rsp), %xmm0
	movups	55(%rsp), %xmm1
	movups	71(%rsp), %xmm2
	movups	87(%rsp), %xmm3
	movaps	%xmm3, 192(%rsp)
	movaps	%xmm2, 176(%rsp)
	movaps	%xmm1, 160(%rsp)
	movaps	%xmm0, 144(%rsp)
	movaps	224(%rsp), %xmm0
	movaps	%xmm0, 416(%rsp)
	movaps	208(%rsp), %xmm0
	movaps	%xmm0, 400(%rsp)
	movaps	144(%rsp), %xmm0
	movaps	160(%rsp), %xmm1
	movaps	176(%rsp), %xmm2
	movaps	192(%rsp), %xmm3
	movaps	%xmm3, 384(%rsp)
	movaps	%xmm2, 368(%rsp)
	movaps	%xmm1, 352(%rsp)
	movaps	%xmm0, 336(%rsp)
	movq	%rax, 432(%rsp)
	movq	544(%rsp), %r15
	movaps	528(%rsp), %xmm0
	movaps	%xmm0, 112(%rsp)
	movaps	512(%rsp), %xmm0
	movaps	%xmm0, 96(%rsp)
	movaps	448(%rsp), %xmm0
	movaps	464(%rsp), %xmm1
	movaps	480(%rsp), %xmm2
	movaps	496(%rsp), %xmm3
	movaps	%xmm3, 80(%rsp)
	movaps	%xmm2, 64(%rsp)
	movaps	%xmm1, 48(%rsp)
	movaps	%xmm0, 32(%rsp)
	movq	%r15, 128(%rsp)
	movl	$55, %edi
	movl	$55, %r8d
	subl	%r15d, %r8d
	andl	$63, %r8d
	incq	%r8
	leaq	.Lnoise_static.100(%rip), %rbx
	leaq	32(%rsp), %r14
	movq	%r14, %rcx
	movq	%rbx, %rdx
	callq	"sha2::block256::Core256::update"
	movq	%r15, %rax
	shrq	$53, %rax
	movzbl	%al, %eax
	movq	%r15, %rcx
	shlq	$59, %rcx
	movl	%r15d, %edx
	andl	$8160, %edx
	shlq	$43, %rdx
	orq	%rcx, %rdx
	movl	%r15d, %ecx
	andl	$2088960, %ecx
	shlq	$27, %rcx
	orq	%rdx, %rcx
	movl	%r15d, %edx
	andl	$534773760, %edx
	shlq	$11, %rdx
	orq	%rcx, %rdx
	movq	%r15, %rcx
	shrq	$5, %rcx
	andl	$-16777216, %ecx
	orq	%rdx, %rcx
	movq	%r15, %rdx
	shrq	$21, %rdx
	andl	$16711680, %edx
	orq	%rcx, %rdx
	shrq	$37, %r15
	andl	$65280, %r15d
	orq	%rdx, %r15
	orq	%rax, %r15
	movq	%r15, 240(%rsp)
	leaq	240(%rsp), %rdx
	movl	$8, %r8d
	movq	%r14, %rcx
	callq	"sha2::block256::Core256::update"
	movdqa	32(%rsp), %xmm0
	movdqa	48(%rsp), %xmm1
	pxor	%xmm6, %xmm6
	movdqa	%xmm0, %xmm2
	punpckhbw	%xmm6, %xmm2
	pshuflw	$27, %xmm2, %xmm2
	pshufhw	$27, %xmm2, %xmm2
	punpcklbw	%xmm6, %xmm0
	pshuflw	$27, %xmm0, %xmm0
	pshufhw	$27, %xmm0, %xmm0
	packuswb	%xmm2, %xmm0
	movdqa	%xmm1, %xmm2
	punpckhbw	%xmm6, %xmm2
	pshuflw	$27, %xmm2, %xmm2
	pshufhw	$27, %xmm2, %xmm2
	punpcklbw	%xmm6, %xmm1
	pshuflw	$27, %xmm1, %xmm1
	pshufhw	$27, %xmm1, %xmm1
	packuswb	%xmm2, %xmm1
	movdqa	%xmm0, 32(%rsp)
	movdqa	%xmm1, 48(%rsp)
	leaq	336(%rsp), %rcx
	leaq	32(%rsp), %rdx
	movl	$32, %r8d
	callq	"sha2::block256::Core256::update"
	movq	432(%rsp), %r15
	movaps	416(%rsp), %xmm0
	movaps	%xmm0, 112(%rsp)
	movaps	400(%rsp), %xmm0
	movaps	%xmm0, 96(%rsp)
	movaps	336(%rsp), %xmm0
	movaps	352(%rsp), %xmm1
	movaps	368(%rsp), %xmm2
	movaps	384(%rsp), %xmm3
	movaps	%xmm3, 80(%rsp)
	movaps	%xmm2, 64(%rsp)
	movaps	%xmm1, 48(%rsp)
	movaps	%xmm0, 32(%rsp)
	movq	%r15, 128(%rsp)
	subl	%r15d, %edi
	andl	$63, %edi
	incq	%rdi
	leaq	32(%rsp), %r14
	movq	%r14, %rcx
	movq	%rbx, %rdx
	movq	%rdi, %r8
	callq	"sha2::block256::Core256::update"
	movq	%r15, %rax
	shrq	$53, %rax
	movzbl	%al, %eax
	movq	%r15, %rcx
	shlq	$59, %rcx
	movl	%r15d, %edx
	andl	$8160, %edx
	shlq	$43, %rdx
	orq	%rcx, %rdx
	movl	%r15d, %ecx
	andl	$2088960, %ecx
	shlq	$27, %rcx
	orq	%rdx, %rcx
	movl	%r15d, %edx
	andl	$534773760, %edx
	shlq	$11, %rdx
	orq	%rcx, %rdx
	movq	%r15, %rcx
	shrq	$5, %rcx
	andl	$-16777216, %ecx
	orq	%rdx, %rcx
	movq	%r15, %rdx
	shrq	$21, %rdx
	andl	$16711680, %edx
	orq	%rcx, %rdx
	shrq	$37, %r15
	andl	$65280, %r15d
	orq	%rdx, %r15
	orq	%rax, %r15
	movq	%r15, 240(%rsp)
	leaq	240(%rsp), %rdx
	movl	$8, %r8d
	movq	%r14, %rcx
	callq	"sha2::block256::Core256::update"
	movdqa	32(%rsp), %xmm0
	movdqa	48(%rsp), %xmm1
	movdqa	%xmm0, %xmm2
	punpckhbw	%xmm6, %xmm2
	pshuflw	$27, %xmm2, %xmm2
	pshufhw	$27, %xmm2, %xmm2
	punpcklbw	%xmm6, %xmm0
	pshuflw	$27, %xmm0, %xmm0
	pshufhw	$27, %xmm0, %xmm0
	packuswb	%xmm2, %xmm0
	movdqa	%xmm1, %xmm2
	punpckhbw	%xmm6, %xmm2
	pshuflw	$27, %xmm2, %xmm2
	pshufhw	$27, %xmm2, %xmm2
	punpcklbw	%xmm6, %xmm1
	pshuflw	$27, %xmm1, %xmm1
	pshufhw	$27, %xmm1, %xmm1
	packuswb	%xmm2, %xmm1
	movdqu	%xmm0, (%rsi)
	movdqu	%xmm1, 16(%rsi)
	movaps	560(%rsp), %xmm6
	addq	$576, %rsp
	popq	%rbx
	popq	%rdi
	popq	%rsi
	popq	%r14
	popq	%r15
	retq
	.seh_endproc

	.def	"noise_c::supplied_keys::result_for";
	.scl	3;
	.type	32;
	.endef
	.p2align	4
"noise_c::supplied_keys::result_for":
.seh_proc "noise_c::supplied_keys::result_for"
	pushq	%rsi
	.seh_pushreg %rsi
	subq	$96, %rsp
	.seh_stackalloc 96
	.seh_endprologue
	movq	%rcx, %rsi
	pxor	%xmm0, %xmm0
	movdqa	%xmm0, 64(%rsp)
	movdqa	%xmm0, 48(%rsp)
	movb	$0, 80(%rsp)
	testq	%r8, %r8
	je	.Lnoise_BB38_5
	movq	144(%rsp), %rax
	cmpb	$0, (%rdx)
	setne	%cl
	cmpb	%cl, %r9b
	jne	.Lnoise_BB38_3
	movdqu	1(%rdx), %xmm0
	movdqu	17(%rdx), %xmm1
	movdqu	(%rax), %xmm2
	pcmpeqb	%xmm0, %xmm2
	movdqu	16(%rax), %xmm0
	pcmpeqb	%xmm1, %xmm0
	pand	%xmm2, %xmm0
	pmovmskb	%xmm0, %ecx
	xorl	$65535, %ecx
	je	.Lnoise_BB38_7
.Lnoise_BB38_3:
	addq	$65, %rdx
	decq	%r8
	movq	%rax, 32(%rsp)
	leaq	48(%rsp), %rcx
	callq	"noise_c::supplied_keys::result_for"
	movzbl	48(%rsp), %eax
.Lnoise_BB38_4:
	movb	%al, (%rsi)
	movups	49(%rsp), %xmm0
	movups	65(%rsp), %xmm1
	movups	%xmm0, 1(%rsi)
	movups	%xmm1, 17(%rsi)
	addq	$96, %rsp
	popq	%rsi
	retq
.Lnoise_BB38_5:
	movdqu	%xmm0, 16(%rsi)
	movdqu	%xmm0, (%rsi)
	movb	$0, 32(%rsi)
	addq	$96, %rsp
	popq	%rsi
	retq
.Lnoise_BB38_7:
	movdqu	33(%rdx), %xmm0
	movdqu	49(%rdx), %xmm1
	movdqu	%xmm1, 65(%rsp)
	movdqu	%xmm0, 49(%rsp)
	movb	$1, %al
	jmp	.Lnoise_BB38_4
	.seh_endproc

	.def	"noise_handshake::setup::mix_premessage";
	.scl	3;
	.type	32;
	.endef
	.p2align	4
"noise_handshake::setup::mix_premessage":
.seh_proc "noise_handshake::setup::mix_premessage"
	pushq	%r15
	.seh_pushreg %r15
	pushq	%r14
	.seh_pushreg %r14
	pushq	%rsi
	.seh_pushreg %rsi
	pushq	%rdi
	.seh_pushreg %rdi
	pushq	%rbp
	.seh_pushreg %rbp
	pushq	%rbx
	.seh_pushreg %rbx
	subq	$152, %rsp
	.seh_stackalloc 152
	.seh_endprologue
	movq	240(%rsp), %rdi
	xorps	%xmm0, %xmm0
	movaps	%xmm0, 64(%rsp)
	movaps	%xmm0, 48(%rsp)
	testq	%rdi, %rdi
	je	.Lnoise_BB39_8
	movzbl	(%r9), %eax
	leal	-2(%rax), %r10d
	cmpl	$5, %r10d
	jae	.Lnoise_BB39_2
.Lnoise_BB39_7:
	incq	%r9
	decq	%rdi
	movq	%rdi, 32(%rsp)
	callq	"noise_handshake::setup::mix_premessage"
	nop
.Lnoise_BB39_8:
	addq	$152, %rsp
	popq	%rbx
	popq	%rbp
	popq	%rdi
	popq	%rsi
	popq	%r14
	popq	%r15
	retq
.Lnoise_BB39_2:
	testl	%eax, %eax
	jne	.Lnoise_BB39_5
	cmpb	$1, (%r8)
	jne	.Lnoise_BB39_9
	movq	%r9, %r14
	leaq	1(%r8), %rax
	movups	(%rax), %xmm0
	movups	16(%rax), %xmm1
	movaps	%xmm1, 64(%rsp)
	movaps	%xmm0, 48(%rsp)
	leaq	48(%rsp), %rax
	movq	%rcx, %rsi
	movl	%edx, %ebx
	movq	%r8, %r15
	movq	%rax, %r8
	callq	"noise_handshake::tokens::mix_ephemeral"
	movq	%rsi, %rcx
	movl	%ebx, %edx
	movq	%r15, %r8
	movq	%r14, %r9
	jmp	.Lnoise_BB39_7
.Lnoise_BB39_5:
	cmpb	$1, 33(%r8)
	jne	.Lnoise_BB39_9
	movq	%r9, %rsi
	leaq	34(%r8), %rax
	movups	(%rax), %xmm0
	movups	16(%rax), %xmm1
	movaps	%xmm1, 96(%rsp)
	movaps	%xmm0, 80(%rsp)
	leaq	32(%rcx), %rax
	leaq	120(%rsp), %r10
	leaq	80(%rsp), %r11
	movl	$32, %r9d
	movq	%rcx, %rbx
	movq	%r10, %rcx
	movl	%edx, %ebp
	movq	%rax, %rdx
	movq	%r8, %r14
	movq	%r11, %r8
	callq	"noise_state::symmetric::hash_of_both"
	movq	%rbx, %rcx
	movl	%ebp, %edx
	movq	%r14, %r8
	movups	120(%rsp), %xmm0
	movups	136(%rsp), %xmm1
	movups	%xmm1, 48(%rbx)
	movups	%xmm0, 32(%rbx)
	movq	%rsi, %r9
	jmp	.Lnoise_BB39_7
.Lnoise_BB39_9:
	ud2
	.seh_endproc

	.def	"noise_names::valid::ValidPattern::overhead";
	.scl	3;
	.type	32;
	.endef
	.section	.rdata,"dr"
	.p2align	4, 0x0
.Lnoise_CPI40_0:
	.byte	1
	.byte	1
	.byte	1
	.byte	1
	.zero	1
	.zero	1
	.zero	1
	.zero	1
	.zero	1
	.zero	1
	.zero	1
	.zero	1
	.zero	1
	.zero	1
	.zero	1
	.zero	1
	.text
	.p2align	4
"noise_names::valid::ValidPattern::overhead":
.seh_proc "noise_names::valid::ValidPattern::overhead"
	pushq	%rsi
	.seh_pushreg %rsi
	pushq	%rdi
	.seh_pushreg %rdi
	pushq	%rbx
	.seh_pushreg %rbx
	subq	$80, %rsp
	.seh_stackalloc 80
	.seh_endprologue
	movq	%rcx, %rsi
	movw	$0, 72(%rsp)
	movq	$0, 64(%rsp)
	movzbl	%dl, %edi
	decq	%rdi
	leaq	64(%rsp), %rcx
	movq	%rsi, %rdx
	movq	%rdi, %r8
	callq	"noise_names::valid::ValidPattern::seen_after"
	movzbl	72(%rsp), %eax
	movb	%al, 56(%rsp)
	movq	64(%rsp), %rax
	movq	%rax, 48(%rsp)
	movzbl	73(%rsp), %r8d
	movq	264(%rsi), %rax
	addq	$72, %rsi
	testq	%rax, %rax
	je	.Lnoise_BB40_8
	xorl	%ecx, %ecx
	movq	%rsi, %rdx
	jmp	.Lnoise_BB40_3
	.p2align	4
.Lnoise_BB40_2:
	incq	%rcx
	addq	$24, %rdx
	cmpq	%rax, %rcx
	je	.Lnoise_BB40_8
.Lnoise_BB40_3:
	leaq	(%rcx,%rcx,2), %r9
	movq	16(%rsi,%r9,8), %r9
	testq	%r9, %r9
	je	.Lnoise_BB40_2
	xorl	%r10d, %r10d
	.p2align	4
.Lnoise_BB40_5:
	cmpb	$6, (%rdx,%r10)
	je	.Lnoise_BB40_7
	incq	%r10
	cmpq	%r10, %r9
	jne	.Lnoise_BB40_5
	jmp	.Lnoise_BB40_2
.Lnoise_BB40_7:
	movb	$1, %bl
	jmp	.Lnoise_BB40_9
.Lnoise_BB40_8:
	xorl	%ebx, %ebx
.Lnoise_BB40_9:
	leaq	(%rdi,%rdi,2), %rax
	leaq	(%rsi,%rax,8), %r9
	movq	16(%rsi,%rax,8), %rax
	movq	%rax, 32(%rsp)
	leaq	48(%rsp), %rcx
	movl	%ebx, %edx
	callq	"noise_names::seen::Seen::tokens_len"
	movd	52(%rsp), %xmm0
	pand	.Lnoise_CPI40_0(%rip), %xmm0
	movd	%xmm0, %ecx
	testl	%ecx, %ecx
	je	.Lnoise_BB40_12
.Lnoise_BB40_10:
	movw	$16, %cx
.Lnoise_BB40_11:
	movzwl	%cx, %ecx
	addl	%eax, %ecx
	movl	%ecx, %eax
	addq	$80, %rsp
	popq	%rbx
	popq	%rdi
	popq	%rsi
	retq
.Lnoise_BB40_12:
	movzbl	56(%rsp), %ecx
	notb	%bl
	orb	%cl, %bl
	testb	$1, %bl
	je	.Lnoise_BB40_15
	cmpb	$1, %cl
	je	.Lnoise_BB40_10
	jmp	.Lnoise_BB40_17
.Lnoise_BB40_15:
	testb	$1, 48(%rsp)
	jne	.Lnoise_BB40_10
	testb	$1, 50(%rsp)
	jne	.Lnoise_BB40_10
.Lnoise_BB40_17:
	xorl	%ecx, %ecx
	jmp	.Lnoise_BB40_11
	.seh_endproc

	.def	"noise_names::seen::Seen::tokens_len";
	.scl	3;
	.type	32;
	.endef
	.p2align	4
"noise_names::seen::Seen::tokens_len":
.seh_proc "noise_names::seen::Seen::tokens_len"
	pushq	%rsi
	.seh_pushreg %rsi
	.seh_endprologue
	movq	48(%rsp), %r10
	testq	%r10, %r10
	je	.Lnoise_BB41_4
	testb	%dl, %dl
	je	.Lnoise_BB41_5
	testb	%r8b, %r8b
	je	.Lnoise_BB41_25
	xorl	%edx, %edx
	movzbl	(%r9,%rdx), %eax
	leaq	.Lnoise_JTI41_1(%rip), %r8
	movslq	(%r8,%rax,4), %r11
	addq	%r8, %r11
	xorl	%eax, %eax
	jmpq	*%r11
.Lnoise_BB41_4:
	xorl	%eax, %eax
	popq	%rsi
	retq
.Lnoise_BB41_5:
	xorl	%eax, %eax
	xorl	%edx, %edx
	jmp	.Lnoise_BB41_8
.Lnoise_BB41_6:
	movb	$1, 6(%rcx)
	.p2align	4
.Lnoise_BB41_7:
	incq	%rdx
	cmpq	%rdx, %r10
	je	.Lnoise_BB41_58
.Lnoise_BB41_8:
	movzbl	(%r9,%rdx), %r11d
	leaq	.Lnoise_JTI41_0(%rip), %rsi
	movslq	(%rsi,%r11,4), %r11
	addq	%rsi, %r11
	jmpq	*%r11
.Lnoise_BB41_9:
	addl	$32, %eax
	testb	%r8b, %r8b
	je	.Lnoise_BB41_23
	movb	$1, 2(%rcx)
	jmp	.Lnoise_BB41_7
.Lnoise_BB41_11:
	movb	$1, 4(%rcx)
	jmp	.Lnoise_BB41_7
.Lnoise_BB41_12:
	movb	$1, 5(%rcx)
	jmp	.Lnoise_BB41_7
.Lnoise_BB41_13:
	cmpb	$0, 4(%rcx)
	jne	.Lnoise_BB41_18
	cmpb	$0, 5(%rcx)
	jne	.Lnoise_BB41_18
	cmpb	$0, 6(%rcx)
	jne	.Lnoise_BB41_18
	cmpb	$0, 7(%rcx)
	jne	.Lnoise_BB41_18
	movw	$32, %r11w
	cmpb	$1, 8(%rcx)
	jne	.Lnoise_BB41_19
.Lnoise_BB41_18:
	movw	$48, %r11w
.Lnoise_BB41_19:
	movzwl	%r11w, %r11d
	addl	%eax, %r11d
	movl	%r11d, %eax
	testb	%r8b, %r8b
	je	.Lnoise_BB41_24
	movb	$1, 3(%rcx)
	jmp	.Lnoise_BB41_7
.Lnoise_BB41_21:
	movb	$1, 7(%rcx)
	jmp	.Lnoise_BB41_7
.Lnoise_BB41_22:
	movb	$1, 8(%rcx)
	jmp	.Lnoise_BB41_7
.Lnoise_BB41_23:
	movb	$1, (%rcx)
	jmp	.Lnoise_BB41_7
.Lnoise_BB41_24:
	movb	$1, 1(%rcx)
	jmp	.Lnoise_BB41_7
.Lnoise_BB41_25:
	xorl	%eax, %eax
	xorl	%edx, %edx
	jmp	.Lnoise_BB41_28
.Lnoise_BB41_26:
	movb	$1, 6(%rcx)
	.p2align	4
.Lnoise_BB41_27:
	incq	%rdx
	cmpq	%rdx, %r10
	je	.Lnoise_BB41_58
.Lnoise_BB41_28:
	movzbl	(%r9,%rdx), %r8d
	leaq	.Lnoise_JTI41_2(%rip), %r11
	movslq	(%r11,%r8,4), %r8
	addq	%r11, %r8
	jmpq	*%r8
.Lnoise_BB41_29:
	addl	$32, %eax
	movb	$1, (%rcx)
	jmp	.Lnoise_BB41_27
.Lnoise_BB41_30:
	movb	$1, 4(%rcx)
	jmp	.Lnoise_BB41_27
.Lnoise_BB41_31:
	movb	$1, 5(%rcx)
	jmp	.Lnoise_BB41_27
.Lnoise_BB41_32:
	cmpb	$0, 4(%rcx)
	jne	.Lnoise_BB41_39
	cmpb	$0, 5(%rcx)
	jne	.Lnoise_BB41_39
	cmpb	$0, 6(%rcx)
	jne	.Lnoise_BB41_39
	cmpb	$0, 7(%rcx)
	jne	.Lnoise_BB41_39
	cmpb	$0, 8(%rcx)
	jne	.Lnoise_BB41_39
	cmpb	$0, (%rcx)
	jne	.Lnoise_BB41_39
	movw	$32, %r8w
	cmpb	$1, 2(%rcx)
	jne	.Lnoise_BB41_40
.Lnoise_BB41_39:
	movw	$48, %r8w
.Lnoise_BB41_40:
	movzwl	%r8w, %r8d
	addl	%eax, %r8d
	movb	$1, 1(%rcx)
	movl	%r8d, %eax
	jmp	.Lnoise_BB41_27
.Lnoise_BB41_41:
	movb	$1, 7(%rcx)
	jmp	.Lnoise_BB41_27
.Lnoise_BB41_42:
	movb	$1, 8(%rcx)
	jmp	.Lnoise_BB41_27
.Lnoise_BB41_43:
	movzbl	(%r9,%rdx), %r11d
	movslq	(%r8,%r11,4), %r11
	addq	%r8, %r11
	jmpq	*%r11
.Lnoise_BB41_44:
	addl	$32, %eax
	movb	$1, 2(%rcx)
	jmp	.Lnoise_BB41_57
.Lnoise_BB41_45:
	movb	$1, 7(%rcx)
	jmp	.Lnoise_BB41_57
.Lnoise_BB41_46:
	movb	$1, 5(%rcx)
	jmp	.Lnoise_BB41_57
.Lnoise_BB41_47:
	movb	$1, 6(%rcx)
	jmp	.Lnoise_BB41_57
.Lnoise_BB41_48:
	cmpb	$0, 4(%rcx)
	jne	.Lnoise_BB41_55
	cmpb	$0, 5(%rcx)
	jne	.Lnoise_BB41_55
	cmpb	$0, 6(%rcx)
	jne	.Lnoise_BB41_55
	cmpb	$0, 7(%rcx)
	jne	.Lnoise_BB41_55
	cmpb	$0, 8(%rcx)
	jne	.Lnoise_BB41_55
	cmpb	$0, (%rcx)
	jne	.Lnoise_BB41_55
	movw	$32, %r11w
	cmpb	$1, 2(%rcx)
	jne	.Lnoise_BB41_56
.Lnoise_BB41_55:
	movw	$48, %r11w
.Lnoise_BB41_56:
	movzwl	%r11w, %r11d
	addl	%eax, %r11d
	movb	$1, 3(%rcx)
	movl	%r11d, %eax
.Lnoise_BB41_57:
	incq	%rdx
	cmpq	%rdx, %r10
	jne	.Lnoise_BB41_43
.Lnoise_BB41_58:
	popq	%rsi
	retq
.Lnoise_BB41_59:
	movb	$1, 4(%rcx)
	jmp	.Lnoise_BB41_57
.Lnoise_BB41_60:
	movb	$1, 8(%rcx)
	jmp	.Lnoise_BB41_57
	.section	.rdata,"dr"
	.p2align	2, 0x0
.Lnoise_JTI41_0:
	.long	.Lnoise_BB41_9-.Lnoise_JTI41_0
	.long	.Lnoise_BB41_13-.Lnoise_JTI41_0
	.long	.Lnoise_BB41_11-.Lnoise_JTI41_0
	.long	.Lnoise_BB41_12-.Lnoise_JTI41_0
	.long	.Lnoise_BB41_6-.Lnoise_JTI41_0
	.long	.Lnoise_BB41_21-.Lnoise_JTI41_0
	.long	.Lnoise_BB41_22-.Lnoise_JTI41_0
.Lnoise_JTI41_1:
	.long	.Lnoise_BB41_44-.Lnoise_JTI41_1
	.long	.Lnoise_BB41_48-.Lnoise_JTI41_1
	.long	.Lnoise_BB41_59-.Lnoise_JTI41_1
	.long	.Lnoise_BB41_46-.Lnoise_JTI41_1
	.long	.Lnoise_BB41_47-.Lnoise_JTI41_1
	.long	.Lnoise_BB41_45-.Lnoise_JTI41_1
	.long	.Lnoise_BB41_60-.Lnoise_JTI41_1
.Lnoise_JTI41_2:
	.long	.Lnoise_BB41_29-.Lnoise_JTI41_2
	.long	.Lnoise_BB41_32-.Lnoise_JTI41_2
	.long	.Lnoise_BB41_30-.Lnoise_JTI41_2
	.long	.Lnoise_BB41_31-.Lnoise_JTI41_2
	.long	.Lnoise_BB41_26-.Lnoise_JTI41_2
	.long	.Lnoise_BB41_41-.Lnoise_JTI41_2
	.long	.Lnoise_BB41_42-.Lnoise_JTI41_2
	.text
	.seh_endproc

	.def	"noise_c::message_layout::piece";
	.scl	3;
	.type	32;
	.endef
	.section	.rdata,"dr"
	.p2align	4, 0x0
.Lnoise_CPI42_0:
	.byte	1
	.byte	1
	.byte	1
	.byte	1
	.zero	1
	.zero	1
	.zero	1
	.zero	1
	.zero	1
	.zero	1
	.zero	1
	.zero	1
	.zero	1
	.zero	1
	.zero	1
	.zero	1
	.text
	.p2align	4
"noise_c::message_layout::piece":
.seh_proc "noise_c::message_layout::piece"
	pushq	%r15
	.seh_pushreg %r15
	pushq	%r14
	.seh_pushreg %r14
	pushq	%r13
	.seh_pushreg %r13
	pushq	%r12
	.seh_pushreg %r12
	pushq	%rsi
	.seh_pushreg %rsi
	pushq	%rdi
	.seh_pushreg %rdi
	pushq	%rbp
	.seh_pushreg %rbp
	pushq	%rbx
	.seh_pushreg %rbx
	subq	$88, %rsp
	.seh_stackalloc 88
	.seh_endprologue
	movl	%r9d, %ebx
	movq	%rdx, %rdi
	movq	%rcx, %rsi
	movw	$0, 56(%rsp)
	movq	$0, 48(%rsp)
	movzbl	%r8b, %r14d
	decq	%r14
	leaq	48(%rsp), %rcx
	movq	%r14, %r8
	callq	"noise_names::valid::ValidPattern::seen_after"
	movzbl	56(%rsp), %eax
	movb	%al, 72(%rsp)
	movq	48(%rsp), %rax
	movq	%rax, 64(%rsp)
	movzbl	57(%rsp), %r8d
	leaq	72(%rdi), %r15
	movq	264(%rdi), %r12
	testq	%r12, %r12
	je	.Lnoise_BB42_8
	xorl	%eax, %eax
	movq	%r15, %rcx
	jmp	.Lnoise_BB42_2
	.p2align	4
.Lnoise_BB42_7:
	incq	%rax
	addq	$24, %rcx
	cmpq	%r12, %rax
	je	.Lnoise_BB42_8
.Lnoise_BB42_2:
	leaq	(%rax,%rax,2), %rdx
	movq	16(%r15,%rdx,8), %rdx
	testq	%rdx, %rdx
	je	.Lnoise_BB42_7
	xorl	%r9d, %r9d
	.p2align	4
.Lnoise_BB42_5:
	cmpb	$6, (%rcx,%r9)
	je	.Lnoise_BB42_6
	incq	%r9
	cmpq	%r9, %rdx
	jne	.Lnoise_BB42_5
	jmp	.Lnoise_BB42_7
.Lnoise_BB42_6:
	movb	$1, %dl
	jmp	.Lnoise_BB42_9
.Lnoise_BB42_8:
	xorl	%edx, %edx
.Lnoise_BB42_9:
	movzbl	%bl, %r13d
	leaq	(%r14,%r14,2), %rax
	leaq	(%r15,%rax,8), %r9
	movq	%r13, 32(%rsp)
	leaq	64(%rsp), %rcx
	movq	%r9, 80(%rsp)
	callq	"noise_names::seen::Seen::tokens_len"
	movd	68(%rsp), %xmm0
	movb	$1, %bpl
	movb	$1, %al
	testq	%r12, %r12
	je	.Lnoise_BB42_18
	xorl	%eax, %eax
	movq	%r15, %rcx
	jmp	.Lnoise_BB42_11
	.p2align	4
.Lnoise_BB42_16:
	incq	%rax
	addq	$24, %rcx
	cmpq	%r12, %rax
	je	.Lnoise_BB42_17
.Lnoise_BB42_11:
	leaq	(%rax,%rax,2), %rdx
	movq	16(%r15,%rdx,8), %rdx
	testq	%rdx, %rdx
	je	.Lnoise_BB42_16
	xorl	%r8d, %r8d
	.p2align	4
.Lnoise_BB42_14:
	cmpb	$6, (%rcx,%r8)
	je	.Lnoise_BB42_15
	incq	%r8
	cmpq	%r8, %rdx
	jne	.Lnoise_BB42_14
	jmp	.Lnoise_BB42_16
.Lnoise_BB42_15:
	xorl	%eax, %eax
.Lnoise_BB42_18:
	pand	.Lnoise_CPI42_0(%rip), %xmm0
	movd	%xmm0, %ecx
	testl	%ecx, %ecx
	jne	.Lnoise_BB42_21
.Lnoise_BB42_19:
	movzbl	72(%rsp), %ebp
	orb	%bpl, %al
	testb	$1, %al
	jne	.Lnoise_BB42_21
	movzbl	66(%rsp), %ebp
	orb	64(%rsp), %bpl
.Lnoise_BB42_21:
	movzbl	200(%rsp), %ebx
	movw	$0, 56(%rsp)
	movq	$0, 48(%rsp)
	leaq	48(%rsp), %rcx
	movq	%rdi, %rdx
	movq	%r14, %r8
	callq	"noise_names::valid::ValidPattern::seen_after"
	movzbl	56(%rsp), %eax
	movb	%al, 72(%rsp)
	movq	48(%rsp), %rax
	movq	%rax, 64(%rsp)
	movzbl	57(%rsp), %r8d
	testq	%r12, %r12
	je	.Lnoise_BB42_29
	xorl	%eax, %eax
	movq	%r15, %rcx
	jmp	.Lnoise_BB42_23
	.p2align	4
.Lnoise_BB42_28:
	incq	%rax
	addq	$24, %rcx
	cmpq	%r12, %rax
	je	.Lnoise_BB42_29
.Lnoise_BB42_23:
	leaq	(%rax,%rax,2), %rdx
	movq	16(%r15,%rdx,8), %rdx
	testq	%rdx, %rdx
	je	.Lnoise_BB42_28
	xorl	%r9d, %r9d
	.p2align	4
.Lnoise_BB42_26:
	cmpb	$6, (%rcx,%r9)
	je	.Lnoise_BB42_27
	incq	%r9
	cmpq	%r9, %rdx
	jne	.Lnoise_BB42_26
	jmp	.Lnoise_BB42_28
.Lnoise_BB42_27:
	movb	$1, %dl
	jmp	.Lnoise_BB42_30
.Lnoise_BB42_29:
	xorl	%edx, %edx
.Lnoise_BB42_30:
	andb	%bpl, %bl
	movzbl	%bl, %edi
	movl	%edi, %ebx
	shll	$4, %ebx
	addl	208(%rsp), %ebx
	movq	%r13, 32(%rsp)
	leaq	64(%rsp), %rcx
	movq	80(%rsp), %r9
	callq	"noise_names::seen::Seen::tokens_len"
	movzwl	%ax, %eax
	movzbl	192(%rsp), %ecx
	movb	%cl, (%rsi)
	movb	%dil, 1(%rsi)
	movw	$0, 2(%rsi)
	movl	%eax, 4(%rsi)
	movl	%ebx, 8(%rsi)
	addq	$88, %rsp
	popq	%rbx
	popq	%rbp
	popq	%rdi
	popq	%rsi
	popq	%r12
	popq	%r13
	popq	%r14
	popq	%r15
	retq
.Lnoise_BB42_17:
	movb	$1, %al
	pand	.Lnoise_CPI42_0(%rip), %xmm0
	movd	%xmm0, %ecx
	testl	%ecx, %ecx
	jne	.Lnoise_BB42_21
	jmp	.Lnoise_BB42_19
	.seh_endproc

	.def	"noise_c::split::finished";
	.scl	3;
	.type	32;
	.endef
	.p2align	4
"noise_c::split::finished":
.seh_proc "noise_c::split::finished"
	pushq	%r15
	.seh_pushreg %r15
	pushq	%r14
	.seh_pushreg %r14
	pushq	%r13
	.seh_pushreg %r13
	pushq	%r12
	.seh_pushreg %r12
	pushq	%rsi
	.seh_pushreg %rsi
	pushq	%rdi
	.seh_pushreg %rdi
	pushq	%rbp
	.seh_pushreg %rbp
	pushq	%rbx
	.seh_pushreg %rbx
	subq	$2248, %rsp
	.seh_stackalloc 2248
	movaps	%xmm6, 2224(%rsp)
	.seh_savexmm %xmm6, 2224
	.seh_endprologue
	movq	%rdx, %rdi
	movq	%rcx, %rsi
	xorps	%xmm0, %xmm0
	movaps	%xmm0, 448(%rsp)
	movaps	%xmm0, 432(%rsp)
	movaps	%xmm0, 400(%rsp)
	movaps	%xmm0, 416(%rsp)
	movl	$0, 48(%rsp)
	movb	$0, 52(%rsp)
	movaps	%xmm0, 368(%rsp)
	movaps	%xmm0, 384(%rsp)
	movl	$0, 88(%rsp)
	movl	$0, 91(%rsp)
	movaps	%xmm0, 336(%rsp)
	movaps	%xmm0, 352(%rsp)
	movl	$0, 80(%rsp)
	movl	$0, 83(%rsp)
	movaps	%xmm0, 320(%rsp)
	movaps	%xmm0, 304(%rsp)
	movaps	%xmm0, 288(%rsp)
	movaps	%xmm0, 272(%rsp)
	movb	$0, 44(%rsp)
	movl	$0, 40(%rsp)
	movaps	%xmm0, 240(%rsp)
	movaps	%xmm0, 256(%rsp)
	movl	$0, 72(%rsp)
	movl	$0, 75(%rsp)
	movaps	%xmm0, 208(%rsp)
	movaps	%xmm0, 224(%rsp)
	movl	$0, 64(%rsp)
	movl	$0, 67(%rsp)
	movaps	%xmm0, 624(%rsp)
	movaps	%xmm0, 640(%rsp)
	movaps	%xmm0, 592(%rsp)
	movaps	%xmm0, 608(%rsp)
	movaps	%xmm0, 560(%rsp)
	movaps	%xmm0, 576(%rsp)
	movaps	%xmm0, 528(%rsp)
	movaps	%xmm0, 544(%rsp)
	movl	$0, 56(%rsp)
	movb	$0, 60(%rsp)
	movaps	%xmm0, 496(%rsp)
	movaps	%xmm0, 512(%rsp)
	movl	$0, 107(%rsp)
	movl	$0, 104(%rsp)
	movaps	%xmm0, 480(%rsp)
	movaps	%xmm0, 464(%rsp)
	movl	$0, 99(%rsp)
	movl	$0, 96(%rsp)
	leaq	1344(%rsp), %rcx
	movl	$872, %r8d
	xorl	%edx, %edx
	callq	memset
	cmpl	$1315897601, (%rdi)
	jne	.Lnoise_BB43_16
	movzwl	420(%rdi), %r8d
	cmpq	$416, %r8
	ja	.Lnoise_BB43_16
	cmpb	$8, 846(%rdi)
	ja	.Lnoise_BB43_16
	cmpb	$9, 557(%rdi)
	ja	.Lnoise_BB43_16
	leaq	4(%rdi), %rdx
	leaq	1056(%rsp), %rcx
	callq	"noise_c::patterns::pattern_of"
	cmpb	$0, 1056(%rsp)
	jne	.Lnoise_BB43_16
	leaq	1064(%rsp), %r8
	leaq	1344(%rsp), %rcx
	movq	%rdi, %rdx
	callq	"noise_c::from_c::restored"
	movzbl	1344(%rsp), %r14d
	movq	1616(%rsp), %r13
	movzbl	1656(%rsp), %r15d
	movzbl	1697(%rsp), %r12d
	movups	1698(%rsp), %xmm0
	movaps	%xmm0, 704(%rsp)
	movups	1714(%rsp), %xmm0
	movaps	%xmm0, 720(%rsp)
	movzbl	2040(%rsp), %ebx
	movzbl	2041(%rsp), %ebp
	leaq	2042(%rsp), %rdx
	leaq	880(%rsp), %rcx
	movl	$174, %r8d
	callq	memcpy
	cmpb	$1, %r14b
	jne	.Lnoise_BB43_16
	cmpq	%rbx, %r13
	seta	%al
	orb	%al, %bpl
	testb	$1, %bpl
	je	.Lnoise_BB43_7
	cmpb	$0, 423(%rdi)
	movl	$19, %eax
	movl	$13, %ecx
	cmovel	%eax, %ecx
	xorl	%r10d, %r10d
	xorl	%eax, %eax
	xorl	%r12d, %r12d
	xorl	%edx, %edx
	jmp	.Lnoise_BB43_9
.Lnoise_BB43_16:
	xorps	%xmm0, %xmm0
	movaps	%xmm0, 320(%rsp)
	movaps	%xmm0, 304(%rsp)
	movaps	%xmm0, 272(%rsp)
	movaps	%xmm0, 288(%rsp)
	movl	$0, 40(%rsp)
	movb	$0, 44(%rsp)
	movaps	%xmm0, 240(%rsp)
	movaps	%xmm0, 256(%rsp)
	movl	$0, 72(%rsp)
	movl	$0, 75(%rsp)
	movaps	%xmm0, 208(%rsp)
	movaps	%xmm0, 224(%rsp)
	movl	$0, 64(%rsp)
	movl	$0, 67(%rsp)
	movl	$23, %ecx
	xorl	%ebp, %ebp
	xorl	%r10d, %r10d
	xorl	%eax, %eax
	xorl	%r12d, %r12d
	xorl	%edx, %edx
.Lnoise_BB43_10:
	xorps	%xmm0, %xmm0
	movaps	%xmm0, 1344(%rsp)
	movaps	%xmm0, 1360(%rsp)
	movaps	%xmm0, 1056(%rsp)
	movaps	%xmm0, 1072(%rsp)
	movl	$0, 112(%rsp)
	movb	$0, 116(%rsp)
	movaps	%xmm0, 880(%rsp)
	movaps	%xmm0, 896(%rsp)
	movl	$0, 176(%rsp)
	movl	$0, 179(%rsp)
	movaps	%xmm0, 736(%rsp)
	movaps	%xmm0, 752(%rsp)
	movl	$0, 144(%rsp)
	movl	$0, 147(%rsp)
	xorl	%r15d, %r15d
	movl	$0, %ebx
	movl	$0, %r14d
	movl	$0, %r13d
	testb	$1, %bpl
	je	.Lnoise_BB43_12
	movaps	304(%rsp), %xmm0
	movaps	320(%rsp), %xmm1
	movaps	%xmm1, 1360(%rsp)
	movaps	%xmm0, 1344(%rsp)
	movaps	272(%rsp), %xmm0
	movaps	288(%rsp), %xmm1
	movaps	%xmm0, 1056(%rsp)
	movaps	%xmm1, 1072(%rsp)
	movl	40(%rsp), %ecx
	movl	%ecx, 112(%rsp)
	movzbl	44(%rsp), %ecx
	movb	%cl, 116(%rsp)
	movaps	240(%rsp), %xmm0
	movaps	256(%rsp), %xmm1
	movaps	%xmm0, 880(%rsp)
	movaps	%xmm1, 896(%rsp)
	movl	72(%rsp), %ecx
	movl	75(%rsp), %r8d
	movl	%r8d, 179(%rsp)
	movl	%ecx, 176(%rsp)
	movaps	208(%rsp), %xmm0
	movaps	224(%rsp), %xmm1
	movaps	%xmm1, 752(%rsp)
	movaps	%xmm0, 736(%rsp)
	movl	64(%rsp), %ecx
	movl	67(%rsp), %r8d
	movl	%r8d, 147(%rsp)
	movl	%ecx, 144(%rsp)
	movl	%r10d, %r15d
	movl	%eax, %ebx
	movl	%r12d, %r14d
	movl	%edx, %r13d
	xorl	%ecx, %ecx
.Lnoise_BB43_12:
	movaps	1344(%rsp), %xmm0
	movaps	1360(%rsp), %xmm1
	movaps	%xmm1, 448(%rsp)
	movaps	%xmm0, 432(%rsp)
	movaps	1056(%rsp), %xmm0
	movaps	1072(%rsp), %xmm1
	movaps	%xmm0, 400(%rsp)
	movaps	%xmm1, 416(%rsp)
	movl	112(%rsp), %eax
	movl	%eax, 48(%rsp)
	movzbl	116(%rsp), %eax
	movb	%al, 52(%rsp)
	movaps	880(%rsp), %xmm0
	movaps	896(%rsp), %xmm1
	movaps	%xmm0, 368(%rsp)
	movaps	%xmm1, 384(%rsp)
	movl	176(%rsp), %eax
	movl	179(%rsp), %edx
	movl	%edx, 91(%rsp)
	movl	%eax, 88(%rsp)
	movaps	736(%rsp), %xmm0
	movaps	752(%rsp), %xmm1
	movaps	%xmm1, 352(%rsp)
	movaps	%xmm0, 336(%rsp)
	movl	144(%rsp), %eax
	movl	147(%rsp), %edx
	movl	%eax, 80(%rsp)
	movl	%edx, 83(%rsp)
	testb	$1, %bpl
	je	.Lnoise_BB43_15
	movb	$1, 423(%rdi)
	leaq	557(%rdi), %rcx
	xorps	%xmm0, %xmm0
	movups	%xmm0, 1432(%rdi)
	movups	%xmm0, 1448(%rdi)
	movl	$842, %r8d
	xorl	%edx, %edx
	callq	memset
	movq	$0, (%rsi)
	movb	%r15b, 8(%rsi)
	movaps	432(%rsp), %xmm0
	movaps	448(%rsp), %xmm1
	movups	%xmm1, 26(%rsi)
	movups	%xmm0, 10(%rsi)
	movaps	400(%rsp), %xmm0
	movaps	416(%rsp), %xmm1
	movups	%xmm1, 59(%rsi)
	movups	%xmm0, 43(%rsi)
	movzbl	52(%rsp), %eax
	movb	%al, 79(%rsi)
	movl	48(%rsp), %eax
	movl	%eax, 75(%rsi)
	movaps	368(%rsp), %xmm0
	movaps	384(%rsp), %xmm1
	movups	%xmm1, 97(%rsi)
	movups	%xmm0, 81(%rsi)
	movl	88(%rsp), %eax
	movl	91(%rsp), %ecx
	movl	%ecx, 116(%rsi)
	movl	%eax, 113(%rsi)
	movaps	336(%rsp), %xmm0
	movaps	352(%rsp), %xmm1
	movups	%xmm1, 145(%rsi)
	movups	%xmm0, 129(%rsi)
	movl	80(%rsp), %eax
	movl	83(%rsp), %ecx
	movl	%ecx, 164(%rsi)
	movl	%eax, 161(%rsi)
	jmp	.Lnoise_BB43_14
.Lnoise_BB43_15:
	movl	$1, (%rsi)
	movl	%ecx, 4(%rsi)
	movb	$0, 8(%rsi)
	xorps	%xmm0, %xmm0
	movups	%xmm0, 10(%rsi)
	movups	%xmm0, 26(%rsi)
	movups	%xmm0, 43(%rsi)
	movups	%xmm0, 59(%rsi)
	movq	$0, 72(%rsi)
	movups	%xmm0, 81(%rsi)
	movups	%xmm0, 97(%rsi)
	movq	$0, 112(%rsi)
	movups	%xmm0, 129(%rsi)
	movups	%xmm0, 145(%rsi)
	movq	$0, 160(%rsi)
	xorl	%ebx, %ebx
	xorl	%r14d, %r14d
	xorl	%r13d, %r13d
.Lnoise_BB43_14:
	movb	%bl, 9(%rsi)
	movb	%r14b, 42(%rsi)
	movb	%r13b, 80(%rsi)
	movq	$0, 120(%rsi)
	movb	%r13b, 128(%rsi)
	movq	$0, 168(%rsi)
	movaps	2224(%rsp), %xmm6
	addq	$2248, %rsp
	popq	%rbx
	popq	%rbp
	popq	%rdi
	popq	%rsi
	popq	%r12
	popq	%r13
	popq	%r14
	popq	%r15
	retq
.Lnoise_BB43_7:
	movups	1038(%rsp), %xmm0
	movaps	%xmm0, 832(%rsp)
	movups	1022(%rsp), %xmm0
	movaps	%xmm0, 816(%rsp)
	movups	1006(%rsp), %xmm0
	movaps	%xmm0, 800(%rsp)
	movups	942(%rsp), %xmm0
	movups	958(%rsp), %xmm1
	movups	974(%rsp), %xmm2
	movups	990(%rsp), %xmm3
	movaps	%xmm3, 784(%rsp)
	movaps	%xmm2, 768(%rsp)
	movaps	%xmm1, 752(%rsp)
	movaps	%xmm0, 736(%rsp)
	xorps	%xmm6, %xmm6
	movaps	%xmm6, 1056(%rsp)
	movaps	%xmm6, 1072(%rsp)
	movaps	%xmm6, 1088(%rsp)
	movaps	%xmm6, 1104(%rsp)
	movaps	%xmm6, 1120(%rsp)
	movaps	%xmm6, 1136(%rsp)
	movaps	%xmm6, 1152(%rsp)
	movaps	%xmm6, 1168(%rsp)
	movaps	%xmm6, 1184(%rsp)
	movaps	%xmm6, 1200(%rsp)
	movaps	%xmm6, 1216(%rsp)
	movaps	%xmm6, 1232(%rsp)
	movaps	%xmm6, 1248(%rsp)
	leaq	.Lnoise_static.1(%rip), %rax
	movq	%rax, 656(%rsp)
	movq	$0, 664(%rsp)
	movaps	%xmm6, 848(%rsp)
	movaps	%xmm6, 864(%rsp)
	movaps	%xmm6, 1344(%rsp)
	movaps	%xmm6, 1360(%rsp)
	movaps	%xmm6, 1376(%rsp)
	movaps	%xmm6, 1392(%rsp)
	movaps	%xmm6, 1408(%rsp)
	movaps	%xmm6, 1424(%rsp)
	movaps	%xmm6, 1440(%rsp)
	movaps	%xmm6, 1456(%rsp)
	movaps	%xmm6, 1472(%rsp)
	movaps	%xmm6, 1488(%rsp)
	movaps	%xmm6, 1504(%rsp)
	movaps	%xmm6, 1520(%rsp)
	movaps	%xmm6, 1536(%rsp)
	leaq	1344(%rsp), %rbx
	leaq	736(%rsp), %rdx
	movq	%rbx, %rcx
	callq	"noise_kdf::keyed::Hmac::new"
	leaq	848(%rsp), %r14
	leaq	656(%rsp), %r8
	movl	$1, %r9d
	movq	%r14, %rcx
	movq	%rbx, %rdx
	callq	"noise_kdf::keyed::Hmac::code"
	leaq	1056(%rsp), %rbx
	movq	%rbx, %rcx
	movq	%r14, %rdx
	callq	"noise_kdf::keyed::Hmac::new"
	movaps	%xmm6, 144(%rsp)
	movaps	%xmm6, 160(%rsp)
	movaps	%xmm6, 112(%rsp)
	movaps	%xmm6, 128(%rsp)
	leaq	.Lnoise_static.102(%rip), %r8
	leaq	112(%rsp), %rcx
	movl	$1, %r9d
	movq	%rbx, %rdx
	callq	"noise_kdf::keyed::Hmac::code"
	movaps	112(%rsp), %xmm0
	movaps	128(%rsp), %xmm1
	movaps	%xmm1, 192(%rsp)
	movaps	%xmm0, 176(%rsp)
	leaq	176(%rsp), %rax
	movq	%rax, 672(%rsp)
	movq	$32, 680(%rsp)
	leaq	.Lnoise_static.103(%rip), %rax
	movq	%rax, 688(%rsp)
	movq	$1, 696(%rsp)
	leaq	144(%rsp), %rcx
	leaq	672(%rsp), %r8
	movl	$2, %r9d
	movq	%rbx, %rdx
	callq	"noise_kdf::keyed::Hmac::code"
	movaps	176(%rsp), %xmm0
	movaps	192(%rsp), %xmm1
	movaps	%xmm1, 1360(%rsp)
	movaps	%xmm0, 1344(%rsp)
	movaps	144(%rsp), %xmm2
	movaps	160(%rsp), %xmm3
	movaps	%xmm2, 1376(%rsp)
	movaps	%xmm3, 1392(%rsp)
	movaps	%xmm0, 624(%rsp)
	movaps	%xmm1, 640(%rsp)
	movaps	%xmm2, 592(%rsp)
	movaps	%xmm3, 608(%rsp)
	cmpq	$1, %r13
	sete	%al
	movups	974(%rsp), %xmm0
	movups	990(%rsp), %xmm1
	movaps	%xmm1, 576(%rsp)
	movaps	%xmm0, 560(%rsp)
	movaps	704(%rsp), %xmm0
	movaps	720(%rsp), %xmm1
	movaps	%xmm1, 544(%rsp)
	movaps	%xmm0, 528(%rsp)
	movb	$0, 60(%rsp)
	movl	$0, 56(%rsp)
	movaps	624(%rsp), %xmm0
	movaps	640(%rsp), %xmm1
	movaps	%xmm1, 512(%rsp)
	movaps	%xmm0, 496(%rsp)
	movl	$0, 107(%rsp)
	movl	$0, 104(%rsp)
	movaps	592(%rsp), %xmm0
	movaps	608(%rsp), %xmm1
	movaps	%xmm1, 480(%rsp)
	movaps	%xmm0, 464(%rsp)
	movl	$0, 99(%rsp)
	movl	$0, 96(%rsp)
	xorl	%ecx, %ecx
	movb	$1, %dl
	movl	%r15d, %r10d
.Lnoise_BB43_9:
	xorb	$1, %bpl
	movaps	560(%rsp), %xmm0
	movaps	576(%rsp), %xmm1
	movaps	%xmm1, 320(%rsp)
	movaps	%xmm0, 304(%rsp)
	movaps	528(%rsp), %xmm0
	movaps	544(%rsp), %xmm1
	movaps	%xmm0, 272(%rsp)
	movaps	%xmm1, 288(%rsp)
	movl	56(%rsp), %r8d
	movl	%r8d, 40(%rsp)
	movzbl	60(%rsp), %r8d
	movb	%r8b, 44(%rsp)
	movaps	496(%rsp), %xmm0
	movaps	512(%rsp), %xmm1
	movaps	%xmm0, 240(%rsp)
	movaps	%xmm1, 256(%rsp)
	movl	104(%rsp), %r8d
	movl	107(%rsp), %r9d
	movl	%r9d, 75(%rsp)
	movl	%r8d, 72(%rsp)
	movaps	464(%rsp), %xmm0
	movaps	480(%rsp), %xmm1
	movaps	%xmm1, 224(%rsp)
	movaps	%xmm0, 208(%rsp)
	movl	96(%rsp), %r8d
	movl	99(%rsp), %r9d
	movl	%r8d, 64(%rsp)
	movl	%r9d, 67(%rsp)
	jmp	.Lnoise_BB43_10
	.seh_endproc

	.def	"noise_handshake::writer::write_lacking::<#9bbb2dae5a99aff0>";
	.scl	3;
	.type	32;
	.endef
	.p2align	4
"noise_handshake::writer::write_lacking::<#9bbb2dae5a99aff0>":
.seh_proc "noise_handshake::writer::write_lacking::<#9bbb2dae5a99aff0>"
	pushq	%r15
	.seh_pushreg %r15
	pushq	%r14
	.seh_pushreg %r14
	pushq	%r13
	.seh_pushreg %r13
	pushq	%r12
	.seh_pushreg %r12
	pushq	%rsi
	.seh_pushreg %rsi
	pushq	%rdi
	.seh_pushreg %rdi
	pushq	%rbx
	.seh_pushreg %rbx
	subq	$192, %rsp
	.seh_stackalloc 192
	.seh_endprologue
	movq	%rcx, %rsi
	movq	304(%rsp), %rbx
	xorps	%xmm0, %xmm0
	movaps	%xmm0, 80(%rsp)
	movaps	%xmm0, 64(%rsp)
	movw	$0, 96(%rsp)
	testq	%rbx, %rbx
	je	.Lnoise_BB44_25
	movq	296(%rsp), %r14
	movzbl	(%r14), %edi
	leaq	.Lnoise_JTI44_0(%rip), %rax
	movslq	(%rax,%rdi,4), %rcx
	addq	%rax, %rcx
	jmpq	*%rcx
.Lnoise_BB44_9:
	cmpb	$0, 32(%r8)
	je	.Lnoise_BB44_10
	movl	%edi, %eax
	andb	$-2, %al
	cmpb	$4, %al
	jne	.Lnoise_BB44_12
	cmpb	$1, 33(%rdx)
	jne	.Lnoise_BB44_4
	movq	%r9, %r15
	movups	34(%rdx), %xmm0
	movups	50(%rdx), %xmm1
	jmp	.Lnoise_BB44_14
.Lnoise_BB44_25:
	movups	%xmm0, 16(%rsi)
	movups	%xmm0, (%rsi)
	movw	$0, 32(%rsi)
	jmp	.Lnoise_BB44_26
.Lnoise_BB44_10:
	leal	-2(%rdi), %eax
	leaq	.Lnoise_JTI44_1(%rip), %rcx
	movslq	(%rcx,%rax,4), %rax
	addq	%rcx, %rax
	jmpq	*%rax
.Lnoise_BB44_19:
	cmpb	$1, (%rdx)
	jne	.Lnoise_BB44_4
	movq	%r9, %r15
	movups	1(%rdx), %xmm0
	movups	17(%rdx), %xmm1
	jmp	.Lnoise_BB44_21
.Lnoise_BB44_12:
	cmpb	$1, (%rdx)
	jne	.Lnoise_BB44_4
	movq	%r9, %r15
	movups	1(%rdx), %xmm0
	movups	17(%rdx), %xmm1
.Lnoise_BB44_14:
	movaps	%xmm1, 176(%rsp)
	movaps	%xmm0, 160(%rsp)
	movq	%rdx, %r12
	leal	-2(%rdi), %eax
	movzbl	%al, %ecx
	shll	$3, %ecx
	movl	$16777472, %r9d
	shrl	%cl, %r9d
	jmp	.Lnoise_BB44_22
.Lnoise_BB44_24:
	movq	8(%r8), %rax
	cmpb	$0, (%rax)
	jne	.Lnoise_BB44_23
	jmp	.Lnoise_BB44_4
.Lnoise_BB44_2:
	movq	(%r8), %rax
	cmpb	$0, (%rax)
	jne	.Lnoise_BB44_23
	jmp	.Lnoise_BB44_4
.Lnoise_BB44_15:
	cmpb	$1, 33(%rdx)
	jne	.Lnoise_BB44_4
	movq	%r9, %r15
	movups	34(%rdx), %xmm0
	movups	50(%rdx), %xmm1
.Lnoise_BB44_21:
	movaps	%xmm1, 176(%rsp)
	movaps	%xmm0, 160(%rsp)
	movq	%rdx, %r12
	movl	%edi, %eax
	andb	$-2, %al
	cmpb	$4, %al
	sete	%r9b
.Lnoise_BB44_22:
	movq	16(%r8), %rdx
	movq	24(%r8), %rax
	leaq	160(%rsp), %rcx
	movq	%rcx, 32(%rsp)
	leaq	112(%rsp), %rcx
	movq	%r8, %r13
	movq	%rax, %r8
	callq	"noise_c::supplied_keys::result_for"
	movq	%r13, %r8
	cmpb	$1, 112(%rsp)
	movq	%r12, %rdx
	movq	%r15, %r9
	jne	.Lnoise_BB44_4
.Lnoise_BB44_23:
	movq	288(%rsp), %rax
	addq	$4, %r14
	decq	%rbx
	xorl	%ecx, %ecx
	cmpl	$6, %edi
	sete	%cl
	subq	%rcx, %rax
	shll	$5, %ecx
	addq	%rcx, %r9
	movq	%rbx, 48(%rsp)
	movq	%r14, 40(%rsp)
	movq	%rax, 32(%rsp)
	leaq	64(%rsp), %rcx
	callq	"noise_handshake::writer::write_lacking::<#9bbb2dae5a99aff0>"
	movzbl	64(%rsp), %eax
	jmp	.Lnoise_BB44_35
.Lnoise_BB44_4:
	cmpb	$0, 32(%r8)
	je	.Lnoise_BB44_5
	movl	%edi, %eax
	andb	$-2, %al
	cmpb	$4, %al
	jne	.Lnoise_BB44_28
	movzbl	33(%rdx), %eax
	movups	50(%rdx), %xmm0
	movaps	%xmm0, 128(%rsp)
	movups	34(%rdx), %xmm0
	movaps	%xmm0, 112(%rsp)
	cmpb	$1, %al
	je	.Lnoise_BB44_30
	jmp	.Lnoise_BB44_34
.Lnoise_BB44_5:
	movl	$23, %eax
	btl	%edi, %eax
	jae	.Lnoise_BB44_32
	movzbl	(%rdx), %eax
	movups	17(%rdx), %xmm0
	movaps	%xmm0, 128(%rsp)
	movups	1(%rdx), %xmm0
	movaps	%xmm0, 112(%rsp)
	cmpb	$1, %al
	je	.Lnoise_BB44_8
	jmp	.Lnoise_BB44_34
.Lnoise_BB44_28:
	movzbl	(%rdx), %eax
	movups	17(%rdx), %xmm0
	movaps	%xmm0, 128(%rsp)
	movups	1(%rdx), %xmm0
	movaps	%xmm0, 112(%rsp)
	cmpb	$1, %al
	jne	.Lnoise_BB44_34
.Lnoise_BB44_30:
	leal	(,%rdi,8), %ecx
	movabsq	$1099528404992, %rax
	shrq	%cl, %rax
	jmp	.Lnoise_BB44_31
.Lnoise_BB44_32:
	movzbl	33(%rdx), %eax
	movups	50(%rdx), %xmm0
	movaps	%xmm0, 128(%rsp)
	movups	34(%rdx), %xmm0
	movaps	%xmm0, 112(%rsp)
	cmpb	$1, %al
	jne	.Lnoise_BB44_34
.Lnoise_BB44_8:
	andb	$-2, %dil
	cmpb	$4, %dil
	sete	%al
.Lnoise_BB44_31:
	movb	%al, 65(%rsp)
	movaps	112(%rsp), %xmm0
	movaps	128(%rsp), %xmm1
	movups	%xmm0, 66(%rsp)
	movups	%xmm1, 82(%rsp)
	movb	$1, %al
	jmp	.Lnoise_BB44_35
.Lnoise_BB44_34:
	xorps	%xmm0, %xmm0
	movaps	%xmm0, 80(%rsp)
	movaps	%xmm0, 64(%rsp)
	movw	$0, 96(%rsp)
	xorl	%eax, %eax
.Lnoise_BB44_35:
	movb	%al, (%rsi)
	movups	65(%rsp), %xmm0
	movups	81(%rsp), %xmm1
	movups	%xmm0, 1(%rsi)
	movups	%xmm1, 17(%rsi)
	movzbl	97(%rsp), %eax
	movb	%al, 33(%rsi)
.Lnoise_BB44_26:
	addq	$192, %rsp
	popq	%rbx
	popq	%rdi
	popq	%rsi
	popq	%r12
	popq	%r13
	popq	%r14
	popq	%r15
	retq
	.section	.rdata,"dr"
	.p2align	2, 0x0
.Lnoise_JTI44_0:
	.long	.Lnoise_BB44_2-.Lnoise_JTI44_0
	.long	.Lnoise_BB44_24-.Lnoise_JTI44_0
	.long	.Lnoise_BB44_9-.Lnoise_JTI44_0
	.long	.Lnoise_BB44_9-.Lnoise_JTI44_0
	.long	.Lnoise_BB44_9-.Lnoise_JTI44_0
	.long	.Lnoise_BB44_9-.Lnoise_JTI44_0
	.long	.Lnoise_BB44_23-.Lnoise_JTI44_0
.Lnoise_JTI44_1:
	.long	.Lnoise_BB44_19-.Lnoise_JTI44_1
	.long	.Lnoise_BB44_15-.Lnoise_JTI44_1
	.long	.Lnoise_BB44_19-.Lnoise_JTI44_1
	.long	.Lnoise_BB44_15-.Lnoise_JTI44_1
	.text
	.seh_endproc

	.def	"noise_handshake::writer::write_tokens::<#3dfcfe118667ed30>";
	.scl	3;
	.type	32;
	.endef
	.p2align	4
"noise_handshake::writer::write_tokens::<#3dfcfe118667ed30>":
.seh_proc "noise_handshake::writer::write_tokens::<#3dfcfe118667ed30>"
	pushq	%r15
	.seh_pushreg %r15
	pushq	%r14
	.seh_pushreg %r14
	pushq	%r13
	.seh_pushreg %r13
	pushq	%r12
	.seh_pushreg %r12
	pushq	%rsi
	.seh_pushreg %rsi
	pushq	%rdi
	.seh_pushreg %rdi
	pushq	%rbp
	.seh_pushreg %rbp
	pushq	%rbx
	.seh_pushreg %rbx
	subq	$792, %rsp
	.seh_stackalloc 792
	movaps	%xmm6, 768(%rsp)
	.seh_savexmm %xmm6, 768
	.seh_endprologue
	movq	912(%rsp), %r12
	testq	%r12, %r12
	je	.Lnoise_BB45_1
	movq	920(%rsp), %rsi
	movq	904(%rsp), %r13
	movzbl	(%r13), %eax
	leaq	.Lnoise_JTI45_0(%rip), %r10
	movslq	(%r10,%rax,4), %r11
	addq	%r10, %r11
	jmpq	*%r11
.Lnoise_BB45_12:
	cmpb	$0, 32(%r8)
	je	.Lnoise_BB45_13
	movl	%eax, %r10d
	andb	$-2, %r10b
	cmpb	$4, %r10b
	jne	.Lnoise_BB45_15
	cmpb	$1, 33(%rdx)
	jne	.Lnoise_BB45_27
	movq	%rcx, %rbx
	movups	34(%rdx), %xmm0
	movups	50(%rdx), %xmm1
	jmp	.Lnoise_BB45_17
.Lnoise_BB45_1:
	xorl	%edx, %edx
	xorl	%eax, %eax
	jmp	.Lnoise_BB45_30
.Lnoise_BB45_13:
	leal	-2(%rax), %r10d
	leaq	.Lnoise_JTI45_1(%rip), %r11
	movslq	(%r11,%r10,4), %r10
	addq	%r11, %r10
	jmpq	*%r10
.Lnoise_BB45_26:
	cmpb	$1, (%rdx)
	jne	.Lnoise_BB45_27
	movups	1(%rdx), %xmm0
	movups	17(%rdx), %xmm1
	jmp	.Lnoise_BB45_23
.Lnoise_BB45_15:
	cmpb	$1, (%rdx)
	jne	.Lnoise_BB45_27
	movq	%rcx, %rbx
	movups	1(%rdx), %xmm0
	movups	17(%rdx), %xmm1
.Lnoise_BB45_17:
	movaps	%xmm1, 272(%rsp)
	movaps	%xmm0, 256(%rsp)
	movq	%rdx, 72(%rsp)
	movq	%r9, %rbp
	addb	$-2, %al
	movzbl	%al, %ecx
	shll	$3, %ecx
	movl	$16777472, %r9d
	shrl	%cl, %r9d
	jmp	.Lnoise_BB45_24
.Lnoise_BB45_3:
	movq	(%r8), %rax
	cmpb	$0, (%rax)
	je	.Lnoise_BB45_11
	movq	%rdx, %r14
	movq	%r9, %r15
	movups	1(%rax), %xmm0
	movups	17(%rax), %xmm1
	movaps	%xmm1, 96(%rsp)
	movaps	%xmm0, 80(%rsp)
	movq	%r8, %rdi
	movzbl	33(%r8), %edx
	leaq	80(%rsp), %rbx
	movq	%rcx, %rbp
	movq	%rbx, %r8
	callq	"noise_handshake::tokens::mix_ephemeral"
	movq	%rsi, %rax
	subq	%rbx, %rax
	cmpq	$31, %rax
	ja	.Lnoise_BB45_7
	movaps	80(%rsp), %xmm0
	movups	%xmm0, (%rsi)
	movaps	96(%rsp), %xmm0
	movups	%xmm0, 16(%rsi)
	jmp	.Lnoise_BB45_6
.Lnoise_BB45_8:
	movq	%rdx, 72(%rsp)
	movq	8(%r8), %rax
	cmpb	$0, (%rax)
	je	.Lnoise_BB45_11
	movq	%r9, %rbp
	movq	%r8, %rdi
	movups	1(%rax), %xmm0
	movups	17(%rax), %xmm1
	movups	%xmm1, 16(%rsi)
	movups	%xmm0, (%rsi)
	leaq	64(%rcx), %rdx
	xorps	%xmm0, %xmm0
	movaps	%xmm0, 256(%rsp)
	movq	%rcx, %r15
	leaq	32(%rcx), %r14
	movq	%rsi, 32(%rsp)
	movq	$32, 40(%rsp)
	leaq	256(%rsp), %rcx
	movl	$32, %r9d
	movq	%r14, %r8
	callq	"noise_state::cipher::CipherState::encrypt"
	cmpb	$0, 256(%rsp)
	jne	.Lnoise_BB45_11
	movq	264(%rsp), %rbx
	leaq	464(%rsp), %rcx
	movq	%r14, %rdx
	movq	%rsi, %r8
	movq	%rbx, %r9
	callq	"noise_state::symmetric::hash_of_both"
	movups	464(%rsp), %xmm0
	movups	480(%rsp), %xmm1
	movups	%xmm1, 16(%r14)
	movups	%xmm0, (%r14)
	movq	%rbp, %r9
	movq	72(%rsp), %rdx
	movq	%r15, %rcx
	jmp	.Lnoise_BB45_29
.Lnoise_BB45_28:
	movq	%r8, %rdi
	movq	%rcx, %rbx
	movq	%rdx, %r14
	movq	%r9, %rdx
	movq	%r9, %r15
	callq	"noise_state::symmetric::SymmetricState::mix_key_and_hash"
	movq	%rbx, %rcx
	movq	%r14, %rdx
	movq	%r15, %r9
	xorl	%ebx, %ebx
	jmp	.Lnoise_BB45_29
.Lnoise_BB45_18:
	cmpb	$1, 33(%rdx)
	jne	.Lnoise_BB45_27
	movups	34(%rdx), %xmm0
	movups	50(%rdx), %xmm1
.Lnoise_BB45_23:
	movaps	%xmm1, 272(%rsp)
	movaps	%xmm0, 256(%rsp)
	movq	%rcx, %rbx
	movq	%rdx, 72(%rsp)
	movq	%r9, %rbp
	andb	$-2, %al
	cmpb	$4, %al
	sete	%r9b
.Lnoise_BB45_24:
	movq	16(%r8), %rdx
	movq	%r8, %rdi
	movq	24(%r8), %r8
	leaq	256(%rsp), %rax
	movq	%rax, 32(%rsp)
	leaq	464(%rsp), %rcx
	callq	"noise_c::supplied_keys::result_for"
	movzbl	464(%rsp), %eax
	movups	465(%rsp), %xmm0
	movaps	%xmm0, 672(%rsp)
	movups	481(%rsp), %xmm0
	movaps	%xmm0, 688(%rsp)
	cmpb	$1, %al
	jne	.Lnoise_BB45_27
	movaps	672(%rsp), %xmm0
	movaps	688(%rsp), %xmm1
	movaps	%xmm1, 720(%rsp)
	movaps	%xmm0, 704(%rsp)
	xorps	%xmm6, %xmm6
	movaps	%xmm6, 256(%rsp)
	movaps	%xmm6, 272(%rsp)
	movaps	%xmm6, 288(%rsp)
	movaps	%xmm6, 304(%rsp)
	movaps	%xmm6, 320(%rsp)
	movaps	%xmm6, 336(%rsp)
	movaps	%xmm6, 352(%rsp)
	movaps	%xmm6, 368(%rsp)
	movaps	%xmm6, 384(%rsp)
	movaps	%xmm6, 400(%rsp)
	movaps	%xmm6, 416(%rsp)
	movaps	%xmm6, 432(%rsp)
	movaps	%xmm6, 448(%rsp)
	leaq	704(%rsp), %rax
	movq	%rax, 112(%rsp)
	movq	$32, 120(%rsp)
	movaps	%xmm6, 736(%rsp)
	movaps	%xmm6, 752(%rsp)
	movaps	%xmm6, 464(%rsp)
	movaps	%xmm6, 480(%rsp)
	movaps	%xmm6, 496(%rsp)
	movaps	%xmm6, 512(%rsp)
	movaps	%xmm6, 528(%rsp)
	movaps	%xmm6, 544(%rsp)
	movaps	%xmm6, 560(%rsp)
	movaps	%xmm6, 576(%rsp)
	movaps	%xmm6, 592(%rsp)
	movaps	%xmm6, 608(%rsp)
	movaps	%xmm6, 624(%rsp)
	movaps	%xmm6, 640(%rsp)
	movaps	%xmm6, 656(%rsp)
	leaq	464(%rsp), %r14
	movq	%r14, %rcx
	movq	%rbx, %rdx
	callq	"noise_kdf::keyed::Hmac::new"
	leaq	736(%rsp), %r15
	leaq	112(%rsp), %r8
	movl	$1, %r9d
	movq	%r15, %rcx
	movq	%r14, %rdx
	callq	"noise_kdf::keyed::Hmac::code"
	leaq	256(%rsp), %r14
	movq	%r14, %rcx
	movq	%r15, %rdx
	callq	"noise_kdf::keyed::Hmac::new"
	movaps	%xmm6, 160(%rsp)
	movaps	%xmm6, 176(%rsp)
	movaps	%xmm6, 128(%rsp)
	movaps	%xmm6, 144(%rsp)
	leaq	.Lnoise_static.102(%rip), %r8
	leaq	128(%rsp), %rcx
	movl	$1, %r9d
	movq	%r14, %rdx
	callq	"noise_kdf::keyed::Hmac::code"
	movaps	128(%rsp), %xmm0
	movaps	144(%rsp), %xmm1
	movaps	%xmm1, 208(%rsp)
	movaps	%xmm0, 192(%rsp)
	leaq	192(%rsp), %rax
	movq	%rax, 224(%rsp)
	movq	$32, 232(%rsp)
	leaq	.Lnoise_static.103(%rip), %rax
	movq	%rax, 240(%rsp)
	movq	$1, 248(%rsp)
	leaq	160(%rsp), %rcx
	leaq	224(%rsp), %r8
	movl	$2, %r9d
	movq	%r14, %rdx
	callq	"noise_kdf::keyed::Hmac::code"
	movq	%rbx, %rcx
	movaps	192(%rsp), %xmm0
	movaps	208(%rsp), %xmm1
	movaps	%xmm1, 480(%rsp)
	movaps	%xmm0, 464(%rsp)
	movaps	160(%rsp), %xmm2
	movaps	176(%rsp), %xmm3
	movaps	%xmm2, 496(%rsp)
	movaps	%xmm3, 512(%rsp)
	movups	%xmm1, 16(%rbx)
	movups	%xmm0, (%rbx)
	movb	$1, 64(%rbx)
	movaps	496(%rsp), %xmm0
	movaps	512(%rsp), %xmm1
	movups	%xmm0, 65(%rbx)
	movups	%xmm1, 81(%rbx)
	movq	$0, 104(%rbx)
	xorl	%ebx, %ebx
	movq	%rbp, %r9
	movq	72(%rsp), %rdx
	jmp	.Lnoise_BB45_29
.Lnoise_BB45_27:
	movb	$1, %al
	xorl	%edx, %edx
	jmp	.Lnoise_BB45_30
.Lnoise_BB45_7:
	movaps	80(%rsp), %xmm0
	movaps	96(%rsp), %xmm1
	movups	%xmm1, 16(%rsi)
	movups	%xmm0, (%rsi)
.Lnoise_BB45_6:
	movl	$32, %ebx
	movq	%r15, %r9
	movq	%r14, %rdx
	movq	%rbp, %rcx
.Lnoise_BB45_29:
	movq	928(%rsp), %r8
	movq	896(%rsp), %rax
	decq	%r12
	xorl	%r10d, %r10d
	cmpb	$6, (%r13)
	leaq	4(%r13), %r11
	sete	%r10b
	subq	%r10, %rax
	shll	$5, %r10d
	addq	%r10, %r9
	addq	%rbx, %rsi
	subq	%rbx, %r8
	movq	%r8, 64(%rsp)
	movq	%rsi, 56(%rsp)
	movq	%r12, 48(%rsp)
	movq	%r11, 40(%rsp)
	movq	%rax, 32(%rsp)
	movq	%rdi, %r8
	callq	"noise_handshake::writer::write_tokens::<#3dfcfe118667ed30>"
	movq	%rdx, %rcx
	testb	%al, %al
	movl	$1, %edx
	cmoveq	%rbx, %rdx
	addq	%rcx, %rdx
.Lnoise_BB45_30:
	movaps	768(%rsp), %xmm6
	addq	$792, %rsp
	popq	%rbx
	popq	%rbp
	popq	%rdi
	popq	%rsi
	popq	%r12
	popq	%r13
	popq	%r14
	popq	%r15
	retq
.Lnoise_BB45_11:
	ud2
	.section	.rdata,"dr"
	.p2align	2, 0x0
.Lnoise_JTI45_0:
	.long	.Lnoise_BB45_3-.Lnoise_JTI45_0
	.long	.Lnoise_BB45_8-.Lnoise_JTI45_0
	.long	.Lnoise_BB45_12-.Lnoise_JTI45_0
	.long	.Lnoise_BB45_12-.Lnoise_JTI45_0
	.long	.Lnoise_BB45_12-.Lnoise_JTI45_0
	.long	.Lnoise_BB45_12-.Lnoise_JTI45_0
	.long	.Lnoise_BB45_28-.Lnoise_JTI45_0
.Lnoise_JTI45_1:
	.long	.Lnoise_BB45_26-.Lnoise_JTI45_1
	.long	.Lnoise_BB45_18-.Lnoise_JTI45_1
	.long	.Lnoise_BB45_26-.Lnoise_JTI45_1
	.long	.Lnoise_BB45_18-.Lnoise_JTI45_1
	.text
	.seh_endproc

	.def	noise_cipher_decrypt;
	.scl	2;
	.type	32;
	.endef
	.globl	noise_cipher_decrypt
	.p2align	4
noise_cipher_decrypt:
.seh_proc noise_cipher_decrypt
	pushq	%rsi
	.seh_pushreg %rsi
	pushq	%rdi
	.seh_pushreg %rdi
	pushq	%rbx
	.seh_pushreg %rbx
	subq	$112, %rsp
	.seh_stackalloc 112
	.seh_endprologue
	movq	%r8, %r10
	movq	%rdx, %r8
	xorl	%r11d, %r11d
	testq	%rdx, %rdx
	sete	%dil
	xorl	%edx, %edx
	testq	%r9, %r9
	sete	%bl
	movq	$0, 96(%rsp)
	xorps	%xmm0, %xmm0
	movaps	%xmm0, 48(%rsp)
	movl	$23, %eax
	cmpl	$1315899649, (%rcx)
	jne	.Lnoise_BB46_6
	movl	$22, %eax
	cmpb	$0, 4(%rcx)
	jne	.Lnoise_BB46_6
	movq	40(%rcx), %rax
	movb	$1, 64(%rsp)
	movups	5(%rcx), %xmm0
	movups	21(%rcx), %xmm1
	movups	%xmm0, 65(%rsp)
	movups	%xmm1, 81(%rsp)
	movq	%rax, 104(%rsp)
	movl	$24, %eax
	cmpq	$65535, %r10
	ja	.Lnoise_BB46_6
	movq	%rcx, %rsi
	movq	176(%rsp), %rax
	movb	%dil, %r11b
	shll	$12, %r11d
	addq	%r11, %r8
	movb	%bl, %dl
	shll	$12, %edx
	addq	%rdx, %r9
	movq	%rax, 40(%rsp)
	movq	%r9, 32(%rsp)
	leaq	48(%rsp), %rcx
	leaq	64(%rsp), %rdx
	movq	%r10, %r9
	callq	"noise_state::cipher::CipherState::decrypt"
	cmpb	$0, 48(%rsp)
	je	.Lnoise_BB46_4
	movzbl	49(%rsp), %eax
	leaq	.Lnoise_switch.table.noise_cipher_encrypt(%rip), %rcx
	movl	(%rcx,%rax,4), %eax
	jmp	.Lnoise_BB46_6
.Lnoise_BB46_4:
	movq	184(%rsp), %rax
	movq	56(%rsp), %rcx
	movq	$0, (%rax)
	movq	%rcx, 8(%rax)
	movq	104(%rsp), %rax
	movq	%rax, 40(%rsi)
	xorl	%eax, %eax
.Lnoise_BB46_6:
	addq	$112, %rsp
	popq	%rbx
	popq	%rdi
	popq	%rsi
	retq
	.seh_endproc

	.def	noise_cipher_encrypt;
	.scl	2;
	.type	32;
	.endef
	.globl	noise_cipher_encrypt
	.p2align	4
noise_cipher_encrypt:
.seh_proc noise_cipher_encrypt
	pushq	%r14
	.seh_pushreg %r14
	pushq	%rsi
	.seh_pushreg %rsi
	pushq	%rdi
	.seh_pushreg %rdi
	pushq	%rbx
	.seh_pushreg %rbx
	subq	$120, %rsp
	.seh_stackalloc 120
	.seh_endprologue
	movq	%r8, %r10
	movq	%rdx, %r8
	xorl	%r11d, %r11d
	testq	%rdx, %rdx
	sete	%sil
	xorl	%edx, %edx
	testq	%r9, %r9
	sete	%bl
	movq	$0, 104(%rsp)
	xorps	%xmm0, %xmm0
	movaps	%xmm0, 48(%rsp)
	movl	$23, %eax
	cmpl	$1315899393, (%rcx)
	jne	.Lnoise_BB47_7
	movl	$22, %eax
	cmpb	$0, 4(%rcx)
	jne	.Lnoise_BB47_7
	movq	40(%rcx), %rax
	movb	$1, 72(%rsp)
	movups	5(%rcx), %xmm0
	movups	21(%rcx), %xmm1
	movups	%xmm0, 73(%rsp)
	movups	%xmm1, 89(%rsp)
	movq	%rax, 112(%rsp)
	movl	$24, %eax
	cmpq	$65535, %r10
	ja	.Lnoise_BB47_7
	movq	200(%rsp), %r14
	movq	192(%rsp), %rax
	subq	$16, %rax
	setb	%dil
	cmpq	%r14, %rax
	setb	%al
	orb	%dil, %al
	movl	$18, %eax
	jne	.Lnoise_BB47_7
	movq	%rcx, %rdi
	movb	%sil, %r11b
	shll	$12, %r11d
	addq	%r11, %r8
	movb	%bl, %dl
	shll	$12, %edx
	addq	%rdx, %r9
	movq	%r14, 40(%rsp)
	movq	%r9, 32(%rsp)
	leaq	48(%rsp), %rcx
	leaq	72(%rsp), %rdx
	movq	%r10, %r9
	callq	"noise_state::cipher::CipherState::encrypt"
	cmpb	$0, 48(%rsp)
	je	.Lnoise_BB47_5
	movzbl	49(%rsp), %eax
	leaq	.Lnoise_switch.table.noise_cipher_encrypt(%rip), %rcx
	movl	(%rcx,%rax,4), %eax
	jmp	.Lnoise_BB47_7
.Lnoise_BB47_5:
	movq	208(%rsp), %rax
	movq	56(%rsp), %rcx
	movq	$0, (%rax)
	movq	%rcx, 8(%rax)
	movq	112(%rsp), %rax
	movq	%rax, 40(%rdi)
	xorl	%eax, %eax
.Lnoise_BB47_7:
	addq	$120, %rsp
	popq	%rbx
	popq	%rdi
	popq	%rsi
	popq	%r14
	retq
	.seh_endproc

	.def	noise_cipher_nonce;
	.scl	2;
	.type	32;
	.endef
	.globl	noise_cipher_nonce
	.p2align	4
noise_cipher_nonce:
	movl	$-257, %r8d
	andl	(%rcx), %r8d
	movl	$23, %eax
	cmpl	$1315899393, %r8d
	jne	.Lnoise_BB48_3
	movl	$22, %eax
	cmpb	$0, 4(%rcx)
	je	.Lnoise_BB48_2
.Lnoise_BB48_3:
	retq
.Lnoise_BB48_2:
	movq	40(%rcx), %rax
	movq	%rax, (%rdx)
	xorl	%eax, %eax
	retq

	.def	noise_cipher_rekey;
	.scl	2;
	.type	32;
	.endef
	.globl	noise_cipher_rekey
	.p2align	4
noise_cipher_rekey:
.seh_proc noise_cipher_rekey
	pushq	%rsi
	.seh_pushreg %rsi
	subq	$80, %rsp
	.seh_stackalloc 80
	.seh_endprologue
	movq	$0, 64(%rsp)
	movl	$-257, %edx
	andl	(%rcx), %edx
	movl	$23, %eax
	cmpl	$1315899393, %edx
	jne	.Lnoise_BB49_2
	movl	$22, %eax
	cmpb	$0, 4(%rcx)
	je	.Lnoise_BB49_3
.Lnoise_BB49_2:
	addq	$80, %rsp
	popq	%rsi
	retq
.Lnoise_BB49_3:
	movq	40(%rcx), %rax
	movb	$1, 32(%rsp)
	movups	5(%rcx), %xmm0
	movq	%rcx, %rsi
	movups	21(%rcx), %xmm1
	movups	%xmm0, 33(%rsp)
	movups	%xmm1, 49(%rsp)
	movq	%rax, 72(%rsp)
	leaq	32(%rsp), %rcx
	callq	"noise_state::cipher::CipherState::rekey"
	xorl	%eax, %eax
	cmpb	$1, 32(%rsp)
	jne	.Lnoise_BB49_2
	addq	$5, %rsi
	leaq	33(%rsp), %rcx
	movups	(%rcx), %xmm0
	movups	16(%rcx), %xmm1
	movups	%xmm1, 16(%rsi)
	movups	%xmm0, (%rsi)
	addq	$80, %rsp
	popq	%rsi
	retq
	.seh_endproc

	.def	noise_cipher_set_nonce;
	.scl	2;
	.type	32;
	.endef
	.globl	noise_cipher_set_nonce
	.p2align	4
noise_cipher_set_nonce:
	movl	$-257, %r8d
	andl	(%rcx), %r8d
	movl	$23, %eax
	cmpl	$1315899393, %r8d
	jne	.Lnoise_BB50_3
	movl	$22, %eax
	cmpb	$0, 4(%rcx)
	je	.Lnoise_BB50_2
.Lnoise_BB50_3:
	retq
.Lnoise_BB50_2:
	movq	%rdx, 40(%rcx)
	xorl	%eax, %eax
	retq

	.def	noise_cipher_size;
	.scl	2;
	.type	32;
	.endef
	.globl	noise_cipher_size
	.p2align	4
noise_cipher_size:
	movl	$48, %eax
	retq

	.def	noise_datagram_receiver_size;
	.scl	2;
	.type	32;
	.endef
	.globl	noise_datagram_receiver_size
	.p2align	4
noise_datagram_receiver_size:
	movl	$192, %eax
	retq

	.def	noise_datagram_sender_size;
	.scl	2;
	.type	32;
	.endef
	.globl	noise_datagram_sender_size
	.p2align	4
noise_datagram_sender_size:
	movl	$48, %eax
	retq

	.def	noise_frame_find;
	.scl	2;
	.type	32;
	.endef
	.globl	noise_frame_find
	.p2align	4
noise_frame_find:
	movl	$2, %eax
	cmpq	$2, %rdx
	jb	.Lnoise_BB54_2
	xorl	%eax, %eax
	testq	%rcx, %rcx
	sete	%al
	shll	$12, %eax
	movzwl	(%rcx,%rax), %eax
	rolw	$8, %ax
	movzwl	%ax, %ecx
	leaq	2(%rcx), %rax
	cmpq	%rax, %rdx
	jae	.Lnoise_BB54_3
.Lnoise_BB54_2:
	subq	%rdx, %rax
	movq	%rax, 24(%r8)
	movl	$42, %eax
	retq
.Lnoise_BB54_3:
	movq	$2, (%r8)
	movq	%rcx, 8(%r8)
	movq	%rax, 16(%r8)
	xorl	%eax, %eax
	retq

	.def	noise_frame_message;
	.scl	2;
	.type	32;
	.endef
	.globl	noise_frame_message
	.p2align	4
noise_frame_message:
	xorl	%r10d, %r10d
	testq	%rcx, %rcx
	sete	%r11b
	movl	$24, %eax
	cmpq	$65535, %r8
	ja	.Lnoise_BB55_3
	subq	$2, %rdx
	setb	%al
	cmpq	%r8, %rdx
	setb	%dl
	orb	%al, %dl
	movl	$18, %eax
	jne	.Lnoise_BB55_3
	movb	%r11b, %r10b
	shll	$12, %r10d
	movl	%r8d, %eax
	rolw	$8, %ax
	movw	%ax, (%rcx,%r10)
	addq	$2, %r8
	movq	%r8, 8(%r9)
	xorl	%eax, %eax
.Lnoise_BB55_3:
	retq

	.def	noise_handshake_size;
	.scl	2;
	.type	32;
	.endef
	.globl	noise_handshake_size
	.p2align	4
noise_handshake_size:
	movl	$1472, %eax
	retq

	.def	noise_receiver_size;
	.scl	2;
	.type	32;
	.endef
	.globl	noise_receiver_size
	.p2align	4
noise_receiver_size:
	movl	$56, %eax
	retq

	.def	noise_sender_size;
	.scl	2;
	.type	32;
	.endef
	.globl	noise_sender_size
	.p2align	4
noise_sender_size:
	movl	$56, %eax
	retq

	.def	noise_stream_receiver_size;
	.scl	2;
	.type	32;
	.endef
	.globl	noise_stream_receiver_size
	.p2align	4
noise_stream_receiver_size:
	movl	$64, %eax
	retq

	.def	noise_stream_sender_size;
	.scl	2;
	.type	32;
	.endef
	.globl	noise_stream_sender_size
	.p2align	4
noise_stream_sender_size:
	movl	$64, %eax
	retq

	.def	noise_version;
	.scl	2;
	.type	32;
	.endef
	.globl	noise_version
	.p2align	4
noise_version:
	movl	$65536, %eax
	retq

	.def	noise_answer;
	.scl	2;
	.type	32;
	.endef
	.globl	noise_answer
	.p2align	4
noise_answer:
.seh_proc noise_answer
	subq	$136, %rsp
	.seh_stackalloc 136
	.seh_endprologue
	movl	$23, %eax
	cmpl	$1315897601, (%rcx)
	jne	.Lnoise_BB62_6
	movzbl	846(%rcx), %r10d
	cmpq	$8, %r10
	ja	.Lnoise_BB62_6
	movups	(%r8), %xmm0
	movups	16(%r8), %xmm1
	movaps	%xmm1, 48(%rsp)
	movaps	%xmm0, 32(%rsp)
	movups	(%r9), %xmm0
	movups	16(%r9), %xmm1
	movaps	%xmm0, (%rsp)
	movaps	%xmm1, 16(%rsp)
	cmpl	$8, %r10d
	jne	.Lnoise_BB62_4
	movups	(%r8), %xmm0
	movups	16(%r8), %xmm1
	movaps	%xmm1, 112(%rsp)
	movaps	%xmm0, 96(%rsp)
	movups	(%r9), %xmm0
	movups	16(%r9), %xmm1
	movaps	%xmm1, 80(%rsp)
	movaps	%xmm0, 64(%rsp)
	movups	912(%rcx), %xmm0
	movups	928(%rcx), %xmm1
	movups	944(%rcx), %xmm2
	movups	960(%rcx), %xmm3
	movups	%xmm0, 847(%rcx)
	movups	%xmm1, 863(%rcx)
	movups	%xmm2, 879(%rcx)
	movups	%xmm3, 895(%rcx)
	movzbl	976(%rcx), %eax
	movb	%al, 911(%rcx)
	movups	977(%rcx), %xmm0
	movups	%xmm0, 912(%rcx)
	movups	993(%rcx), %xmm0
	movups	%xmm0, 928(%rcx)
	movups	1009(%rcx), %xmm0
	movups	%xmm0, 944(%rcx)
	movups	1025(%rcx), %xmm0
	movups	%xmm0, 960(%rcx)
	movzbl	1041(%rcx), %eax
	movb	%al, 976(%rcx)
	movups	1042(%rcx), %xmm0
	movups	1058(%rcx), %xmm1
	movups	1074(%rcx), %xmm2
	movups	1090(%rcx), %xmm3
	movups	%xmm0, 977(%rcx)
	movzbl	1106(%rcx), %eax
	movb	%al, 1041(%rcx)
	movups	%xmm3, 1025(%rcx)
	movups	%xmm2, 1009(%rcx)
	movups	%xmm1, 993(%rcx)
	movzbl	1171(%rcx), %eax
	movb	%al, 1106(%rcx)
	movups	1107(%rcx), %xmm0
	movups	1123(%rcx), %xmm1
	movups	1139(%rcx), %xmm2
	movups	1155(%rcx), %xmm3
	movups	%xmm3, 1090(%rcx)
	movups	%xmm2, 1074(%rcx)
	movups	%xmm1, 1058(%rcx)
	movups	%xmm0, 1042(%rcx)
	movzbl	1236(%rcx), %eax
	movb	%al, 1171(%rcx)
	movups	1172(%rcx), %xmm0
	movups	1188(%rcx), %xmm1
	movups	1204(%rcx), %xmm2
	movups	1220(%rcx), %xmm3
	movups	%xmm3, 1155(%rcx)
	movups	%xmm2, 1139(%rcx)
	movups	%xmm1, 1123(%rcx)
	movups	%xmm0, 1107(%rcx)
	movzbl	1301(%rcx), %eax
	movb	%al, 1236(%rcx)
	movups	1237(%rcx), %xmm0
	movups	1253(%rcx), %xmm1
	movups	1269(%rcx), %xmm2
	movups	1285(%rcx), %xmm3
	movups	%xmm3, 1220(%rcx)
	movups	%xmm2, 1204(%rcx)
	movups	%xmm1, 1188(%rcx)
	movups	%xmm0, 1172(%rcx)
	movzbl	1366(%rcx), %eax
	movb	%al, 1301(%rcx)
	movups	1302(%rcx), %xmm0
	movups	1318(%rcx), %xmm1
	movups	1334(%rcx), %xmm2
	movups	1350(%rcx), %xmm3
	movups	%xmm3, 1285(%rcx)
	movups	%xmm2, 1269(%rcx)
	movups	%xmm1, 1253(%rcx)
	movups	%xmm0, 1237(%rcx)
	movb	%dl, 1302(%rcx)
	movaps	96(%rsp), %xmm0
	movaps	112(%rsp), %xmm1
	movups	%xmm1, 1319(%rcx)
	movups	%xmm0, 1303(%rcx)
	movaps	64(%rsp), %xmm0
	movaps	80(%rsp), %xmm1
	movups	%xmm1, 1351(%rcx)
	movups	%xmm0, 1335(%rcx)
	jmp	.Lnoise_BB62_5
.Lnoise_BB62_4:
	movl	%r10d, %eax
	shll	$6, %eax
	addq	%r10, %rax
	movb	%dl, 847(%rcx,%rax)
	movaps	32(%rsp), %xmm0
	movaps	48(%rsp), %xmm1
	movups	%xmm0, 848(%rcx,%rax)
	movups	%xmm1, 864(%rcx,%rax)
	movaps	(%rsp), %xmm0
	movaps	16(%rsp), %xmm1
	movups	%xmm0, 880(%rcx,%rax)
	movups	%xmm1, 896(%rcx,%rax)
	leal	1(%r10), %eax
	movb	%al, 846(%rcx)
.Lnoise_BB62_5:
	xorl	%eax, %eax
.Lnoise_BB62_6:
	addq	$136, %rsp
	retq
	.seh_endproc

	.def	noise_datagram_sender_nonce;
	.scl	2;
	.type	32;
	.endef
	.globl	noise_datagram_sender_nonce
	.p2align	4
noise_datagram_sender_nonce:
	movl	$23, %eax
	cmpl	$1315898881, (%rcx)
	jne	.Lnoise_BB63_3
	movzbl	4(%rcx), %r8d
	decb	%r8b
	cmpb	$1, %r8b
	ja	.Lnoise_BB63_3
	movq	40(%rcx), %rax
	movq	%rax, (%rdx)
	xorl	%eax, %eax
.Lnoise_BB63_3:
	retq

	.def	noise_receiver_nonce;
	.scl	2;
	.type	32;
	.endef
	.globl	noise_receiver_nonce
	.p2align	4
noise_receiver_nonce:
	movl	$23, %eax
	cmpl	$1315898369, (%rcx)
	jne	.Lnoise_BB64_3
	movzbl	4(%rcx), %r8d
	decb	%r8b
	cmpb	$1, %r8b
	ja	.Lnoise_BB64_3
	movq	48(%rcx), %rax
	movq	%rax, (%rdx)
	xorl	%eax, %eax
.Lnoise_BB64_3:
	retq

	.def	noise_sender_nonce;
	.scl	2;
	.type	32;
	.endef
	.globl	noise_sender_nonce
	.p2align	4
noise_sender_nonce:
	movl	$23, %eax
	cmpl	$1315898113, (%rcx)
	jne	.Lnoise_BB65_3
	movzbl	4(%rcx), %r8d
	decb	%r8b
	cmpb	$1, %r8b
	ja	.Lnoise_BB65_3
	movq	48(%rcx), %rax
	movq	%rax, (%rdx)
	xorl	%eax, %eax
.Lnoise_BB65_3:
	retq

	.def	noise_open;
	.scl	2;
	.type	32;
	.endef
	.globl	noise_open
	.p2align	4
noise_open:
.seh_proc noise_open
	pushq	%r15
	.seh_pushreg %r15
	pushq	%r14
	.seh_pushreg %r14
	pushq	%rsi
	.seh_pushreg %rsi
	pushq	%rdi
	.seh_pushreg %rdi
	pushq	%rbp
	.seh_pushreg %rbp
	pushq	%rbx
	.seh_pushreg %rbx
	subq	$136, %rsp
	.seh_stackalloc 136
	.seh_endprologue
	xorl	%r10d, %r10d
	testq	%rdx, %rdx
	sete	%r11b
	movl	$23, %eax
	cmpl	$1315898369, (%rcx)
	jne	.Lnoise_BB66_23
	movzbl	4(%rcx), %esi
	cmpl	$1, %esi
	je	.Lnoise_BB66_2
	cmpl	$2, %esi
	jne	.Lnoise_BB66_23
	movb	$1, %dil
	xorl	%esi, %esi
	movl	$24, %eax
	cmpq	$65535, %r8
	jbe	.Lnoise_BB66_6
	jmp	.Lnoise_BB66_23
.Lnoise_BB66_2:
	xorl	%edi, %edi
	movb	$1, %sil
	movl	$24, %eax
	cmpq	$65535, %r8
	ja	.Lnoise_BB66_23
.Lnoise_BB66_6:
	movq	40(%rcx), %rax
	movq	48(%rcx), %rbx
	cmpb	$0, 5(%rcx)
	movb	%dil, 72(%rsp)
	setne	73(%rsp)
	leaq	6(%rcx), %rdi
	setne	%bpl
	movl	$0, 74(%rsp)
	movw	$0, 78(%rsp)
	movq	%rax, 80(%rsp)
	movb	$1, 88(%rsp)
	movups	(%rdi), %xmm0
	movups	16(%rdi), %xmm1
	movups	%xmm0, 89(%rsp)
	movups	%xmm1, 105(%rsp)
	movl	$0, 121(%rsp)
	movl	$0, 124(%rsp)
	movq	%rbx, 128(%rsp)
	xorps	%xmm0, %xmm0
	movaps	%xmm0, 48(%rsp)
	testb	%sil, %bpl
	je	.Lnoise_BB66_7
	movl	$22, %eax
	jmp	.Lnoise_BB66_23
.Lnoise_BB66_7:
	movq	%r9, %rbx
	movq	%rcx, %r14
	movb	%r11b, %r10b
	shll	$12, %r10d
	addq	%r10, %rdx
	leaq	88(%rsp), %rsi
	movq	%r8, 40(%rsp)
	movq	%rdx, 32(%rsp)
	leaq	.Lnoise_static.1(%rip), %r8
	leaq	48(%rsp), %rcx
	movq	%rsi, %rdx
	xorl	%r9d, %r9d
	callq	"noise_state::cipher::CipherState::decrypt"
	cmpb	$0, 48(%rsp)
	je	.Lnoise_BB66_8
	movzbl	49(%rsp), %eax
	leaq	.Lnoise_JTI66_0(%rip), %rcx
	movslq	(%rcx,%rax,4), %rax
	addq	%rcx, %rax
	jmpq	*%rax
.Lnoise_BB66_21:
	movl	$17, %eax
	jmp	.Lnoise_BB66_23
.Lnoise_BB66_8:
	movq	56(%rsp), %r15
	movq	80(%rsp), %r8
	movq	128(%rsp), %rcx
	testq	%r8, %r8
	je	.Lnoise_BB66_9
	movq	%rcx, %rax
	orq	%r8, %rax
	shrq	$32, %rax
	movq	%rbx, %r9
	je	.Lnoise_BB66_11
	movq	%rcx, %rax
	xorl	%edx, %edx
	divq	%r8
	jmp	.Lnoise_BB66_13
.Lnoise_BB66_20:
	movl	$16, %eax
	jmp	.Lnoise_BB66_23
.Lnoise_BB66_18:
	movl	$15, %eax
	jmp	.Lnoise_BB66_23
.Lnoise_BB66_9:
	xorl	%r8d, %r8d
	movq	%r14, %rax
	movq	%rbx, %r9
	jmp	.Lnoise_BB66_15
.Lnoise_BB66_11:
	movl	%ecx, %eax
	xorl	%edx, %edx
	divl	%r8d
.Lnoise_BB66_13:
	movq	%r14, %rax
	testq	%rdx, %rdx
	jne	.Lnoise_BB66_15
	movq	%rsi, %rcx
	callq	"noise_state::cipher::CipherState::rekey"
	movq	%rbx, %r9
	movq	%r14, %rax
	movq	80(%rsp), %r8
	movq	128(%rsp), %rcx
.Lnoise_BB66_15:
	movq	$0, (%r9)
	movq	%r15, 8(%r9)
	cmpb	$1, 88(%rsp)
	jne	.Lnoise_BB66_16
	movzbl	73(%rsp), %edx
	andb	$1, %dl
	cmpb	$1, 72(%rsp)
	movb	$2, %r9b
	sbbb	$0, %r9b
	leaq	89(%rsp), %r10
	movl	$1315898369, (%rax)
	movb	%r9b, 4(%rax)
	movb	%dl, 5(%rax)
	movups	(%r10), %xmm0
	movups	16(%r10), %xmm1
	movups	%xmm1, 16(%rdi)
	movups	%xmm0, (%rdi)
	movw	$0, 38(%rax)
	movq	%r8, 40(%rax)
	movq	%rcx, 48(%rax)
	xorl	%eax, %eax
.Lnoise_BB66_23:
	addq	$136, %rsp
	popq	%rbx
	popq	%rbp
	popq	%rdi
	popq	%rsi
	popq	%r14
	popq	%r15
	retq
.Lnoise_BB66_16:
	ud2
	.section	.rdata,"dr"
	.p2align	2, 0x0
.Lnoise_JTI66_0:
	.long	.Lnoise_BB66_21-.Lnoise_JTI66_0
	.long	.Lnoise_BB66_20-.Lnoise_JTI66_0
	.long	.Lnoise_BB66_18-.Lnoise_JTI66_0
	.long	.Lnoise_BB66_16-.Lnoise_JTI66_0
	.text
	.seh_endproc

	.def	noise_datagram_seal;
	.scl	2;
	.type	32;
	.endef
	.globl	noise_datagram_seal
	.p2align	4
noise_datagram_seal:
.seh_proc noise_datagram_seal
	pushq	%r15
	.seh_pushreg %r15
	pushq	%r14
	.seh_pushreg %r14
	pushq	%r13
	.seh_pushreg %r13
	pushq	%r12
	.seh_pushreg %r12
	pushq	%rsi
	.seh_pushreg %rsi
	pushq	%rdi
	.seh_pushreg %rdi
	pushq	%rbp
	.seh_pushreg %rbp
	pushq	%rbx
	.seh_pushreg %rbx
	subq	$136, %rsp
	.seh_stackalloc 136
	.seh_endprologue
	xorl	%r10d, %r10d
	testq	%rdx, %rdx
	sete	%sil
	xorl	%r11d, %r11d
	testq	%r9, %r9
	sete	%bl
	movl	$23, %eax
	cmpl	$1315898881, (%rcx)
	jne	.Lnoise_BB67_38
	movzbl	4(%rcx), %edi
	cmpl	$1, %edi
	je	.Lnoise_BB67_2
	cmpl	$2, %edi
	jne	.Lnoise_BB67_38
	movb	$1, %dil
	movb	$1, %al
	jmp	.Lnoise_BB67_5
.Lnoise_BB67_2:
	xorl	%edi, %edi
	xorl	%eax, %eax
.Lnoise_BB67_5:
	movq	240(%rsp), %r15
	movzbl	5(%rcx), %ebp
	testb	%bpl, %bpl
	movq	40(%rcx), %r14
	movb	%al, 48(%rsp)
	setne	49(%rsp)
	movq	$0, 50(%rsp)
	movq	$0, 56(%rsp)
	movb	$1, 64(%rsp)
	movups	6(%rcx), %xmm0
	movups	22(%rcx), %xmm1
	movups	%xmm0, 65(%rsp)
	movups	%xmm1, 81(%rsp)
	movl	$0, 97(%rsp)
	movl	$0, 100(%rsp)
	movq	%r14, 104(%rsp)
	subq	$24, %r15
	setb	%al
	cmpq	%r8, %r15
	setb	%r15b
	orb	%al, %r15b
	movl	$18, %eax
	jne	.Lnoise_BB67_38
	testb	%bpl, %bpl
	setne	%bpl
	movl	$22, %eax
	testb	%bpl, %dil
	jne	.Lnoise_BB67_38
	movl	$11, %eax
	cmpq	$65519, %r8
	ja	.Lnoise_BB67_38
	cmpq	$-1, %r14
	je	.Lnoise_BB67_9
	movb	%sil, %r10b
	shll	$12, %r10d
	leaq	(%rdx,%r10), %rax
	movb	%bl, %r11b
	shll	$12, %r11d
	leaq	(%r9,%r11), %r15
	leaq	64(%rsp), %rsi
	leaq	8(%r15), %rdi
	movq	%rdi, %rbx
	subq	%rax, %rbx
	cmpq	%r8, %rbx
	jae	.Lnoise_BB67_39
	cmpq	$4, %r8
	jb	.Lnoise_BB67_12
	movq	%r15, %rbx
	subq	%rax, %rbx
	addq	$8, %rbx
	cmpq	$32, %rbx
	jae	.Lnoise_BB67_14
.Lnoise_BB67_12:
	movq	%rcx, %r12
	xorl	%ecx, %ecx
.Lnoise_BB67_23:
	movq	%r8, %r13
	movq	%rcx, %rbx
	andq	$3, %r13
	je	.Lnoise_BB67_26
	movq	%rcx, %rbx
	.p2align	4
.Lnoise_BB67_25:
	movzbl	(%rax,%rbx), %ebp
	movb	%bpl, (%rdi,%rbx)
	incq	%rbx
	decq	%r13
	jne	.Lnoise_BB67_25
.Lnoise_BB67_26:
	subq	%r8, %rcx
	cmpq	$-4, %rcx
	ja	.Lnoise_BB67_29
	leaq	(%r10,%rdx), %rax
	addq	$3, %rax
	leaq	(%r11,%r9), %rcx
	addq	$11, %rcx
.Lnoise_BB67_28:
	movzbl	-3(%rax,%rbx), %edx
	movb	%dl, -3(%rcx,%rbx)
	movzbl	-2(%rax,%rbx), %edx
	movb	%dl, -2(%rcx,%rbx)
	movzbl	-1(%rax,%rbx), %edx
	movb	%dl, -1(%rcx,%rbx)
	movzbl	(%rax,%rbx), %edx
	movb	%dl, (%rcx,%rbx)
	addq	$4, %rbx
	cmpq	%rbx, %r8
	jne	.Lnoise_BB67_28
	jmp	.Lnoise_BB67_29
.Lnoise_BB67_9:
	movl	$17, %eax
	jmp	.Lnoise_BB67_38
.Lnoise_BB67_39:
	movq	%rcx, %r12
	movq	%rdi, %rcx
	movq	%rax, %rdx
	movq	%r8, %rbx
	callq	memmove
	movq	%rbx, %r8
.Lnoise_BB67_29:
	xorps	%xmm0, %xmm0
	movaps	%xmm0, 112(%rsp)
	movq	%r8, 40(%rsp)
	movq	%rdi, 32(%rsp)
	leaq	.Lnoise_static.1(%rip), %r8
	leaq	112(%rsp), %rcx
	movq	%rsi, %rdx
	xorl	%r9d, %r9d
	callq	"noise_state::cipher::CipherState::encrypt"
	cmpb	$0, 112(%rsp)
	jne	.Lnoise_BB67_40
	movq	248(%rsp), %rdi
	movq	120(%rsp), %rbx
	movq	56(%rsp), %r8
	movq	104(%rsp), %rcx
	testq	%r8, %r8
	je	.Lnoise_BB67_36
	movq	%rcx, %rax
	orq	%r8, %rax
	shrq	$32, %rax
	je	.Lnoise_BB67_32
	movq	%rcx, %rax
	xorl	%edx, %edx
	divq	%r8
	jmp	.Lnoise_BB67_34
.Lnoise_BB67_32:
	movl	%ecx, %eax
	xorl	%edx, %edx
	divl	%r8d
.Lnoise_BB67_34:
	testq	%rdx, %rdx
	jne	.Lnoise_BB67_36
	movq	%rsi, %rcx
	callq	"noise_state::cipher::CipherState::rekey"
	movq	104(%rsp), %rcx
.Lnoise_BB67_36:
	bswapq	%r14
	movq	%r14, (%r15)
	addq	$8, %rbx
	movq	$0, (%rdi)
	movq	%rbx, 8(%rdi)
	cmpb	$1, 64(%rsp)
	jne	.Lnoise_BB67_40
	leaq	6(%r12), %rax
	cmpb	$1, 48(%rsp)
	leaq	65(%rsp), %rdx
	movb	$2, %r8b
	sbbb	$0, %r8b
	movzbl	49(%rsp), %r9d
	andb	$1, %r9b
	movl	$1315898881, (%r12)
	movb	%r8b, 4(%r12)
	movb	%r9b, 5(%r12)
	movups	(%rdx), %xmm0
	movups	16(%rdx), %xmm1
	movups	%xmm1, 16(%rax)
	movups	%xmm0, (%rax)
	movw	$0, 38(%r12)
	movq	%rcx, 40(%r12)
	xorl	%eax, %eax
.Lnoise_BB67_38:
	addq	$136, %rsp
	popq	%rbx
	popq	%rbp
	popq	%rdi
	popq	%rsi
	popq	%r12
	popq	%r13
	popq	%r14
	popq	%r15
	retq
.Lnoise_BB67_14:
	movq	%rcx, %r12
	cmpq	$32, %r8
	jae	.Lnoise_BB67_16
	xorl	%ecx, %ecx
	jmp	.Lnoise_BB67_20
.Lnoise_BB67_16:
	movl	%r8d, %ecx
	andl	$65504, %ecx
	leaq	(%r10,%rdx), %rbx
	addq	$16, %rbx
	leaq	(%r11,%r9), %r13
	addq	$24, %r13
	xorl	%ebp, %ebp
.Lnoise_BB67_17:
	movups	-16(%rbx,%rbp), %xmm0
	movups	(%rbx,%rbp), %xmm1
	movups	%xmm0, -16(%r13,%rbp)
	movups	%xmm1, (%r13,%rbp)
	addq	$32, %rbp
	cmpq	%rbp, %rcx
	jne	.Lnoise_BB67_17
	cmpq	%rcx, %r8
	je	.Lnoise_BB67_29
	testb	$28, %r8b
	je	.Lnoise_BB67_23
.Lnoise_BB67_20:
	movq	%rcx, %rbx
	movl	%r8d, %ecx
	andl	$65532, %ecx
.Lnoise_BB67_21:
	movl	(%rax,%rbx), %ebp
	movl	%ebp, (%rdi,%rbx)
	addq	$4, %rbx
	cmpq	%rbx, %rcx
	jne	.Lnoise_BB67_21
	cmpq	%rcx, %r8
	jne	.Lnoise_BB67_23
	jmp	.Lnoise_BB67_29
.Lnoise_BB67_40:
	ud2
	.seh_endproc

	.def	noise_datagram_seal_in_place;
	.scl	2;
	.type	32;
	.endef
	.globl	noise_datagram_seal_in_place
	.p2align	4
noise_datagram_seal_in_place:
.seh_proc noise_datagram_seal_in_place
	pushq	%r15
	.seh_pushreg %r15
	pushq	%r14
	.seh_pushreg %r14
	pushq	%r12
	.seh_pushreg %r12
	pushq	%rsi
	.seh_pushreg %rsi
	pushq	%rdi
	.seh_pushreg %rdi
	pushq	%rbx
	.seh_pushreg %rbx
	subq	$136, %rsp
	.seh_stackalloc 136
	.seh_endprologue
	xorl	%r10d, %r10d
	testq	%rdx, %rdx
	sete	%r11b
	movl	$23, %eax
	cmpl	$1315898881, (%rcx)
	jne	.Lnoise_BB68_20
	movzbl	4(%rcx), %esi
	cmpl	$1, %esi
	je	.Lnoise_BB68_2
	cmpl	$2, %esi
	jne	.Lnoise_BB68_20
	movb	$1, %sil
	movb	$1, %al
	jmp	.Lnoise_BB68_5
.Lnoise_BB68_2:
	xorl	%esi, %esi
	xorl	%eax, %eax
.Lnoise_BB68_5:
	movzbl	5(%rcx), %ebx
	testb	%bl, %bl
	movq	40(%rcx), %rdi
	movb	%al, 48(%rsp)
	setne	49(%rsp)
	movq	$0, 50(%rsp)
	movq	$0, 56(%rsp)
	movb	$1, 64(%rsp)
	movups	6(%rcx), %xmm0
	movups	22(%rcx), %xmm1
	movups	%xmm0, 65(%rsp)
	movups	%xmm1, 81(%rsp)
	movl	$0, 97(%rsp)
	movl	$0, 100(%rsp)
	movq	%rdi, 104(%rsp)
	subq	$24, %r8
	setb	%al
	cmpq	%r9, %r8
	setb	%r8b
	orb	%al, %r8b
	movl	$18, %eax
	jne	.Lnoise_BB68_20
	testb	%bl, %bl
	setne	%r8b
	movl	$22, %eax
	testb	%r8b, %sil
	jne	.Lnoise_BB68_20
	movl	$11, %eax
	cmpq	$65519, %r9
	ja	.Lnoise_BB68_20
	cmpq	$-1, %rdi
	je	.Lnoise_BB68_9
	movq	%rcx, %rbx
	movb	%r11b, %r10b
	shll	$12, %r10d
	addq	%r10, %rdx
	leaq	64(%rsp), %rsi
	movq	%rdx, %r14
	leaq	8(%rdx), %rax
	xorps	%xmm0, %xmm0
	movaps	%xmm0, 112(%rsp)
	movq	%r9, 40(%rsp)
	movq	%rax, 32(%rsp)
	leaq	.Lnoise_static.1(%rip), %r8
	leaq	112(%rsp), %rcx
	movq	%rsi, %rdx
	xorl	%r9d, %r9d
	callq	"noise_state::cipher::CipherState::encrypt"
	cmpb	$0, 112(%rsp)
	jne	.Lnoise_BB68_21
	movq	224(%rsp), %r15
	movq	120(%rsp), %r12
	movq	56(%rsp), %r9
	movq	104(%rsp), %rcx
	testq	%r9, %r9
	je	.Lnoise_BB68_12
	movq	%rcx, %rax
	orq	%r9, %rax
	shrq	$32, %rax
	movq	%rbx, %r8
	je	.Lnoise_BB68_14
	movq	%rcx, %rax
	xorl	%edx, %edx
	divq	%r9
	jmp	.Lnoise_BB68_16
.Lnoise_BB68_9:
	movl	$17, %eax
	jmp	.Lnoise_BB68_20
.Lnoise_BB68_12:
	movq	%rbx, %r8
	movq	%r14, %rax
	jmp	.Lnoise_BB68_18
.Lnoise_BB68_14:
	movl	%ecx, %eax
	xorl	%edx, %edx
	divl	%r9d
.Lnoise_BB68_16:
	testq	%rdx, %rdx
	movq	%r14, %rax
	jne	.Lnoise_BB68_18
	movq	%rsi, %rcx
	callq	"noise_state::cipher::CipherState::rekey"
	movq	%r14, %rax
	movq	%rbx, %r8
	movq	104(%rsp), %rcx
.Lnoise_BB68_18:
	bswapq	%rdi
	movq	%rdi, (%rax)
	addq	$8, %r12
	movq	$0, (%r15)
	movq	%r12, 8(%r15)
	cmpb	$1, 64(%rsp)
	jne	.Lnoise_BB68_21
	leaq	6(%r8), %rax
	cmpb	$1, 48(%rsp)
	leaq	65(%rsp), %rdx
	movb	$2, %r9b
	sbbb	$0, %r9b
	movzbl	49(%rsp), %r10d
	andb	$1, %r10b
	movl	$1315898881, (%r8)
	movb	%r9b, 4(%r8)
	movb	%r10b, 5(%r8)
	movups	(%rdx), %xmm0
	movups	16(%rdx), %xmm1
	movups	%xmm1, 16(%rax)
	movups	%xmm0, (%rax)
	movw	$0, 38(%r8)
	movq	%rcx, 40(%r8)
	xorl	%eax, %eax
.Lnoise_BB68_20:
	addq	$136, %rsp
	popq	%rbx
	popq	%rdi
	popq	%rsi
	popq	%r12
	popq	%r14
	popq	%r15
	retq
.Lnoise_BB68_21:
	ud2
	.seh_endproc

	.def	noise_seal;
	.scl	2;
	.type	32;
	.endef
	.globl	noise_seal
	.p2align	4
noise_seal:
.seh_proc noise_seal
	pushq	%r15
	.seh_pushreg %r15
	pushq	%r14
	.seh_pushreg %r14
	pushq	%r13
	.seh_pushreg %r13
	pushq	%r12
	.seh_pushreg %r12
	pushq	%rsi
	.seh_pushreg %rsi
	pushq	%rdi
	.seh_pushreg %rdi
	pushq	%rbp
	.seh_pushreg %rbp
	pushq	%rbx
	.seh_pushreg %rbx
	subq	$136, %rsp
	.seh_stackalloc 136
	.seh_endprologue
	xorl	%r10d, %r10d
	testq	%rdx, %rdx
	sete	%sil
	xorl	%r11d, %r11d
	testq	%r9, %r9
	sete	%bl
	movl	$23, %eax
	cmpl	$1315898113, (%rcx)
	jne	.Lnoise_BB69_39
	movzbl	4(%rcx), %edi
	cmpl	$1, %edi
	je	.Lnoise_BB69_2
	cmpl	$2, %edi
	jne	.Lnoise_BB69_39
	movb	$1, %dil
	movb	$1, %bpl
	jmp	.Lnoise_BB69_5
.Lnoise_BB69_2:
	xorl	%edi, %edi
	xorl	%ebp, %ebp
.Lnoise_BB69_5:
	movq	240(%rsp), %rax
	subq	$16, %rax
	setb	%r14b
	cmpq	%r8, %rax
	setb	%al
	orb	%r14b, %al
	movl	$18, %eax
	jne	.Lnoise_BB69_39
	leaq	6(%rcx), %r14
	movq	48(%rcx), %r15
	movq	40(%rcx), %rax
	cmpb	$0, 5(%rcx)
	setne	%r12b
	movb	%bpl, 48(%rsp)
	setne	49(%rsp)
	movl	$0, 50(%rsp)
	movw	$0, 54(%rsp)
	movq	%rax, 56(%rsp)
	movb	$1, 64(%rsp)
	movups	(%r14), %xmm0
	movups	16(%r14), %xmm1
	movups	%xmm0, 65(%rsp)
	movups	%xmm1, 81(%rsp)
	movl	$0, 97(%rsp)
	movl	$0, 100(%rsp)
	movq	%r15, 104(%rsp)
	movl	$22, %eax
	testb	%dil, %r12b
	jne	.Lnoise_BB69_39
	movl	$11, %eax
	cmpq	$65519, %r8
	ja	.Lnoise_BB69_39
	cmpq	$-1, %r15
	je	.Lnoise_BB69_9
	movb	%sil, %r10b
	shll	$12, %r10d
	leaq	(%rdx,%r10), %rax
	movb	%bl, %r11b
	shll	$12, %r11d
	leaq	(%r9,%r11), %rdi
	leaq	64(%rsp), %rsi
	movq	%rdi, %rbx
	subq	%rax, %rbx
	cmpq	%r8, %rbx
	jae	.Lnoise_BB69_40
	cmpq	$4, %r8
	jb	.Lnoise_BB69_12
	cmpq	$32, %rbx
	jae	.Lnoise_BB69_14
.Lnoise_BB69_12:
	movq	%rcx, %r15
	xorl	%ecx, %ecx
.Lnoise_BB69_23:
	movq	%r8, %r12
	movq	%rcx, %rbx
	andq	$3, %r12
	je	.Lnoise_BB69_26
	movq	%rcx, %rbx
	.p2align	4
.Lnoise_BB69_25:
	movzbl	(%rax,%rbx), %ebp
	movb	%bpl, (%rdi,%rbx)
	incq	%rbx
	decq	%r12
	jne	.Lnoise_BB69_25
.Lnoise_BB69_26:
	subq	%r8, %rcx
	cmpq	$-4, %rcx
	ja	.Lnoise_BB69_29
	leaq	(%r10,%rdx), %rax
	addq	$3, %rax
	leaq	(%r11,%r9), %rcx
	addq	$3, %rcx
.Lnoise_BB69_28:
	movzbl	-3(%rax,%rbx), %edx
	movb	%dl, -3(%rcx,%rbx)
	movzbl	-2(%rax,%rbx), %edx
	movb	%dl, -2(%rcx,%rbx)
	movzbl	-1(%rax,%rbx), %edx
	movb	%dl, -1(%rcx,%rbx)
	movzbl	(%rax,%rbx), %edx
	movb	%dl, (%rcx,%rbx)
	addq	$4, %rbx
	cmpq	%rbx, %r8
	jne	.Lnoise_BB69_28
	jmp	.Lnoise_BB69_29
.Lnoise_BB69_9:
	movl	$17, %eax
	jmp	.Lnoise_BB69_39
.Lnoise_BB69_40:
	movq	%rcx, %r15
	movq	%rdi, %rcx
	movq	%rax, %rdx
	movq	%r8, %rbx
	callq	memmove
	movq	%rbx, %r8
.Lnoise_BB69_29:
	xorps	%xmm0, %xmm0
	movaps	%xmm0, 112(%rsp)
	movq	%r8, 40(%rsp)
	movq	%rdi, 32(%rsp)
	leaq	.Lnoise_static.1(%rip), %r8
	leaq	112(%rsp), %rcx
	movq	%rsi, %rdx
	xorl	%r9d, %r9d
	callq	"noise_state::cipher::CipherState::encrypt"
	cmpb	$0, 112(%rsp)
	jne	.Lnoise_BB69_41
	movq	248(%rsp), %rdi
	movq	120(%rsp), %rbx
	movq	56(%rsp), %r8
	movq	104(%rsp), %rcx
	testq	%r8, %r8
	je	.Lnoise_BB69_31
	movq	%rcx, %rax
	orq	%r8, %rax
	shrq	$32, %rax
	je	.Lnoise_BB69_33
	movq	%rcx, %rax
	xorl	%edx, %edx
	divq	%r8
	jmp	.Lnoise_BB69_35
.Lnoise_BB69_31:
	xorl	%r8d, %r8d
	jmp	.Lnoise_BB69_37
.Lnoise_BB69_33:
	movl	%ecx, %eax
	xorl	%edx, %edx
	divl	%r8d
.Lnoise_BB69_35:
	testq	%rdx, %rdx
	jne	.Lnoise_BB69_37
	movq	%rsi, %rcx
	callq	"noise_state::cipher::CipherState::rekey"
	movq	56(%rsp), %r8
	movq	104(%rsp), %rcx
.Lnoise_BB69_37:
	movq	$0, (%rdi)
	movq	%rbx, 8(%rdi)
	cmpb	$1, 64(%rsp)
	jne	.Lnoise_BB69_41
	movzbl	49(%rsp), %eax
	andb	$1, %al
	cmpb	$1, 48(%rsp)
	movb	$2, %dl
	sbbb	$0, %dl
	leaq	65(%rsp), %r9
	movl	$1315898113, (%r15)
	movb	%dl, 4(%r15)
	movb	%al, 5(%r15)
	movups	(%r9), %xmm0
	movups	16(%r9), %xmm1
	movups	%xmm1, 16(%r14)
	movups	%xmm0, (%r14)
	movw	$0, 38(%r15)
	movq	%r8, 40(%r15)
	movq	%rcx, 48(%r15)
	xorl	%eax, %eax
.Lnoise_BB69_39:
	addq	$136, %rsp
	popq	%rbx
	popq	%rbp
	popq	%rdi
	popq	%rsi
	popq	%r12
	popq	%r13
	popq	%r14
	popq	%r15
	retq
.Lnoise_BB69_14:
	movq	%rcx, %r15
	cmpq	$32, %r8
	jae	.Lnoise_BB69_16
	xorl	%ecx, %ecx
	jmp	.Lnoise_BB69_20
.Lnoise_BB69_16:
	movl	%r8d, %ecx
	andl	$65504, %ecx
	leaq	(%r10,%rdx), %rbx
	addq	$16, %rbx
	leaq	(%r11,%r9), %r12
	addq	$16, %r12
	xorl	%r13d, %r13d
.Lnoise_BB69_17:
	movups	-16(%rbx,%r13), %xmm0
	movups	(%rbx,%r13), %xmm1
	movups	%xmm0, -16(%r12,%r13)
	movups	%xmm1, (%r12,%r13)
	addq	$32, %r13
	cmpq	%r13, %rcx
	jne	.Lnoise_BB69_17
	cmpq	%rcx, %r8
	je	.Lnoise_BB69_29
	testb	$28, %r8b
	je	.Lnoise_BB69_23
.Lnoise_BB69_20:
	movq	%rcx, %rbx
	movl	%r8d, %ecx
	andl	$65532, %ecx
.Lnoise_BB69_21:
	movl	(%rax,%rbx), %ebp
	movl	%ebp, (%rdi,%rbx)
	addq	$4, %rbx
	cmpq	%rbx, %rcx
	jne	.Lnoise_BB69_21
	cmpq	%rcx, %r8
	jne	.Lnoise_BB69_23
	jmp	.Lnoise_BB69_29
.Lnoise_BB69_41:
	ud2
	.seh_endproc

	.def	noise_seal_in_place;
	.scl	2;
	.type	32;
	.endef
	.globl	noise_seal_in_place
	.p2align	4
noise_seal_in_place:
.seh_proc noise_seal_in_place
	pushq	%r15
	.seh_pushreg %r15
	pushq	%r14
	.seh_pushreg %r14
	pushq	%rsi
	.seh_pushreg %rsi
	pushq	%rdi
	.seh_pushreg %rdi
	pushq	%rbp
	.seh_pushreg %rbp
	pushq	%rbx
	.seh_pushreg %rbx
	subq	$136, %rsp
	.seh_stackalloc 136
	.seh_endprologue
	xorl	%r10d, %r10d
	testq	%rdx, %rdx
	sete	%r11b
	movl	$23, %eax
	cmpl	$1315898113, (%rcx)
	jne	.Lnoise_BB70_20
	movzbl	4(%rcx), %esi
	cmpl	$1, %esi
	je	.Lnoise_BB70_2
	cmpl	$2, %esi
	jne	.Lnoise_BB70_20
	movb	$1, %sil
	movb	$1, %bl
	jmp	.Lnoise_BB70_5
.Lnoise_BB70_2:
	xorl	%esi, %esi
	xorl	%ebx, %ebx
.Lnoise_BB70_5:
	subq	$16, %r8
	setb	%al
	cmpq	%r9, %r8
	setb	%r8b
	orb	%al, %r8b
	movl	$18, %eax
	jne	.Lnoise_BB70_20
	leaq	6(%rcx), %rdi
	movq	48(%rcx), %r8
	movq	40(%rcx), %rax
	cmpb	$0, 5(%rcx)
	setne	%bpl
	movb	%bl, 48(%rsp)
	setne	49(%rsp)
	movl	$0, 50(%rsp)
	movw	$0, 54(%rsp)
	movq	%rax, 56(%rsp)
	movb	$1, 64(%rsp)
	movups	(%rdi), %xmm0
	movups	16(%rdi), %xmm1
	movups	%xmm0, 65(%rsp)
	movups	%xmm1, 81(%rsp)
	movl	$0, 97(%rsp)
	movl	$0, 100(%rsp)
	movq	%r8, 104(%rsp)
	movl	$22, %eax
	testb	%sil, %bpl
	jne	.Lnoise_BB70_20
	movl	$11, %eax
	cmpq	$65519, %r9
	ja	.Lnoise_BB70_20
	cmpq	$-1, %r8
	je	.Lnoise_BB70_9
	movq	%rcx, %rbx
	movb	%r11b, %r10b
	shll	$12, %r10d
	addq	%r10, %rdx
	leaq	64(%rsp), %rsi
	xorps	%xmm0, %xmm0
	movaps	%xmm0, 112(%rsp)
	movq	%r9, 40(%rsp)
	movq	%rdx, 32(%rsp)
	leaq	.Lnoise_static.1(%rip), %r8
	leaq	112(%rsp), %rcx
	movq	%rsi, %rdx
	xorl	%r9d, %r9d
	callq	"noise_state::cipher::CipherState::encrypt"
	cmpb	$0, 112(%rsp)
	jne	.Lnoise_BB70_21
	movq	224(%rsp), %r14
	movq	120(%rsp), %r15
	movq	56(%rsp), %r8
	movq	104(%rsp), %rcx
	testq	%r8, %r8
	je	.Lnoise_BB70_12
	movq	%rcx, %rax
	orq	%r8, %rax
	shrq	$32, %rax
	je	.Lnoise_BB70_14
	movq	%rcx, %rax
	xorl	%edx, %edx
	divq	%r8
	jmp	.Lnoise_BB70_16
.Lnoise_BB70_9:
	movl	$17, %eax
	jmp	.Lnoise_BB70_20
.Lnoise_BB70_12:
	xorl	%r8d, %r8d
	movq	%rbx, %rax
	jmp	.Lnoise_BB70_18
.Lnoise_BB70_14:
	movl	%ecx, %eax
	xorl	%edx, %edx
	divl	%r8d
.Lnoise_BB70_16:
	movq	%rbx, %rax
	testq	%rdx, %rdx
	jne	.Lnoise_BB70_18
	movq	%rsi, %rcx
	callq	"noise_state::cipher::CipherState::rekey"
	movq	%rbx, %rax
	movq	56(%rsp), %r8
	movq	104(%rsp), %rcx
.Lnoise_BB70_18:
	movq	$0, (%r14)
	movq	%r15, 8(%r14)
	cmpb	$1, 64(%rsp)
	jne	.Lnoise_BB70_21
	movzbl	49(%rsp), %edx
	andb	$1, %dl
	cmpb	$1, 48(%rsp)
	movb	$2, %r9b
	sbbb	$0, %r9b
	leaq	65(%rsp), %r10
	movl	$1315898113, (%rax)
	movb	%r9b, 4(%rax)
	movb	%dl, 5(%rax)
	movups	(%r10), %xmm0
	movups	16(%r10), %xmm1
	movups	%xmm1, 16(%rdi)
	movups	%xmm0, (%rdi)
	movw	$0, 38(%rax)
	movq	%r8, 40(%rax)
	movq	%rcx, 48(%rax)
	xorl	%eax, %eax
.Lnoise_BB70_20:
	addq	$136, %rsp
	popq	%rbx
	popq	%rbp
	popq	%rdi
	popq	%rsi
	popq	%r14
	popq	%r15
	retq
.Lnoise_BB70_21:
	ud2
	.seh_endproc

	.def	noise_sentence;
	.scl	2;
	.type	32;
	.endef
	.globl	noise_sentence
	.p2align	4
noise_sentence:
	cmpl	$45, %ecx
	ja	.Lnoise_BB71_1
	movl	%ecx, %ecx
	leaq	.Lnoise_switch.table.noise_sentence(%rip), %rax
	movq	(%rax,%rcx,8), %rax
	leaq	.Lnoise_switch.table.noise_sentence.201.rel(%rip), %r8
	movslq	(%r8,%rcx,4), %rcx
	addq	%r8, %rcx
	movq	%rcx, (%rdx)
	retq
.Lnoise_BB71_1:
	leaq	.Lnoise_static.47(%rip), %rcx
	movl	$41, %eax
	movq	%rcx, (%rdx)
	retq

	.def	noise_hash;
	.scl	2;
	.type	32;
	.endef
	.globl	noise_hash
	.p2align	4
noise_hash:
.seh_proc noise_hash
	pushq	%rsi
	.seh_pushreg %rsi
	pushq	%rdi
	.seh_pushreg %rdi
	subq	$1192, %rsp
	.seh_stackalloc 1192
	.seh_endprologue
	movq	%rdx, %rsi
	movq	%rcx, %rdi
	leaq	320(%rsp), %rcx
	movl	$872, %r8d
	xorl	%edx, %edx
	callq	memset
	cmpl	$1315897601, (%rdi)
	jne	.Lnoise_BB72_5
	movzwl	420(%rdi), %r8d
	cmpq	$416, %r8
	ja	.Lnoise_BB72_5
	cmpb	$8, 846(%rdi)
	ja	.Lnoise_BB72_5
	cmpb	$9, 557(%rdi)
	ja	.Lnoise_BB72_5
	leaq	4(%rdi), %rdx
	leaq	40(%rsp), %rcx
	callq	"noise_c::patterns::pattern_of"
	cmpb	$0, 40(%rsp)
	je	.Lnoise_BB72_7
.Lnoise_BB72_5:
	movl	$23, %eax
.Lnoise_BB72_6:
	addq	$1192, %rsp
	popq	%rdi
	popq	%rsi
	retq
.Lnoise_BB72_7:
	leaq	48(%rsp), %r8
	leaq	320(%rsp), %rcx
	movq	%rdi, %rdx
	callq	"noise_c::from_c::restored"
	movl	$23, %eax
	cmpb	$1, 320(%rsp)
	jne	.Lnoise_BB72_6
	movups	1399(%rdi), %xmm0
	movups	1415(%rdi), %xmm1
	movups	%xmm1, 16(%rsi)
	movups	%xmm0, (%rsi)
	xorl	%eax, %eax
	addq	$1192, %rsp
	popq	%rdi
	popq	%rsi
	retq
	.seh_endproc

	.def	noise_message_len;
	.scl	2;
	.type	32;
	.endef
	.globl	noise_message_len
	.p2align	4
noise_message_len:
.seh_proc noise_message_len
	pushq	%rsi
	.seh_pushreg %rsi
	pushq	%rdi
	.seh_pushreg %rdi
	pushq	%rbx
	.seh_pushreg %rbx
	subq	$1184, %rsp
	.seh_stackalloc 1184
	.seh_endprologue
	movq	%r8, %rsi
	movq	%rdx, %rdi
	movq	%rcx, %rbx
	leaq	312(%rsp), %rcx
	movl	$872, %r8d
	xorl	%edx, %edx
	callq	memset
	cmpl	$1315897601, (%rbx)
	jne	.Lnoise_BB73_5
	movzwl	420(%rbx), %r8d
	cmpq	$416, %r8
	ja	.Lnoise_BB73_5
	cmpb	$8, 846(%rbx)
	ja	.Lnoise_BB73_5
	cmpb	$9, 557(%rbx)
	ja	.Lnoise_BB73_5
	leaq	4(%rbx), %rdx
	leaq	32(%rsp), %rcx
	callq	"noise_c::patterns::pattern_of"
	cmpb	$0, 32(%rsp)
	je	.Lnoise_BB73_6
.Lnoise_BB73_5:
	movl	$23, %eax
.Lnoise_BB73_12:
	addq	$1184, %rsp
	popq	%rbx
	popq	%rdi
	popq	%rsi
	retq
.Lnoise_BB73_6:
	leaq	40(%rsp), %r8
	leaq	312(%rsp), %rcx
	movq	%rbx, %rdx
	callq	"noise_c::from_c::restored"
	movl	$23, %eax
	cmpb	$1, 312(%rsp)
	jne	.Lnoise_BB73_12
	cmpb	$0, 624(%rsp)
	sete	%cl
	movl	$29, %eax
	cmpb	$1, 1009(%rsp)
	je	.Lnoise_BB73_12
	movzbl	1008(%rsp), %edx
	cmpq	%rdx, 584(%rsp)
	je	.Lnoise_BB73_12
	xorb	%dl, %cl
	testb	$1, %cl
	je	.Lnoise_BB73_12
	movzwl	1064(%rsp), %ecx
	movl	%ecx, %edx
	xorl	$65535, %edx
	cmpq	%rdx, %rdi
	ja	.Lnoise_BB73_12
	addq	%rcx, %rdi
	movq	%rdi, (%rsi)
	xorl	%eax, %eax
	jmp	.Lnoise_BB73_12
	.seh_endproc

	.def	noise_remote_static;
	.scl	2;
	.type	32;
	.endef
	.globl	noise_remote_static
	.p2align	4
noise_remote_static:
.seh_proc noise_remote_static
	pushq	%rsi
	.seh_pushreg %rsi
	pushq	%rdi
	.seh_pushreg %rdi
	subq	$1224, %rsp
	.seh_stackalloc 1224
	.seh_endprologue
	movq	%rdx, %rsi
	movq	%rcx, %rdi
	leaq	352(%rsp), %rcx
	movl	$872, %r8d
	xorl	%edx, %edx
	callq	memset
	cmpl	$1315897601, (%rdi)
	jne	.Lnoise_BB74_5
	movzwl	420(%rdi), %r8d
	cmpq	$416, %r8
	ja	.Lnoise_BB74_5
	cmpb	$8, 846(%rdi)
	ja	.Lnoise_BB74_5
	cmpb	$9, 557(%rdi)
	ja	.Lnoise_BB74_5
	leaq	4(%rdi), %rdx
	leaq	64(%rsp), %rcx
	callq	"noise_c::patterns::pattern_of"
	cmpb	$0, 64(%rsp)
	je	.Lnoise_BB74_7
.Lnoise_BB74_5:
	movl	$23, %eax
.Lnoise_BB74_6:
	addq	$1224, %rsp
	popq	%rdi
	popq	%rsi
	retq
.Lnoise_BB74_7:
	leaq	72(%rsp), %r8
	leaq	352(%rsp), %rcx
	movq	%rdi, %rdx
	callq	"noise_c::from_c::restored"
	movzbl	352(%rsp), %edx
	movzbl	705(%rsp), %ecx
	movups	706(%rsp), %xmm0
	movaps	%xmm0, 32(%rsp)
	movups	722(%rsp), %xmm0
	movaps	%xmm0, 48(%rsp)
	movl	$23, %eax
	cmpb	$1, %dl
	jne	.Lnoise_BB74_6
	cmpb	$1, %cl
	jne	.Lnoise_BB74_10
	movaps	32(%rsp), %xmm0
	movaps	48(%rsp), %xmm1
	movaps	%xmm1, 368(%rsp)
	jmp	.Lnoise_BB74_11
.Lnoise_BB74_10:
	xorps	%xmm0, %xmm0
	movaps	%xmm0, 368(%rsp)
.Lnoise_BB74_11:
	movaps	%xmm0, 352(%rsp)
	movaps	352(%rsp), %xmm0
	movaps	368(%rsp), %xmm1
	movaps	%xmm1, 80(%rsp)
	movaps	%xmm0, 64(%rsp)
	movb	%cl, (%rsi)
	movaps	64(%rsp), %xmm0
	movaps	80(%rsp), %xmm1
	movups	%xmm0, 1(%rsi)
	movups	%xmm1, 17(%rsi)
	xorl	%eax, %eax
	addq	$1224, %rsp
	popq	%rdi
	popq	%rsi
	retq
	.seh_endproc

	.def	noise_stage;
	.scl	2;
	.type	32;
	.endef
	.globl	noise_stage
	.p2align	4
noise_stage:
.seh_proc noise_stage
	pushq	%rsi
	.seh_pushreg %rsi
	pushq	%rdi
	.seh_pushreg %rdi
	subq	$1192, %rsp
	.seh_stackalloc 1192
	.seh_endprologue
	movq	%rdx, %rsi
	movq	%rcx, %rdi
	leaq	320(%rsp), %rcx
	movl	$872, %r8d
	xorl	%edx, %edx
	callq	memset
	cmpl	$1315897601, (%rdi)
	jne	.Lnoise_BB75_5
	movzwl	420(%rdi), %r8d
	cmpq	$416, %r8
	ja	.Lnoise_BB75_5
	cmpb	$8, 846(%rdi)
	ja	.Lnoise_BB75_5
	cmpb	$9, 557(%rdi)
	ja	.Lnoise_BB75_5
	leaq	4(%rdi), %rdx
	leaq	40(%rsp), %rcx
	callq	"noise_c::patterns::pattern_of"
	cmpb	$0, 40(%rsp)
	je	.Lnoise_BB75_7
.Lnoise_BB75_5:
	movl	$23, %eax
.Lnoise_BB75_6:
	addq	$1192, %rsp
	popq	%rdi
	popq	%rsi
	retq
.Lnoise_BB75_7:
	leaq	48(%rsp), %r8
	leaq	320(%rsp), %rcx
	movq	%rdi, %rdx
	callq	"noise_c::from_c::restored"
	movl	$23, %eax
	cmpb	$1, 320(%rsp)
	jne	.Lnoise_BB75_6
	movq	592(%rsp), %rax
	movzbl	632(%rsp), %ecx
	movzbl	1016(%rsp), %edx
	movzbl	1017(%rsp), %r8d
	movb	%al, (%rsi)
	movb	%dl, 1(%rsi)
	movb	%r8b, 2(%rsi)
	testb	%cl, %cl
	sete	%al
	xorb	%dl, %al
	andb	$1, %al
	movb	%al, 3(%rsi)
	xorl	%eax, %eax
	addq	$1192, %rsp
	popq	%rdi
	popq	%rsi
	retq
	.seh_endproc

	.def	noise_read;
	.scl	2;
	.type	32;
	.endef
	.globl	noise_read
	.p2align	4
noise_read:
.seh_proc noise_read
	pushq	%rsi
	.seh_pushreg %rsi
	subq	$32, %rsp
	.seh_stackalloc 32
	.seh_endprologue
	movq	%rcx, %rsi
	xorl	%eax, %eax
	testq	%rdx, %rdx
	sete	%al
	shll	$12, %eax
	addq	%rax, %rdx
	callq	"noise_c::messages::read_next"
	movl	%eax, %ecx
	addl	$-15, %ecx
	cmpl	$1, %ecx
	ja	.Lnoise_BB76_2
	movb	$1, 423(%rsi)
.Lnoise_BB76_2:
	addq	$32, %rsp
	popq	%rsi
	retq
	.seh_endproc

	.def	noise_try_read;
	.scl	2;
	.type	32;
	.endef
	.globl	noise_try_read
	.p2align	4
noise_try_read:
	xorl	%eax, %eax
	testq	%rdx, %rdx
	sete	%al
	shll	$12, %eax
	addq	%rax, %rdx
	jmp	"noise_c::messages::read_next"

	.def	noise_set_psk;
	.scl	2;
	.type	32;
	.endef
	.globl	noise_set_psk
	.p2align	4
noise_set_psk:
.seh_proc noise_set_psk
	pushq	%r14
	.seh_pushreg %r14
	pushq	%rsi
	.seh_pushreg %rsi
	pushq	%rdi
	.seh_pushreg %rdi
	pushq	%rbx
	.seh_pushreg %rbx
	subq	$2056, %rsp
	.seh_stackalloc 2056
	.seh_endprologue
	movq	%rdx, %rdi
	movq	%rcx, %rsi
	leaq	40(%rsp), %rcx
	movl	$872, %r8d
	xorl	%edx, %edx
	callq	memset
	cmpl	$1315897601, (%rsi)
	jne	.Lnoise_BB78_5
	movzwl	420(%rsi), %r8d
	cmpq	$416, %r8
	ja	.Lnoise_BB78_5
	cmpb	$8, 846(%rsi)
	ja	.Lnoise_BB78_5
	cmpb	$9, 557(%rsi)
	ja	.Lnoise_BB78_5
	leaq	4(%rsi), %rdx
	leaq	912(%rsp), %rcx
	callq	"noise_c::patterns::pattern_of"
	cmpb	$0, 912(%rsp)
	je	.Lnoise_BB78_6
.Lnoise_BB78_5:
	movl	$23, %eax
.Lnoise_BB78_33:
	addq	$2056, %rsp
	popq	%rbx
	popq	%rdi
	popq	%rsi
	popq	%r14
	retq
.Lnoise_BB78_6:
	leaq	920(%rsp), %r8
	leaq	40(%rsp), %rcx
	movq	%rsi, %rdx
	callq	"noise_c::from_c::restored"
	movzbl	40(%rsp), %ebx
	leaq	48(%rsp), %rdx
	leaq	1192(%rsp), %rcx
	movl	$864, %r8d
	callq	memcpy
	movl	$23, %eax
	cmpb	$1, %bl
	jne	.Lnoise_BB78_33
	leaq	40(%rsp), %rcx
	leaq	1192(%rsp), %rdx
	movl	$864, %r8d
	callq	memcpy
	movq	304(%rsp), %rcx
	movzbl	728(%rsp), %r8d
	movq	%rcx, %rdx
	subq	%r8, %rdx
	je	.Lnoise_BB78_8
	leaq	(%r8,%r8,2), %rax
	leaq	(%rsp,%rax,8), %rax
	addq	$112, %rax
	incq	%r8
	cmpq	%r8, %rcx
	jne	.Lnoise_BB78_11
	xorl	%ecx, %ecx
	jmp	.Lnoise_BB78_24
.Lnoise_BB78_8:
	xorl	%ecx, %ecx
	jmp	.Lnoise_BB78_30
.Lnoise_BB78_11:
	movq	%rdx, %r8
	andq	$-2, %r8
	xorl	%ecx, %ecx
	xorl	%r9d, %r9d
	jmp	.Lnoise_BB78_12
.Lnoise_BB78_22:
	addq	$48, %rax
	addq	%r10, %rcx
	addq	$2, %r9
	cmpq	%r8, %r9
	je	.Lnoise_BB78_23
.Lnoise_BB78_12:
	movq	16(%rax), %r11
	xorl	%r10d, %r10d
	movq	%rax, %rbx
.Lnoise_BB78_13:
	movq	%rbx, %r14
	.p2align	4
.Lnoise_BB78_14:
	testq	%r11, %r11
	je	.Lnoise_BB78_17
	leaq	1(%r14), %rbx
	decq	%r11
	cmpb	$6, (%r14)
	movq	%rbx, %r14
	jne	.Lnoise_BB78_14
	incq	%r10
	jmp	.Lnoise_BB78_13
.Lnoise_BB78_17:
	leaq	24(%rax), %rbx
	addq	%r10, %rcx
	movq	40(%rax), %r11
	xorl	%r10d, %r10d
.Lnoise_BB78_18:
	movq	%rbx, %r14
	.p2align	4
.Lnoise_BB78_19:
	testq	%r11, %r11
	je	.Lnoise_BB78_22
	leaq	1(%r14), %rbx
	decq	%r11
	cmpb	$6, (%r14)
	movq	%rbx, %r14
	jne	.Lnoise_BB78_19
	incq	%r10
	jmp	.Lnoise_BB78_18
.Lnoise_BB78_23:
	testb	$1, %dl
	je	.Lnoise_BB78_30
.Lnoise_BB78_24:
	movq	16(%rax), %r8
	xorl	%edx, %edx
.Lnoise_BB78_25:
	movq	%rax, %r9
.Lnoise_BB78_26:
	testq	%r8, %r8
	je	.Lnoise_BB78_29
	leaq	1(%r9), %rax
	decq	%r8
	cmpb	$6, (%r9)
	movq	%rax, %r9
	jne	.Lnoise_BB78_26
	incq	%rdx
	jmp	.Lnoise_BB78_25
.Lnoise_BB78_29:
	addq	%rdx, %rcx
.Lnoise_BB78_30:
	movq	712(%rsp), %rdx
	subq	720(%rsp), %rdx
	cmpq	$9, %rdx
	ja	.Lnoise_BB78_34
	movl	$8, %eax
	cmpq	%rcx, %rdx
	je	.Lnoise_BB78_33
	movups	590(%rsi), %xmm0
	movups	606(%rsi), %xmm1
	movups	622(%rsi), %xmm2
	movups	638(%rsi), %xmm3
	movups	%xmm1, 574(%rsi)
	movups	%xmm0, 558(%rsi)
	movups	%xmm2, 590(%rsi)
	movups	%xmm3, 606(%rsi)
	movups	654(%rsi), %xmm0
	movups	%xmm0, 622(%rsi)
	movups	670(%rsi), %xmm0
	movups	%xmm0, 638(%rsi)
	movups	686(%rsi), %xmm0
	movups	%xmm0, 654(%rsi)
	movups	702(%rsi), %xmm0
	movups	%xmm0, 670(%rsi)
	movups	734(%rsi), %xmm0
	movups	%xmm0, 702(%rsi)
	movups	718(%rsi), %xmm0
	movups	%xmm0, 686(%rsi)
	movups	750(%rsi), %xmm0
	movups	766(%rsi), %xmm1
	movups	%xmm1, 734(%rsi)
	movups	%xmm0, 718(%rsi)
	movups	782(%rsi), %xmm0
	movups	798(%rsi), %xmm1
	movups	%xmm1, 766(%rsi)
	movups	%xmm0, 750(%rsi)
	movups	814(%rsi), %xmm0
	movups	830(%rsi), %xmm1
	movups	%xmm1, 798(%rsi)
	movups	%xmm0, 782(%rsi)
	movups	(%rdi), %xmm0
	movups	16(%rdi), %xmm1
	movups	%xmm1, 830(%rsi)
	movups	%xmm0, 814(%rsi)
	incb	557(%rsi)
	xorl	%eax, %eax
	jmp	.Lnoise_BB78_33
.Lnoise_BB78_34:
	ud2
	.seh_endproc

	.def	noise_start;
	.scl	2;
	.type	32;
	.endef
	.section	.rdata,"dr"
	.p2align	4, 0x0
.Lnoise_CPI79_0:
	.long	1779033703
	.long	3144134277
	.long	1013904242
	.long	2773480762
.Lnoise_CPI79_1:
	.long	1359893119
	.long	2600822924
	.long	528734635
	.long	1541459225
	.text
	.globl	noise_start
	.p2align	4
noise_start:
.seh_proc noise_start
	pushq	%r15
	.seh_pushreg %r15
	pushq	%r14
	.seh_pushreg %r14
	pushq	%r13
	.seh_pushreg %r13
	pushq	%r12
	.seh_pushreg %r12
	pushq	%rsi
	.seh_pushreg %rsi
	pushq	%rdi
	.seh_pushreg %rdi
	pushq	%rbp
	.seh_pushreg %rbp
	pushq	%rbx
	.seh_pushreg %rbx
	subq	$3336, %rsp
	.seh_stackalloc 3336
	movdqa	%xmm6, 3312(%rsp)
	.seh_savexmm %xmm6, 3312
	.seh_endprologue
	movq	%r9, %r12
	movq	%r8, %r15
	movq	%rdx, %rbx
	movq	%rcx, %rsi
	xorl	%r13d, %r13d
	testq	%rdx, %rdx
	sete	%r13b
	shll	$12, %r13d
	leaq	(%rdx,%r13), %r14
	xorl	%ebp, %ebp
	testq	%r9, %r9
	sete	%dil
	xorps	%xmm0, %xmm0
	movaps	%xmm0, 1120(%rsp)
	movaps	%xmm0, 1136(%rsp)
	movaps	%xmm0, 1088(%rsp)
	movaps	%xmm0, 1104(%rsp)
	movaps	%xmm0, 1488(%rsp)
	movaps	%xmm0, 1504(%rsp)
	movaps	%xmm0, 1520(%rsp)
	movaps	%xmm0, 1536(%rsp)
	movaps	%xmm0, 1040(%rsp)
	movaps	%xmm0, 1056(%rsp)
	movq	$0, 1071(%rsp)
	leaq	2624(%rsp), %rcx
	movq	%r14, %rdx
	callq	"noise_c::patterns::pattern_of"
	cmpb	$0, 2624(%rsp)
	je	.Lnoise_BB79_2
	movl	2628(%rsp), %eax
	jmp	.Lnoise_BB79_165
.Lnoise_BB79_2:
	movq	%r12, 80(%rsp)
	movq	%r14, 120(%rsp)
	movl	$24, %eax
	cmpq	$65535, 3440(%rsp)
	ja	.Lnoise_BB79_165
	movq	3448(%rsp), %r12
	movzbl	133(%r12), %ecx
	movl	$8, %eax
	cmpq	$9, %rcx
	ja	.Lnoise_BB79_165
	movb	%dil, %bpl
	xorps	%xmm0, %xmm0
	movaps	%xmm0, 784(%rsp)
	movaps	%xmm0, 800(%rsp)
	movaps	%xmm0, 752(%rsp)
	movaps	%xmm0, 768(%rsp)
	movaps	%xmm0, 688(%rsp)
	movaps	%xmm0, 704(%rsp)
	movaps	%xmm0, 720(%rsp)
	movaps	%xmm0, 736(%rsp)
	movaps	%xmm0, 256(%rsp)
	movaps	%xmm0, 272(%rsp)
	movq	$0, 287(%rsp)
	movaps	%xmm0, 1568(%rsp)
	movaps	%xmm0, 1552(%rsp)
	movzbl	67(%r12), %eax
	movb	%al, 55(%rsp)
	testb	%al, %al
	je	.Lnoise_BB79_6
	movups	68(%r12), %xmm1
	movups	84(%r12), %xmm2
	movaps	%xmm2, 1568(%rsp)
	movaps	%xmm1, 1552(%rsp)
	movb	$1, %al
	jmp	.Lnoise_BB79_7
.Lnoise_BB79_6:
	xorl	%eax, %eax
.Lnoise_BB79_7:
	movq	%rax, 72(%rsp)
	shll	$12, %ebp
	leaq	2632(%rsp), %rdx
	movaps	1552(%rsp), %xmm1
	movaps	1568(%rsp), %xmm2
	movaps	%xmm2, 672(%rsp)
	movaps	%xmm1, 656(%rsp)
	movaps	%xmm0, 1568(%rsp)
	movaps	%xmm0, 1552(%rsp)
	movzbl	100(%r12), %eax
	movb	%al, 54(%rsp)
	testb	%al, %al
	movq	%rcx, 112(%rsp)
	je	.Lnoise_BB79_9
	movups	101(%r12), %xmm0
	movups	117(%r12), %xmm1
	movaps	%xmm1, 1568(%rsp)
	movaps	%xmm0, 1552(%rsp)
	movb	$1, %al
	movq	%rax, 64(%rsp)
	jmp	.Lnoise_BB79_10
.Lnoise_BB79_9:
	movq	$0, 64(%rsp)
.Lnoise_BB79_10:
	movaps	1552(%rsp), %xmm0
	movaps	1568(%rsp), %xmm1
	movaps	%xmm1, 640(%rsp)
	movaps	%xmm0, 624(%rsp)
	movzbl	(%r12), %r14d
	testb	%r14b, %r14b
	setne	88(%rsp)
	xorps	%xmm0, %xmm0
	movaps	%xmm0, 1248(%rsp)
	movaps	%xmm0, 1264(%rsp)
	movaps	%xmm0, 1216(%rsp)
	movaps	%xmm0, 1232(%rsp)
	movaps	%xmm0, 1152(%rsp)
	movaps	%xmm0, 1168(%rsp)
	movaps	%xmm0, 1184(%rsp)
	movaps	%xmm0, 1200(%rsp)
	movaps	%xmm0, 944(%rsp)
	movaps	%xmm0, 960(%rsp)
	movq	$0, 975(%rsp)
	leaq	2080(%rsp), %rcx
	movl	$272, %r8d
	callq	memcpy
	leaq	2152(%rsp), %r11
	movq	2344(%rsp), %rdi
	testq	%rdi, %rdi
	movq	%rbx, 232(%rsp)
	movq	%rdi, 56(%rsp)
	movb	%r14b, 53(%rsp)
	je	.Lnoise_BB79_25
	movq	%rdi, %r8
	decq	%r8
	je	.Lnoise_BB79_26
	movl	%r14d, %r12d
	movq	%rdi, %rax
	andq	$-2, %rax
	xorl	%r9d, %r9d
	movq	%r11, %rdx
	xorl	%ecx, %ecx
	jmp	.Lnoise_BB79_14
	.p2align	4
.Lnoise_BB79_13:
	addq	$48, %rdx
	addq	%r10, %r9
	addq	$2, %rcx
	cmpq	%rax, %rcx
	je	.Lnoise_BB79_24
.Lnoise_BB79_14:
	movq	16(%rdx), %rdi
	xorl	%r10d, %r10d
	movq	%rdx, %rbx
.Lnoise_BB79_15:
	movq	%rbx, %r14
	.p2align	4
.Lnoise_BB79_16:
	testq	%rdi, %rdi
	je	.Lnoise_BB79_19
	leaq	1(%r14), %rbx
	decq	%rdi
	cmpb	$6, (%r14)
	movq	%rbx, %r14
	jne	.Lnoise_BB79_16
	incq	%r10
	jmp	.Lnoise_BB79_15
	.p2align	4
.Lnoise_BB79_19:
	leaq	24(%rdx), %r14
	addq	%r10, %r9
	movq	40(%rdx), %rdi
	xorl	%r10d, %r10d
.Lnoise_BB79_20:
	movq	%r14, %rbx
	.p2align	4
.Lnoise_BB79_21:
	testq	%rdi, %rdi
	je	.Lnoise_BB79_13
	leaq	1(%rbx), %r14
	decq	%rdi
	cmpb	$6, (%rbx)
	movq	%r14, %rbx
	jne	.Lnoise_BB79_21
	incq	%r10
	jmp	.Lnoise_BB79_20
.Lnoise_BB79_24:
	movq	56(%rsp), %rdi
	testb	$1, %dil
	movl	%r12d, %r14d
	jne	.Lnoise_BB79_27
	jmp	.Lnoise_BB79_33
.Lnoise_BB79_25:
	testb	%r14b, %r14b
	leaq	2136(%rsp), %rbx
	leaq	2120(%rsp), %r10
	movq	%rbx, %r9
	cmovneq	%r10, %r9
	leaq	2144(%rsp), %rax
	leaq	2128(%rsp), %rcx
	movq	%rax, %rdx
	cmovneq	%rcx, %rdx
	movq	(%rdx), %rdx
	xorl	%r8d, %r8d
	jmp	.Lnoise_BB79_55
.Lnoise_BB79_26:
	xorl	%r9d, %r9d
	movq	%r11, %rdx
.Lnoise_BB79_27:
	movq	16(%rdx), %rcx
	xorl	%eax, %eax
.Lnoise_BB79_28:
	movq	%rdx, %r10
	.p2align	4
.Lnoise_BB79_29:
	testq	%rcx, %rcx
	je	.Lnoise_BB79_32
	leaq	1(%r10), %rdx
	decq	%rcx
	cmpb	$6, (%r10)
	movq	%rdx, %r10
	jne	.Lnoise_BB79_29
	incq	%rax
	jmp	.Lnoise_BB79_28
.Lnoise_BB79_32:
	addq	%rax, %r9
.Lnoise_BB79_33:
	leaq	2136(%rsp), %rbx
	leaq	2120(%rsp), %r10
	movq	2128(%rsp), %rax
	movq	%rax, 104(%rsp)
	movq	2144(%rsp), %rdx
	testq	%r8, %r8
	je	.Lnoise_BB79_47
	movq	%r15, 96(%rsp)
	movq	%rdi, %rcx
	andq	$-2, %rcx
	xorl	%r8d, %r8d
	movq	%r11, %r12
	xorl	%edi, %edi
	jmp	.Lnoise_BB79_36
	.p2align	4
.Lnoise_BB79_35:
	addq	$48, %r12
	addq	%r14, %r8
	addq	$2, %rdi
	cmpq	%rcx, %rdi
	je	.Lnoise_BB79_46
.Lnoise_BB79_36:
	movq	16(%r12), %r15
	xorl	%r14d, %r14d
	movq	%r12, %rax
.Lnoise_BB79_37:
	movq	%rax, %rbx
	.p2align	4
.Lnoise_BB79_38:
	testq	%r15, %r15
	je	.Lnoise_BB79_41
	leaq	1(%rbx), %rax
	decq	%r15
	cmpb	$6, (%rbx)
	movq	%rax, %rbx
	jne	.Lnoise_BB79_38
	incq	%r14
	jmp	.Lnoise_BB79_37
	.p2align	4
.Lnoise_BB79_41:
	leaq	24(%r12), %rbx
	addq	%r14, %r8
	movq	40(%r12), %r15
	xorl	%r14d, %r14d
.Lnoise_BB79_42:
	movq	%rbx, %rax
	.p2align	4
.Lnoise_BB79_43:
	testq	%r15, %r15
	je	.Lnoise_BB79_35
	leaq	1(%rax), %rbx
	decq	%r15
	cmpb	$6, (%rax)
	movq	%rbx, %rax
	jne	.Lnoise_BB79_43
	incq	%r14
	jmp	.Lnoise_BB79_42
.Lnoise_BB79_46:
	testb	$1, 56(%rsp)
	movq	96(%rsp), %r15
	movzbl	53(%rsp), %r14d
	leaq	2136(%rsp), %rbx
	jne	.Lnoise_BB79_48
	jmp	.Lnoise_BB79_54
.Lnoise_BB79_47:
	xorl	%r8d, %r8d
	movq	%r11, %r12
.Lnoise_BB79_48:
	movq	16(%r12), %rdi
	xorl	%ecx, %ecx
.Lnoise_BB79_49:
	movq	%r12, %rax
	.p2align	4
.Lnoise_BB79_50:
	testq	%rdi, %rdi
	je	.Lnoise_BB79_53
	leaq	1(%rax), %r12
	decq	%rdi
	cmpb	$6, (%rax)
	movq	%r12, %rax
	jne	.Lnoise_BB79_50
	incq	%rcx
	jmp	.Lnoise_BB79_49
.Lnoise_BB79_53:
	addq	%rcx, %r8
.Lnoise_BB79_54:
	movq	112(%rsp), %rax
	cmpq	%rax, %r9
	cmovaq	%r9, %rax
	movq	%rax, 112(%rsp)
	leaq	2144(%rsp), %rax
	leaq	2128(%rsp), %rcx
	testb	%r14b, %r14b
	movq	%rbx, %r9
	cmovneq	%r10, %r9
	cmovneq	104(%rsp), %rdx
	movq	3448(%rsp), %r12
.Lnoise_BB79_55:
	addq	%rbp, 80(%rsp)
	leaq	1(%r12), %rdi
	movq	%rdi, 824(%rsp)
	leaq	34(%r12), %rdi
	movq	%rdi, 104(%rsp)
	testb	%r14b, %r14b
	cmovneq	%rbx, %r10
	cmovneq	%rax, %rcx
	movq	(%rcx), %rax
	xorl	%ecx, %ecx
	.p2align	4
.Lnoise_BB79_56:
	cmpq	%rcx, %rax
	je	.Lnoise_BB79_58
	cmpb	$0, (%r10,%rcx)
	leaq	1(%rcx), %rcx
	jne	.Lnoise_BB79_56
	jmp	.Lnoise_BB79_65
.Lnoise_BB79_58:
	cmpq	$0, 56(%rsp)
	je	.Lnoise_BB79_66
	xorl	%ecx, %ecx
	movq	56(%rsp), %rdi
	movq	%r11, %rbp
	jmp	.Lnoise_BB79_61
.Lnoise_BB79_60:
	addq	$24, %rbp
	decq	%rdi
	xorb	$1, %cl
	testq	%rdi, %rdi
	je	.Lnoise_BB79_66
.Lnoise_BB79_61:
	cmpb	88(%rsp), %cl
	jne	.Lnoise_BB79_60
	movq	16(%rbp), %rbx
	xorl	%r14d, %r14d
	.p2align	4
.Lnoise_BB79_63:
	cmpq	%r14, %rbx
	je	.Lnoise_BB79_60
	cmpb	$0, (%rbp,%r14)
	leaq	1(%r14), %r14
	jne	.Lnoise_BB79_63
.Lnoise_BB79_65:
	leaq	1(%r12), %rcx
	cmpb	$0, (%rcx)
	je	.Lnoise_BB79_96
.Lnoise_BB79_66:
	xorl	%ecx, %ecx
	movq	56(%rsp), %rdi
	.p2align	4
.Lnoise_BB79_67:
	cmpq	%rcx, %rax
	je	.Lnoise_BB79_69
	cmpb	$1, (%r10,%rcx)
	leaq	1(%rcx), %rcx
	jne	.Lnoise_BB79_67
	jmp	.Lnoise_BB79_76
.Lnoise_BB79_69:
	testq	%rdi, %rdi
	je	.Lnoise_BB79_77
	xorl	%eax, %eax
	jmp	.Lnoise_BB79_72
.Lnoise_BB79_71:
	addq	$24, %r11
	decq	%rdi
	xorb	$1, %al
	testq	%rdi, %rdi
	je	.Lnoise_BB79_77
.Lnoise_BB79_72:
	cmpb	88(%rsp), %al
	jne	.Lnoise_BB79_71
	movq	16(%r11), %rcx
	xorl	%r10d, %r10d
	.p2align	4
.Lnoise_BB79_74:
	cmpq	%r10, %rcx
	je	.Lnoise_BB79_71
	cmpb	$1, (%r11,%r10)
	leaq	1(%r10), %r10
	jne	.Lnoise_BB79_74
.Lnoise_BB79_76:
	leaq	34(%r12), %rax
	cmpb	$0, (%rax)
	je	.Lnoise_BB79_97
.Lnoise_BB79_77:
	xorl	%eax, %eax
	movq	72(%rsp), %rcx
	leaq	134(%r12), %r14
	.p2align	4
.Lnoise_BB79_78:
	cmpq	%rax, %rdx
	je	.Lnoise_BB79_81
	cmpb	$0, (%r9,%rax)
	leaq	1(%rax), %rax
	jne	.Lnoise_BB79_78
	cmpb	$0, 55(%rsp)
	je	.Lnoise_BB79_105
.Lnoise_BB79_81:
	xorl	%eax, %eax
	.p2align	4
.Lnoise_BB79_82:
	cmpq	%rax, %rdx
	je	.Lnoise_BB79_85
	cmpb	$1, (%r9,%rax)
	leaq	1(%rax), %rax
	jne	.Lnoise_BB79_82
	cmpb	$0, 54(%rsp)
	je	.Lnoise_BB79_105
.Lnoise_BB79_85:
	testb	%cl, %cl
	je	.Lnoise_BB79_89
	xorl	%eax, %eax
	.p2align	4
.Lnoise_BB79_87:
	cmpq	%rax, %rdx
	je	.Lnoise_BB79_108
	cmpb	$0, (%r9,%rax)
	leaq	1(%rax), %rax
	jne	.Lnoise_BB79_87
.Lnoise_BB79_89:
	cmpb	$0, 64(%rsp)
	je	.Lnoise_BB79_93
	xorl	%eax, %eax
.Lnoise_BB79_91:
	cmpq	%rax, %rdx
	je	.Lnoise_BB79_108
	cmpb	$1, (%r9,%rax)
	leaq	1(%rax), %rax
	jne	.Lnoise_BB79_91
.Lnoise_BB79_93:
	movl	$8, %eax
	cmpq	%r8, 112(%rsp)
	jne	.Lnoise_BB79_109
	pxor	%xmm6, %xmm6
	movdqa	%xmm6, 1344(%rsp)
	movdqa	%xmm6, 1360(%rsp)
	movdqa	%xmm6, 1376(%rsp)
	movdqa	%xmm6, 1392(%rsp)
	movdqa	%xmm6, 992(%rsp)
	movdqa	%xmm6, 1008(%rsp)
	movq	$0, 1023(%rsp)
	leaq	1552(%rsp), %rcx
	movl	$272, %r8d
	leaq	2632(%rsp), %rdx
	callq	memcpy
	movaps	656(%rsp), %xmm0
	movaps	672(%rsp), %xmm1
	movaps	%xmm0, 1904(%rsp)
	movaps	%xmm1, 1920(%rsp)
	movaps	624(%rsp), %xmm0
	movaps	640(%rsp), %xmm1
	movaps	%xmm0, 1872(%rsp)
	movaps	%xmm1, 1888(%rsp)
	leaq	1624(%rsp), %rbp
	movq	1816(%rsp), %rbx
	testq	%rbx, %rbx
	je	.Lnoise_BB79_103
	xorl	%eax, %eax
	movq	%rbp, %rcx
	jmp	.Lnoise_BB79_99
.Lnoise_BB79_96:
	movl	$4, %eax
	leaq	134(%r12), %r14
	jmp	.Lnoise_BB79_109
.Lnoise_BB79_97:
	movl	$5, %eax
	leaq	134(%r12), %r14
	jmp	.Lnoise_BB79_109
.Lnoise_BB79_105:
	movl	$6, %eax
	jmp	.Lnoise_BB79_109
.Lnoise_BB79_108:
	movl	$7, %eax
.Lnoise_BB79_109:
	xorps	%xmm0, %xmm0
	movaps	%xmm0, 800(%rsp)
	movaps	%xmm0, 784(%rsp)
	movaps	%xmm0, 752(%rsp)
	movaps	%xmm0, 768(%rsp)
	movaps	%xmm0, 688(%rsp)
	movaps	%xmm0, 704(%rsp)
	movaps	%xmm0, 720(%rsp)
	movaps	%xmm0, 736(%rsp)
	movaps	%xmm0, 256(%rsp)
	movaps	%xmm0, 272(%rsp)
	movq	$0, 287(%rsp)
	xorl	%r11d, %r11d
	xorl	%ecx, %ecx
	xorl	%r8d, %r8d
	xorl	%r9d, %r9d
	xorl	%r10d, %r10d
.Lnoise_BB79_110:
	movaps	784(%rsp), %xmm0
	movaps	800(%rsp), %xmm1
	movaps	%xmm0, 1120(%rsp)
	movaps	%xmm1, 1136(%rsp)
	movaps	752(%rsp), %xmm0
	movaps	768(%rsp), %xmm1
	movaps	%xmm0, 1088(%rsp)
	movaps	%xmm1, 1104(%rsp)
	movaps	688(%rsp), %xmm0
	movaps	704(%rsp), %xmm1
	movaps	720(%rsp), %xmm2
	movaps	736(%rsp), %xmm3
	movaps	%xmm0, 1488(%rsp)
	movaps	%xmm1, 1504(%rsp)
	movaps	%xmm2, 1520(%rsp)
	movaps	%xmm3, 1536(%rsp)
	movq	287(%rsp), %rdx
	movq	%rdx, 1071(%rsp)
	movaps	256(%rsp), %xmm0
	movaps	272(%rsp), %xmm1
	movaps	%xmm1, 1056(%rsp)
	movaps	%xmm0, 1040(%rsp)
	testb	%cl, %cl
	je	.Lnoise_BB79_165
	movq	%r11, 56(%rsp)
	movq	%r10, 80(%rsp)
	movq	%r9, 64(%rsp)
	movq	%r8, 72(%rsp)
	movq	%r15, %rbx
	movzbl	133(%r12), %r15d
	movl	$1315897601, (%rsi)
	leaq	558(%rsi), %rcx
	movl	%r15d, %ebp
	shll	$5, %ebp
	movq	%rcx, %r12
	subq	%rbp, %r12
	addq	$288, %r12
	movq	%r12, %rdi
	subq	%r14, %rdi
	movl	$288, %r8d
	xorl	%edx, %edx
	callq	memset
	cmpq	%rbp, %rdi
	jae	.Lnoise_BB79_114
	movl	%r15d, %eax
	andl	$7, %eax
	leal	-1(%r15), %ecx
	cmpb	$7, %cl
	jae	.Lnoise_BB79_115
	xorl	%ecx, %ecx
	movq	3448(%rsp), %r14
	movq	120(%rsp), %r10
	jmp	.Lnoise_BB79_118
.Lnoise_BB79_114:
	movq	%r12, %rcx
	movq	%r14, %rdx
	movq	%rbp, %r8
	callq	memmove
	movq	3448(%rsp), %r14
	movq	120(%rsp), %r10
	jmp	.Lnoise_BB79_120
.Lnoise_BB79_115:
	andl	$-8, %r15d
	movq	%rsi, %rdx
	subq	%rbp, %rdx
	addq	$1070, %rdx
	movq	3448(%rsp), %r14
	leaq	358(%r14), %r8
	xorl	%ecx, %ecx
	xorl	%r9d, %r9d
	movq	120(%rsp), %r10
	.p2align	4
.Lnoise_BB79_116:
	movups	-224(%r8,%r9), %xmm0
	movups	-208(%r8,%r9), %xmm1
	movups	%xmm1, -208(%rdx,%r9)
	movups	%xmm0, -224(%rdx,%r9)
	movups	-192(%r8,%r9), %xmm0
	movups	-176(%r8,%r9), %xmm1
	movups	%xmm1, -176(%rdx,%r9)
	movups	%xmm0, -192(%rdx,%r9)
	movups	-160(%r8,%r9), %xmm0
	movups	-144(%r8,%r9), %xmm1
	movups	%xmm1, -144(%rdx,%r9)
	movups	%xmm0, -160(%rdx,%r9)
	movups	-128(%r8,%r9), %xmm0
	movups	-112(%r8,%r9), %xmm1
	movups	%xmm1, -112(%rdx,%r9)
	movups	%xmm0, -128(%rdx,%r9)
	movups	-96(%r8,%r9), %xmm0
	movups	-80(%r8,%r9), %xmm1
	movups	%xmm1, -80(%rdx,%r9)
	movups	%xmm0, -96(%rdx,%r9)
	movups	-64(%r8,%r9), %xmm0
	movups	-48(%r8,%r9), %xmm1
	movups	%xmm1, -48(%rdx,%r9)
	movups	%xmm0, -64(%rdx,%r9)
	movups	-32(%r8,%r9), %xmm0
	movups	-16(%r8,%r9), %xmm1
	movups	%xmm1, -16(%rdx,%r9)
	movups	%xmm0, -32(%rdx,%r9)
	movups	(%r8,%r9), %xmm0
	movups	16(%r8,%r9), %xmm1
	movups	%xmm1, 16(%rdx,%r9)
	movups	%xmm0, (%rdx,%r9)
	addq	$8, %rcx
	addq	$256, %r9
	cmpq	%rcx, %r15
	jne	.Lnoise_BB79_116
	testq	%rax, %rax
	je	.Lnoise_BB79_120
.Lnoise_BB79_118:
	shlq	$5, %rcx
	leaq	(%rcx,%r14), %rdx
	addq	$134, %rdx
	subq	%rbp, %rcx
	addq	%rsi, %rcx
	addq	$846, %rcx
	shll	$5, %eax
	xorl	%r8d, %r8d
	.p2align	4
.Lnoise_BB79_119:
	movups	(%rdx,%r8), %xmm0
	movups	16(%rdx,%r8), %xmm1
	movups	%xmm1, 16(%rcx,%r8)
	movups	%xmm0, (%rcx,%r8)
	addq	$32, %r8
	cmpq	%r8, %rax
	jne	.Lnoise_BB79_119
.Lnoise_BB79_120:
	leaq	4(%rsi), %rcx
	movq	%rcx, %rax
	subq	%r10, %rax
	movq	%rbx, %rdi
	cmpq	%rbx, %rax
	jae	.Lnoise_BB79_123
	cmpq	$4, %rdi
	jb	.Lnoise_BB79_122
	movq	%rsi, %rax
	subq	%r10, %rax
	addq	$4, %rax
	cmpq	$32, %rax
	jae	.Lnoise_BB79_126
.Lnoise_BB79_122:
	xorl	%eax, %eax
.Lnoise_BB79_149:
	movq	%rdi, %r8
	movq	%rax, %rdx
	andq	$3, %r8
	je	.Lnoise_BB79_152
	movq	%rax, %rdx
	.p2align	4
.Lnoise_BB79_151:
	movzbl	(%r10,%rdx), %r9d
	movb	%r9b, (%rcx,%rdx)
	incq	%rdx
	decq	%r8
	jne	.Lnoise_BB79_151
.Lnoise_BB79_152:
	subq	%rdi, %rax
	cmpq	$-4, %rax
	ja	.Lnoise_BB79_155
	movq	232(%rsp), %rax
	addq	%r13, %rax
	addq	$3, %rax
	.p2align	4
.Lnoise_BB79_154:
	movzbl	-3(%rax,%rdx), %ecx
	movb	%cl, 4(%rsi,%rdx)
	movzbl	-2(%rax,%rdx), %ecx
	movb	%cl, 5(%rsi,%rdx)
	movzbl	-1(%rax,%rdx), %ecx
	movb	%cl, 6(%rsi,%rdx)
	movzbl	(%rax,%rdx), %ecx
	movb	%cl, 7(%rsi,%rdx)
	addq	$4, %rdx
	cmpq	%rdx, %rdi
	jne	.Lnoise_BB79_154
	jmp	.Lnoise_BB79_155
.Lnoise_BB79_123:
	movq	%r10, %rdx
	movq	%rdi, %r8
	callq	memmove
.Lnoise_BB79_155:
	movw	%di, 420(%rsi)
	movzbl	(%r14), %eax
	movb	%al, 422(%rsi)
	movq	824(%rsp), %rax
	movups	(%rax), %xmm0
	movups	16(%rax), %xmm1
	movzbl	32(%rax), %eax
	movb	%al, 457(%rsi)
	movups	%xmm1, 441(%rsi)
	movups	%xmm0, 425(%rsi)
	movq	104(%rsp), %rax
	movups	(%rax), %xmm0
	movups	16(%rax), %xmm1
	movzbl	32(%rax), %eax
	movb	%al, 490(%rsi)
	movups	%xmm1, 474(%rsi)
	movups	%xmm0, 458(%rsi)
	leaq	846(%rsi), %rcx
	movl	$521, %r8d
	xorl	%edx, %edx
	callq	memset
	movq	72(%rsp), %rdx
	testb	%dl, %dl
	je	.Lnoise_BB79_157
	movaps	1120(%rsp), %xmm0
	movaps	1136(%rsp), %xmm1
	movaps	%xmm1, 2096(%rsp)
	jmp	.Lnoise_BB79_158
.Lnoise_BB79_157:
	xorps	%xmm0, %xmm0
	movaps	%xmm0, 2096(%rsp)
.Lnoise_BB79_158:
	movaps	%xmm0, 2080(%rsp)
	movq	64(%rsp), %r8
	movq	80(%rsp), %r9
	movq	56(%rsp), %r10
	leaq	1520(%rsp), %rax
	movzbl	133(%r14), %ecx
	movb	%dl, 491(%rsi)
	movaps	2080(%rsp), %xmm0
	movaps	2096(%rsp), %xmm1
	movups	%xmm0, 492(%rsi)
	movups	%xmm1, 508(%rsi)
	testb	%r8b, %r8b
	je	.Lnoise_BB79_160
	movaps	1088(%rsp), %xmm0
	movaps	1104(%rsp), %xmm1
	movaps	%xmm1, 1568(%rsp)
	jmp	.Lnoise_BB79_161
.Lnoise_BB79_160:
	xorps	%xmm0, %xmm0
	movaps	%xmm0, 1568(%rsp)
.Lnoise_BB79_161:
	movaps	%xmm0, 1552(%rsp)
	movaps	1552(%rsp), %xmm0
	movaps	1568(%rsp), %xmm1
	movaps	%xmm1, 2096(%rsp)
	movaps	%xmm0, 2080(%rsp)
	movb	%r8b, 524(%rsi)
	movaps	2080(%rsp), %xmm0
	movaps	2096(%rsp), %xmm1
	movups	%xmm0, 525(%rsi)
	movups	%xmm1, 541(%rsi)
	movb	%cl, 557(%rsi)
	movw	$0, 423(%rsi)
	movaps	1488(%rsp), %xmm0
	movaps	1504(%rsp), %xmm1
	movups	%xmm0, 1367(%rsi)
	movups	%xmm1, 1383(%rsi)
	movups	(%rax), %xmm0
	movups	16(%rax), %xmm1
	movups	%xmm0, 1399(%rsi)
	movups	%xmm1, 1415(%rsi)
	cmpb	$1, %r9b
	jne	.Lnoise_BB79_163
	movaps	1040(%rsp), %xmm0
	movaps	1056(%rsp), %xmm1
	movaps	%xmm1, 1568(%rsp)
	jmp	.Lnoise_BB79_164
.Lnoise_BB79_163:
	xorps	%xmm0, %xmm0
	movaps	%xmm0, 1568(%rsp)
.Lnoise_BB79_164:
	movaps	%xmm0, 1552(%rsp)
	movaps	1552(%rsp), %xmm0
	movaps	1568(%rsp), %xmm1
	movaps	%xmm1, 2096(%rsp)
	movaps	%xmm0, 2080(%rsp)
	movb	%r9b, 1431(%rsi)
	movaps	2080(%rsp), %xmm0
	movaps	2096(%rsp), %xmm1
	movups	%xmm0, 1432(%rsi)
	movups	%xmm1, 1448(%rsi)
	movq	%r10, 1464(%rsi)
	xorl	%eax, %eax
.Lnoise_BB79_165:
	movaps	3312(%rsp), %xmm6
	addq	$3336, %rsp
	popq	%rbx
	popq	%rbp
	popq	%rdi
	popq	%rsi
	popq	%r12
	popq	%r13
	popq	%r14
	popq	%r15
	retq
.Lnoise_BB79_98:
	incq	%rax
	addq	$24, %rcx
	cmpq	%rbx, %rax
	je	.Lnoise_BB79_103
.Lnoise_BB79_99:
	leaq	(%rax,%rax,2), %rdx
	movq	1640(%rsp,%rdx,8), %rdx
	testq	%rdx, %rdx
	je	.Lnoise_BB79_98
	xorl	%r8d, %r8d
.Lnoise_BB79_101:
	cmpb	$6, (%rcx,%r8)
	je	.Lnoise_BB79_103
	incq	%r8
	cmpq	%r8, %rdx
	jne	.Lnoise_BB79_101
	jmp	.Lnoise_BB79_98
.Lnoise_BB79_103:
	movdqa	%xmm6, 2368(%rsp)
	movdqa	%xmm6, 2352(%rsp)
	leaq	1(%r12), %rax
	cmpb	$0, (%rax)
	je	.Lnoise_BB79_128
	movups	2(%r12), %xmm0
	movups	18(%r12), %xmm1
	movaps	%xmm1, 2368(%rsp)
	movaps	%xmm0, 2352(%rsp)
	movb	$1, %dil
	jmp	.Lnoise_BB79_129
.Lnoise_BB79_126:
	cmpq	$32, %rdi
	jae	.Lnoise_BB79_142
	xorl	%eax, %eax
	jmp	.Lnoise_BB79_146
.Lnoise_BB79_128:
	xorl	%edi, %edi
.Lnoise_BB79_129:
	pxor	%xmm6, %xmm6
	movdqa	%xmm6, 368(%rsp)
	movdqa	%xmm6, 352(%rsp)
	leaq	34(%r12), %rax
	cmpb	$0, (%rax)
	je	.Lnoise_BB79_131
	movups	35(%r12), %xmm0
	movups	51(%r12), %xmm1
	movaps	%xmm1, 368(%rsp)
	movaps	%xmm0, 352(%rsp)
	movb	$1, %r12b
	jmp	.Lnoise_BB79_132
.Lnoise_BB79_131:
	xorl	%r12d, %r12d
.Lnoise_BB79_132:
	movaps	2352(%rsp), %xmm0
	movaps	2368(%rsp), %xmm1
	movaps	%xmm1, 1328(%rsp)
	movaps	%xmm0, 1312(%rsp)
	movaps	352(%rsp), %xmm0
	movaps	368(%rsp), %xmm1
	movaps	%xmm0, 1280(%rsp)
	movaps	%xmm1, 1296(%rsp)
	movdqa	%xmm6, 1408(%rsp)
	movdqa	%xmm6, 1424(%rsp)
	movdqa	%xmm6, 1440(%rsp)
	movdqa	%xmm6, 1456(%rsp)
	movw	$0, 1472(%rsp)
	movl	$0, 56(%rsp)
	leaq	2352(%rsp), %rcx
	movl	$264, %r8d
	xorl	%edx, %edx
	callq	memset
	movdqa	%xmm6, 832(%rsp)
	movdqa	%xmm6, 848(%rsp)
	movdqa	%xmm6, 864(%rsp)
	movdqa	%xmm6, 880(%rsp)
	movdqa	%xmm6, 896(%rsp)
	movdqa	%xmm6, 912(%rsp)
	movdqa	%xmm6, 928(%rsp)
	leaq	2904(%rsp), %rcx
	movl	$264, %r8d
	xorl	%edx, %edx
	callq	memset
	movdqa	%xmm6, 1824(%rsp)
	movdqa	%xmm6, 1840(%rsp)
	movq	$0, 1856(%rsp)
	movdqa	%xmm6, 304(%rsp)
	movdqa	%xmm6, 320(%rsp)
	movq	$0, 336(%rsp)
	testq	%rbx, %rbx
	movq	72(%rsp), %r8
	movq	64(%rsp), %r9
	je	.Lnoise_BB79_140
	xorl	%eax, %eax
	jmp	.Lnoise_BB79_135
.Lnoise_BB79_134:
	incq	%rax
	addq	$24, %rbp
	cmpq	%rbx, %rax
	je	.Lnoise_BB79_166
.Lnoise_BB79_135:
	leaq	(%rax,%rax,2), %rcx
	movq	1640(%rsp,%rcx,8), %rcx
	testq	%rcx, %rcx
	je	.Lnoise_BB79_134
	xorl	%edx, %edx
.Lnoise_BB79_137:
	cmpb	$6, (%rbp,%rdx)
	je	.Lnoise_BB79_139
	incq	%rdx
	cmpq	%rdx, %rcx
	jne	.Lnoise_BB79_137
	jmp	.Lnoise_BB79_134
.Lnoise_BB79_139:
	movb	$1, %al
	movl	%eax, 56(%rsp)
.Lnoise_BB79_140:
	cmpb	$0, 53(%rsp)
	je	.Lnoise_BB79_167
.Lnoise_BB79_141:
	movaps	656(%rsp), %xmm0
	movaps	672(%rsp), %xmm1
	movaps	%xmm1, 368(%rsp)
	movaps	%xmm0, 352(%rsp)
	movaps	624(%rsp), %xmm0
	movaps	640(%rsp), %xmm1
	movaps	%xmm0, 128(%rsp)
	movaps	%xmm1, 144(%rsp)
	movl	%r8d, %ecx
	movl	%r9d, %eax
	jmp	.Lnoise_BB79_168
.Lnoise_BB79_142:
	movq	%rdi, %rax
	andq	$-32, %rax
	movq	232(%rsp), %rdx
	addq	%r13, %rdx
	addq	$16, %rdx
	xorl	%r8d, %r8d
.Lnoise_BB79_143:
	movups	-16(%rdx,%r8), %xmm0
	movups	(%rdx,%r8), %xmm1
	movups	%xmm0, 4(%rsi,%r8)
	movups	%xmm1, 20(%rsi,%r8)
	addq	$32, %r8
	cmpq	%r8, %rax
	jne	.Lnoise_BB79_143
	cmpq	%rax, %rdi
	je	.Lnoise_BB79_155
	testb	$28, %dil
	je	.Lnoise_BB79_149
.Lnoise_BB79_146:
	movq	%rax, %rdx
	movq	%rdi, %rax
	andq	$-4, %rax
.Lnoise_BB79_147:
	movl	(%r10,%rdx), %r8d
	movl	%r8d, (%rcx,%rdx)
	addq	$4, %rdx
	cmpq	%rdx, %rax
	jne	.Lnoise_BB79_147
	cmpq	%rax, %rdi
	je	.Lnoise_BB79_155
	jmp	.Lnoise_BB79_149
.Lnoise_BB79_166:
	movl	$0, 56(%rsp)
	cmpb	$0, 53(%rsp)
	jne	.Lnoise_BB79_141
.Lnoise_BB79_167:
	movaps	1312(%rsp), %xmm0
	movaps	1328(%rsp), %xmm1
	movaps	%xmm1, 368(%rsp)
	movaps	%xmm0, 352(%rsp)
	movaps	1280(%rsp), %xmm0
	movaps	1296(%rsp), %xmm1
	movaps	%xmm0, 128(%rsp)
	movaps	%xmm1, 144(%rsp)
	movl	%edi, %ecx
	movl	%r12d, %eax
.Lnoise_BB79_168:
	movaps	352(%rsp), %xmm0
	movaps	368(%rsp), %xmm1
	movaps	%xmm1, 1984(%rsp)
	movaps	%xmm0, 1968(%rsp)
	movaps	128(%rsp), %xmm2
	movaps	144(%rsp), %xmm3
	movaps	%xmm2, 1936(%rsp)
	movaps	%xmm3, 1952(%rsp)
	movb	%cl, 2014(%rsp)
	movups	%xmm0, 2015(%rsp)
	movups	%xmm1, 2031(%rsp)
	movb	%al, 2047(%rsp)
	movups	%xmm2, 2048(%rsp)
	movups	%xmm3, 2064(%rsp)
	cmpb	$0, 53(%rsp)
	je	.Lnoise_BB79_170
	movaps	1312(%rsp), %xmm0
	movaps	1328(%rsp), %xmm1
	movaps	%xmm1, 368(%rsp)
	movaps	%xmm0, 352(%rsp)
	movaps	1280(%rsp), %xmm0
	movaps	1296(%rsp), %xmm1
	movaps	%xmm0, 128(%rsp)
	movaps	%xmm1, 144(%rsp)
	jmp	.Lnoise_BB79_171
.Lnoise_BB79_170:
	movaps	656(%rsp), %xmm0
	movaps	672(%rsp), %xmm1
	movaps	%xmm1, 368(%rsp)
	movaps	%xmm0, 352(%rsp)
	movaps	624(%rsp), %xmm0
	movaps	640(%rsp), %xmm1
	movaps	%xmm0, 128(%rsp)
	movaps	%xmm1, 144(%rsp)
	movl	%r8d, %edi
	movl	%r9d, %r12d
.Lnoise_BB79_171:
	movaps	352(%rsp), %xmm0
	movaps	368(%rsp), %xmm1
	movaps	%xmm1, 1984(%rsp)
	movaps	%xmm0, 1968(%rsp)
	movdqa	128(%rsp), %xmm2
	movaps	144(%rsp), %xmm3
	movdqa	%xmm2, 1936(%rsp)
	movaps	%xmm3, 1952(%rsp)
	movb	%dil, 1408(%rsp)
	movups	%xmm0, 1409(%rsp)
	movups	%xmm1, 1425(%rsp)
	movb	%r12b, 1441(%rsp)
	movdqu	%xmm2, 1442(%rsp)
	movups	%xmm3, 1458(%rsp)
	movq	1600(%rsp), %rdi
	movq	1616(%rsp), %rax
	movq	%rax, 88(%rsp)
	xorps	%xmm0, %xmm0
	movaps	%xmm0, 352(%rsp)
	movaps	%xmm0, 368(%rsp)
	movq	$0, 384(%rsp)
	movq	1560(%rsp), %rbp
	movq	1584(%rsp), %rcx
	movaps	%xmm0, 128(%rsp)
	movq	$0, 144(%rsp)
	testq	%rcx, %rcx
	je	.Lnoise_BB79_179
	movl	%ecx, %eax
	andl	$3, %eax
	cmpq	$4, %rcx
	jae	.Lnoise_BB79_174
	xorl	%edx, %edx
	jmp	.Lnoise_BB79_177
.Lnoise_BB79_174:
	andq	$-4, %rcx
	xorl	%edx, %edx
.Lnoise_BB79_175:
	movzbl	1568(%rsp,%rdx), %r8d
	movzbl	1569(%rsp,%rdx), %r9d
	movb	%r8b, 128(%rsp,%rdx)
	leaq	1(%rdx), %r8
	movq	%r8, 144(%rsp)
	movb	%r9b, 129(%rsp,%rdx)
	leaq	2(%rdx), %r8
	movq	%r8, 144(%rsp)
	movzbl	1570(%rsp,%rdx), %r8d
	movb	%r8b, 130(%rsp,%rdx)
	leaq	3(%rdx), %r8
	movq	%r8, 144(%rsp)
	movzbl	1571(%rsp,%rdx), %r8d
	movb	%r8b, 131(%rsp,%rdx)
	addq	$4, %rdx
	movq	%rdx, 144(%rsp)
	cmpq	%rdx, %rcx
	jne	.Lnoise_BB79_175
	testq	%rax, %rax
	je	.Lnoise_BB79_179
.Lnoise_BB79_177:
	leaq	1(%rdx), %rcx
	leaq	(%rsp,%rdx), %r8
	addq	$128, %r8
	leaq	1552(%rsp), %r9
	addq	%r9, %rdx
	addq	$16, %rdx
	xorl	%r9d, %r9d
.Lnoise_BB79_178:
	movzbl	(%rdx,%r9), %r10d
	movb	%r10b, (%r8,%r9)
	leaq	(%rcx,%r9), %r10
	movq	%r10, 144(%rsp)
	incq	%r9
	cmpq	%r9, %rax
	jne	.Lnoise_BB79_178
.Lnoise_BB79_179:
	movq	144(%rsp), %rax
	movaps	128(%rsp), %xmm0
	movaps	%xmm0, 128(%rsp)
	movq	%rax, 144(%rsp)
	movq	$0, 240(%rsp)
	cmpq	$9, %rbp
	jae	.Lnoise_BB79_204
	leaq	240(%rsp), %rcx
	leaq	1552(%rsp), %rdx
	movq	%rbp, %r8
	callq	memcpy
	movq	%rbp, 248(%rsp)
	movups	240(%rsp), %xmm0
	movaps	128(%rsp), %xmm1
	movq	144(%rsp), %rax
	movq	%rax, 384(%rsp)
	movaps	%xmm1, 1840(%rsp)
	movq	%rax, 1856(%rsp)
	movaps	%xmm0, 1824(%rsp)
	movq	%rax, 336(%rsp)
	movaps	%xmm1, 320(%rsp)
	movaps	%xmm0, 304(%rsp)
	xorps	%xmm0, %xmm0
	movups	%xmm0, 592(%rsp)
	movups	%xmm0, 582(%rsp)
	movups	%xmm0, 566(%rsp)
	movups	%xmm0, 550(%rsp)
	movups	%xmm0, 534(%rsp)
	movups	%xmm0, 518(%rsp)
	movups	%xmm0, 502(%rsp)
	movups	%xmm0, 486(%rsp)
	movups	%xmm0, 470(%rsp)
	movups	%xmm0, 454(%rsp)
	movups	%xmm0, 438(%rsp)
	movups	%xmm0, 422(%rsp)
	movups	%xmm0, 406(%rsp)
	movups	%xmm0, 390(%rsp)
	movups	%xmm0, 374(%rsp)
	movups	%xmm0, 358(%rsp)
	movl	$1936289614, 352(%rsp)
	movw	$24421, 356(%rsp)
	movq	312(%rsp), %rbp
	cmpq	$249, %rbp
	ja	.Lnoise_BB79_204
	leaq	358(%rsp), %rcx
	leaq	304(%rsp), %rdx
	movq	%rbp, %r8
	callq	memcpy
	leaq	6(%rbp), %rcx
	movq	336(%rsp), %rax
	testq	%rax, %rax
	je	.Lnoise_BB79_196
	cmpq	$246, %rbp
	ja	.Lnoise_BB79_204
	leaq	(%rsp,%rcx), %rdx
	addq	$352, %rdx
	leaq	.Lnoise_static.51(%rip), %rcx
	movq	%rdx, %r8
	subq	%rcx, %r8
	cmpq	$3, %r8
	jae	.Lnoise_BB79_185
	movw	$29552, (%rdx)
	movb	$107, 2(%rdx)
	jmp	.Lnoise_BB79_186
.Lnoise_BB79_185:
	movb	$107, 2(%rdx)
	movw	$29552, (%rdx)
.Lnoise_BB79_186:
	movzbl	320(%rsp), %edx
	addb	$48, %dl
	movb	%dl, 361(%rsp,%rbp)
	cmpq	$1, %rax
	jne	.Lnoise_BB79_188
	addq	$10, %rbp
	jmp	.Lnoise_BB79_195
.Lnoise_BB79_188:
	addq	$-242, %rbp
	decq	%rax
	xorl	%edx, %edx
	jmp	.Lnoise_BB79_191
.Lnoise_BB79_189:
	movb	$107, 2(%r8)
	movw	$29552, (%r8)
.Lnoise_BB79_190:
	movzbl	321(%rsp,%rdx), %r8d
	addb	$48, %r8b
	movb	%r8b, 608(%rsp,%rbp)
	addq	$5, %rbp
	incq	%rdx
	cmpq	%rdx, %rax
	je	.Lnoise_BB79_194
.Lnoise_BB79_191:
	movb	$43, 604(%rsp,%rbp)
	cmpq	$3, %rbp
	jb	.Lnoise_BB79_204
	leaq	(%rsp,%rbp), %r8
	addq	$605, %r8
	movq	%r8, %r9
	subq	%rcx, %r9
	cmpq	$2, %r9
	ja	.Lnoise_BB79_189
	movw	$29552, 605(%rsp,%rbp)
	movb	$107, 607(%rsp,%rbp)
	jmp	.Lnoise_BB79_190
.Lnoise_BB79_194:
	addq	$252, %rbp
.Lnoise_BB79_195:
	movq	%rbp, %rcx
.Lnoise_BB79_196:
	leaq	-232(%rcx), %rax
	cmpq	$23, %rax
	jbe	.Lnoise_BB79_204
	movl	56(%rsp), %r12d
	movups	.Lnoise_static.98(%rip), %xmm0
	movups	%xmm0, 352(%rsp,%rcx)
	movabsq	$3906083507781459833, %rax
	movq	%rax, 368(%rsp,%rcx)
	addq	$24, %rcx
	movq	%rcx, 608(%rsp)
	leaq	2904(%rsp), %rbp
	leaq	352(%rsp), %rdx
	movl	$264, %r8d
	movq	%rbp, %rcx
	callq	memcpy
	leaq	2352(%rsp), %rcx
	movl	$264, %r8d
	movq	%rbp, %rdx
	callq	memcpy
	movq	2608(%rsp), %r8
	cmpq	$33, %r8
	movq	%r15, 96(%rsp)
	jb	.Lnoise_BB79_199
	pxor	%xmm6, %xmm6
	movdqa	%xmm6, 208(%rsp)
	movdqa	%xmm6, 192(%rsp)
	movdqa	%xmm6, 176(%rsp)
	movdqa	%xmm6, 160(%rsp)
	movq	$0, 224(%rsp)
	movaps	.Lnoise_CPI79_0(%rip), %xmm0
	movaps	%xmm0, 128(%rsp)
	movaps	.Lnoise_CPI79_1(%rip), %xmm0
	movaps	%xmm0, 144(%rsp)
	leaq	128(%rsp), %rcx
	leaq	2352(%rsp), %rdx
	callq	"sha2::block256::Core256::update"
	movq	%rbx, %r15
	movq	%rdi, %rbx
	movq	224(%rsp), %rdi
	movq	%rdi, 448(%rsp)
	movaps	208(%rsp), %xmm0
	movaps	%xmm0, 432(%rsp)
	movaps	192(%rsp), %xmm0
	movaps	%xmm0, 416(%rsp)
	movaps	128(%rsp), %xmm0
	movaps	144(%rsp), %xmm1
	movaps	160(%rsp), %xmm2
	movaps	176(%rsp), %xmm3
	movaps	%xmm3, 400(%rsp)
	movaps	%xmm2, 384(%rsp)
	movaps	%xmm1, 368(%rsp)
	movaps	%xmm0, 352(%rsp)
	movl	$55, %r8d
	subl	%edi, %r8d
	andl	$63, %r8d
	incq	%r8
	leaq	.Lnoise_static.100(%rip), %rdx
	leaq	352(%rsp), %rbp
	movq	%rbp, %rcx
	callq	"sha2::block256::Core256::update"
	movq	%rdi, %rax
	shrq	$53, %rax
	movzbl	%al, %eax
	movq	%rdi, %rcx
	shlq	$59, %rcx
	movl	%edi, %edx
	andl	$8160, %edx
	shlq	$43, %rdx
	orq	%rcx, %rdx
	movl	%edi, %ecx
	andl	$2088960, %ecx
	shlq	$27, %rcx
	orq	%rdx, %rcx
	movl	%edi, %edx
	andl	$534773760, %edx
	shlq	$11, %rdx
	orq	%rcx, %rdx
	movq	%rdi, %rcx
	shrq	$5, %rcx
	andl	$-16777216, %ecx
	orq	%rdx, %rcx
	movq	%rdi, %rdx
	shrq	$21, %rdx
	andl	$16711680, %edx
	orq	%rcx, %rdx
	shrq	$37, %rdi
	andl	$65280, %edi
	orq	%rdx, %rdi
	orq	%rax, %rdi
	movq	%rdi, 240(%rsp)
	movq	%rbx, %rdi
	movq	%r15, %rbx
	leaq	240(%rsp), %rdx
	movl	$8, %r8d
	movq	%rbp, %rcx
	callq	"sha2::block256::Core256::update"
	movdqa	352(%rsp), %xmm0
	movdqa	368(%rsp), %xmm1
	movdqa	%xmm0, %xmm2
	punpckhbw	%xmm6, %xmm2
	pshuflw	$27, %xmm2, %xmm2
	pshufhw	$27, %xmm2, %xmm2
	punpcklbw	%xmm6, %xmm0
	pshuflw	$27, %xmm0, %xmm0
	pshufhw	$27, %xmm0, %xmm0
	packuswb	%xmm2, %xmm0
	movdqa	%xmm1, %xmm2
	punpckhbw	%xmm6, %xmm2
	pshuflw	$27, %xmm2, %xmm2
	pshufhw	$27, %xmm2, %xmm2
	punpcklbw	%xmm6, %xmm1
	pshuflw	$27, %xmm1, %xmm1
	pshufhw	$27, %xmm1, %xmm1
	packuswb	%xmm2, %xmm1
	jmp	.Lnoise_BB79_200
.Lnoise_BB79_199:
	xorps	%xmm0, %xmm0
	movaps	%xmm0, 368(%rsp)
	movaps	%xmm0, 352(%rsp)
	leaq	352(%rsp), %rcx
	leaq	2352(%rsp), %rdx
	callq	memcpy
	movdqa	352(%rsp), %xmm0
	movdqa	368(%rsp), %xmm1
.Lnoise_BB79_200:
	leaq	1592(%rsp), %rbp
	movdqa	%xmm0, 832(%rsp)
	movdqa	%xmm1, 848(%rsp)
	leaq	864(%rsp), %rdx
	movdqa	%xmm0, 864(%rsp)
	movdqa	%xmm1, 880(%rsp)
	pxor	%xmm0, %xmm0
	movdqa	%xmm0, 896(%rsp)
	movdqa	%xmm0, 912(%rsp)
	movdqa	%xmm0, 928(%rsp)
	leaq	352(%rsp), %rcx
	movq	80(%rsp), %r8
	movq	3440(%rsp), %r9
	callq	"noise_state::symmetric::hash_of_both"
	movups	352(%rsp), %xmm0
	movups	368(%rsp), %xmm1
	movaps	%xmm1, 880(%rsp)
	movaps	%xmm0, 864(%rsp)
	movq	%rdi, 32(%rsp)
	leaq	832(%rsp), %r15
	leaq	2014(%rsp), %r8
	movq	%r15, %rcx
	movl	%r12d, %edx
	movq	%rbp, %r9
	callq	"noise_handshake::setup::mix_premessage"
	movq	88(%rsp), %rax
	movq	%rax, 32(%rsp)
	leaq	1408(%rsp), %r8
	movq	%r15, %rcx
	movl	%r12d, %edx
	leaq	1608(%rsp), %r9
	callq	"noise_handshake::setup::mix_premessage"
	movaps	832(%rsp), %xmm0
	movaps	848(%rsp), %xmm1
	movaps	864(%rsp), %xmm2
	movaps	880(%rsp), %xmm3
	movaps	%xmm3, 1392(%rsp)
	movaps	%xmm2, 1376(%rsp)
	movaps	%xmm1, 1360(%rsp)
	movaps	%xmm0, 1344(%rsp)
	movups	913(%rsp), %xmm0
	movaps	%xmm0, 1008(%rsp)
	movq	928(%rsp), %rax
	movq	%rax, 1023(%rsp)
	movzbl	896(%rsp), %r10d
	movups	897(%rsp), %xmm0
	movaps	%xmm0, 992(%rsp)
	testq	%rbx, %rbx
	je	.Lnoise_BB79_203
	movq	1640(%rsp), %rax
.Lnoise_BB79_202:
	subq	$1, %rax
	jae	.Lnoise_BB79_202
.Lnoise_BB79_203:
	movq	936(%rsp), %r11
	movaps	1904(%rsp), %xmm0
	movaps	1920(%rsp), %xmm1
	movaps	%xmm1, 1264(%rsp)
	movaps	%xmm0, 1248(%rsp)
	movaps	1872(%rsp), %xmm0
	movaps	1888(%rsp), %xmm1
	movaps	%xmm0, 1216(%rsp)
	movaps	%xmm1, 1232(%rsp)
	movaps	1344(%rsp), %xmm0
	movaps	1360(%rsp), %xmm1
	movaps	1376(%rsp), %xmm2
	movaps	1392(%rsp), %xmm3
	movaps	%xmm0, 1152(%rsp)
	movaps	%xmm1, 1168(%rsp)
	movaps	%xmm2, 1184(%rsp)
	movaps	%xmm3, 1200(%rsp)
	movq	1023(%rsp), %rax
	movq	%rax, 975(%rsp)
	movaps	992(%rsp), %xmm0
	movaps	1008(%rsp), %xmm1
	movaps	%xmm1, 960(%rsp)
	movaps	%xmm0, 944(%rsp)
	movaps	1248(%rsp), %xmm0
	movaps	1264(%rsp), %xmm1
	movaps	%xmm1, 800(%rsp)
	movaps	%xmm0, 784(%rsp)
	movaps	1216(%rsp), %xmm0
	movaps	1232(%rsp), %xmm1
	movaps	%xmm1, 768(%rsp)
	movaps	%xmm0, 752(%rsp)
	movaps	1152(%rsp), %xmm0
	movaps	1168(%rsp), %xmm1
	movaps	1184(%rsp), %xmm2
	movaps	1200(%rsp), %xmm3
	movaps	%xmm3, 736(%rsp)
	movaps	%xmm2, 720(%rsp)
	movaps	%xmm1, 704(%rsp)
	movaps	%xmm0, 688(%rsp)
	movq	975(%rsp), %rax
	movq	%rax, 287(%rsp)
	movaps	944(%rsp), %xmm0
	movaps	960(%rsp), %xmm1
	movaps	%xmm1, 272(%rsp)
	movaps	%xmm0, 256(%rsp)
	movl	$4, %eax
	movb	$1, %cl
	movq	96(%rsp), %r15
	movq	3448(%rsp), %r12
	movq	72(%rsp), %r8
	movq	64(%rsp), %r9
	jmp	.Lnoise_BB79_110
.Lnoise_BB79_204:
	ud2
	.seh_endproc

	.def	noise_stream_is_cut;
	.scl	2;
	.type	32;
	.endef
	.globl	noise_stream_is_cut
	.p2align	4
noise_stream_is_cut:
	movl	$23, %eax
	cmpl	$1315900161, (%rcx)
	jne	.Lnoise_BB80_10
	movzbl	4(%rcx), %r8d
	cmpl	$1, %r8d
	je	.Lnoise_BB80_2
	cmpl	$2, %r8d
	jne	.Lnoise_BB80_10
	xorl	%r8d, %r8d
	movzbl	56(%rcx), %r9d
	cmpb	$2, %r9b
	jbe	.Lnoise_BB80_6
.Lnoise_BB80_10:
	retq
.Lnoise_BB80_2:
	movb	$1, %r8b
	movzbl	56(%rcx), %r9d
	cmpb	$2, %r9b
	ja	.Lnoise_BB80_10
.Lnoise_BB80_6:
	cmpb	$1, %r9b
	jne	.Lnoise_BB80_9
	cmpb	$0, 5(%rcx)
	setne	%r10b
	cmpq	$0, 48(%rcx)
	je	.Lnoise_BB80_10
	andb	%r10b, %r8b
	jne	.Lnoise_BB80_10
.Lnoise_BB80_9:
	xorl	%eax, %eax
	cmpb	$1, %r9b
	movl	$44, %ecx
	cmovnel	%ecx, %eax
	testq	%rdx, %rdx
	cmovnel	%ecx, %eax
	retq

	.def	noise_stream_read;
	.scl	2;
	.type	32;
	.endef
	.globl	noise_stream_read
	.p2align	4
noise_stream_read:
.seh_proc noise_stream_read
	pushq	%r15
	.seh_pushreg %r15
	pushq	%r14
	.seh_pushreg %r14
	pushq	%r13
	.seh_pushreg %r13
	pushq	%r12
	.seh_pushreg %r12
	pushq	%rsi
	.seh_pushreg %rsi
	pushq	%rdi
	.seh_pushreg %rdi
	pushq	%rbp
	.seh_pushreg %rbp
	pushq	%rbx
	.seh_pushreg %rbx
	subq	$152, %rsp
	.seh_stackalloc 152
	.seh_endprologue
	xorl	%r10d, %r10d
	testq	%rdx, %rdx
	sete	%bl
	movl	$23, %eax
	cmpl	$1315900161, (%rcx)
	jne	.Lnoise_BB81_32
	movzbl	4(%rcx), %r11d
	cmpl	$1, %r11d
	je	.Lnoise_BB81_2
	cmpl	$2, %r11d
	jne	.Lnoise_BB81_32
	movb	$1, %r14b
	xorl	%r11d, %r11d
	jmp	.Lnoise_BB81_5
.Lnoise_BB81_2:
	xorl	%r14d, %r14d
	movb	$1, %r11b
.Lnoise_BB81_5:
	movzbl	5(%rcx), %esi
	testb	%sil, %sil
	setne	%r12b
	movzbl	56(%rcx), %ebp
	cmpb	$2, %bpl
	ja	.Lnoise_BB81_32
	movl	%r11d, 52(%rsp)
	movq	40(%rcx), %r13
	movq	48(%rcx), %r15
	cmpb	$1, %bpl
	jne	.Lnoise_BB81_8
	testb	%sil, %sil
	setne	%dil
	testq	%r15, %r15
	sete	%r11b
	andb	52(%rsp), %dil
	orb	%r11b, %dil
	jne	.Lnoise_BB81_32
.Lnoise_BB81_8:
	leaq	6(%rcx), %rdi
	movb	%r14b, 56(%rsp)
	movb	%r12b, 57(%rsp)
	movl	$0, 58(%rsp)
	movw	$0, 62(%rsp)
	movq	%r13, 64(%rsp)
	movb	$1, 72(%rsp)
	movups	(%rdi), %xmm0
	movups	16(%rdi), %xmm1
	movups	%xmm0, 73(%rsp)
	movups	%xmm1, 89(%rsp)
	movl	$0, 105(%rsp)
	movl	$0, 108(%rsp)
	movq	%r15, 112(%rsp)
	movb	%bpl, 120(%rsp)
	movl	$0, 121(%rsp)
	movl	$0, 124(%rsp)
	movl	$43, %eax
	testb	%bpl, %bpl
	jne	.Lnoise_BB81_32
	movl	$2, %r14d
	cmpq	$2, %r8
	jb	.Lnoise_BB81_25
	movb	%bl, %r10b
	shll	$12, %r10d
	addq	%r10, %rdx
	movzwl	(%rdx), %eax
	rolw	$8, %ax
	movzwl	%ax, %r10d
	leaq	2(%r10), %r14
	cmpq	%r14, %r8
	jae	.Lnoise_BB81_11
.Lnoise_BB81_25:
	subq	%r8, %r14
	movq	%r14, 24(%r9)
	movl	$42, %eax
	jmp	.Lnoise_BB81_32
.Lnoise_BB81_11:
	leaq	73(%rsp), %rbx
	testb	%sil, %sil
	setne	%r8b
	xorps	%xmm0, %xmm0
	movaps	%xmm0, 128(%rsp)
	movl	$3, %eax
	testb	%r8b, 52(%rsp)
	jne	.Lnoise_BB81_30
	movq	%r9, %r12
	movq	%rcx, %r15
	leaq	72(%rsp), %rsi
	addq	$2, %rdx
	movq	%r10, 40(%rsp)
	movq	%rdx, 32(%rsp)
	leaq	.Lnoise_static.1(%rip), %r8
	leaq	128(%rsp), %rcx
	movq	%rsi, %rdx
	xorl	%r9d, %r9d
	callq	"noise_state::cipher::CipherState::decrypt"
	cmpb	$0, 128(%rsp)
	je	.Lnoise_BB81_13
	movzbl	129(%rsp), %eax
	leaq	.Lnoise_JTI81_0(%rip), %rcx
	movslq	(%rcx,%rax,4), %rax
	addq	%rcx, %rax
	jmpq	*%rax
.Lnoise_BB81_28:
	movl	$2, %eax
	jmp	.Lnoise_BB81_29
.Lnoise_BB81_13:
	movq	136(%rsp), %r13
	movq	64(%rsp), %r9
	testq	%r9, %r9
	movq	%r15, %rcx
	movq	%r12, %r8
	je	.Lnoise_BB81_19
	movq	112(%rsp), %rax
	movq	%rax, %rdx
	orq	%r9, %rdx
	shrq	$32, %rdx
	je	.Lnoise_BB81_15
	xorl	%edx, %edx
	divq	%r9
	jmp	.Lnoise_BB81_17
.Lnoise_BB81_24:
	movl	$1, %eax
	jmp	.Lnoise_BB81_29
.Lnoise_BB81_23:
	xorl	%eax, %eax
.Lnoise_BB81_29:
	movq	%r15, %rcx
.Lnoise_BB81_30:
	cmpb	$1, 72(%rsp)
	jne	.Lnoise_BB81_33
	movzbl	57(%rsp), %edx
	andb	$1, %dl
	cmpb	$1, 56(%rsp)
	movq	112(%rsp), %r8
	movb	$2, %r9b
	sbbb	$0, %r9b
	movq	64(%rsp), %r10
	movl	$1315900161, (%rcx)
	movb	%r9b, 4(%rcx)
	movb	%dl, 5(%rcx)
	movups	(%rbx), %xmm0
	movups	16(%rbx), %xmm1
	movups	%xmm1, 16(%rdi)
	movups	%xmm0, (%rdi)
	movw	$0, 38(%rcx)
	movq	%r10, 40(%rcx)
	movq	%r8, 48(%rcx)
	movb	$2, 56(%rcx)
	movl	$0, 57(%rcx)
	movl	$0, 60(%rcx)
	leaq	.Lnoise_switch.table.noise_stream_read(%rip), %rcx
	movl	(%rcx,%rax,4), %eax
.Lnoise_BB81_32:
	addq	$152, %rsp
	popq	%rbx
	popq	%rbp
	popq	%rdi
	popq	%rsi
	popq	%r12
	popq	%r13
	popq	%r14
	popq	%r15
	retq
.Lnoise_BB81_15:
	xorl	%edx, %edx
	divl	%r9d
.Lnoise_BB81_17:
	testq	%rdx, %rdx
	jne	.Lnoise_BB81_19
	movq	%rsi, %rcx
	callq	"noise_state::cipher::CipherState::rekey"
	movq	%r12, %r8
	movq	%r15, %rcx
.Lnoise_BB81_19:
	testq	%r13, %r13
	je	.Lnoise_BB81_26
	movq	$2, (%r8)
	movq	%r13, 8(%r8)
	movq	%r14, 16(%r8)
	cmpb	$1, 72(%rsp)
	jne	.Lnoise_BB81_33
	movzbl	120(%rsp), %eax
	movq	112(%rsp), %rdx
	movq	64(%rsp), %r8
	movzbl	57(%rsp), %r9d
	andb	$1, %r9b
	cmpb	$1, 56(%rsp)
	movb	$2, %r10b
	sbbb	$0, %r10b
	movl	$1315900161, (%rcx)
	movb	%r10b, 4(%rcx)
	movb	%r9b, 5(%rcx)
	movups	(%rbx), %xmm0
	movups	16(%rbx), %xmm1
	movups	%xmm1, 16(%rdi)
	movups	%xmm0, (%rdi)
	movw	$0, 38(%rcx)
	movq	%r8, 40(%rcx)
	movq	%rdx, 48(%rcx)
	movb	%al, 56(%rcx)
	movl	$0, 57(%rcx)
	movl	$0, 60(%rcx)
	xorl	%eax, %eax
	jmp	.Lnoise_BB81_32
.Lnoise_BB81_26:
	movq	%r14, 16(%r8)
	cmpb	$1, 72(%rsp)
	jne	.Lnoise_BB81_33
	movq	112(%rsp), %rax
	movq	64(%rsp), %rdx
	movzbl	57(%rsp), %r8d
	andb	$1, %r8b
	cmpb	$1, 56(%rsp)
	movb	$2, %r9b
	sbbb	$0, %r9b
	movl	$1315900161, (%rcx)
	movb	%r9b, 4(%rcx)
	movb	%r8b, 5(%rcx)
	movups	(%rbx), %xmm0
	movups	16(%rbx), %xmm1
	movups	%xmm1, 16(%rdi)
	movups	%xmm0, (%rdi)
	movw	$0, 38(%rcx)
	movq	%rdx, 40(%rcx)
	movq	%rax, 48(%rcx)
	movb	$1, 56(%rcx)
	movl	$0, 57(%rcx)
	movl	$0, 60(%rcx)
	movl	$41, %eax
	jmp	.Lnoise_BB81_32
.Lnoise_BB81_33:
	ud2
	.section	.rdata,"dr"
	.p2align	2, 0x0
.Lnoise_JTI81_0:
	.long	.Lnoise_BB81_28-.Lnoise_JTI81_0
	.long	.Lnoise_BB81_24-.Lnoise_JTI81_0
	.long	.Lnoise_BB81_23-.Lnoise_JTI81_0
	.long	.Lnoise_BB81_33-.Lnoise_JTI81_0
	.text
	.seh_endproc

	.def	noise_stream_end;
	.scl	2;
	.type	32;
	.endef
	.globl	noise_stream_end
	.p2align	4
noise_stream_end:
.seh_proc noise_stream_end
	pushq	%r15
	.seh_pushreg %r15
	pushq	%r14
	.seh_pushreg %r14
	pushq	%r13
	.seh_pushreg %r13
	pushq	%r12
	.seh_pushreg %r12
	pushq	%rsi
	.seh_pushreg %rsi
	pushq	%rdi
	.seh_pushreg %rdi
	pushq	%rbp
	.seh_pushreg %rbp
	pushq	%rbx
	.seh_pushreg %rbx
	subq	$152, %rsp
	.seh_stackalloc 152
	.seh_endprologue
	xorl	%r10d, %r10d
	testq	%rdx, %rdx
	sete	%r11b
	movl	$23, %eax
	cmpl	$1315899905, (%rcx)
	jne	.Lnoise_BB82_21
	movzbl	4(%rcx), %esi
	cmpl	$1, %esi
	je	.Lnoise_BB82_2
	cmpl	$2, %esi
	jne	.Lnoise_BB82_21
	movb	$1, %sil
	movl	%esi, 52(%rsp)
	movb	$1, %bpl
	jmp	.Lnoise_BB82_5
.Lnoise_BB82_2:
	movl	$0, 52(%rsp)
	xorl	%ebp, %ebp
.Lnoise_BB82_5:
	movzbl	5(%rcx), %ebx
	testb	%bl, %bl
	setne	%r12b
	movq	40(%rcx), %r14
	movq	48(%rcx), %r15
	movzbl	56(%rcx), %r13d
	testb	%r13b, %r13b
	je	.Lnoise_BB82_7
	testb	%bl, %bl
	setne	%dil
	testq	%r15, %r15
	sete	%sil
	andb	52(%rsp), %dil
	orb	%sil, %dil
	je	.Lnoise_BB82_8
	jmp	.Lnoise_BB82_21
.Lnoise_BB82_7:
	cmpq	$-1, %r15
	je	.Lnoise_BB82_21
.Lnoise_BB82_8:
	leaq	6(%rcx), %rdi
	testb	%r13b, %r13b
	setne	%sil
	movb	%bpl, 56(%rsp)
	movb	%r12b, 57(%rsp)
	movl	$0, 58(%rsp)
	movw	$0, 62(%rsp)
	movq	%r14, 64(%rsp)
	movb	$1, 72(%rsp)
	movups	(%rdi), %xmm0
	movups	16(%rdi), %xmm1
	movups	%xmm1, 89(%rsp)
	movups	%xmm0, 73(%rsp)
	movl	$0, 108(%rsp)
	movl	$0, 105(%rsp)
	movq	%r15, 112(%rsp)
	setne	120(%rsp)
	movl	$0, 124(%rsp)
	movl	$0, 121(%rsp)
	cmpq	$18, %r8
	setb	%r8b
	movl	$18, %ebp
	movl	$43, %eax
	cmovbl	%ebp, %eax
	orb	%sil, %r8b
	jne	.Lnoise_BB82_21
	testb	%bl, %bl
	setne	%r8b
	movl	$22, %eax
	testb	%r8b, 52(%rsp)
	jne	.Lnoise_BB82_21
	cmpq	$-1, %r15
	je	.Lnoise_BB82_22
	movq	%r9, %r14
	movq	%rcx, %rbx
	movb	%r11b, %r10b
	shll	$12, %r10d
	addq	%r10, %rdx
	leaq	72(%rsp), %rsi
	movq	%rdx, %r15
	leaq	2(%rdx), %rax
	xorps	%xmm0, %xmm0
	movaps	%xmm0, 128(%rsp)
	movq	%rax, 32(%rsp)
	movq	$0, 40(%rsp)
	leaq	.Lnoise_static.1(%rip), %r8
	leaq	128(%rsp), %rcx
	movq	%rsi, %rdx
	xorl	%r9d, %r9d
	callq	"noise_state::cipher::CipherState::encrypt"
	cmpb	$0, 128(%rsp)
	jne	.Lnoise_BB82_22
	movq	136(%rsp), %r12
	movq	64(%rsp), %r8
	movq	112(%rsp), %rcx
	testq	%r8, %r8
	movq	%r14, %r9
	je	.Lnoise_BB82_13
	movq	%rcx, %rax
	orq	%r8, %rax
	shrq	$32, %rax
	je	.Lnoise_BB82_15
	movq	%rcx, %rax
	xorl	%edx, %edx
	divq	%r8
	jmp	.Lnoise_BB82_17
.Lnoise_BB82_13:
	xorl	%r8d, %r8d
	movq	%rbx, %rax
	movq	%r15, %rdx
	jmp	.Lnoise_BB82_19
.Lnoise_BB82_15:
	movl	%ecx, %eax
	xorl	%edx, %edx
	divl	%r8d
.Lnoise_BB82_17:
	movq	%rbx, %rax
	testq	%rdx, %rdx
	movq	%r15, %rdx
	jne	.Lnoise_BB82_19
	movq	%rsi, %rcx
	callq	"noise_state::cipher::CipherState::rekey"
	movq	%r15, %rdx
	movq	%r14, %r9
	movq	%rbx, %rax
	movq	64(%rsp), %r8
	movq	112(%rsp), %rcx
.Lnoise_BB82_19:
	movl	%r12d, %r10d
	rolw	$8, %r10w
	movw	%r10w, (%rdx)
	addq	$2, %r12
	movq	%r12, 8(%r9)
	cmpb	$1, 72(%rsp)
	jne	.Lnoise_BB82_22
	leaq	73(%rsp), %rdx
	movzbl	57(%rsp), %r9d
	andb	$1, %r9b
	cmpb	$1, 56(%rsp)
	movb	$2, %r10b
	sbbb	$0, %r10b
	movl	$1315899905, (%rax)
	movb	%r10b, 4(%rax)
	movb	%r9b, 5(%rax)
	movups	(%rdx), %xmm0
	movups	16(%rdx), %xmm1
	movups	%xmm1, 16(%rdi)
	movups	%xmm0, (%rdi)
	movw	$0, 38(%rax)
	movq	%r8, 40(%rax)
	movq	%rcx, 48(%rax)
	movb	$1, 56(%rax)
	movl	$0, 57(%rax)
	movl	$0, 60(%rax)
	xorl	%eax, %eax
.Lnoise_BB82_21:
	addq	$152, %rsp
	popq	%rbx
	popq	%rbp
	popq	%rdi
	popq	%rsi
	popq	%r12
	popq	%r13
	popq	%r14
	popq	%r15
	retq
.Lnoise_BB82_22:
	ud2
	.seh_endproc

	.def	noise_stream_write;
	.scl	2;
	.type	32;
	.endef
	.globl	noise_stream_write
	.p2align	4
noise_stream_write:
.seh_proc noise_stream_write
	pushq	%r15
	.seh_pushreg %r15
	pushq	%r14
	.seh_pushreg %r14
	pushq	%r13
	.seh_pushreg %r13
	pushq	%r12
	.seh_pushreg %r12
	pushq	%rsi
	.seh_pushreg %rsi
	pushq	%rdi
	.seh_pushreg %rdi
	pushq	%rbp
	.seh_pushreg %rbp
	pushq	%rbx
	.seh_pushreg %rbx
	subq	$168, %rsp
	.seh_stackalloc 168
	.seh_endprologue
	testq	%rdx, %rdx
	sete	%bpl
	testq	%r9, %r9
	sete	%dil
	movl	$23, %eax
	cmpl	$1315899905, (%rcx)
	jne	.Lnoise_BB83_45
	movzbl	4(%rcx), %r10d
	cmpl	$1, %r10d
	je	.Lnoise_BB83_2
	cmpl	$2, %r10d
	jne	.Lnoise_BB83_45
	movb	$1, %r14b
	movb	$1, %r10b
	movl	%r10d, 52(%rsp)
	jmp	.Lnoise_BB83_5
.Lnoise_BB83_2:
	xorl	%r14d, %r14d
	movl	$0, 52(%rsp)
.Lnoise_BB83_5:
	movzbl	5(%rcx), %esi
	testb	%sil, %sil
	setne	%r15b
	movq	40(%rcx), %r13
	movq	48(%rcx), %r10
	movzbl	56(%rcx), %ebx
	testb	%bl, %bl
	je	.Lnoise_BB83_7
	testb	%sil, %sil
	setne	%r11b
	testq	%r10, %r10
	sete	%r12b
	andb	%r14b, %r11b
	orb	%r12b, %r11b
	je	.Lnoise_BB83_8
	jmp	.Lnoise_BB83_45
.Lnoise_BB83_7:
	cmpq	$-1, %r10
	je	.Lnoise_BB83_45
.Lnoise_BB83_8:
	movq	272(%rsp), %rax
	leaq	6(%rcx), %r11
	testb	%bl, %bl
	setne	%bl
	movl	52(%rsp), %r12d
	movb	%r12b, 56(%rsp)
	movb	%r15b, 57(%rsp)
	movl	$0, 58(%rsp)
	movw	$0, 62(%rsp)
	movq	%r13, 64(%rsp)
	movb	$1, 72(%rsp)
	movups	(%r11), %xmm0
	movq	%r11, 160(%rsp)
	movups	16(%r11), %xmm1
	movups	%xmm0, 73(%rsp)
	movups	%xmm1, 89(%rsp)
	movl	$0, 105(%rsp)
	movl	$0, 108(%rsp)
	movq	%r10, 112(%rsp)
	setne	120(%rsp)
	movl	$0, 121(%rsp)
	movl	$0, 124(%rsp)
	testq	%r8, %r8
	setne	%r11b
	cmpq	$65519, %r8
	movl	$65519, %r12d
	cmovbq	%r8, %r12
	movq	%r12, 152(%rsp)
	addq	$18, %r12
	cmpq	%rax, %r12
	seta	%al
	andb	%r11b, %al
	orb	%al, %bl
	testb	%al, %al
	movl	$18, %r11d
	movl	$43, %eax
	cmovnel	%r11d, %eax
	testb	%bl, %bl
	jne	.Lnoise_BB83_45
	movq	280(%rsp), %rax
	testq	%r8, %r8
	je	.Lnoise_BB83_10
	testb	%sil, %sil
	je	.Lnoise_BB83_13
	movl	$22, %eax
	testb	%r14b, %r14b
	jne	.Lnoise_BB83_45
.Lnoise_BB83_13:
	movl	$17, %eax
	cmpq	$-2, %r10
	je	.Lnoise_BB83_45
	cmpq	$-1, %r10
	je	.Lnoise_BB83_47
	xorl	%r15d, %r15d
	movb	%bpl, %r15b
	shll	$12, %r15d
	leaq	(%rdx,%r15), %rax
	xorl	%esi, %esi
	movb	%dil, %sil
	shll	$12, %esi
	leaq	(%r9,%rsi), %r13
	leaq	72(%rsp), %rdi
	leaq	2(%r13), %rbx
	movq	%rbx, %r10
	subq	%rax, %r10
	movq	152(%rsp), %r12
	cmpq	%r12, %r10
	jae	.Lnoise_BB83_46
	cmpq	$4, %r8
	jb	.Lnoise_BB83_17
	movq	%r13, %r10
	subq	%rax, %r10
	addq	$2, %r10
	cmpq	$32, %r10
	jae	.Lnoise_BB83_19
.Lnoise_BB83_17:
	movq	%rcx, %rbp
	xorl	%ecx, %ecx
.Lnoise_BB83_28:
	movq	%r12, %r10
	movq	%rcx, %r8
	andq	$3, %r10
	je	.Lnoise_BB83_31
	movq	%rcx, %r8
.Lnoise_BB83_30:
	movzbl	(%rax,%r8), %r11d
	movb	%r11b, (%rbx,%r8)
	incq	%r8
	decq	%r10
	jne	.Lnoise_BB83_30
.Lnoise_BB83_31:
	subq	%r12, %rcx
	cmpq	$-4, %rcx
	ja	.Lnoise_BB83_34
	leaq	(%r15,%rdx), %rax
	addq	$3, %rax
	leaq	(%rsi,%r9), %rcx
	addq	$5, %rcx
.Lnoise_BB83_33:
	movzbl	-3(%rax,%r8), %edx
	movb	%dl, -3(%rcx,%r8)
	movzbl	-2(%rax,%r8), %edx
	movb	%dl, -2(%rcx,%r8)
	movzbl	-1(%rax,%r8), %edx
	movb	%dl, -1(%rcx,%r8)
	movzbl	(%rax,%r8), %edx
	movb	%dl, (%rcx,%r8)
	addq	$4, %r8
	cmpq	%r8, %r12
	jne	.Lnoise_BB83_33
	jmp	.Lnoise_BB83_34
.Lnoise_BB83_10:
	xorps	%xmm0, %xmm0
	movups	%xmm0, 8(%rax)
	xorl	%eax, %eax
	movq	%r13, %r9
	jmp	.Lnoise_BB83_44
.Lnoise_BB83_46:
	movq	%rcx, %rbp
	movq	%rbx, %rcx
	movq	%rax, %rdx
	movq	%r12, %r8
	callq	memmove
.Lnoise_BB83_34:
	xorps	%xmm0, %xmm0
	movaps	%xmm0, 128(%rsp)
	movq	%r12, 40(%rsp)
	movq	%rbx, 32(%rsp)
	leaq	.Lnoise_static.1(%rip), %r8
	leaq	128(%rsp), %rcx
	movq	%rdi, %rdx
	xorl	%r9d, %r9d
	callq	"noise_state::cipher::CipherState::encrypt"
	cmpb	$0, 128(%rsp)
	jne	.Lnoise_BB83_47
	movq	136(%rsp), %rsi
	movq	64(%rsp), %r9
	movq	112(%rsp), %r10
	testq	%r9, %r9
	movq	%rbp, %rcx
	je	.Lnoise_BB83_36
	movq	%r10, %rax
	orq	%r9, %rax
	shrq	$32, %rax
	je	.Lnoise_BB83_38
	movq	%r10, %rax
	xorl	%edx, %edx
	divq	%r9
	jmp	.Lnoise_BB83_40
.Lnoise_BB83_36:
	xorl	%r9d, %r9d
	jmp	.Lnoise_BB83_42
.Lnoise_BB83_38:
	movl	%r10d, %eax
	xorl	%edx, %edx
	divl	%r9d
.Lnoise_BB83_40:
	testq	%rdx, %rdx
	jne	.Lnoise_BB83_42
	movq	%rcx, %rbx
	movq	%rdi, %rcx
	callq	"noise_state::cipher::CipherState::rekey"
	movq	%rbx, %rcx
	movq	64(%rsp), %r9
	movq	112(%rsp), %r10
.Lnoise_BB83_42:
	movl	%esi, %eax
	rolw	$8, %ax
	movw	%ax, (%r13)
	addq	$2, %rsi
	movzbl	56(%rsp), %eax
	movl	%eax, 52(%rsp)
	movzbl	57(%rsp), %r15d
	movzbl	120(%rsp), %eax
	cmpb	$1, 72(%rsp)
	movq	280(%rsp), %rdx
	movq	%rsi, 8(%rdx)
	movq	%r12, 16(%rdx)
	jne	.Lnoise_BB83_47
	andb	$1, %al
.Lnoise_BB83_44:
	leaq	73(%rsp), %rdx
	andb	$1, %r15b
	cmpb	$1, 52(%rsp)
	movb	$2, %r8b
	sbbb	$0, %r8b
	movl	$1315899905, (%rcx)
	movb	%r8b, 4(%rcx)
	movb	%r15b, 5(%rcx)
	movups	(%rdx), %xmm0
	movups	16(%rdx), %xmm1
	movq	160(%rsp), %rdx
	movups	%xmm1, 16(%rdx)
	movups	%xmm0, (%rdx)
	movw	$0, 38(%rcx)
	movq	%r9, 40(%rcx)
	movq	%r10, 48(%rcx)
	movb	%al, 56(%rcx)
	movl	$0, 57(%rcx)
	movl	$0, 60(%rcx)
	xorl	%eax, %eax
.Lnoise_BB83_45:
	addq	$168, %rsp
	popq	%rbx
	popq	%rbp
	popq	%rdi
	popq	%rsi
	popq	%r12
	popq	%r13
	popq	%r14
	popq	%r15
	retq
.Lnoise_BB83_19:
	movq	%rcx, %rbp
	cmpq	$32, %r8
	jae	.Lnoise_BB83_21
	xorl	%ecx, %ecx
	jmp	.Lnoise_BB83_25
.Lnoise_BB83_21:
	movl	%r12d, %ecx
	andl	$65504, %ecx
	leaq	(%r15,%rdx), %r10
	addq	$16, %r10
	movq	%rsi, %r11
	addq	%r9, %rsi
	addq	$18, %rsi
	xorl	%r14d, %r14d
.Lnoise_BB83_22:
	movups	-16(%r10,%r14), %xmm0
	movups	(%r10,%r14), %xmm1
	movups	%xmm0, -16(%rsi,%r14)
	movups	%xmm1, (%rsi,%r14)
	addq	$32, %r14
	cmpq	%r14, %rcx
	jne	.Lnoise_BB83_22
	cmpq	%rcx, %r8
	je	.Lnoise_BB83_34
	movq	%r11, %rsi
	testb	$28, %r12b
	je	.Lnoise_BB83_28
.Lnoise_BB83_25:
	movq	%rcx, %r8
	movl	%r12d, %ecx
	andl	$65532, %ecx
.Lnoise_BB83_26:
	movl	(%rax,%r8), %r10d
	movl	%r10d, (%rbx,%r8)
	addq	$4, %r8
	cmpq	%r8, %rcx
	jne	.Lnoise_BB83_26
	cmpq	%rcx, %r12
	jne	.Lnoise_BB83_28
	jmp	.Lnoise_BB83_34
.Lnoise_BB83_47:
	ud2
	.seh_endproc

	.def	noise_unset_psk;
	.scl	2;
	.type	32;
	.endef
	.globl	noise_unset_psk
	.p2align	4
noise_unset_psk:
.seh_proc noise_unset_psk
	pushq	%rsi
	.seh_pushreg %rsi
	subq	$1184, %rsp
	.seh_stackalloc 1184
	.seh_endprologue
	movq	%rcx, %rsi
	leaq	312(%rsp), %rcx
	movl	$872, %r8d
	xorl	%edx, %edx
	callq	memset
	cmpl	$1315897601, (%rsi)
	jne	.Lnoise_BB84_5
	movzwl	420(%rsi), %r8d
	cmpq	$416, %r8
	ja	.Lnoise_BB84_5
	cmpb	$8, 846(%rsi)
	ja	.Lnoise_BB84_5
	cmpb	$9, 557(%rsi)
	ja	.Lnoise_BB84_5
	leaq	4(%rsi), %rdx
	leaq	32(%rsp), %rcx
	callq	"noise_c::patterns::pattern_of"
	cmpb	$0, 32(%rsp)
	je	.Lnoise_BB84_7
.Lnoise_BB84_5:
	movl	$23, %eax
.Lnoise_BB84_6:
	addq	$1184, %rsp
	popq	%rsi
	retq
.Lnoise_BB84_7:
	leaq	40(%rsp), %r8
	leaq	312(%rsp), %rcx
	movq	%rsi, %rdx
	callq	"noise_c::from_c::restored"
	movl	$23, %eax
	cmpb	$1, 312(%rsp)
	jne	.Lnoise_BB84_6
	movzbl	557(%rsi), %ecx
	xorl	%eax, %eax
	testb	%cl, %cl
	je	.Lnoise_BB84_6
	movups	798(%rsi), %xmm0
	movups	%xmm0, 830(%rsi)
	movups	782(%rsi), %xmm0
	movups	%xmm0, 814(%rsi)
	movups	750(%rsi), %xmm0
	movups	%xmm0, 782(%rsi)
	movups	766(%rsi), %xmm0
	movups	%xmm0, 798(%rsi)
	movups	718(%rsi), %xmm0
	movups	%xmm0, 750(%rsi)
	movups	734(%rsi), %xmm0
	movups	%xmm0, 766(%rsi)
	movups	654(%rsi), %xmm0
	movups	670(%rsi), %xmm1
	movups	686(%rsi), %xmm2
	movups	702(%rsi), %xmm3
	movups	%xmm2, 718(%rsi)
	movups	%xmm3, 734(%rsi)
	movups	%xmm1, 702(%rsi)
	movups	%xmm0, 686(%rsi)
	movups	622(%rsi), %xmm0
	movups	638(%rsi), %xmm1
	movups	%xmm1, 670(%rsi)
	movups	%xmm0, 654(%rsi)
	movups	590(%rsi), %xmm0
	movups	606(%rsi), %xmm1
	movups	%xmm1, 638(%rsi)
	movups	%xmm0, 622(%rsi)
	movups	558(%rsi), %xmm0
	movups	574(%rsi), %xmm1
	movups	%xmm1, 606(%rsi)
	movups	%xmm0, 590(%rsi)
	xorps	%xmm0, %xmm0
	movups	%xmm0, 574(%rsi)
	movups	%xmm0, 558(%rsi)
	decb	%cl
	movb	%cl, 557(%rsi)
	addq	$1184, %rsp
	popq	%rsi
	retq
	.seh_endproc

	.def	noise_check_pattern;
	.scl	2;
	.type	32;
	.endef
	.globl	noise_check_pattern
	.p2align	4
noise_check_pattern:
.seh_proc noise_check_pattern
	pushq	%r14
	.seh_pushreg %r14
	pushq	%rsi
	.seh_pushreg %rsi
	pushq	%rdi
	.seh_pushreg %rdi
	pushq	%rbx
	.seh_pushreg %rbx
	subq	$584, %rsp
	.seh_stackalloc 584
	.seh_endprologue
	movq	%r8, %rsi
	movq	%rdx, %rdi
	xorl	%ebx, %ebx
	testq	%rcx, %rcx
	sete	%bl
	shll	$12, %ebx
	addq	%rcx, %rbx
	leaq	32(%rsp), %r14
	movl	$280, %r8d
	movq	%r14, %rcx
	xorl	%edx, %edx
	callq	memset
	movq	%r14, %rcx
	movq	%rbx, %rdx
	movq	%rdi, %r8
	callq	"noise_names::pattern::Pattern::parse_text"
	cmpb	$0, 32(%rsp)
	je	.Lnoise_BB85_1
	movq	40(%rsp), %rcx
	movzbl	48(%rsp), %eax
	movq	%rcx, (%rsi)
	addl	$30, %eax
	jmp	.Lnoise_BB85_4
.Lnoise_BB85_1:
	leaq	40(%rsp), %rdx
	leaq	312(%rsp), %rdi
	movl	$272, %r8d
	movq	%rdi, %rcx
	callq	memcpy
	leaq	32(%rsp), %rbx
	movl	$280, %r8d
	movq	%rbx, %rcx
	xorl	%edx, %edx
	callq	memset
	movq	%rbx, %rcx
	movq	%rdi, %rdx
	callq	"noise_names::pattern::Pattern::check"
	cmpb	$0, 32(%rsp)
	je	.Lnoise_BB85_2
	movzwl	33(%rsp), %eax
	movzbl	35(%rsp), %ecx
	movw	%ax, 8(%rsi)
	movb	%cl, 10(%rsi)
	movl	$39, %eax
	jmp	.Lnoise_BB85_4
.Lnoise_BB85_2:
	movzbl	304(%rsp), %eax
	movb	%al, 11(%rsi)
	xorl	%eax, %eax
.Lnoise_BB85_4:
	addq	$584, %rsp
	popq	%rbx
	popq	%rdi
	popq	%rsi
	popq	%r14
	retq
	.seh_endproc

	.def	noise_pattern;
	.scl	2;
	.type	32;
	.endef
	.globl	noise_pattern
	.p2align	4
noise_pattern:
.seh_proc noise_pattern
	pushq	%r15
	.seh_pushreg %r15
	pushq	%r14
	.seh_pushreg %r14
	pushq	%r13
	.seh_pushreg %r13
	pushq	%r12
	.seh_pushreg %r12
	pushq	%rsi
	.seh_pushreg %rsi
	pushq	%rdi
	.seh_pushreg %rdi
	pushq	%rbp
	.seh_pushreg %rbp
	pushq	%rbx
	.seh_pushreg %rbx
	subq	$1912, %rsp
	.seh_stackalloc 1912
	.seh_endprologue
	movq	%r9, %rsi
	movq	%r8, %rdi
	movq	%rdx, %rbx
	xorl	%r14d, %r14d
	testq	%rcx, %rcx
	sete	%r14b
	shll	$12, %r14d
	addq	%rcx, %r14
	leaq	400(%rsp), %rcx
	movl	$272, %r8d
	xorl	%edx, %edx
	callq	memset
	leaq	1368(%rsp), %rcx
	movl	$272, %r8d
	xorl	%edx, %edx
	callq	memset
	testq	%rbx, %rbx
	je	.Lnoise_BB86_4
	cmpb	$10, -1(%r14,%rbx)
	jne	.Lnoise_BB86_4
	leaq	816(%rsp), %r15
	movl	$280, %r8d
	movq	%r15, %rcx
	xorl	%edx, %edx
	callq	memset
	movq	%r15, %rcx
	movq	%r14, %rdx
	movq	%rbx, %r8
	callq	"noise_names::pattern::Pattern::parse_text"
	cmpb	$0, 816(%rsp)
	je	.Lnoise_BB86_9
	movq	824(%rsp), %rcx
	movzbl	832(%rsp), %eax
	movq	%rcx, (%rsi)
	addl	$30, %eax
	jmp	.Lnoise_BB86_8
.Lnoise_BB86_4:
	xorps	%xmm0, %xmm0
	movaps	%xmm0, 720(%rsp)
	movaps	%xmm0, 736(%rsp)
	movaps	%xmm0, 752(%rsp)
	leaq	816(%rsp), %rcx
	movl	$280, %r8d
	xorl	%edx, %edx
	callq	memset
	leaq	720(%rsp), %rcx
	movq	%r14, %rdx
	movq	%rbx, %r8
	callq	"noise_names::name::ProtocolName::parse"
	cmpb	$0, 720(%rsp)
	jne	.Lnoise_BB86_7
	leaq	728(%rsp), %rcx
	movups	728(%rsp), %xmm0
	movups	744(%rsp), %xmm1
	movaps	%xmm0, 768(%rsp)
	movq	760(%rsp), %rax
	movq	%rax, 800(%rsp)
	movaps	%xmm1, 784(%rsp)
	movq	776(%rsp), %rdx
	callq	"noise_names::table::place_of"
	cmpb	$1, %al
	jne	.Lnoise_BB86_7
	leaq	1096(%rsp), %rbx
	movq	%rbx, %rcx
	callq	"noise_names::table::row"
	leaq	784(%rsp), %r8
	leaq	816(%rsp), %rcx
	movq	%rbx, %rdx
	callq	"noise_names::pattern::Pattern::with_psks"
	cmpb	$0, 816(%rsp)
	je	.Lnoise_BB86_9
.Lnoise_BB86_7:
	movl	$1, %eax
.Lnoise_BB86_8:
	addq	$1912, %rsp
	popq	%rbx
	popq	%rbp
	popq	%rdi
	popq	%rsi
	popq	%r12
	popq	%r13
	popq	%r14
	popq	%r15
	retq
.Lnoise_BB86_9:
	leaq	824(%rsp), %rdx
	leaq	1640(%rsp), %rbx
	movl	$272, %r8d
	movq	%rbx, %rcx
	callq	memcpy
	leaq	1096(%rsp), %rcx
	movl	$272, %r8d
	movq	%rbx, %rdx
	callq	memcpy
	leaq	816(%rsp), %rbx
	movl	$280, %r8d
	movq	%rbx, %rcx
	xorl	%edx, %edx
	callq	memset
	leaq	1096(%rsp), %rdx
	movq	%rbx, %rcx
	callq	"noise_names::pattern::Pattern::check"
	cmpb	$0, 816(%rsp)
	je	.Lnoise_BB86_11
	movzwl	817(%rsp), %eax
	movzbl	819(%rsp), %ecx
	movw	%ax, 8(%rsi)
	movb	%cl, 10(%rsi)
	movl	$39, %eax
	jmp	.Lnoise_BB86_8
.Lnoise_BB86_11:
	leaq	824(%rsp), %rdx
	leaq	1368(%rsp), %rbx
	movl	$272, %r8d
	movq	%rbx, %rcx
	callq	memcpy
	leaq	400(%rsp), %rcx
	movl	$272, %r8d
	movq	%rbx, %rdx
	callq	memcpy
	leaq	472(%rsp), %rax
	movq	664(%rsp), %rcx
	testq	%rcx, %rcx
	je	.Lnoise_BB86_14
	cmpq	$1, %rcx
	jne	.Lnoise_BB86_15
	xorl	%edx, %edx
	movq	%rax, %r8
	jmp	.Lnoise_BB86_28
.Lnoise_BB86_14:
	xorl	%edx, %edx
	jmp	.Lnoise_BB86_34
.Lnoise_BB86_15:
	movq	%rcx, %r9
	andq	$-2, %r9
	xorl	%edx, %edx
	movq	%rax, %r8
	xorl	%r10d, %r10d
	jmp	.Lnoise_BB86_17
	.p2align	4
.Lnoise_BB86_16:
	addq	$48, %r8
	addb	%r11b, %dl
	addq	$2, %r10
	cmpq	%r9, %r10
	je	.Lnoise_BB86_27
.Lnoise_BB86_17:
	movq	16(%r8), %rbx
	xorl	%r11d, %r11d
	movq	%r8, %r14
.Lnoise_BB86_18:
	movq	%r14, %r15
	.p2align	4
.Lnoise_BB86_19:
	testq	%rbx, %rbx
	je	.Lnoise_BB86_22
	leaq	1(%r15), %r14
	decq	%rbx
	cmpb	$6, (%r15)
	movq	%r14, %r15
	jne	.Lnoise_BB86_19
	incb	%r11b
	jmp	.Lnoise_BB86_18
	.p2align	4
.Lnoise_BB86_22:
	leaq	24(%r8), %r14
	addb	%r11b, %dl
	movq	40(%r8), %rbx
	xorl	%r11d, %r11d
.Lnoise_BB86_23:
	movq	%r14, %r15
	.p2align	4
.Lnoise_BB86_24:
	testq	%rbx, %rbx
	je	.Lnoise_BB86_16
	leaq	1(%r15), %r14
	decq	%rbx
	cmpb	$6, (%r15)
	movq	%r14, %r15
	jne	.Lnoise_BB86_24
	incb	%r11b
	jmp	.Lnoise_BB86_23
.Lnoise_BB86_27:
	testb	$1, %cl
	je	.Lnoise_BB86_34
.Lnoise_BB86_28:
	movq	16(%r8), %r10
	xorl	%r9d, %r9d
.Lnoise_BB86_29:
	movq	%r8, %r11
	.p2align	4
.Lnoise_BB86_30:
	testq	%r10, %r10
	je	.Lnoise_BB86_33
	leaq	1(%r11), %r8
	decq	%r10
	cmpb	$6, (%r11)
	movq	%r8, %r11
	jne	.Lnoise_BB86_30
	incb	%r9b
	jmp	.Lnoise_BB86_29
.Lnoise_BB86_33:
	addb	%dl, %r9b
	movl	%r9d, %edx
.Lnoise_BB86_34:
	movq	448(%rsp), %r8
	movq	464(%rsp), %r9
	xorl	%r10d, %r10d
	.p2align	4
.Lnoise_BB86_35:
	cmpq	%r10, %r8
	je	.Lnoise_BB86_37
	cmpb	$0, 440(%rsp,%r10)
	leaq	1(%r10), %r10
	jne	.Lnoise_BB86_35
	jmp	.Lnoise_BB86_44
.Lnoise_BB86_37:
	testq	%rcx, %rcx
	je	.Lnoise_BB86_45
	xorl	%r10d, %r10d
	movq	%rcx, %r11
	movq	%rax, %rbx
	jmp	.Lnoise_BB86_40
.Lnoise_BB86_39:
	addq	$24, %rbx
	decq	%r11
	xorb	$1, %r10b
	testq	%r11, %r11
	je	.Lnoise_BB86_45
.Lnoise_BB86_40:
	testb	%r10b, %r10b
	jne	.Lnoise_BB86_39
	movq	16(%rbx), %r14
	xorl	%r15d, %r15d
	.p2align	4
.Lnoise_BB86_42:
	cmpq	%r15, %r14
	je	.Lnoise_BB86_39
	cmpb	$0, (%rbx,%r15)
	leaq	1(%r15), %r15
	jne	.Lnoise_BB86_42
.Lnoise_BB86_44:
	movl	$1, %r10d
	movq	%r10, 392(%rsp)
	jmp	.Lnoise_BB86_46
.Lnoise_BB86_45:
	movq	$0, 392(%rsp)
.Lnoise_BB86_46:
	xorl	%r10d, %r10d
	.p2align	4
.Lnoise_BB86_47:
	cmpq	%r10, %r8
	je	.Lnoise_BB86_49
	cmpb	$1, 440(%rsp,%r10)
	leaq	1(%r10), %r10
	jne	.Lnoise_BB86_47
	jmp	.Lnoise_BB86_56
.Lnoise_BB86_49:
	testq	%rcx, %rcx
	je	.Lnoise_BB86_57
	xorl	%r10d, %r10d
	movq	%rcx, %r11
	movq	%rax, %rbx
	jmp	.Lnoise_BB86_52
.Lnoise_BB86_51:
	addq	$24, %rbx
	decq	%r11
	xorb	$1, %r10b
	testq	%r11, %r11
	je	.Lnoise_BB86_57
.Lnoise_BB86_52:
	testb	%r10b, %r10b
	jne	.Lnoise_BB86_51
	movq	16(%rbx), %r14
	xorl	%r15d, %r15d
	.p2align	4
.Lnoise_BB86_54:
	cmpq	%r15, %r14
	je	.Lnoise_BB86_51
	cmpb	$1, (%rbx,%r15)
	leaq	1(%r15), %r15
	jne	.Lnoise_BB86_54
.Lnoise_BB86_56:
	movl	$256, %r10d
	movq	%r10, 384(%rsp)
	jmp	.Lnoise_BB86_58
.Lnoise_BB86_57:
	movq	$0, 384(%rsp)
.Lnoise_BB86_58:
	xorl	%r11d, %r11d
	.p2align	4
.Lnoise_BB86_59:
	movq	%r11, %r10
	cmpq	%r11, %r9
	je	.Lnoise_BB86_61
	leaq	1(%r10), %r11
	cmpb	$0, 456(%rsp,%r10)
	jne	.Lnoise_BB86_59
.Lnoise_BB86_61:
	xorl	%r11d, %r11d
	.p2align	4
.Lnoise_BB86_62:
	movq	%r11, %r14
	cmpq	%r11, %r9
	je	.Lnoise_BB86_64
	leaq	1(%r14), %r11
	cmpb	$1, 456(%rsp,%r14)
	jne	.Lnoise_BB86_62
.Lnoise_BB86_64:
	xorl	%r11d, %r11d
	.p2align	4
.Lnoise_BB86_65:
	cmpq	%r11, %r9
	je	.Lnoise_BB86_67
	cmpb	$0, 456(%rsp,%r11)
	leaq	1(%r11), %r11
	jne	.Lnoise_BB86_65
	jmp	.Lnoise_BB86_74
.Lnoise_BB86_67:
	testq	%rcx, %rcx
	je	.Lnoise_BB86_75
	xorl	%r11d, %r11d
	movq	%rcx, %rbx
	movq	%rax, %r15
	jmp	.Lnoise_BB86_70
.Lnoise_BB86_69:
	addq	$24, %r15
	decq	%rbx
	xorb	$1, %r11b
	testq	%rbx, %rbx
	je	.Lnoise_BB86_75
.Lnoise_BB86_70:
	cmpb	$1, %r11b
	jne	.Lnoise_BB86_69
	movq	16(%r15), %r12
	xorl	%r13d, %r13d
	.p2align	4
.Lnoise_BB86_72:
	cmpq	%r13, %r12
	je	.Lnoise_BB86_69
	cmpb	$0, (%r15,%r13)
	leaq	1(%r13), %r13
	jne	.Lnoise_BB86_72
.Lnoise_BB86_74:
	movabsq	$4294967296, %r11
	movq	%r11, 376(%rsp)
	jmp	.Lnoise_BB86_76
.Lnoise_BB86_75:
	movq	$0, 376(%rsp)
.Lnoise_BB86_76:
	xorl	%r11d, %r11d
	.p2align	4
.Lnoise_BB86_77:
	cmpq	%r11, %r9
	je	.Lnoise_BB86_79
	cmpb	$1, 456(%rsp,%r11)
	leaq	1(%r11), %r11
	jne	.Lnoise_BB86_77
	jmp	.Lnoise_BB86_86
.Lnoise_BB86_79:
	testq	%rcx, %rcx
	je	.Lnoise_BB86_87
	xorl	%r11d, %r11d
	movq	%rcx, %rbx
	jmp	.Lnoise_BB86_82
.Lnoise_BB86_81:
	addq	$24, %rax
	decq	%rbx
	xorb	$1, %r11b
	testq	%rbx, %rbx
	je	.Lnoise_BB86_87
.Lnoise_BB86_82:
	cmpb	$1, %r11b
	jne	.Lnoise_BB86_81
	movq	16(%rax), %r15
	xorl	%r12d, %r12d
	.p2align	4
.Lnoise_BB86_84:
	cmpq	%r12, %r15
	je	.Lnoise_BB86_81
	cmpb	$1, (%rax,%r12)
	leaq	1(%r12), %r12
	jne	.Lnoise_BB86_84
.Lnoise_BB86_86:
	movabsq	$1099511627776, %rax
	movq	%rax, 368(%rsp)
	jmp	.Lnoise_BB86_88
.Lnoise_BB86_87:
	movq	$0, 368(%rsp)
.Lnoise_BB86_88:
	xorl	%ebx, %ebx
	.p2align	4
.Lnoise_BB86_89:
	movq	%rbx, %rax
	cmpq	%rbx, %r8
	je	.Lnoise_BB86_91
	leaq	1(%rax), %rbx
	cmpb	$0, 440(%rsp,%rax)
	jne	.Lnoise_BB86_89
.Lnoise_BB86_91:
	xorl	%r15d, %r15d
	.p2align	4
.Lnoise_BB86_92:
	xorl	%ebx, %ebx
	cmpq	%r15, %r8
	je	.Lnoise_BB86_95
	cmpb	$1, 440(%rsp,%r15)
	leaq	1(%r15), %r15
	jne	.Lnoise_BB86_92
	movabsq	$72057594037927936, %r15
	movq	%r15, 680(%rsp)
	jmp	.Lnoise_BB86_96
.Lnoise_BB86_95:
	movq	$0, 680(%rsp)
.Lnoise_BB86_96:
	xorl	%r15d, %r15d
	cmpq	%rax, %r8
	setne	%r15b
	xorl	%r13d, %r13d
	cmpq	%r10, %r9
	setne	%r13b
	xorl	%r10d, %r10d
	cmpq	%r14, %r9
	setne	%r10b
	testq	%r8, %r8
	je	.Lnoise_BB86_99
	movzbl	440(%rsp), %eax
	incb	%al
	movq	%rax, 672(%rsp)
	cmpq	$1, %r8
	je	.Lnoise_BB86_100
	movzbl	441(%rsp), %eax
	incb	%al
	movzbl	%al, %ebx
	shll	$8, %ebx
	jmp	.Lnoise_BB86_100
.Lnoise_BB86_99:
	movq	$0, 672(%rsp)
.Lnoise_BB86_100:
	shll	$24, %r10d
	shll	$16, %r13d
	testq	%r9, %r9
	je	.Lnoise_BB86_103
	movzbl	456(%rsp), %r8d
	incb	%r8b
	cmpq	$1, %r9
	jne	.Lnoise_BB86_104
	movl	$0, 356(%rsp)
	jmp	.Lnoise_BB86_105
.Lnoise_BB86_103:
	movl	$0, 356(%rsp)
	xorl	%r8d, %r8d
	jmp	.Lnoise_BB86_105
.Lnoise_BB86_104:
	movzbl	457(%rsp), %eax
	incb	%al
	movzbl	%al, %eax
	shll	$8, %eax
	movl	%eax, 356(%rsp)
.Lnoise_BB86_105:
	shlq	$48, %r15
	xorl	%eax, %eax
	testq	%rcx, %rcx
	movq	%r15, 712(%rsp)
	movq	%r13, 704(%rsp)
	movq	%r10, 696(%rsp)
	movq	%rcx, 344(%rsp)
	movq	%rsi, 688(%rsp)
	je	.Lnoise_BB86_110
	movq	488(%rsp), %r9
	testq	%r9, %r9
	movl	%r8d, 220(%rsp)
	je	.Lnoise_BB86_112
	movzbl	472(%rsp), %r10d
	incb	%r10b
	cmpq	$1, %r9
	je	.Lnoise_BB86_108
	movzbl	473(%rsp), %r14d
	incb	%r14b
	cmpq	$3, %r9
	jb	.Lnoise_BB86_109
	movzbl	474(%rsp), %r12d
	incb	%r12b
	cmpq	$3, %r9
	je	.Lnoise_BB86_115
	movzbl	475(%rsp), %r11d
	incb	%r11b
	movl	%r11d, 52(%rsp)
	cmpq	$5, %r9
	jb	.Lnoise_BB86_116
	movzbl	476(%rsp), %esi
	incb	%sil
	cmpq	$5, %r9
	je	.Lnoise_BB86_117
	movzbl	477(%rsp), %r8d
	incb	%r8b
	movl	%r8d, 48(%rsp)
	cmpq	$7, %r9
	jb	.Lnoise_BB86_175
	movzbl	478(%rsp), %r8d
	incb	%r8b
	movl	%r8d, 44(%rsp)
	cmpq	$7, %r9
	je	.Lnoise_BB86_176
	movzbl	479(%rsp), %r8d
	incb	%r8b
	movl	%r8d, 40(%rsp)
	cmpq	$9, %r9
	jb	.Lnoise_BB86_177
	movzbl	480(%rsp), %r8d
	incb	%r8b
	movl	%r8d, 56(%rsp)
	cmpq	$9, %r9
	je	.Lnoise_BB86_178
	movzbl	481(%rsp), %r8d
	incb	%r8b
	jmp	.Lnoise_BB86_179
.Lnoise_BB86_110:
	movl	$0, 68(%rsp)
	movl	$0, 80(%rsp)
	movl	$0, 100(%rsp)
	movl	$0, 116(%rsp)
	movl	$0, 144(%rsp)
	movl	$0, 172(%rsp)
	movl	$0, 200(%rsp)
	movl	$0, 232(%rsp)
	movl	$0, 84(%rsp)
	movl	$0, 284(%rsp)
	movl	$0, 104(%rsp)
	movl	$0, 120(%rsp)
	movl	$0, 148(%rsp)
	movl	$0, 176(%rsp)
	movl	$0, 204(%rsp)
	movl	$0, 236(%rsp)
	movl	$0, 268(%rsp)
	movl	$0, 132(%rsp)
	movl	$0, 308(%rsp)
	movl	$0, 320(%rsp)
	movl	$0, 156(%rsp)
	movl	$0, 180(%rsp)
	movl	$0, 212(%rsp)
	movl	$0, 244(%rsp)
	movl	$0, 276(%rsp)
	movl	$0, 292(%rsp)
	movl	$0, 312(%rsp)
	movl	$0, 188(%rsp)
	movl	$0, 336(%rsp)
	movl	$0, 340(%rsp)
	xorl	%r10d, %r10d
	xorl	%esi, %esi
	xorl	%ecx, %ecx
	xorl	%r15d, %r15d
	xorl	%r13d, %r13d
	xorl	%r12d, %r12d
	xorl	%r14d, %r14d
	xorl	%ebp, %ebp
	movl	$0, 364(%rsp)
	movl	$0, 360(%rsp)
	movl	$0, 352(%rsp)
	movl	$0, 328(%rsp)
	movl	$0, 216(%rsp)
	movl	$0, 324(%rsp)
	movl	$0, 316(%rsp)
	movl	$0, 296(%rsp)
	movl	$0, 280(%rsp)
	movl	$0, 248(%rsp)
	xorl	%r11d, %r11d
	movl	$0, 184(%rsp)
	movl	$0, 332(%rsp)
	movl	$0, 252(%rsp)
	movl	$0, 160(%rsp)
	movl	$0, 288(%rsp)
	movl	$0, 272(%rsp)
	movl	$0, 240(%rsp)
	movl	$0, 208(%rsp)
	movl	$0, 300(%rsp)
	movl	$0, 152(%rsp)
	movl	$0, 124(%rsp)
	movl	$0, 304(%rsp)
	movl	$0, 88(%rsp)
	movl	$0, 128(%rsp)
	movl	$0, 228(%rsp)
	movl	$0, 196(%rsp)
	movl	$0, 168(%rsp)
	movl	$0, 140(%rsp)
	movl	$0, 112(%rsp)
	movl	$0, 96(%rsp)
	movl	$0, 76(%rsp)
	movl	$0, 264(%rsp)
	movl	$0, 224(%rsp)
	movl	$0, 192(%rsp)
	movl	$0, 164(%rsp)
	movl	$0, 136(%rsp)
	movl	$0, 108(%rsp)
	movl	$0, 92(%rsp)
	movl	$0, 72(%rsp)
	movl	$0, 64(%rsp)
	movl	$0, 60(%rsp)
	jmp	.Lnoise_BB86_111
.Lnoise_BB86_112:
	xorl	%r10d, %r10d
.Lnoise_BB86_108:
	xorl	%r14d, %r14d
.Lnoise_BB86_109:
	xorl	%r12d, %r12d
.Lnoise_BB86_115:
	movl	$0, 52(%rsp)
.Lnoise_BB86_116:
	xorl	%esi, %esi
.Lnoise_BB86_117:
	xorl	%r9d, %r9d
	movl	$0, 44(%rsp)
	movl	$0, 40(%rsp)
	movl	$0, 56(%rsp)
	xorl	%r8d, %r8d
.Lnoise_BB86_118:
	movl	%r9d, 48(%rsp)
	cmpq	$1, %rcx
	movl	%r14d, 364(%rsp)
	movl	%r10d, 360(%rsp)
	jne	.Lnoise_BB86_120
	movl	$0, 68(%rsp)
	movl	$0, 80(%rsp)
	movl	$0, 100(%rsp)
	movl	$0, 116(%rsp)
	movl	$0, 144(%rsp)
	movl	$0, 172(%rsp)
	movl	$0, 200(%rsp)
	movl	$0, 232(%rsp)
	movl	$0, 84(%rsp)
	movl	$0, 284(%rsp)
	movl	$0, 104(%rsp)
	movl	$0, 120(%rsp)
	movl	$0, 148(%rsp)
	movl	$0, 176(%rsp)
	movl	$0, 204(%rsp)
	movl	$0, 236(%rsp)
	movl	$0, 268(%rsp)
	movl	$0, 132(%rsp)
	movl	$0, 308(%rsp)
	movl	$0, 320(%rsp)
	movl	$0, 156(%rsp)
	movl	$0, 180(%rsp)
	movl	$0, 212(%rsp)
	movl	$0, 244(%rsp)
	movl	$0, 276(%rsp)
	movl	$0, 292(%rsp)
	movl	$0, 312(%rsp)
	movl	$0, 188(%rsp)
	movl	$0, 336(%rsp)
	movl	$0, 340(%rsp)
	movl	$0, 352(%rsp)
	movl	$0, 328(%rsp)
	movl	$0, 216(%rsp)
	movl	$0, 324(%rsp)
	movl	$0, 316(%rsp)
	movl	$0, 296(%rsp)
	movl	$0, 280(%rsp)
	movl	$0, 248(%rsp)
	xorl	%r11d, %r11d
	movl	$0, 184(%rsp)
	movl	$0, 332(%rsp)
	movl	$0, 252(%rsp)
	movl	$0, 160(%rsp)
	movl	$0, 288(%rsp)
	movl	$0, 272(%rsp)
	movl	$0, 240(%rsp)
	movl	$0, 208(%rsp)
	movl	$0, 300(%rsp)
	movl	$0, 152(%rsp)
	movl	$0, 124(%rsp)
	movl	$0, 304(%rsp)
	movl	$0, 88(%rsp)
	movl	$0, 128(%rsp)
	movl	$0, 228(%rsp)
	movl	$0, 196(%rsp)
	movl	$0, 168(%rsp)
	movl	$0, 140(%rsp)
	movl	$0, 112(%rsp)
	movl	$0, 96(%rsp)
	movl	$0, 76(%rsp)
	movl	$0, 264(%rsp)
	movl	$0, 224(%rsp)
	movl	$0, 192(%rsp)
	movl	$0, 164(%rsp)
	movl	$0, 136(%rsp)
	movl	$0, 108(%rsp)
	movl	$0, 92(%rsp)
	movl	$0, 72(%rsp)
	movl	%r12d, %ebp
	movl	$0, 64(%rsp)
	movl	52(%rsp), %r14d
	movl	%esi, %r12d
	movl	$0, 60(%rsp)
	movl	48(%rsp), %r13d
	movl	44(%rsp), %r15d
	movl	40(%rsp), %ecx
	movl	%r8d, %r10d
	movl	56(%rsp), %esi
	jmp	.Lnoise_BB86_147
.Lnoise_BB86_120:
	movq	512(%rsp), %r9
	testq	%r9, %r9
	je	.Lnoise_BB86_131
	movzbl	496(%rsp), %r11d
	incb	%r11b
	movl	%r11d, 352(%rsp)
	cmpq	$1, %r9
	je	.Lnoise_BB86_132
	movzbl	497(%rsp), %r11d
	incb	%r11b
	cmpq	$3, %r9
	jb	.Lnoise_BB86_133
	movl	%r12d, %ebp
	movl	%esi, %r12d
	movl	%r8d, %esi
	movl	%r11d, %r8d
	movzbl	498(%rsp), %r11d
	incb	%r11b
	movl	%r11d, 216(%rsp)
	cmpq	$3, %r9
	jne	.Lnoise_BB86_163
	movl	$0, 324(%rsp)
	jmp	.Lnoise_BB86_126
.Lnoise_BB86_131:
	movl	$0, 352(%rsp)
.Lnoise_BB86_132:
	xorl	%r11d, %r11d
.Lnoise_BB86_133:
	xorl	%r9d, %r9d
	movl	$0, 324(%rsp)
	movl	$0, 316(%rsp)
	movl	$0, 296(%rsp)
	movl	$0, 280(%rsp)
	movl	$0, 248(%rsp)
	movl	$0, 36(%rsp)
	movl	$0, 184(%rsp)
.Lnoise_BB86_134:
	movl	%r9d, 216(%rsp)
	cmpq	$3, %rcx
	movl	%r11d, 328(%rsp)
	jb	.Lnoise_BB86_139
	movq	536(%rsp), %r9
	testq	%r9, %r9
	je	.Lnoise_BB86_140
	movl	%r12d, %ebp
	movl	%esi, %r12d
	movl	%r8d, %esi
	movzbl	520(%rsp), %r11d
	incb	%r11b
	movl	%r11d, 340(%rsp)
	cmpq	$1, %r9
	jne	.Lnoise_BB86_155
	movl	$0, 336(%rsp)
	jmp	.Lnoise_BB86_138
.Lnoise_BB86_139:
	movl	$0, 68(%rsp)
	movl	$0, 80(%rsp)
	movl	$0, 100(%rsp)
	movl	$0, 116(%rsp)
	movl	$0, 144(%rsp)
	movl	$0, 172(%rsp)
	movl	$0, 200(%rsp)
	movl	$0, 232(%rsp)
	movl	$0, 84(%rsp)
	movl	$0, 284(%rsp)
	movl	$0, 104(%rsp)
	movl	$0, 120(%rsp)
	movl	$0, 148(%rsp)
	movl	$0, 176(%rsp)
	movl	$0, 204(%rsp)
	movl	$0, 236(%rsp)
	movl	$0, 268(%rsp)
	movl	$0, 132(%rsp)
	movl	$0, 308(%rsp)
	movl	$0, 320(%rsp)
	movl	$0, 156(%rsp)
	movl	$0, 180(%rsp)
	movl	$0, 212(%rsp)
	movl	$0, 244(%rsp)
	movl	$0, 276(%rsp)
	movl	$0, 292(%rsp)
	movl	$0, 312(%rsp)
	movl	$0, 188(%rsp)
	movl	$0, 336(%rsp)
	movl	$0, 340(%rsp)
	jmp	.Lnoise_BB86_142
.Lnoise_BB86_140:
	movl	$0, 340(%rsp)
	movl	$0, 336(%rsp)
	xorl	%r9d, %r9d
	movl	$0, 312(%rsp)
	movl	$0, 292(%rsp)
	movl	$0, 276(%rsp)
	movl	$0, 244(%rsp)
	movl	$0, 212(%rsp)
	movl	$0, 180(%rsp)
	movl	$0, 156(%rsp)
	movl	%r9d, 188(%rsp)
	cmpq	$3, %rcx
	je	.Lnoise_BB86_141
.Lnoise_BB86_189:
	movq	560(%rsp), %r9
	testq	%r9, %r9
	je	.Lnoise_BB86_197
	movzbl	544(%rsp), %r11d
	incb	%r11b
	movl	%r11d, 332(%rsp)
	cmpq	$1, %r9
	je	.Lnoise_BB86_198
	movzbl	545(%rsp), %ebp
	incb	%bpl
	cmpq	$3, %r9
	jb	.Lnoise_BB86_199
	movzbl	546(%rsp), %r11d
	incb	%r11b
	movl	%r11d, 160(%rsp)
	cmpq	$3, %r9
	jne	.Lnoise_BB86_213
	movl	$0, 288(%rsp)
	jmp	.Lnoise_BB86_195
.Lnoise_BB86_155:
	movzbl	521(%rsp), %r11d
	incb	%r11b
	movl	%r11d, 336(%rsp)
	cmpq	$3, %r9
	jb	.Lnoise_BB86_138
	movzbl	522(%rsp), %r11d
	incb	%r11b
	movl	%r11d, 188(%rsp)
	cmpq	$3, %r9
	jne	.Lnoise_BB86_170
	movl	$0, 312(%rsp)
	jmp	.Lnoise_BB86_158
.Lnoise_BB86_138:
	xorl	%r9d, %r9d
	movl	$0, 312(%rsp)
	movl	$0, 292(%rsp)
	movl	$0, 276(%rsp)
	movl	$0, 244(%rsp)
	movl	$0, 212(%rsp)
	movl	$0, 180(%rsp)
	movl	$0, 156(%rsp)
	jmp	.Lnoise_BB86_161
.Lnoise_BB86_197:
	movl	$0, 332(%rsp)
.Lnoise_BB86_198:
	xorl	%ebp, %ebp
.Lnoise_BB86_199:
	xorl	%r9d, %r9d
	movl	$0, 288(%rsp)
	movl	$0, 272(%rsp)
	movl	$0, 240(%rsp)
	movl	$0, 208(%rsp)
	xorl	%r11d, %r11d
	movl	$0, 152(%rsp)
	movl	$0, 124(%rsp)
.Lnoise_BB86_200:
	movl	%r9d, 160(%rsp)
	cmpq	$5, %rcx
	movl	%ebp, 252(%rsp)
	movl	%r11d, 300(%rsp)
	jb	.Lnoise_BB86_204
	movq	584(%rsp), %r9
	testq	%r9, %r9
	je	.Lnoise_BB86_209
	movzbl	568(%rsp), %r11d
	incb	%r11b
	movl	%r11d, 320(%rsp)
	cmpq	$1, %r9
	je	.Lnoise_BB86_210
	movzbl	569(%rsp), %r11d
	incb	%r11b
	movl	%r11d, 308(%rsp)
	cmpq	$3, %r9
	jb	.Lnoise_BB86_211
	movzbl	570(%rsp), %r11d
	incb	%r11b
	movl	%r11d, 132(%rsp)
	cmpq	$3, %r9
	jne	.Lnoise_BB86_218
	movl	$0, 268(%rsp)
	jmp	.Lnoise_BB86_208
.Lnoise_BB86_204:
	movl	$0, 68(%rsp)
	movl	$0, 80(%rsp)
	movl	$0, 100(%rsp)
	movl	$0, 116(%rsp)
	movl	$0, 144(%rsp)
	movl	$0, 172(%rsp)
	movl	$0, 200(%rsp)
	movl	$0, 232(%rsp)
	movl	$0, 84(%rsp)
	movl	$0, 284(%rsp)
	movl	$0, 104(%rsp)
	movl	$0, 120(%rsp)
	movl	$0, 148(%rsp)
	movl	$0, 176(%rsp)
	movl	$0, 204(%rsp)
	movl	$0, 236(%rsp)
	movl	$0, 268(%rsp)
	movl	$0, 132(%rsp)
	movl	$0, 308(%rsp)
	movl	$0, 320(%rsp)
	jmp	.Lnoise_BB86_143
.Lnoise_BB86_163:
	movzbl	499(%rsp), %r11d
	incb	%r11b
	movl	%r11d, 324(%rsp)
	cmpq	$5, %r9
	jb	.Lnoise_BB86_126
	movzbl	500(%rsp), %r11d
	incb	%r11b
	movl	%r11d, 316(%rsp)
	cmpq	$5, %r9
	je	.Lnoise_BB86_127
	movzbl	501(%rsp), %r11d
	incb	%r11b
	movl	%r11d, 296(%rsp)
	cmpq	$7, %r9
	jb	.Lnoise_BB86_128
	movzbl	502(%rsp), %r11d
	incb	%r11b
	movl	%r11d, 280(%rsp)
	cmpq	$7, %r9
	je	.Lnoise_BB86_129
	movl	%r8d, 328(%rsp)
	movl	%esi, 32(%rsp)
	movzbl	503(%rsp), %r11d
	incb	%r11b
	cmpq	$9, %r9
	movl	%r11d, 248(%rsp)
	jb	.Lnoise_BB86_180
	movl	%r12d, %ecx
	movl	%ebp, %r12d
	movzbl	504(%rsp), %r8d
	incb	%r8b
	movl	%r8d, 36(%rsp)
	cmpq	$9, %r9
	jne	.Lnoise_BB86_184
	movl	$0, 184(%rsp)
	jmp	.Lnoise_BB86_185
.Lnoise_BB86_126:
	movl	$0, 316(%rsp)
.Lnoise_BB86_127:
	movl	$0, 296(%rsp)
.Lnoise_BB86_128:
	movl	$0, 280(%rsp)
.Lnoise_BB86_129:
	movl	$0, 248(%rsp)
	movl	$0, 36(%rsp)
	movl	$0, 184(%rsp)
	movl	216(%rsp), %r9d
	movl	%r8d, %r11d
.Lnoise_BB86_130:
	movl	%esi, %r8d
	movl	%r12d, %esi
	movl	%ebp, %r12d
	jmp	.Lnoise_BB86_134
.Lnoise_BB86_209:
	movl	$0, 320(%rsp)
.Lnoise_BB86_210:
	movl	$0, 308(%rsp)
.Lnoise_BB86_211:
	xorl	%r9d, %r9d
	movl	$0, 268(%rsp)
	movl	$0, 236(%rsp)
	movl	$0, 204(%rsp)
	movl	$0, 176(%rsp)
	movl	$0, 148(%rsp)
	movl	$0, 120(%rsp)
	movl	$0, 104(%rsp)
	movl	%r9d, 132(%rsp)
	cmpq	$5, %rcx
	jne	.Lnoise_BB86_227
.Lnoise_BB86_212:
	movl	$0, 68(%rsp)
	movl	$0, 80(%rsp)
	movl	$0, 100(%rsp)
	movl	$0, 116(%rsp)
	movl	$0, 144(%rsp)
	movl	$0, 172(%rsp)
	movl	$0, 200(%rsp)
	movl	$0, 232(%rsp)
	movl	$0, 84(%rsp)
	movl	$0, 284(%rsp)
	jmp	.Lnoise_BB86_143
.Lnoise_BB86_170:
	movzbl	523(%rsp), %r11d
	incb	%r11b
	movl	%r11d, 312(%rsp)
	cmpq	$5, %r9
	jb	.Lnoise_BB86_158
	movzbl	524(%rsp), %r11d
	incb	%r11b
	movl	%r11d, 292(%rsp)
	cmpq	$5, %r9
	je	.Lnoise_BB86_159
	movzbl	525(%rsp), %r11d
	incb	%r11b
	movl	%r11d, 276(%rsp)
	cmpq	$7, %r9
	jb	.Lnoise_BB86_160
	movl	%esi, 32(%rsp)
	movzbl	526(%rsp), %r11d
	incb	%r11b
	movl	%r11d, 244(%rsp)
	cmpq	$7, %r9
	jne	.Lnoise_BB86_181
	movl	$0, 212(%rsp)
	movl	$0, 180(%rsp)
	movl	$0, 156(%rsp)
	movl	32(%rsp), %r8d
	movl	188(%rsp), %r9d
	jmp	.Lnoise_BB86_162
.Lnoise_BB86_158:
	movl	$0, 292(%rsp)
.Lnoise_BB86_159:
	movl	$0, 276(%rsp)
.Lnoise_BB86_160:
	movl	$0, 244(%rsp)
	movl	$0, 212(%rsp)
	movl	$0, 180(%rsp)
	movl	$0, 156(%rsp)
	movl	188(%rsp), %r9d
.Lnoise_BB86_161:
	movl	%esi, %r8d
.Lnoise_BB86_162:
	movl	%r12d, %esi
	movl	%ebp, %r12d
	movl	%r9d, 188(%rsp)
	cmpq	$3, %rcx
	jne	.Lnoise_BB86_189
.Lnoise_BB86_141:
	movl	$0, 68(%rsp)
	movl	$0, 80(%rsp)
	movl	$0, 100(%rsp)
	movl	$0, 116(%rsp)
	movl	$0, 144(%rsp)
	movl	$0, 172(%rsp)
	movl	$0, 200(%rsp)
	movl	$0, 232(%rsp)
	movl	$0, 84(%rsp)
	movl	$0, 284(%rsp)
	movl	$0, 104(%rsp)
	movl	$0, 120(%rsp)
	movl	$0, 148(%rsp)
	movl	$0, 176(%rsp)
	movl	$0, 204(%rsp)
	movl	$0, 236(%rsp)
	movl	$0, 268(%rsp)
	movl	$0, 132(%rsp)
	movl	$0, 308(%rsp)
	movl	$0, 320(%rsp)
.Lnoise_BB86_142:
	movl	$0, 332(%rsp)
	movl	$0, 252(%rsp)
	movl	$0, 160(%rsp)
	movl	$0, 288(%rsp)
	movl	$0, 272(%rsp)
	movl	$0, 240(%rsp)
	movl	$0, 208(%rsp)
	movl	$0, 300(%rsp)
	movl	$0, 152(%rsp)
	movl	$0, 124(%rsp)
.Lnoise_BB86_143:
	movl	$0, 304(%rsp)
	movl	$0, 88(%rsp)
	movl	$0, 128(%rsp)
	movl	$0, 228(%rsp)
	movl	$0, 196(%rsp)
	movl	$0, 168(%rsp)
	movl	$0, 140(%rsp)
	movl	$0, 112(%rsp)
	movl	$0, 96(%rsp)
	movl	$0, 76(%rsp)
.Lnoise_BB86_144:
	movl	$0, 264(%rsp)
	movl	$0, 224(%rsp)
	movl	$0, 192(%rsp)
	movl	$0, 164(%rsp)
	movl	$0, 136(%rsp)
	movl	$0, 108(%rsp)
	movl	$0, 92(%rsp)
	movl	$0, 72(%rsp)
	movl	%r12d, %ebp
	movl	$0, 64(%rsp)
	movl	52(%rsp), %r14d
	movl	%esi, %r12d
	movl	$0, 60(%rsp)
.Lnoise_BB86_145:
	movl	48(%rsp), %r13d
	movl	44(%rsp), %r15d
	movl	40(%rsp), %ecx
	movl	%r8d, %r10d
	movl	56(%rsp), %esi
.Lnoise_BB86_146:
	movl	36(%rsp), %r11d
.Lnoise_BB86_147:
	movl	220(%rsp), %r8d
.Lnoise_BB86_111:
	movzbl	%r8b, %r8d
	movl	356(%rsp), %r9d
	orl	%r8d, %r9d
	movzbl	672(%rsp), %r8d
	orl	%r8d, %ebx
	shll	$16, %r9d
	orl	%r9d, %ebx
	movq	384(%rsp), %r8
	orq	392(%rsp), %r8
	orq	704(%rsp), %r8
	movq	696(%rsp), %r9
	orq	376(%rsp), %r9
	orq	%r8, %r9
	movq	368(%rsp), %r8
	orq	712(%rsp), %r8
	orq	680(%rsp), %r8
	orq	%r9, %r8
	movq	344(%rsp), %r9
	cmpq	$1, %r9
	movb	%r9b, (%rdi)
	sete	1(%rdi)
	movb	%dl, 2(%rdi)
	movq	%r8, 3(%rdi)
	movl	%ebx, 11(%rdi)
	movl	360(%rsp), %edx
	movb	%dl, 15(%rdi)
	movl	364(%rsp), %edx
	movb	%dl, 16(%rdi)
	movb	%bpl, 17(%rdi)
	movb	%r14b, 18(%rdi)
	movb	%r12b, 19(%rdi)
	movb	%r13b, 20(%rdi)
	movb	%r15b, 21(%rdi)
	movb	%cl, 22(%rdi)
	movb	%sil, 23(%rdi)
	movb	%r10b, 24(%rdi)
	movl	352(%rsp), %ecx
	movb	%cl, 25(%rdi)
	movl	328(%rsp), %ecx
	movb	%cl, 26(%rdi)
	movl	216(%rsp), %ecx
	movb	%cl, 27(%rdi)
	movl	324(%rsp), %ecx
	movb	%cl, 28(%rdi)
	movl	316(%rsp), %ecx
	movb	%cl, 29(%rdi)
	movl	296(%rsp), %ecx
	movb	%cl, 30(%rdi)
	movl	280(%rsp), %ecx
	movb	%cl, 31(%rdi)
	movl	248(%rsp), %ecx
	movb	%cl, 32(%rdi)
	movb	%r11b, 33(%rdi)
	movl	184(%rsp), %ecx
	movb	%cl, 34(%rdi)
	movl	340(%rsp), %ecx
	movb	%cl, 35(%rdi)
	movl	336(%rsp), %ecx
	movb	%cl, 36(%rdi)
	movl	188(%rsp), %ecx
	movb	%cl, 37(%rdi)
	movl	312(%rsp), %ecx
	movb	%cl, 38(%rdi)
	movl	292(%rsp), %ecx
	movb	%cl, 39(%rdi)
	movl	276(%rsp), %ecx
	movb	%cl, 40(%rdi)
	movl	244(%rsp), %ecx
	movb	%cl, 41(%rdi)
	movl	212(%rsp), %ecx
	movb	%cl, 42(%rdi)
	movl	180(%rsp), %ecx
	movb	%cl, 43(%rdi)
	movl	156(%rsp), %ecx
	movb	%cl, 44(%rdi)
	movl	332(%rsp), %ecx
	movb	%cl, 45(%rdi)
	movl	252(%rsp), %ecx
	movb	%cl, 46(%rdi)
	movl	160(%rsp), %ecx
	movb	%cl, 47(%rdi)
	movl	288(%rsp), %ecx
	movb	%cl, 48(%rdi)
	movl	272(%rsp), %ecx
	movb	%cl, 49(%rdi)
	movl	240(%rsp), %ecx
	movb	%cl, 50(%rdi)
	movl	208(%rsp), %ecx
	movb	%cl, 51(%rdi)
	movl	300(%rsp), %ecx
	movb	%cl, 52(%rdi)
	movl	152(%rsp), %ecx
	movb	%cl, 53(%rdi)
	movl	124(%rsp), %ecx
	movb	%cl, 54(%rdi)
	movl	320(%rsp), %ecx
	movb	%cl, 55(%rdi)
	movl	308(%rsp), %ecx
	movb	%cl, 56(%rdi)
	movl	132(%rsp), %ecx
	movb	%cl, 57(%rdi)
	movl	268(%rsp), %ecx
	movb	%cl, 58(%rdi)
	movl	236(%rsp), %ecx
	movb	%cl, 59(%rdi)
	movl	204(%rsp), %ecx
	movb	%cl, 60(%rdi)
	movl	176(%rsp), %ecx
	movb	%cl, 61(%rdi)
	movl	148(%rsp), %ecx
	movb	%cl, 62(%rdi)
	movl	120(%rsp), %ecx
	movb	%cl, 63(%rdi)
	movl	104(%rsp), %ecx
	movb	%cl, 64(%rdi)
	movl	304(%rsp), %ecx
	movb	%cl, 65(%rdi)
	movl	88(%rsp), %ecx
	movb	%cl, 66(%rdi)
	movl	128(%rsp), %ecx
	movb	%cl, 67(%rdi)
	movl	228(%rsp), %ecx
	movb	%cl, 68(%rdi)
	movl	196(%rsp), %ecx
	movb	%cl, 69(%rdi)
	movl	168(%rsp), %ecx
	movb	%cl, 70(%rdi)
	movl	140(%rsp), %ecx
	movb	%cl, 71(%rdi)
	movl	112(%rsp), %ecx
	movb	%cl, 72(%rdi)
	movl	96(%rsp), %ecx
	movb	%cl, 73(%rdi)
	movl	76(%rsp), %ecx
	movb	%cl, 74(%rdi)
	movl	284(%rsp), %ecx
	movb	%cl, 75(%rdi)
	movl	84(%rsp), %ecx
	movb	%cl, 76(%rdi)
	movl	232(%rsp), %ecx
	movb	%cl, 77(%rdi)
	movl	200(%rsp), %ecx
	movb	%cl, 78(%rdi)
	movl	172(%rsp), %ecx
	movb	%cl, 79(%rdi)
	movl	144(%rsp), %ecx
	movb	%cl, 80(%rdi)
	movl	116(%rsp), %ecx
	movb	%cl, 81(%rdi)
	movl	100(%rsp), %ecx
	movb	%cl, 82(%rdi)
	movl	80(%rsp), %ecx
	movb	%cl, 83(%rdi)
	movl	68(%rsp), %ecx
	movb	%cl, 84(%rdi)
	movl	264(%rsp), %ecx
	movb	%cl, 85(%rdi)
	movl	224(%rsp), %ecx
	movb	%cl, 86(%rdi)
	movl	192(%rsp), %ecx
	movb	%cl, 87(%rdi)
	movl	164(%rsp), %ecx
	movb	%cl, 88(%rdi)
	movl	136(%rsp), %ecx
	movb	%cl, 89(%rdi)
	movl	108(%rsp), %ecx
	movb	%cl, 90(%rdi)
	movl	92(%rsp), %ecx
	movb	%cl, 91(%rdi)
	movl	72(%rsp), %ecx
	movb	%cl, 92(%rdi)
	movl	64(%rsp), %ecx
	movb	%cl, 93(%rdi)
	movl	60(%rsp), %ecx
	movb	%cl, 94(%rdi)
	movq	688(%rsp), %rcx
	movb	%r9b, 11(%rcx)
	jmp	.Lnoise_BB86_8
.Lnoise_BB86_175:
	movl	$0, 44(%rsp)
.Lnoise_BB86_176:
	movl	$0, 40(%rsp)
.Lnoise_BB86_177:
	movl	$0, 56(%rsp)
.Lnoise_BB86_178:
	xorl	%r8d, %r8d
.Lnoise_BB86_179:
	movl	48(%rsp), %r9d
	jmp	.Lnoise_BB86_118
.Lnoise_BB86_213:
	movzbl	547(%rsp), %r11d
	incb	%r11b
	movl	%r11d, 288(%rsp)
	cmpq	$5, %r9
	jb	.Lnoise_BB86_195
	movzbl	548(%rsp), %r11d
	incb	%r11b
	movl	%r11d, 272(%rsp)
	cmpq	$5, %r9
	je	.Lnoise_BB86_196
	movl	%ebp, 252(%rsp)
	movl	%r8d, 32(%rsp)
	movzbl	549(%rsp), %r11d
	incb	%r11b
	cmpq	$7, %r9
	movl	%r11d, 240(%rsp)
	jb	.Lnoise_BB86_238
	movzbl	550(%rsp), %r8d
	incb	%r8b
	movl	%r8d, 208(%rsp)
	cmpq	$7, %r9
	jne	.Lnoise_BB86_245
	movl	$0, 152(%rsp)
	movl	$0, 124(%rsp)
	movq	344(%rsp), %rcx
	jmp	.Lnoise_BB86_239
.Lnoise_BB86_195:
	movl	$0, 272(%rsp)
.Lnoise_BB86_196:
	movl	$0, 240(%rsp)
	movl	$0, 208(%rsp)
	xorl	%r11d, %r11d
	movl	$0, 152(%rsp)
	movl	$0, 124(%rsp)
	movl	160(%rsp), %r9d
	jmp	.Lnoise_BB86_200
.Lnoise_BB86_218:
	movzbl	571(%rsp), %r11d
	incb	%r11b
	movl	%r11d, 268(%rsp)
	cmpq	$5, %r9
	jb	.Lnoise_BB86_208
	movl	%r8d, 32(%rsp)
	movzbl	572(%rsp), %r8d
	incb	%r8b
	movl	%r8d, 236(%rsp)
	cmpq	$5, %r9
	jne	.Lnoise_BB86_240
	movl	$0, 204(%rsp)
	jmp	.Lnoise_BB86_221
.Lnoise_BB86_208:
	movl	$0, 236(%rsp)
	movl	$0, 204(%rsp)
	movl	$0, 176(%rsp)
	movl	$0, 148(%rsp)
	movl	$0, 120(%rsp)
	movl	$0, 104(%rsp)
	jmp	.Lnoise_BB86_226
.Lnoise_BB86_180:
	movl	$0, 36(%rsp)
	movl	$0, 184(%rsp)
	movl	32(%rsp), %esi
	movl	328(%rsp), %r11d
	movl	216(%rsp), %r9d
	jmp	.Lnoise_BB86_130
.Lnoise_BB86_181:
	movl	%r12d, %esi
	movzbl	527(%rsp), %r11d
	incb	%r11b
	movl	%r11d, 212(%rsp)
	cmpq	$9, %r9
	jb	.Lnoise_BB86_186
	movzbl	528(%rsp), %r11d
	incb	%r11b
	movl	%r11d, 180(%rsp)
	cmpq	$9, %r9
	jne	.Lnoise_BB86_187
	movl	$0, 156(%rsp)
	jmp	.Lnoise_BB86_188
.Lnoise_BB86_238:
	movl	$0, 208(%rsp)
	movl	$0, 152(%rsp)
	movl	$0, 124(%rsp)
.Lnoise_BB86_239:
	movl	32(%rsp), %r8d
	movl	252(%rsp), %ebp
	movl	160(%rsp), %r9d
	xorl	%r11d, %r11d
	jmp	.Lnoise_BB86_200
.Lnoise_BB86_240:
	movzbl	573(%rsp), %r8d
	incb	%r8b
	movl	%r8d, 204(%rsp)
	cmpq	$7, %r9
	jb	.Lnoise_BB86_221
	movzbl	574(%rsp), %r8d
	incb	%r8b
	movl	%r8d, 176(%rsp)
	cmpq	$7, %r9
	je	.Lnoise_BB86_222
	movzbl	575(%rsp), %r8d
	incb	%r8b
	movl	%r8d, 148(%rsp)
	cmpq	$9, %r9
	jb	.Lnoise_BB86_223
	movzbl	576(%rsp), %r8d
	incb	%r8b
	movl	%r8d, 120(%rsp)
	cmpq	$9, %r9
	je	.Lnoise_BB86_224
	movzbl	577(%rsp), %r8d
	incb	%r8b
	movl	%r8d, 104(%rsp)
	jmp	.Lnoise_BB86_225
.Lnoise_BB86_221:
	movl	$0, 176(%rsp)
.Lnoise_BB86_222:
	movl	$0, 148(%rsp)
.Lnoise_BB86_223:
	movl	$0, 120(%rsp)
.Lnoise_BB86_224:
	movl	$0, 104(%rsp)
.Lnoise_BB86_225:
	movl	32(%rsp), %r8d
.Lnoise_BB86_226:
	movl	132(%rsp), %r9d
	movl	%r9d, 132(%rsp)
	cmpq	$5, %rcx
	je	.Lnoise_BB86_212
.Lnoise_BB86_227:
	movq	608(%rsp), %r9
	testq	%r9, %r9
	je	.Lnoise_BB86_248
	movzbl	592(%rsp), %r11d
	incb	%r11b
	movl	%r11d, 304(%rsp)
	cmpq	$1, %r9
	je	.Lnoise_BB86_249
	movzbl	593(%rsp), %r11d
	incb	%r11b
	movl	%r11d, 88(%rsp)
	cmpq	$3, %r9
	jb	.Lnoise_BB86_250
	movzbl	594(%rsp), %r11d
	incb	%r11b
	cmpq	$3, %r9
	je	.Lnoise_BB86_251
	movl	%r11d, 128(%rsp)
	movzbl	595(%rsp), %r11d
	incb	%r11b
	movl	%r11d, 228(%rsp)
	cmpq	$5, %r9
	jb	.Lnoise_BB86_252
	movzbl	596(%rsp), %r11d
	incb	%r11b
	movl	%r11d, 196(%rsp)
	cmpq	$5, %r9
	je	.Lnoise_BB86_253
	movzbl	597(%rsp), %r11d
	incb	%r11b
	movl	%r11d, 168(%rsp)
	cmpq	$7, %r9
	jb	.Lnoise_BB86_254
	movzbl	598(%rsp), %r11d
	incb	%r11b
	movl	%r11d, 140(%rsp)
	cmpq	$7, %r9
	je	.Lnoise_BB86_255
	movzbl	599(%rsp), %r11d
	incb	%r11b
	movl	%r11d, 112(%rsp)
	cmpq	$9, %r9
	jb	.Lnoise_BB86_256
	movzbl	600(%rsp), %r11d
	incb	%r11b
	movl	%r11d, 96(%rsp)
	cmpq	$9, %r9
	je	.Lnoise_BB86_257
	movzbl	601(%rsp), %r9d
	incb	%r9b
	movl	%r9d, 76(%rsp)
	jmp	.Lnoise_BB86_258
.Lnoise_BB86_248:
	movl	$0, 304(%rsp)
.Lnoise_BB86_249:
	xorl	%r9d, %r9d
	xorl	%r11d, %r11d
	movl	$0, 228(%rsp)
	movl	$0, 196(%rsp)
	movl	$0, 168(%rsp)
	movl	$0, 140(%rsp)
	movl	$0, 112(%rsp)
	movl	$0, 96(%rsp)
	movl	$0, 76(%rsp)
	jmp	.Lnoise_BB86_259
.Lnoise_BB86_250:
	xorl	%r11d, %r11d
.Lnoise_BB86_251:
	movl	$0, 228(%rsp)
	movl	$0, 196(%rsp)
	movl	$0, 168(%rsp)
	movl	$0, 140(%rsp)
	movl	$0, 112(%rsp)
	movl	$0, 96(%rsp)
	movl	$0, 76(%rsp)
	movl	88(%rsp), %r9d
	jmp	.Lnoise_BB86_259
.Lnoise_BB86_252:
	movl	$0, 196(%rsp)
.Lnoise_BB86_253:
	movl	$0, 168(%rsp)
.Lnoise_BB86_254:
	movl	$0, 140(%rsp)
.Lnoise_BB86_255:
	movl	$0, 112(%rsp)
.Lnoise_BB86_256:
	movl	$0, 96(%rsp)
.Lnoise_BB86_257:
	movl	$0, 76(%rsp)
.Lnoise_BB86_258:
	movl	88(%rsp), %r9d
	movl	128(%rsp), %r11d
.Lnoise_BB86_259:
	movl	%r9d, 88(%rsp)
	cmpq	$7, %rcx
	movl	%r11d, 128(%rsp)
	jb	.Lnoise_BB86_263
	movq	632(%rsp), %r9
	testq	%r9, %r9
	je	.Lnoise_BB86_275
	movzbl	616(%rsp), %r11d
	incb	%r11b
	movl	%r11d, 284(%rsp)
	cmpq	$1, %r9
	je	.Lnoise_BB86_276
	movzbl	617(%rsp), %r11d
	incb	%r11b
	cmpq	$3, %r9
	jb	.Lnoise_BB86_277
	movl	%r11d, 84(%rsp)
	movzbl	618(%rsp), %r11d
	incb	%r11b
	movl	%r11d, 232(%rsp)
	cmpq	$3, %r9
	jne	.Lnoise_BB86_290
	movl	$0, 200(%rsp)
	jmp	.Lnoise_BB86_267
.Lnoise_BB86_263:
	movl	$0, 68(%rsp)
	movl	$0, 80(%rsp)
	movl	$0, 100(%rsp)
	movl	$0, 116(%rsp)
	movl	$0, 144(%rsp)
	movl	$0, 172(%rsp)
	movl	$0, 200(%rsp)
	movl	$0, 232(%rsp)
	movl	$0, 84(%rsp)
	movl	$0, 284(%rsp)
	jmp	.Lnoise_BB86_144
.Lnoise_BB86_275:
	movl	$0, 284(%rsp)
.Lnoise_BB86_276:
	xorl	%r11d, %r11d
.Lnoise_BB86_277:
	movl	$0, 232(%rsp)
	movl	$0, 200(%rsp)
	movl	$0, 172(%rsp)
	movl	$0, 144(%rsp)
	movl	$0, 116(%rsp)
	movl	$0, 100(%rsp)
	movl	$0, 80(%rsp)
	movl	$0, 68(%rsp)
	cmpq	$7, %rcx
	movl	%r11d, 84(%rsp)
	je	.Lnoise_BB86_274
.Lnoise_BB86_278:
	movq	656(%rsp), %rbp
	testq	%rbp, %rbp
	je	.Lnoise_BB86_274
	movl	%r8d, 32(%rsp)
	movl	%esi, 256(%rsp)
	movl	%r12d, 260(%rsp)
	movzbl	640(%rsp), %ecx
	incb	%cl
	movl	%ecx, 264(%rsp)
	cmpq	$1, %rbp
	jne	.Lnoise_BB86_281
	movl	$0, 224(%rsp)
	movl	$0, 192(%rsp)
	movl	$0, 164(%rsp)
	movl	$0, 136(%rsp)
	movl	$0, 108(%rsp)
	movl	$0, 92(%rsp)
	movl	$0, 72(%rsp)
	movl	$0, 64(%rsp)
	movl	$0, 60(%rsp)
	movl	260(%rsp), %ebp
	movl	52(%rsp), %r14d
	movl	256(%rsp), %r12d
	movl	48(%rsp), %r13d
	movl	44(%rsp), %r15d
	movl	40(%rsp), %ecx
	movl	56(%rsp), %esi
	jmp	.Lnoise_BB86_298
.Lnoise_BB86_281:
	movl	56(%rsp), %esi
	movzbl	641(%rsp), %ecx
	incb	%cl
	movl	%ecx, 224(%rsp)
	cmpq	$3, %rbp
	jb	.Lnoise_BB86_297
	movl	220(%rsp), %ecx
	movzbl	642(%rsp), %r11d
	incb	%r11b
	movl	%r11d, 192(%rsp)
	cmpq	$3, %rbp
	jne	.Lnoise_BB86_299
	movl	$0, 164(%rsp)
	jmp	.Lnoise_BB86_284
.Lnoise_BB86_290:
	movzbl	619(%rsp), %r11d
	incb	%r11b
	movl	%r11d, 200(%rsp)
	cmpq	$5, %r9
	jb	.Lnoise_BB86_267
	movzbl	620(%rsp), %r11d
	incb	%r11b
	movl	%r11d, 172(%rsp)
	cmpq	$5, %r9
	je	.Lnoise_BB86_268
	movzbl	621(%rsp), %r11d
	incb	%r11b
	movl	%r11d, 144(%rsp)
	cmpq	$7, %r9
	jb	.Lnoise_BB86_269
	movzbl	622(%rsp), %r11d
	incb	%r11b
	movl	%r11d, 116(%rsp)
	cmpq	$7, %r9
	je	.Lnoise_BB86_270
	movzbl	623(%rsp), %r11d
	incb	%r11b
	movl	%r11d, 100(%rsp)
	cmpq	$9, %r9
	jb	.Lnoise_BB86_271
	movzbl	624(%rsp), %r11d
	incb	%r11b
	movl	%r11d, 80(%rsp)
	cmpq	$9, %r9
	je	.Lnoise_BB86_272
	movzbl	625(%rsp), %r9d
	incb	%r9b
	movl	%r9d, 68(%rsp)
	jmp	.Lnoise_BB86_273
.Lnoise_BB86_267:
	movl	$0, 172(%rsp)
.Lnoise_BB86_268:
	movl	$0, 144(%rsp)
.Lnoise_BB86_269:
	movl	$0, 116(%rsp)
.Lnoise_BB86_270:
	movl	$0, 100(%rsp)
.Lnoise_BB86_271:
	movl	$0, 80(%rsp)
.Lnoise_BB86_272:
	movl	$0, 68(%rsp)
.Lnoise_BB86_273:
	movl	84(%rsp), %r11d
	cmpq	$7, %rcx
	movl	%r11d, 84(%rsp)
	jne	.Lnoise_BB86_278
.Lnoise_BB86_274:
	movl	$0, 264(%rsp)
	movl	$0, 224(%rsp)
	movl	$0, 192(%rsp)
	movl	$0, 164(%rsp)
	movl	$0, 136(%rsp)
	movl	$0, 108(%rsp)
	movl	$0, 92(%rsp)
	movl	$0, 72(%rsp)
	movl	%r12d, %ebp
	movl	$0, 64(%rsp)
	movl	%esi, %r12d
	movl	$0, 60(%rsp)
	movl	52(%rsp), %r14d
	jmp	.Lnoise_BB86_145
.Lnoise_BB86_297:
	movl	$0, 192(%rsp)
	movl	$0, 164(%rsp)
	movl	$0, 136(%rsp)
	movl	$0, 108(%rsp)
	movl	$0, 92(%rsp)
	movl	$0, 72(%rsp)
	movl	$0, 64(%rsp)
	movl	$0, 60(%rsp)
	movl	260(%rsp), %ebp
	movl	52(%rsp), %r14d
	movl	256(%rsp), %r12d
	movl	48(%rsp), %r13d
	movl	44(%rsp), %r15d
	movl	40(%rsp), %ecx
.Lnoise_BB86_298:
	movl	32(%rsp), %r10d
	jmp	.Lnoise_BB86_146
.Lnoise_BB86_184:
	movzbl	505(%rsp), %r8d
	incb	%r8b
	movl	%r8d, 184(%rsp)
.Lnoise_BB86_185:
	movl	%ecx, %ebp
	movq	344(%rsp), %rcx
	movl	32(%rsp), %r8d
	movl	328(%rsp), %r11d
	movl	216(%rsp), %r9d
	movl	%ebp, %esi
	jmp	.Lnoise_BB86_134
.Lnoise_BB86_245:
	movzbl	551(%rsp), %r8d
	incb	%r8b
	movl	%r8d, 300(%rsp)
	cmpq	$9, %r9
	jb	.Lnoise_BB86_307
	movzbl	552(%rsp), %r8d
	incb	%r8b
	movl	%r8d, 152(%rsp)
	cmpq	$9, %r9
	jne	.Lnoise_BB86_308
	movl	$0, 124(%rsp)
	jmp	.Lnoise_BB86_309
.Lnoise_BB86_186:
	movl	$0, 180(%rsp)
	movl	$0, 156(%rsp)
	jmp	.Lnoise_BB86_188
.Lnoise_BB86_299:
	movzbl	643(%rsp), %r11d
	incb	%r11b
	movl	%r11d, 164(%rsp)
	cmpq	$5, %rbp
	jb	.Lnoise_BB86_284
	movzbl	644(%rsp), %r11d
	incb	%r11b
	movl	%r11d, 136(%rsp)
	cmpq	$5, %rbp
	je	.Lnoise_BB86_285
	movzbl	645(%rsp), %r11d
	incb	%r11b
	movl	%r11d, 108(%rsp)
	cmpq	$7, %rbp
	jb	.Lnoise_BB86_286
	movzbl	646(%rsp), %r9d
	incb	%r9b
	movl	%r9d, 92(%rsp)
	cmpq	$7, %rbp
	je	.Lnoise_BB86_287
	movzbl	647(%rsp), %r9d
	incb	%r9b
	movl	%r9d, 72(%rsp)
	cmpq	$9, %rbp
	jb	.Lnoise_BB86_288
	movzbl	648(%rsp), %r9d
	incb	%r9b
	movl	%r9d, 64(%rsp)
	cmpq	$9, %rbp
	je	.Lnoise_BB86_289
	movzbl	649(%rsp), %r9d
	incb	%r9b
	movl	%r9d, 60(%rsp)
	jmp	.Lnoise_BB86_306
.Lnoise_BB86_284:
	movl	$0, 136(%rsp)
.Lnoise_BB86_285:
	movl	$0, 108(%rsp)
.Lnoise_BB86_286:
	movl	$0, 92(%rsp)
.Lnoise_BB86_287:
	movl	$0, 72(%rsp)
.Lnoise_BB86_288:
	movl	$0, 64(%rsp)
.Lnoise_BB86_289:
	movl	$0, 60(%rsp)
.Lnoise_BB86_306:
	movl	260(%rsp), %ebp
	movl	52(%rsp), %r14d
	movl	256(%rsp), %r12d
	movl	48(%rsp), %r13d
	movl	%ecx, %r9d
	movl	44(%rsp), %r15d
	movl	40(%rsp), %ecx
	movl	%r9d, %r8d
	movl	32(%rsp), %r10d
	movl	36(%rsp), %r11d
	jmp	.Lnoise_BB86_111
.Lnoise_BB86_187:
	movzbl	529(%rsp), %r9d
	incb	%r9b
	movl	%r9d, 156(%rsp)
.Lnoise_BB86_188:
	movl	%ebp, %r12d
	movq	344(%rsp), %rcx
	movl	32(%rsp), %r8d
	movl	188(%rsp), %r9d
	movl	%r9d, 188(%rsp)
	cmpq	$3, %rcx
	je	.Lnoise_BB86_141
	jmp	.Lnoise_BB86_189
.Lnoise_BB86_307:
	movl	$0, 152(%rsp)
	movl	$0, 124(%rsp)
	jmp	.Lnoise_BB86_309
.Lnoise_BB86_308:
	movzbl	553(%rsp), %r8d
	incb	%r8b
	movl	%r8d, 124(%rsp)
.Lnoise_BB86_309:
	movq	344(%rsp), %rcx
	movl	32(%rsp), %r8d
	movl	252(%rsp), %ebp
	movl	160(%rsp), %r9d
	movl	300(%rsp), %r11d
	jmp	.Lnoise_BB86_200
	.seh_endproc

	.def	noise_layout;
	.scl	2;
	.type	32;
	.endef
	.globl	noise_layout
	.p2align	4
noise_layout:
.seh_proc noise_layout
	pushq	%r15
	.seh_pushreg %r15
	pushq	%r14
	.seh_pushreg %r14
	pushq	%r12
	.seh_pushreg %r12
	pushq	%rsi
	.seh_pushreg %rsi
	pushq	%rdi
	.seh_pushreg %rdi
	pushq	%rbp
	.seh_pushreg %rbp
	pushq	%rbx
	.seh_pushreg %rbx
	subq	$1232, %rsp
	.seh_stackalloc 1232
	.seh_endprologue
	movq	%r9, %rsi
	movl	%r8d, %ebp
	movq	%rdx, %r8
	xorl	%edx, %edx
	testq	%rcx, %rcx
	sete	%dl
	shll	$12, %edx
	addq	%rcx, %rdx
	movw	$0, 72(%rsp)
	movb	$0, 74(%rsp)
	xorps	%xmm0, %xmm0
	movaps	%xmm0, 544(%rsp)
	movaps	%xmm0, 560(%rsp)
	movaps	%xmm0, 576(%rsp)
	movaps	%xmm0, 592(%rsp)
	movaps	%xmm0, 608(%rsp)
	movaps	%xmm0, 624(%rsp)
	movaps	%xmm0, 640(%rsp)
	movaps	%xmm0, 656(%rsp)
	movl	$0, 672(%rsp)
	leaq	952(%rsp), %rcx
	callq	"noise_c::patterns::pattern_of"
	cmpb	$0, 952(%rsp)
	je	.Lnoise_BB87_1
	movl	956(%rsp), %eax
.Lnoise_BB87_41:
	addq	$1232, %rsp
	popq	%rbx
	popq	%rbp
	popq	%rdi
	popq	%rsi
	popq	%r12
	popq	%r14
	popq	%r15
	retq
.Lnoise_BB87_1:
	leaq	960(%rsp), %r14
	leaq	680(%rsp), %rcx
	movl	$272, %r8d
	movq	%r14, %rdx
	callq	memcpy
	movl	$29, %eax
	testb	%bpl, %bpl
	je	.Lnoise_BB87_41
	movzbl	%bpl, %ebx
	cmpq	%rbx, 944(%rsp)
	jb	.Lnoise_BB87_41
	movq	%r14, %rcx
	movl	%ebp, %edx
	callq	"noise_names::valid::ValidPattern::overhead"
	cmpq	$65535, %rsi
	ja	.Lnoise_BB87_4
	movzwl	%ax, %eax
	addq	%rsi, %rax
	cmpq	$65536, %rax
	movl	$29, %eax
	jae	.Lnoise_BB87_41
	movq	1328(%rsp), %rdi
	movw	$0, 76(%rsp)
	movb	$0, 78(%rsp)
	movq	$0, 208(%rsp)
	movl	$0, 216(%rsp)
	movq	$0, 192(%rsp)
	movl	$0, 200(%rsp)
	movq	$0, 176(%rsp)
	movl	$0, 184(%rsp)
	movq	$0, 160(%rsp)
	movl	$0, 168(%rsp)
	movl	$0, 152(%rsp)
	movq	$0, 144(%rsp)
	movl	$0, 136(%rsp)
	movq	$0, 128(%rsp)
	movl	$0, 120(%rsp)
	movq	$0, 112(%rsp)
	movl	$0, 104(%rsp)
	movq	$0, 96(%rsp)
	movl	$0, 88(%rsp)
	movq	$0, 80(%rsp)
	xorps	%xmm0, %xmm0
	movaps	%xmm0, 512(%rsp)
	movaps	%xmm0, 496(%rsp)
	movaps	%xmm0, 480(%rsp)
	movaps	%xmm0, 464(%rsp)
	movaps	%xmm0, 448(%rsp)
	movaps	%xmm0, 432(%rsp)
	movaps	%xmm0, 416(%rsp)
	movaps	%xmm0, 400(%rsp)
	movl	$0, 528(%rsp)
	shll	$3, %ebx
	leaq	(%rbx,%rbx,2), %r12
	movq	744(%rsp,%r12), %r15
	movq	%r14, %rcx
	movl	%ebp, %edx
	callq	"noise_names::valid::ValidPattern::overhead"
	movl	%eax, %ebx
	movl	$0, 64(%rsp)
	movq	$0, 56(%rsp)
	testq	%r15, %r15
	je	.Lnoise_BB87_10
	movzbl	728(%rsp,%r12), %eax
	movq	$0, 224(%rsp)
	movl	$0, 232(%rsp)
	leal	1(%rax), %ecx
	xorl	%edx, %edx
	cmpb	$2, %al
	setb	%dl
	shll	$5, %edx
	cmpb	$1, %al
	sete	40(%rsp)
	movb	%cl, 32(%rsp)
	movl	%edx, 48(%rsp)
	leaq	224(%rsp), %rcx
	movq	%r14, %rdx
	movl	%ebp, %r8d
	xorl	%r9d, %r9d
	callq	"noise_c::message_layout::piece"
	movl	$0, 64(%rsp)
	movq	$0, 56(%rsp)
	cmpq	$1, %r15
	jne	.Lnoise_BB87_12
	movl	%esi, 48(%rsp)
	movb	$1, 40(%rsp)
	movb	$8, 32(%rsp)
	leaq	56(%rsp), %rcx
	movq	%r14, %rdx
	movl	%ebp, %r8d
	movb	$1, %r9b
	callq	"noise_c::message_layout::piece"
	jmp	.Lnoise_BB87_11
.Lnoise_BB87_4:
	movl	$29, %eax
	jmp	.Lnoise_BB87_41
.Lnoise_BB87_10:
	movl	%esi, 48(%rsp)
	movb	$1, 40(%rsp)
	movb	$8, 32(%rsp)
	leaq	56(%rsp), %rcx
	movq	%r14, %rdx
	movl	%ebp, %r8d
	xorl	%r9d, %r9d
	callq	"noise_c::message_layout::piece"
	movl	64(%rsp), %eax
	movl	%eax, 232(%rsp)
	movq	56(%rsp), %rax
	movq	%rax, 224(%rsp)
	movl	$0, 64(%rsp)
	movq	$0, 56(%rsp)
.Lnoise_BB87_11:
	movl	64(%rsp), %eax
	movl	%eax, 216(%rsp)
	movq	56(%rsp), %rax
	movq	%rax, 208(%rsp)
	movl	$0, 64(%rsp)
	movq	$0, 56(%rsp)
.Lnoise_BB87_14:
	movl	64(%rsp), %eax
	movl	%eax, 200(%rsp)
	movq	56(%rsp), %rax
	movq	%rax, 192(%rsp)
	movl	$0, 64(%rsp)
	movq	$0, 56(%rsp)
.Lnoise_BB87_19:
	movl	64(%rsp), %eax
	movl	%eax, 184(%rsp)
	movq	56(%rsp), %rax
	movq	%rax, 176(%rsp)
	movl	$0, 64(%rsp)
	movq	$0, 56(%rsp)
.Lnoise_BB87_20:
	movl	64(%rsp), %eax
	movl	%eax, 168(%rsp)
	movq	56(%rsp), %rax
	movq	%rax, 160(%rsp)
	movl	$0, 64(%rsp)
	movq	$0, 56(%rsp)
.Lnoise_BB87_25:
	movl	64(%rsp), %eax
	movl	%eax, 152(%rsp)
	movq	56(%rsp), %rax
	movq	%rax, 144(%rsp)
	movl	$0, 64(%rsp)
	movq	$0, 56(%rsp)
.Lnoise_BB87_26:
	movl	64(%rsp), %eax
	movl	%eax, 136(%rsp)
	movq	56(%rsp), %rax
	movq	%rax, 128(%rsp)
	movl	$0, 64(%rsp)
	movq	$0, 56(%rsp)
.Lnoise_BB87_31:
	movl	64(%rsp), %eax
	movl	%eax, 120(%rsp)
	movq	56(%rsp), %rax
	movq	%rax, 112(%rsp)
	movl	$0, 64(%rsp)
	movq	$0, 56(%rsp)
.Lnoise_BB87_32:
	movl	64(%rsp), %eax
	movl	%eax, 104(%rsp)
	movq	56(%rsp), %rax
	movq	%rax, 96(%rsp)
	movl	$0, 64(%rsp)
	movq	$0, 56(%rsp)
.Lnoise_BB87_37:
	movl	64(%rsp), %eax
	movl	%eax, 88(%rsp)
	movq	56(%rsp), %rax
	movq	%rax, 80(%rsp)
	movl	$0, 248(%rsp)
	movq	$0, 240(%rsp)
.Lnoise_BB87_39:
	movl	248(%rsp), %eax
	movl	%eax, 64(%rsp)
	movq	240(%rsp), %rax
	movq	%rax, 56(%rsp)
.Lnoise_BB87_40:
	movzwl	%bx, %ebx
	addl	%esi, %ebx
	incb	%r15b
	movq	224(%rsp), %rax
	movq	%rax, 400(%rsp)
	movl	232(%rsp), %eax
	movl	%eax, 408(%rsp)
	movq	208(%rsp), %rax
	movq	%rax, 412(%rsp)
	movl	216(%rsp), %eax
	movl	%eax, 420(%rsp)
	movq	192(%rsp), %rax
	movq	%rax, 424(%rsp)
	movl	200(%rsp), %eax
	movl	%eax, 432(%rsp)
	movq	176(%rsp), %rax
	movq	%rax, 436(%rsp)
	movl	184(%rsp), %eax
	movl	%eax, 444(%rsp)
	movl	168(%rsp), %eax
	movl	%eax, 456(%rsp)
	movq	160(%rsp), %rax
	movq	%rax, 448(%rsp)
	movl	152(%rsp), %eax
	movl	%eax, 468(%rsp)
	movq	144(%rsp), %rax
	movq	%rax, 460(%rsp)
	movl	136(%rsp), %eax
	movl	%eax, 480(%rsp)
	movq	128(%rsp), %rax
	movq	%rax, 472(%rsp)
	movl	120(%rsp), %eax
	movl	%eax, 492(%rsp)
	movq	112(%rsp), %rax
	movq	%rax, 484(%rsp)
	movl	104(%rsp), %eax
	movl	%eax, 504(%rsp)
	movq	96(%rsp), %rax
	movq	%rax, 496(%rsp)
	movl	88(%rsp), %eax
	movl	%eax, 516(%rsp)
	movq	80(%rsp), %rax
	movq	%rax, 508(%rsp)
	movl	64(%rsp), %eax
	movl	%eax, 528(%rsp)
	movq	56(%rsp), %rax
	movq	%rax, 520(%rsp)
	movzbl	78(%rsp), %eax
	movb	%al, 74(%rsp)
	movzwl	76(%rsp), %eax
	movw	%ax, 72(%rsp)
	leaq	544(%rsp), %rsi
	leaq	400(%rsp), %rdx
	movl	$132, %r8d
	movq	%rsi, %rcx
	callq	memcpy
	movb	%r15b, (%rdi)
	movzwl	72(%rsp), %eax
	movw	%ax, 1(%rdi)
	movzbl	74(%rsp), %eax
	movb	%al, 3(%rdi)
	movl	%ebx, 4(%rdi)
	addq	$8, %rdi
	movl	$132, %r8d
	movq	%rdi, %rcx
	movq	%rsi, %rdx
	callq	memcpy
	xorl	%eax, %eax
	jmp	.Lnoise_BB87_41
.Lnoise_BB87_12:
	movzbl	729(%rsp,%r12), %eax
	movq	$0, 256(%rsp)
	movl	$0, 264(%rsp)
	leal	1(%rax), %ecx
	xorl	%edx, %edx
	cmpb	$2, %al
	setb	%dl
	shll	$5, %edx
	cmpb	$1, %al
	sete	40(%rsp)
	movb	%cl, 32(%rsp)
	movl	%edx, 48(%rsp)
	leaq	256(%rsp), %rcx
	movq	%r14, %rdx
	movl	%ebp, %r8d
	movb	$1, %r9b
	callq	"noise_c::message_layout::piece"
	movl	264(%rsp), %eax
	movl	%eax, 216(%rsp)
	movq	256(%rsp), %rax
	movq	%rax, 208(%rsp)
	movl	$0, 64(%rsp)
	movq	$0, 56(%rsp)
	cmpq	$2, %r15
	jbe	.Lnoise_BB87_13
	movzbl	730(%rsp,%r12), %eax
	movq	$0, 272(%rsp)
	movl	$0, 280(%rsp)
	leal	1(%rax), %ecx
	xorl	%edx, %edx
	cmpb	$2, %al
	setb	%dl
	shll	$5, %edx
	cmpb	$1, %al
	sete	40(%rsp)
	movb	%cl, 32(%rsp)
	movl	%edx, 48(%rsp)
	leaq	272(%rsp), %rcx
	movq	%r14, %rdx
	movl	%ebp, %r8d
	movb	$2, %r9b
	callq	"noise_c::message_layout::piece"
	movl	280(%rsp), %eax
	movl	%eax, 200(%rsp)
	movq	272(%rsp), %rax
	movq	%rax, 192(%rsp)
	movl	$0, 64(%rsp)
	movq	$0, 56(%rsp)
	cmpq	$3, %r15
	jne	.Lnoise_BB87_16
	movl	%esi, 48(%rsp)
	movb	$1, 40(%rsp)
	movb	$8, 32(%rsp)
	leaq	56(%rsp), %rcx
	movq	%r14, %rdx
	movl	%ebp, %r8d
	movb	$3, %r9b
	callq	"noise_c::message_layout::piece"
	jmp	.Lnoise_BB87_19
.Lnoise_BB87_13:
	movl	%esi, 48(%rsp)
	movb	$1, 40(%rsp)
	movb	$8, 32(%rsp)
	leaq	56(%rsp), %rcx
	movq	%r14, %rdx
	movl	%ebp, %r8d
	movb	$2, %r9b
	callq	"noise_c::message_layout::piece"
	jmp	.Lnoise_BB87_14
.Lnoise_BB87_16:
	movzbl	731(%rsp,%r12), %eax
	movq	$0, 288(%rsp)
	movl	$0, 296(%rsp)
	leal	1(%rax), %ecx
	xorl	%edx, %edx
	cmpb	$2, %al
	setb	%dl
	shll	$5, %edx
	cmpb	$1, %al
	sete	40(%rsp)
	movb	%cl, 32(%rsp)
	movl	%edx, 48(%rsp)
	leaq	288(%rsp), %rcx
	movq	%r14, %rdx
	movl	%ebp, %r8d
	movb	$3, %r9b
	callq	"noise_c::message_layout::piece"
	movl	296(%rsp), %eax
	movl	%eax, 184(%rsp)
	movq	288(%rsp), %rax
	movq	%rax, 176(%rsp)
	movl	$0, 64(%rsp)
	movq	$0, 56(%rsp)
	cmpq	$4, %r15
	jbe	.Lnoise_BB87_17
	movzbl	732(%rsp,%r12), %eax
	movq	$0, 304(%rsp)
	movl	$0, 312(%rsp)
	leal	1(%rax), %ecx
	xorl	%edx, %edx
	cmpb	$2, %al
	setb	%dl
	shll	$5, %edx
	cmpb	$1, %al
	sete	40(%rsp)
	movb	%cl, 32(%rsp)
	movl	%edx, 48(%rsp)
	leaq	304(%rsp), %rcx
	movq	%r14, %rdx
	movl	%ebp, %r8d
	movb	$4, %r9b
	callq	"noise_c::message_layout::piece"
	movl	312(%rsp), %eax
	movl	%eax, 168(%rsp)
	movq	304(%rsp), %rax
	movq	%rax, 160(%rsp)
	movl	$0, 64(%rsp)
	movq	$0, 56(%rsp)
	cmpq	$5, %r15
	jne	.Lnoise_BB87_22
	movl	%esi, 48(%rsp)
	movb	$1, 40(%rsp)
	movb	$8, 32(%rsp)
	leaq	56(%rsp), %rcx
	movq	%r14, %rdx
	movl	%ebp, %r8d
	movb	$5, %r9b
	callq	"noise_c::message_layout::piece"
	jmp	.Lnoise_BB87_25
.Lnoise_BB87_17:
	movl	%esi, 48(%rsp)
	movb	$1, 40(%rsp)
	movb	$8, 32(%rsp)
	leaq	56(%rsp), %rcx
	movq	%r14, %rdx
	movl	%ebp, %r8d
	movb	$4, %r9b
	callq	"noise_c::message_layout::piece"
	jmp	.Lnoise_BB87_20
.Lnoise_BB87_22:
	movzbl	733(%rsp,%r12), %eax
	movq	$0, 320(%rsp)
	movl	$0, 328(%rsp)
	leal	1(%rax), %ecx
	xorl	%edx, %edx
	cmpb	$2, %al
	setb	%dl
	shll	$5, %edx
	cmpb	$1, %al
	sete	40(%rsp)
	movb	%cl, 32(%rsp)
	movl	%edx, 48(%rsp)
	leaq	320(%rsp), %rcx
	movq	%r14, %rdx
	movl	%ebp, %r8d
	movb	$5, %r9b
	callq	"noise_c::message_layout::piece"
	movl	328(%rsp), %eax
	movl	%eax, 152(%rsp)
	movq	320(%rsp), %rax
	movq	%rax, 144(%rsp)
	movl	$0, 64(%rsp)
	movq	$0, 56(%rsp)
	cmpq	$6, %r15
	jbe	.Lnoise_BB87_23
	movzbl	734(%rsp,%r12), %eax
	movq	$0, 336(%rsp)
	movl	$0, 344(%rsp)
	leal	1(%rax), %ecx
	xorl	%edx, %edx
	cmpb	$2, %al
	setb	%dl
	shll	$5, %edx
	cmpb	$1, %al
	sete	40(%rsp)
	movb	%cl, 32(%rsp)
	movl	%edx, 48(%rsp)
	leaq	336(%rsp), %rcx
	movq	%r14, %rdx
	movl	%ebp, %r8d
	movb	$6, %r9b
	callq	"noise_c::message_layout::piece"
	movl	344(%rsp), %eax
	movl	%eax, 136(%rsp)
	movq	336(%rsp), %rax
	movq	%rax, 128(%rsp)
	movl	$0, 64(%rsp)
	movq	$0, 56(%rsp)
	cmpq	$7, %r15
	jne	.Lnoise_BB87_28
	movl	%esi, 48(%rsp)
	movb	$1, 40(%rsp)
	movb	$8, 32(%rsp)
	leaq	56(%rsp), %rcx
	movq	%r14, %rdx
	movl	%ebp, %r8d
	movb	$7, %r9b
	callq	"noise_c::message_layout::piece"
	jmp	.Lnoise_BB87_31
.Lnoise_BB87_23:
	movl	%esi, 48(%rsp)
	movb	$1, 40(%rsp)
	movb	$8, 32(%rsp)
	leaq	56(%rsp), %rcx
	movq	%r14, %rdx
	movl	%ebp, %r8d
	movb	$6, %r9b
	callq	"noise_c::message_layout::piece"
	jmp	.Lnoise_BB87_26
.Lnoise_BB87_28:
	movzbl	735(%rsp,%r12), %eax
	movq	$0, 352(%rsp)
	movl	$0, 360(%rsp)
	leal	1(%rax), %ecx
	xorl	%edx, %edx
	cmpb	$2, %al
	setb	%dl
	shll	$5, %edx
	cmpb	$1, %al
	sete	40(%rsp)
	movb	%cl, 32(%rsp)
	movl	%edx, 48(%rsp)
	leaq	352(%rsp), %rcx
	movq	%r14, %rdx
	movl	%ebp, %r8d
	movb	$7, %r9b
	callq	"noise_c::message_layout::piece"
	movl	360(%rsp), %eax
	movl	%eax, 120(%rsp)
	movq	352(%rsp), %rax
	movq	%rax, 112(%rsp)
	movl	$0, 64(%rsp)
	movq	$0, 56(%rsp)
	cmpq	$8, %r15
	jbe	.Lnoise_BB87_29
	movzbl	736(%rsp,%r12), %eax
	movq	$0, 368(%rsp)
	movl	$0, 376(%rsp)
	leal	1(%rax), %ecx
	xorl	%edx, %edx
	cmpb	$2, %al
	setb	%dl
	shll	$5, %edx
	cmpb	$1, %al
	sete	40(%rsp)
	movb	%cl, 32(%rsp)
	movl	%edx, 48(%rsp)
	leaq	368(%rsp), %rcx
	movq	%r14, %rdx
	movl	%ebp, %r8d
	movb	$8, %r9b
	callq	"noise_c::message_layout::piece"
	movl	376(%rsp), %eax
	movl	%eax, 104(%rsp)
	movq	368(%rsp), %rax
	movq	%rax, 96(%rsp)
	movl	$0, 64(%rsp)
	movq	$0, 56(%rsp)
	cmpq	$9, %r15
	jne	.Lnoise_BB87_34
	movl	%esi, 48(%rsp)
	movb	$1, 40(%rsp)
	movb	$8, 32(%rsp)
	leaq	56(%rsp), %rcx
	movq	%r14, %rdx
	movl	%ebp, %r8d
	movb	$9, %r9b
	callq	"noise_c::message_layout::piece"
	jmp	.Lnoise_BB87_37
.Lnoise_BB87_29:
	movl	%esi, 48(%rsp)
	movb	$1, 40(%rsp)
	movb	$8, 32(%rsp)
	leaq	56(%rsp), %rcx
	movq	%r14, %rdx
	movl	%ebp, %r8d
	movb	$8, %r9b
	callq	"noise_c::message_layout::piece"
	jmp	.Lnoise_BB87_32
.Lnoise_BB87_34:
	movzbl	737(%rsp,%r12), %eax
	movq	$0, 384(%rsp)
	movl	$0, 392(%rsp)
	leal	1(%rax), %ecx
	xorl	%edx, %edx
	cmpb	$2, %al
	setb	%dl
	shll	$5, %edx
	cmpb	$1, %al
	sete	40(%rsp)
	movb	%cl, 32(%rsp)
	movl	%edx, 48(%rsp)
	leaq	384(%rsp), %rcx
	movq	%r14, %rdx
	movl	%ebp, %r8d
	movb	$9, %r9b
	callq	"noise_c::message_layout::piece"
	movl	392(%rsp), %eax
	movl	%eax, 88(%rsp)
	movq	384(%rsp), %rax
	movq	%rax, 80(%rsp)
	movl	$0, 248(%rsp)
	movq	$0, 240(%rsp)
	cmpq	$10, %r15
	jne	.Lnoise_BB87_35
	movl	%esi, 48(%rsp)
	movb	$1, 40(%rsp)
	movb	$8, 32(%rsp)
	leaq	240(%rsp), %rcx
	movq	%r14, %rdx
	movl	%ebp, %r8d
	movb	$10, %r9b
	callq	"noise_c::message_layout::piece"
	jmp	.Lnoise_BB87_39
.Lnoise_BB87_35:
	movzbl	738(%rsp,%r12), %eax
	movq	$0, 56(%rsp)
	movl	$0, 64(%rsp)
	leal	1(%rax), %ecx
	xorl	%edx, %edx
	cmpb	$2, %al
	setb	%dl
	shll	$5, %edx
	cmpb	$1, %al
	sete	40(%rsp)
	movb	%cl, 32(%rsp)
	movl	%edx, 48(%rsp)
	leaq	56(%rsp), %rcx
	movq	%r14, %rdx
	movl	%ebp, %r8d
	movb	$10, %r9b
	callq	"noise_c::message_layout::piece"
	jmp	.Lnoise_BB87_40
	.seh_endproc

	.def	noise_finish;
	.scl	2;
	.type	32;
	.endef
	.globl	noise_finish
	.p2align	4
noise_finish:
.seh_proc noise_finish
	pushq	%rsi
	.seh_pushreg %rsi
	pushq	%rdi
	.seh_pushreg %rdi
	pushq	%rbx
	.seh_pushreg %rbx
	subq	$272, %rsp
	.seh_stackalloc 272
	.seh_endprologue
	movq	%r9, %rsi
	movq	%r8, %rbx
	movq	%rdx, %rdi
	movq	%rcx, %rdx
	leaq	96(%rsp), %rcx
	callq	"noise_c::split::finished"
	cmpb	$0, 96(%rsp)
	je	.Lnoise_BB88_1
	movl	100(%rsp), %eax
	jmp	.Lnoise_BB88_8
.Lnoise_BB88_1:
	movzbl	104(%rsp), %edx
	movzbl	176(%rsp), %r9d
	leaq	177(%rsp), %r8
	movq	216(%rsp), %r10
	movzbl	224(%rsp), %ecx
	movq	264(%rsp), %rax
	testb	%dl, %dl
	je	.Lnoise_BB88_2
	movups	48(%r8), %xmm0
	movups	64(%r8), %xmm1
	movaps	%xmm1, 80(%rsp)
	movaps	%xmm0, 64(%rsp)
	movups	(%r8), %xmm0
	movups	16(%r8), %xmm1
	movaps	%xmm0, 32(%rsp)
	movaps	%xmm1, 48(%rsp)
	movl	%ecx, %r11d
	movq	%rax, %r8
	movl	%r9d, %ecx
	movq	%r10, %rax
	cmpb	$1, %r11b
	je	.Lnoise_BB88_5
	jmp	.Lnoise_BB88_9
.Lnoise_BB88_2:
	movups	(%r8), %xmm0
	movups	16(%r8), %xmm1
	movaps	%xmm1, 80(%rsp)
	movaps	%xmm0, 64(%rsp)
	movups	48(%r8), %xmm0
	movups	64(%r8), %xmm1
	movaps	%xmm0, 32(%rsp)
	movaps	%xmm1, 48(%rsp)
	movl	%r9d, %r11d
	movq	%r10, %r8
	cmpb	$1, %r11b
	jne	.Lnoise_BB88_9
.Lnoise_BB88_5:
	movzbl	105(%rsp), %r9d
	andb	$1, %r9b
	cmpb	$1, %dl
	movb	$2, %dl
	sbbb	$0, %dl
	movl	$1315898113, (%rbx)
	movb	%dl, 4(%rbx)
	movb	%r9b, 5(%rbx)
	movaps	64(%rsp), %xmm0
	movaps	80(%rsp), %xmm1
	movups	%xmm0, 6(%rbx)
	movups	%xmm1, 22(%rbx)
	movw	$0, 38(%rbx)
	movq	%rdi, 40(%rbx)
	movq	%r8, 48(%rbx)
	cmpb	$1, %cl
	jne	.Lnoise_BB88_9
	movl	$1315898369, (%rsi)
	movb	%dl, 4(%rsi)
	movb	%r9b, 5(%rsi)
	movaps	32(%rsp), %xmm0
	movaps	48(%rsp), %xmm1
	movups	%xmm0, 6(%rsi)
	movups	%xmm1, 22(%rsi)
	movw	$0, 38(%rsi)
	movq	%rdi, 40(%rsi)
	movq	%rax, 48(%rsi)
	xorl	%eax, %eax
.Lnoise_BB88_8:
	addq	$272, %rsp
	popq	%rbx
	popq	%rdi
	popq	%rsi
	retq
.Lnoise_BB88_9:
	ud2
	.seh_endproc

	.def	noise_finish_ciphers;
	.scl	2;
	.type	32;
	.endef
	.globl	noise_finish_ciphers
	.p2align	4
noise_finish_ciphers:
.seh_proc noise_finish_ciphers
	pushq	%rsi
	.seh_pushreg %rsi
	pushq	%rdi
	.seh_pushreg %rdi
	pushq	%rbx
	.seh_pushreg %rbx
	subq	$288, %rsp
	.seh_stackalloc 288
	.seh_endprologue
	movq	%r8, %rsi
	movq	%rdx, %rdi
	movq	%rcx, %rdx
	leaq	112(%rsp), %rcx
	callq	"noise_c::split::finished"
	cmpb	$0, 112(%rsp)
	je	.Lnoise_BB89_1
	movl	116(%rsp), %eax
	jmp	.Lnoise_BB89_18
.Lnoise_BB89_1:
	movzbl	121(%rsp), %r10d
	movzbl	192(%rsp), %r11d
	leaq	193(%rsp), %r8
	movq	232(%rsp), %r9
	movzbl	240(%rsp), %ebx
	movq	280(%rsp), %rax
	cmpb	$0, 120(%rsp)
	je	.Lnoise_BB89_2
	cmpb	$1, %bl
	setne	%cl
	orb	%r10b, %cl
	testb	$1, %cl
	je	.Lnoise_BB89_10
	xorps	%xmm0, %xmm0
	movaps	%xmm0, 64(%rsp)
	movaps	%xmm0, 48(%rsp)
	movb	$1, %dl
	xorl	%ecx, %ecx
	cmpb	$1, %r11b
	je	.Lnoise_BB89_13
.Lnoise_BB89_14:
	xorps	%xmm0, %xmm0
	movaps	%xmm0, 96(%rsp)
	movaps	%xmm0, 80(%rsp)
	movb	$1, %r8b
	xorl	%r9d, %r9d
	jmp	.Lnoise_BB89_15
.Lnoise_BB89_2:
	cmpb	$1, %r11b
	jne	.Lnoise_BB89_4
	movups	(%r8), %xmm0
	movups	16(%r8), %xmm1
	movaps	%xmm1, 64(%rsp)
	movaps	%xmm0, 48(%rsp)
	xorl	%edx, %edx
	movq	%r9, %rcx
	jmp	.Lnoise_BB89_5
.Lnoise_BB89_10:
	movups	48(%r8), %xmm0
	movups	64(%r8), %xmm1
	movaps	%xmm1, 64(%rsp)
	movaps	%xmm0, 48(%rsp)
	xorl	%edx, %edx
	movq	%rax, %rcx
	cmpb	$1, %r11b
	jne	.Lnoise_BB89_14
.Lnoise_BB89_13:
	movups	(%r8), %xmm0
	movups	16(%r8), %xmm1
	movaps	%xmm1, 96(%rsp)
	movaps	%xmm0, 80(%rsp)
	xorl	%r8d, %r8d
.Lnoise_BB89_15:
	movb	$0, 38(%rsp)
	movw	$0, 36(%rsp)
	movw	$0, 32(%rsp)
	movb	$0, 34(%rsp)
	movq	%r9, %rax
	jmp	.Lnoise_BB89_16
.Lnoise_BB89_4:
	xorps	%xmm0, %xmm0
	movaps	%xmm0, 64(%rsp)
	movaps	%xmm0, 48(%rsp)
	movb	$1, %dl
	xorl	%ecx, %ecx
.Lnoise_BB89_5:
	cmpb	$1, %bl
	setne	%r9b
	orb	%r10b, %r9b
	testb	$1, %r9b
	je	.Lnoise_BB89_6
	xorps	%xmm0, %xmm0
	movaps	%xmm0, 96(%rsp)
	movaps	%xmm0, 80(%rsp)
	movb	$1, %r8b
	xorl	%eax, %eax
	jmp	.Lnoise_BB89_8
.Lnoise_BB89_6:
	movups	48(%r8), %xmm0
	movups	64(%r8), %xmm1
	movaps	%xmm1, 96(%rsp)
	movaps	%xmm0, 80(%rsp)
	xorl	%r8d, %r8d
.Lnoise_BB89_8:
	movb	$0, 38(%rsp)
	movw	$0, 36(%rsp)
	movw	$0, 32(%rsp)
	movb	$0, 34(%rsp)
.Lnoise_BB89_16:
	movzbl	38(%rsp), %r9d
	movb	%r9b, 46(%rsp)
	movzwl	36(%rsp), %r9d
	movw	%r9w, 44(%rsp)
	movzwl	32(%rsp), %r9d
	movw	%r9w, 40(%rsp)
	movzbl	34(%rsp), %r9d
	movb	%r9b, 42(%rsp)
	movl	$1315899393, (%rdi)
	movb	%dl, 4(%rdi)
	movaps	48(%rsp), %xmm0
	movaps	64(%rsp), %xmm1
	movups	%xmm0, 5(%rdi)
	movups	%xmm1, 21(%rdi)
	movzwl	44(%rsp), %edx
	movw	%dx, 37(%rdi)
	movzbl	46(%rsp), %edx
	movb	%dl, 39(%rdi)
	movq	%rcx, 40(%rdi)
	movl	$1315899649, (%rsi)
	movb	%r8b, 4(%rsi)
	movaps	80(%rsp), %xmm0
	movaps	96(%rsp), %xmm1
	movups	%xmm0, 5(%rsi)
	movups	%xmm1, 21(%rsi)
	movzwl	40(%rsp), %ecx
	movw	%cx, 37(%rsi)
	movzbl	42(%rsp), %ecx
	movb	%cl, 39(%rsi)
	movq	%rax, 40(%rsi)
	xorl	%eax, %eax
.Lnoise_BB89_18:
	addq	$288, %rsp
	popq	%rbx
	popq	%rdi
	popq	%rsi
	retq
	.seh_endproc

	.def	noise_finish_stream;
	.scl	2;
	.type	32;
	.endef
	.globl	noise_finish_stream
	.p2align	4
noise_finish_stream:
.seh_proc noise_finish_stream
	pushq	%rsi
	.seh_pushreg %rsi
	pushq	%rdi
	.seh_pushreg %rdi
	pushq	%rbx
	.seh_pushreg %rbx
	subq	$336, %rsp
	.seh_stackalloc 336
	.seh_endprologue
	movq	%r9, %rsi
	movq	%r8, %rbx
	movq	%rdx, %rdi
	movq	%rcx, %rdx
	leaq	160(%rsp), %rcx
	callq	"noise_c::split::finished"
	cmpb	$0, 160(%rsp)
	je	.Lnoise_BB90_1
	movl	164(%rsp), %eax
	jmp	.Lnoise_BB90_8
.Lnoise_BB90_1:
	movzbl	168(%rsp), %edx
	movzbl	240(%rsp), %r9d
	leaq	241(%rsp), %r8
	movq	280(%rsp), %r10
	movzbl	288(%rsp), %ecx
	movq	328(%rsp), %rax
	testb	%dl, %dl
	je	.Lnoise_BB90_2
	movups	48(%r8), %xmm0
	movups	64(%r8), %xmm1
	movaps	%xmm1, 80(%rsp)
	movaps	%xmm0, 64(%rsp)
	movups	(%r8), %xmm0
	movups	16(%r8), %xmm1
	movaps	%xmm0, 32(%rsp)
	movaps	%xmm1, 48(%rsp)
	movl	%ecx, %r11d
	movq	%rax, %r8
	movl	%r9d, %ecx
	movq	%r10, %rax
	jmp	.Lnoise_BB90_4
.Lnoise_BB90_2:
	movups	(%r8), %xmm0
	movups	16(%r8), %xmm1
	movaps	%xmm1, 80(%rsp)
	movaps	%xmm0, 64(%rsp)
	movups	48(%r8), %xmm0
	movups	64(%r8), %xmm1
	movaps	%xmm0, 32(%rsp)
	movaps	%xmm1, 48(%rsp)
	movl	%r9d, %r11d
	movq	%r10, %r8
.Lnoise_BB90_4:
	movzbl	169(%rsp), %r9d
	movaps	64(%rsp), %xmm0
	movaps	80(%rsp), %xmm1
	movaps	%xmm1, 144(%rsp)
	movaps	%xmm0, 128(%rsp)
	movaps	32(%rsp), %xmm0
	movaps	48(%rsp), %xmm1
	movaps	%xmm0, 96(%rsp)
	movaps	%xmm1, 112(%rsp)
	cmpb	$1, %r11b
	jne	.Lnoise_BB90_9
	andb	$1, %r9b
	cmpb	$1, %dl
	movb	$2, %dl
	sbbb	$0, %dl
	movl	$1315899905, (%rbx)
	movb	%dl, 4(%rbx)
	movb	%r9b, 5(%rbx)
	movaps	128(%rsp), %xmm0
	movaps	144(%rsp), %xmm1
	movups	%xmm0, 6(%rbx)
	movups	%xmm1, 22(%rbx)
	movw	$0, 38(%rbx)
	movq	%rdi, 40(%rbx)
	movq	%r8, 48(%rbx)
	movq	$0, 56(%rbx)
	cmpb	$1, %cl
	jne	.Lnoise_BB90_9
	movl	$1315900161, (%rsi)
	movb	%dl, 4(%rsi)
	movb	%r9b, 5(%rsi)
	movaps	96(%rsp), %xmm0
	movaps	112(%rsp), %xmm1
	movups	%xmm0, 6(%rsi)
	movups	%xmm1, 22(%rsi)
	movw	$0, 38(%rsi)
	movq	%rdi, 40(%rsi)
	movq	%rax, 48(%rsi)
	movq	$0, 56(%rsi)
	xorl	%eax, %eax
.Lnoise_BB90_8:
	addq	$336, %rsp
	popq	%rbx
	popq	%rdi
	popq	%rsi
	retq
.Lnoise_BB90_9:
	ud2
	.seh_endproc

	.def	noise_datagram_open;
	.scl	2;
	.type	32;
	.endef
	.globl	noise_datagram_open
	.p2align	4
noise_datagram_open:
.seh_proc noise_datagram_open
	pushq	%r15
	.seh_pushreg %r15
	pushq	%r14
	.seh_pushreg %r14
	pushq	%r13
	.seh_pushreg %r13
	pushq	%r12
	.seh_pushreg %r12
	pushq	%rsi
	.seh_pushreg %rsi
	pushq	%rdi
	.seh_pushreg %rdi
	pushq	%rbp
	.seh_pushreg %rbp
	pushq	%rbx
	.seh_pushreg %rbx
	subq	$472, %rsp
	.seh_stackalloc 472
	.seh_endprologue
	xorl	%esi, %esi
	testq	%rdx, %rdx
	sete	%r15b
	movq	$0, 160(%rsp)
	movl	$23, %ebp
	cmpl	$1315899137, (%rcx)
	jne	.Lnoise_BB91_74
	movq	%rdx, %r14
	movzbl	4(%rcx), %eax
	cmpl	$1, %eax
	je	.Lnoise_BB91_7
	cmpl	$2, %eax
	jne	.Lnoise_BB91_74
	movb	$1, %r12b
	xorl	%edx, %edx
	movzbl	5(%rcx), %ebx
	movl	8(%rcx), %eax
	cmpl	$64, %eax
	je	.Lnoise_BB91_8
.Lnoise_BB91_4:
	cmpl	$1024, %eax
	je	.Lnoise_BB91_9
	cmpl	$256, %eax
	jne	.Lnoise_BB91_74
	movl	%edx, 72(%rsp)
	movq	%r8, 64(%rsp)
	movq	%r9, 80(%rsp)
	movb	$1, %r13b
	jmp	.Lnoise_BB91_10
.Lnoise_BB91_7:
	xorl	%r12d, %r12d
	movb	$1, %dl
	movzbl	5(%rcx), %ebx
	movl	8(%rcx), %eax
	cmpl	$64, %eax
	jne	.Lnoise_BB91_4
.Lnoise_BB91_8:
	movl	%edx, 72(%rsp)
	movq	%r8, 64(%rsp)
	movq	%r9, 80(%rsp)
	xorl	%r13d, %r13d
	jmp	.Lnoise_BB91_10
.Lnoise_BB91_9:
	movl	%edx, 72(%rsp)
	movq	%r8, 64(%rsp)
	movq	%r9, 80(%rsp)
	movb	$2, %r13b
.Lnoise_BB91_10:
	testb	%bl, %bl
	setne	63(%rsp)
	movq	48(%rcx), %rdi
	movq	%rcx, 88(%rsp)
	leaq	56(%rcx), %rdx
	leaq	336(%rsp), %rcx
	movl	$136, %r8d
	movq	%rdx, 96(%rsp)
	callq	memcpy
	movq	$0, 320(%rsp)
	movb	%r13b, 320(%rsp)
	movq	%rdi, 328(%rsp)
	cmpq	$-1, %rdi
	je	.Lnoise_BB91_74
	movzbl	%r13b, %r9d
	leaq	.Lnoise_switch.table.noise_datagram_open.205(%rip), %r10
	movq	(%r10,%r9,8), %rcx
	movq	%rdi, %r8
	shrq	$6, %r8
	movq	%r8, %rax
	orq	%rcx, %rax
	shrq	$32, %rax
	je	.Lnoise_BB91_13
	movq	%r8, %rax
	xorl	%edx, %edx
	divq	%rcx
	jmp	.Lnoise_BB91_14
.Lnoise_BB91_13:
	movl	%r8d, %eax
	xorl	%edx, %edx
	divl	%ecx
.Lnoise_BB91_14:
	movq	336(%rsp,%rdx,8), %rax
	movq	%rax, %rdx
	movl	%edi, %ecx
	shrq	%cl, %rdx
	cmpq	$1, %rdx
	je	.Lnoise_BB91_16
	orq	%rdi, %rax
	jne	.Lnoise_BB91_74
.Lnoise_BB91_16:
	movb	%r15b, %sil
	shll	$12, %esi
	addq	%rsi, %r14
	movq	88(%rsp), %rax
	leaq	12(%rax), %rdi
	movq	(%r10,%r9,8), %rax
	incq	%r8
	cmpq	%rax, %r8
	cmovaeq	%rax, %r8
	addq	$2, %r8
	.p2align	4
.Lnoise_BB91_17:
	cmpq	$19, %r8
	je	.Lnoise_BB91_19
	cmpq	$0, 320(%rsp,%r8,8)
	leaq	1(%r8), %r8
	je	.Lnoise_BB91_17
	jmp	.Lnoise_BB91_74
.Lnoise_BB91_19:
	movq	%r10, %rsi
	testb	%bl, %bl
	setne	%bl
	leaq	168(%rsp), %rcx
	leaq	320(%rsp), %rdx
	movl	$152, %r8d
	callq	memcpy
	movb	%r12b, 104(%rsp)
	movzbl	63(%rsp), %eax
	movb	%al, 105(%rsp)
	movq	$0, 106(%rsp)
	movq	$0, 112(%rsp)
	movb	$1, 120(%rsp)
	movups	(%rdi), %xmm0
	movups	16(%rdi), %xmm1
	movups	%xmm0, 121(%rsp)
	movups	%xmm1, 137(%rsp)
	movl	$0, 153(%rsp)
	movl	$0, 156(%rsp)
	movl	$22, %ebp
	testb	%bl, 72(%rsp)
	movq	64(%rsp), %r8
	jne	.Lnoise_BB91_74
	movl	$15, %ebp
	cmpq	$24, %r8
	jb	.Lnoise_BB91_74
	movl	$11, %ebp
	cmpq	$65543, %r8
	ja	.Lnoise_BB91_74
	movq	(%r14), %r13
	cmpq	$-1, %r13
	je	.Lnoise_BB91_27
	bswapq	%r13
	movzbl	168(%rsp), %eax
	movq	176(%rsp), %rcx
	xorl	%edx, %edx
	movq	%rcx, %r9
	subq	%r13, %r9
	cmovaeq	%r9, %rdx
	leaq	.Lnoise_switch.table.noise_datagram_open.203(%rip), %r9
	movl	$27, %ebp
	cmpq	%rdx, (%r9,%rax,8)
	jbe	.Lnoise_BB91_74
	movq	%r13, %r15
	shrq	$6, %r15
	cmpq	%rcx, %r13
	ja	.Lnoise_BB91_30
	movq	(%rsi,%rax,8), %rcx
	movq	%r15, %rax
	orq	%rcx, %rax
	shrq	$32, %rax
	je	.Lnoise_BB91_28
	movq	%r15, %rax
	xorl	%edx, %edx
	divq	%rcx
	jmp	.Lnoise_BB91_29
.Lnoise_BB91_27:
	movl	$26, %ebp
	jmp	.Lnoise_BB91_74
.Lnoise_BB91_28:
	movl	%r15d, %eax
	xorl	%edx, %edx
	divl	%ecx
.Lnoise_BB91_29:
	movq	184(%rsp,%rdx,8), %rax
	movl	%r13d, %ecx
	shrq	%cl, %rax
	movl	$28, %ebp
	testb	$1, %al
	jne	.Lnoise_BB91_74
.Lnoise_BB91_30:
	leaq	120(%rsp), %rbp
	movq	%r13, 160(%rsp)
	xorps	%xmm0, %xmm0
	movaps	%xmm0, 320(%rsp)
	addq	$-8, %r8
	addq	$8, %r14
	movq	%r8, 40(%rsp)
	movq	%r14, 32(%rsp)
	leaq	.Lnoise_static.1(%rip), %r8
	leaq	320(%rsp), %rcx
	movq	%rbp, %rdx
	xorl	%r9d, %r9d
	callq	"noise_state::cipher::CipherState::decrypt"
	cmpb	$0, 320(%rsp)
	je	.Lnoise_BB91_33
	cmpb	$3, 321(%rsp)
	je	.Lnoise_BB91_75
	movl	$16, %ebp
	jmp	.Lnoise_BB91_74
.Lnoise_BB91_33:
	movq	328(%rsp), %r14
	movq	112(%rsp), %rcx
	testq	%rcx, %rcx
	movq	80(%rsp), %r11
	je	.Lnoise_BB91_39
	movq	160(%rsp), %rax
	movq	%rax, %rdx
	orq	%rcx, %rdx
	shrq	$32, %rdx
	je	.Lnoise_BB91_36
	xorl	%edx, %edx
	divq	%rcx
	jmp	.Lnoise_BB91_37
.Lnoise_BB91_36:
	xorl	%edx, %edx
	divl	%ecx
.Lnoise_BB91_37:
	testq	%rdx, %rdx
	jne	.Lnoise_BB91_39
	movq	%rbp, %rcx
	movq	%r11, %rbx
	callq	"noise_state::cipher::CipherState::rekey"
	movq	%rbx, %r11
.Lnoise_BB91_39:
	movq	176(%rsp), %r8
	movzbl	168(%rsp), %r10d
	cmpq	%r13, %r8
	movq	%r15, 64(%rsp)
	jae	.Lnoise_BB91_41
	shrq	$6, %r8
	movq	(%rsi,%r10,8), %rax
	movq	%r15, %rbx
	subq	%r8, %rbx
	cmpq	%rbx, %rax
	cmovbq	%rax, %rbx
	cmpq	%r8, %r15
	movq	%r13, %r8
	jne	.Lnoise_BB91_45
.Lnoise_BB91_41:
	testq	%r10, %r10
	je	.Lnoise_BB91_44
	cmpl	$2, %r10d
	jne	.Lnoise_BB91_49
	movl	$17, %r12d
	jmp	.Lnoise_BB91_69
.Lnoise_BB91_44:
	movl	$2, %r12d
	jmp	.Lnoise_BB91_69
.Lnoise_BB91_45:
	movq	%r14, 72(%rsp)
	testl	%r10d, %r10d
	je	.Lnoise_BB91_50
	cmpl	$1, %r10d
	jne	.Lnoise_BB91_52
	movabsq	$-3689348814741910323, %r9
	cmpq	$1, %rbx
	jne	.Lnoise_BB91_54
	xorl	%esi, %esi
	movq	72(%rsp), %r14
	jmp	.Lnoise_BB91_57
.Lnoise_BB91_49:
	movl	$5, %r12d
	jmp	.Lnoise_BB91_69
.Lnoise_BB91_50:
	leaq	-1(%rbx), %rcx
	movl	%ebx, %eax
	andl	$3, %eax
	cmpq	$3, %rcx
	jae	.Lnoise_BB91_58
	xorl	%ecx, %ecx
	jmp	.Lnoise_BB91_61
.Lnoise_BB91_52:
	movabsq	$-1085102592571150095, %rsi
	cmpq	$1, %rbx
	jne	.Lnoise_BB91_64
	xorl	%r15d, %r15d
	movq	72(%rsp), %r14
	jmp	.Lnoise_BB91_67
.Lnoise_BB91_54:
	movq	%rbx, %r15
	andq	$-2, %r15
	movq	64(%rsp), %r8
	leaq	(%rsp,%r8,8), %r12
	addq	$176, %r12
	leaq	-1(%r8), %rcx
	leaq	(%rsp,%r8,8), %rbp
	addq	$184, %rbp
	xorl	%esi, %esi
.Lnoise_BB91_55:
	movq	%rcx, %rax
	mulq	%r9
	addq	%rdx, %rdx
	andq	$-8, %rdx
	leaq	(%rdx,%rdx,4), %r14
	negq	%r14
	movq	%r8, %rax
	mulq	%r9
	addq	%rdx, %rdx
	andq	$-8, %rdx
	leaq	(%rdx,%rdx,4), %rax
	negq	%rax
	movq	$0, (%rbp,%rax)
	movq	$0, (%r12,%r14)
	addq	$2, %rsi
	addq	$-16, %r12
	addq	$-2, %rcx
	addq	$-16, %rbp
	addq	$-2, %r8
	cmpq	%rsi, %r15
	jne	.Lnoise_BB91_55
	movl	$5, %r12d
	movq	%r13, %r8
	testb	$1, %bl
	movq	72(%rsp), %r14
	je	.Lnoise_BB91_69
.Lnoise_BB91_57:
	movq	64(%rsp), %rcx
	subq	%rsi, %rcx
	movq	%rcx, %rax
	mulq	%r9
	shrl	$2, %edx
	leal	(%rdx,%rdx,4), %eax
	subl	%eax, %ecx
	shll	$3, %ecx
	movq	$0, 184(%rsp,%rcx)
	movl	$5, %r12d
	jmp	.Lnoise_BB91_68
.Lnoise_BB91_58:
	andq	$-4, %rbx
	movq	64(%rsp), %rcx
	leal	(,%rcx,8), %edx
	andl	$8, %edx
	movq	%rdx, %r8
	xorq	$8, %r8
	xorl	%ecx, %ecx
.Lnoise_BB91_59:
	movq	$0, 184(%rsp,%rdx)
	movq	$0, 184(%rsp,%r8)
	movq	$0, 184(%rsp,%rdx)
	movq	$0, 184(%rsp,%r8)
	addq	$4, %rcx
	cmpq	%rcx, %rbx
	jne	.Lnoise_BB91_59
	testq	%rax, %rax
	je	.Lnoise_BB91_63
.Lnoise_BB91_61:
	movq	64(%rsp), %rdx
	leaq	(,%rdx,8), %rdx
	shlq	$3, %rcx
	subq	%rcx, %rdx
	shll	$3, %eax
.Lnoise_BB91_62:
	movl	%edx, %ecx
	andl	$8, %ecx
	movq	$0, 184(%rsp,%rcx)
	addq	$-8, %rdx
	addq	$-8, %rax
	jne	.Lnoise_BB91_62
.Lnoise_BB91_63:
	movl	$2, %r12d
	movq	%r13, %r8
	movq	72(%rsp), %r14
	jmp	.Lnoise_BB91_69
.Lnoise_BB91_64:
	movq	%rbx, %r12
	andq	$-2, %r12
	movq	64(%rsp), %r8
	leaq	(%rsp,%r8,8), %rbp
	addq	$176, %rbp
	leaq	-1(%r8), %rcx
	leaq	(%rsp,%r8,8), %r14
	addq	$184, %r14
	xorl	%r15d, %r15d
.Lnoise_BB91_65:
	movq	%rcx, %rax
	mulq	%rsi
	movq	%rdx, %r9
	shrq	$4, %r9
	movq	%r8, %rax
	mulq	%rsi
	imulq	$-136, %r9, %rax
	shrq	$4, %rdx
	imulq	$-136, %rdx, %rdx
	movq	$0, (%r14,%rdx)
	movq	$0, (%rbp,%rax)
	addq	$2, %r15
	addq	$-16, %rbp
	addq	$-2, %rcx
	addq	$-16, %r14
	addq	$-2, %r8
	cmpq	%r15, %r12
	jne	.Lnoise_BB91_65
	movl	$17, %r12d
	movq	%r13, %r8
	testb	$1, %bl
	movq	72(%rsp), %r14
	je	.Lnoise_BB91_69
.Lnoise_BB91_67:
	movq	64(%rsp), %rcx
	subq	%r15, %rcx
	movq	%rcx, %rax
	mulq	%rsi
	shrq	$4, %rdx
	movl	%edx, %eax
	shll	$4, %eax
	addl	%edx, %eax
	subl	%eax, %ecx
	movq	$0, 184(%rsp,%rcx,8)
	movl	$17, %r12d
.Lnoise_BB91_68:
	movq	%r13, %r8
.Lnoise_BB91_69:
	movl	$1, %r9d
	movl	%r13d, %ecx
	shlq	%cl, %r9
	movabsq	$288230371856744448, %rcx
	movq	64(%rsp), %rax
	testq	%rcx, %rax
	je	.Lnoise_BB91_71
	xorl	%edx, %edx
	divq	%r12
	jmp	.Lnoise_BB91_72
.Lnoise_BB91_71:
	xorl	%edx, %edx
	divl	%r12d
.Lnoise_BB91_72:
	movq	88(%rsp), %rax
	orq	%r9, 184(%rsp,%rdx,8)
	movq	$8, (%r11)
	movq	%r14, 8(%r11)
	cmpb	$1, 120(%rsp)
	jne	.Lnoise_BB91_75
	leaq	121(%rsp), %rcx
	movzbl	105(%rsp), %r9d
	leaq	.Lnoise_switch.table.noise_finish_datagrams(%rip), %rdx
	andb	$1, %r9b
	cmpb	$1, 104(%rsp)
	movl	(%rdx,%r10,4), %r10d
	movb	$2, %r11b
	sbbb	$0, %r11b
	leaq	184(%rsp), %rdx
	movl	$1315899137, (%rax)
	movb	%r11b, 4(%rax)
	movb	%r9b, 5(%rax)
	movw	$0, 6(%rax)
	movl	%r10d, 8(%rax)
	movups	(%rcx), %xmm0
	movups	16(%rcx), %xmm1
	movups	%xmm1, 16(%rdi)
	movups	%xmm0, (%rdi)
	movl	$0, 44(%rax)
	movq	%r8, 48(%rax)
	movl	$136, %r8d
	movq	96(%rsp), %rcx
	callq	memcpy
	xorl	%ebp, %ebp
.Lnoise_BB91_74:
	movl	%ebp, %eax
	addq	$472, %rsp
	popq	%rbx
	popq	%rbp
	popq	%rdi
	popq	%rsi
	popq	%r12
	popq	%r13
	popq	%r14
	popq	%r15
	retq
.Lnoise_BB91_75:
	ud2
	.seh_endproc

	.def	noise_finish_datagrams;
	.scl	2;
	.type	32;
	.endef
	.globl	noise_finish_datagrams
	.p2align	4
noise_finish_datagrams:
.seh_proc noise_finish_datagrams
	pushq	%rsi
	.seh_pushreg %rsi
	pushq	%rdi
	.seh_pushreg %rdi
	pushq	%rbx
	.seh_pushreg %rbx
	subq	$272, %rsp
	.seh_stackalloc 272
	.seh_endprologue
	movq	%r9, %rsi
	movq	%r8, %rdi
	movq	%rcx, %r8
	cmpl	$64, %edx
	je	.Lnoise_BB92_1
	cmpl	$1024, %edx
	je	.Lnoise_BB92_5
	movl	$25, %eax
	cmpl	$256, %edx
	jne	.Lnoise_BB92_14
	movl	$1, %ebx
	jmp	.Lnoise_BB92_6
.Lnoise_BB92_5:
	movl	$2, %ebx
	jmp	.Lnoise_BB92_6
.Lnoise_BB92_1:
	xorl	%ebx, %ebx
.Lnoise_BB92_6:
	leaq	96(%rsp), %rcx
	movq	%r8, %rdx
	callq	"noise_c::split::finished"
	cmpb	$0, 96(%rsp)
	je	.Lnoise_BB92_7
	movl	100(%rsp), %eax
	jmp	.Lnoise_BB92_14
.Lnoise_BB92_7:
	movzbl	104(%rsp), %edx
	movzbl	176(%rsp), %r8d
	leaq	177(%rsp), %r9
	movzbl	224(%rsp), %eax
	testb	%dl, %dl
	je	.Lnoise_BB92_8
	movq	264(%rsp), %rcx
	movups	48(%r9), %xmm0
	movups	64(%r9), %xmm1
	movaps	%xmm0, 64(%rsp)
	movaps	%xmm1, 80(%rsp)
	movups	(%r9), %xmm0
	movups	16(%r9), %xmm1
	movaps	%xmm0, 32(%rsp)
	movaps	%xmm1, 48(%rsp)
	movl	%eax, %r9d
	movl	%r8d, %eax
	cmpb	$1, %r9b
	je	.Lnoise_BB92_11
	jmp	.Lnoise_BB92_15
.Lnoise_BB92_8:
	movq	216(%rsp), %rcx
	movups	(%r9), %xmm0
	movups	16(%r9), %xmm1
	movaps	%xmm0, 64(%rsp)
	movaps	%xmm1, 80(%rsp)
	movups	48(%r9), %xmm0
	movups	64(%r9), %xmm1
	movaps	%xmm0, 32(%rsp)
	movaps	%xmm1, 48(%rsp)
	movl	%r8d, %r9d
	cmpb	$1, %r9b
	jne	.Lnoise_BB92_15
.Lnoise_BB92_11:
	movzbl	105(%rsp), %r8d
	andb	$1, %r8b
	cmpb	$1, %dl
	movb	$2, %dl
	sbbb	$0, %dl
	movl	$1315898881, (%rdi)
	movb	%dl, 4(%rdi)
	movb	%r8b, 5(%rdi)
	movaps	64(%rsp), %xmm0
	movaps	80(%rsp), %xmm1
	movups	%xmm0, 6(%rdi)
	movups	%xmm1, 22(%rdi)
	movw	$0, 38(%rdi)
	movq	%rcx, 40(%rdi)
	cmpb	$1, %al
	jne	.Lnoise_BB92_15
	leaq	.Lnoise_switch.table.noise_finish_datagrams(%rip), %rax
	movl	(%rax,%rbx,4), %eax
	movl	$1315899137, (%rsi)
	movb	%dl, 4(%rsi)
	movb	%r8b, 5(%rsi)
	movw	$0, 6(%rsi)
	movl	%eax, 8(%rsi)
	movaps	32(%rsp), %xmm0
	movaps	48(%rsp), %xmm1
	movups	%xmm0, 12(%rsi)
	movups	%xmm1, 28(%rsi)
	xorps	%xmm0, %xmm0
	movups	%xmm0, 44(%rsi)
	movups	%xmm0, 60(%rsi)
	movups	%xmm0, 76(%rsi)
	movups	%xmm0, 92(%rsi)
	movups	%xmm0, 108(%rsi)
	movups	%xmm0, 124(%rsi)
	movups	%xmm0, 140(%rsi)
	movups	%xmm0, 156(%rsi)
	movups	%xmm0, 172(%rsi)
	movl	$0, 188(%rsi)
	xorl	%eax, %eax
.Lnoise_BB92_14:
	addq	$272, %rsp
	popq	%rbx
	popq	%rdi
	popq	%rsi
	retq
.Lnoise_BB92_15:
	ud2
	.seh_endproc

	.def	noise_write;
	.scl	2;
	.type	32;
	.endef
	.globl	noise_write
	.p2align	4
noise_write:
.seh_proc noise_write
	pushq	%r15
	.seh_pushreg %r15
	pushq	%r14
	.seh_pushreg %r14
	pushq	%r13
	.seh_pushreg %r13
	pushq	%r12
	.seh_pushreg %r12
	pushq	%rsi
	.seh_pushreg %rsi
	pushq	%rdi
	.seh_pushreg %rdi
	pushq	%rbp
	.seh_pushreg %rbp
	pushq	%rbx
	.seh_pushreg %rbx
	subq	$2424, %rsp
	.seh_stackalloc 2424
	.seh_endprologue
	movq	%r9, %rbx
	movq	%r8, %rdi
	movq	%rdx, %r14
	movq	%rcx, %rsi
	xorl	%r13d, %r13d
	testq	%rdx, %rdx
	sete	%bpl
	xorl	%r12d, %r12d
	testq	%r9, %r9
	sete	%r15b
	xorps	%xmm0, %xmm0
	movaps	%xmm0, 96(%rsp)
	movl	$0, 112(%rsp)
	movaps	%xmm0, 208(%rsp)
	movl	$0, 224(%rsp)
	leaq	664(%rsp), %rcx
	movl	$872, %r8d
	xorl	%edx, %edx
	callq	memset
	cmpl	$1315897601, (%rsi)
	jne	.Lnoise_BB93_5
	movzwl	420(%rsi), %r8d
	cmpq	$416, %r8
	ja	.Lnoise_BB93_5
	cmpb	$8, 846(%rsi)
	ja	.Lnoise_BB93_5
	cmpb	$9, 557(%rsi)
	ja	.Lnoise_BB93_5
	leaq	4(%rsi), %rdx
	leaq	256(%rsp), %rcx
	callq	"noise_c::patterns::pattern_of"
	cmpb	$0, 256(%rsp)
	je	.Lnoise_BB93_7
.Lnoise_BB93_5:
	movl	$23, %eax
.Lnoise_BB93_6:
	addq	$2424, %rsp
	popq	%rbx
	popq	%rbp
	popq	%rdi
	popq	%rsi
	popq	%r12
	popq	%r13
	popq	%r14
	popq	%r15
	retq
.Lnoise_BB93_7:
	leaq	264(%rsp), %r8
	leaq	664(%rsp), %rcx
	movq	%rsi, %rdx
	callq	"noise_c::from_c::restored"
	movzbl	664(%rsp), %eax
	movb	%al, 72(%rsp)
	leaq	672(%rsp), %rdx
	leaq	1536(%rsp), %rcx
	movl	$864, %r8d
	callq	memcpy
	movl	$23, %eax
	cmpb	$1, 72(%rsp)
	jne	.Lnoise_BB93_6
	leaq	664(%rsp), %rcx
	leaq	1536(%rsp), %rdx
	movl	$864, %r8d
	callq	memcpy
	movl	$13, %eax
	cmpb	$0, 1353(%rsp)
	jne	.Lnoise_BB93_6
	movzbl	1352(%rsp), %ecx
	movl	$12, %eax
	cmpq	%rcx, 928(%rsp)
	je	.Lnoise_BB93_6
	cmpb	$0, 968(%rsp)
	sete	%dl
	andb	$1, %cl
	movl	$10, %eax
	cmpb	%cl, %dl
	je	.Lnoise_BB93_6
	movzwl	1408(%rsp), %ecx
	movq	%rcx, %rdx
	xorq	$65535, %rdx
	movl	$11, %eax
	cmpq	%rdx, %rdi
	ja	.Lnoise_BB93_6
	movq	2536(%rsp), %rax
	addq	%rdi, %rcx
	cmpq	%rcx, 2528(%rsp)
	jae	.Lnoise_BB93_14
	movq	%rcx, 8(%rax)
	movl	$18, %eax
	jmp	.Lnoise_BB93_6
.Lnoise_BB93_14:
	leaq	1360(%rsp), %rcx
	movq	1400(%rsp), %rdx
	movq	1336(%rsp), %r8
	movq	1344(%rsp), %rax
	movq	%rax, 80(%rsp)
	subq	%rax, %r8
	movq	%rdx, 88(%rsp)
	movq	%r8, 72(%rsp)
	callq	"noise_handshake::layout::psk_after"
	testb	%al, %al
	je	.Lnoise_BB93_17
	xorl	%ecx, %ecx
	cmpb	$1, %al
	movzbl	%dl, %eax
	cmoveq	%rax, %rcx
	movq	80(%rsp), %rax
	shlq	$5, %rax
	leaq	(%rsp,%rax), %r9
	addq	$1048, %r9
	leaq	976(%rsp), %rdx
	leaq	936(%rsp), %r8
	xorps	%xmm0, %xmm0
	movaps	%xmm0, 272(%rsp)
	movaps	%xmm0, 256(%rsp)
	movw	$0, 288(%rsp)
	leaq	1360(%rsp), %rax
	movq	%rax, 40(%rsp)
	movq	72(%rsp), %rax
	movq	%rax, 32(%rsp)
	movq	%rcx, 48(%rsp)
	leaq	256(%rsp), %rcx
	callq	"noise_handshake::writer::write_lacking::<#9bbb2dae5a99aff0>"
	movzbl	256(%rsp), %r8d
	movzbl	257(%rsp), %eax
	movl	258(%rsp), %ecx
	movq	262(%rsp), %rdx
	movups	270(%rsp), %xmm0
	movaps	%xmm0, 544(%rsp)
	movl	286(%rsp), %r9d
	movl	%r9d, 560(%rsp)
	cmpb	$1, %r8b
	jne	.Lnoise_BB93_20
	movl	560(%rsp), %r8d
	movaps	544(%rsp), %xmm0
	jmp	.Lnoise_BB93_19
.Lnoise_BB93_17:
	xorps	%xmm0, %xmm0
	movaps	%xmm0, 272(%rsp)
	movaps	%xmm0, 256(%rsp)
	movw	$0, 288(%rsp)
	movq	80(%rsp), %rax
	shlq	$5, %rax
	leaq	(%rsp,%rax), %r9
	addq	$1048, %r9
	leaq	976(%rsp), %rdx
	leaq	936(%rsp), %r8
	movq	88(%rsp), %rax
	movq	%rax, 48(%rsp)
	leaq	1360(%rsp), %rax
	movq	%rax, 40(%rsp)
	movq	72(%rsp), %rax
	movq	%rax, 32(%rsp)
	leaq	256(%rsp), %rcx
	callq	"noise_handshake::writer::write_lacking::<#9bbb2dae5a99aff0>"
	movzbl	256(%rsp), %r8d
	movzbl	257(%rsp), %eax
	movl	258(%rsp), %ecx
	movq	262(%rsp), %rdx
	movups	270(%rsp), %xmm0
	movaps	%xmm0, 128(%rsp)
	movl	286(%rsp), %r9d
	movl	%r9d, 144(%rsp)
	cmpb	$1, %r8b
	jne	.Lnoise_BB93_22
	movl	144(%rsp), %r8d
	movaps	128(%rsp), %xmm0
.Lnoise_BB93_19:
	movaps	%xmm0, 208(%rsp)
	movl	%r8d, 224(%rsp)
	movaps	%xmm0, 96(%rsp)
	movl	%r8d, 112(%rsp)
	movq	2536(%rsp), %r8
	movb	%al, 17(%r8)
	movl	%ecx, 18(%r8)
	movq	%rdx, 22(%r8)
	movaps	96(%rsp), %xmm0
	movups	%xmm0, 30(%r8)
	movl	112(%rsp), %eax
	movl	%eax, 46(%r8)
	movl	$20, %eax
	jmp	.Lnoise_BB93_6
.Lnoise_BB93_20:
	movzbl	1009(%rsp), %eax
	cmpb	$1, %al
	jne	.Lnoise_BB93_24
	movl	1010(%rsp), %edx
	movq	1014(%rsp), %rcx
	movl	1038(%rsp), %r8d
	movl	%r8d, 272(%rsp)
	movups	1022(%rsp), %xmm0
	movaps	%xmm0, 256(%rsp)
	jmp	.Lnoise_BB93_25
.Lnoise_BB93_22:
	movb	%r15b, %r12b
	shll	$12, %r12d
	leaq	(%rbx,%r12), %r15
	leaq	1048(%rsp), %rcx
	movq	1336(%rsp), %rax
	movq	1344(%rsp), %r9
	subq	%r9, %rax
	shlq	$5, %r9
	addq	%rcx, %r9
	movups	1416(%rsp), %xmm0
	movaps	%xmm0, 544(%rsp)
	movups	1432(%rsp), %xmm1
	movaps	%xmm1, 560(%rsp)
	movups	1448(%rsp), %xmm2
	movaps	%xmm2, 576(%rsp)
	movups	1464(%rsp), %xmm3
	movaps	%xmm3, 592(%rsp)
	movzbl	1480(%rsp), %ecx
	movq	1520(%rsp), %rdx
	movaps	%xmm0, 256(%rsp)
	movaps	%xmm1, 272(%rsp)
	movaps	%xmm2, 288(%rsp)
	movaps	%xmm3, 304(%rsp)
	movb	%cl, 320(%rsp)
	movups	1481(%rsp), %xmm0
	movups	%xmm0, 321(%rsp)
	movups	1497(%rsp), %xmm0
	movups	%xmm0, 337(%rsp)
	movl	$0, 353(%rsp)
	movl	$0, 356(%rsp)
	movq	%rdx, 360(%rsp)
	movzbl	976(%rsp), %edx
	movups	977(%rsp), %xmm0
	movups	%xmm0, 129(%rsp)
	movups	993(%rsp), %xmm0
	movups	%xmm0, 145(%rsp)
	movzbl	1009(%rsp), %ecx
	movups	1010(%rsp), %xmm0
	movups	%xmm0, 162(%rsp)
	movups	1026(%rsp), %xmm0
	movups	%xmm0, 178(%rsp)
	movb	%dl, 88(%rsp)
	movb	%dl, 128(%rsp)
	movb	%cl, 80(%rsp)
	movb	%cl, 161(%rsp)
	movq	1400(%rsp), %rcx
	movq	2528(%rsp), %rdx
	movq	%rdx, 64(%rsp)
	movq	%r15, 56(%rsp)
	movq	%rcx, 48(%rsp)
	leaq	1360(%rsp), %rcx
	movq	%rcx, 40(%rsp)
	movq	%rax, 32(%rsp)
	leaq	256(%rsp), %rcx
	leaq	128(%rsp), %rdx
	leaq	936(%rsp), %r8
	callq	"noise_handshake::writer::write_tokens::<#3dfcfe118667ed30>"
	movq	%rdx, 72(%rsp)
	testb	%al, %al
	je	.Lnoise_BB93_26
	movl	$14, %eax
	jmp	.Lnoise_BB93_6
.Lnoise_BB93_24:
	xorps	%xmm0, %xmm0
	movaps	%xmm0, 256(%rsp)
	movl	$0, 272(%rsp)
	xorl	%ecx, %ecx
	xorl	%edx, %edx
.Lnoise_BB93_25:
	movq	2536(%rsp), %r8
	movl	%edx, 18(%r8)
	movq	%rcx, 22(%r8)
	movaps	256(%rsp), %xmm0
	movups	%xmm0, 30(%r8)
	movl	272(%rsp), %ecx
	movl	%ecx, 46(%r8)
	movb	%al, 50(%r8)
	movl	$40, %eax
	jmp	.Lnoise_BB93_6
.Lnoise_BB93_26:
	movb	%bpl, %r13b
	shll	$12, %r13d
	leaq	(%r14,%r13), %rdx
	leaq	320(%rsp), %rbp
	addq	72(%rsp), %r15
	movq	%r15, %rax
	subq	%rdx, %rax
	cmpq	%rdi, %rax
	jae	.Lnoise_BB93_29
	cmpq	$4, %rdi
	jb	.Lnoise_BB93_28
	movq	72(%rsp), %rax
	leaq	(%rax,%r12), %r8
	leaq	(%r8,%rbx), %rax
	subq	%rdx, %rax
	cmpq	$32, %rax
	jae	.Lnoise_BB93_32
.Lnoise_BB93_28:
	xorl	%eax, %eax
.Lnoise_BB93_41:
	movq	%rdi, %r8
	movq	%rax, %rcx
	andq	$3, %r8
	je	.Lnoise_BB93_44
	movq	%rax, %rcx
.Lnoise_BB93_43:
	movzbl	(%rdx,%rcx), %r9d
	movb	%r9b, (%r15,%rcx)
	incq	%rcx
	decq	%r8
	jne	.Lnoise_BB93_43
.Lnoise_BB93_44:
	subq	%rdi, %rax
	cmpq	$-4, %rax
	ja	.Lnoise_BB93_47
	leaq	(%r14,%r13), %rax
	addq	$3, %rax
	addq	72(%rsp), %r12
	leaq	(%rbx,%r12), %rdx
	addq	$3, %rdx
.Lnoise_BB93_46:
	movzbl	-3(%rax,%rcx), %r8d
	movb	%r8b, -3(%rdx,%rcx)
	movzbl	-2(%rax,%rcx), %r8d
	movb	%r8b, -2(%rdx,%rcx)
	movzbl	-1(%rax,%rcx), %r8d
	movb	%r8b, -1(%rdx,%rcx)
	movzbl	(%rax,%rcx), %r8d
	movb	%r8b, (%rdx,%rcx)
	addq	$4, %rcx
	cmpq	%rcx, %rdi
	jne	.Lnoise_BB93_46
	jmp	.Lnoise_BB93_47
.Lnoise_BB93_29:
	movq	%r15, %rcx
	movq	%rdi, %r8
	callq	memmove
.Lnoise_BB93_47:
	xorps	%xmm0, %xmm0
	movaps	%xmm0, 240(%rsp)
	leaq	288(%rsp), %rbx
	movq	%rdi, 40(%rsp)
	movq	%r15, 32(%rsp)
	leaq	240(%rsp), %rcx
	movl	$32, %r9d
	movq	%rbp, %rdx
	movq	%rbx, %r8
	callq	"noise_state::cipher::CipherState::encrypt"
	cmpb	$0, 240(%rsp)
	jne	.Lnoise_BB93_58
	leaq	1416(%rsp), %r14
	leaq	321(%rsp), %r13
	leaq	129(%rsp), %r12
	movq	248(%rsp), %rdi
	leaq	608(%rsp), %rcx
	movq	%rbx, %rdx
	movq	%r15, %r8
	movq	%rdi, %r9
	callq	"noise_state::symmetric::hash_of_both"
	movups	608(%rsp), %xmm0
	movups	624(%rsp), %xmm1
	movups	%xmm1, 16(%rbx)
	movups	%xmm0, (%rbx)
	movq	72(%rsp), %rbp
	addq	%rdi, %rbp
	movzbl	320(%rsp), %ebx
	movzbl	1410(%rsp), %r15d
	addq	1344(%rsp), %r15
	movq	%r15, 1344(%rsp)
	movzbl	969(%rsp), %r8d
	movzbl	1352(%rsp), %edi
	incb	%dil
	movb	%dil, 1352(%rsp)
	movb	%dil, 32(%rsp)
	leaq	608(%rsp), %rcx
	leaq	664(%rsp), %rdx
	movl	%ebx, %r9d
	callq	"noise_handshake::layout::lay_next"
	movaps	256(%rsp), %xmm0
	movaps	272(%rsp), %xmm1
	movaps	288(%rsp), %xmm2
	movaps	304(%rsp), %xmm3
	movups	%xmm3, 48(%r14)
	movups	%xmm2, 32(%r14)
	movups	%xmm1, 16(%r14)
	movups	%xmm0, (%r14)
	movups	(%r13), %xmm0
	movups	16(%r13), %xmm1
	movups	31(%r13), %xmm2
	movups	%xmm2, 96(%r14)
	movups	%xmm1, 81(%r14)
	movups	%xmm0, 65(%r14)
	movups	(%r12), %xmm0
	movups	16(%r12), %xmm1
	movups	%xmm1, -423(%r14)
	movups	%xmm0, -439(%r14)
	movups	33(%r12), %xmm0
	movups	49(%r12), %xmm1
	movups	%xmm1, -390(%r14)
	movups	%xmm0, -406(%r14)
	movq	2536(%rsp), %rax
	movq	$0, (%rax)
	movq	%rbp, 8(%rax)
	movl	1336(%rsp), %ecx
	subl	%r15d, %ecx
	cmpb	$1, 88(%rsp)
	jne	.Lnoise_BB93_50
	movups	-439(%r14), %xmm0
	movups	-423(%r14), %xmm1
	movaps	%xmm1, 144(%rsp)
	jmp	.Lnoise_BB93_51
.Lnoise_BB93_50:
	xorps	%xmm0, %xmm0
	movaps	%xmm0, 144(%rsp)
.Lnoise_BB93_51:
	movaps	%xmm0, 128(%rsp)
	leaq	1448(%rsp), %rdx
	movzbl	1353(%rsp), %r8d
	movq	1520(%rsp), %rax
	movzbl	88(%rsp), %r9d
	movb	%r9b, 491(%rsi)
	movaps	128(%rsp), %xmm0
	movaps	144(%rsp), %xmm1
	movups	%xmm0, 492(%rsi)
	movups	%xmm1, 508(%rsi)
	cmpb	$1, 80(%rsp)
	jne	.Lnoise_BB93_53
	movups	-406(%r14), %xmm0
	movups	-390(%r14), %xmm1
	movaps	%xmm1, 272(%rsp)
	jmp	.Lnoise_BB93_54
.Lnoise_BB93_53:
	xorps	%xmm0, %xmm0
	movaps	%xmm0, 272(%rsp)
.Lnoise_BB93_54:
	movaps	%xmm0, 256(%rsp)
	movaps	256(%rsp), %xmm0
	movaps	272(%rsp), %xmm1
	movaps	%xmm1, 144(%rsp)
	movaps	%xmm0, 128(%rsp)
	movzbl	80(%rsp), %r9d
	movb	%r9b, 524(%rsi)
	movaps	128(%rsp), %xmm0
	movaps	144(%rsp), %xmm1
	movups	%xmm0, 525(%rsi)
	movups	%xmm1, 541(%rsi)
	movb	%cl, 557(%rsi)
	movb	%dil, 424(%rsi)
	movb	%r8b, 423(%rsi)
	movups	(%r14), %xmm0
	movups	16(%r14), %xmm1
	movups	%xmm0, 1367(%rsi)
	movups	%xmm1, 1383(%rsi)
	movups	(%rdx), %xmm0
	movups	16(%rdx), %xmm1
	movups	%xmm0, 1399(%rsi)
	movups	%xmm1, 1415(%rsi)
	cmpb	$1, %bl
	jne	.Lnoise_BB93_56
	movups	65(%r14), %xmm0
	movups	81(%r14), %xmm1
	movaps	%xmm1, 272(%rsp)
	jmp	.Lnoise_BB93_57
.Lnoise_BB93_56:
	xorps	%xmm0, %xmm0
	movaps	%xmm0, 272(%rsp)
.Lnoise_BB93_57:
	movaps	%xmm0, 256(%rsp)
	movaps	256(%rsp), %xmm0
	movaps	272(%rsp), %xmm1
	movaps	%xmm1, 144(%rsp)
	movaps	%xmm0, 128(%rsp)
	movb	%bl, 1431(%rsi)
	movaps	128(%rsp), %xmm0
	movaps	144(%rsp), %xmm1
	movups	%xmm0, 1432(%rsi)
	movups	%xmm1, 1448(%rsi)
	movq	%rax, 1464(%rsi)
	xorl	%eax, %eax
	jmp	.Lnoise_BB93_6
.Lnoise_BB93_32:
	cmpq	$32, %rdi
	jae	.Lnoise_BB93_34
	xorl	%eax, %eax
	jmp	.Lnoise_BB93_38
.Lnoise_BB93_34:
	movq	%rdi, %rax
	andq	$-32, %rax
	leaq	(%r14,%r13), %rcx
	addq	$16, %rcx
	addq	%rbx, %r8
	addq	$16, %r8
	xorl	%r9d, %r9d
.Lnoise_BB93_35:
	movups	-16(%rcx,%r9), %xmm0
	movups	(%rcx,%r9), %xmm1
	movups	%xmm0, -16(%r8,%r9)
	movups	%xmm1, (%r8,%r9)
	addq	$32, %r9
	cmpq	%r9, %rax
	jne	.Lnoise_BB93_35
	cmpq	%rax, %rdi
	je	.Lnoise_BB93_47
	testb	$28, %dil
	je	.Lnoise_BB93_41
.Lnoise_BB93_38:
	movq	%rax, %rcx
	movq	%rdi, %rax
	andq	$-4, %rax
.Lnoise_BB93_39:
	movl	(%rdx,%rcx), %r8d
	movl	%r8d, (%r15,%rcx)
	addq	$4, %rcx
	cmpq	%rcx, %rax
	jne	.Lnoise_BB93_39
	cmpq	%rax, %rdi
	je	.Lnoise_BB93_47
	jmp	.Lnoise_BB93_41
.Lnoise_BB93_58:
	ud2
	.seh_endproc

	.section	.rdata,"dr"
.Lnoise_static.0:
	.zero	15

.Lnoise_static.1:

.Lnoise_static.2:
	.zero	1

.Lnoise_static.4:
	.asciz	"The call succeeded.\000\000\000\000\000\000\000\000\000\000\000\000\000\000\000\000\000\000\000\000\000\000\000\000\000\000\000\000\000\000\000\000\000\000\000\000\000\000\000\000\000\000\000\000\000\000\000\000\000\000\000\000\000\000\000\000\000\000\000\000"

.Lnoise_static.5:
	.asciz	"No fundamental pattern with 25519, ChaChaPoly, SHA256 has this name.\000\000\000\000\000\000\000\000\000\000\000"

.Lnoise_static.6:
	.asciz	"The pattern text has a fault: noise_check_pattern says where.\000\000\000\000\000\000\000\000\000\000\000\000\000\000\000\000\000\000"

.Lnoise_static.7:
	.asciz	"The setup lacks this party's ephemeral public key.\000\000\000\000\000\000\000\000\000\000\000\000\000\000\000\000\000\000\000\000\000\000\000\000\000\000\000\000\000"

.Lnoise_static.8:
	.asciz	"The setup lacks this party's static public key.\000\000\000\000\000\000\000\000\000\000\000\000\000\000\000\000\000\000\000\000\000\000\000\000\000\000\000\000\000\000\000\000"

.Lnoise_static.9:
	.asciz	"The setup lacks a key of the other party's pre-message.\000\000\000\000\000\000\000\000\000\000\000\000\000\000\000\000\000\000\000\000\000\000\000\000"

.Lnoise_static.10:
	.asciz	"The setup has a remote key that isn't in a pre-message.\000\000\000\000\000\000\000\000\000\000\000\000\000\000\000\000\000\000\000\000\000\000\000\000"

.Lnoise_static.11:
	.asciz	"There are more psks than psk tokens.\000\000\000\000\000\000\000\000\000\000\000\000\000\000\000\000\000\000\000\000\000\000\000\000\000\000\000\000\000\000\000\000\000\000\000\000\000\000\000\000\000\000\000"

.Lnoise_static.12:
	.asciz	"It is the other party's turn.\000\000\000\000\000\000\000\000\000\000\000\000\000\000\000\000\000\000\000\000\000\000\000\000\000\000\000\000\000\000\000\000\000\000\000\000\000\000\000\000\000\000\000\000\000\000\000\000\000\000"

.Lnoise_static.13:
	.asciz	"The message would be or is too long.\000\000\000\000\000\000\000\000\000\000\000\000\000\000\000\000\000\000\000\000\000\000\000\000\000\000\000\000\000\000\000\000\000\000\000\000\000\000\000\000\000\000\000"

.Lnoise_static.14:
	.asciz	"All messages of the handshake have passed.\000\000\000\000\000\000\000\000\000\000\000\000\000\000\000\000\000\000\000\000\000\000\000\000\000\000\000\000\000\000\000\000\000\000\000\000\000"

.Lnoise_static.15:
	.asciz	"The handshake has ended: a message was refused, or it was finished.\000\000\000\000\000\000\000\000\000\000\000\000"

.Lnoise_static.16:
	.asciz	"A result of X25519 is missing in a struct that was changed.\000\000\000\000\000\000\000\000\000\000\000\000\000\000\000\000\000\000\000\000"

.Lnoise_static.17:
	.asciz	"The message has too few bytes.\000\000\000\000\000\000\000\000\000\000\000\000\000\000\000\000\000\000\000\000\000\000\000\000\000\000\000\000\000\000\000\000\000\000\000\000\000\000\000\000\000\000\000\000\000\000\000\000\000"

.Lnoise_static.18:
	.asciz	"A tag is wrong: keys, psks or prologues differ, or bytes changed.\000\000\000\000\000\000\000\000\000\000\000\000\000\000"

.Lnoise_static.19:
	.asciz	"The nonce is 2^64 - 1: this key encrypts and decrypts no more.\000\000\000\000\000\000\000\000\000\000\000\000\000\000\000\000\000"

.Lnoise_static.20:
	.asciz	"The buffer is too short for the message.\000\000\000\000\000\000\000\000\000\000\000\000\000\000\000\000\000\000\000\000\000\000\000\000\000\000\000\000\000\000\000\000\000\000\000\000\000\000\000"

.Lnoise_static.21:
	.asciz	"Messages of the handshake are still due.\000\000\000\000\000\000\000\000\000\000\000\000\000\000\000\000\000\000\000\000\000\000\000\000\000\000\000\000\000\000\000\000\000\000\000\000\000\000\000"

.Lnoise_static.22:
	.asciz	"A result of X25519 is needed: pass it to noise_answer; call again.\000\000\000\000\000\000\000\000\000\000\000\000\000"

.Lnoise_static.23:
	.asciz	"In a one-way pattern only the initiator sends.\000\000\000\000\000\000\000\000\000\000\000\000\000\000\000\000\000\000\000\000\000\000\000\000\000\000\000\000\000\000\000\000\000"

.Lnoise_static.24:
	.asciz	"The struct holds no state that a call could have made.\000\000\000\000\000\000\000\000\000\000\000\000\000\000\000\000\000\000\000\000\000\000\000\000\000"

.Lnoise_static.25:
	.asciz	"The prologue, message or associated data has more than 65535 bytes.\000\000\000\000\000\000\000\000\000\000\000\000"

.Lnoise_static.26:
	.asciz	"The window is not 64, 256 or 1024.\000\000\000\000\000\000\000\000\000\000\000\000\000\000\000\000\000\000\000\000\000\000\000\000\000\000\000\000\000\000\000\000\000\000\000\000\000\000\000\000\000\000\000\000\000"

.Lnoise_static.27:
	.asciz	"The datagram has the nonce 2^64 - 1, which no datagram may have.\000\000\000\000\000\000\000\000\000\000\000\000\000\000\000"

.Lnoise_static.28:
	.asciz	"The datagram is older than the window.\000\000\000\000\000\000\000\000\000\000\000\000\000\000\000\000\000\000\000\000\000\000\000\000\000\000\000\000\000\000\000\000\000\000\000\000\000\000\000\000\000"

.Lnoise_static.29:
	.asciz	"A datagram with this nonce was opened before.\000\000\000\000\000\000\000\000\000\000\000\000\000\000\000\000\000\000\000\000\000\000\000\000\000\000\000\000\000\000\000\000\000\000"

.Lnoise_static.30:
	.asciz	"A payload of this length can not be written now.\000\000\000\000\000\000\000\000\000\000\000\000\000\000\000\000\000\000\000\000\000\000\000\000\000\000\000\000\000\000\000"

.Lnoise_static.31:
	.asciz	"Line 1 isn't a base name, its modifiers in order, and a colon.\000\000\000\000\000\000\000\000\000\000\000\000\000\000\000\000\000"

.Lnoise_static.32:
	.asciz	"The line does not begin with two spaces, an arrow and a space.\000\000\000\000\000\000\000\000\000\000\000\000\000\000\000\000\000"

.Lnoise_static.33:
	.asciz	"A word of the line is not a token.\000\000\000\000\000\000\000\000\000\000\000\000\000\000\000\000\000\000\000\000\000\000\000\000\000\000\000\000\000\000\000\000\000\000\000\000\000\000\000\000\000\000\000\000\000"

.Lnoise_static.34:
	.asciz	"A pre-message has tokens other than e and s, or is misplaced.\000\000\000\000\000\000\000\000\000\000\000\000\000\000\000\000\000\000"

.Lnoise_static.35:
	.asciz	"The line is a message of the wrong party.\000\000\000\000\000\000\000\000\000\000\000\000\000\000\000\000\000\000\000\000\000\000\000\000\000\000\000\000\000\000\000\000\000\000\000\000\000\000"

.Lnoise_static.36:
	.asciz	"The psk tokens are not where the heading says.\000\000\000\000\000\000\000\000\000\000\000\000\000\000\000\000\000\000\000\000\000\000\000\000\000\000\000\000\000\000\000\000\000"

.Lnoise_static.37:
	.asciz	"The base name is that of another pattern, a fundamental one.\000\000\000\000\000\000\000\000\000\000\000\000\000\000\000\000\000\000\000"

.Lnoise_static.38:
	.asciz	"A ninth message, no token but psk, or more than eight others.\000\000\000\000\000\000\000\000\000\000\000\000\000\000\000\000\000\000"

.Lnoise_static.39:
	.asciz	"The line has no line feed, or there is no message.\000\000\000\000\000\000\000\000\000\000\000\000\000\000\000\000\000\000\000\000\000\000\000\000\000\000\000\000\000"

.Lnoise_static.40:
	.asciz	"The pattern breaks a rule of validity.\000\000\000\000\000\000\000\000\000\000\000\000\000\000\000\000\000\000\000\000\000\000\000\000\000\000\000\000\000\000\000\000\000\000\000\000\000\000\000\000\000"

.Lnoise_static.41:
	.asciz	"A psk is needed: pass it to noise_set_psk; call again.\000\000\000\000\000\000\000\000\000\000\000\000\000\000\000\000\000\000\000\000\000\000\000\000\000"

.Lnoise_static.42:
	.asciz	"The other party has ended the stream, and all of it came.\000\000\000\000\000\000\000\000\000\000\000\000\000\000\000\000\000\000\000\000\000\000"

.Lnoise_static.43:
	.asciz	"The frame is not complete.\000\000\000\000\000\000\000\000\000\000\000\000\000\000\000\000\000\000\000\000\000\000\000\000\000\000\000\000\000\000\000\000\000\000\000\000\000\000\000\000\000\000\000\000\000\000\000\000\000\000\000\000\000"

.Lnoise_static.44:
	.asciz	"The stream was ended or refused before.\000\000\000\000\000\000\000\000\000\000\000\000\000\000\000\000\000\000\000\000\000\000\000\000\000\000\000\000\000\000\000\000\000\000\000\000\000\000\000\000"

.Lnoise_static.45:
	.asciz	"The connection ended before the stream did.\000\000\000\000\000\000\000\000\000\000\000\000\000\000\000\000\000\000\000\000\000\000\000\000\000\000\000\000\000\000\000\000\000\000\000\000"

.Lnoise_static.46:
	.asciz	"A buffer that the call writes to overlaps another of its buffers.\000\000\000\000\000\000\000\000\000\000\000\000\000\000"

.Lnoise_static.47:
	.asciz	"This number is not a code of the library.\000\000\000\000\000\000\000\000\000\000\000\000\000\000\000\000\000\000\000\000\000\000\000\000\000\000\000\000\000\000\000\000\000\000\000\000\000\000"

.Lnoise_static.51:
	.ascii	"psk"

.Lnoise_static.82:
	.ascii	"  ...\n"

.Lnoise_static.85:
	.ascii	", "

.Lnoise_static.88:
	.ascii	"->"

.Lnoise_static.89:
	.ascii	"<-"

.Lnoise_static.90:
	.byte	101

.Lnoise_static.91:
	.byte	115

.Lnoise_static.92:
	.zero	2,101

.Lnoise_static.93:
	.ascii	"es"

.Lnoise_static.94:
	.ascii	"se"

.Lnoise_static.95:
	.zero	2,115

.Lnoise_static.96:
	.ascii	"  ..."

.Lnoise_static.97:
	.ascii	"Noise_"

.Lnoise_static.98:
	.ascii	"_25519_ChaChaPoly_SHA256"

	.p2align	2, 0x0
.Lnoise_static.99:
	.ascii	"\230/\212B\221D7q\317\373\300\265\245\333\265\351[\302V9\361\021\361Y\244\202?\222\325^\034\253\230\252\007\330\001[\203\022\276\2051$\303}\fUt]\276r\376\261\336\200\247\006\334\233t\361\233\301\301i\233\344\206G\276\357\306\235\301\017\314\241\f$o,\351-\252\204tJ\334\251\260\\\332\210\371vRQ>\230m\3061\250\310'\003\260\307\177Y\277\363\013\340\306G\221\247\325Qc\312\006g))\024\205\n\267'8!\033.\374m,M\023\r8STs\ne\273\njv.\311\302\201\205,r\222\241\350\277\242Kf\032\250p\213K\302\243Ql\307\031\350\222\321$\006\231\326\2055\016\364p\240j\020\026\301\244\031\bl7\036LwH'\265\274\2604\263\f\0349J\252\330NO\312\234[\363o.h\356\202\217toc\245x\024x\310\204\b\002\307\214\372\377\276\220\353lP\244\367\243\371\276\362xq\306"

.Lnoise_static.100:
	.asciz	"\200\000\000\000\000\000\000\000\000\000\000\000\000\000\000\000\000\000\000\000\000\000\000\000\000\000\000\000\000\000\000\000\000\000\000\000\000\000\000\000\000\000\000\000\000\000\000\000\000\000\000\000\000\000\000\000\000\000\000\000\000\000\000"

.Lnoise_static.101:
	.byte	3

	.p2align	3, 0x0
.Lnoise_static.102:
	.quad	.Lnoise_static.102+16
	.asciz	"\001\000\000\000\000\000\000\000\001\000\000\000\000\000\000"

.Lnoise_static.103:
	.byte	2

	.p2align	3, 0x0
".Lnoise_switch.table.noise_names::text::write::push_token_line.199":
	.quad	1
	.quad	1
	.quad	2
	.quad	2
	.quad	2
	.quad	2
	.quad	3

	.p2align	3, 0x0
".Lnoise_switch.table.noise_names::text::write::push_token_line.200":
	.quad	.Lnoise_static.90
	.quad	.Lnoise_static.91
	.quad	.Lnoise_static.92
	.quad	.Lnoise_static.93
	.quad	.Lnoise_static.94
	.quad	.Lnoise_static.95
	.quad	.Lnoise_static.51

	.p2align	2, 0x0
".Lnoise_switch.table.noise_c::messages::read_next":
	.long	15
	.long	16
	.long	14

	.p2align	2, 0x0
.Lnoise_switch.table.noise_cipher_encrypt:
	.long	17
	.long	16
	.long	15
	.long	11

	.p2align	3, 0x0
.Lnoise_switch.table.noise_sentence:
	.quad	19
	.quad	68
	.quad	61
	.quad	41
	.quad	50
	.quad	47
	.quad	55
	.quad	55
	.quad	36
	.quad	41
	.quad	29
	.quad	36
	.quad	42
	.quad	67
	.quad	59
	.quad	30
	.quad	65
	.quad	62
	.quad	40
	.quad	40
	.quad	66
	.quad	41
	.quad	46
	.quad	54
	.quad	67
	.quad	34
	.quad	64
	.quad	38
	.quad	45
	.quad	48
	.quad	62
	.quad	62
	.quad	34
	.quad	61
	.quad	41
	.quad	46
	.quad	60
	.quad	61
	.quad	50
	.quad	38
	.quad	54
	.quad	57
	.quad	26
	.quad	39
	.quad	43
	.quad	65

	.p2align	2, 0x0
.Lnoise_switch.table.noise_sentence.201.rel:
	.long	.Lnoise_static.4-.Lnoise_switch.table.noise_sentence.201.rel
	.long	.Lnoise_static.5-.Lnoise_switch.table.noise_sentence.201.rel
	.long	.Lnoise_static.6-.Lnoise_switch.table.noise_sentence.201.rel
	.long	.Lnoise_static.47-.Lnoise_switch.table.noise_sentence.201.rel
	.long	.Lnoise_static.7-.Lnoise_switch.table.noise_sentence.201.rel
	.long	.Lnoise_static.8-.Lnoise_switch.table.noise_sentence.201.rel
	.long	.Lnoise_static.9-.Lnoise_switch.table.noise_sentence.201.rel
	.long	.Lnoise_static.10-.Lnoise_switch.table.noise_sentence.201.rel
	.long	.Lnoise_static.11-.Lnoise_switch.table.noise_sentence.201.rel
	.long	.Lnoise_static.47-.Lnoise_switch.table.noise_sentence.201.rel
	.long	.Lnoise_static.12-.Lnoise_switch.table.noise_sentence.201.rel
	.long	.Lnoise_static.13-.Lnoise_switch.table.noise_sentence.201.rel
	.long	.Lnoise_static.14-.Lnoise_switch.table.noise_sentence.201.rel
	.long	.Lnoise_static.15-.Lnoise_switch.table.noise_sentence.201.rel
	.long	.Lnoise_static.16-.Lnoise_switch.table.noise_sentence.201.rel
	.long	.Lnoise_static.17-.Lnoise_switch.table.noise_sentence.201.rel
	.long	.Lnoise_static.18-.Lnoise_switch.table.noise_sentence.201.rel
	.long	.Lnoise_static.19-.Lnoise_switch.table.noise_sentence.201.rel
	.long	.Lnoise_static.20-.Lnoise_switch.table.noise_sentence.201.rel
	.long	.Lnoise_static.21-.Lnoise_switch.table.noise_sentence.201.rel
	.long	.Lnoise_static.22-.Lnoise_switch.table.noise_sentence.201.rel
	.long	.Lnoise_static.47-.Lnoise_switch.table.noise_sentence.201.rel
	.long	.Lnoise_static.23-.Lnoise_switch.table.noise_sentence.201.rel
	.long	.Lnoise_static.24-.Lnoise_switch.table.noise_sentence.201.rel
	.long	.Lnoise_static.25-.Lnoise_switch.table.noise_sentence.201.rel
	.long	.Lnoise_static.26-.Lnoise_switch.table.noise_sentence.201.rel
	.long	.Lnoise_static.27-.Lnoise_switch.table.noise_sentence.201.rel
	.long	.Lnoise_static.28-.Lnoise_switch.table.noise_sentence.201.rel
	.long	.Lnoise_static.29-.Lnoise_switch.table.noise_sentence.201.rel
	.long	.Lnoise_static.30-.Lnoise_switch.table.noise_sentence.201.rel
	.long	.Lnoise_static.31-.Lnoise_switch.table.noise_sentence.201.rel
	.long	.Lnoise_static.32-.Lnoise_switch.table.noise_sentence.201.rel
	.long	.Lnoise_static.33-.Lnoise_switch.table.noise_sentence.201.rel
	.long	.Lnoise_static.34-.Lnoise_switch.table.noise_sentence.201.rel
	.long	.Lnoise_static.35-.Lnoise_switch.table.noise_sentence.201.rel
	.long	.Lnoise_static.36-.Lnoise_switch.table.noise_sentence.201.rel
	.long	.Lnoise_static.37-.Lnoise_switch.table.noise_sentence.201.rel
	.long	.Lnoise_static.38-.Lnoise_switch.table.noise_sentence.201.rel
	.long	.Lnoise_static.39-.Lnoise_switch.table.noise_sentence.201.rel
	.long	.Lnoise_static.40-.Lnoise_switch.table.noise_sentence.201.rel
	.long	.Lnoise_static.41-.Lnoise_switch.table.noise_sentence.201.rel
	.long	.Lnoise_static.42-.Lnoise_switch.table.noise_sentence.201.rel
	.long	.Lnoise_static.43-.Lnoise_switch.table.noise_sentence.201.rel
	.long	.Lnoise_static.44-.Lnoise_switch.table.noise_sentence.201.rel
	.long	.Lnoise_static.45-.Lnoise_switch.table.noise_sentence.201.rel
	.long	.Lnoise_static.46-.Lnoise_switch.table.noise_sentence.201.rel

	.p2align	2, 0x0
.Lnoise_switch.table.noise_stream_read:
	.long	15
	.long	16
	.long	17
	.long	22

	.p2align	3, 0x0
.Lnoise_switch.table.noise_datagram_open.203:
	.quad	64
	.quad	256
	.quad	1024

	.p2align	3, 0x0
.Lnoise_switch.table.noise_datagram_open.205:
	.quad	2
	.quad	5
	.quad	17

	.p2align	2, 0x0
.Lnoise_switch.table.noise_finish_datagrams:
	.long	64
	.long	256
	.long	1024

	.section	.rdata,"dr"
	.p2align	5, 0x0
.Lnoise_CPI_v3w_1_0:
	.quad	0
	.quad	1
	.quad	2
	.quad	3
	.section	.rdata,"dr"
	.p2align	5, 0x0
.Lnoise_CPI_v3w_1_1:
	.long	0
	.long	2
	.long	4
	.long	6
	.long	4
	.long	6
	.long	6
	.long	7
	.section	.rdata,"dr"
	.p2align	5, 0x0
.Lnoise_CPI_v3w_1_2:
	.long	0
	.long	1
	.long	2
	.long	3
	.zero	16
	.section	.rdata,"dr"
	.p2align	5, 0x0
.Lnoise_CPI_v3w_1_3:
	.long	857760878
	.long	857760878
	.long	857760878
	.long	857760878
	.long	2036477234
	.long	2036477234
	.long	2036477234
	.long	2036477234
	.section	.rdata,"dr"
	.p2align	5, 0x0
.Lnoise_CPI_v3w_1_4:
	.long	1797285236
	.long	1797285236
	.long	1797285236
	.long	1797285236
	.long	1634760805
	.long	1634760805
	.long	1634760805
	.long	1634760805
	.section	.rdata,"dr"
	.p2align	5, 0x0
.Lnoise_CPI_v3w_1_5:
	.byte	2
	.byte	3
	.byte	0
	.byte	1
	.byte	6
	.byte	7
	.byte	4
	.byte	5
	.byte	10
	.byte	11
	.byte	8
	.byte	9
	.byte	14
	.byte	15
	.byte	12
	.byte	13
	.byte	18
	.byte	19
	.byte	16
	.byte	17
	.byte	22
	.byte	23
	.byte	20
	.byte	21
	.byte	26
	.byte	27
	.byte	24
	.byte	25
	.byte	30
	.byte	31
	.byte	28
	.byte	29
	.section	.rdata,"dr"
	.p2align	5, 0x0
.Lnoise_CPI_v3w_1_6:
	.byte	3
	.byte	0
	.byte	1
	.byte	2
	.byte	7
	.byte	4
	.byte	5
	.byte	6
	.byte	11
	.byte	8
	.byte	9
	.byte	10
	.byte	15
	.byte	12
	.byte	13
	.byte	14
	.byte	19
	.byte	16
	.byte	17
	.byte	18
	.byte	23
	.byte	20
	.byte	21
	.byte	22
	.byte	27
	.byte	24
	.byte	25
	.byte	26
	.byte	31
	.byte	28
	.byte	29
	.byte	30
	.section	.rdata,"dr"
	.p2align	5, 0x0
.Lnoise_CPI_v3w_1_7:
	.long	1634760805
	.section	.rdata,"dr"
	.p2align	5, 0x0
.Lnoise_CPI_v3w_1_8:
	.long	857760878
	.section	.rdata,"dr"
	.p2align	5, 0x0
.Lnoise_CPI_v3w_1_9:
	.long	2036477234
	.section	.rdata,"dr"
	.p2align	5, 0x0
.Lnoise_CPI_v3w_1_10:
	.long	1797285236
	.zero	16
	.section	.rdata,"dr"
	.p2align	5, 0x0
.Lnoise_CPI_v3w_1_11:
	.long	0
	.long	1
	.long	2
	.zero	4
	.long	5
	.zero	4
	.zero	4
	.zero	4
	.section	.rdata,"dr"
	.p2align	5, 0x0
.Lnoise_CPI_v3w_1_12:
	.long	0
	.long	1
	.long	2
	.zero	4
	.long	7
	.zero	4
	.zero	4
	.zero	4
	.section	.rdata,"dr"
	.p2align	5, 0x0
.Lnoise_CPI_v3w_1_13:
	.long	0
	.long	1
	.long	2
	.zero	4
	.long	4
	.long	3
	.zero	4
	.zero	4
	.def	"rand_chacha::guts::refill4.v3";
	.scl	3;
	.type	32;
	.endef
	.text
	.p2align	4
"rand_chacha::guts::refill4.v3":
.seh_proc "rand_chacha::guts::refill4.v3"
	subq	$392, %rsp
	.seh_stackalloc 392
	vmovaps	%xmm15, 368(%rsp)
	.seh_savexmm %xmm15, 368
	vmovaps	%xmm14, 352(%rsp)
	.seh_savexmm %xmm14, 352
	vmovaps	%xmm13, 336(%rsp)
	.seh_savexmm %xmm13, 336
	vmovaps	%xmm12, 320(%rsp)
	.seh_savexmm %xmm12, 320
	vmovaps	%xmm11, 304(%rsp)
	.seh_savexmm %xmm11, 304
	vmovaps	%xmm10, 288(%rsp)
	.seh_savexmm %xmm10, 288
	vmovaps	%xmm9, 272(%rsp)
	.seh_savexmm %xmm9, 272
	vmovaps	%xmm8, 256(%rsp)
	.seh_savexmm %xmm8, 256
	vmovaps	%xmm7, 240(%rsp)
	.seh_savexmm %xmm7, 240
	vmovaps	%xmm6, 224(%rsp)
	.seh_savexmm %xmm6, 224
	.seh_endprologue
	vpbroadcastd	(%rcx), %xmm12
	vpbroadcastd	4(%rcx), %xmm9
	vpbroadcastd	8(%rcx), %xmm10
	vpbroadcastd	12(%rcx), %xmm8
	vpbroadcastd	16(%rcx), %xmm5
	vpbroadcastd	20(%rcx), %xmm7
	vpbroadcastd	24(%rcx), %xmm3
	vpbroadcastd	28(%rcx), %xmm6
	vmovq	%rdx, %xmm0
	vpbroadcastq	%xmm0, %ymm0
	vpaddq	.Lnoise_CPI_v3w_1_0(%rip), %ymm0, %ymm1
	vmovdqa	.Lnoise_CPI_v3w_1_1(%rip), %ymm2
	vpermd	%ymm0, %ymm2, %ymm0
	vpaddd	.Lnoise_CPI_v3w_1_2(%rip), %xmm0, %xmm4
	vpsrlq	$32, %ymm1, %ymm0
	vpermd	%ymm0, %ymm2, %ymm1
	vmovd	%r8d, %xmm0
	vpbroadcastd	%xmm0, %xmm2
	shrq	$32, %r8
	vmovd	%r8d, %xmm0
	vpbroadcastd	%xmm0, %xmm0
	vmovdqu	%ymm5, 128(%rsp)
	vmovdqa	%xmm7, 16(%rsp)
	vinserti128	$1, %xmm7, %ymm5, %ymm14
	vmovdqa	%xmm4, 48(%rsp)
	vmovdqu	%ymm0, 96(%rsp)
	vinserti128	$1, %xmm4, %ymm0, %ymm11
	vmovdqu	%ymm8, 64(%rsp)
	vinserti128	$1, %xmm12, %ymm8, %ymm0
	vmovdqu	%ymm1, 192(%rsp)
	vmovdqa	%xmm2, (%rsp)
	vinserti128	$1, %xmm2, %ymm1, %ymm13
	movl	$10, %eax
	vmovdqa	.Lnoise_CPI_v3w_1_3(%rip), %ymm5
	vmovdqa	.Lnoise_CPI_v3w_1_4(%rip), %ymm4
	vinserti128	$1, %xmm10, %ymm9, %ymm1
	vmovdqu	%ymm3, 160(%rsp)
	vmovdqa	%xmm6, 32(%rsp)
	vinserti128	$1, %xmm6, %ymm3, %ymm15
	.p2align	4
.Lnoise_BB_v3w_1_1:
	vpaddd	%ymm5, %ymm1, %ymm3
	vpaddd	%ymm4, %ymm0, %ymm4
	vpxor	%ymm4, %ymm11, %ymm5
	vpxor	%ymm3, %ymm13, %ymm6
	vmovdqa	.Lnoise_CPI_v3w_1_5(%rip), %ymm2
	vpshufb	%ymm2, %ymm6, %ymm6
	vpshufb	%ymm2, %ymm5, %ymm5
	vperm2i128	$33, %ymm15, %ymm14, %ymm7
	vperm2i128	$33, %ymm14, %ymm15, %ymm11
	vpaddd	%ymm5, %ymm11, %ymm11
	vpaddd	%ymm7, %ymm6, %ymm7
	vpxor	%ymm1, %ymm7, %ymm1
	vpxor	%ymm0, %ymm11, %ymm0
	vpsrld	$20, %ymm0, %ymm13
	vpslld	$12, %ymm0, %ymm0
	vpor	%ymm0, %ymm13, %ymm13
	vpsrld	$20, %ymm1, %ymm0
	vpslld	$12, %ymm1, %ymm1
	vpor	%ymm0, %ymm1, %ymm1
	vpaddd	%ymm3, %ymm1, %ymm3
	vpaddd	%ymm4, %ymm13, %ymm4
	vmovdqa	.Lnoise_CPI_v3w_1_6(%rip), %ymm0
	vpshufb	%ymm0, %ymm4, %ymm14
	vpshufb	%ymm0, %ymm5, %ymm5
	vpxor	%ymm5, %ymm14, %ymm5
	vpshufb	%ymm0, %ymm3, %ymm14
	vpshufb	%ymm0, %ymm6, %ymm6
	vpxor	%ymm6, %ymm14, %ymm6
	vpaddd	%ymm7, %ymm6, %ymm7
	vpaddd	%ymm5, %ymm11, %ymm11
	vpxor	%ymm13, %ymm11, %ymm13
	vpxor	%ymm1, %ymm7, %ymm1
	vpsrld	$25, %ymm1, %ymm14
	vpslld	$7, %ymm1, %ymm1
	vpor	%ymm1, %ymm14, %ymm1
	vpsrld	$25, %ymm13, %ymm14
	vpslld	$7, %ymm13, %ymm13
	vpor	%ymm14, %ymm13, %ymm13
	vperm2i128	$33, %ymm3, %ymm4, %ymm14
	vperm2i128	$33, %ymm4, %ymm3, %ymm3
	vpaddd	%ymm3, %ymm13, %ymm4
	vpaddd	%ymm1, %ymm14, %ymm3
	vpshufb	%ymm2, %ymm3, %ymm14
	vpshufb	%ymm2, %ymm5, %ymm5
	vpxor	%ymm5, %ymm14, %ymm5
	vpshufb	%ymm2, %ymm4, %ymm14
	vpshufb	%ymm2, %ymm6, %ymm2
	vpxor	%ymm2, %ymm14, %ymm6
	vperm2i128	$33, %ymm11, %ymm7, %ymm2
	vperm2i128	$33, %ymm7, %ymm11, %ymm7
	vpaddd	%ymm7, %ymm6, %ymm7
	vpaddd	%ymm2, %ymm5, %ymm14
	vpxor	%ymm1, %ymm14, %ymm1
	vpxor	%ymm7, %ymm13, %ymm2
	vpsrld	$20, %ymm2, %ymm11
	vpslld	$12, %ymm2, %ymm2
	vpor	%ymm2, %ymm11, %ymm8
	vpsrld	$20, %ymm1, %ymm2
	vpslld	$12, %ymm1, %ymm1
	vpor	%ymm2, %ymm1, %ymm1
	vpaddd	%ymm3, %ymm1, %ymm3
	vpaddd	%ymm4, %ymm8, %ymm2
	vpshufb	%ymm0, %ymm2, %ymm4
	vpshufb	%ymm0, %ymm6, %ymm6
	vpxor	%ymm6, %ymm4, %ymm13
	vpshufb	%ymm0, %ymm3, %ymm4
	vpshufb	%ymm0, %ymm5, %ymm0
	vpxor	%ymm0, %ymm4, %ymm11
	vpaddd	%ymm14, %ymm11, %ymm15
	vpaddd	%ymm7, %ymm13, %ymm14
	vpxor	%ymm8, %ymm14, %ymm0
	vpxor	%ymm1, %ymm15, %ymm1
	vpsrld	$25, %ymm1, %ymm4
	vpslld	$7, %ymm1, %ymm1
	vpor	%ymm4, %ymm1, %ymm1
	vpsrld	$25, %ymm0, %ymm4
	vpslld	$7, %ymm0, %ymm0
	vpor	%ymm4, %ymm0, %ymm0
	vperm2i128	$33, %ymm3, %ymm2, %ymm4
	vperm2i128	$33, %ymm2, %ymm3, %ymm5
	decl	%eax
	jne	.Lnoise_BB_v3w_1_1
	vpbroadcastd	.Lnoise_CPI_v3w_1_7(%rip), %xmm4
	vpaddd	%xmm4, %xmm3, %xmm5
	vextracti128	$1, %ymm3, %xmm3
	vpbroadcastd	.Lnoise_CPI_v3w_1_8(%rip), %xmm4
	vpaddd	%xmm4, %xmm3, %xmm6
	vpbroadcastd	.Lnoise_CPI_v3w_1_9(%rip), %xmm3
	vpaddd	%xmm3, %xmm2, %xmm3
	vextracti128	$1, %ymm2, %xmm2
	vpbroadcastd	.Lnoise_CPI_v3w_1_10(%rip), %xmm4
	vpaddd	%xmm4, %xmm2, %xmm2
	vpbroadcastd	%xmm12, %xmm4
	vextracti128	$1, %ymm0, %xmm12
	vpaddd	%xmm4, %xmm12, %xmm12
	vpbroadcastd	%xmm10, %xmm10
	vpbroadcastd	%xmm9, %xmm4
	vpaddd	%xmm1, %xmm4, %xmm4
	vextracti128	$1, %ymm1, %xmm1
	vpaddd	%xmm1, %xmm10, %xmm9
	vpbroadcastd	64(%rsp), %xmm1
	vpaddd	%xmm0, %xmm1, %xmm10
	vpunpckldq	%xmm6, %xmm5, %xmm0
	vpunpcklqdq	%xmm3, %xmm0, %xmm0
	vpbroadcastd	%xmm2, %xmm1
	vpblendd	$8, %xmm1, %xmm0, %xmm0
	vinserti128	$1, %xmm12, %ymm0, %ymm0
	vpbroadcastd	%xmm4, %ymm1
	vpblendd	$32, %ymm1, %ymm0, %ymm0
	vpbroadcastq	%xmm9, %ymm1
	vpblendd	$192, %ymm1, %ymm0, %ymm0
	vpbroadcastd	%xmm10, %ymm1
	vpblendd	$128, %ymm1, %ymm0, %ymm0
	vmovdqu	%ymm0, (%r9)
	vpshufd	$85, %xmm5, %xmm0
	vpblendd	$2, %xmm6, %xmm0, %xmm0
	vshufps	$212, %xmm3, %xmm0, %xmm1
	vinsertf128	$1, %xmm12, %ymm1, %ymm8
	vmovaps	.Lnoise_CPI_v3w_1_11(%rip), %ymm0
	vpermps	%ymm8, %ymm0, %ymm8
	vpbroadcastq	%xmm2, %xmm7
	vblendps	$8, %ymm7, %ymm8, %ymm7
	vinsertf128	$1, %xmm4, %ymm1, %ymm1
	vblendps	$34, %ymm1, %ymm7, %ymm1
	vpmovzxdq	%xmm9, %xmm7
	vinsertf128	$1, %xmm7, %ymm0, %ymm7
	vblendps	$192, %ymm7, %ymm1, %ymm1
	vpbroadcastq	%xmm10, %ymm7
	vblendps	$128, %ymm7, %ymm1, %ymm1
	vmovups	%ymm1, 64(%r9)
	vpunpckhdq	%xmm6, %xmm5, %xmm1
	vpblendd	$12, %xmm3, %xmm1, %xmm5
	vinserti128	$1, %xmm12, %ymm5, %ymm5
	vpermq	$244, %ymm5, %ymm5
	vpshufd	$170, %xmm2, %xmm6
	vpblendd	$8, %ymm6, %ymm5, %ymm5
	vshufps	$250, %xmm4, %xmm4, %xmm6
	vinsertf128	$1, %xmm6, %ymm0, %ymm6
	vpblendd	$32, %ymm6, %ymm5, %ymm5
	vinsertf128	$1, %xmm9, %ymm0, %ymm6
	vpblendd	$192, %ymm6, %ymm5, %ymm5
	vpshufd	$170, %xmm10, %xmm6
	vinsertf128	$1, %xmm6, %ymm0, %ymm6
	vpblendd	$128, %ymm6, %ymm5, %ymm5
	vmovdqu	%ymm5, 128(%r9)
	vshufps	$254, %xmm3, %xmm1, %xmm1
	vinsertf128	$1, %xmm12, %ymm1, %ymm3
	vmovaps	.Lnoise_CPI_v3w_1_12(%rip), %ymm1
	vpermps	%ymm3, %ymm1, %ymm3
	vblendps	$8, %ymm4, %ymm3, %ymm3
	vmovaps	.Lnoise_CPI_v3w_1_13(%rip), %ymm8
	vpermps	%ymm3, %ymm8, %ymm3
	vshufps	$250, %xmm9, %xmm9, %xmm4
	vinsertf128	$1, %xmm4, %ymm0, %ymm4
	vblendps	$192, %ymm4, %ymm3, %ymm3
	vinserti128	$1, %xmm10, %ymm2, %ymm2
	vblendps	$136, %ymm2, %ymm3, %ymm2
	vmovups	%ymm2, 192(%r9)
	vpbroadcastd	16(%rsp), %xmm2
	vpbroadcastd	128(%rsp), %xmm3
	vpaddd	%xmm3, %xmm14, %xmm9
	vextracti128	$1, %ymm14, %xmm3
	vpaddd	%xmm3, %xmm2, %xmm10
	vpbroadcastd	32(%rsp), %xmm2
	vpbroadcastd	160(%rsp), %xmm3
	vpaddd	%xmm3, %xmm15, %xmm3
	vextracti128	$1, %ymm15, %xmm4
	vpaddd	%xmm4, %xmm2, %xmm2
	vextracti128	$1, %ymm11, %xmm4
	vpaddd	48(%rsp), %xmm4, %xmm4
	vpbroadcastd	(%rsp), %xmm5
	vpbroadcastd	96(%rsp), %xmm12
	vpaddd	192(%rsp), %xmm13, %xmm7
	vextracti128	$1, %ymm13, %xmm6
	vpaddd	%xmm6, %xmm5, %xmm6
	vpaddd	%xmm11, %xmm12, %xmm5
	vpunpckldq	%xmm10, %xmm9, %xmm11
	vpunpcklqdq	%xmm3, %xmm11, %xmm11
	vpbroadcastd	%xmm2, %xmm12
	vpblendd	$8, %xmm12, %xmm11, %xmm11
	vinserti128	$1, %xmm4, %ymm11, %ymm11
	vpbroadcastd	%xmm7, %ymm12
	vpblendd	$32, %ymm12, %ymm11, %ymm11
	vpbroadcastq	%xmm6, %ymm12
	vpblendd	$192, %ymm12, %ymm11, %ymm11
	vpbroadcastd	%xmm5, %ymm12
	vpblendd	$128, %ymm12, %ymm11, %ymm11
	vmovdqu	%ymm11, 32(%r9)
	vpshufd	$85, %xmm9, %xmm11
	vpblendd	$2, %xmm10, %xmm11, %xmm11
	vshufps	$212, %xmm3, %xmm11, %xmm11
	vinsertf128	$1, %xmm4, %ymm11, %ymm12
	vpermps	%ymm12, %ymm0, %ymm0
	vpbroadcastq	%xmm2, %xmm12
	vblendps	$8, %ymm12, %ymm0, %ymm0
	vinsertf128	$1, %xmm7, %ymm11, %ymm11
	vblendps	$34, %ymm11, %ymm0, %ymm0
	vpmovzxdq	%xmm6, %xmm11
	vinsertf128	$1, %xmm11, %ymm0, %ymm11
	vblendps	$192, %ymm11, %ymm0, %ymm0
	vpbroadcastq	%xmm5, %ymm11
	vblendps	$128, %ymm11, %ymm0, %ymm0
	vmovups	%ymm0, 96(%r9)
	vpunpckhdq	%xmm10, %xmm9, %xmm0
	vpblendd	$12, %xmm3, %xmm0, %xmm9
	vinserti128	$1, %xmm4, %ymm9, %ymm9
	vpermq	$244, %ymm9, %ymm9
	vpshufd	$170, %xmm2, %xmm10
	vpblendd	$8, %ymm10, %ymm9, %ymm9
	vpshufd	$250, %xmm7, %xmm10
	vinserti128	$1, %xmm10, %ymm0, %ymm10
	vpblendd	$32, %ymm10, %ymm9, %ymm9
	vinserti128	$1, %xmm6, %ymm0, %ymm10
	vpblendd	$192, %ymm10, %ymm9, %ymm9
	vpshufd	$170, %xmm5, %xmm10
	vinserti128	$1, %xmm10, %ymm0, %ymm10
	vpblendd	$128, %ymm10, %ymm9, %ymm9
	vmovdqu	%ymm9, 160(%r9)
	vshufps	$254, %xmm3, %xmm0, %xmm0
	vinsertf128	$1, %xmm4, %ymm0, %ymm0
	vpermps	%ymm0, %ymm1, %ymm0
	vblendps	$8, %ymm7, %ymm0, %ymm0
	vpermps	%ymm0, %ymm8, %ymm0
	vpshufd	$250, %xmm6, %xmm1
	vinsertf128	$1, %xmm1, %ymm0, %ymm1
	vblendps	$192, %ymm1, %ymm0, %ymm0
	vinserti128	$1, %xmm5, %ymm2, %ymm1
	vblendps	$136, %ymm1, %ymm0, %ymm0
	vmovups	%ymm0, 224(%r9)
	vmovaps	224(%rsp), %xmm6
	vmovaps	240(%rsp), %xmm7
	vmovaps	256(%rsp), %xmm8
	vmovaps	272(%rsp), %xmm9
	vmovaps	288(%rsp), %xmm10
	vmovaps	304(%rsp), %xmm11
	vmovaps	320(%rsp), %xmm12
	vmovaps	336(%rsp), %xmm13
	vmovaps	352(%rsp), %xmm14
	vmovaps	368(%rsp), %xmm15
	addq	$392, %rsp
	vzeroupper
	retq
	.seh_endproc

	.def	"noise_poly::Poly1305::take_aligned.v3";
	.scl	3;
	.type	32;
	.endef
	.text
	.p2align	4
"noise_poly::Poly1305::take_aligned.v3":
.seh_proc "noise_poly::Poly1305::take_aligned.v3"
	pushq	%r15
	.seh_pushreg %r15
	pushq	%r14
	.seh_pushreg %r14
	pushq	%r13
	.seh_pushreg %r13
	pushq	%r12
	.seh_pushreg %r12
	pushq	%rsi
	.seh_pushreg %rsi
	pushq	%rdi
	.seh_pushreg %rdi
	pushq	%rbx
	.seh_pushreg %rbx
	subq	$32, %rsp
	.seh_stackalloc 32
	.seh_endprologue
	movq	%rdx, %rax
	cmpq	$1023, %r8
	ja	.Lnoise_BB_v3_4_3
	movq	(%rcx), %r10
	movq	8(%rcx), %r9
	movq	16(%rcx), %r11
	cmpq	$16, %r8
	jae	.Lnoise_BB_v3_4_4
	movq	24(%rcx), %rdx
	jmp	.Lnoise_BB_v3_4_7
.Lnoise_BB_v3_4_3:
	movq	%rax, %rdx
	addq	$32, %rsp
	popq	%rbx
	popq	%rdi
	popq	%rsi
	popq	%r12
	popq	%r13
	popq	%r14
	popq	%r15
	jmp	"noise_poly::Poly1305::take_eights.v3"
.Lnoise_BB_v3_4_4:
	movq	32(%rcx), %rsi
	movq	40(%rcx), %rdi
	movq	%rdi, %rbx
	shrq	$2, %rbx
	addq	%rdi, %rbx
	.p2align	4
.Lnoise_BB_v3_4_5:
	addq	(%rax), %r10
	adcq	8(%rax), %r9
	adcq	$1, %r11
	movq	%r10, %rdx
	mulxq	%rsi, %r13, %r12
	movq	%r9, %rdx
	mulxq	%rbx, %r14, %r15
	addq	%r13, %r14
	adcq	%r12, %r15
	movq	%r10, %rdx
	mulxq	%rdi, %r12, %r10
	movq	%r9, %rdx
	mulxq	%rsi, %rdx, %r13
	addq	%r12, %rdx
	adcq	%r10, %r13
	movq	%r11, %r9
	imulq	%rbx, %r9
	addq	%rdx, %r9
	adcq	$0, %r13
	imulq	%rsi, %r11
	movq	%r9, %rdx
	addq	%r15, %rdx
	adcq	%r13, %r11
	movq	%r11, %r10
	shrq	$2, %r10
	leaq	(%r10,%r10,4), %r12
	movq	%r12, %r10
	addq	%r14, %r10
	adcq	%r15, %r9
	andl	$3, %r11d
	movq	%r14, %r10
	addq	%r12, %r10
	adcq	$0, %rdx
	adcq	$0, %r11
	addq	$16, %rax
	addq	$-16, %r8
	cmpq	$15, %r8
	ja	.Lnoise_BB_v3_4_5
	xorl	%edx, %edx
.Lnoise_BB_v3_4_7:
	movq	%r10, (%rcx)
	movq	%r9, 8(%rcx)
	movq	%r11, 16(%rcx)
	movq	%rdx, 24(%rcx)
	movq	80(%rcx), %rdi
	leaq	(%rcx,%rdi), %rdx
	addq	$64, %rdx
	movq	%rdx, %r9
	subq	%rax, %r9
	cmpq	%r8, %r9
	jae	.Lnoise_BB_v3_4_10
	cmpq	$8, %r8
	jb	.Lnoise_BB_v3_4_9
	leaq	(%rdi,%rcx), %r9
	subq	%rax, %r9
	addq	$64, %r9
	cmpq	$128, %r9
	jae	.Lnoise_BB_v3_4_13
.Lnoise_BB_v3_4_9:
	xorl	%r9d, %r9d
.Lnoise_BB_v3_4_16:
	movq	%r8, %r11
	movq	%r9, %r10
	andq	$7, %r11
	je	.Lnoise_BB_v3_4_19
	movq	%r9, %r10
	.p2align	4
.Lnoise_BB_v3_4_18:
	movzbl	(%rax,%r10), %ebx
	movb	%bl, (%rdx,%r10)
	incq	%r10
	decq	%r11
	jne	.Lnoise_BB_v3_4_18
.Lnoise_BB_v3_4_19:
	subq	%r8, %r9
	cmpq	$-8, %r9
	ja	.Lnoise_BB_v3_4_22
	leaq	(%rdi,%rcx), %rdx
	addq	$71, %rdx
	.p2align	4
.Lnoise_BB_v3_4_21:
	movzbl	(%rax,%r10), %r9d
	movb	%r9b, -7(%rdx,%r10)
	movzbl	1(%rax,%r10), %r9d
	movb	%r9b, -6(%rdx,%r10)
	movzbl	2(%rax,%r10), %r9d
	movb	%r9b, -5(%rdx,%r10)
	movzbl	3(%rax,%r10), %r9d
	movb	%r9b, -4(%rdx,%r10)
	movzbl	4(%rax,%r10), %r9d
	movb	%r9b, -3(%rdx,%r10)
	movzbl	5(%rax,%r10), %r9d
	movb	%r9b, -2(%rdx,%r10)
	movzbl	6(%rax,%r10), %r9d
	movb	%r9b, -1(%rdx,%r10)
	movzbl	7(%rax,%r10), %r9d
	movb	%r9b, (%rdx,%r10)
	addq	$8, %r10
	cmpq	%r10, %r8
	jne	.Lnoise_BB_v3_4_21
	jmp	.Lnoise_BB_v3_4_22
.Lnoise_BB_v3_4_10:
	movq	%rcx, %rbx
	movq	%rdx, %rcx
	movq	%rax, %rdx
	movq	%r8, %rsi
	callq	memmove
	movq	%rbx, %rcx
	movq	%rsi, %r8
.Lnoise_BB_v3_4_22:
	addq	%r8, %rdi
	movq	%rdi, 80(%rcx)
	addq	$32, %rsp
	popq	%rbx
	popq	%rdi
	popq	%rsi
	popq	%r12
	popq	%r13
	popq	%r14
	popq	%r15
	retq
.Lnoise_BB_v3_4_13:
	movl	%r8d, %r9d
	andl	$8, %r9d
	xorl	%r10d, %r10d
	.p2align	4
.Lnoise_BB_v3_4_14:
	movq	(%rax,%r10), %r11
	movq	%r11, (%rdx,%r10)
	addq	$8, %r10
	cmpq	%r10, %r9
	jne	.Lnoise_BB_v3_4_14
	cmpq	%r9, %r8
	je	.Lnoise_BB_v3_4_22
	jmp	.Lnoise_BB_v3_4_16
	.seh_endproc

	.def	"sha2::block256::compress.v3";
	.scl	3;
	.type	32;
	.endef
	.text
	.p2align	4
"sha2::block256::compress.v3":
.seh_proc "sha2::block256::compress.v3"
	pushq	%r15
	.seh_pushreg %r15
	pushq	%r14
	.seh_pushreg %r14
	pushq	%r13
	.seh_pushreg %r13
	pushq	%r12
	.seh_pushreg %r12
	pushq	%rsi
	.seh_pushreg %rsi
	pushq	%rdi
	.seh_pushreg %rdi
	pushq	%rbp
	.seh_pushreg %rbp
	pushq	%rbx
	.seh_pushreg %rbx
	subq	$112, %rsp
	.seh_stackalloc 112
	.seh_endprologue
	movbel	(%rdx), %ebx
	movbel	4(%rdx), %ebp
	movq	%rdx, %r13
	movl	8(%rcx), %r9d
	movl	(%rcx), %r11d
	movl	4(%rcx), %r10d
	movl	20(%rcx), %r14d
	movl	24(%rcx), %edi
	movl	16(%rcx), %esi
	movq	%rcx, %rdx
	rorxl	$14, %esi, %eax
	xorl	%esi, %eax
	rorxl	$5, %eax, %eax
	xorl	%esi, %eax
	rorxl	$6, %eax, %eax
	andnl	%edi, %esi, %ecx
	movl	%r14d, %r8d
	andl	%esi, %r8d
	orl	%ecx, %r8d
	movl	28(%rdx), %ecx
	movq	%rdx, 104(%rsp)
	movl	%ebx, 76(%rsp)
	addl	%ebx, %ecx
	addl	%eax, %ecx
	leal	(%rcx,%r8), %eax
	addl	$1116352408, %eax
	rorxl	$9, %r11d, %ecx
	xorl	%r11d, %ecx
	rorxl	$11, %ecx, %ecx
	xorl	%r11d, %ecx
	rorxl	$2, %ecx, %r8d
	movl	%r10d, %ecx
	xorl	%r11d, %ecx
	andnl	%r10d, %ecx, %ebx
	movl	%r9d, %r12d
	andl	%ecx, %r12d
	orl	%ebx, %r12d
	addl	%r8d, %r12d
	addl	%eax, %r12d
	addl	12(%rdx), %eax
	andnl	%r14d, %eax, %r8d
	movl	%esi, %ebx
	andl	%eax, %ebx
	orl	%r8d, %ebx
	rorxl	$14, %eax, %r8d
	xorl	%eax, %r8d
	rorxl	$5, %r8d, %r8d
	xorl	%eax, %r8d
	rorxl	$6, %r8d, %r8d
	movl	%ebp, 40(%rsp)
	addl	%ebp, %edi
	addl	%ebx, %edi
	movl	%edi, %ebx
	addl	%r8d, %edi
	addl	%r8d, %ebx
	addl	$1899447441, %ebx
	rorxl	$9, %r12d, %r8d
	xorl	%r12d, %r8d
	rorxl	$11, %r8d, %r8d
	xorl	%r12d, %r8d
	rorxl	$2, %r8d, %ebp
	movl	%r12d, %r8d
	xorl	%r11d, %r8d
	andl	%r8d, %ecx
	xorl	%r11d, %ecx
	addl	%ebp, %ecx
	addl	%ebx, %ecx
	addl	%r9d, %edi
	addl	$1899447441, %edi
	andnl	%esi, %edi, %r9d
	movl	%eax, %ebx
	andl	%edi, %ebx
	orl	%r9d, %ebx
	movbel	8(%r13), %r9d
	movl	%r9d, 72(%rsp)
	addl	%r9d, %r14d
	addl	%ebx, %r14d
	rorxl	$14, %edi, %r9d
	xorl	%edi, %r9d
	rorxl	$5, %r9d, %r9d
	xorl	%edi, %r9d
	rorxl	$6, %r9d, %r9d
	movl	%r14d, %ebx
	addl	%r9d, %r14d
	addl	%r9d, %ebx
	addl	$-1245643825, %ebx
	rorxl	$9, %ecx, %r9d
	xorl	%ecx, %r9d
	rorxl	$11, %r9d, %r9d
	xorl	%ecx, %r9d
	rorxl	$2, %r9d, %ebp
	movl	%ecx, %r9d
	xorl	%r12d, %r9d
	andl	%r9d, %r8d
	xorl	%r12d, %r8d
	addl	%ebp, %r8d
	addl	%ebx, %r8d
	addl	%r10d, %r14d
	addl	$-1245643825, %r14d
	movl	%edi, %r10d
	andl	%r14d, %r10d
	movbel	12(%r13), %ebp
	andnl	%eax, %r14d, %ebx
	orl	%ebx, %r10d
	movl	%ebp, 68(%rsp)
	addl	%ebp, %esi
	addl	%r10d, %esi
	rorxl	$14, %r14d, %r10d
	xorl	%r14d, %r10d
	rorxl	$5, %r10d, %r10d
	xorl	%r14d, %r10d
	rorxl	$6, %r10d, %r10d
	movl	%esi, %ebx
	addl	%r10d, %esi
	addl	%r10d, %ebx
	addl	$-373957723, %ebx
	rorxl	$9, %r8d, %r10d
	xorl	%r8d, %r10d
	rorxl	$11, %r10d, %r10d
	xorl	%r8d, %r10d
	rorxl	$2, %r10d, %ebp
	movl	%r8d, %r10d
	xorl	%ecx, %r10d
	andl	%r10d, %r9d
	xorl	%ecx, %r9d
	addl	%ebp, %r9d
	addl	%ebx, %r9d
	leal	(%r11,%rsi), %r15d
	addl	$-373957723, %r15d
	movl	%r14d, %r11d
	andl	%r15d, %r11d
	andnl	%edi, %r15d, %esi
	orl	%esi, %r11d
	movq	%r13, %rdx
	movbel	16(%r13), %esi
	movl	%esi, 64(%rsp)
	addl	%esi, %eax
	addl	%r11d, %eax
	rorxl	$14, %r15d, %r11d
	xorl	%r15d, %r11d
	rorxl	$5, %r11d, %r11d
	xorl	%r15d, %r11d
	rorxl	$6, %r11d, %r11d
	addl	%r11d, %eax
	addl	$961987163, %eax
	rorxl	$9, %r9d, %r11d
	xorl	%r9d, %r11d
	rorxl	$11, %r11d, %r11d
	xorl	%r9d, %r11d
	rorxl	$2, %r11d, %r11d
	movl	%r9d, %r13d
	xorl	%r8d, %r13d
	andl	%r13d, %r10d
	xorl	%r8d, %r10d
	addl	%r11d, %r10d
	addl	%eax, %r10d
	addl	%eax, %r12d
	movl	%r15d, %eax
	andl	%r12d, %eax
	andnl	%r14d, %r12d, %r11d
	orl	%r11d, %eax
	movbel	20(%rdx), %r11d
	movq	%rdx, %rbx
	movl	%r11d, 60(%rsp)
	addl	%r11d, %edi
	addl	%eax, %edi
	rorxl	$14, %r12d, %eax
	xorl	%r12d, %eax
	rorxl	$5, %eax, %eax
	xorl	%r12d, %eax
	rorxl	$6, %eax, %eax
	addl	%edi, %eax
	addl	$1508970993, %eax
	rorxl	$9, %r10d, %r11d
	xorl	%r10d, %r11d
	rorxl	$11, %r11d, %r11d
	xorl	%r10d, %r11d
	rorxl	$2, %r11d, %r11d
	movl	%r10d, %edi
	xorl	%r9d, %edi
	andl	%edi, %r13d
	xorl	%r9d, %r13d
	addl	%r11d, %r13d
	addl	%eax, %r13d
	addl	%eax, %ecx
	movl	%r12d, %eax
	andl	%ecx, %eax
	andnl	%r15d, %ecx, %r11d
	orl	%r11d, %eax
	movbel	24(%rdx), %r11d
	movl	%r11d, 44(%rsp)
	addl	%r11d, %r14d
	addl	%eax, %r14d
	rorxl	$14, %ecx, %eax
	xorl	%ecx, %eax
	rorxl	$5, %eax, %eax
	xorl	%ecx, %eax
	rorxl	$6, %eax, %eax
	addl	%r14d, %eax
	addl	$-1841331548, %eax
	rorxl	$9, %r13d, %r11d
	xorl	%r13d, %r11d
	rorxl	$11, %r11d, %r11d
	xorl	%r13d, %r11d
	rorxl	$2, %r11d, %r11d
	movl	%r13d, %edx
	xorl	%r10d, %edx
	andl	%edx, %edi
	xorl	%r10d, %edi
	addl	%r11d, %edi
	addl	%eax, %edi
	addl	%eax, %r8d
	movl	%ecx, %eax
	andl	%r8d, %eax
	andnl	%r12d, %r8d, %r11d
	orl	%r11d, %eax
	movbel	28(%rbx), %r11d
	movl	%r11d, 56(%rsp)
	addl	%r11d, %r15d
	addl	%eax, %r15d
	rorxl	$14, %r8d, %eax
	xorl	%r8d, %eax
	rorxl	$5, %eax, %eax
	xorl	%r8d, %eax
	rorxl	$6, %eax, %eax
	addl	%r15d, %eax
	addl	$-1424204075, %eax
	rorxl	$9, %edi, %r11d
	xorl	%edi, %r11d
	rorxl	$11, %r11d, %r11d
	xorl	%edi, %r11d
	rorxl	$2, %r11d, %r11d
	movl	%edi, %esi
	xorl	%r13d, %esi
	andl	%esi, %edx
	xorl	%r13d, %edx
	addl	%r11d, %edx
	addl	%eax, %edx
	addl	%eax, %r9d
	movl	%r8d, %eax
	andl	%r9d, %eax
	andnl	%ecx, %r9d, %r11d
	orl	%r11d, %eax
	movbel	32(%rbx), %r11d
	movl	%r11d, 80(%rsp)
	addl	%r11d, %r12d
	addl	%eax, %r12d
	rorxl	$14, %r9d, %eax
	xorl	%r9d, %eax
	rorxl	$5, %eax, %eax
	xorl	%r9d, %eax
	rorxl	$6, %eax, %eax
	addl	%r12d, %eax
	addl	$-670586216, %eax
	rorxl	$9, %edx, %r11d
	xorl	%edx, %r11d
	rorxl	$11, %r11d, %r11d
	xorl	%edx, %r11d
	rorxl	$2, %r11d, %r11d
	movl	%edx, %ebp
	xorl	%edi, %ebp
	andl	%ebp, %esi
	xorl	%edi, %esi
	addl	%r11d, %esi
	addl	%eax, %esi
	addl	%eax, %r10d
	movl	%r9d, %eax
	andl	%r10d, %eax
	andnl	%r8d, %r10d, %r11d
	orl	%r11d, %eax
	movq	%rbx, %r14
	movbel	36(%rbx), %r11d
	movl	%r11d, 52(%rsp)
	addl	%r11d, %ecx
	addl	%eax, %ecx
	rorxl	$14, %r10d, %eax
	xorl	%r10d, %eax
	rorxl	$5, %eax, %eax
	xorl	%r10d, %eax
	rorxl	$6, %eax, %eax
	addl	%ecx, %eax
	addl	$310598401, %eax
	rorxl	$9, %esi, %ecx
	xorl	%esi, %ecx
	rorxl	$11, %ecx, %ecx
	xorl	%esi, %ecx
	rorxl	$2, %ecx, %ecx
	movl	%esi, %ebx
	xorl	%edx, %ebx
	andl	%ebx, %ebp
	xorl	%edx, %ebp
	addl	%ecx, %ebp
	addl	%eax, %ebp
	addl	%eax, %r13d
	movl	%r10d, %eax
	andl	%r13d, %eax
	andnl	%r9d, %r13d, %ecx
	orl	%ecx, %eax
	movbel	40(%r14), %ecx
	movl	%ecx, 36(%rsp)
	addl	%ecx, %r8d
	addl	%eax, %r8d
	rorxl	$14, %r13d, %eax
	xorl	%r13d, %eax
	rorxl	$5, %eax, %eax
	xorl	%r13d, %eax
	rorxl	$6, %eax, %eax
	addl	%r8d, %eax
	addl	$607225278, %eax
	rorxl	$9, %ebp, %ecx
	xorl	%ebp, %ecx
	rorxl	$11, %ecx, %ecx
	xorl	%ebp, %ecx
	rorxl	$2, %ecx, %ecx
	movl	%ebp, %r12d
	xorl	%esi, %r12d
	andl	%r12d, %ebx
	xorl	%esi, %ebx
	addl	%ecx, %ebx
	addl	%eax, %ebx
	addl	%eax, %edi
	movl	%r13d, %eax
	andl	%edi, %eax
	andnl	%r10d, %edi, %ecx
	orl	%ecx, %eax
	movbel	44(%r14), %ecx
	movl	%ecx, 16(%rsp)
	addl	%ecx, %r9d
	addl	%eax, %r9d
	rorxl	$14, %edi, %eax
	xorl	%edi, %eax
	rorxl	$5, %eax, %eax
	xorl	%edi, %eax
	rorxl	$6, %eax, %eax
	addl	%r9d, %eax
	addl	$1426881987, %eax
	rorxl	$9, %ebx, %ecx
	xorl	%ebx, %ecx
	rorxl	$11, %ecx, %ecx
	xorl	%ebx, %ecx
	rorxl	$2, %ecx, %ecx
	movl	%ebx, %r8d
	xorl	%ebp, %r8d
	andl	%r8d, %r12d
	xorl	%ebp, %r12d
	addl	%ecx, %r12d
	addl	%eax, %r12d
	addl	%eax, %edx
	movl	%edi, %eax
	andl	%edx, %eax
	andnl	%r13d, %edx, %ecx
	orl	%ecx, %eax
	movbel	48(%r14), %ecx
	movl	%ecx, 20(%rsp)
	addl	%ecx, %r10d
	addl	%eax, %r10d
	rorxl	$14, %edx, %eax
	xorl	%edx, %eax
	rorxl	$5, %eax, %eax
	xorl	%edx, %eax
	rorxl	$6, %eax, %eax
	addl	%r10d, %eax
	addl	$1925078388, %eax
	rorxl	$9, %r12d, %ecx
	xorl	%r12d, %ecx
	rorxl	$11, %ecx, %ecx
	xorl	%r12d, %ecx
	rorxl	$2, %ecx, %ecx
	movl	%r12d, %r10d
	xorl	%ebx, %r10d
	andl	%r10d, %r8d
	xorl	%ebx, %r8d
	addl	%ecx, %r8d
	addl	%eax, %r8d
	addl	%eax, %esi
	movl	%edx, %eax
	andl	%esi, %eax
	andnl	%edi, %esi, %ecx
	orl	%ecx, %eax
	movbel	52(%r14), %ecx
	movl	%ecx, 12(%rsp)
	addl	%ecx, %r13d
	addl	%eax, %r13d
	rorxl	$14, %esi, %eax
	xorl	%esi, %eax
	rorxl	$5, %eax, %eax
	xorl	%esi, %eax
	rorxl	$6, %eax, %eax
	addl	%r13d, %eax
	addl	$-2132889090, %eax
	rorxl	$9, %r8d, %ecx
	xorl	%r8d, %ecx
	rorxl	$11, %ecx, %ecx
	xorl	%r8d, %ecx
	rorxl	$2, %ecx, %ecx
	movl	%r8d, %r15d
	xorl	%r12d, %r15d
	andl	%r15d, %r10d
	xorl	%r12d, %r10d
	addl	%ecx, %r10d
	addl	%eax, %r10d
	addl	%eax, %ebp
	movl	%esi, %eax
	andl	%ebp, %eax
	andnl	%edx, %ebp, %ecx
	orl	%ecx, %eax
	movbel	56(%r14), %r11d
	addl	%r11d, %edi
	addl	%eax, %edi
	rorxl	$14, %ebp, %eax
	xorl	%ebp, %eax
	rorxl	$5, %eax, %eax
	xorl	%ebp, %eax
	rorxl	$6, %eax, %eax
	leal	(%rax,%rdi), %ecx
	addl	$-1680079193, %ecx
	rorxl	$9, %r10d, %eax
	xorl	%r10d, %eax
	rorxl	$11, %eax, %eax
	xorl	%r10d, %eax
	rorxl	$2, %eax, %r9d
	movl	%r10d, %eax
	xorl	%r8d, %eax
	andl	%eax, %r15d
	xorl	%r8d, %r15d
	addl	%r9d, %r15d
	addl	%ecx, %r15d
	addl	%ecx, %ebx
	movl	%ebp, %ecx
	andl	%ebx, %ecx
	andnl	%esi, %ebx, %r9d
	orl	%r9d, %ecx
	movbel	60(%r14), %r14d
	addl	%r14d, %edx
	addl	%ecx, %edx
	rorxl	$14, %ebx, %ecx
	xorl	%ebx, %ecx
	rorxl	$5, %ecx, %ecx
	xorl	%ebx, %ecx
	rorxl	$6, %ecx, %ecx
	addl	%edx, %ecx
	addl	$-1046744716, %ecx
	movl	%r15d, %edx
	andl	%eax, %edx
	andnl	%r10d, %eax, %r13d
	orl	%edx, %r13d
	rorxl	$9, %r15d, %eax
	xorl	%r15d, %eax
	rorxl	$11, %eax, %eax
	xorl	%r15d, %eax
	rorxl	$2, %eax, %eax
	addl	%eax, %r13d
	addl	%ecx, %r13d
	addl	%ecx, %r12d
	movl	%r11d, %ecx
	movl	%r12d, %r11d
	movq	104(%rsp), %rax
	vmovdqu	(%rax), %xmm1
	vmovdqu	16(%rax), %xmm0
	xorl	%r12d, %r12d
	.p2align	4
.Lnoise_BB_v3_33_1:
	movq	%r12, (%rsp)
	rorxl	$2, %ecx, %eax
	xorl	%ecx, %eax
	rorxl	$17, %eax, %eax
	movl	%ecx, 24(%rsp)
	shrl	$10, %ecx
	xorl	%eax, %ecx
	movl	40(%rsp), %edx
	rorxl	$11, %edx, %eax
	xorl	%edx, %eax
	rorxl	$7, %eax, %eax
	shrl	$3, %edx
	xorl	%eax, %edx
	movl	76(%rsp), %r9d
	addl	52(%rsp), %r9d
	addl	%ecx, %r9d
	addl	%edx, %r9d
	movl	%r14d, %ecx
	movl	%ebx, %r14d
	andl	%r11d, %r14d
	andnl	%ebp, %r11d, %eax
	orl	%eax, %r14d
	addl	%esi, %r14d
	rorxl	$14, %r11d, %eax
	xorl	%r11d, %eax
	rorxl	$5, %eax, %eax
	xorl	%r11d, %eax
	rorxl	$6, %eax, %eax
	addl	%eax, %r14d
	movl	%r15d, %esi
	xorl	%r13d, %esi
	movl	%r11d, %edi
	movl	%r10d, %r11d
	andl	%esi, %r11d
	andnl	%r15d, %esi, %eax
	orl	%eax, %r11d
	rorxl	$9, %r13d, %eax
	xorl	%r13d, %eax
	rorxl	$11, %eax, %eax
	xorl	%r13d, %eax
	rorxl	$2, %eax, %eax
	addl	%eax, %r11d
	leaq	.Lnoise_static.99(%rip), %rax
	addl	64(%r12,%rax), %r14d
	addl	%r9d, %r14d
	addl	%r14d, %r11d
	addl	%r8d, %r14d
	movl	%ecx, 28(%rsp)
	rorxl	$2, %ecx, %eax
	xorl	%ecx, %eax
	rorxl	$17, %eax, %eax
	shrl	$10, %ecx
	xorl	%eax, %ecx
	movl	72(%rsp), %edx
	rorxl	$11, %edx, %eax
	xorl	%edx, %eax
	rorxl	$7, %eax, %eax
	movl	%edx, %r8d
	shrl	$3, %r8d
	xorl	%eax, %r8d
	movl	40(%rsp), %eax
	addl	36(%rsp), %eax
	addl	%ecx, %eax
	addl	%r8d, %eax
	movl	%eax, %r8d
	movl	%eax, 40(%rsp)
	movl	%edi, %eax
	andl	%r14d, %eax
	leaq	.Lnoise_static.99(%rip), %rcx
	addl	68(%r12,%rcx), %ebp
	andnl	%ebx, %r14d, %ecx
	orl	%ecx, %eax
	addl	%r8d, %ebp
	addl	%eax, %ebp
	rorxl	$14, %r14d, %eax
	xorl	%r14d, %eax
	rorxl	$5, %eax, %eax
	xorl	%r14d, %eax
	rorxl	$6, %eax, %eax
	addl	%eax, %ebp
	movl	%r11d, %r12d
	movl	%r11d, 8(%rsp)
	rorxl	$9, %r11d, %eax
	xorl	%r11d, %eax
	rorxl	$11, %eax, %eax
	xorl	%r11d, %eax
	rorxl	$2, %eax, %eax
	xorl	%r13d, %r12d
	andl	%r12d, %esi
	xorl	%r13d, %esi
	addl	%eax, %esi
	addl	%ebp, %esi
	addl	%r10d, %ebp
	movl	%r9d, 76(%rsp)
	rorxl	$2, %r9d, %eax
	xorl	%r9d, %eax
	rorxl	$17, %eax, %eax
	shrl	$10, %r9d
	xorl	%eax, %r9d
	movl	68(%rsp), %r11d
	rorxl	$11, %r11d, %eax
	xorl	%r11d, %eax
	rorxl	$7, %eax, %eax
	movl	%r11d, %r8d
	shrl	$3, %r8d
	xorl	%eax, %r8d
	addl	16(%rsp), %edx
	addl	%r8d, %edx
	addl	%r9d, %edx
	movl	%r14d, %eax
	andl	%ebp, %eax
	andnl	%edi, %ebp, %ecx
	orl	%ecx, %eax
	movq	(%rsp), %rcx
	leaq	.Lnoise_static.99(%rip), %r8
	addl	72(%rcx,%r8), %ebx
	addl	%edx, %ebx
	addl	%eax, %ebx
	rorxl	$14, %ebp, %eax
	xorl	%ebp, %eax
	rorxl	$5, %eax, %eax
	xorl	%ebp, %eax
	rorxl	$6, %eax, %eax
	addl	%eax, %ebx
	movl	%esi, 32(%rsp)
	rorxl	$9, %esi, %eax
	xorl	%esi, %eax
	rorxl	$11, %eax, %eax
	xorl	%esi, %eax
	rorxl	$2, %eax, %eax
	movl	8(%rsp), %ecx
	xorl	%ecx, %esi
	andl	%esi, %r12d
	xorl	%ecx, %r12d
	addl	%eax, %r12d
	addl	%ebx, %r12d
	addl	%r15d, %ebx
	movl	40(%rsp), %ecx
	rorxl	$2, %ecx, %eax
	xorl	%ecx, %eax
	rorxl	$17, %eax, %eax
	shrl	$10, %ecx
	xorl	%eax, %ecx
	movl	64(%rsp), %r9d
	rorxl	$11, %r9d, %eax
	xorl	%r9d, %eax
	rorxl	$7, %eax, %eax
	movl	%r9d, %r8d
	shrl	$3, %r8d
	xorl	%eax, %r8d
	movl	%r11d, %r15d
	addl	20(%rsp), %r15d
	addl	%r8d, %r15d
	addl	%ecx, %r15d
	movl	%ebp, %eax
	andl	%ebx, %eax
	andnl	%r14d, %ebx, %ecx
	orl	%ecx, %eax
	movq	(%rsp), %rcx
	leaq	.Lnoise_static.99(%rip), %r8
	addl	76(%rcx,%r8), %edi
	addl	%r15d, %edi
	addl	%eax, %edi
	rorxl	$14, %ebx, %eax
	xorl	%ebx, %eax
	rorxl	$5, %eax, %eax
	xorl	%ebx, %eax
	rorxl	$6, %eax, %eax
	addl	%eax, %edi
	rorxl	$9, %r12d, %eax
	xorl	%r12d, %eax
	rorxl	$11, %eax, %eax
	xorl	%r12d, %eax
	rorxl	$2, %eax, %eax
	movl	%r12d, %r10d
	movl	32(%rsp), %ecx
	xorl	%ecx, %r10d
	andl	%r10d, %esi
	xorl	%ecx, %esi
	addl	%eax, %esi
	addl	%edi, %esi
	addl	%r13d, %edi
	movl	%edx, 72(%rsp)
	rorxl	$2, %edx, %eax
	xorl	%edx, %eax
	rorxl	$17, %eax, %eax
	movl	%edx, %ecx
	shrl	$10, %ecx
	xorl	%eax, %ecx
	movl	60(%rsp), %r11d
	rorxl	$11, %r11d, %eax
	xorl	%r11d, %eax
	rorxl	$7, %eax, %eax
	movl	%r11d, %r8d
	shrl	$3, %r8d
	xorl	%eax, %r8d
	addl	12(%rsp), %r9d
	addl	%r8d, %r9d
	addl	%ecx, %r9d
	movl	%ebx, %eax
	andl	%edi, %eax
	andnl	%ebp, %edi, %ecx
	orl	%ecx, %eax
	movq	(%rsp), %rcx
	leaq	.Lnoise_static.99(%rip), %rdx
	addl	80(%rcx,%rdx), %r14d
	addl	%r9d, %r14d
	addl	%eax, %r14d
	rorxl	$14, %edi, %eax
	xorl	%edi, %eax
	rorxl	$5, %eax, %eax
	xorl	%edi, %eax
	rorxl	$6, %eax, %eax
	addl	%eax, %r14d
	movl	%esi, %r13d
	rorxl	$9, %esi, %eax
	xorl	%esi, %eax
	rorxl	$11, %eax, %eax
	xorl	%esi, %eax
	rorxl	$2, %eax, %eax
	movl	%r12d, 48(%rsp)
	xorl	%r12d, %esi
	andl	%esi, %r10d
	xorl	%r12d, %r10d
	addl	%eax, %r10d
	addl	%r14d, %r10d
	addl	8(%rsp), %r14d
	movl	%r15d, 68(%rsp)
	rorxl	$2, %r15d, %eax
	xorl	%r15d, %eax
	rorxl	$17, %eax, %eax
	shrl	$10, %r15d
	xorl	%eax, %r15d
	movl	44(%rsp), %r12d
	rorxl	$11, %r12d, %eax
	xorl	%r12d, %eax
	rorxl	$7, %eax, %eax
	movl	%r12d, %r8d
	shrl	$3, %r8d
	xorl	%eax, %r8d
	addl	24(%rsp), %r11d
	addl	%r8d, %r11d
	addl	%r15d, %r11d
	movl	%edi, %eax
	movl	%edi, 84(%rsp)
	andl	%r14d, %eax
	movq	(%rsp), %rcx
	leaq	.Lnoise_static.99(%rip), %rdx
	addl	84(%rcx,%rdx), %ebp
	andnl	%ebx, %r14d, %ecx
	orl	%ecx, %eax
	addl	%r11d, %ebp
	addl	%eax, %ebp
	rorxl	$14, %r14d, %eax
	xorl	%r14d, %eax
	rorxl	$5, %eax, %eax
	xorl	%r14d, %eax
	movl	%r14d, %r8d
	movl	%r14d, 92(%rsp)
	rorxl	$6, %eax, %eax
	addl	%eax, %ebp
	rorxl	$9, %r10d, %eax
	xorl	%r10d, %eax
	rorxl	$11, %eax, %eax
	xorl	%r10d, %eax
	rorxl	$2, %eax, %eax
	movl	%r10d, %r14d
	movl	%r13d, 100(%rsp)
	xorl	%r13d, %r14d
	andl	%r14d, %esi
	xorl	%r13d, %esi
	addl	%eax, %esi
	addl	%ebp, %esi
	addl	32(%rsp), %ebp
	movl	%r9d, 64(%rsp)
	rorxl	$2, %r9d, %eax
	xorl	%r9d, %eax
	rorxl	$17, %eax, %eax
	movl	%r9d, %ecx
	shrl	$10, %ecx
	xorl	%eax, %ecx
	movl	56(%rsp), %r9d
	rorxl	$11, %r9d, %eax
	xorl	%r9d, %eax
	rorxl	$7, %eax, %eax
	movl	%r9d, %edx
	shrl	$3, %edx
	xorl	%eax, %edx
	addl	28(%rsp), %r12d
	addl	%edx, %r12d
	addl	%ecx, %r12d
	movl	%r12d, 44(%rsp)
	movl	%r8d, %eax
	andl	%ebp, %eax
	andnl	%edi, %ebp, %ecx
	orl	%ecx, %eax
	movq	(%rsp), %rcx
	leaq	.Lnoise_static.99(%rip), %rdx
	addl	88(%rcx,%rdx), %ebx
	addl	%r12d, %ebx
	addl	%eax, %ebx
	rorxl	$14, %ebp, %eax
	xorl	%ebp, %eax
	rorxl	$5, %eax, %eax
	xorl	%ebp, %eax
	rorxl	$6, %eax, %eax
	addl	%eax, %ebx
	movl	%esi, %r15d
	movl	%esi, 8(%rsp)
	rorxl	$9, %esi, %eax
	xorl	%esi, %eax
	rorxl	$11, %eax, %eax
	xorl	%esi, %eax
	rorxl	$2, %eax, %eax
	movl	%r10d, 96(%rsp)
	xorl	%r10d, %r15d
	movl	%r15d, 88(%rsp)
	andl	%r15d, %r14d
	xorl	%r10d, %r14d
	addl	%eax, %r14d
	addl	%ebx, %r14d
	addl	48(%rsp), %ebx
	movl	%r11d, 60(%rsp)
	rorxl	$2, %r11d, %eax
	xorl	%r11d, %eax
	rorxl	$17, %eax, %eax
	shrl	$10, %r11d
	xorl	%eax, %r11d
	movl	76(%rsp), %edx
	rorxl	$11, %edx, %eax
	xorl	%edx, %eax
	rorxl	$7, %eax, %eax
	movl	%edx, %r8d
	shrl	$3, %r8d
	xorl	%eax, %r8d
	movl	28(%rsp), %ecx
	rorxl	$11, %ecx, %eax
	xorl	%ecx, %eax
	addl	%ecx, %r8d
	movl	%r8d, 48(%rsp)
	movl	%ecx, %r8d
	rorxl	$7, %eax, %eax
	shrl	$3, %r8d
	xorl	%eax, %r8d
	movl	24(%rsp), %ecx
	rorxl	$11, %ecx, %eax
	xorl	%ecx, %eax
	addl	%ecx, %r8d
	movl	%r8d, 28(%rsp)
	movl	%ecx, %r8d
	rorxl	$7, %eax, %eax
	shrl	$3, %r8d
	xorl	%eax, %r8d
	movl	12(%rsp), %ecx
	rorxl	$11, %ecx, %eax
	xorl	%ecx, %eax
	rorxl	$7, %eax, %eax
	addl	%ecx, %r8d
	movl	%r8d, 24(%rsp)
	movl	%ecx, %r8d
	shrl	$3, %r8d
	xorl	%eax, %r8d
	movl	20(%rsp), %edi
	rorxl	$11, %edi, %eax
	xorl	%edi, %eax
	rorxl	$7, %eax, %eax
	addl	%edi, %r8d
	movl	%r8d, 12(%rsp)
	shrl	$3, %edi
	xorl	%eax, %edi
	movl	16(%rsp), %ecx
	rorxl	$11, %ecx, %eax
	xorl	%ecx, %eax
	rorxl	$7, %eax, %eax
	addl	%ecx, %edi
	movl	36(%rsp), %r8d
	shrl	$3, %ecx
	xorl	%eax, %ecx
	rorxl	$11, %r8d, %eax
	xorl	%r8d, %eax
	rorxl	$7, %eax, %eax
	addl	%r8d, %ecx
	movl	%ecx, 16(%rsp)
	shrl	$3, %r8d
	xorl	%eax, %r8d
	movl	52(%rsp), %r15d
	rorxl	$11, %r15d, %eax
	xorl	%r15d, %eax
	rorxl	$7, %eax, %eax
	addl	%r15d, %r8d
	shrl	$3, %r15d
	xorl	%eax, %r15d
	movl	80(%rsp), %ecx
	rorxl	$11, %ecx, %eax
	xorl	%ecx, %eax
	rorxl	$7, %eax, %eax
	addl	%ecx, %r15d
	shrl	$3, %ecx
	xorl	%eax, %ecx
	addl	%edx, %r9d
	addl	%ecx, %r9d
	addl	%r11d, %r9d
	movl	%ebp, %ecx
	andl	%ebx, %ecx
	movl	92(%rsp), %r11d
	andnl	%r11d, %ebx, %eax
	orl	%eax, %ecx
	movq	(%rsp), %rax
	leaq	.Lnoise_static.99(%rip), %rsi
	movl	92(%rax,%rsi), %eax
	addl	%r9d, %eax
	addl	84(%rsp), %eax
	addl	%ecx, %eax
	rorxl	$14, %ebx, %ecx
	xorl	%ebx, %ecx
	rorxl	$5, %ecx, %ecx
	xorl	%ebx, %ecx
	rorxl	$6, %ecx, %ecx
	addl	%ecx, %eax
	movl	%r14d, 32(%rsp)
	rorxl	$9, %r14d, %ecx
	xorl	%r14d, %ecx
	rorxl	$11, %ecx, %ecx
	xorl	%r14d, %ecx
	rorxl	$2, %ecx, %ecx
	movl	%r14d, %r12d
	movl	8(%rsp), %edx
	xorl	%edx, %r12d
	movl	88(%rsp), %r10d
	andl	%r12d, %r10d
	xorl	%edx, %r10d
	addl	%ecx, %r10d
	addl	%eax, %r10d
	addl	100(%rsp), %eax
	movl	44(%rsp), %edx
	rorxl	$2, %edx, %ecx
	xorl	%edx, %ecx
	rorxl	$17, %ecx, %ecx
	shrl	$10, %edx
	xorl	%ecx, %edx
	addl	40(%rsp), %r15d
	addl	%edx, %r15d
	movl	%ebx, %edx
	andl	%eax, %edx
	andnl	%ebp, %eax, %ecx
	orl	%ecx, %edx
	movq	(%rsp), %rcx
	movl	96(%rcx,%rsi), %ecx
	addl	%r15d, %ecx
	addl	%r11d, %ecx
	addl	%edx, %ecx
	rorxl	$14, %eax, %edx
	xorl	%eax, %edx
	rorxl	$5, %edx, %edx
	xorl	%eax, %edx
	rorxl	$6, %edx, %edx
	addl	%edx, %ecx
	movl	%r9d, 56(%rsp)
	rorxl	$2, %r9d, %edx
	xorl	%r9d, %edx
	rorxl	$17, %edx, %edx
	shrl	$10, %r9d
	xorl	%edx, %r9d
	addl	72(%rsp), %r8d
	addl	%r9d, %r8d
	movq	(%rsp), %rdx
	movl	100(%rdx,%rsi), %r13d
	addl	%r8d, %r13d
	addl	%ebp, %r13d
	rorxl	$9, %r10d, %edx
	xorl	%r10d, %edx
	rorxl	$11, %edx, %edx
	xorl	%r10d, %edx
	rorxl	$2, %edx, %edx
	movl	%r10d, %ebp
	movl	32(%rsp), %r9d
	xorl	%r9d, %ebp
	andl	%ebp, %r12d
	xorl	%r9d, %r12d
	addl	%edx, %r12d
	addl	%ecx, %r12d
	addl	96(%rsp), %ecx
	movl	%eax, %edx
	andl	%ecx, %edx
	andnl	%ebx, %ecx, %r9d
	orl	%r9d, %edx
	addl	%edx, %r13d
	rorxl	$14, %ecx, %edx
	xorl	%ecx, %edx
	rorxl	$5, %edx, %edx
	xorl	%ecx, %edx
	rorxl	$6, %edx, %edx
	addl	%edx, %r13d
	movl	%r15d, 20(%rsp)
	rorxl	$2, %r15d, %edx
	xorl	%r15d, %edx
	rorxl	$17, %edx, %edx
	shrl	$10, %r15d
	xorl	%edx, %r15d
	movl	16(%rsp), %r14d
	addl	68(%rsp), %r14d
	addl	%r15d, %r14d
	movq	(%rsp), %rdx
	movl	104(%rdx,%rsi), %r11d
	addl	%r14d, %r11d
	movl	%r14d, %r15d
	addl	%ebx, %r11d
	rorxl	$9, %r12d, %edx
	xorl	%r12d, %edx
	rorxl	$11, %edx, %edx
	xorl	%r12d, %edx
	rorxl	$2, %edx, %edx
	movl	%r12d, %r14d
	xorl	%r10d, %r14d
	andl	%r14d, %ebp
	xorl	%r10d, %ebp
	addl	%edx, %ebp
	addl	%r13d, %ebp
	addl	8(%rsp), %r13d
	movl	%ecx, %edx
	andl	%r13d, %edx
	andnl	%eax, %r13d, %r9d
	orl	%r9d, %edx
	addl	%edx, %r11d
	rorxl	$14, %r13d, %edx
	xorl	%r13d, %edx
	rorxl	$5, %edx, %edx
	xorl	%r13d, %edx
	rorxl	$6, %edx, %edx
	addl	%edx, %r11d
	rorxl	$9, %ebp, %edx
	xorl	%ebp, %edx
	rorxl	$11, %edx, %edx
	xorl	%ebp, %edx
	rorxl	$2, %edx, %r9d
	movl	%ebp, %edx
	xorl	%r12d, %edx
	andl	%edx, %r14d
	xorl	%r12d, %r14d
	addl	%r9d, %r14d
	addl	%r11d, %r14d
	addl	32(%rsp), %r11d
	movl	%r8d, %r9d
	movl	%r8d, 36(%rsp)
	rorxl	$2, %r8d, %r8d
	xorl	%r9d, %r8d
	rorxl	$17, %r8d, %r8d
	shrl	$10, %r9d
	xorl	%r8d, %r9d
	addl	64(%rsp), %edi
	addl	%r9d, %edi
	movl	%r13d, %r8d
	andl	%r11d, %r8d
	andnl	%ecx, %r11d, %r9d
	orl	%r9d, %r8d
	movq	(%rsp), %r9
	movl	108(%r9,%rsi), %r9d
	addl	%edi, %r9d
	addl	%eax, %r9d
	addl	%r8d, %r9d
	rorxl	$14, %r11d, %eax
	xorl	%r11d, %eax
	rorxl	$5, %eax, %eax
	xorl	%r11d, %eax
	rorxl	$6, %eax, %eax
	addl	%eax, %r9d
	rorxl	$9, %r14d, %eax
	xorl	%r14d, %eax
	rorxl	$11, %eax, %eax
	xorl	%r14d, %eax
	rorxl	$2, %eax, %eax
	movl	%r14d, %r8d
	xorl	%ebp, %r8d
	andl	%r8d, %edx
	xorl	%ebp, %edx
	addl	%eax, %edx
	addl	%r9d, %edx
	addl	%r10d, %r9d
	movl	%r15d, %ebx
	movl	%r15d, 16(%rsp)
	rorxl	$2, %r15d, %eax
	xorl	%r15d, %eax
	rorxl	$17, %eax, %eax
	shrl	$10, %ebx
	xorl	%eax, %ebx
	movl	12(%rsp), %r15d
	addl	60(%rsp), %r15d
	addl	%ebx, %r15d
	movl	%r11d, %eax
	andl	%r9d, %eax
	andnl	%r13d, %r9d, %ebx
	orl	%ebx, %eax
	movq	(%rsp), %rbx
	movq	%rsi, %r10
	movl	112(%rbx,%rsi), %esi
	addl	%r15d, %esi
	movl	%r15d, %ebx
	addl	%ecx, %esi
	addl	%eax, %esi
	rorxl	$14, %r9d, %eax
	xorl	%r9d, %eax
	rorxl	$5, %eax, %eax
	xorl	%r9d, %eax
	rorxl	$6, %eax, %eax
	addl	%eax, %esi
	rorxl	$9, %edx, %eax
	xorl	%edx, %eax
	rorxl	$11, %eax, %eax
	xorl	%edx, %eax
	rorxl	$2, %eax, %eax
	movl	%edx, %ecx
	xorl	%r14d, %ecx
	andl	%ecx, %r8d
	xorl	%r14d, %r8d
	addl	%eax, %r8d
	movl	%edi, 8(%rsp)
	rorxl	$2, %edi, %eax
	xorl	%edi, %eax
	rorxl	$17, %eax, %eax
	movl	%edi, %r15d
	shrl	$10, %r15d
	xorl	%eax, %r15d
	movl	24(%rsp), %edi
	addl	44(%rsp), %edi
	addl	%r15d, %edi
	movq	(%rsp), %rax
	movl	116(%rax,%r10), %eax
	addl	%edi, %eax
	addl	%r13d, %eax
	rorxl	$2, %ebx, %r15d
	xorl	%ebx, %r15d
	movl	%ebx, %r13d
	movl	%ebx, 12(%rsp)
	rorxl	$17, %r15d, %r15d
	shrl	$10, %r13d
	xorl	%r15d, %r13d
	movl	28(%rsp), %ebx
	addl	56(%rsp), %ebx
	addl	%r13d, %ebx
	movl	%ebx, %r10d
	movl	%ebx, 28(%rsp)
	movl	%edi, %r13d
	movl	%edi, 24(%rsp)
	rorxl	$2, %edi, %r15d
	xorl	%edi, %r15d
	rorxl	$17, %r15d, %r15d
	shrl	$10, %r13d
	xorl	%r15d, %r13d
	movl	48(%rsp), %ebx
	addl	20(%rsp), %ebx
	addl	%r13d, %ebx
	addl	%esi, %r8d
	rorxl	$9, %r8d, %r15d
	xorl	%r8d, %r15d
	rorxl	$11, %r15d, %r15d
	xorl	%r8d, %r15d
	rorxl	$2, %r15d, %r13d
	movl	%r8d, %r15d
	xorl	%edx, %r15d
	andl	%r15d, %ecx
	xorl	%edx, %ecx
	addl	%r13d, %ecx
	addl	%r12d, %esi
	movq	(%rsp), %r12
	leaq	.Lnoise_static.99(%rip), %rdi
	movl	120(%r12,%rdi), %r12d
	addl	%r10d, %r12d
	addl	%r11d, %r12d
	andnl	%r11d, %esi, %r13d
	movl	%r9d, %r10d
	andl	%esi, %r10d
	orl	%r13d, %r10d
	addl	%eax, %r10d
	rorxl	$14, %esi, %eax
	xorl	%esi, %eax
	rorxl	$5, %eax, %eax
	xorl	%esi, %eax
	rorxl	$6, %eax, %eax
	addl	%eax, %r10d
	movq	(%rsp), %rax
	movl	124(%rax,%rdi), %r13d
	addl	%ebx, %r13d
	movl	%ebx, %edi
	addl	%r9d, %r13d
	addl	%r10d, %ebp
	andnl	%r9d, %ebp, %r9d
	movl	%esi, %eax
	andl	%ebp, %eax
	orl	%r9d, %eax
	addl	%r12d, %eax
	rorxl	$14, %ebp, %r9d
	xorl	%ebp, %r9d
	rorxl	$5, %r9d, %r9d
	xorl	%ebp, %r9d
	rorxl	$6, %r9d, %r9d
	addl	%r9d, %eax
	movl	%r14d, %ebx
	addl	%eax, %ebx
	movl	%ebp, %r11d
	andl	%ebx, %r11d
	andnl	%esi, %ebx, %r9d
	orl	%r9d, %r11d
	addl	%r13d, %r11d
	rorxl	$14, %ebx, %r9d
	xorl	%ebx, %r9d
	rorxl	$5, %r9d, %r9d
	xorl	%ebx, %r9d
	rorxl	$6, %r9d, %r9d
	addl	%r9d, %r11d
	addl	%ecx, %r10d
	rorxl	$9, %r10d, %ecx
	xorl	%r10d, %ecx
	rorxl	$11, %ecx, %ecx
	xorl	%r10d, %ecx
	rorxl	$2, %ecx, %ecx
	movl	%r10d, %r9d
	xorl	%r8d, %r9d
	andl	%r9d, %r15d
	xorl	%r8d, %r15d
	addl	%ecx, %r15d
	addl	%eax, %r15d
	movl	%r15d, %eax
	andl	%r9d, %eax
	andnl	%r10d, %r9d, %r13d
	orl	%eax, %r13d
	rorxl	$9, %r15d, %eax
	xorl	%r15d, %eax
	rorxl	$11, %eax, %eax
	xorl	%r15d, %eax
	rorxl	$2, %eax, %eax
	addl	%eax, %r13d
	addl	%r11d, %r13d
	addl	%edx, %r11d
	movl	20(%rsp), %eax
	movl	%eax, 80(%rsp)
	movq	(%rsp), %r12
	movl	36(%rsp), %eax
	movl	%eax, 52(%rsp)
	movl	16(%rsp), %eax
	movl	%eax, 36(%rsp)
	movl	8(%rsp), %eax
	movl	%eax, 16(%rsp)
	movl	12(%rsp), %eax
	movl	%eax, 20(%rsp)
	movl	24(%rsp), %eax
	movl	%eax, 12(%rsp)
	addq	$64, %r12
	movl	28(%rsp), %ecx
	movl	%edi, %r14d
	cmpq	$192, %r12
	jne	.Lnoise_BB_v3_33_1
	vmovd	%r13d, %xmm2
	vpinsrd	$1, %r15d, %xmm2, %xmm2
	vpinsrd	$2, %r10d, %xmm2, %xmm2
	vpinsrd	$3, %r8d, %xmm2, %xmm2
	vmovd	%r11d, %xmm3
	vpinsrd	$1, %ebx, %xmm3, %xmm3
	vpinsrd	$2, %ebp, %xmm3, %xmm3
	vpaddd	%xmm1, %xmm2, %xmm1
	vpinsrd	$3, %esi, %xmm3, %xmm2
	vpaddd	%xmm0, %xmm2, %xmm0
	movq	104(%rsp), %rax
	vmovdqu	%xmm1, (%rax)
	vmovdqu	%xmm0, 16(%rax)
	addq	$112, %rsp
	popq	%rbx
	popq	%rbp
	popq	%rdi
	popq	%rsi
	popq	%r12
	popq	%r13
	popq	%r14
	popq	%r15
	retq
	.seh_endproc

	.def	"noise_state::cipher::CipherState::encrypt.v3";
	.scl	3;
	.type	32;
	.endef
	.text
	.p2align	4
"noise_state::cipher::CipherState::encrypt.v3":
.seh_proc "noise_state::cipher::CipherState::encrypt.v3"
	pushq	%r15
	.seh_pushreg %r15
	pushq	%r14
	.seh_pushreg %r14
	pushq	%r13
	.seh_pushreg %r13
	pushq	%r12
	.seh_pushreg %r12
	pushq	%rsi
	.seh_pushreg %rsi
	pushq	%rdi
	.seh_pushreg %rdi
	pushq	%rbx
	.seh_pushreg %rbx
	subq	$432, %rsp
	.seh_stackalloc 432
	.seh_endprologue
	movq	536(%rsp), %rsi
	cmpb	$1, (%rdx)
	jne	.Lnoise_BB_v3_7_3
	movq	40(%rdx), %rax
	cmpq	$-1, %rax
	je	.Lnoise_BB_v3_7_2
	cmpq	$65520, %rsi
	jb	.Lnoise_BB_v3_7_7
	movw	$769, (%rcx)
	movq	$0, 8(%rcx)
	jmp	.Lnoise_BB_v3_7_4
.Lnoise_BB_v3_7_3:
	xorl	%eax, %eax
	xorl	%edx, %edx
	cmpq	$65536, %rsi
	setae	%dl
	leal	(%rdx,%rdx,2), %edx
	setae	(%rcx)
	cmovbq	%rsi, %rax
	movb	%dl, 1(%rcx)
	movq	%rax, 8(%rcx)
	jmp	.Lnoise_BB_v3_7_4
.Lnoise_BB_v3_7_2:
	movw	$1, (%rcx)
	movq	$0, 8(%rcx)
	jmp	.Lnoise_BB_v3_7_4
.Lnoise_BB_v3_7_7:
	movq	528(%rsp), %rdi
	vmovups	1(%rdx), %ymm0
	vxorps	%xmm1, %xmm1, %xmm1
	vmovups	%ymm1, 152(%rsp)
	vmovups	%ymm1, 184(%rsp)
	vmovups	%ymm1, 216(%rsp)
	vmovups	%ymm1, 248(%rsp)
	vmovups	%ymm1, 280(%rsp)
	vmovups	%ymm1, 312(%rsp)
	vmovups	%ymm1, 344(%rsp)
	vmovups	%ymm1, 376(%rsp)
	vmovups	%ymm0, 104(%rsp)
	leaq	152(%rsp), %r10
	movq	%rax, 136(%rsp)
	movq	$0, 144(%rsp)
	movq	$64, 408(%rsp)
	leaq	104(%rsp), %r15
	movq	%rcx, %r12
	movq	%r15, %rcx
	movq	%rdx, %r13
	xorl	%edx, %edx
	movq	%r8, %r14
	movq	%rax, %r8
	movq	%r9, %rbx
	movq	%r10, %r9
	vzeroupper
	callq	"rand_chacha::guts::refill4.v3"
	addq	$4, 144(%rsp)
	movzbl	180(%rsp), %eax
	vmovups	168(%rsp), %xmm0
	movq	$16, 408(%rsp)
	vmovups	152(%rsp), %xmm1
	vmovaps	%xmm1, 48(%rsp)
	vmovlps	%xmm0, 64(%rsp)
	vmovdqu	168(%rsp), %xmm1
	vextractps	$2, %xmm0, 72(%rsp)
	movb	%al, 76(%rsp)
	vpextrb	$13, %xmm1, 77(%rsp)
	vpextrb	$14, %xmm1, 78(%rsp)
	vpextrb	$15, %xmm1, 79(%rsp)
	movq	%r15, %rcx
	movq	%rdi, %rdx
	movq	%rsi, %r8
	callq	"noise_aead::keystream::apply.v3"
	movq	%rsi, 40(%rsp)
	movq	%rdi, 32(%rsp)
	leaq	88(%rsp), %rcx
	leaq	48(%rsp), %rdx
	movq	%r14, %r8
	movq	%rbx, %r9
	callq	"noise_aead::authenticator::tag.v3"
	vmovups	88(%rsp), %xmm0
	vmovaps	%xmm0, 416(%rsp)
	vmovups	%xmm0, (%rdi,%rsi)
	incq	40(%r13)
	addq	$16, %rsi
	movw	$0, (%r12)
	movq	%rsi, 8(%r12)
.Lnoise_BB_v3_7_4:
	addq	$432, %rsp
	popq	%rbx
	popq	%rdi
	popq	%rsi
	popq	%r12
	popq	%r13
	popq	%r14
	popq	%r15
	retq
	.seh_endproc

	.def	"noise_state::cipher::CipherState::decrypt.v3";
	.scl	3;
	.type	32;
	.endef
	.text
	.p2align	4
"noise_state::cipher::CipherState::decrypt.v3":
.seh_proc "noise_state::cipher::CipherState::decrypt.v3"
	pushq	%r15
	.seh_pushreg %r15
	pushq	%r14
	.seh_pushreg %r14
	pushq	%r13
	.seh_pushreg %r13
	pushq	%r12
	.seh_pushreg %r12
	pushq	%rsi
	.seh_pushreg %rsi
	pushq	%rdi
	.seh_pushreg %rdi
	pushq	%rbp
	.seh_pushreg %rbp
	pushq	%rbx
	.seh_pushreg %rbx
	subq	$408, %rsp
	.seh_stackalloc 408
	.seh_endprologue
	movzbl	(%rdx), %eax
	cmpb	$1, %al
	jne	.Lnoise_BB_v3_0_3
	cmpq	$-1, 40(%rdx)
	je	.Lnoise_BB_v3_0_2
.Lnoise_BB_v3_0_3:
	movq	520(%rsp), %r10
	movb	$3, %r11b
	cmpq	$65535, %r10
	ja	.Lnoise_BB_v3_0_5
	cmpq	$16, %r10
	setb	%bl
	movb	$2, %r11b
	testb	%al, %bl
	jne	.Lnoise_BB_v3_0_5
	cmpb	$1, %al
	jne	.Lnoise_BB_v3_0_9
	movq	%rcx, %r15
	movq	512(%rsp), %rsi
	movq	40(%rdx), %rax
	movq	-16(%rsi,%r10), %r12
	movq	-8(%rsi,%r10), %r13
	vxorps	%xmm0, %xmm0, %xmm0
	vmovups	%ymm0, 144(%rsp)
	vmovups	%ymm0, 176(%rsp)
	vmovups	%ymm0, 208(%rsp)
	vmovups	%ymm0, 240(%rsp)
	vmovups	%ymm0, 272(%rsp)
	vmovups	%ymm0, 304(%rsp)
	vmovups	%ymm0, 336(%rsp)
	vmovups	%ymm0, 368(%rsp)
	leaq	-16(%r10), %rdi
	movq	%rdx, %rbp
	vmovups	1(%rdx), %ymm0
	vmovups	%ymm0, 96(%rsp)
	leaq	144(%rsp), %r10
	movq	%rax, 128(%rsp)
	movq	$0, 136(%rsp)
	movq	$64, 400(%rsp)
	leaq	96(%rsp), %rcx
	xorl	%edx, %edx
	movq	%r8, %rbx
	movq	%rax, %r8
	movq	%r9, %r14
	movq	%r10, %r9
	vzeroupper
	callq	"rand_chacha::guts::refill4.v3"
	addq	$4, 136(%rsp)
	movzbl	172(%rsp), %eax
	vmovups	160(%rsp), %xmm0
	movq	$16, 400(%rsp)
	vmovups	144(%rsp), %xmm1
	vmovaps	%xmm1, 48(%rsp)
	vmovlps	%xmm0, 64(%rsp)
	vmovdqu	160(%rsp), %xmm1
	vextractps	$2, %xmm0, 72(%rsp)
	movb	%al, 76(%rsp)
	vpextrb	$13, %xmm1, 77(%rsp)
	vpextrb	$14, %xmm1, 78(%rsp)
	vpextrb	$15, %xmm1, 79(%rsp)
	movq	%rdi, 40(%rsp)
	movq	%rsi, 32(%rsp)
	leaq	80(%rsp), %rcx
	leaq	48(%rsp), %rdx
	movq	%rbx, %r8
	movq	%r14, %r9
	callq	"noise_aead::authenticator::tag.v3"
	xorq	88(%rsp), %r13
	xorq	80(%rsp), %r12
	orq	%r13, %r12
	jne	.Lnoise_BB_v3_0_11
	leaq	96(%rsp), %rcx
	movq	%rsi, %rdx
	movq	%rdi, %r8
	callq	"noise_aead::keystream::apply.v3"
	incq	40(%rbp)
	movw	$0, (%r15)
	movq	%rdi, 8(%r15)
	jmp	.Lnoise_BB_v3_0_10
.Lnoise_BB_v3_0_2:
	xorl	%r11d, %r11d
.Lnoise_BB_v3_0_5:
	movb	$1, (%rcx)
	movb	%r11b, 1(%rcx)
	movq	$0, 8(%rcx)
.Lnoise_BB_v3_0_10:
	addq	$408, %rsp
	popq	%rbx
	popq	%rbp
	popq	%rdi
	popq	%rsi
	popq	%r12
	popq	%r13
	popq	%r14
	popq	%r15
	retq
.Lnoise_BB_v3_0_9:
	movw	$0, (%rcx)
	movq	%r10, 8(%rcx)
	jmp	.Lnoise_BB_v3_0_10
.Lnoise_BB_v3_0_11:
	movw	$257, (%r15)
	movq	$0, 8(%r15)
	jmp	.Lnoise_BB_v3_0_10
	.seh_endproc

	.section	.rdata,"dr"
	.p2align	5, 0x0
.Lnoise_CPI_v3_6_0:
	.byte	255
	.byte	255
	.byte	255
	.byte	255
	.byte	255
	.byte	255
	.byte	255
	.byte	255
	.byte	255
	.byte	255
	.byte	255
	.byte	255
	.byte	255
	.byte	255
	.byte	255
	.byte	255
	.byte	255
	.byte	255
	.byte	255
	.byte	255
	.byte	255
	.byte	255
	.byte	255
	.byte	255
	.byte	255
	.byte	255
	.byte	255
	.byte	255
	.byte	255
	.byte	0
	.byte	0
	.byte	0
	.section	.rdata,"dr"
	.p2align	5, 0x0
.Lnoise_CPI_v3_6_1:
	.byte	0
	.byte	0
	.byte	0
	.byte	0
	.byte	0
	.byte	0
	.byte	0
	.byte	0
	.byte	0
	.byte	0
	.byte	0
	.byte	0
	.byte	0
	.byte	0
	.byte	0
	.byte	0
	.byte	0
	.byte	0
	.byte	0
	.byte	0
	.byte	0
	.byte	0
	.byte	0
	.byte	0
	.byte	0
	.byte	0
	.byte	0
	.byte	0
	.byte	0
	.byte	255
	.byte	255
	.byte	255
	.def	"noise_aead::keystream::apply.v3";
	.scl	3;
	.type	32;
	.endef
	.text
	.p2align	4
"noise_aead::keystream::apply.v3":
.seh_proc "noise_aead::keystream::apply.v3"
	pushq	%r15
	.seh_pushreg %r15
	pushq	%r14
	.seh_pushreg %r14
	pushq	%r13
	.seh_pushreg %r13
	pushq	%r12
	.seh_pushreg %r12
	pushq	%rsi
	.seh_pushreg %rsi
	pushq	%rdi
	.seh_pushreg %rdi
	pushq	%rbp
	.seh_pushreg %rbp
	pushq	%rbx
	.seh_pushreg %rbx
	subq	$280, %rsp
	.seh_stackalloc 280
	vmovdqa	%xmm11, 256(%rsp)
	.seh_savexmm %xmm11, 256
	vmovaps	%xmm10, 240(%rsp)
	.seh_savexmm %xmm10, 240
	vmovdqa	%xmm9, 224(%rsp)
	.seh_savexmm %xmm9, 224
	vmovaps	%xmm8, 208(%rsp)
	.seh_savexmm %xmm8, 208
	vmovdqa	%xmm7, 192(%rsp)
	.seh_savexmm %xmm7, 192
	vmovaps	%xmm6, 176(%rsp)
	.seh_savexmm %xmm6, 176
	.seh_endprologue
	movq	%r8, 104(%rsp)
	movq	%r8, %rax
	shrq	$6, %rax
	cmpq	$3, %rax
	movl	$3, %r8d
	cmovbq	%rax, %r8
	movq	%rdx, 96(%rsp)
	movq	%rcx, %rbx
	movq	%rax, %r13
	movq	%r8, 72(%rsp)
	subq	%r8, %r13
	movq	%r13, 88(%rsp)
	shrq	$2, %r13
	testq	%rax, %rax
	je	.Lnoise_BB_v3_6_4
	leaq	48(%rbx), %r9
	movq	72(%rsp), %rbp
	movq	96(%rsp), %rdi
	.p2align	4
.Lnoise_BB_v3_6_2:
	movq	304(%rbx), %rcx
	cmpq	$64, %rcx
	jb	.Lnoise_BB_v3_6_11
	movq	32(%rbx), %r8
	movq	40(%rbx), %rdx
	movq	%rbx, %rcx
	movq	%r9, %rsi
	vzeroupper
	callq	"rand_chacha::guts::refill4.v3"
	addq	$4, 40(%rbx)
	movl	48(%rbx), %r8d
	movl	$1, %eax
	jmp	.Lnoise_BB_v3_6_13
	.p2align	4
.Lnoise_BB_v3_6_11:
	movl	48(%rbx,%rcx,4), %r8d
	leaq	1(%rcx), %rax
	movq	%rax, 304(%rbx)
	cmpq	$63, %rcx
	jne	.Lnoise_BB_v3_6_14
	movl	%r8d, %r14d
	movq	32(%rbx), %r8
	movq	40(%rbx), %rdx
	movq	%rbx, %rcx
	movq	%r9, %rsi
	vzeroupper
	callq	"rand_chacha::guts::refill4.v3"
	movl	%r14d, %r8d
	addq	$4, 40(%rbx)
	xorl	%eax, %eax
.Lnoise_BB_v3_6_13:
	movl	(%rsi,%rax,4), %r10d
	movl	4(%rsi,%rax,4), %r11d
	leaq	(%rsi,%rax,4), %rcx
	addq	$8, %rcx
	addq	$3, %rax
	movq	%rsi, %r9
.Lnoise_BB_v3_6_19:
	movl	(%rcx), %edx
	movq	%rax, 304(%rbx)
	movl	48(%rbx,%rax,4), %ecx
	movl	%ecx, 56(%rsp)
	leaq	1(%rax), %rcx
	movq	%rcx, 304(%rbx)
	addq	$2, %rax
.Lnoise_BB_v3_6_20:
	movl	48(%rbx,%rcx,4), %ecx
	movl	%ecx, 68(%rsp)
	movq	%rax, 304(%rbx)
	movl	48(%rbx,%rax,4), %ecx
	movl	%ecx, 52(%rsp)
	leaq	1(%rax), %rcx
	movq	%rcx, 304(%rbx)
	addq	$2, %rax
.Lnoise_BB_v3_6_21:
	movl	48(%rbx,%rcx,4), %ecx
	movl	%ecx, 64(%rsp)
	movq	%rax, 304(%rbx)
	movl	48(%rbx,%rax,4), %ecx
	movl	%ecx, 48(%rsp)
	leaq	1(%rax), %rcx
	movq	%rcx, 304(%rbx)
	addq	$2, %rax
.Lnoise_BB_v3_6_22:
	movl	48(%rbx,%rcx,4), %ecx
	movl	%ecx, 36(%rsp)
	movq	%rax, 304(%rbx)
	movl	48(%rbx,%rax,4), %ecx
	movl	%ecx, 44(%rsp)
	leaq	1(%rax), %rcx
	movq	%rcx, 304(%rbx)
	addq	$2, %rax
.Lnoise_BB_v3_6_23:
	movl	48(%rbx,%rcx,4), %esi
	movq	%rax, 304(%rbx)
	movl	48(%rbx,%rax,4), %r14d
	leaq	1(%rax), %rcx
	movq	%rcx, 304(%rbx)
	addq	$2, %rax
.Lnoise_BB_v3_6_24:
	movl	48(%rbx,%rcx,4), %r12d
	movq	%rax, 304(%rbx)
	movl	48(%rbx,%rax,4), %r15d
	incq	%rax
	movq	%rax, 304(%rbx)
.Lnoise_BB_v3_6_55:
	vmovd	56(%rsp), %xmm0
	vpinsrd	$1, 68(%rsp), %xmm0, %xmm0
	vpinsrd	$2, 52(%rsp), %xmm0, %xmm0
	vpinsrd	$3, 64(%rsp), %xmm0, %xmm0
	vmovd	%r8d, %xmm1
	vpinsrd	$1, %r10d, %xmm1, %xmm1
	vpinsrd	$2, %r11d, %xmm1, %xmm1
	vpinsrd	$3, %edx, %xmm1, %xmm1
	vmovd	%r14d, %xmm2
	vpinsrd	$1, %r12d, %xmm2, %xmm2
	vpinsrd	$2, %r15d, %xmm2, %xmm2
	movl	48(%rbx,%rax,4), %ecx
	incq	%rax
	movq	%rax, 304(%rbx)
	vmovd	48(%rsp), %xmm3
	vpinsrd	$1, 36(%rsp), %xmm3, %xmm3
	vpinsrd	$2, 44(%rsp), %xmm3, %xmm3
	vpinsrd	$3, %esi, %xmm3, %xmm3
	vpinsrd	$3, %ecx, %xmm2, %xmm2
	vpinsrb	$12, %ecx, %xmm2, %xmm4
	vinserti128	$1, %xmm0, %ymm1, %ymm0
	vinserti128	$1, %xmm2, %ymm3, %ymm1
	vinserti128	$1, %xmm4, %ymm3, %ymm2
	vmovdqa	.Lnoise_CPI_v3_6_0(%rip), %ymm3
	vpblendvb	%ymm3, %ymm2, %ymm1, %ymm1
	vpxor	32(%rdi), %ymm1, %ymm1
	vpxor	(%rdi), %ymm0, %ymm0
	vmovdqu	%ymm0, (%rdi)
	vmovdqu	%ymm1, 32(%rdi)
	addq	$64, %rdi
	decq	%rbp
	jne	.Lnoise_BB_v3_6_2
	jmp	.Lnoise_BB_v3_6_4
	.p2align	4
.Lnoise_BB_v3_6_14:
	movl	52(%rbx,%rcx,4), %r10d
	leaq	2(%rcx), %rax
	movq	%rax, 304(%rbx)
	cmpq	$62, %rcx
	jb	.Lnoise_BB_v3_6_16
	movl	%r10d, %r15d
	movl	%r8d, %r14d
	movq	32(%rbx), %r8
	movq	40(%rbx), %rdx
	movq	%rbx, %rcx
	movq	%r9, %rsi
	vzeroupper
	callq	"rand_chacha::guts::refill4.v3"
	addq	$4, 40(%rbx)
	movl	48(%rbx), %r11d
	movl	$1, %eax
	jmp	.Lnoise_BB_v3_6_18
.Lnoise_BB_v3_6_16:
	movl	56(%rbx,%rcx,4), %r11d
	leaq	3(%rcx), %rdx
	movq	%rdx, 304(%rbx)
	cmpq	$61, %rcx
	jne	.Lnoise_BB_v3_6_25
	movl	%r10d, %r15d
	movl	%r8d, %r14d
	movq	32(%rbx), %r8
	movq	40(%rbx), %rdx
	movq	%rbx, %rcx
	movq	%r9, %rsi
	movl	%r11d, %r12d
	vzeroupper
	callq	"rand_chacha::guts::refill4.v3"
	movl	%r12d, %r11d
	addq	$4, 40(%rbx)
	xorl	%eax, %eax
.Lnoise_BB_v3_6_18:
	leaq	(%rsi,%rax,4), %rcx
	incq	%rax
	movq	%rsi, %r9
	movl	%r14d, %r8d
	movl	%r15d, %r10d
	jmp	.Lnoise_BB_v3_6_19
.Lnoise_BB_v3_6_25:
	movl	60(%rbx,%rcx,4), %edx
	movl	%edx, 40(%rsp)
	leaq	4(%rcx), %rdx
	movq	%rdx, 304(%rbx)
	cmpq	$62, %rax
	jne	.Lnoise_BB_v3_6_27
	movl	%r8d, %r14d
	movq	32(%rbx), %r8
	movq	40(%rbx), %rdx
	movq	%rbx, %rcx
	movq	%r9, %rsi
	movl	%r10d, %r15d
	movl	%r11d, %r12d
	vzeroupper
	callq	"rand_chacha::guts::refill4.v3"
	movl	%r12d, %r11d
	movl	%r15d, %r10d
	movl	%r14d, %r8d
	movq	%rsi, %r9
	addq	$4, 40(%rbx)
	movl	48(%rbx), %eax
	movl	%eax, 56(%rsp)
	movl	$1, %ecx
	jmp	.Lnoise_BB_v3_6_29
.Lnoise_BB_v3_6_27:
	movl	64(%rbx,%rcx,4), %eax
	movl	%eax, 56(%rsp)
	leaq	5(%rcx), %rax
	movq	%rax, 304(%rbx)
	cmpq	$59, %rcx
	jb	.Lnoise_BB_v3_6_30
	movl	%r8d, %r14d
	movq	32(%rbx), %r8
	movq	40(%rbx), %rdx
	movq	%rbx, %rcx
	movq	%r9, %rsi
	movl	%r10d, %r15d
	movl	%r11d, %r12d
	vzeroupper
	callq	"rand_chacha::guts::refill4.v3"
	movl	%r12d, %r11d
	movl	%r15d, %r10d
	movl	%r14d, %r8d
	movq	%rsi, %r9
	addq	$4, 40(%rbx)
	xorl	%ecx, %ecx
.Lnoise_BB_v3_6_29:
	leaq	1(%rcx), %rax
	movl	40(%rsp), %edx
	jmp	.Lnoise_BB_v3_6_20
.Lnoise_BB_v3_6_30:
	movl	68(%rbx,%rcx,4), %eax
	movl	%eax, 68(%rsp)
	leaq	6(%rcx), %rax
	movq	%rax, 304(%rbx)
	cmpq	$62, %rdx
	jne	.Lnoise_BB_v3_6_32
	movl	%r8d, %r14d
	movq	32(%rbx), %r8
	movq	40(%rbx), %rdx
	movq	%rbx, %rcx
	movq	%r9, %rsi
	movl	%r10d, %r15d
	movl	%r11d, %r12d
	vzeroupper
	callq	"rand_chacha::guts::refill4.v3"
	movl	%r12d, %r11d
	movl	%r15d, %r10d
	movl	%r14d, %r8d
	movq	%rsi, %r9
	addq	$4, 40(%rbx)
	movl	48(%rbx), %eax
	movl	%eax, 52(%rsp)
	movl	$1, %ecx
	jmp	.Lnoise_BB_v3_6_34
.Lnoise_BB_v3_6_32:
	movl	72(%rbx,%rcx,4), %edx
	movl	%edx, 52(%rsp)
	leaq	7(%rcx), %rdx
	movq	%rdx, 304(%rbx)
	cmpq	$57, %rcx
	jb	.Lnoise_BB_v3_6_35
	movl	%r8d, %r14d
	movq	32(%rbx), %r8
	movq	40(%rbx), %rdx
	movq	%rbx, %rcx
	movq	%r9, %rsi
	movl	%r10d, %r15d
	movl	%r11d, %r12d
	vzeroupper
	callq	"rand_chacha::guts::refill4.v3"
	movl	%r12d, %r11d
	movl	%r15d, %r10d
	movl	%r14d, %r8d
	movq	%rsi, %r9
	addq	$4, 40(%rbx)
	xorl	%ecx, %ecx
.Lnoise_BB_v3_6_34:
	leaq	1(%rcx), %rax
	movl	40(%rsp), %edx
	jmp	.Lnoise_BB_v3_6_21
.Lnoise_BB_v3_6_35:
	movl	76(%rbx,%rcx,4), %edx
	movl	%edx, 64(%rsp)
	leaq	8(%rcx), %rdx
	movq	%rdx, 304(%rbx)
	cmpq	$62, %rax
	jne	.Lnoise_BB_v3_6_37
	movl	%r8d, %r14d
	movq	32(%rbx), %r8
	movq	40(%rbx), %rdx
	movq	%rbx, %rcx
	movq	%r9, %rsi
	movl	%r10d, %r15d
	movl	%r11d, %r12d
	vzeroupper
	callq	"rand_chacha::guts::refill4.v3"
	movl	%r12d, %r11d
	movl	%r15d, %r10d
	movl	%r14d, %r8d
	movq	%rsi, %r9
	addq	$4, 40(%rbx)
	movl	48(%rbx), %eax
	movl	%eax, 48(%rsp)
	movl	$1, %ecx
	jmp	.Lnoise_BB_v3_6_39
.Lnoise_BB_v3_6_37:
	movl	80(%rbx,%rcx,4), %eax
	movl	%eax, 48(%rsp)
	leaq	9(%rcx), %rax
	movq	%rax, 304(%rbx)
	cmpq	$55, %rcx
	jb	.Lnoise_BB_v3_6_40
	movl	%r8d, %r14d
	movq	32(%rbx), %r8
	movq	40(%rbx), %rdx
	movq	%rbx, %rcx
	movq	%r9, %rsi
	movl	%r10d, %r15d
	movl	%r11d, %r12d
	vzeroupper
	callq	"rand_chacha::guts::refill4.v3"
	movl	%r12d, %r11d
	movl	%r15d, %r10d
	movl	%r14d, %r8d
	movq	%rsi, %r9
	addq	$4, 40(%rbx)
	xorl	%ecx, %ecx
.Lnoise_BB_v3_6_39:
	leaq	1(%rcx), %rax
	movl	40(%rsp), %edx
	jmp	.Lnoise_BB_v3_6_22
.Lnoise_BB_v3_6_40:
	movl	84(%rbx,%rcx,4), %eax
	movl	%eax, 36(%rsp)
	leaq	10(%rcx), %rax
	movq	%rax, 304(%rbx)
	cmpq	$62, %rdx
	jne	.Lnoise_BB_v3_6_42
	movl	%r8d, %r14d
	movq	32(%rbx), %r8
	movq	40(%rbx), %rdx
	movq	%rbx, %rcx
	movq	%r9, %rsi
	movl	%r10d, %r15d
	movl	%r11d, %r12d
	vzeroupper
	callq	"rand_chacha::guts::refill4.v3"
	movl	%r12d, %r11d
	movl	%r15d, %r10d
	movl	%r14d, %r8d
	movq	%rsi, %r9
	addq	$4, 40(%rbx)
	movl	48(%rbx), %eax
	movl	%eax, 44(%rsp)
	movl	$1, %ecx
	jmp	.Lnoise_BB_v3_6_44
.Lnoise_BB_v3_6_42:
	movl	88(%rbx,%rcx,4), %edx
	movl	%edx, 44(%rsp)
	leaq	11(%rcx), %rdx
	movq	%rdx, 304(%rbx)
	cmpq	$53, %rcx
	jb	.Lnoise_BB_v3_6_45
	movl	%r8d, %r14d
	movq	32(%rbx), %r8
	movq	40(%rbx), %rdx
	movq	%rbx, %rcx
	movq	%r9, %rsi
	movl	%r10d, %r15d
	movl	%r11d, %r12d
	vzeroupper
	callq	"rand_chacha::guts::refill4.v3"
	movl	%r12d, %r11d
	movl	%r15d, %r10d
	movl	%r14d, %r8d
	movq	%rsi, %r9
	addq	$4, 40(%rbx)
	xorl	%ecx, %ecx
.Lnoise_BB_v3_6_44:
	leaq	1(%rcx), %rax
	movl	40(%rsp), %edx
	jmp	.Lnoise_BB_v3_6_23
.Lnoise_BB_v3_6_45:
	movl	92(%rbx,%rcx,4), %esi
	leaq	12(%rcx), %rdx
	movq	%rdx, 304(%rbx)
	cmpq	$62, %rax
	movl	%r8d, 60(%rsp)
	jne	.Lnoise_BB_v3_6_48
	movq	32(%rbx), %r8
	movq	40(%rbx), %rdx
	movq	%rbx, %rcx
	movq	%r9, %r14
	movl	%r10d, %r12d
	movl	%r11d, %r15d
	vzeroupper
	callq	"rand_chacha::guts::refill4.v3"
	movl	%r15d, %r11d
	movl	%r12d, %r10d
	movl	60(%rsp), %r8d
	movq	%r14, %r9
	addq	$4, 40(%rbx)
	movl	48(%rbx), %r14d
	movl	$1, %ecx
	jmp	.Lnoise_BB_v3_6_47
.Lnoise_BB_v3_6_48:
	movl	96(%rbx,%rcx,4), %r14d
	leaq	13(%rcx), %rax
	movq	%rax, 304(%rbx)
	cmpq	$51, %rcx
	jb	.Lnoise_BB_v3_6_50
	movq	32(%rbx), %r8
	movq	40(%rbx), %rdx
	movq	%rbx, %rcx
	movq	%r9, %r15
	movl	%r10d, 80(%rsp)
	movl	%r11d, %r12d
	vzeroupper
	callq	"rand_chacha::guts::refill4.v3"
	movl	%r12d, %r11d
	movl	80(%rsp), %r10d
	movl	60(%rsp), %r8d
	movq	%r15, %r9
	addq	$4, 40(%rbx)
	xorl	%ecx, %ecx
.Lnoise_BB_v3_6_47:
	leaq	1(%rcx), %rax
	movl	40(%rsp), %edx
	jmp	.Lnoise_BB_v3_6_24
.Lnoise_BB_v3_6_50:
	movl	100(%rbx,%rcx,4), %r12d
	leaq	14(%rcx), %rax
	movq	%rax, 304(%rbx)
	cmpq	$62, %rdx
	jne	.Lnoise_BB_v3_6_52
	movq	32(%rbx), %r8
	movq	40(%rbx), %rdx
	movq	%rbx, %rcx
	movq	%r9, %r15
	movl	%r10d, 80(%rsp)
	movl	%r11d, 84(%rsp)
	vzeroupper
	callq	"rand_chacha::guts::refill4.v3"
	movl	84(%rsp), %r11d
	movl	80(%rsp), %r10d
	movl	60(%rsp), %r8d
	movq	%r15, %r9
	addq	$4, 40(%rbx)
	movl	48(%rbx), %r15d
	movq	$1, 304(%rbx)
	movl	$1, %eax
	jmp	.Lnoise_BB_v3_6_54
.Lnoise_BB_v3_6_52:
	movl	104(%rbx,%rcx,4), %r15d
	leaq	15(%rcx), %rax
	movq	%rax, 304(%rbx)
	cmpq	$49, %rcx
	jb	.Lnoise_BB_v3_6_54
	movq	32(%rbx), %r8
	movq	40(%rbx), %rdx
	movq	%rbx, %rcx
	leaq	48(%rbx), %r9
	movl	%r10d, 80(%rsp)
	movl	%r11d, 84(%rsp)
	vzeroupper
	callq	"rand_chacha::guts::refill4.v3"
	movl	84(%rsp), %r11d
	movl	80(%rsp), %r10d
	movl	60(%rsp), %r8d
	leaq	48(%rbx), %r9
	addq	$4, 40(%rbx)
	xorl	%eax, %eax
.Lnoise_BB_v3_6_54:
	movl	40(%rsp), %edx
	jmp	.Lnoise_BB_v3_6_55
.Lnoise_BB_v3_6_4:
	testq	%r13, %r13
	je	.Lnoise_BB_v3_6_7
	movq	72(%rsp), %rsi
	shll	$6, %esi
	addq	96(%rsp), %rsi
	leaq	48(%rbx), %r14
	.p2align	4
.Lnoise_BB_v3_6_6:
	movq	32(%rbx), %r8
	movq	40(%rbx), %rax
	movq	304(%rbx), %rcx
	shrq	$4, %rcx
	leaq	(%rax,%rcx), %rdx
	addq	$-4, %rdx
	movq	%rdx, 40(%rbx)
	vpxor	%xmm0, %xmm0, %xmm0
	vmovdqu	%ymm0, 224(%r14)
	vmovdqu	%ymm0, 192(%r14)
	vmovdqu	%ymm0, 160(%r14)
	vmovdqu	%ymm0, 128(%r14)
	vmovdqu	%ymm0, 96(%r14)
	vmovdqu	%ymm0, 64(%r14)
	vmovdqu	%ymm0, 32(%r14)
	vmovdqu	%ymm0, (%r14)
	movq	$64, 304(%rbx)
	movq	%rbx, %rcx
	movq	%r14, %r9
	vzeroupper
	callq	"rand_chacha::guts::refill4.v3"
	addq	$4, 40(%rbx)
	vmovdqu	80(%rbx), %ymm2
	vmovdqu	144(%rbx), %ymm3
	vmovdqu	208(%rbx), %ymm1
	vmovdqu	272(%rbx), %ymm0
	movq	$64, 304(%rbx)
	vmovdqu	96(%rbx), %xmm4
	vpinsrb	$12, 108(%rbx), %xmm4, %xmm4
	vinserti128	$1, %xmm4, %ymm2, %ymm4
	vmovdqa	.Lnoise_CPI_v3_6_1(%rip), %ymm5
	vpblendvb	%ymm5, %ymm2, %ymm4, %ymm2
	vpxor	32(%rsi), %ymm2, %ymm2
	vmovdqu	(%rsi), %ymm4
	vmovups	64(%rsi), %ymm6
	vpxor	48(%rbx), %ymm4, %ymm4
	vmovdqu	160(%rbx), %xmm7
	vpinsrb	$12, 172(%rbx), %xmm7, %xmm7
	vxorps	112(%rbx), %ymm6, %ymm6
	vmovups	128(%rsi), %ymm8
	vmovdqu	224(%rbx), %xmm9
	vpinsrb	$12, 236(%rbx), %xmm9, %xmm9
	vmovups	192(%rsi), %ymm10
	vxorps	176(%rbx), %ymm8, %ymm8
	vmovdqu	288(%rbx), %xmm11
	vpinsrb	$12, 300(%rbx), %xmm11, %xmm11
	vxorps	240(%rbx), %ymm10, %ymm10
	vmovdqu	%ymm4, (%rsi)
	vmovdqu	%ymm2, 32(%rsi)
	vinserti128	$1, %xmm7, %ymm3, %ymm2
	vpblendvb	%ymm5, %ymm3, %ymm2, %ymm2
	vpxor	96(%rsi), %ymm2, %ymm2
	vmovups	%ymm6, 64(%rsi)
	vmovdqu	%ymm2, 96(%rsi)
	vinserti128	$1, %xmm9, %ymm1, %ymm2
	vpblendvb	%ymm5, %ymm1, %ymm2, %ymm1
	vpxor	160(%rsi), %ymm1, %ymm1
	vmovups	%ymm8, 128(%rsi)
	vmovdqu	%ymm1, 160(%rsi)
	vinserti128	$1, %xmm11, %ymm0, %ymm1
	vpblendvb	%ymm5, %ymm0, %ymm1, %ymm0
	vpxor	224(%rsi), %ymm0, %ymm0
	vmovups	%ymm10, 192(%rsi)
	vmovdqu	%ymm0, 224(%rsi)
	addq	$256, %rsi
	decq	%r13
	jne	.Lnoise_BB_v3_6_6
.Lnoise_BB_v3_6_7:
	movabsq	$288230376151711740, %rax
	movq	88(%rsp), %rcx
	andq	%rax, %rcx
	movq	%rcx, %rax
	orq	72(%rsp), %rax
	shlq	$6, %rax
	movq	104(%rsp), %r12
	subq	%rax, %r12
	shrq	$6, %r12
	je	.Lnoise_BB_v3_6_101
	addq	96(%rsp), %rax
	leaq	48(%rbx), %r9
	.p2align	4
.Lnoise_BB_v3_6_9:
	movq	%rax, 88(%rsp)
	movq	304(%rbx), %rcx
	cmpq	$64, %rcx
	jb	.Lnoise_BB_v3_6_56
	movq	32(%rbx), %r8
	movq	40(%rbx), %rdx
	movq	%rbx, %rcx
	movq	%r9, %rsi
	vzeroupper
	callq	"rand_chacha::guts::refill4.v3"
	addq	$4, 40(%rbx)
	movl	48(%rbx), %r8d
	movl	$1, %eax
	jmp	.Lnoise_BB_v3_6_58
	.p2align	4
.Lnoise_BB_v3_6_56:
	movl	48(%rbx,%rcx,4), %r8d
	leaq	1(%rcx), %rax
	movq	%rax, 304(%rbx)
	cmpq	$63, %rcx
	jne	.Lnoise_BB_v3_6_59
	movl	%r8d, %edi
	movq	32(%rbx), %r8
	movq	40(%rbx), %rdx
	movq	%rbx, %rcx
	movq	%r9, %rsi
	vzeroupper
	callq	"rand_chacha::guts::refill4.v3"
	movl	%edi, %r8d
	addq	$4, 40(%rbx)
	xorl	%eax, %eax
.Lnoise_BB_v3_6_58:
	movl	(%rsi,%rax,4), %r10d
	movl	4(%rsi,%rax,4), %r11d
	leaq	(%rsi,%rax,4), %rcx
	addq	$8, %rcx
	addq	$3, %rax
	movq	%rsi, %r9
.Lnoise_BB_v3_6_64:
	movl	(%rcx), %edx
	movq	%rax, 304(%rbx)
	movl	48(%rbx,%rax,4), %ecx
	movl	%ecx, 56(%rsp)
	leaq	1(%rax), %rcx
	movq	%rcx, 304(%rbx)
	addq	$2, %rax
.Lnoise_BB_v3_6_65:
	movl	48(%rbx,%rcx,4), %ecx
	movl	%ecx, 68(%rsp)
	movq	%rax, 304(%rbx)
	movl	48(%rbx,%rax,4), %ecx
	movl	%ecx, 52(%rsp)
	leaq	1(%rax), %rcx
	movq	%rcx, 304(%rbx)
	addq	$2, %rax
.Lnoise_BB_v3_6_66:
	movl	48(%rbx,%rcx,4), %ecx
	movl	%ecx, 64(%rsp)
	movq	%rax, 304(%rbx)
	movl	48(%rbx,%rax,4), %ecx
	movl	%ecx, 48(%rsp)
	leaq	1(%rax), %rcx
	movq	%rcx, 304(%rbx)
	addq	$2, %rax
.Lnoise_BB_v3_6_67:
	movl	48(%rbx,%rcx,4), %edi
	movq	%rax, 304(%rbx)
	movl	48(%rbx,%rax,4), %esi
	leaq	1(%rax), %rcx
	movq	%rcx, 304(%rbx)
	addq	$2, %rax
.Lnoise_BB_v3_6_68:
	movl	48(%rbx,%rcx,4), %ebp
	movq	%rax, 304(%rbx)
	movl	48(%rbx,%rax,4), %r13d
	leaq	1(%rax), %rcx
	movq	%rcx, 304(%rbx)
	addq	$2, %rax
.Lnoise_BB_v3_6_69:
	movl	48(%rbx,%rcx,4), %r14d
	movq	%rax, 304(%rbx)
	movl	48(%rbx,%rax,4), %r15d
	incq	%rax
	movq	%rax, 304(%rbx)
.Lnoise_BB_v3_6_100:
	vmovd	56(%rsp), %xmm0
	vpinsrd	$1, 68(%rsp), %xmm0, %xmm0
	vpinsrd	$2, 52(%rsp), %xmm0, %xmm0
	vpinsrd	$3, 64(%rsp), %xmm0, %xmm0
	vmovd	%r8d, %xmm1
	vpinsrd	$1, %r10d, %xmm1, %xmm1
	vpinsrd	$2, %r11d, %xmm1, %xmm1
	vpinsrd	$3, %edx, %xmm1, %xmm1
	vmovd	%r13d, %xmm2
	vpinsrd	$1, %r14d, %xmm2, %xmm2
	vpinsrd	$2, %r15d, %xmm2, %xmm2
	movl	48(%rbx,%rax,4), %ecx
	incq	%rax
	movq	%rax, 304(%rbx)
	vmovd	48(%rsp), %xmm3
	vpinsrd	$1, %edi, %xmm3, %xmm3
	vpinsrd	$2, %esi, %xmm3, %xmm3
	vpinsrd	$3, %ebp, %xmm3, %xmm3
	vpinsrd	$3, %ecx, %xmm2, %xmm2
	vpinsrb	$12, %ecx, %xmm2, %xmm4
	vinserti128	$1, %xmm0, %ymm1, %ymm0
	vinserti128	$1, %xmm2, %ymm3, %ymm1
	vinserti128	$1, %xmm4, %ymm3, %ymm2
	vmovdqa	.Lnoise_CPI_v3_6_0(%rip), %ymm3
	vpblendvb	%ymm3, %ymm2, %ymm1, %ymm1
	movq	88(%rsp), %rax
	vpxor	32(%rax), %ymm1, %ymm1
	vpxor	(%rax), %ymm0, %ymm0
	vmovdqu	%ymm0, (%rax)
	vmovdqu	%ymm1, 32(%rax)
	addq	$64, %rax
	decq	%r12
	jne	.Lnoise_BB_v3_6_9
	jmp	.Lnoise_BB_v3_6_101
	.p2align	4
.Lnoise_BB_v3_6_59:
	movl	52(%rbx,%rcx,4), %r10d
	leaq	2(%rcx), %rax
	movq	%rax, 304(%rbx)
	cmpq	$62, %rcx
	jb	.Lnoise_BB_v3_6_61
	movl	%r10d, %ebp
	movl	%r8d, %edi
	movq	32(%rbx), %r8
	movq	40(%rbx), %rdx
	movq	%rbx, %rcx
	movq	%r9, %rsi
	vzeroupper
	callq	"rand_chacha::guts::refill4.v3"
	addq	$4, 40(%rbx)
	movl	48(%rbx), %r11d
	movl	$1, %eax
	jmp	.Lnoise_BB_v3_6_63
.Lnoise_BB_v3_6_61:
	movl	56(%rbx,%rcx,4), %r11d
	leaq	3(%rcx), %rdx
	movq	%rdx, 304(%rbx)
	cmpq	$61, %rcx
	jne	.Lnoise_BB_v3_6_70
	movl	%r10d, %ebp
	movl	%r8d, %edi
	movq	32(%rbx), %r8
	movq	40(%rbx), %rdx
	movq	%rbx, %rcx
	movq	%r9, %rsi
	movl	%r11d, %r14d
	vzeroupper
	callq	"rand_chacha::guts::refill4.v3"
	movl	%r14d, %r11d
	addq	$4, 40(%rbx)
	xorl	%eax, %eax
.Lnoise_BB_v3_6_63:
	leaq	(%rsi,%rax,4), %rcx
	incq	%rax
	movq	%rsi, %r9
	movl	%edi, %r8d
	movl	%ebp, %r10d
	jmp	.Lnoise_BB_v3_6_64
.Lnoise_BB_v3_6_70:
	movl	60(%rbx,%rcx,4), %edx
	movl	%edx, 36(%rsp)
	leaq	4(%rcx), %rdx
	movq	%rdx, 304(%rbx)
	cmpq	$62, %rax
	jne	.Lnoise_BB_v3_6_72
	movl	%r8d, %edi
	movq	32(%rbx), %r8
	movq	40(%rbx), %rdx
	movq	%rbx, %rcx
	movq	%r9, %rsi
	movl	%r10d, %ebp
	movl	%r11d, %r14d
	vzeroupper
	callq	"rand_chacha::guts::refill4.v3"
	movl	%r14d, %r11d
	movl	%ebp, %r10d
	movl	%edi, %r8d
	movq	%rsi, %r9
	addq	$4, 40(%rbx)
	movl	48(%rbx), %eax
	movl	%eax, 56(%rsp)
	movl	$1, %ecx
	jmp	.Lnoise_BB_v3_6_74
.Lnoise_BB_v3_6_72:
	movl	64(%rbx,%rcx,4), %eax
	movl	%eax, 56(%rsp)
	leaq	5(%rcx), %rax
	movq	%rax, 304(%rbx)
	cmpq	$59, %rcx
	jb	.Lnoise_BB_v3_6_75
	movl	%r8d, %edi
	movq	32(%rbx), %r8
	movq	40(%rbx), %rdx
	movq	%rbx, %rcx
	movq	%r9, %rsi
	movl	%r10d, %ebp
	movl	%r11d, %r14d
	vzeroupper
	callq	"rand_chacha::guts::refill4.v3"
	movl	%r14d, %r11d
	movl	%ebp, %r10d
	movl	%edi, %r8d
	movq	%rsi, %r9
	addq	$4, 40(%rbx)
	xorl	%ecx, %ecx
.Lnoise_BB_v3_6_74:
	leaq	1(%rcx), %rax
	movl	36(%rsp), %edx
	jmp	.Lnoise_BB_v3_6_65
.Lnoise_BB_v3_6_75:
	movl	68(%rbx,%rcx,4), %eax
	movl	%eax, 68(%rsp)
	leaq	6(%rcx), %rax
	movq	%rax, 304(%rbx)
	cmpq	$62, %rdx
	jne	.Lnoise_BB_v3_6_77
	movl	%r8d, %edi
	movq	32(%rbx), %r8
	movq	40(%rbx), %rdx
	movq	%rbx, %rcx
	movq	%r9, %rsi
	movl	%r10d, %ebp
	movl	%r11d, %r14d
	vzeroupper
	callq	"rand_chacha::guts::refill4.v3"
	movl	%r14d, %r11d
	movl	%ebp, %r10d
	movl	%edi, %r8d
	movq	%rsi, %r9
	addq	$4, 40(%rbx)
	movl	48(%rbx), %eax
	movl	%eax, 52(%rsp)
	movl	$1, %ecx
	jmp	.Lnoise_BB_v3_6_79
.Lnoise_BB_v3_6_77:
	movl	72(%rbx,%rcx,4), %edx
	movl	%edx, 52(%rsp)
	leaq	7(%rcx), %rdx
	movq	%rdx, 304(%rbx)
	cmpq	$57, %rcx
	jb	.Lnoise_BB_v3_6_80
	movl	%r8d, %edi
	movq	32(%rbx), %r8
	movq	40(%rbx), %rdx
	movq	%rbx, %rcx
	movq	%r9, %rsi
	movl	%r10d, %ebp
	movl	%r11d, %r14d
	vzeroupper
	callq	"rand_chacha::guts::refill4.v3"
	movl	%r14d, %r11d
	movl	%ebp, %r10d
	movl	%edi, %r8d
	movq	%rsi, %r9
	addq	$4, 40(%rbx)
	xorl	%ecx, %ecx
.Lnoise_BB_v3_6_79:
	leaq	1(%rcx), %rax
	movl	36(%rsp), %edx
	jmp	.Lnoise_BB_v3_6_66
.Lnoise_BB_v3_6_80:
	movl	76(%rbx,%rcx,4), %edx
	movl	%edx, 64(%rsp)
	leaq	8(%rcx), %rdx
	movq	%rdx, 304(%rbx)
	cmpq	$62, %rax
	jne	.Lnoise_BB_v3_6_82
	movl	%r8d, %edi
	movq	32(%rbx), %r8
	movq	40(%rbx), %rdx
	movq	%rbx, %rcx
	movq	%r9, %rsi
	movl	%r10d, %ebp
	movl	%r11d, %r14d
	vzeroupper
	callq	"rand_chacha::guts::refill4.v3"
	movl	%r14d, %r11d
	movl	%ebp, %r10d
	movl	%edi, %r8d
	movq	%rsi, %r9
	addq	$4, 40(%rbx)
	movl	48(%rbx), %eax
	movl	%eax, 48(%rsp)
	movl	$1, %ecx
	jmp	.Lnoise_BB_v3_6_84
.Lnoise_BB_v3_6_82:
	movl	80(%rbx,%rcx,4), %eax
	movl	%eax, 48(%rsp)
	leaq	9(%rcx), %rax
	movq	%rax, 304(%rbx)
	cmpq	$55, %rcx
	jb	.Lnoise_BB_v3_6_85
	movl	%r8d, %edi
	movq	32(%rbx), %r8
	movq	40(%rbx), %rdx
	movq	%rbx, %rcx
	movq	%r9, %rsi
	movl	%r10d, %ebp
	movl	%r11d, %r14d
	vzeroupper
	callq	"rand_chacha::guts::refill4.v3"
	movl	%r14d, %r11d
	movl	%ebp, %r10d
	movl	%edi, %r8d
	movq	%rsi, %r9
	addq	$4, 40(%rbx)
	xorl	%ecx, %ecx
.Lnoise_BB_v3_6_84:
	leaq	1(%rcx), %rax
	movl	36(%rsp), %edx
	jmp	.Lnoise_BB_v3_6_67
.Lnoise_BB_v3_6_85:
	movl	84(%rbx,%rcx,4), %edi
	leaq	10(%rcx), %rax
	movq	%rax, 304(%rbx)
	cmpq	$62, %rdx
	jne	.Lnoise_BB_v3_6_87
	movl	%r8d, %ebp
	movq	32(%rbx), %r8
	movq	40(%rbx), %rdx
	movq	%rbx, %rcx
	movq	%r9, %rsi
	movl	%r10d, %r14d
	movl	%r11d, %r15d
	vzeroupper
	callq	"rand_chacha::guts::refill4.v3"
	movl	%r15d, %r11d
	movl	%r14d, %r10d
	movl	%ebp, %r8d
	movq	%rsi, %r9
	addq	$4, 40(%rbx)
	movl	48(%rbx), %esi
	movl	$1, %ecx
	jmp	.Lnoise_BB_v3_6_89
.Lnoise_BB_v3_6_87:
	movl	88(%rbx,%rcx,4), %esi
	leaq	11(%rcx), %rdx
	movq	%rdx, 304(%rbx)
	cmpq	$53, %rcx
	jb	.Lnoise_BB_v3_6_90
	movl	%r8d, %ebp
	movq	32(%rbx), %r8
	movq	40(%rbx), %rdx
	movq	%rbx, %rcx
	movq	%r9, %r14
	movl	%r10d, %r15d
	movl	%r11d, %r13d
	vzeroupper
	callq	"rand_chacha::guts::refill4.v3"
	movl	%r13d, %r11d
	movl	%r15d, %r10d
	movl	%ebp, %r8d
	movq	%r14, %r9
	addq	$4, 40(%rbx)
	xorl	%ecx, %ecx
.Lnoise_BB_v3_6_89:
	leaq	1(%rcx), %rax
	movl	36(%rsp), %edx
	jmp	.Lnoise_BB_v3_6_68
.Lnoise_BB_v3_6_90:
	movl	92(%rbx,%rcx,4), %ebp
	leaq	12(%rcx), %rdx
	movq	%rdx, 304(%rbx)
	cmpq	$62, %rax
	movl	%r8d, 44(%rsp)
	jne	.Lnoise_BB_v3_6_93
	movq	32(%rbx), %r8
	movq	40(%rbx), %rdx
	movq	%rbx, %rcx
	movq	%r9, %r14
	movl	%r10d, %r13d
	movl	%r11d, %r15d
	vzeroupper
	callq	"rand_chacha::guts::refill4.v3"
	movl	%r15d, %r11d
	movl	%r13d, %r10d
	movl	44(%rsp), %r8d
	movq	%r14, %r9
	addq	$4, 40(%rbx)
	movl	48(%rbx), %r13d
	movl	$1, %ecx
	jmp	.Lnoise_BB_v3_6_92
.Lnoise_BB_v3_6_93:
	movl	96(%rbx,%rcx,4), %r13d
	leaq	13(%rcx), %rax
	movq	%rax, 304(%rbx)
	cmpq	$51, %rcx
	jb	.Lnoise_BB_v3_6_95
	movq	32(%rbx), %r8
	movq	40(%rbx), %rdx
	movq	%rbx, %rcx
	movq	%r9, %r14
	movl	%r10d, 72(%rsp)
	movl	%r11d, %r15d
	vzeroupper
	callq	"rand_chacha::guts::refill4.v3"
	movl	%r15d, %r11d
	movl	72(%rsp), %r10d
	movl	44(%rsp), %r8d
	movq	%r14, %r9
	addq	$4, 40(%rbx)
	xorl	%ecx, %ecx
.Lnoise_BB_v3_6_92:
	leaq	1(%rcx), %rax
	movl	36(%rsp), %edx
	jmp	.Lnoise_BB_v3_6_69
.Lnoise_BB_v3_6_95:
	movl	100(%rbx,%rcx,4), %r14d
	leaq	14(%rcx), %rax
	movq	%rax, 304(%rbx)
	cmpq	$62, %rdx
	jne	.Lnoise_BB_v3_6_97
	movq	32(%rbx), %r8
	movq	40(%rbx), %rdx
	movq	%rbx, %rcx
	movq	%r9, %r15
	movl	%r10d, 72(%rsp)
	movl	%r11d, 40(%rsp)
	vzeroupper
	callq	"rand_chacha::guts::refill4.v3"
	movl	40(%rsp), %r11d
	movl	72(%rsp), %r10d
	movl	44(%rsp), %r8d
	movq	%r15, %r9
	addq	$4, 40(%rbx)
	movl	48(%rbx), %r15d
	movq	$1, 304(%rbx)
	movl	$1, %eax
	jmp	.Lnoise_BB_v3_6_99
.Lnoise_BB_v3_6_97:
	movl	104(%rbx,%rcx,4), %r15d
	leaq	15(%rcx), %rax
	movq	%rax, 304(%rbx)
	cmpq	$49, %rcx
	jb	.Lnoise_BB_v3_6_99
	movq	32(%rbx), %r8
	movq	40(%rbx), %rdx
	movq	%rbx, %rcx
	leaq	48(%rbx), %r9
	movl	%r10d, 72(%rsp)
	movl	%r11d, 40(%rsp)
	vzeroupper
	callq	"rand_chacha::guts::refill4.v3"
	movl	40(%rsp), %r11d
	movl	72(%rsp), %r10d
	movl	44(%rsp), %r8d
	leaq	48(%rbx), %r9
	addq	$4, 40(%rbx)
	xorl	%eax, %eax
.Lnoise_BB_v3_6_99:
	movl	36(%rsp), %edx
	jmp	.Lnoise_BB_v3_6_100
.Lnoise_BB_v3_6_101:
	movq	104(%rsp), %rax
	movq	%rax, %r15
	andq	$63, %r15
	je	.Lnoise_BB_v3_6_154
	andq	$-64, %rax
	movq	%rax, 88(%rsp)
	vpxor	%xmm0, %xmm0, %xmm0
	vmovdqu	%ymm0, 144(%rsp)
	vmovdqu	%ymm0, 112(%rsp)
	movq	304(%rbx), %rcx
	cmpq	$64, %rcx
	jb	.Lnoise_BB_v3_6_104
	movq	32(%rbx), %r8
	movq	40(%rbx), %rdx
	leaq	48(%rbx), %r14
	movq	%rbx, %rcx
	movq	%r14, %r9
	vzeroupper
	callq	"rand_chacha::guts::refill4.v3"
	addq	$4, 40(%rbx)
	movl	48(%rbx), %edx
	movl	$1, %eax
	jmp	.Lnoise_BB_v3_6_106
.Lnoise_BB_v3_6_104:
	leaq	48(%rbx), %r14
	movl	48(%rbx,%rcx,4), %edx
	leaq	1(%rcx), %rax
	movq	%rax, 304(%rbx)
	cmpq	$63, %rcx
	jne	.Lnoise_BB_v3_6_107
	movq	32(%rbx), %r8
	movl	%edx, %esi
	movq	40(%rbx), %rdx
	movq	%rbx, %rcx
	movq	%r14, %r9
	vzeroupper
	callq	"rand_chacha::guts::refill4.v3"
	movl	%esi, %edx
	addq	$4, 40(%rbx)
	xorl	%eax, %eax
.Lnoise_BB_v3_6_106:
	movl	48(%rbx,%rax,4), %r8d
	leaq	1(%rax), %rcx
	movq	%rcx, 304(%rbx)
	movl	52(%rbx,%rax,4), %r9d
	leaq	2(%rax), %rcx
	movq	%rcx, 304(%rbx)
	leaq	(%rbx,%rax,4), %rcx
	addq	$56, %rcx
	addq	$3, %rax
.Lnoise_BB_v3_6_112:
	movl	(%rcx), %r10d
	movq	%rax, 304(%rbx)
	movl	(%r14,%rax,4), %r11d
	leaq	1(%rax), %rcx
	movq	%rcx, 304(%rbx)
	leaq	(%r14,%rax,4), %rcx
	addq	$4, %rcx
	addq	$2, %rax
.Lnoise_BB_v3_6_118:
	movl	(%rcx), %ecx
	movl	%ecx, 56(%rsp)
	movq	%rax, 304(%rbx)
	movl	(%r14,%rax,4), %ecx
	movl	%ecx, 68(%rsp)
	leaq	1(%rax), %rcx
	movq	%rcx, 304(%rbx)
	leaq	(%r14,%rax,4), %rcx
	addq	$4, %rcx
	addq	$2, %rax
.Lnoise_BB_v3_6_124:
	movl	(%rcx), %ecx
	movl	%ecx, 52(%rsp)
	movq	%rax, 304(%rbx)
	movl	(%r14,%rax,4), %ecx
	movl	%ecx, 64(%rsp)
	leaq	1(%rax), %rcx
	movq	%rcx, 304(%rbx)
	leaq	(%r14,%rax,4), %rcx
	addq	$4, %rcx
	addq	$2, %rax
.Lnoise_BB_v3_6_130:
	movl	(%rcx), %ecx
	movl	%ecx, 48(%rsp)
	movq	%rax, 304(%rbx)
	movl	(%r14,%rax,4), %esi
	leaq	1(%rax), %rcx
	movq	%rcx, 304(%rbx)
	leaq	(%r14,%rax,4), %rcx
	addq	$4, %rcx
	addq	$2, %rax
.Lnoise_BB_v3_6_136:
	movl	(%rcx), %edi
	movq	%rax, 304(%rbx)
	movl	(%r14,%rax,4), %ebp
	leaq	1(%rax), %rcx
	movq	%rcx, 304(%rbx)
	leaq	(%r14,%rax,4), %rcx
	addq	$4, %rcx
	addq	$2, %rax
.Lnoise_BB_v3_6_142:
	movl	(%rcx), %r12d
	movq	%rax, 304(%rbx)
	movl	(%r14,%rax,4), %r13d
	incq	%rax
	movq	%rax, 304(%rbx)
.Lnoise_BB_v3_6_148:
	vmovd	%edx, %xmm0
	vpinsrd	$1, %r8d, %xmm0, %xmm0
	vpinsrd	$2, %r9d, %xmm0, %xmm0
	vpinsrd	$3, %r10d, %xmm0, %xmm0
	vmovd	%r11d, %xmm1
	vpinsrd	$1, 56(%rsp), %xmm1, %xmm1
	vpinsrd	$2, 68(%rsp), %xmm1, %xmm1
	vpinsrd	$3, 52(%rsp), %xmm1, %xmm1
	vmovd	64(%rsp), %xmm2
	vpinsrd	$1, 48(%rsp), %xmm2, %xmm2
	vpinsrd	$2, %esi, %xmm2, %xmm2
	vpinsrd	$3, %edi, %xmm2, %xmm2
	movl	(%r14,%rax,4), %ecx
	incq	%rax
	movq	%rax, 304(%rbx)
	vmovd	%ebp, %xmm3
	vpinsrd	$1, %r12d, %xmm3, %xmm3
	vmovdqa	%xmm1, 128(%rsp)
	vmovdqa	%xmm0, 112(%rsp)
	vmovdqa	%xmm2, 144(%rsp)
	vmovq	%xmm3, 160(%rsp)
	movl	%r13d, 168(%rsp)
	vmovd	%ecx, %xmm0
	movb	%cl, 172(%rsp)
	vpbroadcastd	%xmm0, %xmm0
	vpextrb	$13, %xmm0, 173(%rsp)
	movq	96(%rsp), %r8
	addq	88(%rsp), %r8
	vpextrb	$14, %xmm0, 174(%rsp)
	vpextrb	$15, %xmm0, 175(%rsp)
	cmpl	$8, %r15d
	jae	.Lnoise_BB_v3_6_150
	xorl	%edx, %edx
	jmp	.Lnoise_BB_v3_6_153
.Lnoise_BB_v3_6_150:
	movq	104(%rsp), %rdx
	andl	$56, %edx
	xorl	%eax, %eax
	.p2align	4
.Lnoise_BB_v3_6_151:
	movq	112(%rsp,%rax), %rcx
	xorq	%rcx, (%r8,%rax)
	addq	$8, %rax
	cmpq	%rax, %rdx
	jne	.Lnoise_BB_v3_6_151
	cmpl	%edx, %r15d
	je	.Lnoise_BB_v3_6_154
	.p2align	4
.Lnoise_BB_v3_6_153:
	movzbl	112(%rsp,%rdx), %eax
	xorb	%al, (%r8,%rdx)
	incq	%rdx
	cmpq	%rdx, %r15
	jne	.Lnoise_BB_v3_6_153
.Lnoise_BB_v3_6_154:
	vmovaps	176(%rsp), %xmm6
	vmovaps	192(%rsp), %xmm7
	vmovaps	208(%rsp), %xmm8
	vmovaps	224(%rsp), %xmm9
	vmovaps	240(%rsp), %xmm10
	vmovaps	256(%rsp), %xmm11
	addq	$280, %rsp
	popq	%rbx
	popq	%rbp
	popq	%rdi
	popq	%rsi
	popq	%r12
	popq	%r13
	popq	%r14
	popq	%r15
	vzeroupper
	retq
.Lnoise_BB_v3_6_107:
	movl	%edx, 36(%rsp)
	movl	52(%rbx,%rcx,4), %r8d
	leaq	2(%rcx), %rax
	movq	%rax, 304(%rbx)
	cmpq	$62, %rcx
	jb	.Lnoise_BB_v3_6_109
	movl	%r8d, %esi
	movq	32(%rbx), %r8
	movq	40(%rbx), %rdx
	movq	%rbx, %rcx
	movq	%r14, %r9
	vzeroupper
	callq	"rand_chacha::guts::refill4.v3"
	addq	$4, 40(%rbx)
	movl	48(%rbx), %r9d
	movq	$1, 304(%rbx)
	movl	$1, %eax
	jmp	.Lnoise_BB_v3_6_111
.Lnoise_BB_v3_6_109:
	movl	56(%rbx,%rcx,4), %r9d
	leaq	3(%rcx), %rdx
	movq	%rdx, 304(%rbx)
	cmpq	$61, %rcx
	jne	.Lnoise_BB_v3_6_113
	movl	%r8d, %esi
	movq	32(%rbx), %r8
	movq	40(%rbx), %rdx
	movq	%rbx, %rcx
	movl	%r9d, %edi
	movq	%r14, %r9
	vzeroupper
	callq	"rand_chacha::guts::refill4.v3"
	movl	%edi, %r9d
	addq	$4, 40(%rbx)
	xorl	%eax, %eax
.Lnoise_BB_v3_6_111:
	leaq	(%r14,%rax,4), %rcx
	incq	%rax
	movl	36(%rsp), %edx
	movl	%esi, %r8d
	jmp	.Lnoise_BB_v3_6_112
.Lnoise_BB_v3_6_113:
	movl	60(%rbx,%rcx,4), %r10d
	leaq	4(%rcx), %rdx
	movq	%rdx, 304(%rbx)
	cmpq	$62, %rax
	jne	.Lnoise_BB_v3_6_115
	movl	%r10d, %ebp
	movl	%r9d, %edi
	movl	%r8d, %esi
	movq	32(%rbx), %r8
	movq	40(%rbx), %rdx
	movq	%rbx, %rcx
	movq	%r14, %r9
	vzeroupper
	callq	"rand_chacha::guts::refill4.v3"
	addq	$4, 40(%rbx)
	movl	48(%rbx), %r11d
	movq	$1, 304(%rbx)
	movl	$1, %eax
	jmp	.Lnoise_BB_v3_6_117
.Lnoise_BB_v3_6_115:
	movl	64(%rbx,%rcx,4), %r11d
	leaq	5(%rcx), %rax
	movq	%rax, 304(%rbx)
	cmpq	$59, %rcx
	jb	.Lnoise_BB_v3_6_119
	movl	%r10d, %ebp
	movl	%r9d, %edi
	movl	%r8d, %esi
	movq	32(%rbx), %r8
	movq	40(%rbx), %rdx
	movq	%rbx, %rcx
	movq	%r14, %r9
	movl	%r11d, %r12d
	vzeroupper
	callq	"rand_chacha::guts::refill4.v3"
	movl	%r12d, %r11d
	addq	$4, 40(%rbx)
	xorl	%eax, %eax
.Lnoise_BB_v3_6_117:
	leaq	(%r14,%rax,4), %rcx
	incq	%rax
	movl	36(%rsp), %edx
	movl	%esi, %r8d
	movl	%edi, %r9d
	movl	%ebp, %r10d
	jmp	.Lnoise_BB_v3_6_118
.Lnoise_BB_v3_6_119:
	movl	68(%rbx,%rcx,4), %eax
	movl	%eax, 56(%rsp)
	leaq	6(%rcx), %rax
	movq	%rax, 304(%rbx)
	cmpq	$62, %rdx
	jne	.Lnoise_BB_v3_6_121
	movl	%r11d, %r12d
	movl	%r10d, %ebp
	movl	%r9d, %edi
	movl	%r8d, %esi
	movq	32(%rbx), %r8
	movq	40(%rbx), %rdx
	movq	%rbx, %rcx
	movq	%r14, %r9
	vzeroupper
	callq	"rand_chacha::guts::refill4.v3"
	addq	$4, 40(%rbx)
	movl	48(%rbx), %eax
	movl	%eax, 68(%rsp)
	movq	$1, 304(%rbx)
	movl	$1, %eax
	jmp	.Lnoise_BB_v3_6_123
.Lnoise_BB_v3_6_121:
	movl	72(%rbx,%rcx,4), %edx
	movl	%edx, 68(%rsp)
	leaq	7(%rcx), %rdx
	movq	%rdx, 304(%rbx)
	cmpq	$57, %rcx
	jb	.Lnoise_BB_v3_6_125
	movl	%r11d, %r12d
	movl	%r10d, %ebp
	movl	%r9d, %edi
	movl	%r8d, %esi
	movq	32(%rbx), %r8
	movq	40(%rbx), %rdx
	movq	%rbx, %rcx
	movq	%r14, %r9
	vzeroupper
	callq	"rand_chacha::guts::refill4.v3"
	addq	$4, 40(%rbx)
	xorl	%eax, %eax
.Lnoise_BB_v3_6_123:
	leaq	(%r14,%rax,4), %rcx
	incq	%rax
	movl	36(%rsp), %edx
	movl	%esi, %r8d
	movl	%edi, %r9d
	movl	%ebp, %r10d
	movl	%r12d, %r11d
	jmp	.Lnoise_BB_v3_6_124
.Lnoise_BB_v3_6_125:
	movl	76(%rbx,%rcx,4), %edx
	movl	%edx, 52(%rsp)
	leaq	8(%rcx), %rdx
	movq	%rdx, 304(%rbx)
	cmpq	$62, %rax
	jne	.Lnoise_BB_v3_6_127
	movl	%r11d, %r12d
	movl	%r10d, %ebp
	movl	%r9d, %edi
	movl	%r8d, %esi
	movq	32(%rbx), %r8
	movq	40(%rbx), %rdx
	movq	%rbx, %rcx
	movq	%r14, %r9
	vzeroupper
	callq	"rand_chacha::guts::refill4.v3"
	addq	$4, 40(%rbx)
	movl	48(%rbx), %eax
	movl	%eax, 64(%rsp)
	movq	$1, 304(%rbx)
	movl	$1, %eax
	jmp	.Lnoise_BB_v3_6_129
.Lnoise_BB_v3_6_127:
	movl	80(%rbx,%rcx,4), %eax
	movl	%eax, 64(%rsp)
	leaq	9(%rcx), %rax
	movq	%rax, 304(%rbx)
	cmpq	$55, %rcx
	jb	.Lnoise_BB_v3_6_131
	movl	%r11d, %r12d
	movl	%r10d, %ebp
	movl	%r9d, %edi
	movl	%r8d, %esi
	movq	32(%rbx), %r8
	movq	40(%rbx), %rdx
	movq	%rbx, %rcx
	movq	%r14, %r9
	vzeroupper
	callq	"rand_chacha::guts::refill4.v3"
	addq	$4, 40(%rbx)
	xorl	%eax, %eax
.Lnoise_BB_v3_6_129:
	leaq	(%r14,%rax,4), %rcx
	incq	%rax
	movl	36(%rsp), %edx
	movl	%esi, %r8d
	movl	%edi, %r9d
	movl	%ebp, %r10d
	movl	%r12d, %r11d
	jmp	.Lnoise_BB_v3_6_130
.Lnoise_BB_v3_6_131:
	movl	84(%rbx,%rcx,4), %eax
	movl	%eax, 48(%rsp)
	leaq	10(%rcx), %rax
	movq	%rax, 304(%rbx)
	cmpq	$62, %rdx
	jne	.Lnoise_BB_v3_6_133
	movl	%r11d, %r13d
	movl	%r10d, %r12d
	movl	%r9d, %ebp
	movl	%r8d, %edi
	movq	32(%rbx), %r8
	movq	40(%rbx), %rdx
	movq	%rbx, %rcx
	movq	%r14, %r9
	vzeroupper
	callq	"rand_chacha::guts::refill4.v3"
	addq	$4, 40(%rbx)
	movl	48(%rbx), %esi
	movq	$1, 304(%rbx)
	movl	$1, %eax
	jmp	.Lnoise_BB_v3_6_135
.Lnoise_BB_v3_6_133:
	movl	88(%rbx,%rcx,4), %esi
	leaq	11(%rcx), %rdx
	movq	%rdx, 304(%rbx)
	cmpq	$53, %rcx
	jb	.Lnoise_BB_v3_6_137
	movl	%r11d, %r13d
	movl	%r10d, %r12d
	movl	%r9d, %ebp
	movl	%r8d, %edi
	movq	32(%rbx), %r8
	movq	40(%rbx), %rdx
	movq	%rbx, %rcx
	movq	%r14, %r9
	vzeroupper
	callq	"rand_chacha::guts::refill4.v3"
	addq	$4, 40(%rbx)
	xorl	%eax, %eax
.Lnoise_BB_v3_6_135:
	leaq	(%r14,%rax,4), %rcx
	incq	%rax
	movl	36(%rsp), %edx
	movl	%edi, %r8d
	movl	%ebp, %r9d
	movl	%r12d, %r10d
	movl	%r13d, %r11d
	jmp	.Lnoise_BB_v3_6_136
.Lnoise_BB_v3_6_137:
	movl	%r11d, 60(%rsp)
	movl	%r10d, 40(%rsp)
	movl	%r9d, 72(%rsp)
	movl	%r8d, 44(%rsp)
	movl	92(%rbx,%rcx,4), %edi
	leaq	12(%rcx), %rdx
	movq	%rdx, 304(%rbx)
	cmpq	$62, %rax
	jne	.Lnoise_BB_v3_6_139
	movq	32(%rbx), %r8
	movq	40(%rbx), %rdx
	movq	%rbx, %rcx
	movq	%r14, %r9
	vzeroupper
	callq	"rand_chacha::guts::refill4.v3"
	addq	$4, 40(%rbx)
	movl	48(%rbx), %ebp
	movq	$1, 304(%rbx)
	movl	$1, %eax
	jmp	.Lnoise_BB_v3_6_141
.Lnoise_BB_v3_6_139:
	movl	96(%rbx,%rcx,4), %ebp
	leaq	13(%rcx), %rax
	movq	%rax, 304(%rbx)
	cmpq	$51, %rcx
	jb	.Lnoise_BB_v3_6_143
	movq	32(%rbx), %r8
	movq	40(%rbx), %rdx
	movq	%rbx, %rcx
	movq	%r14, %r9
	vzeroupper
	callq	"rand_chacha::guts::refill4.v3"
	addq	$4, 40(%rbx)
	xorl	%eax, %eax
.Lnoise_BB_v3_6_141:
	leaq	(%r14,%rax,4), %rcx
	incq	%rax
	movl	36(%rsp), %edx
	movl	44(%rsp), %r8d
	movl	72(%rsp), %r9d
	movl	40(%rsp), %r10d
	movl	60(%rsp), %r11d
	jmp	.Lnoise_BB_v3_6_142
.Lnoise_BB_v3_6_143:
	movl	100(%rbx,%rcx,4), %r12d
	leaq	14(%rcx), %rax
	movq	%rax, 304(%rbx)
	cmpq	$62, %rdx
	jne	.Lnoise_BB_v3_6_145
	movq	32(%rbx), %r8
	movq	40(%rbx), %rdx
	movq	%rbx, %rcx
	movq	%r14, %r9
	vzeroupper
	callq	"rand_chacha::guts::refill4.v3"
	addq	$4, 40(%rbx)
	movl	48(%rbx), %r13d
	movq	$1, 304(%rbx)
	movl	$1, %eax
	jmp	.Lnoise_BB_v3_6_147
.Lnoise_BB_v3_6_145:
	movl	104(%rbx,%rcx,4), %r13d
	leaq	15(%rcx), %rax
	movq	%rax, 304(%rbx)
	cmpq	$49, %rcx
	jb	.Lnoise_BB_v3_6_147
	movq	32(%rbx), %r8
	movq	40(%rbx), %rdx
	movq	%rbx, %rcx
	movq	%r14, %r9
	vzeroupper
	callq	"rand_chacha::guts::refill4.v3"
	addq	$4, 40(%rbx)
	xorl	%eax, %eax
.Lnoise_BB_v3_6_147:
	movl	36(%rsp), %edx
	movl	44(%rsp), %r8d
	movl	72(%rsp), %r9d
	movl	40(%rsp), %r10d
	movl	60(%rsp), %r11d
	jmp	.Lnoise_BB_v3_6_148
	.seh_endproc

	.section	.rdata,"dr"
	.p2align	4, 0x0
.Lnoise_CPI_v3_2_5:
	.byte	0
	.byte	8
	.byte	0
	.byte	8
	.section	.rdata,"dr"
	.p2align	4, 0x0
.Lnoise_CPI_v3_2_2:
	.zero	1
	.zero	1
	.byte	0
	.byte	8
	.zero	1
	.zero	1
	.zero	1
	.zero	1
	.zero	1
	.zero	1
	.zero	1
	.zero	1
	.zero	1
	.zero	1
	.zero	1
	.zero	1
	.section	.rdata,"dr"
	.p2align	4, 0x0
.Lnoise_CPI_v3_2_4:
	.zero	1
	.zero	1
	.zero	1
	.zero	1
	.zero	1
	.zero	1
	.zero	1
	.zero	1
	.byte	0
	.byte	1
	.byte	10
	.byte	11
	.zero	1
	.zero	1
	.zero	1
	.zero	1
	.def	"noise_aead::authenticator::tag.v3";
	.scl	3;
	.type	32;
	.endef
	.text
	.p2align	4
"noise_aead::authenticator::tag.v3":
.seh_proc "noise_aead::authenticator::tag.v3"
	pushq	%r15
	.seh_pushreg %r15
	pushq	%r14
	.seh_pushreg %r14
	pushq	%r13
	.seh_pushreg %r13
	pushq	%r12
	.seh_pushreg %r12
	pushq	%rsi
	.seh_pushreg %rsi
	pushq	%rdi
	.seh_pushreg %rdi
	pushq	%rbp
	.seh_pushreg %rbp
	pushq	%rbx
	.seh_pushreg %rbx
	subq	$216, %rsp
	.seh_stackalloc 216
	.seh_endprologue
	movq	%r9, %rdi
	movq	%rcx, 56(%rsp)
	movq	320(%rsp), %r15
	movq	328(%rsp), %rbx
	vmovups	(%rdx), %xmm0
	vmovups	16(%rdx), %xmm1
	vandps	.Lnoise_CPI2_0(%rip), %xmm0, %xmm0
	vxorps	%xmm2, %xmm2, %xmm2
	vmovups	%ymm2, 80(%rsp)
	vmovaps	%xmm0, 112(%rsp)
	vmovaps	%xmm1, 128(%rsp)
	vmovups	%ymm2, 144(%rsp)
	leaq	80(%rsp), %r14
	movq	%r14, %rcx
	movq	%r8, %rdx
	movq	%r9, %r8
	vzeroupper
	callq	"noise_poly::Poly1305::update"
	movl	%edi, %r8d
	negl	%r8d
	andl	$15, %r8d
	leaq	.Lnoise_static.0(%rip), %r12
	movq	%r14, %rcx
	movq	%r12, %rdx
	callq	"noise_poly::Poly1305::update"
	movq	%r14, %rcx
	movq	%r15, %rdx
	movq	%rbx, %r8
	callq	"noise_poly::Poly1305::update"
	movl	%ebx, %r8d
	negl	%r8d
	andl	$15, %r8d
	movq	%r14, %rcx
	movq	%r12, %rdx
	callq	"noise_poly::Poly1305::update"
	movq	%rdi, 64(%rsp)
	movq	%rbx, 72(%rsp)
	leaq	64(%rsp), %rdx
	movl	$16, %ebp
	movl	$16, %r8d
	movq	%r14, %rcx
	callq	"noise_poly::Poly1305::update"
	movq	80(%rsp), %rbx
	movq	88(%rsp), %rdi
	movq	96(%rsp), %r13
	movq	120(%rsp), %rsi
	movq	112(%rsp), %rax
	movq	136(%rsp), %r15
	movq	128(%rsp), %r12
	vmovups	144(%rsp), %ymm0
	vmovups	%ymm0, 176(%rsp)
	movq	192(%rsp), %r14
	testq	%r14, %r14
	je	.Lnoise_BB_v3_2_2
	subq	%r14, %rbp
	cmpq	$16, %r14
	movl	$0, %r8d
	cmovbq	%rbp, %r8
	leaq	(%rsp,%r14), %rcx
	addq	$32, %rcx
	xorl	%edx, %edx
	movq	%rax, %rbp
	vzeroupper
	callq	memset
	leaq	32(%rsp), %rcx
	leaq	176(%rsp), %rdx
	movq	%r14, %r8
	callq	memcpy
	movb	$1, 32(%rsp,%r14)
	addq	32(%rsp), %rbx
	adcq	40(%rsp), %rdi
	adcq	$0, %r13
	movq	%rsi, %rax
	shrq	$2, %rax
	movq	%rbx, %rdx
	mulxq	%rbp, %r10, %r9
	addq	%rsi, %rax
	movq	%rdi, %rdx
	mulxq	%rax, %rcx, %r8
	addq	%r10, %rcx
	adcq	%r9, %r8
	movq	%rbx, %rdx
	mulxq	%rsi, %r10, %r9
	movq	%rdi, %rdx
	mulxq	%rbp, %rdx, %r11
	addq	%r10, %rdx
	adcq	%r9, %r11
	imulq	%r13, %rax
	addq	%rdx, %rax
	adcq	$0, %r11
	imulq	%rbp, %r13
	movq	%rax, %rdx
	addq	%r8, %rdx
	adcq	%r11, %r13
	movq	%r13, %r9
	shrq	$2, %r9
	leaq	(%r9,%r9,4), %r9
	movq	%r9, %r10
	addq	%rcx, %r10
	adcq	%r8, %rax
	andl	$3, %r13d
	addq	%r9, %rcx
	adcq	$0, %rdx
	adcq	$0, %r13
	movq	%rcx, %rbx
	movq	%rax, %rdi
.Lnoise_BB_v3_2_2:
	movq	%r13, %rax
	shrq	$2, %rax
	leaq	(%rax,%rax,4), %rax
	addq	$5, %rax
	addq	%rbx, %rax
	movq	%rdi, %rax
	adcq	$0, %rax
	adcq	$0, %r13
	shrq	$2, %r13
	leaq	(,%r13,4), %rax
	addq	%r13, %rax
	addq	%rbx, %r12
	adcq	%rdi, %r15
	addq	%rax, %r12
	adcq	$0, %r15
	movq	%r15, %rcx
	shldq	$56, %r12, %rcx
	movq	%r15, %r8
	shldq	$48, %r12, %r8
	movq	%r15, %r9
	shldq	$40, %r12, %r9
	movq	%r15, %r10
	shldq	$32, %r12, %r10
	movq	%r15, %r11
	shldq	$24, %r12, %r11
	movq	%r15, %rsi
	shldq	$16, %r12, %rsi
	movq	%r15, %rdi
	shldq	$8, %r12, %rdi
	movq	%r15, %rax
	shrq	$32, %rax
	movq	%r15, %rdx
	shrq	$40, %rdx
	movq	%r15, %rbx
	shrq	$48, %rbx
	movq	%r15, %r14
	shrq	$56, %r14
	vmovq	%rdi, %xmm0
	vmovq	%rsi, %xmm1
	vpunpcklqdq	%xmm0, %xmm1, %xmm0
	vpbroadcastd	.Lnoise_CPI_v3_2_5(%rip), %xmm1
	vpshufb	%xmm1, %xmm0, %xmm0
	vmovq	%r11, %xmm2
	vmovq	%r10, %xmm3
	vpunpcklqdq	%xmm2, %xmm3, %xmm2
	vpshufb	%xmm1, %xmm2, %xmm1
	vmovq	%r9, %xmm2
	vmovq	%r8, %xmm3
	vpunpcklqdq	%xmm2, %xmm3, %xmm2
	vpshufb	.Lnoise_CPI_v3_2_2(%rip), %xmm2, %xmm2
	vpblendw	$8, %xmm0, %xmm1, %xmm0
	vmovq	%rcx, %xmm1
	vmovq	%r12, %xmm3
	vpunpcklbw	%xmm1, %xmm3, %xmm1
	vpblendw	$2, %xmm2, %xmm1, %xmm1
	vpblendd	$2, %xmm0, %xmm1, %xmm0
	vmovd	%r14d, %xmm1
	vmovd	%ebx, %xmm2
	vpunpcklqdq	%xmm1, %xmm2, %xmm1
	vpbroadcastd	.Lnoise_CPI_v3_2_5(%rip), %xmm2
	vpshufb	%xmm2, %xmm1, %xmm1
	vmovd	%edx, %xmm3
	vmovd	%eax, %xmm4
	vpunpcklqdq	%xmm3, %xmm4, %xmm3
	vpshufb	%xmm2, %xmm3, %xmm2
	vpblendw	$128, %xmm1, %xmm2, %xmm1
	vmovq	%r15, %xmm2
	vpbroadcastq	%xmm2, %xmm2
	vpshufb	.Lnoise_CPI_v3_2_4(%rip), %xmm2, %xmm2
	vpblendd	$8, %xmm1, %xmm2, %xmm1
	vpblendd	$12, %xmm1, %xmm0, %xmm0
	movq	56(%rsp), %rax
	vmovdqu	%xmm0, (%rax)
	addq	$216, %rsp
	popq	%rbx
	popq	%rbp
	popq	%rdi
	popq	%rsi
	popq	%r12
	popq	%r13
	popq	%r14
	popq	%r15
	vzeroupper
	retq
	.seh_endproc

	.section	.rdata,"dr"
	.p2align	3, 0x0
.Lnoise_CPI_v3s_5_0:
	.quad	16777216
	.section	.rdata,"dr"
	.p2align	3, 0x0
.Lnoise_CPI_v3s_5_1:
	.quad	67108863
	.section	.rdata,"dr"
	.p2align	3, 0x0
.Lnoise_CPI_v3s_5_2:
	.long	67108863
	.def	"noise_poly::Poly1305::take_eights.v3";
	.scl	3;
	.type	32;
	.endef
	.text
	.p2align	4
"noise_poly::Poly1305::take_eights.v3":
.seh_proc "noise_poly::Poly1305::take_eights.v3"
	pushq	%r15
	.seh_pushreg %r15
	pushq	%r14
	.seh_pushreg %r14
	pushq	%r13
	.seh_pushreg %r13
	pushq	%r12
	.seh_pushreg %r12
	pushq	%rsi
	.seh_pushreg %rsi
	pushq	%rdi
	.seh_pushreg %rdi
	pushq	%rbp
	.seh_pushreg %rbp
	pushq	%rbx
	.seh_pushreg %rbx
	subq	$504, %rsp
	.seh_stackalloc 504
	vmovdqa	%xmm15, 480(%rsp)
	.seh_savexmm %xmm15, 480
	vmovdqa	%xmm14, 464(%rsp)
	.seh_savexmm %xmm14, 464
	vmovdqa	%xmm13, 448(%rsp)
	.seh_savexmm %xmm13, 448
	vmovdqa	%xmm12, 432(%rsp)
	.seh_savexmm %xmm12, 432
	vmovaps	%xmm11, 416(%rsp)
	.seh_savexmm %xmm11, 416
	vmovaps	%xmm10, 400(%rsp)
	.seh_savexmm %xmm10, 400
	vmovaps	%xmm9, 384(%rsp)
	.seh_savexmm %xmm9, 384
	vmovaps	%xmm8, 368(%rsp)
	.seh_savexmm %xmm8, 368
	vmovaps	%xmm7, 352(%rsp)
	.seh_savexmm %xmm7, 352
	vmovaps	%xmm6, 336(%rsp)
	.seh_savexmm %xmm6, 336
	.seh_endprologue
	movq	%r8, %rsi
	movq	%rdx, %rax
	movq	40(%rcx), %r8
	movq	32(%rcx), %r9
	movl	%r9d, %ebx
	andl	$67108863, %ebx
	movq	%r9, %r15
	shrq	$26, %r15
	andl	$67108863, %r15d
	movl	%r8d, %edx
	shll	$12, %edx
	movq	%r9, 152(%rsp)
	movq	%r9, %r12
	shrq	$52, %r12
	orl	%edx, %r12d
	andl	$67108863, %r12d
	movq	%r8, %r13
	shrq	$14, %r13
	andl	$67108863, %r13d
	movq	%r8, 160(%rsp)
	movq	%r8, %rbp
	shrq	$40, %rbp
	leaq	(,%rbp,4), %r11
	addq	%rbp, %r11
	vmovdqu	(%rax), %ymm0
	vmovdqu	32(%rax), %ymm6
	vpunpckhqdq	%ymm6, %ymm0, %ymm1
	vpermq	$216, %ymm1, %ymm5
	vpsrlq	$40, %ymm5, %ymm1
	vpbroadcastq	.Lnoise_CPI_v3s_5_0(%rip), %ymm2
	vpor	%ymm2, %ymm1, %ymm1
	movl	16(%rcx), %r8d
	shll	$24, %r8d
	movq	(%rcx), %r10
	movq	%rcx, 168(%rsp)
	movq	8(%rcx), %rdx
	movq	%rdx, %r9
	shrq	$40, %r9
	orq	%r8, %r9
	vmovq	%xmm1, %r8
	addq	%r9, %r8
	vmovq	%r8, %xmm2
	vpsrlq	$14, %ymm5, %ymm3
	vpbroadcastq	.Lnoise_CPI_v3s_5_1(%rip), %ymm9
	vpand	%ymm3, %ymm9, %ymm3
	vmovq	%xmm3, %r8
	movq	%rdx, %r9
	shrq	$14, %r9
	andl	$67108863, %r9d
	addl	%r9d, %r8d
	vmovd	%r8d, %xmm4
	vpunpcklqdq	%ymm6, %ymm0, %ymm0
	vpermq	$216, %ymm0, %ymm0
	vpsrlq	$52, %ymm0, %ymm6
	vpsllq	$12, %ymm5, %ymm5
	vpor	%ymm6, %ymm5, %ymm5
	vpand	%ymm5, %ymm9, %ymm5
	vmovq	%xmm5, %r8
	shldq	$12, %r10, %rdx
	andl	$67108863, %edx
	addl	%edx, %r8d
	vmovd	%r8d, %xmm6
	vpsrlq	$26, %ymm0, %ymm7
	vpand	%ymm7, %ymm9, %ymm7
	vmovq	%xmm7, %rdx
	movq	%r10, %r8
	shrq	$26, %r8
	andl	$67108863, %r8d
	addl	%r8d, %edx
	vmovd	%edx, %xmm8
	vmovdqu	%ymm9, 240(%rsp)
	vpand	%ymm0, %ymm9, %ymm9
	vmovq	%xmm9, %rdx
	andl	$67108863, %r10d
	addl	%r10d, %edx
	vmovd	%edx, %xmm10
	movq	%r15, %rcx
	imulq	%r12, %rcx
	movq	%rbx, %rdx
	imulq	%r13, %rdx
	addq	%rcx, %rdx
	movq	%r11, %rcx
	imulq	%rbp, %rcx
	leaq	(%rcx,%rdx,2), %r8
	movq	%r8, %rcx
	shrq	$26, %rcx
	movq	%r12, %rdx
	imulq	%r12, %rdx
	addq	%rcx, %rdx
	movq	%r15, %rcx
	imulq	%r13, %rcx
	movq	%rbx, %r9
	imulq	%rbp, %r9
	addq	%rcx, %r9
	leaq	(%rdx,%r9,2), %r14
	movq	%r15, %rdx
	imulq	%r15, %rdx
	movq	%r11, %rcx
	movq	%r11, %r9
	imulq	%r13, %r9
	addq	%rdx, %r9
	leal	(%rbx,%rbx), %r11d
	movq	%r11, %rdx
	imulq	%r12, %rdx
	addq	%rdx, %r9
	leal	(%r13,%r13,4), %r10d
	movq	%r10, %rdx
	imulq	%rbp, %rdx
	addq	%r9, %rdx
	imulq	%r15, %r11
	movq	%rcx, %r9
	imulq	%r12, %r9
	addq	%r11, %r9
	movq	%r10, %r11
	imulq	%r13, %r11
	addq	%r9, %r11
	leal	(%r12,%r12,4), %ecx
	movq	%rcx, %rdi
	imulq	%rbp, %rdi
	addq	%r11, %rdi
	leaq	(,%rbp,4), %r9
	addq	%rbp, %r9
	imulq	%r15, %r9
	movq	%rbx, 80(%rsp)
	movq	%rbx, %r11
	imulq	%rbx, %r11
	addq	%r9, %r11
	movq	%r10, 64(%rsp)
	movq	%r10, %r9
	movq	%r12, 48(%rsp)
	imulq	%r12, %r9
	addq	%r11, %r9
	movq	%rcx, 56(%rsp)
	movq	%r13, 104(%rsp)
	imulq	%r13, %rcx
	addq	%r9, %rcx
	movq	%r15, 40(%rsp)
	leal	(%r15,%r15,4), %r9d
	movq	%r9, 72(%rsp)
	movq	%rbp, 96(%rsp)
	imulq	%rbp, %r9
	addq	%rcx, %r9
	movq	%r9, %rbx
	shrq	$26, %rbx
	addq	%rdi, %rbx
	movq	%rbx, %r11
	shrq	$26, %r11
	addq	%rdx, %r11
	movq	%r11, %rdx
	shrq	$26, %rdx
	andl	$67108863, %r8d
	addq	%rdx, %r8
	movl	%r14d, %edx
	andl	$67108863, %edx
	movq	%r8, %rdi
	shrq	$26, %rdi
	addl	%edx, %edi
	shrq	$26, %r14
	leaq	(%r14,%r14,4), %rcx
	andl	$67108863, %r9d
	addq	%rcx, %r9
	andl	$67108863, %ebx
	movq	%r9, %r14
	shrq	$26, %r14
	addl	%ebx, %r14d
	andl	$67108863, %r11d
	movq	%r11, %rcx
	imulq	%r14, %rcx
	andl	$67108863, %r8d
	andl	$67108863, %r9d
	movq	%r8, %rdx
	imulq	%r9, %rdx
	addq	%rcx, %rdx
	leal	(%rdi,%rdi,4), %ebx
	movq	%rbx, %rcx
	imulq	%rdi, %rcx
	leaq	(%rcx,%rdx,2), %r13
	movq	%r13, %rcx
	shrq	$26, %rcx
	movq	%r11, %rdx
	imulq	%r11, %rdx
	addq	%rcx, %rdx
	movq	%r9, %rcx
	imulq	%rdi, %rcx
	movq	%r8, %r15
	imulq	%r14, %r15
	addq	%rcx, %r15
	leaq	(%rdx,%r15,2), %r15
	movq	%r14, %rcx
	imulq	%r14, %rcx
	leal	(%r11,%r11), %r12d
	imulq	%r9, %r12
	addq	%rcx, %r12
	leaq	(%r8,%r8,4), %rdx
	movq	%rdx, %rbp
	imulq	%rdi, %rbp
	addq	%r12, %rbp
	movq	%r8, %rcx
	imulq	%rbx, %rcx
	addq	%rbp, %rcx
	leal	(%r9,%r9), %r12d
	imulq	%r14, %r12
	movq	%rdx, %rbp
	imulq	%r8, %rbp
	addq	%rbp, %r12
	leaq	(%r11,%r11,4), %rbp
	imulq	%rbp, %r8
	imulq	%rdi, %rbp
	addq	%r12, %rbp
	imulq	%r11, %rdx
	imulq	%rbx, %r11
	addq	%rbp, %r11
	imulq	%r9, %r9
	addq	%r8, %r9
	addq	%rdx, %r9
	imulq	%r14, %rbx
	leal	(%r14,%r14,4), %edx
	imulq	%rdi, %rdx
	addq	%r9, %rdx
	addq	%rdx, %rbx
	movq	%rbx, %r8
	shrq	$26, %r8
	addq	%r11, %r8
	movq	%r8, %r9
	shrq	$26, %r9
	addq	%rcx, %r9
	movq	%r9, %rcx
	shrq	$26, %rcx
	andl	$67108863, %r13d
	addq	%rcx, %r13
	movl	%r15d, %ecx
	andl	$67108863, %ecx
	movq	%r13, %r14
	shrq	$26, %r14
	addl	%ecx, %r14d
	shrq	$26, %r15
	leaq	(%r15,%r15,4), %rcx
	andl	$67108863, %ebx
	addq	%rcx, %rbx
	andl	$67108863, %r8d
	movq	%rbx, %rbp
	shrq	$26, %rbp
	addl	%r8d, %ebp
	andl	$67108863, %r9d
	movq	%r9, %rcx
	imulq	%rbp, %rcx
	andl	$67108863, %r13d
	andl	$67108863, %ebx
	movq	%r13, %r8
	imulq	%rbx, %r8
	addq	%rcx, %r8
	leal	(%r14,%r14,4), %edx
	movq	%rdx, %rcx
	imulq	%r14, %rcx
	leaq	(%rcx,%r8,2), %r8
	movq	%r8, %rcx
	shrq	$26, %rcx
	movq	%r9, %r11
	imulq	%r9, %r11
	addq	%rcx, %r11
	movq	%rbx, %rcx
	imulq	%r14, %rcx
	movq	%r13, %rdi
	imulq	%rbp, %rdi
	addq	%rcx, %rdi
	leaq	(%r11,%rdi,2), %rcx
	movq	%rcx, 112(%rsp)
	movq	%rbp, %r11
	imulq	%rbp, %r11
	leal	(%rbx,%rbx), %r15d
	movq	%r15, %rdi
	imulq	%r9, %rdi
	addq	%r11, %rdi
	leaq	(,%r13,4), %r11
	addq	%r13, %r11
	movq	%r11, %r12
	imulq	%r14, %r12
	addq	%rdi, %r12
	movq	%r13, %rdi
	imulq	%rdx, %rdi
	addq	%r12, %rdi
	movq	%r11, %r12
	imulq	%r13, %r12
	imulq	%rbp, %r15
	addq	%r12, %r15
	leaq	(%r9,%r9,4), %r12
	movq	%r13, %r10
	imulq	%r12, %r10
	imulq	%r14, %r12
	addq	%r15, %r12
	movq	%r9, %rcx
	imulq	%rdx, %rcx
	addq	%r12, %rcx
	movq	%rbx, %r15
	imulq	%rbx, %r15
	addq	%r10, %r15
	imulq	%r9, %r11
	addq	%r11, %r15
	leal	(%rbp,%rbp,4), %r10d
	imulq	%r14, %r10
	addq	%r15, %r10
	imulq	%rbp, %rdx
	addq	%r10, %rdx
	movq	%rdx, %r15
	shrq	$26, %r15
	addq	%rcx, %r15
	movq	%r15, %r11
	shrq	$26, %r11
	addq	%rdi, %r11
	movq	%r11, %rcx
	shrq	$26, %rcx
	andl	$67108863, %r8d
	addq	%rcx, %r8
	movq	112(%rsp), %r10
	movl	%r10d, %ecx
	andl	$67108863, %ecx
	movq	%r8, %r12
	shrq	$26, %r12
	addl	%ecx, %r12d
	movq	%r10, %rcx
	shrq	$26, %rcx
	leaq	(%rcx,%rcx,4), %rcx
	andl	$67108863, %edx
	addq	%rcx, %rdx
	andl	$67108863, %r15d
	movq	%rdx, %rdi
	shrq	$26, %rdi
	addl	%r15d, %edi
	vpblendd	$3, %ymm2, %ymm1, %ymm11
	vpblendd	$3, %ymm4, %ymm3, %ymm3
	vpblendd	$3, %ymm6, %ymm5, %ymm4
	vpblendd	$3, %ymm8, %ymm7, %ymm5
	vpblendd	$3, %ymm10, %ymm9, %ymm2
	addq	$-64, %rsi
	addq	$64, %rax
	andl	$67108863, %r8d
	andl	$67108863, %r11d
	andl	$67108863, %edx
	.p2align	4
.Lnoise_BB_v3s_5_1:
	vpbroadcastq	.Lnoise_CPI_v3s_5_1(%rip), %ymm7
	leal	(%r12,%r12,4), %ecx
	vmovq	%rcx, %xmm0
	leaq	(%r8,%r8,4), %rcx
	vmovq	%rcx, %xmm1
	leaq	(%r11,%r11,4), %rcx
	vmovq	%rcx, %xmm8
	leal	(%rdi,%rdi,4), %ecx
	vmovq	%rcx, %xmm9
	leal	(%r14,%r14,4), %ecx
	vmovq	%rdx, %xmm6
	vpbroadcastq	%xmm6, %ymm6
	vpbroadcastq	%xmm0, %ymm10
	vpbroadcastq	%xmm1, %ymm12
	vpbroadcastq	%xmm8, %ymm13
	vpbroadcastq	%xmm9, %ymm0
	vmovdqu	%ymm0, 112(%rsp)
	vmovq	%rdi, %xmm0
	vpbroadcastq	%xmm0, %ymm8
	vmovq	%r11, %xmm0
	vpbroadcastq	%xmm0, %ymm9
	vmovq	%r8, %xmm0
	vpbroadcastq	%xmm0, %ymm14
	vpsrlq	$26, %ymm2, %ymm0
	vpaddq	%ymm5, %ymm0, %ymm1
	vpsrlq	$26, %ymm3, %ymm5
	vpaddq	%ymm5, %ymm11, %ymm11
	vpsrlq	$26, %ymm1, %ymm5
	vpaddq	%ymm4, %ymm5, %ymm4
	vpand	%ymm7, %ymm2, %ymm2
	vpsrlq	$26, %ymm11, %ymm5
	vpsllq	$2, %ymm5, %ymm15
	vpaddq	%ymm5, %ymm15, %ymm5
	vpaddq	%ymm5, %ymm2, %ymm5
	vpand	%ymm7, %ymm3, %ymm2
	vpsrlq	$26, %ymm4, %ymm3
	vpaddq	%ymm2, %ymm3, %ymm0
	vpand	%ymm7, %ymm5, %ymm2
	vpand	%ymm7, %ymm1, %ymm1
	vpsrlq	$26, %ymm5, %ymm3
	vpaddq	%ymm1, %ymm3, %ymm3
	vpand	%ymm7, %ymm4, %ymm5
	vpand	%ymm7, %ymm0, %ymm15
	vpand	%ymm7, %ymm11, %ymm1
	vpsrlq	$26, %ymm0, %ymm0
	vpaddq	%ymm1, %ymm0, %ymm0
	vpmuldq	%ymm6, %ymm2, %ymm1
	vpmuldq	%ymm12, %ymm5, %ymm4
	vpaddq	%ymm4, %ymm1, %ymm1
	vpmuludq	%ymm3, %ymm10, %ymm4
	vpaddq	%ymm1, %ymm4, %ymm1
	vpmuldq	%ymm13, %ymm15, %ymm4
	vpmuludq	112(%rsp), %ymm0, %ymm11
	vpaddq	%ymm4, %ymm11, %ymm4
	vpaddq	%ymm4, %ymm1, %ymm1
	vmovdqu	%ymm1, 176(%rsp)
	vpmuludq	%ymm2, %ymm8, %ymm4
	vpmuludq	%ymm5, %ymm10, %ymm11
	vpaddq	%ymm4, %ymm11, %ymm4
	vpmuldq	%ymm6, %ymm3, %ymm11
	vpaddq	%ymm4, %ymm11, %ymm4
	vpmuldq	%ymm12, %ymm15, %ymm11
	vpmuldq	%ymm13, %ymm0, %ymm13
	vpaddq	%ymm13, %ymm11, %ymm11
	vpaddq	%ymm4, %ymm11, %ymm13
	vpmuldq	%ymm9, %ymm2, %ymm4
	vpmuldq	%ymm6, %ymm5, %ymm11
	vpaddq	%ymm4, %ymm11, %ymm4
	vpmuludq	%ymm3, %ymm8, %ymm11
	vpaddq	%ymm4, %ymm11, %ymm4
	vpmuludq	%ymm10, %ymm15, %ymm11
	vpmuldq	%ymm12, %ymm0, %ymm12
	vpaddq	%ymm12, %ymm11, %ymm11
	vpaddq	%ymm4, %ymm11, %ymm1
	vmovdqu	%ymm1, 112(%rsp)
	vpmuldq	%ymm14, %ymm2, %ymm4
	vpmuludq	%ymm5, %ymm8, %ymm12
	vpaddq	%ymm4, %ymm12, %ymm4
	vpmuldq	%ymm9, %ymm3, %ymm12
	vpaddq	%ymm4, %ymm12, %ymm4
	vpmuldq	%ymm6, %ymm15, %ymm12
	vpmuludq	%ymm0, %ymm10, %ymm10
	vpaddq	%ymm10, %ymm12, %ymm10
	vmovq	%rcx, %xmm12
	leaq	(%r13,%r13,4), %rcx
	vpaddq	%ymm4, %ymm10, %ymm1
	vmovdqu	%ymm1, 208(%rsp)
	vmovq	%r12, %xmm4
	vpbroadcastq	%xmm4, %ymm4
	vpmuludq	%ymm4, %ymm2, %ymm1
	vmovq	%rcx, %xmm4
	leaq	(%r9,%r9,4), %rcx
	vpmuldq	%ymm14, %ymm3, %ymm14
	vmovq	%rbx, %xmm2
	vpbroadcastq	%xmm2, %ymm2
	vpbroadcastq	%xmm12, %ymm3
	vpbroadcastq	%xmm4, %ymm4
	vpmuldq	%ymm9, %ymm5, %ymm9
	vmovq	%rcx, %xmm5
	vpbroadcastq	%xmm5, %ymm5
	vpaddq	%ymm1, %ymm9, %ymm1
	vpaddq	%ymm1, %ymm14, %ymm1
	vpmuludq	%ymm8, %ymm15, %ymm8
	vpmuldq	%ymm6, %ymm0, %ymm0
	vpaddq	%ymm0, %ymm8, %ymm0
	vpaddq	%ymm0, %ymm1, %ymm0
	vmovdqu	%ymm0, 304(%rsp)
	vmovdqu	(%rax), %ymm0
	vmovdqu	32(%rax), %ymm1
	vpunpcklqdq	%ymm1, %ymm0, %ymm6
	vpermq	$216, %ymm6, %ymm8
	vpunpckhqdq	%ymm1, %ymm0, %ymm0
	vpermq	$216, %ymm0, %ymm6
	vpand	%ymm7, %ymm8, %ymm9
	vpsrlq	$26, %ymm8, %ymm0
	vpand	%ymm7, %ymm0, %ymm12
	vpsrlq	$52, %ymm8, %ymm0
	vpsllq	$12, %ymm6, %ymm1
	vpor	%ymm0, %ymm1, %ymm0
	vpand	%ymm7, %ymm0, %ymm15
	vpsrlq	$14, %ymm6, %ymm0
	vpand	%ymm7, %ymm0, %ymm8
	vpmuldq	%ymm2, %ymm9, %ymm0
	vpaddq	176(%rsp), %ymm0, %ymm0
	vpmuludq	%ymm3, %ymm12, %ymm1
	vpaddq	%ymm1, %ymm0, %ymm0
	vpmuldq	%ymm4, %ymm15, %ymm1
	vpmuldq	%ymm5, %ymm8, %ymm14
	vpaddq	%ymm1, %ymm14, %ymm1
	vpaddq	%ymm1, %ymm0, %ymm0
	vmovdqu	%ymm0, 176(%rsp)
	vmovq	%rbp, %xmm0
	vpbroadcastq	%xmm0, %ymm0
	vpmuludq	%ymm0, %ymm9, %ymm1
	vpaddq	%ymm1, %ymm13, %ymm1
	vpmuldq	%ymm2, %ymm12, %ymm13
	vpaddq	%ymm1, %ymm13, %ymm1
	vpmuludq	%ymm3, %ymm15, %ymm13
	vpmuldq	%ymm4, %ymm8, %ymm11
	vpaddq	%ymm11, %ymm13, %ymm11
	vpaddq	%ymm1, %ymm11, %ymm1
	vmovdqu	%ymm1, 272(%rsp)
	vmovq	%r9, %xmm1
	vpbroadcastq	%xmm1, %ymm1
	vpmuldq	%ymm1, %ymm9, %ymm11
	vpaddq	112(%rsp), %ymm11, %ymm11
	vpmuludq	%ymm0, %ymm12, %ymm10
	vpaddq	%ymm10, %ymm11, %ymm10
	vpmuldq	%ymm2, %ymm15, %ymm11
	vpmuludq	%ymm3, %ymm8, %ymm14
	vpaddq	%ymm14, %ymm11, %ymm11
	vpaddq	%ymm11, %ymm10, %ymm10
	vmovdqu	%ymm10, 112(%rsp)
	vmovq	%r13, %xmm10
	vpbroadcastq	%xmm10, %ymm14
	vpmuldq	%ymm14, %ymm9, %ymm10
	vpaddq	208(%rsp), %ymm10, %ymm10
	vpmuldq	%ymm1, %ymm12, %ymm13
	vpaddq	%ymm13, %ymm10, %ymm10
	vpmuludq	%ymm0, %ymm15, %ymm13
	vpmuldq	%ymm2, %ymm8, %ymm11
	vpaddq	%ymm11, %ymm13, %ymm11
	vpaddq	%ymm11, %ymm10, %ymm10
	vmovq	%r14, %xmm11
	vpbroadcastq	%xmm11, %ymm11
	vpmuludq	%ymm11, %ymm9, %ymm9
	vpaddq	304(%rsp), %ymm9, %ymm9
	vpmuldq	%ymm14, %ymm12, %ymm11
	vpaddq	%ymm11, %ymm9, %ymm9
	leal	(%rbp,%rbp,4), %ecx
	vpmuldq	%ymm1, %ymm15, %ymm1
	vmovq	%rcx, %xmm11
	vpmuludq	%ymm0, %ymm8, %ymm8
	vpbroadcastq	.Lnoise_CPI_v3s_5_0(%rip), %ymm0
	vpbroadcastq	%xmm11, %ymm11
	vpaddq	%ymm1, %ymm8, %ymm1
	vmovdqu	64(%rax), %ymm8
	vpaddq	%ymm1, %ymm9, %ymm1
	vmovdqu	96(%rax), %ymm9
	vpsrlq	$40, %ymm6, %ymm6
	vpor	%ymm0, %ymm6, %ymm6
	vpmuludq	%ymm6, %ymm11, %ymm11
	vpmuldq	%ymm5, %ymm6, %ymm5
	vpmuldq	%ymm4, %ymm6, %ymm4
	vpmuludq	%ymm3, %ymm6, %ymm3
	vpmuldq	%ymm2, %ymm6, %ymm6
	vpunpcklqdq	%ymm9, %ymm8, %ymm2
	vpermq	$216, %ymm2, %ymm12
	vpunpckhqdq	%ymm9, %ymm8, %ymm8
	vpand	%ymm7, %ymm12, %ymm2
	vpaddq	%ymm2, %ymm11, %ymm2
	vpaddq	176(%rsp), %ymm2, %ymm2
	vpsrlq	$26, %ymm12, %ymm9
	vpand	%ymm7, %ymm9, %ymm9
	vpaddq	%ymm5, %ymm9, %ymm5
	vpermq	$216, %ymm8, %ymm8
	vpaddq	272(%rsp), %ymm5, %ymm5
	vpsrlq	$52, %ymm12, %ymm9
	vpsllq	$12, %ymm8, %ymm11
	vpor	%ymm9, %ymm11, %ymm9
	vpand	%ymm7, %ymm9, %ymm9
	vpaddq	%ymm4, %ymm9, %ymm4
	vpaddq	112(%rsp), %ymm4, %ymm4
	vpsrlq	$14, %ymm8, %ymm9
	vpand	%ymm7, %ymm9, %ymm7
	vpaddq	%ymm7, %ymm3, %ymm3
	vpaddq	%ymm3, %ymm10, %ymm3
	vpsrlq	$40, %ymm8, %ymm7
	vpaddq	%ymm7, %ymm6, %ymm6
	vpaddq	%ymm0, %ymm6, %ymm0
	vpaddq	%ymm0, %ymm1, %ymm11
	addq	$128, %rax
	addq	$-128, %rsi
	cmpq	$127, %rsi
	ja	.Lnoise_BB_v3s_5_1
	vpsrlq	$26, %ymm2, %ymm0
	vpaddq	%ymm5, %ymm0, %ymm0
	vpsrlq	$26, %ymm3, %ymm1
	vpaddq	%ymm1, %ymm11, %ymm1
	vpsrlq	$26, %ymm0, %ymm5
	vpaddq	%ymm4, %ymm5, %ymm5
	vmovdqu	240(%rsp), %ymm8
	vpand	%ymm2, %ymm8, %ymm2
	vpsrlq	$26, %ymm1, %ymm4
	vpaddq	%ymm4, %ymm2, %ymm2
	vpsllq	$2, %ymm4, %ymm4
	vpaddq	%ymm4, %ymm2, %ymm6
	vpand	%ymm3, %ymm8, %ymm2
	vpsrlq	$26, %ymm5, %ymm3
	vpaddq	%ymm2, %ymm3, %ymm7
	vpand	%ymm0, %ymm8, %ymm0
	vpsrlq	$26, %ymm6, %ymm2
	vpaddq	%ymm0, %ymm2, %ymm4
	vpand	%ymm1, %ymm8, %ymm0
	vpsrlq	$26, %ymm7, %ymm1
	vpaddq	%ymm0, %ymm1, %ymm2
	vpbroadcastd	.Lnoise_CPI_v3s_5_2(%rip), %ymm1
	vpand	%ymm1, %ymm6, %ymm0
	vmovd	%xmm0, %r8d
	vmovd	%xmm4, %r11d
	vpand	%ymm1, %ymm5, %ymm3
	vmovd	%xmm3, %edi
	vpand	%ymm1, %ymm7, %ymm1
	vmovd	%xmm1, %ebx
	movq	80(%rsp), %rdx
	movq	%rdx, %rcx
	movq	%rdx, %r12
	imulq	%r8, %rcx
	movq	%r8, %r10
	movq	%rdi, %rdx
	movq	64(%rsp), %r15
	imulq	%r15, %rdx
	addq	%rcx, %rdx
	movq	96(%rsp), %rcx
	leaq	(%rcx,%rcx,4), %r13
	movq	%r13, %rcx
	imulq	%r11, %rcx
	addq	%rcx, %rdx
	movq	%rbx, %rcx
	movq	56(%rsp), %r8
	imulq	%r8, %rcx
	addq	%rdx, %rcx
	vmovd	%xmm2, %r14d
	movq	%r14, %r9
	imulq	72(%rsp), %r9
	addq	%rcx, %r9
	movq	%r10, %rcx
	movq	%r10, %rbp
	imulq	40(%rsp), %rcx
	movq	%r13, %rdx
	imulq	%rdi, %rdx
	addq	%rcx, %rdx
	movq	%r12, %rcx
	imulq	%r11, %rcx
	addq	%rcx, %rdx
	movq	%rbx, %r10
	imulq	%r15, %r10
	addq	%rdx, %r10
	movq	%r14, %rcx
	imulq	%r8, %rcx
	addq	%r10, %rcx
	movq	%rbp, %rdx
	movq	%rbp, 112(%rsp)
	imulq	48(%rsp), %rdx
	movq	%r12, %r10
	imulq	%rdi, %r10
	addq	%rdx, %r10
	movq	%r11, %rdx
	movq	%r11, 208(%rsp)
	movq	40(%rsp), %r8
	imulq	%r8, %rdx
	addq	%rdx, %r10
	movq	%r13, %rdx
	movq	%r13, 88(%rsp)
	imulq	%rbx, %rdx
	addq	%r10, %rdx
	movq	%r14, %r12
	imulq	%r15, %r12
	addq	%rdx, %r12
	movq	%rbp, %rdx
	movq	104(%rsp), %rbp
	imulq	%rbp, %rdx
	movq	%rdi, %r10
	imulq	%r8, %r10
	addq	%rdx, %r10
	movq	%r11, %rdx
	movq	48(%rsp), %r8
	imulq	%r8, %rdx
	addq	%rdx, %r10
	movq	80(%rsp), %r11
	movq	%r11, %rdx
	imulq	%rbx, %rdx
	addq	%r10, %rdx
	movq	%r13, %r15
	imulq	%r14, %r15
	addq	%rdx, %r15
	movq	112(%rsp), %rdx
	imulq	96(%rsp), %rdx
	imulq	%r8, %rdi
	addq	%rdx, %rdi
	movq	208(%rsp), %rdx
	imulq	%rbp, %rdx
	addq	%rdx, %rdi
	imulq	40(%rsp), %rbx
	addq	%rdi, %rbx
	movq	%r11, %r13
	imulq	%r11, %r14
	addq	%rbx, %r14
	movl	%r9d, %r8d
	shrq	$26, %r9
	addq	%rcx, %r9
	movl	%r15d, %edi
	shrq	$26, %r15
	addq	%r14, %r15
	movl	%r9d, %ecx
	andl	$67108863, %ecx
	vpextrd	$2, %xmm4, %edx
	addl	%edx, %ecx
	shrq	$26, %r9
	addq	%r12, %r9
	vpextrd	$2, %xmm2, %r10d
	movl	%r15d, %edx
	andl	$67108863, %edx
	addl	%r10d, %edx
	vpextrd	$2, %xmm3, %r10d
	movl	%r9d, %r11d
	andl	$67108863, %r11d
	addl	%r10d, %r11d
	andl	$67108863, %edi
	shrq	$26, %r9
	addq	%rdi, %r9
	andl	$67108863, %r8d
	shrq	$26, %r15
	leaq	(%r15,%r15,4), %rdi
	addq	%r8, %rdi
	movl	%edi, %r14d
	andl	$67108863, %r14d
	vpextrd	$2, %xmm0, %r8d
	addl	%r8d, %r14d
	movl	%r9d, %ebx
	andl	$67108863, %ebx
	vpextrd	$2, %xmm1, %r8d
	addl	%r8d, %ebx
	shrq	$26, %rdi
	addl	%ecx, %edi
	shrq	$26, %r9
	addl	%edx, %r9d
	movq	%r13, %rcx
	imulq	%r14, %rcx
	movq	%r11, %rdx
	movq	64(%rsp), %r15
	imulq	%r15, %rdx
	addq	%rcx, %rdx
	movq	88(%rsp), %rbp
	movq	%rbp, %rcx
	imulq	%rdi, %rcx
	addq	%rcx, %rdx
	movq	%rbx, %rcx
	movq	56(%rsp), %r10
	imulq	%r10, %rcx
	movq	%r9, %r8
	imulq	72(%rsp), %r8
	addq	%rcx, %r8
	addq	%rdx, %r8
	movq	%r14, %rcx
	movq	40(%rsp), %r12
	imulq	%r12, %rcx
	movq	%rbp, %rdx
	imulq	%r11, %rdx
	addq	%rcx, %rdx
	movq	%r13, %rcx
	imulq	%rdi, %rcx
	addq	%rcx, %rdx
	movq	%rbx, %rcx
	imulq	%r15, %rcx
	movq	%r9, %r15
	imulq	%r10, %r15
	addq	%rcx, %r15
	addq	%rdx, %r15
	movq	%r14, %rcx
	movq	48(%rsp), %r10
	imulq	%r10, %rcx
	movq	%r13, %rdx
	imulq	%r11, %rdx
	addq	%rcx, %rdx
	movq	%rdi, %rcx
	imulq	%r12, %rcx
	movq	%r12, %rbp
	addq	%rcx, %rdx
	movq	88(%rsp), %r13
	movq	%r13, %rcx
	imulq	%rbx, %rcx
	movq	%r9, %r12
	imulq	64(%rsp), %r12
	addq	%rcx, %r12
	addq	%rdx, %r12
	movq	%r14, %rcx
	imulq	104(%rsp), %rcx
	movq	%r11, %rdx
	imulq	%rbp, %rdx
	addq	%rcx, %rdx
	movq	%rdi, %rcx
	imulq	%r10, %rcx
	movq	%r10, %rbp
	addq	%rcx, %rdx
	movq	80(%rsp), %r10
	imulq	%rbx, %r10
	movq	%r13, %rcx
	imulq	%r9, %rcx
	addq	%r10, %rcx
	addq	%rdx, %rcx
	imulq	96(%rsp), %r14
	imulq	%rbp, %r11
	addq	%r14, %r11
	imulq	104(%rsp), %rdi
	addq	%rdi, %r11
	imulq	40(%rsp), %rbx
	movq	80(%rsp), %r13
	imulq	%r13, %r9
	addq	%rbx, %r9
	vextracti128	$1, %ymm4, %xmm4
	addq	%r11, %r9
	movl	%r8d, %ebx
	shrq	$26, %r8
	addq	%r15, %r8
	movl	%ecx, %edx
	shrq	$26, %rcx
	addq	%r9, %rcx
	movl	%r8d, %r9d
	andl	$67108863, %r9d
	vmovd	%xmm4, %r10d
	addl	%r10d, %r9d
	vextracti128	$1, %ymm2, %xmm2
	shrq	$26, %r8
	addq	%r12, %r8
	movl	%ecx, %ebp
	andl	$67108863, %ebp
	vmovd	%xmm2, %r10d
	addl	%r10d, %ebp
	vextracti128	$1, %ymm3, %xmm3
	movl	%r8d, %r11d
	andl	$67108863, %r11d
	vmovd	%xmm3, %r10d
	addl	%r10d, %r11d
	andl	$67108863, %edx
	shrq	$26, %r8
	addq	%rdx, %r8
	vextracti128	$1, %ymm0, %xmm0
	andl	$67108863, %ebx
	shrq	$26, %rcx
	leaq	(%rcx,%rcx,4), %rdi
	addq	%rbx, %rdi
	movl	%edi, %ebx
	andl	$67108863, %ebx
	vmovd	%xmm0, %ecx
	addl	%ecx, %ebx
	vextracti128	$1, %ymm1, %xmm1
	movl	%r8d, %r14d
	andl	$67108863, %r14d
	vmovd	%xmm1, %ecx
	addl	%ecx, %r14d
	shrq	$26, %rdi
	addl	%r9d, %edi
	shrq	$26, %r8
	addl	%ebp, %r8d
	movq	%r13, %r12
	movq	%r13, %rcx
	imulq	%rbx, %rcx
	movq	%r11, %rdx
	movq	64(%rsp), %r10
	imulq	%r10, %rdx
	addq	%rcx, %rdx
	movq	88(%rsp), %r13
	movq	%r13, %rcx
	imulq	%rdi, %rcx
	addq	%rcx, %rdx
	movq	%r14, %rcx
	movq	56(%rsp), %rbp
	imulq	%rbp, %rcx
	movq	%r8, %r9
	imulq	72(%rsp), %r9
	addq	%rcx, %r9
	addq	%rdx, %r9
	movq	%rbx, %rcx
	movq	40(%rsp), %r15
	imulq	%r15, %rcx
	movq	%r13, %rdx
	imulq	%r11, %rdx
	addq	%rcx, %rdx
	movq	%r12, %rcx
	imulq	%rdi, %rcx
	addq	%rcx, %rdx
	movq	%r14, %rcx
	imulq	%r10, %rcx
	movq	%r8, %r13
	imulq	%rbp, %r13
	addq	%rcx, %r13
	addq	%rdx, %r13
	movq	%rbx, %rcx
	imulq	48(%rsp), %rcx
	movq	%r12, %rdx
	imulq	%r11, %rdx
	addq	%rcx, %rdx
	movq	%rdi, %rcx
	movq	%r15, %r10
	imulq	%r15, %rcx
	addq	%rcx, %rdx
	movq	88(%rsp), %r15
	movq	%r15, %rcx
	imulq	%r14, %rcx
	movq	%r8, %r12
	imulq	64(%rsp), %r12
	addq	%rcx, %r12
	addq	%rdx, %r12
	movq	%rbx, %rcx
	movq	104(%rsp), %rbp
	imulq	%rbp, %rcx
	movq	%r11, %rdx
	imulq	%r10, %rdx
	addq	%rcx, %rdx
	movq	%rdi, %rcx
	imulq	48(%rsp), %rcx
	addq	%rcx, %rdx
	movq	80(%rsp), %r10
	imulq	%r14, %r10
	movq	%r15, %rcx
	imulq	%r8, %rcx
	addq	%r10, %rcx
	addq	%rdx, %rcx
	imulq	96(%rsp), %rbx
	imulq	48(%rsp), %r11
	addq	%rbx, %r11
	imulq	%rbp, %rdi
	addq	%rdi, %r11
	imulq	40(%rsp), %r14
	movq	80(%rsp), %r15
	imulq	%r15, %r8
	addq	%r14, %r8
	addq	%r11, %r8
	movl	%r9d, %edi
	shrq	$26, %r9
	addq	%r13, %r9
	movl	%ecx, %r11d
	shrq	$26, %rcx
	addq	%r8, %rcx
	movl	%r9d, %ebp
	andl	$67108863, %ebp
	vpextrd	$2, %xmm4, %edx
	addl	%edx, %ebp
	shrq	$26, %r9
	addq	%r12, %r9
	vpextrd	$2, %xmm2, %r8d
	movl	%ecx, %edx
	andl	$67108863, %edx
	addl	%r8d, %edx
	vpextrd	$2, %xmm3, %r10d
	movl	%r9d, %r8d
	andl	$67108863, %r8d
	addl	%r10d, %r8d
	andl	$67108863, %r11d
	shrq	$26, %r9
	addq	%r11, %r9
	andl	$67108863, %edi
	shrq	$26, %rcx
	leaq	(%rcx,%rcx,4), %r11
	addq	%rdi, %r11
	movl	%r11d, %edi
	andl	$67108863, %edi
	vpextrd	$2, %xmm0, %ecx
	addl	%ecx, %edi
	movl	%r9d, %ebx
	andl	$67108863, %ebx
	vpextrd	$2, %xmm1, %ecx
	addl	%ecx, %ebx
	shrq	$26, %r11
	addl	%ebp, %r11d
	shrq	$26, %r9
	addl	%edx, %r9d
	movq	%r15, %r12
	movq	%r15, %rcx
	imulq	%rdi, %rcx
	movq	%r8, %rdx
	movq	64(%rsp), %r10
	imulq	%r10, %rdx
	addq	%rcx, %rdx
	movq	88(%rsp), %r13
	movq	%r13, %rcx
	imulq	%r11, %rcx
	addq	%rcx, %rdx
	movq	%rbx, %rcx
	movq	56(%rsp), %r15
	imulq	%r15, %rcx
	movq	72(%rsp), %r14
	imulq	%r9, %r14
	addq	%rcx, %r14
	addq	%rdx, %r14
	movq	%r14, 72(%rsp)
	movq	%rdi, %rcx
	movq	40(%rsp), %rbp
	imulq	%rbp, %rcx
	movq	%r13, %rdx
	imulq	%r8, %rdx
	addq	%rcx, %rdx
	movq	%r12, %rcx
	imulq	%r11, %rcx
	addq	%rcx, %rdx
	movq	%rbx, %rcx
	imulq	%r10, %rcx
	imulq	%r9, %r15
	addq	%rcx, %r15
	addq	%rdx, %r15
	movq	%r15, 56(%rsp)
	movq	%rdi, %rcx
	movq	48(%rsp), %r14
	imulq	%r14, %rcx
	movq	%r12, %rdx
	movq	%r12, %r15
	imulq	%r8, %rdx
	addq	%rcx, %rdx
	movq	%r11, %rcx
	imulq	%rbp, %rcx
	addq	%rcx, %rdx
	movq	%r13, %rcx
	imulq	%rbx, %rcx
	imulq	%r9, %r10
	addq	%rcx, %r10
	addq	%rdx, %r10
	movq	%r10, %r12
	movq	%rdi, %rcx
	movq	104(%rsp), %r10
	imulq	%r10, %rcx
	movq	%r8, %rdx
	imulq	%rbp, %rdx
	addq	%rcx, %rdx
	movq	%r11, %rcx
	imulq	%r14, %rcx
	addq	%rcx, %rdx
	movq	%r15, %rcx
	imulq	%rbx, %rcx
	imulq	%r9, %r13
	addq	%rcx, %r13
	addq	%rdx, %r13
	imulq	96(%rsp), %rdi
	imulq	%r10, %r11
	imulq	%r14, %r8
	addq	%rdi, %r8
	addq	%r11, %r8
	imulq	%rbp, %rbx
	imulq	%r9, %r15
	addq	%rbx, %r15
	addq	%r8, %r15
	movq	72(%rsp), %r11
	movl	%r11d, %ecx
	andl	$67108863, %ecx
	shrq	$26, %r11
	addq	56(%rsp), %r11
	movq	%r13, %r9
	movl	%r9d, %edx
	andl	$67108863, %edx
	shrq	$26, %r9
	addq	%r15, %r9
	movq	%r9, %rdi
	movl	%r11d, %r9d
	andl	$67108863, %r9d
	shrq	$26, %r11
	addq	%r12, %r11
	movq	%r11, %r8
	shrq	$26, %r8
	addq	%rdx, %r8
	movl	%edi, %r10d
	andl	$67108863, %r10d
	shrq	$26, %rdi
	leaq	(%rdi,%rdi,4), %rdx
	addq	%rcx, %rdx
	movq	%rdx, %rcx
	shrq	$26, %rcx
	addl	%r9d, %ecx
	movq	%r8, %r9
	shrq	$26, %r9
	addl	%r10d, %r9d
	andl	$67108863, %edx
	movl	%r11d, %r10d
	shlq	$52, %r11
	orq	%rdx, %r11
	shlq	$26, %rcx
	andl	$67104768, %r10d
	shrl	$12, %r10d
	andl	$67108863, %r8d
	shlq	$14, %r8
	addq	%rcx, %r11
	adcq	%r10, %r8
	movq	%r9, %rcx
	shlq	$40, %rcx
	shrl	$24, %r9d
	addq	%r8, %rcx
	adcq	$0, %r9
	movl	%r9d, %edx
	shrl	$2, %edx
	leaq	(%rdx,%rdx,4), %r8
	andl	$3, %r9d
	addq	%r11, %r8
	adcq	$0, %rcx
	adcq	$0, %r9
	movq	168(%rsp), %r15
	movq	%r8, (%r15)
	movq	%rcx, 8(%r15)
	movq	%r9, 16(%r15)
	movq	$0, 24(%r15)
	cmpq	$16, %rsi
	jae	.Lnoise_BB_v3s_5_4
	movq	%r8, %rdi
	jmp	.Lnoise_BB_v3s_5_6
.Lnoise_BB_v3s_5_4:
	movq	160(%rsp), %r12
	movq	%r12, %r11
	shrq	$2, %r11
	addq	%r12, %r11
	movq	152(%rsp), %r13
	.p2align	4
.Lnoise_BB_v3s_5_5:
	addq	(%rax), %r8
	adcq	8(%rax), %rcx
	adcq	$1, %r9
	movq	%r8, %rdx
	mulxq	%r13, %r14, %r10
	movq	%rcx, %rdx
	mulxq	%r11, %rdi, %rbx
	addq	%r14, %rdi
	adcq	%r10, %rbx
	movq	%r8, %rdx
	mulxq	%r12, %r10, %r8
	movq	%rcx, %rdx
	mulxq	%r13, %rdx, %r14
	addq	%r10, %rdx
	adcq	%r8, %r14
	movq	%r9, %rcx
	imulq	%r11, %rcx
	addq	%rdx, %rcx
	adcq	$0, %r14
	imulq	%r13, %r9
	movq	%rcx, %rdx
	addq	%rbx, %rdx
	adcq	%r14, %r9
	movq	%r9, %r8
	shrq	$2, %r8
	leaq	(%r8,%r8,4), %r8
	movq	%r8, %r10
	addq	%rdi, %r10
	adcq	%rbx, %rcx
	andl	$3, %r9d
	addq	%r8, %rdi
	adcq	$0, %rdx
	adcq	$0, %r9
	addq	$16, %rax
	addq	$-16, %rsi
	movq	%rdi, %r8
	cmpq	$15, %rsi
	ja	.Lnoise_BB_v3s_5_5
.Lnoise_BB_v3s_5_6:
	movq	%rdi, (%r15)
	movq	%rcx, 8(%r15)
	movq	%r9, 16(%r15)
	movq	$0, 24(%r15)
	movq	80(%r15), %rdi
	leaq	(%r15,%rdi), %rcx
	addq	$64, %rcx
	movq	%rcx, %rdx
	subq	%rax, %rdx
	cmpq	%rsi, %rdx
	jae	.Lnoise_BB_v3s_5_9
	cmpq	$8, %rsi
	jb	.Lnoise_BB_v3s_5_8
	leaq	(%rdi,%r15), %rdx
	subq	%rax, %rdx
	addq	$64, %rdx
	cmpq	$128, %rdx
	jae	.Lnoise_BB_v3s_5_12
.Lnoise_BB_v3s_5_8:
	xorl	%edx, %edx
.Lnoise_BB_v3s_5_15:
	movq	%rsi, %r9
	movq	%rdx, %r8
	andq	$7, %r9
	je	.Lnoise_BB_v3s_5_18
	movq	%rdx, %r8
	.p2align	4
.Lnoise_BB_v3s_5_17:
	movzbl	(%rax,%r8), %r10d
	movb	%r10b, (%rcx,%r8)
	incq	%r8
	decq	%r9
	jne	.Lnoise_BB_v3s_5_17
.Lnoise_BB_v3s_5_18:
	subq	%rsi, %rdx
	cmpq	$-8, %rdx
	ja	.Lnoise_BB_v3s_5_20
	.p2align	4
.Lnoise_BB_v3s_5_19:
	leaq	(%rdi,%r15), %rcx
	addq	$71, %rcx
	movzbl	(%rax,%r8), %edx
	movb	%dl, -7(%rcx,%r8)
	movzbl	1(%rax,%r8), %edx
	movb	%dl, -6(%rcx,%r8)
	movzbl	2(%rax,%r8), %edx
	movb	%dl, -5(%rcx,%r8)
	movzbl	3(%rax,%r8), %edx
	movb	%dl, -4(%rcx,%r8)
	movzbl	4(%rax,%r8), %edx
	movb	%dl, -3(%rcx,%r8)
	movzbl	5(%rax,%r8), %edx
	movb	%dl, -2(%rcx,%r8)
	movzbl	6(%rax,%r8), %edx
	movb	%dl, -1(%rcx,%r8)
	movzbl	7(%rax,%r8), %edx
	movb	%dl, (%rcx,%r8)
	addq	$8, %r8
	cmpq	%r8, %rsi
	jne	.Lnoise_BB_v3s_5_19
	jmp	.Lnoise_BB_v3s_5_20
.Lnoise_BB_v3s_5_9:
	movq	%rax, %rdx
	movq	%rsi, %r8
	vzeroupper
	callq	memmove
.Lnoise_BB_v3s_5_20:
	addq	%rsi, %rdi
	movq	%rdi, 80(%r15)
	vmovaps	336(%rsp), %xmm6
	vmovaps	352(%rsp), %xmm7
	vmovaps	368(%rsp), %xmm8
	vmovaps	384(%rsp), %xmm9
	vmovaps	400(%rsp), %xmm10
	vmovaps	416(%rsp), %xmm11
	vmovaps	432(%rsp), %xmm12
	vmovaps	448(%rsp), %xmm13
	vmovaps	464(%rsp), %xmm14
	vmovaps	480(%rsp), %xmm15
	addq	$504, %rsp
	popq	%rbx
	popq	%rbp
	popq	%rdi
	popq	%rsi
	popq	%r12
	popq	%r13
	popq	%r14
	popq	%r15
	vzeroupper
	retq
.Lnoise_BB_v3s_5_12:
	movl	%esi, %edx
	andl	$8, %edx
	xorl	%r8d, %r8d
	.p2align	4
.Lnoise_BB_v3s_5_13:
	movq	(%rax,%r8), %r9
	movq	%r9, (%rcx,%r8)
	addq	$8, %r8
	cmpq	%r8, %rdx
	jne	.Lnoise_BB_v3s_5_13
	cmpq	%rdx, %rsi
	je	.Lnoise_BB_v3s_5_20
	jmp	.Lnoise_BB_v3s_5_15
	.seh_endproc

	.section	.rdata,"dr"
	.p2align	5, 0x0
.Lnoise_CPI_v4w_1_7:
	.long	1797285236
	.section	.rdata,"dr"
	.p2align	5, 0x0
.Lnoise_CPI_v4w_1_8:
	.long	0
	.long	1
	.long	2
	.long	4
	.section	.rdata,"dr"
	.p2align	5, 0x0
.Lnoise_CPI_v4w_1_9:
	.long	0
	.long	1
	.long	2
	.long	3
	.long	4
	.long	8
	.zero	4
	.zero	4
	.section	.rdata,"dr"
	.p2align	5, 0x0
.Lnoise_CPI_v4w_1_10:
	.quad	0
	.quad	1
	.quad	2
	.quad	4
	.section	.rdata,"dr"
	.p2align	5, 0x0
.Lnoise_CPI_v4w_1_11:
	.long	0
	.long	1
	.long	2
	.long	3
	.long	4
	.long	5
	.long	6
	.long	8
	.section	.rdata,"dr"
	.p2align	5, 0x0
.Lnoise_CPI_v4w_1_12:
	.long	1
	.long	5
	.zero	24
	.section	.rdata,"dr"
	.p2align	5, 0x0
.Lnoise_CPI_v4w_1_13:
	.long	0
	.zero	4
	.long	2
	.long	9
	.long	5
	.zero	4
	.zero	4
	.zero	4
	.section	.rdata,"dr"
	.p2align	5, 0x0
.Lnoise_CPI_v4w_1_14:
	.long	0
	.long	1
	.long	2
	.long	3
	.long	4
	.long	5
	.long	9
	.zero	4
	.section	.rdata,"dr"
	.p2align	5, 0x0
.Lnoise_CPI_v4w_1_15:
	.long	0
	.long	1
	.long	2
	.long	3
	.long	4
	.long	5
	.long	6
	.long	9
	.section	.rdata,"dr"
	.p2align	5, 0x0
.Lnoise_CPI_v4w_1_16:
	.long	0
	.long	1
	.long	2
	.long	10
	.long	6
	.zero	4
	.zero	4
	.zero	4
	.section	.rdata,"dr"
	.p2align	5, 0x0
.Lnoise_CPI_v4w_1_17:
	.long	0
	.long	1
	.long	2
	.long	3
	.long	4
	.long	10
	.zero	4
	.zero	4
	.section	.rdata,"dr"
	.p2align	5, 0x0
.Lnoise_CPI_v4w_1_18:
	.long	0
	.long	1
	.long	2
	.long	3
	.long	4
	.long	5
	.long	6
	.long	10
	.section	.rdata,"dr"
	.p2align	5, 0x0
.Lnoise_CPI_v4w_1_19:
	.long	0
	.long	1
	.long	2
	.zero	4
	.long	7
	.long	11
	.zero	4
	.zero	4
	.section	.rdata,"dr"
	.p2align	5, 0x0
.Lnoise_CPI_v4w_1_20:
	.long	0
	.long	1
	.long	2
	.long	3
	.long	4
	.long	5
	.long	11
	.long	11
	.def	"rand_chacha::guts::refill4.v4";
	.scl	3;
	.type	32;
	.endef
	.text
	.p2align	4
"rand_chacha::guts::refill4.v4":
.seh_proc "rand_chacha::guts::refill4.v4"
	subq	$168, %rsp
	.seh_stackalloc 168
	vmovaps	%xmm15, 144(%rsp)
	.seh_savexmm %xmm15, 144
	vmovaps	%xmm14, 128(%rsp)
	.seh_savexmm %xmm14, 128
	vmovaps	%xmm13, 112(%rsp)
	.seh_savexmm %xmm13, 112
	vmovaps	%xmm12, 96(%rsp)
	.seh_savexmm %xmm12, 96
	vmovaps	%xmm11, 80(%rsp)
	.seh_savexmm %xmm11, 80
	vmovaps	%xmm10, 64(%rsp)
	.seh_savexmm %xmm10, 64
	vmovaps	%xmm9, 48(%rsp)
	.seh_savexmm %xmm9, 48
	vmovaps	%xmm8, 32(%rsp)
	.seh_savexmm %xmm8, 32
	vmovaps	%xmm7, 16(%rsp)
	.seh_savexmm %xmm7, 16
	vmovdqa	%xmm6, (%rsp)
	.seh_savexmm %xmm6, 0
	.seh_endprologue
	vpbroadcastd	(%rcx), %xmm16
	vpbroadcastd	4(%rcx), %xmm20
	vpbroadcastd	8(%rcx), %xmm21
	vpbroadcastd	12(%rcx), %xmm17
	vpbroadcastd	16(%rcx), %xmm18
	vpbroadcastd	20(%rcx), %xmm19
	vpbroadcastd	24(%rcx), %xmm22
	vpbroadcastd	28(%rcx), %xmm23
	vpbroadcastq	%rdx, %ymm0
	vpaddq	.Lnoise_CPI_v3w_1_0(%rip), %ymm0, %ymm1
	vpmovqd	%ymm0, %xmm0
	vpaddd	.Lnoise_CPI_v3w_1_2(%rip), %xmm0, %xmm0
	vpsrlq	$32, %ymm1, %ymm1
	vpmovqd	%ymm1, %xmm1
	vpbroadcastd	%r8d, %xmm24
	shrq	$32, %r8
	vpbroadcastd	%r8d, %xmm25
	vinserti32x4	$1, %xmm19, %ymm18, %ymm3
	vinserti32x4	$1, %xmm0, %ymm25, %ymm2
	vinserti32x4	$1, %xmm16, %ymm17, %ymm27
	vmovdqa64	.Lnoise_CPI_v3w_1_3(%rip), %ymm26
	vinserti32x4	$1, %xmm24, %ymm1, %ymm4
	vmovdqa64	.Lnoise_CPI_v3w_1_4(%rip), %ymm31
	vinserti32x4	$1, %xmm21, %ymm20, %ymm30
	vinserti32x4	$1, %xmm23, %ymm22, %ymm5
	movl	$10, %eax
	.p2align	4
.Lnoise_BB_v4w_1_1:
	vpaddd	%ymm31, %ymm27, %ymm28
	vpaddd	%ymm26, %ymm30, %ymm26
	vpxord	%ymm26, %ymm4, %ymm4
	vpxord	%ymm28, %ymm2, %ymm2
	vprold	$16, %ymm2, %ymm2
	vprold	$16, %ymm4, %ymm4
	vshufi64x2	$1, %ymm3, %ymm5, %ymm29
	vperm2i128	$33, %ymm5, %ymm3, %ymm3
	vpaddd	%ymm3, %ymm4, %ymm3
	vpaddd	%ymm29, %ymm2, %ymm5
	vpxord	%ymm27, %ymm5, %ymm27
	vpxord	%ymm30, %ymm3, %ymm29
	vprold	$12, %ymm29, %ymm29
	vprold	$12, %ymm27, %ymm27
	vpaddd	%ymm28, %ymm27, %ymm28
	vpaddd	%ymm26, %ymm29, %ymm26
	vpxord	%ymm4, %ymm26, %ymm4
	vpxord	%ymm2, %ymm28, %ymm2
	vprold	$8, %ymm2, %ymm2
	vprold	$8, %ymm4, %ymm4
	vpaddd	%ymm3, %ymm4, %ymm3
	vpaddd	%ymm5, %ymm2, %ymm5
	vpxord	%ymm27, %ymm5, %ymm27
	vpxord	%ymm29, %ymm3, %ymm29
	vprold	$7, %ymm29, %ymm29
	vprold	$7, %ymm27, %ymm27
	vshufi64x2	$1, %ymm26, %ymm28, %ymm30
	vshufi64x2	$1, %ymm28, %ymm26, %ymm26
	vpaddd	%ymm26, %ymm27, %ymm26
	vpaddd	%ymm30, %ymm29, %ymm30
	vpxord	%ymm2, %ymm30, %ymm2
	vpxord	%ymm4, %ymm26, %ymm4
	vprold	$16, %ymm4, %ymm4
	vprold	$16, %ymm2, %ymm2
	vshufi64x2	$1, %ymm3, %ymm5, %ymm28
	vperm2i128	$33, %ymm5, %ymm3, %ymm3
	vpaddd	%ymm3, %ymm2, %ymm3
	vpaddd	%ymm28, %ymm4, %ymm31
	vpxord	%ymm27, %ymm31, %ymm5
	vpxord	%ymm29, %ymm3, %ymm27
	vprold	$12, %ymm27, %ymm27
	vprold	$12, %ymm5, %ymm6
	vpaddd	%ymm26, %ymm6, %ymm28
	vpaddd	%ymm30, %ymm27, %ymm29
	vpxord	%ymm2, %ymm29, %ymm2
	vpxord	%ymm4, %ymm28, %ymm4
	vprold	$8, %ymm4, %ymm4
	vprold	$8, %ymm2, %ymm2
	vpaddd	%ymm3, %ymm2, %ymm5
	vpaddd	%ymm31, %ymm4, %ymm3
	vpxord	%ymm6, %ymm3, %ymm26
	vpxord	%ymm27, %ymm5, %ymm27
	vprold	$7, %ymm27, %ymm30
	vprold	$7, %ymm26, %ymm27
	vshufi64x2	$1, %ymm29, %ymm28, %ymm31
	vshufi64x2	$1, %ymm28, %ymm29, %ymm26
	decl	%eax
	jne	.Lnoise_BB_v4w_1_1
	vextracti32x4	$1, %ymm28, %xmm31
	vextracti32x4	$1, %ymm29, %xmm6
	vextracti32x4	$1, %ymm2, %xmm26
	vpbroadcastd	%xmm21, %xmm8
	vpbroadcastd	%xmm20, %xmm9
	vpbroadcastd	%xmm24, %xmm20
	vpbroadcastd	%xmm23, %xmm23
	vpbroadcastd	%xmm22, %xmm22
	vpbroadcastd	%xmm25, %xmm21
	vpbroadcastd	%xmm19, %xmm19
	vpbroadcastd	%xmm18, %xmm18
	vpbroadcastd	%xmm17, %xmm17
	vpaddd	.Lnoise_CPI_v3w_1_7(%rip){1to4}, %xmm29, %xmm10
	vpaddd	.Lnoise_CPI_v3w_1_8(%rip){1to4}, %xmm6, %xmm11
	vpaddd	.Lnoise_CPI_v3w_1_9(%rip){1to4}, %xmm28, %xmm6
	vpbroadcastd	%xmm16, %xmm16
	vpaddd	.Lnoise_CPI_v4w_1_7(%rip){1to4}, %xmm31, %xmm28
	vextracti32x4	$1, %ymm27, %xmm24
	vpaddd	%xmm24, %xmm16, %xmm7
	vpaddd	%xmm30, %xmm9, %xmm29
	vextracti32x4	$1, %ymm30, %xmm16
	vpaddd	%xmm16, %xmm8, %xmm30
	vpaddd	%xmm27, %xmm17, %xmm31
	vpunpckldq	%xmm11, %xmm10, %xmm17
	vmovdqa64	.Lnoise_CPI_v4w_1_8(%rip), %xmm16
	vpunpcklqdq	%xmm6, %xmm17, %xmm17
	vpermt2d	%xmm28, %xmm16, %xmm17
	vinserti32x4	$1, %xmm7, %ymm17, %ymm27
	vmovdqa64	.Lnoise_CPI_v4w_1_9(%rip), %ymm17
	vpermt2d	%ymm29, %ymm17, %ymm27
	vmovdqa64	.Lnoise_CPI_v4w_1_10(%rip), %ymm24
	vpermt2q	%ymm30, %ymm24, %ymm27
	vmovdqa64	.Lnoise_CPI_v4w_1_11(%rip), %ymm25
	vpermt2d	%ymm31, %ymm25, %ymm27
	vmovdqu64	%ymm27, (%r9)
	vpbroadcastq	.Lnoise_CPI_v4w_1_12(%rip), %xmm27
	vpunpckhdq	%xmm11, %xmm10, %xmm14
	vpermt2d	%xmm11, %xmm27, %xmm10
	vshufps	$212, %xmm6, %xmm10, %xmm8
	vinsertf128	$1, %xmm7, %ymm8, %ymm10
	vmovdqa	.Lnoise_CPI_v4w_1_13(%rip), %ymm9
	vpermt2d	%ymm28, %ymm9, %ymm10
	vinsertf32x4	$1, %xmm29, %ymm8, %ymm8
	vpblendd	$34, %ymm8, %ymm10, %ymm8
	vmovdqa	.Lnoise_CPI_v4w_1_14(%rip), %ymm10
	vpermt2d	%ymm30, %ymm10, %ymm8
	vmovdqa	.Lnoise_CPI_v4w_1_15(%rip), %ymm11
	vpermt2d	%ymm31, %ymm11, %ymm8
	vmovdqu	%ymm8, 64(%r9)
	vpblendd	$12, %xmm6, %xmm14, %xmm12
	vmovdqa	.Lnoise_CPI_v4w_1_16(%rip), %ymm8
	vinserti128	$1, %xmm7, %ymm12, %ymm13
	vpermt2d	%ymm28, %ymm8, %ymm13
	vmovdqa	.Lnoise_CPI_v4w_1_17(%rip), %ymm12
	vpermt2d	%ymm29, %ymm12, %ymm13
	vinserti32x4	$1, %xmm30, %ymm0, %ymm15
	vpblendd	$192, %ymm15, %ymm13, %ymm15
	vmovdqa	.Lnoise_CPI_v4w_1_18(%rip), %ymm13
	vpermt2d	%ymm31, %ymm13, %ymm15
	vmovdqu	%ymm15, 128(%r9)
	vshufps	$254, %xmm6, %xmm14, %xmm6
	vinsertf128	$1, %xmm7, %ymm6, %ymm14
	vmovdqa	.Lnoise_CPI_v4w_1_19(%rip), %ymm6
	vmovdqa	.Lnoise_CPI_v4w_1_20(%rip), %ymm7
	vpermt2d	%ymm29, %ymm6, %ymm14
	vpermt2d	%ymm30, %ymm7, %ymm14
	vinserti32x4	$1, %xmm31, %ymm28, %ymm15
	vpblendd	$136, %ymm15, %ymm14, %ymm14
	vmovdqu	%ymm14, 192(%r9)
	vpaddd	%xmm3, %xmm18, %xmm18
	vextracti128	$1, %ymm3, %xmm3
	vpaddd	%xmm3, %xmm19, %xmm19
	vpaddd	%xmm5, %xmm22, %xmm3
	vextracti128	$1, %ymm5, %xmm5
	vpaddd	%xmm5, %xmm23, %xmm5
	vpaddd	%xmm26, %xmm0, %xmm0
	vpaddd	%xmm1, %xmm4, %xmm1
	vextracti128	$1, %ymm4, %xmm4
	vpaddd	%xmm4, %xmm20, %xmm4
	vpaddd	%xmm2, %xmm21, %xmm2
	vpunpckldq	%xmm19, %xmm18, %xmm20
	vpunpcklqdq	%xmm3, %xmm20, %xmm20
	vpermt2d	%xmm5, %xmm16, %xmm20
	vinserti32x4	$1, %xmm0, %ymm20, %ymm16
	vpermt2d	%ymm1, %ymm17, %ymm16
	vpermt2q	%ymm4, %ymm24, %ymm16
	vpermt2d	%ymm2, %ymm25, %ymm16
	vmovdqu64	%ymm16, 32(%r9)
	vpermi2d	%xmm19, %xmm18, %xmm27
	vshufps	$212, %xmm3, %xmm27, %xmm16
	vinsertf32x4	$1, %xmm0, %ymm16, %ymm14
	vpermt2d	%ymm5, %ymm9, %ymm14
	vinsertf32x4	$1, %xmm1, %ymm16, %ymm9
	vpblendd	$34, %ymm9, %ymm14, %ymm9
	vpermt2d	%ymm4, %ymm10, %ymm9
	vpermt2d	%ymm2, %ymm11, %ymm9
	vmovdqu	%ymm9, 96(%r9)
	vpunpckhdq	%xmm19, %xmm18, %xmm9
	vpblendd	$12, %xmm3, %xmm9, %xmm10
	vinserti128	$1, %xmm0, %ymm10, %ymm10
	vpermt2d	%ymm5, %ymm8, %ymm10
	vpermt2d	%ymm1, %ymm12, %ymm10
	vinserti128	$1, %xmm4, %ymm0, %ymm8
	vpblendd	$192, %ymm8, %ymm10, %ymm8
	vpermt2d	%ymm2, %ymm13, %ymm8
	vmovdqu	%ymm8, 160(%r9)
	vshufps	$254, %xmm3, %xmm9, %xmm3
	vinsertf128	$1, %xmm0, %ymm3, %ymm0
	vpermt2d	%ymm1, %ymm6, %ymm0
	vpermt2d	%ymm4, %ymm7, %ymm0
	vinserti128	$1, %xmm2, %ymm5, %ymm1
	vpblendd	$136, %ymm1, %ymm0, %ymm0
	vmovdqu	%ymm0, 224(%r9)
	vmovaps	(%rsp), %xmm6
	vmovaps	16(%rsp), %xmm7
	vmovaps	32(%rsp), %xmm8
	vmovaps	48(%rsp), %xmm9
	vmovaps	64(%rsp), %xmm10
	vmovaps	80(%rsp), %xmm11
	vmovaps	96(%rsp), %xmm12
	vmovaps	112(%rsp), %xmm13
	vmovaps	128(%rsp), %xmm14
	vmovaps	144(%rsp), %xmm15
	addq	$168, %rsp
	vzeroupper
	retq
	.seh_endproc

	.def	"noise_poly::Poly1305::take_aligned.v4";
	.scl	3;
	.type	32;
	.endef
	.text
	.p2align	4
"noise_poly::Poly1305::take_aligned.v4":
.seh_proc "noise_poly::Poly1305::take_aligned.v4"
	pushq	%r15
	.seh_pushreg %r15
	pushq	%r14
	.seh_pushreg %r14
	pushq	%r13
	.seh_pushreg %r13
	pushq	%r12
	.seh_pushreg %r12
	pushq	%rsi
	.seh_pushreg %rsi
	pushq	%rdi
	.seh_pushreg %rdi
	pushq	%rbp
	.seh_pushreg %rbp
	pushq	%rbx
	.seh_pushreg %rbx
	subq	$40, %rsp
	.seh_stackalloc 40
	.seh_endprologue
	movq	%rdx, %rax
	cmpq	$1023, %r8
	ja	.Lnoise_BB_v4_4_3
	movq	(%rcx), %r10
	movq	8(%rcx), %r9
	movq	16(%rcx), %r11
	cmpq	$16, %r8
	jae	.Lnoise_BB_v4_4_4
	movq	24(%rcx), %rdx
	jmp	.Lnoise_BB_v4_4_7
.Lnoise_BB_v4_4_3:
	movq	%rax, %rdx
	addq	$40, %rsp
	popq	%rbx
	popq	%rbp
	popq	%rdi
	popq	%rsi
	popq	%r12
	popq	%r13
	popq	%r14
	popq	%r15
	jmp	"noise_poly::Poly1305::take_eights.v4"
.Lnoise_BB_v4_4_4:
	movq	32(%rcx), %rsi
	movq	40(%rcx), %rdi
	movq	%rdi, %rbx
	shrq	$2, %rbx
	addq	%rdi, %rbx
	.p2align	4
.Lnoise_BB_v4_4_5:
	addq	(%rax), %r10
	adcq	8(%rax), %r9
	adcq	$1, %r11
	movq	%r10, %rdx
	mulxq	%rsi, %r13, %r12
	movq	%r9, %rdx
	mulxq	%rbx, %r14, %r15
	movq	%r10, %rdx
	mulxq	%rdi, %rbp, %r10
	addq	%r13, %r14
	adcq	%r12, %r15
	movq	%r9, %rdx
	mulxq	%rsi, %rdx, %r12
	addq	%rbp, %rdx
	adcq	%r10, %r12
	movq	%r11, %r9
	imulq	%rbx, %r9
	addq	%rdx, %r9
	adcq	$0, %r12
	imulq	%rsi, %r11
	movq	%r9, %rdx
	addq	%r15, %rdx
	adcq	%r12, %r11
	movq	%r11, %r10
	shrq	$2, %r10
	leaq	(%r10,%r10,4), %r12
	movq	%r12, %r10
	addq	%r14, %r10
	adcq	%r15, %r9
	andl	$3, %r11d
	movq	%r14, %r10
	addq	%r12, %r10
	adcq	$0, %rdx
	adcq	$0, %r11
	addq	$16, %rax
	addq	$-16, %r8
	cmpq	$15, %r8
	ja	.Lnoise_BB_v4_4_5
	xorl	%edx, %edx
.Lnoise_BB_v4_4_7:
	movq	%r10, (%rcx)
	movq	%r9, 8(%rcx)
	movq	%r11, 16(%rcx)
	movq	%rdx, 24(%rcx)
	movq	80(%rcx), %rdi
	leaq	(%rcx,%rdi), %rdx
	addq	$64, %rdx
	movq	%rdx, %r9
	subq	%rax, %r9
	cmpq	%r8, %r9
	jae	.Lnoise_BB_v4_4_10
	cmpq	$8, %r8
	jb	.Lnoise_BB_v4_4_9
	leaq	(%rdi,%rcx), %r9
	subq	%rax, %r9
	addq	$64, %r9
	cmpq	$128, %r9
	jae	.Lnoise_BB_v4_4_13
.Lnoise_BB_v4_4_9:
	xorl	%r9d, %r9d
.Lnoise_BB_v4_4_16:
	movq	%r8, %r11
	movq	%r9, %r10
	andq	$7, %r11
	je	.Lnoise_BB_v4_4_19
	movq	%r9, %r10
	.p2align	4
.Lnoise_BB_v4_4_18:
	movzbl	(%rax,%r10), %ebx
	movb	%bl, (%rdx,%r10)
	incq	%r10
	decq	%r11
	jne	.Lnoise_BB_v4_4_18
.Lnoise_BB_v4_4_19:
	subq	%r8, %r9
	cmpq	$-8, %r9
	ja	.Lnoise_BB_v4_4_22
	leaq	(%rdi,%rcx), %rdx
	addq	$71, %rdx
	.p2align	4
.Lnoise_BB_v4_4_21:
	movzbl	(%rax,%r10), %r9d
	movb	%r9b, -7(%rdx,%r10)
	movzbl	1(%rax,%r10), %r9d
	movb	%r9b, -6(%rdx,%r10)
	movzbl	2(%rax,%r10), %r9d
	movb	%r9b, -5(%rdx,%r10)
	movzbl	3(%rax,%r10), %r9d
	movb	%r9b, -4(%rdx,%r10)
	movzbl	4(%rax,%r10), %r9d
	movb	%r9b, -3(%rdx,%r10)
	movzbl	5(%rax,%r10), %r9d
	movb	%r9b, -2(%rdx,%r10)
	movzbl	6(%rax,%r10), %r9d
	movb	%r9b, -1(%rdx,%r10)
	movzbl	7(%rax,%r10), %r9d
	movb	%r9b, (%rdx,%r10)
	addq	$8, %r10
	cmpq	%r10, %r8
	jne	.Lnoise_BB_v4_4_21
	jmp	.Lnoise_BB_v4_4_22
.Lnoise_BB_v4_4_10:
	movq	%rcx, %rbx
	movq	%rdx, %rcx
	movq	%rax, %rdx
	movq	%r8, %rsi
	callq	memmove
	movq	%rbx, %rcx
	movq	%rsi, %r8
.Lnoise_BB_v4_4_22:
	addq	%r8, %rdi
	movq	%rdi, 80(%rcx)
	addq	$40, %rsp
	popq	%rbx
	popq	%rbp
	popq	%rdi
	popq	%rsi
	popq	%r12
	popq	%r13
	popq	%r14
	popq	%r15
	retq
.Lnoise_BB_v4_4_13:
	movl	%r8d, %r9d
	andl	$8, %r9d
	xorl	%r10d, %r10d
	.p2align	4
.Lnoise_BB_v4_4_14:
	movq	(%rax,%r10), %r11
	movq	%r11, (%rdx,%r10)
	addq	$8, %r10
	cmpq	%r10, %r9
	jne	.Lnoise_BB_v4_4_14
	cmpq	%r9, %r8
	je	.Lnoise_BB_v4_4_22
	jmp	.Lnoise_BB_v4_4_16
	.seh_endproc

	.def	"noise_state::cipher::CipherState::encrypt.v4";
	.scl	3;
	.type	32;
	.endef
	.text
	.p2align	4
"noise_state::cipher::CipherState::encrypt.v4":
.seh_proc "noise_state::cipher::CipherState::encrypt.v4"
	pushq	%r15
	.seh_pushreg %r15
	pushq	%r14
	.seh_pushreg %r14
	pushq	%r13
	.seh_pushreg %r13
	pushq	%r12
	.seh_pushreg %r12
	pushq	%rsi
	.seh_pushreg %rsi
	pushq	%rdi
	.seh_pushreg %rdi
	pushq	%rbx
	.seh_pushreg %rbx
	subq	$432, %rsp
	.seh_stackalloc 432
	.seh_endprologue
	movq	536(%rsp), %rsi
	cmpb	$1, (%rdx)
	jne	.Lnoise_BB_v4_7_3
	movq	40(%rdx), %rax
	cmpq	$-1, %rax
	je	.Lnoise_BB_v4_7_2
	cmpq	$65520, %rsi
	jb	.Lnoise_BB_v4_7_7
	movw	$769, (%rcx)
	movq	$0, 8(%rcx)
	jmp	.Lnoise_BB_v4_7_4
.Lnoise_BB_v4_7_3:
	xorl	%eax, %eax
	xorl	%edx, %edx
	cmpq	$65536, %rsi
	setae	%dl
	leal	(%rdx,%rdx,2), %edx
	cmovbq	%rsi, %rax
	setae	(%rcx)
	movb	%dl, 1(%rcx)
	movq	%rax, 8(%rcx)
	jmp	.Lnoise_BB_v4_7_4
.Lnoise_BB_v4_7_2:
	movw	$1, (%rcx)
	movq	$0, 8(%rcx)
	jmp	.Lnoise_BB_v4_7_4
.Lnoise_BB_v4_7_7:
	vmovups	1(%rdx), %ymm0
	movq	528(%rsp), %rdi
	vxorps	%xmm1, %xmm1, %xmm1
	vmovups	%ymm1, 168(%rsp)
	vmovups	%ymm1, 200(%rsp)
	vmovups	%ymm1, 232(%rsp)
	vmovups	%ymm1, 264(%rsp)
	vmovups	%ymm1, 296(%rsp)
	vmovups	%ymm1, 328(%rsp)
	vmovups	%ymm1, 360(%rsp)
	vmovups	%ymm1, 392(%rsp)
	leaq	168(%rsp), %r10
	vmovups	%ymm0, 120(%rsp)
	movq	%rax, 152(%rsp)
	movq	$0, 160(%rsp)
	movq	$64, 424(%rsp)
	leaq	120(%rsp), %rbx
	movq	%rcx, %r12
	movq	%rbx, %rcx
	movq	%rdx, %r13
	xorl	%edx, %edx
	movq	%r8, %r14
	movq	%rax, %r8
	movq	%r9, %r15
	movq	%r10, %r9
	vzeroupper
	callq	"rand_chacha::guts::refill4.v4"
	addq	$4, 160(%rsp)
	movq	$16, 424(%rsp)
	vmovups	168(%rsp), %ymm0
	vmovups	%ymm0, 88(%rsp)
	movq	%rbx, %rcx
	movq	%rdi, %rdx
	movq	%rsi, %r8
	vzeroupper
	callq	"noise_aead::keystream::apply.v4"
	movq	%rsi, 40(%rsp)
	movq	%rdi, 32(%rsp)
	leaq	48(%rsp), %rcx
	leaq	88(%rsp), %rdx
	movq	%r14, %r8
	movq	%r15, %r9
	callq	"noise_aead::authenticator::tag.v4"
	vmovups	48(%rsp), %xmm0
	vmovaps	%xmm0, 64(%rsp)
	vmovups	%xmm0, (%rdi,%rsi)
	addq	$16, %rsi
	incq	40(%r13)
	movw	$0, (%r12)
	movq	%rsi, 8(%r12)
.Lnoise_BB_v4_7_4:
	addq	$432, %rsp
	popq	%rbx
	popq	%rdi
	popq	%rsi
	popq	%r12
	popq	%r13
	popq	%r14
	popq	%r15
	retq
	.seh_endproc

	.def	"noise_state::cipher::CipherState::decrypt.v4";
	.scl	3;
	.type	32;
	.endef
	.text
	.p2align	4
"noise_state::cipher::CipherState::decrypt.v4":
.seh_proc "noise_state::cipher::CipherState::decrypt.v4"
	pushq	%r15
	.seh_pushreg %r15
	pushq	%r14
	.seh_pushreg %r14
	pushq	%r13
	.seh_pushreg %r13
	pushq	%r12
	.seh_pushreg %r12
	pushq	%rsi
	.seh_pushreg %rsi
	pushq	%rdi
	.seh_pushreg %rdi
	pushq	%rbp
	.seh_pushreg %rbp
	pushq	%rbx
	.seh_pushreg %rbx
	subq	$408, %rsp
	.seh_stackalloc 408
	.seh_endprologue
	movzbl	(%rdx), %eax
	cmpb	$1, %al
	jne	.Lnoise_BB_v4_0_3
	cmpq	$-1, 40(%rdx)
	je	.Lnoise_BB_v4_0_2
.Lnoise_BB_v4_0_3:
	movq	520(%rsp), %r10
	movb	$3, %r11b
	cmpq	$65535, %r10
	ja	.Lnoise_BB_v4_0_5
	cmpq	$16, %r10
	setb	%bl
	movb	$2, %r11b
	testb	%al, %bl
	jne	.Lnoise_BB_v4_0_5
	cmpb	$1, %al
	jne	.Lnoise_BB_v4_0_9
	movq	%rcx, %r15
	movq	512(%rsp), %rdi
	movq	40(%rdx), %rax
	leaq	-16(%r10), %rsi
	movq	-16(%rdi,%r10), %r12
	movq	-8(%rdi,%r10), %rbp
	vxorps	%xmm0, %xmm0, %xmm0
	vmovups	%ymm0, 144(%rsp)
	vmovups	%ymm0, 176(%rsp)
	vmovups	%ymm0, 208(%rsp)
	vmovups	%ymm0, 240(%rsp)
	vmovups	%ymm0, 272(%rsp)
	vmovups	%ymm0, 304(%rsp)
	vmovups	%ymm0, 336(%rsp)
	vmovups	%ymm0, 368(%rsp)
	movq	%rdx, %r13
	vmovups	1(%rdx), %ymm0
	leaq	144(%rsp), %r10
	vmovups	%ymm0, 96(%rsp)
	movq	%rax, 128(%rsp)
	movq	$0, 136(%rsp)
	movq	$64, 400(%rsp)
	leaq	96(%rsp), %rcx
	xorl	%edx, %edx
	movq	%r8, %rbx
	movq	%rax, %r8
	movq	%r9, %r14
	movq	%r10, %r9
	vzeroupper
	callq	"rand_chacha::guts::refill4.v4"
	addq	$4, 136(%rsp)
	movq	$16, 400(%rsp)
	vmovups	144(%rsp), %ymm0
	vmovups	%ymm0, 64(%rsp)
	movq	%rsi, 40(%rsp)
	movq	%rdi, 32(%rsp)
	leaq	48(%rsp), %rcx
	leaq	64(%rsp), %rdx
	movq	%rbx, %r8
	movq	%r14, %r9
	vzeroupper
	callq	"noise_aead::authenticator::tag.v4"
	xorq	56(%rsp), %rbp
	xorq	48(%rsp), %r12
	orq	%rbp, %r12
	jne	.Lnoise_BB_v4_0_11
	leaq	96(%rsp), %rcx
	movq	%rdi, %rdx
	movq	%rsi, %r8
	callq	"noise_aead::keystream::apply.v4"
	incq	40(%r13)
	movw	$0, (%r15)
	movq	%rsi, 8(%r15)
	jmp	.Lnoise_BB_v4_0_10
.Lnoise_BB_v4_0_2:
	xorl	%r11d, %r11d
.Lnoise_BB_v4_0_5:
	movb	$1, (%rcx)
	movb	%r11b, 1(%rcx)
	movq	$0, 8(%rcx)
.Lnoise_BB_v4_0_10:
	addq	$408, %rsp
	popq	%rbx
	popq	%rbp
	popq	%rdi
	popq	%rsi
	popq	%r12
	popq	%r13
	popq	%r14
	popq	%r15
	retq
.Lnoise_BB_v4_0_9:
	movw	$0, (%rcx)
	movq	%r10, 8(%rcx)
	jmp	.Lnoise_BB_v4_0_10
.Lnoise_BB_v4_0_11:
	movw	$257, (%r15)
	movq	$0, 8(%r15)
	jmp	.Lnoise_BB_v4_0_10
	.seh_endproc

	.def	"noise_aead::keystream::apply.v4";
	.scl	3;
	.type	32;
	.endef
	.text
	.p2align	4
"noise_aead::keystream::apply.v4":
.seh_proc "noise_aead::keystream::apply.v4"
	pushq	%r15
	.seh_pushreg %r15
	pushq	%r14
	.seh_pushreg %r14
	pushq	%r13
	.seh_pushreg %r13
	pushq	%r12
	.seh_pushreg %r12
	pushq	%rsi
	.seh_pushreg %rsi
	pushq	%rdi
	.seh_pushreg %rdi
	pushq	%rbp
	.seh_pushreg %rbp
	pushq	%rbx
	.seh_pushreg %rbx
	subq	$184, %rsp
	.seh_stackalloc 184
	.seh_endprologue
	movq	%rdx, 96(%rsp)
	movq	%rcx, %rbx
	movq	%r8, 104(%rsp)
	movq	%r8, %rax
	shrq	$6, %rax
	cmpq	$3, %rax
	movl	$3, %ecx
	cmovbq	%rax, %rcx
	movq	%rax, %r13
	movq	%rcx, 72(%rsp)
	subq	%rcx, %r13
	movq	%r13, 88(%rsp)
	shrq	$2, %r13
	testq	%rax, %rax
	je	.Lnoise_BB_v4_6_4
	leaq	48(%rbx), %r9
	movq	72(%rsp), %rbp
	movq	96(%rsp), %rsi
	.p2align	4
.Lnoise_BB_v4_6_2:
	movq	304(%rbx), %rcx
	cmpq	$64, %rcx
	jb	.Lnoise_BB_v4_6_11
	movq	32(%rbx), %r8
	movq	40(%rbx), %rdx
	movq	%rbx, %rcx
	movq	%r9, %rdi
	vzeroupper
	callq	"rand_chacha::guts::refill4.v4"
	addq	$4, 40(%rbx)
	movl	48(%rbx), %r8d
	movl	$1, %eax
	jmp	.Lnoise_BB_v4_6_13
	.p2align	4
.Lnoise_BB_v4_6_11:
	movl	48(%rbx,%rcx,4), %r8d
	leaq	1(%rcx), %rax
	movq	%rax, 304(%rbx)
	cmpq	$63, %rcx
	jne	.Lnoise_BB_v4_6_14
	movl	%r8d, %r14d
	movq	32(%rbx), %r8
	movq	40(%rbx), %rdx
	movq	%rbx, %rcx
	movq	%r9, %rdi
	vzeroupper
	callq	"rand_chacha::guts::refill4.v4"
	movl	%r14d, %r8d
	addq	$4, 40(%rbx)
	xorl	%eax, %eax
.Lnoise_BB_v4_6_13:
	movl	(%rdi,%rax,4), %r10d
	movl	4(%rdi,%rax,4), %r11d
	leaq	(%rdi,%rax,4), %rcx
	addq	$8, %rcx
	addq	$3, %rax
	movq	%rdi, %r9
.Lnoise_BB_v4_6_19:
	movl	(%rcx), %edx
	movq	%rax, 304(%rbx)
	movl	48(%rbx,%rax,4), %ecx
	movl	%ecx, 56(%rsp)
	leaq	1(%rax), %rcx
	movq	%rcx, 304(%rbx)
	addq	$2, %rax
.Lnoise_BB_v4_6_20:
	movl	48(%rbx,%rcx,4), %ecx
	movl	%ecx, 68(%rsp)
	movq	%rax, 304(%rbx)
	movl	48(%rbx,%rax,4), %ecx
	movl	%ecx, 52(%rsp)
	leaq	1(%rax), %rcx
	movq	%rcx, 304(%rbx)
	addq	$2, %rax
.Lnoise_BB_v4_6_21:
	movl	48(%rbx,%rcx,4), %ecx
	movl	%ecx, 64(%rsp)
	movq	%rax, 304(%rbx)
	movl	48(%rbx,%rax,4), %ecx
	movl	%ecx, 48(%rsp)
	leaq	1(%rax), %rcx
	movq	%rcx, 304(%rbx)
	addq	$2, %rax
.Lnoise_BB_v4_6_22:
	movl	48(%rbx,%rcx,4), %ecx
	movl	%ecx, 36(%rsp)
	movq	%rax, 304(%rbx)
	movl	48(%rbx,%rax,4), %ecx
	movl	%ecx, 44(%rsp)
	leaq	1(%rax), %rcx
	movq	%rcx, 304(%rbx)
	addq	$2, %rax
.Lnoise_BB_v4_6_23:
	movl	48(%rbx,%rcx,4), %edi
	movq	%rax, 304(%rbx)
	movl	48(%rbx,%rax,4), %r14d
	leaq	1(%rax), %rcx
	movq	%rcx, 304(%rbx)
	addq	$2, %rax
.Lnoise_BB_v4_6_24:
	movl	48(%rbx,%rcx,4), %r12d
	movq	%rax, 304(%rbx)
	movl	48(%rbx,%rax,4), %r15d
	incq	%rax
	movq	%rax, 304(%rbx)
.Lnoise_BB_v4_6_55:
	vmovd	%r14d, %xmm0
	vpinsrd	$1, %r12d, %xmm0, %xmm0
	vpinsrd	$2, %r15d, %xmm0, %xmm0
	vmovd	48(%rsp), %xmm1
	vpinsrd	$1, 36(%rsp), %xmm1, %xmm1
	vpinsrd	$2, 44(%rsp), %xmm1, %xmm1
	vpinsrd	$3, %edi, %xmm1, %xmm1
	vmovd	56(%rsp), %xmm2
	vpinsrd	$1, 68(%rsp), %xmm2, %xmm2
	movl	48(%rbx,%rax,4), %ecx
	incq	%rax
	movq	%rax, 304(%rbx)
	vpinsrd	$2, 52(%rsp), %xmm2, %xmm2
	vpinsrd	$3, 64(%rsp), %xmm2, %xmm2
	vmovd	%r8d, %xmm3
	vpinsrd	$1, %r10d, %xmm3, %xmm3
	vpinsrd	$2, %r11d, %xmm3, %xmm3
	vpinsrd	$3, %edx, %xmm3, %xmm3
	vpinsrd	$3, %ecx, %xmm0, %xmm0
	vpinsrb	$12, %ecx, %xmm0, %xmm4
	movabsq	$-2305843009213693952, %rax
	kmovq	%rax, %k1
	vinserti128	$1, %xmm0, %ymm1, %ymm0
	vinserti128	$1, %xmm2, %ymm3, %ymm1
	vinserti64x4	$1, %ymm0, %zmm1, %zmm0
	vinserti32x4	$3, %xmm4, %zmm0, %zmm1
	vmovdqu8	%zmm0, %zmm1 {%k1}
	vpxorq	(%rsi), %zmm1, %zmm0
	vmovdqu	%ymm0, (%rsi)
	vextracti64x4	$1, %zmm0, 32(%rsi)
	addq	$64, %rsi
	decq	%rbp
	jne	.Lnoise_BB_v4_6_2
	jmp	.Lnoise_BB_v4_6_4
	.p2align	4
.Lnoise_BB_v4_6_14:
	movl	52(%rbx,%rcx,4), %r10d
	leaq	2(%rcx), %rax
	movq	%rax, 304(%rbx)
	cmpq	$62, %rcx
	jb	.Lnoise_BB_v4_6_16
	movl	%r10d, %r15d
	movl	%r8d, %r14d
	movq	32(%rbx), %r8
	movq	40(%rbx), %rdx
	movq	%rbx, %rcx
	movq	%r9, %rdi
	vzeroupper
	callq	"rand_chacha::guts::refill4.v4"
	addq	$4, 40(%rbx)
	movl	48(%rbx), %r11d
	movl	$1, %eax
	jmp	.Lnoise_BB_v4_6_18
.Lnoise_BB_v4_6_16:
	movl	56(%rbx,%rcx,4), %r11d
	leaq	3(%rcx), %rdx
	movq	%rdx, 304(%rbx)
	cmpq	$61, %rcx
	jne	.Lnoise_BB_v4_6_25
	movl	%r10d, %r15d
	movl	%r8d, %r14d
	movq	32(%rbx), %r8
	movq	40(%rbx), %rdx
	movq	%rbx, %rcx
	movq	%r9, %rdi
	movl	%r11d, %r12d
	vzeroupper
	callq	"rand_chacha::guts::refill4.v4"
	movl	%r12d, %r11d
	addq	$4, 40(%rbx)
	xorl	%eax, %eax
.Lnoise_BB_v4_6_18:
	leaq	(%rdi,%rax,4), %rcx
	incq	%rax
	movq	%rdi, %r9
	movl	%r14d, %r8d
	movl	%r15d, %r10d
	jmp	.Lnoise_BB_v4_6_19
.Lnoise_BB_v4_6_25:
	movl	60(%rbx,%rcx,4), %edx
	movl	%edx, 40(%rsp)
	leaq	4(%rcx), %rdx
	movq	%rdx, 304(%rbx)
	cmpq	$62, %rax
	jne	.Lnoise_BB_v4_6_27
	movl	%r8d, %r14d
	movq	32(%rbx), %r8
	movq	40(%rbx), %rdx
	movq	%rbx, %rcx
	movq	%r9, %rdi
	movl	%r10d, %r15d
	movl	%r11d, %r12d
	vzeroupper
	callq	"rand_chacha::guts::refill4.v4"
	movl	%r12d, %r11d
	movl	%r15d, %r10d
	movl	%r14d, %r8d
	movq	%rdi, %r9
	addq	$4, 40(%rbx)
	movl	48(%rbx), %eax
	movl	%eax, 56(%rsp)
	movl	$1, %ecx
	jmp	.Lnoise_BB_v4_6_29
.Lnoise_BB_v4_6_27:
	movl	64(%rbx,%rcx,4), %eax
	movl	%eax, 56(%rsp)
	leaq	5(%rcx), %rax
	movq	%rax, 304(%rbx)
	cmpq	$59, %rcx
	jb	.Lnoise_BB_v4_6_30
	movl	%r8d, %r14d
	movq	32(%rbx), %r8
	movq	40(%rbx), %rdx
	movq	%rbx, %rcx
	movq	%r9, %rdi
	movl	%r10d, %r15d
	movl	%r11d, %r12d
	vzeroupper
	callq	"rand_chacha::guts::refill4.v4"
	movl	%r12d, %r11d
	movl	%r15d, %r10d
	movl	%r14d, %r8d
	movq	%rdi, %r9
	addq	$4, 40(%rbx)
	xorl	%ecx, %ecx
.Lnoise_BB_v4_6_29:
	leaq	1(%rcx), %rax
	movl	40(%rsp), %edx
	jmp	.Lnoise_BB_v4_6_20
.Lnoise_BB_v4_6_30:
	movl	68(%rbx,%rcx,4), %eax
	movl	%eax, 68(%rsp)
	leaq	6(%rcx), %rax
	movq	%rax, 304(%rbx)
	cmpq	$62, %rdx
	jne	.Lnoise_BB_v4_6_32
	movl	%r8d, %r14d
	movq	32(%rbx), %r8
	movq	40(%rbx), %rdx
	movq	%rbx, %rcx
	movq	%r9, %rdi
	movl	%r10d, %r15d
	movl	%r11d, %r12d
	vzeroupper
	callq	"rand_chacha::guts::refill4.v4"
	movl	%r12d, %r11d
	movl	%r15d, %r10d
	movl	%r14d, %r8d
	movq	%rdi, %r9
	addq	$4, 40(%rbx)
	movl	48(%rbx), %eax
	movl	%eax, 52(%rsp)
	movl	$1, %ecx
	jmp	.Lnoise_BB_v4_6_34
.Lnoise_BB_v4_6_32:
	movl	72(%rbx,%rcx,4), %edx
	movl	%edx, 52(%rsp)
	leaq	7(%rcx), %rdx
	movq	%rdx, 304(%rbx)
	cmpq	$57, %rcx
	jb	.Lnoise_BB_v4_6_35
	movl	%r8d, %r14d
	movq	32(%rbx), %r8
	movq	40(%rbx), %rdx
	movq	%rbx, %rcx
	movq	%r9, %rdi
	movl	%r10d, %r15d
	movl	%r11d, %r12d
	vzeroupper
	callq	"rand_chacha::guts::refill4.v4"
	movl	%r12d, %r11d
	movl	%r15d, %r10d
	movl	%r14d, %r8d
	movq	%rdi, %r9
	addq	$4, 40(%rbx)
	xorl	%ecx, %ecx
.Lnoise_BB_v4_6_34:
	leaq	1(%rcx), %rax
	movl	40(%rsp), %edx
	jmp	.Lnoise_BB_v4_6_21
.Lnoise_BB_v4_6_35:
	movl	76(%rbx,%rcx,4), %edx
	movl	%edx, 64(%rsp)
	leaq	8(%rcx), %rdx
	movq	%rdx, 304(%rbx)
	cmpq	$62, %rax
	jne	.Lnoise_BB_v4_6_37
	movl	%r8d, %r14d
	movq	32(%rbx), %r8
	movq	40(%rbx), %rdx
	movq	%rbx, %rcx
	movq	%r9, %rdi
	movl	%r10d, %r15d
	movl	%r11d, %r12d
	vzeroupper
	callq	"rand_chacha::guts::refill4.v4"
	movl	%r12d, %r11d
	movl	%r15d, %r10d
	movl	%r14d, %r8d
	movq	%rdi, %r9
	addq	$4, 40(%rbx)
	movl	48(%rbx), %eax
	movl	%eax, 48(%rsp)
	movl	$1, %ecx
	jmp	.Lnoise_BB_v4_6_39
.Lnoise_BB_v4_6_37:
	movl	80(%rbx,%rcx,4), %eax
	movl	%eax, 48(%rsp)
	leaq	9(%rcx), %rax
	movq	%rax, 304(%rbx)
	cmpq	$55, %rcx
	jb	.Lnoise_BB_v4_6_40
	movl	%r8d, %r14d
	movq	32(%rbx), %r8
	movq	40(%rbx), %rdx
	movq	%rbx, %rcx
	movq	%r9, %rdi
	movl	%r10d, %r15d
	movl	%r11d, %r12d
	vzeroupper
	callq	"rand_chacha::guts::refill4.v4"
	movl	%r12d, %r11d
	movl	%r15d, %r10d
	movl	%r14d, %r8d
	movq	%rdi, %r9
	addq	$4, 40(%rbx)
	xorl	%ecx, %ecx
.Lnoise_BB_v4_6_39:
	leaq	1(%rcx), %rax
	movl	40(%rsp), %edx
	jmp	.Lnoise_BB_v4_6_22
.Lnoise_BB_v4_6_40:
	movl	84(%rbx,%rcx,4), %eax
	movl	%eax, 36(%rsp)
	leaq	10(%rcx), %rax
	movq	%rax, 304(%rbx)
	cmpq	$62, %rdx
	jne	.Lnoise_BB_v4_6_42
	movl	%r8d, %r14d
	movq	32(%rbx), %r8
	movq	40(%rbx), %rdx
	movq	%rbx, %rcx
	movq	%r9, %rdi
	movl	%r10d, %r15d
	movl	%r11d, %r12d
	vzeroupper
	callq	"rand_chacha::guts::refill4.v4"
	movl	%r12d, %r11d
	movl	%r15d, %r10d
	movl	%r14d, %r8d
	movq	%rdi, %r9
	addq	$4, 40(%rbx)
	movl	48(%rbx), %eax
	movl	%eax, 44(%rsp)
	movl	$1, %ecx
	jmp	.Lnoise_BB_v4_6_44
.Lnoise_BB_v4_6_42:
	movl	88(%rbx,%rcx,4), %edx
	movl	%edx, 44(%rsp)
	leaq	11(%rcx), %rdx
	movq	%rdx, 304(%rbx)
	cmpq	$53, %rcx
	jb	.Lnoise_BB_v4_6_45
	movl	%r8d, %r14d
	movq	32(%rbx), %r8
	movq	40(%rbx), %rdx
	movq	%rbx, %rcx
	movq	%r9, %rdi
	movl	%r10d, %r15d
	movl	%r11d, %r12d
	vzeroupper
	callq	"rand_chacha::guts::refill4.v4"
	movl	%r12d, %r11d
	movl	%r15d, %r10d
	movl	%r14d, %r8d
	movq	%rdi, %r9
	addq	$4, 40(%rbx)
	xorl	%ecx, %ecx
.Lnoise_BB_v4_6_44:
	leaq	1(%rcx), %rax
	movl	40(%rsp), %edx
	jmp	.Lnoise_BB_v4_6_23
.Lnoise_BB_v4_6_45:
	movl	92(%rbx,%rcx,4), %edi
	leaq	12(%rcx), %rdx
	movq	%rdx, 304(%rbx)
	cmpq	$62, %rax
	movl	%r8d, 60(%rsp)
	jne	.Lnoise_BB_v4_6_48
	movq	32(%rbx), %r8
	movq	40(%rbx), %rdx
	movq	%rbx, %rcx
	movq	%r9, %r14
	movl	%r10d, %r12d
	movl	%r11d, %r15d
	vzeroupper
	callq	"rand_chacha::guts::refill4.v4"
	movl	%r15d, %r11d
	movl	%r12d, %r10d
	movl	60(%rsp), %r8d
	movq	%r14, %r9
	addq	$4, 40(%rbx)
	movl	48(%rbx), %r14d
	movl	$1, %ecx
	jmp	.Lnoise_BB_v4_6_47
.Lnoise_BB_v4_6_48:
	movl	96(%rbx,%rcx,4), %r14d
	leaq	13(%rcx), %rax
	movq	%rax, 304(%rbx)
	cmpq	$51, %rcx
	jb	.Lnoise_BB_v4_6_50
	movq	32(%rbx), %r8
	movq	40(%rbx), %rdx
	movq	%rbx, %rcx
	movq	%r9, %r15
	movl	%r10d, 80(%rsp)
	movl	%r11d, %r12d
	vzeroupper
	callq	"rand_chacha::guts::refill4.v4"
	movl	%r12d, %r11d
	movl	80(%rsp), %r10d
	movl	60(%rsp), %r8d
	movq	%r15, %r9
	addq	$4, 40(%rbx)
	xorl	%ecx, %ecx
.Lnoise_BB_v4_6_47:
	leaq	1(%rcx), %rax
	movl	40(%rsp), %edx
	jmp	.Lnoise_BB_v4_6_24
.Lnoise_BB_v4_6_50:
	movl	100(%rbx,%rcx,4), %r12d
	leaq	14(%rcx), %rax
	movq	%rax, 304(%rbx)
	cmpq	$62, %rdx
	jne	.Lnoise_BB_v4_6_52
	movq	32(%rbx), %r8
	movq	40(%rbx), %rdx
	movq	%rbx, %rcx
	movq	%r9, %r15
	movl	%r10d, 80(%rsp)
	movl	%r11d, 84(%rsp)
	vzeroupper
	callq	"rand_chacha::guts::refill4.v4"
	movl	84(%rsp), %r11d
	movl	80(%rsp), %r10d
	movl	60(%rsp), %r8d
	movq	%r15, %r9
	addq	$4, 40(%rbx)
	movl	48(%rbx), %r15d
	movq	$1, 304(%rbx)
	movl	$1, %eax
	jmp	.Lnoise_BB_v4_6_54
.Lnoise_BB_v4_6_52:
	movl	104(%rbx,%rcx,4), %r15d
	leaq	15(%rcx), %rax
	movq	%rax, 304(%rbx)
	cmpq	$49, %rcx
	jb	.Lnoise_BB_v4_6_54
	movq	32(%rbx), %r8
	movq	40(%rbx), %rdx
	movq	%rbx, %rcx
	leaq	48(%rbx), %r9
	movl	%r10d, 80(%rsp)
	movl	%r11d, 84(%rsp)
	vzeroupper
	callq	"rand_chacha::guts::refill4.v4"
	movl	84(%rsp), %r11d
	movl	80(%rsp), %r10d
	movl	60(%rsp), %r8d
	leaq	48(%rbx), %r9
	addq	$4, 40(%rbx)
	xorl	%eax, %eax
.Lnoise_BB_v4_6_54:
	movl	40(%rsp), %edx
	jmp	.Lnoise_BB_v4_6_55
.Lnoise_BB_v4_6_4:
	testq	%r13, %r13
	je	.Lnoise_BB_v4_6_7
	movq	72(%rsp), %rsi
	shll	$6, %esi
	addq	96(%rsp), %rsi
	leaq	48(%rbx), %r14
	.p2align	4
.Lnoise_BB_v4_6_6:
	movq	32(%rbx), %r8
	movq	40(%rbx), %rax
	movq	304(%rbx), %rcx
	shrq	$4, %rcx
	leaq	(%rax,%rcx), %rdx
	addq	$-4, %rdx
	movq	%rdx, 40(%rbx)
	vpxor	%xmm0, %xmm0, %xmm0
	vmovdqu	%ymm0, 224(%r14)
	vmovdqu	%ymm0, 192(%r14)
	vmovdqu	%ymm0, 160(%r14)
	vmovdqu	%ymm0, 128(%r14)
	vmovdqu	%ymm0, 96(%r14)
	vmovdqu	%ymm0, 64(%r14)
	vmovdqu	%ymm0, 32(%r14)
	vmovdqu	%ymm0, (%r14)
	movq	$64, 304(%rbx)
	movq	%rbx, %rcx
	movq	%r14, %r9
	vzeroupper
	callq	"rand_chacha::guts::refill4.v4"
	addq	$4, 40(%rbx)
	vmovdqu64	48(%rbx), %zmm0
	vmovdqu	96(%rbx), %xmm1
	vpinsrb	$12, 108(%rbx), %xmm1, %xmm1
	vinserti32x4	$3, %xmm1, %zmm0, %zmm1
	movabsq	$-2305843009213693952, %rax
	kmovq	%rax, %k1
	vmovdqu64	112(%rbx), %zmm2
	vmovdqu	160(%rbx), %xmm3
	vmovdqu8	%zmm0, %zmm1 {%k1}
	vpinsrb	$12, 172(%rbx), %xmm3, %xmm0
	vinserti32x4	$3, %xmm0, %zmm2, %zmm0
	vmovdqu64	176(%rbx), %zmm3
	vmovdqu8	%zmm2, %zmm0 {%k1}
	vmovdqu	224(%rbx), %xmm2
	vpinsrb	$12, 236(%rbx), %xmm2, %xmm2
	vinserti32x4	$3, %xmm2, %zmm3, %zmm2
	vmovdqu64	240(%rbx), %zmm4
	vmovdqu	288(%rbx), %xmm5
	vpinsrb	$12, 300(%rbx), %xmm5, %xmm5
	vmovdqu8	%zmm3, %zmm2 {%k1}
	vinserti32x4	$3, %xmm5, %zmm4, %zmm3
	vmovdqu8	%zmm4, %zmm3 {%k1}
	movq	$64, 304(%rbx)
	vpxorq	(%rsi), %zmm1, %zmm1
	vmovdqu	%ymm1, (%rsi)
	vextracti64x4	$1, %zmm1, 32(%rsi)
	vpxorq	64(%rsi), %zmm0, %zmm0
	vmovdqu	%ymm0, 64(%rsi)
	vextracti64x4	$1, %zmm0, 96(%rsi)
	vpxorq	128(%rsi), %zmm2, %zmm0
	vmovdqu	%ymm0, 128(%rsi)
	vextracti64x4	$1, %zmm0, 160(%rsi)
	vpxorq	192(%rsi), %zmm3, %zmm0
	vmovdqu	%ymm0, 192(%rsi)
	vextracti64x4	$1, %zmm0, 224(%rsi)
	addq	$256, %rsi
	decq	%r13
	jne	.Lnoise_BB_v4_6_6
.Lnoise_BB_v4_6_7:
	movabsq	$288230376151711740, %rax
	movq	88(%rsp), %rcx
	andq	%rax, %rcx
	movq	%rcx, %rax
	orq	72(%rsp), %rax
	shlq	$6, %rax
	movq	104(%rsp), %r12
	subq	%rax, %r12
	shrq	$6, %r12
	je	.Lnoise_BB_v4_6_101
	addq	96(%rsp), %rax
	leaq	48(%rbx), %r9
	.p2align	4
.Lnoise_BB_v4_6_9:
	movq	%rax, 88(%rsp)
	movq	304(%rbx), %rcx
	cmpq	$64, %rcx
	jb	.Lnoise_BB_v4_6_56
	movq	32(%rbx), %r8
	movq	40(%rbx), %rdx
	movq	%rbx, %rcx
	movq	%r9, %rsi
	vzeroupper
	callq	"rand_chacha::guts::refill4.v4"
	addq	$4, 40(%rbx)
	movl	48(%rbx), %r8d
	movl	$1, %eax
	jmp	.Lnoise_BB_v4_6_58
	.p2align	4
.Lnoise_BB_v4_6_56:
	movl	48(%rbx,%rcx,4), %r8d
	leaq	1(%rcx), %rax
	movq	%rax, 304(%rbx)
	cmpq	$63, %rcx
	jne	.Lnoise_BB_v4_6_59
	movl	%r8d, %edi
	movq	32(%rbx), %r8
	movq	40(%rbx), %rdx
	movq	%rbx, %rcx
	movq	%r9, %rsi
	vzeroupper
	callq	"rand_chacha::guts::refill4.v4"
	movl	%edi, %r8d
	addq	$4, 40(%rbx)
	xorl	%eax, %eax
.Lnoise_BB_v4_6_58:
	movl	(%rsi,%rax,4), %r10d
	movl	4(%rsi,%rax,4), %r11d
	leaq	(%rsi,%rax,4), %rcx
	addq	$8, %rcx
	addq	$3, %rax
	movq	%rsi, %r9
.Lnoise_BB_v4_6_64:
	movl	(%rcx), %edx
	movq	%rax, 304(%rbx)
	movl	48(%rbx,%rax,4), %ecx
	movl	%ecx, 56(%rsp)
	leaq	1(%rax), %rcx
	movq	%rcx, 304(%rbx)
	addq	$2, %rax
.Lnoise_BB_v4_6_65:
	movl	48(%rbx,%rcx,4), %ecx
	movl	%ecx, 68(%rsp)
	movq	%rax, 304(%rbx)
	movl	48(%rbx,%rax,4), %ecx
	movl	%ecx, 52(%rsp)
	leaq	1(%rax), %rcx
	movq	%rcx, 304(%rbx)
	addq	$2, %rax
.Lnoise_BB_v4_6_66:
	movl	48(%rbx,%rcx,4), %ecx
	movl	%ecx, 64(%rsp)
	movq	%rax, 304(%rbx)
	movl	48(%rbx,%rax,4), %ecx
	movl	%ecx, 48(%rsp)
	leaq	1(%rax), %rcx
	movq	%rcx, 304(%rbx)
	addq	$2, %rax
.Lnoise_BB_v4_6_67:
	movl	48(%rbx,%rcx,4), %esi
	movq	%rax, 304(%rbx)
	movl	48(%rbx,%rax,4), %edi
	leaq	1(%rax), %rcx
	movq	%rcx, 304(%rbx)
	addq	$2, %rax
.Lnoise_BB_v4_6_68:
	movl	48(%rbx,%rcx,4), %ebp
	movq	%rax, 304(%rbx)
	movl	48(%rbx,%rax,4), %r13d
	leaq	1(%rax), %rcx
	movq	%rcx, 304(%rbx)
	addq	$2, %rax
.Lnoise_BB_v4_6_69:
	movl	48(%rbx,%rcx,4), %r14d
	movq	%rax, 304(%rbx)
	movl	48(%rbx,%rax,4), %r15d
	incq	%rax
	movq	%rax, 304(%rbx)
.Lnoise_BB_v4_6_100:
	vmovd	%r13d, %xmm0
	vpinsrd	$1, %r14d, %xmm0, %xmm0
	vpinsrd	$2, %r15d, %xmm0, %xmm0
	vmovd	48(%rsp), %xmm1
	vpinsrd	$1, %esi, %xmm1, %xmm1
	vpinsrd	$2, %edi, %xmm1, %xmm1
	vpinsrd	$3, %ebp, %xmm1, %xmm1
	vmovd	56(%rsp), %xmm2
	vpinsrd	$1, 68(%rsp), %xmm2, %xmm2
	movl	48(%rbx,%rax,4), %ecx
	incq	%rax
	movq	%rax, 304(%rbx)
	vpinsrd	$2, 52(%rsp), %xmm2, %xmm2
	vpinsrd	$3, 64(%rsp), %xmm2, %xmm2
	vmovd	%r8d, %xmm3
	vpinsrd	$1, %r10d, %xmm3, %xmm3
	vpinsrd	$2, %r11d, %xmm3, %xmm3
	vpinsrd	$3, %edx, %xmm3, %xmm3
	vpinsrd	$3, %ecx, %xmm0, %xmm0
	vpinsrb	$12, %ecx, %xmm0, %xmm4
	movabsq	$-2305843009213693952, %rax
	kmovq	%rax, %k1
	vinserti128	$1, %xmm0, %ymm1, %ymm0
	vinserti128	$1, %xmm2, %ymm3, %ymm1
	vinserti64x4	$1, %ymm0, %zmm1, %zmm0
	vinserti32x4	$3, %xmm4, %zmm0, %zmm1
	vmovdqu8	%zmm0, %zmm1 {%k1}
	movq	88(%rsp), %rax
	vpxorq	(%rax), %zmm1, %zmm0
	vmovdqu	%ymm0, (%rax)
	vextracti64x4	$1, %zmm0, 32(%rax)
	addq	$64, %rax
	decq	%r12
	jne	.Lnoise_BB_v4_6_9
	jmp	.Lnoise_BB_v4_6_101
	.p2align	4
.Lnoise_BB_v4_6_59:
	movl	52(%rbx,%rcx,4), %r10d
	leaq	2(%rcx), %rax
	movq	%rax, 304(%rbx)
	cmpq	$62, %rcx
	jb	.Lnoise_BB_v4_6_61
	movl	%r10d, %ebp
	movl	%r8d, %edi
	movq	32(%rbx), %r8
	movq	40(%rbx), %rdx
	movq	%rbx, %rcx
	movq	%r9, %rsi
	vzeroupper
	callq	"rand_chacha::guts::refill4.v4"
	addq	$4, 40(%rbx)
	movl	48(%rbx), %r11d
	movl	$1, %eax
	jmp	.Lnoise_BB_v4_6_63
.Lnoise_BB_v4_6_61:
	movl	56(%rbx,%rcx,4), %r11d
	leaq	3(%rcx), %rdx
	movq	%rdx, 304(%rbx)
	cmpq	$61, %rcx
	jne	.Lnoise_BB_v4_6_70
	movl	%r10d, %ebp
	movl	%r8d, %edi
	movq	32(%rbx), %r8
	movq	40(%rbx), %rdx
	movq	%rbx, %rcx
	movq	%r9, %rsi
	movl	%r11d, %r14d
	vzeroupper
	callq	"rand_chacha::guts::refill4.v4"
	movl	%r14d, %r11d
	addq	$4, 40(%rbx)
	xorl	%eax, %eax
.Lnoise_BB_v4_6_63:
	leaq	(%rsi,%rax,4), %rcx
	incq	%rax
	movq	%rsi, %r9
	movl	%edi, %r8d
	movl	%ebp, %r10d
	jmp	.Lnoise_BB_v4_6_64
.Lnoise_BB_v4_6_70:
	movl	60(%rbx,%rcx,4), %edx
	movl	%edx, 36(%rsp)
	leaq	4(%rcx), %rdx
	movq	%rdx, 304(%rbx)
	cmpq	$62, %rax
	jne	.Lnoise_BB_v4_6_72
	movl	%r8d, %edi
	movq	32(%rbx), %r8
	movq	40(%rbx), %rdx
	movq	%rbx, %rcx
	movq	%r9, %rsi
	movl	%r10d, %ebp
	movl	%r11d, %r14d
	vzeroupper
	callq	"rand_chacha::guts::refill4.v4"
	movl	%r14d, %r11d
	movl	%ebp, %r10d
	movl	%edi, %r8d
	movq	%rsi, %r9
	addq	$4, 40(%rbx)
	movl	48(%rbx), %eax
	movl	%eax, 56(%rsp)
	movl	$1, %ecx
	jmp	.Lnoise_BB_v4_6_74
.Lnoise_BB_v4_6_72:
	movl	64(%rbx,%rcx,4), %eax
	movl	%eax, 56(%rsp)
	leaq	5(%rcx), %rax
	movq	%rax, 304(%rbx)
	cmpq	$59, %rcx
	jb	.Lnoise_BB_v4_6_75
	movl	%r8d, %edi
	movq	32(%rbx), %r8
	movq	40(%rbx), %rdx
	movq	%rbx, %rcx
	movq	%r9, %rsi
	movl	%r10d, %ebp
	movl	%r11d, %r14d
	vzeroupper
	callq	"rand_chacha::guts::refill4.v4"
	movl	%r14d, %r11d
	movl	%ebp, %r10d
	movl	%edi, %r8d
	movq	%rsi, %r9
	addq	$4, 40(%rbx)
	xorl	%ecx, %ecx
.Lnoise_BB_v4_6_74:
	leaq	1(%rcx), %rax
	movl	36(%rsp), %edx
	jmp	.Lnoise_BB_v4_6_65
.Lnoise_BB_v4_6_75:
	movl	68(%rbx,%rcx,4), %eax
	movl	%eax, 68(%rsp)
	leaq	6(%rcx), %rax
	movq	%rax, 304(%rbx)
	cmpq	$62, %rdx
	jne	.Lnoise_BB_v4_6_77
	movl	%r8d, %edi
	movq	32(%rbx), %r8
	movq	40(%rbx), %rdx
	movq	%rbx, %rcx
	movq	%r9, %rsi
	movl	%r10d, %ebp
	movl	%r11d, %r14d
	vzeroupper
	callq	"rand_chacha::guts::refill4.v4"
	movl	%r14d, %r11d
	movl	%ebp, %r10d
	movl	%edi, %r8d
	movq	%rsi, %r9
	addq	$4, 40(%rbx)
	movl	48(%rbx), %eax
	movl	%eax, 52(%rsp)
	movl	$1, %ecx
	jmp	.Lnoise_BB_v4_6_79
.Lnoise_BB_v4_6_77:
	movl	72(%rbx,%rcx,4), %edx
	movl	%edx, 52(%rsp)
	leaq	7(%rcx), %rdx
	movq	%rdx, 304(%rbx)
	cmpq	$57, %rcx
	jb	.Lnoise_BB_v4_6_80
	movl	%r8d, %edi
	movq	32(%rbx), %r8
	movq	40(%rbx), %rdx
	movq	%rbx, %rcx
	movq	%r9, %rsi
	movl	%r10d, %ebp
	movl	%r11d, %r14d
	vzeroupper
	callq	"rand_chacha::guts::refill4.v4"
	movl	%r14d, %r11d
	movl	%ebp, %r10d
	movl	%edi, %r8d
	movq	%rsi, %r9
	addq	$4, 40(%rbx)
	xorl	%ecx, %ecx
.Lnoise_BB_v4_6_79:
	leaq	1(%rcx), %rax
	movl	36(%rsp), %edx
	jmp	.Lnoise_BB_v4_6_66
.Lnoise_BB_v4_6_80:
	movl	76(%rbx,%rcx,4), %edx
	movl	%edx, 64(%rsp)
	leaq	8(%rcx), %rdx
	movq	%rdx, 304(%rbx)
	cmpq	$62, %rax
	jne	.Lnoise_BB_v4_6_82
	movl	%r8d, %edi
	movq	32(%rbx), %r8
	movq	40(%rbx), %rdx
	movq	%rbx, %rcx
	movq	%r9, %rsi
	movl	%r10d, %ebp
	movl	%r11d, %r14d
	vzeroupper
	callq	"rand_chacha::guts::refill4.v4"
	movl	%r14d, %r11d
	movl	%ebp, %r10d
	movl	%edi, %r8d
	movq	%rsi, %r9
	addq	$4, 40(%rbx)
	movl	48(%rbx), %eax
	movl	%eax, 48(%rsp)
	movl	$1, %ecx
	jmp	.Lnoise_BB_v4_6_84
.Lnoise_BB_v4_6_82:
	movl	80(%rbx,%rcx,4), %eax
	movl	%eax, 48(%rsp)
	leaq	9(%rcx), %rax
	movq	%rax, 304(%rbx)
	cmpq	$55, %rcx
	jb	.Lnoise_BB_v4_6_85
	movl	%r8d, %edi
	movq	32(%rbx), %r8
	movq	40(%rbx), %rdx
	movq	%rbx, %rcx
	movq	%r9, %rsi
	movl	%r10d, %ebp
	movl	%r11d, %r14d
	vzeroupper
	callq	"rand_chacha::guts::refill4.v4"
	movl	%r14d, %r11d
	movl	%ebp, %r10d
	movl	%edi, %r8d
	movq	%rsi, %r9
	addq	$4, 40(%rbx)
	xorl	%ecx, %ecx
.Lnoise_BB_v4_6_84:
	leaq	1(%rcx), %rax
	movl	36(%rsp), %edx
	jmp	.Lnoise_BB_v4_6_67
.Lnoise_BB_v4_6_85:
	movl	84(%rbx,%rcx,4), %esi
	leaq	10(%rcx), %rax
	movq	%rax, 304(%rbx)
	cmpq	$62, %rdx
	jne	.Lnoise_BB_v4_6_87
	movl	%r8d, %ebp
	movq	32(%rbx), %r8
	movq	40(%rbx), %rdx
	movq	%rbx, %rcx
	movq	%r9, %rdi
	movl	%r10d, %r14d
	movl	%r11d, %r15d
	vzeroupper
	callq	"rand_chacha::guts::refill4.v4"
	movl	%r15d, %r11d
	movl	%r14d, %r10d
	movl	%ebp, %r8d
	movq	%rdi, %r9
	addq	$4, 40(%rbx)
	movl	48(%rbx), %edi
	movl	$1, %ecx
	jmp	.Lnoise_BB_v4_6_89
.Lnoise_BB_v4_6_87:
	movl	88(%rbx,%rcx,4), %edi
	leaq	11(%rcx), %rdx
	movq	%rdx, 304(%rbx)
	cmpq	$53, %rcx
	jb	.Lnoise_BB_v4_6_90
	movl	%r8d, %ebp
	movq	32(%rbx), %r8
	movq	40(%rbx), %rdx
	movq	%rbx, %rcx
	movq	%r9, %r14
	movl	%r10d, %r15d
	movl	%r11d, %r13d
	vzeroupper
	callq	"rand_chacha::guts::refill4.v4"
	movl	%r13d, %r11d
	movl	%r15d, %r10d
	movl	%ebp, %r8d
	movq	%r14, %r9
	addq	$4, 40(%rbx)
	xorl	%ecx, %ecx
.Lnoise_BB_v4_6_89:
	leaq	1(%rcx), %rax
	movl	36(%rsp), %edx
	jmp	.Lnoise_BB_v4_6_68
.Lnoise_BB_v4_6_90:
	movl	92(%rbx,%rcx,4), %ebp
	leaq	12(%rcx), %rdx
	movq	%rdx, 304(%rbx)
	cmpq	$62, %rax
	movl	%r8d, 44(%rsp)
	jne	.Lnoise_BB_v4_6_93
	movq	32(%rbx), %r8
	movq	40(%rbx), %rdx
	movq	%rbx, %rcx
	movq	%r9, %r14
	movl	%r10d, %r13d
	movl	%r11d, %r15d
	vzeroupper
	callq	"rand_chacha::guts::refill4.v4"
	movl	%r15d, %r11d
	movl	%r13d, %r10d
	movl	44(%rsp), %r8d
	movq	%r14, %r9
	addq	$4, 40(%rbx)
	movl	48(%rbx), %r13d
	movl	$1, %ecx
	jmp	.Lnoise_BB_v4_6_92
.Lnoise_BB_v4_6_93:
	movl	96(%rbx,%rcx,4), %r13d
	leaq	13(%rcx), %rax
	movq	%rax, 304(%rbx)
	cmpq	$51, %rcx
	jb	.Lnoise_BB_v4_6_95
	movq	32(%rbx), %r8
	movq	40(%rbx), %rdx
	movq	%rbx, %rcx
	movq	%r9, %r14
	movl	%r10d, 72(%rsp)
	movl	%r11d, %r15d
	vzeroupper
	callq	"rand_chacha::guts::refill4.v4"
	movl	%r15d, %r11d
	movl	72(%rsp), %r10d
	movl	44(%rsp), %r8d
	movq	%r14, %r9
	addq	$4, 40(%rbx)
	xorl	%ecx, %ecx
.Lnoise_BB_v4_6_92:
	leaq	1(%rcx), %rax
	movl	36(%rsp), %edx
	jmp	.Lnoise_BB_v4_6_69
.Lnoise_BB_v4_6_95:
	movl	100(%rbx,%rcx,4), %r14d
	leaq	14(%rcx), %rax
	movq	%rax, 304(%rbx)
	cmpq	$62, %rdx
	jne	.Lnoise_BB_v4_6_97
	movq	32(%rbx), %r8
	movq	40(%rbx), %rdx
	movq	%rbx, %rcx
	movq	%r9, %r15
	movl	%r10d, 72(%rsp)
	movl	%r11d, 40(%rsp)
	vzeroupper
	callq	"rand_chacha::guts::refill4.v4"
	movl	40(%rsp), %r11d
	movl	72(%rsp), %r10d
	movl	44(%rsp), %r8d
	movq	%r15, %r9
	addq	$4, 40(%rbx)
	movl	48(%rbx), %r15d
	movq	$1, 304(%rbx)
	movl	$1, %eax
	jmp	.Lnoise_BB_v4_6_99
.Lnoise_BB_v4_6_97:
	movl	104(%rbx,%rcx,4), %r15d
	leaq	15(%rcx), %rax
	movq	%rax, 304(%rbx)
	cmpq	$49, %rcx
	jb	.Lnoise_BB_v4_6_99
	movq	32(%rbx), %r8
	movq	40(%rbx), %rdx
	movq	%rbx, %rcx
	leaq	48(%rbx), %r9
	movl	%r10d, 72(%rsp)
	movl	%r11d, 40(%rsp)
	vzeroupper
	callq	"rand_chacha::guts::refill4.v4"
	movl	40(%rsp), %r11d
	movl	72(%rsp), %r10d
	movl	44(%rsp), %r8d
	leaq	48(%rbx), %r9
	addq	$4, 40(%rbx)
	xorl	%eax, %eax
.Lnoise_BB_v4_6_99:
	movl	36(%rsp), %edx
	jmp	.Lnoise_BB_v4_6_100
.Lnoise_BB_v4_6_101:
	movq	104(%rsp), %rax
	movq	%rax, %r15
	andq	$63, %r15
	je	.Lnoise_BB_v4_6_154
	andq	$-64, %rax
	movq	%rax, 88(%rsp)
	vpxor	%xmm0, %xmm0, %xmm0
	vmovdqu	%ymm0, 144(%rsp)
	vmovdqu	%ymm0, 112(%rsp)
	movq	304(%rbx), %rcx
	cmpq	$64, %rcx
	jb	.Lnoise_BB_v4_6_104
	movq	32(%rbx), %r8
	movq	40(%rbx), %rdx
	leaq	48(%rbx), %r14
	movq	%rbx, %rcx
	movq	%r14, %r9
	vzeroupper
	callq	"rand_chacha::guts::refill4.v4"
	addq	$4, 40(%rbx)
	movl	48(%rbx), %edx
	movl	$1, %eax
	jmp	.Lnoise_BB_v4_6_106
.Lnoise_BB_v4_6_104:
	leaq	48(%rbx), %r14
	movl	48(%rbx,%rcx,4), %edx
	leaq	1(%rcx), %rax
	movq	%rax, 304(%rbx)
	cmpq	$63, %rcx
	jne	.Lnoise_BB_v4_6_107
	movq	32(%rbx), %r8
	movl	%edx, %esi
	movq	40(%rbx), %rdx
	movq	%rbx, %rcx
	movq	%r14, %r9
	vzeroupper
	callq	"rand_chacha::guts::refill4.v4"
	movl	%esi, %edx
	addq	$4, 40(%rbx)
	xorl	%eax, %eax
.Lnoise_BB_v4_6_106:
	movl	48(%rbx,%rax,4), %r8d
	leaq	1(%rax), %rcx
	movq	%rcx, 304(%rbx)
	movl	52(%rbx,%rax,4), %r9d
	leaq	2(%rax), %rcx
	movq	%rcx, 304(%rbx)
	leaq	(%rbx,%rax,4), %rcx
	addq	$56, %rcx
	addq	$3, %rax
.Lnoise_BB_v4_6_112:
	movl	(%rcx), %r10d
	movq	%rax, 304(%rbx)
	movl	(%r14,%rax,4), %r11d
	leaq	1(%rax), %rcx
	movq	%rcx, 304(%rbx)
	leaq	(%r14,%rax,4), %rcx
	addq	$4, %rcx
	addq	$2, %rax
.Lnoise_BB_v4_6_118:
	movl	(%rcx), %ecx
	movl	%ecx, 56(%rsp)
	movq	%rax, 304(%rbx)
	movl	(%r14,%rax,4), %ecx
	movl	%ecx, 68(%rsp)
	leaq	1(%rax), %rcx
	movq	%rcx, 304(%rbx)
	leaq	(%r14,%rax,4), %rcx
	addq	$4, %rcx
	addq	$2, %rax
.Lnoise_BB_v4_6_124:
	movl	(%rcx), %ecx
	movl	%ecx, 52(%rsp)
	movq	%rax, 304(%rbx)
	movl	(%r14,%rax,4), %ecx
	movl	%ecx, 64(%rsp)
	leaq	1(%rax), %rcx
	movq	%rcx, 304(%rbx)
	leaq	(%r14,%rax,4), %rcx
	addq	$4, %rcx
	addq	$2, %rax
.Lnoise_BB_v4_6_130:
	movl	(%rcx), %ecx
	movl	%ecx, 48(%rsp)
	movq	%rax, 304(%rbx)
	movl	(%r14,%rax,4), %r13d
	leaq	1(%rax), %rcx
	movq	%rcx, 304(%rbx)
	leaq	(%r14,%rax,4), %rcx
	addq	$4, %rcx
	addq	$2, %rax
.Lnoise_BB_v4_6_136:
	movl	(%rcx), %esi
	movq	%rax, 304(%rbx)
	movl	(%r14,%rax,4), %ebp
	leaq	1(%rax), %rcx
	movq	%rcx, 304(%rbx)
	leaq	(%r14,%rax,4), %rcx
	addq	$4, %rcx
	addq	$2, %rax
.Lnoise_BB_v4_6_142:
	movl	(%rcx), %r12d
	movq	%rax, 304(%rbx)
	movl	(%r14,%rax,4), %edi
	incq	%rax
	movq	%rax, 304(%rbx)
.Lnoise_BB_v4_6_148:
	vmovd	%edx, %xmm0
	vpinsrd	$1, %r8d, %xmm0, %xmm0
	vpinsrd	$2, %r9d, %xmm0, %xmm0
	vpinsrd	$3, %r10d, %xmm0, %xmm0
	vmovd	%r11d, %xmm1
	vpinsrd	$1, 56(%rsp), %xmm1, %xmm1
	vpinsrd	$2, 68(%rsp), %xmm1, %xmm1
	vpinsrd	$3, 52(%rsp), %xmm1, %xmm1
	vmovd	64(%rsp), %xmm2
	vpinsrd	$1, 48(%rsp), %xmm2, %xmm2
	vpinsrd	$2, %r13d, %xmm2, %xmm2
	movl	(%r14,%rax,4), %ecx
	incq	%rax
	movq	%rax, 304(%rbx)
	vpinsrd	$3, %esi, %xmm2, %xmm2
	vmovd	%ebp, %xmm3
	vpinsrd	$1, %r12d, %xmm3, %xmm3
	vmovdqa	%xmm1, 128(%rsp)
	vmovdqa	%xmm0, 112(%rsp)
	vmovdqa	%xmm2, 144(%rsp)
	vmovq	%xmm3, 160(%rsp)
	movl	%edi, 168(%rsp)
	vpbroadcastd	%ecx, %xmm0
	movb	%cl, 172(%rsp)
	vpextrb	$13, %xmm0, 173(%rsp)
	vpextrb	$14, %xmm0, 174(%rsp)
	movq	96(%rsp), %rdx
	addq	88(%rsp), %rdx
	vpextrb	$15, %xmm0, 175(%rsp)
	cmpl	$8, %r15d
	jae	.Lnoise_BB_v4_6_150
	xorl	%r8d, %r8d
	jmp	.Lnoise_BB_v4_6_153
.Lnoise_BB_v4_6_150:
	movq	104(%rsp), %r8
	andl	$56, %r8d
	xorl	%eax, %eax
	.p2align	4
.Lnoise_BB_v4_6_151:
	movq	112(%rsp,%rax), %rcx
	xorq	%rcx, (%rdx,%rax)
	addq	$8, %rax
	cmpq	%rax, %r8
	jne	.Lnoise_BB_v4_6_151
	cmpl	%r8d, %r15d
	je	.Lnoise_BB_v4_6_154
	.p2align	4
.Lnoise_BB_v4_6_153:
	movzbl	112(%rsp,%r8), %eax
	xorb	%al, (%rdx,%r8)
	incq	%r8
	cmpq	%r8, %r15
	jne	.Lnoise_BB_v4_6_153
.Lnoise_BB_v4_6_154:
	addq	$184, %rsp
	popq	%rbx
	popq	%rbp
	popq	%rdi
	popq	%rsi
	popq	%r12
	popq	%r13
	popq	%r14
	popq	%r15
	vzeroupper
	retq
.Lnoise_BB_v4_6_107:
	movl	%edx, 36(%rsp)
	movl	52(%rbx,%rcx,4), %r8d
	leaq	2(%rcx), %rax
	movq	%rax, 304(%rbx)
	cmpq	$62, %rcx
	jb	.Lnoise_BB_v4_6_109
	movl	%r8d, %esi
	movq	32(%rbx), %r8
	movq	40(%rbx), %rdx
	movq	%rbx, %rcx
	movq	%r14, %r9
	vzeroupper
	callq	"rand_chacha::guts::refill4.v4"
	addq	$4, 40(%rbx)
	movl	48(%rbx), %r9d
	movq	$1, 304(%rbx)
	movl	$1, %eax
	jmp	.Lnoise_BB_v4_6_111
.Lnoise_BB_v4_6_109:
	movl	56(%rbx,%rcx,4), %r9d
	leaq	3(%rcx), %rdx
	movq	%rdx, 304(%rbx)
	cmpq	$61, %rcx
	jne	.Lnoise_BB_v4_6_113
	movl	%r8d, %esi
	movq	32(%rbx), %r8
	movq	40(%rbx), %rdx
	movq	%rbx, %rcx
	movl	%r9d, %edi
	movq	%r14, %r9
	vzeroupper
	callq	"rand_chacha::guts::refill4.v4"
	movl	%edi, %r9d
	addq	$4, 40(%rbx)
	xorl	%eax, %eax
.Lnoise_BB_v4_6_111:
	leaq	(%r14,%rax,4), %rcx
	incq	%rax
	movl	36(%rsp), %edx
	movl	%esi, %r8d
	jmp	.Lnoise_BB_v4_6_112
.Lnoise_BB_v4_6_113:
	movl	60(%rbx,%rcx,4), %r10d
	leaq	4(%rcx), %rdx
	movq	%rdx, 304(%rbx)
	cmpq	$62, %rax
	jne	.Lnoise_BB_v4_6_115
	movl	%r10d, %ebp
	movl	%r9d, %edi
	movl	%r8d, %esi
	movq	32(%rbx), %r8
	movq	40(%rbx), %rdx
	movq	%rbx, %rcx
	movq	%r14, %r9
	vzeroupper
	callq	"rand_chacha::guts::refill4.v4"
	addq	$4, 40(%rbx)
	movl	48(%rbx), %r11d
	movq	$1, 304(%rbx)
	movl	$1, %eax
	jmp	.Lnoise_BB_v4_6_117
.Lnoise_BB_v4_6_115:
	movl	64(%rbx,%rcx,4), %r11d
	leaq	5(%rcx), %rax
	movq	%rax, 304(%rbx)
	cmpq	$59, %rcx
	jb	.Lnoise_BB_v4_6_119
	movl	%r10d, %ebp
	movl	%r9d, %edi
	movl	%r8d, %esi
	movq	32(%rbx), %r8
	movq	40(%rbx), %rdx
	movq	%rbx, %rcx
	movq	%r14, %r9
	movl	%r11d, %r12d
	vzeroupper
	callq	"rand_chacha::guts::refill4.v4"
	movl	%r12d, %r11d
	addq	$4, 40(%rbx)
	xorl	%eax, %eax
.Lnoise_BB_v4_6_117:
	leaq	(%r14,%rax,4), %rcx
	incq	%rax
	movl	36(%rsp), %edx
	movl	%esi, %r8d
	movl	%edi, %r9d
	movl	%ebp, %r10d
	jmp	.Lnoise_BB_v4_6_118
.Lnoise_BB_v4_6_119:
	movl	68(%rbx,%rcx,4), %eax
	movl	%eax, 56(%rsp)
	leaq	6(%rcx), %rax
	movq	%rax, 304(%rbx)
	cmpq	$62, %rdx
	jne	.Lnoise_BB_v4_6_121
	movl	%r11d, %r12d
	movl	%r10d, %ebp
	movl	%r9d, %edi
	movl	%r8d, %esi
	movq	32(%rbx), %r8
	movq	40(%rbx), %rdx
	movq	%rbx, %rcx
	movq	%r14, %r9
	vzeroupper
	callq	"rand_chacha::guts::refill4.v4"
	addq	$4, 40(%rbx)
	movl	48(%rbx), %eax
	movl	%eax, 68(%rsp)
	movq	$1, 304(%rbx)
	movl	$1, %eax
	jmp	.Lnoise_BB_v4_6_123
.Lnoise_BB_v4_6_121:
	movl	72(%rbx,%rcx,4), %edx
	movl	%edx, 68(%rsp)
	leaq	7(%rcx), %rdx
	movq	%rdx, 304(%rbx)
	cmpq	$57, %rcx
	jb	.Lnoise_BB_v4_6_125
	movl	%r11d, %r12d
	movl	%r10d, %ebp
	movl	%r9d, %edi
	movl	%r8d, %esi
	movq	32(%rbx), %r8
	movq	40(%rbx), %rdx
	movq	%rbx, %rcx
	movq	%r14, %r9
	vzeroupper
	callq	"rand_chacha::guts::refill4.v4"
	addq	$4, 40(%rbx)
	xorl	%eax, %eax
.Lnoise_BB_v4_6_123:
	leaq	(%r14,%rax,4), %rcx
	incq	%rax
	movl	36(%rsp), %edx
	movl	%esi, %r8d
	movl	%edi, %r9d
	movl	%ebp, %r10d
	movl	%r12d, %r11d
	jmp	.Lnoise_BB_v4_6_124
.Lnoise_BB_v4_6_125:
	movl	76(%rbx,%rcx,4), %edx
	movl	%edx, 52(%rsp)
	leaq	8(%rcx), %rdx
	movq	%rdx, 304(%rbx)
	cmpq	$62, %rax
	jne	.Lnoise_BB_v4_6_127
	movl	%r11d, %r12d
	movl	%r10d, %ebp
	movl	%r9d, %edi
	movl	%r8d, %esi
	movq	32(%rbx), %r8
	movq	40(%rbx), %rdx
	movq	%rbx, %rcx
	movq	%r14, %r9
	vzeroupper
	callq	"rand_chacha::guts::refill4.v4"
	addq	$4, 40(%rbx)
	movl	48(%rbx), %eax
	movl	%eax, 64(%rsp)
	movq	$1, 304(%rbx)
	movl	$1, %eax
	jmp	.Lnoise_BB_v4_6_129
.Lnoise_BB_v4_6_127:
	movl	80(%rbx,%rcx,4), %eax
	movl	%eax, 64(%rsp)
	leaq	9(%rcx), %rax
	movq	%rax, 304(%rbx)
	cmpq	$55, %rcx
	jb	.Lnoise_BB_v4_6_131
	movl	%r11d, %r12d
	movl	%r10d, %ebp
	movl	%r9d, %edi
	movl	%r8d, %esi
	movq	32(%rbx), %r8
	movq	40(%rbx), %rdx
	movq	%rbx, %rcx
	movq	%r14, %r9
	vzeroupper
	callq	"rand_chacha::guts::refill4.v4"
	addq	$4, 40(%rbx)
	xorl	%eax, %eax
.Lnoise_BB_v4_6_129:
	leaq	(%r14,%rax,4), %rcx
	incq	%rax
	movl	36(%rsp), %edx
	movl	%esi, %r8d
	movl	%edi, %r9d
	movl	%ebp, %r10d
	movl	%r12d, %r11d
	jmp	.Lnoise_BB_v4_6_130
.Lnoise_BB_v4_6_131:
	movl	84(%rbx,%rcx,4), %eax
	movl	%eax, 48(%rsp)
	leaq	10(%rcx), %rax
	movq	%rax, 304(%rbx)
	cmpq	$62, %rdx
	jne	.Lnoise_BB_v4_6_133
	movl	%r11d, %r12d
	movl	%r10d, %ebp
	movl	%r9d, %edi
	movl	%r8d, %esi
	movq	32(%rbx), %r8
	movq	40(%rbx), %rdx
	movq	%rbx, %rcx
	movq	%r14, %r9
	vzeroupper
	callq	"rand_chacha::guts::refill4.v4"
	addq	$4, 40(%rbx)
	movl	48(%rbx), %r13d
	movq	$1, 304(%rbx)
	movl	$1, %eax
	jmp	.Lnoise_BB_v4_6_135
.Lnoise_BB_v4_6_133:
	movl	88(%rbx,%rcx,4), %r13d
	leaq	11(%rcx), %rdx
	movq	%rdx, 304(%rbx)
	cmpq	$53, %rcx
	jb	.Lnoise_BB_v4_6_137
	movl	%r11d, %r12d
	movl	%r10d, %ebp
	movl	%r9d, %edi
	movl	%r8d, %esi
	movq	32(%rbx), %r8
	movq	40(%rbx), %rdx
	movq	%rbx, %rcx
	movq	%r14, %r9
	vzeroupper
	callq	"rand_chacha::guts::refill4.v4"
	addq	$4, 40(%rbx)
	xorl	%eax, %eax
.Lnoise_BB_v4_6_135:
	leaq	(%r14,%rax,4), %rcx
	incq	%rax
	movl	36(%rsp), %edx
	movl	%esi, %r8d
	movl	%edi, %r9d
	movl	%ebp, %r10d
	movl	%r12d, %r11d
	jmp	.Lnoise_BB_v4_6_136
.Lnoise_BB_v4_6_137:
	movl	%r11d, 60(%rsp)
	movl	%r10d, 40(%rsp)
	movl	%r9d, 72(%rsp)
	movl	%r8d, 44(%rsp)
	movl	92(%rbx,%rcx,4), %esi
	leaq	12(%rcx), %rdx
	movq	%rdx, 304(%rbx)
	cmpq	$62, %rax
	jne	.Lnoise_BB_v4_6_139
	movq	32(%rbx), %r8
	movq	40(%rbx), %rdx
	movq	%rbx, %rcx
	movq	%r14, %r9
	vzeroupper
	callq	"rand_chacha::guts::refill4.v4"
	addq	$4, 40(%rbx)
	movl	48(%rbx), %ebp
	movq	$1, 304(%rbx)
	movl	$1, %eax
	jmp	.Lnoise_BB_v4_6_141
.Lnoise_BB_v4_6_139:
	movl	96(%rbx,%rcx,4), %ebp
	leaq	13(%rcx), %rax
	movq	%rax, 304(%rbx)
	cmpq	$51, %rcx
	jb	.Lnoise_BB_v4_6_143
	movq	32(%rbx), %r8
	movq	40(%rbx), %rdx
	movq	%rbx, %rcx
	movq	%r14, %r9
	vzeroupper
	callq	"rand_chacha::guts::refill4.v4"
	addq	$4, 40(%rbx)
	xorl	%eax, %eax
.Lnoise_BB_v4_6_141:
	leaq	(%r14,%rax,4), %rcx
	incq	%rax
	movl	36(%rsp), %edx
	movl	44(%rsp), %r8d
	movl	72(%rsp), %r9d
	movl	40(%rsp), %r10d
	movl	60(%rsp), %r11d
	jmp	.Lnoise_BB_v4_6_142
.Lnoise_BB_v4_6_143:
	movl	100(%rbx,%rcx,4), %r12d
	leaq	14(%rcx), %rax
	movq	%rax, 304(%rbx)
	cmpq	$62, %rdx
	jne	.Lnoise_BB_v4_6_145
	movq	32(%rbx), %r8
	movq	40(%rbx), %rdx
	movq	%rbx, %rcx
	movq	%r14, %r9
	vzeroupper
	callq	"rand_chacha::guts::refill4.v4"
	addq	$4, 40(%rbx)
	movl	48(%rbx), %edi
	movq	$1, 304(%rbx)
	movl	$1, %eax
	jmp	.Lnoise_BB_v4_6_147
.Lnoise_BB_v4_6_145:
	movl	104(%rbx,%rcx,4), %edi
	leaq	15(%rcx), %rax
	movq	%rax, 304(%rbx)
	cmpq	$49, %rcx
	jb	.Lnoise_BB_v4_6_147
	movq	32(%rbx), %r8
	movq	40(%rbx), %rdx
	movq	%rbx, %rcx
	movq	%r14, %r9
	vzeroupper
	callq	"rand_chacha::guts::refill4.v4"
	addq	$4, 40(%rbx)
	xorl	%eax, %eax
.Lnoise_BB_v4_6_147:
	movl	36(%rsp), %edx
	movl	44(%rsp), %r8d
	movl	72(%rsp), %r9d
	movl	40(%rsp), %r10d
	movl	60(%rsp), %r11d
	jmp	.Lnoise_BB_v4_6_148
	.seh_endproc

	.section	.rdata,"dr"
	.p2align	4, 0x0
.Lnoise_CPI_v4_2_4:
	.long	0
	.long	7
	.def	"noise_aead::authenticator::tag.v4";
	.scl	3;
	.type	32;
	.endef
	.text
	.p2align	4
"noise_aead::authenticator::tag.v4":
.seh_proc "noise_aead::authenticator::tag.v4"
	pushq	%r15
	.seh_pushreg %r15
	pushq	%r14
	.seh_pushreg %r14
	pushq	%r13
	.seh_pushreg %r13
	pushq	%r12
	.seh_pushreg %r12
	pushq	%rsi
	.seh_pushreg %rsi
	pushq	%rdi
	.seh_pushreg %rdi
	pushq	%rbp
	.seh_pushreg %rbp
	pushq	%rbx
	.seh_pushreg %rbx
	subq	$216, %rsp
	.seh_stackalloc 216
	.seh_endprologue
	movq	%r9, %rdi
	movq	%rcx, 56(%rsp)
	movq	320(%rsp), %r15
	vmovups	(%rdx), %xmm0
	vmovups	16(%rdx), %xmm1
	movq	328(%rsp), %rbx
	vandps	.Lnoise_CPI2_0(%rip), %xmm0, %xmm0
	vxorps	%xmm2, %xmm2, %xmm2
	vmovups	%ymm2, 80(%rsp)
	vmovaps	%xmm0, 112(%rsp)
	vmovaps	%xmm1, 128(%rsp)
	vmovups	%ymm2, 144(%rsp)
	leaq	80(%rsp), %r14
	movq	%r14, %rcx
	movq	%r8, %rdx
	movq	%r9, %r8
	vzeroupper
	callq	"noise_poly::Poly1305::update"
	movl	%edi, %r8d
	negl	%r8d
	andl	$15, %r8d
	leaq	.Lnoise_static.0(%rip), %r12
	movq	%r14, %rcx
	movq	%r12, %rdx
	callq	"noise_poly::Poly1305::update"
	movq	%r14, %rcx
	movq	%r15, %rdx
	movq	%rbx, %r8
	callq	"noise_poly::Poly1305::update"
	movl	%ebx, %r8d
	negl	%r8d
	andl	$15, %r8d
	movq	%r14, %rcx
	movq	%r12, %rdx
	callq	"noise_poly::Poly1305::update"
	movq	%rdi, 64(%rsp)
	movq	%rbx, 72(%rsp)
	leaq	64(%rsp), %rdx
	movl	$16, %ebp
	movl	$16, %r8d
	movq	%r14, %rcx
	callq	"noise_poly::Poly1305::update"
	movq	80(%rsp), %rbx
	movq	88(%rsp), %rdi
	movq	96(%rsp), %r13
	movq	120(%rsp), %rsi
	movq	112(%rsp), %rax
	movq	136(%rsp), %r15
	movq	128(%rsp), %r12
	vmovups	144(%rsp), %ymm0
	vmovups	%ymm0, 176(%rsp)
	movq	192(%rsp), %r14
	testq	%r14, %r14
	je	.Lnoise_BB_v4_2_2
	subq	%r14, %rbp
	cmpq	$16, %r14
	movl	$0, %r8d
	cmovbq	%rbp, %r8
	leaq	(%rsp,%r14), %rcx
	addq	$32, %rcx
	xorl	%edx, %edx
	movq	%rax, %rbp
	vzeroupper
	callq	memset
	leaq	32(%rsp), %rcx
	leaq	176(%rsp), %rdx
	movq	%r14, %r8
	callq	memcpy
	movb	$1, 32(%rsp,%r14)
	addq	32(%rsp), %rbx
	adcq	40(%rsp), %rdi
	adcq	$0, %r13
	movq	%rsi, %rax
	shrq	$2, %rax
	addq	%rsi, %rax
	movq	%rbx, %rdx
	mulxq	%rbp, %r10, %r9
	movq	%rdi, %rdx
	mulxq	%rax, %rcx, %r8
	movq	%rbx, %rdx
	mulxq	%rsi, %rsi, %r11
	movq	%rdi, %rdx
	mulxq	%rbp, %rdx, %rdi
	addq	%r10, %rcx
	adcq	%r9, %r8
	addq	%rsi, %rdx
	adcq	%r11, %rdi
	imulq	%r13, %rax
	addq	%rdx, %rax
	adcq	$0, %rdi
	imulq	%rbp, %r13
	movq	%rax, %rdx
	addq	%r8, %rdx
	adcq	%rdi, %r13
	movq	%r13, %r9
	shrq	$2, %r9
	leaq	(%r9,%r9,4), %r9
	movq	%r9, %r10
	addq	%rcx, %r10
	adcq	%r8, %rax
	andl	$3, %r13d
	addq	%r9, %rcx
	adcq	$0, %rdx
	adcq	$0, %r13
	movq	%rcx, %rbx
	movq	%rax, %rdi
.Lnoise_BB_v4_2_2:
	movq	%r13, %rax
	shrq	$2, %rax
	leaq	(%rax,%rax,4), %rax
	addq	$5, %rax
	addq	%rbx, %rax
	movq	%rdi, %rax
	adcq	$0, %rax
	adcq	$0, %r13
	shrq	$2, %r13
	leaq	(,%r13,4), %rax
	addq	%r13, %rax
	addq	%rbx, %r12
	adcq	%rdi, %r15
	addq	%rax, %r12
	adcq	$0, %r15
	movq	%r15, %rcx
	shldq	$56, %r12, %rcx
	movq	%r15, %r8
	shldq	$48, %r12, %r8
	movq	%r15, %r9
	shldq	$40, %r12, %r9
	movq	%r15, %r10
	shldq	$32, %r12, %r10
	movq	%r15, %r11
	shldq	$24, %r12, %r11
	movq	%r15, %rsi
	shldq	$16, %r12, %rsi
	movq	%r15, %rdi
	shldq	$8, %r12, %rdi
	movq	%r15, %rax
	shrq	$32, %rax
	movq	%r15, %rdx
	shrq	$40, %rdx
	movq	%r15, %rbx
	shrq	$48, %rbx
	movq	%r15, %r14
	shrq	$56, %r14
	vmovq	%rdi, %xmm0
	vmovq	%rsi, %xmm1
	vpunpcklqdq	%xmm0, %xmm1, %xmm0
	vpbroadcastd	.Lnoise_CPI_v3_2_5(%rip), %xmm1
	vpshufb	%xmm1, %xmm0, %xmm0
	vmovq	%r11, %xmm2
	vmovq	%r10, %xmm3
	vpunpcklqdq	%xmm2, %xmm3, %xmm2
	vpshufb	%xmm1, %xmm2, %xmm1
	vmovq	%r9, %xmm2
	vmovq	%r8, %xmm3
	vpunpcklqdq	%xmm2, %xmm3, %xmm2
	vpshufb	.Lnoise_CPI_v3_2_2(%rip), %xmm2, %xmm2
	vpblendw	$8, %xmm0, %xmm1, %xmm0
	vmovq	%rcx, %xmm1
	vmovq	%r12, %xmm3
	vpunpcklbw	%xmm1, %xmm3, %xmm1
	vpblendw	$2, %xmm2, %xmm1, %xmm1
	vpblendd	$2, %xmm0, %xmm1, %xmm0
	vmovd	%r14d, %xmm1
	vmovd	%ebx, %xmm2
	vpunpcklqdq	%xmm1, %xmm2, %xmm1
	vpbroadcastd	.Lnoise_CPI_v3_2_5(%rip), %xmm2
	vpshufb	%xmm2, %xmm1, %xmm1
	vmovd	%edx, %xmm3
	vmovd	%eax, %xmm4
	vpunpcklqdq	%xmm3, %xmm4, %xmm3
	vpshufb	%xmm2, %xmm3, %xmm2
	vpblendw	$128, %xmm1, %xmm2, %xmm1
	vmovq	%r15, %xmm2
	vpbroadcastq	.Lnoise_CPI_v4_2_4(%rip), %xmm3
	vpermi2d	%xmm1, %xmm2, %xmm3
	vpblendd	$12, %xmm3, %xmm0, %xmm0
	movq	56(%rsp), %rax
	vmovdqu	%xmm0, (%rax)
	addq	$216, %rsp
	popq	%rbx
	popq	%rbp
	popq	%rdi
	popq	%rsi
	popq	%r12
	popq	%r13
	popq	%r14
	popq	%r15
	vzeroupper
	retq
	.seh_endproc

	.section	.rdata,"dr"
	.p2align	5, 0x0
.Lnoise_CPI_v4_5_0:
	.quad	1
	.quad	3
	.quad	5
	.quad	7
	.section	.rdata,"dr"
	.p2align	5, 0x0
.Lnoise_CPI_v4_5_2:
	.quad	67108863
	.zero	16
	.section	.rdata,"dr"
	.p2align	5, 0x0
.Lnoise_CPI_v4_5_3:
	.quad	0
	.quad	2
	.quad	4
	.quad	6
	.def	"noise_poly::Poly1305::take_eights.v4";
	.scl	3;
	.type	32;
	.endef
	.text
	.p2align	4
"noise_poly::Poly1305::take_eights.v4":
.seh_proc "noise_poly::Poly1305::take_eights.v4"
	pushq	%r15
	.seh_pushreg %r15
	pushq	%r14
	.seh_pushreg %r14
	pushq	%r13
	.seh_pushreg %r13
	pushq	%r12
	.seh_pushreg %r12
	pushq	%rsi
	.seh_pushreg %rsi
	pushq	%rdi
	.seh_pushreg %rdi
	pushq	%rbp
	.seh_pushreg %rbp
	pushq	%rbx
	.seh_pushreg %rbx
	subq	$360, %rsp
	.seh_stackalloc 360
	vmovdqa	%xmm15, 336(%rsp)
	.seh_savexmm %xmm15, 336
	vmovaps	%xmm14, 320(%rsp)
	.seh_savexmm %xmm14, 320
	vmovaps	%xmm13, 304(%rsp)
	.seh_savexmm %xmm13, 304
	vmovaps	%xmm12, 288(%rsp)
	.seh_savexmm %xmm12, 288
	vmovaps	%xmm11, 272(%rsp)
	.seh_savexmm %xmm11, 272
	vmovaps	%xmm10, 256(%rsp)
	.seh_savexmm %xmm10, 256
	vmovaps	%xmm9, 240(%rsp)
	.seh_savexmm %xmm9, 240
	vmovaps	%xmm8, 224(%rsp)
	.seh_savexmm %xmm8, 224
	vmovaps	%xmm7, 208(%rsp)
	.seh_savexmm %xmm7, 208
	vmovaps	%xmm6, 192(%rsp)
	.seh_savexmm %xmm6, 192
	.seh_endprologue
	movq	%r8, %rsi
	movq	%rdx, %rax
	movq	40(%rcx), %r8
	movq	32(%rcx), %r9
	movl	%r9d, %ebx
	andl	$67108863, %ebx
	movq	%r9, %r14
	shrq	$26, %r14
	andl	$67108863, %r14d
	movl	%r8d, %edx
	shll	$12, %edx
	movq	%r9, 104(%rsp)
	movq	%r9, %r15
	shrq	$52, %r15
	orl	%edx, %r15d
	andl	$67108863, %r15d
	movq	%r8, %r12
	shrq	$14, %r12
	andl	$67108863, %r12d
	movq	%r8, 112(%rsp)
	movq	%r8, %r13
	shrq	$40, %r13
	leaq	(,%r13,4), %r10
	addq	%r13, %r10
	vmovdqa	.Lnoise_CPI_v4_5_0(%rip), %ymm0
	vmovdqu64	(%rax), %zmm16
	vpermq	%zmm16, %zmm0, %zmm17
	vpsrlq	$40, %ymm17, %ymm1
	vporq	.Lnoise_CPI_v3s_5_0(%rip){1to4}, %ymm1, %ymm3
	movl	16(%rcx), %r9d
	shll	$24, %r9d
	movq	(%rcx), %rdx
	movq	%rcx, 120(%rsp)
	movq	8(%rcx), %r8
	movq	%r8, %r11
	shrq	$40, %r11
	orq	%r9, %r11
	vmovq	%xmm3, %r9
	addq	%r11, %r9
	vmovq	%r9, %xmm4
	vpsrlq	$14, %ymm17, %ymm2
	vpbroadcastq	.Lnoise_CPI_v4_5_2(%rip), %ymm1
	vpand	%ymm1, %ymm2, %ymm5
	vmovq	%xmm5, %r9
	movq	%r8, %r11
	shrq	$14, %r11
	andl	$67108863, %r11d
	addl	%r11d, %r9d
	vmovd	%r9d, %xmm6
	vmovdqa	.Lnoise_CPI_v4_5_3(%rip), %ymm0
	vpermq	%zmm16, %zmm0, %zmm16
	vpsrlq	$52, %ymm16, %ymm18
	vpsllq	$12, %ymm17, %ymm7
	vpternlogq	$200, %ymm18, %ymm1, %ymm7
	vmovq	%xmm7, %r9
	shldq	$12, %rdx, %r8
	andl	$67108863, %r8d
	addl	%r8d, %r9d
	vmovd	%r9d, %xmm8
	vpsrlq	$26, %ymm16, %ymm17
	vpandq	%ymm1, %ymm17, %ymm9
	vmovq	%xmm9, %r8
	movq	%rdx, %r9
	shrq	$26, %r9
	andl	$67108863, %r9d
	addl	%r9d, %r8d
	vmovd	%r8d, %xmm10
	vpandq	%ymm1, %ymm16, %ymm11
	vmovq	%xmm11, %r8
	andl	$67108863, %edx
	addl	%edx, %r8d
	vmovd	%r8d, %xmm12
	movq	%r14, %rcx
	imulq	%r15, %rcx
	movq	%rbx, %r8
	imulq	%r12, %r8
	addq	%rcx, %r8
	movq	%r10, %rcx
	imulq	%r13, %rcx
	leaq	(%rcx,%r8,2), %r9
	movq	%r9, %rcx
	shrq	$26, %rcx
	movq	%r15, %r8
	imulq	%r15, %r8
	addq	%rcx, %r8
	movq	%r14, %rcx
	imulq	%r12, %rcx
	movq	%rbx, %r11
	imulq	%r13, %r11
	addq	%rcx, %r11
	leaq	(%r8,%r11,2), %rdi
	movq	%r14, %rcx
	imulq	%r14, %rcx
	movq	%r10, %r8
	imulq	%r12, %r8
	addq	%rcx, %r8
	leal	(%rbx,%rbx), %r11d
	movq	%r11, %rcx
	imulq	%r15, %rcx
	addq	%rcx, %r8
	leal	(%r12,%r12,4), %edx
	movq	%rdx, %rcx
	imulq	%r13, %rcx
	addq	%r8, %rcx
	imulq	%r14, %r11
	movq	%r10, %r8
	imulq	%r15, %r8
	addq	%r11, %r8
	movq	%rdx, %r11
	imulq	%r12, %r11
	addq	%r8, %r11
	leal	(%r15,%r15,4), %ebp
	movq	%rbp, %r8
	imulq	%r13, %r8
	addq	%r11, %r8
	movq	%r10, %r11
	imulq	%r14, %r11
	movq	%rbx, 88(%rsp)
	imulq	%rbx, %rbx
	addq	%r11, %rbx
	movq	%rdx, 32(%rsp)
	movq	%rdx, %r11
	movq	%r15, 40(%rsp)
	imulq	%r15, %r11
	addq	%rbx, %r11
	movq	%rbp, 56(%rsp)
	movq	%rbp, %rbx
	movq	%r12, 80(%rsp)
	imulq	%r12, %rbx
	addq	%r11, %rbx
	movq	%r14, 48(%rsp)
	leal	(%r14,%r14,4), %r11d
	movq	%r11, 64(%rsp)
	movq	%r13, 72(%rsp)
	imulq	%r13, %r11
	addq	%rbx, %r11
	movq	%r11, %rbx
	shrq	$26, %rbx
	addq	%r8, %rbx
	movq	%rbx, %r8
	shrq	$26, %r8
	addq	%rcx, %r8
	movq	%r8, %rcx
	shrq	$26, %rcx
	andl	$67108863, %r9d
	addq	%rcx, %r9
	movl	%edi, %ebp
	andl	$67108863, %ebp
	movq	%r9, %rcx
	shrq	$26, %rcx
	addl	%ebp, %ecx
	shrq	$26, %rdi
	leaq	(%rdi,%rdi,4), %rdi
	andl	$67108863, %r11d
	addq	%rdi, %r11
	andl	$67108863, %ebx
	movq	%r11, %rdi
	shrq	$26, %rdi
	addl	%ebx, %edi
	andl	$67108863, %r8d
	movq	%r8, %rbx
	imulq	%rdi, %rbx
	andl	$67108863, %r9d
	andl	$67108863, %r11d
	movq	%r9, %r14
	imulq	%r11, %r14
	addq	%rbx, %r14
	leal	(%rcx,%rcx,4), %ebp
	movq	%rbp, %rbx
	imulq	%rcx, %rbx
	leaq	(%rbx,%r14,2), %r14
	movq	%r14, %rbx
	shrq	$26, %rbx
	movq	%r8, %r15
	imulq	%r8, %r15
	addq	%rbx, %r15
	movq	%r11, %rbx
	imulq	%rcx, %rbx
	movq	%r9, %r12
	imulq	%rdi, %r12
	addq	%rbx, %r12
	leaq	(%r15,%r12,2), %rbx
	movq	%rdi, %r15
	imulq	%rdi, %r15
	leal	(%r8,%r8), %r13d
	imulq	%r11, %r13
	addq	%r15, %r13
	leaq	(%r9,%r9,4), %rdx
	movq	%rdx, %r12
	imulq	%rcx, %r12
	addq	%r13, %r12
	movq	%r9, %r15
	imulq	%rbp, %r15
	addq	%r12, %r15
	leal	(%r11,%r11), %r12d
	imulq	%rdi, %r12
	movq	%rdx, %r13
	imulq	%r9, %r13
	addq	%r13, %r12
	leaq	(%r8,%r8,4), %r13
	imulq	%r13, %r9
	imulq	%rcx, %r13
	addq	%r12, %r13
	imulq	%r8, %rdx
	imulq	%rbp, %r8
	addq	%r13, %r8
	imulq	%r11, %r11
	addq	%r9, %r11
	addq	%rdx, %r11
	imulq	%rdi, %rbp
	leal	(%rdi,%rdi,4), %edx
	imulq	%rcx, %rdx
	addq	%r11, %rdx
	addq	%rdx, %rbp
	movq	%rbp, %rcx
	shrq	$26, %rcx
	addq	%r8, %rcx
	movq	%rcx, %r9
	shrq	$26, %r9
	addq	%r15, %r9
	movq	%r9, %rdx
	shrq	$26, %rdx
	andl	$67108863, %r14d
	addq	%rdx, %r14
	movl	%ebx, %edx
	andl	$67108863, %edx
	movq	%r14, %rdi
	shrq	$26, %rdi
	addl	%edx, %edi
	shrq	$26, %rbx
	leaq	(%rbx,%rbx,4), %rdx
	andl	$67108863, %ebp
	addq	%rdx, %rbp
	andl	$67108863, %ecx
	movq	%rbp, %rbx
	shrq	$26, %rbx
	addl	%ecx, %ebx
	andl	$67108863, %r9d
	movq	%r9, %rcx
	imulq	%rbx, %rcx
	andl	$67108863, %r14d
	andl	$67108863, %ebp
	movq	%r14, %rdx
	imulq	%rbp, %rdx
	addq	%rcx, %rdx
	leal	(%rdi,%rdi,4), %r11d
	movq	%r11, %rcx
	imulq	%rdi, %rcx
	leaq	(%rcx,%rdx,2), %r13
	movq	%r13, %rcx
	shrq	$26, %rcx
	movq	%r9, %rdx
	imulq	%r9, %rdx
	addq	%rcx, %rdx
	movq	%rbp, %rcx
	imulq	%rdi, %rcx
	movq	%r14, %r8
	imulq	%rbx, %r8
	addq	%rcx, %r8
	leaq	(%rdx,%r8,2), %r12
	leal	(,%rbp,2), %r15d
	movq	%r15, %rdx
	imulq	%r9, %rdx
	movq	%rbx, %rcx
	imulq	%rbx, %rcx
	addq	%rcx, %rdx
	leaq	(%r14,%r14,4), %r10
	movq	%r10, %rcx
	imulq	%rdi, %rcx
	addq	%rdx, %rcx
	movq	%r14, %r8
	imulq	%r11, %r8
	addq	%rcx, %r8
	movq	%r10, %rcx
	imulq	%r14, %rcx
	imulq	%rbx, %r15
	addq	%rcx, %r15
	vpbroadcastq	%r14, %ymm16
	leaq	(%r9,%r9,4), %rcx
	imulq	%rcx, %r14
	vpbroadcastq	%rcx, %ymm17
	imulq	%rdi, %rcx
	addq	%r15, %rcx
	vpbroadcastq	%r10, %ymm18
	imulq	%r9, %r10
	vpbroadcastq	%r9, %ymm19
	imulq	%r11, %r9
	addq	%rcx, %r9
	vpbroadcastq	%rbp, %ymm20
	imulq	%rbp, %rbp
	addq	%r14, %rbp
	addq	%rbp, %r10
	vpbroadcastq	%r11, %ymm21
	imulq	%rbx, %r11
	vpbroadcastq	%rbx, %ymm22
	leal	(%rbx,%rbx,4), %ecx
	vpbroadcastq	%rdi, %ymm0
	vmovdqu	%ymm0, 128(%rsp)
	imulq	%rcx, %rdi
	addq	%r10, %rdi
	addq	%rdi, %r11
	movq	%r11, %rdx
	shrq	$26, %rdx
	addq	%r9, %rdx
	movq	%rdx, %r9
	shrq	$26, %r9
	addq	%r8, %r9
	movq	%r9, %r8
	shrq	$26, %r8
	andl	$67108863, %r13d
	addq	%r8, %r13
	movl	%r12d, %r8d
	andl	$67108863, %r8d
	movq	%r13, %r10
	shrq	$26, %r10
	addl	%r8d, %r10d
	shrq	$26, %r12
	leaq	(%r12,%r12,4), %r8
	andl	$67108863, %r11d
	addq	%r8, %r11
	andl	$67108863, %edx
	movq	%r11, %r8
	shrq	$26, %r8
	addl	%edx, %r8d
	andl	$67108863, %r11d
	vpbroadcastq	%r11, %ymm24
	leal	(%r10,%r10,4), %edx
	vpbroadcastq	%rdx, %ymm25
	andl	$67108863, %r13d
	leaq	(,%r13,4), %rdx
	addq	%r13, %rdx
	vpbroadcastq	%rdx, %ymm26
	andl	$67108863, %r9d
	leaq	(%r9,%r9,4), %rdx
	vpbroadcastq	%rdx, %ymm27
	leal	(%r8,%r8,4), %edx
	vpbroadcastq	%rdx, %ymm0
	vmovdqu	%ymm0, 160(%rsp)
	vpbroadcastq	%r8, %ymm29
	vpbroadcastq	%r9, %ymm30
	vpbroadcastq	%r13, %ymm31
	vpbroadcastq	%r10, %ymm13
	vpbroadcastq	%rcx, %ymm14
	vpblendd	$3, %ymm4, %ymm3, %ymm3
	vpblendd	$3, %ymm6, %ymm5, %ymm4
	vpblendd	$3, %ymm8, %ymm7, %ymm6
	vpblendd	$3, %ymm10, %ymm9, %ymm7
	vpblendd	$3, %ymm12, %ymm11, %ymm5
	addq	$-64, %rsi
	addq	$64, %rax
	.p2align	4
.Lnoise_BB_v4_5_1:
	vpsrlq	$26, %ymm5, %ymm8
	vpaddq	%ymm7, %ymm8, %ymm7
	vpsrlq	$26, %ymm4, %ymm8
	vpaddq	%ymm3, %ymm8, %ymm3
	vpsrlq	$26, %ymm7, %ymm8
	vpaddq	%ymm6, %ymm8, %ymm6
	vpand	%ymm1, %ymm5, %ymm5
	vpsrlq	$26, %ymm3, %ymm8
	vpsllq	$2, %ymm8, %ymm9
	vpaddq	%ymm9, %ymm8, %ymm8
	vpaddq	%ymm5, %ymm8, %ymm5
	vpand	%ymm1, %ymm4, %ymm4
	vpsrlq	$26, %ymm6, %ymm8
	vpaddq	%ymm4, %ymm8, %ymm4
	vpand	%ymm1, %ymm5, %ymm8
	vpand	%ymm1, %ymm7, %ymm7
	vpsrlq	$26, %ymm5, %ymm5
	vpaddq	%ymm7, %ymm5, %ymm5
	vpand	%ymm1, %ymm6, %ymm6
	vpand	%ymm1, %ymm4, %ymm7
	vpand	%ymm1, %ymm3, %ymm3
	vpsrlq	$26, %ymm4, %ymm4
	vpaddq	%ymm3, %ymm4, %ymm3
	vpmuldq	%ymm24, %ymm8, %ymm4
	vpmuludq	%ymm25, %ymm5, %ymm9
	vpmuldq	%ymm26, %ymm6, %ymm10
	vpaddq	%ymm4, %ymm10, %ymm4
	vpaddq	%ymm4, %ymm9, %ymm4
	vpmuldq	%ymm27, %ymm7, %ymm9
	vpmuludq	160(%rsp), %ymm3, %ymm10
	vpaddq	%ymm10, %ymm9, %ymm9
	vpaddq	%ymm4, %ymm9, %ymm4
	vpmuludq	%ymm29, %ymm8, %ymm9
	vpmuldq	%ymm24, %ymm5, %ymm10
	vpmuludq	%ymm25, %ymm6, %ymm11
	vpaddq	%ymm11, %ymm9, %ymm9
	vpaddq	%ymm9, %ymm10, %ymm9
	vpmuldq	%ymm26, %ymm7, %ymm10
	vpmuldq	%ymm27, %ymm3, %ymm11
	vpaddq	%ymm11, %ymm10, %ymm10
	vpaddq	%ymm10, %ymm9, %ymm9
	vpmuldq	%ymm30, %ymm8, %ymm10
	vpmuludq	%ymm29, %ymm5, %ymm11
	vpmuldq	%ymm24, %ymm6, %ymm12
	vpaddq	%ymm12, %ymm10, %ymm10
	vpaddq	%ymm10, %ymm11, %ymm10
	vpmuludq	%ymm25, %ymm7, %ymm11
	vpmuldq	%ymm26, %ymm3, %ymm12
	vpaddq	%ymm12, %ymm11, %ymm11
	vpaddq	%ymm11, %ymm10, %ymm10
	vpmuldq	%ymm31, %ymm8, %ymm11
	vpmuldq	%ymm30, %ymm5, %ymm12
	vpmuludq	%ymm29, %ymm6, %ymm15
	vpaddq	%ymm15, %ymm11, %ymm11
	vpaddq	%ymm11, %ymm12, %ymm11
	vpmuldq	%ymm24, %ymm7, %ymm12
	vpmuludq	%ymm25, %ymm3, %ymm15
	vpaddq	%ymm15, %ymm12, %ymm12
	vpaddq	%ymm12, %ymm11, %ymm11
	vpmuludq	%ymm13, %ymm8, %ymm8
	vpmuldq	%ymm31, %ymm5, %ymm5
	vpmuldq	%ymm30, %ymm6, %ymm6
	vpaddq	%ymm6, %ymm8, %ymm6
	vpaddq	%ymm5, %ymm6, %ymm5
	vpmuludq	%ymm29, %ymm7, %ymm6
	vpmuldq	%ymm24, %ymm3, %ymm3
	vpaddq	%ymm3, %ymm6, %ymm3
	vpaddq	%ymm3, %ymm5, %ymm5
	vmovdqu64	(%rax), %zmm3
	vmovdqa64	.Lnoise_CPI_v4_5_3(%rip), %ymm28
	vpermq	%zmm3, %zmm28, %zmm6
	vmovdqa64	.Lnoise_CPI_v4_5_0(%rip), %ymm23
	vpermq	%zmm3, %zmm23, %zmm3
	vpand	%ymm1, %ymm6, %ymm7
	vpsrlq	$26, %ymm6, %ymm8
	vpand	%ymm1, %ymm8, %ymm8
	vpsrlq	$52, %ymm6, %ymm6
	vpsllq	$12, %ymm3, %ymm12
	vpternlogq	$200, %ymm6, %ymm1, %ymm12
	vpsrlq	$14, %ymm3, %ymm6
	vpand	%ymm1, %ymm6, %ymm6
	vpsrlq	$40, %ymm3, %ymm15
	vpbroadcastq	.Lnoise_CPI_v3s_5_0(%rip), %ymm3
	vpor	%ymm3, %ymm15, %ymm15
	vpmuldq	%ymm20, %ymm7, %ymm0
	vpmuludq	%ymm21, %ymm8, %ymm2
	vpaddq	%ymm2, %ymm0, %ymm0
	vpaddq	%ymm0, %ymm4, %ymm0
	vpmuldq	%ymm18, %ymm12, %ymm2
	vpmuldq	%ymm17, %ymm6, %ymm4
	vpaddq	%ymm4, %ymm2, %ymm2
	vpmuludq	%ymm14, %ymm15, %ymm4
	vpaddq	%ymm4, %ymm2, %ymm2
	vpaddq	%ymm2, %ymm0, %ymm0
	vpmuludq	%ymm22, %ymm7, %ymm2
	vpmuldq	%ymm20, %ymm8, %ymm4
	vpaddq	%ymm4, %ymm2, %ymm2
	vpaddq	%ymm2, %ymm9, %ymm2
	vpmuludq	%ymm21, %ymm12, %ymm4
	vpmuldq	%ymm18, %ymm6, %ymm9
	vpaddq	%ymm4, %ymm9, %ymm4
	vpmuldq	%ymm17, %ymm15, %ymm9
	vpaddq	%ymm4, %ymm9, %ymm4
	vpaddq	%ymm4, %ymm2, %ymm2
	vpmuldq	%ymm19, %ymm7, %ymm4
	vpmuludq	%ymm22, %ymm8, %ymm9
	vpaddq	%ymm4, %ymm9, %ymm4
	vpaddq	%ymm4, %ymm10, %ymm4
	vpmuldq	%ymm20, %ymm12, %ymm9
	vpmuludq	%ymm21, %ymm6, %ymm10
	vpaddq	%ymm10, %ymm9, %ymm9
	vpmuldq	%ymm18, %ymm15, %ymm10
	vpaddq	%ymm10, %ymm9, %ymm9
	vpaddq	%ymm4, %ymm9, %ymm4
	vpmuldq	%ymm16, %ymm7, %ymm9
	vpmuldq	%ymm19, %ymm8, %ymm10
	vpaddq	%ymm10, %ymm9, %ymm9
	vpaddq	%ymm9, %ymm11, %ymm9
	vpmuludq	%ymm22, %ymm12, %ymm10
	vpmuldq	%ymm20, %ymm6, %ymm11
	vpaddq	%ymm11, %ymm10, %ymm10
	vpmuludq	%ymm21, %ymm15, %ymm11
	vpaddq	%ymm11, %ymm10, %ymm10
	vpaddq	%ymm10, %ymm9, %ymm9
	vpmuludq	128(%rsp), %ymm7, %ymm7
	vpmuldq	%ymm16, %ymm8, %ymm8
	vpaddq	%ymm7, %ymm8, %ymm7
	vpaddq	%ymm7, %ymm5, %ymm5
	vmovdqu64	64(%rax), %zmm7
	vpmuldq	%ymm19, %ymm12, %ymm8
	vpmuludq	%ymm22, %ymm6, %ymm6
	vpaddq	%ymm6, %ymm8, %ymm6
	vpmuldq	%ymm20, %ymm15, %ymm8
	vpaddq	%ymm6, %ymm8, %ymm6
	vpaddq	%ymm6, %ymm5, %ymm8
	vpermq	%zmm7, %zmm28, %zmm6
	vpermq	%zmm7, %zmm23, %zmm10
	vpand	%ymm1, %ymm6, %ymm5
	vpaddq	%ymm5, %ymm0, %ymm5
	vpsrlq	$26, %ymm6, %ymm0
	vpand	%ymm1, %ymm0, %ymm0
	vpaddq	%ymm0, %ymm2, %ymm7
	vpsrlq	$52, %ymm6, %ymm0
	vpsllq	$12, %ymm10, %ymm2
	vpternlogq	$200, %ymm0, %ymm1, %ymm2
	vpaddq	%ymm2, %ymm4, %ymm6
	vpsrlq	$14, %ymm10, %ymm0
	vpand	%ymm1, %ymm0, %ymm0
	vpaddq	%ymm0, %ymm9, %ymm4
	vpsrlq	$40, %ymm10, %ymm0
	vpaddq	%ymm3, %ymm0, %ymm0
	vpaddq	%ymm0, %ymm8, %ymm3
	addq	$128, %rax
	addq	$-128, %rsi
	cmpq	$127, %rsi
	ja	.Lnoise_BB_v4_5_1
	vpsrlq	$26, %ymm5, %ymm0
	vpaddq	%ymm7, %ymm0, %ymm0
	vpsrlq	$26, %ymm4, %ymm2
	vpaddq	%ymm3, %ymm2, %ymm2
	vpsrlq	$26, %ymm0, %ymm3
	vpaddq	%ymm6, %ymm3, %ymm3
	vpand	%ymm1, %ymm5, %ymm5
	vpsrlq	$26, %ymm2, %ymm16
	vpaddq	%ymm16, %ymm5, %ymm5
	vpsllq	$2, %ymm16, %ymm16
	vpaddq	%ymm16, %ymm5, %ymm5
	vpand	%ymm1, %ymm4, %ymm4
	vpsrlq	$26, %ymm3, %ymm16
	vpaddq	%ymm4, %ymm16, %ymm16
	vpand	%ymm1, %ymm0, %ymm0
	vpsrlq	$26, %ymm5, %ymm4
	vpaddq	%ymm0, %ymm4, %ymm4
	vpand	%ymm1, %ymm2, %ymm0
	vpsrlq	$26, %ymm16, %ymm1
	vpaddq	%ymm0, %ymm1, %ymm2
	vpbroadcastd	.Lnoise_CPI_v3s_5_2(%rip), %ymm1
	vpand	%ymm1, %ymm5, %ymm0
	vmovd	%xmm0, %r12d
	vmovd	%xmm4, %r8d
	vpand	%ymm1, %ymm3, %ymm3
	vmovd	%xmm3, %r9d
	vpandd	%ymm1, %ymm16, %ymm1
	vmovd	%xmm1, %r11d
	movq	88(%rsp), %r14
	movq	%r14, %rdx
	imulq	%r12, %rdx
	movq	%r9, %r10
	movq	32(%rsp), %rbx
	imulq	%rbx, %r10
	addq	%rdx, %r10
	movq	72(%rsp), %rdx
	leaq	(%rdx,%rdx,4), %r13
	movq	%r13, %rdx
	imulq	%r8, %rdx
	addq	%rdx, %r10
	movq	%r11, %rdx
	movq	56(%rsp), %rcx
	imulq	%rcx, %rdx
	addq	%r10, %rdx
	vmovd	%xmm2, %edi
	movq	%rdi, %rbp
	imulq	64(%rsp), %rbp
	addq	%rdx, %rbp
	movq	%r12, %rdx
	movq	48(%rsp), %r15
	imulq	%r15, %rdx
	movq	%r13, %r10
	imulq	%r9, %r10
	addq	%rdx, %r10
	movq	%r14, %rdx
	imulq	%r8, %rdx
	addq	%rdx, %r10
	movq	%r11, %rdx
	imulq	%rbx, %rdx
	addq	%r10, %rdx
	movq	%rdi, %rbx
	imulq	%rcx, %rbx
	addq	%rdx, %rbx
	movq	%r12, %rdx
	movq	%r12, 128(%rsp)
	imulq	40(%rsp), %rdx
	movq	%r14, %r10
	imulq	%r9, %r10
	addq	%rdx, %r10
	movq	%r8, %rcx
	movq	%r8, %rdx
	imulq	%r15, %rdx
	addq	%rdx, %r10
	movq	%r13, %rdx
	imulq	%r11, %rdx
	addq	%r10, %rdx
	movq	%rdi, %r8
	imulq	32(%rsp), %r8
	addq	%rdx, %r8
	imulq	80(%rsp), %r12
	movq	%r9, %r10
	imulq	%r15, %r10
	addq	%r12, %r10
	movq	%rcx, %rdx
	movq	%rcx, %r15
	movq	40(%rsp), %rcx
	imulq	%rcx, %rdx
	addq	%rdx, %r10
	movq	%r14, %r12
	movq	%r14, %rdx
	imulq	%r11, %rdx
	addq	%r10, %rdx
	movq	%r13, %r14
	movq	%r13, 96(%rsp)
	imulq	%rdi, %r14
	addq	%rdx, %r14
	movq	128(%rsp), %rdx
	imulq	72(%rsp), %rdx
	imulq	%rcx, %r9
	addq	%rdx, %r9
	movq	%r15, %rcx
	imulq	80(%rsp), %rcx
	addq	%rcx, %r9
	imulq	48(%rsp), %r11
	addq	%r9, %r11
	imulq	%r12, %rdi
	addq	%r11, %rdi
	movl	%ebp, %r9d
	shrq	$26, %rbp
	addq	%rbx, %rbp
	movl	%r14d, %ecx
	shrq	$26, %r14
	addq	%rdi, %r14
	movl	%ebp, %edi
	andl	$67108863, %edi
	vpextrd	$2, %xmm4, %edx
	addl	%edx, %edi
	shrq	$26, %rbp
	addq	%r8, %rbp
	movl	%r14d, %ebx
	andl	$67108863, %ebx
	vpextrd	$2, %xmm2, %edx
	addl	%edx, %ebx
	movl	%ebp, %r8d
	andl	$67108863, %r8d
	vpextrd	$2, %xmm3, %edx
	addl	%edx, %r8d
	andl	$67108863, %ecx
	shrq	$26, %rbp
	addq	%rcx, %rbp
	andl	$67108863, %r9d
	shrq	$26, %r14
	leaq	(%r14,%r14,4), %rcx
	addq	%r9, %rcx
	movl	%ecx, %r11d
	andl	$67108863, %r11d
	vpextrd	$2, %xmm0, %edx
	addl	%edx, %r11d
	movl	%ebp, %r9d
	andl	$67108863, %r9d
	vpextrd	$2, %xmm1, %edx
	addl	%edx, %r9d
	shrq	$26, %rcx
	addl	%edi, %ecx
	shrq	$26, %rbp
	addl	%ebx, %ebp
	movq	%r12, %rdx
	imulq	%r11, %rdx
	movq	%r8, %r10
	movq	32(%rsp), %rbx
	imulq	%rbx, %r10
	addq	%rdx, %r10
	movq	%r13, %rdx
	imulq	%rcx, %rdx
	addq	%rdx, %r10
	movq	%r9, %rdx
	movq	56(%rsp), %r15
	imulq	%r15, %rdx
	movq	%rbp, %r14
	imulq	64(%rsp), %r14
	addq	%rdx, %r14
	addq	%r10, %r14
	movq	%r11, %rdx
	movq	48(%rsp), %rdi
	imulq	%rdi, %rdx
	movq	%r13, %r10
	imulq	%r8, %r10
	addq	%rdx, %r10
	movq	%r12, %rdx
	imulq	%rcx, %rdx
	addq	%rdx, %r10
	movq	%r9, %rdx
	imulq	%rbx, %rdx
	movq	%rbp, %rbx
	imulq	%r15, %rbx
	addq	%rdx, %rbx
	addq	%r10, %rbx
	movq	%r11, %rdx
	movq	40(%rsp), %r13
	imulq	%r13, %rdx
	imulq	%r8, %r12
	addq	%rdx, %r12
	movq	%rcx, %rdx
	imulq	%rdi, %rdx
	addq	%rdx, %r12
	movq	96(%rsp), %rdx
	imulq	%r9, %rdx
	movq	%rbp, %r15
	imulq	32(%rsp), %r15
	addq	%rdx, %r15
	addq	%r12, %r15
	movq	%r11, %rdx
	movq	80(%rsp), %r12
	imulq	%r12, %rdx
	movq	%r8, %r10
	imulq	%rdi, %r10
	addq	%rdx, %r10
	movq	%rcx, %rdx
	imulq	%r13, %rdx
	addq	%rdx, %r10
	movq	88(%rsp), %rdx
	imulq	%r9, %rdx
	movq	96(%rsp), %r13
	movq	%r13, %rdi
	imulq	%rbp, %rdi
	addq	%rdx, %rdi
	addq	%r10, %rdi
	imulq	72(%rsp), %r11
	imulq	40(%rsp), %r8
	addq	%r11, %r8
	imulq	%r12, %rcx
	addq	%rcx, %r8
	movq	48(%rsp), %r12
	imulq	%r12, %r9
	movq	88(%rsp), %r10
	imulq	%r10, %rbp
	addq	%r9, %rbp
	vextracti128	$1, %ymm4, %xmm4
	addq	%r8, %rbp
	movl	%r14d, %r9d
	shrq	$26, %r14
	addq	%rbx, %r14
	movl	%edi, %ecx
	shrq	$26, %rdi
	addq	%rbp, %rdi
	movl	%r14d, %ebx
	andl	$67108863, %ebx
	vmovd	%xmm4, %edx
	addl	%edx, %ebx
	vextracti128	$1, %ymm2, %xmm5
	shrq	$26, %r14
	addq	%r15, %r14
	movl	%edi, %ebp
	andl	$67108863, %ebp
	vmovd	%xmm5, %edx
	addl	%edx, %ebp
	vextracti128	$1, %ymm3, %xmm2
	movl	%r14d, %r8d
	andl	$67108863, %r8d
	vmovd	%xmm2, %edx
	addl	%edx, %r8d
	andl	$67108863, %ecx
	shrq	$26, %r14
	addq	%rcx, %r14
	vextracti128	$1, %ymm0, %xmm0
	andl	$67108863, %r9d
	shrq	$26, %rdi
	leaq	(%rdi,%rdi,4), %rcx
	addq	%r9, %rcx
	movl	%ecx, %r9d
	andl	$67108863, %r9d
	vmovd	%xmm0, %edx
	addl	%edx, %r9d
	vextracti128	$1, %ymm1, %xmm1
	movl	%r14d, %r11d
	andl	$67108863, %r11d
	vmovd	%xmm1, %edx
	addl	%edx, %r11d
	shrq	$26, %rcx
	addl	%ebx, %ecx
	shrq	$26, %r14
	addl	%ebp, %r14d
	movq	%r10, %rbx
	movq	%r10, %rdx
	imulq	%r9, %rdx
	movq	%r8, %r10
	movq	32(%rsp), %rdi
	imulq	%rdi, %r10
	addq	%rdx, %r10
	movq	%r13, %rdx
	imulq	%rcx, %rdx
	addq	%rdx, %r10
	movq	%r11, %rdx
	movq	56(%rsp), %r15
	imulq	%r15, %rdx
	movq	%r14, %rbp
	imulq	64(%rsp), %rbp
	addq	%rdx, %rbp
	addq	%r10, %rbp
	movq	%r9, %rdx
	imulq	%r12, %rdx
	movq	%r13, %r10
	imulq	%r8, %r10
	addq	%rdx, %r10
	movq	%rbx, %rdx
	movq	%rbx, %r13
	imulq	%rcx, %rdx
	addq	%rdx, %r10
	movq	%r11, %rdx
	imulq	%rdi, %rdx
	movq	%r14, %rbx
	imulq	%r15, %rbx
	addq	%rdx, %rbx
	addq	%r10, %rbx
	movq	%r9, %rdx
	movq	40(%rsp), %rdi
	imulq	%rdi, %rdx
	movq	%r13, %r10
	imulq	%r8, %r10
	addq	%rdx, %r10
	movq	%rcx, %rdx
	imulq	%r12, %rdx
	addq	%rdx, %r10
	movq	96(%rsp), %r13
	movq	%r13, %rdx
	imulq	%r11, %rdx
	movq	%r14, %r15
	imulq	32(%rsp), %r15
	addq	%rdx, %r15
	addq	%r10, %r15
	movq	%r9, %rdx
	movq	80(%rsp), %r12
	imulq	%r12, %rdx
	movq	%r8, %r10
	imulq	48(%rsp), %r10
	addq	%rdx, %r10
	movq	%rcx, %rdx
	imulq	%rdi, %rdx
	addq	%rdx, %r10
	movq	88(%rsp), %rdx
	imulq	%r11, %rdx
	movq	%r13, %rdi
	imulq	%r14, %rdi
	addq	%rdx, %rdi
	addq	%r10, %rdi
	imulq	72(%rsp), %r9
	imulq	40(%rsp), %r8
	addq	%r9, %r8
	imulq	%r12, %rcx
	addq	%rcx, %r8
	imulq	48(%rsp), %r11
	movq	88(%rsp), %r10
	imulq	%r10, %r14
	addq	%r11, %r14
	addq	%r8, %r14
	movl	%ebp, %r9d
	shrq	$26, %rbp
	addq	%rbx, %rbp
	movl	%edi, %ecx
	shrq	$26, %rdi
	addq	%r14, %rdi
	vpextrd	$2, %xmm4, %edx
	movl	%ebp, %ebx
	andl	$67108863, %ebx
	addl	%edx, %ebx
	shrq	$26, %rbp
	addq	%r15, %rbp
	vpextrd	$2, %xmm5, %edx
	movl	%edi, %r14d
	andl	$67108863, %r14d
	addl	%edx, %r14d
	movl	%ebp, %r8d
	andl	$67108863, %r8d
	vpextrd	$2, %xmm2, %edx
	addl	%edx, %r8d
	andl	$67108863, %ecx
	shrq	$26, %rbp
	addq	%rcx, %rbp
	andl	$67108863, %r9d
	shrq	$26, %rdi
	leaq	(%rdi,%rdi,4), %rcx
	addq	%r9, %rcx
	movl	%ecx, %r9d
	andl	$67108863, %r9d
	vpextrd	$2, %xmm0, %edx
	addl	%edx, %r9d
	movl	%ebp, %r11d
	andl	$67108863, %r11d
	vpextrd	$2, %xmm1, %edx
	addl	%edx, %r11d
	shrq	$26, %rcx
	addl	%ebx, %ecx
	shrq	$26, %rbp
	addl	%r14d, %ebp
	movq	%r10, %rdx
	movq	%r10, %r12
	imulq	%r9, %rdx
	movq	%r8, %r10
	movq	32(%rsp), %rdi
	imulq	%rdi, %r10
	addq	%rdx, %r10
	movq	%r13, %rdx
	imulq	%rcx, %rdx
	addq	%rdx, %r10
	movq	%r11, %rdx
	movq	56(%rsp), %rbx
	imulq	%rbx, %rdx
	movq	64(%rsp), %r14
	imulq	%rbp, %r14
	addq	%rdx, %r14
	addq	%r10, %r14
	movq	%r14, 64(%rsp)
	movq	%r9, %rdx
	movq	48(%rsp), %r15
	imulq	%r15, %rdx
	movq	%r13, %r10
	imulq	%r8, %r10
	addq	%rdx, %r10
	movq	%r12, %rdx
	imulq	%rcx, %rdx
	addq	%rdx, %r10
	movq	%r11, %rdx
	imulq	%rdi, %rdx
	imulq	%rbp, %rbx
	addq	%rdx, %rbx
	addq	%r10, %rbx
	movq	%rbx, 56(%rsp)
	movq	%r9, %rdx
	movq	40(%rsp), %rbx
	imulq	%rbx, %rdx
	movq	%r12, %r10
	imulq	%r8, %r10
	addq	%rdx, %r10
	movq	%rcx, %rdx
	imulq	%r15, %rdx
	addq	%rdx, %r10
	movq	%r13, %rdx
	imulq	%r11, %rdx
	imulq	%rbp, %rdi
	addq	%rdx, %rdi
	addq	%r10, %rdi
	movq	%rdi, %r14
	movq	%r9, %rdx
	movq	80(%rsp), %rdi
	imulq	%rdi, %rdx
	movq	%r8, %r10
	imulq	%r15, %r10
	addq	%rdx, %r10
	movq	%rcx, %rdx
	imulq	%rbx, %rdx
	addq	%rdx, %r10
	movq	%r12, %rdx
	imulq	%r11, %rdx
	imulq	%rbp, %r13
	addq	%rdx, %r13
	addq	%r10, %r13
	imulq	72(%rsp), %r9
	imulq	%rdi, %rcx
	imulq	%rbx, %r8
	addq	%r9, %r8
	addq	%rcx, %r8
	imulq	%r15, %r11
	movq	%r12, %rcx
	imulq	%rbp, %rcx
	addq	%r11, %rcx
	addq	%r8, %rcx
	movq	%rcx, %r8
	movq	64(%rsp), %r11
	movl	%r11d, %ecx
	andl	$67108863, %ecx
	shrq	$26, %r11
	addq	56(%rsp), %r11
	movq	%r13, %r9
	movl	%r9d, %edx
	andl	$67108863, %edx
	shrq	$26, %r9
	addq	%r8, %r9
	movq	%r9, %rdi
	movl	%r11d, %r9d
	andl	$67108863, %r9d
	shrq	$26, %r11
	addq	%r14, %r11
	movq	%r11, %r8
	shrq	$26, %r8
	addq	%rdx, %r8
	movl	%edi, %r10d
	andl	$67108863, %r10d
	shrq	$26, %rdi
	leaq	(%rdi,%rdi,4), %rdx
	addq	%rcx, %rdx
	movq	%rdx, %rcx
	shrq	$26, %rcx
	addl	%r9d, %ecx
	movq	%r8, %r9
	shrq	$26, %r9
	addl	%r10d, %r9d
	andl	$67108863, %edx
	movl	%r11d, %r10d
	shlq	$52, %r11
	orq	%rdx, %r11
	shlq	$26, %rcx
	andl	$67104768, %r10d
	shrl	$12, %r10d
	andl	$67108863, %r8d
	shlq	$14, %r8
	addq	%rcx, %r11
	adcq	%r10, %r8
	movq	%r9, %rcx
	shlq	$40, %rcx
	shrl	$24, %r9d
	addq	%r8, %rcx
	adcq	$0, %r9
	movl	%r9d, %edx
	shrl	$2, %edx
	leaq	(%rdx,%rdx,4), %r8
	andl	$3, %r9d
	addq	%r11, %r8
	adcq	$0, %rcx
	adcq	$0, %r9
	movq	120(%rsp), %r12
	movq	%r8, (%r12)
	movq	%rcx, 8(%r12)
	movq	%r9, 16(%r12)
	movq	$0, 24(%r12)
	cmpq	$16, %rsi
	jae	.Lnoise_BB_v4_5_4
	movq	%r8, %rdi
	jmp	.Lnoise_BB_v4_5_6
.Lnoise_BB_v4_5_4:
	movq	112(%rsp), %r13
	movq	%r13, %r11
	shrq	$2, %r11
	addq	%r13, %r11
	movq	104(%rsp), %rbp
	.p2align	4
.Lnoise_BB_v4_5_5:
	addq	(%rax), %r8
	adcq	8(%rax), %rcx
	adcq	$1, %r9
	movq	%r8, %rdx
	mulxq	%rbp, %r14, %r10
	movq	%rcx, %rdx
	mulxq	%r11, %rdi, %rbx
	movq	%r8, %rdx
	mulxq	%r13, %r15, %r8
	addq	%r14, %rdi
	adcq	%r10, %rbx
	movq	%rcx, %rdx
	mulxq	%rbp, %rdx, %r10
	addq	%r15, %rdx
	adcq	%r8, %r10
	movq	%r9, %rcx
	imulq	%r11, %rcx
	addq	%rdx, %rcx
	adcq	$0, %r10
	imulq	%rbp, %r9
	movq	%rcx, %rdx
	addq	%rbx, %rdx
	adcq	%r10, %r9
	movq	%r9, %r8
	shrq	$2, %r8
	leaq	(%r8,%r8,4), %r8
	movq	%r8, %r10
	addq	%rdi, %r10
	adcq	%rbx, %rcx
	andl	$3, %r9d
	addq	%r8, %rdi
	adcq	$0, %rdx
	adcq	$0, %r9
	addq	$16, %rax
	addq	$-16, %rsi
	movq	%rdi, %r8
	cmpq	$15, %rsi
	ja	.Lnoise_BB_v4_5_5
.Lnoise_BB_v4_5_6:
	movq	%rdi, (%r12)
	movq	%rcx, 8(%r12)
	movq	%r9, 16(%r12)
	movq	$0, 24(%r12)
	movq	80(%r12), %rdi
	leaq	(%r12,%rdi), %rcx
	addq	$64, %rcx
	movq	%rcx, %rdx
	subq	%rax, %rdx
	cmpq	%rsi, %rdx
	jae	.Lnoise_BB_v4_5_9
	cmpq	$8, %rsi
	jb	.Lnoise_BB_v4_5_8
	leaq	(%rdi,%r12), %rdx
	subq	%rax, %rdx
	addq	$64, %rdx
	cmpq	$128, %rdx
	jae	.Lnoise_BB_v4_5_12
.Lnoise_BB_v4_5_8:
	xorl	%edx, %edx
.Lnoise_BB_v4_5_15:
	movq	%rsi, %r9
	movq	%rdx, %r8
	andq	$7, %r9
	je	.Lnoise_BB_v4_5_18
	movq	%rdx, %r8
	.p2align	4
.Lnoise_BB_v4_5_17:
	movzbl	(%rax,%r8), %r10d
	movb	%r10b, (%rcx,%r8)
	incq	%r8
	decq	%r9
	jne	.Lnoise_BB_v4_5_17
.Lnoise_BB_v4_5_18:
	subq	%rsi, %rdx
	cmpq	$-8, %rdx
	ja	.Lnoise_BB_v4_5_21
	leaq	(%rdi,%r12), %rcx
	addq	$71, %rcx
	.p2align	4
.Lnoise_BB_v4_5_20:
	movzbl	(%rax,%r8), %edx
	movb	%dl, -7(%rcx,%r8)
	movzbl	1(%rax,%r8), %edx
	movb	%dl, -6(%rcx,%r8)
	movzbl	2(%rax,%r8), %edx
	movb	%dl, -5(%rcx,%r8)
	movzbl	3(%rax,%r8), %edx
	movb	%dl, -4(%rcx,%r8)
	movzbl	4(%rax,%r8), %edx
	movb	%dl, -3(%rcx,%r8)
	movzbl	5(%rax,%r8), %edx
	movb	%dl, -2(%rcx,%r8)
	movzbl	6(%rax,%r8), %edx
	movb	%dl, -1(%rcx,%r8)
	movzbl	7(%rax,%r8), %edx
	movb	%dl, (%rcx,%r8)
	addq	$8, %r8
	cmpq	%r8, %rsi
	jne	.Lnoise_BB_v4_5_20
	jmp	.Lnoise_BB_v4_5_21
.Lnoise_BB_v4_5_9:
	movq	%rax, %rdx
	movq	%rsi, %r8
	vzeroupper
	callq	memmove
.Lnoise_BB_v4_5_21:
	addq	%rsi, %rdi
	movq	%rdi, 80(%r12)
	vmovaps	192(%rsp), %xmm6
	vmovaps	208(%rsp), %xmm7
	vmovaps	224(%rsp), %xmm8
	vmovaps	240(%rsp), %xmm9
	vmovaps	256(%rsp), %xmm10
	vmovaps	272(%rsp), %xmm11
	vmovaps	288(%rsp), %xmm12
	vmovaps	304(%rsp), %xmm13
	vmovaps	320(%rsp), %xmm14
	vmovaps	336(%rsp), %xmm15
	addq	$360, %rsp
	popq	%rbx
	popq	%rbp
	popq	%rdi
	popq	%rsi
	popq	%r12
	popq	%r13
	popq	%r14
	popq	%r15
	vzeroupper
	retq
.Lnoise_BB_v4_5_12:
	movl	%esi, %edx
	andl	$8, %edx
	xorl	%r8d, %r8d
	.p2align	4
.Lnoise_BB_v4_5_13:
	movq	(%rax,%r8), %r9
	movq	%r9, (%rcx,%r8)
	addq	$8, %r8
	cmpq	%r8, %rdx
	jne	.Lnoise_BB_v4_5_13
	cmpq	%rdx, %rsi
	je	.Lnoise_BB_v4_5_21
	jmp	.Lnoise_BB_v4_5_15
	.seh_endproc

	.def	"rand_chacha::guts::refill4";
	.scl	3;
	.type	32;
	.endef
	.text
	.p2align	4
"rand_chacha::guts::refill4":
.seh_proc "rand_chacha::guts::refill4"
	.seh_endprologue
	movl	noise_processor_level(%rip), %eax
	testl	%eax, %eax
	je	.Lnoise_find0
.Lnoise_chosen0:
	cmpl	$3, %eax
	ja	"rand_chacha::guts::refill4.v4"
	je	"rand_chacha::guts::refill4.v3"
	jmp	"rand_chacha::guts::refill4.v1"
.Lnoise_find0:
	callq	noise_find_level
	jmp	.Lnoise_chosen0
	.seh_endproc

	.def	"noise_poly::Poly1305::take_aligned";
	.scl	3;
	.type	32;
	.endef
	.text
	.p2align	4
"noise_poly::Poly1305::take_aligned":
.seh_proc "noise_poly::Poly1305::take_aligned"
	.seh_endprologue
	movl	noise_processor_level(%rip), %eax
	testl	%eax, %eax
	je	.Lnoise_find1
.Lnoise_chosen1:
	cmpl	$3, %eax
	ja	"noise_poly::Poly1305::take_aligned.v4"
	je	"noise_poly::Poly1305::take_aligned.v3"
	jmp	"noise_poly::Poly1305::take_aligned.v1"
.Lnoise_find1:
	callq	noise_find_level
	jmp	.Lnoise_chosen1
	.seh_endproc

	.def	"sha2::block256::compress";
	.scl	3;
	.type	32;
	.endef
	.text
	.p2align	4
"sha2::block256::compress":
.seh_proc "sha2::block256::compress"
	.seh_endprologue
	movl	noise_processor_level(%rip), %eax
	testl	%eax, %eax
	je	.Lnoise_find2
.Lnoise_chosen2:
	cmpl	$3, %eax
	jae	"sha2::block256::compress.v3"
	jmp	"sha2::block256::compress.v1"
.Lnoise_find2:
	callq	noise_find_level
	jmp	.Lnoise_chosen2
	.seh_endproc

	.def	"noise_state::cipher::CipherState::encrypt";
	.scl	3;
	.type	32;
	.endef
	.text
	.p2align	4
"noise_state::cipher::CipherState::encrypt":
.seh_proc "noise_state::cipher::CipherState::encrypt"
	.seh_endprologue
	movl	noise_processor_level(%rip), %eax
	testl	%eax, %eax
	je	.Lnoise_find3
.Lnoise_chosen3:
	cmpl	$3, %eax
	ja	"noise_state::cipher::CipherState::encrypt.v4"
	je	"noise_state::cipher::CipherState::encrypt.v3"
	jmp	"noise_state::cipher::CipherState::encrypt.v1"
.Lnoise_find3:
	callq	noise_find_level
	jmp	.Lnoise_chosen3
	.seh_endproc

	.def	"noise_state::cipher::CipherState::decrypt";
	.scl	3;
	.type	32;
	.endef
	.text
	.p2align	4
"noise_state::cipher::CipherState::decrypt":
.seh_proc "noise_state::cipher::CipherState::decrypt"
	.seh_endprologue
	movl	noise_processor_level(%rip), %eax
	testl	%eax, %eax
	je	.Lnoise_find4
.Lnoise_chosen4:
	cmpl	$3, %eax
	ja	"noise_state::cipher::CipherState::decrypt.v4"
	je	"noise_state::cipher::CipherState::decrypt.v3"
	jmp	"noise_state::cipher::CipherState::decrypt.v1"
.Lnoise_find4:
	callq	noise_find_level
	jmp	.Lnoise_chosen4
	.seh_endproc

	.def	"noise_aead::keystream::apply";
	.scl	3;
	.type	32;
	.endef
	.text
	.p2align	4
"noise_aead::keystream::apply":
.seh_proc "noise_aead::keystream::apply"
	.seh_endprologue
	movl	noise_processor_level(%rip), %eax
	testl	%eax, %eax
	je	.Lnoise_find5
.Lnoise_chosen5:
	cmpl	$3, %eax
	ja	"noise_aead::keystream::apply.v4"
	je	"noise_aead::keystream::apply.v3"
	jmp	"noise_aead::keystream::apply.v1"
.Lnoise_find5:
	callq	noise_find_level
	jmp	.Lnoise_chosen5
	.seh_endproc

	.def	"noise_aead::authenticator::tag";
	.scl	3;
	.type	32;
	.endef
	.text
	.p2align	4
"noise_aead::authenticator::tag":
.seh_proc "noise_aead::authenticator::tag"
	.seh_endprologue
	movl	noise_processor_level(%rip), %eax
	testl	%eax, %eax
	je	.Lnoise_find6
.Lnoise_chosen6:
	cmpl	$3, %eax
	ja	"noise_aead::authenticator::tag.v4"
	je	"noise_aead::authenticator::tag.v3"
	jmp	"noise_aead::authenticator::tag.v1"
.Lnoise_find6:
	callq	noise_find_level
	jmp	.Lnoise_chosen6
	.seh_endproc

	.def	noise_find_level;
	.scl	3;
	.type	32;
	.endef
	.text
	.p2align	4
noise_find_level:
.seh_proc noise_find_level
	pushq	%rbx
	.seh_pushreg %rbx
	pushq	%rcx
	.seh_pushreg %rcx
	pushq	%rdx
	.seh_pushreg %rdx
	.seh_endprologue
	movl	$1, %r10d
	xorl	%eax, %eax
	cpuid
	cmpl	$7, %eax
	jb	.Lnoise_found
	movl	$1, %eax
	cpuid
	andl	$0x38d83201, %ecx
	cmpl	$0x38d83201, %ecx
	jne	.Lnoise_found
	xorl	%ecx, %ecx
	xgetbv
	movl	%eax, %r11d
	andl	$0x6, %eax
	cmpl	$0x6, %eax
	jne	.Lnoise_found
	movl	$0x80000000, %eax
	cpuid
	cmpl	$0x80000001, %eax
	jb	.Lnoise_found
	movl	$0x80000001, %eax
	cpuid
	andl	$0x21, %ecx
	cmpl	$0x21, %ecx
	jne	.Lnoise_found
	movl	$7, %eax
	xorl	%ecx, %ecx
	cpuid
	movl	%ebx, %eax
	andl	$0x128, %ebx
	cmpl	$0x128, %ebx
	jne	.Lnoise_found
	movl	$3, %r10d
	andl	$0xd0030000, %eax
	cmpl	$0xd0030000, %eax
	jne	.Lnoise_found
	andl	$0xe6, %r11d
	cmpl	$0xe6, %r11d
	jne	.Lnoise_found
	movl	$4, %r10d
.Lnoise_found:
	movl	%r10d, %eax
	movl	%eax, noise_processor_level(%rip)
	popq	%rdx
	popq	%rcx
	popq	%rbx
	retq
	.seh_endproc

	.bss
	.globl	noise_processor_level
	.p2align	2
noise_processor_level:
	.zero	4
