# memcpy, memmove and memset of the library for Go, which has no libc: written by hand, as runtime.c is, and not proved.
	.text
	.globl	memcpy
	.type	memcpy, @function
	.p2align	4
memcpy:
	.globl	memmove
	.type	memmove, @function
memmove:					# rdi: to, rsi: from, rdx: count
	movq	%rdi, %rax
	cmpq	$16, %rdx
	jb	.Lfew
	movq	%rdi, %rcx
	subq	%rsi, %rcx
	cmpq	%rdx, %rcx
	jb	.Lbackward
	movdqu	-16(%rsi,%rdx), %xmm0		# the last 16 bytes, before anything is overwritten
	leaq	-16(%rdi,%rdx), %rcx
	cmpq	%rcx, %rdi
	jae	.Lforward_end
.Lforward:
	movdqu	(%rsi), %xmm1
	movdqu	%xmm1, (%rdi)
	addq	$16, %rsi
	addq	$16, %rdi
	cmpq	%rcx, %rdi
	jb	.Lforward
.Lforward_end:
	movdqu	%xmm0, (%rcx)
	ret
.Lbackward:					# the target begins within the source
	movdqu	(%rsi), %xmm0			# the first 16 bytes
	cmpq	$16, %rdx
	jbe	.Lbackward_end
.Lbackward_next:
	subq	$16, %rdx
	movdqu	(%rsi,%rdx), %xmm1
	movdqu	%xmm1, (%rax,%rdx)
	cmpq	$16, %rdx
	ja	.Lbackward_next
.Lbackward_end:
	movdqu	%xmm0, (%rax)
	ret
.Lfew:						# below 16 bytes: two pieces that may overlap, both read before one is written
	cmpl	$8, %edx
	jb	.Lbelow_8
	movq	(%rsi), %rcx
	movq	-8(%rsi,%rdx), %r8
	movq	%rcx, (%rdi)
	movq	%r8, -8(%rdi,%rdx)
	ret
.Lbelow_8:
	cmpl	$4, %edx
	jb	.Lbelow_4
	movl	(%rsi), %ecx
	movl	-4(%rsi,%rdx), %r8d
	movl	%ecx, (%rdi)
	movl	%r8d, -4(%rdi,%rdx)
	ret
.Lbelow_4:
	cmpl	$2, %edx
	jb	.Lbelow_2
	movzwl	(%rsi), %ecx
	movzwl	-2(%rsi,%rdx), %r8d
	movw	%cx, (%rdi)
	movw	%r8w, -2(%rdi,%rdx)
	ret
.Lbelow_2:
	testl	%edx, %edx
	je	.Lnone
	movzbl	(%rsi), %ecx
	movb	%cl, (%rdi)
.Lnone:
	ret
	.size	memmove, .-memmove
	.size	memcpy, .-memcpy

	.globl	memset
	.type	memset, @function
	.p2align	4
memset:						# rdi: to, esi: the byte, rdx: count
	movq	%rdi, %rax
	cmpq	$16, %rdx
	jb	.Lset_few
	movzbl	%sil, %esi
	movd	%esi, %xmm0
	punpcklbw	%xmm0, %xmm0
	punpcklwd	%xmm0, %xmm0
	pshufd	$0, %xmm0, %xmm0
	leaq	-16(%rdi,%rdx), %rcx
.Lset:
	movdqu	%xmm0, (%rdi)
	addq	$16, %rdi
	cmpq	%rcx, %rdi
	jb	.Lset
	movdqu	%xmm0, (%rcx)
	ret
.Lset_few:
	testl	%edx, %edx
	je	.Lset_none
.Lset_next:
	decl	%edx
	movb	%sil, (%rdi,%rdx)
	jne	.Lset_next
.Lset_none:
	ret
	.size	memset, .-memset
	.section	.note.GNU-stack,"",@progbits
