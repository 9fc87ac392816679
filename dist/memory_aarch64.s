// memcpy, memmove and memset of the library for Go, which has no libc: written by hand, as runtime.c is, and not proved.
	.text
	.globl	memcpy
	.type	memcpy, %function
	.p2align	4
memcpy:
	.globl	memmove
	.type	memmove, %function
memmove:					// x0: to, x1: from, x2: count; x0 stays
	cmp	x2, #16
	b.lo	.Lfew
	sub	x3, x0, x1
	cmp	x3, x2
	b.lo	.Lbackward
	add	x4, x1, x2
	ldur	q0, [x4, #-16]			// the last 16 bytes, before anything is overwritten
	add	x4, x0, x2
	sub	x4, x4, #16
	mov	x5, x0
	cmp	x5, x4
	b.hs	.Lforward_end
.Lforward:
	ldr	q1, [x1], #16
	str	q1, [x5], #16
	cmp	x5, x4
	b.lo	.Lforward
.Lforward_end:
	str	q0, [x4]
	ret
.Lbackward:					// the target begins within the source
	ldr	q0, [x1]			// the first 16 bytes
	add	x4, x1, x2
	add	x5, x0, x2
.Lbackward_next:
	cmp	x2, #16
	b.ls	.Lbackward_end
	sub	x2, x2, #16
	ldr	q1, [x4, #-16]!
	str	q1, [x5, #-16]!
	b	.Lbackward_next
.Lbackward_end:
	str	q0, [x0]
	ret
.Lfew:						// below 16 bytes: two pieces that may overlap, both read before one is written
	add	x4, x1, x2
	add	x5, x0, x2
	tbz	x2, #3, .Lbelow_8
	ldr	x6, [x1]
	ldur	x7, [x4, #-8]
	str	x6, [x0]
	stur	x7, [x5, #-8]
	ret
.Lbelow_8:
	tbz	x2, #2, .Lbelow_4
	ldr	w6, [x1]
	ldur	w7, [x4, #-4]
	str	w6, [x0]
	stur	w7, [x5, #-4]
	ret
.Lbelow_4:
	tbz	x2, #1, .Lbelow_2
	ldrh	w6, [x1]
	ldurh	w7, [x4, #-2]
	strh	w6, [x0]
	sturh	w7, [x5, #-2]
	ret
.Lbelow_2:
	cbz	x2, .Lnone
	ldrb	w6, [x1]
	strb	w6, [x0]
.Lnone:
	ret
	.size	memmove, .-memmove
	.size	memcpy, .-memcpy

	.globl	memset
	.type	memset, %function
	.p2align	4
memset:						// x0: to, w1: the byte, x2: count; x0 stays
	cmp	x2, #16
	b.lo	.Lset_few
	dup	v0.16b, w1
	add	x4, x0, x2
	sub	x4, x4, #16
	mov	x5, x0
.Lset:
	str	q0, [x5], #16
	cmp	x5, x4
	b.lo	.Lset
	str	q0, [x4]
	ret
.Lset_few:
	cbz	x2, .Lset_none
	sub	x2, x2, #1
	strb	w1, [x0, x2]
	b	.Lset_few
.Lset_none:
	ret
	.size	memset, .-memset
	.section	.note.GNU-stack,"",%progbits
