# What a text of ggvax needs round it on a VAX without an operating system: a start, `_putchar` and `_getchar` on the console, and a page of
# vectors. For GNU as; docs/assembly.md has the commands. It is loaded at address 0 and begins at `start`, behind the vectors.
# At the end the machine halts: r0 holds the value of `_main`, r1 is 0 at an end, 1 where a divisor was zero, 2 at any other exception.
# Code and data have 7 MiB, the input 1 MiB behind them, the stack 8 MiB behind that.

	.set	input, 0x700000
	.set	top, 0x1000000

	.text
vectors:                        # one address for each kind of exception or interrupt
	.rept	13
	.long	fault
	.endr
	.long	trap            # at 0x34: an arithmetic trap
	.rept	48
	.long	fault
	.endr
	.long	receive         # at 0xf8: the console has received a byte
	.rept	65
	.long	fault
	.endr

	.globl	start
start:
	moval	top,%sp
	clrl	%fp
	mtpr	$0x40,$32       # the console's receiver may interrupt,
	mtpr	$1,$18          # and so may all that ranks over 1
	calls	$0,_main
	clrl	%r1
	halt

	.p2align 2
trap:
	movl	$1,%r1
	halt

	.p2align 2
fault:
	movl	$2,%r1
	halt

# Keeps a byte that was received.
	.p2align 2
receive:
	pushl	%r0
	pushl	%r1
	mfpr	$33,%r0
	movl	received,%r1
	movb	%r0,input(%r1)
	incl	received
	movl	(%sp)+,%r1
	movl	(%sp)+,%r0
	rei

# Writes the low byte of its argument, and answers that byte once it is out.
	.globl	_putchar
_putchar:
	.word	0
	movzbl	4(%ap),%r0
	mtpr	%r0,$35
wait_to_write:
	mfpr	$34,%r0         # the console's transmitter is done by bit 7
	tstb	%r0
	bgeq	wait_to_write
	movzbl	4(%ap),%r0
	ret

# Answers the next byte of the input, or -1 at its end, which is a Control-D. It isn't taken, so the end stays the end.
	.globl	_getchar
_getchar:
	.word	0
	movl	taken,%r0
wait_to_read:
	cmpl	%r0,received
	beql	wait_to_read
	movzbl	input(%r0),%r0
	cmpl	%r0,$4
	beql	over
	incl	taken
	ret
over:
	mnegl	$1,%r0
	ret

	.p2align 2
received:                       # how many bytes came, and how many were read; the data area is the text's alone
	.long	0
taken:
	.long	0
